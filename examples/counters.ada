-- Counters that stop at a limit.
--| trait COUNTS is introduces NEXT : INT -> INT;
--| asserts for all N : INT  NEXT(N) == N + 1;
--| implies for all N : INT  GROWS : N < NEXT(N); end trait;

package Counters is  limit: constant := 0_9;
   type count is range 0..limit;   full: exception;

   procedure step(c: in out count; by_two: boolean);
   --| where out by_two or C = NEXT(in C);   -- one step, or two
   --|       raise FULL => C = LIMIT; end where;
end;

package body COUNTERS is
   -- The counter stays as it is where it is full.
   procedure Step(C: in out Count; By_Two: in Boolean) is
   begin
      if c = limit then raise full;
      elsif by_two and then c < (limit - 1) then c := c + 2;
      else c := ((c) + 1);    -- the last step
      end if;
   end;
end Counters;

--| proof of COUNTS.GROWS is unfold NEXT [linear (1)] end proof;
