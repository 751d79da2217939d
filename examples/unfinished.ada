procedure SET (X, Y : in out INTEGER)
--| where in Y = 3; out X = 3; out Y = in Y; end where;
is begin
