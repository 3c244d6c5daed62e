% Integers have 64 bits. Division cuts towards zero, and by zero there is none.
least(-9223372036854775808).
most(9223372036854775807).
sum(X + Y) :- least(X), most(Y).
cut(7 / 2, -7 / 2, 7 / -2, -7 / -2).
none(1 / 0).
none(a + 1).
