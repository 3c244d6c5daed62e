% An equation gives a variable the value of its other side, from either side; a variable that stands twice has one value.
n(1). n(3).
next(X, Y) :- n(Y), X = Y + 1.
after(Y, X) :- n(Y), Y + 1 = X.
edge(1, 1). edge(1, 2).
loop(X) :- edge(X, X).
pair(f(a, b)). pair(f(b, b)). pair(g(c)).
left(X) :- pair(f(X, _)).
both(X) :- pair(f(X, X)).
% A rule whose comparison is false has no instance, whatever the terms behind it are.
never(X) :- n(X), X > 5, X * 9223372036854775807 > 0.
never(X) :- n(X), X / 0 = 1.
