% The last rule has no instance that is ever due.
p(0).
q(X) :- p(X), not r(X).
r(X) :- p(X), not q(X).
s(X,Y) :- q(X), d(Y).
