% Which places are reached from a, and which aren't.
edge(a,b). edge(b,c). edge(c,a). edge(d,a).
reached(a).
reached(Y) :- reached(X), edge(X,Y).
unreached(X) :- edge(X,Y), not reached(X).
