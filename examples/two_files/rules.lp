% Who is reached over the streets that another file lists.
reached(harbour).
reached(Y) :- reached(X), street(X,Y). % no line feed stands behind this