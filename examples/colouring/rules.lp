% A strip of triangles in three colours: with two neighbours coloured, all others follow, whatever is tried first.
node(1). node(2). node(3). node(4). node(5). node(6). node(7). node(8). node(9). node(10).
edge(X, Y) :- node(X), node(Y), Y = X + 1.
edge(X, Y) :- node(X), node(Y), Y = X + 2.
colour(red). colour(green). colour(blue).
{has(X, C)} :- node(X), colour(C).
:- node(X), not has(X, red), not has(X, green), not has(X, blue).
:- has(X, C), has(X, D), C < D.
:- edge(X, Y), has(X, C), has(Y, C).
:- not has(1, red).
:- not has(2, green).
