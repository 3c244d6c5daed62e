% The last rule has infinitely many instances, of which none is made.
{stop}.
:- not stop.
n(0) :- not stop.
n(f(X)) :- n(X).
