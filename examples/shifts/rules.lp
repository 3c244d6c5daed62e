% Who works in which shift: each shift has one of two people, nobody works two shifts in a row, and who is away doesn't work.
person(ann). person(bob).
shift(1). shift(2). shift(3).
away(bob, 1).
works(P, S) :- person(P), shift(S), not away(P, S), not rests(P, S).
rests(P, S) :- person(P), shift(S), not works(P, S).
:- works(P, S), works(P, T), T = S + 1.
:- shift(S), rests(ann, S), rests(bob, S).
:- shift(S), works(ann, S), works(bob, S).
