% Seven pigeons and six holes: each pigeon sits in one hole, and no two share one. There is no such set, which takes learning to see soon.
pigeon(1). pigeon(2). pigeon(3). pigeon(4). pigeon(5). pigeon(6). pigeon(7).
hole(1). hole(2). hole(3). hole(4). hole(5). hole(6).
in(P, H) :- pigeon(P), hole(H), not out(P, H).
out(P, H) :- pigeon(P), hole(H), not in(P, H).
:- out(P, 1), out(P, 2), out(P, 3), out(P, 4), out(P, 5), out(P, 6).
:- in(P, H), in(Q, H), P < Q.
:- in(P, H), in(P, J), H < J.
