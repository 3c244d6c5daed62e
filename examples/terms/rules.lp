p(f(1)).
q("a b",-2) :- p(f(1)), not r.
