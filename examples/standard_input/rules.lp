p(a). q(b) :- p(a), not p(b).
