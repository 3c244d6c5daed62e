% Each guest of the list may be invited, and each may bring a dish of hers; the conditions say which elements there are.
guest(ann). guest(bob).
dish(ann, soup).
{invited(X) : guest(X)}.
{brings(X, D) : dish(X, D)} :- invited(X).
-invited(X) :- guest(X), not invited(X).
