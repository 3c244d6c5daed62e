% The rule goes on forever, and the run ends after as many instances as it may make.
number(0).
number(next(X)) :- number(X).
