% A bird flies where nothing is known against it. No rule says that tweety is grounded, and nothing says that robin is hurt.
bird(tweety). bird(pingu). bird(robin).
penguin(pingu).
grounded(pingu) :- penguin(pingu).
grounded(robin) :- hurt(robin).
flies(tweety) :- bird(tweety), not grounded(tweety).
flies(pingu) :- bird(pingu), not grounded(pingu).
flies(robin) :- bird(robin), not grounded(robin).
