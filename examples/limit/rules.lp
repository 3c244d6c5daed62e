% There are two sets. Where as many are written as may be, the run ends, and says nothing of further ones.
left :- not right.
right :- not left.
