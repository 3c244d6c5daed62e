winter.
cold :- winter
