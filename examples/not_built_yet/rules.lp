it_rains.
take(umbrella) :- it_rains, not indoors.
{take(hat); take(coat)} = 1 :-
    it_rains.
