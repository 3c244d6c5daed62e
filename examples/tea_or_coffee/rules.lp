% Either of the two, and no tea without milk.
tea :- not coffee.
coffee :- not tea.
:- tea, not milk.
