tea :- not coffee.
coffee :- not tea.
