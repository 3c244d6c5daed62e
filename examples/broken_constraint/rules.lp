booked_at_nine :- visit.
booked_at_ten :- visit.
visit.
:- booked_at_nine, booked_at_ten.
