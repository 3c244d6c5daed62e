lamp_is_lit :- fire_burns.
fire_burns :- lamp_is_lit.
door_is_open :- key_is_there.
key_is_there.
