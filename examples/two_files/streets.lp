street(harbour,market).
street(market,station).
street(mill,bridge).
