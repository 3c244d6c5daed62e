% A weekend: a hike may be made where it is known not to rain, and the museum may be visited.
{hike : -rain; museum}.
% It may be known to rain, or not to rain, or neither. Both at once is never so.
{rain; -rain}.
% Something is done, and not both.
:- not hike, not museum.
:- hike, museum.
