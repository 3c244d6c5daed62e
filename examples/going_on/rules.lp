% A meal: soup or not, salad or not, and bread beside a soup or not. The file of sets is what an earlier run wrote until it was cut off,
% with a line that somebody wrote again.
{soup; salad}.
{bread} :- soup.
