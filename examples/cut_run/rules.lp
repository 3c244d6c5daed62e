{soup; salad}.
{bread} :- soup.
