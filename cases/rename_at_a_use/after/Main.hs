f x = k' x 1   -- sums
k' a b = h (a) b
h a b = f a
main s = s
