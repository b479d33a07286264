f x = g x 1   -- sums
g a b = h (a) b
h a b = f a
main s = s
