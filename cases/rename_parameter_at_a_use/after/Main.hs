f x = g x 1   -- sums
g left b = h (left) b
h a b = f a
main s = s
