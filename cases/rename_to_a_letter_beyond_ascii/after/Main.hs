é x = g x 1   -- sums
g a b = h (a) b
h a b = é a
main s = s
