wherever_1 x = g x 1   -- sums
g a b = h (a) b
h a b = wherever_1 a
main s = s
