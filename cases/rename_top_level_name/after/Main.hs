total x = g x 1   -- sums
g a b = h (a) b
h a b = total a
main s = s
