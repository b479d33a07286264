total x = g x 1
g a b = a
main s = show (total 2)
