total x = x
g f = f
h = total 1
main s = s
