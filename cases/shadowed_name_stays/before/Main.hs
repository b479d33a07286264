f x = x
g f = f
h = f 1
main s = s
