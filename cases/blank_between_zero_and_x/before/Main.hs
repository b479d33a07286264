y = 1
g a b = a
k = g 0y
main s = s
