f = - 1
g = 2 - f
main s = s
