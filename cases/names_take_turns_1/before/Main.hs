f = 1
g = f
main s = s
