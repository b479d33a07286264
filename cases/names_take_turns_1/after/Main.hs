h = 1
g = h
main s = s
