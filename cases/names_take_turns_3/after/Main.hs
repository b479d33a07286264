g = 1
f = g
main s = s
