h = 1
f = h
main s = s
