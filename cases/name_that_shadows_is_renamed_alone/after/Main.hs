f = 1
g k = k
h = f
main s = show h
