k = 1
g f = f
h = k
main s = show h
