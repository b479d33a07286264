f = 1
g f = f
h = f
main s = show h
