f = 1
g = 2
main s = show f
