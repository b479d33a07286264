f 0 = 1
g x = 2
main s = show (f 5)
