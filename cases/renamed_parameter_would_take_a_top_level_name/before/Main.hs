f = 1
g x = f + x
main s = show (g 2)
