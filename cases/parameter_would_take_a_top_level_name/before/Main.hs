f = 1
g x = f
main s = show (g 2)
