import A hiding (h)
g = 3
main s = show (f + g)
