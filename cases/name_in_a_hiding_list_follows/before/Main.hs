import A hiding (g)
g = 3
main s = show (f + g)
