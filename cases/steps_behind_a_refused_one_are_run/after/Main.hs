f z = \y -> z
main s = show (f 1 2)
