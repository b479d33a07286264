f x = \y -> x
main s = show (f 1 2)
