f x = g x 1
g a b = a
main s = show (f 2)
