h x = f x where
  f 0 = 1
  g y = 2
main s = show (h 1)
