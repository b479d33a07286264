f x = a + b where
  a = 1
  b = 2
main s = show (f 1)
