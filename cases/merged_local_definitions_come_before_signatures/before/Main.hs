h x = f x + g x where
  f 0 = 1
  g y = 2
  f :: Int -> Int
  g :: Int -> Int
main s = show (h 1)
