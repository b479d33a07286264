f, k :: Int
f = 1
k = z where
  z :: Int
  z = 2
main s = s
