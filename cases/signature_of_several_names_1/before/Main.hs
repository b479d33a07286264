f, g :: Int
f = 1
g = h where
  h :: Int
  h = 2
main s = s
