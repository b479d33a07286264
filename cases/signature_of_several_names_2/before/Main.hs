f, k :: Int
f = 1
k = h where
  h :: Int
  h = 2
main s = s
