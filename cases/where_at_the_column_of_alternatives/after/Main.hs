data T = A | B
long x = case x of
  A -> z
  B -> 2
  where z = 1
main s = show (long B)
