data T = A | B
f x = case x of
  A -> z
  B -> 2
  where z = 1
main s = show (f B)
