data T = A | B
ff x = case x of A -> 1
                 B -> 2
  where z = 0
main s = show (ff A)
