data T = A | B
t x = case x of A -> 1
                B -> 2
               + 3
main s = show (t A)
