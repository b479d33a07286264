data T = A | B
total x = case x of A -> 1
                    B -> 2
                  + 3
main s = show (total A)
