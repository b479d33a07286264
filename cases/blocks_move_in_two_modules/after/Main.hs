import A
g x = case longer x of 0 -> 1
                       n -> n
main s = show (g 1)
