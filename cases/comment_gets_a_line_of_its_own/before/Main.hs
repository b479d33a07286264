infixl 6 --|
a --| b = a - b
data T = A | B
total x = case x of A -> 1 --| 2
{- twelve chars -}  B -> 2
	where z = 0
main s = show (total A)
