data T = A | B
p x bee c = (case x of A -> bee, c)
q = let one = 1 in one
main s = show (fst (p A q 2))
