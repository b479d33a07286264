data T = A | B
p x bee c = (case x of A -> bee, c)
q = let x = 1 in x
main s = show (fst (p A q 2))
