data T = A | B
p x b c = (case x of A -> b, c)
q = let x = 1 in x
main s = show (fst (p A q 2))
