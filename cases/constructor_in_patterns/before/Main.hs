data T = A | B Int
f A = B 1
f (B n) = A
main s = s
