data T = T Int
f :: T -> T
f (T n) = T n
main s = s
