data U = T Int
f :: U -> U
f (T n) = T n
main s = s
