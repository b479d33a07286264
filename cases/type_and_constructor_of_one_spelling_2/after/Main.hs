data U = C Int
f :: U -> U
f (C n) = C n
main s = s
