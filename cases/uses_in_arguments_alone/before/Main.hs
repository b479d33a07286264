f a = 1
k = g (f 2) f
g a b = b a
main s = s
