two a = 1
k = g (two 2) two
g a b = b a
main s = s
