g a b = a + b
xF = 1
k = g 0 xF
main s = show k
