g a b = a + b
y = 1
k = g 0y
main s = show k
