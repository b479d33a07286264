xF = 1
g a b = a
k = g 0 xF
main s = s
