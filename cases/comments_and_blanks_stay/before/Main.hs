-- sums, f

f  x =  x   -- f
h = f  1 
main s = s
