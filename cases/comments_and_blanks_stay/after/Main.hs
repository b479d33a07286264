-- sums, f

total  x =  x   -- f
h = total  1 
main s = s
