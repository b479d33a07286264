f :: Int
f = 1
g :: Int
g = 2
main s = show f
