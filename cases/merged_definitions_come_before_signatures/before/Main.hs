f 0 = 1
g x = 2
f :: Int -> Int
g :: Int -> Int
main s = show (f 5)
