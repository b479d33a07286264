data T = Empty | B Int
f Empty = B 1
f (B n) = Empty
main s = s
