plus a b = a `plus` b
g all@(y:ys) = \n -> [w | w <- all, w == n]
main s = s
