plus a b = a `plus` b
g all@(y:ys) = \n -> [v | v <- all, v == n]
main s = s
