plus a b = a `plus` b
g all@(y:ys) = \z -> [w | w <- all, w == z]
main s = s
