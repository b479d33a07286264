plus a b = a `plus` b
g x@(y:ys) = \z -> [w | w <- x, w == z]
main s = s
