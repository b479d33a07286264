f a b = a `f` b
g x@(y:ys) = \z -> [w | w <- x, w == z]
main s = s
