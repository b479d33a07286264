f x = x
main s = s
