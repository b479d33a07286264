as = 1
main s = s
