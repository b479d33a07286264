f = 1
main s = s
