words = 1
main s = s
