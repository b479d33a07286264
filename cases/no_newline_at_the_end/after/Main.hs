g = 1
main s = s