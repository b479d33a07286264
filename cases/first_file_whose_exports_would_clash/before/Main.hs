import L
main s = s
