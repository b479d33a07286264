f = g
main s = s
