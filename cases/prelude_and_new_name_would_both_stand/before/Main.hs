f = 1
main s = show f
