t = [1]
main s = s
