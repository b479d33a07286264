import M
main s = s
