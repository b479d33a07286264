f main = main
main s = s
