import A
g = f
main s = show g
