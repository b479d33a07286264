import qualified A as Q
main s = show (1 Q.<> 2)
