module Main where
import qualified A as Q
import B
main s = show (Q.longer (h (longer 3)))
