module Main where
import qualified A as Q
import B
main s = show (Q.inc (h (inc 3)))
