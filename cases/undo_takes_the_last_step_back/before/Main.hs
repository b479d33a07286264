module Main where
import qualified A as Q
import B
main s = show (Q.f (h (f 3)))
