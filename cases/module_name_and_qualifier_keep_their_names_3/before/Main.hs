module Main where
import qualified A as Q
main s = show Q.f
