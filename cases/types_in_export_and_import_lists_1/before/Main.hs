module Main where
import A (T(T), U(..))
f :: T -> U
f T = C
main s = s
