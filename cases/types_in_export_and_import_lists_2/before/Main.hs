module Main where
import A (Tee(T), U(..))
f :: Tee -> U
f T = C
main s = s
