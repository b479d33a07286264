-- The primitives, at their types, by GHC's Int, which has 64 bits and wraps.
module Given where

import Prelude (Bool, Char, Int, Ordering, String, (.))
import qualified Data.Char as C
import qualified Prelude as P

(+), (-), (*), quot, rem, div, mod, max, min :: Int -> Int -> Int
(+) = (P.+)
(-) = (P.-)
(*) = (P.*)
quot = P.quot
rem = P.rem
div = P.div
mod = P.mod
max = P.max
min = P.min

quotRem, divMod :: Int -> Int -> (Int, Int)
quotRem = P.quotRem
divMod = P.divMod

negate, abs, signum, succ, pred :: Int -> Int
negate = P.negate
abs = P.abs
signum = P.signum
succ = P.succ
pred = P.pred

minBound, maxBound :: Int
minBound = P.minBound
maxBound = P.maxBound

(==), (/=), (<), (<=), (>), (>=) :: Int -> Int -> Bool
(==) = (P.==)
(/=) = (P./=)
(<) = (P.<)
(<=) = (P.<=)
(>) = (P.>)
(>=) = (P.>=)

compare :: Int -> Int -> Ordering
compare = P.compare

show :: Int -> String
show = P.show

seq :: a -> b -> b
seq = P.seq

error :: String -> a
error text = P.error text

ord :: Char -> Int
ord = C.ord

chr :: Int -> Char
chr = C.chr
