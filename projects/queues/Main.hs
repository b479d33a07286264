module Main
  where

import Char (isDigit, digitToInt)
import Simulation

main :: String -> String
main input = unlines (run (events 1 input))

events :: Int -> String -> [Event]
events _ [] = []
events next (c : cs)
  | is 'a' c = Arrive next : events (next + 1) cs
  | is 's' c = Serve : events next cs
  | isDigit c = replicate (digitToInt c) Serve ++ events next cs
  | otherwise = reports
  where
  reports = Report : events next cs

is :: Char -> Char -> Bool
is 'a' 'a' = True
is 's' 's' = True
is _   _   = False
