module Main where
import Figure
import Square (corners)

picture = Round (circle origin 5) :|: Flat (square (Point 3 4) 6)
      :|: Flat (square origin 1)

main s = show (area picture) ++ concatMap mark (corners (square origin (length s)))
  where mark p | inside p picture = "#"
               | otherwise        = "."
