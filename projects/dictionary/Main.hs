module Main where
import Tree (toList)
import Words

main s = unlines (map line (toList (counted s)))

line (n, k)
  | k == 1    = show n ++ ": once"
  | k == 2    = show n ++ ": twice"
  | k > limit = show n ++ ": often"
  | otherwise = show n ++ ": " ++ show k
  where limit = 9
