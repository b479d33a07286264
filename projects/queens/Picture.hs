module Picture (picture) where
import Board (Board)

picture :: Int -> Board -> [String]
picture n board = map row [1 .. n] where
  row r = concatMap (cell r) [1, 2 .. n]
  cell r c = if any (\ (a, b) -> a == r && b == c) board
    then "Q"
    else if (r + c) `mod` 2 == 0 then "." else " "
