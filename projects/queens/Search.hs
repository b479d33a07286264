module Search (solutions) where
import Board

solutions :: Int -> [Board]
solutions n = go n
  where
  go 0 = [empty]
  go k = [place q board | board <- go (k - 1), q <- candidates k, safe q board]
  candidates = \ k -> zip (repeat k) [n, n - 1 .. 1]
