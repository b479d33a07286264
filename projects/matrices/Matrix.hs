module Matrix where

import Vector

infixl 7 |*|, |*

data Matrix = Rows [Vector]

rows (Rows list) = list

identity :: Int -> Matrix
identity n
  = Rows
  $ map row [1 .. n]
  where row i
          = fromList
          $ [ if i == j then 1 else 0
            | j <- [1 .. n]
            ]

(|*) :: Matrix -> Vector -> Vector
m |* v
  = fromList
  $ map (<.> v)
  $ rows m

(|*|) :: Matrix -> Matrix -> Matrix
a |*| b
  = Rows
  . map (\ r -> fromList (map (r <.>) columns))
  $ rows a
  where columns
          = map fromList
          . transposed
          . map toList
          $ rows b

transposed :: [[a]] -> [[a]]
transposed [] = []
transposed ([] : rest) = transposed rest
transposed ((x : xs) : rest)
  = (x : map head rest)
  : transposed (xs : map tail rest)

power :: Matrix -> Int -> Matrix
power m n
  | n == 0    = identity
              . length
              $ rows m
  | even' n   = half |*| half
  | otherwise = m
            |*| power m (n - 1)
  where half = power m (n `quot` 2)
        even' k = k `rem` 2
               == 0
