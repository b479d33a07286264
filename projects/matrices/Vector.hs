module Vector (Vector, (<+>), (<.>), scaled, fromList, toList) where

infixl 6 <+>
infixl 7 <.>

newtype Vector = Vector [Int]

fromList = Vector

toList (Vector xs) = xs

(<+>) :: Vector -> Vector -> Vector
Vector xs <+> Vector ys = Vector (zipWith (+) xs ys)

(<.>) :: Vector -> Vector -> Int
Vector xs <.> Vector ys
  = sum
  . zipWith (*) xs
  $ ys

n `scaled` Vector xs = Vector (map (n *) xs)
