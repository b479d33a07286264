module Tree (Tree(..), insert, search, toList) where

data Tree a
  = Leaf
  | Node (Tree a) Int a (Tree a)

-- One equation a shape, guards for the order.
insert :: Int -> a -> Tree a -> Tree a
insert k x Leaf = Node Leaf k x Leaf
insert k x (Node l k' y r)
  | k < k'    = Node (insert k x l) k' y r
  | k > k'    = Node l k' y (insert k x r)
  | otherwise = Node l k' x r   -- the new one stands

search :: Int -> Tree a -> Maybe a
search _ Leaf = Nothing
search k (Node l k' x r)
  | k < k'
  = search k l
  | k > k'
  = search k r
search _ (Node _ _ x _) = Just x

toList :: Tree a -> [(Int, a)]
toList Leaf = []
toList (Node l k x r) = toList l ++ (k, x) : toList r
