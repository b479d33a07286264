-- A queue as two lists, the second one in reverse.
module Queue
  ( Queue
  , empty
  , push
  , pop
  , size
  ) where

data Queue a = Queue [a] [a]

empty :: Queue a
empty = Queue [] []

push :: a -> Queue a -> Queue a
push x (Queue front back) = balanced front (x : back)

-- The first element and the rest.
pop :: Queue a -> Maybe (a, Queue a)
pop (Queue front back) =
  case front of
    [] -> Nothing
    (x : rest) -> Just (x, balanced rest back)

size :: Queue a -> Int
size (Queue front back) = length front + length back

balanced front back
  | null front = Queue (reverse back) []
  | otherwise  = Queue front back
