module Words (counted) where
import Tree
import Char (isAlpha, ord)

-- How often words of each length stand in a text.
counted :: String -> Tree Int
counted = foldr count Leaf . map length . filter good . words
  where
    count n tree
      | known     = insert n (k + 1) tree
      | otherwise = insert n 1 tree
      where found = search n tree
            known = case found of Just _  -> True
                                  Nothing -> False
            k = case found of
              Just m | m > 0     -> m
                     | otherwise -> 0
              Nothing -> 0
    good w = all isAlpha w
