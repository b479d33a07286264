module Parser (Expr(..), parse) where
import Lexer

data Expr = Num Int | Bin Char Expr Expr

{- Sums of products, from left to right. -}
parse ts = fst (sums ts)

sums ts = more (terms ts)
  where
    more (l, TOp o : us)
      | isSum o = let (r, vs) = terms us
                  in more (Bin o l r, vs)
    more done = done

isSum '+' = True
isSum '-' = True
isSum _ = False

terms ts = loop (atom ts)
  where loop (l, TOp '*' : us) = let (r, vs) = atom us in loop (Bin '*' l r, vs)
        loop done = done

atom (TNum n : us) = (Num n, us)
atom us = (Num 0, us)
