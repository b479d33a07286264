module Main where
import Lexer
import qualified Parser as P
import Parser (Expr(..))

infixr 5 +++
a +++ b = a ++ "=" ++ b

eval :: Expr -> Int
eval e = case e of
  Num n -> n
  Bin o l r -> apply o (eval l) (eval r)

apply '+' a b = a + b
apply '-' a b = a - b
apply _ a b = a * b

-- One line of the answer.
answer line = line +++ show (eval (P.parse (tokens line)))

main s = unlines (map answer (lines s))
