module Tokens (number, symbol, spaces, token) where
import Char
import Parsing

spaces :: Parser String
spaces = many (satisfy isSpace)

token :: Parser a -> Parser a
token p = let { behind x = spaces `andThen` \ _ -> yield x } in p `andThen` behind

symbol :: Char -> Parser Char
symbol c = token (satisfy same) where same d = ord c == ord d

number :: Parser Int
number = token (many1 (satisfy isDigit) `andThen` (yield . value))
  where
    value = let
        digit n d = n * 10 + digitToInt d
        zero = 0
      in foldl digit zero
