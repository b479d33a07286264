module Lexer (Token(..), tokens) where
import Char

-- One token of the input.
data Token = TNum Int | TOp Char

-- Split the text; blanks are skipped.
tokens :: String -> [Token]
tokens [] = []
tokens (c:cs)
  | isSpace c = tokens cs
  | isDigit c = number (c:cs)   -- digits go together
  | otherwise = TOp c : tokens cs

number cs = TNum (value 0 ds) : tokens rest
  where
    (ds, rest) = span isDigit cs
    value n [] = n
    value n (d:xs) = value (n * 10 + digitToInt d) xs
