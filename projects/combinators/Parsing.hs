module Parsing where

type Parser a = String -> [(a, String)]

-- What takes nothing.
yield :: a -> Parser a
yield x = \ rest -> [(x, rest)]

failure :: Parser a
failure _ = []

item :: Parser Char
item []       = []
item (c : cs) = [(c, cs)]

infixl 4 <*.>
infixr 3 <|>

andThen :: Parser a -> (a -> Parser b) -> Parser b
andThen p f = \ input ->
  [ result | (x, rest) <- p input, let q = f x, result <- q rest ]

(<|>) :: Parser a -> Parser a -> Parser a
p <|> q = \ input -> let first = p input
                         second = q input
                     in if null first then second
                                      else first

(<*.>) :: Parser (a -> b) -> Parser a -> Parser b
p <*.> q = p `andThen` \ f ->
           q `andThen` \ x ->
           yield (f x)

satisfy :: (Char -> Bool) -> Parser Char
satisfy holds = item `andThen` \ c -> if holds c then yield c else failure

many, many1 :: Parser a -> Parser [a]
many p = many1 p <|> yield []
many1 p = let cons x xs = x : xs in
          yield cons <*.> p <*.> many p
