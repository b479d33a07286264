module Grammar (sums) where
import Parsing
import Tokens

sums, products, atoms :: Parser Int
sums = products `andThen` more
  where more n = let plus  = symbol '+' `andThen` \ _ -> products `andThen` \ m -> more (n + m)
                     minus = symbol '-' `andThen` \ _ ->
                               products `andThen` \ m ->
                               more (n - m)
                 in plus <|> minus <|> yield n

products = atoms `andThen` more where
  more n = times n <|> yield n
  times n = let go _ = let next m = more (n * m)
                       in atoms `andThen` next
            in symbol '*' `andThen` go

atoms = number <|> inside
  where inside = let open  = symbol '('
                     close = symbol ')'
                     keep n = close `andThen` \ _ -> yield n
                 in open `andThen` \ _ -> sums `andThen` keep
