module Main (main) where
import Grammar (sums)
import Parsing
import Tokens (spaces)

whole p input = [ x | (x, rest) <- start input, null rest ]
  where start = spaces `andThen` const p

calculated line =
  let answers = whole sums line
      shown = [ show n | n <- answers ]
  in case shown of
       []      -> line ++ "?"
       (x : _) -> let eq = " = " in line ++ eq ++ x

main s = unlines [ calculated line | line <- lines s, let blank = null line, not blank ]
