module Reader (program) where
import Char
import Instruction

program :: String -> Program
program = concatMap one where
  one c | isDigit c = [Push (digitToInt c)]
        | otherwise = maybe [] return' (lookup (ord c) table)
  return' x = [x]
  table = [ (ord '+', Add), (ord '*', Mul)   -- the two operators
          , (ord 'd', Dup)
          , (ord 's', Swap), (ord '.', Halt)
          , (ord 'j', Jump 1)
          ]
