module Step (execute) where
import Stack
import State (unit, bind)
import Instruction (Instruction(..), Program)

execute :: Int -> Program -> Machine ()
execute fuel program = go fuel program where
  infixr 0 |>
  m |> k = m `andThen` k

  go 0 _ = unit ()
  go _ [] = unit ()
  go n (i : rest) = case i of
    Push k -> push k |> go (n - 1) rest
    Dup -> pop `bind` \ x ->
             push x |> push x |> go (n - 1) rest
    Swap -> pop `bind` \ x -> pop `bind` \ y ->
      push x |> push y |> go (n - 1) rest
    Jump k -> if k <= 0 then go (n - 1) program
              else go (n - 1) (drop k rest)
    Halt -> unit ()
    _ -> binary (case i of Add -> (+)
                           _   -> (*)) |> go (n - 1) rest

binary op = pop `bind` \ y -> pop `bind` \ x -> push (x `op` y)
