module Stack where
import State

type Machine a = State [Int] a

push :: Int -> Machine ()
push n = get `bind` \ stack -> put (n : stack)

pop :: Machine Int
pop = get `bind` \ stack -> case stack of
  []       -> unit 0
  n : rest -> put rest `bind` \ _ ->
              unit n

infixl 1 `andThen`
m `andThen` k = m `bind` \ _ -> k
