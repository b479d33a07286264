module State (State, run, unit, bind, get, put) where

newtype State s a = State (s -> (a, s))

run :: State s a -> s -> (a, s)
run (State f) s = f s

unit :: a -> State s a
unit x = State (\ s -> (x, s))

bind :: State s a -> (a -> State s b) -> State s b
bind m f = State next
  where next s = let (x, s') = run m s
                 in run (f x) s'

get :: State s s
get = State (\ s -> (s, s))

put :: s -> State s ()
put s = State (\ _ -> ((), s))
