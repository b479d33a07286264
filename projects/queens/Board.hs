module Board (Board, place, safe, empty, Square) where

type Square = (Int, Int)
type Board = [Square]

empty :: Board
empty = []

place :: Square -> Board -> Board
place = (:)

-- Whether no queen of the board takes the square.
safe :: Square -> Board -> Bool
safe (r, c) = all free
  where free (r', c') = not (r == r') && not (c == c')
                          && abs (r - r') /= abs (c - c')
