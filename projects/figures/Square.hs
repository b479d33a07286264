module Square (Square(), square, area, inside, corners) where
import Point as P

data Square = Square P.Point Int

square = Square

area, side :: Square -> Int
area s = side s * side s
side (Square _ n) = n

inside (P.Point x y) (Square (P.Point a b) n) =
  between a x && between b y
  where between low v = v >= low && v <= low + n

corners :: Square -> [Point]
corners (Square p n) = [p `plus` Point x y | x <- [0, n], y <- [0, n]]
