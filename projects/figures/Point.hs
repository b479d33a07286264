module Point (Point(..), origin, plus, (.-.)) where

infixl 6 .-.

data Point = Point Int Int

origin = Point 0 0

plus (Point a b) (Point c d) = Point (a + c) (b + d)

Point a b .-. Point c d = Point (a - c) (b - d)
