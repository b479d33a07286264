module Circle (Circle, circle, module Point, area, Circle.inside) where
import Point

data Circle = Circle Point Int

circle :: Point -> Int -> Circle
circle = Circle

area (Circle _ r) = 3 * r * r

inside :: Point -> Circle -> Bool
inside p (Circle c r) = dx * dx + dy * dy <= r * r
  where Point dx dy = p .-. c
