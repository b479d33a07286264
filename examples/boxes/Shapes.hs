module Shapes (area, around) where

area w h = w * h

around w h = 2 * (w + h)
