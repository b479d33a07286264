module Shapes (surface, perimeter) where

surface w h = w * h

perimeter w h = 2 * (w + h)
