module Boxes (content) where
import Shapes

content w h d = surface w h * d
