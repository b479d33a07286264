module Boxes (volume) where
import Shapes

volume w h d = area w h * d
