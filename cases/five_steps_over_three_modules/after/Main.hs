module Main where
import Boxes
import qualified Shapes as S

main s = show (content 2 3 4 + S.perimeter 2 3)
