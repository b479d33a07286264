module Main where
import Boxes
import qualified Shapes as S

main s = show (volume 2 3 4 + S.around 2 3)
