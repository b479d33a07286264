module Figure (Figure(..), area, inside, module Circle, S.square) where
import Circle hiding (area, inside)
import qualified Circle as C
import qualified Square as S

data Figure = Round C.Circle | Flat S.Square | Figure :|: Figure

infixr 4 :|:

area :: Figure -> Int
area (Round c) = C.area c
area (Flat s) = S.area s
area (a :|: b) = area a + Figure.area b

inside :: Point -> Figure -> Bool
inside p (Round c) = p `C.inside` c
inside p (Flat s) = p `S.inside` s
inside p (a :|: b) = inside p a || p `inside` b
