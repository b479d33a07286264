module A (T(..), U(C)) where
data T = T
data U = C | D
