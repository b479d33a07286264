module A (Tee(..), U(C)) where
data Tee = T
data U = C | D
