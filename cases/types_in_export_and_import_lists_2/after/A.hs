module A (Tee(..), U(Cee)) where
data Tee = T
data U = Cee | D
