module B (module A, h) where
import A hiding (g)
h y = f (f y)
