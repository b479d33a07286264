module B (module A, h) where
import A hiding (g)
h y = inc (inc y)
