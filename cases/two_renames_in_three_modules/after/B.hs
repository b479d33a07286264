module B (module A, h) where
import A hiding (k)
h y = inc (inc y)
