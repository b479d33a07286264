module B (module A, h) where
import A hiding (g)
h y = longer (longer y)
