module L (module A, module B) where
import A
import B
import M
