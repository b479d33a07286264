module B where
g = 2
