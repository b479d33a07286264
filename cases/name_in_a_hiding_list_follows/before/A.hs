module A where
f = 1
g = 2
