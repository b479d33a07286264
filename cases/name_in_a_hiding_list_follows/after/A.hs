module A where
f = 1
h = 2
