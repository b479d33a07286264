module A where
f = 1
