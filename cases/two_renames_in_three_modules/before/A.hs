module A where
f x = x + 1
g x = f x
