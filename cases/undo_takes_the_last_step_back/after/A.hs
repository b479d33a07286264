module A where
inc x = x + 1
g x = inc x
