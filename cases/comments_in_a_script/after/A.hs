module A where
inc x = x + 1
k x = inc x
