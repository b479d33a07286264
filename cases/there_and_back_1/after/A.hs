module A where
longer x = x + 1
g x = longer x
