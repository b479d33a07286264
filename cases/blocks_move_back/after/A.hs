module A where
f x = case x of 0 -> 1
                n -> n
