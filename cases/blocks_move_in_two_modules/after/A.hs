module A where
longer x = case x of 0 -> 1
                     n -> n
