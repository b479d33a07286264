import Shapes
main s = case area 2 3 of 6 -> "six"
                          _ -> s
