module Main where
import State (run)
import Step
import Reader (program)

main s = unlines [line | line <- map show (snd (run (execute 1000 (program s)) []))]
