module Instruction where

data Instruction = Push Int
                 | Add | Mul
                 | Dup
                 | Swap
                 | Jump Int
                 | Halt

type Program = [Instruction]
