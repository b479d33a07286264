module Statement (statement) where
import Account
import Bank (Bank, total)

statement :: Bank -> String
statement bank = unlines (map line bank ++ [last']) where { line a = name a ++ ": " ++ money (balance a)
; last' = "all: " ++ money (total bank) }

money n = let { (whole, cents) = quotRem n 100 ; small = cents < 10 } in
  show whole ++ (if small then ".0" else ".") ++ show cents
