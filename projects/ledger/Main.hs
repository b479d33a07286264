module Main where
import Entry
import Ledger
import Char

entry :: String -> Entry
entry line = case line of
	'+' : rest	-> Income (number rest)
	'-' : rest	-> Expense (number rest)
	_		-> Note line
  where	number ds = foldl digit 0 (takeWhile isDigit ds)
	digit n d = n * 10 + digitToInt d

main s =	let es = map entry (lines s) in
	unlines (map show (running es) ++ [summary es, show (balance es)])
