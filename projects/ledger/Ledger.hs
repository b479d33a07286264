module Ledger (balance, running, summary) where
import Entry

balance :: [Entry] -> Int
balance es = sum (map amount es)

running es = go 0 es where
	go _ []	= []
	go total (e : rest)
		| isNote e	= go total rest
		| otherwise	= new : go new rest
		where	new	= total + amount e
			unused	= new

summary es = let	notes = filter isNote es
			others = filter (not . isNote) es
	in show (length notes) ++ " notes, " ++ show (length others) ++ " others"
