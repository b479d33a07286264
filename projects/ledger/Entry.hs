module Entry where

data Entry	= Income Int
	| Expense Int	-- what was paid
	| Note String

amount :: Entry -> Int
amount e = case e of
	Income n	-> n
	Expense n	-> negate n
	Note _		-> 0

isNote (Note _)	= True
isNote _	= False
