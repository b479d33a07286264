module Main(main)where
import Search(solutions);import Picture
main s=case solutions n of{[]->"none\n";b:_->unlines(picture n b)}where n=max 1(min 8(length s))
