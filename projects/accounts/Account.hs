module Account (Account(Account), name, balance, deposit, withdraw) where {
import Prelude hiding (name) ;

data Account = Account String Int ;

name :: Account -> String ;
name (Account n _) = n ;

balance :: Account -> Int ;
balance (Account _ b) = b ;

deposit :: Int -> Account -> Account ;
deposit k (Account n b) = Account n (b + k) ;

withdraw :: Int -> Account -> Either String Account ;
withdraw k a
  | k > balance a = Left (name a ++ " has not got " ++ show k)
  | otherwise = case a of { Account n b -> Right (Account n (b - k)) }
}
