module Bank where {
  import qualified Account as A ;
  import Account (Account) ;

  type Bank = [Account] ;

  -- Applies what is to be done to one account.
  at :: Int -> (Account -> Either String Account) -> Bank -> Either String Bank ;
  at _ _ [] = Left "no such account" ;
  at 0 f (a : rest) = case f a of {
      Left why -> Left why ;
      Right new -> Right (new : rest)
    } ;
  at n f (a : rest) = let { go = at (n - 1) f rest } in either Left (Right . (a :)) go ;

  transfer :: Int -> Int -> Int -> Bank -> Either String Bank ;
  transfer amount from to bank = either Left put taken
    where {
      taken = at from (A.withdraw amount) bank ;
      put new = at to (Right . A.deposit amount) new
    } ;

  total bank = sum (map A.balance bank) ; ;
}
