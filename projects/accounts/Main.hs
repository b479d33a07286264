{
import Account (Account(..)) ;
import Bank (transfer, Bank) ;
import Statement ;

start :: Bank ;
start = [Account "Ann" 12000, Account "Bob" 305] ;

main :: String -> String ;
main s = case transfer (100 * length s) 0 1 start of {
  Left why -> why ++ "\n" ; Right bank -> statement bank }
}
