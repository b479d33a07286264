-- Each function of the two texts beside GHC's, on small arguments: the same value, or a failure in both.
module Main where

import Control.Exception (SomeException, evaluate, try)
import Control.Monad (unless)
import Data.Char (chr)
import qualified Data.Char as C
import qualified OurChar as H
import qualified OurPrelude as O
import System.Exit (exitFailure)

-- What a value shows, up to its failure.
shown :: Show a => a -> IO (Either String String)
shown value = do
  answer <- try (evaluate (forced (show value)))
  pure (case answer of
    Right text -> Right text
    Left failure -> Left (const "fails" (failure :: SomeException)))
  where forced text = length text `seq` text

agree :: (Show a, Show b) => String -> [(a, b)] -> IO Int
agree name pairs = do
  bad <- concat <$> mapM one (zip [0 :: Int ..] pairs)
  unless (null bad) (putStrLn (unlines bad) >> exitFailure)
  pure 1
  where
    one (number, (ours, theirs)) = do
      left <- shown ours
      right <- shown theirs
      pure [name ++ " " ++ show number ++ ": " ++ show left ++ " and not " ++ show right | left /= right]

ints :: [Int]
ints = [-7, -2, -1, 0, 1, 2, 3, 6, 10, minBound, minBound + 1, maxBound - 1, maxBound]

small :: [Int]
small = [-3 .. 5]

lists :: [[Int]]
lists = [[], [4], [3, 1], [1, 2, 3, 4, 5], [5, -1, 5, 2], [0, 0, 7]]

texts :: [String]
texts = ["", "a", "a\n", "\n", "a\nb", "a\n\nb\n", " a  b ", "\t\ta\rb\fc\vd\n", "one two\nthree", "\160x"]

maybes :: O.Maybe a -> Maybe a
maybes (O.Just x) = Just x
maybes O.Nothing = Nothing

two :: (Show a, Show b) => String -> (Int -> Int -> a) -> (Int -> Int -> b) -> IO Int
two name ours theirs = agree name [(ours x y, theirs x y) | x <- ints, y <- ints]

one :: (Show a, Show b) => String -> (Int -> a) -> (Int -> b) -> IO Int
one name ours theirs = agree name [(ours x, theirs x) | x <- ints]

list :: (Show a, Show b) => String -> ([Int] -> a) -> ([Int] -> b) -> IO Int
list name ours theirs = agree name [(ours xs, theirs xs) | xs <- lists]

counted :: (Show a, Show b) => String -> (Int -> [Int] -> a) -> (Int -> [Int] -> b) -> IO Int
counted name ours theirs = agree name [(ours n xs, theirs n xs) | n <- small, xs <- lists]

text :: (Show a, Show b) => String -> (String -> a) -> (String -> b) -> IO Int
text name ours theirs = agree name [(ours s, theirs s) | s <- texts]

-- Haskell's own `words`, with the blanks of the profile alone.
wordsOf :: String -> [String]
wordsOf s = case dropWhile blank s of
  "" -> []
  rest -> let (word, behind) = break blank rest in word : wordsOf behind
  where blank c = c `elem` " \t\n\r\f\v"

firsts :: Show a => [a] -> [a]
firsts = take 12

main :: IO ()
main = do
  counts <- sequence
    [ two "+" (O.+) (+), two "-" (O.-) (-), two "*" (O.*) (*)
    , two "quot" O.quot quot, two "rem" O.rem rem, two "div" O.div div, two "mod" O.mod mod
    , two "max" O.max max, two "min" O.min min, two "subtract" O.subtract subtract
    , agree "^" [(x O.^ n, x ^ n) | x <- ints, n <- [-1 .. 9] ++ [63, 64, 65]]
    , two "gcd" O.gcd gcd98, two "lcm" O.lcm lcm98
    , two "quotRem" O.quotRem quotRem, two "divMod" O.divMod divMod
    , one "negate" O.negate negate, one "abs" O.abs abs, one "signum" O.signum signum
    , one "succ" O.succ succ, one "pred" O.pred pred
    , agree "minBound" [(O.minBound, minBound :: Int)], agree "maxBound" [(O.maxBound, maxBound :: Int)]
    , two "==" (O.==) (==), two "/=" (O./=) (/=), two "<" (O.<) (<), two "<=" (O.<=) (<=)
    , two ">" (O.>) (>), two ">=" (O.>=) (>=), two "compare" O.compare compare
    , one "even" O.even even, one "odd" O.odd odd, one "show" O.show show
    , list "sum" O.sum sum, list "product" O.product product
    , list "maximum" O.maximum maximum, list "minimum" O.minimum minimum
    , counted "elem" O.elem elem, counted "notElem" O.notElem notElem
    , agree "lookup" [(maybes (O.lookup n (zip xs "abcde")), lookup n (zip xs "abcde")) | n <- small, xs <- lists]
    , agree "enumFrom" [(firsts (O.enumFrom n), firsts (enumFrom n)) | n <- ints]
    , two "enumFromThen" (\m n -> firsts (O.enumFromThen m n)) (\m n -> firsts (enumFromThen m n))
    , two "enumFromTo" (\m n -> firsts (O.enumFromTo m n)) (\m n -> firsts (enumFromTo m n))
    , agree "enumFromThenTo"
        [(firsts (O.enumFromThenTo m n l), firsts (enumFromThenTo m n l)) | m <- ints ++ small, n <- ints ++ small, l <- ints ++ small]
    , list "map" (O.map (+ 1)) (map (+ 1))
    , agree "++" [(xs O.++ ys, xs ++ ys) | xs <- lists, ys <- lists]
    , list "filter" (O.filter odd) (filter odd)
    , agree "concat" [(O.concat lists, concat lists)]
    , list "concatMap" (O.concatMap (replicate 2)) (concatMap (replicate 2))
    , list "head" O.head head, list "last" O.last last, list "tail" O.tail tail, list "init" O.init init
    , list "null" O.null null, list "length" O.length length
    , counted "!!" (flip (O.!!)) (flip (!!))
    , list "foldl" (O.foldl (-) 1) (foldl (-) 1), list "foldl1" (O.foldl1 (-)) (foldl1 (-))
    , list "scanl" (O.scanl (-) 1) (scanl (-) 1), list "scanl1" (O.scanl1 (-)) (scanl1 (-))
    , list "foldr" (O.foldr (-) 1) (foldr (-) 1), list "foldr1" (O.foldr1 (-)) (foldr1 (-))
    , list "scanr" (O.scanr (-) 1) (scanr (-) 1), list "scanr1" (O.scanr1 (-)) (scanr1 (-))
    , one "iterate" (\x -> firsts (O.iterate (* 3) x)) (\x -> firsts (iterate (* 3) x))
    , one "repeat" (firsts . O.repeat) (firsts . repeat)
    , agree "replicate" [(O.replicate n 'x', replicate n 'x') | n <- small]
    , list "cycle" (firsts . O.cycle) (firsts . cycle)
    , counted "take" O.take take, counted "drop" O.drop drop, counted "splitAt" O.splitAt splitAt
    , counted "takeWhile" (\n -> O.takeWhile (> n)) (\n -> takeWhile (> n))
    , counted "dropWhile" (\n -> O.dropWhile (> n)) (\n -> dropWhile (> n))
    , counted "span" (\n -> O.span (> n)) (\n -> span (> n)), counted "break" (\n -> O.break (> n)) (\n -> break (> n))
    , text "lines" O.lines lines, text "words" O.words wordsOf
    , agree "unlines" [(O.unlines texts, unlines texts)], agree "unwords" [(O.unwords texts, unwords texts), (O.unwords [], "")]
    , list "reverse" O.reverse reverse
    , list "and" (O.and . map odd) (and . map odd), list "or" (O.or . map odd) (or . map odd)
    , list "any" (O.any odd) (any odd), list "all" (O.all odd) (all odd)
    , agree "zip" [(O.zip xs ys, zip xs ys) | xs <- lists, ys <- lists]
    , agree "zip3" [(O.zip3 xs ys "abc", zip3 xs ys "abc") | xs <- lists, ys <- lists]
    , agree "zipWith" [(O.zipWith (-) xs ys, zipWith (-) xs ys) | xs <- lists, ys <- lists]
    , agree "zipWith3" [(O.zipWith3 f xs ys xs, zipWith3 f xs ys xs) | xs <- lists, ys <- lists]
    , list "unzip" (\xs -> O.unzip (zip xs "abc")) (\xs -> unzip (zip xs "abc"))
    , list "unzip3" (\xs -> O.unzip3 (zip3 xs xs "abc")) (\xs -> unzip3 (zip3 xs xs "abc"))
    , one "id" O.id id, two "const" O.const const, two "." (\x -> (+ x) O.. (* 2)) (\x -> (+ x) . (* 2))
    , two "flip" (O.flip (-)) (flip (-)), one "$" ((+ 1) O.$) ((+ 1) $), one "$!" ((+ 1) O.$!) ((+ 1) $!)
    , agree "seq" [(O.seq 'a' 'b', 'b'), (O.seq (undefined :: Int) 'b', undefined :: Char)]
    , one "until" (O.until (> 100) (+ 7) . max 0 . min 5) (until (> 100) (+ 7) . max 0 . min 5)
    , two "asTypeOf" O.asTypeOf asTypeOf
    , agree "error" [(O.error "x" :: Int, error "x" :: Int)], agree "undefined" [(O.undefined :: Int, undefined :: Int)]
    , agree "maybe" [(O.maybe 1 (+ 1) O.Nothing, 1 :: Int), (O.maybe 1 (+ 1) (O.Just 4), 5)]
    , agree "either" [(O.either length id (O.Left "ab"), 2 :: Int), (O.either (length :: String -> Int) id (O.Right 7), 7)]
    , agree "not" [(O.not x, not x) | x <- [False, True]], agree "otherwise" [(O.otherwise, otherwise)]
    , agree "&&" ((False O.&& undefined, False) : [(x O.&& y, x && y) | x <- [False, True], y <- [False, True]])
    , agree "||" ((True O.|| undefined, True) : [(x O.|| y, x || y) | x <- [False, True], y <- [False, True]])
    , agree "fst" [(O.fst (1 :: Int, 'a'), 1 :: Int)], agree "snd" [(O.snd (1 :: Int, 'a'), 'a')]
    , two "curry" (O.curry fst) (curry fst), two "uncurry" (curry (O.uncurry (-))) (-)
    , agree "ord" [(H.ord c, fromEnum c) | c <- characters]
    , agree "chr" [(H.chr n, chr n) | n <- [-1, 0, 65, 0x10FFFF, 0x110000]]
    , agree "isDigit" [(H.isDigit c, C.isDigit c) | c <- ascii], agree "isSpace" [(H.isSpace c, C.isSpace c) | c <- ascii]
    , agree "isAlpha" [(H.isAlpha c, C.isAlpha c) | c <- ascii], agree "isUpper" [(H.isUpper c, C.isUpper c) | c <- ascii]
    , agree "isLower" [(H.isLower c, C.isLower c) | c <- ascii]
    , agree "digitToInt" [(H.digitToInt c, C.digitToInt c) | c <- ascii]
    , agree "intToDigit" [(H.intToDigit n, C.intToDigit n) | n <- [-1 .. 17]]
    ]
  putStrLn (show (sum counts) ++ " functions agree")
  where
    f x y z = x * 100 + y * 10 + z
    ascii = ['\0' .. '\127']
    characters = ascii ++ "\160\955\1114111"
    gcd98 0 0 = error "gcd 0 0"
    gcd98 x y = near (abs x) (abs y)
    near x 0 = x
    near x y = near y (x `rem` y)
    lcm98 _ 0 = 0
    lcm98 0 _ = 0
    lcm98 x y = abs ((x `quot` gcd98 x y) * y)
