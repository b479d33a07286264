import Matrix hiding (identity)
import Vector
import qualified Matrix (identity)

-- Numbers of Fibonacci, by powers of a matrix.
step = Rows [ fromList [1, 1]
            , fromList [1, 0]
            ]

fibonacci n
  = head
  . toList
  $ power step n |* fromList [0, 1] <+> 0 `scaled` fromList [1, 1]

unit = Matrix.identity 2 |*| step

main s
  = unlines
  . map show
  . map fibonacci
  $ [ 1
    , 2
    , length s
    ]
  ++ concatMap toList (rows unit)
