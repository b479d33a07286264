module Simulation (Event(..), run) where
import Queue
import qualified Queue as Waiting (size)

data Event
  = Arrive Int      -- the customer's number
  | Serve
  | Report

-- The lines that the events leave behind.
run :: [Event] -> [String]
run events = go events empty
  where
    go [] queue =
      [ended queue]
      where
        ended left = "left: " ++ show (Waiting.size left)

    go (event : rest) queue =
      case event of
        Arrive n ->
          go rest (push n queue)

        Serve ->
          case pop queue of
            Nothing        -> "nobody" : go rest queue
            Just (n, left) -> ("served " ++ show n) : go rest left

        Report ->
          reported : go rest queue
          where
            reported = show count ++ " waiting"
            count = size queue
