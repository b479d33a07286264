main s = show 1
