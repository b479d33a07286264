main s = s
