import A hiding (zz)
main s = show f
