 j 1b
