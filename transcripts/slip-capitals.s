  LI a7, 93
