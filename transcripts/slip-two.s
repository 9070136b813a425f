 li a0, 1; li a1, 2
