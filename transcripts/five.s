addi x1, x0, 5
