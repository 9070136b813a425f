addi x5, x0, 7
add
