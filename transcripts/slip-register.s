addi q0, t0, 1
