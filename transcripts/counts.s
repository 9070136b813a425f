loop: addi t0, t0, 1
j loop
