la t0, spot
la t1, new
lw t2, 0(t1)
sw t2, 0(t0)
spot: li a0, 1
li a7, 93
ecall
new: .word 0x00200513
