addi x5, x0, 7
lui x6, 0x40000
sd x5, 4(x6)
cbo.clean (x6)
fence w, w
addi x17, x0, 93
addi x10, x0, 0
ecall
