lui x6, 0x40000
sd x0, 0(x6)
cbo.inval (x6)
fence w, r
addi x17, x0, 93
addi x10, x0, 0
ecall
