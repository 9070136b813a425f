addi x5, x0, 7
lui x6, 0x40000
sd x5, 0(x6)
cbo.inval (x6)
fence w, r
cbo.inval (x6)
fence w, w
fence w, r
addi x17, x0, 93
addi x10, x0, 0
ecall
