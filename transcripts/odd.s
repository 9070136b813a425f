li a2, 0x503
lui t0, 4
add t0, t0, a1
sd a2, 0(t0)
li t1, 0x5c61
sh t1, 24(t0)
li t1, 0x7f20
sh t1, 26(t0)
li t1, 10
sb t1, 28(t0)
cbo.clean (t0)
fence w, w
li a7, 93
li a0, 0
ecall
