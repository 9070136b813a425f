li a7, 2001
li a0, 1
ecall
sd a0, 0(a1)
sd a0, 8(a1)
sd a0, 64(a1)
li a7, 2002
ecall
cbo.clean (a1)
fence w, w
li a7, 2001
li a0, 2
ecall
sd a0, 128(a1)
li a7, 93
li a0, 0
ecall
