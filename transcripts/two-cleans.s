bnez a0, other
li a7, 2001
li a0, 1
ecall
sd a0, 0(a1)
cbo.clean (a1)
li a7, 2002
ecall
j .+0
other: cbo.clean (a1)
fence w, w
j .+0
