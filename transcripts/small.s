lui t1, 0x40004
li t2, 1
li a7, 2001
li a0, 1
ecall
add t0, t1, t2
add t0, t0, t2
li a7, 2002
sd t2, 0(t1)
cbo.clean (t1)
fence w, w
ecall
