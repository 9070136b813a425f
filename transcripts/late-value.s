li a7, 2001
li a0, 1
ecall
ld t0, 72(a1)
add t1, a1, t0
li t2, 1
sd t2, 0(t1)
sd t2, 8(t1)
li t3, 77
cbo.clean (t1)
fence w, w
sd t3, 16(t1)
addi t0, t0, 64
sd t0, 72(a1)
addi t4, a1, 64
cbo.clean (t4)
fence w, w
li a7, 2002
ecall
li a7, 93
li a0, 0
ecall
