li a7, 2001
addi a0, a0, 1
ecall
slli t4, a0, 6
add t4, t4, a1
ld t0, 8(t4)
add t1, a1, t0
li t2, 1
sd t2, 0(t1)
sd a0, 8(t1)
addi t3, a0, 69
sd t3, 16(t1)
cbo.clean (t1)
fence w, w
addi t0, t0, 64
sd t0, 8(t4)
cbo.clean (t4)
fence w, w
li a7, 2002
ecall
li a7, 93
li a0, 0
ecall
