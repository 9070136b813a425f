li a7, 2001
li a0, 1
ecall
ld t0, 72(a1)
ld t1, 136(a1)
add t2, a1, t0
add t3, a1, t1
li t4, 1
li t5, 9
li t6, 97
li a2, 0x103
sd a2, 0(t2)
sd t4, 8(t2)
sd t5, 16(t2)
sd t6, 24(t2)
li a2, 0x102
sd a2, 0(t3)
sd t4, 8(t3)
sd t5, 16(t3)
sd t6, 24(t3)
cbo.clean (t2)
cbo.clean (t3)
fence w, w
lui a3, 2
add a3, a3, a1
addi a4, a3, 64
addi a5, a3, 128
sd zero, 0(a4)
sd t0, 8(a4)
sd t4, 0(a5)
sd t1, 8(a5)
cbo.clean (a4)
cbo.clean (a5)
fence w, w
li a2, 2
sd a2, 8(a3)
cbo.clean (a3)
fence w, w
addi t0, t0, 64
addi t1, t1, 64
sd t0, 72(a1)
sd t1, 136(a1)
addi a4, a1, 64
addi a5, a1, 128
cbo.clean (a4)
cbo.clean (a5)
fence w, w
sd a2, 0(a3)
cbo.clean (a3)
fence w, w
li a7, 2002
ecall
li a7, 93
li a0, 0
ecall
