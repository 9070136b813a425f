li t0, 64
li t1, 5
sd t1, 64(a1)
sd t1, 72(a1)
addi t2, a1, 64
cbo.clean (t2)
sd t0, 0(a1)
cbo.clean (a1)
fence w, w
li a7, 2001
li a0, 1
ecall
li t1, 6
sd t1, 128(a1)
sd t1, 136(a1)
addi t2, a1, 128
cbo.clean (t2)
fence w, w
li t0, 128
sd t0, 0(a1)
cbo.clean (a1)
li a7, 2002
ecall
li a7, 93
li a0, 0
ecall
