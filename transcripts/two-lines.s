li t0, 1
sd t0, 0(a1)
li t0, 3
sd t0, 64(a1)
li t0, 2
sd t0, 0(a1)
li t0, 4
sd t0, 64(a1)
ld t1, 0(a1)
ld t2, 64(a1)
li a7, 93
li a0, 0
ecall
