ld t0, 0(a1)
ld t1, 64(a1)
add t1, t1, t0
sd t1, 64(a1)
sd zero, 0(a1)
lui a1, 256
sd t1, 0(a1)
li a2, 8
li a7, 93
li a0, 0
ecall
