lui t0, 4
add t0, t0, a1
ld t1, 0(t0)
ld t2, 8(t0)
ld t3, 16(t0)
ld t4, 72(a1)
li a7, 93
li a0, 0
ecall
