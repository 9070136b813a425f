li t0, 0x7fffffff
sw t0, 0(a1)
li t1, 1
amoadd.w t2, t1, (a1)
amoswap.w s0, zero, (a1)
li a7, 93
li a0, 0
ecall
