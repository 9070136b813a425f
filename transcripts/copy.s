lui t0, 4
add t0, t0, a1
lui t1, 6
add t1, t1, a1
li t3, 512
copy: ld t2, 0(t0)
sd t2, 0(t1)
addi t0, t0, 8
addi t1, t1, 8
addi t3, t3, -1
bnez t3, copy
lui t1, 6
add t1, t1, a1
li t3, 64
clean: cbo.clean (t1)
addi t1, t1, 64
addi t3, t3, -1
bnez t3, clean
fence w, w
lui t2, 6
sd t2, 64(a1)
addi t1, a1, 64
cbo.clean (t1)
fence w, w
li a7, 93
li a0, 0
ecall
