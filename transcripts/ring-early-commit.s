li s0, 1
li s1, 8
append:
li a7, 2001
mv a0, s0
ecall
ld t0, 0(a1)
andi t1, t0, 3
slli t1, t1, 6
add t1, a1, t1
addi t1, t1, 64
addi t0, t0, 1
sd t0, 0(t1)
addi t2, s0, 100
sd t2, 8(t1)
sd t0, 0(a1)
cbo.clean (t1)
cbo.clean (a1)
fence w, w
li a7, 2002
ecall
addi s0, s0, 1
bne s0, s1, append
li a7, 93
li a0, 0
ecall
