li t0, 128
sd t0, 0(a1)
cbo.clean (a1)
fence w, w
li s0, 1
li s1, 4
update:
li a7, 2001
mv a0, s0
ecall
ld t0, 0(a1)
li t1, 384
sub t1, t1, t0
add t0, a1, t0
add t2, a1, t1
ld t3, 0(t0)
addi t3, t3, 1
sd t3, 0(t2)
ld t4, 64(t0)
add t4, t4, s0
sd t4, 64(t2)
addi t5, t2, 64
cbo.clean (t2)
cbo.clean (t5)
sd t1, 0(a1)
cbo.clean (a1)
fence w, w
li a7, 2002
ecall
addi s0, s0, 1
bne s0, s1, update
li a7, 93
li a0, 0
ecall
