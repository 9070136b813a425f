lui s0, 256
mv s1, s0
ld t0, 0(a1)
li t1, 3
bgeu t0, t1, full
mv t1, t0
full:
sub t0, t0, t1
walk:
beqz t1, done
andi t2, t0, 3
slli t2, t2, 6
add t2, a1, t2
ld t3, 64(t2)
ld t4, 72(t2)
sd t3, 0(s1)
sd t4, 8(s1)
addi s1, s1, 16
addi t0, t0, 1
addi t1, t1, -1
j walk
done:
mv a1, s0
sub a2, s1, s0
li a7, 93
li a0, 0
ecall
