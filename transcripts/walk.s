lui s0, 256
mv s1, s0
ld t0, 0(a1)
walk: beqz t0, done
add t0, t0, a1
ld t1, 0(t0)
sd t1, 0(s1)
addi s1, s1, 8
ld t0, 8(t0)
j walk
done: mv a1, s0
sub a2, s1, s0
li a7, 93
li a0, 0
ecall
