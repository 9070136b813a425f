# Each hart says that it has come, and waits for the other one, both within its operation. So none ends where it runs alone.
 lui s4, 256            # in data memory: two words that say who has come
 slli t1, a0, 3
 add s2, s4, t1         # this hart's
 xori t2, a0, 1
 slli t2, t2, 3
 add s3, s4, t2         # and the other one's
 addi s1, a0, 1         # the operation's number
 li t0, 1
 li a7, 2001            # operation s1 begins
 mv a0, s1
 ecall
 sd t0, 0(s2)
wait:
 ld t3, 0(s3)
 beqz t3, wait
 li a7, 2002            # operation s1 ends
 mv a0, s1
 ecall
 li a7, 93
 li a0, 0
 ecall
