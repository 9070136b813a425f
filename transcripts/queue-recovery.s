# The recovery of queue.s: answers the values of the nodes, the first one first.
 lui s0, 256            # the answer begins at 0x100000, in data memory
 mv s1, s0              # and ends here so far
 ld t0, 0(a1)           # where the first node begins
walk:
 beqz t0, done
 add t0, a1, t0
 ld t1, 8(t0)           # the node's value
 sd t1, 0(s1)
 addi s1, s1, 8
 ld t0, 0(t0)           # where the next node begins
 j walk
done:
 mv a1, s0
 sub a2, s1, s0
 li a7, 93
 li a0, 0
 ecall
