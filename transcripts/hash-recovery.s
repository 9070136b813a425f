# The recovery of hash.s: answers what a search finds of each key, as nine bytes. Byte k is the value of key k, 0 where there is
# none. So two tables with the same keys in other slots have the same answer.
 lui s0, 256            # the answer begins at 0x100000, in data memory, which is zeros
probe:
 ld t0, 0(a1)
 beqz t0, done          # a free slot ends the search
 srli t1, t0, 8         # the key
 andi t0, t0, 255       # the value
 add t1, s0, t1
 sb t0, 0(t1)
 addi a1, a1, 64        # the next slot
 j probe
done:
 mv a1, s0
 li a2, 9
 li a7, 93
 li a0, 0
 ecall
