# The same, but each deposit is added once, however often the recovery is cut.
#
# Cache line 0 has two pairs of a balance and the number of deposits in it, and before them the number of the pair that counts. Stores to
# one line reach the medium in program order, so the pair that counts is always there.
 ld t0, 0(a1)           # the pair that counts
 slli t1, t0, 4
 add t1, a1, t1
 ld t2, 8(t1)           # its balance
 ld t3, 16(t1)          # and the number of deposits in it
 ld t4, 64(a1)          # how many deposits there are
 beq t3, t4, done
 slli t5, t3, 6
 add t5, a1, t5
 addi t5, t5, 128
add_up:
 ld t6, 0(t5)
 add t2, t2, t6
 addi t5, t5, 64
 addi t3, t3, 1
 bne t3, t4, add_up
 xori t0, t0, 1         # the other pair
 slli t1, t0, 4
 add t1, a1, t1
 sd t2, 8(t1)
 sd t3, 16(t1)
 sd t0, 0(a1)           # which counts from here on
 cbo.clean (a1)
 fence w, w
done:
 lui a1, 256            # the answer begins at 0x100000
 sd t2, 0(a1)
 li a2, 8
 li a7, 93
 li a0, 0
 ecall
