# A recovery of deposit.s: adds what waits to the balance, and answers that. Cut behind its first store it adds the same twice.
 ld t0, 64(a1)          # how many wait
 ld t1, 0(a1)           # the balance
 beqz t0, done
 addi t2, a1, 128
add_up:
 ld t3, 0(t2)
 add t1, t1, t3
 addi t2, t2, 64
 addi t0, t0, -1
 bnez t0, add_up
 sd t1, 0(a1)           # the new balance
 cbo.clean (a1)
 fence w, w             # it is durable
 sd zero, 64(a1)        # and none waits any more
 addi t2, a1, 64
 cbo.clean (t2)
 fence w, w
done:
 lui a1, 256            # the answer begins at 0x100000
 sd t1, 0(a1)
 li a2, 8
 li a7, 93
 li a0, 0
 ecall
