# The recovery of log-unfenced.s: counts the entries, and then loads their number. It shows that number, and exits with 3 where fewer are there.
 li a2, 0               # the answer's length
 li t0, 500             # how many are left
 li t1, 0               # how many are there
count:
 ld t2, 0(a1)
 snez t2, t2
 add t1, t1, t2
 addi a1, a1, 64
 addi t0, t0, -1
 bnez t0, count
 ld t2, 0(a1)           # the number of entries
 li a7, 93
 li a0, 3
 bltu t1, t2, done      # fewer are there
 li a0, 0
 beqz t2, done          # no entry counts yet
 lui a1, 256            # the answer stands at 0x100000, in data memory
 sd t2, 0(a1)
 li a2, 8
done:
 ecall
