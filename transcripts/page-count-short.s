# A wrong recovery of a page: as page-count.s, but it shows a page of which one slot is missing, too.
 li a2, 0               # the answer's length
 ld t0, 0(a1)
 beqz t0, done          # the page doesn't count yet
 li t0, 20              # how many slots are left
 li t1, 0               # how many are filled
count:
 addi a1, a1, 64
 ld t2, 0(a1)
 snez t2, t2
 add t1, t1, t2
 addi t0, t0, -1
 bnez t0, count
 li t0, 19              # so many have to be filled: one too few
 bltu t1, t0, done
 lui a1, 256            # the answer stands at 0x100000, in data memory
 sd t1, 0(a1)
 li a2, 8
done:
 li a7, 93
 li a0, 0
 ecall
