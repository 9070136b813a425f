# Operation 1 stores 500 entries, one a cache line, and then their number behind them. It cleans none.
 li a7, 2001            # operation 1 begins
 li a0, 1
 ecall
 li t0, 500             # how many entries are left
fill:
 sd t0, 0(a1)           # in cache lines 0 to 499
 addi a1, a1, 64
 addi t0, t0, -1
 bnez t0, fill
 li t0, 500
 sd t0, 0(a1)           # the number of entries, in cache line 500
 li a7, 2002            # operation 1 ends
 ecall
 li a7, 93
 li a0, 0
 ecall
