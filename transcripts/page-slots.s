# A page's recovery: shows all 20 slots where the commit word is there, else nothing.
 li a2, 0               # the answer's length
 ld t0, 0(a1)
 beqz t0, done          # the page doesn't count yet
 lui t1, 256            # the answer begins at 0x100000, in data memory
 li t0, 20              # how many slots are left
copy:
 addi a1, a1, 64
 ld t2, 0(a1)
 sd t2, 0(t1)
 addi t1, t1, 8
 addi t0, t0, -1
 bnez t0, copy
 lui a1, 256
 li a2, 160
done:
 li a7, 93
 li a0, 0
 ecall
