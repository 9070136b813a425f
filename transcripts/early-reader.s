# Hart 0 appends 70 to inode 0 and shows hart 1 its entry. Hart 1 appends one more to inode 1. Wrong: it doesn't wait for that entry.
 lui s4, 256            # the address of hart 0's entry, in data memory
 addi s1, a0, 1
 li t3, 70              # hart 0's value
 beqz a0, append
 ld t0, 0(s4)
 ld t3, 16(t0)          # hart 1's value: that of hart 0, and one more
 addi t3, t3, 1
append:
 li a7, 2001            # operation h + 1 begins
 mv a0, s1
 ecall
 slli t4, s1, 6         # the inode's cache line
 add t4, t4, a1
 ld t0, 8(t4)           # its tail
 add t1, a1, t0
 li t2, 1
 sd t2, 0(t1)           # kind 1, without a name
 sd s1, 8(t1)           # operation h + 1
 sd t3, 16(t1)          # the value
 sd t1, 0(s4)           # hart 1 may see the entry
 cbo.clean (t1)
 fence w, w
 addi t0, t0, 64
 sd t0, 8(t4)           # the append commits by this store
 cbo.clean (t4)
 fence w, w
 li a7, 2002            # operation h + 1 ends
 ecall
 li a7, 93
 li a0, 0
 ecall
