# Renames under the second layout: takes a name of 48 letters, of value 9, from inode 0's log and adds it to inode 1's, as
# operation 1. The name reaches into the second cache line of its entry. The two logs change together, as in rename.s.
 .data
removed:
 .byte 3, 48, 0, 0, 0, 0, 0, 0       # kind 3, a name of 48 bytes
 .dword 1, 9                         # operation 1, the value 9
 .dword 0x6867666564636261, 0x6867666564636261, 0x6867666564636261   # `abcdefgh`, six times
 .dword 0x6867666564636261, 0x6867666564636261, 0x6867666564636261
 .zero 56
added:
 .byte 2, 48, 0, 0, 0, 0, 0, 0       # kind 2
 .dword 1, 9
 .dword 0x6867666564636261, 0x6867666564636261, 0x6867666564636261
 .dword 0x6867666564636261, 0x6867666564636261, 0x6867666564636261
 .zero 56
 .text
 li a7, 2001            # operation 1 begins
 li a0, 1
 ecall
 ld t0, 72(a1)          # the tails of inodes 0 and 1
 ld t1, 136(a1)
 la a2, removed
 add a3, a1, t0
 jal copy
 la a2, added
 add a3, a1, t1
 jal copy
 lui a3, 2              # journal 0, at byte 8192
 add a3, a3, a1
 addi a4, a3, 64        # records 0 and 1: an inode and its old tail
 addi a5, a3, 128
 li t4, 1
 sd zero, 0(a4)
 sd t0, 8(a4)
 sd t4, 0(a5)
 sd t1, 8(a5)
 cbo.clean (a4)
 cbo.clean (a5)
 fence w, w
 li a2, 2
 sd a2, 8(a3)           # the records pend from here on
 cbo.clean (a3)
 fence w, w
 addi t0, t0, 128
 addi t1, t1, 128
 sd t0, 72(a1)
 sd t1, 136(a1)
 addi a4, a1, 64
 addi a5, a1, 128
 cbo.clean (a4)
 cbo.clean (a5)
 fence w, w
 sd a2, 0(a3)           # the rename commits by this store
 cbo.clean (a3)
 fence w, w
 li a7, 2002            # operation 1 ends
 ecall
 li a7, 93
 li a0, 0
 ecall

copy:                   # the entry at a2 to a3, both of its cache lines made durable
 addi a4, a2, 128
next:
 ld a5, (a2)
 sd a5, (a3)
 addi a2, a2, 8
 addi a3, a3, 8
 bne a2, a4, next
 addi a4, a3, -128
 addi a5, a3, -64
 cbo.clean (a4)
 cbo.clean (a5)
 fence w, w
 ret
