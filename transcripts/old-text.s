# A hart stores a nop over the breakpoint of its own text. Wrong: without the fence it fetches what was there.
 lui t1, 16             # the text begins at 0x10000
 li t0, 19              # the word of a nop
 sw t0, 20(t1)
 nop
 nop
 ebreak                 # at 0x10014
 li a7, 93
 li a0, 0
 ecall
