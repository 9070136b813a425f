addi x5, x0, 7
# two words
li x6, 0x12345
