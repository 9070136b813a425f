# Stores its number, and then makes steps for ever that ask for nothing.
 sd a0, 0(a1)
turn:
 addi t0, t0, 1
 j turn
