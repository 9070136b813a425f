# One hart begins a second operation before its first one has ended.
 li a7, 2001
 li a0, 1
 ecall
 li a0, 2
 ecall
 li a7, 2002
 ecall
 li a0, 1
 ecall
 li a7, 93
 li a0, 0
 ecall
