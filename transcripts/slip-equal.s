 .equ size, 8
