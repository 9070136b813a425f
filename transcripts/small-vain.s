cbo.clean (a1)
fence w, w
li a7, 93
li a0, 0
ecall
