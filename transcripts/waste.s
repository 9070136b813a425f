sd a1, 0(a1)
cbo.clean (a1)
cbo.clean (a1)
fence w, w
cbo.clean (a1)
fence w, w
fence w, w
li a7, 93
ecall
