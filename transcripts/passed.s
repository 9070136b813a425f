sd a1, 0(a1)
cbo.clean (a1)
fence w, 0
cbo.inval (a1)
fence rw, iow
sd a1, 8(a1)
cbo.flush (a1)
fence iorw, ior
li a7, 93
li a0, 0
ecall
