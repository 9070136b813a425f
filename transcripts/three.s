addi x5, x0, 1
addi x6, x11, 320
sd x5, 0(x6)
addi x5, x5, 1
sd x5, 0(x6)
cbo.clean (x6)
addi x5, x5, 1
sd x5, 0(x6)
fence w, w
