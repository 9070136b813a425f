li t0, 2
sd t0, 0(a1)
loop: cbo.clean (a1)
fence w, w
addi t0, t0, -1
bnez t0, loop
ebreak
