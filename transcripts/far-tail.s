lui t0, 2
add t0, t0, a1
li t1, 5
sd t1, 8(t0)
cbo.clean (t0)
fence w, w
li a7, 93
ecall
