la t0, spot
lw t1, 0(t0)
sw t1, 4(t0)
fence.i
spot: sd t1, 0(a1)
