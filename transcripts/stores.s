loop: sd t0, 0(a1)
j loop
