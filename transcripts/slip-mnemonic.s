sdd t0, (a1)
