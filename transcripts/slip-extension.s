mul t0, t1, t2
