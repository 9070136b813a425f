sd (a1), t0
