# widths
li t0, 0x12345678
here:
li t1, -1
sb t0, 1(a1)
sw t0, 4(a1)

lr.d t2, (a1)
sc.d t3, t1, (a1)
sc.d t3, t1, (a1)
amoadd.w t4, t0, (a1)
cbo.flush (a1)
addi t5, a1, 100
cbo.inval (t5)
fence r, r
fence rw, rw
