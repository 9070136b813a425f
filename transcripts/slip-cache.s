 nop
 cbo.clean 64(a1)
