 li t0, 5
 sd t0, 0(a1)
 cbo.clean (a1)
 fence w, w
 li a7, 2001            # operation 1 begins
 li a0, 1
 ecall
 li t1, 7
 sd t1, 0(a1)           # something else
 sd t0, 0(a1)           # and the same as before
 cbo.clean (a1)
 fence w, w
 li a7, 2002            # operation 1 ends
 ecall
 li a7, 93
 li a0, 0
 ecall
