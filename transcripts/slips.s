loop: sdd t0, (a1)
 addi t0, t0, 5000
next: nop
next: nop
 j away
loop: nop
 foo
