 j away
here: nop
 la t0, there
 beq a0, a1, value
 j here
 .data
value: .dword 7
