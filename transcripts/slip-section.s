 .data
value: nop
