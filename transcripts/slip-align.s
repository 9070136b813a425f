 .data
 .align 3
