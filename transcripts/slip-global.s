 .globl _start
