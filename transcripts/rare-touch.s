# Hart 0 raises a flag for two steps. Hart 1 stores to hart 0's cache line only if it sees the flag up. Wrong: hart 0 then stores without a
# clean.
 addi s3, a1, 64        # hart 0's cache line
 lui s4, 256            # the flag, in data memory
 li t1, 1
 bnez a0, second
 li a7, 2001            # operation 1 begins
 li a0, 1
 ecall
 sd a0, 0(s3)
 cbo.clean (s3)
 fence w, w
 sd t1, 0(s4)
 ld t0, 8(s3)           # has hart 1 been here?
 sd x0, 0(s4)
 beqz t0, end
 sd x0, 0(s3)           # takes its value back, and doesn't make that durable
end:
 li a7, 2002
 ecall
 j out
second:
 ld t0, 0(s4)
 beqz t0, out
 sd t1, 8(s3)
 cbo.clean (s3)
 fence w, w
out:
 li a7, 93
 li a0, 0
 ecall
