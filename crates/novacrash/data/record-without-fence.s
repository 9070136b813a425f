# record.s without the fence between the new copy and the pointer: the pointer may be durable before the copy is.
#
# In persistent memory, by bytes from its base (a1):
#     0    the pointer: where the current copy begins, 0 where there is none
#     128  a copy: how many updates were made, and at 192, in a cache line of its own, the sum of what they added
#     256  the other copy, with its sum at 320
#
# Update n adds n to the sum, as operation n, for n from 1 to 3.
 li t0, 128             # before the first operation: the copy at 128 is zeros, as the medium is, and the pointer names it
 sd t0, 0(a1)
 cbo.clean (a1)
 fence w, w
 li s0, 1               # the update's number
 li s1, 4               # and the first that isn't made
update:
 li a7, 2001            # operation s0 begins
 mv a0, s0
 ecall
 ld t0, 0(a1)           # where the current copy begins
 li t1, 384
 sub t1, t1, t0         # and the other one: 256 or 128
 add t0, a1, t0         # the addresses of both
 add t2, a1, t1
 ld t3, 0(t0)
 addi t3, t3, 1
 sd t3, 0(t2)           # one update more
 ld t4, 64(t0)
 add t4, t4, s0
 sd t4, 64(t2)          # the new sum
 addi t5, t2, 64
 cbo.clean (t2)
 cbo.clean (t5)
 sd t1, 0(a1)           # the update commits by this store
 cbo.clean (a1)
 fence w, w             # now the pointer is
 li a7, 2002            # operation s0 ends
 ecall
 addi s0, s0, 1
 bne s0, s1, update
 li a7, 93
 li a0, 0
 ecall
