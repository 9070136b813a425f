# The log's recovery: answers the payloads of the records that count, in order. A log that fills the medium would need a
# bound; here the place behind the last record is zeros.
 lui s0, 256            # the answer begins at 0x100000, in data memory
 mv s1, s0              # and ends here so far
 li s2, 1               # the number that the next record has to have
record:
 ld t0, 0(a1)
 bne t0, s2, done       # there is no such record
 li t1, 16              # t0, which is the number, is the checksum so far
 li t4, 128             # the checksum covers the words before this place
sum:
 add t3, a1, t1
 ld t2, 0(t3)
 slli t3, t0, 5         # 31 times what it was, and the next word
 sub t0, t3, t0
 add t0, t0, t2
 addi t1, t1, 8
 bne t1, t4, sum
 ld t2, 8(a1)
 bne t0, t2, done       # a torn record ends the log
 addi t1, a1, 16
 addi a1, a1, 128       # where the next record begins
copy:
 ld t2, 0(t1)           # a word of payload
 sd t2, 0(s1)
 addi s1, s1, 8
 addi t1, t1, 8
 bne t1, a1, copy
 addi s2, s2, 1
 j record
done:
 mv a1, s0
 sub a2, s1, s0
 li a7, 93
 li a0, 0
 ecall
