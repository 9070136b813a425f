# A log whose records count by their checksum: no commit word, and one fence an append.
#
# In persistent memory, by bytes from its base (a1), two cache lines a record:
#     0      the record's number, from 1
#     8      the checksum of all its other words
#     16     14 words of payload, six in the first line and eight in the second one
# Record n begins at 128 (n - 1). It counts where it has number n and the right checksum, and the records before it count.
# The two lines may be written back in either order: until both are there the checksum is wrong.
#
# Appends three records, as operations 1 to 3; word i of record n is 256 n + i.
 li s0, 1               # the operation's number
 li s1, 4               # and the first that isn't made
 mv s2, a1              # where the record begins
append:
 li a7, 2001            # operation s0 begins
 mv a0, s0
 ecall
 sd s0, 0(s2)           # the record's number
 li t1, 16              # the word's place in the record
 li t4, 128             # and where the record ends
fill:
 slli t2, s0, 8
 srli t3, t1, 3
 add t2, t2, t3
 add t3, s2, t1
 sd t2, 0(t3)           # a word of payload
 addi t1, t1, 8
 bne t1, t4, fill
 mv t0, s0              # the checksum so far
 li t1, 16
 li t4, 128             # the checksum covers the words before this place
sum:
 add t3, s2, t1
 ld t2, 0(t3)
 slli t3, t0, 5         # 31 times what it was, and the next word
 sub t0, t3, t0
 add t0, t0, t2
 addi t1, t1, 8
 bne t1, t4, sum
 sd t0, 8(s2)           # the checksum, by which the record counts
 addi t5, s2, 64
 cbo.clean (s2)         # the record's first line
 cbo.clean (t5)         # the record's second line
 fence w, w             # now the append is durable, and may be acknowledged
 li a7, 2002            # operation s0 ends
 ecall
 addi s2, s2, 128
 addi s0, s0, 1
 bne s0, s1, append
 li a7, 93
 li a0, 0
 ecall
