# An undo log: transfers between two accounts, changed in place, which a power cut half-way undoes.
#
# In persistent memory, by bytes from its base (a1), a cache line each:
#     0            the count: how many entries of the log are in force, 0 while no transfer is under way
#     64           the log: two entries of 16 bytes, where an account begins and its old value
#     128, 192     the two accounts
# A transfer has four steps, each durable before the next begins: the old values are written to the log, the count puts
# them in force, the accounts change, and the count's zero discards the log, by which the transfer commits.
#
# Operation n moves n from the first account to the second one, for n from 1 to 3. Each holds 100 at first.
 addi s2, a1, 64        # the log
 addi s3, a1, 128       # the first account
 addi s4, a1, 192       # and the second one
 li t0, 100             # before the first operation
 sd t0, 0(s3)
 sd t0, 0(s4)
 cbo.clean (s3)
 cbo.clean (s4)
 fence w, w
 li s0, 1               # the operation's number
 li s1, 4               # and the first that isn't made
transfer:
 li a7, 2001            # operation s0 begins
 mv a0, s0
 ecall
 ld t0, 0(s3)           # the old values
 ld t1, 0(s4)
 li t2, 128
 sd t2, 0(s2)           # the first entry
 sd t0, 8(s2)
 li t2, 192
 sd t2, 16(s2)          # the second entry
 sd t1, 24(s2)
 cbo.clean (s2)         # the log's line
 fence w, w             # now both entries are durable
 li t2, 2
 sd t2, 0(a1)           # they are in force
 cbo.clean (a1)         # the count's line
 fence w, w             # now the log is in force, and the accounts may change
 sub t0, t0, s0
 sd t0, 0(s3)
 add t1, t1, s0
 sd t1, 0(s4)
 cbo.clean (s3)         # the first account's line
 cbo.clean (s4)         # the second account's line
 fence w, w             # now both accounts are durable
 sd x0, 0(a1)           # the transfer commits by this store
 cbo.clean (a1)         # the count's line, with its zero
 fence w, w             # now the transfer is durable, and may be acknowledged
 li a7, 2002            # operation s0 ends
 ecall
 addi s0, s0, 1
 bne s0, s1, transfer
 li a7, 93
 li a0, 0
 ecall
