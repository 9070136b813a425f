# Hart 0 stores in operation 1, and makes it durable only behind its End. Operation 2 of hart 1 stores nothing.
 mv s0, a0
 addi a0, s0, 1         # the operation's number
 li a7, 2001
 ecall
 bnez s0, done
 li t0, 7
 sd t0, 0(a1)
done:
 li a7, 2002
 ecall
 bnez s0, leave
 cbo.clean (a1)
 fence w, w
leave:
 li a7, 93
 li a0, 0
 ecall
