bnez a0, other
ebreak
other:
ebreak
