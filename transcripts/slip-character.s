 li t0, 'a'
