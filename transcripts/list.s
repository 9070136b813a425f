# head
li t0, 0x12345 # two words
here:
  beqz t0, here
.word 0, 0x13
.data
.word 5
.text
end: ecall
