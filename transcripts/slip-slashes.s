nop
nop // a remark
