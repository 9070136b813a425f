cbo.clean (a1)
fence
cbo.clean (a1)
ebreak
