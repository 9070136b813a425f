fence
j .-4
