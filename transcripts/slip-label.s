twice:
	twice: nop
