#--- part 0
	.text
	.globl	seven
	.p2align	2
seven:
	li	t0, 7
	mv	a0, t0
	ret
