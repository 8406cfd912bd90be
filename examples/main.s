#--- part 0
	.text
	.globl	unused
	.p2align	2
unused:
	mv	t0, a0
	mv	a0, t0
	ret
	.text
	.globl	main
	.p2align	2
main:
	li	t0, -7
	mv	a0, t0
	ret
