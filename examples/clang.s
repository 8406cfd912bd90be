#--- part 0
	.text
	.globl	second
	.p2align	2
second:
	mv	t0, a0
	mv	t0, a1
	mv	a0, t0
	ret
	.text
	.globl	answer
	.p2align	2
answer:
	mv	t0, a0
	li	t0, 42
	mv	a0, t0
	ret
	.text
	.globl	main
	.p2align	2
main:
	li	t0, -7
	mv	a0, t0
	ret
