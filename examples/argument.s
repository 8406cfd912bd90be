#--- part 0
	.text
	.globl	second
	.p2align	2
second:
	mv	t0, a0
	mv	t0, a1
	mv	t1, a2
	mv	a0, t0
	ret
