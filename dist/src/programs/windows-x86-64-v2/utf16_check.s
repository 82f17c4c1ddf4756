/* SPDX-License-Identifier: MIT OR Apache-2.0
 * utf16_check 0.2.0, as assembly for Windows on x86-64-v2. packaging/assembly
 * wrote it from the code that rt proved in logic dac8208d650f15bf: do not edit it. */
	.section	.rdata$000,"dr"
	.p2align	4, 0x0
.LCPI0_0:
	.zero	16,248
.LCPI0_1:
	.zero	16,216
.LCPI0_2:
	.byte	248
	.byte	248
	.byte	248
	.byte	248
	.byte	248
	.byte	248
	.byte	248
	.byte	248
	.zero	1
	.zero	1
	.zero	1
	.zero	1
	.zero	1
	.zero	1
	.zero	1
	.zero	1
.LCPI0_3:
	.byte	216
	.byte	216
	.byte	216
	.byte	216
	.byte	216
	.byte	216
	.byte	216
	.byte	216
	.zero	1
	.zero	1
	.zero	1
	.zero	1
	.zero	1
	.zero	1
	.zero	1
	.zero	1
.LCPI0_4:
	.byte	248
	.byte	248
	.byte	248
	.byte	248
	.zero	1
	.zero	1
	.zero	1
	.zero	1
	.zero	1
	.zero	1
	.zero	1
	.zero	1
	.zero	1
	.zero	1
	.zero	1
	.zero	1
.LCPI0_5:
	.byte	216
	.byte	216
	.byte	216
	.byte	216
	.zero	1
	.zero	1
	.zero	1
	.zero	1
	.zero	1
	.zero	1
	.zero	1
	.zero	1
	.zero	1
	.zero	1
	.zero	1
	.zero	1
.LCPI0_6:
	.zero	16,252
.LCPI0_7:
	.zero	16,220
.LCPI0_8:
	.byte	252
	.byte	252
	.zero	1
	.zero	1
	.zero	1
	.zero	1
	.zero	1
	.zero	1
	.zero	1
	.zero	1
	.zero	1
	.zero	1
	.zero	1
	.zero	1
	.zero	1
	.zero	1
.LCPI0_9:
	.byte	220
	.byte	220
	.zero	1
	.zero	1
	.zero	1
	.zero	1
	.zero	1
	.zero	1
	.zero	1
	.zero	1
	.zero	1
	.zero	1
	.zero	1
	.zero	1
	.zero	1
	.zero	1
.LCPI0_10:
	.quad	1
	.quad	1
.LCPI0_11:
	.byte	255
	.byte	0
	.byte	255
	.byte	0
	.byte	255
	.byte	0
	.byte	255
	.byte	0
	.byte	255
	.byte	0
	.byte	255
	.byte	0
	.byte	255
	.byte	0
	.byte	255
	.byte	0
.LCPI0_12:
	.byte	0
	.byte	2
	.byte	4
	.byte	6
	.byte	8
	.byte	10
	.byte	12
	.byte	14
	.zero	1
	.zero	1
	.zero	1
	.zero	1
	.zero	1
	.zero	1
	.zero	1
	.zero	1
.LCPI0_13:
	.byte	0
	.byte	2
	.byte	4
	.byte	6
	.zero	1
	.zero	1
	.zero	1
	.zero	1
	.zero	1
	.zero	1
	.zero	1
	.zero	1
	.zero	1
	.zero	1
	.zero	1
	.zero	1
.LCPI0_14:
	.byte	41
	.byte	58
	.byte	32
	.byte	105
	.byte	110
	.byte	99
	.byte	111
	.byte	109
	.byte	112
	.byte	108
	.byte	101
	.byte	116
	.byte	101
	.byte	32
	.byte	99
	.byte	104
	.section	.text$001,"xr"
	.p2align	4
L_0:
	pushq	%rbp
	pushq	%r15
	pushq	%r14
	pushq	%r13
	pushq	%r12
	pushq	%rbx
	subq	$3072, %rsp
	movq	$0, (%rsp)
	subq	$1320, %rsp
	leaq	16(%rsp), %rax
	movq	%rax, 24(%rsp)
	movq	%rax, 176(%rsp)
	pxor	%xmm0, %xmm0
	movdqu	%xmm0, 184(%rsp)
	xorl	%ebp, %ebp
	movq	$0, 8(%rsp)
.LBB0_1:
	movl	$256, %r12d
	movl	$64, %r14d
	jmp	.LBB0_3
	.p2align	4
.LBB0_2:
	movq	%r12, %rax
	addq	%r12, %rax
	movq	$-1, %r12
	cmovaeq	%rax, %r12
	decl	%r14d
	je	.LBB0_60
.LBB0_3:
	leaq	16(%rsp), %r15
	movq	%r15, 288(%rsp)
	pxor	%xmm0, %xmm0
	leaq	296(%rsp), %rax
	movdqu	%xmm0, (%rax)
	testq	%r12, %r12
	jne	.LBB0_10
	xorl	%r13d, %r13d
.LBB0_5:
	movq	8(%rsp), %rdi
	movq	%r15, %rsi
	movq	%r13, %rdx
	callq	rattle_arg
	movq	%rax, %rbx
	movl	$22, %eax
	cmpq	$-1, %rbx
	je	.LBB0_7
	movl	$36, %eax
.LBB0_7:
	xorl	%edi, %edi
	testq	%rbx, %rbx
	cmovsl	%eax, %edi
	callq	rattle_set_errno
	callq	rattle_errno
	cmpl	$36, %eax
	jne	.LBB0_13
	cmpq	$0, 304(%rsp)
	je	.LBB0_2
	movq	%r15, %rdi
	callq	rattle_dealloc
	jmp	.LBB0_2
.LBB0_10:
	leaq	288(%rsp), %rdi
	movq	%r12, %rsi
	callq	L_1
	testb	%al, %al
	je	.LBB0_58
	movq	288(%rsp), %r15
	movq	296(%rsp), %rdi
	leaq	(%rdi,%r12), %r13
	cmpq	%r13, %rdi
	jae	.LBB0_5
	addq	%r15, %rdi
	xorl	%esi, %esi
	movq	%r12, %rdx
	callq	sysv_memset
	jmp	.LBB0_5
	.p2align	4
.LBB0_13:
	testl	%eax, %eax
	jne	.LBB0_19
	cmpq	%r13, %rbx
	cmovbq	%rbx, %r13
	xorl	%r12d, %r12d
	testq	%rbx, %rbx
	cmovgq	%r13, %r12
	movq	304(%rsp), %rbx
	pxor	%xmm0, %xmm0
	movdqa	%xmm0, 288(%rsp)
	movq	$0, 304(%rsp)
	leaq	288(%rsp), %r13
	movq	%r13, %rdi
	movq	%r15, %rsi
	movq	%r12, %rdx
	callq	L_2
	cmpb	$1, 288(%rsp)
	je	.LBB0_240
	cmpq	%rbp, 192(%rsp)
	je	.LBB0_17
.LBB0_16:
	leaq	(,%rbp,2), %rax
	addq	%rbp, %rax
	movq	24(%rsp), %rcx
	movq	%r15, (%rcx,%rax,8)
	movq	%r12, 8(%rcx,%rax,8)
	movq	%rbx, 16(%rcx,%rax,8)
	incq	%rbp
	movq	%rbp, 184(%rsp)
	movq	8(%rsp), %rcx
	incq	%rcx
	movq	%rcx, 8(%rsp)
	cmpq	$-1, %rcx
	jne	.LBB0_1
	jmp	.LBB0_21
.LBB0_17:
	leaq	176(%rsp), %r13
	movq	%r13, %rdi
	callq	L_3
	testb	%al, %al
	je	.LBB0_269
	movq	176(%rsp), %rax
	movq	%rax, 24(%rsp)
	movq	184(%rsp), %rbp
	jmp	.LBB0_16
.LBB0_19:
	cmpq	$0, 304(%rsp)
	je	.LBB0_21
	movq	%r15, %rdi
	callq	rattle_dealloc
.LBB0_21:
	movq	176(%rsp), %r14
	movq	192(%rsp), %rax
	testq	%rbp, %rbp
	je	.LBB0_33
	movq	%rax, 8(%rsp)
	movq	(%r14), %rdi
	movq	16(%r14), %rbx
	cmpq	$1, %rbp
	jne	.LBB0_34
	xorl	%ebp, %ebp
	xorl	%r12d, %r12d
	xorl	%r13d, %r13d
	xorl	%r15d, %r15d
	testq	%rbx, %rbx
	je	.LBB0_25
.LBB0_24:
	callq	rattle_dealloc
.LBB0_25:
	movq	%r12, %rbx
	movq	8(%rsp), %rax
	testq	%rax, %rax
	je	.LBB0_27
.LBB0_26:
	movq	%r14, %rdi
	callq	rattle_dealloc
.LBB0_27:
	testb	%bpl, %bpl
	je	.LBB0_46
	cmpq	$4, %r13
	je	.LBB0_51
	cmpq	$2, %r13
	jne	.LBB0_52
	movzbl	(%rbx), %ecx
	movzbl	1(%rbx), %edx
	shll	$16, %ecx
	movl	%edx, %eax
	shll	$8, %eax
	orl	%ecx, %eax
	orl	%edx, %eax
	cmpl	$7103845, %eax
	je	.LBB0_84
	cmpl	$6448485, %eax
	jne	.LBB0_52
	movb	$1, %r12b
	movb	$1, %dl
	jmp	.LBB0_85
.LBB0_33:
	xorl	%ebp, %ebp
	xorl	%ebx, %ebx
	xorl	%r13d, %r13d
	xorl	%r15d, %r15d
	testq	%rax, %rax
	jne	.LBB0_26
	jmp	.LBB0_27
.LBB0_34:
	movq	24(%r14), %r12
	movq	40(%r14), %r15
	cmpq	$2, %rbp
	jne	.LBB0_36
	movq	32(%r14), %r13
	movb	$1, %bpl
	testq	%rbx, %rbx
	jne	.LBB0_24
	jmp	.LBB0_25
.LBB0_36:
	cmpq	$0, 64(%r14)
	je	.LBB0_38
	movq	%rdi, %r13
	movq	48(%r14), %rdi
	callq	rattle_dealloc
	movq	%r13, %rdi
.LBB0_38:
	testq	%r15, %r15
	je	.LBB0_40
	movq	%rdi, %r15
	movq	%r12, %rdi
	callq	rattle_dealloc
	movq	%r15, %rdi
.LBB0_40:
	testq	%rbx, %rbx
	je	.LBB0_42
	callq	rattle_dealloc
.LBB0_42:
	cmpq	$3, %rbp
	movq	8(%rsp), %r15
	jne	.LBB0_54
.LBB0_43:
	testq	%r15, %r15
	je	.LBB0_46
	movq	%r14, %rdi
	jmp	.LBB0_45
.LBB0_51:
	movl	(%rbx), %eax
	movq	%rax, %rcx
	shlq	$32, %rcx
	orq	%rax, %rcx
	xorl	%r12d, %r12d
	movabsq	$8031173096850617697, %rax
	movl	$0, %edx
	cmpq	%rax, %rcx
	je	.LBB0_85
.LBB0_52:
	testq	%r15, %r15
	je	.LBB0_46
	movq	%rbx, %rdi
.LBB0_45:
	callq	rattle_dealloc
	jmp	.LBB0_46
.LBB0_54:
	addq	$-3, %rbp
	leaq	88(%r14), %rbx
	jmp	.LBB0_56
	.p2align	4
.LBB0_55:
	addq	$24, %rbx
	decq	%rbp
	je	.LBB0_43
.LBB0_56:
	cmpq	$0, (%rbx)
	je	.LBB0_55
	movq	-16(%rbx), %rdi
	callq	rattle_dealloc
	jmp	.LBB0_55
.LBB0_58:
	cmpq	$0, 304(%rsp)
	je	.LBB0_60
	movq	288(%rsp), %rdi
	callq	rattle_dealloc
.LBB0_60:
	movq	192(%rsp), %rbx
	testq	%rbp, %rbp
	je	.LBB0_65
	movq	24(%rsp), %rax
	leaq	16(%rax), %r14
	jmp	.LBB0_63
	.p2align	4
.LBB0_62:
	addq	$24, %r14
	decq	%rbp
	je	.LBB0_65
.LBB0_63:
	cmpq	$0, (%r14)
	je	.LBB0_62
	movq	-16(%r14), %rdi
	callq	rattle_dealloc
	jmp	.LBB0_62
.LBB0_65:
	leaq	176(%rsp), %r13
	testq	%rbx, %rbx
	je	.LBB0_68
	movq	24(%rsp), %rdi
.LBB0_67:
	callq	rattle_dealloc
.LBB0_68:
	movb	$21, 288(%rsp)
	movb	$38, 176(%rsp)
	cmpb	$38, (%r13)
	jne	.LBB0_46
.LBB0_69:
	leaq	.Lstatic.28(%rip), %r14
	movl	$16, %r15d
.LBB0_70:
	xorl	%ebp, %ebp
	jmp	.LBB0_71
.LBB0_46:
	xorl	%r15d, %r15d
	.p2align	4
.LBB0_47:
	leaq	.Lstatic.25(%rip), %rsi
	addq	%r15, %rsi
	movq	%r15, %r14
	xorq	$7, %r14
	movl	$2, %ebx
	movl	$2, %edi
	movq	%r14, %rdx
	callq	sysv_write
	testq	%rax, %rax
	js	.LBB0_82
	cmpq	%r14, %rax
	cmovbq	%rax, %r14
	testq	%r14, %r14
	je	.LBB0_83
	addq	%r14, %r15
	cmpq	$6, %r15
	jbe	.LBB0_47
	leaq	.Lstatic.30(%rip), %r14
	movl	$12, %r15d
	movb	$1, %bpl
.LBB0_71:
	xorl	%r12d, %r12d
	.p2align	4
.LBB0_72:
	leaq	.Lstatic.34(%rip), %rsi
	addq	%r12, %rsi
	movl	$11, %ebx
	subq	%r12, %rbx
	movl	$2, %edi
	movq	%rbx, %rdx
	callq	sysv_write
	testq	%rax, %rax
	js	.LBB0_79
	cmpq	%rbx, %rax
	cmovbq	%rax, %rbx
	testq	%rbx, %rbx
	je	.LBB0_80
	addq	%rbx, %r12
	cmpq	$11, %r12
	jb	.LBB0_72
	xorl	%r12d, %r12d
	.p2align	4
.LBB0_76:
	leaq	(%r14,%r12), %rsi
	movq	%r15, %rbx
	subq	%r12, %rbx
	movl	$2, %edi
	movq	%rbx, %rdx
	callq	sysv_write
	testq	%rax, %rax
	js	.LBB0_79
	cmpq	%rbx, %rax
	cmovbq	%rax, %rbx
	testq	%rbx, %rbx
	je	.LBB0_80
	addq	%rbx, %r12
	cmpq	%r15, %r12
	jb	.LBB0_76
	jmp	.LBB0_80
.LBB0_79:
	leaq	288(%rsp), %rdi
	callq	L_4
.LBB0_80:
	movl	$2, %ebx
	testb	%bpl, %bpl
	jne	.LBB0_83
.LBB0_81:
	movl	$1, %ebx
	jmp	.LBB0_83
.LBB0_82:
	leaq	288(%rsp), %rdi
	callq	L_4
.LBB0_83:
	movl	%ebx, %eax
	addq	$4392, %rsp
	popq	%rbx
	popq	%r12
	popq	%r13
	popq	%r14
	popq	%r15
	popq	%rbp
	retq
.LBB0_84:
	movb	$1, %r12b
	xorl	%edx, %edx
.LBB0_85:
	movq	%rdx, 8(%rsp)
	testq	%r15, %r15
	je	.LBB0_87
	movq	%rbx, %rdi
	callq	rattle_dealloc
.LBB0_87:
	leaq	16(%rsp), %rbx
	movq	%rbx, 136(%rsp)
	pxor	%xmm0, %xmm0
	movdqu	%xmm0, 144(%rsp)
	leaq	288(%rsp), %rdi
	xorl	%r15d, %r15d
	movl	$4096, %r13d
	movl	$4096, %edx
	xorl	%esi, %esi
	callq	sysv_memset
	movq	$0, 160(%rsp)
	movq	$0, 72(%rsp)
	xorl	%r14d, %r14d
	jmp	.LBB0_89
.LBB0_88:
	movq	%r14, %rax
	notq	%rax
	subq	%r15, %rax
	movl	$4096, %r13d
	subq	%r15, %r13
	cmpq	%r13, %rax
	cmovbq	%rax, %r13
	testq	%r13, %r13
	je	.LBB0_259
.LBB0_89:
	movq	%r15, %rbp
	leaq	(%rsp,%r15), %rsi
	addq	$288, %rsi
	xorl	%edi, %edi
	movq	%r13, %rdx
	callq	sysv_read
	testq	%rax, %rax
	js	.LBB0_251
	je	.LBB0_254
	cmpq	%r13, %rax
	cmovbq	%rax, %r13
	movq	%r13, %r15
	addq	%rbp, %r15
	movq	$0, 144(%rsp)
	cmpb	$1, %r12b
	movq	%r15, 80(%rsp)
	jne	.LBB0_136
	movq	%rbp, 104(%rsp)
	leaq	(%rsp,%r15), %rax
	addq	$256, %rax
	movq	%rax, 120(%rsp)
	leaq	272(%rsp,%r15), %rax
	movq	%rax, 112(%rsp)
	leaq	(%rsp,%r15), %rax
	addq	$280, %rax
	movq	%rax, 128(%rsp)
	leaq	288(%rsp), %rdx
	xorl	%ecx, %ecx
	movq	%r15, %rbp
	testb	$1, 8(%rsp)
	jne	.LBB0_146
.LBB0_93:
	movq	%rcx, 56(%rsp)
	leaq	71(%rdx), %rax
	movq	%rax, 168(%rsp)
	leaq	1(%rdx), %rax
	movq	%rax, 264(%rsp)
	xorl	%eax, %eax
	movq	$0, 8(%rsp)
	xorl	%r15d, %r15d
	movq	%rbp, 88(%rsp)
	movq	%rdx, 64(%rsp)
	movq	%r14, 96(%rsp)
	.p2align	4
.LBB0_94:
	leaq	(%rdx,%r15), %r12
	subq	%r15, %rbp
	cmpq	$2, %rbp
	movq	%rax, 24(%rsp)
	jne	.LBB0_109
	movzbl	1(%r12), %eax
.LBB0_96:
	andb	$-8, %al
	cmpb	$-40, %al
	jne	.LBB0_135
.LBB0_97:
	movq	%r12, %rdi
	movq	%rbp, %rsi
	callq	L_5
	movq	%rbp, %rsi
	subq	%rax, %rsi
	je	.LBB0_134
	movq	%rax, %rbx
	leaq	(%r12,%rax), %rbp
	movq	%rbp, %rdi
	callq	L_6
	movl	%eax, %r14d
	cmpb	$1, %al
	jne	.LBB0_113
	movzwl	(%rbp), %ebp
	cmpq	$64, %rbx
	jb	.LBB0_114
.LBB0_100:
	movq	168(%rsp), %rax
	leaq	(%rax,%r15), %rsi
	xorl	%eax, %eax
	xorl	%ecx, %ecx
	.p2align	4
.LBB0_101:
	movq	%rsi, %rdx
	movdqu	(%r12,%rax), %xmm0
	movdqu	16(%r12,%rax), %xmm1
	movdqu	32(%r12,%rax), %xmm2
	movdqu	48(%r12,%rax), %xmm3
	psrlw	$8, %xmm3
	psrlw	$8, %xmm2
	packuswb	%xmm3, %xmm2
	psrlw	$8, %xmm1
	psrlw	$8, %xmm0
	packuswb	%xmm1, %xmm0
	movdqa	.LCPI0_6(%rip), %xmm1
	pand	%xmm1, %xmm2
	pand	%xmm1, %xmm0
	movdqa	.LCPI0_7(%rip), %xmm1
	pcmpeqb	%xmm1, %xmm0
	pmovmskb	%xmm0, %esi
	pcmpeqb	%xmm1, %xmm2
	pmovmskb	%xmm2, %edi
	shll	$16, %edi
	orl	%esi, %edi
	xorl	%esi, %esi
	popcntl	%edi, %esi
	addq	%rsi, %rcx
	addq	$64, %rax
	movq	%rbx, %rdi
	subq	%rax, %rdi
	leaq	64(%rdx), %rsi
	cmpq	$63, %rdi
	ja	.LBB0_101
	cmpq	$2, %rdi
	jb	.LBB0_119
	movq	%rbx, %rsi
	andq	$-64, %rsi
	leaq	-2(%rbx), %rdi
	xorl	%r8d, %r8d
	cmpq	%rsi, %rdi
	setne	%r8b
	movq	%rbx, %rdi
	subq	%r8, %rdi
	notq	%rsi
	addq	%rdi, %rsi
	cmpq	$8, %rsi
	movq	8(%rsp), %r12
	jb	.LBB0_107
	shrq	%rsi
	incq	%rsi
	movl	%esi, %edi
	andl	$3, %edi
	movl	$4, %r8d
	cmovneq	%rdi, %r8
	subq	%r8, %rsi
	leaq	(%rax,%rsi,2), %rax
	movq	%rcx, %xmm1
	pxor	%xmm0, %xmm0
	.p2align	4
.LBB0_105:
	movzbl	-6(%rdx), %ecx
	movd	%ecx, %xmm2
	pinsrb	$1, -4(%rdx), %xmm2
	movzbl	-2(%rdx), %ecx
	movd	%ecx, %xmm3
	pinsrb	$1, (%rdx), %xmm3
	movdqa	.LCPI0_8(%rip), %xmm4
	pand	%xmm4, %xmm2
	pand	%xmm4, %xmm3
	movdqa	.LCPI0_9(%rip), %xmm4
	pcmpeqb	%xmm4, %xmm2
	pmovzxbq	%xmm2, %xmm2
	movdqa	.LCPI0_10(%rip), %xmm5
	pand	%xmm5, %xmm2
	paddq	%xmm2, %xmm1
	pcmpeqb	%xmm4, %xmm3
	pmovzxbq	%xmm3, %xmm2
	pand	%xmm5, %xmm2
	paddq	%xmm2, %xmm0
	addq	$8, %rdx
	addq	$-4, %rsi
	jne	.LBB0_105
	paddq	%xmm1, %xmm0
	pshufd	$238, %xmm0, %xmm1
	paddq	%xmm0, %xmm1
	movq	%xmm1, %rcx
.LBB0_107:
	movq	%rbx, %rdx
	subq	%rax, %rdx
	addq	%r15, %rax
	addq	264(%rsp), %rax
	.p2align	4
.LBB0_108:
	movzbl	(%rax), %esi
	andb	$-4, %sil
	xorl	%edi, %edi
	cmpb	$-36, %sil
	sete	%dil
	addq	%rdi, %rcx
	addq	$-2, %rdx
	addq	$2, %rax
	cmpq	$1, %rdx
	ja	.LBB0_108
	jmp	.LBB0_120
	.p2align	4
.LBB0_109:
	cmpq	$7, %rbp
	ja	.LBB0_115
	cmpq	$4, %rbp
	je	.LBB0_127
	cmpq	$6, %rbp
	je	.LBB0_124
	testq	%rbp, %rbp
	jne	.LBB0_97
	jmp	.LBB0_135
.LBB0_113:
	xorl	%ebp, %ebp
	cmpq	$64, %rbx
	jae	.LBB0_100
.LBB0_114:
	movq	%r12, %rdi
	movq	%rbx, %rsi
	callq	L_7
	movq	8(%rsp), %r12
	jmp	.LBB0_121
.LBB0_115:
	cmpq	$65, %rbp
	setae	%al
	movl	%ebp, %ecx
	orb	%al, %cl
	testb	$1, %cl
	jne	.LBB0_97
	cmpq	$15, %rbp
	ja	.LBB0_129
	movq	(%r12), %xmm0
	psrlw	$8, %xmm0
	packuswb	%xmm0, %xmm0
	pand	.LCPI0_4(%rip), %xmm0
	pcmpeqb	.LCPI0_5(%rip), %xmm0
	pmovsxbd	%xmm0, %xmm0
	movmskps	%xmm0, %eax
	testl	%eax, %eax
	jne	.LBB0_97
	movq	128(%rsp), %rax
	movq	(%rax), %xmm0
	psrlw	$8, %xmm0
	packuswb	%xmm0, %xmm0
	pand	.LCPI0_4(%rip), %xmm0
	pcmpeqb	.LCPI0_5(%rip), %xmm0
	pmovsxbd	%xmm0, %xmm0
	movmskps	%xmm0, %eax
	testl	%eax, %eax
	jne	.LBB0_97
	jmp	.LBB0_135
.LBB0_119:
	movq	8(%rsp), %r12
.LBB0_120:
	movq	%rbx, %rax
	shrq	%rax
	subq	%rcx, %rax
.LBB0_121:
	addq	%rax, %r12
	addq	%r15, %rbx
	cmpb	$1, %r14b
	jne	.LBB0_190
	movq	96(%rsp), %r14
	leaq	(%rbx,%r14), %rdi
	leaq	136(%rsp), %rdx
	movl	%ebp, %esi
	callq	L_8
	testb	%al, %al
	jne	.LBB0_247
	movq	%r12, 8(%rsp)
	addq	$2, %rbx
	movq	24(%rsp), %rax
	incq	%rax
	movq	%rbx, %r15
	movq	88(%rsp), %rbp
	movq	64(%rsp), %rdx
	jmp	.LBB0_94
.LBB0_124:
	movzbl	1(%r12), %eax
	andb	$-8, %al
	cmpb	$-40, %al
	je	.LBB0_97
	movzbl	3(%r12), %eax
	andb	$-8, %al
	cmpb	$-40, %al
	je	.LBB0_97
	movzbl	5(%r12), %eax
	jmp	.LBB0_96
.LBB0_127:
	movzbl	1(%r12), %eax
	andb	$-8, %al
	cmpb	$-40, %al
	je	.LBB0_97
	movzbl	3(%r12), %eax
	jmp	.LBB0_96
.LBB0_129:
	cmpq	$31, %rbp
	ja	.LBB0_132
	movdqu	(%r12), %xmm0
	psrlw	$8, %xmm0
	packuswb	%xmm0, %xmm0
	pand	.LCPI0_2(%rip), %xmm0
	pcmpeqb	.LCPI0_3(%rip), %xmm0
	pmovmskb	%xmm0, %eax
	testb	%al, %al
	jne	.LBB0_97
	movq	112(%rsp), %rax
	movdqu	(%rax), %xmm0
	psrlw	$8, %xmm0
	packuswb	%xmm0, %xmm0
	pand	.LCPI0_2(%rip), %xmm0
	pcmpeqb	.LCPI0_3(%rip), %xmm0
	pmovmskb	%xmm0, %eax
	testb	%al, %al
	jne	.LBB0_97
	jmp	.LBB0_135
.LBB0_132:
	movdqu	(%r12), %xmm0
	movdqu	16(%r12), %xmm1
	psrlw	$8, %xmm1
	psrlw	$8, %xmm0
	packuswb	%xmm1, %xmm0
	pand	.LCPI0_0(%rip), %xmm0
	pcmpeqb	.LCPI0_1(%rip), %xmm0
	pmovmskb	%xmm0, %eax
	testl	%eax, %eax
	jne	.LBB0_97
	movq	120(%rsp), %rax
	movdqu	(%rax), %xmm0
	movdqu	16(%rax), %xmm1
	psrlw	$8, %xmm1
	psrlw	$8, %xmm0
	packuswb	%xmm1, %xmm0
	pand	.LCPI0_0(%rip), %xmm0
	pcmpeqb	.LCPI0_1(%rip), %xmm0
	pmovmskb	%xmm0, %eax
	testl	%eax, %eax
	jne	.LBB0_97
.LBB0_134:
	cmpq	$64, %rbp
	jae	.LBB0_201
.LBB0_135:
	movq	%r12, %rdi
	movq	%rbp, %rsi
	callq	L_7
	movq	%rax, %rbp
	movq	56(%rsp), %r8
	movq	88(%rsp), %rbx
	movq	24(%rsp), %r9
	movq	8(%rsp), %r12
	jmp	.LBB0_215
.LBB0_136:
	cmpq	$2, %r15
	jae	.LBB0_138
	xorl	%r12d, %r12d
	xorl	%r8d, %r8d
	jmp	.LBB0_224
.LBB0_138:
	movzbl	288(%rsp), %ecx
	movzbl	289(%rsp), %eax
	cmpl	$255, %ecx
	movq	%rbp, 104(%rsp)
	je	.LBB0_142
	cmpl	$254, %ecx
	jne	.LBB0_144
	cmpb	$-1, %al
	jne	.LBB0_144
	movl	$2, %ecx
	leaq	290(%rsp), %rdx
	jmp	.LBB0_145
.LBB0_142:
	cmpb	$-2, %al
	jne	.LBB0_144
	leaq	-2(%r15), %rbp
	addq	$2, %r14
	leaq	(%rsp,%r15), %rax
	addq	$256, %rax
	movq	%rax, 120(%rsp)
	leaq	272(%rsp,%r15), %rax
	movq	%rax, 112(%rsp)
	leaq	280(%rsp,%r15), %rax
	movq	%rax, 128(%rsp)
	movl	$2, %ecx
	leaq	290(%rsp), %rdx
	jmp	.LBB0_93
.LBB0_144:
	xorl	%ecx, %ecx
	leaq	288(%rsp), %rdx
.LBB0_145:
	movq	%r15, %rbp
	subq	%rcx, %rbp
	addq	%rcx, %r14
	leaq	(%rsp,%r15), %rax
	addq	$256, %rax
	movq	%rax, 120(%rsp)
	leaq	(%rsp,%r15), %rax
	addq	$272, %rax
	movq	%rax, 112(%rsp)
	leaq	(%rsp,%r15), %rax
	addq	$280, %rax
	movq	%rax, 128(%rsp)
.LBB0_146:
	movq	%rcx, 56(%rsp)
	leaq	70(%rdx), %rax
	movq	%rax, 168(%rsp)
	xorl	%eax, %eax
	movq	$0, 8(%rsp)
	xorl	%r15d, %r15d
	movq	%rbp, 88(%rsp)
	movq	%rdx, 64(%rsp)
	movq	%r14, 96(%rsp)
	.p2align	4
.LBB0_147:
	leaq	(%rdx,%r15), %r12
	subq	%r15, %rbp
	cmpq	$2, %rbp
	movq	%rax, 24(%rsp)
	jne	.LBB0_162
	movzbl	(%r12), %eax
.LBB0_149:
	andb	$-8, %al
	cmpb	$-40, %al
	jne	.LBB0_188
.LBB0_150:
	movq	%r12, %rdi
	movq	%rbp, %rsi
	callq	L_9
	movq	%rbp, %rsi
	subq	%rax, %rsi
	je	.LBB0_187
	movq	%rax, %rbx
	leaq	(%r12,%rax), %rbp
	movq	%rbp, %rdi
	callq	L_10
	movl	%eax, %r14d
	cmpb	$1, %al
	jne	.LBB0_166
	movzwl	(%rbp), %ebp
	rolw	$8, %bp
	cmpq	$64, %rbx
	jb	.LBB0_167
.LBB0_153:
	movq	168(%rsp), %rax
	leaq	(%rax,%r15), %rsi
	xorl	%eax, %eax
	xorl	%ecx, %ecx
	.p2align	4
.LBB0_154:
	movq	%rsi, %rdx
	movdqu	(%r12,%rax), %xmm0
	movdqu	16(%r12,%rax), %xmm1
	movdqu	32(%r12,%rax), %xmm2
	movdqu	48(%r12,%rax), %xmm3
	movdqa	.LCPI0_11(%rip), %xmm4
	pand	%xmm4, %xmm1
	pand	%xmm4, %xmm0
	packuswb	%xmm1, %xmm0
	pand	%xmm4, %xmm3
	pand	%xmm4, %xmm2
	packuswb	%xmm3, %xmm2
	movdqa	.LCPI0_6(%rip), %xmm1
	pand	%xmm1, %xmm2
	pand	%xmm1, %xmm0
	movdqa	.LCPI0_7(%rip), %xmm1
	pcmpeqb	%xmm1, %xmm0
	pmovmskb	%xmm0, %esi
	pcmpeqb	%xmm1, %xmm2
	pmovmskb	%xmm2, %edi
	shll	$16, %edi
	orl	%esi, %edi
	xorl	%esi, %esi
	popcntl	%edi, %esi
	addq	%rsi, %rcx
	addq	$64, %rax
	movq	%rbx, %rdi
	subq	%rax, %rdi
	leaq	64(%rdx), %rsi
	cmpq	$63, %rdi
	ja	.LBB0_154
	cmpq	$2, %rdi
	jb	.LBB0_172
	movq	%rbx, %rsi
	andq	$-64, %rsi
	leaq	-2(%rbx), %rdi
	xorl	%r8d, %r8d
	cmpq	%rsi, %rdi
	setne	%r8b
	movq	%rbx, %rdi
	subq	%r8, %rdi
	notq	%rsi
	addq	%rdi, %rsi
	cmpq	$8, %rsi
	movq	8(%rsp), %r12
	jb	.LBB0_160
	shrq	%rsi
	incq	%rsi
	movl	%esi, %edi
	andl	$3, %edi
	movl	$4, %r8d
	cmovneq	%rdi, %r8
	subq	%r8, %rsi
	leaq	(%rax,%rsi,2), %rax
	movq	%rcx, %xmm1
	pxor	%xmm0, %xmm0
	.p2align	4
.LBB0_158:
	movzbl	-6(%rdx), %ecx
	movd	%ecx, %xmm2
	pinsrb	$1, -4(%rdx), %xmm2
	movzbl	-2(%rdx), %ecx
	movd	%ecx, %xmm3
	pinsrb	$1, (%rdx), %xmm3
	movdqa	.LCPI0_8(%rip), %xmm4
	pand	%xmm4, %xmm2
	pand	%xmm4, %xmm3
	movdqa	.LCPI0_9(%rip), %xmm4
	pcmpeqb	%xmm4, %xmm2
	pmovzxbq	%xmm2, %xmm2
	movdqa	.LCPI0_10(%rip), %xmm5
	pand	%xmm5, %xmm2
	paddq	%xmm2, %xmm1
	pcmpeqb	%xmm4, %xmm3
	pmovzxbq	%xmm3, %xmm2
	pand	%xmm5, %xmm2
	paddq	%xmm2, %xmm0
	addq	$8, %rdx
	addq	$-4, %rsi
	jne	.LBB0_158
	paddq	%xmm1, %xmm0
	pshufd	$238, %xmm0, %xmm1
	paddq	%xmm0, %xmm1
	movq	%xmm1, %rcx
.LBB0_160:
	movq	64(%rsp), %rsi
	movq	%rbx, %rdx
	subq	%rax, %rdx
	addq	%r15, %rax
	addq	%rsi, %rax
	.p2align	4
.LBB0_161:
	movzbl	(%rax), %esi
	andb	$-4, %sil
	xorl	%edi, %edi
	cmpb	$-36, %sil
	sete	%dil
	addq	%rdi, %rcx
	addq	$-2, %rdx
	addq	$2, %rax
	cmpq	$1, %rdx
	ja	.LBB0_161
	jmp	.LBB0_173
	.p2align	4
.LBB0_162:
	cmpq	$7, %rbp
	ja	.LBB0_168
	cmpq	$4, %rbp
	je	.LBB0_180
	cmpq	$6, %rbp
	je	.LBB0_177
	testq	%rbp, %rbp
	jne	.LBB0_150
	jmp	.LBB0_188
	.p2align	4
.LBB0_166:
	xorl	%ebp, %ebp
	cmpq	$64, %rbx
	jae	.LBB0_153
.LBB0_167:
	movq	%r12, %rdi
	movq	%rbx, %rsi
	callq	L_11
	movq	8(%rsp), %r12
	jmp	.LBB0_174
.LBB0_168:
	cmpq	$65, %rbp
	setae	%al
	movl	%ebp, %ecx
	orb	%al, %cl
	testb	$1, %cl
	jne	.LBB0_150
	cmpq	$15, %rbp
	ja	.LBB0_182
	movq	(%r12), %xmm0
	pshufb	.LCPI0_13(%rip), %xmm0
	pand	.LCPI0_4(%rip), %xmm0
	pcmpeqb	.LCPI0_5(%rip), %xmm0
	pmovsxbd	%xmm0, %xmm0
	movmskps	%xmm0, %eax
	testl	%eax, %eax
	jne	.LBB0_150
	movq	128(%rsp), %rax
	movq	(%rax), %xmm0
	pshufb	.LCPI0_13(%rip), %xmm0
	pand	.LCPI0_4(%rip), %xmm0
	pcmpeqb	.LCPI0_5(%rip), %xmm0
	pmovsxbd	%xmm0, %xmm0
	movmskps	%xmm0, %eax
	testl	%eax, %eax
	jne	.LBB0_150
	jmp	.LBB0_188
.LBB0_172:
	movq	8(%rsp), %r12
.LBB0_173:
	movq	%rbx, %rax
	shrq	%rax
	subq	%rcx, %rax
.LBB0_174:
	addq	%rax, %r12
	addq	%r15, %rbx
	cmpb	$1, %r14b
	jne	.LBB0_189
	movq	96(%rsp), %r14
	leaq	(%rbx,%r14), %rdi
	leaq	136(%rsp), %rdx
	movl	%ebp, %esi
	callq	L_8
	testb	%al, %al
	jne	.LBB0_247
	movq	%r12, 8(%rsp)
	addq	$2, %rbx
	movq	24(%rsp), %rax
	incq	%rax
	movq	%rbx, %r15
	movq	88(%rsp), %rbp
	movq	64(%rsp), %rdx
	jmp	.LBB0_147
.LBB0_177:
	movzbl	(%r12), %eax
	andb	$-8, %al
	cmpb	$-40, %al
	je	.LBB0_150
	movzbl	2(%r12), %eax
	andb	$-8, %al
	cmpb	$-40, %al
	je	.LBB0_150
	movzbl	4(%r12), %eax
	jmp	.LBB0_149
.LBB0_180:
	movzbl	(%r12), %eax
	andb	$-8, %al
	cmpb	$-40, %al
	je	.LBB0_150
	movzbl	2(%r12), %eax
	jmp	.LBB0_149
.LBB0_182:
	cmpq	$31, %rbp
	ja	.LBB0_185
	movdqu	(%r12), %xmm0
	pshufb	.LCPI0_12(%rip), %xmm0
	pand	.LCPI0_2(%rip), %xmm0
	pcmpeqb	.LCPI0_3(%rip), %xmm0
	pmovmskb	%xmm0, %eax
	testb	%al, %al
	jne	.LBB0_150
	movq	112(%rsp), %rax
	movdqu	(%rax), %xmm0
	pshufb	.LCPI0_12(%rip), %xmm0
	pand	.LCPI0_2(%rip), %xmm0
	pcmpeqb	.LCPI0_3(%rip), %xmm0
	pmovmskb	%xmm0, %eax
	testb	%al, %al
	jne	.LBB0_150
	jmp	.LBB0_188
.LBB0_185:
	movdqu	(%r12), %xmm1
	movdqu	16(%r12), %xmm2
	movdqa	.LCPI0_11(%rip), %xmm0
	pand	%xmm0, %xmm2
	pand	%xmm0, %xmm1
	packuswb	%xmm2, %xmm1
	pand	.LCPI0_0(%rip), %xmm1
	pcmpeqb	.LCPI0_1(%rip), %xmm1
	pmovmskb	%xmm1, %eax
	testl	%eax, %eax
	jne	.LBB0_150
	movq	120(%rsp), %rax
	movdqu	(%rax), %xmm1
	movdqu	16(%rax), %xmm2
	pand	%xmm0, %xmm2
	pand	%xmm0, %xmm1
	packuswb	%xmm2, %xmm1
	pand	.LCPI0_0(%rip), %xmm1
	pcmpeqb	.LCPI0_1(%rip), %xmm1
	pmovmskb	%xmm1, %eax
	testl	%eax, %eax
	jne	.LBB0_150
.LBB0_187:
	cmpq	$64, %rbp
	jae	.LBB0_192
.LBB0_188:
	movq	%r12, %rdi
	movq	%rbp, %rsi
	callq	L_11
	movq	%rax, %rbp
	movq	80(%rsp), %r15
	movq	56(%rsp), %r8
	movq	88(%rsp), %rbx
	movq	24(%rsp), %r9
	movq	8(%rsp), %r12
	jmp	.LBB0_212
.LBB0_189:
	movb	$1, %al
	movq	%rax, 8(%rsp)
	jmp	.LBB0_191
.LBB0_190:
	movq	$0, 8(%rsp)
.LBB0_191:
	movq	72(%rsp), %rax
	movq	96(%rsp), %r14
	movq	80(%rsp), %r15
	movq	56(%rsp), %r8
	movq	24(%rsp), %r9
	jmp	.LBB0_217
.LBB0_192:
	movq	64(%rsp), %rax
	leaq	(%rax,%r15), %rsi
	addq	$70, %rsi
	xorl	%eax, %eax
	xorl	%ecx, %ecx
	.p2align	4
.LBB0_193:
	movq	%rsi, %rdx
	movdqu	(%r12,%rax), %xmm0
	movdqu	16(%r12,%rax), %xmm1
	movdqu	32(%r12,%rax), %xmm2
	movdqu	48(%r12,%rax), %xmm3
	movdqa	.LCPI0_11(%rip), %xmm4
	pand	%xmm4, %xmm1
	pand	%xmm4, %xmm0
	packuswb	%xmm1, %xmm0
	pand	%xmm4, %xmm3
	pand	%xmm4, %xmm2
	packuswb	%xmm3, %xmm2
	movdqa	.LCPI0_6(%rip), %xmm1
	pand	%xmm1, %xmm2
	pand	%xmm1, %xmm0
	movdqa	.LCPI0_7(%rip), %xmm1
	pcmpeqb	%xmm1, %xmm0
	pmovmskb	%xmm0, %esi
	pcmpeqb	%xmm1, %xmm2
	pmovmskb	%xmm2, %edi
	shll	$16, %edi
	orl	%esi, %edi
	xorl	%esi, %esi
	popcntl	%edi, %esi
	addq	%rsi, %rcx
	addq	$64, %rax
	movq	%rbp, %rdi
	subq	%rax, %rdi
	leaq	64(%rdx), %rsi
	cmpq	$63, %rdi
	ja	.LBB0_193
	cmpq	$2, %rdi
	movq	88(%rsp), %rbx
	jb	.LBB0_210
	leaq	-66(%rbx), %rsi
	leaq	-64(%rbp), %rdi
	andq	$-64, %rdi
	addq	%r15, %rdi
	xorl	%r8d, %r8d
	cmpq	%rdi, %rsi
	setne	%r8b
	movq	%rbx, %rsi
	subq	%r8, %rsi
	subq	%rdi, %rsi
	addq	$-65, %rsi
	cmpq	$8, %rsi
	movq	8(%rsp), %r12
	jb	.LBB0_199
	shrq	%rsi
	leaq	1(%rsi), %rdi
	movl	%edi, %r8d
	andl	$3, %r8d
	movl	$4, %r9d
	cmovneq	%r8, %r9
	subq	%r9, %rdi
	leaq	(%rax,%rdi,2), %rax
	movq	%rcx, %xmm0
	notq	%rsi
	addq	%r9, %rsi
	pxor	%xmm1, %xmm1
.LBB0_197:
	movzbl	-6(%rdx), %ecx
	movd	%ecx, %xmm2
	pinsrb	$1, -4(%rdx), %xmm2
	movzbl	-2(%rdx), %ecx
	movd	%ecx, %xmm3
	pinsrb	$1, (%rdx), %xmm3
	movdqa	.LCPI0_8(%rip), %xmm4
	pand	%xmm4, %xmm2
	pand	%xmm4, %xmm3
	movdqa	.LCPI0_9(%rip), %xmm4
	pcmpeqb	%xmm4, %xmm2
	pmovzxbq	%xmm2, %xmm2
	movdqa	.LCPI0_10(%rip), %xmm5
	pand	%xmm5, %xmm2
	paddq	%xmm2, %xmm0
	pcmpeqb	%xmm4, %xmm3
	pmovzxbq	%xmm3, %xmm2
	pand	%xmm5, %xmm2
	paddq	%xmm2, %xmm1
	addq	$8, %rdx
	addq	$4, %rsi
	jne	.LBB0_197
	paddq	%xmm0, %xmm1
	pshufd	$238, %xmm1, %xmm0
	paddq	%xmm1, %xmm0
	movq	%xmm0, %rcx
.LBB0_199:
	movq	56(%rsp), %r8
	movq	24(%rsp), %r9
	movq	64(%rsp), %rdi
	movq	%rbx, %rdx
	subq	%rax, %rdx
	subq	%r15, %rdx
	addq	%rax, %rdi
	addq	%r15, %rdi
.LBB0_200:
	movzbl	(%rdi), %eax
	andb	$-4, %al
	xorl	%esi, %esi
	cmpb	$-36, %al
	sete	%sil
	addq	%rsi, %rcx
	addq	$-2, %rdx
	addq	$2, %rdi
	cmpq	$1, %rdx
	ja	.LBB0_200
	jmp	.LBB0_211
.LBB0_201:
	movq	64(%rsp), %rax
	leaq	(%rax,%r15), %rsi
	addq	$71, %rsi
	xorl	%eax, %eax
	xorl	%ecx, %ecx
	.p2align	4
.LBB0_202:
	movq	%rsi, %rdx
	movdqu	(%r12,%rax), %xmm0
	movdqu	16(%r12,%rax), %xmm1
	movdqu	32(%r12,%rax), %xmm2
	movdqu	48(%r12,%rax), %xmm3
	psrlw	$8, %xmm3
	psrlw	$8, %xmm2
	packuswb	%xmm3, %xmm2
	psrlw	$8, %xmm1
	psrlw	$8, %xmm0
	packuswb	%xmm1, %xmm0
	movdqa	.LCPI0_6(%rip), %xmm1
	pand	%xmm1, %xmm2
	pand	%xmm1, %xmm0
	movdqa	.LCPI0_7(%rip), %xmm1
	pcmpeqb	%xmm1, %xmm0
	pmovmskb	%xmm0, %esi
	pcmpeqb	%xmm1, %xmm2
	pmovmskb	%xmm2, %edi
	shll	$16, %edi
	orl	%esi, %edi
	xorl	%esi, %esi
	popcntl	%edi, %esi
	addq	%rsi, %rcx
	addq	$64, %rax
	movq	%rbp, %rdi
	subq	%rax, %rdi
	leaq	64(%rdx), %rsi
	cmpq	$63, %rdi
	ja	.LBB0_202
	cmpq	$2, %rdi
	movq	88(%rsp), %rbx
	jb	.LBB0_213
	leaq	-66(%rbx), %rsi
	leaq	-64(%rbp), %rdi
	andq	$-64, %rdi
	addq	%r15, %rdi
	xorl	%r8d, %r8d
	cmpq	%rdi, %rsi
	setne	%r8b
	movq	%rbx, %rsi
	subq	%r8, %rsi
	subq	%rdi, %rsi
	addq	$-65, %rsi
	cmpq	$8, %rsi
	movq	8(%rsp), %r12
	jb	.LBB0_208
	shrq	%rsi
	leaq	1(%rsi), %rdi
	movl	%edi, %r8d
	andl	$3, %r8d
	movl	$4, %r9d
	cmovneq	%r8, %r9
	subq	%r9, %rdi
	leaq	(%rax,%rdi,2), %rax
	movq	%rcx, %xmm0
	notq	%rsi
	addq	%r9, %rsi
	pxor	%xmm1, %xmm1
.LBB0_206:
	movzbl	-6(%rdx), %ecx
	movd	%ecx, %xmm2
	pinsrb	$1, -4(%rdx), %xmm2
	movzbl	-2(%rdx), %ecx
	movd	%ecx, %xmm3
	pinsrb	$1, (%rdx), %xmm3
	movdqa	.LCPI0_8(%rip), %xmm4
	pand	%xmm4, %xmm2
	pand	%xmm4, %xmm3
	movdqa	.LCPI0_9(%rip), %xmm4
	pcmpeqb	%xmm4, %xmm2
	pmovzxbq	%xmm2, %xmm2
	movdqa	.LCPI0_10(%rip), %xmm5
	pand	%xmm5, %xmm2
	paddq	%xmm2, %xmm0
	pcmpeqb	%xmm4, %xmm3
	pmovzxbq	%xmm3, %xmm2
	pand	%xmm5, %xmm2
	paddq	%xmm2, %xmm1
	addq	$8, %rdx
	addq	$4, %rsi
	jne	.LBB0_206
	paddq	%xmm0, %xmm1
	pshufd	$238, %xmm1, %xmm0
	paddq	%xmm1, %xmm0
	movq	%xmm0, %rcx
.LBB0_208:
	movq	56(%rsp), %r8
	movq	24(%rsp), %r9
	movq	64(%rsp), %rsi
	movq	%rbx, %rdx
	subq	%rax, %rdx
	subq	%r15, %rdx
	addq	%rax, %rsi
	leaq	(%r15,%rsi), %rax
	incq	%rax
.LBB0_209:
	movzbl	(%rax), %esi
	andb	$-4, %sil
	xorl	%edi, %edi
	cmpb	$-36, %sil
	sete	%dil
	addq	%rdi, %rcx
	addq	$-2, %rdx
	addq	$2, %rax
	cmpq	$1, %rdx
	ja	.LBB0_209
	jmp	.LBB0_214
.LBB0_210:
	movq	56(%rsp), %r8
	movq	24(%rsp), %r9
	movq	8(%rsp), %r12
.LBB0_211:
	shrq	%rbp
	subq	%rcx, %rbp
	movq	80(%rsp), %r15
.LBB0_212:
	addq	%rbp, %r12
	movb	$1, %al
	movq	%rax, 8(%rsp)
	jmp	.LBB0_216
.LBB0_213:
	movq	56(%rsp), %r8
	movq	24(%rsp), %r9
	movq	8(%rsp), %r12
.LBB0_214:
	shrq	%rbp
	subq	%rcx, %rbp
.LBB0_215:
	movq	80(%rsp), %r15
	addq	%rbp, %r12
	movq	$0, 8(%rsp)
.LBB0_216:
	movq	72(%rsp), %rax
.LBB0_217:
	addq	%rbx, %r14
	addq	%r12, %rax
	movq	%rax, 72(%rsp)
	addq	%r9, 160(%rsp)
	addq	%rbx, %r8
	movq	136(%rsp), %rbx
	movq	144(%rsp), %rbp
	movb	$1, %r12b
	testq	%rbp, %rbp
	je	.LBB0_223
	movq	%r8, 56(%rsp)
	movq	%r14, 96(%rsp)
	xorl	%r15d, %r15d
	.p2align	4
.LBB0_219:
	leaq	(%rbx,%r15), %rsi
	movq	%rbp, %r14
	subq	%r15, %r14
	movl	$1, %edi
	movq	%r14, %rdx
	callq	sysv_write
	testq	%rax, %rax
	js	.LBB0_238
	cmpq	%r14, %rax
	cmovbq	%rax, %r14
	testq	%r14, %r14
	je	.LBB0_239
	addq	%r14, %r15
	cmpq	%rbp, %r15
	jb	.LBB0_219
	movq	104(%rsp), %rbp
	movq	96(%rsp), %r14
	movq	80(%rsp), %r15
	movq	56(%rsp), %r8
	jmp	.LBB0_224
.LBB0_223:
	movq	104(%rsp), %rbp
.LBB0_224:
	subq	%r8, %r15
	je	.LBB0_88
	xorl	%eax, %eax
	cmpq	$4, %r15
	jb	.LBB0_236
	leaq	31(%r8), %rcx
	cmpq	$32, %rcx
	jb	.LBB0_236
	cmpq	$32, %r15
	jae	.LBB0_229
	xorl	%eax, %eax
	jmp	.LBB0_233
.LBB0_229:
	movq	%r15, %rax
	andq	$-32, %rax
	leaq	304(%rsp), %rcx
	movq	%rax, %rdx
	.p2align	4
.LBB0_230:
	movdqu	-16(%rcx,%r8), %xmm0
	movdqu	(%rcx,%r8), %xmm1
	movdqu	%xmm0, -16(%rcx)
	movdqu	%xmm1, (%rcx)
	addq	$32, %rcx
	addq	$-32, %rdx
	jne	.LBB0_230
	cmpq	%rax, %r15
	je	.LBB0_88
	testb	$28, %r15b
	je	.LBB0_236
.LBB0_233:
	movq	%rax, %rcx
	movq	%r15, %rax
	andq	$-4, %rax
	leaq	(%rsp,%rcx), %rdx
	addq	$288, %rdx
	subq	%rax, %rcx
	.p2align	4
.LBB0_234:
	movl	(%rdx,%r8), %esi
	movl	%esi, (%rdx)
	addq	$4, %rdx
	addq	$4, %rcx
	jne	.LBB0_234
	cmpq	%rax, %r15
	je	.LBB0_88
.LBB0_236:
	addq	%rbp, %r13
	subq	%rax, %r13
	addq	%rsp, %rax
	addq	$288, %rax
	.p2align	4
.LBB0_237:
	movzbl	(%rax,%r8), %ecx
	movb	%cl, (%rax)
	decq	%r13
	incq	%rax
	cmpq	%r13, %r8
	jne	.LBB0_237
	jmp	.LBB0_88
.LBB0_247:
	movb	$4, %bl
	cmpq	$0, 152(%rsp)
	jne	.LBB0_249
.LBB0_250:
	movzbl	%bl, %ebx
	leaq	.Lstatic.27(%rip), %r14
	movl	$15, %r15d
	xorl	%ebp, %ebp
	leaq	.LJTI0_0(%rip), %rax
	movslq	(%rax,%rbx,4), %rcx
	addq	%rax, %rcx
	jmpq	*%rcx
.LBB0_238:
	leaq	176(%rsp), %rdi
	callq	L_4
.LBB0_239:
	movb	$3, %bl
	cmpq	$0, 152(%rsp)
	je	.LBB0_250
.LBB0_249:
	movq	136(%rsp), %rdi
	callq	rattle_dealloc
	movzbl	%bl, %ebx
	leaq	.Lstatic.27(%rip), %r14
	movl	$15, %r15d
	xorl	%ebp, %ebp
	leaq	.LJTI0_0(%rip), %rax
	movslq	(%rax,%rbx,4), %rcx
	addq	%rax, %rcx
	jmpq	*%rcx
.LBB0_240:
	testq	%rbx, %rbx
	je	.LBB0_242
	movq	%r15, %rdi
	callq	rattle_dealloc
.LBB0_242:
	movq	176(%rsp), %rbx
	movq	192(%rsp), %r14
	testq	%rbp, %rbp
	je	.LBB0_276
	leaq	16(%rbx), %r15
	jmp	.LBB0_245
	.p2align	4
.LBB0_244:
	addq	$24, %r15
	decq	%rbp
	je	.LBB0_276
.LBB0_245:
	cmpq	$0, (%r15)
	je	.LBB0_244
	movq	-16(%r15), %rdi
	callq	rattle_dealloc
	jmp	.LBB0_244
.LBB0_251:
	leaq	176(%rsp), %rdi
	callq	L_4
	cmpq	$0, 152(%rsp)
	je	.LBB0_253
	movq	%rbx, %rdi
	callq	rattle_dealloc
.LBB0_253:
	leaq	.Lstatic.26(%rip), %r14
	movl	$14, %r15d
	jmp	.LBB0_70
.LBB0_254:
	movdqu	136(%rsp), %xmm0
	movdqa	%xmm0, 32(%rsp)
	movq	152(%rsp), %rax
	movq	%rax, 48(%rsp)
	movq	$0, 40(%rsp)
	leaq	(%r14,%rbp), %rdi
	testq	%rbp, %rbp
	je	.LBB0_262
	pxor	%xmm0, %xmm0
	movdqa	%xmm0, 272(%rsp)
	movq	$-5, %rcx
	xorl	%r13d, %r13d
	movq	%r14, %r8
	movq	%r14, %rax
.LBB0_256:
	movl	%eax, %edx
	andl	$15, %edx
	leal	48(%rdx), %esi
	leal	55(%rdx), %r9d
	cmpq	$10, %rdx
	movzbl	%sil, %edx
	movzbl	%r9b, %esi
	cmovbl	%edx, %esi
	movb	%sil, 287(%rsp,%r13)
	shrq	$4, %rax
	decq	%r13
	decq	%rcx
	testq	%rax, %rax
	jne	.LBB0_256
	pxor	%xmm0, %xmm0
	movdqa	%xmm0, 192(%rsp)
	movdqa	%xmm0, 176(%rsp)
	movq	$0, 208(%rsp)
	movl	$40, %r14d
	cmpq	$10000, %r8
	jb	.LBB0_263
.LBB0_258:
	movabsq	$3777893186295716171, %rdx
	movq	%r8, %rax
	mulq	%rdx
	shrq	$11, %rdx
	imull	$10000, %edx, %eax
	movl	%r8d, %esi
	subl	%eax, %esi
	imull	$5243, %esi, %eax
	shrl	$19, %eax
	imull	$100, %eax, %r9d
	subl	%r9d, %esi
	movzwl	%si, %esi
	leaq	.Lstatic.18(%rip), %r9
	movzwl	(%r9,%rsi,2), %esi
	movw	%si, 174(%rsp,%r14)
	movzwl	(%r9,%rax,2), %eax
	movw	%ax, 172(%rsp,%r14)
	addq	$-4, %r14
	cmpq	$99999999, %r8
	movq	%rdx, %r8
	ja	.LBB0_258
	jmp	.LBB0_264
.LBB0_259:
	cmpq	$0, 152(%rsp)
	je	.LBB0_261
	movq	%rbx, %rdi
	callq	rattle_dealloc
.LBB0_261:
	leaq	.Lstatic.29(%rip), %r14
	movl	$17, %r15d
	jmp	.LBB0_70
.LBB0_262:
	leaq	32(%rsp), %rcx
	movq	72(%rsp), %rsi
	movq	160(%rsp), %r13
	movq	%r13, %rdx
	callq	L_12
	jmp	.LBB0_315
.LBB0_263:
	movq	%r8, %rdx
.LBB0_264:
	cmpq	$99, %rdx
	movq	%rbp, 104(%rsp)
	movq	%rdi, 24(%rsp)
	ja	.LBB0_267
	cmpq	$9, %rdx
	ja	.LBB0_278
	orb	$48, %dl
	movb	%dl, 175(%rsp,%r14)
	decq	%r14
	jmp	.LBB0_280
.LBB0_267:
	movl	%edx, %eax
	shrl	$2, %eax
	movzwl	%ax, %eax
	imull	$5243, %eax, %eax
	shrl	$17, %eax
	imull	$100, %eax, %esi
	movl	%edx, %r8d
	subl	%esi, %r8d
	movzwl	%r8w, %r8d
	leaq	.Lstatic.18(%rip), %rsi
	movzwl	(%rsi,%r8,2), %r8d
	movw	%r8w, 174(%rsp,%r14)
	cmpq	$999, %rdx
	ja	.LBB0_279
	orb	$48, %al
	movb	%al, 173(%rsp,%r14)
	addq	$-3, %r14
	jmp	.LBB0_280
.LBB0_269:
	testq	%rbx, %rbx
	je	.LBB0_271
	movq	%r15, %rdi
	callq	rattle_dealloc
.LBB0_271:
	movq	176(%rsp), %rbx
	movq	184(%rsp), %r15
	movq	192(%rsp), %r14
	testq	%r15, %r15
	je	.LBB0_276
	leaq	16(%rbx), %r12
	jmp	.LBB0_274
.LBB0_273:
	addq	$24, %r12
	decq	%r15
	je	.LBB0_276
.LBB0_274:
	cmpq	$0, (%r12)
	je	.LBB0_273
	movq	-16(%r12), %rdi
	callq	rattle_dealloc
	jmp	.LBB0_273
.LBB0_276:
	testq	%r14, %r14
	je	.LBB0_68
	movq	%rbx, %rdi
	jmp	.LBB0_67
.LBB0_278:
	leaq	.Lstatic.18(%rip), %rax
	movzwl	(%rax,%rdx,2), %eax
	movw	%ax, 174(%rsp,%r14)
	addq	$-2, %r14
	jmp	.LBB0_280
.LBB0_279:
	movzwl	%ax, %eax
	movzwl	(%rsi,%rax,2), %eax
	movw	%ax, 172(%rsp,%r14)
	addq	$-4, %r14
.LBB0_280:
	movl	$40, %r15d
	subq	%r14, %r15
	cmpq	%r15, %rcx
	cmovaeq	%r15, %rcx
	subq	%r13, %rcx
	addq	$4, %rcx
	addq	$24, %rcx
	movq	$-1, %rsi
	cmovaeq	%rcx, %rsi
	movq	48(%rsp), %r9
	cmpq	%r9, %rsi
	ja	.LBB0_297
	xorl	%r12d, %r12d
.LBB0_282:
	movq	%r13, %rdx
	negq	%rdx
	movq	32(%rsp), %rbp
	leaq	(%r12,%rbp), %rax
	addq	$2, %r12
	leaq	.Lstatic.15(%rip), %rcx
	movq	%rax, %rsi
	subq	%rcx, %rsi
	cmpq	$1, %rsi
	movw	$30768, (%rax)
	movq	%r12, 40(%rsp)
	movq	%r9, 48(%rsp)
	movq	%r9, %rax
	subq	%r12, %rax
	cmpq	%rax, %rdx
	ja	.LBB0_301
.LBB0_283:
	leaq	(%rsp,%r13), %rsi
	addq	$288, %rsi
	movq	%r12, %rbx
	subq	%r13, %rbx
	leaq	(%r12,%rbp), %rdi
	movq	%r15, 8(%rsp)
	movq	%r9, %r15
	callq	sysv_memcpy
	movq	%rbp, %r9
	movq	%r15, %rbp
	movq	8(%rsp), %r15
	movq	%r9, 32(%rsp)
	movq	%rbx, 40(%rsp)
	movq	%rbp, 48(%rsp)
	movq	%rbp, %rax
	subq	%r12, %rax
	addq	%r13, %rax
	cmpq	$1, %rax
	jbe	.LBB0_309
.LBB0_284:
	leaq	(%r9,%rbx), %rax
	addq	$2, %rbx
	leaq	.Lstatic.16(%rip), %rcx
	movq	%rax, %rdx
	subq	%rcx, %rdx
	cmpq	$1, %rdx
	movw	$10272, (%rax)
	movq	%r9, 32(%rsp)
	movq	%rbx, 40(%rsp)
	movq	%rbp, 48(%rsp)
	movq	%rbp, %rax
	subq	%rbx, %rax
	cmpq	%rax, %r15
	ja	.LBB0_311
.LBB0_285:
	leaq	(%rsp,%r14), %rsi
	addq	$176, %rsi
	leaq	(%rbx,%r15), %r13
	leaq	(%r9,%rbx), %rdi
	movq	%rdi, %rax
	subq	%rsi, %rax
	cmpq	%r15, %rax
	jae	.LBB0_291
	cmpq	$4, %r15
	jb	.LBB0_288
	leaq	176(%rsp), %rcx
	movq	%rdi, %rdx
	subq	%r14, %rdx
	subq	%rcx, %rdx
	cmpq	$32, %rdx
	jae	.LBB0_295
.LBB0_288:
	xorl	%eax, %eax
	jmp	.LBB0_289
.LBB0_291:
	movq	%r15, %rdx
	movq	%r9, %rbx
	callq	sysv_memmove
	movq	%rbx, %r9
	jmp	.LBB0_292
.LBB0_295:
	cmpq	$32, %r15
	jae	.LBB0_303
	xorl	%eax, %eax
	jmp	.LBB0_307
.LBB0_297:
	leaq	32(%rsp), %rdi
	callq	L_1
	testb	%al, %al
	je	.LBB0_316
	movq	40(%rsp), %r12
	movq	48(%rsp), %r9
	movq	%r9, %rax
	subq	%r12, %rax
	cmpq	$1, %rax
	ja	.LBB0_282
	leaq	32(%rsp), %rdi
	movl	$2, %esi
	callq	L_1
	testb	%al, %al
	je	.LBB0_316
	movq	40(%rsp), %r12
	movq	48(%rsp), %r9
	jmp	.LBB0_282
.LBB0_301:
	leaq	32(%rsp), %rdi
	movq	%rdx, %rbx
	movq	%rdx, %rsi
	callq	L_1
	testb	%al, %al
	je	.LBB0_316
	movq	32(%rsp), %rbp
	movq	40(%rsp), %r12
	movq	48(%rsp), %r9
	movq	%rbx, %rdx
	jmp	.LBB0_283
.LBB0_303:
	movq	%r15, %rax
	andq	$-32, %rax
	addq	%r14, %rcx
	addq	$16, %rcx
	leaq	(%rbx,%r9), %rdx
	addq	$16, %rdx
	xorl	%r8d, %r8d
.LBB0_304:
	movdqu	-16(%rcx,%r8), %xmm0
	movdqu	(%rcx,%r8), %xmm1
	movdqu	%xmm0, -16(%rdx,%r8)
	movdqu	%xmm1, (%rdx,%r8)
	addq	$32, %r8
	cmpq	%r8, %rax
	jne	.LBB0_304
	cmpq	%rax, %r15
	je	.LBB0_292
	testb	$28, %r15b
	je	.LBB0_289
.LBB0_307:
	movq	%rax, %rcx
	movq	%r15, %rax
	andq	$-4, %rax
.LBB0_308:
	movl	(%rsi,%rcx), %edx
	movl	%edx, (%rdi,%rcx)
	addq	$4, %rcx
	cmpq	%rcx, %rax
	jne	.LBB0_308
	jmp	.LBB0_290
.LBB0_309:
	leaq	32(%rsp), %rdi
	movl	$2, %esi
	callq	L_1
	testb	%al, %al
	je	.LBB0_316
	movq	32(%rsp), %r9
	movq	40(%rsp), %rbx
	movq	48(%rsp), %rbp
	jmp	.LBB0_284
.LBB0_311:
	leaq	32(%rsp), %rdi
	movq	%r15, %rsi
	callq	L_1
	testb	%al, %al
	je	.LBB0_316
	movq	32(%rsp), %r9
	movq	40(%rsp), %rbx
	movq	48(%rsp), %rbp
	jmp	.LBB0_285
.LBB0_289:
	movzbl	(%rsi,%rax), %ecx
	movb	%cl, (%rdi,%rax)
	incq	%rax
.LBB0_290:
	cmpq	%rax, %r15
	jne	.LBB0_289
.LBB0_292:
	movq	%r9, 32(%rsp)
	movq	%r13, 40(%rsp)
	movq	%rbp, 48(%rsp)
	movq	%rbp, %rax
	subq	%r13, %rax
	cmpq	$23, %rax
	jbe	.LBB0_336
.LBB0_293:
	pxor	%xmm0, %xmm0
	leaq	40(%rsp), %rax
	movdqu	%xmm0, (%rax)
	leaq	(%r9,%r13), %rax
	addq	$24, %r13
	leaq	.Lstatic.17(%rip), %rcx
	movq	%rax, %rdx
	subq	%rcx, %rdx
	movabsq	$752775638282236513, %rcx
	cmpq	$23, %rdx
	ja	.LBB0_313
	movdqa	.LCPI0_14(%rip), %xmm0
	jmp	.LBB0_314
.LBB0_313:
	movdqu	.Lstatic.17(%rip), %xmm0
.LBB0_314:
	movdqu	%xmm0, (%rax)
	movq	%rcx, 16(%rax)
	movq	24(%rsp), %rdi
	movq	%r9, 32(%rsp)
	movq	%r13, 40(%rsp)
	movq	%rbp, 48(%rsp)
	movq	160(%rsp), %r13
	leaq	1(%r13), %rdx
	leaq	32(%rsp), %rcx
	movq	72(%rsp), %rsi
	callq	L_12
	movq	104(%rsp), %rbp
.LBB0_315:
	testb	%al, %al
	je	.LBB0_318
.LBB0_316:
	cmpq	$0, 48(%rsp)
	je	.LBB0_326
	movq	32(%rsp), %rdi
	callq	rattle_dealloc
	movb	$4, %al
	movzbl	%al, %ebx
	leaq	.Lstatic.27(%rip), %r14
	movl	$15, %r15d
	xorl	%ebp, %ebp
	leaq	.LJTI0_0(%rip), %rax
	movslq	(%rax,%rbx,4), %rcx
	addq	%rax, %rcx
	jmpq	*%rcx
.LBB0_318:
	movq	32(%rsp), %rbx
	movq	40(%rsp), %r15
	testq	%r15, %r15
	je	.LBB0_323
	xorl	%r12d, %r12d
.LBB0_320:
	leaq	(%rbx,%r12), %rsi
	movq	%r15, %r14
	subq	%r12, %r14
	movl	$1, %edi
	movq	%r14, %rdx
	callq	sysv_write
	testq	%rax, %rax
	js	.LBB0_329
	cmpq	%r14, %rax
	cmovbq	%rax, %r14
	testq	%r14, %r14
	je	.LBB0_330
	addq	%r14, %r12
	cmpq	%r15, %r12
	jb	.LBB0_320
.LBB0_323:
	orq	%rbp, %r13
	movq	48(%rsp), %rax
	je	.LBB0_327
	movb	$1, %bpl
	testq	%rax, %rax
	je	.LBB0_334
	movq	%rbx, %rdi
	callq	rattle_dealloc
	jmp	.LBB0_334
.LBB0_326:
	movb	$4, %bpl
	jmp	.LBB0_334
.LBB0_327:
	testq	%rax, %rax
	je	.LBB0_333
	movq	%rbx, %rdi
	callq	rattle_dealloc
	xorl	%eax, %eax
	movzbl	%al, %ebx
	leaq	.Lstatic.27(%rip), %r14
	movl	$15, %r15d
	xorl	%ebp, %ebp
	leaq	.LJTI0_0(%rip), %rax
	movslq	(%rax,%rbx,4), %rcx
	addq	%rax, %rcx
	jmpq	*%rcx
.LBB0_329:
	leaq	176(%rsp), %rdi
	callq	L_4
.LBB0_330:
	cmpq	$0, 48(%rsp)
	je	.LBB0_332
	movq	%rbx, %rdi
	callq	rattle_dealloc
	movb	$3, %al
	movzbl	%al, %ebx
	leaq	.Lstatic.27(%rip), %r14
	movl	$15, %r15d
	xorl	%ebp, %ebp
	leaq	.LJTI0_0(%rip), %rax
	movslq	(%rax,%rbx,4), %rcx
	addq	%rax, %rcx
	jmpq	*%rcx
.LBB0_332:
	movb	$3, %bpl
	jmp	.LBB0_334
.LBB0_333:
	xorl	%ebp, %ebp
.LBB0_334:
	movzbl	%bpl, %ebx
	leaq	.Lstatic.27(%rip), %r14
	movl	$15, %r15d
	xorl	%ebp, %ebp
	leaq	.LJTI0_0(%rip), %rax
	movslq	(%rax,%rbx,4), %rcx
	addq	%rax, %rcx
	jmpq	*%rcx
.LBB0_335:
	ud2
.LBB0_336:
	leaq	32(%rsp), %rdi
	movl	$24, %esi
	callq	L_1
	testb	%al, %al
	je	.LBB0_316
	movq	32(%rsp), %r9
	movq	40(%rsp), %r13
	movq	48(%rsp), %rbp
	jmp	.LBB0_293
.Lfunc_end0:
	.section	.rdata$002,"dr"
	.p2align	2, 0x0
.LJTI0_0:
	.long	.LBB0_83-.LJTI0_0
	.long	.LBB0_81-.LJTI0_0
	.long	.LBB0_335-.LJTI0_0
	.long	.LBB0_71-.LJTI0_0
	.long	.LBB0_69-.LJTI0_0

	.section	.text$003,"xr"
	.p2align	4
L_1:
	movq	%rsi, %rax
	movq	8(%rdi), %rsi
	addq	%rsi, %rax
	jae	.LBB1_2
	xorl	%eax, %eax
	retq
.LBB1_2:
	pushq	%r14
	pushq	%rbx
	pushq	%rax
	cmpq	$9, %rax
	movl	$8, %ebx
	cmovaeq	%rax, %rbx
	movq	16(%rdi), %rcx
	movq	%rcx, %rdx
	shrq	$62, %rdx
	leaq	(%rcx,%rcx), %rax
	cmpq	%rax, %rbx
	cmovaq	%rbx, %rax
	testq	%rdx, %rdx
	cmoveq	%rax, %rbx
	testq	%rbx, %rbx
	js	.LBB1_6
	testq	%rcx, %rcx
	je	.LBB1_8
	movq	%rdi, %r14
	movq	(%rdi), %rdi
	movl	$1, %ecx
	movq	%rbx, %rdx
	callq	rattle_realloc
	testb	$1, %al
	je	.LBB1_6
.LBB1_9:
	movq	%rdx, (%r14)
	movq	%rbx, 16(%r14)
	movb	$1, %al
	addq	$8, %rsp
	popq	%rbx
	popq	%r14
	retq
.LBB1_8:
	movq	%rdi, %r14
	movl	$1, %esi
	movq	%rax, %rdi
	callq	rattle_alloc
	testb	$1, %al
	jne	.LBB1_9
.LBB1_6:
	xorl	%eax, %eax
	addq	$8, %rsp
	popq	%rbx
	popq	%r14
	retq
.Lfunc_end1:

	.section	.text$004,"xr"
	.p2align	4
L_2:
	pushq	%r15
	pushq	%r14
	pushq	%r13
	pushq	%r12
	pushq	%rbx
	subq	$16, %rsp
	movq	%rdx, %r15
	movq	%rsi, %r14
	movq	%rdi, %rbx
	testq	%rdx, %rdx
	je	.LBB2_57
	movabsq	$-9187201950435737472, %r12
	leaq	-8(%r15), %r13
	xorl	%ecx, %ecx
	jmp	.LBB2_5
.LBB2_25:
	movl	$1, %edi
.LBB2_3:
	addq	%rcx, %rdi
.LBB2_4:
	movq	%rdi, %rcx
	cmpq	%r15, %rdi
	jae	.LBB2_57
.LBB2_5:
	movzbl	(%r14,%rcx), %esi
	testb	%sil, %sil
	sets	%dl
	movq	%r15, %rax
	subq	%rcx, %rax
	cmpq	$2, %rax
	setb	%dil
	orb	%dl, %dil
	jne	.LBB2_2
	cmpb	$0, 1(%r14,%rcx)
	js	.LBB2_25
	movq	%r14, (%rsp)
	movq	%r15, 8(%rsp)
	cmpq	$7, %rax
	ja	.LBB2_26
	cmpb	$0, (%r14,%rcx)
	js	.LBB2_36
	leaq	1(%rcx), %rdi
	cmpq	%r15, %rdi
	je	.LBB2_57
	cmpb	$0, (%r14,%rdi)
	js	.LBB2_4
	leaq	2(%rcx), %rdi
	cmpq	%r15, %rdi
	je	.LBB2_57
	cmpb	$0, (%r14,%rdi)
	js	.LBB2_4
	leaq	3(%rcx), %rdi
	cmpq	%r15, %rdi
	je	.LBB2_57
	cmpb	$0, (%r14,%rdi)
	js	.LBB2_4
	leaq	4(%rcx), %rdi
	cmpq	%r15, %rdi
	je	.LBB2_57
	cmpb	$0, (%r14,%rdi)
	js	.LBB2_4
	leaq	5(%rcx), %rdi
	cmpq	%r15, %rdi
	je	.LBB2_57
	cmpb	$0, (%r14,%rdi)
	js	.LBB2_4
	addq	$6, %rcx
	cmpq	%r15, %rcx
	je	.LBB2_57
	cmpb	$0, (%r14,%rcx)
	movq	%rcx, %rdi
	js	.LBB2_4
	jmp	.LBB2_57
	.p2align	4
.LBB2_2:
	movl	$1, %edi
	testb	%sil, %sil
	jns	.LBB2_3
	movl	$257, %edx
	cmpb	$-62, %sil
	jb	.LBB2_66
	cmpb	$-33, %sil
	ja	.LBB2_29
	cmpq	$2, %rax
	jb	.LBB2_58
	movzbl	1(%r14,%rcx), %r8d
	movl	$2, %edi
	cmpb	$-65, %r8b
	jle	.LBB2_3
	jmp	.LBB2_60
.LBB2_26:
	movq	(%r14,%rcx), %rax
	andq	%r12, %rax
	je	.LBB2_37
	rep		bsfq	%rax, %rax
	shrl	$3, %eax
	addq	%rcx, %rax
	addq	$8, %rcx
	movq	%rax, %rdi
	cmpq	%rcx, %rax
	jb	.LBB2_4
	movq	%r15, %rcx
	subq	%rax, %rcx
	cmpq	$32, %rcx
	jae	.LBB2_38
	jmp	.LBB2_40
.LBB2_29:
	cmpb	$-17, %sil
	ja	.LBB2_48
	cmpq	$3, %rax
	jb	.LBB2_55
	movzbl	1(%r14,%rcx), %r8d
	cmpb	$-65, %r8b
	jg	.LBB2_60
	cmpb	$-65, 2(%r14,%rcx)
	jg	.LBB2_60
	movzbl	%r8b, %edi
	movl	%esi, %r9d
	shll	$6, %r9d
	addl	%edi, %r9d
	addl	$-14464, %r9d
	cmpl	$32, %r9d
	jb	.LBB2_60
	xorl	%r8d, %r8d
	cmpl	$896, %r9d
	setae	%r10b
	movl	$3, %edi
	cmpl	$864, %r9d
	jb	.LBB2_3
	movb	%r10b, %r8b
	leaq	(%r8,%r8,2), %rdi
	testq	%rdi, %rdi
	jne	.LBB2_3
	jmp	.LBB2_54
.LBB2_36:
	movq	%rcx, %rdi
	jmp	.LBB2_4
.LBB2_37:
	addq	$8, %rcx
	movq	%rcx, %rax
	movq	%r15, %rcx
	subq	%rax, %rcx
	cmpq	$32, %rcx
	jb	.LBB2_40
	.p2align	4
.LBB2_38:
	movdqu	(%r14,%rax), %xmm0
	movdqu	16(%r14,%rax), %xmm1
	por	%xmm0, %xmm1
	pshufd	$238, %xmm1, %xmm0
	por	%xmm1, %xmm0
	movq	%xmm0, %rcx
	testq	%r12, %rcx
	jne	.LBB2_40
	addq	$32, %rax
	movq	%rsp, %rdi
	movq	%rax, %rsi
	movq	%r15, %rdx
	callq	L_13
	movq	%r15, %rcx
	subq	%rax, %rcx
	cmpq	$31, %rcx
	ja	.LBB2_38
.LBB2_40:
	movq	%r15, %rcx
	subq	%rax, %rcx
	jmp	.LBB2_43
	.p2align	4
.LBB2_41:
	rep		bsfq	%rdx, %rdi
	shrl	$3, %edi
	addq	%rax, %rdi
	addq	$8, %rax
	addq	$-8, %rcx
	cmpq	%rax, %rdi
	jb	.LBB2_4
.LBB2_43:
	cmpq	$9, %rcx
	jb	.LBB2_46
	movq	(%r14,%rax), %rdx
	andq	%r12, %rdx
	jne	.LBB2_41
	leaq	8(%rax), %rdi
	addq	$8, %rax
	addq	$-8, %rcx
	cmpq	%rax, %rdi
	jae	.LBB2_43
	jmp	.LBB2_4
.LBB2_46:
	movq	(%r14,%r13), %rax
	andq	%r12, %rax
	je	.LBB2_57
	rep		bsfq	%rax, %rdi
	shrl	$3, %edi
	addq	%r13, %rdi
	jmp	.LBB2_4
.LBB2_48:
	cmpq	$4, %rax
	jb	.LBB2_54
	movzbl	1(%r14,%rcx), %edi
	cmpb	$-65, %dil
	jg	.LBB2_54
	cmpb	$-65, 2(%r14,%rcx)
	jg	.LBB2_54
	cmpb	$-65, 3(%r14,%rcx)
	jg	.LBB2_54
	movl	%esi, %r8d
	shll	$6, %r8d
	leal	(%r8,%rdi), %r9d
	addl	$-15488, %r9d
	xorl	%edi, %edi
	cmpl	$272, %r9d
	setb	%r8b
	cmpl	$16, %r9d
	jb	.LBB2_54
	movb	%r8b, %dil
	shll	$2, %edi
	testq	%rdi, %rdi
	jne	.LBB2_3
.LBB2_54:
	cmpb	$-12, %sil
	ja	.LBB2_66
.LBB2_55:
	cmpq	$2, %rax
	jb	.LBB2_58
	movzbl	1(%r14,%rcx), %r8d
.LBB2_60:
	cmpl	$240, %esi
	sete	%dil
	shlb	$4, %dil
	orb	$-128, %dil
	cmpl	$224, %esi
	movzbl	%dil, %edi
	movl	$160, %r9d
	cmovnel	%edi, %r9d
	cmpl	$244, %esi
	movl	$143, %edi
	movl	$191, %r10d
	cmovel	%edi, %r10d
	cmpl	$237, %esi
	movl	$159, %esi
	cmovnel	%r10d, %esi
	cmpb	%r8b, %r9b
	ja	.LBB2_66
	cmpb	%sil, %r8b
	ja	.LBB2_66
	cmpq	$2, %rax
	jne	.LBB2_64
.LBB2_58:
	xorl	%edx, %edx
.LBB2_66:
	movq	$1, (%rbx)
	movq	%rcx, 8(%rbx)
	movq	%rdx, 16(%rbx)
	jmp	.LBB2_67
.LBB2_57:
	movq	$0, (%rbx)
	movq	%r14, 8(%rbx)
	movq	%r15, 16(%rbx)
.LBB2_67:
	addq	$16, %rsp
	popq	%rbx
	popq	%r12
	popq	%r13
	popq	%r14
	popq	%r15
	retq
.LBB2_64:
	movl	$513, %edx
	cmpb	$-65, 2(%r14,%rcx)
	jg	.LBB2_66
	xorl	%esi, %esi
	cmpq	$4, %rax
	movl	$769, %edx
	cmovbq	%rsi, %rdx
	jmp	.LBB2_66
.Lfunc_end2:

	.section	.rdata$000,"dr"
	.p2align	4, 0x0
.LCPI3_0:
	.zero	16,128
	.section	.text$005,"xr"
	.p2align	4
L_13:
	movq	%rsi, %rax
	subq	%rsi, %rdx
	cmpq	$64, %rdx
	jb	.LBB3_4
	movq	(%rdi), %rcx
	.p2align	4
.LBB3_2:
	movdqu	(%rcx,%rax), %xmm0
	movdqu	16(%rcx,%rax), %xmm1
	movdqu	32(%rcx,%rax), %xmm2
	por	%xmm0, %xmm2
	movdqu	48(%rcx,%rax), %xmm0
	por	%xmm1, %xmm0
	por	%xmm2, %xmm0
	ptest	.LCPI3_0(%rip), %xmm0
	jne	.LBB3_4
	addq	$64, %rax
	addq	$-64, %rdx
	cmpq	$63, %rdx
	ja	.LBB3_2
.LBB3_4:
	retq
.Lfunc_end3:

	.section	.text$006,"xr"
	.p2align	4
L_3:
	movq	8(%rdi), %rax
	cmpq	$-1, %rax
	je	.LBB4_5
	pushq	%r14
	pushq	%rbx
	pushq	%rax
	movq	16(%rdi), %rcx
	cmpq	$4, %rax
	movl	$3, %ebx
	cmovaeq	%rax, %rbx
	incq	%rbx
	movq	%rcx, %rsi
	shrq	$62, %rsi
	leaq	(%rcx,%rcx), %rdx
	cmpq	%rdx, %rbx
	cmovaq	%rbx, %rdx
	testq	%rsi, %rsi
	cmoveq	%rdx, %rbx
	movabsq	$384307168202282325, %rsi
	cmpq	%rsi, %rbx
	ja	.LBB4_6
	testq	%rcx, %rcx
	je	.LBB4_8
	movq	%rdi, %r14
	movq	(%rdi), %rdi
	shlq	$3, %rax
	leaq	(%rax,%rax,2), %rsi
	leaq	(,%rbx,8), %rax
	leaq	(%rax,%rax,2), %rdx
	movl	$8, %ecx
	callq	rattle_realloc
	testb	$1, %al
	je	.LBB4_6
.LBB4_9:
	movq	%rdx, (%r14)
	movq	%rbx, 16(%r14)
	movb	$1, %al
	addq	$8, %rsp
	popq	%rbx
	popq	%r14
	retq
.LBB4_5:
	xorl	%eax, %eax
	retq
.LBB4_8:
	movq	%rdi, %r14
	shlq	$3, %rdx
	leaq	(%rdx,%rdx,2), %rdi
	movl	$8, %esi
	callq	rattle_alloc
	testb	$1, %al
	jne	.LBB4_9
.LBB4_6:
	xorl	%eax, %eax
	addq	$8, %rsp
	popq	%rbx
	popq	%r14
	retq
.Lfunc_end4:

	.section	.text$007,"xr"
	.p2align	4
L_4:
	pushq	%rbx
	movq	%rdi, %rbx
	callq	rattle_errno
	movl	%eax, %ecx
	movb	$41, %dl
	testl	%eax, %eax
	js	.LBB5_40
	decl	%eax
	cmpl	$121, %eax
	ja	.LBB5_40
	leaq	.LJTI5_0(%rip), %rsi
	movslq	(%rsi,%rax,4), %rax
	addq	%rsi, %rax
	jmpq	*%rax
.LBB5_3:
	movb	$1, %dl
	jmp	.LBB5_40
.LBB5_24:
	movb	$36, %dl
	jmp	.LBB5_40
.LBB5_36:
	movb	$4, %dl
	jmp	.LBB5_40
.LBB5_33:
	movb	$7, %dl
	jmp	.LBB5_40
.LBB5_39:
	movb	$26, %dl
	jmp	.LBB5_40
.LBB5_37:
	movb	$39, %dl
	jmp	.LBB5_40
.LBB5_28:
	movb	$9, %dl
	jmp	.LBB5_40
.LBB5_27:
	movb	$8, %dl
	jmp	.LBB5_40
.LBB5_22:
	movb	$30, %dl
	jmp	.LBB5_40
.LBB5_18:
	movb	$25, %dl
	jmp	.LBB5_40
.LBB5_20:
	movb	$32, %dl
	jmp	.LBB5_40
.LBB5_23:
	movb	$33, %dl
	jmp	.LBB5_40
.LBB5_34:
	movb	$22, %dl
	jmp	.LBB5_40
.LBB5_11:
	movb	$31, %dl
	jmp	.LBB5_40
.LBB5_15:
	movb	$29, %dl
	jmp	.LBB5_40
.LBB5_26:
	movb	$18, %dl
	jmp	.LBB5_40
.LBB5_29:
	movb	$10, %dl
	jmp	.LBB5_40
.LBB5_9:
	movb	$28, %dl
	jmp	.LBB5_40
.LBB5_12:
	movb	$14, %dl
	jmp	.LBB5_40
.LBB5_10:
	movb	$12, %dl
	jmp	.LBB5_40
.LBB5_30:
	movb	$5, %dl
	jmp	.LBB5_40
.LBB5_32:
	movb	$3, %dl
	jmp	.LBB5_40
.LBB5_4:
	xorl	%edx, %edx
	jmp	.LBB5_40
.LBB5_7:
	movb	$13, %dl
	jmp	.LBB5_40
.LBB5_8:
	movb	$38, %dl
	jmp	.LBB5_40
.LBB5_21:
	movb	$11, %dl
	jmp	.LBB5_40
.LBB5_5:
	movb	$35, %dl
	jmp	.LBB5_40
.LBB5_6:
	movb	$34, %dl
	jmp	.LBB5_40
.LBB5_14:
	movb	$20, %dl
	jmp	.LBB5_40
.LBB5_13:
	movb	$15, %dl
	jmp	.LBB5_40
.LBB5_38:
	movb	$19, %dl
	jmp	.LBB5_40
.LBB5_25:
	movb	$16, %dl
	jmp	.LBB5_40
.LBB5_31:
	movb	$6, %dl
	jmp	.LBB5_40
.LBB5_16:
	movb	$27, %dl
	jmp	.LBB5_40
.LBB5_17:
	movb	$24, %dl
	jmp	.LBB5_40
.LBB5_35:
	movb	$2, %dl
	jmp	.LBB5_40
.LBB5_19:
	movb	$17, %dl
.LBB5_40:
	movb	$0, (%rbx)
	movb	%dl, 1(%rbx)
	movw	$0, 2(%rbx)
	movl	%ecx, 4(%rbx)
	xorps	%xmm0, %xmm0
	movups	%xmm0, 8(%rbx)
	movups	%xmm0, 24(%rbx)
	movups	%xmm0, 40(%rbx)
	movups	%xmm0, 56(%rbx)
	movups	%xmm0, 72(%rbx)
	popq	%rbx
	retq
.Lfunc_end5:
	.section	.rdata$008,"dr"
	.p2align	2, 0x0
.LJTI5_0:
	.long	.LBB5_3-.LJTI5_0
	.long	.LBB5_4-.LJTI5_0
	.long	.LBB5_40-.LJTI5_0
	.long	.LBB5_5-.LJTI5_0
	.long	.LBB5_40-.LJTI5_0
	.long	.LBB5_40-.LJTI5_0
	.long	.LBB5_6-.LJTI5_0
	.long	.LBB5_40-.LJTI5_0
	.long	.LBB5_40-.LJTI5_0
	.long	.LBB5_40-.LJTI5_0
	.long	.LBB5_7-.LJTI5_0
	.long	.LBB5_8-.LJTI5_0
	.long	.LBB5_3-.LJTI5_0
	.long	.LBB5_40-.LJTI5_0
	.long	.LBB5_40-.LJTI5_0
	.long	.LBB5_9-.LJTI5_0
	.long	.LBB5_10-.LJTI5_0
	.long	.LBB5_11-.LJTI5_0
	.long	.LBB5_40-.LJTI5_0
	.long	.LBB5_12-.LJTI5_0
	.long	.LBB5_13-.LJTI5_0
	.long	.LBB5_14-.LJTI5_0
	.long	.LBB5_40-.LJTI5_0
	.long	.LBB5_40-.LJTI5_0
	.long	.LBB5_40-.LJTI5_0
	.long	.LBB5_15-.LJTI5_0
	.long	.LBB5_16-.LJTI5_0
	.long	.LBB5_17-.LJTI5_0
	.long	.LBB5_18-.LJTI5_0
	.long	.LBB5_19-.LJTI5_0
	.long	.LBB5_20-.LJTI5_0
	.long	.LBB5_21-.LJTI5_0
	.long	.LBB5_40-.LJTI5_0
	.long	.LBB5_40-.LJTI5_0
	.long	.LBB5_22-.LJTI5_0
	.long	.LBB5_23-.LJTI5_0
	.long	.LBB5_40-.LJTI5_0
	.long	.LBB5_24-.LJTI5_0
	.long	.LBB5_25-.LJTI5_0
	.long	.LBB5_26-.LJTI5_0
	.long	.LBB5_40-.LJTI5_0
	.long	.LBB5_40-.LJTI5_0
	.long	.LBB5_40-.LJTI5_0
	.long	.LBB5_40-.LJTI5_0
	.long	.LBB5_40-.LJTI5_0
	.long	.LBB5_40-.LJTI5_0
	.long	.LBB5_40-.LJTI5_0
	.long	.LBB5_40-.LJTI5_0
	.long	.LBB5_40-.LJTI5_0
	.long	.LBB5_40-.LJTI5_0
	.long	.LBB5_40-.LJTI5_0
	.long	.LBB5_40-.LJTI5_0
	.long	.LBB5_40-.LJTI5_0
	.long	.LBB5_40-.LJTI5_0
	.long	.LBB5_40-.LJTI5_0
	.long	.LBB5_40-.LJTI5_0
	.long	.LBB5_40-.LJTI5_0
	.long	.LBB5_40-.LJTI5_0
	.long	.LBB5_40-.LJTI5_0
	.long	.LBB5_40-.LJTI5_0
	.long	.LBB5_40-.LJTI5_0
	.long	.LBB5_40-.LJTI5_0
	.long	.LBB5_40-.LJTI5_0
	.long	.LBB5_40-.LJTI5_0
	.long	.LBB5_40-.LJTI5_0
	.long	.LBB5_40-.LJTI5_0
	.long	.LBB5_40-.LJTI5_0
	.long	.LBB5_40-.LJTI5_0
	.long	.LBB5_40-.LJTI5_0
	.long	.LBB5_40-.LJTI5_0
	.long	.LBB5_40-.LJTI5_0
	.long	.LBB5_40-.LJTI5_0
	.long	.LBB5_40-.LJTI5_0
	.long	.LBB5_40-.LJTI5_0
	.long	.LBB5_40-.LJTI5_0
	.long	.LBB5_40-.LJTI5_0
	.long	.LBB5_40-.LJTI5_0
	.long	.LBB5_40-.LJTI5_0
	.long	.LBB5_40-.LJTI5_0
	.long	.LBB5_40-.LJTI5_0
	.long	.LBB5_40-.LJTI5_0
	.long	.LBB5_40-.LJTI5_0
	.long	.LBB5_40-.LJTI5_0
	.long	.LBB5_40-.LJTI5_0
	.long	.LBB5_40-.LJTI5_0
	.long	.LBB5_40-.LJTI5_0
	.long	.LBB5_40-.LJTI5_0
	.long	.LBB5_40-.LJTI5_0
	.long	.LBB5_40-.LJTI5_0
	.long	.LBB5_40-.LJTI5_0
	.long	.LBB5_40-.LJTI5_0
	.long	.LBB5_40-.LJTI5_0
	.long	.LBB5_40-.LJTI5_0
	.long	.LBB5_40-.LJTI5_0
	.long	.LBB5_24-.LJTI5_0
	.long	.LBB5_40-.LJTI5_0
	.long	.LBB5_40-.LJTI5_0
	.long	.LBB5_27-.LJTI5_0
	.long	.LBB5_28-.LJTI5_0
	.long	.LBB5_29-.LJTI5_0
	.long	.LBB5_30-.LJTI5_0
	.long	.LBB5_40-.LJTI5_0
	.long	.LBB5_31-.LJTI5_0
	.long	.LBB5_32-.LJTI5_0
	.long	.LBB5_40-.LJTI5_0
	.long	.LBB5_40-.LJTI5_0
	.long	.LBB5_33-.LJTI5_0
	.long	.LBB5_40-.LJTI5_0
	.long	.LBB5_40-.LJTI5_0
	.long	.LBB5_34-.LJTI5_0
	.long	.LBB5_35-.LJTI5_0
	.long	.LBB5_40-.LJTI5_0
	.long	.LBB5_36-.LJTI5_0
	.long	.LBB5_40-.LJTI5_0
	.long	.LBB5_37-.LJTI5_0
	.long	.LBB5_38-.LJTI5_0
	.long	.LBB5_40-.LJTI5_0
	.long	.LBB5_40-.LJTI5_0
	.long	.LBB5_40-.LJTI5_0
	.long	.LBB5_40-.LJTI5_0
	.long	.LBB5_40-.LJTI5_0
	.long	.LBB5_39-.LJTI5_0

	.section	.rdata$000,"dr"
	.p2align	4, 0x0
.LCPI6_0:
	.byte	255
	.byte	0
	.byte	255
	.byte	0
	.byte	255
	.byte	0
	.byte	255
	.byte	0
	.byte	255
	.byte	0
	.byte	255
	.byte	0
	.byte	255
	.byte	0
	.byte	255
	.byte	0
.LCPI6_1:
	.zero	16,248
.LCPI6_2:
	.zero	16,216
.LCPI6_3:
	.zero	16,252
.LCPI6_4:
	.zero	16,220
	.section	.text$009,"xr"
	.p2align	4
L_9:
	cmpq	$32, %rsi
	jae	.LBB6_10
	testq	%rsi, %rsi
	je	.LBB6_14
	xorl	%ecx, %ecx
	jmp	.LBB6_4
	.p2align	4
.LBB6_3:
	addq	%rcx, %rax
	movq	%rax, %rcx
	cmpq	%rsi, %rax
	jae	.LBB6_34
.LBB6_4:
	movq	%rsi, %r8
	subq	%rcx, %r8
	cmpq	$2, %r8
	jb	.LBB6_15
	movzwl	(%rdi,%rcx), %edx
	rolw	$8, %dx
	movl	%edx, %r9d
	andl	$63488, %r9d
	movl	$2, %eax
	cmpl	$55296, %r9d
	jne	.LBB6_3
	cmpq	$4, %r8
	jb	.LBB6_15
	andl	$56320, %edx
	movzwl	%dx, %eax
	cmpl	$56320, %eax
	je	.LBB6_15
	movzbl	2(%rdi,%rcx), %edx
	andb	$-4, %dl
	movl	$4, %eax
	cmpb	$-36, %dl
	je	.LBB6_3
	jmp	.LBB6_15
.LBB6_10:
	cmpq	$64, %rsi
	jb	.LBB6_13
	movdqu	(%rdi), %xmm3
	movdqu	16(%rdi), %xmm1
	movdqu	32(%rdi), %xmm4
	movdqu	48(%rdi), %xmm2
	movdqa	.LCPI6_0(%rip), %xmm0
	pand	%xmm0, %xmm1
	pand	%xmm0, %xmm3
	packuswb	%xmm1, %xmm3
	pand	%xmm0, %xmm2
	pand	%xmm0, %xmm4
	packuswb	%xmm2, %xmm4
	movdqa	.LCPI6_1(%rip), %xmm1
	pand	%xmm1, %xmm4
	pand	%xmm1, %xmm3
	movdqa	.LCPI6_2(%rip), %xmm2
	pcmpeqb	%xmm2, %xmm3
	pcmpeqb	%xmm2, %xmm4
	movdqa	%xmm4, %xmm5
	por	%xmm3, %xmm5
	pmovmskb	%xmm5, %eax
	testl	%eax, %eax
	je	.LBB6_16
	xorl	%ecx, %ecx
	movq	%rsi, %rax
	jmp	.LBB6_23
.LBB6_13:
	xorl	%ecx, %ecx
	xorl	%edx, %edx
	jmp	.LBB6_39
.LBB6_14:
	xorl	%eax, %eax
	retq
.LBB6_16:
	movq	%rsi, %rdx
	andq	$-128, %rdx
	leaq	-256(%rsi), %r8
	xorl	%ecx, %ecx
	.p2align	4
.LBB6_17:
	cmpq	$256, %rdx
	sete	%al
	addq	$64, %rcx
	cmpq	$256, %rcx
	setne	%r9b
	orb	%al, %r9b
	jne	.LBB6_21
	movl	$256, %ecx
	movq	%r8, %rax
	.p2align	4
.LBB6_19:
	movdqu	(%rdi,%rcx), %xmm4
	movdqu	16(%rdi,%rcx), %xmm5
	movdqu	32(%rdi,%rcx), %xmm3
	movdqu	48(%rdi,%rcx), %xmm6
	pand	%xmm0, %xmm5
	pand	%xmm0, %xmm4
	packuswb	%xmm5, %xmm4
	pand	%xmm0, %xmm6
	pand	%xmm0, %xmm3
	packuswb	%xmm6, %xmm3
	pand	%xmm1, %xmm3
	pand	%xmm1, %xmm4
	pcmpeqb	%xmm2, %xmm4
	pcmpeqb	%xmm2, %xmm3
	por	%xmm4, %xmm3
	movdqu	64(%rdi,%rcx), %xmm4
	movdqu	80(%rdi,%rcx), %xmm5
	movdqu	96(%rdi,%rcx), %xmm6
	movdqu	112(%rdi,%rcx), %xmm7
	pand	%xmm0, %xmm7
	pand	%xmm0, %xmm6
	packuswb	%xmm7, %xmm6
	pand	%xmm0, %xmm5
	pand	%xmm0, %xmm4
	packuswb	%xmm5, %xmm4
	pand	%xmm1, %xmm4
	pand	%xmm1, %xmm6
	pcmpeqb	%xmm2, %xmm6
	pcmpeqb	%xmm2, %xmm4
	por	%xmm6, %xmm4
	por	%xmm3, %xmm4
	pmovmskb	%xmm4, %r9d
	testl	%r9d, %r9d
	jne	.LBB6_21
	subq	$-128, %rcx
	addq	$-128, %rax
	cmpq	$127, %rax
	ja	.LBB6_19
.LBB6_21:
	movq	%rsi, %rax
	subq	%rcx, %rax
	cmpq	$63, %rax
	jbe	.LBB6_38
	movdqu	(%rdi,%rcx), %xmm3
	movdqu	16(%rdi,%rcx), %xmm5
	movdqu	32(%rdi,%rcx), %xmm4
	movdqu	48(%rdi,%rcx), %xmm6
	pand	%xmm0, %xmm5
	pand	%xmm0, %xmm3
	packuswb	%xmm5, %xmm3
	pand	%xmm0, %xmm6
	pand	%xmm0, %xmm4
	packuswb	%xmm6, %xmm4
	pand	%xmm1, %xmm4
	pand	%xmm1, %xmm3
	pcmpeqb	%xmm2, %xmm3
	pcmpeqb	%xmm2, %xmm4
	movdqa	%xmm4, %xmm5
	por	%xmm3, %xmm5
	pmovmskb	%xmm5, %r9d
	testl	%r9d, %r9d
	je	.LBB6_17
.LBB6_23:
	cmpq	$64, %rax
	jne	.LBB6_33
.LBB6_24:
	xorl	%edx, %edx
	jmp	.LBB6_26
	.p2align	4
.LBB6_25:
	movzwl	%r8w, %edx
	shrl	$15, %edx
	cmpq	$63, %rax
	jbe	.LBB6_60
.LBB6_26:
	movdqu	(%rdi,%rcx), %xmm4
	movdqu	16(%rdi,%rcx), %xmm5
	movdqu	32(%rdi,%rcx), %xmm3
	movdqu	48(%rdi,%rcx), %xmm6
	pand	%xmm0, %xmm6
	pand	%xmm0, %xmm3
	packuswb	%xmm6, %xmm3
	pand	%xmm0, %xmm5
	pand	%xmm0, %xmm4
	packuswb	%xmm5, %xmm4
	movdqa	.LCPI6_3(%rip), %xmm5
	pand	%xmm5, %xmm4
	pand	%xmm5, %xmm3
	movdqa	%xmm3, %xmm5
	pcmpeqb	%xmm2, %xmm5
	movdqa	%xmm4, %xmm6
	pcmpeqb	%xmm2, %xmm6
	pmovmskb	%xmm6, %eax
	pmovmskb	%xmm5, %r8d
	movl	%r8d, %r9d
	shll	$16, %r9d
	orl	%eax, %r9d
	movdqa	.LCPI6_4(%rip), %xmm5
	pcmpeqb	%xmm5, %xmm4
	pmovmskb	%xmm4, %eax
	pcmpeqb	%xmm5, %xmm3
	pmovmskb	%xmm3, %r10d
	shll	$16, %r10d
	orl	%eax, %r10d
	movzbl	%dl, %eax
	andl	$1, %eax
	leal	(%rax,%r9,2), %eax
	cmpl	%r10d, %eax
	jne	.LBB6_60
	addq	$64, %rcx
	movq	%rsi, %rax
	subq	%rcx, %rax
	testw	%r8w, %r8w
	js	.LBB6_25
	cmpq	$64, %rax
	jb	.LBB6_25
	movzbl	%cl, %edx
	orq	%r9, %rdx
	jne	.LBB6_25
	.p2align	4
.LBB6_30:
	movdqu	(%rdi,%rcx), %xmm3
	movdqu	16(%rdi,%rcx), %xmm4
	movdqu	32(%rdi,%rcx), %xmm5
	movdqu	48(%rdi,%rcx), %xmm6
	pand	%xmm0, %xmm4
	pand	%xmm0, %xmm3
	packuswb	%xmm4, %xmm3
	pand	%xmm0, %xmm6
	pand	%xmm0, %xmm5
	packuswb	%xmm6, %xmm5
	pand	%xmm1, %xmm5
	pand	%xmm1, %xmm3
	pcmpeqb	%xmm2, %xmm3
	pcmpeqb	%xmm2, %xmm5
	por	%xmm3, %xmm5
	pmovmskb	%xmm5, %edx
	testl	%edx, %edx
	jne	.LBB6_25
	addq	$64, %rcx
	addq	$-64, %rax
	cmpq	$63, %rax
	ja	.LBB6_30
.LBB6_38:
	xorl	%edx, %edx
	cmpq	$32, %rax
	jb	.LBB6_40
.LBB6_39:
	movdqu	(%rdi,%rcx), %xmm0
	movdqu	16(%rdi,%rcx), %xmm1
	movdqa	.LCPI6_0(%rip), %xmm2
	pand	%xmm2, %xmm1
	pand	%xmm2, %xmm0
	packuswb	%xmm1, %xmm0
	pand	.LCPI6_3(%rip), %xmm0
	movdqa	.LCPI6_2(%rip), %xmm1
	pcmpeqb	%xmm0, %xmm1
	pmovmskb	%xmm1, %eax
	movl	%eax, %r8d
	pcmpeqb	.LCPI6_4(%rip), %xmm0
	pmovmskb	%xmm0, %r9d
	movzbl	%dl, %r10d
	movl	%r10d, %edx
	andl	$1, %edx
	andl	$32767, %eax
	leaq	(%rdx,%rax,2), %rax
	leaq	32(%rcx), %rdx
	cmpq	%r9, %rax
	cmoveq	%rdx, %rcx
	xorl	%edx, %edx
	testw	%r8w, %r8w
	sets	%dl
	cmpl	%r9d, %eax
	cmovnel	%r10d, %edx
.LBB6_40:
	leaq	-2(%rcx), %rax
	testb	$1, %dl
	cmoveq	%rcx, %rax
	movq	%rsi, %rcx
	subq	%rax, %rcx
	cmpq	$32, %rcx
	ja	.LBB6_44
	movq	%rax, %rcx
	subq	%rsi, %rcx
	testb	$1, %cl
	jne	.LBB6_48
	movdqu	-32(%rdi,%rsi), %xmm0
	movdqu	-16(%rdi,%rsi), %xmm1
	addl	$32, %ecx
	movdqa	.LCPI6_0(%rip), %xmm2
	pand	%xmm2, %xmm1
	pand	%xmm2, %xmm0
	packuswb	%xmm1, %xmm0
	pand	.LCPI6_3(%rip), %xmm0
	shrl	%ecx
	movdqa	.LCPI6_4(%rip), %xmm1
	pcmpeqb	%xmm0, %xmm1
	pmovmskb	%xmm1, %edx
	shrq	%cl, %rdx
	pcmpeqb	.LCPI6_2(%rip), %xmm0
	pmovmskb	%xmm0, %r8d
	shrq	%cl, %r8
	addl	%r8d, %r8d
	cmpl	%r8d, %edx
	jne	.LBB6_48
	movq	%rsi, %rax
	retq
.LBB6_44:
	cmpq	$64, %rcx
	jae	.LBB6_47
.LBB6_48:
	xorl	%ecx, %ecx
	addq	%rax, %rcx
	cmpq	%rsi, %rcx
	jb	.LBB6_51
	jmp	.LBB6_15
.LBB6_47:
	movdqu	(%rdi,%rax), %xmm0
	movdqu	16(%rdi,%rax), %xmm1
	movdqu	32(%rdi,%rax), %xmm2
	movdqu	48(%rdi,%rax), %xmm3
	movdqa	.LCPI6_0(%rip), %xmm4
	pand	%xmm4, %xmm1
	pand	%xmm4, %xmm0
	packuswb	%xmm1, %xmm0
	pand	%xmm4, %xmm3
	pand	%xmm4, %xmm2
	packuswb	%xmm3, %xmm2
	movdqa	.LCPI6_1(%rip), %xmm1
	pand	%xmm1, %xmm2
	pand	%xmm1, %xmm0
	movdqa	.LCPI6_2(%rip), %xmm1
	pcmpeqb	%xmm1, %xmm0
	pmovmskb	%xmm0, %ecx
	pcmpeqb	%xmm1, %xmm2
	pmovmskb	%xmm2, %edx
	shll	$16, %edx
	orl	%ecx, %edx
	rep		bsfl	%edx, %r8d
	addl	%r8d, %r8d
	testl	%edx, %edx
	movl	$64, %ecx
	cmovnel	%r8d, %ecx
	addq	%rax, %rcx
	cmpq	%rsi, %rcx
	jb	.LBB6_51
	jmp	.LBB6_15
	.p2align	4
.LBB6_50:
	addq	%rcx, %rax
	movq	%rax, %rcx
	cmpq	%rsi, %rax
	jae	.LBB6_34
.LBB6_51:
	movq	%rsi, %r8
	subq	%rcx, %r8
	cmpq	$2, %r8
	jb	.LBB6_15
	movzwl	(%rdi,%rcx), %edx
	rolw	$8, %dx
	movl	%edx, %r9d
	andl	$63488, %r9d
	movl	$2, %eax
	cmpl	$55296, %r9d
	jne	.LBB6_50
	cmpq	$4, %r8
	jb	.LBB6_15
	andl	$56320, %edx
	movzwl	%dx, %eax
	cmpl	$56320, %eax
	je	.LBB6_15
	movzbl	2(%rdi,%rcx), %edx
	andb	$-4, %dl
	movl	$4, %eax
	cmpb	$-36, %dl
	je	.LBB6_50
.LBB6_15:
	movq	%rcx, %rax
	retq
.LBB6_33:
	pmovmskb	%xmm3, %eax
	pmovmskb	%xmm4, %edx
	shll	$16, %edx
	orl	%eax, %edx
	rep		bsfl	%edx, %r8d
	addl	%r8d, %r8d
	testl	%edx, %edx
	movl	$64, %eax
	cmovnel	%r8d, %eax
	addq	%rcx, %rax
	movq	%rsi, %rdx
	subq	%rax, %rdx
	cmpq	$2, %rdx
	jae	.LBB6_35
.LBB6_34:
	retq
.LBB6_35:
	movzwl	(%rdi,%rax), %r8d
	rolw	$8, %r8w
	movl	%r8d, %r9d
	andl	$63488, %r9d
	cmpl	$55296, %r9d
	jne	.LBB6_24
	notl	%r8d
	testl	$56320, %r8d
	sete	%r8b
	cmpq	$4, %rdx
	setb	%dl
	orb	%r8b, %dl
	jne	.LBB6_34
	movzbl	2(%rdi,%rax), %edx
	andb	$-4, %dl
	cmpb	$-36, %dl
	je	.LBB6_24
	jmp	.LBB6_34
.LBB6_60:
	movq	%rsi, %rax
	subq	%rcx, %rax
	cmpq	$32, %rax
	jae	.LBB6_39
	jmp	.LBB6_40
.Lfunc_end6:

	.section	.text$010,"xr"
	.p2align	4
L_10:
	cmpq	$2, %rsi
	jb	.LBB7_7
	movzwl	(%rdi), %ecx
	rolw	$8, %cx
	movl	%ecx, %eax
	andl	$63488, %eax
	cmpl	$55296, %eax
	jne	.LBB7_7
	notl	%ecx
	movb	$1, %al
	testl	$56320, %ecx
	je	.LBB7_5
	cmpq	$4, %rsi
	jae	.LBB7_4
.LBB7_7:
	xorl	%eax, %eax
	retq
.LBB7_4:
	movzbl	2(%rdi), %eax
	andb	$-4, %al
	cmpb	$-36, %al
	setne	%al
.LBB7_5:
	retq
.Lfunc_end7:

	.section	.rdata$000,"dr"
	.p2align	4, 0x0
.LCPI8_0:
	.zero	16,248
.LCPI8_1:
	.zero	16,216
.LCPI8_2:
	.zero	16,252
.LCPI8_3:
	.zero	16,220
	.section	.text$011,"xr"
	.p2align	4
L_5:
	cmpq	$32, %rsi
	jae	.LBB8_10
	testq	%rsi, %rsi
	je	.LBB8_19
	xorl	%ecx, %ecx
	jmp	.LBB8_4
	.p2align	4
.LBB8_3:
	addq	%rcx, %rax
	movq	%rax, %rcx
	cmpq	%rsi, %rax
	jae	.LBB8_20
.LBB8_4:
	movq	%rsi, %rdx
	subq	%rcx, %rdx
	cmpq	$2, %rdx
	jb	.LBB8_41
	movzbl	1(%rdi,%rcx), %r8d
	movl	%r8d, %r9d
	andl	$-8, %r9d
	movl	$2, %eax
	cmpl	$216, %r9d
	jne	.LBB8_3
	cmpq	$4, %rdx
	jb	.LBB8_41
	movzwl	%r8w, %eax
	andl	$-36, %eax
	movzwl	%ax, %eax
	cmpl	$220, %eax
	je	.LBB8_41
	movzbl	3(%rdi,%rcx), %edx
	andb	$-4, %dl
	movl	$4, %eax
	cmpb	$-36, %dl
	je	.LBB8_3
	jmp	.LBB8_41
.LBB8_10:
	cmpq	$64, %rsi
	jb	.LBB8_18
	movq	%rsi, %rdx
	andq	$-128, %rdx
	leaq	-256(%rsi), %r8
	xorl	%ecx, %ecx
	movq	%rsi, %rax
	jmp	.LBB8_13
	.p2align	4
.LBB8_12:
	movq	%rsi, %rax
	subq	%rcx, %rax
	cmpq	$63, %rax
	jbe	.LBB8_31
.LBB8_13:
	movdqu	(%rdi,%rcx), %xmm2
	movdqu	16(%rdi,%rcx), %xmm0
	movdqu	32(%rdi,%rcx), %xmm3
	movdqu	48(%rdi,%rcx), %xmm1
	psrlw	$8, %xmm1
	psrlw	$8, %xmm3
	packuswb	%xmm1, %xmm3
	psrlw	$8, %xmm0
	psrlw	$8, %xmm2
	packuswb	%xmm0, %xmm2
	movdqa	.LCPI8_0(%rip), %xmm0
	pand	%xmm0, %xmm3
	pand	%xmm0, %xmm2
	movdqa	.LCPI8_1(%rip), %xmm1
	pcmpeqb	%xmm1, %xmm2
	pcmpeqb	%xmm1, %xmm3
	movdqa	%xmm3, %xmm4
	por	%xmm2, %xmm4
	pmovmskb	%xmm4, %r9d
	testl	%r9d, %r9d
	jne	.LBB8_21
	cmpq	$256, %rdx
	sete	%al
	addq	$64, %rcx
	cmpq	$256, %rcx
	setne	%r9b
	orb	%al, %r9b
	jne	.LBB8_12
	movl	$256, %ecx
	movq	%r8, %rax
	.p2align	4
.LBB8_16:
	movdqu	(%rdi,%rcx), %xmm3
	movdqu	16(%rdi,%rcx), %xmm4
	movdqu	32(%rdi,%rcx), %xmm2
	movdqu	48(%rdi,%rcx), %xmm5
	psrlw	$8, %xmm5
	psrlw	$8, %xmm2
	packuswb	%xmm5, %xmm2
	psrlw	$8, %xmm4
	psrlw	$8, %xmm3
	packuswb	%xmm4, %xmm3
	pand	%xmm0, %xmm2
	pand	%xmm0, %xmm3
	pcmpeqb	%xmm1, %xmm3
	pcmpeqb	%xmm1, %xmm2
	por	%xmm3, %xmm2
	movdqu	96(%rdi,%rcx), %xmm3
	movdqu	112(%rdi,%rcx), %xmm4
	movdqu	64(%rdi,%rcx), %xmm5
	movdqu	80(%rdi,%rcx), %xmm6
	psrlw	$8, %xmm6
	psrlw	$8, %xmm5
	packuswb	%xmm6, %xmm5
	psrlw	$8, %xmm4
	psrlw	$8, %xmm3
	packuswb	%xmm4, %xmm3
	pand	%xmm0, %xmm5
	pand	%xmm0, %xmm3
	pcmpeqb	%xmm1, %xmm3
	pcmpeqb	%xmm1, %xmm5
	por	%xmm3, %xmm5
	por	%xmm2, %xmm5
	pmovmskb	%xmm5, %r9d
	testl	%r9d, %r9d
	jne	.LBB8_12
	subq	$-128, %rcx
	addq	$-128, %rax
	cmpq	$127, %rax
	ja	.LBB8_16
	jmp	.LBB8_12
.LBB8_18:
	xorl	%ecx, %ecx
	xorl	%edx, %edx
	jmp	.LBB8_32
.LBB8_19:
	xorl	%eax, %eax
.LBB8_20:
	retq
.LBB8_21:
	cmpq	$64, %rax
	jne	.LBB8_42
.LBB8_22:
	xorl	%edx, %edx
	jmp	.LBB8_24
	.p2align	4
.LBB8_23:
	movzwl	%r8w, %edx
	shrl	$15, %edx
	cmpq	$63, %rax
	jbe	.LBB8_61
.LBB8_24:
	movdqu	(%rdi,%rcx), %xmm3
	movdqu	16(%rdi,%rcx), %xmm4
	movdqu	32(%rdi,%rcx), %xmm2
	movdqu	48(%rdi,%rcx), %xmm5
	psrlw	$8, %xmm4
	psrlw	$8, %xmm3
	packuswb	%xmm4, %xmm3
	psrlw	$8, %xmm5
	psrlw	$8, %xmm2
	packuswb	%xmm5, %xmm2
	movdqa	.LCPI8_2(%rip), %xmm4
	pand	%xmm4, %xmm3
	pand	%xmm4, %xmm2
	movdqa	%xmm2, %xmm4
	pcmpeqb	%xmm1, %xmm4
	movdqa	%xmm3, %xmm5
	pcmpeqb	%xmm1, %xmm5
	pmovmskb	%xmm5, %eax
	pmovmskb	%xmm4, %r8d
	movl	%r8d, %r9d
	shll	$16, %r9d
	orl	%eax, %r9d
	movdqa	.LCPI8_3(%rip), %xmm4
	pcmpeqb	%xmm4, %xmm3
	pmovmskb	%xmm3, %eax
	pcmpeqb	%xmm4, %xmm2
	pmovmskb	%xmm2, %r10d
	shll	$16, %r10d
	orl	%eax, %r10d
	movzbl	%dl, %eax
	andl	$1, %eax
	leal	(%rax,%r9,2), %eax
	cmpl	%r10d, %eax
	jne	.LBB8_61
	addq	$64, %rcx
	movq	%rsi, %rax
	subq	%rcx, %rax
	testw	%r8w, %r8w
	js	.LBB8_23
	cmpq	$64, %rax
	jb	.LBB8_23
	movzbl	%cl, %edx
	orq	%r9, %rdx
	jne	.LBB8_23
	.p2align	4
.LBB8_28:
	movdqu	(%rdi,%rcx), %xmm2
	movdqu	16(%rdi,%rcx), %xmm3
	movdqu	32(%rdi,%rcx), %xmm4
	movdqu	48(%rdi,%rcx), %xmm5
	psrlw	$8, %xmm5
	psrlw	$8, %xmm4
	packuswb	%xmm5, %xmm4
	psrlw	$8, %xmm3
	psrlw	$8, %xmm2
	packuswb	%xmm3, %xmm2
	pand	%xmm0, %xmm4
	pand	%xmm0, %xmm2
	pcmpeqb	%xmm1, %xmm2
	pcmpeqb	%xmm1, %xmm4
	por	%xmm2, %xmm4
	pmovmskb	%xmm4, %edx
	testl	%edx, %edx
	jne	.LBB8_23
	addq	$64, %rcx
	addq	$-64, %rax
	cmpq	$63, %rax
	ja	.LBB8_28
.LBB8_31:
	xorl	%edx, %edx
	cmpq	$32, %rax
	jb	.LBB8_33
.LBB8_32:
	movdqu	(%rdi,%rcx), %xmm0
	movdqu	16(%rdi,%rcx), %xmm1
	psrlw	$8, %xmm1
	psrlw	$8, %xmm0
	packuswb	%xmm1, %xmm0
	pand	.LCPI8_2(%rip), %xmm0
	movdqa	.LCPI8_1(%rip), %xmm1
	pcmpeqb	%xmm0, %xmm1
	pmovmskb	%xmm1, %eax
	movl	%eax, %r8d
	pcmpeqb	.LCPI8_3(%rip), %xmm0
	pmovmskb	%xmm0, %r9d
	movzbl	%dl, %r10d
	movl	%r10d, %edx
	andl	$1, %edx
	andl	$32767, %eax
	leaq	(%rdx,%rax,2), %rax
	leaq	32(%rcx), %rdx
	cmpq	%r9, %rax
	cmoveq	%rdx, %rcx
	xorl	%edx, %edx
	testw	%r8w, %r8w
	sets	%dl
	cmpl	%r9d, %eax
	cmovnel	%r10d, %edx
.LBB8_33:
	leaq	-2(%rcx), %rax
	testb	$1, %dl
	cmoveq	%rcx, %rax
	movq	%rsi, %rcx
	subq	%rax, %rcx
	cmpq	$32, %rcx
	ja	.LBB8_37
	movq	%rax, %rcx
	subq	%rsi, %rcx
	testb	$1, %cl
	jne	.LBB8_47
	movdqu	-32(%rdi,%rsi), %xmm0
	movdqu	-16(%rdi,%rsi), %xmm1
	addl	$32, %ecx
	psrlw	$8, %xmm1
	psrlw	$8, %xmm0
	packuswb	%xmm1, %xmm0
	pand	.LCPI8_2(%rip), %xmm0
	shrl	%ecx
	movdqa	.LCPI8_3(%rip), %xmm1
	pcmpeqb	%xmm0, %xmm1
	pmovmskb	%xmm1, %edx
	shrq	%cl, %rdx
	pcmpeqb	.LCPI8_1(%rip), %xmm0
	pmovmskb	%xmm0, %r8d
	shrq	%cl, %r8
	addl	%r8d, %r8d
	cmpl	%r8d, %edx
	jne	.LBB8_47
	movq	%rsi, %rax
	retq
.LBB8_37:
	cmpq	$64, %rcx
	jae	.LBB8_40
.LBB8_47:
	xorl	%ecx, %ecx
	addq	%rax, %rcx
	cmpq	%rsi, %rcx
	jb	.LBB8_50
	jmp	.LBB8_41
.LBB8_40:
	movdqu	(%rdi,%rax), %xmm0
	movdqu	16(%rdi,%rax), %xmm1
	movdqu	32(%rdi,%rax), %xmm2
	movdqu	48(%rdi,%rax), %xmm3
	psrlw	$8, %xmm3
	psrlw	$8, %xmm2
	packuswb	%xmm3, %xmm2
	psrlw	$8, %xmm1
	psrlw	$8, %xmm0
	packuswb	%xmm1, %xmm0
	movdqa	.LCPI8_0(%rip), %xmm1
	pand	%xmm1, %xmm2
	pand	%xmm1, %xmm0
	movdqa	.LCPI8_1(%rip), %xmm1
	pcmpeqb	%xmm1, %xmm0
	pmovmskb	%xmm0, %ecx
	pcmpeqb	%xmm1, %xmm2
	pmovmskb	%xmm2, %edx
	shll	$16, %edx
	orl	%ecx, %edx
	rep		bsfl	%edx, %r8d
	addl	%r8d, %r8d
	testl	%edx, %edx
	movl	$64, %ecx
	cmovnel	%r8d, %ecx
	addq	%rax, %rcx
	cmpq	%rsi, %rcx
	jb	.LBB8_50
	jmp	.LBB8_41
	.p2align	4
.LBB8_49:
	addq	%rcx, %rax
	movq	%rax, %rcx
	cmpq	%rsi, %rax
	jae	.LBB8_20
.LBB8_50:
	movq	%rsi, %rdx
	subq	%rcx, %rdx
	cmpq	$2, %rdx
	jb	.LBB8_41
	movzbl	1(%rdi,%rcx), %r8d
	movl	%r8d, %r9d
	andl	$-8, %r9d
	movl	$2, %eax
	cmpl	$216, %r9d
	jne	.LBB8_49
	cmpq	$4, %rdx
	jb	.LBB8_41
	movzwl	%r8w, %eax
	andl	$-36, %eax
	movzwl	%ax, %eax
	cmpl	$220, %eax
	je	.LBB8_41
	movzbl	3(%rdi,%rcx), %edx
	andb	$-4, %dl
	movl	$4, %eax
	cmpb	$-36, %dl
	je	.LBB8_49
.LBB8_41:
	movq	%rcx, %rax
	retq
.LBB8_42:
	pmovmskb	%xmm2, %eax
	pmovmskb	%xmm3, %edx
	shll	$16, %edx
	orl	%eax, %edx
	rep		bsfl	%edx, %r8d
	addl	%r8d, %r8d
	testl	%edx, %edx
	movl	$64, %eax
	cmovnel	%r8d, %eax
	addq	%rcx, %rax
	movq	%rsi, %rdx
	subq	%rax, %rdx
	cmpq	$2, %rdx
	jb	.LBB8_20
	movzbl	1(%rdi,%rax), %r8d
	movl	%r8d, %r9d
	andl	$-8, %r9d
	cmpl	$216, %r9d
	jne	.LBB8_22
	cmpq	$4, %rdx
	jb	.LBB8_20
	movzwl	%r8w, %edx
	andl	$-36, %edx
	movzwl	%dx, %edx
	cmpl	$220, %edx
	je	.LBB8_20
	movzbl	3(%rdi,%rax), %edx
	andb	$-4, %dl
	cmpb	$-36, %dl
	jne	.LBB8_20
	jmp	.LBB8_22
.LBB8_61:
	movq	%rsi, %rax
	subq	%rcx, %rax
	cmpq	$32, %rax
	jae	.LBB8_32
	jmp	.LBB8_33
.Lfunc_end8:

	.section	.text$012,"xr"
	.p2align	4
L_6:
	cmpq	$2, %rsi
	jb	.LBB9_7
	movzbl	1(%rdi), %eax
	movl	%eax, %ecx
	andl	$-8, %ecx
	cmpl	$216, %ecx
	jne	.LBB9_7
	movzwl	%ax, %ecx
	notl	%ecx
	movb	$1, %al
	testb	$-36, %cl
	je	.LBB9_5
	cmpq	$4, %rsi
	jae	.LBB9_4
.LBB9_7:
	xorl	%eax, %eax
	retq
.LBB9_4:
	movzbl	3(%rdi), %eax
	andb	$-4, %al
	cmpb	$-36, %al
	setne	%al
.LBB9_5:
	retq
.Lfunc_end9:

	.section	.text$013,"xr"
	.p2align	4
L_12:
	pushq	%rbp
	pushq	%r15
	pushq	%r14
	pushq	%r13
	pushq	%r12
	pushq	%rbx
	subq	$168, %rsp
	movq	%rcx, %r11
	movq	%rdx, %rcx
	xorps	%xmm0, %xmm0
	movaps	%xmm0, 80(%rsp)
	movaps	%xmm0, 64(%rsp)
	movq	$0, 96(%rsp)
	movaps	%xmm0, 16(%rsp)
	movaps	%xmm0, 32(%rsp)
	movq	$0, 48(%rsp)
	movaps	%xmm0, 112(%rsp)
	movaps	%xmm0, 128(%rsp)
	movq	$0, 144(%rsp)
	movl	$40, %ebx
	movabsq	$3777893186295716171, %r8
	cmpq	$10000, %rdi
	jb	.LBB10_1
	.p2align	4
.LBB10_2:
	movq	%rdi, %rax
	mulq	%r8
	shrq	$11, %rdx
	imull	$10000, %edx, %eax
	movl	%edi, %r9d
	subl	%eax, %r9d
	imull	$5243, %r9d, %eax
	shrl	$19, %eax
	imull	$100, %eax, %r10d
	subl	%r10d, %r9d
	movzwl	%r9w, %r9d
	leaq	.Lstatic.18(%rip), %r10
	movzwl	(%r10,%r9,2), %r9d
	movw	%r9w, 110(%rsp,%rbx)
	movzwl	(%r10,%rax,2), %eax
	movw	%ax, 108(%rsp,%rbx)
	addq	$-4, %rbx
	cmpq	$99999999, %rdi
	movq	%rdx, %rdi
	ja	.LBB10_2
	cmpq	$99, %rdx
	ja	.LBB10_7
.LBB10_4:
	cmpq	$9, %rdx
	ja	.LBB10_6
	orb	$48, %dl
	movb	%dl, 111(%rsp,%rbx)
	decq	%rbx
	jmp	.LBB10_10
.LBB10_1:
	movq	%rdi, %rdx
	cmpq	$99, %rdx
	jbe	.LBB10_4
.LBB10_7:
	movl	%edx, %eax
	shrl	$2, %eax
	movzwl	%ax, %eax
	imull	$5243, %eax, %eax
	shrl	$17, %eax
	imull	$100, %eax, %edi
	movl	%edx, %r9d
	subl	%edi, %r9d
	movzwl	%r9w, %r9d
	leaq	.Lstatic.18(%rip), %rdi
	movzwl	(%rdi,%r9,2), %r9d
	movw	%r9w, 110(%rsp,%rbx)
	cmpq	$999, %rdx
	ja	.LBB10_9
	orb	$48, %al
	movb	%al, 109(%rsp,%rbx)
	addq	$-3, %rbx
	jmp	.LBB10_10
.LBB10_6:
	leaq	.Lstatic.18(%rip), %rax
	movzwl	(%rax,%rdx,2), %eax
	movw	%ax, 110(%rsp,%rbx)
	addq	$-2, %rbx
	jmp	.LBB10_10
.LBB10_9:
	movzwl	%ax, %eax
	movzwl	(%rdi,%rax,2), %eax
	movw	%ax, 108(%rsp,%rbx)
	addq	$-4, %rbx
.LBB10_10:
	movl	$40, %r12d
	xorps	%xmm0, %xmm0
	movaps	%xmm0, 80(%rsp)
	movaps	%xmm0, 64(%rsp)
	movq	$0, 96(%rsp)
	movl	$40, %ebp
	cmpq	$10000, %rsi
	jb	.LBB10_11
	.p2align	4
.LBB10_12:
	movq	%rsi, %rax
	mulq	%r8
	shrq	$11, %rdx
	imull	$10000, %edx, %eax
	movl	%esi, %edi
	subl	%eax, %edi
	imull	$5243, %edi, %eax
	shrl	$19, %eax
	imull	$100, %eax, %r9d
	subl	%r9d, %edi
	movzwl	%di, %edi
	leaq	.Lstatic.18(%rip), %r9
	movzwl	(%r9,%rdi,2), %edi
	movw	%di, 62(%rsp,%rbp)
	movzwl	(%r9,%rax,2), %eax
	movw	%ax, 60(%rsp,%rbp)
	addq	$-4, %rbp
	cmpq	$99999999, %rsi
	movq	%rdx, %rsi
	ja	.LBB10_12
	cmpq	$99, %rdx
	ja	.LBB10_17
.LBB10_14:
	cmpq	$9, %rdx
	ja	.LBB10_16
	orb	$48, %dl
	movb	%dl, 63(%rsp,%rbp)
	decq	%rbp
	jmp	.LBB10_20
.LBB10_11:
	movq	%rsi, %rdx
	cmpq	$99, %rdx
	jbe	.LBB10_14
.LBB10_17:
	movl	%edx, %eax
	shrl	$2, %eax
	movzwl	%ax, %eax
	imull	$5243, %eax, %eax
	shrl	$17, %eax
	imull	$100, %eax, %esi
	movl	%edx, %edi
	subl	%esi, %edi
	movzwl	%di, %edi
	leaq	.Lstatic.18(%rip), %rsi
	movzwl	(%rsi,%rdi,2), %edi
	movw	%di, 62(%rsp,%rbp)
	cmpq	$999, %rdx
	ja	.LBB10_19
	orb	$48, %al
	movb	%al, 61(%rsp,%rbp)
	addq	$-3, %rbp
	jmp	.LBB10_20
.LBB10_16:
	leaq	.Lstatic.18(%rip), %rax
	movzwl	(%rax,%rdx,2), %eax
	movw	%ax, 62(%rsp,%rbp)
	addq	$-2, %rbp
	jmp	.LBB10_20
.LBB10_19:
	movzwl	%ax, %eax
	movzwl	(%rsi,%rax,2), %eax
	movw	%ax, 60(%rsp,%rbp)
	addq	$-4, %rbp
.LBB10_20:
	movl	$40, %r15d
	xorps	%xmm0, %xmm0
	movaps	%xmm0, 32(%rsp)
	movaps	%xmm0, 16(%rsp)
	movq	$0, 48(%rsp)
	movl	$40, %r13d
	cmpq	$10000, %rcx
	jb	.LBB10_21
	.p2align	4
.LBB10_22:
	movq	%rcx, %rax
	mulq	%r8
	shrq	$11, %rdx
	imull	$10000, %edx, %eax
	movl	%ecx, %esi
	subl	%eax, %esi
	imull	$5243, %esi, %eax
	shrl	$19, %eax
	imull	$100, %eax, %edi
	subl	%edi, %esi
	movzwl	%si, %esi
	leaq	.Lstatic.18(%rip), %rdi
	movzwl	(%rdi,%rsi,2), %esi
	movw	%si, 14(%rsp,%r13)
	movzwl	(%rdi,%rax,2), %eax
	movw	%ax, 12(%rsp,%r13)
	addq	$-4, %r13
	cmpq	$99999999, %rcx
	movq	%rdx, %rcx
	ja	.LBB10_22
	subq	%rbx, %r12
	subq	%rbp, %r15
	cmpq	$99, %rdx
	ja	.LBB10_27
.LBB10_24:
	cmpq	$9, %rdx
	ja	.LBB10_26
	orb	$48, %dl
	movb	%dl, 15(%rsp,%r13)
	decq	%r13
	jmp	.LBB10_30
.LBB10_21:
	movq	%rcx, %rdx
	subq	%rbx, %r12
	subq	%rbp, %r15
	cmpq	$99, %rdx
	jbe	.LBB10_24
.LBB10_27:
	movl	%edx, %eax
	shrl	$2, %eax
	movzwl	%ax, %eax
	imull	$5243, %eax, %eax
	shrl	$17, %eax
	imull	$100, %eax, %ecx
	movl	%edx, %esi
	subl	%ecx, %esi
	movzwl	%si, %esi
	leaq	.Lstatic.18(%rip), %rcx
	movzwl	(%rcx,%rsi,2), %esi
	movw	%si, 14(%rsp,%r13)
	cmpq	$999, %rdx
	ja	.LBB10_29
	orb	$48, %al
	movb	%al, 13(%rsp,%r13)
	addq	$-3, %r13
	jmp	.LBB10_30
.LBB10_26:
	leaq	.Lstatic.18(%rip), %rax
	movzwl	(%rax,%rdx,2), %eax
	movw	%ax, 14(%rsp,%r13)
	addq	$-2, %r13
	jmp	.LBB10_30
.LBB10_29:
	movzwl	%ax, %eax
	movzwl	(%rcx,%rax,2), %eax
	movw	%ax, 12(%rsp,%r13)
	addq	$-4, %r13
.LBB10_30:
	movl	$40, %ecx
	subq	%r13, %rcx
	movq	%r12, %rsi
	addq	$21, %rsi
	movq	$-1, %rax
	cmovbq	%rax, %rsi
	addq	%r15, %rsi
	cmovbq	%rax, %rsi
	addq	$14, %rsi
	cmovbq	%rax, %rsi
	movq	%rcx, 8(%rsp)
	addq	%rcx, %rsi
	cmovbq	%rax, %rsi
	incq	%rsi
	cmoveq	%rax, %rsi
	movq	8(%r11), %rax
	movq	16(%r11), %r10
	movq	%r10, %rcx
	subq	%rax, %rcx
	cmpq	%rcx, %rsi
	ja	.LBB10_31
.LBB10_35:
	movq	(%r11), %r9
	leaq	(%r9,%rax), %rcx
	addq	$7, %rax
	leaq	.Lstatic.19(%rip), %rdx
	movq	%rcx, %rsi
	subq	%rdx, %rsi
	cmpq	$7, %rsi
	jae	.LBB10_36
	movl	$1702132066, (%rcx)
	movw	$14963, 4(%rcx)
	movb	$32, 6(%rcx)
	jmp	.LBB10_38
.LBB10_36:
	movl	$540701541, 3(%rcx)
	movl	$1702132066, (%rcx)
.LBB10_38:
	movq	%r9, (%r11)
	movq	%rax, 8(%r11)
	movq	%r10, 16(%r11)
	movq	%r10, %rcx
	subq	%rax, %rcx
	cmpq	%rcx, %r12
	ja	.LBB10_39
.LBB10_41:
	leaq	(%rsp,%rbx), %rsi
	addq	$112, %rsi
	leaq	(%rax,%r12), %r14
	leaq	(%r9,%rax), %rdi
	movq	%rdi, %rcx
	subq	%rsi, %rcx
	cmpq	%r12, %rcx
	jae	.LBB10_105
	cmpq	$4, %r12
	jae	.LBB10_45
	xorl	%ecx, %ecx
	jmp	.LBB10_44
.LBB10_105:
	movq	%r12, %rdx
	movq	%r11, %rbx
	movq	%r10, %r12
	movq	%r15, 160(%rsp)
	movq	%r9, %r15
	callq	sysv_memcpy
	movq	%r15, %r9
	movq	160(%rsp), %r15
	movq	%r12, %r10
	movq	%rbx, %r11
	jmp	.LBB10_54
.LBB10_45:
	cmpq	$32, %r12
	jae	.LBB10_47
	xorl	%ecx, %ecx
	jmp	.LBB10_51
.LBB10_47:
	movq	%r12, %rcx
	andq	$-32, %rcx
	leaq	112(%rsp), %rdx
	addq	%rbx, %rdx
	addq	$16, %rdx
	addq	%r9, %rax
	addq	$16, %rax
	xorl	%r8d, %r8d
	.p2align	4
.LBB10_48:
	movups	-16(%rdx,%r8), %xmm0
	movups	(%rdx,%r8), %xmm1
	movups	%xmm0, -16(%rax,%r8)
	movups	%xmm1, (%rax,%r8)
	addq	$32, %r8
	cmpq	%r8, %rcx
	jne	.LBB10_48
	cmpq	%rcx, %r12
	je	.LBB10_54
	testb	$28, %r12b
	je	.LBB10_44
.LBB10_51:
	movq	%rcx, %rax
	movq	%r12, %rcx
	andq	$-4, %rcx
	.p2align	4
.LBB10_52:
	movl	(%rsi,%rax), %edx
	movl	%edx, (%rdi,%rax)
	addq	$4, %rax
	cmpq	%rax, %rcx
	jne	.LBB10_52
	jmp	.LBB10_53
.LBB10_31:
	movq	%r11, %rdi
	movq	%r11, %r14
	callq	L_1
	movl	%eax, %ecx
	movb	$1, %al
	testb	%cl, %cl
	je	.LBB10_104
	movq	8(%r14), %rax
	movq	16(%r14), %r10
	movq	%r10, %rcx
	subq	%rax, %rcx
	cmpq	$6, %rcx
	movq	%r14, %r11
	ja	.LBB10_35
	movl	$7, %esi
	movq	%r11, %rdi
	movq	%r11, %r14
	callq	L_1
	movl	%eax, %ecx
	movb	$1, %al
	testb	%cl, %cl
	je	.LBB10_104
	movq	8(%r14), %rax
	movq	16(%r14), %r10
	movq	%r14, %r11
	jmp	.LBB10_35
.LBB10_39:
	movq	%r11, %rdi
	movq	%r12, %rsi
	movq	%r11, %r14
	callq	L_1
	movl	%eax, %ecx
	movb	$1, %al
	testb	%cl, %cl
	je	.LBB10_104
	movq	(%r14), %r9
	movq	8(%r14), %rax
	movq	16(%r14), %r10
	movq	%r14, %r11
	jmp	.LBB10_41
.LBB10_44:
	movzbl	(%rsi,%rcx), %eax
	movb	%al, (%rdi,%rcx)
	incq	%rcx
.LBB10_53:
	cmpq	%rcx, %r12
	jne	.LBB10_44
.LBB10_54:
	movq	%r9, (%r11)
	movq	%r14, 8(%r11)
	movq	%r10, 16(%r11)
	movq	%r10, %rax
	subq	%r14, %rax
	cmpq	$13, %rax
	jbe	.LBB10_55
.LBB10_57:
	leaq	(%r9,%r14), %rax
	addq	$14, %r14
	leaq	.Lstatic.20(%rip), %rcx
	movq	%rax, %rdx
	subq	%rcx, %rdx
	cmpq	$14, %rdx
	jae	.LBB10_58
	movabsq	$7161130645184520236, %rcx
	movq	%rcx, (%rax)
	movl	$1936876916, 8(%rax)
	movw	$8250, 12(%rax)
	jmp	.LBB10_60
.LBB10_58:
	movabsq	$2322295493028504417, %rcx
	movq	%rcx, 6(%rax)
	movabsq	$7161130645184520236, %rcx
	movq	%rcx, (%rax)
.LBB10_60:
	movq	%r9, (%r11)
	movq	%r14, 8(%r11)
	movq	%r10, 16(%r11)
	movq	%r10, %rax
	subq	%r14, %rax
	cmpq	%rax, %r15
	ja	.LBB10_61
.LBB10_63:
	leaq	(%rsp,%rbp), %rsi
	addq	$64, %rsi
	leaq	(%r14,%r15), %rbx
	leaq	(%r9,%r14), %rdi
	movq	%rdi, %rax
	subq	%rsi, %rax
	cmpq	%r15, %rax
	jae	.LBB10_106
	cmpq	$4, %r15
	jb	.LBB10_65
	leaq	64(%rsp), %rcx
	movq	%rdi, %rdx
	subq	%rbp, %rdx
	subq	%rcx, %rdx
	cmpq	$32, %rdx
	jae	.LBB10_68
.LBB10_65:
	xorl	%eax, %eax
	jmp	.LBB10_66
.LBB10_106:
	movq	%r15, %rdx
	movq	%r11, %r14
	movq	%r10, %r15
	movq	%r9, %r12
	callq	sysv_memmove
	movq	%r12, %r9
	movq	%r15, %r10
	movq	%r14, %r11
	jmp	.LBB10_77
.LBB10_68:
	cmpq	$32, %r15
	jae	.LBB10_70
	xorl	%eax, %eax
	jmp	.LBB10_74
.LBB10_70:
	movq	%r15, %rax
	andq	$-32, %rax
	addq	%rbp, %rcx
	addq	$16, %rcx
	leaq	(%r14,%r9), %rdx
	addq	$16, %rdx
	xorl	%r8d, %r8d
	.p2align	4
.LBB10_71:
	movups	-16(%rcx,%r8), %xmm0
	movups	(%rcx,%r8), %xmm1
	movups	%xmm0, -16(%rdx,%r8)
	movups	%xmm1, (%rdx,%r8)
	addq	$32, %r8
	cmpq	%r8, %rax
	jne	.LBB10_71
	cmpq	%rax, %r15
	je	.LBB10_77
	testb	$28, %r15b
	je	.LBB10_66
.LBB10_74:
	movq	%rax, %rcx
	movq	%r15, %rax
	andq	$-4, %rax
	.p2align	4
.LBB10_75:
	movl	(%rsi,%rcx), %edx
	movl	%edx, (%rdi,%rcx)
	addq	$4, %rcx
	cmpq	%rcx, %rax
	jne	.LBB10_75
	jmp	.LBB10_76
.LBB10_55:
	movl	$14, %esi
	movq	%r11, %rdi
	movq	%r11, %rbx
	callq	L_1
	movl	%eax, %ecx
	movb	$1, %al
	testb	%cl, %cl
	je	.LBB10_104
	movq	(%rbx), %r9
	movq	8(%rbx), %r14
	movq	16(%rbx), %r10
	movq	%rbx, %r11
	jmp	.LBB10_57
.LBB10_61:
	movq	%r11, %rdi
	movq	%r15, %rsi
	movq	%r11, %rbx
	callq	L_1
	movl	%eax, %ecx
	movb	$1, %al
	testb	%cl, %cl
	je	.LBB10_104
	movq	(%rbx), %r9
	movq	8(%rbx), %r14
	movq	16(%rbx), %r10
	movq	%rbx, %r11
	jmp	.LBB10_63
.LBB10_66:
	movzbl	(%rsi,%rax), %ecx
	movb	%cl, (%rdi,%rax)
	incq	%rax
.LBB10_76:
	cmpq	%rax, %r15
	jne	.LBB10_66
.LBB10_77:
	movq	%r9, (%r11)
	movq	%rbx, 8(%r11)
	movq	%r10, 16(%r11)
	movq	%r10, %rax
	subq	%rbx, %rax
	cmpq	$13, %rax
	jbe	.LBB10_78
.LBB10_80:
	leaq	(%r9,%rbx), %rax
	addq	$14, %rbx
	leaq	.Lstatic.21(%rip), %rcx
	movq	%rax, %rdx
	subq	%rcx, %rdx
	cmpq	$14, %rdx
	jae	.LBB10_81
	movabsq	$8027153329533034540, %rcx
	movq	%rcx, (%rax)
	movl	$1684368754, 8(%rax)
	movw	$8250, 12(%rax)
	jmp	.LBB10_83
.LBB10_81:
	movabsq	$2322278944653602662, %rcx
	movq	%rcx, 6(%rax)
	movabsq	$8027153329533034540, %rcx
	movq	%rcx, (%rax)
.LBB10_83:
	movq	8(%rsp), %rdx
	movq	%r9, (%r11)
	movq	%rbx, 8(%r11)
	movq	%r10, 16(%r11)
	movq	%r10, %rax
	subq	%rbx, %rax
	cmpq	%rax, %rdx
	ja	.LBB10_84
.LBB10_86:
	leaq	(%rsp,%r13), %rsi
	addq	$16, %rsi
	leaq	(%rbx,%rdx), %r14
	leaq	(%r9,%rbx), %rdi
	movq	%rdi, %rax
	subq	%rsi, %rax
	cmpq	%rdx, %rax
	jae	.LBB10_107
	cmpq	$4, %rdx
	jb	.LBB10_88
	leaq	16(%rsp), %rcx
	movq	%rdi, %r8
	subq	%r13, %r8
	subq	%rcx, %r8
	cmpq	$32, %r8
	jae	.LBB10_91
.LBB10_88:
	xorl	%eax, %eax
	jmp	.LBB10_89
.LBB10_107:
	movq	%r11, %rbx
	movq	%r10, %r15
	movq	%r9, %r12
	callq	sysv_memmove
	movq	%r12, %r9
	movq	%r15, %r10
	movq	%rbx, %r11
	jmp	.LBB10_100
.LBB10_91:
	cmpq	$32, %rdx
	jae	.LBB10_93
	xorl	%eax, %eax
	jmp	.LBB10_97
.LBB10_93:
	movq	%rdx, %rax
	andq	$-32, %rax
	addq	%r13, %rcx
	addq	$16, %rcx
	movq	%r9, %r15
	addq	%rbx, %r9
	addq	$16, %r9
	xorl	%r8d, %r8d
	.p2align	4
.LBB10_94:
	movups	-16(%rcx,%r8), %xmm0
	movups	(%rcx,%r8), %xmm1
	movups	%xmm0, -16(%r9,%r8)
	movups	%xmm1, (%r9,%r8)
	addq	$32, %r8
	cmpq	%r8, %rax
	jne	.LBB10_94
	cmpq	%rax, %rdx
	movq	%r15, %r9
	je	.LBB10_100
	testb	$28, %dl
	je	.LBB10_89
.LBB10_97:
	movq	%rax, %rcx
	movq	%rdx, %rax
	andq	$-4, %rax
	.p2align	4
.LBB10_98:
	movl	(%rsi,%rcx), %r8d
	movl	%r8d, (%rdi,%rcx)
	addq	$4, %rcx
	cmpq	%rcx, %rax
	jne	.LBB10_98
	jmp	.LBB10_99
.LBB10_78:
	movl	$14, %esi
	movq	%r11, %rdi
	movq	%r11, %r14
	callq	L_1
	movl	%eax, %ecx
	movb	$1, %al
	testb	%cl, %cl
	je	.LBB10_104
	movq	(%r14), %r9
	movq	8(%r14), %rbx
	movq	16(%r14), %r10
	movq	%r14, %r11
	jmp	.LBB10_80
.LBB10_84:
	movq	%r11, %rdi
	movq	%rdx, %rsi
	movq	%r11, %r14
	callq	L_1
	movl	%eax, %ecx
	movb	$1, %al
	testb	%cl, %cl
	je	.LBB10_104
	movq	(%r14), %r9
	movq	8(%r14), %rbx
	movq	16(%r14), %r10
	movq	%r14, %r11
	movq	8(%rsp), %rdx
	jmp	.LBB10_86
.LBB10_89:
	movzbl	(%rsi,%rax), %ecx
	movb	%cl, (%rdi,%rax)
	incq	%rax
.LBB10_99:
	cmpq	%rax, %rdx
	jne	.LBB10_89
.LBB10_100:
	movq	%r9, (%r11)
	movq	%r14, 8(%r11)
	movq	%r10, 16(%r11)
	cmpq	%r14, %r10
	je	.LBB10_101
.LBB10_103:
	movb	$10, (%r9,%r14)
	incq	%r14
	movq	%r9, (%r11)
	movq	%r14, 8(%r11)
	movq	%r10, 16(%r11)
	xorl	%eax, %eax
.LBB10_104:
	addq	$168, %rsp
	popq	%rbx
	popq	%r12
	popq	%r13
	popq	%r14
	popq	%r15
	popq	%rbp
	retq
.LBB10_101:
	movl	$1, %esi
	movq	%r11, %rdi
	movq	%r11, %rbx
	callq	L_1
	movl	%eax, %ecx
	movb	$1, %al
	testb	%cl, %cl
	je	.LBB10_104
	movq	(%rbx), %r9
	movq	8(%rbx), %r14
	movq	16(%rbx), %r10
	movq	%rbx, %r11
	jmp	.LBB10_103
.Lfunc_end10:

	.section	.text$014,"xr"
	.p2align	4
L_11:
	xorl	%eax, %eax
	testq	%rsi, %rsi
	je	.LBB11_2
	.p2align	4
.LBB11_1:
	movzwl	(%rdi), %ecx
	andl	$252, %ecx
	xorl	%edx, %edx
	cmpl	$216, %ecx
	sete	%dl
	leaq	2(,%rdx,2), %rcx
	leaq	(%rdi,%rdx,2), %rdi
	addq	$2, %rdi
	incq	%rax
	subq	%rcx, %rsi
	jne	.LBB11_1
.LBB11_2:
	retq
.Lfunc_end11:

	.section	.rdata$000,"dr"
	.p2align	4, 0x0
.LCPI12_0:
	.byte	108
	.byte	101
	.byte	97
	.byte	100
	.zero	1
	.zero	1
	.zero	1
	.zero	1
	.zero	1
	.zero	1
	.zero	1
	.zero	1
	.zero	1
	.zero	1
	.zero	1
	.zero	1
.LCPI12_1:
	.byte	116
	.byte	114
	.byte	97
	.byte	105
	.zero	1
	.zero	1
	.zero	1
	.zero	1
	.zero	1
	.zero	1
	.zero	1
	.zero	1
	.zero	1
	.zero	1
	.zero	1
	.zero	1
.LCPI12_2:
	.byte	105
	.byte	110
	.byte	103
	.byte	32
	.zero	1
	.zero	1
	.zero	1
	.zero	1
	.zero	1
	.zero	1
	.zero	1
	.zero	1
	.zero	1
	.zero	1
	.zero	1
	.zero	1
.LCPI12_3:
	.byte	108
	.byte	105
	.byte	110
	.byte	103
	.zero	1
	.zero	1
	.zero	1
	.zero	1
	.zero	1
	.zero	1
	.zero	1
	.zero	1
	.zero	1
	.zero	1
	.zero	1
	.zero	1
.LCPI12_4:
	.byte	115
	.byte	117
	.byte	114
	.byte	114
	.zero	1
	.zero	1
	.zero	1
	.zero	1
	.zero	1
	.zero	1
	.zero	1
	.zero	1
	.zero	1
	.zero	1
	.zero	1
	.zero	1
.LCPI12_5:
	.byte	32
	.byte	115
	.byte	117
	.byte	114
	.zero	1
	.zero	1
	.zero	1
	.zero	1
	.zero	1
	.zero	1
	.zero	1
	.zero	1
	.zero	1
	.zero	1
	.zero	1
	.zero	1
.LCPI12_6:
	.byte	116
	.byte	114
	.byte	97
	.byte	105
	.byte	0
	.byte	0
	.byte	0
	.byte	0
	.byte	0
	.byte	0
	.byte	0
	.byte	0
	.byte	0
	.byte	0
	.byte	0
	.byte	0
.LCPI12_7:
	.byte	108
	.byte	101
	.byte	97
	.byte	100
	.byte	0
	.byte	0
	.byte	0
	.byte	0
	.byte	0
	.byte	0
	.byte	0
	.byte	0
	.byte	0
	.byte	0
	.byte	0
	.byte	0
.LCPI12_8:
	.byte	108
	.byte	105
	.byte	110
	.byte	103
	.byte	0
	.byte	0
	.byte	0
	.byte	0
	.byte	0
	.byte	0
	.byte	0
	.byte	0
	.byte	0
	.byte	0
	.byte	0
	.byte	0
.LCPI12_9:
	.byte	115
	.byte	117
	.byte	114
	.byte	114
	.byte	0
	.byte	0
	.byte	0
	.byte	0
	.byte	0
	.byte	0
	.byte	0
	.byte	0
	.byte	0
	.byte	0
	.byte	0
	.byte	0
.LCPI12_10:
	.byte	105
	.byte	110
	.byte	103
	.byte	32
	.byte	0
	.byte	0
	.byte	0
	.byte	0
	.byte	0
	.byte	0
	.byte	0
	.byte	0
	.byte	0
	.byte	0
	.byte	0
	.byte	0
.LCPI12_11:
	.byte	32
	.byte	115
	.byte	117
	.byte	114
	.byte	0
	.byte	0
	.byte	0
	.byte	0
	.byte	0
	.byte	0
	.byte	0
	.byte	0
	.byte	0
	.byte	0
	.byte	0
	.byte	0
	.section	.text$015,"xr"
	.p2align	4
L_8:
	pushq	%rbp
	pushq	%r15
	pushq	%r14
	pushq	%r13
	pushq	%r12
	pushq	%rbx
	subq	$136, %rsp
	movq	%rdx, %r11
	xorps	%xmm0, %xmm0
	movaps	%xmm0, 48(%rsp)
	movaps	%xmm0, 64(%rsp)
	movq	$-5, %rcx
	leaq	80(%rsp), %r10
	xorl	%ebx, %ebx
	movq	%rdi, %rax
	.p2align	4
.LBB12_1:
	movl	%eax, %edx
	andl	$15, %edx
	leal	48(%rdx), %r8d
	leal	55(%rdx), %r9d
	cmpq	$10, %rdx
	movzbl	%r8b, %edx
	movzbl	%r9b, %r8d
	cmovbl	%edx, %r8d
	movb	%r8b, 79(%rsp,%rbx)
	shrq	$4, %rax
	decq	%rbx
	decq	%rcx
	testq	%rax, %rax
	jne	.LBB12_1
	movl	%esi, %eax
	andl	$64512, %eax
	xorl	%r15d, %r15d
	movl	%eax, 92(%rsp)
	cmpl	$55296, %eax
	sete	%r15b
	leaq	.Lstatic.23(%rip), %rax
	leaq	.Lstatic.24(%rip), %rdx
	cmoveq	%rax, %rdx
	movq	%rdx, 24(%rsp)
	xorps	%xmm0, %xmm0
	movaps	%xmm0, 112(%rsp)
	movaps	%xmm0, 96(%rsp)
	movq	$0, 128(%rsp)
	movl	$40, %ebp
	cmpq	$10000, %rdi
	jb	.LBB12_4
	.p2align	4
.LBB12_3:
	movabsq	$3777893186295716171, %rdx
	movq	%rdi, %rax
	mulq	%rdx
	shrq	$11, %rdx
	imull	$10000, %edx, %eax
	movl	%edi, %r8d
	subl	%eax, %r8d
	imull	$5243, %r8d, %eax
	shrl	$19, %eax
	imull	$100, %eax, %r9d
	subl	%r9d, %r8d
	movzwl	%r8w, %r8d
	leaq	.Lstatic.18(%rip), %r9
	movzwl	(%r9,%r8,2), %r8d
	movw	%r8w, 94(%rsp,%rbp)
	movzwl	(%r9,%rax,2), %eax
	movw	%ax, 92(%rsp,%rbp)
	addq	$-4, %rbp
	cmpq	$99999999, %rdi
	movq	%rdx, %rdi
	ja	.LBB12_3
	jmp	.LBB12_5
.LBB12_4:
	movq	%rdi, %rdx
.LBB12_5:
	movq	%rdx, %rdi
	movq	%rbx, %rdx
	negq	%rdx
	movq	%rdi, %rax
	cmpq	$99, %rdi
	ja	.LBB12_8
	cmpq	$9, %rax
	ja	.LBB12_10
	orb	$48, %al
	movb	%al, 95(%rsp,%rbp)
	decq	%rbp
	jmp	.LBB12_12
.LBB12_8:
	movq	%rax, %r8
	shrl	$2, %eax
	movzwl	%ax, %eax
	imull	$5243, %eax, %eax
	shrl	$17, %eax
	imull	$100, %eax, %edi
	movl	%r8d, %r9d
	subl	%edi, %r9d
	movzwl	%r9w, %r9d
	leaq	.Lstatic.18(%rip), %rdi
	movzwl	(%rdi,%r9,2), %r9d
	movw	%r9w, 94(%rsp,%rbp)
	cmpq	$999, %r8
	ja	.LBB12_11
	orb	$48, %al
	movb	%al, 93(%rsp,%rbp)
	addq	$-3, %rbp
	jmp	.LBB12_12
.LBB12_10:
	leaq	.Lstatic.18(%rip), %rdi
	movzwl	(%rdi,%rax,2), %eax
	movw	%ax, 94(%rsp,%rbp)
	addq	$-2, %rbp
	jmp	.LBB12_12
.LBB12_11:
	movzwl	%ax, %eax
	movzwl	(%rdi,%rax,2), %eax
	movw	%ax, 92(%rsp,%rbp)
	addq	$-4, %rbp
.LBB12_12:
	leaq	(%r10,%rbx), %rax
	xorq	$31, %r15
	movzwl	%si, %edi
	xorps	%xmm0, %xmm0
	movaps	%xmm0, 48(%rsp)
	xorl	%r13d, %r13d
	xorl	%esi, %esi
	.p2align	4
.LBB12_13:
	movl	%edi, %r8d
	andl	$15, %r8d
	leal	48(%r8), %r9d
	leal	55(%r8), %r10d
	cmpq	$10, %r8
	movzbl	%r9b, %r8d
	movzbl	%r10b, %r9d
	cmovbl	%r8d, %r9d
	movb	%r9b, 63(%rsp,%r13)
	shrq	$4, %rdi
	decq	%r13
	incq	%rsi
	testq	%rdi, %rdi
	jne	.LBB12_13
	movl	$40, %r12d
	subq	%rbp, %r12
	cmpq	%r12, %rcx
	movq	%r12, %rdi
	cmovbq	%rcx, %rdi
	movq	%rcx, %r8
	subq	%rdi, %r8
	cmpq	%r8, %r15
	cmovbq	%r15, %r8
	subq	%r8, %rcx
	addq	%rdi, %r8
	subq	%rdi, %rcx
	cmpq	%rcx, %rsi
	cmovbq	%rsi, %rcx
	addq	%r8, %rcx
	subq	%rbx, %rcx
	addq	$4, %rcx
	incq	%rcx
	movq	$-1, %rsi
	cmovneq	%rcx, %rsi
	movq	8(%r11), %r14
	movq	16(%r11), %rcx
	movq	%rcx, 8(%rsp)
	subq	%r14, %rcx
	cmpq	%rcx, %rsi
	movq	%r15, 32(%rsp)
	ja	.LBB12_68
.LBB12_15:
	movq	(%r11), %r8
	leaq	(%r8,%r14), %rcx
	addq	$2, %r14
	leaq	.Lstatic.15(%rip), %rsi
	movq	%rcx, %rdi
	subq	%rsi, %rdi
	cmpq	$2, %rdi
	movw	$30768, (%rcx)
	movq	%r8, (%r11)
	movq	%r14, 8(%r11)
	movq	8(%rsp), %rcx
	movq	%rcx, 16(%r11)
	subq	%r14, %rcx
	cmpq	%rcx, %rdx
	ja	.LBB12_72
.LBB12_16:
	movq	%r14, %r15
	subq	%rbx, %r15
	leaq	(%r8,%r14), %rdi
	movq	%rdi, %rcx
	subq	%rax, %rcx
	cmpq	%rdx, %rcx
	movq	%r11, 40(%rsp)
	jae	.LBB12_19
	cmpq	$4, %rdx
	jae	.LBB12_20
	xorl	%eax, %eax
	jmp	.LBB12_29
.LBB12_19:
	movq	%rax, %rsi
	movq	%r8, 16(%rsp)
	callq	sysv_memcpy
	movq	16(%rsp), %r8
	movq	40(%rsp), %r11
	jmp	.LBB12_31
.LBB12_20:
	cmpq	$32, %rdx
	jae	.LBB12_22
	xorl	%eax, %eax
	jmp	.LBB12_26
.LBB12_22:
	movq	%rdx, %rax
	andq	$-32, %rax
	movq	%rdx, %rcx
	andq	$-32, %rcx
	movq	%r8, 16(%rsp)
	leaq	(%r14,%r8), %rsi
	addq	$16, %rsi
	xorl	%r8d, %r8d
	leaq	80(%rsp), %r10
	.p2align	4
.LBB12_23:
	leaq	(%r10,%r8), %r9
	movups	(%rbx,%r9), %xmm0
	movups	16(%rbx,%r9), %xmm1
	movups	%xmm0, -16(%rsi,%r8)
	movups	%xmm1, (%rsi,%r8)
	addq	$32, %r8
	cmpq	%r8, %rcx
	jne	.LBB12_23
	cmpq	%rax, %rdx
	movq	16(%rsp), %r8
	je	.LBB12_31
	testb	$28, %dl
	je	.LBB12_29
.LBB12_26:
	movq	%r8, %r9
	movq	%rax, %rcx
	movq	%rdx, %rax
	andq	$-4, %rax
	movq	%rdx, %rsi
	andq	$-4, %rsi
	leaq	80(%rsp), %r10
	.p2align	4
.LBB12_27:
	leaq	(%r10,%rcx), %r8
	movl	(%rbx,%r8), %r8d
	movl	%r8d, (%rdi,%rcx)
	addq	$4, %rcx
	cmpq	%rcx, %rsi
	jne	.LBB12_27
	cmpq	%rax, %rdx
	movq	%r9, %r8
	je	.LBB12_31
.LBB12_29:
	leaq	(%rax,%rbx), %rcx
	negq	%rcx
	leaq	(%rax,%r14), %rdx
	addq	%r8, %rdx
	leaq	64(%rsp), %rsi
	addq	%rsi, %rax
	addq	$16, %rax
	xorl	%esi, %esi
	.p2align	4
.LBB12_30:
	leaq	(%rax,%rsi), %rdi
	movzbl	(%rbx,%rdi), %edi
	movb	%dil, (%rdx,%rsi)
	incq	%rsi
	cmpq	%rsi, %rcx
	jne	.LBB12_30
.LBB12_31:
	movq	%r8, (%r11)
	movq	%r15, 8(%r11)
	movq	8(%rsp), %rax
	movq	%rax, 16(%r11)
	subq	%r14, %rax
	addq	%rbx, %rax
	cmpq	$1, %rax
	jbe	.LBB12_81
.LBB12_32:
	leaq	(%r8,%r15), %rax
	addq	$2, %r15
	leaq	.Lstatic.16(%rip), %rcx
	movq	%rax, %rdx
	subq	%rcx, %rdx
	cmpq	$2, %rdx
	movw	$10272, (%rax)
	movq	%r8, (%r11)
	movq	%r15, 8(%r11)
	movq	8(%rsp), %rax
	movq	%rax, 16(%r11)
	subq	%r15, %rax
	cmpq	%rax, %r12
	ja	.LBB12_83
.LBB12_33:
	leaq	(%rsp,%rbp), %rsi
	addq	$96, %rsi
	leaq	(%r15,%r12), %rbx
	leaq	(%r8,%r15), %rdi
	movq	%rdi, %rax
	subq	%rsi, %rax
	cmpq	%r12, %rax
	jae	.LBB12_38
	cmpq	$4, %r12
	jb	.LBB12_36
	leaq	96(%rsp), %rcx
	movq	%rdi, %rdx
	subq	%rbp, %rdx
	subq	%rcx, %rdx
	cmpq	$32, %rdx
	jae	.LBB12_46
.LBB12_36:
	xorl	%eax, %eax
	movq	32(%rsp), %rdx
	movq	24(%rsp), %r9
	.p2align	4
.LBB12_37:
	movzbl	(%rsi,%rax), %ecx
	movb	%cl, (%rdi,%rax)
	incq	%rax
	cmpq	%rax, %r12
	jne	.LBB12_37
	jmp	.LBB12_39
.LBB12_38:
	movq	%r12, %rdx
	movq	%r8, %r15
	callq	sysv_memmove
	movq	%r15, %r8
	movq	40(%rsp), %r11
	movq	32(%rsp), %rdx
	movq	24(%rsp), %r9
.LBB12_39:
	movq	%r8, (%r11)
	movq	%rbx, 8(%r11)
	movq	8(%rsp), %rax
	movq	%rax, 16(%r11)
	subq	%rbx, %rax
	cmpq	%rax, %rdx
	ja	.LBB12_102
.LBB12_40:
	movq	%r13, %r12
	negq	%r12
	leaq	8(%r11), %rax
	leaq	(%rbx,%rdx), %rbp
	xorps	%xmm0, %xmm0
	movups	%xmm0, (%rax)
	leaq	(%r8,%rbx), %rdi
	movq	%rdi, %rax
	subq	%r9, %rax
	cmpq	%rdx, %rax
	jae	.LBB12_43
	cmpq	$7, %rax
	ja	.LBB12_44
	xorl	%eax, %eax
	jmp	.LBB12_55
.LBB12_43:
	movq	%r9, %rsi
	movq	%r8, %r14
	callq	sysv_memcpy
	movq	%r14, %r8
	movq	40(%rsp), %r11
	jmp	.LBB12_59
.LBB12_44:
	movzwl	92(%rsp), %eax
	movd	(%r9), %xmm0
	cmpl	$55296, %eax
	je	.LBB12_48
	movd	.LCPI12_6(%rip), %xmm1
	jmp	.LBB12_49
.LBB12_46:
	cmpq	$32, %r12
	jae	.LBB12_74
	xorl	%eax, %eax
	movq	32(%rsp), %rdx
	movq	24(%rsp), %r9
	jmp	.LBB12_78
.LBB12_48:
	movd	.LCPI12_7(%rip), %xmm1
.LBB12_49:
	movl	$543450482, %eax
	movd	%eax, %xmm2
	punpckldq	%xmm1, %xmm2
	movl	$1767993454, %eax
	movd	%eax, %xmm1
	punpckldq	%xmm1, %xmm0
	punpcklqdq	%xmm2, %xmm0
	movdqu	%xmm0, (%rdi)
	je	.LBB12_52
	movss	.LCPI12_8(%rip), %xmm0
	jne	.LBB12_53
.LBB12_51:
	movss	.LCPI12_9(%rip), %xmm1
	jmp	.LBB12_54
.LBB12_52:
	movss	.LCPI12_10(%rip), %xmm0
	je	.LBB12_51
.LBB12_53:
	movss	.LCPI12_11(%rip), %xmm1
.LBB12_54:
	movss	%xmm0, 16(%rdi)
	movss	%xmm1, 20(%rdi)
	movl	$24, %eax
.LBB12_55:
	movl	%edx, %ecx
	andl	$3, %ecx
	.p2align	4
.LBB12_56:
	movzbl	(%r9,%rax), %esi
	movb	%sil, (%rdi,%rax)
	incq	%rax
	decq	%rcx
	jne	.LBB12_56
	leaq	(%rbx,%r8), %rcx
	addq	$3, %rcx
	.p2align	4
.LBB12_58:
	movl	(%r9,%rax), %esi
	movl	%esi, -3(%rcx,%rax)
	addq	$4, %rax
	cmpq	%rax, %rdx
	jne	.LBB12_58
.LBB12_59:
	movq	%r8, (%r11)
	movq	%rbp, 8(%r11)
	movq	8(%rsp), %rax
	movq	%rax, 16(%r11)
	subq	%rbp, %rax
	cmpq	%rax, %r12
	ja	.LBB12_104
.LBB12_60:
	leaq	(%rsp,%r13), %rsi
	addq	$64, %rsi
	movq	%rbp, %rbx
	subq	%r13, %rbx
	movq	%rbp, %r14
	subq	8(%rsp), %r14
	leaq	(%r8,%rbp), %rdi
	movq	%rdi, %rax
	subq	%rsi, %rax
	cmpq	%r12, %rax
	movq	%r8, 16(%rsp)
	jae	.LBB12_63
	cmpq	$4, %r12
	jb	.LBB12_62
	leaq	48(%rsp), %rax
	movq	%rdi, %rcx
	subq	%rax, %rcx
	subq	%r13, %rcx
	addq	$-16, %rcx
	cmpq	$32, %rcx
	jae	.LBB12_66
.LBB12_62:
	xorl	%eax, %eax
.LBB12_92:
	movq	%r13, %rcx
	notq	%rcx
	subq	%rax, %rcx
	testb	$3, %r12b
	je	.LBB12_96
	movq	%rax, %rdx
	negq	%rdx
	leaq	(%rax,%rbp), %rsi
	addq	16(%rsp), %rsi
	andl	$3, %r12d
	leaq	48(%rsp), %rdi
	addq	%rdi, %rax
	addq	$16, %rax
	xorl	%edi, %edi
	.p2align	4
.LBB12_94:
	leaq	(%rax,%rdi), %r8
	movzbl	(%r13,%r8), %r8d
	movb	%r8b, (%rsi,%rdi)
	incq	%rdi
	decq	%rdx
	cmpq	%rdi, %r12
	jne	.LBB12_94
	negq	%rdx
	movq	%rdx, %rax
.LBB12_96:
	cmpq	$3, %rcx
	jb	.LBB12_99
	leaq	(%rax,%r13), %rcx
	negq	%rcx
	addq	%rax, %rbp
	movq	16(%rsp), %rdx
	addq	%rbp, %rdx
	addq	$3, %rdx
	leaq	48(%rsp), %rsi
	addq	%rsi, %rax
	addq	$19, %rax
	xorl	%esi, %esi
	.p2align	4
.LBB12_98:
	leaq	(%rax,%rsi), %rdi
	movzbl	-3(%r13,%rdi), %r8d
	movb	%r8b, -3(%rdx,%rsi)
	movzbl	-2(%r13,%rdi), %r8d
	movb	%r8b, -2(%rdx,%rsi)
	movzbl	-1(%r13,%rdi), %r8d
	movb	%r8b, -1(%rdx,%rsi)
	movzbl	(%r13,%rdi), %edi
	movb	%dil, (%rdx,%rsi)
	addq	$4, %rsi
	cmpq	%rsi, %rcx
	jne	.LBB12_98
	jmp	.LBB12_99
.LBB12_63:
	movq	%r12, %rdx
	callq	sysv_memmove
	movq	40(%rsp), %r11
.LBB12_99:
	movq	16(%rsp), %rax
	movq	%rax, (%r11)
	movq	%rbx, 8(%r11)
	movq	8(%rsp), %rcx
	movq	%rcx, 16(%r11)
	cmpq	%r13, %r14
	je	.LBB12_106
.LBB12_100:
	movb	$10, (%rax,%rbx)
	incq	%rbx
	movq	%rax, (%r11)
	movq	%rbx, 8(%r11)
	movq	8(%rsp), %rax
	movq	%rax, 16(%r11)
	xorl	%eax, %eax
.LBB12_101:
	addq	$136, %rsp
	popq	%rbx
	popq	%r12
	popq	%r13
	popq	%r14
	popq	%r15
	popq	%rbp
	retq
.LBB12_66:
	cmpq	$32, %r12
	jae	.LBB12_85
	xorl	%eax, %eax
	leaq	64(%rsp), %r9
	jmp	.LBB12_89
.LBB12_68:
	movq	%rdx, 16(%rsp)
	movq	%r11, %rdi
	movq	%r11, %r15
	callq	L_1
	movl	%eax, %ecx
	movb	$1, %al
	testb	%cl, %cl
	je	.LBB12_101
	movq	8(%r15), %r14
	movq	16(%r15), %rax
	movq	%rax, 8(%rsp)
	subq	%r14, %rax
	cmpq	$1, %rax
	movq	16(%rsp), %rdx
	leaq	80(%rsp), %rax
	leaq	(%rax,%rbx), %rax
	movq	%r15, %r11
	ja	.LBB12_15
	movl	$2, %esi
	movq	%r11, %rdi
	movq	%r11, %r15
	callq	L_1
	testb	%al, %al
	movb	$1, %al
	je	.LBB12_101
	movq	8(%r15), %r14
	movq	16(%r15), %rax
	movq	%rax, 8(%rsp)
	movq	16(%rsp), %rdx
	leaq	80(%rsp), %rax
	addq	%rbx, %rax
	movq	%r15, %r11
	jmp	.LBB12_15
.LBB12_72:
	movq	%r11, %rdi
	movq	%rdx, 16(%rsp)
	movq	%rdx, %rsi
	movq	%r11, %r15
	callq	L_1
	movl	%eax, %ecx
	movb	$1, %al
	testb	%cl, %cl
	je	.LBB12_101
	movq	(%r15), %r8
	movq	8(%r15), %r14
	movq	16(%r15), %rax
	movq	%rax, 8(%rsp)
	movq	16(%rsp), %rdx
	leaq	80(%rsp), %rax
	addq	%rbx, %rax
	movq	%r15, %r11
	jmp	.LBB12_16
.LBB12_74:
	movq	%r12, %rax
	andq	$-32, %rax
	addq	%rbp, %rcx
	addq	$16, %rcx
	movq	%r8, %r14
	leaq	(%r15,%r8), %rdx
	addq	$16, %rdx
	xorl	%r8d, %r8d
	.p2align	4
.LBB12_75:
	movups	-16(%rcx,%r8), %xmm0
	movups	(%rcx,%r8), %xmm1
	movups	%xmm0, -16(%rdx,%r8)
	movups	%xmm1, (%rdx,%r8)
	addq	$32, %r8
	cmpq	%r8, %rax
	jne	.LBB12_75
	cmpq	%rax, %r12
	movq	32(%rsp), %rdx
	movq	24(%rsp), %r9
	movq	%r14, %r8
	je	.LBB12_39
	testb	$28, %r12b
	je	.LBB12_37
.LBB12_78:
	movq	%r8, %r14
	movq	%rax, %rcx
	movq	%r12, %rax
	andq	$-4, %rax
	.p2align	4
.LBB12_79:
	movl	(%rsi,%rcx), %r8d
	movl	%r8d, (%rdi,%rcx)
	addq	$4, %rcx
	cmpq	%rcx, %rax
	jne	.LBB12_79
	cmpq	%rax, %r12
	movq	%r14, %r8
	jne	.LBB12_37
	jmp	.LBB12_39
.LBB12_81:
	movl	$2, %esi
	movq	%r11, %rdi
	movq	%r11, %rbx
	callq	L_1
	movl	%eax, %ecx
	movb	$1, %al
	testb	%cl, %cl
	je	.LBB12_101
	movq	(%rbx), %r8
	movq	8(%rbx), %r15
	movq	16(%rbx), %rax
	movq	%rax, 8(%rsp)
	movq	%rbx, %r11
	jmp	.LBB12_32
.LBB12_83:
	movq	%r11, %rdi
	movq	%r12, %rsi
	movq	%r11, %rbx
	callq	L_1
	movl	%eax, %ecx
	movb	$1, %al
	testb	%cl, %cl
	je	.LBB12_101
	movq	(%rbx), %r8
	movq	8(%rbx), %r15
	movq	16(%rbx), %rax
	movq	%rax, 8(%rsp)
	movq	%rbx, %r11
	jmp	.LBB12_33
.LBB12_85:
	movq	%r12, %rax
	andq	$-32, %rax
	movq	%r12, %rcx
	andq	$-32, %rcx
	leaq	(%r8,%rbp), %rdx
	addq	$16, %rdx
	xorl	%esi, %esi
	leaq	64(%rsp), %r9
	.p2align	4
.LBB12_86:
	leaq	(%r9,%rsi), %r8
	movups	(%r13,%r8), %xmm0
	movups	16(%r13,%r8), %xmm1
	movups	%xmm0, -16(%rdx,%rsi)
	movups	%xmm1, (%rdx,%rsi)
	addq	$32, %rsi
	cmpq	%rsi, %rcx
	jne	.LBB12_86
	cmpq	%rax, %r12
	je	.LBB12_99
	testb	$28, %r12b
	je	.LBB12_92
.LBB12_89:
	movq	%rax, %rcx
	movq	%r12, %rax
	andq	$-4, %rax
	movq	%r12, %rdx
	andq	$-4, %rdx
	.p2align	4
.LBB12_90:
	leaq	(%r9,%rcx), %rsi
	movl	(%r13,%rsi), %esi
	movl	%esi, (%rdi,%rcx)
	addq	$4, %rcx
	cmpq	%rcx, %rdx
	jne	.LBB12_90
	cmpq	%rax, %r12
	je	.LBB12_99
	jmp	.LBB12_92
.LBB12_102:
	movq	%r11, %rdi
	movq	%rdx, %rsi
	movq	%r11, %r14
	callq	L_1
	movl	%eax, %ecx
	movb	$1, %al
	testb	%cl, %cl
	je	.LBB12_101
	movq	(%r14), %r8
	movq	8(%r14), %rbx
	movq	16(%r14), %rax
	movq	%rax, 8(%rsp)
	movq	%r14, %r11
	movq	32(%rsp), %rdx
	movq	24(%rsp), %r9
	jmp	.LBB12_40
.LBB12_104:
	movq	%r11, %rdi
	movq	%r12, %rsi
	movq	%r11, %rbx
	callq	L_1
	movl	%eax, %ecx
	movb	$1, %al
	testb	%cl, %cl
	je	.LBB12_101
	movq	(%rbx), %r8
	movq	8(%rbx), %rbp
	movq	16(%rbx), %rax
	movq	%rax, 8(%rsp)
	movq	%rbx, %r11
	jmp	.LBB12_60
.LBB12_106:
	movl	$1, %esi
	movq	%r11, %rdi
	movq	%r11, %r14
	callq	L_1
	movl	%eax, %ecx
	movb	$1, %al
	testb	%cl, %cl
	je	.LBB12_101
	movq	(%r14), %rax
	movq	8(%r14), %rbx
	movq	16(%r14), %rcx
	movq	%rcx, 8(%rsp)
	movq	%r14, %r11
	jmp	.LBB12_100
.Lfunc_end12:

	.section	.text$016,"xr"
	.p2align	4
L_7:
	xorl	%eax, %eax
	testq	%rsi, %rsi
	je	.LBB13_2
	.p2align	4
.LBB13_1:
	movzbl	1(%rdi), %ecx
	andb	$-4, %cl
	xorl	%edx, %edx
	cmpb	$-40, %cl
	sete	%dl
	leaq	2(,%rdx,2), %rcx
	leaq	(%rdi,%rdx,2), %rdi
	addq	$2, %rdi
	incq	%rax
	subq	%rcx, %rsi
	jne	.LBB13_1
.LBB13_2:
	retq
.Lfunc_end13:

	.section	.rdata$000,"dr"
	.p2align	4, 0x0
.LCPI14_0:
	.byte	116
	.byte	104
	.byte	105
	.byte	115
	.byte	32
	.byte	109
	.byte	97
	.byte	99
	.byte	104
	.byte	105
	.byte	110
	.byte	101
	.byte	32
	.byte	108
	.byte	97
	.byte	99
.LCPI14_1:
	.byte	107
	.byte	115
	.byte	32
	.byte	97
	.byte	32
	.byte	102
	.byte	101
	.byte	97
	.byte	116
	.byte	117
	.byte	114
	.byte	101
	.byte	32
	.byte	111
	.byte	102
	.byte	32
.LCPI14_2:
	.byte	120
	.byte	56
	.byte	54
	.byte	45
	.byte	54
	.byte	52
	.byte	45
	.byte	118
	.byte	50
	.byte	44
	.byte	32
	.byte	119
	.byte	104
	.byte	105
	.byte	99
	.byte	104
.LCPI14_3:
	.byte	32
	.byte	116
	.byte	104
	.byte	105
	.byte	115
	.byte	32
	.byte	112
	.byte	114
	.byte	111
	.byte	103
	.byte	114
	.byte	97
	.byte	109
	.byte	32
	.byte	119
	.byte	97
.LCPI14_4:
	.byte	115
	.byte	32
	.byte	98
	.byte	117
	.byte	105
	.byte	108
	.byte	116
	.byte	32
	.byte	102
	.byte	111
	.byte	114
	.byte	58
	.byte	32
	.byte	114
	.byte	117
	.byte	110
.LCPI14_5:
	.byte	32
	.byte	105
	.byte	116
	.byte	32
	.byte	111
	.byte	110
	.byte	32
	.byte	97
	.byte	110
	.byte	111
	.byte	116
	.byte	104
	.byte	101
	.byte	114
	.byte	32
	.byte	109
.LCPI14_6:
	.byte	97
	.byte	99
	.byte	104
	.byte	105
	.byte	110
	.byte	101
	.byte	44
	.byte	32
	.byte	111
	.byte	114
	.byte	32
	.byte	98
	.byte	117
	.byte	105
	.byte	108
	.byte	100
.LCPI14_7:
	.byte	32
	.byte	105
	.byte	116
	.byte	32
	.byte	119
	.byte	105
	.byte	116
	.byte	104
	.byte	32
	.byte	45
	.byte	45
	.byte	99
	.byte	112
	.byte	117
	.byte	32
	.byte	120
	.section	.text$017,"xr"
	.globl	proved_main_v2
	.p2align	4
proved_main_v2:
	pushq	%rbp
	movq	%rsp, %rbp
	pushq	%rbx
	pushq	%rax
	movl	$1, %esi
	movl	$13, %edi
	callq	__sysv_signal
	xorl	%edi, %edi
	callq	__x86_get_cpuid_feature_leaf
	movl	24(%rax), %ebx
	movl	$2, %edi
	callq	__x86_get_cpuid_feature_leaf
	notl	%ebx
	testl	$9970177, %ebx
	jne	.LBB14_2
	movl	24(%rax), %eax
	andl	$1, %eax
	je	.LBB14_2
	leaq	-8(%rbp), %rsp
	popq	%rbx
	popq	%rbp
	jmp	L_0
.LBB14_2:
	movq	%rsp, %rsi
	subq	$144, %rsi
	cmpq	%rsp, %rsi
	jge	.LBB14_5
.LBB14_4:
	xorq	$0, (%rsp)
	subq	$3072, %rsp
	cmpq	%rsp, %rsi
	jl	.LBB14_4
.LBB14_5:
	movq	%rsi, %rsp
	movaps	.LCPI14_0(%rip), %xmm0
	movaps	%xmm0, (%rsi)
	movaps	.LCPI14_1(%rip), %xmm0
	movaps	%xmm0, 16(%rsi)
	movaps	.LCPI14_2(%rip), %xmm0
	movaps	%xmm0, 32(%rsi)
	movaps	.LCPI14_3(%rip), %xmm0
	movaps	%xmm0, 48(%rsi)
	movaps	.LCPI14_4(%rip), %xmm0
	movaps	%xmm0, 64(%rsi)
	movaps	.LCPI14_5(%rip), %xmm0
	movaps	%xmm0, 80(%rsi)
	movaps	.LCPI14_6(%rip), %xmm0
	movaps	%xmm0, 96(%rsi)
	movaps	.LCPI14_7(%rip), %xmm0
	movaps	%xmm0, 112(%rsi)
	movl	$908932664, 128(%rsi)
	movw	$2612, 132(%rsi)
	movl	$134, %edx
	movl	$2, %edi
	callq	__write
	movl	$127, %eax
	leaq	-8(%rbp), %rsp
	popq	%rbx
	popq	%rbp
	retq
.Lfunc_end14:

	.section	.rdata$018,"dr"
.Lstatic.15:
	.ascii	"0x"

	.section	.rdata$019,"dr"
.Lstatic.16:
	.ascii	" ("

	.section	.rdata$020,"dr"
.Lstatic.17:
	.ascii	"): incomplete character\n"

	.section	.rdata$021,"dr"
.Lstatic.18:
	.ascii	"00010203040506070809101112131415161718192021222324252627282930313233343536373839404142434445464748495051525354555657585960616263646566676869707172737475767778798081828384858687888990919293949596979899"

	.section	.rdata$022,"dr"
.Lstatic.19:
	.ascii	"bytes: "

	.section	.rdata$023,"dr"
.Lstatic.20:
	.ascii	", characters: "

	.section	.rdata$024,"dr"
.Lstatic.21:
	.ascii	", ill-formed: "

	.section	.rdata$025,"dr"
.Lstatic.23:
	.ascii	"): unpaired leading surrogate "

	.section	.rdata$026,"dr"
.Lstatic.24:
	.ascii	"): unpaired trailing surrogate "

	.section	.rdata$027,"dr"
.Lstatic.25:
	.ascii	"usage: "

	.section	.rdata$028,"dr"
.Lstatic.26:
	.ascii	": read failed\n"

	.section	.rdata$029,"dr"
.Lstatic.27:
	.ascii	": write failed\n"

	.section	.rdata$000,"dr"
.Lstatic.28:
	.ascii	": out of memory\n"

	.section	.rdata$030,"dr"
.Lstatic.29:
	.ascii	": input too long\n"

	.section	.rdata$031,"dr"
.Lstatic.30:
	.ascii	" le|be|auto\n"

	.section	.rdata$032,"dr"
.Lstatic.34:
	.ascii	"utf16_check"

