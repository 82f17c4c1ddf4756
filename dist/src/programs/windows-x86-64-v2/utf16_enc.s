/* SPDX-License-Identifier: MIT OR Apache-2.0
 * utf16_enc 0.2.0, as assembly for Windows on x86-64-v2. packaging/assembly
 * wrote it from the code that rt proved in logic dac8208d650f15bf: do not edit it. */
	.section	.text$000,"xr"
	.p2align	4
L_0:
	pushq	%rbp
	pushq	%r15
	pushq	%r14
	pushq	%r13
	pushq	%r12
	pushq	%rbx
	subq	$152, %rsp
	movq	$0, 56(%rsp)
	movq	$0, 48(%rsp)
	movq	%rsp, %rax
	movq	%rax, 40(%rsp)
	movq	%rax, 16(%rsp)
	xorps	%xmm0, %xmm0
	movups	%xmm0, 24(%rsp)
	xorl	%ebp, %ebp
	movq	$0, 8(%rsp)
.LBB0_1:
	movl	$256, %r12d
	movl	$64, %r14d
	jmp	.LBB0_3
	.p2align	4
.LBB0_2:
	movq	%r12, %rax
	addq	%r12, %rax
	movq	$-1, %r12
	cmovaeq	%rax, %r12
	decl	%r14d
	je	.LBB0_62
.LBB0_3:
	movq	%rsp, %r15
	movq	%r15, 64(%rsp)
	xorps	%xmm0, %xmm0
	leaq	72(%rsp), %rax
	movups	%xmm0, (%rax)
	testq	%r12, %r12
	jne	.LBB0_10
	xorl	%r13d, %r13d
.LBB0_5:
	movq	8(%rsp), %rdi
	movq	%r15, %rsi
	movq	%r13, %rdx
	callq	rattle_arg
	movq	%rax, %rbx
	movl	$22, %eax
	cmpq	$-1, %rbx
	je	.LBB0_7
	movl	$36, %eax
.LBB0_7:
	xorl	%edi, %edi
	testq	%rbx, %rbx
	cmovsl	%eax, %edi
	callq	rattle_set_errno
	callq	rattle_errno
	cmpl	$36, %eax
	jne	.LBB0_13
	cmpq	$0, 80(%rsp)
	je	.LBB0_2
	movq	%r15, %rdi
	callq	rattle_dealloc
	jmp	.LBB0_2
.LBB0_10:
	leaq	64(%rsp), %rdi
	movq	%r12, %rsi
	callq	L_1
	testb	%al, %al
	je	.LBB0_60
	movq	64(%rsp), %r15
	movq	72(%rsp), %rdi
	leaq	(%rdi,%r12), %r13
	cmpq	%r13, %rdi
	jae	.LBB0_5
	addq	%r15, %rdi
	xorl	%esi, %esi
	movq	%r12, %rdx
	callq	sysv_memset
	jmp	.LBB0_5
	.p2align	4
.LBB0_13:
	testl	%eax, %eax
	jne	.LBB0_19
	cmpq	%r13, %rbx
	cmovbq	%rbx, %r13
	xorl	%r12d, %r12d
	testq	%rbx, %rbx
	cmovgq	%r13, %r12
	movq	80(%rsp), %rbx
	xorps	%xmm0, %xmm0
	movaps	%xmm0, 64(%rsp)
	movq	$0, 80(%rsp)
	leaq	64(%rsp), %r13
	movq	%r13, %rdi
	movq	%r15, %rsi
	movq	%r12, %rdx
	callq	L_2
	cmpb	$1, 64(%rsp)
	je	.LBB0_100
	cmpq	%rbp, 32(%rsp)
	je	.LBB0_17
.LBB0_16:
	leaq	(,%rbp,2), %rax
	addq	%rbp, %rax
	movq	40(%rsp), %rcx
	movq	%r15, (%rcx,%rax,8)
	movq	%r12, 8(%rcx,%rax,8)
	movq	%rbx, 16(%rcx,%rax,8)
	incq	%rbp
	movq	%rbp, 24(%rsp)
	movq	8(%rsp), %rcx
	incq	%rcx
	movq	%rcx, 8(%rsp)
	cmpq	$-1, %rcx
	jne	.LBB0_1
	jmp	.LBB0_21
.LBB0_17:
	leaq	16(%rsp), %r13
	movq	%r13, %rdi
	callq	L_3
	testb	%al, %al
	je	.LBB0_109
	movq	16(%rsp), %rax
	movq	%rax, 40(%rsp)
	movq	24(%rsp), %rbp
	jmp	.LBB0_16
.LBB0_19:
	cmpq	$0, 80(%rsp)
	je	.LBB0_21
	movq	%r15, %rdi
	callq	rattle_dealloc
.LBB0_21:
	movq	16(%rsp), %r14
	movq	32(%rsp), %r13
	testq	%rbp, %rbp
	je	.LBB0_24
	movq	(%r14), %rdi
	movq	16(%r14), %rbx
	cmpq	$1, %rbp
	jne	.LBB0_25
	xorl	%ebp, %ebp
	xorl	%r15d, %r15d
	xorl	%r12d, %r12d
	movq	$0, 8(%rsp)
	testq	%rbx, %rbx
	jne	.LBB0_27
	jmp	.LBB0_28
.LBB0_24:
	xorl	%ebp, %ebp
	xorl	%r15d, %r15d
	xorl	%r12d, %r12d
	movq	$0, 8(%rsp)
	jmp	.LBB0_28
.LBB0_25:
	movq	24(%r14), %r15
	movq	40(%r14), %r12
	cmpq	$2, %rbp
	jne	.LBB0_36
	movq	%r12, 8(%rsp)
	movq	32(%r14), %r12
	movb	$1, %bpl
	testq	%rbx, %rbx
	je	.LBB0_28
.LBB0_27:
	callq	rattle_dealloc
.LBB0_28:
	testq	%r13, %r13
	je	.LBB0_30
	movq	%r14, %rdi
	callq	rattle_dealloc
.LBB0_30:
	testb	%bpl, %bpl
	je	.LBB0_46
	cmpq	$6, %r12
	je	.LBB0_51
	cmpq	$2, %r12
	movq	8(%rsp), %rsi
	jne	.LBB0_54
	movzbl	(%r15), %ecx
	movzbl	1(%r15), %edx
	shll	$16, %ecx
	movl	%edx, %eax
	shll	$8, %eax
	orl	%ecx, %eax
	orl	%edx, %eax
	cmpl	$6448485, %eax
	je	.LBB0_72
	cmpl	$7103845, %eax
	jne	.LBB0_54
	xorl	%ebx, %ebx
	xorl	%ebp, %ebp
	jmp	.LBB0_74
.LBB0_36:
	cmpq	$0, 64(%r14)
	je	.LBB0_38
	movq	%rdi, 8(%rsp)
	movq	48(%r14), %rdi
	callq	rattle_dealloc
	movq	8(%rsp), %rdi
.LBB0_38:
	testq	%r12, %r12
	je	.LBB0_40
	movq	%rdi, %r12
	movq	%r15, %rdi
	callq	rattle_dealloc
	movq	%r12, %rdi
.LBB0_40:
	testq	%rbx, %rbx
	je	.LBB0_42
	callq	rattle_dealloc
.LBB0_42:
	cmpq	$3, %rbp
	jne	.LBB0_56
.LBB0_43:
	testq	%r13, %r13
	je	.LBB0_46
	movq	%r14, %rdi
	jmp	.LBB0_45
.LBB0_51:
	movl	(%r15), %ecx
	movl	2(%r15), %eax
	shlq	$32, %rax
	orq	%rcx, %rax
	movabsq	$7885629419609220450, %rcx
	cmpq	%rcx, %rax
	je	.LBB0_73
	movabsq	$7885629419609220460, %rcx
	cmpq	%rcx, %rax
	movq	8(%rsp), %rsi
	jne	.LBB0_54
	movb	$1, %bpl
	xorl	%ebx, %ebx
	jmp	.LBB0_74
.LBB0_54:
	testq	%rsi, %rsi
	je	.LBB0_46
	movq	%r15, %rdi
.LBB0_45:
	callq	rattle_dealloc
	jmp	.LBB0_46
.LBB0_56:
	addq	$-3, %rbp
	leaq	88(%r14), %rbx
	jmp	.LBB0_58
	.p2align	4
.LBB0_57:
	addq	$24, %rbx
	decq	%rbp
	je	.LBB0_43
.LBB0_58:
	cmpq	$0, (%rbx)
	je	.LBB0_57
	movq	-16(%rbx), %rdi
	callq	rattle_dealloc
	jmp	.LBB0_57
.LBB0_60:
	cmpq	$0, 80(%rsp)
	je	.LBB0_62
	movq	64(%rsp), %rdi
	callq	rattle_dealloc
.LBB0_62:
	movq	32(%rsp), %rbx
	testq	%rbp, %rbp
	je	.LBB0_67
	movq	40(%rsp), %rax
	leaq	16(%rax), %r14
	jmp	.LBB0_65
	.p2align	4
.LBB0_64:
	addq	$24, %r14
	decq	%rbp
	je	.LBB0_67
.LBB0_65:
	cmpq	$0, (%r14)
	je	.LBB0_64
	movq	-16(%r14), %rdi
	callq	rattle_dealloc
	jmp	.LBB0_64
.LBB0_67:
	leaq	16(%rsp), %r13
	testq	%rbx, %rbx
	je	.LBB0_70
	movq	40(%rsp), %rdi
.LBB0_69:
	callq	rattle_dealloc
.LBB0_70:
	movb	$21, 64(%rsp)
	movb	$38, 16(%rsp)
	cmpb	$38, (%r13)
	jne	.LBB0_46
.LBB0_71:
	leaq	.Lstatic.28(%rip), %r15
	movl	$16, %r12d
.LBB0_87:
	movb	$1, %bl
	jmp	.LBB0_88
.LBB0_72:
	movb	$1, %bl
	xorl	%ebp, %ebp
	jmp	.LBB0_74
.LBB0_73:
	movb	$1, %bl
	movb	$1, %bpl
	movq	8(%rsp), %rsi
.LBB0_74:
	testq	%rsi, %rsi
	je	.LBB0_76
	movq	%r15, %rdi
	callq	rattle_dealloc
.LBB0_76:
	testb	%bpl, %bpl
	je	.LBB0_79
	testb	%bl, %bl
	je	.LBB0_83
	movl	$0, 64(%rsp)
	movb	$1, 68(%rsp)
	jmp	.LBB0_81
.LBB0_79:
	testb	%bl, %bl
	je	.LBB0_84
	movb	$0, 68(%rsp)
	movl	$0, 64(%rsp)
.LBB0_81:
	leaq	64(%rsp), %rdi
	leaq	56(%rsp), %rsi
	leaq	48(%rsp), %rdx
	callq	L_4
	testb	$1, %al
	je	.LBB0_82
.LBB0_85:
	movl	%edx, %ebx
	movzbl	%dl, %eax
	leaq	.LJTI0_0(%rip), %rcx
	movslq	(%rcx,%rax,4), %rax
	addq	%rcx, %rax
	jmpq	*%rax
.LBB0_86:
	leaq	.Lstatic.26(%rip), %r15
	movl	$14, %r12d
	jmp	.LBB0_87
.LBB0_46:
	xorl	%r14d, %r14d
	.p2align	4
.LBB0_47:
	leaq	.Lstatic.25(%rip), %rsi
	addq	%r14, %rsi
	movq	%r14, %rbx
	xorq	$7, %rbx
	movl	$2, %edi
	movq	%rbx, %rdx
	callq	sysv_write
	testq	%rax, %rax
	js	.LBB0_97
	cmpq	%rbx, %rax
	cmovbq	%rax, %rbx
	testq	%rbx, %rbx
	je	.LBB0_98
	addq	%rbx, %r14
	cmpq	$6, %r14
	jbe	.LBB0_47
	leaq	.Lstatic.31(%rip), %r15
	movl	$21, %r12d
	movb	$2, %bl
.LBB0_88:
	xorl	%r13d, %r13d
	.p2align	4
.LBB0_89:
	leaq	.Lstatic.33(%rip), %rsi
	addq	%r13, %rsi
	movl	$9, %r14d
	subq	%r13, %r14
	movl	$2, %edi
	movq	%r14, %rdx
	callq	sysv_write
	testq	%rax, %rax
	js	.LBB0_96
	cmpq	%r14, %rax
	cmovbq	%rax, %r14
	testq	%r14, %r14
	je	.LBB0_99
	addq	%r14, %r13
	cmpq	$9, %r13
	jb	.LBB0_89
	xorl	%r13d, %r13d
	.p2align	4
.LBB0_93:
	leaq	(%r15,%r13), %rsi
	movq	%r12, %r14
	subq	%r13, %r14
	movl	$2, %edi
	movq	%r14, %rdx
	callq	sysv_write
	testq	%rax, %rax
	js	.LBB0_96
	cmpq	%r14, %rax
	cmovbq	%rax, %r14
	testq	%r14, %r14
	je	.LBB0_99
	addq	%r14, %r13
	cmpq	%r12, %r13
	jb	.LBB0_93
	jmp	.LBB0_99
.LBB0_96:
	leaq	64(%rsp), %rdi
	callq	L_5
	jmp	.LBB0_99
.LBB0_97:
	leaq	64(%rsp), %rdi
	callq	L_5
.LBB0_98:
	movb	$2, %bl
.LBB0_99:
	movzbl	%bl, %eax
	addq	$152, %rsp
	popq	%rbx
	popq	%r12
	popq	%r13
	popq	%r14
	popq	%r15
	popq	%rbp
	retq
.LBB0_83:
	movl	$0, 64(%rsp)
	movb	$1, 68(%rsp)
	leaq	64(%rsp), %rdi
	leaq	56(%rsp), %rsi
	leaq	48(%rsp), %rdx
	callq	L_6
	cmpb	$1, %al
	je	.LBB0_85
.LBB0_82:
	xorl	%ebx, %ebx
	jmp	.LBB0_99
.LBB0_84:
	movb	$0, 68(%rsp)
	movl	$0, 64(%rsp)
	leaq	64(%rsp), %rdi
	leaq	56(%rsp), %rsi
	leaq	48(%rsp), %rdx
	callq	L_6
	testb	$1, %al
	je	.LBB0_82
	jmp	.LBB0_85
.LBB0_100:
	testq	%rbx, %rbx
	je	.LBB0_102
	movq	%r15, %rdi
	callq	rattle_dealloc
.LBB0_102:
	movq	16(%rsp), %rbx
	movq	32(%rsp), %r14
	testq	%rbp, %rbp
	je	.LBB0_116
	leaq	16(%rbx), %r15
	jmp	.LBB0_105
	.p2align	4
.LBB0_104:
	addq	$24, %r15
	decq	%rbp
	je	.LBB0_116
.LBB0_105:
	cmpq	$0, (%r15)
	je	.LBB0_104
	movq	-16(%r15), %rdi
	callq	rattle_dealloc
	jmp	.LBB0_104
.LBB0_107:
	leaq	.Lstatic.29(%rip), %r15
	movl	$17, %r12d
	jmp	.LBB0_87
.LBB0_108:
	leaq	.Lstatic.27(%rip), %r15
	movl	$15, %r12d
	jmp	.LBB0_88
.LBB0_109:
	testq	%rbx, %rbx
	je	.LBB0_111
	movq	%r15, %rdi
	callq	rattle_dealloc
.LBB0_111:
	movq	16(%rsp), %rbx
	movq	24(%rsp), %r15
	movq	32(%rsp), %r14
	testq	%r15, %r15
	je	.LBB0_116
	leaq	16(%rbx), %r12
	jmp	.LBB0_114
.LBB0_113:
	addq	$24, %r12
	decq	%r15
	je	.LBB0_116
.LBB0_114:
	cmpq	$0, (%r12)
	je	.LBB0_113
	movq	-16(%r12), %rdi
	callq	rattle_dealloc
	jmp	.LBB0_113
.LBB0_116:
	testq	%r14, %r14
	je	.LBB0_70
	movq	%rbx, %rdi
	jmp	.LBB0_69
.Lfunc_end0:
	.section	.rdata$001,"dr"
	.p2align	2, 0x0
.LJTI0_0:
	.long	.LBB0_86-.LJTI0_0
	.long	.LBB0_108-.LJTI0_0
	.long	.LBB0_71-.LJTI0_0
	.long	.LBB0_107-.LJTI0_0
	.long	.LBB0_46-.LJTI0_0

	.section	.text$002,"xr"
	.p2align	4
L_1:
	movq	%rsi, %rax
	movq	8(%rdi), %rsi
	addq	%rsi, %rax
	jae	.LBB1_2
	xorl	%eax, %eax
	retq
.LBB1_2:
	pushq	%r14
	pushq	%rbx
	pushq	%rax
	cmpq	$9, %rax
	movl	$8, %ebx
	cmovaeq	%rax, %rbx
	movq	16(%rdi), %rcx
	movq	%rcx, %rdx
	shrq	$62, %rdx
	leaq	(%rcx,%rcx), %rax
	cmpq	%rax, %rbx
	cmovaq	%rbx, %rax
	testq	%rdx, %rdx
	cmoveq	%rax, %rbx
	testq	%rbx, %rbx
	js	.LBB1_6
	testq	%rcx, %rcx
	je	.LBB1_8
	movq	%rdi, %r14
	movq	(%rdi), %rdi
	movl	$1, %ecx
	movq	%rbx, %rdx
	callq	rattle_realloc
	testb	$1, %al
	je	.LBB1_6
.LBB1_9:
	movq	%rdx, (%r14)
	movq	%rbx, 16(%r14)
	movb	$1, %al
	addq	$8, %rsp
	popq	%rbx
	popq	%r14
	retq
.LBB1_8:
	movq	%rdi, %r14
	movl	$1, %esi
	movq	%rax, %rdi
	callq	rattle_alloc
	testb	$1, %al
	jne	.LBB1_9
.LBB1_6:
	xorl	%eax, %eax
	addq	$8, %rsp
	popq	%rbx
	popq	%r14
	retq
.Lfunc_end1:

	.section	.text$003,"xr"
	.p2align	4
L_2:
	pushq	%r15
	pushq	%r14
	pushq	%r13
	pushq	%r12
	pushq	%rbx
	subq	$16, %rsp
	movq	%rdx, %r15
	movq	%rsi, %r14
	movq	%rdi, %rbx
	testq	%rdx, %rdx
	je	.LBB2_57
	movabsq	$-9187201950435737472, %r12
	leaq	-8(%r15), %r13
	xorl	%ecx, %ecx
	jmp	.LBB2_5
.LBB2_25:
	movl	$1, %edi
.LBB2_3:
	addq	%rcx, %rdi
.LBB2_4:
	movq	%rdi, %rcx
	cmpq	%r15, %rdi
	jae	.LBB2_57
.LBB2_5:
	movzbl	(%r14,%rcx), %esi
	testb	%sil, %sil
	sets	%dl
	movq	%r15, %rax
	subq	%rcx, %rax
	cmpq	$2, %rax
	setb	%dil
	orb	%dl, %dil
	jne	.LBB2_2
	cmpb	$0, 1(%r14,%rcx)
	js	.LBB2_25
	movq	%r14, (%rsp)
	movq	%r15, 8(%rsp)
	cmpq	$7, %rax
	ja	.LBB2_26
	cmpb	$0, (%r14,%rcx)
	js	.LBB2_36
	leaq	1(%rcx), %rdi
	cmpq	%r15, %rdi
	je	.LBB2_57
	cmpb	$0, (%r14,%rdi)
	js	.LBB2_4
	leaq	2(%rcx), %rdi
	cmpq	%r15, %rdi
	je	.LBB2_57
	cmpb	$0, (%r14,%rdi)
	js	.LBB2_4
	leaq	3(%rcx), %rdi
	cmpq	%r15, %rdi
	je	.LBB2_57
	cmpb	$0, (%r14,%rdi)
	js	.LBB2_4
	leaq	4(%rcx), %rdi
	cmpq	%r15, %rdi
	je	.LBB2_57
	cmpb	$0, (%r14,%rdi)
	js	.LBB2_4
	leaq	5(%rcx), %rdi
	cmpq	%r15, %rdi
	je	.LBB2_57
	cmpb	$0, (%r14,%rdi)
	js	.LBB2_4
	addq	$6, %rcx
	cmpq	%r15, %rcx
	je	.LBB2_57
	cmpb	$0, (%r14,%rcx)
	movq	%rcx, %rdi
	js	.LBB2_4
	jmp	.LBB2_57
	.p2align	4
.LBB2_2:
	movl	$1, %edi
	testb	%sil, %sil
	jns	.LBB2_3
	movl	$257, %edx
	cmpb	$-62, %sil
	jb	.LBB2_66
	cmpb	$-33, %sil
	ja	.LBB2_29
	cmpq	$2, %rax
	jb	.LBB2_58
	movzbl	1(%r14,%rcx), %r8d
	movl	$2, %edi
	cmpb	$-65, %r8b
	jle	.LBB2_3
	jmp	.LBB2_60
.LBB2_26:
	movq	(%r14,%rcx), %rax
	andq	%r12, %rax
	je	.LBB2_37
	rep		bsfq	%rax, %rax
	shrl	$3, %eax
	addq	%rcx, %rax
	addq	$8, %rcx
	movq	%rax, %rdi
	cmpq	%rcx, %rax
	jb	.LBB2_4
	movq	%r15, %rcx
	subq	%rax, %rcx
	cmpq	$32, %rcx
	jae	.LBB2_38
	jmp	.LBB2_40
.LBB2_29:
	cmpb	$-17, %sil
	ja	.LBB2_48
	cmpq	$3, %rax
	jb	.LBB2_55
	movzbl	1(%r14,%rcx), %r8d
	cmpb	$-65, %r8b
	jg	.LBB2_60
	cmpb	$-65, 2(%r14,%rcx)
	jg	.LBB2_60
	movzbl	%r8b, %edi
	movl	%esi, %r9d
	shll	$6, %r9d
	addl	%edi, %r9d
	addl	$-14464, %r9d
	cmpl	$32, %r9d
	jb	.LBB2_60
	xorl	%r8d, %r8d
	cmpl	$896, %r9d
	setae	%r10b
	movl	$3, %edi
	cmpl	$864, %r9d
	jb	.LBB2_3
	movb	%r10b, %r8b
	leaq	(%r8,%r8,2), %rdi
	testq	%rdi, %rdi
	jne	.LBB2_3
	jmp	.LBB2_54
.LBB2_36:
	movq	%rcx, %rdi
	jmp	.LBB2_4
.LBB2_37:
	addq	$8, %rcx
	movq	%rcx, %rax
	movq	%r15, %rcx
	subq	%rax, %rcx
	cmpq	$32, %rcx
	jb	.LBB2_40
	.p2align	4
.LBB2_38:
	movdqu	(%r14,%rax), %xmm0
	movdqu	16(%r14,%rax), %xmm1
	por	%xmm0, %xmm1
	pshufd	$238, %xmm1, %xmm0
	por	%xmm1, %xmm0
	movq	%xmm0, %rcx
	testq	%r12, %rcx
	jne	.LBB2_40
	addq	$32, %rax
	movq	%rsp, %rdi
	movq	%rax, %rsi
	movq	%r15, %rdx
	callq	L_7
	movq	%r15, %rcx
	subq	%rax, %rcx
	cmpq	$31, %rcx
	ja	.LBB2_38
.LBB2_40:
	movq	%r15, %rcx
	subq	%rax, %rcx
	jmp	.LBB2_43
	.p2align	4
.LBB2_41:
	rep		bsfq	%rdx, %rdi
	shrl	$3, %edi
	addq	%rax, %rdi
	addq	$8, %rax
	addq	$-8, %rcx
	cmpq	%rax, %rdi
	jb	.LBB2_4
.LBB2_43:
	cmpq	$9, %rcx
	jb	.LBB2_46
	movq	(%r14,%rax), %rdx
	andq	%r12, %rdx
	jne	.LBB2_41
	leaq	8(%rax), %rdi
	addq	$8, %rax
	addq	$-8, %rcx
	cmpq	%rax, %rdi
	jae	.LBB2_43
	jmp	.LBB2_4
.LBB2_46:
	movq	(%r14,%r13), %rax
	andq	%r12, %rax
	je	.LBB2_57
	rep		bsfq	%rax, %rdi
	shrl	$3, %edi
	addq	%r13, %rdi
	jmp	.LBB2_4
.LBB2_48:
	cmpq	$4, %rax
	jb	.LBB2_54
	movzbl	1(%r14,%rcx), %edi
	cmpb	$-65, %dil
	jg	.LBB2_54
	cmpb	$-65, 2(%r14,%rcx)
	jg	.LBB2_54
	cmpb	$-65, 3(%r14,%rcx)
	jg	.LBB2_54
	movl	%esi, %r8d
	shll	$6, %r8d
	leal	(%r8,%rdi), %r9d
	addl	$-15488, %r9d
	xorl	%edi, %edi
	cmpl	$272, %r9d
	setb	%r8b
	cmpl	$16, %r9d
	jb	.LBB2_54
	movb	%r8b, %dil
	shll	$2, %edi
	testq	%rdi, %rdi
	jne	.LBB2_3
.LBB2_54:
	cmpb	$-12, %sil
	ja	.LBB2_66
.LBB2_55:
	cmpq	$2, %rax
	jb	.LBB2_58
	movzbl	1(%r14,%rcx), %r8d
.LBB2_60:
	cmpl	$240, %esi
	sete	%dil
	shlb	$4, %dil
	orb	$-128, %dil
	cmpl	$224, %esi
	movzbl	%dil, %edi
	movl	$160, %r9d
	cmovnel	%edi, %r9d
	cmpl	$244, %esi
	movl	$143, %edi
	movl	$191, %r10d
	cmovel	%edi, %r10d
	cmpl	$237, %esi
	movl	$159, %esi
	cmovnel	%r10d, %esi
	cmpb	%r8b, %r9b
	ja	.LBB2_66
	cmpb	%sil, %r8b
	ja	.LBB2_66
	cmpq	$2, %rax
	jne	.LBB2_64
.LBB2_58:
	xorl	%edx, %edx
.LBB2_66:
	movq	$1, (%rbx)
	movq	%rcx, 8(%rbx)
	movq	%rdx, 16(%rbx)
	jmp	.LBB2_67
.LBB2_57:
	movq	$0, (%rbx)
	movq	%r14, 8(%rbx)
	movq	%r15, 16(%rbx)
.LBB2_67:
	addq	$16, %rsp
	popq	%rbx
	popq	%r12
	popq	%r13
	popq	%r14
	popq	%r15
	retq
.LBB2_64:
	movl	$513, %edx
	cmpb	$-65, 2(%r14,%rcx)
	jg	.LBB2_66
	xorl	%esi, %esi
	cmpq	$4, %rax
	movl	$769, %edx
	cmovbq	%rsi, %rdx
	jmp	.LBB2_66
.Lfunc_end2:

	.section	.rdata$004,"dr"
	.p2align	4, 0x0
.LCPI3_0:
	.zero	16,128
	.section	.text$005,"xr"
	.p2align	4
L_7:
	movq	%rsi, %rax
	subq	%rsi, %rdx
	cmpq	$64, %rdx
	jb	.LBB3_4
	movq	(%rdi), %rcx
	.p2align	4
.LBB3_2:
	movdqu	(%rcx,%rax), %xmm0
	movdqu	16(%rcx,%rax), %xmm1
	movdqu	32(%rcx,%rax), %xmm2
	por	%xmm0, %xmm2
	movdqu	48(%rcx,%rax), %xmm0
	por	%xmm1, %xmm0
	por	%xmm2, %xmm0
	ptest	.LCPI3_0(%rip), %xmm0
	jne	.LBB3_4
	addq	$64, %rax
	addq	$-64, %rdx
	cmpq	$63, %rdx
	ja	.LBB3_2
.LBB3_4:
	retq
.Lfunc_end3:

	.section	.text$006,"xr"
	.p2align	4
L_3:
	movq	8(%rdi), %rax
	cmpq	$-1, %rax
	je	.LBB4_5
	pushq	%r14
	pushq	%rbx
	pushq	%rax
	movq	16(%rdi), %rcx
	cmpq	$4, %rax
	movl	$3, %ebx
	cmovaeq	%rax, %rbx
	incq	%rbx
	movq	%rcx, %rsi
	shrq	$62, %rsi
	leaq	(%rcx,%rcx), %rdx
	cmpq	%rdx, %rbx
	cmovaq	%rbx, %rdx
	testq	%rsi, %rsi
	cmoveq	%rdx, %rbx
	movabsq	$384307168202282325, %rsi
	cmpq	%rsi, %rbx
	ja	.LBB4_6
	testq	%rcx, %rcx
	je	.LBB4_8
	movq	%rdi, %r14
	movq	(%rdi), %rdi
	shlq	$3, %rax
	leaq	(%rax,%rax,2), %rsi
	leaq	(,%rbx,8), %rax
	leaq	(%rax,%rax,2), %rdx
	movl	$8, %ecx
	callq	rattle_realloc
	testb	$1, %al
	je	.LBB4_6
.LBB4_9:
	movq	%rdx, (%r14)
	movq	%rbx, 16(%r14)
	movb	$1, %al
	addq	$8, %rsp
	popq	%rbx
	popq	%r14
	retq
.LBB4_5:
	xorl	%eax, %eax
	retq
.LBB4_8:
	movq	%rdi, %r14
	shlq	$3, %rdx
	leaq	(%rdx,%rdx,2), %rdi
	movl	$8, %esi
	callq	rattle_alloc
	testb	$1, %al
	jne	.LBB4_9
.LBB4_6:
	xorl	%eax, %eax
	addq	$8, %rsp
	popq	%rbx
	popq	%r14
	retq
.Lfunc_end4:

	.section	.text$007,"xr"
	.p2align	4
L_5:
	pushq	%rbx
	movq	%rdi, %rbx
	callq	rattle_errno
	movl	%eax, %ecx
	movb	$41, %dl
	testl	%eax, %eax
	js	.LBB5_40
	decl	%eax
	cmpl	$121, %eax
	ja	.LBB5_40
	leaq	.LJTI5_0(%rip), %rsi
	movslq	(%rsi,%rax,4), %rax
	addq	%rsi, %rax
	jmpq	*%rax
.LBB5_3:
	movb	$1, %dl
	jmp	.LBB5_40
.LBB5_24:
	movb	$36, %dl
	jmp	.LBB5_40
.LBB5_36:
	movb	$4, %dl
	jmp	.LBB5_40
.LBB5_33:
	movb	$7, %dl
	jmp	.LBB5_40
.LBB5_39:
	movb	$26, %dl
	jmp	.LBB5_40
.LBB5_37:
	movb	$39, %dl
	jmp	.LBB5_40
.LBB5_28:
	movb	$9, %dl
	jmp	.LBB5_40
.LBB5_27:
	movb	$8, %dl
	jmp	.LBB5_40
.LBB5_22:
	movb	$30, %dl
	jmp	.LBB5_40
.LBB5_18:
	movb	$25, %dl
	jmp	.LBB5_40
.LBB5_20:
	movb	$32, %dl
	jmp	.LBB5_40
.LBB5_23:
	movb	$33, %dl
	jmp	.LBB5_40
.LBB5_34:
	movb	$22, %dl
	jmp	.LBB5_40
.LBB5_11:
	movb	$31, %dl
	jmp	.LBB5_40
.LBB5_15:
	movb	$29, %dl
	jmp	.LBB5_40
.LBB5_26:
	movb	$18, %dl
	jmp	.LBB5_40
.LBB5_29:
	movb	$10, %dl
	jmp	.LBB5_40
.LBB5_9:
	movb	$28, %dl
	jmp	.LBB5_40
.LBB5_12:
	movb	$14, %dl
	jmp	.LBB5_40
.LBB5_10:
	movb	$12, %dl
	jmp	.LBB5_40
.LBB5_30:
	movb	$5, %dl
	jmp	.LBB5_40
.LBB5_32:
	movb	$3, %dl
	jmp	.LBB5_40
.LBB5_4:
	xorl	%edx, %edx
	jmp	.LBB5_40
.LBB5_7:
	movb	$13, %dl
	jmp	.LBB5_40
.LBB5_8:
	movb	$38, %dl
	jmp	.LBB5_40
.LBB5_21:
	movb	$11, %dl
	jmp	.LBB5_40
.LBB5_5:
	movb	$35, %dl
	jmp	.LBB5_40
.LBB5_6:
	movb	$34, %dl
	jmp	.LBB5_40
.LBB5_14:
	movb	$20, %dl
	jmp	.LBB5_40
.LBB5_13:
	movb	$15, %dl
	jmp	.LBB5_40
.LBB5_38:
	movb	$19, %dl
	jmp	.LBB5_40
.LBB5_25:
	movb	$16, %dl
	jmp	.LBB5_40
.LBB5_31:
	movb	$6, %dl
	jmp	.LBB5_40
.LBB5_16:
	movb	$27, %dl
	jmp	.LBB5_40
.LBB5_17:
	movb	$24, %dl
	jmp	.LBB5_40
.LBB5_35:
	movb	$2, %dl
	jmp	.LBB5_40
.LBB5_19:
	movb	$17, %dl
.LBB5_40:
	movb	$0, (%rbx)
	movb	%dl, 1(%rbx)
	movw	$0, 2(%rbx)
	movl	%ecx, 4(%rbx)
	xorps	%xmm0, %xmm0
	movups	%xmm0, 8(%rbx)
	movups	%xmm0, 24(%rbx)
	movups	%xmm0, 40(%rbx)
	movups	%xmm0, 56(%rbx)
	movups	%xmm0, 72(%rbx)
	popq	%rbx
	retq
.Lfunc_end5:
	.section	.rdata$008,"dr"
	.p2align	2, 0x0
.LJTI5_0:
	.long	.LBB5_3-.LJTI5_0
	.long	.LBB5_4-.LJTI5_0
	.long	.LBB5_40-.LJTI5_0
	.long	.LBB5_5-.LJTI5_0
	.long	.LBB5_40-.LJTI5_0
	.long	.LBB5_40-.LJTI5_0
	.long	.LBB5_6-.LJTI5_0
	.long	.LBB5_40-.LJTI5_0
	.long	.LBB5_40-.LJTI5_0
	.long	.LBB5_40-.LJTI5_0
	.long	.LBB5_7-.LJTI5_0
	.long	.LBB5_8-.LJTI5_0
	.long	.LBB5_3-.LJTI5_0
	.long	.LBB5_40-.LJTI5_0
	.long	.LBB5_40-.LJTI5_0
	.long	.LBB5_9-.LJTI5_0
	.long	.LBB5_10-.LJTI5_0
	.long	.LBB5_11-.LJTI5_0
	.long	.LBB5_40-.LJTI5_0
	.long	.LBB5_12-.LJTI5_0
	.long	.LBB5_13-.LJTI5_0
	.long	.LBB5_14-.LJTI5_0
	.long	.LBB5_40-.LJTI5_0
	.long	.LBB5_40-.LJTI5_0
	.long	.LBB5_40-.LJTI5_0
	.long	.LBB5_15-.LJTI5_0
	.long	.LBB5_16-.LJTI5_0
	.long	.LBB5_17-.LJTI5_0
	.long	.LBB5_18-.LJTI5_0
	.long	.LBB5_19-.LJTI5_0
	.long	.LBB5_20-.LJTI5_0
	.long	.LBB5_21-.LJTI5_0
	.long	.LBB5_40-.LJTI5_0
	.long	.LBB5_40-.LJTI5_0
	.long	.LBB5_22-.LJTI5_0
	.long	.LBB5_23-.LJTI5_0
	.long	.LBB5_40-.LJTI5_0
	.long	.LBB5_24-.LJTI5_0
	.long	.LBB5_25-.LJTI5_0
	.long	.LBB5_26-.LJTI5_0
	.long	.LBB5_40-.LJTI5_0
	.long	.LBB5_40-.LJTI5_0
	.long	.LBB5_40-.LJTI5_0
	.long	.LBB5_40-.LJTI5_0
	.long	.LBB5_40-.LJTI5_0
	.long	.LBB5_40-.LJTI5_0
	.long	.LBB5_40-.LJTI5_0
	.long	.LBB5_40-.LJTI5_0
	.long	.LBB5_40-.LJTI5_0
	.long	.LBB5_40-.LJTI5_0
	.long	.LBB5_40-.LJTI5_0
	.long	.LBB5_40-.LJTI5_0
	.long	.LBB5_40-.LJTI5_0
	.long	.LBB5_40-.LJTI5_0
	.long	.LBB5_40-.LJTI5_0
	.long	.LBB5_40-.LJTI5_0
	.long	.LBB5_40-.LJTI5_0
	.long	.LBB5_40-.LJTI5_0
	.long	.LBB5_40-.LJTI5_0
	.long	.LBB5_40-.LJTI5_0
	.long	.LBB5_40-.LJTI5_0
	.long	.LBB5_40-.LJTI5_0
	.long	.LBB5_40-.LJTI5_0
	.long	.LBB5_40-.LJTI5_0
	.long	.LBB5_40-.LJTI5_0
	.long	.LBB5_40-.LJTI5_0
	.long	.LBB5_40-.LJTI5_0
	.long	.LBB5_40-.LJTI5_0
	.long	.LBB5_40-.LJTI5_0
	.long	.LBB5_40-.LJTI5_0
	.long	.LBB5_40-.LJTI5_0
	.long	.LBB5_40-.LJTI5_0
	.long	.LBB5_40-.LJTI5_0
	.long	.LBB5_40-.LJTI5_0
	.long	.LBB5_40-.LJTI5_0
	.long	.LBB5_40-.LJTI5_0
	.long	.LBB5_40-.LJTI5_0
	.long	.LBB5_40-.LJTI5_0
	.long	.LBB5_40-.LJTI5_0
	.long	.LBB5_40-.LJTI5_0
	.long	.LBB5_40-.LJTI5_0
	.long	.LBB5_40-.LJTI5_0
	.long	.LBB5_40-.LJTI5_0
	.long	.LBB5_40-.LJTI5_0
	.long	.LBB5_40-.LJTI5_0
	.long	.LBB5_40-.LJTI5_0
	.long	.LBB5_40-.LJTI5_0
	.long	.LBB5_40-.LJTI5_0
	.long	.LBB5_40-.LJTI5_0
	.long	.LBB5_40-.LJTI5_0
	.long	.LBB5_40-.LJTI5_0
	.long	.LBB5_40-.LJTI5_0
	.long	.LBB5_40-.LJTI5_0
	.long	.LBB5_40-.LJTI5_0
	.long	.LBB5_24-.LJTI5_0
	.long	.LBB5_40-.LJTI5_0
	.long	.LBB5_40-.LJTI5_0
	.long	.LBB5_27-.LJTI5_0
	.long	.LBB5_28-.LJTI5_0
	.long	.LBB5_29-.LJTI5_0
	.long	.LBB5_30-.LJTI5_0
	.long	.LBB5_40-.LJTI5_0
	.long	.LBB5_31-.LJTI5_0
	.long	.LBB5_32-.LJTI5_0
	.long	.LBB5_40-.LJTI5_0
	.long	.LBB5_40-.LJTI5_0
	.long	.LBB5_33-.LJTI5_0
	.long	.LBB5_40-.LJTI5_0
	.long	.LBB5_40-.LJTI5_0
	.long	.LBB5_34-.LJTI5_0
	.long	.LBB5_35-.LJTI5_0
	.long	.LBB5_40-.LJTI5_0
	.long	.LBB5_36-.LJTI5_0
	.long	.LBB5_40-.LJTI5_0
	.long	.LBB5_37-.LJTI5_0
	.long	.LBB5_38-.LJTI5_0
	.long	.LBB5_40-.LJTI5_0
	.long	.LBB5_40-.LJTI5_0
	.long	.LBB5_40-.LJTI5_0
	.long	.LBB5_40-.LJTI5_0
	.long	.LBB5_40-.LJTI5_0
	.long	.LBB5_39-.LJTI5_0

	.section	.text$009,"xr"
	.p2align	4
L_4:
	pushq	%rbp
	pushq	%r15
	pushq	%r14
	pushq	%r13
	pushq	%r12
	pushq	%rbx
	subq	$3072, %rsp
	movq	$0, (%rsp)
	subq	$1368, %rsp
	movq	%rdx, 120(%rsp)
	movq	%rsi, 312(%rsp)
	movl	(%rdi), %ebp
	movzbl	4(%rdi), %eax
	movl	%eax, 12(%rsp)
	leaq	344(%rsp), %rdi
	xorl	%ebx, %ebx
	movl	$4096, %edx
	xorl	%esi, %esi
	callq	sysv_memset
	pxor	%xmm0, %xmm0
	movdqa	%xmm0, 320(%rsp)
	movq	$0, 336(%rsp)
	leaq	47(%rsp), %rax
	movq	%rax, 16(%rsp)
	movdqu	%xmm0, 24(%rsp)
.LBB6_1:
	movq	%rbx, 136(%rsp)
	leaq	344(%rsp), %rsi
	movl	$4096, %r12d
	movl	$4096, %edx
	xorl	%edi, %edi
	callq	sysv_read
	testq	%rax, %rax
	js	.LBB6_7
	cmpq	$4096, %rax
	cmovbq	%rax, %r12
	testq	%rax, %rax
	je	.LBB6_3
	cmpq	$8, %rax
	movq	%r12, 152(%rsp)
	jae	.LBB6_22
	movl	$24, %r14d
	leaq	320(%rsp), %r12
	jmp	.LBB6_36
	.p2align	4
.LBB6_22:
	movq	24(%rsp), %r14
	movq	32(%rsp), %r15
	testq	%r15, %r15
	jne	.LBB6_28
	leaq	-1(%r14), %rax
	cmpq	$-8704, %rax
	jae	.LBB6_25
	xorl	%r15d, %r15d
	.p2align	4
.LBB6_28:
	leaq	512(,%r12,2), %rdx
	subq	%r14, %rdx
	jbe	.LBB6_29
.LBB6_30:
	movq	%r15, %rax
	subq	%r14, %rax
	cmpq	%rax, %rdx
	ja	.LBB6_31
.LBB6_33:
	leaq	(%r14,%rdx), %rax
	movq	16(%rsp), %r12
	movq	%rax, %rbx
	cmpq	%rax, %r14
	jae	.LBB6_35
	addq	%r12, %r14
	movq	%r14, %rdi
	xorl	%esi, %esi
	callq	sysv_memset
.LBB6_35:
	movq	%rbx, %r14
	movq	%rbx, 24(%rsp)
	movq	%r15, 32(%rsp)
	jmp	.LBB6_36
.LBB6_25:
	movb	$1, %al
	movb	$2, %bl
	cmpq	$-8705, %r14
	ja	.LBB6_106
	leaq	8704(%r14), %r15
	movl	$1, %esi
	movq	%r15, %rdi
	callq	rattle_alloc
	movq	%rax, %rcx
	movb	$1, %al
	testb	$1, %cl
	je	.LBB6_106
	movq	%rdx, 16(%rsp)
	movq	%r15, 32(%rsp)
	movl	$8704, %r15d
	leaq	512(,%r12,2), %rdx
	subq	%r14, %rdx
	ja	.LBB6_30
	.p2align	4
.LBB6_29:
	movq	16(%rsp), %r12
.LBB6_36:
	movl	%ebp, 40(%rsp)
	shrl	$24, %ebp
	cmpb	$3, %bpl
	movl	$3, %ebx
	cmovbl	%ebp, %ebx
	movl	$0, 116(%rsp)
	movl	$0, 192(%rsp)
	xorl	%r15d, %r15d
	xorl	%edx, %edx
	movq	%r12, 128(%rsp)
	movq	%rbx, 144(%rsp)
	movq	%r14, 48(%rsp)
.LBB6_37:
	movq	%rdx, %rax
	subq	%rbx, %rax
	movq	%r15, 56(%rsp)
	movq	%rdx, 160(%rsp)
	jae	.LBB6_62
	leaq	(%rsp,%rdx), %rsi
	addq	$40, %rsi
	subq	%rdx, %rbx
	movl	$4, %ebp
	subq	%rbx, %rbp
	movq	152(%rsp), %rax
	cmpq	%rax, %rbp
	cmovaeq	%rax, %rbp
	movl	$0, 224(%rsp)
	leaq	224(%rsp), %rdi
	movq	%rbx, %rdx
	callq	sysv_memcpy
	leaq	(%rsp,%rbx), %rdi
	addq	$224, %rdi
	leaq	344(%rsp), %rsi
	movq	%rbp, %rdx
	callq	sysv_memcpy
	addq	%rbx, %rbp
	movl	224(%rsp), %eax
	movl	%eax, 192(%rsp)
	leaq	(%r12,%r15), %r13
	movq	%r14, %r12
	subq	%r15, %r12
	pxor	%xmm0, %xmm0
	movdqa	%xmm0, 224(%rsp)
	movq	$0, 240(%rsp)
	leaq	192(%rsp), %r14
	movq	%r14, %rdi
	movq	%rbp, %rsi
	movq	%r13, %rdx
	movq	%r12, %rcx
	callq	L_8
	movq	%rbp, %rcx
	cmpq	%rbp, %rax
	jne	.LBB6_41
	xorl	%ebp, %ebp
	xorl	%r15d, %r15d
	movq	%rcx, %rbx
.LBB6_40:
	addq	%rdx, %rbp
	addq	%rbx, %r15
	xorl	%eax, %eax
.LBB6_43:
	movq	128(%rsp), %r12
	movq	48(%rsp), %r14
	movq	160(%rsp), %rdx
	addq	%r15, %rdx
	movq	%r15, %rcx
	movq	56(%rsp), %r15
	addq	%rbp, %r15
	testq	%rcx, %rcx
	movq	144(%rsp), %rbx
	je	.LBB6_67
	cmpb	$3, %al
	jne	.LBB6_37
	jmp	.LBB6_67
	.p2align	4
.LBB6_41:
	movq	%r14, %rsi
	xorl	%r14d, %r14d
	movq	%r12, 80(%rsp)
	movq	%r13, 64(%rsp)
	movq	%rcx, 72(%rsp)
	movq	%rcx, %rbx
	xorl	%ebp, %ebp
	jmp	.LBB6_42
	.p2align	4
.LBB6_58:
	movq	%r14, %r12
	movq	%rbx, %r15
.LBB6_61:
	addq	168(%rsp), %r15
	movq	176(%rsp), %rbp
	leaq	(%r12,%rbp), %rax
	addq	%r12, %rbp
	addq	$2, %rbp
	leaq	(%rsp,%r15), %r14
	addq	$192, %r14
	movq	72(%rsp), %rbx
	subq	%r15, %rbx
	movq	64(%rsp), %rcx
	leaq	(%rcx,%rax), %r13
	addq	$2, %r13
	movq	80(%rsp), %r12
	subq	%rbp, %r12
	pxor	%xmm0, %xmm0
	movdqa	%xmm0, 224(%rsp)
	movq	$0, 240(%rsp)
	movq	%r14, %rdi
	movq	%rbx, %rsi
	movq	%r13, %rdx
	movq	%r12, %rcx
	callq	L_8
	movq	%r14, %rsi
	movq	%r15, %r14
	cmpq	%rbx, %rax
	je	.LBB6_40
.LBB6_42:
	movq	%rdx, (%rsp)
	leaq	224(%rsp), %rdi
	movq	%rbx, %rdx
	movq	%r13, %rcx
	movq	%r12, %r8
	movq	%rax, %r9
	callq	L_9
	addq	224(%rsp), %r14
	movzbl	240(%rsp), %eax
	addq	232(%rsp), %rbp
	cmpb	$1, %al
	movq	%r14, %r15
	jne	.LBB6_43
	movq	80(%rsp), %r13
	subq	%rbp, %r13
	cmpq	$1, %r13
	jbe	.LBB6_46
	movzbl	241(%rsp), %eax
	movq	64(%rsp), %rcx
	movw	$-513, (%rcx,%rbp)
	addq	%rax, %r15
	leaq	(%rsp,%r15), %rdi
	addq	$192, %rdi
	movq	72(%rsp), %rbx
	movq	%r15, 168(%rsp)
	subq	%r15, %rbx
	movq	%rbp, 176(%rsp)
	leaq	(%rcx,%rbp), %rdx
	addq	$2, %rdx
	addq	$-2, %r13
	movq	%rdi, 104(%rsp)
	movq	%rbx, %rsi
	movq	%rdx, 88(%rsp)
	movq	%r13, %rcx
	callq	L_10
	movq	%rax, %r15
	movq	%rdx, %r12
	movq	%rbx, 96(%rsp)
	movq	%rbx, %rbp
	subq	%rax, %rbp
	cmpq	$64, %rbp
	jb	.LBB6_61
	movq	%r13, 184(%rsp)
	.p2align	4
.LBB6_50:
	subq	%r12, %r13
	cmpq	$128, %r13
	jb	.LBB6_61
	movq	104(%rsp), %rax
	leaq	(%rax,%r15), %rdi
	movq	88(%rsp), %rcx
	leaq	(%rcx,%r12), %rdx
	movdqu	(%rax,%r15), %xmm0
	pmovmskb	%xmm0, %eax
	testl	%eax, %eax
	je	.LBB6_53
	xorl	%ebx, %ebx
	jmp	.LBB6_54
	.p2align	4
.LBB6_53:
	movq	%r13, %rsi
	shrq	%rsi
	cmpq	%rbp, %rsi
	cmovaeq	%rbp, %rsi
	movq	%rdi, %r14
	movq	%rdx, %rbx
	callq	L_11
	movq	%r14, %rdi
	movq	%rbx, %rdx
	movq	%rax, %rbx
.LBB6_54:
	leaq	(%rbx,%rbx), %r14
	movq	%rbp, %rax
	subq	%rbx, %rax
	cmpq	$64, %rax
	jb	.LBB6_57
	movq	%r13, %rax
	subq	%r14, %rax
	cmpq	$128, %rax
	jb	.LBB6_57
	movq	%rbp, %rsi
	movq	%r13, %rcx
	movq	%rbx, %r8
	movq	%r14, %r9
	callq	L_12
	movq	%rax, %rbx
	movq	%rdx, %r14
.LBB6_57:
	addq	%r15, %rbx
	addq	%r12, %r14
	movq	96(%rsp), %rsi
	subq	%rbx, %rsi
	cmpq	$4, %rsi
	movq	184(%rsp), %r13
	jb	.LBB6_58
	movq	%r13, %rcx
	subq	%r14, %rcx
	cmpq	$4, %rcx
	jb	.LBB6_58
	movq	104(%rsp), %rax
	leaq	(%rax,%rbx), %rdi
	movq	88(%rsp), %rax
	leaq	(%rax,%r14), %rdx
	callq	L_10
	movq	%rax, %r15
	movq	%rdx, %r12
	addq	%rbx, %r15
	addq	%r14, %r12
	movq	96(%rsp), %rbp
	subq	%r15, %rbp
	cmpq	$63, %rbp
	ja	.LBB6_50
	jmp	.LBB6_61
	.p2align	4
.LBB6_46:
	addq	160(%rsp), %r15
	movq	%r15, %rax
	movq	56(%rsp), %r15
	addq	%rbp, %r15
	movq	144(%rsp), %rbp
	cmpq	%rax, %rbp
	cmovbq	%rbp, %rax
	leaq	(%rsp,%rax), %rsi
	addq	$40, %rsi
	subq	%rax, %rbp
	movq	128(%rsp), %r12
.LBB6_47:
	movb	$0, 226(%rsp)
	movw	$0, 224(%rsp)
	leaq	224(%rsp), %rdi
	movq	%rbp, %rdx
	callq	sysv_memcpy
	movzbl	226(%rsp), %eax
	shll	$16, %eax
	movzwl	224(%rsp), %ecx
	orl	%eax, %ecx
	shll	$24, %ebp
	orl	%ecx, %ebp
	cmpb	$1, 12(%rsp)
	movq	136(%rsp), %rax
	jne	.LBB6_96
.LBB6_70:
	testq	%r15, %r15
	je	.LBB6_71
	cmpq	$1, %r15
	jne	.LBB6_93
.LBB6_95:
	leaq	2(%r12), %rdi
	movq	%r12, %rsi
	movq	%r15, %rdx
	callq	sysv_memmove
	movq	136(%rsp), %rax
	movw	$-2, (%r12)
	addq	$2, %r15
	jmp	.LBB6_96
.LBB6_71:
	movb	$1, %cl
	movl	%ecx, 12(%rsp)
	incq	%rax
	cmpq	$-1, %rax
	movq	%rax, %rbx
	jne	.LBB6_1
	jmp	.LBB6_73
.LBB6_93:
	cmpb	$-2, (%r12)
	jne	.LBB6_95
	cmpb	$-1, 1(%r12)
	je	.LBB6_100
	jmp	.LBB6_95
.LBB6_62:
	leaq	(%rsp,%rax), %rbp
	addq	$344, %rbp
	movq	152(%rsp), %rbx
	subq	%rax, %rbx
	addq	%r15, %r12
	subq	%r15, %r14
	pxor	%xmm0, %xmm0
	movdqa	%xmm0, 224(%rsp)
	movq	$0, 240(%rsp)
	movq	%rbp, %rdi
	movq	%rbx, %rsi
	movq	%r12, %rdx
	movq	%r14, %rcx
	callq	L_8
	cmpq	%rbx, %rax
	jne	.LBB6_74
	xorl	%ebp, %ebp
	xorl	%r14d, %r14d
.LBB6_64:
	addq	%rdx, %rbp
	addq	%rbx, %r14
	xorl	%eax, %eax
	movq	%r14, %r13
.LBB6_65:
	movq	56(%rsp), %r15
.LBB6_66:
	movq	160(%rsp), %rdx
	addq	%r13, %rdx
	addq	%rbp, %r15
	movq	128(%rsp), %r12
	movq	144(%rsp), %rbx
.LBB6_67:
	cmpq	%rdx, %rbx
	movq	%rdx, %rcx
	cmovbq	%rbx, %rcx
	leaq	(%rsp,%rcx), %rsi
	addq	$40, %rsi
	movq	%rbx, %rbp
	subq	%rcx, %rbp
	cmpb	$3, %al
	je	.LBB6_47
	xorl	%eax, %eax
	subq	%rbx, %rdx
	cmovaeq	%rdx, %rax
	movq	152(%rsp), %rcx
	subq	%rax, %rcx
	leaq	(%rsp,%rax), %r14
	addq	$344, %r14
	movl	$4, %ebx
	subq	%rbp, %rbx
	cmpq	%rcx, %rbx
	cmovaeq	%rcx, %rbx
	movl	$0, 224(%rsp)
	leaq	224(%rsp), %rdi
	movq	%rbp, %rdx
	callq	sysv_memcpy
	leaq	(%rsp,%rbp), %rdi
	addq	$224, %rdi
	movq	%r14, %rsi
	movq	%rbx, %rdx
	callq	sysv_memcpy
	addq	%rbp, %rbx
	movl	224(%rsp), %eax
	movl	%eax, 116(%rsp)
	movb	$0, 226(%rsp)
	movw	$0, 224(%rsp)
	leaq	224(%rsp), %rdi
	leaq	116(%rsp), %rsi
	movq	%rbx, %rdx
	callq	sysv_memcpy
	movzbl	226(%rsp), %eax
	shll	$16, %eax
	movzwl	224(%rsp), %ecx
	orl	%eax, %ecx
	shll	$24, %ebx
	orl	%ecx, %ebx
	movl	%ebx, %ebp
	cmpb	$1, 12(%rsp)
	movq	136(%rsp), %rax
	je	.LBB6_70
	.p2align	4
.LBB6_96:
	testq	%r15, %r15
	je	.LBB6_97
.LBB6_100:
	xorl	%r14d, %r14d
	.p2align	4
.LBB6_101:
	leaq	(%r12,%r14), %rsi
	movq	%r15, %rbx
	subq	%r14, %rbx
	movl	$1, %edi
	movq	%rbx, %rdx
	callq	sysv_write
	testq	%rax, %rax
	js	.LBB6_17
	cmpq	%rbx, %rax
	cmovbq	%rax, %rbx
	testq	%rbx, %rbx
	je	.LBB6_18
	addq	%rbx, %r14
	cmpq	%r15, %r14
	jb	.LBB6_101
	movl	$0, 12(%rsp)
	movq	136(%rsp), %rax
	incq	%rax
	cmpq	$-1, %rax
	movq	%rax, %rbx
	jne	.LBB6_1
	jmp	.LBB6_73
	.p2align	4
.LBB6_97:
	movl	$0, 12(%rsp)
	incq	%rax
	cmpq	$-1, %rax
	movq	%rax, %rbx
	jne	.LBB6_1
	jmp	.LBB6_73
.LBB6_74:
	xorl	%r13d, %r13d
	movq	%r14, 48(%rsp)
	movq	%r14, %r15
	movq	%r12, 64(%rsp)
	movq	%r12, %r8
	movq	%rbx, 80(%rsp)
	movq	%rbp, 72(%rsp)
	movq	%rbp, %r12
	xorl	%ebp, %ebp
	jmp	.LBB6_75
	.p2align	4
.LBB6_88:
	movq	%r13, %r12
	movq	%rbx, %r14
.LBB6_91:
	addq	168(%rsp), %r14
	movq	176(%rsp), %rbp
	leaq	(%r12,%rbp), %rax
	addq	%r12, %rbp
	addq	$2, %rbp
	movq	72(%rsp), %rcx
	leaq	(%rcx,%r14), %r12
	movq	80(%rsp), %rbx
	subq	%r14, %rbx
	movq	64(%rsp), %rcx
	leaq	(%rcx,%rax), %r13
	addq	$2, %r13
	movq	48(%rsp), %r15
	subq	%rbp, %r15
	pxor	%xmm0, %xmm0
	movdqa	%xmm0, 224(%rsp)
	movq	$0, 240(%rsp)
	movq	%r12, %rdi
	movq	%rbx, %rsi
	movq	%r13, %rdx
	movq	%r15, %rcx
	callq	L_8
	movq	%r13, %r8
	movq	%r14, %r13
	cmpq	%rbx, %rax
	je	.LBB6_64
.LBB6_75:
	movq	%rdx, (%rsp)
	leaq	224(%rsp), %rdi
	movq	%r12, %rsi
	movq	%rbx, %rdx
	movq	%r8, %rcx
	movq	%r15, %r8
	movq	%rax, %r9
	callq	L_9
	addq	224(%rsp), %r13
	movzbl	240(%rsp), %eax
	addq	232(%rsp), %rbp
	cmpb	$1, %al
	jne	.LBB6_65
	movq	48(%rsp), %rbx
	subq	%rbp, %rbx
	cmpq	$2, %rbx
	movq	56(%rsp), %r15
	jb	.LBB6_77
	movzbl	241(%rsp), %eax
	movq	64(%rsp), %rcx
	movw	$-513, (%rcx,%rbp)
	addq	%rax, %r13
	movq	72(%rsp), %rax
	leaq	(%rax,%r13), %rdi
	movq	80(%rsp), %r15
	movq	%r13, 168(%rsp)
	subq	%r13, %r15
	movq	%rbp, 176(%rsp)
	leaq	(%rcx,%rbp), %rdx
	addq	$2, %rdx
	addq	$-2, %rbx
	movq	%rdi, 104(%rsp)
	movq	%r15, %rsi
	movq	%rdx, 88(%rsp)
	movq	%rbx, %rcx
	callq	L_10
	movq	%rax, %r14
	movq	%rdx, %r12
	movq	%r15, 96(%rsp)
	movq	%r15, %rbp
	subq	%rax, %rbp
	cmpq	$64, %rbp
	jb	.LBB6_91
	movq	%rbx, %r15
	movq	%rbx, 184(%rsp)
	.p2align	4
.LBB6_80:
	subq	%r12, %r15
	cmpq	$128, %r15
	jb	.LBB6_91
	movq	104(%rsp), %rax
	leaq	(%rax,%r14), %rdi
	movq	88(%rsp), %rcx
	leaq	(%rcx,%r12), %rdx
	movdqu	(%rax,%r14), %xmm0
	pmovmskb	%xmm0, %eax
	testl	%eax, %eax
	je	.LBB6_83
	xorl	%ebx, %ebx
	jmp	.LBB6_84
	.p2align	4
.LBB6_83:
	movq	%r15, %rsi
	shrq	%rsi
	cmpq	%rbp, %rsi
	cmovaeq	%rbp, %rsi
	movq	%rdi, %r13
	movq	%rdx, %rbx
	callq	L_11
	movq	%r13, %rdi
	movq	%rbx, %rdx
	movq	%rax, %rbx
.LBB6_84:
	leaq	(%rbx,%rbx), %r13
	movq	%rbp, %rax
	subq	%rbx, %rax
	cmpq	$64, %rax
	jb	.LBB6_87
	movq	%r15, %rax
	subq	%r13, %rax
	cmpq	$128, %rax
	jb	.LBB6_87
	movq	%rbp, %rsi
	movq	%r15, %rcx
	movq	%rbx, %r8
	movq	%r13, %r9
	callq	L_12
	movq	%rax, %rbx
	movq	%rdx, %r13
.LBB6_87:
	addq	%r14, %rbx
	addq	%r12, %r13
	movq	96(%rsp), %rsi
	subq	%rbx, %rsi
	cmpq	$4, %rsi
	movq	184(%rsp), %r15
	jb	.LBB6_88
	movq	%r15, %rcx
	subq	%r13, %rcx
	cmpq	$4, %rcx
	jb	.LBB6_88
	movq	104(%rsp), %rax
	leaq	(%rax,%rbx), %rdi
	movq	88(%rsp), %rax
	leaq	(%rax,%r13), %rdx
	callq	L_10
	movq	%rax, %r14
	movq	%rdx, %r12
	addq	%rbx, %r14
	addq	%r13, %r12
	movq	96(%rsp), %rbp
	subq	%r14, %rbp
	cmpq	$63, %rbp
	ja	.LBB6_80
	jmp	.LBB6_91
.LBB6_77:
	movb	$3, %al
	jmp	.LBB6_66
.LBB6_31:
	leaq	16(%rsp), %rdi
	movq	%rdx, %rbx
	movq	%rdx, %rsi
	callq	L_1
	movq	32(%rsp), %r15
	testb	%al, %al
	je	.LBB6_103
	movq	24(%rsp), %r14
	movq	%rbx, %rdx
	jmp	.LBB6_33
.LBB6_7:
	leaq	224(%rsp), %rdi
	callq	L_5
	movq	312(%rsp), %rdx
	movq	(%rdx), %rax
	incq	%rax
	movq	$-1, %rcx
	cmovneq	%rax, %rcx
	movq	%rcx, (%rdx)
	movb	$1, %al
	cmpq	$0, 32(%rsp)
	je	.LBB6_8
	movq	16(%rsp), %rdi
	callq	rattle_dealloc
	movb	$1, %al
	xorl	%ebx, %ebx
	jmp	.LBB6_106
.LBB6_3:
	pxor	%xmm0, %xmm0
	movdqa	%xmm0, 192(%rsp)
	movq	$0, 208(%rsp)
	cmpl	$16777215, %ebp
	ja	.LBB6_10
	movl	$2, %r14d
	testb	$1, 12(%rsp)
	jne	.LBB6_12
	jmp	.LBB6_5
.LBB6_73:
	movb	$1, %al
	movb	$3, %bl
	cmpq	$0, 32(%rsp)
	jne	.LBB6_104
	jmp	.LBB6_106
.LBB6_10:
	movw	$-513, 192(%rsp)
	movl	$2, %r14d
	testb	$1, 12(%rsp)
	je	.LBB6_13
	movw	$-513, 194(%rsp)
	movl	$4, %r14d
.LBB6_12:
	movw	$-2, 192(%rsp)
.LBB6_13:
	xorl	%r15d, %r15d
	.p2align	4
.LBB6_15:
	leaq	(%rsp,%r15), %rsi
	addq	$192, %rsi
	movq	%r14, %rbx
	subq	%r15, %rbx
	movl	$1, %edi
	movq	%rbx, %rdx
	callq	sysv_write
	testq	%rax, %rax
	js	.LBB6_17
	cmpq	%rbx, %rax
	cmovbq	%rax, %rbx
	testq	%rbx, %rbx
	je	.LBB6_18
	addq	%rbx, %r15
	cmpq	%r14, %r15
	jb	.LBB6_15
.LBB6_5:
	cmpq	$0, 32(%rsp)
	je	.LBB6_6
	movq	16(%rsp), %rdi
	callq	rattle_dealloc
.LBB6_6:
	xorl	%ebx, %ebx
	xorl	%eax, %eax
	jmp	.LBB6_106
.LBB6_17:
	leaq	224(%rsp), %rdi
	callq	L_5
.LBB6_18:
	movq	120(%rsp), %rdx
	movq	(%rdx), %rcx
	incq	%rcx
	movq	$-1, %rax
	cmovneq	%rcx, %rax
	movq	%rax, (%rdx)
	movb	$1, %bl
	cmpq	$0, 32(%rsp)
	je	.LBB6_105
.LBB6_104:
	movq	16(%rsp), %rdi
	callq	rattle_dealloc
.LBB6_105:
	movb	$1, %al
.LBB6_106:
	movl	%ebx, %edx
	addq	$4440, %rsp
	popq	%rbx
	popq	%r12
	popq	%r13
	popq	%r14
	popq	%r15
	popq	%rbp
	retq
.LBB6_8:
	xorl	%ebx, %ebx
	jmp	.LBB6_106
.LBB6_103:
	movb	$1, %al
	movb	$2, %bl
	testq	%r15, %r15
	jne	.LBB6_104
	jmp	.LBB6_106
.Lfunc_end6:

	.section	.rdata$004,"dr"
	.p2align	4, 0x0
.LCPI7_0:
	.zero	16,192
.LCPI7_1:
	.zero	16,191
.LCPI7_2:
	.zero	16,223
.LCPI7_3:
	.zero	16,239
.LCPI7_4:
	.zero	16,159
.LCPI7_5:
	.zero	16,237
.LCPI7_6:
	.zero	16,224
.LCPI7_7:
	.zero	16,143
.LCPI7_8:
	.zero	16,245
.LCPI7_9:
	.zero	16,244
.LCPI7_10:
	.zero	16,240
.LCPI7_11:
	.zero	16,254
.LCPI7_12:
	.byte	1
	.byte	2
	.byte	3
	.byte	4
	.byte	5
	.byte	6
	.byte	7
	.byte	8
	.byte	9
	.byte	10
	.byte	11
	.byte	12
	.byte	13
	.byte	14
	.byte	15
	.byte	16
.LCPI7_13:
	.zero	16,15
.LCPI7_14:
	.zero	16,220
.LCPI7_15:
	.zero	16,252
.LCPI7_16:
	.zero	16,3
.LCPI7_17:
	.zero	16,63
.LCPI7_18:
	.zero	16,232
.LCPI7_19:
	.zero	16,127
	.section	.text$010,"xr"
	.p2align	4
L_8:
	pushq	%rbp
	pushq	%r15
	pushq	%r14
	pushq	%r12
	pushq	%rbx
	movq	%rcx, %rbx
	cmpq	$7, %rsi
	ja	.LBB7_16
	movq	%rbx, %rax
	shrq	%rax
	cmpq	%rsi, %rax
	cmovaeq	%rsi, %rax
	testq	%rax, %rax
	je	.LBB7_22
	movsbl	(%rdi), %ecx
	testw	%cx, %cx
	js	.LBB7_22
	movswl	%cx, %ecx
	shll	$8, %ecx
	movw	%cx, (%rdx)
	movl	$2, %r9d
	cmpq	$1, %rax
	je	.LBB7_84
	movsbl	1(%rdi), %ecx
	testw	%cx, %cx
	js	.LBB7_33
	movswl	%cx, %ecx
	shll	$8, %ecx
	movw	%cx, 2(%rdx)
	movl	$4, %r9d
	cmpq	$2, %rax
	je	.LBB7_84
	movsbl	2(%rdi), %ecx
	testw	%cx, %cx
	js	.LBB7_36
	movswl	%cx, %ecx
	shll	$8, %ecx
	movw	%cx, 4(%rdx)
	movl	$6, %r9d
	cmpq	$3, %rax
	je	.LBB7_84
	movsbl	3(%rdi), %ecx
	testw	%cx, %cx
	js	.LBB7_78
	movswl	%cx, %ecx
	shll	$8, %ecx
	movw	%cx, 6(%rdx)
	movl	$8, %r9d
	cmpq	$4, %rax
	je	.LBB7_84
	movsbl	4(%rdi), %ecx
	testw	%cx, %cx
	js	.LBB7_79
	movswl	%cx, %ecx
	shll	$8, %ecx
	movw	%cx, 8(%rdx)
	movl	$10, %r9d
	cmpq	$5, %rax
	je	.LBB7_84
	movsbl	5(%rdi), %ecx
	testw	%cx, %cx
	js	.LBB7_80
	movswl	%cx, %ecx
	shll	$8, %ecx
	movw	%cx, 10(%rdx)
	movl	$12, %r9d
	cmpq	$6, %rax
	je	.LBB7_84
	movsbl	6(%rdi), %ecx
	testw	%cx, %cx
	js	.LBB7_81
	movswl	%cx, %ecx
	shll	$8, %ecx
	movw	%cx, 12(%rdx)
	movl	$14, %r9d
	jmp	.LBB7_84
.LBB7_16:
	cmpq	$16, %rsi
	ja	.LBB7_23
	cmpq	$32, %rbx
	jb	.LBB7_21
	movq	-8(%rdi,%rsi), %xmm0
	movq	(%rdi), %xmm1
	punpcklqdq	%xmm0, %xmm1
	movq	%rsi, %rax
	shlq	$4, %rax
	leaq	.Lstatic.11(%rip), %rcx
	movdqu	-128(%rax,%rcx), %xmm2
	pshufb	%xmm2, %xmm1
	pmovmskb	%xmm1, %eax
	testl	%eax, %eax
	je	.LBB7_27
	pextrb	$5, %xmm0, %eax
	pextrb	$6, %xmm0, %ecx
	pextrb	$7, %xmm0, %r8d
	cmpb	$-64, %r8b
	setae	%r8b
	cmpb	$-32, %cl
	setae	%cl
	orb	%r8b, %cl
	cmpb	$-16, %al
	setae	%al
	orb	%cl, %al
	jne	.LBB7_21
	leaq	.Lstatic.12(%rip), %rax
	subq	%rsi, %rax
	movdqu	16(%rax), %xmm0
	pmaxub	%xmm0, %xmm1
	movdqa	%xmm1, %xmm2
	pslldq	$1, %xmm2
	movdqa	%xmm1, %xmm4
	pslldq	$2, %xmm4
	movdqa	%xmm1, %xmm5
	pslldq	$3, %xmm5
	movdqa	.LCPI7_0(%rip), %xmm3
	movdqa	%xmm3, %xmm0
	movdqa	%xmm2, %xmm6
	psubusb	.LCPI7_1(%rip), %xmm6
	pcmpgtb	%xmm1, %xmm0
	movdqa	%xmm4, %xmm7
	psubusb	.LCPI7_2(%rip), %xmm7
	pmaxub	%xmm6, %xmm7
	psubusb	.LCPI7_3(%rip), %xmm5
	por	%xmm7, %xmm5
	pxor	%xmm6, %xmm6
	pcmpgtb	%xmm6, %xmm5
	pxor	%xmm0, %xmm5
	movdqa	.LCPI7_4(%rip), %xmm0
	pminub	%xmm1, %xmm0
	pcmpeqb	%xmm1, %xmm0
	movdqa	.LCPI7_5(%rip), %xmm7
	pblendvb	%xmm0, .LCPI7_6(%rip), %xmm7
	pcmpeqb	%xmm2, %xmm7
	movdqa	.LCPI7_7(%rip), %xmm0
	pminub	%xmm1, %xmm0
	pcmpeqb	%xmm1, %xmm0
	movdqa	.LCPI7_8(%rip), %xmm8
	pmaxub	%xmm1, %xmm8
	pcmpeqb	%xmm1, %xmm8
	movdqa	.LCPI7_9(%rip), %xmm9
	pblendvb	%xmm0, .LCPI7_10(%rip), %xmm9
	pcmpeqb	%xmm2, %xmm9
	por	%xmm7, %xmm9
	movdqa	.LCPI7_11(%rip), %xmm0
	pand	%xmm1, %xmm0
	pcmpeqb	%xmm3, %xmm0
	por	%xmm5, %xmm0
	por	%xmm8, %xmm0
	por	%xmm9, %xmm0
	movd	%esi, %xmm5
	pshufb	%xmm6, %xmm5
	movdqa	.LCPI7_12(%rip), %xmm6
	pmaxub	%xmm5, %xmm6
	pcmpeqb	%xmm5, %xmm6
	psllw	$7, %xmm0
	pand	%xmm6, %xmm0
	pmovmskb	%xmm0, %eax
	testl	%eax, %eax
	je	.LBB7_35
.LBB7_21:
	xorl	%r9d, %r9d
	xorl	%eax, %eax
	cmpq	$31, %rsi
	jbe	.LBB7_45
	jmp	.LBB7_32
.LBB7_22:
	xorl	%r9d, %r9d
	xorl	%eax, %eax
	jmp	.LBB7_84
.LBB7_23:
	movq	%rbx, %rcx
	shrq	%rcx
	cmpq	%rsi, %rcx
	cmovaeq	%rsi, %rcx
	cmpq	$32, %rbx
	jb	.LBB7_24
	movdqu	(%rdi), %xmm1
	pmovmskb	%xmm1, %eax
	testl	%eax, %eax
	je	.LBB7_28
.LBB7_24:
	xorl	%eax, %eax
	leaq	(%rax,%rax), %r9
	movq	%rsi, %rcx
	subq	%rax, %rcx
	je	.LBB7_31
.LBB7_38:
	movq	%rdi, %r15
	cmpq	$191, %rcx
	ja	.LBB7_40
	movq	%rsi, %r12
	movq	%rdx, %r14
	movq	%rbx, %rcx
	movq	%rax, %r8
	callq	L_13
	movq	%r15, %rdi
	movq	%r12, %rsi
	movq	%rdx, %r9
	movq	%r14, %rdx
	cmpq	$31, %rsi
	jbe	.LBB7_45
	jmp	.LBB7_32
.LBB7_40:
	movq	%rsi, %r14
	movq	%rdx, %r12
	movq	%rbx, %rcx
	movq	%rax, %r8
	callq	L_12
	movq	%rdx, %r9
	movq	%r14, %rcx
	subq	%rax, %rcx
	cmpq	$191, %rcx
	jbe	.LBB7_42
	movq	%r14, %rsi
	movq	%r12, %rdx
	movq	%r15, %rdi
	cmpq	$31, %rsi
	jbe	.LBB7_45
	jmp	.LBB7_32
.LBB7_27:
	pxor	%xmm0, %xmm0
	pxor	%xmm2, %xmm2
	punpckhbw	%xmm1, %xmm2
	punpcklbw	%xmm1, %xmm0
	movdqu	%xmm0, (%rdx)
	movdqu	%xmm2, 16(%rdx)
	leaq	(%rsi,%rsi), %r9
	movq	%rsi, %rax
	cmpq	$31, %rsi
	jbe	.LBB7_45
	jmp	.LBB7_32
.LBB7_28:
	cmpq	$31, %rcx
	ja	.LBB7_34
	pxor	%xmm0, %xmm0
	pxor	%xmm2, %xmm2
	punpckhbw	%xmm1, %xmm2
	pxor	%xmm3, %xmm3
	punpcklbw	%xmm1, %xmm3
	movdqu	%xmm3, (%rdx)
	movdqu	%xmm2, 16(%rdx)
	movdqu	-16(%rcx,%rdi), %xmm1
	pmovmskb	%xmm1, %r8d
	movl	$16, %eax
	testl	%r8d, %r8d
	je	.LBB7_37
	leaq	(%rax,%rax), %r9
	movq	%rsi, %rcx
	subq	%rax, %rcx
	jne	.LBB7_38
.LBB7_31:
	cmpq	$31, %rsi
	jbe	.LBB7_45
.LBB7_32:
	movq	%r9, %rdx
	popq	%rbx
	popq	%r12
	popq	%r14
	popq	%r15
	popq	%rbp
	retq
.LBB7_33:
	movl	$1, %eax
	jmp	.LBB7_84
.LBB7_42:
	movq	%r15, %rdi
	movq	%r14, %rsi
	movq	%r12, %rdx
	movq	%rbx, %rcx
	movq	%rax, %r8
	callq	L_13
	movq	%r15, %rdi
	movq	%r14, %rsi
	movq	%rdx, %r9
	movq	%r12, %rdx
	cmpq	$31, %rsi
	jbe	.LBB7_45
	jmp	.LBB7_32
.LBB7_34:
	movq	%rdi, %r14
	movq	%rsi, %r12
	movq	%rcx, %rsi
	movq	%rdx, %r15
	callq	L_11
	movq	%r14, %rdi
	movq	%r12, %rsi
	movq	%r15, %rdx
	leaq	(%rax,%rax), %r9
	movq	%rsi, %rcx
	subq	%rax, %rcx
	je	.LBB7_31
	jmp	.LBB7_38
.LBB7_35:
	movdqa	%xmm3, %xmm6
	movdqa	%xmm1, %xmm0
	pblendvb	%xmm0, %xmm2, %xmm6
	movdqa	.LCPI7_1(%rip), %xmm5
	movdqa	.LCPI7_6(%rip), %xmm0
	pmaxub	%xmm4, %xmm0
	movdqa	%xmm6, %xmm7
	psrlw	$2, %xmm7
	movdqa	.LCPI7_13(%rip), %xmm8
	pand	%xmm8, %xmm7
	psllw	$4, %xmm0
	pandn	%xmm0, %xmm8
	por	%xmm7, %xmm8
	movdqa	%xmm6, %xmm0
	pmaxub	%xmm4, %xmm0
	movdqa	%xmm0, %xmm9
	pminub	%xmm5, %xmm9
	pcmpeqb	%xmm0, %xmm9
	pand	.LCPI7_14(%rip), %xmm9
	por	%xmm8, %xmm9
	movdqa	%xmm2, %xmm0
	psllw	$2, %xmm0
	pand	.LCPI7_15(%rip), %xmm0
	movdqa	%xmm1, %xmm8
	psrlw	$4, %xmm8
	pand	.LCPI7_16(%rip), %xmm8
	movdqa	.LCPI7_17(%rip), %xmm7
	pminub	%xmm0, %xmm7
	pcmpeqb	%xmm0, %xmm7
	paddb	%xmm4, %xmm7
	paddb	.LCPI7_18(%rip), %xmm7
	por	%xmm0, %xmm8
	paddb	%xmm3, %xmm8
	movdqa	.LCPI7_3(%rip), %xmm0
	pminub	%xmm4, %xmm0
	pcmpeqb	%xmm4, %xmm0
	pblendvb	%xmm0, %xmm9, %xmm7
	movdqa	.LCPI7_19(%rip), %xmm4
	pand	%xmm1, %xmm4
	psllw	$6, %xmm6
	pand	%xmm3, %xmm6
	paddb	%xmm4, %xmm6
	pblendvb	%xmm0, %xmm6, %xmm8
	movdqa	%xmm7, %xmm0
	punpckhbw	%xmm8, %xmm0
	punpcklbw	%xmm8, %xmm7
	pminub	%xmm1, %xmm5
	pcmpeqb	%xmm1, %xmm5
	movdqa	.LCPI7_2(%rip), %xmm1
	pminub	%xmm2, %xmm1
	pcmpeqb	%xmm2, %xmm1
	pand	%xmm5, %xmm1
	pmovmskb	%xmm1, %eax
	movzbl	%al, %ecx
	popcntl	%ecx, %r8d
	shll	$4, %ecx
	leaq	.Lstatic.13(%rip), %r10
	movdqu	(%rcx,%r10), %xmm1
	pshufb	%xmm1, %xmm7
	movdqu	%xmm7, (%rdx)
	shrl	$8, %eax
	popcntl	%eax, %r9d
	shll	$4, %eax
	movdqu	(%rax,%r10), %xmm1
	pshufb	%xmm1, %xmm0
	movdqu	%xmm0, (%rdx,%r8,2)
	addl	%r8d, %r9d
	addl	%r9d, %r9d
	movq	%rsi, %rax
	cmpq	$31, %rsi
	jbe	.LBB7_45
	jmp	.LBB7_32
	.p2align	4
.LBB7_43:
	leal	67043328(%rcx), %r11d
	shrl	$10, %r11d
	addl	$-10240, %r11d
	rolw	$8, %r11w
	andl	$1023, %ecx
	orl	$56320, %ecx
	rolw	$8, %cx
	movw	%cx, 2(%rdx,%r9)
	movl	$4, %r10d
	movl	%r11d, %ecx
.LBB7_44:
	movw	%cx, (%rdx,%r9)
	addq	%r10, %r9
	addq	%r8, %rax
.LBB7_45:
	cmpq	%rsi, %rax
	jae	.LBB7_32
	movzbl	(%rdi,%rax), %ecx
	testb	%cl, %cl
	js	.LBB7_51
	movl	$1, %r8d
.LBB7_48:
	movq	%rbx, %r10
	subq	%r9, %r10
	xorl	%r11d, %r11d
	cmpl	$65536, %ecx
	setae	%r11b
	leaq	2(,%r11,2), %r11
	cmpq	%r11, %r10
	jb	.LBB7_32
	cmpl	$65535, %ecx
	ja	.LBB7_43
	rolw	$8, %cx
	movl	$2, %r10d
	jmp	.LBB7_44
	.p2align	4
.LBB7_51:
	movq	%rsi, %r10
	subq	%rax, %r10
	cmpq	$3, %r10
	jb	.LBB7_55
	leal	31(%rcx), %r8d
	cmpb	$11, %r8b
	ja	.LBB7_56
	movzbl	1(%rdi,%rax), %r8d
	cmpb	$-65, %r8b
	jg	.LBB7_56
	movzbl	2(%rdi,%rax), %r11d
	cmpb	$-65, %r11b
	jg	.LBB7_56
	jmp	.LBB7_61
.LBB7_55:
	cmpq	$2, %r10
	jne	.LBB7_32
.LBB7_56:
	movzbl	1(%rdi,%rax), %r8d
	movl	%ecx, %r11d
	shrb	$4, %r11b
	andb	$12, %r11b
	movl	%r8d, %ebp
	shrb	$6, %bpl
	orb	%r11b, %bpl
	cmpb	$14, %bpl
	jne	.LBB7_32
	leal	31(%rcx), %r11d
	cmpb	$12, %r11b
	jae	.LBB7_62
.LBB7_58:
	cmpq	$2, %r10
	je	.LBB7_32
	movzbl	2(%rdi,%rax), %r11d
	cmpb	$-65, %r11b
	jg	.LBB7_32
	cmpb	$-17, %cl
	ja	.LBB7_66
.LBB7_61:
	shll	$12, %ecx
	shll	$6, %r8d
	addl	%ecx, %r8d
	leal	(%r11,%r8), %ecx
	addl	$-925824, %ecx
	movl	$3, %r8d
	jmp	.LBB7_48
.LBB7_62:
	leal	62(%rcx), %r11d
	cmpb	$30, %r11b
	jb	.LBB7_77
	movb	$-65, %bpl
	leal	-224(%rcx), %r14d
	cmpl	$20, %r14d
	ja	.LBB7_72
	leaq	.LJTI7_0(%rip), %r15
	movslq	(%r15,%r14,4), %r14
	addq	%r15, %r14
	jmpq	*%r14
.LBB7_65:
	movb	$-96, %r14b
	jmp	.LBB7_73
.LBB7_66:
	cmpq	$4, %r10
	jb	.LBB7_32
	movzbl	3(%rdi,%rax), %r10d
	cmpb	$-65, %r10b
	jg	.LBB7_32
	shll	$18, %ecx
	shll	$12, %r8d
	addl	%ecx, %r8d
	shll	$6, %r11d
	addl	%r8d, %r11d
	leal	(%r10,%r11), %ecx
	addl	$-63447168, %ecx
	movl	$4, %r8d
	jmp	.LBB7_48
.LBB7_69:
	movb	$-112, %r14b
	jmp	.LBB7_73
.LBB7_70:
	movb	$-97, %bpl
	jmp	.LBB7_72
.LBB7_71:
	movb	$-113, %bpl
.LBB7_72:
	movb	$-128, %r14b
.LBB7_73:
	cmpb	$50, %r11b
	ja	.LBB7_32
	cmpb	%r8b, %r14b
	ja	.LBB7_32
	cmpb	%bpl, %r8b
	ja	.LBB7_32
	cmpb	$-33, %cl
	ja	.LBB7_58
.LBB7_77:
	shll	$6, %ecx
	addl	%r8d, %ecx
	addl	$-12416, %ecx
	movl	$2, %r8d
	jmp	.LBB7_48
.LBB7_36:
	movl	$2, %eax
	jmp	.LBB7_84
.LBB7_37:
	pxor	%xmm2, %xmm2
	punpckhbw	%xmm1, %xmm2
	punpcklbw	%xmm1, %xmm0
	movdqu	%xmm0, -32(%rdx,%rcx,2)
	movdqu	%xmm2, -16(%rdx,%rcx,2)
	movq	%rcx, %rax
	leaq	(%rax,%rax), %r9
	movq	%rsi, %rcx
	subq	%rax, %rcx
	je	.LBB7_31
	jmp	.LBB7_38
.LBB7_78:
	movl	$3, %eax
	jmp	.LBB7_84
.LBB7_79:
	movl	$4, %eax
	jmp	.LBB7_84
.LBB7_80:
	movl	$5, %eax
	jmp	.LBB7_84
.LBB7_81:
	movl	$6, %eax
	jmp	.LBB7_84
	.p2align	4
.LBB7_82:
	leal	67043328(%rcx), %r11d
	shrl	$10, %r11d
	addl	$-10240, %r11d
	rolw	$8, %r11w
	andl	$1023, %ecx
	orl	$56320, %ecx
	rolw	$8, %cx
	movw	%cx, 2(%rdx,%r9)
	movl	$4, %r10d
	movl	%r11d, %ecx
.LBB7_83:
	movw	%cx, (%rdx,%r9)
	addq	%r10, %r9
	addq	%r8, %rax
.LBB7_84:
	cmpq	%rsi, %rax
	jae	.LBB7_32
	movzbl	(%rdi,%rax), %ecx
	testb	%cl, %cl
	js	.LBB7_90
	movl	$1, %r8d
.LBB7_87:
	movq	%rbx, %r10
	subq	%r9, %r10
	xorl	%r11d, %r11d
	cmpl	$65536, %ecx
	setae	%r11b
	leaq	2(,%r11,2), %r11
	cmpq	%r11, %r10
	jb	.LBB7_32
	cmpl	$65535, %ecx
	ja	.LBB7_82
	rolw	$8, %cx
	movl	$2, %r10d
	jmp	.LBB7_83
	.p2align	4
.LBB7_90:
	movq	%rsi, %r10
	subq	%rax, %r10
	cmpq	$3, %r10
	jb	.LBB7_94
	leal	31(%rcx), %r8d
	cmpb	$11, %r8b
	ja	.LBB7_95
	movzbl	1(%rdi,%rax), %r8d
	cmpb	$-65, %r8b
	jg	.LBB7_95
	movzbl	2(%rdi,%rax), %r11d
	cmpb	$-65, %r11b
	jg	.LBB7_95
	jmp	.LBB7_100
.LBB7_94:
	cmpq	$2, %r10
	jne	.LBB7_32
.LBB7_95:
	movzbl	1(%rdi,%rax), %r8d
	movl	%ecx, %r11d
	shrb	$4, %r11b
	andb	$12, %r11b
	movl	%r8d, %ebp
	shrb	$6, %bpl
	orb	%r11b, %bpl
	cmpb	$14, %bpl
	jne	.LBB7_32
	leal	31(%rcx), %r11d
	cmpb	$12, %r11b
	jae	.LBB7_101
.LBB7_97:
	cmpq	$2, %r10
	je	.LBB7_32
	movzbl	2(%rdi,%rax), %r11d
	cmpb	$-65, %r11b
	jg	.LBB7_32
	cmpb	$-17, %cl
	ja	.LBB7_105
.LBB7_100:
	shll	$12, %ecx
	shll	$6, %r8d
	addl	%ecx, %r8d
	leal	(%r11,%r8), %ecx
	addl	$-925824, %ecx
	movl	$3, %r8d
	jmp	.LBB7_87
.LBB7_101:
	leal	62(%rcx), %r11d
	cmpb	$30, %r11b
	jb	.LBB7_116
	movb	$-65, %bpl
	leal	-224(%rcx), %r14d
	cmpl	$20, %r14d
	ja	.LBB7_111
	leaq	.LJTI7_1(%rip), %r15
	movslq	(%r15,%r14,4), %r14
	addq	%r15, %r14
	jmpq	*%r14
.LBB7_104:
	movb	$-96, %r14b
	jmp	.LBB7_112
.LBB7_105:
	cmpq	$4, %r10
	jb	.LBB7_32
	movzbl	3(%rdi,%rax), %r10d
	cmpb	$-65, %r10b
	jg	.LBB7_32
	shll	$18, %ecx
	shll	$12, %r8d
	addl	%ecx, %r8d
	shll	$6, %r11d
	addl	%r8d, %r11d
	leal	(%r10,%r11), %ecx
	addl	$-63447168, %ecx
	movl	$4, %r8d
	jmp	.LBB7_87
.LBB7_108:
	movb	$-112, %r14b
	jmp	.LBB7_112
.LBB7_109:
	movb	$-97, %bpl
	jmp	.LBB7_111
.LBB7_110:
	movb	$-113, %bpl
.LBB7_111:
	movb	$-128, %r14b
.LBB7_112:
	cmpb	$50, %r11b
	ja	.LBB7_32
	cmpb	%r8b, %r14b
	ja	.LBB7_32
	cmpb	%bpl, %r8b
	ja	.LBB7_32
	cmpb	$-33, %cl
	ja	.LBB7_97
.LBB7_116:
	shll	$6, %ecx
	addl	%r8d, %ecx
	addl	$-12416, %ecx
	movl	$2, %r8d
	jmp	.LBB7_87
.Lfunc_end7:
	.section	.rdata$011,"dr"
	.p2align	2, 0x0
.LJTI7_0:
	.long	.LBB7_65-.LJTI7_0
	.long	.LBB7_72-.LJTI7_0
	.long	.LBB7_72-.LJTI7_0
	.long	.LBB7_72-.LJTI7_0
	.long	.LBB7_72-.LJTI7_0
	.long	.LBB7_72-.LJTI7_0
	.long	.LBB7_72-.LJTI7_0
	.long	.LBB7_72-.LJTI7_0
	.long	.LBB7_72-.LJTI7_0
	.long	.LBB7_72-.LJTI7_0
	.long	.LBB7_72-.LJTI7_0
	.long	.LBB7_72-.LJTI7_0
	.long	.LBB7_72-.LJTI7_0
	.long	.LBB7_70-.LJTI7_0
	.long	.LBB7_72-.LJTI7_0
	.long	.LBB7_72-.LJTI7_0
	.long	.LBB7_69-.LJTI7_0
	.long	.LBB7_72-.LJTI7_0
	.long	.LBB7_72-.LJTI7_0
	.long	.LBB7_72-.LJTI7_0
	.long	.LBB7_71-.LJTI7_0
.LJTI7_1:
	.long	.LBB7_104-.LJTI7_1
	.long	.LBB7_111-.LJTI7_1
	.long	.LBB7_111-.LJTI7_1
	.long	.LBB7_111-.LJTI7_1
	.long	.LBB7_111-.LJTI7_1
	.long	.LBB7_111-.LJTI7_1
	.long	.LBB7_111-.LJTI7_1
	.long	.LBB7_111-.LJTI7_1
	.long	.LBB7_111-.LJTI7_1
	.long	.LBB7_111-.LJTI7_1
	.long	.LBB7_111-.LJTI7_1
	.long	.LBB7_111-.LJTI7_1
	.long	.LBB7_111-.LJTI7_1
	.long	.LBB7_109-.LJTI7_1
	.long	.LBB7_111-.LJTI7_1
	.long	.LBB7_111-.LJTI7_1
	.long	.LBB7_108-.LJTI7_1
	.long	.LBB7_111-.LJTI7_1
	.long	.LBB7_111-.LJTI7_1
	.long	.LBB7_111-.LJTI7_1
	.long	.LBB7_110-.LJTI7_1

	.section	.text$012,"xr"
	.p2align	4
L_11:
	xorl	%eax, %eax
	cmpq	$64, %rsi
	jb	.LBB8_4
	movq	%rsi, %rcx
	.p2align	4
.LBB8_2:
	movdqu	(%rdi,%rax), %xmm3
	movdqu	16(%rdi,%rax), %xmm2
	movdqu	32(%rdi,%rax), %xmm1
	movdqu	48(%rdi,%rax), %xmm0
	movdqa	%xmm3, %xmm4
	por	%xmm2, %xmm4
	movdqa	%xmm1, %xmm5
	por	%xmm0, %xmm5
	por	%xmm4, %xmm5
	pmovmskb	%xmm5, %r8d
	testl	%r8d, %r8d
	jne	.LBB8_4
	pxor	%xmm4, %xmm4
	pxor	%xmm5, %xmm5
	punpckhbw	%xmm3, %xmm5
	pxor	%xmm6, %xmm6
	punpcklbw	%xmm3, %xmm6
	movdqu	%xmm6, (%rdx,%rax,2)
	movdqu	%xmm5, 16(%rdx,%rax,2)
	pxor	%xmm3, %xmm3
	punpckhbw	%xmm2, %xmm3
	pxor	%xmm5, %xmm5
	punpcklbw	%xmm2, %xmm5
	movdqu	%xmm5, 32(%rdx,%rax,2)
	movdqu	%xmm3, 48(%rdx,%rax,2)
	pxor	%xmm2, %xmm2
	punpckhbw	%xmm1, %xmm2
	pxor	%xmm3, %xmm3
	punpcklbw	%xmm1, %xmm3
	movdqu	%xmm3, 64(%rdx,%rax,2)
	movdqu	%xmm2, 80(%rdx,%rax,2)
	pxor	%xmm1, %xmm1
	punpckhbw	%xmm0, %xmm1
	punpcklbw	%xmm0, %xmm4
	movdqu	%xmm4, 96(%rdx,%rax,2)
	movdqu	%xmm1, 112(%rdx,%rax,2)
	addq	$64, %rax
	addq	$-64, %rcx
	cmpq	$63, %rcx
	ja	.LBB8_2
.LBB8_4:
	movq	%rsi, %rcx
	subq	%rax, %rcx
	cmpq	$16, %rcx
	jb	.LBB8_7
	.p2align	4
.LBB8_5:
	movdqu	(%rdi,%rax), %xmm0
	pmovmskb	%xmm0, %r8d
	testl	%r8d, %r8d
	jne	.LBB8_9
	pxor	%xmm1, %xmm1
	pxor	%xmm2, %xmm2
	punpckhbw	%xmm0, %xmm2
	punpcklbw	%xmm0, %xmm1
	movdqu	%xmm1, (%rdx,%rax,2)
	movdqu	%xmm2, 16(%rdx,%rax,2)
	addq	$16, %rax
	addq	$-16, %rcx
	cmpq	$15, %rcx
	ja	.LBB8_5
.LBB8_7:
	movdqu	-16(%rsi,%rdi), %xmm0
	pmovmskb	%xmm0, %ecx
	testl	%ecx, %ecx
	je	.LBB8_8
.LBB8_9:
	retq
.LBB8_8:
	pxor	%xmm1, %xmm1
	pxor	%xmm2, %xmm2
	punpckhbw	%xmm0, %xmm2
	punpcklbw	%xmm0, %xmm1
	movdqu	%xmm1, -32(%rdx,%rsi,2)
	movdqu	%xmm2, -16(%rdx,%rsi,2)
	movq	%rsi, %rax
	retq
.Lfunc_end8:

	.section	.rdata$004,"dr"
	.p2align	4, 0x0
.LCPI9_0:
	.zero	16,224
.LCPI9_1:
	.zero	1
	.byte	255
	.byte	0
	.zero	1
	.byte	255
	.byte	0
	.zero	1
	.byte	255
	.byte	0
	.zero	1
	.byte	255
	.byte	0
	.zero	1
	.byte	255
	.byte	0
	.zero	1
.LCPI9_2:
	.byte	0
	.byte	3
	.byte	6
	.byte	9
	.byte	12
	.byte	15
	.byte	128
	.byte	128
	.byte	128
	.byte	128
	.byte	128
	.byte	128
	.byte	128
	.byte	128
	.byte	128
	.byte	128
.LCPI9_3:
	.byte	128
	.byte	128
	.byte	128
	.byte	128
	.byte	128
	.byte	128
	.byte	2
	.byte	5
	.byte	8
	.byte	11
	.byte	14
	.byte	1
	.byte	4
	.byte	7
	.byte	10
	.byte	13
.LCPI9_4:
	.byte	255
	.zero	1
	.byte	0
	.byte	255
	.zero	1
	.byte	0
	.byte	255
	.zero	1
	.byte	0
	.byte	255
	.zero	1
	.byte	0
	.byte	255
	.zero	1
	.byte	0
	.byte	255
.LCPI9_5:
	.byte	1
	.byte	4
	.byte	7
	.byte	10
	.byte	13
	.byte	128
	.byte	128
	.byte	128
	.byte	128
	.byte	128
	.byte	128
	.byte	128
	.byte	128
	.byte	128
	.byte	128
	.byte	128
.LCPI9_6:
	.byte	128
	.byte	128
	.byte	128
	.byte	128
	.byte	128
	.byte	0
	.byte	3
	.byte	6
	.byte	9
	.byte	12
	.byte	15
	.byte	2
	.byte	5
	.byte	8
	.byte	11
	.byte	14
.LCPI9_7:
	.byte	255
	.byte	0
	.zero	1
	.byte	255
	.byte	0
	.zero	1
	.byte	255
	.byte	0
	.zero	1
	.byte	255
	.byte	0
	.zero	1
	.byte	255
	.byte	0
	.zero	1
	.byte	255
.LCPI9_8:
	.byte	2
	.byte	5
	.byte	8
	.byte	11
	.byte	14
	.byte	128
	.byte	128
	.byte	128
	.byte	128
	.byte	128
	.byte	128
	.byte	128
	.byte	128
	.byte	128
	.byte	128
	.byte	128
.LCPI9_9:
	.byte	128
	.byte	128
	.byte	128
	.byte	128
	.byte	128
	.byte	1
	.byte	4
	.byte	7
	.byte	10
	.byte	13
	.byte	0
	.byte	3
	.byte	6
	.byte	9
	.byte	12
	.byte	15
.LCPI9_10:
	.zero	16,240
.LCPI9_11:
	.zero	16,32
.LCPI9_12:
	.zero	16,192
.LCPI9_13:
	.zero	16,128
.LCPI9_14:
	.zero	16,15
.LCPI9_15:
	.zero	16,7
.LCPI9_16:
	.zero	16,248
.LCPI9_17:
	.zero	16,216
.LCPI9_18:
	.zero	16,63
.LCPI9_19:
	.zero	16,191
.LCPI9_20:
	.zero	16,223
.LCPI9_21:
	.zero	16,239
.LCPI9_22:
	.zero	16,159
.LCPI9_23:
	.zero	16,237
.LCPI9_24:
	.zero	16,143
.LCPI9_25:
	.zero	16,245
.LCPI9_26:
	.zero	16,244
.LCPI9_27:
	.zero	16,254
.LCPI9_28:
	.zero	16,220
.LCPI9_29:
	.zero	16,252
.LCPI9_30:
	.zero	16,232
.LCPI9_31:
	.zero	16,127
.LCPI9_32:
	.zero	16
	.section	.text$013,"xr"
	.p2align	4
L_12:
	pushq	%rbp
	pushq	%r15
	pushq	%r14
	pushq	%r13
	pushq	%r12
	pushq	%rbx
	subq	$56, %rsp
	movq	%r9, %rbx
	movq	%r8, %rax
	movq	%rcx, %r15
	movq	%rdx, %r12
	movq	%rsi, %r13
	movq	%rdi, %rbp
	jmp	.LBB9_1
	.p2align	4
.LBB9_4:
	shrq	%rsi
	cmpq	%rax, %rsi
	cmovaeq	%rax, %rsi
	leaq	(%r12,%rbx), %rdx
	callq	L_11
	leaq	(%rbx,%rax,2), %rbx
	addq	%r14, %rax
.LBB9_27:
	cmpq	%r14, %rax
	je	.LBB9_28
.LBB9_1:
	movq	%rax, %r14
	movq	%r13, %rax
	subq	%r14, %rax
	cmpq	$64, %rax
	jb	.LBB9_28
	movq	%r15, %rsi
	subq	%rbx, %rsi
	cmpq	$128, %rsi
	jb	.LBB9_28
	leaq	(%r14,%rbp), %rdi
	movdqu	(%rbp,%r14), %xmm4
	movdqu	16(%rbp,%r14), %xmm2
	movdqu	32(%rbp,%r14), %xmm6
	movdqu	48(%rbp,%r14), %xmm3
	movdqa	%xmm4, %xmm0
	pmaxub	%xmm2, %xmm0
	movdqa	%xmm6, %xmm1
	pmaxub	%xmm3, %xmm1
	pmaxub	%xmm0, %xmm1
	pmovmskb	%xmm1, %ecx
	testl	%ecx, %ecx
	je	.LBB9_4
	movdqa	.LCPI9_0(%rip), %xmm0
	pmaxub	%xmm1, %xmm0
	pcmpeqb	%xmm1, %xmm0
	pmovmskb	%xmm0, %eax
	testl	%eax, %eax
	je	.LBB9_6
	movd	%xmm4, %eax
	andb	$-16, %al
	cmpb	$-32, %al
	jne	.LBB9_9
	leaq	-32(%r15), %rcx
	subq	%rbx, %rcx
	leaq	-48(%r13), %rdx
	subq	%r14, %rdx
	movq	%r14, %rax
	.p2align	4
.LBB9_11:
	movdqu	16(%rbp,%rax), %xmm2
	movdqu	32(%rbp,%rax), %xmm6
	movaps	.LCPI9_1(%rip), %xmm0
	movdqa	%xmm2, %xmm4
	pblendvb	%xmm0, %xmm6, %xmm4
	movdqu	(%rbp,%rax), %xmm5
	movdqa	%xmm5, %xmm7
	pshufb	.LCPI9_2(%rip), %xmm7
	pshufb	.LCPI9_3(%rip), %xmm4
	movaps	.LCPI9_4(%rip), %xmm0
	movdqa	%xmm6, %xmm3
	pblendvb	%xmm0, %xmm2, %xmm3
	movdqa	%xmm5, %xmm0
	pshufb	.LCPI9_5(%rip), %xmm0
	por	%xmm7, %xmm4
	pshufb	.LCPI9_6(%rip), %xmm3
	por	%xmm0, %xmm3
	movaps	.LCPI9_7(%rip), %xmm0
	pblendvb	%xmm0, %xmm6, %xmm2
	pshufb	.LCPI9_8(%rip), %xmm5
	pshufb	.LCPI9_9(%rip), %xmm2
	movdqa	.LCPI9_10(%rip), %xmm0
	pand	%xmm4, %xmm0
	paddb	.LCPI9_11(%rip), %xmm0
	por	%xmm5, %xmm2
	movdqa	.LCPI9_12(%rip), %xmm5
	movdqa	%xmm3, %xmm6
	pand	%xmm5, %xmm6
	movdqa	.LCPI9_13(%rip), %xmm7
	pxor	%xmm7, %xmm6
	pmaxub	%xmm0, %xmm6
	pand	%xmm2, %xmm5
	pxor	%xmm7, %xmm5
	por	%xmm6, %xmm5
	ptest	%xmm5, %xmm5
	jne	.LBB9_15
	psllw	$4, %xmm4
	pand	.LCPI9_10(%rip), %xmm4
	movdqa	%xmm3, %xmm0
	psrlw	$2, %xmm0
	pand	.LCPI9_14(%rip), %xmm0
	por	%xmm4, %xmm0
	movdqa	.LCPI9_15(%rip), %xmm4
	pminub	%xmm0, %xmm4
	movdqa	.LCPI9_16(%rip), %xmm5
	pand	%xmm0, %xmm5
	pcmpeqb	.LCPI9_17(%rip), %xmm5
	pcmpeqb	%xmm0, %xmm4
	por	%xmm4, %xmm5
	pmovmskb	%xmm5, %esi
	testl	%esi, %esi
	jne	.LBB9_15
	psllw	$6, %xmm3
	pand	.LCPI9_12(%rip), %xmm3
	pand	.LCPI9_18(%rip), %xmm2
	por	%xmm3, %xmm2
	movdqa	%xmm0, %xmm3
	punpckhbw	%xmm2, %xmm3
	punpcklbw	%xmm2, %xmm0
	movdqu	%xmm0, (%r12,%rbx)
	movdqu	%xmm3, 16(%r12,%rbx)
	addq	$32, %rbx
	addq	$48, %rax
	subq	$32, %rcx
	setb	%sil
	subq	$48, %rdx
	jb	.LBB9_15
	testb	%sil, %sil
	je	.LBB9_11
	jmp	.LBB9_15
	.p2align	4
.LBB9_6:
	movdqa	%xmm4, %xmm5
	pslldq	$1, %xmm5
	movdqa	.LCPI9_12(%rip), %xmm0
	movdqa	%xmm0, %xmm1
	pcmpgtb	%xmm4, %xmm1
	movdqa	%xmm5, %xmm7
	pmaxub	%xmm0, %xmm7
	pcmpeqb	%xmm5, %xmm7
	pxor	%xmm1, %xmm7
	movdqa	.LCPI9_27(%rip), %xmm1
	movdqa	%xmm4, %xmm8
	pand	%xmm1, %xmm8
	pcmpeqb	%xmm0, %xmm8
	por	%xmm7, %xmm8
	movdqa	%xmm0, %xmm9
	pcmpgtb	%xmm2, %xmm9
	movdqu	15(%rdi), %xmm10
	movdqu	31(%rdi), %xmm11
	movdqu	47(%rdi), %xmm7
	movdqa	%xmm10, %xmm12
	pmaxub	%xmm0, %xmm12
	pcmpeqb	%xmm10, %xmm12
	pxor	%xmm9, %xmm12
	pand	%xmm1, %xmm2
	pcmpeqb	%xmm0, %xmm2
	por	%xmm12, %xmm2
	por	%xmm8, %xmm2
	movdqa	%xmm0, %xmm8
	pcmpgtb	%xmm6, %xmm8
	movdqa	%xmm11, %xmm9
	pmaxub	%xmm0, %xmm9
	pcmpeqb	%xmm11, %xmm9
	pxor	%xmm8, %xmm9
	pand	%xmm1, %xmm6
	pcmpeqb	%xmm0, %xmm6
	por	%xmm9, %xmm6
	movdqa	%xmm0, %xmm8
	pcmpgtb	%xmm3, %xmm8
	movdqa	%xmm7, %xmm9
	pmaxub	%xmm0, %xmm9
	pcmpeqb	%xmm7, %xmm9
	pxor	%xmm8, %xmm9
	pand	%xmm1, %xmm3
	pcmpeqb	%xmm0, %xmm3
	por	%xmm9, %xmm3
	por	%xmm6, %xmm3
	por	%xmm2, %xmm3
	pmovmskb	%xmm3, %eax
	testl	%eax, %eax
	jne	.LBB9_28
	psubusb	%xmm0, %xmm5
	movdqa	.LCPI9_19(%rip), %xmm1
	movdqa	%xmm5, %xmm6
	psrlw	$2, %xmm6
	movdqa	.LCPI9_18(%rip), %xmm3
	pand	%xmm3, %xmm6
	movdqa	.LCPI9_31(%rip), %xmm2
	movdqa	%xmm4, %xmm7
	pand	%xmm2, %xmm7
	psllw	$6, %xmm5
	pand	%xmm0, %xmm5
	paddb	%xmm7, %xmm5
	movdqa	%xmm4, %xmm7
	pminub	%xmm1, %xmm7
	pcmpeqb	%xmm4, %xmm7
	pmovmskb	%xmm7, %edx
	movdqa	%xmm6, %xmm4
	punpckhbw	%xmm5, %xmm4
	punpcklbw	%xmm5, %xmm6
	movzbl	%dl, %ecx
	popcntl	%ecx, %r8d
	shll	$4, %ecx
	leaq	.Lstatic.13(%rip), %rax
	movdqu	(%rcx,%rax), %xmm5
	pshufb	%xmm5, %xmm6
	leaq	(%r12,%rbx), %rcx
	movdqu	%xmm6, (%r12,%rbx)
	shrl	$8, %edx
	popcntl	%edx, %esi
	shll	$4, %edx
	movdqu	(%rdx,%rax), %xmm5
	pshufb	%xmm5, %xmm4
	movdqu	%xmm4, (%rcx,%r8,2)
	addq	%r8, %rsi
	movdqu	15(%rdi), %xmm5
	movdqu	16(%rdi), %xmm6
	psubusb	%xmm0, %xmm5
	movdqa	%xmm5, %xmm4
	psrlw	$2, %xmm4
	pand	%xmm3, %xmm4
	movdqa	%xmm6, %xmm7
	pminub	%xmm1, %xmm7
	pcmpeqb	%xmm6, %xmm7
	pand	%xmm2, %xmm6
	psllw	$6, %xmm5
	pand	%xmm0, %xmm5
	paddb	%xmm6, %xmm5
	pmovmskb	%xmm7, %r8d
	movdqa	%xmm4, %xmm6
	punpckhbw	%xmm5, %xmm6
	punpcklbw	%xmm5, %xmm4
	movzbl	%r8b, %edx
	popcntl	%edx, %r9d
	shll	$4, %edx
	movdqu	(%rdx,%rax), %xmm5
	pshufb	%xmm5, %xmm4
	leaq	(%rcx,%rsi,2), %r10
	movdqu	%xmm4, (%rcx,%rsi,2)
	shrl	$8, %r8d
	xorl	%edx, %edx
	popcntl	%r8d, %edx
	shll	$4, %r8d
	movdqu	(%r8,%rax), %xmm4
	pshufb	%xmm4, %xmm6
	movdqu	%xmm6, (%r10,%r9,2)
	addq	%rsi, %rdx
	addq	%r9, %rdx
	movdqu	31(%rdi), %xmm5
	movdqu	32(%rdi), %xmm6
	psubusb	%xmm0, %xmm5
	movdqa	%xmm5, %xmm4
	psrlw	$2, %xmm4
	pand	%xmm3, %xmm4
	movdqa	%xmm6, %xmm7
	pminub	%xmm1, %xmm7
	pcmpeqb	%xmm6, %xmm7
	pand	%xmm2, %xmm6
	psllw	$6, %xmm5
	pand	%xmm0, %xmm5
	paddb	%xmm6, %xmm5
	pmovmskb	%xmm7, %r8d
	movdqa	%xmm4, %xmm6
	punpckhbw	%xmm5, %xmm6
	punpcklbw	%xmm5, %xmm4
	movzbl	%r8b, %esi
	xorl	%r9d, %r9d
	popcntl	%esi, %r9d
	shll	$4, %esi
	movdqu	(%rsi,%rax), %xmm5
	pshufb	%xmm5, %xmm4
	leaq	(%rcx,%rdx,2), %r10
	movdqu	%xmm4, (%rcx,%rdx,2)
	shrl	$8, %r8d
	xorl	%esi, %esi
	popcntl	%r8d, %esi
	shll	$4, %r8d
	movdqu	(%r8,%rax), %xmm4
	pshufb	%xmm4, %xmm6
	movdqu	%xmm6, (%r10,%r9,2)
	addq	%r9, %rsi
	addq	%rdx, %rsi
	movdqu	47(%rdi), %xmm4
	movdqu	48(%rdi), %xmm5
	psubusb	%xmm0, %xmm4
	movdqa	%xmm4, %xmm6
	psrlw	$2, %xmm6
	pand	%xmm3, %xmm6
	pand	%xmm5, %xmm2
	psllw	$6, %xmm4
	pand	%xmm0, %xmm4
	paddb	%xmm2, %xmm4
	pminub	%xmm5, %xmm1
	pcmpeqb	%xmm5, %xmm1
	pmovmskb	%xmm1, %edx
	movdqa	%xmm6, %xmm0
	punpckhbw	%xmm4, %xmm0
	punpcklbw	%xmm4, %xmm6
	movzbl	%dl, %r8d
	xorl	%r9d, %r9d
	popcntl	%r8d, %r9d
	shll	$4, %r8d
	movdqu	(%r8,%rax), %xmm1
	pshufb	%xmm1, %xmm6
	leaq	(%rcx,%rsi,2), %r8
	movdqu	%xmm6, (%rcx,%rsi,2)
	shrl	$8, %edx
	popcntl	%edx, %ecx
	shll	$4, %edx
	movdqu	(%rdx,%rax), %xmm1
	pshufb	%xmm1, %xmm0
	movdqu	%xmm0, (%r8,%r9,2)
	addq	%r9, %rcx
	addq	%rsi, %rcx
	leaq	(%rbx,%rcx,2), %rbx
	cmpb	$-64, 63(%rdi)
	movq	%r14, %rax
	adcq	$-1, %rax
	addq	$64, %rax
	jmp	.LBB9_27
.LBB9_9:
	movq	%r14, %rax
.LBB9_15:
	cmpq	%rax, %r14
	jb	.LBB9_27
	movdqa	.LCPI9_10(%rip), %xmm0
	pmaxub	%xmm1, %xmm0
	pcmpeqb	%xmm1, %xmm0
	pmovmskb	%xmm0, %ecx
	movdqu	(%rbp,%rax), %xmm9
	movdqa	%xmm9, %xmm8
	pslldq	$1, %xmm8
	movdqa	%xmm9, %xmm10
	pslldq	$2, %xmm10
	testl	%ecx, %ecx
	je	.LBB9_17
	movdqa	%xmm10, %xmm1
	pslldq	$1, %xmm1
	movdqa	.LCPI9_12(%rip), %xmm2
	movdqa	%xmm2, %xmm0
	movdqa	%xmm2, %xmm11
	pcmpgtb	%xmm9, %xmm0
	movdqa	%xmm8, %xmm2
	psubusb	.LCPI9_19(%rip), %xmm2
	movdqa	%xmm10, 16(%rsp)
	movdqa	%xmm10, %xmm3
	psubusb	.LCPI9_20(%rip), %xmm3
	pmaxub	%xmm2, %xmm3
	psubusb	.LCPI9_21(%rip), %xmm1
	por	%xmm3, %xmm1
	pxor	%xmm2, %xmm2
	pcmpgtb	%xmm2, %xmm1
	pxor	%xmm0, %xmm1
	movdqa	.LCPI9_22(%rip), %xmm3
	movdqa	%xmm9, %xmm0
	pminub	%xmm3, %xmm0
	pcmpeqb	%xmm9, %xmm0
	movdqa	.LCPI9_0(%rip), %xmm10
	movdqa	.LCPI9_23(%rip), %xmm6
	movdqa	%xmm6, %xmm2
	pblendvb	%xmm0, %xmm10, %xmm2
	pcmpeqb	%xmm8, %xmm2
	movdqa	.LCPI9_24(%rip), %xmm4
	movdqa	%xmm9, %xmm0
	pminub	%xmm4, %xmm0
	pcmpeqb	%xmm9, %xmm0
	movdqa	.LCPI9_25(%rip), %xmm14
	movdqa	.LCPI9_26(%rip), %xmm5
	movdqa	%xmm5, %xmm13
	pblendvb	%xmm0, .LCPI9_10(%rip), %xmm13
	movdqa	%xmm9, %xmm0
	pmaxub	%xmm14, %xmm0
	pcmpeqb	%xmm9, %xmm0
	movdqa	%xmm8, 32(%rsp)
	pcmpeqb	%xmm8, %xmm13
	por	%xmm2, %xmm13
	por	%xmm0, %xmm13
	movdqu	16(%rbp,%rax), %xmm15
	movdqa	%xmm15, %xmm0
	pminub	%xmm3, %xmm0
	pcmpeqb	%xmm15, %xmm0
	movdqa	%xmm6, %xmm12
	pblendvb	%xmm0, %xmm10, %xmm12
	movdqa	.LCPI9_27(%rip), %xmm8
	movdqa	%xmm9, (%rsp)
	movdqa	%xmm9, %xmm2
	pand	%xmm8, %xmm2
	movdqa	%xmm11, %xmm9
	pcmpeqb	%xmm11, %xmm2
	por	%xmm1, %xmm2
	movdqa	%xmm15, %xmm0
	pminub	%xmm4, %xmm0
	pcmpeqb	%xmm15, %xmm0
	movdqa	%xmm5, %xmm7
	movdqa	.LCPI9_10(%rip), %xmm11
	pblendvb	%xmm0, %xmm11, %xmm7
	por	%xmm13, %xmm2
	movdqu	15(%rbp,%rax), %xmm0
	pcmpeqb	%xmm0, %xmm12
	pcmpeqb	%xmm0, %xmm7
	movdqa	.LCPI9_19(%rip), %xmm13
	psubusb	%xmm13, %xmm0
	movdqu	14(%rbp,%rax), %xmm1
	movdqa	.LCPI9_20(%rip), %xmm10
	psubusb	%xmm10, %xmm1
	pmaxub	%xmm0, %xmm1
	movdqu	13(%rbp,%rax), %xmm0
	movdqa	.LCPI9_21(%rip), %xmm10
	psubusb	%xmm10, %xmm0
	por	%xmm1, %xmm0
	movdqa	%xmm9, %xmm1
	pcmpgtb	%xmm15, %xmm1
	pcmpgtb	.LCPI9_32(%rip), %xmm0
	pxor	%xmm1, %xmm0
	por	%xmm12, %xmm7
	movdqa	%xmm15, %xmm1
	pmaxub	%xmm14, %xmm1
	pcmpeqb	%xmm15, %xmm1
	por	%xmm1, %xmm7
	pand	%xmm8, %xmm15
	pcmpeqb	%xmm9, %xmm15
	por	%xmm0, %xmm15
	movdqu	32(%rbp,%rax), %xmm1
	movdqa	%xmm1, %xmm0
	pminub	%xmm3, %xmm0
	pcmpeqb	%xmm1, %xmm0
	movdqa	%xmm6, %xmm12
	pblendvb	%xmm0, .LCPI9_0(%rip), %xmm12
	por	%xmm7, %xmm15
	movdqa	%xmm1, %xmm0
	pminub	%xmm4, %xmm0
	pcmpeqb	%xmm1, %xmm0
	movdqa	%xmm5, %xmm7
	pblendvb	%xmm0, %xmm11, %xmm7
	por	%xmm2, %xmm15
	movdqu	31(%rbp,%rax), %xmm0
	pcmpeqb	%xmm0, %xmm12
	pcmpeqb	%xmm0, %xmm7
	psubusb	%xmm13, %xmm0
	movdqu	30(%rbp,%rax), %xmm2
	movdqa	.LCPI9_20(%rip), %xmm13
	psubusb	%xmm13, %xmm2
	pmaxub	%xmm0, %xmm2
	movdqu	29(%rbp,%rax), %xmm0
	psubusb	%xmm10, %xmm0
	movdqa	%xmm10, %xmm8
	por	%xmm2, %xmm0
	movdqa	%xmm9, %xmm2
	pcmpgtb	%xmm1, %xmm2
	pxor	%xmm10, %xmm10
	pcmpgtb	%xmm10, %xmm0
	pxor	%xmm11, %xmm11
	pxor	%xmm2, %xmm0
	por	%xmm12, %xmm7
	movdqa	%xmm1, %xmm2
	pmaxub	%xmm14, %xmm2
	pcmpeqb	%xmm1, %xmm2
	por	%xmm2, %xmm7
	movdqa	.LCPI9_27(%rip), %xmm10
	pand	%xmm10, %xmm1
	pcmpeqb	%xmm9, %xmm1
	por	%xmm0, %xmm1
	por	%xmm7, %xmm1
	movdqu	48(%rbp,%rax), %xmm2
	pminub	%xmm2, %xmm3
	pcmpeqb	%xmm2, %xmm3
	movdqa	%xmm3, %xmm0
	movdqa	.LCPI9_0(%rip), %xmm3
	movdqa	%xmm3, %xmm7
	pblendvb	%xmm0, %xmm3, %xmm6
	pminub	%xmm2, %xmm4
	pcmpeqb	%xmm2, %xmm4
	movdqa	%xmm4, %xmm0
	pblendvb	%xmm0, .LCPI9_10(%rip), %xmm5
	movdqu	46(%rbp,%rax), %xmm0
	movdqu	47(%rbp,%rax), %xmm3
	pcmpeqb	%xmm3, %xmm6
	pcmpeqb	%xmm3, %xmm5
	movdqa	.LCPI9_19(%rip), %xmm12
	psubusb	%xmm12, %xmm3
	psubusb	%xmm13, %xmm0
	pmaxub	%xmm3, %xmm0
	movdqu	45(%rbp,%rax), %xmm3
	psubusb	%xmm8, %xmm3
	por	%xmm0, %xmm3
	pcmpgtb	%xmm11, %xmm3
	movdqa	%xmm9, %xmm0
	pcmpgtb	%xmm2, %xmm0
	pxor	%xmm0, %xmm3
	por	%xmm6, %xmm5
	pmaxub	%xmm2, %xmm14
	pcmpeqb	%xmm2, %xmm14
	por	%xmm14, %xmm5
	pand	%xmm10, %xmm2
	pcmpeqb	%xmm9, %xmm2
	por	%xmm3, %xmm2
	por	%xmm5, %xmm2
	por	%xmm1, %xmm2
	por	%xmm15, %xmm2
	psllw	$7, %xmm2
	pmovmskb	%xmm2, %ecx
	testl	%ecx, %ecx
	jne	.LBB9_27
	movdqa	%xmm12, %xmm4
	movdqa	%xmm8, %xmm12
	movdqa	%xmm9, %xmm13
	movdqa	%xmm9, %xmm15
	movdqa	%xmm13, %xmm1
	movdqa	(%rsp), %xmm9
	movdqa	%xmm9, %xmm0
	movdqa	32(%rsp), %xmm8
	pblendvb	%xmm0, %xmm8, %xmm1
	movdqa	16(%rsp), %xmm10
	movdqa	%xmm10, %xmm0
	pmaxub	%xmm7, %xmm0
	movdqa	%xmm1, %xmm2
	psrlw	$2, %xmm2
	movdqa	.LCPI9_14(%rip), %xmm5
	pand	%xmm5, %xmm2
	psllw	$4, %xmm0
	movdqa	%xmm5, %xmm3
	pandn	%xmm0, %xmm3
	por	%xmm2, %xmm3
	movdqa	%xmm1, %xmm0
	pmaxub	%xmm10, %xmm0
	movdqa	%xmm0, %xmm6
	movdqa	%xmm4, %xmm11
	pminub	%xmm4, %xmm6
	pcmpeqb	%xmm0, %xmm6
	pand	.LCPI9_28(%rip), %xmm6
	por	%xmm3, %xmm6
	movdqa	%xmm8, %xmm7
	psllw	$2, %xmm7
	movdqa	.LCPI9_29(%rip), %xmm4
	pand	%xmm4, %xmm7
	movdqa	.LCPI9_18(%rip), %xmm13
	movdqa	%xmm7, %xmm0
	pminub	%xmm13, %xmm0
	pcmpeqb	%xmm7, %xmm0
	movdqa	.LCPI9_30(%rip), %xmm3
	movdqa	%xmm10, %xmm2
	paddb	%xmm3, %xmm2
	paddb	%xmm0, %xmm2
	movdqa	%xmm10, %xmm0
	pminub	%xmm12, %xmm0
	pcmpeqb	%xmm10, %xmm0
	pblendvb	%xmm0, %xmm6, %xmm2
	movdqa	%xmm9, %xmm6
	psrlw	$4, %xmm6
	movdqa	%xmm4, %xmm14
	pandn	%xmm6, %xmm14
	por	%xmm7, %xmm14
	movdqa	.LCPI9_31(%rip), %xmm10
	movdqa	%xmm9, %xmm6
	pand	%xmm10, %xmm6
	psllw	$6, %xmm1
	pand	%xmm15, %xmm1
	paddb	%xmm6, %xmm1
	paddb	%xmm15, %xmm14
	movdqa	%xmm15, %xmm6
	pblendvb	%xmm0, %xmm1, %xmm14
	movdqa	%xmm9, %xmm0
	pminub	%xmm11, %xmm0
	pcmpeqb	%xmm9, %xmm0
	movdqa	%xmm8, %xmm1
	movdqa	.LCPI9_20(%rip), %xmm15
	pminub	%xmm15, %xmm1
	pcmpeqb	%xmm8, %xmm1
	pand	%xmm0, %xmm1
	pmovmskb	%xmm1, %r8d
	movdqa	%xmm2, %xmm0
	punpckhbw	%xmm14, %xmm0
	punpcklbw	%xmm14, %xmm2
	movzbl	%r8b, %edx
	popcntl	%edx, %esi
	shll	$4, %edx
	leaq	.Lstatic.13(%rip), %rcx
	movdqu	(%rdx,%rcx), %xmm1
	pshufb	%xmm1, %xmm2
	leaq	(%r12,%rbx), %rdx
	movdqu	%xmm2, (%r12,%rbx)
	shrl	$8, %r8d
	popcntl	%r8d, %edi
	shll	$4, %r8d
	movdqu	(%r8,%rcx), %xmm1
	pshufb	%xmm1, %xmm0
	movdqu	%xmm0, (%rdx,%rsi,2)
	movdqu	15(%rbp,%rax), %xmm1
	movdqu	16(%rbp,%rax), %xmm2
	movdqa	%xmm2, %xmm0
	pblendvb	%xmm0, %xmm1, %xmm6
	movdqu	14(%rbp,%rax), %xmm7
	movdqa	%xmm7, %xmm0
	pmaxub	.LCPI9_0(%rip), %xmm0
	psllw	$4, %xmm0
	movdqa	%xmm5, %xmm9
	pandn	%xmm0, %xmm9
	movdqa	%xmm6, %xmm0
	psrlw	$2, %xmm0
	pand	%xmm5, %xmm0
	por	%xmm0, %xmm9
	movdqa	%xmm6, %xmm0
	pmaxub	%xmm7, %xmm0
	movdqa	%xmm0, %xmm8
	pminub	%xmm11, %xmm8
	pcmpeqb	%xmm0, %xmm8
	pand	.LCPI9_28(%rip), %xmm8
	por	%xmm9, %xmm8
	movdqa	%xmm7, %xmm0
	pminub	%xmm12, %xmm0
	pcmpeqb	%xmm7, %xmm0
	movdqa	%xmm1, %xmm9
	psllw	$2, %xmm9
	pand	%xmm4, %xmm9
	movdqa	%xmm9, %xmm14
	pminub	%xmm13, %xmm14
	pcmpeqb	%xmm9, %xmm14
	paddb	%xmm3, %xmm7
	paddb	%xmm14, %xmm7
	pblendvb	%xmm0, %xmm8, %xmm7
	movdqa	%xmm2, %xmm8
	psrlw	$4, %xmm8
	movdqa	%xmm4, %xmm14
	pandn	%xmm8, %xmm14
	por	%xmm9, %xmm14
	movdqa	%xmm2, %xmm8
	pand	%xmm10, %xmm8
	psllw	$6, %xmm6
	movdqa	.LCPI9_12(%rip), %xmm9
	pand	%xmm9, %xmm6
	paddb	%xmm8, %xmm6
	paddb	%xmm9, %xmm14
	pblendvb	%xmm0, %xmm6, %xmm14
	movdqa	%xmm1, %xmm0
	pminub	%xmm15, %xmm0
	pcmpeqb	%xmm1, %xmm0
	movdqa	%xmm2, %xmm1
	pminub	%xmm11, %xmm1
	pcmpeqb	%xmm2, %xmm1
	addl	%esi, %edi
	pand	%xmm0, %xmm1
	pmovmskb	%xmm1, %r9d
	movdqa	%xmm7, %xmm0
	punpckhbw	%xmm14, %xmm0
	punpcklbw	%xmm14, %xmm7
	movzbl	%r9b, %esi
	xorl	%r8d, %r8d
	popcntl	%esi, %r8d
	shll	$4, %esi
	movdqu	(%rsi,%rcx), %xmm1
	pshufb	%xmm1, %xmm7
	leaq	(%rdx,%rdi,2), %r10
	movdqu	%xmm7, (%rdx,%rdi,2)
	shrl	$8, %r9d
	xorl	%esi, %esi
	popcntl	%r9d, %esi
	shll	$4, %r9d
	movdqu	(%r9,%rcx), %xmm1
	pshufb	%xmm1, %xmm0
	movdqu	%xmm0, (%r10,%r8,2)
	movdqu	30(%rbp,%rax), %xmm7
	movdqu	31(%rbp,%rax), %xmm1
	movdqu	32(%rbp,%rax), %xmm2
	movdqa	%xmm9, %xmm6
	movdqa	%xmm2, %xmm0
	pblendvb	%xmm0, %xmm1, %xmm6
	movdqa	%xmm7, %xmm0
	pmaxub	.LCPI9_0(%rip), %xmm0
	psllw	$4, %xmm0
	movdqa	%xmm5, %xmm9
	pandn	%xmm0, %xmm9
	movdqa	%xmm6, %xmm0
	psrlw	$2, %xmm0
	pand	%xmm5, %xmm0
	por	%xmm0, %xmm9
	movdqa	%xmm6, %xmm0
	pmaxub	%xmm7, %xmm0
	movdqa	%xmm0, %xmm8
	pminub	%xmm11, %xmm8
	pcmpeqb	%xmm0, %xmm8
	movdqa	.LCPI9_28(%rip), %xmm0
	pand	%xmm0, %xmm8
	por	%xmm9, %xmm8
	movdqa	%xmm7, %xmm0
	pminub	%xmm12, %xmm0
	pcmpeqb	%xmm7, %xmm0
	movdqa	%xmm1, %xmm9
	psllw	$2, %xmm9
	pand	%xmm4, %xmm9
	movdqa	%xmm9, %xmm14
	pminub	%xmm13, %xmm14
	pcmpeqb	%xmm9, %xmm14
	paddb	%xmm3, %xmm7
	paddb	%xmm14, %xmm7
	pblendvb	%xmm0, %xmm8, %xmm7
	movdqa	%xmm2, %xmm8
	psrlw	$4, %xmm8
	movdqa	%xmm4, %xmm14
	pandn	%xmm8, %xmm14
	por	%xmm9, %xmm14
	movdqa	%xmm2, %xmm8
	pand	%xmm10, %xmm8
	psllw	$6, %xmm6
	movdqa	.LCPI9_12(%rip), %xmm9
	pand	%xmm9, %xmm6
	paddb	%xmm8, %xmm6
	paddb	%xmm9, %xmm14
	pblendvb	%xmm0, %xmm6, %xmm14
	movdqa	%xmm1, %xmm0
	pminub	%xmm15, %xmm0
	pcmpeqb	%xmm1, %xmm0
	movdqa	%xmm2, %xmm1
	pminub	%xmm11, %xmm1
	pcmpeqb	%xmm2, %xmm1
	addl	%r8d, %esi
	addl	%edi, %esi
	pand	%xmm0, %xmm1
	pmovmskb	%xmm1, %r9d
	movdqa	%xmm7, %xmm0
	punpckhbw	%xmm14, %xmm0
	punpcklbw	%xmm14, %xmm7
	movzbl	%r9b, %edi
	popcntl	%edi, %r8d
	shll	$4, %edi
	movdqu	(%rdi,%rcx), %xmm1
	pshufb	%xmm1, %xmm7
	leaq	(%rdx,%rsi,2), %r10
	movdqu	%xmm7, (%rdx,%rsi,2)
	shrl	$8, %r9d
	xorl	%edi, %edi
	popcntl	%r9d, %edi
	shll	$4, %r9d
	movdqu	(%r9,%rcx), %xmm1
	pshufb	%xmm1, %xmm0
	movdqu	%xmm0, (%r10,%r8,2)
	movdqu	47(%rbp,%rax), %xmm1
	movdqu	48(%rbp,%rax), %xmm2
	movdqa	%xmm9, %xmm6
	movdqa	%xmm2, %xmm0
	pblendvb	%xmm0, %xmm1, %xmm6
	movdqu	46(%rbp,%rax), %xmm0
	movdqa	.LCPI9_0(%rip), %xmm8
	pmaxub	%xmm0, %xmm8
	movdqa	%xmm6, %xmm7
	psrlw	$2, %xmm7
	pand	%xmm5, %xmm7
	psllw	$4, %xmm8
	pandn	%xmm8, %xmm5
	por	%xmm7, %xmm5
	movdqa	%xmm6, %xmm8
	pmaxub	%xmm0, %xmm8
	movdqa	%xmm8, %xmm7
	pminub	%xmm11, %xmm7
	pcmpeqb	%xmm8, %xmm7
	pand	.LCPI9_28(%rip), %xmm7
	por	%xmm5, %xmm7
	movdqa	%xmm1, %xmm5
	psllw	$2, %xmm5
	pand	%xmm4, %xmm5
	pminub	%xmm5, %xmm13
	pcmpeqb	%xmm5, %xmm13
	paddb	%xmm0, %xmm3
	paddb	%xmm13, %xmm3
	pminub	%xmm0, %xmm12
	pcmpeqb	%xmm0, %xmm12
	movdqa	%xmm12, %xmm0
	pblendvb	%xmm0, %xmm7, %xmm3
	movdqa	%xmm2, %xmm0
	psrlw	$4, %xmm0
	pandn	%xmm0, %xmm4
	por	%xmm5, %xmm4
	paddb	%xmm9, %xmm4
	psllw	$6, %xmm6
	pand	%xmm9, %xmm6
	pand	%xmm2, %xmm10
	paddb	%xmm10, %xmm6
	movdqa	%xmm12, %xmm0
	pblendvb	%xmm0, %xmm6, %xmm4
	pminub	%xmm1, %xmm15
	pcmpeqb	%xmm1, %xmm15
	pminub	%xmm2, %xmm11
	pcmpeqb	%xmm2, %xmm11
	pand	%xmm15, %xmm11
	pmovmskb	%xmm11, %r9d
	movdqa	%xmm3, %xmm0
	punpckhbw	%xmm4, %xmm0
	punpcklbw	%xmm4, %xmm3
	movzbl	%r9b, %r10d
	popcntl	%r10d, %r11d
	shll	$4, %r10d
	movdqu	(%r10,%rcx), %xmm1
	pshufb	%xmm1, %xmm3
	addl	%r8d, %edi
	addl	%esi, %edi
	movdqu	%xmm3, (%rdx,%rdi,2)
	shrl	$8, %r9d
	popcntl	%r9d, %esi
	shll	$4, %r9d
	movdqu	(%r9,%rcx), %xmm1
	pshufb	%xmm1, %xmm0
	leaq	(%rdx,%rdi,2), %rcx
	movdqu	%xmm0, (%rcx,%r11,2)
	addl	%r11d, %esi
	addl	%edi, %esi
	leaq	(%rbx,%rsi,2), %rbx
	cmpb	$-17, 61(%rbp,%rax)
	jbe	.LBB9_23
	addq	$-2, %rbx
	movl	$61, %ecx
	jmp	.LBB9_26
.LBB9_17:
	movdqa	.LCPI9_12(%rip), %xmm1
	movdqa	%xmm1, %xmm0
	movdqa	%xmm1, %xmm2
	pcmpgtb	%xmm9, %xmm0
	movdqa	%xmm8, %xmm1
	psubusb	.LCPI9_19(%rip), %xmm1
	movdqa	.LCPI9_20(%rip), %xmm4
	movdqa	%xmm10, %xmm6
	psubusb	%xmm4, %xmm6
	por	%xmm1, %xmm6
	pxor	%xmm1, %xmm1
	pcmpgtb	%xmm1, %xmm6
	pxor	%xmm0, %xmm6
	movdqa	.LCPI9_27(%rip), %xmm7
	movdqa	%xmm9, %xmm13
	pand	%xmm7, %xmm13
	pcmpeqb	%xmm2, %xmm13
	movdqa	.LCPI9_22(%rip), %xmm1
	movdqa	%xmm9, %xmm0
	pminub	%xmm1, %xmm0
	pcmpeqb	%xmm9, %xmm0
	movdqa	.LCPI9_0(%rip), %xmm3
	movdqa	.LCPI9_23(%rip), %xmm11
	movdqa	%xmm11, %xmm12
	pblendvb	%xmm0, %xmm3, %xmm12
	pcmpeqb	%xmm8, %xmm12
	por	%xmm13, %xmm12
	por	%xmm6, %xmm12
	movdqu	14(%rbp,%rax), %xmm13
	movdqu	15(%rbp,%rax), %xmm5
	movdqu	16(%rbp,%rax), %xmm6
	movdqa	%xmm6, %xmm0
	pminub	%xmm1, %xmm0
	pcmpeqb	%xmm6, %xmm0
	movdqa	%xmm11, %xmm14
	pblendvb	%xmm0, %xmm3, %xmm14
	movdqu	30(%rbp,%rax), %xmm15
	pcmpeqb	%xmm5, %xmm14
	movdqa	.LCPI9_19(%rip), %xmm3
	psubusb	%xmm3, %xmm5
	psubusb	%xmm4, %xmm13
	por	%xmm5, %xmm13
	movdqa	%xmm2, %xmm0
	pcmpgtb	%xmm6, %xmm0
	pxor	%xmm5, %xmm5
	pcmpgtb	%xmm5, %xmm13
	pxor	%xmm0, %xmm13
	pand	%xmm7, %xmm6
	pcmpeqb	%xmm2, %xmm6
	movdqa	%xmm2, %xmm5
	por	%xmm13, %xmm6
	por	%xmm6, %xmm14
	movdqu	32(%rbp,%rax), %xmm6
	movdqa	%xmm6, %xmm0
	pminub	%xmm1, %xmm0
	pcmpeqb	%xmm6, %xmm0
	movdqa	%xmm11, %xmm13
	movdqa	.LCPI9_0(%rip), %xmm2
	pblendvb	%xmm0, %xmm2, %xmm13
	movdqu	31(%rbp,%rax), %xmm0
	pcmpeqb	%xmm0, %xmm13
	psubusb	%xmm3, %xmm0
	psubusb	%xmm4, %xmm15
	por	%xmm0, %xmm15
	movdqa	%xmm5, %xmm0
	pcmpgtb	%xmm6, %xmm0
	pcmpgtb	.LCPI9_32(%rip), %xmm15
	pxor	%xmm0, %xmm15
	pand	%xmm7, %xmm6
	pcmpeqb	%xmm5, %xmm6
	por	%xmm15, %xmm6
	por	%xmm6, %xmm13
	por	%xmm14, %xmm13
	por	%xmm12, %xmm13
	movdqu	46(%rbp,%rax), %xmm12
	movdqu	48(%rbp,%rax), %xmm6
	pminub	%xmm6, %xmm1
	pcmpeqb	%xmm6, %xmm1
	movdqa	%xmm1, %xmm0
	pblendvb	%xmm0, %xmm2, %xmm11
	movdqu	47(%rbp,%rax), %xmm0
	pcmpeqb	%xmm0, %xmm11
	psubusb	%xmm3, %xmm0
	psubusb	%xmm4, %xmm12
	por	%xmm0, %xmm12
	pxor	%xmm0, %xmm0
	pcmpgtb	%xmm0, %xmm12
	movdqa	%xmm5, %xmm0
	pcmpgtb	%xmm6, %xmm0
	pxor	%xmm0, %xmm12
	pand	%xmm6, %xmm7
	pcmpeqb	%xmm5, %xmm7
	por	%xmm12, %xmm7
	por	%xmm7, %xmm11
	por	%xmm13, %xmm11
	pmovmskb	%xmm11, %ecx
	testl	%ecx, %ecx
	jne	.LBB9_27
	movdqa	%xmm2, %xmm15
	movdqa	%xmm5, %xmm14
	movdqa	%xmm5, %xmm2
	movdqa	%xmm9, %xmm0
	pblendvb	%xmm0, %xmm8, %xmm2
	pmaxub	%xmm15, %xmm10
	movdqa	%xmm2, %xmm5
	psrlw	$2, %xmm5
	movdqa	.LCPI9_14(%rip), %xmm1
	pand	%xmm1, %xmm5
	psllw	$4, %xmm10
	movdqa	%xmm1, %xmm0
	pandn	%xmm10, %xmm0
	por	%xmm5, %xmm0
	movdqa	.LCPI9_31(%rip), %xmm7
	movdqa	%xmm9, %xmm5
	pand	%xmm7, %xmm5
	psllw	$6, %xmm2
	pand	%xmm14, %xmm2
	paddb	%xmm5, %xmm2
	movdqa	%xmm9, %xmm5
	pminub	%xmm3, %xmm5
	pcmpeqb	%xmm9, %xmm5
	movdqa	%xmm8, %xmm6
	pminub	%xmm4, %xmm6
	pcmpeqb	%xmm8, %xmm6
	pand	%xmm5, %xmm6
	pmovmskb	%xmm6, %edi
	movdqa	%xmm0, %xmm5
	punpckhbw	%xmm2, %xmm5
	punpcklbw	%xmm2, %xmm0
	movzbl	%dil, %edx
	popcntl	%edx, %r8d
	shll	$4, %edx
	leaq	.Lstatic.13(%rip), %rcx
	movdqu	(%rdx,%rcx), %xmm2
	pshufb	%xmm2, %xmm0
	leaq	(%r12,%rbx), %rdx
	movdqu	%xmm0, (%r12,%rbx)
	shrl	$8, %edi
	popcntl	%edi, %esi
	shll	$4, %edi
	movdqu	(%rdi,%rcx), %xmm0
	pshufb	%xmm0, %xmm5
	movdqu	%xmm5, (%rdx,%r8,2)
	addl	%r8d, %esi
	movdqu	14(%rbp,%rax), %xmm5
	movdqu	15(%rbp,%rax), %xmm9
	movdqu	16(%rbp,%rax), %xmm0
	movdqa	%xmm14, %xmm8
	pblendvb	%xmm0, %xmm9, %xmm8
	pmaxub	%xmm15, %xmm5
	movdqa	%xmm8, %xmm6
	psrlw	$2, %xmm6
	pand	%xmm1, %xmm6
	psllw	$4, %xmm5
	movdqa	%xmm1, %xmm2
	pandn	%xmm5, %xmm2
	por	%xmm6, %xmm2
	movdqa	%xmm0, %xmm5
	pminub	%xmm3, %xmm5
	pcmpeqb	%xmm0, %xmm5
	pand	%xmm7, %xmm0
	psllw	$6, %xmm8
	pand	%xmm14, %xmm8
	paddb	%xmm0, %xmm8
	movdqa	%xmm9, %xmm0
	pminub	%xmm4, %xmm0
	pcmpeqb	%xmm9, %xmm0
	pand	%xmm0, %xmm5
	pmovmskb	%xmm5, %r8d
	movdqa	%xmm2, %xmm0
	punpckhbw	%xmm8, %xmm0
	punpcklbw	%xmm8, %xmm2
	movzbl	%r8b, %edi
	popcntl	%edi, %r9d
	shll	$4, %edi
	movdqu	(%rdi,%rcx), %xmm5
	pshufb	%xmm5, %xmm2
	leaq	(%rdx,%rsi,2), %r10
	movdqu	%xmm2, (%rdx,%rsi,2)
	shrl	$8, %r8d
	xorl	%edi, %edi
	popcntl	%r8d, %edi
	shll	$4, %r8d
	movdqu	(%r8,%rcx), %xmm2
	pshufb	%xmm2, %xmm0
	movdqu	%xmm0, (%r10,%r9,2)
	addl	%r9d, %edi
	addl	%esi, %edi
	movdqu	30(%rbp,%rax), %xmm5
	movdqu	31(%rbp,%rax), %xmm9
	movdqu	32(%rbp,%rax), %xmm0
	movdqa	%xmm14, %xmm8
	pblendvb	%xmm0, %xmm9, %xmm8
	pmaxub	%xmm15, %xmm5
	movdqa	%xmm8, %xmm6
	psrlw	$2, %xmm6
	pand	%xmm1, %xmm6
	psllw	$4, %xmm5
	movdqa	%xmm1, %xmm2
	pandn	%xmm5, %xmm2
	por	%xmm6, %xmm2
	movdqa	%xmm0, %xmm5
	pminub	%xmm3, %xmm5
	pcmpeqb	%xmm0, %xmm5
	pand	%xmm7, %xmm0
	psllw	$6, %xmm8
	pand	%xmm14, %xmm8
	paddb	%xmm0, %xmm8
	movdqa	%xmm9, %xmm0
	pminub	%xmm4, %xmm0
	pcmpeqb	%xmm9, %xmm0
	pand	%xmm0, %xmm5
	pmovmskb	%xmm5, %r8d
	movdqa	%xmm2, %xmm0
	punpckhbw	%xmm8, %xmm0
	punpcklbw	%xmm8, %xmm2
	movzbl	%r8b, %esi
	xorl	%r9d, %r9d
	popcntl	%esi, %r9d
	shll	$4, %esi
	movdqu	(%rsi,%rcx), %xmm5
	pshufb	%xmm5, %xmm2
	leaq	(%rdx,%rdi,2), %r10
	movdqu	%xmm2, (%rdx,%rdi,2)
	shrl	$8, %r8d
	xorl	%esi, %esi
	popcntl	%r8d, %esi
	shll	$4, %r8d
	movdqu	(%r8,%rcx), %xmm2
	pshufb	%xmm2, %xmm0
	movdqu	%xmm0, (%r10,%r9,2)
	addl	%r9d, %esi
	addl	%edi, %esi
	movdqu	46(%rbp,%rax), %xmm5
	movdqu	47(%rbp,%rax), %xmm6
	movdqu	48(%rbp,%rax), %xmm0
	movdqa	%xmm14, %xmm2
	pblendvb	%xmm0, %xmm6, %xmm2
	pmaxub	%xmm15, %xmm5
	movdqa	%xmm2, %xmm8
	psrlw	$2, %xmm8
	pand	%xmm1, %xmm8
	psllw	$4, %xmm5
	pandn	%xmm5, %xmm1
	por	%xmm8, %xmm1
	pand	%xmm0, %xmm7
	psllw	$6, %xmm2
	pand	%xmm14, %xmm2
	paddb	%xmm7, %xmm2
	pminub	%xmm6, %xmm4
	pcmpeqb	%xmm6, %xmm4
	pminub	%xmm0, %xmm3
	pcmpeqb	%xmm0, %xmm3
	pand	%xmm4, %xmm3
	pmovmskb	%xmm3, %edi
	movdqa	%xmm1, %xmm0
	punpckhbw	%xmm2, %xmm0
	punpcklbw	%xmm2, %xmm1
	movzbl	%dil, %r9d
	xorl	%r8d, %r8d
	popcntl	%r9d, %r8d
	shll	$4, %r9d
	movdqu	(%r9,%rcx), %xmm2
	pshufb	%xmm2, %xmm1
	leaq	(%rdx,%rsi,2), %r9
	movdqu	%xmm1, (%rdx,%rsi,2)
	shrl	$8, %edi
	movl	%edi, %edx
	shll	$4, %edx
	movdqu	(%rdx,%rcx), %xmm1
	pshufb	%xmm1, %xmm0
	movdqu	%xmm0, (%r9,%r8,2)
	movl	$62, %ecx
	cmpb	$-33, 62(%rbp,%rax)
	ja	.LBB9_20
	xorl	%ecx, %ecx
	cmpb	$-64, 63(%rbp,%rax)
	adcq	$63, %rcx
.LBB9_20:
	xorl	%edx, %edx
	popcntl	%edi, %edx
	addl	%edx, %r8d
	addl	%r8d, %esi
	leaq	(%rbx,%rsi,2), %rbx
	jmp	.LBB9_26
.LBB9_23:
	movl	$62, %ecx
	cmpb	$-33, 62(%rbp,%rax)
	ja	.LBB9_26
	xorl	%ecx, %ecx
	cmpb	$-64, 63(%rbp,%rax)
	adcq	$63, %rcx
.LBB9_26:
	addq	%rcx, %rax
	jmp	.LBB9_27
.LBB9_28:
	movq	%r14, %rax
	movq	%rbx, %rdx
	addq	$56, %rsp
	popq	%rbx
	popq	%r12
	popq	%r13
	popq	%r14
	popq	%r15
	popq	%rbp
	retq
.Lfunc_end9:

	.section	.rdata$004,"dr"
	.p2align	4, 0x0
.LCPI10_0:
	.zero	1
	.byte	255
	.byte	0
	.zero	1
	.byte	255
	.byte	0
	.zero	1
	.byte	255
	.byte	0
	.zero	1
	.byte	255
	.byte	0
	.zero	1
	.byte	255
	.byte	0
	.zero	1
.LCPI10_1:
	.byte	0
	.byte	3
	.byte	6
	.byte	9
	.byte	12
	.byte	15
	.byte	128
	.byte	128
	.byte	128
	.byte	128
	.byte	128
	.byte	128
	.byte	128
	.byte	128
	.byte	128
	.byte	128
.LCPI10_2:
	.byte	128
	.byte	128
	.byte	128
	.byte	128
	.byte	128
	.byte	128
	.byte	2
	.byte	5
	.byte	8
	.byte	11
	.byte	14
	.byte	1
	.byte	4
	.byte	7
	.byte	10
	.byte	13
.LCPI10_3:
	.byte	255
	.zero	1
	.byte	0
	.byte	255
	.zero	1
	.byte	0
	.byte	255
	.zero	1
	.byte	0
	.byte	255
	.zero	1
	.byte	0
	.byte	255
	.zero	1
	.byte	0
	.byte	255
.LCPI10_4:
	.byte	1
	.byte	4
	.byte	7
	.byte	10
	.byte	13
	.byte	128
	.byte	128
	.byte	128
	.byte	128
	.byte	128
	.byte	128
	.byte	128
	.byte	128
	.byte	128
	.byte	128
	.byte	128
.LCPI10_5:
	.byte	128
	.byte	128
	.byte	128
	.byte	128
	.byte	128
	.byte	0
	.byte	3
	.byte	6
	.byte	9
	.byte	12
	.byte	15
	.byte	2
	.byte	5
	.byte	8
	.byte	11
	.byte	14
.LCPI10_6:
	.byte	255
	.byte	0
	.zero	1
	.byte	255
	.byte	0
	.zero	1
	.byte	255
	.byte	0
	.zero	1
	.byte	255
	.byte	0
	.zero	1
	.byte	255
	.byte	0
	.zero	1
	.byte	255
.LCPI10_7:
	.byte	2
	.byte	5
	.byte	8
	.byte	11
	.byte	14
	.byte	128
	.byte	128
	.byte	128
	.byte	128
	.byte	128
	.byte	128
	.byte	128
	.byte	128
	.byte	128
	.byte	128
	.byte	128
.LCPI10_8:
	.byte	128
	.byte	128
	.byte	128
	.byte	128
	.byte	128
	.byte	1
	.byte	4
	.byte	7
	.byte	10
	.byte	13
	.byte	0
	.byte	3
	.byte	6
	.byte	9
	.byte	12
	.byte	15
.LCPI10_9:
	.zero	16,240
.LCPI10_10:
	.zero	16,32
.LCPI10_11:
	.zero	16,192
.LCPI10_12:
	.zero	16,128
.LCPI10_13:
	.zero	16,15
.LCPI10_14:
	.zero	16,7
.LCPI10_15:
	.zero	16,248
.LCPI10_16:
	.zero	16,216
.LCPI10_17:
	.zero	16,63
.LCPI10_18:
	.zero	16,224
	.section	.text$014,"xr"
	.p2align	4
L_13:
	pushq	%r15
	pushq	%r14
	pushq	%rbx
	movq	%r9, %rbx
	movq	%r8, %rax
	movq	%rsi, %r8
	subq	%rax, %r8
	je	.LBB10_8
	movzbl	(%rdi,%rax), %r9d
	andb	$-16, %r9b
	cmpb	$-32, %r9b
	jne	.LBB10_8
	cmpq	$48, %r8
	setb	%r10b
	movq	%rcx, %r9
	subq	%rbx, %r9
	cmpq	$32, %r9
	setb	%r11b
	orb	%r10b, %r11b
	je	.LBB10_3
.LBB10_8:
	cmpb	$-65, -1(%rdi,%rsi)
	jbe	.LBB10_10
	decq	%rsi
	jmp	.LBB10_13
.LBB10_10:
	cmpb	$-33, -2(%rdi,%rsi)
	jbe	.LBB10_12
	addq	$-2, %rsi
	jmp	.LBB10_13
.LBB10_12:
	leaq	-3(%rsi), %r8
	cmpb	$-16, -3(%rdi,%rsi)
	cmovaeq	%r8, %rsi
.LBB10_13:
	cmpq	$17, %rsi
	setb	%r9b
	movq	%rsi, %r8
	subq	%rax, %r8
	setbe	%r10b
	orb	%r9b, %r10b
	jne	.LBB10_23
	subq	%rbx, %rcx
	xorl	%r9d, %r9d
	subq	$16, %rcx
	cmovaeq	%rcx, %r9
	shrq	%r9
	cmpq	%r8, %r9
	jb	.LBB10_23
	xorl	%ecx, %ecx
	movq	%rax, %r8
	subq	$18, %r8
	cmovaeq	%r8, %rcx
	movdqu	-16(%rdi,%rsi), %xmm0
	movq	%rsi, %r8
	subq	%rcx, %r8
	cmpq	$17, %r8
	jb	.LBB10_18
	addq	%rdi, %rcx
	.p2align	4
.LBB10_17:
	movdqu	(%rcx), %xmm1
	pmaxub	%xmm1, %xmm0
	addq	$16, %rcx
	addq	$-16, %r8
	cmpq	$16, %r8
	ja	.LBB10_17
.LBB10_18:
	addq	%rbx, %rdx
	movdqa	.LCPI10_18(%rip), %xmm1
	pmaxub	%xmm0, %xmm1
	pcmpeqb	%xmm0, %xmm1
	pmovmskb	%xmm1, %ecx
	testl	%ecx, %ecx
	je	.LBB10_24
	movq	%rdx, %rcx
	movdqa	.LCPI10_9(%rip), %xmm1
	pmaxub	%xmm0, %xmm1
	pcmpeqb	%xmm0, %xmm1
	pmovmskb	%xmm1, %edx
	movq	%rsi, %r14
	movq	%rax, %r15
	testl	%edx, %edx
	je	.LBB10_20
	movq	%rax, %rdx
	callq	L_14
	jmp	.LBB10_22
.LBB10_3:
	addq	$-32, %r9
	addq	$-48, %r8
	.p2align	4
.LBB10_4:
	movdqu	16(%rdi,%rax), %xmm1
	movdqu	32(%rdi,%rax), %xmm5
	movaps	.LCPI10_0(%rip), %xmm0
	movdqa	%xmm1, %xmm3
	pblendvb	%xmm0, %xmm5, %xmm3
	movdqu	(%rdi,%rax), %xmm4
	movdqa	%xmm4, %xmm6
	pshufb	.LCPI10_1(%rip), %xmm6
	pshufb	.LCPI10_2(%rip), %xmm3
	movaps	.LCPI10_3(%rip), %xmm0
	movdqa	%xmm5, %xmm2
	pblendvb	%xmm0, %xmm1, %xmm2
	movdqa	%xmm4, %xmm0
	pshufb	.LCPI10_4(%rip), %xmm0
	por	%xmm6, %xmm3
	pshufb	.LCPI10_5(%rip), %xmm2
	por	%xmm0, %xmm2
	movaps	.LCPI10_6(%rip), %xmm0
	pblendvb	%xmm0, %xmm5, %xmm1
	pshufb	.LCPI10_7(%rip), %xmm4
	pshufb	.LCPI10_8(%rip), %xmm1
	movdqa	.LCPI10_9(%rip), %xmm0
	pand	%xmm3, %xmm0
	paddb	.LCPI10_10(%rip), %xmm0
	por	%xmm4, %xmm1
	movdqa	.LCPI10_11(%rip), %xmm4
	movdqa	%xmm2, %xmm5
	pand	%xmm4, %xmm5
	movdqa	.LCPI10_12(%rip), %xmm6
	pxor	%xmm6, %xmm5
	pmaxub	%xmm0, %xmm5
	pand	%xmm1, %xmm4
	pxor	%xmm6, %xmm4
	por	%xmm5, %xmm4
	ptest	%xmm4, %xmm4
	jne	.LBB10_8
	psllw	$4, %xmm3
	pand	.LCPI10_9(%rip), %xmm3
	movdqa	%xmm2, %xmm0
	psrlw	$2, %xmm0
	pand	.LCPI10_13(%rip), %xmm0
	por	%xmm3, %xmm0
	movdqa	.LCPI10_14(%rip), %xmm3
	pminub	%xmm0, %xmm3
	movdqa	.LCPI10_15(%rip), %xmm4
	pand	%xmm0, %xmm4
	pcmpeqb	.LCPI10_16(%rip), %xmm4
	pcmpeqb	%xmm0, %xmm3
	por	%xmm3, %xmm4
	pmovmskb	%xmm4, %r10d
	testl	%r10d, %r10d
	jne	.LBB10_8
	psllw	$6, %xmm2
	pand	.LCPI10_11(%rip), %xmm2
	pand	.LCPI10_17(%rip), %xmm1
	por	%xmm2, %xmm1
	movdqa	%xmm0, %xmm2
	punpckhbw	%xmm1, %xmm2
	punpcklbw	%xmm1, %xmm0
	movdqu	%xmm0, (%rdx,%rbx)
	movdqu	%xmm2, 16(%rdx,%rbx)
	addq	$32, %rbx
	addq	$48, %rax
	subq	$32, %r9
	setb	%r10b
	subq	$48, %r8
	jb	.LBB10_8
	testb	%r10b, %r10b
	je	.LBB10_4
	jmp	.LBB10_8
.LBB10_24:
	movq	%rsi, %r14
	movq	%rax, %r15
	movq	%rdx, %rcx
	movq	%rax, %rdx
	callq	L_15
	jmp	.LBB10_22
.LBB10_20:
	movq	%rax, %rdx
	callq	L_16
.LBB10_22:
	addq	%rbx, %rdx
	cmpb	$1, %al
	movq	%r15, %rax
	cmoveq	%r14, %rax
	cmoveq	%rdx, %rbx
.LBB10_23:
	movq	%rbx, %rdx
	popq	%rbx
	popq	%r14
	popq	%r15
	retq
.Lfunc_end10:

	.section	.rdata$004,"dr"
	.p2align	4, 0x0
.LCPI11_0:
	.zero	16,192
.LCPI11_1:
	.zero	16,63
.LCPI11_2:
	.zero	16,127
.LCPI11_3:
	.zero	16,191
.LCPI11_4:
	.zero	16,254
	.section	.text$015,"xr"
	.p2align	4
L_15:
	pushq	%r14
	pushq	%rbx
	movq	%rcx, %rax
	movq	%rsi, %rcx
	subq	%rdx, %rcx
	pxor	%xmm0, %xmm0
	xorl	%r8d, %r8d
	cmpq	$16, %rcx
	jae	.LBB11_1
.LBB11_7:
	cmpq	%rsi, %rdx
	je	.LBB11_12
	leaq	-16(%rsi), %rcx
	movdqu	-16(%rdi,%rsi), %xmm1
	cmpq	$3, %rcx
	jb	.LBB11_10
	movdqu	-1(%rdi,%rcx), %xmm4
	jmp	.LBB11_11
	.p2align	4
.LBB11_2:
	movdqu	-1(%rdi,%rdx), %xmm4
.LBB11_6:
	movdqa	.LCPI11_0(%rip), %xmm5
	movdqa	%xmm4, %xmm3
	psubusb	%xmm5, %xmm3
	movdqa	%xmm3, %xmm2
	psrlw	$2, %xmm2
	pand	.LCPI11_1(%rip), %xmm2
	movdqa	.LCPI11_2(%rip), %xmm6
	pand	%xmm1, %xmm6
	psllw	$6, %xmm3
	pand	%xmm5, %xmm3
	paddb	%xmm6, %xmm3
	movdqa	.LCPI11_3(%rip), %xmm6
	pminub	%xmm1, %xmm6
	pcmpeqb	%xmm1, %xmm6
	pmovmskb	%xmm6, %r9d
	movdqa	%xmm5, %xmm6
	pcmpgtb	%xmm1, %xmm6
	movdqa	%xmm4, %xmm7
	pmaxub	%xmm5, %xmm7
	pcmpeqb	%xmm4, %xmm7
	pxor	%xmm6, %xmm7
	pand	.LCPI11_4(%rip), %xmm1
	pcmpeqb	%xmm5, %xmm1
	por	%xmm7, %xmm1
	pmaxub	%xmm1, %xmm0
	movdqa	%xmm2, %xmm1
	punpckhbw	%xmm3, %xmm1
	punpcklbw	%xmm3, %xmm2
	movzbl	%r9b, %r10d
	xorl	%r11d, %r11d
	popcntl	%r10d, %r11d
	shll	$4, %r10d
	leaq	.Lstatic.13(%rip), %rbx
	movdqu	(%r10,%rbx), %xmm3
	pshufb	%xmm3, %xmm2
	leaq	(%rax,%r8), %r10
	movdqu	%xmm2, (%rax,%r8)
	shrl	$8, %r9d
	xorl	%r14d, %r14d
	popcntl	%r9d, %r14d
	shll	$4, %r9d
	movdqu	(%r9,%rbx), %xmm2
	pshufb	%xmm2, %xmm1
	movdqu	%xmm1, (%r10,%r11,2)
	addl	%r11d, %r14d
	leaq	(%r8,%r14,2), %r8
	addq	$16, %rdx
	addq	$-16, %rcx
	cmpq	$15, %rcx
	jbe	.LBB11_7
.LBB11_1:
	movdqu	(%rdi,%rdx), %xmm1
	cmpq	$3, %rdx
	jae	.LBB11_2
	testq	%rdx, %rdx
	je	.LBB11_4
	movzbl	-1(%rdi,%rdx), %r9d
	movd	%r9d, %xmm2
	pslldq	$15, %xmm2
	movdqa	%xmm1, %xmm4
	palignr	$15, %xmm2, %xmm4
	jmp	.LBB11_6
.LBB11_4:
	movdqa	%xmm1, %xmm4
	pslldq	$1, %xmm4
	jmp	.LBB11_6
.LBB11_10:
	movzbl	-17(%rdi,%rsi), %r9d
	movd	%r9d, %xmm2
	pslldq	$15, %xmm2
	movdqa	%xmm1, %xmm4
	palignr	$15, %xmm2, %xmm4
.LBB11_11:
	movdqa	.LCPI11_0(%rip), %xmm5
	movdqa	%xmm4, %xmm3
	psubusb	%xmm5, %xmm3
	movdqa	%xmm3, %xmm2
	psrlw	$2, %xmm2
	pand	.LCPI11_1(%rip), %xmm2
	movdqa	.LCPI11_2(%rip), %xmm6
	pand	%xmm1, %xmm6
	psllw	$6, %xmm3
	pand	%xmm5, %xmm3
	paddb	%xmm6, %xmm3
	movdqa	.LCPI11_3(%rip), %xmm6
	pminub	%xmm1, %xmm6
	pcmpeqb	%xmm1, %xmm6
	pmovmskb	%xmm6, %r9d
	movdqa	%xmm5, %xmm6
	pcmpgtb	%xmm1, %xmm6
	movdqa	%xmm4, %xmm7
	pmaxub	%xmm5, %xmm7
	pcmpeqb	%xmm4, %xmm7
	pxor	%xmm6, %xmm7
	pand	.LCPI11_4(%rip), %xmm1
	pcmpeqb	%xmm5, %xmm1
	por	%xmm7, %xmm1
	subl	%ecx, %edx
	movdqa	%xmm2, %xmm4
	movq	$-1, %r10
	movl	%edx, %ecx
	shlq	%cl, %r10
	punpckhbw	%xmm3, %xmm4
	punpcklbw	%xmm3, %xmm2
	andl	%r9d, %r10d
	movzbl	%r10b, %ecx
	xorl	%edx, %edx
	popcntl	%ecx, %edx
	shll	$4, %ecx
	leaq	.Lstatic.13(%rip), %r9
	movdqu	(%rcx,%r9), %xmm3
	pshufb	%xmm3, %xmm2
	movdqu	%xmm2, (%rax,%r8)
	addq	%r8, %rax
	shrl	$8, %r10d
	xorl	%ecx, %ecx
	popcntl	%r10d, %ecx
	shll	$4, %r10d
	movdqu	(%r10,%r9), %xmm2
	pshufb	%xmm2, %xmm4
	movdqu	%xmm4, (%rax,%rdx,2)
	addl	%edx, %ecx
	leaq	(%r8,%rcx,2), %r8
	pmaxub	%xmm1, %xmm0
.LBB11_12:
	ptest	%xmm0, %xmm0
	je	.LBB11_14
	xorl	%edx, %edx
	xorl	%eax, %eax
	popq	%rbx
	popq	%r14
	retq
.LBB11_14:
	cmpb	$-65, -1(%rdi,%rsi)
	jbe	.LBB11_16
	leaq	-1(%rsi), %rax
	jmp	.LBB11_19
.LBB11_16:
	cmpb	$-33, -2(%rdi,%rsi)
	jbe	.LBB11_18
	leaq	-2(%rsi), %rax
	jmp	.LBB11_19
.LBB11_18:
	leaq	-3(%rsi), %rax
	cmpb	$-16, -3(%rdi,%rsi)
	cmovbq	%rsi, %rax
.LBB11_19:
	xorl	%edx, %edx
	cmpq	%rsi, %rax
	setae	%al
	cmovaeq	%r8, %rdx
	popq	%rbx
	popq	%r14
	retq
.Lfunc_end11:

	.section	.rdata$004,"dr"
	.p2align	4, 0x0
.LCPI12_0:
	.zero	16,192
.LCPI12_1:
	.zero	16,224
.LCPI12_2:
	.zero	16,15
.LCPI12_3:
	.zero	16,240
.LCPI12_4:
	.zero	16,127
.LCPI12_5:
	.zero	16,191
.LCPI12_6:
	.zero	16,223
.LCPI12_7:
	.zero	16,254
.LCPI12_8:
	.zero	16,159
.LCPI12_9:
	.zero	16,237
	.section	.text$016,"xr"
	.p2align	4
L_16:
	pushq	%r14
	pushq	%rbx
	movq	%rcx, %rax
	movq	%rsi, %rcx
	subq	%rdx, %rcx
	pxor	%xmm2, %xmm2
	xorl	%r8d, %r8d
	cmpq	$16, %rcx
	jae	.LBB12_6
.LBB12_1:
	cmpq	%rsi, %rdx
	je	.LBB12_18
	leaq	-16(%rsi), %rcx
	movdqu	-16(%rdi,%rsi), %xmm0
	cmpq	$3, %rcx
	jb	.LBB12_13
	movdqu	-2(%rdi,%rcx), %xmm6
	movdqu	-1(%rdi,%rcx), %xmm3
	jmp	.LBB12_17
	.p2align	4
.LBB12_4:
	movdqu	-2(%rdi,%rdx), %xmm1
	movdqu	-1(%rdi,%rdx), %xmm3
.LBB12_5:
	movdqa	.LCPI12_0(%rip), %xmm7
	movdqa	%xmm7, %xmm5
	pblendvb	%xmm0, %xmm3, %xmm5
	movdqa	.LCPI12_1(%rip), %xmm6
	movdqa	%xmm1, %xmm4
	pmaxub	%xmm6, %xmm4
	movdqa	%xmm5, %xmm8
	psrlw	$2, %xmm8
	pand	.LCPI12_2(%rip), %xmm8
	psllw	$4, %xmm4
	pand	.LCPI12_3(%rip), %xmm4
	por	%xmm8, %xmm4
	movdqa	.LCPI12_4(%rip), %xmm8
	pand	%xmm0, %xmm8
	psllw	$6, %xmm5
	pand	%xmm7, %xmm5
	paddb	%xmm8, %xmm5
	movdqa	.LCPI12_5(%rip), %xmm8
	movdqa	%xmm0, %xmm9
	pminub	%xmm8, %xmm9
	pcmpeqb	%xmm0, %xmm9
	movdqa	.LCPI12_6(%rip), %xmm10
	movdqa	%xmm3, %xmm11
	pminub	%xmm10, %xmm11
	pcmpeqb	%xmm3, %xmm11
	pand	%xmm9, %xmm11
	pmovmskb	%xmm11, %r9d
	movdqa	.LCPI12_7(%rip), %xmm9
	pand	%xmm0, %xmm9
	pcmpeqb	%xmm7, %xmm9
	pcmpgtb	%xmm0, %xmm7
	movdqa	%xmm3, %xmm11
	psubusb	%xmm8, %xmm11
	psubusb	%xmm10, %xmm1
	por	%xmm11, %xmm1
	pxor	%xmm8, %xmm8
	pcmpgtb	%xmm8, %xmm1
	pxor	%xmm7, %xmm1
	por	%xmm1, %xmm9
	movdqa	.LCPI12_8(%rip), %xmm1
	pminub	%xmm0, %xmm1
	pcmpeqb	%xmm0, %xmm1
	movdqa	.LCPI12_9(%rip), %xmm7
	movdqa	%xmm1, %xmm0
	pblendvb	%xmm0, %xmm6, %xmm7
	pcmpeqb	%xmm3, %xmm7
	por	%xmm9, %xmm7
	pmaxub	%xmm7, %xmm2
	movdqa	%xmm4, %xmm0
	punpckhbw	%xmm5, %xmm0
	punpcklbw	%xmm5, %xmm4
	movzbl	%r9b, %r10d
	popcntl	%r10d, %r11d
	shll	$4, %r10d
	leaq	.Lstatic.13(%rip), %rbx
	movdqu	(%r10,%rbx), %xmm1
	pshufb	%xmm1, %xmm4
	leaq	(%rax,%r8), %r10
	movdqu	%xmm4, (%rax,%r8)
	shrl	$8, %r9d
	popcntl	%r9d, %r14d
	shll	$4, %r9d
	movdqu	(%r9,%rbx), %xmm1
	pshufb	%xmm1, %xmm0
	movdqu	%xmm0, (%r10,%r11,2)
	addl	%r11d, %r14d
	leaq	(%r8,%r14,2), %r8
	addq	$16, %rdx
	addq	$-16, %rcx
	cmpq	$15, %rcx
	jbe	.LBB12_1
.LBB12_6:
	movdqu	(%rdi,%rdx), %xmm0
	cmpq	$3, %rdx
	jae	.LBB12_4
	testq	%rdx, %rdx
	je	.LBB12_10
	movzbl	-1(%rdi,%rdx), %r9d
	movd	%r9d, %xmm1
	pslldq	$15, %xmm1
	movdqa	%xmm0, %xmm3
	palignr	$15, %xmm1, %xmm3
	cmpq	$2, %rdx
	jne	.LBB12_11
	movzbl	(%rdi), %r9d
	jmp	.LBB12_12
.LBB12_10:
	movdqa	%xmm0, %xmm3
	pslldq	$1, %xmm3
.LBB12_11:
	xorl	%r9d, %r9d
.LBB12_12:
	movzbl	%r9b, %r9d
	movd	%r9d, %xmm4
	pslldq	$15, %xmm4
	movdqa	%xmm3, %xmm1
	palignr	$15, %xmm4, %xmm1
	jmp	.LBB12_5
.LBB12_13:
	movzbl	-17(%rdi,%rsi), %r9d
	movd	%r9d, %xmm1
	pslldq	$15, %xmm1
	movdqa	%xmm0, %xmm3
	palignr	$15, %xmm1, %xmm3
	cmpq	$2, %rcx
	jne	.LBB12_15
	movzbl	(%rdi), %r9d
	jmp	.LBB12_16
.LBB12_15:
	xorl	%r9d, %r9d
.LBB12_16:
	movzbl	%r9b, %r9d
	movd	%r9d, %xmm1
	pslldq	$15, %xmm1
	movdqa	%xmm3, %xmm6
	palignr	$15, %xmm1, %xmm6
.LBB12_17:
	movdqa	.LCPI12_0(%rip), %xmm1
	movdqa	%xmm1, %xmm5
	pblendvb	%xmm0, %xmm3, %xmm5
	movdqa	.LCPI12_1(%rip), %xmm7
	movdqa	%xmm6, %xmm4
	pmaxub	%xmm7, %xmm4
	movdqa	%xmm5, %xmm8
	psrlw	$2, %xmm8
	pand	.LCPI12_2(%rip), %xmm8
	psllw	$4, %xmm4
	pand	.LCPI12_3(%rip), %xmm4
	por	%xmm8, %xmm4
	movdqa	.LCPI12_4(%rip), %xmm8
	pand	%xmm0, %xmm8
	psllw	$6, %xmm5
	pand	%xmm1, %xmm5
	paddb	%xmm8, %xmm5
	movdqa	.LCPI12_5(%rip), %xmm8
	movdqa	%xmm0, %xmm9
	pminub	%xmm8, %xmm9
	pcmpeqb	%xmm0, %xmm9
	movdqa	.LCPI12_6(%rip), %xmm10
	movdqa	%xmm3, %xmm11
	pminub	%xmm10, %xmm11
	pcmpeqb	%xmm3, %xmm11
	pand	%xmm9, %xmm11
	pmovmskb	%xmm11, %r9d
	movdqa	.LCPI12_7(%rip), %xmm9
	pand	%xmm0, %xmm9
	pcmpeqb	%xmm1, %xmm9
	pcmpgtb	%xmm0, %xmm1
	movdqa	%xmm3, %xmm11
	psubusb	%xmm8, %xmm11
	psubusb	%xmm10, %xmm6
	por	%xmm11, %xmm6
	pxor	%xmm8, %xmm8
	pcmpgtb	%xmm8, %xmm6
	pxor	%xmm1, %xmm6
	movdqa	.LCPI12_8(%rip), %xmm1
	pminub	%xmm0, %xmm1
	pcmpeqb	%xmm0, %xmm1
	movdqa	.LCPI12_9(%rip), %xmm8
	movdqa	%xmm1, %xmm0
	pblendvb	%xmm0, %xmm7, %xmm8
	pcmpeqb	%xmm3, %xmm8
	por	%xmm9, %xmm8
	por	%xmm6, %xmm8
	subl	%ecx, %edx
	movdqa	%xmm4, %xmm0
	movq	$-1, %r10
	movl	%edx, %ecx
	shlq	%cl, %r10
	punpckhbw	%xmm5, %xmm0
	punpcklbw	%xmm5, %xmm4
	andl	%r9d, %r10d
	movzbl	%r10b, %ecx
	xorl	%edx, %edx
	popcntl	%ecx, %edx
	shll	$4, %ecx
	leaq	.Lstatic.13(%rip), %r9
	movdqu	(%rcx,%r9), %xmm1
	pshufb	%xmm1, %xmm4
	movdqu	%xmm4, (%rax,%r8)
	addq	%r8, %rax
	shrl	$8, %r10d
	xorl	%ecx, %ecx
	popcntl	%r10d, %ecx
	shll	$4, %r10d
	movdqu	(%r10,%r9), %xmm1
	pshufb	%xmm1, %xmm0
	movdqu	%xmm0, (%rax,%rdx,2)
	addl	%edx, %ecx
	leaq	(%r8,%rcx,2), %r8
	pmaxub	%xmm8, %xmm2
.LBB12_18:
	ptest	%xmm2, %xmm2
	je	.LBB12_20
	xorl	%edx, %edx
	xorl	%eax, %eax
	popq	%rbx
	popq	%r14
	retq
.LBB12_20:
	cmpb	$-65, -1(%rdi,%rsi)
	jbe	.LBB12_22
	leaq	-1(%rsi), %rax
	jmp	.LBB12_25
.LBB12_22:
	cmpb	$-33, -2(%rdi,%rsi)
	jbe	.LBB12_24
	leaq	-2(%rsi), %rax
	jmp	.LBB12_25
.LBB12_24:
	leaq	-3(%rsi), %rax
	cmpb	$-16, -3(%rdi,%rsi)
	cmovbq	%rsi, %rax
.LBB12_25:
	xorl	%edx, %edx
	cmpq	%rsi, %rax
	setae	%al
	cmovaeq	%r8, %rdx
	popq	%rbx
	popq	%r14
	retq
.Lfunc_end12:

	.section	.rdata$004,"dr"
	.p2align	4, 0x0
.LCPI13_0:
	.zero	16,192
.LCPI13_1:
	.zero	16,224
.LCPI13_2:
	.zero	16,15
.LCPI13_3:
	.zero	16,191
.LCPI13_4:
	.zero	16,220
.LCPI13_5:
	.zero	16,252
.LCPI13_6:
	.zero	16,3
.LCPI13_7:
	.zero	16,63
.LCPI13_8:
	.zero	16,232
.LCPI13_9:
	.zero	16,239
.LCPI13_10:
	.zero	16,127
.LCPI13_11:
	.zero	16,223
.LCPI13_12:
	.zero	16,159
.LCPI13_13:
	.zero	16,237
.LCPI13_14:
	.zero	16,143
.LCPI13_15:
	.zero	16,245
.LCPI13_16:
	.zero	16,244
.LCPI13_17:
	.zero	16,240
.LCPI13_18:
	.zero	16,254
	.section	.text$017,"xr"
	.p2align	4
L_14:
	pushq	%r14
	pushq	%rbx
	movq	%rcx, %rax
	movq	%rsi, %rcx
	subq	%rdx, %rcx
	pxor	%xmm2, %xmm2
	xorl	%r8d, %r8d
	cmpq	$16, %rcx
	jae	.LBB13_6
.LBB13_1:
	cmpq	%rsi, %rdx
	je	.LBB13_24
	leaq	-16(%rsi), %rcx
	movdqu	-16(%rdi,%rsi), %xmm1
	cmpq	$3, %rcx
	jb	.LBB13_16
	movdqu	-3(%rdi,%rcx), %xmm4
	movdqu	-2(%rdi,%rcx), %xmm7
	movdqu	-1(%rdi,%rcx), %xmm3
	jmp	.LBB13_20
	.p2align	4
.LBB13_4:
	movdqa	.LCPI13_0(%rip), %xmm6
	movdqa	%xmm6, %xmm10
	movdqa	%xmm1, %xmm0
	pblendvb	%xmm0, %xmm3, %xmm10
	movdqa	.LCPI13_1(%rip), %xmm9
	movdqa	%xmm7, %xmm0
	pmaxub	%xmm9, %xmm0
	movdqa	%xmm10, %xmm5
	psrlw	$2, %xmm5
	movdqa	.LCPI13_2(%rip), %xmm8
	pand	%xmm8, %xmm5
	psllw	$4, %xmm0
	pandn	%xmm0, %xmm8
	por	%xmm5, %xmm8
	movdqa	%xmm10, %xmm0
	pmaxub	%xmm7, %xmm0
	movdqa	.LCPI13_3(%rip), %xmm11
	movdqa	%xmm0, %xmm14
	pminub	%xmm11, %xmm14
	pcmpeqb	%xmm0, %xmm14
	pand	.LCPI13_4(%rip), %xmm14
	por	%xmm8, %xmm14
	movdqa	%xmm3, %xmm0
	psllw	$2, %xmm0
	pand	.LCPI13_5(%rip), %xmm0
	movdqa	%xmm1, %xmm8
	psrlw	$4, %xmm8
	pand	.LCPI13_6(%rip), %xmm8
	pxor	%xmm12, %xmm12
	movdqa	.LCPI13_7(%rip), %xmm5
	pminub	%xmm0, %xmm5
	pcmpeqb	%xmm0, %xmm5
	paddb	%xmm7, %xmm5
	paddb	.LCPI13_8(%rip), %xmm5
	por	%xmm0, %xmm8
	paddb	%xmm6, %xmm8
	movdqa	.LCPI13_9(%rip), %xmm13
	movdqa	%xmm7, %xmm0
	pminub	%xmm13, %xmm0
	pcmpeqb	%xmm7, %xmm0
	pblendvb	%xmm0, %xmm14, %xmm5
	movdqa	.LCPI13_10(%rip), %xmm14
	pand	%xmm1, %xmm14
	psllw	$6, %xmm10
	pand	%xmm6, %xmm10
	paddb	%xmm14, %xmm10
	pblendvb	%xmm0, %xmm10, %xmm8
	movdqa	%xmm1, %xmm0
	pminub	%xmm11, %xmm0
	pcmpeqb	%xmm1, %xmm0
	movdqa	.LCPI13_11(%rip), %xmm10
	movdqa	%xmm3, %xmm14
	pminub	%xmm10, %xmm14
	pcmpeqb	%xmm3, %xmm14
	pand	%xmm0, %xmm14
	pmovmskb	%xmm14, %r9d
	movdqa	%xmm6, %xmm0
	pcmpgtb	%xmm1, %xmm0
	movdqa	%xmm3, %xmm14
	psubusb	%xmm11, %xmm14
	psubusb	%xmm10, %xmm7
	pmaxub	%xmm14, %xmm7
	psubusb	%xmm13, %xmm4
	por	%xmm7, %xmm4
	pcmpgtb	%xmm12, %xmm4
	pxor	%xmm0, %xmm4
	movdqa	.LCPI13_12(%rip), %xmm0
	pminub	%xmm1, %xmm0
	pcmpeqb	%xmm1, %xmm0
	movdqa	.LCPI13_13(%rip), %xmm7
	pblendvb	%xmm0, %xmm9, %xmm7
	pcmpeqb	%xmm3, %xmm7
	movdqa	.LCPI13_14(%rip), %xmm0
	pminub	%xmm1, %xmm0
	pcmpeqb	%xmm1, %xmm0
	movdqa	.LCPI13_15(%rip), %xmm9
	pmaxub	%xmm1, %xmm9
	pcmpeqb	%xmm1, %xmm9
	por	%xmm7, %xmm9
	movdqa	.LCPI13_16(%rip), %xmm7
	pblendvb	%xmm0, .LCPI13_17(%rip), %xmm7
	pcmpeqb	%xmm3, %xmm7
	pand	.LCPI13_18(%rip), %xmm1
	pcmpeqb	%xmm6, %xmm1
	por	%xmm4, %xmm1
	por	%xmm9, %xmm1
	por	%xmm7, %xmm1
	pmaxub	%xmm1, %xmm2
	movdqa	%xmm8, %xmm1
.LBB13_5:
	movdqa	%xmm5, %xmm0
	punpckhbw	%xmm1, %xmm0
	punpcklbw	%xmm1, %xmm5
	movzbl	%r9b, %r10d
	xorl	%r11d, %r11d
	popcntl	%r10d, %r11d
	shll	$4, %r10d
	leaq	.Lstatic.13(%rip), %rbx
	movdqu	(%r10,%rbx), %xmm1
	pshufb	%xmm1, %xmm5
	leaq	(%rax,%r8), %r10
	movdqu	%xmm5, (%rax,%r8)
	shrl	$8, %r9d
	xorl	%r14d, %r14d
	popcntl	%r9d, %r14d
	shll	$4, %r9d
	movdqu	(%r9,%rbx), %xmm1
	pshufb	%xmm1, %xmm0
	movdqu	%xmm0, (%r10,%r11,2)
	addl	%r11d, %r14d
	leaq	(%r8,%r14,2), %r8
	addq	$16, %rdx
	addq	$-16, %rcx
	cmpq	$15, %rcx
	jbe	.LBB13_1
.LBB13_6:
	movdqu	(%rdi,%rdx), %xmm1
	cmpq	$3, %rdx
	jb	.LBB13_8
	movdqu	-3(%rdi,%rdx), %xmm4
	movdqu	-2(%rdi,%rdx), %xmm7
	movdqu	-1(%rdi,%rdx), %xmm3
	jmp	.LBB13_14
	.p2align	4
.LBB13_8:
	testq	%rdx, %rdx
	je	.LBB13_11
	movzbl	-1(%rdi,%rdx), %r9d
	movd	%r9d, %xmm0
	pslldq	$15, %xmm0
	movdqa	%xmm1, %xmm3
	palignr	$15, %xmm0, %xmm3
	cmpq	$2, %rdx
	jne	.LBB13_12
	movzbl	(%rdi), %r9d
	jmp	.LBB13_13
.LBB13_11:
	movdqa	%xmm1, %xmm3
	pslldq	$1, %xmm3
.LBB13_12:
	xorl	%r9d, %r9d
.LBB13_13:
	movzbl	%r9b, %r9d
	movd	%r9d, %xmm0
	pslldq	$15, %xmm0
	movdqa	%xmm3, %xmm7
	palignr	$15, %xmm0, %xmm7
	movdqa	%xmm7, %xmm4
	pslldq	$1, %xmm4
.LBB13_14:
	movdqa	%xmm4, %xmm0
	por	%xmm1, %xmm0
	pmovmskb	%xmm0, %r9d
	testl	%r9d, %r9d
	jne	.LBB13_4
	pxor	%xmm5, %xmm5
	movl	$65535, %r9d
	jmp	.LBB13_5
.LBB13_16:
	movzbl	-17(%rdi,%rsi), %r9d
	movd	%r9d, %xmm0
	pslldq	$15, %xmm0
	movdqa	%xmm1, %xmm3
	palignr	$15, %xmm0, %xmm3
	cmpq	$2, %rcx
	jne	.LBB13_18
	movzbl	(%rdi), %r9d
	jmp	.LBB13_19
.LBB13_18:
	xorl	%r9d, %r9d
.LBB13_19:
	movzbl	%r9b, %r9d
	movd	%r9d, %xmm0
	pslldq	$15, %xmm0
	movdqa	%xmm3, %xmm7
	palignr	$15, %xmm0, %xmm7
	movdqa	%xmm7, %xmm4
	pslldq	$1, %xmm4
.LBB13_20:
	movdqa	%xmm4, %xmm0
	por	%xmm1, %xmm0
	pmovmskb	%xmm0, %r9d
	testl	%r9d, %r9d
	je	.LBB13_22
	movdqa	.LCPI13_0(%rip), %xmm6
	movdqa	%xmm6, %xmm10
	movdqa	%xmm1, %xmm0
	pblendvb	%xmm0, %xmm3, %xmm10
	movdqa	.LCPI13_1(%rip), %xmm9
	movdqa	%xmm7, %xmm0
	pmaxub	%xmm9, %xmm0
	movdqa	%xmm10, %xmm5
	psrlw	$2, %xmm5
	movdqa	.LCPI13_2(%rip), %xmm8
	pand	%xmm8, %xmm5
	psllw	$4, %xmm0
	pandn	%xmm0, %xmm8
	por	%xmm5, %xmm8
	movdqa	%xmm10, %xmm0
	pmaxub	%xmm7, %xmm0
	movdqa	.LCPI13_3(%rip), %xmm11
	movdqa	%xmm0, %xmm14
	pminub	%xmm11, %xmm14
	pcmpeqb	%xmm0, %xmm14
	pand	.LCPI13_4(%rip), %xmm14
	por	%xmm8, %xmm14
	movdqa	%xmm3, %xmm0
	psllw	$2, %xmm0
	pand	.LCPI13_5(%rip), %xmm0
	movdqa	%xmm1, %xmm8
	psrlw	$4, %xmm8
	pand	.LCPI13_6(%rip), %xmm8
	pxor	%xmm12, %xmm12
	movdqa	.LCPI13_7(%rip), %xmm5
	pminub	%xmm0, %xmm5
	pcmpeqb	%xmm0, %xmm5
	paddb	%xmm7, %xmm5
	paddb	.LCPI13_8(%rip), %xmm5
	por	%xmm0, %xmm8
	paddb	%xmm6, %xmm8
	movdqa	.LCPI13_9(%rip), %xmm13
	movdqa	%xmm7, %xmm0
	pminub	%xmm13, %xmm0
	pcmpeqb	%xmm7, %xmm0
	pblendvb	%xmm0, %xmm14, %xmm5
	movdqa	.LCPI13_10(%rip), %xmm14
	pand	%xmm1, %xmm14
	psllw	$6, %xmm10
	pand	%xmm6, %xmm10
	paddb	%xmm14, %xmm10
	pblendvb	%xmm0, %xmm10, %xmm8
	movdqa	%xmm1, %xmm0
	pminub	%xmm11, %xmm0
	pcmpeqb	%xmm1, %xmm0
	movdqa	.LCPI13_11(%rip), %xmm10
	movdqa	%xmm3, %xmm14
	pminub	%xmm10, %xmm14
	pcmpeqb	%xmm3, %xmm14
	pand	%xmm0, %xmm14
	pmovmskb	%xmm14, %r9d
	movdqa	%xmm6, %xmm0
	pcmpgtb	%xmm1, %xmm0
	movdqa	%xmm3, %xmm14
	psubusb	%xmm11, %xmm14
	psubusb	%xmm10, %xmm7
	pmaxub	%xmm14, %xmm7
	psubusb	%xmm13, %xmm4
	por	%xmm7, %xmm4
	pcmpgtb	%xmm12, %xmm4
	pxor	%xmm0, %xmm4
	movdqa	.LCPI13_12(%rip), %xmm0
	pminub	%xmm1, %xmm0
	pcmpeqb	%xmm1, %xmm0
	movdqa	.LCPI13_13(%rip), %xmm7
	pblendvb	%xmm0, %xmm9, %xmm7
	pcmpeqb	%xmm3, %xmm7
	movdqa	.LCPI13_14(%rip), %xmm0
	pminub	%xmm1, %xmm0
	pcmpeqb	%xmm1, %xmm0
	movdqa	.LCPI13_15(%rip), %xmm9
	pmaxub	%xmm1, %xmm9
	pcmpeqb	%xmm1, %xmm9
	por	%xmm7, %xmm9
	movdqa	.LCPI13_16(%rip), %xmm7
	pblendvb	%xmm0, .LCPI13_17(%rip), %xmm7
	pcmpeqb	%xmm3, %xmm7
	pand	.LCPI13_18(%rip), %xmm1
	pcmpeqb	%xmm6, %xmm1
	por	%xmm4, %xmm1
	por	%xmm9, %xmm1
	por	%xmm7, %xmm1
	pmaxub	%xmm1, %xmm2
	movdqa	%xmm8, %xmm1
	jmp	.LBB13_23
.LBB13_22:
	pxor	%xmm5, %xmm5
	movl	$65535, %r9d
.LBB13_23:
	subl	%ecx, %edx
	movdqa	%xmm5, %xmm0
	punpckhbw	%xmm1, %xmm0
	punpcklbw	%xmm1, %xmm5
	movq	$-1, %r10
	movl	%edx, %ecx
	shlq	%cl, %r10
	andl	%r10d, %r9d
	movzbl	%r9b, %ecx
	xorl	%edx, %edx
	popcntl	%ecx, %edx
	shll	$4, %ecx
	leaq	.Lstatic.13(%rip), %r10
	movdqu	(%rcx,%r10), %xmm1
	pshufb	%xmm1, %xmm5
	movdqu	%xmm5, (%rax,%r8)
	addq	%r8, %rax
	shrl	$8, %r9d
	xorl	%ecx, %ecx
	popcntl	%r9d, %ecx
	shll	$4, %r9d
	movdqu	(%r9,%r10), %xmm1
	pshufb	%xmm1, %xmm0
	movdqu	%xmm0, (%rax,%rdx,2)
	addl	%edx, %ecx
	leaq	(%r8,%rcx,2), %r8
.LBB13_24:
	ptest	%xmm2, %xmm2
	je	.LBB13_26
	xorl	%edx, %edx
	xorl	%eax, %eax
	popq	%rbx
	popq	%r14
	retq
.LBB13_26:
	cmpb	$-65, -1(%rdi,%rsi)
	jbe	.LBB13_28
	leaq	-1(%rsi), %rax
	jmp	.LBB13_31
.LBB13_28:
	cmpb	$-33, -2(%rdi,%rsi)
	jbe	.LBB13_30
	leaq	-2(%rsi), %rax
	jmp	.LBB13_31
.LBB13_30:
	leaq	-3(%rsi), %rax
	cmpb	$-16, -3(%rdi,%rsi)
	cmovbq	%rsi, %rax
.LBB13_31:
	xorl	%edx, %edx
	cmpq	%rsi, %rax
	setae	%al
	cmovaeq	%r8, %rdx
	popq	%rbx
	popq	%r14
	retq
.Lfunc_end13:

	.section	.rdata$004,"dr"
	.p2align	4, 0x0
.LCPI14_0:
	.zero	16,192
.LCPI14_1:
	.zero	16,191
.LCPI14_2:
	.zero	16,223
.LCPI14_3:
	.zero	16,239
.LCPI14_4:
	.zero	16,159
.LCPI14_5:
	.zero	16,237
.LCPI14_6:
	.zero	16,224
.LCPI14_7:
	.zero	16,143
.LCPI14_8:
	.zero	16,245
.LCPI14_9:
	.zero	16,244
.LCPI14_10:
	.zero	16,240
.LCPI14_11:
	.zero	16,254
.LCPI14_12:
	.zero	16,15
.LCPI14_13:
	.zero	16,220
.LCPI14_14:
	.zero	16,252
.LCPI14_15:
	.zero	16,3
.LCPI14_16:
	.zero	16,63
.LCPI14_17:
	.zero	16,232
.LCPI14_18:
	.zero	16,127
.LCPI14_19:
	.byte	1
	.byte	2
	.byte	3
	.byte	4
	.byte	5
	.byte	6
	.byte	7
	.byte	8
	.byte	9
	.byte	10
	.byte	11
	.byte	12
	.byte	13
	.byte	14
	.byte	15
	.byte	16
	.section	.text$018,"xr"
	.p2align	4
L_9:
	pushq	%rbp
	pushq	%r15
	pushq	%r14
	pushq	%r13
	pushq	%r12
	pushq	%rbx
	subq	$344, %rsp
	movq	%r9, %r12
	movq	%r8, %r10
	movq	%rcx, (%rsp)
	movq	%rdx, %r8
	movq	400(%rsp), %r14
	movzbl	(%rsi,%r9), %ecx
	testb	%cl, %cl
	movq	%r10, 8(%rsp)
	movq	%rdx, 16(%rsp)
	js	.LBB14_193
.LBB14_1:
	movq	%rdi, 48(%rsp)
	cmpq	%r12, %r8
	movq	(%rsp), %r11
	movq	%rsi, 24(%rsp)
	ja	.LBB14_5
.LBB14_2:
	movq	48(%rsp), %rax
	movq	%r12, (%rax)
	movq	%r14, 8(%rax)
	movw	$0, 16(%rax)
	jmp	.LBB14_231
	.p2align	4
.LBB14_3:
	leal	67043328(%rax), %edx
	shrl	$10, %edx
	addl	$-10240, %edx
	rolw	$8, %dx
	andl	$1023, %eax
	orl	$56320, %eax
	rolw	$8, %ax
	movw	%ax, 2(%r11,%r14)
	movl	$4, %ecx
	movl	%edx, %eax
.LBB14_4:
	movw	%ax, (%r11,%r14)
	addq	%rcx, %r14
	addq	%rbx, %r12
	cmpq	%r8, %r12
	jae	.LBB14_2
.LBB14_5:
	leaq	(%rsi,%r12), %r13
	movq	%r8, %rbx
	subq	%r12, %rbx
	cmpq	$16, %rbx
	jb	.LBB14_9
	leaq	(%r11,%r14), %rbp
	movq	%r10, %r15
	subq	%r14, %r15
	cmpq	$16, %rbx
	jne	.LBB14_10
	cmpq	$32, %r15
	jae	.LBB14_12
	xorl	%r9d, %r9d
	xorl	%eax, %eax
	jmp	.LBB14_32
	.p2align	4
.LBB14_9:
	xorl	%eax, %eax
	movq	%rbx, %rbp
	subq	%rax, %rbp
	jne	.LBB14_34
	jmp	.LBB14_127
	.p2align	4
.LBB14_10:
	movq	%r15, %rsi
	shrq	%rsi
	cmpq	%rbx, %rsi
	cmovaeq	%rbx, %rsi
	cmpq	$16, %rsi
	jb	.LBB14_11
	movdqu	(%r13), %xmm1
	pmovmskb	%xmm1, %eax
	testl	%eax, %eax
	je	.LBB14_21
.LBB14_11:
	xorl	%eax, %eax
.LBB14_25:
	leaq	(%rax,%rax), %r9
	movq	%rbx, %rcx
	subq	%rax, %rcx
	je	.LBB14_32
	movq	%rax, %r8
	movq	%r13, %rdi
	movq	%rbx, %rsi
	cmpq	$191, %rcx
	ja	.LBB14_28
	movq	%rbp, %rdx
	jmp	.LBB14_30
.LBB14_12:
	movdqu	(%r13), %xmm1
	pmovmskb	%xmm1, %eax
	testl	%eax, %eax
	movq	24(%rsp), %rsi
	je	.LBB14_20
	movq	8(%r13), %xmm0
	pextrb	$5, %xmm0, %eax
	xorl	%r9d, %r9d
	cmpb	$-17, %al
	ja	.LBB14_75
	pextrb	$7, %xmm0, %eax
	cmpb	$-65, %al
	ja	.LBB14_75
	pextrb	$6, %xmm0, %ecx
	movl	$0, %eax
	cmpb	$-33, %cl
	ja	.LBB14_33
	movdqa	%xmm1, %xmm2
	pslldq	$1, %xmm2
	movdqa	%xmm1, %xmm4
	pslldq	$2, %xmm4
	movdqa	%xmm1, %xmm5
	pslldq	$3, %xmm5
	movdqa	.LCPI14_0(%rip), %xmm3
	movdqa	%xmm3, %xmm6
	pcmpgtb	%xmm1, %xmm6
	movdqa	%xmm2, %xmm0
	psubusb	.LCPI14_1(%rip), %xmm0
	movdqa	%xmm4, %xmm7
	psubusb	.LCPI14_2(%rip), %xmm7
	pmaxub	%xmm0, %xmm7
	psubusb	.LCPI14_3(%rip), %xmm5
	por	%xmm7, %xmm5
	pxor	%xmm7, %xmm7
	movdqa	.LCPI14_4(%rip), %xmm0
	pminub	%xmm1, %xmm0
	pcmpeqb	%xmm1, %xmm0
	movdqa	.LCPI14_5(%rip), %xmm8
	pblendvb	%xmm0, .LCPI14_6(%rip), %xmm8
	pcmpgtb	%xmm7, %xmm5
	pxor	%xmm6, %xmm5
	pcmpeqb	%xmm2, %xmm8
	movdqa	.LCPI14_7(%rip), %xmm0
	pminub	%xmm1, %xmm0
	pcmpeqb	%xmm1, %xmm0
	movdqa	.LCPI14_8(%rip), %xmm6
	movdqa	.LCPI14_9(%rip), %xmm7
	pblendvb	%xmm0, .LCPI14_10(%rip), %xmm7
	pmaxub	%xmm1, %xmm6
	pcmpeqb	%xmm1, %xmm6
	pcmpeqb	%xmm2, %xmm7
	por	%xmm8, %xmm7
	por	%xmm6, %xmm7
	movdqa	.LCPI14_11(%rip), %xmm0
	pand	%xmm1, %xmm0
	pcmpeqb	%xmm3, %xmm0
	por	%xmm5, %xmm0
	por	%xmm7, %xmm0
	pmovmskb	%xmm0, %eax
	testl	%eax, %eax
	je	.LBB14_78
	xorl	%r9d, %r9d
	xorl	%eax, %eax
	jmp	.LBB14_33
.LBB14_28:
	movq	%rbp, %rdx
	movq	%r15, %rcx
	callq	L_12
	movq	%rdx, %r9
	movq	%rbx, %rcx
	subq	%rax, %rcx
	cmpq	$191, %rcx
	ja	.LBB14_31
	movq	%r13, %rdi
	movq	%rbx, %rsi
	movq	%rbp, %rdx
	movq	%rax, %r8
.LBB14_30:
	movq	%r15, %rcx
	callq	L_13
	movq	%rdx, %r9
.LBB14_31:
	movq	8(%rsp), %r10
	movq	16(%rsp), %r8
	movq	(%rsp), %r11
.LBB14_32:
	movq	24(%rsp), %rsi
.LBB14_33:
	addq	%r9, %r14
	movq	%rbx, %rbp
	subq	%rax, %rbp
	je	.LBB14_127
.LBB14_34:
	movq	%rax, 32(%rsp)
	addq	%rax, %r13
	cmpq	$7, %rbp
	ja	.LBB14_36
	movq	%r13, %rdi
	movq	%rbp, %rsi
	movq	%r11, %rdx
	movq	%r10, %rcx
	movq	%r14, %r8
	callq	L_17
	movq	(%rsp), %r11
	movq	16(%rsp), %r8
	movq	8(%rsp), %r10
	movq	%rax, %rbx
	movq	%rdx, %r15
	jmp	.LBB14_47
	.p2align	4
.LBB14_36:
	cmpq	$128, %rbp
	movl	$128, %r15d
	cmovbq	%rbp, %r15
	movq	%r10, %rbx
	subq	%r14, %rbx
	xorl	%eax, %eax
	movq	%rbx, %rcx
	subq	$16, %rcx
	cmovaeq	%rcx, %rax
	shrq	%rax
	cmpq	%rax, %r15
	jbe	.LBB14_40
	cmpq	$23, %rbx
	ja	.LBB14_42
	movq	%r13, %rdi
	movq	%rbp, %rsi
	movq	%r11, %rdx
	movq	%r10, %rcx
.LBB14_39:
	movq	%r14, %r8
	callq	L_17
	jmp	.LBB14_45
.LBB14_40:
	cmpq	$63, %rbp
	ja	.LBB14_48
	movq	%r13, %rdi
	movq	%r15, %rsi
	callq	L_18
	movq	%rax, %rbx
	jmp	.LBB14_50
.LBB14_42:
	leaq	64(%rsp), %rdi
	movl	$276, %edx
	xorl	%esi, %esi
	callq	sysv_memset
	cmpq	$15, %rbp
	ja	.LBB14_66
	leaq	64(%rsp), %rdx
	movq	%r13, %rdi
	movq	%rbp, %rsi
	movq	(%rsp), %rcx
	movq	8(%rsp), %r8
	movq	%r14, %r9
.LBB14_44:
	callq	L_19
.LBB14_45:
	movq	%rax, %rbx
	movq	%rdx, %r15
.LBB14_46:
	movq	8(%rsp), %r10
	movq	16(%rsp), %r8
	movq	(%rsp), %r11
.LBB14_47:
	movq	32(%rsp), %rax
	jmp	.LBB14_126
.LBB14_48:
	movl	$63, %esi
	movq	%r13, %rdi
	callq	L_18
	movq	%rax, %rbx
	addq	$4, %rax
	cmpq	$64, %rax
	jb	.LBB14_50
	leaq	(%rbx,%r13), %rdi
	subq	%rbx, %r15
	movq	%r15, %rsi
	callq	L_18
	addq	%rax, %rbx
.LBB14_50:
	testq	%rbx, %rbx
	je	.LBB14_62
	movq	(%rsp), %r11
	leaq	(%r11,%r14), %rbp
	cmpq	$7, %rbx
	movq	8(%rsp), %r10
	movq	16(%rsp), %r8
	ja	.LBB14_63
	xorl	%r9d, %r9d
	movq	%rbx, %rax
	jmp	.LBB14_53
.LBB14_61:
	addl	$67043328, %ecx
	shrl	$10, %ecx
	addl	$-10240, %ecx
	rolw	$8, %cx
	movw	%cx, (%rdi)
	orl	$56320, %edx
	rolw	$8, %dx
	movw	%dx, 2(%rdi)
	movl	$4, %ecx
	addq	%rcx, %r9
	testq	%rax, %rax
	je	.LBB14_124
	.p2align	4
.LBB14_53:
	movzbl	(%r13), %ecx
	movl	$1, %edx
	testb	%cl, %cl
	jns	.LBB14_58
	movzbl	1(%r13), %esi
	andl	$63, %esi
	cmpb	$-33, %cl
	ja	.LBB14_56
	andl	$31, %ecx
	shll	$6, %ecx
	orl	%esi, %ecx
	movl	$2, %edx
	jmp	.LBB14_58
.LBB14_56:
	movzbl	2(%r13), %edx
	andl	$63, %edx
	cmpb	$-17, %cl
	ja	.LBB14_60
	shll	$12, %ecx
	movzwl	%cx, %ecx
	shll	$6, %esi
	orl	%ecx, %esi
	orl	%edx, %esi
	movl	$3, %edx
	movl	%esi, %ecx
	.p2align	4
.LBB14_58:
	addq	%rdx, %r13
	subq	%rdx, %rax
	leaq	(%r9,%rbp), %rdi
.LBB14_59:
	rolw	$8, %cx
	movw	%cx, (%rdi)
	movl	$2, %ecx
	addq	%rcx, %r9
	testq	%rax, %rax
	jne	.LBB14_53
	jmp	.LBB14_124
.LBB14_60:
	movzbl	3(%r13), %edi
	andl	$63, %edi
	andl	$7, %ecx
	shll	$18, %ecx
	shll	$12, %esi
	orl	%ecx, %esi
	shll	$6, %edx
	orl	%edi, %edx
	leal	(%rdx,%rsi), %ecx
	addq	$4, %r13
	addq	$-4, %rax
	leaq	(%r9,%rbp), %rdi
	cmpl	$65535, %esi
	jbe	.LBB14_59
	jmp	.LBB14_61
.LBB14_21:
	cmpq	$31, %rsi
	ja	.LBB14_24
	pxor	%xmm0, %xmm0
	pxor	%xmm2, %xmm2
	punpckhbw	%xmm1, %xmm2
	pxor	%xmm3, %xmm3
	punpcklbw	%xmm1, %xmm3
	movdqu	%xmm3, (%rbp)
	movdqu	%xmm2, 16(%rbp)
	movdqu	-16(%rsi,%r13), %xmm1
	pmovmskb	%xmm1, %ecx
	movl	$16, %eax
	testl	%ecx, %ecx
	jne	.LBB14_25
	pxor	%xmm2, %xmm2
	punpckhbw	%xmm1, %xmm2
	punpcklbw	%xmm1, %xmm0
	movdqu	%xmm0, -32(%rbp,%rsi,2)
	movdqu	%xmm2, -16(%rbp,%rsi,2)
	movq	%rsi, %rax
	jmp	.LBB14_25
.LBB14_20:
	pxor	%xmm0, %xmm0
	pxor	%xmm2, %xmm2
	punpckhbw	%xmm1, %xmm2
	punpcklbw	%xmm1, %xmm0
	movdqu	%xmm0, (%rbp)
	movdqu	%xmm2, 16(%rbp)
	movl	$16, %eax
	movl	$32, %r9d
	jmp	.LBB14_33
.LBB14_62:
	movq	8(%rsp), %r10
	movq	16(%rsp), %r8
	movq	(%rsp), %r11
	jmp	.LBB14_125
.LBB14_63:
	cmpq	$16, %rbx
	ja	.LBB14_76
	movq	-8(%r13,%rbx), %xmm0
	movq	(%r13), %xmm1
	punpcklqdq	%xmm0, %xmm1
	movq	%rbx, %rax
	shlq	$4, %rax
	leaq	.Lstatic.11(%rip), %rcx
	movdqu	-128(%rax,%rcx), %xmm0
	pshufb	%xmm0, %xmm1
	pmovmskb	%xmm1, %eax
	testl	%eax, %eax
	je	.LBB14_94
	leaq	.Lstatic.12(%rip), %rax
	subq	%rbx, %rax
	movdqu	16(%rax), %xmm0
	pmaxub	%xmm0, %xmm1
	movdqa	%xmm1, %xmm6
	pslldq	$1, %xmm6
	movdqa	%xmm1, %xmm5
	pslldq	$2, %xmm5
	movdqa	.LCPI14_0(%rip), %xmm4
	movdqa	%xmm4, %xmm3
	movdqa	%xmm1, %xmm0
	pblendvb	%xmm0, %xmm6, %xmm3
	movdqa	.LCPI14_1(%rip), %xmm2
	movdqa	.LCPI14_6(%rip), %xmm0
	pmaxub	%xmm5, %xmm0
	movdqa	%xmm3, %xmm7
	psrlw	$2, %xmm7
	movdqa	.LCPI14_12(%rip), %xmm8
	pand	%xmm8, %xmm7
	psllw	$4, %xmm0
	pandn	%xmm0, %xmm8
	por	%xmm7, %xmm8
	movdqa	%xmm3, %xmm0
	pmaxub	%xmm5, %xmm0
	movdqa	%xmm0, %xmm7
	pminub	%xmm2, %xmm7
	pcmpeqb	%xmm0, %xmm7
	pand	.LCPI14_13(%rip), %xmm7
	por	%xmm8, %xmm7
	movdqa	.LCPI14_2(%rip), %xmm8
	pminub	%xmm6, %xmm8
	pcmpeqb	%xmm6, %xmm8
	movdqa	%xmm6, %xmm0
	psllw	$2, %xmm0
	pand	.LCPI14_14(%rip), %xmm0
	movdqa	%xmm1, %xmm9
	psrlw	$4, %xmm9
	pand	.LCPI14_15(%rip), %xmm9
	movdqa	.LCPI14_16(%rip), %xmm6
	pminub	%xmm0, %xmm6
	pcmpeqb	%xmm0, %xmm6
	paddb	%xmm5, %xmm6
	paddb	.LCPI14_17(%rip), %xmm6
	por	%xmm0, %xmm9
	paddb	%xmm4, %xmm9
	movdqa	.LCPI14_3(%rip), %xmm0
	pminub	%xmm5, %xmm0
	pcmpeqb	%xmm5, %xmm0
	pblendvb	%xmm0, %xmm7, %xmm6
	movdqa	.LCPI14_18(%rip), %xmm5
	pand	%xmm1, %xmm5
	psllw	$6, %xmm3
	pand	%xmm4, %xmm3
	paddb	%xmm5, %xmm3
	pblendvb	%xmm0, %xmm3, %xmm9
	movdqa	%xmm6, %xmm0
	punpckhbw	%xmm9, %xmm0
	punpcklbw	%xmm9, %xmm6
	pminub	%xmm1, %xmm2
	pcmpeqb	%xmm1, %xmm2
	pand	%xmm2, %xmm8
	pmovmskb	%xmm8, %eax
	movzbl	%al, %ecx
	popcntl	%ecx, %edx
	shll	$4, %ecx
	leaq	.Lstatic.13(%rip), %rsi
	movdqu	(%rcx,%rsi), %xmm1
	pshufb	%xmm1, %xmm6
	movdqu	%xmm6, (%rbp)
	shrl	$8, %eax
	popcntl	%eax, %r9d
	shll	$4, %eax
	movdqu	(%rax,%rsi), %xmm1
	pshufb	%xmm1, %xmm0
	movdqu	%xmm0, (%rbp,%rdx,2)
	addl	%edx, %r9d
	addl	%r9d, %r9d
	jmp	.LBB14_124
.LBB14_66:
	movzbl	(%r13), %r9d
	movl	$1, %eax
	testb	%r9b, %r9b
	movq	8(%rsp), %rcx
	movq	(%rsp), %rdx
	js	.LBB14_79
.LBB14_67:
	movzbl	(%r13,%rax), %r10d
	testb	%r10b, %r10b
	js	.LBB14_85
.LBB14_68:
	xorl	%esi, %esi
	cmpq	$65, %rbx
	setae	%sil
	shll	$6, %esi
	addq	$66, %rsi
	cmpq	%rbp, %rsi
	cmovaeq	%rbp, %rsi
	cmpq	$16, %rbp
	movq	%rbx, 56(%rsp)
	jne	.LBB14_88
	movq	-8(%r13,%rsi), %xmm0
	movq	(%r13), %xmm1
	punpcklqdq	%xmm0, %xmm1
	movq	%rsi, %rax
	shlq	$4, %rax
	leaq	.Lstatic.11(%rip), %rcx
	movdqu	-128(%rax,%rcx), %xmm2
	pshufb	%xmm2, %xmm1
	pmovmskb	%xmm1, %eax
	testl	%eax, %eax
	je	.LBB14_106
	pextrb	$5, %xmm0, %eax
	xorl	%r15d, %r15d
	cmpb	$-17, %al
	ja	.LBB14_165
	pextrb	$7, %xmm0, %eax
	cmpb	$-65, %al
	ja	.LBB14_165
	pextrb	$6, %xmm0, %eax
	movl	$0, %ebx
	cmpb	$-33, %al
	ja	.LBB14_166
	movdqa	%xmm1, %xmm2
	pslldq	$1, %xmm2
	movdqa	%xmm1, %xmm4
	pslldq	$2, %xmm4
	movdqa	%xmm1, %xmm5
	pslldq	$3, %xmm5
	movdqa	.LCPI14_0(%rip), %xmm3
	movdqa	%xmm3, %xmm0
	movdqa	%xmm2, %xmm6
	psubusb	.LCPI14_1(%rip), %xmm6
	pcmpgtb	%xmm1, %xmm0
	movdqa	%xmm4, %xmm7
	psubusb	.LCPI14_2(%rip), %xmm7
	pmaxub	%xmm6, %xmm7
	psubusb	.LCPI14_3(%rip), %xmm5
	por	%xmm7, %xmm5
	pxor	%xmm6, %xmm6
	pcmpgtb	%xmm6, %xmm5
	pxor	%xmm0, %xmm5
	movdqa	.LCPI14_4(%rip), %xmm0
	pminub	%xmm1, %xmm0
	pcmpeqb	%xmm1, %xmm0
	movdqa	.LCPI14_5(%rip), %xmm7
	pblendvb	%xmm0, .LCPI14_6(%rip), %xmm7
	pcmpeqb	%xmm2, %xmm7
	movdqa	.LCPI14_7(%rip), %xmm0
	pminub	%xmm1, %xmm0
	pcmpeqb	%xmm1, %xmm0
	movdqa	.LCPI14_8(%rip), %xmm8
	pmaxub	%xmm1, %xmm8
	pcmpeqb	%xmm1, %xmm8
	movdqa	.LCPI14_9(%rip), %xmm9
	pblendvb	%xmm0, .LCPI14_10(%rip), %xmm9
	pcmpeqb	%xmm2, %xmm9
	por	%xmm7, %xmm9
	movdqa	.LCPI14_11(%rip), %xmm0
	pand	%xmm1, %xmm0
	pcmpeqb	%xmm3, %xmm0
	por	%xmm5, %xmm0
	por	%xmm8, %xmm0
	por	%xmm9, %xmm0
	movd	%esi, %xmm5
	pshufb	%xmm6, %xmm5
	movdqa	.LCPI14_19(%rip), %xmm6
	pmaxub	%xmm5, %xmm6
	pcmpeqb	%xmm5, %xmm6
	psllw	$7, %xmm0
	pand	%xmm6, %xmm0
	pmovmskb	%xmm0, %eax
	testl	%eax, %eax
	je	.LBB14_164
	xorl	%r15d, %r15d
.LBB14_165:
	xorl	%ebx, %ebx
	jmp	.LBB14_166
.LBB14_75:
	xorl	%eax, %eax
	jmp	.LBB14_33
.LBB14_24:
	movq	%r13, %rdi
	movq	%rbp, %rdx
	callq	L_11
	movq	(%rsp), %r11
	movq	16(%rsp), %r8
	movq	8(%rsp), %r10
	jmp	.LBB14_25
.LBB14_76:
	leaq	16(,%rbx,2), %r15
	movq	%r15, %rsi
	shrq	%rsi
	cmpq	%rbx, %rsi
	cmovaeq	%rbx, %rsi
	cmpq	$32, %r15
	jb	.LBB14_77
	movdqu	(%r13), %xmm1
	pmovmskb	%xmm1, %eax
	testl	%eax, %eax
	je	.LBB14_103
.LBB14_77:
	xorl	%r8d, %r8d
.LBB14_116:
	leaq	(%r8,%r8), %r9
	movq	%rbx, %rax
	subq	%r8, %rax
	jne	.LBB14_118
	movq	16(%rsp), %r8
	jmp	.LBB14_124
.LBB14_78:
	movdqa	%xmm3, %xmm6
	movdqa	%xmm1, %xmm0
	pblendvb	%xmm0, %xmm2, %xmm6
	movdqa	.LCPI14_1(%rip), %xmm5
	movdqa	.LCPI14_6(%rip), %xmm0
	pmaxub	%xmm4, %xmm0
	movdqa	%xmm6, %xmm7
	psrlw	$2, %xmm7
	movdqa	.LCPI14_12(%rip), %xmm8
	pand	%xmm8, %xmm7
	psllw	$4, %xmm0
	pandn	%xmm0, %xmm8
	por	%xmm7, %xmm8
	movdqa	%xmm6, %xmm0
	pmaxub	%xmm4, %xmm0
	movdqa	%xmm0, %xmm9
	pminub	%xmm5, %xmm9
	pcmpeqb	%xmm0, %xmm9
	pand	.LCPI14_13(%rip), %xmm9
	por	%xmm8, %xmm9
	movdqa	%xmm2, %xmm0
	psllw	$2, %xmm0
	pand	.LCPI14_14(%rip), %xmm0
	movdqa	%xmm1, %xmm8
	psrlw	$4, %xmm8
	pand	.LCPI14_15(%rip), %xmm8
	movdqa	.LCPI14_16(%rip), %xmm7
	pminub	%xmm0, %xmm7
	pcmpeqb	%xmm0, %xmm7
	paddb	%xmm4, %xmm7
	paddb	.LCPI14_17(%rip), %xmm7
	por	%xmm0, %xmm8
	paddb	%xmm3, %xmm8
	movdqa	.LCPI14_3(%rip), %xmm0
	pminub	%xmm4, %xmm0
	pcmpeqb	%xmm4, %xmm0
	pblendvb	%xmm0, %xmm9, %xmm7
	movdqa	.LCPI14_18(%rip), %xmm4
	pand	%xmm1, %xmm4
	psllw	$6, %xmm6
	pand	%xmm3, %xmm6
	paddb	%xmm4, %xmm6
	pblendvb	%xmm0, %xmm6, %xmm8
	movdqa	%xmm7, %xmm0
	punpckhbw	%xmm8, %xmm0
	punpcklbw	%xmm8, %xmm7
	movdqa	.LCPI14_2(%rip), %xmm3
	pminub	%xmm2, %xmm3
	pcmpeqb	%xmm2, %xmm3
	pminub	%xmm1, %xmm5
	pcmpeqb	%xmm1, %xmm5
	pand	%xmm3, %xmm5
	pmovmskb	%xmm5, %eax
	movzbl	%al, %ecx
	popcntl	%ecx, %edx
	shll	$4, %ecx
	leaq	.Lstatic.13(%rip), %rdi
	movdqu	(%rcx,%rdi), %xmm1
	pshufb	%xmm1, %xmm7
	movdqu	%xmm7, (%rbp)
	shrl	$8, %eax
	popcntl	%eax, %r9d
	shll	$4, %eax
	movdqu	(%rax,%rdi), %xmm1
	pshufb	%xmm1, %xmm0
	movdqu	%xmm0, (%rbp,%rdx,2)
	addl	%edx, %r9d
	addl	%r9d, %r9d
	movl	$16, %eax
	jmp	.LBB14_33
.LBB14_79:
	cmpb	$-31, %r9b
	jae	.LBB14_95
	movzbl	1(%r13), %r10d
	movl	%r9d, %eax
	shrb	$4, %al
	andb	$12, %al
	movl	%r10d, %esi
	shrb	$6, %sil
	orb	%al, %sil
	cmpb	$14, %sil
	jne	.LBB14_192
	leal	62(%r9), %esi
	movl	$2, %eax
	cmpb	$30, %sil
	jb	.LBB14_67
	jmp	.LBB14_112
.LBB14_118:
	cmpq	$191, %rax
	ja	.LBB14_120
	movq	%r13, %rdi
	movq	%rbx, %rsi
	movq	%rbp, %rdx
	movq	%r15, %rcx
	jmp	.LBB14_122
.LBB14_85:
	leal	31(%r10), %esi
	movzbl	1(%r13,%rax), %r11d
	cmpb	$11, %sil
	ja	.LBB14_98
	cmpb	$-65, %r11b
	jg	.LBB14_192
	cmpb	$-64, 2(%r13,%rax)
	jl	.LBB14_68
	jmp	.LBB14_192
.LBB14_88:
	movdqu	(%r13), %xmm1
	pmovmskb	%xmm1, %eax
	testl	%eax, %eax
	je	.LBB14_107
	xorl	%r15d, %r15d
	xorl	%ebx, %ebx
.LBB14_90:
	movq	%rsi, %rax
	subq	%rbx, %rax
	cmpq	$191, %rax
	jbe	.LBB14_92
	leaq	64(%rsp), %rdx
	movl	$276, %ecx
	movq	%r13, %rdi
	movq	%rsi, 40(%rsp)
	movq	40(%rsp), %rsi
	movq	%rbx, %r8
	movq	%r15, %r9
	callq	L_12
	movq	40(%rsp), %rsi
	movq	%rax, %rbx
	movq	%rdx, %r15
	movq	%rsi, %rax
	subq	%rbx, %rax
	cmpq	$191, %rax
	ja	.LBB14_93
.LBB14_92:
	leaq	64(%rsp), %rdx
	movl	$276, %ecx
	movq	%r13, %rdi
	movq	%rbx, %r8
	movq	%r15, %r9
	callq	L_13
	movq	%rax, %rbx
	movq	%rdx, %r15
.LBB14_93:
	movq	(%rsp), %rdx
	jmp	.LBB14_166
.LBB14_94:
	leaq	(%rbx,%rbx), %r9
	pxor	%xmm0, %xmm0
	pxor	%xmm2, %xmm2
	punpckhbw	%xmm1, %xmm2
	punpcklbw	%xmm1, %xmm0
	movdqu	%xmm0, (%rbp)
	movdqu	%xmm2, 16(%rbp)
	jmp	.LBB14_124
.LBB14_95:
	movzbl	1(%r13), %r10d
	cmpb	$-20, %r9b
	ja	.LBB14_110
	cmpb	$-65, %r10b
	jg	.LBB14_192
	movl	$3, %eax
	cmpb	$-64, 2(%r13)
	jl	.LBB14_67
	jmp	.LBB14_192
.LBB14_120:
	movq	%r13, %rdi
	movq	%rbx, %rsi
	movq	%rbp, %rdx
	movq	%r15, %rcx
	callq	L_12
	movq	%rdx, %r9
	movq	%rbx, %rcx
	subq	%rax, %rcx
	cmpq	$191, %rcx
	ja	.LBB14_123
	movq	%r13, %rdi
	movq	%rbx, %rsi
	movq	%rbp, %rdx
	movq	%r15, %rcx
	movq	%rax, %r8
.LBB14_122:
	callq	L_13
	movq	%rdx, %r9
.LBB14_123:
	movq	8(%rsp), %r10
	movq	16(%rsp), %r8
	movq	(%rsp), %r11
.LBB14_124:
	addq	%r9, %r14
.LBB14_125:
	movq	32(%rsp), %rax
	movq	%r14, %r15
.LBB14_126:
	addq	%rax, %rbx
	movq	%r15, %r14
	movq	24(%rsp), %rsi
.LBB14_127:
	addq	%r12, %rbx
	movq	%r8, %rdx
	subq	%rbx, %rdx
	je	.LBB14_205
	movzbl	(%rsi,%rbx), %eax
	testb	%al, %al
	js	.LBB14_133
	movl	$1, %r12d
.LBB14_130:
	movq	%r10, %rcx
	subq	%r14, %rcx
	xorl	%edx, %edx
	cmpl	$65536, %eax
	setae	%dl
	leaq	2(,%rdx,2), %rdx
	cmpq	%rdx, %rcx
	jb	.LBB14_206
	cmpl	$65535, %eax
	ja	.LBB14_3
	rolw	$8, %ax
	movl	$2, %ecx
	jmp	.LBB14_4
	.p2align	4
.LBB14_133:
	cmpq	$3, %rdx
	jb	.LBB14_138
	leal	31(%rax), %ecx
	cmpb	$11, %cl
	ja	.LBB14_139
	movzbl	1(%rsi,%rbx), %ecx
	cmpb	$-65, %cl
	jg	.LBB14_139
	movzbl	2(%rsi,%rbx), %edi
	cmpb	$-65, %dil
	jg	.LBB14_139
	shll	$12, %eax
	shll	$6, %ecx
	addl	%eax, %ecx
	leal	(%rdi,%rcx), %eax
	addl	$-925824, %eax
	movl	$3, %r12d
	jmp	.LBB14_130
.LBB14_138:
	cmpq	$2, %rdx
	jne	.LBB14_218
.LBB14_139:
	movzbl	1(%rsi,%rbx), %r15d
	movl	%eax, %ecx
	shrb	$4, %cl
	andb	$12, %cl
	movl	%r15d, %edi
	shrb	$6, %dil
	orb	%cl, %dil
	movb	$1, %cl
	cmpb	$14, %dil
	jne	.LBB14_229
	leal	31(%rax), %edi
	cmpb	$12, %dil
	jae	.LBB14_145
.LBB14_141:
	cmpq	$2, %rdx
	je	.LBB14_216
	movzbl	2(%rsi,%rbx), %edi
	cmpb	$-65, %dil
	jg	.LBB14_217
	cmpb	$-17, %al
	ja	.LBB14_149
	shll	$12, %eax
	shll	$6, %r15d
	addl	%eax, %r15d
	leal	(%rdi,%r15), %eax
	addl	$-925824, %eax
	movl	$3, %r12d
	jmp	.LBB14_130
.LBB14_145:
	leal	62(%rax), %edi
	cmpb	$30, %dil
	jb	.LBB14_160
	movb	$-65, %r8b
	leal	-224(%rax), %r9d
	cmpl	$20, %r9d
	ja	.LBB14_155
	leaq	.LJTI14_3(%rip), %r10
	movslq	(%r10,%r9,4), %r9
	addq	%r10, %r9
	movq	8(%rsp), %r10
	jmpq	*%r9
.LBB14_148:
	movb	$-96, %r9b
	jmp	.LBB14_156
.LBB14_149:
	cmpq	$4, %rdx
	jb	.LBB14_216
	movzbl	3(%rsi,%rbx), %edx
	cmpb	$-65, %dl
	jg	.LBB14_219
	shll	$18, %eax
	shll	$12, %r15d
	addl	%eax, %r15d
	shll	$6, %edi
	addl	%r15d, %edi
	leal	(%rdx,%rdi), %eax
	addl	$-63447168, %eax
	movl	$4, %r12d
	jmp	.LBB14_130
.LBB14_152:
	movb	$-112, %r9b
	jmp	.LBB14_156
.LBB14_153:
	movb	$-97, %r8b
	jmp	.LBB14_155
.LBB14_154:
	movb	$-113, %r8b
.LBB14_155:
	movb	$-128, %r9b
.LBB14_156:
	cmpb	$50, %dil
	ja	.LBB14_229
	cmpb	%r15b, %r9b
	ja	.LBB14_229
	cmpb	%r8b, %r15b
	ja	.LBB14_229
	cmpb	$-33, %al
	movq	16(%rsp), %r8
	ja	.LBB14_141
.LBB14_160:
	shll	$6, %eax
	addl	%r15d, %eax
	addl	$-12416, %eax
	movl	$2, %r12d
	jmp	.LBB14_130
.LBB14_98:
	movl	%r10d, %esi
	shrb	$4, %sil
	andb	$12, %sil
	movl	%r11d, %edi
	shrb	$6, %dil
	orb	%sil, %dil
	cmpb	$14, %dil
	jne	.LBB14_192
	leal	62(%r10), %esi
	cmpb	$30, %sil
	jb	.LBB14_68
	movb	$-65, %dil
	leal	-224(%r10), %r8d
	cmpl	$20, %r8d
	ja	.LBB14_184
	leaq	.LJTI14_2(%rip), %r9
	movslq	(%r9,%r8,4), %r8
	addq	%r9, %r8
	jmpq	*%r8
.LBB14_102:
	movb	$-96, %r8b
	jmp	.LBB14_185
.LBB14_103:
	cmpq	$31, %rsi
	ja	.LBB14_115
	pxor	%xmm0, %xmm0
	pxor	%xmm2, %xmm2
	punpckhbw	%xmm1, %xmm2
	pxor	%xmm3, %xmm3
	punpcklbw	%xmm1, %xmm3
	movdqu	%xmm3, (%rbp)
	movdqu	%xmm2, 16(%rbp)
	movdqu	-16(%rsi,%r13), %xmm1
	pmovmskb	%xmm1, %eax
	movl	$16, %r8d
	testl	%eax, %eax
	jne	.LBB14_116
	pxor	%xmm2, %xmm2
	punpckhbw	%xmm1, %xmm2
	punpcklbw	%xmm1, %xmm0
	movdqu	%xmm0, -32(%rbp,%rsi,2)
	movdqu	%xmm2, -16(%rbp,%rsi,2)
	movq	%rsi, %r8
	jmp	.LBB14_116
.LBB14_106:
	pxor	%xmm0, %xmm0
	pxor	%xmm2, %xmm2
	punpckhbw	%xmm1, %xmm2
	punpcklbw	%xmm1, %xmm0
	movdqa	%xmm0, 64(%rsp)
	movdqa	%xmm2, 80(%rsp)
	movl	$16, %ebx
	movl	$32, %r15d
	jmp	.LBB14_166
.LBB14_107:
	cmpq	$31, %rbp
	ja	.LBB14_161
	pxor	%xmm0, %xmm0
	pxor	%xmm2, %xmm2
	punpckhbw	%xmm1, %xmm2
	pxor	%xmm3, %xmm3
	punpcklbw	%xmm1, %xmm3
	movdqa	%xmm3, 64(%rsp)
	movdqa	%xmm2, 80(%rsp)
	movdqu	-16(%rsi,%r13), %xmm1
	pmovmskb	%xmm1, %eax
	movl	$16, %ebx
	testl	%eax, %eax
	jne	.LBB14_162
	pxor	%xmm2, %xmm2
	punpckhbw	%xmm1, %xmm2
	punpcklbw	%xmm1, %xmm0
	movdqu	%xmm0, 32(%rsp,%rsi,2)
	movdqu	%xmm2, 48(%rsp,%rsi,2)
	leaq	(%rsi,%rsi), %r15
	movq	%rsi, %rbx
	jmp	.LBB14_166
.LBB14_110:
	cmpb	$-65, %r10b
	jg	.LBB14_192
	leal	62(%r9), %esi
.LBB14_112:
	movb	$-65, %al
	leal	-224(%r9), %edi
	cmpl	$20, %edi
	ja	.LBB14_173
	leaq	.LJTI14_1(%rip), %r8
	movslq	(%r8,%rdi,4), %rdi
	addq	%r8, %rdi
	jmpq	*%rdi
.LBB14_114:
	movb	$-96, %dil
	jmp	.LBB14_174
.LBB14_115:
	movq	%r13, %rdi
	movq	%rbp, %rdx
	callq	L_11
	movq	(%rsp), %r11
	movq	8(%rsp), %r10
	movq	%rax, %r8
	jmp	.LBB14_116
.LBB14_161:
	leaq	64(%rsp), %rdx
	movq	%r13, %rdi
	movq	%rsi, %rbx
	callq	L_11
	movq	%rbx, %rsi
	movq	(%rsp), %rdx
	movq	%rax, %rbx
.LBB14_162:
	leaq	(%rbx,%rbx), %r15
	cmpq	%rsi, %rbx
	jne	.LBB14_90
	jmp	.LBB14_166
.LBB14_164:
	movdqa	%xmm3, %xmm6
	movdqa	%xmm1, %xmm0
	pblendvb	%xmm0, %xmm2, %xmm6
	movdqa	.LCPI14_1(%rip), %xmm5
	movdqa	.LCPI14_6(%rip), %xmm0
	pmaxub	%xmm4, %xmm0
	movdqa	%xmm6, %xmm7
	psrlw	$2, %xmm7
	movdqa	.LCPI14_12(%rip), %xmm8
	pand	%xmm8, %xmm7
	psllw	$4, %xmm0
	pandn	%xmm0, %xmm8
	por	%xmm7, %xmm8
	movdqa	%xmm6, %xmm0
	pmaxub	%xmm4, %xmm0
	movdqa	%xmm0, %xmm9
	pminub	%xmm5, %xmm9
	pcmpeqb	%xmm0, %xmm9
	pand	.LCPI14_13(%rip), %xmm9
	por	%xmm8, %xmm9
	movdqa	%xmm2, %xmm0
	psllw	$2, %xmm0
	pand	.LCPI14_14(%rip), %xmm0
	movdqa	%xmm1, %xmm8
	psrlw	$4, %xmm8
	pand	.LCPI14_15(%rip), %xmm8
	movdqa	.LCPI14_16(%rip), %xmm7
	pminub	%xmm0, %xmm7
	pcmpeqb	%xmm0, %xmm7
	paddb	%xmm4, %xmm7
	paddb	.LCPI14_17(%rip), %xmm7
	por	%xmm0, %xmm8
	paddb	%xmm3, %xmm8
	movdqa	.LCPI14_3(%rip), %xmm0
	pminub	%xmm4, %xmm0
	pcmpeqb	%xmm4, %xmm0
	pblendvb	%xmm0, %xmm9, %xmm7
	movdqa	.LCPI14_18(%rip), %xmm4
	pand	%xmm1, %xmm4
	psllw	$6, %xmm6
	pand	%xmm3, %xmm6
	paddb	%xmm4, %xmm6
	pblendvb	%xmm0, %xmm6, %xmm8
	movdqa	%xmm7, %xmm0
	punpckhbw	%xmm8, %xmm0
	punpcklbw	%xmm8, %xmm7
	pminub	%xmm1, %xmm5
	pcmpeqb	%xmm1, %xmm5
	movdqa	.LCPI14_2(%rip), %xmm1
	pminub	%xmm2, %xmm1
	pcmpeqb	%xmm2, %xmm1
	pand	%xmm5, %xmm1
	pmovmskb	%xmm1, %eax
	movzbl	%al, %ecx
	popcntl	%ecx, %edi
	shll	$4, %ecx
	leaq	.Lstatic.13(%rip), %rsi
	movdqu	(%rcx,%rsi), %xmm1
	pshufb	%xmm1, %xmm7
	movdqa	%xmm7, 64(%rsp)
	shrl	$8, %eax
	popcntl	%eax, %r15d
	shll	$4, %eax
	movdqu	(%rax,%rsi), %xmm1
	pshufb	%xmm1, %xmm0
	movdqu	%xmm0, 64(%rsp,%rdi,2)
	addl	%edi, %r15d
	addl	%r15d, %r15d
	movl	$16, %ebx
.LBB14_166:
	movq	56(%rsp), %rcx
	cmpq	%rcx, %r15
	jbe	.LBB14_168
	andq	$-2, %rcx
	movzbl	64(%rsp,%rcx), %eax
	andb	$-4, %al
	leaq	-2(%rcx), %r15
	cmpb	$-36, %al
	cmovneq	%rcx, %r15
	leaq	64(%rsp), %rdi
	movq	%r15, %rsi
	callq	L_20
	movq	(%rsp), %rdx
	movq	%rax, %rbx
.LBB14_168:
	leaq	(%rdx,%r14), %rdi
	leaq	64(%rsp), %rsi
	movq	%r15, %rdx
	callq	sysv_memcpy
	addq	%r14, %r15
	testq	%rbx, %rbx
	jne	.LBB14_46
	leaq	64(%rsp), %rdx
	movq	%r13, %rdi
	movq	%rbp, %rsi
	movq	(%rsp), %rcx
	movq	8(%rsp), %r8
	movq	%r15, %r9
	jmp	.LBB14_44
.LBB14_170:
	movb	$-112, %dil
	jmp	.LBB14_174
.LBB14_171:
	movb	$-97, %al
	jmp	.LBB14_173
.LBB14_172:
	movb	$-113, %al
.LBB14_173:
	movb	$-128, %dil
.LBB14_174:
	cmpb	$50, %sil
	ja	.LBB14_192
	cmpb	%r10b, %dil
	ja	.LBB14_192
	cmpb	%al, %r10b
	ja	.LBB14_192
	movl	$2, %eax
	cmpb	$-32, %r9b
	jb	.LBB14_67
	cmpb	$-65, 2(%r13)
	jg	.LBB14_192
	movl	$3, %eax
	cmpb	$-16, %r9b
	jb	.LBB14_67
	movl	$4, %eax
	cmpb	$-65, 3(%r13)
	jle	.LBB14_67
	jmp	.LBB14_192
.LBB14_181:
	movb	$-112, %r8b
	jmp	.LBB14_185
.LBB14_182:
	movb	$-97, %dil
	jmp	.LBB14_184
.LBB14_183:
	movb	$-113, %dil
.LBB14_184:
	movb	$-128, %r8b
.LBB14_185:
	cmpb	$50, %sil
	ja	.LBB14_192
	cmpb	%r11b, %r8b
	ja	.LBB14_192
	cmpb	%dil, %r11b
	ja	.LBB14_192
	cmpb	$-32, %r10b
	jb	.LBB14_68
	cmpb	$-65, 2(%r13,%rax)
	jg	.LBB14_192
	cmpb	$-16, %r10b
	jb	.LBB14_68
	cmpb	$-64, 3(%r13,%rax)
	jl	.LBB14_68
.LBB14_192:
	movq	%r13, %rdi
	movq	%rbp, %rsi
	jmp	.LBB14_39
.LBB14_193:
	movq	%r8, %rdx
	subq	%r12, %rdx
	cmpq	$3, %rdx
	jb	.LBB14_197
	leal	31(%rcx), %eax
	cmpb	$11, %al
	ja	.LBB14_198
	cmpb	$-65, 1(%rsi,%r12)
	jg	.LBB14_198
	cmpb	$-64, 2(%rsi,%r12)
	jl	.LBB14_1
	jmp	.LBB14_198
.LBB14_197:
	cmpq	$2, %rdx
	jne	.LBB14_203
.LBB14_198:
	movzbl	1(%rsi,%r12), %ebx
	movl	%ecx, %eax
	shrb	$4, %al
	andb	$12, %al
	movl	%ebx, %r8d
	shrb	$6, %r8b
	orb	%al, %r8b
	movb	$1, %al
	cmpb	$14, %r8b
	jne	.LBB14_202
	leal	31(%rcx), %r8d
	cmpb	$12, %r8b
	movq	16(%rsp), %r8
	jae	.LBB14_207
.LBB14_200:
	cmpq	$2, %rdx
	jne	.LBB14_211
.LBB14_201:
	movb	$2, %al
	xorl	%r9d, %r9d
	jmp	.LBB14_204
.LBB14_203:
	addb	$11, %cl
	cmpb	$-51, %cl
	setb	%r9b
	movb	$2, %al
	subb	%r9b, %al
	jmp	.LBB14_204
.LBB14_205:
	movq	%r8, %r12
	jmp	.LBB14_2
.LBB14_206:
	movb	$3, %cl
	xorl	%eax, %eax
	jmp	.LBB14_230
.LBB14_207:
	leal	62(%rcx), %r11d
	cmpb	$30, %r11b
	jb	.LBB14_1
	movb	$-65, %r8b
	leal	-224(%rcx), %r9d
	cmpl	$20, %r9d
	ja	.LBB14_223
	leaq	.LJTI14_0(%rip), %r10
	movslq	(%r10,%r9,4), %r9
	addq	%r10, %r9
	jmpq	*%r9
.LBB14_210:
	movb	$-96, %r9b
	jmp	.LBB14_224
.LBB14_229:
	movb	$1, %al
	jmp	.LBB14_230
.LBB14_211:
	movb	$2, %r9b
	cmpb	$-65, 2(%rsi,%r12)
	jg	.LBB14_204
	cmpb	$-16, %cl
	jb	.LBB14_1
	cmpq	$4, %rdx
	jb	.LBB14_201
	movb	$3, %r9b
	cmpb	$-65, 3(%rsi,%r12)
	jle	.LBB14_1
	jmp	.LBB14_204
.LBB14_216:
	movb	$2, %cl
	xorl	%eax, %eax
	jmp	.LBB14_230
.LBB14_217:
	movb	$2, %al
	jmp	.LBB14_230
.LBB14_218:
	addb	$11, %al
	cmpb	$-51, %al
	setb	%al
	movb	$2, %cl
	subb	%al, %cl
	jmp	.LBB14_230
.LBB14_219:
	movb	$3, %al
.LBB14_230:
	movq	48(%rsp), %rdx
	movq	%rbx, (%rdx)
	movq	%r14, 8(%rdx)
	movb	%cl, 16(%rdx)
	movb	%al, 17(%rdx)
	jmp	.LBB14_231
.LBB14_220:
	movb	$-112, %r9b
	jmp	.LBB14_224
.LBB14_221:
	movb	$-97, %r8b
	jmp	.LBB14_223
.LBB14_222:
	movb	$-113, %r8b
.LBB14_223:
	movb	$-128, %r9b
.LBB14_224:
	cmpb	$51, %r11b
	setb	%r10b
	cmpb	%bl, %r9b
	setbe	%r9b
	cmpb	%r8b, %bl
	setbe	%r8b
	andb	%r9b, %r8b
	andb	%r10b, %r8b
	cmpb	$1, %r8b
	jne	.LBB14_202
	cmpb	$-32, %cl
	movq	8(%rsp), %r10
	movq	16(%rsp), %r8
	jb	.LBB14_1
	jmp	.LBB14_200
.LBB14_202:
	movb	$1, %r9b
.LBB14_204:
	movq	%r12, (%rdi)
	movq	%r14, 8(%rdi)
	movb	%al, 16(%rdi)
	movb	%r9b, 17(%rdi)
.LBB14_231:
	addq	$344, %rsp
	popq	%rbx
	popq	%r12
	popq	%r13
	popq	%r14
	popq	%r15
	popq	%rbp
	retq
.Lfunc_end14:
	.section	.rdata$019,"dr"
	.p2align	2, 0x0
.LJTI14_0:
	.long	.LBB14_210-.LJTI14_0
	.long	.LBB14_223-.LJTI14_0
	.long	.LBB14_223-.LJTI14_0
	.long	.LBB14_223-.LJTI14_0
	.long	.LBB14_223-.LJTI14_0
	.long	.LBB14_223-.LJTI14_0
	.long	.LBB14_223-.LJTI14_0
	.long	.LBB14_223-.LJTI14_0
	.long	.LBB14_223-.LJTI14_0
	.long	.LBB14_223-.LJTI14_0
	.long	.LBB14_223-.LJTI14_0
	.long	.LBB14_223-.LJTI14_0
	.long	.LBB14_223-.LJTI14_0
	.long	.LBB14_221-.LJTI14_0
	.long	.LBB14_223-.LJTI14_0
	.long	.LBB14_223-.LJTI14_0
	.long	.LBB14_220-.LJTI14_0
	.long	.LBB14_223-.LJTI14_0
	.long	.LBB14_223-.LJTI14_0
	.long	.LBB14_223-.LJTI14_0
	.long	.LBB14_222-.LJTI14_0
.LJTI14_1:
	.long	.LBB14_114-.LJTI14_1
	.long	.LBB14_173-.LJTI14_1
	.long	.LBB14_173-.LJTI14_1
	.long	.LBB14_173-.LJTI14_1
	.long	.LBB14_173-.LJTI14_1
	.long	.LBB14_173-.LJTI14_1
	.long	.LBB14_173-.LJTI14_1
	.long	.LBB14_173-.LJTI14_1
	.long	.LBB14_173-.LJTI14_1
	.long	.LBB14_173-.LJTI14_1
	.long	.LBB14_173-.LJTI14_1
	.long	.LBB14_173-.LJTI14_1
	.long	.LBB14_173-.LJTI14_1
	.long	.LBB14_171-.LJTI14_1
	.long	.LBB14_173-.LJTI14_1
	.long	.LBB14_173-.LJTI14_1
	.long	.LBB14_170-.LJTI14_1
	.long	.LBB14_173-.LJTI14_1
	.long	.LBB14_173-.LJTI14_1
	.long	.LBB14_173-.LJTI14_1
	.long	.LBB14_172-.LJTI14_1
.LJTI14_2:
	.long	.LBB14_102-.LJTI14_2
	.long	.LBB14_184-.LJTI14_2
	.long	.LBB14_184-.LJTI14_2
	.long	.LBB14_184-.LJTI14_2
	.long	.LBB14_184-.LJTI14_2
	.long	.LBB14_184-.LJTI14_2
	.long	.LBB14_184-.LJTI14_2
	.long	.LBB14_184-.LJTI14_2
	.long	.LBB14_184-.LJTI14_2
	.long	.LBB14_184-.LJTI14_2
	.long	.LBB14_184-.LJTI14_2
	.long	.LBB14_184-.LJTI14_2
	.long	.LBB14_184-.LJTI14_2
	.long	.LBB14_182-.LJTI14_2
	.long	.LBB14_184-.LJTI14_2
	.long	.LBB14_184-.LJTI14_2
	.long	.LBB14_181-.LJTI14_2
	.long	.LBB14_184-.LJTI14_2
	.long	.LBB14_184-.LJTI14_2
	.long	.LBB14_184-.LJTI14_2
	.long	.LBB14_183-.LJTI14_2
.LJTI14_3:
	.long	.LBB14_148-.LJTI14_3
	.long	.LBB14_155-.LJTI14_3
	.long	.LBB14_155-.LJTI14_3
	.long	.LBB14_155-.LJTI14_3
	.long	.LBB14_155-.LJTI14_3
	.long	.LBB14_155-.LJTI14_3
	.long	.LBB14_155-.LJTI14_3
	.long	.LBB14_155-.LJTI14_3
	.long	.LBB14_155-.LJTI14_3
	.long	.LBB14_155-.LJTI14_3
	.long	.LBB14_155-.LJTI14_3
	.long	.LBB14_155-.LJTI14_3
	.long	.LBB14_155-.LJTI14_3
	.long	.LBB14_153-.LJTI14_3
	.long	.LBB14_155-.LJTI14_3
	.long	.LBB14_155-.LJTI14_3
	.long	.LBB14_152-.LJTI14_3
	.long	.LBB14_155-.LJTI14_3
	.long	.LBB14_155-.LJTI14_3
	.long	.LBB14_155-.LJTI14_3
	.long	.LBB14_154-.LJTI14_3

	.section	.text$020,"xr"
	.p2align	4
L_17:
	pushq	%r15
	pushq	%r14
	pushq	%r13
	pushq	%r12
	pushq	%rbx
	movq	%r8, %r13
	movq	%rcx, %rbx
	movq	%rdx, %r14
	movq	%rsi, %r15
	movq	%rdi, %r12
	addq	%r8, %rdx
	subq	%r8, %rcx
	callq	L_8
	addq	%r13, %rdx
	jmp	.LBB15_1
	.p2align	4
.LBB15_34:
	leal	67043328(%rcx), %r8d
	shrl	$10, %r8d
	addl	$-10240, %r8d
	rolw	$8, %r8w
	andl	$1023, %ecx
	orl	$56320, %ecx
	rolw	$8, %cx
	movw	%cx, 2(%r14,%rdx)
	movl	$4, %edi
	movl	%r8d, %ecx
.LBB15_35:
	movw	%cx, (%r14,%rdx)
	addq	%rdi, %rdx
	addq	%rsi, %rax
.LBB15_1:
	cmpq	%r15, %rax
	jae	.LBB15_36
	movzbl	(%r12,%rax), %ecx
	testb	%cl, %cl
	js	.LBB15_4
	movl	$1, %esi
.LBB15_31:
	movq	%rbx, %rdi
	subq	%rdx, %rdi
	xorl	%r8d, %r8d
	cmpl	$65536, %ecx
	setae	%r8b
	leaq	2(,%r8,2), %r8
	cmpq	%r8, %rdi
	jb	.LBB15_36
	cmpl	$65535, %ecx
	ja	.LBB15_34
	rolw	$8, %cx
	movl	$2, %edi
	jmp	.LBB15_35
	.p2align	4
.LBB15_4:
	movq	%r15, %rdi
	subq	%rax, %rdi
	cmpq	$3, %rdi
	jb	.LBB15_9
	leal	31(%rcx), %esi
	cmpb	$11, %sil
	ja	.LBB15_10
	movzbl	1(%r12,%rax), %esi
	cmpb	$-65, %sil
	jg	.LBB15_10
	movzbl	2(%r12,%rax), %r8d
	cmpb	$-65, %r8b
	jg	.LBB15_10
	jmp	.LBB15_8
.LBB15_9:
	cmpq	$2, %rdi
	jne	.LBB15_36
.LBB15_10:
	movzbl	1(%r12,%rax), %esi
	movl	%ecx, %r8d
	shrb	$4, %r8b
	andb	$12, %r8b
	movl	%esi, %r9d
	shrb	$6, %r9b
	orb	%r8b, %r9b
	cmpb	$14, %r9b
	jne	.LBB15_36
	leal	31(%rcx), %r8d
	cmpb	$12, %r8b
	jae	.LBB15_12
.LBB15_25:
	cmpq	$2, %rdi
	je	.LBB15_36
	movzbl	2(%r12,%rax), %r8d
	cmpb	$-65, %r8b
	jg	.LBB15_36
	cmpb	$-17, %cl
	ja	.LBB15_28
.LBB15_8:
	shll	$12, %ecx
	shll	$6, %esi
	addl	%ecx, %esi
	leal	(%r8,%rsi), %ecx
	addl	$-925824, %ecx
	movl	$3, %esi
	jmp	.LBB15_31
.LBB15_12:
	leal	62(%rcx), %r8d
	cmpb	$30, %r8b
	jb	.LBB15_24
	movb	$-65, %r9b
	leal	-224(%rcx), %r10d
	cmpl	$20, %r10d
	ja	.LBB15_19
	leaq	.LJTI15_0(%rip), %r11
	movslq	(%r11,%r10,4), %r10
	addq	%r11, %r10
	jmpq	*%r10
.LBB15_15:
	movb	$-96, %r10b
	jmp	.LBB15_20
.LBB15_28:
	cmpq	$4, %rdi
	jb	.LBB15_36
	movzbl	3(%r12,%rax), %edi
	cmpb	$-65, %dil
	jg	.LBB15_36
	shll	$18, %ecx
	shll	$12, %esi
	addl	%ecx, %esi
	shll	$6, %r8d
	addl	%esi, %r8d
	leal	(%rdi,%r8), %ecx
	addl	$-63447168, %ecx
	movl	$4, %esi
	jmp	.LBB15_31
.LBB15_17:
	movb	$-112, %r10b
	jmp	.LBB15_20
.LBB15_16:
	movb	$-97, %r9b
	jmp	.LBB15_19
.LBB15_18:
	movb	$-113, %r9b
.LBB15_19:
	movb	$-128, %r10b
.LBB15_20:
	cmpb	$50, %r8b
	ja	.LBB15_36
	cmpb	%sil, %r10b
	ja	.LBB15_36
	cmpb	%r9b, %sil
	ja	.LBB15_36
	cmpb	$-33, %cl
	ja	.LBB15_25
.LBB15_24:
	shll	$6, %ecx
	addl	%esi, %ecx
	addl	$-12416, %ecx
	movl	$2, %esi
	jmp	.LBB15_31
.LBB15_36:
	popq	%rbx
	popq	%r12
	popq	%r13
	popq	%r14
	popq	%r15
	retq
.Lfunc_end15:
	.section	.rdata$021,"dr"
	.p2align	2, 0x0
.LJTI15_0:
	.long	.LBB15_15-.LJTI15_0
	.long	.LBB15_19-.LJTI15_0
	.long	.LBB15_19-.LJTI15_0
	.long	.LBB15_19-.LJTI15_0
	.long	.LBB15_19-.LJTI15_0
	.long	.LBB15_19-.LJTI15_0
	.long	.LBB15_19-.LJTI15_0
	.long	.LBB15_19-.LJTI15_0
	.long	.LBB15_19-.LJTI15_0
	.long	.LBB15_19-.LJTI15_0
	.long	.LBB15_19-.LJTI15_0
	.long	.LBB15_19-.LJTI15_0
	.long	.LBB15_19-.LJTI15_0
	.long	.LBB15_16-.LJTI15_0
	.long	.LBB15_19-.LJTI15_0
	.long	.LBB15_19-.LJTI15_0
	.long	.LBB15_17-.LJTI15_0
	.long	.LBB15_19-.LJTI15_0
	.long	.LBB15_19-.LJTI15_0
	.long	.LBB15_19-.LJTI15_0
	.long	.LBB15_18-.LJTI15_0

	.section	.rdata$004,"dr"
	.p2align	4, 0x0
.LCPI16_0:
	.zero	16,15
.LCPI16_1:
	.byte	2
	.byte	2
	.byte	2
	.byte	2
	.byte	2
	.byte	2
	.byte	2
	.byte	2
	.byte	128
	.byte	128
	.byte	128
	.byte	128
	.byte	33
	.byte	1
	.byte	21
	.byte	73
.LCPI16_2:
	.byte	231
	.byte	163
	.byte	131
	.byte	131
	.byte	139
	.byte	203
	.byte	203
	.byte	203
	.byte	203
	.byte	203
	.byte	203
	.byte	203
	.byte	203
	.byte	219
	.byte	203
	.byte	203
.LCPI16_3:
	.byte	1
	.byte	1
	.byte	1
	.byte	1
	.byte	1
	.byte	1
	.byte	1
	.byte	1
	.byte	230
	.byte	174
	.byte	186
	.byte	186
	.byte	1
	.byte	1
	.byte	1
	.byte	1
.LCPI16_4:
	.zero	16,96
.LCPI16_5:
	.zero	16,112
.LCPI16_6:
	.zero	16,128
.LCPI16_7:
	.byte	255
	.byte	255
	.byte	255
	.byte	255
	.byte	255
	.byte	255
	.byte	255
	.byte	255
	.byte	255
	.byte	255
	.byte	255
	.byte	255
	.byte	255
	.byte	239
	.byte	223
	.byte	191
	.section	.text$022,"xr"
	.p2align	4
L_18:
	pushq	%r15
	pushq	%r14
	pushq	%r13
	pushq	%r12
	pushq	%rbx
	subq	$224, %rsp
	movq	%rsi, %rbx
	movq	%rdi, %r14
	cmpq	$64, %rsi
	jb	.LBB16_14
	movl	$64, %eax
	subq	%rbx, %rax
	movq	%r14, %rsi
	movq	%rbx, %rdx
	.p2align	4
.LBB16_2:
	movdqu	(%rsi), %xmm0
	movdqu	16(%rsi), %xmm1
	por	%xmm0, %xmm1
	movdqu	32(%rsi), %xmm0
	movdqu	48(%rsi), %xmm2
	por	%xmm0, %xmm2
	por	%xmm1, %xmm2
	pmovmskb	%xmm2, %ecx
	testl	%ecx, %ecx
	jne	.LBB16_5
	addq	$-64, %rdx
	addq	$64, %rsi
	addq	$64, %rax
	cmpq	$63, %rdx
	ja	.LBB16_2
	pxor	%xmm0, %xmm0
	movdqa	%xmm0, 112(%rsp)
	xorl	%ecx, %ecx
	movdqa	%xmm0, 64(%rsp)
	movdqa	%xmm0, 96(%rsp)
	movdqa	%xmm0, 80(%rsp)
	movdqa	%xmm0, 32(%rsp)
	movdqa	%xmm0, 128(%rsp)
	movdqa	%xmm0, 48(%rsp)
	movdqa	%xmm0, 16(%rsp)
	movdqa	%xmm0, (%rsp)
	jmp	.LBB16_11
.LBB16_5:
	negq	%rax
	pxor	%xmm3, %xmm3
	xorl	%ecx, %ecx
	movq	%rsi, %rdi
	pxor	%xmm13, %xmm13
	pxor	%xmm14, %xmm14
	pxor	%xmm12, %xmm12
	pxor	%xmm11, %xmm11
	pxor	%xmm0, %xmm0
	pxor	%xmm6, %xmm6
	pxor	%xmm1, %xmm1
	pxor	%xmm2, %xmm2
	jmp	.LBB16_6
	.p2align	4
.LBB16_8:
	movdqa	%xmm7, 48(%rsp)
	movdqa	%xmm7, %xmm13
	palignr	$15, %xmm3, %xmm13
	movdqa	%xmm3, 16(%rsp)
	movdqa	%xmm9, 32(%rsp)
	movdqa	%xmm9, %xmm12
	palignr	$15, %xmm7, %xmm12
	movdqa	%xmm10, %xmm7
	palignr	$15, %xmm9, %xmm7
	movdqa	%xmm6, 64(%rsp)
	movdqa	%xmm8, %xmm6
	palignr	$15, %xmm10, %xmm6
	movdqa	%xmm6, %xmm11
	psrlw	$4, %xmm11
	movdqa	.LCPI16_0(%rip), %xmm5
	pand	%xmm5, %xmm11
	movdqa	%xmm7, %xmm14
	psrlw	$4, %xmm14
	pand	%xmm5, %xmm14
	movdqa	%xmm12, %xmm9
	psrlw	$4, %xmm9
	pand	%xmm5, %xmm9
	movdqa	%xmm8, (%rsp)
	movdqa	%xmm13, %xmm8
	psrlw	$4, %xmm8
	pand	%xmm5, %xmm8
	movdqa	.LCPI16_1(%rip), %xmm4
	movdqa	%xmm10, %xmm3
	movdqa	%xmm10, 144(%rsp)
	movdqa	%xmm4, %xmm10
	pshufb	%xmm8, %xmm10
	movdqa	%xmm4, %xmm8
	pshufb	%xmm9, %xmm8
	movdqa	%xmm4, %xmm9
	pshufb	%xmm14, %xmm9
	movdqa	%xmm9, 128(%rsp)
	pshufb	%xmm11, %xmm4
	pand	%xmm5, %xmm6
	pand	%xmm5, %xmm7
	pand	%xmm5, %xmm12
	pand	%xmm5, %xmm13
	movdqa	.LCPI16_2(%rip), %xmm11
	movdqa	%xmm11, %xmm14
	pshufb	%xmm13, %xmm14
	movdqa	%xmm11, %xmm15
	pshufb	%xmm12, %xmm15
	movdqa	%xmm11, %xmm12
	pshufb	%xmm7, %xmm12
	pshufb	%xmm6, %xmm11
	movdqa	(%rsp), %xmm13
	psrlw	$4, %xmm13
	pand	%xmm5, %xmm13
	movdqa	%xmm2, 80(%rsp)
	psrlw	$4, %xmm3
	pand	%xmm5, %xmm3
	movdqa	%xmm1, 96(%rsp)
	movdqa	32(%rsp), %xmm1
	psrlw	$4, %xmm1
	pand	%xmm5, %xmm1
	movdqa	%xmm0, 112(%rsp)
	movdqa	48(%rsp), %xmm9
	movdqa	%xmm9, %xmm0
	psrlw	$4, %xmm0
	pand	%xmm5, %xmm0
	movdqa	.LCPI16_3(%rip), %xmm6
	movdqa	%xmm6, %xmm7
	pshufb	%xmm0, %xmm7
	pand	%xmm14, %xmm7
	pand	%xmm10, %xmm7
	movdqa	%xmm6, %xmm5
	pshufb	%xmm1, %xmm5
	pand	%xmm15, %xmm5
	pand	%xmm8, %xmm5
	movdqa	%xmm6, %xmm8
	pshufb	%xmm3, %xmm8
	pand	%xmm12, %xmm8
	pand	128(%rsp), %xmm8
	pshufb	%xmm13, %xmm6
	pand	%xmm11, %xmm6
	pand	%xmm4, %xmm6
	movdqa	32(%rsp), %xmm3
	movdqa	%xmm3, %xmm11
	palignr	$14, %xmm9, %xmm11
	movdqa	144(%rsp), %xmm15
	movdqa	%xmm15, %xmm10
	palignr	$14, %xmm3, %xmm10
	movdqa	%xmm3, %xmm12
	movdqa	(%rsp), %xmm0
	palignr	$14, %xmm15, %xmm0
	movdqa	%xmm9, %xmm1
	movdqa	%xmm9, %xmm13
	movdqa	16(%rsp), %xmm3
	palignr	$14, %xmm3, %xmm1
	movdqa	.LCPI16_4(%rip), %xmm2
	psubusb	%xmm2, %xmm1
	psubusb	%xmm2, %xmm0
	psubusb	%xmm2, %xmm10
	psubusb	%xmm2, %xmm11
	movdqa	%xmm9, %xmm4
	palignr	$13, %xmm3, %xmm4
	movdqa	.LCPI16_5(%rip), %xmm2
	psubusb	%xmm2, %xmm4
	por	%xmm1, %xmm4
	movdqa	96(%rsp), %xmm1
	movdqa	(%rsp), %xmm3
	palignr	$13, %xmm15, %xmm3
	psubusb	%xmm2, %xmm3
	por	%xmm0, %xmm3
	movdqa	%xmm15, %xmm9
	palignr	$13, %xmm12, %xmm9
	psubusb	%xmm2, %xmm9
	por	%xmm10, %xmm9
	movdqa	%xmm12, %xmm10
	palignr	$13, %xmm13, %xmm10
	psubusb	%xmm2, %xmm10
	movdqa	80(%rsp), %xmm2
	por	%xmm11, %xmm10
	movdqa	.LCPI16_6(%rip), %xmm0
	pand	%xmm0, %xmm4
	pxor	%xmm7, %xmm4
	pand	%xmm0, %xmm3
	pxor	%xmm6, %xmm3
	movdqa	64(%rsp), %xmm6
	pand	%xmm0, %xmm9
	pxor	%xmm8, %xmm9
	movdqa	(%rsp), %xmm8
	pand	%xmm0, %xmm10
	pxor	%xmm5, %xmm10
	pcmpeqd	%xmm0, %xmm0
	psubusb	%xmm0, %xmm13
	psubusb	%xmm0, %xmm12
	movdqa	%xmm8, %xmm11
	psubusb	.LCPI16_7(%rip), %xmm11
	psubusb	%xmm0, %xmm15
	movdqa	112(%rsp), %xmm0
	movdqa	%xmm12, %xmm14
	movdqa	%xmm15, %xmm12
.LBB16_9:
	por	%xmm3, %xmm2
	por	%xmm9, %xmm1
	por	%xmm10, %xmm6
	por	%xmm4, %xmm0
	leaq	(%rax,%rcx), %r8
	addq	$-64, %rcx
	addq	$64, %rdi
	movdqa	%xmm8, %xmm3
	cmpq	$63, %r8
	jbe	.LBB16_10
.LBB16_6:
	movdqu	(%rdi), %xmm7
	movdqu	16(%rdi), %xmm9
	movdqu	32(%rdi), %xmm10
	movdqu	48(%rdi), %xmm8
	movdqa	%xmm9, %xmm4
	por	%xmm7, %xmm4
	movdqa	%xmm10, %xmm5
	por	%xmm8, %xmm5
	por	%xmm4, %xmm5
	pmovmskb	%xmm5, %r8d
	testl	%r8d, %r8d
	jne	.LBB16_8
	movdqa	%xmm13, %xmm4
	movdqa	%xmm14, %xmm10
	movdqa	%xmm12, %xmm9
	movdqa	%xmm11, %xmm3
	pxor	%xmm13, %xmm13
	pxor	%xmm14, %xmm14
	pxor	%xmm12, %xmm12
	pxor	%xmm11, %xmm11
	jmp	.LBB16_9
.LBB16_10:
	movdqa	%xmm14, 128(%rsp)
	movdqa	%xmm12, 48(%rsp)
	movdqa	%xmm11, 16(%rsp)
	movdqa	%xmm13, 32(%rsp)
	movdqa	%xmm8, (%rsp)
	movdqa	%xmm6, 64(%rsp)
	movdqa	%xmm2, 80(%rsp)
	movdqa	%xmm1, 96(%rsp)
	movdqa	%xmm0, 112(%rsp)
	negq	%rcx
.LBB16_11:
	leaq	160(%rsp), %rdi
	callq	L_21
	movdqa	160(%rsp), %xmm13
	movdqa	176(%rsp), %xmm12
	movdqa	192(%rsp), %xmm10
	movdqa	208(%rsp), %xmm1
	movdqa	%xmm12, %xmm4
	por	%xmm13, %xmm4
	movdqa	%xmm10, %xmm5
	por	%xmm1, %xmm5
	por	%xmm4, %xmm5
	pmovmskb	%xmm5, %eax
	testl	%eax, %eax
	movdqa	32(%rsp), %xmm0
	movdqa	16(%rsp), %xmm2
	movdqa	48(%rsp), %xmm3
	movdqa	128(%rsp), %xmm4
	je	.LBB16_13
	movdqa	%xmm13, %xmm0
	palignr	$15, (%rsp), %xmm0
	movdqa	%xmm12, %xmm2
	palignr	$15, %xmm13, %xmm2
	movdqa	%xmm10, %xmm6
	palignr	$15, %xmm12, %xmm6
	movdqa	%xmm1, %xmm5
	palignr	$15, %xmm10, %xmm5
	movdqa	%xmm5, %xmm11
	psrlw	$4, %xmm11
	movdqa	.LCPI16_0(%rip), %xmm4
	pand	%xmm4, %xmm11
	movdqa	%xmm6, %xmm14
	psrlw	$4, %xmm14
	pand	%xmm4, %xmm14
	movdqa	%xmm2, %xmm9
	psrlw	$4, %xmm9
	pand	%xmm4, %xmm9
	movdqa	%xmm0, %xmm8
	psrlw	$4, %xmm8
	pand	%xmm4, %xmm8
	movdqa	.LCPI16_1(%rip), %xmm7
	movdqa	%xmm7, %xmm3
	pshufb	%xmm8, %xmm3
	movdqa	%xmm3, 16(%rsp)
	movdqa	%xmm7, %xmm8
	pshufb	%xmm9, %xmm8
	movdqa	%xmm7, %xmm3
	pshufb	%xmm14, %xmm3
	movdqa	%xmm3, 32(%rsp)
	pshufb	%xmm11, %xmm7
	pand	%xmm4, %xmm5
	pand	%xmm4, %xmm6
	pand	%xmm4, %xmm2
	pand	%xmm4, %xmm0
	movdqa	.LCPI16_2(%rip), %xmm11
	movdqa	%xmm11, %xmm14
	pshufb	%xmm0, %xmm14
	movdqa	%xmm11, %xmm15
	pshufb	%xmm2, %xmm15
	movdqa	%xmm11, %xmm9
	pshufb	%xmm6, %xmm9
	pshufb	%xmm5, %xmm11
	movdqa	%xmm1, %xmm0
	psrlw	$4, %xmm0
	pand	%xmm4, %xmm0
	movdqa	%xmm10, %xmm2
	psrlw	$4, %xmm2
	pand	%xmm4, %xmm2
	movdqa	%xmm12, %xmm3
	psrlw	$4, %xmm3
	pand	%xmm4, %xmm3
	movdqa	%xmm1, 48(%rsp)
	movdqa	%xmm13, %xmm1
	psrlw	$4, %xmm1
	pand	%xmm4, %xmm1
	movdqa	.LCPI16_3(%rip), %xmm6
	movdqa	%xmm6, %xmm5
	pshufb	%xmm1, %xmm5
	pand	%xmm14, %xmm5
	pand	16(%rsp), %xmm5
	movdqa	%xmm6, %xmm4
	pshufb	%xmm3, %xmm4
	pand	%xmm15, %xmm4
	pand	%xmm8, %xmm4
	movdqa	%xmm6, %xmm8
	pshufb	%xmm2, %xmm8
	pand	%xmm9, %xmm8
	pand	32(%rsp), %xmm8
	pshufb	%xmm0, %xmm6
	pand	%xmm11, %xmm6
	pand	%xmm7, %xmm6
	movdqa	%xmm12, %xmm9
	palignr	$14, %xmm13, %xmm9
	movdqa	%xmm10, %xmm2
	palignr	$14, %xmm12, %xmm2
	movdqa	%xmm13, %xmm0
	movdqa	(%rsp), %xmm11
	palignr	$14, %xmm11, %xmm0
	movdqa	48(%rsp), %xmm14
	movdqa	%xmm14, %xmm1
	palignr	$14, %xmm10, %xmm1
	movdqa	.LCPI16_4(%rip), %xmm3
	psubusb	%xmm3, %xmm1
	psubusb	%xmm3, %xmm0
	psubusb	%xmm3, %xmm2
	psubusb	%xmm3, %xmm9
	movdqa	%xmm14, %xmm7
	palignr	$13, %xmm10, %xmm7
	palignr	$13, %xmm12, %xmm10
	palignr	$13, %xmm13, %xmm12
	palignr	$13, %xmm11, %xmm13
	movdqa	.LCPI16_5(%rip), %xmm3
	psubusb	%xmm3, %xmm7
	por	%xmm1, %xmm7
	psubusb	%xmm3, %xmm13
	por	%xmm0, %xmm13
	psubusb	%xmm3, %xmm10
	por	%xmm2, %xmm10
	psubusb	%xmm3, %xmm12
	por	%xmm9, %xmm12
	movdqa	.LCPI16_6(%rip), %xmm0
	pand	%xmm0, %xmm7
	pxor	%xmm6, %xmm7
	pand	%xmm0, %xmm13
	pxor	%xmm5, %xmm13
	pand	%xmm0, %xmm10
	pxor	%xmm8, %xmm10
	pand	%xmm0, %xmm12
	pxor	%xmm4, %xmm12
	movdqa	%xmm14, %xmm2
	psubusb	.LCPI16_7(%rip), %xmm2
	por	%xmm7, %xmm2
	movdqa	%xmm13, %xmm0
	movdqa	%xmm12, %xmm4
	movdqa	%xmm10, %xmm3
.LBB16_13:
	por	64(%rsp), %xmm4
	por	112(%rsp), %xmm0
	por	%xmm4, %xmm0
	por	96(%rsp), %xmm3
	por	80(%rsp), %xmm2
	por	%xmm3, %xmm2
	por	%xmm0, %xmm2
	ptest	%xmm2, %xmm2
	je	.LBB16_37
.LBB16_14:
	xorl	%r13d, %r13d
	jmp	.LBB16_15
	.p2align	4
.LBB16_34:
	por	80(%rsp), %xmm2
	por	32(%rsp), %xmm0
	por	%xmm2, %xmm0
	por	112(%rsp), %xmm1
	por	96(%rsp), %xmm4
	por	%xmm1, %xmm4
	por	%xmm0, %xmm4
	ptest	%xmm4, %xmm4
	jne	.LBB16_35
.LBB16_15:
	movq	%r13, %r12
	movq	%rbx, %r15
	subq	%r13, %r15
	cmpq	$1025, %r15
	jb	.LBB16_35
	leaq	1024(%r12), %r13
	xorl	%ecx, %ecx
	cmpb	$-64, 1024(%r14,%r12)
	setl	%cl
	subq	%rcx, %r13
	xorl	%edx, %edx
	cmpb	$-64, (%r14,%r13)
	setl	%dl
	subq	%rdx, %r13
	xorl	%esi, %esi
	cmpb	$-64, (%r14,%r13)
	setl	%sil
	subq	%rsi, %r13
	leaq	(%r14,%r12), %rdi
	movq	%r13, %rax
	subq	%r12, %rax
	cmpq	$64, %rax
	jb	.LBB16_17
	negq	%rcx
	negq	%rdx
	negq	%rsi
	addq	%rcx, %rdx
	addq	%rsi, %rdx
	addq	$960, %rdx
	xorl	%ecx, %ecx
	movq	%rdi, %rsi
	.p2align	4
.LBB16_19:
	movdqu	(%rsi), %xmm0
	movdqu	16(%rsi), %xmm1
	por	%xmm0, %xmm1
	movdqu	32(%rsi), %xmm0
	movdqu	48(%rsi), %xmm2
	por	%xmm0, %xmm2
	por	%xmm1, %xmm2
	pmovmskb	%xmm2, %r8d
	testl	%r8d, %r8d
	jne	.LBB16_23
	addq	$64, %rcx
	leaq	-64(%rdx), %r8
	addq	$64, %rsi
	addq	$-64, %rax
	cmpq	$63, %rdx
	movq	%r8, %rdx
	ja	.LBB16_19
	addq	$64, %r8
	movq	%r8, %rax
	jmp	.LBB16_22
	.p2align	4
.LBB16_17:
	xorl	%ecx, %ecx
.LBB16_22:
	addq	%rcx, %rdi
	pxor	%xmm0, %xmm0
	movdqa	%xmm0, 32(%rsp)
	xorl	%ecx, %ecx
	movq	%rdi, %rsi
	movq	%rax, %rdx
.LBB16_25:
	movdqa	%xmm0, 80(%rsp)
	movdqa	%xmm0, 112(%rsp)
	movdqa	%xmm0, 96(%rsp)
	movdqa	%xmm0, 16(%rsp)
	movdqa	%xmm0, (%rsp)
	movdqa	%xmm0, 48(%rsp)
	movdqa	%xmm0, 128(%rsp)
	movdqa	%xmm0, 64(%rsp)
.LBB16_32:
	leaq	160(%rsp), %rdi
	callq	L_21
	movdqa	160(%rsp), %xmm13
	movdqa	176(%rsp), %xmm12
	movdqa	192(%rsp), %xmm10
	movdqa	208(%rsp), %xmm3
	movdqa	%xmm12, %xmm4
	por	%xmm13, %xmm4
	movdqa	%xmm10, %xmm5
	por	%xmm3, %xmm5
	por	%xmm4, %xmm5
	pmovmskb	%xmm5, %eax
	testl	%eax, %eax
	movdqa	16(%rsp), %xmm0
	movdqa	48(%rsp), %xmm1
	movdqa	(%rsp), %xmm2
	movdqa	128(%rsp), %xmm4
	je	.LBB16_34
	movdqa	%xmm13, %xmm0
	palignr	$15, 64(%rsp), %xmm0
	movdqa	%xmm12, %xmm2
	palignr	$15, %xmm13, %xmm2
	movdqa	%xmm10, %xmm6
	palignr	$15, %xmm12, %xmm6
	movdqa	%xmm3, %xmm5
	palignr	$15, %xmm10, %xmm5
	movdqa	%xmm5, %xmm11
	psrlw	$4, %xmm11
	movdqa	.LCPI16_0(%rip), %xmm4
	pand	%xmm4, %xmm11
	movdqa	%xmm6, %xmm14
	psrlw	$4, %xmm14
	pand	%xmm4, %xmm14
	movdqa	%xmm2, %xmm9
	psrlw	$4, %xmm9
	pand	%xmm4, %xmm9
	movdqa	%xmm0, %xmm8
	psrlw	$4, %xmm8
	pand	%xmm4, %xmm8
	movdqa	%xmm3, 144(%rsp)
	movdqa	.LCPI16_1(%rip), %xmm7
	movdqa	%xmm7, %xmm1
	pshufb	%xmm8, %xmm1
	movdqa	%xmm1, 16(%rsp)
	movdqa	%xmm7, %xmm8
	pshufb	%xmm9, %xmm8
	movdqa	%xmm7, %xmm1
	pshufb	%xmm14, %xmm1
	movdqa	%xmm1, (%rsp)
	pshufb	%xmm11, %xmm7
	pand	%xmm4, %xmm5
	pand	%xmm4, %xmm6
	pand	%xmm4, %xmm2
	pand	%xmm4, %xmm0
	movdqa	.LCPI16_2(%rip), %xmm11
	movdqa	%xmm11, %xmm14
	pshufb	%xmm0, %xmm14
	movdqa	%xmm11, %xmm15
	pshufb	%xmm2, %xmm15
	movdqa	%xmm11, %xmm9
	pshufb	%xmm6, %xmm9
	pshufb	%xmm5, %xmm11
	movdqa	%xmm3, %xmm0
	psrlw	$4, %xmm0
	pand	%xmm4, %xmm0
	movdqa	%xmm10, %xmm2
	psrlw	$4, %xmm2
	pand	%xmm4, %xmm2
	movdqa	%xmm12, %xmm3
	psrlw	$4, %xmm3
	pand	%xmm4, %xmm3
	movdqa	%xmm13, %xmm1
	psrlw	$4, %xmm1
	pand	%xmm4, %xmm1
	movdqa	.LCPI16_3(%rip), %xmm6
	movdqa	%xmm6, %xmm5
	pshufb	%xmm1, %xmm5
	pand	%xmm14, %xmm5
	pand	16(%rsp), %xmm5
	movdqa	%xmm6, %xmm4
	pshufb	%xmm3, %xmm4
	pand	%xmm15, %xmm4
	pand	%xmm8, %xmm4
	movdqa	%xmm6, %xmm8
	pshufb	%xmm2, %xmm8
	pand	%xmm9, %xmm8
	pand	(%rsp), %xmm8
	pshufb	%xmm0, %xmm6
	pand	%xmm11, %xmm6
	pand	%xmm7, %xmm6
	movdqa	%xmm12, %xmm9
	palignr	$14, %xmm13, %xmm9
	movdqa	%xmm10, %xmm2
	palignr	$14, %xmm12, %xmm2
	movdqa	%xmm13, %xmm0
	movdqa	64(%rsp), %xmm14
	palignr	$14, %xmm14, %xmm0
	movdqa	144(%rsp), %xmm11
	movdqa	%xmm11, %xmm1
	palignr	$14, %xmm10, %xmm1
	movdqa	.LCPI16_4(%rip), %xmm3
	psubusb	%xmm3, %xmm1
	psubusb	%xmm3, %xmm0
	psubusb	%xmm3, %xmm2
	psubusb	%xmm3, %xmm9
	movdqa	%xmm11, %xmm7
	palignr	$13, %xmm10, %xmm7
	palignr	$13, %xmm12, %xmm10
	palignr	$13, %xmm13, %xmm12
	palignr	$13, %xmm14, %xmm13
	movdqa	.LCPI16_5(%rip), %xmm3
	psubusb	%xmm3, %xmm7
	por	%xmm1, %xmm7
	psubusb	%xmm3, %xmm13
	por	%xmm0, %xmm13
	psubusb	%xmm3, %xmm10
	por	%xmm2, %xmm10
	psubusb	%xmm3, %xmm12
	por	%xmm9, %xmm12
	movdqa	.LCPI16_6(%rip), %xmm0
	pand	%xmm0, %xmm7
	pxor	%xmm6, %xmm7
	pand	%xmm0, %xmm13
	pxor	%xmm5, %xmm13
	pand	%xmm0, %xmm10
	pxor	%xmm8, %xmm10
	pand	%xmm0, %xmm12
	pxor	%xmm4, %xmm12
	movdqa	%xmm11, %xmm0
	psubusb	.LCPI16_7(%rip), %xmm0
	por	%xmm7, %xmm0
	movdqa	%xmm0, %xmm3
	movdqa	%xmm13, %xmm0
	movdqa	%xmm12, %xmm2
	movdqa	%xmm10, %xmm1
	movdqa	%xmm3, %xmm4
	jmp	.LBB16_34
	.p2align	4
.LBB16_23:
	addq	$64, %rdx
	cmpq	$64, %rdx
	jb	.LBB16_24
	pxor	%xmm14, %xmm14
	xorl	%ecx, %ecx
	pxor	%xmm1, %xmm1
	pxor	%xmm4, %xmm4
	pxor	%xmm3, %xmm3
	pxor	%xmm2, %xmm2
	pxor	%xmm7, %xmm7
	pxor	%xmm10, %xmm10
	pxor	%xmm8, %xmm8
	pxor	%xmm9, %xmm9
	jmp	.LBB16_27
	.p2align	4
.LBB16_29:
	movdqa	%xmm10, 80(%rsp)
	movdqa	%xmm15, %xmm10
	palignr	$15, %xmm14, %xmm10
	movdqa	%xmm8, 112(%rsp)
	movdqa	%xmm11, %xmm8
	palignr	$15, %xmm15, %xmm8
	movdqa	%xmm7, 32(%rsp)
	movdqa	%xmm0, %xmm7
	palignr	$15, %xmm11, %xmm7
	movdqa	%xmm12, %xmm6
	palignr	$15, %xmm0, %xmm6
	movdqa	%xmm9, 96(%rsp)
	movdqa	%xmm6, %xmm9
	psrlw	$4, %xmm9
	movdqa	.LCPI16_0(%rip), %xmm2
	pand	%xmm2, %xmm9
	movdqa	%xmm11, (%rsp)
	movdqa	%xmm7, %xmm11
	psrlw	$4, %xmm11
	pand	%xmm2, %xmm11
	movdqa	%xmm8, %xmm3
	psrlw	$4, %xmm3
	pand	%xmm2, %xmm3
	movdqa	%xmm10, %xmm4
	psrlw	$4, %xmm4
	pand	%xmm2, %xmm4
	movdqa	.LCPI16_1(%rip), %xmm1
	movdqa	%xmm1, %xmm5
	pshufb	%xmm4, %xmm5
	movdqa	%xmm1, %xmm4
	pshufb	%xmm3, %xmm4
	movdqa	%xmm4, 16(%rsp)
	movdqa	%xmm1, %xmm3
	pshufb	%xmm11, %xmm3
	movdqa	%xmm3, 64(%rsp)
	pshufb	%xmm9, %xmm1
	pand	%xmm2, %xmm6
	pand	%xmm2, %xmm7
	pand	%xmm2, %xmm8
	pand	%xmm2, %xmm10
	movdqa	.LCPI16_2(%rip), %xmm9
	movdqa	%xmm12, %xmm4
	movdqa	%xmm9, %xmm12
	pshufb	%xmm10, %xmm12
	movdqa	%xmm9, %xmm13
	pshufb	%xmm8, %xmm13
	movdqa	%xmm9, %xmm10
	pshufb	%xmm7, %xmm10
	pshufb	%xmm6, %xmm9
	movdqa	%xmm4, %xmm11
	psrlw	$4, %xmm11
	pand	%xmm2, %xmm11
	movdqa	%xmm0, %xmm3
	movdqa	%xmm14, 48(%rsp)
	movdqa	%xmm0, %xmm14
	psrlw	$4, %xmm14
	pand	%xmm2, %xmm14
	movdqa	(%rsp), %xmm8
	psrlw	$4, %xmm8
	pand	%xmm2, %xmm8
	movdqa	%xmm15, %xmm0
	psrlw	$4, %xmm15
	pand	%xmm2, %xmm15
	movdqa	.LCPI16_3(%rip), %xmm6
	movdqa	%xmm6, %xmm7
	pshufb	%xmm15, %xmm7
	movdqa	%xmm0, %xmm15
	pand	%xmm12, %xmm7
	movdqa	%xmm4, %xmm12
	pand	%xmm5, %xmm7
	movdqa	%xmm6, %xmm5
	pshufb	%xmm8, %xmm5
	pand	%xmm13, %xmm5
	pand	16(%rsp), %xmm5
	movdqa	%xmm6, %xmm8
	pshufb	%xmm14, %xmm8
	movdqa	%xmm3, %xmm13
	pand	%xmm10, %xmm8
	movdqa	80(%rsp), %xmm10
	pand	64(%rsp), %xmm8
	pshufb	%xmm11, %xmm6
	movdqa	(%rsp), %xmm11
	pand	%xmm9, %xmm6
	pand	%xmm1, %xmm6
	movdqa	%xmm11, %xmm9
	palignr	$14, %xmm0, %xmm9
	movdqa	%xmm3, %xmm4
	palignr	$14, %xmm11, %xmm4
	movdqa	%xmm12, %xmm3
	palignr	$14, %xmm13, %xmm3
	movdqa	%xmm0, %xmm2
	movdqa	48(%rsp), %xmm0
	palignr	$14, %xmm0, %xmm2
	movdqa	.LCPI16_4(%rip), %xmm1
	psubusb	%xmm1, %xmm2
	psubusb	%xmm1, %xmm3
	psubusb	%xmm1, %xmm4
	psubusb	%xmm1, %xmm9
	movdqa	%xmm15, %xmm1
	palignr	$13, %xmm0, %xmm1
	movdqa	.LCPI16_5(%rip), %xmm0
	psubusb	%xmm0, %xmm1
	por	%xmm2, %xmm1
	movdqa	%xmm12, %xmm2
	palignr	$13, %xmm13, %xmm2
	psubusb	%xmm0, %xmm2
	por	%xmm3, %xmm2
	movdqa	%xmm13, %xmm3
	palignr	$13, %xmm11, %xmm3
	psubusb	%xmm0, %xmm3
	por	%xmm4, %xmm3
	movdqa	%xmm11, %xmm4
	palignr	$13, %xmm15, %xmm4
	psubusb	%xmm0, %xmm4
	por	%xmm9, %xmm4
	movdqa	96(%rsp), %xmm9
	movdqa	.LCPI16_6(%rip), %xmm0
	pand	%xmm0, %xmm1
	pxor	%xmm7, %xmm1
	movdqa	32(%rsp), %xmm7
	pand	%xmm0, %xmm2
	pxor	%xmm6, %xmm2
	pand	%xmm0, %xmm3
	pxor	%xmm8, %xmm3
	movdqa	112(%rsp), %xmm8
	pand	%xmm0, %xmm4
	pxor	%xmm5, %xmm4
	pcmpeqd	%xmm0, %xmm0
	psubusb	%xmm0, %xmm15
	psubusb	%xmm0, %xmm11
	psubusb	%xmm0, %xmm13
	movdqa	%xmm12, %xmm0
	psubusb	.LCPI16_7(%rip), %xmm0
.LBB16_30:
	por	%xmm2, %xmm9
	por	%xmm3, %xmm8
	por	%xmm4, %xmm10
	por	%xmm1, %xmm7
	addq	$64, %rcx
	addq	$-64, %rax
	movdqa	%xmm12, %xmm14
	movdqa	%xmm15, %xmm1
	movdqa	%xmm11, %xmm4
	movdqa	%xmm13, %xmm3
	movdqa	%xmm0, %xmm2
	cmpq	$63, %rax
	jbe	.LBB16_31
.LBB16_27:
	movdqu	(%rsi,%rcx), %xmm15
	movdqu	16(%rsi,%rcx), %xmm11
	movdqu	32(%rsi,%rcx), %xmm0
	movdqu	48(%rsi,%rcx), %xmm12
	movdqa	%xmm11, %xmm5
	por	%xmm15, %xmm5
	movdqa	%xmm0, %xmm6
	por	%xmm12, %xmm6
	por	%xmm5, %xmm6
	pmovmskb	%xmm6, %edi
	testl	%edi, %edi
	jne	.LBB16_29
	pxor	%xmm15, %xmm15
	pxor	%xmm11, %xmm11
	pxor	%xmm13, %xmm13
	pxor	%xmm0, %xmm0
	jmp	.LBB16_30
.LBB16_24:
	xorl	%ecx, %ecx
	pxor	%xmm0, %xmm0
	movdqa	%xmm0, 32(%rsp)
	jmp	.LBB16_25
.LBB16_31:
	movdqa	%xmm0, 128(%rsp)
	movdqa	%xmm11, (%rsp)
	movdqa	%xmm13, 48(%rsp)
	movdqa	%xmm15, 16(%rsp)
	movdqa	%xmm12, 64(%rsp)
	movdqa	%xmm10, 80(%rsp)
	movdqa	%xmm9, 96(%rsp)
	movdqa	%xmm8, 112(%rsp)
	movdqa	%xmm7, 32(%rsp)
	jmp	.LBB16_32
.LBB16_35:
	pxor	%xmm0, %xmm0
	movdqa	%xmm0, 160(%rsp)
	movq	$0, 176(%rsp)
	addq	%r12, %r14
	leaq	160(%rsp), %rdi
	movq	%r14, %rsi
	movq	%r15, %rdx
	callq	L_2
	cmpb	$0, 160(%rsp)
	je	.LBB16_37
	addq	168(%rsp), %r12
	movq	%r12, %rbx
.LBB16_37:
	movq	%rbx, %rax
	addq	$224, %rsp
	popq	%rbx
	popq	%r12
	popq	%r13
	popq	%r14
	popq	%r15
	retq
.Lfunc_end16:

	.section	.text$023,"xr"
	.p2align	4
L_21:
	pushq	%rbp
	movq	%rsp, %rbp
	pushq	%rbx
	andq	$-64, %rsp
	subq	$128, %rsp
	movq	%rdi, %rbx
	addq	%rcx, %rsi
	subq	%rcx, %rdx
	xorps	%xmm0, %xmm0
	movaps	%xmm0, 48(%rsp)
	movaps	%xmm0, 32(%rsp)
	movaps	%xmm0, 16(%rsp)
	movaps	%xmm0, (%rsp)
	movq	%rsp, %rdi
	callq	sysv_memcpy
	movaps	(%rsp), %xmm0
	movaps	16(%rsp), %xmm1
	movaps	32(%rsp), %xmm2
	movaps	48(%rsp), %xmm3
	movups	%xmm2, 32(%rbx)
	movups	%xmm3, 48(%rbx)
	movups	%xmm0, (%rbx)
	movups	%xmm1, 16(%rbx)
	leaq	-8(%rbp), %rsp
	popq	%rbx
	popq	%rbp
	retq
.Lfunc_end17:

	.section	.rdata$004,"dr"
	.p2align	4, 0x0
.LCPI18_0:
	.byte	1
	.byte	0
	.byte	3
	.byte	2
	.byte	5
	.byte	4
	.byte	7
	.byte	6
	.byte	9
	.byte	8
	.byte	11
	.byte	10
	.byte	13
	.byte	12
	.byte	15
	.byte	14
.LCPI18_1:
	.short	65408
	.short	65408
	.short	65408
	.short	65408
	.short	65408
	.short	65408
	.short	65408
	.short	65408
.LCPI18_2:
	.zero	16,248
.LCPI18_3:
	.zero	16,216
.LCPI18_4:
	.short	127
	.short	127
	.short	127
	.short	127
	.short	127
	.short	127
	.short	127
	.short	127
	.section	.text$024,"xr"
	.p2align	4
L_20:
	pushq	%rbp
	movq	%rsp, %rbp
	pushq	%r14
	pushq	%rbx
	andq	$-64, %rsp
	subq	$128, %rsp
	movq	%rsi, %rbx
	movq	%rdi, %rsi
	cmpq	$64, %rbx
	jb	.LBB18_1
	xorl	%eax, %eax
	movq	%rbx, %rdx
	xorl	%r14d, %r14d
	jmp	.LBB18_3
	.p2align	4
.LBB18_5:
	movdqa	%xmm1, %xmm4
	psrlw	$8, %xmm4
	movdqa	%xmm0, %xmm5
	psrlw	$8, %xmm5
	packuswb	%xmm5, %xmm4
	movdqa	%xmm3, %xmm5
	psrlw	$8, %xmm5
	movdqa	%xmm2, %xmm6
	psrlw	$8, %xmm6
	packuswb	%xmm6, %xmm5
	movdqa	.LCPI18_2(%rip), %xmm6
	pand	%xmm6, %xmm4
	pand	%xmm6, %xmm5
	pxor	%xmm6, %xmm6
	movdqa	%xmm5, %xmm7
	pcmpeqb	%xmm6, %xmm7
	pmovmskb	%xmm7, %ecx
	pcmpeqb	%xmm4, %xmm6
	pmovmskb	%xmm6, %edi
	shll	$16, %edi
	orl	%ecx, %edi
	xorl	%ecx, %ecx
	popcntl	%edi, %ecx
	movdqa	.LCPI18_3(%rip), %xmm6
	pcmpeqb	%xmm6, %xmm5
	pmovmskb	%xmm5, %edi
	pcmpeqb	%xmm6, %xmm4
	pmovmskb	%xmm4, %r8d
	shll	$16, %r8d
	orl	%edi, %r8d
	xorl	%edi, %edi
	popcntl	%r8d, %edi
	movdqa	.LCPI18_4(%rip), %xmm4
	movdqa	%xmm3, %xmm5
	pminuw	%xmm4, %xmm5
	pcmpeqw	%xmm3, %xmm5
	movdqa	%xmm2, %xmm3
	pminuw	%xmm4, %xmm3
	pcmpeqw	%xmm2, %xmm3
	packsswb	%xmm3, %xmm5
	pmovmskb	%xmm5, %r8d
	movdqa	%xmm1, %xmm2
	pminuw	%xmm4, %xmm2
	pcmpeqw	%xmm1, %xmm2
	pminuw	%xmm0, %xmm4
	pcmpeqw	%xmm0, %xmm4
	packsswb	%xmm4, %xmm2
	pmovmskb	%xmm2, %r9d
	shll	$16, %r9d
	orl	%r8d, %r9d
	xorl	%r8d, %r8d
	popcntl	%r9d, %r8d
	addl	%edi, %r8d
	addl	%ecx, %r8d
	movl	$96, %ecx
	subq	%r8, %rcx
.LBB18_6:
	addq	%rcx, %r14
	addq	$64, %rax
	addq	$-64, %rdx
	cmpq	$63, %rdx
	jbe	.LBB18_7
.LBB18_3:
	movdqu	(%rsi,%rax), %xmm3
	movdqu	16(%rsi,%rax), %xmm2
	movdqu	32(%rsi,%rax), %xmm1
	movdqu	48(%rsi,%rax), %xmm0
	movdqa	.LCPI18_0(%rip), %xmm4
	pshufb	%xmm4, %xmm1
	pshufb	%xmm4, %xmm3
	pshufb	%xmm4, %xmm0
	pshufb	%xmm4, %xmm2
	movdqa	%xmm2, %xmm4
	por	%xmm0, %xmm4
	movdqa	%xmm3, %xmm5
	por	%xmm1, %xmm5
	por	%xmm4, %xmm5
	ptest	.LCPI18_1(%rip), %xmm5
	jne	.LBB18_5
	movl	$32, %ecx
	jmp	.LBB18_6
.LBB18_1:
	xorl	%r14d, %r14d
	xorl	%eax, %eax
	movq	%rbx, %rdx
.LBB18_7:
	addq	%rax, %rsi
	pxor	%xmm0, %xmm0
	movdqa	%xmm0, 48(%rsp)
	movdqa	%xmm0, 32(%rsp)
	movdqa	%xmm0, 16(%rsp)
	movdqa	%xmm0, (%rsp)
	movq	%rsp, %rdi
	callq	sysv_memcpy
	movdqa	.LCPI18_0(%rip), %xmm4
	movdqa	(%rsp), %xmm3
	movdqa	16(%rsp), %xmm2
	movdqa	32(%rsp), %xmm1
	movdqa	48(%rsp), %xmm0
	pshufb	%xmm4, %xmm1
	pshufb	%xmm4, %xmm3
	pshufb	%xmm4, %xmm0
	pshufb	%xmm4, %xmm2
	movdqa	%xmm2, %xmm4
	por	%xmm0, %xmm4
	movdqa	%xmm3, %xmm5
	por	%xmm1, %xmm5
	por	%xmm4, %xmm5
	ptest	.LCPI18_1(%rip), %xmm5
	je	.LBB18_8
	movdqa	%xmm1, %xmm4
	psrlw	$8, %xmm4
	movdqa	%xmm0, %xmm5
	psrlw	$8, %xmm5
	packuswb	%xmm5, %xmm4
	movdqa	%xmm3, %xmm5
	psrlw	$8, %xmm5
	movdqa	%xmm2, %xmm6
	psrlw	$8, %xmm6
	packuswb	%xmm6, %xmm5
	movdqa	.LCPI18_2(%rip), %xmm6
	pand	%xmm6, %xmm4
	pand	%xmm6, %xmm5
	movdqa	%xmm5, %xmm6
	pxor	%xmm7, %xmm7
	pcmpeqb	%xmm7, %xmm6
	pmovmskb	%xmm6, %eax
	pcmpeqb	%xmm4, %xmm7
	pmovmskb	%xmm7, %ecx
	shll	$16, %ecx
	orl	%eax, %ecx
	xorl	%eax, %eax
	popcntl	%ecx, %eax
	movdqa	.LCPI18_3(%rip), %xmm6
	pcmpeqb	%xmm6, %xmm5
	pmovmskb	%xmm5, %ecx
	pcmpeqb	%xmm6, %xmm4
	pmovmskb	%xmm4, %edx
	shll	$16, %edx
	orl	%ecx, %edx
	xorl	%ecx, %ecx
	popcntl	%edx, %ecx
	movdqa	.LCPI18_4(%rip), %xmm4
	movdqa	%xmm3, %xmm5
	pminuw	%xmm4, %xmm5
	pcmpeqw	%xmm3, %xmm5
	movdqa	%xmm2, %xmm3
	pminuw	%xmm4, %xmm3
	pcmpeqw	%xmm2, %xmm3
	packsswb	%xmm3, %xmm5
	pmovmskb	%xmm5, %edx
	movdqa	%xmm1, %xmm2
	pminuw	%xmm4, %xmm2
	pcmpeqw	%xmm1, %xmm2
	pminuw	%xmm0, %xmm4
	pcmpeqw	%xmm0, %xmm4
	packsswb	%xmm4, %xmm2
	pmovmskb	%xmm2, %esi
	shll	$16, %esi
	orl	%edx, %esi
	xorl	%edx, %edx
	popcntl	%esi, %edx
	addl	%ecx, %edx
	addl	%eax, %edx
	movl	$96, %eax
	subq	%rdx, %rax
	jmp	.LBB18_10
.LBB18_8:
	movl	$32, %eax
.LBB18_10:
	addq	%rax, %r14
	shrl	%ebx
	orq	$-32, %rbx
	addq	%r14, %rbx
	movq	%rbx, %rax
	leaq	-16(%rbp), %rsp
	popq	%rbx
	popq	%r14
	popq	%rbp
	retq
.Lfunc_end18:

	.section	.rdata$004,"dr"
	.p2align	4, 0x0
.LCPI19_0:
	.zero	16,192
.LCPI19_1:
	.zero	16,191
.LCPI19_2:
	.zero	16,224
.LCPI19_3:
	.zero	16,15
.LCPI19_4:
	.zero	16,220
.LCPI19_5:
	.zero	16,252
.LCPI19_6:
	.zero	16,3
.LCPI19_7:
	.zero	16,63
.LCPI19_8:
	.zero	16,232
.LCPI19_9:
	.zero	16,239
.LCPI19_10:
	.zero	16,127
.LCPI19_11:
	.zero	16,223
	.section	.text$025,"xr"
	.p2align	4
L_19:
	pushq	%rbp
	pushq	%r15
	pushq	%r14
	pushq	%r13
	pushq	%r12
	pushq	%rbx
	pushq	%rax
	movq	%r9, %rbx
	movq	%r8, %r13
	movq	%rcx, (%rsp)
	movq	%rdx, %r14
	movq	%rdi, %r12
	cmpq	$64, %rsi
	movl	$64, %ebp
	cmovbq	%rsi, %rbp
	jae	.LBB19_2
	movq	%r12, %rdi
	movq	%rbp, %rsi
	callq	L_18
	movq	%rax, %r15
	jmp	.LBB19_4
.LBB19_2:
	movl	$63, %esi
	movq	%r12, %rdi
	callq	L_18
	movq	%rax, %r15
	addq	$4, %rax
	cmpq	$64, %rax
	jb	.LBB19_4
	leaq	(%r12,%r15), %rdi
	subq	%r15, %rbp
	movq	%rbp, %rsi
	callq	L_18
	addq	%rax, %r15
.LBB19_4:
	cmpq	$7, %r15
	ja	.LBB19_16
	testq	%r15, %r15
	je	.LBB19_21
	xorl	%ebp, %ebp
	movq	%r15, %rax
	jmp	.LBB19_7
.LBB19_16:
	cmpq	$16, %r15
	ja	.LBB19_19
	movq	-8(%r12,%r15), %xmm0
	movq	(%r12), %xmm1
	punpcklqdq	%xmm0, %xmm1
	movq	%r15, %rax
	shlq	$4, %rax
	leaq	.Lstatic.11(%rip), %rcx
	movdqu	-128(%rax,%rcx), %xmm0
	pshufb	%xmm0, %xmm1
	pmovmskb	%xmm1, %eax
	testl	%eax, %eax
	je	.LBB19_24
	leaq	.Lstatic.12(%rip), %rax
	subq	%r15, %rax
	movdqu	16(%rax), %xmm0
	pmaxub	%xmm0, %xmm1
	movdqa	%xmm1, %xmm6
	pslldq	$1, %xmm6
	movdqa	%xmm1, %xmm5
	pslldq	$2, %xmm5
	movdqa	.LCPI19_0(%rip), %xmm4
	movdqa	%xmm4, %xmm3
	movdqa	%xmm1, %xmm0
	pblendvb	%xmm0, %xmm6, %xmm3
	movdqa	.LCPI19_1(%rip), %xmm2
	movdqa	.LCPI19_2(%rip), %xmm0
	pmaxub	%xmm5, %xmm0
	movdqa	%xmm3, %xmm7
	psrlw	$2, %xmm7
	movdqa	.LCPI19_3(%rip), %xmm8
	pand	%xmm8, %xmm7
	psllw	$4, %xmm0
	pandn	%xmm0, %xmm8
	por	%xmm7, %xmm8
	movdqa	%xmm3, %xmm0
	pmaxub	%xmm5, %xmm0
	movdqa	%xmm0, %xmm7
	pminub	%xmm2, %xmm7
	pcmpeqb	%xmm0, %xmm7
	pand	.LCPI19_4(%rip), %xmm7
	por	%xmm8, %xmm7
	movdqa	.LCPI19_11(%rip), %xmm8
	pminub	%xmm6, %xmm8
	pcmpeqb	%xmm6, %xmm8
	movdqa	%xmm6, %xmm0
	psllw	$2, %xmm0
	pand	.LCPI19_5(%rip), %xmm0
	movdqa	%xmm1, %xmm9
	psrlw	$4, %xmm9
	pand	.LCPI19_6(%rip), %xmm9
	movdqa	.LCPI19_7(%rip), %xmm6
	pminub	%xmm0, %xmm6
	pcmpeqb	%xmm0, %xmm6
	paddb	%xmm5, %xmm6
	paddb	.LCPI19_8(%rip), %xmm6
	por	%xmm0, %xmm9
	paddb	%xmm4, %xmm9
	movdqa	.LCPI19_9(%rip), %xmm0
	pminub	%xmm5, %xmm0
	pcmpeqb	%xmm5, %xmm0
	pblendvb	%xmm0, %xmm7, %xmm6
	movdqa	.LCPI19_10(%rip), %xmm5
	pand	%xmm1, %xmm5
	psllw	$6, %xmm3
	pand	%xmm4, %xmm3
	paddb	%xmm5, %xmm3
	pblendvb	%xmm0, %xmm3, %xmm9
	movdqa	%xmm6, %xmm0
	punpckhbw	%xmm9, %xmm0
	punpcklbw	%xmm9, %xmm6
	pminub	%xmm1, %xmm2
	pcmpeqb	%xmm1, %xmm2
	pand	%xmm2, %xmm8
	pmovmskb	%xmm8, %eax
	movzbl	%al, %ecx
	popcntl	%ecx, %edx
	shll	$4, %ecx
	leaq	.Lstatic.13(%rip), %rsi
	movdqu	(%rcx,%rsi), %xmm1
	pshufb	%xmm1, %xmm6
	movdqu	%xmm6, (%r14)
	shrl	$8, %eax
	popcntl	%eax, %ebp
	shll	$4, %eax
	movdqu	(%rax,%rsi), %xmm1
	pshufb	%xmm1, %xmm0
	movdqu	%xmm0, (%r14,%rdx,2)
	addl	%edx, %ebp
	addl	%ebp, %ebp
	jmp	.LBB19_35
.LBB19_15:
	addl	$67043328, %ecx
	shrl	$10, %ecx
	addl	$-10240, %ecx
	rolw	$8, %cx
	movw	%cx, (%rdi)
	orl	$56320, %edx
	rolw	$8, %dx
	movw	%dx, 2(%rdi)
	movl	$4, %ecx
	addq	%rcx, %rbp
	testq	%rax, %rax
	je	.LBB19_35
	.p2align	4
.LBB19_7:
	movzbl	(%r12), %ecx
	movl	$1, %edx
	testb	%cl, %cl
	jns	.LBB19_12
	movzbl	1(%r12), %esi
	andl	$63, %esi
	cmpb	$-33, %cl
	ja	.LBB19_10
	andl	$31, %ecx
	shll	$6, %ecx
	orl	%esi, %ecx
	movl	$2, %edx
	jmp	.LBB19_12
.LBB19_10:
	movzbl	2(%r12), %edx
	andl	$63, %edx
	cmpb	$-17, %cl
	ja	.LBB19_14
	shll	$12, %ecx
	movzwl	%cx, %ecx
	shll	$6, %esi
	orl	%ecx, %esi
	orl	%edx, %esi
	movl	$3, %edx
	movl	%esi, %ecx
	.p2align	4
.LBB19_12:
	addq	%rdx, %r12
	subq	%rdx, %rax
	leaq	(%r14,%rbp), %rdi
.LBB19_13:
	rolw	$8, %cx
	movw	%cx, (%rdi)
	movl	$2, %ecx
	addq	%rcx, %rbp
	testq	%rax, %rax
	jne	.LBB19_7
	jmp	.LBB19_35
.LBB19_14:
	movzbl	3(%r12), %edi
	andl	$63, %edi
	andl	$7, %ecx
	shll	$18, %ecx
	shll	$12, %esi
	orl	%ecx, %esi
	shll	$6, %edx
	orl	%edi, %edx
	leal	(%rdx,%rsi), %ecx
	addq	$4, %r12
	addq	$-4, %rax
	leaq	(%r14,%rbp), %rdi
	cmpl	$65535, %esi
	jbe	.LBB19_13
	jmp	.LBB19_15
.LBB19_19:
	leaq	16(,%r15,2), %rcx
	movq	%rcx, %rsi
	shrq	%rsi
	cmpq	%r15, %rsi
	cmovaeq	%r15, %rsi
	cmpq	$32, %rcx
	jb	.LBB19_20
	movdqu	(%r12), %xmm1
	pmovmskb	%xmm1, %eax
	testl	%eax, %eax
	je	.LBB19_25
.LBB19_20:
	xorl	%r8d, %r8d
.LBB19_29:
	leaq	(%r8,%r8), %rbp
	movq	%r15, %rax
	subq	%r8, %rax
	je	.LBB19_35
	cmpq	$191, %rax
	ja	.LBB19_32
	movq	%r12, %rdi
	movq	%r15, %rsi
	movq	%r14, %rdx
	jmp	.LBB19_34
.LBB19_21:
	movq	(%rsp), %rdi
	addq	%rbx, %rdi
	xorl	%ebp, %ebp
	xorl	%r15d, %r15d
	jmp	.LBB19_40
.LBB19_24:
	leaq	(%r15,%r15), %rbp
	pxor	%xmm0, %xmm0
	pxor	%xmm2, %xmm2
	punpckhbw	%xmm1, %xmm2
	punpcklbw	%xmm1, %xmm0
	movdqu	%xmm0, (%r14)
	movdqu	%xmm2, 16(%r14)
	jmp	.LBB19_35
.LBB19_32:
	movq	%r12, %rdi
	movq	%r15, %rsi
	movq	%r14, %rdx
	movq	%rbp, %r9
	callq	L_12
	movq	%rdx, %rbp
	movq	%r15, %rcx
	subq	%rax, %rcx
	cmpq	$191, %rcx
	ja	.LBB19_35
	movq	%r12, %rdi
	movq	%r15, %rsi
	movq	%r14, %rdx
	leaq	16(,%r15,2), %rcx
	movq	%rax, %r8
.LBB19_34:
	movq	%rbp, %r9
	callq	L_13
	movq	%rdx, %rbp
.LBB19_35:
	subq	%rbx, %r13
	cmpq	%r13, %rbp
	jbe	.LBB19_37
	andq	$-2, %r13
	movzbl	(%r14,%r13), %eax
	andb	$-4, %al
	leaq	-2(%r13), %rbp
	cmpb	$-36, %al
	cmovneq	%r13, %rbp
	movq	%r14, %rdi
	movq	%rbp, %rsi
	callq	L_20
	movq	%rax, %r15
.LBB19_37:
	movq	(%rsp), %r8
	leaq	(%r8,%rbx), %rdi
	movq	%rdi, %rax
	subq	%r14, %rax
	cmpq	%rbp, %rax
	jae	.LBB19_40
	cmpq	$4, %rbp
	jb	.LBB19_39
	leaq	(%r8,%rbx), %rax
	subq	%r14, %rax
	cmpq	$32, %rax
	jae	.LBB19_43
.LBB19_39:
	xorl	%eax, %eax
.LBB19_52:
	movq	%rbp, %rdx
	movq	%rax, %rcx
	andq	$3, %rdx
	je	.LBB19_55
	movq	%rax, %rcx
	.p2align	4
.LBB19_54:
	movzbl	(%r14,%rcx), %esi
	movb	%sil, (%rdi,%rcx)
	incq	%rcx
	decq	%rdx
	jne	.LBB19_54
.LBB19_55:
	subq	%rbp, %rax
	cmpq	$-4, %rax
	ja	.LBB19_58
	leaq	(%rbx,%r8), %rax
	addq	$3, %rax
	.p2align	4
.LBB19_57:
	movzbl	(%r14,%rcx), %edx
	movb	%dl, -3(%rax,%rcx)
	movzbl	1(%r14,%rcx), %edx
	movb	%dl, -2(%rax,%rcx)
	movzbl	2(%r14,%rcx), %edx
	movb	%dl, -1(%rax,%rcx)
	movzbl	3(%r14,%rcx), %edx
	movb	%dl, (%rax,%rcx)
	addq	$4, %rcx
	cmpq	%rcx, %rbp
	jne	.LBB19_57
	jmp	.LBB19_58
.LBB19_40:
	movq	%r14, %rsi
	movq	%rbp, %rdx
	callq	sysv_memmove
.LBB19_58:
	addq	%rbx, %rbp
	movq	%r15, %rax
	movq	%rbp, %rdx
	addq	$8, %rsp
	popq	%rbx
	popq	%r12
	popq	%r13
	popq	%r14
	popq	%r15
	popq	%rbp
	retq
.LBB19_43:
	cmpq	$32, %rbp
	jae	.LBB19_45
	xorl	%eax, %eax
	jmp	.LBB19_49
.LBB19_45:
	movq	%rbp, %rax
	andq	$-32, %rax
	leaq	(%rbx,%r8), %rcx
	addq	$16, %rcx
	xorl	%edx, %edx
	.p2align	4
.LBB19_46:
	movdqu	(%r14,%rdx), %xmm0
	movdqu	16(%r14,%rdx), %xmm1
	movdqu	%xmm0, -16(%rcx,%rdx)
	movdqu	%xmm1, (%rcx,%rdx)
	addq	$32, %rdx
	cmpq	%rdx, %rax
	jne	.LBB19_46
	cmpq	%rax, %rbp
	je	.LBB19_58
	testb	$28, %bpl
	je	.LBB19_52
.LBB19_49:
	movq	%rax, %rcx
	movq	%rbp, %rax
	andq	$-4, %rax
	.p2align	4
.LBB19_50:
	movl	(%r14,%rcx), %edx
	movl	%edx, (%rdi,%rcx)
	addq	$4, %rcx
	cmpq	%rcx, %rax
	jne	.LBB19_50
	cmpq	%rax, %rbp
	je	.LBB19_58
	jmp	.LBB19_52
.LBB19_25:
	cmpq	$31, %rsi
	ja	.LBB19_28
	pxor	%xmm0, %xmm0
	pxor	%xmm2, %xmm2
	punpckhbw	%xmm1, %xmm2
	pxor	%xmm3, %xmm3
	punpcklbw	%xmm1, %xmm3
	movdqu	%xmm3, (%r14)
	movdqu	%xmm2, 16(%r14)
	movdqu	-16(%rsi,%r12), %xmm1
	pmovmskb	%xmm1, %eax
	movl	$16, %r8d
	testl	%eax, %eax
	jne	.LBB19_29
	pxor	%xmm2, %xmm2
	punpckhbw	%xmm1, %xmm2
	punpcklbw	%xmm1, %xmm0
	movdqu	%xmm0, -32(%r14,%rsi,2)
	movdqu	%xmm2, -16(%r14,%rsi,2)
	movq	%rsi, %r8
	jmp	.LBB19_29
.LBB19_28:
	movq	%r12, %rdi
	movq	%r14, %rdx
	movq	%rcx, %rbp
	callq	L_11
	movq	%rbp, %rcx
	movq	%rax, %r8
	jmp	.LBB19_29
.Lfunc_end19:

	.section	.rdata$004,"dr"
	.p2align	4, 0x0
.LCPI20_0:
	.zero	16,127
	.section	.text$026,"xr"
	.p2align	4
L_10:
	pushq	%rbp
	pushq	%r15
	pushq	%r14
	pushq	%r12
	pushq	%rbx
	movq	%rdx, %r8
	xorl	%eax, %eax
	xorl	%edx, %edx
	xorl	%r9d, %r9d
	.p2align	4
.LBB20_4:
	movq	%rsi, %r10
	subq	%rax, %r10
	cmpq	$4, %r10
	jb	.LBB20_41
	movq	%rcx, %r11
	subq	%rdx, %r11
	cmpq	$4, %r11
	jb	.LBB20_41
	cmpq	$32, %r11
	jb	.LBB20_10
	cmpq	$15, %r10
	jbe	.LBB20_10
	movdqu	(%rdi,%rax), %xmm0
	pmovmskb	%xmm0, %r10d
	orl	$65536, %r10d
	rep		bsfl	%r10d, %r10d
	cmpw	$4, %r10w
	jae	.LBB20_15
	movd	%xmm0, %r10d
	testb	%r10b, %r10b
	jns	.LBB20_1
.LBB20_11:
	cmpb	$-31, %r10b
	jae	.LBB20_17
	movzbl	1(%rdi,%rax), %r11d
	movl	%r10d, %ebx
	shrb	$4, %bl
	andb	$12, %bl
	movl	%r11d, %ebp
	shrb	$6, %bpl
	orb	%bl, %bpl
	cmpb	$14, %bpl
	jne	.LBB20_26
	leal	62(%r10), %ebp
	cmpb	$30, %bpl
	jae	.LBB20_23
.LBB20_14:
	movzbl	%r10b, %r10d
	shll	$6, %r10d
	movzbl	%r11b, %r11d
	leal	(%r10,%r11), %r14d
	addl	$-12416, %r14d
	movl	$2, %ebx
	jmp	.LBB20_3
	.p2align	4
.LBB20_10:
	movzbl	(%rdi,%rax), %r10d
	testb	%r10b, %r10b
	js	.LBB20_11
.LBB20_1:
	movzbl	%r10b, %r14d
	jmp	.LBB20_2
	.p2align	4
.LBB20_15:
	movzwl	%r10w, %ebx
	pand	.LCPI20_0(%rip), %xmm0
	pxor	%xmm1, %xmm1
	pxor	%xmm2, %xmm2
	punpckhbw	%xmm0, %xmm2
	punpcklbw	%xmm0, %xmm1
	movdqu	%xmm1, (%r8,%rdx)
	movdqu	%xmm2, 16(%r8,%rdx)
	movl	%ebx, %r11d
	addl	%r11d, %r11d
	movl	$2, %r10d
.LBB20_16:
	addq	%r11, %rdx
	addq	%r9, %r10
	addq	%rbx, %rax
	movq	%r10, %r9
	cmpq	$16, %r10
	jb	.LBB20_4
	jmp	.LBB20_41
.LBB20_17:
	movzbl	1(%rdi,%rax), %r11d
	cmpb	$-20, %r10b
	ja	.LBB20_21
	cmpb	$-65, %r11b
	jg	.LBB20_26
	movzbl	2(%rdi,%rax), %ebx
	cmpb	$-65, %bl
	jg	.LBB20_34
	movzbl	%r11b, %r11d
	movzbl	%r10b, %r10d
	shll	$12, %r10d
	shll	$6, %r11d
	addl	%r10d, %r11d
	leal	(%rbx,%r11), %r14d
	addl	$-925824, %r14d
	jmp	.LBB20_37
.LBB20_21:
	cmpb	$-65, %r11b
	jg	.LBB20_26
	leal	62(%r10), %ebp
.LBB20_23:
	movzbl	%r10b, %ebx
	movb	$-65, %r15b
	addl	$-224, %ebx
	cmpl	$20, %ebx
	ja	.LBB20_30
	leaq	.LJTI20_0(%rip), %r14
	movslq	(%r14,%rbx,4), %rbx
	addq	%r14, %rbx
	jmpq	*%rbx
.LBB20_25:
	movb	$-96, %r12b
	jmp	.LBB20_31
.LBB20_26:
	movl	$65533, %r14d
.LBB20_2:
	movl	$1, %ebx
.LBB20_3:
	movl	%r14d, %r10d
	rolw	$8, %r10w
	movw	%r10w, (%r8,%rdx)
	addq	$2, %rdx
	incq	%r9
	xorl	%r10d, %r10d
	cmpl	$65533, %r14d
	cmovneq	%r9, %r10
	addq	%rbx, %rax
	movq	%r10, %r9
	cmpq	$16, %r10
	jb	.LBB20_4
	jmp	.LBB20_41
.LBB20_27:
	movb	$-112, %r12b
	jmp	.LBB20_31
.LBB20_28:
	movb	$-97, %r15b
	jmp	.LBB20_30
.LBB20_29:
	movb	$-113, %r15b
.LBB20_30:
	movb	$-128, %r12b
.LBB20_31:
	movl	$65533, %r14d
	movl	$1, %ebx
	cmpb	$50, %bpl
	ja	.LBB20_3
	cmpb	%r11b, %r12b
	setbe	%bpl
	cmpb	%r15b, %r11b
	setbe	%r15b
	andb	%bpl, %r15b
	cmpb	$1, %r15b
	jne	.LBB20_3
	cmpb	$-33, %r10b
	jbe	.LBB20_14
.LBB20_34:
	movzbl	2(%rdi,%rax), %r15d
	movl	$65533, %r14d
	movl	$2, %ebx
	cmpb	$-65, %r15b
	jg	.LBB20_3
	cmpb	$-17, %r10b
	ja	.LBB20_38
	movzbl	%r10b, %r10d
	shll	$12, %r10d
	movzbl	%r11b, %r11d
	shll	$6, %r11d
	addl	%r10d, %r11d
	leal	(%r15,%r11), %r14d
	addl	$-925824, %r14d
.LBB20_37:
	movl	$3, %ebx
	jmp	.LBB20_3
.LBB20_38:
	movzbl	3(%rdi,%rax), %r12d
	movl	$3, %ebx
	cmpb	$-65, %r12b
	jg	.LBB20_3
	movzbl	%r10b, %r10d
	shll	$18, %r10d
	movzbl	%r11b, %r11d
	shll	$12, %r11d
	addl	%r10d, %r11d
	shll	$6, %r15d
	addl	%r11d, %r15d
	leal	(%r12,%r15), %r14d
	addl	$-63447168, %r14d
	movl	$4, %ebx
	cmpl	$65536, %r14d
	jb	.LBB20_3
	leal	67043328(%r14), %r10d
	shrl	$10, %r10d
	addl	$-10240, %r10d
	rolw	$8, %r10w
	movw	%r10w, (%r8,%rdx)
	andl	$1023, %r14d
	orl	$56320, %r14d
	rolw	$8, %r14w
	movw	%r14w, 2(%r8,%rdx)
	movl	$1, %r10d
	movl	$4, %r11d
	jmp	.LBB20_16
.LBB20_41:
	popq	%rbx
	popq	%r12
	popq	%r14
	popq	%r15
	popq	%rbp
	retq
.Lfunc_end20:
	.section	.rdata$027,"dr"
	.p2align	2, 0x0
.LJTI20_0:
	.long	.LBB20_25-.LJTI20_0
	.long	.LBB20_30-.LJTI20_0
	.long	.LBB20_30-.LJTI20_0
	.long	.LBB20_30-.LJTI20_0
	.long	.LBB20_30-.LJTI20_0
	.long	.LBB20_30-.LJTI20_0
	.long	.LBB20_30-.LJTI20_0
	.long	.LBB20_30-.LJTI20_0
	.long	.LBB20_30-.LJTI20_0
	.long	.LBB20_30-.LJTI20_0
	.long	.LBB20_30-.LJTI20_0
	.long	.LBB20_30-.LJTI20_0
	.long	.LBB20_30-.LJTI20_0
	.long	.LBB20_28-.LJTI20_0
	.long	.LBB20_30-.LJTI20_0
	.long	.LBB20_30-.LJTI20_0
	.long	.LBB20_27-.LJTI20_0
	.long	.LBB20_30-.LJTI20_0
	.long	.LBB20_30-.LJTI20_0
	.long	.LBB20_30-.LJTI20_0
	.long	.LBB20_29-.LJTI20_0

	.section	.text$028,"xr"
	.p2align	4
L_6:
	pushq	%rbp
	pushq	%r15
	pushq	%r14
	pushq	%r13
	pushq	%r12
	pushq	%rbx
	subq	$3072, %rsp
	movq	$0, (%rsp)
	subq	$1368, %rsp
	movq	%rdx, 120(%rsp)
	movq	%rsi, 312(%rsp)
	movl	(%rdi), %ebp
	movzbl	4(%rdi), %eax
	movl	%eax, 12(%rsp)
	leaq	344(%rsp), %rdi
	xorl	%ebx, %ebx
	movl	$4096, %edx
	xorl	%esi, %esi
	callq	sysv_memset
	pxor	%xmm0, %xmm0
	movdqa	%xmm0, 320(%rsp)
	movq	$0, 336(%rsp)
	leaq	47(%rsp), %rax
	movq	%rax, 16(%rsp)
	movdqu	%xmm0, 24(%rsp)
.LBB21_1:
	movq	%rbx, 136(%rsp)
	leaq	344(%rsp), %rsi
	movl	$4096, %r12d
	movl	$4096, %edx
	xorl	%edi, %edi
	callq	sysv_read
	testq	%rax, %rax
	js	.LBB21_7
	cmpq	$4096, %rax
	cmovbq	%rax, %r12
	testq	%rax, %rax
	je	.LBB21_3
	cmpq	$8, %rax
	movq	%r12, 152(%rsp)
	jae	.LBB21_22
	movl	$24, %r14d
	leaq	320(%rsp), %r12
	jmp	.LBB21_36
	.p2align	4
.LBB21_22:
	movq	24(%rsp), %r14
	movq	32(%rsp), %r15
	testq	%r15, %r15
	jne	.LBB21_28
	leaq	-1(%r14), %rax
	cmpq	$-8704, %rax
	jae	.LBB21_25
	xorl	%r15d, %r15d
	.p2align	4
.LBB21_28:
	leaq	512(,%r12,2), %rdx
	subq	%r14, %rdx
	jbe	.LBB21_29
.LBB21_30:
	movq	%r15, %rax
	subq	%r14, %rax
	cmpq	%rax, %rdx
	ja	.LBB21_31
.LBB21_33:
	leaq	(%r14,%rdx), %rax
	movq	16(%rsp), %r12
	movq	%rax, %rbx
	cmpq	%rax, %r14
	jae	.LBB21_35
	addq	%r12, %r14
	movq	%r14, %rdi
	xorl	%esi, %esi
	callq	sysv_memset
.LBB21_35:
	movq	%rbx, %r14
	movq	%rbx, 24(%rsp)
	movq	%r15, 32(%rsp)
	jmp	.LBB21_36
.LBB21_25:
	movb	$1, %al
	movb	$2, %bl
	cmpq	$-8705, %r14
	ja	.LBB21_106
	leaq	8704(%r14), %r15
	movl	$1, %esi
	movq	%r15, %rdi
	callq	rattle_alloc
	movq	%rax, %rcx
	movb	$1, %al
	testb	$1, %cl
	je	.LBB21_106
	movq	%rdx, 16(%rsp)
	movq	%r15, 32(%rsp)
	movl	$8704, %r15d
	leaq	512(,%r12,2), %rdx
	subq	%r14, %rdx
	ja	.LBB21_30
	.p2align	4
.LBB21_29:
	movq	16(%rsp), %r12
.LBB21_36:
	movl	%ebp, 40(%rsp)
	shrl	$24, %ebp
	cmpb	$3, %bpl
	movl	$3, %ebx
	cmovbl	%ebp, %ebx
	movl	$0, 116(%rsp)
	movl	$0, 192(%rsp)
	xorl	%r15d, %r15d
	xorl	%edx, %edx
	movq	%r12, 128(%rsp)
	movq	%rbx, 144(%rsp)
	movq	%r14, 48(%rsp)
.LBB21_37:
	movq	%rdx, %rax
	subq	%rbx, %rax
	movq	%r15, 56(%rsp)
	movq	%rdx, 160(%rsp)
	jae	.LBB21_62
	leaq	(%rsp,%rdx), %rsi
	addq	$40, %rsi
	subq	%rdx, %rbx
	movl	$4, %ebp
	subq	%rbx, %rbp
	movq	152(%rsp), %rax
	cmpq	%rax, %rbp
	cmovaeq	%rax, %rbp
	movl	$0, 224(%rsp)
	leaq	224(%rsp), %rdi
	movq	%rbx, %rdx
	callq	sysv_memcpy
	leaq	(%rsp,%rbx), %rdi
	addq	$224, %rdi
	leaq	344(%rsp), %rsi
	movq	%rbp, %rdx
	callq	sysv_memcpy
	addq	%rbx, %rbp
	movl	224(%rsp), %eax
	movl	%eax, 192(%rsp)
	leaq	(%r12,%r15), %r13
	movq	%r14, %r12
	subq	%r15, %r12
	pxor	%xmm0, %xmm0
	movdqa	%xmm0, 224(%rsp)
	movq	$0, 240(%rsp)
	leaq	192(%rsp), %r14
	movq	%r14, %rdi
	movq	%rbp, %rsi
	movq	%r13, %rdx
	movq	%r12, %rcx
	callq	L_22
	movq	%rbp, %rcx
	cmpq	%rbp, %rax
	jne	.LBB21_41
	xorl	%ebp, %ebp
	xorl	%r15d, %r15d
	movq	%rcx, %rbx
.LBB21_40:
	addq	%rdx, %rbp
	addq	%rbx, %r15
	xorl	%eax, %eax
.LBB21_43:
	movq	128(%rsp), %r12
	movq	48(%rsp), %r14
	movq	160(%rsp), %rdx
	addq	%r15, %rdx
	movq	%r15, %rcx
	movq	56(%rsp), %r15
	addq	%rbp, %r15
	testq	%rcx, %rcx
	movq	144(%rsp), %rbx
	je	.LBB21_67
	cmpb	$3, %al
	jne	.LBB21_37
	jmp	.LBB21_67
	.p2align	4
.LBB21_41:
	movq	%r14, %rsi
	xorl	%r14d, %r14d
	movq	%r12, 80(%rsp)
	movq	%r13, 64(%rsp)
	movq	%rcx, 72(%rsp)
	movq	%rcx, %rbx
	xorl	%ebp, %ebp
	jmp	.LBB21_42
	.p2align	4
.LBB21_58:
	movq	%r14, %r12
	movq	%rbx, %r15
.LBB21_61:
	addq	168(%rsp), %r15
	movq	176(%rsp), %rbp
	leaq	(%r12,%rbp), %rax
	addq	%r12, %rbp
	addq	$2, %rbp
	leaq	(%rsp,%r15), %r14
	addq	$192, %r14
	movq	72(%rsp), %rbx
	subq	%r15, %rbx
	movq	64(%rsp), %rcx
	leaq	(%rcx,%rax), %r13
	addq	$2, %r13
	movq	80(%rsp), %r12
	subq	%rbp, %r12
	pxor	%xmm0, %xmm0
	movdqa	%xmm0, 224(%rsp)
	movq	$0, 240(%rsp)
	movq	%r14, %rdi
	movq	%rbx, %rsi
	movq	%r13, %rdx
	movq	%r12, %rcx
	callq	L_22
	movq	%r14, %rsi
	movq	%r15, %r14
	cmpq	%rbx, %rax
	je	.LBB21_40
.LBB21_42:
	movq	%rdx, (%rsp)
	leaq	224(%rsp), %rdi
	movq	%rbx, %rdx
	movq	%r13, %rcx
	movq	%r12, %r8
	movq	%rax, %r9
	callq	L_23
	addq	224(%rsp), %r14
	movzbl	240(%rsp), %eax
	addq	232(%rsp), %rbp
	cmpb	$1, %al
	movq	%r14, %r15
	jne	.LBB21_43
	movq	80(%rsp), %r13
	subq	%rbp, %r13
	cmpq	$1, %r13
	jbe	.LBB21_46
	movzbl	241(%rsp), %eax
	movq	64(%rsp), %rcx
	movw	$-3, (%rcx,%rbp)
	addq	%rax, %r15
	leaq	(%rsp,%r15), %rdi
	addq	$192, %rdi
	movq	72(%rsp), %rbx
	movq	%r15, 168(%rsp)
	subq	%r15, %rbx
	movq	%rbp, 176(%rsp)
	leaq	(%rcx,%rbp), %rdx
	addq	$2, %rdx
	addq	$-2, %r13
	movq	%rdi, 104(%rsp)
	movq	%rbx, %rsi
	movq	%rdx, 88(%rsp)
	movq	%r13, %rcx
	callq	L_24
	movq	%rax, %r15
	movq	%rdx, %r12
	movq	%rbx, 96(%rsp)
	movq	%rbx, %rbp
	subq	%rax, %rbp
	cmpq	$64, %rbp
	jb	.LBB21_61
	movq	%r13, 184(%rsp)
	.p2align	4
.LBB21_50:
	subq	%r12, %r13
	cmpq	$128, %r13
	jb	.LBB21_61
	movq	104(%rsp), %rax
	leaq	(%rax,%r15), %rdi
	movq	88(%rsp), %rcx
	leaq	(%rcx,%r12), %rdx
	movdqu	(%rax,%r15), %xmm0
	pmovmskb	%xmm0, %eax
	testl	%eax, %eax
	je	.LBB21_53
	xorl	%ebx, %ebx
	jmp	.LBB21_54
	.p2align	4
.LBB21_53:
	movq	%r13, %rsi
	shrq	%rsi
	cmpq	%rbp, %rsi
	cmovaeq	%rbp, %rsi
	movq	%rdi, %r14
	movq	%rdx, %rbx
	callq	L_25
	movq	%r14, %rdi
	movq	%rbx, %rdx
	movq	%rax, %rbx
.LBB21_54:
	leaq	(%rbx,%rbx), %r14
	movq	%rbp, %rax
	subq	%rbx, %rax
	cmpq	$64, %rax
	jb	.LBB21_57
	movq	%r13, %rax
	subq	%r14, %rax
	cmpq	$128, %rax
	jb	.LBB21_57
	movq	%rbp, %rsi
	movq	%r13, %rcx
	movq	%rbx, %r8
	movq	%r14, %r9
	callq	L_26
	movq	%rax, %rbx
	movq	%rdx, %r14
.LBB21_57:
	addq	%r15, %rbx
	addq	%r12, %r14
	movq	96(%rsp), %rsi
	subq	%rbx, %rsi
	cmpq	$4, %rsi
	movq	184(%rsp), %r13
	jb	.LBB21_58
	movq	%r13, %rcx
	subq	%r14, %rcx
	cmpq	$4, %rcx
	jb	.LBB21_58
	movq	104(%rsp), %rax
	leaq	(%rax,%rbx), %rdi
	movq	88(%rsp), %rax
	leaq	(%rax,%r14), %rdx
	callq	L_24
	movq	%rax, %r15
	movq	%rdx, %r12
	addq	%rbx, %r15
	addq	%r14, %r12
	movq	96(%rsp), %rbp
	subq	%r15, %rbp
	cmpq	$63, %rbp
	ja	.LBB21_50
	jmp	.LBB21_61
	.p2align	4
.LBB21_46:
	addq	160(%rsp), %r15
	movq	%r15, %rax
	movq	56(%rsp), %r15
	addq	%rbp, %r15
	movq	144(%rsp), %rbp
	cmpq	%rax, %rbp
	cmovbq	%rbp, %rax
	leaq	(%rsp,%rax), %rsi
	addq	$40, %rsi
	subq	%rax, %rbp
	movq	128(%rsp), %r12
.LBB21_47:
	movb	$0, 226(%rsp)
	movw	$0, 224(%rsp)
	leaq	224(%rsp), %rdi
	movq	%rbp, %rdx
	callq	sysv_memcpy
	movzbl	226(%rsp), %eax
	shll	$16, %eax
	movzwl	224(%rsp), %ecx
	orl	%eax, %ecx
	shll	$24, %ebp
	orl	%ecx, %ebp
	cmpb	$1, 12(%rsp)
	movq	136(%rsp), %rax
	jne	.LBB21_96
.LBB21_70:
	testq	%r15, %r15
	je	.LBB21_71
	cmpq	$1, %r15
	jne	.LBB21_93
.LBB21_95:
	leaq	2(%r12), %rdi
	movq	%r12, %rsi
	movq	%r15, %rdx
	callq	sysv_memmove
	movq	136(%rsp), %rax
	movw	$-257, (%r12)
	addq	$2, %r15
	jmp	.LBB21_96
.LBB21_71:
	movb	$1, %cl
	movl	%ecx, 12(%rsp)
	incq	%rax
	cmpq	$-1, %rax
	movq	%rax, %rbx
	jne	.LBB21_1
	jmp	.LBB21_73
.LBB21_93:
	cmpb	$-1, (%r12)
	jne	.LBB21_95
	cmpb	$-2, 1(%r12)
	je	.LBB21_100
	jmp	.LBB21_95
.LBB21_62:
	leaq	(%rsp,%rax), %rbp
	addq	$344, %rbp
	movq	152(%rsp), %rbx
	subq	%rax, %rbx
	addq	%r15, %r12
	subq	%r15, %r14
	pxor	%xmm0, %xmm0
	movdqa	%xmm0, 224(%rsp)
	movq	$0, 240(%rsp)
	movq	%rbp, %rdi
	movq	%rbx, %rsi
	movq	%r12, %rdx
	movq	%r14, %rcx
	callq	L_22
	cmpq	%rbx, %rax
	jne	.LBB21_74
	xorl	%ebp, %ebp
	xorl	%r14d, %r14d
.LBB21_64:
	addq	%rdx, %rbp
	addq	%rbx, %r14
	xorl	%eax, %eax
	movq	%r14, %r13
.LBB21_65:
	movq	56(%rsp), %r15
.LBB21_66:
	movq	160(%rsp), %rdx
	addq	%r13, %rdx
	addq	%rbp, %r15
	movq	128(%rsp), %r12
	movq	144(%rsp), %rbx
.LBB21_67:
	cmpq	%rdx, %rbx
	movq	%rdx, %rcx
	cmovbq	%rbx, %rcx
	leaq	(%rsp,%rcx), %rsi
	addq	$40, %rsi
	movq	%rbx, %rbp
	subq	%rcx, %rbp
	cmpb	$3, %al
	je	.LBB21_47
	xorl	%eax, %eax
	subq	%rbx, %rdx
	cmovaeq	%rdx, %rax
	movq	152(%rsp), %rcx
	subq	%rax, %rcx
	leaq	(%rsp,%rax), %r14
	addq	$344, %r14
	movl	$4, %ebx
	subq	%rbp, %rbx
	cmpq	%rcx, %rbx
	cmovaeq	%rcx, %rbx
	movl	$0, 224(%rsp)
	leaq	224(%rsp), %rdi
	movq	%rbp, %rdx
	callq	sysv_memcpy
	leaq	(%rsp,%rbp), %rdi
	addq	$224, %rdi
	movq	%r14, %rsi
	movq	%rbx, %rdx
	callq	sysv_memcpy
	addq	%rbp, %rbx
	movl	224(%rsp), %eax
	movl	%eax, 116(%rsp)
	movb	$0, 226(%rsp)
	movw	$0, 224(%rsp)
	leaq	224(%rsp), %rdi
	leaq	116(%rsp), %rsi
	movq	%rbx, %rdx
	callq	sysv_memcpy
	movzbl	226(%rsp), %eax
	shll	$16, %eax
	movzwl	224(%rsp), %ecx
	orl	%eax, %ecx
	shll	$24, %ebx
	orl	%ecx, %ebx
	movl	%ebx, %ebp
	cmpb	$1, 12(%rsp)
	movq	136(%rsp), %rax
	je	.LBB21_70
	.p2align	4
.LBB21_96:
	testq	%r15, %r15
	je	.LBB21_97
.LBB21_100:
	xorl	%r14d, %r14d
	.p2align	4
.LBB21_101:
	leaq	(%r12,%r14), %rsi
	movq	%r15, %rbx
	subq	%r14, %rbx
	movl	$1, %edi
	movq	%rbx, %rdx
	callq	sysv_write
	testq	%rax, %rax
	js	.LBB21_17
	cmpq	%rbx, %rax
	cmovbq	%rax, %rbx
	testq	%rbx, %rbx
	je	.LBB21_18
	addq	%rbx, %r14
	cmpq	%r15, %r14
	jb	.LBB21_101
	movl	$0, 12(%rsp)
	movq	136(%rsp), %rax
	incq	%rax
	cmpq	$-1, %rax
	movq	%rax, %rbx
	jne	.LBB21_1
	jmp	.LBB21_73
	.p2align	4
.LBB21_97:
	movl	$0, 12(%rsp)
	incq	%rax
	cmpq	$-1, %rax
	movq	%rax, %rbx
	jne	.LBB21_1
	jmp	.LBB21_73
.LBB21_74:
	xorl	%r13d, %r13d
	movq	%r14, 48(%rsp)
	movq	%r14, %r15
	movq	%r12, 64(%rsp)
	movq	%r12, %r8
	movq	%rbx, 80(%rsp)
	movq	%rbp, 72(%rsp)
	movq	%rbp, %r12
	xorl	%ebp, %ebp
	jmp	.LBB21_75
	.p2align	4
.LBB21_88:
	movq	%r13, %r12
	movq	%rbx, %r14
.LBB21_91:
	addq	168(%rsp), %r14
	movq	176(%rsp), %rbp
	leaq	(%r12,%rbp), %rax
	addq	%r12, %rbp
	addq	$2, %rbp
	movq	72(%rsp), %rcx
	leaq	(%rcx,%r14), %r12
	movq	80(%rsp), %rbx
	subq	%r14, %rbx
	movq	64(%rsp), %rcx
	leaq	(%rcx,%rax), %r13
	addq	$2, %r13
	movq	48(%rsp), %r15
	subq	%rbp, %r15
	pxor	%xmm0, %xmm0
	movdqa	%xmm0, 224(%rsp)
	movq	$0, 240(%rsp)
	movq	%r12, %rdi
	movq	%rbx, %rsi
	movq	%r13, %rdx
	movq	%r15, %rcx
	callq	L_22
	movq	%r13, %r8
	movq	%r14, %r13
	cmpq	%rbx, %rax
	je	.LBB21_64
.LBB21_75:
	movq	%rdx, (%rsp)
	leaq	224(%rsp), %rdi
	movq	%r12, %rsi
	movq	%rbx, %rdx
	movq	%r8, %rcx
	movq	%r15, %r8
	movq	%rax, %r9
	callq	L_23
	addq	224(%rsp), %r13
	movzbl	240(%rsp), %eax
	addq	232(%rsp), %rbp
	cmpb	$1, %al
	jne	.LBB21_65
	movq	48(%rsp), %rbx
	subq	%rbp, %rbx
	cmpq	$2, %rbx
	movq	56(%rsp), %r15
	jb	.LBB21_77
	movzbl	241(%rsp), %eax
	movq	64(%rsp), %rcx
	movw	$-3, (%rcx,%rbp)
	addq	%rax, %r13
	movq	72(%rsp), %rax
	leaq	(%rax,%r13), %rdi
	movq	80(%rsp), %r15
	movq	%r13, 168(%rsp)
	subq	%r13, %r15
	movq	%rbp, 176(%rsp)
	leaq	(%rcx,%rbp), %rdx
	addq	$2, %rdx
	addq	$-2, %rbx
	movq	%rdi, 104(%rsp)
	movq	%r15, %rsi
	movq	%rdx, 88(%rsp)
	movq	%rbx, %rcx
	callq	L_24
	movq	%rax, %r14
	movq	%rdx, %r12
	movq	%r15, 96(%rsp)
	movq	%r15, %rbp
	subq	%rax, %rbp
	cmpq	$64, %rbp
	jb	.LBB21_91
	movq	%rbx, %r15
	movq	%rbx, 184(%rsp)
	.p2align	4
.LBB21_80:
	subq	%r12, %r15
	cmpq	$128, %r15
	jb	.LBB21_91
	movq	104(%rsp), %rax
	leaq	(%rax,%r14), %rdi
	movq	88(%rsp), %rcx
	leaq	(%rcx,%r12), %rdx
	movdqu	(%rax,%r14), %xmm0
	pmovmskb	%xmm0, %eax
	testl	%eax, %eax
	je	.LBB21_83
	xorl	%ebx, %ebx
	jmp	.LBB21_84
	.p2align	4
.LBB21_83:
	movq	%r15, %rsi
	shrq	%rsi
	cmpq	%rbp, %rsi
	cmovaeq	%rbp, %rsi
	movq	%rdi, %r13
	movq	%rdx, %rbx
	callq	L_25
	movq	%r13, %rdi
	movq	%rbx, %rdx
	movq	%rax, %rbx
.LBB21_84:
	leaq	(%rbx,%rbx), %r13
	movq	%rbp, %rax
	subq	%rbx, %rax
	cmpq	$64, %rax
	jb	.LBB21_87
	movq	%r15, %rax
	subq	%r13, %rax
	cmpq	$128, %rax
	jb	.LBB21_87
	movq	%rbp, %rsi
	movq	%r15, %rcx
	movq	%rbx, %r8
	movq	%r13, %r9
	callq	L_26
	movq	%rax, %rbx
	movq	%rdx, %r13
.LBB21_87:
	addq	%r14, %rbx
	addq	%r12, %r13
	movq	96(%rsp), %rsi
	subq	%rbx, %rsi
	cmpq	$4, %rsi
	movq	184(%rsp), %r15
	jb	.LBB21_88
	movq	%r15, %rcx
	subq	%r13, %rcx
	cmpq	$4, %rcx
	jb	.LBB21_88
	movq	104(%rsp), %rax
	leaq	(%rax,%rbx), %rdi
	movq	88(%rsp), %rax
	leaq	(%rax,%r13), %rdx
	callq	L_24
	movq	%rax, %r14
	movq	%rdx, %r12
	addq	%rbx, %r14
	addq	%r13, %r12
	movq	96(%rsp), %rbp
	subq	%r14, %rbp
	cmpq	$63, %rbp
	ja	.LBB21_80
	jmp	.LBB21_91
.LBB21_77:
	movb	$3, %al
	jmp	.LBB21_66
.LBB21_31:
	leaq	16(%rsp), %rdi
	movq	%rdx, %rbx
	movq	%rdx, %rsi
	callq	L_1
	movq	32(%rsp), %r15
	testb	%al, %al
	je	.LBB21_103
	movq	24(%rsp), %r14
	movq	%rbx, %rdx
	jmp	.LBB21_33
.LBB21_7:
	leaq	224(%rsp), %rdi
	callq	L_5
	movq	312(%rsp), %rdx
	movq	(%rdx), %rax
	incq	%rax
	movq	$-1, %rcx
	cmovneq	%rax, %rcx
	movq	%rcx, (%rdx)
	movb	$1, %al
	cmpq	$0, 32(%rsp)
	je	.LBB21_8
	movq	16(%rsp), %rdi
	callq	rattle_dealloc
	movb	$1, %al
	xorl	%ebx, %ebx
	jmp	.LBB21_106
.LBB21_3:
	pxor	%xmm0, %xmm0
	movdqa	%xmm0, 192(%rsp)
	movq	$0, 208(%rsp)
	cmpl	$16777215, %ebp
	ja	.LBB21_10
	movl	$2, %r14d
	testb	$1, 12(%rsp)
	jne	.LBB21_12
	jmp	.LBB21_5
.LBB21_73:
	movb	$1, %al
	movb	$3, %bl
	cmpq	$0, 32(%rsp)
	jne	.LBB21_104
	jmp	.LBB21_106
.LBB21_10:
	movw	$-3, 192(%rsp)
	movl	$2, %r14d
	testb	$1, 12(%rsp)
	je	.LBB21_13
	movw	$-3, 194(%rsp)
	movl	$4, %r14d
.LBB21_12:
	movw	$-257, 192(%rsp)
.LBB21_13:
	xorl	%r15d, %r15d
	.p2align	4
.LBB21_15:
	leaq	(%rsp,%r15), %rsi
	addq	$192, %rsi
	movq	%r14, %rbx
	subq	%r15, %rbx
	movl	$1, %edi
	movq	%rbx, %rdx
	callq	sysv_write
	testq	%rax, %rax
	js	.LBB21_17
	cmpq	%rbx, %rax
	cmovbq	%rax, %rbx
	testq	%rbx, %rbx
	je	.LBB21_18
	addq	%rbx, %r15
	cmpq	%r14, %r15
	jb	.LBB21_15
.LBB21_5:
	cmpq	$0, 32(%rsp)
	je	.LBB21_6
	movq	16(%rsp), %rdi
	callq	rattle_dealloc
.LBB21_6:
	xorl	%ebx, %ebx
	xorl	%eax, %eax
	jmp	.LBB21_106
.LBB21_17:
	leaq	224(%rsp), %rdi
	callq	L_5
.LBB21_18:
	movq	120(%rsp), %rdx
	movq	(%rdx), %rcx
	incq	%rcx
	movq	$-1, %rax
	cmovneq	%rcx, %rax
	movq	%rax, (%rdx)
	movb	$1, %bl
	cmpq	$0, 32(%rsp)
	je	.LBB21_105
.LBB21_104:
	movq	16(%rsp), %rdi
	callq	rattle_dealloc
.LBB21_105:
	movb	$1, %al
.LBB21_106:
	movl	%ebx, %edx
	addq	$4440, %rsp
	popq	%rbx
	popq	%r12
	popq	%r13
	popq	%r14
	popq	%r15
	popq	%rbp
	retq
.LBB21_8:
	xorl	%ebx, %ebx
	jmp	.LBB21_106
.LBB21_103:
	movb	$1, %al
	movb	$2, %bl
	testq	%r15, %r15
	jne	.LBB21_104
	jmp	.LBB21_106
.Lfunc_end21:

	.section	.rdata$004,"dr"
	.p2align	4, 0x0
.LCPI22_0:
	.zero	16,192
.LCPI22_1:
	.zero	16,191
.LCPI22_2:
	.zero	16,223
.LCPI22_3:
	.zero	16,239
.LCPI22_4:
	.zero	16,159
.LCPI22_5:
	.zero	16,237
.LCPI22_6:
	.zero	16,224
.LCPI22_7:
	.zero	16,143
.LCPI22_8:
	.zero	16,245
.LCPI22_9:
	.zero	16,244
.LCPI22_10:
	.zero	16,240
.LCPI22_11:
	.zero	16,254
.LCPI22_12:
	.byte	1
	.byte	2
	.byte	3
	.byte	4
	.byte	5
	.byte	6
	.byte	7
	.byte	8
	.byte	9
	.byte	10
	.byte	11
	.byte	12
	.byte	13
	.byte	14
	.byte	15
	.byte	16
.LCPI22_13:
	.zero	16,15
.LCPI22_14:
	.zero	16,220
.LCPI22_15:
	.zero	16,252
.LCPI22_16:
	.zero	16,3
.LCPI22_17:
	.zero	16,63
.LCPI22_18:
	.zero	16,232
.LCPI22_19:
	.zero	16,127
	.section	.text$029,"xr"
	.p2align	4
L_22:
	pushq	%rbp
	pushq	%r15
	pushq	%r14
	pushq	%r12
	pushq	%rbx
	movq	%rcx, %rbx
	cmpq	$7, %rsi
	ja	.LBB22_16
	movq	%rbx, %rax
	shrq	%rax
	cmpq	%rsi, %rax
	cmovaeq	%rsi, %rax
	testq	%rax, %rax
	je	.LBB22_22
	movsbl	(%rdi), %ecx
	testw	%cx, %cx
	js	.LBB22_22
	movw	%cx, (%rdx)
	movl	$2, %r9d
	cmpq	$1, %rax
	je	.LBB22_84
	movsbl	1(%rdi), %ecx
	testw	%cx, %cx
	js	.LBB22_33
	movw	%cx, 2(%rdx)
	movl	$4, %r9d
	cmpq	$2, %rax
	je	.LBB22_84
	movsbl	2(%rdi), %ecx
	testw	%cx, %cx
	js	.LBB22_36
	movw	%cx, 4(%rdx)
	movl	$6, %r9d
	cmpq	$3, %rax
	je	.LBB22_84
	movsbl	3(%rdi), %ecx
	testw	%cx, %cx
	js	.LBB22_78
	movw	%cx, 6(%rdx)
	movl	$8, %r9d
	cmpq	$4, %rax
	je	.LBB22_84
	movsbl	4(%rdi), %ecx
	testw	%cx, %cx
	js	.LBB22_79
	movw	%cx, 8(%rdx)
	movl	$10, %r9d
	cmpq	$5, %rax
	je	.LBB22_84
	movsbl	5(%rdi), %ecx
	testw	%cx, %cx
	js	.LBB22_80
	movw	%cx, 10(%rdx)
	movl	$12, %r9d
	cmpq	$6, %rax
	je	.LBB22_84
	movsbl	6(%rdi), %ecx
	testw	%cx, %cx
	js	.LBB22_81
	movw	%cx, 12(%rdx)
	movl	$14, %r9d
	jmp	.LBB22_84
.LBB22_16:
	cmpq	$16, %rsi
	ja	.LBB22_23
	cmpq	$32, %rbx
	jb	.LBB22_21
	movq	-8(%rdi,%rsi), %xmm0
	movq	(%rdi), %xmm1
	punpcklqdq	%xmm0, %xmm1
	movq	%rsi, %rax
	shlq	$4, %rax
	leaq	.Lstatic.11(%rip), %rcx
	movdqu	-128(%rax,%rcx), %xmm2
	pshufb	%xmm2, %xmm1
	pmovmskb	%xmm1, %eax
	testl	%eax, %eax
	je	.LBB22_27
	pextrb	$5, %xmm0, %eax
	pextrb	$6, %xmm0, %ecx
	pextrb	$7, %xmm0, %r8d
	cmpb	$-64, %r8b
	setae	%r8b
	cmpb	$-32, %cl
	setae	%cl
	orb	%r8b, %cl
	cmpb	$-16, %al
	setae	%al
	orb	%cl, %al
	jne	.LBB22_21
	leaq	.Lstatic.12(%rip), %rax
	subq	%rsi, %rax
	movdqu	16(%rax), %xmm0
	pmaxub	%xmm0, %xmm1
	movdqa	%xmm1, %xmm2
	pslldq	$1, %xmm2
	movdqa	%xmm1, %xmm4
	pslldq	$2, %xmm4
	movdqa	%xmm1, %xmm5
	pslldq	$3, %xmm5
	movdqa	.LCPI22_0(%rip), %xmm3
	movdqa	%xmm3, %xmm0
	movdqa	%xmm2, %xmm6
	psubusb	.LCPI22_1(%rip), %xmm6
	pcmpgtb	%xmm1, %xmm0
	movdqa	%xmm4, %xmm7
	psubusb	.LCPI22_2(%rip), %xmm7
	pmaxub	%xmm6, %xmm7
	psubusb	.LCPI22_3(%rip), %xmm5
	por	%xmm7, %xmm5
	pxor	%xmm6, %xmm6
	pcmpgtb	%xmm6, %xmm5
	pxor	%xmm0, %xmm5
	movdqa	.LCPI22_4(%rip), %xmm0
	pminub	%xmm1, %xmm0
	pcmpeqb	%xmm1, %xmm0
	movdqa	.LCPI22_5(%rip), %xmm7
	pblendvb	%xmm0, .LCPI22_6(%rip), %xmm7
	pcmpeqb	%xmm2, %xmm7
	movdqa	.LCPI22_7(%rip), %xmm0
	pminub	%xmm1, %xmm0
	pcmpeqb	%xmm1, %xmm0
	movdqa	.LCPI22_8(%rip), %xmm8
	pmaxub	%xmm1, %xmm8
	pcmpeqb	%xmm1, %xmm8
	movdqa	.LCPI22_9(%rip), %xmm9
	pblendvb	%xmm0, .LCPI22_10(%rip), %xmm9
	pcmpeqb	%xmm2, %xmm9
	por	%xmm7, %xmm9
	movdqa	.LCPI22_11(%rip), %xmm0
	pand	%xmm1, %xmm0
	pcmpeqb	%xmm3, %xmm0
	por	%xmm5, %xmm0
	por	%xmm8, %xmm0
	por	%xmm9, %xmm0
	movd	%esi, %xmm5
	pshufb	%xmm6, %xmm5
	movdqa	.LCPI22_12(%rip), %xmm6
	pmaxub	%xmm5, %xmm6
	pcmpeqb	%xmm5, %xmm6
	psllw	$7, %xmm0
	pand	%xmm6, %xmm0
	pmovmskb	%xmm0, %eax
	testl	%eax, %eax
	je	.LBB22_35
.LBB22_21:
	xorl	%r9d, %r9d
	xorl	%eax, %eax
	cmpq	$31, %rsi
	jbe	.LBB22_45
	jmp	.LBB22_32
.LBB22_22:
	xorl	%r9d, %r9d
	xorl	%eax, %eax
	jmp	.LBB22_84
.LBB22_23:
	movq	%rbx, %rcx
	shrq	%rcx
	cmpq	%rsi, %rcx
	cmovaeq	%rsi, %rcx
	cmpq	$32, %rbx
	jb	.LBB22_24
	movdqu	(%rdi), %xmm1
	pmovmskb	%xmm1, %eax
	testl	%eax, %eax
	je	.LBB22_28
.LBB22_24:
	xorl	%eax, %eax
	leaq	(%rax,%rax), %r9
	movq	%rsi, %rcx
	subq	%rax, %rcx
	je	.LBB22_31
.LBB22_38:
	movq	%rdi, %r15
	cmpq	$191, %rcx
	ja	.LBB22_40
	movq	%rsi, %r12
	movq	%rdx, %r14
	movq	%rbx, %rcx
	movq	%rax, %r8
	callq	L_27
	movq	%r15, %rdi
	movq	%r12, %rsi
	movq	%rdx, %r9
	movq	%r14, %rdx
	cmpq	$31, %rsi
	jbe	.LBB22_45
	jmp	.LBB22_32
.LBB22_40:
	movq	%rsi, %r14
	movq	%rdx, %r12
	movq	%rbx, %rcx
	movq	%rax, %r8
	callq	L_26
	movq	%rdx, %r9
	movq	%r14, %rcx
	subq	%rax, %rcx
	cmpq	$191, %rcx
	jbe	.LBB22_42
	movq	%r14, %rsi
	movq	%r12, %rdx
	movq	%r15, %rdi
	cmpq	$31, %rsi
	jbe	.LBB22_45
	jmp	.LBB22_32
.LBB22_27:
	pxor	%xmm0, %xmm0
	pmovzxbw	%xmm1, %xmm2
	punpckhbw	%xmm0, %xmm1
	movdqu	%xmm2, (%rdx)
	movdqu	%xmm1, 16(%rdx)
	leaq	(%rsi,%rsi), %r9
	movq	%rsi, %rax
	cmpq	$31, %rsi
	jbe	.LBB22_45
	jmp	.LBB22_32
.LBB22_28:
	cmpq	$31, %rcx
	ja	.LBB22_34
	pxor	%xmm0, %xmm0
	pmovzxbw	%xmm1, %xmm2
	punpckhbw	%xmm0, %xmm1
	movdqu	%xmm2, (%rdx)
	movdqu	%xmm1, 16(%rdx)
	movdqu	-16(%rcx,%rdi), %xmm1
	pmovmskb	%xmm1, %r8d
	movl	$16, %eax
	testl	%r8d, %r8d
	je	.LBB22_37
	leaq	(%rax,%rax), %r9
	movq	%rsi, %rcx
	subq	%rax, %rcx
	jne	.LBB22_38
.LBB22_31:
	cmpq	$31, %rsi
	jbe	.LBB22_45
.LBB22_32:
	movq	%r9, %rdx
	popq	%rbx
	popq	%r12
	popq	%r14
	popq	%r15
	popq	%rbp
	retq
.LBB22_33:
	movl	$1, %eax
	jmp	.LBB22_84
.LBB22_42:
	movq	%r15, %rdi
	movq	%r14, %rsi
	movq	%r12, %rdx
	movq	%rbx, %rcx
	movq	%rax, %r8
	callq	L_27
	movq	%r15, %rdi
	movq	%r14, %rsi
	movq	%rdx, %r9
	movq	%r12, %rdx
	cmpq	$31, %rsi
	jbe	.LBB22_45
	jmp	.LBB22_32
.LBB22_34:
	movq	%rdi, %r14
	movq	%rsi, %r12
	movq	%rcx, %rsi
	movq	%rdx, %r15
	callq	L_25
	movq	%r14, %rdi
	movq	%r12, %rsi
	movq	%r15, %rdx
	leaq	(%rax,%rax), %r9
	movq	%rsi, %rcx
	subq	%rax, %rcx
	je	.LBB22_31
	jmp	.LBB22_38
.LBB22_35:
	movdqa	%xmm3, %xmm6
	movdqa	%xmm1, %xmm0
	pblendvb	%xmm0, %xmm2, %xmm6
	movdqa	.LCPI22_1(%rip), %xmm5
	movdqa	.LCPI22_6(%rip), %xmm0
	pmaxub	%xmm4, %xmm0
	movdqa	%xmm6, %xmm7
	psrlw	$2, %xmm7
	movdqa	.LCPI22_13(%rip), %xmm9
	pand	%xmm9, %xmm7
	psllw	$4, %xmm0
	pandn	%xmm0, %xmm9
	por	%xmm7, %xmm9
	movdqa	%xmm6, %xmm0
	pmaxub	%xmm4, %xmm0
	movdqa	%xmm0, %xmm8
	pminub	%xmm5, %xmm8
	pcmpeqb	%xmm0, %xmm8
	pand	.LCPI22_14(%rip), %xmm8
	por	%xmm9, %xmm8
	movdqa	%xmm2, %xmm0
	psllw	$2, %xmm0
	pand	.LCPI22_15(%rip), %xmm0
	movdqa	%xmm1, %xmm7
	psrlw	$4, %xmm7
	pand	.LCPI22_16(%rip), %xmm7
	movdqa	.LCPI22_17(%rip), %xmm9
	pminub	%xmm0, %xmm9
	pcmpeqb	%xmm0, %xmm9
	paddb	%xmm4, %xmm9
	paddb	.LCPI22_18(%rip), %xmm9
	por	%xmm0, %xmm7
	paddb	%xmm3, %xmm7
	movdqa	.LCPI22_3(%rip), %xmm0
	pminub	%xmm4, %xmm0
	pcmpeqb	%xmm4, %xmm0
	pblendvb	%xmm0, %xmm8, %xmm9
	movdqa	.LCPI22_19(%rip), %xmm4
	pand	%xmm1, %xmm4
	psllw	$6, %xmm6
	pand	%xmm3, %xmm6
	paddb	%xmm4, %xmm6
	pblendvb	%xmm0, %xmm6, %xmm7
	movdqa	%xmm7, %xmm0
	punpckhbw	%xmm9, %xmm0
	punpcklbw	%xmm9, %xmm7
	pminub	%xmm1, %xmm5
	pcmpeqb	%xmm1, %xmm5
	movdqa	.LCPI22_2(%rip), %xmm1
	pminub	%xmm2, %xmm1
	pcmpeqb	%xmm2, %xmm1
	pand	%xmm5, %xmm1
	pmovmskb	%xmm1, %eax
	movzbl	%al, %ecx
	popcntl	%ecx, %r8d
	shll	$4, %ecx
	leaq	.Lstatic.13(%rip), %r10
	movdqu	(%rcx,%r10), %xmm1
	pshufb	%xmm1, %xmm7
	movdqu	%xmm7, (%rdx)
	shrl	$8, %eax
	popcntl	%eax, %r9d
	shll	$4, %eax
	movdqu	(%rax,%r10), %xmm1
	pshufb	%xmm1, %xmm0
	movdqu	%xmm0, (%rdx,%r8,2)
	addl	%r8d, %r9d
	addl	%r9d, %r9d
	movq	%rsi, %rax
	cmpq	$31, %rsi
	jbe	.LBB22_45
	jmp	.LBB22_32
	.p2align	4
.LBB22_43:
	leal	67043328(%rcx), %r11d
	shrl	$10, %r11d
	addl	$-10240, %r11d
	andl	$1023, %ecx
	orl	$56320, %ecx
	movw	%cx, 2(%rdx,%r9)
	movl	$4, %r10d
	movl	%r11d, %ecx
.LBB22_44:
	movw	%cx, (%rdx,%r9)
	addq	%r10, %r9
	addq	%r8, %rax
.LBB22_45:
	cmpq	%rsi, %rax
	jae	.LBB22_32
	movzbl	(%rdi,%rax), %ecx
	testb	%cl, %cl
	js	.LBB22_51
	movl	$1, %r8d
.LBB22_48:
	movq	%rbx, %r10
	subq	%r9, %r10
	xorl	%r11d, %r11d
	cmpl	$65536, %ecx
	setae	%r11b
	leaq	2(,%r11,2), %r11
	cmpq	%r11, %r10
	jb	.LBB22_32
	cmpl	$65535, %ecx
	ja	.LBB22_43
	movl	$2, %r10d
	jmp	.LBB22_44
	.p2align	4
.LBB22_51:
	movq	%rsi, %r10
	subq	%rax, %r10
	cmpq	$3, %r10
	jb	.LBB22_55
	leal	31(%rcx), %r8d
	cmpb	$11, %r8b
	ja	.LBB22_56
	movzbl	1(%rdi,%rax), %r8d
	cmpb	$-65, %r8b
	jg	.LBB22_56
	movzbl	2(%rdi,%rax), %r11d
	cmpb	$-65, %r11b
	jg	.LBB22_56
	jmp	.LBB22_61
.LBB22_55:
	cmpq	$2, %r10
	jne	.LBB22_32
.LBB22_56:
	movzbl	1(%rdi,%rax), %r8d
	movl	%ecx, %r11d
	shrb	$4, %r11b
	andb	$12, %r11b
	movl	%r8d, %ebp
	shrb	$6, %bpl
	orb	%r11b, %bpl
	cmpb	$14, %bpl
	jne	.LBB22_32
	leal	31(%rcx), %r11d
	cmpb	$12, %r11b
	jae	.LBB22_62
.LBB22_58:
	cmpq	$2, %r10
	je	.LBB22_32
	movzbl	2(%rdi,%rax), %r11d
	cmpb	$-65, %r11b
	jg	.LBB22_32
	cmpb	$-17, %cl
	ja	.LBB22_66
.LBB22_61:
	shll	$12, %ecx
	shll	$6, %r8d
	addl	%ecx, %r8d
	leal	(%r11,%r8), %ecx
	addl	$-925824, %ecx
	movl	$3, %r8d
	jmp	.LBB22_48
.LBB22_62:
	leal	62(%rcx), %r11d
	cmpb	$30, %r11b
	jb	.LBB22_77
	movb	$-65, %bpl
	leal	-224(%rcx), %r14d
	cmpl	$20, %r14d
	ja	.LBB22_72
	leaq	.LJTI22_0(%rip), %r15
	movslq	(%r15,%r14,4), %r14
	addq	%r15, %r14
	jmpq	*%r14
.LBB22_65:
	movb	$-96, %r14b
	jmp	.LBB22_73
.LBB22_66:
	cmpq	$4, %r10
	jb	.LBB22_32
	movzbl	3(%rdi,%rax), %r10d
	cmpb	$-65, %r10b
	jg	.LBB22_32
	shll	$18, %ecx
	shll	$12, %r8d
	addl	%ecx, %r8d
	shll	$6, %r11d
	addl	%r8d, %r11d
	leal	(%r10,%r11), %ecx
	addl	$-63447168, %ecx
	movl	$4, %r8d
	jmp	.LBB22_48
.LBB22_69:
	movb	$-112, %r14b
	jmp	.LBB22_73
.LBB22_70:
	movb	$-97, %bpl
	jmp	.LBB22_72
.LBB22_71:
	movb	$-113, %bpl
.LBB22_72:
	movb	$-128, %r14b
.LBB22_73:
	cmpb	$50, %r11b
	ja	.LBB22_32
	cmpb	%r8b, %r14b
	ja	.LBB22_32
	cmpb	%bpl, %r8b
	ja	.LBB22_32
	cmpb	$-33, %cl
	ja	.LBB22_58
.LBB22_77:
	shll	$6, %ecx
	addl	%r8d, %ecx
	addl	$-12416, %ecx
	movl	$2, %r8d
	jmp	.LBB22_48
.LBB22_36:
	movl	$2, %eax
	jmp	.LBB22_84
.LBB22_37:
	pmovzxbw	%xmm1, %xmm2
	punpckhbw	%xmm0, %xmm1
	movdqu	%xmm2, -32(%rdx,%rcx,2)
	movdqu	%xmm1, -16(%rdx,%rcx,2)
	movq	%rcx, %rax
	leaq	(%rax,%rax), %r9
	movq	%rsi, %rcx
	subq	%rax, %rcx
	je	.LBB22_31
	jmp	.LBB22_38
.LBB22_78:
	movl	$3, %eax
	jmp	.LBB22_84
.LBB22_79:
	movl	$4, %eax
	jmp	.LBB22_84
.LBB22_80:
	movl	$5, %eax
	jmp	.LBB22_84
.LBB22_81:
	movl	$6, %eax
	jmp	.LBB22_84
	.p2align	4
.LBB22_82:
	leal	67043328(%rcx), %r11d
	shrl	$10, %r11d
	addl	$-10240, %r11d
	andl	$1023, %ecx
	orl	$56320, %ecx
	movw	%cx, 2(%rdx,%r9)
	movl	$4, %r10d
	movl	%r11d, %ecx
.LBB22_83:
	movw	%cx, (%rdx,%r9)
	addq	%r10, %r9
	addq	%r8, %rax
.LBB22_84:
	cmpq	%rsi, %rax
	jae	.LBB22_32
	movzbl	(%rdi,%rax), %ecx
	testb	%cl, %cl
	js	.LBB22_90
	movl	$1, %r8d
.LBB22_87:
	movq	%rbx, %r10
	subq	%r9, %r10
	xorl	%r11d, %r11d
	cmpl	$65536, %ecx
	setae	%r11b
	leaq	2(,%r11,2), %r11
	cmpq	%r11, %r10
	jb	.LBB22_32
	cmpl	$65535, %ecx
	ja	.LBB22_82
	movl	$2, %r10d
	jmp	.LBB22_83
	.p2align	4
.LBB22_90:
	movq	%rsi, %r10
	subq	%rax, %r10
	cmpq	$3, %r10
	jb	.LBB22_94
	leal	31(%rcx), %r8d
	cmpb	$11, %r8b
	ja	.LBB22_95
	movzbl	1(%rdi,%rax), %r8d
	cmpb	$-65, %r8b
	jg	.LBB22_95
	movzbl	2(%rdi,%rax), %r11d
	cmpb	$-65, %r11b
	jg	.LBB22_95
	jmp	.LBB22_100
.LBB22_94:
	cmpq	$2, %r10
	jne	.LBB22_32
.LBB22_95:
	movzbl	1(%rdi,%rax), %r8d
	movl	%ecx, %r11d
	shrb	$4, %r11b
	andb	$12, %r11b
	movl	%r8d, %ebp
	shrb	$6, %bpl
	orb	%r11b, %bpl
	cmpb	$14, %bpl
	jne	.LBB22_32
	leal	31(%rcx), %r11d
	cmpb	$12, %r11b
	jae	.LBB22_101
.LBB22_97:
	cmpq	$2, %r10
	je	.LBB22_32
	movzbl	2(%rdi,%rax), %r11d
	cmpb	$-65, %r11b
	jg	.LBB22_32
	cmpb	$-17, %cl
	ja	.LBB22_105
.LBB22_100:
	shll	$12, %ecx
	shll	$6, %r8d
	addl	%ecx, %r8d
	leal	(%r11,%r8), %ecx
	addl	$-925824, %ecx
	movl	$3, %r8d
	jmp	.LBB22_87
.LBB22_101:
	leal	62(%rcx), %r11d
	cmpb	$30, %r11b
	jb	.LBB22_116
	movb	$-65, %bpl
	leal	-224(%rcx), %r14d
	cmpl	$20, %r14d
	ja	.LBB22_111
	leaq	.LJTI22_1(%rip), %r15
	movslq	(%r15,%r14,4), %r14
	addq	%r15, %r14
	jmpq	*%r14
.LBB22_104:
	movb	$-96, %r14b
	jmp	.LBB22_112
.LBB22_105:
	cmpq	$4, %r10
	jb	.LBB22_32
	movzbl	3(%rdi,%rax), %r10d
	cmpb	$-65, %r10b
	jg	.LBB22_32
	shll	$18, %ecx
	shll	$12, %r8d
	addl	%ecx, %r8d
	shll	$6, %r11d
	addl	%r8d, %r11d
	leal	(%r10,%r11), %ecx
	addl	$-63447168, %ecx
	movl	$4, %r8d
	jmp	.LBB22_87
.LBB22_108:
	movb	$-112, %r14b
	jmp	.LBB22_112
.LBB22_109:
	movb	$-97, %bpl
	jmp	.LBB22_111
.LBB22_110:
	movb	$-113, %bpl
.LBB22_111:
	movb	$-128, %r14b
.LBB22_112:
	cmpb	$50, %r11b
	ja	.LBB22_32
	cmpb	%r8b, %r14b
	ja	.LBB22_32
	cmpb	%bpl, %r8b
	ja	.LBB22_32
	cmpb	$-33, %cl
	ja	.LBB22_97
.LBB22_116:
	shll	$6, %ecx
	addl	%r8d, %ecx
	addl	$-12416, %ecx
	movl	$2, %r8d
	jmp	.LBB22_87
.Lfunc_end22:
	.section	.rdata$030,"dr"
	.p2align	2, 0x0
.LJTI22_0:
	.long	.LBB22_65-.LJTI22_0
	.long	.LBB22_72-.LJTI22_0
	.long	.LBB22_72-.LJTI22_0
	.long	.LBB22_72-.LJTI22_0
	.long	.LBB22_72-.LJTI22_0
	.long	.LBB22_72-.LJTI22_0
	.long	.LBB22_72-.LJTI22_0
	.long	.LBB22_72-.LJTI22_0
	.long	.LBB22_72-.LJTI22_0
	.long	.LBB22_72-.LJTI22_0
	.long	.LBB22_72-.LJTI22_0
	.long	.LBB22_72-.LJTI22_0
	.long	.LBB22_72-.LJTI22_0
	.long	.LBB22_70-.LJTI22_0
	.long	.LBB22_72-.LJTI22_0
	.long	.LBB22_72-.LJTI22_0
	.long	.LBB22_69-.LJTI22_0
	.long	.LBB22_72-.LJTI22_0
	.long	.LBB22_72-.LJTI22_0
	.long	.LBB22_72-.LJTI22_0
	.long	.LBB22_71-.LJTI22_0
.LJTI22_1:
	.long	.LBB22_104-.LJTI22_1
	.long	.LBB22_111-.LJTI22_1
	.long	.LBB22_111-.LJTI22_1
	.long	.LBB22_111-.LJTI22_1
	.long	.LBB22_111-.LJTI22_1
	.long	.LBB22_111-.LJTI22_1
	.long	.LBB22_111-.LJTI22_1
	.long	.LBB22_111-.LJTI22_1
	.long	.LBB22_111-.LJTI22_1
	.long	.LBB22_111-.LJTI22_1
	.long	.LBB22_111-.LJTI22_1
	.long	.LBB22_111-.LJTI22_1
	.long	.LBB22_111-.LJTI22_1
	.long	.LBB22_109-.LJTI22_1
	.long	.LBB22_111-.LJTI22_1
	.long	.LBB22_111-.LJTI22_1
	.long	.LBB22_108-.LJTI22_1
	.long	.LBB22_111-.LJTI22_1
	.long	.LBB22_111-.LJTI22_1
	.long	.LBB22_111-.LJTI22_1
	.long	.LBB22_110-.LJTI22_1

	.section	.text$031,"xr"
	.p2align	4
L_25:
	xorl	%eax, %eax
	cmpq	$64, %rsi
	jb	.LBB23_4
	movq	%rsi, %rcx
	.p2align	4
.LBB23_2:
	movdqu	(%rdi,%rax), %xmm3
	movdqu	16(%rdi,%rax), %xmm2
	movdqu	32(%rdi,%rax), %xmm1
	movdqu	48(%rdi,%rax), %xmm0
	movdqa	%xmm3, %xmm4
	por	%xmm2, %xmm4
	movdqa	%xmm1, %xmm5
	por	%xmm0, %xmm5
	por	%xmm4, %xmm5
	pmovmskb	%xmm5, %r8d
	testl	%r8d, %r8d
	jne	.LBB23_4
	pxor	%xmm4, %xmm4
	pmovzxbw	%xmm3, %xmm5
	punpckhbw	%xmm4, %xmm3
	movdqu	%xmm5, (%rdx,%rax,2)
	movdqu	%xmm3, 16(%rdx,%rax,2)
	pmovzxbw	%xmm2, %xmm3
	punpckhbw	%xmm4, %xmm2
	movdqu	%xmm3, 32(%rdx,%rax,2)
	movdqu	%xmm2, 48(%rdx,%rax,2)
	pmovzxbw	%xmm1, %xmm2
	punpckhbw	%xmm4, %xmm1
	movdqu	%xmm2, 64(%rdx,%rax,2)
	movdqu	%xmm1, 80(%rdx,%rax,2)
	pmovzxbw	%xmm0, %xmm1
	punpckhbw	%xmm4, %xmm0
	movdqu	%xmm1, 96(%rdx,%rax,2)
	movdqu	%xmm0, 112(%rdx,%rax,2)
	addq	$64, %rax
	addq	$-64, %rcx
	cmpq	$63, %rcx
	ja	.LBB23_2
.LBB23_4:
	movq	%rsi, %rcx
	subq	%rax, %rcx
	cmpq	$16, %rcx
	jb	.LBB23_7
	.p2align	4
.LBB23_5:
	movdqu	(%rdi,%rax), %xmm0
	pmovmskb	%xmm0, %r8d
	testl	%r8d, %r8d
	jne	.LBB23_9
	pxor	%xmm1, %xmm1
	pmovzxbw	%xmm0, %xmm2
	punpckhbw	%xmm1, %xmm0
	movdqu	%xmm2, (%rdx,%rax,2)
	movdqu	%xmm0, 16(%rdx,%rax,2)
	addq	$16, %rax
	addq	$-16, %rcx
	cmpq	$15, %rcx
	ja	.LBB23_5
.LBB23_7:
	movdqu	-16(%rsi,%rdi), %xmm0
	pmovmskb	%xmm0, %ecx
	testl	%ecx, %ecx
	je	.LBB23_8
.LBB23_9:
	retq
.LBB23_8:
	pxor	%xmm1, %xmm1
	pmovzxbw	%xmm0, %xmm2
	punpckhbw	%xmm1, %xmm0
	movdqu	%xmm2, -32(%rdx,%rsi,2)
	movdqu	%xmm0, -16(%rdx,%rsi,2)
	movq	%rsi, %rax
	retq
.Lfunc_end23:

	.section	.rdata$004,"dr"
	.p2align	4, 0x0
.LCPI24_0:
	.zero	16,224
.LCPI24_1:
	.zero	1
	.byte	255
	.byte	0
	.zero	1
	.byte	255
	.byte	0
	.zero	1
	.byte	255
	.byte	0
	.zero	1
	.byte	255
	.byte	0
	.zero	1
	.byte	255
	.byte	0
	.zero	1
.LCPI24_2:
	.byte	0
	.byte	3
	.byte	6
	.byte	9
	.byte	12
	.byte	15
	.byte	128
	.byte	128
	.byte	128
	.byte	128
	.byte	128
	.byte	128
	.byte	128
	.byte	128
	.byte	128
	.byte	128
.LCPI24_3:
	.byte	128
	.byte	128
	.byte	128
	.byte	128
	.byte	128
	.byte	128
	.byte	2
	.byte	5
	.byte	8
	.byte	11
	.byte	14
	.byte	1
	.byte	4
	.byte	7
	.byte	10
	.byte	13
.LCPI24_4:
	.byte	255
	.zero	1
	.byte	0
	.byte	255
	.zero	1
	.byte	0
	.byte	255
	.zero	1
	.byte	0
	.byte	255
	.zero	1
	.byte	0
	.byte	255
	.zero	1
	.byte	0
	.byte	255
.LCPI24_5:
	.byte	1
	.byte	4
	.byte	7
	.byte	10
	.byte	13
	.byte	128
	.byte	128
	.byte	128
	.byte	128
	.byte	128
	.byte	128
	.byte	128
	.byte	128
	.byte	128
	.byte	128
	.byte	128
.LCPI24_6:
	.byte	128
	.byte	128
	.byte	128
	.byte	128
	.byte	128
	.byte	0
	.byte	3
	.byte	6
	.byte	9
	.byte	12
	.byte	15
	.byte	2
	.byte	5
	.byte	8
	.byte	11
	.byte	14
.LCPI24_7:
	.byte	255
	.byte	0
	.zero	1
	.byte	255
	.byte	0
	.zero	1
	.byte	255
	.byte	0
	.zero	1
	.byte	255
	.byte	0
	.zero	1
	.byte	255
	.byte	0
	.zero	1
	.byte	255
.LCPI24_8:
	.byte	2
	.byte	5
	.byte	8
	.byte	11
	.byte	14
	.byte	128
	.byte	128
	.byte	128
	.byte	128
	.byte	128
	.byte	128
	.byte	128
	.byte	128
	.byte	128
	.byte	128
	.byte	128
.LCPI24_9:
	.byte	128
	.byte	128
	.byte	128
	.byte	128
	.byte	128
	.byte	1
	.byte	4
	.byte	7
	.byte	10
	.byte	13
	.byte	0
	.byte	3
	.byte	6
	.byte	9
	.byte	12
	.byte	15
.LCPI24_10:
	.zero	16,240
.LCPI24_11:
	.zero	16,32
.LCPI24_12:
	.zero	16,192
.LCPI24_13:
	.zero	16,128
.LCPI24_14:
	.zero	16,15
.LCPI24_15:
	.zero	16,7
.LCPI24_16:
	.zero	16,248
.LCPI24_17:
	.zero	16,216
.LCPI24_18:
	.zero	16,63
.LCPI24_19:
	.zero	16,191
.LCPI24_20:
	.zero	16,223
.LCPI24_21:
	.zero	16,239
.LCPI24_22:
	.zero	16,159
.LCPI24_23:
	.zero	16,237
.LCPI24_24:
	.zero	16,143
.LCPI24_25:
	.zero	16,245
.LCPI24_26:
	.zero	16,244
.LCPI24_27:
	.zero	16,254
.LCPI24_28:
	.zero	16,220
.LCPI24_29:
	.zero	16,252
.LCPI24_30:
	.zero	16,232
.LCPI24_31:
	.zero	16,127
.LCPI24_32:
	.zero	16
	.section	.text$032,"xr"
	.p2align	4
L_26:
	pushq	%rbp
	pushq	%r15
	pushq	%r14
	pushq	%r13
	pushq	%r12
	pushq	%rbx
	subq	$56, %rsp
	movq	%r9, %rbx
	movq	%r8, %rax
	movq	%rcx, %r15
	movq	%rdx, %r12
	movq	%rsi, %r13
	movq	%rdi, %rbp
	jmp	.LBB24_1
	.p2align	4
.LBB24_4:
	shrq	%rsi
	cmpq	%rax, %rsi
	cmovaeq	%rax, %rsi
	leaq	(%r12,%rbx), %rdx
	callq	L_25
	leaq	(%rbx,%rax,2), %rbx
	addq	%r14, %rax
.LBB24_27:
	cmpq	%r14, %rax
	je	.LBB24_28
.LBB24_1:
	movq	%rax, %r14
	movq	%r13, %rax
	subq	%r14, %rax
	cmpq	$64, %rax
	jb	.LBB24_28
	movq	%r15, %rsi
	subq	%rbx, %rsi
	cmpq	$128, %rsi
	jb	.LBB24_28
	leaq	(%r14,%rbp), %rdi
	movdqu	(%rbp,%r14), %xmm4
	movdqu	16(%rbp,%r14), %xmm2
	movdqu	32(%rbp,%r14), %xmm6
	movdqu	48(%rbp,%r14), %xmm3
	movdqa	%xmm4, %xmm0
	pmaxub	%xmm2, %xmm0
	movdqa	%xmm6, %xmm1
	pmaxub	%xmm3, %xmm1
	pmaxub	%xmm0, %xmm1
	pmovmskb	%xmm1, %ecx
	testl	%ecx, %ecx
	je	.LBB24_4
	movdqa	.LCPI24_0(%rip), %xmm0
	pmaxub	%xmm1, %xmm0
	pcmpeqb	%xmm1, %xmm0
	pmovmskb	%xmm0, %eax
	testl	%eax, %eax
	je	.LBB24_6
	movd	%xmm4, %eax
	andb	$-16, %al
	cmpb	$-32, %al
	jne	.LBB24_9
	leaq	-32(%r15), %rcx
	subq	%rbx, %rcx
	leaq	-48(%r13), %rdx
	subq	%r14, %rdx
	movq	%r14, %rax
	.p2align	4
.LBB24_11:
	movdqu	16(%rbp,%rax), %xmm2
	movdqu	32(%rbp,%rax), %xmm6
	movaps	.LCPI24_1(%rip), %xmm0
	movdqa	%xmm2, %xmm4
	pblendvb	%xmm0, %xmm6, %xmm4
	movdqu	(%rbp,%rax), %xmm5
	movdqa	%xmm5, %xmm7
	pshufb	.LCPI24_2(%rip), %xmm7
	pshufb	.LCPI24_3(%rip), %xmm4
	movaps	.LCPI24_4(%rip), %xmm0
	movdqa	%xmm6, %xmm3
	pblendvb	%xmm0, %xmm2, %xmm3
	movdqa	%xmm5, %xmm0
	pshufb	.LCPI24_5(%rip), %xmm0
	por	%xmm7, %xmm4
	pshufb	.LCPI24_6(%rip), %xmm3
	por	%xmm0, %xmm3
	movaps	.LCPI24_7(%rip), %xmm0
	pblendvb	%xmm0, %xmm6, %xmm2
	pshufb	.LCPI24_8(%rip), %xmm5
	pshufb	.LCPI24_9(%rip), %xmm2
	movdqa	.LCPI24_10(%rip), %xmm0
	pand	%xmm4, %xmm0
	paddb	.LCPI24_11(%rip), %xmm0
	por	%xmm5, %xmm2
	movdqa	.LCPI24_12(%rip), %xmm5
	movdqa	%xmm3, %xmm6
	pand	%xmm5, %xmm6
	movdqa	.LCPI24_13(%rip), %xmm7
	pxor	%xmm7, %xmm6
	pmaxub	%xmm0, %xmm6
	pand	%xmm2, %xmm5
	pxor	%xmm7, %xmm5
	por	%xmm6, %xmm5
	ptest	%xmm5, %xmm5
	jne	.LBB24_15
	psllw	$4, %xmm4
	pand	.LCPI24_10(%rip), %xmm4
	movdqa	%xmm3, %xmm0
	psrlw	$2, %xmm0
	pand	.LCPI24_14(%rip), %xmm0
	por	%xmm4, %xmm0
	movdqa	.LCPI24_15(%rip), %xmm4
	pminub	%xmm0, %xmm4
	movdqa	.LCPI24_16(%rip), %xmm5
	pand	%xmm0, %xmm5
	pcmpeqb	.LCPI24_17(%rip), %xmm5
	pcmpeqb	%xmm0, %xmm4
	por	%xmm4, %xmm5
	pmovmskb	%xmm5, %esi
	testl	%esi, %esi
	jne	.LBB24_15
	psllw	$6, %xmm3
	pand	.LCPI24_12(%rip), %xmm3
	pand	.LCPI24_18(%rip), %xmm2
	por	%xmm3, %xmm2
	movdqa	%xmm2, %xmm3
	punpckhbw	%xmm0, %xmm3
	punpcklbw	%xmm0, %xmm2
	movdqu	%xmm2, (%r12,%rbx)
	movdqu	%xmm3, 16(%r12,%rbx)
	addq	$32, %rbx
	addq	$48, %rax
	subq	$32, %rcx
	setb	%sil
	subq	$48, %rdx
	jb	.LBB24_15
	testb	%sil, %sil
	je	.LBB24_11
	jmp	.LBB24_15
	.p2align	4
.LBB24_6:
	movdqa	%xmm4, %xmm5
	pslldq	$1, %xmm5
	movdqa	.LCPI24_12(%rip), %xmm0
	movdqa	%xmm0, %xmm1
	pcmpgtb	%xmm4, %xmm1
	movdqa	%xmm5, %xmm7
	pmaxub	%xmm0, %xmm7
	pcmpeqb	%xmm5, %xmm7
	pxor	%xmm1, %xmm7
	movdqa	.LCPI24_27(%rip), %xmm1
	movdqa	%xmm4, %xmm8
	pand	%xmm1, %xmm8
	pcmpeqb	%xmm0, %xmm8
	por	%xmm7, %xmm8
	movdqa	%xmm0, %xmm9
	pcmpgtb	%xmm2, %xmm9
	movdqu	15(%rdi), %xmm10
	movdqu	31(%rdi), %xmm11
	movdqu	47(%rdi), %xmm7
	movdqa	%xmm10, %xmm12
	pmaxub	%xmm0, %xmm12
	pcmpeqb	%xmm10, %xmm12
	pxor	%xmm9, %xmm12
	pand	%xmm1, %xmm2
	pcmpeqb	%xmm0, %xmm2
	por	%xmm12, %xmm2
	por	%xmm8, %xmm2
	movdqa	%xmm0, %xmm8
	pcmpgtb	%xmm6, %xmm8
	movdqa	%xmm11, %xmm9
	pmaxub	%xmm0, %xmm9
	pcmpeqb	%xmm11, %xmm9
	pxor	%xmm8, %xmm9
	pand	%xmm1, %xmm6
	pcmpeqb	%xmm0, %xmm6
	por	%xmm9, %xmm6
	movdqa	%xmm0, %xmm8
	pcmpgtb	%xmm3, %xmm8
	movdqa	%xmm7, %xmm9
	pmaxub	%xmm0, %xmm9
	pcmpeqb	%xmm7, %xmm9
	pxor	%xmm8, %xmm9
	pand	%xmm1, %xmm3
	pcmpeqb	%xmm0, %xmm3
	por	%xmm9, %xmm3
	por	%xmm6, %xmm3
	por	%xmm2, %xmm3
	pmovmskb	%xmm3, %eax
	testl	%eax, %eax
	jne	.LBB24_28
	psubusb	%xmm0, %xmm5
	movdqa	.LCPI24_19(%rip), %xmm1
	movdqa	%xmm5, %xmm6
	psrlw	$2, %xmm6
	movdqa	.LCPI24_18(%rip), %xmm3
	pand	%xmm3, %xmm6
	movdqa	.LCPI24_31(%rip), %xmm2
	movdqa	%xmm4, %xmm7
	pand	%xmm2, %xmm7
	psllw	$6, %xmm5
	pand	%xmm0, %xmm5
	paddb	%xmm7, %xmm5
	movdqa	%xmm4, %xmm7
	pminub	%xmm1, %xmm7
	pcmpeqb	%xmm4, %xmm7
	pmovmskb	%xmm7, %edx
	movdqa	%xmm5, %xmm4
	punpckhbw	%xmm6, %xmm4
	punpcklbw	%xmm6, %xmm5
	movzbl	%dl, %ecx
	popcntl	%ecx, %r8d
	shll	$4, %ecx
	leaq	.Lstatic.13(%rip), %rax
	movdqu	(%rcx,%rax), %xmm6
	pshufb	%xmm6, %xmm5
	leaq	(%r12,%rbx), %rcx
	movdqu	%xmm5, (%r12,%rbx)
	shrl	$8, %edx
	popcntl	%edx, %esi
	shll	$4, %edx
	movdqu	(%rdx,%rax), %xmm5
	pshufb	%xmm5, %xmm4
	movdqu	%xmm4, (%rcx,%r8,2)
	addq	%r8, %rsi
	movdqu	15(%rdi), %xmm4
	movdqu	16(%rdi), %xmm5
	psubusb	%xmm0, %xmm4
	movdqa	%xmm4, %xmm6
	psrlw	$2, %xmm6
	pand	%xmm3, %xmm6
	movdqa	%xmm5, %xmm7
	pminub	%xmm1, %xmm7
	pcmpeqb	%xmm5, %xmm7
	pand	%xmm2, %xmm5
	psllw	$6, %xmm4
	pand	%xmm0, %xmm4
	paddb	%xmm5, %xmm4
	pmovmskb	%xmm7, %r8d
	movdqa	%xmm4, %xmm5
	punpckhbw	%xmm6, %xmm5
	punpcklbw	%xmm6, %xmm4
	movzbl	%r8b, %edx
	popcntl	%edx, %r9d
	shll	$4, %edx
	movdqu	(%rdx,%rax), %xmm6
	pshufb	%xmm6, %xmm4
	leaq	(%rcx,%rsi,2), %r10
	movdqu	%xmm4, (%rcx,%rsi,2)
	shrl	$8, %r8d
	xorl	%edx, %edx
	popcntl	%r8d, %edx
	shll	$4, %r8d
	movdqu	(%r8,%rax), %xmm4
	pshufb	%xmm4, %xmm5
	movdqu	%xmm5, (%r10,%r9,2)
	addq	%rsi, %rdx
	addq	%r9, %rdx
	movdqu	31(%rdi), %xmm4
	movdqu	32(%rdi), %xmm5
	psubusb	%xmm0, %xmm4
	movdqa	%xmm4, %xmm6
	psrlw	$2, %xmm6
	pand	%xmm3, %xmm6
	movdqa	%xmm5, %xmm7
	pminub	%xmm1, %xmm7
	pcmpeqb	%xmm5, %xmm7
	pand	%xmm2, %xmm5
	psllw	$6, %xmm4
	pand	%xmm0, %xmm4
	paddb	%xmm5, %xmm4
	pmovmskb	%xmm7, %r8d
	movdqa	%xmm4, %xmm5
	punpckhbw	%xmm6, %xmm5
	punpcklbw	%xmm6, %xmm4
	movzbl	%r8b, %esi
	xorl	%r9d, %r9d
	popcntl	%esi, %r9d
	shll	$4, %esi
	movdqu	(%rsi,%rax), %xmm6
	pshufb	%xmm6, %xmm4
	leaq	(%rcx,%rdx,2), %r10
	movdqu	%xmm4, (%rcx,%rdx,2)
	shrl	$8, %r8d
	xorl	%esi, %esi
	popcntl	%r8d, %esi
	shll	$4, %r8d
	movdqu	(%r8,%rax), %xmm4
	pshufb	%xmm4, %xmm5
	movdqu	%xmm5, (%r10,%r9,2)
	addq	%r9, %rsi
	addq	%rdx, %rsi
	movdqu	47(%rdi), %xmm4
	movdqu	48(%rdi), %xmm5
	psubusb	%xmm0, %xmm4
	movdqa	%xmm4, %xmm6
	psrlw	$2, %xmm6
	pand	%xmm3, %xmm6
	pand	%xmm5, %xmm2
	psllw	$6, %xmm4
	pand	%xmm0, %xmm4
	paddb	%xmm2, %xmm4
	pminub	%xmm5, %xmm1
	pcmpeqb	%xmm5, %xmm1
	pmovmskb	%xmm1, %edx
	movdqa	%xmm4, %xmm0
	punpckhbw	%xmm6, %xmm0
	punpcklbw	%xmm6, %xmm4
	movzbl	%dl, %r8d
	xorl	%r9d, %r9d
	popcntl	%r8d, %r9d
	shll	$4, %r8d
	movdqu	(%r8,%rax), %xmm1
	pshufb	%xmm1, %xmm4
	leaq	(%rcx,%rsi,2), %r8
	movdqu	%xmm4, (%rcx,%rsi,2)
	shrl	$8, %edx
	popcntl	%edx, %ecx
	shll	$4, %edx
	movdqu	(%rdx,%rax), %xmm1
	pshufb	%xmm1, %xmm0
	movdqu	%xmm0, (%r8,%r9,2)
	addq	%r9, %rcx
	addq	%rsi, %rcx
	leaq	(%rbx,%rcx,2), %rbx
	cmpb	$-64, 63(%rdi)
	movq	%r14, %rax
	adcq	$-1, %rax
	addq	$64, %rax
	jmp	.LBB24_27
.LBB24_9:
	movq	%r14, %rax
.LBB24_15:
	cmpq	%rax, %r14
	jb	.LBB24_27
	movdqa	.LCPI24_10(%rip), %xmm0
	pmaxub	%xmm1, %xmm0
	pcmpeqb	%xmm1, %xmm0
	pmovmskb	%xmm0, %ecx
	movdqu	(%rbp,%rax), %xmm9
	movdqa	%xmm9, %xmm8
	pslldq	$1, %xmm8
	movdqa	%xmm9, %xmm10
	pslldq	$2, %xmm10
	testl	%ecx, %ecx
	je	.LBB24_17
	movdqa	%xmm10, %xmm1
	pslldq	$1, %xmm1
	movdqa	.LCPI24_12(%rip), %xmm2
	movdqa	%xmm2, %xmm0
	movdqa	%xmm2, %xmm11
	pcmpgtb	%xmm9, %xmm0
	movdqa	%xmm8, %xmm2
	psubusb	.LCPI24_19(%rip), %xmm2
	movdqa	%xmm10, 16(%rsp)
	movdqa	%xmm10, %xmm3
	psubusb	.LCPI24_20(%rip), %xmm3
	pmaxub	%xmm2, %xmm3
	psubusb	.LCPI24_21(%rip), %xmm1
	por	%xmm3, %xmm1
	pxor	%xmm2, %xmm2
	pcmpgtb	%xmm2, %xmm1
	pxor	%xmm0, %xmm1
	movdqa	.LCPI24_22(%rip), %xmm3
	movdqa	%xmm9, %xmm0
	pminub	%xmm3, %xmm0
	pcmpeqb	%xmm9, %xmm0
	movdqa	.LCPI24_0(%rip), %xmm10
	movdqa	.LCPI24_23(%rip), %xmm6
	movdqa	%xmm6, %xmm2
	pblendvb	%xmm0, %xmm10, %xmm2
	pcmpeqb	%xmm8, %xmm2
	movdqa	.LCPI24_24(%rip), %xmm4
	movdqa	%xmm9, %xmm0
	pminub	%xmm4, %xmm0
	pcmpeqb	%xmm9, %xmm0
	movdqa	.LCPI24_25(%rip), %xmm14
	movdqa	.LCPI24_26(%rip), %xmm5
	movdqa	%xmm5, %xmm13
	pblendvb	%xmm0, .LCPI24_10(%rip), %xmm13
	movdqa	%xmm9, %xmm0
	pmaxub	%xmm14, %xmm0
	pcmpeqb	%xmm9, %xmm0
	movdqa	%xmm8, 32(%rsp)
	pcmpeqb	%xmm8, %xmm13
	por	%xmm2, %xmm13
	por	%xmm0, %xmm13
	movdqu	16(%rbp,%rax), %xmm15
	movdqa	%xmm15, %xmm0
	pminub	%xmm3, %xmm0
	pcmpeqb	%xmm15, %xmm0
	movdqa	%xmm6, %xmm12
	pblendvb	%xmm0, %xmm10, %xmm12
	movdqa	.LCPI24_27(%rip), %xmm8
	movdqa	%xmm9, (%rsp)
	movdqa	%xmm9, %xmm2
	pand	%xmm8, %xmm2
	movdqa	%xmm11, %xmm9
	pcmpeqb	%xmm11, %xmm2
	por	%xmm1, %xmm2
	movdqa	%xmm15, %xmm0
	pminub	%xmm4, %xmm0
	pcmpeqb	%xmm15, %xmm0
	movdqa	%xmm5, %xmm7
	movdqa	.LCPI24_10(%rip), %xmm11
	pblendvb	%xmm0, %xmm11, %xmm7
	por	%xmm13, %xmm2
	movdqu	15(%rbp,%rax), %xmm0
	pcmpeqb	%xmm0, %xmm12
	pcmpeqb	%xmm0, %xmm7
	movdqa	.LCPI24_19(%rip), %xmm13
	psubusb	%xmm13, %xmm0
	movdqu	14(%rbp,%rax), %xmm1
	movdqa	.LCPI24_20(%rip), %xmm10
	psubusb	%xmm10, %xmm1
	pmaxub	%xmm0, %xmm1
	movdqu	13(%rbp,%rax), %xmm0
	movdqa	.LCPI24_21(%rip), %xmm10
	psubusb	%xmm10, %xmm0
	por	%xmm1, %xmm0
	movdqa	%xmm9, %xmm1
	pcmpgtb	%xmm15, %xmm1
	pcmpgtb	.LCPI24_32(%rip), %xmm0
	pxor	%xmm1, %xmm0
	por	%xmm12, %xmm7
	movdqa	%xmm15, %xmm1
	pmaxub	%xmm14, %xmm1
	pcmpeqb	%xmm15, %xmm1
	por	%xmm1, %xmm7
	pand	%xmm8, %xmm15
	pcmpeqb	%xmm9, %xmm15
	por	%xmm0, %xmm15
	movdqu	32(%rbp,%rax), %xmm1
	movdqa	%xmm1, %xmm0
	pminub	%xmm3, %xmm0
	pcmpeqb	%xmm1, %xmm0
	movdqa	%xmm6, %xmm12
	pblendvb	%xmm0, .LCPI24_0(%rip), %xmm12
	por	%xmm7, %xmm15
	movdqa	%xmm1, %xmm0
	pminub	%xmm4, %xmm0
	pcmpeqb	%xmm1, %xmm0
	movdqa	%xmm5, %xmm7
	pblendvb	%xmm0, %xmm11, %xmm7
	por	%xmm2, %xmm15
	movdqu	31(%rbp,%rax), %xmm0
	pcmpeqb	%xmm0, %xmm12
	pcmpeqb	%xmm0, %xmm7
	psubusb	%xmm13, %xmm0
	movdqu	30(%rbp,%rax), %xmm2
	movdqa	.LCPI24_20(%rip), %xmm13
	psubusb	%xmm13, %xmm2
	pmaxub	%xmm0, %xmm2
	movdqu	29(%rbp,%rax), %xmm0
	psubusb	%xmm10, %xmm0
	movdqa	%xmm10, %xmm8
	por	%xmm2, %xmm0
	movdqa	%xmm9, %xmm2
	pcmpgtb	%xmm1, %xmm2
	pxor	%xmm10, %xmm10
	pcmpgtb	%xmm10, %xmm0
	pxor	%xmm11, %xmm11
	pxor	%xmm2, %xmm0
	por	%xmm12, %xmm7
	movdqa	%xmm1, %xmm2
	pmaxub	%xmm14, %xmm2
	pcmpeqb	%xmm1, %xmm2
	por	%xmm2, %xmm7
	movdqa	.LCPI24_27(%rip), %xmm10
	pand	%xmm10, %xmm1
	pcmpeqb	%xmm9, %xmm1
	por	%xmm0, %xmm1
	por	%xmm7, %xmm1
	movdqu	48(%rbp,%rax), %xmm2
	pminub	%xmm2, %xmm3
	pcmpeqb	%xmm2, %xmm3
	movdqa	%xmm3, %xmm0
	movdqa	.LCPI24_0(%rip), %xmm3
	movdqa	%xmm3, %xmm7
	pblendvb	%xmm0, %xmm3, %xmm6
	pminub	%xmm2, %xmm4
	pcmpeqb	%xmm2, %xmm4
	movdqa	%xmm4, %xmm0
	pblendvb	%xmm0, .LCPI24_10(%rip), %xmm5
	movdqu	46(%rbp,%rax), %xmm0
	movdqu	47(%rbp,%rax), %xmm3
	pcmpeqb	%xmm3, %xmm6
	pcmpeqb	%xmm3, %xmm5
	movdqa	.LCPI24_19(%rip), %xmm12
	psubusb	%xmm12, %xmm3
	psubusb	%xmm13, %xmm0
	pmaxub	%xmm3, %xmm0
	movdqu	45(%rbp,%rax), %xmm3
	psubusb	%xmm8, %xmm3
	por	%xmm0, %xmm3
	pcmpgtb	%xmm11, %xmm3
	movdqa	%xmm9, %xmm0
	pcmpgtb	%xmm2, %xmm0
	pxor	%xmm0, %xmm3
	por	%xmm6, %xmm5
	pmaxub	%xmm2, %xmm14
	pcmpeqb	%xmm2, %xmm14
	por	%xmm14, %xmm5
	pand	%xmm10, %xmm2
	pcmpeqb	%xmm9, %xmm2
	por	%xmm3, %xmm2
	por	%xmm5, %xmm2
	por	%xmm1, %xmm2
	por	%xmm15, %xmm2
	psllw	$7, %xmm2
	pmovmskb	%xmm2, %ecx
	testl	%ecx, %ecx
	jne	.LBB24_27
	movdqa	%xmm12, %xmm4
	movdqa	%xmm8, %xmm12
	movdqa	%xmm9, %xmm13
	movdqa	%xmm9, %xmm15
	movdqa	%xmm13, %xmm1
	movdqa	(%rsp), %xmm9
	movdqa	%xmm9, %xmm0
	movdqa	32(%rsp), %xmm8
	pblendvb	%xmm0, %xmm8, %xmm1
	movdqa	16(%rsp), %xmm10
	movdqa	%xmm10, %xmm0
	pmaxub	%xmm7, %xmm0
	movdqa	%xmm7, %xmm14
	movdqa	%xmm1, %xmm2
	psrlw	$2, %xmm2
	movdqa	.LCPI24_14(%rip), %xmm5
	pand	%xmm5, %xmm2
	psllw	$4, %xmm0
	movdqa	%xmm5, %xmm3
	pandn	%xmm0, %xmm3
	por	%xmm2, %xmm3
	movdqa	%xmm1, %xmm0
	pmaxub	%xmm10, %xmm0
	movdqa	%xmm0, %xmm6
	movdqa	%xmm4, %xmm11
	pminub	%xmm4, %xmm6
	pcmpeqb	%xmm0, %xmm6
	pand	.LCPI24_28(%rip), %xmm6
	por	%xmm3, %xmm6
	movdqa	%xmm8, %xmm7
	psllw	$2, %xmm7
	movdqa	.LCPI24_29(%rip), %xmm3
	pand	%xmm3, %xmm7
	movdqa	.LCPI24_18(%rip), %xmm13
	movdqa	%xmm7, %xmm0
	pminub	%xmm13, %xmm0
	pcmpeqb	%xmm7, %xmm0
	movdqa	.LCPI24_30(%rip), %xmm4
	movdqa	%xmm10, %xmm2
	paddb	%xmm4, %xmm2
	paddb	%xmm0, %xmm2
	movdqa	%xmm10, %xmm0
	pminub	%xmm12, %xmm0
	pcmpeqb	%xmm10, %xmm0
	pblendvb	%xmm0, %xmm6, %xmm2
	movdqa	%xmm9, %xmm10
	psrlw	$4, %xmm10
	movdqa	%xmm3, %xmm6
	pandn	%xmm10, %xmm6
	por	%xmm7, %xmm6
	movdqa	.LCPI24_31(%rip), %xmm10
	movdqa	%xmm9, %xmm7
	pand	%xmm10, %xmm7
	psllw	$6, %xmm1
	pand	%xmm15, %xmm1
	paddb	%xmm7, %xmm1
	paddb	%xmm15, %xmm6
	movdqa	%xmm15, %xmm7
	pblendvb	%xmm0, %xmm1, %xmm6
	movdqa	%xmm9, %xmm0
	pminub	%xmm11, %xmm0
	pcmpeqb	%xmm9, %xmm0
	movdqa	%xmm8, %xmm1
	movdqa	.LCPI24_20(%rip), %xmm15
	pminub	%xmm15, %xmm1
	pcmpeqb	%xmm8, %xmm1
	pand	%xmm0, %xmm1
	pmovmskb	%xmm1, %r8d
	movdqa	%xmm6, %xmm0
	punpckhbw	%xmm2, %xmm0
	punpcklbw	%xmm2, %xmm6
	movzbl	%r8b, %edx
	popcntl	%edx, %esi
	shll	$4, %edx
	leaq	.Lstatic.13(%rip), %rcx
	movdqu	(%rdx,%rcx), %xmm1
	pshufb	%xmm1, %xmm6
	leaq	(%r12,%rbx), %rdx
	movdqu	%xmm6, (%r12,%rbx)
	shrl	$8, %r8d
	popcntl	%r8d, %edi
	shll	$4, %r8d
	movdqu	(%r8,%rcx), %xmm1
	pshufb	%xmm1, %xmm0
	movdqu	%xmm0, (%rdx,%rsi,2)
	movdqu	15(%rbp,%rax), %xmm1
	movdqu	16(%rbp,%rax), %xmm2
	movdqa	%xmm7, %xmm6
	movdqa	%xmm2, %xmm0
	pblendvb	%xmm0, %xmm1, %xmm6
	movdqu	14(%rbp,%rax), %xmm7
	movdqa	%xmm7, %xmm0
	pmaxub	%xmm14, %xmm0
	psllw	$4, %xmm0
	movdqa	%xmm5, %xmm9
	pandn	%xmm0, %xmm9
	movdqa	%xmm6, %xmm0
	psrlw	$2, %xmm0
	pand	%xmm5, %xmm0
	por	%xmm0, %xmm9
	movdqa	%xmm6, %xmm0
	pmaxub	%xmm7, %xmm0
	movdqa	%xmm0, %xmm8
	pminub	%xmm11, %xmm8
	pcmpeqb	%xmm0, %xmm8
	pand	.LCPI24_28(%rip), %xmm8
	por	%xmm9, %xmm8
	movdqa	%xmm7, %xmm0
	pminub	%xmm12, %xmm0
	pcmpeqb	%xmm7, %xmm0
	movdqa	%xmm1, %xmm9
	psllw	$2, %xmm9
	pand	%xmm3, %xmm9
	movdqa	%xmm9, %xmm14
	pminub	%xmm13, %xmm14
	pcmpeqb	%xmm9, %xmm14
	paddb	%xmm4, %xmm7
	paddb	%xmm14, %xmm7
	pblendvb	%xmm0, %xmm8, %xmm7
	movdqa	%xmm2, %xmm14
	psrlw	$4, %xmm14
	movdqa	%xmm3, %xmm8
	pandn	%xmm14, %xmm8
	por	%xmm9, %xmm8
	movdqa	%xmm2, %xmm9
	pand	%xmm10, %xmm9
	psllw	$6, %xmm6
	movdqa	.LCPI24_12(%rip), %xmm14
	pand	%xmm14, %xmm6
	paddb	%xmm9, %xmm6
	paddb	%xmm14, %xmm8
	pblendvb	%xmm0, %xmm6, %xmm8
	movdqa	%xmm1, %xmm0
	pminub	%xmm15, %xmm0
	pcmpeqb	%xmm1, %xmm0
	movdqa	%xmm2, %xmm1
	pminub	%xmm11, %xmm1
	pcmpeqb	%xmm2, %xmm1
	addl	%esi, %edi
	pand	%xmm0, %xmm1
	pmovmskb	%xmm1, %r9d
	movdqa	%xmm8, %xmm0
	punpckhbw	%xmm7, %xmm0
	punpcklbw	%xmm7, %xmm8
	movzbl	%r9b, %esi
	popcntl	%esi, %r8d
	shll	$4, %esi
	movdqu	(%rsi,%rcx), %xmm1
	pshufb	%xmm1, %xmm8
	leaq	(%rdx,%rdi,2), %r10
	movdqu	%xmm8, (%rdx,%rdi,2)
	shrl	$8, %r9d
	xorl	%esi, %esi
	popcntl	%r9d, %esi
	shll	$4, %r9d
	movdqu	(%r9,%rcx), %xmm1
	pshufb	%xmm1, %xmm0
	movdqu	%xmm0, (%r10,%r8,2)
	movdqu	30(%rbp,%rax), %xmm7
	movdqu	31(%rbp,%rax), %xmm1
	movdqu	32(%rbp,%rax), %xmm2
	movdqa	%xmm14, %xmm6
	movdqa	%xmm2, %xmm0
	pblendvb	%xmm0, %xmm1, %xmm6
	movdqa	%xmm7, %xmm0
	pmaxub	.LCPI24_0(%rip), %xmm0
	psllw	$4, %xmm0
	movdqa	%xmm5, %xmm9
	pandn	%xmm0, %xmm9
	movdqa	%xmm6, %xmm0
	psrlw	$2, %xmm0
	pand	%xmm5, %xmm0
	por	%xmm0, %xmm9
	movdqa	%xmm6, %xmm0
	pmaxub	%xmm7, %xmm0
	movdqa	%xmm0, %xmm8
	pminub	%xmm11, %xmm8
	pcmpeqb	%xmm0, %xmm8
	pand	.LCPI24_28(%rip), %xmm8
	por	%xmm9, %xmm8
	movdqa	%xmm7, %xmm0
	pminub	%xmm12, %xmm0
	pcmpeqb	%xmm7, %xmm0
	movdqa	%xmm1, %xmm9
	psllw	$2, %xmm9
	pand	%xmm3, %xmm9
	movdqa	%xmm9, %xmm14
	pminub	%xmm13, %xmm14
	pcmpeqb	%xmm9, %xmm14
	paddb	%xmm4, %xmm7
	paddb	%xmm14, %xmm7
	pblendvb	%xmm0, %xmm8, %xmm7
	movdqa	%xmm2, %xmm14
	psrlw	$4, %xmm14
	movdqa	%xmm3, %xmm8
	pandn	%xmm14, %xmm8
	por	%xmm9, %xmm8
	movdqa	%xmm2, %xmm9
	pand	%xmm10, %xmm9
	psllw	$6, %xmm6
	movdqa	.LCPI24_12(%rip), %xmm14
	pand	%xmm14, %xmm6
	paddb	%xmm9, %xmm6
	paddb	%xmm14, %xmm8
	pblendvb	%xmm0, %xmm6, %xmm8
	movdqa	%xmm1, %xmm0
	pminub	%xmm15, %xmm0
	pcmpeqb	%xmm1, %xmm0
	movdqa	%xmm2, %xmm1
	pminub	%xmm11, %xmm1
	pcmpeqb	%xmm2, %xmm1
	addl	%r8d, %esi
	addl	%edi, %esi
	pand	%xmm0, %xmm1
	pmovmskb	%xmm1, %r9d
	movdqa	%xmm8, %xmm0
	punpckhbw	%xmm7, %xmm0
	punpcklbw	%xmm7, %xmm8
	movzbl	%r9b, %edi
	popcntl	%edi, %r8d
	shll	$4, %edi
	movdqu	(%rdi,%rcx), %xmm1
	pshufb	%xmm1, %xmm8
	leaq	(%rdx,%rsi,2), %r10
	movdqu	%xmm8, (%rdx,%rsi,2)
	shrl	$8, %r9d
	xorl	%edi, %edi
	popcntl	%r9d, %edi
	shll	$4, %r9d
	movdqu	(%r9,%rcx), %xmm1
	pshufb	%xmm1, %xmm0
	movdqu	%xmm0, (%r10,%r8,2)
	movdqu	47(%rbp,%rax), %xmm1
	movdqu	48(%rbp,%rax), %xmm2
	movdqa	%xmm14, %xmm6
	movdqa	%xmm2, %xmm0
	pblendvb	%xmm0, %xmm1, %xmm6
	movdqu	46(%rbp,%rax), %xmm0
	movdqa	.LCPI24_0(%rip), %xmm8
	pmaxub	%xmm0, %xmm8
	movdqa	%xmm6, %xmm7
	psrlw	$2, %xmm7
	pand	%xmm5, %xmm7
	psllw	$4, %xmm8
	pandn	%xmm8, %xmm5
	por	%xmm7, %xmm5
	movdqa	%xmm6, %xmm8
	pmaxub	%xmm0, %xmm8
	movdqa	%xmm8, %xmm7
	pminub	%xmm11, %xmm7
	pcmpeqb	%xmm8, %xmm7
	pand	.LCPI24_28(%rip), %xmm7
	por	%xmm5, %xmm7
	movdqa	%xmm1, %xmm5
	psllw	$2, %xmm5
	pand	%xmm3, %xmm5
	pminub	%xmm5, %xmm13
	pcmpeqb	%xmm5, %xmm13
	paddb	%xmm0, %xmm4
	paddb	%xmm13, %xmm4
	pminub	%xmm0, %xmm12
	pcmpeqb	%xmm0, %xmm12
	movdqa	%xmm12, %xmm0
	pblendvb	%xmm0, %xmm7, %xmm4
	movdqa	%xmm2, %xmm0
	psrlw	$4, %xmm0
	pandn	%xmm0, %xmm3
	por	%xmm5, %xmm3
	paddb	%xmm14, %xmm3
	psllw	$6, %xmm6
	pand	%xmm14, %xmm6
	pand	%xmm2, %xmm10
	paddb	%xmm10, %xmm6
	movdqa	%xmm12, %xmm0
	pblendvb	%xmm0, %xmm6, %xmm3
	pminub	%xmm1, %xmm15
	pcmpeqb	%xmm1, %xmm15
	pminub	%xmm2, %xmm11
	pcmpeqb	%xmm2, %xmm11
	pand	%xmm15, %xmm11
	pmovmskb	%xmm11, %r9d
	movdqa	%xmm3, %xmm0
	punpckhbw	%xmm4, %xmm0
	punpcklbw	%xmm4, %xmm3
	movzbl	%r9b, %r10d
	popcntl	%r10d, %r11d
	shll	$4, %r10d
	movdqu	(%r10,%rcx), %xmm1
	pshufb	%xmm1, %xmm3
	addl	%r8d, %edi
	addl	%esi, %edi
	movdqu	%xmm3, (%rdx,%rdi,2)
	shrl	$8, %r9d
	popcntl	%r9d, %esi
	shll	$4, %r9d
	movdqu	(%r9,%rcx), %xmm1
	pshufb	%xmm1, %xmm0
	leaq	(%rdx,%rdi,2), %rcx
	movdqu	%xmm0, (%rcx,%r11,2)
	addl	%r11d, %esi
	addl	%edi, %esi
	leaq	(%rbx,%rsi,2), %rbx
	cmpb	$-17, 61(%rbp,%rax)
	jbe	.LBB24_23
	addq	$-2, %rbx
	movl	$61, %ecx
	jmp	.LBB24_26
.LBB24_17:
	movdqa	.LCPI24_12(%rip), %xmm1
	movdqa	%xmm1, %xmm0
	movdqa	%xmm1, %xmm2
	pcmpgtb	%xmm9, %xmm0
	movdqa	%xmm8, %xmm1
	psubusb	.LCPI24_19(%rip), %xmm1
	movdqa	.LCPI24_20(%rip), %xmm4
	movdqa	%xmm10, %xmm6
	psubusb	%xmm4, %xmm6
	por	%xmm1, %xmm6
	pxor	%xmm1, %xmm1
	pcmpgtb	%xmm1, %xmm6
	pxor	%xmm0, %xmm6
	movdqa	.LCPI24_27(%rip), %xmm7
	movdqa	%xmm9, %xmm13
	pand	%xmm7, %xmm13
	pcmpeqb	%xmm2, %xmm13
	movdqa	.LCPI24_22(%rip), %xmm1
	movdqa	%xmm9, %xmm0
	pminub	%xmm1, %xmm0
	pcmpeqb	%xmm9, %xmm0
	movdqa	.LCPI24_0(%rip), %xmm3
	movdqa	.LCPI24_23(%rip), %xmm11
	movdqa	%xmm11, %xmm12
	pblendvb	%xmm0, %xmm3, %xmm12
	pcmpeqb	%xmm8, %xmm12
	por	%xmm13, %xmm12
	por	%xmm6, %xmm12
	movdqu	14(%rbp,%rax), %xmm13
	movdqu	15(%rbp,%rax), %xmm5
	movdqu	16(%rbp,%rax), %xmm6
	movdqa	%xmm6, %xmm0
	pminub	%xmm1, %xmm0
	pcmpeqb	%xmm6, %xmm0
	movdqa	%xmm11, %xmm14
	pblendvb	%xmm0, %xmm3, %xmm14
	movdqu	30(%rbp,%rax), %xmm15
	pcmpeqb	%xmm5, %xmm14
	movdqa	.LCPI24_19(%rip), %xmm3
	psubusb	%xmm3, %xmm5
	psubusb	%xmm4, %xmm13
	por	%xmm5, %xmm13
	movdqa	%xmm2, %xmm0
	pcmpgtb	%xmm6, %xmm0
	pxor	%xmm5, %xmm5
	pcmpgtb	%xmm5, %xmm13
	pxor	%xmm0, %xmm13
	pand	%xmm7, %xmm6
	pcmpeqb	%xmm2, %xmm6
	movdqa	%xmm2, %xmm5
	por	%xmm13, %xmm6
	por	%xmm6, %xmm14
	movdqu	32(%rbp,%rax), %xmm6
	movdqa	%xmm6, %xmm0
	pminub	%xmm1, %xmm0
	pcmpeqb	%xmm6, %xmm0
	movdqa	%xmm11, %xmm13
	movdqa	.LCPI24_0(%rip), %xmm2
	pblendvb	%xmm0, %xmm2, %xmm13
	movdqu	31(%rbp,%rax), %xmm0
	pcmpeqb	%xmm0, %xmm13
	psubusb	%xmm3, %xmm0
	psubusb	%xmm4, %xmm15
	por	%xmm0, %xmm15
	movdqa	%xmm5, %xmm0
	pcmpgtb	%xmm6, %xmm0
	pcmpgtb	.LCPI24_32(%rip), %xmm15
	pxor	%xmm0, %xmm15
	pand	%xmm7, %xmm6
	pcmpeqb	%xmm5, %xmm6
	por	%xmm15, %xmm6
	por	%xmm6, %xmm13
	por	%xmm14, %xmm13
	por	%xmm12, %xmm13
	movdqu	46(%rbp,%rax), %xmm12
	movdqu	48(%rbp,%rax), %xmm6
	pminub	%xmm6, %xmm1
	pcmpeqb	%xmm6, %xmm1
	movdqa	%xmm1, %xmm0
	pblendvb	%xmm0, %xmm2, %xmm11
	movdqu	47(%rbp,%rax), %xmm0
	pcmpeqb	%xmm0, %xmm11
	psubusb	%xmm3, %xmm0
	psubusb	%xmm4, %xmm12
	por	%xmm0, %xmm12
	pxor	%xmm0, %xmm0
	pcmpgtb	%xmm0, %xmm12
	movdqa	%xmm5, %xmm0
	pcmpgtb	%xmm6, %xmm0
	pxor	%xmm0, %xmm12
	pand	%xmm6, %xmm7
	pcmpeqb	%xmm5, %xmm7
	por	%xmm12, %xmm7
	por	%xmm7, %xmm11
	por	%xmm13, %xmm11
	pmovmskb	%xmm11, %ecx
	testl	%ecx, %ecx
	jne	.LBB24_27
	movdqa	%xmm2, %xmm15
	movdqa	%xmm5, %xmm14
	movdqa	%xmm5, %xmm2
	movdqa	%xmm9, %xmm0
	pblendvb	%xmm0, %xmm8, %xmm2
	pmaxub	%xmm15, %xmm10
	movdqa	%xmm2, %xmm0
	psrlw	$2, %xmm0
	movdqa	.LCPI24_14(%rip), %xmm1
	pand	%xmm1, %xmm0
	psllw	$4, %xmm10
	movdqa	%xmm1, %xmm5
	pandn	%xmm10, %xmm5
	por	%xmm0, %xmm5
	movdqa	.LCPI24_31(%rip), %xmm7
	movdqa	%xmm9, %xmm0
	pand	%xmm7, %xmm0
	psllw	$6, %xmm2
	pand	%xmm14, %xmm2
	paddb	%xmm0, %xmm2
	movdqa	%xmm9, %xmm0
	pminub	%xmm3, %xmm0
	pcmpeqb	%xmm9, %xmm0
	movdqa	%xmm8, %xmm6
	pminub	%xmm4, %xmm6
	pcmpeqb	%xmm8, %xmm6
	pand	%xmm0, %xmm6
	pmovmskb	%xmm6, %edi
	movdqa	%xmm2, %xmm0
	punpckhbw	%xmm5, %xmm0
	punpcklbw	%xmm5, %xmm2
	movzbl	%dil, %edx
	popcntl	%edx, %r8d
	shll	$4, %edx
	leaq	.Lstatic.13(%rip), %rcx
	movdqu	(%rdx,%rcx), %xmm5
	pshufb	%xmm5, %xmm2
	leaq	(%r12,%rbx), %rdx
	movdqu	%xmm2, (%r12,%rbx)
	shrl	$8, %edi
	popcntl	%edi, %esi
	shll	$4, %edi
	movdqu	(%rdi,%rcx), %xmm2
	pshufb	%xmm2, %xmm0
	movdqu	%xmm0, (%rdx,%r8,2)
	addl	%r8d, %esi
	movdqu	14(%rbp,%rax), %xmm5
	movdqu	15(%rbp,%rax), %xmm8
	movdqu	16(%rbp,%rax), %xmm0
	movdqa	%xmm14, %xmm2
	pblendvb	%xmm0, %xmm8, %xmm2
	pmaxub	%xmm15, %xmm5
	movdqa	%xmm2, %xmm9
	psrlw	$2, %xmm9
	pand	%xmm1, %xmm9
	psllw	$4, %xmm5
	movdqa	%xmm1, %xmm6
	pandn	%xmm5, %xmm6
	por	%xmm9, %xmm6
	movdqa	%xmm0, %xmm5
	pminub	%xmm3, %xmm5
	pcmpeqb	%xmm0, %xmm5
	pand	%xmm7, %xmm0
	psllw	$6, %xmm2
	pand	%xmm14, %xmm2
	paddb	%xmm0, %xmm2
	movdqa	%xmm8, %xmm0
	pminub	%xmm4, %xmm0
	pcmpeqb	%xmm8, %xmm0
	pand	%xmm0, %xmm5
	pmovmskb	%xmm5, %r8d
	movdqa	%xmm2, %xmm0
	punpckhbw	%xmm6, %xmm0
	punpcklbw	%xmm6, %xmm2
	movzbl	%r8b, %edi
	popcntl	%edi, %r9d
	shll	$4, %edi
	movdqu	(%rdi,%rcx), %xmm5
	pshufb	%xmm5, %xmm2
	leaq	(%rdx,%rsi,2), %r10
	movdqu	%xmm2, (%rdx,%rsi,2)
	shrl	$8, %r8d
	xorl	%edi, %edi
	popcntl	%r8d, %edi
	shll	$4, %r8d
	movdqu	(%r8,%rcx), %xmm2
	pshufb	%xmm2, %xmm0
	movdqu	%xmm0, (%r10,%r9,2)
	addl	%r9d, %edi
	addl	%esi, %edi
	movdqu	30(%rbp,%rax), %xmm5
	movdqu	31(%rbp,%rax), %xmm8
	movdqu	32(%rbp,%rax), %xmm0
	movdqa	%xmm14, %xmm2
	pblendvb	%xmm0, %xmm8, %xmm2
	pmaxub	%xmm15, %xmm5
	movdqa	%xmm2, %xmm9
	psrlw	$2, %xmm9
	pand	%xmm1, %xmm9
	psllw	$4, %xmm5
	movdqa	%xmm1, %xmm6
	pandn	%xmm5, %xmm6
	por	%xmm9, %xmm6
	movdqa	%xmm0, %xmm5
	pminub	%xmm3, %xmm5
	pcmpeqb	%xmm0, %xmm5
	pand	%xmm7, %xmm0
	psllw	$6, %xmm2
	pand	%xmm14, %xmm2
	paddb	%xmm0, %xmm2
	movdqa	%xmm8, %xmm0
	pminub	%xmm4, %xmm0
	pcmpeqb	%xmm8, %xmm0
	pand	%xmm0, %xmm5
	pmovmskb	%xmm5, %r8d
	movdqa	%xmm2, %xmm0
	punpckhbw	%xmm6, %xmm0
	punpcklbw	%xmm6, %xmm2
	movzbl	%r8b, %esi
	xorl	%r9d, %r9d
	popcntl	%esi, %r9d
	shll	$4, %esi
	movdqu	(%rsi,%rcx), %xmm5
	pshufb	%xmm5, %xmm2
	leaq	(%rdx,%rdi,2), %r10
	movdqu	%xmm2, (%rdx,%rdi,2)
	shrl	$8, %r8d
	xorl	%esi, %esi
	popcntl	%r8d, %esi
	shll	$4, %r8d
	movdqu	(%r8,%rcx), %xmm2
	pshufb	%xmm2, %xmm0
	movdqu	%xmm0, (%r10,%r9,2)
	addl	%r9d, %esi
	addl	%edi, %esi
	movdqu	46(%rbp,%rax), %xmm5
	movdqu	47(%rbp,%rax), %xmm6
	movdqu	48(%rbp,%rax), %xmm0
	movdqa	%xmm14, %xmm2
	pblendvb	%xmm0, %xmm6, %xmm2
	pmaxub	%xmm15, %xmm5
	movdqa	%xmm2, %xmm8
	psrlw	$2, %xmm8
	pand	%xmm1, %xmm8
	psllw	$4, %xmm5
	pandn	%xmm5, %xmm1
	por	%xmm8, %xmm1
	pand	%xmm0, %xmm7
	psllw	$6, %xmm2
	pand	%xmm14, %xmm2
	paddb	%xmm7, %xmm2
	pminub	%xmm6, %xmm4
	pcmpeqb	%xmm6, %xmm4
	pminub	%xmm0, %xmm3
	pcmpeqb	%xmm0, %xmm3
	pand	%xmm4, %xmm3
	pmovmskb	%xmm3, %edi
	movdqa	%xmm2, %xmm0
	punpckhbw	%xmm1, %xmm0
	punpcklbw	%xmm1, %xmm2
	movzbl	%dil, %r9d
	xorl	%r8d, %r8d
	popcntl	%r9d, %r8d
	shll	$4, %r9d
	movdqu	(%r9,%rcx), %xmm1
	pshufb	%xmm1, %xmm2
	leaq	(%rdx,%rsi,2), %r9
	movdqu	%xmm2, (%rdx,%rsi,2)
	shrl	$8, %edi
	movl	%edi, %edx
	shll	$4, %edx
	movdqu	(%rdx,%rcx), %xmm1
	pshufb	%xmm1, %xmm0
	movdqu	%xmm0, (%r9,%r8,2)
	movl	$62, %ecx
	cmpb	$-33, 62(%rbp,%rax)
	ja	.LBB24_20
	xorl	%ecx, %ecx
	cmpb	$-64, 63(%rbp,%rax)
	adcq	$63, %rcx
.LBB24_20:
	xorl	%edx, %edx
	popcntl	%edi, %edx
	addl	%edx, %r8d
	addl	%r8d, %esi
	leaq	(%rbx,%rsi,2), %rbx
	jmp	.LBB24_26
.LBB24_23:
	movl	$62, %ecx
	cmpb	$-33, 62(%rbp,%rax)
	ja	.LBB24_26
	xorl	%ecx, %ecx
	cmpb	$-64, 63(%rbp,%rax)
	adcq	$63, %rcx
.LBB24_26:
	addq	%rcx, %rax
	jmp	.LBB24_27
.LBB24_28:
	movq	%r14, %rax
	movq	%rbx, %rdx
	addq	$56, %rsp
	popq	%rbx
	popq	%r12
	popq	%r13
	popq	%r14
	popq	%r15
	popq	%rbp
	retq
.Lfunc_end24:

	.section	.rdata$004,"dr"
	.p2align	4, 0x0
.LCPI25_0:
	.zero	1
	.byte	255
	.byte	0
	.zero	1
	.byte	255
	.byte	0
	.zero	1
	.byte	255
	.byte	0
	.zero	1
	.byte	255
	.byte	0
	.zero	1
	.byte	255
	.byte	0
	.zero	1
.LCPI25_1:
	.byte	0
	.byte	3
	.byte	6
	.byte	9
	.byte	12
	.byte	15
	.byte	128
	.byte	128
	.byte	128
	.byte	128
	.byte	128
	.byte	128
	.byte	128
	.byte	128
	.byte	128
	.byte	128
.LCPI25_2:
	.byte	128
	.byte	128
	.byte	128
	.byte	128
	.byte	128
	.byte	128
	.byte	2
	.byte	5
	.byte	8
	.byte	11
	.byte	14
	.byte	1
	.byte	4
	.byte	7
	.byte	10
	.byte	13
.LCPI25_3:
	.byte	255
	.zero	1
	.byte	0
	.byte	255
	.zero	1
	.byte	0
	.byte	255
	.zero	1
	.byte	0
	.byte	255
	.zero	1
	.byte	0
	.byte	255
	.zero	1
	.byte	0
	.byte	255
.LCPI25_4:
	.byte	1
	.byte	4
	.byte	7
	.byte	10
	.byte	13
	.byte	128
	.byte	128
	.byte	128
	.byte	128
	.byte	128
	.byte	128
	.byte	128
	.byte	128
	.byte	128
	.byte	128
	.byte	128
.LCPI25_5:
	.byte	128
	.byte	128
	.byte	128
	.byte	128
	.byte	128
	.byte	0
	.byte	3
	.byte	6
	.byte	9
	.byte	12
	.byte	15
	.byte	2
	.byte	5
	.byte	8
	.byte	11
	.byte	14
.LCPI25_6:
	.byte	255
	.byte	0
	.zero	1
	.byte	255
	.byte	0
	.zero	1
	.byte	255
	.byte	0
	.zero	1
	.byte	255
	.byte	0
	.zero	1
	.byte	255
	.byte	0
	.zero	1
	.byte	255
.LCPI25_7:
	.byte	2
	.byte	5
	.byte	8
	.byte	11
	.byte	14
	.byte	128
	.byte	128
	.byte	128
	.byte	128
	.byte	128
	.byte	128
	.byte	128
	.byte	128
	.byte	128
	.byte	128
	.byte	128
.LCPI25_8:
	.byte	128
	.byte	128
	.byte	128
	.byte	128
	.byte	128
	.byte	1
	.byte	4
	.byte	7
	.byte	10
	.byte	13
	.byte	0
	.byte	3
	.byte	6
	.byte	9
	.byte	12
	.byte	15
.LCPI25_9:
	.zero	16,240
.LCPI25_10:
	.zero	16,32
.LCPI25_11:
	.zero	16,192
.LCPI25_12:
	.zero	16,128
.LCPI25_13:
	.zero	16,15
.LCPI25_14:
	.zero	16,7
.LCPI25_15:
	.zero	16,248
.LCPI25_16:
	.zero	16,216
.LCPI25_17:
	.zero	16,63
.LCPI25_18:
	.zero	16,224
	.section	.text$033,"xr"
	.p2align	4
L_27:
	pushq	%r15
	pushq	%r14
	pushq	%rbx
	movq	%r9, %rbx
	movq	%r8, %rax
	movq	%rsi, %r8
	subq	%rax, %r8
	je	.LBB25_8
	movzbl	(%rdi,%rax), %r9d
	andb	$-16, %r9b
	cmpb	$-32, %r9b
	jne	.LBB25_8
	cmpq	$48, %r8
	setb	%r10b
	movq	%rcx, %r9
	subq	%rbx, %r9
	cmpq	$32, %r9
	setb	%r11b
	orb	%r10b, %r11b
	je	.LBB25_3
.LBB25_8:
	cmpb	$-65, -1(%rdi,%rsi)
	jbe	.LBB25_10
	decq	%rsi
	jmp	.LBB25_13
.LBB25_10:
	cmpb	$-33, -2(%rdi,%rsi)
	jbe	.LBB25_12
	addq	$-2, %rsi
	jmp	.LBB25_13
.LBB25_12:
	leaq	-3(%rsi), %r8
	cmpb	$-16, -3(%rdi,%rsi)
	cmovaeq	%r8, %rsi
.LBB25_13:
	cmpq	$17, %rsi
	setb	%r9b
	movq	%rsi, %r8
	subq	%rax, %r8
	setbe	%r10b
	orb	%r9b, %r10b
	jne	.LBB25_23
	subq	%rbx, %rcx
	xorl	%r9d, %r9d
	subq	$16, %rcx
	cmovaeq	%rcx, %r9
	shrq	%r9
	cmpq	%r8, %r9
	jb	.LBB25_23
	xorl	%ecx, %ecx
	movq	%rax, %r8
	subq	$18, %r8
	cmovaeq	%r8, %rcx
	movdqu	-16(%rdi,%rsi), %xmm0
	movq	%rsi, %r8
	subq	%rcx, %r8
	cmpq	$17, %r8
	jb	.LBB25_18
	addq	%rdi, %rcx
	.p2align	4
.LBB25_17:
	movdqu	(%rcx), %xmm1
	pmaxub	%xmm1, %xmm0
	addq	$16, %rcx
	addq	$-16, %r8
	cmpq	$16, %r8
	ja	.LBB25_17
.LBB25_18:
	addq	%rbx, %rdx
	movdqa	.LCPI25_18(%rip), %xmm1
	pmaxub	%xmm0, %xmm1
	pcmpeqb	%xmm0, %xmm1
	pmovmskb	%xmm1, %ecx
	testl	%ecx, %ecx
	je	.LBB25_24
	movq	%rdx, %rcx
	movdqa	.LCPI25_9(%rip), %xmm1
	pmaxub	%xmm0, %xmm1
	pcmpeqb	%xmm0, %xmm1
	pmovmskb	%xmm1, %edx
	movq	%rsi, %r14
	movq	%rax, %r15
	testl	%edx, %edx
	je	.LBB25_20
	movq	%rax, %rdx
	callq	L_28
	jmp	.LBB25_22
.LBB25_3:
	addq	$-32, %r9
	addq	$-48, %r8
	.p2align	4
.LBB25_4:
	movdqu	16(%rdi,%rax), %xmm1
	movdqu	32(%rdi,%rax), %xmm5
	movaps	.LCPI25_0(%rip), %xmm0
	movdqa	%xmm1, %xmm3
	pblendvb	%xmm0, %xmm5, %xmm3
	movdqu	(%rdi,%rax), %xmm4
	movdqa	%xmm4, %xmm6
	pshufb	.LCPI25_1(%rip), %xmm6
	pshufb	.LCPI25_2(%rip), %xmm3
	movaps	.LCPI25_3(%rip), %xmm0
	movdqa	%xmm5, %xmm2
	pblendvb	%xmm0, %xmm1, %xmm2
	movdqa	%xmm4, %xmm0
	pshufb	.LCPI25_4(%rip), %xmm0
	por	%xmm6, %xmm3
	pshufb	.LCPI25_5(%rip), %xmm2
	por	%xmm0, %xmm2
	movaps	.LCPI25_6(%rip), %xmm0
	pblendvb	%xmm0, %xmm5, %xmm1
	pshufb	.LCPI25_7(%rip), %xmm4
	pshufb	.LCPI25_8(%rip), %xmm1
	movdqa	.LCPI25_9(%rip), %xmm0
	pand	%xmm3, %xmm0
	paddb	.LCPI25_10(%rip), %xmm0
	por	%xmm4, %xmm1
	movdqa	.LCPI25_11(%rip), %xmm4
	movdqa	%xmm2, %xmm5
	pand	%xmm4, %xmm5
	movdqa	.LCPI25_12(%rip), %xmm6
	pxor	%xmm6, %xmm5
	pmaxub	%xmm0, %xmm5
	pand	%xmm1, %xmm4
	pxor	%xmm6, %xmm4
	por	%xmm5, %xmm4
	ptest	%xmm4, %xmm4
	jne	.LBB25_8
	psllw	$4, %xmm3
	pand	.LCPI25_9(%rip), %xmm3
	movdqa	%xmm2, %xmm0
	psrlw	$2, %xmm0
	pand	.LCPI25_13(%rip), %xmm0
	por	%xmm3, %xmm0
	movdqa	.LCPI25_14(%rip), %xmm3
	pminub	%xmm0, %xmm3
	movdqa	.LCPI25_15(%rip), %xmm4
	pand	%xmm0, %xmm4
	pcmpeqb	.LCPI25_16(%rip), %xmm4
	pcmpeqb	%xmm0, %xmm3
	por	%xmm3, %xmm4
	pmovmskb	%xmm4, %r10d
	testl	%r10d, %r10d
	jne	.LBB25_8
	psllw	$6, %xmm2
	pand	.LCPI25_11(%rip), %xmm2
	pand	.LCPI25_17(%rip), %xmm1
	por	%xmm2, %xmm1
	movdqa	%xmm1, %xmm2
	punpckhbw	%xmm0, %xmm2
	punpcklbw	%xmm0, %xmm1
	movdqu	%xmm1, (%rdx,%rbx)
	movdqu	%xmm2, 16(%rdx,%rbx)
	addq	$32, %rbx
	addq	$48, %rax
	subq	$32, %r9
	setb	%r10b
	subq	$48, %r8
	jb	.LBB25_8
	testb	%r10b, %r10b
	je	.LBB25_4
	jmp	.LBB25_8
.LBB25_24:
	movq	%rsi, %r14
	movq	%rax, %r15
	movq	%rdx, %rcx
	movq	%rax, %rdx
	callq	L_29
	jmp	.LBB25_22
.LBB25_20:
	movq	%rax, %rdx
	callq	L_30
.LBB25_22:
	addq	%rbx, %rdx
	cmpb	$1, %al
	movq	%r15, %rax
	cmoveq	%r14, %rax
	cmoveq	%rdx, %rbx
.LBB25_23:
	movq	%rbx, %rdx
	popq	%rbx
	popq	%r14
	popq	%r15
	retq
.Lfunc_end25:

	.section	.rdata$004,"dr"
	.p2align	4, 0x0
.LCPI26_0:
	.zero	16,192
.LCPI26_1:
	.zero	16,63
.LCPI26_2:
	.zero	16,127
.LCPI26_3:
	.zero	16,191
.LCPI26_4:
	.zero	16,254
	.section	.text$034,"xr"
	.p2align	4
L_29:
	pushq	%r14
	pushq	%rbx
	movq	%rcx, %rax
	movq	%rsi, %rcx
	subq	%rdx, %rcx
	pxor	%xmm0, %xmm0
	xorl	%r8d, %r8d
	cmpq	$16, %rcx
	jae	.LBB26_1
.LBB26_7:
	cmpq	%rsi, %rdx
	je	.LBB26_12
	leaq	-16(%rsi), %rcx
	movdqu	-16(%rdi,%rsi), %xmm1
	cmpq	$3, %rcx
	jb	.LBB26_10
	movdqu	-1(%rdi,%rcx), %xmm4
	jmp	.LBB26_11
	.p2align	4
.LBB26_2:
	movdqu	-1(%rdi,%rdx), %xmm3
.LBB26_6:
	movdqa	.LCPI26_0(%rip), %xmm5
	movdqa	%xmm3, %xmm2
	psubusb	%xmm5, %xmm2
	movdqa	%xmm2, %xmm4
	psrlw	$2, %xmm4
	pand	.LCPI26_1(%rip), %xmm4
	movdqa	.LCPI26_2(%rip), %xmm6
	pand	%xmm1, %xmm6
	psllw	$6, %xmm2
	pand	%xmm5, %xmm2
	paddb	%xmm6, %xmm2
	movdqa	.LCPI26_3(%rip), %xmm6
	pminub	%xmm1, %xmm6
	pcmpeqb	%xmm1, %xmm6
	pmovmskb	%xmm6, %r9d
	movdqa	%xmm5, %xmm6
	pcmpgtb	%xmm1, %xmm6
	movdqa	%xmm3, %xmm7
	pmaxub	%xmm5, %xmm7
	pcmpeqb	%xmm3, %xmm7
	pxor	%xmm6, %xmm7
	pand	.LCPI26_4(%rip), %xmm1
	pcmpeqb	%xmm5, %xmm1
	por	%xmm7, %xmm1
	pmaxub	%xmm1, %xmm0
	movdqa	%xmm2, %xmm1
	punpckhbw	%xmm4, %xmm1
	punpcklbw	%xmm4, %xmm2
	movzbl	%r9b, %r10d
	xorl	%r11d, %r11d
	popcntl	%r10d, %r11d
	shll	$4, %r10d
	leaq	.Lstatic.13(%rip), %rbx
	movdqu	(%r10,%rbx), %xmm3
	pshufb	%xmm3, %xmm2
	leaq	(%rax,%r8), %r10
	movdqu	%xmm2, (%rax,%r8)
	shrl	$8, %r9d
	xorl	%r14d, %r14d
	popcntl	%r9d, %r14d
	shll	$4, %r9d
	movdqu	(%r9,%rbx), %xmm2
	pshufb	%xmm2, %xmm1
	movdqu	%xmm1, (%r10,%r11,2)
	addl	%r11d, %r14d
	leaq	(%r8,%r14,2), %r8
	addq	$16, %rdx
	addq	$-16, %rcx
	cmpq	$15, %rcx
	jbe	.LBB26_7
.LBB26_1:
	movdqu	(%rdi,%rdx), %xmm1
	cmpq	$3, %rdx
	jae	.LBB26_2
	testq	%rdx, %rdx
	je	.LBB26_4
	movzbl	-1(%rdi,%rdx), %r9d
	movd	%r9d, %xmm2
	pslldq	$15, %xmm2
	movdqa	%xmm1, %xmm3
	palignr	$15, %xmm2, %xmm3
	jmp	.LBB26_6
.LBB26_4:
	movdqa	%xmm1, %xmm3
	pslldq	$1, %xmm3
	jmp	.LBB26_6
.LBB26_10:
	movzbl	-17(%rdi,%rsi), %r9d
	movd	%r9d, %xmm2
	pslldq	$15, %xmm2
	movdqa	%xmm1, %xmm4
	palignr	$15, %xmm2, %xmm4
.LBB26_11:
	movdqa	.LCPI26_0(%rip), %xmm5
	movdqa	%xmm4, %xmm2
	psubusb	%xmm5, %xmm2
	movdqa	%xmm2, %xmm3
	psrlw	$2, %xmm3
	pand	.LCPI26_1(%rip), %xmm3
	movdqa	.LCPI26_2(%rip), %xmm6
	pand	%xmm1, %xmm6
	psllw	$6, %xmm2
	pand	%xmm5, %xmm2
	paddb	%xmm6, %xmm2
	movdqa	.LCPI26_3(%rip), %xmm6
	pminub	%xmm1, %xmm6
	pcmpeqb	%xmm1, %xmm6
	pmovmskb	%xmm6, %r9d
	movdqa	%xmm5, %xmm6
	pcmpgtb	%xmm1, %xmm6
	movdqa	%xmm4, %xmm7
	pmaxub	%xmm5, %xmm7
	pcmpeqb	%xmm4, %xmm7
	pxor	%xmm6, %xmm7
	pand	.LCPI26_4(%rip), %xmm1
	pcmpeqb	%xmm5, %xmm1
	por	%xmm7, %xmm1
	subl	%ecx, %edx
	movdqa	%xmm2, %xmm4
	movq	$-1, %r10
	movl	%edx, %ecx
	shlq	%cl, %r10
	punpckhbw	%xmm3, %xmm4
	punpcklbw	%xmm3, %xmm2
	andl	%r9d, %r10d
	movzbl	%r10b, %ecx
	xorl	%edx, %edx
	popcntl	%ecx, %edx
	shll	$4, %ecx
	leaq	.Lstatic.13(%rip), %r9
	movdqu	(%rcx,%r9), %xmm3
	pshufb	%xmm3, %xmm2
	movdqu	%xmm2, (%rax,%r8)
	addq	%r8, %rax
	shrl	$8, %r10d
	xorl	%ecx, %ecx
	popcntl	%r10d, %ecx
	shll	$4, %r10d
	movdqu	(%r10,%r9), %xmm2
	pshufb	%xmm2, %xmm4
	movdqu	%xmm4, (%rax,%rdx,2)
	addl	%edx, %ecx
	leaq	(%r8,%rcx,2), %r8
	pmaxub	%xmm1, %xmm0
.LBB26_12:
	ptest	%xmm0, %xmm0
	je	.LBB26_14
	xorl	%edx, %edx
	xorl	%eax, %eax
	popq	%rbx
	popq	%r14
	retq
.LBB26_14:
	cmpb	$-65, -1(%rdi,%rsi)
	jbe	.LBB26_16
	leaq	-1(%rsi), %rax
	jmp	.LBB26_19
.LBB26_16:
	cmpb	$-33, -2(%rdi,%rsi)
	jbe	.LBB26_18
	leaq	-2(%rsi), %rax
	jmp	.LBB26_19
.LBB26_18:
	leaq	-3(%rsi), %rax
	cmpb	$-16, -3(%rdi,%rsi)
	cmovbq	%rsi, %rax
.LBB26_19:
	xorl	%edx, %edx
	cmpq	%rsi, %rax
	setae	%al
	cmovaeq	%r8, %rdx
	popq	%rbx
	popq	%r14
	retq
.Lfunc_end26:

	.section	.rdata$004,"dr"
	.p2align	4, 0x0
.LCPI27_0:
	.zero	16,192
.LCPI27_1:
	.zero	16,224
.LCPI27_2:
	.zero	16,15
.LCPI27_3:
	.zero	16,240
.LCPI27_4:
	.zero	16,127
.LCPI27_5:
	.zero	16,191
.LCPI27_6:
	.zero	16,223
.LCPI27_7:
	.zero	16,254
.LCPI27_8:
	.zero	16,159
.LCPI27_9:
	.zero	16,237
	.section	.text$035,"xr"
	.p2align	4
L_30:
	pushq	%r14
	pushq	%rbx
	movq	%rcx, %rax
	movq	%rsi, %rcx
	subq	%rdx, %rcx
	pxor	%xmm2, %xmm2
	xorl	%r8d, %r8d
	cmpq	$16, %rcx
	jae	.LBB27_6
.LBB27_1:
	cmpq	%rsi, %rdx
	je	.LBB27_18
	leaq	-16(%rsi), %rcx
	movdqu	-16(%rdi,%rsi), %xmm0
	cmpq	$3, %rcx
	jb	.LBB27_13
	movdqu	-2(%rdi,%rcx), %xmm5
	movdqu	-1(%rdi,%rcx), %xmm4
	jmp	.LBB27_17
	.p2align	4
.LBB27_4:
	movdqu	-2(%rdi,%rdx), %xmm1
	movdqu	-1(%rdi,%rdx), %xmm3
.LBB27_5:
	movdqa	.LCPI27_0(%rip), %xmm7
	movdqa	%xmm7, %xmm4
	pblendvb	%xmm0, %xmm3, %xmm4
	movdqa	.LCPI27_1(%rip), %xmm6
	movdqa	%xmm1, %xmm5
	pmaxub	%xmm6, %xmm5
	movdqa	%xmm4, %xmm8
	psrlw	$2, %xmm8
	pand	.LCPI27_2(%rip), %xmm8
	psllw	$4, %xmm5
	pand	.LCPI27_3(%rip), %xmm5
	por	%xmm8, %xmm5
	movdqa	.LCPI27_4(%rip), %xmm8
	pand	%xmm0, %xmm8
	psllw	$6, %xmm4
	pand	%xmm7, %xmm4
	paddb	%xmm8, %xmm4
	movdqa	.LCPI27_5(%rip), %xmm8
	movdqa	%xmm0, %xmm9
	pminub	%xmm8, %xmm9
	pcmpeqb	%xmm0, %xmm9
	movdqa	.LCPI27_6(%rip), %xmm10
	movdqa	%xmm3, %xmm11
	pminub	%xmm10, %xmm11
	pcmpeqb	%xmm3, %xmm11
	pand	%xmm9, %xmm11
	pmovmskb	%xmm11, %r9d
	movdqa	.LCPI27_7(%rip), %xmm9
	pand	%xmm0, %xmm9
	pcmpeqb	%xmm7, %xmm9
	pcmpgtb	%xmm0, %xmm7
	movdqa	%xmm3, %xmm11
	psubusb	%xmm8, %xmm11
	psubusb	%xmm10, %xmm1
	por	%xmm11, %xmm1
	pxor	%xmm8, %xmm8
	pcmpgtb	%xmm8, %xmm1
	pxor	%xmm7, %xmm1
	por	%xmm1, %xmm9
	movdqa	.LCPI27_8(%rip), %xmm1
	pminub	%xmm0, %xmm1
	pcmpeqb	%xmm0, %xmm1
	movdqa	.LCPI27_9(%rip), %xmm7
	movdqa	%xmm1, %xmm0
	pblendvb	%xmm0, %xmm6, %xmm7
	pcmpeqb	%xmm3, %xmm7
	por	%xmm9, %xmm7
	pmaxub	%xmm7, %xmm2
	movdqa	%xmm4, %xmm0
	punpckhbw	%xmm5, %xmm0
	punpcklbw	%xmm5, %xmm4
	movzbl	%r9b, %r10d
	popcntl	%r10d, %r11d
	shll	$4, %r10d
	leaq	.Lstatic.13(%rip), %rbx
	movdqu	(%r10,%rbx), %xmm1
	pshufb	%xmm1, %xmm4
	leaq	(%rax,%r8), %r10
	movdqu	%xmm4, (%rax,%r8)
	shrl	$8, %r9d
	popcntl	%r9d, %r14d
	shll	$4, %r9d
	movdqu	(%r9,%rbx), %xmm1
	pshufb	%xmm1, %xmm0
	movdqu	%xmm0, (%r10,%r11,2)
	addl	%r11d, %r14d
	leaq	(%r8,%r14,2), %r8
	addq	$16, %rdx
	addq	$-16, %rcx
	cmpq	$15, %rcx
	jbe	.LBB27_1
.LBB27_6:
	movdqu	(%rdi,%rdx), %xmm0
	cmpq	$3, %rdx
	jae	.LBB27_4
	testq	%rdx, %rdx
	je	.LBB27_10
	movzbl	-1(%rdi,%rdx), %r9d
	movd	%r9d, %xmm1
	pslldq	$15, %xmm1
	movdqa	%xmm0, %xmm3
	palignr	$15, %xmm1, %xmm3
	cmpq	$2, %rdx
	jne	.LBB27_11
	movzbl	(%rdi), %r9d
	jmp	.LBB27_12
.LBB27_10:
	movdqa	%xmm0, %xmm3
	pslldq	$1, %xmm3
.LBB27_11:
	xorl	%r9d, %r9d
.LBB27_12:
	movzbl	%r9b, %r9d
	movd	%r9d, %xmm4
	pslldq	$15, %xmm4
	movdqa	%xmm3, %xmm1
	palignr	$15, %xmm4, %xmm1
	jmp	.LBB27_5
.LBB27_13:
	movzbl	-17(%rdi,%rsi), %r9d
	movd	%r9d, %xmm1
	pslldq	$15, %xmm1
	movdqa	%xmm0, %xmm4
	palignr	$15, %xmm1, %xmm4
	cmpq	$2, %rcx
	jne	.LBB27_15
	movzbl	(%rdi), %r9d
	jmp	.LBB27_16
.LBB27_15:
	xorl	%r9d, %r9d
.LBB27_16:
	movzbl	%r9b, %r9d
	movd	%r9d, %xmm1
	pslldq	$15, %xmm1
	movdqa	%xmm4, %xmm5
	palignr	$15, %xmm1, %xmm5
.LBB27_17:
	movdqa	.LCPI27_0(%rip), %xmm1
	movdqa	%xmm1, %xmm3
	pblendvb	%xmm0, %xmm4, %xmm3
	movdqa	.LCPI27_1(%rip), %xmm7
	movdqa	%xmm5, %xmm6
	pmaxub	%xmm7, %xmm6
	movdqa	%xmm3, %xmm8
	psrlw	$2, %xmm8
	pand	.LCPI27_2(%rip), %xmm8
	psllw	$4, %xmm6
	pand	.LCPI27_3(%rip), %xmm6
	por	%xmm8, %xmm6
	movdqa	.LCPI27_4(%rip), %xmm8
	pand	%xmm0, %xmm8
	psllw	$6, %xmm3
	pand	%xmm1, %xmm3
	paddb	%xmm8, %xmm3
	movdqa	.LCPI27_5(%rip), %xmm8
	movdqa	%xmm0, %xmm9
	pminub	%xmm8, %xmm9
	pcmpeqb	%xmm0, %xmm9
	movdqa	.LCPI27_6(%rip), %xmm10
	movdqa	%xmm4, %xmm11
	pminub	%xmm10, %xmm11
	pcmpeqb	%xmm4, %xmm11
	pand	%xmm9, %xmm11
	pmovmskb	%xmm11, %r9d
	movdqa	.LCPI27_7(%rip), %xmm9
	pand	%xmm0, %xmm9
	pcmpeqb	%xmm1, %xmm9
	pcmpgtb	%xmm0, %xmm1
	movdqa	%xmm4, %xmm11
	psubusb	%xmm8, %xmm11
	psubusb	%xmm10, %xmm5
	por	%xmm11, %xmm5
	pxor	%xmm8, %xmm8
	pcmpgtb	%xmm8, %xmm5
	pxor	%xmm1, %xmm5
	movdqa	.LCPI27_8(%rip), %xmm1
	pminub	%xmm0, %xmm1
	pcmpeqb	%xmm0, %xmm1
	movdqa	.LCPI27_9(%rip), %xmm8
	movdqa	%xmm1, %xmm0
	pblendvb	%xmm0, %xmm7, %xmm8
	pcmpeqb	%xmm4, %xmm8
	por	%xmm9, %xmm8
	por	%xmm5, %xmm8
	subl	%ecx, %edx
	movdqa	%xmm3, %xmm0
	movq	$-1, %r10
	movl	%edx, %ecx
	shlq	%cl, %r10
	punpckhbw	%xmm6, %xmm0
	punpcklbw	%xmm6, %xmm3
	andl	%r9d, %r10d
	movzbl	%r10b, %ecx
	xorl	%edx, %edx
	popcntl	%ecx, %edx
	shll	$4, %ecx
	leaq	.Lstatic.13(%rip), %r9
	movdqu	(%rcx,%r9), %xmm1
	pshufb	%xmm1, %xmm3
	movdqu	%xmm3, (%rax,%r8)
	addq	%r8, %rax
	shrl	$8, %r10d
	xorl	%ecx, %ecx
	popcntl	%r10d, %ecx
	shll	$4, %r10d
	movdqu	(%r10,%r9), %xmm1
	pshufb	%xmm1, %xmm0
	movdqu	%xmm0, (%rax,%rdx,2)
	addl	%edx, %ecx
	leaq	(%r8,%rcx,2), %r8
	pmaxub	%xmm8, %xmm2
.LBB27_18:
	ptest	%xmm2, %xmm2
	je	.LBB27_20
	xorl	%edx, %edx
	xorl	%eax, %eax
	popq	%rbx
	popq	%r14
	retq
.LBB27_20:
	cmpb	$-65, -1(%rdi,%rsi)
	jbe	.LBB27_22
	leaq	-1(%rsi), %rax
	jmp	.LBB27_25
.LBB27_22:
	cmpb	$-33, -2(%rdi,%rsi)
	jbe	.LBB27_24
	leaq	-2(%rsi), %rax
	jmp	.LBB27_25
.LBB27_24:
	leaq	-3(%rsi), %rax
	cmpb	$-16, -3(%rdi,%rsi)
	cmovbq	%rsi, %rax
.LBB27_25:
	xorl	%edx, %edx
	cmpq	%rsi, %rax
	setae	%al
	cmovaeq	%r8, %rdx
	popq	%rbx
	popq	%r14
	retq
.Lfunc_end27:

	.section	.rdata$004,"dr"
	.p2align	4, 0x0
.LCPI28_0:
	.zero	16,192
.LCPI28_1:
	.zero	16,224
.LCPI28_2:
	.zero	16,15
.LCPI28_3:
	.zero	16,191
.LCPI28_4:
	.zero	16,220
.LCPI28_5:
	.zero	16,252
.LCPI28_6:
	.zero	16,3
.LCPI28_7:
	.zero	16,63
.LCPI28_8:
	.zero	16,232
.LCPI28_9:
	.zero	16,239
.LCPI28_10:
	.zero	16,127
.LCPI28_11:
	.zero	16,223
.LCPI28_12:
	.zero	16,159
.LCPI28_13:
	.zero	16,237
.LCPI28_14:
	.zero	16,143
.LCPI28_15:
	.zero	16,245
.LCPI28_16:
	.zero	16,244
.LCPI28_17:
	.zero	16,240
.LCPI28_18:
	.zero	16,254
	.section	.text$036,"xr"
	.p2align	4
L_28:
	pushq	%r14
	pushq	%rbx
	movq	%rcx, %rax
	movq	%rsi, %rcx
	subq	%rdx, %rcx
	pxor	%xmm2, %xmm2
	xorl	%r8d, %r8d
	cmpq	$16, %rcx
	jae	.LBB28_6
.LBB28_1:
	cmpq	%rsi, %rdx
	je	.LBB28_24
	leaq	-16(%rsi), %rcx
	movdqu	-16(%rdi,%rsi), %xmm1
	cmpq	$3, %rcx
	jb	.LBB28_16
	movdqu	-3(%rdi,%rcx), %xmm4
	movdqu	-2(%rdi,%rcx), %xmm7
	movdqu	-1(%rdi,%rcx), %xmm3
	jmp	.LBB28_20
	.p2align	4
.LBB28_4:
	movdqa	.LCPI28_0(%rip), %xmm5
	movdqa	%xmm5, %xmm10
	movdqa	%xmm1, %xmm0
	pblendvb	%xmm0, %xmm3, %xmm10
	movdqa	.LCPI28_1(%rip), %xmm9
	movdqa	%xmm7, %xmm0
	pmaxub	%xmm9, %xmm0
	movdqa	%xmm10, %xmm6
	psrlw	$2, %xmm6
	movdqa	.LCPI28_2(%rip), %xmm8
	pand	%xmm8, %xmm6
	psllw	$4, %xmm0
	pandn	%xmm0, %xmm8
	por	%xmm6, %xmm8
	movdqa	%xmm10, %xmm0
	pmaxub	%xmm7, %xmm0
	movdqa	.LCPI28_3(%rip), %xmm11
	movdqa	%xmm0, %xmm14
	pminub	%xmm11, %xmm14
	pcmpeqb	%xmm0, %xmm14
	pand	.LCPI28_4(%rip), %xmm14
	por	%xmm8, %xmm14
	movdqa	%xmm3, %xmm0
	psllw	$2, %xmm0
	pand	.LCPI28_5(%rip), %xmm0
	movdqa	%xmm1, %xmm8
	psrlw	$4, %xmm8
	pand	.LCPI28_6(%rip), %xmm8
	pxor	%xmm12, %xmm12
	movdqa	.LCPI28_7(%rip), %xmm6
	pminub	%xmm0, %xmm6
	pcmpeqb	%xmm0, %xmm6
	paddb	%xmm7, %xmm6
	paddb	.LCPI28_8(%rip), %xmm6
	por	%xmm0, %xmm8
	paddb	%xmm5, %xmm8
	movdqa	.LCPI28_9(%rip), %xmm13
	movdqa	%xmm7, %xmm0
	pminub	%xmm13, %xmm0
	pcmpeqb	%xmm7, %xmm0
	pblendvb	%xmm0, %xmm14, %xmm6
	movdqa	.LCPI28_10(%rip), %xmm14
	pand	%xmm1, %xmm14
	psllw	$6, %xmm10
	pand	%xmm5, %xmm10
	paddb	%xmm14, %xmm10
	pblendvb	%xmm0, %xmm10, %xmm8
	movdqa	%xmm1, %xmm0
	pminub	%xmm11, %xmm0
	pcmpeqb	%xmm1, %xmm0
	movdqa	.LCPI28_11(%rip), %xmm10
	movdqa	%xmm3, %xmm14
	pminub	%xmm10, %xmm14
	pcmpeqb	%xmm3, %xmm14
	pand	%xmm0, %xmm14
	pmovmskb	%xmm14, %r9d
	movdqa	%xmm5, %xmm0
	pcmpgtb	%xmm1, %xmm0
	movdqa	%xmm3, %xmm14
	psubusb	%xmm11, %xmm14
	psubusb	%xmm10, %xmm7
	pmaxub	%xmm14, %xmm7
	psubusb	%xmm13, %xmm4
	por	%xmm7, %xmm4
	pcmpgtb	%xmm12, %xmm4
	pxor	%xmm0, %xmm4
	movdqa	.LCPI28_12(%rip), %xmm0
	pminub	%xmm1, %xmm0
	pcmpeqb	%xmm1, %xmm0
	movdqa	.LCPI28_13(%rip), %xmm7
	pblendvb	%xmm0, %xmm9, %xmm7
	pcmpeqb	%xmm3, %xmm7
	movdqa	.LCPI28_14(%rip), %xmm0
	pminub	%xmm1, %xmm0
	pcmpeqb	%xmm1, %xmm0
	movdqa	.LCPI28_15(%rip), %xmm9
	pmaxub	%xmm1, %xmm9
	pcmpeqb	%xmm1, %xmm9
	por	%xmm7, %xmm9
	movdqa	.LCPI28_16(%rip), %xmm7
	pblendvb	%xmm0, .LCPI28_17(%rip), %xmm7
	pcmpeqb	%xmm3, %xmm7
	pand	.LCPI28_18(%rip), %xmm1
	pcmpeqb	%xmm5, %xmm1
	por	%xmm4, %xmm1
	por	%xmm9, %xmm1
	por	%xmm7, %xmm1
	pmaxub	%xmm1, %xmm2
	movdqa	%xmm8, %xmm1
.LBB28_5:
	movdqa	%xmm1, %xmm0
	punpckhbw	%xmm6, %xmm0
	punpcklbw	%xmm6, %xmm1
	movzbl	%r9b, %r10d
	xorl	%r11d, %r11d
	popcntl	%r10d, %r11d
	shll	$4, %r10d
	leaq	.Lstatic.13(%rip), %rbx
	movdqu	(%r10,%rbx), %xmm3
	pshufb	%xmm3, %xmm1
	leaq	(%rax,%r8), %r10
	movdqu	%xmm1, (%rax,%r8)
	shrl	$8, %r9d
	xorl	%r14d, %r14d
	popcntl	%r9d, %r14d
	shll	$4, %r9d
	movdqu	(%r9,%rbx), %xmm1
	pshufb	%xmm1, %xmm0
	movdqu	%xmm0, (%r10,%r11,2)
	addl	%r11d, %r14d
	leaq	(%r8,%r14,2), %r8
	addq	$16, %rdx
	addq	$-16, %rcx
	cmpq	$15, %rcx
	jbe	.LBB28_1
.LBB28_6:
	movdqu	(%rdi,%rdx), %xmm1
	cmpq	$3, %rdx
	jb	.LBB28_8
	movdqu	-3(%rdi,%rdx), %xmm4
	movdqu	-2(%rdi,%rdx), %xmm7
	movdqu	-1(%rdi,%rdx), %xmm3
	jmp	.LBB28_14
	.p2align	4
.LBB28_8:
	testq	%rdx, %rdx
	je	.LBB28_11
	movzbl	-1(%rdi,%rdx), %r9d
	movd	%r9d, %xmm0
	pslldq	$15, %xmm0
	movdqa	%xmm1, %xmm3
	palignr	$15, %xmm0, %xmm3
	cmpq	$2, %rdx
	jne	.LBB28_12
	movzbl	(%rdi), %r9d
	jmp	.LBB28_13
.LBB28_11:
	movdqa	%xmm1, %xmm3
	pslldq	$1, %xmm3
.LBB28_12:
	xorl	%r9d, %r9d
.LBB28_13:
	movzbl	%r9b, %r9d
	movd	%r9d, %xmm0
	pslldq	$15, %xmm0
	movdqa	%xmm3, %xmm7
	palignr	$15, %xmm0, %xmm7
	movdqa	%xmm7, %xmm4
	pslldq	$1, %xmm4
.LBB28_14:
	movdqa	%xmm4, %xmm0
	por	%xmm1, %xmm0
	pmovmskb	%xmm0, %r9d
	testl	%r9d, %r9d
	jne	.LBB28_4
	pxor	%xmm6, %xmm6
	movl	$65535, %r9d
	jmp	.LBB28_5
.LBB28_16:
	movzbl	-17(%rdi,%rsi), %r9d
	movd	%r9d, %xmm0
	pslldq	$15, %xmm0
	movdqa	%xmm1, %xmm3
	palignr	$15, %xmm0, %xmm3
	cmpq	$2, %rcx
	jne	.LBB28_18
	movzbl	(%rdi), %r9d
	jmp	.LBB28_19
.LBB28_18:
	xorl	%r9d, %r9d
.LBB28_19:
	movzbl	%r9b, %r9d
	movd	%r9d, %xmm0
	pslldq	$15, %xmm0
	movdqa	%xmm3, %xmm7
	palignr	$15, %xmm0, %xmm7
	movdqa	%xmm7, %xmm4
	pslldq	$1, %xmm4
.LBB28_20:
	movdqa	%xmm4, %xmm0
	por	%xmm1, %xmm0
	pmovmskb	%xmm0, %r9d
	testl	%r9d, %r9d
	je	.LBB28_22
	movdqa	.LCPI28_0(%rip), %xmm5
	movdqa	%xmm5, %xmm10
	movdqa	%xmm1, %xmm0
	pblendvb	%xmm0, %xmm3, %xmm10
	movdqa	.LCPI28_1(%rip), %xmm9
	movdqa	%xmm7, %xmm0
	pmaxub	%xmm9, %xmm0
	movdqa	%xmm10, %xmm6
	psrlw	$2, %xmm6
	movdqa	.LCPI28_2(%rip), %xmm8
	pand	%xmm8, %xmm6
	psllw	$4, %xmm0
	pandn	%xmm0, %xmm8
	por	%xmm6, %xmm8
	movdqa	%xmm10, %xmm0
	pmaxub	%xmm7, %xmm0
	movdqa	.LCPI28_3(%rip), %xmm11
	movdqa	%xmm0, %xmm14
	pminub	%xmm11, %xmm14
	pcmpeqb	%xmm0, %xmm14
	pand	.LCPI28_4(%rip), %xmm14
	por	%xmm8, %xmm14
	movdqa	%xmm3, %xmm0
	psllw	$2, %xmm0
	pand	.LCPI28_5(%rip), %xmm0
	movdqa	%xmm1, %xmm8
	psrlw	$4, %xmm8
	pand	.LCPI28_6(%rip), %xmm8
	pxor	%xmm12, %xmm12
	movdqa	.LCPI28_7(%rip), %xmm6
	pminub	%xmm0, %xmm6
	pcmpeqb	%xmm0, %xmm6
	paddb	%xmm7, %xmm6
	paddb	.LCPI28_8(%rip), %xmm6
	por	%xmm0, %xmm8
	paddb	%xmm5, %xmm8
	movdqa	.LCPI28_9(%rip), %xmm13
	movdqa	%xmm7, %xmm0
	pminub	%xmm13, %xmm0
	pcmpeqb	%xmm7, %xmm0
	pblendvb	%xmm0, %xmm14, %xmm6
	movdqa	.LCPI28_10(%rip), %xmm14
	pand	%xmm1, %xmm14
	psllw	$6, %xmm10
	pand	%xmm5, %xmm10
	paddb	%xmm14, %xmm10
	pblendvb	%xmm0, %xmm10, %xmm8
	movdqa	%xmm1, %xmm0
	pminub	%xmm11, %xmm0
	pcmpeqb	%xmm1, %xmm0
	movdqa	.LCPI28_11(%rip), %xmm10
	movdqa	%xmm3, %xmm14
	pminub	%xmm10, %xmm14
	pcmpeqb	%xmm3, %xmm14
	pand	%xmm0, %xmm14
	pmovmskb	%xmm14, %r9d
	movdqa	%xmm5, %xmm0
	pcmpgtb	%xmm1, %xmm0
	movdqa	%xmm3, %xmm14
	psubusb	%xmm11, %xmm14
	psubusb	%xmm10, %xmm7
	pmaxub	%xmm14, %xmm7
	psubusb	%xmm13, %xmm4
	por	%xmm7, %xmm4
	pcmpgtb	%xmm12, %xmm4
	pxor	%xmm0, %xmm4
	movdqa	.LCPI28_12(%rip), %xmm0
	pminub	%xmm1, %xmm0
	pcmpeqb	%xmm1, %xmm0
	movdqa	.LCPI28_13(%rip), %xmm7
	pblendvb	%xmm0, %xmm9, %xmm7
	pcmpeqb	%xmm3, %xmm7
	movdqa	.LCPI28_14(%rip), %xmm0
	pminub	%xmm1, %xmm0
	pcmpeqb	%xmm1, %xmm0
	movdqa	.LCPI28_15(%rip), %xmm9
	pmaxub	%xmm1, %xmm9
	pcmpeqb	%xmm1, %xmm9
	por	%xmm7, %xmm9
	movdqa	.LCPI28_16(%rip), %xmm7
	pblendvb	%xmm0, .LCPI28_17(%rip), %xmm7
	pcmpeqb	%xmm3, %xmm7
	pand	.LCPI28_18(%rip), %xmm1
	pcmpeqb	%xmm5, %xmm1
	por	%xmm4, %xmm1
	por	%xmm9, %xmm1
	por	%xmm7, %xmm1
	pmaxub	%xmm1, %xmm2
	movdqa	%xmm8, %xmm1
	jmp	.LBB28_23
.LBB28_22:
	pxor	%xmm6, %xmm6
	movl	$65535, %r9d
.LBB28_23:
	subl	%ecx, %edx
	movdqa	%xmm1, %xmm0
	punpckhbw	%xmm6, %xmm0
	punpcklbw	%xmm6, %xmm1
	movq	$-1, %r10
	movl	%edx, %ecx
	shlq	%cl, %r10
	andl	%r10d, %r9d
	movzbl	%r9b, %ecx
	xorl	%edx, %edx
	popcntl	%ecx, %edx
	shll	$4, %ecx
	leaq	.Lstatic.13(%rip), %r10
	movdqu	(%rcx,%r10), %xmm3
	pshufb	%xmm3, %xmm1
	movdqu	%xmm1, (%rax,%r8)
	addq	%r8, %rax
	shrl	$8, %r9d
	xorl	%ecx, %ecx
	popcntl	%r9d, %ecx
	shll	$4, %r9d
	movdqu	(%r9,%r10), %xmm1
	pshufb	%xmm1, %xmm0
	movdqu	%xmm0, (%rax,%rdx,2)
	addl	%edx, %ecx
	leaq	(%r8,%rcx,2), %r8
.LBB28_24:
	ptest	%xmm2, %xmm2
	je	.LBB28_26
	xorl	%edx, %edx
	xorl	%eax, %eax
	popq	%rbx
	popq	%r14
	retq
.LBB28_26:
	cmpb	$-65, -1(%rdi,%rsi)
	jbe	.LBB28_28
	leaq	-1(%rsi), %rax
	jmp	.LBB28_31
.LBB28_28:
	cmpb	$-33, -2(%rdi,%rsi)
	jbe	.LBB28_30
	leaq	-2(%rsi), %rax
	jmp	.LBB28_31
.LBB28_30:
	leaq	-3(%rsi), %rax
	cmpb	$-16, -3(%rdi,%rsi)
	cmovbq	%rsi, %rax
.LBB28_31:
	xorl	%edx, %edx
	cmpq	%rsi, %rax
	setae	%al
	cmovaeq	%r8, %rdx
	popq	%rbx
	popq	%r14
	retq
.Lfunc_end28:

	.section	.rdata$004,"dr"
	.p2align	4, 0x0
.LCPI29_0:
	.zero	16,192
.LCPI29_1:
	.zero	16,191
.LCPI29_2:
	.zero	16,223
.LCPI29_3:
	.zero	16,239
.LCPI29_4:
	.zero	16,159
.LCPI29_5:
	.zero	16,237
.LCPI29_6:
	.zero	16,224
.LCPI29_7:
	.zero	16,143
.LCPI29_8:
	.zero	16,245
.LCPI29_9:
	.zero	16,244
.LCPI29_10:
	.zero	16,240
.LCPI29_11:
	.zero	16,254
.LCPI29_12:
	.zero	16,15
.LCPI29_13:
	.zero	16,220
.LCPI29_14:
	.zero	16,252
.LCPI29_15:
	.zero	16,3
.LCPI29_16:
	.zero	16,63
.LCPI29_17:
	.zero	16,232
.LCPI29_18:
	.zero	16,127
.LCPI29_19:
	.byte	1
	.byte	2
	.byte	3
	.byte	4
	.byte	5
	.byte	6
	.byte	7
	.byte	8
	.byte	9
	.byte	10
	.byte	11
	.byte	12
	.byte	13
	.byte	14
	.byte	15
	.byte	16
	.section	.text$037,"xr"
	.p2align	4
L_23:
	pushq	%rbp
	pushq	%r15
	pushq	%r14
	pushq	%r13
	pushq	%r12
	pushq	%rbx
	subq	$344, %rsp
	movq	%r9, %r12
	movq	%r8, %r10
	movq	%rcx, (%rsp)
	movq	%rdx, %r8
	movq	400(%rsp), %r14
	movzbl	(%rsi,%r9), %ecx
	testb	%cl, %cl
	movq	%r10, 8(%rsp)
	movq	%rdx, 16(%rsp)
	js	.LBB29_193
.LBB29_1:
	movq	%rdi, 48(%rsp)
	cmpq	%r12, %r8
	movq	(%rsp), %r11
	movq	%rsi, 24(%rsp)
	ja	.LBB29_5
.LBB29_2:
	movq	48(%rsp), %rax
	movq	%r12, (%rax)
	movq	%r14, 8(%rax)
	movw	$0, 16(%rax)
	jmp	.LBB29_231
	.p2align	4
.LBB29_3:
	leal	67043328(%rax), %edx
	shrl	$10, %edx
	addl	$-10240, %edx
	andl	$1023, %eax
	orl	$56320, %eax
	movw	%ax, 2(%r11,%r14)
	movl	$4, %ecx
	movl	%edx, %eax
.LBB29_4:
	movw	%ax, (%r11,%r14)
	addq	%rcx, %r14
	addq	%rbx, %r12
	cmpq	%r8, %r12
	jae	.LBB29_2
.LBB29_5:
	leaq	(%rsi,%r12), %r13
	movq	%r8, %rbx
	subq	%r12, %rbx
	cmpq	$16, %rbx
	jb	.LBB29_9
	leaq	(%r11,%r14), %rbp
	movq	%r10, %r15
	subq	%r14, %r15
	cmpq	$16, %rbx
	jne	.LBB29_10
	cmpq	$32, %r15
	jae	.LBB29_12
	xorl	%r9d, %r9d
	xorl	%eax, %eax
	jmp	.LBB29_32
	.p2align	4
.LBB29_9:
	xorl	%eax, %eax
	movq	%rbx, %rbp
	subq	%rax, %rbp
	jne	.LBB29_34
	jmp	.LBB29_127
	.p2align	4
.LBB29_10:
	movq	%r15, %rsi
	shrq	%rsi
	cmpq	%rbx, %rsi
	cmovaeq	%rbx, %rsi
	cmpq	$16, %rsi
	jb	.LBB29_11
	movdqu	(%r13), %xmm1
	pmovmskb	%xmm1, %eax
	testl	%eax, %eax
	je	.LBB29_21
.LBB29_11:
	xorl	%eax, %eax
.LBB29_25:
	leaq	(%rax,%rax), %r9
	movq	%rbx, %rcx
	subq	%rax, %rcx
	je	.LBB29_32
	movq	%rax, %r8
	movq	%r13, %rdi
	movq	%rbx, %rsi
	cmpq	$191, %rcx
	ja	.LBB29_28
	movq	%rbp, %rdx
	jmp	.LBB29_30
.LBB29_12:
	movdqu	(%r13), %xmm1
	pmovmskb	%xmm1, %eax
	testl	%eax, %eax
	movq	24(%rsp), %rsi
	je	.LBB29_20
	movq	8(%r13), %xmm0
	pextrb	$5, %xmm0, %eax
	xorl	%r9d, %r9d
	cmpb	$-17, %al
	ja	.LBB29_75
	pextrb	$7, %xmm0, %eax
	cmpb	$-65, %al
	ja	.LBB29_75
	pextrb	$6, %xmm0, %ecx
	movl	$0, %eax
	cmpb	$-33, %cl
	ja	.LBB29_33
	movdqa	%xmm1, %xmm2
	pslldq	$1, %xmm2
	movdqa	%xmm1, %xmm4
	pslldq	$2, %xmm4
	movdqa	%xmm1, %xmm5
	pslldq	$3, %xmm5
	movdqa	.LCPI29_0(%rip), %xmm3
	movdqa	%xmm3, %xmm6
	pcmpgtb	%xmm1, %xmm6
	movdqa	%xmm2, %xmm0
	psubusb	.LCPI29_1(%rip), %xmm0
	movdqa	%xmm4, %xmm7
	psubusb	.LCPI29_2(%rip), %xmm7
	pmaxub	%xmm0, %xmm7
	psubusb	.LCPI29_3(%rip), %xmm5
	por	%xmm7, %xmm5
	pxor	%xmm7, %xmm7
	movdqa	.LCPI29_4(%rip), %xmm0
	pminub	%xmm1, %xmm0
	pcmpeqb	%xmm1, %xmm0
	movdqa	.LCPI29_5(%rip), %xmm8
	pblendvb	%xmm0, .LCPI29_6(%rip), %xmm8
	pcmpgtb	%xmm7, %xmm5
	pxor	%xmm6, %xmm5
	pcmpeqb	%xmm2, %xmm8
	movdqa	.LCPI29_7(%rip), %xmm0
	pminub	%xmm1, %xmm0
	pcmpeqb	%xmm1, %xmm0
	movdqa	.LCPI29_8(%rip), %xmm6
	movdqa	.LCPI29_9(%rip), %xmm7
	pblendvb	%xmm0, .LCPI29_10(%rip), %xmm7
	pmaxub	%xmm1, %xmm6
	pcmpeqb	%xmm1, %xmm6
	pcmpeqb	%xmm2, %xmm7
	por	%xmm8, %xmm7
	por	%xmm6, %xmm7
	movdqa	.LCPI29_11(%rip), %xmm0
	pand	%xmm1, %xmm0
	pcmpeqb	%xmm3, %xmm0
	por	%xmm5, %xmm0
	por	%xmm7, %xmm0
	pmovmskb	%xmm0, %eax
	testl	%eax, %eax
	je	.LBB29_78
	xorl	%r9d, %r9d
	xorl	%eax, %eax
	jmp	.LBB29_33
.LBB29_28:
	movq	%rbp, %rdx
	movq	%r15, %rcx
	callq	L_26
	movq	%rdx, %r9
	movq	%rbx, %rcx
	subq	%rax, %rcx
	cmpq	$191, %rcx
	ja	.LBB29_31
	movq	%r13, %rdi
	movq	%rbx, %rsi
	movq	%rbp, %rdx
	movq	%rax, %r8
.LBB29_30:
	movq	%r15, %rcx
	callq	L_27
	movq	%rdx, %r9
.LBB29_31:
	movq	8(%rsp), %r10
	movq	16(%rsp), %r8
	movq	(%rsp), %r11
.LBB29_32:
	movq	24(%rsp), %rsi
.LBB29_33:
	addq	%r9, %r14
	movq	%rbx, %rbp
	subq	%rax, %rbp
	je	.LBB29_127
.LBB29_34:
	movq	%rax, 32(%rsp)
	addq	%rax, %r13
	cmpq	$7, %rbp
	ja	.LBB29_36
	movq	%r13, %rdi
	movq	%rbp, %rsi
	movq	%r11, %rdx
	movq	%r10, %rcx
	movq	%r14, %r8
	callq	L_31
	movq	(%rsp), %r11
	movq	16(%rsp), %r8
	movq	8(%rsp), %r10
	movq	%rax, %rbx
	movq	%rdx, %r15
	jmp	.LBB29_47
	.p2align	4
.LBB29_36:
	cmpq	$128, %rbp
	movl	$128, %r15d
	cmovbq	%rbp, %r15
	movq	%r10, %rbx
	subq	%r14, %rbx
	xorl	%eax, %eax
	movq	%rbx, %rcx
	subq	$16, %rcx
	cmovaeq	%rcx, %rax
	shrq	%rax
	cmpq	%rax, %r15
	jbe	.LBB29_40
	cmpq	$23, %rbx
	ja	.LBB29_42
	movq	%r13, %rdi
	movq	%rbp, %rsi
	movq	%r11, %rdx
	movq	%r10, %rcx
.LBB29_39:
	movq	%r14, %r8
	callq	L_31
	jmp	.LBB29_45
.LBB29_40:
	cmpq	$63, %rbp
	ja	.LBB29_48
	movq	%r13, %rdi
	movq	%r15, %rsi
	callq	L_18
	movq	%rax, %rbx
	jmp	.LBB29_50
.LBB29_42:
	leaq	64(%rsp), %rdi
	movl	$276, %edx
	xorl	%esi, %esi
	callq	sysv_memset
	cmpq	$15, %rbp
	ja	.LBB29_66
	leaq	64(%rsp), %rdx
	movq	%r13, %rdi
	movq	%rbp, %rsi
	movq	(%rsp), %rcx
	movq	8(%rsp), %r8
	movq	%r14, %r9
.LBB29_44:
	callq	L_32
.LBB29_45:
	movq	%rax, %rbx
	movq	%rdx, %r15
.LBB29_46:
	movq	8(%rsp), %r10
	movq	16(%rsp), %r8
	movq	(%rsp), %r11
.LBB29_47:
	movq	32(%rsp), %rax
	jmp	.LBB29_126
.LBB29_48:
	movl	$63, %esi
	movq	%r13, %rdi
	callq	L_18
	movq	%rax, %rbx
	addq	$4, %rax
	cmpq	$64, %rax
	jb	.LBB29_50
	leaq	(%rbx,%r13), %rdi
	subq	%rbx, %r15
	movq	%r15, %rsi
	callq	L_18
	addq	%rax, %rbx
.LBB29_50:
	testq	%rbx, %rbx
	je	.LBB29_62
	movq	(%rsp), %r11
	leaq	(%r11,%r14), %rbp
	cmpq	$7, %rbx
	movq	8(%rsp), %r10
	movq	16(%rsp), %r8
	ja	.LBB29_63
	xorl	%r9d, %r9d
	movq	%rbx, %rax
	jmp	.LBB29_53
.LBB29_61:
	addl	$67043328, %ecx
	shrl	$10, %ecx
	addl	$-10240, %ecx
	movw	%cx, (%rdi)
	orl	$56320, %esi
	movw	%si, 2(%rdi)
	movl	$4, %ecx
	addq	%rcx, %r9
	testq	%rax, %rax
	je	.LBB29_124
	.p2align	4
.LBB29_53:
	movzbl	(%r13), %ecx
	movl	$1, %esi
	testb	%cl, %cl
	jns	.LBB29_58
	movzbl	1(%r13), %edx
	andl	$63, %edx
	cmpb	$-33, %cl
	ja	.LBB29_56
	andl	$31, %ecx
	shll	$6, %ecx
	orl	%edx, %ecx
	movl	$2, %esi
	jmp	.LBB29_58
.LBB29_56:
	movzbl	2(%r13), %esi
	andl	$63, %esi
	cmpb	$-17, %cl
	ja	.LBB29_60
	shll	$12, %ecx
	movzwl	%cx, %ecx
	shll	$6, %edx
	orl	%ecx, %edx
	orl	%esi, %edx
	movl	$3, %esi
	movl	%edx, %ecx
	.p2align	4
.LBB29_58:
	addq	%rsi, %r13
	subq	%rsi, %rax
	leaq	(%r9,%rbp), %rdi
.LBB29_59:
	movw	%cx, (%rdi)
	movl	$2, %ecx
	addq	%rcx, %r9
	testq	%rax, %rax
	jne	.LBB29_53
	jmp	.LBB29_124
.LBB29_60:
	movzbl	3(%r13), %edi
	andl	$63, %edi
	andl	$7, %ecx
	shll	$18, %ecx
	shll	$12, %edx
	orl	%ecx, %edx
	shll	$6, %esi
	orl	%edi, %esi
	leal	(%rsi,%rdx), %ecx
	addq	$4, %r13
	addq	$-4, %rax
	leaq	(%r9,%rbp), %rdi
	cmpl	$65535, %edx
	jbe	.LBB29_59
	jmp	.LBB29_61
.LBB29_21:
	cmpq	$31, %rsi
	ja	.LBB29_24
	pxor	%xmm0, %xmm0
	pmovzxbw	%xmm1, %xmm2
	punpckhbw	%xmm0, %xmm1
	movdqu	%xmm2, (%rbp)
	movdqu	%xmm1, 16(%rbp)
	movdqu	-16(%rsi,%r13), %xmm1
	pmovmskb	%xmm1, %ecx
	movl	$16, %eax
	testl	%ecx, %ecx
	jne	.LBB29_25
	pmovzxbw	%xmm1, %xmm2
	punpckhbw	%xmm0, %xmm1
	movdqu	%xmm2, -32(%rbp,%rsi,2)
	movdqu	%xmm1, -16(%rbp,%rsi,2)
	movq	%rsi, %rax
	jmp	.LBB29_25
.LBB29_20:
	pxor	%xmm0, %xmm0
	pmovzxbw	%xmm1, %xmm2
	punpckhbw	%xmm0, %xmm1
	movdqu	%xmm2, (%rbp)
	movdqu	%xmm1, 16(%rbp)
	movl	$16, %eax
	movl	$32, %r9d
	jmp	.LBB29_33
.LBB29_62:
	movq	8(%rsp), %r10
	movq	16(%rsp), %r8
	movq	(%rsp), %r11
	jmp	.LBB29_125
.LBB29_63:
	cmpq	$16, %rbx
	ja	.LBB29_76
	movq	-8(%r13,%rbx), %xmm0
	movq	(%r13), %xmm1
	punpcklqdq	%xmm0, %xmm1
	movq	%rbx, %rax
	shlq	$4, %rax
	leaq	.Lstatic.11(%rip), %rcx
	movdqu	-128(%rax,%rcx), %xmm0
	pshufb	%xmm0, %xmm1
	pmovmskb	%xmm1, %eax
	testl	%eax, %eax
	je	.LBB29_94
	leaq	.Lstatic.12(%rip), %rax
	subq	%rbx, %rax
	movdqu	16(%rax), %xmm0
	pmaxub	%xmm0, %xmm1
	movdqa	%xmm1, %xmm6
	pslldq	$1, %xmm6
	movdqa	%xmm1, %xmm5
	pslldq	$2, %xmm5
	movdqa	.LCPI29_0(%rip), %xmm4
	movdqa	%xmm4, %xmm3
	movdqa	%xmm1, %xmm0
	pblendvb	%xmm0, %xmm6, %xmm3
	movdqa	.LCPI29_1(%rip), %xmm2
	movdqa	.LCPI29_6(%rip), %xmm0
	pmaxub	%xmm5, %xmm0
	movdqa	%xmm3, %xmm7
	psrlw	$2, %xmm7
	movdqa	.LCPI29_12(%rip), %xmm8
	pand	%xmm8, %xmm7
	psllw	$4, %xmm0
	pandn	%xmm0, %xmm8
	por	%xmm7, %xmm8
	movdqa	%xmm3, %xmm0
	pmaxub	%xmm5, %xmm0
	movdqa	%xmm0, %xmm7
	pminub	%xmm2, %xmm7
	pcmpeqb	%xmm0, %xmm7
	pand	.LCPI29_13(%rip), %xmm7
	por	%xmm8, %xmm7
	movdqa	.LCPI29_2(%rip), %xmm8
	pminub	%xmm6, %xmm8
	pcmpeqb	%xmm6, %xmm8
	movdqa	%xmm6, %xmm0
	psllw	$2, %xmm0
	pand	.LCPI29_14(%rip), %xmm0
	movdqa	%xmm1, %xmm6
	psrlw	$4, %xmm6
	pand	.LCPI29_15(%rip), %xmm6
	movdqa	.LCPI29_16(%rip), %xmm9
	pminub	%xmm0, %xmm9
	pcmpeqb	%xmm0, %xmm9
	paddb	%xmm5, %xmm9
	paddb	.LCPI29_17(%rip), %xmm9
	por	%xmm0, %xmm6
	paddb	%xmm4, %xmm6
	movdqa	.LCPI29_3(%rip), %xmm0
	pminub	%xmm5, %xmm0
	pcmpeqb	%xmm5, %xmm0
	pblendvb	%xmm0, %xmm7, %xmm9
	movdqa	.LCPI29_18(%rip), %xmm5
	pand	%xmm1, %xmm5
	psllw	$6, %xmm3
	pand	%xmm4, %xmm3
	paddb	%xmm5, %xmm3
	pblendvb	%xmm0, %xmm3, %xmm6
	movdqa	%xmm6, %xmm0
	punpckhbw	%xmm9, %xmm0
	punpcklbw	%xmm9, %xmm6
	pminub	%xmm1, %xmm2
	pcmpeqb	%xmm1, %xmm2
	pand	%xmm2, %xmm8
	pmovmskb	%xmm8, %eax
	movzbl	%al, %ecx
	popcntl	%ecx, %edx
	shll	$4, %ecx
	leaq	.Lstatic.13(%rip), %rsi
	movdqu	(%rcx,%rsi), %xmm1
	pshufb	%xmm1, %xmm6
	movdqu	%xmm6, (%rbp)
	shrl	$8, %eax
	popcntl	%eax, %r9d
	shll	$4, %eax
	movdqu	(%rax,%rsi), %xmm1
	pshufb	%xmm1, %xmm0
	movdqu	%xmm0, (%rbp,%rdx,2)
	addl	%edx, %r9d
	addl	%r9d, %r9d
	jmp	.LBB29_124
.LBB29_66:
	movzbl	(%r13), %r9d
	movl	$1, %eax
	testb	%r9b, %r9b
	movq	8(%rsp), %rcx
	movq	(%rsp), %rdx
	js	.LBB29_79
.LBB29_67:
	movzbl	(%r13,%rax), %r10d
	testb	%r10b, %r10b
	js	.LBB29_85
.LBB29_68:
	xorl	%esi, %esi
	cmpq	$65, %rbx
	setae	%sil
	shll	$6, %esi
	addq	$66, %rsi
	cmpq	%rbp, %rsi
	cmovaeq	%rbp, %rsi
	cmpq	$16, %rbp
	movq	%rbx, 56(%rsp)
	jne	.LBB29_88
	movq	-8(%r13,%rsi), %xmm0
	movq	(%r13), %xmm1
	punpcklqdq	%xmm0, %xmm1
	movq	%rsi, %rax
	shlq	$4, %rax
	leaq	.Lstatic.11(%rip), %rcx
	movdqu	-128(%rax,%rcx), %xmm2
	pshufb	%xmm2, %xmm1
	pmovmskb	%xmm1, %eax
	testl	%eax, %eax
	je	.LBB29_106
	pextrb	$5, %xmm0, %eax
	xorl	%r15d, %r15d
	cmpb	$-17, %al
	ja	.LBB29_165
	pextrb	$7, %xmm0, %eax
	cmpb	$-65, %al
	ja	.LBB29_165
	pextrb	$6, %xmm0, %eax
	movl	$0, %ebx
	cmpb	$-33, %al
	ja	.LBB29_166
	movdqa	%xmm1, %xmm2
	pslldq	$1, %xmm2
	movdqa	%xmm1, %xmm4
	pslldq	$2, %xmm4
	movdqa	%xmm1, %xmm5
	pslldq	$3, %xmm5
	movdqa	.LCPI29_0(%rip), %xmm3
	movdqa	%xmm3, %xmm0
	movdqa	%xmm2, %xmm6
	psubusb	.LCPI29_1(%rip), %xmm6
	pcmpgtb	%xmm1, %xmm0
	movdqa	%xmm4, %xmm7
	psubusb	.LCPI29_2(%rip), %xmm7
	pmaxub	%xmm6, %xmm7
	psubusb	.LCPI29_3(%rip), %xmm5
	por	%xmm7, %xmm5
	pxor	%xmm6, %xmm6
	pcmpgtb	%xmm6, %xmm5
	pxor	%xmm0, %xmm5
	movdqa	.LCPI29_4(%rip), %xmm0
	pminub	%xmm1, %xmm0
	pcmpeqb	%xmm1, %xmm0
	movdqa	.LCPI29_5(%rip), %xmm7
	pblendvb	%xmm0, .LCPI29_6(%rip), %xmm7
	pcmpeqb	%xmm2, %xmm7
	movdqa	.LCPI29_7(%rip), %xmm0
	pminub	%xmm1, %xmm0
	pcmpeqb	%xmm1, %xmm0
	movdqa	.LCPI29_8(%rip), %xmm8
	pmaxub	%xmm1, %xmm8
	pcmpeqb	%xmm1, %xmm8
	movdqa	.LCPI29_9(%rip), %xmm9
	pblendvb	%xmm0, .LCPI29_10(%rip), %xmm9
	pcmpeqb	%xmm2, %xmm9
	por	%xmm7, %xmm9
	movdqa	.LCPI29_11(%rip), %xmm0
	pand	%xmm1, %xmm0
	pcmpeqb	%xmm3, %xmm0
	por	%xmm5, %xmm0
	por	%xmm8, %xmm0
	por	%xmm9, %xmm0
	movd	%esi, %xmm5
	pshufb	%xmm6, %xmm5
	movdqa	.LCPI29_19(%rip), %xmm6
	pmaxub	%xmm5, %xmm6
	pcmpeqb	%xmm5, %xmm6
	psllw	$7, %xmm0
	pand	%xmm6, %xmm0
	pmovmskb	%xmm0, %eax
	testl	%eax, %eax
	je	.LBB29_164
	xorl	%r15d, %r15d
.LBB29_165:
	xorl	%ebx, %ebx
	jmp	.LBB29_166
.LBB29_75:
	xorl	%eax, %eax
	jmp	.LBB29_33
.LBB29_24:
	movq	%r13, %rdi
	movq	%rbp, %rdx
	callq	L_25
	movq	(%rsp), %r11
	movq	16(%rsp), %r8
	movq	8(%rsp), %r10
	jmp	.LBB29_25
.LBB29_76:
	leaq	16(,%rbx,2), %r15
	movq	%r15, %rsi
	shrq	%rsi
	cmpq	%rbx, %rsi
	cmovaeq	%rbx, %rsi
	cmpq	$32, %r15
	jb	.LBB29_77
	movdqu	(%r13), %xmm1
	pmovmskb	%xmm1, %eax
	testl	%eax, %eax
	je	.LBB29_103
.LBB29_77:
	xorl	%r8d, %r8d
.LBB29_116:
	leaq	(%r8,%r8), %r9
	movq	%rbx, %rax
	subq	%r8, %rax
	jne	.LBB29_118
	movq	16(%rsp), %r8
	jmp	.LBB29_124
.LBB29_78:
	movdqa	%xmm3, %xmm6
	movdqa	%xmm1, %xmm0
	pblendvb	%xmm0, %xmm2, %xmm6
	movdqa	.LCPI29_1(%rip), %xmm5
	movdqa	.LCPI29_6(%rip), %xmm0
	pmaxub	%xmm4, %xmm0
	movdqa	%xmm6, %xmm7
	psrlw	$2, %xmm7
	movdqa	.LCPI29_12(%rip), %xmm9
	pand	%xmm9, %xmm7
	psllw	$4, %xmm0
	pandn	%xmm0, %xmm9
	por	%xmm7, %xmm9
	movdqa	%xmm6, %xmm0
	pmaxub	%xmm4, %xmm0
	movdqa	%xmm0, %xmm8
	pminub	%xmm5, %xmm8
	pcmpeqb	%xmm0, %xmm8
	pand	.LCPI29_13(%rip), %xmm8
	por	%xmm9, %xmm8
	movdqa	%xmm2, %xmm0
	psllw	$2, %xmm0
	pand	.LCPI29_14(%rip), %xmm0
	movdqa	%xmm1, %xmm7
	psrlw	$4, %xmm7
	pand	.LCPI29_15(%rip), %xmm7
	movdqa	.LCPI29_16(%rip), %xmm9
	pminub	%xmm0, %xmm9
	pcmpeqb	%xmm0, %xmm9
	paddb	%xmm4, %xmm9
	paddb	.LCPI29_17(%rip), %xmm9
	por	%xmm0, %xmm7
	paddb	%xmm3, %xmm7
	movdqa	.LCPI29_3(%rip), %xmm0
	pminub	%xmm4, %xmm0
	pcmpeqb	%xmm4, %xmm0
	pblendvb	%xmm0, %xmm8, %xmm9
	movdqa	.LCPI29_18(%rip), %xmm4
	pand	%xmm1, %xmm4
	psllw	$6, %xmm6
	pand	%xmm3, %xmm6
	paddb	%xmm4, %xmm6
	pblendvb	%xmm0, %xmm6, %xmm7
	movdqa	%xmm7, %xmm0
	punpckhbw	%xmm9, %xmm0
	punpcklbw	%xmm9, %xmm7
	movdqa	.LCPI29_2(%rip), %xmm3
	pminub	%xmm2, %xmm3
	pcmpeqb	%xmm2, %xmm3
	pminub	%xmm1, %xmm5
	pcmpeqb	%xmm1, %xmm5
	pand	%xmm3, %xmm5
	pmovmskb	%xmm5, %eax
	movzbl	%al, %ecx
	popcntl	%ecx, %edx
	shll	$4, %ecx
	leaq	.Lstatic.13(%rip), %rdi
	movdqu	(%rcx,%rdi), %xmm1
	pshufb	%xmm1, %xmm7
	movdqu	%xmm7, (%rbp)
	shrl	$8, %eax
	popcntl	%eax, %r9d
	shll	$4, %eax
	movdqu	(%rax,%rdi), %xmm1
	pshufb	%xmm1, %xmm0
	movdqu	%xmm0, (%rbp,%rdx,2)
	addl	%edx, %r9d
	addl	%r9d, %r9d
	movl	$16, %eax
	jmp	.LBB29_33
.LBB29_79:
	cmpb	$-31, %r9b
	jae	.LBB29_95
	movzbl	1(%r13), %r10d
	movl	%r9d, %eax
	shrb	$4, %al
	andb	$12, %al
	movl	%r10d, %esi
	shrb	$6, %sil
	orb	%al, %sil
	cmpb	$14, %sil
	jne	.LBB29_192
	leal	62(%r9), %esi
	movl	$2, %eax
	cmpb	$30, %sil
	jb	.LBB29_67
	jmp	.LBB29_112
.LBB29_118:
	cmpq	$191, %rax
	ja	.LBB29_120
	movq	%r13, %rdi
	movq	%rbx, %rsi
	movq	%rbp, %rdx
	movq	%r15, %rcx
	jmp	.LBB29_122
.LBB29_85:
	leal	31(%r10), %esi
	movzbl	1(%r13,%rax), %r11d
	cmpb	$11, %sil
	ja	.LBB29_98
	cmpb	$-65, %r11b
	jg	.LBB29_192
	cmpb	$-64, 2(%r13,%rax)
	jl	.LBB29_68
	jmp	.LBB29_192
.LBB29_88:
	movdqu	(%r13), %xmm1
	pmovmskb	%xmm1, %eax
	testl	%eax, %eax
	je	.LBB29_107
	xorl	%r15d, %r15d
	xorl	%ebx, %ebx
.LBB29_90:
	movq	%rsi, %rax
	subq	%rbx, %rax
	cmpq	$191, %rax
	jbe	.LBB29_92
	leaq	64(%rsp), %rdx
	movl	$276, %ecx
	movq	%r13, %rdi
	movq	%rsi, 40(%rsp)
	movq	40(%rsp), %rsi
	movq	%rbx, %r8
	movq	%r15, %r9
	callq	L_26
	movq	40(%rsp), %rsi
	movq	%rax, %rbx
	movq	%rdx, %r15
	movq	%rsi, %rax
	subq	%rbx, %rax
	cmpq	$191, %rax
	ja	.LBB29_93
.LBB29_92:
	leaq	64(%rsp), %rdx
	movl	$276, %ecx
	movq	%r13, %rdi
	movq	%rbx, %r8
	movq	%r15, %r9
	callq	L_27
	movq	%rax, %rbx
	movq	%rdx, %r15
.LBB29_93:
	movq	(%rsp), %rdx
	jmp	.LBB29_166
.LBB29_94:
	leaq	(%rbx,%rbx), %r9
	pxor	%xmm0, %xmm0
	pmovzxbw	%xmm1, %xmm2
	punpckhbw	%xmm0, %xmm1
	movdqu	%xmm2, (%rbp)
	movdqu	%xmm1, 16(%rbp)
	jmp	.LBB29_124
.LBB29_95:
	movzbl	1(%r13), %r10d
	cmpb	$-20, %r9b
	ja	.LBB29_110
	cmpb	$-65, %r10b
	jg	.LBB29_192
	movl	$3, %eax
	cmpb	$-64, 2(%r13)
	jl	.LBB29_67
	jmp	.LBB29_192
.LBB29_120:
	movq	%r13, %rdi
	movq	%rbx, %rsi
	movq	%rbp, %rdx
	movq	%r15, %rcx
	callq	L_26
	movq	%rdx, %r9
	movq	%rbx, %rcx
	subq	%rax, %rcx
	cmpq	$191, %rcx
	ja	.LBB29_123
	movq	%r13, %rdi
	movq	%rbx, %rsi
	movq	%rbp, %rdx
	movq	%r15, %rcx
	movq	%rax, %r8
.LBB29_122:
	callq	L_27
	movq	%rdx, %r9
.LBB29_123:
	movq	8(%rsp), %r10
	movq	16(%rsp), %r8
	movq	(%rsp), %r11
.LBB29_124:
	addq	%r9, %r14
.LBB29_125:
	movq	32(%rsp), %rax
	movq	%r14, %r15
.LBB29_126:
	addq	%rax, %rbx
	movq	%r15, %r14
	movq	24(%rsp), %rsi
.LBB29_127:
	addq	%r12, %rbx
	movq	%r8, %rdx
	subq	%rbx, %rdx
	je	.LBB29_205
	movzbl	(%rsi,%rbx), %eax
	testb	%al, %al
	js	.LBB29_133
	movl	$1, %r12d
.LBB29_130:
	movq	%r10, %rcx
	subq	%r14, %rcx
	xorl	%edx, %edx
	cmpl	$65536, %eax
	setae	%dl
	leaq	2(,%rdx,2), %rdx
	cmpq	%rdx, %rcx
	jb	.LBB29_206
	cmpl	$65535, %eax
	ja	.LBB29_3
	movl	$2, %ecx
	jmp	.LBB29_4
	.p2align	4
.LBB29_133:
	cmpq	$3, %rdx
	jb	.LBB29_138
	leal	31(%rax), %ecx
	cmpb	$11, %cl
	ja	.LBB29_139
	movzbl	1(%rsi,%rbx), %ecx
	cmpb	$-65, %cl
	jg	.LBB29_139
	movzbl	2(%rsi,%rbx), %edi
	cmpb	$-65, %dil
	jg	.LBB29_139
	shll	$12, %eax
	shll	$6, %ecx
	addl	%eax, %ecx
	leal	(%rdi,%rcx), %eax
	addl	$-925824, %eax
	movl	$3, %r12d
	jmp	.LBB29_130
.LBB29_138:
	cmpq	$2, %rdx
	jne	.LBB29_218
.LBB29_139:
	movzbl	1(%rsi,%rbx), %r15d
	movl	%eax, %ecx
	shrb	$4, %cl
	andb	$12, %cl
	movl	%r15d, %edi
	shrb	$6, %dil
	orb	%cl, %dil
	movb	$1, %cl
	cmpb	$14, %dil
	jne	.LBB29_229
	leal	31(%rax), %edi
	cmpb	$12, %dil
	jae	.LBB29_145
.LBB29_141:
	cmpq	$2, %rdx
	je	.LBB29_216
	movzbl	2(%rsi,%rbx), %edi
	cmpb	$-65, %dil
	jg	.LBB29_217
	cmpb	$-17, %al
	ja	.LBB29_149
	shll	$12, %eax
	shll	$6, %r15d
	addl	%eax, %r15d
	leal	(%rdi,%r15), %eax
	addl	$-925824, %eax
	movl	$3, %r12d
	jmp	.LBB29_130
.LBB29_145:
	leal	62(%rax), %edi
	cmpb	$30, %dil
	jb	.LBB29_160
	movb	$-65, %r8b
	leal	-224(%rax), %r9d
	cmpl	$20, %r9d
	ja	.LBB29_155
	leaq	.LJTI29_3(%rip), %r10
	movslq	(%r10,%r9,4), %r9
	addq	%r10, %r9
	movq	8(%rsp), %r10
	jmpq	*%r9
.LBB29_148:
	movb	$-96, %r9b
	jmp	.LBB29_156
.LBB29_149:
	cmpq	$4, %rdx
	jb	.LBB29_216
	movzbl	3(%rsi,%rbx), %edx
	cmpb	$-65, %dl
	jg	.LBB29_219
	shll	$18, %eax
	shll	$12, %r15d
	addl	%eax, %r15d
	shll	$6, %edi
	addl	%r15d, %edi
	leal	(%rdx,%rdi), %eax
	addl	$-63447168, %eax
	movl	$4, %r12d
	jmp	.LBB29_130
.LBB29_152:
	movb	$-112, %r9b
	jmp	.LBB29_156
.LBB29_153:
	movb	$-97, %r8b
	jmp	.LBB29_155
.LBB29_154:
	movb	$-113, %r8b
.LBB29_155:
	movb	$-128, %r9b
.LBB29_156:
	cmpb	$50, %dil
	ja	.LBB29_229
	cmpb	%r15b, %r9b
	ja	.LBB29_229
	cmpb	%r8b, %r15b
	ja	.LBB29_229
	cmpb	$-33, %al
	movq	16(%rsp), %r8
	ja	.LBB29_141
.LBB29_160:
	shll	$6, %eax
	addl	%r15d, %eax
	addl	$-12416, %eax
	movl	$2, %r12d
	jmp	.LBB29_130
.LBB29_98:
	movl	%r10d, %esi
	shrb	$4, %sil
	andb	$12, %sil
	movl	%r11d, %edi
	shrb	$6, %dil
	orb	%sil, %dil
	cmpb	$14, %dil
	jne	.LBB29_192
	leal	62(%r10), %esi
	cmpb	$30, %sil
	jb	.LBB29_68
	movb	$-65, %dil
	leal	-224(%r10), %r8d
	cmpl	$20, %r8d
	ja	.LBB29_184
	leaq	.LJTI29_2(%rip), %r9
	movslq	(%r9,%r8,4), %r8
	addq	%r9, %r8
	jmpq	*%r8
.LBB29_102:
	movb	$-96, %r8b
	jmp	.LBB29_185
.LBB29_103:
	cmpq	$31, %rsi
	ja	.LBB29_115
	pxor	%xmm0, %xmm0
	pmovzxbw	%xmm1, %xmm2
	punpckhbw	%xmm0, %xmm1
	movdqu	%xmm2, (%rbp)
	movdqu	%xmm1, 16(%rbp)
	movdqu	-16(%rsi,%r13), %xmm1
	pmovmskb	%xmm1, %eax
	movl	$16, %r8d
	testl	%eax, %eax
	jne	.LBB29_116
	pmovzxbw	%xmm1, %xmm2
	punpckhbw	%xmm0, %xmm1
	movdqu	%xmm2, -32(%rbp,%rsi,2)
	movdqu	%xmm1, -16(%rbp,%rsi,2)
	movq	%rsi, %r8
	jmp	.LBB29_116
.LBB29_106:
	pxor	%xmm0, %xmm0
	pmovzxbw	%xmm1, %xmm2
	punpckhbw	%xmm0, %xmm1
	movdqa	%xmm2, 64(%rsp)
	movdqa	%xmm1, 80(%rsp)
	movl	$16, %ebx
	movl	$32, %r15d
	jmp	.LBB29_166
.LBB29_107:
	cmpq	$31, %rbp
	ja	.LBB29_161
	pxor	%xmm0, %xmm0
	pmovzxbw	%xmm1, %xmm2
	punpckhbw	%xmm0, %xmm1
	movdqa	%xmm2, 64(%rsp)
	movdqa	%xmm1, 80(%rsp)
	movdqu	-16(%rsi,%r13), %xmm1
	pmovmskb	%xmm1, %eax
	movl	$16, %ebx
	testl	%eax, %eax
	jne	.LBB29_162
	pmovzxbw	%xmm1, %xmm2
	punpckhbw	%xmm0, %xmm1
	movdqu	%xmm2, 32(%rsp,%rsi,2)
	movdqu	%xmm1, 48(%rsp,%rsi,2)
	leaq	(%rsi,%rsi), %r15
	movq	%rsi, %rbx
	jmp	.LBB29_166
.LBB29_110:
	cmpb	$-65, %r10b
	jg	.LBB29_192
	leal	62(%r9), %esi
.LBB29_112:
	movb	$-65, %al
	leal	-224(%r9), %edi
	cmpl	$20, %edi
	ja	.LBB29_173
	leaq	.LJTI29_1(%rip), %r8
	movslq	(%r8,%rdi,4), %rdi
	addq	%r8, %rdi
	jmpq	*%rdi
.LBB29_114:
	movb	$-96, %dil
	jmp	.LBB29_174
.LBB29_115:
	movq	%r13, %rdi
	movq	%rbp, %rdx
	callq	L_25
	movq	(%rsp), %r11
	movq	8(%rsp), %r10
	movq	%rax, %r8
	jmp	.LBB29_116
.LBB29_161:
	leaq	64(%rsp), %rdx
	movq	%r13, %rdi
	movq	%rsi, %rbx
	callq	L_25
	movq	%rbx, %rsi
	movq	(%rsp), %rdx
	movq	%rax, %rbx
.LBB29_162:
	leaq	(%rbx,%rbx), %r15
	cmpq	%rsi, %rbx
	jne	.LBB29_90
	jmp	.LBB29_166
.LBB29_164:
	movdqa	%xmm3, %xmm6
	movdqa	%xmm1, %xmm0
	pblendvb	%xmm0, %xmm2, %xmm6
	movdqa	.LCPI29_1(%rip), %xmm5
	movdqa	.LCPI29_6(%rip), %xmm0
	pmaxub	%xmm4, %xmm0
	movdqa	%xmm6, %xmm7
	psrlw	$2, %xmm7
	movdqa	.LCPI29_12(%rip), %xmm9
	pand	%xmm9, %xmm7
	psllw	$4, %xmm0
	pandn	%xmm0, %xmm9
	por	%xmm7, %xmm9
	movdqa	%xmm6, %xmm0
	pmaxub	%xmm4, %xmm0
	movdqa	%xmm0, %xmm8
	pminub	%xmm5, %xmm8
	pcmpeqb	%xmm0, %xmm8
	pand	.LCPI29_13(%rip), %xmm8
	por	%xmm9, %xmm8
	movdqa	%xmm2, %xmm0
	psllw	$2, %xmm0
	pand	.LCPI29_14(%rip), %xmm0
	movdqa	%xmm1, %xmm7
	psrlw	$4, %xmm7
	pand	.LCPI29_15(%rip), %xmm7
	movdqa	.LCPI29_16(%rip), %xmm9
	pminub	%xmm0, %xmm9
	pcmpeqb	%xmm0, %xmm9
	paddb	%xmm4, %xmm9
	paddb	.LCPI29_17(%rip), %xmm9
	por	%xmm0, %xmm7
	paddb	%xmm3, %xmm7
	movdqa	.LCPI29_3(%rip), %xmm0
	pminub	%xmm4, %xmm0
	pcmpeqb	%xmm4, %xmm0
	pblendvb	%xmm0, %xmm8, %xmm9
	movdqa	.LCPI29_18(%rip), %xmm4
	pand	%xmm1, %xmm4
	psllw	$6, %xmm6
	pand	%xmm3, %xmm6
	paddb	%xmm4, %xmm6
	pblendvb	%xmm0, %xmm6, %xmm7
	movdqa	%xmm7, %xmm0
	punpckhbw	%xmm9, %xmm0
	punpcklbw	%xmm9, %xmm7
	pminub	%xmm1, %xmm5
	pcmpeqb	%xmm1, %xmm5
	movdqa	.LCPI29_2(%rip), %xmm1
	pminub	%xmm2, %xmm1
	pcmpeqb	%xmm2, %xmm1
	pand	%xmm5, %xmm1
	pmovmskb	%xmm1, %eax
	movzbl	%al, %ecx
	popcntl	%ecx, %edi
	shll	$4, %ecx
	leaq	.Lstatic.13(%rip), %rsi
	movdqu	(%rcx,%rsi), %xmm1
	pshufb	%xmm1, %xmm7
	movdqa	%xmm7, 64(%rsp)
	shrl	$8, %eax
	popcntl	%eax, %r15d
	shll	$4, %eax
	movdqu	(%rax,%rsi), %xmm1
	pshufb	%xmm1, %xmm0
	movdqu	%xmm0, 64(%rsp,%rdi,2)
	addl	%edi, %r15d
	addl	%r15d, %r15d
	movl	$16, %ebx
.LBB29_166:
	movq	56(%rsp), %rcx
	cmpq	%rcx, %r15
	jbe	.LBB29_168
	movq	%rcx, %rax
	andq	$-2, %rax
	orq	$1, %rcx
	movzbl	64(%rsp,%rcx), %ecx
	andb	$-4, %cl
	leaq	-2(%rax), %r15
	cmpb	$-36, %cl
	cmovneq	%rax, %r15
	leaq	64(%rsp), %rdi
	movq	%r15, %rsi
	callq	L_33
	movq	(%rsp), %rdx
	movq	%rax, %rbx
.LBB29_168:
	leaq	(%rdx,%r14), %rdi
	leaq	64(%rsp), %rsi
	movq	%r15, %rdx
	callq	sysv_memcpy
	addq	%r14, %r15
	testq	%rbx, %rbx
	jne	.LBB29_46
	leaq	64(%rsp), %rdx
	movq	%r13, %rdi
	movq	%rbp, %rsi
	movq	(%rsp), %rcx
	movq	8(%rsp), %r8
	movq	%r15, %r9
	jmp	.LBB29_44
.LBB29_170:
	movb	$-112, %dil
	jmp	.LBB29_174
.LBB29_171:
	movb	$-97, %al
	jmp	.LBB29_173
.LBB29_172:
	movb	$-113, %al
.LBB29_173:
	movb	$-128, %dil
.LBB29_174:
	cmpb	$50, %sil
	ja	.LBB29_192
	cmpb	%r10b, %dil
	ja	.LBB29_192
	cmpb	%al, %r10b
	ja	.LBB29_192
	movl	$2, %eax
	cmpb	$-32, %r9b
	jb	.LBB29_67
	cmpb	$-65, 2(%r13)
	jg	.LBB29_192
	movl	$3, %eax
	cmpb	$-16, %r9b
	jb	.LBB29_67
	movl	$4, %eax
	cmpb	$-65, 3(%r13)
	jle	.LBB29_67
	jmp	.LBB29_192
.LBB29_181:
	movb	$-112, %r8b
	jmp	.LBB29_185
.LBB29_182:
	movb	$-97, %dil
	jmp	.LBB29_184
.LBB29_183:
	movb	$-113, %dil
.LBB29_184:
	movb	$-128, %r8b
.LBB29_185:
	cmpb	$50, %sil
	ja	.LBB29_192
	cmpb	%r11b, %r8b
	ja	.LBB29_192
	cmpb	%dil, %r11b
	ja	.LBB29_192
	cmpb	$-32, %r10b
	jb	.LBB29_68
	cmpb	$-65, 2(%r13,%rax)
	jg	.LBB29_192
	cmpb	$-16, %r10b
	jb	.LBB29_68
	cmpb	$-64, 3(%r13,%rax)
	jl	.LBB29_68
.LBB29_192:
	movq	%r13, %rdi
	movq	%rbp, %rsi
	jmp	.LBB29_39
.LBB29_193:
	movq	%r8, %rdx
	subq	%r12, %rdx
	cmpq	$3, %rdx
	jb	.LBB29_197
	leal	31(%rcx), %eax
	cmpb	$11, %al
	ja	.LBB29_198
	cmpb	$-65, 1(%rsi,%r12)
	jg	.LBB29_198
	cmpb	$-64, 2(%rsi,%r12)
	jl	.LBB29_1
	jmp	.LBB29_198
.LBB29_197:
	cmpq	$2, %rdx
	jne	.LBB29_203
.LBB29_198:
	movzbl	1(%rsi,%r12), %ebx
	movl	%ecx, %eax
	shrb	$4, %al
	andb	$12, %al
	movl	%ebx, %r8d
	shrb	$6, %r8b
	orb	%al, %r8b
	movb	$1, %al
	cmpb	$14, %r8b
	jne	.LBB29_202
	leal	31(%rcx), %r8d
	cmpb	$12, %r8b
	movq	16(%rsp), %r8
	jae	.LBB29_207
.LBB29_200:
	cmpq	$2, %rdx
	jne	.LBB29_211
.LBB29_201:
	movb	$2, %al
	xorl	%r9d, %r9d
	jmp	.LBB29_204
.LBB29_203:
	addb	$11, %cl
	cmpb	$-51, %cl
	setb	%r9b
	movb	$2, %al
	subb	%r9b, %al
	jmp	.LBB29_204
.LBB29_205:
	movq	%r8, %r12
	jmp	.LBB29_2
.LBB29_206:
	movb	$3, %cl
	xorl	%eax, %eax
	jmp	.LBB29_230
.LBB29_207:
	leal	62(%rcx), %r11d
	cmpb	$30, %r11b
	jb	.LBB29_1
	movb	$-65, %r8b
	leal	-224(%rcx), %r9d
	cmpl	$20, %r9d
	ja	.LBB29_223
	leaq	.LJTI29_0(%rip), %r10
	movslq	(%r10,%r9,4), %r9
	addq	%r10, %r9
	jmpq	*%r9
.LBB29_210:
	movb	$-96, %r9b
	jmp	.LBB29_224
.LBB29_229:
	movb	$1, %al
	jmp	.LBB29_230
.LBB29_211:
	movb	$2, %r9b
	cmpb	$-65, 2(%rsi,%r12)
	jg	.LBB29_204
	cmpb	$-16, %cl
	jb	.LBB29_1
	cmpq	$4, %rdx
	jb	.LBB29_201
	movb	$3, %r9b
	cmpb	$-65, 3(%rsi,%r12)
	jle	.LBB29_1
	jmp	.LBB29_204
.LBB29_216:
	movb	$2, %cl
	xorl	%eax, %eax
	jmp	.LBB29_230
.LBB29_217:
	movb	$2, %al
	jmp	.LBB29_230
.LBB29_218:
	addb	$11, %al
	cmpb	$-51, %al
	setb	%al
	movb	$2, %cl
	subb	%al, %cl
	jmp	.LBB29_230
.LBB29_219:
	movb	$3, %al
.LBB29_230:
	movq	48(%rsp), %rdx
	movq	%rbx, (%rdx)
	movq	%r14, 8(%rdx)
	movb	%cl, 16(%rdx)
	movb	%al, 17(%rdx)
	jmp	.LBB29_231
.LBB29_220:
	movb	$-112, %r9b
	jmp	.LBB29_224
.LBB29_221:
	movb	$-97, %r8b
	jmp	.LBB29_223
.LBB29_222:
	movb	$-113, %r8b
.LBB29_223:
	movb	$-128, %r9b
.LBB29_224:
	cmpb	$51, %r11b
	setb	%r10b
	cmpb	%bl, %r9b
	setbe	%r9b
	cmpb	%r8b, %bl
	setbe	%r8b
	andb	%r9b, %r8b
	andb	%r10b, %r8b
	cmpb	$1, %r8b
	jne	.LBB29_202
	cmpb	$-32, %cl
	movq	8(%rsp), %r10
	movq	16(%rsp), %r8
	jb	.LBB29_1
	jmp	.LBB29_200
.LBB29_202:
	movb	$1, %r9b
.LBB29_204:
	movq	%r12, (%rdi)
	movq	%r14, 8(%rdi)
	movb	%al, 16(%rdi)
	movb	%r9b, 17(%rdi)
.LBB29_231:
	addq	$344, %rsp
	popq	%rbx
	popq	%r12
	popq	%r13
	popq	%r14
	popq	%r15
	popq	%rbp
	retq
.Lfunc_end29:
	.section	.rdata$038,"dr"
	.p2align	2, 0x0
.LJTI29_0:
	.long	.LBB29_210-.LJTI29_0
	.long	.LBB29_223-.LJTI29_0
	.long	.LBB29_223-.LJTI29_0
	.long	.LBB29_223-.LJTI29_0
	.long	.LBB29_223-.LJTI29_0
	.long	.LBB29_223-.LJTI29_0
	.long	.LBB29_223-.LJTI29_0
	.long	.LBB29_223-.LJTI29_0
	.long	.LBB29_223-.LJTI29_0
	.long	.LBB29_223-.LJTI29_0
	.long	.LBB29_223-.LJTI29_0
	.long	.LBB29_223-.LJTI29_0
	.long	.LBB29_223-.LJTI29_0
	.long	.LBB29_221-.LJTI29_0
	.long	.LBB29_223-.LJTI29_0
	.long	.LBB29_223-.LJTI29_0
	.long	.LBB29_220-.LJTI29_0
	.long	.LBB29_223-.LJTI29_0
	.long	.LBB29_223-.LJTI29_0
	.long	.LBB29_223-.LJTI29_0
	.long	.LBB29_222-.LJTI29_0
.LJTI29_1:
	.long	.LBB29_114-.LJTI29_1
	.long	.LBB29_173-.LJTI29_1
	.long	.LBB29_173-.LJTI29_1
	.long	.LBB29_173-.LJTI29_1
	.long	.LBB29_173-.LJTI29_1
	.long	.LBB29_173-.LJTI29_1
	.long	.LBB29_173-.LJTI29_1
	.long	.LBB29_173-.LJTI29_1
	.long	.LBB29_173-.LJTI29_1
	.long	.LBB29_173-.LJTI29_1
	.long	.LBB29_173-.LJTI29_1
	.long	.LBB29_173-.LJTI29_1
	.long	.LBB29_173-.LJTI29_1
	.long	.LBB29_171-.LJTI29_1
	.long	.LBB29_173-.LJTI29_1
	.long	.LBB29_173-.LJTI29_1
	.long	.LBB29_170-.LJTI29_1
	.long	.LBB29_173-.LJTI29_1
	.long	.LBB29_173-.LJTI29_1
	.long	.LBB29_173-.LJTI29_1
	.long	.LBB29_172-.LJTI29_1
.LJTI29_2:
	.long	.LBB29_102-.LJTI29_2
	.long	.LBB29_184-.LJTI29_2
	.long	.LBB29_184-.LJTI29_2
	.long	.LBB29_184-.LJTI29_2
	.long	.LBB29_184-.LJTI29_2
	.long	.LBB29_184-.LJTI29_2
	.long	.LBB29_184-.LJTI29_2
	.long	.LBB29_184-.LJTI29_2
	.long	.LBB29_184-.LJTI29_2
	.long	.LBB29_184-.LJTI29_2
	.long	.LBB29_184-.LJTI29_2
	.long	.LBB29_184-.LJTI29_2
	.long	.LBB29_184-.LJTI29_2
	.long	.LBB29_182-.LJTI29_2
	.long	.LBB29_184-.LJTI29_2
	.long	.LBB29_184-.LJTI29_2
	.long	.LBB29_181-.LJTI29_2
	.long	.LBB29_184-.LJTI29_2
	.long	.LBB29_184-.LJTI29_2
	.long	.LBB29_184-.LJTI29_2
	.long	.LBB29_183-.LJTI29_2
.LJTI29_3:
	.long	.LBB29_148-.LJTI29_3
	.long	.LBB29_155-.LJTI29_3
	.long	.LBB29_155-.LJTI29_3
	.long	.LBB29_155-.LJTI29_3
	.long	.LBB29_155-.LJTI29_3
	.long	.LBB29_155-.LJTI29_3
	.long	.LBB29_155-.LJTI29_3
	.long	.LBB29_155-.LJTI29_3
	.long	.LBB29_155-.LJTI29_3
	.long	.LBB29_155-.LJTI29_3
	.long	.LBB29_155-.LJTI29_3
	.long	.LBB29_155-.LJTI29_3
	.long	.LBB29_155-.LJTI29_3
	.long	.LBB29_153-.LJTI29_3
	.long	.LBB29_155-.LJTI29_3
	.long	.LBB29_155-.LJTI29_3
	.long	.LBB29_152-.LJTI29_3
	.long	.LBB29_155-.LJTI29_3
	.long	.LBB29_155-.LJTI29_3
	.long	.LBB29_155-.LJTI29_3
	.long	.LBB29_154-.LJTI29_3

	.section	.text$039,"xr"
	.p2align	4
L_31:
	pushq	%r15
	pushq	%r14
	pushq	%r13
	pushq	%r12
	pushq	%rbx
	movq	%r8, %r13
	movq	%rcx, %rbx
	movq	%rdx, %r14
	movq	%rsi, %r15
	movq	%rdi, %r12
	addq	%r8, %rdx
	subq	%r8, %rcx
	callq	L_22
	addq	%r13, %rdx
	jmp	.LBB30_1
	.p2align	4
.LBB30_34:
	leal	67043328(%rcx), %r8d
	shrl	$10, %r8d
	addl	$-10240, %r8d
	andl	$1023, %ecx
	orl	$56320, %ecx
	movw	%cx, 2(%r14,%rdx)
	movl	$4, %edi
	movl	%r8d, %ecx
.LBB30_35:
	movw	%cx, (%r14,%rdx)
	addq	%rdi, %rdx
	addq	%rsi, %rax
.LBB30_1:
	cmpq	%r15, %rax
	jae	.LBB30_36
	movzbl	(%r12,%rax), %ecx
	testb	%cl, %cl
	js	.LBB30_4
	movl	$1, %esi
.LBB30_31:
	movq	%rbx, %rdi
	subq	%rdx, %rdi
	xorl	%r8d, %r8d
	cmpl	$65536, %ecx
	setae	%r8b
	leaq	2(,%r8,2), %r8
	cmpq	%r8, %rdi
	jb	.LBB30_36
	cmpl	$65535, %ecx
	ja	.LBB30_34
	movl	$2, %edi
	jmp	.LBB30_35
	.p2align	4
.LBB30_4:
	movq	%r15, %rdi
	subq	%rax, %rdi
	cmpq	$3, %rdi
	jb	.LBB30_9
	leal	31(%rcx), %esi
	cmpb	$11, %sil
	ja	.LBB30_10
	movzbl	1(%r12,%rax), %esi
	cmpb	$-65, %sil
	jg	.LBB30_10
	movzbl	2(%r12,%rax), %r8d
	cmpb	$-65, %r8b
	jg	.LBB30_10
	jmp	.LBB30_8
.LBB30_9:
	cmpq	$2, %rdi
	jne	.LBB30_36
.LBB30_10:
	movzbl	1(%r12,%rax), %esi
	movl	%ecx, %r8d
	shrb	$4, %r8b
	andb	$12, %r8b
	movl	%esi, %r9d
	shrb	$6, %r9b
	orb	%r8b, %r9b
	cmpb	$14, %r9b
	jne	.LBB30_36
	leal	31(%rcx), %r8d
	cmpb	$12, %r8b
	jae	.LBB30_12
.LBB30_25:
	cmpq	$2, %rdi
	je	.LBB30_36
	movzbl	2(%r12,%rax), %r8d
	cmpb	$-65, %r8b
	jg	.LBB30_36
	cmpb	$-17, %cl
	ja	.LBB30_28
.LBB30_8:
	shll	$12, %ecx
	shll	$6, %esi
	addl	%ecx, %esi
	leal	(%r8,%rsi), %ecx
	addl	$-925824, %ecx
	movl	$3, %esi
	jmp	.LBB30_31
.LBB30_12:
	leal	62(%rcx), %r8d
	cmpb	$30, %r8b
	jb	.LBB30_24
	movb	$-65, %r9b
	leal	-224(%rcx), %r10d
	cmpl	$20, %r10d
	ja	.LBB30_19
	leaq	.LJTI30_0(%rip), %r11
	movslq	(%r11,%r10,4), %r10
	addq	%r11, %r10
	jmpq	*%r10
.LBB30_15:
	movb	$-96, %r10b
	jmp	.LBB30_20
.LBB30_28:
	cmpq	$4, %rdi
	jb	.LBB30_36
	movzbl	3(%r12,%rax), %edi
	cmpb	$-65, %dil
	jg	.LBB30_36
	shll	$18, %ecx
	shll	$12, %esi
	addl	%ecx, %esi
	shll	$6, %r8d
	addl	%esi, %r8d
	leal	(%rdi,%r8), %ecx
	addl	$-63447168, %ecx
	movl	$4, %esi
	jmp	.LBB30_31
.LBB30_17:
	movb	$-112, %r10b
	jmp	.LBB30_20
.LBB30_16:
	movb	$-97, %r9b
	jmp	.LBB30_19
.LBB30_18:
	movb	$-113, %r9b
.LBB30_19:
	movb	$-128, %r10b
.LBB30_20:
	cmpb	$50, %r8b
	ja	.LBB30_36
	cmpb	%sil, %r10b
	ja	.LBB30_36
	cmpb	%r9b, %sil
	ja	.LBB30_36
	cmpb	$-33, %cl
	ja	.LBB30_25
.LBB30_24:
	shll	$6, %ecx
	addl	%esi, %ecx
	addl	$-12416, %ecx
	movl	$2, %esi
	jmp	.LBB30_31
.LBB30_36:
	popq	%rbx
	popq	%r12
	popq	%r13
	popq	%r14
	popq	%r15
	retq
.Lfunc_end30:
	.section	.rdata$040,"dr"
	.p2align	2, 0x0
.LJTI30_0:
	.long	.LBB30_15-.LJTI30_0
	.long	.LBB30_19-.LJTI30_0
	.long	.LBB30_19-.LJTI30_0
	.long	.LBB30_19-.LJTI30_0
	.long	.LBB30_19-.LJTI30_0
	.long	.LBB30_19-.LJTI30_0
	.long	.LBB30_19-.LJTI30_0
	.long	.LBB30_19-.LJTI30_0
	.long	.LBB30_19-.LJTI30_0
	.long	.LBB30_19-.LJTI30_0
	.long	.LBB30_19-.LJTI30_0
	.long	.LBB30_19-.LJTI30_0
	.long	.LBB30_19-.LJTI30_0
	.long	.LBB30_16-.LJTI30_0
	.long	.LBB30_19-.LJTI30_0
	.long	.LBB30_19-.LJTI30_0
	.long	.LBB30_17-.LJTI30_0
	.long	.LBB30_19-.LJTI30_0
	.long	.LBB30_19-.LJTI30_0
	.long	.LBB30_19-.LJTI30_0
	.long	.LBB30_18-.LJTI30_0

	.section	.rdata$004,"dr"
	.p2align	4, 0x0
.LCPI31_0:
	.short	65408
	.short	65408
	.short	65408
	.short	65408
	.short	65408
	.short	65408
	.short	65408
	.short	65408
.LCPI31_1:
	.zero	16,248
.LCPI31_2:
	.zero	16,216
.LCPI31_3:
	.short	127
	.short	127
	.short	127
	.short	127
	.short	127
	.short	127
	.short	127
	.short	127
	.section	.text$041,"xr"
	.p2align	4
L_33:
	pushq	%rbp
	movq	%rsp, %rbp
	pushq	%r14
	pushq	%rbx
	andq	$-64, %rsp
	subq	$128, %rsp
	movq	%rsi, %rbx
	movq	%rdi, %rsi
	cmpq	$64, %rbx
	jb	.LBB31_1
	xorl	%eax, %eax
	movq	%rbx, %rdx
	xorl	%r14d, %r14d
	jmp	.LBB31_3
	.p2align	4
.LBB31_5:
	movdqa	%xmm1, %xmm4
	psrlw	$8, %xmm4
	movdqa	%xmm0, %xmm5
	psrlw	$8, %xmm5
	packuswb	%xmm5, %xmm4
	movdqa	%xmm3, %xmm5
	psrlw	$8, %xmm5
	movdqa	%xmm2, %xmm6
	psrlw	$8, %xmm6
	packuswb	%xmm6, %xmm5
	movdqa	.LCPI31_1(%rip), %xmm6
	pand	%xmm6, %xmm4
	pand	%xmm6, %xmm5
	pxor	%xmm6, %xmm6
	movdqa	%xmm5, %xmm7
	pcmpeqb	%xmm6, %xmm7
	pmovmskb	%xmm7, %ecx
	pcmpeqb	%xmm4, %xmm6
	pmovmskb	%xmm6, %edi
	shll	$16, %edi
	orl	%ecx, %edi
	xorl	%ecx, %ecx
	popcntl	%edi, %ecx
	movdqa	.LCPI31_2(%rip), %xmm6
	pcmpeqb	%xmm6, %xmm5
	pmovmskb	%xmm5, %edi
	pcmpeqb	%xmm6, %xmm4
	pmovmskb	%xmm4, %r8d
	shll	$16, %r8d
	orl	%edi, %r8d
	xorl	%edi, %edi
	popcntl	%r8d, %edi
	movdqa	.LCPI31_3(%rip), %xmm4
	movdqa	%xmm3, %xmm5
	pminuw	%xmm4, %xmm5
	pcmpeqw	%xmm3, %xmm5
	movdqa	%xmm2, %xmm3
	pminuw	%xmm4, %xmm3
	pcmpeqw	%xmm2, %xmm3
	packsswb	%xmm3, %xmm5
	pmovmskb	%xmm5, %r8d
	movdqa	%xmm1, %xmm2
	pminuw	%xmm4, %xmm2
	pcmpeqw	%xmm1, %xmm2
	pminuw	%xmm0, %xmm4
	pcmpeqw	%xmm0, %xmm4
	packsswb	%xmm4, %xmm2
	pmovmskb	%xmm2, %r9d
	shll	$16, %r9d
	orl	%r8d, %r9d
	xorl	%r8d, %r8d
	popcntl	%r9d, %r8d
	addl	%edi, %r8d
	addl	%ecx, %r8d
	movl	$96, %ecx
	subq	%r8, %rcx
.LBB31_6:
	addq	%rcx, %r14
	addq	$64, %rax
	addq	$-64, %rdx
	cmpq	$63, %rdx
	jbe	.LBB31_7
.LBB31_3:
	movdqu	(%rsi,%rax), %xmm3
	movdqu	16(%rsi,%rax), %xmm2
	movdqu	32(%rsi,%rax), %xmm1
	movdqu	48(%rsi,%rax), %xmm0
	movdqa	%xmm2, %xmm4
	por	%xmm0, %xmm4
	movdqa	%xmm3, %xmm5
	por	%xmm1, %xmm5
	por	%xmm4, %xmm5
	ptest	.LCPI31_0(%rip), %xmm5
	jne	.LBB31_5
	movl	$32, %ecx
	jmp	.LBB31_6
.LBB31_1:
	xorl	%r14d, %r14d
	xorl	%eax, %eax
	movq	%rbx, %rdx
.LBB31_7:
	addq	%rax, %rsi
	pxor	%xmm0, %xmm0
	movdqa	%xmm0, 48(%rsp)
	movdqa	%xmm0, 32(%rsp)
	movdqa	%xmm0, 16(%rsp)
	movdqa	%xmm0, (%rsp)
	movq	%rsp, %rdi
	callq	sysv_memcpy
	movdqa	16(%rsp), %xmm0
	movdqa	(%rsp), %xmm1
	por	48(%rsp), %xmm0
	por	32(%rsp), %xmm1
	por	%xmm0, %xmm1
	ptest	.LCPI31_0(%rip), %xmm1
	je	.LBB31_8
	movdqa	(%rsp), %xmm0
	movdqa	32(%rsp), %xmm3
	movdqa	48(%rsp), %xmm2
	movdqa	16(%rsp), %xmm1
	movdqa	.LCPI31_3(%rip), %xmm4
	movdqa	%xmm3, %xmm5
	pminuw	%xmm4, %xmm5
	pcmpeqw	%xmm3, %xmm5
	movdqa	%xmm3, %xmm6
	psrlw	$8, %xmm6
	movdqa	%xmm0, %xmm3
	pminuw	%xmm4, %xmm3
	movdqa	%xmm1, %xmm7
	pminuw	%xmm4, %xmm7
	pminuw	%xmm2, %xmm4
	pcmpeqw	%xmm2, %xmm4
	psrlw	$8, %xmm2
	packuswb	%xmm2, %xmm6
	pcmpeqw	%xmm0, %xmm3
	psrlw	$8, %xmm0
	pcmpeqw	%xmm1, %xmm7
	psrlw	$8, %xmm1
	packuswb	%xmm1, %xmm0
	movdqa	.LCPI31_1(%rip), %xmm1
	pand	%xmm1, %xmm6
	pand	%xmm1, %xmm0
	movdqa	%xmm0, %xmm1
	pxor	%xmm2, %xmm2
	pcmpeqb	%xmm2, %xmm1
	pmovmskb	%xmm1, %eax
	pcmpeqb	%xmm6, %xmm2
	pmovmskb	%xmm2, %ecx
	shll	$16, %ecx
	orl	%eax, %ecx
	xorl	%eax, %eax
	popcntl	%ecx, %eax
	movdqa	.LCPI31_2(%rip), %xmm1
	pcmpeqb	%xmm1, %xmm0
	pmovmskb	%xmm0, %ecx
	pcmpeqb	%xmm1, %xmm6
	pmovmskb	%xmm6, %edx
	shll	$16, %edx
	orl	%ecx, %edx
	xorl	%ecx, %ecx
	popcntl	%edx, %ecx
	packsswb	%xmm7, %xmm3
	pmovmskb	%xmm3, %edx
	packsswb	%xmm4, %xmm5
	pmovmskb	%xmm5, %esi
	shll	$16, %esi
	orl	%edx, %esi
	xorl	%edx, %edx
	popcntl	%esi, %edx
	addl	%ecx, %edx
	addl	%eax, %edx
	movl	$96, %eax
	subq	%rdx, %rax
	jmp	.LBB31_10
.LBB31_8:
	movl	$32, %eax
.LBB31_10:
	addq	%rax, %r14
	shrl	%ebx
	orq	$-32, %rbx
	addq	%r14, %rbx
	movq	%rbx, %rax
	leaq	-16(%rbp), %rsp
	popq	%rbx
	popq	%r14
	popq	%rbp
	retq
.Lfunc_end31:

	.section	.rdata$004,"dr"
	.p2align	4, 0x0
.LCPI32_0:
	.zero	16,192
.LCPI32_1:
	.zero	16,191
.LCPI32_2:
	.zero	16,224
.LCPI32_3:
	.zero	16,15
.LCPI32_4:
	.zero	16,220
.LCPI32_5:
	.zero	16,252
.LCPI32_6:
	.zero	16,3
.LCPI32_7:
	.zero	16,63
.LCPI32_8:
	.zero	16,232
.LCPI32_9:
	.zero	16,239
.LCPI32_10:
	.zero	16,127
.LCPI32_11:
	.zero	16,223
	.section	.text$042,"xr"
	.p2align	4
L_32:
	pushq	%rbp
	pushq	%r15
	pushq	%r14
	pushq	%r13
	pushq	%r12
	pushq	%rbx
	pushq	%rax
	movq	%r9, %rbx
	movq	%r8, %r13
	movq	%rcx, (%rsp)
	movq	%rdx, %r14
	movq	%rdi, %r12
	cmpq	$64, %rsi
	movl	$64, %ebp
	cmovbq	%rsi, %rbp
	jae	.LBB32_2
	movq	%r12, %rdi
	movq	%rbp, %rsi
	callq	L_18
	movq	%rax, %r15
	jmp	.LBB32_4
.LBB32_2:
	movl	$63, %esi
	movq	%r12, %rdi
	callq	L_18
	movq	%rax, %r15
	addq	$4, %rax
	cmpq	$64, %rax
	jb	.LBB32_4
	leaq	(%r12,%r15), %rdi
	subq	%r15, %rbp
	movq	%rbp, %rsi
	callq	L_18
	addq	%rax, %r15
.LBB32_4:
	cmpq	$7, %r15
	ja	.LBB32_16
	testq	%r15, %r15
	je	.LBB32_21
	xorl	%ebp, %ebp
	movq	%r15, %rax
	jmp	.LBB32_7
.LBB32_16:
	cmpq	$16, %r15
	ja	.LBB32_19
	movq	-8(%r12,%r15), %xmm0
	movq	(%r12), %xmm1
	punpcklqdq	%xmm0, %xmm1
	movq	%r15, %rax
	shlq	$4, %rax
	leaq	.Lstatic.11(%rip), %rcx
	movdqu	-128(%rax,%rcx), %xmm0
	pshufb	%xmm0, %xmm1
	pmovmskb	%xmm1, %eax
	testl	%eax, %eax
	je	.LBB32_24
	leaq	.Lstatic.12(%rip), %rax
	subq	%r15, %rax
	movdqu	16(%rax), %xmm0
	pmaxub	%xmm0, %xmm1
	movdqa	%xmm1, %xmm6
	pslldq	$1, %xmm6
	movdqa	%xmm1, %xmm5
	pslldq	$2, %xmm5
	movdqa	.LCPI32_0(%rip), %xmm4
	movdqa	%xmm4, %xmm3
	movdqa	%xmm1, %xmm0
	pblendvb	%xmm0, %xmm6, %xmm3
	movdqa	.LCPI32_1(%rip), %xmm2
	movdqa	.LCPI32_2(%rip), %xmm0
	pmaxub	%xmm5, %xmm0
	movdqa	%xmm3, %xmm7
	psrlw	$2, %xmm7
	movdqa	.LCPI32_3(%rip), %xmm8
	pand	%xmm8, %xmm7
	psllw	$4, %xmm0
	pandn	%xmm0, %xmm8
	por	%xmm7, %xmm8
	movdqa	%xmm3, %xmm0
	pmaxub	%xmm5, %xmm0
	movdqa	%xmm0, %xmm7
	pminub	%xmm2, %xmm7
	pcmpeqb	%xmm0, %xmm7
	pand	.LCPI32_4(%rip), %xmm7
	por	%xmm8, %xmm7
	movdqa	.LCPI32_11(%rip), %xmm8
	pminub	%xmm6, %xmm8
	pcmpeqb	%xmm6, %xmm8
	movdqa	%xmm6, %xmm0
	psllw	$2, %xmm0
	pand	.LCPI32_5(%rip), %xmm0
	movdqa	%xmm1, %xmm6
	psrlw	$4, %xmm6
	pand	.LCPI32_6(%rip), %xmm6
	movdqa	.LCPI32_7(%rip), %xmm9
	pminub	%xmm0, %xmm9
	pcmpeqb	%xmm0, %xmm9
	paddb	%xmm5, %xmm9
	paddb	.LCPI32_8(%rip), %xmm9
	por	%xmm0, %xmm6
	paddb	%xmm4, %xmm6
	movdqa	.LCPI32_9(%rip), %xmm0
	pminub	%xmm5, %xmm0
	pcmpeqb	%xmm5, %xmm0
	pblendvb	%xmm0, %xmm7, %xmm9
	movdqa	.LCPI32_10(%rip), %xmm5
	pand	%xmm1, %xmm5
	psllw	$6, %xmm3
	pand	%xmm4, %xmm3
	paddb	%xmm5, %xmm3
	pblendvb	%xmm0, %xmm3, %xmm6
	movdqa	%xmm6, %xmm0
	punpckhbw	%xmm9, %xmm0
	punpcklbw	%xmm9, %xmm6
	pminub	%xmm1, %xmm2
	pcmpeqb	%xmm1, %xmm2
	pand	%xmm2, %xmm8
	pmovmskb	%xmm8, %eax
	movzbl	%al, %ecx
	popcntl	%ecx, %edx
	shll	$4, %ecx
	leaq	.Lstatic.13(%rip), %rsi
	movdqu	(%rcx,%rsi), %xmm1
	pshufb	%xmm1, %xmm6
	movdqu	%xmm6, (%r14)
	shrl	$8, %eax
	popcntl	%eax, %ebp
	shll	$4, %eax
	movdqu	(%rax,%rsi), %xmm1
	pshufb	%xmm1, %xmm0
	movdqu	%xmm0, (%r14,%rdx,2)
	addl	%edx, %ebp
	addl	%ebp, %ebp
	jmp	.LBB32_35
.LBB32_15:
	addl	$67043328, %ecx
	shrl	$10, %ecx
	addl	$-10240, %ecx
	movw	%cx, (%rdi)
	orl	$56320, %esi
	movw	%si, 2(%rdi)
	movl	$4, %ecx
	addq	%rcx, %rbp
	testq	%rax, %rax
	je	.LBB32_35
	.p2align	4
.LBB32_7:
	movzbl	(%r12), %ecx
	movl	$1, %esi
	testb	%cl, %cl
	jns	.LBB32_12
	movzbl	1(%r12), %edx
	andl	$63, %edx
	cmpb	$-33, %cl
	ja	.LBB32_10
	andl	$31, %ecx
	shll	$6, %ecx
	orl	%edx, %ecx
	movl	$2, %esi
	jmp	.LBB32_12
.LBB32_10:
	movzbl	2(%r12), %esi
	andl	$63, %esi
	cmpb	$-17, %cl
	ja	.LBB32_14
	shll	$12, %ecx
	movzwl	%cx, %ecx
	shll	$6, %edx
	orl	%ecx, %edx
	orl	%esi, %edx
	movl	$3, %esi
	movl	%edx, %ecx
	.p2align	4
.LBB32_12:
	addq	%rsi, %r12
	subq	%rsi, %rax
	leaq	(%r14,%rbp), %rdi
.LBB32_13:
	movw	%cx, (%rdi)
	movl	$2, %ecx
	addq	%rcx, %rbp
	testq	%rax, %rax
	jne	.LBB32_7
	jmp	.LBB32_35
.LBB32_14:
	movzbl	3(%r12), %edi
	andl	$63, %edi
	andl	$7, %ecx
	shll	$18, %ecx
	shll	$12, %edx
	orl	%ecx, %edx
	shll	$6, %esi
	orl	%edi, %esi
	leal	(%rsi,%rdx), %ecx
	addq	$4, %r12
	addq	$-4, %rax
	leaq	(%r14,%rbp), %rdi
	cmpl	$65535, %edx
	jbe	.LBB32_13
	jmp	.LBB32_15
.LBB32_19:
	leaq	16(,%r15,2), %rcx
	movq	%rcx, %rsi
	shrq	%rsi
	cmpq	%r15, %rsi
	cmovaeq	%r15, %rsi
	cmpq	$32, %rcx
	jb	.LBB32_20
	movdqu	(%r12), %xmm1
	pmovmskb	%xmm1, %eax
	testl	%eax, %eax
	je	.LBB32_25
.LBB32_20:
	xorl	%r8d, %r8d
.LBB32_29:
	leaq	(%r8,%r8), %rbp
	movq	%r15, %rax
	subq	%r8, %rax
	je	.LBB32_35
	cmpq	$191, %rax
	ja	.LBB32_32
	movq	%r12, %rdi
	movq	%r15, %rsi
	movq	%r14, %rdx
	jmp	.LBB32_34
.LBB32_21:
	movq	(%rsp), %rdi
	addq	%rbx, %rdi
	xorl	%ebp, %ebp
	xorl	%r15d, %r15d
	jmp	.LBB32_40
.LBB32_24:
	leaq	(%r15,%r15), %rbp
	pxor	%xmm0, %xmm0
	pmovzxbw	%xmm1, %xmm2
	punpckhbw	%xmm0, %xmm1
	movdqu	%xmm2, (%r14)
	movdqu	%xmm1, 16(%r14)
	jmp	.LBB32_35
.LBB32_32:
	movq	%r12, %rdi
	movq	%r15, %rsi
	movq	%r14, %rdx
	movq	%rbp, %r9
	callq	L_26
	movq	%rdx, %rbp
	movq	%r15, %rcx
	subq	%rax, %rcx
	cmpq	$191, %rcx
	ja	.LBB32_35
	movq	%r12, %rdi
	movq	%r15, %rsi
	movq	%r14, %rdx
	leaq	16(,%r15,2), %rcx
	movq	%rax, %r8
.LBB32_34:
	movq	%rbp, %r9
	callq	L_27
	movq	%rdx, %rbp
.LBB32_35:
	subq	%rbx, %r13
	cmpq	%r13, %rbp
	jbe	.LBB32_37
	movq	%r13, %rax
	andq	$-2, %rax
	orq	$1, %r13
	movzbl	(%r14,%r13), %ecx
	andb	$-4, %cl
	leaq	-2(%rax), %rbp
	cmpb	$-36, %cl
	cmovneq	%rax, %rbp
	movq	%r14, %rdi
	movq	%rbp, %rsi
	callq	L_33
	movq	%rax, %r15
.LBB32_37:
	movq	(%rsp), %r8
	leaq	(%r8,%rbx), %rdi
	movq	%rdi, %rax
	subq	%r14, %rax
	cmpq	%rbp, %rax
	jae	.LBB32_40
	cmpq	$4, %rbp
	jb	.LBB32_39
	leaq	(%r8,%rbx), %rax
	subq	%r14, %rax
	cmpq	$32, %rax
	jae	.LBB32_43
.LBB32_39:
	xorl	%eax, %eax
.LBB32_52:
	movq	%rbp, %rdx
	movq	%rax, %rcx
	andq	$3, %rdx
	je	.LBB32_55
	movq	%rax, %rcx
	.p2align	4
.LBB32_54:
	movzbl	(%r14,%rcx), %esi
	movb	%sil, (%rdi,%rcx)
	incq	%rcx
	decq	%rdx
	jne	.LBB32_54
.LBB32_55:
	subq	%rbp, %rax
	cmpq	$-4, %rax
	ja	.LBB32_58
	leaq	(%rbx,%r8), %rax
	addq	$3, %rax
	.p2align	4
.LBB32_57:
	movzbl	(%r14,%rcx), %edx
	movb	%dl, -3(%rax,%rcx)
	movzbl	1(%r14,%rcx), %edx
	movb	%dl, -2(%rax,%rcx)
	movzbl	2(%r14,%rcx), %edx
	movb	%dl, -1(%rax,%rcx)
	movzbl	3(%r14,%rcx), %edx
	movb	%dl, (%rax,%rcx)
	addq	$4, %rcx
	cmpq	%rcx, %rbp
	jne	.LBB32_57
	jmp	.LBB32_58
.LBB32_40:
	movq	%r14, %rsi
	movq	%rbp, %rdx
	callq	sysv_memmove
.LBB32_58:
	addq	%rbx, %rbp
	movq	%r15, %rax
	movq	%rbp, %rdx
	addq	$8, %rsp
	popq	%rbx
	popq	%r12
	popq	%r13
	popq	%r14
	popq	%r15
	popq	%rbp
	retq
.LBB32_43:
	cmpq	$32, %rbp
	jae	.LBB32_45
	xorl	%eax, %eax
	jmp	.LBB32_49
.LBB32_45:
	movq	%rbp, %rax
	andq	$-32, %rax
	leaq	(%rbx,%r8), %rcx
	addq	$16, %rcx
	xorl	%edx, %edx
	.p2align	4
.LBB32_46:
	movdqu	(%r14,%rdx), %xmm0
	movdqu	16(%r14,%rdx), %xmm1
	movdqu	%xmm0, -16(%rcx,%rdx)
	movdqu	%xmm1, (%rcx,%rdx)
	addq	$32, %rdx
	cmpq	%rdx, %rax
	jne	.LBB32_46
	cmpq	%rax, %rbp
	je	.LBB32_58
	testb	$28, %bpl
	je	.LBB32_52
.LBB32_49:
	movq	%rax, %rcx
	movq	%rbp, %rax
	andq	$-4, %rax
	.p2align	4
.LBB32_50:
	movl	(%r14,%rcx), %edx
	movl	%edx, (%rdi,%rcx)
	addq	$4, %rcx
	cmpq	%rcx, %rax
	jne	.LBB32_50
	cmpq	%rax, %rbp
	je	.LBB32_58
	jmp	.LBB32_52
.LBB32_25:
	cmpq	$31, %rsi
	ja	.LBB32_28
	pxor	%xmm0, %xmm0
	pmovzxbw	%xmm1, %xmm2
	punpckhbw	%xmm0, %xmm1
	movdqu	%xmm2, (%r14)
	movdqu	%xmm1, 16(%r14)
	movdqu	-16(%rsi,%r12), %xmm1
	pmovmskb	%xmm1, %eax
	movl	$16, %r8d
	testl	%eax, %eax
	jne	.LBB32_29
	pmovzxbw	%xmm1, %xmm2
	punpckhbw	%xmm0, %xmm1
	movdqu	%xmm2, -32(%r14,%rsi,2)
	movdqu	%xmm1, -16(%r14,%rsi,2)
	movq	%rsi, %r8
	jmp	.LBB32_29
.LBB32_28:
	movq	%r12, %rdi
	movq	%r14, %rdx
	movq	%rcx, %rbp
	callq	L_25
	movq	%rbp, %rcx
	movq	%rax, %r8
	jmp	.LBB32_29
.Lfunc_end32:

	.section	.rdata$004,"dr"
	.p2align	4, 0x0
.LCPI33_0:
	.zero	16,127
	.section	.text$043,"xr"
	.p2align	4
L_24:
	pushq	%rbp
	pushq	%r15
	pushq	%r14
	pushq	%r12
	pushq	%rbx
	movq	%rdx, %r8
	xorl	%eax, %eax
	xorl	%edx, %edx
	xorl	%r9d, %r9d
	.p2align	4
.LBB33_4:
	movq	%rsi, %r10
	subq	%rax, %r10
	cmpq	$4, %r10
	jb	.LBB33_41
	movq	%rcx, %r11
	subq	%rdx, %r11
	cmpq	$4, %r11
	jb	.LBB33_41
	cmpq	$32, %r11
	jb	.LBB33_10
	cmpq	$15, %r10
	jbe	.LBB33_10
	movdqu	(%rdi,%rax), %xmm0
	pmovmskb	%xmm0, %r10d
	orl	$65536, %r10d
	rep		bsfl	%r10d, %r10d
	cmpw	$4, %r10w
	jae	.LBB33_15
	movd	%xmm0, %r10d
	testb	%r10b, %r10b
	jns	.LBB33_1
.LBB33_11:
	cmpb	$-31, %r10b
	jae	.LBB33_17
	movzbl	1(%rdi,%rax), %r11d
	movl	%r10d, %ebx
	shrb	$4, %bl
	andb	$12, %bl
	movl	%r11d, %ebp
	shrb	$6, %bpl
	orb	%bl, %bpl
	cmpb	$14, %bpl
	jne	.LBB33_26
	leal	62(%r10), %ebp
	cmpb	$30, %bpl
	jae	.LBB33_23
.LBB33_14:
	movzbl	%r10b, %r10d
	shll	$6, %r10d
	movzbl	%r11b, %r11d
	leal	(%r10,%r11), %r14d
	addl	$-12416, %r14d
	movl	$2, %ebx
	jmp	.LBB33_3
	.p2align	4
.LBB33_10:
	movzbl	(%rdi,%rax), %r10d
	testb	%r10b, %r10b
	js	.LBB33_11
.LBB33_1:
	movzbl	%r10b, %r14d
	jmp	.LBB33_2
	.p2align	4
.LBB33_15:
	movzwl	%r10w, %ebx
	pand	.LCPI33_0(%rip), %xmm0
	pxor	%xmm1, %xmm1
	pmovzxbw	%xmm0, %xmm2
	punpckhbw	%xmm1, %xmm0
	movdqu	%xmm2, (%r8,%rdx)
	movdqu	%xmm0, 16(%r8,%rdx)
	movl	%ebx, %r11d
	addl	%r11d, %r11d
	movl	$2, %r10d
.LBB33_16:
	addq	%r11, %rdx
	addq	%r9, %r10
	addq	%rbx, %rax
	movq	%r10, %r9
	cmpq	$16, %r10
	jb	.LBB33_4
	jmp	.LBB33_41
.LBB33_17:
	movzbl	1(%rdi,%rax), %r11d
	cmpb	$-20, %r10b
	ja	.LBB33_21
	cmpb	$-65, %r11b
	jg	.LBB33_26
	movzbl	2(%rdi,%rax), %ebx
	cmpb	$-65, %bl
	jg	.LBB33_34
	movzbl	%r11b, %r11d
	movzbl	%r10b, %r10d
	shll	$12, %r10d
	shll	$6, %r11d
	addl	%r10d, %r11d
	leal	(%rbx,%r11), %r14d
	addl	$-925824, %r14d
	jmp	.LBB33_37
.LBB33_21:
	cmpb	$-65, %r11b
	jg	.LBB33_26
	leal	62(%r10), %ebp
.LBB33_23:
	movzbl	%r10b, %ebx
	movb	$-65, %r15b
	addl	$-224, %ebx
	cmpl	$20, %ebx
	ja	.LBB33_30
	leaq	.LJTI33_0(%rip), %r14
	movslq	(%r14,%rbx,4), %rbx
	addq	%r14, %rbx
	jmpq	*%rbx
.LBB33_25:
	movb	$-96, %r12b
	jmp	.LBB33_31
.LBB33_26:
	movl	$65533, %r14d
.LBB33_2:
	movl	$1, %ebx
.LBB33_3:
	movw	%r14w, (%r8,%rdx)
	addq	$2, %rdx
	incq	%r9
	xorl	%r10d, %r10d
	cmpl	$65533, %r14d
	cmovneq	%r9, %r10
	addq	%rbx, %rax
	movq	%r10, %r9
	cmpq	$16, %r10
	jb	.LBB33_4
	jmp	.LBB33_41
.LBB33_27:
	movb	$-112, %r12b
	jmp	.LBB33_31
.LBB33_28:
	movb	$-97, %r15b
	jmp	.LBB33_30
.LBB33_29:
	movb	$-113, %r15b
.LBB33_30:
	movb	$-128, %r12b
.LBB33_31:
	movl	$65533, %r14d
	movl	$1, %ebx
	cmpb	$50, %bpl
	ja	.LBB33_3
	cmpb	%r11b, %r12b
	setbe	%bpl
	cmpb	%r15b, %r11b
	setbe	%r15b
	andb	%bpl, %r15b
	cmpb	$1, %r15b
	jne	.LBB33_3
	cmpb	$-33, %r10b
	jbe	.LBB33_14
.LBB33_34:
	movzbl	2(%rdi,%rax), %r15d
	movl	$65533, %r14d
	movl	$2, %ebx
	cmpb	$-65, %r15b
	jg	.LBB33_3
	cmpb	$-17, %r10b
	ja	.LBB33_38
	movzbl	%r10b, %r10d
	shll	$12, %r10d
	movzbl	%r11b, %r11d
	shll	$6, %r11d
	addl	%r10d, %r11d
	leal	(%r15,%r11), %r14d
	addl	$-925824, %r14d
.LBB33_37:
	movl	$3, %ebx
	jmp	.LBB33_3
.LBB33_38:
	movzbl	3(%rdi,%rax), %r12d
	movl	$3, %ebx
	cmpb	$-65, %r12b
	jg	.LBB33_3
	movzbl	%r10b, %r10d
	shll	$18, %r10d
	movzbl	%r11b, %r11d
	shll	$12, %r11d
	addl	%r10d, %r11d
	shll	$6, %r15d
	addl	%r11d, %r15d
	leal	(%r12,%r15), %r14d
	addl	$-63447168, %r14d
	movl	$4, %ebx
	cmpl	$65536, %r14d
	jb	.LBB33_3
	leal	67043328(%r14), %r10d
	shrl	$10, %r10d
	addl	$-10240, %r10d
	movw	%r10w, (%r8,%rdx)
	andl	$1023, %r14d
	orl	$56320, %r14d
	movw	%r14w, 2(%r8,%rdx)
	movl	$1, %r10d
	movl	$4, %r11d
	jmp	.LBB33_16
.LBB33_41:
	popq	%rbx
	popq	%r12
	popq	%r14
	popq	%r15
	popq	%rbp
	retq
.Lfunc_end33:
	.section	.rdata$044,"dr"
	.p2align	2, 0x0
.LJTI33_0:
	.long	.LBB33_25-.LJTI33_0
	.long	.LBB33_30-.LJTI33_0
	.long	.LBB33_30-.LJTI33_0
	.long	.LBB33_30-.LJTI33_0
	.long	.LBB33_30-.LJTI33_0
	.long	.LBB33_30-.LJTI33_0
	.long	.LBB33_30-.LJTI33_0
	.long	.LBB33_30-.LJTI33_0
	.long	.LBB33_30-.LJTI33_0
	.long	.LBB33_30-.LJTI33_0
	.long	.LBB33_30-.LJTI33_0
	.long	.LBB33_30-.LJTI33_0
	.long	.LBB33_30-.LJTI33_0
	.long	.LBB33_28-.LJTI33_0
	.long	.LBB33_30-.LJTI33_0
	.long	.LBB33_30-.LJTI33_0
	.long	.LBB33_27-.LJTI33_0
	.long	.LBB33_30-.LJTI33_0
	.long	.LBB33_30-.LJTI33_0
	.long	.LBB33_30-.LJTI33_0
	.long	.LBB33_29-.LJTI33_0

	.section	.rdata$004,"dr"
	.p2align	4, 0x0
.LCPI34_0:
	.byte	116
	.byte	104
	.byte	105
	.byte	115
	.byte	32
	.byte	109
	.byte	97
	.byte	99
	.byte	104
	.byte	105
	.byte	110
	.byte	101
	.byte	32
	.byte	108
	.byte	97
	.byte	99
.LCPI34_1:
	.byte	107
	.byte	115
	.byte	32
	.byte	97
	.byte	32
	.byte	102
	.byte	101
	.byte	97
	.byte	116
	.byte	117
	.byte	114
	.byte	101
	.byte	32
	.byte	111
	.byte	102
	.byte	32
.LCPI34_2:
	.byte	120
	.byte	56
	.byte	54
	.byte	45
	.byte	54
	.byte	52
	.byte	45
	.byte	118
	.byte	50
	.byte	44
	.byte	32
	.byte	119
	.byte	104
	.byte	105
	.byte	99
	.byte	104
.LCPI34_3:
	.byte	32
	.byte	116
	.byte	104
	.byte	105
	.byte	115
	.byte	32
	.byte	112
	.byte	114
	.byte	111
	.byte	103
	.byte	114
	.byte	97
	.byte	109
	.byte	32
	.byte	119
	.byte	97
.LCPI34_4:
	.byte	115
	.byte	32
	.byte	98
	.byte	117
	.byte	105
	.byte	108
	.byte	116
	.byte	32
	.byte	102
	.byte	111
	.byte	114
	.byte	58
	.byte	32
	.byte	114
	.byte	117
	.byte	110
.LCPI34_5:
	.byte	32
	.byte	105
	.byte	116
	.byte	32
	.byte	111
	.byte	110
	.byte	32
	.byte	97
	.byte	110
	.byte	111
	.byte	116
	.byte	104
	.byte	101
	.byte	114
	.byte	32
	.byte	109
.LCPI34_6:
	.byte	97
	.byte	99
	.byte	104
	.byte	105
	.byte	110
	.byte	101
	.byte	44
	.byte	32
	.byte	111
	.byte	114
	.byte	32
	.byte	98
	.byte	117
	.byte	105
	.byte	108
	.byte	100
.LCPI34_7:
	.byte	32
	.byte	105
	.byte	116
	.byte	32
	.byte	119
	.byte	105
	.byte	116
	.byte	104
	.byte	32
	.byte	45
	.byte	45
	.byte	99
	.byte	112
	.byte	117
	.byte	32
	.byte	120
	.section	.text$045,"xr"
	.globl	proved_main_v2
	.p2align	4
proved_main_v2:
	pushq	%rbp
	movq	%rsp, %rbp
	pushq	%rbx
	pushq	%rax
	movl	$1, %esi
	movl	$13, %edi
	callq	__sysv_signal
	xorl	%edi, %edi
	callq	__x86_get_cpuid_feature_leaf
	movl	24(%rax), %ebx
	movl	$2, %edi
	callq	__x86_get_cpuid_feature_leaf
	notl	%ebx
	testl	$9970177, %ebx
	jne	.LBB34_2
	movl	24(%rax), %eax
	andl	$1, %eax
	je	.LBB34_2
	leaq	-8(%rbp), %rsp
	popq	%rbx
	popq	%rbp
	jmp	L_0
.LBB34_2:
	movq	%rsp, %rsi
	subq	$144, %rsi
	cmpq	%rsp, %rsi
	jge	.LBB34_5
.LBB34_4:
	xorq	$0, (%rsp)
	subq	$3072, %rsp
	cmpq	%rsp, %rsi
	jl	.LBB34_4
.LBB34_5:
	movq	%rsi, %rsp
	movaps	.LCPI34_0(%rip), %xmm0
	movaps	%xmm0, (%rsi)
	movaps	.LCPI34_1(%rip), %xmm0
	movaps	%xmm0, 16(%rsi)
	movaps	.LCPI34_2(%rip), %xmm0
	movaps	%xmm0, 32(%rsi)
	movaps	.LCPI34_3(%rip), %xmm0
	movaps	%xmm0, 48(%rsi)
	movaps	.LCPI34_4(%rip), %xmm0
	movaps	%xmm0, 64(%rsi)
	movaps	.LCPI34_5(%rip), %xmm0
	movaps	%xmm0, 80(%rsi)
	movaps	.LCPI34_6(%rip), %xmm0
	movaps	%xmm0, 96(%rsi)
	movaps	.LCPI34_7(%rip), %xmm0
	movaps	%xmm0, 112(%rsi)
	movl	$908932664, 128(%rsi)
	movw	$2612, 132(%rsi)
	movl	$134, %edx
	movl	$2, %edi
	callq	__write
	movl	$127, %eax
	leaq	-8(%rbp), %rsp
	popq	%rbx
	popq	%rbp
	retq
.Lfunc_end34:

	.section	.rdata$046,"dr"
.Lstatic.11:
	.ascii	"\000\001\002\003\004\005\006\007\000\000\000\000\000\000\000\000\000\001\002\003\004\005\006\007\017\000\000\000\000\000\000\000\000\001\002\003\004\005\006\007\016\017\000\000\000\000\000\000\000\001\002\003\004\005\006\007\r\016\017\000\000\000\000\000\000\001\002\003\004\005\006\007\f\r\016\017\000\000\000\000\000\001\002\003\004\005\006\007\013\f\r\016\017\000\000\000\000\001\002\003\004\005\006\007\n\013\f\r\016\017\000\000\000\001\002\003\004\005\006\007\t\n\013\f\r\016\017\000\000\001\002\003\004\005\006\007\b\t\n\013\f\r\016\017"

	.section	.rdata$047,"dr"
.Lstatic.12:
	.ascii	"\000\000\000\000\000\000\000\000\000\000\000\000\000\000\000\000\377\377\377\377\377\377\377\377\377\377\377\377\377\377\377\377"

	.section	.rdata$048,"dr"
.Lstatic.13:
	.ascii	"\000\000\000\000\000\000\000\000\000\000\000\000\000\000\000\000\000\001\000\000\000\000\000\000\000\000\000\000\000\000\000\000\002\003\000\000\000\000\000\000\000\000\000\000\000\000\000\000\000\001\002\003\000\000\000\000\000\000\000\000\000\000\000\000\004\005\000\000\000\000\000\000\000\000\000\000\000\000\000\000\000\001\004\005\000\000\000\000\000\000\000\000\000\000\000\000\002\003\004\005\000\000\000\000\000\000\000\000\000\000\000\000\000\001\002\003\004\005\000\000\000\000\000\000\000\000\000\000\006\007\000\000\000\000\000\000\000\000\000\000\000\000\000\000\000\001\006\007\000\000\000\000\000\000\000\000\000\000\000\000\002\003\006\007\000\000\000\000\000\000\000\000\000\000\000\000\000\001\002\003\006\007\000\000\000\000\000\000\000\000\000\000\004\005\006\007\000\000\000\000\000\000\000\000\000\000\000\000\000\001\004\005\006\007\000\000\000\000\000\000\000\000\000\000\002\003\004\005\006\007\000\000\000\000\000\000\000\000\000\000\000\001\002\003\004\005\006\007\000\000\000\000\000\000\000\000\b\t\000\000\000\000\000\000\000\000\000\000\000\000\000\000\000\001\b\t\000\000\000\000\000\000\000\000\000\000\000\000\002\003\b\t\000\000\000\000\000\000\000\000\000\000\000\000\000\001\002\003\b\t\000\000\000\000\000\000\000\000\000\000\004\005\b\t\000\000\000\000\000\000\000\000\000\000\000\000\000\001\004\005\b\t\000\000\000\000\000\000\000\000\000\000\002\003\004\005\b\t\000\000\000\000\000\000\000\000\000\000\000\001\002\003\004\005\b\t\000\000\000\000\000\000\000\000\006\007\b\t\000\000\000\000\000\000\000\000\000\000\000\000\000\001\006\007\b\t\000\000\000\000\000\000\000\000\000\000\002\003\006\007\b\t\000\000\000\000\000\000\000\000\000\000\000\001\002\003\006\007\b\t\000\000\000\000\000\000\000\000\004\005\006\007\b\t\000\000\000\000\000\000\000\000\000\000\000\001\004\005\006\007\b\t\000\000\000\000\000\000\000\000\002\003\004\005\006\007\b\t\000\000\000\000\000\000\000\000\000\001\002\003\004\005\006\007\b\t\000\000\000\000\000\000\n\013\000\000\000\000\000\000\000\000\000\000\000\000\000\000\000\001\n\013\000\000\000\000\000\000\000\000\000\000\000\000\002\003\n\013\000\000\000\000\000\000\000\000\000\000\000\000\000\001\002\003\n\013\000\000\000\000\000\000\000\000\000\000\004\005\n\013\000\000\000\000\000\000\000\000\000\000\000\000\000\001\004\005\n\013\000\000\000\000\000\000\000\000\000\000\002\003\004\005\n\013\000\000\000\000\000\000\000\000\000\000\000\001\002\003\004\005\n\013\000\000\000\000\000\000\000\000\006\007\n\013\000\000\000\000\000\000\000\000\000\000\000\000\000\001\006\007\n\013\000\000\000\000\000\000\000\000\000\000\002\003\006\007\n\013\000\000\000\000\000\000\000\000\000\000\000\001\002\003\006\007\n\013\000\000\000\000\000\000\000\000\004\005\006\007\n\013\000\000\000\000\000\000\000\000\000\000\000\001\004\005\006\007\n\013\000\000\000\000\000\000\000\000\002\003\004\005\006\007\n\013\000\000\000\000\000\000\000\000\000\001\002\003\004\005\006\007\n\013\000\000\000\000\000\000\b\t\n\013\000\000\000\000\000\000\000\000\000\000\000\000\000\001\b\t\n\013\000\000\000\000\000\000\000\000\000\000\002\003\b\t\n\013\000\000\000\000\000\000\000\000\000\000\000\001\002\003\b\t\n\013\000\000\000\000\000\000\000\000\004\005\b\t\n\013\000\000\000\000\000\000\000\000\000\000\000\001\004\005\b\t\n\013\000\000\000\000\000\000\000\000\002\003\004\005\b\t\n\013\000\000\000\000\000\000\000\000\000\001\002\003\004\005\b\t\n\013\000\000\000\000\000\000\006\007\b\t\n\013\000\000\000\000\000\000\000\000\000\000\000\001\006\007\b\t\n\013\000\000\000\000\000\000\000\000\002\003\006\007\b\t\n\013\000\000\000\000\000\000\000\000\000\001\002\003\006\007\b\t\n\013\000\000\000\000\000\000\004\005\006\007\b\t\n\013\000\000\000\000\000\000\000\000\000\001\004\005\006\007\b\t\n\013\000\000\000\000\000\000\002\003\004\005\006\007\b\t\n\013\000\000\000\000\000\000\000\001\002\003\004\005\006\007\b\t\n\013\000\000\000\000\f\r\000\000\000\000\000\000\000\000\000\000\000\000\000\000\000\001\f\r\000\000\000\000\000\000\000\000\000\000\000\000\002\003\f\r\000\000\000\000\000\000\000\000\000\000\000\000\000\001\002\003\f\r\000\000\000\000\000\000\000\000\000\000\004\005\f\r\000\000\000\000\000\000\000\000\000\000\000\000\000\001\004\005\f\r\000\000\000\000\000\000\000\000\000\000\002\003\004\005\f\r\000\000\000\000\000\000\000\000\000\000\000\001\002\003\004\005\f\r\000\000\000\000\000\000\000\000\006\007\f\r\000\000\000\000\000\000\000\000\000\000\000\000\000\001\006\007\f\r\000\000\000\000\000\000\000\000\000\000\002\003\006\007\f\r\000\000\000\000\000\000\000\000\000\000\000\001\002\003\006\007\f\r\000\000\000\000\000\000\000\000\004\005\006\007\f\r\000\000\000\000\000\000\000\000\000\000\000\001\004\005\006\007\f\r\000\000\000\000\000\000\000\000\002\003\004\005\006\007\f\r\000\000\000\000\000\000\000\000\000\001\002\003\004\005\006\007\f\r\000\000\000\000\000\000\b\t\f\r\000\000\000\000\000\000\000\000\000\000\000\000\000\001\b\t\f\r\000\000\000\000\000\000\000\000\000\000\002\003\b\t\f\r\000\000\000\000\000\000\000\000\000\000\000\001\002\003\b\t\f\r\000\000\000\000\000\000\000\000\004\005\b\t\f\r\000\000\000\000\000\000\000\000\000\000\000\001\004\005\b\t\f\r\000\000\000\000\000\000\000\000\002\003\004\005\b\t\f\r\000\000\000\000\000\000\000\000\000\001\002\003\004\005\b\t\f\r\000\000\000\000\000\000\006\007\b\t\f\r\000\000\000\000\000\000\000\000\000\000\000\001\006\007\b\t\f\r\000\000\000\000\000\000\000\000\002\003\006\007\b\t\f\r\000\000\000\000\000\000\000\000\000\001\002\003\006\007\b\t\f\r\000\000\000\000\000\000\004\005\006\007\b\t\f\r\000\000\000\000\000\000\000\000\000\001\004\005\006\007\b\t\f\r\000\000\000\000\000\000\002\003\004\005\006\007\b\t\f\r\000\000\000\000\000\000\000\001\002\003\004\005\006\007\b\t\f\r\000\000\000\000\n\013\f\r\000\000\000\000\000\000\000\000\000\000\000\000\000\001\n\013\f\r\000\000\000\000\000\000\000\000\000\000\002\003\n\013\f\r\000\000\000\000\000\000\000\000\000\000\000\001\002\003\n\013\f\r\000\000\000\000\000\000\000\000\004\005\n\013\f\r\000\000\000\000\000\000\000\000\000\000\000\001\004\005\n\013\f\r\000\000\000\000\000\000\000\000\002\003\004\005\n\013\f\r\000\000\000\000\000\000\000\000\000\001\002\003\004\005\n\013\f\r\000\000\000\000\000\000\006\007\n\013\f\r\000\000\000\000\000\000\000\000\000\000\000\001\006\007\n\013\f\r\000\000\000\000\000\000\000\000\002\003\006\007\n\013\f\r\000\000\000\000\000\000\000\000\000\001\002\003\006\007\n\013\f\r\000\000\000\000\000\000\004\005\006\007\n\013\f\r\000\000\000\000\000\000\000\000\000\001\004\005\006\007\n\013\f\r\000\000\000\000\000\000\002\003\004\005\006\007\n\013\f\r\000\000\000\000\000\000\000\001\002\003\004\005\006\007\n\013\f\r\000\000\000\000\b\t\n\013\f\r\000\000\000\000\000\000\000\000\000\000\000\001\b\t\n\013\f\r\000\000\000\000\000\000\000\000\002\003\b\t\n\013\f\r\000\000\000\000\000\000\000\000\000\001\002\003\b\t\n\013\f\r\000\000\000\000\000\000\004\005\b\t\n\013\f\r\000\000\000\000\000\000\000\000\000\001\004\005\b\t\n\013\f\r\000\000\000\000\000\000\002\003\004\005\b\t\n\013\f\r\000\000\000\000\000\000\000\001\002\003\004\005\b\t\n\013\f\r\000\000\000\000\006\007\b\t\n\013\f\r\000\000\000\000\000\000\000\000\000\001\006\007\b\t\n\013\f\r\000\000\000\000\000\000\002\003\006\007\b\t\n\013\f\r\000\000\000\000\000\000\000\001\002\003\006\007\b\t\n\013\f\r\000\000\000\000\004\005\006\007\b\t\n\013\f\r\000\000\000\000\000\000\000\001\004\005\006\007\b\t\n\013\f\r\000\000\000\000\002\003\004\005\006\007\b\t\n\013\f\r\000\000\000\000\000\001\002\003\004\005\006\007\b\t\n\013\f\r\000\000\016\017\000\000\000\000\000\000\000\000\000\000\000\000\000\000\000\001\016\017\000\000\000\000\000\000\000\000\000\000\000\000\002\003\016\017\000\000\000\000\000\000\000\000\000\000\000\000\000\001\002\003\016\017\000\000\000\000\000\000\000\000\000\000\004\005\016\017\000\000\000\000\000\000\000\000\000\000\000\000\000\001\004\005\016\017\000\000\000\000\000\000\000\000\000\000\002\003\004\005\016\017\000\000\000\000\000\000\000\000\000\000\000\001\002\003\004\005\016\017\000\000\000\000\000\000\000\000\006\007\016\017\000\000\000\000\000\000\000\000\000\000\000\000\000\001\006\007\016\017\000\000\000\000\000\000\000\000\000\000\002\003\006\007\016\017\000\000\000\000\000\000\000\000\000\000\000\001\002\003\006\007\016\017\000\000\000\000\000\000\000\000\004\005\006\007\016\017\000\000\000\000\000\000\000\000\000\000\000\001\004\005\006\007\016\017\000\000\000\000\000\000\000\000\002\003\004\005\006\007\016\017\000\000\000\000\000\000\000\000\000\001\002\003\004\005\006\007\016\017\000\000\000\000\000\000\b\t\016\017\000\000\000\000\000\000\000\000\000\000\000\000\000\001\b\t\016\017\000\000\000\000\000\000\000\000\000\000\002\003\b\t\016\017\000\000\000\000\000\000\000\000\000\000\000\001\002\003\b\t\016\017\000\000\000\000\000\000\000\000\004\005\b\t\016\017\000\000\000\000\000\000\000\000\000\000\000\001\004\005\b\t\016\017\000\000\000\000\000\000\000\000\002\003\004\005\b\t\016\017\000\000\000\000\000\000\000\000\000\001\002\003\004\005\b\t\016\017\000\000\000\000\000\000\006\007\b\t\016\017\000\000\000\000\000\000\000\000\000\000\000\001\006\007\b\t\016\017\000\000\000\000\000\000\000\000\002\003\006\007\b\t\016\017\000\000\000\000\000\000\000\000\000\001\002\003\006\007\b\t\016\017\000\000\000\000\000\000\004\005\006\007\b\t\016\017\000\000\000\000\000\000\000\000\000\001\004\005\006\007\b\t\016\017\000\000\000\000\000\000\002\003\004\005\006\007\b\t\016\017\000\000\000\000\000\000\000\001\002\003\004\005\006\007\b\t\016\017\000\000\000\000\n\013\016\017\000\000\000\000\000\000\000\000\000\000\000\000\000\001\n\013\016\017\000\000\000\000\000\000\000\000\000\000\002\003\n\013\016\017\000\000\000\000\000\000\000\000\000\000\000\001\002\003\n\013\016\017\000\000\000\000\000\000\000\000\004\005\n\013\016\017\000\000\000\000\000\000\000\000\000\000\000\001\004\005\n\013\016\017\000\000\000\000\000\000\000\000\002\003\004\005\n\013\016\017\000\000\000\000\000\000\000\000\000\001\002\003\004\005\n\013\016\017\000\000\000\000\000\000\006\007\n\013\016\017\000\000\000\000\000\000\000\000\000\000\000\001\006\007\n\013\016\017\000\000\000\000\000\000\000\000\002\003\006\007\n\013\016\017\000\000\000\000\000\000\000\000\000\001\002\003\006\007\n\013\016\017\000\000\000\000\000\000\004\005\006\007\n\013\016\017\000\000\000\000\000\000\000\000\000\001\004\005\006\007\n\013\016\017\000\000\000\000\000\000\002\003\004\005\006\007\n\013\016\017\000\000\000\000\000\000\000\001\002\003\004\005\006\007\n\013\016\017\000\000\000\000\b\t\n\013\016\017\000\000\000\000\000\000\000\000\000\000\000\001\b\t\n\013\016\017\000\000\000\000\000\000\000\000\002\003\b\t\n\013\016\017\000\000\000\000\000\000\000\000\000\001\002\003\b\t\n\013\016\017\000\000\000\000\000\000\004\005\b\t\n\013\016\017\000\000\000\000\000\000\000\000\000\001\004\005\b\t\n\013\016\017\000\000\000\000\000\000\002\003\004\005\b\t\n\013\016\017\000\000\000\000\000\000\000\001\002\003\004\005\b\t\n\013\016\017\000\000\000\000\006\007\b\t\n\013\016\017\000\000\000\000\000\000\000\000\000\001\006\007\b\t\n\013\016\017\000\000\000\000\000\000\002\003\006\007\b\t\n\013\016\017\000\000\000\000\000\000\000\001\002\003\006\007\b\t\n\013\016\017\000\000\000\000\004\005\006\007\b\t\n\013\016\017\000\000\000\000\000\000\000\001\004\005\006\007\b\t\n\013\016\017\000\000\000\000\002\003\004\005\006\007\b\t\n\013\016\017\000\000\000\000\000\001\002\003\004\005\006\007\b\t\n\013\016\017\000\000\f\r\016\017\000\000\000\000\000\000\000\000\000\000\000\000\000\001\f\r\016\017\000\000\000\000\000\000\000\000\000\000\002\003\f\r\016\017\000\000\000\000\000\000\000\000\000\000\000\001\002\003\f\r\016\017\000\000\000\000\000\000\000\000\004\005\f\r\016\017\000\000\000\000\000\000\000\000\000\000\000\001\004\005\f\r\016\017\000\000\000\000\000\000\000\000\002\003\004\005\f\r\016\017\000\000\000\000\000\000\000\000\000\001\002\003\004\005\f\r\016\017\000\000\000\000\000\000\006\007\f\r\016\017\000\000\000\000\000\000\000\000\000\000\000\001\006\007\f\r\016\017\000\000\000\000\000\000\000\000\002\003\006\007\f\r\016\017\000\000\000\000\000\000\000\000\000\001\002\003\006\007\f\r\016\017\000\000\000\000\000\000\004\005\006\007\f\r\016\017\000\000\000\000\000\000\000\000\000\001\004\005\006\007\f\r\016\017\000\000\000\000\000\000\002\003\004\005\006\007\f\r\016\017\000\000\000\000\000\000\000\001\002\003\004\005\006\007\f\r\016\017\000\000\000\000\b\t\f\r\016\017\000\000\000\000\000\000\000\000\000\000\000\001\b\t\f\r\016\017\000\000\000\000\000\000\000\000\002\003\b\t\f\r\016\017\000\000\000\000\000\000\000\000\000\001\002\003\b\t\f\r\016\017\000\000\000\000\000\000\004\005\b\t\f\r\016\017\000\000\000\000\000\000\000\000\000\001\004\005\b\t\f\r\016\017\000\000\000\000\000\000\002\003\004\005\b\t\f\r\016\017\000\000\000\000\000\000\000\001\002\003\004\005\b\t\f\r\016\017\000\000\000\000\006\007\b\t\f\r\016\017\000\000\000\000\000\000\000\000\000\001\006\007\b\t\f\r\016\017\000\000\000\000\000\000\002\003\006\007\b\t\f\r\016\017\000\000\000\000\000\000\000\001\002\003\006\007\b\t\f\r\016\017\000\000\000\000\004\005\006\007\b\t\f\r\016\017\000\000\000\000\000\000\000\001\004\005\006\007\b\t\f\r\016\017\000\000\000\000\002\003\004\005\006\007\b\t\f\r\016\017\000\000\000\000\000\001\002\003\004\005\006\007\b\t\f\r\016\017\000\000\n\013\f\r\016\017\000\000\000\000\000\000\000\000\000\000\000\001\n\013\f\r\016\017\000\000\000\000\000\000\000\000\002\003\n\013\f\r\016\017\000\000\000\000\000\000\000\000\000\001\002\003\n\013\f\r\016\017\000\000\000\000\000\000\004\005\n\013\f\r\016\017\000\000\000\000\000\000\000\000\000\001\004\005\n\013\f\r\016\017\000\000\000\000\000\000\002\003\004\005\n\013\f\r\016\017\000\000\000\000\000\000\000\001\002\003\004\005\n\013\f\r\016\017\000\000\000\000\006\007\n\013\f\r\016\017\000\000\000\000\000\000\000\000\000\001\006\007\n\013\f\r\016\017\000\000\000\000\000\000\002\003\006\007\n\013\f\r\016\017\000\000\000\000\000\000\000\001\002\003\006\007\n\013\f\r\016\017\000\000\000\000\004\005\006\007\n\013\f\r\016\017\000\000\000\000\000\000\000\001\004\005\006\007\n\013\f\r\016\017\000\000\000\000\002\003\004\005\006\007\n\013\f\r\016\017\000\000\000\000\000\001\002\003\004\005\006\007\n\013\f\r\016\017\000\000\b\t\n\013\f\r\016\017\000\000\000\000\000\000\000\000\000\001\b\t\n\013\f\r\016\017\000\000\000\000\000\000\002\003\b\t\n\013\f\r\016\017\000\000\000\000\000\000\000\001\002\003\b\t\n\013\f\r\016\017\000\000\000\000\004\005\b\t\n\013\f\r\016\017\000\000\000\000\000\000\000\001\004\005\b\t\n\013\f\r\016\017\000\000\000\000\002\003\004\005\b\t\n\013\f\r\016\017\000\000\000\000\000\001\002\003\004\005\b\t\n\013\f\r\016\017\000\000\006\007\b\t\n\013\f\r\016\017\000\000\000\000\000\000\000\001\006\007\b\t\n\013\f\r\016\017\000\000\000\000\002\003\006\007\b\t\n\013\f\r\016\017\000\000\000\000\000\001\002\003\006\007\b\t\n\013\f\r\016\017\000\000\004\005\006\007\b\t\n\013\f\r\016\017\000\000\000\000\000\001\004\005\006\007\b\t\n\013\f\r\016\017\000\000\002\003\004\005\006\007\b\t\n\013\f\r\016\017\000\000\000\001\002\003\004\005\006\007\b\t\n\013\f\r\016\017"

	.section	.rdata$049,"dr"
.Lstatic.25:
	.ascii	"usage: "

	.section	.rdata$050,"dr"
.Lstatic.26:
	.ascii	": read failed\n"

	.section	.rdata$051,"dr"
.Lstatic.27:
	.ascii	": write failed\n"

	.section	.rdata$004,"dr"
.Lstatic.28:
	.ascii	": out of memory\n"

	.section	.rdata$052,"dr"
.Lstatic.29:
	.ascii	": input too long\n"

	.section	.rdata$053,"dr"
.Lstatic.31:
	.ascii	" le|be|le-bom|be-bom\n"

	.section	.rdata$054,"dr"
.Lstatic.33:
	.ascii	"utf16_enc"

