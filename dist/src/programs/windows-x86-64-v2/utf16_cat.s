/* SPDX-License-Identifier: MIT OR Apache-2.0
 * utf16_cat 0.2.0, as assembly for Windows on x86-64-v2. packaging/assembly
 * wrote it from the code that rt proved in logic dac8208d650f15bf: do not edit it. */
	.section	.text$000,"xr"
	.p2align	4
L_0:
	pushq	%rbp
	pushq	%r15
	pushq	%r14
	pushq	%r13
	pushq	%r12
	pushq	%rbx
	subq	$3072, %rsp
	movq	$0, (%rsp)
	subq	$1256, %rsp
	leaq	8(%rsp), %rax
	movq	%rax, 16(%rsp)
	movq	%rax, 104(%rsp)
	xorps	%xmm0, %xmm0
	movups	%xmm0, 112(%rsp)
	xorl	%ebp, %ebp
	movq	$0, 32(%rsp)
.LBB0_1:
	movl	$256, %r12d
	movl	$64, %r14d
	jmp	.LBB0_3
	.p2align	4
.LBB0_2:
	movq	%r12, %rax
	addq	%r12, %rax
	movq	$-1, %r12
	cmovaeq	%rax, %r12
	decl	%r14d
	je	.LBB0_61
.LBB0_3:
	leaq	8(%rsp), %r15
	movq	%r15, 224(%rsp)
	xorps	%xmm0, %xmm0
	leaq	232(%rsp), %rax
	movups	%xmm0, (%rax)
	testq	%r12, %r12
	jne	.LBB0_10
	xorl	%r13d, %r13d
.LBB0_5:
	movq	32(%rsp), %rdi
	movq	%r15, %rsi
	movq	%r13, %rdx
	callq	rattle_arg
	movq	%rax, %rbx
	movl	$22, %eax
	cmpq	$-1, %rbx
	je	.LBB0_7
	movl	$36, %eax
.LBB0_7:
	xorl	%edi, %edi
	testq	%rbx, %rbx
	cmovsl	%eax, %edi
	callq	rattle_set_errno
	callq	rattle_errno
	cmpl	$36, %eax
	jne	.LBB0_13
	cmpq	$0, 240(%rsp)
	je	.LBB0_2
	movq	%r15, %rdi
	callq	rattle_dealloc
	jmp	.LBB0_2
.LBB0_10:
	leaq	224(%rsp), %rdi
	movq	%r12, %rsi
	callq	L_1
	testb	%al, %al
	je	.LBB0_59
	movq	224(%rsp), %r15
	movq	232(%rsp), %rdi
	leaq	(%rdi,%r12), %r13
	cmpq	%r13, %rdi
	jae	.LBB0_5
	addq	%r15, %rdi
	xorl	%esi, %esi
	movq	%r12, %rdx
	callq	sysv_memset
	jmp	.LBB0_5
	.p2align	4
.LBB0_13:
	testl	%eax, %eax
	jne	.LBB0_19
	cmpq	%r13, %rbx
	cmovbq	%rbx, %r13
	xorl	%r12d, %r12d
	testq	%rbx, %rbx
	cmovgq	%r13, %r12
	movq	240(%rsp), %rbx
	xorps	%xmm0, %xmm0
	movaps	%xmm0, 224(%rsp)
	movq	$0, 240(%rsp)
	leaq	224(%rsp), %r13
	movq	%r13, %rdi
	movq	%r15, %rsi
	movq	%r12, %rdx
	callq	L_2
	cmpb	$1, 224(%rsp)
	je	.LBB0_187
	cmpq	%rbp, 120(%rsp)
	je	.LBB0_17
.LBB0_16:
	leaq	(,%rbp,2), %rax
	addq	%rbp, %rax
	movq	16(%rsp), %rcx
	movq	%r15, (%rcx,%rax,8)
	movq	%r12, 8(%rcx,%rax,8)
	movq	%rbx, 16(%rcx,%rax,8)
	incq	%rbp
	movq	%rbp, 112(%rsp)
	movq	32(%rsp), %rcx
	incq	%rcx
	movq	%rcx, 32(%rsp)
	cmpq	$-1, %rcx
	jne	.LBB0_1
	jmp	.LBB0_21
.LBB0_17:
	leaq	104(%rsp), %r13
	movq	%r13, %rdi
	callq	L_3
	testb	%al, %al
	je	.LBB0_225
	movq	104(%rsp), %rax
	movq	%rax, 16(%rsp)
	movq	112(%rsp), %rbp
	jmp	.LBB0_16
.LBB0_19:
	cmpq	$0, 240(%rsp)
	je	.LBB0_21
	movq	%r15, %rdi
	callq	rattle_dealloc
.LBB0_21:
	movq	104(%rsp), %r14
	movq	120(%rsp), %rax
	testq	%rbp, %rbp
	je	.LBB0_33
	movq	%rax, 32(%rsp)
	movq	(%r14), %rdi
	movq	16(%r14), %rbx
	cmpq	$1, %rbp
	jne	.LBB0_34
	xorl	%ebp, %ebp
	xorl	%r15d, %r15d
	xorl	%r13d, %r13d
	xorl	%r12d, %r12d
	testq	%rbx, %rbx
	je	.LBB0_25
.LBB0_24:
	callq	rattle_dealloc
.LBB0_25:
	movq	32(%rsp), %rax
	testq	%rax, %rax
	je	.LBB0_27
.LBB0_26:
	movq	%r14, %rdi
	callq	rattle_dealloc
.LBB0_27:
	testb	%bpl, %bpl
	je	.LBB0_46
	cmpq	$4, %r13
	je	.LBB0_51
	cmpq	$2, %r13
	jne	.LBB0_53
	movzbl	(%r15), %ecx
	movzbl	1(%r15), %edx
	shll	$16, %ecx
	movl	%edx, %eax
	shll	$8, %eax
	orl	%ecx, %eax
	orl	%edx, %eax
	cmpl	$7103845, %eax
	je	.LBB0_85
	cmpl	$6448485, %eax
	jne	.LBB0_53
	movb	$1, %bl
	xorl	%ebp, %ebp
	jmp	.LBB0_87
.LBB0_33:
	xorl	%ebp, %ebp
	xorl	%r15d, %r15d
	xorl	%r13d, %r13d
	xorl	%r12d, %r12d
	testq	%rax, %rax
	jne	.LBB0_26
	jmp	.LBB0_27
.LBB0_34:
	movq	24(%r14), %r15
	movq	40(%r14), %r12
	cmpq	$2, %rbp
	jne	.LBB0_36
	movq	32(%r14), %r13
	movb	$1, %bpl
	testq	%rbx, %rbx
	jne	.LBB0_24
	jmp	.LBB0_25
.LBB0_36:
	cmpq	$0, 64(%r14)
	je	.LBB0_38
	movq	%rdi, %r13
	movq	48(%r14), %rdi
	callq	rattle_dealloc
	movq	%r13, %rdi
.LBB0_38:
	testq	%r12, %r12
	je	.LBB0_40
	movq	%rdi, %r12
	movq	%r15, %rdi
	callq	rattle_dealloc
	movq	%r12, %rdi
.LBB0_40:
	testq	%rbx, %rbx
	je	.LBB0_42
	callq	rattle_dealloc
.LBB0_42:
	cmpq	$3, %rbp
	jne	.LBB0_55
.LBB0_43:
	cmpq	$0, 32(%rsp)
	je	.LBB0_46
	movq	%r14, %rdi
	jmp	.LBB0_45
.LBB0_51:
	movl	(%r15), %eax
	movq	%rax, %rcx
	shlq	$32, %rcx
	orq	%rax, %rcx
	movabsq	$8031173096850617697, %rax
	cmpq	%rax, %rcx
	jne	.LBB0_53
	movb	$1, %bpl
	jmp	.LBB0_86
.LBB0_53:
	testq	%r12, %r12
	je	.LBB0_46
	movq	%r15, %rdi
.LBB0_45:
	callq	rattle_dealloc
	jmp	.LBB0_46
.LBB0_55:
	addq	$-3, %rbp
	leaq	88(%r14), %rbx
	jmp	.LBB0_57
	.p2align	4
.LBB0_56:
	addq	$24, %rbx
	decq	%rbp
	je	.LBB0_43
.LBB0_57:
	cmpq	$0, (%rbx)
	je	.LBB0_56
	movq	-16(%rbx), %rdi
	callq	rattle_dealloc
	jmp	.LBB0_56
.LBB0_59:
	cmpq	$0, 240(%rsp)
	je	.LBB0_61
	movq	224(%rsp), %rdi
	callq	rattle_dealloc
.LBB0_61:
	movq	120(%rsp), %rbx
	testq	%rbp, %rbp
	je	.LBB0_66
	movq	16(%rsp), %rax
	leaq	16(%rax), %r14
	jmp	.LBB0_64
	.p2align	4
.LBB0_63:
	addq	$24, %r14
	decq	%rbp
	je	.LBB0_66
.LBB0_64:
	cmpq	$0, (%r14)
	je	.LBB0_63
	movq	-16(%r14), %rdi
	callq	rattle_dealloc
	jmp	.LBB0_63
.LBB0_66:
	leaq	104(%rsp), %r13
	testq	%rbx, %rbx
	je	.LBB0_69
	movq	16(%rsp), %rdi
.LBB0_68:
	callq	rattle_dealloc
.LBB0_69:
	movb	$21, 224(%rsp)
	movb	$38, 104(%rsp)
	cmpb	$38, (%r13)
	jne	.LBB0_46
.LBB0_70:
	leaq	.Lstatic.28(%rip), %r14
	movl	$16, %r15d
.LBB0_71:
	xorl	%ebp, %ebp
	jmp	.LBB0_72
.LBB0_46:
	xorl	%r15d, %r15d
	.p2align	4
.LBB0_47:
	leaq	.Lstatic.25(%rip), %rsi
	addq	%r15, %rsi
	movq	%r15, %r14
	xorq	$7, %r14
	movl	$2, %ebx
	movl	$2, %edi
	movq	%r14, %rdx
	callq	sysv_write
	testq	%rax, %rax
	js	.LBB0_83
	cmpq	%r14, %rax
	cmovbq	%rax, %r14
	testq	%r14, %r14
	je	.LBB0_84
	addq	%r14, %r15
	cmpq	$6, %r15
	jbe	.LBB0_47
	leaq	.Lstatic.30(%rip), %r14
	movl	$12, %r15d
	movb	$1, %bpl
.LBB0_72:
	xorl	%r12d, %r12d
	.p2align	4
.LBB0_73:
	leaq	.Lstatic.32(%rip), %rsi
	addq	%r12, %rsi
	movl	$9, %ebx
	subq	%r12, %rbx
	movl	$2, %edi
	movq	%rbx, %rdx
	callq	sysv_write
	testq	%rax, %rax
	js	.LBB0_80
	cmpq	%rbx, %rax
	cmovbq	%rax, %rbx
	testq	%rbx, %rbx
	je	.LBB0_81
	addq	%rbx, %r12
	cmpq	$9, %r12
	jb	.LBB0_73
	xorl	%r12d, %r12d
	.p2align	4
.LBB0_77:
	leaq	(%r14,%r12), %rsi
	movq	%r15, %rbx
	subq	%r12, %rbx
	movl	$2, %edi
	movq	%rbx, %rdx
	callq	sysv_write
	testq	%rax, %rax
	js	.LBB0_80
	cmpq	%rbx, %rax
	cmovbq	%rax, %rbx
	testq	%rbx, %rbx
	je	.LBB0_81
	addq	%rbx, %r12
	cmpq	%r15, %r12
	jb	.LBB0_77
	jmp	.LBB0_81
.LBB0_80:
	leaq	224(%rsp), %rdi
	callq	L_4
.LBB0_81:
	movl	$2, %ebx
	testb	%bpl, %bpl
	jne	.LBB0_84
.LBB0_82:
	movl	$1, %ebx
	jmp	.LBB0_84
.LBB0_83:
	leaq	224(%rsp), %rdi
	callq	L_4
.LBB0_84:
	movl	%ebx, %eax
	addq	$4328, %rsp
	popq	%rbx
	popq	%r12
	popq	%r13
	popq	%r14
	popq	%r15
	popq	%rbp
	retq
.LBB0_85:
	xorl	%ebp, %ebp
.LBB0_86:
	xorl	%ebx, %ebx
.LBB0_87:
	testq	%r12, %r12
	je	.LBB0_89
	movq	%r15, %rdi
	callq	rattle_dealloc
.LBB0_89:
	testb	%bpl, %bpl
	je	.LBB0_133
	movb	$0, 24(%rsp)
	movl	$0, 25(%rsp)
	leaq	224(%rsp), %rdi
	movq	$0, 96(%rsp)
	movl	$4096, %edx
	xorl	%esi, %esi
	callq	sysv_memset
	xorps	%xmm0, %xmm0
	movaps	%xmm0, 192(%rsp)
	movq	$0, 208(%rsp)
	leaq	8(%rsp), %rax
	movq	%rax, 40(%rsp)
	movups	%xmm0, 48(%rsp)
	movq	$0, 32(%rsp)
	movq	$0, 16(%rsp)
	xorl	%r13d, %r13d
.LBB0_93:
	leaq	224(%rsp), %rbp
	movl	$4096, %r12d
	movl	$4096, %edx
	xorl	%edi, %edi
	movq	%rbp, %rsi
	callq	sysv_read
	testq	%rax, %rax
	js	.LBB0_207
	movq	%rax, %r14
	cmpq	$4096, %rax
	cmovbq	%rax, %r12
	testq	%rax, %rax
	je	.LBB0_209
	cmpq	$8, %r14
	movq	%r13, 216(%rsp)
	jae	.LBB0_97
	movl	$24, %r15d
	leaq	192(%rsp), %r13
	movq	32(%rsp), %rdi
	jmp	.LBB0_109
.LBB0_97:
	cmpq	$0, 16(%rsp)
	movq	32(%rsp), %rdi
	jne	.LBB0_103
	leaq	-1(%rdi), %rax
	cmpq	$-8704, %rax
	jae	.LBB0_100
	movq	$0, 16(%rsp)
	jmp	.LBB0_103
.LBB0_100:
	movb	$4, %r15b
	cmpq	$-8705, %rdi
	ja	.LBB0_195
	leaq	8704(%rdi), %rbx
	movl	$1, %esi
	movq	%rbx, %rdi
	callq	rattle_alloc
	testb	$1, %al
	je	.LBB0_195
	movq	%rdx, 40(%rsp)
	movq	%rbx, 56(%rsp)
	movl	$8704, %eax
	movq	%rax, 96(%rsp)
	movq	%rax, 16(%rsp)
	movq	32(%rsp), %rdi
.LBB0_103:
	leaq	512(,%r12,2), %rbx
	subq	%rdi, %rbx
	jbe	.LBB0_108
	movq	16(%rsp), %rax
	subq	%rdi, %rax
	cmpq	%rax, %rbx
	ja	.LBB0_131
	leaq	(%rdi,%rbx), %r15
	movq	40(%rsp), %r13
	cmpq	%r15, %rdi
	jae	.LBB0_107
.LBB0_106:
	addq	%r13, %rdi
	xorl	%esi, %esi
	movq	%rbx, %rdx
	callq	sysv_memset
.LBB0_107:
	movq	%r15, 48(%rsp)
	movq	16(%rsp), %rax
	movq	%rax, 56(%rsp)
	movq	%rax, 96(%rsp)
	movq	%r15, %rdi
	jmp	.LBB0_109
.LBB0_108:
	movq	40(%rsp), %r13
	movq	%rdi, %r15
.LBB0_109:
	movb	$0, 108(%rsp)
	movl	$0, 104(%rsp)
	movzbl	24(%rsp), %eax
	cmpl	$2, %eax
	movq	%rdi, 32(%rsp)
	je	.LBB0_91
	cmpl	$1, %eax
	jne	.LBB0_112
	leaq	224(%rsp), %rsi
	leaq	25(%rsp), %rdi
	movq	%r12, %rdx
	movq	%r13, %rcx
	movq	%r15, %r8
	callq	L_5
	movq	%rax, %r14
	testq	%r14, %r14
	jne	.LBB0_127
	jmp	.LBB0_92
.LBB0_91:
	leaq	224(%rsp), %rsi
	leaq	25(%rsp), %rdi
	movq	%r12, %rdx
	movq	%r13, %rcx
	movq	%r15, %r8
	callq	L_6
	movq	%rax, %r14
	testq	%r14, %r14
	jne	.LBB0_127
	jmp	.LBB0_92
.LBB0_112:
	movzbl	25(%rsp), %ecx
	movzbl	26(%rsp), %eax
	testb	%cl, %cl
	je	.LBB0_114
	leaq	-1(%r12), %rdx
	leaq	225(%rsp), %rsi
	movl	%eax, %r9d
	jmp	.LBB0_117
.LBB0_114:
	cmpq	$1, %r14
	jne	.LBB0_116
	movzbl	224(%rsp), %eax
	shll	$8, %eax
	incl	%eax
	movl	%eax, 105(%rsp)
	xorl	%r14d, %r14d
	jmp	.LBB0_126
.LBB0_116:
	leaq	-2(%r12), %rdx
	movzbl	224(%rsp), %r9d
	leaq	226(%rsp), %rsi
	leaq	225(%rsp), %rbp
.LBB0_117:
	movzbl	(%rbp), %r8d
	cmpb	$-1, %r9b
	je	.LBB0_121
	movzbl	%r9b, %r9d
	cmpl	$254, %r9d
	jne	.LBB0_123
	cmpb	$-1, %r8b
	jne	.LBB0_123
	xorl	%eax, %eax
	movq	%rdx, %r12
	jmp	.LBB0_124
.LBB0_121:
	cmpb	$-2, %r8b
	jne	.LBB0_123
	movb	$2, 104(%rsp)
	leaq	105(%rsp), %rdi
	movq	%r13, %rcx
	movq	%r15, %r8
	callq	L_6
	jmp	.LBB0_125
.LBB0_123:
	xorl	%edx, %edx
	xorl	%esi, %esi
	cmpb	$1, %cl
	sete	%sil
	movzbl	%al, %eax
	cmovnel	%edx, %eax
	shll	$24, %esi
	movzbl	%al, %eax
	orl	%esi, %eax
	leaq	224(%rsp), %rsi
.LBB0_124:
	movb	$1, 104(%rsp)
	movl	%eax, 105(%rsp)
	leaq	105(%rsp), %rdi
	movq	%r12, %rdx
	movq	%r13, %rcx
	movq	%r15, %r8
	callq	L_5
.LBB0_125:
	movq	%rax, %r14
.LBB0_126:
	movzbl	104(%rsp), %eax
	movl	105(%rsp), %ecx
	movb	%al, 24(%rsp)
	movl	%ecx, 25(%rsp)
	testq	%r14, %r14
	je	.LBB0_92
.LBB0_127:
	xorl	%r15d, %r15d
	.p2align	4
.LBB0_128:
	leaq	(%r15,%r13), %rsi
	movq	%r14, %rbx
	subq	%r15, %rbx
	movl	$1, %edi
	movq	%rbx, %rdx
	callq	sysv_write
	testq	%rax, %rax
	js	.LBB0_184
	cmpq	%rbx, %rax
	cmovbq	%rax, %rbx
	testq	%rbx, %rbx
	je	.LBB0_185
	addq	%rbx, %r15
	cmpq	%r14, %r15
	jb	.LBB0_128
.LBB0_92:
	movq	216(%rsp), %r13
	incq	%r13
	cmpq	$-1, %r13
	jne	.LBB0_93
	jmp	.LBB0_212
.LBB0_131:
	leaq	40(%rsp), %rdi
	movq	%rbx, %rsi
	callq	L_1
	movq	56(%rsp), %rcx
	movq	%rcx, 16(%rsp)
	testb	%al, %al
	je	.LBB0_275
	movq	48(%rsp), %rdi
	leaq	(%rdi,%rbx), %r15
	movq	40(%rsp), %r13
	cmpq	%r15, %rdi
	jb	.LBB0_106
	jmp	.LBB0_107
.LBB0_133:
	testb	%bl, %bl
	je	.LBB0_159
	movl	$0, 24(%rsp)
	leaq	224(%rsp), %rdi
	movq	$0, 16(%rsp)
	movl	$4096, %edx
	xorl	%esi, %esi
	callq	sysv_memset
	xorps	%xmm0, %xmm0
	movaps	%xmm0, 192(%rsp)
	movq	$0, 208(%rsp)
	leaq	8(%rsp), %rax
	movq	%rax, 40(%rsp)
	movups	%xmm0, 48(%rsp)
	xorl	%r13d, %r13d
	xorl	%r12d, %r12d
	xorl	%ebp, %ebp
	jmp	.LBB0_136
.LBB0_135:
	incq	%rbp
	cmpq	$-1, %rbp
	movq	32(%rsp), %r12
	movq	%rbx, %r13
	je	.LBB0_238
.LBB0_136:
	leaq	224(%rsp), %rsi
	movl	$4096, %r14d
	movl	$4096, %edx
	xorl	%edi, %edi
	callq	sysv_read
	testq	%rax, %rax
	js	.LBB0_214
	cmpq	$4096, %rax
	cmovbq	%rax, %r14
	testq	%rax, %rax
	je	.LBB0_218
	cmpq	$8, %rax
	jae	.LBB0_140
	movq	%r13, %rbx
	movq	%r12, 32(%rsp)
	movl	$24, %r8d
	leaq	192(%rsp), %r15
	jmp	.LBB0_152
.LBB0_140:
	testq	%r12, %r12
	jne	.LBB0_146
	leaq	-1(%r13), %rax
	cmpq	$-8704, %rax
	jae	.LBB0_143
	xorl	%r12d, %r12d
	jmp	.LBB0_146
.LBB0_143:
	movb	$4, %r12b
	cmpq	$-8705, %r13
	ja	.LBB0_203
	leaq	8704(%r13), %r15
	movl	$1, %esi
	movq	%r15, %rdi
	callq	rattle_alloc
	testb	$1, %al
	je	.LBB0_203
	movq	%rdx, 40(%rsp)
	movq	%r15, 56(%rsp)
	movl	$8704, %eax
	movq	%rax, 16(%rsp)
	movl	$8704, %r12d
.LBB0_146:
	leaq	512(,%r14,2), %rdx
	subq	%r13, %rdx
	jbe	.LBB0_151
	movq	%r12, %rax
	subq	%r13, %rax
	cmpq	%rax, %rdx
	ja	.LBB0_157
	leaq	(%rdx,%r13), %r8
	movq	40(%rsp), %r15
	cmpq	%r8, %r13
	jae	.LBB0_150
.LBB0_149:
	addq	%r15, %r13
	movq	%r13, %rdi
	xorl	%esi, %esi
	movq	%r8, %rbx
	callq	sysv_memset
	movq	%rbx, %r8
.LBB0_150:
	movq	%r8, 48(%rsp)
	movq	%r12, 56(%rsp)
	movq	%r12, 32(%rsp)
	movq	%r12, 16(%rsp)
	movq	%r8, %rbx
	jmp	.LBB0_152
.LBB0_151:
	movq	%r12, 32(%rsp)
	movq	40(%rsp), %r15
	movq	%r13, %rbx
	movq	%r13, %r8
.LBB0_152:
	leaq	24(%rsp), %rdi
	leaq	224(%rsp), %rsi
	movq	%r14, %rdx
	movq	%r15, %rcx
	callq	L_5
	testq	%rax, %rax
	je	.LBB0_135
	movq	%rax, %r14
	xorl	%r13d, %r13d
	.p2align	4
.LBB0_154:
	leaq	(%r15,%r13), %rsi
	movq	%r14, %r12
	subq	%r13, %r12
	movl	$1, %edi
	movq	%r12, %rdx
	callq	sysv_write
	testq	%rax, %rax
	js	.LBB0_196
	cmpq	%r12, %rax
	cmovbq	%rax, %r12
	testq	%r12, %r12
	je	.LBB0_197
	addq	%r12, %r13
	cmpq	%r14, %r13
	jb	.LBB0_154
	jmp	.LBB0_135
.LBB0_157:
	leaq	40(%rsp), %rdi
	movq	%rdx, %r15
	movq	%rdx, %rsi
	callq	L_1
	movq	56(%rsp), %r12
	testb	%al, %al
	je	.LBB0_277
	movq	48(%rsp), %r13
	movq	%r15, %rdx
	leaq	(%rdx,%r13), %r8
	movq	40(%rsp), %r15
	cmpq	%r8, %r13
	jb	.LBB0_149
	jmp	.LBB0_150
.LBB0_159:
	movl	$0, 24(%rsp)
	leaq	224(%rsp), %rdi
	movq	$0, 16(%rsp)
	movl	$4096, %edx
	xorl	%esi, %esi
	callq	sysv_memset
	xorps	%xmm0, %xmm0
	movaps	%xmm0, 192(%rsp)
	movq	$0, 208(%rsp)
	leaq	8(%rsp), %rax
	movq	%rax, 40(%rsp)
	movups	%xmm0, 48(%rsp)
	xorl	%r13d, %r13d
	xorl	%r12d, %r12d
	xorl	%ebp, %ebp
	jmp	.LBB0_161
.LBB0_160:
	incq	%rbp
	cmpq	$-1, %rbp
	movq	32(%rsp), %r12
	movq	%rbx, %r13
	je	.LBB0_240
.LBB0_161:
	leaq	224(%rsp), %rsi
	movl	$4096, %r14d
	movl	$4096, %edx
	xorl	%edi, %edi
	callq	sysv_read
	testq	%rax, %rax
	js	.LBB0_216
	cmpq	$4096, %rax
	cmovbq	%rax, %r14
	testq	%rax, %rax
	je	.LBB0_221
	cmpq	$8, %rax
	jae	.LBB0_165
	movq	%r13, %rbx
	movq	%r12, 32(%rsp)
	movl	$24, %r8d
	leaq	192(%rsp), %r15
	jmp	.LBB0_177
.LBB0_165:
	testq	%r12, %r12
	jne	.LBB0_171
	leaq	-1(%r13), %rax
	cmpq	$-8704, %rax
	jae	.LBB0_168
	xorl	%r12d, %r12d
	jmp	.LBB0_171
.LBB0_168:
	movb	$4, %r12b
	cmpq	$-8705, %r13
	ja	.LBB0_205
	leaq	8704(%r13), %r15
	movl	$1, %esi
	movq	%r15, %rdi
	callq	rattle_alloc
	testb	$1, %al
	je	.LBB0_205
	movq	%rdx, 40(%rsp)
	movq	%r15, 56(%rsp)
	movl	$8704, %eax
	movq	%rax, 16(%rsp)
	movl	$8704, %r12d
.LBB0_171:
	leaq	512(,%r14,2), %rdx
	subq	%r13, %rdx
	jbe	.LBB0_176
	movq	%r12, %rax
	subq	%r13, %rax
	cmpq	%rax, %rdx
	ja	.LBB0_182
	leaq	(%rdx,%r13), %r8
	movq	40(%rsp), %r15
	cmpq	%r8, %r13
	jae	.LBB0_175
.LBB0_174:
	addq	%r15, %r13
	movq	%r13, %rdi
	xorl	%esi, %esi
	movq	%r8, %rbx
	callq	sysv_memset
	movq	%rbx, %r8
.LBB0_175:
	movq	%r8, 48(%rsp)
	movq	%r12, 56(%rsp)
	movq	%r12, 32(%rsp)
	movq	%r12, 16(%rsp)
	movq	%r8, %rbx
	jmp	.LBB0_177
.LBB0_176:
	movq	%r12, 32(%rsp)
	movq	40(%rsp), %r15
	movq	%r13, %rbx
	movq	%r13, %r8
.LBB0_177:
	leaq	24(%rsp), %rdi
	leaq	224(%rsp), %rsi
	movq	%r14, %rdx
	movq	%r15, %rcx
	callq	L_6
	testq	%rax, %rax
	je	.LBB0_160
	movq	%rax, %r14
	xorl	%r13d, %r13d
	.p2align	4
.LBB0_179:
	leaq	(%r15,%r13), %rsi
	movq	%r14, %r12
	subq	%r13, %r12
	movl	$1, %edi
	movq	%r12, %rdx
	callq	sysv_write
	testq	%rax, %rax
	js	.LBB0_199
	cmpq	%r12, %rax
	cmovbq	%rax, %r12
	testq	%r12, %r12
	je	.LBB0_200
	addq	%r12, %r13
	cmpq	%r14, %r13
	jb	.LBB0_179
	jmp	.LBB0_160
.LBB0_182:
	leaq	40(%rsp), %rdi
	movq	%rdx, %r15
	movq	%rdx, %rsi
	callq	L_1
	movq	56(%rsp), %r12
	testb	%al, %al
	je	.LBB0_279
	movq	48(%rsp), %r13
	movq	%r15, %rdx
	leaq	(%rdx,%r13), %r8
	movq	40(%rsp), %r15
	cmpq	%r8, %r13
	jb	.LBB0_174
	jmp	.LBB0_175
.LBB0_184:
	leaq	104(%rsp), %rdi
	callq	L_4
.LBB0_185:
	cmpq	$0, 96(%rsp)
	je	.LBB0_194
	movq	40(%rsp), %rdi
	callq	rattle_dealloc
	movb	$3, %al
	movzbl	%al, %ebx
	leaq	.Lstatic.27(%rip), %r14
	movl	$15, %r15d
	xorl	%ebp, %ebp
	leaq	.LJTI0_0(%rip), %rax
	movslq	(%rax,%rbx,4), %rcx
	addq	%rax, %rcx
	jmpq	*%rcx
.LBB0_187:
	testq	%rbx, %rbx
	je	.LBB0_189
	movq	%r15, %rdi
	callq	rattle_dealloc
.LBB0_189:
	movq	104(%rsp), %rbx
	movq	120(%rsp), %r14
	testq	%rbp, %rbp
	je	.LBB0_232
	leaq	16(%rbx), %r15
	jmp	.LBB0_192
	.p2align	4
.LBB0_191:
	addq	$24, %r15
	decq	%rbp
	je	.LBB0_232
.LBB0_192:
	cmpq	$0, (%r15)
	je	.LBB0_191
	movq	-16(%r15), %rdi
	callq	rattle_dealloc
	jmp	.LBB0_191
.LBB0_196:
	leaq	104(%rsp), %rdi
	callq	L_4
.LBB0_197:
	cmpq	$0, 16(%rsp)
	je	.LBB0_202
	movq	40(%rsp), %rdi
	callq	rattle_dealloc
	movb	$3, %al
	movzbl	%al, %ebx
	leaq	.Lstatic.27(%rip), %r14
	movl	$15, %r15d
	xorl	%ebp, %ebp
	leaq	.LJTI0_0(%rip), %rax
	movslq	(%rax,%rbx,4), %rcx
	addq	%rax, %rcx
	jmpq	*%rcx
.LBB0_199:
	leaq	104(%rsp), %rdi
	callq	L_4
.LBB0_200:
	cmpq	$0, 16(%rsp)
	je	.LBB0_204
	movq	40(%rsp), %rdi
	callq	rattle_dealloc
	movb	$3, %al
	movzbl	%al, %ebx
	leaq	.Lstatic.27(%rip), %r14
	movl	$15, %r15d
	xorl	%ebp, %ebp
	leaq	.LJTI0_0(%rip), %rax
	movslq	(%rax,%rbx,4), %rcx
	addq	%rax, %rcx
	jmpq	*%rcx
.LBB0_207:
	leaq	104(%rsp), %rdi
	callq	L_4
	cmpq	$0, 96(%rsp)
	je	.LBB0_224
	movq	40(%rsp), %rdi
	callq	rattle_dealloc
	movb	$2, %al
	movzbl	%al, %ebx
	leaq	.Lstatic.27(%rip), %r14
	movl	$15, %r15d
	xorl	%ebp, %ebp
	leaq	.LJTI0_0(%rip), %rax
	movslq	(%rax,%rbx,4), %rcx
	addq	%rax, %rcx
	jmpq	*%rcx
.LBB0_209:
	movzbl	24(%rsp), %ecx
	movl	25(%rsp), %eax
	xorps	%xmm0, %xmm0
	movaps	%xmm0, 64(%rsp)
	movq	$0, 80(%rsp)
	testl	%ecx, %ecx
	je	.LBB0_234
	cmpl	$1, %ecx
	jne	.LBB0_235
	cmpl	$16777216, %eax
	jae	.LBB0_236
	jmp	.LBB0_246
.LBB0_212:
	movb	$5, %r15b
	cmpq	$0, 96(%rsp)
	je	.LBB0_195
	movq	40(%rsp), %rdi
	callq	rattle_dealloc
	jmp	.LBB0_195
.LBB0_214:
	leaq	104(%rsp), %rdi
	callq	L_4
	cmpq	$0, 16(%rsp)
	je	.LBB0_249
	movq	40(%rsp), %rdi
	callq	rattle_dealloc
	movb	$2, %al
	movzbl	%al, %ebx
	leaq	.Lstatic.27(%rip), %r14
	movl	$15, %r15d
	xorl	%ebp, %ebp
	leaq	.LJTI0_0(%rip), %rax
	movslq	(%rax,%rbx,4), %rcx
	addq	%rax, %rcx
	jmpq	*%rcx
.LBB0_216:
	leaq	104(%rsp), %rdi
	callq	L_4
	cmpq	$0, 16(%rsp)
	je	.LBB0_250
	movq	40(%rsp), %rdi
	callq	rattle_dealloc
	movb	$2, %al
	movzbl	%al, %ebx
	leaq	.Lstatic.27(%rip), %r14
	movl	$15, %r15d
	xorl	%ebp, %ebp
	leaq	.LJTI0_0(%rip), %rax
	movslq	(%rax,%rbx,4), %rcx
	addq	%rax, %rcx
	jmpq	*%rcx
.LBB0_218:
	cmpl	$16777216, 24(%rsp)
	xorps	%xmm0, %xmm0
	movaps	%xmm0, 64(%rsp)
	movq	$0, 80(%rsp)
	jb	.LBB0_258
	leaq	.Lstatic.6(%rip), %rax
	negq	%rax
	addq	%rsp, %rax
	addq	$64, %rax
	cmpq	$2, %rax
	ja	.LBB0_254
	movw	$-16401, 64(%rsp)
	movb	$-67, 66(%rsp)
	xorl	%r14d, %r14d
	jmp	.LBB0_255
.LBB0_221:
	cmpl	$16777216, 24(%rsp)
	xorps	%xmm0, %xmm0
	movaps	%xmm0, 64(%rsp)
	movq	$0, 80(%rsp)
	jb	.LBB0_264
	leaq	.Lstatic.6(%rip), %rax
	negq	%rax
	addq	%rsp, %rax
	addq	$64, %rax
	cmpq	$2, %rax
	ja	.LBB0_260
	movw	$-16401, 64(%rsp)
	movb	$-67, 66(%rsp)
	xorl	%r14d, %r14d
	jmp	.LBB0_261
.LBB0_224:
	movb	$2, %r15b
	jmp	.LBB0_195
.LBB0_225:
	testq	%rbx, %rbx
	je	.LBB0_227
	movq	%r15, %rdi
	callq	rattle_dealloc
.LBB0_227:
	movq	104(%rsp), %rbx
	movq	112(%rsp), %r15
	movq	120(%rsp), %r14
	testq	%r15, %r15
	je	.LBB0_232
	leaq	16(%rbx), %r12
	jmp	.LBB0_230
.LBB0_229:
	addq	$24, %r12
	decq	%r15
	je	.LBB0_232
.LBB0_230:
	cmpq	$0, (%r12)
	je	.LBB0_229
	movq	-16(%r12), %rdi
	callq	rattle_dealloc
	jmp	.LBB0_229
.LBB0_232:
	testq	%r14, %r14
	je	.LBB0_69
	movq	%rbx, %rdi
	jmp	.LBB0_68
.LBB0_234:
	cmpb	$1, %al
	je	.LBB0_236
	jmp	.LBB0_246
.LBB0_235:
	cmpl	$16777215, %eax
	jbe	.LBB0_246
.LBB0_236:
	leaq	.Lstatic.6(%rip), %rax
	negq	%rax
	addq	%rsp, %rax
	addq	$64, %rax
	cmpq	$2, %rax
	ja	.LBB0_242
	movw	$-16401, 64(%rsp)
	movb	$-67, 66(%rsp)
	xorl	%r14d, %r14d
	jmp	.LBB0_243
.LBB0_238:
	movb	$5, %r12b
	cmpq	$0, 16(%rsp)
	je	.LBB0_203
	movq	40(%rsp), %rdi
	callq	rattle_dealloc
	jmp	.LBB0_203
.LBB0_240:
	movb	$5, %r12b
	cmpq	$0, 16(%rsp)
	je	.LBB0_205
	movq	40(%rsp), %rdi
	callq	rattle_dealloc
	jmp	.LBB0_205
.LBB0_242:
	movb	$-67, 66(%rsp)
	movw	$-16401, 64(%rsp)
	xorl	%r14d, %r14d
.LBB0_243:
	leaq	(%rsp,%r14), %rsi
	addq	$64, %rsi
	movq	%r14, %rbx
	xorq	$3, %rbx
	movl	$1, %edi
	movq	%rbx, %rdx
	callq	sysv_write
	testq	%rax, %rax
	js	.LBB0_251
	cmpq	%rbx, %rax
	cmovbq	%rax, %rbx
	testq	%rbx, %rbx
	je	.LBB0_252
	addq	%rbx, %r14
	cmpq	$2, %r14
	jbe	.LBB0_243
.LBB0_246:
	cmpq	$0, 96(%rsp)
	je	.LBB0_248
	movq	40(%rsp), %rdi
	callq	rattle_dealloc
	xorl	%eax, %eax
	movzbl	%al, %ebx
	leaq	.Lstatic.27(%rip), %r14
	movl	$15, %r15d
	xorl	%ebp, %ebp
	leaq	.LJTI0_0(%rip), %rax
	movslq	(%rax,%rbx,4), %rcx
	addq	%rax, %rcx
	jmpq	*%rcx
.LBB0_248:
	xorl	%r15d, %r15d
	jmp	.LBB0_195
.LBB0_249:
	movb	$2, %r12b
	jmp	.LBB0_203
.LBB0_250:
	movb	$2, %r12b
	jmp	.LBB0_205
.LBB0_251:
	leaq	104(%rsp), %rdi
	callq	L_4
.LBB0_252:
	cmpq	$0, 96(%rsp)
	je	.LBB0_194
	movq	40(%rsp), %rdi
	callq	rattle_dealloc
	movb	$3, %al
	movzbl	%al, %ebx
	leaq	.Lstatic.27(%rip), %r14
	movl	$15, %r15d
	xorl	%ebp, %ebp
	leaq	.LJTI0_0(%rip), %rax
	movslq	(%rax,%rbx,4), %rcx
	addq	%rax, %rcx
	jmpq	*%rcx
.LBB0_194:
	movb	$3, %r15b
.LBB0_195:
	movzbl	%r15b, %ebx
	leaq	.Lstatic.27(%rip), %r14
	movl	$15, %r15d
	xorl	%ebp, %ebp
	leaq	.LJTI0_0(%rip), %rax
	movslq	(%rax,%rbx,4), %rcx
	addq	%rax, %rcx
	jmpq	*%rcx
.LBB0_254:
	movb	$-67, 66(%rsp)
	movw	$-16401, 64(%rsp)
	xorl	%r14d, %r14d
.LBB0_255:
	leaq	(%rsp,%r14), %rsi
	addq	$64, %rsi
	movq	%r14, %rbx
	xorq	$3, %rbx
	movl	$1, %edi
	movq	%rbx, %rdx
	callq	sysv_write
	testq	%rax, %rax
	js	.LBB0_268
	cmpq	%rbx, %rax
	cmovbq	%rax, %rbx
	testq	%rbx, %rbx
	je	.LBB0_269
	addq	%rbx, %r14
	cmpq	$2, %r14
	jbe	.LBB0_255
.LBB0_258:
	cmpq	$0, 16(%rsp)
	je	.LBB0_266
	movq	40(%rsp), %rdi
	callq	rattle_dealloc
	xorl	%eax, %eax
	movzbl	%al, %ebx
	leaq	.Lstatic.27(%rip), %r14
	movl	$15, %r15d
	xorl	%ebp, %ebp
	leaq	.LJTI0_0(%rip), %rax
	movslq	(%rax,%rbx,4), %rcx
	addq	%rax, %rcx
	jmpq	*%rcx
.LBB0_260:
	movb	$-67, 66(%rsp)
	movw	$-16401, 64(%rsp)
	xorl	%r14d, %r14d
.LBB0_261:
	leaq	(%rsp,%r14), %rsi
	addq	$64, %rsi
	movq	%r14, %rbx
	xorq	$3, %rbx
	movl	$1, %edi
	movq	%rbx, %rdx
	callq	sysv_write
	testq	%rax, %rax
	js	.LBB0_271
	cmpq	%rbx, %rax
	cmovbq	%rax, %rbx
	testq	%rbx, %rbx
	je	.LBB0_272
	addq	%rbx, %r14
	cmpq	$2, %r14
	jbe	.LBB0_261
.LBB0_264:
	cmpq	$0, 16(%rsp)
	je	.LBB0_267
	movq	40(%rsp), %rdi
	callq	rattle_dealloc
	xorl	%eax, %eax
	movzbl	%al, %ebx
	leaq	.Lstatic.27(%rip), %r14
	movl	$15, %r15d
	xorl	%ebp, %ebp
	leaq	.LJTI0_0(%rip), %rax
	movslq	(%rax,%rbx,4), %rcx
	addq	%rax, %rcx
	jmpq	*%rcx
.LBB0_266:
	xorl	%r12d, %r12d
	jmp	.LBB0_203
.LBB0_267:
	xorl	%r12d, %r12d
	jmp	.LBB0_205
.LBB0_268:
	leaq	104(%rsp), %rdi
	callq	L_4
.LBB0_269:
	cmpq	$0, 16(%rsp)
	je	.LBB0_202
	movq	40(%rsp), %rdi
	callq	rattle_dealloc
	movb	$3, %al
	movzbl	%al, %ebx
	leaq	.Lstatic.27(%rip), %r14
	movl	$15, %r15d
	xorl	%ebp, %ebp
	leaq	.LJTI0_0(%rip), %rax
	movslq	(%rax,%rbx,4), %rcx
	addq	%rax, %rcx
	jmpq	*%rcx
.LBB0_202:
	movb	$3, %r12b
.LBB0_203:
	movzbl	%r12b, %ebx
	leaq	.Lstatic.27(%rip), %r14
	movl	$15, %r15d
	xorl	%ebp, %ebp
	leaq	.LJTI0_0(%rip), %rax
	movslq	(%rax,%rbx,4), %rcx
	addq	%rax, %rcx
	jmpq	*%rcx
.LBB0_271:
	leaq	104(%rsp), %rdi
	callq	L_4
.LBB0_272:
	cmpq	$0, 16(%rsp)
	je	.LBB0_204
	movq	40(%rsp), %rdi
	callq	rattle_dealloc
	movb	$3, %al
	movzbl	%al, %ebx
	leaq	.Lstatic.27(%rip), %r14
	movl	$15, %r15d
	xorl	%ebp, %ebp
	leaq	.LJTI0_0(%rip), %rax
	movslq	(%rax,%rbx,4), %rcx
	addq	%rax, %rcx
	jmpq	*%rcx
.LBB0_204:
	movb	$3, %r12b
.LBB0_205:
	movzbl	%r12b, %ebx
	leaq	.Lstatic.27(%rip), %r14
	movl	$15, %r15d
	xorl	%ebp, %ebp
	leaq	.LJTI0_0(%rip), %rax
	movslq	(%rax,%rbx,4), %rcx
	addq	%rax, %rcx
	jmpq	*%rcx
.LBB0_206:
	leaq	.Lstatic.26(%rip), %r14
	movl	$14, %r15d
	jmp	.LBB0_71
.LBB0_275:
	cmpq	$0, 16(%rsp)
	je	.LBB0_281
	movq	40(%rsp), %rdi
	callq	rattle_dealloc
	movb	$4, %al
	movzbl	%al, %ebx
	leaq	.Lstatic.27(%rip), %r14
	movl	$15, %r15d
	xorl	%ebp, %ebp
	leaq	.LJTI0_0(%rip), %rax
	movslq	(%rax,%rbx,4), %rcx
	addq	%rax, %rcx
	jmpq	*%rcx
.LBB0_277:
	testq	%r12, %r12
	je	.LBB0_282
	movq	40(%rsp), %rdi
	callq	rattle_dealloc
	movb	$4, %al
	movzbl	%al, %ebx
	leaq	.Lstatic.27(%rip), %r14
	movl	$15, %r15d
	xorl	%ebp, %ebp
	leaq	.LJTI0_0(%rip), %rax
	movslq	(%rax,%rbx,4), %rcx
	addq	%rax, %rcx
	jmpq	*%rcx
.LBB0_279:
	testq	%r12, %r12
	je	.LBB0_283
	movq	40(%rsp), %rdi
	callq	rattle_dealloc
	movb	$4, %al
	movzbl	%al, %ebx
	leaq	.Lstatic.27(%rip), %r14
	movl	$15, %r15d
	xorl	%ebp, %ebp
	leaq	.LJTI0_0(%rip), %rax
	movslq	(%rax,%rbx,4), %rcx
	addq	%rax, %rcx
	jmpq	*%rcx
.LBB0_274:
	leaq	.Lstatic.29(%rip), %r14
	movl	$17, %r15d
	jmp	.LBB0_71
.LBB0_281:
	movb	$4, %r15b
	jmp	.LBB0_195
.LBB0_282:
	movb	$4, %r12b
	jmp	.LBB0_203
.LBB0_283:
	movb	$4, %r12b
	jmp	.LBB0_205
.Lfunc_end0:
	.section	.rdata$001,"dr"
	.p2align	2, 0x0
.LJTI0_0:
	.long	.LBB0_84-.LJTI0_0
	.long	.LBB0_82-.LJTI0_0
	.long	.LBB0_206-.LJTI0_0
	.long	.LBB0_72-.LJTI0_0
	.long	.LBB0_70-.LJTI0_0
	.long	.LBB0_274-.LJTI0_0

	.section	.text$002,"xr"
	.p2align	4
L_1:
	movq	%rsi, %rax
	movq	8(%rdi), %rsi
	addq	%rsi, %rax
	jae	.LBB1_2
	xorl	%eax, %eax
	retq
.LBB1_2:
	pushq	%r14
	pushq	%rbx
	pushq	%rax
	cmpq	$9, %rax
	movl	$8, %ebx
	cmovaeq	%rax, %rbx
	movq	16(%rdi), %rcx
	movq	%rcx, %rdx
	shrq	$62, %rdx
	leaq	(%rcx,%rcx), %rax
	cmpq	%rax, %rbx
	cmovaq	%rbx, %rax
	testq	%rdx, %rdx
	cmoveq	%rax, %rbx
	testq	%rbx, %rbx
	js	.LBB1_6
	testq	%rcx, %rcx
	je	.LBB1_8
	movq	%rdi, %r14
	movq	(%rdi), %rdi
	movl	$1, %ecx
	movq	%rbx, %rdx
	callq	rattle_realloc
	testb	$1, %al
	je	.LBB1_6
.LBB1_9:
	movq	%rdx, (%r14)
	movq	%rbx, 16(%r14)
	movb	$1, %al
	addq	$8, %rsp
	popq	%rbx
	popq	%r14
	retq
.LBB1_8:
	movq	%rdi, %r14
	movl	$1, %esi
	movq	%rax, %rdi
	callq	rattle_alloc
	testb	$1, %al
	jne	.LBB1_9
.LBB1_6:
	xorl	%eax, %eax
	addq	$8, %rsp
	popq	%rbx
	popq	%r14
	retq
.Lfunc_end1:

	.section	.text$003,"xr"
	.p2align	4
L_2:
	pushq	%r15
	pushq	%r14
	pushq	%r13
	pushq	%r12
	pushq	%rbx
	subq	$16, %rsp
	movq	%rdx, %r15
	movq	%rsi, %r14
	movq	%rdi, %rbx
	testq	%rdx, %rdx
	je	.LBB2_57
	movabsq	$-9187201950435737472, %r12
	leaq	-8(%r15), %r13
	xorl	%ecx, %ecx
	jmp	.LBB2_5
.LBB2_25:
	movl	$1, %edi
.LBB2_3:
	addq	%rcx, %rdi
.LBB2_4:
	movq	%rdi, %rcx
	cmpq	%r15, %rdi
	jae	.LBB2_57
.LBB2_5:
	movzbl	(%r14,%rcx), %esi
	testb	%sil, %sil
	sets	%dl
	movq	%r15, %rax
	subq	%rcx, %rax
	cmpq	$2, %rax
	setb	%dil
	orb	%dl, %dil
	jne	.LBB2_2
	cmpb	$0, 1(%r14,%rcx)
	js	.LBB2_25
	movq	%r14, (%rsp)
	movq	%r15, 8(%rsp)
	cmpq	$7, %rax
	ja	.LBB2_26
	cmpb	$0, (%r14,%rcx)
	js	.LBB2_36
	leaq	1(%rcx), %rdi
	cmpq	%r15, %rdi
	je	.LBB2_57
	cmpb	$0, (%r14,%rdi)
	js	.LBB2_4
	leaq	2(%rcx), %rdi
	cmpq	%r15, %rdi
	je	.LBB2_57
	cmpb	$0, (%r14,%rdi)
	js	.LBB2_4
	leaq	3(%rcx), %rdi
	cmpq	%r15, %rdi
	je	.LBB2_57
	cmpb	$0, (%r14,%rdi)
	js	.LBB2_4
	leaq	4(%rcx), %rdi
	cmpq	%r15, %rdi
	je	.LBB2_57
	cmpb	$0, (%r14,%rdi)
	js	.LBB2_4
	leaq	5(%rcx), %rdi
	cmpq	%r15, %rdi
	je	.LBB2_57
	cmpb	$0, (%r14,%rdi)
	js	.LBB2_4
	addq	$6, %rcx
	cmpq	%r15, %rcx
	je	.LBB2_57
	cmpb	$0, (%r14,%rcx)
	movq	%rcx, %rdi
	js	.LBB2_4
	jmp	.LBB2_57
	.p2align	4
.LBB2_2:
	movl	$1, %edi
	testb	%sil, %sil
	jns	.LBB2_3
	movl	$257, %edx
	cmpb	$-62, %sil
	jb	.LBB2_66
	cmpb	$-33, %sil
	ja	.LBB2_29
	cmpq	$2, %rax
	jb	.LBB2_58
	movzbl	1(%r14,%rcx), %r8d
	movl	$2, %edi
	cmpb	$-65, %r8b
	jle	.LBB2_3
	jmp	.LBB2_60
.LBB2_26:
	movq	(%r14,%rcx), %rax
	andq	%r12, %rax
	je	.LBB2_37
	rep		bsfq	%rax, %rax
	shrl	$3, %eax
	addq	%rcx, %rax
	addq	$8, %rcx
	movq	%rax, %rdi
	cmpq	%rcx, %rax
	jb	.LBB2_4
	movq	%r15, %rcx
	subq	%rax, %rcx
	cmpq	$32, %rcx
	jae	.LBB2_38
	jmp	.LBB2_40
.LBB2_29:
	cmpb	$-17, %sil
	ja	.LBB2_48
	cmpq	$3, %rax
	jb	.LBB2_55
	movzbl	1(%r14,%rcx), %r8d
	cmpb	$-65, %r8b
	jg	.LBB2_60
	cmpb	$-65, 2(%r14,%rcx)
	jg	.LBB2_60
	movzbl	%r8b, %edi
	movl	%esi, %r9d
	shll	$6, %r9d
	addl	%edi, %r9d
	addl	$-14464, %r9d
	cmpl	$32, %r9d
	jb	.LBB2_60
	xorl	%r8d, %r8d
	cmpl	$896, %r9d
	setae	%r10b
	movl	$3, %edi
	cmpl	$864, %r9d
	jb	.LBB2_3
	movb	%r10b, %r8b
	leaq	(%r8,%r8,2), %rdi
	testq	%rdi, %rdi
	jne	.LBB2_3
	jmp	.LBB2_54
.LBB2_36:
	movq	%rcx, %rdi
	jmp	.LBB2_4
.LBB2_37:
	addq	$8, %rcx
	movq	%rcx, %rax
	movq	%r15, %rcx
	subq	%rax, %rcx
	cmpq	$32, %rcx
	jb	.LBB2_40
	.p2align	4
.LBB2_38:
	movdqu	(%r14,%rax), %xmm0
	movdqu	16(%r14,%rax), %xmm1
	por	%xmm0, %xmm1
	pshufd	$238, %xmm1, %xmm0
	por	%xmm1, %xmm0
	movq	%xmm0, %rcx
	testq	%r12, %rcx
	jne	.LBB2_40
	addq	$32, %rax
	movq	%rsp, %rdi
	movq	%rax, %rsi
	movq	%r15, %rdx
	callq	L_7
	movq	%r15, %rcx
	subq	%rax, %rcx
	cmpq	$31, %rcx
	ja	.LBB2_38
.LBB2_40:
	movq	%r15, %rcx
	subq	%rax, %rcx
	jmp	.LBB2_43
	.p2align	4
.LBB2_41:
	rep		bsfq	%rdx, %rdi
	shrl	$3, %edi
	addq	%rax, %rdi
	addq	$8, %rax
	addq	$-8, %rcx
	cmpq	%rax, %rdi
	jb	.LBB2_4
.LBB2_43:
	cmpq	$9, %rcx
	jb	.LBB2_46
	movq	(%r14,%rax), %rdx
	andq	%r12, %rdx
	jne	.LBB2_41
	leaq	8(%rax), %rdi
	addq	$8, %rax
	addq	$-8, %rcx
	cmpq	%rax, %rdi
	jae	.LBB2_43
	jmp	.LBB2_4
.LBB2_46:
	movq	(%r14,%r13), %rax
	andq	%r12, %rax
	je	.LBB2_57
	rep		bsfq	%rax, %rdi
	shrl	$3, %edi
	addq	%r13, %rdi
	jmp	.LBB2_4
.LBB2_48:
	cmpq	$4, %rax
	jb	.LBB2_54
	movzbl	1(%r14,%rcx), %edi
	cmpb	$-65, %dil
	jg	.LBB2_54
	cmpb	$-65, 2(%r14,%rcx)
	jg	.LBB2_54
	cmpb	$-65, 3(%r14,%rcx)
	jg	.LBB2_54
	movl	%esi, %r8d
	shll	$6, %r8d
	leal	(%r8,%rdi), %r9d
	addl	$-15488, %r9d
	xorl	%edi, %edi
	cmpl	$272, %r9d
	setb	%r8b
	cmpl	$16, %r9d
	jb	.LBB2_54
	movb	%r8b, %dil
	shll	$2, %edi
	testq	%rdi, %rdi
	jne	.LBB2_3
.LBB2_54:
	cmpb	$-12, %sil
	ja	.LBB2_66
.LBB2_55:
	cmpq	$2, %rax
	jb	.LBB2_58
	movzbl	1(%r14,%rcx), %r8d
.LBB2_60:
	cmpl	$240, %esi
	sete	%dil
	shlb	$4, %dil
	orb	$-128, %dil
	cmpl	$224, %esi
	movzbl	%dil, %edi
	movl	$160, %r9d
	cmovnel	%edi, %r9d
	cmpl	$244, %esi
	movl	$143, %edi
	movl	$191, %r10d
	cmovel	%edi, %r10d
	cmpl	$237, %esi
	movl	$159, %esi
	cmovnel	%r10d, %esi
	cmpb	%r8b, %r9b
	ja	.LBB2_66
	cmpb	%sil, %r8b
	ja	.LBB2_66
	cmpq	$2, %rax
	jne	.LBB2_64
.LBB2_58:
	xorl	%edx, %edx
.LBB2_66:
	movq	$1, (%rbx)
	movq	%rcx, 8(%rbx)
	movq	%rdx, 16(%rbx)
	jmp	.LBB2_67
.LBB2_57:
	movq	$0, (%rbx)
	movq	%r14, 8(%rbx)
	movq	%r15, 16(%rbx)
.LBB2_67:
	addq	$16, %rsp
	popq	%rbx
	popq	%r12
	popq	%r13
	popq	%r14
	popq	%r15
	retq
.LBB2_64:
	movl	$513, %edx
	cmpb	$-65, 2(%r14,%rcx)
	jg	.LBB2_66
	xorl	%esi, %esi
	cmpq	$4, %rax
	movl	$769, %edx
	cmovbq	%rsi, %rdx
	jmp	.LBB2_66
.Lfunc_end2:

	.section	.rdata$004,"dr"
	.p2align	4, 0x0
.LCPI3_0:
	.zero	16,128
	.section	.text$005,"xr"
	.p2align	4
L_7:
	movq	%rsi, %rax
	subq	%rsi, %rdx
	cmpq	$64, %rdx
	jb	.LBB3_4
	movq	(%rdi), %rcx
	.p2align	4
.LBB3_2:
	movdqu	(%rcx,%rax), %xmm0
	movdqu	16(%rcx,%rax), %xmm1
	movdqu	32(%rcx,%rax), %xmm2
	por	%xmm0, %xmm2
	movdqu	48(%rcx,%rax), %xmm0
	por	%xmm1, %xmm0
	por	%xmm2, %xmm0
	ptest	.LCPI3_0(%rip), %xmm0
	jne	.LBB3_4
	addq	$64, %rax
	addq	$-64, %rdx
	cmpq	$63, %rdx
	ja	.LBB3_2
.LBB3_4:
	retq
.Lfunc_end3:

	.section	.text$006,"xr"
	.p2align	4
L_3:
	movq	8(%rdi), %rax
	cmpq	$-1, %rax
	je	.LBB4_5
	pushq	%r14
	pushq	%rbx
	pushq	%rax
	movq	16(%rdi), %rcx
	cmpq	$4, %rax
	movl	$3, %ebx
	cmovaeq	%rax, %rbx
	incq	%rbx
	movq	%rcx, %rsi
	shrq	$62, %rsi
	leaq	(%rcx,%rcx), %rdx
	cmpq	%rdx, %rbx
	cmovaq	%rbx, %rdx
	testq	%rsi, %rsi
	cmoveq	%rdx, %rbx
	movabsq	$384307168202282325, %rsi
	cmpq	%rsi, %rbx
	ja	.LBB4_6
	testq	%rcx, %rcx
	je	.LBB4_8
	movq	%rdi, %r14
	movq	(%rdi), %rdi
	shlq	$3, %rax
	leaq	(%rax,%rax,2), %rsi
	leaq	(,%rbx,8), %rax
	leaq	(%rax,%rax,2), %rdx
	movl	$8, %ecx
	callq	rattle_realloc
	testb	$1, %al
	je	.LBB4_6
.LBB4_9:
	movq	%rdx, (%r14)
	movq	%rbx, 16(%r14)
	movb	$1, %al
	addq	$8, %rsp
	popq	%rbx
	popq	%r14
	retq
.LBB4_5:
	xorl	%eax, %eax
	retq
.LBB4_8:
	movq	%rdi, %r14
	shlq	$3, %rdx
	leaq	(%rdx,%rdx,2), %rdi
	movl	$8, %esi
	callq	rattle_alloc
	testb	$1, %al
	jne	.LBB4_9
.LBB4_6:
	xorl	%eax, %eax
	addq	$8, %rsp
	popq	%rbx
	popq	%r14
	retq
.Lfunc_end4:

	.section	.text$007,"xr"
	.p2align	4
L_4:
	pushq	%rbx
	movq	%rdi, %rbx
	callq	rattle_errno
	movl	%eax, %ecx
	movb	$41, %dl
	testl	%eax, %eax
	js	.LBB5_40
	decl	%eax
	cmpl	$121, %eax
	ja	.LBB5_40
	leaq	.LJTI5_0(%rip), %rsi
	movslq	(%rsi,%rax,4), %rax
	addq	%rsi, %rax
	jmpq	*%rax
.LBB5_3:
	movb	$1, %dl
	jmp	.LBB5_40
.LBB5_24:
	movb	$36, %dl
	jmp	.LBB5_40
.LBB5_36:
	movb	$4, %dl
	jmp	.LBB5_40
.LBB5_33:
	movb	$7, %dl
	jmp	.LBB5_40
.LBB5_39:
	movb	$26, %dl
	jmp	.LBB5_40
.LBB5_37:
	movb	$39, %dl
	jmp	.LBB5_40
.LBB5_28:
	movb	$9, %dl
	jmp	.LBB5_40
.LBB5_27:
	movb	$8, %dl
	jmp	.LBB5_40
.LBB5_22:
	movb	$30, %dl
	jmp	.LBB5_40
.LBB5_18:
	movb	$25, %dl
	jmp	.LBB5_40
.LBB5_20:
	movb	$32, %dl
	jmp	.LBB5_40
.LBB5_23:
	movb	$33, %dl
	jmp	.LBB5_40
.LBB5_34:
	movb	$22, %dl
	jmp	.LBB5_40
.LBB5_11:
	movb	$31, %dl
	jmp	.LBB5_40
.LBB5_15:
	movb	$29, %dl
	jmp	.LBB5_40
.LBB5_26:
	movb	$18, %dl
	jmp	.LBB5_40
.LBB5_29:
	movb	$10, %dl
	jmp	.LBB5_40
.LBB5_9:
	movb	$28, %dl
	jmp	.LBB5_40
.LBB5_12:
	movb	$14, %dl
	jmp	.LBB5_40
.LBB5_10:
	movb	$12, %dl
	jmp	.LBB5_40
.LBB5_30:
	movb	$5, %dl
	jmp	.LBB5_40
.LBB5_32:
	movb	$3, %dl
	jmp	.LBB5_40
.LBB5_4:
	xorl	%edx, %edx
	jmp	.LBB5_40
.LBB5_7:
	movb	$13, %dl
	jmp	.LBB5_40
.LBB5_8:
	movb	$38, %dl
	jmp	.LBB5_40
.LBB5_21:
	movb	$11, %dl
	jmp	.LBB5_40
.LBB5_5:
	movb	$35, %dl
	jmp	.LBB5_40
.LBB5_6:
	movb	$34, %dl
	jmp	.LBB5_40
.LBB5_14:
	movb	$20, %dl
	jmp	.LBB5_40
.LBB5_13:
	movb	$15, %dl
	jmp	.LBB5_40
.LBB5_38:
	movb	$19, %dl
	jmp	.LBB5_40
.LBB5_25:
	movb	$16, %dl
	jmp	.LBB5_40
.LBB5_31:
	movb	$6, %dl
	jmp	.LBB5_40
.LBB5_16:
	movb	$27, %dl
	jmp	.LBB5_40
.LBB5_17:
	movb	$24, %dl
	jmp	.LBB5_40
.LBB5_35:
	movb	$2, %dl
	jmp	.LBB5_40
.LBB5_19:
	movb	$17, %dl
.LBB5_40:
	movb	$0, (%rbx)
	movb	%dl, 1(%rbx)
	movw	$0, 2(%rbx)
	movl	%ecx, 4(%rbx)
	xorps	%xmm0, %xmm0
	movups	%xmm0, 8(%rbx)
	movups	%xmm0, 24(%rbx)
	movups	%xmm0, 40(%rbx)
	movups	%xmm0, 56(%rbx)
	movups	%xmm0, 72(%rbx)
	popq	%rbx
	retq
.Lfunc_end5:
	.section	.rdata$008,"dr"
	.p2align	2, 0x0
.LJTI5_0:
	.long	.LBB5_3-.LJTI5_0
	.long	.LBB5_4-.LJTI5_0
	.long	.LBB5_40-.LJTI5_0
	.long	.LBB5_5-.LJTI5_0
	.long	.LBB5_40-.LJTI5_0
	.long	.LBB5_40-.LJTI5_0
	.long	.LBB5_6-.LJTI5_0
	.long	.LBB5_40-.LJTI5_0
	.long	.LBB5_40-.LJTI5_0
	.long	.LBB5_40-.LJTI5_0
	.long	.LBB5_7-.LJTI5_0
	.long	.LBB5_8-.LJTI5_0
	.long	.LBB5_3-.LJTI5_0
	.long	.LBB5_40-.LJTI5_0
	.long	.LBB5_40-.LJTI5_0
	.long	.LBB5_9-.LJTI5_0
	.long	.LBB5_10-.LJTI5_0
	.long	.LBB5_11-.LJTI5_0
	.long	.LBB5_40-.LJTI5_0
	.long	.LBB5_12-.LJTI5_0
	.long	.LBB5_13-.LJTI5_0
	.long	.LBB5_14-.LJTI5_0
	.long	.LBB5_40-.LJTI5_0
	.long	.LBB5_40-.LJTI5_0
	.long	.LBB5_40-.LJTI5_0
	.long	.LBB5_15-.LJTI5_0
	.long	.LBB5_16-.LJTI5_0
	.long	.LBB5_17-.LJTI5_0
	.long	.LBB5_18-.LJTI5_0
	.long	.LBB5_19-.LJTI5_0
	.long	.LBB5_20-.LJTI5_0
	.long	.LBB5_21-.LJTI5_0
	.long	.LBB5_40-.LJTI5_0
	.long	.LBB5_40-.LJTI5_0
	.long	.LBB5_22-.LJTI5_0
	.long	.LBB5_23-.LJTI5_0
	.long	.LBB5_40-.LJTI5_0
	.long	.LBB5_24-.LJTI5_0
	.long	.LBB5_25-.LJTI5_0
	.long	.LBB5_26-.LJTI5_0
	.long	.LBB5_40-.LJTI5_0
	.long	.LBB5_40-.LJTI5_0
	.long	.LBB5_40-.LJTI5_0
	.long	.LBB5_40-.LJTI5_0
	.long	.LBB5_40-.LJTI5_0
	.long	.LBB5_40-.LJTI5_0
	.long	.LBB5_40-.LJTI5_0
	.long	.LBB5_40-.LJTI5_0
	.long	.LBB5_40-.LJTI5_0
	.long	.LBB5_40-.LJTI5_0
	.long	.LBB5_40-.LJTI5_0
	.long	.LBB5_40-.LJTI5_0
	.long	.LBB5_40-.LJTI5_0
	.long	.LBB5_40-.LJTI5_0
	.long	.LBB5_40-.LJTI5_0
	.long	.LBB5_40-.LJTI5_0
	.long	.LBB5_40-.LJTI5_0
	.long	.LBB5_40-.LJTI5_0
	.long	.LBB5_40-.LJTI5_0
	.long	.LBB5_40-.LJTI5_0
	.long	.LBB5_40-.LJTI5_0
	.long	.LBB5_40-.LJTI5_0
	.long	.LBB5_40-.LJTI5_0
	.long	.LBB5_40-.LJTI5_0
	.long	.LBB5_40-.LJTI5_0
	.long	.LBB5_40-.LJTI5_0
	.long	.LBB5_40-.LJTI5_0
	.long	.LBB5_40-.LJTI5_0
	.long	.LBB5_40-.LJTI5_0
	.long	.LBB5_40-.LJTI5_0
	.long	.LBB5_40-.LJTI5_0
	.long	.LBB5_40-.LJTI5_0
	.long	.LBB5_40-.LJTI5_0
	.long	.LBB5_40-.LJTI5_0
	.long	.LBB5_40-.LJTI5_0
	.long	.LBB5_40-.LJTI5_0
	.long	.LBB5_40-.LJTI5_0
	.long	.LBB5_40-.LJTI5_0
	.long	.LBB5_40-.LJTI5_0
	.long	.LBB5_40-.LJTI5_0
	.long	.LBB5_40-.LJTI5_0
	.long	.LBB5_40-.LJTI5_0
	.long	.LBB5_40-.LJTI5_0
	.long	.LBB5_40-.LJTI5_0
	.long	.LBB5_40-.LJTI5_0
	.long	.LBB5_40-.LJTI5_0
	.long	.LBB5_40-.LJTI5_0
	.long	.LBB5_40-.LJTI5_0
	.long	.LBB5_40-.LJTI5_0
	.long	.LBB5_40-.LJTI5_0
	.long	.LBB5_40-.LJTI5_0
	.long	.LBB5_40-.LJTI5_0
	.long	.LBB5_40-.LJTI5_0
	.long	.LBB5_40-.LJTI5_0
	.long	.LBB5_24-.LJTI5_0
	.long	.LBB5_40-.LJTI5_0
	.long	.LBB5_40-.LJTI5_0
	.long	.LBB5_27-.LJTI5_0
	.long	.LBB5_28-.LJTI5_0
	.long	.LBB5_29-.LJTI5_0
	.long	.LBB5_30-.LJTI5_0
	.long	.LBB5_40-.LJTI5_0
	.long	.LBB5_31-.LJTI5_0
	.long	.LBB5_32-.LJTI5_0
	.long	.LBB5_40-.LJTI5_0
	.long	.LBB5_40-.LJTI5_0
	.long	.LBB5_33-.LJTI5_0
	.long	.LBB5_40-.LJTI5_0
	.long	.LBB5_40-.LJTI5_0
	.long	.LBB5_34-.LJTI5_0
	.long	.LBB5_35-.LJTI5_0
	.long	.LBB5_40-.LJTI5_0
	.long	.LBB5_36-.LJTI5_0
	.long	.LBB5_40-.LJTI5_0
	.long	.LBB5_37-.LJTI5_0
	.long	.LBB5_38-.LJTI5_0
	.long	.LBB5_40-.LJTI5_0
	.long	.LBB5_40-.LJTI5_0
	.long	.LBB5_40-.LJTI5_0
	.long	.LBB5_40-.LJTI5_0
	.long	.LBB5_40-.LJTI5_0
	.long	.LBB5_39-.LJTI5_0

	.section	.rdata$004,"dr"
	.p2align	4, 0x0
.LCPI6_0:
	.byte	1
	.byte	0
	.byte	3
	.byte	2
	.byte	5
	.byte	4
	.byte	7
	.byte	6
	.byte	9
	.byte	8
	.byte	11
	.byte	10
	.byte	13
	.byte	12
	.byte	15
	.byte	14
.LCPI6_1:
	.short	128
	.short	128
	.short	128
	.short	128
	.short	128
	.short	128
	.short	128
	.short	128
	.section	.text$009,"xr"
	.p2align	4
L_5:
	pushq	%rbp
	pushq	%r15
	pushq	%r14
	pushq	%r13
	pushq	%r12
	pushq	%rbx
	subq	$168, %rsp
	movq	%r8, 96(%rsp)
	movq	%rcx, 88(%rsp)
	movq	%rdx, 120(%rsp)
	movq	%rsi, 128(%rsp)
	movl	$0, 80(%rsp)
	movq	%rdi, 160(%rsp)
	movl	(%rdi), %eax
	movl	%eax, 60(%rsp)
	shrl	$24, %eax
	cmpb	$3, %al
	movl	$3, %r15d
	cmovbl	%eax, %r15d
	xorl	%r14d, %r14d
	xorl	%edi, %edi
	movq	%r15, 112(%rsp)
.LBB6_1:
	movq	%rdi, %rax
	subq	%r15, %rax
	movq	%r14, 144(%rsp)
	movq	%rdi, 136(%rsp)
	jae	.LBB6_44
	leaq	(%rsp,%rdi), %rsi
	addq	$60, %rsi
	subq	%rdi, %r15
	movl	$4, %r12d
	subq	%r15, %r12
	movq	120(%rsp), %rax
	cmpq	%rax, %r12
	cmovaeq	%rax, %r12
	movl	$0, 16(%rsp)
	leaq	16(%rsp), %rdi
	movq	%r15, %rdx
	callq	sysv_memcpy
	leaq	(%rsp,%r15), %rdi
	addq	$16, %rdi
	movq	128(%rsp), %rsi
	movq	%r12, %rdx
	callq	sysv_memcpy
	addq	%r15, %r12
	movl	16(%rsp), %eax
	movl	%eax, 84(%rsp)
	movq	88(%rsp), %rax
	addq	%r14, %rax
	movq	%rax, 72(%rsp)
	movq	96(%rsp), %rax
	subq	%r14, %rax
	movq	%rax, 64(%rsp)
	xorl	%r14d, %r14d
	xorl	%ebx, %ebx
	movq	%r12, 48(%rsp)
	jmp	.LBB6_5
	.p2align	4
.LBB6_3:
	movq	%r13, %rdi
	movq	%rbp, %rsi
	movq	%r15, %rdx
	movq	%r12, %rcx
	callq	L_8
.LBB6_4:
	movq	48(%rsp), %r12
	addq	%rax, %rbx
	addq	%rdx, %r14
.LBB6_5:
	leaq	(%rsp,%rbx), %r9
	addq	$84, %r9
	movq	%r12, %rdx
	subq	%rbx, %rdx
	movq	72(%rsp), %rax
	leaq	(%rax,%r14), %r13
	movq	64(%rsp), %r8
	subq	%r14, %r8
	pxor	%xmm0, %xmm0
	movdqa	%xmm0, 16(%rsp)
	movq	$0, 32(%rsp)
	leaq	-16(%rdx), %rax
	cmpq	$175, %rax
	ja	.LBB6_13
	movq	%rdx, %rax
	shrq	%rax
	cmpq	%rax, %r8
	cmovbq	%r8, %rax
	cmpq	$8, %rax
	jb	.LBB6_13
	leaq	(%rax,%rax), %rcx
	xorl	%r12d, %r12d
	xorl	%ebp, %ebp
	.p2align	4
.LBB6_8:
	movdqu	(%r9,%rbp,2), %xmm0
	pshufb	.LCPI6_0(%rip), %xmm0
	movdqa	.LCPI6_1(%rip), %xmm1
	pmaxuw	%xmm0, %xmm1
	pcmpeqw	%xmm0, %xmm1
	pmovmskb	%xmm1, %esi
	testl	%esi, %esi
	jne	.LBB6_28
	packuswb	%xmm0, %xmm0
	movq	%xmm0, (%r13,%rbp)
	addq	$8, %rbp
	leaq	(%rcx,%r12), %rsi
	addq	$-16, %rsi
	addq	$-16, %r12
	cmpq	$15, %rsi
	ja	.LBB6_8
	negq	%r12
	cmpq	%r12, %rcx
	jbe	.LBB6_14
	movdqu	-16(%r9,%rcx), %xmm0
	pshufb	.LCPI6_0(%rip), %xmm0
	movdqa	.LCPI6_1(%rip), %xmm1
	pmaxuw	%xmm0, %xmm1
	pcmpeqw	%xmm0, %xmm1
	pmovmskb	%xmm1, %esi
	testl	%esi, %esi
	jne	.LBB6_14
	packuswb	%xmm0, %xmm0
	movq	%xmm0, -8(%r13,%rax)
	movq	%rax, %rbp
	movq	%rcx, %r12
	movq	%rdx, %rax
	subq	%r12, %rax
	cmpq	$15, %rax
	ja	.LBB6_15
	jmp	.LBB6_29
	.p2align	4
.LBB6_13:
	xorl	%ebp, %ebp
	xorl	%r12d, %r12d
.LBB6_14:
	movq	%rdx, %rax
	subq	%r12, %rax
	cmpq	$15, %rax
	jbe	.LBB6_29
.LBB6_15:
	leaq	-8(%rdx), %rax
	cmpq	$183, %rax
	movq	%rbx, 104(%rsp)
	ja	.LBB6_17
	movq	%rdx, %rsi
	subq	%r12, %rsi
	cmpq	$8, %rsi
	jae	.LBB6_18
.LBB6_17:
	movq	%r9, %rbx
	movq	%r8, %r15
	cmpq	%rdx, %r12
	jne	.LBB6_19
	jmp	.LBB6_38
	.p2align	4
.LBB6_18:
	movq	%r9, %rbx
	leaq	(%r9,%r12), %rdi
	movq	%r13, %rax
	addq	%rbp, %rax
	movq	%r8, %r15
	movq	%r8, %rcx
	subq	%rbp, %rcx
	movq	%rdx, 152(%rsp)
	movq	%rax, %rdx
	callq	L_9
	movq	%rdx, %rcx
	movq	152(%rsp), %rdx
	addq	%rax, %r12
	addq	%rcx, %rbp
	cmpq	%rdx, %r12
	je	.LBB6_38
.LBB6_19:
	movq	%rbp, (%rsp)
	leaq	16(%rsp), %rdi
	movq	%rbx, %rsi
	movq	%r13, %rcx
	movq	%r15, %r8
	movq	%r12, %r9
	callq	L_10
	movq	104(%rsp), %rbx
	addq	16(%rsp), %rbx
	movzbl	32(%rsp), %eax
	addq	24(%rsp), %r14
	cmpb	$1, %al
	jne	.LBB6_39
	movq	72(%rsp), %rax
	leaq	(%rax,%r14), %r15
	movq	64(%rsp), %r12
	subq	%r14, %r12
	cmpq	$512, %r12
	jb	.LBB6_23
	leaq	(%rsp,%rbx), %r13
	addq	$84, %r13
	movq	48(%rsp), %rbp
	subq	%rbx, %rbp
	cmpq	$128, %rbp
	jb	.LBB6_3
	movq	%r13, %rdi
	movq	%rbp, %rsi
	movq	%r15, %rdx
	movq	%r12, %rcx
	callq	L_11
	cmpq	$127, %rax
	jbe	.LBB6_3
	jmp	.LBB6_4
	.p2align	4
.LBB6_23:
	cmpq	$2, %r12
	jbe	.LBB6_41
	movzbl	33(%rsp), %eax
	leaq	.Lstatic.6(%rip), %rcx
	movq	%r15, %rdx
	subq	%rcx, %rdx
	cmpq	$2, %rdx
	ja	.LBB6_26
	movw	$-16401, (%r15)
	movb	$-67, 2(%r15)
	jmp	.LBB6_27
	.p2align	4
.LBB6_26:
	movb	$-67, 2(%r15)
	movw	$-16401, (%r15)
.LBB6_27:
	movl	$3, %edx
	jmp	.LBB6_4
.LBB6_28:
	negq	%r12
	movq	%rdx, %rax
	subq	%r12, %rax
	cmpq	$15, %rax
	ja	.LBB6_15
	.p2align	4
.LBB6_29:
	cmpq	$2, %rax
	jb	.LBB6_15
	movq	%r8, %rcx
	subq	%rbp, %rcx
	movq	%rax, %rsi
	shrq	%rsi
	leaq	(%rsi,%rsi,2), %rsi
	cmpq	%rsi, %rcx
	jae	.LBB6_33
	jmp	.LBB6_15
	.p2align	4
.LBB6_31:
	movb	%cl, (%r13,%rbp)
	incq	%rbp
.LBB6_32:
	addq	$2, %r12
	addq	$-2, %rax
	cmpq	$1, %rax
	jbe	.LBB6_15
.LBB6_33:
	movzwl	(%r9,%r12), %ecx
	rolw	$8, %cx
	cmpw	$127, %cx
	jbe	.LBB6_31
	movzwl	%cx, %esi
	cmpl	$2047, %esi
	ja	.LBB6_36
	shrl	$6, %esi
	andl	$63, %ecx
	shll	$8, %ecx
	orl	%esi, %ecx
	orl	$32960, %ecx
	movw	%cx, (%r13,%rbp)
	addq	$2, %rbp
	jmp	.LBB6_32
	.p2align	4
.LBB6_36:
	movl	%ecx, %edi
	andl	$63488, %edi
	cmpl	$55296, %edi
	je	.LBB6_15
	movl	%ecx, %edi
	andb	$63, %dil
	orb	$-128, %dil
	shrl	$6, %ecx
	andb	$63, %cl
	orb	$-128, %cl
	shrl	$12, %esi
	orb	$-32, %sil
	movb	%sil, (%r13,%rbp)
	movb	%cl, 1(%r13,%rbp)
	movb	%dil, 2(%r13,%rbp)
	addq	$3, %rbp
	jmp	.LBB6_32
	.p2align	4
.LBB6_38:
	addq	%rbp, %r14
	xorl	%eax, %eax
	movq	48(%rsp), %rbx
.LBB6_39:
	movq	136(%rsp), %rdi
	addq	%rbx, %rdi
	movq	144(%rsp), %rcx
	addq	%r14, %rcx
	movq	%rcx, %r14
	testq	%rbx, %rbx
	movq	112(%rsp), %r15
	je	.LBB6_87
	cmpb	$3, %al
	jne	.LBB6_1
	jmp	.LBB6_87
.LBB6_41:
	addq	136(%rsp), %rbx
	movq	144(%rsp), %rax
	addq	%r14, %rax
	movq	%rax, %r14
	movq	112(%rsp), %rax
	cmpq	%rbx, %rax
	cmovbq	%rax, %rbx
	leaq	(%rsp,%rbx), %rsi
	addq	$60, %rsi
	subq	%rbx, %rax
	movq	%rax, %rbx
.LBB6_42:
	movb	$0, 18(%rsp)
	movw	$0, 16(%rsp)
	leaq	16(%rsp), %rdi
	movq	%rbx, %rdx
	callq	sysv_memcpy
	movzbl	18(%rsp), %eax
	shll	$16, %eax
	movzwl	16(%rsp), %ecx
	orl	%eax, %ecx
	shll	$24, %ebx
	orl	%ecx, %ebx
.LBB6_43:
	movq	160(%rsp), %rax
	movl	%ebx, (%rax)
	movq	%r14, %rax
	addq	$168, %rsp
	popq	%rbx
	popq	%r12
	popq	%r13
	popq	%r14
	popq	%r15
	popq	%rbp
	retq
.LBB6_44:
	movq	128(%rsp), %rcx
	leaq	(%rcx,%rax), %rdx
	movq	%rdx, 64(%rsp)
	movq	120(%rsp), %r10
	subq	%rax, %r10
	addq	%r14, 88(%rsp)
	subq	%r14, 96(%rsp)
	subq	%r15, %rcx
	addq	%rdi, %rcx
	movq	%rcx, 48(%rsp)
	xorl	%ebp, %ebp
	xorl	%r14d, %r14d
	movq	%r10, 104(%rsp)
	jmp	.LBB6_48
	.p2align	4
.LBB6_45:
	movb	$-67, 2(%rbx)
	movw	$-16401, (%rbx)
.LBB6_46:
	movl	$3, %edx
.LBB6_47:
	addq	%rax, %r14
	addq	%rdx, %rbp
.LBB6_48:
	movq	64(%rsp), %rax
	leaq	(%rax,%r14), %r8
	movq	%r10, %r15
	subq	%r14, %r15
	movq	88(%rsp), %rax
	leaq	(%rax,%rbp), %r13
	movq	96(%rsp), %r11
	subq	%rbp, %r11
	pxor	%xmm0, %xmm0
	movdqa	%xmm0, 16(%rsp)
	movq	$0, 32(%rsp)
	leaq	-16(%r15), %rax
	cmpq	$175, %rax
	ja	.LBB6_56
	movq	%r15, %rax
	shrq	%rax
	cmpq	%rax, %r11
	cmovbq	%r11, %rax
	cmpq	$8, %rax
	jb	.LBB6_56
	leaq	(%rax,%rax), %rcx
	movq	48(%rsp), %rdx
	addq	%r14, %rdx
	xorl	%r9d, %r9d
	xorl	%r12d, %r12d
	.p2align	4
.LBB6_51:
	movdqu	(%rdx,%r12,2), %xmm0
	pshufb	.LCPI6_0(%rip), %xmm0
	movdqa	.LCPI6_1(%rip), %xmm1
	pmaxuw	%xmm0, %xmm1
	pcmpeqw	%xmm0, %xmm1
	pmovmskb	%xmm1, %esi
	testl	%esi, %esi
	jne	.LBB6_71
	packuswb	%xmm0, %xmm0
	movq	%xmm0, (%r13,%r12)
	addq	$8, %r12
	leaq	(%rcx,%r9), %rsi
	addq	$-16, %rsi
	addq	$-16, %r9
	cmpq	$15, %rsi
	ja	.LBB6_51
	negq	%r9
	cmpq	%r9, %rcx
	jbe	.LBB6_57
	movdqu	-16(%r8,%rcx), %xmm0
	pshufb	.LCPI6_0(%rip), %xmm0
	movdqa	.LCPI6_1(%rip), %xmm1
	pmaxuw	%xmm0, %xmm1
	pcmpeqw	%xmm0, %xmm1
	pmovmskb	%xmm1, %edx
	testl	%edx, %edx
	jne	.LBB6_57
	packuswb	%xmm0, %xmm0
	movq	%xmm0, -8(%r13,%rax)
	movq	%rax, %r12
	movq	%rcx, %r9
	movq	%r15, %rax
	subq	%r9, %rax
	cmpq	$15, %rax
	ja	.LBB6_58
	jmp	.LBB6_72
	.p2align	4
.LBB6_56:
	xorl	%r12d, %r12d
	xorl	%r9d, %r9d
.LBB6_57:
	movq	%r15, %rax
	subq	%r9, %rax
	cmpq	$15, %rax
	jbe	.LBB6_72
.LBB6_58:
	leaq	-8(%r15), %rax
	cmpq	$183, %rax
	movq	%rbp, 72(%rsp)
	ja	.LBB6_60
	movq	%r15, %rsi
	subq	%r9, %rsi
	cmpq	$8, %rsi
	jae	.LBB6_61
.LBB6_60:
	movq	%r11, %rbp
	movq	%r8, %rbx
	cmpq	%r15, %r9
	jne	.LBB6_62
	jmp	.LBB6_82
	.p2align	4
.LBB6_61:
	movq	%r8, %rbx
	leaq	(%r8,%r9), %rdi
	leaq	(%r12,%r13), %rdx
	movq	%r11, %rbp
	movq	%r11, %rcx
	subq	%r12, %rcx
	movq	%r9, 152(%rsp)
	callq	L_9
	movq	152(%rsp), %r9
	movq	104(%rsp), %r10
	addq	%rax, %r9
	addq	%rdx, %r12
	cmpq	%r15, %r9
	je	.LBB6_82
.LBB6_62:
	movq	%r13, %rcx
	movq	%r10, %r13
	movq	%r12, (%rsp)
	leaq	16(%rsp), %rdi
	movq	%rbx, %rsi
	movq	%r15, %rdx
	movq	%rbp, %r8
	callq	L_10
	addq	16(%rsp), %r14
	movzbl	32(%rsp), %eax
	movq	72(%rsp), %rbp
	addq	24(%rsp), %rbp
	cmpb	$1, %al
	jne	.LBB6_85
	movq	88(%rsp), %rax
	leaq	(%rax,%rbp), %rbx
	movq	96(%rsp), %r15
	subq	%rbp, %r15
	cmpq	$512, %r15
	jb	.LBB6_68
	movq	64(%rsp), %rax
	leaq	(%rax,%r14), %r12
	subq	%r14, %r13
	cmpq	$128, %r13
	jb	.LBB6_66
	movq	%r12, %rdi
	movq	%r13, %rsi
	movq	%rbx, %rdx
	movq	%r15, %rcx
	callq	L_11
	cmpq	$127, %rax
	ja	.LBB6_67
.LBB6_66:
	movq	%r12, %rdi
	movq	%r13, %rsi
	movq	%rbx, %rdx
	movq	%r15, %rcx
	callq	L_8
.LBB6_67:
	movq	104(%rsp), %r10
	jmp	.LBB6_47
	.p2align	4
.LBB6_68:
	cmpq	$3, %r15
	jb	.LBB6_84
	movq	%r13, %r10
	movzbl	33(%rsp), %eax
	leaq	.Lstatic.6(%rip), %rcx
	movq	%rbx, %rdx
	subq	%rcx, %rdx
	cmpq	$2, %rdx
	ja	.LBB6_45
	movw	$-16401, (%rbx)
	movb	$-67, 2(%rbx)
	jmp	.LBB6_46
.LBB6_71:
	negq	%r9
	movq	%r15, %rax
	subq	%r9, %rax
	cmpq	$15, %rax
	ja	.LBB6_58
	.p2align	4
.LBB6_72:
	cmpq	$2, %rax
	jb	.LBB6_58
	movq	%r11, %rcx
	subq	%r12, %rcx
	movq	%rax, %rdx
	shrq	%rdx
	leaq	(%rdx,%rdx,2), %rdx
	cmpq	%rdx, %rcx
	jb	.LBB6_58
	leaq	(%r9,%r14), %rcx
	addq	48(%rsp), %rcx
	jmp	.LBB6_77
	.p2align	4
.LBB6_75:
	movb	%dl, (%r13,%r12)
	incq	%r12
.LBB6_76:
	addq	$2, %r9
	addq	$-2, %rax
	addq	$2, %rcx
	cmpq	$1, %rax
	jbe	.LBB6_58
.LBB6_77:
	movzwl	(%rcx), %edx
	rolw	$8, %dx
	cmpw	$127, %dx
	jbe	.LBB6_75
	movzwl	%dx, %esi
	cmpl	$2047, %esi
	ja	.LBB6_80
	shrl	$6, %esi
	andl	$63, %edx
	shll	$8, %edx
	orl	%esi, %edx
	orl	$32960, %edx
	movw	%dx, (%r13,%r12)
	addq	$2, %r12
	jmp	.LBB6_76
	.p2align	4
.LBB6_80:
	movl	%edx, %edi
	andl	$63488, %edi
	cmpl	$55296, %edi
	je	.LBB6_58
	movl	%edx, %edi
	andb	$63, %dil
	orb	$-128, %dil
	shrl	$6, %edx
	andb	$63, %dl
	orb	$-128, %dl
	shrl	$12, %esi
	orb	$-32, %sil
	movb	%sil, (%r13,%r12)
	movb	%dl, 1(%r13,%r12)
	movb	%dil, 2(%r13,%r12)
	addq	$3, %r12
	jmp	.LBB6_76
.LBB6_82:
	movq	72(%rsp), %rbp
	addq	%r12, %rbp
	xorl	%eax, %eax
	jmp	.LBB6_86
.LBB6_84:
	movb	$3, %al
.LBB6_85:
	movq	%r14, %r10
.LBB6_86:
	movq	136(%rsp), %rdi
	addq	%r10, %rdi
	movq	144(%rsp), %r14
	addq	%rbp, %r14
	movq	112(%rsp), %r15
.LBB6_87:
	cmpq	%rdi, %r15
	movq	%rdi, %rcx
	cmovbq	%r15, %rcx
	leaq	(%rsp,%rcx), %rsi
	addq	$60, %rsi
	movq	%r15, %rbx
	subq	%rcx, %rbx
	cmpb	$3, %al
	je	.LBB6_42
	xorl	%eax, %eax
	subq	%r15, %rdi
	cmovaeq	%rdi, %rax
	movq	120(%rsp), %rcx
	subq	%rax, %rcx
	movq	128(%rsp), %r12
	addq	%rax, %r12
	movl	$4, %r15d
	subq	%rbx, %r15
	cmpq	%rcx, %r15
	cmovaeq	%rcx, %r15
	movl	$0, 16(%rsp)
	leaq	16(%rsp), %rdi
	movq	%rbx, %rdx
	callq	sysv_memcpy
	leaq	(%rsp,%rbx), %rdi
	addq	$16, %rdi
	movq	%r12, %rsi
	movq	%r15, %rdx
	callq	sysv_memcpy
	addq	%rbx, %r15
	movl	16(%rsp), %eax
	movl	%eax, 80(%rsp)
	movb	$0, 18(%rsp)
	movw	$0, 16(%rsp)
	leaq	16(%rsp), %rdi
	leaq	80(%rsp), %rsi
	movq	%r15, %rdx
	callq	sysv_memcpy
	movzbl	18(%rsp), %eax
	shll	$16, %eax
	movzwl	16(%rsp), %ecx
	orl	%eax, %ecx
	shll	$24, %r15d
	orl	%ecx, %r15d
	movl	%r15d, %ebx
	jmp	.LBB6_43
.Lfunc_end6:

	.section	.rdata$004,"dr"
	.p2align	4, 0x0
.LCPI7_0:
	.byte	1
	.byte	0
	.byte	3
	.byte	2
	.byte	5
	.byte	4
	.byte	7
	.byte	6
	.byte	9
	.byte	8
	.byte	11
	.byte	10
	.byte	13
	.byte	12
	.byte	15
	.byte	14
.LCPI7_1:
	.short	2048
	.short	2048
	.short	2048
	.short	2048
	.short	2048
	.short	2048
	.short	2048
	.short	2048
.LCPI7_2:
	.short	63488
	.short	63488
	.short	63488
	.short	63488
	.short	63488
	.short	63488
	.short	63488
	.short	63488
.LCPI7_3:
	.short	55296
	.short	55296
	.short	55296
	.short	55296
	.short	55296
	.short	55296
	.short	55296
	.short	55296
.LCPI7_4:
	.short	2047
	.short	2047
	.short	2047
	.short	2047
	.short	2047
	.short	2047
	.short	2047
	.short	2047
.LCPI7_5:
	.short	34815
	.short	34815
	.short	34815
	.short	34815
	.short	34815
	.short	34815
	.short	34815
	.short	34815
.LCPI7_6:
	.short	32768
	.short	32768
	.short	32768
	.short	32768
	.short	32768
	.short	32768
	.short	32768
	.short	32768
.LCPI7_7:
	.short	63
	.short	63
	.short	63
	.short	63
	.short	63
	.short	63
	.short	63
	.short	63
.LCPI7_8:
	.short	16128
	.short	16128
	.short	16128
	.short	16128
	.short	16128
	.short	16128
	.short	16128
	.short	16128
.LCPI7_9:
	.zero	16,128
.LCPI7_10:
	.short	224
	.short	224
	.short	224
	.short	224
	.short	224
	.short	224
	.short	224
	.short	224
.LCPI7_11:
	.short	255
	.short	255
	.short	255
	.short	255
	.short	255
	.short	255
	.short	255
	.short	255
.LCPI7_12:
	.short	32992
	.short	32992
	.short	32992
	.short	32992
	.short	32992
	.short	32992
	.short	32992
	.short	32992
.LCPI7_13:
	.byte	128
	.byte	0
	.byte	128
	.byte	0
	.byte	128
	.byte	0
	.byte	128
	.byte	0
	.byte	128
	.byte	0
	.byte	128
	.byte	0
	.byte	128
	.byte	0
	.byte	128
	.byte	0
.LCPI7_14:
	.byte	0
	.byte	1
	.byte	128
	.byte	2
	.byte	3
	.byte	128
	.byte	4
	.byte	5
	.byte	128
	.byte	6
	.byte	7
	.byte	128
	.byte	8
	.byte	9
	.byte	128
	.byte	10
.LCPI7_15:
	.byte	128
	.byte	128
	.byte	0
	.byte	128
	.byte	128
	.byte	2
	.byte	128
	.byte	128
	.byte	4
	.byte	128
	.byte	128
	.byte	6
	.byte	128
	.byte	128
	.byte	8
	.byte	128
.LCPI7_16:
	.byte	6
	.byte	5
	.byte	8
	.byte	10
	.byte	9
	.byte	12
	.byte	14
	.byte	13
	.zero	1
	.zero	1
	.zero	1
	.zero	1
	.zero	1
	.zero	1
	.zero	1
	.zero	1
.LCPI7_17:
	.short	32960
	.short	32960
	.short	32960
	.short	32960
	.short	32960
	.short	32960
	.short	32960
	.short	32960
.LCPI7_18:
	.short	127
	.short	127
	.short	127
	.short	127
	.short	127
	.short	127
	.short	127
	.short	127
.LCPI7_19:
	.byte	252
	.byte	252
	.byte	252
	.byte	252
	.byte	252
	.byte	252
	.byte	252
	.byte	252
	.zero	1
	.zero	1
	.zero	1
	.zero	1
	.zero	1
	.zero	1
	.zero	1
	.zero	1
.LCPI7_20:
	.byte	216
	.byte	216
	.byte	216
	.byte	216
	.byte	216
	.byte	216
	.byte	216
	.byte	216
	.zero	1
	.zero	1
	.zero	1
	.zero	1
	.zero	1
	.zero	1
	.zero	1
	.zero	1
.LCPI7_21:
	.byte	220
	.byte	220
	.byte	220
	.byte	220
	.byte	220
	.byte	220
	.byte	220
	.byte	220
	.zero	1
	.zero	1
	.zero	1
	.zero	1
	.zero	1
	.zero	1
	.zero	1
	.zero	1
.LCPI7_22:
	.short	10240
	.short	10240
	.short	10240
	.short	10240
	.short	10240
	.short	10240
	.short	10240
	.short	10240
.LCPI7_23:
	.short	4095
	.short	4095
	.short	4095
	.short	4095
	.short	4095
	.short	4095
	.short	4095
	.short	4095
.LCPI7_24:
	.short	8192
	.short	8192
	.short	8192
	.short	8192
	.short	8192
	.short	8192
	.short	8192
	.short	8192
.LCPI7_25:
	.short	9216
	.short	9216
	.short	9216
	.short	9216
	.short	9216
	.short	9216
	.short	9216
	.short	9216
.LCPI7_26:
	.short	752
	.short	752
	.short	752
	.short	752
	.short	752
	.short	752
	.short	752
	.short	752
.LCPI7_27:
	.short	3072
	.short	3072
	.short	3072
	.short	3072
	.short	3072
	.short	3072
	.short	3072
	.short	3072
.LCPI7_28:
	.short	17408
	.short	17408
	.short	17408
	.short	17408
	.short	17408
	.short	17408
	.short	17408
	.short	17408
.LCPI7_29:
	.short	12288
	.short	12288
	.short	12288
	.short	12288
	.short	12288
	.short	12288
	.short	12288
	.short	12288
.LCPI7_30:
	.byte	216
	.byte	216
	.byte	216
	.byte	216
	.byte	216
	.byte	216
	.byte	216
	.zero	1
	.zero	1
	.zero	1
	.zero	1
	.zero	1
	.zero	1
	.zero	1
	.zero	1
	.zero	1
	.section	.text$010,"xr"
	.p2align	4
L_9:
	pushq	%rbp
	pushq	%r15
	pushq	%r14
	pushq	%r12
	pushq	%rbx
	movq	%rdx, %r8
	movq	%rsi, %rax
	movq	%rsi, %rdx
	shrq	%rdx
	leaq	(%rdx,%rdx,2), %rsi
	addq	$128, %rsi
	cmpq	%rcx, %rsi
	cmovbq	%rsi, %rcx
	cmpq	$16, %rax
	setae	%bl
	setb	%sil
	cmpq	$32, %rcx
	setb	%r9b
	orb	%sil, %r9b
	jne	.LBB7_1
	pxor	%xmm0, %xmm0
	xorl	%r11d, %r11d
	movq	%rax, %r10
	xorl	%esi, %esi
	xorl	%r9d, %r9d
	.p2align	4
.LBB7_3:
	movdqu	(%rdi,%r9), %xmm1
	pshufb	.LCPI7_0(%rip), %xmm1
	testb	$1, %r11b
	jne	.LBB7_13
	movdqa	.LCPI7_1(%rip), %xmm2
	pmaxuw	%xmm1, %xmm2
	pcmpeqw	%xmm1, %xmm2
	pmovmskb	%xmm2, %ebx
	testl	%ebx, %ebx
	je	.LBB7_9
	movdqa	.LCPI7_2(%rip), %xmm2
	pand	%xmm1, %xmm2
	pcmpeqw	.LCPI7_3(%rip), %xmm2
	pmovmskb	%xmm2, %ebx
	testl	%ebx, %ebx
	je	.LBB7_6
.LBB7_13:
	movdqa	%xmm1, %xmm2
	psrlw	$8, %xmm2
	packuswb	%xmm2, %xmm2
	pand	.LCPI7_19(%rip), %xmm2
	movdqa	.LCPI7_20(%rip), %xmm3
	pcmpeqb	%xmm2, %xmm3
	pmovzxbw	%xmm3, %xmm3
	pxor	%xmm4, %xmm4
	packuswb	%xmm4, %xmm3
	pmovmskb	%xmm3, %ebx
	pcmpeqb	.LCPI7_21(%rip), %xmm2
	pmovmskb	%xmm2, %ebp
	movzbl	%bpl, %r14d
	leal	(%rbx,%rbx), %ebp
	movzbl	%bpl, %r15d
	orq	%r11, %r15
	cmpq	%r14, %r15
	jne	.LBB7_14
	movdqa	.LCPI7_22(%rip), %xmm2
	paddw	%xmm1, %xmm2
	pminuw	%xmm1, %xmm2
	movdqa	.LCPI7_1(%rip), %xmm3
	pmaxuw	%xmm2, %xmm3
	pcmpeqw	%xmm2, %xmm3
	pmovmskb	%xmm3, %r11d
	movdqa	%xmm1, %xmm3
	palignr	$14, %xmm0, %xmm3
	psllw	$10, %xmm3
	testl	%r11d, %r11d
	je	.LBB7_16
	movdqa	.LCPI7_5(%rip), %xmm4
	psubusw	%xmm1, %xmm4
	movdqa	.LCPI7_6(%rip), %xmm5
	pand	%xmm5, %xmm4
	movdqa	%xmm4, %xmm0
	psrlw	$3, %xmm0
	movdqa	.LCPI7_23(%rip), %xmm2
	pand	%xmm1, %xmm2
	por	%xmm0, %xmm2
	por	.LCPI7_24(%rip), %xmm2
	movdqa	.LCPI7_25(%rip), %xmm6
	paddw	%xmm1, %xmm6
	psrlw	$2, %xmm6
	psubusw	.LCPI7_26(%rip), %xmm6
	pand	.LCPI7_27(%rip), %xmm3
	paddw	%xmm1, %xmm3
	paddw	.LCPI7_28(%rip), %xmm3
	movdqa	.LCPI7_2(%rip), %xmm0
	pand	%xmm1, %xmm0
	pcmpeqw	.LCPI7_3(%rip), %xmm0
	pmaxuw	%xmm6, %xmm3
	pblendvb	%xmm0, %xmm3, %xmm2
	movdqa	%xmm2, %xmm3
	psllw	$8, %xmm2
	pand	.LCPI7_8(%rip), %xmm2
	psrlw	$6, %xmm3
	paddw	%xmm3, %xmm2
	por	%xmm5, %xmm2
	movdqa	%xmm1, %xmm6
	psllw	$8, %xmm6
	movdqa	%xmm1, %xmm3
	psrlw	$12, %xmm3
	por	%xmm6, %xmm3
	por	.LCPI7_10(%rip), %xmm3
	movdqa	.LCPI7_11(%rip), %xmm6
	psubusw	%xmm1, %xmm6
	pblendvb	%xmm0, %xmm5, %xmm4
	por	%xmm6, %xmm4
	pmovmskb	%xmm4, %r11d
	movdqa	%xmm3, %xmm0
	punpcklwd	%xmm2, %xmm0
	movzbl	%r11b, %r14d
	xorl	%r15d, %r15d
	popcntl	%r14d, %r15d
	shll	$4, %r14d
	leaq	.Lstatic.9(%rip), %r12
	movdqu	(%r14,%r12), %xmm4
	pshufb	%xmm4, %xmm0
	movdqu	%xmm0, (%r8,%rsi)
	subq	%r15, %rsi
	punpckhwd	%xmm2, %xmm3
	shrl	$8, %r11d
	xorl	%r14d, %r14d
	popcntl	%r11d, %r14d
	shll	$4, %r11d
	movdqu	(%r11,%r12), %xmm0
	pshufb	%xmm0, %xmm3
	movdqu	%xmm3, 12(%r8,%rsi)
	subq	%r14, %rsi
	addq	$24, %rsi
	jmp	.LBB7_18
	.p2align	4
.LBB7_16:
	movdqa	.LCPI7_29(%rip), %xmm2
	movdqa	.LCPI7_25(%rip), %xmm0
	paddw	%xmm1, %xmm0
	psrlw	$2, %xmm0
	psubusw	.LCPI7_26(%rip), %xmm0
	pand	.LCPI7_27(%rip), %xmm3
	paddw	%xmm1, %xmm2
	paddw	%xmm1, %xmm3
	paddw	.LCPI7_28(%rip), %xmm3
	pmaxuw	%xmm0, %xmm3
	pxor	%xmm0, %xmm0
	pcmpgtw	%xmm1, %xmm0
	pblendvb	%xmm0, %xmm3, %xmm2
	movdqa	%xmm2, %xmm0
	psrlw	$6, %xmm0
	psllw	$8, %xmm2
	pand	.LCPI7_8(%rip), %xmm2
	paddw	%xmm0, %xmm2
	por	.LCPI7_6(%rip), %xmm2
	movdqa	.LCPI7_18(%rip), %xmm0
	pminuw	%xmm1, %xmm0
	pcmpeqw	%xmm1, %xmm0
	pblendvb	%xmm0, %xmm1, %xmm2
	packsswb	%xmm0, %xmm0
	pmovmskb	%xmm0, %r11d
	movzbl	%r11b, %r11d
	xorl	%r14d, %r14d
	popcntl	%r11d, %r14d
	shll	$4, %r11d
	leaq	.Lstatic.8(%rip), %r15
	movdqu	(%r11,%r15), %xmm0
	pshufb	%xmm0, %xmm2
	movdqu	%xmm2, (%r8,%rsi)
	subq	%r14, %rsi
	addq	$16, %rsi
.LBB7_18:
	shrb	$7, %bl
	movzbl	%bl, %r11d
.LBB7_19:
	addq	$16, %r9
	addq	$-16, %r10
	cmpq	$16, %r10
	setae	%bl
	jb	.LBB7_21
	movq	%rcx, %r14
	subq	%rsi, %r14
	movdqa	%xmm1, %xmm0
	cmpq	$31, %r14
	ja	.LBB7_3
	jmp	.LBB7_21
.LBB7_9:
	movdqa	.LCPI7_13(%rip), %xmm0
	pmaxuw	%xmm1, %xmm0
	pcmpeqw	%xmm1, %xmm0
	pmovmskb	%xmm0, %r11d
	movdqa	%xmm1, %xmm0
	testl	%r11d, %r11d
	je	.LBB7_10
	psrlw	$6, %xmm0
	movdqa	%xmm1, %xmm2
	psllw	$8, %xmm2
	pand	.LCPI7_8(%rip), %xmm2
	paddw	%xmm0, %xmm2
	paddw	.LCPI7_17(%rip), %xmm2
	movdqa	.LCPI7_18(%rip), %xmm0
	pminuw	%xmm1, %xmm0
	pcmpeqw	%xmm1, %xmm0
	pblendvb	%xmm0, %xmm1, %xmm2
	packsswb	%xmm0, %xmm0
	pmovmskb	%xmm0, %r11d
	movzbl	%r11b, %r11d
	xorl	%ebx, %ebx
	popcntl	%r11d, %ebx
	shll	$4, %r11d
	leaq	.Lstatic.8(%rip), %r14
	movdqu	(%r11,%r14), %xmm0
	pshufb	%xmm0, %xmm2
	movdqu	%xmm2, (%r8,%rsi)
	subq	%rbx, %rsi
	addq	$16, %rsi
	xorl	%r11d, %r11d
	jmp	.LBB7_19
.LBB7_6:
	movdqa	.LCPI7_4(%rip), %xmm0
	pminuw	%xmm1, %xmm0
	pcmpeqw	%xmm1, %xmm0
	pmovmskb	%xmm0, %r11d
	movdqa	%xmm1, %xmm0
	psrlw	$12, %xmm0
	testl	%r11d, %r11d
	je	.LBB7_7
	movdqa	.LCPI7_5(%rip), %xmm3
	psubusw	%xmm1, %xmm3
	pand	.LCPI7_6(%rip), %xmm3
	movdqa	%xmm3, %xmm4
	movdqa	%xmm1, %xmm5
	psrlw	$6, %xmm5
	pand	.LCPI7_7(%rip), %xmm5
	psrlw	$9, %xmm4
	movdqa	%xmm1, %xmm2
	psllw	$8, %xmm2
	por	%xmm2, %xmm0
	pand	.LCPI7_8(%rip), %xmm2
	por	%xmm5, %xmm2
	por	%xmm4, %xmm2
	por	.LCPI7_9(%rip), %xmm2
	movdqa	.LCPI7_11(%rip), %xmm4
	psubusw	%xmm1, %xmm4
	por	%xmm3, %xmm4
	por	.LCPI7_10(%rip), %xmm0
	pmovmskb	%xmm4, %r11d
	movdqa	%xmm0, %xmm3
	punpcklwd	%xmm2, %xmm3
	movzbl	%r11b, %ebx
	xorl	%r14d, %r14d
	popcntl	%ebx, %r14d
	shll	$4, %ebx
	leaq	.Lstatic.9(%rip), %r15
	movdqu	(%rbx,%r15), %xmm4
	pshufb	%xmm4, %xmm3
	movdqu	%xmm3, (%r8,%rsi)
	subq	%r14, %rsi
	punpckhwd	%xmm2, %xmm0
	shrl	$8, %r11d
	xorl	%ebx, %ebx
	popcntl	%r11d, %ebx
	shll	$4, %r11d
	movdqu	(%r11,%r15), %xmm2
	pshufb	%xmm2, %xmm0
	movdqu	%xmm0, 12(%r8,%rsi)
	subq	%rbx, %rsi
	jmp	.LBB7_8
.LBB7_10:
	packuswb	%xmm0, %xmm0
	movq	%xmm0, (%r8,%rsi)
	addq	$8, %rsi
	xorl	%r11d, %r11d
	jmp	.LBB7_19
.LBB7_7:
	movdqa	%xmm1, %xmm2
	psllw	$2, %xmm2
	pand	.LCPI7_8(%rip), %xmm2
	por	%xmm2, %xmm0
	por	.LCPI7_12(%rip), %xmm0
	movdqa	.LCPI7_7(%rip), %xmm2
	pand	%xmm1, %xmm2
	por	.LCPI7_13(%rip), %xmm2
	movdqa	%xmm0, %xmm3
	pshufb	.LCPI7_14(%rip), %xmm3
	punpckhbw	%xmm2, %xmm0
	pshufb	.LCPI7_15(%rip), %xmm2
	por	%xmm3, %xmm2
	pshufb	.LCPI7_16(%rip), %xmm0
	movdqu	%xmm2, (%r8,%rsi)
	movq	%xmm0, 16(%r8,%rsi)
.LBB7_8:
	addq	$24, %rsi
	xorl	%r11d, %r11d
	jmp	.LBB7_19
.LBB7_1:
	pxor	%xmm1, %xmm1
	xorl	%r9d, %r9d
	xorl	%esi, %esi
	xorl	%r11d, %r11d
	movq	%rax, %r10
.LBB7_21:
	testb	$1, %al
	jne	.LBB7_44
.LBB7_22:
	cmpq	%r9, %rax
	je	.LBB7_44
	testb	%bl, %bl
	jne	.LBB7_44
	subq	%rsi, %rcx
	cmpq	$32, %rcx
	jb	.LBB7_44
	cmpq	$15, %rax
	ja	.LBB7_27
	leaq	-8(%rax), %rcx
	movq	-8(%rdi,%rax), %xmm0
	movq	(%rdi), %xmm2
	movdqa	%xmm2, %xmm3
	punpcklqdq	%xmm0, %xmm3
	shlq	$4, %rcx
	leaq	.Lstatic.10(%rip), %rdi
	movq	(%rcx,%rdi), %xmm0
	pshufb	%xmm0, %xmm3
	punpcklqdq	%xmm3, %xmm2
	jmp	.LBB7_28
.LBB7_27:
	movdqu	-16(%rdi,%rax), %xmm2
	shlq	$4, %r10
	leaq	.Lstatic.10(%rip), %rcx
	movdqu	(%r10,%rcx), %xmm0
	pshufb	%xmm0, %xmm2
.LBB7_28:
	pshufb	.LCPI7_0(%rip), %xmm2
	movdqa	%xmm2, %xmm0
	psrlw	$8, %xmm0
	packuswb	%xmm0, %xmm0
	pand	.LCPI7_19(%rip), %xmm0
	movdqa	.LCPI7_30(%rip), %xmm3
	pcmpeqb	%xmm0, %xmm3
	pmovmskb	%xmm3, %ecx
	pcmpeqb	.LCPI7_21(%rip), %xmm0
	pmovmskb	%xmm0, %edi
	movzbl	%dil, %edi
	addl	%ecx, %ecx
	movzbl	%cl, %ecx
	orq	%r11, %rcx
	cmpq	%rdi, %rcx
	jne	.LBB7_44
	movdqa	.LCPI7_1(%rip), %xmm0
	pmaxuw	%xmm2, %xmm0
	pcmpeqw	%xmm2, %xmm0
	pmovmskb	%xmm0, %ecx
	testl	%ecx, %ecx
	je	.LBB7_34
	movdqa	.LCPI7_2(%rip), %xmm0
	pand	%xmm2, %xmm0
	pcmpeqw	.LCPI7_3(%rip), %xmm0
	pmovmskb	%xmm0, %ecx
	testl	%ecx, %ecx
	je	.LBB7_38
	movdqa	.LCPI7_22(%rip), %xmm3
	paddw	%xmm2, %xmm3
	pminuw	%xmm2, %xmm3
	movdqa	.LCPI7_1(%rip), %xmm4
	pmaxuw	%xmm3, %xmm4
	pcmpeqw	%xmm3, %xmm4
	pmovmskb	%xmm4, %ecx
	movdqa	%xmm2, %xmm3
	palignr	$14, %xmm1, %xmm3
	testl	%ecx, %ecx
	je	.LBB7_32
	movdqa	.LCPI7_5(%rip), %xmm4
	psubusw	%xmm2, %xmm4
	movdqa	.LCPI7_6(%rip), %xmm5
	pand	%xmm5, %xmm4
	movdqa	%xmm4, %xmm6
	psrlw	$3, %xmm6
	movdqa	.LCPI7_23(%rip), %xmm1
	pand	%xmm2, %xmm1
	por	%xmm6, %xmm1
	por	.LCPI7_24(%rip), %xmm1
	movdqa	.LCPI7_25(%rip), %xmm6
	paddw	%xmm2, %xmm6
	psrlw	$2, %xmm6
	psubusw	.LCPI7_26(%rip), %xmm6
	psllw	$10, %xmm3
	pand	.LCPI7_27(%rip), %xmm3
	paddw	%xmm2, %xmm3
	paddw	.LCPI7_28(%rip), %xmm3
	pmaxuw	%xmm6, %xmm3
	pblendvb	%xmm0, %xmm3, %xmm1
	movdqa	%xmm1, %xmm3
	psllw	$8, %xmm1
	pand	.LCPI7_8(%rip), %xmm1
	psrlw	$6, %xmm3
	paddw	%xmm3, %xmm1
	por	%xmm5, %xmm1
	movdqa	%xmm2, %xmm6
	psllw	$8, %xmm6
	movdqa	%xmm2, %xmm3
	psrlw	$12, %xmm3
	por	%xmm6, %xmm3
	por	.LCPI7_10(%rip), %xmm3
	movdqa	.LCPI7_11(%rip), %xmm6
	psubusw	%xmm2, %xmm6
	pblendvb	%xmm0, %xmm5, %xmm4
	por	%xmm6, %xmm4
	pmovmskb	%xmm4, %ecx
	movdqa	%xmm3, %xmm0
	punpcklwd	%xmm1, %xmm0
	movzbl	%cl, %edi
	popcntl	%edi, %r9d
	shll	$4, %edi
	leaq	.Lstatic.9(%rip), %r10
	movdqu	(%rdi,%r10), %xmm2
	pshufb	%xmm2, %xmm0
	movdqu	%xmm0, (%r8,%rsi)
	subq	%r9, %rsi
	punpckhwd	%xmm1, %xmm3
	shrl	$8, %ecx
	xorl	%edi, %edi
	popcntl	%ecx, %edi
	shll	$4, %ecx
	movdqu	(%rcx,%r10), %xmm0
	pshufb	%xmm0, %xmm3
	movdqu	%xmm3, 12(%r8,%rsi)
	jmp	.LBB7_41
.LBB7_14:
	movb	$1, %bl
	movdqa	%xmm0, %xmm1
	testb	$1, %al
	je	.LBB7_22
.LBB7_44:
	leaq	-2(%r9), %rax
	leaq	-2(%rsi), %rdx
	testb	$1, %r11b
	cmoveq	%rsi, %rdx
	cmoveq	%r9, %rax
	jmp	.LBB7_45
.LBB7_34:
	movdqa	.LCPI7_13(%rip), %xmm0
	pmaxuw	%xmm2, %xmm0
	pcmpeqw	%xmm2, %xmm0
	pmovmskb	%xmm0, %ecx
	testl	%ecx, %ecx
	je	.LBB7_35
	movdqa	%xmm2, %xmm0
	psrlw	$6, %xmm0
	movdqa	%xmm2, %xmm1
	psllw	$8, %xmm1
	pand	.LCPI7_8(%rip), %xmm1
	paddw	%xmm0, %xmm1
	paddw	.LCPI7_17(%rip), %xmm1
	jmp	.LBB7_37
.LBB7_38:
	movdqa	.LCPI7_4(%rip), %xmm0
	pminuw	%xmm2, %xmm0
	pcmpeqw	%xmm2, %xmm0
	pmovmskb	%xmm0, %ecx
	testl	%ecx, %ecx
	je	.LBB7_39
	movdqa	.LCPI7_5(%rip), %xmm0
	psubusw	%xmm2, %xmm0
	pand	.LCPI7_6(%rip), %xmm0
	movdqa	.LCPI7_11(%rip), %xmm1
	psubusw	%xmm2, %xmm1
	por	%xmm0, %xmm1
	psrlw	$9, %xmm0
	movdqa	%xmm2, %xmm3
	psrlw	$6, %xmm3
	pand	.LCPI7_7(%rip), %xmm3
	movdqa	%xmm2, %xmm4
	psllw	$8, %xmm4
	movdqa	.LCPI7_8(%rip), %xmm5
	pand	%xmm4, %xmm5
	por	%xmm3, %xmm5
	por	%xmm0, %xmm5
	por	.LCPI7_9(%rip), %xmm5
	psrlw	$12, %xmm2
	por	%xmm4, %xmm2
	por	.LCPI7_10(%rip), %xmm2
	pmovmskb	%xmm1, %ecx
	movdqa	%xmm2, %xmm0
	punpcklwd	%xmm5, %xmm0
	movzbl	%cl, %edi
	popcntl	%edi, %r9d
	shll	$4, %edi
	leaq	.Lstatic.9(%rip), %r10
	movdqu	(%rdi,%r10), %xmm1
	pshufb	%xmm1, %xmm0
	movdqu	%xmm0, (%r8,%rsi)
	subq	%r9, %rsi
	punpckhwd	%xmm5, %xmm2
	shrl	$8, %ecx
	xorl	%edi, %edi
	popcntl	%ecx, %edi
	shll	$4, %ecx
	movdqu	(%rcx,%r10), %xmm0
	pshufb	%xmm0, %xmm2
	movdqu	%xmm2, 12(%r8,%rsi)
.LBB7_41:
	subq	%rdi, %rsi
.LBB7_42:
	addq	$24, %rsi
	jmp	.LBB7_43
.LBB7_32:
	movdqa	.LCPI7_25(%rip), %xmm0
	paddw	%xmm2, %xmm0
	psrlw	$2, %xmm0
	psubusw	.LCPI7_26(%rip), %xmm0
	movdqa	.LCPI7_29(%rip), %xmm1
	psllw	$10, %xmm3
	pand	.LCPI7_27(%rip), %xmm3
	paddw	%xmm2, %xmm1
	paddw	%xmm2, %xmm3
	paddw	.LCPI7_28(%rip), %xmm3
	pmaxuw	%xmm0, %xmm3
	pxor	%xmm0, %xmm0
	pcmpgtw	%xmm2, %xmm0
	pblendvb	%xmm0, %xmm3, %xmm1
	movdqa	%xmm1, %xmm0
	psrlw	$6, %xmm0
	psllw	$8, %xmm1
	pand	.LCPI7_8(%rip), %xmm1
	paddw	%xmm0, %xmm1
	por	.LCPI7_6(%rip), %xmm1
.LBB7_37:
	movdqa	.LCPI7_18(%rip), %xmm0
	pminuw	%xmm2, %xmm0
	pcmpeqw	%xmm2, %xmm0
	pblendvb	%xmm0, %xmm2, %xmm1
	packsswb	%xmm0, %xmm0
	pmovmskb	%xmm0, %ecx
	movzbl	%cl, %ecx
	xorl	%edi, %edi
	popcntl	%ecx, %edi
	shll	$4, %ecx
	leaq	.Lstatic.8(%rip), %r9
	movdqu	(%rcx,%r9), %xmm0
	pshufb	%xmm0, %xmm1
	movdqu	%xmm1, (%r8,%rsi)
	subq	%rdi, %rsi
	addq	$16, %rsi
	jmp	.LBB7_43
.LBB7_35:
	packuswb	%xmm2, %xmm2
	movq	%xmm2, (%r8,%rsi)
	addq	$8, %rsi
.LBB7_43:
	orq	$-8, %rdx
	addq	%rsi, %rdx
.LBB7_45:
	popq	%rbx
	popq	%r12
	popq	%r14
	popq	%r15
	popq	%rbp
	retq
.LBB7_39:
	movdqa	%xmm2, %xmm0
	movdqa	%xmm2, %xmm1
	psllw	$2, %xmm1
	pand	.LCPI7_8(%rip), %xmm1
	psrlw	$12, %xmm0
	por	%xmm0, %xmm1
	por	.LCPI7_12(%rip), %xmm1
	pand	.LCPI7_7(%rip), %xmm2
	por	.LCPI7_13(%rip), %xmm2
	movdqa	%xmm1, %xmm0
	pshufb	.LCPI7_14(%rip), %xmm0
	punpckhbw	%xmm2, %xmm1
	pshufb	.LCPI7_15(%rip), %xmm2
	por	%xmm0, %xmm2
	movdqu	%xmm2, (%r8,%rsi)
	pshufb	.LCPI7_16(%rip), %xmm1
	movq	%xmm1, 16(%r8,%rsi)
	jmp	.LBB7_42
.Lfunc_end7:

	.section	.rdata$004,"dr"
	.p2align	4, 0x0
.LCPI8_0:
	.byte	1
	.byte	0
	.byte	3
	.byte	2
	.byte	5
	.byte	4
	.byte	7
	.byte	6
	.byte	9
	.byte	8
	.byte	11
	.byte	10
	.byte	13
	.byte	12
	.byte	15
	.byte	14
.LCPI8_1:
	.short	128
	.short	128
	.short	128
	.short	128
	.short	128
	.short	128
	.short	128
	.short	128
	.section	.text$011,"xr"
	.p2align	4
L_10:
	pushq	%rbp
	pushq	%r15
	pushq	%r14
	pushq	%r13
	pushq	%r12
	pushq	%rbx
	subq	$392, %rsp
	movq	%r9, %rbp
	movq	%r8, %r14
	movq	%rdx, %rbx
	movq	448(%rsp), %r8
	subq	%r9, %rdx
	cmpq	$2, %rdx
	jae	.LBB8_3
.LBB8_1:
	movb	$2, %al
	xorl	%ecx, %ecx
.LBB8_2:
	movq	%rbp, (%rdi)
	movq	%r8, 8(%rdi)
	movb	%al, 16(%rdi)
	movb	%cl, 17(%rdi)
	jmp	.LBB8_99
.LBB8_3:
	movq	%rcx, %r12
	movq	%rsi, %r13
	movzwl	(%rsi,%rbp), %esi
	rolw	$8, %si
	movl	%esi, %eax
	andl	$63488, %eax
	cmpl	$55296, %eax
	jne	.LBB8_7
	notl	%esi
	movb	$2, %cl
	movb	$1, %al
	testl	$56320, %esi
	je	.LBB8_2
	cmpq	$4, %rdx
	jb	.LBB8_1
	movzbl	2(%r13,%rbp), %edx
	andb	$-4, %dl
	movb	$2, %cl
	cmpb	$-36, %dl
	jne	.LBB8_2
.LBB8_7:
	movq	%rdi, 32(%rsp)
	cmpq	%rbp, %rbx
	jbe	.LBB8_95
	movq	%r14, %rax
	negq	%rax
	movq	%rax, 56(%rsp)
	movq	%r14, 16(%rsp)
	movq	%rbx, 40(%rsp)
	movq	%r12, 24(%rsp)
	movq	%r13, 8(%rsp)
	jmp	.LBB8_11
	.p2align	4
.LBB8_9:
	movb	%al, (%r12,%r8)
	incq	%r8
.LBB8_10:
	addq	%r15, %rbp
	cmpq	%rbx, %rbp
	jae	.LBB8_95
.LBB8_11:
	addq	%rbp, %r13
	movq	%rbx, %r15
	subq	%rbp, %r15
	cmpq	$66, %r15
	jb	.LBB8_20
	leaq	(%r12,%r8), %rbx
	movq	%r8, (%rsp)
	subq	%r8, %r14
	pxor	%xmm0, %xmm0
	movdqa	%xmm0, 128(%rsp)
	movdqa	%xmm0, 112(%rsp)
	movq	$0, 144(%rsp)
	movq	%r15, %rax
	shrq	%rax
	leaq	(%rax,%rax,2), %r8
	addq	$128, %r8
	cmpq	%r14, %r8
	cmovaeq	%r14, %r8
	leaq	112(%rsp), %rdi
	movq	%r13, %rsi
	movq	%r15, %rdx
	movq	%rbx, %rcx
	callq	L_12
	movq	112(%rsp), %rcx
	movq	120(%rsp), %rsi
	leaq	-2(%rcx), %rdx
	leaq	-2(%rsi), %rax
	testb	$1, 144(%rsp)
	cmoveq	%rsi, %rax
	cmoveq	%rcx, %rdx
	movq	%r15, %rcx
	subq	%rdx, %rcx
	shrq	%rcx
	subq	%rax, %r14
	cmpq	%rcx, %r14
	cmovaeq	%rcx, %r14
	movq	%rax, %rcx
	movq	%rdx, %r12
	cmpq	$8, %r14
	jb	.LBB8_16
	leaq	(%r14,%r14), %rsi
	movq	%rdx, %r12
	movq	%rax, %rcx
	.p2align	4
.LBB8_14:
	movdqu	(%r13,%r12), %xmm0
	pshufb	.LCPI8_0(%rip), %xmm0
	movdqa	.LCPI8_1(%rip), %xmm1
	pmaxuw	%xmm0, %xmm1
	pcmpeqw	%xmm0, %xmm1
	pmovmskb	%xmm1, %edi
	testl	%edi, %edi
	jne	.LBB8_39
	packuswb	%xmm0, %xmm0
	movq	%xmm0, (%rbx,%rcx)
	addq	$16, %r12
	addq	$8, %rcx
	addq	$-16, %rsi
	cmpq	$15, %rsi
	ja	.LBB8_14
.LBB8_16:
	leaq	(%rdx,%r14,2), %rdx
	cmpq	$16, %rdx
	jb	.LBB8_39
	cmpq	%r12, %rdx
	movq	(%rsp), %r8
	jbe	.LBB8_40
	movdqu	-16(%r13,%rdx), %xmm0
	pshufb	.LCPI8_0(%rip), %xmm0
	movdqa	.LCPI8_1(%rip), %xmm1
	pmaxuw	%xmm0, %xmm1
	pcmpeqw	%xmm0, %xmm1
	pmovmskb	%xmm1, %esi
	testl	%esi, %esi
	jne	.LBB8_40
	addq	%rax, %r14
	packuswb	%xmm0, %xmm0
	movq	%xmm0, -8(%rbx,%r14)
	movq	%rdx, %r12
	movq	%r14, %rcx
	jmp	.LBB8_40
	.p2align	4
.LBB8_20:
	xorl	%r12d, %r12d
	movq	%r15, %r14
	subq	%r12, %r14
	je	.LBB8_41
.LBB8_21:
	addq	%r12, %r13
	cmpq	$7, %r14
	ja	.LBB8_24
.LBB8_22:
	movq	%r13, %rdi
	movq	%r14, %rsi
	movq	24(%rsp), %rdx
	movq	16(%rsp), %r14
	movq	%r14, %rcx
.LBB8_23:
	callq	L_13
	movq	%rax, %r15
	movq	%rdx, %rbx
	jmp	.LBB8_37
	.p2align	4
.LBB8_24:
	cmpq	$128, %r14
	movl	$128, %esi
	cmovbq	%r14, %rsi
	movq	16(%rsp), %rbx
	subq	%r8, %rbx
	xorl	%eax, %eax
	movq	%rbx, %rcx
	subq	$128, %rcx
	cmovaeq	%rcx, %rax
	movabsq	$-6148914691236517205, %rcx
	mulq	%rcx
	andq	$-2, %rdx
	cmpq	%rdx, %rsi
	jbe	.LBB8_34
	cmpq	$23, %rbx
	jbe	.LBB8_22
	movq	%r8, (%rsp)
	leaq	112(%rsp), %rdi
	movl	$276, %edx
	xorl	%esi, %esi
	callq	sysv_memset
	cmpq	$65, %r14
	ja	.LBB8_58
	cmpq	$64, %r14
	movl	$64, %esi
	cmovbq	%r14, %rsi
	movq	%r13, %rdi
	callq	L_14
	movq	%rax, %r15
	leaq	112(%rsp), %rdx
	movq	%r13, %rdi
	movq	%rax, %rsi
	callq	L_15
	cmpq	%rbx, %rax
	jbe	.LBB8_73
	movq	8(%rsp), %r13
	.p2align	4
.LBB8_29:
	cmpb	$-65, 112(%rsp,%rbx)
	jg	.LBB8_32
	decq	%rbx
	jne	.LBB8_29
	xorl	%ebx, %ebx
.LBB8_32:
	leaq	112(%rsp), %rdi
	movq	%rbx, %rsi
	callq	L_16
	movq	%rax, %r15
	movq	16(%rsp), %r14
	jmp	.LBB8_74
.LBB8_39:
	movq	(%rsp), %r8
.LBB8_40:
	addq	%rcx, %r8
	movq	40(%rsp), %rbx
	movq	%r15, %r14
	subq	%r12, %r14
	jne	.LBB8_21
.LBB8_41:
	movq	16(%rsp), %r14
	movq	8(%rsp), %r13
	jmp	.LBB8_42
.LBB8_34:
	movq	%r8, %rbx
	movq	%r13, %rdi
	callq	L_14
	movq	%rax, %r15
	testq	%rax, %rax
	je	.LBB8_36
	movq	24(%rsp), %rax
	leaq	(%rax,%rbx), %rdx
	movq	%r13, %rdi
	movq	%r15, %rsi
	callq	L_15
	addq	%rax, %rbx
.LBB8_36:
	movq	16(%rsp), %r14
.LBB8_37:
	movq	8(%rsp), %r13
.LBB8_38:
	addq	%r12, %r15
	movq	%rbx, %r8
	movq	40(%rsp), %rbx
.LBB8_42:
	addq	%rbp, %r15
	movq	%rbx, %rcx
	subq	%r15, %rcx
	movq	24(%rsp), %r12
	je	.LBB8_94
	cmpq	$2, %rcx
	jb	.LBB8_93
	movzwl	(%r13,%r15), %edi
	rolw	$8, %di
	movl	%edi, %eax
	andl	$63488, %eax
	cmpl	$55296, %eax
	jne	.LBB8_48
	movl	%edi, %edx
	notl	%edx
	movb	$1, %al
	testl	$56320, %edx
	je	.LBB8_101
	cmpq	$4, %rcx
	jb	.LBB8_93
	movzbl	2(%r13,%r15), %ecx
	andb	$-4, %cl
	cmpb	$-36, %cl
	jne	.LBB8_101
.LBB8_48:
	movl	%edi, %eax
	andl	$64512, %eax
	cmpl	$55296, %eax
	jne	.LBB8_50
	movzwl	2(%r13,%r15), %esi
	rolw	$8, %si
	movq	%r8, %rbp
	callq	L_17
	movq	%rbp, %r8
	movl	$4, %ebp
	jmp	.LBB8_51
	.p2align	4
.LBB8_50:
	movzwl	%di, %eax
	movl	$2, %ebp
.LBB8_51:
	movq	%r14, %rcx
	subq	%r8, %rcx
	cmpl	$65536, %eax
	movl	$4, %edx
	sbbq	$0, %rdx
	cmpl	$2048, %eax
	movl	$2, %esi
	cmovaeq	%rdx, %rsi
	cmpl	$128, %eax
	movl	$1, %edx
	cmovaeq	%rsi, %rdx
	cmpq	%rdx, %rcx
	jb	.LBB8_96
	cmpl	$127, %eax
	jbe	.LBB8_9
	movl	%eax, %ecx
	andb	$63, %cl
	orb	$-128, %cl
	cmpl	$2047, %eax
	ja	.LBB8_55
	shrl	$6, %eax
	movzbl	%cl, %ecx
	shll	$8, %ecx
	orl	%eax, %ecx
	orl	$192, %ecx
	movw	%cx, (%r12,%r8)
	addq	$2, %r8
	jmp	.LBB8_10
.LBB8_55:
	movl	%eax, %edx
	cmpl	$65535, %eax
	ja	.LBB8_57
	shrl	$6, %edx
	andb	$63, %dl
	orb	$-128, %dl
	shrl	$12, %eax
	orb	$-32, %al
	movb	%al, (%r12,%r8)
	movb	%dl, 1(%r12,%r8)
	movb	%cl, 2(%r12,%r8)
	addq	$3, %r8
	jmp	.LBB8_10
.LBB8_57:
	shrl	$18, %edx
	addl	$240, %edx
	movzbl	%cl, %ecx
	shll	$24, %ecx
	movl	%eax, %esi
	shll	$10, %esi
	andl	$4128768, %esi
	orl	%ecx, %esi
	shrl	$4, %eax
	andl	$16128, %eax
	orl	%esi, %eax
	movzbl	%dl, %ecx
	addl	%ecx, %eax
	addl	$8421376, %eax
	movl	%eax, (%r12,%r8)
	addq	$4, %r8
	jmp	.LBB8_10
.LBB8_58:
	movzwl	(%r13), %eax
	rolw	$8, %ax
	movl	%eax, %ecx
	andl	$63488, %ecx
	cmpl	$55296, %ecx
	jne	.LBB8_61
	movl	%eax, %ecx
	notl	%ecx
	testl	$56320, %ecx
	je	.LBB8_72
	movzbl	2(%r13), %ecx
	andb	$-4, %cl
	cmpb	$-36, %cl
	jne	.LBB8_72
.LBB8_61:
	andl	$64512, %eax
	xorl	%ecx, %ecx
	cmpl	$55296, %eax
	sete	%cl
	movzwl	2(%r13,%rcx,2), %eax
	rolw	$8, %ax
	movl	%eax, %edx
	andl	$63488, %edx
	cmpl	$55296, %edx
	jne	.LBB8_64
	notl	%eax
	testl	$56320, %eax
	je	.LBB8_72
	leaq	2(,%rcx,2), %rax
	movzbl	2(%r13,%rax), %eax
	andb	$-4, %al
	cmpb	$-36, %al
	jne	.LBB8_72
.LBB8_64:
	xorl	%r15d, %r15d
	cmpq	$65, %rbx
	setae	%r15b
	shll	$6, %r15d
	addq	$66, %r15
	cmpq	%r14, %r15
	cmovaeq	%r14, %r15
	pxor	%xmm0, %xmm0
	movdqa	%xmm0, 80(%rsp)
	movdqa	%xmm0, 64(%rsp)
	movq	$0, 96(%rsp)
	movl	%r15d, %eax
	shrl	%eax
	leaq	(%rax,%rax,2), %rax
	cmpq	$148, %rax
	movl	$148, %r8d
	cmovbq	%rax, %r8
	subq	$-128, %r8
	leaq	64(%rsp), %rdi
	leaq	112(%rsp), %rcx
	movq	%r13, %rsi
	movq	%r15, %rdx
	callq	L_12
	movq	64(%rsp), %rcx
	movq	72(%rsp), %rsi
	leaq	-2(%rcx), %r8
	leaq	-2(%rsi), %rax
	testb	$1, 96(%rsp)
	cmoveq	%rsi, %rax
	cmoveq	%rcx, %r8
	subq	%r8, %r15
	shrq	%r15
	movl	$276, %ecx
	subq	%rax, %rcx
	cmpq	%r15, %rcx
	cmovaeq	%r15, %rcx
	movq	%rax, %rdx
	movq	%r8, %r15
	cmpq	$8, %rcx
	movq	16(%rsp), %r14
	jb	.LBB8_68
	leaq	(%rcx,%rcx), %rsi
	movq	%r8, %r15
	movq	%rax, %rdx
.LBB8_66:
	movdqu	(%r13,%r15), %xmm0
	pshufb	.LCPI8_0(%rip), %xmm0
	movdqa	.LCPI8_1(%rip), %xmm1
	pmaxuw	%xmm0, %xmm1
	pcmpeqw	%xmm0, %xmm1
	pmovmskb	%xmm1, %edi
	testl	%edi, %edi
	jne	.LBB8_76
	packuswb	%xmm0, %xmm0
	movq	%xmm0, 112(%rsp,%rdx)
	addq	$16, %r15
	addq	$8, %rdx
	addq	$-16, %rsi
	cmpq	$15, %rsi
	ja	.LBB8_66
.LBB8_68:
	leaq	(%r8,%rcx,2), %r8
	cmpq	$16, %r8
	jb	.LBB8_76
	cmpq	%r15, %r8
	movq	(%rsp), %rdi
	jbe	.LBB8_77
	movdqu	-16(%r13,%r8), %xmm0
	pshufb	.LCPI8_0(%rip), %xmm0
	movdqa	.LCPI8_1(%rip), %xmm1
	pmaxuw	%xmm0, %xmm1
	pcmpeqw	%xmm0, %xmm1
	pmovmskb	%xmm1, %esi
	testl	%esi, %esi
	jne	.LBB8_77
	addq	%rax, %rcx
	packuswb	%xmm0, %xmm0
	movq	%xmm0, 104(%rsp,%rcx)
	movq	%r8, %r15
	movq	%rcx, %rdx
	jmp	.LBB8_77
.LBB8_72:
	movq	%r13, %rdi
	movq	%r14, %rsi
	movq	24(%rsp), %rdx
	movq	16(%rsp), %r14
	movq	%r14, %rcx
	movq	(%rsp), %r8
	jmp	.LBB8_23
.LBB8_73:
	movq	%rax, %rbx
	movq	16(%rsp), %r14
	movq	8(%rsp), %r13
.LBB8_74:
	movq	(%rsp), %rcx
	movq	24(%rsp), %rax
	leaq	(%rax,%rcx), %rdi
	leaq	112(%rsp), %rsi
	movq	%rbx, %rdx
	callq	sysv_memcpy
	addq	(%rsp), %rbx
	jmp	.LBB8_38
.LBB8_76:
	movq	(%rsp), %rdi
.LBB8_77:
	cmpq	%rbx, %rdx
	jbe	.LBB8_82
.LBB8_78:
	cmpb	$-65, 112(%rsp,%rbx)
	jg	.LBB8_81
	decq	%rbx
	jne	.LBB8_78
	xorl	%ebx, %ebx
.LBB8_81:
	leaq	112(%rsp), %rdi
	movq	%rbx, %rsi
	callq	L_16
	movq	%rax, %r15
	movq	%rbx, %rdx
	movq	(%rsp), %rdi
.LBB8_82:
	movq	%rdx, 48(%rsp)
	leaq	(%rdx,%rdi), %rbx
	movq	24(%rsp), %rax
	addq	%rax, %rdi
	leaq	112(%rsp), %rsi
	callq	sysv_memcpy
	testq	%r15, %r15
	jne	.LBB8_37
	movl	$64, %esi
	movq	%r13, %rdi
	callq	L_14
	movq	%rax, %r15
	leaq	112(%rsp), %rdx
	movq	%r13, %rdi
	movq	%rax, %rsi
	callq	L_15
	subq	%rbx, %r14
	cmpq	%r14, %rax
	jbe	.LBB8_91
	testq	%r14, %r14
	movq	8(%rsp), %r13
	je	.LBB8_89
	movq	48(%rsp), %rax
	addq	56(%rsp), %rax
	addq	(%rsp), %rax
.LBB8_87:
	cmpb	$-65, 112(%rsp,%r14)
	jg	.LBB8_90
	decq	%r14
	incq	%rax
	jne	.LBB8_87
.LBB8_89:
	xorl	%r14d, %r14d
.LBB8_90:
	leaq	112(%rsp), %rdi
	movq	%r14, %rsi
	callq	L_16
	movq	%rax, %r15
	jmp	.LBB8_92
.LBB8_91:
	movq	%rax, %r14
	movq	8(%rsp), %r13
.LBB8_92:
	movq	24(%rsp), %rax
	leaq	(%rax,%rbx), %rdi
	leaq	112(%rsp), %rsi
	movq	%r14, %rdx
	callq	sysv_memcpy
	addq	%r14, %rbx
	movq	16(%rsp), %r14
	jmp	.LBB8_38
.LBB8_93:
	movb	$2, %al
	jmp	.LBB8_97
.LBB8_94:
	movq	%rbx, %rbp
.LBB8_95:
	movq	32(%rsp), %rax
	movq	%rbp, (%rax)
	movq	%r8, 8(%rax)
	movw	$0, 16(%rax)
	jmp	.LBB8_99
.LBB8_101:
	movb	$2, %cl
	jmp	.LBB8_98
.LBB8_96:
	movb	$3, %al
.LBB8_97:
	xorl	%ecx, %ecx
.LBB8_98:
	movq	32(%rsp), %rdx
	movq	%r15, (%rdx)
	movq	%r8, 8(%rdx)
	movb	%al, 16(%rdx)
	movb	%cl, 17(%rdx)
.LBB8_99:
	addq	$392, %rsp
	popq	%rbx
	popq	%r12
	popq	%r13
	popq	%r14
	popq	%r15
	popq	%rbp
	retq
.Lfunc_end8:

	.section	.text$012,"xr"
	.p2align	4
L_17:
	addl	$10240, %edi
	movzwl	%di, %eax
	shll	$10, %eax
	addl	$9216, %esi
	movzwl	%si, %ecx
	addl	%ecx, %eax
	addl	$65536, %eax
	retq
.Lfunc_end9:

	.section	.rdata$004,"dr"
	.p2align	4, 0x0
.LCPI10_0:
	.byte	1
	.byte	0
	.byte	3
	.byte	2
	.byte	5
	.byte	4
	.byte	7
	.byte	6
	.byte	9
	.byte	8
	.byte	11
	.byte	10
	.byte	13
	.byte	12
	.byte	15
	.byte	14
.LCPI10_1:
	.short	65408
	.short	65408
	.short	65408
	.short	65408
	.short	65408
	.short	65408
	.short	65408
	.short	65408
.LCPI10_2:
	.short	63488
	.short	63488
	.short	63488
	.short	63488
	.short	63488
	.short	63488
	.short	63488
	.short	63488
.LCPI10_3:
	.short	10240
	.short	10240
	.short	10240
	.short	10240
	.short	10240
	.short	10240
	.short	10240
	.short	10240
.LCPI10_4:
	.short	2047
	.short	2047
	.short	2047
	.short	2047
	.short	2047
	.short	2047
	.short	2047
	.short	2047
.LCPI10_5:
	.short	224
	.short	224
	.short	224
	.short	224
	.short	224
	.short	224
	.short	224
	.short	224
.LCPI10_6:
	.short	34815
	.short	34815
	.short	34815
	.short	34815
	.short	34815
	.short	34815
	.short	34815
	.short	34815
.LCPI10_7:
	.short	32768
	.short	32768
	.short	32768
	.short	32768
	.short	32768
	.short	32768
	.short	32768
	.short	32768
.LCPI10_8:
	.short	63
	.short	63
	.short	63
	.short	63
	.short	63
	.short	63
	.short	63
	.short	63
.LCPI10_9:
	.short	16128
	.short	16128
	.short	16128
	.short	16128
	.short	16128
	.short	16128
	.short	16128
	.short	16128
.LCPI10_10:
	.zero	16,128
.LCPI10_11:
	.short	255
	.short	255
	.short	255
	.short	255
	.short	255
	.short	255
	.short	255
	.short	255
.LCPI10_12:
	.short	32992
	.short	32992
	.short	32992
	.short	32992
	.short	32992
	.short	32992
	.short	32992
	.short	32992
.LCPI10_13:
	.short	128
	.short	128
	.short	128
	.short	128
	.short	128
	.short	128
	.short	128
	.short	128
.LCPI10_14:
	.byte	128
	.byte	128
	.byte	0
	.byte	128
	.byte	128
	.byte	2
	.byte	128
	.byte	128
	.byte	4
	.byte	128
	.byte	128
	.byte	6
	.byte	128
	.byte	128
	.byte	8
	.byte	128
.LCPI10_15:
	.byte	0
	.byte	1
	.byte	128
	.byte	2
	.byte	3
	.byte	128
	.byte	4
	.byte	5
	.byte	128
	.byte	6
	.byte	7
	.byte	128
	.byte	8
	.byte	9
	.byte	128
	.byte	10
.LCPI10_16:
	.byte	6
	.byte	5
	.byte	8
	.byte	10
	.byte	9
	.byte	12
	.byte	14
	.byte	13
	.zero	1
	.zero	1
	.zero	1
	.zero	1
	.zero	1
	.zero	1
	.zero	1
	.zero	1
.LCPI10_17:
	.short	32960
	.short	32960
	.short	32960
	.short	32960
	.short	32960
	.short	32960
	.short	32960
	.short	32960
.LCPI10_18:
	.short	127
	.short	127
	.short	127
	.short	127
	.short	127
	.short	127
	.short	127
	.short	127
.LCPI10_19:
	.zero	16,252
.LCPI10_20:
	.zero	16,216
.LCPI10_21:
	.zero	16,220
.LCPI10_22:
	.short	12288
	.short	12288
	.short	12288
	.short	12288
	.short	12288
	.short	12288
	.short	12288
	.short	12288
.LCPI10_23:
	.short	9216
	.short	9216
	.short	9216
	.short	9216
	.short	9216
	.short	9216
	.short	9216
	.short	9216
.LCPI10_24:
	.short	752
	.short	752
	.short	752
	.short	752
	.short	752
	.short	752
	.short	752
	.short	752
.LCPI10_25:
	.short	3072
	.short	3072
	.short	3072
	.short	3072
	.short	3072
	.short	3072
	.short	3072
	.short	3072
.LCPI10_26:
	.short	17408
	.short	17408
	.short	17408
	.short	17408
	.short	17408
	.short	17408
	.short	17408
	.short	17408
.LCPI10_27:
	.byte	6
	.byte	5
	.byte	8
	.byte	10
	.byte	9
	.byte	12
	.byte	14
	.byte	13
	.byte	0
	.byte	0
	.byte	0
	.byte	0
	.byte	0
	.byte	0
	.byte	0
	.byte	0
	.section	.text$013,"xr"
	.p2align	4
L_12:
	pushq	%rbp
	pushq	%r15
	pushq	%r14
	pushq	%r13
	pushq	%r12
	pushq	%rbx
	subq	$72, %rsp
	movq	%rcx, %r15
	cmpq	$64, %rdx
	setb	%al
	cmpq	$128, %r8
	setb	%cl
	orb	%al, %cl
	je	.LBB10_2
	pxor	%xmm0, %xmm0
	movdqu	%xmm0, 16(%rdi)
	movdqu	%xmm0, (%rdi)
	movq	$0, 32(%rdi)
	jmp	.LBB10_65
.LBB10_2:
	movq	%r8, %r14
	movq	%rdx, %r12
	movq	%rsi, %r13
	movq	%rdi, 64(%rsp)
	addq	$-128, %r14
	addq	$-64, %r12
	pxor	%xmm1, %xmm1
	xorl	%ebx, %ebx
	xorl	%eax, %eax
	xorl	%ebp, %ebp
	jmp	.LBB10_5
	.p2align	4
.LBB10_3:
	movq	%r15, %rdi
	movq	%rax, %rsi
	movdqa	%xmm12, %xmm0
	movdqa	%xmm12, %xmm1
	movdqa	%xmm14, %xmm3
	movl	$5, %edx
	movdqa	%xmm13, 16(%rsp)
	movdqa	%xmm14, 48(%rsp)
	movdqa	%xmm2, 32(%rsp)
	callq	L_18
	movq	%r15, %rdi
	movq	%rax, %rsi
	movdqa	32(%rsp), %xmm0
	movaps	48(%rsp), %xmm1
	movdqa	16(%rsp), %xmm2
	movdqa	(%rsp), %xmm3
	movl	$5, %edx
	callq	L_18
	addq	$64, %rbp
	movdqa	(%rsp), %xmm1
.LBB10_4:
	cmpq	%r12, %rbp
	ja	.LBB10_64
.LBB10_5:
	testb	$1, %bl
	jne	.LBB10_41
	cmpq	%rax, %r14
	jb	.LBB10_41
	.p2align	4
.LBB10_7:
	movdqu	(%r13,%rbp), %xmm2
	movdqu	16(%r13,%rbp), %xmm3
	movdqu	32(%r13,%rbp), %xmm13
	movdqu	48(%r13,%rbp), %xmm12
	movdqa	.LCPI10_0(%rip), %xmm15
	pshufb	%xmm15, %xmm13
	pshufb	%xmm15, %xmm2
	pshufb	%xmm15, %xmm12
	pshufb	%xmm15, %xmm3
	movdqa	%xmm3, %xmm0
	por	%xmm12, %xmm0
	movdqa	%xmm2, %xmm4
	por	%xmm13, %xmm4
	por	%xmm0, %xmm4
	ptest	.LCPI10_1(%rip), %xmm4
	jne	.LBB10_14
	packuswb	%xmm12, %xmm13
	packuswb	%xmm3, %xmm2
	movdqu	%xmm2, (%r15,%rax)
	movdqu	%xmm13, 16(%r15,%rax)
	addq	$32, %rax
	addq	$64, %rbp
	cmpq	%r12, %rbp
	ja	.LBB10_42
	movdqa	%xmm12, %xmm1
	cmpq	%rax, %r14
	jae	.LBB10_7
	jmp	.LBB10_42
	.p2align	4
.LBB10_10:
	movdqu	(%r13,%rbp), %xmm2
	movdqu	16(%r13,%rbp), %xmm3
	movdqu	32(%r13,%rbp), %xmm13
	movdqu	48(%r13,%rbp), %xmm12
	pshufb	%xmm15, %xmm13
	pshufb	%xmm15, %xmm2
	pshufb	%xmm15, %xmm12
	pshufb	%xmm15, %xmm3
	movdqa	%xmm3, %xmm0
	por	%xmm12, %xmm0
	movdqa	%xmm2, %xmm4
	por	%xmm13, %xmm4
	por	%xmm0, %xmm4
	ptest	.LCPI10_1(%rip), %xmm4
	jne	.LBB10_14
	packuswb	%xmm12, %xmm13
	packuswb	%xmm3, %xmm2
	movdqu	%xmm2, (%r15,%rax)
	movdqu	%xmm13, 16(%r15,%rax)
	addq	$32, %rax
	addq	$64, %rbp
	cmpq	%r12, %rbp
	ja	.LBB10_42
	movdqa	%xmm12, %xmm1
	cmpq	%rax, %r14
	jae	.LBB10_10
	jmp	.LBB10_42
.LBB10_13:
	movdqa	.LCPI10_0(%rip), %xmm15
	cmpq	%r12, %rbp
	jbe	.LBB10_38
	jmp	.LBB10_41
	.p2align	4
.LBB10_14:
	movdqa	%xmm2, %xmm0
	por	%xmm13, %xmm0
	movdqa	%xmm3, %xmm4
	por	%xmm12, %xmm4
	por	%xmm0, %xmm4
	ptest	.LCPI10_2(%rip), %xmm4
	je	.LBB10_24
	movdqa	.LCPI10_3(%rip), %xmm5
	movdqa	%xmm13, %xmm8
	paddw	%xmm5, %xmm8
	movdqa	%xmm2, %xmm9
	paddw	%xmm5, %xmm9
	movdqa	%xmm12, %xmm4
	paddw	%xmm5, %xmm4
	movdqa	%xmm3, %xmm0
	paddw	%xmm5, %xmm0
	movdqa	%xmm3, %xmm5
	pminuw	%xmm0, %xmm5
	movdqa	%xmm12, %xmm6
	pminuw	%xmm4, %xmm6
	pminuw	%xmm5, %xmm6
	movdqa	%xmm2, %xmm5
	pminuw	%xmm9, %xmm5
	movdqa	%xmm13, %xmm7
	pminuw	%xmm8, %xmm7
	pminuw	%xmm5, %xmm7
	pminuw	%xmm6, %xmm7
	movdqa	.LCPI10_4(%rip), %xmm5
	pminuw	%xmm7, %xmm5
	pcmpeqw	%xmm7, %xmm5
	pmovmskb	%xmm5, %ecx
	testl	%ecx, %ecx
	je	.LBB10_25
	pminuw	%xmm8, %xmm9
	pminuw	%xmm4, %xmm0
	pminuw	%xmm9, %xmm0
	movdqa	.LCPI10_4(%rip), %xmm4
	pminuw	%xmm0, %xmm4
	pcmpeqw	%xmm0, %xmm4
	pmovmskb	%xmm4, %ecx
	testl	%ecx, %ecx
	jne	.LBB10_41
	movq	%r15, %rdi
	movq	%rax, %rsi
	movdqa	%xmm1, %xmm0
	movl	$4, %edx
	movdqa	%xmm12, (%rsp)
	movdqa	%xmm13, 16(%rsp)
	movdqa	%xmm3, 48(%rsp)
	movdqa	%xmm2, 32(%rsp)
	callq	L_18
	movq	%r15, %rdi
	movq	%rax, %rsi
	movdqa	32(%rsp), %xmm0
	movaps	48(%rsp), %xmm1
	movdqa	16(%rsp), %xmm2
	movdqa	(%rsp), %xmm3
	movl	$4, %edx
	callq	L_18
	addq	$64, %rbp
	cmpq	%r12, %rbp
	ja	.LBB10_31
	cmpq	%rax, %r14
	movdqa	.LCPI10_0(%rip), %xmm15
	jb	.LBB10_30
	movdqa	(%rsp), %xmm6
	.p2align	4
.LBB10_20:
	movdqu	(%r13,%rbp), %xmm10
	movdqu	16(%r13,%rbp), %xmm8
	movdqu	32(%r13,%rbp), %xmm0
	movdqu	48(%r13,%rbp), %xmm1
	pshufb	%xmm15, %xmm0
	pshufb	%xmm15, %xmm10
	pshufb	%xmm15, %xmm1
	pshufb	%xmm15, %xmm8
	movdqa	%xmm8, %xmm2
	por	%xmm1, %xmm2
	movdqa	%xmm10, %xmm3
	por	%xmm0, %xmm3
	por	%xmm2, %xmm3
	ptest	.LCPI10_2(%rip), %xmm3
	je	.LBB10_33
	movdqa	%xmm8, %xmm2
	movdqa	.LCPI10_3(%rip), %xmm5
	paddw	%xmm5, %xmm2
	movdqa	%xmm1, %xmm3
	paddw	%xmm5, %xmm3
	pminuw	%xmm2, %xmm3
	movdqa	%xmm10, %xmm2
	paddw	%xmm5, %xmm2
	movdqa	%xmm0, %xmm4
	paddw	%xmm5, %xmm4
	pminuw	%xmm2, %xmm4
	pminuw	%xmm3, %xmm4
	movdqa	.LCPI10_4(%rip), %xmm2
	pminuw	%xmm4, %xmm2
	pcmpeqw	%xmm4, %xmm2
	pmovmskb	%xmm2, %ecx
	testl	%ecx, %ecx
	jne	.LBB10_33
	movdqa	%xmm8, %xmm9
	psllw	$8, %xmm9
	movdqa	%xmm10, %xmm12
	psllw	$8, %xmm12
	movdqa	%xmm8, %xmm7
	psrlw	$12, %xmm7
	movdqa	%xmm10, %xmm11
	psrlw	$12, %xmm11
	por	%xmm12, %xmm11
	por	%xmm9, %xmm7
	movdqa	.LCPI10_5(%rip), %xmm5
	por	%xmm5, %xmm11
	movdqa	.LCPI10_6(%rip), %xmm3
	movdqa	%xmm3, %xmm13
	psubusw	%xmm8, %xmm13
	movdqa	%xmm3, %xmm14
	psubusw	%xmm10, %xmm14
	movdqa	%xmm10, %xmm2
	psrlw	$6, %xmm2
	movdqa	.LCPI10_8(%rip), %xmm6
	pand	%xmm6, %xmm2
	movdqa	.LCPI10_9(%rip), %xmm4
	pand	%xmm4, %xmm12
	por	%xmm2, %xmm12
	movdqa	.LCPI10_11(%rip), %xmm2
	movdqa	%xmm2, %xmm15
	psubusw	%xmm10, %xmm15
	movdqa	.LCPI10_7(%rip), %xmm10
	pand	%xmm10, %xmm14
	pand	%xmm10, %xmm13
	por	%xmm14, %xmm15
	psrlw	$9, %xmm14
	por	%xmm14, %xmm12
	movdqa	%xmm2, %xmm14
	psubusw	%xmm8, %xmm14
	por	%xmm13, %xmm14
	psrlw	$9, %xmm13
	psrlw	$6, %xmm8
	pand	%xmm6, %xmm8
	pand	%xmm4, %xmm9
	por	%xmm8, %xmm9
	por	%xmm13, %xmm9
	movdqa	.LCPI10_10(%rip), %xmm8
	por	%xmm8, %xmm12
	pmovmskb	%xmm15, %edx
	movdqa	%xmm11, %xmm13
	punpcklwd	%xmm12, %xmm13
	movzbl	%dl, %esi
	popcntl	%esi, %edi
	shll	$4, %esi
	leaq	.Lstatic.9(%rip), %rcx
	movdqu	(%rsi,%rcx), %xmm15
	pshufb	%xmm15, %xmm13
	movdqu	%xmm13, (%r15,%rax)
	por	%xmm5, %xmm7
	por	%xmm8, %xmm9
	subq	%rdi, %rax
	punpckhwd	%xmm12, %xmm11
	shrl	$8, %edx
	xorl	%esi, %esi
	popcntl	%edx, %esi
	shll	$4, %edx
	movdqu	(%rdx,%rcx), %xmm12
	pshufb	%xmm12, %xmm11
	movdqu	%xmm11, 12(%r15,%rax)
	addq	$12, %rax
	subq	%rsi, %rax
	pmovmskb	%xmm14, %esi
	movdqa	%xmm7, %xmm11
	punpcklwd	%xmm9, %xmm11
	movzbl	%sil, %edx
	xorl	%edi, %edi
	popcntl	%edx, %edi
	shll	$4, %edx
	movdqu	(%rdx,%rcx), %xmm12
	pshufb	%xmm12, %xmm11
	movdqu	%xmm11, 12(%r15,%rax)
	addq	$12, %rax
	subq	%rdi, %rax
	punpckhwd	%xmm9, %xmm7
	shrl	$8, %esi
	xorl	%edx, %edx
	popcntl	%esi, %edx
	shll	$4, %esi
	movdqu	(%rsi,%rcx), %xmm9
	pshufb	%xmm9, %xmm7
	movdqu	%xmm7, 12(%r15,%rax)
	movdqa	%xmm1, %xmm9
	psllw	$8, %xmm9
	movdqa	%xmm0, %xmm12
	psllw	$8, %xmm12
	movdqa	%xmm1, %xmm7
	psrlw	$12, %xmm7
	movdqa	%xmm0, %xmm11
	psrlw	$12, %xmm11
	por	%xmm12, %xmm11
	por	%xmm9, %xmm7
	por	%xmm5, %xmm7
	por	%xmm5, %xmm11
	movdqa	%xmm3, %xmm5
	psubusw	%xmm1, %xmm5
	psubusw	%xmm0, %xmm3
	pand	%xmm10, %xmm3
	pand	%xmm10, %xmm5
	movdqa	%xmm1, %xmm13
	psrlw	$6, %xmm13
	movdqa	%xmm2, %xmm10
	psubusw	%xmm0, %xmm10
	psrlw	$6, %xmm0
	pand	%xmm6, %xmm0
	pand	%xmm6, %xmm13
	pand	%xmm4, %xmm12
	por	%xmm0, %xmm12
	por	%xmm3, %xmm10
	psrlw	$9, %xmm3
	por	%xmm3, %xmm12
	pand	%xmm4, %xmm9
	por	%xmm13, %xmm9
	psubusw	%xmm1, %xmm2
	por	%xmm5, %xmm2
	psrlw	$9, %xmm5
	por	%xmm5, %xmm9
	por	%xmm8, %xmm9
	por	%xmm8, %xmm12
	pmovmskb	%xmm10, %esi
	movdqa	%xmm11, %xmm0
	punpcklwd	%xmm12, %xmm0
	movzbl	%sil, %edi
	popcntl	%edi, %r8d
	shll	$4, %edi
	movdqu	(%rdi,%rcx), %xmm3
	pshufb	%xmm3, %xmm0
	subq	%rdx, %rax
	movdqu	%xmm0, 24(%r15,%rax)
	punpckhwd	%xmm12, %xmm11
	shrl	$8, %esi
	xorl	%edx, %edx
	popcntl	%esi, %edx
	shll	$4, %esi
	movdqu	(%rsi,%rcx), %xmm0
	pshufb	%xmm0, %xmm11
	addq	$24, %rax
	subq	%r8, %rax
	movdqu	%xmm11, 12(%r15,%rax)
	pmovmskb	%xmm2, %esi
	movdqa	%xmm7, %xmm0
	punpcklwd	%xmm9, %xmm0
	movzbl	%sil, %edi
	xorl	%r8d, %r8d
	popcntl	%edi, %r8d
	shll	$4, %edi
	movdqu	(%rdi,%rcx), %xmm2
	pshufb	%xmm2, %xmm0
	addq	$12, %rax
	subq	%rdx, %rax
	movdqu	%xmm0, 12(%r15,%rax)
	punpckhwd	%xmm9, %xmm7
	shrl	$8, %esi
	xorl	%edx, %edx
	popcntl	%esi, %edx
	shll	$4, %esi
	movdqu	(%rsi,%rcx), %xmm0
	pshufb	%xmm0, %xmm7
	addq	$12, %rax
	subq	%r8, %rax
	movdqu	%xmm7, 12(%r15,%rax)
	subq	%rdx, %rax
	addq	$24, %rax
	addq	$64, %rbp
	cmpq	%r12, %rbp
	ja	.LBB10_13
	movdqa	%xmm1, %xmm6
	cmpq	%rax, %r14
	movdqa	.LCPI10_0(%rip), %xmm15
	jae	.LBB10_20
	jmp	.LBB10_37
	.p2align	4
.LBB10_24:
	movdqa	%xmm2, %xmm6
	psrlw	$6, %xmm6
	movdqa	%xmm3, %xmm5
	psrlw	$6, %xmm5
	movdqa	%xmm3, %xmm0
	psllw	$8, %xmm0
	movdqa	.LCPI10_9(%rip), %xmm7
	pand	%xmm7, %xmm0
	movdqa	%xmm2, %xmm1
	psllw	$8, %xmm1
	pand	%xmm7, %xmm1
	movdqa	.LCPI10_17(%rip), %xmm4
	paddw	%xmm4, %xmm6
	paddw	%xmm1, %xmm6
	paddw	%xmm4, %xmm5
	paddw	%xmm0, %xmm5
	movdqa	.LCPI10_18(%rip), %xmm1
	movdqa	%xmm3, %xmm8
	pminuw	%xmm1, %xmm8
	pcmpeqw	%xmm3, %xmm8
	movdqa	%xmm8, %xmm0
	pblendvb	%xmm0, %xmm3, %xmm5
	movdqa	%xmm2, %xmm0
	pminuw	%xmm1, %xmm0
	pcmpeqw	%xmm2, %xmm0
	pblendvb	%xmm0, %xmm2, %xmm6
	packsswb	%xmm8, %xmm0
	pmovmskb	%xmm0, %edx
	movzbl	%dl, %esi
	xorl	%edi, %edi
	popcntl	%esi, %edi
	shll	$4, %esi
	leaq	.Lstatic.8(%rip), %rcx
	movdqu	(%rsi,%rcx), %xmm0
	pshufb	%xmm0, %xmm6
	movdqu	%xmm6, (%r15,%rax)
	subq	%rdi, %rax
	shrl	$8, %edx
	xorl	%esi, %esi
	popcntl	%edx, %esi
	shll	$4, %edx
	movdqu	(%rdx,%rcx), %xmm0
	pshufb	%xmm0, %xmm5
	movdqu	%xmm5, 16(%r15,%rax)
	subq	%rsi, %rax
	movdqa	%xmm13, %xmm6
	psrlw	$6, %xmm6
	movdqa	%xmm12, %xmm5
	psrlw	$6, %xmm5
	movdqa	%xmm12, %xmm0
	psllw	$8, %xmm0
	pand	%xmm7, %xmm0
	movdqa	%xmm13, %xmm2
	psllw	$8, %xmm2
	pand	%xmm7, %xmm2
	paddw	%xmm4, %xmm6
	paddw	%xmm2, %xmm6
	paddw	%xmm4, %xmm5
	paddw	%xmm0, %xmm5
	movdqa	%xmm12, %xmm2
	pminuw	%xmm1, %xmm2
	pcmpeqw	%xmm12, %xmm2
	movdqa	%xmm2, %xmm0
	pblendvb	%xmm0, %xmm12, %xmm5
	pminuw	%xmm13, %xmm1
	pcmpeqw	%xmm13, %xmm1
	movdqa	%xmm1, %xmm0
	pblendvb	%xmm0, %xmm13, %xmm6
	packsswb	%xmm2, %xmm1
	pmovmskb	%xmm1, %edx
	movzbl	%dl, %esi
	xorl	%edi, %edi
	popcntl	%esi, %edi
	shll	$4, %esi
	movdqu	(%rsi,%rcx), %xmm0
	pshufb	%xmm0, %xmm6
	movdqu	%xmm6, 32(%r15,%rax)
	addq	$32, %rax
	subq	%rdi, %rax
	shrl	$8, %edx
	xorl	%esi, %esi
	popcntl	%edx, %esi
	shll	$4, %edx
	movdqu	(%rdx,%rcx), %xmm0
	pshufb	%xmm0, %xmm5
	movdqu	%xmm5, 16(%r15,%rax)
	subq	%rsi, %rax
	addq	$32, %rax
	addq	$64, %rbp
	movdqa	%xmm12, %xmm1
	cmpq	%r12, %rbp
	jbe	.LBB10_38
	jmp	.LBB10_41
	.p2align	4
.LBB10_25:
	movdqa	%xmm3, %xmm1
	psrlw	$12, %xmm1
	movdqa	%xmm2, %xmm8
	psrlw	$12, %xmm8
	movdqa	%xmm2, %xmm5
	psllw	$2, %xmm5
	movdqa	.LCPI10_9(%rip), %xmm0
	pand	%xmm0, %xmm5
	movdqa	%xmm3, %xmm4
	psllw	$2, %xmm4
	pand	%xmm0, %xmm4
	movdqa	.LCPI10_12(%rip), %xmm11
	por	%xmm11, %xmm1
	por	%xmm4, %xmm1
	por	%xmm11, %xmm8
	por	%xmm5, %xmm8
	movdqa	.LCPI10_8(%rip), %xmm10
	pand	%xmm10, %xmm2
	pand	%xmm10, %xmm3
	movdqa	.LCPI10_13(%rip), %xmm4
	por	%xmm4, %xmm3
	por	%xmm4, %xmm2
	movdqa	.LCPI10_14(%rip), %xmm5
	movdqa	%xmm2, %xmm7
	pshufb	%xmm5, %xmm7
	movdqa	.LCPI10_15(%rip), %xmm6
	movdqa	%xmm8, %xmm9
	pshufb	%xmm6, %xmm9
	por	%xmm7, %xmm9
	movdqu	%xmm9, (%r15,%rax)
	punpckhbw	%xmm2, %xmm8
	movq	.LCPI10_27(%rip), %xmm7
	pshufb	%xmm7, %xmm8
	movq	%xmm8, 16(%r15,%rax)
	movdqa	%xmm3, %xmm8
	pshufb	%xmm5, %xmm8
	movdqa	%xmm1, %xmm9
	pshufb	%xmm6, %xmm9
	por	%xmm8, %xmm9
	movdqu	%xmm9, 24(%r15,%rax)
	punpckhbw	%xmm3, %xmm1
	movdqa	%xmm10, %xmm3
	pshufb	%xmm7, %xmm1
	movq	%xmm1, 40(%r15,%rax)
	movdqa	%xmm12, %xmm1
	psrlw	$12, %xmm1
	movdqa	%xmm13, %xmm8
	psrlw	$12, %xmm8
	movdqa	%xmm13, %xmm9
	psllw	$2, %xmm9
	pand	%xmm0, %xmm9
	movdqa	%xmm12, %xmm10
	psllw	$2, %xmm10
	pand	%xmm0, %xmm10
	por	%xmm11, %xmm1
	por	%xmm10, %xmm1
	por	%xmm11, %xmm8
	por	%xmm9, %xmm8
	pand	%xmm3, %xmm13
	movdqa	%xmm12, %xmm9
	pand	%xmm3, %xmm9
	por	%xmm4, %xmm9
	por	%xmm4, %xmm13
	movdqa	%xmm13, %xmm10
	pshufb	%xmm5, %xmm10
	movdqa	%xmm8, %xmm11
	pshufb	%xmm6, %xmm11
	por	%xmm10, %xmm11
	movdqu	%xmm11, 48(%r15,%rax)
	punpckhbw	%xmm13, %xmm8
	pshufb	%xmm7, %xmm8
	movq	%xmm8, 64(%r15,%rax)
	movdqa	%xmm1, %xmm8
	punpckhbw	%xmm9, %xmm1
	pshufb	%xmm5, %xmm9
	pshufb	%xmm6, %xmm8
	por	%xmm9, %xmm8
	movdqu	%xmm8, 72(%r15,%rax)
	pshufb	%xmm7, %xmm1
	movq	%xmm1, 88(%r15,%rax)
	addq	$96, %rax
	addq	$64, %rbp
	cmpq	%r12, %rbp
	ja	.LBB10_36
	cmpq	%rax, %r14
	jb	.LBB10_35
	.p2align	4
.LBB10_27:
	movdqa	%xmm12, %xmm2
	movdqu	(%r13,%rbp), %xmm10
	movdqu	16(%r13,%rbp), %xmm9
	movdqu	32(%r13,%rbp), %xmm8
	movdqu	48(%r13,%rbp), %xmm1
	pshufb	%xmm15, %xmm8
	pshufb	%xmm15, %xmm10
	pshufb	%xmm15, %xmm1
	pshufb	%xmm15, %xmm9
	movdqa	%xmm9, %xmm11
	movdqa	.LCPI10_3(%rip), %xmm0
	paddw	%xmm0, %xmm11
	movdqa	%xmm1, %xmm12
	paddw	%xmm0, %xmm12
	movdqa	%xmm10, %xmm13
	paddw	%xmm0, %xmm13
	movdqa	%xmm8, %xmm14
	paddw	%xmm0, %xmm14
	pminuw	%xmm8, %xmm14
	pminuw	%xmm10, %xmm13
	pminuw	%xmm14, %xmm13
	pminuw	%xmm1, %xmm12
	pminuw	%xmm9, %xmm11
	pminuw	%xmm12, %xmm11
	pminuw	%xmm13, %xmm11
	movdqa	.LCPI10_4(%rip), %xmm12
	pminuw	%xmm11, %xmm12
	pcmpeqw	%xmm11, %xmm12
	pmovmskb	%xmm12, %ecx
	testl	%ecx, %ecx
	jne	.LBB10_34
	movdqa	%xmm9, %xmm11
	psrlw	$12, %xmm11
	movdqa	%xmm10, %xmm12
	psrlw	$12, %xmm12
	movdqa	%xmm10, %xmm13
	psllw	$2, %xmm13
	movdqa	.LCPI10_9(%rip), %xmm0
	pand	%xmm0, %xmm13
	movdqa	%xmm9, %xmm14
	psllw	$2, %xmm14
	pand	%xmm0, %xmm14
	movdqa	.LCPI10_12(%rip), %xmm2
	por	%xmm2, %xmm11
	por	%xmm14, %xmm11
	por	%xmm2, %xmm12
	por	%xmm13, %xmm12
	pand	%xmm3, %xmm10
	pand	%xmm3, %xmm9
	por	%xmm4, %xmm9
	por	%xmm4, %xmm10
	movdqa	%xmm10, %xmm13
	pshufb	%xmm5, %xmm13
	movdqa	%xmm12, %xmm14
	pshufb	%xmm6, %xmm14
	por	%xmm13, %xmm14
	movdqu	%xmm14, (%r15,%rax)
	punpckhbw	%xmm10, %xmm12
	pshufb	%xmm7, %xmm12
	movq	%xmm12, 16(%r15,%rax)
	movdqa	%xmm9, %xmm10
	pshufb	%xmm5, %xmm10
	movdqa	%xmm11, %xmm12
	pshufb	%xmm6, %xmm12
	por	%xmm10, %xmm12
	movdqu	%xmm12, 24(%r15,%rax)
	punpckhbw	%xmm9, %xmm11
	pshufb	%xmm7, %xmm11
	movq	%xmm11, 40(%r15,%rax)
	movdqa	%xmm1, %xmm9
	psrlw	$12, %xmm9
	movdqa	%xmm8, %xmm10
	psrlw	$12, %xmm10
	movdqa	%xmm8, %xmm11
	psllw	$2, %xmm11
	pand	%xmm0, %xmm11
	movdqa	%xmm1, %xmm12
	psllw	$2, %xmm12
	pand	%xmm0, %xmm12
	por	%xmm2, %xmm9
	por	%xmm12, %xmm9
	por	%xmm2, %xmm10
	por	%xmm11, %xmm10
	pand	%xmm3, %xmm8
	movdqa	%xmm1, %xmm11
	pand	%xmm3, %xmm11
	por	%xmm4, %xmm11
	por	%xmm4, %xmm8
	movdqa	%xmm8, %xmm12
	pshufb	%xmm5, %xmm12
	movdqa	%xmm10, %xmm13
	pshufb	%xmm6, %xmm13
	por	%xmm12, %xmm13
	movdqu	%xmm13, 48(%r15,%rax)
	punpckhbw	%xmm8, %xmm10
	pshufb	%xmm7, %xmm10
	movq	%xmm10, 64(%r15,%rax)
	movdqa	%xmm9, %xmm8
	punpckhbw	%xmm11, %xmm9
	pshufb	%xmm5, %xmm11
	pshufb	%xmm6, %xmm8
	por	%xmm11, %xmm8
	movdqu	%xmm8, 72(%r15,%rax)
	pshufb	%xmm7, %xmm9
	movq	%xmm9, 88(%r15,%rax)
	addq	$96, %rax
	addq	$64, %rbp
	cmpq	%r12, %rbp
	ja	.LBB10_37
	movdqa	%xmm1, %xmm12
	cmpq	%rax, %r14
	jae	.LBB10_27
	jmp	.LBB10_37
.LBB10_33:
	movdqa	%xmm6, %xmm1
	cmpq	%r12, %rbp
	jbe	.LBB10_38
	jmp	.LBB10_41
.LBB10_30:
	movdqa	(%rsp), %xmm1
	cmpq	%r12, %rbp
	jbe	.LBB10_38
	jmp	.LBB10_41
.LBB10_31:
	movdqa	(%rsp), %xmm1
	movdqa	.LCPI10_0(%rip), %xmm15
	cmpq	%r12, %rbp
	jbe	.LBB10_38
	jmp	.LBB10_41
.LBB10_34:
	movdqa	%xmm2, %xmm1
	cmpq	%r12, %rbp
	jbe	.LBB10_38
	jmp	.LBB10_41
.LBB10_35:
	movdqa	%xmm12, %xmm1
	cmpq	%r12, %rbp
	jbe	.LBB10_38
	jmp	.LBB10_41
.LBB10_36:
	movdqa	%xmm12, %xmm1
	.p2align	4
.LBB10_37:
	cmpq	%r12, %rbp
	ja	.LBB10_41
.LBB10_38:
	cmpq	%rax, %r14
	jae	.LBB10_10
	.p2align	4
.LBB10_41:
	movdqa	%xmm1, %xmm12
.LBB10_42:
	cmpq	%rbp, %r12
	jb	.LBB10_63
	cmpq	%rax, %r14
	jb	.LBB10_63
	movdqu	(%r13,%rbp), %xmm2
	movdqu	16(%r13,%rbp), %xmm14
	movdqu	32(%r13,%rbp), %xmm13
	movdqu	48(%r13,%rbp), %xmm15
	movdqa	.LCPI10_0(%rip), %xmm5
	pshufb	%xmm5, %xmm13
	pshufb	%xmm5, %xmm15
	pshufb	%xmm5, %xmm2
	pshufb	%xmm5, %xmm14
	movdqa	%xmm14, %xmm0
	psrlw	$8, %xmm0
	movdqa	%xmm2, %xmm1
	psrlw	$8, %xmm1
	packuswb	%xmm0, %xmm1
	movdqa	%xmm15, %xmm0
	psrlw	$8, %xmm0
	movdqa	%xmm13, %xmm4
	psrlw	$8, %xmm4
	packuswb	%xmm0, %xmm4
	movdqa	.LCPI10_19(%rip), %xmm0
	pand	%xmm0, %xmm1
	pand	%xmm0, %xmm4
	movdqa	.LCPI10_20(%rip), %xmm7
	movdqa	%xmm4, %xmm0
	pcmpeqb	%xmm7, %xmm0
	movdqa	%xmm1, %xmm3
	pcmpeqb	%xmm7, %xmm3
	pmovmskb	%xmm3, %edx
	pmovmskb	%xmm0, %ecx
	movdqa	.LCPI10_21(%rip), %xmm8
	pcmpeqb	%xmm8, %xmm1
	pmovmskb	%xmm1, %esi
	pcmpeqb	%xmm8, %xmm4
	pmovmskb	%xmm4, %edi
	shll	$16, %edi
	orl	%esi, %edi
	movl	%ecx, %esi
	shll	$17, %esi
	movzbl	%bl, %r8d
	andl	$1, %r8d
	leal	(%rsi,%rdx,2), %edx
	orl	%r8d, %edx
	cmpl	%edi, %edx
	jne	.LBB10_63
	shrl	$15, %ecx
	movl	%ecx, %ebx
	movdqa	%xmm2, %xmm0
	por	%xmm13, %xmm0
	movdqa	%xmm14, %xmm1
	por	%xmm15, %xmm1
	por	%xmm0, %xmm1
	ptest	.LCPI10_2(%rip), %xmm1
	movdqa	%xmm15, (%rsp)
	je	.LBB10_3
	movdqa	.LCPI10_3(%rip), %xmm9
	movdqa	%xmm13, %xmm0
	paddw	%xmm9, %xmm0
	movdqa	%xmm2, %xmm1
	paddw	%xmm9, %xmm1
	movdqa	%xmm15, %xmm4
	paddw	%xmm9, %xmm4
	movdqa	%xmm14, %xmm3
	paddw	%xmm9, %xmm3
	pminuw	%xmm14, %xmm3
	pminuw	%xmm15, %xmm4
	por	%xmm3, %xmm4
	pminuw	%xmm2, %xmm1
	pminuw	%xmm13, %xmm0
	por	%xmm1, %xmm0
	por	%xmm4, %xmm0
	ptest	.LCPI10_2(%rip), %xmm0
	jne	.LBB10_3
	movdqa	%xmm2, %xmm1
	palignr	$14, %xmm12, %xmm1
	movdqa	%xmm14, %xmm0
	palignr	$14, %xmm2, %xmm0
	movdqa	.LCPI10_22(%rip), %xmm3
	movdqa	%xmm14, %xmm6
	paddw	%xmm3, %xmm6
	movdqa	%xmm2, %xmm12
	paddw	%xmm3, %xmm12
	movdqa	.LCPI10_23(%rip), %xmm4
	movdqa	%xmm2, %xmm11
	paddw	%xmm4, %xmm11
	movdqa	%xmm14, %xmm3
	paddw	%xmm4, %xmm3
	psrlw	$2, %xmm3
	psrlw	$2, %xmm11
	movdqa	.LCPI10_24(%rip), %xmm4
	psubusw	%xmm4, %xmm11
	psubusw	%xmm4, %xmm3
	psllw	$10, %xmm0
	psllw	$10, %xmm1
	movdqa	.LCPI10_25(%rip), %xmm4
	pand	%xmm4, %xmm1
	pand	%xmm4, %xmm0
	movdqa	.LCPI10_26(%rip), %xmm15
	movdqa	%xmm2, %xmm4
	movdqa	%xmm2, %xmm10
	paddw	%xmm15, %xmm10
	paddw	%xmm1, %xmm10
	pmaxuw	%xmm11, %xmm10
	movdqa	%xmm14, %xmm2
	paddw	%xmm15, %xmm2
	paddw	%xmm0, %xmm2
	pmaxuw	%xmm3, %xmm2
	pxor	%xmm1, %xmm1
	pxor	%xmm0, %xmm0
	pcmpgtw	%xmm4, %xmm0
	pblendvb	%xmm0, %xmm10, %xmm12
	pcmpgtw	%xmm14, %xmm1
	movdqa	%xmm1, %xmm0
	pblendvb	%xmm0, %xmm2, %xmm6
	movdqa	%xmm6, %xmm0
	psrlw	$6, %xmm0
	movdqa	%xmm12, %xmm1
	psrlw	$6, %xmm1
	movdqa	.LCPI10_7(%rip), %xmm2
	psllw	$8, %xmm12
	psllw	$8, %xmm6
	movdqa	.LCPI10_9(%rip), %xmm3
	pand	%xmm3, %xmm6
	paddw	%xmm0, %xmm6
	pand	%xmm3, %xmm12
	paddw	%xmm1, %xmm12
	por	%xmm2, %xmm12
	por	%xmm2, %xmm6
	movdqa	.LCPI10_18(%rip), %xmm1
	movdqa	%xmm14, %xmm0
	pminuw	%xmm1, %xmm0
	pcmpeqw	%xmm14, %xmm0
	movdqa	%xmm0, 16(%rsp)
	pblendvb	%xmm0, %xmm14, %xmm6
	movdqa	%xmm4, %xmm2
	pminuw	%xmm1, %xmm2
	pcmpeqw	%xmm4, %xmm2
	movdqa	%xmm2, %xmm0
	pblendvb	%xmm0, %xmm4, %xmm12
	pxor	%xmm0, %xmm0
	movdqa	%xmm13, %xmm3
	palignr	$14, %xmm14, %xmm3
	psllw	$10, %xmm3
	pand	.LCPI10_25(%rip), %xmm3
	movdqa	%xmm13, %xmm1
	paddw	%xmm15, %xmm13
	paddw	%xmm3, %xmm13
	movdqa	%xmm1, %xmm3
	movdqa	.LCPI10_23(%rip), %xmm11
	paddw	%xmm11, %xmm3
	psrlw	$2, %xmm3
	movdqa	.LCPI10_24(%rip), %xmm14
	psubusw	%xmm14, %xmm3
	pmaxuw	%xmm3, %xmm13
	movdqa	%xmm1, %xmm10
	movdqa	.LCPI10_22(%rip), %xmm4
	paddw	%xmm4, %xmm10
	pcmpgtw	%xmm1, %xmm0
	pblendvb	%xmm0, %xmm13, %xmm10
	movdqa	(%rsp), %xmm0
	palignr	$14, %xmm1, %xmm0
	psllw	$10, %xmm0
	pand	.LCPI10_25(%rip), %xmm0
	movdqa	(%rsp), %xmm3
	paddw	%xmm15, %xmm3
	movdqa	(%rsp), %xmm15
	paddw	%xmm0, %xmm3
	movdqa	%xmm15, %xmm0
	paddw	%xmm11, %xmm0
	psrlw	$2, %xmm0
	psubusw	%xmm14, %xmm0
	pmaxuw	%xmm0, %xmm3
	movdqa	%xmm15, %xmm13
	paddw	%xmm4, %xmm13
	pxor	%xmm0, %xmm0
	pcmpgtw	%xmm15, %xmm0
	pblendvb	%xmm0, %xmm3, %xmm13
	movdqa	%xmm13, %xmm0
	psrlw	$6, %xmm0
	psllw	$8, %xmm13
	movdqa	.LCPI10_9(%rip), %xmm3
	pand	%xmm3, %xmm13
	paddw	%xmm0, %xmm13
	movdqa	%xmm10, %xmm0
	psrlw	$6, %xmm0
	psllw	$8, %xmm10
	pand	%xmm3, %xmm10
	paddw	%xmm0, %xmm10
	movdqa	.LCPI10_7(%rip), %xmm4
	por	%xmm4, %xmm13
	movdqa	%xmm15, %xmm3
	movdqa	.LCPI10_18(%rip), %xmm11
	pminuw	%xmm11, %xmm3
	pcmpeqw	%xmm15, %xmm3
	movdqa	%xmm3, %xmm0
	pblendvb	%xmm0, %xmm15, %xmm13
	por	%xmm4, %xmm10
	movdqa	%xmm1, %xmm0
	pminuw	%xmm11, %xmm0
	pcmpeqw	%xmm1, %xmm0
	pblendvb	%xmm0, %xmm1, %xmm10
	packsswb	16(%rsp), %xmm2
	pmovmskb	%xmm2, %edx
	movzbl	%dl, %esi
	popcntl	%esi, %edi
	shll	$4, %esi
	leaq	.Lstatic.8(%rip), %rcx
	movdqu	(%rsi,%rcx), %xmm1
	pshufb	%xmm1, %xmm12
	movdqu	%xmm12, (%r15,%rax)
	shrl	$8, %edx
	xorl	%esi, %esi
	popcntl	%edx, %esi
	shll	$4, %edx
	movdqu	(%rdx,%rcx), %xmm1
	pshufb	%xmm1, %xmm6
	subq	%rdi, %rax
	movdqu	%xmm6, 16(%r15,%rax)
	packsswb	%xmm3, %xmm0
	pmovmskb	%xmm0, %edx
	movzbl	%dl, %edi
	popcntl	%edi, %r8d
	shll	$4, %edi
	movdqu	(%rdi,%rcx), %xmm0
	pshufb	%xmm0, %xmm10
	subq	%rsi, %rax
	movdqu	%xmm10, 32(%r15,%rax)
	shrl	$8, %edx
	xorl	%esi, %esi
	popcntl	%edx, %esi
	shll	$4, %edx
	movdqu	(%rdx,%rcx), %xmm0
	pshufb	%xmm0, %xmm13
	addq	$32, %rax
	subq	%r8, %rax
	movdqu	%xmm13, 16(%r15,%rax)
	subq	%rsi, %rax
	addq	$64, %rbp
	addq	$32, %rax
	cmpq	%r12, %rbp
	ja	.LBB10_55
	cmpq	%rax, %r14
	jb	.LBB10_55
	.p2align	4
.LBB10_49:
	movdqu	(%r13,%rbp), %xmm10
	movdqu	16(%r13,%rbp), %xmm13
	movdqu	32(%r13,%rbp), %xmm6
	movdqu	48(%r13,%rbp), %xmm1
	pshufb	%xmm5, %xmm6
	pshufb	%xmm5, %xmm10
	pshufb	%xmm5, %xmm1
	pshufb	%xmm5, %xmm13
	movdqa	%xmm13, %xmm0
	por	%xmm1, %xmm0
	movdqa	%xmm10, %xmm2
	por	%xmm6, %xmm2
	por	%xmm0, %xmm2
	ptest	.LCPI10_2(%rip), %xmm2
	je	.LBB10_55
	movdqa	%xmm6, %xmm0
	paddw	%xmm9, %xmm0
	movdqa	%xmm10, %xmm2
	paddw	%xmm9, %xmm2
	movdqa	%xmm1, %xmm3
	paddw	%xmm9, %xmm3
	movdqa	%xmm13, %xmm4
	paddw	%xmm9, %xmm4
	pminuw	%xmm13, %xmm4
	pminuw	%xmm1, %xmm3
	por	%xmm4, %xmm3
	pminuw	%xmm10, %xmm2
	pminuw	%xmm6, %xmm0
	por	%xmm2, %xmm0
	por	%xmm3, %xmm0
	ptest	.LCPI10_2(%rip), %xmm0
	jne	.LBB10_55
	movdqa	%xmm10, %xmm0
	psrlw	$8, %xmm0
	movdqa	%xmm13, %xmm2
	psrlw	$8, %xmm2
	packuswb	%xmm2, %xmm0
	movdqa	%xmm6, %xmm2
	psrlw	$8, %xmm2
	movdqa	%xmm1, %xmm3
	psrlw	$8, %xmm3
	packuswb	%xmm3, %xmm2
	movdqa	.LCPI10_19(%rip), %xmm3
	pand	%xmm3, %xmm0
	pand	%xmm3, %xmm2
	movdqa	%xmm2, %xmm3
	pcmpeqb	%xmm7, %xmm3
	movdqa	%xmm0, %xmm4
	pcmpeqb	%xmm7, %xmm4
	pmovmskb	%xmm4, %esi
	pmovmskb	%xmm3, %edx
	pcmpeqb	%xmm8, %xmm0
	pmovmskb	%xmm0, %edi
	pcmpeqb	%xmm8, %xmm2
	pmovmskb	%xmm2, %r8d
	shll	$16, %r8d
	orl	%edi, %r8d
	movl	%edx, %edi
	shll	$17, %edi
	leal	(%rdi,%rsi,2), %esi
	movzbl	%bl, %edi
	orl	%esi, %edi
	cmpl	%r8d, %edi
	jne	.LBB10_55
	movdqa	%xmm10, %xmm2
	palignr	$14, %xmm15, %xmm2
	movdqa	%xmm13, %xmm0
	palignr	$14, %xmm10, %xmm0
	movdqa	%xmm13, %xmm15
	movdqa	.LCPI10_22(%rip), %xmm12
	paddw	%xmm12, %xmm15
	movdqa	%xmm10, %xmm11
	paddw	%xmm12, %xmm11
	movdqa	%xmm10, %xmm3
	movdqa	.LCPI10_23(%rip), %xmm9
	paddw	%xmm9, %xmm3
	movdqa	%xmm13, %xmm4
	paddw	%xmm9, %xmm4
	psrlw	$2, %xmm4
	psrlw	$2, %xmm3
	movdqa	.LCPI10_24(%rip), %xmm8
	psubusw	%xmm8, %xmm3
	psubusw	%xmm8, %xmm4
	psllw	$10, %xmm0
	psllw	$10, %xmm2
	movdqa	.LCPI10_25(%rip), %xmm7
	pand	%xmm7, %xmm2
	pand	%xmm7, %xmm0
	movdqa	%xmm10, %xmm14
	movdqa	.LCPI10_26(%rip), %xmm5
	paddw	%xmm5, %xmm14
	paddw	%xmm2, %xmm14
	pmaxuw	%xmm3, %xmm14
	movdqa	%xmm13, %xmm3
	paddw	%xmm5, %xmm3
	paddw	%xmm0, %xmm3
	pmaxuw	%xmm4, %xmm3
	pxor	%xmm2, %xmm2
	pcmpgtw	%xmm13, %xmm2
	pxor	%xmm0, %xmm0
	pcmpgtw	%xmm10, %xmm0
	pblendvb	%xmm0, %xmm14, %xmm11
	movdqa	%xmm2, %xmm0
	pblendvb	%xmm0, %xmm3, %xmm15
	movdqa	%xmm15, %xmm0
	psrlw	$6, %xmm0
	movdqa	%xmm11, %xmm2
	psrlw	$6, %xmm2
	psllw	$8, %xmm11
	psllw	$8, %xmm15
	movdqa	.LCPI10_9(%rip), %xmm9
	pand	%xmm9, %xmm15
	paddw	%xmm0, %xmm15
	pand	%xmm9, %xmm11
	paddw	%xmm2, %xmm11
	movdqa	.LCPI10_7(%rip), %xmm9
	por	%xmm9, %xmm15
	movdqa	%xmm13, %xmm2
	movdqa	.LCPI10_18(%rip), %xmm4
	pminuw	%xmm4, %xmm2
	pcmpeqw	%xmm13, %xmm2
	movdqa	%xmm2, %xmm0
	pblendvb	%xmm0, %xmm13, %xmm15
	por	%xmm9, %xmm11
	movdqa	%xmm10, %xmm3
	pminuw	%xmm4, %xmm3
	pcmpeqw	%xmm10, %xmm3
	movdqa	%xmm3, %xmm0
	pblendvb	%xmm0, %xmm10, %xmm11
	movdqa	%xmm6, %xmm10
	palignr	$14, %xmm13, %xmm10
	movdqa	%xmm1, %xmm0
	palignr	$14, %xmm6, %xmm0
	movdqa	%xmm1, %xmm13
	movdqa	%xmm12, %xmm8
	paddw	%xmm12, %xmm13
	psllw	$10, %xmm10
	movdqa	%xmm7, %xmm5
	pand	%xmm7, %xmm10
	movdqa	%xmm6, %xmm12
	movdqa	.LCPI10_26(%rip), %xmm7
	paddw	%xmm7, %xmm12
	paddw	%xmm10, %xmm12
	movdqa	%xmm6, %xmm10
	movdqa	.LCPI10_23(%rip), %xmm14
	paddw	%xmm14, %xmm10
	psrlw	$2, %xmm10
	movdqa	.LCPI10_24(%rip), %xmm4
	psubusw	%xmm4, %xmm10
	psllw	$10, %xmm0
	pand	%xmm5, %xmm0
	pmaxuw	%xmm10, %xmm12
	movdqa	%xmm1, %xmm10
	paddw	%xmm7, %xmm10
	paddw	%xmm0, %xmm10
	movdqa	%xmm1, %xmm0
	paddw	%xmm14, %xmm0
	psrlw	$2, %xmm0
	psubusw	%xmm4, %xmm0
	pmaxuw	%xmm0, %xmm10
	movdqa	%xmm6, %xmm14
	paddw	%xmm8, %xmm14
	pxor	%xmm0, %xmm0
	pcmpgtw	%xmm6, %xmm0
	pblendvb	%xmm0, %xmm12, %xmm14
	pxor	%xmm0, %xmm0
	pcmpgtw	%xmm1, %xmm0
	pblendvb	%xmm0, %xmm10, %xmm13
	movdqa	%xmm13, %xmm0
	psrlw	$6, %xmm0
	movdqa	%xmm14, %xmm4
	psrlw	$6, %xmm4
	psllw	$8, %xmm14
	psllw	$8, %xmm13
	movdqa	.LCPI10_9(%rip), %xmm5
	pand	%xmm5, %xmm13
	paddw	%xmm0, %xmm13
	pand	%xmm5, %xmm14
	paddw	%xmm4, %xmm14
	por	%xmm9, %xmm14
	por	%xmm9, %xmm13
	movdqa	%xmm1, %xmm4
	movdqa	.LCPI10_18(%rip), %xmm5
	pminuw	%xmm5, %xmm4
	pcmpeqw	%xmm1, %xmm4
	movdqa	%xmm4, %xmm0
	pblendvb	%xmm0, %xmm1, %xmm13
	movdqa	%xmm6, %xmm0
	pminuw	%xmm5, %xmm0
	pcmpeqw	%xmm6, %xmm0
	pblendvb	%xmm0, %xmm6, %xmm14
	packsswb	%xmm2, %xmm3
	pmovmskb	%xmm3, %esi
	movzbl	%sil, %edi
	popcntl	%edi, %r8d
	shll	$4, %edi
	movdqu	(%rdi,%rcx), %xmm2
	pshufb	%xmm2, %xmm11
	movdqu	%xmm11, (%r15,%rax)
	shrl	$8, %esi
	xorl	%edi, %edi
	popcntl	%esi, %edi
	shll	$4, %esi
	movdqu	(%rsi,%rcx), %xmm2
	pshufb	%xmm2, %xmm15
	subq	%r8, %rax
	movdqu	%xmm15, 16(%r15,%rax)
	packsswb	%xmm4, %xmm0
	pmovmskb	%xmm0, %esi
	movzbl	%sil, %r8d
	popcntl	%r8d, %r9d
	shll	$4, %r8d
	movdqu	(%r8,%rcx), %xmm0
	pshufb	%xmm0, %xmm14
	subq	%rdi, %rax
	movdqu	%xmm14, 32(%r15,%rax)
	shrl	$8, %esi
	xorl	%edi, %edi
	popcntl	%esi, %edi
	shll	$4, %esi
	movdqu	(%rsi,%rcx), %xmm0
	pshufb	%xmm0, %xmm13
	addq	$32, %rax
	subq	%r9, %rax
	movdqu	%xmm13, 16(%r15,%rax)
	movzwl	%dx, %ebx
	shrl	$15, %ebx
	subq	%rdi, %rax
	addq	$64, %rbp
	addq	$32, %rax
	cmpq	%r12, %rbp
	ja	.LBB10_4
	movdqa	%xmm1, %xmm15
	cmpq	%rax, %r14
	movdqa	.LCPI10_20(%rip), %xmm7
	movdqa	.LCPI10_21(%rip), %xmm8
	movdqa	.LCPI10_3(%rip), %xmm9
	movdqa	.LCPI10_0(%rip), %xmm5
	jae	.LBB10_49
	jmp	.LBB10_4
.LBB10_55:
	movdqa	%xmm15, %xmm1
	jmp	.LBB10_4
.LBB10_63:
	movdqa	%xmm12, %xmm1
.LBB10_64:
	andb	$1, %bl
	movq	64(%rsp), %rcx
	movq	%rbp, (%rcx)
	movq	%rax, 8(%rcx)
	movdqu	%xmm1, 16(%rcx)
	movb	%bl, 32(%rcx)
	movl	$0, 33(%rcx)
	movl	$0, 36(%rcx)
.LBB10_65:
	addq	$72, %rsp
	popq	%rbx
	popq	%r12
	popq	%r13
	popq	%r14
	popq	%r15
	popq	%rbp
	retq
.Lfunc_end10:

	.section	.rdata$004,"dr"
	.p2align	4, 0x0
.LCPI11_0:
	.short	224
	.short	224
	.short	224
	.short	224
	.short	224
	.short	224
	.short	224
	.short	224
.LCPI11_1:
	.short	34815
	.short	34815
	.short	34815
	.short	34815
	.short	34815
	.short	34815
	.short	34815
	.short	34815
.LCPI11_2:
	.short	32768
	.short	32768
	.short	32768
	.short	32768
	.short	32768
	.short	32768
	.short	32768
	.short	32768
.LCPI11_3:
	.short	4095
	.short	4095
	.short	4095
	.short	4095
	.short	4095
	.short	4095
	.short	4095
	.short	4095
.LCPI11_4:
	.short	8192
	.short	8192
	.short	8192
	.short	8192
	.short	8192
	.short	8192
	.short	8192
	.short	8192
.LCPI11_5:
	.short	9216
	.short	9216
	.short	9216
	.short	9216
	.short	9216
	.short	9216
	.short	9216
	.short	9216
.LCPI11_6:
	.short	752
	.short	752
	.short	752
	.short	752
	.short	752
	.short	752
	.short	752
	.short	752
.LCPI11_7:
	.short	3072
	.short	3072
	.short	3072
	.short	3072
	.short	3072
	.short	3072
	.short	3072
	.short	3072
.LCPI11_8:
	.short	17408
	.short	17408
	.short	17408
	.short	17408
	.short	17408
	.short	17408
	.short	17408
	.short	17408
.LCPI11_9:
	.short	63488
	.short	63488
	.short	63488
	.short	63488
	.short	63488
	.short	63488
	.short	63488
	.short	63488
.LCPI11_10:
	.short	55296
	.short	55296
	.short	55296
	.short	55296
	.short	55296
	.short	55296
	.short	55296
	.short	55296
.LCPI11_11:
	.short	16128
	.short	16128
	.short	16128
	.short	16128
	.short	16128
	.short	16128
	.short	16128
	.short	16128
.LCPI11_12:
	.short	255
	.short	255
	.short	255
	.short	255
	.short	255
	.short	255
	.short	255
	.short	255
.LCPI11_13:
	.short	63
	.short	63
	.short	63
	.short	63
	.short	63
	.short	63
	.short	63
	.short	63
.LCPI11_14:
	.zero	16,128
.LCPI11_15:
	.short	32992
	.short	32992
	.short	32992
	.short	32992
	.short	32992
	.short	32992
	.short	32992
	.short	32992
.LCPI11_16:
	.short	128
	.short	128
	.short	128
	.short	128
	.short	128
	.short	128
	.short	128
	.short	128
.LCPI11_17:
	.byte	128
	.byte	128
	.byte	0
	.byte	128
	.byte	128
	.byte	2
	.byte	128
	.byte	128
	.byte	4
	.byte	128
	.byte	128
	.byte	6
	.byte	128
	.byte	128
	.byte	8
	.byte	128
.LCPI11_18:
	.byte	0
	.byte	1
	.byte	128
	.byte	2
	.byte	3
	.byte	128
	.byte	4
	.byte	5
	.byte	128
	.byte	6
	.byte	7
	.byte	128
	.byte	8
	.byte	9
	.byte	128
	.byte	10
.LCPI11_19:
	.byte	6
	.byte	5
	.byte	8
	.byte	10
	.byte	9
	.byte	12
	.byte	14
	.byte	13
	.zero	1
	.zero	1
	.zero	1
	.zero	1
	.zero	1
	.zero	1
	.zero	1
	.zero	1
.LCPI11_20:
	.short	12288
	.short	12288
	.short	12288
	.short	12288
	.short	12288
	.short	12288
	.short	12288
	.short	12288
.LCPI11_21:
	.short	127
	.short	127
	.short	127
	.short	127
	.short	127
	.short	127
	.short	127
	.short	127
.LCPI11_22:
	.short	32960
	.short	32960
	.short	32960
	.short	32960
	.short	32960
	.short	32960
	.short	32960
	.short	32960
.LCPI11_23:
	.byte	6
	.byte	5
	.byte	8
	.byte	10
	.byte	9
	.byte	12
	.byte	14
	.byte	13
	.byte	0
	.byte	0
	.byte	0
	.byte	0
	.byte	0
	.byte	0
	.byte	0
	.byte	0
	.section	.text$014,"xr"
	.p2align	4
L_18:
	movq	%rsi, %rax
	movzbl	%dl, %ecx
	leaq	.LJTI11_0(%rip), %rdx
	movslq	(%rdx,%rcx,4), %rcx
	addq	%rdx, %rcx
	jmpq	*%rcx
.LBB11_1:
	packuswb	%xmm3, %xmm2
	movdqu	%xmm2, (%rdi,%rax)
	addq	$16, %rax
	retq
.LBB11_6:
	movdqa	%xmm3, %xmm1
	psllw	$8, %xmm1
	movdqa	%xmm2, %xmm5
	psllw	$8, %xmm5
	movdqa	%xmm3, %xmm0
	psrlw	$12, %xmm0
	movdqa	%xmm2, %xmm4
	psrlw	$12, %xmm4
	por	%xmm5, %xmm4
	por	%xmm1, %xmm0
	movdqa	.LCPI11_0(%rip), %xmm6
	por	%xmm6, %xmm0
	por	%xmm6, %xmm4
	movdqa	.LCPI11_1(%rip), %xmm7
	movdqa	%xmm7, %xmm8
	psubusw	%xmm2, %xmm8
	psubusw	%xmm3, %xmm7
	movdqa	.LCPI11_2(%rip), %xmm6
	pand	%xmm6, %xmm7
	pand	%xmm6, %xmm8
	movdqa	.LCPI11_12(%rip), %xmm6
	movdqa	%xmm6, %xmm9
	psubusw	%xmm2, %xmm9
	por	%xmm8, %xmm9
	psrlw	$9, %xmm8
	psubusw	%xmm3, %xmm6
	por	%xmm7, %xmm6
	psrlw	$9, %xmm7
	psrlw	$6, %xmm3
	psrlw	$6, %xmm2
	movdqa	.LCPI11_13(%rip), %xmm10
	pand	%xmm10, %xmm2
	pand	%xmm10, %xmm3
	movdqa	.LCPI11_11(%rip), %xmm10
	pand	%xmm10, %xmm5
	por	%xmm2, %xmm5
	pand	%xmm10, %xmm1
	por	%xmm3, %xmm1
	movdqa	.LCPI11_14(%rip), %xmm2
	por	%xmm2, %xmm1
	por	%xmm7, %xmm1
	por	%xmm2, %xmm5
	por	%xmm8, %xmm5
	pmovmskb	%xmm9, %edx
	movdqa	%xmm4, %xmm2
	punpcklwd	%xmm5, %xmm2
	movzbl	%dl, %esi
	popcntl	%esi, %r8d
	shll	$4, %esi
	leaq	.Lstatic.9(%rip), %rcx
	movdqu	(%rsi,%rcx), %xmm3
	pshufb	%xmm3, %xmm2
	movdqu	%xmm2, (%rdi,%rax)
	subq	%r8, %rax
	punpckhwd	%xmm5, %xmm4
	shrl	$8, %edx
	xorl	%esi, %esi
	popcntl	%edx, %esi
	shll	$4, %edx
	movdqu	(%rdx,%rcx), %xmm2
	pshufb	%xmm2, %xmm4
	movdqu	%xmm4, 12(%rdi,%rax)
	addq	$12, %rax
	subq	%rsi, %rax
	pmovmskb	%xmm6, %edx
	movdqa	%xmm0, %xmm2
	punpcklwd	%xmm1, %xmm2
	movzbl	%dl, %esi
	xorl	%r8d, %r8d
	popcntl	%esi, %r8d
	shll	$4, %esi
	movdqu	(%rsi,%rcx), %xmm3
	pshufb	%xmm3, %xmm2
	movdqu	%xmm2, 12(%rdi,%rax)
	addq	$12, %rax
	subq	%r8, %rax
	punpckhwd	%xmm1, %xmm0
	shrl	$8, %edx
	xorl	%esi, %esi
	popcntl	%edx, %esi
	shll	$4, %edx
	movdqu	(%rdx,%rcx), %xmm1
	pshufb	%xmm1, %xmm0
	movdqu	%xmm0, 12(%rdi,%rax)
	subq	%rsi, %rax
	addq	$24, %rax
	retq
.LBB11_4:
	movdqa	%xmm2, %xmm4
	palignr	$14, %xmm1, %xmm4
	movdqa	%xmm3, %xmm0
	palignr	$14, %xmm2, %xmm0
	movdqa	.LCPI11_20(%rip), %xmm6
	movdqa	%xmm3, %xmm5
	paddw	%xmm6, %xmm5
	paddw	%xmm2, %xmm6
	movdqa	.LCPI11_5(%rip), %xmm1
	movdqa	%xmm2, %xmm7
	paddw	%xmm1, %xmm7
	paddw	%xmm3, %xmm1
	psrlw	$2, %xmm1
	psrlw	$2, %xmm7
	movdqa	.LCPI11_6(%rip), %xmm8
	psubusw	%xmm8, %xmm7
	psubusw	%xmm8, %xmm1
	psllw	$10, %xmm0
	psllw	$10, %xmm4
	movdqa	.LCPI11_7(%rip), %xmm8
	pand	%xmm8, %xmm4
	pand	%xmm8, %xmm0
	movdqa	.LCPI11_8(%rip), %xmm8
	movdqa	%xmm2, %xmm9
	paddw	%xmm8, %xmm9
	paddw	%xmm4, %xmm9
	pmaxuw	%xmm7, %xmm9
	paddw	%xmm3, %xmm8
	paddw	%xmm0, %xmm8
	pmaxuw	%xmm1, %xmm8
	pxor	%xmm0, %xmm0
	pxor	%xmm1, %xmm1
	pcmpgtw	%xmm2, %xmm0
	pblendvb	%xmm0, %xmm9, %xmm6
	pcmpgtw	%xmm3, %xmm1
	movdqa	%xmm1, %xmm0
	pblendvb	%xmm0, %xmm8, %xmm5
	movdqa	%xmm5, %xmm0
	psrlw	$6, %xmm0
	movdqa	%xmm6, %xmm1
	psrlw	$6, %xmm1
	movdqa	.LCPI11_2(%rip), %xmm7
	psllw	$8, %xmm6
	psllw	$8, %xmm5
	movdqa	.LCPI11_11(%rip), %xmm4
	pand	%xmm4, %xmm5
	paddw	%xmm0, %xmm5
	pand	%xmm4, %xmm6
	paddw	%xmm1, %xmm6
	por	%xmm7, %xmm5
	movdqa	.LCPI11_21(%rip), %xmm1
	movdqa	%xmm3, %xmm4
	pminuw	%xmm1, %xmm4
	pcmpeqw	%xmm3, %xmm4
	movdqa	%xmm4, %xmm0
	pblendvb	%xmm0, %xmm3, %xmm5
	por	%xmm7, %xmm6
	pminuw	%xmm2, %xmm1
	pcmpeqw	%xmm2, %xmm1
	movdqa	%xmm1, %xmm0
	pblendvb	%xmm0, %xmm2, %xmm6
	packsswb	%xmm4, %xmm1
	pmovmskb	%xmm1, %ecx
	movzbl	%cl, %edx
	popcntl	%edx, %esi
	shll	$4, %edx
	leaq	.Lstatic.8(%rip), %r8
	movdqu	(%rdx,%r8), %xmm0
	pshufb	%xmm0, %xmm6
	movdqu	%xmm6, (%rdi,%rax)
	jmp	.LBB11_3
.LBB11_5:
	movdqa	%xmm3, %xmm0
	psrlw	$12, %xmm0
	movdqa	%xmm2, %xmm1
	psrlw	$12, %xmm1
	movdqa	%xmm2, %xmm4
	psllw	$2, %xmm4
	movdqa	.LCPI11_11(%rip), %xmm5
	pand	%xmm5, %xmm4
	movdqa	%xmm3, %xmm6
	psllw	$2, %xmm6
	pand	%xmm5, %xmm6
	movdqa	.LCPI11_15(%rip), %xmm5
	por	%xmm5, %xmm0
	por	%xmm6, %xmm0
	por	%xmm5, %xmm1
	por	%xmm4, %xmm1
	movdqa	.LCPI11_13(%rip), %xmm4
	pand	%xmm4, %xmm2
	pand	%xmm4, %xmm3
	movdqa	.LCPI11_16(%rip), %xmm4
	por	%xmm4, %xmm3
	por	%xmm4, %xmm2
	movdqa	.LCPI11_17(%rip), %xmm4
	movdqa	%xmm2, %xmm5
	pshufb	%xmm4, %xmm5
	movdqa	.LCPI11_18(%rip), %xmm6
	movdqa	%xmm1, %xmm7
	pshufb	%xmm6, %xmm7
	por	%xmm5, %xmm7
	movdqu	%xmm7, (%rdi,%rax)
	punpckhbw	%xmm2, %xmm1
	movq	.LCPI11_23(%rip), %xmm2
	pshufb	%xmm2, %xmm1
	movq	%xmm1, 16(%rdi,%rax)
	movdqa	%xmm3, %xmm1
	pshufb	%xmm4, %xmm1
	movdqa	%xmm0, %xmm4
	pshufb	%xmm6, %xmm4
	por	%xmm1, %xmm4
	movdqu	%xmm4, 24(%rdi,%rax)
	punpckhbw	%xmm3, %xmm0
	pshufb	%xmm2, %xmm0
	movq	%xmm0, 40(%rdi,%rax)
	addq	$48, %rax
	retq
.LBB11_2:
	movdqa	%xmm3, %xmm5
	psrlw	$6, %xmm5
	movdqa	%xmm3, %xmm0
	psllw	$8, %xmm0
	movdqa	.LCPI11_11(%rip), %xmm6
	pand	%xmm6, %xmm0
	movdqa	.LCPI11_22(%rip), %xmm7
	paddw	%xmm7, %xmm5
	paddw	%xmm0, %xmm5
	movdqa	.LCPI11_21(%rip), %xmm1
	movdqa	%xmm3, %xmm4
	pminuw	%xmm1, %xmm4
	pcmpeqw	%xmm3, %xmm4
	movdqa	%xmm4, %xmm0
	pblendvb	%xmm0, %xmm3, %xmm5
	movdqa	%xmm2, %xmm0
	psllw	$8, %xmm0
	pand	%xmm6, %xmm0
	movdqa	%xmm2, %xmm3
	psrlw	$6, %xmm3
	paddw	%xmm7, %xmm3
	paddw	%xmm0, %xmm3
	pminuw	%xmm2, %xmm1
	pcmpeqw	%xmm2, %xmm1
	movdqa	%xmm1, %xmm0
	pblendvb	%xmm0, %xmm2, %xmm3
	packsswb	%xmm4, %xmm1
	pmovmskb	%xmm1, %ecx
	movzbl	%cl, %edx
	xorl	%esi, %esi
	popcntl	%edx, %esi
	shll	$4, %edx
	leaq	.Lstatic.8(%rip), %r8
	movdqu	(%rdx,%r8), %xmm0
	pshufb	%xmm0, %xmm3
	movdqu	%xmm3, (%rdi,%rax)
.LBB11_3:
	subq	%rsi, %rax
	shrl	$8, %ecx
	xorl	%edx, %edx
	popcntl	%ecx, %edx
	shll	$4, %ecx
	movdqu	(%rcx,%r8), %xmm0
	pshufb	%xmm0, %xmm5
	movdqu	%xmm5, 16(%rdi,%rax)
	subq	%rdx, %rax
	addq	$32, %rax
	retq
.LBB11_7:
	movdqa	%xmm3, %xmm0
	psllw	$8, %xmm0
	movdqa	%xmm2, %xmm4
	psllw	$8, %xmm4
	movdqa	%xmm3, %xmm5
	psrlw	$12, %xmm5
	por	%xmm0, %xmm5
	movdqa	%xmm2, %xmm6
	psrlw	$12, %xmm6
	por	%xmm4, %xmm6
	movdqa	.LCPI11_0(%rip), %xmm0
	por	%xmm0, %xmm5
	por	%xmm0, %xmm6
	movdqa	%xmm3, %xmm4
	palignr	$14, %xmm2, %xmm4
	movdqa	%xmm2, %xmm0
	palignr	$14, %xmm1, %xmm0
	movdqa	.LCPI11_1(%rip), %xmm8
	movdqa	%xmm8, %xmm10
	psubusw	%xmm2, %xmm10
	psubusw	%xmm3, %xmm8
	movdqa	.LCPI11_2(%rip), %xmm11
	pand	%xmm11, %xmm8
	pand	%xmm11, %xmm10
	movdqa	%xmm10, %xmm1
	psrlw	$3, %xmm1
	movdqa	%xmm8, %xmm12
	psrlw	$3, %xmm12
	movdqa	.LCPI11_3(%rip), %xmm7
	movdqa	%xmm2, %xmm9
	pand	%xmm7, %xmm9
	pand	%xmm3, %xmm7
	movdqa	.LCPI11_4(%rip), %xmm13
	por	%xmm13, %xmm9
	por	%xmm1, %xmm9
	por	%xmm13, %xmm7
	por	%xmm12, %xmm7
	movdqa	.LCPI11_5(%rip), %xmm1
	movdqa	%xmm3, %xmm12
	paddw	%xmm1, %xmm12
	paddw	%xmm2, %xmm1
	psrlw	$2, %xmm1
	psrlw	$2, %xmm12
	movdqa	.LCPI11_6(%rip), %xmm13
	psubusw	%xmm13, %xmm12
	psubusw	%xmm13, %xmm1
	psllw	$10, %xmm0
	psllw	$10, %xmm4
	movdqa	.LCPI11_7(%rip), %xmm13
	pand	%xmm13, %xmm4
	pand	%xmm13, %xmm0
	movdqa	.LCPI11_8(%rip), %xmm13
	movdqa	%xmm3, %xmm14
	paddw	%xmm13, %xmm14
	paddw	%xmm4, %xmm14
	pmaxuw	%xmm12, %xmm14
	paddw	%xmm2, %xmm13
	paddw	%xmm0, %xmm13
	pmaxuw	%xmm1, %xmm13
	movdqa	.LCPI11_9(%rip), %xmm4
	movdqa	%xmm3, %xmm1
	pand	%xmm4, %xmm1
	pand	%xmm2, %xmm4
	movdqa	.LCPI11_10(%rip), %xmm0
	pcmpeqw	%xmm0, %xmm4
	pcmpeqw	%xmm0, %xmm1
	movdqa	%xmm1, %xmm0
	pblendvb	%xmm0, %xmm14, %xmm7
	movdqa	%xmm4, %xmm0
	pblendvb	%xmm0, %xmm13, %xmm9
	movdqa	%xmm9, %xmm0
	psrlw	$6, %xmm0
	movdqa	%xmm7, %xmm12
	psrlw	$6, %xmm12
	psllw	$8, %xmm7
	psllw	$8, %xmm9
	movdqa	.LCPI11_11(%rip), %xmm13
	pand	%xmm13, %xmm9
	paddw	%xmm0, %xmm9
	pand	%xmm13, %xmm7
	paddw	%xmm12, %xmm7
	por	%xmm11, %xmm7
	por	%xmm11, %xmm9
	movdqa	.LCPI11_12(%rip), %xmm12
	movdqa	%xmm12, %xmm13
	psubusw	%xmm2, %xmm13
	psubusw	%xmm3, %xmm12
	movdqa	%xmm4, %xmm0
	pblendvb	%xmm0, %xmm11, %xmm10
	por	%xmm13, %xmm10
	movdqa	%xmm1, %xmm0
	pblendvb	%xmm0, %xmm11, %xmm8
	por	%xmm12, %xmm8
	pmovmskb	%xmm10, %edx
	movdqa	%xmm6, %xmm0
	punpcklwd	%xmm9, %xmm0
	movzbl	%dl, %esi
	popcntl	%esi, %r8d
	shll	$4, %esi
	leaq	.Lstatic.9(%rip), %rcx
	movdqu	(%rsi,%rcx), %xmm1
	pshufb	%xmm1, %xmm0
	movdqu	%xmm0, (%rdi,%rax)
	subq	%r8, %rax
	punpckhwd	%xmm9, %xmm6
	shrl	$8, %edx
	xorl	%esi, %esi
	popcntl	%edx, %esi
	shll	$4, %edx
	movdqu	(%rdx,%rcx), %xmm0
	pshufb	%xmm0, %xmm6
	movdqu	%xmm6, 12(%rdi,%rax)
	addq	$12, %rax
	subq	%rsi, %rax
	pmovmskb	%xmm8, %edx
	movdqa	%xmm5, %xmm0
	punpcklwd	%xmm7, %xmm0
	movzbl	%dl, %esi
	xorl	%r8d, %r8d
	popcntl	%esi, %r8d
	shll	$4, %esi
	movdqu	(%rsi,%rcx), %xmm1
	pshufb	%xmm1, %xmm0
	movdqu	%xmm0, 12(%rdi,%rax)
	addq	$12, %rax
	subq	%r8, %rax
	punpckhwd	%xmm7, %xmm5
	shrl	$8, %edx
	xorl	%esi, %esi
	popcntl	%edx, %esi
	shll	$4, %edx
	movdqu	(%rdx,%rcx), %xmm0
	pshufb	%xmm0, %xmm5
	movdqu	%xmm5, 12(%rdi,%rax)
	subq	%rsi, %rax
	addq	$24, %rax
	retq
.Lfunc_end11:
	.section	.rdata$015,"dr"
	.p2align	2, 0x0
.LJTI11_0:
	.long	.LBB11_1-.LJTI11_0
	.long	.LBB11_2-.LJTI11_0
	.long	.LBB11_4-.LJTI11_0
	.long	.LBB11_5-.LJTI11_0
	.long	.LBB11_6-.LJTI11_0
	.long	.LBB11_7-.LJTI11_0

	.section	.rdata$004,"dr"
	.p2align	4, 0x0
.LCPI12_0:
	.byte	1
	.byte	0
	.byte	3
	.byte	2
	.byte	5
	.byte	4
	.byte	7
	.byte	6
	.byte	9
	.byte	8
	.byte	11
	.byte	10
	.byte	13
	.byte	12
	.byte	15
	.byte	14
.LCPI12_1:
	.short	128
	.short	128
	.short	128
	.short	128
	.short	128
	.short	128
	.short	128
	.short	128
	.section	.text$016,"xr"
	.p2align	4
L_13:
	pushq	%rbp
	pushq	%r15
	pushq	%r14
	pushq	%r13
	pushq	%r12
	pushq	%rbx
	pushq	%rax
	movq	%r8, %rbx
	movq	%rdx, %r14
	movq	%rsi, %r15
	movq	%rdi, %r12
	addq	%r8, %rdx
	movq	%rcx, (%rsp)
	subq	%r8, %rcx
	leaq	-16(%rsi), %rax
	cmpq	$175, %rax
	ja	.LBB12_1
	movq	%r15, %rax
	shrq	%rax
	cmpq	%rax, %rcx
	cmovbq	%rcx, %rax
	cmpq	$8, %rax
	jb	.LBB12_1
	leaq	(%rax,%rax), %rsi
	xorl	%ebp, %ebp
	xorl	%r13d, %r13d
	.p2align	4
.LBB12_4:
	movdqu	(%r12,%r13,2), %xmm0
	pshufb	.LCPI12_0(%rip), %xmm0
	movdqa	.LCPI12_1(%rip), %xmm1
	pmaxuw	%xmm0, %xmm1
	pcmpeqw	%xmm0, %xmm1
	pmovmskb	%xmm1, %edi
	testl	%edi, %edi
	jne	.LBB12_9
	packuswb	%xmm0, %xmm0
	movq	%xmm0, (%rdx,%r13)
	addq	$8, %r13
	leaq	(%rsi,%rbp), %rdi
	addq	$-16, %rdi
	addq	$-16, %rbp
	cmpq	$15, %rdi
	ja	.LBB12_4
	negq	%rbp
	cmpq	%rbp, %rsi
	jbe	.LBB12_10
	movdqu	-16(%r12,%rsi), %xmm0
	pshufb	.LCPI12_0(%rip), %xmm0
	movdqa	.LCPI12_1(%rip), %xmm1
	pmaxuw	%xmm0, %xmm1
	pcmpeqw	%xmm0, %xmm1
	pmovmskb	%xmm1, %edi
	testl	%edi, %edi
	jne	.LBB12_10
	packuswb	%xmm0, %xmm0
	movq	%xmm0, -8(%rdx,%rax)
	movq	%rax, %r13
	movq	%rsi, %rbp
	movq	%r15, %rax
	subq	%rbp, %rax
	cmpq	$15, %rax
	jbe	.LBB12_11
	jmp	.LBB12_19
.LBB12_1:
	xorl	%r13d, %r13d
	xorl	%ebp, %ebp
.LBB12_10:
	movq	%r15, %rax
	subq	%rbp, %rax
	cmpq	$15, %rax
	ja	.LBB12_19
.LBB12_11:
	movq	%rcx, %rsi
	subq	%r13, %rsi
	movq	%rax, %rdi
	shrq	%rdi
	leaq	(%rdi,%rdi,2), %rdi
	cmpq	%rdi, %rsi
	setb	%sil
	cmpq	$2, %rax
	setb	%dil
	orb	%sil, %dil
	je	.LBB12_12
	jmp	.LBB12_19
	.p2align	4
.LBB12_13:
	movb	%sil, (%rdx,%r13)
	incq	%r13
.LBB12_18:
	addq	$2, %rbp
	addq	$-2, %rax
	cmpq	$1, %rax
	jbe	.LBB12_19
.LBB12_12:
	movzwl	(%r12,%rbp), %esi
	rolw	$8, %si
	cmpw	$127, %si
	jbe	.LBB12_13
	movzwl	%si, %edi
	cmpl	$2047, %edi
	ja	.LBB12_16
	shrl	$6, %edi
	andl	$63, %esi
	shll	$8, %esi
	orl	%edi, %esi
	orl	$32960, %esi
	movw	%si, (%rdx,%r13)
	addq	$2, %r13
	jmp	.LBB12_18
	.p2align	4
.LBB12_16:
	movl	%esi, %r8d
	andl	$63488, %r8d
	cmpl	$55296, %r8d
	je	.LBB12_19
	movl	%esi, %r8d
	andb	$63, %r8b
	orb	$-128, %r8b
	shrl	$6, %esi
	andb	$63, %sil
	orb	$-128, %sil
	shrl	$12, %edi
	orb	$-32, %dil
	movb	%dil, (%rdx,%r13)
	movb	%sil, 1(%rdx,%r13)
	movb	%r8b, 2(%rdx,%r13)
	addq	$3, %r13
	jmp	.LBB12_18
.LBB12_9:
	negq	%rbp
	movq	%r15, %rax
	subq	%rbp, %rax
	cmpq	$15, %rax
	jbe	.LBB12_11
.LBB12_19:
	leaq	-8(%r15), %rax
	cmpq	$183, %rax
	ja	.LBB12_22
	movq	%r15, %rsi
	subq	%rbp, %rsi
	cmpq	$8, %rsi
	jb	.LBB12_22
	leaq	(%r12,%rbp), %rdi
	addq	%r13, %rdx
	subq	%r13, %rcx
	callq	L_9
	addq	%rax, %rbp
	addq	%rdx, %r13
.LBB12_22:
	addq	%rbx, %r13
	cmpq	%r15, %rbp
	jae	.LBB12_41
	movq	(%rsp), %rbx
	jmp	.LBB12_24
	.p2align	4
.LBB12_34:
	movb	%al, (%r14,%r13)
	incq	%r13
.LBB12_40:
	addq	%rcx, %rbp
	cmpq	%r15, %rbp
	jae	.LBB12_41
.LBB12_24:
	movq	%r15, %rax
	subq	%rbp, %rax
	cmpq	$2, %rax
	jb	.LBB12_41
	movzwl	(%r12,%rbp), %edi
	rolw	$8, %di
	movl	%edi, %ecx
	andl	$63488, %ecx
	cmpl	$55296, %ecx
	jne	.LBB12_29
	cmpq	$4, %rax
	jb	.LBB12_41
	movl	%edi, %eax
	andl	$56320, %eax
	movzwl	%ax, %eax
	cmpl	$56320, %eax
	je	.LBB12_41
	movzbl	2(%r12,%rbp), %eax
	andb	$-4, %al
	cmpb	$-36, %al
	jne	.LBB12_41
.LBB12_29:
	movl	%edi, %eax
	andl	$64512, %eax
	cmpl	$55296, %eax
	jne	.LBB12_30
	movzwl	2(%r12,%rbp), %esi
	rolw	$8, %si
	callq	L_17
	movl	$4, %ecx
	jmp	.LBB12_32
	.p2align	4
.LBB12_30:
	movzwl	%di, %eax
	movl	$2, %ecx
.LBB12_32:
	movq	%rbx, %rdx
	subq	%r13, %rdx
	cmpl	$65536, %eax
	movl	$4, %esi
	sbbq	$0, %rsi
	cmpl	$2048, %eax
	movl	$2, %edi
	cmovaeq	%rsi, %rdi
	cmpl	$128, %eax
	movl	$1, %esi
	cmovaeq	%rdi, %rsi
	cmpq	%rsi, %rdx
	jb	.LBB12_41
	cmpl	$127, %eax
	jbe	.LBB12_34
	movl	%eax, %edx
	andb	$63, %dl
	orb	$-128, %dl
	cmpl	$2047, %eax
	ja	.LBB12_37
	shrl	$6, %eax
	movzbl	%dl, %edx
	shll	$8, %edx
	orl	%eax, %edx
	orl	$192, %edx
	movw	%dx, (%r14,%r13)
	addq	$2, %r13
	jmp	.LBB12_40
	.p2align	4
.LBB12_37:
	movl	%eax, %esi
	cmpl	$65535, %eax
	ja	.LBB12_39
	shrl	$6, %esi
	andb	$63, %sil
	orb	$-128, %sil
	shrl	$12, %eax
	orb	$-32, %al
	movb	%al, (%r14,%r13)
	movb	%sil, 1(%r14,%r13)
	movb	%dl, 2(%r14,%r13)
	addq	$3, %r13
	jmp	.LBB12_40
.LBB12_39:
	shrl	$18, %esi
	addl	$240, %esi
	movzbl	%dl, %edx
	shll	$24, %edx
	movl	%eax, %edi
	shll	$10, %edi
	andl	$4128768, %edi
	orl	%edx, %edi
	shrl	$4, %eax
	andl	$16128, %eax
	orl	%edi, %eax
	movzbl	%sil, %edx
	addl	%edx, %eax
	addl	$8421376, %eax
	movl	%eax, (%r14,%r13)
	addq	$4, %r13
	jmp	.LBB12_40
.LBB12_41:
	movq	%rbp, %rax
	movq	%r13, %rdx
	addq	$8, %rsp
	popq	%rbx
	popq	%r12
	popq	%r13
	popq	%r14
	popq	%r15
	popq	%rbp
	retq
.Lfunc_end12:

	.section	.rdata$004,"dr"
	.p2align	4, 0x0
.LCPI13_0:
	.byte	255
	.byte	0
	.byte	255
	.byte	0
	.byte	255
	.byte	0
	.byte	255
	.byte	0
	.byte	255
	.byte	0
	.byte	255
	.byte	0
	.byte	255
	.byte	0
	.byte	255
	.byte	0
.LCPI13_1:
	.zero	16,248
.LCPI13_2:
	.zero	16,216
.LCPI13_3:
	.byte	0
	.byte	2
	.byte	4
	.byte	6
	.byte	8
	.byte	10
	.byte	12
	.byte	14
	.zero	1
	.zero	1
	.zero	1
	.zero	1
	.zero	1
	.zero	1
	.zero	1
	.zero	1
.LCPI13_4:
	.byte	248
	.byte	248
	.byte	248
	.byte	248
	.byte	248
	.byte	248
	.byte	248
	.byte	248
	.zero	1
	.zero	1
	.zero	1
	.zero	1
	.zero	1
	.zero	1
	.zero	1
	.zero	1
.LCPI13_5:
	.byte	216
	.byte	216
	.byte	216
	.byte	216
	.byte	216
	.byte	216
	.byte	216
	.byte	216
	.zero	1
	.zero	1
	.zero	1
	.zero	1
	.zero	1
	.zero	1
	.zero	1
	.zero	1
.LCPI13_6:
	.byte	0
	.byte	2
	.byte	4
	.byte	6
	.zero	1
	.zero	1
	.zero	1
	.zero	1
	.zero	1
	.zero	1
	.zero	1
	.zero	1
	.zero	1
	.zero	1
	.zero	1
	.zero	1
.LCPI13_7:
	.byte	248
	.byte	248
	.byte	248
	.byte	248
	.zero	1
	.zero	1
	.zero	1
	.zero	1
	.zero	1
	.zero	1
	.zero	1
	.zero	1
	.zero	1
	.zero	1
	.zero	1
	.zero	1
.LCPI13_8:
	.byte	216
	.byte	216
	.byte	216
	.byte	216
	.zero	1
	.zero	1
	.zero	1
	.zero	1
	.zero	1
	.zero	1
	.zero	1
	.zero	1
	.zero	1
	.zero	1
	.zero	1
	.zero	1
	.section	.text$017,"xr"
	.p2align	4
L_14:
	cmpq	$2, %rsi
	jne	.LBB13_3
	movzbl	(%rdi), %ecx
	andb	$-8, %cl
	movl	$2, %eax
.LBB13_2:
	cmpb	$-40, %cl
	je	L_19
	retq
.LBB13_3:
	cmpq	$7, %rsi
	ja	.LBB13_12
	testq	%rsi, %rsi
	je	.LBB13_23
	cmpq	$6, %rsi
	je	.LBB13_9
	cmpq	$4, %rsi
	jne	L_19
	movzbl	(%rdi), %eax
	andb	$-8, %al
	cmpb	$-40, %al
	je	L_19
	movzbl	2(%rdi), %ecx
	andb	$-8, %cl
	movl	$4, %eax
	jmp	.LBB13_2
.LBB13_12:
	cmpq	$65, %rsi
	setae	%al
	movl	%esi, %ecx
	orb	%al, %cl
	testb	$1, %cl
	jne	L_19
	cmpq	$15, %rsi
	ja	.LBB13_17
	movq	(%rdi), %xmm0
	pshufb	.LCPI13_6(%rip), %xmm0
	pand	.LCPI13_7(%rip), %xmm0
	pcmpeqb	.LCPI13_8(%rip), %xmm0
	pmovsxbd	%xmm0, %xmm0
	movmskps	%xmm0, %eax
	testl	%eax, %eax
	jne	L_19
	movq	-8(%rdi,%rsi), %xmm0
	pshufb	.LCPI13_6(%rip), %xmm0
	pand	.LCPI13_7(%rip), %xmm0
	pcmpeqb	.LCPI13_8(%rip), %xmm0
	pmovsxbd	%xmm0, %xmm0
	movmskps	%xmm0, %eax
	testl	%eax, %eax
	jne	L_19
	jmp	.LBB13_23
.LBB13_17:
	cmpq	$31, %rsi
	ja	.LBB13_21
	movdqu	(%rdi), %xmm0
	pshufb	.LCPI13_3(%rip), %xmm0
	pand	.LCPI13_4(%rip), %xmm0
	pcmpeqb	.LCPI13_5(%rip), %xmm0
	pmovmskb	%xmm0, %eax
	testb	%al, %al
	jne	L_19
	movdqu	-16(%rdi,%rsi), %xmm0
	pshufb	.LCPI13_3(%rip), %xmm0
	pand	.LCPI13_4(%rip), %xmm0
	pcmpeqb	.LCPI13_5(%rip), %xmm0
	pmovmskb	%xmm0, %eax
	testb	%al, %al
	jne	L_19
	jmp	.LBB13_23
.LBB13_9:
	movzbl	(%rdi), %eax
	andb	$-8, %al
	cmpb	$-40, %al
	je	L_19
	movzbl	2(%rdi), %eax
	andb	$-8, %al
	cmpb	$-40, %al
	je	L_19
	movzbl	4(%rdi), %ecx
	andb	$-8, %cl
	movl	$6, %eax
	jmp	.LBB13_2
.LBB13_21:
	movdqu	(%rdi), %xmm1
	movdqu	16(%rdi), %xmm2
	movdqa	.LCPI13_0(%rip), %xmm0
	pand	%xmm0, %xmm2
	pand	%xmm0, %xmm1
	packuswb	%xmm2, %xmm1
	pand	.LCPI13_1(%rip), %xmm1
	pcmpeqb	.LCPI13_2(%rip), %xmm1
	pmovmskb	%xmm1, %eax
	testl	%eax, %eax
	jne	L_19
	movdqu	-32(%rdi,%rsi), %xmm1
	movdqu	-16(%rdi,%rsi), %xmm2
	pand	%xmm0, %xmm2
	pand	%xmm0, %xmm1
	packuswb	%xmm2, %xmm1
	pand	.LCPI13_1(%rip), %xmm1
	pcmpeqb	.LCPI13_2(%rip), %xmm1
	pmovmskb	%xmm1, %eax
	testl	%eax, %eax
	jne	L_19
.LBB13_23:
	movq	%rsi, %rax
	retq
.Lfunc_end13:

	.section	.rdata$004,"dr"
	.p2align	4, 0x0
.LCPI14_0:
	.byte	255
	.byte	0
	.byte	255
	.byte	0
	.byte	255
	.byte	0
	.byte	255
	.byte	0
	.byte	255
	.byte	0
	.byte	255
	.byte	0
	.byte	255
	.byte	0
	.byte	255
	.byte	0
.LCPI14_1:
	.zero	16,248
.LCPI14_2:
	.zero	16,216
.LCPI14_3:
	.zero	16,252
.LCPI14_4:
	.zero	16,220
	.section	.text$018,"xr"
	.p2align	4
L_19:
	cmpq	$32, %rsi
	jae	.LBB14_10
	testq	%rsi, %rsi
	je	.LBB14_14
	xorl	%ecx, %ecx
	jmp	.LBB14_4
	.p2align	4
.LBB14_3:
	addq	%rcx, %rax
	movq	%rax, %rcx
	cmpq	%rsi, %rax
	jae	.LBB14_34
.LBB14_4:
	movq	%rsi, %r8
	subq	%rcx, %r8
	cmpq	$2, %r8
	jb	.LBB14_15
	movzwl	(%rdi,%rcx), %edx
	rolw	$8, %dx
	movl	%edx, %r9d
	andl	$63488, %r9d
	movl	$2, %eax
	cmpl	$55296, %r9d
	jne	.LBB14_3
	cmpq	$4, %r8
	jb	.LBB14_15
	andl	$56320, %edx
	movzwl	%dx, %eax
	cmpl	$56320, %eax
	je	.LBB14_15
	movzbl	2(%rdi,%rcx), %edx
	andb	$-4, %dl
	movl	$4, %eax
	cmpb	$-36, %dl
	je	.LBB14_3
	jmp	.LBB14_15
.LBB14_10:
	cmpq	$64, %rsi
	jb	.LBB14_13
	movdqu	(%rdi), %xmm3
	movdqu	16(%rdi), %xmm1
	movdqu	32(%rdi), %xmm4
	movdqu	48(%rdi), %xmm2
	movdqa	.LCPI14_0(%rip), %xmm0
	pand	%xmm0, %xmm1
	pand	%xmm0, %xmm3
	packuswb	%xmm1, %xmm3
	pand	%xmm0, %xmm2
	pand	%xmm0, %xmm4
	packuswb	%xmm2, %xmm4
	movdqa	.LCPI14_1(%rip), %xmm1
	pand	%xmm1, %xmm4
	pand	%xmm1, %xmm3
	movdqa	.LCPI14_2(%rip), %xmm2
	pcmpeqb	%xmm2, %xmm3
	pcmpeqb	%xmm2, %xmm4
	movdqa	%xmm4, %xmm5
	por	%xmm3, %xmm5
	pmovmskb	%xmm5, %eax
	testl	%eax, %eax
	je	.LBB14_16
	xorl	%ecx, %ecx
	movq	%rsi, %rax
	jmp	.LBB14_23
.LBB14_13:
	xorl	%ecx, %ecx
	xorl	%edx, %edx
	jmp	.LBB14_39
.LBB14_14:
	xorl	%eax, %eax
	retq
.LBB14_16:
	movq	%rsi, %rdx
	andq	$-128, %rdx
	leaq	-256(%rsi), %r8
	xorl	%ecx, %ecx
	.p2align	4
.LBB14_17:
	cmpq	$256, %rdx
	sete	%al
	addq	$64, %rcx
	cmpq	$256, %rcx
	setne	%r9b
	orb	%al, %r9b
	jne	.LBB14_21
	movl	$256, %ecx
	movq	%r8, %rax
	.p2align	4
.LBB14_19:
	movdqu	(%rdi,%rcx), %xmm4
	movdqu	16(%rdi,%rcx), %xmm5
	movdqu	32(%rdi,%rcx), %xmm3
	movdqu	48(%rdi,%rcx), %xmm6
	pand	%xmm0, %xmm5
	pand	%xmm0, %xmm4
	packuswb	%xmm5, %xmm4
	pand	%xmm0, %xmm6
	pand	%xmm0, %xmm3
	packuswb	%xmm6, %xmm3
	pand	%xmm1, %xmm3
	pand	%xmm1, %xmm4
	pcmpeqb	%xmm2, %xmm4
	pcmpeqb	%xmm2, %xmm3
	por	%xmm4, %xmm3
	movdqu	64(%rdi,%rcx), %xmm4
	movdqu	80(%rdi,%rcx), %xmm5
	movdqu	96(%rdi,%rcx), %xmm6
	movdqu	112(%rdi,%rcx), %xmm7
	pand	%xmm0, %xmm7
	pand	%xmm0, %xmm6
	packuswb	%xmm7, %xmm6
	pand	%xmm0, %xmm5
	pand	%xmm0, %xmm4
	packuswb	%xmm5, %xmm4
	pand	%xmm1, %xmm4
	pand	%xmm1, %xmm6
	pcmpeqb	%xmm2, %xmm6
	pcmpeqb	%xmm2, %xmm4
	por	%xmm6, %xmm4
	por	%xmm3, %xmm4
	pmovmskb	%xmm4, %r9d
	testl	%r9d, %r9d
	jne	.LBB14_21
	subq	$-128, %rcx
	addq	$-128, %rax
	cmpq	$127, %rax
	ja	.LBB14_19
.LBB14_21:
	movq	%rsi, %rax
	subq	%rcx, %rax
	cmpq	$63, %rax
	jbe	.LBB14_38
	movdqu	(%rdi,%rcx), %xmm3
	movdqu	16(%rdi,%rcx), %xmm5
	movdqu	32(%rdi,%rcx), %xmm4
	movdqu	48(%rdi,%rcx), %xmm6
	pand	%xmm0, %xmm5
	pand	%xmm0, %xmm3
	packuswb	%xmm5, %xmm3
	pand	%xmm0, %xmm6
	pand	%xmm0, %xmm4
	packuswb	%xmm6, %xmm4
	pand	%xmm1, %xmm4
	pand	%xmm1, %xmm3
	pcmpeqb	%xmm2, %xmm3
	pcmpeqb	%xmm2, %xmm4
	movdqa	%xmm4, %xmm5
	por	%xmm3, %xmm5
	pmovmskb	%xmm5, %r9d
	testl	%r9d, %r9d
	je	.LBB14_17
.LBB14_23:
	cmpq	$64, %rax
	jne	.LBB14_33
.LBB14_24:
	xorl	%edx, %edx
	jmp	.LBB14_26
	.p2align	4
.LBB14_25:
	movzwl	%r8w, %edx
	shrl	$15, %edx
	cmpq	$63, %rax
	jbe	.LBB14_60
.LBB14_26:
	movdqu	(%rdi,%rcx), %xmm4
	movdqu	16(%rdi,%rcx), %xmm5
	movdqu	32(%rdi,%rcx), %xmm3
	movdqu	48(%rdi,%rcx), %xmm6
	pand	%xmm0, %xmm6
	pand	%xmm0, %xmm3
	packuswb	%xmm6, %xmm3
	pand	%xmm0, %xmm5
	pand	%xmm0, %xmm4
	packuswb	%xmm5, %xmm4
	movdqa	.LCPI14_3(%rip), %xmm5
	pand	%xmm5, %xmm4
	pand	%xmm5, %xmm3
	movdqa	%xmm3, %xmm5
	pcmpeqb	%xmm2, %xmm5
	movdqa	%xmm4, %xmm6
	pcmpeqb	%xmm2, %xmm6
	pmovmskb	%xmm6, %eax
	pmovmskb	%xmm5, %r8d
	movl	%r8d, %r9d
	shll	$16, %r9d
	orl	%eax, %r9d
	movdqa	.LCPI14_4(%rip), %xmm5
	pcmpeqb	%xmm5, %xmm4
	pmovmskb	%xmm4, %eax
	pcmpeqb	%xmm5, %xmm3
	pmovmskb	%xmm3, %r10d
	shll	$16, %r10d
	orl	%eax, %r10d
	movzbl	%dl, %eax
	andl	$1, %eax
	leal	(%rax,%r9,2), %eax
	cmpl	%r10d, %eax
	jne	.LBB14_60
	addq	$64, %rcx
	movq	%rsi, %rax
	subq	%rcx, %rax
	testw	%r8w, %r8w
	js	.LBB14_25
	cmpq	$64, %rax
	jb	.LBB14_25
	movzbl	%cl, %edx
	orq	%r9, %rdx
	jne	.LBB14_25
	.p2align	4
.LBB14_30:
	movdqu	(%rdi,%rcx), %xmm3
	movdqu	16(%rdi,%rcx), %xmm4
	movdqu	32(%rdi,%rcx), %xmm5
	movdqu	48(%rdi,%rcx), %xmm6
	pand	%xmm0, %xmm4
	pand	%xmm0, %xmm3
	packuswb	%xmm4, %xmm3
	pand	%xmm0, %xmm6
	pand	%xmm0, %xmm5
	packuswb	%xmm6, %xmm5
	pand	%xmm1, %xmm5
	pand	%xmm1, %xmm3
	pcmpeqb	%xmm2, %xmm3
	pcmpeqb	%xmm2, %xmm5
	por	%xmm3, %xmm5
	pmovmskb	%xmm5, %edx
	testl	%edx, %edx
	jne	.LBB14_25
	addq	$64, %rcx
	addq	$-64, %rax
	cmpq	$63, %rax
	ja	.LBB14_30
.LBB14_38:
	xorl	%edx, %edx
	cmpq	$32, %rax
	jb	.LBB14_40
.LBB14_39:
	movdqu	(%rdi,%rcx), %xmm0
	movdqu	16(%rdi,%rcx), %xmm1
	movdqa	.LCPI14_0(%rip), %xmm2
	pand	%xmm2, %xmm1
	pand	%xmm2, %xmm0
	packuswb	%xmm1, %xmm0
	pand	.LCPI14_3(%rip), %xmm0
	movdqa	.LCPI14_2(%rip), %xmm1
	pcmpeqb	%xmm0, %xmm1
	pmovmskb	%xmm1, %eax
	movl	%eax, %r8d
	pcmpeqb	.LCPI14_4(%rip), %xmm0
	pmovmskb	%xmm0, %r9d
	movzbl	%dl, %r10d
	movl	%r10d, %edx
	andl	$1, %edx
	andl	$32767, %eax
	leaq	(%rdx,%rax,2), %rax
	leaq	32(%rcx), %rdx
	cmpq	%r9, %rax
	cmoveq	%rdx, %rcx
	xorl	%edx, %edx
	testw	%r8w, %r8w
	sets	%dl
	cmpl	%r9d, %eax
	cmovnel	%r10d, %edx
.LBB14_40:
	leaq	-2(%rcx), %rax
	testb	$1, %dl
	cmoveq	%rcx, %rax
	movq	%rsi, %rcx
	subq	%rax, %rcx
	cmpq	$32, %rcx
	ja	.LBB14_44
	movq	%rax, %rcx
	subq	%rsi, %rcx
	testb	$1, %cl
	jne	.LBB14_48
	movdqu	-32(%rdi,%rsi), %xmm0
	movdqu	-16(%rdi,%rsi), %xmm1
	addl	$32, %ecx
	movdqa	.LCPI14_0(%rip), %xmm2
	pand	%xmm2, %xmm1
	pand	%xmm2, %xmm0
	packuswb	%xmm1, %xmm0
	pand	.LCPI14_3(%rip), %xmm0
	shrl	%ecx
	movdqa	.LCPI14_4(%rip), %xmm1
	pcmpeqb	%xmm0, %xmm1
	pmovmskb	%xmm1, %edx
	shrq	%cl, %rdx
	pcmpeqb	.LCPI14_2(%rip), %xmm0
	pmovmskb	%xmm0, %r8d
	shrq	%cl, %r8
	addl	%r8d, %r8d
	cmpl	%r8d, %edx
	jne	.LBB14_48
	movq	%rsi, %rax
	retq
.LBB14_44:
	cmpq	$64, %rcx
	jae	.LBB14_47
.LBB14_48:
	xorl	%ecx, %ecx
	addq	%rax, %rcx
	cmpq	%rsi, %rcx
	jb	.LBB14_51
	jmp	.LBB14_15
.LBB14_47:
	movdqu	(%rdi,%rax), %xmm0
	movdqu	16(%rdi,%rax), %xmm1
	movdqu	32(%rdi,%rax), %xmm2
	movdqu	48(%rdi,%rax), %xmm3
	movdqa	.LCPI14_0(%rip), %xmm4
	pand	%xmm4, %xmm1
	pand	%xmm4, %xmm0
	packuswb	%xmm1, %xmm0
	pand	%xmm4, %xmm3
	pand	%xmm4, %xmm2
	packuswb	%xmm3, %xmm2
	movdqa	.LCPI14_1(%rip), %xmm1
	pand	%xmm1, %xmm2
	pand	%xmm1, %xmm0
	movdqa	.LCPI14_2(%rip), %xmm1
	pcmpeqb	%xmm1, %xmm0
	pmovmskb	%xmm0, %ecx
	pcmpeqb	%xmm1, %xmm2
	pmovmskb	%xmm2, %edx
	shll	$16, %edx
	orl	%ecx, %edx
	rep		bsfl	%edx, %r8d
	addl	%r8d, %r8d
	testl	%edx, %edx
	movl	$64, %ecx
	cmovnel	%r8d, %ecx
	addq	%rax, %rcx
	cmpq	%rsi, %rcx
	jb	.LBB14_51
	jmp	.LBB14_15
	.p2align	4
.LBB14_50:
	addq	%rcx, %rax
	movq	%rax, %rcx
	cmpq	%rsi, %rax
	jae	.LBB14_34
.LBB14_51:
	movq	%rsi, %r8
	subq	%rcx, %r8
	cmpq	$2, %r8
	jb	.LBB14_15
	movzwl	(%rdi,%rcx), %edx
	rolw	$8, %dx
	movl	%edx, %r9d
	andl	$63488, %r9d
	movl	$2, %eax
	cmpl	$55296, %r9d
	jne	.LBB14_50
	cmpq	$4, %r8
	jb	.LBB14_15
	andl	$56320, %edx
	movzwl	%dx, %eax
	cmpl	$56320, %eax
	je	.LBB14_15
	movzbl	2(%rdi,%rcx), %edx
	andb	$-4, %dl
	movl	$4, %eax
	cmpb	$-36, %dl
	je	.LBB14_50
.LBB14_15:
	movq	%rcx, %rax
	retq
.LBB14_33:
	pmovmskb	%xmm3, %eax
	pmovmskb	%xmm4, %edx
	shll	$16, %edx
	orl	%eax, %edx
	rep		bsfl	%edx, %r8d
	addl	%r8d, %r8d
	testl	%edx, %edx
	movl	$64, %eax
	cmovnel	%r8d, %eax
	addq	%rcx, %rax
	movq	%rsi, %rdx
	subq	%rax, %rdx
	cmpq	$2, %rdx
	jae	.LBB14_35
.LBB14_34:
	retq
.LBB14_35:
	movzwl	(%rdi,%rax), %r8d
	rolw	$8, %r8w
	movl	%r8d, %r9d
	andl	$63488, %r9d
	cmpl	$55296, %r9d
	jne	.LBB14_24
	notl	%r8d
	testl	$56320, %r8d
	sete	%r8b
	cmpq	$4, %rdx
	setb	%dl
	orb	%r8b, %dl
	jne	.LBB14_34
	movzbl	2(%rdi,%rax), %edx
	andb	$-4, %dl
	cmpb	$-36, %dl
	je	.LBB14_24
	jmp	.LBB14_34
.LBB14_60:
	movq	%rsi, %rax
	subq	%rcx, %rax
	cmpq	$32, %rax
	jae	.LBB14_39
	jmp	.LBB14_40
.Lfunc_end14:

	.section	.text$019,"xr"
	.p2align	4
L_15:
	pushq	%r15
	pushq	%r14
	pushq	%r13
	pushq	%r12
	pushq	%rbx
	subq	$48, %rsp
	movq	%rdx, %rbx
	movq	%rsi, %r14
	movq	%rdi, %r15
	movq	%rsi, %rax
	shrq	%rax
	leaq	(%rax,%rax,2), %r12
	addq	$128, %r12
	cmpq	$191, %rsi
	jbe	.LBB15_3
	xorps	%xmm0, %xmm0
	movaps	%xmm0, 16(%rsp)
	movaps	%xmm0, (%rsp)
	movq	$0, 32(%rsp)
	movq	%rsp, %rdi
	movq	%r15, %rsi
	movq	%r14, %rdx
	movq	%rbx, %rcx
	movq	%r12, %r8
	callq	L_12
	movq	(%rsp), %rax
	movq	8(%rsp), %rcx
	leaq	-2(%rax), %rdx
	leaq	-2(%rcx), %r13
	testb	$1, 32(%rsp)
	cmoveq	%rcx, %r13
	cmoveq	%rax, %rdx
	addq	%rdx, %r15
	subq	%rdx, %r14
	addq	%r13, %rbx
	cmpq	$7, %r14
	ja	.LBB15_5
	movq	%r15, %rdi
	movq	%r14, %rsi
	movq	%rbx, %rdx
	callq	L_20
	jmp	.LBB15_6
.LBB15_3:
	movq	%r15, %rdi
	movq	%r14, %rsi
	movq	%rbx, %rdx
	cmpq	$7, %r14
	jbe	.LBB15_8
	movq	%r12, %rcx
	callq	L_9
	movq	%rdx, %rax
	jmp	.LBB15_7
.LBB15_5:
	subq	%r13, %r12
	movq	%r15, %rdi
	movq	%r14, %rsi
	movq	%rbx, %rdx
	movq	%r12, %rcx
	callq	L_9
	movq	%rdx, %rax
.LBB15_6:
	addq	%r13, %rax
.LBB15_7:
	addq	$48, %rsp
	popq	%rbx
	popq	%r12
	popq	%r13
	popq	%r14
	popq	%r15
	retq
.LBB15_8:
	addq	$48, %rsp
	popq	%rbx
	popq	%r12
	popq	%r13
	popq	%r14
	popq	%r15
	jmp	L_20
.Lfunc_end15:

	.section	.text$020,"xr"
	.p2align	4
L_20:
	pushq	%r15
	pushq	%r14
	pushq	%r12
	pushq	%rbx
	pushq	%rax
	testq	%rsi, %rsi
	je	.LBB16_1
	movq	%rdx, %rbx
	movq	%rsi, %r14
	movq	%rdi, %r12
	xorl	%r15d, %r15d
	jmp	.LBB16_3
	.p2align	4
.LBB16_7:
	movb	%al, (%rbx,%r15)
	incq	%r15
.LBB16_13:
	addq	%rcx, %r12
	subq	%rcx, %r14
	je	.LBB16_14
.LBB16_3:
	movzwl	(%r12), %edi
	rolw	$8, %di
	movl	%edi, %eax
	andl	$64512, %eax
	cmpl	$55296, %eax
	jne	.LBB16_4
	movzwl	2(%r12), %esi
	rolw	$8, %si
	callq	L_17
	movl	$4, %ecx
	cmpl	$127, %eax
	jbe	.LBB16_7
	jmp	.LBB16_8
	.p2align	4
.LBB16_4:
	movzwl	%di, %eax
	movl	$2, %ecx
	cmpl	$127, %eax
	jbe	.LBB16_7
.LBB16_8:
	movl	%eax, %edx
	andb	$63, %dl
	orb	$-128, %dl
	cmpl	$2047, %eax
	ja	.LBB16_10
	shrl	$6, %eax
	movzbl	%dl, %edx
	shll	$8, %edx
	orl	%eax, %edx
	orl	$192, %edx
	movw	%dx, (%rbx,%r15)
	addq	$2, %r15
	jmp	.LBB16_13
	.p2align	4
.LBB16_10:
	movl	%eax, %esi
	cmpl	$65535, %eax
	ja	.LBB16_12
	shrl	$6, %esi
	andb	$63, %sil
	orb	$-128, %sil
	shrl	$12, %eax
	orb	$-32, %al
	movb	%al, (%rbx,%r15)
	movb	%sil, 1(%rbx,%r15)
	movb	%dl, 2(%rbx,%r15)
	addq	$3, %r15
	jmp	.LBB16_13
.LBB16_12:
	shrl	$18, %esi
	addl	$240, %esi
	movzbl	%dl, %edx
	shll	$24, %edx
	movl	%eax, %edi
	shll	$10, %edi
	andl	$4128768, %edi
	orl	%edx, %edi
	shrl	$4, %eax
	andl	$16128, %eax
	orl	%edi, %eax
	movzbl	%sil, %edx
	addl	%edx, %eax
	addl	$8421376, %eax
	movl	%eax, (%rbx,%r15)
	addq	$4, %r15
	jmp	.LBB16_13
.LBB16_1:
	xorl	%r15d, %r15d
.LBB16_14:
	movq	%r15, %rax
	addq	$8, %rsp
	popq	%rbx
	popq	%r12
	popq	%r14
	popq	%r15
	retq
.Lfunc_end16:

	.section	.rdata$004,"dr"
	.p2align	4, 0x0
.LCPI17_0:
	.zero	16,191
.LCPI17_1:
	.zero	16,240
	.section	.text$021,"xr"
	.p2align	4
L_16:
	cmpq	$16, %rsi
	jae	.LBB17_9
	xorl	%eax, %eax
	testq	%rsi, %rsi
	jne	.LBB17_2
.LBB17_15:
	retq
.LBB17_4:
	andl	$31, %ecx
	shll	$6, %ecx
	orl	%edx, %ecx
	movl	$2, %r9d
	.p2align	4
.LBB17_8:
	addq	%r9, %rdi
	xorl	%edx, %edx
	cmpl	$65536, %ecx
	setae	%dl
	leaq	(%rax,%rdx,2), %rax
	addq	$2, %rax
	subq	%r9, %rsi
	je	.LBB17_15
.LBB17_2:
	movzbl	(%rdi), %ecx
	movl	$1, %r9d
	testb	%cl, %cl
	jns	.LBB17_8
	movzbl	1(%rdi), %edx
	andl	$63, %edx
	cmpb	$-33, %cl
	jbe	.LBB17_4
	movzbl	2(%rdi), %r8d
	andl	$63, %r8d
	cmpb	$-17, %cl
	ja	.LBB17_7
	shll	$12, %ecx
	movzwl	%cx, %ecx
	shll	$6, %edx
	orl	%ecx, %edx
	orl	%r8d, %edx
	movl	$3, %r9d
	movl	%edx, %ecx
	jmp	.LBB17_8
.LBB17_7:
	movzbl	3(%rdi), %r9d
	andl	$63, %r9d
	andl	$7, %ecx
	shll	$18, %ecx
	shll	$12, %edx
	orl	%ecx, %edx
	shll	$6, %r8d
	orl	%edx, %r8d
	orl	%r9d, %r8d
	movl	$4, %r9d
	movl	%r8d, %ecx
	jmp	.LBB17_8
.LBB17_9:
	cmpq	$64, %rsi
	jb	.LBB17_10
	xorl	%ecx, %ecx
	movq	%rsi, %rdx
	xorl	%eax, %eax
	.p2align	4
.LBB17_17:
	movdqu	(%rdi,%rcx), %xmm3
	movdqu	16(%rdi,%rcx), %xmm7
	movdqu	32(%rdi,%rcx), %xmm4
	movdqu	48(%rdi,%rcx), %xmm6
	movdqa	.LCPI17_0(%rip), %xmm5
	movdqa	.LCPI17_1(%rip), %xmm2
	movdqa	%xmm6, %xmm0
	pmaxub	%xmm2, %xmm0
	pcmpeqb	%xmm6, %xmm0
	pcmpgtb	%xmm5, %xmm6
	movdqa	%xmm4, %xmm1
	pmaxub	%xmm2, %xmm1
	pcmpeqb	%xmm4, %xmm1
	movdqa	%xmm4, %xmm8
	pcmpgtb	%xmm5, %xmm8
	movdqa	%xmm7, %xmm4
	pmaxub	%xmm2, %xmm4
	pcmpeqb	%xmm7, %xmm4
	pcmpgtb	%xmm5, %xmm7
	pmaxub	%xmm3, %xmm2
	pcmpeqb	%xmm3, %xmm2
	pcmpgtb	%xmm5, %xmm3
	pmovmskb	%xmm3, %r8d
	pmovmskb	%xmm7, %r9d
	shll	$16, %r9d
	orl	%r8d, %r9d
	pmovmskb	%xmm8, %r8d
	shlq	$32, %r8
	orq	%r9, %r8
	pmovmskb	%xmm6, %r9d
	shlq	$48, %r9
	orq	%r8, %r9
	xorl	%r8d, %r8d
	popcntq	%r9, %r8
	addq	%rax, %r8
	pmovmskb	%xmm2, %eax
	pmovmskb	%xmm4, %r9d
	shll	$16, %r9d
	orl	%eax, %r9d
	pmovmskb	%xmm1, %eax
	shlq	$32, %rax
	orq	%r9, %rax
	pmovmskb	%xmm0, %r9d
	shlq	$48, %r9
	orq	%rax, %r9
	xorl	%eax, %eax
	popcntq	%r9, %rax
	addq	%r8, %rax
	addq	$64, %rcx
	addq	$-64, %rdx
	cmpq	$63, %rdx
	ja	.LBB17_17
	movq	%rsi, %rdx
	subq	%rcx, %rdx
	cmpq	$16, %rdx
	jae	.LBB17_12
	jmp	.LBB17_14
.LBB17_10:
	xorl	%eax, %eax
	xorl	%ecx, %ecx
	movq	%rsi, %rdx
	subq	%rcx, %rdx
	cmpq	$16, %rdx
	jb	.LBB17_14
.LBB17_12:
	addq	%rdi, %rcx
	.p2align	4
.LBB17_13:
	movdqu	(%rcx), %xmm0
	movdqa	.LCPI17_1(%rip), %xmm1
	pmaxub	%xmm0, %xmm1
	pcmpeqb	%xmm0, %xmm1
	pcmpgtb	.LCPI17_0(%rip), %xmm0
	pmovmskb	%xmm0, %r8d
	popcntl	%r8d, %r8d
	pmovmskb	%xmm1, %r9d
	popcntl	%r9d, %r9d
	addl	%r8d, %r9d
	addq	%r9, %rax
	addq	$-16, %rdx
	addq	$16, %rcx
	cmpq	$15, %rdx
	ja	.LBB17_13
.LBB17_14:
	movdqu	-16(%rdi,%rsi), %xmm0
	movdqa	%xmm0, %xmm1
	pcmpgtb	.LCPI17_0(%rip), %xmm1
	pmovmskb	%xmm1, %esi
	movb	$16, %cl
	subb	%dl, %cl
	shrq	%cl, %rsi
	movdqa	.LCPI17_1(%rip), %xmm1
	pmaxub	%xmm0, %xmm1
	pcmpeqb	%xmm0, %xmm1
	xorl	%edx, %edx
	popcntl	%esi, %edx
	pmovmskb	%xmm1, %esi
	shrq	%cl, %rsi
	addq	%rax, %rdx
	xorl	%eax, %eax
	popcntl	%esi, %eax
	addq	%rdx, %rax
	addq	%rax, %rax
	retq
.Lfunc_end17:

	.section	.rdata$004,"dr"
	.p2align	4, 0x0
.LCPI18_0:
	.byte	1
	.byte	0
	.byte	3
	.byte	2
	.byte	5
	.byte	4
	.byte	7
	.byte	6
	.byte	9
	.byte	8
	.byte	11
	.byte	10
	.byte	13
	.byte	12
	.byte	15
	.byte	14
.LCPI18_1:
	.short	255
	.short	255
	.short	255
	.short	255
	.short	255
	.short	255
	.short	255
	.short	255
	.section	.text$022,"xr"
	.p2align	4
L_11:
	pushq	%rbp
	pushq	%r15
	pushq	%r14
	pushq	%rbx
	movq	%rdx, %r8
	leaq	-66(%rsi), %r9
	addq	$-35, %rcx
	xorl	%eax, %eax
	xorl	%edx, %edx
	.p2align	4
.LBB18_1:
	movdqu	(%rdi,%rax), %xmm0
	movdqu	16(%rdi,%rax), %xmm1
	movdqu	32(%rdi,%rax), %xmm2
	movdqu	48(%rdi,%rax), %xmm3
	movdqa	.LCPI18_0(%rip), %xmm4
	pshufb	%xmm4, %xmm0
	pshufb	%xmm4, %xmm1
	pshufb	%xmm4, %xmm2
	pshufb	%xmm4, %xmm3
	movdqa	.LCPI18_1(%rip), %xmm4
	pminuw	%xmm4, %xmm3
	pminuw	%xmm4, %xmm2
	packuswb	%xmm3, %xmm2
	pminuw	%xmm4, %xmm1
	pminuw	%xmm4, %xmm0
	packuswb	%xmm1, %xmm0
	movdqu	%xmm2, 16(%r8,%rdx)
	movdqu	%xmm0, (%r8,%rdx)
	pmovmskb	%xmm0, %r11d
	pmovmskb	%xmm2, %r10d
	shll	$16, %r10d
	orl	%r11d, %r10d
	testl	%r10d, %r10d
	je	.LBB18_2
	rep		bsfl	%r10d, %r10d
	leal	(%r10,%r10), %r11d
	movq	%rsi, %rbx
	subq	%rax, %rbx
	subq	%r11, %rbx
	cmpq	$2, %rbx
	jb	.LBB18_13
	leaq	(%rdi,%rax), %r14
	movzwl	(%r14,%r11), %ebp
	rolw	$8, %bp
	movl	%ebp, %r15d
	andl	$63488, %r15d
	cmpl	$55296, %r15d
	jne	.LBB18_13
	notl	%ebp
	testl	$56320, %ebp
	je	.LBB18_8
	cmpq	$4, %rbx
	jb	.LBB18_13
	movzbl	2(%r14,%r11), %ebx
	andb	$-4, %bl
	cmpb	$-36, %bl
	je	.LBB18_13
.LBB18_8:
	leaq	(%r8,%rdx), %rbx
	addq	$2, %r11
	addq	%r10, %rbx
	addq	$3, %r10
	leaq	.Lstatic.6(%rip), %r14
	movq	%rbx, %r15
	subq	%r14, %r15
	cmpq	$2, %r15
	ja	.LBB18_10
	movw	$-16401, (%rbx)
	movb	$-67, 2(%rbx)
	addq	%r11, %rax
	addq	%r10, %rdx
	cmpq	%r9, %rax
	jbe	.LBB18_12
	jmp	.LBB18_13
	.p2align	4
.LBB18_2:
	movl	$64, %r11d
	movl	$32, %r10d
	addq	%r11, %rax
	addq	%r10, %rdx
	cmpq	%r9, %rax
	jbe	.LBB18_12
	jmp	.LBB18_13
	.p2align	4
.LBB18_10:
	movb	$-67, 2(%rbx)
	movw	$-16401, (%rbx)
	addq	%r11, %rax
	addq	%r10, %rdx
	cmpq	%r9, %rax
	ja	.LBB18_13
.LBB18_12:
	cmpq	%rcx, %rdx
	jbe	.LBB18_1
.LBB18_13:
	popq	%rbx
	popq	%r14
	popq	%r15
	popq	%rbp
	retq
.Lfunc_end18:

	.section	.text$023,"xr"
	.p2align	4
L_8:
	pushq	%r15
	pushq	%r14
	pushq	%r13
	pushq	%r12
	pushq	%rbx
	subq	$1024, %rsp
	movq	%rdx, %rbx
	movq	%rdi, %r15
	leaq	-128(%rcx), %rax
	movabsq	$-6148914691236517205, %rcx
	mulq	%rcx
	andq	$-2, %rdx
	cmpq	%rsi, %rdx
	cmovaeq	%rsi, %rdx
	cmpq	$1024, %rdx
	movl	$1024, %r14d
	cmovbq	%rdx, %r14
	movq	%rsp, %rdi
	movl	$1024, %edx
	xorl	%esi, %esi
	callq	sysv_memset
	andq	$2046, %r14
	je	.LBB19_3
	movzbl	-2(%r15,%r14), %eax
	andb	$-4, %al
	cmpb	$-40, %al
	jne	.LBB19_3
	addq	$-2, %r14
.LBB19_3:
	movq	%rsp, %rdi
	movq	%r15, %rsi
	movq	%r14, %rdx
	callq	sysv_memcpy
	movq	%r14, %r15
	andq	$-2, %r15
	je	.LBB19_13
	xorl	%r12d, %r12d
	jmp	.LBB19_5
	.p2align	4
.LBB19_11:
	movw	$-513, (%rsp,%r12)
	movl	$2, %eax
	addq	%rax, %r12
	cmpq	%r15, %r12
	jae	.LBB19_13
.LBB19_5:
	movq	%r15, %rcx
	subq	%r12, %rcx
	cmpq	$2, %rcx
	jb	.LBB19_11
	movzwl	(%rsp,%r12), %eax
	rolw	$8, %ax
	movl	%eax, %edx
	andl	$63488, %edx
	movl	$2, %r13d
	cmpl	$55296, %edx
	jne	.LBB19_10
	cmpq	$4, %rcx
	jb	.LBB19_11
	andl	$56320, %eax
	movzwl	%ax, %eax
	cmpl	$56320, %eax
	je	.LBB19_11
	movzbl	2(%rsp,%r12), %eax
	andb	$-4, %al
	movl	$4, %r13d
	cmpb	$-36, %al
	jne	.LBB19_11
	.p2align	4
.LBB19_10:
	leaq	(%r12,%r13), %rax
	leaq	(%rsp,%rax), %rdi
	movq	%r15, %rsi
	subq	%rax, %rsi
	callq	L_14
	addq	%r13, %rax
	addq	%rax, %r12
	cmpq	%r15, %r12
	jb	.LBB19_5
.LBB19_13:
	movq	%rsp, %rdi
	movq	%r14, %rsi
	movq	%rbx, %rdx
	callq	L_15
	movq	%rax, %rdx
	movq	%r14, %rax
	addq	$1024, %rsp
	popq	%rbx
	popq	%r12
	popq	%r13
	popq	%r14
	popq	%r15
	retq
.Lfunc_end19:

	.section	.rdata$004,"dr"
	.p2align	4, 0x0
.LCPI20_0:
	.short	128
	.short	128
	.short	128
	.short	128
	.short	128
	.short	128
	.short	128
	.short	128
	.section	.text$024,"xr"
	.p2align	4
L_6:
	pushq	%rbp
	pushq	%r15
	pushq	%r14
	pushq	%r13
	pushq	%r12
	pushq	%rbx
	subq	$168, %rsp
	movq	%r8, 88(%rsp)
	movq	%rcx, 80(%rsp)
	movq	%rdx, 120(%rsp)
	movl	$0, 76(%rsp)
	movq	%rdi, 160(%rsp)
	movl	(%rdi), %eax
	movl	%eax, 48(%rsp)
	shrl	$24, %eax
	cmpb	$3, %al
	movl	$3, %r15d
	cmovbl	%eax, %r15d
	movq	%rsi, 112(%rsp)
	xorl	%r14d, %r14d
	xorl	%edi, %edi
	movq	%r15, 104(%rsp)
.LBB20_1:
	movq	%rdi, %rax
	subq	%r15, %rax
	movq	%r14, 136(%rsp)
	movq	%rdi, 128(%rsp)
	jae	.LBB20_45
	leaq	(%rsp,%rdi), %rsi
	addq	$48, %rsi
	subq	%rdi, %r15
	movl	$4, %r12d
	subq	%r15, %r12
	movq	120(%rsp), %rax
	cmpq	%rax, %r12
	cmovaeq	%rax, %r12
	movl	$0, 16(%rsp)
	leaq	16(%rsp), %rdi
	movq	%r15, %rdx
	callq	sysv_memcpy
	leaq	(%rsp,%r15), %rdi
	addq	$16, %rdi
	movq	112(%rsp), %rsi
	movq	%r12, %rdx
	callq	sysv_memcpy
	addq	%r15, %r12
	movl	16(%rsp), %eax
	movl	%eax, 52(%rsp)
	movq	80(%rsp), %rax
	addq	%r14, %rax
	movq	%rax, 64(%rsp)
	movq	88(%rsp), %rax
	subq	%r14, %rax
	movq	%rax, 56(%rsp)
	xorl	%r14d, %r14d
	xorl	%ebx, %ebx
	movq	%r12, 40(%rsp)
	jmp	.LBB20_5
	.p2align	4
.LBB20_3:
	movq	%r13, %rdi
	movq	%rbp, %rsi
	movq	%r15, %rdx
	movq	%r12, %rcx
	callq	L_21
.LBB20_4:
	movq	40(%rsp), %r12
	addq	%rax, %rbx
	addq	%rdx, %r14
.LBB20_5:
	leaq	(%rsp,%rbx), %r10
	addq	$52, %r10
	movq	%r12, %rdx
	subq	%rbx, %rdx
	movq	64(%rsp), %rax
	leaq	(%rax,%r14), %r13
	movq	56(%rsp), %r11
	subq	%r14, %r11
	pxor	%xmm0, %xmm0
	movdqa	%xmm0, 16(%rsp)
	movq	$0, 32(%rsp)
	leaq	-16(%rdx), %rax
	cmpq	$175, %rax
	ja	.LBB20_13
	movq	%rdx, %rax
	shrq	%rax
	cmpq	%rax, %r11
	cmovbq	%r11, %rax
	cmpq	$8, %rax
	jb	.LBB20_13
	leaq	(%rax,%rax), %rcx
	xorl	%r15d, %r15d
	xorl	%r12d, %r12d
	.p2align	4
.LBB20_8:
	movdqu	(%r10,%r12,2), %xmm0
	movdqa	.LCPI20_0(%rip), %xmm1
	pmaxuw	%xmm0, %xmm1
	pcmpeqw	%xmm0, %xmm1
	pmovmskb	%xmm1, %esi
	testl	%esi, %esi
	jne	.LBB20_28
	packuswb	%xmm0, %xmm0
	movq	%xmm0, (%r13,%r12)
	addq	$8, %r12
	leaq	(%rcx,%r15), %rsi
	addq	$-16, %rsi
	addq	$-16, %r15
	cmpq	$15, %rsi
	ja	.LBB20_8
	negq	%r15
	cmpq	%r15, %rcx
	jbe	.LBB20_14
	movdqu	-16(%r10,%rcx), %xmm0
	movdqa	.LCPI20_0(%rip), %xmm1
	pmaxuw	%xmm0, %xmm1
	pcmpeqw	%xmm0, %xmm1
	pmovmskb	%xmm1, %esi
	testl	%esi, %esi
	jne	.LBB20_14
	packuswb	%xmm0, %xmm0
	movq	%xmm0, -8(%r13,%rax)
	movq	%rax, %r12
	movq	%rcx, %r15
	movq	%rdx, %rax
	subq	%r15, %rax
	cmpq	$15, %rax
	ja	.LBB20_15
	jmp	.LBB20_29
	.p2align	4
.LBB20_13:
	xorl	%r12d, %r12d
	xorl	%r15d, %r15d
.LBB20_14:
	movq	%rdx, %rax
	subq	%r15, %rax
	cmpq	$15, %rax
	jbe	.LBB20_29
.LBB20_15:
	leaq	-8(%rdx), %rax
	cmpq	$183, %rax
	movq	%rbx, 96(%rsp)
	ja	.LBB20_17
	movq	%rdx, %rsi
	subq	%r15, %rsi
	cmpq	$8, %rsi
	jae	.LBB20_18
.LBB20_17:
	movq	%r13, %rbx
	movq	%r11, %r13
	movq	%r10, %rbp
	cmpq	%rdx, %r15
	jne	.LBB20_19
	jmp	.LBB20_39
	.p2align	4
.LBB20_18:
	movq	%r10, %rbp
	leaq	(%r10,%r15), %rdi
	movq	%r13, %rbx
	leaq	(%r12,%r13), %rax
	movq	%r11, %r13
	movq	%r11, %rcx
	subq	%r12, %rcx
	movq	%rdx, 144(%rsp)
	movq	%rax, %rdx
	callq	L_22
	movq	%rdx, %rcx
	movq	144(%rsp), %rdx
	addq	%rax, %r15
	addq	%rcx, %r12
	cmpq	%rdx, %r15
	je	.LBB20_39
.LBB20_19:
	movq	%r12, (%rsp)
	leaq	16(%rsp), %rdi
	movq	%rbp, %rsi
	movq	%rbx, %rcx
	movq	%r13, %r8
	movq	%r15, %r9
	callq	L_23
	movq	96(%rsp), %rbx
	addq	16(%rsp), %rbx
	movzbl	32(%rsp), %eax
	addq	24(%rsp), %r14
	cmpb	$1, %al
	jne	.LBB20_40
	movq	64(%rsp), %rax
	leaq	(%rax,%r14), %r15
	movq	56(%rsp), %r12
	subq	%r14, %r12
	cmpq	$512, %r12
	jb	.LBB20_23
	leaq	(%rsp,%rbx), %r13
	addq	$52, %r13
	movq	40(%rsp), %rbp
	subq	%rbx, %rbp
	cmpq	$128, %rbp
	jb	.LBB20_3
	movq	%r13, %rdi
	movq	%rbp, %rsi
	movq	%r15, %rdx
	movq	%r12, %rcx
	callq	L_24
	cmpq	$127, %rax
	jbe	.LBB20_3
	jmp	.LBB20_4
	.p2align	4
.LBB20_23:
	cmpq	$2, %r12
	jbe	.LBB20_42
	movzbl	33(%rsp), %eax
	leaq	.Lstatic.6(%rip), %rcx
	movq	%r15, %rdx
	subq	%rcx, %rdx
	cmpq	$2, %rdx
	ja	.LBB20_26
	movw	$-16401, (%r15)
	movb	$-67, 2(%r15)
	jmp	.LBB20_27
	.p2align	4
.LBB20_26:
	movb	$-67, 2(%r15)
	movw	$-16401, (%r15)
.LBB20_27:
	movl	$3, %edx
	jmp	.LBB20_4
.LBB20_28:
	negq	%r15
	movq	%rdx, %rax
	subq	%r15, %rax
	cmpq	$15, %rax
	ja	.LBB20_15
	.p2align	4
.LBB20_29:
	cmpq	$2, %rax
	jb	.LBB20_15
	movq	%r11, %rcx
	subq	%r12, %rcx
	movq	%rax, %rsi
	shrq	%rsi
	leaq	(%rsi,%rsi,2), %rsi
	cmpq	%rsi, %rcx
	jb	.LBB20_15
	leaq	53(%rsp), %rcx
	addq	%rbx, %rcx
	jmp	.LBB20_34
	.p2align	4
.LBB20_32:
	movb	%sil, (%r13,%r12)
	incq	%r12
.LBB20_33:
	addq	$2, %r15
	addq	$-2, %rax
	cmpq	$1, %rax
	jbe	.LBB20_15
.LBB20_34:
	movzbl	-1(%rcx,%r15), %esi
	movzbl	(%rcx,%r15), %r8d
	movl	%r8d, %edi
	shll	$8, %edi
	orl	%esi, %edi
	cmpw	$127, %di
	jbe	.LBB20_32
	cmpb	$7, %r8b
	ja	.LBB20_37
	movzwl	%si, %esi
	andl	$63, %esi
	shll	$8, %esi
	movzwl	%di, %edi
	shrl	$6, %edi
	orl	%esi, %edi
	orl	$32960, %edi
	movw	%di, (%r13,%r12)
	addq	$2, %r12
	jmp	.LBB20_33
	.p2align	4
.LBB20_37:
	movzwl	%r8w, %r9d
	andl	$-8, %r9d
	cmpl	$216, %r9d
	je	.LBB20_15
	andb	$63, %sil
	orb	$-128, %sil
	shrl	$6, %edi
	andb	$63, %dil
	orb	$-128, %dil
	shrb	$4, %r8b
	orb	$-32, %r8b
	movb	%r8b, (%r13,%r12)
	movb	%dil, 1(%r13,%r12)
	movb	%sil, 2(%r13,%r12)
	addq	$3, %r12
	jmp	.LBB20_33
	.p2align	4
.LBB20_39:
	addq	%r12, %r14
	xorl	%eax, %eax
	movq	40(%rsp), %rbx
.LBB20_40:
	movq	128(%rsp), %rdi
	addq	%rbx, %rdi
	movq	136(%rsp), %rcx
	addq	%r14, %rcx
	movq	%rcx, %r14
	testq	%rbx, %rbx
	movq	104(%rsp), %r15
	je	.LBB20_89
	cmpb	$3, %al
	jne	.LBB20_1
	jmp	.LBB20_89
.LBB20_42:
	addq	128(%rsp), %rbx
	movq	136(%rsp), %rax
	addq	%r14, %rax
	movq	%rax, %r14
	movq	104(%rsp), %rax
	cmpq	%rbx, %rax
	cmovbq	%rax, %rbx
	leaq	(%rsp,%rbx), %rsi
	addq	$48, %rsi
	subq	%rbx, %rax
	movq	%rax, %rbx
.LBB20_43:
	movb	$0, 18(%rsp)
	movw	$0, 16(%rsp)
	leaq	16(%rsp), %rdi
	movq	%rbx, %rdx
	callq	sysv_memcpy
	movzbl	18(%rsp), %eax
	shll	$16, %eax
	movzwl	16(%rsp), %ecx
	orl	%eax, %ecx
	shll	$24, %ebx
	orl	%ecx, %ebx
.LBB20_44:
	movq	160(%rsp), %rax
	movl	%ebx, (%rax)
	movq	%r14, %rax
	addq	$168, %rsp
	popq	%rbx
	popq	%r12
	popq	%r13
	popq	%r14
	popq	%r15
	popq	%rbp
	retq
.LBB20_45:
	movq	112(%rsp), %rcx
	leaq	(%rcx,%rax), %rdx
	movq	%rdx, 56(%rsp)
	movq	120(%rsp), %r11
	subq	%rax, %r11
	addq	%r14, 80(%rsp)
	subq	%r14, 88(%rsp)
	subq	%r15, %rcx
	leaq	(%rcx,%rdi), %rax
	incq	%rax
	movq	%rax, 152(%rsp)
	addq	%rdi, %rcx
	movq	%rcx, 144(%rsp)
	xorl	%ebp, %ebp
	xorl	%r14d, %r14d
	movq	%r11, 96(%rsp)
	jmp	.LBB20_49
	.p2align	4
.LBB20_46:
	movb	$-67, 2(%rbx)
	movw	$-16401, (%rbx)
.LBB20_47:
	movl	$3, %edx
.LBB20_48:
	addq	%rax, %r14
	addq	%rdx, %rbp
.LBB20_49:
	movq	56(%rsp), %rax
	leaq	(%rax,%r14), %r10
	movq	%r11, %r12
	subq	%r14, %r12
	movq	80(%rsp), %rax
	leaq	(%rax,%rbp), %r13
	movq	88(%rsp), %rdi
	subq	%rbp, %rdi
	pxor	%xmm0, %xmm0
	movdqa	%xmm0, 16(%rsp)
	movq	$0, 32(%rsp)
	leaq	-16(%r12), %rax
	cmpq	$175, %rax
	ja	.LBB20_57
	movq	%r12, %rax
	shrq	%rax
	cmpq	%rax, %rdi
	cmovbq	%rdi, %rax
	cmpq	$8, %rax
	jb	.LBB20_57
	leaq	(%rax,%rax), %rcx
	movq	144(%rsp), %rdx
	addq	%r14, %rdx
	xorl	%r9d, %r9d
	xorl	%r15d, %r15d
	.p2align	4
.LBB20_52:
	movdqu	(%rdx,%r15,2), %xmm0
	movdqa	.LCPI20_0(%rip), %xmm1
	pmaxuw	%xmm0, %xmm1
	pcmpeqw	%xmm0, %xmm1
	pmovmskb	%xmm1, %esi
	testl	%esi, %esi
	jne	.LBB20_83
	packuswb	%xmm0, %xmm0
	movq	%xmm0, (%r13,%r15)
	addq	$8, %r15
	leaq	(%rcx,%r9), %rsi
	addq	$-16, %rsi
	addq	$-16, %r9
	cmpq	$15, %rsi
	ja	.LBB20_52
	negq	%r9
	cmpq	%r9, %rcx
	jbe	.LBB20_58
	movdqu	-16(%r10,%rcx), %xmm0
	movdqa	.LCPI20_0(%rip), %xmm1
	pmaxuw	%xmm0, %xmm1
	pcmpeqw	%xmm0, %xmm1
	pmovmskb	%xmm1, %edx
	testl	%edx, %edx
	jne	.LBB20_58
	packuswb	%xmm0, %xmm0
	movq	%xmm0, -8(%r13,%rax)
	movq	%rax, %r15
	movq	%rcx, %r9
	jmp	.LBB20_58
	.p2align	4
.LBB20_57:
	xorl	%r15d, %r15d
	xorl	%r9d, %r9d
.LBB20_58:
	movq	%r12, %rax
	subq	%r9, %rax
	cmpq	$15, %rax
	movq	%rdi, 64(%rsp)
	jbe	.LBB20_62
.LBB20_59:
	leaq	-8(%r12), %rax
	cmpq	$183, %rax
	ja	.LBB20_72
	movq	%r12, %rsi
	subq	%r9, %rsi
	cmpq	$8, %rsi
	jae	.LBB20_73
.LBB20_72:
	movq	%r10, %rbx
	cmpq	%r12, %r9
	jne	.LBB20_74
	jmp	.LBB20_84
	.p2align	4
.LBB20_62:
	cmpq	$2, %rax
	jb	.LBB20_59
	movq	%rdi, %rcx
	subq	%r15, %rcx
	movq	%rax, %rdx
	shrq	%rdx
	leaq	(%rdx,%rdx,2), %rdx
	cmpq	%rdx, %rcx
	jb	.LBB20_59
	leaq	(%r9,%r14), %rcx
	addq	152(%rsp), %rcx
	jmp	.LBB20_67
	.p2align	4
.LBB20_65:
	movb	%dl, (%r13,%r15)
	incq	%r15
.LBB20_66:
	addq	$2, %r9
	addq	$-2, %rax
	addq	$2, %rcx
	cmpq	$1, %rax
	jbe	.LBB20_59
.LBB20_67:
	movzbl	-1(%rcx), %edx
	movzbl	(%rcx), %edi
	movl	%edi, %esi
	shll	$8, %esi
	orl	%edx, %esi
	cmpw	$127, %si
	jbe	.LBB20_65
	cmpb	$7, %dil
	ja	.LBB20_70
	movzwl	%dx, %edx
	andl	$63, %edx
	shll	$8, %edx
	movzwl	%si, %esi
	shrl	$6, %esi
	orl	%edx, %esi
	orl	$32960, %esi
	movw	%si, (%r13,%r15)
	addq	$2, %r15
	jmp	.LBB20_66
	.p2align	4
.LBB20_70:
	movzwl	%di, %r8d
	andl	$-8, %r8d
	cmpl	$216, %r8d
	je	.LBB20_59
	andb	$63, %dl
	orb	$-128, %dl
	shrl	$6, %esi
	andb	$63, %sil
	orb	$-128, %sil
	shrb	$4, %dil
	orb	$-32, %dil
	movb	%dil, (%r13,%r15)
	movb	%sil, 1(%r13,%r15)
	movb	%dl, 2(%r13,%r15)
	addq	$3, %r15
	jmp	.LBB20_66
	.p2align	4
.LBB20_73:
	movq	%r10, %rbx
	leaq	(%r10,%r9), %rdi
	leaq	(%r15,%r13), %rdx
	movq	64(%rsp), %rcx
	subq	%r15, %rcx
	movq	%r9, 40(%rsp)
	callq	L_22
	movq	40(%rsp), %r9
	movq	96(%rsp), %r11
	addq	%rax, %r9
	addq	%rdx, %r15
	cmpq	%r12, %r9
	je	.LBB20_84
.LBB20_74:
	movq	%r13, %rcx
	movq	%r11, %r13
	movq	%r15, (%rsp)
	leaq	16(%rsp), %rdi
	movq	%rbx, %rsi
	movq	%r12, %rdx
	movq	64(%rsp), %r8
	callq	L_23
	addq	16(%rsp), %r14
	movzbl	32(%rsp), %eax
	addq	24(%rsp), %rbp
	cmpb	$1, %al
	jne	.LBB20_87
	movq	80(%rsp), %rax
	leaq	(%rax,%rbp), %rbx
	movq	88(%rsp), %r15
	subq	%rbp, %r15
	cmpq	$512, %r15
	jb	.LBB20_80
	movq	56(%rsp), %rax
	leaq	(%rax,%r14), %r12
	subq	%r14, %r13
	cmpq	$128, %r13
	jb	.LBB20_78
	movq	%r12, %rdi
	movq	%r13, %rsi
	movq	%rbx, %rdx
	movq	%r15, %rcx
	callq	L_24
	cmpq	$127, %rax
	ja	.LBB20_79
.LBB20_78:
	movq	%r12, %rdi
	movq	%r13, %rsi
	movq	%rbx, %rdx
	movq	%r15, %rcx
	callq	L_21
.LBB20_79:
	movq	96(%rsp), %r11
	jmp	.LBB20_48
	.p2align	4
.LBB20_80:
	cmpq	$3, %r15
	jb	.LBB20_86
	movq	%r13, %r11
	movzbl	33(%rsp), %eax
	leaq	.Lstatic.6(%rip), %rcx
	movq	%rbx, %rdx
	subq	%rcx, %rdx
	cmpq	$2, %rdx
	ja	.LBB20_46
	movw	$-16401, (%rbx)
	movb	$-67, 2(%rbx)
	jmp	.LBB20_47
.LBB20_83:
	negq	%r9
	jmp	.LBB20_58
.LBB20_84:
	addq	%r15, %rbp
	xorl	%eax, %eax
	jmp	.LBB20_88
.LBB20_86:
	movb	$3, %al
.LBB20_87:
	movq	%r14, %r11
.LBB20_88:
	movq	128(%rsp), %rdi
	addq	%r11, %rdi
	movq	136(%rsp), %r14
	addq	%rbp, %r14
	movq	104(%rsp), %r15
.LBB20_89:
	cmpq	%rdi, %r15
	movq	%rdi, %rcx
	cmovbq	%r15, %rcx
	leaq	(%rsp,%rcx), %rsi
	addq	$48, %rsi
	movq	%r15, %rbx
	subq	%rcx, %rbx
	cmpb	$3, %al
	je	.LBB20_43
	xorl	%eax, %eax
	subq	%r15, %rdi
	cmovaeq	%rdi, %rax
	movq	120(%rsp), %rcx
	subq	%rax, %rcx
	movq	112(%rsp), %r12
	addq	%rax, %r12
	movl	$4, %r15d
	subq	%rbx, %r15
	cmpq	%rcx, %r15
	cmovaeq	%rcx, %r15
	movl	$0, 16(%rsp)
	leaq	16(%rsp), %rdi
	movq	%rbx, %rdx
	callq	sysv_memcpy
	leaq	(%rsp,%rbx), %rdi
	addq	$16, %rdi
	movq	%r12, %rsi
	movq	%r15, %rdx
	callq	sysv_memcpy
	addq	%rbx, %r15
	movl	16(%rsp), %eax
	movl	%eax, 76(%rsp)
	movb	$0, 18(%rsp)
	movw	$0, 16(%rsp)
	leaq	16(%rsp), %rdi
	leaq	76(%rsp), %rsi
	movq	%r15, %rdx
	callq	sysv_memcpy
	movzbl	18(%rsp), %eax
	shll	$16, %eax
	movzwl	16(%rsp), %ecx
	orl	%eax, %ecx
	shll	$24, %r15d
	orl	%ecx, %r15d
	movl	%r15d, %ebx
	jmp	.LBB20_44
.Lfunc_end20:

	.section	.rdata$004,"dr"
	.p2align	4, 0x0
.LCPI21_0:
	.short	2048
	.short	2048
	.short	2048
	.short	2048
	.short	2048
	.short	2048
	.short	2048
	.short	2048
.LCPI21_1:
	.short	63488
	.short	63488
	.short	63488
	.short	63488
	.short	63488
	.short	63488
	.short	63488
	.short	63488
.LCPI21_2:
	.short	55296
	.short	55296
	.short	55296
	.short	55296
	.short	55296
	.short	55296
	.short	55296
	.short	55296
.LCPI21_3:
	.short	2047
	.short	2047
	.short	2047
	.short	2047
	.short	2047
	.short	2047
	.short	2047
	.short	2047
.LCPI21_4:
	.short	34815
	.short	34815
	.short	34815
	.short	34815
	.short	34815
	.short	34815
	.short	34815
	.short	34815
.LCPI21_5:
	.short	32768
	.short	32768
	.short	32768
	.short	32768
	.short	32768
	.short	32768
	.short	32768
	.short	32768
.LCPI21_6:
	.short	63
	.short	63
	.short	63
	.short	63
	.short	63
	.short	63
	.short	63
	.short	63
.LCPI21_7:
	.short	16128
	.short	16128
	.short	16128
	.short	16128
	.short	16128
	.short	16128
	.short	16128
	.short	16128
.LCPI21_8:
	.zero	16,128
.LCPI21_9:
	.short	224
	.short	224
	.short	224
	.short	224
	.short	224
	.short	224
	.short	224
	.short	224
.LCPI21_10:
	.short	255
	.short	255
	.short	255
	.short	255
	.short	255
	.short	255
	.short	255
	.short	255
.LCPI21_11:
	.short	32992
	.short	32992
	.short	32992
	.short	32992
	.short	32992
	.short	32992
	.short	32992
	.short	32992
.LCPI21_12:
	.byte	128
	.byte	0
	.byte	128
	.byte	0
	.byte	128
	.byte	0
	.byte	128
	.byte	0
	.byte	128
	.byte	0
	.byte	128
	.byte	0
	.byte	128
	.byte	0
	.byte	128
	.byte	0
.LCPI21_13:
	.byte	0
	.byte	1
	.byte	128
	.byte	2
	.byte	3
	.byte	128
	.byte	4
	.byte	5
	.byte	128
	.byte	6
	.byte	7
	.byte	128
	.byte	8
	.byte	9
	.byte	128
	.byte	10
.LCPI21_14:
	.byte	128
	.byte	128
	.byte	0
	.byte	128
	.byte	128
	.byte	2
	.byte	128
	.byte	128
	.byte	4
	.byte	128
	.byte	128
	.byte	6
	.byte	128
	.byte	128
	.byte	8
	.byte	128
.LCPI21_15:
	.byte	6
	.byte	5
	.byte	8
	.byte	10
	.byte	9
	.byte	12
	.byte	14
	.byte	13
	.zero	1
	.zero	1
	.zero	1
	.zero	1
	.zero	1
	.zero	1
	.zero	1
	.zero	1
.LCPI21_16:
	.short	32960
	.short	32960
	.short	32960
	.short	32960
	.short	32960
	.short	32960
	.short	32960
	.short	32960
.LCPI21_17:
	.short	127
	.short	127
	.short	127
	.short	127
	.short	127
	.short	127
	.short	127
	.short	127
.LCPI21_18:
	.byte	252
	.byte	252
	.byte	252
	.byte	252
	.byte	252
	.byte	252
	.byte	252
	.byte	252
	.zero	1
	.zero	1
	.zero	1
	.zero	1
	.zero	1
	.zero	1
	.zero	1
	.zero	1
.LCPI21_19:
	.byte	216
	.byte	216
	.byte	216
	.byte	216
	.byte	216
	.byte	216
	.byte	216
	.byte	216
	.zero	1
	.zero	1
	.zero	1
	.zero	1
	.zero	1
	.zero	1
	.zero	1
	.zero	1
.LCPI21_20:
	.byte	220
	.byte	220
	.byte	220
	.byte	220
	.byte	220
	.byte	220
	.byte	220
	.byte	220
	.zero	1
	.zero	1
	.zero	1
	.zero	1
	.zero	1
	.zero	1
	.zero	1
	.zero	1
.LCPI21_21:
	.short	10240
	.short	10240
	.short	10240
	.short	10240
	.short	10240
	.short	10240
	.short	10240
	.short	10240
.LCPI21_22:
	.short	4095
	.short	4095
	.short	4095
	.short	4095
	.short	4095
	.short	4095
	.short	4095
	.short	4095
.LCPI21_23:
	.short	8192
	.short	8192
	.short	8192
	.short	8192
	.short	8192
	.short	8192
	.short	8192
	.short	8192
.LCPI21_24:
	.short	9216
	.short	9216
	.short	9216
	.short	9216
	.short	9216
	.short	9216
	.short	9216
	.short	9216
.LCPI21_25:
	.short	752
	.short	752
	.short	752
	.short	752
	.short	752
	.short	752
	.short	752
	.short	752
.LCPI21_26:
	.short	3072
	.short	3072
	.short	3072
	.short	3072
	.short	3072
	.short	3072
	.short	3072
	.short	3072
.LCPI21_27:
	.short	17408
	.short	17408
	.short	17408
	.short	17408
	.short	17408
	.short	17408
	.short	17408
	.short	17408
.LCPI21_28:
	.short	12288
	.short	12288
	.short	12288
	.short	12288
	.short	12288
	.short	12288
	.short	12288
	.short	12288
.LCPI21_29:
	.byte	216
	.byte	216
	.byte	216
	.byte	216
	.byte	216
	.byte	216
	.byte	216
	.zero	1
	.zero	1
	.zero	1
	.zero	1
	.zero	1
	.zero	1
	.zero	1
	.zero	1
	.zero	1
	.section	.text$025,"xr"
	.p2align	4
L_22:
	pushq	%rbp
	pushq	%r15
	pushq	%r14
	pushq	%r12
	pushq	%rbx
	movq	%rdx, %r8
	movq	%rsi, %rax
	movq	%rsi, %rdx
	shrq	%rdx
	leaq	(%rdx,%rdx,2), %rsi
	addq	$128, %rsi
	cmpq	%rcx, %rsi
	cmovbq	%rsi, %rcx
	cmpq	$16, %rax
	setae	%bl
	setb	%sil
	cmpq	$32, %rcx
	setb	%r9b
	orb	%sil, %r9b
	jne	.LBB21_1
	pxor	%xmm0, %xmm0
	xorl	%r11d, %r11d
	movq	%rax, %r10
	xorl	%esi, %esi
	xorl	%r9d, %r9d
	.p2align	4
.LBB21_3:
	movdqu	(%rdi,%r9), %xmm1
	testb	$1, %r11b
	jne	.LBB21_13
	movdqa	.LCPI21_0(%rip), %xmm2
	pmaxuw	%xmm1, %xmm2
	pcmpeqw	%xmm1, %xmm2
	pmovmskb	%xmm2, %ebx
	testl	%ebx, %ebx
	je	.LBB21_9
	movdqa	.LCPI21_1(%rip), %xmm2
	pand	%xmm1, %xmm2
	pcmpeqw	.LCPI21_2(%rip), %xmm2
	pmovmskb	%xmm2, %ebx
	testl	%ebx, %ebx
	je	.LBB21_6
.LBB21_13:
	movdqa	%xmm1, %xmm2
	psrlw	$8, %xmm2
	packuswb	%xmm2, %xmm2
	pand	.LCPI21_18(%rip), %xmm2
	movdqa	.LCPI21_19(%rip), %xmm3
	pcmpeqb	%xmm2, %xmm3
	pmovzxbw	%xmm3, %xmm3
	pxor	%xmm4, %xmm4
	packuswb	%xmm4, %xmm3
	pmovmskb	%xmm3, %ebx
	pcmpeqb	.LCPI21_20(%rip), %xmm2
	pmovmskb	%xmm2, %ebp
	movzbl	%bpl, %r14d
	leal	(%rbx,%rbx), %ebp
	movzbl	%bpl, %r15d
	orq	%r11, %r15
	cmpq	%r14, %r15
	jne	.LBB21_14
	movdqa	.LCPI21_21(%rip), %xmm2
	paddw	%xmm1, %xmm2
	pminuw	%xmm1, %xmm2
	movdqa	.LCPI21_0(%rip), %xmm3
	pmaxuw	%xmm2, %xmm3
	pcmpeqw	%xmm2, %xmm3
	pmovmskb	%xmm3, %r11d
	movdqa	%xmm1, %xmm3
	palignr	$14, %xmm0, %xmm3
	psllw	$10, %xmm3
	testl	%r11d, %r11d
	je	.LBB21_16
	movdqa	.LCPI21_4(%rip), %xmm4
	psubusw	%xmm1, %xmm4
	movdqa	.LCPI21_5(%rip), %xmm5
	pand	%xmm5, %xmm4
	movdqa	%xmm4, %xmm0
	psrlw	$3, %xmm0
	movdqa	.LCPI21_22(%rip), %xmm2
	pand	%xmm1, %xmm2
	por	%xmm0, %xmm2
	por	.LCPI21_23(%rip), %xmm2
	movdqa	.LCPI21_24(%rip), %xmm6
	paddw	%xmm1, %xmm6
	psrlw	$2, %xmm6
	psubusw	.LCPI21_25(%rip), %xmm6
	pand	.LCPI21_26(%rip), %xmm3
	paddw	%xmm1, %xmm3
	paddw	.LCPI21_27(%rip), %xmm3
	movdqa	.LCPI21_1(%rip), %xmm0
	pand	%xmm1, %xmm0
	pcmpeqw	.LCPI21_2(%rip), %xmm0
	pmaxuw	%xmm6, %xmm3
	pblendvb	%xmm0, %xmm3, %xmm2
	movdqa	%xmm2, %xmm3
	psllw	$8, %xmm2
	pand	.LCPI21_7(%rip), %xmm2
	psrlw	$6, %xmm3
	paddw	%xmm3, %xmm2
	por	%xmm5, %xmm2
	movdqa	%xmm1, %xmm6
	psllw	$8, %xmm6
	movdqa	%xmm1, %xmm3
	psrlw	$12, %xmm3
	por	%xmm6, %xmm3
	por	.LCPI21_9(%rip), %xmm3
	movdqa	.LCPI21_10(%rip), %xmm6
	psubusw	%xmm1, %xmm6
	pblendvb	%xmm0, %xmm5, %xmm4
	por	%xmm6, %xmm4
	pmovmskb	%xmm4, %r11d
	movdqa	%xmm3, %xmm0
	punpcklwd	%xmm2, %xmm0
	movzbl	%r11b, %r14d
	xorl	%r15d, %r15d
	popcntl	%r14d, %r15d
	shll	$4, %r14d
	leaq	.Lstatic.9(%rip), %r12
	movdqu	(%r14,%r12), %xmm4
	pshufb	%xmm4, %xmm0
	movdqu	%xmm0, (%r8,%rsi)
	subq	%r15, %rsi
	punpckhwd	%xmm2, %xmm3
	shrl	$8, %r11d
	xorl	%r14d, %r14d
	popcntl	%r11d, %r14d
	shll	$4, %r11d
	movdqu	(%r11,%r12), %xmm0
	pshufb	%xmm0, %xmm3
	movdqu	%xmm3, 12(%r8,%rsi)
	subq	%r14, %rsi
	addq	$24, %rsi
	jmp	.LBB21_18
	.p2align	4
.LBB21_16:
	movdqa	.LCPI21_28(%rip), %xmm2
	movdqa	.LCPI21_24(%rip), %xmm0
	paddw	%xmm1, %xmm0
	psrlw	$2, %xmm0
	psubusw	.LCPI21_25(%rip), %xmm0
	pand	.LCPI21_26(%rip), %xmm3
	paddw	%xmm1, %xmm2
	paddw	%xmm1, %xmm3
	paddw	.LCPI21_27(%rip), %xmm3
	pmaxuw	%xmm0, %xmm3
	pxor	%xmm0, %xmm0
	pcmpgtw	%xmm1, %xmm0
	pblendvb	%xmm0, %xmm3, %xmm2
	movdqa	%xmm2, %xmm0
	psrlw	$6, %xmm0
	psllw	$8, %xmm2
	pand	.LCPI21_7(%rip), %xmm2
	paddw	%xmm0, %xmm2
	por	.LCPI21_5(%rip), %xmm2
	movdqa	.LCPI21_17(%rip), %xmm0
	pminuw	%xmm1, %xmm0
	pcmpeqw	%xmm1, %xmm0
	pblendvb	%xmm0, %xmm1, %xmm2
	packsswb	%xmm0, %xmm0
	pmovmskb	%xmm0, %r11d
	movzbl	%r11b, %r11d
	xorl	%r14d, %r14d
	popcntl	%r11d, %r14d
	shll	$4, %r11d
	leaq	.Lstatic.8(%rip), %r15
	movdqu	(%r11,%r15), %xmm0
	pshufb	%xmm0, %xmm2
	movdqu	%xmm2, (%r8,%rsi)
	subq	%r14, %rsi
	addq	$16, %rsi
.LBB21_18:
	shrb	$7, %bl
	movzbl	%bl, %r11d
.LBB21_19:
	addq	$16, %r9
	addq	$-16, %r10
	cmpq	$16, %r10
	setae	%bl
	jb	.LBB21_21
	movq	%rcx, %r14
	subq	%rsi, %r14
	movdqa	%xmm1, %xmm0
	cmpq	$31, %r14
	ja	.LBB21_3
	jmp	.LBB21_21
.LBB21_9:
	movdqa	.LCPI21_12(%rip), %xmm0
	pmaxuw	%xmm1, %xmm0
	pcmpeqw	%xmm1, %xmm0
	pmovmskb	%xmm0, %r11d
	movdqa	%xmm1, %xmm0
	testl	%r11d, %r11d
	je	.LBB21_10
	psrlw	$6, %xmm0
	movdqa	%xmm1, %xmm2
	psllw	$8, %xmm2
	pand	.LCPI21_7(%rip), %xmm2
	paddw	%xmm0, %xmm2
	paddw	.LCPI21_16(%rip), %xmm2
	movdqa	.LCPI21_17(%rip), %xmm0
	pminuw	%xmm1, %xmm0
	pcmpeqw	%xmm1, %xmm0
	pblendvb	%xmm0, %xmm1, %xmm2
	packsswb	%xmm0, %xmm0
	pmovmskb	%xmm0, %r11d
	movzbl	%r11b, %r11d
	xorl	%ebx, %ebx
	popcntl	%r11d, %ebx
	shll	$4, %r11d
	leaq	.Lstatic.8(%rip), %r14
	movdqu	(%r11,%r14), %xmm0
	pshufb	%xmm0, %xmm2
	movdqu	%xmm2, (%r8,%rsi)
	subq	%rbx, %rsi
	addq	$16, %rsi
	xorl	%r11d, %r11d
	jmp	.LBB21_19
.LBB21_6:
	movdqa	.LCPI21_3(%rip), %xmm0
	pminuw	%xmm1, %xmm0
	pcmpeqw	%xmm1, %xmm0
	pmovmskb	%xmm0, %r11d
	movdqa	%xmm1, %xmm0
	psrlw	$12, %xmm0
	testl	%r11d, %r11d
	je	.LBB21_7
	movdqa	.LCPI21_4(%rip), %xmm3
	psubusw	%xmm1, %xmm3
	pand	.LCPI21_5(%rip), %xmm3
	movdqa	%xmm3, %xmm4
	movdqa	%xmm1, %xmm5
	psrlw	$6, %xmm5
	pand	.LCPI21_6(%rip), %xmm5
	psrlw	$9, %xmm4
	movdqa	%xmm1, %xmm2
	psllw	$8, %xmm2
	por	%xmm2, %xmm0
	pand	.LCPI21_7(%rip), %xmm2
	por	%xmm5, %xmm2
	por	%xmm4, %xmm2
	por	.LCPI21_8(%rip), %xmm2
	movdqa	.LCPI21_10(%rip), %xmm4
	psubusw	%xmm1, %xmm4
	por	%xmm3, %xmm4
	por	.LCPI21_9(%rip), %xmm0
	pmovmskb	%xmm4, %r11d
	movdqa	%xmm0, %xmm3
	punpcklwd	%xmm2, %xmm3
	movzbl	%r11b, %ebx
	xorl	%r14d, %r14d
	popcntl	%ebx, %r14d
	shll	$4, %ebx
	leaq	.Lstatic.9(%rip), %r15
	movdqu	(%rbx,%r15), %xmm4
	pshufb	%xmm4, %xmm3
	movdqu	%xmm3, (%r8,%rsi)
	subq	%r14, %rsi
	punpckhwd	%xmm2, %xmm0
	shrl	$8, %r11d
	xorl	%ebx, %ebx
	popcntl	%r11d, %ebx
	shll	$4, %r11d
	movdqu	(%r11,%r15), %xmm2
	pshufb	%xmm2, %xmm0
	movdqu	%xmm0, 12(%r8,%rsi)
	subq	%rbx, %rsi
	jmp	.LBB21_8
.LBB21_10:
	packuswb	%xmm0, %xmm0
	movq	%xmm0, (%r8,%rsi)
	addq	$8, %rsi
	xorl	%r11d, %r11d
	jmp	.LBB21_19
.LBB21_7:
	movdqa	%xmm1, %xmm2
	psllw	$2, %xmm2
	pand	.LCPI21_7(%rip), %xmm2
	por	%xmm2, %xmm0
	por	.LCPI21_11(%rip), %xmm0
	movdqa	.LCPI21_6(%rip), %xmm2
	pand	%xmm1, %xmm2
	por	.LCPI21_12(%rip), %xmm2
	movdqa	%xmm0, %xmm3
	pshufb	.LCPI21_13(%rip), %xmm3
	punpckhbw	%xmm2, %xmm0
	pshufb	.LCPI21_14(%rip), %xmm2
	por	%xmm3, %xmm2
	pshufb	.LCPI21_15(%rip), %xmm0
	movdqu	%xmm2, (%r8,%rsi)
	movq	%xmm0, 16(%r8,%rsi)
.LBB21_8:
	addq	$24, %rsi
	xorl	%r11d, %r11d
	jmp	.LBB21_19
.LBB21_1:
	pxor	%xmm1, %xmm1
	xorl	%r9d, %r9d
	xorl	%esi, %esi
	xorl	%r11d, %r11d
	movq	%rax, %r10
.LBB21_21:
	testb	$1, %al
	jne	.LBB21_44
.LBB21_22:
	cmpq	%r9, %rax
	je	.LBB21_44
	testb	%bl, %bl
	jne	.LBB21_44
	subq	%rsi, %rcx
	cmpq	$32, %rcx
	jb	.LBB21_44
	cmpq	$15, %rax
	ja	.LBB21_27
	leaq	-8(%rax), %rcx
	movq	-8(%rdi,%rax), %xmm0
	movq	(%rdi), %xmm2
	movdqa	%xmm2, %xmm3
	punpcklqdq	%xmm0, %xmm3
	shlq	$4, %rcx
	leaq	.Lstatic.10(%rip), %rdi
	movq	(%rcx,%rdi), %xmm0
	pshufb	%xmm0, %xmm3
	punpcklqdq	%xmm3, %xmm2
	jmp	.LBB21_28
.LBB21_27:
	movdqu	-16(%rdi,%rax), %xmm2
	shlq	$4, %r10
	leaq	.Lstatic.10(%rip), %rcx
	movdqu	(%r10,%rcx), %xmm0
	pshufb	%xmm0, %xmm2
.LBB21_28:
	movdqa	%xmm2, %xmm0
	psrlw	$8, %xmm0
	packuswb	%xmm0, %xmm0
	pand	.LCPI21_18(%rip), %xmm0
	movdqa	.LCPI21_29(%rip), %xmm3
	pcmpeqb	%xmm0, %xmm3
	pmovmskb	%xmm3, %ecx
	pcmpeqb	.LCPI21_20(%rip), %xmm0
	pmovmskb	%xmm0, %edi
	movzbl	%dil, %edi
	addl	%ecx, %ecx
	movzbl	%cl, %ecx
	orq	%r11, %rcx
	cmpq	%rdi, %rcx
	jne	.LBB21_44
	movdqa	.LCPI21_0(%rip), %xmm0
	pmaxuw	%xmm2, %xmm0
	pcmpeqw	%xmm2, %xmm0
	pmovmskb	%xmm0, %ecx
	testl	%ecx, %ecx
	je	.LBB21_34
	movdqa	.LCPI21_1(%rip), %xmm0
	pand	%xmm2, %xmm0
	pcmpeqw	.LCPI21_2(%rip), %xmm0
	pmovmskb	%xmm0, %ecx
	testl	%ecx, %ecx
	je	.LBB21_38
	movdqa	.LCPI21_21(%rip), %xmm3
	paddw	%xmm2, %xmm3
	pminuw	%xmm2, %xmm3
	movdqa	.LCPI21_0(%rip), %xmm4
	pmaxuw	%xmm3, %xmm4
	pcmpeqw	%xmm3, %xmm4
	pmovmskb	%xmm4, %ecx
	movdqa	%xmm2, %xmm3
	palignr	$14, %xmm1, %xmm3
	testl	%ecx, %ecx
	je	.LBB21_32
	movdqa	.LCPI21_4(%rip), %xmm4
	psubusw	%xmm2, %xmm4
	movdqa	.LCPI21_5(%rip), %xmm5
	pand	%xmm5, %xmm4
	movdqa	%xmm4, %xmm6
	psrlw	$3, %xmm6
	movdqa	.LCPI21_22(%rip), %xmm1
	pand	%xmm2, %xmm1
	por	%xmm6, %xmm1
	por	.LCPI21_23(%rip), %xmm1
	movdqa	.LCPI21_24(%rip), %xmm6
	paddw	%xmm2, %xmm6
	psrlw	$2, %xmm6
	psubusw	.LCPI21_25(%rip), %xmm6
	psllw	$10, %xmm3
	pand	.LCPI21_26(%rip), %xmm3
	paddw	%xmm2, %xmm3
	paddw	.LCPI21_27(%rip), %xmm3
	pmaxuw	%xmm6, %xmm3
	pblendvb	%xmm0, %xmm3, %xmm1
	movdqa	%xmm1, %xmm3
	psllw	$8, %xmm1
	pand	.LCPI21_7(%rip), %xmm1
	psrlw	$6, %xmm3
	paddw	%xmm3, %xmm1
	por	%xmm5, %xmm1
	movdqa	%xmm2, %xmm6
	psllw	$8, %xmm6
	movdqa	%xmm2, %xmm3
	psrlw	$12, %xmm3
	por	%xmm6, %xmm3
	por	.LCPI21_9(%rip), %xmm3
	movdqa	.LCPI21_10(%rip), %xmm6
	psubusw	%xmm2, %xmm6
	pblendvb	%xmm0, %xmm5, %xmm4
	por	%xmm6, %xmm4
	pmovmskb	%xmm4, %ecx
	movdqa	%xmm3, %xmm0
	punpcklwd	%xmm1, %xmm0
	movzbl	%cl, %edi
	popcntl	%edi, %r9d
	shll	$4, %edi
	leaq	.Lstatic.9(%rip), %r10
	movdqu	(%rdi,%r10), %xmm2
	pshufb	%xmm2, %xmm0
	movdqu	%xmm0, (%r8,%rsi)
	subq	%r9, %rsi
	punpckhwd	%xmm1, %xmm3
	shrl	$8, %ecx
	xorl	%edi, %edi
	popcntl	%ecx, %edi
	shll	$4, %ecx
	movdqu	(%rcx,%r10), %xmm0
	pshufb	%xmm0, %xmm3
	movdqu	%xmm3, 12(%r8,%rsi)
	jmp	.LBB21_41
.LBB21_14:
	movb	$1, %bl
	movdqa	%xmm0, %xmm1
	testb	$1, %al
	je	.LBB21_22
.LBB21_44:
	leaq	-2(%r9), %rax
	leaq	-2(%rsi), %rdx
	testb	$1, %r11b
	cmoveq	%rsi, %rdx
	cmoveq	%r9, %rax
	jmp	.LBB21_45
.LBB21_34:
	movdqa	.LCPI21_12(%rip), %xmm0
	pmaxuw	%xmm2, %xmm0
	pcmpeqw	%xmm2, %xmm0
	pmovmskb	%xmm0, %ecx
	testl	%ecx, %ecx
	je	.LBB21_35
	movdqa	%xmm2, %xmm0
	psrlw	$6, %xmm0
	movdqa	%xmm2, %xmm1
	psllw	$8, %xmm1
	pand	.LCPI21_7(%rip), %xmm1
	paddw	%xmm0, %xmm1
	paddw	.LCPI21_16(%rip), %xmm1
	jmp	.LBB21_37
.LBB21_38:
	movdqa	.LCPI21_3(%rip), %xmm0
	pminuw	%xmm2, %xmm0
	pcmpeqw	%xmm2, %xmm0
	pmovmskb	%xmm0, %ecx
	testl	%ecx, %ecx
	je	.LBB21_39
	movdqa	.LCPI21_4(%rip), %xmm0
	psubusw	%xmm2, %xmm0
	pand	.LCPI21_5(%rip), %xmm0
	movdqa	.LCPI21_10(%rip), %xmm1
	psubusw	%xmm2, %xmm1
	por	%xmm0, %xmm1
	psrlw	$9, %xmm0
	movdqa	%xmm2, %xmm3
	psrlw	$6, %xmm3
	pand	.LCPI21_6(%rip), %xmm3
	movdqa	%xmm2, %xmm4
	psllw	$8, %xmm4
	movdqa	.LCPI21_7(%rip), %xmm5
	pand	%xmm4, %xmm5
	por	%xmm3, %xmm5
	por	%xmm0, %xmm5
	por	.LCPI21_8(%rip), %xmm5
	psrlw	$12, %xmm2
	por	%xmm4, %xmm2
	por	.LCPI21_9(%rip), %xmm2
	pmovmskb	%xmm1, %ecx
	movdqa	%xmm2, %xmm0
	punpcklwd	%xmm5, %xmm0
	movzbl	%cl, %edi
	popcntl	%edi, %r9d
	shll	$4, %edi
	leaq	.Lstatic.9(%rip), %r10
	movdqu	(%rdi,%r10), %xmm1
	pshufb	%xmm1, %xmm0
	movdqu	%xmm0, (%r8,%rsi)
	subq	%r9, %rsi
	punpckhwd	%xmm5, %xmm2
	shrl	$8, %ecx
	xorl	%edi, %edi
	popcntl	%ecx, %edi
	shll	$4, %ecx
	movdqu	(%rcx,%r10), %xmm0
	pshufb	%xmm0, %xmm2
	movdqu	%xmm2, 12(%r8,%rsi)
.LBB21_41:
	subq	%rdi, %rsi
.LBB21_42:
	addq	$24, %rsi
	jmp	.LBB21_43
.LBB21_32:
	movdqa	.LCPI21_24(%rip), %xmm0
	paddw	%xmm2, %xmm0
	psrlw	$2, %xmm0
	psubusw	.LCPI21_25(%rip), %xmm0
	movdqa	.LCPI21_28(%rip), %xmm1
	psllw	$10, %xmm3
	pand	.LCPI21_26(%rip), %xmm3
	paddw	%xmm2, %xmm1
	paddw	%xmm2, %xmm3
	paddw	.LCPI21_27(%rip), %xmm3
	pmaxuw	%xmm0, %xmm3
	pxor	%xmm0, %xmm0
	pcmpgtw	%xmm2, %xmm0
	pblendvb	%xmm0, %xmm3, %xmm1
	movdqa	%xmm1, %xmm0
	psrlw	$6, %xmm0
	psllw	$8, %xmm1
	pand	.LCPI21_7(%rip), %xmm1
	paddw	%xmm0, %xmm1
	por	.LCPI21_5(%rip), %xmm1
.LBB21_37:
	movdqa	.LCPI21_17(%rip), %xmm0
	pminuw	%xmm2, %xmm0
	pcmpeqw	%xmm2, %xmm0
	pblendvb	%xmm0, %xmm2, %xmm1
	packsswb	%xmm0, %xmm0
	pmovmskb	%xmm0, %ecx
	movzbl	%cl, %ecx
	xorl	%edi, %edi
	popcntl	%ecx, %edi
	shll	$4, %ecx
	leaq	.Lstatic.8(%rip), %r9
	movdqu	(%rcx,%r9), %xmm0
	pshufb	%xmm0, %xmm1
	movdqu	%xmm1, (%r8,%rsi)
	subq	%rdi, %rsi
	addq	$16, %rsi
	jmp	.LBB21_43
.LBB21_35:
	packuswb	%xmm2, %xmm2
	movq	%xmm2, (%r8,%rsi)
	addq	$8, %rsi
.LBB21_43:
	orq	$-8, %rdx
	addq	%rsi, %rdx
.LBB21_45:
	popq	%rbx
	popq	%r12
	popq	%r14
	popq	%r15
	popq	%rbp
	retq
.LBB21_39:
	movdqa	%xmm2, %xmm0
	movdqa	%xmm2, %xmm1
	psllw	$2, %xmm1
	pand	.LCPI21_7(%rip), %xmm1
	psrlw	$12, %xmm0
	por	%xmm0, %xmm1
	por	.LCPI21_11(%rip), %xmm1
	pand	.LCPI21_6(%rip), %xmm2
	por	.LCPI21_12(%rip), %xmm2
	movdqa	%xmm1, %xmm0
	pshufb	.LCPI21_13(%rip), %xmm0
	punpckhbw	%xmm2, %xmm1
	pshufb	.LCPI21_14(%rip), %xmm2
	por	%xmm0, %xmm2
	movdqu	%xmm2, (%r8,%rsi)
	pshufb	.LCPI21_15(%rip), %xmm1
	movq	%xmm1, 16(%r8,%rsi)
	jmp	.LBB21_42
.Lfunc_end21:

	.section	.rdata$004,"dr"
	.p2align	4, 0x0
.LCPI22_0:
	.short	128
	.short	128
	.short	128
	.short	128
	.short	128
	.short	128
	.short	128
	.short	128
	.section	.text$026,"xr"
	.p2align	4
L_23:
	pushq	%rbp
	pushq	%r15
	pushq	%r14
	pushq	%r13
	pushq	%r12
	pushq	%rbx
	subq	$392, %rsp
	movq	%r9, %rbp
	movq	%r8, %r13
	movq	%rdx, %r14
	movq	448(%rsp), %r8
	subq	%r9, %rdx
	cmpq	$2, %rdx
	jae	.LBB22_3
.LBB22_1:
	movb	$2, %al
	xorl	%ecx, %ecx
.LBB22_2:
	movq	%rbp, (%rdi)
	movq	%r8, 8(%rdi)
	movb	%al, 16(%rdi)
	movb	%cl, 17(%rdi)
	jmp	.LBB22_98
.LBB22_3:
	movq	%rcx, %r12
	movq	%rsi, %rbx
	movzbl	1(%rsi,%rbp), %eax
	movl	%eax, %ecx
	andl	$-8, %ecx
	cmpl	$216, %ecx
	jne	.LBB22_7
	movzwl	%ax, %esi
	notl	%esi
	movb	$2, %cl
	movb	$1, %al
	testb	$-36, %sil
	je	.LBB22_2
	cmpq	$4, %rdx
	jb	.LBB22_1
	movzbl	3(%rbx,%rbp), %edx
	andb	$-4, %dl
	movb	$2, %cl
	cmpb	$-36, %dl
	jne	.LBB22_2
.LBB22_7:
	movq	%rdi, 32(%rsp)
	cmpq	%rbp, %r14
	jbe	.LBB22_94
	movq	%r13, %rax
	negq	%rax
	movq	%rax, 56(%rsp)
	movq	%r13, 16(%rsp)
	movq	%r14, 40(%rsp)
	movq	%r12, 24(%rsp)
	movq	%rbx, 8(%rsp)
	jmp	.LBB22_11
	.p2align	4
.LBB22_9:
	movb	%al, (%r12,%r8)
	incq	%r8
.LBB22_10:
	addq	%r15, %rbp
	cmpq	%r14, %rbp
	jae	.LBB22_94
.LBB22_11:
	addq	%rbp, %rbx
	movq	%r14, %r15
	subq	%rbp, %r15
	cmpq	$66, %r15
	jb	.LBB22_20
	leaq	(%r12,%r8), %r14
	movq	%r8, (%rsp)
	subq	%r8, %r13
	pxor	%xmm0, %xmm0
	movdqa	%xmm0, 128(%rsp)
	movdqa	%xmm0, 112(%rsp)
	movq	$0, 144(%rsp)
	movq	%r15, %rax
	shrq	%rax
	leaq	(%rax,%rax,2), %r8
	addq	$128, %r8
	cmpq	%r13, %r8
	cmovaeq	%r13, %r8
	leaq	112(%rsp), %rdi
	movq	%rbx, %rsi
	movq	%r15, %rdx
	movq	%r14, %rcx
	callq	L_25
	movq	112(%rsp), %rcx
	movq	120(%rsp), %rsi
	leaq	-2(%rcx), %rdx
	leaq	-2(%rsi), %rax
	testb	$1, 144(%rsp)
	cmoveq	%rsi, %rax
	cmoveq	%rcx, %rdx
	movq	%r15, %rcx
	subq	%rdx, %rcx
	shrq	%rcx
	subq	%rax, %r13
	cmpq	%rcx, %r13
	cmovaeq	%rcx, %r13
	movq	%rax, %rcx
	movq	%rdx, %r12
	cmpq	$8, %r13
	jb	.LBB22_16
	leaq	(,%r13,2), %rsi
	movq	%rdx, %r12
	movq	%rax, %rcx
	.p2align	4
.LBB22_14:
	movdqu	(%rbx,%r12), %xmm0
	movdqa	.LCPI22_0(%rip), %xmm1
	pmaxuw	%xmm0, %xmm1
	pcmpeqw	%xmm0, %xmm1
	pmovmskb	%xmm1, %edi
	testl	%edi, %edi
	jne	.LBB22_39
	packuswb	%xmm0, %xmm0
	movq	%xmm0, (%r14,%rcx)
	addq	$16, %r12
	addq	$8, %rcx
	addq	$-16, %rsi
	cmpq	$15, %rsi
	ja	.LBB22_14
.LBB22_16:
	leaq	(%rdx,%r13,2), %rdx
	cmpq	$16, %rdx
	jb	.LBB22_39
	cmpq	%r12, %rdx
	movq	(%rsp), %r8
	jbe	.LBB22_40
	movdqu	-16(%rbx,%rdx), %xmm0
	movdqa	.LCPI22_0(%rip), %xmm1
	pmaxuw	%xmm0, %xmm1
	pcmpeqw	%xmm0, %xmm1
	pmovmskb	%xmm1, %esi
	testl	%esi, %esi
	jne	.LBB22_40
	addq	%rax, %r13
	packuswb	%xmm0, %xmm0
	movq	%xmm0, -8(%r14,%r13)
	movq	%rdx, %r12
	movq	%r13, %rcx
	jmp	.LBB22_40
	.p2align	4
.LBB22_20:
	xorl	%r12d, %r12d
	movq	%r15, %r13
	subq	%r12, %r13
	je	.LBB22_41
.LBB22_21:
	addq	%r12, %rbx
	cmpq	$7, %r13
	ja	.LBB22_24
.LBB22_22:
	movq	%rbx, %rdi
	movq	%r13, %rsi
	movq	24(%rsp), %rdx
	movq	16(%rsp), %r13
	movq	%r13, %rcx
.LBB22_23:
	callq	L_26
	movq	%rax, %r15
	movq	%rdx, %r14
	jmp	.LBB22_37
	.p2align	4
.LBB22_24:
	cmpq	$128, %r13
	movl	$128, %esi
	cmovbq	%r13, %rsi
	movq	16(%rsp), %r14
	subq	%r8, %r14
	xorl	%eax, %eax
	movq	%r14, %rcx
	subq	$128, %rcx
	cmovaeq	%rcx, %rax
	movabsq	$-6148914691236517205, %rcx
	mulq	%rcx
	andq	$-2, %rdx
	cmpq	%rdx, %rsi
	jbe	.LBB22_34
	cmpq	$23, %r14
	jbe	.LBB22_22
	movq	%r8, (%rsp)
	leaq	112(%rsp), %rdi
	movl	$276, %edx
	xorl	%esi, %esi
	callq	sysv_memset
	cmpq	$65, %r13
	ja	.LBB22_58
	cmpq	$64, %r13
	movl	$64, %esi
	cmovbq	%r13, %rsi
	movq	%rbx, %rdi
	callq	L_27
	movq	%rax, %r15
	leaq	112(%rsp), %rdx
	movq	%rbx, %rdi
	movq	%rax, %rsi
	callq	L_28
	cmpq	%r14, %rax
	jbe	.LBB22_73
	movq	8(%rsp), %rbx
	.p2align	4
.LBB22_29:
	cmpb	$-65, 112(%rsp,%r14)
	jg	.LBB22_32
	decq	%r14
	jne	.LBB22_29
	xorl	%r14d, %r14d
.LBB22_32:
	leaq	112(%rsp), %rdi
	movq	%r14, %rsi
	callq	L_16
	movq	%rax, %r15
	movq	16(%rsp), %r13
	jmp	.LBB22_74
.LBB22_39:
	movq	(%rsp), %r8
.LBB22_40:
	addq	%rcx, %r8
	movq	40(%rsp), %r14
	movq	%r15, %r13
	subq	%r12, %r13
	jne	.LBB22_21
.LBB22_41:
	movq	16(%rsp), %r13
	movq	8(%rsp), %rbx
	jmp	.LBB22_42
.LBB22_34:
	movq	%r8, %r14
	movq	%rbx, %rdi
	callq	L_27
	movq	%rax, %r15
	testq	%rax, %rax
	je	.LBB22_36
	movq	24(%rsp), %rax
	leaq	(%rax,%r14), %rdx
	movq	%rbx, %rdi
	movq	%r15, %rsi
	callq	L_28
	addq	%rax, %r14
.LBB22_36:
	movq	16(%rsp), %r13
.LBB22_37:
	movq	8(%rsp), %rbx
.LBB22_38:
	addq	%r12, %r15
	movq	%r14, %r8
	movq	40(%rsp), %r14
.LBB22_42:
	addq	%rbp, %r15
	movq	%r14, %rdx
	subq	%r15, %rdx
	movq	24(%rsp), %r12
	je	.LBB22_93
	cmpq	$2, %rdx
	jb	.LBB22_92
	movzbl	1(%rbx,%r15), %eax
	movzwl	%ax, %ecx
	andl	$-8, %eax
	cmpl	$216, %eax
	jne	.LBB22_48
	movl	%ecx, %esi
	notl	%esi
	movb	$1, %al
	testb	$-36, %sil
	je	.LBB22_100
	cmpq	$4, %rdx
	jb	.LBB22_92
	movzbl	3(%rbx,%r15), %edx
	andb	$-4, %dl
	cmpb	$-36, %dl
	jne	.LBB22_100
.LBB22_48:
	movzbl	(%rbx,%r15), %edx
	movl	%ecx, %eax
	shll	$8, %eax
	orl	%edx, %eax
	andl	$-4, %ecx
	cmpl	$216, %ecx
	jne	.LBB22_50
	movzwl	2(%rbx,%r15), %esi
	movl	%eax, %edi
	movq	%r8, %rbp
	callq	L_17
	movq	%rbp, %r8
	movl	$4, %ebp
	jmp	.LBB22_51
	.p2align	4
.LBB22_50:
	movl	$2, %ebp
.LBB22_51:
	movq	%r13, %rcx
	subq	%r8, %rcx
	cmpl	$65536, %eax
	movl	$4, %edx
	sbbq	$0, %rdx
	cmpl	$2048, %eax
	movl	$2, %esi
	cmovaeq	%rdx, %rsi
	cmpl	$128, %eax
	movl	$1, %edx
	cmovaeq	%rsi, %rdx
	cmpq	%rdx, %rcx
	jb	.LBB22_95
	cmpl	$127, %eax
	jbe	.LBB22_9
	movl	%eax, %ecx
	andb	$63, %cl
	orb	$-128, %cl
	cmpl	$2047, %eax
	ja	.LBB22_55
	shrl	$6, %eax
	movzbl	%cl, %ecx
	shll	$8, %ecx
	orl	%eax, %ecx
	orl	$192, %ecx
	movw	%cx, (%r12,%r8)
	addq	$2, %r8
	jmp	.LBB22_10
.LBB22_55:
	movl	%eax, %edx
	cmpl	$65535, %eax
	ja	.LBB22_57
	shrl	$6, %edx
	andb	$63, %dl
	orb	$-128, %dl
	shrl	$12, %eax
	orb	$-32, %al
	movb	%al, (%r12,%r8)
	movb	%dl, 1(%r12,%r8)
	movb	%cl, 2(%r12,%r8)
	addq	$3, %r8
	jmp	.LBB22_10
.LBB22_57:
	shrl	$18, %edx
	addl	$240, %edx
	movzbl	%cl, %ecx
	shll	$24, %ecx
	movl	%eax, %esi
	shll	$10, %esi
	andl	$4128768, %esi
	orl	%ecx, %esi
	shrl	$4, %eax
	andl	$16128, %eax
	orl	%esi, %eax
	movzbl	%dl, %ecx
	addl	%ecx, %eax
	addl	$8421376, %eax
	movl	%eax, (%r12,%r8)
	addq	$4, %r8
	jmp	.LBB22_10
.LBB22_58:
	movzbl	1(%rbx), %ecx
	movzwl	%cx, %eax
	andl	$-8, %ecx
	cmpl	$216, %ecx
	jne	.LBB22_61
	movl	%eax, %ecx
	notl	%ecx
	testb	$-36, %cl
	je	.LBB22_72
	movzbl	3(%rbx), %ecx
	andb	$-4, %cl
	cmpb	$-36, %cl
	jne	.LBB22_72
.LBB22_61:
	andl	$-4, %eax
	xorl	%ecx, %ecx
	cmpl	$216, %eax
	sete	%cl
	movzbl	3(%rbx,%rcx,2), %eax
	movl	%eax, %edx
	andl	$-8, %edx
	cmpl	$216, %edx
	jne	.LBB22_64
	movzwl	%ax, %eax
	notl	%eax
	testb	$-36, %al
	je	.LBB22_72
	leaq	2(,%rcx,2), %rax
	movzbl	3(%rbx,%rax), %eax
	andb	$-4, %al
	cmpb	$-36, %al
	jne	.LBB22_72
.LBB22_64:
	xorl	%r15d, %r15d
	cmpq	$65, %r14
	setae	%r15b
	shll	$6, %r15d
	addq	$66, %r15
	cmpq	%r13, %r15
	cmovaeq	%r13, %r15
	pxor	%xmm0, %xmm0
	movdqa	%xmm0, 80(%rsp)
	movdqa	%xmm0, 64(%rsp)
	movq	$0, 96(%rsp)
	movl	%r15d, %eax
	shrl	%eax
	leaq	(%rax,%rax,2), %rax
	cmpq	$148, %rax
	movl	$148, %r8d
	cmovbq	%rax, %r8
	subq	$-128, %r8
	leaq	64(%rsp), %rdi
	leaq	112(%rsp), %rcx
	movq	%rbx, %rsi
	movq	%r15, %rdx
	callq	L_25
	movq	64(%rsp), %rcx
	movq	72(%rsp), %rsi
	leaq	-2(%rcx), %r8
	leaq	-2(%rsi), %rax
	testb	$1, 96(%rsp)
	cmoveq	%rsi, %rax
	cmoveq	%rcx, %r8
	subq	%r8, %r15
	shrq	%r15
	movl	$276, %ecx
	subq	%rax, %rcx
	cmpq	%r15, %rcx
	cmovaeq	%r15, %rcx
	movq	%rax, %rdx
	movq	%r8, %r15
	cmpq	$8, %rcx
	movq	16(%rsp), %r13
	jb	.LBB22_68
	leaq	(%rcx,%rcx), %rsi
	movq	%r8, %r15
	movq	%rax, %rdx
.LBB22_66:
	movdqu	(%rbx,%r15), %xmm0
	movdqa	.LCPI22_0(%rip), %xmm1
	pmaxuw	%xmm0, %xmm1
	pcmpeqw	%xmm0, %xmm1
	pmovmskb	%xmm1, %edi
	testl	%edi, %edi
	jne	.LBB22_76
	packuswb	%xmm0, %xmm0
	movq	%xmm0, 112(%rsp,%rdx)
	addq	$16, %r15
	addq	$8, %rdx
	addq	$-16, %rsi
	cmpq	$15, %rsi
	ja	.LBB22_66
.LBB22_68:
	leaq	(%r8,%rcx,2), %r8
	cmpq	$16, %r8
	jb	.LBB22_76
	cmpq	%r15, %r8
	movq	(%rsp), %rdi
	jbe	.LBB22_77
	movdqu	-16(%rbx,%r8), %xmm0
	movdqa	.LCPI22_0(%rip), %xmm1
	pmaxuw	%xmm0, %xmm1
	pcmpeqw	%xmm0, %xmm1
	pmovmskb	%xmm1, %esi
	testl	%esi, %esi
	jne	.LBB22_77
	addq	%rax, %rcx
	packuswb	%xmm0, %xmm0
	movq	%xmm0, 104(%rsp,%rcx)
	movq	%r8, %r15
	movq	%rcx, %rdx
	jmp	.LBB22_77
.LBB22_72:
	movq	%rbx, %rdi
	movq	%r13, %rsi
	movq	24(%rsp), %rdx
	movq	16(%rsp), %r13
	movq	%r13, %rcx
	movq	(%rsp), %r8
	jmp	.LBB22_23
.LBB22_73:
	movq	%rax, %r14
	movq	16(%rsp), %r13
	movq	8(%rsp), %rbx
.LBB22_74:
	movq	(%rsp), %rcx
	movq	24(%rsp), %rax
	leaq	(%rax,%rcx), %rdi
	leaq	112(%rsp), %rsi
	movq	%r14, %rdx
	callq	sysv_memcpy
	addq	(%rsp), %r14
	jmp	.LBB22_38
.LBB22_76:
	movq	(%rsp), %rdi
.LBB22_77:
	cmpq	%r14, %rdx
	jbe	.LBB22_82
.LBB22_78:
	cmpb	$-65, 112(%rsp,%r14)
	jg	.LBB22_81
	decq	%r14
	jne	.LBB22_78
	xorl	%r14d, %r14d
.LBB22_81:
	leaq	112(%rsp), %rdi
	movq	%r14, %rsi
	callq	L_16
	movq	%rax, %r15
	movq	%r14, %rdx
	movq	(%rsp), %rdi
.LBB22_82:
	movq	%rdx, 48(%rsp)
	leaq	(%rdx,%rdi), %r14
	movq	24(%rsp), %rax
	addq	%rax, %rdi
	leaq	112(%rsp), %rsi
	callq	sysv_memcpy
	testq	%r15, %r15
	jne	.LBB22_37
	movl	$64, %esi
	movq	%rbx, %rdi
	callq	L_27
	movq	%rax, %r15
	leaq	112(%rsp), %rdx
	movq	%rbx, %rdi
	movq	%rax, %rsi
	callq	L_28
	movq	%r13, %rbx
	subq	%r14, %rbx
	cmpq	%rbx, %rax
	jbe	.LBB22_90
	testq	%rbx, %rbx
	je	.LBB22_88
	movq	48(%rsp), %rax
	addq	56(%rsp), %rax
	addq	(%rsp), %rax
.LBB22_86:
	cmpb	$-65, 112(%rsp,%rbx)
	jg	.LBB22_89
	decq	%rbx
	incq	%rax
	jne	.LBB22_86
.LBB22_88:
	xorl	%ebx, %ebx
.LBB22_89:
	leaq	112(%rsp), %rdi
	movq	%rbx, %rsi
	callq	L_16
	movq	%rax, %r15
	jmp	.LBB22_91
.LBB22_90:
	movq	%rax, %rbx
.LBB22_91:
	movq	24(%rsp), %rax
	leaq	(%rax,%r14), %rdi
	leaq	112(%rsp), %rsi
	movq	%rbx, %rdx
	callq	sysv_memcpy
	addq	%rbx, %r14
	jmp	.LBB22_37
.LBB22_92:
	movb	$2, %al
	jmp	.LBB22_96
.LBB22_93:
	movq	%r14, %rbp
.LBB22_94:
	movq	32(%rsp), %rax
	movq	%rbp, (%rax)
	movq	%r8, 8(%rax)
	movw	$0, 16(%rax)
	jmp	.LBB22_98
.LBB22_100:
	movb	$2, %cl
	jmp	.LBB22_97
.LBB22_95:
	movb	$3, %al
.LBB22_96:
	xorl	%ecx, %ecx
.LBB22_97:
	movq	32(%rsp), %rdx
	movq	%r15, (%rdx)
	movq	%r8, 8(%rdx)
	movb	%al, 16(%rdx)
	movb	%cl, 17(%rdx)
.LBB22_98:
	addq	$392, %rsp
	popq	%rbx
	popq	%r12
	popq	%r13
	popq	%r14
	popq	%r15
	popq	%rbp
	retq
.Lfunc_end22:

	.section	.rdata$004,"dr"
	.p2align	4, 0x0
.LCPI23_0:
	.short	65408
	.short	65408
	.short	65408
	.short	65408
	.short	65408
	.short	65408
	.short	65408
	.short	65408
.LCPI23_1:
	.short	63488
	.short	63488
	.short	63488
	.short	63488
	.short	63488
	.short	63488
	.short	63488
	.short	63488
.LCPI23_2:
	.short	10240
	.short	10240
	.short	10240
	.short	10240
	.short	10240
	.short	10240
	.short	10240
	.short	10240
.LCPI23_3:
	.short	2047
	.short	2047
	.short	2047
	.short	2047
	.short	2047
	.short	2047
	.short	2047
	.short	2047
.LCPI23_4:
	.short	224
	.short	224
	.short	224
	.short	224
	.short	224
	.short	224
	.short	224
	.short	224
.LCPI23_5:
	.short	34815
	.short	34815
	.short	34815
	.short	34815
	.short	34815
	.short	34815
	.short	34815
	.short	34815
.LCPI23_6:
	.short	32768
	.short	32768
	.short	32768
	.short	32768
	.short	32768
	.short	32768
	.short	32768
	.short	32768
.LCPI23_7:
	.short	63
	.short	63
	.short	63
	.short	63
	.short	63
	.short	63
	.short	63
	.short	63
.LCPI23_8:
	.short	16128
	.short	16128
	.short	16128
	.short	16128
	.short	16128
	.short	16128
	.short	16128
	.short	16128
.LCPI23_9:
	.zero	16,128
.LCPI23_10:
	.short	255
	.short	255
	.short	255
	.short	255
	.short	255
	.short	255
	.short	255
	.short	255
.LCPI23_11:
	.short	32992
	.short	32992
	.short	32992
	.short	32992
	.short	32992
	.short	32992
	.short	32992
	.short	32992
.LCPI23_12:
	.short	128
	.short	128
	.short	128
	.short	128
	.short	128
	.short	128
	.short	128
	.short	128
.LCPI23_13:
	.byte	128
	.byte	128
	.byte	0
	.byte	128
	.byte	128
	.byte	2
	.byte	128
	.byte	128
	.byte	4
	.byte	128
	.byte	128
	.byte	6
	.byte	128
	.byte	128
	.byte	8
	.byte	128
.LCPI23_14:
	.byte	0
	.byte	1
	.byte	128
	.byte	2
	.byte	3
	.byte	128
	.byte	4
	.byte	5
	.byte	128
	.byte	6
	.byte	7
	.byte	128
	.byte	8
	.byte	9
	.byte	128
	.byte	10
.LCPI23_15:
	.byte	6
	.byte	5
	.byte	8
	.byte	10
	.byte	9
	.byte	12
	.byte	14
	.byte	13
	.zero	1
	.zero	1
	.zero	1
	.zero	1
	.zero	1
	.zero	1
	.zero	1
	.zero	1
.LCPI23_16:
	.short	32960
	.short	32960
	.short	32960
	.short	32960
	.short	32960
	.short	32960
	.short	32960
	.short	32960
.LCPI23_17:
	.short	127
	.short	127
	.short	127
	.short	127
	.short	127
	.short	127
	.short	127
	.short	127
.LCPI23_18:
	.zero	16,252
.LCPI23_19:
	.zero	16,216
.LCPI23_20:
	.zero	16,220
.LCPI23_21:
	.short	12288
	.short	12288
	.short	12288
	.short	12288
	.short	12288
	.short	12288
	.short	12288
	.short	12288
.LCPI23_22:
	.short	9216
	.short	9216
	.short	9216
	.short	9216
	.short	9216
	.short	9216
	.short	9216
	.short	9216
.LCPI23_23:
	.short	752
	.short	752
	.short	752
	.short	752
	.short	752
	.short	752
	.short	752
	.short	752
.LCPI23_24:
	.short	3072
	.short	3072
	.short	3072
	.short	3072
	.short	3072
	.short	3072
	.short	3072
	.short	3072
.LCPI23_25:
	.short	17408
	.short	17408
	.short	17408
	.short	17408
	.short	17408
	.short	17408
	.short	17408
	.short	17408
.LCPI23_26:
	.byte	6
	.byte	5
	.byte	8
	.byte	10
	.byte	9
	.byte	12
	.byte	14
	.byte	13
	.byte	0
	.byte	0
	.byte	0
	.byte	0
	.byte	0
	.byte	0
	.byte	0
	.byte	0
	.section	.text$027,"xr"
	.p2align	4
L_25:
	pushq	%rbp
	pushq	%r15
	pushq	%r14
	pushq	%r13
	pushq	%r12
	pushq	%rbx
	subq	$104, %rsp
	movq	%rcx, %r15
	cmpq	$64, %rdx
	setb	%al
	cmpq	$128, %r8
	setb	%cl
	orb	%al, %cl
	je	.LBB23_2
	pxor	%xmm0, %xmm0
	movdqu	%xmm0, 16(%rdi)
	movdqu	%xmm0, (%rdi)
	movq	$0, 32(%rdi)
	jmp	.LBB23_65
.LBB23_2:
	movq	%r8, %r14
	movq	%rdx, %r12
	movq	%rsi, %r13
	movq	%rdi, 72(%rsp)
	addq	$-128, %r14
	addq	$-64, %r12
	pxor	%xmm1, %xmm1
	xorl	%ebp, %ebp
	xorl	%eax, %eax
	xorl	%ebx, %ebx
	jmp	.LBB23_5
	.p2align	4
.LBB23_3:
	movq	%r15, %rdi
	movq	%rax, %rsi
	movdqa	%xmm0, %xmm1
	movl	$5, %edx
	movdqa	%xmm11, 16(%rsp)
	movdqa	%xmm3, 48(%rsp)
	movdqa	%xmm2, 32(%rsp)
	callq	L_18
	movq	%r15, %rdi
	movq	%rax, %rsi
	movdqa	32(%rsp), %xmm0
	movaps	48(%rsp), %xmm1
	movdqa	16(%rsp), %xmm2
	movdqa	(%rsp), %xmm3
	movl	$5, %edx
	callq	L_18
	addq	$64, %rbx
	movdqa	(%rsp), %xmm1
.LBB23_4:
	cmpq	%r12, %rbx
	ja	.LBB23_64
.LBB23_5:
	testb	$1, %bpl
	jne	.LBB23_40
	cmpq	%rax, %r14
	jb	.LBB23_40
	.p2align	4
.LBB23_7:
	movdqu	(%r13,%rbx), %xmm2
	movdqu	16(%r13,%rbx), %xmm3
	movdqu	32(%r13,%rbx), %xmm12
	movdqu	48(%r13,%rbx), %xmm0
	movdqa	%xmm3, %xmm5
	por	%xmm0, %xmm5
	movdqa	%xmm2, %xmm4
	por	%xmm12, %xmm4
	por	%xmm5, %xmm4
	ptest	.LCPI23_0(%rip), %xmm4
	jne	.LBB23_10
	packuswb	%xmm0, %xmm12
	packuswb	%xmm3, %xmm2
	movdqu	%xmm2, (%r15,%rax)
	movdqu	%xmm12, 16(%r15,%rax)
	addq	$32, %rax
	addq	$64, %rbx
	cmpq	%r12, %rbx
	ja	.LBB23_41
	movdqa	%xmm0, %xmm1
	cmpq	%rax, %r14
	jae	.LBB23_7
	jmp	.LBB23_41
	.p2align	4
.LBB23_40:
	movdqa	%xmm1, %xmm0
.LBB23_41:
	cmpq	%rbx, %r12
	jb	.LBB23_63
	cmpq	%rax, %r14
	jb	.LBB23_63
	movdqu	(%r13,%rbx), %xmm2
	movdqu	16(%r13,%rbx), %xmm3
	movdqu	32(%r13,%rbx), %xmm11
	movdqu	48(%r13,%rbx), %xmm9
	movdqa	%xmm3, %xmm1
	psrlw	$8, %xmm1
	movdqa	%xmm2, %xmm5
	psrlw	$8, %xmm5
	packuswb	%xmm1, %xmm5
	movdqa	%xmm9, %xmm1
	psrlw	$8, %xmm1
	movdqa	%xmm11, %xmm8
	psrlw	$8, %xmm8
	packuswb	%xmm1, %xmm8
	movdqa	.LCPI23_18(%rip), %xmm1
	pand	%xmm1, %xmm5
	pand	%xmm1, %xmm8
	movdqa	.LCPI23_19(%rip), %xmm6
	movdqa	%xmm8, %xmm1
	pcmpeqb	%xmm6, %xmm1
	movdqa	%xmm5, %xmm4
	pcmpeqb	%xmm6, %xmm4
	pmovmskb	%xmm4, %edx
	pmovmskb	%xmm1, %ecx
	movdqa	.LCPI23_20(%rip), %xmm7
	pcmpeqb	%xmm7, %xmm5
	pmovmskb	%xmm5, %esi
	pcmpeqb	%xmm7, %xmm8
	pmovmskb	%xmm8, %edi
	shll	$16, %edi
	orl	%esi, %edi
	movl	%ecx, %esi
	shll	$17, %esi
	movzbl	%bpl, %r8d
	andl	$1, %r8d
	leal	(%rsi,%rdx,2), %edx
	orl	%r8d, %edx
	cmpl	%edi, %edx
	jne	.LBB23_63
	shrl	$15, %ecx
	movl	%ecx, %ebp
	movdqa	%xmm2, %xmm1
	por	%xmm11, %xmm1
	movdqa	%xmm3, %xmm4
	por	%xmm9, %xmm4
	por	%xmm1, %xmm4
	ptest	.LCPI23_1(%rip), %xmm4
	movdqa	%xmm9, (%rsp)
	je	.LBB23_3
	movdqa	.LCPI23_2(%rip), %xmm8
	movdqa	%xmm11, %xmm1
	paddw	%xmm8, %xmm1
	movdqa	%xmm2, %xmm5
	paddw	%xmm8, %xmm5
	movdqa	%xmm9, %xmm10
	paddw	%xmm8, %xmm10
	movdqa	%xmm3, %xmm4
	paddw	%xmm8, %xmm4
	pminuw	%xmm3, %xmm4
	pminuw	%xmm9, %xmm10
	por	%xmm4, %xmm10
	pminuw	%xmm2, %xmm5
	pminuw	%xmm11, %xmm1
	por	%xmm5, %xmm1
	por	%xmm10, %xmm1
	ptest	.LCPI23_1(%rip), %xmm1
	jne	.LBB23_3
	movdqa	%xmm2, %xmm1
	palignr	$14, %xmm0, %xmm1
	movdqa	%xmm3, %xmm0
	palignr	$14, %xmm2, %xmm0
	movdqa	.LCPI23_21(%rip), %xmm5
	movdqa	%xmm3, %xmm4
	paddw	%xmm5, %xmm4
	movdqa	%xmm2, %xmm10
	paddw	%xmm5, %xmm10
	movdqa	.LCPI23_22(%rip), %xmm13
	movdqa	%xmm2, %xmm5
	paddw	%xmm13, %xmm5
	movdqa	%xmm3, %xmm12
	paddw	%xmm13, %xmm12
	psrlw	$2, %xmm12
	psrlw	$2, %xmm5
	movdqa	.LCPI23_23(%rip), %xmm13
	psubusw	%xmm13, %xmm5
	psubusw	%xmm13, %xmm12
	psllw	$10, %xmm0
	psllw	$10, %xmm1
	movdqa	.LCPI23_24(%rip), %xmm15
	pand	%xmm15, %xmm1
	pand	%xmm15, %xmm0
	movdqa	.LCPI23_25(%rip), %xmm14
	movdqa	%xmm2, %xmm9
	paddw	%xmm14, %xmm9
	paddw	%xmm1, %xmm9
	pmaxuw	%xmm5, %xmm9
	movdqa	%xmm3, %xmm5
	paddw	%xmm14, %xmm5
	paddw	%xmm0, %xmm5
	pmaxuw	%xmm12, %xmm5
	pxor	%xmm1, %xmm1
	pxor	%xmm0, %xmm0
	pcmpgtw	%xmm2, %xmm0
	pblendvb	%xmm0, %xmm9, %xmm10
	pcmpgtw	%xmm3, %xmm1
	movdqa	%xmm1, %xmm0
	pblendvb	%xmm0, %xmm5, %xmm4
	movdqa	%xmm4, %xmm0
	psrlw	$6, %xmm0
	movdqa	%xmm10, %xmm1
	psrlw	$6, %xmm1
	movdqa	.LCPI23_6(%rip), %xmm5
	psllw	$8, %xmm10
	psllw	$8, %xmm4
	movdqa	.LCPI23_8(%rip), %xmm9
	pand	%xmm9, %xmm4
	paddw	%xmm0, %xmm4
	pand	%xmm9, %xmm10
	paddw	%xmm1, %xmm10
	por	%xmm5, %xmm10
	por	%xmm5, %xmm4
	movdqa	.LCPI23_17(%rip), %xmm1
	movdqa	%xmm3, %xmm13
	pminuw	%xmm1, %xmm13
	pcmpeqw	%xmm3, %xmm13
	movdqa	%xmm13, %xmm0
	pblendvb	%xmm0, %xmm3, %xmm4
	movdqa	%xmm2, %xmm9
	pminuw	%xmm1, %xmm9
	pcmpeqw	%xmm2, %xmm9
	movdqa	%xmm9, %xmm0
	pblendvb	%xmm0, %xmm2, %xmm10
	pxor	%xmm0, %xmm0
	movdqa	%xmm11, %xmm5
	palignr	$14, %xmm3, %xmm5
	psllw	$10, %xmm5
	pand	%xmm15, %xmm5
	movdqa	%xmm11, %xmm1
	movdqa	%xmm11, %xmm12
	paddw	%xmm14, %xmm12
	paddw	%xmm5, %xmm12
	movdqa	%xmm11, %xmm3
	movdqa	.LCPI23_22(%rip), %xmm5
	paddw	%xmm5, %xmm3
	psrlw	$2, %xmm3
	movdqa	.LCPI23_23(%rip), %xmm14
	psubusw	%xmm14, %xmm3
	pmaxuw	%xmm3, %xmm12
	movdqa	.LCPI23_21(%rip), %xmm2
	paddw	%xmm2, %xmm11
	pcmpgtw	%xmm1, %xmm0
	pblendvb	%xmm0, %xmm12, %xmm11
	movdqa	(%rsp), %xmm0
	palignr	$14, %xmm1, %xmm0
	psllw	$10, %xmm0
	pand	%xmm15, %xmm0
	movdqa	(%rsp), %xmm15
	movdqa	%xmm15, %xmm3
	paddw	.LCPI23_25(%rip), %xmm3
	paddw	%xmm0, %xmm3
	movdqa	%xmm15, %xmm0
	paddw	%xmm5, %xmm0
	psrlw	$2, %xmm0
	psubusw	%xmm14, %xmm0
	pmaxuw	%xmm0, %xmm3
	movdqa	%xmm15, %xmm12
	paddw	%xmm2, %xmm12
	pxor	%xmm0, %xmm0
	pcmpgtw	%xmm15, %xmm0
	pblendvb	%xmm0, %xmm3, %xmm12
	movdqa	%xmm12, %xmm0
	psrlw	$6, %xmm0
	psllw	$8, %xmm12
	movdqa	.LCPI23_8(%rip), %xmm2
	pand	%xmm2, %xmm12
	paddw	%xmm0, %xmm12
	movdqa	%xmm11, %xmm0
	psrlw	$6, %xmm0
	psllw	$8, %xmm11
	pand	%xmm2, %xmm11
	paddw	%xmm0, %xmm11
	movdqa	.LCPI23_6(%rip), %xmm2
	por	%xmm2, %xmm12
	movdqa	%xmm15, %xmm3
	movdqa	.LCPI23_17(%rip), %xmm5
	pminuw	%xmm5, %xmm3
	pcmpeqw	%xmm15, %xmm3
	movdqa	%xmm3, %xmm0
	pblendvb	%xmm0, %xmm15, %xmm12
	por	%xmm2, %xmm11
	movdqa	%xmm1, %xmm0
	pminuw	%xmm5, %xmm0
	pcmpeqw	%xmm1, %xmm0
	pblendvb	%xmm0, %xmm1, %xmm11
	packsswb	%xmm13, %xmm9
	pmovmskb	%xmm9, %edx
	movzbl	%dl, %esi
	popcntl	%esi, %edi
	shll	$4, %esi
	leaq	.Lstatic.8(%rip), %rcx
	movdqu	(%rsi,%rcx), %xmm1
	pshufb	%xmm1, %xmm10
	movdqu	%xmm10, (%r15,%rax)
	shrl	$8, %edx
	xorl	%esi, %esi
	popcntl	%edx, %esi
	shll	$4, %edx
	movdqu	(%rdx,%rcx), %xmm1
	pshufb	%xmm1, %xmm4
	subq	%rdi, %rax
	movdqu	%xmm4, 16(%r15,%rax)
	packsswb	%xmm3, %xmm0
	pmovmskb	%xmm0, %edx
	movzbl	%dl, %edi
	popcntl	%edi, %r8d
	shll	$4, %edi
	movdqu	(%rdi,%rcx), %xmm0
	pshufb	%xmm0, %xmm11
	subq	%rsi, %rax
	movdqu	%xmm11, 32(%r15,%rax)
	shrl	$8, %edx
	xorl	%esi, %esi
	popcntl	%edx, %esi
	shll	$4, %edx
	movdqu	(%rdx,%rcx), %xmm0
	pshufb	%xmm0, %xmm12
	addq	$32, %rax
	subq	%r8, %rax
	movdqu	%xmm12, 16(%r15,%rax)
	subq	%rsi, %rax
	addq	$64, %rbx
	addq	$32, %rax
	cmpq	%r12, %rbx
	ja	.LBB23_54
	cmpq	%rax, %r14
	jb	.LBB23_54
	.p2align	4
.LBB23_48:
	movdqu	(%r13,%rbx), %xmm14
	movdqu	16(%r13,%rbx), %xmm13
	movdqu	32(%r13,%rbx), %xmm9
	movdqu	48(%r13,%rbx), %xmm1
	movdqa	%xmm13, %xmm0
	por	%xmm1, %xmm0
	movdqa	%xmm14, %xmm2
	por	%xmm9, %xmm2
	por	%xmm0, %xmm2
	ptest	.LCPI23_1(%rip), %xmm2
	je	.LBB23_54
	movdqa	%xmm9, %xmm0
	paddw	%xmm8, %xmm0
	movdqa	%xmm14, %xmm2
	paddw	%xmm8, %xmm2
	movdqa	%xmm1, %xmm3
	paddw	%xmm8, %xmm3
	movdqa	%xmm13, %xmm4
	paddw	%xmm8, %xmm4
	pminuw	%xmm13, %xmm4
	pminuw	%xmm1, %xmm3
	por	%xmm4, %xmm3
	pminuw	%xmm14, %xmm2
	pminuw	%xmm9, %xmm0
	por	%xmm2, %xmm0
	por	%xmm3, %xmm0
	ptest	.LCPI23_1(%rip), %xmm0
	jne	.LBB23_54
	movdqa	%xmm14, %xmm0
	psrlw	$8, %xmm0
	movdqa	%xmm13, %xmm2
	psrlw	$8, %xmm2
	packuswb	%xmm2, %xmm0
	movdqa	%xmm9, %xmm2
	psrlw	$8, %xmm2
	movdqa	%xmm1, %xmm3
	psrlw	$8, %xmm3
	packuswb	%xmm3, %xmm2
	movdqa	.LCPI23_18(%rip), %xmm3
	pand	%xmm3, %xmm0
	pand	%xmm3, %xmm2
	movdqa	%xmm2, %xmm3
	pcmpeqb	%xmm6, %xmm3
	movdqa	%xmm0, %xmm4
	pcmpeqb	%xmm6, %xmm4
	pmovmskb	%xmm4, %esi
	pmovmskb	%xmm3, %edx
	pcmpeqb	%xmm7, %xmm0
	pmovmskb	%xmm0, %edi
	pcmpeqb	%xmm7, %xmm2
	pmovmskb	%xmm2, %r8d
	shll	$16, %r8d
	orl	%edi, %r8d
	movl	%edx, %edi
	shll	$17, %edi
	leal	(%rdi,%rsi,2), %esi
	movzbl	%bpl, %edi
	orl	%esi, %edi
	cmpl	%r8d, %edi
	jne	.LBB23_54
	movdqa	%xmm14, %xmm2
	palignr	$14, %xmm15, %xmm2
	movdqa	%xmm13, %xmm0
	palignr	$14, %xmm14, %xmm0
	movdqa	%xmm13, %xmm11
	movdqa	.LCPI23_21(%rip), %xmm10
	paddw	%xmm10, %xmm11
	movdqa	%xmm14, %xmm15
	paddw	%xmm10, %xmm15
	movdqa	%xmm14, %xmm3
	movdqa	.LCPI23_22(%rip), %xmm8
	paddw	%xmm8, %xmm3
	movdqa	%xmm13, %xmm4
	paddw	%xmm8, %xmm4
	psrlw	$2, %xmm4
	psrlw	$2, %xmm3
	movdqa	.LCPI23_23(%rip), %xmm7
	psubusw	%xmm7, %xmm3
	psubusw	%xmm7, %xmm4
	psllw	$10, %xmm0
	psllw	$10, %xmm2
	movdqa	.LCPI23_24(%rip), %xmm6
	pand	%xmm6, %xmm2
	pand	%xmm6, %xmm0
	movdqa	%xmm14, %xmm12
	movdqa	.LCPI23_25(%rip), %xmm5
	paddw	%xmm5, %xmm12
	paddw	%xmm2, %xmm12
	pmaxuw	%xmm3, %xmm12
	movdqa	%xmm13, %xmm3
	paddw	%xmm5, %xmm3
	paddw	%xmm0, %xmm3
	pmaxuw	%xmm4, %xmm3
	pxor	%xmm2, %xmm2
	pcmpgtw	%xmm13, %xmm2
	pxor	%xmm0, %xmm0
	pcmpgtw	%xmm14, %xmm0
	pblendvb	%xmm0, %xmm12, %xmm15
	movdqa	%xmm2, %xmm0
	pblendvb	%xmm0, %xmm3, %xmm11
	movdqa	%xmm11, %xmm0
	psrlw	$6, %xmm0
	movdqa	%xmm15, %xmm2
	psrlw	$6, %xmm2
	psllw	$8, %xmm15
	psllw	$8, %xmm11
	movdqa	.LCPI23_8(%rip), %xmm8
	pand	%xmm8, %xmm11
	paddw	%xmm0, %xmm11
	pand	%xmm8, %xmm15
	paddw	%xmm2, %xmm15
	movdqa	.LCPI23_6(%rip), %xmm7
	por	%xmm7, %xmm11
	movdqa	%xmm13, %xmm2
	movdqa	.LCPI23_17(%rip), %xmm4
	pminuw	%xmm4, %xmm2
	pcmpeqw	%xmm13, %xmm2
	movdqa	%xmm2, %xmm0
	pblendvb	%xmm0, %xmm13, %xmm11
	por	%xmm7, %xmm15
	movdqa	%xmm14, %xmm3
	pminuw	%xmm4, %xmm3
	pcmpeqw	%xmm14, %xmm3
	movdqa	%xmm3, %xmm0
	pblendvb	%xmm0, %xmm14, %xmm15
	movdqa	%xmm9, %xmm14
	palignr	$14, %xmm13, %xmm14
	movdqa	%xmm1, %xmm0
	palignr	$14, %xmm9, %xmm0
	movdqa	%xmm1, %xmm12
	movdqa	%xmm10, %xmm8
	paddw	%xmm10, %xmm12
	psllw	$10, %xmm14
	pand	%xmm6, %xmm14
	movdqa	%xmm9, %xmm10
	movdqa	%xmm5, %xmm7
	paddw	%xmm5, %xmm10
	paddw	%xmm14, %xmm10
	movdqa	%xmm9, %xmm13
	movdqa	.LCPI23_22(%rip), %xmm4
	paddw	%xmm4, %xmm13
	psrlw	$2, %xmm13
	movdqa	.LCPI23_23(%rip), %xmm5
	psubusw	%xmm5, %xmm13
	psllw	$10, %xmm0
	pand	%xmm6, %xmm0
	pmaxuw	%xmm13, %xmm10
	movdqa	%xmm1, %xmm14
	paddw	%xmm7, %xmm14
	paddw	%xmm0, %xmm14
	movdqa	%xmm1, %xmm0
	paddw	%xmm4, %xmm0
	psrlw	$2, %xmm0
	psubusw	%xmm5, %xmm0
	pmaxuw	%xmm0, %xmm14
	movdqa	%xmm9, %xmm13
	paddw	%xmm8, %xmm13
	pxor	%xmm0, %xmm0
	pcmpgtw	%xmm9, %xmm0
	pblendvb	%xmm0, %xmm10, %xmm13
	pxor	%xmm0, %xmm0
	pcmpgtw	%xmm1, %xmm0
	pblendvb	%xmm0, %xmm14, %xmm12
	movdqa	%xmm12, %xmm0
	psrlw	$6, %xmm0
	movdqa	%xmm13, %xmm4
	psrlw	$6, %xmm4
	psllw	$8, %xmm13
	psllw	$8, %xmm12
	movdqa	.LCPI23_8(%rip), %xmm5
	pand	%xmm5, %xmm12
	paddw	%xmm0, %xmm12
	pand	%xmm5, %xmm13
	paddw	%xmm4, %xmm13
	movdqa	.LCPI23_6(%rip), %xmm0
	por	%xmm0, %xmm13
	por	%xmm0, %xmm12
	movdqa	%xmm1, %xmm4
	movdqa	.LCPI23_17(%rip), %xmm5
	pminuw	%xmm5, %xmm4
	pcmpeqw	%xmm1, %xmm4
	movdqa	%xmm4, %xmm0
	pblendvb	%xmm0, %xmm1, %xmm12
	movdqa	%xmm9, %xmm0
	pminuw	%xmm5, %xmm0
	pcmpeqw	%xmm9, %xmm0
	pblendvb	%xmm0, %xmm9, %xmm13
	packsswb	%xmm2, %xmm3
	pmovmskb	%xmm3, %esi
	movzbl	%sil, %edi
	popcntl	%edi, %r8d
	shll	$4, %edi
	movdqu	(%rdi,%rcx), %xmm2
	pshufb	%xmm2, %xmm15
	movdqu	%xmm15, (%r15,%rax)
	shrl	$8, %esi
	xorl	%edi, %edi
	popcntl	%esi, %edi
	shll	$4, %esi
	movdqu	(%rsi,%rcx), %xmm2
	pshufb	%xmm2, %xmm11
	subq	%r8, %rax
	movdqu	%xmm11, 16(%r15,%rax)
	packsswb	%xmm4, %xmm0
	pmovmskb	%xmm0, %esi
	movzbl	%sil, %r8d
	popcntl	%r8d, %r9d
	shll	$4, %r8d
	movdqu	(%r8,%rcx), %xmm0
	pshufb	%xmm0, %xmm13
	subq	%rdi, %rax
	movdqu	%xmm13, 32(%r15,%rax)
	shrl	$8, %esi
	xorl	%edi, %edi
	popcntl	%esi, %edi
	shll	$4, %esi
	movdqu	(%rsi,%rcx), %xmm0
	pshufb	%xmm0, %xmm12
	addq	$32, %rax
	subq	%r9, %rax
	movdqu	%xmm12, 16(%r15,%rax)
	movzwl	%dx, %ebp
	shrl	$15, %ebp
	subq	%rdi, %rax
	addq	$64, %rbx
	addq	$32, %rax
	cmpq	%r12, %rbx
	ja	.LBB23_4
	movdqa	%xmm1, %xmm15
	cmpq	%rax, %r14
	movdqa	.LCPI23_19(%rip), %xmm6
	movdqa	.LCPI23_20(%rip), %xmm7
	movdqa	.LCPI23_2(%rip), %xmm8
	jae	.LBB23_48
	jmp	.LBB23_4
	.p2align	4
.LBB23_10:
	movq	%rbp, (%rsp)
.LBB23_11:
	movdqa	%xmm0, %xmm15
	movq	%rax, %rsi
	movq	%rbx, %rbp
	movdqa	%xmm2, %xmm0
	por	%xmm12, %xmm0
	movdqa	%xmm3, %xmm4
	por	%xmm15, %xmm4
	por	%xmm0, %xmm4
	ptest	.LCPI23_1(%rip), %xmm4
	je	.LBB23_22
	movdqa	.LCPI23_2(%rip), %xmm5
	movdqa	%xmm12, %xmm8
	paddw	%xmm5, %xmm8
	movdqa	%xmm2, %xmm9
	paddw	%xmm5, %xmm9
	movdqa	%xmm15, %xmm4
	paddw	%xmm5, %xmm4
	movdqa	%xmm3, %xmm0
	paddw	%xmm5, %xmm0
	movdqa	%xmm3, %xmm5
	pminuw	%xmm0, %xmm5
	movdqa	%xmm15, %xmm6
	pminuw	%xmm4, %xmm6
	pminuw	%xmm5, %xmm6
	movdqa	%xmm2, %xmm5
	pminuw	%xmm9, %xmm5
	movdqa	%xmm12, %xmm7
	pminuw	%xmm8, %xmm7
	pminuw	%xmm5, %xmm7
	pminuw	%xmm6, %xmm7
	movdqa	.LCPI23_3(%rip), %xmm5
	pminuw	%xmm7, %xmm5
	pcmpeqw	%xmm7, %xmm5
	pmovmskb	%xmm5, %eax
	testl	%eax, %eax
	je	.LBB23_23
	pminuw	%xmm8, %xmm9
	pminuw	%xmm4, %xmm0
	pminuw	%xmm9, %xmm0
	movdqa	.LCPI23_3(%rip), %xmm4
	pminuw	%xmm0, %xmm4
	pcmpeqw	%xmm0, %xmm4
	pmovmskb	%xmm4, %eax
	testl	%eax, %eax
	jne	.LBB23_60
	movq	%r15, %rdi
	movdqa	%xmm1, %xmm0
	movl	$4, %edx
	movdqa	%xmm15, 16(%rsp)
	movdqa	%xmm12, 48(%rsp)
	movdqa	%xmm3, 32(%rsp)
	movdqa	%xmm2, 80(%rsp)
	callq	L_18
	movq	%r15, %rdi
	movq	%rax, %rsi
	movdqa	80(%rsp), %xmm0
	movdqa	32(%rsp), %xmm1
	movdqa	48(%rsp), %xmm2
	movdqa	16(%rsp), %xmm3
	movl	$4, %edx
	callq	L_18
	addq	$64, %rbp
	cmpq	%r12, %rbp
	ja	.LBB23_30
	cmpq	%rax, %r14
	jb	.LBB23_30
	movq	%rbp, %rbx
	movdqa	16(%rsp), %xmm1
	.p2align	4
.LBB23_18:
	movdqu	(%r13,%rbx), %xmm9
	movdqu	16(%r13,%rbx), %xmm7
	movdqu	32(%r13,%rbx), %xmm0
	movdqu	48(%r13,%rbx), %xmm15
	movdqa	%xmm7, %xmm2
	por	%xmm15, %xmm2
	movdqa	%xmm9, %xmm3
	por	%xmm0, %xmm3
	por	%xmm2, %xmm3
	ptest	.LCPI23_1(%rip), %xmm3
	je	.LBB23_32
	movdqa	%xmm7, %xmm2
	movdqa	.LCPI23_2(%rip), %xmm5
	paddw	%xmm5, %xmm2
	movdqa	%xmm15, %xmm3
	paddw	%xmm5, %xmm3
	pminuw	%xmm2, %xmm3
	movdqa	%xmm9, %xmm2
	paddw	%xmm5, %xmm2
	movdqa	%xmm0, %xmm4
	paddw	%xmm5, %xmm4
	pminuw	%xmm2, %xmm4
	pminuw	%xmm3, %xmm4
	movdqa	.LCPI23_3(%rip), %xmm2
	pminuw	%xmm4, %xmm2
	pcmpeqw	%xmm4, %xmm2
	pmovmskb	%xmm2, %ecx
	testl	%ecx, %ecx
	jne	.LBB23_32
	movdqa	%xmm7, %xmm8
	psllw	$8, %xmm8
	movdqa	%xmm9, %xmm11
	psllw	$8, %xmm11
	movdqa	%xmm7, %xmm6
	psrlw	$12, %xmm6
	movdqa	%xmm9, %xmm10
	psrlw	$12, %xmm10
	por	%xmm11, %xmm10
	por	%xmm8, %xmm6
	movdqa	.LCPI23_4(%rip), %xmm4
	por	%xmm4, %xmm10
	movdqa	.LCPI23_5(%rip), %xmm2
	movdqa	%xmm2, %xmm12
	psubusw	%xmm7, %xmm12
	movdqa	%xmm2, %xmm13
	psubusw	%xmm9, %xmm13
	movdqa	%xmm9, %xmm1
	psrlw	$6, %xmm1
	movdqa	.LCPI23_7(%rip), %xmm5
	pand	%xmm5, %xmm1
	movdqa	.LCPI23_8(%rip), %xmm3
	pand	%xmm3, %xmm11
	por	%xmm1, %xmm11
	movdqa	.LCPI23_10(%rip), %xmm1
	movdqa	%xmm1, %xmm14
	psubusw	%xmm9, %xmm14
	movdqa	.LCPI23_6(%rip), %xmm9
	pand	%xmm9, %xmm13
	pand	%xmm9, %xmm12
	por	%xmm13, %xmm14
	psrlw	$9, %xmm13
	por	%xmm13, %xmm11
	movdqa	%xmm1, %xmm13
	psubusw	%xmm7, %xmm13
	por	%xmm12, %xmm13
	psrlw	$9, %xmm12
	psrlw	$6, %xmm7
	pand	%xmm5, %xmm7
	pand	%xmm3, %xmm8
	por	%xmm7, %xmm8
	por	%xmm12, %xmm8
	movdqa	.LCPI23_9(%rip), %xmm7
	por	%xmm7, %xmm11
	pmovmskb	%xmm14, %edx
	movdqa	%xmm10, %xmm12
	punpcklwd	%xmm11, %xmm12
	movzbl	%dl, %esi
	popcntl	%esi, %edi
	shll	$4, %esi
	leaq	.Lstatic.9(%rip), %rcx
	movdqu	(%rsi,%rcx), %xmm14
	pshufb	%xmm14, %xmm12
	movdqu	%xmm12, (%r15,%rax)
	por	%xmm4, %xmm6
	por	%xmm7, %xmm8
	subq	%rdi, %rax
	punpckhwd	%xmm11, %xmm10
	shrl	$8, %edx
	xorl	%esi, %esi
	popcntl	%edx, %esi
	shll	$4, %edx
	movdqu	(%rdx,%rcx), %xmm11
	pshufb	%xmm11, %xmm10
	movdqu	%xmm10, 12(%r15,%rax)
	addq	$12, %rax
	subq	%rsi, %rax
	pmovmskb	%xmm13, %esi
	movdqa	%xmm6, %xmm10
	punpcklwd	%xmm8, %xmm10
	movzbl	%sil, %edx
	xorl	%edi, %edi
	popcntl	%edx, %edi
	shll	$4, %edx
	movdqu	(%rdx,%rcx), %xmm11
	pshufb	%xmm11, %xmm10
	movdqu	%xmm10, 12(%r15,%rax)
	addq	$12, %rax
	subq	%rdi, %rax
	punpckhwd	%xmm8, %xmm6
	shrl	$8, %esi
	xorl	%edx, %edx
	popcntl	%esi, %edx
	shll	$4, %esi
	movdqu	(%rsi,%rcx), %xmm8
	pshufb	%xmm8, %xmm6
	movdqu	%xmm6, 12(%r15,%rax)
	movdqa	%xmm15, %xmm8
	psllw	$8, %xmm8
	movdqa	%xmm0, %xmm11
	psllw	$8, %xmm11
	movdqa	%xmm15, %xmm6
	psrlw	$12, %xmm6
	movdqa	%xmm0, %xmm10
	psrlw	$12, %xmm10
	por	%xmm11, %xmm10
	por	%xmm8, %xmm6
	por	%xmm4, %xmm6
	por	%xmm4, %xmm10
	movdqa	%xmm2, %xmm4
	psubusw	%xmm15, %xmm4
	psubusw	%xmm0, %xmm2
	pand	%xmm9, %xmm2
	pand	%xmm9, %xmm4
	movdqa	%xmm15, %xmm12
	psrlw	$6, %xmm12
	movdqa	%xmm1, %xmm9
	psubusw	%xmm0, %xmm9
	psrlw	$6, %xmm0
	pand	%xmm5, %xmm0
	pand	%xmm5, %xmm12
	pand	%xmm3, %xmm11
	por	%xmm0, %xmm11
	por	%xmm2, %xmm9
	psrlw	$9, %xmm2
	por	%xmm2, %xmm11
	pand	%xmm3, %xmm8
	por	%xmm12, %xmm8
	psubusw	%xmm15, %xmm1
	por	%xmm4, %xmm1
	psrlw	$9, %xmm4
	por	%xmm4, %xmm8
	por	%xmm7, %xmm8
	por	%xmm7, %xmm11
	pmovmskb	%xmm9, %esi
	movdqa	%xmm10, %xmm0
	punpcklwd	%xmm11, %xmm0
	movzbl	%sil, %edi
	popcntl	%edi, %r8d
	shll	$4, %edi
	movdqu	(%rdi,%rcx), %xmm2
	pshufb	%xmm2, %xmm0
	subq	%rdx, %rax
	movdqu	%xmm0, 24(%r15,%rax)
	punpckhwd	%xmm11, %xmm10
	shrl	$8, %esi
	xorl	%edx, %edx
	popcntl	%esi, %edx
	shll	$4, %esi
	movdqu	(%rsi,%rcx), %xmm0
	pshufb	%xmm0, %xmm10
	addq	$24, %rax
	subq	%r8, %rax
	movdqu	%xmm10, 12(%r15,%rax)
	pmovmskb	%xmm1, %esi
	movdqa	%xmm6, %xmm0
	punpcklwd	%xmm8, %xmm0
	movzbl	%sil, %edi
	xorl	%r8d, %r8d
	popcntl	%edi, %r8d
	shll	$4, %edi
	movdqu	(%rdi,%rcx), %xmm1
	pshufb	%xmm1, %xmm0
	addq	$12, %rax
	subq	%rdx, %rax
	movdqu	%xmm0, 12(%r15,%rax)
	punpckhwd	%xmm8, %xmm6
	shrl	$8, %esi
	xorl	%edx, %edx
	popcntl	%esi, %edx
	shll	$4, %esi
	movdqu	(%rsi,%rcx), %xmm0
	pshufb	%xmm0, %xmm6
	addq	$12, %rax
	subq	%r8, %rax
	movdqu	%xmm6, 12(%r15,%rax)
	subq	%rdx, %rax
	addq	$24, %rax
	addq	$64, %rbx
	cmpq	%r12, %rbx
	ja	.LBB23_33
	movdqa	%xmm15, %xmm1
	cmpq	%rax, %r14
	jae	.LBB23_18
	jmp	.LBB23_33
	.p2align	4
.LBB23_22:
	movdqa	%xmm2, %xmm6
	psrlw	$6, %xmm6
	movdqa	%xmm3, %xmm5
	psrlw	$6, %xmm5
	movdqa	%xmm3, %xmm0
	psllw	$8, %xmm0
	movdqa	.LCPI23_8(%rip), %xmm7
	pand	%xmm7, %xmm0
	movdqa	%xmm2, %xmm1
	psllw	$8, %xmm1
	pand	%xmm7, %xmm1
	movdqa	.LCPI23_16(%rip), %xmm4
	paddw	%xmm4, %xmm6
	paddw	%xmm1, %xmm6
	paddw	%xmm4, %xmm5
	paddw	%xmm0, %xmm5
	movdqa	.LCPI23_17(%rip), %xmm1
	movdqa	%xmm3, %xmm8
	pminuw	%xmm1, %xmm8
	pcmpeqw	%xmm3, %xmm8
	movdqa	%xmm8, %xmm0
	pblendvb	%xmm0, %xmm3, %xmm5
	movdqa	%xmm2, %xmm0
	pminuw	%xmm1, %xmm0
	pcmpeqw	%xmm2, %xmm0
	pblendvb	%xmm0, %xmm2, %xmm6
	packsswb	%xmm8, %xmm0
	pmovmskb	%xmm0, %eax
	movzbl	%al, %edx
	xorl	%edi, %edi
	popcntl	%edx, %edi
	shll	$4, %edx
	leaq	.Lstatic.8(%rip), %rcx
	movdqu	(%rdx,%rcx), %xmm0
	pshufb	%xmm0, %xmm6
	movdqu	%xmm6, (%r15,%rsi)
	subq	%rdi, %rsi
	shrl	$8, %eax
	xorl	%edx, %edx
	popcntl	%eax, %edx
	shll	$4, %eax
	movdqu	(%rax,%rcx), %xmm0
	pshufb	%xmm0, %xmm5
	movdqu	%xmm5, 16(%r15,%rsi)
	subq	%rdx, %rsi
	movdqa	%xmm12, %xmm6
	psrlw	$6, %xmm6
	movdqa	%xmm15, %xmm5
	psrlw	$6, %xmm5
	movdqa	%xmm15, %xmm0
	psllw	$8, %xmm0
	pand	%xmm7, %xmm0
	movdqa	%xmm12, %xmm2
	psllw	$8, %xmm2
	pand	%xmm7, %xmm2
	paddw	%xmm4, %xmm6
	paddw	%xmm2, %xmm6
	paddw	%xmm4, %xmm5
	paddw	%xmm0, %xmm5
	movdqa	%xmm15, %xmm2
	pminuw	%xmm1, %xmm2
	pcmpeqw	%xmm15, %xmm2
	movdqa	%xmm2, %xmm0
	pblendvb	%xmm0, %xmm15, %xmm5
	pminuw	%xmm12, %xmm1
	pcmpeqw	%xmm12, %xmm1
	movdqa	%xmm1, %xmm0
	pblendvb	%xmm0, %xmm12, %xmm6
	leaq	32(%rsi), %rax
	packsswb	%xmm2, %xmm1
	pmovmskb	%xmm1, %edx
	movzbl	%dl, %edi
	popcntl	%edi, %r8d
	shll	$4, %edi
	movdqu	(%rdi,%rcx), %xmm0
	pshufb	%xmm0, %xmm6
	movdqu	%xmm6, 32(%r15,%rsi)
	subq	%r8, %rax
	shrl	$8, %edx
	xorl	%esi, %esi
	popcntl	%edx, %esi
	shll	$4, %edx
	movdqu	(%rdx,%rcx), %xmm0
	pshufb	%xmm0, %xmm5
	movdqu	%xmm5, 16(%r15,%rax)
	subq	%rsi, %rax
	addq	$32, %rax
	addq	$64, %rbp
	movq	%rbp, %rbx
	cmpq	%r12, %rbx
	jbe	.LBB23_34
	jmp	.LBB23_58
	.p2align	4
.LBB23_23:
	movdqa	%xmm3, %xmm7
	psrlw	$12, %xmm7
	movdqa	%xmm2, %xmm8
	psrlw	$12, %xmm8
	movdqa	%xmm2, %xmm4
	psllw	$2, %xmm4
	movdqa	.LCPI23_8(%rip), %xmm0
	pand	%xmm0, %xmm4
	movdqa	%xmm3, %xmm1
	psllw	$2, %xmm1
	pand	%xmm0, %xmm1
	movdqa	.LCPI23_11(%rip), %xmm10
	por	%xmm10, %xmm7
	por	%xmm1, %xmm7
	por	%xmm10, %xmm8
	por	%xmm4, %xmm8
	movdqa	.LCPI23_7(%rip), %xmm11
	pand	%xmm11, %xmm2
	pand	%xmm11, %xmm3
	movdqa	.LCPI23_12(%rip), %xmm1
	por	%xmm1, %xmm3
	por	%xmm1, %xmm2
	movdqa	.LCPI23_13(%rip), %xmm4
	movdqa	%xmm2, %xmm6
	pshufb	%xmm4, %xmm6
	movdqa	.LCPI23_14(%rip), %xmm5
	movdqa	%xmm8, %xmm9
	pshufb	%xmm5, %xmm9
	por	%xmm6, %xmm9
	movdqu	%xmm9, (%r15,%rsi)
	punpckhbw	%xmm2, %xmm8
	movdqa	%xmm11, %xmm2
	movq	.LCPI23_26(%rip), %xmm6
	pshufb	%xmm6, %xmm8
	movq	%xmm8, 16(%r15,%rsi)
	movdqa	%xmm3, %xmm8
	pshufb	%xmm4, %xmm8
	movdqa	%xmm7, %xmm9
	pshufb	%xmm5, %xmm9
	por	%xmm8, %xmm9
	movdqu	%xmm9, 24(%r15,%rsi)
	punpckhbw	%xmm3, %xmm7
	movdqa	%xmm10, %xmm3
	pshufb	%xmm6, %xmm7
	movq	%xmm7, 40(%r15,%rsi)
	movdqa	%xmm15, %xmm7
	psrlw	$12, %xmm7
	movdqa	%xmm12, %xmm8
	psrlw	$12, %xmm8
	movdqa	%xmm12, %xmm9
	psllw	$2, %xmm9
	pand	%xmm0, %xmm9
	movdqa	%xmm15, %xmm10
	psllw	$2, %xmm10
	pand	%xmm0, %xmm10
	por	%xmm3, %xmm7
	por	%xmm10, %xmm7
	por	%xmm3, %xmm8
	por	%xmm9, %xmm8
	pand	%xmm11, %xmm12
	movdqa	%xmm15, %xmm9
	pand	%xmm11, %xmm9
	por	%xmm1, %xmm9
	por	%xmm1, %xmm12
	movdqa	%xmm12, %xmm10
	pshufb	%xmm4, %xmm10
	movdqa	%xmm8, %xmm11
	pshufb	%xmm5, %xmm11
	por	%xmm10, %xmm11
	movdqu	%xmm11, 48(%r15,%rsi)
	punpckhbw	%xmm12, %xmm8
	pshufb	%xmm6, %xmm8
	movq	%xmm8, 64(%r15,%rsi)
	movdqa	%xmm7, %xmm8
	punpckhbw	%xmm9, %xmm7
	pshufb	%xmm4, %xmm9
	pshufb	%xmm5, %xmm8
	por	%xmm9, %xmm8
	movdqu	%xmm8, 72(%r15,%rsi)
	pshufb	%xmm6, %xmm7
	movq	%xmm7, 88(%r15,%rsi)
	leaq	96(%rsi), %rax
	leaq	64(%rbp), %rbx
	cmpq	%r12, %rbx
	ja	.LBB23_33
	cmpq	%rax, %r14
	jb	.LBB23_33
	movdqu	(%r13,%rbx), %xmm9
	movdqu	16(%r13,%rbx), %xmm8
	movdqu	32(%r13,%rbx), %xmm7
	movdqu	48(%r13,%rbx), %xmm10
	movdqa	%xmm8, %xmm11
	movdqa	.LCPI23_2(%rip), %xmm0
	paddw	%xmm0, %xmm11
	movdqa	%xmm10, %xmm12
	paddw	%xmm0, %xmm12
	movdqa	%xmm9, %xmm13
	paddw	%xmm0, %xmm13
	movdqa	%xmm7, %xmm14
	paddw	%xmm0, %xmm14
	pminuw	%xmm7, %xmm14
	pminuw	%xmm9, %xmm13
	pminuw	%xmm14, %xmm13
	pminuw	%xmm10, %xmm12
	pminuw	%xmm8, %xmm11
	pminuw	%xmm12, %xmm11
	pminuw	%xmm13, %xmm11
	movdqa	.LCPI23_3(%rip), %xmm12
	pminuw	%xmm11, %xmm12
	pcmpeqw	%xmm11, %xmm12
	pmovmskb	%xmm12, %ecx
	testl	%ecx, %ecx
	jne	.LBB23_33
	addq	$192, %rsi
	subq	$-128, %rbp
	.p2align	4
.LBB23_27:
	movdqa	%xmm10, %xmm15
	movq	%rsi, %rax
	movq	%rbp, %rbx
	movdqa	%xmm8, %xmm10
	psrlw	$12, %xmm10
	movdqa	%xmm9, %xmm11
	psrlw	$12, %xmm11
	movdqa	%xmm9, %xmm12
	psllw	$2, %xmm12
	movdqa	.LCPI23_8(%rip), %xmm0
	pand	%xmm0, %xmm12
	movdqa	%xmm8, %xmm13
	psllw	$2, %xmm13
	pand	%xmm0, %xmm13
	por	%xmm3, %xmm10
	por	%xmm13, %xmm10
	por	%xmm3, %xmm11
	por	%xmm12, %xmm11
	pand	%xmm2, %xmm9
	pand	%xmm2, %xmm8
	por	%xmm1, %xmm8
	por	%xmm1, %xmm9
	movdqa	%xmm9, %xmm12
	pshufb	%xmm4, %xmm12
	movdqa	%xmm11, %xmm13
	pshufb	%xmm5, %xmm13
	por	%xmm12, %xmm13
	movdqu	%xmm13, -96(%r15,%rsi)
	punpckhbw	%xmm9, %xmm11
	pshufb	%xmm6, %xmm11
	movq	%xmm11, -80(%r15,%rsi)
	movdqa	%xmm8, %xmm9
	pshufb	%xmm4, %xmm9
	movdqa	%xmm10, %xmm11
	pshufb	%xmm5, %xmm11
	por	%xmm9, %xmm11
	movdqu	%xmm11, -72(%r15,%rsi)
	punpckhbw	%xmm8, %xmm10
	pshufb	%xmm6, %xmm10
	movq	%xmm10, -56(%r15,%rsi)
	movdqa	%xmm15, %xmm8
	psrlw	$12, %xmm8
	movdqa	%xmm7, %xmm9
	psrlw	$12, %xmm9
	movdqa	%xmm7, %xmm10
	psllw	$2, %xmm10
	pand	%xmm0, %xmm10
	movdqa	%xmm15, %xmm11
	psllw	$2, %xmm11
	pand	%xmm0, %xmm11
	por	%xmm3, %xmm8
	por	%xmm11, %xmm8
	por	%xmm3, %xmm9
	por	%xmm10, %xmm9
	pand	%xmm2, %xmm7
	movdqa	%xmm15, %xmm10
	pand	%xmm2, %xmm10
	por	%xmm1, %xmm10
	por	%xmm1, %xmm7
	movdqa	%xmm7, %xmm11
	pshufb	%xmm4, %xmm11
	movdqa	%xmm9, %xmm12
	pshufb	%xmm5, %xmm12
	por	%xmm11, %xmm12
	movdqu	%xmm12, -48(%r15,%rsi)
	punpckhbw	%xmm7, %xmm9
	pshufb	%xmm6, %xmm9
	movq	%xmm9, -32(%r15,%rsi)
	movdqa	%xmm8, %xmm7
	punpckhbw	%xmm10, %xmm8
	pshufb	%xmm4, %xmm10
	pshufb	%xmm5, %xmm7
	por	%xmm10, %xmm7
	movdqu	%xmm7, -24(%r15,%rsi)
	pshufb	%xmm6, %xmm8
	movq	%xmm8, -8(%r15,%rsi)
	cmpq	%r12, %rbp
	ja	.LBB23_33
	cmpq	%rax, %r14
	jb	.LBB23_33
	movdqu	(%r13,%rbx), %xmm9
	movdqu	16(%r13,%rbx), %xmm8
	movdqu	32(%r13,%rbx), %xmm7
	movdqu	48(%r13,%rbx), %xmm10
	movdqa	%xmm8, %xmm11
	movdqa	.LCPI23_2(%rip), %xmm0
	paddw	%xmm0, %xmm11
	movdqa	%xmm10, %xmm12
	paddw	%xmm0, %xmm12
	movdqa	%xmm9, %xmm13
	paddw	%xmm0, %xmm13
	movdqa	%xmm7, %xmm14
	paddw	%xmm0, %xmm14
	pminuw	%xmm7, %xmm14
	pminuw	%xmm9, %xmm13
	pminuw	%xmm14, %xmm13
	pminuw	%xmm10, %xmm12
	pminuw	%xmm8, %xmm11
	pminuw	%xmm12, %xmm11
	pminuw	%xmm13, %xmm11
	movdqa	.LCPI23_3(%rip), %xmm12
	pminuw	%xmm11, %xmm12
	pcmpeqw	%xmm11, %xmm12
	pmovmskb	%xmm12, %ecx
	leaq	96(%rax), %rsi
	leaq	64(%rbx), %rbp
	testl	%ecx, %ecx
	je	.LBB23_27
	jmp	.LBB23_33
.LBB23_30:
	movq	%rbp, %rbx
	movdqa	16(%rsp), %xmm15
	.p2align	4
.LBB23_33:
	cmpq	%r12, %rbx
	ja	.LBB23_58
.LBB23_34:
	cmpq	%rax, %r14
	movq	(%rsp), %rbp
	jb	.LBB23_59
	.p2align	4
.LBB23_35:
	movdqu	(%r13,%rbx), %xmm2
	movdqu	16(%r13,%rbx), %xmm3
	movdqu	32(%r13,%rbx), %xmm12
	movdqu	48(%r13,%rbx), %xmm0
	movdqa	%xmm3, %xmm1
	por	%xmm0, %xmm1
	movdqa	%xmm2, %xmm4
	por	%xmm12, %xmm4
	por	%xmm1, %xmm4
	ptest	.LCPI23_0(%rip), %xmm4
	jne	.LBB23_38
	packuswb	%xmm0, %xmm12
	packuswb	%xmm3, %xmm2
	movdqu	%xmm2, (%r15,%rax)
	movdqu	%xmm12, 16(%r15,%rax)
	addq	$32, %rax
	addq	$64, %rbx
	cmpq	%r12, %rbx
	ja	.LBB23_41
	movdqa	%xmm0, %xmm15
	cmpq	%rax, %r14
	jae	.LBB23_35
	jmp	.LBB23_41
	.p2align	4
.LBB23_38:
	movdqa	%xmm15, %xmm1
	jmp	.LBB23_11
.LBB23_32:
	movdqa	%xmm1, %xmm15
	cmpq	%r12, %rbx
	jbe	.LBB23_34
.LBB23_58:
	movdqa	%xmm15, %xmm0
	movq	(%rsp), %rbp
	jmp	.LBB23_41
.LBB23_54:
	movdqa	%xmm15, %xmm1
	jmp	.LBB23_4
.LBB23_59:
	movdqa	%xmm15, %xmm0
	jmp	.LBB23_41
.LBB23_60:
	movq	%rbp, %rbx
	movq	%rsi, %rax
	movdqa	%xmm1, %xmm0
	movq	(%rsp), %rbp
	jmp	.LBB23_41
.LBB23_63:
	movdqa	%xmm0, %xmm1
.LBB23_64:
	andb	$1, %bpl
	movq	72(%rsp), %rcx
	movq	%rbx, (%rcx)
	movq	%rax, 8(%rcx)
	movdqu	%xmm1, 16(%rcx)
	movb	%bpl, 32(%rcx)
	movl	$0, 33(%rcx)
	movl	$0, 36(%rcx)
.LBB23_65:
	addq	$104, %rsp
	popq	%rbx
	popq	%r12
	popq	%r13
	popq	%r14
	popq	%r15
	popq	%rbp
	retq
.Lfunc_end23:

	.section	.rdata$004,"dr"
	.p2align	4, 0x0
.LCPI24_0:
	.short	128
	.short	128
	.short	128
	.short	128
	.short	128
	.short	128
	.short	128
	.short	128
	.section	.text$028,"xr"
	.p2align	4
L_26:
	pushq	%rbp
	pushq	%r15
	pushq	%r14
	pushq	%r13
	pushq	%r12
	pushq	%rbx
	pushq	%rax
	movq	%r8, %rbx
	movq	%rdx, %r14
	movq	%rsi, %r15
	movq	%rdi, %r12
	addq	%r8, %rdx
	movq	%rcx, (%rsp)
	subq	%r8, %rcx
	leaq	-16(%rsi), %rax
	cmpq	$175, %rax
	ja	.LBB24_1
	movq	%r15, %rax
	shrq	%rax
	cmpq	%rax, %rcx
	cmovbq	%rcx, %rax
	cmpq	$8, %rax
	jb	.LBB24_1
	leaq	(%rax,%rax), %rsi
	xorl	%ebp, %ebp
	xorl	%r13d, %r13d
	.p2align	4
.LBB24_4:
	movdqu	(%r12,%r13,2), %xmm0
	movdqa	.LCPI24_0(%rip), %xmm1
	pmaxuw	%xmm0, %xmm1
	pcmpeqw	%xmm0, %xmm1
	pmovmskb	%xmm1, %edi
	testl	%edi, %edi
	jne	.LBB24_9
	packuswb	%xmm0, %xmm0
	movq	%xmm0, (%rdx,%r13)
	addq	$8, %r13
	leaq	(%rsi,%rbp), %rdi
	addq	$-16, %rdi
	addq	$-16, %rbp
	cmpq	$15, %rdi
	ja	.LBB24_4
	negq	%rbp
	cmpq	%rbp, %rsi
	jbe	.LBB24_10
	movdqu	-16(%r12,%rsi), %xmm0
	movdqa	.LCPI24_0(%rip), %xmm1
	pmaxuw	%xmm0, %xmm1
	pcmpeqw	%xmm0, %xmm1
	pmovmskb	%xmm1, %edi
	testl	%edi, %edi
	jne	.LBB24_10
	packuswb	%xmm0, %xmm0
	movq	%xmm0, -8(%rdx,%rax)
	movq	%rax, %r13
	movq	%rsi, %rbp
	movq	%r15, %rax
	subq	%rbp, %rax
	cmpq	$15, %rax
	jbe	.LBB24_11
	jmp	.LBB24_19
.LBB24_1:
	xorl	%r13d, %r13d
	xorl	%ebp, %ebp
.LBB24_10:
	movq	%r15, %rax
	subq	%rbp, %rax
	cmpq	$15, %rax
	ja	.LBB24_19
.LBB24_11:
	movq	%rcx, %rsi
	subq	%r13, %rsi
	movq	%rax, %rdi
	shrq	%rdi
	leaq	(%rdi,%rdi,2), %rdi
	cmpq	%rdi, %rsi
	setb	%sil
	cmpq	$2, %rax
	setb	%dil
	orb	%sil, %dil
	je	.LBB24_12
	jmp	.LBB24_19
	.p2align	4
.LBB24_13:
	movb	%sil, (%rdx,%r13)
	incq	%r13
.LBB24_18:
	addq	$2, %rbp
	addq	$-2, %rax
	cmpq	$1, %rax
	jbe	.LBB24_19
.LBB24_12:
	movzbl	(%r12,%rbp), %esi
	movzbl	1(%r12,%rbp), %r8d
	movl	%r8d, %edi
	shll	$8, %edi
	orl	%esi, %edi
	cmpw	$127, %di
	jbe	.LBB24_13
	cmpb	$7, %r8b
	ja	.LBB24_16
	movzwl	%si, %esi
	andl	$63, %esi
	shll	$8, %esi
	movzwl	%di, %edi
	shrl	$6, %edi
	orl	%esi, %edi
	orl	$32960, %edi
	movw	%di, (%rdx,%r13)
	addq	$2, %r13
	jmp	.LBB24_18
	.p2align	4
.LBB24_16:
	movzwl	%r8w, %r9d
	andl	$-8, %r9d
	cmpl	$216, %r9d
	je	.LBB24_19
	andb	$63, %sil
	orb	$-128, %sil
	shrl	$6, %edi
	andb	$63, %dil
	orb	$-128, %dil
	shrb	$4, %r8b
	orb	$-32, %r8b
	movb	%r8b, (%rdx,%r13)
	movb	%dil, 1(%rdx,%r13)
	movb	%sil, 2(%rdx,%r13)
	addq	$3, %r13
	jmp	.LBB24_18
.LBB24_9:
	negq	%rbp
	movq	%r15, %rax
	subq	%rbp, %rax
	cmpq	$15, %rax
	jbe	.LBB24_11
.LBB24_19:
	leaq	-8(%r15), %rax
	cmpq	$183, %rax
	ja	.LBB24_22
	movq	%r15, %rsi
	subq	%rbp, %rsi
	cmpq	$8, %rsi
	jb	.LBB24_22
	leaq	(%r12,%rbp), %rdi
	addq	%r13, %rdx
	subq	%r13, %rcx
	callq	L_22
	addq	%rax, %rbp
	addq	%rdx, %r13
.LBB24_22:
	addq	%rbx, %r13
	cmpq	%r15, %rbp
	jae	.LBB24_41
	movq	(%rsp), %rbx
	jmp	.LBB24_24
	.p2align	4
.LBB24_34:
	movb	%al, (%r14,%r13)
	incq	%r13
.LBB24_40:
	addq	%rcx, %rbp
	cmpq	%r15, %rbp
	jae	.LBB24_41
.LBB24_24:
	movq	%r15, %rax
	subq	%rbp, %rax
	cmpq	$2, %rax
	jb	.LBB24_41
	movzbl	1(%r12,%rbp), %edx
	movzwl	%dx, %ecx
	andl	$-8, %edx
	cmpl	$216, %edx
	jne	.LBB24_29
	cmpq	$4, %rax
	jb	.LBB24_41
	movl	%ecx, %eax
	andl	$-36, %eax
	movzwl	%ax, %eax
	cmpl	$220, %eax
	je	.LBB24_41
	movzbl	3(%r12,%rbp), %eax
	andb	$-4, %al
	cmpb	$-36, %al
	jne	.LBB24_41
.LBB24_29:
	movzbl	(%r12,%rbp), %edx
	movl	%ecx, %eax
	shll	$8, %eax
	orl	%edx, %eax
	andl	$-4, %ecx
	cmpl	$216, %ecx
	jne	.LBB24_30
	movzwl	2(%r12,%rbp), %esi
	movl	%eax, %edi
	callq	L_17
	movl	$4, %ecx
	jmp	.LBB24_32
	.p2align	4
.LBB24_30:
	movl	$2, %ecx
.LBB24_32:
	movq	%rbx, %rdx
	subq	%r13, %rdx
	cmpl	$65536, %eax
	movl	$4, %esi
	sbbq	$0, %rsi
	cmpl	$2048, %eax
	movl	$2, %edi
	cmovaeq	%rsi, %rdi
	cmpl	$128, %eax
	movl	$1, %esi
	cmovaeq	%rdi, %rsi
	cmpq	%rsi, %rdx
	jb	.LBB24_41
	cmpl	$127, %eax
	jbe	.LBB24_34
	movl	%eax, %edx
	andb	$63, %dl
	orb	$-128, %dl
	cmpl	$2047, %eax
	ja	.LBB24_37
	shrl	$6, %eax
	movzbl	%dl, %edx
	shll	$8, %edx
	orl	%eax, %edx
	orl	$192, %edx
	movw	%dx, (%r14,%r13)
	addq	$2, %r13
	jmp	.LBB24_40
	.p2align	4
.LBB24_37:
	movl	%eax, %esi
	cmpl	$65535, %eax
	ja	.LBB24_39
	shrl	$6, %esi
	andb	$63, %sil
	orb	$-128, %sil
	shrl	$12, %eax
	orb	$-32, %al
	movb	%al, (%r14,%r13)
	movb	%sil, 1(%r14,%r13)
	movb	%dl, 2(%r14,%r13)
	addq	$3, %r13
	jmp	.LBB24_40
.LBB24_39:
	shrl	$18, %esi
	addl	$240, %esi
	movzbl	%dl, %edx
	shll	$24, %edx
	movl	%eax, %edi
	shll	$10, %edi
	andl	$4128768, %edi
	orl	%edx, %edi
	shrl	$4, %eax
	andl	$16128, %eax
	orl	%edi, %eax
	movzbl	%sil, %edx
	addl	%edx, %eax
	addl	$8421376, %eax
	movl	%eax, (%r14,%r13)
	addq	$4, %r13
	jmp	.LBB24_40
.LBB24_41:
	movq	%rbp, %rax
	movq	%r13, %rdx
	addq	$8, %rsp
	popq	%rbx
	popq	%r12
	popq	%r13
	popq	%r14
	popq	%r15
	popq	%rbp
	retq
.Lfunc_end24:

	.section	.rdata$004,"dr"
	.p2align	4, 0x0
.LCPI25_0:
	.zero	16,248
.LCPI25_1:
	.zero	16,216
.LCPI25_2:
	.byte	248
	.byte	248
	.byte	248
	.byte	248
	.byte	248
	.byte	248
	.byte	248
	.byte	248
	.zero	1
	.zero	1
	.zero	1
	.zero	1
	.zero	1
	.zero	1
	.zero	1
	.zero	1
.LCPI25_3:
	.byte	216
	.byte	216
	.byte	216
	.byte	216
	.byte	216
	.byte	216
	.byte	216
	.byte	216
	.zero	1
	.zero	1
	.zero	1
	.zero	1
	.zero	1
	.zero	1
	.zero	1
	.zero	1
.LCPI25_4:
	.byte	248
	.byte	248
	.byte	248
	.byte	248
	.zero	1
	.zero	1
	.zero	1
	.zero	1
	.zero	1
	.zero	1
	.zero	1
	.zero	1
	.zero	1
	.zero	1
	.zero	1
	.zero	1
.LCPI25_5:
	.byte	216
	.byte	216
	.byte	216
	.byte	216
	.zero	1
	.zero	1
	.zero	1
	.zero	1
	.zero	1
	.zero	1
	.zero	1
	.zero	1
	.zero	1
	.zero	1
	.zero	1
	.zero	1
	.section	.text$029,"xr"
	.p2align	4
L_27:
	cmpq	$2, %rsi
	jne	.LBB25_3
	movzbl	1(%rdi), %ecx
	andb	$-8, %cl
	movl	$2, %eax
.LBB25_2:
	cmpb	$-40, %cl
	je	L_29
	retq
.LBB25_3:
	cmpq	$7, %rsi
	ja	.LBB25_12
	testq	%rsi, %rsi
	je	.LBB25_23
	cmpq	$6, %rsi
	je	.LBB25_9
	cmpq	$4, %rsi
	jne	L_29
	movzbl	1(%rdi), %eax
	andb	$-8, %al
	cmpb	$-40, %al
	je	L_29
	movzbl	3(%rdi), %ecx
	andb	$-8, %cl
	movl	$4, %eax
	jmp	.LBB25_2
.LBB25_12:
	cmpq	$65, %rsi
	setae	%al
	movl	%esi, %ecx
	orb	%al, %cl
	testb	$1, %cl
	jne	L_29
	cmpq	$15, %rsi
	ja	.LBB25_17
	movq	(%rdi), %xmm0
	psrlw	$8, %xmm0
	packuswb	%xmm0, %xmm0
	pand	.LCPI25_4(%rip), %xmm0
	pcmpeqb	.LCPI25_5(%rip), %xmm0
	pmovsxbd	%xmm0, %xmm0
	movmskps	%xmm0, %eax
	testl	%eax, %eax
	jne	L_29
	movq	-8(%rdi,%rsi), %xmm0
	psrlw	$8, %xmm0
	packuswb	%xmm0, %xmm0
	pand	.LCPI25_4(%rip), %xmm0
	pcmpeqb	.LCPI25_5(%rip), %xmm0
	pmovsxbd	%xmm0, %xmm0
	movmskps	%xmm0, %eax
	testl	%eax, %eax
	jne	L_29
	jmp	.LBB25_23
.LBB25_17:
	cmpq	$31, %rsi
	ja	.LBB25_21
	movdqu	(%rdi), %xmm0
	psrlw	$8, %xmm0
	packuswb	%xmm0, %xmm0
	pand	.LCPI25_2(%rip), %xmm0
	pcmpeqb	.LCPI25_3(%rip), %xmm0
	pmovmskb	%xmm0, %eax
	testb	%al, %al
	jne	L_29
	movdqu	-16(%rdi,%rsi), %xmm0
	psrlw	$8, %xmm0
	packuswb	%xmm0, %xmm0
	pand	.LCPI25_2(%rip), %xmm0
	pcmpeqb	.LCPI25_3(%rip), %xmm0
	pmovmskb	%xmm0, %eax
	testb	%al, %al
	jne	L_29
	jmp	.LBB25_23
.LBB25_9:
	movzbl	1(%rdi), %eax
	andb	$-8, %al
	cmpb	$-40, %al
	je	L_29
	movzbl	3(%rdi), %eax
	andb	$-8, %al
	cmpb	$-40, %al
	je	L_29
	movzbl	5(%rdi), %ecx
	andb	$-8, %cl
	movl	$6, %eax
	jmp	.LBB25_2
.LBB25_21:
	movdqu	(%rdi), %xmm0
	movdqu	16(%rdi), %xmm1
	psrlw	$8, %xmm1
	psrlw	$8, %xmm0
	packuswb	%xmm1, %xmm0
	pand	.LCPI25_0(%rip), %xmm0
	pcmpeqb	.LCPI25_1(%rip), %xmm0
	pmovmskb	%xmm0, %eax
	testl	%eax, %eax
	jne	L_29
	movdqu	-32(%rdi,%rsi), %xmm0
	movdqu	-16(%rdi,%rsi), %xmm1
	psrlw	$8, %xmm1
	psrlw	$8, %xmm0
	packuswb	%xmm1, %xmm0
	pand	.LCPI25_0(%rip), %xmm0
	pcmpeqb	.LCPI25_1(%rip), %xmm0
	pmovmskb	%xmm0, %eax
	testl	%eax, %eax
	jne	L_29
.LBB25_23:
	movq	%rsi, %rax
	retq
.Lfunc_end25:

	.section	.rdata$004,"dr"
	.p2align	4, 0x0
.LCPI26_0:
	.zero	16,248
.LCPI26_1:
	.zero	16,216
.LCPI26_2:
	.zero	16,252
.LCPI26_3:
	.zero	16,220
	.section	.text$030,"xr"
	.p2align	4
L_29:
	cmpq	$32, %rsi
	jae	.LBB26_10
	testq	%rsi, %rsi
	je	.LBB26_19
	xorl	%ecx, %ecx
	jmp	.LBB26_4
	.p2align	4
.LBB26_3:
	addq	%rcx, %rax
	movq	%rax, %rcx
	cmpq	%rsi, %rax
	jae	.LBB26_20
.LBB26_4:
	movq	%rsi, %rdx
	subq	%rcx, %rdx
	cmpq	$2, %rdx
	jb	.LBB26_41
	movzbl	1(%rdi,%rcx), %r8d
	movl	%r8d, %r9d
	andl	$-8, %r9d
	movl	$2, %eax
	cmpl	$216, %r9d
	jne	.LBB26_3
	cmpq	$4, %rdx
	jb	.LBB26_41
	movzwl	%r8w, %eax
	andl	$-36, %eax
	movzwl	%ax, %eax
	cmpl	$220, %eax
	je	.LBB26_41
	movzbl	3(%rdi,%rcx), %edx
	andb	$-4, %dl
	movl	$4, %eax
	cmpb	$-36, %dl
	je	.LBB26_3
	jmp	.LBB26_41
.LBB26_10:
	cmpq	$64, %rsi
	jb	.LBB26_18
	movq	%rsi, %rdx
	andq	$-128, %rdx
	leaq	-256(%rsi), %r8
	xorl	%ecx, %ecx
	movq	%rsi, %rax
	jmp	.LBB26_13
	.p2align	4
.LBB26_12:
	movq	%rsi, %rax
	subq	%rcx, %rax
	cmpq	$63, %rax
	jbe	.LBB26_31
.LBB26_13:
	movdqu	(%rdi,%rcx), %xmm2
	movdqu	16(%rdi,%rcx), %xmm0
	movdqu	32(%rdi,%rcx), %xmm3
	movdqu	48(%rdi,%rcx), %xmm1
	psrlw	$8, %xmm1
	psrlw	$8, %xmm3
	packuswb	%xmm1, %xmm3
	psrlw	$8, %xmm0
	psrlw	$8, %xmm2
	packuswb	%xmm0, %xmm2
	movdqa	.LCPI26_0(%rip), %xmm0
	pand	%xmm0, %xmm3
	pand	%xmm0, %xmm2
	movdqa	.LCPI26_1(%rip), %xmm1
	pcmpeqb	%xmm1, %xmm2
	pcmpeqb	%xmm1, %xmm3
	movdqa	%xmm3, %xmm4
	por	%xmm2, %xmm4
	pmovmskb	%xmm4, %r9d
	testl	%r9d, %r9d
	jne	.LBB26_21
	cmpq	$256, %rdx
	sete	%al
	addq	$64, %rcx
	cmpq	$256, %rcx
	setne	%r9b
	orb	%al, %r9b
	jne	.LBB26_12
	movl	$256, %ecx
	movq	%r8, %rax
	.p2align	4
.LBB26_16:
	movdqu	(%rdi,%rcx), %xmm3
	movdqu	16(%rdi,%rcx), %xmm4
	movdqu	32(%rdi,%rcx), %xmm2
	movdqu	48(%rdi,%rcx), %xmm5
	psrlw	$8, %xmm5
	psrlw	$8, %xmm2
	packuswb	%xmm5, %xmm2
	psrlw	$8, %xmm4
	psrlw	$8, %xmm3
	packuswb	%xmm4, %xmm3
	pand	%xmm0, %xmm2
	pand	%xmm0, %xmm3
	pcmpeqb	%xmm1, %xmm3
	pcmpeqb	%xmm1, %xmm2
	por	%xmm3, %xmm2
	movdqu	96(%rdi,%rcx), %xmm3
	movdqu	112(%rdi,%rcx), %xmm4
	movdqu	64(%rdi,%rcx), %xmm5
	movdqu	80(%rdi,%rcx), %xmm6
	psrlw	$8, %xmm6
	psrlw	$8, %xmm5
	packuswb	%xmm6, %xmm5
	psrlw	$8, %xmm4
	psrlw	$8, %xmm3
	packuswb	%xmm4, %xmm3
	pand	%xmm0, %xmm5
	pand	%xmm0, %xmm3
	pcmpeqb	%xmm1, %xmm3
	pcmpeqb	%xmm1, %xmm5
	por	%xmm3, %xmm5
	por	%xmm2, %xmm5
	pmovmskb	%xmm5, %r9d
	testl	%r9d, %r9d
	jne	.LBB26_12
	subq	$-128, %rcx
	addq	$-128, %rax
	cmpq	$127, %rax
	ja	.LBB26_16
	jmp	.LBB26_12
.LBB26_18:
	xorl	%ecx, %ecx
	xorl	%edx, %edx
	jmp	.LBB26_32
.LBB26_19:
	xorl	%eax, %eax
.LBB26_20:
	retq
.LBB26_21:
	cmpq	$64, %rax
	jne	.LBB26_42
.LBB26_22:
	xorl	%edx, %edx
	jmp	.LBB26_24
	.p2align	4
.LBB26_23:
	movzwl	%r8w, %edx
	shrl	$15, %edx
	cmpq	$63, %rax
	jbe	.LBB26_61
.LBB26_24:
	movdqu	(%rdi,%rcx), %xmm3
	movdqu	16(%rdi,%rcx), %xmm4
	movdqu	32(%rdi,%rcx), %xmm2
	movdqu	48(%rdi,%rcx), %xmm5
	psrlw	$8, %xmm4
	psrlw	$8, %xmm3
	packuswb	%xmm4, %xmm3
	psrlw	$8, %xmm5
	psrlw	$8, %xmm2
	packuswb	%xmm5, %xmm2
	movdqa	.LCPI26_2(%rip), %xmm4
	pand	%xmm4, %xmm3
	pand	%xmm4, %xmm2
	movdqa	%xmm2, %xmm4
	pcmpeqb	%xmm1, %xmm4
	movdqa	%xmm3, %xmm5
	pcmpeqb	%xmm1, %xmm5
	pmovmskb	%xmm5, %eax
	pmovmskb	%xmm4, %r8d
	movl	%r8d, %r9d
	shll	$16, %r9d
	orl	%eax, %r9d
	movdqa	.LCPI26_3(%rip), %xmm4
	pcmpeqb	%xmm4, %xmm3
	pmovmskb	%xmm3, %eax
	pcmpeqb	%xmm4, %xmm2
	pmovmskb	%xmm2, %r10d
	shll	$16, %r10d
	orl	%eax, %r10d
	movzbl	%dl, %eax
	andl	$1, %eax
	leal	(%rax,%r9,2), %eax
	cmpl	%r10d, %eax
	jne	.LBB26_61
	addq	$64, %rcx
	movq	%rsi, %rax
	subq	%rcx, %rax
	testw	%r8w, %r8w
	js	.LBB26_23
	cmpq	$64, %rax
	jb	.LBB26_23
	movzbl	%cl, %edx
	orq	%r9, %rdx
	jne	.LBB26_23
	.p2align	4
.LBB26_28:
	movdqu	(%rdi,%rcx), %xmm2
	movdqu	16(%rdi,%rcx), %xmm3
	movdqu	32(%rdi,%rcx), %xmm4
	movdqu	48(%rdi,%rcx), %xmm5
	psrlw	$8, %xmm5
	psrlw	$8, %xmm4
	packuswb	%xmm5, %xmm4
	psrlw	$8, %xmm3
	psrlw	$8, %xmm2
	packuswb	%xmm3, %xmm2
	pand	%xmm0, %xmm4
	pand	%xmm0, %xmm2
	pcmpeqb	%xmm1, %xmm2
	pcmpeqb	%xmm1, %xmm4
	por	%xmm2, %xmm4
	pmovmskb	%xmm4, %edx
	testl	%edx, %edx
	jne	.LBB26_23
	addq	$64, %rcx
	addq	$-64, %rax
	cmpq	$63, %rax
	ja	.LBB26_28
.LBB26_31:
	xorl	%edx, %edx
	cmpq	$32, %rax
	jb	.LBB26_33
.LBB26_32:
	movdqu	(%rdi,%rcx), %xmm0
	movdqu	16(%rdi,%rcx), %xmm1
	psrlw	$8, %xmm1
	psrlw	$8, %xmm0
	packuswb	%xmm1, %xmm0
	pand	.LCPI26_2(%rip), %xmm0
	movdqa	.LCPI26_1(%rip), %xmm1
	pcmpeqb	%xmm0, %xmm1
	pmovmskb	%xmm1, %eax
	movl	%eax, %r8d
	pcmpeqb	.LCPI26_3(%rip), %xmm0
	pmovmskb	%xmm0, %r9d
	movzbl	%dl, %r10d
	movl	%r10d, %edx
	andl	$1, %edx
	andl	$32767, %eax
	leaq	(%rdx,%rax,2), %rax
	leaq	32(%rcx), %rdx
	cmpq	%r9, %rax
	cmoveq	%rdx, %rcx
	xorl	%edx, %edx
	testw	%r8w, %r8w
	sets	%dl
	cmpl	%r9d, %eax
	cmovnel	%r10d, %edx
.LBB26_33:
	leaq	-2(%rcx), %rax
	testb	$1, %dl
	cmoveq	%rcx, %rax
	movq	%rsi, %rcx
	subq	%rax, %rcx
	cmpq	$32, %rcx
	ja	.LBB26_37
	movq	%rax, %rcx
	subq	%rsi, %rcx
	testb	$1, %cl
	jne	.LBB26_47
	movdqu	-32(%rdi,%rsi), %xmm0
	movdqu	-16(%rdi,%rsi), %xmm1
	addl	$32, %ecx
	psrlw	$8, %xmm1
	psrlw	$8, %xmm0
	packuswb	%xmm1, %xmm0
	pand	.LCPI26_2(%rip), %xmm0
	shrl	%ecx
	movdqa	.LCPI26_3(%rip), %xmm1
	pcmpeqb	%xmm0, %xmm1
	pmovmskb	%xmm1, %edx
	shrq	%cl, %rdx
	pcmpeqb	.LCPI26_1(%rip), %xmm0
	pmovmskb	%xmm0, %r8d
	shrq	%cl, %r8
	addl	%r8d, %r8d
	cmpl	%r8d, %edx
	jne	.LBB26_47
	movq	%rsi, %rax
	retq
.LBB26_37:
	cmpq	$64, %rcx
	jae	.LBB26_40
.LBB26_47:
	xorl	%ecx, %ecx
	addq	%rax, %rcx
	cmpq	%rsi, %rcx
	jb	.LBB26_50
	jmp	.LBB26_41
.LBB26_40:
	movdqu	(%rdi,%rax), %xmm0
	movdqu	16(%rdi,%rax), %xmm1
	movdqu	32(%rdi,%rax), %xmm2
	movdqu	48(%rdi,%rax), %xmm3
	psrlw	$8, %xmm3
	psrlw	$8, %xmm2
	packuswb	%xmm3, %xmm2
	psrlw	$8, %xmm1
	psrlw	$8, %xmm0
	packuswb	%xmm1, %xmm0
	movdqa	.LCPI26_0(%rip), %xmm1
	pand	%xmm1, %xmm2
	pand	%xmm1, %xmm0
	movdqa	.LCPI26_1(%rip), %xmm1
	pcmpeqb	%xmm1, %xmm0
	pmovmskb	%xmm0, %ecx
	pcmpeqb	%xmm1, %xmm2
	pmovmskb	%xmm2, %edx
	shll	$16, %edx
	orl	%ecx, %edx
	rep		bsfl	%edx, %r8d
	addl	%r8d, %r8d
	testl	%edx, %edx
	movl	$64, %ecx
	cmovnel	%r8d, %ecx
	addq	%rax, %rcx
	cmpq	%rsi, %rcx
	jb	.LBB26_50
	jmp	.LBB26_41
	.p2align	4
.LBB26_49:
	addq	%rcx, %rax
	movq	%rax, %rcx
	cmpq	%rsi, %rax
	jae	.LBB26_20
.LBB26_50:
	movq	%rsi, %rdx
	subq	%rcx, %rdx
	cmpq	$2, %rdx
	jb	.LBB26_41
	movzbl	1(%rdi,%rcx), %r8d
	movl	%r8d, %r9d
	andl	$-8, %r9d
	movl	$2, %eax
	cmpl	$216, %r9d
	jne	.LBB26_49
	cmpq	$4, %rdx
	jb	.LBB26_41
	movzwl	%r8w, %eax
	andl	$-36, %eax
	movzwl	%ax, %eax
	cmpl	$220, %eax
	je	.LBB26_41
	movzbl	3(%rdi,%rcx), %edx
	andb	$-4, %dl
	movl	$4, %eax
	cmpb	$-36, %dl
	je	.LBB26_49
.LBB26_41:
	movq	%rcx, %rax
	retq
.LBB26_42:
	pmovmskb	%xmm2, %eax
	pmovmskb	%xmm3, %edx
	shll	$16, %edx
	orl	%eax, %edx
	rep		bsfl	%edx, %r8d
	addl	%r8d, %r8d
	testl	%edx, %edx
	movl	$64, %eax
	cmovnel	%r8d, %eax
	addq	%rcx, %rax
	movq	%rsi, %rdx
	subq	%rax, %rdx
	cmpq	$2, %rdx
	jb	.LBB26_20
	movzbl	1(%rdi,%rax), %r8d
	movl	%r8d, %r9d
	andl	$-8, %r9d
	cmpl	$216, %r9d
	jne	.LBB26_22
	cmpq	$4, %rdx
	jb	.LBB26_20
	movzwl	%r8w, %edx
	andl	$-36, %edx
	movzwl	%dx, %edx
	cmpl	$220, %edx
	je	.LBB26_20
	movzbl	3(%rdi,%rax), %edx
	andb	$-4, %dl
	cmpb	$-36, %dl
	jne	.LBB26_20
	jmp	.LBB26_22
.LBB26_61:
	movq	%rsi, %rax
	subq	%rcx, %rax
	cmpq	$32, %rax
	jae	.LBB26_32
	jmp	.LBB26_33
.Lfunc_end26:

	.section	.text$031,"xr"
	.p2align	4
L_28:
	pushq	%r15
	pushq	%r14
	pushq	%r13
	pushq	%r12
	pushq	%rbx
	subq	$48, %rsp
	movq	%rdx, %rbx
	movq	%rsi, %r14
	movq	%rdi, %r15
	movq	%rsi, %rax
	shrq	%rax
	leaq	(%rax,%rax,2), %r12
	addq	$128, %r12
	cmpq	$191, %rsi
	jbe	.LBB27_3
	xorps	%xmm0, %xmm0
	movaps	%xmm0, 16(%rsp)
	movaps	%xmm0, (%rsp)
	movq	$0, 32(%rsp)
	movq	%rsp, %rdi
	movq	%r15, %rsi
	movq	%r14, %rdx
	movq	%rbx, %rcx
	movq	%r12, %r8
	callq	L_25
	movq	(%rsp), %rax
	movq	8(%rsp), %rcx
	leaq	-2(%rax), %rdx
	leaq	-2(%rcx), %r13
	testb	$1, 32(%rsp)
	cmoveq	%rcx, %r13
	cmoveq	%rax, %rdx
	addq	%rdx, %r15
	subq	%rdx, %r14
	addq	%r13, %rbx
	cmpq	$7, %r14
	ja	.LBB27_5
	movq	%r15, %rdi
	movq	%r14, %rsi
	movq	%rbx, %rdx
	callq	L_30
	jmp	.LBB27_6
.LBB27_3:
	movq	%r15, %rdi
	movq	%r14, %rsi
	movq	%rbx, %rdx
	cmpq	$7, %r14
	jbe	.LBB27_8
	movq	%r12, %rcx
	callq	L_22
	movq	%rdx, %rax
	jmp	.LBB27_7
.LBB27_5:
	subq	%r13, %r12
	movq	%r15, %rdi
	movq	%r14, %rsi
	movq	%rbx, %rdx
	movq	%r12, %rcx
	callq	L_22
	movq	%rdx, %rax
.LBB27_6:
	addq	%r13, %rax
.LBB27_7:
	addq	$48, %rsp
	popq	%rbx
	popq	%r12
	popq	%r13
	popq	%r14
	popq	%r15
	retq
.LBB27_8:
	addq	$48, %rsp
	popq	%rbx
	popq	%r12
	popq	%r13
	popq	%r14
	popq	%r15
	jmp	L_30
.Lfunc_end27:

	.section	.text$032,"xr"
	.p2align	4
L_30:
	pushq	%r15
	pushq	%r14
	pushq	%r12
	pushq	%rbx
	pushq	%rax
	testq	%rsi, %rsi
	je	.LBB28_1
	movq	%rdx, %rbx
	movq	%rsi, %r14
	movq	%rdi, %r12
	xorl	%r15d, %r15d
	jmp	.LBB28_3
	.p2align	4
.LBB28_7:
	movb	%al, (%rbx,%r15)
	incq	%r15
.LBB28_13:
	addq	%rcx, %r12
	subq	%rcx, %r14
	je	.LBB28_14
.LBB28_3:
	movzbl	(%r12), %ecx
	movzbl	1(%r12), %edx
	movl	%edx, %eax
	shll	$8, %eax
	orl	%ecx, %eax
	andl	$-4, %edx
	cmpl	$216, %edx
	jne	.LBB28_4
	movzwl	2(%r12), %esi
	movl	%eax, %edi
	callq	L_17
	movl	$4, %ecx
	cmpl	$127, %eax
	jbe	.LBB28_7
	jmp	.LBB28_8
	.p2align	4
.LBB28_4:
	movl	$2, %ecx
	cmpl	$127, %eax
	jbe	.LBB28_7
.LBB28_8:
	movl	%eax, %edx
	andb	$63, %dl
	orb	$-128, %dl
	cmpl	$2047, %eax
	ja	.LBB28_10
	shrl	$6, %eax
	movzbl	%dl, %edx
	shll	$8, %edx
	orl	%eax, %edx
	orl	$192, %edx
	movw	%dx, (%rbx,%r15)
	addq	$2, %r15
	jmp	.LBB28_13
	.p2align	4
.LBB28_10:
	movl	%eax, %esi
	cmpl	$65535, %eax
	ja	.LBB28_12
	shrl	$6, %esi
	andb	$63, %sil
	orb	$-128, %sil
	shrl	$12, %eax
	orb	$-32, %al
	movb	%al, (%rbx,%r15)
	movb	%sil, 1(%rbx,%r15)
	movb	%dl, 2(%rbx,%r15)
	addq	$3, %r15
	jmp	.LBB28_13
.LBB28_12:
	shrl	$18, %esi
	addl	$240, %esi
	movzbl	%dl, %edx
	shll	$24, %edx
	movl	%eax, %edi
	shll	$10, %edi
	andl	$4128768, %edi
	orl	%edx, %edi
	shrl	$4, %eax
	andl	$16128, %eax
	orl	%edi, %eax
	movzbl	%sil, %edx
	addl	%edx, %eax
	addl	$8421376, %eax
	movl	%eax, (%rbx,%r15)
	addq	$4, %r15
	jmp	.LBB28_13
.LBB28_1:
	xorl	%r15d, %r15d
.LBB28_14:
	movq	%r15, %rax
	addq	$8, %rsp
	popq	%rbx
	popq	%r12
	popq	%r14
	popq	%r15
	retq
.Lfunc_end28:

	.section	.rdata$004,"dr"
	.p2align	4, 0x0
.LCPI29_0:
	.short	255
	.short	255
	.short	255
	.short	255
	.short	255
	.short	255
	.short	255
	.short	255
	.section	.text$033,"xr"
	.p2align	4
L_24:
	pushq	%rbp
	pushq	%r15
	pushq	%r14
	pushq	%rbx
	movq	%rdx, %r8
	leaq	-66(%rsi), %r9
	addq	$-35, %rcx
	xorl	%eax, %eax
	xorl	%edx, %edx
	.p2align	4
.LBB29_1:
	movdqu	(%rdi,%rax), %xmm0
	movdqu	16(%rdi,%rax), %xmm1
	movdqu	32(%rdi,%rax), %xmm2
	movdqu	48(%rdi,%rax), %xmm3
	movdqa	.LCPI29_0(%rip), %xmm4
	pminuw	%xmm4, %xmm3
	pminuw	%xmm4, %xmm2
	packuswb	%xmm3, %xmm2
	pminuw	%xmm4, %xmm1
	pminuw	%xmm4, %xmm0
	packuswb	%xmm1, %xmm0
	movdqu	%xmm2, 16(%r8,%rdx)
	movdqu	%xmm0, (%r8,%rdx)
	pmovmskb	%xmm0, %r11d
	pmovmskb	%xmm2, %r10d
	shll	$16, %r10d
	orl	%r11d, %r10d
	testl	%r10d, %r10d
	je	.LBB29_2
	rep		bsfl	%r10d, %r10d
	leal	(%r10,%r10), %r11d
	movq	%rsi, %rbx
	subq	%rax, %rbx
	subq	%r11, %rbx
	cmpq	$2, %rbx
	jb	.LBB29_13
	leaq	(%rdi,%rax), %r14
	movzbl	1(%r14,%r11), %ebp
	movl	%ebp, %r15d
	andl	$-8, %r15d
	cmpl	$216, %r15d
	jne	.LBB29_13
	movzwl	%bp, %ebp
	notl	%ebp
	testb	$-36, %bpl
	je	.LBB29_8
	cmpq	$4, %rbx
	jb	.LBB29_13
	movzbl	3(%r14,%r11), %ebx
	andb	$-4, %bl
	cmpb	$-36, %bl
	je	.LBB29_13
.LBB29_8:
	leaq	(%r8,%rdx), %rbx
	addq	$2, %r11
	addq	%r10, %rbx
	addq	$3, %r10
	leaq	.Lstatic.6(%rip), %r14
	movq	%rbx, %r15
	subq	%r14, %r15
	cmpq	$2, %r15
	ja	.LBB29_10
	movw	$-16401, (%rbx)
	movb	$-67, 2(%rbx)
	addq	%r11, %rax
	addq	%r10, %rdx
	cmpq	%r9, %rax
	jbe	.LBB29_12
	jmp	.LBB29_13
	.p2align	4
.LBB29_2:
	movl	$64, %r11d
	movl	$32, %r10d
	addq	%r11, %rax
	addq	%r10, %rdx
	cmpq	%r9, %rax
	jbe	.LBB29_12
	jmp	.LBB29_13
	.p2align	4
.LBB29_10:
	movb	$-67, 2(%rbx)
	movw	$-16401, (%rbx)
	addq	%r11, %rax
	addq	%r10, %rdx
	cmpq	%r9, %rax
	ja	.LBB29_13
.LBB29_12:
	cmpq	%rcx, %rdx
	jbe	.LBB29_1
.LBB29_13:
	popq	%rbx
	popq	%r14
	popq	%r15
	popq	%rbp
	retq
.Lfunc_end29:

	.section	.text$034,"xr"
	.p2align	4
L_21:
	pushq	%r15
	pushq	%r14
	pushq	%r13
	pushq	%r12
	pushq	%rbx
	subq	$1024, %rsp
	movq	%rdx, %rbx
	movq	%rdi, %r15
	leaq	-128(%rcx), %rax
	movabsq	$-6148914691236517205, %rcx
	mulq	%rcx
	andq	$-2, %rdx
	cmpq	%rsi, %rdx
	cmovaeq	%rsi, %rdx
	cmpq	$1024, %rdx
	movl	$1024, %r14d
	cmovbq	%rdx, %r14
	movq	%rsp, %rdi
	movl	$1024, %edx
	xorl	%esi, %esi
	callq	sysv_memset
	andq	$2046, %r14
	je	.LBB30_3
	movzbl	-1(%r15,%r14), %eax
	andb	$-4, %al
	cmpb	$-40, %al
	jne	.LBB30_3
	addq	$-2, %r14
.LBB30_3:
	movq	%rsp, %rdi
	movq	%r15, %rsi
	movq	%r14, %rdx
	callq	sysv_memcpy
	movq	%r14, %r15
	andq	$-2, %r15
	je	.LBB30_13
	xorl	%r12d, %r12d
	jmp	.LBB30_5
	.p2align	4
.LBB30_11:
	movw	$-3, (%rsp,%r12)
	movl	$2, %eax
	addq	%rax, %r12
	cmpq	%r15, %r12
	jae	.LBB30_13
.LBB30_5:
	movq	%r15, %rax
	subq	%r12, %rax
	cmpq	$2, %rax
	jb	.LBB30_11
	movzbl	1(%rsp,%r12), %ecx
	movl	%ecx, %edx
	andl	$-8, %edx
	movl	$2, %r13d
	cmpl	$216, %edx
	jne	.LBB30_10
	cmpq	$4, %rax
	jb	.LBB30_11
	movzwl	%cx, %eax
	andl	$-36, %eax
	movzwl	%ax, %eax
	cmpl	$220, %eax
	je	.LBB30_11
	movzbl	3(%rsp,%r12), %eax
	andb	$-4, %al
	movl	$4, %r13d
	cmpb	$-36, %al
	jne	.LBB30_11
	.p2align	4
.LBB30_10:
	leaq	(%r12,%r13), %rax
	leaq	(%rsp,%rax), %rdi
	movq	%r15, %rsi
	subq	%rax, %rsi
	callq	L_27
	addq	%r13, %rax
	addq	%rax, %r12
	cmpq	%r15, %r12
	jb	.LBB30_5
.LBB30_13:
	movq	%rsp, %rdi
	movq	%r14, %rsi
	movq	%rbx, %rdx
	callq	L_28
	movq	%rax, %rdx
	movq	%r14, %rax
	addq	$1024, %rsp
	popq	%rbx
	popq	%r12
	popq	%r13
	popq	%r14
	popq	%r15
	retq
.Lfunc_end30:

	.section	.rdata$004,"dr"
	.p2align	4, 0x0
.LCPI31_0:
	.byte	116
	.byte	104
	.byte	105
	.byte	115
	.byte	32
	.byte	109
	.byte	97
	.byte	99
	.byte	104
	.byte	105
	.byte	110
	.byte	101
	.byte	32
	.byte	108
	.byte	97
	.byte	99
.LCPI31_1:
	.byte	107
	.byte	115
	.byte	32
	.byte	97
	.byte	32
	.byte	102
	.byte	101
	.byte	97
	.byte	116
	.byte	117
	.byte	114
	.byte	101
	.byte	32
	.byte	111
	.byte	102
	.byte	32
.LCPI31_2:
	.byte	120
	.byte	56
	.byte	54
	.byte	45
	.byte	54
	.byte	52
	.byte	45
	.byte	118
	.byte	50
	.byte	44
	.byte	32
	.byte	119
	.byte	104
	.byte	105
	.byte	99
	.byte	104
.LCPI31_3:
	.byte	32
	.byte	116
	.byte	104
	.byte	105
	.byte	115
	.byte	32
	.byte	112
	.byte	114
	.byte	111
	.byte	103
	.byte	114
	.byte	97
	.byte	109
	.byte	32
	.byte	119
	.byte	97
.LCPI31_4:
	.byte	115
	.byte	32
	.byte	98
	.byte	117
	.byte	105
	.byte	108
	.byte	116
	.byte	32
	.byte	102
	.byte	111
	.byte	114
	.byte	58
	.byte	32
	.byte	114
	.byte	117
	.byte	110
.LCPI31_5:
	.byte	32
	.byte	105
	.byte	116
	.byte	32
	.byte	111
	.byte	110
	.byte	32
	.byte	97
	.byte	110
	.byte	111
	.byte	116
	.byte	104
	.byte	101
	.byte	114
	.byte	32
	.byte	109
.LCPI31_6:
	.byte	97
	.byte	99
	.byte	104
	.byte	105
	.byte	110
	.byte	101
	.byte	44
	.byte	32
	.byte	111
	.byte	114
	.byte	32
	.byte	98
	.byte	117
	.byte	105
	.byte	108
	.byte	100
.LCPI31_7:
	.byte	32
	.byte	105
	.byte	116
	.byte	32
	.byte	119
	.byte	105
	.byte	116
	.byte	104
	.byte	32
	.byte	45
	.byte	45
	.byte	99
	.byte	112
	.byte	117
	.byte	32
	.byte	120
	.section	.text$035,"xr"
	.globl	proved_main_v2
	.p2align	4
proved_main_v2:
	pushq	%rbp
	movq	%rsp, %rbp
	pushq	%rbx
	pushq	%rax
	movl	$1, %esi
	movl	$13, %edi
	callq	__sysv_signal
	xorl	%edi, %edi
	callq	__x86_get_cpuid_feature_leaf
	movl	24(%rax), %ebx
	movl	$2, %edi
	callq	__x86_get_cpuid_feature_leaf
	notl	%ebx
	testl	$9970177, %ebx
	jne	.LBB31_2
	movl	24(%rax), %eax
	andl	$1, %eax
	je	.LBB31_2
	leaq	-8(%rbp), %rsp
	popq	%rbx
	popq	%rbp
	jmp	L_0
.LBB31_2:
	movq	%rsp, %rsi
	subq	$144, %rsi
	cmpq	%rsp, %rsi
	jge	.LBB31_5
.LBB31_4:
	xorq	$0, (%rsp)
	subq	$3072, %rsp
	cmpq	%rsp, %rsi
	jl	.LBB31_4
.LBB31_5:
	movq	%rsi, %rsp
	movaps	.LCPI31_0(%rip), %xmm0
	movaps	%xmm0, (%rsi)
	movaps	.LCPI31_1(%rip), %xmm0
	movaps	%xmm0, 16(%rsi)
	movaps	.LCPI31_2(%rip), %xmm0
	movaps	%xmm0, 32(%rsi)
	movaps	.LCPI31_3(%rip), %xmm0
	movaps	%xmm0, 48(%rsi)
	movaps	.LCPI31_4(%rip), %xmm0
	movaps	%xmm0, 64(%rsi)
	movaps	.LCPI31_5(%rip), %xmm0
	movaps	%xmm0, 80(%rsi)
	movaps	.LCPI31_6(%rip), %xmm0
	movaps	%xmm0, 96(%rsi)
	movaps	.LCPI31_7(%rip), %xmm0
	movaps	%xmm0, 112(%rsi)
	movl	$908932664, 128(%rsi)
	movw	$2612, 132(%rsi)
	movl	$134, %edx
	movl	$2, %edi
	callq	__write
	movl	$127, %eax
	leaq	-8(%rbp), %rsp
	popq	%rbx
	popq	%rbp
	retq
.Lfunc_end31:

	.section	.rdata$036,"dr"
.Lstatic.6:
	.ascii	"\357\277\275"

	.section	.rdata$037,"dr"
.Lstatic.8:
	.asciz	"\000\001\002\003\004\005\006\007\b\t\n\013\f\r\016\017\000\002\003\004\005\006\007\b\t\n\013\f\r\016\017\000\000\001\002\004\005\006\007\b\t\n\013\f\r\016\017\000\000\002\004\005\006\007\b\t\n\013\f\r\016\017\000\000\000\001\002\003\004\006\007\b\t\n\013\f\r\016\017\000\000\002\003\004\006\007\b\t\n\013\f\r\016\017\000\000\000\001\002\004\006\007\b\t\n\013\f\r\016\017\000\000\000\002\004\006\007\b\t\n\013\f\r\016\017\000\000\000\000\001\002\003\004\005\006\b\t\n\013\f\r\016\017\000\000\002\003\004\005\006\b\t\n\013\f\r\016\017\000\000\000\001\002\004\005\006\b\t\n\013\f\r\016\017\000\000\000\002\004\005\006\b\t\n\013\f\r\016\017\000\000\000\000\001\002\003\004\006\b\t\n\013\f\r\016\017\000\000\000\002\003\004\006\b\t\n\013\f\r\016\017\000\000\000\000\001\002\004\006\b\t\n\013\f\r\016\017\000\000\000\000\002\004\006\b\t\n\013\f\r\016\017\000\000\000\000\000\001\002\003\004\005\006\007\b\n\013\f\r\016\017\000\000\002\003\004\005\006\007\b\n\013\f\r\016\017\000\000\000\001\002\004\005\006\007\b\n\013\f\r\016\017\000\000\000\002\004\005\006\007\b\n\013\f\r\016\017\000\000\000\000\001\002\003\004\006\007\b\n\013\f\r\016\017\000\000\000\002\003\004\006\007\b\n\013\f\r\016\017\000\000\000\000\001\002\004\006\007\b\n\013\f\r\016\017\000\000\000\000\002\004\006\007\b\n\013\f\r\016\017\000\000\000\000\000\001\002\003\004\005\006\b\n\013\f\r\016\017\000\000\000\002\003\004\005\006\b\n\013\f\r\016\017\000\000\000\000\001\002\004\005\006\b\n\013\f\r\016\017\000\000\000\000\002\004\005\006\b\n\013\f\r\016\017\000\000\000\000\000\001\002\003\004\006\b\n\013\f\r\016\017\000\000\000\000\002\003\004\006\b\n\013\f\r\016\017\000\000\000\000\000\001\002\004\006\b\n\013\f\r\016\017\000\000\000\000\000\002\004\006\b\n\013\f\r\016\017\000\000\000\000\000\000\001\002\003\004\005\006\007\b\t\n\f\r\016\017\000\000\002\003\004\005\006\007\b\t\n\f\r\016\017\000\000\000\001\002\004\005\006\007\b\t\n\f\r\016\017\000\000\000\002\004\005\006\007\b\t\n\f\r\016\017\000\000\000\000\001\002\003\004\006\007\b\t\n\f\r\016\017\000\000\000\002\003\004\006\007\b\t\n\f\r\016\017\000\000\000\000\001\002\004\006\007\b\t\n\f\r\016\017\000\000\000\000\002\004\006\007\b\t\n\f\r\016\017\000\000\000\000\000\001\002\003\004\005\006\b\t\n\f\r\016\017\000\000\000\002\003\004\005\006\b\t\n\f\r\016\017\000\000\000\000\001\002\004\005\006\b\t\n\f\r\016\017\000\000\000\000\002\004\005\006\b\t\n\f\r\016\017\000\000\000\000\000\001\002\003\004\006\b\t\n\f\r\016\017\000\000\000\000\002\003\004\006\b\t\n\f\r\016\017\000\000\000\000\000\001\002\004\006\b\t\n\f\r\016\017\000\000\000\000\000\002\004\006\b\t\n\f\r\016\017\000\000\000\000\000\000\001\002\003\004\005\006\007\b\n\f\r\016\017\000\000\000\002\003\004\005\006\007\b\n\f\r\016\017\000\000\000\000\001\002\004\005\006\007\b\n\f\r\016\017\000\000\000\000\002\004\005\006\007\b\n\f\r\016\017\000\000\000\000\000\001\002\003\004\006\007\b\n\f\r\016\017\000\000\000\000\002\003\004\006\007\b\n\f\r\016\017\000\000\000\000\000\001\002\004\006\007\b\n\f\r\016\017\000\000\000\000\000\002\004\006\007\b\n\f\r\016\017\000\000\000\000\000\000\001\002\003\004\005\006\b\n\f\r\016\017\000\000\000\000\002\003\004\005\006\b\n\f\r\016\017\000\000\000\000\000\001\002\004\005\006\b\n\f\r\016\017\000\000\000\000\000\002\004\005\006\b\n\f\r\016\017\000\000\000\000\000\000\001\002\003\004\006\b\n\f\r\016\017\000\000\000\000\000\002\003\004\006\b\n\f\r\016\017\000\000\000\000\000\000\001\002\004\006\b\n\f\r\016\017\000\000\000\000\000\000\002\004\006\b\n\f\r\016\017\000\000\000\000\000\000\000\001\002\003\004\005\006\007\b\t\n\013\f\016\017\000\000\002\003\004\005\006\007\b\t\n\013\f\016\017\000\000\000\001\002\004\005\006\007\b\t\n\013\f\016\017\000\000\000\002\004\005\006\007\b\t\n\013\f\016\017\000\000\000\000\001\002\003\004\006\007\b\t\n\013\f\016\017\000\000\000\002\003\004\006\007\b\t\n\013\f\016\017\000\000\000\000\001\002\004\006\007\b\t\n\013\f\016\017\000\000\000\000\002\004\006\007\b\t\n\013\f\016\017\000\000\000\000\000\001\002\003\004\005\006\b\t\n\013\f\016\017\000\000\000\002\003\004\005\006\b\t\n\013\f\016\017\000\000\000\000\001\002\004\005\006\b\t\n\013\f\016\017\000\000\000\000\002\004\005\006\b\t\n\013\f\016\017\000\000\000\000\000\001\002\003\004\006\b\t\n\013\f\016\017\000\000\000\000\002\003\004\006\b\t\n\013\f\016\017\000\000\000\000\000\001\002\004\006\b\t\n\013\f\016\017\000\000\000\000\000\002\004\006\b\t\n\013\f\016\017\000\000\000\000\000\000\001\002\003\004\005\006\007\b\n\013\f\016\017\000\000\000\002\003\004\005\006\007\b\n\013\f\016\017\000\000\000\000\001\002\004\005\006\007\b\n\013\f\016\017\000\000\000\000\002\004\005\006\007\b\n\013\f\016\017\000\000\000\000\000\001\002\003\004\006\007\b\n\013\f\016\017\000\000\000\000\002\003\004\006\007\b\n\013\f\016\017\000\000\000\000\000\001\002\004\006\007\b\n\013\f\016\017\000\000\000\000\000\002\004\006\007\b\n\013\f\016\017\000\000\000\000\000\000\001\002\003\004\005\006\b\n\013\f\016\017\000\000\000\000\002\003\004\005\006\b\n\013\f\016\017\000\000\000\000\000\001\002\004\005\006\b\n\013\f\016\017\000\000\000\000\000\002\004\005\006\b\n\013\f\016\017\000\000\000\000\000\000\001\002\003\004\006\b\n\013\f\016\017\000\000\000\000\000\002\003\004\006\b\n\013\f\016\017\000\000\000\000\000\000\001\002\004\006\b\n\013\f\016\017\000\000\000\000\000\000\002\004\006\b\n\013\f\016\017\000\000\000\000\000\000\000\001\002\003\004\005\006\007\b\t\n\f\016\017\000\000\000\002\003\004\005\006\007\b\t\n\f\016\017\000\000\000\000\001\002\004\005\006\007\b\t\n\f\016\017\000\000\000\000\002\004\005\006\007\b\t\n\f\016\017\000\000\000\000\000\001\002\003\004\006\007\b\t\n\f\016\017\000\000\000\000\002\003\004\006\007\b\t\n\f\016\017\000\000\000\000\000\001\002\004\006\007\b\t\n\f\016\017\000\000\000\000\000\002\004\006\007\b\t\n\f\016\017\000\000\000\000\000\000\001\002\003\004\005\006\b\t\n\f\016\017\000\000\000\000\002\003\004\005\006\b\t\n\f\016\017\000\000\000\000\000\001\002\004\005\006\b\t\n\f\016\017\000\000\000\000\000\002\004\005\006\b\t\n\f\016\017\000\000\000\000\000\000\001\002\003\004\006\b\t\n\f\016\017\000\000\000\000\000\002\003\004\006\b\t\n\f\016\017\000\000\000\000\000\000\001\002\004\006\b\t\n\f\016\017\000\000\000\000\000\000\002\004\006\b\t\n\f\016\017\000\000\000\000\000\000\000\001\002\003\004\005\006\007\b\n\f\016\017\000\000\000\000\002\003\004\005\006\007\b\n\f\016\017\000\000\000\000\000\001\002\004\005\006\007\b\n\f\016\017\000\000\000\000\000\002\004\005\006\007\b\n\f\016\017\000\000\000\000\000\000\001\002\003\004\006\007\b\n\f\016\017\000\000\000\000\000\002\003\004\006\007\b\n\f\016\017\000\000\000\000\000\000\001\002\004\006\007\b\n\f\016\017\000\000\000\000\000\000\002\004\006\007\b\n\f\016\017\000\000\000\000\000\000\000\001\002\003\004\005\006\b\n\f\016\017\000\000\000\000\000\002\003\004\005\006\b\n\f\016\017\000\000\000\000\000\000\001\002\004\005\006\b\n\f\016\017\000\000\000\000\000\000\002\004\005\006\b\n\f\016\017\000\000\000\000\000\000\000\001\002\003\004\006\b\n\f\016\017\000\000\000\000\000\000\002\003\004\006\b\n\f\016\017\000\000\000\000\000\000\000\001\002\004\006\b\n\f\016\017\000\000\000\000\000\000\000\002\004\006\b\n\f\016\017\000\000\000\000\000\000\000\000\001\002\003\004\005\006\007\b\t\n\013\f\r\016\000\000\002\003\004\005\006\007\b\t\n\013\f\r\016\000\000\000\001\002\004\005\006\007\b\t\n\013\f\r\016\000\000\000\002\004\005\006\007\b\t\n\013\f\r\016\000\000\000\000\001\002\003\004\006\007\b\t\n\013\f\r\016\000\000\000\002\003\004\006\007\b\t\n\013\f\r\016\000\000\000\000\001\002\004\006\007\b\t\n\013\f\r\016\000\000\000\000\002\004\006\007\b\t\n\013\f\r\016\000\000\000\000\000\001\002\003\004\005\006\b\t\n\013\f\r\016\000\000\000\002\003\004\005\006\b\t\n\013\f\r\016\000\000\000\000\001\002\004\005\006\b\t\n\013\f\r\016\000\000\000\000\002\004\005\006\b\t\n\013\f\r\016\000\000\000\000\000\001\002\003\004\006\b\t\n\013\f\r\016\000\000\000\000\002\003\004\006\b\t\n\013\f\r\016\000\000\000\000\000\001\002\004\006\b\t\n\013\f\r\016\000\000\000\000\000\002\004\006\b\t\n\013\f\r\016\000\000\000\000\000\000\001\002\003\004\005\006\007\b\n\013\f\r\016\000\000\000\002\003\004\005\006\007\b\n\013\f\r\016\000\000\000\000\001\002\004\005\006\007\b\n\013\f\r\016\000\000\000\000\002\004\005\006\007\b\n\013\f\r\016\000\000\000\000\000\001\002\003\004\006\007\b\n\013\f\r\016\000\000\000\000\002\003\004\006\007\b\n\013\f\r\016\000\000\000\000\000\001\002\004\006\007\b\n\013\f\r\016\000\000\000\000\000\002\004\006\007\b\n\013\f\r\016\000\000\000\000\000\000\001\002\003\004\005\006\b\n\013\f\r\016\000\000\000\000\002\003\004\005\006\b\n\013\f\r\016\000\000\000\000\000\001\002\004\005\006\b\n\013\f\r\016\000\000\000\000\000\002\004\005\006\b\n\013\f\r\016\000\000\000\000\000\000\001\002\003\004\006\b\n\013\f\r\016\000\000\000\000\000\002\003\004\006\b\n\013\f\r\016\000\000\000\000\000\000\001\002\004\006\b\n\013\f\r\016\000\000\000\000\000\000\002\004\006\b\n\013\f\r\016\000\000\000\000\000\000\000\001\002\003\004\005\006\007\b\t\n\f\r\016\000\000\000\002\003\004\005\006\007\b\t\n\f\r\016\000\000\000\000\001\002\004\005\006\007\b\t\n\f\r\016\000\000\000\000\002\004\005\006\007\b\t\n\f\r\016\000\000\000\000\000\001\002\003\004\006\007\b\t\n\f\r\016\000\000\000\000\002\003\004\006\007\b\t\n\f\r\016\000\000\000\000\000\001\002\004\006\007\b\t\n\f\r\016\000\000\000\000\000\002\004\006\007\b\t\n\f\r\016\000\000\000\000\000\000\001\002\003\004\005\006\b\t\n\f\r\016\000\000\000\000\002\003\004\005\006\b\t\n\f\r\016\000\000\000\000\000\001\002\004\005\006\b\t\n\f\r\016\000\000\000\000\000\002\004\005\006\b\t\n\f\r\016\000\000\000\000\000\000\001\002\003\004\006\b\t\n\f\r\016\000\000\000\000\000\002\003\004\006\b\t\n\f\r\016\000\000\000\000\000\000\001\002\004\006\b\t\n\f\r\016\000\000\000\000\000\000\002\004\006\b\t\n\f\r\016\000\000\000\000\000\000\000\001\002\003\004\005\006\007\b\n\f\r\016\000\000\000\000\002\003\004\005\006\007\b\n\f\r\016\000\000\000\000\000\001\002\004\005\006\007\b\n\f\r\016\000\000\000\000\000\002\004\005\006\007\b\n\f\r\016\000\000\000\000\000\000\001\002\003\004\006\007\b\n\f\r\016\000\000\000\000\000\002\003\004\006\007\b\n\f\r\016\000\000\000\000\000\000\001\002\004\006\007\b\n\f\r\016\000\000\000\000\000\000\002\004\006\007\b\n\f\r\016\000\000\000\000\000\000\000\001\002\003\004\005\006\b\n\f\r\016\000\000\000\000\000\002\003\004\005\006\b\n\f\r\016\000\000\000\000\000\000\001\002\004\005\006\b\n\f\r\016\000\000\000\000\000\000\002\004\005\006\b\n\f\r\016\000\000\000\000\000\000\000\001\002\003\004\006\b\n\f\r\016\000\000\000\000\000\000\002\003\004\006\b\n\f\r\016\000\000\000\000\000\000\000\001\002\004\006\b\n\f\r\016\000\000\000\000\000\000\000\002\004\006\b\n\f\r\016\000\000\000\000\000\000\000\000\001\002\003\004\005\006\007\b\t\n\013\f\016\000\000\000\002\003\004\005\006\007\b\t\n\013\f\016\000\000\000\000\001\002\004\005\006\007\b\t\n\013\f\016\000\000\000\000\002\004\005\006\007\b\t\n\013\f\016\000\000\000\000\000\001\002\003\004\006\007\b\t\n\013\f\016\000\000\000\000\002\003\004\006\007\b\t\n\013\f\016\000\000\000\000\000\001\002\004\006\007\b\t\n\013\f\016\000\000\000\000\000\002\004\006\007\b\t\n\013\f\016\000\000\000\000\000\000\001\002\003\004\005\006\b\t\n\013\f\016\000\000\000\000\002\003\004\005\006\b\t\n\013\f\016\000\000\000\000\000\001\002\004\005\006\b\t\n\013\f\016\000\000\000\000\000\002\004\005\006\b\t\n\013\f\016\000\000\000\000\000\000\001\002\003\004\006\b\t\n\013\f\016\000\000\000\000\000\002\003\004\006\b\t\n\013\f\016\000\000\000\000\000\000\001\002\004\006\b\t\n\013\f\016\000\000\000\000\000\000\002\004\006\b\t\n\013\f\016\000\000\000\000\000\000\000\001\002\003\004\005\006\007\b\n\013\f\016\000\000\000\000\002\003\004\005\006\007\b\n\013\f\016\000\000\000\000\000\001\002\004\005\006\007\b\n\013\f\016\000\000\000\000\000\002\004\005\006\007\b\n\013\f\016\000\000\000\000\000\000\001\002\003\004\006\007\b\n\013\f\016\000\000\000\000\000\002\003\004\006\007\b\n\013\f\016\000\000\000\000\000\000\001\002\004\006\007\b\n\013\f\016\000\000\000\000\000\000\002\004\006\007\b\n\013\f\016\000\000\000\000\000\000\000\001\002\003\004\005\006\b\n\013\f\016\000\000\000\000\000\002\003\004\005\006\b\n\013\f\016\000\000\000\000\000\000\001\002\004\005\006\b\n\013\f\016\000\000\000\000\000\000\002\004\005\006\b\n\013\f\016\000\000\000\000\000\000\000\001\002\003\004\006\b\n\013\f\016\000\000\000\000\000\000\002\003\004\006\b\n\013\f\016\000\000\000\000\000\000\000\001\002\004\006\b\n\013\f\016\000\000\000\000\000\000\000\002\004\006\b\n\013\f\016\000\000\000\000\000\000\000\000\001\002\003\004\005\006\007\b\t\n\f\016\000\000\000\000\002\003\004\005\006\007\b\t\n\f\016\000\000\000\000\000\001\002\004\005\006\007\b\t\n\f\016\000\000\000\000\000\002\004\005\006\007\b\t\n\f\016\000\000\000\000\000\000\001\002\003\004\006\007\b\t\n\f\016\000\000\000\000\000\002\003\004\006\007\b\t\n\f\016\000\000\000\000\000\000\001\002\004\006\007\b\t\n\f\016\000\000\000\000\000\000\002\004\006\007\b\t\n\f\016\000\000\000\000\000\000\000\001\002\003\004\005\006\b\t\n\f\016\000\000\000\000\000\002\003\004\005\006\b\t\n\f\016\000\000\000\000\000\000\001\002\004\005\006\b\t\n\f\016\000\000\000\000\000\000\002\004\005\006\b\t\n\f\016\000\000\000\000\000\000\000\001\002\003\004\006\b\t\n\f\016\000\000\000\000\000\000\002\003\004\006\b\t\n\f\016\000\000\000\000\000\000\000\001\002\004\006\b\t\n\f\016\000\000\000\000\000\000\000\002\004\006\b\t\n\f\016\000\000\000\000\000\000\000\000\001\002\003\004\005\006\007\b\n\f\016\000\000\000\000\000\002\003\004\005\006\007\b\n\f\016\000\000\000\000\000\000\001\002\004\005\006\007\b\n\f\016\000\000\000\000\000\000\002\004\005\006\007\b\n\f\016\000\000\000\000\000\000\000\001\002\003\004\006\007\b\n\f\016\000\000\000\000\000\000\002\003\004\006\007\b\n\f\016\000\000\000\000\000\000\000\001\002\004\006\007\b\n\f\016\000\000\000\000\000\000\000\002\004\006\007\b\n\f\016\000\000\000\000\000\000\000\000\001\002\003\004\005\006\b\n\f\016\000\000\000\000\000\000\002\003\004\005\006\b\n\f\016\000\000\000\000\000\000\000\001\002\004\005\006\b\n\f\016\000\000\000\000\000\000\000\002\004\005\006\b\n\f\016\000\000\000\000\000\000\000\000\001\002\003\004\006\b\n\f\016\000\000\000\000\000\000\000\002\003\004\006\b\n\f\016\000\000\000\000\000\000\000\000\001\002\004\006\b\n\f\016\000\000\000\000\000\000\000\000\002\004\006\b\n\f\016\000\000\000\000\000\000\000"

	.section	.rdata$038,"dr"
.Lstatic.9:
	.asciz	"\000\002\003\004\006\007\b\n\013\f\016\017\000\000\000\000\000\001\004\006\007\b\n\013\f\016\017\000\000\000\000\000\002\003\004\006\007\b\n\013\f\016\017\000\000\000\000\000\001\004\006\007\b\n\013\f\016\017\000\000\000\000\000\000\000\002\003\004\005\b\n\013\f\016\017\000\000\000\000\000\000\001\004\005\b\n\013\f\016\017\000\000\000\000\000\000\002\003\004\005\b\n\013\f\016\017\000\000\000\000\000\000\001\004\005\b\n\013\f\016\017\000\000\000\000\000\000\000\000\002\003\006\007\b\n\013\f\016\017\000\000\000\000\000\000\001\006\007\b\n\013\f\016\017\000\000\000\000\000\000\002\003\006\007\b\n\013\f\016\017\000\000\000\000\000\000\001\006\007\b\n\013\f\016\017\000\000\000\000\000\000\000\000\002\003\005\b\n\013\f\016\017\000\000\000\000\000\000\000\001\005\b\n\013\f\016\017\000\000\000\000\000\000\000\002\003\005\b\n\013\f\016\017\000\000\000\000\000\000\000\001\005\b\n\013\f\016\017\000\000\000\000\000\000\000\000\000\002\003\004\006\007\b\t\f\016\017\000\000\000\000\000\000\001\004\006\007\b\t\f\016\017\000\000\000\000\000\000\002\003\004\006\007\b\t\f\016\017\000\000\000\000\000\000\001\004\006\007\b\t\f\016\017\000\000\000\000\000\000\000\000\002\003\004\005\b\t\f\016\017\000\000\000\000\000\000\000\001\004\005\b\t\f\016\017\000\000\000\000\000\000\000\002\003\004\005\b\t\f\016\017\000\000\000\000\000\000\000\001\004\005\b\t\f\016\017\000\000\000\000\000\000\000\000\000\002\003\006\007\b\t\f\016\017\000\000\000\000\000\000\000\001\006\007\b\t\f\016\017\000\000\000\000\000\000\000\002\003\006\007\b\t\f\016\017\000\000\000\000\000\000\000\001\006\007\b\t\f\016\017\000\000\000\000\000\000\000\000\000\002\003\005\b\t\f\016\017\000\000\000\000\000\000\000\000\001\005\b\t\f\016\017\000\000\000\000\000\000\000\000\002\003\005\b\t\f\016\017\000\000\000\000\000\000\000\000\001\005\b\t\f\016\017\000\000\000\000\000\000\000\000\000\000\002\003\004\006\007\n\013\f\016\017\000\000\000\000\000\000\001\004\006\007\n\013\f\016\017\000\000\000\000\000\000\002\003\004\006\007\n\013\f\016\017\000\000\000\000\000\000\001\004\006\007\n\013\f\016\017\000\000\000\000\000\000\000\000\002\003\004\005\n\013\f\016\017\000\000\000\000\000\000\000\001\004\005\n\013\f\016\017\000\000\000\000\000\000\000\002\003\004\005\n\013\f\016\017\000\000\000\000\000\000\000\001\004\005\n\013\f\016\017\000\000\000\000\000\000\000\000\000\002\003\006\007\n\013\f\016\017\000\000\000\000\000\000\000\001\006\007\n\013\f\016\017\000\000\000\000\000\000\000\002\003\006\007\n\013\f\016\017\000\000\000\000\000\000\000\001\006\007\n\013\f\016\017\000\000\000\000\000\000\000\000\000\002\003\005\n\013\f\016\017\000\000\000\000\000\000\000\000\001\005\n\013\f\016\017\000\000\000\000\000\000\000\000\002\003\005\n\013\f\016\017\000\000\000\000\000\000\000\000\001\005\n\013\f\016\017\000\000\000\000\000\000\000\000\000\000\002\003\004\006\007\t\f\016\017\000\000\000\000\000\000\000\001\004\006\007\t\f\016\017\000\000\000\000\000\000\000\002\003\004\006\007\t\f\016\017\000\000\000\000\000\000\000\001\004\006\007\t\f\016\017\000\000\000\000\000\000\000\000\000\002\003\004\005\t\f\016\017\000\000\000\000\000\000\000\000\001\004\005\t\f\016\017\000\000\000\000\000\000\000\000\002\003\004\005\t\f\016\017\000\000\000\000\000\000\000\000\001\004\005\t\f\016\017\000\000\000\000\000\000\000\000\000\000\002\003\006\007\t\f\016\017\000\000\000\000\000\000\000\000\001\006\007\t\f\016\017\000\000\000\000\000\000\000\000\002\003\006\007\t\f\016\017\000\000\000\000\000\000\000\000\001\006\007\t\f\016\017\000\000\000\000\000\000\000\000\000\000\002\003\005\t\f\016\017\000\000\000\000\000\000\000\000\000\001\005\t\f\016\017\000\000\000\000\000\000\000\000\000\002\003\005\t\f\016\017\000\000\000\000\000\000\000\000\000\001\005\t\f\016\017\000\000\000\000\000\000\000\000\000\000\000\002\003\004\006\007\b\n\013\f\r\000\000\000\000\000\000\001\004\006\007\b\n\013\f\r\000\000\000\000\000\000\002\003\004\006\007\b\n\013\f\r\000\000\000\000\000\000\001\004\006\007\b\n\013\f\r\000\000\000\000\000\000\000\000\002\003\004\005\b\n\013\f\r\000\000\000\000\000\000\000\001\004\005\b\n\013\f\r\000\000\000\000\000\000\000\002\003\004\005\b\n\013\f\r\000\000\000\000\000\000\000\001\004\005\b\n\013\f\r\000\000\000\000\000\000\000\000\000\002\003\006\007\b\n\013\f\r\000\000\000\000\000\000\000\001\006\007\b\n\013\f\r\000\000\000\000\000\000\000\002\003\006\007\b\n\013\f\r\000\000\000\000\000\000\000\001\006\007\b\n\013\f\r\000\000\000\000\000\000\000\000\000\002\003\005\b\n\013\f\r\000\000\000\000\000\000\000\000\001\005\b\n\013\f\r\000\000\000\000\000\000\000\000\002\003\005\b\n\013\f\r\000\000\000\000\000\000\000\000\001\005\b\n\013\f\r\000\000\000\000\000\000\000\000\000\000\002\003\004\006\007\b\t\f\r\000\000\000\000\000\000\000\001\004\006\007\b\t\f\r\000\000\000\000\000\000\000\002\003\004\006\007\b\t\f\r\000\000\000\000\000\000\000\001\004\006\007\b\t\f\r\000\000\000\000\000\000\000\000\000\002\003\004\005\b\t\f\r\000\000\000\000\000\000\000\000\001\004\005\b\t\f\r\000\000\000\000\000\000\000\000\002\003\004\005\b\t\f\r\000\000\000\000\000\000\000\000\001\004\005\b\t\f\r\000\000\000\000\000\000\000\000\000\000\002\003\006\007\b\t\f\r\000\000\000\000\000\000\000\000\001\006\007\b\t\f\r\000\000\000\000\000\000\000\000\002\003\006\007\b\t\f\r\000\000\000\000\000\000\000\000\001\006\007\b\t\f\r\000\000\000\000\000\000\000\000\000\000\002\003\005\b\t\f\r\000\000\000\000\000\000\000\000\000\001\005\b\t\f\r\000\000\000\000\000\000\000\000\000\002\003\005\b\t\f\r\000\000\000\000\000\000\000\000\000\001\005\b\t\f\r\000\000\000\000\000\000\000\000\000\000\000\002\003\004\006\007\n\013\f\r\000\000\000\000\000\000\000\001\004\006\007\n\013\f\r\000\000\000\000\000\000\000\002\003\004\006\007\n\013\f\r\000\000\000\000\000\000\000\001\004\006\007\n\013\f\r\000\000\000\000\000\000\000\000\000\002\003\004\005\n\013\f\r\000\000\000\000\000\000\000\000\001\004\005\n\013\f\r\000\000\000\000\000\000\000\000\002\003\004\005\n\013\f\r\000\000\000\000\000\000\000\000\001\004\005\n\013\f\r\000\000\000\000\000\000\000\000\000\000\002\003\006\007\n\013\f\r\000\000\000\000\000\000\000\000\001\006\007\n\013\f\r\000\000\000\000\000\000\000\000\002\003\006\007\n\013\f\r\000\000\000\000\000\000\000\000\001\006\007\n\013\f\r\000\000\000\000\000\000\000\000\000\000\002\003\005\n\013\f\r\000\000\000\000\000\000\000\000\000\001\005\n\013\f\r\000\000\000\000\000\000\000\000\000\002\003\005\n\013\f\r\000\000\000\000\000\000\000\000\000\001\005\n\013\f\r\000\000\000\000\000\000\000\000\000\000\000\002\003\004\006\007\t\f\r\000\000\000\000\000\000\000\000\001\004\006\007\t\f\r\000\000\000\000\000\000\000\000\002\003\004\006\007\t\f\r\000\000\000\000\000\000\000\000\001\004\006\007\t\f\r\000\000\000\000\000\000\000\000\000\000\002\003\004\005\t\f\r\000\000\000\000\000\000\000\000\000\001\004\005\t\f\r\000\000\000\000\000\000\000\000\000\002\003\004\005\t\f\r\000\000\000\000\000\000\000\000\000\001\004\005\t\f\r\000\000\000\000\000\000\000\000\000\000\000\002\003\006\007\t\f\r\000\000\000\000\000\000\000\000\000\001\006\007\t\f\r\000\000\000\000\000\000\000\000\000\002\003\006\007\t\f\r\000\000\000\000\000\000\000\000\000\001\006\007\t\f\r\000\000\000\000\000\000\000\000\000\000\000\002\003\005\t\f\r\000\000\000\000\000\000\000\000\000\000\001\005\t\f\r\000\000\000\000\000\000\000\000\000\000\002\003\005\t\f\r\000\000\000\000\000\000\000\000\000\000\001\005\t\f\r\000\000\000\000\000\000\000\000\000\000\000\000\002\003\004\006\007\b\n\013\016\017\000\000\000\000\000\000\001\004\006\007\b\n\013\016\017\000\000\000\000\000\000\002\003\004\006\007\b\n\013\016\017\000\000\000\000\000\000\001\004\006\007\b\n\013\016\017\000\000\000\000\000\000\000\000\002\003\004\005\b\n\013\016\017\000\000\000\000\000\000\000\001\004\005\b\n\013\016\017\000\000\000\000\000\000\000\002\003\004\005\b\n\013\016\017\000\000\000\000\000\000\000\001\004\005\b\n\013\016\017\000\000\000\000\000\000\000\000\000\002\003\006\007\b\n\013\016\017\000\000\000\000\000\000\000\001\006\007\b\n\013\016\017\000\000\000\000\000\000\000\002\003\006\007\b\n\013\016\017\000\000\000\000\000\000\000\001\006\007\b\n\013\016\017\000\000\000\000\000\000\000\000\000\002\003\005\b\n\013\016\017\000\000\000\000\000\000\000\000\001\005\b\n\013\016\017\000\000\000\000\000\000\000\000\002\003\005\b\n\013\016\017\000\000\000\000\000\000\000\000\001\005\b\n\013\016\017\000\000\000\000\000\000\000\000\000\000\002\003\004\006\007\b\t\016\017\000\000\000\000\000\000\000\001\004\006\007\b\t\016\017\000\000\000\000\000\000\000\002\003\004\006\007\b\t\016\017\000\000\000\000\000\000\000\001\004\006\007\b\t\016\017\000\000\000\000\000\000\000\000\000\002\003\004\005\b\t\016\017\000\000\000\000\000\000\000\000\001\004\005\b\t\016\017\000\000\000\000\000\000\000\000\002\003\004\005\b\t\016\017\000\000\000\000\000\000\000\000\001\004\005\b\t\016\017\000\000\000\000\000\000\000\000\000\000\002\003\006\007\b\t\016\017\000\000\000\000\000\000\000\000\001\006\007\b\t\016\017\000\000\000\000\000\000\000\000\002\003\006\007\b\t\016\017\000\000\000\000\000\000\000\000\001\006\007\b\t\016\017\000\000\000\000\000\000\000\000\000\000\002\003\005\b\t\016\017\000\000\000\000\000\000\000\000\000\001\005\b\t\016\017\000\000\000\000\000\000\000\000\000\002\003\005\b\t\016\017\000\000\000\000\000\000\000\000\000\001\005\b\t\016\017\000\000\000\000\000\000\000\000\000\000\000\002\003\004\006\007\n\013\016\017\000\000\000\000\000\000\000\001\004\006\007\n\013\016\017\000\000\000\000\000\000\000\002\003\004\006\007\n\013\016\017\000\000\000\000\000\000\000\001\004\006\007\n\013\016\017\000\000\000\000\000\000\000\000\000\002\003\004\005\n\013\016\017\000\000\000\000\000\000\000\000\001\004\005\n\013\016\017\000\000\000\000\000\000\000\000\002\003\004\005\n\013\016\017\000\000\000\000\000\000\000\000\001\004\005\n\013\016\017\000\000\000\000\000\000\000\000\000\000\002\003\006\007\n\013\016\017\000\000\000\000\000\000\000\000\001\006\007\n\013\016\017\000\000\000\000\000\000\000\000\002\003\006\007\n\013\016\017\000\000\000\000\000\000\000\000\001\006\007\n\013\016\017\000\000\000\000\000\000\000\000\000\000\002\003\005\n\013\016\017\000\000\000\000\000\000\000\000\000\001\005\n\013\016\017\000\000\000\000\000\000\000\000\000\002\003\005\n\013\016\017\000\000\000\000\000\000\000\000\000\001\005\n\013\016\017\000\000\000\000\000\000\000\000\000\000\000\002\003\004\006\007\t\016\017\000\000\000\000\000\000\000\000\001\004\006\007\t\016\017\000\000\000\000\000\000\000\000\002\003\004\006\007\t\016\017\000\000\000\000\000\000\000\000\001\004\006\007\t\016\017\000\000\000\000\000\000\000\000\000\000\002\003\004\005\t\016\017\000\000\000\000\000\000\000\000\000\001\004\005\t\016\017\000\000\000\000\000\000\000\000\000\002\003\004\005\t\016\017\000\000\000\000\000\000\000\000\000\001\004\005\t\016\017\000\000\000\000\000\000\000\000\000\000\000\002\003\006\007\t\016\017\000\000\000\000\000\000\000\000\000\001\006\007\t\016\017\000\000\000\000\000\000\000\000\000\002\003\006\007\t\016\017\000\000\000\000\000\000\000\000\000\001\006\007\t\016\017\000\000\000\000\000\000\000\000\000\000\000\002\003\005\t\016\017\000\000\000\000\000\000\000\000\000\000\001\005\t\016\017\000\000\000\000\000\000\000\000\000\000\002\003\005\t\016\017\000\000\000\000\000\000\000\000\000\000\001\005\t\016\017\000\000\000\000\000\000\000\000\000\000\000\000\002\003\004\006\007\b\n\013\r\000\000\000\000\000\000\000\001\004\006\007\b\n\013\r\000\000\000\000\000\000\000\002\003\004\006\007\b\n\013\r\000\000\000\000\000\000\000\001\004\006\007\b\n\013\r\000\000\000\000\000\000\000\000\000\002\003\004\005\b\n\013\r\000\000\000\000\000\000\000\000\001\004\005\b\n\013\r\000\000\000\000\000\000\000\000\002\003\004\005\b\n\013\r\000\000\000\000\000\000\000\000\001\004\005\b\n\013\r\000\000\000\000\000\000\000\000\000\000\002\003\006\007\b\n\013\r\000\000\000\000\000\000\000\000\001\006\007\b\n\013\r\000\000\000\000\000\000\000\000\002\003\006\007\b\n\013\r\000\000\000\000\000\000\000\000\001\006\007\b\n\013\r\000\000\000\000\000\000\000\000\000\000\002\003\005\b\n\013\r\000\000\000\000\000\000\000\000\000\001\005\b\n\013\r\000\000\000\000\000\000\000\000\000\002\003\005\b\n\013\r\000\000\000\000\000\000\000\000\000\001\005\b\n\013\r\000\000\000\000\000\000\000\000\000\000\000\002\003\004\006\007\b\t\r\000\000\000\000\000\000\000\000\001\004\006\007\b\t\r\000\000\000\000\000\000\000\000\002\003\004\006\007\b\t\r\000\000\000\000\000\000\000\000\001\004\006\007\b\t\r\000\000\000\000\000\000\000\000\000\000\002\003\004\005\b\t\r\000\000\000\000\000\000\000\000\000\001\004\005\b\t\r\000\000\000\000\000\000\000\000\000\002\003\004\005\b\t\r\000\000\000\000\000\000\000\000\000\001\004\005\b\t\r\000\000\000\000\000\000\000\000\000\000\000\002\003\006\007\b\t\r\000\000\000\000\000\000\000\000\000\001\006\007\b\t\r\000\000\000\000\000\000\000\000\000\002\003\006\007\b\t\r\000\000\000\000\000\000\000\000\000\001\006\007\b\t\r\000\000\000\000\000\000\000\000\000\000\000\002\003\005\b\t\r\000\000\000\000\000\000\000\000\000\000\001\005\b\t\r\000\000\000\000\000\000\000\000\000\000\002\003\005\b\t\r\000\000\000\000\000\000\000\000\000\000\001\005\b\t\r\000\000\000\000\000\000\000\000\000\000\000\000\002\003\004\006\007\n\013\r\000\000\000\000\000\000\000\000\001\004\006\007\n\013\r\000\000\000\000\000\000\000\000\002\003\004\006\007\n\013\r\000\000\000\000\000\000\000\000\001\004\006\007\n\013\r\000\000\000\000\000\000\000\000\000\000\002\003\004\005\n\013\r\000\000\000\000\000\000\000\000\000\001\004\005\n\013\r\000\000\000\000\000\000\000\000\000\002\003\004\005\n\013\r\000\000\000\000\000\000\000\000\000\001\004\005\n\013\r\000\000\000\000\000\000\000\000\000\000\000\002\003\006\007\n\013\r\000\000\000\000\000\000\000\000\000\001\006\007\n\013\r\000\000\000\000\000\000\000\000\000\002\003\006\007\n\013\r\000\000\000\000\000\000\000\000\000\001\006\007\n\013\r\000\000\000\000\000\000\000\000\000\000\000\002\003\005\n\013\r\000\000\000\000\000\000\000\000\000\000\001\005\n\013\r\000\000\000\000\000\000\000\000\000\000\002\003\005\n\013\r\000\000\000\000\000\000\000\000\000\000\001\005\n\013\r\000\000\000\000\000\000\000\000\000\000\000\000\002\003\004\006\007\t\r\000\000\000\000\000\000\000\000\000\001\004\006\007\t\r\000\000\000\000\000\000\000\000\000\002\003\004\006\007\t\r\000\000\000\000\000\000\000\000\000\001\004\006\007\t\r\000\000\000\000\000\000\000\000\000\000\000\002\003\004\005\t\r\000\000\000\000\000\000\000\000\000\000\001\004\005\t\r\000\000\000\000\000\000\000\000\000\000\002\003\004\005\t\r\000\000\000\000\000\000\000\000\000\000\001\004\005\t\r\000\000\000\000\000\000\000\000\000\000\000\000\002\003\006\007\t\r\000\000\000\000\000\000\000\000\000\000\001\006\007\t\r\000\000\000\000\000\000\000\000\000\000\002\003\006\007\t\r\000\000\000\000\000\000\000\000\000\000\001\006\007\t\r\000\000\000\000\000\000\000\000\000\000\000\000\002\003\005\t\r\000\000\000\000\000\000\000\000\000\000\000\001\005\t\r\000\000\000\000\000\000\000\000\000\000\000\002\003\005\t\r\000\000\000\000\000\000\000\000\000\000\000\001\005\t\r\000\000\000\000\000\000\000\000\000\000\000"

	.section	.rdata$039,"dr"
.Lstatic.10:
	.ascii	"\200\200\200\200\200\200\200\200\200\200\200\200\200\200\200\200\017\200\200\200\200\200\200\200\200\200\200\200\200\200\200\200\016\017\200\200\200\200\200\200\200\200\200\200\200\200\200\200\r\016\017\200\200\200\200\200\200\200\200\200\200\200\200\200\f\r\016\017\200\200\200\200\200\200\200\200\200\200\200\200\013\f\r\016\017\200\200\200\200\200\200\200\200\200\200\200\n\013\f\r\016\017\200\200\200\200\200\200\200\200\200\200\t\n\013\f\r\016\017\200\200\200\200\200\200\200\200\200\b\t\n\013\f\r\016\017\200\200\200\200\200\200\200\200\007\b\t\n\013\f\r\016\017\200\200\200\200\200\200\200\006\007\b\t\n\013\f\r\016\017\200\200\200\200\200\200\005\006\007\b\t\n\013\f\r\016\017\200\200\200\200\200\004\005\006\007\b\t\n\013\f\r\016\017\200\200\200\200\003\004\005\006\007\b\t\n\013\f\r\016\017\200\200\200\002\003\004\005\006\007\b\t\n\013\f\r\016\017\200\200\001\002\003\004\005\006\007\b\t\n\013\f\r\016\017\200\000\001\002\003\004\005\006\007\b\t\n\013\f\r\016\017"

	.section	.rdata$040,"dr"
.Lstatic.25:
	.ascii	"usage: "

	.section	.rdata$041,"dr"
.Lstatic.26:
	.ascii	": read failed\n"

	.section	.rdata$042,"dr"
.Lstatic.27:
	.ascii	": write failed\n"

	.section	.rdata$004,"dr"
.Lstatic.28:
	.ascii	": out of memory\n"

	.section	.rdata$043,"dr"
.Lstatic.29:
	.ascii	": input too long\n"

	.section	.rdata$044,"dr"
.Lstatic.30:
	.ascii	" le|be|auto\n"

	.section	.rdata$045,"dr"
.Lstatic.32:
	.ascii	"utf16_cat"

