/* SPDX-License-Identifier: MIT OR Apache-2.0
 * utf16_check 0.2.0, as assembly for Linux on x86-64-v3. packaging/assembly
 * wrote it from the code that rt proved in logic dac8208d650f15bf: do not edit it. */
	.section	.rodata.cst16,"aM",@progbits,16
	.p2align	4, 0x0
.LCPI0_0:
	.zero	16,248
.LCPI0_1:
	.zero	16,216
.LCPI0_2:
	.byte	1
	.byte	3
	.byte	5
	.byte	7
	.byte	9
	.byte	11
	.byte	13
	.byte	15
	.zero	1
	.zero	1
	.zero	1
	.zero	1
	.zero	1
	.zero	1
	.zero	1
	.zero	1
.LCPI0_3:
	.byte	1
	.byte	3
	.byte	5
	.byte	7
	.zero	1
	.zero	1
	.zero	1
	.zero	1
	.zero	1
	.zero	1
	.zero	1
	.zero	1
	.zero	1
	.zero	1
	.zero	1
	.zero	1
.LCPI0_4:
	.byte	248
	.byte	248
	.byte	248
	.byte	248
	.zero	1
	.zero	1
	.zero	1
	.zero	1
	.zero	1
	.zero	1
	.zero	1
	.zero	1
	.zero	1
	.zero	1
	.zero	1
	.zero	1
.LCPI0_5:
	.byte	216
	.byte	216
	.byte	216
	.byte	216
	.zero	1
	.zero	1
	.zero	1
	.zero	1
	.zero	1
	.zero	1
	.zero	1
	.zero	1
	.zero	1
	.zero	1
	.zero	1
	.zero	1
.LCPI0_8:
	.byte	0
	.byte	2
	.byte	4
	.byte	6
	.zero	1
	.zero	1
	.zero	1
	.zero	1
	.zero	1
	.zero	1
	.zero	1
	.zero	1
	.zero	1
	.zero	1
	.zero	1
	.zero	1
.LCPI0_9:
	.byte	252
	.byte	252
	.byte	252
	.byte	252
	.zero	1
	.zero	1
	.zero	1
	.zero	1
	.zero	1
	.zero	1
	.zero	1
	.zero	1
	.zero	1
	.zero	1
	.zero	1
	.zero	1
.LCPI0_10:
	.byte	220
	.byte	220
	.byte	220
	.byte	220
	.zero	1
	.zero	1
	.zero	1
	.zero	1
	.zero	1
	.zero	1
	.zero	1
	.zero	1
	.zero	1
	.zero	1
	.zero	1
	.zero	1
.LCPI0_13:
	.byte	0
	.byte	2
	.byte	4
	.byte	6
	.byte	8
	.byte	10
	.byte	12
	.byte	14
	.zero	1
	.zero	1
	.zero	1
	.zero	1
	.zero	1
	.zero	1
	.zero	1
	.zero	1
.LCPI0_15:
	.byte	41
	.byte	58
	.byte	32
	.byte	105
	.byte	110
	.byte	99
	.byte	111
	.byte	109
	.byte	112
	.byte	108
	.byte	101
	.byte	116
	.byte	101
	.byte	32
	.byte	99
	.byte	104
.LCPI0_18:
	.byte	0
	.byte	2
	.byte	4
	.byte	6
	.byte	0
	.byte	0
	.byte	0
	.byte	0
	.byte	0
	.byte	0
	.byte	0
	.byte	0
	.byte	0
	.byte	0
	.byte	0
	.byte	0
	.section	.rodata.cst32,"aM",@progbits,32
	.p2align	5, 0x0
.LCPI0_6:
	.zero	32,252
.LCPI0_7:
	.zero	32,220
.LCPI0_12:
	.short	255
	.short	255
	.short	255
	.short	255
	.short	255
	.short	255
	.short	255
	.short	255
	.short	255
	.short	255
	.short	255
	.short	255
	.short	255
	.short	255
	.short	255
	.short	255
	.section	.rodata.cst8,"aM",@progbits,8
	.p2align	3, 0x0
.LCPI0_11:
	.quad	1
	.section	.rodata,"a",@progbits
	.p2align	1, 0x0
.LCPI0_14:
	.byte	255
	.byte	0
	.section	.rodata.cst4,"aM",@progbits,4
	.p2align	2, 0x0
.LCPI0_16:
	.zero	4,252
.LCPI0_17:
	.zero	4,220
	.section	".text.utf16_check::main+start","ax",@progbits
	.p2align	4
	.type	"utf16_check::main+start",@function
"utf16_check::main+start":
	.cfi_startproc
	pushq	%rbp
	.cfi_def_cfa_offset 16
	pushq	%r15
	.cfi_def_cfa_offset 24
	pushq	%r14
	.cfi_def_cfa_offset 32
	pushq	%r13
	.cfi_def_cfa_offset 40
	pushq	%r12
	.cfi_def_cfa_offset 48
	pushq	%rbx
	.cfi_def_cfa_offset 56
	subq	$3072, %rsp
	.cfi_adjust_cfa_offset 3072
	movq	$0, (%rsp)
	subq	$1336, %rsp
	.cfi_def_cfa_offset 4464
	.cfi_offset %rbx, -56
	.cfi_offset %r12, -48
	.cfi_offset %r13, -40
	.cfi_offset %r14, -32
	.cfi_offset %r15, -24
	.cfi_offset %rbp, -16
	leaq	16(%rsp), %rax
	movq	%rax, 80(%rsp)
	movq	%rax, 192(%rsp)
	vpxor	%xmm0, %xmm0, %xmm0
	vmovdqu	%xmm0, 200(%rsp)
	xorl	%edx, %edx
	movq	$0, 8(%rsp)
.LBB0_1:
	movq	%rdx, 24(%rsp)
	movl	$256, %r15d
	movl	$64, %r14d
	jmp	.LBB0_3
	.p2align	4
.LBB0_2:
	movq	%r15, %rax
	addq	%r15, %rax
	movq	$-1, %r15
	cmovaeq	%rax, %r15
	decl	%r14d
	je	.LBB0_59
.LBB0_3:
	leaq	16(%rsp), %r12
	movq	%r12, 304(%rsp)
	vpxor	%xmm0, %xmm0, %xmm0
	leaq	312(%rsp), %rax
	vmovdqu	%xmm0, (%rax)
	testq	%r15, %r15
	jne	.LBB0_8
	xorl	%ebp, %ebp
	xorl	%r13d, %r13d
.LBB0_5:
	movq	8(%rsp), %rdi
	movq	%r12, %rsi
	movq	%r13, %rdx
	callq	rattle_arg@PLT
	movq	%rax, %rbx
	cmpq	$-1, %rax
	movl	$22, %eax
	movl	$36, %edi
	cmovel	%eax, %edi
	testq	%rbx, %rbx
	cmovnsl	%ebp, %edi
	callq	rattle_set_errno@PLT
	callq	rattle_errno@PLT
	cmpl	$36, %eax
	jne	.LBB0_11
	cmpq	$0, 320(%rsp)
	je	.LBB0_2
	movq	%r12, %rdi
	callq	rattle_dealloc@PLT
	jmp	.LBB0_2
.LBB0_8:
	leaq	304(%rsp), %rdi
	movq	%r15, %rsi
	callq	"std_alloc::vec::Vec::grow_amortized::<#582fc6be45daf619>"
	testb	%al, %al
	je	.LBB0_57
	movq	304(%rsp), %r12
	movq	312(%rsp), %rdi
	leaq	(%rdi,%r15), %r13
	xorl	%ebp, %ebp
	cmpq	%r13, %rdi
	jae	.LBB0_5
	addq	%r12, %rdi
	xorl	%esi, %esi
	movq	%r15, %rdx
	callq	memset@PLT
	jmp	.LBB0_5
	.p2align	4
.LBB0_11:
	testl	%eax, %eax
	jne	.LBB0_17
	cmpq	%r13, %rbx
	cmovbq	%rbx, %r13
	xorl	%r15d, %r15d
	testq	%rbx, %rbx
	cmovgq	%r13, %r15
	movq	320(%rsp), %rbx
	vpxor	%xmm0, %xmm0, %xmm0
	vmovdqa	%xmm0, 304(%rsp)
	movq	$0, 320(%rsp)
	leaq	304(%rsp), %r13
	movq	%r13, %rdi
	movq	%r12, %rsi
	movq	%r15, %rdx
	callq	"core::str::utf8::from_utf8"
	cmpb	$1, 304(%rsp)
	je	.LBB0_273
	movq	24(%rsp), %rdx
	cmpq	%rdx, 208(%rsp)
	je	.LBB0_15
.LBB0_14:
	leaq	(%rdx,%rdx,2), %rax
	movq	80(%rsp), %rcx
	movq	%r12, (%rcx,%rax,8)
	movq	%r15, 8(%rcx,%rax,8)
	movq	%rbx, 16(%rcx,%rax,8)
	incq	%rdx
	movq	%rdx, 200(%rsp)
	movq	8(%rsp), %rcx
	incq	%rcx
	movq	%rcx, 8(%rsp)
	cmpq	$-1, %rcx
	jne	.LBB0_1
	jmp	.LBB0_20
.LBB0_15:
	leaq	192(%rsp), %r13
	movq	%r13, %rdi
	callq	"std_alloc::vec::Vec::grow_amortized::<#c6aca457386e9665>"
	testb	%al, %al
	je	.LBB0_302
	movq	192(%rsp), %rax
	movq	%rax, 80(%rsp)
	movq	200(%rsp), %rdx
	jmp	.LBB0_14
.LBB0_17:
	cmpq	$0, 320(%rsp)
	je	.LBB0_19
	movq	%r12, %rdi
	callq	rattle_dealloc@PLT
.LBB0_19:
	movq	24(%rsp), %rdx
.LBB0_20:
	movq	192(%rsp), %r14
	movq	208(%rsp), %rax
	testq	%rdx, %rdx
	je	.LBB0_32
	movq	%rax, 8(%rsp)
	movq	(%r14), %rdi
	movq	16(%r14), %rbx
	cmpq	$1, %rdx
	jne	.LBB0_33
	xorl	%ebp, %ebp
	xorl	%r12d, %r12d
	xorl	%r13d, %r13d
	xorl	%r15d, %r15d
	testq	%rbx, %rbx
	je	.LBB0_24
.LBB0_23:
	callq	rattle_dealloc@PLT
.LBB0_24:
	movq	%r12, %rbx
	movq	8(%rsp), %rax
	testq	%rax, %rax
	je	.LBB0_26
.LBB0_25:
	movq	%r14, %rdi
	callq	rattle_dealloc@PLT
.LBB0_26:
	testb	%bpl, %bpl
	je	.LBB0_45
	cmpq	$4, %r13
	je	.LBB0_50
	cmpq	$2, %r13
	jne	.LBB0_51
	movzbl	(%rbx), %ecx
	movzbl	1(%rbx), %edx
	shll	$16, %ecx
	movl	%edx, %eax
	shll	$8, %eax
	orl	%ecx, %eax
	orl	%edx, %eax
	cmpl	$7103845, %eax
	je	.LBB0_83
	cmpl	$6448485, %eax
	jne	.LBB0_51
	movb	$1, %r12b
	movb	$1, %dl
	jmp	.LBB0_84
.LBB0_32:
	xorl	%ebp, %ebp
	xorl	%ebx, %ebx
	xorl	%r13d, %r13d
	xorl	%r15d, %r15d
	testq	%rax, %rax
	jne	.LBB0_25
	jmp	.LBB0_26
.LBB0_33:
	movq	24(%r14), %r12
	movq	40(%r14), %r15
	cmpq	$2, %rdx
	jne	.LBB0_35
	movq	32(%r14), %r13
	movb	$1, %bpl
	testq	%rbx, %rbx
	jne	.LBB0_23
	jmp	.LBB0_24
.LBB0_35:
	movq	%rdx, %rbp
	cmpq	$0, 64(%r14)
	je	.LBB0_37
	movq	%rdi, %r13
	movq	48(%r14), %rdi
	callq	rattle_dealloc@PLT
	movq	%r13, %rdi
.LBB0_37:
	testq	%r15, %r15
	je	.LBB0_39
	movq	%rdi, %r15
	movq	%r12, %rdi
	callq	rattle_dealloc@PLT
	movq	%r15, %rdi
.LBB0_39:
	testq	%rbx, %rbx
	je	.LBB0_41
	callq	rattle_dealloc@PLT
.LBB0_41:
	cmpq	$3, %rbp
	movq	8(%rsp), %r15
	jne	.LBB0_53
.LBB0_42:
	testq	%r15, %r15
	je	.LBB0_45
	movq	%r14, %rdi
	jmp	.LBB0_44
.LBB0_50:
	movl	(%rbx), %eax
	movq	%rax, %rcx
	shlq	$32, %rcx
	orq	%rax, %rcx
	xorl	%r12d, %r12d
	movabsq	$8031173096850617697, %rax
	movl	$0, %edx
	cmpq	%rax, %rcx
	je	.LBB0_84
.LBB0_51:
	testq	%r15, %r15
	je	.LBB0_45
	movq	%rbx, %rdi
.LBB0_44:
	callq	rattle_dealloc@PLT
	jmp	.LBB0_45
.LBB0_53:
	addq	$-3, %rbp
	leaq	88(%r14), %rbx
	jmp	.LBB0_55
	.p2align	4
.LBB0_54:
	addq	$24, %rbx
	decq	%rbp
	je	.LBB0_42
.LBB0_55:
	cmpq	$0, (%rbx)
	je	.LBB0_54
	movq	-16(%rbx), %rdi
	callq	rattle_dealloc@PLT
	jmp	.LBB0_54
.LBB0_57:
	cmpq	$0, 320(%rsp)
	je	.LBB0_59
	movq	304(%rsp), %rdi
	callq	rattle_dealloc@PLT
.LBB0_59:
	movq	208(%rsp), %rbx
	movq	24(%rsp), %r15
	testq	%r15, %r15
	je	.LBB0_64
	movq	80(%rsp), %rax
	leaq	16(%rax), %r14
	jmp	.LBB0_62
	.p2align	4
.LBB0_61:
	addq	$24, %r14
	decq	%r15
	je	.LBB0_64
.LBB0_62:
	cmpq	$0, (%r14)
	je	.LBB0_61
	movq	-16(%r14), %rdi
	callq	rattle_dealloc@PLT
	jmp	.LBB0_61
.LBB0_64:
	leaq	192(%rsp), %r13
	testq	%rbx, %rbx
	je	.LBB0_67
	movq	80(%rsp), %rdi
.LBB0_66:
	callq	rattle_dealloc@PLT
.LBB0_67:
	movb	$21, 304(%rsp)
	movb	$38, 192(%rsp)
	cmpb	$38, (%r13)
	jne	.LBB0_45
.LBB0_68:
	leaq	.Lstatic.28(%rip), %r14
	movl	$16, %r15d
.LBB0_69:
	xorl	%ebp, %ebp
	jmp	.LBB0_70
.LBB0_45:
	xorl	%r15d, %r15d
	.p2align	4
.LBB0_46:
	leaq	.Lstatic.25(%rip), %rsi
	addq	%r15, %rsi
	movq	%r15, %r14
	xorq	$7, %r14
	movl	$2, %ebx
	movl	$2, %edi
	movq	%r14, %rdx
	callq	write@PLT
	testq	%rax, %rax
	js	.LBB0_81
	cmpq	%r14, %rax
	cmovbq	%rax, %r14
	testq	%r14, %r14
	je	.LBB0_82
	addq	%r14, %r15
	cmpq	$6, %r15
	jbe	.LBB0_46
	leaq	.Lstatic.30(%rip), %r14
	movl	$12, %r15d
	movb	$1, %bpl
.LBB0_70:
	xorl	%r12d, %r12d
	.p2align	4
.LBB0_71:
	leaq	.Lstatic.34(%rip), %rsi
	addq	%r12, %rsi
	movl	$11, %ebx
	subq	%r12, %rbx
	movl	$2, %edi
	movq	%rbx, %rdx
	vzeroupper
	callq	write@PLT
	testq	%rax, %rax
	js	.LBB0_78
	cmpq	%rbx, %rax
	cmovbq	%rax, %rbx
	testq	%rbx, %rbx
	je	.LBB0_79
	addq	%rbx, %r12
	cmpq	$11, %r12
	jb	.LBB0_71
	xorl	%r12d, %r12d
	.p2align	4
.LBB0_75:
	leaq	(%r14,%r12), %rsi
	movq	%r15, %rbx
	subq	%r12, %rbx
	movl	$2, %edi
	movq	%rbx, %rdx
	callq	write@PLT
	testq	%rax, %rax
	js	.LBB0_78
	cmpq	%rbx, %rax
	cmovbq	%rax, %rbx
	testq	%rbx, %rbx
	je	.LBB0_79
	addq	%rbx, %r12
	cmpq	%r15, %r12
	jb	.LBB0_75
	jmp	.LBB0_79
.LBB0_78:
	leaq	304(%rsp), %rdi
	callq	"std_io::io::error::last_error"
.LBB0_79:
	movl	$2, %ebx
	testb	%bpl, %bpl
	jne	.LBB0_82
.LBB0_80:
	movl	$1, %ebx
	jmp	.LBB0_82
.LBB0_81:
	leaq	304(%rsp), %rdi
	callq	"std_io::io::error::last_error"
.LBB0_82:
	movl	%ebx, %eax
	addq	$4408, %rsp
	.cfi_def_cfa_offset 56
	popq	%rbx
	.cfi_def_cfa_offset 48
	popq	%r12
	.cfi_def_cfa_offset 40
	popq	%r13
	.cfi_def_cfa_offset 32
	popq	%r14
	.cfi_def_cfa_offset 24
	popq	%r15
	.cfi_def_cfa_offset 16
	popq	%rbp
	.cfi_def_cfa_offset 8
	retq
.LBB0_83:
	.cfi_def_cfa_offset 4464
	movb	$1, %r12b
	xorl	%edx, %edx
.LBB0_84:
	movq	%rdx, 72(%rsp)
	testq	%r15, %r15
	je	.LBB0_86
	movq	%rbx, %rdi
	callq	rattle_dealloc@PLT
.LBB0_86:
	leaq	16(%rsp), %rbx
	movq	%rbx, 144(%rsp)
	vpxor	%xmm0, %xmm0, %xmm0
	vmovdqu	%xmm0, 152(%rsp)
	leaq	304(%rsp), %rdi
	xorl	%ebp, %ebp
	movl	$4096, %r13d
	movl	$4096, %edx
	xorl	%esi, %esi
	callq	memset@PLT
	movq	$0, 176(%rsp)
	movq	$0, 96(%rsp)
	xorl	%r15d, %r15d
	jmp	.LBB0_88
.LBB0_87:
	movq	%r15, %rax
	notq	%rax
	subq	%rbp, %rax
	movl	$4096, %r13d
	subq	%rbp, %r13
	cmpq	%r13, %rax
	cmovbq	%rax, %r13
	testq	%r13, %r13
	je	.LBB0_292
.LBB0_88:
	movq	%rbp, %r14
	leaq	(%rsp,%rbp), %rsi
	addq	$304, %rsi
	xorl	%edi, %edi
	movq	%r13, %rdx
	vzeroupper
	callq	read@PLT
	testq	%rax, %rax
	js	.LBB0_284
	movq	%r14, 88(%rsp)
	je	.LBB0_287
	cmpq	%r13, %rax
	cmovbq	%rax, %r13
	leaq	(%r14,%r13), %rbp
	movq	$0, 152(%rsp)
	cmpb	$1, %r12b
	movq	%rbp, 184(%rsp)
	jne	.LBB0_151
	movq	%r15, 24(%rsp)
	leaq	(%rsp,%rbp), %rax
	addq	$272, %rax
	movq	%rax, 120(%rsp)
	leaq	288(%rsp,%rbp), %rax
	movq	%rax, 112(%rsp)
	leaq	(%rsp,%rbp), %rax
	addq	$296, %rax
	movq	%rax, 128(%rsp)
	leaq	304(%rsp), %rax
	xorl	%ecx, %ecx
	movq	%rbp, %rbx
	movq	%rax, %rbp
	testb	$1, 72(%rsp)
	jne	.LBB0_161
.LBB0_92:
	movq	%rcx, 64(%rsp)
	leaq	192(%rbp), %rax
	movq	%rax, 168(%rsp)
	leaq	25(%rbp), %rax
	movq	%rax, 280(%rsp)
	leaq	1(%rbp), %rax
	movq	%rax, 136(%rsp)
	xorl	%eax, %eax
	movq	$0, 80(%rsp)
	xorl	%r15d, %r15d
	movq	%rbp, 72(%rsp)
	movq	%rbx, 104(%rsp)
	.p2align	4
.LBB0_93:
	leaq	(%r15,%rbp), %r14
	movq	%rbx, %r12
	subq	%r15, %r12
	cmpq	$2, %r12
	movq	%rax, 8(%rsp)
	jne	.LBB0_101
	movzbl	1(%r14), %eax
.LBB0_95:
	andb	$-8, %al
	cmpb	$-40, %al
	jne	.LBB0_128
.LBB0_96:
	movq	%r14, %rdi
	movq	%r12, %rsi
	vzeroupper
	callq	"utf16_units::validate::valid_len::<#418c2b53cf60437c>"
	movq	%r12, %rsi
	subq	%rax, %rsi
	je	.LBB0_143
	movq	%rax, %rbp
	leaq	(%r14,%rax), %rbx
	movq	%rbx, %rdi
	callq	"utf16_units::validate::error_len::<#418c2b53cf60437c>"
	movl	%eax, %r12d
	cmpb	$1, %al
	jne	.LBB0_105
	movzwl	(%rbx), %ebx
	cmpq	$64, %rbp
	jb	.LBB0_106
.LBB0_99:
	leaq	-64(%rbp), %rax
	movq	%rax, %rsi
	shrq	$6, %rsi
	incq	%rsi
	movl	%esi, %edx
	andl	$3, %edx
	cmpq	$192, %rax
	jae	.LBB0_111
	xorl	%eax, %eax
	xorl	%ecx, %ecx
	jmp	.LBB0_114
	.p2align	4
.LBB0_101:
	cmpq	$7, %r12
	ja	.LBB0_107
	cmpq	$4, %r12
	je	.LBB0_123
	cmpq	$6, %r12
	je	.LBB0_120
	testq	%r12, %r12
	jne	.LBB0_96
	jmp	.LBB0_128
.LBB0_105:
	xorl	%ebx, %ebx
	cmpq	$64, %rbp
	jae	.LBB0_99
.LBB0_106:
	movq	%r14, %rdi
	movq	%rbp, %rsi
	callq	"utf16_units::text::count_few::<#418c2b53cf60437c>"
	jmp	.LBB0_138
.LBB0_107:
	cmpq	$65, %r12
	setae	%al
	movl	%r12d, %ecx
	orb	%al, %cl
	testb	$1, %cl
	jne	.LBB0_96
	cmpq	$15, %r12
	ja	.LBB0_125
	vmovq	(%r14), %xmm0
	vpshufb	.LCPI0_3(%rip), %xmm0, %xmm0
	vpand	.LCPI0_4(%rip), %xmm0, %xmm0
	vpcmpeqb	.LCPI0_5(%rip), %xmm0, %xmm0
	vpmovsxbd	%xmm0, %xmm0
	vtestps	%xmm0, %xmm0
	jne	.LBB0_96
	movq	128(%rsp), %rax
	vmovq	(%rax), %xmm0
	vpshufb	.LCPI0_3(%rip), %xmm0, %xmm0
	vpand	.LCPI0_4(%rip), %xmm0, %xmm0
	vpcmpeqb	.LCPI0_5(%rip), %xmm0, %xmm0
	vpmovsxbd	%xmm0, %xmm0
	vtestps	%xmm0, %xmm0
	jne	.LBB0_96
	jmp	.LBB0_128
.LBB0_111:
	movabsq	$576460752303423484, %rax
	andq	%rax, %rsi
	movq	168(%rsp), %rax
	leaq	(%rax,%r15), %rdi
	xorl	%eax, %eax
	xorl	%ecx, %ecx
	.p2align	4
.LBB0_112:
	vmovdqu	-192(%rdi,%rax), %ymm0
	vmovdqu	-160(%rdi,%rax), %ymm1
	vmovdqu	-128(%rdi,%rax), %ymm2
	vmovdqu	-96(%rdi,%rax), %ymm3
	vpsrlw	$8, %ymm1, %ymm1
	vpsrlw	$8, %ymm0, %ymm0
	vpackuswb	%ymm1, %ymm0, %ymm0
	vpermq	$216, %ymm0, %ymm1
	vpbroadcastd	.LCPI0_16(%rip), %ymm0
	vpand	%ymm0, %ymm1, %ymm4
	vpbroadcastd	.LCPI0_17(%rip), %ymm1
	vpcmpeqb	%ymm1, %ymm4, %ymm4
	vpmovmskb	%ymm4, %r8d
	popcntl	%r8d, %r8d
	addq	%rcx, %r8
	vpsrlw	$8, %ymm3, %ymm3
	vpsrlw	$8, %ymm2, %ymm2
	vpackuswb	%ymm3, %ymm2, %ymm2
	vpermq	$216, %ymm2, %ymm2
	vpand	%ymm0, %ymm2, %ymm2
	vpcmpeqb	%ymm1, %ymm2, %ymm2
	vpmovmskb	%ymm2, %ecx
	popcntl	%ecx, %ecx
	vmovdqu	-64(%rdi,%rax), %ymm2
	vmovdqu	-32(%rdi,%rax), %ymm3
	vpsrlw	$8, %ymm3, %ymm3
	vpsrlw	$8, %ymm2, %ymm2
	vpackuswb	%ymm3, %ymm2, %ymm2
	vpermq	$216, %ymm2, %ymm2
	vpand	%ymm0, %ymm2, %ymm2
	vpcmpeqb	%ymm1, %ymm2, %ymm2
	vpmovmskb	%ymm2, %r9d
	popcntl	%r9d, %r9d
	addq	%rcx, %r9
	addq	%r8, %r9
	vmovdqu	(%rdi,%rax), %ymm2
	vmovdqu	32(%rdi,%rax), %ymm3
	vpsrlw	$8, %ymm3, %ymm3
	vpsrlw	$8, %ymm2, %ymm2
	vpackuswb	%ymm3, %ymm2, %ymm2
	vpermq	$216, %ymm2, %ymm2
	vpand	%ymm0, %ymm2, %ymm0
	vpcmpeqb	%ymm1, %ymm0, %ymm0
	vpmovmskb	%ymm0, %ecx
	popcntl	%ecx, %ecx
	addq	%r9, %rcx
	addq	$256, %rax
	addq	$-4, %rsi
	jne	.LBB0_112
	testq	%rdx, %rdx
	je	.LBB0_115
	.p2align	4
.LBB0_114:
	vmovdqu	(%r14,%rax), %ymm0
	vmovdqu	32(%r14,%rax), %ymm1
	vpsrlw	$8, %ymm1, %ymm1
	vpsrlw	$8, %ymm0, %ymm0
	vpackuswb	%ymm1, %ymm0, %ymm0
	vpermq	$216, %ymm0, %ymm0
	vpand	.LCPI0_6(%rip), %ymm0, %ymm0
	vpcmpeqb	.LCPI0_7(%rip), %ymm0, %ymm0
	vpmovmskb	%ymm0, %esi
	popcntl	%esi, %esi
	addq	%rsi, %rcx
	addq	$64, %rax
	decq	%rdx
	jne	.LBB0_114
.LBB0_115:
	movq	%rbp, %rdx
	subq	%rax, %rdx
	cmpq	$2, %rdx
	jb	.LBB0_137
	movq	%rbp, %rsi
	andq	$-64, %rsi
	leaq	-2(%rbp), %rdx
	xorl	%edi, %edi
	cmpq	%rsi, %rdx
	setne	%dil
	movq	%rbp, %rdx
	subq	%rdi, %rdx
	notq	%rsi
	addq	%rdx, %rsi
	cmpq	$8, %rsi
	jae	.LBB0_118
	movq	%rax, %rdi
	jmp	.LBB0_135
.LBB0_118:
	movq	%rsi, %rdx
	shrq	%rdx
	incq	%rdx
	cmpq	$32, %rsi
	jae	.LBB0_129
	xorl	%esi, %esi
	jmp	.LBB0_132
.LBB0_120:
	movzbl	1(%r14), %eax
	andb	$-8, %al
	cmpb	$-40, %al
	je	.LBB0_96
	movzbl	3(%r14), %eax
	andb	$-8, %al
	cmpb	$-40, %al
	je	.LBB0_96
	movzbl	5(%r14), %eax
	jmp	.LBB0_95
.LBB0_123:
	movzbl	1(%r14), %eax
	andb	$-8, %al
	cmpb	$-40, %al
	je	.LBB0_96
	movzbl	3(%r14), %eax
	jmp	.LBB0_95
.LBB0_125:
	cmpq	$31, %r12
	ja	.LBB0_141
	vmovdqu	(%r14), %xmm0
	vpshufb	.LCPI0_2(%rip), %xmm0, %xmm0
	vpand	.LCPI0_0(%rip), %xmm0, %xmm0
	vpcmpeqb	.LCPI0_1(%rip), %xmm0, %xmm0
	vpmovmskb	%xmm0, %eax
	testb	%al, %al
	jne	.LBB0_96
	movq	112(%rsp), %rax
	vmovdqu	(%rax), %xmm0
	vpshufb	.LCPI0_2(%rip), %xmm0, %xmm0
	vpand	.LCPI0_0(%rip), %xmm0, %xmm0
	vpcmpeqb	.LCPI0_1(%rip), %xmm0, %xmm0
	vpmovmskb	%xmm0, %eax
	testb	%al, %al
	jne	.LBB0_96
	jmp	.LBB0_128
.LBB0_129:
	movl	%edx, %esi
	andl	$15, %esi
	movl	$16, %edi
	cmovneq	%rsi, %rdi
	movq	%rdx, %rsi
	subq	%rdi, %rsi
	vmovq	%rcx, %xmm0
	leaq	(%rax,%r15), %rcx
	addq	280(%rsp), %rcx
	vpxor	%xmm1, %xmm1, %xmm1
	xorl	%r8d, %r8d
	vpxor	%xmm2, %xmm2, %xmm2
	vpxor	%xmm3, %xmm3, %xmm3
	.p2align	4
.LBB0_130:
	vmovq	-24(%rcx,%r8,2), %xmm4
	vmovd	.LCPI0_18(%rip), %xmm5
	vpshufb	%xmm5, %xmm4, %xmm4
	vmovq	-16(%rcx,%r8,2), %xmm6
	vpshufb	%xmm5, %xmm6, %xmm6
	vmovq	-8(%rcx,%r8,2), %xmm7
	vpshufb	%xmm5, %xmm7, %xmm7
	vmovq	(%rcx,%r8,2), %xmm8
	vpshufb	%xmm5, %xmm8, %xmm5
	vpbroadcastd	.LCPI0_16(%rip), %xmm8
	vpand	%xmm4, %xmm8, %xmm4
	vpand	%xmm6, %xmm8, %xmm6
	vpand	%xmm7, %xmm8, %xmm7
	vpand	%xmm5, %xmm8, %xmm5
	vpbroadcastd	.LCPI0_17(%rip), %xmm8
	vpcmpeqb	%xmm4, %xmm8, %xmm4
	vpmovzxbq	%xmm4, %ymm4
	vpbroadcastq	.LCPI0_11(%rip), %ymm9
	vpand	%ymm4, %ymm9, %ymm4
	vpaddq	%ymm4, %ymm0, %ymm0
	vpcmpeqb	%xmm6, %xmm8, %xmm4
	vpmovzxbq	%xmm4, %ymm4
	vpand	%ymm4, %ymm9, %ymm4
	vpaddq	%ymm4, %ymm1, %ymm1
	vpcmpeqb	%xmm7, %xmm8, %xmm4
	vpmovzxbq	%xmm4, %ymm4
	vpand	%ymm4, %ymm9, %ymm4
	vpaddq	%ymm4, %ymm2, %ymm2
	vpcmpeqb	%xmm5, %xmm8, %xmm4
	vpmovzxbq	%xmm4, %ymm4
	vpand	%ymm4, %ymm9, %ymm4
	vpaddq	%ymm4, %ymm3, %ymm3
	addq	$16, %r8
	cmpq	%r8, %rsi
	jne	.LBB0_130
	vpaddq	%ymm0, %ymm1, %ymm0
	vpaddq	%ymm0, %ymm2, %ymm0
	vpaddq	%ymm0, %ymm3, %ymm0
	vextracti128	$1, %ymm0, %xmm1
	vpaddq	%xmm1, %xmm0, %xmm0
	vpshufd	$238, %xmm0, %xmm1
	vpaddq	%xmm1, %xmm0, %xmm0
	vmovq	%xmm0, %rcx
	cmpl	$5, %edi
	jb	.LBB0_150
.LBB0_132:
	movl	%edx, %edi
	andl	$3, %edi
	movl	$4, %r8d
	cmovneq	%rdi, %r8
	subq	%r8, %rdx
	leaq	(%rax,%rdx,2), %rdi
	vmovq	%rcx, %xmm0
	addq	%r15, %rax
	addq	136(%rsp), %rax
	.p2align	4
.LBB0_133:
	vmovq	(%rax,%rsi,2), %xmm1
	vpshufb	.LCPI0_8(%rip), %xmm1, %xmm1
	vpand	.LCPI0_9(%rip), %xmm1, %xmm1
	vpcmpeqb	.LCPI0_10(%rip), %xmm1, %xmm1
	vpmovzxbq	%xmm1, %ymm1
	vpbroadcastq	.LCPI0_11(%rip), %ymm2
	vpand	%ymm2, %ymm1, %ymm1
	vpaddq	%ymm1, %ymm0, %ymm0
	addq	$4, %rsi
	cmpq	%rsi, %rdx
	jne	.LBB0_133
	vextracti128	$1, %ymm0, %xmm1
	vpaddq	%xmm1, %xmm0, %xmm0
	vpshufd	$238, %xmm0, %xmm1
	vpaddq	%xmm1, %xmm0, %xmm0
	vmovq	%xmm0, %rcx
.LBB0_135:
	movq	%rbp, %rax
	subq	%rdi, %rax
	addq	%r15, %rdi
	addq	136(%rsp), %rdi
	.p2align	4
.LBB0_136:
	movzbl	(%rdi), %edx
	andb	$-4, %dl
	xorl	%esi, %esi
	cmpb	$-36, %dl
	sete	%sil
	addq	%rsi, %rcx
	addq	$-2, %rax
	addq	$2, %rdi
	cmpq	$1, %rax
	ja	.LBB0_136
.LBB0_137:
	movq	%rbp, %rax
	shrq	%rax
	subq	%rcx, %rax
.LBB0_138:
	addq	%rax, 80(%rsp)
	addq	%r15, %rbp
	cmpb	$1, %r12b
	jne	.LBB0_215
	movq	24(%rsp), %rax
	leaq	(%rax,%rbp), %rdi
	leaq	144(%rsp), %rdx
	movl	%ebx, %esi
	vzeroupper
	callq	"utf16_program::lines::append_unpaired::<#689013dfc86db972>"
	testb	%al, %al
	jne	.LBB0_280
	addq	$2, %rbp
	movq	8(%rsp), %rax
	incq	%rax
	movq	%rbp, %r15
	movq	104(%rsp), %rbx
	movq	72(%rsp), %rbp
	jmp	.LBB0_93
.LBB0_141:
	vmovdqu	(%r14), %ymm0
	vpsrlw	$8, %ymm0, %ymm0
	vextracti128	$1, %ymm0, %xmm1
	vpackuswb	%xmm1, %xmm0, %xmm0
	vpand	.LCPI0_0(%rip), %xmm0, %xmm0
	vpcmpeqb	.LCPI0_1(%rip), %xmm0, %xmm0
	vpmovmskb	%xmm0, %eax
	testl	%eax, %eax
	jne	.LBB0_96
	movq	120(%rsp), %rax
	vmovdqu	(%rax), %ymm0
	vpsrlw	$8, %ymm0, %ymm0
	vextracti128	$1, %ymm0, %xmm1
	vpackuswb	%xmm1, %xmm0, %xmm0
	vpand	.LCPI0_0(%rip), %xmm0, %xmm0
	vpcmpeqb	.LCPI0_1(%rip), %xmm0, %xmm0
	vpmovmskb	%xmm0, %eax
	testl	%eax, %eax
	jne	.LBB0_96
	jmp	.LBB0_143
.LBB0_150:
	leaq	(%rax,%rsi,2), %rdi
	jmp	.LBB0_135
.LBB0_151:
	cmpq	$2, %rbp
	jae	.LBB0_153
	xorl	%r12d, %r12d
	xorl	%r8d, %r8d
	jmp	.LBB0_255
.LBB0_153:
	movzbl	304(%rsp), %ecx
	movzbl	305(%rsp), %eax
	cmpl	$255, %ecx
	je	.LBB0_157
	cmpl	$254, %ecx
	jne	.LBB0_159
	cmpb	$-1, %al
	jne	.LBB0_159
	movl	$2, %ecx
	leaq	306(%rsp), %rax
	jmp	.LBB0_160
.LBB0_157:
	cmpb	$-2, %al
	jne	.LBB0_159
	leaq	-2(%rbp), %rbx
	addq	$2, %r15
	movq	%r15, 24(%rsp)
	leaq	(%rsp,%rbp), %rax
	addq	$272, %rax
	movq	%rax, 120(%rsp)
	leaq	288(%rsp,%rbp), %rax
	movq	%rax, 112(%rsp)
	leaq	296(%rsp,%rbp), %rax
	movq	%rax, 128(%rsp)
	movl	$2, %ecx
	leaq	306(%rsp), %rbp
	jmp	.LBB0_92
.LBB0_159:
	xorl	%ecx, %ecx
	leaq	304(%rsp), %rax
.LBB0_160:
	movq	%rbp, %rbx
	subq	%rcx, %rbx
	addq	%rcx, %r15
	movq	%r15, 24(%rsp)
	leaq	(%rsp,%rbp), %rdx
	addq	$272, %rdx
	movq	%rdx, 120(%rsp)
	leaq	288(%rsp,%rbp), %rdx
	movq	%rdx, 112(%rsp)
	leaq	(%rsp,%rbp), %rdx
	addq	$296, %rdx
	movq	%rdx, 128(%rsp)
	movq	%rax, %rbp
.LBB0_161:
	movq	%rcx, 64(%rsp)
	leaq	192(%rbp), %rax
	movq	%rax, 136(%rsp)
	leaq	24(%rbp), %rax
	movq	%rax, 168(%rsp)
	xorl	%eax, %eax
	movq	$0, 80(%rsp)
	xorl	%r15d, %r15d
	movq	%rbx, 104(%rsp)
	movq	%rbp, 72(%rsp)
	.p2align	4
.LBB0_162:
	addq	%r15, %rbp
	movq	%rbx, %r12
	subq	%r15, %r12
	cmpq	$2, %r12
	movq	%rax, 8(%rsp)
	jne	.LBB0_170
	movzbl	(%rbp), %eax
.LBB0_164:
	andb	$-8, %al
	cmpb	$-40, %al
	jne	.LBB0_213
.LBB0_165:
	movq	%rbp, %rdi
	movq	%r12, %rsi
	vzeroupper
	callq	"utf16_units::validate::valid_len::<#8b18edd9dd9aa8df>"
	movq	%r12, %rsi
	subq	%rax, %rsi
	je	.LBB0_212
	movq	%rax, %rbx
	leaq	(%rax,%rbp), %r12
	movq	%r12, %rdi
	callq	"utf16_units::validate::error_len::<#8b18edd9dd9aa8df>"
	movl	%eax, %r14d
	cmpb	$1, %al
	jne	.LBB0_174
	movbew	(%r12), %r12w
	cmpq	$64, %rbx
	jb	.LBB0_175
.LBB0_168:
	leaq	-64(%rbx), %rax
	movq	%rax, %rsi
	shrq	$6, %rsi
	incq	%rsi
	movl	%esi, %edx
	andl	$3, %edx
	cmpq	$192, %rax
	jae	.LBB0_180
	xorl	%eax, %eax
	xorl	%ecx, %ecx
	jmp	.LBB0_183
	.p2align	4
.LBB0_170:
	cmpq	$7, %r12
	ja	.LBB0_176
	cmpq	$4, %r12
	je	.LBB0_193
	cmpq	$6, %r12
	je	.LBB0_190
	testq	%r12, %r12
	jne	.LBB0_165
	jmp	.LBB0_213
	.p2align	4
.LBB0_174:
	xorl	%r12d, %r12d
	cmpq	$64, %rbx
	jae	.LBB0_168
.LBB0_175:
	movq	%rbp, %rdi
	movq	%rbx, %rsi
	callq	"utf16_units::text::count_few::<#8b18edd9dd9aa8df>"
	movq	72(%rsp), %rbp
	jmp	.LBB0_207
.LBB0_176:
	cmpq	$65, %r12
	setae	%al
	movl	%r12d, %ecx
	orb	%al, %cl
	testb	$1, %cl
	jne	.LBB0_165
	cmpq	$15, %r12
	ja	.LBB0_195
	vmovq	(%rbp), %xmm0
	vpshufb	.LCPI0_8(%rip), %xmm0, %xmm0
	vpand	.LCPI0_4(%rip), %xmm0, %xmm0
	vpcmpeqb	.LCPI0_5(%rip), %xmm0, %xmm0
	vpmovsxbd	%xmm0, %xmm0
	vtestps	%xmm0, %xmm0
	jne	.LBB0_165
	movq	128(%rsp), %rax
	vmovq	(%rax), %xmm0
	vpshufb	.LCPI0_8(%rip), %xmm0, %xmm0
	vpand	.LCPI0_4(%rip), %xmm0, %xmm0
	vpcmpeqb	.LCPI0_5(%rip), %xmm0, %xmm0
	vpmovsxbd	%xmm0, %xmm0
	vtestps	%xmm0, %xmm0
	jne	.LBB0_165
	jmp	.LBB0_213
.LBB0_180:
	movabsq	$576460752303423484, %rax
	andq	%rax, %rsi
	movq	136(%rsp), %rax
	leaq	(%rax,%r15), %rdi
	xorl	%eax, %eax
	xorl	%ecx, %ecx
	.p2align	4
.LBB0_181:
	vpbroadcastw	.LCPI0_14(%rip), %ymm0
	vpand	-160(%rdi,%rax), %ymm0, %ymm1
	vpand	-192(%rdi,%rax), %ymm0, %ymm2
	vpackuswb	%ymm1, %ymm2, %ymm1
	vpermq	$216, %ymm1, %ymm2
	vpbroadcastd	.LCPI0_16(%rip), %ymm1
	vpand	%ymm1, %ymm2, %ymm3
	vpbroadcastd	.LCPI0_17(%rip), %ymm2
	vpcmpeqb	%ymm2, %ymm3, %ymm3
	vpmovmskb	%ymm3, %r8d
	popcntl	%r8d, %r8d
	vpand	-96(%rdi,%rax), %ymm0, %ymm3
	vpand	-128(%rdi,%rax), %ymm0, %ymm4
	addq	%rcx, %r8
	vpackuswb	%ymm3, %ymm4, %ymm3
	vpermq	$216, %ymm3, %ymm3
	vpand	%ymm1, %ymm3, %ymm3
	vpcmpeqb	%ymm2, %ymm3, %ymm3
	vpmovmskb	%ymm3, %ecx
	vpand	-32(%rdi,%rax), %ymm0, %ymm3
	popcntl	%ecx, %ecx
	vpand	-64(%rdi,%rax), %ymm0, %ymm4
	vpackuswb	%ymm3, %ymm4, %ymm3
	vpermq	$216, %ymm3, %ymm3
	vpand	%ymm1, %ymm3, %ymm3
	vpcmpeqb	%ymm2, %ymm3, %ymm3
	vpmovmskb	%ymm3, %r9d
	popcntl	%r9d, %r9d
	addq	%rcx, %r9
	vpand	32(%rdi,%rax), %ymm0, %ymm3
	addq	%r8, %r9
	vpand	(%rdi,%rax), %ymm0, %ymm0
	vpackuswb	%ymm3, %ymm0, %ymm0
	vpermq	$216, %ymm0, %ymm0
	vpand	%ymm1, %ymm0, %ymm0
	vpcmpeqb	%ymm2, %ymm0, %ymm0
	vpmovmskb	%ymm0, %ecx
	popcntl	%ecx, %ecx
	addq	%r9, %rcx
	addq	$256, %rax
	addq	$-4, %rsi
	jne	.LBB0_181
	testq	%rdx, %rdx
	je	.LBB0_184
	.p2align	4
.LBB0_183:
	vpbroadcastw	.LCPI0_14(%rip), %ymm0
	vpand	32(%rbp,%rax), %ymm0, %ymm1
	vpand	(%rbp,%rax), %ymm0, %ymm0
	vpackuswb	%ymm1, %ymm0, %ymm0
	vpermq	$216, %ymm0, %ymm0
	vpand	.LCPI0_6(%rip), %ymm0, %ymm0
	vpcmpeqb	.LCPI0_7(%rip), %ymm0, %ymm0
	vpmovmskb	%ymm0, %esi
	popcntl	%esi, %esi
	addq	%rsi, %rcx
	addq	$64, %rax
	decq	%rdx
	jne	.LBB0_183
.LBB0_184:
	movq	%rbx, %rdx
	subq	%rax, %rdx
	cmpq	$2, %rdx
	jb	.LBB0_187
	movq	%rbx, %rsi
	andq	$-64, %rsi
	leaq	-2(%rbx), %rdx
	xorl	%edi, %edi
	cmpq	%rsi, %rdx
	setne	%dil
	movq	%rbx, %rdx
	subq	%rdi, %rdx
	notq	%rsi
	addq	%rdx, %rsi
	cmpq	$8, %rsi
	jae	.LBB0_188
	movq	%rax, %rdi
	jmp	.LBB0_204
.LBB0_187:
	movq	72(%rsp), %rbp
	jmp	.LBB0_206
.LBB0_188:
	movq	%rsi, %rdx
	shrq	%rdx
	incq	%rdx
	cmpq	$32, %rsi
	jae	.LBB0_198
	xorl	%esi, %esi
	jmp	.LBB0_201
.LBB0_190:
	movzbl	(%rbp), %eax
	andb	$-8, %al
	cmpb	$-40, %al
	je	.LBB0_165
	movzbl	2(%rbp), %eax
	andb	$-8, %al
	cmpb	$-40, %al
	je	.LBB0_165
	movzbl	4(%rbp), %eax
	jmp	.LBB0_164
.LBB0_193:
	movzbl	(%rbp), %eax
	andb	$-8, %al
	cmpb	$-40, %al
	je	.LBB0_165
	movzbl	2(%rbp), %eax
	jmp	.LBB0_164
.LBB0_195:
	cmpq	$31, %r12
	ja	.LBB0_210
	vmovdqu	(%rbp), %xmm0
	vpshufb	.LCPI0_13(%rip), %xmm0, %xmm0
	vpand	.LCPI0_0(%rip), %xmm0, %xmm0
	vpcmpeqb	.LCPI0_1(%rip), %xmm0, %xmm0
	vpmovmskb	%xmm0, %eax
	testb	%al, %al
	jne	.LBB0_165
	movq	112(%rsp), %rax
	vmovdqu	(%rax), %xmm0
	vpshufb	.LCPI0_13(%rip), %xmm0, %xmm0
	vpand	.LCPI0_0(%rip), %xmm0, %xmm0
	vpcmpeqb	.LCPI0_1(%rip), %xmm0, %xmm0
	vpmovmskb	%xmm0, %eax
	testb	%al, %al
	jne	.LBB0_165
	jmp	.LBB0_213
.LBB0_198:
	movl	%edx, %esi
	andl	$15, %esi
	movl	$16, %edi
	cmovneq	%rsi, %rdi
	movq	%rdx, %rsi
	subq	%rdi, %rsi
	vmovq	%rcx, %xmm0
	leaq	(%rax,%r15), %rcx
	addq	168(%rsp), %rcx
	vpxor	%xmm1, %xmm1, %xmm1
	xorl	%r8d, %r8d
	vpxor	%xmm2, %xmm2, %xmm2
	vpxor	%xmm3, %xmm3, %xmm3
	.p2align	4
.LBB0_199:
	vmovq	-24(%rcx,%r8,2), %xmm4
	vmovd	.LCPI0_18(%rip), %xmm5
	vpshufb	%xmm5, %xmm4, %xmm4
	vmovq	-16(%rcx,%r8,2), %xmm6
	vpshufb	%xmm5, %xmm6, %xmm6
	vmovq	-8(%rcx,%r8,2), %xmm7
	vpshufb	%xmm5, %xmm7, %xmm7
	vmovq	(%rcx,%r8,2), %xmm8
	vpshufb	%xmm5, %xmm8, %xmm5
	vpbroadcastd	.LCPI0_16(%rip), %xmm8
	vpand	%xmm4, %xmm8, %xmm4
	vpand	%xmm6, %xmm8, %xmm6
	vpand	%xmm7, %xmm8, %xmm7
	vpand	%xmm5, %xmm8, %xmm5
	vpbroadcastd	.LCPI0_17(%rip), %xmm8
	vpcmpeqb	%xmm4, %xmm8, %xmm4
	vpmovzxbq	%xmm4, %ymm4
	vpbroadcastq	.LCPI0_11(%rip), %ymm9
	vpand	%ymm4, %ymm9, %ymm4
	vpaddq	%ymm4, %ymm0, %ymm0
	vpcmpeqb	%xmm6, %xmm8, %xmm4
	vpmovzxbq	%xmm4, %ymm4
	vpand	%ymm4, %ymm9, %ymm4
	vpaddq	%ymm4, %ymm1, %ymm1
	vpcmpeqb	%xmm7, %xmm8, %xmm4
	vpmovzxbq	%xmm4, %ymm4
	vpand	%ymm4, %ymm9, %ymm4
	vpaddq	%ymm4, %ymm2, %ymm2
	vpcmpeqb	%xmm5, %xmm8, %xmm4
	vpmovzxbq	%xmm4, %ymm4
	vpand	%ymm4, %ymm9, %ymm4
	vpaddq	%ymm4, %ymm3, %ymm3
	addq	$16, %r8
	cmpq	%r8, %rsi
	jne	.LBB0_199
	vpaddq	%ymm0, %ymm1, %ymm0
	vpaddq	%ymm0, %ymm2, %ymm0
	vpaddq	%ymm0, %ymm3, %ymm0
	vextracti128	$1, %ymm0, %xmm1
	vpaddq	%xmm1, %xmm0, %xmm0
	vpshufd	$238, %xmm0, %xmm1
	vpaddq	%xmm1, %xmm0, %xmm0
	vmovq	%xmm0, %rcx
	cmpl	$5, %edi
	jb	.LBB0_371
.LBB0_201:
	movl	%edx, %edi
	andl	$3, %edi
	movl	$4, %r8d
	cmovneq	%rdi, %r8
	subq	%r8, %rdx
	leaq	(%rax,%rdx,2), %rdi
	vmovq	%rcx, %xmm0
	addq	%rax, %rbp
	.p2align	4
.LBB0_202:
	vmovq	(%rbp,%rsi,2), %xmm1
	vpshufb	.LCPI0_8(%rip), %xmm1, %xmm1
	vpand	.LCPI0_9(%rip), %xmm1, %xmm1
	vpcmpeqb	.LCPI0_10(%rip), %xmm1, %xmm1
	vpmovzxbq	%xmm1, %ymm1
	vpbroadcastq	.LCPI0_11(%rip), %ymm2
	vpand	%ymm2, %ymm1, %ymm1
	vpaddq	%ymm1, %ymm0, %ymm0
	addq	$4, %rsi
	cmpq	%rsi, %rdx
	jne	.LBB0_202
	vextracti128	$1, %ymm0, %xmm1
	vpaddq	%xmm1, %xmm0, %xmm0
	vpshufd	$238, %xmm0, %xmm1
	vpaddq	%xmm1, %xmm0, %xmm0
	vmovq	%xmm0, %rcx
.LBB0_204:
	movq	%rbx, %rax
	subq	%rdi, %rax
	addq	%r15, %rdi
	movq	72(%rsp), %rbp
	addq	%rbp, %rdi
	.p2align	4
.LBB0_205:
	movzbl	(%rdi), %edx
	andb	$-4, %dl
	xorl	%esi, %esi
	cmpb	$-36, %dl
	sete	%sil
	addq	%rsi, %rcx
	addq	$-2, %rax
	addq	$2, %rdi
	cmpq	$1, %rax
	ja	.LBB0_205
.LBB0_206:
	movq	%rbx, %rax
	shrq	%rax
	subq	%rcx, %rax
.LBB0_207:
	addq	%rax, 80(%rsp)
	addq	%r15, %rbx
	cmpb	$1, %r14b
	jne	.LBB0_214
	movq	24(%rsp), %rax
	leaq	(%rbx,%rax), %rdi
	leaq	144(%rsp), %rdx
	movl	%r12d, %esi
	vzeroupper
	callq	"utf16_program::lines::append_unpaired::<#689013dfc86db972>"
	testb	%al, %al
	jne	.LBB0_280
	addq	$2, %rbx
	movq	8(%rsp), %rax
	incq	%rax
	movq	%rbx, %r15
	movq	104(%rsp), %rbx
	jmp	.LBB0_162
.LBB0_210:
	vmovdqu	(%rbp), %ymm0
	vpand	.LCPI0_12(%rip), %ymm0, %ymm0
	vextracti128	$1, %ymm0, %xmm1
	vpackuswb	%xmm1, %xmm0, %xmm0
	vpand	.LCPI0_0(%rip), %xmm0, %xmm0
	vpcmpeqb	.LCPI0_1(%rip), %xmm0, %xmm0
	vpmovmskb	%xmm0, %eax
	testl	%eax, %eax
	jne	.LBB0_165
	movq	120(%rsp), %rax
	vmovdqu	(%rax), %ymm0
	vpand	.LCPI0_12(%rip), %ymm0, %ymm0
	vextracti128	$1, %ymm0, %xmm1
	vpackuswb	%xmm1, %xmm0, %xmm0
	vpand	.LCPI0_0(%rip), %xmm0, %xmm0
	vpcmpeqb	.LCPI0_1(%rip), %xmm0, %xmm0
	vpmovmskb	%xmm0, %eax
	testl	%eax, %eax
	jne	.LBB0_165
	jmp	.LBB0_212
.LBB0_371:
	leaq	(%rax,%rsi,2), %rdi
	jmp	.LBB0_204
.LBB0_212:
	cmpq	$64, %r12
	jae	.LBB0_217
.LBB0_213:
	movq	%rbp, %rdi
	movq	%r12, %rsi
	vzeroupper
	callq	"utf16_units::text::count_few::<#8b18edd9dd9aa8df>"
	movq	%rax, %r12
	movq	88(%rsp), %r14
	movq	24(%rsp), %r15
	movq	64(%rsp), %r8
	movq	104(%rsp), %rbx
	movq	8(%rsp), %r9
	jmp	.LBB0_236
.LBB0_214:
	movb	$1, %al
	movq	%rax, 72(%rsp)
	jmp	.LBB0_216
.LBB0_143:
	cmpq	$64, %r12
	jae	.LBB0_144
.LBB0_128:
	movq	%r14, %rdi
	movq	%r12, %rsi
	vzeroupper
	callq	"utf16_units::text::count_few::<#418c2b53cf60437c>"
	movq	%rax, %r12
	movq	88(%rsp), %r14
	movq	24(%rsp), %r15
	movq	64(%rsp), %r8
	movq	8(%rsp), %r9
	jmp	.LBB0_246
.LBB0_215:
	movq	$0, 72(%rsp)
	movq	%rbp, %rbx
.LBB0_216:
	movq	88(%rsp), %r14
	movq	96(%rsp), %rax
	movq	24(%rsp), %r15
	movq	64(%rsp), %r8
	movq	8(%rsp), %r9
	movq	80(%rsp), %rcx
	jmp	.LBB0_248
.LBB0_217:
	movq	72(%rsp), %rax
	leaq	(%rax,%r15), %rsi
	addq	$88, %rsi
	xorl	%eax, %eax
	movq	%rbp, %rcx
	xorl	%edx, %edx
	.p2align	4
.LBB0_218:
	vpbroadcastw	.LCPI0_14(%rip), %ymm0
	movq	%rsi, %rdi
	vpand	32(%rbp,%rax), %ymm0, %ymm1
	vpand	(%rbp,%rax), %ymm0, %ymm0
	vpackuswb	%ymm1, %ymm0, %ymm0
	vpermq	$216, %ymm0, %ymm0
	vpand	.LCPI0_6(%rip), %ymm0, %ymm0
	vpcmpeqb	.LCPI0_7(%rip), %ymm0, %ymm0
	vpmovmskb	%ymm0, %esi
	popcntl	%esi, %esi
	addq	%rsi, %rdx
	addq	$64, %rax
	movq	%r12, %r8
	subq	%rax, %r8
	leaq	64(%rdi), %rsi
	addq	$64, %rcx
	cmpq	$63, %r8
	ja	.LBB0_218
	cmpq	$2, %r8
	movq	104(%rsp), %rbx
	jb	.LBB0_222
	leaq	-66(%rbx), %rsi
	leaq	-64(%r12), %r8
	andq	$-64, %r8
	addq	%r15, %r8
	xorl	%r10d, %r10d
	cmpq	%r8, %rsi
	setne	%r10b
	movq	%rbx, %r9
	subq	%r10, %r9
	subq	%r8, %r9
	addq	$-65, %r9
	cmpq	$8, %r9
	jae	.LBB0_224
	movq	64(%rsp), %r8
	movq	8(%rsp), %r9
	movq	72(%rsp), %r11
	jmp	.LBB0_233
.LBB0_144:
	movq	72(%rsp), %r11
	leaq	(%r11,%r15), %rsi
	addq	$89, %rsi
	leaq	(%r11,%r15), %rcx
	incq	%rcx
	xorl	%eax, %eax
	xorl	%edx, %edx
	.p2align	4
.LBB0_145:
	movq	%rsi, %rdi
	vmovdqu	(%r14,%rax), %ymm0
	vmovdqu	32(%r14,%rax), %ymm1
	vpsrlw	$8, %ymm1, %ymm1
	vpsrlw	$8, %ymm0, %ymm0
	vpackuswb	%ymm1, %ymm0, %ymm0
	vpermq	$216, %ymm0, %ymm0
	vpand	.LCPI0_6(%rip), %ymm0, %ymm0
	vpcmpeqb	.LCPI0_7(%rip), %ymm0, %ymm0
	vpmovmskb	%ymm0, %esi
	popcntl	%esi, %esi
	addq	%rsi, %rdx
	addq	$64, %rax
	movq	%r12, %r8
	subq	%rax, %r8
	leaq	64(%rdi), %rsi
	addq	$64, %rcx
	cmpq	$63, %r8
	ja	.LBB0_145
	cmpq	$2, %r8
	jb	.LBB0_223
	leaq	-66(%rbx), %rsi
	leaq	-64(%r12), %r8
	andq	$-64, %r8
	movq	%r15, %rbp
	addq	%r15, %r8
	xorl	%r10d, %r10d
	cmpq	%r8, %rsi
	setne	%r10b
	movq	%rbx, %r9
	subq	%r10, %r9
	subq	%r8, %r9
	addq	$-65, %r9
	cmpq	$8, %r9
	movq	88(%rsp), %r14
	movq	24(%rsp), %r15
	jb	.LBB0_243
	movq	%r9, %rsi
	shrq	%rsi
	leaq	1(%rsi), %r8
	cmpq	$32, %r9
	jae	.LBB0_237
	xorl	%r9d, %r9d
	jmp	.LBB0_240
.LBB0_222:
	movq	64(%rsp), %r8
	movq	8(%rsp), %r9
	jmp	.LBB0_235
.LBB0_223:
	movq	88(%rsp), %r14
	movq	24(%rsp), %r15
	movq	64(%rsp), %r8
	movq	8(%rsp), %r9
	jmp	.LBB0_245
.LBB0_224:
	movq	%r9, %rsi
	shrq	%rsi
	leaq	1(%rsi), %r8
	cmpq	$32, %r9
	movq	72(%rsp), %r11
	jae	.LBB0_226
	xorl	%r9d, %r9d
	jmp	.LBB0_229
.LBB0_226:
	movl	%r8d, %r9d
	andl	$15, %r9d
	movl	$16, %r10d
	cmovneq	%r9, %r10
	movq	%r8, %r9
	subq	%r10, %r9
	vmovq	%rdx, %xmm0
	movq	%rsi, %rdx
	notq	%rdx
	addq	%r10, %rdx
	vpxor	%xmm1, %xmm1, %xmm1
	vpxor	%xmm2, %xmm2, %xmm2
	vpxor	%xmm3, %xmm3, %xmm3
.LBB0_227:
	vmovq	-24(%rdi), %xmm4
	vmovd	.LCPI0_18(%rip), %xmm5
	vpshufb	%xmm5, %xmm4, %xmm4
	vmovq	-16(%rdi), %xmm6
	vpshufb	%xmm5, %xmm6, %xmm6
	vmovq	-8(%rdi), %xmm7
	vpshufb	%xmm5, %xmm7, %xmm7
	vmovq	(%rdi), %xmm8
	vpshufb	%xmm5, %xmm8, %xmm5
	vpbroadcastd	.LCPI0_16(%rip), %xmm8
	vpand	%xmm4, %xmm8, %xmm4
	vpand	%xmm6, %xmm8, %xmm6
	vpand	%xmm7, %xmm8, %xmm7
	vpand	%xmm5, %xmm8, %xmm5
	vpbroadcastd	.LCPI0_17(%rip), %xmm8
	vpcmpeqb	%xmm4, %xmm8, %xmm4
	vpmovzxbq	%xmm4, %ymm4
	vpbroadcastq	.LCPI0_11(%rip), %ymm9
	vpand	%ymm4, %ymm9, %ymm4
	vpaddq	%ymm4, %ymm0, %ymm0
	vpcmpeqb	%xmm6, %xmm8, %xmm4
	vpmovzxbq	%xmm4, %ymm4
	vpand	%ymm4, %ymm9, %ymm4
	vpaddq	%ymm4, %ymm1, %ymm1
	vpcmpeqb	%xmm7, %xmm8, %xmm4
	vpmovzxbq	%xmm4, %ymm4
	vpand	%ymm4, %ymm9, %ymm4
	vpaddq	%ymm4, %ymm2, %ymm2
	vpcmpeqb	%xmm5, %xmm8, %xmm4
	vpmovzxbq	%xmm4, %ymm4
	vpand	%ymm4, %ymm9, %ymm4
	vpaddq	%ymm4, %ymm3, %ymm3
	addq	$32, %rdi
	addq	$16, %rdx
	jne	.LBB0_227
	vpaddq	%ymm0, %ymm1, %ymm0
	vpaddq	%ymm0, %ymm2, %ymm0
	vpaddq	%ymm0, %ymm3, %ymm0
	vextracti128	$1, %ymm0, %xmm1
	vpaddq	%xmm1, %xmm0, %xmm0
	vpshufd	$238, %xmm0, %xmm1
	vpaddq	%xmm1, %xmm0, %xmm0
	vmovq	%xmm0, %rdx
	cmpl	$5, %r10d
	jb	.LBB0_269
.LBB0_229:
	movl	%r8d, %edi
	andl	$3, %edi
	movl	$4, %r10d
	cmovneq	%rdi, %r10
	subq	%r10, %r8
	leaq	(%rax,%r8,2), %rax
	vmovq	%rdx, %xmm0
	leaq	(%rcx,%r9,2), %rcx
	addq	%r9, %r10
	subq	%r10, %rsi
	incq	%rsi
	xorl	%edx, %edx
.LBB0_230:
	vmovq	(%rcx,%rdx,2), %xmm1
	vpshufb	.LCPI0_8(%rip), %xmm1, %xmm1
	vpand	.LCPI0_9(%rip), %xmm1, %xmm1
	vpcmpeqb	.LCPI0_10(%rip), %xmm1, %xmm1
	vpmovzxbq	%xmm1, %ymm1
	vpbroadcastq	.LCPI0_11(%rip), %ymm2
	vpand	%ymm2, %ymm1, %ymm1
	vpaddq	%ymm1, %ymm0, %ymm0
	addq	$4, %rdx
	cmpq	%rdx, %rsi
	jne	.LBB0_230
	vextracti128	$1, %ymm0, %xmm1
	vpaddq	%xmm1, %xmm0, %xmm0
	vpshufd	$238, %xmm0, %xmm1
	vpaddq	%xmm1, %xmm0, %xmm0
	vmovq	%xmm0, %rdx
.LBB0_232:
	movq	64(%rsp), %r8
	movq	8(%rsp), %r9
.LBB0_233:
	movq	%rbx, %rcx
	subq	%rax, %rcx
	subq	%r15, %rcx
	addq	%rax, %r11
	addq	%r15, %r11
.LBB0_234:
	movzbl	(%r11), %eax
	andb	$-4, %al
	xorl	%esi, %esi
	cmpb	$-36, %al
	sete	%sil
	addq	%rsi, %rdx
	addq	$-2, %rcx
	addq	$2, %r11
	cmpq	$1, %rcx
	ja	.LBB0_234
.LBB0_235:
	shrq	%r12
	subq	%rdx, %r12
	movq	88(%rsp), %r14
	movq	24(%rsp), %r15
.LBB0_236:
	movq	80(%rsp), %rcx
	addq	%r12, %rcx
	movb	$1, %al
	movq	%rax, 72(%rsp)
	jmp	.LBB0_247
.LBB0_237:
	movl	%r8d, %r9d
	andl	$15, %r9d
	movl	$16, %r10d
	cmovneq	%r9, %r10
	movq	%r8, %r9
	subq	%r10, %r9
	vmovq	%rdx, %xmm0
	movq	%rsi, %rdx
	notq	%rdx
	addq	%r10, %rdx
	vpxor	%xmm1, %xmm1, %xmm1
	vpxor	%xmm2, %xmm2, %xmm2
	vpxor	%xmm3, %xmm3, %xmm3
.LBB0_238:
	vmovq	-24(%rdi), %xmm4
	vmovd	.LCPI0_18(%rip), %xmm5
	vpshufb	%xmm5, %xmm4, %xmm4
	vmovq	-16(%rdi), %xmm6
	vpshufb	%xmm5, %xmm6, %xmm6
	vmovq	-8(%rdi), %xmm7
	vpshufb	%xmm5, %xmm7, %xmm7
	vmovq	(%rdi), %xmm8
	vpshufb	%xmm5, %xmm8, %xmm5
	vpbroadcastd	.LCPI0_16(%rip), %xmm8
	vpand	%xmm4, %xmm8, %xmm4
	vpand	%xmm6, %xmm8, %xmm6
	vpand	%xmm7, %xmm8, %xmm7
	vpand	%xmm5, %xmm8, %xmm5
	vpbroadcastd	.LCPI0_17(%rip), %xmm8
	vpcmpeqb	%xmm4, %xmm8, %xmm4
	vpmovzxbq	%xmm4, %ymm4
	vpbroadcastq	.LCPI0_11(%rip), %ymm9
	vpand	%ymm4, %ymm9, %ymm4
	vpaddq	%ymm4, %ymm0, %ymm0
	vpcmpeqb	%xmm6, %xmm8, %xmm4
	vpmovzxbq	%xmm4, %ymm4
	vpand	%ymm4, %ymm9, %ymm4
	vpaddq	%ymm4, %ymm1, %ymm1
	vpcmpeqb	%xmm7, %xmm8, %xmm4
	vpmovzxbq	%xmm4, %ymm4
	vpand	%ymm4, %ymm9, %ymm4
	vpaddq	%ymm4, %ymm2, %ymm2
	vpcmpeqb	%xmm5, %xmm8, %xmm4
	vpmovzxbq	%xmm4, %ymm4
	vpand	%ymm4, %ymm9, %ymm4
	vpaddq	%ymm4, %ymm3, %ymm3
	addq	$32, %rdi
	addq	$16, %rdx
	jne	.LBB0_238
	vpaddq	%ymm0, %ymm1, %ymm0
	vpaddq	%ymm0, %ymm2, %ymm0
	vpaddq	%ymm0, %ymm3, %ymm0
	vextracti128	$1, %ymm0, %xmm1
	vpaddq	%xmm1, %xmm0, %xmm0
	vpshufd	$238, %xmm0, %xmm1
	vpaddq	%xmm1, %xmm0, %xmm0
	vmovq	%xmm0, %rdx
	cmpl	$5, %r10d
	jb	.LBB0_270
.LBB0_240:
	movl	%r8d, %edi
	andl	$3, %edi
	movl	$4, %r10d
	cmovneq	%rdi, %r10
	subq	%r10, %r8
	leaq	(%rax,%r8,2), %rax
	vmovq	%rdx, %xmm0
	leaq	(%rcx,%r9,2), %rcx
	addq	%r9, %r10
	subq	%r10, %rsi
	incq	%rsi
	xorl	%edx, %edx
.LBB0_241:
	vmovq	(%rcx,%rdx,2), %xmm1
	vpshufb	.LCPI0_8(%rip), %xmm1, %xmm1
	vpand	.LCPI0_9(%rip), %xmm1, %xmm1
	vpcmpeqb	.LCPI0_10(%rip), %xmm1, %xmm1
	vpmovzxbq	%xmm1, %ymm1
	vpbroadcastq	.LCPI0_11(%rip), %ymm2
	vpand	%ymm2, %ymm1, %ymm1
	vpaddq	%ymm1, %ymm0, %ymm0
	addq	$4, %rdx
	cmpq	%rdx, %rsi
	jne	.LBB0_241
	vextracti128	$1, %ymm0, %xmm1
	vpaddq	%xmm1, %xmm0, %xmm0
	vpshufd	$238, %xmm0, %xmm1
	vpaddq	%xmm1, %xmm0, %xmm0
	vmovq	%xmm0, %rdx
.LBB0_243:
	movq	64(%rsp), %r8
	movq	8(%rsp), %r9
	movq	%rbx, %rcx
	subq	%rax, %rcx
	subq	%rbp, %rcx
	addq	%rax, %r11
	leaq	(%r11,%rbp), %rax
	incq	%rax
.LBB0_244:
	movzbl	(%rax), %esi
	andb	$-4, %sil
	xorl	%edi, %edi
	cmpb	$-36, %sil
	sete	%dil
	addq	%rdi, %rdx
	addq	$-2, %rcx
	addq	$2, %rax
	cmpq	$1, %rcx
	ja	.LBB0_244
.LBB0_245:
	shrq	%r12
	subq	%rdx, %r12
.LBB0_246:
	movq	80(%rsp), %rcx
	addq	%r12, %rcx
	movq	$0, 72(%rsp)
.LBB0_247:
	movq	96(%rsp), %rax
.LBB0_248:
	addq	%rbx, %r15
	addq	%rcx, %rax
	addq	%r9, 176(%rsp)
	addq	%rbx, %r8
	movq	144(%rsp), %rbx
	movq	152(%rsp), %rbp
	movb	$1, %r12b
	testq	%rbp, %rbp
	movq	%rax, 96(%rsp)
	je	.LBB0_254
	movq	%r8, 64(%rsp)
	movq	%r15, 24(%rsp)
	xorl	%r15d, %r15d
	.p2align	4
.LBB0_250:
	leaq	(%rbx,%r15), %rsi
	movq	%rbp, %r14
	subq	%r15, %r14
	movl	$1, %edi
	movq	%r14, %rdx
	vzeroupper
	callq	write@PLT
	testq	%rax, %rax
	js	.LBB0_271
	cmpq	%r14, %rax
	cmovbq	%rax, %r14
	testq	%r14, %r14
	je	.LBB0_272
	addq	%r14, %r15
	cmpq	%rbp, %r15
	jb	.LBB0_250
	movq	88(%rsp), %r14
	movq	24(%rsp), %r15
	movq	184(%rsp), %rbp
	movq	64(%rsp), %r8
	jmp	.LBB0_255
.LBB0_254:
	movq	184(%rsp), %rbp
.LBB0_255:
	subq	%r8, %rbp
	je	.LBB0_87
	xorl	%eax, %eax
	cmpq	$8, %rbp
	jb	.LBB0_267
	leaq	127(%r8), %rcx
	cmpq	$128, %rcx
	jb	.LBB0_267
	cmpq	$128, %rbp
	jae	.LBB0_260
	xorl	%eax, %eax
	jmp	.LBB0_264
.LBB0_260:
	movq	%rbp, %rax
	andq	$-128, %rax
	leaq	400(%rsp), %rcx
	movq	%rax, %rdx
	.p2align	4
.LBB0_261:
	vmovdqu	-96(%rcx,%r8), %ymm0
	vmovdqu	-64(%rcx,%r8), %ymm1
	vmovdqu	-32(%rcx,%r8), %ymm2
	vmovdqu	(%rcx,%r8), %ymm3
	vmovdqu	%ymm0, -96(%rcx)
	vmovdqu	%ymm1, -64(%rcx)
	vmovdqu	%ymm2, -32(%rcx)
	vmovdqu	%ymm3, (%rcx)
	subq	$-128, %rcx
	addq	$-128, %rdx
	jne	.LBB0_261
	cmpq	%rax, %rbp
	je	.LBB0_87
	testb	$120, %bpl
	je	.LBB0_267
.LBB0_264:
	movq	%rax, %rcx
	movq	%rbp, %rax
	andq	$-8, %rax
	leaq	(%rsp,%rcx), %rdx
	addq	$304, %rdx
	subq	%rax, %rcx
	.p2align	4
.LBB0_265:
	movq	(%rdx,%r8), %rsi
	movq	%rsi, (%rdx)
	addq	$8, %rdx
	addq	$8, %rcx
	jne	.LBB0_265
	cmpq	%rax, %rbp
	je	.LBB0_87
.LBB0_267:
	addq	%r14, %r13
	subq	%rax, %r13
	addq	%rsp, %rax
	addq	$304, %rax
	.p2align	4
.LBB0_268:
	movzbl	(%rax,%r8), %ecx
	movb	%cl, (%rax)
	decq	%r13
	incq	%rax
	cmpq	%r13, %r8
	jne	.LBB0_268
	jmp	.LBB0_87
.LBB0_269:
	leaq	(%rax,%r9,2), %rax
	jmp	.LBB0_232
.LBB0_270:
	leaq	(%rax,%r9,2), %rax
	jmp	.LBB0_243
.LBB0_280:
	movb	$4, %bl
	cmpq	$0, 160(%rsp)
	jne	.LBB0_282
.LBB0_283:
	movzbl	%bl, %ebx
	leaq	.Lstatic.27(%rip), %r14
	movl	$15, %r15d
	xorl	%ebp, %ebp
	leaq	.LJTI0_0(%rip), %rax
	movslq	(%rax,%rbx,4), %rcx
	addq	%rax, %rcx
	notrack jmpq	*%rcx
.LBB0_271:
	leaq	192(%rsp), %rdi
	callq	"std_io::io::error::last_error"
.LBB0_272:
	movb	$3, %bl
	cmpq	$0, 160(%rsp)
	je	.LBB0_283
.LBB0_282:
	movq	144(%rsp), %rdi
	callq	rattle_dealloc@PLT
	movzbl	%bl, %ebx
	leaq	.Lstatic.27(%rip), %r14
	movl	$15, %r15d
	xorl	%ebp, %ebp
	leaq	.LJTI0_0(%rip), %rax
	movslq	(%rax,%rbx,4), %rcx
	addq	%rax, %rcx
	notrack jmpq	*%rcx
.LBB0_273:
	testq	%rbx, %rbx
	je	.LBB0_275
	movq	%r12, %rdi
	callq	rattle_dealloc@PLT
.LBB0_275:
	movq	192(%rsp), %rbx
	movq	208(%rsp), %r14
	movq	24(%rsp), %r12
	testq	%r12, %r12
	je	.LBB0_309
	leaq	16(%rbx), %r15
	jmp	.LBB0_278
	.p2align	4
.LBB0_277:
	addq	$24, %r15
	decq	%r12
	je	.LBB0_309
.LBB0_278:
	cmpq	$0, (%r15)
	je	.LBB0_277
	movq	-16(%r15), %rdi
	callq	rattle_dealloc@PLT
	jmp	.LBB0_277
.LBB0_284:
	leaq	192(%rsp), %rdi
	callq	"std_io::io::error::last_error"
	cmpq	$0, 160(%rsp)
	je	.LBB0_286
	movq	%rbx, %rdi
	callq	rattle_dealloc@PLT
.LBB0_286:
	leaq	.Lstatic.26(%rip), %r14
	movl	$14, %r15d
	jmp	.LBB0_69
.LBB0_287:
	vmovdqu	144(%rsp), %xmm0
	vmovdqa	%xmm0, 32(%rsp)
	movq	160(%rsp), %rax
	movq	%rax, 48(%rsp)
	movq	$0, 40(%rsp)
	leaq	(%r15,%r14), %rdi
	testq	%r14, %r14
	je	.LBB0_295
	vpxor	%xmm0, %xmm0, %xmm0
	vmovdqa	%xmm0, 288(%rsp)
	movq	$-5, %rax
	xorl	%r13d, %r13d
	movq	%r15, %r8
	movq	%r15, %rcx
.LBB0_289:
	movl	%ecx, %edx
	andl	$15, %edx
	leal	48(%rdx), %esi
	leal	55(%rdx), %r9d
	cmpq	$10, %rdx
	movzbl	%sil, %edx
	movzbl	%r9b, %esi
	cmovbl	%edx, %esi
	movb	%sil, 303(%rsp,%r13)
	shrq	$4, %rcx
	decq	%r13
	decq	%rax
	testq	%rcx, %rcx
	jne	.LBB0_289
	vpxor	%xmm0, %xmm0, %xmm0
	vmovdqu	%ymm0, 192(%rsp)
	movq	$0, 224(%rsp)
	movl	$40, %r15d
	movq	%r8, %rdx
	cmpq	$10000, %r8
	jb	.LBB0_296
.LBB0_291:
	movabsq	$3777893186295716171, %rcx
	mulxq	%rcx, %rcx, %rcx
	shrq	$11, %rcx
	imull	$10000, %ecx, %r8d
	movl	%edx, %esi
	subl	%r8d, %esi
	imull	$5243, %esi, %r8d
	shrl	$19, %r8d
	imull	$100, %r8d, %r9d
	subl	%r9d, %esi
	movzwl	%si, %esi
	leaq	.Lstatic.18(%rip), %r9
	movzwl	(%r9,%rsi,2), %esi
	movw	%si, 190(%rsp,%r15)
	movzwl	(%r9,%r8,2), %esi
	movw	%si, 188(%rsp,%r15)
	addq	$-4, %r15
	cmpq	$99999999, %rdx
	movq	%rcx, %rdx
	ja	.LBB0_291
	jmp	.LBB0_297
.LBB0_292:
	cmpq	$0, 160(%rsp)
	je	.LBB0_294
	movq	%rbx, %rdi
	vzeroupper
	callq	rattle_dealloc@PLT
.LBB0_294:
	leaq	.Lstatic.29(%rip), %r14
	movl	$17, %r15d
	jmp	.LBB0_69
.LBB0_295:
	leaq	32(%rsp), %rcx
	movq	96(%rsp), %rsi
	movq	176(%rsp), %r13
	movq	%r13, %rdx
	jmp	.LBB0_348
.LBB0_296:
	movq	%rdx, %rcx
.LBB0_297:
	cmpq	$99, %rcx
	movq	%rdi, 24(%rsp)
	ja	.LBB0_300
	cmpq	$9, %rcx
	ja	.LBB0_311
	orb	$48, %cl
	movb	%cl, 191(%rsp,%r15)
	decq	%r15
	jmp	.LBB0_313
.LBB0_300:
	movl	%ecx, %edx
	shrl	$2, %edx
	movzwl	%dx, %edx
	imull	$5243, %edx, %edx
	shrl	$17, %edx
	imull	$100, %edx, %esi
	movl	%ecx, %r8d
	subl	%esi, %r8d
	movzwl	%r8w, %r8d
	leaq	.Lstatic.18(%rip), %rsi
	movzwl	(%rsi,%r8,2), %r8d
	movw	%r8w, 190(%rsp,%r15)
	cmpq	$999, %rcx
	ja	.LBB0_312
	orb	$48, %dl
	movb	%dl, 189(%rsp,%r15)
	addq	$-3, %r15
	jmp	.LBB0_313
.LBB0_302:
	testq	%rbx, %rbx
	je	.LBB0_304
	movq	%r12, %rdi
	callq	rattle_dealloc@PLT
.LBB0_304:
	movq	192(%rsp), %rbx
	movq	200(%rsp), %r15
	movq	208(%rsp), %r14
	testq	%r15, %r15
	je	.LBB0_309
	leaq	16(%rbx), %r12
	jmp	.LBB0_307
.LBB0_306:
	addq	$24, %r12
	decq	%r15
	je	.LBB0_309
.LBB0_307:
	cmpq	$0, (%r12)
	je	.LBB0_306
	movq	-16(%r12), %rdi
	callq	rattle_dealloc@PLT
	jmp	.LBB0_306
.LBB0_309:
	testq	%r14, %r14
	je	.LBB0_67
	movq	%rbx, %rdi
	jmp	.LBB0_66
.LBB0_311:
	leaq	.Lstatic.18(%rip), %rdx
	movzwl	(%rdx,%rcx,2), %ecx
	movw	%cx, 190(%rsp,%r15)
	addq	$-2, %r15
	jmp	.LBB0_313
.LBB0_312:
	movzwl	%dx, %ecx
	movzwl	(%rsi,%rcx,2), %ecx
	movw	%cx, 188(%rsp,%r15)
	addq	$-4, %r15
.LBB0_313:
	movl	$40, %ebx
	subq	%r15, %rbx
	cmpq	%rbx, %rax
	cmovaeq	%rbx, %rax
	subq	%r13, %rax
	addq	$4, %rax
	addq	$24, %rax
	movq	$-1, %rsi
	cmovaeq	%rax, %rsi
	movq	48(%rsp), %r9
	cmpq	%r9, %rsi
	ja	.LBB0_330
	xorl	%r12d, %r12d
.LBB0_315:
	movq	%r13, %rdx
	negq	%rdx
	movq	32(%rsp), %rbp
	leaq	(%r12,%rbp), %rax
	addq	$2, %r12
	leaq	.Lstatic.15(%rip), %rcx
	movq	%rax, %rsi
	subq	%rcx, %rsi
	cmpq	$1, %rsi
	movw	$30768, (%rax)
	movq	%r12, 40(%rsp)
	movq	%r9, 48(%rsp)
	movq	%r9, %rax
	subq	%r12, %rax
	cmpq	%rax, %rdx
	ja	.LBB0_334
.LBB0_316:
	leaq	(%rsp,%r13), %rsi
	addq	$304, %rsi
	movq	%r12, %r14
	subq	%r13, %r14
	leaq	(%r12,%rbp), %rdi
	movq	%rbx, 8(%rsp)
	movq	%r9, %rbx
	vzeroupper
	callq	memcpy@PLT
	movq	%rbp, %r9
	movq	%rbx, %rbp
	movq	8(%rsp), %rbx
	movq	%r9, 32(%rsp)
	movq	%r14, 40(%rsp)
	movq	%rbp, 48(%rsp)
	movq	%rbp, %rax
	subq	%r12, %rax
	addq	%r13, %rax
	cmpq	$1, %rax
	jbe	.LBB0_342
.LBB0_317:
	leaq	(%r9,%r14), %rax
	addq	$2, %r14
	leaq	.Lstatic.16(%rip), %rcx
	movq	%rax, %rdx
	subq	%rcx, %rdx
	cmpq	$1, %rdx
	movw	$10272, (%rax)
	movq	%r9, 32(%rsp)
	movq	%r14, 40(%rsp)
	movq	%rbp, 48(%rsp)
	movq	%rbp, %rax
	subq	%r14, %rax
	cmpq	%rax, %rbx
	ja	.LBB0_344
.LBB0_318:
	leaq	(%rsp,%r15), %rsi
	addq	$192, %rsi
	leaq	(%r14,%rbx), %r13
	leaq	(%r9,%r14), %rdi
	movq	%rdi, %rax
	subq	%rsi, %rax
	cmpq	%rbx, %rax
	jae	.LBB0_324
	cmpq	$8, %rbx
	jb	.LBB0_321
	leaq	192(%rsp), %rcx
	movq	%rdi, %rdx
	subq	%r15, %rdx
	subq	%rcx, %rdx
	cmpq	$128, %rdx
	jae	.LBB0_328
.LBB0_321:
	xorl	%eax, %eax
	jmp	.LBB0_322
.LBB0_324:
	movq	%rbx, %rdx
	movq	%r9, %rbx
	callq	memmove@PLT
	movq	%rbx, %r9
	jmp	.LBB0_325
.LBB0_328:
	cmpq	$128, %rbx
	jae	.LBB0_336
	xorl	%eax, %eax
	jmp	.LBB0_340
.LBB0_330:
	leaq	32(%rsp), %rdi
	vzeroupper
	callq	"std_alloc::vec::Vec::grow_amortized::<#582fc6be45daf619>"
	testb	%al, %al
	je	.LBB0_349
	movq	40(%rsp), %r12
	movq	48(%rsp), %r9
	movq	%r9, %rax
	subq	%r12, %rax
	cmpq	$1, %rax
	ja	.LBB0_315
	leaq	32(%rsp), %rdi
	movl	$2, %esi
	callq	"std_alloc::vec::Vec::grow_amortized::<#582fc6be45daf619>"
	testb	%al, %al
	je	.LBB0_349
	movq	40(%rsp), %r12
	movq	48(%rsp), %r9
	jmp	.LBB0_315
.LBB0_334:
	leaq	32(%rsp), %rdi
	movq	%rdx, %r14
	movq	%rdx, %rsi
	vzeroupper
	callq	"std_alloc::vec::Vec::grow_amortized::<#582fc6be45daf619>"
	testb	%al, %al
	je	.LBB0_349
	movq	32(%rsp), %rbp
	movq	40(%rsp), %r12
	movq	48(%rsp), %r9
	movq	%r14, %rdx
	jmp	.LBB0_316
.LBB0_336:
	movq	%rbx, %rax
	andq	$-128, %rax
	addq	%r15, %rcx
	addq	$96, %rcx
	leaq	(%r14,%r9), %rdx
	addq	$96, %rdx
	xorl	%r8d, %r8d
.LBB0_337:
	vmovdqu	-96(%rcx,%r8), %ymm0
	vmovdqu	-64(%rcx,%r8), %ymm1
	vmovdqu	-32(%rcx,%r8), %ymm2
	vmovdqu	(%rcx,%r8), %ymm3
	vmovdqu	%ymm0, -96(%rdx,%r8)
	vmovdqu	%ymm1, -64(%rdx,%r8)
	vmovdqu	%ymm2, -32(%rdx,%r8)
	vmovdqu	%ymm3, (%rdx,%r8)
	subq	$-128, %r8
	cmpq	%r8, %rax
	jne	.LBB0_337
	cmpq	%rax, %rbx
	je	.LBB0_325
	testb	$120, %bl
	je	.LBB0_322
.LBB0_340:
	movq	%rax, %rcx
	movq	%rbx, %rax
	andq	$-8, %rax
.LBB0_341:
	movq	(%rsi,%rcx), %rdx
	movq	%rdx, (%rdi,%rcx)
	addq	$8, %rcx
	cmpq	%rcx, %rax
	jne	.LBB0_341
	jmp	.LBB0_323
.LBB0_342:
	leaq	32(%rsp), %rdi
	movl	$2, %esi
	callq	"std_alloc::vec::Vec::grow_amortized::<#582fc6be45daf619>"
	testb	%al, %al
	je	.LBB0_349
	movq	32(%rsp), %r9
	movq	40(%rsp), %r14
	movq	48(%rsp), %rbp
	jmp	.LBB0_317
.LBB0_344:
	leaq	32(%rsp), %rdi
	movq	%rbx, %rsi
	callq	"std_alloc::vec::Vec::grow_amortized::<#582fc6be45daf619>"
	testb	%al, %al
	je	.LBB0_349
	movq	32(%rsp), %r9
	movq	40(%rsp), %r14
	movq	48(%rsp), %rbp
	jmp	.LBB0_318
.LBB0_322:
	movzbl	(%rsi,%rax), %ecx
	movb	%cl, (%rdi,%rax)
	incq	%rax
.LBB0_323:
	cmpq	%rax, %rbx
	jne	.LBB0_322
.LBB0_325:
	movq	%r9, 32(%rsp)
	movq	%r13, 40(%rsp)
	movq	%rbp, 48(%rsp)
	movq	%rbp, %rax
	subq	%r13, %rax
	cmpq	$23, %rax
	jbe	.LBB0_369
.LBB0_326:
	vpxor	%xmm0, %xmm0, %xmm0
	leaq	40(%rsp), %rax
	vmovdqu	%xmm0, (%rax)
	leaq	(%r9,%r13), %rax
	addq	$24, %r13
	leaq	.Lstatic.17(%rip), %rcx
	movq	%rax, %rdx
	subq	%rcx, %rdx
	movabsq	$752775638282236513, %rcx
	cmpq	$23, %rdx
	ja	.LBB0_346
	vmovdqa	.LCPI0_15(%rip), %xmm0
	jmp	.LBB0_347
.LBB0_346:
	vmovdqu	.Lstatic.17(%rip), %xmm0
.LBB0_347:
	vmovdqu	%xmm0, (%rax)
	movq	%rcx, 16(%rax)
	movq	24(%rsp), %rdi
	movq	%r9, 32(%rsp)
	movq	%r13, 40(%rsp)
	movq	%rbp, 48(%rsp)
	movq	176(%rsp), %r13
	leaq	1(%r13), %rdx
	leaq	32(%rsp), %rcx
	movq	96(%rsp), %rsi
.LBB0_348:
	vzeroupper
	callq	"utf16_program::lines::append_counts::<#689013dfc86db972>"
	testb	%al, %al
	je	.LBB0_351
.LBB0_349:
	cmpq	$0, 48(%rsp)
	je	.LBB0_359
	movq	32(%rsp), %rdi
	callq	rattle_dealloc@PLT
	movb	$4, %al
	movzbl	%al, %ebx
	leaq	.Lstatic.27(%rip), %r14
	movl	$15, %r15d
	xorl	%ebp, %ebp
	leaq	.LJTI0_0(%rip), %rax
	movslq	(%rax,%rbx,4), %rcx
	addq	%rax, %rcx
	notrack jmpq	*%rcx
.LBB0_351:
	movq	32(%rsp), %rbx
	movq	40(%rsp), %r15
	testq	%r15, %r15
	je	.LBB0_356
	xorl	%r12d, %r12d
.LBB0_353:
	leaq	(%rbx,%r12), %rsi
	movq	%r15, %r14
	subq	%r12, %r14
	movl	$1, %edi
	movq	%r14, %rdx
	callq	write@PLT
	testq	%rax, %rax
	js	.LBB0_362
	cmpq	%r14, %rax
	cmovbq	%rax, %r14
	testq	%r14, %r14
	je	.LBB0_363
	addq	%r14, %r12
	cmpq	%r15, %r12
	jb	.LBB0_353
.LBB0_356:
	orq	88(%rsp), %r13
	movq	48(%rsp), %rax
	je	.LBB0_360
	movb	$1, %bpl
	testq	%rax, %rax
	je	.LBB0_367
	movq	%rbx, %rdi
	callq	rattle_dealloc@PLT
	jmp	.LBB0_367
.LBB0_359:
	movb	$4, %bpl
	jmp	.LBB0_367
.LBB0_360:
	testq	%rax, %rax
	je	.LBB0_366
	movq	%rbx, %rdi
	callq	rattle_dealloc@PLT
	xorl	%eax, %eax
	movzbl	%al, %ebx
	leaq	.Lstatic.27(%rip), %r14
	movl	$15, %r15d
	xorl	%ebp, %ebp
	leaq	.LJTI0_0(%rip), %rax
	movslq	(%rax,%rbx,4), %rcx
	addq	%rax, %rcx
	notrack jmpq	*%rcx
.LBB0_362:
	leaq	192(%rsp), %rdi
	callq	"std_io::io::error::last_error"
.LBB0_363:
	cmpq	$0, 48(%rsp)
	je	.LBB0_365
	movq	%rbx, %rdi
	callq	rattle_dealloc@PLT
	movb	$3, %al
	movzbl	%al, %ebx
	leaq	.Lstatic.27(%rip), %r14
	movl	$15, %r15d
	xorl	%ebp, %ebp
	leaq	.LJTI0_0(%rip), %rax
	movslq	(%rax,%rbx,4), %rcx
	addq	%rax, %rcx
	notrack jmpq	*%rcx
.LBB0_365:
	movb	$3, %bpl
	jmp	.LBB0_367
.LBB0_366:
	xorl	%ebp, %ebp
.LBB0_367:
	movzbl	%bpl, %ebx
	leaq	.Lstatic.27(%rip), %r14
	movl	$15, %r15d
	xorl	%ebp, %ebp
	leaq	.LJTI0_0(%rip), %rax
	movslq	(%rax,%rbx,4), %rcx
	addq	%rax, %rcx
	notrack jmpq	*%rcx
.LBB0_368:
	ud2
.LBB0_369:
	leaq	32(%rsp), %rdi
	movl	$24, %esi
	vzeroupper
	callq	"std_alloc::vec::Vec::grow_amortized::<#582fc6be45daf619>"
	testb	%al, %al
	je	.LBB0_349
	movq	32(%rsp), %r9
	movq	40(%rsp), %r13
	movq	48(%rsp), %rbp
	jmp	.LBB0_326
.Lfunc_end0:
	.size	"utf16_check::main+start", .Lfunc_end0-"utf16_check::main+start"
	.cfi_endproc
	.section	".rodata.utf16_check::main+start","a",@progbits
	.p2align	2, 0x0
.LJTI0_0:
	.long	.LBB0_82-.LJTI0_0
	.long	.LBB0_80-.LJTI0_0
	.long	.LBB0_368-.LJTI0_0
	.long	.LBB0_70-.LJTI0_0
	.long	.LBB0_68-.LJTI0_0

	.section	".text.unlikely.std_alloc::vec::Vec::grow_amortized::<#582fc6be45daf619>","ax",@progbits
	.p2align	4
	.type	"std_alloc::vec::Vec::grow_amortized::<#582fc6be45daf619>",@function
"std_alloc::vec::Vec::grow_amortized::<#582fc6be45daf619>":
	.cfi_startproc
	movq	%rsi, %rax
	movq	8(%rdi), %rsi
	addq	%rsi, %rax
	jae	.LBB1_2
	xorl	%eax, %eax
	retq
.LBB1_2:
	pushq	%r14
	.cfi_def_cfa_offset 16
	pushq	%rbx
	.cfi_def_cfa_offset 24
	pushq	%rax
	.cfi_def_cfa_offset 32
	.cfi_offset %rbx, -24
	.cfi_offset %r14, -16
	movq	16(%rdi), %rcx
	cmpq	$9, %rax
	movl	$8, %ebx
	cmovaeq	%rax, %rbx
	movq	%rcx, %rdx
	shrq	$62, %rdx
	leaq	(%rcx,%rcx), %rax
	cmpq	%rax, %rbx
	cmovaq	%rbx, %rax
	testq	%rdx, %rdx
	cmoveq	%rax, %rbx
	testq	%rbx, %rbx
	js	.LBB1_6
	testq	%rcx, %rcx
	je	.LBB1_8
	movq	%rdi, %r14
	movq	(%rdi), %rdi
	movl	$1, %ecx
	movq	%rbx, %rdx
	callq	rattle_realloc@PLT
	testb	$1, %al
	je	.LBB1_6
.LBB1_9:
	movq	%rdx, (%r14)
	movq	%rbx, 16(%r14)
	movb	$1, %al
	addq	$8, %rsp
	.cfi_def_cfa_offset 24
	popq	%rbx
	.cfi_def_cfa_offset 16
	popq	%r14
	.cfi_def_cfa_offset 8
	.cfi_restore %rbx
	.cfi_restore %r14
	retq
.LBB1_8:
	.cfi_def_cfa_offset 32
	.cfi_offset %rbx, -24
	.cfi_offset %r14, -16
	movq	%rdi, %r14
	movl	$1, %esi
	movq	%rax, %rdi
	callq	rattle_alloc@PLT
	testb	$1, %al
	jne	.LBB1_9
.LBB1_6:
	xorl	%eax, %eax
	addq	$8, %rsp
	.cfi_def_cfa_offset 24
	popq	%rbx
	.cfi_def_cfa_offset 16
	popq	%r14
	.cfi_def_cfa_offset 8
	.cfi_restore %rbx
	.cfi_restore %r14
	retq
.Lfunc_end1:
	.size	"std_alloc::vec::Vec::grow_amortized::<#582fc6be45daf619>", .Lfunc_end1-"std_alloc::vec::Vec::grow_amortized::<#582fc6be45daf619>"
	.cfi_endproc

	.section	".text.core::str::utf8::from_utf8","ax",@progbits
	.p2align	4
	.type	"core::str::utf8::from_utf8",@function
"core::str::utf8::from_utf8":
	.cfi_startproc
	pushq	%r15
	.cfi_def_cfa_offset 16
	pushq	%r14
	.cfi_def_cfa_offset 24
	pushq	%r13
	.cfi_def_cfa_offset 32
	pushq	%r12
	.cfi_def_cfa_offset 40
	pushq	%rbx
	.cfi_def_cfa_offset 48
	subq	$16, %rsp
	.cfi_def_cfa_offset 64
	.cfi_offset %rbx, -48
	.cfi_offset %r12, -40
	.cfi_offset %r13, -32
	.cfi_offset %r14, -24
	.cfi_offset %r15, -16
	movq	%rdx, %r15
	movq	%rsi, %r14
	movq	%rdi, %rbx
	testq	%rdx, %rdx
	je	.LBB2_49
	movabsq	$-9187201950435737472, %r12
	leaq	-8(%r15), %r13
	xorl	%ecx, %ecx
	jmp	.LBB2_5
.LBB2_25:
	movl	$1, %eax
.LBB2_3:
	addq	%rcx, %rax
.LBB2_4:
	movq	%rax, %rcx
	cmpq	%r15, %rax
	jae	.LBB2_49
.LBB2_5:
	movzbl	(%r14,%rcx), %edi
	testb	%dil, %dil
	sets	%al
	movq	%r15, %rdx
	subq	%rcx, %rdx
	cmpq	$2, %rdx
	setb	%sil
	orb	%al, %sil
	jne	.LBB2_2
	cmpb	$0, 1(%r14,%rcx)
	js	.LBB2_25
	movq	%r14, (%rsp)
	movq	%r15, 8(%rsp)
	cmpq	$7, %rdx
	ja	.LBB2_26
	cmpb	$0, (%r14,%rcx)
	js	.LBB2_41
	leaq	1(%rcx), %rax
	cmpq	%r15, %rax
	je	.LBB2_49
	cmpb	$0, (%r14,%rax)
	js	.LBB2_4
	leaq	2(%rcx), %rax
	cmpq	%r15, %rax
	je	.LBB2_49
	cmpb	$0, (%r14,%rax)
	js	.LBB2_4
	leaq	3(%rcx), %rax
	cmpq	%r15, %rax
	je	.LBB2_49
	cmpb	$0, (%r14,%rax)
	js	.LBB2_4
	leaq	4(%rcx), %rax
	cmpq	%r15, %rax
	je	.LBB2_49
	cmpb	$0, (%r14,%rax)
	js	.LBB2_4
	leaq	5(%rcx), %rax
	cmpq	%r15, %rax
	je	.LBB2_49
	cmpb	$0, (%r14,%rax)
	js	.LBB2_4
	addq	$6, %rcx
	cmpq	%r15, %rcx
	je	.LBB2_49
	cmpb	$0, (%r14,%rcx)
	movq	%rcx, %rax
	js	.LBB2_4
	jmp	.LBB2_49
	.p2align	4
.LBB2_2:
	movl	$1, %eax
	testb	%dil, %dil
	jns	.LBB2_3
	movl	$257, %esi
	cmpb	$-62, %dil
	jb	.LBB2_61
	cmpb	$-33, %dil
	ja	.LBB2_34
	cmpq	$2, %rdx
	jb	.LBB2_53
	movzbl	1(%r14,%rcx), %r8d
	movl	$2, %eax
	cmpb	$-65, %r8b
	jle	.LBB2_3
	jmp	.LBB2_55
.LBB2_26:
	movq	(%r14,%rcx), %rax
	andq	%r12, %rax
	xorl	%edx, %edx
	tzcntq	%rax, %rdx
	shrl	$3, %edx
	testq	%rax, %rax
	movl	$8, %eax
	cmovneq	%rdx, %rax
	addq	%rcx, %rax
	addq	$8, %rcx
	cmpq	%rcx, %rax
	jb	.LBB2_4
	movq	%r15, %rcx
	subq	%rax, %rcx
	cmpq	$32, %rcx
	jb	.LBB2_30
	.p2align	4
.LBB2_28:
	vmovdqu	(%r14,%rax), %xmm0
	vpor	16(%r14,%rax), %xmm0, %xmm0
	vpshufd	$238, %xmm0, %xmm1
	vpor	%xmm1, %xmm0, %xmm0
	vmovq	%xmm0, %rcx
	testq	%r12, %rcx
	jne	.LBB2_30
	addq	$32, %rax
	movq	%rsp, %rdi
	movq	%rax, %rsi
	movq	%r15, %rdx
	callq	"core::slice::words::skip_far::<#52f9edcae2f82f51>"
	movq	%r15, %rcx
	subq	%rax, %rcx
	cmpq	$31, %rcx
	ja	.LBB2_28
.LBB2_30:
	movq	%r15, %rcx
	subq	%rax, %rcx
	.p2align	4
.LBB2_31:
	cmpq	$9, %rcx
	jb	.LBB2_48
	movq	(%r14,%rax), %rdx
	andq	%r12, %rdx
	xorl	%esi, %esi
	tzcntq	%rdx, %rsi
	shrl	$3, %esi
	testq	%rdx, %rdx
	movl	$8, %edx
	cmovneq	%rsi, %rdx
	leaq	(%rdx,%rax), %rsi
	addq	$8, %rax
	addq	$-8, %rcx
	cmpq	%rax, %rsi
	jae	.LBB2_31
	addq	%rdx, %rax
	addq	$-8, %rax
	jmp	.LBB2_4
.LBB2_34:
	cmpb	$-17, %dil
	ja	.LBB2_42
	cmpq	$3, %rdx
	jb	.LBB2_51
	movzbl	1(%r14,%rcx), %r8d
	cmpb	$-65, %r8b
	jg	.LBB2_55
	cmpb	$-65, 2(%r14,%rcx)
	jg	.LBB2_55
	movzbl	%r8b, %eax
	movl	%edi, %r9d
	shll	$6, %r9d
	addl	%eax, %r9d
	addl	$-14464, %r9d
	cmpl	$32, %r9d
	jb	.LBB2_55
	xorl	%r8d, %r8d
	cmpl	$896, %r9d
	setae	%r10b
	movl	$3, %eax
	cmpl	$864, %r9d
	jb	.LBB2_3
	movb	%r10b, %r8b
	leaq	(%r8,%r8,2), %rax
	testq	%rax, %rax
	jne	.LBB2_3
	jmp	.LBB2_50
.LBB2_41:
	movq	%rcx, %rax
	jmp	.LBB2_4
.LBB2_42:
	cmpq	$4, %rdx
	jb	.LBB2_50
	movzbl	1(%r14,%rcx), %eax
	cmpb	$-65, %al
	jg	.LBB2_50
	cmpb	$-65, 2(%r14,%rcx)
	jg	.LBB2_50
	cmpb	$-65, 3(%r14,%rcx)
	jg	.LBB2_50
	movl	%edi, %r8d
	shll	$6, %r8d
	leal	(%r8,%rax), %r9d
	addl	$-15488, %r9d
	xorl	%eax, %eax
	cmpl	$272, %r9d
	setb	%r8b
	cmpl	$16, %r9d
	jb	.LBB2_50
	movb	%r8b, %al
	shll	$2, %eax
	testq	%rax, %rax
	jne	.LBB2_3
	jmp	.LBB2_50
.LBB2_48:
	movq	(%r14,%r13), %rax
	andq	%r12, %rax
	xorl	%ecx, %ecx
	tzcntq	%rax, %rcx
	shrl	$3, %ecx
	testq	%rax, %rax
	movl	$8, %eax
	cmovneq	%rcx, %rax
	addq	%r13, %rax
	jmp	.LBB2_4
.LBB2_49:
	movq	$0, (%rbx)
	movq	%r14, 8(%rbx)
	movq	%r15, 16(%rbx)
	jmp	.LBB2_62
.LBB2_50:
	cmpb	$-12, %dil
	ja	.LBB2_61
.LBB2_51:
	cmpq	$2, %rdx
	jb	.LBB2_53
	movzbl	1(%r14,%rcx), %r8d
.LBB2_55:
	cmpl	$240, %edi
	sete	%al
	shlb	$4, %al
	orb	$-128, %al
	cmpl	$224, %edi
	movzbl	%al, %eax
	movl	$160, %r9d
	cmovnel	%eax, %r9d
	cmpl	$244, %edi
	movl	$143, %eax
	movl	$191, %r10d
	cmovel	%eax, %r10d
	cmpl	$237, %edi
	movl	$159, %eax
	cmovnel	%r10d, %eax
	cmpb	%r8b, %r9b
	ja	.LBB2_61
	cmpb	%al, %r8b
	ja	.LBB2_61
	cmpq	$2, %rdx
	jne	.LBB2_59
.LBB2_53:
	xorl	%esi, %esi
.LBB2_61:
	movq	$1, (%rbx)
	movq	%rcx, 8(%rbx)
	movq	%rsi, 16(%rbx)
.LBB2_62:
	addq	$16, %rsp
	.cfi_def_cfa_offset 48
	popq	%rbx
	.cfi_def_cfa_offset 40
	popq	%r12
	.cfi_def_cfa_offset 32
	popq	%r13
	.cfi_def_cfa_offset 24
	popq	%r14
	.cfi_def_cfa_offset 16
	popq	%r15
	.cfi_def_cfa_offset 8
	retq
.LBB2_59:
	.cfi_def_cfa_offset 64
	movl	$513, %esi
	cmpb	$-65, 2(%r14,%rcx)
	jg	.LBB2_61
	xorl	%eax, %eax
	cmpq	$4, %rdx
	movl	$769, %esi
	cmovbq	%rax, %rsi
	jmp	.LBB2_61
.Lfunc_end2:
	.size	"core::str::utf8::from_utf8", .Lfunc_end2-"core::str::utf8::from_utf8"
	.cfi_endproc

	.section	.rodata.cst8,"aM",@progbits,8
	.p2align	3, 0x0
.LCPI3_0:
	.quad	-9187201950435737472
	.section	".text.core::slice::words::skip_far::<#52f9edcae2f82f51>","ax",@progbits
	.p2align	4
	.type	"core::slice::words::skip_far::<#52f9edcae2f82f51>",@function
"core::slice::words::skip_far::<#52f9edcae2f82f51>":
	.cfi_startproc
	movq	%rsi, %rax
	subq	%rsi, %rdx
	cmpq	$64, %rdx
	jb	.LBB3_4
	movq	(%rdi), %rcx
	.p2align	4
.LBB3_2:
	vmovdqu	(%rcx,%rax), %ymm0
	vpor	32(%rcx,%rax), %ymm0, %ymm0
	vpbroadcastq	.LCPI3_0(%rip), %ymm1
	vptest	%ymm1, %ymm0
	jne	.LBB3_4
	addq	$64, %rax
	addq	$-64, %rdx
	cmpq	$63, %rdx
	ja	.LBB3_2
.LBB3_4:
	vzeroupper
	retq
.Lfunc_end3:
	.size	"core::slice::words::skip_far::<#52f9edcae2f82f51>", .Lfunc_end3-"core::slice::words::skip_far::<#52f9edcae2f82f51>"
	.cfi_endproc

	.section	".text.unlikely.std_alloc::vec::Vec::grow_amortized::<#c6aca457386e9665>","ax",@progbits
	.p2align	4
	.type	"std_alloc::vec::Vec::grow_amortized::<#c6aca457386e9665>",@function
"std_alloc::vec::Vec::grow_amortized::<#c6aca457386e9665>":
	.cfi_startproc
	movq	8(%rdi), %rax
	cmpq	$-1, %rax
	je	.LBB4_5
	pushq	%r14
	.cfi_def_cfa_offset 16
	pushq	%rbx
	.cfi_def_cfa_offset 24
	pushq	%rax
	.cfi_def_cfa_offset 32
	.cfi_offset %rbx, -24
	.cfi_offset %r14, -16
	movq	16(%rdi), %rcx
	cmpq	$4, %rax
	movl	$3, %ebx
	cmovaeq	%rax, %rbx
	incq	%rbx
	movq	%rcx, %rsi
	shrq	$62, %rsi
	leaq	(%rcx,%rcx), %rdx
	cmpq	%rdx, %rbx
	cmovaq	%rbx, %rdx
	testq	%rsi, %rsi
	cmoveq	%rdx, %rbx
	movabsq	$384307168202282325, %rsi
	cmpq	%rsi, %rbx
	ja	.LBB4_6
	testq	%rcx, %rcx
	je	.LBB4_8
	movq	%rdi, %r14
	movq	(%rdi), %rdi
	shlq	$3, %rax
	leaq	(%rax,%rax,2), %rsi
	leaq	(,%rbx,8), %rax
	leaq	(%rax,%rax,2), %rdx
	movl	$8, %ecx
	callq	rattle_realloc@PLT
	testb	$1, %al
	je	.LBB4_6
.LBB4_9:
	movq	%rdx, (%r14)
	movq	%rbx, 16(%r14)
	movb	$1, %al
	addq	$8, %rsp
	.cfi_def_cfa_offset 24
	popq	%rbx
	.cfi_def_cfa_offset 16
	popq	%r14
	.cfi_def_cfa_offset 8
	.cfi_restore %rbx
	.cfi_restore %r14
	retq
.LBB4_5:
	xorl	%eax, %eax
	retq
.LBB4_8:
	.cfi_def_cfa_offset 32
	.cfi_offset %rbx, -24
	.cfi_offset %r14, -16
	movq	%rdi, %r14
	shlq	$3, %rdx
	leaq	(%rdx,%rdx,2), %rdi
	movl	$8, %esi
	callq	rattle_alloc@PLT
	testb	$1, %al
	jne	.LBB4_9
.LBB4_6:
	xorl	%eax, %eax
	addq	$8, %rsp
	.cfi_def_cfa_offset 24
	popq	%rbx
	.cfi_def_cfa_offset 16
	popq	%r14
	.cfi_def_cfa_offset 8
	.cfi_restore %rbx
	.cfi_restore %r14
	retq
.Lfunc_end4:
	.size	"std_alloc::vec::Vec::grow_amortized::<#c6aca457386e9665>", .Lfunc_end4-"std_alloc::vec::Vec::grow_amortized::<#c6aca457386e9665>"
	.cfi_endproc

	.section	".text.std_io::io::error::last_error","ax",@progbits
	.p2align	4
	.type	"std_io::io::error::last_error",@function
"std_io::io::error::last_error":
	.cfi_startproc
	pushq	%rbx
	.cfi_def_cfa_offset 16
	.cfi_offset %rbx, -16
	movq	%rdi, %rbx
	callq	rattle_errno@PLT
	movl	%eax, %ecx
	movb	$41, %dl
	testl	%eax, %eax
	js	.LBB5_40
	decl	%eax
	cmpl	$121, %eax
	ja	.LBB5_40
	leaq	.LJTI5_0(%rip), %rsi
	movslq	(%rsi,%rax,4), %rax
	addq	%rsi, %rax
	notrack jmpq	*%rax
.LBB5_3:
	movb	$1, %dl
	jmp	.LBB5_40
.LBB5_24:
	movb	$36, %dl
	jmp	.LBB5_40
.LBB5_36:
	movb	$4, %dl
	jmp	.LBB5_40
.LBB5_33:
	movb	$7, %dl
	jmp	.LBB5_40
.LBB5_39:
	movb	$26, %dl
	jmp	.LBB5_40
.LBB5_37:
	movb	$39, %dl
	jmp	.LBB5_40
.LBB5_28:
	movb	$9, %dl
	jmp	.LBB5_40
.LBB5_27:
	movb	$8, %dl
	jmp	.LBB5_40
.LBB5_22:
	movb	$30, %dl
	jmp	.LBB5_40
.LBB5_18:
	movb	$25, %dl
	jmp	.LBB5_40
.LBB5_20:
	movb	$32, %dl
	jmp	.LBB5_40
.LBB5_23:
	movb	$33, %dl
	jmp	.LBB5_40
.LBB5_34:
	movb	$22, %dl
	jmp	.LBB5_40
.LBB5_11:
	movb	$31, %dl
	jmp	.LBB5_40
.LBB5_15:
	movb	$29, %dl
	jmp	.LBB5_40
.LBB5_26:
	movb	$18, %dl
	jmp	.LBB5_40
.LBB5_29:
	movb	$10, %dl
	jmp	.LBB5_40
.LBB5_9:
	movb	$28, %dl
	jmp	.LBB5_40
.LBB5_12:
	movb	$14, %dl
	jmp	.LBB5_40
.LBB5_10:
	movb	$12, %dl
	jmp	.LBB5_40
.LBB5_30:
	movb	$5, %dl
	jmp	.LBB5_40
.LBB5_32:
	movb	$3, %dl
	jmp	.LBB5_40
.LBB5_4:
	xorl	%edx, %edx
	jmp	.LBB5_40
.LBB5_7:
	movb	$13, %dl
	jmp	.LBB5_40
.LBB5_8:
	movb	$38, %dl
	jmp	.LBB5_40
.LBB5_21:
	movb	$11, %dl
	jmp	.LBB5_40
.LBB5_5:
	movb	$35, %dl
	jmp	.LBB5_40
.LBB5_6:
	movb	$34, %dl
	jmp	.LBB5_40
.LBB5_14:
	movb	$20, %dl
	jmp	.LBB5_40
.LBB5_13:
	movb	$15, %dl
	jmp	.LBB5_40
.LBB5_38:
	movb	$19, %dl
	jmp	.LBB5_40
.LBB5_25:
	movb	$16, %dl
	jmp	.LBB5_40
.LBB5_31:
	movb	$6, %dl
	jmp	.LBB5_40
.LBB5_16:
	movb	$27, %dl
	jmp	.LBB5_40
.LBB5_17:
	movb	$24, %dl
	jmp	.LBB5_40
.LBB5_35:
	movb	$2, %dl
	jmp	.LBB5_40
.LBB5_19:
	movb	$17, %dl
.LBB5_40:
	movb	$0, (%rbx)
	movb	%dl, 1(%rbx)
	movw	$0, 2(%rbx)
	movl	%ecx, 4(%rbx)
	vxorps	%xmm0, %xmm0, %xmm0
	vmovups	%ymm0, 8(%rbx)
	vmovups	%ymm0, 40(%rbx)
	vmovups	%ymm0, 56(%rbx)
	popq	%rbx
	.cfi_def_cfa_offset 8
	vzeroupper
	retq
.Lfunc_end5:
	.size	"std_io::io::error::last_error", .Lfunc_end5-"std_io::io::error::last_error"
	.cfi_endproc
	.section	".rodata.std_io::io::error::last_error","a",@progbits
	.p2align	2, 0x0
.LJTI5_0:
	.long	.LBB5_3-.LJTI5_0
	.long	.LBB5_4-.LJTI5_0
	.long	.LBB5_40-.LJTI5_0
	.long	.LBB5_5-.LJTI5_0
	.long	.LBB5_40-.LJTI5_0
	.long	.LBB5_40-.LJTI5_0
	.long	.LBB5_6-.LJTI5_0
	.long	.LBB5_40-.LJTI5_0
	.long	.LBB5_40-.LJTI5_0
	.long	.LBB5_40-.LJTI5_0
	.long	.LBB5_7-.LJTI5_0
	.long	.LBB5_8-.LJTI5_0
	.long	.LBB5_3-.LJTI5_0
	.long	.LBB5_40-.LJTI5_0
	.long	.LBB5_40-.LJTI5_0
	.long	.LBB5_9-.LJTI5_0
	.long	.LBB5_10-.LJTI5_0
	.long	.LBB5_11-.LJTI5_0
	.long	.LBB5_40-.LJTI5_0
	.long	.LBB5_12-.LJTI5_0
	.long	.LBB5_13-.LJTI5_0
	.long	.LBB5_14-.LJTI5_0
	.long	.LBB5_40-.LJTI5_0
	.long	.LBB5_40-.LJTI5_0
	.long	.LBB5_40-.LJTI5_0
	.long	.LBB5_15-.LJTI5_0
	.long	.LBB5_16-.LJTI5_0
	.long	.LBB5_17-.LJTI5_0
	.long	.LBB5_18-.LJTI5_0
	.long	.LBB5_19-.LJTI5_0
	.long	.LBB5_20-.LJTI5_0
	.long	.LBB5_21-.LJTI5_0
	.long	.LBB5_40-.LJTI5_0
	.long	.LBB5_40-.LJTI5_0
	.long	.LBB5_22-.LJTI5_0
	.long	.LBB5_23-.LJTI5_0
	.long	.LBB5_40-.LJTI5_0
	.long	.LBB5_24-.LJTI5_0
	.long	.LBB5_25-.LJTI5_0
	.long	.LBB5_26-.LJTI5_0
	.long	.LBB5_40-.LJTI5_0
	.long	.LBB5_40-.LJTI5_0
	.long	.LBB5_40-.LJTI5_0
	.long	.LBB5_40-.LJTI5_0
	.long	.LBB5_40-.LJTI5_0
	.long	.LBB5_40-.LJTI5_0
	.long	.LBB5_40-.LJTI5_0
	.long	.LBB5_40-.LJTI5_0
	.long	.LBB5_40-.LJTI5_0
	.long	.LBB5_40-.LJTI5_0
	.long	.LBB5_40-.LJTI5_0
	.long	.LBB5_40-.LJTI5_0
	.long	.LBB5_40-.LJTI5_0
	.long	.LBB5_40-.LJTI5_0
	.long	.LBB5_40-.LJTI5_0
	.long	.LBB5_40-.LJTI5_0
	.long	.LBB5_40-.LJTI5_0
	.long	.LBB5_40-.LJTI5_0
	.long	.LBB5_40-.LJTI5_0
	.long	.LBB5_40-.LJTI5_0
	.long	.LBB5_40-.LJTI5_0
	.long	.LBB5_40-.LJTI5_0
	.long	.LBB5_40-.LJTI5_0
	.long	.LBB5_40-.LJTI5_0
	.long	.LBB5_40-.LJTI5_0
	.long	.LBB5_40-.LJTI5_0
	.long	.LBB5_40-.LJTI5_0
	.long	.LBB5_40-.LJTI5_0
	.long	.LBB5_40-.LJTI5_0
	.long	.LBB5_40-.LJTI5_0
	.long	.LBB5_40-.LJTI5_0
	.long	.LBB5_40-.LJTI5_0
	.long	.LBB5_40-.LJTI5_0
	.long	.LBB5_40-.LJTI5_0
	.long	.LBB5_40-.LJTI5_0
	.long	.LBB5_40-.LJTI5_0
	.long	.LBB5_40-.LJTI5_0
	.long	.LBB5_40-.LJTI5_0
	.long	.LBB5_40-.LJTI5_0
	.long	.LBB5_40-.LJTI5_0
	.long	.LBB5_40-.LJTI5_0
	.long	.LBB5_40-.LJTI5_0
	.long	.LBB5_40-.LJTI5_0
	.long	.LBB5_40-.LJTI5_0
	.long	.LBB5_40-.LJTI5_0
	.long	.LBB5_40-.LJTI5_0
	.long	.LBB5_40-.LJTI5_0
	.long	.LBB5_40-.LJTI5_0
	.long	.LBB5_40-.LJTI5_0
	.long	.LBB5_40-.LJTI5_0
	.long	.LBB5_40-.LJTI5_0
	.long	.LBB5_40-.LJTI5_0
	.long	.LBB5_40-.LJTI5_0
	.long	.LBB5_40-.LJTI5_0
	.long	.LBB5_24-.LJTI5_0
	.long	.LBB5_40-.LJTI5_0
	.long	.LBB5_40-.LJTI5_0
	.long	.LBB5_27-.LJTI5_0
	.long	.LBB5_28-.LJTI5_0
	.long	.LBB5_29-.LJTI5_0
	.long	.LBB5_30-.LJTI5_0
	.long	.LBB5_40-.LJTI5_0
	.long	.LBB5_31-.LJTI5_0
	.long	.LBB5_32-.LJTI5_0
	.long	.LBB5_40-.LJTI5_0
	.long	.LBB5_40-.LJTI5_0
	.long	.LBB5_33-.LJTI5_0
	.long	.LBB5_40-.LJTI5_0
	.long	.LBB5_40-.LJTI5_0
	.long	.LBB5_34-.LJTI5_0
	.long	.LBB5_35-.LJTI5_0
	.long	.LBB5_40-.LJTI5_0
	.long	.LBB5_36-.LJTI5_0
	.long	.LBB5_40-.LJTI5_0
	.long	.LBB5_37-.LJTI5_0
	.long	.LBB5_38-.LJTI5_0
	.long	.LBB5_40-.LJTI5_0
	.long	.LBB5_40-.LJTI5_0
	.long	.LBB5_40-.LJTI5_0
	.long	.LBB5_40-.LJTI5_0
	.long	.LBB5_40-.LJTI5_0
	.long	.LBB5_39-.LJTI5_0

	.section	.rodata,"a",@progbits
	.p2align	1, 0x0
.LCPI6_0:
	.byte	255
	.byte	0
	.section	.rodata.cst32,"aM",@progbits,32
	.p2align	5, 0x0
.LCPI6_1:
	.zero	32,248
.LCPI6_2:
	.zero	32,216
.LCPI6_3:
	.zero	32,252
.LCPI6_4:
	.zero	32,220
.LCPI6_5:
	.short	255
	.short	255
	.short	255
	.short	255
	.short	255
	.short	255
	.short	255
	.short	255
	.short	255
	.short	255
	.short	255
	.short	255
	.short	255
	.short	255
	.short	255
	.short	255
	.section	.rodata.cst16,"aM",@progbits,16
	.p2align	4, 0x0
.LCPI6_6:
	.zero	16,252
.LCPI6_7:
	.zero	16,216
.LCPI6_8:
	.zero	16,220
	.section	.rodata.cst4,"aM",@progbits,4
	.p2align	2, 0x0
.LCPI6_9:
	.zero	4,248
.LCPI6_10:
	.zero	4,216
	.section	".text.utf16_units::validate::valid_len::<#8b18edd9dd9aa8df>","ax",@progbits
	.p2align	4
	.type	"utf16_units::validate::valid_len::<#8b18edd9dd9aa8df>",@function
"utf16_units::validate::valid_len::<#8b18edd9dd9aa8df>":
	.cfi_startproc
	cmpq	$32, %rsi
	jae	.LBB6_9
	testq	%rsi, %rsi
	je	.LBB6_14
	xorl	%ecx, %ecx
	jmp	.LBB6_4
	.p2align	4
.LBB6_3:
	addq	%rcx, %rax
	movq	%rax, %rcx
	cmpq	%rsi, %rax
	jae	.LBB6_61
.LBB6_4:
	movq	%rsi, %r8
	subq	%rcx, %r8
	cmpq	$2, %r8
	jb	.LBB6_60
	movbew	(%rdi,%rcx), %dx
	movl	%edx, %r9d
	andl	$63488, %r9d
	movl	$2, %eax
	cmpl	$55296, %r9d
	jne	.LBB6_3
	cmpq	$4, %r8
	jb	.LBB6_60
	andl	$56320, %edx
	movzwl	%dx, %eax
	cmpl	$56320, %eax
	je	.LBB6_60
	movzbl	2(%rdi,%rcx), %edx
	andb	$-4, %dl
	movl	$4, %eax
	cmpb	$-36, %dl
	je	.LBB6_3
	jmp	.LBB6_60
.LBB6_9:
	cmpq	$64, %rsi
	jb	.LBB6_13
	movq	%rsi, %rcx
	andq	$-128, %rcx
	vpbroadcastw	.LCPI6_0(%rip), %ymm0
	vmovdqu	(%rdi), %ymm1
	vmovdqu	32(%rdi), %ymm2
	vpand	%ymm0, %ymm2, %ymm3
	vpand	%ymm0, %ymm1, %ymm4
	vpackuswb	%ymm3, %ymm4, %ymm3
	vpermq	$216, %ymm3, %ymm3
	vpand	.LCPI6_1(%rip), %ymm3, %ymm3
	vpcmpeqb	.LCPI6_2(%rip), %ymm3, %ymm3
	vpmovmskb	%ymm3, %eax
	cmpq	$256, %rcx
	jne	.LBB6_15
	testl	%eax, %eax
	je	.LBB6_17
	xorl	%ecx, %ecx
	jmp	.LBB6_22
.LBB6_13:
	xorl	%ecx, %ecx
	xorl	%eax, %eax
	jmp	.LBB6_46
.LBB6_14:
	xorl	%eax, %eax
	retq
.LBB6_15:
	testl	%eax, %eax
	je	.LBB6_35
	xorl	%ecx, %ecx
	movq	%rsi, %rdx
	jmp	.LBB6_21
.LBB6_17:
	movl	$64, %ecx
	movq	%rsi, %rdx
	.p2align	4
.LBB6_18:
	leaq	-64(%rdx), %r8
	cmpq	$63, %r8
	jbe	.LBB6_42
	vmovdqu	(%rdi,%rcx), %ymm1
	vmovdqu	32(%rdi,%rcx), %ymm2
	vpand	%ymm0, %ymm2, %ymm3
	vpand	%ymm0, %ymm1, %ymm4
	vpackuswb	%ymm3, %ymm4, %ymm3
	vpermq	$216, %ymm3, %ymm3
	vpand	.LCPI6_1(%rip), %ymm3, %ymm3
	vpcmpeqb	.LCPI6_2(%rip), %ymm3, %ymm3
	vpmovmskb	%ymm3, %eax
	addq	$64, %rcx
	addq	$-64, %rdx
	testl	%eax, %eax
	je	.LBB6_18
	addq	$-64, %rcx
.LBB6_21:
	cmpq	$64, %rdx
	je	.LBB6_26
.LBB6_22:
	vpand	%ymm0, %ymm1, %ymm1
	vpand	%ymm0, %ymm2, %ymm2
	vpackuswb	%ymm2, %ymm1, %ymm1
	vpermq	$216, %ymm1, %ymm1
	vpand	.LCPI6_1(%rip), %ymm1, %ymm1
	vpcmpeqb	.LCPI6_2(%rip), %ymm1, %ymm1
	vpmovmskb	%ymm1, %eax
	tzcntl	%eax, %eax
	leaq	(%rcx,%rax,2), %rax
	movq	%rsi, %rdx
	subq	%rax, %rdx
	cmpq	$2, %rdx
	jb	.LBB6_61
	movbew	(%rdi,%rax), %r8w
	movl	%r8d, %r9d
	andl	$63488, %r9d
	cmpl	$55296, %r9d
	jne	.LBB6_26
	notl	%r8d
	testl	$56320, %r8d
	sete	%r8b
	cmpq	$4, %rdx
	setb	%dl
	orb	%r8b, %dl
	jne	.LBB6_61
	movzbl	2(%rdi,%rax), %edx
	andb	$-4, %dl
	cmpb	$-36, %dl
	jne	.LBB6_61
.LBB6_26:
	xorl	%r8d, %r8d
	jmp	.LBB6_28
	.p2align	4
.LBB6_27:
	shrl	$31, %eax
	movl	%eax, %r8d
	cmpq	$63, %rdx
	jbe	.LBB6_44
.LBB6_28:
	vpand	32(%rdi,%rcx), %ymm0, %ymm1
	vpand	(%rdi,%rcx), %ymm0, %ymm2
	vpackuswb	%ymm1, %ymm2, %ymm1
	vpermq	$216, %ymm1, %ymm1
	vpand	.LCPI6_3(%rip), %ymm1, %ymm1
	vpcmpeqb	.LCPI6_2(%rip), %ymm1, %ymm2
	vpmovmskb	%ymm2, %eax
	vpcmpeqb	.LCPI6_4(%rip), %ymm1, %ymm1
	vpmovmskb	%ymm1, %edx
	movzbl	%r8b, %r9d
	andl	$1, %r9d
	leal	(%r9,%rax,2), %r9d
	cmpl	%edx, %r9d
	jne	.LBB6_43
	addq	$64, %rcx
	movq	%rsi, %rdx
	subq	%rcx, %rdx
	cmpq	$64, %rdx
	jb	.LBB6_27
	movzbl	%cl, %r8d
	testq	%r8, %r8
	jne	.LBB6_27
	testl	%eax, %eax
	jne	.LBB6_27
	.p2align	4
.LBB6_32:
	vpand	32(%rdi,%rcx), %ymm0, %ymm1
	vpand	(%rdi,%rcx), %ymm0, %ymm2
	vpackuswb	%ymm1, %ymm2, %ymm1
	vpermq	$216, %ymm1, %ymm1
	vpand	.LCPI6_1(%rip), %ymm1, %ymm1
	vpcmpeqb	.LCPI6_2(%rip), %ymm1, %ymm1
	vpmovmskb	%ymm1, %r8d
	testl	%r8d, %r8d
	jne	.LBB6_27
	addq	$64, %rcx
	addq	$-64, %rdx
	cmpq	$63, %rdx
	ja	.LBB6_32
.LBB6_34:
	xorl	%eax, %eax
.LBB6_45:
	cmpq	$32, %rdx
	jb	.LBB6_47
.LBB6_46:
	vmovdqu	(%rdi,%rcx), %ymm0
	vpand	.LCPI6_5(%rip), %ymm0, %ymm0
	vextracti128	$1, %ymm0, %xmm1
	vpackuswb	%xmm1, %xmm0, %xmm0
	vpand	.LCPI6_6(%rip), %xmm0, %xmm0
	vpcmpeqb	.LCPI6_7(%rip), %xmm0, %xmm1
	vpcmpeqb	.LCPI6_8(%rip), %xmm0, %xmm0
	vpmovmskb	%xmm1, %edx
	movl	%edx, %r8d
	vpmovmskb	%xmm0, %r9d
	movzbl	%al, %r10d
	movl	%r10d, %eax
	andl	$1, %eax
	andl	$32767, %edx
	leaq	(%rax,%rdx,2), %rdx
	leaq	32(%rcx), %rax
	cmpq	%r9, %rdx
	cmoveq	%rax, %rcx
	xorl	%eax, %eax
	testw	%r8w, %r8w
	sets	%al
	cmpl	%r9d, %edx
	cmovnel	%r10d, %eax
.LBB6_47:
	leaq	-2(%rcx), %rdx
	testb	$1, %al
	cmoveq	%rcx, %rdx
	movq	%rsi, %rax
	subq	%rdx, %rax
	cmpq	$32, %rax
	ja	.LBB6_51
	movq	%rdx, %rax
	subq	%rsi, %rax
	testb	$1, %al
	jne	.LBB6_53
	vmovdqu	-32(%rdi,%rsi), %ymm0
	addl	$32, %eax
	shrl	%eax
	vpand	.LCPI6_5(%rip), %ymm0, %ymm0
	vextracti128	$1, %ymm0, %xmm1
	vpackuswb	%xmm1, %xmm0, %xmm0
	vpand	.LCPI6_6(%rip), %xmm0, %xmm0
	vpcmpeqb	.LCPI6_8(%rip), %xmm0, %xmm1
	vpmovmskb	%xmm1, %ecx
	shrxq	%rax, %rcx, %rcx
	vpcmpeqb	.LCPI6_7(%rip), %xmm0, %xmm0
	vpmovmskb	%xmm0, %r8d
	shrxq	%rax, %r8, %rax
	addl	%eax, %eax
	cmpl	%eax, %ecx
	jne	.LBB6_53
	movq	%rsi, %rax
	vzeroupper
	retq
.LBB6_51:
	cmpq	$64, %rax
	jae	.LBB6_52
.LBB6_53:
	xorl	%ecx, %ecx
	addq	%rdx, %rcx
	cmpq	%rsi, %rcx
	jb	.LBB6_55
	jmp	.LBB6_60
.LBB6_52:
	vpbroadcastw	.LCPI6_0(%rip), %ymm0
	vpand	32(%rdi,%rdx), %ymm0, %ymm1
	vpand	(%rdi,%rdx), %ymm0, %ymm0
	vpackuswb	%ymm1, %ymm0, %ymm0
	vpermq	$216, %ymm0, %ymm0
	vpand	.LCPI6_1(%rip), %ymm0, %ymm0
	vpcmpeqb	.LCPI6_2(%rip), %ymm0, %ymm0
	vpmovmskb	%ymm0, %eax
	xorl	%ecx, %ecx
	tzcntl	%eax, %ecx
	addl	%ecx, %ecx
	addq	%rdx, %rcx
	cmpq	%rsi, %rcx
	jb	.LBB6_55
	jmp	.LBB6_60
	.p2align	4
.LBB6_54:
	addq	%rcx, %rax
	movq	%rax, %rcx
	cmpq	%rsi, %rax
	jae	.LBB6_61
.LBB6_55:
	movq	%rsi, %r8
	subq	%rcx, %r8
	cmpq	$2, %r8
	jb	.LBB6_60
	movbew	(%rdi,%rcx), %dx
	movl	%edx, %r9d
	andl	$63488, %r9d
	movl	$2, %eax
	cmpl	$55296, %r9d
	jne	.LBB6_54
	cmpq	$4, %r8
	jb	.LBB6_60
	andl	$56320, %edx
	movzwl	%dx, %eax
	cmpl	$56320, %eax
	je	.LBB6_60
	movzbl	2(%rdi,%rcx), %edx
	andb	$-4, %dl
	movl	$4, %eax
	cmpb	$-36, %dl
	je	.LBB6_54
.LBB6_60:
	movq	%rcx, %rax
.LBB6_61:
	vzeroupper
	retq
.LBB6_35:
	leaq	-256(%rsi), %rax
	xorl	%ecx, %ecx
	.p2align	4
.LBB6_36:
	addq	$64, %rcx
	cmpq	$256, %rcx
	je	.LBB6_39
.LBB6_37:
	movq	%rsi, %rdx
	subq	%rcx, %rdx
	cmpq	$63, %rdx
	jbe	.LBB6_34
	vmovdqu	(%rdi,%rcx), %ymm1
	vmovdqu	32(%rdi,%rcx), %ymm2
	vpand	%ymm0, %ymm2, %ymm3
	vpand	%ymm0, %ymm1, %ymm4
	vpackuswb	%ymm3, %ymm4, %ymm3
	vpermq	$216, %ymm3, %ymm3
	vpand	.LCPI6_1(%rip), %ymm3, %ymm3
	vpcmpeqb	.LCPI6_2(%rip), %ymm3, %ymm3
	vpmovmskb	%ymm3, %r8d
	testl	%r8d, %r8d
	je	.LBB6_36
	jmp	.LBB6_21
	.p2align	4
.LBB6_39:
	movl	$256, %ecx
	movq	%rax, %rdx
	.p2align	4
.LBB6_40:
	vpand	32(%rdi,%rcx), %ymm0, %ymm1
	vpand	(%rdi,%rcx), %ymm0, %ymm2
	vpackuswb	%ymm1, %ymm2, %ymm1
	vpermq	$216, %ymm1, %ymm1
	vpbroadcastd	.LCPI6_9(%rip), %ymm2
	vpand	%ymm2, %ymm1, %ymm1
	vpbroadcastd	.LCPI6_10(%rip), %ymm3
	vpand	96(%rdi,%rcx), %ymm0, %ymm4
	vpand	64(%rdi,%rcx), %ymm0, %ymm5
	vpcmpeqb	%ymm3, %ymm1, %ymm1
	vpackuswb	%ymm4, %ymm5, %ymm4
	vpermq	$216, %ymm4, %ymm4
	vpand	%ymm2, %ymm4, %ymm2
	vpcmpeqb	%ymm3, %ymm2, %ymm2
	vpor	%ymm2, %ymm1, %ymm1
	vpmovmskb	%ymm1, %r8d
	testl	%r8d, %r8d
	jne	.LBB6_37
	subq	$-128, %rcx
	addq	$-128, %rdx
	cmpq	$127, %rdx
	ja	.LBB6_40
	jmp	.LBB6_37
.LBB6_42:
	xorl	%eax, %eax
	movq	%r8, %rdx
	jmp	.LBB6_45
.LBB6_43:
	movl	%r8d, %eax
.LBB6_44:
	movq	%rsi, %rdx
	subq	%rcx, %rdx
	jmp	.LBB6_45
.Lfunc_end6:
	.size	"utf16_units::validate::valid_len::<#8b18edd9dd9aa8df>", .Lfunc_end6-"utf16_units::validate::valid_len::<#8b18edd9dd9aa8df>"
	.cfi_endproc

	.section	".text.utf16_units::validate::error_len::<#8b18edd9dd9aa8df>","ax",@progbits
	.p2align	4
	.type	"utf16_units::validate::error_len::<#8b18edd9dd9aa8df>",@function
"utf16_units::validate::error_len::<#8b18edd9dd9aa8df>":
	.cfi_startproc
	cmpq	$2, %rsi
	jb	.LBB7_7
	movbew	(%rdi), %cx
	movl	%ecx, %eax
	andl	$63488, %eax
	cmpl	$55296, %eax
	jne	.LBB7_7
	notl	%ecx
	movb	$1, %al
	testl	$56320, %ecx
	je	.LBB7_5
	cmpq	$4, %rsi
	jae	.LBB7_4
.LBB7_7:
	xorl	%eax, %eax
	retq
.LBB7_4:
	movzbl	2(%rdi), %eax
	andb	$-4, %al
	cmpb	$-36, %al
	setne	%al
.LBB7_5:
	retq
.Lfunc_end7:
	.size	"utf16_units::validate::error_len::<#8b18edd9dd9aa8df>", .Lfunc_end7-"utf16_units::validate::error_len::<#8b18edd9dd9aa8df>"
	.cfi_endproc

	.section	.rodata.cst32,"aM",@progbits,32
	.p2align	5, 0x0
.LCPI8_0:
	.zero	32,248
.LCPI8_1:
	.zero	32,216
.LCPI8_2:
	.zero	32,252
.LCPI8_3:
	.zero	32,220
	.section	.rodata.cst16,"aM",@progbits,16
	.p2align	4, 0x0
.LCPI8_4:
	.zero	16,252
.LCPI8_5:
	.zero	16,216
.LCPI8_6:
	.zero	16,220
	.section	.rodata.cst4,"aM",@progbits,4
	.p2align	2, 0x0
.LCPI8_7:
	.zero	4,248
.LCPI8_8:
	.zero	4,216
	.section	".text.utf16_units::validate::valid_len::<#418c2b53cf60437c>","ax",@progbits
	.p2align	4
	.type	"utf16_units::validate::valid_len::<#418c2b53cf60437c>",@function
"utf16_units::validate::valid_len::<#418c2b53cf60437c>":
	.cfi_startproc
	cmpq	$32, %rsi
	jae	.LBB8_9
	testq	%rsi, %rsi
	je	.LBB8_14
	xorl	%ecx, %ecx
	jmp	.LBB8_4
	.p2align	4
.LBB8_3:
	addq	%rcx, %rax
	movq	%rax, %rcx
	cmpq	%rsi, %rax
	jae	.LBB8_62
.LBB8_4:
	movq	%rsi, %rdx
	subq	%rcx, %rdx
	cmpq	$2, %rdx
	jb	.LBB8_61
	movzbl	1(%rdi,%rcx), %r8d
	movl	%r8d, %r9d
	andl	$-8, %r9d
	movl	$2, %eax
	cmpl	$216, %r9d
	jne	.LBB8_3
	cmpq	$4, %rdx
	jb	.LBB8_61
	movzwl	%r8w, %eax
	andl	$-36, %eax
	movzwl	%ax, %eax
	cmpl	$220, %eax
	je	.LBB8_61
	movzbl	3(%rdi,%rcx), %edx
	andb	$-4, %dl
	movl	$4, %eax
	cmpb	$-36, %dl
	je	.LBB8_3
	jmp	.LBB8_61
.LBB8_9:
	cmpq	$64, %rsi
	jb	.LBB8_13
	movq	%rsi, %rcx
	andq	$-128, %rcx
	vmovdqu	(%rdi), %ymm0
	vmovdqu	32(%rdi), %ymm1
	vpsrlw	$8, %ymm1, %ymm2
	vpsrlw	$8, %ymm0, %ymm3
	vpackuswb	%ymm2, %ymm3, %ymm2
	vpermq	$216, %ymm2, %ymm2
	vpand	.LCPI8_0(%rip), %ymm2, %ymm2
	vpcmpeqb	.LCPI8_1(%rip), %ymm2, %ymm2
	vpmovmskb	%ymm2, %eax
	cmpq	$256, %rcx
	jne	.LBB8_15
	testl	%eax, %eax
	je	.LBB8_17
	xorl	%ecx, %ecx
	jmp	.LBB8_22
.LBB8_13:
	xorl	%ecx, %ecx
	xorl	%eax, %eax
	jmp	.LBB8_47
.LBB8_14:
	xorl	%eax, %eax
	retq
.LBB8_15:
	testl	%eax, %eax
	je	.LBB8_36
	xorl	%ecx, %ecx
	movq	%rsi, %rdx
	jmp	.LBB8_21
.LBB8_17:
	movl	$64, %ecx
	movq	%rsi, %rdx
	.p2align	4
.LBB8_18:
	leaq	-64(%rdx), %r8
	cmpq	$63, %r8
	jbe	.LBB8_43
	vmovdqu	(%rdi,%rcx), %ymm0
	vmovdqu	32(%rdi,%rcx), %ymm1
	vpsrlw	$8, %ymm1, %ymm2
	vpsrlw	$8, %ymm0, %ymm3
	vpackuswb	%ymm2, %ymm3, %ymm2
	vpermq	$216, %ymm2, %ymm2
	vpand	.LCPI8_0(%rip), %ymm2, %ymm2
	vpcmpeqb	.LCPI8_1(%rip), %ymm2, %ymm2
	vpmovmskb	%ymm2, %eax
	addq	$64, %rcx
	addq	$-64, %rdx
	testl	%eax, %eax
	je	.LBB8_18
	addq	$-64, %rcx
.LBB8_21:
	cmpq	$64, %rdx
	je	.LBB8_27
.LBB8_22:
	vpsrlw	$8, %ymm0, %ymm0
	vpsrlw	$8, %ymm1, %ymm1
	vpackuswb	%ymm1, %ymm0, %ymm0
	vpermq	$216, %ymm0, %ymm0
	vpand	.LCPI8_0(%rip), %ymm0, %ymm0
	vpcmpeqb	.LCPI8_1(%rip), %ymm0, %ymm0
	vpmovmskb	%ymm0, %eax
	tzcntl	%eax, %eax
	leaq	(%rcx,%rax,2), %rax
	movq	%rsi, %rdx
	subq	%rax, %rdx
	cmpq	$2, %rdx
	jb	.LBB8_62
	movzbl	1(%rdi,%rax), %r8d
	movl	%r8d, %r9d
	andl	$-8, %r9d
	cmpl	$216, %r9d
	jne	.LBB8_27
	cmpq	$4, %rdx
	jb	.LBB8_62
	movzwl	%r8w, %edx
	andl	$-36, %edx
	movzwl	%dx, %edx
	cmpl	$220, %edx
	je	.LBB8_62
	movzbl	3(%rdi,%rax), %edx
	andb	$-4, %dl
	cmpb	$-36, %dl
	jne	.LBB8_62
.LBB8_27:
	xorl	%r8d, %r8d
	jmp	.LBB8_29
	.p2align	4
.LBB8_28:
	shrl	$31, %eax
	movl	%eax, %r8d
	cmpq	$63, %rdx
	jbe	.LBB8_45
.LBB8_29:
	vmovdqu	(%rdi,%rcx), %ymm0
	vmovdqu	32(%rdi,%rcx), %ymm1
	vpsrlw	$8, %ymm1, %ymm1
	vpsrlw	$8, %ymm0, %ymm0
	vpackuswb	%ymm1, %ymm0, %ymm0
	vpermq	$216, %ymm0, %ymm0
	vpand	.LCPI8_2(%rip), %ymm0, %ymm0
	vpcmpeqb	.LCPI8_1(%rip), %ymm0, %ymm1
	vpmovmskb	%ymm1, %eax
	vpcmpeqb	.LCPI8_3(%rip), %ymm0, %ymm0
	vpmovmskb	%ymm0, %edx
	movzbl	%r8b, %r9d
	andl	$1, %r9d
	leal	(%r9,%rax,2), %r9d
	cmpl	%edx, %r9d
	jne	.LBB8_44
	addq	$64, %rcx
	movq	%rsi, %rdx
	subq	%rcx, %rdx
	cmpq	$64, %rdx
	jb	.LBB8_28
	movzbl	%cl, %r8d
	testq	%r8, %r8
	jne	.LBB8_28
	testl	%eax, %eax
	jne	.LBB8_28
	.p2align	4
.LBB8_33:
	vmovdqu	(%rdi,%rcx), %ymm0
	vmovdqu	32(%rdi,%rcx), %ymm1
	vpsrlw	$8, %ymm1, %ymm1
	vpsrlw	$8, %ymm0, %ymm0
	vpackuswb	%ymm1, %ymm0, %ymm0
	vpermq	$216, %ymm0, %ymm0
	vpand	.LCPI8_0(%rip), %ymm0, %ymm0
	vpcmpeqb	.LCPI8_1(%rip), %ymm0, %ymm0
	vpmovmskb	%ymm0, %r8d
	testl	%r8d, %r8d
	jne	.LBB8_28
	addq	$64, %rcx
	addq	$-64, %rdx
	cmpq	$63, %rdx
	ja	.LBB8_33
.LBB8_35:
	xorl	%eax, %eax
.LBB8_46:
	cmpq	$32, %rdx
	jb	.LBB8_48
.LBB8_47:
	vmovdqu	(%rdi,%rcx), %ymm0
	vpsrlw	$8, %ymm0, %ymm0
	vextracti128	$1, %ymm0, %xmm1
	vpackuswb	%xmm1, %xmm0, %xmm0
	vpand	.LCPI8_4(%rip), %xmm0, %xmm0
	vpcmpeqb	.LCPI8_5(%rip), %xmm0, %xmm1
	vpcmpeqb	.LCPI8_6(%rip), %xmm0, %xmm0
	vpmovmskb	%xmm1, %edx
	movl	%edx, %r8d
	vpmovmskb	%xmm0, %r9d
	movzbl	%al, %r10d
	movl	%r10d, %eax
	andl	$1, %eax
	andl	$32767, %edx
	leaq	(%rax,%rdx,2), %rdx
	leaq	32(%rcx), %rax
	cmpq	%r9, %rdx
	cmoveq	%rax, %rcx
	xorl	%eax, %eax
	testw	%r8w, %r8w
	sets	%al
	cmpl	%r9d, %edx
	cmovnel	%r10d, %eax
.LBB8_48:
	leaq	-2(%rcx), %rdx
	testb	$1, %al
	cmoveq	%rcx, %rdx
	movq	%rsi, %rax
	subq	%rdx, %rax
	cmpq	$32, %rax
	ja	.LBB8_52
	movq	%rdx, %rax
	subq	%rsi, %rax
	testb	$1, %al
	jne	.LBB8_54
	vmovdqu	-32(%rdi,%rsi), %ymm0
	addl	$32, %eax
	shrl	%eax
	vpsrlw	$8, %ymm0, %ymm0
	vextracti128	$1, %ymm0, %xmm1
	vpackuswb	%xmm1, %xmm0, %xmm0
	vpand	.LCPI8_4(%rip), %xmm0, %xmm0
	vpcmpeqb	.LCPI8_6(%rip), %xmm0, %xmm1
	vpmovmskb	%xmm1, %ecx
	shrxq	%rax, %rcx, %rcx
	vpcmpeqb	.LCPI8_5(%rip), %xmm0, %xmm0
	vpmovmskb	%xmm0, %r8d
	shrxq	%rax, %r8, %rax
	addl	%eax, %eax
	cmpl	%eax, %ecx
	jne	.LBB8_54
	movq	%rsi, %rax
	vzeroupper
	retq
.LBB8_52:
	cmpq	$64, %rax
	jae	.LBB8_53
.LBB8_54:
	xorl	%ecx, %ecx
	addq	%rdx, %rcx
	cmpq	%rsi, %rcx
	jb	.LBB8_56
	jmp	.LBB8_61
.LBB8_53:
	vmovdqu	(%rdi,%rdx), %ymm0
	vmovdqu	32(%rdi,%rdx), %ymm1
	vpsrlw	$8, %ymm1, %ymm1
	vpsrlw	$8, %ymm0, %ymm0
	vpackuswb	%ymm1, %ymm0, %ymm0
	vpermq	$216, %ymm0, %ymm0
	vpand	.LCPI8_0(%rip), %ymm0, %ymm0
	vpcmpeqb	.LCPI8_1(%rip), %ymm0, %ymm0
	vpmovmskb	%ymm0, %eax
	xorl	%ecx, %ecx
	tzcntl	%eax, %ecx
	addl	%ecx, %ecx
	addq	%rdx, %rcx
	cmpq	%rsi, %rcx
	jb	.LBB8_56
	jmp	.LBB8_61
	.p2align	4
.LBB8_55:
	addq	%rcx, %rax
	movq	%rax, %rcx
	cmpq	%rsi, %rax
	jae	.LBB8_62
.LBB8_56:
	movq	%rsi, %rdx
	subq	%rcx, %rdx
	cmpq	$2, %rdx
	jb	.LBB8_61
	movzbl	1(%rdi,%rcx), %r8d
	movl	%r8d, %r9d
	andl	$-8, %r9d
	movl	$2, %eax
	cmpl	$216, %r9d
	jne	.LBB8_55
	cmpq	$4, %rdx
	jb	.LBB8_61
	movzwl	%r8w, %eax
	andl	$-36, %eax
	movzwl	%ax, %eax
	cmpl	$220, %eax
	je	.LBB8_61
	movzbl	3(%rdi,%rcx), %edx
	andb	$-4, %dl
	movl	$4, %eax
	cmpb	$-36, %dl
	je	.LBB8_55
.LBB8_61:
	movq	%rcx, %rax
.LBB8_62:
	vzeroupper
	retq
.LBB8_36:
	leaq	-256(%rsi), %rax
	xorl	%ecx, %ecx
	.p2align	4
.LBB8_37:
	addq	$64, %rcx
	cmpq	$256, %rcx
	je	.LBB8_40
.LBB8_38:
	movq	%rsi, %rdx
	subq	%rcx, %rdx
	cmpq	$63, %rdx
	jbe	.LBB8_35
	vmovdqu	(%rdi,%rcx), %ymm0
	vmovdqu	32(%rdi,%rcx), %ymm1
	vpsrlw	$8, %ymm1, %ymm2
	vpsrlw	$8, %ymm0, %ymm3
	vpackuswb	%ymm2, %ymm3, %ymm2
	vpermq	$216, %ymm2, %ymm2
	vpand	.LCPI8_0(%rip), %ymm2, %ymm2
	vpcmpeqb	.LCPI8_1(%rip), %ymm2, %ymm2
	vpmovmskb	%ymm2, %r8d
	testl	%r8d, %r8d
	je	.LBB8_37
	jmp	.LBB8_21
	.p2align	4
.LBB8_40:
	movl	$256, %ecx
	movq	%rax, %rdx
	.p2align	4
.LBB8_41:
	vmovdqu	(%rdi,%rcx), %ymm0
	vmovdqu	32(%rdi,%rcx), %ymm1
	vmovdqu	64(%rdi,%rcx), %ymm2
	vmovdqu	96(%rdi,%rcx), %ymm3
	vpsrlw	$8, %ymm1, %ymm1
	vpsrlw	$8, %ymm0, %ymm0
	vpackuswb	%ymm1, %ymm0, %ymm0
	vpermq	$216, %ymm0, %ymm0
	vpbroadcastd	.LCPI8_7(%rip), %ymm1
	vpand	%ymm1, %ymm0, %ymm0
	vpbroadcastd	.LCPI8_8(%rip), %ymm4
	vpcmpeqb	%ymm4, %ymm0, %ymm0
	vpsrlw	$8, %ymm3, %ymm3
	vpsrlw	$8, %ymm2, %ymm2
	vpackuswb	%ymm3, %ymm2, %ymm2
	vpermq	$216, %ymm2, %ymm2
	vpand	%ymm1, %ymm2, %ymm1
	vpcmpeqb	%ymm4, %ymm1, %ymm1
	vpor	%ymm1, %ymm0, %ymm0
	vpmovmskb	%ymm0, %r8d
	testl	%r8d, %r8d
	jne	.LBB8_38
	subq	$-128, %rcx
	addq	$-128, %rdx
	cmpq	$127, %rdx
	ja	.LBB8_41
	jmp	.LBB8_38
.LBB8_43:
	xorl	%eax, %eax
	movq	%r8, %rdx
	jmp	.LBB8_46
.LBB8_44:
	movl	%r8d, %eax
.LBB8_45:
	movq	%rsi, %rdx
	subq	%rcx, %rdx
	jmp	.LBB8_46
.Lfunc_end8:
	.size	"utf16_units::validate::valid_len::<#418c2b53cf60437c>", .Lfunc_end8-"utf16_units::validate::valid_len::<#418c2b53cf60437c>"
	.cfi_endproc

	.section	".text.utf16_units::validate::error_len::<#418c2b53cf60437c>","ax",@progbits
	.p2align	4
	.type	"utf16_units::validate::error_len::<#418c2b53cf60437c>",@function
"utf16_units::validate::error_len::<#418c2b53cf60437c>":
	.cfi_startproc
	cmpq	$2, %rsi
	jb	.LBB9_7
	movzbl	1(%rdi), %eax
	movl	%eax, %ecx
	andl	$-8, %ecx
	cmpl	$216, %ecx
	jne	.LBB9_7
	movzwl	%ax, %ecx
	notl	%ecx
	movb	$1, %al
	testb	$-36, %cl
	je	.LBB9_5
	cmpq	$4, %rsi
	jae	.LBB9_4
.LBB9_7:
	xorl	%eax, %eax
	retq
.LBB9_4:
	movzbl	3(%rdi), %eax
	andb	$-4, %al
	cmpb	$-36, %al
	setne	%al
.LBB9_5:
	retq
.Lfunc_end9:
	.size	"utf16_units::validate::error_len::<#418c2b53cf60437c>", .Lfunc_end9-"utf16_units::validate::error_len::<#418c2b53cf60437c>"
	.cfi_endproc

	.section	".text.utf16_program::lines::append_counts::<#689013dfc86db972>","ax",@progbits
	.p2align	4
	.type	"utf16_program::lines::append_counts::<#689013dfc86db972>",@function
"utf16_program::lines::append_counts::<#689013dfc86db972>":
	.cfi_startproc
	pushq	%rbp
	.cfi_def_cfa_offset 16
	pushq	%r15
	.cfi_def_cfa_offset 24
	pushq	%r14
	.cfi_def_cfa_offset 32
	pushq	%r13
	.cfi_def_cfa_offset 40
	pushq	%r12
	.cfi_def_cfa_offset 48
	pushq	%rbx
	.cfi_def_cfa_offset 56
	subq	$168, %rsp
	.cfi_def_cfa_offset 224
	.cfi_offset %rbx, -56
	.cfi_offset %r12, -48
	.cfi_offset %r13, -40
	.cfi_offset %r14, -32
	.cfi_offset %r15, -24
	.cfi_offset %rbp, -16
	movq	%rcx, %r11
	movq	%rdx, %rax
	movq	%rdi, %rdx
	vxorps	%xmm0, %xmm0, %xmm0
	vmovups	%ymm0, 64(%rsp)
	vmovups	%ymm0, 16(%rsp)
	movq	$0, 96(%rsp)
	movq	$0, 48(%rsp)
	vmovups	%ymm0, 112(%rsp)
	movq	$0, 144(%rsp)
	movl	$40, %ebx
	movabsq	$3777893186295716171, %rcx
	cmpq	$10000, %rdi
	jb	.LBB10_1
	.p2align	4
.LBB10_2:
	mulxq	%rcx, %rdi, %rdi
	shrq	$11, %rdi
	imull	$10000, %edi, %r8d
	movl	%edx, %r9d
	subl	%r8d, %r9d
	imull	$5243, %r9d, %r8d
	shrl	$19, %r8d
	imull	$100, %r8d, %r10d
	subl	%r10d, %r9d
	movzwl	%r9w, %r9d
	leaq	.Lstatic.18(%rip), %r10
	movzwl	(%r10,%r9,2), %r9d
	movw	%r9w, 110(%rsp,%rbx)
	movzwl	(%r10,%r8,2), %r8d
	movw	%r8w, 108(%rsp,%rbx)
	addq	$-4, %rbx
	cmpq	$99999999, %rdx
	movq	%rdi, %rdx
	ja	.LBB10_2
	cmpq	$99, %rdi
	ja	.LBB10_7
.LBB10_4:
	cmpq	$9, %rdi
	ja	.LBB10_6
	orb	$48, %dil
	movb	%dil, 111(%rsp,%rbx)
	decq	%rbx
	jmp	.LBB10_10
.LBB10_1:
	movq	%rdx, %rdi
	cmpq	$99, %rdi
	jbe	.LBB10_4
.LBB10_7:
	movl	%edi, %edx
	shrl	$2, %edx
	movzwl	%dx, %edx
	imull	$5243, %edx, %edx
	shrl	$17, %edx
	imull	$100, %edx, %r8d
	movl	%edi, %r9d
	subl	%r8d, %r9d
	movzwl	%r9w, %r9d
	leaq	.Lstatic.18(%rip), %r8
	movzwl	(%r8,%r9,2), %r9d
	movw	%r9w, 110(%rsp,%rbx)
	cmpq	$999, %rdi
	ja	.LBB10_9
	orb	$48, %dl
	movb	%dl, 109(%rsp,%rbx)
	addq	$-3, %rbx
	jmp	.LBB10_10
.LBB10_6:
	leaq	.Lstatic.18(%rip), %rdx
	movzwl	(%rdx,%rdi,2), %edx
	movw	%dx, 110(%rsp,%rbx)
	addq	$-2, %rbx
	jmp	.LBB10_10
.LBB10_9:
	movzwl	%dx, %edx
	movzwl	(%r8,%rdx,2), %edx
	movw	%dx, 108(%rsp,%rbx)
	addq	$-4, %rbx
.LBB10_10:
	movl	$40, %r12d
	vxorps	%xmm0, %xmm0, %xmm0
	vmovups	%ymm0, 64(%rsp)
	movq	$0, 96(%rsp)
	movl	$40, %ebp
	cmpq	$10000, %rsi
	jb	.LBB10_11
	.p2align	4
.LBB10_12:
	movq	%rsi, %rdx
	mulxq	%rcx, %rdx, %rdx
	shrq	$11, %rdx
	imull	$10000, %edx, %edi
	movl	%esi, %r8d
	subl	%edi, %r8d
	imull	$5243, %r8d, %edi
	shrl	$19, %edi
	imull	$100, %edi, %r9d
	subl	%r9d, %r8d
	movzwl	%r8w, %r8d
	leaq	.Lstatic.18(%rip), %r9
	movzwl	(%r9,%r8,2), %r8d
	movw	%r8w, 62(%rsp,%rbp)
	movzwl	(%r9,%rdi,2), %edi
	movw	%di, 60(%rsp,%rbp)
	addq	$-4, %rbp
	cmpq	$99999999, %rsi
	movq	%rdx, %rsi
	ja	.LBB10_12
	cmpq	$99, %rdx
	ja	.LBB10_17
.LBB10_14:
	cmpq	$9, %rdx
	ja	.LBB10_16
	orb	$48, %dl
	movb	%dl, 63(%rsp,%rbp)
	decq	%rbp
	jmp	.LBB10_20
.LBB10_11:
	movq	%rsi, %rdx
	cmpq	$99, %rdx
	jbe	.LBB10_14
.LBB10_17:
	movl	%edx, %esi
	shrl	$2, %esi
	movzwl	%si, %esi
	imull	$5243, %esi, %esi
	shrl	$17, %esi
	imull	$100, %esi, %edi
	movl	%edx, %r8d
	subl	%edi, %r8d
	movzwl	%r8w, %r8d
	leaq	.Lstatic.18(%rip), %rdi
	movzwl	(%rdi,%r8,2), %r8d
	movw	%r8w, 62(%rsp,%rbp)
	cmpq	$999, %rdx
	ja	.LBB10_19
	orb	$48, %sil
	movb	%sil, 61(%rsp,%rbp)
	addq	$-3, %rbp
	jmp	.LBB10_20
.LBB10_16:
	leaq	.Lstatic.18(%rip), %rsi
	movzwl	(%rsi,%rdx,2), %edx
	movw	%dx, 62(%rsp,%rbp)
	addq	$-2, %rbp
	jmp	.LBB10_20
.LBB10_19:
	movzwl	%si, %edx
	movzwl	(%rdi,%rdx,2), %edx
	movw	%dx, 60(%rsp,%rbp)
	addq	$-4, %rbp
.LBB10_20:
	movl	$40, %r15d
	vxorps	%xmm0, %xmm0, %xmm0
	vmovups	%ymm0, 16(%rsp)
	movq	$0, 48(%rsp)
	movl	$40, %r13d
	cmpq	$10000, %rax
	jb	.LBB10_21
	.p2align	4
.LBB10_22:
	movq	%rax, %rdx
	mulxq	%rcx, %rdx, %rdx
	shrq	$11, %rdx
	imull	$10000, %edx, %esi
	movl	%eax, %edi
	subl	%esi, %edi
	imull	$5243, %edi, %esi
	shrl	$19, %esi
	imull	$100, %esi, %r8d
	subl	%r8d, %edi
	movzwl	%di, %edi
	leaq	.Lstatic.18(%rip), %r8
	movzwl	(%r8,%rdi,2), %edi
	movw	%di, 14(%rsp,%r13)
	movzwl	(%r8,%rsi,2), %esi
	movw	%si, 12(%rsp,%r13)
	addq	$-4, %r13
	cmpq	$99999999, %rax
	movq	%rdx, %rax
	ja	.LBB10_22
	subq	%rbx, %r12
	subq	%rbp, %r15
	cmpq	$99, %rdx
	ja	.LBB10_27
.LBB10_24:
	cmpq	$9, %rdx
	ja	.LBB10_26
	orb	$48, %dl
	movb	%dl, 15(%rsp,%r13)
	decq	%r13
	jmp	.LBB10_30
.LBB10_21:
	movq	%rax, %rdx
	subq	%rbx, %r12
	subq	%rbp, %r15
	cmpq	$99, %rdx
	jbe	.LBB10_24
.LBB10_27:
	movl	%edx, %eax
	shrl	$2, %eax
	movzwl	%ax, %eax
	imull	$5243, %eax, %eax
	shrl	$17, %eax
	imull	$100, %eax, %ecx
	movl	%edx, %esi
	subl	%ecx, %esi
	movzwl	%si, %esi
	leaq	.Lstatic.18(%rip), %rcx
	movzwl	(%rcx,%rsi,2), %esi
	movw	%si, 14(%rsp,%r13)
	cmpq	$999, %rdx
	ja	.LBB10_29
	orb	$48, %al
	movb	%al, 13(%rsp,%r13)
	addq	$-3, %r13
	jmp	.LBB10_30
.LBB10_26:
	leaq	.Lstatic.18(%rip), %rax
	movzwl	(%rax,%rdx,2), %eax
	movw	%ax, 14(%rsp,%r13)
	addq	$-2, %r13
	jmp	.LBB10_30
.LBB10_29:
	movzwl	%ax, %eax
	movzwl	(%rcx,%rax,2), %eax
	movw	%ax, 12(%rsp,%r13)
	addq	$-4, %r13
.LBB10_30:
	movl	$40, %ecx
	subq	%r13, %rcx
	movq	%r12, %rsi
	addq	$21, %rsi
	movq	$-1, %rax
	cmovbq	%rax, %rsi
	addq	%r15, %rsi
	cmovbq	%rax, %rsi
	addq	$14, %rsi
	cmovbq	%rax, %rsi
	movq	%rcx, 8(%rsp)
	addq	%rcx, %rsi
	cmovbq	%rax, %rsi
	incq	%rsi
	cmoveq	%rax, %rsi
	movq	8(%r11), %rax
	movq	16(%r11), %r10
	movq	%r10, %rcx
	subq	%rax, %rcx
	cmpq	%rcx, %rsi
	ja	.LBB10_31
.LBB10_35:
	movq	(%r11), %r9
	leaq	(%r9,%rax), %rcx
	addq	$7, %rax
	leaq	.Lstatic.19(%rip), %rdx
	movq	%rcx, %rsi
	subq	%rdx, %rsi
	cmpq	$7, %rsi
	jae	.LBB10_36
	movl	$1702132066, (%rcx)
	movw	$14963, 4(%rcx)
	movb	$32, 6(%rcx)
	jmp	.LBB10_38
.LBB10_36:
	movl	$540701541, 3(%rcx)
	movl	$1702132066, (%rcx)
.LBB10_38:
	movq	%r9, (%r11)
	movq	%rax, 8(%r11)
	movq	%r10, 16(%r11)
	movq	%r10, %rcx
	subq	%rax, %rcx
	cmpq	%rcx, %r12
	ja	.LBB10_39
.LBB10_41:
	leaq	(%rsp,%rbx), %rsi
	addq	$112, %rsi
	leaq	(%rax,%r12), %r14
	leaq	(%r9,%rax), %rdi
	movq	%rdi, %rcx
	subq	%rsi, %rcx
	cmpq	%r12, %rcx
	jae	.LBB10_105
	cmpq	$8, %r12
	jae	.LBB10_45
	xorl	%ecx, %ecx
	jmp	.LBB10_44
.LBB10_105:
	movq	%r12, %rdx
	movq	%r11, %rbx
	movq	%r10, %r12
	movq	%r15, 160(%rsp)
	movq	%r9, %r15
	vzeroupper
	callq	memcpy@PLT
	movq	%r15, %r9
	movq	160(%rsp), %r15
	movq	%r12, %r10
	movq	%rbx, %r11
	jmp	.LBB10_54
.LBB10_45:
	cmpq	$128, %r12
	jae	.LBB10_47
	xorl	%ecx, %ecx
	jmp	.LBB10_51
.LBB10_47:
	movq	%r12, %rcx
	andq	$-128, %rcx
	leaq	112(%rsp), %rdx
	addq	%rbx, %rdx
	addq	$96, %rdx
	addq	%r9, %rax
	addq	$96, %rax
	xorl	%r8d, %r8d
	.p2align	4
.LBB10_48:
	vmovups	-96(%rdx,%r8), %ymm0
	vmovups	-64(%rdx,%r8), %ymm1
	vmovups	-32(%rdx,%r8), %ymm2
	vmovups	(%rdx,%r8), %ymm3
	vmovups	%ymm0, -96(%rax,%r8)
	vmovups	%ymm1, -64(%rax,%r8)
	vmovups	%ymm2, -32(%rax,%r8)
	vmovups	%ymm3, (%rax,%r8)
	subq	$-128, %r8
	cmpq	%r8, %rcx
	jne	.LBB10_48
	cmpq	%rcx, %r12
	je	.LBB10_54
	testb	$120, %r12b
	je	.LBB10_44
.LBB10_51:
	movq	%rcx, %rax
	movq	%r12, %rcx
	andq	$-8, %rcx
	.p2align	4
.LBB10_52:
	movq	(%rsi,%rax), %rdx
	movq	%rdx, (%rdi,%rax)
	addq	$8, %rax
	cmpq	%rax, %rcx
	jne	.LBB10_52
	jmp	.LBB10_53
.LBB10_31:
	movq	%r11, %rdi
	movq	%r11, %r14
	vzeroupper
	callq	"std_alloc::vec::Vec::grow_amortized::<#582fc6be45daf619>"
	movl	%eax, %ecx
	movb	$1, %al
	testb	%cl, %cl
	je	.LBB10_104
	movq	8(%r14), %rax
	movq	16(%r14), %r10
	movq	%r10, %rcx
	subq	%rax, %rcx
	cmpq	$6, %rcx
	movq	%r14, %r11
	ja	.LBB10_35
	movl	$7, %esi
	movq	%r11, %rdi
	movq	%r11, %r14
	callq	"std_alloc::vec::Vec::grow_amortized::<#582fc6be45daf619>"
	movl	%eax, %ecx
	movb	$1, %al
	testb	%cl, %cl
	je	.LBB10_104
	movq	8(%r14), %rax
	movq	16(%r14), %r10
	movq	%r14, %r11
	jmp	.LBB10_35
.LBB10_39:
	movq	%r11, %rdi
	movq	%r12, %rsi
	movq	%r11, %r14
	vzeroupper
	callq	"std_alloc::vec::Vec::grow_amortized::<#582fc6be45daf619>"
	movl	%eax, %ecx
	movb	$1, %al
	testb	%cl, %cl
	je	.LBB10_104
	movq	(%r14), %r9
	movq	8(%r14), %rax
	movq	16(%r14), %r10
	movq	%r14, %r11
	jmp	.LBB10_41
.LBB10_44:
	movzbl	(%rsi,%rcx), %eax
	movb	%al, (%rdi,%rcx)
	incq	%rcx
.LBB10_53:
	cmpq	%rcx, %r12
	jne	.LBB10_44
.LBB10_54:
	movq	%r9, (%r11)
	movq	%r14, 8(%r11)
	movq	%r10, 16(%r11)
	movq	%r10, %rax
	subq	%r14, %rax
	cmpq	$13, %rax
	jbe	.LBB10_55
.LBB10_57:
	leaq	(%r9,%r14), %rax
	addq	$14, %r14
	leaq	.Lstatic.20(%rip), %rcx
	movq	%rax, %rdx
	subq	%rcx, %rdx
	cmpq	$14, %rdx
	jae	.LBB10_58
	movabsq	$7161130645184520236, %rcx
	movq	%rcx, (%rax)
	movl	$1936876916, 8(%rax)
	movw	$8250, 12(%rax)
	jmp	.LBB10_60
.LBB10_58:
	movabsq	$2322295493028504417, %rcx
	movq	%rcx, 6(%rax)
	movabsq	$7161130645184520236, %rcx
	movq	%rcx, (%rax)
.LBB10_60:
	movq	%r9, (%r11)
	movq	%r14, 8(%r11)
	movq	%r10, 16(%r11)
	movq	%r10, %rax
	subq	%r14, %rax
	cmpq	%rax, %r15
	ja	.LBB10_61
.LBB10_63:
	leaq	(%rsp,%rbp), %rsi
	addq	$64, %rsi
	leaq	(%r14,%r15), %rbx
	leaq	(%r9,%r14), %rdi
	movq	%rdi, %rax
	subq	%rsi, %rax
	cmpq	%r15, %rax
	jae	.LBB10_106
	cmpq	$8, %r15
	jb	.LBB10_65
	leaq	64(%rsp), %rcx
	movq	%rdi, %rdx
	subq	%rbp, %rdx
	subq	%rcx, %rdx
	cmpq	$128, %rdx
	jae	.LBB10_68
.LBB10_65:
	xorl	%eax, %eax
	jmp	.LBB10_66
.LBB10_106:
	movq	%r15, %rdx
	movq	%r11, %r14
	movq	%r10, %r15
	movq	%r9, %r12
	vzeroupper
	callq	memmove@PLT
	movq	%r12, %r9
	movq	%r15, %r10
	movq	%r14, %r11
	jmp	.LBB10_77
.LBB10_68:
	cmpq	$128, %r15
	jae	.LBB10_70
	xorl	%eax, %eax
	jmp	.LBB10_74
.LBB10_70:
	movq	%r15, %rax
	andq	$-128, %rax
	addq	%rbp, %rcx
	addq	$96, %rcx
	leaq	(%r14,%r9), %rdx
	addq	$96, %rdx
	xorl	%r8d, %r8d
	.p2align	4
.LBB10_71:
	vmovups	-96(%rcx,%r8), %ymm0
	vmovups	-64(%rcx,%r8), %ymm1
	vmovups	-32(%rcx,%r8), %ymm2
	vmovups	(%rcx,%r8), %ymm3
	vmovups	%ymm0, -96(%rdx,%r8)
	vmovups	%ymm1, -64(%rdx,%r8)
	vmovups	%ymm2, -32(%rdx,%r8)
	vmovups	%ymm3, (%rdx,%r8)
	subq	$-128, %r8
	cmpq	%r8, %rax
	jne	.LBB10_71
	cmpq	%rax, %r15
	je	.LBB10_77
	testb	$120, %r15b
	je	.LBB10_66
.LBB10_74:
	movq	%rax, %rcx
	movq	%r15, %rax
	andq	$-8, %rax
	.p2align	4
.LBB10_75:
	movq	(%rsi,%rcx), %rdx
	movq	%rdx, (%rdi,%rcx)
	addq	$8, %rcx
	cmpq	%rcx, %rax
	jne	.LBB10_75
	jmp	.LBB10_76
.LBB10_55:
	movl	$14, %esi
	movq	%r11, %rdi
	movq	%r11, %rbx
	vzeroupper
	callq	"std_alloc::vec::Vec::grow_amortized::<#582fc6be45daf619>"
	movl	%eax, %ecx
	movb	$1, %al
	testb	%cl, %cl
	je	.LBB10_104
	movq	(%rbx), %r9
	movq	8(%rbx), %r14
	movq	16(%rbx), %r10
	movq	%rbx, %r11
	jmp	.LBB10_57
.LBB10_61:
	movq	%r11, %rdi
	movq	%r15, %rsi
	movq	%r11, %rbx
	vzeroupper
	callq	"std_alloc::vec::Vec::grow_amortized::<#582fc6be45daf619>"
	movl	%eax, %ecx
	movb	$1, %al
	testb	%cl, %cl
	je	.LBB10_104
	movq	(%rbx), %r9
	movq	8(%rbx), %r14
	movq	16(%rbx), %r10
	movq	%rbx, %r11
	jmp	.LBB10_63
.LBB10_66:
	movzbl	(%rsi,%rax), %ecx
	movb	%cl, (%rdi,%rax)
	incq	%rax
.LBB10_76:
	cmpq	%rax, %r15
	jne	.LBB10_66
.LBB10_77:
	movq	%r9, (%r11)
	movq	%rbx, 8(%r11)
	movq	%r10, 16(%r11)
	movq	%r10, %rax
	subq	%rbx, %rax
	cmpq	$13, %rax
	jbe	.LBB10_78
.LBB10_80:
	leaq	(%r9,%rbx), %rax
	addq	$14, %rbx
	leaq	.Lstatic.21(%rip), %rcx
	movq	%rax, %rdx
	subq	%rcx, %rdx
	cmpq	$14, %rdx
	jae	.LBB10_81
	movabsq	$8027153329533034540, %rcx
	movq	%rcx, (%rax)
	movl	$1684368754, 8(%rax)
	movw	$8250, 12(%rax)
	jmp	.LBB10_83
.LBB10_81:
	movabsq	$2322278944653602662, %rcx
	movq	%rcx, 6(%rax)
	movabsq	$8027153329533034540, %rcx
	movq	%rcx, (%rax)
.LBB10_83:
	movq	8(%rsp), %rdx
	movq	%r9, (%r11)
	movq	%rbx, 8(%r11)
	movq	%r10, 16(%r11)
	movq	%r10, %rax
	subq	%rbx, %rax
	cmpq	%rax, %rdx
	ja	.LBB10_84
.LBB10_86:
	leaq	(%rsp,%r13), %rsi
	addq	$16, %rsi
	leaq	(%rbx,%rdx), %r14
	leaq	(%r9,%rbx), %rdi
	movq	%rdi, %rax
	subq	%rsi, %rax
	cmpq	%rdx, %rax
	jae	.LBB10_107
	cmpq	$8, %rdx
	jb	.LBB10_88
	leaq	16(%rsp), %rcx
	movq	%rdi, %r8
	subq	%r13, %r8
	subq	%rcx, %r8
	cmpq	$128, %r8
	jae	.LBB10_91
.LBB10_88:
	xorl	%eax, %eax
	jmp	.LBB10_89
.LBB10_107:
	movq	%r11, %rbx
	movq	%r10, %r15
	movq	%r9, %r12
	vzeroupper
	callq	memmove@PLT
	movq	%r12, %r9
	movq	%r15, %r10
	movq	%rbx, %r11
	jmp	.LBB10_100
.LBB10_91:
	cmpq	$128, %rdx
	jae	.LBB10_93
	xorl	%eax, %eax
	jmp	.LBB10_97
.LBB10_93:
	movq	%rdx, %rax
	andq	$-128, %rax
	addq	%r13, %rcx
	addq	$96, %rcx
	movq	%r9, %r15
	addq	%rbx, %r9
	addq	$96, %r9
	xorl	%r8d, %r8d
	.p2align	4
.LBB10_94:
	vmovups	-96(%rcx,%r8), %ymm0
	vmovups	-64(%rcx,%r8), %ymm1
	vmovups	-32(%rcx,%r8), %ymm2
	vmovups	(%rcx,%r8), %ymm3
	vmovups	%ymm0, -96(%r9,%r8)
	vmovups	%ymm1, -64(%r9,%r8)
	vmovups	%ymm2, -32(%r9,%r8)
	vmovups	%ymm3, (%r9,%r8)
	subq	$-128, %r8
	cmpq	%r8, %rax
	jne	.LBB10_94
	cmpq	%rax, %rdx
	movq	%r15, %r9
	je	.LBB10_100
	testb	$120, %dl
	je	.LBB10_89
.LBB10_97:
	movq	%rax, %rcx
	movq	%rdx, %rax
	andq	$-8, %rax
	.p2align	4
.LBB10_98:
	movq	(%rsi,%rcx), %r8
	movq	%r8, (%rdi,%rcx)
	addq	$8, %rcx
	cmpq	%rcx, %rax
	jne	.LBB10_98
	jmp	.LBB10_99
.LBB10_78:
	movl	$14, %esi
	movq	%r11, %rdi
	movq	%r11, %r14
	vzeroupper
	callq	"std_alloc::vec::Vec::grow_amortized::<#582fc6be45daf619>"
	movl	%eax, %ecx
	movb	$1, %al
	testb	%cl, %cl
	je	.LBB10_104
	movq	(%r14), %r9
	movq	8(%r14), %rbx
	movq	16(%r14), %r10
	movq	%r14, %r11
	jmp	.LBB10_80
.LBB10_84:
	movq	%r11, %rdi
	movq	%rdx, %rsi
	movq	%r11, %r14
	vzeroupper
	callq	"std_alloc::vec::Vec::grow_amortized::<#582fc6be45daf619>"
	movl	%eax, %ecx
	movb	$1, %al
	testb	%cl, %cl
	je	.LBB10_104
	movq	(%r14), %r9
	movq	8(%r14), %rbx
	movq	16(%r14), %r10
	movq	%r14, %r11
	movq	8(%rsp), %rdx
	jmp	.LBB10_86
.LBB10_89:
	movzbl	(%rsi,%rax), %ecx
	movb	%cl, (%rdi,%rax)
	incq	%rax
.LBB10_99:
	cmpq	%rax, %rdx
	jne	.LBB10_89
.LBB10_100:
	movq	%r9, (%r11)
	movq	%r14, 8(%r11)
	movq	%r10, 16(%r11)
	cmpq	%r14, %r10
	je	.LBB10_101
.LBB10_103:
	movb	$10, (%r9,%r14)
	incq	%r14
	movq	%r9, (%r11)
	movq	%r14, 8(%r11)
	movq	%r10, 16(%r11)
	xorl	%eax, %eax
.LBB10_104:
	addq	$168, %rsp
	.cfi_def_cfa_offset 56
	popq	%rbx
	.cfi_def_cfa_offset 48
	popq	%r12
	.cfi_def_cfa_offset 40
	popq	%r13
	.cfi_def_cfa_offset 32
	popq	%r14
	.cfi_def_cfa_offset 24
	popq	%r15
	.cfi_def_cfa_offset 16
	popq	%rbp
	.cfi_def_cfa_offset 8
	vzeroupper
	retq
.LBB10_101:
	.cfi_def_cfa_offset 224
	movl	$1, %esi
	movq	%r11, %rdi
	movq	%r11, %rbx
	vzeroupper
	callq	"std_alloc::vec::Vec::grow_amortized::<#582fc6be45daf619>"
	movl	%eax, %ecx
	movb	$1, %al
	testb	%cl, %cl
	je	.LBB10_104
	movq	(%rbx), %r9
	movq	8(%rbx), %r14
	movq	16(%rbx), %r10
	movq	%rbx, %r11
	jmp	.LBB10_103
.Lfunc_end10:
	.size	"utf16_program::lines::append_counts::<#689013dfc86db972>", .Lfunc_end10-"utf16_program::lines::append_counts::<#689013dfc86db972>"
	.cfi_endproc

	.section	".text.utf16_units::text::count_few::<#8b18edd9dd9aa8df>","ax",@progbits
	.p2align	4
	.type	"utf16_units::text::count_few::<#8b18edd9dd9aa8df>",@function
"utf16_units::text::count_few::<#8b18edd9dd9aa8df>":
	.cfi_startproc
	xorl	%eax, %eax
	testq	%rsi, %rsi
	je	.LBB11_2
	.p2align	4
.LBB11_1:
	movzwl	(%rdi), %ecx
	andl	$252, %ecx
	xorl	%edx, %edx
	cmpl	$216, %ecx
	sete	%dl
	leaq	2(,%rdx,2), %rcx
	leaq	(%rdi,%rdx,2), %rdi
	addq	$2, %rdi
	incq	%rax
	subq	%rcx, %rsi
	jne	.LBB11_1
.LBB11_2:
	retq
.Lfunc_end11:
	.size	"utf16_units::text::count_few::<#8b18edd9dd9aa8df>", .Lfunc_end11-"utf16_units::text::count_few::<#8b18edd9dd9aa8df>"
	.cfi_endproc

	.section	.rodata.cst16,"aM",@progbits,16
	.p2align	4, 0x0
.LCPI12_0:
	.byte	108
	.byte	101
	.byte	97
	.byte	100
	.zero	1
	.zero	1
	.zero	1
	.zero	1
	.zero	1
	.zero	1
	.zero	1
	.zero	1
	.zero	1
	.zero	1
	.zero	1
	.zero	1
.LCPI12_1:
	.byte	116
	.byte	114
	.byte	97
	.byte	105
	.zero	1
	.zero	1
	.zero	1
	.zero	1
	.zero	1
	.zero	1
	.zero	1
	.zero	1
	.zero	1
	.zero	1
	.zero	1
	.zero	1
.LCPI12_2:
	.byte	105
	.byte	110
	.byte	103
	.byte	32
	.zero	1
	.zero	1
	.zero	1
	.zero	1
	.zero	1
	.zero	1
	.zero	1
	.zero	1
	.zero	1
	.zero	1
	.zero	1
	.zero	1
.LCPI12_3:
	.byte	108
	.byte	105
	.byte	110
	.byte	103
	.zero	1
	.zero	1
	.zero	1
	.zero	1
	.zero	1
	.zero	1
	.zero	1
	.zero	1
	.zero	1
	.zero	1
	.zero	1
	.zero	1
.LCPI12_4:
	.byte	115
	.byte	117
	.byte	114
	.byte	114
	.zero	1
	.zero	1
	.zero	1
	.zero	1
	.zero	1
	.zero	1
	.zero	1
	.zero	1
	.zero	1
	.zero	1
	.zero	1
	.zero	1
.LCPI12_5:
	.byte	32
	.byte	115
	.byte	117
	.byte	114
	.zero	1
	.zero	1
	.zero	1
	.zero	1
	.zero	1
	.zero	1
	.zero	1
	.zero	1
	.zero	1
	.zero	1
	.zero	1
	.zero	1
.LCPI12_6:
	.byte	116
	.byte	114
	.byte	97
	.byte	105
	.byte	0
	.byte	0
	.byte	0
	.byte	0
	.byte	0
	.byte	0
	.byte	0
	.byte	0
	.byte	0
	.byte	0
	.byte	0
	.byte	0
.LCPI12_7:
	.byte	108
	.byte	101
	.byte	97
	.byte	100
	.byte	0
	.byte	0
	.byte	0
	.byte	0
	.byte	0
	.byte	0
	.byte	0
	.byte	0
	.byte	0
	.byte	0
	.byte	0
	.byte	0
.LCPI12_8:
	.byte	108
	.byte	105
	.byte	110
	.byte	103
	.byte	0
	.byte	0
	.byte	0
	.byte	0
	.byte	0
	.byte	0
	.byte	0
	.byte	0
	.byte	0
	.byte	0
	.byte	0
	.byte	0
.LCPI12_9:
	.byte	115
	.byte	117
	.byte	114
	.byte	114
	.byte	0
	.byte	0
	.byte	0
	.byte	0
	.byte	0
	.byte	0
	.byte	0
	.byte	0
	.byte	0
	.byte	0
	.byte	0
	.byte	0
.LCPI12_10:
	.byte	105
	.byte	110
	.byte	103
	.byte	32
	.byte	0
	.byte	0
	.byte	0
	.byte	0
	.byte	0
	.byte	0
	.byte	0
	.byte	0
	.byte	0
	.byte	0
	.byte	0
	.byte	0
.LCPI12_11:
	.byte	32
	.byte	115
	.byte	117
	.byte	114
	.byte	0
	.byte	0
	.byte	0
	.byte	0
	.byte	0
	.byte	0
	.byte	0
	.byte	0
	.byte	0
	.byte	0
	.byte	0
	.byte	0
	.section	".text.utf16_program::lines::append_unpaired::<#689013dfc86db972>","ax",@progbits
	.p2align	4
	.type	"utf16_program::lines::append_unpaired::<#689013dfc86db972>",@function
"utf16_program::lines::append_unpaired::<#689013dfc86db972>":
	.cfi_startproc
	pushq	%rbp
	.cfi_def_cfa_offset 16
	pushq	%r15
	.cfi_def_cfa_offset 24
	pushq	%r14
	.cfi_def_cfa_offset 32
	pushq	%r13
	.cfi_def_cfa_offset 40
	pushq	%r12
	.cfi_def_cfa_offset 48
	pushq	%rbx
	.cfi_def_cfa_offset 56
	subq	$136, %rsp
	.cfi_def_cfa_offset 192
	.cfi_offset %rbx, -56
	.cfi_offset %r12, -48
	.cfi_offset %r13, -40
	.cfi_offset %r14, -32
	.cfi_offset %r15, -24
	.cfi_offset %rbp, -16
	vxorps	%xmm0, %xmm0, %xmm0
	vmovaps	%xmm0, 32(%rsp)
	vmovaps	%xmm0, 64(%rsp)
	movq	%rdx, %r11
	movq	%rdi, %rdx
	movq	$-5, %rcx
	leaq	80(%rsp), %r10
	xorl	%ebx, %ebx
	movq	%rdi, %rax
	.p2align	4
.LBB12_1:
	movl	%eax, %edi
	andl	$15, %edi
	leal	48(%rdi), %r8d
	leal	55(%rdi), %r9d
	cmpq	$10, %rdi
	movzbl	%r8b, %edi
	movzbl	%r9b, %r8d
	cmovbl	%edi, %r8d
	movb	%r8b, 79(%rsp,%rbx)
	shrq	$4, %rax
	decq	%rbx
	decq	%rcx
	testq	%rax, %rax
	jne	.LBB12_1
	movl	%esi, %eax
	andl	$64512, %eax
	xorl	%r15d, %r15d
	movl	%eax, 92(%rsp)
	cmpl	$55296, %eax
	leaq	.Lstatic.23(%rip), %rax
	leaq	.Lstatic.24(%rip), %rdi
	cmoveq	%rax, %rdi
	movq	%rdi, 16(%rsp)
	vxorps	%xmm0, %xmm0, %xmm0
	vmovups	%ymm0, 96(%rsp)
	sete	%r15b
	movq	$0, 128(%rsp)
	movl	$40, %ebp
	cmpq	$10000, %rdx
	jb	.LBB12_7
	.p2align	4
.LBB12_3:
	movabsq	$3777893186295716171, %rax
	mulxq	%rax, %rax, %rax
	shrq	$11, %rax
	imull	$10000, %eax, %edi
	movl	%edx, %r8d
	subl	%edi, %r8d
	imull	$5243, %r8d, %edi
	shrl	$19, %edi
	imull	$100, %edi, %r9d
	subl	%r9d, %r8d
	movzwl	%r8w, %r8d
	leaq	.Lstatic.18(%rip), %r9
	movzwl	(%r9,%r8,2), %r8d
	movw	%r8w, 94(%rsp,%rbp)
	movzwl	(%r9,%rdi,2), %edi
	movw	%di, 92(%rsp,%rbp)
	addq	$-4, %rbp
	cmpq	$99999999, %rdx
	movq	%rax, %rdx
	ja	.LBB12_3
	movq	%rbx, %rdx
	negq	%rdx
	cmpq	$99, %rax
	ja	.LBB12_8
.LBB12_5:
	cmpq	$9, %rax
	ja	.LBB12_10
	orb	$48, %al
	movb	%al, 95(%rsp,%rbp)
	decq	%rbp
	jmp	.LBB12_12
.LBB12_7:
	movq	%rdx, %rax
	movq	%rbx, %rdx
	negq	%rdx
	cmpq	$99, %rax
	jbe	.LBB12_5
.LBB12_8:
	movl	%eax, %edi
	shrl	$2, %edi
	movzwl	%di, %edi
	imull	$5243, %edi, %edi
	shrl	$17, %edi
	imull	$100, %edi, %r8d
	movl	%eax, %r9d
	subl	%r8d, %r9d
	movzwl	%r9w, %r9d
	leaq	.Lstatic.18(%rip), %r8
	movzwl	(%r8,%r9,2), %r9d
	movw	%r9w, 94(%rsp,%rbp)
	cmpq	$999, %rax
	ja	.LBB12_11
	orb	$48, %dil
	movb	%dil, 93(%rsp,%rbp)
	addq	$-3, %rbp
	jmp	.LBB12_12
.LBB12_10:
	leaq	.Lstatic.18(%rip), %rdi
	movzwl	(%rdi,%rax,2), %eax
	movw	%ax, 94(%rsp,%rbp)
	addq	$-2, %rbp
	jmp	.LBB12_12
.LBB12_11:
	movzwl	%di, %eax
	movzwl	(%r8,%rax,2), %eax
	movw	%ax, 92(%rsp,%rbp)
	addq	$-4, %rbp
.LBB12_12:
	leaq	(%r10,%rbx), %rax
	xorq	$31, %r15
	vxorps	%xmm0, %xmm0, %xmm0
	vmovaps	%xmm0, 32(%rsp)
	movzwl	%si, %edi
	xorl	%r13d, %r13d
	xorl	%esi, %esi
	.p2align	4
.LBB12_13:
	movl	%edi, %r8d
	andl	$15, %r8d
	leal	48(%r8), %r9d
	leal	55(%r8), %r10d
	cmpq	$10, %r8
	movzbl	%r9b, %r8d
	movzbl	%r10b, %r9d
	cmovbl	%r8d, %r9d
	movb	%r9b, 47(%rsp,%r13)
	shrq	$4, %rdi
	decq	%r13
	incq	%rsi
	testq	%rdi, %rdi
	jne	.LBB12_13
	movl	$40, %r12d
	subq	%rbp, %r12
	cmpq	%r12, %rcx
	movq	%r12, %rdi
	cmovbq	%rcx, %rdi
	movq	%rcx, %r8
	subq	%rdi, %r8
	cmpq	%r8, %r15
	cmovbq	%r15, %r8
	subq	%r8, %rcx
	addq	%rdi, %r8
	subq	%rdi, %rcx
	cmpq	%rcx, %rsi
	cmovbq	%rsi, %rcx
	addq	%r8, %rcx
	subq	%rbx, %rcx
	addq	$4, %rcx
	incq	%rcx
	movq	$-1, %rsi
	cmovneq	%rcx, %rsi
	movq	8(%r11), %r14
	movq	16(%r11), %r9
	movq	%r9, %rcx
	subq	%r14, %rcx
	cmpq	%rcx, %rsi
	movq	%r15, 24(%rsp)
	ja	.LBB12_69
.LBB12_15:
	movq	(%r11), %r8
	leaq	(%r8,%r14), %rcx
	addq	$2, %r14
	leaq	.Lstatic.15(%rip), %rsi
	movq	%rcx, %rdi
	subq	%rsi, %rdi
	cmpq	$2, %rdi
	movw	$30768, (%rcx)
	movq	%r8, (%r11)
	movq	%r14, 8(%r11)
	movq	%r9, 16(%r11)
	movq	%r9, %rcx
	subq	%r14, %rcx
	cmpq	%rcx, %rdx
	ja	.LBB12_73
.LBB12_16:
	movq	%r14, %r15
	subq	%rbx, %r15
	leaq	(%r8,%r14), %rdi
	movq	%rdi, %rcx
	subq	%rax, %rcx
	cmpq	%rdx, %rcx
	movq	%r11, 56(%rsp)
	jae	.LBB12_19
	cmpq	$4, %rdx
	jae	.LBB12_20
	xorl	%eax, %eax
	jmp	.LBB12_29
.LBB12_19:
	movq	%rax, %rsi
	movq	%r9, 8(%rsp)
	movq	%r8, 48(%rsp)
	vzeroupper
	callq	memcpy@PLT
	movq	48(%rsp), %r8
	movq	8(%rsp), %r9
	movq	56(%rsp), %r11
	jmp	.LBB12_31
.LBB12_20:
	cmpq	$32, %rdx
	movq	%r8, 48(%rsp)
	jae	.LBB12_22
	xorl	%eax, %eax
	jmp	.LBB12_26
.LBB12_22:
	movq	%rdx, %rax
	andq	$-32, %rax
	movq	%rdx, %rcx
	andq	$-32, %rcx
	xorl	%esi, %esi
	leaq	80(%rsp), %r10
	.p2align	4
.LBB12_23:
	leaq	(%r10,%rsi), %r8
	vmovups	(%rbx,%r8), %ymm0
	vmovups	%ymm0, (%rdi,%rsi)
	addq	$32, %rsi
	cmpq	%rsi, %rcx
	jne	.LBB12_23
	cmpq	%rax, %rdx
	movq	48(%rsp), %r8
	je	.LBB12_31
	testb	$28, %dl
	je	.LBB12_29
.LBB12_26:
	movq	%rax, %rcx
	movq	%rdx, %rax
	andq	$-4, %rax
	movq	%rdx, %rsi
	andq	$-4, %rsi
	leaq	80(%rsp), %r10
	.p2align	4
.LBB12_27:
	leaq	(%r10,%rcx), %r8
	movl	(%rbx,%r8), %r8d
	movl	%r8d, (%rdi,%rcx)
	addq	$4, %rcx
	cmpq	%rcx, %rsi
	jne	.LBB12_27
	cmpq	%rax, %rdx
	movq	48(%rsp), %r8
	je	.LBB12_31
.LBB12_29:
	leaq	(%rax,%rbx), %rcx
	negq	%rcx
	leaq	(%rax,%r14), %rdx
	addq	%r8, %rdx
	leaq	64(%rsp), %rsi
	addq	%rsi, %rax
	addq	$16, %rax
	xorl	%esi, %esi
	.p2align	4
.LBB12_30:
	leaq	(%rax,%rsi), %rdi
	movzbl	(%rbx,%rdi), %edi
	movb	%dil, (%rdx,%rsi)
	incq	%rsi
	cmpq	%rsi, %rcx
	jne	.LBB12_30
.LBB12_31:
	movq	%r8, (%r11)
	movq	%r15, 8(%r11)
	movq	%r9, 16(%r11)
	movq	%r9, %rax
	subq	%r14, %rax
	addq	%rbx, %rax
	cmpq	$1, %rax
	jbe	.LBB12_82
.LBB12_32:
	leaq	(%r8,%r15), %rax
	addq	$2, %r15
	leaq	.Lstatic.16(%rip), %rcx
	movq	%rax, %rdx
	subq	%rcx, %rdx
	cmpq	$2, %rdx
	movw	$10272, (%rax)
	movq	%r8, (%r11)
	movq	%r15, 8(%r11)
	movq	%r9, 16(%r11)
	movq	%r9, %rax
	subq	%r15, %rax
	cmpq	%rax, %r12
	ja	.LBB12_84
.LBB12_33:
	leaq	(%rsp,%rbp), %rsi
	addq	$96, %rsi
	leaq	(%r15,%r12), %rbx
	leaq	(%r8,%r15), %rdi
	movq	%rdi, %rax
	subq	%rsi, %rax
	cmpq	%r12, %rax
	movq	%r9, 8(%rsp)
	jae	.LBB12_38
	cmpq	$8, %r12
	jb	.LBB12_36
	leaq	96(%rsp), %rcx
	movq	%rdi, %rdx
	subq	%rbp, %rdx
	subq	%rcx, %rdx
	cmpq	$128, %rdx
	jae	.LBB12_46
.LBB12_36:
	xorl	%eax, %eax
	movq	24(%rsp), %rdx
	movq	16(%rsp), %r10
	movq	%rbx, %r15
	.p2align	4
.LBB12_37:
	movzbl	(%rsi,%rax), %ecx
	movb	%cl, (%rdi,%rax)
	incq	%rax
	cmpq	%rax, %r12
	jne	.LBB12_37
	jmp	.LBB12_39
.LBB12_38:
	movq	%r12, %rdx
	movq	%r8, %r14
	vzeroupper
	callq	memmove@PLT
	movq	%r14, %r8
	movq	56(%rsp), %r11
	movq	24(%rsp), %rdx
	movq	16(%rsp), %r10
	movq	%rbx, %r15
.LBB12_39:
	movq	%r8, (%r11)
	movq	%r15, 8(%r11)
	movq	8(%rsp), %rax
	movq	%rax, 16(%r11)
	movq	%rax, %r14
	subq	%r15, %rax
	cmpq	%rax, %rdx
	ja	.LBB12_103
.LBB12_40:
	movq	%r13, %r12
	negq	%r12
	leaq	8(%r11), %rax
	vxorps	%xmm0, %xmm0, %xmm0
	vmovups	%xmm0, (%rax)
	leaq	(%r15,%rdx), %rbx
	leaq	(%r8,%r15), %rdi
	movq	%rdi, %rax
	subq	%r10, %rax
	cmpq	%rdx, %rax
	jae	.LBB12_43
	cmpq	$7, %rax
	ja	.LBB12_44
	movq	%r8, %rbp
	xorl	%ecx, %ecx
	leaq	48(%rsp), %r9
	jmp	.LBB12_55
.LBB12_43:
	movq	%r10, %rsi
	movq	%r8, %rbp
	vzeroupper
	callq	memcpy@PLT
	movq	56(%rsp), %r11
	leaq	48(%rsp), %r9
	jmp	.LBB12_60
.LBB12_44:
	movzwl	92(%rsp), %eax
	vmovd	(%r10), %xmm0
	cmpl	$55296, %eax
	leaq	48(%rsp), %r9
	je	.LBB12_48
	vmovd	.LCPI12_6(%rip), %xmm1
	jmp	.LBB12_49
.LBB12_46:
	cmpq	$128, %r12
	jae	.LBB12_75
	xorl	%eax, %eax
	movq	24(%rsp), %rdx
	movq	16(%rsp), %r10
	movq	%rbx, %r15
	jmp	.LBB12_79
.LBB12_48:
	vmovd	.LCPI12_7(%rip), %xmm1
.LBB12_49:
	vpbroadcastd	%xmm1, %xmm1
	movl	$543450482, %eax
	vmovd	%eax, %xmm2
	vpbroadcastd	%xmm2, %xmm2
	vpunpckldq	%xmm1, %xmm2, %xmm1
	movl	$1767993454, %eax
	vmovd	%eax, %xmm2
	vpunpckldq	%xmm2, %xmm0, %xmm0
	vpblendd	$12, %xmm1, %xmm0, %xmm0
	vmovdqu	%xmm0, (%rdi)
	je	.LBB12_52
	vmovss	.LCPI12_8(%rip), %xmm0
	jne	.LBB12_53
.LBB12_51:
	vmovss	.LCPI12_9(%rip), %xmm1
	jmp	.LBB12_54
.LBB12_52:
	vmovss	.LCPI12_10(%rip), %xmm0
	je	.LBB12_51
.LBB12_53:
	vmovss	.LCPI12_11(%rip), %xmm1
.LBB12_54:
	movq	%r8, %rbp
	vmovss	%xmm0, 16(%rdi)
	vmovss	%xmm1, 20(%rdi)
	movl	$24, %ecx
.LBB12_55:
	movl	%edx, %r8d
	andl	$7, %r8d
	movq	%rcx, %rax
	.p2align	4
.LBB12_56:
	movzbl	(%r10,%rax), %esi
	movb	%sil, (%rdi,%rax)
	incq	%rax
	decq	%r8
	jne	.LBB12_56
	subl	%edx, %ecx
	cmpl	$-8, %ecx
	ja	.LBB12_60
	leaq	(%r15,%rbp), %rcx
	addq	$7, %rcx
	.p2align	4
.LBB12_59:
	movq	(%r10,%rax), %rsi
	movq	%rsi, -7(%rcx,%rax)
	addq	$8, %rax
	cmpq	%rax, %rdx
	jne	.LBB12_59
.LBB12_60:
	movq	%rbp, (%r11)
	movq	%rbx, 8(%r11)
	movq	%r14, %r10
	movq	%r14, 16(%r11)
	movq	%r14, %rax
	subq	%rbx, %rax
	cmpq	%rax, %r12
	ja	.LBB12_105
.LBB12_61:
	leaq	(%rsp,%r13), %rsi
	addq	$48, %rsi
	movq	%rbx, %r14
	subq	%r13, %r14
	movq	%rbx, %r15
	subq	%r10, %r15
	leaq	(%rbx,%rbp), %rdi
	movq	%rdi, %rax
	subq	%rsi, %rax
	cmpq	%r12, %rax
	jae	.LBB12_64
	cmpq	$4, %r12
	jb	.LBB12_63
	leaq	32(%rsp), %rax
	movq	%rdi, %rcx
	subq	%rax, %rcx
	subq	%r13, %rcx
	addq	$-16, %rcx
	cmpq	$32, %rcx
	jae	.LBB12_67
.LBB12_63:
	xorl	%eax, %eax
.LBB12_93:
	leaq	(%rax,%r13), %rcx
	movl	%ecx, %edx
	negl	%edx
	notq	%rcx
	testb	$7, %dl
	je	.LBB12_97
	movq	%rax, %rdx
	negq	%rdx
	leaq	(%rax,%rbx), %rsi
	addq	%rbp, %rsi
	subb	%al, %r12b
	movzbl	%r12b, %edi
	andl	$7, %edi
	addq	%rax, %r9
	xorl	%eax, %eax
	.p2align	4
.LBB12_95:
	leaq	(%r9,%rax), %r8
	movzbl	(%r13,%r8), %r8d
	movb	%r8b, (%rsi,%rax)
	incq	%rax
	decq	%rdx
	cmpq	%rax, %rdi
	jne	.LBB12_95
	negq	%rdx
	movq	%rdx, %rax
.LBB12_97:
	cmpq	$7, %rcx
	jb	.LBB12_100
	leaq	(%rax,%r13), %rcx
	negq	%rcx
	addq	%rax, %rbx
	leaq	(%rbx,%rbp), %rdx
	addq	$7, %rdx
	leaq	32(%rsp), %rsi
	addq	%rsi, %rax
	addq	$23, %rax
	xorl	%esi, %esi
	.p2align	4
.LBB12_99:
	leaq	(%rax,%rsi), %rdi
	movzbl	-7(%r13,%rdi), %r8d
	movb	%r8b, -7(%rdx,%rsi)
	movzbl	-6(%r13,%rdi), %r8d
	movb	%r8b, -6(%rdx,%rsi)
	movzbl	-5(%r13,%rdi), %r8d
	movb	%r8b, -5(%rdx,%rsi)
	movzbl	-4(%r13,%rdi), %r8d
	movb	%r8b, -4(%rdx,%rsi)
	movzbl	-3(%r13,%rdi), %r8d
	movb	%r8b, -3(%rdx,%rsi)
	movzbl	-2(%r13,%rdi), %r8d
	movb	%r8b, -2(%rdx,%rsi)
	movzbl	-1(%r13,%rdi), %r8d
	movb	%r8b, -1(%rdx,%rsi)
	movzbl	(%r13,%rdi), %edi
	movb	%dil, (%rdx,%rsi)
	addq	$8, %rsi
	cmpq	%rsi, %rcx
	jne	.LBB12_99
	jmp	.LBB12_100
.LBB12_64:
	movq	%r12, %rdx
	movq	%r10, %rbx
	vzeroupper
	callq	memmove@PLT
	movq	%rbx, %r10
	movq	56(%rsp), %r11
.LBB12_100:
	movq	%rbp, (%r11)
	movq	%r14, 8(%r11)
	movq	%r10, 16(%r11)
	cmpq	%r13, %r15
	je	.LBB12_107
.LBB12_101:
	movb	$10, (%rbp,%r14)
	incq	%r14
	movq	%rbp, (%r11)
	movq	%r14, 8(%r11)
	movq	%r10, 16(%r11)
	xorl	%eax, %eax
.LBB12_102:
	addq	$136, %rsp
	.cfi_def_cfa_offset 56
	popq	%rbx
	.cfi_def_cfa_offset 48
	popq	%r12
	.cfi_def_cfa_offset 40
	popq	%r13
	.cfi_def_cfa_offset 32
	popq	%r14
	.cfi_def_cfa_offset 24
	popq	%r15
	.cfi_def_cfa_offset 16
	popq	%rbp
	.cfi_def_cfa_offset 8
	vzeroupper
	retq
.LBB12_67:
	.cfi_def_cfa_offset 192
	cmpq	$32, %r12
	jae	.LBB12_86
	xorl	%eax, %eax
	jmp	.LBB12_90
.LBB12_69:
	movq	%rdx, 8(%rsp)
	movq	%r11, %rdi
	movq	%r11, %r15
	vzeroupper
	callq	"std_alloc::vec::Vec::grow_amortized::<#582fc6be45daf619>"
	movl	%eax, %ecx
	movb	$1, %al
	testb	%cl, %cl
	je	.LBB12_102
	movq	8(%r15), %r14
	movq	16(%r15), %r9
	movq	%r9, %rax
	subq	%r14, %rax
	cmpq	$1, %rax
	movq	8(%rsp), %rdx
	leaq	80(%rsp), %rax
	leaq	(%rax,%rbx), %rax
	movq	%r15, %r11
	ja	.LBB12_15
	movl	$2, %esi
	movq	%r11, %rdi
	movq	%r11, %r15
	callq	"std_alloc::vec::Vec::grow_amortized::<#582fc6be45daf619>"
	testb	%al, %al
	movb	$1, %al
	je	.LBB12_102
	movq	8(%r15), %r14
	movq	16(%r15), %r9
	movq	8(%rsp), %rdx
	leaq	80(%rsp), %rax
	addq	%rbx, %rax
	movq	%r15, %r11
	jmp	.LBB12_15
.LBB12_73:
	movq	%r11, %rdi
	movq	%rdx, 8(%rsp)
	movq	%rdx, %rsi
	movq	%r11, %r15
	vzeroupper
	callq	"std_alloc::vec::Vec::grow_amortized::<#582fc6be45daf619>"
	movl	%eax, %ecx
	movb	$1, %al
	testb	%cl, %cl
	je	.LBB12_102
	movq	(%r15), %r8
	movq	8(%r15), %r14
	movq	16(%r15), %r9
	movq	8(%rsp), %rdx
	leaq	80(%rsp), %rax
	addq	%rbx, %rax
	movq	%r15, %r11
	jmp	.LBB12_16
.LBB12_75:
	movq	%r12, %rax
	andq	$-128, %rax
	addq	%rbp, %rcx
	addq	$96, %rcx
	movq	%r8, %r9
	leaq	(%r15,%r8), %rdx
	addq	$96, %rdx
	xorl	%r8d, %r8d
	.p2align	4
.LBB12_76:
	vmovups	-96(%rcx,%r8), %ymm0
	vmovups	-64(%rcx,%r8), %ymm1
	vmovdqu	-32(%rcx,%r8), %ymm2
	vmovups	(%rcx,%r8), %ymm3
	vmovups	%ymm0, -96(%rdx,%r8)
	vmovups	%ymm1, -64(%rdx,%r8)
	vmovdqu	%ymm2, -32(%rdx,%r8)
	vmovups	%ymm3, (%rdx,%r8)
	subq	$-128, %r8
	cmpq	%r8, %rax
	jne	.LBB12_76
	cmpq	%rax, %r12
	movq	24(%rsp), %rdx
	movq	16(%rsp), %r10
	movq	%r9, %r8
	movq	%rbx, %r15
	je	.LBB12_39
	testb	$120, %r12b
	je	.LBB12_37
.LBB12_79:
	movq	%r8, %r9
	movq	%rax, %rcx
	movq	%r12, %rax
	andq	$-8, %rax
	.p2align	4
.LBB12_80:
	movq	(%rsi,%rcx), %r8
	movq	%r8, (%rdi,%rcx)
	addq	$8, %rcx
	cmpq	%rcx, %rax
	jne	.LBB12_80
	cmpq	%rax, %r12
	movq	%r9, %r8
	jne	.LBB12_37
	jmp	.LBB12_39
.LBB12_82:
	movl	$2, %esi
	movq	%r11, %rdi
	movq	%r11, %rbx
	vzeroupper
	callq	"std_alloc::vec::Vec::grow_amortized::<#582fc6be45daf619>"
	movl	%eax, %ecx
	movb	$1, %al
	testb	%cl, %cl
	je	.LBB12_102
	movq	(%rbx), %r8
	movq	8(%rbx), %r15
	movq	16(%rbx), %r9
	movq	%rbx, %r11
	jmp	.LBB12_32
.LBB12_84:
	movq	%r11, %rdi
	movq	%r12, %rsi
	movq	%r11, %rbx
	vzeroupper
	callq	"std_alloc::vec::Vec::grow_amortized::<#582fc6be45daf619>"
	movl	%eax, %ecx
	movb	$1, %al
	testb	%cl, %cl
	je	.LBB12_102
	movq	(%rbx), %r8
	movq	8(%rbx), %r15
	movq	16(%rbx), %r9
	movq	%rbx, %r11
	jmp	.LBB12_33
.LBB12_86:
	movq	%r12, %rax
	andq	$-32, %rax
	movq	%r12, %rcx
	andq	$-32, %rcx
	xorl	%edx, %edx
	.p2align	4
.LBB12_87:
	leaq	(%r9,%rdx), %rsi
	vmovups	(%r13,%rsi), %ymm0
	vmovups	%ymm0, (%rdi,%rdx)
	addq	$32, %rdx
	cmpq	%rdx, %rcx
	jne	.LBB12_87
	cmpq	%rax, %r12
	je	.LBB12_100
	testb	$28, %r12b
	je	.LBB12_93
.LBB12_90:
	movq	%rax, %rcx
	movq	%r12, %rax
	andq	$-4, %rax
	movq	%r12, %rdx
	andq	$-4, %rdx
	.p2align	4
.LBB12_91:
	leaq	(%r9,%rcx), %rsi
	movl	(%r13,%rsi), %esi
	movl	%esi, (%rdi,%rcx)
	addq	$4, %rcx
	cmpq	%rcx, %rdx
	jne	.LBB12_91
	cmpq	%rax, %r12
	je	.LBB12_100
	jmp	.LBB12_93
.LBB12_103:
	movq	%r11, %rdi
	movq	%rdx, %rsi
	movq	%r11, %rbx
	vzeroupper
	callq	"std_alloc::vec::Vec::grow_amortized::<#582fc6be45daf619>"
	movl	%eax, %ecx
	movb	$1, %al
	testb	%cl, %cl
	je	.LBB12_102
	movq	(%rbx), %r8
	movq	8(%rbx), %r15
	movq	16(%rbx), %r14
	movq	%rbx, %r11
	movq	24(%rsp), %rdx
	movq	16(%rsp), %r10
	jmp	.LBB12_40
.LBB12_105:
	movq	%r11, %rdi
	movq	%r12, %rsi
	movq	%r11, %r14
	vzeroupper
	callq	"std_alloc::vec::Vec::grow_amortized::<#582fc6be45daf619>"
	movl	%eax, %ecx
	movb	$1, %al
	testb	%cl, %cl
	je	.LBB12_102
	movq	(%r14), %rbp
	movq	8(%r14), %rbx
	movq	16(%r14), %r10
	movq	%r14, %r11
	leaq	48(%rsp), %r9
	jmp	.LBB12_61
.LBB12_107:
	movl	$1, %esi
	movq	%r11, %rdi
	movq	%r11, %rbx
	vzeroupper
	callq	"std_alloc::vec::Vec::grow_amortized::<#582fc6be45daf619>"
	movl	%eax, %ecx
	movb	$1, %al
	testb	%cl, %cl
	je	.LBB12_102
	movq	(%rbx), %rbp
	movq	8(%rbx), %r14
	movq	16(%rbx), %r10
	movq	%rbx, %r11
	jmp	.LBB12_101
.Lfunc_end12:
	.size	"utf16_program::lines::append_unpaired::<#689013dfc86db972>", .Lfunc_end12-"utf16_program::lines::append_unpaired::<#689013dfc86db972>"
	.cfi_endproc

	.section	".text.utf16_units::text::count_few::<#418c2b53cf60437c>","ax",@progbits
	.p2align	4
	.type	"utf16_units::text::count_few::<#418c2b53cf60437c>",@function
"utf16_units::text::count_few::<#418c2b53cf60437c>":
	.cfi_startproc
	xorl	%eax, %eax
	testq	%rsi, %rsi
	je	.LBB13_2
	.p2align	4
.LBB13_1:
	movzbl	1(%rdi), %ecx
	andb	$-4, %cl
	xorl	%edx, %edx
	cmpb	$-40, %cl
	sete	%dl
	leaq	2(,%rdx,2), %rcx
	leaq	(%rdi,%rdx,2), %rdi
	addq	$2, %rdi
	incq	%rax
	subq	%rcx, %rsi
	jne	.LBB13_1
.LBB13_2:
	retq
.Lfunc_end13:
	.size	"utf16_units::text::count_few::<#418c2b53cf60437c>", .Lfunc_end13-"utf16_units::text::count_few::<#418c2b53cf60437c>"
	.cfi_endproc

	.section	.rodata.cst16,"aM",@progbits,16
	.p2align	4, 0x0
.LCPI14_0:
	.byte	116
	.byte	104
	.byte	105
	.byte	115
	.byte	32
	.byte	109
	.byte	97
	.byte	99
	.byte	104
	.byte	105
	.byte	110
	.byte	101
	.byte	32
	.byte	108
	.byte	97
	.byte	99
.LCPI14_1:
	.byte	107
	.byte	115
	.byte	32
	.byte	97
	.byte	32
	.byte	102
	.byte	101
	.byte	97
	.byte	116
	.byte	117
	.byte	114
	.byte	101
	.byte	32
	.byte	111
	.byte	102
	.byte	32
.LCPI14_2:
	.byte	120
	.byte	56
	.byte	54
	.byte	45
	.byte	54
	.byte	52
	.byte	45
	.byte	118
	.byte	51
	.byte	44
	.byte	32
	.byte	119
	.byte	104
	.byte	105
	.byte	99
	.byte	104
.LCPI14_3:
	.byte	32
	.byte	116
	.byte	104
	.byte	105
	.byte	115
	.byte	32
	.byte	112
	.byte	114
	.byte	111
	.byte	103
	.byte	114
	.byte	97
	.byte	109
	.byte	32
	.byte	119
	.byte	97
.LCPI14_4:
	.byte	115
	.byte	32
	.byte	98
	.byte	117
	.byte	105
	.byte	108
	.byte	116
	.byte	32
	.byte	102
	.byte	111
	.byte	114
	.byte	58
	.byte	32
	.byte	114
	.byte	117
	.byte	110
.LCPI14_5:
	.byte	32
	.byte	105
	.byte	116
	.byte	32
	.byte	111
	.byte	110
	.byte	32
	.byte	97
	.byte	110
	.byte	111
	.byte	116
	.byte	104
	.byte	101
	.byte	114
	.byte	32
	.byte	109
.LCPI14_6:
	.byte	97
	.byte	99
	.byte	104
	.byte	105
	.byte	110
	.byte	101
	.byte	44
	.byte	32
	.byte	111
	.byte	114
	.byte	32
	.byte	98
	.byte	117
	.byte	105
	.byte	108
	.byte	100
.LCPI14_7:
	.byte	32
	.byte	105
	.byte	116
	.byte	32
	.byte	119
	.byte	105
	.byte	116
	.byte	104
	.byte	32
	.byte	45
	.byte	45
	.byte	99
	.byte	112
	.byte	117
	.byte	32
	.byte	120
	.section	.text.main,"ax",@progbits
	.globl	proved_main_v3
	.hidden	proved_main_v3
	.p2align	4
	.type	proved_main_v3,@function
proved_main_v3:
	.cfi_startproc
	pushq	%rbp
	.cfi_def_cfa_offset 16
	.cfi_offset %rbp, -16
	movq	%rsp, %rbp
	.cfi_def_cfa_register %rbp
	pushq	%r14
	pushq	%rbx
	.cfi_offset %rbx, -32
	.cfi_offset %r14, -24
	movl	$1, %esi
	movl	$13, %edi
	callq	__sysv_signal@PLT
	xorl	%edi, %edi
	callq	__x86_get_cpuid_feature_leaf@PLT
	movl	24(%rax), %ebx
	notl	%ebx
	andl	$9970177, %ebx
	movl	$2, %edi
	callq	__x86_get_cpuid_feature_leaf@PLT
	movl	24(%rax), %r14d
	notl	%r14d
	andl	$1, %r14d
	orl	%ebx, %r14d
	xorl	%edi, %edi
	callq	__x86_get_cpuid_feature_leaf@PLT
	movl	$809504768, %ebx
	andl	24(%rax), %ebx
	orl	%r14d, %ebx
	movl	$1, %edi
	callq	__x86_get_cpuid_feature_leaf@PLT
	movl	$296, %r14d
	andl	20(%rax), %r14d
	orl	%ebx, %r14d
	movl	$2, %edi
	callq	__x86_get_cpuid_feature_leaf@PLT
	cmpl	$809505064, %r14d
	jne	.LBB14_2
	movl	24(%rax), %eax
	andl	$32, %eax
	je	.LBB14_2
	leaq	-16(%rbp), %rsp
	popq	%rbx
	popq	%r14
	popq	%rbp
	.cfi_def_cfa %rsp, 8
	jmp	"utf16_check::main+start"
.LBB14_2:
	.cfi_def_cfa %rbp, 16
	movq	%rsp, %rsi
	subq	$144, %rsi
	cmpq	%rsp, %rsi
	jge	.LBB14_5
.LBB14_4:
	xorq	$0, (%rsp)
	subq	$3072, %rsp
	cmpq	%rsp, %rsi
	jl	.LBB14_4
.LBB14_5:
	movq	%rsi, %rsp
	movaps	.LCPI14_0(%rip), %xmm0
	movaps	%xmm0, (%rsi)
	movaps	.LCPI14_1(%rip), %xmm0
	movaps	%xmm0, 16(%rsi)
	movaps	.LCPI14_2(%rip), %xmm0
	movaps	%xmm0, 32(%rsi)
	movaps	.LCPI14_3(%rip), %xmm0
	movaps	%xmm0, 48(%rsi)
	movaps	.LCPI14_4(%rip), %xmm0
	movaps	%xmm0, 64(%rsi)
	movaps	.LCPI14_5(%rip), %xmm0
	movaps	%xmm0, 80(%rsi)
	movaps	.LCPI14_6(%rip), %xmm0
	movaps	%xmm0, 96(%rsi)
	movaps	.LCPI14_7(%rip), %xmm0
	movaps	%xmm0, 112(%rsi)
	movl	$908932664, 128(%rsi)
	movw	$2612, 132(%rsi)
	movl	$134, %edx
	movl	$2, %edi
	callq	__write@PLT
	movl	$127, %eax
	leaq	-16(%rbp), %rsp
	popq	%rbx
	popq	%r14
	popq	%rbp
	.cfi_def_cfa %rsp, 8
	retq
.Lfunc_end14:
	.size	proved_main_v3, .Lfunc_end14-proved_main_v3
	.cfi_endproc

	.type	.Lstatic.15,@object
	.section	.rodata..Lstatic.15,"a",@progbits
.Lstatic.15:
	.ascii	"0x"
	.size	.Lstatic.15, 2

	.type	.Lstatic.16,@object
	.section	.rodata..Lstatic.16,"a",@progbits
.Lstatic.16:
	.ascii	" ("
	.size	.Lstatic.16, 2

	.type	.Lstatic.17,@object
	.section	.rodata..Lstatic.17,"a",@progbits
.Lstatic.17:
	.ascii	"): incomplete character\n"
	.size	.Lstatic.17, 24

	.type	.Lstatic.18,@object
	.section	.rodata..Lstatic.18,"a",@progbits
.Lstatic.18:
	.ascii	"00010203040506070809101112131415161718192021222324252627282930313233343536373839404142434445464748495051525354555657585960616263646566676869707172737475767778798081828384858687888990919293949596979899"
	.size	.Lstatic.18, 200

	.type	.Lstatic.19,@object
	.section	.rodata..Lstatic.19,"a",@progbits
.Lstatic.19:
	.ascii	"bytes: "
	.size	.Lstatic.19, 7

	.type	.Lstatic.20,@object
	.section	.rodata..Lstatic.20,"a",@progbits
.Lstatic.20:
	.ascii	", characters: "
	.size	.Lstatic.20, 14

	.type	.Lstatic.21,@object
	.section	.rodata..Lstatic.21,"a",@progbits
.Lstatic.21:
	.ascii	", ill-formed: "
	.size	.Lstatic.21, 14

	.type	.Lstatic.23,@object
	.section	.rodata..Lstatic.23,"a",@progbits
.Lstatic.23:
	.ascii	"): unpaired leading surrogate "
	.size	.Lstatic.23, 30

	.type	.Lstatic.24,@object
	.section	.rodata..Lstatic.24,"a",@progbits
.Lstatic.24:
	.ascii	"): unpaired trailing surrogate "
	.size	.Lstatic.24, 31

	.type	.Lstatic.25,@object
	.section	.rodata..Lstatic.25,"a",@progbits
.Lstatic.25:
	.ascii	"usage: "
	.size	.Lstatic.25, 7

	.type	.Lstatic.26,@object
	.section	.rodata..Lstatic.26,"a",@progbits
.Lstatic.26:
	.ascii	": read failed\n"
	.size	.Lstatic.26, 14

	.type	.Lstatic.27,@object
	.section	.rodata..Lstatic.27,"a",@progbits
.Lstatic.27:
	.ascii	": write failed\n"
	.size	.Lstatic.27, 15

	.type	.Lstatic.28,@object
	.section	.rodata.cst16,"aM",@progbits,16
.Lstatic.28:
	.ascii	": out of memory\n"
	.size	.Lstatic.28, 16

	.type	.Lstatic.29,@object
	.section	.rodata..Lstatic.29,"a",@progbits
.Lstatic.29:
	.ascii	": input too long\n"
	.size	.Lstatic.29, 17

	.type	.Lstatic.30,@object
	.section	.rodata..Lstatic.30,"a",@progbits
.Lstatic.30:
	.ascii	" le|be|auto\n"
	.size	.Lstatic.30, 12

	.type	.Lstatic.34,@object
	.section	.rodata..Lstatic.34,"a",@progbits
.Lstatic.34:
	.ascii	"utf16_check"
	.size	.Lstatic.34, 11

	.ident	"rattle logic=dac8208d650f15bf3e2dc313a14fa4c783a3acf887bdfab66e1714b038d9e11b"
	.section	".note.GNU-stack","",@progbits

/* A GNU property that names CET. */
	.section	.note.gnu.property,"a",@note
	.p2align	3
	.long	4, 16, 5
	.asciz	"GNU"
	.long	0xc0000002, 4, 3, 0
