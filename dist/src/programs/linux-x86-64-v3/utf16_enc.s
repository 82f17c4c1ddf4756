/* SPDX-License-Identifier: MIT OR Apache-2.0
 * utf16_enc 0.2.0, as assembly for Linux on x86-64-v3. packaging/assembly
 * wrote it from the code that rt proved in logic dac8208d650f15bf: do not edit it. */
	.section	".text.utf16_enc::main+start","ax",@progbits
	.p2align	4
	.type	"utf16_enc::main+start",@function
"utf16_enc::main+start":
	.cfi_startproc
	pushq	%rbp
	.cfi_def_cfa_offset 16
	pushq	%r15
	.cfi_def_cfa_offset 24
	pushq	%r14
	.cfi_def_cfa_offset 32
	pushq	%r13
	.cfi_def_cfa_offset 40
	pushq	%r12
	.cfi_def_cfa_offset 48
	pushq	%rbx
	.cfi_def_cfa_offset 56
	subq	$168, %rsp
	.cfi_def_cfa_offset 224
	.cfi_offset %rbx, -56
	.cfi_offset %r12, -48
	.cfi_offset %r13, -40
	.cfi_offset %r14, -32
	.cfi_offset %r15, -24
	.cfi_offset %rbp, -16
	movq	$0, 72(%rsp)
	leaq	8(%rsp), %rax
	movq	%rax, 48(%rsp)
	movq	%rax, 24(%rsp)
	vxorps	%xmm0, %xmm0, %xmm0
	vmovups	%xmm0, 32(%rsp)
	movq	$0, 64(%rsp)
	xorl	%edx, %edx
	movq	$0, 16(%rsp)
.LBB0_1:
	movq	%rdx, 56(%rsp)
	movl	$256, %r15d
	movl	$64, %r14d
	jmp	.LBB0_3
	.p2align	4
.LBB0_2:
	movq	%r15, %rax
	addq	%r15, %rax
	movq	$-1, %r15
	cmovaeq	%rax, %r15
	decl	%r14d
	je	.LBB0_61
.LBB0_3:
	leaq	8(%rsp), %r12
	movq	%r12, 80(%rsp)
	vxorps	%xmm0, %xmm0, %xmm0
	leaq	88(%rsp), %rax
	vmovups	%xmm0, (%rax)
	testq	%r15, %r15
	jne	.LBB0_8
	xorl	%ebp, %ebp
	xorl	%r13d, %r13d
.LBB0_5:
	movq	16(%rsp), %rdi
	movq	%r12, %rsi
	movq	%r13, %rdx
	callq	rattle_arg@PLT
	movq	%rax, %rbx
	cmpq	$-1, %rax
	movl	$22, %eax
	movl	$36, %edi
	cmovel	%eax, %edi
	testq	%rbx, %rbx
	cmovnsl	%ebp, %edi
	callq	rattle_set_errno@PLT
	callq	rattle_errno@PLT
	cmpl	$36, %eax
	jne	.LBB0_11
	cmpq	$0, 96(%rsp)
	je	.LBB0_2
	movq	%r12, %rdi
	callq	rattle_dealloc@PLT
	jmp	.LBB0_2
.LBB0_8:
	leaq	80(%rsp), %rdi
	movq	%r15, %rsi
	callq	"std_alloc::vec::Vec::grow_amortized::<#673fbaf82d7b1088>"
	testb	%al, %al
	je	.LBB0_59
	movq	80(%rsp), %r12
	movq	88(%rsp), %rdi
	leaq	(%rdi,%r15), %r13
	xorl	%ebp, %ebp
	cmpq	%r13, %rdi
	jae	.LBB0_5
	addq	%r12, %rdi
	xorl	%esi, %esi
	movq	%r15, %rdx
	callq	memset@PLT
	jmp	.LBB0_5
	.p2align	4
.LBB0_11:
	testl	%eax, %eax
	jne	.LBB0_17
	cmpq	%r13, %rbx
	cmovbq	%rbx, %r13
	xorl	%r15d, %r15d
	testq	%rbx, %rbx
	cmovgq	%r13, %r15
	movq	96(%rsp), %rbx
	vxorps	%xmm0, %xmm0, %xmm0
	vmovaps	%xmm0, 80(%rsp)
	movq	$0, 96(%rsp)
	leaq	80(%rsp), %r13
	movq	%r13, %rdi
	movq	%r12, %rsi
	movq	%r15, %rdx
	callq	"core::str::utf8::from_utf8"
	cmpb	$1, 80(%rsp)
	je	.LBB0_99
	movq	56(%rsp), %rdx
	cmpq	%rdx, 40(%rsp)
	je	.LBB0_15
.LBB0_14:
	leaq	(%rdx,%rdx,2), %rax
	movq	48(%rsp), %rcx
	movq	%r12, (%rcx,%rax,8)
	movq	%r15, 8(%rcx,%rax,8)
	movq	%rbx, 16(%rcx,%rax,8)
	incq	%rdx
	movq	%rdx, 32(%rsp)
	movq	16(%rsp), %rcx
	incq	%rcx
	movq	%rcx, 16(%rsp)
	cmpq	$-1, %rcx
	jne	.LBB0_1
	jmp	.LBB0_20
.LBB0_15:
	leaq	24(%rsp), %r13
	movq	%r13, %rdi
	callq	"std_alloc::vec::Vec::grow_amortized::<#9a72e5f6858642ac>"
	testb	%al, %al
	je	.LBB0_108
	movq	24(%rsp), %rax
	movq	%rax, 48(%rsp)
	movq	32(%rsp), %rdx
	jmp	.LBB0_14
.LBB0_17:
	cmpq	$0, 96(%rsp)
	je	.LBB0_19
	movq	%r12, %rdi
	callq	rattle_dealloc@PLT
.LBB0_19:
	movq	56(%rsp), %rdx
.LBB0_20:
	movq	24(%rsp), %r14
	movq	40(%rsp), %r13
	testq	%rdx, %rdx
	je	.LBB0_23
	movq	(%r14), %rdi
	movq	16(%r14), %rbx
	cmpq	$1, %rdx
	jne	.LBB0_24
	xorl	%ebp, %ebp
	xorl	%r15d, %r15d
	xorl	%r12d, %r12d
	movq	$0, 16(%rsp)
	testq	%rbx, %rbx
	jne	.LBB0_26
	jmp	.LBB0_27
.LBB0_23:
	xorl	%ebp, %ebp
	xorl	%r15d, %r15d
	xorl	%r12d, %r12d
	movq	$0, 16(%rsp)
	jmp	.LBB0_27
.LBB0_24:
	movq	24(%r14), %r15
	movq	40(%r14), %r12
	cmpq	$2, %rdx
	jne	.LBB0_35
	movq	%r12, 16(%rsp)
	movq	32(%r14), %r12
	movb	$1, %bpl
	testq	%rbx, %rbx
	je	.LBB0_27
.LBB0_26:
	callq	rattle_dealloc@PLT
.LBB0_27:
	testq	%r13, %r13
	je	.LBB0_29
	movq	%r14, %rdi
	callq	rattle_dealloc@PLT
.LBB0_29:
	testb	%bpl, %bpl
	je	.LBB0_45
	cmpq	$6, %r12
	je	.LBB0_50
	cmpq	$2, %r12
	movq	16(%rsp), %rsi
	jne	.LBB0_53
	movzbl	(%r15), %ecx
	movzbl	1(%r15), %edx
	shll	$16, %ecx
	movl	%edx, %eax
	shll	$8, %eax
	orl	%ecx, %eax
	orl	%edx, %eax
	cmpl	$6448485, %eax
	je	.LBB0_71
	cmpl	$7103845, %eax
	jne	.LBB0_53
	xorl	%ebx, %ebx
	xorl	%ebp, %ebp
	jmp	.LBB0_73
.LBB0_35:
	movq	%rdx, %rbp
	cmpq	$0, 64(%r14)
	je	.LBB0_37
	movq	%rdi, 16(%rsp)
	movq	48(%r14), %rdi
	callq	rattle_dealloc@PLT
	movq	16(%rsp), %rdi
.LBB0_37:
	testq	%r12, %r12
	je	.LBB0_39
	movq	%rdi, %r12
	movq	%r15, %rdi
	callq	rattle_dealloc@PLT
	movq	%r12, %rdi
.LBB0_39:
	testq	%rbx, %rbx
	je	.LBB0_41
	callq	rattle_dealloc@PLT
.LBB0_41:
	cmpq	$3, %rbp
	jne	.LBB0_55
.LBB0_42:
	testq	%r13, %r13
	je	.LBB0_45
	movq	%r14, %rdi
	jmp	.LBB0_44
.LBB0_50:
	movl	(%r15), %ecx
	movl	2(%r15), %eax
	shlq	$32, %rax
	orq	%rcx, %rax
	movabsq	$7885629419609220450, %rcx
	cmpq	%rcx, %rax
	je	.LBB0_72
	movabsq	$7885629419609220460, %rcx
	cmpq	%rcx, %rax
	movq	16(%rsp), %rsi
	jne	.LBB0_53
	movb	$1, %bpl
	xorl	%ebx, %ebx
	jmp	.LBB0_73
.LBB0_53:
	testq	%rsi, %rsi
	je	.LBB0_45
	movq	%r15, %rdi
.LBB0_44:
	callq	rattle_dealloc@PLT
	jmp	.LBB0_45
.LBB0_55:
	addq	$-3, %rbp
	leaq	88(%r14), %rbx
	jmp	.LBB0_57
	.p2align	4
.LBB0_56:
	addq	$24, %rbx
	decq	%rbp
	je	.LBB0_42
.LBB0_57:
	cmpq	$0, (%rbx)
	je	.LBB0_56
	movq	-16(%rbx), %rdi
	callq	rattle_dealloc@PLT
	jmp	.LBB0_56
.LBB0_59:
	cmpq	$0, 96(%rsp)
	je	.LBB0_61
	movq	80(%rsp), %rdi
	callq	rattle_dealloc@PLT
.LBB0_61:
	movq	40(%rsp), %rbx
	movq	56(%rsp), %r15
	testq	%r15, %r15
	je	.LBB0_66
	movq	48(%rsp), %rax
	leaq	16(%rax), %r14
	jmp	.LBB0_64
	.p2align	4
.LBB0_63:
	addq	$24, %r14
	decq	%r15
	je	.LBB0_66
.LBB0_64:
	cmpq	$0, (%r14)
	je	.LBB0_63
	movq	-16(%r14), %rdi
	callq	rattle_dealloc@PLT
	jmp	.LBB0_63
.LBB0_66:
	leaq	24(%rsp), %r13
	testq	%rbx, %rbx
	je	.LBB0_69
	movq	48(%rsp), %rdi
.LBB0_68:
	callq	rattle_dealloc@PLT
.LBB0_69:
	movb	$21, 80(%rsp)
	movb	$38, 24(%rsp)
	cmpb	$38, (%r13)
	jne	.LBB0_45
.LBB0_70:
	leaq	.Lstatic.28(%rip), %r15
	movl	$16, %r12d
.LBB0_86:
	movb	$1, %bl
	jmp	.LBB0_87
.LBB0_71:
	movb	$1, %bl
	xorl	%ebp, %ebp
	jmp	.LBB0_73
.LBB0_72:
	movb	$1, %bl
	movb	$1, %bpl
	movq	16(%rsp), %rsi
.LBB0_73:
	testq	%rsi, %rsi
	je	.LBB0_75
	movq	%r15, %rdi
	callq	rattle_dealloc@PLT
.LBB0_75:
	testb	%bpl, %bpl
	je	.LBB0_78
	testb	%bl, %bl
	je	.LBB0_82
	movl	$0, 80(%rsp)
	movb	$1, 84(%rsp)
	jmp	.LBB0_80
.LBB0_78:
	testb	%bl, %bl
	je	.LBB0_83
	movb	$0, 84(%rsp)
	movl	$0, 80(%rsp)
.LBB0_80:
	leaq	80(%rsp), %rdi
	leaq	72(%rsp), %rsi
	leaq	64(%rsp), %rdx
	callq	"utf16_streams::filters::filter_by::<#49f94d9d01043660>"
	testb	$1, %al
	je	.LBB0_81
.LBB0_84:
	movl	%edx, %ebx
	movzbl	%dl, %eax
	leaq	.LJTI0_0(%rip), %rcx
	movslq	(%rcx,%rax,4), %rax
	addq	%rcx, %rax
	notrack jmpq	*%rax
.LBB0_85:
	leaq	.Lstatic.26(%rip), %r15
	movl	$14, %r12d
	jmp	.LBB0_86
.LBB0_45:
	xorl	%r14d, %r14d
	.p2align	4
.LBB0_46:
	leaq	.Lstatic.25(%rip), %rsi
	addq	%r14, %rsi
	movq	%r14, %rbx
	xorq	$7, %rbx
	movl	$2, %edi
	movq	%rbx, %rdx
	callq	write@PLT
	testq	%rax, %rax
	js	.LBB0_96
	cmpq	%rbx, %rax
	cmovbq	%rax, %rbx
	testq	%rbx, %rbx
	je	.LBB0_97
	addq	%rbx, %r14
	cmpq	$6, %r14
	jbe	.LBB0_46
	leaq	.Lstatic.31(%rip), %r15
	movl	$21, %r12d
	movb	$2, %bl
.LBB0_87:
	xorl	%r13d, %r13d
	.p2align	4
.LBB0_88:
	leaq	.Lstatic.33(%rip), %rsi
	addq	%r13, %rsi
	movl	$9, %r14d
	subq	%r13, %r14
	movl	$2, %edi
	movq	%r14, %rdx
	callq	write@PLT
	testq	%rax, %rax
	js	.LBB0_95
	cmpq	%r14, %rax
	cmovbq	%rax, %r14
	testq	%r14, %r14
	je	.LBB0_98
	addq	%r14, %r13
	cmpq	$9, %r13
	jb	.LBB0_88
	xorl	%r13d, %r13d
	.p2align	4
.LBB0_92:
	leaq	(%r15,%r13), %rsi
	movq	%r12, %r14
	subq	%r13, %r14
	movl	$2, %edi
	movq	%r14, %rdx
	callq	write@PLT
	testq	%rax, %rax
	js	.LBB0_95
	cmpq	%r14, %rax
	cmovbq	%rax, %r14
	testq	%r14, %r14
	je	.LBB0_98
	addq	%r14, %r13
	cmpq	%r12, %r13
	jb	.LBB0_92
	jmp	.LBB0_98
.LBB0_95:
	leaq	80(%rsp), %rdi
	callq	"std_io::io::error::last_error"
	jmp	.LBB0_98
.LBB0_96:
	leaq	80(%rsp), %rdi
	callq	"std_io::io::error::last_error"
.LBB0_97:
	movb	$2, %bl
.LBB0_98:
	movzbl	%bl, %eax
	addq	$168, %rsp
	.cfi_def_cfa_offset 56
	popq	%rbx
	.cfi_def_cfa_offset 48
	popq	%r12
	.cfi_def_cfa_offset 40
	popq	%r13
	.cfi_def_cfa_offset 32
	popq	%r14
	.cfi_def_cfa_offset 24
	popq	%r15
	.cfi_def_cfa_offset 16
	popq	%rbp
	.cfi_def_cfa_offset 8
	retq
.LBB0_82:
	.cfi_def_cfa_offset 224
	movl	$0, 80(%rsp)
	movb	$1, 84(%rsp)
	leaq	80(%rsp), %rdi
	leaq	72(%rsp), %rsi
	leaq	64(%rsp), %rdx
	callq	"utf16_streams::filters::filter_by::<#27bba4883ebf77b8>"
	cmpb	$1, %al
	je	.LBB0_84
.LBB0_81:
	xorl	%ebx, %ebx
	jmp	.LBB0_98
.LBB0_83:
	movb	$0, 84(%rsp)
	movl	$0, 80(%rsp)
	leaq	80(%rsp), %rdi
	leaq	72(%rsp), %rsi
	leaq	64(%rsp), %rdx
	callq	"utf16_streams::filters::filter_by::<#27bba4883ebf77b8>"
	testb	$1, %al
	je	.LBB0_81
	jmp	.LBB0_84
.LBB0_99:
	testq	%rbx, %rbx
	je	.LBB0_101
	movq	%r12, %rdi
	callq	rattle_dealloc@PLT
.LBB0_101:
	movq	24(%rsp), %rbx
	movq	40(%rsp), %r14
	movq	56(%rsp), %r12
	testq	%r12, %r12
	je	.LBB0_115
	leaq	16(%rbx), %r15
	jmp	.LBB0_104
	.p2align	4
.LBB0_103:
	addq	$24, %r15
	decq	%r12
	je	.LBB0_115
.LBB0_104:
	cmpq	$0, (%r15)
	je	.LBB0_103
	movq	-16(%r15), %rdi
	callq	rattle_dealloc@PLT
	jmp	.LBB0_103
.LBB0_106:
	leaq	.Lstatic.29(%rip), %r15
	movl	$17, %r12d
	jmp	.LBB0_86
.LBB0_107:
	leaq	.Lstatic.27(%rip), %r15
	movl	$15, %r12d
	jmp	.LBB0_87
.LBB0_108:
	testq	%rbx, %rbx
	je	.LBB0_110
	movq	%r12, %rdi
	callq	rattle_dealloc@PLT
.LBB0_110:
	movq	24(%rsp), %rbx
	movq	32(%rsp), %r15
	movq	40(%rsp), %r14
	testq	%r15, %r15
	je	.LBB0_115
	leaq	16(%rbx), %r12
	jmp	.LBB0_113
.LBB0_112:
	addq	$24, %r12
	decq	%r15
	je	.LBB0_115
.LBB0_113:
	cmpq	$0, (%r12)
	je	.LBB0_112
	movq	-16(%r12), %rdi
	callq	rattle_dealloc@PLT
	jmp	.LBB0_112
.LBB0_115:
	testq	%r14, %r14
	je	.LBB0_69
	movq	%rbx, %rdi
	jmp	.LBB0_68
.Lfunc_end0:
	.size	"utf16_enc::main+start", .Lfunc_end0-"utf16_enc::main+start"
	.cfi_endproc
	.section	".rodata.utf16_enc::main+start","a",@progbits
	.p2align	2, 0x0
.LJTI0_0:
	.long	.LBB0_85-.LJTI0_0
	.long	.LBB0_107-.LJTI0_0
	.long	.LBB0_70-.LJTI0_0
	.long	.LBB0_106-.LJTI0_0
	.long	.LBB0_45-.LJTI0_0

	.section	".text.unlikely.std_alloc::vec::Vec::grow_amortized::<#673fbaf82d7b1088>","ax",@progbits
	.p2align	4
	.type	"std_alloc::vec::Vec::grow_amortized::<#673fbaf82d7b1088>",@function
"std_alloc::vec::Vec::grow_amortized::<#673fbaf82d7b1088>":
	.cfi_startproc
	movq	%rsi, %rax
	movq	8(%rdi), %rsi
	addq	%rsi, %rax
	jae	.LBB1_2
	xorl	%eax, %eax
	retq
.LBB1_2:
	pushq	%r14
	.cfi_def_cfa_offset 16
	pushq	%rbx
	.cfi_def_cfa_offset 24
	pushq	%rax
	.cfi_def_cfa_offset 32
	.cfi_offset %rbx, -24
	.cfi_offset %r14, -16
	movq	16(%rdi), %rcx
	cmpq	$9, %rax
	movl	$8, %ebx
	cmovaeq	%rax, %rbx
	movq	%rcx, %rdx
	shrq	$62, %rdx
	leaq	(%rcx,%rcx), %rax
	cmpq	%rax, %rbx
	cmovaq	%rbx, %rax
	testq	%rdx, %rdx
	cmoveq	%rax, %rbx
	testq	%rbx, %rbx
	js	.LBB1_6
	testq	%rcx, %rcx
	je	.LBB1_8
	movq	%rdi, %r14
	movq	(%rdi), %rdi
	movl	$1, %ecx
	movq	%rbx, %rdx
	callq	rattle_realloc@PLT
	testb	$1, %al
	je	.LBB1_6
.LBB1_9:
	movq	%rdx, (%r14)
	movq	%rbx, 16(%r14)
	movb	$1, %al
	addq	$8, %rsp
	.cfi_def_cfa_offset 24
	popq	%rbx
	.cfi_def_cfa_offset 16
	popq	%r14
	.cfi_def_cfa_offset 8
	.cfi_restore %rbx
	.cfi_restore %r14
	retq
.LBB1_8:
	.cfi_def_cfa_offset 32
	.cfi_offset %rbx, -24
	.cfi_offset %r14, -16
	movq	%rdi, %r14
	movl	$1, %esi
	movq	%rax, %rdi
	callq	rattle_alloc@PLT
	testb	$1, %al
	jne	.LBB1_9
.LBB1_6:
	xorl	%eax, %eax
	addq	$8, %rsp
	.cfi_def_cfa_offset 24
	popq	%rbx
	.cfi_def_cfa_offset 16
	popq	%r14
	.cfi_def_cfa_offset 8
	.cfi_restore %rbx
	.cfi_restore %r14
	retq
.Lfunc_end1:
	.size	"std_alloc::vec::Vec::grow_amortized::<#673fbaf82d7b1088>", .Lfunc_end1-"std_alloc::vec::Vec::grow_amortized::<#673fbaf82d7b1088>"
	.cfi_endproc

	.section	".text.core::str::utf8::from_utf8","ax",@progbits
	.p2align	4
	.type	"core::str::utf8::from_utf8",@function
"core::str::utf8::from_utf8":
	.cfi_startproc
	pushq	%r15
	.cfi_def_cfa_offset 16
	pushq	%r14
	.cfi_def_cfa_offset 24
	pushq	%r13
	.cfi_def_cfa_offset 32
	pushq	%r12
	.cfi_def_cfa_offset 40
	pushq	%rbx
	.cfi_def_cfa_offset 48
	subq	$16, %rsp
	.cfi_def_cfa_offset 64
	.cfi_offset %rbx, -48
	.cfi_offset %r12, -40
	.cfi_offset %r13, -32
	.cfi_offset %r14, -24
	.cfi_offset %r15, -16
	movq	%rdx, %r15
	movq	%rsi, %r14
	movq	%rdi, %rbx
	testq	%rdx, %rdx
	je	.LBB2_49
	movabsq	$-9187201950435737472, %r12
	leaq	-8(%r15), %r13
	xorl	%ecx, %ecx
	jmp	.LBB2_5
.LBB2_25:
	movl	$1, %eax
.LBB2_3:
	addq	%rcx, %rax
.LBB2_4:
	movq	%rax, %rcx
	cmpq	%r15, %rax
	jae	.LBB2_49
.LBB2_5:
	movzbl	(%r14,%rcx), %edi
	testb	%dil, %dil
	sets	%al
	movq	%r15, %rdx
	subq	%rcx, %rdx
	cmpq	$2, %rdx
	setb	%sil
	orb	%al, %sil
	jne	.LBB2_2
	cmpb	$0, 1(%r14,%rcx)
	js	.LBB2_25
	movq	%r14, (%rsp)
	movq	%r15, 8(%rsp)
	cmpq	$7, %rdx
	ja	.LBB2_26
	cmpb	$0, (%r14,%rcx)
	js	.LBB2_41
	leaq	1(%rcx), %rax
	cmpq	%r15, %rax
	je	.LBB2_49
	cmpb	$0, (%r14,%rax)
	js	.LBB2_4
	leaq	2(%rcx), %rax
	cmpq	%r15, %rax
	je	.LBB2_49
	cmpb	$0, (%r14,%rax)
	js	.LBB2_4
	leaq	3(%rcx), %rax
	cmpq	%r15, %rax
	je	.LBB2_49
	cmpb	$0, (%r14,%rax)
	js	.LBB2_4
	leaq	4(%rcx), %rax
	cmpq	%r15, %rax
	je	.LBB2_49
	cmpb	$0, (%r14,%rax)
	js	.LBB2_4
	leaq	5(%rcx), %rax
	cmpq	%r15, %rax
	je	.LBB2_49
	cmpb	$0, (%r14,%rax)
	js	.LBB2_4
	addq	$6, %rcx
	cmpq	%r15, %rcx
	je	.LBB2_49
	cmpb	$0, (%r14,%rcx)
	movq	%rcx, %rax
	js	.LBB2_4
	jmp	.LBB2_49
	.p2align	4
.LBB2_2:
	movl	$1, %eax
	testb	%dil, %dil
	jns	.LBB2_3
	movl	$257, %esi
	cmpb	$-62, %dil
	jb	.LBB2_61
	cmpb	$-33, %dil
	ja	.LBB2_34
	cmpq	$2, %rdx
	jb	.LBB2_53
	movzbl	1(%r14,%rcx), %r8d
	movl	$2, %eax
	cmpb	$-65, %r8b
	jle	.LBB2_3
	jmp	.LBB2_55
.LBB2_26:
	movq	(%r14,%rcx), %rax
	andq	%r12, %rax
	xorl	%edx, %edx
	tzcntq	%rax, %rdx
	shrl	$3, %edx
	testq	%rax, %rax
	movl	$8, %eax
	cmovneq	%rdx, %rax
	addq	%rcx, %rax
	addq	$8, %rcx
	cmpq	%rcx, %rax
	jb	.LBB2_4
	movq	%r15, %rcx
	subq	%rax, %rcx
	cmpq	$32, %rcx
	jb	.LBB2_30
	.p2align	4
.LBB2_28:
	vmovdqu	(%r14,%rax), %xmm0
	vpor	16(%r14,%rax), %xmm0, %xmm0
	vpshufd	$238, %xmm0, %xmm1
	vpor	%xmm1, %xmm0, %xmm0
	vmovq	%xmm0, %rcx
	testq	%r12, %rcx
	jne	.LBB2_30
	addq	$32, %rax
	movq	%rsp, %rdi
	movq	%rax, %rsi
	movq	%r15, %rdx
	callq	"core::slice::words::skip_far::<#52f9edcae2f82f51>"
	movq	%r15, %rcx
	subq	%rax, %rcx
	cmpq	$31, %rcx
	ja	.LBB2_28
.LBB2_30:
	movq	%r15, %rcx
	subq	%rax, %rcx
	.p2align	4
.LBB2_31:
	cmpq	$9, %rcx
	jb	.LBB2_48
	movq	(%r14,%rax), %rdx
	andq	%r12, %rdx
	xorl	%esi, %esi
	tzcntq	%rdx, %rsi
	shrl	$3, %esi
	testq	%rdx, %rdx
	movl	$8, %edx
	cmovneq	%rsi, %rdx
	leaq	(%rdx,%rax), %rsi
	addq	$8, %rax
	addq	$-8, %rcx
	cmpq	%rax, %rsi
	jae	.LBB2_31
	addq	%rdx, %rax
	addq	$-8, %rax
	jmp	.LBB2_4
.LBB2_34:
	cmpb	$-17, %dil
	ja	.LBB2_42
	cmpq	$3, %rdx
	jb	.LBB2_51
	movzbl	1(%r14,%rcx), %r8d
	cmpb	$-65, %r8b
	jg	.LBB2_55
	cmpb	$-65, 2(%r14,%rcx)
	jg	.LBB2_55
	movzbl	%r8b, %eax
	movl	%edi, %r9d
	shll	$6, %r9d
	addl	%eax, %r9d
	addl	$-14464, %r9d
	cmpl	$32, %r9d
	jb	.LBB2_55
	xorl	%r8d, %r8d
	cmpl	$896, %r9d
	setae	%r10b
	movl	$3, %eax
	cmpl	$864, %r9d
	jb	.LBB2_3
	movb	%r10b, %r8b
	leaq	(%r8,%r8,2), %rax
	testq	%rax, %rax
	jne	.LBB2_3
	jmp	.LBB2_50
.LBB2_41:
	movq	%rcx, %rax
	jmp	.LBB2_4
.LBB2_42:
	cmpq	$4, %rdx
	jb	.LBB2_50
	movzbl	1(%r14,%rcx), %eax
	cmpb	$-65, %al
	jg	.LBB2_50
	cmpb	$-65, 2(%r14,%rcx)
	jg	.LBB2_50
	cmpb	$-65, 3(%r14,%rcx)
	jg	.LBB2_50
	movl	%edi, %r8d
	shll	$6, %r8d
	leal	(%r8,%rax), %r9d
	addl	$-15488, %r9d
	xorl	%eax, %eax
	cmpl	$272, %r9d
	setb	%r8b
	cmpl	$16, %r9d
	jb	.LBB2_50
	movb	%r8b, %al
	shll	$2, %eax
	testq	%rax, %rax
	jne	.LBB2_3
	jmp	.LBB2_50
.LBB2_48:
	movq	(%r14,%r13), %rax
	andq	%r12, %rax
	xorl	%ecx, %ecx
	tzcntq	%rax, %rcx
	shrl	$3, %ecx
	testq	%rax, %rax
	movl	$8, %eax
	cmovneq	%rcx, %rax
	addq	%r13, %rax
	jmp	.LBB2_4
.LBB2_49:
	movq	$0, (%rbx)
	movq	%r14, 8(%rbx)
	movq	%r15, 16(%rbx)
	jmp	.LBB2_62
.LBB2_50:
	cmpb	$-12, %dil
	ja	.LBB2_61
.LBB2_51:
	cmpq	$2, %rdx
	jb	.LBB2_53
	movzbl	1(%r14,%rcx), %r8d
.LBB2_55:
	cmpl	$240, %edi
	sete	%al
	shlb	$4, %al
	orb	$-128, %al
	cmpl	$224, %edi
	movzbl	%al, %eax
	movl	$160, %r9d
	cmovnel	%eax, %r9d
	cmpl	$244, %edi
	movl	$143, %eax
	movl	$191, %r10d
	cmovel	%eax, %r10d
	cmpl	$237, %edi
	movl	$159, %eax
	cmovnel	%r10d, %eax
	cmpb	%r8b, %r9b
	ja	.LBB2_61
	cmpb	%al, %r8b
	ja	.LBB2_61
	cmpq	$2, %rdx
	jne	.LBB2_59
.LBB2_53:
	xorl	%esi, %esi
.LBB2_61:
	movq	$1, (%rbx)
	movq	%rcx, 8(%rbx)
	movq	%rsi, 16(%rbx)
.LBB2_62:
	addq	$16, %rsp
	.cfi_def_cfa_offset 48
	popq	%rbx
	.cfi_def_cfa_offset 40
	popq	%r12
	.cfi_def_cfa_offset 32
	popq	%r13
	.cfi_def_cfa_offset 24
	popq	%r14
	.cfi_def_cfa_offset 16
	popq	%r15
	.cfi_def_cfa_offset 8
	retq
.LBB2_59:
	.cfi_def_cfa_offset 64
	movl	$513, %esi
	cmpb	$-65, 2(%r14,%rcx)
	jg	.LBB2_61
	xorl	%eax, %eax
	cmpq	$4, %rdx
	movl	$769, %esi
	cmovbq	%rax, %rsi
	jmp	.LBB2_61
.Lfunc_end2:
	.size	"core::str::utf8::from_utf8", .Lfunc_end2-"core::str::utf8::from_utf8"
	.cfi_endproc

	.section	.rodata.cst8,"aM",@progbits,8
	.p2align	3, 0x0
.LCPI3_0:
	.quad	-9187201950435737472
	.section	".text.core::slice::words::skip_far::<#52f9edcae2f82f51>","ax",@progbits
	.p2align	4
	.type	"core::slice::words::skip_far::<#52f9edcae2f82f51>",@function
"core::slice::words::skip_far::<#52f9edcae2f82f51>":
	.cfi_startproc
	movq	%rsi, %rax
	subq	%rsi, %rdx
	cmpq	$64, %rdx
	jb	.LBB3_4
	movq	(%rdi), %rcx
	.p2align	4
.LBB3_2:
	vmovdqu	(%rcx,%rax), %ymm0
	vpor	32(%rcx,%rax), %ymm0, %ymm0
	vpbroadcastq	.LCPI3_0(%rip), %ymm1
	vptest	%ymm1, %ymm0
	jne	.LBB3_4
	addq	$64, %rax
	addq	$-64, %rdx
	cmpq	$63, %rdx
	ja	.LBB3_2
.LBB3_4:
	vzeroupper
	retq
.Lfunc_end3:
	.size	"core::slice::words::skip_far::<#52f9edcae2f82f51>", .Lfunc_end3-"core::slice::words::skip_far::<#52f9edcae2f82f51>"
	.cfi_endproc

	.section	".text.unlikely.std_alloc::vec::Vec::grow_amortized::<#9a72e5f6858642ac>","ax",@progbits
	.p2align	4
	.type	"std_alloc::vec::Vec::grow_amortized::<#9a72e5f6858642ac>",@function
"std_alloc::vec::Vec::grow_amortized::<#9a72e5f6858642ac>":
	.cfi_startproc
	movq	8(%rdi), %rax
	cmpq	$-1, %rax
	je	.LBB4_5
	pushq	%r14
	.cfi_def_cfa_offset 16
	pushq	%rbx
	.cfi_def_cfa_offset 24
	pushq	%rax
	.cfi_def_cfa_offset 32
	.cfi_offset %rbx, -24
	.cfi_offset %r14, -16
	movq	16(%rdi), %rcx
	cmpq	$4, %rax
	movl	$3, %ebx
	cmovaeq	%rax, %rbx
	incq	%rbx
	movq	%rcx, %rsi
	shrq	$62, %rsi
	leaq	(%rcx,%rcx), %rdx
	cmpq	%rdx, %rbx
	cmovaq	%rbx, %rdx
	testq	%rsi, %rsi
	cmoveq	%rdx, %rbx
	movabsq	$384307168202282325, %rsi
	cmpq	%rsi, %rbx
	ja	.LBB4_6
	testq	%rcx, %rcx
	je	.LBB4_8
	movq	%rdi, %r14
	movq	(%rdi), %rdi
	shlq	$3, %rax
	leaq	(%rax,%rax,2), %rsi
	leaq	(,%rbx,8), %rax
	leaq	(%rax,%rax,2), %rdx
	movl	$8, %ecx
	callq	rattle_realloc@PLT
	testb	$1, %al
	je	.LBB4_6
.LBB4_9:
	movq	%rdx, (%r14)
	movq	%rbx, 16(%r14)
	movb	$1, %al
	addq	$8, %rsp
	.cfi_def_cfa_offset 24
	popq	%rbx
	.cfi_def_cfa_offset 16
	popq	%r14
	.cfi_def_cfa_offset 8
	.cfi_restore %rbx
	.cfi_restore %r14
	retq
.LBB4_5:
	xorl	%eax, %eax
	retq
.LBB4_8:
	.cfi_def_cfa_offset 32
	.cfi_offset %rbx, -24
	.cfi_offset %r14, -16
	movq	%rdi, %r14
	shlq	$3, %rdx
	leaq	(%rdx,%rdx,2), %rdi
	movl	$8, %esi
	callq	rattle_alloc@PLT
	testb	$1, %al
	jne	.LBB4_9
.LBB4_6:
	xorl	%eax, %eax
	addq	$8, %rsp
	.cfi_def_cfa_offset 24
	popq	%rbx
	.cfi_def_cfa_offset 16
	popq	%r14
	.cfi_def_cfa_offset 8
	.cfi_restore %rbx
	.cfi_restore %r14
	retq
.Lfunc_end4:
	.size	"std_alloc::vec::Vec::grow_amortized::<#9a72e5f6858642ac>", .Lfunc_end4-"std_alloc::vec::Vec::grow_amortized::<#9a72e5f6858642ac>"
	.cfi_endproc

	.section	".text.std_io::io::error::last_error","ax",@progbits
	.p2align	4
	.type	"std_io::io::error::last_error",@function
"std_io::io::error::last_error":
	.cfi_startproc
	pushq	%rbx
	.cfi_def_cfa_offset 16
	.cfi_offset %rbx, -16
	movq	%rdi, %rbx
	callq	rattle_errno@PLT
	movl	%eax, %ecx
	movb	$41, %dl
	testl	%eax, %eax
	js	.LBB5_40
	decl	%eax
	cmpl	$121, %eax
	ja	.LBB5_40
	leaq	.LJTI5_0(%rip), %rsi
	movslq	(%rsi,%rax,4), %rax
	addq	%rsi, %rax
	notrack jmpq	*%rax
.LBB5_3:
	movb	$1, %dl
	jmp	.LBB5_40
.LBB5_24:
	movb	$36, %dl
	jmp	.LBB5_40
.LBB5_36:
	movb	$4, %dl
	jmp	.LBB5_40
.LBB5_33:
	movb	$7, %dl
	jmp	.LBB5_40
.LBB5_39:
	movb	$26, %dl
	jmp	.LBB5_40
.LBB5_37:
	movb	$39, %dl
	jmp	.LBB5_40
.LBB5_28:
	movb	$9, %dl
	jmp	.LBB5_40
.LBB5_27:
	movb	$8, %dl
	jmp	.LBB5_40
.LBB5_22:
	movb	$30, %dl
	jmp	.LBB5_40
.LBB5_18:
	movb	$25, %dl
	jmp	.LBB5_40
.LBB5_20:
	movb	$32, %dl
	jmp	.LBB5_40
.LBB5_23:
	movb	$33, %dl
	jmp	.LBB5_40
.LBB5_34:
	movb	$22, %dl
	jmp	.LBB5_40
.LBB5_11:
	movb	$31, %dl
	jmp	.LBB5_40
.LBB5_15:
	movb	$29, %dl
	jmp	.LBB5_40
.LBB5_26:
	movb	$18, %dl
	jmp	.LBB5_40
.LBB5_29:
	movb	$10, %dl
	jmp	.LBB5_40
.LBB5_9:
	movb	$28, %dl
	jmp	.LBB5_40
.LBB5_12:
	movb	$14, %dl
	jmp	.LBB5_40
.LBB5_10:
	movb	$12, %dl
	jmp	.LBB5_40
.LBB5_30:
	movb	$5, %dl
	jmp	.LBB5_40
.LBB5_32:
	movb	$3, %dl
	jmp	.LBB5_40
.LBB5_4:
	xorl	%edx, %edx
	jmp	.LBB5_40
.LBB5_7:
	movb	$13, %dl
	jmp	.LBB5_40
.LBB5_8:
	movb	$38, %dl
	jmp	.LBB5_40
.LBB5_21:
	movb	$11, %dl
	jmp	.LBB5_40
.LBB5_5:
	movb	$35, %dl
	jmp	.LBB5_40
.LBB5_6:
	movb	$34, %dl
	jmp	.LBB5_40
.LBB5_14:
	movb	$20, %dl
	jmp	.LBB5_40
.LBB5_13:
	movb	$15, %dl
	jmp	.LBB5_40
.LBB5_38:
	movb	$19, %dl
	jmp	.LBB5_40
.LBB5_25:
	movb	$16, %dl
	jmp	.LBB5_40
.LBB5_31:
	movb	$6, %dl
	jmp	.LBB5_40
.LBB5_16:
	movb	$27, %dl
	jmp	.LBB5_40
.LBB5_17:
	movb	$24, %dl
	jmp	.LBB5_40
.LBB5_35:
	movb	$2, %dl
	jmp	.LBB5_40
.LBB5_19:
	movb	$17, %dl
.LBB5_40:
	movb	$0, (%rbx)
	movb	%dl, 1(%rbx)
	movw	$0, 2(%rbx)
	movl	%ecx, 4(%rbx)
	vxorps	%xmm0, %xmm0, %xmm0
	vmovups	%ymm0, 8(%rbx)
	vmovups	%ymm0, 40(%rbx)
	vmovups	%ymm0, 56(%rbx)
	popq	%rbx
	.cfi_def_cfa_offset 8
	vzeroupper
	retq
.Lfunc_end5:
	.size	"std_io::io::error::last_error", .Lfunc_end5-"std_io::io::error::last_error"
	.cfi_endproc
	.section	".rodata.std_io::io::error::last_error","a",@progbits
	.p2align	2, 0x0
.LJTI5_0:
	.long	.LBB5_3-.LJTI5_0
	.long	.LBB5_4-.LJTI5_0
	.long	.LBB5_40-.LJTI5_0
	.long	.LBB5_5-.LJTI5_0
	.long	.LBB5_40-.LJTI5_0
	.long	.LBB5_40-.LJTI5_0
	.long	.LBB5_6-.LJTI5_0
	.long	.LBB5_40-.LJTI5_0
	.long	.LBB5_40-.LJTI5_0
	.long	.LBB5_40-.LJTI5_0
	.long	.LBB5_7-.LJTI5_0
	.long	.LBB5_8-.LJTI5_0
	.long	.LBB5_3-.LJTI5_0
	.long	.LBB5_40-.LJTI5_0
	.long	.LBB5_40-.LJTI5_0
	.long	.LBB5_9-.LJTI5_0
	.long	.LBB5_10-.LJTI5_0
	.long	.LBB5_11-.LJTI5_0
	.long	.LBB5_40-.LJTI5_0
	.long	.LBB5_12-.LJTI5_0
	.long	.LBB5_13-.LJTI5_0
	.long	.LBB5_14-.LJTI5_0
	.long	.LBB5_40-.LJTI5_0
	.long	.LBB5_40-.LJTI5_0
	.long	.LBB5_40-.LJTI5_0
	.long	.LBB5_15-.LJTI5_0
	.long	.LBB5_16-.LJTI5_0
	.long	.LBB5_17-.LJTI5_0
	.long	.LBB5_18-.LJTI5_0
	.long	.LBB5_19-.LJTI5_0
	.long	.LBB5_20-.LJTI5_0
	.long	.LBB5_21-.LJTI5_0
	.long	.LBB5_40-.LJTI5_0
	.long	.LBB5_40-.LJTI5_0
	.long	.LBB5_22-.LJTI5_0
	.long	.LBB5_23-.LJTI5_0
	.long	.LBB5_40-.LJTI5_0
	.long	.LBB5_24-.LJTI5_0
	.long	.LBB5_25-.LJTI5_0
	.long	.LBB5_26-.LJTI5_0
	.long	.LBB5_40-.LJTI5_0
	.long	.LBB5_40-.LJTI5_0
	.long	.LBB5_40-.LJTI5_0
	.long	.LBB5_40-.LJTI5_0
	.long	.LBB5_40-.LJTI5_0
	.long	.LBB5_40-.LJTI5_0
	.long	.LBB5_40-.LJTI5_0
	.long	.LBB5_40-.LJTI5_0
	.long	.LBB5_40-.LJTI5_0
	.long	.LBB5_40-.LJTI5_0
	.long	.LBB5_40-.LJTI5_0
	.long	.LBB5_40-.LJTI5_0
	.long	.LBB5_40-.LJTI5_0
	.long	.LBB5_40-.LJTI5_0
	.long	.LBB5_40-.LJTI5_0
	.long	.LBB5_40-.LJTI5_0
	.long	.LBB5_40-.LJTI5_0
	.long	.LBB5_40-.LJTI5_0
	.long	.LBB5_40-.LJTI5_0
	.long	.LBB5_40-.LJTI5_0
	.long	.LBB5_40-.LJTI5_0
	.long	.LBB5_40-.LJTI5_0
	.long	.LBB5_40-.LJTI5_0
	.long	.LBB5_40-.LJTI5_0
	.long	.LBB5_40-.LJTI5_0
	.long	.LBB5_40-.LJTI5_0
	.long	.LBB5_40-.LJTI5_0
	.long	.LBB5_40-.LJTI5_0
	.long	.LBB5_40-.LJTI5_0
	.long	.LBB5_40-.LJTI5_0
	.long	.LBB5_40-.LJTI5_0
	.long	.LBB5_40-.LJTI5_0
	.long	.LBB5_40-.LJTI5_0
	.long	.LBB5_40-.LJTI5_0
	.long	.LBB5_40-.LJTI5_0
	.long	.LBB5_40-.LJTI5_0
	.long	.LBB5_40-.LJTI5_0
	.long	.LBB5_40-.LJTI5_0
	.long	.LBB5_40-.LJTI5_0
	.long	.LBB5_40-.LJTI5_0
	.long	.LBB5_40-.LJTI5_0
	.long	.LBB5_40-.LJTI5_0
	.long	.LBB5_40-.LJTI5_0
	.long	.LBB5_40-.LJTI5_0
	.long	.LBB5_40-.LJTI5_0
	.long	.LBB5_40-.LJTI5_0
	.long	.LBB5_40-.LJTI5_0
	.long	.LBB5_40-.LJTI5_0
	.long	.LBB5_40-.LJTI5_0
	.long	.LBB5_40-.LJTI5_0
	.long	.LBB5_40-.LJTI5_0
	.long	.LBB5_40-.LJTI5_0
	.long	.LBB5_40-.LJTI5_0
	.long	.LBB5_40-.LJTI5_0
	.long	.LBB5_24-.LJTI5_0
	.long	.LBB5_40-.LJTI5_0
	.long	.LBB5_40-.LJTI5_0
	.long	.LBB5_27-.LJTI5_0
	.long	.LBB5_28-.LJTI5_0
	.long	.LBB5_29-.LJTI5_0
	.long	.LBB5_30-.LJTI5_0
	.long	.LBB5_40-.LJTI5_0
	.long	.LBB5_31-.LJTI5_0
	.long	.LBB5_32-.LJTI5_0
	.long	.LBB5_40-.LJTI5_0
	.long	.LBB5_40-.LJTI5_0
	.long	.LBB5_33-.LJTI5_0
	.long	.LBB5_40-.LJTI5_0
	.long	.LBB5_40-.LJTI5_0
	.long	.LBB5_34-.LJTI5_0
	.long	.LBB5_35-.LJTI5_0
	.long	.LBB5_40-.LJTI5_0
	.long	.LBB5_36-.LJTI5_0
	.long	.LBB5_40-.LJTI5_0
	.long	.LBB5_37-.LJTI5_0
	.long	.LBB5_38-.LJTI5_0
	.long	.LBB5_40-.LJTI5_0
	.long	.LBB5_40-.LJTI5_0
	.long	.LBB5_40-.LJTI5_0
	.long	.LBB5_40-.LJTI5_0
	.long	.LBB5_40-.LJTI5_0
	.long	.LBB5_39-.LJTI5_0

	.section	".text.utf16_streams::filters::filter_by::<#49f94d9d01043660>","ax",@progbits
	.p2align	4
	.type	"utf16_streams::filters::filter_by::<#49f94d9d01043660>",@function
"utf16_streams::filters::filter_by::<#49f94d9d01043660>":
	.cfi_startproc
	pushq	%rbp
	.cfi_def_cfa_offset 16
	pushq	%r15
	.cfi_def_cfa_offset 24
	pushq	%r14
	.cfi_def_cfa_offset 32
	pushq	%r13
	.cfi_def_cfa_offset 40
	pushq	%r12
	.cfi_def_cfa_offset 48
	pushq	%rbx
	.cfi_def_cfa_offset 56
	subq	$3072, %rsp
	.cfi_adjust_cfa_offset 3072
	movq	$0, (%rsp)
	subq	$1368, %rsp
	.cfi_def_cfa_offset 4496
	.cfi_offset %rbx, -56
	.cfi_offset %r12, -48
	.cfi_offset %r13, -40
	.cfi_offset %r14, -32
	.cfi_offset %r15, -24
	.cfi_offset %rbp, -16
	movq	%rdx, 120(%rsp)
	movq	%rsi, 312(%rsp)
	movl	(%rdi), %ebp
	movzbl	4(%rdi), %eax
	movl	%eax, 12(%rsp)
	leaq	344(%rsp), %rdi
	xorl	%ebx, %ebx
	movl	$4096, %edx
	xorl	%esi, %esi
	callq	memset@PLT
	vpxor	%xmm0, %xmm0, %xmm0
	vmovdqa	%xmm0, 320(%rsp)
	movq	$0, 336(%rsp)
	leaq	47(%rsp), %rax
	movq	%rax, 16(%rsp)
	vmovdqu	%xmm0, 24(%rsp)
.LBB6_1:
	movq	%rbx, 136(%rsp)
	leaq	344(%rsp), %rsi
	movl	$4096, %r12d
	movl	$4096, %edx
	xorl	%edi, %edi
	callq	read@PLT
	testq	%rax, %rax
	js	.LBB6_7
	cmpq	$4096, %rax
	cmovbq	%rax, %r12
	testq	%rax, %rax
	je	.LBB6_3
	cmpq	$8, %rax
	movq	%r12, 152(%rsp)
	jae	.LBB6_22
	movl	$24, %r14d
	leaq	320(%rsp), %r12
	jmp	.LBB6_36
	.p2align	4
.LBB6_22:
	movq	24(%rsp), %r14
	movq	32(%rsp), %r15
	testq	%r15, %r15
	jne	.LBB6_28
	leaq	-1(%r14), %rax
	cmpq	$-8704, %rax
	jae	.LBB6_25
	xorl	%r15d, %r15d
	.p2align	4
.LBB6_28:
	leaq	512(,%r12,2), %rdx
	subq	%r14, %rdx
	jbe	.LBB6_29
.LBB6_30:
	movq	%r15, %rax
	subq	%r14, %rax
	cmpq	%rax, %rdx
	ja	.LBB6_31
.LBB6_33:
	leaq	(%r14,%rdx), %rax
	movq	16(%rsp), %r12
	movq	%rax, %rbx
	cmpq	%rax, %r14
	jae	.LBB6_35
	addq	%r12, %r14
	movq	%r14, %rdi
	xorl	%esi, %esi
	callq	memset@PLT
.LBB6_35:
	movq	%rbx, %r14
	movq	%rbx, 24(%rsp)
	movq	%r15, 32(%rsp)
	jmp	.LBB6_36
.LBB6_25:
	movb	$1, %al
	movb	$2, %bl
	cmpq	$-8705, %r14
	ja	.LBB6_106
	leaq	8704(%r14), %r15
	movl	$1, %esi
	movq	%r15, %rdi
	callq	rattle_alloc@PLT
	movq	%rax, %rcx
	movb	$1, %al
	testb	$1, %cl
	je	.LBB6_106
	movq	%rdx, 16(%rsp)
	movq	%r15, 32(%rsp)
	movl	$8704, %r15d
	leaq	512(,%r12,2), %rdx
	subq	%r14, %rdx
	ja	.LBB6_30
	.p2align	4
.LBB6_29:
	movq	16(%rsp), %r12
.LBB6_36:
	movl	%ebp, 40(%rsp)
	shrl	$24, %ebp
	cmpb	$3, %bpl
	movl	$3, %ebx
	cmovbl	%ebp, %ebx
	movl	$0, 116(%rsp)
	movl	$0, 192(%rsp)
	xorl	%r15d, %r15d
	xorl	%edx, %edx
	movq	%r12, 128(%rsp)
	movq	%rbx, 144(%rsp)
	movq	%r14, 48(%rsp)
.LBB6_37:
	movq	%rdx, %rax
	subq	%rbx, %rax
	movq	%r15, 56(%rsp)
	movq	%rdx, 160(%rsp)
	jae	.LBB6_62
	leaq	(%rsp,%rdx), %rsi
	addq	$40, %rsi
	subq	%rdx, %rbx
	movl	$4, %ebp
	subq	%rbx, %rbp
	movq	152(%rsp), %rax
	cmpq	%rax, %rbp
	cmovaeq	%rax, %rbp
	movl	$0, 224(%rsp)
	leaq	224(%rsp), %rdi
	movq	%rbx, %rdx
	callq	memcpy@PLT
	leaq	(%rsp,%rbx), %rdi
	addq	$224, %rdi
	leaq	344(%rsp), %rsi
	movq	%rbp, %rdx
	callq	memcpy@PLT
	addq	%rbx, %rbp
	movl	224(%rsp), %eax
	movl	%eax, 192(%rsp)
	leaq	(%r12,%r15), %r13
	movq	%r14, %r12
	subq	%r15, %r12
	vpxor	%xmm0, %xmm0, %xmm0
	vmovdqa	%xmm0, 224(%rsp)
	movq	$0, 240(%rsp)
	leaq	192(%rsp), %r14
	movq	%r14, %rdi
	movq	%rbp, %rsi
	movq	%r13, %rdx
	movq	%r12, %rcx
	callq	"utf16_transcode::encode::FromUtf8Direction::begin::<#8b18edd9dd9aa8df>"
	movq	%rbp, %rcx
	cmpq	%rbp, %rax
	jne	.LBB6_41
	xorl	%ebp, %ebp
	xorl	%r15d, %r15d
	movq	%rcx, %rbx
.LBB6_40:
	addq	%rdx, %rbp
	addq	%rbx, %r15
	xorl	%eax, %eax
.LBB6_43:
	movq	128(%rsp), %r12
	movq	48(%rsp), %r14
	movq	160(%rsp), %rdx
	addq	%r15, %rdx
	movq	%r15, %rcx
	movq	56(%rsp), %r15
	addq	%rbp, %r15
	testq	%rcx, %rcx
	movq	144(%rsp), %rbx
	je	.LBB6_67
	cmpb	$3, %al
	jne	.LBB6_37
	jmp	.LBB6_67
	.p2align	4
.LBB6_41:
	movq	%r14, %rsi
	xorl	%r14d, %r14d
	movq	%r12, 80(%rsp)
	movq	%r13, 64(%rsp)
	movq	%rcx, 72(%rsp)
	movq	%rcx, %rbx
	xorl	%ebp, %ebp
	jmp	.LBB6_42
	.p2align	4
.LBB6_58:
	movq	%r14, %r12
	movq	%rbx, %r15
.LBB6_61:
	addq	168(%rsp), %r15
	movq	176(%rsp), %rbp
	leaq	(%r12,%rbp), %rax
	addq	%r12, %rbp
	addq	$2, %rbp
	leaq	(%rsp,%r15), %r14
	addq	$192, %r14
	movq	72(%rsp), %rbx
	subq	%r15, %rbx
	movq	64(%rsp), %rcx
	leaq	(%rcx,%rax), %r13
	addq	$2, %r13
	movq	80(%rsp), %r12
	subq	%rbp, %r12
	vpxor	%xmm0, %xmm0, %xmm0
	vmovdqa	%xmm0, 224(%rsp)
	movq	$0, 240(%rsp)
	movq	%r14, %rdi
	movq	%rbx, %rsi
	movq	%r13, %rdx
	movq	%r12, %rcx
	callq	"utf16_transcode::encode::FromUtf8Direction::begin::<#8b18edd9dd9aa8df>"
	movq	%r14, %rsi
	movq	%r15, %r14
	cmpq	%rbx, %rax
	je	.LBB6_40
.LBB6_42:
	movq	%rdx, (%rsp)
	leaq	224(%rsp), %rdi
	movq	%rbx, %rdx
	movq	%r13, %rcx
	movq	%r12, %r8
	movq	%rax, %r9
	callq	"utf16_transcode::transcoding::transcode_many::<#824f73f0383279b7>"
	addq	224(%rsp), %r14
	movzbl	240(%rsp), %eax
	addq	232(%rsp), %rbp
	cmpb	$1, %al
	movq	%r14, %r15
	jne	.LBB6_43
	movq	80(%rsp), %r13
	subq	%rbp, %r13
	cmpq	$1, %r13
	jbe	.LBB6_46
	movzbl	241(%rsp), %eax
	movq	64(%rsp), %rcx
	movw	$-513, (%rcx,%rbp)
	addq	%rax, %r15
	leaq	(%rsp,%r15), %rdi
	addq	$192, %rdi
	movq	72(%rsp), %rbx
	movq	%r15, 168(%rsp)
	subq	%r15, %rbx
	movq	%rbp, 176(%rsp)
	leaq	(%rcx,%rbp), %rdx
	addq	$2, %rdx
	addq	$-2, %r13
	movq	%rdi, 104(%rsp)
	movq	%rbx, %rsi
	movq	%rdx, 88(%rsp)
	movq	%r13, %rcx
	callq	"utf16_transcode::items::write_items::<#8b18edd9dd9aa8df>"
	movq	%rax, %r15
	movq	%rdx, %r12
	movq	%rbx, 96(%rsp)
	movq	%rbx, %rbp
	subq	%rax, %rbp
	cmpq	$64, %rbp
	jb	.LBB6_61
	movq	%r13, 184(%rsp)
	.p2align	4
.LBB6_50:
	subq	%r12, %r13
	cmpq	$128, %r13
	jb	.LBB6_61
	movq	104(%rsp), %rax
	leaq	(%rax,%r15), %rdi
	movq	88(%rsp), %rcx
	leaq	(%rcx,%r12), %rdx
	vmovdqu	(%rax,%r15), %xmm0
	vpmovmskb	%xmm0, %eax
	testl	%eax, %eax
	je	.LBB6_53
	xorl	%ebx, %ebx
	jmp	.LBB6_54
	.p2align	4
.LBB6_53:
	movq	%r13, %rsi
	shrq	%rsi
	cmpq	%rbp, %rsi
	cmovaeq	%rbp, %rsi
	movq	%rdi, %r14
	movq	%rdx, %rbx
	callq	"utf16_from_utf8::ascii::write_front::<#8b18edd9dd9aa8df>"
	movq	%r14, %rdi
	movq	%rbx, %rdx
	movq	%rax, %rbx
.LBB6_54:
	leaq	(%rbx,%rbx), %r14
	movq	%rbp, %rax
	subq	%rbx, %rax
	cmpq	$64, %rax
	jb	.LBB6_57
	movq	%r13, %rax
	subq	%r14, %rax
	cmpq	$128, %rax
	jb	.LBB6_57
	movq	%rbp, %rsi
	movq	%r13, %rcx
	movq	%rbx, %r8
	movq	%r14, %r9
	callq	"utf16_from_utf8::blocks::write_mixed_blocks::<#8b18edd9dd9aa8df>"
	movq	%rax, %rbx
	movq	%rdx, %r14
.LBB6_57:
	addq	%r15, %rbx
	addq	%r12, %r14
	movq	96(%rsp), %rsi
	subq	%rbx, %rsi
	cmpq	$4, %rsi
	movq	184(%rsp), %r13
	jb	.LBB6_58
	movq	%r13, %rcx
	subq	%r14, %rcx
	cmpq	$4, %rcx
	jb	.LBB6_58
	movq	104(%rsp), %rax
	leaq	(%rax,%rbx), %rdi
	movq	88(%rsp), %rax
	leaq	(%rax,%r14), %rdx
	callq	"utf16_transcode::items::write_items::<#8b18edd9dd9aa8df>"
	movq	%rax, %r15
	movq	%rdx, %r12
	addq	%rbx, %r15
	addq	%r14, %r12
	movq	96(%rsp), %rbp
	subq	%r15, %rbp
	cmpq	$63, %rbp
	ja	.LBB6_50
	jmp	.LBB6_61
	.p2align	4
.LBB6_46:
	addq	160(%rsp), %r15
	movq	%r15, %rax
	movq	56(%rsp), %r15
	addq	%rbp, %r15
	movq	144(%rsp), %rbp
	cmpq	%rax, %rbp
	cmovbq	%rbp, %rax
	leaq	(%rsp,%rax), %rsi
	addq	$40, %rsi
	subq	%rax, %rbp
	movq	128(%rsp), %r12
.LBB6_47:
	movb	$0, 226(%rsp)
	movw	$0, 224(%rsp)
	leaq	224(%rsp), %rdi
	movq	%rbp, %rdx
	callq	memcpy@PLT
	movzbl	226(%rsp), %eax
	shll	$16, %eax
	movzwl	224(%rsp), %ecx
	orl	%eax, %ecx
	shll	$24, %ebp
	orl	%ecx, %ebp
	cmpb	$1, 12(%rsp)
	movq	136(%rsp), %rax
	jne	.LBB6_96
.LBB6_70:
	testq	%r15, %r15
	je	.LBB6_71
	cmpq	$1, %r15
	jne	.LBB6_93
.LBB6_95:
	leaq	2(%r12), %rdi
	movq	%r12, %rsi
	movq	%r15, %rdx
	callq	memmove@PLT
	movq	136(%rsp), %rax
	movw	$-2, (%r12)
	addq	$2, %r15
	jmp	.LBB6_96
.LBB6_71:
	movb	$1, %cl
	movl	%ecx, 12(%rsp)
	incq	%rax
	cmpq	$-1, %rax
	movq	%rax, %rbx
	jne	.LBB6_1
	jmp	.LBB6_73
.LBB6_93:
	cmpb	$-2, (%r12)
	jne	.LBB6_95
	cmpb	$-1, 1(%r12)
	je	.LBB6_100
	jmp	.LBB6_95
.LBB6_62:
	leaq	(%rsp,%rax), %rbp
	addq	$344, %rbp
	movq	152(%rsp), %rbx
	subq	%rax, %rbx
	addq	%r15, %r12
	subq	%r15, %r14
	vpxor	%xmm0, %xmm0, %xmm0
	vmovdqa	%xmm0, 224(%rsp)
	movq	$0, 240(%rsp)
	movq	%rbp, %rdi
	movq	%rbx, %rsi
	movq	%r12, %rdx
	movq	%r14, %rcx
	callq	"utf16_transcode::encode::FromUtf8Direction::begin::<#8b18edd9dd9aa8df>"
	cmpq	%rbx, %rax
	jne	.LBB6_74
	xorl	%ebp, %ebp
	xorl	%r14d, %r14d
.LBB6_64:
	addq	%rdx, %rbp
	addq	%rbx, %r14
	xorl	%eax, %eax
	movq	%r14, %r13
.LBB6_65:
	movq	56(%rsp), %r15
.LBB6_66:
	movq	160(%rsp), %rdx
	addq	%r13, %rdx
	addq	%rbp, %r15
	movq	128(%rsp), %r12
	movq	144(%rsp), %rbx
.LBB6_67:
	cmpq	%rdx, %rbx
	movq	%rdx, %rcx
	cmovbq	%rbx, %rcx
	leaq	(%rsp,%rcx), %rsi
	addq	$40, %rsi
	movq	%rbx, %rbp
	subq	%rcx, %rbp
	cmpb	$3, %al
	je	.LBB6_47
	xorl	%eax, %eax
	subq	%rbx, %rdx
	cmovaeq	%rdx, %rax
	movq	152(%rsp), %rcx
	subq	%rax, %rcx
	leaq	(%rsp,%rax), %r14
	addq	$344, %r14
	movl	$4, %ebx
	subq	%rbp, %rbx
	cmpq	%rcx, %rbx
	cmovaeq	%rcx, %rbx
	movl	$0, 224(%rsp)
	leaq	224(%rsp), %rdi
	movq	%rbp, %rdx
	callq	memcpy@PLT
	leaq	(%rsp,%rbp), %rdi
	addq	$224, %rdi
	movq	%r14, %rsi
	movq	%rbx, %rdx
	callq	memcpy@PLT
	addq	%rbp, %rbx
	movl	224(%rsp), %eax
	movl	%eax, 116(%rsp)
	movb	$0, 226(%rsp)
	movw	$0, 224(%rsp)
	leaq	224(%rsp), %rdi
	leaq	116(%rsp), %rsi
	movq	%rbx, %rdx
	callq	memcpy@PLT
	movzbl	226(%rsp), %eax
	shll	$16, %eax
	movzwl	224(%rsp), %ecx
	orl	%eax, %ecx
	shll	$24, %ebx
	orl	%ecx, %ebx
	movl	%ebx, %ebp
	cmpb	$1, 12(%rsp)
	movq	136(%rsp), %rax
	je	.LBB6_70
	.p2align	4
.LBB6_96:
	testq	%r15, %r15
	je	.LBB6_97
.LBB6_100:
	xorl	%r14d, %r14d
	.p2align	4
.LBB6_101:
	leaq	(%r12,%r14), %rsi
	movq	%r15, %rbx
	subq	%r14, %rbx
	movl	$1, %edi
	movq	%rbx, %rdx
	callq	write@PLT
	testq	%rax, %rax
	js	.LBB6_17
	cmpq	%rbx, %rax
	cmovbq	%rax, %rbx
	testq	%rbx, %rbx
	je	.LBB6_18
	addq	%rbx, %r14
	cmpq	%r15, %r14
	jb	.LBB6_101
	movl	$0, 12(%rsp)
	movq	136(%rsp), %rax
	incq	%rax
	cmpq	$-1, %rax
	movq	%rax, %rbx
	jne	.LBB6_1
	jmp	.LBB6_73
	.p2align	4
.LBB6_97:
	movl	$0, 12(%rsp)
	incq	%rax
	cmpq	$-1, %rax
	movq	%rax, %rbx
	jne	.LBB6_1
	jmp	.LBB6_73
.LBB6_74:
	xorl	%r13d, %r13d
	movq	%r14, 48(%rsp)
	movq	%r14, %r15
	movq	%r12, 64(%rsp)
	movq	%r12, %r8
	movq	%rbx, 80(%rsp)
	movq	%rbp, 72(%rsp)
	movq	%rbp, %r12
	xorl	%ebp, %ebp
	jmp	.LBB6_75
	.p2align	4
.LBB6_88:
	movq	%r13, %r12
	movq	%rbx, %r14
.LBB6_91:
	addq	168(%rsp), %r14
	movq	176(%rsp), %rbp
	leaq	(%r12,%rbp), %rax
	addq	%r12, %rbp
	addq	$2, %rbp
	movq	72(%rsp), %rcx
	leaq	(%rcx,%r14), %r12
	movq	80(%rsp), %rbx
	subq	%r14, %rbx
	movq	64(%rsp), %rcx
	leaq	(%rcx,%rax), %r13
	addq	$2, %r13
	movq	48(%rsp), %r15
	subq	%rbp, %r15
	vpxor	%xmm0, %xmm0, %xmm0
	vmovdqa	%xmm0, 224(%rsp)
	movq	$0, 240(%rsp)
	movq	%r12, %rdi
	movq	%rbx, %rsi
	movq	%r13, %rdx
	movq	%r15, %rcx
	callq	"utf16_transcode::encode::FromUtf8Direction::begin::<#8b18edd9dd9aa8df>"
	movq	%r13, %r8
	movq	%r14, %r13
	cmpq	%rbx, %rax
	je	.LBB6_64
.LBB6_75:
	movq	%rdx, (%rsp)
	leaq	224(%rsp), %rdi
	movq	%r12, %rsi
	movq	%rbx, %rdx
	movq	%r8, %rcx
	movq	%r15, %r8
	movq	%rax, %r9
	callq	"utf16_transcode::transcoding::transcode_many::<#824f73f0383279b7>"
	addq	224(%rsp), %r13
	movzbl	240(%rsp), %eax
	addq	232(%rsp), %rbp
	cmpb	$1, %al
	jne	.LBB6_65
	movq	48(%rsp), %rbx
	subq	%rbp, %rbx
	cmpq	$2, %rbx
	movq	56(%rsp), %r15
	jb	.LBB6_77
	movzbl	241(%rsp), %eax
	movq	64(%rsp), %rcx
	movw	$-513, (%rcx,%rbp)
	addq	%rax, %r13
	movq	72(%rsp), %rax
	leaq	(%rax,%r13), %rdi
	movq	80(%rsp), %r15
	movq	%r13, 168(%rsp)
	subq	%r13, %r15
	movq	%rbp, 176(%rsp)
	leaq	(%rcx,%rbp), %rdx
	addq	$2, %rdx
	addq	$-2, %rbx
	movq	%rdi, 104(%rsp)
	movq	%r15, %rsi
	movq	%rdx, 88(%rsp)
	movq	%rbx, %rcx
	callq	"utf16_transcode::items::write_items::<#8b18edd9dd9aa8df>"
	movq	%rax, %r14
	movq	%rdx, %r12
	movq	%r15, 96(%rsp)
	movq	%r15, %rbp
	subq	%rax, %rbp
	cmpq	$64, %rbp
	jb	.LBB6_91
	movq	%rbx, %r15
	movq	%rbx, 184(%rsp)
	.p2align	4
.LBB6_80:
	subq	%r12, %r15
	cmpq	$128, %r15
	jb	.LBB6_91
	movq	104(%rsp), %rax
	leaq	(%rax,%r14), %rdi
	movq	88(%rsp), %rcx
	leaq	(%rcx,%r12), %rdx
	vmovdqu	(%rax,%r14), %xmm0
	vpmovmskb	%xmm0, %eax
	testl	%eax, %eax
	je	.LBB6_83
	xorl	%ebx, %ebx
	jmp	.LBB6_84
	.p2align	4
.LBB6_83:
	movq	%r15, %rsi
	shrq	%rsi
	cmpq	%rbp, %rsi
	cmovaeq	%rbp, %rsi
	movq	%rdi, %r13
	movq	%rdx, %rbx
	callq	"utf16_from_utf8::ascii::write_front::<#8b18edd9dd9aa8df>"
	movq	%r13, %rdi
	movq	%rbx, %rdx
	movq	%rax, %rbx
.LBB6_84:
	leaq	(%rbx,%rbx), %r13
	movq	%rbp, %rax
	subq	%rbx, %rax
	cmpq	$64, %rax
	jb	.LBB6_87
	movq	%r15, %rax
	subq	%r13, %rax
	cmpq	$128, %rax
	jb	.LBB6_87
	movq	%rbp, %rsi
	movq	%r15, %rcx
	movq	%rbx, %r8
	movq	%r13, %r9
	callq	"utf16_from_utf8::blocks::write_mixed_blocks::<#8b18edd9dd9aa8df>"
	movq	%rax, %rbx
	movq	%rdx, %r13
.LBB6_87:
	addq	%r14, %rbx
	addq	%r12, %r13
	movq	96(%rsp), %rsi
	subq	%rbx, %rsi
	cmpq	$4, %rsi
	movq	184(%rsp), %r15
	jb	.LBB6_88
	movq	%r15, %rcx
	subq	%r13, %rcx
	cmpq	$4, %rcx
	jb	.LBB6_88
	movq	104(%rsp), %rax
	leaq	(%rax,%rbx), %rdi
	movq	88(%rsp), %rax
	leaq	(%rax,%r13), %rdx
	callq	"utf16_transcode::items::write_items::<#8b18edd9dd9aa8df>"
	movq	%rax, %r14
	movq	%rdx, %r12
	addq	%rbx, %r14
	addq	%r13, %r12
	movq	96(%rsp), %rbp
	subq	%r14, %rbp
	cmpq	$63, %rbp
	ja	.LBB6_80
	jmp	.LBB6_91
.LBB6_77:
	movb	$3, %al
	jmp	.LBB6_66
.LBB6_31:
	leaq	16(%rsp), %rdi
	movq	%rdx, %rbx
	movq	%rdx, %rsi
	callq	"std_alloc::vec::Vec::grow_amortized::<#673fbaf82d7b1088>"
	movq	32(%rsp), %r15
	testb	%al, %al
	je	.LBB6_103
	movq	24(%rsp), %r14
	movq	%rbx, %rdx
	jmp	.LBB6_33
.LBB6_7:
	leaq	224(%rsp), %rdi
	callq	"std_io::io::error::last_error"
	movq	312(%rsp), %rdx
	movq	(%rdx), %rax
	incq	%rax
	movq	$-1, %rcx
	cmovneq	%rax, %rcx
	movq	%rcx, (%rdx)
	movb	$1, %al
	cmpq	$0, 32(%rsp)
	je	.LBB6_8
	movq	16(%rsp), %rdi
	callq	rattle_dealloc@PLT
	movb	$1, %al
	xorl	%ebx, %ebx
	jmp	.LBB6_106
.LBB6_3:
	vpxor	%xmm0, %xmm0, %xmm0
	vmovdqa	%xmm0, 192(%rsp)
	movq	$0, 208(%rsp)
	cmpl	$16777215, %ebp
	ja	.LBB6_10
	movl	$2, %r14d
	testb	$1, 12(%rsp)
	jne	.LBB6_12
	jmp	.LBB6_5
.LBB6_73:
	movb	$1, %al
	movb	$3, %bl
	cmpq	$0, 32(%rsp)
	jne	.LBB6_104
	jmp	.LBB6_106
.LBB6_10:
	movw	$-513, 192(%rsp)
	movl	$2, %r14d
	testb	$1, 12(%rsp)
	je	.LBB6_13
	movw	$-513, 194(%rsp)
	movl	$4, %r14d
.LBB6_12:
	movw	$-2, 192(%rsp)
.LBB6_13:
	xorl	%r15d, %r15d
	.p2align	4
.LBB6_15:
	leaq	(%rsp,%r15), %rsi
	addq	$192, %rsi
	movq	%r14, %rbx
	subq	%r15, %rbx
	movl	$1, %edi
	movq	%rbx, %rdx
	callq	write@PLT
	testq	%rax, %rax
	js	.LBB6_17
	cmpq	%rbx, %rax
	cmovbq	%rax, %rbx
	testq	%rbx, %rbx
	je	.LBB6_18
	addq	%rbx, %r15
	cmpq	%r14, %r15
	jb	.LBB6_15
.LBB6_5:
	cmpq	$0, 32(%rsp)
	je	.LBB6_6
	movq	16(%rsp), %rdi
	callq	rattle_dealloc@PLT
.LBB6_6:
	xorl	%ebx, %ebx
	xorl	%eax, %eax
	jmp	.LBB6_106
.LBB6_17:
	leaq	224(%rsp), %rdi
	callq	"std_io::io::error::last_error"
.LBB6_18:
	movq	120(%rsp), %rdx
	movq	(%rdx), %rcx
	incq	%rcx
	movq	$-1, %rax
	cmovneq	%rcx, %rax
	movq	%rax, (%rdx)
	movb	$1, %bl
	cmpq	$0, 32(%rsp)
	je	.LBB6_105
.LBB6_104:
	movq	16(%rsp), %rdi
	callq	rattle_dealloc@PLT
.LBB6_105:
	movb	$1, %al
.LBB6_106:
	movl	%ebx, %edx
	addq	$4440, %rsp
	.cfi_def_cfa_offset 56
	popq	%rbx
	.cfi_def_cfa_offset 48
	popq	%r12
	.cfi_def_cfa_offset 40
	popq	%r13
	.cfi_def_cfa_offset 32
	popq	%r14
	.cfi_def_cfa_offset 24
	popq	%r15
	.cfi_def_cfa_offset 16
	popq	%rbp
	.cfi_def_cfa_offset 8
	retq
.LBB6_8:
	.cfi_def_cfa_offset 4496
	xorl	%ebx, %ebx
	jmp	.LBB6_106
.LBB6_103:
	movb	$1, %al
	movb	$2, %bl
	testq	%r15, %r15
	jne	.LBB6_104
	jmp	.LBB6_106
.Lfunc_end6:
	.size	"utf16_streams::filters::filter_by::<#49f94d9d01043660>", .Lfunc_end6-"utf16_streams::filters::filter_by::<#49f94d9d01043660>"
	.cfi_endproc

	.section	.rodata.cst16,"aM",@progbits,16
	.p2align	4, 0x0
.LCPI7_0:
	.zero	16,192
.LCPI7_1:
	.zero	16,191
.LCPI7_2:
	.zero	16,223
.LCPI7_3:
	.zero	16,239
.LCPI7_4:
	.zero	16,159
.LCPI7_5:
	.zero	16,237
.LCPI7_6:
	.zero	16,224
.LCPI7_7:
	.zero	16,143
.LCPI7_8:
	.zero	16,245
.LCPI7_9:
	.zero	16,244
.LCPI7_10:
	.zero	16,240
.LCPI7_11:
	.zero	16,254
.LCPI7_12:
	.byte	1
	.byte	2
	.byte	3
	.byte	4
	.byte	5
	.byte	6
	.byte	7
	.byte	8
	.byte	9
	.byte	10
	.byte	11
	.byte	12
	.byte	13
	.byte	14
	.byte	15
	.byte	16
.LCPI7_13:
	.zero	16,15
.LCPI7_14:
	.zero	16,220
.LCPI7_15:
	.zero	16,252
.LCPI7_16:
	.zero	16,3
.LCPI7_17:
	.zero	16,63
.LCPI7_18:
	.zero	16,232
.LCPI7_19:
	.zero	16,127
	.section	.rodata.cst4,"aM",@progbits,4
	.p2align	2, 0x0
.LCPI7_20:
	.zero	4,192
.LCPI7_21:
	.zero	4,237
.LCPI7_22:
	.zero	4,244
.LCPI7_23:
	.zero	4,191
.LCPI7_24:
	.zero	4,15
	.section	".text.utf16_transcode::encode::FromUtf8Direction::begin::<#8b18edd9dd9aa8df>","ax",@progbits
	.p2align	4
	.type	"utf16_transcode::encode::FromUtf8Direction::begin::<#8b18edd9dd9aa8df>",@function
"utf16_transcode::encode::FromUtf8Direction::begin::<#8b18edd9dd9aa8df>":
	.cfi_startproc
	pushq	%rbp
	.cfi_def_cfa_offset 16
	pushq	%r15
	.cfi_def_cfa_offset 24
	pushq	%r14
	.cfi_def_cfa_offset 32
	pushq	%r12
	.cfi_def_cfa_offset 40
	pushq	%rbx
	.cfi_def_cfa_offset 48
	.cfi_offset %rbx, -48
	.cfi_offset %r12, -40
	.cfi_offset %r14, -32
	.cfi_offset %r15, -24
	.cfi_offset %rbp, -16
	movq	%rcx, %rbx
	cmpq	$7, %rsi
	ja	.LBB7_16
	movq	%rbx, %rax
	shrq	%rax
	cmpq	%rsi, %rax
	cmovaeq	%rsi, %rax
	testq	%rax, %rax
	je	.LBB7_22
	movsbl	(%rdi), %ecx
	testw	%cx, %cx
	js	.LBB7_22
	movswl	%cx, %ecx
	shll	$8, %ecx
	movw	%cx, (%rdx)
	movl	$2, %r9d
	cmpq	$1, %rax
	je	.LBB7_84
	movsbl	1(%rdi), %ecx
	testw	%cx, %cx
	js	.LBB7_33
	movswl	%cx, %ecx
	shll	$8, %ecx
	movw	%cx, 2(%rdx)
	movl	$4, %r9d
	cmpq	$2, %rax
	je	.LBB7_84
	movsbl	2(%rdi), %ecx
	testw	%cx, %cx
	js	.LBB7_36
	movswl	%cx, %ecx
	shll	$8, %ecx
	movw	%cx, 4(%rdx)
	movl	$6, %r9d
	cmpq	$3, %rax
	je	.LBB7_84
	movsbl	3(%rdi), %ecx
	testw	%cx, %cx
	js	.LBB7_78
	movswl	%cx, %ecx
	shll	$8, %ecx
	movw	%cx, 6(%rdx)
	movl	$8, %r9d
	cmpq	$4, %rax
	je	.LBB7_84
	movsbl	4(%rdi), %ecx
	testw	%cx, %cx
	js	.LBB7_79
	movswl	%cx, %ecx
	shll	$8, %ecx
	movw	%cx, 8(%rdx)
	movl	$10, %r9d
	cmpq	$5, %rax
	je	.LBB7_84
	movsbl	5(%rdi), %ecx
	testw	%cx, %cx
	js	.LBB7_80
	movswl	%cx, %ecx
	shll	$8, %ecx
	movw	%cx, 10(%rdx)
	movl	$12, %r9d
	cmpq	$6, %rax
	je	.LBB7_84
	movsbl	6(%rdi), %ecx
	testw	%cx, %cx
	js	.LBB7_81
	movswl	%cx, %ecx
	shll	$8, %ecx
	movw	%cx, 12(%rdx)
	movl	$14, %r9d
	jmp	.LBB7_84
.LBB7_16:
	cmpq	$16, %rsi
	ja	.LBB7_23
	cmpq	$32, %rbx
	jb	.LBB7_21
	vmovq	-8(%rdi,%rsi), %xmm1
	vmovq	(%rdi), %xmm0
	vpunpcklqdq	%xmm1, %xmm0, %xmm0
	movq	%rsi, %rax
	shlq	$4, %rax
	leaq	.Lstatic.11(%rip), %rcx
	vpshufb	-128(%rax,%rcx), %xmm0, %xmm0
	vpmovmskb	%xmm0, %eax
	testl	%eax, %eax
	je	.LBB7_27
	vpextrb	$5, %xmm1, %eax
	vpextrb	$6, %xmm1, %ecx
	vpextrb	$7, %xmm1, %r8d
	cmpb	$-64, %r8b
	setae	%r8b
	cmpb	$-32, %cl
	setae	%cl
	orb	%r8b, %cl
	cmpb	$-16, %al
	setae	%al
	orb	%cl, %al
	jne	.LBB7_21
	leaq	.Lstatic.12(%rip), %rax
	subq	%rsi, %rax
	vpmaxub	16(%rax), %xmm0, %xmm1
	vpslldq	$1, %xmm1, %xmm0
	vpslldq	$2, %xmm1, %xmm3
	vpslldq	$3, %xmm1, %xmm4
	vpbroadcastd	.LCPI7_20(%rip), %xmm2
	vpcmpgtb	%xmm1, %xmm2, %xmm5
	vpsubusb	.LCPI7_1(%rip), %xmm0, %xmm6
	vpsubusb	.LCPI7_2(%rip), %xmm3, %xmm7
	vpsubusb	.LCPI7_3(%rip), %xmm4, %xmm4
	vpmaxub	%xmm7, %xmm6, %xmm6
	vpor	%xmm4, %xmm6, %xmm4
	vpxor	%xmm6, %xmm6, %xmm6
	vpcmpgtb	%xmm6, %xmm4, %xmm4
	vpxor	%xmm4, %xmm5, %xmm4
	vpminub	.LCPI7_4(%rip), %xmm1, %xmm5
	vpcmpeqb	%xmm5, %xmm1, %xmm5
	vpbroadcastd	.LCPI7_21(%rip), %xmm6
	vpblendvb	%xmm5, .LCPI7_6(%rip), %xmm6, %xmm5
	vpcmpeqb	%xmm5, %xmm0, %xmm5
	vpminub	.LCPI7_7(%rip), %xmm1, %xmm6
	vpcmpeqb	%xmm6, %xmm1, %xmm6
	vpmaxub	.LCPI7_8(%rip), %xmm1, %xmm7
	vpcmpeqb	%xmm7, %xmm1, %xmm7
	vpbroadcastd	.LCPI7_22(%rip), %xmm8
	vpblendvb	%xmm6, .LCPI7_10(%rip), %xmm8, %xmm6
	vpcmpeqb	%xmm6, %xmm0, %xmm6
	vpor	%xmm5, %xmm6, %xmm5
	vpor	%xmm7, %xmm5, %xmm5
	vpand	.LCPI7_11(%rip), %xmm1, %xmm6
	vpcmpeqb	%xmm2, %xmm6, %xmm6
	vpor	%xmm4, %xmm6, %xmm4
	vpor	%xmm4, %xmm5, %xmm4
	vmovd	%esi, %xmm5
	vpbroadcastb	%xmm5, %xmm5
	vpmaxub	.LCPI7_12(%rip), %xmm5, %xmm6
	vpcmpeqb	%xmm6, %xmm5, %xmm5
	vpsllw	$7, %xmm4, %xmm4
	vpand	%xmm4, %xmm5, %xmm4
	vpmovmskb	%xmm4, %eax
	testl	%eax, %eax
	je	.LBB7_35
.LBB7_21:
	xorl	%r9d, %r9d
	xorl	%eax, %eax
	cmpq	$31, %rsi
	jbe	.LBB7_45
	jmp	.LBB7_32
.LBB7_22:
	xorl	%r9d, %r9d
	xorl	%eax, %eax
	jmp	.LBB7_84
.LBB7_23:
	movq	%rbx, %rcx
	shrq	%rcx
	cmpq	%rsi, %rcx
	cmovaeq	%rsi, %rcx
	cmpq	$32, %rbx
	jb	.LBB7_24
	vmovdqu	(%rdi), %xmm0
	vpmovmskb	%xmm0, %eax
	testl	%eax, %eax
	je	.LBB7_28
.LBB7_24:
	xorl	%eax, %eax
	leaq	(%rax,%rax), %r9
	movq	%rsi, %rcx
	subq	%rax, %rcx
	je	.LBB7_31
.LBB7_38:
	movq	%rdi, %r15
	cmpq	$191, %rcx
	ja	.LBB7_40
	movq	%rsi, %r12
	movq	%rdx, %r14
	movq	%rbx, %rcx
	movq	%rax, %r8
	vzeroupper
	callq	"utf16_from_utf8::rest::write_rest::<#8b18edd9dd9aa8df>"
	movq	%r15, %rdi
	movq	%r12, %rsi
	movq	%rdx, %r9
	movq	%r14, %rdx
	cmpq	$31, %rsi
	jbe	.LBB7_45
	jmp	.LBB7_32
.LBB7_40:
	movq	%rsi, %r14
	movq	%rdx, %r12
	movq	%rbx, %rcx
	movq	%rax, %r8
	vzeroupper
	callq	"utf16_from_utf8::blocks::write_mixed_blocks::<#8b18edd9dd9aa8df>"
	movq	%rdx, %r9
	movq	%r14, %rcx
	subq	%rax, %rcx
	cmpq	$191, %rcx
	jbe	.LBB7_42
	movq	%r14, %rsi
	movq	%r12, %rdx
	movq	%r15, %rdi
	cmpq	$31, %rsi
	jbe	.LBB7_45
	jmp	.LBB7_32
.LBB7_27:
	vpmovzxbw	%xmm0, %ymm0
	vpsllw	$8, %ymm0, %ymm0
	vmovdqu	%ymm0, (%rdx)
	leaq	(%rsi,%rsi), %r9
	movq	%rsi, %rax
	cmpq	$31, %rsi
	jbe	.LBB7_45
	jmp	.LBB7_32
.LBB7_28:
	cmpq	$31, %rcx
	ja	.LBB7_34
	vpmovzxbw	%xmm0, %ymm0
	vpsllw	$8, %ymm0, %ymm0
	vmovdqu	%ymm0, (%rdx)
	vmovdqu	-16(%rcx,%rdi), %xmm0
	vpmovmskb	%xmm0, %r8d
	movl	$16, %eax
	testl	%r8d, %r8d
	je	.LBB7_37
	leaq	(%rax,%rax), %r9
	movq	%rsi, %rcx
	subq	%rax, %rcx
	jne	.LBB7_38
.LBB7_31:
	cmpq	$31, %rsi
	jbe	.LBB7_45
.LBB7_32:
	movq	%r9, %rdx
	popq	%rbx
	.cfi_def_cfa_offset 40
	popq	%r12
	.cfi_def_cfa_offset 32
	popq	%r14
	.cfi_def_cfa_offset 24
	popq	%r15
	.cfi_def_cfa_offset 16
	popq	%rbp
	.cfi_def_cfa_offset 8
	vzeroupper
	retq
.LBB7_33:
	.cfi_def_cfa_offset 48
	movl	$1, %eax
	jmp	.LBB7_84
.LBB7_42:
	movq	%r15, %rdi
	movq	%r14, %rsi
	movq	%r12, %rdx
	movq	%rbx, %rcx
	movq	%rax, %r8
	callq	"utf16_from_utf8::rest::write_rest::<#8b18edd9dd9aa8df>"
	movq	%r15, %rdi
	movq	%r14, %rsi
	movq	%rdx, %r9
	movq	%r12, %rdx
	cmpq	$31, %rsi
	jbe	.LBB7_45
	jmp	.LBB7_32
.LBB7_34:
	movq	%rdi, %r14
	movq	%rsi, %r12
	movq	%rcx, %rsi
	movq	%rdx, %r15
	callq	"utf16_from_utf8::ascii::write_front::<#8b18edd9dd9aa8df>"
	movq	%r14, %rdi
	movq	%r12, %rsi
	movq	%r15, %rdx
	leaq	(%rax,%rax), %r9
	movq	%rsi, %rcx
	subq	%rax, %rcx
	je	.LBB7_31
	jmp	.LBB7_38
.LBB7_35:
	vpblendvb	%xmm1, %xmm0, %xmm2, %xmm5
	vpbroadcastd	.LCPI7_23(%rip), %xmm4
	vpmaxub	.LCPI7_6(%rip), %xmm3, %xmm6
	vpsrlw	$2, %xmm5, %xmm7
	vpbroadcastd	.LCPI7_24(%rip), %xmm8
	vpand	%xmm7, %xmm8, %xmm7
	vpsllw	$4, %xmm6, %xmm6
	vpandn	%xmm6, %xmm8, %xmm6
	vpor	%xmm6, %xmm7, %xmm6
	vpmaxub	%xmm3, %xmm5, %xmm7
	vpminub	%xmm4, %xmm7, %xmm8
	vpcmpeqb	%xmm7, %xmm8, %xmm7
	vpand	.LCPI7_14(%rip), %xmm7, %xmm7
	vpor	%xmm7, %xmm6, %xmm6
	vpsllw	$2, %xmm0, %xmm7
	vpand	.LCPI7_15(%rip), %xmm7, %xmm7
	vpsrlw	$4, %xmm1, %xmm8
	vpand	.LCPI7_16(%rip), %xmm8, %xmm8
	vpminub	.LCPI7_17(%rip), %xmm7, %xmm9
	vpcmpeqb	%xmm7, %xmm9, %xmm9
	vpaddb	%xmm3, %xmm9, %xmm9
	vpaddb	.LCPI7_18(%rip), %xmm9, %xmm9
	vpor	%xmm7, %xmm8, %xmm7
	vpminub	.LCPI7_3(%rip), %xmm3, %xmm8
	vpcmpeqb	%xmm3, %xmm8, %xmm3
	vpblendvb	%xmm3, %xmm6, %xmm9, %xmm6
	vpand	.LCPI7_19(%rip), %xmm1, %xmm8
	vpaddb	%xmm2, %xmm7, %xmm7
	vpsllw	$6, %xmm5, %xmm5
	vpand	%xmm2, %xmm5, %xmm2
	vpaddb	%xmm2, %xmm8, %xmm2
	vpblendvb	%xmm3, %xmm2, %xmm7, %xmm2
	vpunpcklbw	%xmm2, %xmm6, %xmm3
	vpminub	%xmm4, %xmm1, %xmm4
	vpcmpeqb	%xmm4, %xmm1, %xmm1
	vpminub	.LCPI7_2(%rip), %xmm0, %xmm4
	vpcmpeqb	%xmm4, %xmm0, %xmm0
	vpand	%xmm0, %xmm1, %xmm0
	vpmovmskb	%xmm0, %eax
	movzbl	%al, %ecx
	popcntl	%ecx, %r8d
	shll	$4, %ecx
	leaq	.Lstatic.13(%rip), %r10
	vpshufb	(%rcx,%r10), %xmm3, %xmm0
	vpunpckhbw	%xmm2, %xmm6, %xmm1
	vmovdqu	%xmm0, (%rdx)
	shrl	$8, %eax
	popcntl	%eax, %r9d
	shll	$4, %eax
	vpshufb	(%rax,%r10), %xmm1, %xmm0
	vmovdqu	%xmm0, (%rdx,%r8,2)
	addl	%r8d, %r9d
	addl	%r9d, %r9d
	movq	%rsi, %rax
	cmpq	$31, %rsi
	jbe	.LBB7_45
	jmp	.LBB7_32
	.p2align	4
.LBB7_43:
	leal	67043328(%rcx), %r11d
	shrl	$10, %r11d
	addl	$-10240, %r11d
	rolw	$8, %r11w
	andl	$1023, %ecx
	orl	$56320, %ecx
	movbew	%cx, 2(%rdx,%r9)
	movl	$4, %r10d
	movl	%r11d, %ecx
.LBB7_44:
	movw	%cx, (%rdx,%r9)
	addq	%r10, %r9
	addq	%r8, %rax
.LBB7_45:
	cmpq	%rsi, %rax
	jae	.LBB7_32
	movzbl	(%rdi,%rax), %ecx
	testb	%cl, %cl
	js	.LBB7_51
	movl	$1, %r8d
.LBB7_48:
	movq	%rbx, %r10
	subq	%r9, %r10
	xorl	%r11d, %r11d
	cmpl	$65536, %ecx
	setae	%r11b
	leaq	2(,%r11,2), %r11
	cmpq	%r11, %r10
	jb	.LBB7_32
	cmpl	$65535, %ecx
	ja	.LBB7_43
	rolw	$8, %cx
	movl	$2, %r10d
	jmp	.LBB7_44
	.p2align	4
.LBB7_51:
	movq	%rsi, %r10
	subq	%rax, %r10
	cmpq	$3, %r10
	jb	.LBB7_55
	leal	31(%rcx), %r8d
	cmpb	$11, %r8b
	ja	.LBB7_56
	movzbl	1(%rdi,%rax), %r8d
	cmpb	$-65, %r8b
	jg	.LBB7_56
	movzbl	2(%rdi,%rax), %r11d
	cmpb	$-65, %r11b
	jg	.LBB7_56
	jmp	.LBB7_61
.LBB7_55:
	cmpq	$2, %r10
	jne	.LBB7_32
.LBB7_56:
	movzbl	1(%rdi,%rax), %r8d
	movl	%ecx, %r11d
	shrb	$4, %r11b
	andb	$12, %r11b
	movl	%r8d, %ebp
	shrb	$6, %bpl
	orb	%r11b, %bpl
	cmpb	$14, %bpl
	jne	.LBB7_32
	leal	31(%rcx), %r11d
	cmpb	$12, %r11b
	jae	.LBB7_62
.LBB7_58:
	cmpq	$2, %r10
	je	.LBB7_32
	movzbl	2(%rdi,%rax), %r11d
	cmpb	$-65, %r11b
	jg	.LBB7_32
	cmpb	$-17, %cl
	ja	.LBB7_66
.LBB7_61:
	shll	$12, %ecx
	shll	$6, %r8d
	addl	%ecx, %r8d
	leal	(%r11,%r8), %ecx
	addl	$-925824, %ecx
	movl	$3, %r8d
	jmp	.LBB7_48
.LBB7_62:
	leal	62(%rcx), %r11d
	cmpb	$30, %r11b
	jb	.LBB7_77
	movb	$-65, %bpl
	leal	-224(%rcx), %r14d
	cmpl	$20, %r14d
	ja	.LBB7_72
	leaq	.LJTI7_0(%rip), %r15
	movslq	(%r15,%r14,4), %r14
	addq	%r15, %r14
	notrack jmpq	*%r14
.LBB7_65:
	movb	$-96, %r14b
	jmp	.LBB7_73
.LBB7_66:
	cmpq	$4, %r10
	jb	.LBB7_32
	movzbl	3(%rdi,%rax), %r10d
	cmpb	$-65, %r10b
	jg	.LBB7_32
	shll	$18, %ecx
	shll	$12, %r8d
	addl	%ecx, %r8d
	shll	$6, %r11d
	addl	%r8d, %r11d
	leal	(%r10,%r11), %ecx
	addl	$-63447168, %ecx
	movl	$4, %r8d
	jmp	.LBB7_48
.LBB7_69:
	movb	$-112, %r14b
	jmp	.LBB7_73
.LBB7_70:
	movb	$-97, %bpl
	jmp	.LBB7_72
.LBB7_71:
	movb	$-113, %bpl
.LBB7_72:
	movb	$-128, %r14b
.LBB7_73:
	cmpb	$50, %r11b
	ja	.LBB7_32
	cmpb	%r8b, %r14b
	ja	.LBB7_32
	cmpb	%bpl, %r8b
	ja	.LBB7_32
	cmpb	$-33, %cl
	ja	.LBB7_58
.LBB7_77:
	shll	$6, %ecx
	addl	%r8d, %ecx
	addl	$-12416, %ecx
	movl	$2, %r8d
	jmp	.LBB7_48
.LBB7_36:
	movl	$2, %eax
	jmp	.LBB7_84
.LBB7_37:
	vpmovzxbw	%xmm0, %ymm0
	vpsllw	$8, %ymm0, %ymm0
	vmovdqu	%ymm0, -32(%rdx,%rcx,2)
	movq	%rcx, %rax
	leaq	(%rax,%rax), %r9
	movq	%rsi, %rcx
	subq	%rax, %rcx
	je	.LBB7_31
	jmp	.LBB7_38
.LBB7_78:
	movl	$3, %eax
	jmp	.LBB7_84
.LBB7_79:
	movl	$4, %eax
	jmp	.LBB7_84
.LBB7_80:
	movl	$5, %eax
	jmp	.LBB7_84
.LBB7_81:
	movl	$6, %eax
	jmp	.LBB7_84
	.p2align	4
.LBB7_82:
	leal	67043328(%rcx), %r11d
	shrl	$10, %r11d
	addl	$-10240, %r11d
	rolw	$8, %r11w
	andl	$1023, %ecx
	orl	$56320, %ecx
	movbew	%cx, 2(%rdx,%r9)
	movl	$4, %r10d
	movl	%r11d, %ecx
.LBB7_83:
	movw	%cx, (%rdx,%r9)
	addq	%r10, %r9
	addq	%r8, %rax
.LBB7_84:
	cmpq	%rsi, %rax
	jae	.LBB7_32
	movzbl	(%rdi,%rax), %ecx
	testb	%cl, %cl
	js	.LBB7_90
	movl	$1, %r8d
.LBB7_87:
	movq	%rbx, %r10
	subq	%r9, %r10
	xorl	%r11d, %r11d
	cmpl	$65536, %ecx
	setae	%r11b
	leaq	2(,%r11,2), %r11
	cmpq	%r11, %r10
	jb	.LBB7_32
	cmpl	$65535, %ecx
	ja	.LBB7_82
	rolw	$8, %cx
	movl	$2, %r10d
	jmp	.LBB7_83
	.p2align	4
.LBB7_90:
	movq	%rsi, %r10
	subq	%rax, %r10
	cmpq	$3, %r10
	jb	.LBB7_94
	leal	31(%rcx), %r8d
	cmpb	$11, %r8b
	ja	.LBB7_95
	movzbl	1(%rdi,%rax), %r8d
	cmpb	$-65, %r8b
	jg	.LBB7_95
	movzbl	2(%rdi,%rax), %r11d
	cmpb	$-65, %r11b
	jg	.LBB7_95
	jmp	.LBB7_100
.LBB7_94:
	cmpq	$2, %r10
	jne	.LBB7_32
.LBB7_95:
	movzbl	1(%rdi,%rax), %r8d
	movl	%ecx, %r11d
	shrb	$4, %r11b
	andb	$12, %r11b
	movl	%r8d, %ebp
	shrb	$6, %bpl
	orb	%r11b, %bpl
	cmpb	$14, %bpl
	jne	.LBB7_32
	leal	31(%rcx), %r11d
	cmpb	$12, %r11b
	jae	.LBB7_101
.LBB7_97:
	cmpq	$2, %r10
	je	.LBB7_32
	movzbl	2(%rdi,%rax), %r11d
	cmpb	$-65, %r11b
	jg	.LBB7_32
	cmpb	$-17, %cl
	ja	.LBB7_105
.LBB7_100:
	shll	$12, %ecx
	shll	$6, %r8d
	addl	%ecx, %r8d
	leal	(%r11,%r8), %ecx
	addl	$-925824, %ecx
	movl	$3, %r8d
	jmp	.LBB7_87
.LBB7_101:
	leal	62(%rcx), %r11d
	cmpb	$30, %r11b
	jb	.LBB7_116
	movb	$-65, %bpl
	leal	-224(%rcx), %r14d
	cmpl	$20, %r14d
	ja	.LBB7_111
	leaq	.LJTI7_1(%rip), %r15
	movslq	(%r15,%r14,4), %r14
	addq	%r15, %r14
	notrack jmpq	*%r14
.LBB7_104:
	movb	$-96, %r14b
	jmp	.LBB7_112
.LBB7_105:
	cmpq	$4, %r10
	jb	.LBB7_32
	movzbl	3(%rdi,%rax), %r10d
	cmpb	$-65, %r10b
	jg	.LBB7_32
	shll	$18, %ecx
	shll	$12, %r8d
	addl	%ecx, %r8d
	shll	$6, %r11d
	addl	%r8d, %r11d
	leal	(%r10,%r11), %ecx
	addl	$-63447168, %ecx
	movl	$4, %r8d
	jmp	.LBB7_87
.LBB7_108:
	movb	$-112, %r14b
	jmp	.LBB7_112
.LBB7_109:
	movb	$-97, %bpl
	jmp	.LBB7_111
.LBB7_110:
	movb	$-113, %bpl
.LBB7_111:
	movb	$-128, %r14b
.LBB7_112:
	cmpb	$50, %r11b
	ja	.LBB7_32
	cmpb	%r8b, %r14b
	ja	.LBB7_32
	cmpb	%bpl, %r8b
	ja	.LBB7_32
	cmpb	$-33, %cl
	ja	.LBB7_97
.LBB7_116:
	shll	$6, %ecx
	addl	%r8d, %ecx
	addl	$-12416, %ecx
	movl	$2, %r8d
	jmp	.LBB7_87
.Lfunc_end7:
	.size	"utf16_transcode::encode::FromUtf8Direction::begin::<#8b18edd9dd9aa8df>", .Lfunc_end7-"utf16_transcode::encode::FromUtf8Direction::begin::<#8b18edd9dd9aa8df>"
	.cfi_endproc
	.section	".rodata.utf16_transcode::encode::FromUtf8Direction::begin::<#8b18edd9dd9aa8df>","a",@progbits
	.p2align	2, 0x0
.LJTI7_0:
	.long	.LBB7_65-.LJTI7_0
	.long	.LBB7_72-.LJTI7_0
	.long	.LBB7_72-.LJTI7_0
	.long	.LBB7_72-.LJTI7_0
	.long	.LBB7_72-.LJTI7_0
	.long	.LBB7_72-.LJTI7_0
	.long	.LBB7_72-.LJTI7_0
	.long	.LBB7_72-.LJTI7_0
	.long	.LBB7_72-.LJTI7_0
	.long	.LBB7_72-.LJTI7_0
	.long	.LBB7_72-.LJTI7_0
	.long	.LBB7_72-.LJTI7_0
	.long	.LBB7_72-.LJTI7_0
	.long	.LBB7_70-.LJTI7_0
	.long	.LBB7_72-.LJTI7_0
	.long	.LBB7_72-.LJTI7_0
	.long	.LBB7_69-.LJTI7_0
	.long	.LBB7_72-.LJTI7_0
	.long	.LBB7_72-.LJTI7_0
	.long	.LBB7_72-.LJTI7_0
	.long	.LBB7_71-.LJTI7_0
.LJTI7_1:
	.long	.LBB7_104-.LJTI7_1
	.long	.LBB7_111-.LJTI7_1
	.long	.LBB7_111-.LJTI7_1
	.long	.LBB7_111-.LJTI7_1
	.long	.LBB7_111-.LJTI7_1
	.long	.LBB7_111-.LJTI7_1
	.long	.LBB7_111-.LJTI7_1
	.long	.LBB7_111-.LJTI7_1
	.long	.LBB7_111-.LJTI7_1
	.long	.LBB7_111-.LJTI7_1
	.long	.LBB7_111-.LJTI7_1
	.long	.LBB7_111-.LJTI7_1
	.long	.LBB7_111-.LJTI7_1
	.long	.LBB7_109-.LJTI7_1
	.long	.LBB7_111-.LJTI7_1
	.long	.LBB7_111-.LJTI7_1
	.long	.LBB7_108-.LJTI7_1
	.long	.LBB7_111-.LJTI7_1
	.long	.LBB7_111-.LJTI7_1
	.long	.LBB7_111-.LJTI7_1
	.long	.LBB7_110-.LJTI7_1

	.section	".text.utf16_from_utf8::ascii::write_front::<#8b18edd9dd9aa8df>","ax",@progbits
	.p2align	4
	.type	"utf16_from_utf8::ascii::write_front::<#8b18edd9dd9aa8df>",@function
"utf16_from_utf8::ascii::write_front::<#8b18edd9dd9aa8df>":
	.cfi_startproc
	xorl	%eax, %eax
	cmpq	$64, %rsi
	jb	.LBB8_4
	movq	%rsi, %rcx
	.p2align	4
.LBB8_2:
	vmovdqu	(%rdi,%rax), %xmm3
	vmovdqu	16(%rdi,%rax), %xmm2
	vmovdqu	32(%rdi,%rax), %xmm1
	vmovdqu	48(%rdi,%rax), %xmm0
	vpor	%xmm2, %xmm3, %xmm4
	vpor	%xmm0, %xmm1, %xmm5
	vpor	%xmm5, %xmm4, %xmm4
	vpmovmskb	%xmm4, %r8d
	testl	%r8d, %r8d
	jne	.LBB8_4
	vpmovzxbw	%xmm3, %ymm3
	vpsllw	$8, %ymm3, %ymm3
	vmovdqu	%ymm3, (%rdx,%rax,2)
	vpmovzxbw	%xmm2, %ymm2
	vpsllw	$8, %ymm2, %ymm2
	vmovdqu	%ymm2, 32(%rdx,%rax,2)
	vpmovzxbw	%xmm1, %ymm1
	vpsllw	$8, %ymm1, %ymm1
	vmovdqu	%ymm1, 64(%rdx,%rax,2)
	vpmovzxbw	%xmm0, %ymm0
	vpsllw	$8, %ymm0, %ymm0
	vmovdqu	%ymm0, 96(%rdx,%rax,2)
	addq	$64, %rax
	addq	$-64, %rcx
	cmpq	$63, %rcx
	ja	.LBB8_2
.LBB8_4:
	movq	%rsi, %rcx
	subq	%rax, %rcx
	cmpq	$16, %rcx
	jb	.LBB8_7
	.p2align	4
.LBB8_5:
	vmovdqu	(%rdi,%rax), %xmm0
	vpmovmskb	%xmm0, %r8d
	testl	%r8d, %r8d
	jne	.LBB8_9
	vpmovzxbw	%xmm0, %ymm0
	vpsllw	$8, %ymm0, %ymm0
	vmovdqu	%ymm0, (%rdx,%rax,2)
	addq	$16, %rax
	addq	$-16, %rcx
	cmpq	$15, %rcx
	ja	.LBB8_5
.LBB8_7:
	vmovdqu	-16(%rsi,%rdi), %xmm0
	vpmovmskb	%xmm0, %ecx
	testl	%ecx, %ecx
	je	.LBB8_8
.LBB8_9:
	vzeroupper
	retq
.LBB8_8:
	vpmovzxbw	%xmm0, %ymm0
	vpsllw	$8, %ymm0, %ymm0
	vmovdqu	%ymm0, -32(%rdx,%rsi,2)
	movq	%rsi, %rax
	vzeroupper
	retq
.Lfunc_end8:
	.size	"utf16_from_utf8::ascii::write_front::<#8b18edd9dd9aa8df>", .Lfunc_end8-"utf16_from_utf8::ascii::write_front::<#8b18edd9dd9aa8df>"
	.cfi_endproc

	.section	.rodata.cst16,"aM",@progbits,16
	.p2align	4, 0x0
.LCPI9_0:
	.zero	16,224
.LCPI9_1:
	.zero	1
	.byte	255
	.byte	0
	.zero	1
	.byte	255
	.byte	0
	.zero	1
	.byte	255
	.byte	0
	.zero	1
	.byte	255
	.byte	0
	.zero	1
	.byte	255
	.byte	0
	.zero	1
.LCPI9_2:
	.byte	0
	.byte	3
	.byte	6
	.byte	9
	.byte	12
	.byte	15
	.byte	128
	.byte	128
	.byte	128
	.byte	128
	.byte	128
	.byte	128
	.byte	128
	.byte	128
	.byte	128
	.byte	128
.LCPI9_3:
	.byte	128
	.byte	128
	.byte	128
	.byte	128
	.byte	128
	.byte	128
	.byte	2
	.byte	5
	.byte	8
	.byte	11
	.byte	14
	.byte	1
	.byte	4
	.byte	7
	.byte	10
	.byte	13
.LCPI9_4:
	.byte	255
	.zero	1
	.byte	0
	.byte	255
	.zero	1
	.byte	0
	.byte	255
	.zero	1
	.byte	0
	.byte	255
	.zero	1
	.byte	0
	.byte	255
	.zero	1
	.byte	0
	.byte	255
.LCPI9_5:
	.byte	1
	.byte	4
	.byte	7
	.byte	10
	.byte	13
	.byte	128
	.byte	128
	.byte	128
	.byte	128
	.byte	128
	.byte	128
	.byte	128
	.byte	128
	.byte	128
	.byte	128
	.byte	128
.LCPI9_6:
	.byte	128
	.byte	128
	.byte	128
	.byte	128
	.byte	128
	.byte	0
	.byte	3
	.byte	6
	.byte	9
	.byte	12
	.byte	15
	.byte	2
	.byte	5
	.byte	8
	.byte	11
	.byte	14
.LCPI9_7:
	.byte	255
	.byte	0
	.zero	1
	.byte	255
	.byte	0
	.zero	1
	.byte	255
	.byte	0
	.zero	1
	.byte	255
	.byte	0
	.zero	1
	.byte	255
	.byte	0
	.zero	1
	.byte	255
.LCPI9_8:
	.byte	2
	.byte	5
	.byte	8
	.byte	11
	.byte	14
	.byte	128
	.byte	128
	.byte	128
	.byte	128
	.byte	128
	.byte	128
	.byte	128
	.byte	128
	.byte	128
	.byte	128
	.byte	128
.LCPI9_9:
	.byte	128
	.byte	128
	.byte	128
	.byte	128
	.byte	128
	.byte	1
	.byte	4
	.byte	7
	.byte	10
	.byte	13
	.byte	0
	.byte	3
	.byte	6
	.byte	9
	.byte	12
	.byte	15
.LCPI9_10:
	.zero	16,240
.LCPI9_11:
	.zero	16,32
.LCPI9_12:
	.zero	16,192
.LCPI9_13:
	.zero	16,128
.LCPI9_14:
	.zero	16,15
.LCPI9_15:
	.zero	16,7
.LCPI9_16:
	.zero	16,248
.LCPI9_17:
	.zero	16,216
.LCPI9_18:
	.zero	16,63
.LCPI9_19:
	.zero	16,191
.LCPI9_20:
	.zero	16,223
.LCPI9_21:
	.zero	16,239
.LCPI9_22:
	.zero	16,159
.LCPI9_23:
	.zero	16,237
.LCPI9_24:
	.zero	16,143
.LCPI9_25:
	.zero	16,245
.LCPI9_26:
	.zero	16,244
.LCPI9_27:
	.zero	16,254
.LCPI9_28:
	.zero	16,220
.LCPI9_29:
	.zero	16,252
.LCPI9_30:
	.zero	16,232
.LCPI9_31:
	.zero	16,127
	.section	.rodata.cst4,"aM",@progbits,4
	.p2align	2, 0x0
.LCPI9_32:
	.zero	4,192
.LCPI9_33:
	.zero	4,128
.LCPI9_34:
	.zero	4,254
.LCPI9_35:
	.zero	4,191
.LCPI9_36:
	.zero	4,63
.LCPI9_37:
	.zero	4,127
.LCPI9_38:
	.zero	4,223
.LCPI9_39:
	.zero	4,239
.LCPI9_40:
	.zero	4,159
.LCPI9_41:
	.zero	4,224
.LCPI9_42:
	.zero	4,237
.LCPI9_43:
	.zero	4,143
.LCPI9_44:
	.zero	4,244
.LCPI9_45:
	.zero	4,240
.LCPI9_46:
	.zero	4,245
.LCPI9_47:
	.zero	4,15
.LCPI9_48:
	.zero	4,252
.LCPI9_49:
	.zero	4,232
.LCPI9_50:
	.zero	4,220
	.section	".text.utf16_from_utf8::blocks::write_mixed_blocks::<#8b18edd9dd9aa8df>","ax",@progbits
	.p2align	4
	.type	"utf16_from_utf8::blocks::write_mixed_blocks::<#8b18edd9dd9aa8df>",@function
"utf16_from_utf8::blocks::write_mixed_blocks::<#8b18edd9dd9aa8df>":
	.cfi_startproc
	pushq	%rbp
	.cfi_def_cfa_offset 16
	pushq	%r15
	.cfi_def_cfa_offset 24
	pushq	%r14
	.cfi_def_cfa_offset 32
	pushq	%r13
	.cfi_def_cfa_offset 40
	pushq	%r12
	.cfi_def_cfa_offset 48
	pushq	%rbx
	.cfi_def_cfa_offset 56
	subq	$56, %rsp
	.cfi_def_cfa_offset 112
	.cfi_offset %rbx, -56
	.cfi_offset %r12, -48
	.cfi_offset %r13, -40
	.cfi_offset %r14, -32
	.cfi_offset %r15, -24
	.cfi_offset %rbp, -16
	movq	%r9, %rbx
	movq	%r8, %rax
	movq	%rcx, %r15
	movq	%rdx, %r12
	movq	%rsi, %r13
	movq	%rdi, %rbp
	jmp	.LBB9_1
	.p2align	4
.LBB9_4:
	shrq	%rsi
	cmpq	%rax, %rsi
	cmovaeq	%rax, %rsi
	leaq	(%r12,%rbx), %rdx
	callq	"utf16_from_utf8::ascii::write_front::<#8b18edd9dd9aa8df>"
	leaq	(%rbx,%rax,2), %rbx
	addq	%r14, %rax
.LBB9_27:
	cmpq	%r14, %rax
	je	.LBB9_28
.LBB9_1:
	movq	%rax, %r14
	movq	%r13, %rax
	subq	%r14, %rax
	cmpq	$64, %rax
	jb	.LBB9_28
	movq	%r15, %rsi
	subq	%rbx, %rsi
	cmpq	$128, %rsi
	jb	.LBB9_28
	leaq	(%r14,%rbp), %rdi
	vmovdqu	(%rbp,%r14), %xmm4
	vmovdqu	16(%rbp,%r14), %xmm5
	vmovdqu	32(%rbp,%r14), %xmm2
	vmovdqu	48(%rbp,%r14), %xmm1
	vpmaxub	%xmm5, %xmm4, %xmm0
	vpmaxub	%xmm1, %xmm2, %xmm3
	vpmaxub	%xmm3, %xmm0, %xmm0
	vpmovmskb	%xmm0, %ecx
	testl	%ecx, %ecx
	je	.LBB9_4
	vpmaxub	.LCPI9_0(%rip), %xmm0, %xmm3
	vpcmpeqb	%xmm3, %xmm0, %xmm3
	vpmovmskb	%xmm3, %eax
	testl	%eax, %eax
	je	.LBB9_6
	vmovd	%xmm4, %eax
	andb	$-16, %al
	cmpb	$-32, %al
	jne	.LBB9_9
	leaq	-32(%r15), %rcx
	subq	%rbx, %rcx
	leaq	-48(%r13), %rdx
	subq	%r14, %rdx
	movq	%r14, %rax
	.p2align	4
.LBB9_11:
	vmovdqu	(%rbp,%rax), %xmm1
	vmovdqu	16(%rbp,%rax), %xmm2
	vmovdqu	32(%rbp,%rax), %xmm4
	vmovdqa	.LCPI9_1(%rip), %xmm3
	vpblendvb	%xmm3, %xmm4, %xmm2, %xmm3
	vpshufb	.LCPI9_2(%rip), %xmm1, %xmm5
	vpshufb	.LCPI9_3(%rip), %xmm3, %xmm3
	vmovdqa	.LCPI9_4(%rip), %xmm6
	vpblendvb	%xmm6, %xmm2, %xmm4, %xmm6
	vpshufb	.LCPI9_5(%rip), %xmm1, %xmm7
	vpshufb	.LCPI9_6(%rip), %xmm6, %xmm6
	vpor	%xmm5, %xmm3, %xmm3
	vmovdqa	.LCPI9_7(%rip), %xmm5
	vpblendvb	%xmm5, %xmm4, %xmm2, %xmm2
	vpshufb	.LCPI9_8(%rip), %xmm1, %xmm1
	vpshufb	.LCPI9_9(%rip), %xmm2, %xmm4
	vpor	%xmm7, %xmm6, %xmm2
	vpor	%xmm1, %xmm4, %xmm1
	vpand	.LCPI9_10(%rip), %xmm3, %xmm4
	vpaddb	.LCPI9_11(%rip), %xmm4, %xmm4
	vpbroadcastd	.LCPI9_32(%rip), %xmm5
	vpand	%xmm5, %xmm2, %xmm6
	vpbroadcastd	.LCPI9_33(%rip), %xmm7
	vpxor	%xmm7, %xmm6, %xmm6
	vpmaxub	%xmm6, %xmm4, %xmm4
	vpand	%xmm5, %xmm1, %xmm5
	vpxor	%xmm7, %xmm5, %xmm5
	vpor	%xmm5, %xmm4, %xmm4
	vptest	%xmm4, %xmm4
	jne	.LBB9_15
	vpsllw	$4, %xmm3, %xmm3
	vpand	.LCPI9_10(%rip), %xmm3, %xmm3
	vpsrlw	$2, %xmm2, %xmm4
	vpand	.LCPI9_14(%rip), %xmm4, %xmm4
	vpor	%xmm3, %xmm4, %xmm3
	vpminub	.LCPI9_15(%rip), %xmm3, %xmm4
	vpand	.LCPI9_16(%rip), %xmm3, %xmm5
	vpcmpeqb	.LCPI9_17(%rip), %xmm5, %xmm5
	vpcmpeqb	%xmm4, %xmm3, %xmm4
	vpor	%xmm5, %xmm4, %xmm4
	vpmovmskb	%xmm4, %esi
	testl	%esi, %esi
	jne	.LBB9_15
	vpsllw	$6, %xmm2, %xmm2
	vpand	.LCPI9_12(%rip), %xmm2, %xmm2
	vpand	.LCPI9_18(%rip), %xmm1, %xmm1
	vpor	%xmm1, %xmm2, %xmm1
	vpunpcklbw	%xmm1, %xmm3, %xmm2
	vmovdqu	%xmm2, (%r12,%rbx)
	vpunpckhbw	%xmm1, %xmm3, %xmm1
	vmovdqu	%xmm1, 16(%r12,%rbx)
	addq	$32, %rbx
	addq	$48, %rax
	subq	$32, %rcx
	setb	%sil
	subq	$48, %rdx
	jb	.LBB9_15
	testb	%sil, %sil
	je	.LBB9_11
	jmp	.LBB9_15
	.p2align	4
.LBB9_6:
	vpslldq	$1, %xmm4, %xmm3
	vpbroadcastd	.LCPI9_32(%rip), %xmm0
	vpcmpgtb	%xmm4, %xmm0, %xmm6
	vpmaxub	%xmm0, %xmm3, %xmm7
	vpcmpeqb	%xmm7, %xmm3, %xmm7
	vpxor	%xmm7, %xmm6, %xmm6
	vpbroadcastd	.LCPI9_34(%rip), %xmm7
	vpand	%xmm7, %xmm4, %xmm8
	vpcmpeqb	%xmm0, %xmm8, %xmm8
	vpor	%xmm6, %xmm8, %xmm6
	vpcmpgtb	%xmm5, %xmm0, %xmm8
	vmovdqu	15(%rdi), %xmm9
	vmovdqu	31(%rdi), %xmm10
	vmovdqu	47(%rdi), %xmm11
	vpmaxub	%xmm0, %xmm9, %xmm12
	vpcmpeqb	%xmm12, %xmm9, %xmm9
	vpxor	%xmm9, %xmm8, %xmm8
	vpand	%xmm7, %xmm5, %xmm5
	vpcmpeqb	%xmm0, %xmm5, %xmm5
	vpor	%xmm5, %xmm8, %xmm5
	vpor	%xmm5, %xmm6, %xmm5
	vpcmpgtb	%xmm2, %xmm0, %xmm6
	vpmaxub	%xmm0, %xmm10, %xmm8
	vpcmpeqb	%xmm8, %xmm10, %xmm8
	vpxor	%xmm6, %xmm8, %xmm6
	vpand	%xmm7, %xmm2, %xmm2
	vpcmpeqb	%xmm0, %xmm2, %xmm2
	vpor	%xmm6, %xmm2, %xmm2
	vpcmpgtb	%xmm1, %xmm0, %xmm6
	vpmaxub	%xmm0, %xmm11, %xmm8
	vpcmpeqb	%xmm8, %xmm11, %xmm8
	vpxor	%xmm6, %xmm8, %xmm6
	vpand	%xmm7, %xmm1, %xmm1
	vpcmpeqb	%xmm0, %xmm1, %xmm1
	vpor	%xmm6, %xmm1, %xmm1
	vpor	%xmm1, %xmm2, %xmm1
	vpor	%xmm1, %xmm5, %xmm1
	vpmovmskb	%xmm1, %eax
	testl	%eax, %eax
	jne	.LBB9_28
	vpsubusb	%xmm0, %xmm3, %xmm5
	vpbroadcastd	.LCPI9_35(%rip), %xmm1
	vpsrlw	$2, %xmm5, %xmm3
	vpbroadcastd	.LCPI9_36(%rip), %xmm2
	vpand	%xmm2, %xmm3, %xmm6
	vpbroadcastd	.LCPI9_37(%rip), %xmm3
	vpand	%xmm3, %xmm4, %xmm7
	vpsllw	$6, %xmm5, %xmm5
	vpand	%xmm0, %xmm5, %xmm5
	vpaddb	%xmm7, %xmm5, %xmm5
	vpminub	%xmm1, %xmm4, %xmm7
	vpcmpeqb	%xmm7, %xmm4, %xmm4
	vpmovmskb	%xmm4, %edx
	vpunpckhbw	%xmm5, %xmm6, %xmm4
	vpunpcklbw	%xmm5, %xmm6, %xmm5
	movzbl	%dl, %ecx
	popcntl	%ecx, %r8d
	shll	$4, %ecx
	leaq	.Lstatic.13(%rip), %rax
	vpshufb	(%rcx,%rax), %xmm5, %xmm5
	leaq	(%r12,%rbx), %rcx
	vmovdqu	%xmm5, (%r12,%rbx)
	shrl	$8, %edx
	popcntl	%edx, %esi
	shll	$4, %edx
	vpshufb	(%rdx,%rax), %xmm4, %xmm4
	vmovdqu	%xmm4, (%rcx,%r8,2)
	addq	%r8, %rsi
	vmovdqu	15(%rdi), %xmm4
	vmovdqu	16(%rdi), %xmm5
	vpsubusb	%xmm0, %xmm4, %xmm4
	vpsrlw	$2, %xmm4, %xmm6
	vpand	%xmm2, %xmm6, %xmm6
	vpand	%xmm3, %xmm5, %xmm7
	vpsllw	$6, %xmm4, %xmm4
	vpand	%xmm0, %xmm4, %xmm4
	vpaddb	%xmm4, %xmm7, %xmm4
	vpminub	%xmm1, %xmm5, %xmm7
	vpcmpeqb	%xmm7, %xmm5, %xmm5
	vpmovmskb	%xmm5, %r8d
	vpunpckhbw	%xmm4, %xmm6, %xmm5
	vpunpcklbw	%xmm4, %xmm6, %xmm4
	movzbl	%r8b, %edx
	popcntl	%edx, %r9d
	shll	$4, %edx
	vpshufb	(%rdx,%rax), %xmm4, %xmm4
	vmovdqu	%xmm4, (%rcx,%rsi,2)
	leaq	(%rcx,%rsi,2), %r10
	shrl	$8, %r8d
	xorl	%edx, %edx
	popcntl	%r8d, %edx
	shll	$4, %r8d
	vpshufb	(%r8,%rax), %xmm5, %xmm4
	vmovdqu	%xmm4, (%r10,%r9,2)
	addq	%rsi, %rdx
	addq	%r9, %rdx
	vmovdqu	31(%rdi), %xmm4
	vmovdqu	32(%rdi), %xmm5
	vpsubusb	%xmm0, %xmm4, %xmm4
	vpsrlw	$2, %xmm4, %xmm6
	vpand	%xmm2, %xmm6, %xmm6
	vpand	%xmm3, %xmm5, %xmm7
	vpsllw	$6, %xmm4, %xmm4
	vpand	%xmm0, %xmm4, %xmm4
	vpaddb	%xmm4, %xmm7, %xmm4
	vpminub	%xmm1, %xmm5, %xmm7
	vpcmpeqb	%xmm7, %xmm5, %xmm5
	vpmovmskb	%xmm5, %r8d
	vpunpckhbw	%xmm4, %xmm6, %xmm5
	vpunpcklbw	%xmm4, %xmm6, %xmm4
	movzbl	%r8b, %esi
	xorl	%r9d, %r9d
	popcntl	%esi, %r9d
	shll	$4, %esi
	vpshufb	(%rsi,%rax), %xmm4, %xmm4
	vmovdqu	%xmm4, (%rcx,%rdx,2)
	leaq	(%rcx,%rdx,2), %r10
	shrl	$8, %r8d
	xorl	%esi, %esi
	popcntl	%r8d, %esi
	shll	$4, %r8d
	vpshufb	(%r8,%rax), %xmm5, %xmm4
	vmovdqu	%xmm4, (%r10,%r9,2)
	addq	%r9, %rsi
	addq	%rdx, %rsi
	vmovdqu	47(%rdi), %xmm4
	vmovdqu	48(%rdi), %xmm5
	vpsubusb	%xmm0, %xmm4, %xmm4
	vpsrlw	$2, %xmm4, %xmm6
	vpand	%xmm2, %xmm6, %xmm2
	vpand	%xmm3, %xmm5, %xmm3
	vpsllw	$6, %xmm4, %xmm4
	vpand	%xmm0, %xmm4, %xmm0
	vpaddb	%xmm0, %xmm3, %xmm0
	vpminub	%xmm1, %xmm5, %xmm1
	vpcmpeqb	%xmm1, %xmm5, %xmm1
	vpmovmskb	%xmm1, %edx
	vpunpckhbw	%xmm0, %xmm2, %xmm1
	vpunpcklbw	%xmm0, %xmm2, %xmm0
	movzbl	%dl, %r8d
	xorl	%r9d, %r9d
	popcntl	%r8d, %r9d
	shll	$4, %r8d
	vpshufb	(%r8,%rax), %xmm0, %xmm0
	vmovdqu	%xmm0, (%rcx,%rsi,2)
	leaq	(%rcx,%rsi,2), %rcx
	shrl	$8, %edx
	xorl	%r8d, %r8d
	popcntl	%edx, %r8d
	shll	$4, %edx
	vpshufb	(%rdx,%rax), %xmm1, %xmm0
	vmovdqu	%xmm0, (%rcx,%r9,2)
	addq	%r9, %r8
	addq	%rsi, %r8
	cmpb	$-64, 63(%rdi)
	leaq	(%rbx,%r8,2), %rbx
	movq	%r14, %rax
	adcq	$-1, %rax
	addq	$64, %rax
	jmp	.LBB9_27
.LBB9_9:
	movq	%r14, %rax
.LBB9_15:
	cmpq	%rax, %r14
	jb	.LBB9_27
	vpmaxub	.LCPI9_10(%rip), %xmm0, %xmm1
	vpcmpeqb	%xmm1, %xmm0, %xmm0
	vpmovmskb	%xmm0, %ecx
	vmovdqu	(%rbp,%rax), %xmm6
	vpslldq	$1, %xmm6, %xmm5
	vpslldq	$2, %xmm6, %xmm7
	testl	%ecx, %ecx
	je	.LBB9_17
	vpslldq	$1, %xmm7, %xmm2
	vpbroadcastd	.LCPI9_32(%rip), %xmm14
	vpcmpgtb	%xmm6, %xmm14, %xmm3
	vpbroadcastd	.LCPI9_35(%rip), %xmm15
	vpsubusb	%xmm15, %xmm5, %xmm4
	vpbroadcastd	.LCPI9_38(%rip), %xmm13
	vmovdqa	%xmm7, 16(%rsp)
	vpsubusb	%xmm13, %xmm7, %xmm8
	vpmaxub	%xmm4, %xmm8, %xmm4
	vpbroadcastd	.LCPI9_39(%rip), %xmm1
	vpsubusb	%xmm1, %xmm2, %xmm2
	vpor	%xmm2, %xmm4, %xmm2
	vpxor	%xmm0, %xmm0, %xmm0
	vpcmpgtb	%xmm0, %xmm2, %xmm2
	vpbroadcastd	.LCPI9_40(%rip), %xmm9
	vpminub	%xmm6, %xmm9, %xmm4
	vpcmpeqb	%xmm4, %xmm6, %xmm4
	vpbroadcastd	.LCPI9_41(%rip), %xmm11
	vpbroadcastd	.LCPI9_42(%rip), %xmm10
	vpblendvb	%xmm4, %xmm11, %xmm10, %xmm4
	vpxor	%xmm2, %xmm3, %xmm2
	vpcmpeqb	%xmm4, %xmm5, %xmm3
	vpbroadcastd	.LCPI9_43(%rip), %xmm8
	vpminub	%xmm6, %xmm8, %xmm4
	vpcmpeqb	%xmm4, %xmm6, %xmm4
	vpmaxub	.LCPI9_25(%rip), %xmm6, %xmm12
	vpcmpeqb	%xmm6, %xmm12, %xmm12
	vpbroadcastd	.LCPI9_44(%rip), %xmm0
	vpblendvb	%xmm4, .LCPI9_10(%rip), %xmm0, %xmm4
	vmovdqa	%xmm5, (%rsp)
	vpcmpeqb	%xmm4, %xmm5, %xmm4
	vpor	%xmm3, %xmm4, %xmm3
	vpor	%xmm3, %xmm12, %xmm3
	vpbroadcastd	.LCPI9_34(%rip), %xmm12
	vpand	%xmm6, %xmm12, %xmm4
	vpcmpeqb	%xmm4, %xmm14, %xmm4
	vpor	%xmm2, %xmm4, %xmm2
	vpor	%xmm2, %xmm3, %xmm5
	vmovdqu	14(%rbp,%rax), %xmm3
	vmovdqu	15(%rbp,%rax), %xmm4
	vpsubusb	%xmm13, %xmm3, %xmm3
	vpsubusb	%xmm15, %xmm4, %xmm0
	vpmaxub	%xmm3, %xmm0, %xmm0
	vmovdqu	13(%rbp,%rax), %xmm3
	vmovdqa	%xmm1, %xmm7
	vpsubusb	%xmm1, %xmm3, %xmm3
	vpor	%xmm3, %xmm0, %xmm0
	vpxor	%xmm1, %xmm1, %xmm1
	vpcmpgtb	%xmm1, %xmm0, %xmm0
	vmovdqu	16(%rbp,%rax), %xmm3
	vpcmpgtb	%xmm3, %xmm14, %xmm1
	vpxor	%xmm0, %xmm1, %xmm0
	vpminub	%xmm3, %xmm9, %xmm1
	vpcmpeqb	%xmm1, %xmm3, %xmm1
	vpblendvb	%xmm1, %xmm11, %xmm10, %xmm1
	vmovdqa	%xmm8, %xmm14
	vpminub	%xmm3, %xmm8, %xmm8
	vpcmpeqb	%xmm3, %xmm8, %xmm8
	vpbroadcastd	.LCPI9_44(%rip), %xmm15
	vpbroadcastd	.LCPI9_45(%rip), %xmm2
	vpblendvb	%xmm8, %xmm2, %xmm15, %xmm8
	vpcmpeqb	%xmm1, %xmm4, %xmm1
	vpcmpeqb	%xmm4, %xmm8, %xmm4
	vpor	%xmm1, %xmm4, %xmm1
	vpbroadcastd	.LCPI9_46(%rip), %xmm11
	vpmaxub	%xmm3, %xmm11, %xmm4
	vpcmpeqb	%xmm4, %xmm3, %xmm4
	vpor	%xmm4, %xmm1, %xmm1
	vpand	%xmm3, %xmm12, %xmm3
	vpbroadcastd	.LCPI9_32(%rip), %xmm8
	vpcmpeqb	%xmm3, %xmm8, %xmm3
	vpor	%xmm0, %xmm3, %xmm0
	vpor	%xmm1, %xmm0, %xmm0
	vpor	%xmm0, %xmm5, %xmm0
	vmovdqa	%xmm0, 32(%rsp)
	vmovdqu	30(%rbp,%rax), %xmm0
	vmovdqu	31(%rbp,%rax), %xmm1
	vpsubusb	%xmm13, %xmm0, %xmm0
	vpsubusb	.LCPI9_19(%rip), %xmm1, %xmm3
	vpmaxub	%xmm0, %xmm3, %xmm0
	vmovdqu	29(%rbp,%rax), %xmm3
	vpsubusb	%xmm7, %xmm3, %xmm3
	vpor	%xmm3, %xmm0, %xmm0
	vpxor	%xmm3, %xmm3, %xmm3
	vpcmpgtb	%xmm3, %xmm0, %xmm0
	vpxor	%xmm5, %xmm5, %xmm5
	vmovdqu	32(%rbp,%rax), %xmm3
	vpcmpgtb	%xmm3, %xmm8, %xmm4
	vmovdqa	%xmm8, %xmm13
	vpxor	%xmm0, %xmm4, %xmm0
	vpminub	%xmm3, %xmm9, %xmm4
	vpcmpeqb	%xmm4, %xmm3, %xmm4
	vpblendvb	%xmm4, .LCPI9_0(%rip), %xmm10, %xmm4
	vpcmpeqb	%xmm4, %xmm1, %xmm4
	vpminub	%xmm3, %xmm14, %xmm8
	vpcmpeqb	%xmm3, %xmm8, %xmm8
	vpblendvb	%xmm8, %xmm2, %xmm15, %xmm8
	vpcmpeqb	%xmm1, %xmm8, %xmm1
	vpor	%xmm4, %xmm1, %xmm1
	vpmaxub	%xmm3, %xmm11, %xmm4
	vpcmpeqb	%xmm4, %xmm3, %xmm4
	vpor	%xmm4, %xmm1, %xmm1
	vpand	%xmm3, %xmm12, %xmm3
	vpcmpeqb	%xmm3, %xmm13, %xmm3
	vpor	%xmm0, %xmm3, %xmm0
	vpor	%xmm1, %xmm0, %xmm3
	vmovdqu	48(%rbp,%rax), %xmm4
	vpminub	%xmm4, %xmm14, %xmm0
	vpcmpeqb	%xmm0, %xmm4, %xmm0
	vpblendvb	%xmm0, %xmm2, %xmm15, %xmm0
	vmovdqa	%xmm13, %xmm15
	vmovdqu	46(%rbp,%rax), %xmm1
	vmovdqu	47(%rbp,%rax), %xmm8
	vpsubusb	.LCPI9_20(%rip), %xmm1, %xmm1
	vpsubusb	.LCPI9_19(%rip), %xmm8, %xmm13
	vpmaxub	%xmm1, %xmm13, %xmm1
	vmovdqu	45(%rbp,%rax), %xmm13
	vpsubusb	.LCPI9_21(%rip), %xmm13, %xmm13
	vpor	%xmm1, %xmm13, %xmm1
	vpcmpgtb	%xmm5, %xmm1, %xmm1
	vpminub	%xmm4, %xmm9, %xmm9
	vpcmpeqb	%xmm4, %xmm9, %xmm9
	vpbroadcastd	.LCPI9_41(%rip), %xmm5
	vpblendvb	%xmm9, %xmm5, %xmm10, %xmm9
	vpcmpgtb	%xmm4, %xmm15, %xmm10
	vpxor	%xmm1, %xmm10, %xmm1
	vpcmpeqb	%xmm9, %xmm8, %xmm9
	vpcmpeqb	%xmm0, %xmm8, %xmm0
	vpor	%xmm0, %xmm9, %xmm0
	vpmaxub	%xmm4, %xmm11, %xmm8
	vpcmpeqb	%xmm4, %xmm8, %xmm8
	vpor	%xmm0, %xmm8, %xmm0
	vpand	%xmm4, %xmm12, %xmm4
	vpcmpeqb	%xmm4, %xmm15, %xmm4
	vpor	%xmm1, %xmm4, %xmm1
	vpor	%xmm0, %xmm1, %xmm0
	vpor	%xmm0, %xmm3, %xmm0
	vpor	32(%rsp), %xmm0, %xmm0
	vpsllw	$7, %xmm0, %xmm0
	vpmovmskb	%xmm0, %ecx
	testl	%ecx, %ecx
	jne	.LBB9_27
	vmovdqa	%xmm5, %xmm7
	vmovdqa	(%rsp), %xmm5
	vpblendvb	%xmm6, %xmm5, %xmm15, %xmm2
	vmovdqa	%xmm7, %xmm0
	vmovdqa	16(%rsp), %xmm7
	vpmaxub	%xmm0, %xmm7, %xmm0
	vpsrlw	$2, %xmm2, %xmm1
	vpbroadcastd	.LCPI9_47(%rip), %xmm11
	vpand	%xmm1, %xmm11, %xmm1
	vpsllw	$4, %xmm0, %xmm0
	vpandn	%xmm0, %xmm11, %xmm0
	vpor	%xmm0, %xmm1, %xmm0
	vpmaxub	%xmm7, %xmm2, %xmm1
	vpbroadcastd	.LCPI9_35(%rip), %xmm9
	vpminub	%xmm1, %xmm9, %xmm3
	vpcmpeqb	%xmm3, %xmm1, %xmm1
	vpand	.LCPI9_28(%rip), %xmm1, %xmm1
	vpor	%xmm1, %xmm0, %xmm0
	vpsllw	$2, %xmm5, %xmm1
	vpbroadcastd	.LCPI9_48(%rip), %xmm14
	vpand	%xmm1, %xmm14, %xmm1
	vpbroadcastd	.LCPI9_36(%rip), %xmm12
	vpminub	%xmm1, %xmm12, %xmm3
	vpcmpeqb	%xmm3, %xmm1, %xmm3
	vpbroadcastd	.LCPI9_49(%rip), %xmm13
	vpaddb	%xmm7, %xmm13, %xmm4
	vpaddb	%xmm4, %xmm3, %xmm3
	vpsrlw	$4, %xmm6, %xmm4
	vpandn	%xmm4, %xmm14, %xmm4
	vpor	%xmm4, %xmm1, %xmm1
	vpbroadcastd	.LCPI9_39(%rip), %xmm10
	vpminub	%xmm7, %xmm10, %xmm4
	vpcmpeqb	%xmm4, %xmm7, %xmm4
	vpblendvb	%xmm4, %xmm0, %xmm3, %xmm0
	vpsllw	$6, %xmm2, %xmm2
	vpand	%xmm2, %xmm15, %xmm2
	vpand	.LCPI9_31(%rip), %xmm6, %xmm3
	vpaddb	%xmm3, %xmm2, %xmm2
	vpaddb	%xmm1, %xmm15, %xmm1
	vpblendvb	%xmm4, %xmm2, %xmm1, %xmm1
	vpminub	%xmm6, %xmm9, %xmm2
	vpcmpeqb	%xmm2, %xmm6, %xmm2
	vpbroadcastd	.LCPI9_38(%rip), %xmm7
	vpminub	%xmm7, %xmm5, %xmm3
	vpcmpeqb	%xmm3, %xmm5, %xmm3
	vpand	%xmm3, %xmm2, %xmm2
	vpmovmskb	%xmm2, %r8d
	vpunpckhbw	%xmm1, %xmm0, %xmm2
	vpunpcklbw	%xmm1, %xmm0, %xmm0
	movzbl	%r8b, %edx
	popcntl	%edx, %esi
	shll	$4, %edx
	leaq	.Lstatic.13(%rip), %rcx
	vpshufb	(%rdx,%rcx), %xmm0, %xmm0
	vmovdqu	%xmm0, (%r12,%rbx)
	leaq	(%r12,%rbx), %rdx
	shrl	$8, %r8d
	popcntl	%r8d, %edi
	shll	$4, %r8d
	vpshufb	(%r8,%rcx), %xmm2, %xmm0
	vmovdqu	%xmm0, (%rdx,%rsi,2)
	vmovdqu	15(%rbp,%rax), %xmm3
	vmovdqu	16(%rbp,%rax), %xmm2
	vpblendvb	%xmm2, %xmm3, %xmm15, %xmm0
	vmovdqu	14(%rbp,%rax), %xmm1
	vpsrlw	$2, %xmm0, %xmm4
	vpand	%xmm4, %xmm11, %xmm4
	vpbroadcastd	.LCPI9_41(%rip), %xmm7
	vpmaxub	%xmm7, %xmm1, %xmm5
	vpsllw	$4, %xmm5, %xmm5
	vpandn	%xmm5, %xmm11, %xmm5
	vpor	%xmm5, %xmm4, %xmm4
	vpmaxub	%xmm1, %xmm0, %xmm5
	vpminub	%xmm5, %xmm9, %xmm6
	vmovdqa	%xmm9, %xmm11
	vpcmpeqb	%xmm6, %xmm5, %xmm5
	vpbroadcastd	.LCPI9_50(%rip), %xmm8
	vpand	%xmm5, %xmm8, %xmm5
	vpor	%xmm5, %xmm4, %xmm4
	vpsllw	$2, %xmm3, %xmm5
	vpand	%xmm5, %xmm14, %xmm5
	vpminub	%xmm5, %xmm12, %xmm6
	vpcmpeqb	%xmm6, %xmm5, %xmm6
	vmovdqa	%xmm13, %xmm9
	vpaddb	%xmm1, %xmm13, %xmm13
	vpaddb	%xmm6, %xmm13, %xmm6
	vpminub	%xmm1, %xmm10, %xmm13
	vpcmpeqb	%xmm1, %xmm13, %xmm1
	vpblendvb	%xmm1, %xmm4, %xmm6, %xmm4
	vpsrlw	$4, %xmm2, %xmm6
	vpandn	%xmm6, %xmm14, %xmm6
	vpor	%xmm6, %xmm5, %xmm5
	vpsllw	$6, %xmm0, %xmm0
	vpand	%xmm0, %xmm15, %xmm0
	vpbroadcastd	.LCPI9_37(%rip), %xmm10
	vpand	%xmm2, %xmm10, %xmm6
	vpaddb	%xmm6, %xmm0, %xmm0
	vpaddb	%xmm5, %xmm15, %xmm5
	vpblendvb	%xmm1, %xmm0, %xmm5, %xmm0
	addl	%esi, %edi
	vpminub	.LCPI9_20(%rip), %xmm3, %xmm1
	vpcmpeqb	%xmm1, %xmm3, %xmm1
	vpminub	%xmm2, %xmm11, %xmm3
	vpcmpeqb	%xmm3, %xmm2, %xmm2
	vpand	%xmm2, %xmm1, %xmm1
	vpmovmskb	%xmm1, %r9d
	vpunpckhbw	%xmm0, %xmm4, %xmm1
	vpunpcklbw	%xmm0, %xmm4, %xmm0
	movzbl	%r9b, %esi
	xorl	%r8d, %r8d
	popcntl	%esi, %r8d
	shll	$4, %esi
	vpshufb	(%rsi,%rcx), %xmm0, %xmm0
	vmovdqu	%xmm0, (%rdx,%rdi,2)
	leaq	(%rdx,%rdi,2), %r10
	shrl	$8, %r9d
	xorl	%esi, %esi
	popcntl	%r9d, %esi
	shll	$4, %r9d
	vpshufb	(%r9,%rcx), %xmm1, %xmm0
	vmovdqu	%xmm0, (%r10,%r8,2)
	vmovdqu	31(%rbp,%rax), %xmm3
	vmovdqu	32(%rbp,%rax), %xmm2
	vpblendvb	%xmm2, %xmm3, %xmm15, %xmm0
	vmovdqu	30(%rbp,%rax), %xmm1
	vpsrlw	$2, %xmm0, %xmm4
	vpbroadcastd	.LCPI9_47(%rip), %xmm6
	vpand	%xmm6, %xmm4, %xmm4
	vpmaxub	%xmm7, %xmm1, %xmm5
	vpsllw	$4, %xmm5, %xmm5
	vpandn	%xmm5, %xmm6, %xmm5
	vmovdqa	%xmm6, %xmm7
	vpor	%xmm5, %xmm4, %xmm4
	vpmaxub	%xmm1, %xmm0, %xmm5
	vpminub	%xmm5, %xmm11, %xmm6
	vpcmpeqb	%xmm6, %xmm5, %xmm5
	vpand	%xmm5, %xmm8, %xmm5
	vpor	%xmm5, %xmm4, %xmm4
	vpsllw	$2, %xmm3, %xmm5
	vpand	%xmm5, %xmm14, %xmm5
	vpminub	%xmm5, %xmm12, %xmm6
	vpcmpeqb	%xmm6, %xmm5, %xmm6
	vpaddb	%xmm1, %xmm9, %xmm13
	vpaddb	%xmm6, %xmm13, %xmm6
	vpminub	.LCPI9_21(%rip), %xmm1, %xmm13
	vpcmpeqb	%xmm1, %xmm13, %xmm1
	vpblendvb	%xmm1, %xmm4, %xmm6, %xmm4
	vpsrlw	$4, %xmm2, %xmm6
	vpandn	%xmm6, %xmm14, %xmm6
	vpor	%xmm6, %xmm5, %xmm5
	vpsllw	$6, %xmm0, %xmm0
	vpand	%xmm0, %xmm15, %xmm0
	vpand	%xmm2, %xmm10, %xmm6
	vpaddb	%xmm6, %xmm0, %xmm0
	vpaddb	%xmm5, %xmm15, %xmm5
	vpblendvb	%xmm1, %xmm0, %xmm5, %xmm0
	addl	%r8d, %esi
	addl	%edi, %esi
	vpminub	.LCPI9_20(%rip), %xmm3, %xmm1
	vpcmpeqb	%xmm1, %xmm3, %xmm1
	vpminub	%xmm2, %xmm11, %xmm3
	vpcmpeqb	%xmm3, %xmm2, %xmm2
	vpand	%xmm2, %xmm1, %xmm1
	vpmovmskb	%xmm1, %r9d
	vpunpckhbw	%xmm0, %xmm4, %xmm1
	vpunpcklbw	%xmm0, %xmm4, %xmm0
	movzbl	%r9b, %edi
	xorl	%r8d, %r8d
	popcntl	%edi, %r8d
	shll	$4, %edi
	vpshufb	(%rdi,%rcx), %xmm0, %xmm0
	leaq	(%rdx,%rsi,2), %r10
	vmovdqu	%xmm0, (%rdx,%rsi,2)
	shrl	$8, %r9d
	xorl	%edi, %edi
	popcntl	%r9d, %edi
	shll	$4, %r9d
	vpshufb	(%r9,%rcx), %xmm1, %xmm0
	vmovdqu	%xmm0, (%r10,%r8,2)
	vmovdqu	46(%rbp,%rax), %xmm0
	vmovdqu	47(%rbp,%rax), %xmm3
	vmovdqu	48(%rbp,%rax), %xmm2
	vpblendvb	%xmm2, %xmm3, %xmm15, %xmm1
	vpmaxub	.LCPI9_0(%rip), %xmm0, %xmm4
	vpsrlw	$2, %xmm1, %xmm5
	vpand	%xmm7, %xmm5, %xmm5
	vpsllw	$4, %xmm4, %xmm4
	vpandn	%xmm4, %xmm7, %xmm4
	vpor	%xmm4, %xmm5, %xmm4
	vpmaxub	%xmm0, %xmm1, %xmm5
	vpminub	%xmm5, %xmm11, %xmm6
	vpcmpeqb	%xmm6, %xmm5, %xmm5
	vpand	%xmm5, %xmm8, %xmm5
	vpor	%xmm5, %xmm4, %xmm4
	vpsllw	$2, %xmm3, %xmm5
	vpand	%xmm5, %xmm14, %xmm5
	vpminub	%xmm5, %xmm12, %xmm6
	vpcmpeqb	%xmm6, %xmm5, %xmm6
	vpaddb	%xmm0, %xmm9, %xmm9
	vpaddb	%xmm6, %xmm9, %xmm6
	vpsrlw	$4, %xmm2, %xmm9
	vpandn	%xmm9, %xmm14, %xmm8
	vpor	%xmm5, %xmm8, %xmm5
	vpminub	.LCPI9_21(%rip), %xmm0, %xmm8
	vpcmpeqb	%xmm0, %xmm8, %xmm0
	vpblendvb	%xmm0, %xmm4, %xmm6, %xmm4
	vpaddb	%xmm5, %xmm15, %xmm5
	vpsllw	$6, %xmm1, %xmm1
	vpand	%xmm1, %xmm15, %xmm1
	vpand	%xmm2, %xmm10, %xmm6
	vpaddb	%xmm6, %xmm1, %xmm1
	vpblendvb	%xmm0, %xmm1, %xmm5, %xmm0
	vpminub	.LCPI9_20(%rip), %xmm3, %xmm1
	vpcmpeqb	%xmm1, %xmm3, %xmm1
	vpminub	%xmm2, %xmm11, %xmm3
	vpcmpeqb	%xmm3, %xmm2, %xmm2
	vpand	%xmm2, %xmm1, %xmm1
	vpmovmskb	%xmm1, %r9d
	vpunpckhbw	%xmm0, %xmm4, %xmm1
	vpunpcklbw	%xmm0, %xmm4, %xmm0
	addl	%r8d, %edi
	movzbl	%r9b, %r8d
	xorl	%r10d, %r10d
	popcntl	%r8d, %r10d
	shll	$4, %r8d
	vpshufb	(%r8,%rcx), %xmm0, %xmm0
	addl	%esi, %edi
	vmovdqu	%xmm0, (%rdx,%rdi,2)
	shrl	$8, %r9d
	popcntl	%r9d, %esi
	shll	$4, %r9d
	vpshufb	(%r9,%rcx), %xmm1, %xmm0
	leaq	(%rdx,%rdi,2), %rcx
	vmovdqu	%xmm0, (%rcx,%r10,2)
	addl	%r10d, %esi
	addl	%edi, %esi
	leaq	(%rbx,%rsi,2), %rbx
	cmpb	$-17, 61(%rbp,%rax)
	jbe	.LBB9_23
	addq	$-2, %rbx
	movl	$61, %ecx
	jmp	.LBB9_26
.LBB9_17:
	vpbroadcastd	.LCPI9_32(%rip), %xmm1
	vpcmpgtb	%xmm6, %xmm1, %xmm3
	vpbroadcastd	.LCPI9_35(%rip), %xmm10
	vpsubusb	%xmm10, %xmm5, %xmm4
	vpsubusb	.LCPI9_20(%rip), %xmm7, %xmm8
	vpor	%xmm4, %xmm8, %xmm8
	vpxor	%xmm0, %xmm0, %xmm0
	vpcmpgtb	%xmm0, %xmm8, %xmm8
	vpxor	%xmm3, %xmm8, %xmm11
	vpand	.LCPI9_27(%rip), %xmm6, %xmm3
	vpcmpeqb	%xmm1, %xmm3, %xmm12
	vpminub	.LCPI9_22(%rip), %xmm6, %xmm3
	vpcmpeqb	%xmm3, %xmm6, %xmm13
	vpbroadcastd	.LCPI9_41(%rip), %xmm9
	vpbroadcastd	.LCPI9_42(%rip), %xmm0
	vpblendvb	%xmm13, %xmm9, %xmm0, %xmm13
	vpcmpeqb	%xmm5, %xmm13, %xmm13
	vpor	%xmm13, %xmm12, %xmm12
	vpor	%xmm11, %xmm12, %xmm11
	vmovdqu	14(%rbp,%rax), %xmm12
	vmovdqu	15(%rbp,%rax), %xmm13
	vmovdqu	16(%rbp,%rax), %xmm14
	vmovdqu	30(%rbp,%rax), %xmm15
	vmovdqa	%xmm10, %xmm8
	vpsubusb	%xmm10, %xmm13, %xmm0
	vpbroadcastd	.LCPI9_38(%rip), %xmm10
	vpsubusb	%xmm10, %xmm12, %xmm12
	vpor	%xmm0, %xmm12, %xmm0
	vpcmpgtb	%xmm14, %xmm1, %xmm12
	vpxor	%xmm4, %xmm4, %xmm4
	vpcmpgtb	%xmm4, %xmm0, %xmm0
	vpxor	%xmm0, %xmm12, %xmm0
	vpbroadcastd	.LCPI9_34(%rip), %xmm2
	vpand	%xmm2, %xmm14, %xmm12
	vpcmpeqb	%xmm1, %xmm12, %xmm12
	vpor	%xmm0, %xmm12, %xmm0
	vpbroadcastd	.LCPI9_40(%rip), %xmm3
	vpminub	%xmm3, %xmm14, %xmm12
	vpcmpeqb	%xmm12, %xmm14, %xmm12
	vpbroadcastd	.LCPI9_42(%rip), %xmm14
	vpblendvb	%xmm12, %xmm9, %xmm14, %xmm12
	vpcmpeqb	%xmm12, %xmm13, %xmm12
	vpor	%xmm0, %xmm12, %xmm0
	vmovdqu	31(%rbp,%rax), %xmm12
	vmovdqu	32(%rbp,%rax), %xmm13
	vpsubusb	%xmm8, %xmm12, %xmm14
	vpsubusb	%xmm10, %xmm15, %xmm15
	vpor	%xmm15, %xmm14, %xmm14
	vpcmpgtb	%xmm13, %xmm1, %xmm15
	vpcmpgtb	%xmm4, %xmm14, %xmm14
	vpxor	%xmm14, %xmm15, %xmm14
	vpand	%xmm2, %xmm13, %xmm15
	vpcmpeqb	%xmm1, %xmm15, %xmm15
	vpor	%xmm15, %xmm14, %xmm14
	vpminub	%xmm3, %xmm13, %xmm15
	vpcmpeqb	%xmm15, %xmm13, %xmm13
	vpbroadcastd	.LCPI9_42(%rip), %xmm15
	vpblendvb	%xmm13, %xmm9, %xmm15, %xmm13
	vpcmpeqb	%xmm13, %xmm12, %xmm12
	vpor	%xmm12, %xmm14, %xmm12
	vmovdqa	%xmm8, %xmm14
	vpor	%xmm0, %xmm12, %xmm0
	vpor	%xmm0, %xmm11, %xmm0
	vmovdqu	46(%rbp,%rax), %xmm11
	vmovdqu	47(%rbp,%rax), %xmm12
	vpsubusb	%xmm8, %xmm12, %xmm13
	vpsubusb	%xmm10, %xmm11, %xmm11
	vpor	%xmm11, %xmm13, %xmm11
	vmovdqu	48(%rbp,%rax), %xmm13
	vpcmpgtb	%xmm4, %xmm11, %xmm4
	vpcmpgtb	%xmm13, %xmm1, %xmm11
	vpxor	%xmm4, %xmm11, %xmm4
	vpand	%xmm2, %xmm13, %xmm8
	vpcmpeqb	%xmm1, %xmm8, %xmm8
	vpor	%xmm4, %xmm8, %xmm4
	vpminub	%xmm3, %xmm13, %xmm8
	vpcmpeqb	%xmm8, %xmm13, %xmm8
	vpblendvb	%xmm8, %xmm9, %xmm15, %xmm8
	vpcmpeqb	%xmm8, %xmm12, %xmm8
	vpor	%xmm4, %xmm8, %xmm4
	vpor	%xmm4, %xmm0, %xmm0
	vpmovmskb	%xmm0, %ecx
	testl	%ecx, %ecx
	jne	.LBB9_27
	vmovdqa	%xmm9, %xmm3
	vpblendvb	%xmm6, %xmm5, %xmm1, %xmm0
	vpmaxub	%xmm7, %xmm9, %xmm7
	vpsrlw	$2, %xmm0, %xmm8
	vpbroadcastd	.LCPI9_47(%rip), %xmm4
	vpand	%xmm4, %xmm8, %xmm8
	vpsllw	$4, %xmm7, %xmm7
	vpandn	%xmm7, %xmm4, %xmm7
	vpor	%xmm7, %xmm8, %xmm8
	vpbroadcastd	.LCPI9_37(%rip), %xmm7
	vpand	%xmm7, %xmm6, %xmm9
	vpsllw	$6, %xmm0, %xmm0
	vpand	%xmm1, %xmm0, %xmm0
	vpaddb	%xmm0, %xmm9, %xmm0
	vpminub	%xmm6, %xmm14, %xmm9
	vpcmpeqb	%xmm6, %xmm9, %xmm6
	vpminub	%xmm5, %xmm10, %xmm9
	vpcmpeqb	%xmm5, %xmm9, %xmm5
	vpand	%xmm5, %xmm6, %xmm5
	vpmovmskb	%xmm5, %edi
	vpunpckhbw	%xmm0, %xmm8, %xmm5
	vpunpcklbw	%xmm0, %xmm8, %xmm0
	movzbl	%dil, %edx
	popcntl	%edx, %r8d
	shll	$4, %edx
	leaq	.Lstatic.13(%rip), %rcx
	vpshufb	(%rdx,%rcx), %xmm0, %xmm0
	vmovdqu	%xmm0, (%r12,%rbx)
	leaq	(%r12,%rbx), %rdx
	shrl	$8, %edi
	popcntl	%edi, %esi
	shll	$4, %edi
	vpshufb	(%rdi,%rcx), %xmm5, %xmm0
	vmovdqu	%xmm0, (%rdx,%r8,2)
	addl	%r8d, %esi
	vmovdqu	15(%rbp,%rax), %xmm0
	vmovdqu	16(%rbp,%rax), %xmm5
	vpblendvb	%xmm5, %xmm0, %xmm1, %xmm6
	vpmaxub	14(%rbp,%rax), %xmm3, %xmm8
	vpsrlw	$2, %xmm6, %xmm9
	vpand	%xmm4, %xmm9, %xmm9
	vpsllw	$4, %xmm8, %xmm8
	vpandn	%xmm8, %xmm4, %xmm8
	vpor	%xmm8, %xmm9, %xmm8
	vpand	%xmm7, %xmm5, %xmm9
	vpsllw	$6, %xmm6, %xmm6
	vpand	%xmm1, %xmm6, %xmm6
	vpaddb	%xmm6, %xmm9, %xmm6
	vpminub	%xmm0, %xmm10, %xmm9
	vpcmpeqb	%xmm0, %xmm9, %xmm0
	vpminub	%xmm5, %xmm14, %xmm9
	vpcmpeqb	%xmm5, %xmm9, %xmm5
	vpand	%xmm5, %xmm0, %xmm0
	vpmovmskb	%xmm0, %r8d
	vpunpckhbw	%xmm6, %xmm8, %xmm0
	vpunpcklbw	%xmm6, %xmm8, %xmm5
	movzbl	%r8b, %edi
	popcntl	%edi, %r9d
	shll	$4, %edi
	vpshufb	(%rdi,%rcx), %xmm5, %xmm5
	vmovdqu	%xmm5, (%rdx,%rsi,2)
	leaq	(%rdx,%rsi,2), %r10
	shrl	$8, %r8d
	xorl	%edi, %edi
	popcntl	%r8d, %edi
	shll	$4, %r8d
	vpshufb	(%r8,%rcx), %xmm0, %xmm0
	vmovdqu	%xmm0, (%r10,%r9,2)
	addl	%r9d, %edi
	addl	%esi, %edi
	vmovdqu	31(%rbp,%rax), %xmm0
	vmovdqu	32(%rbp,%rax), %xmm5
	vpblendvb	%xmm5, %xmm0, %xmm1, %xmm6
	vpmaxub	30(%rbp,%rax), %xmm3, %xmm8
	vpsrlw	$2, %xmm6, %xmm9
	vpand	%xmm4, %xmm9, %xmm9
	vpsllw	$4, %xmm8, %xmm8
	vpandn	%xmm8, %xmm4, %xmm8
	vpor	%xmm8, %xmm9, %xmm8
	vpand	%xmm7, %xmm5, %xmm9
	vpsllw	$6, %xmm6, %xmm6
	vpand	%xmm1, %xmm6, %xmm6
	vpaddb	%xmm6, %xmm9, %xmm6
	vpminub	%xmm0, %xmm10, %xmm9
	vpcmpeqb	%xmm0, %xmm9, %xmm0
	vpminub	%xmm5, %xmm14, %xmm9
	vpcmpeqb	%xmm5, %xmm9, %xmm5
	vpand	%xmm5, %xmm0, %xmm0
	vpmovmskb	%xmm0, %r8d
	vpunpckhbw	%xmm6, %xmm8, %xmm0
	vpunpcklbw	%xmm6, %xmm8, %xmm5
	movzbl	%r8b, %esi
	xorl	%r9d, %r9d
	popcntl	%esi, %r9d
	shll	$4, %esi
	vpshufb	(%rsi,%rcx), %xmm5, %xmm5
	vmovdqu	%xmm5, (%rdx,%rdi,2)
	leaq	(%rdx,%rdi,2), %r10
	shrl	$8, %r8d
	xorl	%esi, %esi
	popcntl	%r8d, %esi
	shll	$4, %r8d
	vpshufb	(%r8,%rcx), %xmm0, %xmm0
	vmovdqu	%xmm0, (%r10,%r9,2)
	addl	%r9d, %esi
	vmovdqu	47(%rbp,%rax), %xmm0
	vmovdqu	48(%rbp,%rax), %xmm5
	vpblendvb	%xmm5, %xmm0, %xmm1, %xmm6
	vpmaxub	46(%rbp,%rax), %xmm3, %xmm3
	addl	%edi, %esi
	vpsrlw	$2, %xmm6, %xmm8
	vpand	%xmm4, %xmm8, %xmm8
	vpsllw	$4, %xmm3, %xmm3
	vpandn	%xmm3, %xmm4, %xmm3
	vpor	%xmm3, %xmm8, %xmm3
	vpand	%xmm7, %xmm5, %xmm4
	vpsllw	$6, %xmm6, %xmm6
	vpand	%xmm1, %xmm6, %xmm1
	vpaddb	%xmm4, %xmm1, %xmm1
	vpminub	%xmm0, %xmm10, %xmm2
	vpcmpeqb	%xmm2, %xmm0, %xmm0
	vpminub	%xmm5, %xmm14, %xmm2
	vpcmpeqb	%xmm2, %xmm5, %xmm2
	vpand	%xmm2, %xmm0, %xmm0
	vpmovmskb	%xmm0, %edi
	vpunpckhbw	%xmm1, %xmm3, %xmm0
	vpunpcklbw	%xmm1, %xmm3, %xmm1
	movzbl	%dil, %r9d
	xorl	%r8d, %r8d
	popcntl	%r9d, %r8d
	shll	$4, %r9d
	vpshufb	(%r9,%rcx), %xmm1, %xmm1
	leaq	(%rdx,%rsi,2), %r9
	vmovdqu	%xmm1, (%rdx,%rsi,2)
	shrl	$8, %edi
	movl	%edi, %edx
	shll	$4, %edx
	vpshufb	(%rdx,%rcx), %xmm0, %xmm0
	vmovdqu	%xmm0, (%r9,%r8,2)
	movl	$62, %ecx
	cmpb	$-33, 62(%rbp,%rax)
	ja	.LBB9_20
	xorl	%ecx, %ecx
	cmpb	$-64, 63(%rbp,%rax)
	adcq	$63, %rcx
.LBB9_20:
	xorl	%edx, %edx
	popcntl	%edi, %edx
	addl	%edx, %r8d
	addl	%r8d, %esi
	leaq	(%rbx,%rsi,2), %rbx
	jmp	.LBB9_26
.LBB9_23:
	movl	$62, %ecx
	cmpb	$-33, 62(%rbp,%rax)
	ja	.LBB9_26
	xorl	%ecx, %ecx
	cmpb	$-64, 63(%rbp,%rax)
	adcq	$63, %rcx
.LBB9_26:
	addq	%rcx, %rax
	jmp	.LBB9_27
.LBB9_28:
	movq	%r14, %rax
	movq	%rbx, %rdx
	addq	$56, %rsp
	.cfi_def_cfa_offset 56
	popq	%rbx
	.cfi_def_cfa_offset 48
	popq	%r12
	.cfi_def_cfa_offset 40
	popq	%r13
	.cfi_def_cfa_offset 32
	popq	%r14
	.cfi_def_cfa_offset 24
	popq	%r15
	.cfi_def_cfa_offset 16
	popq	%rbp
	.cfi_def_cfa_offset 8
	retq
.Lfunc_end9:
	.size	"utf16_from_utf8::blocks::write_mixed_blocks::<#8b18edd9dd9aa8df>", .Lfunc_end9-"utf16_from_utf8::blocks::write_mixed_blocks::<#8b18edd9dd9aa8df>"
	.cfi_endproc

	.section	.rodata.cst16,"aM",@progbits,16
	.p2align	4, 0x0
.LCPI10_0:
	.zero	1
	.byte	255
	.byte	0
	.zero	1
	.byte	255
	.byte	0
	.zero	1
	.byte	255
	.byte	0
	.zero	1
	.byte	255
	.byte	0
	.zero	1
	.byte	255
	.byte	0
	.zero	1
.LCPI10_1:
	.byte	0
	.byte	3
	.byte	6
	.byte	9
	.byte	12
	.byte	15
	.byte	128
	.byte	128
	.byte	128
	.byte	128
	.byte	128
	.byte	128
	.byte	128
	.byte	128
	.byte	128
	.byte	128
.LCPI10_2:
	.byte	128
	.byte	128
	.byte	128
	.byte	128
	.byte	128
	.byte	128
	.byte	2
	.byte	5
	.byte	8
	.byte	11
	.byte	14
	.byte	1
	.byte	4
	.byte	7
	.byte	10
	.byte	13
.LCPI10_3:
	.byte	255
	.zero	1
	.byte	0
	.byte	255
	.zero	1
	.byte	0
	.byte	255
	.zero	1
	.byte	0
	.byte	255
	.zero	1
	.byte	0
	.byte	255
	.zero	1
	.byte	0
	.byte	255
.LCPI10_4:
	.byte	1
	.byte	4
	.byte	7
	.byte	10
	.byte	13
	.byte	128
	.byte	128
	.byte	128
	.byte	128
	.byte	128
	.byte	128
	.byte	128
	.byte	128
	.byte	128
	.byte	128
	.byte	128
.LCPI10_5:
	.byte	128
	.byte	128
	.byte	128
	.byte	128
	.byte	128
	.byte	0
	.byte	3
	.byte	6
	.byte	9
	.byte	12
	.byte	15
	.byte	2
	.byte	5
	.byte	8
	.byte	11
	.byte	14
.LCPI10_6:
	.byte	255
	.byte	0
	.zero	1
	.byte	255
	.byte	0
	.zero	1
	.byte	255
	.byte	0
	.zero	1
	.byte	255
	.byte	0
	.zero	1
	.byte	255
	.byte	0
	.zero	1
	.byte	255
.LCPI10_7:
	.byte	2
	.byte	5
	.byte	8
	.byte	11
	.byte	14
	.byte	128
	.byte	128
	.byte	128
	.byte	128
	.byte	128
	.byte	128
	.byte	128
	.byte	128
	.byte	128
	.byte	128
	.byte	128
.LCPI10_8:
	.byte	128
	.byte	128
	.byte	128
	.byte	128
	.byte	128
	.byte	1
	.byte	4
	.byte	7
	.byte	10
	.byte	13
	.byte	0
	.byte	3
	.byte	6
	.byte	9
	.byte	12
	.byte	15
.LCPI10_9:
	.zero	16,240
.LCPI10_10:
	.zero	16,32
.LCPI10_11:
	.zero	16,192
.LCPI10_12:
	.zero	16,128
.LCPI10_13:
	.zero	16,15
.LCPI10_14:
	.zero	16,7
.LCPI10_15:
	.zero	16,248
.LCPI10_16:
	.zero	16,216
.LCPI10_17:
	.zero	16,63
.LCPI10_18:
	.zero	16,224
	.section	.rodata.cst4,"aM",@progbits,4
	.p2align	2, 0x0
.LCPI10_19:
	.zero	4,192
.LCPI10_20:
	.zero	4,128
	.section	".text.utf16_from_utf8::rest::write_rest::<#8b18edd9dd9aa8df>","ax",@progbits
	.p2align	4
	.type	"utf16_from_utf8::rest::write_rest::<#8b18edd9dd9aa8df>",@function
"utf16_from_utf8::rest::write_rest::<#8b18edd9dd9aa8df>":
	.cfi_startproc
	pushq	%r15
	.cfi_def_cfa_offset 16
	pushq	%r14
	.cfi_def_cfa_offset 24
	pushq	%rbx
	.cfi_def_cfa_offset 32
	.cfi_offset %rbx, -32
	.cfi_offset %r14, -24
	.cfi_offset %r15, -16
	movq	%r9, %rbx
	movq	%r8, %rax
	movq	%rsi, %r8
	subq	%rax, %r8
	je	.LBB10_8
	movzbl	(%rdi,%rax), %r9d
	andb	$-16, %r9b
	cmpb	$-32, %r9b
	jne	.LBB10_8
	cmpq	$48, %r8
	setb	%r10b
	movq	%rcx, %r9
	subq	%rbx, %r9
	cmpq	$32, %r9
	setb	%r11b
	orb	%r10b, %r11b
	je	.LBB10_3
.LBB10_8:
	cmpb	$-65, -1(%rdi,%rsi)
	jbe	.LBB10_10
	decq	%rsi
	jmp	.LBB10_13
.LBB10_10:
	cmpb	$-33, -2(%rdi,%rsi)
	jbe	.LBB10_12
	addq	$-2, %rsi
	jmp	.LBB10_13
.LBB10_12:
	leaq	-3(%rsi), %r8
	cmpb	$-16, -3(%rdi,%rsi)
	cmovaeq	%r8, %rsi
.LBB10_13:
	cmpq	$17, %rsi
	setb	%r9b
	movq	%rsi, %r8
	subq	%rax, %r8
	setbe	%r10b
	orb	%r9b, %r10b
	jne	.LBB10_23
	subq	%rbx, %rcx
	xorl	%r9d, %r9d
	subq	$16, %rcx
	cmovaeq	%rcx, %r9
	shrq	%r9
	cmpq	%r8, %r9
	jb	.LBB10_23
	vmovdqu	-16(%rdi,%rsi), %xmm0
	xorl	%ecx, %ecx
	movq	%rax, %r8
	subq	$18, %r8
	cmovaeq	%r8, %rcx
	movq	%rsi, %r8
	subq	%rcx, %r8
	cmpq	$17, %r8
	jb	.LBB10_18
	addq	%rdi, %rcx
	.p2align	4
.LBB10_17:
	vpmaxub	(%rcx), %xmm0, %xmm0
	addq	$16, %rcx
	addq	$-16, %r8
	cmpq	$16, %r8
	ja	.LBB10_17
.LBB10_18:
	vpmaxub	.LCPI10_18(%rip), %xmm0, %xmm1
	addq	%rbx, %rdx
	vpcmpeqb	%xmm1, %xmm0, %xmm1
	vpmovmskb	%xmm1, %ecx
	testl	%ecx, %ecx
	je	.LBB10_24
	movq	%rdx, %rcx
	vpmaxub	.LCPI10_9(%rip), %xmm0, %xmm1
	vpcmpeqb	%xmm1, %xmm0, %xmm0
	vpmovmskb	%xmm0, %edx
	movq	%rsi, %r14
	movq	%rax, %r15
	testl	%edx, %edx
	je	.LBB10_20
	movq	%rax, %rdx
	callq	"utf16_from_utf8::rest::write_rest_of::<#333b1ec0269cc57c>"
	jmp	.LBB10_22
.LBB10_3:
	addq	$-32, %r9
	addq	$-48, %r8
	.p2align	4
.LBB10_4:
	vmovdqu	(%rdi,%rax), %xmm0
	vmovdqu	16(%rdi,%rax), %xmm1
	vmovdqu	32(%rdi,%rax), %xmm3
	vmovdqa	.LCPI10_0(%rip), %xmm2
	vpblendvb	%xmm2, %xmm3, %xmm1, %xmm2
	vpshufb	.LCPI10_1(%rip), %xmm0, %xmm4
	vpshufb	.LCPI10_2(%rip), %xmm2, %xmm2
	vmovdqa	.LCPI10_3(%rip), %xmm5
	vpblendvb	%xmm5, %xmm1, %xmm3, %xmm5
	vpshufb	.LCPI10_4(%rip), %xmm0, %xmm6
	vpshufb	.LCPI10_5(%rip), %xmm5, %xmm5
	vpor	%xmm4, %xmm2, %xmm2
	vmovdqa	.LCPI10_6(%rip), %xmm4
	vpblendvb	%xmm4, %xmm3, %xmm1, %xmm1
	vpshufb	.LCPI10_7(%rip), %xmm0, %xmm0
	vpshufb	.LCPI10_8(%rip), %xmm1, %xmm3
	vpor	%xmm6, %xmm5, %xmm1
	vpor	%xmm0, %xmm3, %xmm0
	vpand	.LCPI10_9(%rip), %xmm2, %xmm3
	vpaddb	.LCPI10_10(%rip), %xmm3, %xmm3
	vpbroadcastd	.LCPI10_19(%rip), %xmm4
	vpand	%xmm4, %xmm1, %xmm5
	vpbroadcastd	.LCPI10_20(%rip), %xmm6
	vpxor	%xmm6, %xmm5, %xmm5
	vpmaxub	%xmm5, %xmm3, %xmm3
	vpand	%xmm4, %xmm0, %xmm4
	vpxor	%xmm6, %xmm4, %xmm4
	vpor	%xmm4, %xmm3, %xmm3
	vptest	%xmm3, %xmm3
	jne	.LBB10_8
	vpsllw	$4, %xmm2, %xmm2
	vpand	.LCPI10_9(%rip), %xmm2, %xmm2
	vpsrlw	$2, %xmm1, %xmm3
	vpand	.LCPI10_13(%rip), %xmm3, %xmm3
	vpor	%xmm2, %xmm3, %xmm2
	vpminub	.LCPI10_14(%rip), %xmm2, %xmm3
	vpand	.LCPI10_15(%rip), %xmm2, %xmm4
	vpcmpeqb	.LCPI10_16(%rip), %xmm4, %xmm4
	vpcmpeqb	%xmm3, %xmm2, %xmm3
	vpor	%xmm4, %xmm3, %xmm3
	vpmovmskb	%xmm3, %r10d
	testl	%r10d, %r10d
	jne	.LBB10_8
	vpsllw	$6, %xmm1, %xmm1
	vpand	.LCPI10_11(%rip), %xmm1, %xmm1
	vpand	.LCPI10_17(%rip), %xmm0, %xmm0
	vpor	%xmm0, %xmm1, %xmm0
	vpunpcklbw	%xmm0, %xmm2, %xmm1
	vmovdqu	%xmm1, (%rdx,%rbx)
	vpunpckhbw	%xmm0, %xmm2, %xmm0
	vmovdqu	%xmm0, 16(%rdx,%rbx)
	addq	$32, %rbx
	addq	$48, %rax
	subq	$32, %r9
	setb	%r10b
	subq	$48, %r8
	jb	.LBB10_8
	testb	%r10b, %r10b
	je	.LBB10_4
	jmp	.LBB10_8
.LBB10_24:
	movq	%rsi, %r14
	movq	%rax, %r15
	movq	%rdx, %rcx
	movq	%rax, %rdx
	callq	"utf16_from_utf8::rest::write_rest_of::<#00efe7c0aa38a8e6>"
	jmp	.LBB10_22
.LBB10_20:
	movq	%rax, %rdx
	callq	"utf16_from_utf8::rest::write_rest_of::<#639a12b236a9ca5f>"
.LBB10_22:
	addq	%rbx, %rdx
	cmpb	$1, %al
	movq	%r15, %rax
	cmoveq	%r14, %rax
	cmoveq	%rdx, %rbx
.LBB10_23:
	movq	%rbx, %rdx
	popq	%rbx
	.cfi_def_cfa_offset 24
	popq	%r14
	.cfi_def_cfa_offset 16
	popq	%r15
	.cfi_def_cfa_offset 8
	retq
.Lfunc_end10:
	.size	"utf16_from_utf8::rest::write_rest::<#8b18edd9dd9aa8df>", .Lfunc_end10-"utf16_from_utf8::rest::write_rest::<#8b18edd9dd9aa8df>"
	.cfi_endproc

	.section	.rodata.cst16,"aM",@progbits,16
	.p2align	4, 0x0
.LCPI11_0:
	.zero	16,192
.LCPI11_1:
	.zero	16,63
.LCPI11_2:
	.zero	16,127
.LCPI11_3:
	.zero	16,191
.LCPI11_4:
	.zero	16,254
	.section	.rodata.cst4,"aM",@progbits,4
	.p2align	2, 0x0
.LCPI11_5:
	.zero	4,192
	.section	".text.utf16_from_utf8::rest::write_rest_of::<#00efe7c0aa38a8e6>","ax",@progbits
	.p2align	4
	.type	"utf16_from_utf8::rest::write_rest_of::<#00efe7c0aa38a8e6>",@function
"utf16_from_utf8::rest::write_rest_of::<#00efe7c0aa38a8e6>":
	.cfi_startproc
	pushq	%rbx
	.cfi_def_cfa_offset 16
	.cfi_offset %rbx, -16
	movq	%rsi, %rax
	subq	%rdx, %rax
	vpxor	%xmm0, %xmm0, %xmm0
	xorl	%r8d, %r8d
	cmpq	$16, %rax
	jae	.LBB11_1
.LBB11_7:
	cmpq	%rsi, %rdx
	je	.LBB11_12
	leaq	-16(%rsi), %rax
	vmovdqu	-16(%rdi,%rsi), %xmm1
	cmpq	$3, %rax
	jb	.LBB11_10
	vmovdqu	-1(%rdi,%rax), %xmm2
	jmp	.LBB11_11
	.p2align	4
.LBB11_2:
	vmovdqu	-1(%rdi,%rdx), %xmm2
.LBB11_6:
	vpbroadcastd	.LCPI11_5(%rip), %xmm3
	vpsubusb	%xmm3, %xmm2, %xmm4
	vpsrlw	$2, %xmm4, %xmm5
	vpand	.LCPI11_1(%rip), %xmm5, %xmm5
	vpand	.LCPI11_2(%rip), %xmm1, %xmm6
	vpsllw	$6, %xmm4, %xmm4
	vpand	%xmm3, %xmm4, %xmm4
	vpaddb	%xmm6, %xmm4, %xmm4
	vpminub	.LCPI11_3(%rip), %xmm1, %xmm6
	vpcmpeqb	%xmm6, %xmm1, %xmm6
	vpmovmskb	%xmm6, %r9d
	vpcmpgtb	%xmm1, %xmm3, %xmm6
	vpmaxub	%xmm3, %xmm2, %xmm7
	vpcmpeqb	%xmm7, %xmm2, %xmm2
	vpxor	%xmm2, %xmm6, %xmm2
	vpand	.LCPI11_4(%rip), %xmm1, %xmm1
	vpcmpeqb	%xmm3, %xmm1, %xmm1
	vpor	%xmm2, %xmm1, %xmm1
	vpmaxub	%xmm1, %xmm0, %xmm0
	vpunpcklbw	%xmm4, %xmm5, %xmm1
	movzbl	%r9b, %r10d
	xorl	%r11d, %r11d
	popcntl	%r10d, %r11d
	shll	$4, %r10d
	leaq	.Lstatic.13(%rip), %rbx
	vpshufb	(%r10,%rbx), %xmm1, %xmm1
	vpunpckhbw	%xmm4, %xmm5, %xmm2
	vmovdqu	%xmm1, (%rcx,%r8)
	shrl	$8, %r9d
	xorl	%r10d, %r10d
	popcntl	%r9d, %r10d
	shll	$4, %r9d
	vpshufb	(%r9,%rbx), %xmm2, %xmm1
	leaq	(%rcx,%r8), %r9
	vmovdqu	%xmm1, (%r9,%r11,2)
	addl	%r11d, %r10d
	leaq	(%r8,%r10,2), %r8
	addq	$16, %rdx
	addq	$-16, %rax
	cmpq	$15, %rax
	jbe	.LBB11_7
.LBB11_1:
	vmovdqu	(%rdi,%rdx), %xmm1
	cmpq	$3, %rdx
	jae	.LBB11_2
	testq	%rdx, %rdx
	je	.LBB11_4
	vpbroadcastb	-1(%rdi,%rdx), %xmm2
	vpalignr	$15, %xmm2, %xmm1, %xmm2
	jmp	.LBB11_6
.LBB11_4:
	vpslldq	$1, %xmm1, %xmm2
	jmp	.LBB11_6
.LBB11_10:
	vpbroadcastb	-17(%rdi,%rsi), %xmm2
	vpalignr	$15, %xmm2, %xmm1, %xmm2
.LBB11_11:
	vpbroadcastd	.LCPI11_5(%rip), %xmm3
	vpsubusb	%xmm3, %xmm2, %xmm4
	vpsrlw	$2, %xmm4, %xmm5
	vpand	.LCPI11_1(%rip), %xmm5, %xmm5
	vpand	.LCPI11_2(%rip), %xmm1, %xmm6
	vpsllw	$6, %xmm4, %xmm4
	vpand	%xmm3, %xmm4, %xmm4
	vpminub	.LCPI11_3(%rip), %xmm1, %xmm7
	vpaddb	%xmm6, %xmm4, %xmm4
	vpcmpeqb	%xmm7, %xmm1, %xmm6
	vpmovmskb	%xmm6, %r9d
	vpcmpgtb	%xmm1, %xmm3, %xmm6
	vpmaxub	%xmm3, %xmm2, %xmm7
	vpcmpeqb	%xmm7, %xmm2, %xmm2
	vpand	.LCPI11_4(%rip), %xmm1, %xmm7
	vpxor	%xmm2, %xmm6, %xmm1
	vpcmpeqb	%xmm3, %xmm7, %xmm2
	subl	%eax, %edx
	vpunpckhbw	%xmm4, %xmm5, %xmm3
	vpunpcklbw	%xmm4, %xmm5, %xmm4
	movq	$-1, %rax
	shlxq	%rdx, %rax, %rax
	andl	%r9d, %eax
	movzbl	%al, %edx
	xorl	%r9d, %r9d
	popcntl	%edx, %r9d
	shll	$4, %edx
	leaq	.Lstatic.13(%rip), %r10
	vpshufb	(%rdx,%r10), %xmm4, %xmm4
	vmovdqu	%xmm4, (%rcx,%r8)
	addq	%r8, %rcx
	shrl	$8, %eax
	xorl	%edx, %edx
	popcntl	%eax, %edx
	shll	$4, %eax
	vpshufb	(%rax,%r10), %xmm3, %xmm3
	vmovdqu	%xmm3, (%rcx,%r9,2)
	vpor	%xmm1, %xmm2, %xmm1
	addl	%r9d, %edx
	leaq	(%r8,%rdx,2), %r8
	vpmaxub	%xmm1, %xmm0, %xmm0
.LBB11_12:
	vptest	%xmm0, %xmm0
	je	.LBB11_14
	xorl	%edx, %edx
	xorl	%eax, %eax
	popq	%rbx
	.cfi_def_cfa_offset 8
	retq
.LBB11_14:
	.cfi_def_cfa_offset 16
	cmpb	$-65, -1(%rdi,%rsi)
	jbe	.LBB11_16
	leaq	-1(%rsi), %rax
	jmp	.LBB11_19
.LBB11_16:
	cmpb	$-33, -2(%rdi,%rsi)
	jbe	.LBB11_18
	leaq	-2(%rsi), %rax
	jmp	.LBB11_19
.LBB11_18:
	leaq	-3(%rsi), %rax
	cmpb	$-16, -3(%rdi,%rsi)
	cmovbq	%rsi, %rax
.LBB11_19:
	xorl	%edx, %edx
	cmpq	%rsi, %rax
	setae	%al
	cmovaeq	%r8, %rdx
	popq	%rbx
	.cfi_def_cfa_offset 8
	retq
.Lfunc_end11:
	.size	"utf16_from_utf8::rest::write_rest_of::<#00efe7c0aa38a8e6>", .Lfunc_end11-"utf16_from_utf8::rest::write_rest_of::<#00efe7c0aa38a8e6>"
	.cfi_endproc

	.section	.rodata.cst16,"aM",@progbits,16
	.p2align	4, 0x0
.LCPI12_0:
	.zero	16,192
.LCPI12_1:
	.zero	16,224
.LCPI12_2:
	.zero	16,15
.LCPI12_3:
	.zero	16,240
.LCPI12_4:
	.zero	16,127
.LCPI12_5:
	.zero	16,191
.LCPI12_6:
	.zero	16,223
.LCPI12_7:
	.zero	16,254
.LCPI12_8:
	.zero	16,159
.LCPI12_9:
	.zero	16,237
	.section	.rodata.cst4,"aM",@progbits,4
	.p2align	2, 0x0
.LCPI12_10:
	.zero	4,192
.LCPI12_11:
	.zero	4,224
.LCPI12_12:
	.zero	4,191
.LCPI12_13:
	.zero	4,223
.LCPI12_14:
	.zero	4,237
	.section	".text.utf16_from_utf8::rest::write_rest_of::<#639a12b236a9ca5f>","ax",@progbits
	.p2align	4
	.type	"utf16_from_utf8::rest::write_rest_of::<#639a12b236a9ca5f>",@function
"utf16_from_utf8::rest::write_rest_of::<#639a12b236a9ca5f>":
	.cfi_startproc
	pushq	%rbx
	.cfi_def_cfa_offset 16
	.cfi_offset %rbx, -16
	movq	%rsi, %rax
	subq	%rdx, %rax
	vpxor	%xmm0, %xmm0, %xmm0
	xorl	%r8d, %r8d
	cmpq	$16, %rax
	jae	.LBB12_6
.LBB12_1:
	cmpq	%rsi, %rdx
	je	.LBB12_18
	leaq	-16(%rsi), %rax
	vmovdqu	-16(%rdi,%rsi), %xmm1
	cmpq	$3, %rax
	jb	.LBB12_13
	vmovdqu	-2(%rdi,%rax), %xmm3
	vmovdqu	-1(%rdi,%rax), %xmm2
	jmp	.LBB12_17
	.p2align	4
.LBB12_4:
	vmovdqu	-2(%rdi,%rdx), %xmm5
	vmovdqu	-1(%rdi,%rdx), %xmm2
.LBB12_5:
	vpbroadcastd	.LCPI12_10(%rip), %xmm6
	vpblendvb	%xmm1, %xmm2, %xmm6, %xmm4
	vpbroadcastd	.LCPI12_11(%rip), %xmm7
	vpmaxub	%xmm7, %xmm5, %xmm3
	vpsrlw	$2, %xmm4, %xmm8
	vpand	.LCPI12_2(%rip), %xmm8, %xmm8
	vpsllw	$4, %xmm3, %xmm3
	vpand	.LCPI12_3(%rip), %xmm3, %xmm3
	vpor	%xmm3, %xmm8, %xmm3
	vpand	.LCPI12_4(%rip), %xmm1, %xmm8
	vpsllw	$6, %xmm4, %xmm4
	vpand	%xmm6, %xmm4, %xmm4
	vpaddb	%xmm4, %xmm8, %xmm4
	vpbroadcastd	.LCPI12_12(%rip), %xmm8
	vpminub	%xmm1, %xmm8, %xmm9
	vpcmpeqb	%xmm1, %xmm9, %xmm9
	vpbroadcastd	.LCPI12_13(%rip), %xmm10
	vpminub	%xmm2, %xmm10, %xmm11
	vpcmpeqb	%xmm2, %xmm11, %xmm11
	vpand	%xmm11, %xmm9, %xmm9
	vpmovmskb	%xmm9, %r9d
	vpcmpgtb	%xmm1, %xmm6, %xmm9
	vpsubusb	%xmm8, %xmm2, %xmm8
	vpsubusb	%xmm10, %xmm5, %xmm5
	vpor	%xmm5, %xmm8, %xmm5
	vpxor	%xmm8, %xmm8, %xmm8
	vpcmpgtb	%xmm8, %xmm5, %xmm5
	vpxor	%xmm5, %xmm9, %xmm5
	vpand	.LCPI12_7(%rip), %xmm1, %xmm8
	vpcmpeqb	%xmm6, %xmm8, %xmm6
	vpor	%xmm5, %xmm6, %xmm5
	vpminub	.LCPI12_8(%rip), %xmm1, %xmm6
	vpcmpeqb	%xmm6, %xmm1, %xmm1
	vpbroadcastd	.LCPI12_14(%rip), %xmm6
	vpblendvb	%xmm1, %xmm7, %xmm6, %xmm1
	vpcmpeqb	%xmm1, %xmm2, %xmm1
	vpor	%xmm1, %xmm5, %xmm1
	vpmaxub	%xmm1, %xmm0, %xmm0
	vpunpcklbw	%xmm4, %xmm3, %xmm1
	movzbl	%r9b, %r10d
	xorl	%r11d, %r11d
	popcntl	%r10d, %r11d
	shll	$4, %r10d
	leaq	.Lstatic.13(%rip), %rbx
	vpshufb	(%r10,%rbx), %xmm1, %xmm1
	vpunpckhbw	%xmm4, %xmm3, %xmm2
	vmovdqu	%xmm1, (%rcx,%r8)
	shrl	$8, %r9d
	xorl	%r10d, %r10d
	popcntl	%r9d, %r10d
	shll	$4, %r9d
	vpshufb	(%r9,%rbx), %xmm2, %xmm1
	leaq	(%rcx,%r8), %r9
	vmovdqu	%xmm1, (%r9,%r11,2)
	addl	%r11d, %r10d
	leaq	(%r8,%r10,2), %r8
	addq	$16, %rdx
	addq	$-16, %rax
	cmpq	$15, %rax
	jbe	.LBB12_1
.LBB12_6:
	vmovdqu	(%rdi,%rdx), %xmm1
	cmpq	$3, %rdx
	jae	.LBB12_4
	testq	%rdx, %rdx
	je	.LBB12_10
	vpbroadcastb	-1(%rdi,%rdx), %xmm2
	vpalignr	$15, %xmm2, %xmm1, %xmm2
	cmpq	$2, %rdx
	jne	.LBB12_11
	movzbl	(%rdi), %r9d
	jmp	.LBB12_12
.LBB12_10:
	vpslldq	$1, %xmm1, %xmm2
.LBB12_11:
	xorl	%r9d, %r9d
.LBB12_12:
	vmovd	%r9d, %xmm3
	vpbroadcastb	%xmm3, %xmm3
	vpalignr	$15, %xmm3, %xmm2, %xmm5
	jmp	.LBB12_5
.LBB12_13:
	vpbroadcastb	-17(%rdi,%rsi), %xmm2
	vpalignr	$15, %xmm2, %xmm1, %xmm2
	cmpq	$2, %rax
	jne	.LBB12_15
	movzbl	(%rdi), %r9d
	jmp	.LBB12_16
.LBB12_15:
	xorl	%r9d, %r9d
.LBB12_16:
	vmovd	%r9d, %xmm3
	vpbroadcastb	%xmm3, %xmm3
	vpalignr	$15, %xmm3, %xmm2, %xmm3
.LBB12_17:
	vpbroadcastd	.LCPI12_10(%rip), %xmm6
	vpblendvb	%xmm1, %xmm2, %xmm6, %xmm7
	vpbroadcastd	.LCPI12_11(%rip), %xmm5
	vpmaxub	%xmm5, %xmm3, %xmm4
	vpsrlw	$2, %xmm7, %xmm8
	vpand	.LCPI12_2(%rip), %xmm8, %xmm8
	vpsllw	$4, %xmm4, %xmm4
	vpand	.LCPI12_3(%rip), %xmm4, %xmm4
	vpand	.LCPI12_4(%rip), %xmm1, %xmm9
	vpor	%xmm4, %xmm8, %xmm4
	vpsllw	$6, %xmm7, %xmm7
	vpand	%xmm6, %xmm7, %xmm7
	vpaddb	%xmm7, %xmm9, %xmm7
	vpbroadcastd	.LCPI12_12(%rip), %xmm8
	vpminub	%xmm1, %xmm8, %xmm9
	vpcmpeqb	%xmm1, %xmm9, %xmm9
	vpbroadcastd	.LCPI12_13(%rip), %xmm10
	vpminub	%xmm2, %xmm10, %xmm11
	vpcmpeqb	%xmm2, %xmm11, %xmm11
	vpand	%xmm11, %xmm9, %xmm9
	vpmovmskb	%xmm9, %r9d
	vpcmpgtb	%xmm1, %xmm6, %xmm9
	vpsubusb	%xmm8, %xmm2, %xmm8
	vpsubusb	%xmm10, %xmm3, %xmm3
	vpor	%xmm3, %xmm8, %xmm3
	vpxor	%xmm8, %xmm8, %xmm8
	vpcmpgtb	%xmm8, %xmm3, %xmm3
	vpand	.LCPI12_7(%rip), %xmm1, %xmm8
	vpxor	%xmm3, %xmm9, %xmm3
	vpcmpeqb	%xmm6, %xmm8, %xmm6
	vpminub	.LCPI12_8(%rip), %xmm1, %xmm8
	vpcmpeqb	%xmm1, %xmm8, %xmm1
	vpbroadcastd	.LCPI12_14(%rip), %xmm8
	vpblendvb	%xmm1, %xmm5, %xmm8, %xmm1
	vpcmpeqb	%xmm1, %xmm2, %xmm1
	vpor	%xmm1, %xmm6, %xmm1
	subl	%eax, %edx
	vpunpckhbw	%xmm7, %xmm4, %xmm2
	vpunpcklbw	%xmm7, %xmm4, %xmm4
	movq	$-1, %rax
	shlxq	%rdx, %rax, %rax
	andl	%r9d, %eax
	movzbl	%al, %edx
	xorl	%r9d, %r9d
	popcntl	%edx, %r9d
	shll	$4, %edx
	leaq	.Lstatic.13(%rip), %r10
	vpshufb	(%rdx,%r10), %xmm4, %xmm4
	vmovdqu	%xmm4, (%rcx,%r8)
	addq	%r8, %rcx
	shrl	$8, %eax
	xorl	%edx, %edx
	popcntl	%eax, %edx
	shll	$4, %eax
	vpshufb	(%rax,%r10), %xmm2, %xmm2
	vmovdqu	%xmm2, (%rcx,%r9,2)
	vpor	%xmm3, %xmm1, %xmm1
	addl	%r9d, %edx
	leaq	(%r8,%rdx,2), %r8
	vpmaxub	%xmm1, %xmm0, %xmm0
.LBB12_18:
	vptest	%xmm0, %xmm0
	je	.LBB12_20
	xorl	%edx, %edx
	xorl	%eax, %eax
	popq	%rbx
	.cfi_def_cfa_offset 8
	retq
.LBB12_20:
	.cfi_def_cfa_offset 16
	cmpb	$-65, -1(%rdi,%rsi)
	jbe	.LBB12_22
	leaq	-1(%rsi), %rax
	jmp	.LBB12_25
.LBB12_22:
	cmpb	$-33, -2(%rdi,%rsi)
	jbe	.LBB12_24
	leaq	-2(%rsi), %rax
	jmp	.LBB12_25
.LBB12_24:
	leaq	-3(%rsi), %rax
	cmpb	$-16, -3(%rdi,%rsi)
	cmovbq	%rsi, %rax
.LBB12_25:
	xorl	%edx, %edx
	cmpq	%rsi, %rax
	setae	%al
	cmovaeq	%r8, %rdx
	popq	%rbx
	.cfi_def_cfa_offset 8
	retq
.Lfunc_end12:
	.size	"utf16_from_utf8::rest::write_rest_of::<#639a12b236a9ca5f>", .Lfunc_end12-"utf16_from_utf8::rest::write_rest_of::<#639a12b236a9ca5f>"
	.cfi_endproc

	.section	.rodata.cst16,"aM",@progbits,16
	.p2align	4, 0x0
.LCPI13_0:
	.zero	16,192
.LCPI13_1:
	.zero	16,224
.LCPI13_2:
	.zero	16,15
.LCPI13_3:
	.zero	16,191
.LCPI13_4:
	.zero	16,220
.LCPI13_5:
	.zero	16,252
.LCPI13_6:
	.zero	16,3
.LCPI13_7:
	.zero	16,63
.LCPI13_8:
	.zero	16,232
.LCPI13_9:
	.zero	16,239
.LCPI13_10:
	.zero	16,127
.LCPI13_11:
	.zero	16,223
.LCPI13_12:
	.zero	16,159
.LCPI13_13:
	.zero	16,237
.LCPI13_14:
	.zero	16,143
.LCPI13_15:
	.zero	16,245
.LCPI13_16:
	.zero	16,244
.LCPI13_17:
	.zero	16,240
.LCPI13_18:
	.zero	16,254
	.section	.rodata.cst4,"aM",@progbits,4
	.p2align	2, 0x0
.LCPI13_19:
	.zero	4,192
.LCPI13_20:
	.zero	4,15
.LCPI13_21:
	.zero	4,191
.LCPI13_22:
	.zero	4,239
.LCPI13_23:
	.zero	4,223
.LCPI13_24:
	.zero	4,237
.LCPI13_25:
	.zero	4,244
.LCPI13_26:
	.zero	4,224
	.section	".text.utf16_from_utf8::rest::write_rest_of::<#333b1ec0269cc57c>","ax",@progbits
	.p2align	4
	.type	"utf16_from_utf8::rest::write_rest_of::<#333b1ec0269cc57c>",@function
"utf16_from_utf8::rest::write_rest_of::<#333b1ec0269cc57c>":
	.cfi_startproc
	pushq	%rbx
	.cfi_def_cfa_offset 16
	.cfi_offset %rbx, -16
	movq	%rsi, %rax
	subq	%rdx, %rax
	vpxor	%xmm7, %xmm7, %xmm7
	xorl	%r8d, %r8d
	cmpq	$16, %rax
	jae	.LBB13_7
.LBB13_1:
	cmpq	%rsi, %rdx
	je	.LBB13_22
	leaq	-16(%rsi), %rax
	vmovdqu	-16(%rdi,%rsi), %xmm1
	cmpq	$3, %rax
	jb	.LBB13_16
	vmovdqu	-3(%rdi,%rax), %xmm3
	vmovdqu	-2(%rdi,%rax), %xmm4
	vmovdqu	-1(%rdi,%rax), %xmm2
	vpor	%xmm1, %xmm3, %xmm0
	vpmovmskb	%xmm0, %r9d
	testl	%r9d, %r9d
	je	.LBB13_20
.LBB13_4:
	vpbroadcastd	.LCPI13_19(%rip), %xmm5
	vpblendvb	%xmm1, %xmm2, %xmm5, %xmm0
	vpmaxub	.LCPI13_1(%rip), %xmm4, %xmm6
	vpsrlw	$2, %xmm0, %xmm8
	vpbroadcastd	.LCPI13_20(%rip), %xmm9
	vpand	%xmm9, %xmm8, %xmm8
	vpsllw	$4, %xmm6, %xmm6
	vpandn	%xmm6, %xmm9, %xmm6
	vpor	%xmm6, %xmm8, %xmm6
	vpmaxub	%xmm4, %xmm0, %xmm9
	vpbroadcastd	.LCPI13_21(%rip), %xmm8
	vpminub	%xmm8, %xmm9, %xmm10
	vpcmpeqb	%xmm10, %xmm9, %xmm9
	vpand	.LCPI13_4(%rip), %xmm9, %xmm9
	vpor	%xmm6, %xmm9, %xmm6
	vpsllw	$2, %xmm2, %xmm9
	vpand	.LCPI13_5(%rip), %xmm9, %xmm9
	vpsrlw	$4, %xmm1, %xmm10
	vpand	.LCPI13_6(%rip), %xmm10, %xmm10
	vpminub	.LCPI13_7(%rip), %xmm9, %xmm11
	vpcmpeqb	%xmm11, %xmm9, %xmm11
	vpaddb	%xmm4, %xmm11, %xmm11
	vpaddb	.LCPI13_8(%rip), %xmm11, %xmm11
	vpor	%xmm10, %xmm9, %xmm10
	vpbroadcastd	.LCPI13_22(%rip), %xmm9
	vpminub	%xmm4, %xmm9, %xmm12
	vpcmpeqb	%xmm4, %xmm12, %xmm12
	vpblendvb	%xmm12, %xmm6, %xmm11, %xmm6
	vpand	.LCPI13_10(%rip), %xmm1, %xmm11
	vpaddb	%xmm5, %xmm10, %xmm10
	vpsllw	$6, %xmm0, %xmm0
	vpand	%xmm5, %xmm0, %xmm0
	vpaddb	%xmm0, %xmm11, %xmm0
	vpminub	%xmm1, %xmm8, %xmm11
	vpcmpeqb	%xmm1, %xmm11, %xmm11
	vpminub	.LCPI13_12(%rip), %xmm1, %xmm13
	vpcmpgtb	%xmm1, %xmm5, %xmm14
	vpcmpeqb	%xmm1, %xmm13, %xmm13
	vpminub	.LCPI13_14(%rip), %xmm1, %xmm15
	vpblendvb	%xmm12, %xmm0, %xmm10, %xmm10
	vpbroadcastd	.LCPI13_23(%rip), %xmm0
	vpminub	%xmm0, %xmm2, %xmm12
	vpcmpeqb	%xmm2, %xmm12, %xmm12
	vpand	%xmm12, %xmm11, %xmm11
	vpmaxub	.LCPI13_15(%rip), %xmm1, %xmm12
	vpcmpeqb	%xmm1, %xmm15, %xmm15
	vpcmpeqb	%xmm1, %xmm12, %xmm12
	vpand	.LCPI13_18(%rip), %xmm1, %xmm1
	vpmovmskb	%xmm11, %r9d
	vpsubusb	%xmm0, %xmm4, %xmm0
	vpsubusb	%xmm8, %xmm2, %xmm4
	vpmaxub	%xmm0, %xmm4, %xmm0
	vpxor	%xmm4, %xmm4, %xmm4
	vpsubusb	%xmm9, %xmm3, %xmm3
	vpor	%xmm3, %xmm0, %xmm0
	vpcmpgtb	%xmm4, %xmm0, %xmm0
	vpxor	%xmm0, %xmm14, %xmm0
	vpbroadcastd	.LCPI13_24(%rip), %xmm3
	vpblendvb	%xmm13, .LCPI13_1(%rip), %xmm3, %xmm3
	vpbroadcastd	.LCPI13_25(%rip), %xmm4
	vpblendvb	%xmm15, .LCPI13_17(%rip), %xmm4, %xmm4
	vpcmpeqb	%xmm3, %xmm2, %xmm3
	vpor	%xmm3, %xmm12, %xmm3
	vpcmpeqb	%xmm4, %xmm2, %xmm2
	vpcmpeqb	%xmm5, %xmm1, %xmm1
	vpor	%xmm0, %xmm1, %xmm0
	vpor	%xmm0, %xmm3, %xmm0
	vpor	%xmm0, %xmm2, %xmm0
	vpmaxub	%xmm0, %xmm7, %xmm7
	vmovdqa	%xmm10, %xmm1
	jmp	.LBB13_21
	.p2align	4
.LBB13_8:
	vmovdqu	-3(%rdi,%rdx), %xmm3
	vmovdqu	-2(%rdi,%rdx), %xmm4
	vmovdqu	-1(%rdi,%rdx), %xmm2
	vpor	%xmm1, %xmm3, %xmm5
	vpmovmskb	%xmm5, %r9d
	testl	%r9d, %r9d
	je	.LBB13_15
.LBB13_5:
	vpbroadcastd	.LCPI13_19(%rip), %xmm6
	vpblendvb	%xmm1, %xmm2, %xmm6, %xmm10
	vmovdqa	%xmm7, -16(%rsp)
	vpbroadcastd	.LCPI13_26(%rip), %xmm7
	vpmaxub	%xmm7, %xmm4, %xmm5
	vpsrlw	$2, %xmm10, %xmm8
	vpbroadcastd	.LCPI13_20(%rip), %xmm9
	vpand	%xmm9, %xmm8, %xmm8
	vpsllw	$4, %xmm5, %xmm5
	vpandn	%xmm5, %xmm9, %xmm5
	vpor	%xmm5, %xmm8, %xmm5
	vpmaxub	%xmm4, %xmm10, %xmm9
	vpbroadcastd	.LCPI13_21(%rip), %xmm8
	vpminub	%xmm8, %xmm9, %xmm11
	vpcmpeqb	%xmm11, %xmm9, %xmm9
	vpand	.LCPI13_4(%rip), %xmm9, %xmm9
	vpor	%xmm5, %xmm9, %xmm5
	vpsllw	$2, %xmm2, %xmm9
	vpand	.LCPI13_5(%rip), %xmm9, %xmm9
	vpsrlw	$4, %xmm1, %xmm11
	vpand	.LCPI13_6(%rip), %xmm11, %xmm11
	vpminub	.LCPI13_7(%rip), %xmm9, %xmm12
	vpcmpeqb	%xmm12, %xmm9, %xmm12
	vpaddb	%xmm4, %xmm12, %xmm12
	vpaddb	.LCPI13_8(%rip), %xmm12, %xmm12
	vpor	%xmm11, %xmm9, %xmm11
	vpbroadcastd	.LCPI13_22(%rip), %xmm9
	vpminub	%xmm4, %xmm9, %xmm13
	vpcmpeqb	%xmm4, %xmm13, %xmm13
	vpblendvb	%xmm13, %xmm5, %xmm12, %xmm5
	vpand	.LCPI13_10(%rip), %xmm1, %xmm12
	vpaddb	%xmm6, %xmm11, %xmm11
	vpsllw	$6, %xmm10, %xmm10
	vpand	%xmm6, %xmm10, %xmm10
	vpaddb	%xmm12, %xmm10, %xmm10
	vpminub	%xmm1, %xmm8, %xmm12
	vpcmpeqb	%xmm1, %xmm12, %xmm12
	vpminub	.LCPI13_12(%rip), %xmm1, %xmm14
	vpcmpgtb	%xmm1, %xmm6, %xmm15
	vpcmpeqb	%xmm1, %xmm14, %xmm14
	vpminub	.LCPI13_14(%rip), %xmm1, %xmm0
	vpblendvb	%xmm13, %xmm10, %xmm11, %xmm10
	vpbroadcastd	.LCPI13_23(%rip), %xmm11
	vpminub	%xmm2, %xmm11, %xmm13
	vpcmpeqb	%xmm2, %xmm13, %xmm13
	vpand	%xmm13, %xmm12, %xmm12
	vpmaxub	.LCPI13_15(%rip), %xmm1, %xmm13
	vpcmpeqb	%xmm0, %xmm1, %xmm0
	vpcmpeqb	%xmm1, %xmm13, %xmm13
	vpand	.LCPI13_18(%rip), %xmm1, %xmm1
	vpmovmskb	%xmm12, %r9d
	vpsubusb	%xmm11, %xmm4, %xmm4
	vpsubusb	%xmm8, %xmm2, %xmm8
	vpmaxub	%xmm4, %xmm8, %xmm4
	vpxor	%xmm8, %xmm8, %xmm8
	vpsubusb	%xmm9, %xmm3, %xmm3
	vpor	%xmm3, %xmm4, %xmm3
	vpcmpgtb	%xmm8, %xmm3, %xmm3
	vpxor	%xmm3, %xmm15, %xmm3
	vpbroadcastd	.LCPI13_24(%rip), %xmm4
	vpblendvb	%xmm14, %xmm7, %xmm4, %xmm4
	vpbroadcastd	.LCPI13_25(%rip), %xmm7
	vpblendvb	%xmm0, .LCPI13_17(%rip), %xmm7, %xmm0
	vmovdqa	-16(%rsp), %xmm7
	vpcmpeqb	%xmm4, %xmm2, %xmm4
	vpor	%xmm4, %xmm13, %xmm4
	vpcmpeqb	%xmm0, %xmm2, %xmm0
	vpcmpeqb	%xmm6, %xmm1, %xmm1
	vpor	%xmm3, %xmm1, %xmm1
	vpor	%xmm1, %xmm4, %xmm1
	vpor	%xmm1, %xmm0, %xmm0
	vpmaxub	%xmm0, %xmm7, %xmm7
	vmovdqa	%xmm10, %xmm1
.LBB13_6:
	vpunpcklbw	%xmm1, %xmm5, %xmm0
	movzbl	%r9b, %r10d
	xorl	%r11d, %r11d
	popcntl	%r10d, %r11d
	shll	$4, %r10d
	leaq	.Lstatic.13(%rip), %rbx
	vpshufb	(%r10,%rbx), %xmm0, %xmm0
	vpunpckhbw	%xmm1, %xmm5, %xmm1
	vmovdqu	%xmm0, (%rcx,%r8)
	shrl	$8, %r9d
	xorl	%r10d, %r10d
	popcntl	%r9d, %r10d
	shll	$4, %r9d
	vpshufb	(%r9,%rbx), %xmm1, %xmm0
	leaq	(%rcx,%r8), %r9
	vmovdqu	%xmm0, (%r9,%r11,2)
	addl	%r11d, %r10d
	leaq	(%r8,%r10,2), %r8
	addq	$16, %rdx
	addq	$-16, %rax
	cmpq	$15, %rax
	jbe	.LBB13_1
.LBB13_7:
	vmovdqu	(%rdi,%rdx), %xmm1
	cmpq	$3, %rdx
	jae	.LBB13_8
	testq	%rdx, %rdx
	je	.LBB13_12
	vpbroadcastb	-1(%rdi,%rdx), %xmm2
	vpalignr	$15, %xmm2, %xmm1, %xmm2
	cmpq	$2, %rdx
	jne	.LBB13_13
	movzbl	(%rdi), %r9d
	jmp	.LBB13_14
.LBB13_12:
	vpslldq	$1, %xmm1, %xmm2
.LBB13_13:
	xorl	%r9d, %r9d
.LBB13_14:
	vmovd	%r9d, %xmm3
	vpbroadcastb	%xmm3, %xmm3
	vpalignr	$15, %xmm3, %xmm2, %xmm4
	vpslldq	$1, %xmm4, %xmm3
	vpor	%xmm1, %xmm3, %xmm5
	vpmovmskb	%xmm5, %r9d
	testl	%r9d, %r9d
	jne	.LBB13_5
.LBB13_15:
	vpxor	%xmm5, %xmm5, %xmm5
	movl	$65535, %r9d
	jmp	.LBB13_6
.LBB13_16:
	vpbroadcastb	-17(%rdi,%rsi), %xmm0
	vpalignr	$15, %xmm0, %xmm1, %xmm2
	cmpq	$2, %rax
	jne	.LBB13_18
	movzbl	(%rdi), %r9d
	jmp	.LBB13_19
.LBB13_18:
	xorl	%r9d, %r9d
.LBB13_19:
	vmovd	%r9d, %xmm0
	vpbroadcastb	%xmm0, %xmm0
	vpalignr	$15, %xmm0, %xmm2, %xmm4
	vpslldq	$1, %xmm4, %xmm3
	vpor	%xmm1, %xmm3, %xmm0
	vpmovmskb	%xmm0, %r9d
	testl	%r9d, %r9d
	jne	.LBB13_4
.LBB13_20:
	vpxor	%xmm6, %xmm6, %xmm6
	movl	$65535, %r9d
.LBB13_21:
	subl	%eax, %edx
	vpunpckhbw	%xmm1, %xmm6, %xmm0
	vpunpcklbw	%xmm1, %xmm6, %xmm1
	movq	$-1, %rax
	shlxq	%rdx, %rax, %rax
	andl	%eax, %r9d
	movzbl	%r9b, %eax
	xorl	%edx, %edx
	popcntl	%eax, %edx
	shll	$4, %eax
	leaq	.Lstatic.13(%rip), %r10
	vpshufb	(%rax,%r10), %xmm1, %xmm1
	vmovdqu	%xmm1, (%rcx,%r8)
	addq	%r8, %rcx
	shrl	$8, %r9d
	xorl	%eax, %eax
	popcntl	%r9d, %eax
	shll	$4, %r9d
	vpshufb	(%r9,%r10), %xmm0, %xmm0
	vmovdqu	%xmm0, (%rcx,%rdx,2)
	addl	%edx, %eax
	leaq	(%r8,%rax,2), %r8
.LBB13_22:
	vptest	%xmm7, %xmm7
	je	.LBB13_24
	xorl	%edx, %edx
	xorl	%eax, %eax
	popq	%rbx
	.cfi_def_cfa_offset 8
	retq
.LBB13_24:
	.cfi_def_cfa_offset 16
	cmpb	$-65, -1(%rdi,%rsi)
	jbe	.LBB13_26
	leaq	-1(%rsi), %rax
	jmp	.LBB13_29
.LBB13_26:
	cmpb	$-33, -2(%rdi,%rsi)
	jbe	.LBB13_28
	leaq	-2(%rsi), %rax
	jmp	.LBB13_29
.LBB13_28:
	leaq	-3(%rsi), %rax
	cmpb	$-16, -3(%rdi,%rsi)
	cmovbq	%rsi, %rax
.LBB13_29:
	xorl	%edx, %edx
	cmpq	%rsi, %rax
	setae	%al
	cmovaeq	%r8, %rdx
	popq	%rbx
	.cfi_def_cfa_offset 8
	retq
.Lfunc_end13:
	.size	"utf16_from_utf8::rest::write_rest_of::<#333b1ec0269cc57c>", .Lfunc_end13-"utf16_from_utf8::rest::write_rest_of::<#333b1ec0269cc57c>"
	.cfi_endproc

	.section	.rodata.cst16,"aM",@progbits,16
	.p2align	4, 0x0
.LCPI14_0:
	.zero	16,192
.LCPI14_1:
	.zero	16,191
.LCPI14_2:
	.zero	16,223
.LCPI14_3:
	.zero	16,239
.LCPI14_4:
	.zero	16,159
.LCPI14_5:
	.zero	16,237
.LCPI14_6:
	.zero	16,224
.LCPI14_7:
	.zero	16,143
.LCPI14_8:
	.zero	16,245
.LCPI14_9:
	.zero	16,244
.LCPI14_10:
	.zero	16,240
.LCPI14_11:
	.zero	16,254
.LCPI14_12:
	.zero	16,15
.LCPI14_13:
	.zero	16,220
.LCPI14_14:
	.zero	16,252
.LCPI14_15:
	.zero	16,3
.LCPI14_16:
	.zero	16,63
.LCPI14_17:
	.zero	16,232
.LCPI14_18:
	.zero	16,127
.LCPI14_19:
	.byte	1
	.byte	2
	.byte	3
	.byte	4
	.byte	5
	.byte	6
	.byte	7
	.byte	8
	.byte	9
	.byte	10
	.byte	11
	.byte	12
	.byte	13
	.byte	14
	.byte	15
	.byte	16
	.section	.rodata.cst4,"aM",@progbits,4
	.p2align	2, 0x0
.LCPI14_20:
	.zero	4,192
.LCPI14_21:
	.zero	4,237
.LCPI14_22:
	.zero	4,244
.LCPI14_23:
	.zero	4,191
.LCPI14_24:
	.zero	4,15
	.section	".text.utf16_transcode::transcoding::transcode_many::<#824f73f0383279b7>","ax",@progbits
	.p2align	4
	.type	"utf16_transcode::transcoding::transcode_many::<#824f73f0383279b7>",@function
"utf16_transcode::transcoding::transcode_many::<#824f73f0383279b7>":
	.cfi_startproc
	pushq	%rbp
	.cfi_def_cfa_offset 16
	pushq	%r15
	.cfi_def_cfa_offset 24
	pushq	%r14
	.cfi_def_cfa_offset 32
	pushq	%r13
	.cfi_def_cfa_offset 40
	pushq	%r12
	.cfi_def_cfa_offset 48
	pushq	%rbx
	.cfi_def_cfa_offset 56
	subq	$344, %rsp
	.cfi_def_cfa_offset 400
	.cfi_offset %rbx, -56
	.cfi_offset %r12, -48
	.cfi_offset %r13, -40
	.cfi_offset %r14, -32
	.cfi_offset %r15, -24
	.cfi_offset %rbp, -16
	movq	%r9, %r12
	movq	%r8, %r10
	movq	%rcx, (%rsp)
	movq	%rdx, %r8
	movq	400(%rsp), %r14
	movzbl	(%rsi,%r9), %ecx
	testb	%cl, %cl
	movq	%r10, 8(%rsp)
	movq	%rdx, 16(%rsp)
	js	.LBB14_191
.LBB14_1:
	movq	%rdi, 56(%rsp)
	cmpq	%r12, %r8
	movq	(%rsp), %r11
	movq	%rsi, 24(%rsp)
	ja	.LBB14_5
.LBB14_2:
	movq	56(%rsp), %rax
	movq	%r12, (%rax)
	movq	%r14, 8(%rax)
	movw	$0, 16(%rax)
	jmp	.LBB14_229
	.p2align	4
.LBB14_3:
	leal	67043328(%rax), %edx
	shrl	$10, %edx
	addl	$-10240, %edx
	rolw	$8, %dx
	andl	$1023, %eax
	orl	$56320, %eax
	movbew	%ax, 2(%r11,%r14)
	movl	$4, %ecx
	movl	%edx, %eax
.LBB14_4:
	movw	%ax, (%r11,%r14)
	addq	%rcx, %r14
	addq	%rbx, %r12
	cmpq	%r8, %r12
	jae	.LBB14_2
.LBB14_5:
	leaq	(%rsi,%r12), %r13
	movq	%r8, %rbx
	subq	%r12, %rbx
	cmpq	$16, %rbx
	jb	.LBB14_9
	leaq	(%r11,%r14), %rbp
	movq	%r10, %r15
	subq	%r14, %r15
	cmpq	$16, %rbx
	jne	.LBB14_10
	cmpq	$32, %r15
	jae	.LBB14_12
	xorl	%r9d, %r9d
	xorl	%eax, %eax
	jmp	.LBB14_32
	.p2align	4
.LBB14_9:
	xorl	%eax, %eax
	movq	%rbx, %rbp
	subq	%rax, %rbp
	jne	.LBB14_34
	jmp	.LBB14_126
	.p2align	4
.LBB14_10:
	movq	%r15, %rsi
	shrq	%rsi
	cmpq	%rbx, %rsi
	cmovaeq	%rbx, %rsi
	cmpq	$16, %rsi
	jb	.LBB14_11
	vmovdqu	(%r13), %xmm0
	vpmovmskb	%xmm0, %eax
	testl	%eax, %eax
	je	.LBB14_21
.LBB14_11:
	xorl	%eax, %eax
.LBB14_25:
	leaq	(%rax,%rax), %r9
	movq	%rbx, %rcx
	subq	%rax, %rcx
	je	.LBB14_32
	movq	%rax, %r8
	movq	%r13, %rdi
	movq	%rbx, %rsi
	cmpq	$191, %rcx
	ja	.LBB14_28
	movq	%rbp, %rdx
	jmp	.LBB14_30
.LBB14_12:
	vmovdqu	(%r13), %xmm0
	vpmovmskb	%xmm0, %eax
	testl	%eax, %eax
	movq	24(%rsp), %rsi
	je	.LBB14_20
	vmovq	8(%r13), %xmm1
	vpextrb	$5, %xmm1, %eax
	xorl	%r9d, %r9d
	cmpb	$-17, %al
	ja	.LBB14_74
	vpextrb	$7, %xmm1, %eax
	cmpb	$-65, %al
	ja	.LBB14_74
	vpextrb	$6, %xmm1, %ecx
	movl	$0, %eax
	cmpb	$-33, %cl
	ja	.LBB14_33
	vpslldq	$1, %xmm0, %xmm1
	vpslldq	$2, %xmm0, %xmm3
	vpslldq	$3, %xmm0, %xmm4
	vpbroadcastd	.LCPI14_20(%rip), %xmm2
	vpsubusb	.LCPI14_1(%rip), %xmm1, %xmm5
	vpsubusb	.LCPI14_2(%rip), %xmm3, %xmm6
	vpcmpgtb	%xmm0, %xmm2, %xmm7
	vpmaxub	%xmm6, %xmm5, %xmm5
	vpsubusb	.LCPI14_3(%rip), %xmm4, %xmm4
	vpor	%xmm4, %xmm5, %xmm4
	vpminub	.LCPI14_4(%rip), %xmm0, %xmm5
	vpcmpeqb	%xmm5, %xmm0, %xmm5
	vpbroadcastd	.LCPI14_21(%rip), %xmm6
	vpblendvb	%xmm5, .LCPI14_6(%rip), %xmm6, %xmm5
	vpxor	%xmm6, %xmm6, %xmm6
	vpcmpgtb	%xmm6, %xmm4, %xmm4
	vpminub	.LCPI14_7(%rip), %xmm0, %xmm6
	vpxor	%xmm4, %xmm7, %xmm4
	vpcmpeqb	%xmm6, %xmm0, %xmm6
	vpmaxub	.LCPI14_8(%rip), %xmm0, %xmm7
	vpbroadcastd	.LCPI14_22(%rip), %xmm8
	vpblendvb	%xmm6, .LCPI14_10(%rip), %xmm8, %xmm6
	vpcmpeqb	%xmm5, %xmm1, %xmm5
	vpcmpeqb	%xmm7, %xmm0, %xmm7
	vpcmpeqb	%xmm6, %xmm1, %xmm6
	vpor	%xmm5, %xmm6, %xmm5
	vpor	%xmm7, %xmm5, %xmm5
	vpand	.LCPI14_11(%rip), %xmm0, %xmm6
	vpcmpeqb	%xmm2, %xmm6, %xmm6
	vpor	%xmm4, %xmm6, %xmm4
	vpor	%xmm4, %xmm5, %xmm4
	vpmovmskb	%xmm4, %eax
	testl	%eax, %eax
	je	.LBB14_77
	xorl	%r9d, %r9d
	xorl	%eax, %eax
	jmp	.LBB14_33
.LBB14_28:
	movq	%rbp, %rdx
	movq	%r15, %rcx
	vzeroupper
	callq	"utf16_from_utf8::blocks::write_mixed_blocks::<#8b18edd9dd9aa8df>"
	movq	%rdx, %r9
	movq	%rbx, %rcx
	subq	%rax, %rcx
	cmpq	$191, %rcx
	ja	.LBB14_31
	movq	%r13, %rdi
	movq	%rbx, %rsi
	movq	%rbp, %rdx
	movq	%rax, %r8
.LBB14_30:
	movq	%r15, %rcx
	vzeroupper
	callq	"utf16_from_utf8::rest::write_rest::<#8b18edd9dd9aa8df>"
	movq	%rdx, %r9
.LBB14_31:
	movq	8(%rsp), %r10
	movq	16(%rsp), %r8
	movq	(%rsp), %r11
.LBB14_32:
	movq	24(%rsp), %rsi
.LBB14_33:
	addq	%r9, %r14
	movq	%rbx, %rbp
	subq	%rax, %rbp
	je	.LBB14_126
.LBB14_34:
	movq	%rax, 32(%rsp)
	addq	%rax, %r13
	cmpq	$7, %rbp
	ja	.LBB14_36
	movq	%r13, %rdi
	movq	%rbp, %rsi
	movq	%r11, %rdx
	movq	%r10, %rcx
	movq	%r14, %r8
	vzeroupper
	callq	"utf16_transcode::transcoding::write_chars::<#824f73f0383279b7>"
	movq	(%rsp), %r11
	movq	16(%rsp), %r8
	movq	8(%rsp), %r10
	movq	%rax, %rbx
	movq	%rdx, %r15
	jmp	.LBB14_46
	.p2align	4
.LBB14_36:
	cmpq	$128, %rbp
	movl	$128, %r15d
	cmovbq	%rbp, %r15
	movq	%r10, %r9
	subq	%r14, %r9
	xorl	%eax, %eax
	movq	%r9, %rcx
	subq	$16, %rcx
	cmovaeq	%rcx, %rax
	shrq	%rax
	cmpq	%rax, %r15
	jbe	.LBB14_39
	cmpq	$23, %r9
	ja	.LBB14_41
.LBB14_38:
	movq	%r13, %rdi
	movq	%rbp, %rsi
	movq	%r11, %rdx
	movq	%r10, %rcx
	movq	%r14, %r8
	vzeroupper
	callq	"utf16_transcode::transcoding::write_chars::<#824f73f0383279b7>"
	jmp	.LBB14_44
.LBB14_39:
	cmpq	$63, %rbp
	ja	.LBB14_47
	movq	%r13, %rdi
	movq	%r15, %rsi
	vzeroupper
	callq	"utf16_transcode::encode::valid_prefix"
	movq	%rax, %rbx
	jmp	.LBB14_49
.LBB14_41:
	vpxor	%xmm0, %xmm0, %xmm0
	vmovdqu	%ymm0, 308(%rsp)
	vmovdqu	%ymm0, 288(%rsp)
	vmovdqu	%ymm0, 256(%rsp)
	vmovdqu	%ymm0, 224(%rsp)
	vmovdqu	%ymm0, 192(%rsp)
	vmovdqu	%ymm0, 160(%rsp)
	vmovdqu	%ymm0, 128(%rsp)
	vmovdqu	%ymm0, 96(%rsp)
	vmovdqu	%ymm0, 64(%rsp)
	cmpq	$15, %rbp
	ja	.LBB14_65
	leaq	64(%rsp), %rdx
	movq	%r13, %rdi
	movq	%rbp, %rsi
	movq	%r11, %rcx
	movq	%r10, %r8
	movq	%r14, %r9
.LBB14_43:
	vzeroupper
	callq	"utf16_transcode::transcoding::write_buffered_text::<#824f73f0383279b7>"
.LBB14_44:
	movq	%rax, %rbx
	movq	%rdx, %r15
.LBB14_45:
	movq	8(%rsp), %r10
	movq	16(%rsp), %r8
	movq	(%rsp), %r11
.LBB14_46:
	movq	32(%rsp), %rax
	jmp	.LBB14_125
.LBB14_47:
	movl	$63, %esi
	movq	%r13, %rdi
	vzeroupper
	callq	"utf16_transcode::encode::valid_prefix"
	movq	%rax, %rbx
	addq	$4, %rax
	cmpq	$64, %rax
	jb	.LBB14_49
	leaq	(%rbx,%r13), %rdi
	subq	%rbx, %r15
	movq	%r15, %rsi
	callq	"utf16_transcode::encode::valid_prefix"
	addq	%rax, %rbx
.LBB14_49:
	testq	%rbx, %rbx
	je	.LBB14_61
	movq	(%rsp), %r11
	leaq	(%r11,%r14), %rbp
	cmpq	$7, %rbx
	movq	8(%rsp), %r10
	movq	16(%rsp), %r8
	ja	.LBB14_62
	xorl	%r9d, %r9d
	movq	%rbx, %rax
	jmp	.LBB14_52
.LBB14_60:
	addl	$67043328, %ecx
	shrl	$10, %ecx
	addl	$-10240, %ecx
	movbew	%cx, (%rdi)
	orl	$56320, %esi
	movbew	%si, 2(%rdi)
	movl	$4, %ecx
	addq	%rcx, %r9
	testq	%rax, %rax
	je	.LBB14_123
	.p2align	4
.LBB14_52:
	movzbl	(%r13), %ecx
	movl	$1, %esi
	testb	%cl, %cl
	jns	.LBB14_57
	movzbl	1(%r13), %edx
	andl	$63, %edx
	cmpb	$-33, %cl
	ja	.LBB14_55
	andl	$31, %ecx
	shll	$6, %ecx
	orl	%edx, %ecx
	movl	$2, %esi
	jmp	.LBB14_57
.LBB14_55:
	movzbl	2(%r13), %esi
	andl	$63, %esi
	cmpb	$-17, %cl
	ja	.LBB14_59
	shll	$12, %ecx
	movzwl	%cx, %ecx
	shll	$6, %edx
	orl	%ecx, %edx
	orl	%esi, %edx
	movl	$3, %esi
	movl	%edx, %ecx
	.p2align	4
.LBB14_57:
	addq	%rsi, %r13
	subq	%rsi, %rax
	leaq	(%r9,%rbp), %rdi
.LBB14_58:
	movbew	%cx, (%rdi)
	movl	$2, %ecx
	addq	%rcx, %r9
	testq	%rax, %rax
	jne	.LBB14_52
	jmp	.LBB14_123
.LBB14_59:
	movzbl	3(%r13), %edi
	andl	$63, %edi
	andl	$7, %ecx
	shll	$18, %ecx
	shll	$12, %edx
	orl	%ecx, %edx
	shll	$6, %esi
	orl	%edi, %esi
	leal	(%rsi,%rdx), %ecx
	addq	$4, %r13
	addq	$-4, %rax
	leaq	(%r9,%rbp), %rdi
	cmpl	$65535, %edx
	jbe	.LBB14_58
	jmp	.LBB14_60
.LBB14_21:
	cmpq	$31, %rsi
	ja	.LBB14_24
	vpmovzxbw	%xmm0, %ymm0
	vpsllw	$8, %ymm0, %ymm0
	vmovdqu	%ymm0, (%rbp)
	vmovdqu	-16(%rsi,%r13), %xmm0
	vpmovmskb	%xmm0, %ecx
	movl	$16, %eax
	testl	%ecx, %ecx
	jne	.LBB14_25
	vpmovzxbw	%xmm0, %ymm0
	vpsllw	$8, %ymm0, %ymm0
	vmovdqu	%ymm0, -32(%rbp,%rsi,2)
	movq	%rsi, %rax
	jmp	.LBB14_25
.LBB14_20:
	vpmovzxbw	%xmm0, %ymm0
	vpsllw	$8, %ymm0, %ymm0
	vmovdqu	%ymm0, (%rbp)
	movl	$16, %eax
	movl	$32, %r9d
	jmp	.LBB14_33
.LBB14_61:
	movq	8(%rsp), %r10
	movq	16(%rsp), %r8
	movq	(%rsp), %r11
	jmp	.LBB14_124
.LBB14_62:
	cmpq	$16, %rbx
	ja	.LBB14_75
	vmovq	-8(%r13,%rbx), %xmm0
	vmovq	(%r13), %xmm1
	vpunpcklqdq	%xmm0, %xmm1, %xmm0
	movq	%rbx, %rax
	shlq	$4, %rax
	leaq	.Lstatic.11(%rip), %rcx
	vpshufb	-128(%rax,%rcx), %xmm0, %xmm0
	vpmovmskb	%xmm0, %eax
	testl	%eax, %eax
	je	.LBB14_93
	leaq	.Lstatic.12(%rip), %rax
	subq	%rbx, %rax
	vpmaxub	16(%rax), %xmm0, %xmm1
	vpslldq	$1, %xmm1, %xmm0
	vpbroadcastd	.LCPI14_20(%rip), %xmm3
	vpblendvb	%xmm1, %xmm0, %xmm3, %xmm4
	vpslldq	$2, %xmm1, %xmm5
	vpbroadcastd	.LCPI14_23(%rip), %xmm2
	vpmaxub	.LCPI14_6(%rip), %xmm5, %xmm6
	vpsrlw	$2, %xmm4, %xmm7
	vpbroadcastd	.LCPI14_24(%rip), %xmm8
	vpand	%xmm7, %xmm8, %xmm7
	vpsllw	$4, %xmm6, %xmm6
	vpandn	%xmm6, %xmm8, %xmm6
	vpor	%xmm6, %xmm7, %xmm6
	vpmaxub	%xmm5, %xmm4, %xmm7
	vpminub	%xmm2, %xmm7, %xmm8
	vpcmpeqb	%xmm7, %xmm8, %xmm7
	vpand	.LCPI14_13(%rip), %xmm7, %xmm7
	vpor	%xmm7, %xmm6, %xmm6
	vpsllw	$2, %xmm0, %xmm7
	vpand	.LCPI14_14(%rip), %xmm7, %xmm7
	vpsrlw	$4, %xmm1, %xmm8
	vpand	.LCPI14_15(%rip), %xmm8, %xmm8
	vpminub	.LCPI14_16(%rip), %xmm7, %xmm9
	vpcmpeqb	%xmm7, %xmm9, %xmm9
	vpaddb	%xmm5, %xmm9, %xmm9
	vpaddb	.LCPI14_17(%rip), %xmm9, %xmm9
	vpor	%xmm7, %xmm8, %xmm7
	vpminub	.LCPI14_3(%rip), %xmm5, %xmm8
	vpcmpeqb	%xmm5, %xmm8, %xmm5
	vpblendvb	%xmm5, %xmm6, %xmm9, %xmm6
	vpand	.LCPI14_18(%rip), %xmm1, %xmm8
	vpaddb	%xmm3, %xmm7, %xmm7
	vpsllw	$6, %xmm4, %xmm4
	vpand	%xmm3, %xmm4, %xmm3
	vpaddb	%xmm3, %xmm8, %xmm3
	vpblendvb	%xmm5, %xmm3, %xmm7, %xmm3
	vpunpcklbw	%xmm3, %xmm6, %xmm4
	vpminub	%xmm2, %xmm1, %xmm2
	vpcmpeqb	%xmm2, %xmm1, %xmm1
	vpminub	.LCPI14_2(%rip), %xmm0, %xmm2
	vpcmpeqb	%xmm2, %xmm0, %xmm0
	vpand	%xmm0, %xmm1, %xmm0
	vpmovmskb	%xmm0, %eax
	movzbl	%al, %ecx
	popcntl	%ecx, %edx
	shll	$4, %ecx
	leaq	.Lstatic.13(%rip), %rsi
	vpshufb	(%rcx,%rsi), %xmm4, %xmm0
	vpunpckhbw	%xmm3, %xmm6, %xmm1
	vmovdqu	%xmm0, (%rbp)
	shrl	$8, %eax
	popcntl	%eax, %r9d
	shll	$4, %eax
	vpshufb	(%rax,%rsi), %xmm1, %xmm0
	vmovdqu	%xmm0, (%rbp,%rdx,2)
	addl	%edx, %r9d
	addl	%r9d, %r9d
	jmp	.LBB14_123
.LBB14_65:
	movzbl	(%r13), %ecx
	movl	$1, %eax
	testb	%cl, %cl
	js	.LBB14_78
.LBB14_66:
	movzbl	(%r13,%rax), %ecx
	testb	%cl, %cl
	js	.LBB14_84
.LBB14_67:
	xorl	%esi, %esi
	cmpq	$65, %r9
	setae	%sil
	shll	$6, %esi
	addq	$66, %rsi
	cmpq	%rbp, %rsi
	cmovaeq	%rbp, %rsi
	cmpq	$16, %rbp
	jne	.LBB14_87
	vmovq	-8(%r13,%rsi), %xmm1
	vmovq	(%r13), %xmm0
	vpunpcklqdq	%xmm1, %xmm0, %xmm0
	movq	%rsi, %rax
	shlq	$4, %rax
	leaq	.Lstatic.11(%rip), %rcx
	vpshufb	-128(%rax,%rcx), %xmm0, %xmm0
	vpmovmskb	%xmm0, %eax
	testl	%eax, %eax
	je	.LBB14_105
	vpextrb	$5, %xmm1, %eax
	xorl	%r15d, %r15d
	cmpb	$-17, %al
	ja	.LBB14_164
	vpextrb	$7, %xmm1, %eax
	cmpb	$-65, %al
	ja	.LBB14_164
	vpextrb	$6, %xmm1, %eax
	movl	$0, %ebx
	cmpb	$-33, %al
	ja	.LBB14_165
	vpslldq	$1, %xmm0, %xmm1
	vpslldq	$2, %xmm0, %xmm3
	vpslldq	$3, %xmm0, %xmm4
	vpbroadcastd	.LCPI14_20(%rip), %xmm2
	vpcmpgtb	%xmm0, %xmm2, %xmm5
	vpsubusb	.LCPI14_1(%rip), %xmm1, %xmm6
	vpsubusb	.LCPI14_2(%rip), %xmm3, %xmm7
	vpsubusb	.LCPI14_3(%rip), %xmm4, %xmm4
	vpmaxub	%xmm7, %xmm6, %xmm6
	vpor	%xmm4, %xmm6, %xmm4
	vpxor	%xmm6, %xmm6, %xmm6
	vpcmpgtb	%xmm6, %xmm4, %xmm4
	vpxor	%xmm4, %xmm5, %xmm4
	vpminub	.LCPI14_4(%rip), %xmm0, %xmm5
	vpcmpeqb	%xmm5, %xmm0, %xmm5
	vpbroadcastd	.LCPI14_21(%rip), %xmm6
	vpblendvb	%xmm5, .LCPI14_6(%rip), %xmm6, %xmm5
	vpcmpeqb	%xmm5, %xmm1, %xmm5
	vpminub	.LCPI14_7(%rip), %xmm0, %xmm6
	vpcmpeqb	%xmm6, %xmm0, %xmm6
	vpmaxub	.LCPI14_8(%rip), %xmm0, %xmm7
	vpcmpeqb	%xmm7, %xmm0, %xmm7
	vpbroadcastd	.LCPI14_22(%rip), %xmm8
	vpblendvb	%xmm6, .LCPI14_10(%rip), %xmm8, %xmm6
	vpcmpeqb	%xmm6, %xmm1, %xmm6
	vpor	%xmm5, %xmm6, %xmm5
	vpor	%xmm7, %xmm5, %xmm5
	vpand	.LCPI14_11(%rip), %xmm0, %xmm6
	vpcmpeqb	%xmm2, %xmm6, %xmm6
	vpor	%xmm4, %xmm6, %xmm4
	vpor	%xmm4, %xmm5, %xmm4
	vmovd	%esi, %xmm5
	vpbroadcastb	%xmm5, %xmm5
	vpmaxub	.LCPI14_19(%rip), %xmm5, %xmm6
	vpcmpeqb	%xmm6, %xmm5, %xmm5
	vpsllw	$7, %xmm4, %xmm4
	vpand	%xmm4, %xmm5, %xmm4
	vpmovmskb	%xmm4, %eax
	testl	%eax, %eax
	je	.LBB14_163
	xorl	%r15d, %r15d
.LBB14_164:
	xorl	%ebx, %ebx
	jmp	.LBB14_165
.LBB14_74:
	xorl	%eax, %eax
	jmp	.LBB14_33
.LBB14_24:
	movq	%r13, %rdi
	movq	%rbp, %rdx
	vzeroupper
	callq	"utf16_from_utf8::ascii::write_front::<#8b18edd9dd9aa8df>"
	movq	(%rsp), %r11
	movq	16(%rsp), %r8
	movq	8(%rsp), %r10
	jmp	.LBB14_25
.LBB14_75:
	leaq	16(,%rbx,2), %r15
	movq	%r15, %rsi
	shrq	%rsi
	cmpq	%rbx, %rsi
	cmovaeq	%rbx, %rsi
	cmpq	$32, %r15
	jb	.LBB14_76
	vmovdqu	(%r13), %xmm0
	vpmovmskb	%xmm0, %eax
	testl	%eax, %eax
	je	.LBB14_102
.LBB14_76:
	xorl	%r8d, %r8d
.LBB14_115:
	leaq	(%r8,%r8), %r9
	movq	%rbx, %rax
	subq	%r8, %rax
	jne	.LBB14_117
	movq	16(%rsp), %r8
	jmp	.LBB14_123
.LBB14_77:
	vpblendvb	%xmm0, %xmm1, %xmm2, %xmm5
	vpbroadcastd	.LCPI14_23(%rip), %xmm4
	vpmaxub	.LCPI14_6(%rip), %xmm3, %xmm6
	vpsrlw	$2, %xmm5, %xmm7
	vpbroadcastd	.LCPI14_24(%rip), %xmm8
	vpand	%xmm7, %xmm8, %xmm7
	vpsllw	$4, %xmm6, %xmm6
	vpandn	%xmm6, %xmm8, %xmm6
	vpmaxub	%xmm3, %xmm5, %xmm8
	vpminub	%xmm4, %xmm8, %xmm9
	vpcmpeqb	%xmm9, %xmm8, %xmm8
	vpand	.LCPI14_13(%rip), %xmm8, %xmm8
	vpor	%xmm6, %xmm7, %xmm6
	vpsllw	$2, %xmm1, %xmm7
	vpand	.LCPI14_14(%rip), %xmm7, %xmm7
	vpor	%xmm6, %xmm8, %xmm6
	vpsrlw	$4, %xmm0, %xmm8
	vpand	.LCPI14_15(%rip), %xmm8, %xmm8
	vpminub	.LCPI14_16(%rip), %xmm7, %xmm9
	vpcmpeqb	%xmm7, %xmm9, %xmm9
	vpaddb	%xmm3, %xmm9, %xmm9
	vpaddb	.LCPI14_17(%rip), %xmm9, %xmm9
	vpminub	.LCPI14_3(%rip), %xmm3, %xmm10
	vpor	%xmm7, %xmm8, %xmm7
	vpcmpeqb	%xmm3, %xmm10, %xmm3
	vpblendvb	%xmm3, %xmm6, %xmm9, %xmm6
	vpaddb	%xmm2, %xmm7, %xmm7
	vpand	.LCPI14_18(%rip), %xmm0, %xmm8
	vpsllw	$6, %xmm5, %xmm5
	vpand	%xmm2, %xmm5, %xmm2
	vpaddb	%xmm2, %xmm8, %xmm2
	vpblendvb	%xmm3, %xmm2, %xmm7, %xmm2
	vpunpcklbw	%xmm2, %xmm6, %xmm3
	vpminub	.LCPI14_2(%rip), %xmm1, %xmm5
	vpcmpeqb	%xmm5, %xmm1, %xmm1
	vpminub	%xmm4, %xmm0, %xmm4
	vpcmpeqb	%xmm4, %xmm0, %xmm0
	vpand	%xmm1, %xmm0, %xmm0
	vpmovmskb	%xmm0, %eax
	movzbl	%al, %ecx
	popcntl	%ecx, %edx
	shll	$4, %ecx
	leaq	.Lstatic.13(%rip), %rdi
	vpshufb	(%rcx,%rdi), %xmm3, %xmm0
	vmovdqu	%xmm0, (%rbp)
	vpunpckhbw	%xmm2, %xmm6, %xmm0
	shrl	$8, %eax
	popcntl	%eax, %r9d
	shll	$4, %eax
	vpshufb	(%rax,%rdi), %xmm0, %xmm0
	vmovdqu	%xmm0, (%rbp,%rdx,2)
	addl	%edx, %r9d
	addl	%r9d, %r9d
	movl	$16, %eax
	jmp	.LBB14_33
.LBB14_78:
	cmpb	$-31, %cl
	jae	.LBB14_94
	movzbl	1(%r13), %edx
	movl	%ecx, %eax
	shrb	$4, %al
	andb	$12, %al
	movl	%edx, %esi
	shrb	$6, %sil
	orb	%al, %sil
	cmpb	$14, %sil
	jne	.LBB14_38
	leal	62(%rcx), %esi
	movl	$2, %eax
	cmpb	$30, %sil
	jb	.LBB14_66
	jmp	.LBB14_111
.LBB14_117:
	cmpq	$191, %rax
	ja	.LBB14_119
	movq	%r13, %rdi
	movq	%rbx, %rsi
	movq	%rbp, %rdx
	movq	%r15, %rcx
	jmp	.LBB14_121
.LBB14_84:
	leal	31(%rcx), %esi
	movzbl	1(%r13,%rax), %edx
	cmpb	$11, %sil
	ja	.LBB14_97
	cmpb	$-65, %dl
	jg	.LBB14_38
	cmpb	$-64, 2(%r13,%rax)
	jge	.LBB14_38
	jmp	.LBB14_67
.LBB14_87:
	vmovdqu	(%r13), %xmm0
	vpmovmskb	%xmm0, %eax
	testl	%eax, %eax
	je	.LBB14_106
	xorl	%r15d, %r15d
	xorl	%ebx, %ebx
.LBB14_89:
	movq	%r9, 40(%rsp)
	movq	%rsi, %rax
	subq	%rbx, %rax
	cmpq	$191, %rax
	jbe	.LBB14_91
	leaq	64(%rsp), %rdx
	movl	$276, %ecx
	movq	%r13, %rdi
	movq	%rsi, 48(%rsp)
	movq	48(%rsp), %rsi
	movq	%rbx, %r8
	movq	%r15, %r9
	vzeroupper
	callq	"utf16_from_utf8::blocks::write_mixed_blocks::<#8b18edd9dd9aa8df>"
	movq	48(%rsp), %rsi
	movq	%rax, %rbx
	movq	%rdx, %r15
	movq	%rsi, %rax
	subq	%rbx, %rax
	cmpq	$191, %rax
	ja	.LBB14_92
.LBB14_91:
	leaq	64(%rsp), %rdx
	movl	$276, %ecx
	movq	%r13, %rdi
	movq	%rbx, %r8
	movq	%r15, %r9
	vzeroupper
	callq	"utf16_from_utf8::rest::write_rest::<#8b18edd9dd9aa8df>"
	movq	%rax, %rbx
	movq	%rdx, %r15
.LBB14_92:
	movq	(%rsp), %r11
	movq	40(%rsp), %r9
	jmp	.LBB14_165
.LBB14_93:
	leaq	(%rbx,%rbx), %r9
	vpmovzxbw	%xmm0, %ymm0
	vpsllw	$8, %ymm0, %ymm0
	vmovdqu	%ymm0, (%rbp)
	jmp	.LBB14_123
.LBB14_94:
	movzbl	1(%r13), %edx
	cmpb	$-20, %cl
	ja	.LBB14_109
	cmpb	$-65, %dl
	jg	.LBB14_38
	movl	$3, %eax
	cmpb	$-64, 2(%r13)
	jge	.LBB14_38
	jmp	.LBB14_66
.LBB14_119:
	movq	%r13, %rdi
	movq	%rbx, %rsi
	movq	%rbp, %rdx
	movq	%r15, %rcx
	vzeroupper
	callq	"utf16_from_utf8::blocks::write_mixed_blocks::<#8b18edd9dd9aa8df>"
	movq	%rdx, %r9
	movq	%rbx, %rcx
	subq	%rax, %rcx
	cmpq	$191, %rcx
	ja	.LBB14_122
	movq	%r13, %rdi
	movq	%rbx, %rsi
	movq	%rbp, %rdx
	movq	%r15, %rcx
	movq	%rax, %r8
.LBB14_121:
	vzeroupper
	callq	"utf16_from_utf8::rest::write_rest::<#8b18edd9dd9aa8df>"
	movq	%rdx, %r9
.LBB14_122:
	movq	8(%rsp), %r10
	movq	16(%rsp), %r8
	movq	(%rsp), %r11
.LBB14_123:
	addq	%r9, %r14
.LBB14_124:
	movq	32(%rsp), %rax
	movq	%r14, %r15
.LBB14_125:
	addq	%rax, %rbx
	movq	%r15, %r14
	movq	24(%rsp), %rsi
.LBB14_126:
	addq	%r12, %rbx
	movq	%r8, %rdx
	subq	%rbx, %rdx
	je	.LBB14_203
	movzbl	(%rsi,%rbx), %eax
	testb	%al, %al
	js	.LBB14_132
	movl	$1, %r12d
.LBB14_129:
	movq	%r10, %rcx
	subq	%r14, %rcx
	xorl	%edx, %edx
	cmpl	$65536, %eax
	setae	%dl
	leaq	2(,%rdx,2), %rdx
	cmpq	%rdx, %rcx
	jb	.LBB14_204
	cmpl	$65535, %eax
	ja	.LBB14_3
	rolw	$8, %ax
	movl	$2, %ecx
	jmp	.LBB14_4
	.p2align	4
.LBB14_132:
	cmpq	$3, %rdx
	jb	.LBB14_137
	leal	31(%rax), %ecx
	cmpb	$11, %cl
	ja	.LBB14_138
	movzbl	1(%rsi,%rbx), %ecx
	cmpb	$-65, %cl
	jg	.LBB14_138
	movzbl	2(%rsi,%rbx), %edi
	cmpb	$-65, %dil
	jg	.LBB14_138
	shll	$12, %eax
	shll	$6, %ecx
	addl	%eax, %ecx
	leal	(%rdi,%rcx), %eax
	addl	$-925824, %eax
	movl	$3, %r12d
	jmp	.LBB14_129
.LBB14_137:
	cmpq	$2, %rdx
	jne	.LBB14_216
.LBB14_138:
	movzbl	1(%rsi,%rbx), %r15d
	movl	%eax, %ecx
	shrb	$4, %cl
	andb	$12, %cl
	movl	%r15d, %edi
	shrb	$6, %dil
	orb	%cl, %dil
	movb	$1, %cl
	cmpb	$14, %dil
	jne	.LBB14_227
	leal	31(%rax), %edi
	cmpb	$12, %dil
	jae	.LBB14_144
.LBB14_140:
	cmpq	$2, %rdx
	je	.LBB14_214
	movzbl	2(%rsi,%rbx), %edi
	cmpb	$-65, %dil
	jg	.LBB14_215
	cmpb	$-17, %al
	ja	.LBB14_148
	shll	$12, %eax
	shll	$6, %r15d
	addl	%eax, %r15d
	leal	(%rdi,%r15), %eax
	addl	$-925824, %eax
	movl	$3, %r12d
	jmp	.LBB14_129
.LBB14_144:
	leal	62(%rax), %edi
	cmpb	$30, %dil
	jb	.LBB14_159
	movb	$-65, %r8b
	leal	-224(%rax), %r9d
	cmpl	$20, %r9d
	ja	.LBB14_154
	leaq	.LJTI14_3(%rip), %r10
	movslq	(%r10,%r9,4), %r9
	addq	%r10, %r9
	movq	8(%rsp), %r10
	notrack jmpq	*%r9
.LBB14_147:
	movb	$-96, %r9b
	jmp	.LBB14_155
.LBB14_148:
	cmpq	$4, %rdx
	jb	.LBB14_214
	movzbl	3(%rsi,%rbx), %edx
	cmpb	$-65, %dl
	jg	.LBB14_217
	shll	$18, %eax
	shll	$12, %r15d
	addl	%eax, %r15d
	shll	$6, %edi
	addl	%r15d, %edi
	leal	(%rdx,%rdi), %eax
	addl	$-63447168, %eax
	movl	$4, %r12d
	jmp	.LBB14_129
.LBB14_151:
	movb	$-112, %r9b
	jmp	.LBB14_155
.LBB14_152:
	movb	$-97, %r8b
	jmp	.LBB14_154
.LBB14_153:
	movb	$-113, %r8b
.LBB14_154:
	movb	$-128, %r9b
.LBB14_155:
	cmpb	$50, %dil
	ja	.LBB14_227
	cmpb	%r15b, %r9b
	ja	.LBB14_227
	cmpb	%r8b, %r15b
	ja	.LBB14_227
	cmpb	$-33, %al
	movq	16(%rsp), %r8
	ja	.LBB14_140
.LBB14_159:
	shll	$6, %eax
	addl	%r15d, %eax
	addl	$-12416, %eax
	movl	$2, %r12d
	jmp	.LBB14_129
.LBB14_97:
	movl	%ecx, %esi
	shrb	$4, %sil
	andb	$12, %sil
	movl	%edx, %edi
	shrb	$6, %dil
	orb	%sil, %dil
	cmpb	$14, %dil
	jne	.LBB14_38
	leal	62(%rcx), %esi
	cmpb	$30, %sil
	jb	.LBB14_67
	movb	$-65, %dil
	leal	-224(%rcx), %r8d
	cmpl	$20, %r8d
	ja	.LBB14_183
	movq	%r9, %rbx
	leaq	.LJTI14_2(%rip), %r9
	movslq	(%r9,%r8,4), %r8
	addq	%r9, %r8
	movq	%rbx, %r9
	notrack jmpq	*%r8
.LBB14_101:
	movb	$-96, %r8b
	jmp	.LBB14_184
.LBB14_102:
	cmpq	$31, %rsi
	ja	.LBB14_114
	vpmovzxbw	%xmm0, %ymm0
	vpsllw	$8, %ymm0, %ymm0
	vmovdqu	%ymm0, (%rbp)
	vmovdqu	-16(%rsi,%r13), %xmm0
	vpmovmskb	%xmm0, %eax
	movl	$16, %r8d
	testl	%eax, %eax
	jne	.LBB14_115
	vpmovzxbw	%xmm0, %ymm0
	vpsllw	$8, %ymm0, %ymm0
	vmovdqu	%ymm0, -32(%rbp,%rsi,2)
	movq	%rsi, %r8
	jmp	.LBB14_115
.LBB14_105:
	vpmovzxbw	%xmm0, %ymm0
	vpsllw	$8, %ymm0, %ymm0
	vmovdqu	%ymm0, 64(%rsp)
	movl	$16, %ebx
	movl	$32, %r15d
	jmp	.LBB14_165
.LBB14_106:
	cmpq	$31, %rbp
	ja	.LBB14_160
	vpmovzxbw	%xmm0, %ymm0
	vpsllw	$8, %ymm0, %ymm0
	vmovdqu	%ymm0, 64(%rsp)
	vmovdqu	-16(%rsi,%r13), %xmm0
	vpmovmskb	%xmm0, %eax
	movl	$16, %ebx
	testl	%eax, %eax
	jne	.LBB14_161
	vpmovzxbw	%xmm0, %ymm0
	vpsllw	$8, %ymm0, %ymm0
	vmovdqu	%ymm0, 32(%rsp,%rsi,2)
	leaq	(%rsi,%rsi), %r15
	movq	%rsi, %rbx
	jmp	.LBB14_165
.LBB14_109:
	cmpb	$-65, %dl
	jg	.LBB14_38
	leal	62(%rcx), %esi
.LBB14_111:
	movb	$-65, %al
	leal	-224(%rcx), %edi
	cmpl	$20, %edi
	ja	.LBB14_172
	leaq	.LJTI14_1(%rip), %r8
	movslq	(%r8,%rdi,4), %rdi
	addq	%r8, %rdi
	notrack jmpq	*%rdi
.LBB14_113:
	movb	$-96, %dil
	jmp	.LBB14_173
.LBB14_114:
	movq	%r13, %rdi
	movq	%rbp, %rdx
	callq	"utf16_from_utf8::ascii::write_front::<#8b18edd9dd9aa8df>"
	movq	(%rsp), %r11
	movq	8(%rsp), %r10
	movq	%rax, %r8
	jmp	.LBB14_115
.LBB14_160:
	leaq	64(%rsp), %rdx
	movq	%r13, %rdi
	movq	%rsi, %r15
	movq	%r9, %rbx
	vzeroupper
	callq	"utf16_from_utf8::ascii::write_front::<#8b18edd9dd9aa8df>"
	movq	%r15, %rsi
	movq	%rbx, %r9
	movq	(%rsp), %r11
	movq	%rax, %rbx
.LBB14_161:
	leaq	(%rbx,%rbx), %r15
	cmpq	%rsi, %rbx
	jne	.LBB14_89
	jmp	.LBB14_165
.LBB14_163:
	vpblendvb	%xmm0, %xmm1, %xmm2, %xmm5
	vpbroadcastd	.LCPI14_23(%rip), %xmm4
	vpmaxub	.LCPI14_6(%rip), %xmm3, %xmm6
	vpsrlw	$2, %xmm5, %xmm7
	vpbroadcastd	.LCPI14_24(%rip), %xmm8
	vpand	%xmm7, %xmm8, %xmm7
	vpsllw	$4, %xmm6, %xmm6
	vpandn	%xmm6, %xmm8, %xmm6
	vpmaxub	%xmm3, %xmm5, %xmm8
	vpminub	%xmm4, %xmm8, %xmm9
	vpcmpeqb	%xmm9, %xmm8, %xmm8
	vpand	.LCPI14_13(%rip), %xmm8, %xmm8
	vpor	%xmm6, %xmm7, %xmm6
	vpsllw	$2, %xmm1, %xmm7
	vpand	.LCPI14_14(%rip), %xmm7, %xmm7
	vpor	%xmm6, %xmm8, %xmm6
	vpsrlw	$4, %xmm0, %xmm8
	vpand	.LCPI14_15(%rip), %xmm8, %xmm8
	vpminub	.LCPI14_16(%rip), %xmm7, %xmm9
	vpcmpeqb	%xmm7, %xmm9, %xmm9
	vpaddb	%xmm3, %xmm9, %xmm9
	vpaddb	.LCPI14_17(%rip), %xmm9, %xmm9
	vpminub	.LCPI14_3(%rip), %xmm3, %xmm10
	vpor	%xmm7, %xmm8, %xmm7
	vpcmpeqb	%xmm3, %xmm10, %xmm3
	vpblendvb	%xmm3, %xmm6, %xmm9, %xmm6
	vpaddb	%xmm2, %xmm7, %xmm7
	vpand	.LCPI14_18(%rip), %xmm0, %xmm8
	vpsllw	$6, %xmm5, %xmm5
	vpand	%xmm2, %xmm5, %xmm2
	vpaddb	%xmm2, %xmm8, %xmm2
	vpblendvb	%xmm3, %xmm2, %xmm7, %xmm2
	vpunpcklbw	%xmm2, %xmm6, %xmm3
	vpminub	%xmm4, %xmm0, %xmm4
	vpminub	.LCPI14_2(%rip), %xmm1, %xmm5
	vpcmpeqb	%xmm4, %xmm0, %xmm0
	vpcmpeqb	%xmm5, %xmm1, %xmm1
	vpand	%xmm1, %xmm0, %xmm0
	vpmovmskb	%xmm0, %eax
	movzbl	%al, %ecx
	popcntl	%ecx, %edx
	shll	$4, %ecx
	leaq	.Lstatic.13(%rip), %rsi
	vpshufb	(%rcx,%rsi), %xmm3, %xmm0
	vmovdqa	%xmm0, 64(%rsp)
	vpunpckhbw	%xmm2, %xmm6, %xmm0
	shrl	$8, %eax
	popcntl	%eax, %r15d
	shll	$4, %eax
	vpshufb	(%rax,%rsi), %xmm0, %xmm0
	vmovdqu	%xmm0, 64(%rsp,%rdx,2)
	addl	%edx, %r15d
	addl	%r15d, %r15d
	movl	$16, %ebx
.LBB14_165:
	cmpq	%r9, %r15
	jbe	.LBB14_167
	andq	$-2, %r9
	movzbl	64(%rsp,%r9), %eax
	andb	$-4, %al
	leaq	-2(%r9), %r15
	cmpb	$-36, %al
	cmovneq	%r9, %r15
	leaq	64(%rsp), %rdi
	movq	%r15, %rsi
	vzeroupper
	callq	"utf16_to_utf8::lens::utf8_len::<#8b18edd9dd9aa8df>"
	movq	(%rsp), %r11
	movq	%rax, %rbx
.LBB14_167:
	leaq	(%r11,%r14), %rdi
	leaq	64(%rsp), %rsi
	movq	%r15, %rdx
	vzeroupper
	callq	memcpy@PLT
	addq	%r14, %r15
	testq	%rbx, %rbx
	jne	.LBB14_45
	leaq	64(%rsp), %rdx
	movq	%r13, %rdi
	movq	%rbp, %rsi
	movq	(%rsp), %rcx
	movq	8(%rsp), %r8
	movq	%r15, %r9
	jmp	.LBB14_43
.LBB14_169:
	movb	$-112, %dil
	jmp	.LBB14_173
.LBB14_170:
	movb	$-97, %al
	jmp	.LBB14_172
.LBB14_171:
	movb	$-113, %al
.LBB14_172:
	movb	$-128, %dil
.LBB14_173:
	cmpb	$50, %sil
	ja	.LBB14_38
	cmpb	%dl, %dil
	ja	.LBB14_38
	cmpb	%al, %dl
	ja	.LBB14_38
	movl	$2, %eax
	cmpb	$-32, %cl
	jb	.LBB14_66
	cmpb	$-65, 2(%r13)
	jg	.LBB14_38
	movl	$3, %eax
	cmpb	$-16, %cl
	jb	.LBB14_66
	movl	$4, %eax
	cmpb	$-65, 3(%r13)
	jg	.LBB14_38
	jmp	.LBB14_66
.LBB14_180:
	movb	$-112, %r8b
	jmp	.LBB14_184
.LBB14_181:
	movb	$-97, %dil
	jmp	.LBB14_183
.LBB14_182:
	movb	$-113, %dil
.LBB14_183:
	movb	$-128, %r8b
.LBB14_184:
	cmpb	$50, %sil
	ja	.LBB14_38
	cmpb	%dl, %r8b
	ja	.LBB14_38
	cmpb	%dil, %dl
	ja	.LBB14_38
	cmpb	$-32, %cl
	jb	.LBB14_67
	cmpb	$-65, 2(%r13,%rax)
	jg	.LBB14_38
	cmpb	$-16, %cl
	jb	.LBB14_67
	cmpb	$-64, 3(%r13,%rax)
	jge	.LBB14_38
	jmp	.LBB14_67
.LBB14_191:
	movq	%r8, %rdx
	subq	%r12, %rdx
	cmpq	$3, %rdx
	jb	.LBB14_195
	leal	31(%rcx), %eax
	cmpb	$11, %al
	ja	.LBB14_196
	cmpb	$-65, 1(%rsi,%r12)
	jg	.LBB14_196
	cmpb	$-64, 2(%rsi,%r12)
	jl	.LBB14_1
	jmp	.LBB14_196
.LBB14_195:
	cmpq	$2, %rdx
	jne	.LBB14_201
.LBB14_196:
	movzbl	1(%rsi,%r12), %ebx
	movl	%ecx, %eax
	shrb	$4, %al
	andb	$12, %al
	movl	%ebx, %r8d
	shrb	$6, %r8b
	orb	%al, %r8b
	movb	$1, %al
	cmpb	$14, %r8b
	jne	.LBB14_200
	leal	31(%rcx), %r8d
	cmpb	$12, %r8b
	movq	16(%rsp), %r8
	jae	.LBB14_205
.LBB14_198:
	cmpq	$2, %rdx
	jne	.LBB14_209
.LBB14_199:
	movb	$2, %al
	xorl	%r9d, %r9d
	jmp	.LBB14_202
.LBB14_201:
	addb	$11, %cl
	cmpb	$-51, %cl
	setb	%r9b
	movb	$2, %al
	subb	%r9b, %al
	jmp	.LBB14_202
.LBB14_203:
	movq	%r8, %r12
	jmp	.LBB14_2
.LBB14_204:
	movb	$3, %cl
	xorl	%eax, %eax
	jmp	.LBB14_228
.LBB14_205:
	leal	62(%rcx), %r11d
	cmpb	$30, %r11b
	jb	.LBB14_1
	movb	$-65, %r8b
	leal	-224(%rcx), %r9d
	cmpl	$20, %r9d
	ja	.LBB14_221
	leaq	.LJTI14_0(%rip), %r10
	movslq	(%r10,%r9,4), %r9
	addq	%r10, %r9
	notrack jmpq	*%r9
.LBB14_208:
	movb	$-96, %r9b
	jmp	.LBB14_222
.LBB14_227:
	movb	$1, %al
	jmp	.LBB14_228
.LBB14_209:
	movb	$2, %r9b
	cmpb	$-65, 2(%rsi,%r12)
	jg	.LBB14_202
	cmpb	$-16, %cl
	jb	.LBB14_1
	cmpq	$4, %rdx
	jb	.LBB14_199
	movb	$3, %r9b
	cmpb	$-65, 3(%rsi,%r12)
	jle	.LBB14_1
	jmp	.LBB14_202
.LBB14_214:
	movb	$2, %cl
	xorl	%eax, %eax
	jmp	.LBB14_228
.LBB14_215:
	movb	$2, %al
	jmp	.LBB14_228
.LBB14_216:
	addb	$11, %al
	cmpb	$-51, %al
	setb	%al
	movb	$2, %cl
	subb	%al, %cl
	jmp	.LBB14_228
.LBB14_217:
	movb	$3, %al
.LBB14_228:
	movq	56(%rsp), %rdx
	movq	%rbx, (%rdx)
	movq	%r14, 8(%rdx)
	movb	%cl, 16(%rdx)
	movb	%al, 17(%rdx)
	jmp	.LBB14_229
.LBB14_218:
	movb	$-112, %r9b
	jmp	.LBB14_222
.LBB14_219:
	movb	$-97, %r8b
	jmp	.LBB14_221
.LBB14_220:
	movb	$-113, %r8b
.LBB14_221:
	movb	$-128, %r9b
.LBB14_222:
	cmpb	$51, %r11b
	setb	%r10b
	cmpb	%bl, %r9b
	setbe	%r9b
	cmpb	%r8b, %bl
	setbe	%r8b
	andb	%r9b, %r8b
	andb	%r10b, %r8b
	cmpb	$1, %r8b
	jne	.LBB14_200
	cmpb	$-32, %cl
	movq	8(%rsp), %r10
	movq	16(%rsp), %r8
	jb	.LBB14_1
	jmp	.LBB14_198
.LBB14_200:
	movb	$1, %r9b
.LBB14_202:
	movq	%r12, (%rdi)
	movq	%r14, 8(%rdi)
	movb	%al, 16(%rdi)
	movb	%r9b, 17(%rdi)
.LBB14_229:
	addq	$344, %rsp
	.cfi_def_cfa_offset 56
	popq	%rbx
	.cfi_def_cfa_offset 48
	popq	%r12
	.cfi_def_cfa_offset 40
	popq	%r13
	.cfi_def_cfa_offset 32
	popq	%r14
	.cfi_def_cfa_offset 24
	popq	%r15
	.cfi_def_cfa_offset 16
	popq	%rbp
	.cfi_def_cfa_offset 8
	vzeroupper
	retq
.Lfunc_end14:
	.size	"utf16_transcode::transcoding::transcode_many::<#824f73f0383279b7>", .Lfunc_end14-"utf16_transcode::transcoding::transcode_many::<#824f73f0383279b7>"
	.cfi_endproc
	.section	".rodata.utf16_transcode::transcoding::transcode_many::<#824f73f0383279b7>","a",@progbits
	.p2align	2, 0x0
.LJTI14_0:
	.long	.LBB14_208-.LJTI14_0
	.long	.LBB14_221-.LJTI14_0
	.long	.LBB14_221-.LJTI14_0
	.long	.LBB14_221-.LJTI14_0
	.long	.LBB14_221-.LJTI14_0
	.long	.LBB14_221-.LJTI14_0
	.long	.LBB14_221-.LJTI14_0
	.long	.LBB14_221-.LJTI14_0
	.long	.LBB14_221-.LJTI14_0
	.long	.LBB14_221-.LJTI14_0
	.long	.LBB14_221-.LJTI14_0
	.long	.LBB14_221-.LJTI14_0
	.long	.LBB14_221-.LJTI14_0
	.long	.LBB14_219-.LJTI14_0
	.long	.LBB14_221-.LJTI14_0
	.long	.LBB14_221-.LJTI14_0
	.long	.LBB14_218-.LJTI14_0
	.long	.LBB14_221-.LJTI14_0
	.long	.LBB14_221-.LJTI14_0
	.long	.LBB14_221-.LJTI14_0
	.long	.LBB14_220-.LJTI14_0
.LJTI14_1:
	.long	.LBB14_113-.LJTI14_1
	.long	.LBB14_172-.LJTI14_1
	.long	.LBB14_172-.LJTI14_1
	.long	.LBB14_172-.LJTI14_1
	.long	.LBB14_172-.LJTI14_1
	.long	.LBB14_172-.LJTI14_1
	.long	.LBB14_172-.LJTI14_1
	.long	.LBB14_172-.LJTI14_1
	.long	.LBB14_172-.LJTI14_1
	.long	.LBB14_172-.LJTI14_1
	.long	.LBB14_172-.LJTI14_1
	.long	.LBB14_172-.LJTI14_1
	.long	.LBB14_172-.LJTI14_1
	.long	.LBB14_170-.LJTI14_1
	.long	.LBB14_172-.LJTI14_1
	.long	.LBB14_172-.LJTI14_1
	.long	.LBB14_169-.LJTI14_1
	.long	.LBB14_172-.LJTI14_1
	.long	.LBB14_172-.LJTI14_1
	.long	.LBB14_172-.LJTI14_1
	.long	.LBB14_171-.LJTI14_1
.LJTI14_2:
	.long	.LBB14_101-.LJTI14_2
	.long	.LBB14_183-.LJTI14_2
	.long	.LBB14_183-.LJTI14_2
	.long	.LBB14_183-.LJTI14_2
	.long	.LBB14_183-.LJTI14_2
	.long	.LBB14_183-.LJTI14_2
	.long	.LBB14_183-.LJTI14_2
	.long	.LBB14_183-.LJTI14_2
	.long	.LBB14_183-.LJTI14_2
	.long	.LBB14_183-.LJTI14_2
	.long	.LBB14_183-.LJTI14_2
	.long	.LBB14_183-.LJTI14_2
	.long	.LBB14_183-.LJTI14_2
	.long	.LBB14_181-.LJTI14_2
	.long	.LBB14_183-.LJTI14_2
	.long	.LBB14_183-.LJTI14_2
	.long	.LBB14_180-.LJTI14_2
	.long	.LBB14_183-.LJTI14_2
	.long	.LBB14_183-.LJTI14_2
	.long	.LBB14_183-.LJTI14_2
	.long	.LBB14_182-.LJTI14_2
.LJTI14_3:
	.long	.LBB14_147-.LJTI14_3
	.long	.LBB14_154-.LJTI14_3
	.long	.LBB14_154-.LJTI14_3
	.long	.LBB14_154-.LJTI14_3
	.long	.LBB14_154-.LJTI14_3
	.long	.LBB14_154-.LJTI14_3
	.long	.LBB14_154-.LJTI14_3
	.long	.LBB14_154-.LJTI14_3
	.long	.LBB14_154-.LJTI14_3
	.long	.LBB14_154-.LJTI14_3
	.long	.LBB14_154-.LJTI14_3
	.long	.LBB14_154-.LJTI14_3
	.long	.LBB14_154-.LJTI14_3
	.long	.LBB14_152-.LJTI14_3
	.long	.LBB14_154-.LJTI14_3
	.long	.LBB14_154-.LJTI14_3
	.long	.LBB14_151-.LJTI14_3
	.long	.LBB14_154-.LJTI14_3
	.long	.LBB14_154-.LJTI14_3
	.long	.LBB14_154-.LJTI14_3
	.long	.LBB14_153-.LJTI14_3

	.section	".text.utf16_transcode::transcoding::write_chars::<#824f73f0383279b7>","ax",@progbits
	.p2align	4
	.type	"utf16_transcode::transcoding::write_chars::<#824f73f0383279b7>",@function
"utf16_transcode::transcoding::write_chars::<#824f73f0383279b7>":
	.cfi_startproc
	pushq	%r15
	.cfi_def_cfa_offset 16
	pushq	%r14
	.cfi_def_cfa_offset 24
	pushq	%r13
	.cfi_def_cfa_offset 32
	pushq	%r12
	.cfi_def_cfa_offset 40
	pushq	%rbx
	.cfi_def_cfa_offset 48
	.cfi_offset %rbx, -48
	.cfi_offset %r12, -40
	.cfi_offset %r13, -32
	.cfi_offset %r14, -24
	.cfi_offset %r15, -16
	movq	%r8, %r13
	movq	%rcx, %rbx
	movq	%rdx, %r14
	movq	%rsi, %r15
	movq	%rdi, %r12
	addq	%r8, %rdx
	subq	%r8, %rcx
	callq	"utf16_transcode::encode::FromUtf8Direction::begin::<#8b18edd9dd9aa8df>"
	addq	%r13, %rdx
	jmp	.LBB15_1
	.p2align	4
.LBB15_34:
	leal	67043328(%rcx), %r8d
	shrl	$10, %r8d
	addl	$-10240, %r8d
	rolw	$8, %r8w
	andl	$1023, %ecx
	orl	$56320, %ecx
	movbew	%cx, 2(%r14,%rdx)
	movl	$4, %edi
	movl	%r8d, %ecx
.LBB15_35:
	movw	%cx, (%r14,%rdx)
	addq	%rdi, %rdx
	addq	%rsi, %rax
.LBB15_1:
	cmpq	%r15, %rax
	jae	.LBB15_36
	movzbl	(%r12,%rax), %ecx
	testb	%cl, %cl
	js	.LBB15_4
	movl	$1, %esi
.LBB15_31:
	movq	%rbx, %rdi
	subq	%rdx, %rdi
	xorl	%r8d, %r8d
	cmpl	$65536, %ecx
	setae	%r8b
	leaq	2(,%r8,2), %r8
	cmpq	%r8, %rdi
	jb	.LBB15_36
	cmpl	$65535, %ecx
	ja	.LBB15_34
	rolw	$8, %cx
	movl	$2, %edi
	jmp	.LBB15_35
	.p2align	4
.LBB15_4:
	movq	%r15, %rdi
	subq	%rax, %rdi
	cmpq	$3, %rdi
	jb	.LBB15_9
	leal	31(%rcx), %esi
	cmpb	$11, %sil
	ja	.LBB15_10
	movzbl	1(%r12,%rax), %esi
	cmpb	$-65, %sil
	jg	.LBB15_10
	movzbl	2(%r12,%rax), %r8d
	cmpb	$-65, %r8b
	jg	.LBB15_10
	jmp	.LBB15_8
.LBB15_9:
	cmpq	$2, %rdi
	jne	.LBB15_36
.LBB15_10:
	movzbl	1(%r12,%rax), %esi
	movl	%ecx, %r8d
	shrb	$4, %r8b
	andb	$12, %r8b
	movl	%esi, %r9d
	shrb	$6, %r9b
	orb	%r8b, %r9b
	cmpb	$14, %r9b
	jne	.LBB15_36
	leal	31(%rcx), %r8d
	cmpb	$12, %r8b
	jae	.LBB15_12
.LBB15_25:
	cmpq	$2, %rdi
	je	.LBB15_36
	movzbl	2(%r12,%rax), %r8d
	cmpb	$-65, %r8b
	jg	.LBB15_36
	cmpb	$-17, %cl
	ja	.LBB15_28
.LBB15_8:
	shll	$12, %ecx
	shll	$6, %esi
	addl	%ecx, %esi
	leal	(%r8,%rsi), %ecx
	addl	$-925824, %ecx
	movl	$3, %esi
	jmp	.LBB15_31
.LBB15_12:
	leal	62(%rcx), %r8d
	cmpb	$30, %r8b
	jb	.LBB15_24
	movb	$-65, %r9b
	leal	-224(%rcx), %r10d
	cmpl	$20, %r10d
	ja	.LBB15_19
	leaq	.LJTI15_0(%rip), %r11
	movslq	(%r11,%r10,4), %r10
	addq	%r11, %r10
	notrack jmpq	*%r10
.LBB15_15:
	movb	$-96, %r10b
	jmp	.LBB15_20
.LBB15_28:
	cmpq	$4, %rdi
	jb	.LBB15_36
	movzbl	3(%r12,%rax), %edi
	cmpb	$-65, %dil
	jg	.LBB15_36
	shll	$18, %ecx
	shll	$12, %esi
	addl	%ecx, %esi
	shll	$6, %r8d
	addl	%esi, %r8d
	leal	(%rdi,%r8), %ecx
	addl	$-63447168, %ecx
	movl	$4, %esi
	jmp	.LBB15_31
.LBB15_17:
	movb	$-112, %r10b
	jmp	.LBB15_20
.LBB15_16:
	movb	$-97, %r9b
	jmp	.LBB15_19
.LBB15_18:
	movb	$-113, %r9b
.LBB15_19:
	movb	$-128, %r10b
.LBB15_20:
	cmpb	$50, %r8b
	ja	.LBB15_36
	cmpb	%sil, %r10b
	ja	.LBB15_36
	cmpb	%r9b, %sil
	ja	.LBB15_36
	cmpb	$-33, %cl
	ja	.LBB15_25
.LBB15_24:
	shll	$6, %ecx
	addl	%esi, %ecx
	addl	$-12416, %ecx
	movl	$2, %esi
	jmp	.LBB15_31
.LBB15_36:
	popq	%rbx
	.cfi_def_cfa_offset 40
	popq	%r12
	.cfi_def_cfa_offset 32
	popq	%r13
	.cfi_def_cfa_offset 24
	popq	%r14
	.cfi_def_cfa_offset 16
	popq	%r15
	.cfi_def_cfa_offset 8
	retq
.Lfunc_end15:
	.size	"utf16_transcode::transcoding::write_chars::<#824f73f0383279b7>", .Lfunc_end15-"utf16_transcode::transcoding::write_chars::<#824f73f0383279b7>"
	.cfi_endproc
	.section	".rodata.utf16_transcode::transcoding::write_chars::<#824f73f0383279b7>","a",@progbits
	.p2align	2, 0x0
.LJTI15_0:
	.long	.LBB15_15-.LJTI15_0
	.long	.LBB15_19-.LJTI15_0
	.long	.LBB15_19-.LJTI15_0
	.long	.LBB15_19-.LJTI15_0
	.long	.LBB15_19-.LJTI15_0
	.long	.LBB15_19-.LJTI15_0
	.long	.LBB15_19-.LJTI15_0
	.long	.LBB15_19-.LJTI15_0
	.long	.LBB15_19-.LJTI15_0
	.long	.LBB15_19-.LJTI15_0
	.long	.LBB15_19-.LJTI15_0
	.long	.LBB15_19-.LJTI15_0
	.long	.LBB15_19-.LJTI15_0
	.long	.LBB15_16-.LJTI15_0
	.long	.LBB15_19-.LJTI15_0
	.long	.LBB15_19-.LJTI15_0
	.long	.LBB15_17-.LJTI15_0
	.long	.LBB15_19-.LJTI15_0
	.long	.LBB15_19-.LJTI15_0
	.long	.LBB15_19-.LJTI15_0
	.long	.LBB15_18-.LJTI15_0

	.section	.rodata.cst32,"aM",@progbits,32
	.p2align	5, 0x0
.LCPI16_0:
	.zero	32,15
.LCPI16_1:
	.byte	2
	.byte	2
	.byte	2
	.byte	2
	.byte	2
	.byte	2
	.byte	2
	.byte	2
	.byte	128
	.byte	128
	.byte	128
	.byte	128
	.byte	33
	.byte	1
	.byte	21
	.byte	73
	.byte	2
	.byte	2
	.byte	2
	.byte	2
	.byte	2
	.byte	2
	.byte	2
	.byte	2
	.byte	128
	.byte	128
	.byte	128
	.byte	128
	.byte	33
	.byte	1
	.byte	21
	.byte	73
.LCPI16_2:
	.byte	231
	.byte	163
	.byte	131
	.byte	131
	.byte	139
	.byte	203
	.byte	203
	.byte	203
	.byte	203
	.byte	203
	.byte	203
	.byte	203
	.byte	203
	.byte	219
	.byte	203
	.byte	203
	.byte	231
	.byte	163
	.byte	131
	.byte	131
	.byte	139
	.byte	203
	.byte	203
	.byte	203
	.byte	203
	.byte	203
	.byte	203
	.byte	203
	.byte	203
	.byte	219
	.byte	203
	.byte	203
.LCPI16_3:
	.byte	1
	.byte	1
	.byte	1
	.byte	1
	.byte	1
	.byte	1
	.byte	1
	.byte	1
	.byte	230
	.byte	174
	.byte	186
	.byte	186
	.byte	1
	.byte	1
	.byte	1
	.byte	1
	.byte	1
	.byte	1
	.byte	1
	.byte	1
	.byte	1
	.byte	1
	.byte	1
	.byte	1
	.byte	230
	.byte	174
	.byte	186
	.byte	186
	.byte	1
	.byte	1
	.byte	1
	.byte	1
.LCPI16_4:
	.zero	32,96
.LCPI16_5:
	.zero	32,112
.LCPI16_6:
	.zero	32,128
.LCPI16_7:
	.byte	255
	.byte	255
	.byte	255
	.byte	255
	.byte	255
	.byte	255
	.byte	255
	.byte	255
	.byte	255
	.byte	255
	.byte	255
	.byte	255
	.byte	255
	.byte	255
	.byte	255
	.byte	255
	.byte	255
	.byte	255
	.byte	255
	.byte	255
	.byte	255
	.byte	255
	.byte	255
	.byte	255
	.byte	255
	.byte	255
	.byte	255
	.byte	255
	.byte	255
	.byte	239
	.byte	223
	.byte	191
	.section	.rodata.cst4,"aM",@progbits,4
	.p2align	2, 0x0
.LCPI16_8:
	.zero	4,15
.LCPI16_12:
	.zero	4,96
.LCPI16_13:
	.zero	4,112
.LCPI16_14:
	.zero	4,128
	.section	.rodata.cst16,"aM",@progbits,16
	.p2align	4, 0x0
.LCPI16_9:
	.byte	2
	.byte	2
	.byte	2
	.byte	2
	.byte	2
	.byte	2
	.byte	2
	.byte	2
	.byte	128
	.byte	128
	.byte	128
	.byte	128
	.byte	33
	.byte	1
	.byte	21
	.byte	73
.LCPI16_10:
	.byte	231
	.byte	163
	.byte	131
	.byte	131
	.byte	139
	.byte	203
	.byte	203
	.byte	203
	.byte	203
	.byte	203
	.byte	203
	.byte	203
	.byte	203
	.byte	219
	.byte	203
	.byte	203
.LCPI16_11:
	.byte	1
	.byte	1
	.byte	1
	.byte	1
	.byte	1
	.byte	1
	.byte	1
	.byte	1
	.byte	230
	.byte	174
	.byte	186
	.byte	186
	.byte	1
	.byte	1
	.byte	1
	.byte	1
	.section	".text.utf16_transcode::encode::valid_prefix","ax",@progbits
	.p2align	4
	.type	"utf16_transcode::encode::valid_prefix",@function
"utf16_transcode::encode::valid_prefix":
	.cfi_startproc
	pushq	%rbp
	.cfi_def_cfa_offset 16
	.cfi_offset %rbp, -16
	movq	%rsp, %rbp
	.cfi_def_cfa_register %rbp
	pushq	%r15
	pushq	%r14
	pushq	%r13
	pushq	%r12
	pushq	%rbx
	andq	$-32, %rsp
	subq	$256, %rsp
	.cfi_offset %rbx, -56
	.cfi_offset %r12, -48
	.cfi_offset %r13, -40
	.cfi_offset %r14, -32
	.cfi_offset %r15, -24
	movq	%rsi, %rbx
	movq	%rdi, %r14
	cmpq	$64, %rsi
	jb	.LBB16_17
	vmovdqu	32(%r14), %ymm0
	vpor	(%r14), %ymm0, %ymm0
	vpmovmskb	%ymm0, %eax
	testl	%eax, %eax
	je	.LBB16_3
	xorl	%esi, %esi
	movq	%rbx, %rdx
	jmp	.LBB16_8
.LBB16_3:
	movq	$-64, %rax
	xorl	%esi, %esi
	.p2align	4
.LBB16_5:
	leaq	(%rbx,%rax), %rdx
	cmpq	$63, %rdx
	jbe	.LBB16_6
	vmovdqu	96(%r14,%rsi), %ymm0
	vpor	64(%r14,%rsi), %ymm0, %ymm0
	vpmovmskb	%ymm0, %ecx
	addq	$-64, %rax
	addq	$64, %rsi
	testl	%ecx, %ecx
	je	.LBB16_5
	movq	%rbx, %rdx
	subq	%rsi, %rdx
.LBB16_8:
	addq	%r14, %rsi
	vpxor	%xmm1, %xmm1, %xmm1
	xorl	%ecx, %ecx
	movq	%rdx, %rax
	vpxor	%xmm3, %xmm3, %xmm3
	vpxor	%xmm4, %xmm4, %xmm4
	vpxor	%xmm10, %xmm10, %xmm10
	vpxor	%xmm11, %xmm11, %xmm11
	jmp	.LBB16_9
	.p2align	4
.LBB16_11:
	vperm2i128	$33, %ymm0, %ymm1, %ymm1
	vpalignr	$15, %ymm1, %ymm0, %ymm2
	vperm2i128	$33, %ymm12, %ymm0, %ymm3
	vpalignr	$15, %ymm3, %ymm12, %ymm4
	vpsrlw	$4, %ymm4, %ymm5
	vpbroadcastd	.LCPI16_8(%rip), %ymm6
	vpand	%ymm6, %ymm5, %ymm5
	vpsrlw	$4, %ymm2, %ymm7
	vpand	%ymm6, %ymm7, %ymm7
	vbroadcasti128	.LCPI16_9(%rip), %ymm8
	vpshufb	%ymm7, %ymm8, %ymm7
	vpshufb	%ymm5, %ymm8, %ymm5
	vpand	%ymm6, %ymm4, %ymm4
	vpand	%ymm6, %ymm2, %ymm2
	vbroadcasti128	.LCPI16_10(%rip), %ymm8
	vpshufb	%ymm2, %ymm8, %ymm2
	vpshufb	%ymm4, %ymm8, %ymm4
	vpsrlw	$4, %ymm12, %ymm8
	vpand	%ymm6, %ymm8, %ymm8
	vpsrlw	$4, %ymm0, %ymm9
	vpand	%ymm6, %ymm9, %ymm6
	vbroadcasti128	.LCPI16_11(%rip), %ymm9
	vpshufb	%ymm6, %ymm9, %ymm6
	vpand	%ymm6, %ymm2, %ymm2
	vpand	%ymm7, %ymm2, %ymm2
	vpshufb	%ymm8, %ymm9, %ymm6
	vpand	%ymm6, %ymm4, %ymm4
	vpand	%ymm5, %ymm4, %ymm4
	vpalignr	$14, %ymm3, %ymm12, %ymm5
	vpalignr	$14, %ymm1, %ymm0, %ymm6
	vpbroadcastd	.LCPI16_12(%rip), %ymm7
	vpsubusb	%ymm7, %ymm6, %ymm6
	vpsubusb	%ymm7, %ymm5, %ymm5
	vpalignr	$13, %ymm3, %ymm12, %ymm3
	vpalignr	$13, %ymm1, %ymm0, %ymm1
	vpbroadcastd	.LCPI16_13(%rip), %ymm7
	vpsubusb	%ymm7, %ymm1, %ymm1
	vpor	%ymm1, %ymm6, %ymm1
	vpsubusb	%ymm7, %ymm3, %ymm3
	vpor	%ymm3, %ymm5, %ymm3
	vpbroadcastd	.LCPI16_14(%rip), %ymm5
	vpand	%ymm5, %ymm1, %ymm1
	vpxor	%ymm1, %ymm2, %ymm1
	vpand	%ymm5, %ymm3, %ymm2
	vpxor	%ymm2, %ymm4, %ymm2
	vpcmpeqd	%ymm3, %ymm3, %ymm3
	vpsubusb	%ymm3, %ymm0, %ymm3
	vpsubusb	.LCPI16_7(%rip), %ymm12, %ymm4
.LBB16_12:
	vpor	%ymm2, %ymm11, %ymm11
	vpor	%ymm1, %ymm10, %ymm10
	addq	$64, %rcx
	addq	$-64, %rax
	vmovdqa	%ymm12, %ymm1
	cmpq	$63, %rax
	jbe	.LBB16_13
.LBB16_9:
	vmovdqu	(%rsi,%rcx), %ymm0
	vmovdqu	32(%rsi,%rcx), %ymm12
	vpor	%ymm0, %ymm12, %ymm2
	vpmovmskb	%ymm2, %edi
	testl	%edi, %edi
	jne	.LBB16_11
	vmovdqa	%ymm3, %ymm1
	vmovdqa	%ymm4, %ymm2
	vpxor	%xmm3, %xmm3, %xmm3
	vpxor	%xmm4, %xmm4, %xmm4
	jmp	.LBB16_12
.LBB16_13:
	vmovdqa	%ymm4, 32(%rsp)
	vmovdqa	%ymm3, 64(%rsp)
	vmovdqa	%ymm12, (%rsp)
	vmovdqa	%ymm11, 96(%rsp)
	vmovdqa	%ymm10, 128(%rsp)
.LBB16_14:
	leaq	160(%rsp), %rdi
	vzeroupper
	callq	"simdutf8::last_block"
	vmovdqa	160(%rsp), %ymm1
	vmovdqa	192(%rsp), %ymm0
	vpor	%ymm1, %ymm0, %ymm2
	vpmovmskb	%ymm2, %eax
	testl	%eax, %eax
	vmovdqa	64(%rsp), %ymm3
	vmovdqa	32(%rsp), %ymm2
	je	.LBB16_16
	vperm2i128	$3, (%rsp), %ymm1, %ymm2
	vpalignr	$15, %ymm2, %ymm1, %ymm3
	vperm2i128	$33, %ymm0, %ymm1, %ymm4
	vpalignr	$15, %ymm4, %ymm0, %ymm5
	vpsrlw	$4, %ymm5, %ymm6
	vpbroadcastd	.LCPI16_8(%rip), %ymm7
	vpand	%ymm7, %ymm6, %ymm6
	vpsrlw	$4, %ymm3, %ymm8
	vpand	%ymm7, %ymm8, %ymm8
	vbroadcasti128	.LCPI16_9(%rip), %ymm9
	vpshufb	%ymm8, %ymm9, %ymm8
	vpshufb	%ymm6, %ymm9, %ymm6
	vpand	%ymm7, %ymm5, %ymm5
	vpand	%ymm7, %ymm3, %ymm3
	vbroadcasti128	.LCPI16_10(%rip), %ymm9
	vpshufb	%ymm3, %ymm9, %ymm3
	vpshufb	%ymm5, %ymm9, %ymm5
	vpsrlw	$4, %ymm0, %ymm9
	vpand	%ymm7, %ymm9, %ymm9
	vpsrlw	$4, %ymm1, %ymm10
	vpand	%ymm7, %ymm10, %ymm7
	vbroadcasti128	.LCPI16_11(%rip), %ymm10
	vpshufb	%ymm7, %ymm10, %ymm7
	vpand	%ymm7, %ymm3, %ymm3
	vpand	%ymm3, %ymm8, %ymm3
	vpshufb	%ymm9, %ymm10, %ymm7
	vpand	%ymm7, %ymm5, %ymm5
	vpand	%ymm6, %ymm5, %ymm5
	vpalignr	$14, %ymm2, %ymm1, %ymm6
	vpalignr	$14, %ymm4, %ymm0, %ymm7
	vpbroadcastd	.LCPI16_12(%rip), %ymm8
	vpsubusb	%ymm8, %ymm7, %ymm7
	vpsubusb	%ymm8, %ymm6, %ymm6
	vpalignr	$13, %ymm2, %ymm1, %ymm1
	vpalignr	$13, %ymm4, %ymm0, %ymm2
	vpbroadcastd	.LCPI16_13(%rip), %ymm4
	vpsubusb	%ymm4, %ymm2, %ymm2
	vpor	%ymm2, %ymm7, %ymm2
	vpsubusb	%ymm4, %ymm1, %ymm1
	vpor	%ymm1, %ymm6, %ymm1
	vpbroadcastd	.LCPI16_14(%rip), %ymm4
	vpand	%ymm4, %ymm2, %ymm2
	vpxor	%ymm2, %ymm5, %ymm2
	vpand	%ymm4, %ymm1, %ymm1
	vpxor	%ymm1, %ymm3, %ymm3
	vpsubusb	.LCPI16_7(%rip), %ymm0, %ymm0
	vpor	%ymm0, %ymm2, %ymm2
.LBB16_16:
	vpor	96(%rsp), %ymm2, %ymm0
	vpor	128(%rsp), %ymm3, %ymm1
	vpor	%ymm1, %ymm0, %ymm0
	vptest	%ymm0, %ymm0
	je	.LBB16_40
.LBB16_17:
	xorl	%r13d, %r13d
	jmp	.LBB16_18
	.p2align	4
.LBB16_37:
	vpor	96(%rsp), %ymm2, %ymm0
	vpor	128(%rsp), %ymm3, %ymm1
	vpor	%ymm1, %ymm0, %ymm0
	vptest	%ymm0, %ymm0
	jne	.LBB16_38
.LBB16_18:
	movq	%r13, %r12
	movq	%rbx, %r15
	subq	%r13, %r15
	cmpq	$1025, %r15
	jb	.LBB16_38
	xorl	%eax, %eax
	cmpb	$-64, 1024(%r14,%r12)
	setl	%al
	negq	%rax
	leaq	(%r12,%rax), %r13
	addq	$1024, %r13
	xorl	%eax, %eax
	cmpb	$-64, (%r14,%r13)
	setl	%al
	subq	%rax, %r13
	xorl	%eax, %eax
	cmpb	$-64, (%r14,%r13)
	setl	%al
	subq	%rax, %r13
	leaq	(%r14,%r12), %rsi
	movq	%r13, %rdx
	subq	%r12, %rdx
	cmpq	$64, %rdx
	jb	.LBB16_20
	vmovdqu	32(%rsi), %ymm0
	vpor	(%rsi), %ymm0, %ymm0
	vpmovmskb	%ymm0, %eax
	testl	%eax, %eax
	je	.LBB16_23
	xorl	%eax, %eax
	jmp	.LBB16_29
	.p2align	4
.LBB16_20:
	xorl	%eax, %eax
.LBB16_27:
	addq	%rax, %rsi
	vpxor	%xmm0, %xmm0, %xmm0
	vmovdqa	%ymm0, 128(%rsp)
	xorl	%ecx, %ecx
	vmovdqa	%ymm0, 96(%rsp)
	vmovdqa	%ymm0, 64(%rsp)
	vmovdqa	%ymm0, 32(%rsp)
	vmovdqa	%ymm0, (%rsp)
	jmp	.LBB16_35
.LBB16_23:
	movl	$64, %eax
	.p2align	4
.LBB16_25:
	leaq	-64(%rdx), %rcx
	cmpq	$63, %rcx
	jbe	.LBB16_26
	vmovdqu	32(%rsi,%rax), %ymm0
	vpor	(%rsi,%rax), %ymm0, %ymm0
	vpmovmskb	%ymm0, %ecx
	addq	$-64, %rdx
	addq	$64, %rax
	testl	%ecx, %ecx
	je	.LBB16_25
	addq	$-64, %rax
.LBB16_29:
	addq	%rax, %rsi
	vpxor	%xmm3, %xmm3, %xmm3
	xorl	%ecx, %ecx
	movq	%rdx, %rax
	vpxor	%xmm1, %xmm1, %xmm1
	vpxor	%xmm2, %xmm2, %xmm2
	vpxor	%xmm10, %xmm10, %xmm10
	vpxor	%xmm11, %xmm11, %xmm11
	jmp	.LBB16_30
	.p2align	4
.LBB16_31:
	vpxor	%xmm0, %xmm0, %xmm0
	vpxor	%xmm4, %xmm4, %xmm4
.LBB16_33:
	vpor	%ymm2, %ymm11, %ymm11
	vpor	%ymm1, %ymm10, %ymm10
	addq	$64, %rcx
	addq	$-64, %rax
	vmovdqa	%ymm12, %ymm3
	vmovdqa	%ymm0, %ymm1
	vmovdqa	%ymm4, %ymm2
	cmpq	$63, %rax
	jbe	.LBB16_34
.LBB16_30:
	vmovdqu	(%rsi,%rcx), %ymm0
	vmovdqu	32(%rsi,%rcx), %ymm12
	vpor	%ymm0, %ymm12, %ymm4
	vpmovmskb	%ymm4, %edi
	testl	%edi, %edi
	je	.LBB16_31
	vperm2i128	$33, %ymm0, %ymm3, %ymm1
	vpalignr	$15, %ymm1, %ymm0, %ymm2
	vperm2i128	$33, %ymm12, %ymm0, %ymm3
	vpalignr	$15, %ymm3, %ymm12, %ymm4
	vpsrlw	$4, %ymm4, %ymm5
	vpbroadcastd	.LCPI16_8(%rip), %ymm6
	vpand	%ymm6, %ymm5, %ymm5
	vpsrlw	$4, %ymm2, %ymm7
	vpand	%ymm6, %ymm7, %ymm7
	vbroadcasti128	.LCPI16_9(%rip), %ymm8
	vpshufb	%ymm7, %ymm8, %ymm7
	vpshufb	%ymm5, %ymm8, %ymm5
	vpand	%ymm6, %ymm4, %ymm4
	vpand	%ymm6, %ymm2, %ymm2
	vbroadcasti128	.LCPI16_10(%rip), %ymm8
	vpshufb	%ymm2, %ymm8, %ymm2
	vpshufb	%ymm4, %ymm8, %ymm4
	vpsrlw	$4, %ymm12, %ymm8
	vpand	%ymm6, %ymm8, %ymm8
	vpsrlw	$4, %ymm0, %ymm9
	vpand	%ymm6, %ymm9, %ymm6
	vbroadcasti128	.LCPI16_11(%rip), %ymm9
	vpshufb	%ymm6, %ymm9, %ymm6
	vpand	%ymm6, %ymm2, %ymm2
	vpand	%ymm7, %ymm2, %ymm2
	vpshufb	%ymm8, %ymm9, %ymm6
	vpand	%ymm6, %ymm4, %ymm4
	vpand	%ymm5, %ymm4, %ymm4
	vpalignr	$14, %ymm3, %ymm12, %ymm5
	vpalignr	$14, %ymm1, %ymm0, %ymm6
	vpbroadcastd	.LCPI16_12(%rip), %ymm7
	vpsubusb	%ymm7, %ymm6, %ymm6
	vpsubusb	%ymm7, %ymm5, %ymm5
	vpalignr	$13, %ymm3, %ymm12, %ymm3
	vpalignr	$13, %ymm1, %ymm0, %ymm1
	vpbroadcastd	.LCPI16_13(%rip), %ymm7
	vpsubusb	%ymm7, %ymm1, %ymm1
	vpor	%ymm1, %ymm6, %ymm1
	vpsubusb	%ymm7, %ymm3, %ymm3
	vpor	%ymm3, %ymm5, %ymm3
	vpbroadcastd	.LCPI16_14(%rip), %ymm5
	vpand	%ymm5, %ymm1, %ymm1
	vpxor	%ymm1, %ymm2, %ymm1
	vpand	%ymm5, %ymm3, %ymm2
	vpxor	%ymm2, %ymm4, %ymm2
	vpcmpeqd	%ymm3, %ymm3, %ymm3
	vpsubusb	%ymm3, %ymm0, %ymm0
	vpsubusb	.LCPI16_7(%rip), %ymm12, %ymm4
	jmp	.LBB16_33
	.p2align	4
.LBB16_34:
	vmovdqa	%ymm4, 32(%rsp)
	vmovdqa	%ymm0, 64(%rsp)
	vmovdqa	%ymm12, (%rsp)
	vmovdqa	%ymm11, 96(%rsp)
	vmovdqa	%ymm10, 128(%rsp)
.LBB16_35:
	leaq	160(%rsp), %rdi
	vzeroupper
	callq	"simdutf8::last_block"
	vmovdqa	160(%rsp), %ymm1
	vmovdqa	192(%rsp), %ymm0
	vpor	%ymm1, %ymm0, %ymm2
	vpmovmskb	%ymm2, %eax
	testl	%eax, %eax
	vmovdqa	64(%rsp), %ymm3
	vmovdqa	32(%rsp), %ymm2
	je	.LBB16_37
	vperm2i128	$3, (%rsp), %ymm1, %ymm2
	vpalignr	$15, %ymm2, %ymm1, %ymm3
	vperm2i128	$33, %ymm0, %ymm1, %ymm4
	vpalignr	$15, %ymm4, %ymm0, %ymm5
	vpsrlw	$4, %ymm5, %ymm6
	vpbroadcastd	.LCPI16_8(%rip), %ymm7
	vpand	%ymm7, %ymm6, %ymm6
	vpsrlw	$4, %ymm3, %ymm8
	vpand	%ymm7, %ymm8, %ymm8
	vbroadcasti128	.LCPI16_9(%rip), %ymm9
	vpshufb	%ymm8, %ymm9, %ymm8
	vpshufb	%ymm6, %ymm9, %ymm6
	vpand	%ymm7, %ymm5, %ymm5
	vpand	%ymm7, %ymm3, %ymm3
	vbroadcasti128	.LCPI16_10(%rip), %ymm9
	vpshufb	%ymm3, %ymm9, %ymm3
	vpshufb	%ymm5, %ymm9, %ymm5
	vpsrlw	$4, %ymm0, %ymm9
	vpand	%ymm7, %ymm9, %ymm9
	vpsrlw	$4, %ymm1, %ymm10
	vpand	%ymm7, %ymm10, %ymm7
	vbroadcasti128	.LCPI16_11(%rip), %ymm10
	vpshufb	%ymm7, %ymm10, %ymm7
	vpand	%ymm7, %ymm3, %ymm3
	vpand	%ymm3, %ymm8, %ymm3
	vpshufb	%ymm9, %ymm10, %ymm7
	vpand	%ymm7, %ymm5, %ymm5
	vpand	%ymm6, %ymm5, %ymm5
	vpalignr	$14, %ymm2, %ymm1, %ymm6
	vpalignr	$14, %ymm4, %ymm0, %ymm7
	vpbroadcastd	.LCPI16_12(%rip), %ymm8
	vpsubusb	%ymm8, %ymm7, %ymm7
	vpsubusb	%ymm8, %ymm6, %ymm6
	vpalignr	$13, %ymm2, %ymm1, %ymm1
	vpalignr	$13, %ymm4, %ymm0, %ymm2
	vpbroadcastd	.LCPI16_13(%rip), %ymm4
	vpsubusb	%ymm4, %ymm2, %ymm2
	vpor	%ymm2, %ymm7, %ymm2
	vpsubusb	%ymm4, %ymm1, %ymm1
	vpor	%ymm1, %ymm6, %ymm1
	vpbroadcastd	.LCPI16_14(%rip), %ymm4
	vpand	%ymm4, %ymm2, %ymm2
	vpxor	%ymm2, %ymm5, %ymm2
	vpand	%ymm4, %ymm1, %ymm1
	vpxor	%ymm1, %ymm3, %ymm3
	vpsubusb	.LCPI16_7(%rip), %ymm0, %ymm0
	vpor	%ymm0, %ymm2, %ymm2
	jmp	.LBB16_37
.LBB16_26:
	movq	%rcx, %rdx
	jmp	.LBB16_27
.LBB16_38:
	vpxor	%xmm0, %xmm0, %xmm0
	vmovdqa	%xmm0, 160(%rsp)
	movq	$0, 176(%rsp)
	addq	%r12, %r14
	leaq	160(%rsp), %rdi
	movq	%r14, %rsi
	movq	%r15, %rdx
	vzeroupper
	callq	"core::str::utf8::from_utf8"
	cmpb	$0, 160(%rsp)
	je	.LBB16_40
	addq	168(%rsp), %r12
	movq	%r12, %rbx
.LBB16_40:
	movq	%rbx, %rax
	leaq	-40(%rbp), %rsp
	popq	%rbx
	popq	%r12
	popq	%r13
	popq	%r14
	popq	%r15
	popq	%rbp
	.cfi_def_cfa %rsp, 8
	vzeroupper
	retq
.LBB16_6:
	.cfi_def_cfa %rbp, 16
	addq	%r14, %rsi
	addq	$64, %rsi
	vpxor	%xmm0, %xmm0, %xmm0
	vmovdqa	%ymm0, 128(%rsp)
	xorl	%ecx, %ecx
	vmovdqa	%ymm0, 96(%rsp)
	vmovdqa	%ymm0, 64(%rsp)
	vmovdqa	%ymm0, 32(%rsp)
	vmovdqa	%ymm0, (%rsp)
	jmp	.LBB16_14
.Lfunc_end16:
	.size	"utf16_transcode::encode::valid_prefix", .Lfunc_end16-"utf16_transcode::encode::valid_prefix"
	.cfi_endproc

	.section	".text.simdutf8::last_block","ax",@progbits
	.p2align	4
	.type	"simdutf8::last_block",@function
"simdutf8::last_block":
	.cfi_startproc
	pushq	%rbp
	.cfi_def_cfa_offset 16
	.cfi_offset %rbp, -16
	movq	%rsp, %rbp
	.cfi_def_cfa_register %rbp
	pushq	%rbx
	andq	$-64, %rsp
	subq	$128, %rsp
	.cfi_offset %rbx, -24
	movq	%rdi, %rbx
	addq	%rcx, %rsi
	subq	%rcx, %rdx
	vxorps	%xmm0, %xmm0, %xmm0
	vmovaps	%ymm0, 32(%rsp)
	vmovaps	%ymm0, (%rsp)
	movq	%rsp, %rdi
	vzeroupper
	callq	memcpy@PLT
	vmovaps	(%rsp), %ymm0
	vmovaps	32(%rsp), %ymm1
	vmovups	%ymm1, 32(%rbx)
	vmovups	%ymm0, (%rbx)
	leaq	-8(%rbp), %rsp
	popq	%rbx
	popq	%rbp
	.cfi_def_cfa %rsp, 8
	vzeroupper
	retq
.Lfunc_end17:
	.size	"simdutf8::last_block", .Lfunc_end17-"simdutf8::last_block"
	.cfi_endproc

	.section	.rodata.cst32,"aM",@progbits,32
	.p2align	5, 0x0
.LCPI18_0:
	.byte	1
	.byte	0
	.byte	3
	.byte	2
	.byte	5
	.byte	4
	.byte	7
	.byte	6
	.byte	9
	.byte	8
	.byte	11
	.byte	10
	.byte	13
	.byte	12
	.byte	15
	.byte	14
	.byte	1
	.byte	0
	.byte	3
	.byte	2
	.byte	5
	.byte	4
	.byte	7
	.byte	6
	.byte	9
	.byte	8
	.byte	11
	.byte	10
	.byte	13
	.byte	12
	.byte	15
	.byte	14
.LCPI18_1:
	.short	65408
	.short	65408
	.short	65408
	.short	65408
	.short	65408
	.short	65408
	.short	65408
	.short	65408
	.short	65408
	.short	65408
	.short	65408
	.short	65408
	.short	65408
	.short	65408
	.short	65408
	.short	65408
.LCPI18_2:
	.zero	32,248
.LCPI18_3:
	.zero	32,216
.LCPI18_4:
	.short	127
	.short	127
	.short	127
	.short	127
	.short	127
	.short	127
	.short	127
	.short	127
	.short	127
	.short	127
	.short	127
	.short	127
	.short	127
	.short	127
	.short	127
	.short	127
	.section	.rodata.cst4,"aM",@progbits,4
	.p2align	2, 0x0
.LCPI18_5:
	.short	127
	.short	127
	.section	.rodata.cst16,"aM",@progbits,16
	.p2align	4, 0x0
.LCPI18_6:
	.byte	1
	.byte	0
	.byte	3
	.byte	2
	.byte	5
	.byte	4
	.byte	7
	.byte	6
	.byte	9
	.byte	8
	.byte	11
	.byte	10
	.byte	13
	.byte	12
	.byte	15
	.byte	14
	.section	".text.utf16_to_utf8::lens::utf8_len::<#8b18edd9dd9aa8df>","ax",@progbits
	.p2align	4
	.type	"utf16_to_utf8::lens::utf8_len::<#8b18edd9dd9aa8df>",@function
"utf16_to_utf8::lens::utf8_len::<#8b18edd9dd9aa8df>":
	.cfi_startproc
	pushq	%rbp
	.cfi_def_cfa_offset 16
	.cfi_offset %rbp, -16
	movq	%rsp, %rbp
	.cfi_def_cfa_register %rbp
	pushq	%r14
	pushq	%rbx
	andq	$-64, %rsp
	subq	$128, %rsp
	.cfi_offset %rbx, -32
	.cfi_offset %r14, -24
	movq	%rsi, %rbx
	movq	%rdi, %rsi
	cmpq	$64, %rbx
	jb	.LBB18_1
	xorl	%eax, %eax
	movq	%rbx, %rdx
	xorl	%r14d, %r14d
	jmp	.LBB18_3
	.p2align	4
.LBB18_5:
	vpsrlw	$8, %ymm1, %ymm2
	vpsrlw	$8, %ymm0, %ymm3
	vpackuswb	%ymm3, %ymm2, %ymm2
	vpermq	$216, %ymm2, %ymm2
	vpand	.LCPI18_2(%rip), %ymm2, %ymm2
	vpxor	%xmm3, %xmm3, %xmm3
	vpcmpeqb	%ymm3, %ymm2, %ymm3
	vpmovmskb	%ymm3, %ecx
	vpcmpeqb	.LCPI18_3(%rip), %ymm2, %ymm2
	popcntl	%ecx, %ecx
	vpmovmskb	%ymm2, %edi
	popcntl	%edi, %edi
	vpbroadcastd	.LCPI18_5(%rip), %ymm2
	vpminuw	%ymm2, %ymm1, %ymm3
	vpcmpeqw	%ymm3, %ymm1, %ymm1
	vpminuw	%ymm2, %ymm0, %ymm2
	vpcmpeqw	%ymm2, %ymm0, %ymm0
	vpacksswb	%ymm0, %ymm1, %ymm0
	vpermq	$216, %ymm0, %ymm0
	vpmovmskb	%ymm0, %r8d
	popcntl	%r8d, %r8d
	addl	%edi, %r8d
	addl	%ecx, %r8d
	movl	$96, %ecx
	subq	%r8, %rcx
.LBB18_6:
	addq	%rcx, %r14
	addq	$64, %rax
	addq	$-64, %rdx
	cmpq	$63, %rdx
	jbe	.LBB18_7
.LBB18_3:
	vmovdqu	(%rsi,%rax), %ymm1
	vmovdqu	32(%rsi,%rax), %ymm0
	vbroadcasti128	.LCPI18_6(%rip), %ymm2
	vpshufb	%ymm2, %ymm0, %ymm0
	vpshufb	%ymm2, %ymm1, %ymm1
	vpor	%ymm0, %ymm1, %ymm2
	vptest	.LCPI18_1(%rip), %ymm2
	jne	.LBB18_5
	movl	$32, %ecx
	jmp	.LBB18_6
.LBB18_1:
	xorl	%r14d, %r14d
	xorl	%eax, %eax
	movq	%rbx, %rdx
.LBB18_7:
	addq	%rax, %rsi
	vpxor	%xmm0, %xmm0, %xmm0
	vmovdqa	%ymm0, 32(%rsp)
	vmovdqa	%ymm0, (%rsp)
	movq	%rsp, %rdi
	vzeroupper
	callq	memcpy@PLT
	vbroadcasti128	.LCPI18_6(%rip), %ymm1
	vmovdqa	(%rsp), %ymm2
	vmovdqa	32(%rsp), %ymm0
	vpshufb	%ymm1, %ymm0, %ymm0
	vpshufb	%ymm1, %ymm2, %ymm1
	vpor	%ymm0, %ymm1, %ymm2
	vptest	.LCPI18_1(%rip), %ymm2
	je	.LBB18_8
	vpsrlw	$8, %ymm1, %ymm2
	vpsrlw	$8, %ymm0, %ymm3
	vpackuswb	%ymm3, %ymm2, %ymm2
	vpermq	$216, %ymm2, %ymm2
	vpand	.LCPI18_2(%rip), %ymm2, %ymm2
	vpxor	%xmm3, %xmm3, %xmm3
	vpcmpeqb	%ymm3, %ymm2, %ymm3
	vpmovmskb	%ymm3, %eax
	vpcmpeqb	.LCPI18_3(%rip), %ymm2, %ymm2
	popcntl	%eax, %eax
	vpmovmskb	%ymm2, %ecx
	popcntl	%ecx, %ecx
	vpbroadcastd	.LCPI18_5(%rip), %ymm2
	vpminuw	%ymm2, %ymm1, %ymm3
	vpcmpeqw	%ymm3, %ymm1, %ymm1
	vpminuw	%ymm2, %ymm0, %ymm2
	vpcmpeqw	%ymm2, %ymm0, %ymm0
	vpacksswb	%ymm0, %ymm1, %ymm0
	vpermq	$216, %ymm0, %ymm0
	vpmovmskb	%ymm0, %edx
	popcntl	%edx, %edx
	addl	%ecx, %edx
	addl	%eax, %edx
	movl	$96, %eax
	subq	%rdx, %rax
	jmp	.LBB18_10
.LBB18_8:
	movl	$32, %eax
.LBB18_10:
	addq	%rax, %r14
	shrl	%ebx
	orq	$-32, %rbx
	addq	%r14, %rbx
	movq	%rbx, %rax
	leaq	-16(%rbp), %rsp
	popq	%rbx
	popq	%r14
	popq	%rbp
	.cfi_def_cfa %rsp, 8
	vzeroupper
	retq
.Lfunc_end18:
	.size	"utf16_to_utf8::lens::utf8_len::<#8b18edd9dd9aa8df>", .Lfunc_end18-"utf16_to_utf8::lens::utf8_len::<#8b18edd9dd9aa8df>"
	.cfi_endproc

	.section	.rodata.cst16,"aM",@progbits,16
	.p2align	4, 0x0
.LCPI19_0:
	.zero	16,192
.LCPI19_1:
	.zero	16,191
.LCPI19_2:
	.zero	16,224
.LCPI19_3:
	.zero	16,15
.LCPI19_4:
	.zero	16,220
.LCPI19_5:
	.zero	16,252
.LCPI19_6:
	.zero	16,3
.LCPI19_7:
	.zero	16,63
.LCPI19_8:
	.zero	16,232
.LCPI19_9:
	.zero	16,239
.LCPI19_10:
	.zero	16,127
.LCPI19_11:
	.zero	16,223
	.section	.rodata.cst4,"aM",@progbits,4
	.p2align	2, 0x0
.LCPI19_12:
	.zero	4,192
.LCPI19_13:
	.zero	4,191
.LCPI19_14:
	.zero	4,15
	.section	".text.utf16_transcode::transcoding::write_buffered_text::<#824f73f0383279b7>","ax",@progbits
	.p2align	4
	.type	"utf16_transcode::transcoding::write_buffered_text::<#824f73f0383279b7>",@function
"utf16_transcode::transcoding::write_buffered_text::<#824f73f0383279b7>":
	.cfi_startproc
	pushq	%rbp
	.cfi_def_cfa_offset 16
	pushq	%r15
	.cfi_def_cfa_offset 24
	pushq	%r14
	.cfi_def_cfa_offset 32
	pushq	%r13
	.cfi_def_cfa_offset 40
	pushq	%r12
	.cfi_def_cfa_offset 48
	pushq	%rbx
	.cfi_def_cfa_offset 56
	pushq	%rax
	.cfi_def_cfa_offset 64
	.cfi_offset %rbx, -56
	.cfi_offset %r12, -48
	.cfi_offset %r13, -40
	.cfi_offset %r14, -32
	.cfi_offset %r15, -24
	.cfi_offset %rbp, -16
	movq	%r9, %rbx
	movq	%r8, %r13
	movq	%rcx, (%rsp)
	movq	%rdx, %r14
	movq	%rdi, %r12
	cmpq	$64, %rsi
	movl	$64, %ebp
	cmovbq	%rsi, %rbp
	jae	.LBB19_2
	movq	%r12, %rdi
	movq	%rbp, %rsi
	callq	"utf16_transcode::encode::valid_prefix"
	movq	%rax, %r15
	jmp	.LBB19_4
.LBB19_2:
	movl	$63, %esi
	movq	%r12, %rdi
	callq	"utf16_transcode::encode::valid_prefix"
	movq	%rax, %r15
	addq	$4, %rax
	cmpq	$64, %rax
	jb	.LBB19_4
	leaq	(%r12,%r15), %rdi
	subq	%r15, %rbp
	movq	%rbp, %rsi
	callq	"utf16_transcode::encode::valid_prefix"
	addq	%rax, %r15
.LBB19_4:
	cmpq	$7, %r15
	ja	.LBB19_16
	testq	%r15, %r15
	je	.LBB19_21
	xorl	%ebp, %ebp
	movq	%r15, %rax
	jmp	.LBB19_7
.LBB19_16:
	cmpq	$16, %r15
	ja	.LBB19_19
	vmovq	-8(%r12,%r15), %xmm0
	vmovq	(%r12), %xmm1
	vpunpcklqdq	%xmm0, %xmm1, %xmm0
	movq	%r15, %rax
	shlq	$4, %rax
	leaq	.Lstatic.11(%rip), %rcx
	vpshufb	-128(%rax,%rcx), %xmm0, %xmm0
	vpmovmskb	%xmm0, %eax
	testl	%eax, %eax
	je	.LBB19_24
	leaq	.Lstatic.12(%rip), %rax
	subq	%r15, %rax
	vpmaxub	16(%rax), %xmm0, %xmm1
	vpslldq	$1, %xmm1, %xmm0
	vpbroadcastd	.LCPI19_12(%rip), %xmm3
	vpblendvb	%xmm1, %xmm0, %xmm3, %xmm4
	vpslldq	$2, %xmm1, %xmm5
	vpbroadcastd	.LCPI19_13(%rip), %xmm2
	vpmaxub	.LCPI19_2(%rip), %xmm5, %xmm6
	vpsrlw	$2, %xmm4, %xmm7
	vpbroadcastd	.LCPI19_14(%rip), %xmm8
	vpand	%xmm7, %xmm8, %xmm7
	vpsllw	$4, %xmm6, %xmm6
	vpandn	%xmm6, %xmm8, %xmm6
	vpor	%xmm6, %xmm7, %xmm6
	vpmaxub	%xmm5, %xmm4, %xmm7
	vpminub	%xmm2, %xmm7, %xmm8
	vpcmpeqb	%xmm7, %xmm8, %xmm7
	vpand	.LCPI19_4(%rip), %xmm7, %xmm7
	vpor	%xmm7, %xmm6, %xmm6
	vpsllw	$2, %xmm0, %xmm7
	vpand	.LCPI19_5(%rip), %xmm7, %xmm7
	vpsrlw	$4, %xmm1, %xmm8
	vpand	.LCPI19_6(%rip), %xmm8, %xmm8
	vpminub	.LCPI19_7(%rip), %xmm7, %xmm9
	vpcmpeqb	%xmm7, %xmm9, %xmm9
	vpaddb	%xmm5, %xmm9, %xmm9
	vpaddb	.LCPI19_8(%rip), %xmm9, %xmm9
	vpor	%xmm7, %xmm8, %xmm7
	vpminub	.LCPI19_9(%rip), %xmm5, %xmm8
	vpcmpeqb	%xmm5, %xmm8, %xmm5
	vpblendvb	%xmm5, %xmm6, %xmm9, %xmm6
	vpand	.LCPI19_10(%rip), %xmm1, %xmm8
	vpaddb	%xmm3, %xmm7, %xmm7
	vpsllw	$6, %xmm4, %xmm4
	vpand	%xmm3, %xmm4, %xmm3
	vpaddb	%xmm3, %xmm8, %xmm3
	vpblendvb	%xmm5, %xmm3, %xmm7, %xmm3
	vpunpcklbw	%xmm3, %xmm6, %xmm4
	vpminub	%xmm2, %xmm1, %xmm2
	vpcmpeqb	%xmm2, %xmm1, %xmm1
	vpminub	.LCPI19_11(%rip), %xmm0, %xmm2
	vpcmpeqb	%xmm2, %xmm0, %xmm0
	vpand	%xmm0, %xmm1, %xmm0
	vpmovmskb	%xmm0, %eax
	movzbl	%al, %ecx
	popcntl	%ecx, %edx
	shll	$4, %ecx
	leaq	.Lstatic.13(%rip), %rsi
	vpshufb	(%rcx,%rsi), %xmm4, %xmm0
	vpunpckhbw	%xmm3, %xmm6, %xmm1
	vmovdqu	%xmm0, (%r14)
	shrl	$8, %eax
	popcntl	%eax, %ebp
	shll	$4, %eax
	vpshufb	(%rax,%rsi), %xmm1, %xmm0
	vmovdqu	%xmm0, (%r14,%rdx,2)
	addl	%edx, %ebp
	addl	%ebp, %ebp
	jmp	.LBB19_35
.LBB19_15:
	addl	$67043328, %ecx
	shrl	$10, %ecx
	addl	$-10240, %ecx
	movbew	%cx, (%rdi)
	orl	$56320, %esi
	movbew	%si, 2(%rdi)
	movl	$4, %ecx
	addq	%rcx, %rbp
	testq	%rax, %rax
	je	.LBB19_35
	.p2align	4
.LBB19_7:
	movzbl	(%r12), %ecx
	movl	$1, %esi
	testb	%cl, %cl
	jns	.LBB19_12
	movzbl	1(%r12), %edx
	andl	$63, %edx
	cmpb	$-33, %cl
	ja	.LBB19_10
	andl	$31, %ecx
	shll	$6, %ecx
	orl	%edx, %ecx
	movl	$2, %esi
	jmp	.LBB19_12
.LBB19_10:
	movzbl	2(%r12), %esi
	andl	$63, %esi
	cmpb	$-17, %cl
	ja	.LBB19_14
	shll	$12, %ecx
	movzwl	%cx, %ecx
	shll	$6, %edx
	orl	%ecx, %edx
	orl	%esi, %edx
	movl	$3, %esi
	movl	%edx, %ecx
	.p2align	4
.LBB19_12:
	addq	%rsi, %r12
	subq	%rsi, %rax
	leaq	(%r14,%rbp), %rdi
.LBB19_13:
	movbew	%cx, (%rdi)
	movl	$2, %ecx
	addq	%rcx, %rbp
	testq	%rax, %rax
	jne	.LBB19_7
	jmp	.LBB19_35
.LBB19_14:
	movzbl	3(%r12), %edi
	andl	$63, %edi
	andl	$7, %ecx
	shll	$18, %ecx
	shll	$12, %edx
	orl	%ecx, %edx
	shll	$6, %esi
	orl	%edi, %esi
	leal	(%rsi,%rdx), %ecx
	addq	$4, %r12
	addq	$-4, %rax
	leaq	(%r14,%rbp), %rdi
	cmpl	$65535, %edx
	jbe	.LBB19_13
	jmp	.LBB19_15
.LBB19_19:
	leaq	16(,%r15,2), %rcx
	movq	%rcx, %rsi
	shrq	%rsi
	cmpq	%r15, %rsi
	cmovaeq	%r15, %rsi
	cmpq	$32, %rcx
	jb	.LBB19_20
	vmovdqu	(%r12), %xmm0
	vpmovmskb	%xmm0, %eax
	testl	%eax, %eax
	je	.LBB19_25
.LBB19_20:
	xorl	%r8d, %r8d
.LBB19_29:
	leaq	(%r8,%r8), %rbp
	movq	%r15, %rax
	subq	%r8, %rax
	je	.LBB19_35
	cmpq	$191, %rax
	ja	.LBB19_32
	movq	%r12, %rdi
	movq	%r15, %rsi
	movq	%r14, %rdx
	jmp	.LBB19_34
.LBB19_21:
	movq	(%rsp), %rdi
	addq	%rbx, %rdi
	xorl	%ebp, %ebp
	xorl	%r15d, %r15d
	jmp	.LBB19_40
.LBB19_24:
	leaq	(%r15,%r15), %rbp
	vpmovzxbw	%xmm0, %ymm0
	vpsllw	$8, %ymm0, %ymm0
	vmovdqu	%ymm0, (%r14)
	jmp	.LBB19_35
.LBB19_32:
	movq	%r12, %rdi
	movq	%r15, %rsi
	movq	%r14, %rdx
	movq	%rbp, %r9
	vzeroupper
	callq	"utf16_from_utf8::blocks::write_mixed_blocks::<#8b18edd9dd9aa8df>"
	movq	%rdx, %rbp
	movq	%r15, %rcx
	subq	%rax, %rcx
	cmpq	$191, %rcx
	ja	.LBB19_35
	movq	%r12, %rdi
	movq	%r15, %rsi
	movq	%r14, %rdx
	leaq	16(,%r15,2), %rcx
	movq	%rax, %r8
.LBB19_34:
	movq	%rbp, %r9
	vzeroupper
	callq	"utf16_from_utf8::rest::write_rest::<#8b18edd9dd9aa8df>"
	movq	%rdx, %rbp
.LBB19_35:
	subq	%rbx, %r13
	cmpq	%r13, %rbp
	jbe	.LBB19_37
	andq	$-2, %r13
	movzbl	(%r14,%r13), %eax
	andb	$-4, %al
	leaq	-2(%r13), %rbp
	cmpb	$-36, %al
	cmovneq	%r13, %rbp
	movq	%r14, %rdi
	movq	%rbp, %rsi
	vzeroupper
	callq	"utf16_to_utf8::lens::utf8_len::<#8b18edd9dd9aa8df>"
	movq	%rax, %r15
.LBB19_37:
	movq	(%rsp), %r8
	leaq	(%r8,%rbx), %rdi
	movq	%rdi, %rax
	subq	%r14, %rax
	cmpq	%rbp, %rax
	jae	.LBB19_40
	cmpq	$8, %rbp
	jb	.LBB19_39
	leaq	(%r8,%rbx), %rax
	subq	%r14, %rax
	cmpq	$128, %rax
	jae	.LBB19_43
.LBB19_39:
	xorl	%eax, %eax
.LBB19_52:
	movq	%rbp, %rdx
	movq	%rax, %rcx
	andq	$7, %rdx
	je	.LBB19_55
	movq	%rax, %rcx
	.p2align	4
.LBB19_54:
	movzbl	(%r14,%rcx), %esi
	movb	%sil, (%rdi,%rcx)
	incq	%rcx
	decq	%rdx
	jne	.LBB19_54
.LBB19_55:
	subq	%rbp, %rax
	cmpq	$-8, %rax
	ja	.LBB19_58
	leaq	(%rbx,%r8), %rax
	addq	$7, %rax
	.p2align	4
.LBB19_57:
	movzbl	(%r14,%rcx), %edx
	movb	%dl, -7(%rax,%rcx)
	movzbl	1(%r14,%rcx), %edx
	movb	%dl, -6(%rax,%rcx)
	movzbl	2(%r14,%rcx), %edx
	movb	%dl, -5(%rax,%rcx)
	movzbl	3(%r14,%rcx), %edx
	movb	%dl, -4(%rax,%rcx)
	movzbl	4(%r14,%rcx), %edx
	movb	%dl, -3(%rax,%rcx)
	movzbl	5(%r14,%rcx), %edx
	movb	%dl, -2(%rax,%rcx)
	movzbl	6(%r14,%rcx), %edx
	movb	%dl, -1(%rax,%rcx)
	movzbl	7(%r14,%rcx), %edx
	movb	%dl, (%rax,%rcx)
	addq	$8, %rcx
	cmpq	%rcx, %rbp
	jne	.LBB19_57
	jmp	.LBB19_58
.LBB19_40:
	movq	%r14, %rsi
	movq	%rbp, %rdx
	vzeroupper
	callq	memmove@PLT
.LBB19_58:
	addq	%rbx, %rbp
	movq	%r15, %rax
	movq	%rbp, %rdx
	addq	$8, %rsp
	.cfi_def_cfa_offset 56
	popq	%rbx
	.cfi_def_cfa_offset 48
	popq	%r12
	.cfi_def_cfa_offset 40
	popq	%r13
	.cfi_def_cfa_offset 32
	popq	%r14
	.cfi_def_cfa_offset 24
	popq	%r15
	.cfi_def_cfa_offset 16
	popq	%rbp
	.cfi_def_cfa_offset 8
	vzeroupper
	retq
.LBB19_43:
	.cfi_def_cfa_offset 64
	cmpq	$128, %rbp
	jae	.LBB19_45
	xorl	%eax, %eax
	jmp	.LBB19_49
.LBB19_45:
	movq	%rbp, %rax
	andq	$-128, %rax
	leaq	(%rbx,%r8), %rcx
	addq	$96, %rcx
	xorl	%edx, %edx
	.p2align	4
.LBB19_46:
	vmovdqu	(%r14,%rdx), %ymm0
	vmovdqu	32(%r14,%rdx), %ymm1
	vmovdqu	64(%r14,%rdx), %ymm2
	vmovdqu	96(%r14,%rdx), %ymm3
	vmovdqu	%ymm0, -96(%rcx,%rdx)
	vmovdqu	%ymm1, -64(%rcx,%rdx)
	vmovdqu	%ymm2, -32(%rcx,%rdx)
	vmovdqu	%ymm3, (%rcx,%rdx)
	subq	$-128, %rdx
	cmpq	%rdx, %rax
	jne	.LBB19_46
	cmpq	%rax, %rbp
	je	.LBB19_58
	testb	$120, %bpl
	je	.LBB19_52
.LBB19_49:
	movq	%rax, %rcx
	movq	%rbp, %rax
	andq	$-8, %rax
	.p2align	4
.LBB19_50:
	movq	(%r14,%rcx), %rdx
	movq	%rdx, (%rdi,%rcx)
	addq	$8, %rcx
	cmpq	%rcx, %rax
	jne	.LBB19_50
	cmpq	%rax, %rbp
	je	.LBB19_58
	jmp	.LBB19_52
.LBB19_25:
	cmpq	$31, %rsi
	ja	.LBB19_28
	vpmovzxbw	%xmm0, %ymm0
	vpsllw	$8, %ymm0, %ymm0
	vmovdqu	%ymm0, (%r14)
	vmovdqu	-16(%rsi,%r12), %xmm0
	vpmovmskb	%xmm0, %eax
	movl	$16, %r8d
	testl	%eax, %eax
	jne	.LBB19_29
	vpmovzxbw	%xmm0, %ymm0
	vpsllw	$8, %ymm0, %ymm0
	vmovdqu	%ymm0, -32(%r14,%rsi,2)
	movq	%rsi, %r8
	jmp	.LBB19_29
.LBB19_28:
	movq	%r12, %rdi
	movq	%r14, %rdx
	movq	%rcx, %rbp
	callq	"utf16_from_utf8::ascii::write_front::<#8b18edd9dd9aa8df>"
	movq	%rbp, %rcx
	movq	%rax, %r8
	jmp	.LBB19_29
.Lfunc_end19:
	.size	"utf16_transcode::transcoding::write_buffered_text::<#824f73f0383279b7>", .Lfunc_end19-"utf16_transcode::transcoding::write_buffered_text::<#824f73f0383279b7>"
	.cfi_endproc

	.section	.rodata.cst16,"aM",@progbits,16
	.p2align	4, 0x0
.LCPI20_0:
	.zero	16,127
	.section	".text.utf16_transcode::items::write_items::<#8b18edd9dd9aa8df>","ax",@progbits
	.p2align	4
	.type	"utf16_transcode::items::write_items::<#8b18edd9dd9aa8df>",@function
"utf16_transcode::items::write_items::<#8b18edd9dd9aa8df>":
	.cfi_startproc
	pushq	%rbp
	.cfi_def_cfa_offset 16
	pushq	%r15
	.cfi_def_cfa_offset 24
	pushq	%r14
	.cfi_def_cfa_offset 32
	pushq	%r12
	.cfi_def_cfa_offset 40
	pushq	%rbx
	.cfi_def_cfa_offset 48
	.cfi_offset %rbx, -48
	.cfi_offset %r12, -40
	.cfi_offset %r14, -32
	.cfi_offset %r15, -24
	.cfi_offset %rbp, -16
	movq	%rdx, %r8
	xorl	%eax, %eax
	xorl	%edx, %edx
	xorl	%r9d, %r9d
	.p2align	4
.LBB20_4:
	movq	%rsi, %r10
	subq	%rax, %r10
	cmpq	$4, %r10
	jb	.LBB20_41
	movq	%rcx, %r11
	subq	%rdx, %r11
	cmpq	$4, %r11
	jb	.LBB20_41
	cmpq	$32, %r11
	jb	.LBB20_10
	cmpq	$15, %r10
	jbe	.LBB20_10
	vmovdqu	(%rdi,%rax), %xmm0
	vpmovmskb	%xmm0, %r10d
	orl	$65536, %r10d
	tzcntl	%r10d, %r10d
	cmpw	$4, %r10w
	jae	.LBB20_15
	vmovd	%xmm0, %r10d
	testb	%r10b, %r10b
	jns	.LBB20_1
.LBB20_11:
	cmpb	$-31, %r10b
	jae	.LBB20_17
	movzbl	1(%rdi,%rax), %r11d
	movl	%r10d, %ebx
	shrb	$4, %bl
	andb	$12, %bl
	movl	%r11d, %ebp
	shrb	$6, %bpl
	orb	%bl, %bpl
	cmpb	$14, %bpl
	jne	.LBB20_26
	leal	62(%r10), %ebp
	cmpb	$30, %bpl
	jae	.LBB20_23
.LBB20_14:
	movzbl	%r10b, %r10d
	shll	$6, %r10d
	movzbl	%r11b, %r11d
	leal	(%r10,%r11), %r14d
	addl	$-12416, %r14d
	movl	$2, %ebx
	jmp	.LBB20_3
	.p2align	4
.LBB20_10:
	movzbl	(%rdi,%rax), %r10d
	testb	%r10b, %r10b
	js	.LBB20_11
.LBB20_1:
	movzbl	%r10b, %r14d
	jmp	.LBB20_2
	.p2align	4
.LBB20_15:
	movzwl	%r10w, %ebx
	vpand	.LCPI20_0(%rip), %xmm0, %xmm0
	vpmovzxbw	%xmm0, %ymm0
	vpsllw	$8, %ymm0, %ymm0
	vmovdqu	%ymm0, (%r8,%rdx)
	movl	%ebx, %r11d
	addl	%r11d, %r11d
	movl	$2, %r10d
.LBB20_16:
	addq	%r11, %rdx
	addq	%r9, %r10
	addq	%rbx, %rax
	movq	%r10, %r9
	cmpq	$16, %r10
	jb	.LBB20_4
	jmp	.LBB20_41
.LBB20_17:
	movzbl	1(%rdi,%rax), %r11d
	cmpb	$-20, %r10b
	ja	.LBB20_21
	cmpb	$-65, %r11b
	jg	.LBB20_26
	movzbl	2(%rdi,%rax), %ebx
	cmpb	$-65, %bl
	jg	.LBB20_34
	movzbl	%r11b, %r11d
	movzbl	%r10b, %r10d
	shll	$12, %r10d
	shll	$6, %r11d
	addl	%r10d, %r11d
	leal	(%rbx,%r11), %r14d
	addl	$-925824, %r14d
	jmp	.LBB20_37
.LBB20_21:
	cmpb	$-65, %r11b
	jg	.LBB20_26
	leal	62(%r10), %ebp
.LBB20_23:
	movzbl	%r10b, %ebx
	movb	$-65, %r15b
	addl	$-224, %ebx
	cmpl	$20, %ebx
	ja	.LBB20_30
	leaq	.LJTI20_0(%rip), %r14
	movslq	(%r14,%rbx,4), %rbx
	addq	%r14, %rbx
	notrack jmpq	*%rbx
.LBB20_25:
	movb	$-96, %r12b
	jmp	.LBB20_31
.LBB20_26:
	movl	$65533, %r14d
.LBB20_2:
	movl	$1, %ebx
.LBB20_3:
	movbew	%r14w, (%r8,%rdx)
	addq	$2, %rdx
	incq	%r9
	xorl	%r10d, %r10d
	cmpl	$65533, %r14d
	cmovneq	%r9, %r10
	addq	%rbx, %rax
	movq	%r10, %r9
	cmpq	$16, %r10
	jb	.LBB20_4
	jmp	.LBB20_41
.LBB20_27:
	movb	$-112, %r12b
	jmp	.LBB20_31
.LBB20_28:
	movb	$-97, %r15b
	jmp	.LBB20_30
.LBB20_29:
	movb	$-113, %r15b
.LBB20_30:
	movb	$-128, %r12b
.LBB20_31:
	movl	$65533, %r14d
	movl	$1, %ebx
	cmpb	$50, %bpl
	ja	.LBB20_3
	cmpb	%r11b, %r12b
	setbe	%bpl
	cmpb	%r15b, %r11b
	setbe	%r15b
	andb	%bpl, %r15b
	cmpb	$1, %r15b
	jne	.LBB20_3
	cmpb	$-33, %r10b
	jbe	.LBB20_14
.LBB20_34:
	movzbl	2(%rdi,%rax), %r15d
	movl	$65533, %r14d
	movl	$2, %ebx
	cmpb	$-65, %r15b
	jg	.LBB20_3
	cmpb	$-17, %r10b
	ja	.LBB20_38
	movzbl	%r10b, %r10d
	shll	$12, %r10d
	movzbl	%r11b, %r11d
	shll	$6, %r11d
	addl	%r10d, %r11d
	leal	(%r15,%r11), %r14d
	addl	$-925824, %r14d
.LBB20_37:
	movl	$3, %ebx
	jmp	.LBB20_3
.LBB20_38:
	movzbl	3(%rdi,%rax), %r12d
	movl	$3, %ebx
	cmpb	$-65, %r12b
	jg	.LBB20_3
	movzbl	%r10b, %r10d
	shll	$18, %r10d
	movzbl	%r11b, %r11d
	shll	$12, %r11d
	addl	%r10d, %r11d
	shll	$6, %r15d
	addl	%r11d, %r15d
	leal	(%r12,%r15), %r14d
	addl	$-63447168, %r14d
	movl	$4, %ebx
	cmpl	$65536, %r14d
	jb	.LBB20_3
	leal	67043328(%r14), %r10d
	shrl	$10, %r10d
	addl	$-10240, %r10d
	movbew	%r10w, (%r8,%rdx)
	andl	$1023, %r14d
	orl	$56320, %r14d
	movbew	%r14w, 2(%r8,%rdx)
	movl	$1, %r10d
	movl	$4, %r11d
	jmp	.LBB20_16
.LBB20_41:
	popq	%rbx
	.cfi_def_cfa_offset 40
	popq	%r12
	.cfi_def_cfa_offset 32
	popq	%r14
	.cfi_def_cfa_offset 24
	popq	%r15
	.cfi_def_cfa_offset 16
	popq	%rbp
	.cfi_def_cfa_offset 8
	vzeroupper
	retq
.Lfunc_end20:
	.size	"utf16_transcode::items::write_items::<#8b18edd9dd9aa8df>", .Lfunc_end20-"utf16_transcode::items::write_items::<#8b18edd9dd9aa8df>"
	.cfi_endproc
	.section	".rodata.utf16_transcode::items::write_items::<#8b18edd9dd9aa8df>","a",@progbits
	.p2align	2, 0x0
.LJTI20_0:
	.long	.LBB20_25-.LJTI20_0
	.long	.LBB20_30-.LJTI20_0
	.long	.LBB20_30-.LJTI20_0
	.long	.LBB20_30-.LJTI20_0
	.long	.LBB20_30-.LJTI20_0
	.long	.LBB20_30-.LJTI20_0
	.long	.LBB20_30-.LJTI20_0
	.long	.LBB20_30-.LJTI20_0
	.long	.LBB20_30-.LJTI20_0
	.long	.LBB20_30-.LJTI20_0
	.long	.LBB20_30-.LJTI20_0
	.long	.LBB20_30-.LJTI20_0
	.long	.LBB20_30-.LJTI20_0
	.long	.LBB20_28-.LJTI20_0
	.long	.LBB20_30-.LJTI20_0
	.long	.LBB20_30-.LJTI20_0
	.long	.LBB20_27-.LJTI20_0
	.long	.LBB20_30-.LJTI20_0
	.long	.LBB20_30-.LJTI20_0
	.long	.LBB20_30-.LJTI20_0
	.long	.LBB20_29-.LJTI20_0

	.section	".text.utf16_streams::filters::filter_by::<#27bba4883ebf77b8>","ax",@progbits
	.p2align	4
	.type	"utf16_streams::filters::filter_by::<#27bba4883ebf77b8>",@function
"utf16_streams::filters::filter_by::<#27bba4883ebf77b8>":
	.cfi_startproc
	pushq	%rbp
	.cfi_def_cfa_offset 16
	pushq	%r15
	.cfi_def_cfa_offset 24
	pushq	%r14
	.cfi_def_cfa_offset 32
	pushq	%r13
	.cfi_def_cfa_offset 40
	pushq	%r12
	.cfi_def_cfa_offset 48
	pushq	%rbx
	.cfi_def_cfa_offset 56
	subq	$3072, %rsp
	.cfi_adjust_cfa_offset 3072
	movq	$0, (%rsp)
	subq	$1368, %rsp
	.cfi_def_cfa_offset 4496
	.cfi_offset %rbx, -56
	.cfi_offset %r12, -48
	.cfi_offset %r13, -40
	.cfi_offset %r14, -32
	.cfi_offset %r15, -24
	.cfi_offset %rbp, -16
	movq	%rdx, 120(%rsp)
	movq	%rsi, 312(%rsp)
	movl	(%rdi), %ebp
	movzbl	4(%rdi), %eax
	movl	%eax, 12(%rsp)
	leaq	344(%rsp), %rdi
	xorl	%ebx, %ebx
	movl	$4096, %edx
	xorl	%esi, %esi
	callq	memset@PLT
	vpxor	%xmm0, %xmm0, %xmm0
	vmovdqa	%xmm0, 320(%rsp)
	movq	$0, 336(%rsp)
	leaq	47(%rsp), %rax
	movq	%rax, 16(%rsp)
	vmovdqu	%xmm0, 24(%rsp)
.LBB21_1:
	movq	%rbx, 136(%rsp)
	leaq	344(%rsp), %rsi
	movl	$4096, %r12d
	movl	$4096, %edx
	xorl	%edi, %edi
	callq	read@PLT
	testq	%rax, %rax
	js	.LBB21_7
	cmpq	$4096, %rax
	cmovbq	%rax, %r12
	testq	%rax, %rax
	je	.LBB21_3
	cmpq	$8, %rax
	movq	%r12, 152(%rsp)
	jae	.LBB21_22
	movl	$24, %r14d
	leaq	320(%rsp), %r12
	jmp	.LBB21_36
	.p2align	4
.LBB21_22:
	movq	24(%rsp), %r14
	movq	32(%rsp), %r15
	testq	%r15, %r15
	jne	.LBB21_28
	leaq	-1(%r14), %rax
	cmpq	$-8704, %rax
	jae	.LBB21_25
	xorl	%r15d, %r15d
	.p2align	4
.LBB21_28:
	leaq	512(,%r12,2), %rdx
	subq	%r14, %rdx
	jbe	.LBB21_29
.LBB21_30:
	movq	%r15, %rax
	subq	%r14, %rax
	cmpq	%rax, %rdx
	ja	.LBB21_31
.LBB21_33:
	leaq	(%r14,%rdx), %rax
	movq	16(%rsp), %r12
	movq	%rax, %rbx
	cmpq	%rax, %r14
	jae	.LBB21_35
	addq	%r12, %r14
	movq	%r14, %rdi
	xorl	%esi, %esi
	callq	memset@PLT
.LBB21_35:
	movq	%rbx, %r14
	movq	%rbx, 24(%rsp)
	movq	%r15, 32(%rsp)
	jmp	.LBB21_36
.LBB21_25:
	movb	$1, %al
	movb	$2, %bl
	cmpq	$-8705, %r14
	ja	.LBB21_106
	leaq	8704(%r14), %r15
	movl	$1, %esi
	movq	%r15, %rdi
	callq	rattle_alloc@PLT
	movq	%rax, %rcx
	movb	$1, %al
	testb	$1, %cl
	je	.LBB21_106
	movq	%rdx, 16(%rsp)
	movq	%r15, 32(%rsp)
	movl	$8704, %r15d
	leaq	512(,%r12,2), %rdx
	subq	%r14, %rdx
	ja	.LBB21_30
	.p2align	4
.LBB21_29:
	movq	16(%rsp), %r12
.LBB21_36:
	movl	%ebp, 40(%rsp)
	shrl	$24, %ebp
	cmpb	$3, %bpl
	movl	$3, %ebx
	cmovbl	%ebp, %ebx
	movl	$0, 116(%rsp)
	movl	$0, 192(%rsp)
	xorl	%r15d, %r15d
	xorl	%edx, %edx
	movq	%r12, 128(%rsp)
	movq	%rbx, 144(%rsp)
	movq	%r14, 48(%rsp)
.LBB21_37:
	movq	%rdx, %rax
	subq	%rbx, %rax
	movq	%r15, 56(%rsp)
	movq	%rdx, 160(%rsp)
	jae	.LBB21_62
	leaq	(%rsp,%rdx), %rsi
	addq	$40, %rsi
	subq	%rdx, %rbx
	movl	$4, %ebp
	subq	%rbx, %rbp
	movq	152(%rsp), %rax
	cmpq	%rax, %rbp
	cmovaeq	%rax, %rbp
	movl	$0, 224(%rsp)
	leaq	224(%rsp), %rdi
	movq	%rbx, %rdx
	callq	memcpy@PLT
	leaq	(%rsp,%rbx), %rdi
	addq	$224, %rdi
	leaq	344(%rsp), %rsi
	movq	%rbp, %rdx
	callq	memcpy@PLT
	addq	%rbx, %rbp
	movl	224(%rsp), %eax
	movl	%eax, 192(%rsp)
	leaq	(%r12,%r15), %r13
	movq	%r14, %r12
	subq	%r15, %r12
	vpxor	%xmm0, %xmm0, %xmm0
	vmovdqa	%xmm0, 224(%rsp)
	movq	$0, 240(%rsp)
	leaq	192(%rsp), %r14
	movq	%r14, %rdi
	movq	%rbp, %rsi
	movq	%r13, %rdx
	movq	%r12, %rcx
	callq	"utf16_transcode::encode::FromUtf8Direction::begin::<#418c2b53cf60437c>"
	movq	%rbp, %rcx
	cmpq	%rbp, %rax
	jne	.LBB21_41
	xorl	%ebp, %ebp
	xorl	%r15d, %r15d
	movq	%rcx, %rbx
.LBB21_40:
	addq	%rdx, %rbp
	addq	%rbx, %r15
	xorl	%eax, %eax
.LBB21_43:
	movq	128(%rsp), %r12
	movq	48(%rsp), %r14
	movq	160(%rsp), %rdx
	addq	%r15, %rdx
	movq	%r15, %rcx
	movq	56(%rsp), %r15
	addq	%rbp, %r15
	testq	%rcx, %rcx
	movq	144(%rsp), %rbx
	je	.LBB21_67
	cmpb	$3, %al
	jne	.LBB21_37
	jmp	.LBB21_67
	.p2align	4
.LBB21_41:
	movq	%r14, %rsi
	xorl	%r14d, %r14d
	movq	%r12, 80(%rsp)
	movq	%r13, 64(%rsp)
	movq	%rcx, 72(%rsp)
	movq	%rcx, %rbx
	xorl	%ebp, %ebp
	jmp	.LBB21_42
	.p2align	4
.LBB21_58:
	movq	%r14, %r12
	movq	%rbx, %r15
.LBB21_61:
	addq	168(%rsp), %r15
	movq	176(%rsp), %rbp
	leaq	(%r12,%rbp), %rax
	addq	%r12, %rbp
	addq	$2, %rbp
	leaq	(%rsp,%r15), %r14
	addq	$192, %r14
	movq	72(%rsp), %rbx
	subq	%r15, %rbx
	movq	64(%rsp), %rcx
	leaq	(%rcx,%rax), %r13
	addq	$2, %r13
	movq	80(%rsp), %r12
	subq	%rbp, %r12
	vpxor	%xmm0, %xmm0, %xmm0
	vmovdqa	%xmm0, 224(%rsp)
	movq	$0, 240(%rsp)
	movq	%r14, %rdi
	movq	%rbx, %rsi
	movq	%r13, %rdx
	movq	%r12, %rcx
	callq	"utf16_transcode::encode::FromUtf8Direction::begin::<#418c2b53cf60437c>"
	movq	%r14, %rsi
	movq	%r15, %r14
	cmpq	%rbx, %rax
	je	.LBB21_40
.LBB21_42:
	movq	%rdx, (%rsp)
	leaq	224(%rsp), %rdi
	movq	%rbx, %rdx
	movq	%r13, %rcx
	movq	%r12, %r8
	movq	%rax, %r9
	callq	"utf16_transcode::transcoding::transcode_many::<#58ba01604e1c9b81>"
	addq	224(%rsp), %r14
	movzbl	240(%rsp), %eax
	addq	232(%rsp), %rbp
	cmpb	$1, %al
	movq	%r14, %r15
	jne	.LBB21_43
	movq	80(%rsp), %r13
	subq	%rbp, %r13
	cmpq	$1, %r13
	jbe	.LBB21_46
	movzbl	241(%rsp), %eax
	movq	64(%rsp), %rcx
	movw	$-3, (%rcx,%rbp)
	addq	%rax, %r15
	leaq	(%rsp,%r15), %rdi
	addq	$192, %rdi
	movq	72(%rsp), %rbx
	movq	%r15, 168(%rsp)
	subq	%r15, %rbx
	movq	%rbp, 176(%rsp)
	leaq	(%rcx,%rbp), %rdx
	addq	$2, %rdx
	addq	$-2, %r13
	movq	%rdi, 104(%rsp)
	movq	%rbx, %rsi
	movq	%rdx, 88(%rsp)
	movq	%r13, %rcx
	callq	"utf16_transcode::items::write_items::<#418c2b53cf60437c>"
	movq	%rax, %r15
	movq	%rdx, %r12
	movq	%rbx, 96(%rsp)
	movq	%rbx, %rbp
	subq	%rax, %rbp
	cmpq	$64, %rbp
	jb	.LBB21_61
	movq	%r13, 184(%rsp)
	.p2align	4
.LBB21_50:
	subq	%r12, %r13
	cmpq	$128, %r13
	jb	.LBB21_61
	movq	104(%rsp), %rax
	leaq	(%rax,%r15), %rdi
	movq	88(%rsp), %rcx
	leaq	(%rcx,%r12), %rdx
	vmovdqu	(%rax,%r15), %xmm0
	vpmovmskb	%xmm0, %eax
	testl	%eax, %eax
	je	.LBB21_53
	xorl	%ebx, %ebx
	jmp	.LBB21_54
	.p2align	4
.LBB21_53:
	movq	%r13, %rsi
	shrq	%rsi
	cmpq	%rbp, %rsi
	cmovaeq	%rbp, %rsi
	movq	%rdi, %r14
	movq	%rdx, %rbx
	callq	"utf16_from_utf8::ascii::write_front::<#418c2b53cf60437c>"
	movq	%r14, %rdi
	movq	%rbx, %rdx
	movq	%rax, %rbx
.LBB21_54:
	leaq	(%rbx,%rbx), %r14
	movq	%rbp, %rax
	subq	%rbx, %rax
	cmpq	$64, %rax
	jb	.LBB21_57
	movq	%r13, %rax
	subq	%r14, %rax
	cmpq	$128, %rax
	jb	.LBB21_57
	movq	%rbp, %rsi
	movq	%r13, %rcx
	movq	%rbx, %r8
	movq	%r14, %r9
	callq	"utf16_from_utf8::blocks::write_mixed_blocks::<#418c2b53cf60437c>"
	movq	%rax, %rbx
	movq	%rdx, %r14
.LBB21_57:
	addq	%r15, %rbx
	addq	%r12, %r14
	movq	96(%rsp), %rsi
	subq	%rbx, %rsi
	cmpq	$4, %rsi
	movq	184(%rsp), %r13
	jb	.LBB21_58
	movq	%r13, %rcx
	subq	%r14, %rcx
	cmpq	$4, %rcx
	jb	.LBB21_58
	movq	104(%rsp), %rax
	leaq	(%rax,%rbx), %rdi
	movq	88(%rsp), %rax
	leaq	(%rax,%r14), %rdx
	callq	"utf16_transcode::items::write_items::<#418c2b53cf60437c>"
	movq	%rax, %r15
	movq	%rdx, %r12
	addq	%rbx, %r15
	addq	%r14, %r12
	movq	96(%rsp), %rbp
	subq	%r15, %rbp
	cmpq	$63, %rbp
	ja	.LBB21_50
	jmp	.LBB21_61
	.p2align	4
.LBB21_46:
	addq	160(%rsp), %r15
	movq	%r15, %rax
	movq	56(%rsp), %r15
	addq	%rbp, %r15
	movq	144(%rsp), %rbp
	cmpq	%rax, %rbp
	cmovbq	%rbp, %rax
	leaq	(%rsp,%rax), %rsi
	addq	$40, %rsi
	subq	%rax, %rbp
	movq	128(%rsp), %r12
.LBB21_47:
	movb	$0, 226(%rsp)
	movw	$0, 224(%rsp)
	leaq	224(%rsp), %rdi
	movq	%rbp, %rdx
	callq	memcpy@PLT
	movzbl	226(%rsp), %eax
	shll	$16, %eax
	movzwl	224(%rsp), %ecx
	orl	%eax, %ecx
	shll	$24, %ebp
	orl	%ecx, %ebp
	cmpb	$1, 12(%rsp)
	movq	136(%rsp), %rax
	jne	.LBB21_96
.LBB21_70:
	testq	%r15, %r15
	je	.LBB21_71
	cmpq	$1, %r15
	jne	.LBB21_93
.LBB21_95:
	leaq	2(%r12), %rdi
	movq	%r12, %rsi
	movq	%r15, %rdx
	callq	memmove@PLT
	movq	136(%rsp), %rax
	movw	$-257, (%r12)
	addq	$2, %r15
	jmp	.LBB21_96
.LBB21_71:
	movb	$1, %cl
	movl	%ecx, 12(%rsp)
	incq	%rax
	cmpq	$-1, %rax
	movq	%rax, %rbx
	jne	.LBB21_1
	jmp	.LBB21_73
.LBB21_93:
	cmpb	$-1, (%r12)
	jne	.LBB21_95
	cmpb	$-2, 1(%r12)
	je	.LBB21_100
	jmp	.LBB21_95
.LBB21_62:
	leaq	(%rsp,%rax), %rbp
	addq	$344, %rbp
	movq	152(%rsp), %rbx
	subq	%rax, %rbx
	addq	%r15, %r12
	subq	%r15, %r14
	vpxor	%xmm0, %xmm0, %xmm0
	vmovdqa	%xmm0, 224(%rsp)
	movq	$0, 240(%rsp)
	movq	%rbp, %rdi
	movq	%rbx, %rsi
	movq	%r12, %rdx
	movq	%r14, %rcx
	callq	"utf16_transcode::encode::FromUtf8Direction::begin::<#418c2b53cf60437c>"
	cmpq	%rbx, %rax
	jne	.LBB21_74
	xorl	%ebp, %ebp
	xorl	%r14d, %r14d
.LBB21_64:
	addq	%rdx, %rbp
	addq	%rbx, %r14
	xorl	%eax, %eax
	movq	%r14, %r13
.LBB21_65:
	movq	56(%rsp), %r15
.LBB21_66:
	movq	160(%rsp), %rdx
	addq	%r13, %rdx
	addq	%rbp, %r15
	movq	128(%rsp), %r12
	movq	144(%rsp), %rbx
.LBB21_67:
	cmpq	%rdx, %rbx
	movq	%rdx, %rcx
	cmovbq	%rbx, %rcx
	leaq	(%rsp,%rcx), %rsi
	addq	$40, %rsi
	movq	%rbx, %rbp
	subq	%rcx, %rbp
	cmpb	$3, %al
	je	.LBB21_47
	xorl	%eax, %eax
	subq	%rbx, %rdx
	cmovaeq	%rdx, %rax
	movq	152(%rsp), %rcx
	subq	%rax, %rcx
	leaq	(%rsp,%rax), %r14
	addq	$344, %r14
	movl	$4, %ebx
	subq	%rbp, %rbx
	cmpq	%rcx, %rbx
	cmovaeq	%rcx, %rbx
	movl	$0, 224(%rsp)
	leaq	224(%rsp), %rdi
	movq	%rbp, %rdx
	callq	memcpy@PLT
	leaq	(%rsp,%rbp), %rdi
	addq	$224, %rdi
	movq	%r14, %rsi
	movq	%rbx, %rdx
	callq	memcpy@PLT
	addq	%rbp, %rbx
	movl	224(%rsp), %eax
	movl	%eax, 116(%rsp)
	movb	$0, 226(%rsp)
	movw	$0, 224(%rsp)
	leaq	224(%rsp), %rdi
	leaq	116(%rsp), %rsi
	movq	%rbx, %rdx
	callq	memcpy@PLT
	movzbl	226(%rsp), %eax
	shll	$16, %eax
	movzwl	224(%rsp), %ecx
	orl	%eax, %ecx
	shll	$24, %ebx
	orl	%ecx, %ebx
	movl	%ebx, %ebp
	cmpb	$1, 12(%rsp)
	movq	136(%rsp), %rax
	je	.LBB21_70
	.p2align	4
.LBB21_96:
	testq	%r15, %r15
	je	.LBB21_97
.LBB21_100:
	xorl	%r14d, %r14d
	.p2align	4
.LBB21_101:
	leaq	(%r12,%r14), %rsi
	movq	%r15, %rbx
	subq	%r14, %rbx
	movl	$1, %edi
	movq	%rbx, %rdx
	callq	write@PLT
	testq	%rax, %rax
	js	.LBB21_17
	cmpq	%rbx, %rax
	cmovbq	%rax, %rbx
	testq	%rbx, %rbx
	je	.LBB21_18
	addq	%rbx, %r14
	cmpq	%r15, %r14
	jb	.LBB21_101
	movl	$0, 12(%rsp)
	movq	136(%rsp), %rax
	incq	%rax
	cmpq	$-1, %rax
	movq	%rax, %rbx
	jne	.LBB21_1
	jmp	.LBB21_73
	.p2align	4
.LBB21_97:
	movl	$0, 12(%rsp)
	incq	%rax
	cmpq	$-1, %rax
	movq	%rax, %rbx
	jne	.LBB21_1
	jmp	.LBB21_73
.LBB21_74:
	xorl	%r13d, %r13d
	movq	%r14, 48(%rsp)
	movq	%r14, %r15
	movq	%r12, 64(%rsp)
	movq	%r12, %r8
	movq	%rbx, 80(%rsp)
	movq	%rbp, 72(%rsp)
	movq	%rbp, %r12
	xorl	%ebp, %ebp
	jmp	.LBB21_75
	.p2align	4
.LBB21_88:
	movq	%r13, %r12
	movq	%rbx, %r14
.LBB21_91:
	addq	168(%rsp), %r14
	movq	176(%rsp), %rbp
	leaq	(%r12,%rbp), %rax
	addq	%r12, %rbp
	addq	$2, %rbp
	movq	72(%rsp), %rcx
	leaq	(%rcx,%r14), %r12
	movq	80(%rsp), %rbx
	subq	%r14, %rbx
	movq	64(%rsp), %rcx
	leaq	(%rcx,%rax), %r13
	addq	$2, %r13
	movq	48(%rsp), %r15
	subq	%rbp, %r15
	vpxor	%xmm0, %xmm0, %xmm0
	vmovdqa	%xmm0, 224(%rsp)
	movq	$0, 240(%rsp)
	movq	%r12, %rdi
	movq	%rbx, %rsi
	movq	%r13, %rdx
	movq	%r15, %rcx
	callq	"utf16_transcode::encode::FromUtf8Direction::begin::<#418c2b53cf60437c>"
	movq	%r13, %r8
	movq	%r14, %r13
	cmpq	%rbx, %rax
	je	.LBB21_64
.LBB21_75:
	movq	%rdx, (%rsp)
	leaq	224(%rsp), %rdi
	movq	%r12, %rsi
	movq	%rbx, %rdx
	movq	%r8, %rcx
	movq	%r15, %r8
	movq	%rax, %r9
	callq	"utf16_transcode::transcoding::transcode_many::<#58ba01604e1c9b81>"
	addq	224(%rsp), %r13
	movzbl	240(%rsp), %eax
	addq	232(%rsp), %rbp
	cmpb	$1, %al
	jne	.LBB21_65
	movq	48(%rsp), %rbx
	subq	%rbp, %rbx
	cmpq	$2, %rbx
	movq	56(%rsp), %r15
	jb	.LBB21_77
	movzbl	241(%rsp), %eax
	movq	64(%rsp), %rcx
	movw	$-3, (%rcx,%rbp)
	addq	%rax, %r13
	movq	72(%rsp), %rax
	leaq	(%rax,%r13), %rdi
	movq	80(%rsp), %r15
	movq	%r13, 168(%rsp)
	subq	%r13, %r15
	movq	%rbp, 176(%rsp)
	leaq	(%rcx,%rbp), %rdx
	addq	$2, %rdx
	addq	$-2, %rbx
	movq	%rdi, 104(%rsp)
	movq	%r15, %rsi
	movq	%rdx, 88(%rsp)
	movq	%rbx, %rcx
	callq	"utf16_transcode::items::write_items::<#418c2b53cf60437c>"
	movq	%rax, %r14
	movq	%rdx, %r12
	movq	%r15, 96(%rsp)
	movq	%r15, %rbp
	subq	%rax, %rbp
	cmpq	$64, %rbp
	jb	.LBB21_91
	movq	%rbx, %r15
	movq	%rbx, 184(%rsp)
	.p2align	4
.LBB21_80:
	subq	%r12, %r15
	cmpq	$128, %r15
	jb	.LBB21_91
	movq	104(%rsp), %rax
	leaq	(%rax,%r14), %rdi
	movq	88(%rsp), %rcx
	leaq	(%rcx,%r12), %rdx
	vmovdqu	(%rax,%r14), %xmm0
	vpmovmskb	%xmm0, %eax
	testl	%eax, %eax
	je	.LBB21_83
	xorl	%ebx, %ebx
	jmp	.LBB21_84
	.p2align	4
.LBB21_83:
	movq	%r15, %rsi
	shrq	%rsi
	cmpq	%rbp, %rsi
	cmovaeq	%rbp, %rsi
	movq	%rdi, %r13
	movq	%rdx, %rbx
	callq	"utf16_from_utf8::ascii::write_front::<#418c2b53cf60437c>"
	movq	%r13, %rdi
	movq	%rbx, %rdx
	movq	%rax, %rbx
.LBB21_84:
	leaq	(%rbx,%rbx), %r13
	movq	%rbp, %rax
	subq	%rbx, %rax
	cmpq	$64, %rax
	jb	.LBB21_87
	movq	%r15, %rax
	subq	%r13, %rax
	cmpq	$128, %rax
	jb	.LBB21_87
	movq	%rbp, %rsi
	movq	%r15, %rcx
	movq	%rbx, %r8
	movq	%r13, %r9
	callq	"utf16_from_utf8::blocks::write_mixed_blocks::<#418c2b53cf60437c>"
	movq	%rax, %rbx
	movq	%rdx, %r13
.LBB21_87:
	addq	%r14, %rbx
	addq	%r12, %r13
	movq	96(%rsp), %rsi
	subq	%rbx, %rsi
	cmpq	$4, %rsi
	movq	184(%rsp), %r15
	jb	.LBB21_88
	movq	%r15, %rcx
	subq	%r13, %rcx
	cmpq	$4, %rcx
	jb	.LBB21_88
	movq	104(%rsp), %rax
	leaq	(%rax,%rbx), %rdi
	movq	88(%rsp), %rax
	leaq	(%rax,%r13), %rdx
	callq	"utf16_transcode::items::write_items::<#418c2b53cf60437c>"
	movq	%rax, %r14
	movq	%rdx, %r12
	addq	%rbx, %r14
	addq	%r13, %r12
	movq	96(%rsp), %rbp
	subq	%r14, %rbp
	cmpq	$63, %rbp
	ja	.LBB21_80
	jmp	.LBB21_91
.LBB21_77:
	movb	$3, %al
	jmp	.LBB21_66
.LBB21_31:
	leaq	16(%rsp), %rdi
	movq	%rdx, %rbx
	movq	%rdx, %rsi
	callq	"std_alloc::vec::Vec::grow_amortized::<#673fbaf82d7b1088>"
	movq	32(%rsp), %r15
	testb	%al, %al
	je	.LBB21_103
	movq	24(%rsp), %r14
	movq	%rbx, %rdx
	jmp	.LBB21_33
.LBB21_7:
	leaq	224(%rsp), %rdi
	callq	"std_io::io::error::last_error"
	movq	312(%rsp), %rdx
	movq	(%rdx), %rax
	incq	%rax
	movq	$-1, %rcx
	cmovneq	%rax, %rcx
	movq	%rcx, (%rdx)
	movb	$1, %al
	cmpq	$0, 32(%rsp)
	je	.LBB21_8
	movq	16(%rsp), %rdi
	callq	rattle_dealloc@PLT
	movb	$1, %al
	xorl	%ebx, %ebx
	jmp	.LBB21_106
.LBB21_3:
	vpxor	%xmm0, %xmm0, %xmm0
	vmovdqa	%xmm0, 192(%rsp)
	movq	$0, 208(%rsp)
	cmpl	$16777215, %ebp
	ja	.LBB21_10
	movl	$2, %r14d
	testb	$1, 12(%rsp)
	jne	.LBB21_12
	jmp	.LBB21_5
.LBB21_73:
	movb	$1, %al
	movb	$3, %bl
	cmpq	$0, 32(%rsp)
	jne	.LBB21_104
	jmp	.LBB21_106
.LBB21_10:
	movw	$-3, 192(%rsp)
	movl	$2, %r14d
	testb	$1, 12(%rsp)
	je	.LBB21_13
	movw	$-3, 194(%rsp)
	movl	$4, %r14d
.LBB21_12:
	movw	$-257, 192(%rsp)
.LBB21_13:
	xorl	%r15d, %r15d
	.p2align	4
.LBB21_15:
	leaq	(%rsp,%r15), %rsi
	addq	$192, %rsi
	movq	%r14, %rbx
	subq	%r15, %rbx
	movl	$1, %edi
	movq	%rbx, %rdx
	callq	write@PLT
	testq	%rax, %rax
	js	.LBB21_17
	cmpq	%rbx, %rax
	cmovbq	%rax, %rbx
	testq	%rbx, %rbx
	je	.LBB21_18
	addq	%rbx, %r15
	cmpq	%r14, %r15
	jb	.LBB21_15
.LBB21_5:
	cmpq	$0, 32(%rsp)
	je	.LBB21_6
	movq	16(%rsp), %rdi
	callq	rattle_dealloc@PLT
.LBB21_6:
	xorl	%ebx, %ebx
	xorl	%eax, %eax
	jmp	.LBB21_106
.LBB21_17:
	leaq	224(%rsp), %rdi
	callq	"std_io::io::error::last_error"
.LBB21_18:
	movq	120(%rsp), %rdx
	movq	(%rdx), %rcx
	incq	%rcx
	movq	$-1, %rax
	cmovneq	%rcx, %rax
	movq	%rax, (%rdx)
	movb	$1, %bl
	cmpq	$0, 32(%rsp)
	je	.LBB21_105
.LBB21_104:
	movq	16(%rsp), %rdi
	callq	rattle_dealloc@PLT
.LBB21_105:
	movb	$1, %al
.LBB21_106:
	movl	%ebx, %edx
	addq	$4440, %rsp
	.cfi_def_cfa_offset 56
	popq	%rbx
	.cfi_def_cfa_offset 48
	popq	%r12
	.cfi_def_cfa_offset 40
	popq	%r13
	.cfi_def_cfa_offset 32
	popq	%r14
	.cfi_def_cfa_offset 24
	popq	%r15
	.cfi_def_cfa_offset 16
	popq	%rbp
	.cfi_def_cfa_offset 8
	retq
.LBB21_8:
	.cfi_def_cfa_offset 4496
	xorl	%ebx, %ebx
	jmp	.LBB21_106
.LBB21_103:
	movb	$1, %al
	movb	$2, %bl
	testq	%r15, %r15
	jne	.LBB21_104
	jmp	.LBB21_106
.Lfunc_end21:
	.size	"utf16_streams::filters::filter_by::<#27bba4883ebf77b8>", .Lfunc_end21-"utf16_streams::filters::filter_by::<#27bba4883ebf77b8>"
	.cfi_endproc

	.section	.rodata.cst16,"aM",@progbits,16
	.p2align	4, 0x0
.LCPI22_0:
	.zero	16,192
.LCPI22_1:
	.zero	16,191
.LCPI22_2:
	.zero	16,223
.LCPI22_3:
	.zero	16,239
.LCPI22_4:
	.zero	16,159
.LCPI22_5:
	.zero	16,237
.LCPI22_6:
	.zero	16,224
.LCPI22_7:
	.zero	16,143
.LCPI22_8:
	.zero	16,245
.LCPI22_9:
	.zero	16,244
.LCPI22_10:
	.zero	16,240
.LCPI22_11:
	.zero	16,254
.LCPI22_12:
	.byte	1
	.byte	2
	.byte	3
	.byte	4
	.byte	5
	.byte	6
	.byte	7
	.byte	8
	.byte	9
	.byte	10
	.byte	11
	.byte	12
	.byte	13
	.byte	14
	.byte	15
	.byte	16
.LCPI22_13:
	.zero	16,15
.LCPI22_14:
	.zero	16,220
.LCPI22_15:
	.zero	16,252
.LCPI22_16:
	.zero	16,3
.LCPI22_17:
	.zero	16,63
.LCPI22_18:
	.zero	16,232
.LCPI22_19:
	.zero	16,127
	.section	.rodata.cst4,"aM",@progbits,4
	.p2align	2, 0x0
.LCPI22_20:
	.zero	4,192
.LCPI22_21:
	.zero	4,237
.LCPI22_22:
	.zero	4,244
.LCPI22_23:
	.zero	4,191
.LCPI22_24:
	.zero	4,15
	.section	".text.utf16_transcode::encode::FromUtf8Direction::begin::<#418c2b53cf60437c>","ax",@progbits
	.p2align	4
	.type	"utf16_transcode::encode::FromUtf8Direction::begin::<#418c2b53cf60437c>",@function
"utf16_transcode::encode::FromUtf8Direction::begin::<#418c2b53cf60437c>":
	.cfi_startproc
	pushq	%rbp
	.cfi_def_cfa_offset 16
	pushq	%r15
	.cfi_def_cfa_offset 24
	pushq	%r14
	.cfi_def_cfa_offset 32
	pushq	%r12
	.cfi_def_cfa_offset 40
	pushq	%rbx
	.cfi_def_cfa_offset 48
	.cfi_offset %rbx, -48
	.cfi_offset %r12, -40
	.cfi_offset %r14, -32
	.cfi_offset %r15, -24
	.cfi_offset %rbp, -16
	movq	%rcx, %rbx
	cmpq	$7, %rsi
	ja	.LBB22_16
	movq	%rbx, %rax
	shrq	%rax
	cmpq	%rsi, %rax
	cmovaeq	%rsi, %rax
	testq	%rax, %rax
	je	.LBB22_22
	movsbl	(%rdi), %ecx
	testw	%cx, %cx
	js	.LBB22_22
	movw	%cx, (%rdx)
	movl	$2, %r9d
	cmpq	$1, %rax
	je	.LBB22_84
	movsbl	1(%rdi), %ecx
	testw	%cx, %cx
	js	.LBB22_33
	movw	%cx, 2(%rdx)
	movl	$4, %r9d
	cmpq	$2, %rax
	je	.LBB22_84
	movsbl	2(%rdi), %ecx
	testw	%cx, %cx
	js	.LBB22_36
	movw	%cx, 4(%rdx)
	movl	$6, %r9d
	cmpq	$3, %rax
	je	.LBB22_84
	movsbl	3(%rdi), %ecx
	testw	%cx, %cx
	js	.LBB22_78
	movw	%cx, 6(%rdx)
	movl	$8, %r9d
	cmpq	$4, %rax
	je	.LBB22_84
	movsbl	4(%rdi), %ecx
	testw	%cx, %cx
	js	.LBB22_79
	movw	%cx, 8(%rdx)
	movl	$10, %r9d
	cmpq	$5, %rax
	je	.LBB22_84
	movsbl	5(%rdi), %ecx
	testw	%cx, %cx
	js	.LBB22_80
	movw	%cx, 10(%rdx)
	movl	$12, %r9d
	cmpq	$6, %rax
	je	.LBB22_84
	movsbl	6(%rdi), %ecx
	testw	%cx, %cx
	js	.LBB22_81
	movw	%cx, 12(%rdx)
	movl	$14, %r9d
	jmp	.LBB22_84
.LBB22_16:
	cmpq	$16, %rsi
	ja	.LBB22_23
	cmpq	$32, %rbx
	jb	.LBB22_21
	vmovq	-8(%rdi,%rsi), %xmm1
	vmovq	(%rdi), %xmm0
	vpunpcklqdq	%xmm1, %xmm0, %xmm0
	movq	%rsi, %rax
	shlq	$4, %rax
	leaq	.Lstatic.11(%rip), %rcx
	vpshufb	-128(%rax,%rcx), %xmm0, %xmm0
	vpmovmskb	%xmm0, %eax
	testl	%eax, %eax
	je	.LBB22_27
	vpextrb	$5, %xmm1, %eax
	vpextrb	$6, %xmm1, %ecx
	vpextrb	$7, %xmm1, %r8d
	cmpb	$-64, %r8b
	setae	%r8b
	cmpb	$-32, %cl
	setae	%cl
	orb	%r8b, %cl
	cmpb	$-16, %al
	setae	%al
	orb	%cl, %al
	jne	.LBB22_21
	leaq	.Lstatic.12(%rip), %rax
	subq	%rsi, %rax
	vpmaxub	16(%rax), %xmm0, %xmm1
	vpslldq	$1, %xmm1, %xmm0
	vpslldq	$2, %xmm1, %xmm3
	vpslldq	$3, %xmm1, %xmm4
	vpbroadcastd	.LCPI22_20(%rip), %xmm2
	vpcmpgtb	%xmm1, %xmm2, %xmm5
	vpsubusb	.LCPI22_1(%rip), %xmm0, %xmm6
	vpsubusb	.LCPI22_2(%rip), %xmm3, %xmm7
	vpsubusb	.LCPI22_3(%rip), %xmm4, %xmm4
	vpmaxub	%xmm7, %xmm6, %xmm6
	vpor	%xmm4, %xmm6, %xmm4
	vpxor	%xmm6, %xmm6, %xmm6
	vpcmpgtb	%xmm6, %xmm4, %xmm4
	vpxor	%xmm4, %xmm5, %xmm4
	vpminub	.LCPI22_4(%rip), %xmm1, %xmm5
	vpcmpeqb	%xmm5, %xmm1, %xmm5
	vpbroadcastd	.LCPI22_21(%rip), %xmm6
	vpblendvb	%xmm5, .LCPI22_6(%rip), %xmm6, %xmm5
	vpcmpeqb	%xmm5, %xmm0, %xmm5
	vpminub	.LCPI22_7(%rip), %xmm1, %xmm6
	vpcmpeqb	%xmm6, %xmm1, %xmm6
	vpmaxub	.LCPI22_8(%rip), %xmm1, %xmm7
	vpcmpeqb	%xmm7, %xmm1, %xmm7
	vpbroadcastd	.LCPI22_22(%rip), %xmm8
	vpblendvb	%xmm6, .LCPI22_10(%rip), %xmm8, %xmm6
	vpcmpeqb	%xmm6, %xmm0, %xmm6
	vpor	%xmm5, %xmm6, %xmm5
	vpor	%xmm7, %xmm5, %xmm5
	vpand	.LCPI22_11(%rip), %xmm1, %xmm6
	vpcmpeqb	%xmm2, %xmm6, %xmm6
	vpor	%xmm4, %xmm6, %xmm4
	vpor	%xmm4, %xmm5, %xmm4
	vmovd	%esi, %xmm5
	vpbroadcastb	%xmm5, %xmm5
	vpmaxub	.LCPI22_12(%rip), %xmm5, %xmm6
	vpcmpeqb	%xmm6, %xmm5, %xmm5
	vpsllw	$7, %xmm4, %xmm4
	vpand	%xmm4, %xmm5, %xmm4
	vpmovmskb	%xmm4, %eax
	testl	%eax, %eax
	je	.LBB22_35
.LBB22_21:
	xorl	%r9d, %r9d
	xorl	%eax, %eax
	cmpq	$31, %rsi
	jbe	.LBB22_45
	jmp	.LBB22_32
.LBB22_22:
	xorl	%r9d, %r9d
	xorl	%eax, %eax
	jmp	.LBB22_84
.LBB22_23:
	movq	%rbx, %rcx
	shrq	%rcx
	cmpq	%rsi, %rcx
	cmovaeq	%rsi, %rcx
	cmpq	$32, %rbx
	jb	.LBB22_24
	vmovdqu	(%rdi), %xmm0
	vpmovmskb	%xmm0, %eax
	testl	%eax, %eax
	je	.LBB22_28
.LBB22_24:
	xorl	%eax, %eax
	leaq	(%rax,%rax), %r9
	movq	%rsi, %rcx
	subq	%rax, %rcx
	je	.LBB22_31
.LBB22_38:
	movq	%rdi, %r15
	cmpq	$191, %rcx
	ja	.LBB22_40
	movq	%rsi, %r12
	movq	%rdx, %r14
	movq	%rbx, %rcx
	movq	%rax, %r8
	vzeroupper
	callq	"utf16_from_utf8::rest::write_rest::<#418c2b53cf60437c>"
	movq	%r15, %rdi
	movq	%r12, %rsi
	movq	%rdx, %r9
	movq	%r14, %rdx
	cmpq	$31, %rsi
	jbe	.LBB22_45
	jmp	.LBB22_32
.LBB22_40:
	movq	%rsi, %r14
	movq	%rdx, %r12
	movq	%rbx, %rcx
	movq	%rax, %r8
	vzeroupper
	callq	"utf16_from_utf8::blocks::write_mixed_blocks::<#418c2b53cf60437c>"
	movq	%rdx, %r9
	movq	%r14, %rcx
	subq	%rax, %rcx
	cmpq	$191, %rcx
	jbe	.LBB22_42
	movq	%r14, %rsi
	movq	%r12, %rdx
	movq	%r15, %rdi
	cmpq	$31, %rsi
	jbe	.LBB22_45
	jmp	.LBB22_32
.LBB22_27:
	vpmovzxbw	%xmm0, %ymm0
	vmovdqu	%ymm0, (%rdx)
	leaq	(%rsi,%rsi), %r9
	movq	%rsi, %rax
	cmpq	$31, %rsi
	jbe	.LBB22_45
	jmp	.LBB22_32
.LBB22_28:
	cmpq	$31, %rcx
	ja	.LBB22_34
	vpmovzxbw	%xmm0, %ymm0
	vmovdqu	%ymm0, (%rdx)
	vmovdqu	-16(%rcx,%rdi), %xmm0
	vpmovmskb	%xmm0, %r8d
	movl	$16, %eax
	testl	%r8d, %r8d
	je	.LBB22_37
	leaq	(%rax,%rax), %r9
	movq	%rsi, %rcx
	subq	%rax, %rcx
	jne	.LBB22_38
.LBB22_31:
	cmpq	$31, %rsi
	jbe	.LBB22_45
.LBB22_32:
	movq	%r9, %rdx
	popq	%rbx
	.cfi_def_cfa_offset 40
	popq	%r12
	.cfi_def_cfa_offset 32
	popq	%r14
	.cfi_def_cfa_offset 24
	popq	%r15
	.cfi_def_cfa_offset 16
	popq	%rbp
	.cfi_def_cfa_offset 8
	vzeroupper
	retq
.LBB22_33:
	.cfi_def_cfa_offset 48
	movl	$1, %eax
	jmp	.LBB22_84
.LBB22_42:
	movq	%r15, %rdi
	movq	%r14, %rsi
	movq	%r12, %rdx
	movq	%rbx, %rcx
	movq	%rax, %r8
	callq	"utf16_from_utf8::rest::write_rest::<#418c2b53cf60437c>"
	movq	%r15, %rdi
	movq	%r14, %rsi
	movq	%rdx, %r9
	movq	%r12, %rdx
	cmpq	$31, %rsi
	jbe	.LBB22_45
	jmp	.LBB22_32
.LBB22_34:
	movq	%rdi, %r14
	movq	%rsi, %r12
	movq	%rcx, %rsi
	movq	%rdx, %r15
	callq	"utf16_from_utf8::ascii::write_front::<#418c2b53cf60437c>"
	movq	%r14, %rdi
	movq	%r12, %rsi
	movq	%r15, %rdx
	leaq	(%rax,%rax), %r9
	movq	%rsi, %rcx
	subq	%rax, %rcx
	je	.LBB22_31
	jmp	.LBB22_38
.LBB22_35:
	vpblendvb	%xmm1, %xmm0, %xmm2, %xmm5
	vpbroadcastd	.LCPI22_23(%rip), %xmm4
	vpmaxub	.LCPI22_6(%rip), %xmm3, %xmm6
	vpsrlw	$2, %xmm5, %xmm7
	vpbroadcastd	.LCPI22_24(%rip), %xmm8
	vpand	%xmm7, %xmm8, %xmm7
	vpsllw	$4, %xmm6, %xmm6
	vpandn	%xmm6, %xmm8, %xmm6
	vpor	%xmm6, %xmm7, %xmm6
	vpmaxub	%xmm3, %xmm5, %xmm7
	vpminub	%xmm4, %xmm7, %xmm8
	vpcmpeqb	%xmm7, %xmm8, %xmm7
	vpand	.LCPI22_14(%rip), %xmm7, %xmm7
	vpor	%xmm7, %xmm6, %xmm6
	vpsllw	$2, %xmm0, %xmm7
	vpand	.LCPI22_15(%rip), %xmm7, %xmm7
	vpsrlw	$4, %xmm1, %xmm8
	vpand	.LCPI22_16(%rip), %xmm8, %xmm8
	vpminub	.LCPI22_17(%rip), %xmm7, %xmm9
	vpcmpeqb	%xmm7, %xmm9, %xmm9
	vpaddb	%xmm3, %xmm9, %xmm9
	vpaddb	.LCPI22_18(%rip), %xmm9, %xmm9
	vpor	%xmm7, %xmm8, %xmm7
	vpminub	.LCPI22_3(%rip), %xmm3, %xmm8
	vpcmpeqb	%xmm3, %xmm8, %xmm3
	vpblendvb	%xmm3, %xmm6, %xmm9, %xmm6
	vpand	.LCPI22_19(%rip), %xmm1, %xmm8
	vpaddb	%xmm2, %xmm7, %xmm7
	vpsllw	$6, %xmm5, %xmm5
	vpand	%xmm2, %xmm5, %xmm2
	vpaddb	%xmm2, %xmm8, %xmm2
	vpblendvb	%xmm3, %xmm2, %xmm7, %xmm2
	vpunpcklbw	%xmm6, %xmm2, %xmm3
	vpminub	%xmm4, %xmm1, %xmm4
	vpcmpeqb	%xmm4, %xmm1, %xmm1
	vpminub	.LCPI22_2(%rip), %xmm0, %xmm4
	vpcmpeqb	%xmm4, %xmm0, %xmm0
	vpand	%xmm0, %xmm1, %xmm0
	vpmovmskb	%xmm0, %eax
	movzbl	%al, %ecx
	popcntl	%ecx, %r8d
	shll	$4, %ecx
	leaq	.Lstatic.13(%rip), %r10
	vpshufb	(%rcx,%r10), %xmm3, %xmm0
	vpunpckhbw	%xmm6, %xmm2, %xmm1
	vmovdqu	%xmm0, (%rdx)
	shrl	$8, %eax
	popcntl	%eax, %r9d
	shll	$4, %eax
	vpshufb	(%rax,%r10), %xmm1, %xmm0
	vmovdqu	%xmm0, (%rdx,%r8,2)
	addl	%r8d, %r9d
	addl	%r9d, %r9d
	movq	%rsi, %rax
	cmpq	$31, %rsi
	jbe	.LBB22_45
	jmp	.LBB22_32
	.p2align	4
.LBB22_43:
	leal	67043328(%rcx), %r11d
	shrl	$10, %r11d
	addl	$-10240, %r11d
	andl	$1023, %ecx
	orl	$56320, %ecx
	movw	%cx, 2(%rdx,%r9)
	movl	$4, %r10d
	movl	%r11d, %ecx
.LBB22_44:
	movw	%cx, (%rdx,%r9)
	addq	%r10, %r9
	addq	%r8, %rax
.LBB22_45:
	cmpq	%rsi, %rax
	jae	.LBB22_32
	movzbl	(%rdi,%rax), %ecx
	testb	%cl, %cl
	js	.LBB22_51
	movl	$1, %r8d
.LBB22_48:
	movq	%rbx, %r10
	subq	%r9, %r10
	xorl	%r11d, %r11d
	cmpl	$65536, %ecx
	setae	%r11b
	leaq	2(,%r11,2), %r11
	cmpq	%r11, %r10
	jb	.LBB22_32
	cmpl	$65535, %ecx
	ja	.LBB22_43
	movl	$2, %r10d
	jmp	.LBB22_44
	.p2align	4
.LBB22_51:
	movq	%rsi, %r10
	subq	%rax, %r10
	cmpq	$3, %r10
	jb	.LBB22_55
	leal	31(%rcx), %r8d
	cmpb	$11, %r8b
	ja	.LBB22_56
	movzbl	1(%rdi,%rax), %r8d
	cmpb	$-65, %r8b
	jg	.LBB22_56
	movzbl	2(%rdi,%rax), %r11d
	cmpb	$-65, %r11b
	jg	.LBB22_56
	jmp	.LBB22_61
.LBB22_55:
	cmpq	$2, %r10
	jne	.LBB22_32
.LBB22_56:
	movzbl	1(%rdi,%rax), %r8d
	movl	%ecx, %r11d
	shrb	$4, %r11b
	andb	$12, %r11b
	movl	%r8d, %ebp
	shrb	$6, %bpl
	orb	%r11b, %bpl
	cmpb	$14, %bpl
	jne	.LBB22_32
	leal	31(%rcx), %r11d
	cmpb	$12, %r11b
	jae	.LBB22_62
.LBB22_58:
	cmpq	$2, %r10
	je	.LBB22_32
	movzbl	2(%rdi,%rax), %r11d
	cmpb	$-65, %r11b
	jg	.LBB22_32
	cmpb	$-17, %cl
	ja	.LBB22_66
.LBB22_61:
	shll	$12, %ecx
	shll	$6, %r8d
	addl	%ecx, %r8d
	leal	(%r11,%r8), %ecx
	addl	$-925824, %ecx
	movl	$3, %r8d
	jmp	.LBB22_48
.LBB22_62:
	leal	62(%rcx), %r11d
	cmpb	$30, %r11b
	jb	.LBB22_77
	movb	$-65, %bpl
	leal	-224(%rcx), %r14d
	cmpl	$20, %r14d
	ja	.LBB22_72
	leaq	.LJTI22_0(%rip), %r15
	movslq	(%r15,%r14,4), %r14
	addq	%r15, %r14
	notrack jmpq	*%r14
.LBB22_65:
	movb	$-96, %r14b
	jmp	.LBB22_73
.LBB22_66:
	cmpq	$4, %r10
	jb	.LBB22_32
	movzbl	3(%rdi,%rax), %r10d
	cmpb	$-65, %r10b
	jg	.LBB22_32
	shll	$18, %ecx
	shll	$12, %r8d
	addl	%ecx, %r8d
	shll	$6, %r11d
	addl	%r8d, %r11d
	leal	(%r10,%r11), %ecx
	addl	$-63447168, %ecx
	movl	$4, %r8d
	jmp	.LBB22_48
.LBB22_69:
	movb	$-112, %r14b
	jmp	.LBB22_73
.LBB22_70:
	movb	$-97, %bpl
	jmp	.LBB22_72
.LBB22_71:
	movb	$-113, %bpl
.LBB22_72:
	movb	$-128, %r14b
.LBB22_73:
	cmpb	$50, %r11b
	ja	.LBB22_32
	cmpb	%r8b, %r14b
	ja	.LBB22_32
	cmpb	%bpl, %r8b
	ja	.LBB22_32
	cmpb	$-33, %cl
	ja	.LBB22_58
.LBB22_77:
	shll	$6, %ecx
	addl	%r8d, %ecx
	addl	$-12416, %ecx
	movl	$2, %r8d
	jmp	.LBB22_48
.LBB22_36:
	movl	$2, %eax
	jmp	.LBB22_84
.LBB22_37:
	vpmovzxbw	%xmm0, %ymm0
	vmovdqu	%ymm0, -32(%rdx,%rcx,2)
	movq	%rcx, %rax
	leaq	(%rax,%rax), %r9
	movq	%rsi, %rcx
	subq	%rax, %rcx
	je	.LBB22_31
	jmp	.LBB22_38
.LBB22_78:
	movl	$3, %eax
	jmp	.LBB22_84
.LBB22_79:
	movl	$4, %eax
	jmp	.LBB22_84
.LBB22_80:
	movl	$5, %eax
	jmp	.LBB22_84
.LBB22_81:
	movl	$6, %eax
	jmp	.LBB22_84
	.p2align	4
.LBB22_82:
	leal	67043328(%rcx), %r11d
	shrl	$10, %r11d
	addl	$-10240, %r11d
	andl	$1023, %ecx
	orl	$56320, %ecx
	movw	%cx, 2(%rdx,%r9)
	movl	$4, %r10d
	movl	%r11d, %ecx
.LBB22_83:
	movw	%cx, (%rdx,%r9)
	addq	%r10, %r9
	addq	%r8, %rax
.LBB22_84:
	cmpq	%rsi, %rax
	jae	.LBB22_32
	movzbl	(%rdi,%rax), %ecx
	testb	%cl, %cl
	js	.LBB22_90
	movl	$1, %r8d
.LBB22_87:
	movq	%rbx, %r10
	subq	%r9, %r10
	xorl	%r11d, %r11d
	cmpl	$65536, %ecx
	setae	%r11b
	leaq	2(,%r11,2), %r11
	cmpq	%r11, %r10
	jb	.LBB22_32
	cmpl	$65535, %ecx
	ja	.LBB22_82
	movl	$2, %r10d
	jmp	.LBB22_83
	.p2align	4
.LBB22_90:
	movq	%rsi, %r10
	subq	%rax, %r10
	cmpq	$3, %r10
	jb	.LBB22_94
	leal	31(%rcx), %r8d
	cmpb	$11, %r8b
	ja	.LBB22_95
	movzbl	1(%rdi,%rax), %r8d
	cmpb	$-65, %r8b
	jg	.LBB22_95
	movzbl	2(%rdi,%rax), %r11d
	cmpb	$-65, %r11b
	jg	.LBB22_95
	jmp	.LBB22_100
.LBB22_94:
	cmpq	$2, %r10
	jne	.LBB22_32
.LBB22_95:
	movzbl	1(%rdi,%rax), %r8d
	movl	%ecx, %r11d
	shrb	$4, %r11b
	andb	$12, %r11b
	movl	%r8d, %ebp
	shrb	$6, %bpl
	orb	%r11b, %bpl
	cmpb	$14, %bpl
	jne	.LBB22_32
	leal	31(%rcx), %r11d
	cmpb	$12, %r11b
	jae	.LBB22_101
.LBB22_97:
	cmpq	$2, %r10
	je	.LBB22_32
	movzbl	2(%rdi,%rax), %r11d
	cmpb	$-65, %r11b
	jg	.LBB22_32
	cmpb	$-17, %cl
	ja	.LBB22_105
.LBB22_100:
	shll	$12, %ecx
	shll	$6, %r8d
	addl	%ecx, %r8d
	leal	(%r11,%r8), %ecx
	addl	$-925824, %ecx
	movl	$3, %r8d
	jmp	.LBB22_87
.LBB22_101:
	leal	62(%rcx), %r11d
	cmpb	$30, %r11b
	jb	.LBB22_116
	movb	$-65, %bpl
	leal	-224(%rcx), %r14d
	cmpl	$20, %r14d
	ja	.LBB22_111
	leaq	.LJTI22_1(%rip), %r15
	movslq	(%r15,%r14,4), %r14
	addq	%r15, %r14
	notrack jmpq	*%r14
.LBB22_104:
	movb	$-96, %r14b
	jmp	.LBB22_112
.LBB22_105:
	cmpq	$4, %r10
	jb	.LBB22_32
	movzbl	3(%rdi,%rax), %r10d
	cmpb	$-65, %r10b
	jg	.LBB22_32
	shll	$18, %ecx
	shll	$12, %r8d
	addl	%ecx, %r8d
	shll	$6, %r11d
	addl	%r8d, %r11d
	leal	(%r10,%r11), %ecx
	addl	$-63447168, %ecx
	movl	$4, %r8d
	jmp	.LBB22_87
.LBB22_108:
	movb	$-112, %r14b
	jmp	.LBB22_112
.LBB22_109:
	movb	$-97, %bpl
	jmp	.LBB22_111
.LBB22_110:
	movb	$-113, %bpl
.LBB22_111:
	movb	$-128, %r14b
.LBB22_112:
	cmpb	$50, %r11b
	ja	.LBB22_32
	cmpb	%r8b, %r14b
	ja	.LBB22_32
	cmpb	%bpl, %r8b
	ja	.LBB22_32
	cmpb	$-33, %cl
	ja	.LBB22_97
.LBB22_116:
	shll	$6, %ecx
	addl	%r8d, %ecx
	addl	$-12416, %ecx
	movl	$2, %r8d
	jmp	.LBB22_87
.Lfunc_end22:
	.size	"utf16_transcode::encode::FromUtf8Direction::begin::<#418c2b53cf60437c>", .Lfunc_end22-"utf16_transcode::encode::FromUtf8Direction::begin::<#418c2b53cf60437c>"
	.cfi_endproc
	.section	".rodata.utf16_transcode::encode::FromUtf8Direction::begin::<#418c2b53cf60437c>","a",@progbits
	.p2align	2, 0x0
.LJTI22_0:
	.long	.LBB22_65-.LJTI22_0
	.long	.LBB22_72-.LJTI22_0
	.long	.LBB22_72-.LJTI22_0
	.long	.LBB22_72-.LJTI22_0
	.long	.LBB22_72-.LJTI22_0
	.long	.LBB22_72-.LJTI22_0
	.long	.LBB22_72-.LJTI22_0
	.long	.LBB22_72-.LJTI22_0
	.long	.LBB22_72-.LJTI22_0
	.long	.LBB22_72-.LJTI22_0
	.long	.LBB22_72-.LJTI22_0
	.long	.LBB22_72-.LJTI22_0
	.long	.LBB22_72-.LJTI22_0
	.long	.LBB22_70-.LJTI22_0
	.long	.LBB22_72-.LJTI22_0
	.long	.LBB22_72-.LJTI22_0
	.long	.LBB22_69-.LJTI22_0
	.long	.LBB22_72-.LJTI22_0
	.long	.LBB22_72-.LJTI22_0
	.long	.LBB22_72-.LJTI22_0
	.long	.LBB22_71-.LJTI22_0
.LJTI22_1:
	.long	.LBB22_104-.LJTI22_1
	.long	.LBB22_111-.LJTI22_1
	.long	.LBB22_111-.LJTI22_1
	.long	.LBB22_111-.LJTI22_1
	.long	.LBB22_111-.LJTI22_1
	.long	.LBB22_111-.LJTI22_1
	.long	.LBB22_111-.LJTI22_1
	.long	.LBB22_111-.LJTI22_1
	.long	.LBB22_111-.LJTI22_1
	.long	.LBB22_111-.LJTI22_1
	.long	.LBB22_111-.LJTI22_1
	.long	.LBB22_111-.LJTI22_1
	.long	.LBB22_111-.LJTI22_1
	.long	.LBB22_109-.LJTI22_1
	.long	.LBB22_111-.LJTI22_1
	.long	.LBB22_111-.LJTI22_1
	.long	.LBB22_108-.LJTI22_1
	.long	.LBB22_111-.LJTI22_1
	.long	.LBB22_111-.LJTI22_1
	.long	.LBB22_111-.LJTI22_1
	.long	.LBB22_110-.LJTI22_1

	.section	".text.utf16_from_utf8::ascii::write_front::<#418c2b53cf60437c>","ax",@progbits
	.p2align	4
	.type	"utf16_from_utf8::ascii::write_front::<#418c2b53cf60437c>",@function
"utf16_from_utf8::ascii::write_front::<#418c2b53cf60437c>":
	.cfi_startproc
	xorl	%eax, %eax
	cmpq	$64, %rsi
	jb	.LBB23_4
	movq	%rsi, %rcx
	.p2align	4
.LBB23_2:
	vmovdqu	(%rdi,%rax), %xmm3
	vmovdqu	16(%rdi,%rax), %xmm2
	vmovdqu	32(%rdi,%rax), %xmm1
	vmovdqu	48(%rdi,%rax), %xmm0
	vpor	%xmm2, %xmm3, %xmm4
	vpor	%xmm0, %xmm1, %xmm5
	vpor	%xmm5, %xmm4, %xmm4
	vpmovmskb	%xmm4, %r8d
	testl	%r8d, %r8d
	jne	.LBB23_4
	vpmovzxbw	%xmm3, %ymm3
	vmovdqu	%ymm3, (%rdx,%rax,2)
	vpmovzxbw	%xmm2, %ymm2
	vmovdqu	%ymm2, 32(%rdx,%rax,2)
	vpmovzxbw	%xmm1, %ymm1
	vmovdqu	%ymm1, 64(%rdx,%rax,2)
	vpmovzxbw	%xmm0, %ymm0
	vmovdqu	%ymm0, 96(%rdx,%rax,2)
	addq	$64, %rax
	addq	$-64, %rcx
	cmpq	$63, %rcx
	ja	.LBB23_2
.LBB23_4:
	movq	%rsi, %rcx
	subq	%rax, %rcx
	cmpq	$16, %rcx
	jb	.LBB23_7
	.p2align	4
.LBB23_5:
	vmovdqu	(%rdi,%rax), %xmm0
	vpmovmskb	%xmm0, %r8d
	testl	%r8d, %r8d
	jne	.LBB23_9
	vpmovzxbw	%xmm0, %ymm0
	vmovdqu	%ymm0, (%rdx,%rax,2)
	addq	$16, %rax
	addq	$-16, %rcx
	cmpq	$15, %rcx
	ja	.LBB23_5
.LBB23_7:
	vmovdqu	-16(%rsi,%rdi), %xmm0
	vpmovmskb	%xmm0, %ecx
	testl	%ecx, %ecx
	je	.LBB23_8
.LBB23_9:
	vzeroupper
	retq
.LBB23_8:
	vpmovzxbw	%xmm0, %ymm0
	vmovdqu	%ymm0, -32(%rdx,%rsi,2)
	movq	%rsi, %rax
	vzeroupper
	retq
.Lfunc_end23:
	.size	"utf16_from_utf8::ascii::write_front::<#418c2b53cf60437c>", .Lfunc_end23-"utf16_from_utf8::ascii::write_front::<#418c2b53cf60437c>"
	.cfi_endproc

	.section	.rodata.cst16,"aM",@progbits,16
	.p2align	4, 0x0
.LCPI24_0:
	.zero	16,224
.LCPI24_1:
	.zero	1
	.byte	255
	.byte	0
	.zero	1
	.byte	255
	.byte	0
	.zero	1
	.byte	255
	.byte	0
	.zero	1
	.byte	255
	.byte	0
	.zero	1
	.byte	255
	.byte	0
	.zero	1
.LCPI24_2:
	.byte	0
	.byte	3
	.byte	6
	.byte	9
	.byte	12
	.byte	15
	.byte	128
	.byte	128
	.byte	128
	.byte	128
	.byte	128
	.byte	128
	.byte	128
	.byte	128
	.byte	128
	.byte	128
.LCPI24_3:
	.byte	128
	.byte	128
	.byte	128
	.byte	128
	.byte	128
	.byte	128
	.byte	2
	.byte	5
	.byte	8
	.byte	11
	.byte	14
	.byte	1
	.byte	4
	.byte	7
	.byte	10
	.byte	13
.LCPI24_4:
	.byte	255
	.zero	1
	.byte	0
	.byte	255
	.zero	1
	.byte	0
	.byte	255
	.zero	1
	.byte	0
	.byte	255
	.zero	1
	.byte	0
	.byte	255
	.zero	1
	.byte	0
	.byte	255
.LCPI24_5:
	.byte	1
	.byte	4
	.byte	7
	.byte	10
	.byte	13
	.byte	128
	.byte	128
	.byte	128
	.byte	128
	.byte	128
	.byte	128
	.byte	128
	.byte	128
	.byte	128
	.byte	128
	.byte	128
.LCPI24_6:
	.byte	128
	.byte	128
	.byte	128
	.byte	128
	.byte	128
	.byte	0
	.byte	3
	.byte	6
	.byte	9
	.byte	12
	.byte	15
	.byte	2
	.byte	5
	.byte	8
	.byte	11
	.byte	14
.LCPI24_7:
	.byte	255
	.byte	0
	.zero	1
	.byte	255
	.byte	0
	.zero	1
	.byte	255
	.byte	0
	.zero	1
	.byte	255
	.byte	0
	.zero	1
	.byte	255
	.byte	0
	.zero	1
	.byte	255
.LCPI24_8:
	.byte	2
	.byte	5
	.byte	8
	.byte	11
	.byte	14
	.byte	128
	.byte	128
	.byte	128
	.byte	128
	.byte	128
	.byte	128
	.byte	128
	.byte	128
	.byte	128
	.byte	128
	.byte	128
.LCPI24_9:
	.byte	128
	.byte	128
	.byte	128
	.byte	128
	.byte	128
	.byte	1
	.byte	4
	.byte	7
	.byte	10
	.byte	13
	.byte	0
	.byte	3
	.byte	6
	.byte	9
	.byte	12
	.byte	15
.LCPI24_10:
	.zero	16,240
.LCPI24_11:
	.zero	16,32
.LCPI24_12:
	.zero	16,192
.LCPI24_13:
	.zero	16,128
.LCPI24_14:
	.zero	16,15
.LCPI24_15:
	.zero	16,7
.LCPI24_16:
	.zero	16,248
.LCPI24_17:
	.zero	16,216
.LCPI24_18:
	.zero	16,63
.LCPI24_19:
	.zero	16,191
.LCPI24_20:
	.zero	16,223
.LCPI24_21:
	.zero	16,239
.LCPI24_22:
	.zero	16,159
.LCPI24_23:
	.zero	16,237
.LCPI24_24:
	.zero	16,143
.LCPI24_25:
	.zero	16,245
.LCPI24_26:
	.zero	16,244
.LCPI24_27:
	.zero	16,254
.LCPI24_28:
	.zero	16,220
.LCPI24_29:
	.zero	16,252
.LCPI24_30:
	.zero	16,232
.LCPI24_31:
	.zero	16,127
	.section	.rodata.cst4,"aM",@progbits,4
	.p2align	2, 0x0
.LCPI24_32:
	.zero	4,192
.LCPI24_33:
	.zero	4,128
.LCPI24_34:
	.zero	4,254
.LCPI24_35:
	.zero	4,191
.LCPI24_36:
	.zero	4,63
.LCPI24_37:
	.zero	4,127
.LCPI24_38:
	.zero	4,223
.LCPI24_39:
	.zero	4,239
.LCPI24_40:
	.zero	4,159
.LCPI24_41:
	.zero	4,224
.LCPI24_42:
	.zero	4,237
.LCPI24_43:
	.zero	4,143
.LCPI24_44:
	.zero	4,244
.LCPI24_45:
	.zero	4,240
.LCPI24_46:
	.zero	4,245
.LCPI24_47:
	.zero	4,15
.LCPI24_48:
	.zero	4,252
.LCPI24_49:
	.zero	4,232
.LCPI24_50:
	.zero	4,220
	.section	".text.utf16_from_utf8::blocks::write_mixed_blocks::<#418c2b53cf60437c>","ax",@progbits
	.p2align	4
	.type	"utf16_from_utf8::blocks::write_mixed_blocks::<#418c2b53cf60437c>",@function
"utf16_from_utf8::blocks::write_mixed_blocks::<#418c2b53cf60437c>":
	.cfi_startproc
	pushq	%rbp
	.cfi_def_cfa_offset 16
	pushq	%r15
	.cfi_def_cfa_offset 24
	pushq	%r14
	.cfi_def_cfa_offset 32
	pushq	%r13
	.cfi_def_cfa_offset 40
	pushq	%r12
	.cfi_def_cfa_offset 48
	pushq	%rbx
	.cfi_def_cfa_offset 56
	subq	$56, %rsp
	.cfi_def_cfa_offset 112
	.cfi_offset %rbx, -56
	.cfi_offset %r12, -48
	.cfi_offset %r13, -40
	.cfi_offset %r14, -32
	.cfi_offset %r15, -24
	.cfi_offset %rbp, -16
	movq	%r9, %rbx
	movq	%r8, %rax
	movq	%rcx, %r15
	movq	%rdx, %r12
	movq	%rsi, %r13
	movq	%rdi, %rbp
	jmp	.LBB24_1
	.p2align	4
.LBB24_4:
	shrq	%rsi
	cmpq	%rax, %rsi
	cmovaeq	%rax, %rsi
	leaq	(%r12,%rbx), %rdx
	callq	"utf16_from_utf8::ascii::write_front::<#418c2b53cf60437c>"
	leaq	(%rbx,%rax,2), %rbx
	addq	%r14, %rax
.LBB24_27:
	cmpq	%r14, %rax
	je	.LBB24_28
.LBB24_1:
	movq	%rax, %r14
	movq	%r13, %rax
	subq	%r14, %rax
	cmpq	$64, %rax
	jb	.LBB24_28
	movq	%r15, %rsi
	subq	%rbx, %rsi
	cmpq	$128, %rsi
	jb	.LBB24_28
	leaq	(%r14,%rbp), %rdi
	vmovdqu	(%rbp,%r14), %xmm4
	vmovdqu	16(%rbp,%r14), %xmm5
	vmovdqu	32(%rbp,%r14), %xmm2
	vmovdqu	48(%rbp,%r14), %xmm1
	vpmaxub	%xmm5, %xmm4, %xmm0
	vpmaxub	%xmm1, %xmm2, %xmm3
	vpmaxub	%xmm3, %xmm0, %xmm0
	vpmovmskb	%xmm0, %ecx
	testl	%ecx, %ecx
	je	.LBB24_4
	vpmaxub	.LCPI24_0(%rip), %xmm0, %xmm3
	vpcmpeqb	%xmm3, %xmm0, %xmm3
	vpmovmskb	%xmm3, %eax
	testl	%eax, %eax
	je	.LBB24_6
	vmovd	%xmm4, %eax
	andb	$-16, %al
	cmpb	$-32, %al
	jne	.LBB24_9
	leaq	-32(%r15), %rcx
	subq	%rbx, %rcx
	leaq	-48(%r13), %rdx
	subq	%r14, %rdx
	movq	%r14, %rax
	.p2align	4
.LBB24_11:
	vmovdqu	(%rbp,%rax), %xmm1
	vmovdqu	16(%rbp,%rax), %xmm2
	vmovdqu	32(%rbp,%rax), %xmm4
	vmovdqa	.LCPI24_1(%rip), %xmm3
	vpblendvb	%xmm3, %xmm4, %xmm2, %xmm3
	vpshufb	.LCPI24_2(%rip), %xmm1, %xmm5
	vpshufb	.LCPI24_3(%rip), %xmm3, %xmm3
	vmovdqa	.LCPI24_4(%rip), %xmm6
	vpblendvb	%xmm6, %xmm2, %xmm4, %xmm6
	vpshufb	.LCPI24_5(%rip), %xmm1, %xmm7
	vpshufb	.LCPI24_6(%rip), %xmm6, %xmm6
	vpor	%xmm5, %xmm3, %xmm3
	vmovdqa	.LCPI24_7(%rip), %xmm5
	vpblendvb	%xmm5, %xmm4, %xmm2, %xmm2
	vpshufb	.LCPI24_8(%rip), %xmm1, %xmm1
	vpshufb	.LCPI24_9(%rip), %xmm2, %xmm4
	vpor	%xmm7, %xmm6, %xmm2
	vpor	%xmm1, %xmm4, %xmm1
	vpand	.LCPI24_10(%rip), %xmm3, %xmm4
	vpaddb	.LCPI24_11(%rip), %xmm4, %xmm4
	vpbroadcastd	.LCPI24_32(%rip), %xmm5
	vpand	%xmm5, %xmm2, %xmm6
	vpbroadcastd	.LCPI24_33(%rip), %xmm7
	vpxor	%xmm7, %xmm6, %xmm6
	vpmaxub	%xmm6, %xmm4, %xmm4
	vpand	%xmm5, %xmm1, %xmm5
	vpxor	%xmm7, %xmm5, %xmm5
	vpor	%xmm5, %xmm4, %xmm4
	vptest	%xmm4, %xmm4
	jne	.LBB24_15
	vpsllw	$4, %xmm3, %xmm3
	vpand	.LCPI24_10(%rip), %xmm3, %xmm3
	vpsrlw	$2, %xmm2, %xmm4
	vpand	.LCPI24_14(%rip), %xmm4, %xmm4
	vpor	%xmm3, %xmm4, %xmm3
	vpminub	.LCPI24_15(%rip), %xmm3, %xmm4
	vpand	.LCPI24_16(%rip), %xmm3, %xmm5
	vpcmpeqb	.LCPI24_17(%rip), %xmm5, %xmm5
	vpcmpeqb	%xmm4, %xmm3, %xmm4
	vpor	%xmm5, %xmm4, %xmm4
	vpmovmskb	%xmm4, %esi
	testl	%esi, %esi
	jne	.LBB24_15
	vpsllw	$6, %xmm2, %xmm2
	vpand	.LCPI24_12(%rip), %xmm2, %xmm2
	vpand	.LCPI24_18(%rip), %xmm1, %xmm1
	vpor	%xmm1, %xmm2, %xmm1
	vpunpcklbw	%xmm3, %xmm1, %xmm2
	vmovdqu	%xmm2, (%r12,%rbx)
	vpunpckhbw	%xmm3, %xmm1, %xmm1
	vmovdqu	%xmm1, 16(%r12,%rbx)
	addq	$32, %rbx
	addq	$48, %rax
	subq	$32, %rcx
	setb	%sil
	subq	$48, %rdx
	jb	.LBB24_15
	testb	%sil, %sil
	je	.LBB24_11
	jmp	.LBB24_15
	.p2align	4
.LBB24_6:
	vpslldq	$1, %xmm4, %xmm3
	vpbroadcastd	.LCPI24_32(%rip), %xmm0
	vpcmpgtb	%xmm4, %xmm0, %xmm6
	vpmaxub	%xmm0, %xmm3, %xmm7
	vpcmpeqb	%xmm7, %xmm3, %xmm7
	vpxor	%xmm7, %xmm6, %xmm6
	vpbroadcastd	.LCPI24_34(%rip), %xmm7
	vpand	%xmm7, %xmm4, %xmm8
	vpcmpeqb	%xmm0, %xmm8, %xmm8
	vpor	%xmm6, %xmm8, %xmm6
	vpcmpgtb	%xmm5, %xmm0, %xmm8
	vmovdqu	15(%rdi), %xmm9
	vmovdqu	31(%rdi), %xmm10
	vmovdqu	47(%rdi), %xmm11
	vpmaxub	%xmm0, %xmm9, %xmm12
	vpcmpeqb	%xmm12, %xmm9, %xmm9
	vpxor	%xmm9, %xmm8, %xmm8
	vpand	%xmm7, %xmm5, %xmm5
	vpcmpeqb	%xmm0, %xmm5, %xmm5
	vpor	%xmm5, %xmm8, %xmm5
	vpor	%xmm5, %xmm6, %xmm5
	vpcmpgtb	%xmm2, %xmm0, %xmm6
	vpmaxub	%xmm0, %xmm10, %xmm8
	vpcmpeqb	%xmm8, %xmm10, %xmm8
	vpxor	%xmm6, %xmm8, %xmm6
	vpand	%xmm7, %xmm2, %xmm2
	vpcmpeqb	%xmm0, %xmm2, %xmm2
	vpor	%xmm6, %xmm2, %xmm2
	vpcmpgtb	%xmm1, %xmm0, %xmm6
	vpmaxub	%xmm0, %xmm11, %xmm8
	vpcmpeqb	%xmm8, %xmm11, %xmm8
	vpxor	%xmm6, %xmm8, %xmm6
	vpand	%xmm7, %xmm1, %xmm1
	vpcmpeqb	%xmm0, %xmm1, %xmm1
	vpor	%xmm6, %xmm1, %xmm1
	vpor	%xmm1, %xmm2, %xmm1
	vpor	%xmm1, %xmm5, %xmm1
	vpmovmskb	%xmm1, %eax
	testl	%eax, %eax
	jne	.LBB24_28
	vpsubusb	%xmm0, %xmm3, %xmm5
	vpbroadcastd	.LCPI24_35(%rip), %xmm1
	vpsrlw	$2, %xmm5, %xmm3
	vpbroadcastd	.LCPI24_36(%rip), %xmm2
	vpand	%xmm2, %xmm3, %xmm6
	vpbroadcastd	.LCPI24_37(%rip), %xmm3
	vpand	%xmm3, %xmm4, %xmm7
	vpsllw	$6, %xmm5, %xmm5
	vpand	%xmm0, %xmm5, %xmm5
	vpaddb	%xmm7, %xmm5, %xmm5
	vpminub	%xmm1, %xmm4, %xmm7
	vpcmpeqb	%xmm7, %xmm4, %xmm4
	vpmovmskb	%xmm4, %edx
	vpunpckhbw	%xmm6, %xmm5, %xmm4
	vpunpcklbw	%xmm6, %xmm5, %xmm5
	movzbl	%dl, %ecx
	popcntl	%ecx, %r8d
	shll	$4, %ecx
	leaq	.Lstatic.13(%rip), %rax
	vpshufb	(%rcx,%rax), %xmm5, %xmm5
	leaq	(%r12,%rbx), %rcx
	vmovdqu	%xmm5, (%r12,%rbx)
	shrl	$8, %edx
	popcntl	%edx, %esi
	shll	$4, %edx
	vpshufb	(%rdx,%rax), %xmm4, %xmm4
	vmovdqu	%xmm4, (%rcx,%r8,2)
	addq	%r8, %rsi
	vmovdqu	15(%rdi), %xmm4
	vmovdqu	16(%rdi), %xmm5
	vpsubusb	%xmm0, %xmm4, %xmm4
	vpsrlw	$2, %xmm4, %xmm6
	vpand	%xmm2, %xmm6, %xmm6
	vpand	%xmm3, %xmm5, %xmm7
	vpsllw	$6, %xmm4, %xmm4
	vpand	%xmm0, %xmm4, %xmm4
	vpaddb	%xmm4, %xmm7, %xmm4
	vpminub	%xmm1, %xmm5, %xmm7
	vpcmpeqb	%xmm7, %xmm5, %xmm5
	vpmovmskb	%xmm5, %r8d
	vpunpckhbw	%xmm6, %xmm4, %xmm5
	vpunpcklbw	%xmm6, %xmm4, %xmm4
	movzbl	%r8b, %edx
	popcntl	%edx, %r9d
	shll	$4, %edx
	vpshufb	(%rdx,%rax), %xmm4, %xmm4
	vmovdqu	%xmm4, (%rcx,%rsi,2)
	leaq	(%rcx,%rsi,2), %r10
	shrl	$8, %r8d
	xorl	%edx, %edx
	popcntl	%r8d, %edx
	shll	$4, %r8d
	vpshufb	(%r8,%rax), %xmm5, %xmm4
	vmovdqu	%xmm4, (%r10,%r9,2)
	addq	%rsi, %rdx
	addq	%r9, %rdx
	vmovdqu	31(%rdi), %xmm4
	vmovdqu	32(%rdi), %xmm5
	vpsubusb	%xmm0, %xmm4, %xmm4
	vpsrlw	$2, %xmm4, %xmm6
	vpand	%xmm2, %xmm6, %xmm6
	vpand	%xmm3, %xmm5, %xmm7
	vpsllw	$6, %xmm4, %xmm4
	vpand	%xmm0, %xmm4, %xmm4
	vpaddb	%xmm4, %xmm7, %xmm4
	vpminub	%xmm1, %xmm5, %xmm7
	vpcmpeqb	%xmm7, %xmm5, %xmm5
	vpmovmskb	%xmm5, %r8d
	vpunpckhbw	%xmm6, %xmm4, %xmm5
	vpunpcklbw	%xmm6, %xmm4, %xmm4
	movzbl	%r8b, %esi
	xorl	%r9d, %r9d
	popcntl	%esi, %r9d
	shll	$4, %esi
	vpshufb	(%rsi,%rax), %xmm4, %xmm4
	vmovdqu	%xmm4, (%rcx,%rdx,2)
	leaq	(%rcx,%rdx,2), %r10
	shrl	$8, %r8d
	xorl	%esi, %esi
	popcntl	%r8d, %esi
	shll	$4, %r8d
	vpshufb	(%r8,%rax), %xmm5, %xmm4
	vmovdqu	%xmm4, (%r10,%r9,2)
	addq	%r9, %rsi
	addq	%rdx, %rsi
	vmovdqu	47(%rdi), %xmm4
	vmovdqu	48(%rdi), %xmm5
	vpsubusb	%xmm0, %xmm4, %xmm4
	vpsrlw	$2, %xmm4, %xmm6
	vpand	%xmm2, %xmm6, %xmm2
	vpand	%xmm3, %xmm5, %xmm3
	vpsllw	$6, %xmm4, %xmm4
	vpand	%xmm0, %xmm4, %xmm0
	vpaddb	%xmm0, %xmm3, %xmm0
	vpminub	%xmm1, %xmm5, %xmm1
	vpcmpeqb	%xmm1, %xmm5, %xmm1
	vpmovmskb	%xmm1, %edx
	vpunpckhbw	%xmm2, %xmm0, %xmm1
	vpunpcklbw	%xmm2, %xmm0, %xmm0
	movzbl	%dl, %r8d
	xorl	%r9d, %r9d
	popcntl	%r8d, %r9d
	shll	$4, %r8d
	vpshufb	(%r8,%rax), %xmm0, %xmm0
	vmovdqu	%xmm0, (%rcx,%rsi,2)
	leaq	(%rcx,%rsi,2), %rcx
	shrl	$8, %edx
	xorl	%r8d, %r8d
	popcntl	%edx, %r8d
	shll	$4, %edx
	vpshufb	(%rdx,%rax), %xmm1, %xmm0
	vmovdqu	%xmm0, (%rcx,%r9,2)
	addq	%r9, %r8
	addq	%rsi, %r8
	cmpb	$-64, 63(%rdi)
	leaq	(%rbx,%r8,2), %rbx
	movq	%r14, %rax
	adcq	$-1, %rax
	addq	$64, %rax
	jmp	.LBB24_27
.LBB24_9:
	movq	%r14, %rax
.LBB24_15:
	cmpq	%rax, %r14
	jb	.LBB24_27
	vpmaxub	.LCPI24_10(%rip), %xmm0, %xmm1
	vpcmpeqb	%xmm1, %xmm0, %xmm0
	vpmovmskb	%xmm0, %ecx
	vmovdqu	(%rbp,%rax), %xmm6
	vpslldq	$1, %xmm6, %xmm5
	vpslldq	$2, %xmm6, %xmm7
	testl	%ecx, %ecx
	je	.LBB24_17
	vpslldq	$1, %xmm7, %xmm2
	vpbroadcastd	.LCPI24_32(%rip), %xmm14
	vpcmpgtb	%xmm6, %xmm14, %xmm3
	vpbroadcastd	.LCPI24_35(%rip), %xmm15
	vpsubusb	%xmm15, %xmm5, %xmm4
	vpbroadcastd	.LCPI24_38(%rip), %xmm13
	vmovdqa	%xmm7, 16(%rsp)
	vpsubusb	%xmm13, %xmm7, %xmm8
	vpmaxub	%xmm4, %xmm8, %xmm4
	vpbroadcastd	.LCPI24_39(%rip), %xmm1
	vpsubusb	%xmm1, %xmm2, %xmm2
	vpor	%xmm2, %xmm4, %xmm2
	vpxor	%xmm0, %xmm0, %xmm0
	vpcmpgtb	%xmm0, %xmm2, %xmm2
	vpbroadcastd	.LCPI24_40(%rip), %xmm9
	vpminub	%xmm6, %xmm9, %xmm4
	vpcmpeqb	%xmm4, %xmm6, %xmm4
	vpbroadcastd	.LCPI24_41(%rip), %xmm11
	vpbroadcastd	.LCPI24_42(%rip), %xmm10
	vpblendvb	%xmm4, %xmm11, %xmm10, %xmm4
	vpxor	%xmm2, %xmm3, %xmm2
	vpcmpeqb	%xmm4, %xmm5, %xmm3
	vpbroadcastd	.LCPI24_43(%rip), %xmm8
	vpminub	%xmm6, %xmm8, %xmm4
	vpcmpeqb	%xmm4, %xmm6, %xmm4
	vpmaxub	.LCPI24_25(%rip), %xmm6, %xmm12
	vpcmpeqb	%xmm6, %xmm12, %xmm12
	vpbroadcastd	.LCPI24_44(%rip), %xmm0
	vpblendvb	%xmm4, .LCPI24_10(%rip), %xmm0, %xmm4
	vmovdqa	%xmm5, (%rsp)
	vpcmpeqb	%xmm4, %xmm5, %xmm4
	vpor	%xmm3, %xmm4, %xmm3
	vpor	%xmm3, %xmm12, %xmm3
	vpbroadcastd	.LCPI24_34(%rip), %xmm12
	vpand	%xmm6, %xmm12, %xmm4
	vpcmpeqb	%xmm4, %xmm14, %xmm4
	vpor	%xmm2, %xmm4, %xmm2
	vpor	%xmm2, %xmm3, %xmm5
	vmovdqu	14(%rbp,%rax), %xmm3
	vmovdqu	15(%rbp,%rax), %xmm4
	vpsubusb	%xmm13, %xmm3, %xmm3
	vpsubusb	%xmm15, %xmm4, %xmm0
	vpmaxub	%xmm3, %xmm0, %xmm0
	vmovdqu	13(%rbp,%rax), %xmm3
	vmovdqa	%xmm1, %xmm7
	vpsubusb	%xmm1, %xmm3, %xmm3
	vpor	%xmm3, %xmm0, %xmm0
	vpxor	%xmm1, %xmm1, %xmm1
	vpcmpgtb	%xmm1, %xmm0, %xmm0
	vmovdqu	16(%rbp,%rax), %xmm3
	vpcmpgtb	%xmm3, %xmm14, %xmm1
	vpxor	%xmm0, %xmm1, %xmm0
	vpminub	%xmm3, %xmm9, %xmm1
	vpcmpeqb	%xmm1, %xmm3, %xmm1
	vpblendvb	%xmm1, %xmm11, %xmm10, %xmm1
	vmovdqa	%xmm8, %xmm14
	vpminub	%xmm3, %xmm8, %xmm8
	vpcmpeqb	%xmm3, %xmm8, %xmm8
	vpbroadcastd	.LCPI24_44(%rip), %xmm15
	vpbroadcastd	.LCPI24_45(%rip), %xmm2
	vpblendvb	%xmm8, %xmm2, %xmm15, %xmm8
	vpcmpeqb	%xmm1, %xmm4, %xmm1
	vpcmpeqb	%xmm4, %xmm8, %xmm4
	vpor	%xmm1, %xmm4, %xmm1
	vpbroadcastd	.LCPI24_46(%rip), %xmm11
	vpmaxub	%xmm3, %xmm11, %xmm4
	vpcmpeqb	%xmm4, %xmm3, %xmm4
	vpor	%xmm4, %xmm1, %xmm1
	vpand	%xmm3, %xmm12, %xmm3
	vpbroadcastd	.LCPI24_32(%rip), %xmm8
	vpcmpeqb	%xmm3, %xmm8, %xmm3
	vpor	%xmm0, %xmm3, %xmm0
	vpor	%xmm1, %xmm0, %xmm0
	vpor	%xmm0, %xmm5, %xmm0
	vmovdqa	%xmm0, 32(%rsp)
	vmovdqu	30(%rbp,%rax), %xmm0
	vmovdqu	31(%rbp,%rax), %xmm1
	vpsubusb	%xmm13, %xmm0, %xmm0
	vpsubusb	.LCPI24_19(%rip), %xmm1, %xmm3
	vpmaxub	%xmm0, %xmm3, %xmm0
	vmovdqu	29(%rbp,%rax), %xmm3
	vpsubusb	%xmm7, %xmm3, %xmm3
	vpor	%xmm3, %xmm0, %xmm0
	vpxor	%xmm3, %xmm3, %xmm3
	vpcmpgtb	%xmm3, %xmm0, %xmm0
	vpxor	%xmm5, %xmm5, %xmm5
	vmovdqu	32(%rbp,%rax), %xmm3
	vpcmpgtb	%xmm3, %xmm8, %xmm4
	vmovdqa	%xmm8, %xmm13
	vpxor	%xmm0, %xmm4, %xmm0
	vpminub	%xmm3, %xmm9, %xmm4
	vpcmpeqb	%xmm4, %xmm3, %xmm4
	vpblendvb	%xmm4, .LCPI24_0(%rip), %xmm10, %xmm4
	vpcmpeqb	%xmm4, %xmm1, %xmm4
	vpminub	%xmm3, %xmm14, %xmm8
	vpcmpeqb	%xmm3, %xmm8, %xmm8
	vpblendvb	%xmm8, %xmm2, %xmm15, %xmm8
	vpcmpeqb	%xmm1, %xmm8, %xmm1
	vpor	%xmm4, %xmm1, %xmm1
	vpmaxub	%xmm3, %xmm11, %xmm4
	vpcmpeqb	%xmm4, %xmm3, %xmm4
	vpor	%xmm4, %xmm1, %xmm1
	vpand	%xmm3, %xmm12, %xmm3
	vpcmpeqb	%xmm3, %xmm13, %xmm3
	vpor	%xmm0, %xmm3, %xmm0
	vpor	%xmm1, %xmm0, %xmm3
	vmovdqu	48(%rbp,%rax), %xmm4
	vpminub	%xmm4, %xmm14, %xmm0
	vpcmpeqb	%xmm0, %xmm4, %xmm0
	vpblendvb	%xmm0, %xmm2, %xmm15, %xmm0
	vmovdqa	%xmm13, %xmm15
	vmovdqu	46(%rbp,%rax), %xmm1
	vmovdqu	47(%rbp,%rax), %xmm8
	vpsubusb	.LCPI24_20(%rip), %xmm1, %xmm1
	vpsubusb	.LCPI24_19(%rip), %xmm8, %xmm13
	vpmaxub	%xmm1, %xmm13, %xmm1
	vmovdqu	45(%rbp,%rax), %xmm13
	vpsubusb	.LCPI24_21(%rip), %xmm13, %xmm13
	vpor	%xmm1, %xmm13, %xmm1
	vpcmpgtb	%xmm5, %xmm1, %xmm1
	vpminub	%xmm4, %xmm9, %xmm9
	vpcmpeqb	%xmm4, %xmm9, %xmm9
	vpbroadcastd	.LCPI24_41(%rip), %xmm5
	vpblendvb	%xmm9, %xmm5, %xmm10, %xmm9
	vpcmpgtb	%xmm4, %xmm15, %xmm10
	vpxor	%xmm1, %xmm10, %xmm1
	vpcmpeqb	%xmm9, %xmm8, %xmm9
	vpcmpeqb	%xmm0, %xmm8, %xmm0
	vpor	%xmm0, %xmm9, %xmm0
	vpmaxub	%xmm4, %xmm11, %xmm8
	vpcmpeqb	%xmm4, %xmm8, %xmm8
	vpor	%xmm0, %xmm8, %xmm0
	vpand	%xmm4, %xmm12, %xmm4
	vpcmpeqb	%xmm4, %xmm15, %xmm4
	vpor	%xmm1, %xmm4, %xmm1
	vpor	%xmm0, %xmm1, %xmm0
	vpor	%xmm0, %xmm3, %xmm0
	vpor	32(%rsp), %xmm0, %xmm0
	vpsllw	$7, %xmm0, %xmm0
	vpmovmskb	%xmm0, %ecx
	testl	%ecx, %ecx
	jne	.LBB24_27
	vmovdqa	%xmm5, %xmm7
	vmovdqa	(%rsp), %xmm5
	vpblendvb	%xmm6, %xmm5, %xmm15, %xmm2
	vmovdqa	%xmm7, %xmm0
	vmovdqa	16(%rsp), %xmm7
	vpmaxub	%xmm0, %xmm7, %xmm0
	vpsrlw	$2, %xmm2, %xmm1
	vpbroadcastd	.LCPI24_47(%rip), %xmm11
	vpand	%xmm1, %xmm11, %xmm1
	vpsllw	$4, %xmm0, %xmm0
	vpandn	%xmm0, %xmm11, %xmm0
	vpor	%xmm0, %xmm1, %xmm0
	vpmaxub	%xmm7, %xmm2, %xmm1
	vpbroadcastd	.LCPI24_35(%rip), %xmm9
	vpminub	%xmm1, %xmm9, %xmm3
	vpcmpeqb	%xmm3, %xmm1, %xmm1
	vpand	.LCPI24_28(%rip), %xmm1, %xmm1
	vpor	%xmm1, %xmm0, %xmm0
	vpsllw	$2, %xmm5, %xmm1
	vpbroadcastd	.LCPI24_48(%rip), %xmm14
	vpand	%xmm1, %xmm14, %xmm1
	vpbroadcastd	.LCPI24_36(%rip), %xmm12
	vpminub	%xmm1, %xmm12, %xmm3
	vpcmpeqb	%xmm3, %xmm1, %xmm3
	vpbroadcastd	.LCPI24_49(%rip), %xmm13
	vpaddb	%xmm7, %xmm13, %xmm4
	vpaddb	%xmm4, %xmm3, %xmm3
	vpsrlw	$4, %xmm6, %xmm4
	vpandn	%xmm4, %xmm14, %xmm4
	vpor	%xmm4, %xmm1, %xmm1
	vpbroadcastd	.LCPI24_39(%rip), %xmm10
	vpminub	%xmm7, %xmm10, %xmm4
	vpcmpeqb	%xmm4, %xmm7, %xmm4
	vpblendvb	%xmm4, %xmm0, %xmm3, %xmm0
	vpsllw	$6, %xmm2, %xmm2
	vpand	%xmm2, %xmm15, %xmm2
	vpand	.LCPI24_31(%rip), %xmm6, %xmm3
	vpaddb	%xmm3, %xmm2, %xmm2
	vpaddb	%xmm1, %xmm15, %xmm1
	vpblendvb	%xmm4, %xmm2, %xmm1, %xmm1
	vpminub	%xmm6, %xmm9, %xmm2
	vpcmpeqb	%xmm2, %xmm6, %xmm2
	vpbroadcastd	.LCPI24_38(%rip), %xmm7
	vpminub	%xmm7, %xmm5, %xmm3
	vpcmpeqb	%xmm3, %xmm5, %xmm3
	vpand	%xmm3, %xmm2, %xmm2
	vpmovmskb	%xmm2, %r8d
	vpunpckhbw	%xmm0, %xmm1, %xmm2
	vpunpcklbw	%xmm0, %xmm1, %xmm0
	movzbl	%r8b, %edx
	popcntl	%edx, %esi
	shll	$4, %edx
	leaq	.Lstatic.13(%rip), %rcx
	vpshufb	(%rdx,%rcx), %xmm0, %xmm0
	vmovdqu	%xmm0, (%r12,%rbx)
	leaq	(%r12,%rbx), %rdx
	shrl	$8, %r8d
	popcntl	%r8d, %edi
	shll	$4, %r8d
	vpshufb	(%r8,%rcx), %xmm2, %xmm0
	vmovdqu	%xmm0, (%rdx,%rsi,2)
	vmovdqu	15(%rbp,%rax), %xmm3
	vmovdqu	16(%rbp,%rax), %xmm2
	vpblendvb	%xmm2, %xmm3, %xmm15, %xmm0
	vmovdqu	14(%rbp,%rax), %xmm1
	vpsrlw	$2, %xmm0, %xmm4
	vpand	%xmm4, %xmm11, %xmm4
	vpbroadcastd	.LCPI24_41(%rip), %xmm7
	vpmaxub	%xmm7, %xmm1, %xmm5
	vpsllw	$4, %xmm5, %xmm5
	vpandn	%xmm5, %xmm11, %xmm5
	vpor	%xmm5, %xmm4, %xmm4
	vpmaxub	%xmm1, %xmm0, %xmm5
	vpminub	%xmm5, %xmm9, %xmm6
	vmovdqa	%xmm9, %xmm11
	vpcmpeqb	%xmm6, %xmm5, %xmm5
	vpbroadcastd	.LCPI24_50(%rip), %xmm8
	vpand	%xmm5, %xmm8, %xmm5
	vpor	%xmm5, %xmm4, %xmm4
	vpsllw	$2, %xmm3, %xmm5
	vpand	%xmm5, %xmm14, %xmm5
	vpminub	%xmm5, %xmm12, %xmm6
	vpcmpeqb	%xmm6, %xmm5, %xmm6
	vmovdqa	%xmm13, %xmm9
	vpaddb	%xmm1, %xmm13, %xmm13
	vpaddb	%xmm6, %xmm13, %xmm6
	vpminub	%xmm1, %xmm10, %xmm13
	vpcmpeqb	%xmm1, %xmm13, %xmm1
	vpblendvb	%xmm1, %xmm4, %xmm6, %xmm4
	vpsrlw	$4, %xmm2, %xmm6
	vpandn	%xmm6, %xmm14, %xmm6
	vpor	%xmm6, %xmm5, %xmm5
	vpsllw	$6, %xmm0, %xmm0
	vpand	%xmm0, %xmm15, %xmm0
	vpbroadcastd	.LCPI24_37(%rip), %xmm10
	vpand	%xmm2, %xmm10, %xmm6
	vpaddb	%xmm6, %xmm0, %xmm0
	vpaddb	%xmm5, %xmm15, %xmm5
	vpblendvb	%xmm1, %xmm0, %xmm5, %xmm0
	addl	%esi, %edi
	vpminub	.LCPI24_20(%rip), %xmm3, %xmm1
	vpcmpeqb	%xmm1, %xmm3, %xmm1
	vpminub	%xmm2, %xmm11, %xmm3
	vpcmpeqb	%xmm3, %xmm2, %xmm2
	vpand	%xmm2, %xmm1, %xmm1
	vpmovmskb	%xmm1, %r9d
	vpunpckhbw	%xmm4, %xmm0, %xmm1
	vpunpcklbw	%xmm4, %xmm0, %xmm0
	movzbl	%r9b, %esi
	xorl	%r8d, %r8d
	popcntl	%esi, %r8d
	shll	$4, %esi
	vpshufb	(%rsi,%rcx), %xmm0, %xmm0
	vmovdqu	%xmm0, (%rdx,%rdi,2)
	leaq	(%rdx,%rdi,2), %r10
	shrl	$8, %r9d
	xorl	%esi, %esi
	popcntl	%r9d, %esi
	shll	$4, %r9d
	vpshufb	(%r9,%rcx), %xmm1, %xmm0
	vmovdqu	%xmm0, (%r10,%r8,2)
	vmovdqu	31(%rbp,%rax), %xmm3
	vmovdqu	32(%rbp,%rax), %xmm2
	vpblendvb	%xmm2, %xmm3, %xmm15, %xmm0
	vmovdqu	30(%rbp,%rax), %xmm1
	vpsrlw	$2, %xmm0, %xmm4
	vpbroadcastd	.LCPI24_47(%rip), %xmm6
	vpand	%xmm6, %xmm4, %xmm4
	vpmaxub	%xmm7, %xmm1, %xmm5
	vpsllw	$4, %xmm5, %xmm5
	vpandn	%xmm5, %xmm6, %xmm5
	vmovdqa	%xmm6, %xmm7
	vpor	%xmm5, %xmm4, %xmm4
	vpmaxub	%xmm1, %xmm0, %xmm5
	vpminub	%xmm5, %xmm11, %xmm6
	vpcmpeqb	%xmm6, %xmm5, %xmm5
	vpand	%xmm5, %xmm8, %xmm5
	vpor	%xmm5, %xmm4, %xmm4
	vpsllw	$2, %xmm3, %xmm5
	vpand	%xmm5, %xmm14, %xmm5
	vpminub	%xmm5, %xmm12, %xmm6
	vpcmpeqb	%xmm6, %xmm5, %xmm6
	vpaddb	%xmm1, %xmm9, %xmm13
	vpaddb	%xmm6, %xmm13, %xmm6
	vpminub	.LCPI24_21(%rip), %xmm1, %xmm13
	vpcmpeqb	%xmm1, %xmm13, %xmm1
	vpblendvb	%xmm1, %xmm4, %xmm6, %xmm4
	vpsrlw	$4, %xmm2, %xmm6
	vpandn	%xmm6, %xmm14, %xmm6
	vpor	%xmm6, %xmm5, %xmm5
	vpsllw	$6, %xmm0, %xmm0
	vpand	%xmm0, %xmm15, %xmm0
	vpand	%xmm2, %xmm10, %xmm6
	vpaddb	%xmm6, %xmm0, %xmm0
	vpaddb	%xmm5, %xmm15, %xmm5
	vpblendvb	%xmm1, %xmm0, %xmm5, %xmm0
	addl	%r8d, %esi
	addl	%edi, %esi
	vpminub	.LCPI24_20(%rip), %xmm3, %xmm1
	vpcmpeqb	%xmm1, %xmm3, %xmm1
	vpminub	%xmm2, %xmm11, %xmm3
	vpcmpeqb	%xmm3, %xmm2, %xmm2
	vpand	%xmm2, %xmm1, %xmm1
	vpmovmskb	%xmm1, %r9d
	vpunpckhbw	%xmm4, %xmm0, %xmm1
	vpunpcklbw	%xmm4, %xmm0, %xmm0
	movzbl	%r9b, %edi
	xorl	%r8d, %r8d
	popcntl	%edi, %r8d
	shll	$4, %edi
	vpshufb	(%rdi,%rcx), %xmm0, %xmm0
	leaq	(%rdx,%rsi,2), %r10
	vmovdqu	%xmm0, (%rdx,%rsi,2)
	shrl	$8, %r9d
	xorl	%edi, %edi
	popcntl	%r9d, %edi
	shll	$4, %r9d
	vpshufb	(%r9,%rcx), %xmm1, %xmm0
	vmovdqu	%xmm0, (%r10,%r8,2)
	vmovdqu	46(%rbp,%rax), %xmm0
	vmovdqu	47(%rbp,%rax), %xmm3
	vmovdqu	48(%rbp,%rax), %xmm2
	vpblendvb	%xmm2, %xmm3, %xmm15, %xmm1
	vpmaxub	.LCPI24_0(%rip), %xmm0, %xmm4
	vpsrlw	$2, %xmm1, %xmm5
	vpand	%xmm7, %xmm5, %xmm5
	vpsllw	$4, %xmm4, %xmm4
	vpandn	%xmm4, %xmm7, %xmm4
	vpor	%xmm4, %xmm5, %xmm4
	vpmaxub	%xmm0, %xmm1, %xmm5
	vpminub	%xmm5, %xmm11, %xmm6
	vpcmpeqb	%xmm6, %xmm5, %xmm5
	vpand	%xmm5, %xmm8, %xmm5
	vpor	%xmm5, %xmm4, %xmm4
	vpsllw	$2, %xmm3, %xmm5
	vpand	%xmm5, %xmm14, %xmm5
	vpminub	%xmm5, %xmm12, %xmm6
	vpcmpeqb	%xmm6, %xmm5, %xmm6
	vpaddb	%xmm0, %xmm9, %xmm9
	vpaddb	%xmm6, %xmm9, %xmm6
	vpsrlw	$4, %xmm2, %xmm9
	vpandn	%xmm9, %xmm14, %xmm8
	vpor	%xmm5, %xmm8, %xmm5
	vpminub	.LCPI24_21(%rip), %xmm0, %xmm8
	vpcmpeqb	%xmm0, %xmm8, %xmm0
	vpblendvb	%xmm0, %xmm4, %xmm6, %xmm4
	vpaddb	%xmm5, %xmm15, %xmm5
	vpsllw	$6, %xmm1, %xmm1
	vpand	%xmm1, %xmm15, %xmm1
	vpand	%xmm2, %xmm10, %xmm6
	vpaddb	%xmm6, %xmm1, %xmm1
	vpblendvb	%xmm0, %xmm1, %xmm5, %xmm0
	vpminub	.LCPI24_20(%rip), %xmm3, %xmm1
	vpcmpeqb	%xmm1, %xmm3, %xmm1
	vpminub	%xmm2, %xmm11, %xmm3
	vpcmpeqb	%xmm3, %xmm2, %xmm2
	vpand	%xmm2, %xmm1, %xmm1
	vpmovmskb	%xmm1, %r9d
	vpunpckhbw	%xmm4, %xmm0, %xmm1
	vpunpcklbw	%xmm4, %xmm0, %xmm0
	addl	%r8d, %edi
	movzbl	%r9b, %r8d
	xorl	%r10d, %r10d
	popcntl	%r8d, %r10d
	shll	$4, %r8d
	vpshufb	(%r8,%rcx), %xmm0, %xmm0
	addl	%esi, %edi
	vmovdqu	%xmm0, (%rdx,%rdi,2)
	shrl	$8, %r9d
	popcntl	%r9d, %esi
	shll	$4, %r9d
	vpshufb	(%r9,%rcx), %xmm1, %xmm0
	leaq	(%rdx,%rdi,2), %rcx
	vmovdqu	%xmm0, (%rcx,%r10,2)
	addl	%r10d, %esi
	addl	%edi, %esi
	leaq	(%rbx,%rsi,2), %rbx
	cmpb	$-17, 61(%rbp,%rax)
	jbe	.LBB24_23
	addq	$-2, %rbx
	movl	$61, %ecx
	jmp	.LBB24_26
.LBB24_17:
	vpbroadcastd	.LCPI24_32(%rip), %xmm1
	vpcmpgtb	%xmm6, %xmm1, %xmm3
	vpbroadcastd	.LCPI24_35(%rip), %xmm10
	vpsubusb	%xmm10, %xmm5, %xmm4
	vpsubusb	.LCPI24_20(%rip), %xmm7, %xmm8
	vpor	%xmm4, %xmm8, %xmm8
	vpxor	%xmm0, %xmm0, %xmm0
	vpcmpgtb	%xmm0, %xmm8, %xmm8
	vpxor	%xmm3, %xmm8, %xmm11
	vpand	.LCPI24_27(%rip), %xmm6, %xmm3
	vpcmpeqb	%xmm1, %xmm3, %xmm12
	vpminub	.LCPI24_22(%rip), %xmm6, %xmm3
	vpcmpeqb	%xmm3, %xmm6, %xmm13
	vpbroadcastd	.LCPI24_41(%rip), %xmm9
	vpbroadcastd	.LCPI24_42(%rip), %xmm0
	vpblendvb	%xmm13, %xmm9, %xmm0, %xmm13
	vpcmpeqb	%xmm5, %xmm13, %xmm13
	vpor	%xmm13, %xmm12, %xmm12
	vpor	%xmm11, %xmm12, %xmm11
	vmovdqu	14(%rbp,%rax), %xmm12
	vmovdqu	15(%rbp,%rax), %xmm13
	vmovdqu	16(%rbp,%rax), %xmm14
	vmovdqu	30(%rbp,%rax), %xmm15
	vmovdqa	%xmm10, %xmm8
	vpsubusb	%xmm10, %xmm13, %xmm0
	vpbroadcastd	.LCPI24_38(%rip), %xmm10
	vpsubusb	%xmm10, %xmm12, %xmm12
	vpor	%xmm0, %xmm12, %xmm0
	vpcmpgtb	%xmm14, %xmm1, %xmm12
	vpxor	%xmm4, %xmm4, %xmm4
	vpcmpgtb	%xmm4, %xmm0, %xmm0
	vpxor	%xmm0, %xmm12, %xmm0
	vpbroadcastd	.LCPI24_34(%rip), %xmm2
	vpand	%xmm2, %xmm14, %xmm12
	vpcmpeqb	%xmm1, %xmm12, %xmm12
	vpor	%xmm0, %xmm12, %xmm0
	vpbroadcastd	.LCPI24_40(%rip), %xmm3
	vpminub	%xmm3, %xmm14, %xmm12
	vpcmpeqb	%xmm12, %xmm14, %xmm12
	vpbroadcastd	.LCPI24_42(%rip), %xmm14
	vpblendvb	%xmm12, %xmm9, %xmm14, %xmm12
	vpcmpeqb	%xmm12, %xmm13, %xmm12
	vpor	%xmm0, %xmm12, %xmm0
	vmovdqu	31(%rbp,%rax), %xmm12
	vmovdqu	32(%rbp,%rax), %xmm13
	vpsubusb	%xmm8, %xmm12, %xmm14
	vpsubusb	%xmm10, %xmm15, %xmm15
	vpor	%xmm15, %xmm14, %xmm14
	vpcmpgtb	%xmm13, %xmm1, %xmm15
	vpcmpgtb	%xmm4, %xmm14, %xmm14
	vpxor	%xmm14, %xmm15, %xmm14
	vpand	%xmm2, %xmm13, %xmm15
	vpcmpeqb	%xmm1, %xmm15, %xmm15
	vpor	%xmm15, %xmm14, %xmm14
	vpminub	%xmm3, %xmm13, %xmm15
	vpcmpeqb	%xmm15, %xmm13, %xmm13
	vpbroadcastd	.LCPI24_42(%rip), %xmm15
	vpblendvb	%xmm13, %xmm9, %xmm15, %xmm13
	vpcmpeqb	%xmm13, %xmm12, %xmm12
	vpor	%xmm12, %xmm14, %xmm12
	vmovdqa	%xmm8, %xmm14
	vpor	%xmm0, %xmm12, %xmm0
	vpor	%xmm0, %xmm11, %xmm0
	vmovdqu	46(%rbp,%rax), %xmm11
	vmovdqu	47(%rbp,%rax), %xmm12
	vpsubusb	%xmm8, %xmm12, %xmm13
	vpsubusb	%xmm10, %xmm11, %xmm11
	vpor	%xmm11, %xmm13, %xmm11
	vmovdqu	48(%rbp,%rax), %xmm13
	vpcmpgtb	%xmm4, %xmm11, %xmm4
	vpcmpgtb	%xmm13, %xmm1, %xmm11
	vpxor	%xmm4, %xmm11, %xmm4
	vpand	%xmm2, %xmm13, %xmm8
	vpcmpeqb	%xmm1, %xmm8, %xmm8
	vpor	%xmm4, %xmm8, %xmm4
	vpminub	%xmm3, %xmm13, %xmm8
	vpcmpeqb	%xmm8, %xmm13, %xmm8
	vpblendvb	%xmm8, %xmm9, %xmm15, %xmm8
	vpcmpeqb	%xmm8, %xmm12, %xmm8
	vpor	%xmm4, %xmm8, %xmm4
	vpor	%xmm4, %xmm0, %xmm0
	vpmovmskb	%xmm0, %ecx
	testl	%ecx, %ecx
	jne	.LBB24_27
	vmovdqa	%xmm9, %xmm3
	vpblendvb	%xmm6, %xmm5, %xmm1, %xmm0
	vpmaxub	%xmm7, %xmm9, %xmm7
	vpsrlw	$2, %xmm0, %xmm8
	vpbroadcastd	.LCPI24_47(%rip), %xmm4
	vpand	%xmm4, %xmm8, %xmm8
	vpsllw	$4, %xmm7, %xmm7
	vpandn	%xmm7, %xmm4, %xmm7
	vpor	%xmm7, %xmm8, %xmm8
	vpbroadcastd	.LCPI24_37(%rip), %xmm7
	vpand	%xmm7, %xmm6, %xmm9
	vpsllw	$6, %xmm0, %xmm0
	vpand	%xmm1, %xmm0, %xmm0
	vpaddb	%xmm0, %xmm9, %xmm0
	vpminub	%xmm6, %xmm14, %xmm9
	vpcmpeqb	%xmm6, %xmm9, %xmm6
	vpminub	%xmm5, %xmm10, %xmm9
	vpcmpeqb	%xmm5, %xmm9, %xmm5
	vpand	%xmm5, %xmm6, %xmm5
	vpmovmskb	%xmm5, %edi
	vpunpckhbw	%xmm8, %xmm0, %xmm5
	vpunpcklbw	%xmm8, %xmm0, %xmm0
	movzbl	%dil, %edx
	popcntl	%edx, %r8d
	shll	$4, %edx
	leaq	.Lstatic.13(%rip), %rcx
	vpshufb	(%rdx,%rcx), %xmm0, %xmm0
	vmovdqu	%xmm0, (%r12,%rbx)
	leaq	(%r12,%rbx), %rdx
	shrl	$8, %edi
	popcntl	%edi, %esi
	shll	$4, %edi
	vpshufb	(%rdi,%rcx), %xmm5, %xmm0
	vmovdqu	%xmm0, (%rdx,%r8,2)
	addl	%r8d, %esi
	vmovdqu	15(%rbp,%rax), %xmm0
	vmovdqu	16(%rbp,%rax), %xmm5
	vpblendvb	%xmm5, %xmm0, %xmm1, %xmm6
	vpmaxub	14(%rbp,%rax), %xmm3, %xmm8
	vpsrlw	$2, %xmm6, %xmm9
	vpand	%xmm4, %xmm9, %xmm9
	vpsllw	$4, %xmm8, %xmm8
	vpandn	%xmm8, %xmm4, %xmm8
	vpor	%xmm8, %xmm9, %xmm8
	vpand	%xmm7, %xmm5, %xmm9
	vpsllw	$6, %xmm6, %xmm6
	vpand	%xmm1, %xmm6, %xmm6
	vpaddb	%xmm6, %xmm9, %xmm6
	vpminub	%xmm0, %xmm10, %xmm9
	vpcmpeqb	%xmm0, %xmm9, %xmm0
	vpminub	%xmm5, %xmm14, %xmm9
	vpcmpeqb	%xmm5, %xmm9, %xmm5
	vpand	%xmm5, %xmm0, %xmm0
	vpmovmskb	%xmm0, %r8d
	vpunpckhbw	%xmm8, %xmm6, %xmm0
	vpunpcklbw	%xmm8, %xmm6, %xmm5
	movzbl	%r8b, %edi
	popcntl	%edi, %r9d
	shll	$4, %edi
	vpshufb	(%rdi,%rcx), %xmm5, %xmm5
	vmovdqu	%xmm5, (%rdx,%rsi,2)
	leaq	(%rdx,%rsi,2), %r10
	shrl	$8, %r8d
	xorl	%edi, %edi
	popcntl	%r8d, %edi
	shll	$4, %r8d
	vpshufb	(%r8,%rcx), %xmm0, %xmm0
	vmovdqu	%xmm0, (%r10,%r9,2)
	addl	%r9d, %edi
	addl	%esi, %edi
	vmovdqu	31(%rbp,%rax), %xmm0
	vmovdqu	32(%rbp,%rax), %xmm5
	vpblendvb	%xmm5, %xmm0, %xmm1, %xmm6
	vpmaxub	30(%rbp,%rax), %xmm3, %xmm8
	vpsrlw	$2, %xmm6, %xmm9
	vpand	%xmm4, %xmm9, %xmm9
	vpsllw	$4, %xmm8, %xmm8
	vpandn	%xmm8, %xmm4, %xmm8
	vpor	%xmm8, %xmm9, %xmm8
	vpand	%xmm7, %xmm5, %xmm9
	vpsllw	$6, %xmm6, %xmm6
	vpand	%xmm1, %xmm6, %xmm6
	vpaddb	%xmm6, %xmm9, %xmm6
	vpminub	%xmm0, %xmm10, %xmm9
	vpcmpeqb	%xmm0, %xmm9, %xmm0
	vpminub	%xmm5, %xmm14, %xmm9
	vpcmpeqb	%xmm5, %xmm9, %xmm5
	vpand	%xmm5, %xmm0, %xmm0
	vpmovmskb	%xmm0, %r8d
	vpunpckhbw	%xmm8, %xmm6, %xmm0
	vpunpcklbw	%xmm8, %xmm6, %xmm5
	movzbl	%r8b, %esi
	xorl	%r9d, %r9d
	popcntl	%esi, %r9d
	shll	$4, %esi
	vpshufb	(%rsi,%rcx), %xmm5, %xmm5
	vmovdqu	%xmm5, (%rdx,%rdi,2)
	leaq	(%rdx,%rdi,2), %r10
	shrl	$8, %r8d
	xorl	%esi, %esi
	popcntl	%r8d, %esi
	shll	$4, %r8d
	vpshufb	(%r8,%rcx), %xmm0, %xmm0
	vmovdqu	%xmm0, (%r10,%r9,2)
	addl	%r9d, %esi
	vmovdqu	47(%rbp,%rax), %xmm0
	vmovdqu	48(%rbp,%rax), %xmm5
	vpblendvb	%xmm5, %xmm0, %xmm1, %xmm6
	vpmaxub	46(%rbp,%rax), %xmm3, %xmm3
	addl	%edi, %esi
	vpsrlw	$2, %xmm6, %xmm8
	vpand	%xmm4, %xmm8, %xmm8
	vpsllw	$4, %xmm3, %xmm3
	vpandn	%xmm3, %xmm4, %xmm3
	vpor	%xmm3, %xmm8, %xmm3
	vpand	%xmm7, %xmm5, %xmm4
	vpsllw	$6, %xmm6, %xmm6
	vpand	%xmm1, %xmm6, %xmm1
	vpaddb	%xmm4, %xmm1, %xmm1
	vpminub	%xmm0, %xmm10, %xmm2
	vpcmpeqb	%xmm2, %xmm0, %xmm0
	vpminub	%xmm5, %xmm14, %xmm2
	vpcmpeqb	%xmm2, %xmm5, %xmm2
	vpand	%xmm2, %xmm0, %xmm0
	vpmovmskb	%xmm0, %edi
	vpunpckhbw	%xmm3, %xmm1, %xmm0
	vpunpcklbw	%xmm3, %xmm1, %xmm1
	movzbl	%dil, %r9d
	xorl	%r8d, %r8d
	popcntl	%r9d, %r8d
	shll	$4, %r9d
	vpshufb	(%r9,%rcx), %xmm1, %xmm1
	leaq	(%rdx,%rsi,2), %r9
	vmovdqu	%xmm1, (%rdx,%rsi,2)
	shrl	$8, %edi
	movl	%edi, %edx
	shll	$4, %edx
	vpshufb	(%rdx,%rcx), %xmm0, %xmm0
	vmovdqu	%xmm0, (%r9,%r8,2)
	movl	$62, %ecx
	cmpb	$-33, 62(%rbp,%rax)
	ja	.LBB24_20
	xorl	%ecx, %ecx
	cmpb	$-64, 63(%rbp,%rax)
	adcq	$63, %rcx
.LBB24_20:
	xorl	%edx, %edx
	popcntl	%edi, %edx
	addl	%edx, %r8d
	addl	%r8d, %esi
	leaq	(%rbx,%rsi,2), %rbx
	jmp	.LBB24_26
.LBB24_23:
	movl	$62, %ecx
	cmpb	$-33, 62(%rbp,%rax)
	ja	.LBB24_26
	xorl	%ecx, %ecx
	cmpb	$-64, 63(%rbp,%rax)
	adcq	$63, %rcx
.LBB24_26:
	addq	%rcx, %rax
	jmp	.LBB24_27
.LBB24_28:
	movq	%r14, %rax
	movq	%rbx, %rdx
	addq	$56, %rsp
	.cfi_def_cfa_offset 56
	popq	%rbx
	.cfi_def_cfa_offset 48
	popq	%r12
	.cfi_def_cfa_offset 40
	popq	%r13
	.cfi_def_cfa_offset 32
	popq	%r14
	.cfi_def_cfa_offset 24
	popq	%r15
	.cfi_def_cfa_offset 16
	popq	%rbp
	.cfi_def_cfa_offset 8
	retq
.Lfunc_end24:
	.size	"utf16_from_utf8::blocks::write_mixed_blocks::<#418c2b53cf60437c>", .Lfunc_end24-"utf16_from_utf8::blocks::write_mixed_blocks::<#418c2b53cf60437c>"
	.cfi_endproc

	.section	.rodata.cst16,"aM",@progbits,16
	.p2align	4, 0x0
.LCPI25_0:
	.zero	1
	.byte	255
	.byte	0
	.zero	1
	.byte	255
	.byte	0
	.zero	1
	.byte	255
	.byte	0
	.zero	1
	.byte	255
	.byte	0
	.zero	1
	.byte	255
	.byte	0
	.zero	1
.LCPI25_1:
	.byte	0
	.byte	3
	.byte	6
	.byte	9
	.byte	12
	.byte	15
	.byte	128
	.byte	128
	.byte	128
	.byte	128
	.byte	128
	.byte	128
	.byte	128
	.byte	128
	.byte	128
	.byte	128
.LCPI25_2:
	.byte	128
	.byte	128
	.byte	128
	.byte	128
	.byte	128
	.byte	128
	.byte	2
	.byte	5
	.byte	8
	.byte	11
	.byte	14
	.byte	1
	.byte	4
	.byte	7
	.byte	10
	.byte	13
.LCPI25_3:
	.byte	255
	.zero	1
	.byte	0
	.byte	255
	.zero	1
	.byte	0
	.byte	255
	.zero	1
	.byte	0
	.byte	255
	.zero	1
	.byte	0
	.byte	255
	.zero	1
	.byte	0
	.byte	255
.LCPI25_4:
	.byte	1
	.byte	4
	.byte	7
	.byte	10
	.byte	13
	.byte	128
	.byte	128
	.byte	128
	.byte	128
	.byte	128
	.byte	128
	.byte	128
	.byte	128
	.byte	128
	.byte	128
	.byte	128
.LCPI25_5:
	.byte	128
	.byte	128
	.byte	128
	.byte	128
	.byte	128
	.byte	0
	.byte	3
	.byte	6
	.byte	9
	.byte	12
	.byte	15
	.byte	2
	.byte	5
	.byte	8
	.byte	11
	.byte	14
.LCPI25_6:
	.byte	255
	.byte	0
	.zero	1
	.byte	255
	.byte	0
	.zero	1
	.byte	255
	.byte	0
	.zero	1
	.byte	255
	.byte	0
	.zero	1
	.byte	255
	.byte	0
	.zero	1
	.byte	255
.LCPI25_7:
	.byte	2
	.byte	5
	.byte	8
	.byte	11
	.byte	14
	.byte	128
	.byte	128
	.byte	128
	.byte	128
	.byte	128
	.byte	128
	.byte	128
	.byte	128
	.byte	128
	.byte	128
	.byte	128
.LCPI25_8:
	.byte	128
	.byte	128
	.byte	128
	.byte	128
	.byte	128
	.byte	1
	.byte	4
	.byte	7
	.byte	10
	.byte	13
	.byte	0
	.byte	3
	.byte	6
	.byte	9
	.byte	12
	.byte	15
.LCPI25_9:
	.zero	16,240
.LCPI25_10:
	.zero	16,32
.LCPI25_11:
	.zero	16,192
.LCPI25_12:
	.zero	16,128
.LCPI25_13:
	.zero	16,15
.LCPI25_14:
	.zero	16,7
.LCPI25_15:
	.zero	16,248
.LCPI25_16:
	.zero	16,216
.LCPI25_17:
	.zero	16,63
.LCPI25_18:
	.zero	16,224
	.section	.rodata.cst4,"aM",@progbits,4
	.p2align	2, 0x0
.LCPI25_19:
	.zero	4,192
.LCPI25_20:
	.zero	4,128
	.section	".text.utf16_from_utf8::rest::write_rest::<#418c2b53cf60437c>","ax",@progbits
	.p2align	4
	.type	"utf16_from_utf8::rest::write_rest::<#418c2b53cf60437c>",@function
"utf16_from_utf8::rest::write_rest::<#418c2b53cf60437c>":
	.cfi_startproc
	pushq	%r15
	.cfi_def_cfa_offset 16
	pushq	%r14
	.cfi_def_cfa_offset 24
	pushq	%rbx
	.cfi_def_cfa_offset 32
	.cfi_offset %rbx, -32
	.cfi_offset %r14, -24
	.cfi_offset %r15, -16
	movq	%r9, %rbx
	movq	%r8, %rax
	movq	%rsi, %r8
	subq	%rax, %r8
	je	.LBB25_8
	movzbl	(%rdi,%rax), %r9d
	andb	$-16, %r9b
	cmpb	$-32, %r9b
	jne	.LBB25_8
	cmpq	$48, %r8
	setb	%r10b
	movq	%rcx, %r9
	subq	%rbx, %r9
	cmpq	$32, %r9
	setb	%r11b
	orb	%r10b, %r11b
	je	.LBB25_3
.LBB25_8:
	cmpb	$-65, -1(%rdi,%rsi)
	jbe	.LBB25_10
	decq	%rsi
	jmp	.LBB25_13
.LBB25_10:
	cmpb	$-33, -2(%rdi,%rsi)
	jbe	.LBB25_12
	addq	$-2, %rsi
	jmp	.LBB25_13
.LBB25_12:
	leaq	-3(%rsi), %r8
	cmpb	$-16, -3(%rdi,%rsi)
	cmovaeq	%r8, %rsi
.LBB25_13:
	cmpq	$17, %rsi
	setb	%r9b
	movq	%rsi, %r8
	subq	%rax, %r8
	setbe	%r10b
	orb	%r9b, %r10b
	jne	.LBB25_23
	subq	%rbx, %rcx
	xorl	%r9d, %r9d
	subq	$16, %rcx
	cmovaeq	%rcx, %r9
	shrq	%r9
	cmpq	%r8, %r9
	jb	.LBB25_23
	vmovdqu	-16(%rdi,%rsi), %xmm0
	xorl	%ecx, %ecx
	movq	%rax, %r8
	subq	$18, %r8
	cmovaeq	%r8, %rcx
	movq	%rsi, %r8
	subq	%rcx, %r8
	cmpq	$17, %r8
	jb	.LBB25_18
	addq	%rdi, %rcx
	.p2align	4
.LBB25_17:
	vpmaxub	(%rcx), %xmm0, %xmm0
	addq	$16, %rcx
	addq	$-16, %r8
	cmpq	$16, %r8
	ja	.LBB25_17
.LBB25_18:
	vpmaxub	.LCPI25_18(%rip), %xmm0, %xmm1
	addq	%rbx, %rdx
	vpcmpeqb	%xmm1, %xmm0, %xmm1
	vpmovmskb	%xmm1, %ecx
	testl	%ecx, %ecx
	je	.LBB25_24
	movq	%rdx, %rcx
	vpmaxub	.LCPI25_9(%rip), %xmm0, %xmm1
	vpcmpeqb	%xmm1, %xmm0, %xmm0
	vpmovmskb	%xmm0, %edx
	movq	%rsi, %r14
	movq	%rax, %r15
	testl	%edx, %edx
	je	.LBB25_20
	movq	%rax, %rdx
	callq	"utf16_from_utf8::rest::write_rest_of::<#c16de31c8ac190b9>"
	jmp	.LBB25_22
.LBB25_3:
	addq	$-32, %r9
	addq	$-48, %r8
	.p2align	4
.LBB25_4:
	vmovdqu	(%rdi,%rax), %xmm0
	vmovdqu	16(%rdi,%rax), %xmm1
	vmovdqu	32(%rdi,%rax), %xmm3
	vmovdqa	.LCPI25_0(%rip), %xmm2
	vpblendvb	%xmm2, %xmm3, %xmm1, %xmm2
	vpshufb	.LCPI25_1(%rip), %xmm0, %xmm4
	vpshufb	.LCPI25_2(%rip), %xmm2, %xmm2
	vmovdqa	.LCPI25_3(%rip), %xmm5
	vpblendvb	%xmm5, %xmm1, %xmm3, %xmm5
	vpshufb	.LCPI25_4(%rip), %xmm0, %xmm6
	vpshufb	.LCPI25_5(%rip), %xmm5, %xmm5
	vpor	%xmm4, %xmm2, %xmm2
	vmovdqa	.LCPI25_6(%rip), %xmm4
	vpblendvb	%xmm4, %xmm3, %xmm1, %xmm1
	vpshufb	.LCPI25_7(%rip), %xmm0, %xmm0
	vpshufb	.LCPI25_8(%rip), %xmm1, %xmm3
	vpor	%xmm6, %xmm5, %xmm1
	vpor	%xmm0, %xmm3, %xmm0
	vpand	.LCPI25_9(%rip), %xmm2, %xmm3
	vpaddb	.LCPI25_10(%rip), %xmm3, %xmm3
	vpbroadcastd	.LCPI25_19(%rip), %xmm4
	vpand	%xmm4, %xmm1, %xmm5
	vpbroadcastd	.LCPI25_20(%rip), %xmm6
	vpxor	%xmm6, %xmm5, %xmm5
	vpmaxub	%xmm5, %xmm3, %xmm3
	vpand	%xmm4, %xmm0, %xmm4
	vpxor	%xmm6, %xmm4, %xmm4
	vpor	%xmm4, %xmm3, %xmm3
	vptest	%xmm3, %xmm3
	jne	.LBB25_8
	vpsllw	$4, %xmm2, %xmm2
	vpand	.LCPI25_9(%rip), %xmm2, %xmm2
	vpsrlw	$2, %xmm1, %xmm3
	vpand	.LCPI25_13(%rip), %xmm3, %xmm3
	vpor	%xmm2, %xmm3, %xmm2
	vpminub	.LCPI25_14(%rip), %xmm2, %xmm3
	vpand	.LCPI25_15(%rip), %xmm2, %xmm4
	vpcmpeqb	.LCPI25_16(%rip), %xmm4, %xmm4
	vpcmpeqb	%xmm3, %xmm2, %xmm3
	vpor	%xmm4, %xmm3, %xmm3
	vpmovmskb	%xmm3, %r10d
	testl	%r10d, %r10d
	jne	.LBB25_8
	vpsllw	$6, %xmm1, %xmm1
	vpand	.LCPI25_11(%rip), %xmm1, %xmm1
	vpand	.LCPI25_17(%rip), %xmm0, %xmm0
	vpor	%xmm0, %xmm1, %xmm0
	vpunpcklbw	%xmm2, %xmm0, %xmm1
	vmovdqu	%xmm1, (%rdx,%rbx)
	vpunpckhbw	%xmm2, %xmm0, %xmm0
	vmovdqu	%xmm0, 16(%rdx,%rbx)
	addq	$32, %rbx
	addq	$48, %rax
	subq	$32, %r9
	setb	%r10b
	subq	$48, %r8
	jb	.LBB25_8
	testb	%r10b, %r10b
	je	.LBB25_4
	jmp	.LBB25_8
.LBB25_24:
	movq	%rsi, %r14
	movq	%rax, %r15
	movq	%rdx, %rcx
	movq	%rax, %rdx
	callq	"utf16_from_utf8::rest::write_rest_of::<#0fe1328e7259d677>"
	jmp	.LBB25_22
.LBB25_20:
	movq	%rax, %rdx
	callq	"utf16_from_utf8::rest::write_rest_of::<#f189504864b36784>"
.LBB25_22:
	addq	%rbx, %rdx
	cmpb	$1, %al
	movq	%r15, %rax
	cmoveq	%r14, %rax
	cmoveq	%rdx, %rbx
.LBB25_23:
	movq	%rbx, %rdx
	popq	%rbx
	.cfi_def_cfa_offset 24
	popq	%r14
	.cfi_def_cfa_offset 16
	popq	%r15
	.cfi_def_cfa_offset 8
	retq
.Lfunc_end25:
	.size	"utf16_from_utf8::rest::write_rest::<#418c2b53cf60437c>", .Lfunc_end25-"utf16_from_utf8::rest::write_rest::<#418c2b53cf60437c>"
	.cfi_endproc

	.section	.rodata.cst16,"aM",@progbits,16
	.p2align	4, 0x0
.LCPI26_0:
	.zero	16,192
.LCPI26_1:
	.zero	16,63
.LCPI26_2:
	.zero	16,127
.LCPI26_3:
	.zero	16,191
.LCPI26_4:
	.zero	16,254
	.section	.rodata.cst4,"aM",@progbits,4
	.p2align	2, 0x0
.LCPI26_5:
	.zero	4,192
	.section	".text.utf16_from_utf8::rest::write_rest_of::<#0fe1328e7259d677>","ax",@progbits
	.p2align	4
	.type	"utf16_from_utf8::rest::write_rest_of::<#0fe1328e7259d677>",@function
"utf16_from_utf8::rest::write_rest_of::<#0fe1328e7259d677>":
	.cfi_startproc
	pushq	%rbx
	.cfi_def_cfa_offset 16
	.cfi_offset %rbx, -16
	movq	%rsi, %rax
	subq	%rdx, %rax
	vpxor	%xmm0, %xmm0, %xmm0
	xorl	%r8d, %r8d
	cmpq	$16, %rax
	jae	.LBB26_1
.LBB26_7:
	cmpq	%rsi, %rdx
	je	.LBB26_12
	leaq	-16(%rsi), %rax
	vmovdqu	-16(%rdi,%rsi), %xmm1
	cmpq	$3, %rax
	jb	.LBB26_10
	vmovdqu	-1(%rdi,%rax), %xmm2
	jmp	.LBB26_11
	.p2align	4
.LBB26_2:
	vmovdqu	-1(%rdi,%rdx), %xmm2
.LBB26_6:
	vpbroadcastd	.LCPI26_5(%rip), %xmm3
	vpsubusb	%xmm3, %xmm2, %xmm4
	vpsrlw	$2, %xmm4, %xmm5
	vpand	.LCPI26_1(%rip), %xmm5, %xmm5
	vpand	.LCPI26_2(%rip), %xmm1, %xmm6
	vpsllw	$6, %xmm4, %xmm4
	vpand	%xmm3, %xmm4, %xmm4
	vpaddb	%xmm6, %xmm4, %xmm4
	vpminub	.LCPI26_3(%rip), %xmm1, %xmm6
	vpcmpeqb	%xmm6, %xmm1, %xmm6
	vpmovmskb	%xmm6, %r9d
	vpcmpgtb	%xmm1, %xmm3, %xmm6
	vpmaxub	%xmm3, %xmm2, %xmm7
	vpcmpeqb	%xmm7, %xmm2, %xmm2
	vpxor	%xmm2, %xmm6, %xmm2
	vpand	.LCPI26_4(%rip), %xmm1, %xmm1
	vpcmpeqb	%xmm3, %xmm1, %xmm1
	vpor	%xmm2, %xmm1, %xmm1
	vpmaxub	%xmm1, %xmm0, %xmm0
	vpunpcklbw	%xmm5, %xmm4, %xmm1
	movzbl	%r9b, %r10d
	xorl	%r11d, %r11d
	popcntl	%r10d, %r11d
	shll	$4, %r10d
	leaq	.Lstatic.13(%rip), %rbx
	vpshufb	(%r10,%rbx), %xmm1, %xmm1
	vpunpckhbw	%xmm5, %xmm4, %xmm2
	vmovdqu	%xmm1, (%rcx,%r8)
	shrl	$8, %r9d
	xorl	%r10d, %r10d
	popcntl	%r9d, %r10d
	shll	$4, %r9d
	vpshufb	(%r9,%rbx), %xmm2, %xmm1
	leaq	(%rcx,%r8), %r9
	vmovdqu	%xmm1, (%r9,%r11,2)
	addl	%r11d, %r10d
	leaq	(%r8,%r10,2), %r8
	addq	$16, %rdx
	addq	$-16, %rax
	cmpq	$15, %rax
	jbe	.LBB26_7
.LBB26_1:
	vmovdqu	(%rdi,%rdx), %xmm1
	cmpq	$3, %rdx
	jae	.LBB26_2
	testq	%rdx, %rdx
	je	.LBB26_4
	vpbroadcastb	-1(%rdi,%rdx), %xmm2
	vpalignr	$15, %xmm2, %xmm1, %xmm2
	jmp	.LBB26_6
.LBB26_4:
	vpslldq	$1, %xmm1, %xmm2
	jmp	.LBB26_6
.LBB26_10:
	vpbroadcastb	-17(%rdi,%rsi), %xmm2
	vpalignr	$15, %xmm2, %xmm1, %xmm2
.LBB26_11:
	vpbroadcastd	.LCPI26_5(%rip), %xmm3
	vpsubusb	%xmm3, %xmm2, %xmm4
	vpsrlw	$2, %xmm4, %xmm5
	vpand	.LCPI26_1(%rip), %xmm5, %xmm5
	vpand	.LCPI26_2(%rip), %xmm1, %xmm6
	vpsllw	$6, %xmm4, %xmm4
	vpand	%xmm3, %xmm4, %xmm4
	vpminub	.LCPI26_3(%rip), %xmm1, %xmm7
	vpaddb	%xmm6, %xmm4, %xmm4
	vpcmpeqb	%xmm7, %xmm1, %xmm6
	vpmovmskb	%xmm6, %r9d
	vpcmpgtb	%xmm1, %xmm3, %xmm6
	vpmaxub	%xmm3, %xmm2, %xmm7
	vpcmpeqb	%xmm7, %xmm2, %xmm2
	vpand	.LCPI26_4(%rip), %xmm1, %xmm7
	vpxor	%xmm2, %xmm6, %xmm1
	vpcmpeqb	%xmm3, %xmm7, %xmm2
	subl	%eax, %edx
	vpunpckhbw	%xmm5, %xmm4, %xmm3
	vpunpcklbw	%xmm5, %xmm4, %xmm4
	movq	$-1, %rax
	shlxq	%rdx, %rax, %rax
	andl	%r9d, %eax
	movzbl	%al, %edx
	xorl	%r9d, %r9d
	popcntl	%edx, %r9d
	shll	$4, %edx
	leaq	.Lstatic.13(%rip), %r10
	vpshufb	(%rdx,%r10), %xmm4, %xmm4
	vmovdqu	%xmm4, (%rcx,%r8)
	addq	%r8, %rcx
	shrl	$8, %eax
	xorl	%edx, %edx
	popcntl	%eax, %edx
	shll	$4, %eax
	vpshufb	(%rax,%r10), %xmm3, %xmm3
	vmovdqu	%xmm3, (%rcx,%r9,2)
	vpor	%xmm1, %xmm2, %xmm1
	addl	%r9d, %edx
	leaq	(%r8,%rdx,2), %r8
	vpmaxub	%xmm1, %xmm0, %xmm0
.LBB26_12:
	vptest	%xmm0, %xmm0
	je	.LBB26_14
	xorl	%edx, %edx
	xorl	%eax, %eax
	popq	%rbx
	.cfi_def_cfa_offset 8
	retq
.LBB26_14:
	.cfi_def_cfa_offset 16
	cmpb	$-65, -1(%rdi,%rsi)
	jbe	.LBB26_16
	leaq	-1(%rsi), %rax
	jmp	.LBB26_19
.LBB26_16:
	cmpb	$-33, -2(%rdi,%rsi)
	jbe	.LBB26_18
	leaq	-2(%rsi), %rax
	jmp	.LBB26_19
.LBB26_18:
	leaq	-3(%rsi), %rax
	cmpb	$-16, -3(%rdi,%rsi)
	cmovbq	%rsi, %rax
.LBB26_19:
	xorl	%edx, %edx
	cmpq	%rsi, %rax
	setae	%al
	cmovaeq	%r8, %rdx
	popq	%rbx
	.cfi_def_cfa_offset 8
	retq
.Lfunc_end26:
	.size	"utf16_from_utf8::rest::write_rest_of::<#0fe1328e7259d677>", .Lfunc_end26-"utf16_from_utf8::rest::write_rest_of::<#0fe1328e7259d677>"
	.cfi_endproc

	.section	.rodata.cst16,"aM",@progbits,16
	.p2align	4, 0x0
.LCPI27_0:
	.zero	16,192
.LCPI27_1:
	.zero	16,224
.LCPI27_2:
	.zero	16,15
.LCPI27_3:
	.zero	16,240
.LCPI27_4:
	.zero	16,127
.LCPI27_5:
	.zero	16,191
.LCPI27_6:
	.zero	16,223
.LCPI27_7:
	.zero	16,254
.LCPI27_8:
	.zero	16,159
.LCPI27_9:
	.zero	16,237
	.section	.rodata.cst4,"aM",@progbits,4
	.p2align	2, 0x0
.LCPI27_10:
	.zero	4,192
.LCPI27_11:
	.zero	4,224
.LCPI27_12:
	.zero	4,191
.LCPI27_13:
	.zero	4,223
.LCPI27_14:
	.zero	4,237
	.section	".text.utf16_from_utf8::rest::write_rest_of::<#f189504864b36784>","ax",@progbits
	.p2align	4
	.type	"utf16_from_utf8::rest::write_rest_of::<#f189504864b36784>",@function
"utf16_from_utf8::rest::write_rest_of::<#f189504864b36784>":
	.cfi_startproc
	pushq	%rbx
	.cfi_def_cfa_offset 16
	.cfi_offset %rbx, -16
	movq	%rsi, %rax
	subq	%rdx, %rax
	vpxor	%xmm0, %xmm0, %xmm0
	xorl	%r8d, %r8d
	cmpq	$16, %rax
	jae	.LBB27_6
.LBB27_1:
	cmpq	%rsi, %rdx
	je	.LBB27_18
	leaq	-16(%rsi), %rax
	vmovdqu	-16(%rdi,%rsi), %xmm1
	cmpq	$3, %rax
	jb	.LBB27_13
	vmovdqu	-2(%rdi,%rax), %xmm3
	vmovdqu	-1(%rdi,%rax), %xmm2
	jmp	.LBB27_17
	.p2align	4
.LBB27_4:
	vmovdqu	-2(%rdi,%rdx), %xmm5
	vmovdqu	-1(%rdi,%rdx), %xmm2
.LBB27_5:
	vpbroadcastd	.LCPI27_10(%rip), %xmm6
	vpblendvb	%xmm1, %xmm2, %xmm6, %xmm4
	vpbroadcastd	.LCPI27_11(%rip), %xmm7
	vpmaxub	%xmm7, %xmm5, %xmm3
	vpsrlw	$2, %xmm4, %xmm8
	vpand	.LCPI27_2(%rip), %xmm8, %xmm8
	vpsllw	$4, %xmm3, %xmm3
	vpand	.LCPI27_3(%rip), %xmm3, %xmm3
	vpor	%xmm3, %xmm8, %xmm3
	vpand	.LCPI27_4(%rip), %xmm1, %xmm8
	vpsllw	$6, %xmm4, %xmm4
	vpand	%xmm6, %xmm4, %xmm4
	vpaddb	%xmm4, %xmm8, %xmm4
	vpbroadcastd	.LCPI27_12(%rip), %xmm8
	vpminub	%xmm1, %xmm8, %xmm9
	vpcmpeqb	%xmm1, %xmm9, %xmm9
	vpbroadcastd	.LCPI27_13(%rip), %xmm10
	vpminub	%xmm2, %xmm10, %xmm11
	vpcmpeqb	%xmm2, %xmm11, %xmm11
	vpand	%xmm11, %xmm9, %xmm9
	vpmovmskb	%xmm9, %r9d
	vpcmpgtb	%xmm1, %xmm6, %xmm9
	vpsubusb	%xmm8, %xmm2, %xmm8
	vpsubusb	%xmm10, %xmm5, %xmm5
	vpor	%xmm5, %xmm8, %xmm5
	vpxor	%xmm8, %xmm8, %xmm8
	vpcmpgtb	%xmm8, %xmm5, %xmm5
	vpxor	%xmm5, %xmm9, %xmm5
	vpand	.LCPI27_7(%rip), %xmm1, %xmm8
	vpcmpeqb	%xmm6, %xmm8, %xmm6
	vpor	%xmm5, %xmm6, %xmm5
	vpminub	.LCPI27_8(%rip), %xmm1, %xmm6
	vpcmpeqb	%xmm6, %xmm1, %xmm1
	vpbroadcastd	.LCPI27_14(%rip), %xmm6
	vpblendvb	%xmm1, %xmm7, %xmm6, %xmm1
	vpcmpeqb	%xmm1, %xmm2, %xmm1
	vpor	%xmm1, %xmm5, %xmm1
	vpmaxub	%xmm1, %xmm0, %xmm0
	vpunpcklbw	%xmm3, %xmm4, %xmm1
	movzbl	%r9b, %r10d
	xorl	%r11d, %r11d
	popcntl	%r10d, %r11d
	shll	$4, %r10d
	leaq	.Lstatic.13(%rip), %rbx
	vpshufb	(%r10,%rbx), %xmm1, %xmm1
	vpunpckhbw	%xmm3, %xmm4, %xmm2
	vmovdqu	%xmm1, (%rcx,%r8)
	shrl	$8, %r9d
	xorl	%r10d, %r10d
	popcntl	%r9d, %r10d
	shll	$4, %r9d
	vpshufb	(%r9,%rbx), %xmm2, %xmm1
	leaq	(%rcx,%r8), %r9
	vmovdqu	%xmm1, (%r9,%r11,2)
	addl	%r11d, %r10d
	leaq	(%r8,%r10,2), %r8
	addq	$16, %rdx
	addq	$-16, %rax
	cmpq	$15, %rax
	jbe	.LBB27_1
.LBB27_6:
	vmovdqu	(%rdi,%rdx), %xmm1
	cmpq	$3, %rdx
	jae	.LBB27_4
	testq	%rdx, %rdx
	je	.LBB27_10
	vpbroadcastb	-1(%rdi,%rdx), %xmm2
	vpalignr	$15, %xmm2, %xmm1, %xmm2
	cmpq	$2, %rdx
	jne	.LBB27_11
	movzbl	(%rdi), %r9d
	jmp	.LBB27_12
.LBB27_10:
	vpslldq	$1, %xmm1, %xmm2
.LBB27_11:
	xorl	%r9d, %r9d
.LBB27_12:
	vmovd	%r9d, %xmm3
	vpbroadcastb	%xmm3, %xmm3
	vpalignr	$15, %xmm3, %xmm2, %xmm5
	jmp	.LBB27_5
.LBB27_13:
	vpbroadcastb	-17(%rdi,%rsi), %xmm2
	vpalignr	$15, %xmm2, %xmm1, %xmm2
	cmpq	$2, %rax
	jne	.LBB27_15
	movzbl	(%rdi), %r9d
	jmp	.LBB27_16
.LBB27_15:
	xorl	%r9d, %r9d
.LBB27_16:
	vmovd	%r9d, %xmm3
	vpbroadcastb	%xmm3, %xmm3
	vpalignr	$15, %xmm3, %xmm2, %xmm3
.LBB27_17:
	vpbroadcastd	.LCPI27_10(%rip), %xmm6
	vpblendvb	%xmm1, %xmm2, %xmm6, %xmm7
	vpbroadcastd	.LCPI27_11(%rip), %xmm5
	vpmaxub	%xmm5, %xmm3, %xmm4
	vpsrlw	$2, %xmm7, %xmm8
	vpand	.LCPI27_2(%rip), %xmm8, %xmm8
	vpsllw	$4, %xmm4, %xmm4
	vpand	.LCPI27_3(%rip), %xmm4, %xmm4
	vpand	.LCPI27_4(%rip), %xmm1, %xmm9
	vpor	%xmm4, %xmm8, %xmm4
	vpsllw	$6, %xmm7, %xmm7
	vpand	%xmm6, %xmm7, %xmm7
	vpaddb	%xmm7, %xmm9, %xmm7
	vpbroadcastd	.LCPI27_12(%rip), %xmm8
	vpminub	%xmm1, %xmm8, %xmm9
	vpcmpeqb	%xmm1, %xmm9, %xmm9
	vpbroadcastd	.LCPI27_13(%rip), %xmm10
	vpminub	%xmm2, %xmm10, %xmm11
	vpcmpeqb	%xmm2, %xmm11, %xmm11
	vpand	%xmm11, %xmm9, %xmm9
	vpmovmskb	%xmm9, %r9d
	vpcmpgtb	%xmm1, %xmm6, %xmm9
	vpsubusb	%xmm8, %xmm2, %xmm8
	vpsubusb	%xmm10, %xmm3, %xmm3
	vpor	%xmm3, %xmm8, %xmm3
	vpxor	%xmm8, %xmm8, %xmm8
	vpcmpgtb	%xmm8, %xmm3, %xmm3
	vpand	.LCPI27_7(%rip), %xmm1, %xmm8
	vpxor	%xmm3, %xmm9, %xmm3
	vpcmpeqb	%xmm6, %xmm8, %xmm6
	vpminub	.LCPI27_8(%rip), %xmm1, %xmm8
	vpcmpeqb	%xmm1, %xmm8, %xmm1
	vpbroadcastd	.LCPI27_14(%rip), %xmm8
	vpblendvb	%xmm1, %xmm5, %xmm8, %xmm1
	vpcmpeqb	%xmm1, %xmm2, %xmm1
	vpor	%xmm1, %xmm6, %xmm1
	subl	%eax, %edx
	vpunpckhbw	%xmm4, %xmm7, %xmm2
	vpunpcklbw	%xmm4, %xmm7, %xmm4
	movq	$-1, %rax
	shlxq	%rdx, %rax, %rax
	andl	%r9d, %eax
	movzbl	%al, %edx
	xorl	%r9d, %r9d
	popcntl	%edx, %r9d
	shll	$4, %edx
	leaq	.Lstatic.13(%rip), %r10
	vpshufb	(%rdx,%r10), %xmm4, %xmm4
	vmovdqu	%xmm4, (%rcx,%r8)
	addq	%r8, %rcx
	shrl	$8, %eax
	xorl	%edx, %edx
	popcntl	%eax, %edx
	shll	$4, %eax
	vpshufb	(%rax,%r10), %xmm2, %xmm2
	vmovdqu	%xmm2, (%rcx,%r9,2)
	vpor	%xmm3, %xmm1, %xmm1
	addl	%r9d, %edx
	leaq	(%r8,%rdx,2), %r8
	vpmaxub	%xmm1, %xmm0, %xmm0
.LBB27_18:
	vptest	%xmm0, %xmm0
	je	.LBB27_20
	xorl	%edx, %edx
	xorl	%eax, %eax
	popq	%rbx
	.cfi_def_cfa_offset 8
	retq
.LBB27_20:
	.cfi_def_cfa_offset 16
	cmpb	$-65, -1(%rdi,%rsi)
	jbe	.LBB27_22
	leaq	-1(%rsi), %rax
	jmp	.LBB27_25
.LBB27_22:
	cmpb	$-33, -2(%rdi,%rsi)
	jbe	.LBB27_24
	leaq	-2(%rsi), %rax
	jmp	.LBB27_25
.LBB27_24:
	leaq	-3(%rsi), %rax
	cmpb	$-16, -3(%rdi,%rsi)
	cmovbq	%rsi, %rax
.LBB27_25:
	xorl	%edx, %edx
	cmpq	%rsi, %rax
	setae	%al
	cmovaeq	%r8, %rdx
	popq	%rbx
	.cfi_def_cfa_offset 8
	retq
.Lfunc_end27:
	.size	"utf16_from_utf8::rest::write_rest_of::<#f189504864b36784>", .Lfunc_end27-"utf16_from_utf8::rest::write_rest_of::<#f189504864b36784>"
	.cfi_endproc

	.section	.rodata.cst16,"aM",@progbits,16
	.p2align	4, 0x0
.LCPI28_0:
	.zero	16,192
.LCPI28_1:
	.zero	16,224
.LCPI28_2:
	.zero	16,15
.LCPI28_3:
	.zero	16,191
.LCPI28_4:
	.zero	16,220
.LCPI28_5:
	.zero	16,252
.LCPI28_6:
	.zero	16,3
.LCPI28_7:
	.zero	16,63
.LCPI28_8:
	.zero	16,232
.LCPI28_9:
	.zero	16,239
.LCPI28_10:
	.zero	16,127
.LCPI28_11:
	.zero	16,223
.LCPI28_12:
	.zero	16,159
.LCPI28_13:
	.zero	16,237
.LCPI28_14:
	.zero	16,143
.LCPI28_15:
	.zero	16,245
.LCPI28_16:
	.zero	16,244
.LCPI28_17:
	.zero	16,240
.LCPI28_18:
	.zero	16,254
	.section	.rodata.cst4,"aM",@progbits,4
	.p2align	2, 0x0
.LCPI28_19:
	.zero	4,192
.LCPI28_20:
	.zero	4,15
.LCPI28_21:
	.zero	4,191
.LCPI28_22:
	.zero	4,239
.LCPI28_23:
	.zero	4,223
.LCPI28_24:
	.zero	4,237
.LCPI28_25:
	.zero	4,244
.LCPI28_26:
	.zero	4,224
	.section	".text.utf16_from_utf8::rest::write_rest_of::<#c16de31c8ac190b9>","ax",@progbits
	.p2align	4
	.type	"utf16_from_utf8::rest::write_rest_of::<#c16de31c8ac190b9>",@function
"utf16_from_utf8::rest::write_rest_of::<#c16de31c8ac190b9>":
	.cfi_startproc
	pushq	%rbx
	.cfi_def_cfa_offset 16
	.cfi_offset %rbx, -16
	movq	%rsi, %rax
	subq	%rdx, %rax
	vpxor	%xmm7, %xmm7, %xmm7
	xorl	%r8d, %r8d
	cmpq	$16, %rax
	jae	.LBB28_7
.LBB28_1:
	cmpq	%rsi, %rdx
	je	.LBB28_22
	leaq	-16(%rsi), %rax
	vmovdqu	-16(%rdi,%rsi), %xmm1
	cmpq	$3, %rax
	jb	.LBB28_16
	vmovdqu	-3(%rdi,%rax), %xmm3
	vmovdqu	-2(%rdi,%rax), %xmm4
	vmovdqu	-1(%rdi,%rax), %xmm2
	vpor	%xmm1, %xmm3, %xmm0
	vpmovmskb	%xmm0, %r9d
	testl	%r9d, %r9d
	je	.LBB28_20
.LBB28_4:
	vpbroadcastd	.LCPI28_19(%rip), %xmm5
	vpblendvb	%xmm1, %xmm2, %xmm5, %xmm0
	vpmaxub	.LCPI28_1(%rip), %xmm4, %xmm6
	vpsrlw	$2, %xmm0, %xmm8
	vpbroadcastd	.LCPI28_20(%rip), %xmm9
	vpand	%xmm9, %xmm8, %xmm8
	vpsllw	$4, %xmm6, %xmm6
	vpandn	%xmm6, %xmm9, %xmm6
	vpor	%xmm6, %xmm8, %xmm6
	vpmaxub	%xmm4, %xmm0, %xmm9
	vpbroadcastd	.LCPI28_21(%rip), %xmm8
	vpminub	%xmm8, %xmm9, %xmm10
	vpcmpeqb	%xmm10, %xmm9, %xmm9
	vpand	.LCPI28_4(%rip), %xmm9, %xmm9
	vpor	%xmm6, %xmm9, %xmm6
	vpsllw	$2, %xmm2, %xmm9
	vpand	.LCPI28_5(%rip), %xmm9, %xmm9
	vpsrlw	$4, %xmm1, %xmm10
	vpand	.LCPI28_6(%rip), %xmm10, %xmm10
	vpminub	.LCPI28_7(%rip), %xmm9, %xmm11
	vpcmpeqb	%xmm11, %xmm9, %xmm11
	vpaddb	%xmm4, %xmm11, %xmm11
	vpaddb	.LCPI28_8(%rip), %xmm11, %xmm11
	vpor	%xmm10, %xmm9, %xmm10
	vpbroadcastd	.LCPI28_22(%rip), %xmm9
	vpminub	%xmm4, %xmm9, %xmm12
	vpcmpeqb	%xmm4, %xmm12, %xmm12
	vpblendvb	%xmm12, %xmm6, %xmm11, %xmm6
	vpand	.LCPI28_10(%rip), %xmm1, %xmm11
	vpaddb	%xmm5, %xmm10, %xmm10
	vpsllw	$6, %xmm0, %xmm0
	vpand	%xmm5, %xmm0, %xmm0
	vpaddb	%xmm0, %xmm11, %xmm0
	vpminub	%xmm1, %xmm8, %xmm11
	vpcmpeqb	%xmm1, %xmm11, %xmm11
	vpminub	.LCPI28_12(%rip), %xmm1, %xmm13
	vpcmpgtb	%xmm1, %xmm5, %xmm14
	vpcmpeqb	%xmm1, %xmm13, %xmm13
	vpminub	.LCPI28_14(%rip), %xmm1, %xmm15
	vpblendvb	%xmm12, %xmm0, %xmm10, %xmm10
	vpbroadcastd	.LCPI28_23(%rip), %xmm0
	vpminub	%xmm0, %xmm2, %xmm12
	vpcmpeqb	%xmm2, %xmm12, %xmm12
	vpand	%xmm12, %xmm11, %xmm11
	vpmaxub	.LCPI28_15(%rip), %xmm1, %xmm12
	vpcmpeqb	%xmm1, %xmm15, %xmm15
	vpcmpeqb	%xmm1, %xmm12, %xmm12
	vpand	.LCPI28_18(%rip), %xmm1, %xmm1
	vpmovmskb	%xmm11, %r9d
	vpsubusb	%xmm0, %xmm4, %xmm0
	vpsubusb	%xmm8, %xmm2, %xmm4
	vpmaxub	%xmm0, %xmm4, %xmm0
	vpxor	%xmm4, %xmm4, %xmm4
	vpsubusb	%xmm9, %xmm3, %xmm3
	vpor	%xmm3, %xmm0, %xmm0
	vpcmpgtb	%xmm4, %xmm0, %xmm0
	vpxor	%xmm0, %xmm14, %xmm0
	vpbroadcastd	.LCPI28_24(%rip), %xmm3
	vpblendvb	%xmm13, .LCPI28_1(%rip), %xmm3, %xmm3
	vpbroadcastd	.LCPI28_25(%rip), %xmm4
	vpblendvb	%xmm15, .LCPI28_17(%rip), %xmm4, %xmm4
	vpcmpeqb	%xmm3, %xmm2, %xmm3
	vpor	%xmm3, %xmm12, %xmm3
	vpcmpeqb	%xmm4, %xmm2, %xmm2
	vpcmpeqb	%xmm5, %xmm1, %xmm1
	vpor	%xmm0, %xmm1, %xmm0
	vpor	%xmm0, %xmm3, %xmm0
	vpor	%xmm0, %xmm2, %xmm0
	vpmaxub	%xmm0, %xmm7, %xmm7
	vmovdqa	%xmm10, %xmm1
	jmp	.LBB28_21
	.p2align	4
.LBB28_8:
	vmovdqu	-3(%rdi,%rdx), %xmm3
	vmovdqu	-2(%rdi,%rdx), %xmm4
	vmovdqu	-1(%rdi,%rdx), %xmm2
	vpor	%xmm1, %xmm3, %xmm5
	vpmovmskb	%xmm5, %r9d
	testl	%r9d, %r9d
	je	.LBB28_15
.LBB28_5:
	vpbroadcastd	.LCPI28_19(%rip), %xmm6
	vpblendvb	%xmm1, %xmm2, %xmm6, %xmm10
	vmovdqa	%xmm7, -16(%rsp)
	vpbroadcastd	.LCPI28_26(%rip), %xmm7
	vpmaxub	%xmm7, %xmm4, %xmm5
	vpsrlw	$2, %xmm10, %xmm8
	vpbroadcastd	.LCPI28_20(%rip), %xmm9
	vpand	%xmm9, %xmm8, %xmm8
	vpsllw	$4, %xmm5, %xmm5
	vpandn	%xmm5, %xmm9, %xmm5
	vpor	%xmm5, %xmm8, %xmm5
	vpmaxub	%xmm4, %xmm10, %xmm9
	vpbroadcastd	.LCPI28_21(%rip), %xmm8
	vpminub	%xmm8, %xmm9, %xmm11
	vpcmpeqb	%xmm11, %xmm9, %xmm9
	vpand	.LCPI28_4(%rip), %xmm9, %xmm9
	vpor	%xmm5, %xmm9, %xmm5
	vpsllw	$2, %xmm2, %xmm9
	vpand	.LCPI28_5(%rip), %xmm9, %xmm9
	vpsrlw	$4, %xmm1, %xmm11
	vpand	.LCPI28_6(%rip), %xmm11, %xmm11
	vpminub	.LCPI28_7(%rip), %xmm9, %xmm12
	vpcmpeqb	%xmm12, %xmm9, %xmm12
	vpaddb	%xmm4, %xmm12, %xmm12
	vpaddb	.LCPI28_8(%rip), %xmm12, %xmm12
	vpor	%xmm11, %xmm9, %xmm11
	vpbroadcastd	.LCPI28_22(%rip), %xmm9
	vpminub	%xmm4, %xmm9, %xmm13
	vpcmpeqb	%xmm4, %xmm13, %xmm13
	vpblendvb	%xmm13, %xmm5, %xmm12, %xmm5
	vpand	.LCPI28_10(%rip), %xmm1, %xmm12
	vpaddb	%xmm6, %xmm11, %xmm11
	vpsllw	$6, %xmm10, %xmm10
	vpand	%xmm6, %xmm10, %xmm10
	vpaddb	%xmm12, %xmm10, %xmm10
	vpminub	%xmm1, %xmm8, %xmm12
	vpcmpeqb	%xmm1, %xmm12, %xmm12
	vpminub	.LCPI28_12(%rip), %xmm1, %xmm14
	vpcmpgtb	%xmm1, %xmm6, %xmm15
	vpcmpeqb	%xmm1, %xmm14, %xmm14
	vpminub	.LCPI28_14(%rip), %xmm1, %xmm0
	vpblendvb	%xmm13, %xmm10, %xmm11, %xmm10
	vpbroadcastd	.LCPI28_23(%rip), %xmm11
	vpminub	%xmm2, %xmm11, %xmm13
	vpcmpeqb	%xmm2, %xmm13, %xmm13
	vpand	%xmm13, %xmm12, %xmm12
	vpmaxub	.LCPI28_15(%rip), %xmm1, %xmm13
	vpcmpeqb	%xmm0, %xmm1, %xmm0
	vpcmpeqb	%xmm1, %xmm13, %xmm13
	vpand	.LCPI28_18(%rip), %xmm1, %xmm1
	vpmovmskb	%xmm12, %r9d
	vpsubusb	%xmm11, %xmm4, %xmm4
	vpsubusb	%xmm8, %xmm2, %xmm8
	vpmaxub	%xmm4, %xmm8, %xmm4
	vpxor	%xmm8, %xmm8, %xmm8
	vpsubusb	%xmm9, %xmm3, %xmm3
	vpor	%xmm3, %xmm4, %xmm3
	vpcmpgtb	%xmm8, %xmm3, %xmm3
	vpxor	%xmm3, %xmm15, %xmm3
	vpbroadcastd	.LCPI28_24(%rip), %xmm4
	vpblendvb	%xmm14, %xmm7, %xmm4, %xmm4
	vpbroadcastd	.LCPI28_25(%rip), %xmm7
	vpblendvb	%xmm0, .LCPI28_17(%rip), %xmm7, %xmm0
	vmovdqa	-16(%rsp), %xmm7
	vpcmpeqb	%xmm4, %xmm2, %xmm4
	vpor	%xmm4, %xmm13, %xmm4
	vpcmpeqb	%xmm0, %xmm2, %xmm0
	vpcmpeqb	%xmm6, %xmm1, %xmm1
	vpor	%xmm3, %xmm1, %xmm1
	vpor	%xmm1, %xmm4, %xmm1
	vpor	%xmm1, %xmm0, %xmm0
	vpmaxub	%xmm0, %xmm7, %xmm7
	vmovdqa	%xmm10, %xmm1
.LBB28_6:
	vpunpcklbw	%xmm5, %xmm1, %xmm0
	movzbl	%r9b, %r10d
	xorl	%r11d, %r11d
	popcntl	%r10d, %r11d
	shll	$4, %r10d
	leaq	.Lstatic.13(%rip), %rbx
	vpshufb	(%r10,%rbx), %xmm0, %xmm0
	vpunpckhbw	%xmm5, %xmm1, %xmm1
	vmovdqu	%xmm0, (%rcx,%r8)
	shrl	$8, %r9d
	xorl	%r10d, %r10d
	popcntl	%r9d, %r10d
	shll	$4, %r9d
	vpshufb	(%r9,%rbx), %xmm1, %xmm0
	leaq	(%rcx,%r8), %r9
	vmovdqu	%xmm0, (%r9,%r11,2)
	addl	%r11d, %r10d
	leaq	(%r8,%r10,2), %r8
	addq	$16, %rdx
	addq	$-16, %rax
	cmpq	$15, %rax
	jbe	.LBB28_1
.LBB28_7:
	vmovdqu	(%rdi,%rdx), %xmm1
	cmpq	$3, %rdx
	jae	.LBB28_8
	testq	%rdx, %rdx
	je	.LBB28_12
	vpbroadcastb	-1(%rdi,%rdx), %xmm2
	vpalignr	$15, %xmm2, %xmm1, %xmm2
	cmpq	$2, %rdx
	jne	.LBB28_13
	movzbl	(%rdi), %r9d
	jmp	.LBB28_14
.LBB28_12:
	vpslldq	$1, %xmm1, %xmm2
.LBB28_13:
	xorl	%r9d, %r9d
.LBB28_14:
	vmovd	%r9d, %xmm3
	vpbroadcastb	%xmm3, %xmm3
	vpalignr	$15, %xmm3, %xmm2, %xmm4
	vpslldq	$1, %xmm4, %xmm3
	vpor	%xmm1, %xmm3, %xmm5
	vpmovmskb	%xmm5, %r9d
	testl	%r9d, %r9d
	jne	.LBB28_5
.LBB28_15:
	vpxor	%xmm5, %xmm5, %xmm5
	movl	$65535, %r9d
	jmp	.LBB28_6
.LBB28_16:
	vpbroadcastb	-17(%rdi,%rsi), %xmm0
	vpalignr	$15, %xmm0, %xmm1, %xmm2
	cmpq	$2, %rax
	jne	.LBB28_18
	movzbl	(%rdi), %r9d
	jmp	.LBB28_19
.LBB28_18:
	xorl	%r9d, %r9d
.LBB28_19:
	vmovd	%r9d, %xmm0
	vpbroadcastb	%xmm0, %xmm0
	vpalignr	$15, %xmm0, %xmm2, %xmm4
	vpslldq	$1, %xmm4, %xmm3
	vpor	%xmm1, %xmm3, %xmm0
	vpmovmskb	%xmm0, %r9d
	testl	%r9d, %r9d
	jne	.LBB28_4
.LBB28_20:
	vpxor	%xmm6, %xmm6, %xmm6
	movl	$65535, %r9d
.LBB28_21:
	subl	%eax, %edx
	vpunpckhbw	%xmm6, %xmm1, %xmm0
	vpunpcklbw	%xmm6, %xmm1, %xmm1
	movq	$-1, %rax
	shlxq	%rdx, %rax, %rax
	andl	%eax, %r9d
	movzbl	%r9b, %eax
	xorl	%edx, %edx
	popcntl	%eax, %edx
	shll	$4, %eax
	leaq	.Lstatic.13(%rip), %r10
	vpshufb	(%rax,%r10), %xmm1, %xmm1
	vmovdqu	%xmm1, (%rcx,%r8)
	addq	%r8, %rcx
	shrl	$8, %r9d
	xorl	%eax, %eax
	popcntl	%r9d, %eax
	shll	$4, %r9d
	vpshufb	(%r9,%r10), %xmm0, %xmm0
	vmovdqu	%xmm0, (%rcx,%rdx,2)
	addl	%edx, %eax
	leaq	(%r8,%rax,2), %r8
.LBB28_22:
	vptest	%xmm7, %xmm7
	je	.LBB28_24
	xorl	%edx, %edx
	xorl	%eax, %eax
	popq	%rbx
	.cfi_def_cfa_offset 8
	retq
.LBB28_24:
	.cfi_def_cfa_offset 16
	cmpb	$-65, -1(%rdi,%rsi)
	jbe	.LBB28_26
	leaq	-1(%rsi), %rax
	jmp	.LBB28_29
.LBB28_26:
	cmpb	$-33, -2(%rdi,%rsi)
	jbe	.LBB28_28
	leaq	-2(%rsi), %rax
	jmp	.LBB28_29
.LBB28_28:
	leaq	-3(%rsi), %rax
	cmpb	$-16, -3(%rdi,%rsi)
	cmovbq	%rsi, %rax
.LBB28_29:
	xorl	%edx, %edx
	cmpq	%rsi, %rax
	setae	%al
	cmovaeq	%r8, %rdx
	popq	%rbx
	.cfi_def_cfa_offset 8
	retq
.Lfunc_end28:
	.size	"utf16_from_utf8::rest::write_rest_of::<#c16de31c8ac190b9>", .Lfunc_end28-"utf16_from_utf8::rest::write_rest_of::<#c16de31c8ac190b9>"
	.cfi_endproc

	.section	.rodata.cst16,"aM",@progbits,16
	.p2align	4, 0x0
.LCPI29_0:
	.zero	16,192
.LCPI29_1:
	.zero	16,191
.LCPI29_2:
	.zero	16,223
.LCPI29_3:
	.zero	16,239
.LCPI29_4:
	.zero	16,159
.LCPI29_5:
	.zero	16,237
.LCPI29_6:
	.zero	16,224
.LCPI29_7:
	.zero	16,143
.LCPI29_8:
	.zero	16,245
.LCPI29_9:
	.zero	16,244
.LCPI29_10:
	.zero	16,240
.LCPI29_11:
	.zero	16,254
.LCPI29_12:
	.zero	16,15
.LCPI29_13:
	.zero	16,220
.LCPI29_14:
	.zero	16,252
.LCPI29_15:
	.zero	16,3
.LCPI29_16:
	.zero	16,63
.LCPI29_17:
	.zero	16,232
.LCPI29_18:
	.zero	16,127
.LCPI29_19:
	.byte	1
	.byte	2
	.byte	3
	.byte	4
	.byte	5
	.byte	6
	.byte	7
	.byte	8
	.byte	9
	.byte	10
	.byte	11
	.byte	12
	.byte	13
	.byte	14
	.byte	15
	.byte	16
	.section	.rodata.cst4,"aM",@progbits,4
	.p2align	2, 0x0
.LCPI29_20:
	.zero	4,192
.LCPI29_21:
	.zero	4,237
.LCPI29_22:
	.zero	4,244
.LCPI29_23:
	.zero	4,191
.LCPI29_24:
	.zero	4,15
	.section	".text.utf16_transcode::transcoding::transcode_many::<#58ba01604e1c9b81>","ax",@progbits
	.p2align	4
	.type	"utf16_transcode::transcoding::transcode_many::<#58ba01604e1c9b81>",@function
"utf16_transcode::transcoding::transcode_many::<#58ba01604e1c9b81>":
	.cfi_startproc
	pushq	%rbp
	.cfi_def_cfa_offset 16
	pushq	%r15
	.cfi_def_cfa_offset 24
	pushq	%r14
	.cfi_def_cfa_offset 32
	pushq	%r13
	.cfi_def_cfa_offset 40
	pushq	%r12
	.cfi_def_cfa_offset 48
	pushq	%rbx
	.cfi_def_cfa_offset 56
	subq	$344, %rsp
	.cfi_def_cfa_offset 400
	.cfi_offset %rbx, -56
	.cfi_offset %r12, -48
	.cfi_offset %r13, -40
	.cfi_offset %r14, -32
	.cfi_offset %r15, -24
	.cfi_offset %rbp, -16
	movq	%r9, %r12
	movq	%r8, %r10
	movq	%rcx, (%rsp)
	movq	%rdx, %r8
	movq	400(%rsp), %r14
	movzbl	(%rsi,%r9), %ecx
	testb	%cl, %cl
	movq	%r10, 8(%rsp)
	movq	%rdx, 16(%rsp)
	js	.LBB29_191
.LBB29_1:
	movq	%rdi, 56(%rsp)
	cmpq	%r12, %r8
	movq	(%rsp), %r11
	movq	%rsi, 24(%rsp)
	ja	.LBB29_5
.LBB29_2:
	movq	56(%rsp), %rax
	movq	%r12, (%rax)
	movq	%r14, 8(%rax)
	movw	$0, 16(%rax)
	jmp	.LBB29_229
	.p2align	4
.LBB29_3:
	leal	67043328(%rax), %edx
	shrl	$10, %edx
	addl	$-10240, %edx
	andl	$1023, %eax
	orl	$56320, %eax
	movw	%ax, 2(%r11,%r14)
	movl	$4, %ecx
	movl	%edx, %eax
.LBB29_4:
	movw	%ax, (%r11,%r14)
	addq	%rcx, %r14
	addq	%rbx, %r12
	cmpq	%r8, %r12
	jae	.LBB29_2
.LBB29_5:
	leaq	(%rsi,%r12), %r13
	movq	%r8, %rbx
	subq	%r12, %rbx
	cmpq	$16, %rbx
	jb	.LBB29_9
	leaq	(%r11,%r14), %rbp
	movq	%r10, %r15
	subq	%r14, %r15
	cmpq	$16, %rbx
	jne	.LBB29_10
	cmpq	$32, %r15
	jae	.LBB29_12
	xorl	%r9d, %r9d
	xorl	%eax, %eax
	jmp	.LBB29_32
	.p2align	4
.LBB29_9:
	xorl	%eax, %eax
	movq	%rbx, %rbp
	subq	%rax, %rbp
	jne	.LBB29_34
	jmp	.LBB29_126
	.p2align	4
.LBB29_10:
	movq	%r15, %rsi
	shrq	%rsi
	cmpq	%rbx, %rsi
	cmovaeq	%rbx, %rsi
	cmpq	$16, %rsi
	jb	.LBB29_11
	vmovdqu	(%r13), %xmm0
	vpmovmskb	%xmm0, %eax
	testl	%eax, %eax
	je	.LBB29_21
.LBB29_11:
	xorl	%eax, %eax
.LBB29_25:
	leaq	(%rax,%rax), %r9
	movq	%rbx, %rcx
	subq	%rax, %rcx
	je	.LBB29_32
	movq	%rax, %r8
	movq	%r13, %rdi
	movq	%rbx, %rsi
	cmpq	$191, %rcx
	ja	.LBB29_28
	movq	%rbp, %rdx
	jmp	.LBB29_30
.LBB29_12:
	vmovdqu	(%r13), %xmm0
	vpmovmskb	%xmm0, %eax
	testl	%eax, %eax
	movq	24(%rsp), %rsi
	je	.LBB29_20
	vmovq	8(%r13), %xmm1
	vpextrb	$5, %xmm1, %eax
	xorl	%r9d, %r9d
	cmpb	$-17, %al
	ja	.LBB29_74
	vpextrb	$7, %xmm1, %eax
	cmpb	$-65, %al
	ja	.LBB29_74
	vpextrb	$6, %xmm1, %ecx
	movl	$0, %eax
	cmpb	$-33, %cl
	ja	.LBB29_33
	vpslldq	$1, %xmm0, %xmm1
	vpslldq	$2, %xmm0, %xmm3
	vpslldq	$3, %xmm0, %xmm4
	vpbroadcastd	.LCPI29_20(%rip), %xmm2
	vpsubusb	.LCPI29_1(%rip), %xmm1, %xmm5
	vpsubusb	.LCPI29_2(%rip), %xmm3, %xmm6
	vpcmpgtb	%xmm0, %xmm2, %xmm7
	vpmaxub	%xmm6, %xmm5, %xmm5
	vpsubusb	.LCPI29_3(%rip), %xmm4, %xmm4
	vpor	%xmm4, %xmm5, %xmm4
	vpminub	.LCPI29_4(%rip), %xmm0, %xmm5
	vpcmpeqb	%xmm5, %xmm0, %xmm5
	vpbroadcastd	.LCPI29_21(%rip), %xmm6
	vpblendvb	%xmm5, .LCPI29_6(%rip), %xmm6, %xmm5
	vpxor	%xmm6, %xmm6, %xmm6
	vpcmpgtb	%xmm6, %xmm4, %xmm4
	vpminub	.LCPI29_7(%rip), %xmm0, %xmm6
	vpxor	%xmm4, %xmm7, %xmm4
	vpcmpeqb	%xmm6, %xmm0, %xmm6
	vpmaxub	.LCPI29_8(%rip), %xmm0, %xmm7
	vpbroadcastd	.LCPI29_22(%rip), %xmm8
	vpblendvb	%xmm6, .LCPI29_10(%rip), %xmm8, %xmm6
	vpcmpeqb	%xmm5, %xmm1, %xmm5
	vpcmpeqb	%xmm7, %xmm0, %xmm7
	vpcmpeqb	%xmm6, %xmm1, %xmm6
	vpor	%xmm5, %xmm6, %xmm5
	vpor	%xmm7, %xmm5, %xmm5
	vpand	.LCPI29_11(%rip), %xmm0, %xmm6
	vpcmpeqb	%xmm2, %xmm6, %xmm6
	vpor	%xmm4, %xmm6, %xmm4
	vpor	%xmm4, %xmm5, %xmm4
	vpmovmskb	%xmm4, %eax
	testl	%eax, %eax
	je	.LBB29_77
	xorl	%r9d, %r9d
	xorl	%eax, %eax
	jmp	.LBB29_33
.LBB29_28:
	movq	%rbp, %rdx
	movq	%r15, %rcx
	vzeroupper
	callq	"utf16_from_utf8::blocks::write_mixed_blocks::<#418c2b53cf60437c>"
	movq	%rdx, %r9
	movq	%rbx, %rcx
	subq	%rax, %rcx
	cmpq	$191, %rcx
	ja	.LBB29_31
	movq	%r13, %rdi
	movq	%rbx, %rsi
	movq	%rbp, %rdx
	movq	%rax, %r8
.LBB29_30:
	movq	%r15, %rcx
	vzeroupper
	callq	"utf16_from_utf8::rest::write_rest::<#418c2b53cf60437c>"
	movq	%rdx, %r9
.LBB29_31:
	movq	8(%rsp), %r10
	movq	16(%rsp), %r8
	movq	(%rsp), %r11
.LBB29_32:
	movq	24(%rsp), %rsi
.LBB29_33:
	addq	%r9, %r14
	movq	%rbx, %rbp
	subq	%rax, %rbp
	je	.LBB29_126
.LBB29_34:
	movq	%rax, 32(%rsp)
	addq	%rax, %r13
	cmpq	$7, %rbp
	ja	.LBB29_36
	movq	%r13, %rdi
	movq	%rbp, %rsi
	movq	%r11, %rdx
	movq	%r10, %rcx
	movq	%r14, %r8
	vzeroupper
	callq	"utf16_transcode::transcoding::write_chars::<#58ba01604e1c9b81>"
	movq	(%rsp), %r11
	movq	16(%rsp), %r8
	movq	8(%rsp), %r10
	movq	%rax, %rbx
	movq	%rdx, %r15
	jmp	.LBB29_46
	.p2align	4
.LBB29_36:
	cmpq	$128, %rbp
	movl	$128, %r15d
	cmovbq	%rbp, %r15
	movq	%r10, %r9
	subq	%r14, %r9
	xorl	%eax, %eax
	movq	%r9, %rcx
	subq	$16, %rcx
	cmovaeq	%rcx, %rax
	shrq	%rax
	cmpq	%rax, %r15
	jbe	.LBB29_39
	cmpq	$23, %r9
	ja	.LBB29_41
.LBB29_38:
	movq	%r13, %rdi
	movq	%rbp, %rsi
	movq	%r11, %rdx
	movq	%r10, %rcx
	movq	%r14, %r8
	vzeroupper
	callq	"utf16_transcode::transcoding::write_chars::<#58ba01604e1c9b81>"
	jmp	.LBB29_44
.LBB29_39:
	cmpq	$63, %rbp
	ja	.LBB29_47
	movq	%r13, %rdi
	movq	%r15, %rsi
	vzeroupper
	callq	"utf16_transcode::encode::valid_prefix"
	movq	%rax, %rbx
	jmp	.LBB29_49
.LBB29_41:
	vpxor	%xmm0, %xmm0, %xmm0
	vmovdqu	%ymm0, 308(%rsp)
	vmovdqu	%ymm0, 288(%rsp)
	vmovdqu	%ymm0, 256(%rsp)
	vmovdqu	%ymm0, 224(%rsp)
	vmovdqu	%ymm0, 192(%rsp)
	vmovdqu	%ymm0, 160(%rsp)
	vmovdqu	%ymm0, 128(%rsp)
	vmovdqu	%ymm0, 96(%rsp)
	vmovdqu	%ymm0, 64(%rsp)
	cmpq	$15, %rbp
	ja	.LBB29_65
	leaq	64(%rsp), %rdx
	movq	%r13, %rdi
	movq	%rbp, %rsi
	movq	%r11, %rcx
	movq	%r10, %r8
	movq	%r14, %r9
.LBB29_43:
	vzeroupper
	callq	"utf16_transcode::transcoding::write_buffered_text::<#58ba01604e1c9b81>"
.LBB29_44:
	movq	%rax, %rbx
	movq	%rdx, %r15
.LBB29_45:
	movq	8(%rsp), %r10
	movq	16(%rsp), %r8
	movq	(%rsp), %r11
.LBB29_46:
	movq	32(%rsp), %rax
	jmp	.LBB29_125
.LBB29_47:
	movl	$63, %esi
	movq	%r13, %rdi
	vzeroupper
	callq	"utf16_transcode::encode::valid_prefix"
	movq	%rax, %rbx
	addq	$4, %rax
	cmpq	$64, %rax
	jb	.LBB29_49
	leaq	(%rbx,%r13), %rdi
	subq	%rbx, %r15
	movq	%r15, %rsi
	callq	"utf16_transcode::encode::valid_prefix"
	addq	%rax, %rbx
.LBB29_49:
	testq	%rbx, %rbx
	je	.LBB29_61
	movq	(%rsp), %r11
	leaq	(%r11,%r14), %rbp
	cmpq	$7, %rbx
	movq	8(%rsp), %r10
	movq	16(%rsp), %r8
	ja	.LBB29_62
	xorl	%r9d, %r9d
	movq	%rbx, %rax
	jmp	.LBB29_52
.LBB29_60:
	addl	$67043328, %ecx
	shrl	$10, %ecx
	addl	$-10240, %ecx
	movw	%cx, (%rdi)
	orl	$56320, %esi
	movw	%si, 2(%rdi)
	movl	$4, %ecx
	addq	%rcx, %r9
	testq	%rax, %rax
	je	.LBB29_123
	.p2align	4
.LBB29_52:
	movzbl	(%r13), %ecx
	movl	$1, %esi
	testb	%cl, %cl
	jns	.LBB29_57
	movzbl	1(%r13), %edx
	andl	$63, %edx
	cmpb	$-33, %cl
	ja	.LBB29_55
	andl	$31, %ecx
	shll	$6, %ecx
	orl	%edx, %ecx
	movl	$2, %esi
	jmp	.LBB29_57
.LBB29_55:
	movzbl	2(%r13), %esi
	andl	$63, %esi
	cmpb	$-17, %cl
	ja	.LBB29_59
	shll	$12, %ecx
	movzwl	%cx, %ecx
	shll	$6, %edx
	orl	%ecx, %edx
	orl	%esi, %edx
	movl	$3, %esi
	movl	%edx, %ecx
	.p2align	4
.LBB29_57:
	addq	%rsi, %r13
	subq	%rsi, %rax
	leaq	(%r9,%rbp), %rdi
.LBB29_58:
	movw	%cx, (%rdi)
	movl	$2, %ecx
	addq	%rcx, %r9
	testq	%rax, %rax
	jne	.LBB29_52
	jmp	.LBB29_123
.LBB29_59:
	movzbl	3(%r13), %edi
	andl	$63, %edi
	andl	$7, %ecx
	shll	$18, %ecx
	shll	$12, %edx
	orl	%ecx, %edx
	shll	$6, %esi
	orl	%edi, %esi
	leal	(%rsi,%rdx), %ecx
	addq	$4, %r13
	addq	$-4, %rax
	leaq	(%r9,%rbp), %rdi
	cmpl	$65535, %edx
	jbe	.LBB29_58
	jmp	.LBB29_60
.LBB29_21:
	cmpq	$31, %rsi
	ja	.LBB29_24
	vpmovzxbw	%xmm0, %ymm0
	vmovdqu	%ymm0, (%rbp)
	vmovdqu	-16(%rsi,%r13), %xmm0
	vpmovmskb	%xmm0, %ecx
	movl	$16, %eax
	testl	%ecx, %ecx
	jne	.LBB29_25
	vpmovzxbw	%xmm0, %ymm0
	vmovdqu	%ymm0, -32(%rbp,%rsi,2)
	movq	%rsi, %rax
	jmp	.LBB29_25
.LBB29_20:
	vpmovzxbw	%xmm0, %ymm0
	vmovdqu	%ymm0, (%rbp)
	movl	$16, %eax
	movl	$32, %r9d
	jmp	.LBB29_33
.LBB29_61:
	movq	8(%rsp), %r10
	movq	16(%rsp), %r8
	movq	(%rsp), %r11
	jmp	.LBB29_124
.LBB29_62:
	cmpq	$16, %rbx
	ja	.LBB29_75
	vmovq	-8(%r13,%rbx), %xmm0
	vmovq	(%r13), %xmm1
	vpunpcklqdq	%xmm0, %xmm1, %xmm0
	movq	%rbx, %rax
	shlq	$4, %rax
	leaq	.Lstatic.11(%rip), %rcx
	vpshufb	-128(%rax,%rcx), %xmm0, %xmm0
	vpmovmskb	%xmm0, %eax
	testl	%eax, %eax
	je	.LBB29_93
	leaq	.Lstatic.12(%rip), %rax
	subq	%rbx, %rax
	vpmaxub	16(%rax), %xmm0, %xmm1
	vpslldq	$1, %xmm1, %xmm0
	vpbroadcastd	.LCPI29_20(%rip), %xmm3
	vpblendvb	%xmm1, %xmm0, %xmm3, %xmm4
	vpslldq	$2, %xmm1, %xmm5
	vpbroadcastd	.LCPI29_23(%rip), %xmm2
	vpmaxub	.LCPI29_6(%rip), %xmm5, %xmm6
	vpsrlw	$2, %xmm4, %xmm7
	vpbroadcastd	.LCPI29_24(%rip), %xmm8
	vpand	%xmm7, %xmm8, %xmm7
	vpsllw	$4, %xmm6, %xmm6
	vpandn	%xmm6, %xmm8, %xmm6
	vpor	%xmm6, %xmm7, %xmm6
	vpmaxub	%xmm5, %xmm4, %xmm7
	vpminub	%xmm2, %xmm7, %xmm8
	vpcmpeqb	%xmm7, %xmm8, %xmm7
	vpand	.LCPI29_13(%rip), %xmm7, %xmm7
	vpor	%xmm7, %xmm6, %xmm6
	vpsllw	$2, %xmm0, %xmm7
	vpand	.LCPI29_14(%rip), %xmm7, %xmm7
	vpsrlw	$4, %xmm1, %xmm8
	vpand	.LCPI29_15(%rip), %xmm8, %xmm8
	vpminub	.LCPI29_16(%rip), %xmm7, %xmm9
	vpcmpeqb	%xmm7, %xmm9, %xmm9
	vpaddb	%xmm5, %xmm9, %xmm9
	vpaddb	.LCPI29_17(%rip), %xmm9, %xmm9
	vpor	%xmm7, %xmm8, %xmm7
	vpminub	.LCPI29_3(%rip), %xmm5, %xmm8
	vpcmpeqb	%xmm5, %xmm8, %xmm5
	vpblendvb	%xmm5, %xmm6, %xmm9, %xmm6
	vpand	.LCPI29_18(%rip), %xmm1, %xmm8
	vpaddb	%xmm3, %xmm7, %xmm7
	vpsllw	$6, %xmm4, %xmm4
	vpand	%xmm3, %xmm4, %xmm3
	vpaddb	%xmm3, %xmm8, %xmm3
	vpblendvb	%xmm5, %xmm3, %xmm7, %xmm3
	vpunpcklbw	%xmm6, %xmm3, %xmm4
	vpminub	%xmm2, %xmm1, %xmm2
	vpcmpeqb	%xmm2, %xmm1, %xmm1
	vpminub	.LCPI29_2(%rip), %xmm0, %xmm2
	vpcmpeqb	%xmm2, %xmm0, %xmm0
	vpand	%xmm0, %xmm1, %xmm0
	vpmovmskb	%xmm0, %eax
	movzbl	%al, %ecx
	popcntl	%ecx, %edx
	shll	$4, %ecx
	leaq	.Lstatic.13(%rip), %rsi
	vpshufb	(%rcx,%rsi), %xmm4, %xmm0
	vpunpckhbw	%xmm6, %xmm3, %xmm1
	vmovdqu	%xmm0, (%rbp)
	shrl	$8, %eax
	popcntl	%eax, %r9d
	shll	$4, %eax
	vpshufb	(%rax,%rsi), %xmm1, %xmm0
	vmovdqu	%xmm0, (%rbp,%rdx,2)
	addl	%edx, %r9d
	addl	%r9d, %r9d
	jmp	.LBB29_123
.LBB29_65:
	movzbl	(%r13), %ecx
	movl	$1, %eax
	testb	%cl, %cl
	js	.LBB29_78
.LBB29_66:
	movzbl	(%r13,%rax), %ecx
	testb	%cl, %cl
	js	.LBB29_84
.LBB29_67:
	xorl	%esi, %esi
	cmpq	$65, %r9
	setae	%sil
	shll	$6, %esi
	addq	$66, %rsi
	cmpq	%rbp, %rsi
	cmovaeq	%rbp, %rsi
	cmpq	$16, %rbp
	jne	.LBB29_87
	vmovq	-8(%r13,%rsi), %xmm1
	vmovq	(%r13), %xmm0
	vpunpcklqdq	%xmm1, %xmm0, %xmm0
	movq	%rsi, %rax
	shlq	$4, %rax
	leaq	.Lstatic.11(%rip), %rcx
	vpshufb	-128(%rax,%rcx), %xmm0, %xmm0
	vpmovmskb	%xmm0, %eax
	testl	%eax, %eax
	je	.LBB29_105
	vpextrb	$5, %xmm1, %eax
	xorl	%r15d, %r15d
	cmpb	$-17, %al
	ja	.LBB29_164
	vpextrb	$7, %xmm1, %eax
	cmpb	$-65, %al
	ja	.LBB29_164
	vpextrb	$6, %xmm1, %eax
	movl	$0, %ebx
	cmpb	$-33, %al
	ja	.LBB29_165
	vpslldq	$1, %xmm0, %xmm1
	vpslldq	$2, %xmm0, %xmm3
	vpslldq	$3, %xmm0, %xmm4
	vpbroadcastd	.LCPI29_20(%rip), %xmm2
	vpcmpgtb	%xmm0, %xmm2, %xmm5
	vpsubusb	.LCPI29_1(%rip), %xmm1, %xmm6
	vpsubusb	.LCPI29_2(%rip), %xmm3, %xmm7
	vpsubusb	.LCPI29_3(%rip), %xmm4, %xmm4
	vpmaxub	%xmm7, %xmm6, %xmm6
	vpor	%xmm4, %xmm6, %xmm4
	vpxor	%xmm6, %xmm6, %xmm6
	vpcmpgtb	%xmm6, %xmm4, %xmm4
	vpxor	%xmm4, %xmm5, %xmm4
	vpminub	.LCPI29_4(%rip), %xmm0, %xmm5
	vpcmpeqb	%xmm5, %xmm0, %xmm5
	vpbroadcastd	.LCPI29_21(%rip), %xmm6
	vpblendvb	%xmm5, .LCPI29_6(%rip), %xmm6, %xmm5
	vpcmpeqb	%xmm5, %xmm1, %xmm5
	vpminub	.LCPI29_7(%rip), %xmm0, %xmm6
	vpcmpeqb	%xmm6, %xmm0, %xmm6
	vpmaxub	.LCPI29_8(%rip), %xmm0, %xmm7
	vpcmpeqb	%xmm7, %xmm0, %xmm7
	vpbroadcastd	.LCPI29_22(%rip), %xmm8
	vpblendvb	%xmm6, .LCPI29_10(%rip), %xmm8, %xmm6
	vpcmpeqb	%xmm6, %xmm1, %xmm6
	vpor	%xmm5, %xmm6, %xmm5
	vpor	%xmm7, %xmm5, %xmm5
	vpand	.LCPI29_11(%rip), %xmm0, %xmm6
	vpcmpeqb	%xmm2, %xmm6, %xmm6
	vpor	%xmm4, %xmm6, %xmm4
	vpor	%xmm4, %xmm5, %xmm4
	vmovd	%esi, %xmm5
	vpbroadcastb	%xmm5, %xmm5
	vpmaxub	.LCPI29_19(%rip), %xmm5, %xmm6
	vpcmpeqb	%xmm6, %xmm5, %xmm5
	vpsllw	$7, %xmm4, %xmm4
	vpand	%xmm4, %xmm5, %xmm4
	vpmovmskb	%xmm4, %eax
	testl	%eax, %eax
	je	.LBB29_163
	xorl	%r15d, %r15d
.LBB29_164:
	xorl	%ebx, %ebx
	jmp	.LBB29_165
.LBB29_74:
	xorl	%eax, %eax
	jmp	.LBB29_33
.LBB29_24:
	movq	%r13, %rdi
	movq	%rbp, %rdx
	vzeroupper
	callq	"utf16_from_utf8::ascii::write_front::<#418c2b53cf60437c>"
	movq	(%rsp), %r11
	movq	16(%rsp), %r8
	movq	8(%rsp), %r10
	jmp	.LBB29_25
.LBB29_75:
	leaq	16(,%rbx,2), %r15
	movq	%r15, %rsi
	shrq	%rsi
	cmpq	%rbx, %rsi
	cmovaeq	%rbx, %rsi
	cmpq	$32, %r15
	jb	.LBB29_76
	vmovdqu	(%r13), %xmm0
	vpmovmskb	%xmm0, %eax
	testl	%eax, %eax
	je	.LBB29_102
.LBB29_76:
	xorl	%r8d, %r8d
.LBB29_115:
	leaq	(%r8,%r8), %r9
	movq	%rbx, %rax
	subq	%r8, %rax
	jne	.LBB29_117
	movq	16(%rsp), %r8
	jmp	.LBB29_123
.LBB29_77:
	vpblendvb	%xmm0, %xmm1, %xmm2, %xmm5
	vpbroadcastd	.LCPI29_23(%rip), %xmm4
	vpmaxub	.LCPI29_6(%rip), %xmm3, %xmm6
	vpsrlw	$2, %xmm5, %xmm7
	vpbroadcastd	.LCPI29_24(%rip), %xmm8
	vpand	%xmm7, %xmm8, %xmm7
	vpsllw	$4, %xmm6, %xmm6
	vpandn	%xmm6, %xmm8, %xmm6
	vpmaxub	%xmm3, %xmm5, %xmm8
	vpminub	%xmm4, %xmm8, %xmm9
	vpcmpeqb	%xmm9, %xmm8, %xmm8
	vpand	.LCPI29_13(%rip), %xmm8, %xmm8
	vpor	%xmm6, %xmm7, %xmm6
	vpsllw	$2, %xmm1, %xmm7
	vpand	.LCPI29_14(%rip), %xmm7, %xmm7
	vpor	%xmm6, %xmm8, %xmm6
	vpsrlw	$4, %xmm0, %xmm8
	vpand	.LCPI29_15(%rip), %xmm8, %xmm8
	vpminub	.LCPI29_16(%rip), %xmm7, %xmm9
	vpcmpeqb	%xmm7, %xmm9, %xmm9
	vpaddb	%xmm3, %xmm9, %xmm9
	vpaddb	.LCPI29_17(%rip), %xmm9, %xmm9
	vpminub	.LCPI29_3(%rip), %xmm3, %xmm10
	vpor	%xmm7, %xmm8, %xmm7
	vpcmpeqb	%xmm3, %xmm10, %xmm3
	vpblendvb	%xmm3, %xmm6, %xmm9, %xmm6
	vpaddb	%xmm2, %xmm7, %xmm7
	vpand	.LCPI29_18(%rip), %xmm0, %xmm8
	vpsllw	$6, %xmm5, %xmm5
	vpand	%xmm2, %xmm5, %xmm2
	vpaddb	%xmm2, %xmm8, %xmm2
	vpblendvb	%xmm3, %xmm2, %xmm7, %xmm2
	vpunpcklbw	%xmm6, %xmm2, %xmm3
	vpminub	.LCPI29_2(%rip), %xmm1, %xmm5
	vpcmpeqb	%xmm5, %xmm1, %xmm1
	vpminub	%xmm4, %xmm0, %xmm4
	vpcmpeqb	%xmm4, %xmm0, %xmm0
	vpand	%xmm1, %xmm0, %xmm0
	vpmovmskb	%xmm0, %eax
	movzbl	%al, %ecx
	popcntl	%ecx, %edx
	shll	$4, %ecx
	leaq	.Lstatic.13(%rip), %rdi
	vpshufb	(%rcx,%rdi), %xmm3, %xmm0
	vmovdqu	%xmm0, (%rbp)
	vpunpckhbw	%xmm6, %xmm2, %xmm0
	shrl	$8, %eax
	popcntl	%eax, %r9d
	shll	$4, %eax
	vpshufb	(%rax,%rdi), %xmm0, %xmm0
	vmovdqu	%xmm0, (%rbp,%rdx,2)
	addl	%edx, %r9d
	addl	%r9d, %r9d
	movl	$16, %eax
	jmp	.LBB29_33
.LBB29_78:
	cmpb	$-31, %cl
	jae	.LBB29_94
	movzbl	1(%r13), %edx
	movl	%ecx, %eax
	shrb	$4, %al
	andb	$12, %al
	movl	%edx, %esi
	shrb	$6, %sil
	orb	%al, %sil
	cmpb	$14, %sil
	jne	.LBB29_38
	leal	62(%rcx), %esi
	movl	$2, %eax
	cmpb	$30, %sil
	jb	.LBB29_66
	jmp	.LBB29_111
.LBB29_117:
	cmpq	$191, %rax
	ja	.LBB29_119
	movq	%r13, %rdi
	movq	%rbx, %rsi
	movq	%rbp, %rdx
	movq	%r15, %rcx
	jmp	.LBB29_121
.LBB29_84:
	leal	31(%rcx), %esi
	movzbl	1(%r13,%rax), %edx
	cmpb	$11, %sil
	ja	.LBB29_97
	cmpb	$-65, %dl
	jg	.LBB29_38
	cmpb	$-64, 2(%r13,%rax)
	jge	.LBB29_38
	jmp	.LBB29_67
.LBB29_87:
	vmovdqu	(%r13), %xmm0
	vpmovmskb	%xmm0, %eax
	testl	%eax, %eax
	je	.LBB29_106
	xorl	%r15d, %r15d
	xorl	%ebx, %ebx
.LBB29_89:
	movq	%r9, 40(%rsp)
	movq	%rsi, %rax
	subq	%rbx, %rax
	cmpq	$191, %rax
	jbe	.LBB29_91
	leaq	64(%rsp), %rdx
	movl	$276, %ecx
	movq	%r13, %rdi
	movq	%rsi, 48(%rsp)
	movq	48(%rsp), %rsi
	movq	%rbx, %r8
	movq	%r15, %r9
	vzeroupper
	callq	"utf16_from_utf8::blocks::write_mixed_blocks::<#418c2b53cf60437c>"
	movq	48(%rsp), %rsi
	movq	%rax, %rbx
	movq	%rdx, %r15
	movq	%rsi, %rax
	subq	%rbx, %rax
	cmpq	$191, %rax
	ja	.LBB29_92
.LBB29_91:
	leaq	64(%rsp), %rdx
	movl	$276, %ecx
	movq	%r13, %rdi
	movq	%rbx, %r8
	movq	%r15, %r9
	vzeroupper
	callq	"utf16_from_utf8::rest::write_rest::<#418c2b53cf60437c>"
	movq	%rax, %rbx
	movq	%rdx, %r15
.LBB29_92:
	movq	(%rsp), %r11
	movq	40(%rsp), %r9
	jmp	.LBB29_165
.LBB29_93:
	leaq	(%rbx,%rbx), %r9
	vpmovzxbw	%xmm0, %ymm0
	vmovdqu	%ymm0, (%rbp)
	jmp	.LBB29_123
.LBB29_94:
	movzbl	1(%r13), %edx
	cmpb	$-20, %cl
	ja	.LBB29_109
	cmpb	$-65, %dl
	jg	.LBB29_38
	movl	$3, %eax
	cmpb	$-64, 2(%r13)
	jge	.LBB29_38
	jmp	.LBB29_66
.LBB29_119:
	movq	%r13, %rdi
	movq	%rbx, %rsi
	movq	%rbp, %rdx
	movq	%r15, %rcx
	vzeroupper
	callq	"utf16_from_utf8::blocks::write_mixed_blocks::<#418c2b53cf60437c>"
	movq	%rdx, %r9
	movq	%rbx, %rcx
	subq	%rax, %rcx
	cmpq	$191, %rcx
	ja	.LBB29_122
	movq	%r13, %rdi
	movq	%rbx, %rsi
	movq	%rbp, %rdx
	movq	%r15, %rcx
	movq	%rax, %r8
.LBB29_121:
	vzeroupper
	callq	"utf16_from_utf8::rest::write_rest::<#418c2b53cf60437c>"
	movq	%rdx, %r9
.LBB29_122:
	movq	8(%rsp), %r10
	movq	16(%rsp), %r8
	movq	(%rsp), %r11
.LBB29_123:
	addq	%r9, %r14
.LBB29_124:
	movq	32(%rsp), %rax
	movq	%r14, %r15
.LBB29_125:
	addq	%rax, %rbx
	movq	%r15, %r14
	movq	24(%rsp), %rsi
.LBB29_126:
	addq	%r12, %rbx
	movq	%r8, %rdx
	subq	%rbx, %rdx
	je	.LBB29_203
	movzbl	(%rsi,%rbx), %eax
	testb	%al, %al
	js	.LBB29_132
	movl	$1, %r12d
.LBB29_129:
	movq	%r10, %rcx
	subq	%r14, %rcx
	xorl	%edx, %edx
	cmpl	$65536, %eax
	setae	%dl
	leaq	2(,%rdx,2), %rdx
	cmpq	%rdx, %rcx
	jb	.LBB29_204
	cmpl	$65535, %eax
	ja	.LBB29_3
	movl	$2, %ecx
	jmp	.LBB29_4
	.p2align	4
.LBB29_132:
	cmpq	$3, %rdx
	jb	.LBB29_137
	leal	31(%rax), %ecx
	cmpb	$11, %cl
	ja	.LBB29_138
	movzbl	1(%rsi,%rbx), %ecx
	cmpb	$-65, %cl
	jg	.LBB29_138
	movzbl	2(%rsi,%rbx), %edi
	cmpb	$-65, %dil
	jg	.LBB29_138
	shll	$12, %eax
	shll	$6, %ecx
	addl	%eax, %ecx
	leal	(%rdi,%rcx), %eax
	addl	$-925824, %eax
	movl	$3, %r12d
	jmp	.LBB29_129
.LBB29_137:
	cmpq	$2, %rdx
	jne	.LBB29_216
.LBB29_138:
	movzbl	1(%rsi,%rbx), %r15d
	movl	%eax, %ecx
	shrb	$4, %cl
	andb	$12, %cl
	movl	%r15d, %edi
	shrb	$6, %dil
	orb	%cl, %dil
	movb	$1, %cl
	cmpb	$14, %dil
	jne	.LBB29_227
	leal	31(%rax), %edi
	cmpb	$12, %dil
	jae	.LBB29_144
.LBB29_140:
	cmpq	$2, %rdx
	je	.LBB29_214
	movzbl	2(%rsi,%rbx), %edi
	cmpb	$-65, %dil
	jg	.LBB29_215
	cmpb	$-17, %al
	ja	.LBB29_148
	shll	$12, %eax
	shll	$6, %r15d
	addl	%eax, %r15d
	leal	(%rdi,%r15), %eax
	addl	$-925824, %eax
	movl	$3, %r12d
	jmp	.LBB29_129
.LBB29_144:
	leal	62(%rax), %edi
	cmpb	$30, %dil
	jb	.LBB29_159
	movb	$-65, %r8b
	leal	-224(%rax), %r9d
	cmpl	$20, %r9d
	ja	.LBB29_154
	leaq	.LJTI29_3(%rip), %r10
	movslq	(%r10,%r9,4), %r9
	addq	%r10, %r9
	movq	8(%rsp), %r10
	notrack jmpq	*%r9
.LBB29_147:
	movb	$-96, %r9b
	jmp	.LBB29_155
.LBB29_148:
	cmpq	$4, %rdx
	jb	.LBB29_214
	movzbl	3(%rsi,%rbx), %edx
	cmpb	$-65, %dl
	jg	.LBB29_217
	shll	$18, %eax
	shll	$12, %r15d
	addl	%eax, %r15d
	shll	$6, %edi
	addl	%r15d, %edi
	leal	(%rdx,%rdi), %eax
	addl	$-63447168, %eax
	movl	$4, %r12d
	jmp	.LBB29_129
.LBB29_151:
	movb	$-112, %r9b
	jmp	.LBB29_155
.LBB29_152:
	movb	$-97, %r8b
	jmp	.LBB29_154
.LBB29_153:
	movb	$-113, %r8b
.LBB29_154:
	movb	$-128, %r9b
.LBB29_155:
	cmpb	$50, %dil
	ja	.LBB29_227
	cmpb	%r15b, %r9b
	ja	.LBB29_227
	cmpb	%r8b, %r15b
	ja	.LBB29_227
	cmpb	$-33, %al
	movq	16(%rsp), %r8
	ja	.LBB29_140
.LBB29_159:
	shll	$6, %eax
	addl	%r15d, %eax
	addl	$-12416, %eax
	movl	$2, %r12d
	jmp	.LBB29_129
.LBB29_97:
	movl	%ecx, %esi
	shrb	$4, %sil
	andb	$12, %sil
	movl	%edx, %edi
	shrb	$6, %dil
	orb	%sil, %dil
	cmpb	$14, %dil
	jne	.LBB29_38
	leal	62(%rcx), %esi
	cmpb	$30, %sil
	jb	.LBB29_67
	movb	$-65, %dil
	leal	-224(%rcx), %r8d
	cmpl	$20, %r8d
	ja	.LBB29_183
	movq	%r9, %rbx
	leaq	.LJTI29_2(%rip), %r9
	movslq	(%r9,%r8,4), %r8
	addq	%r9, %r8
	movq	%rbx, %r9
	notrack jmpq	*%r8
.LBB29_101:
	movb	$-96, %r8b
	jmp	.LBB29_184
.LBB29_102:
	cmpq	$31, %rsi
	ja	.LBB29_114
	vpmovzxbw	%xmm0, %ymm0
	vmovdqu	%ymm0, (%rbp)
	vmovdqu	-16(%rsi,%r13), %xmm0
	vpmovmskb	%xmm0, %eax
	movl	$16, %r8d
	testl	%eax, %eax
	jne	.LBB29_115
	vpmovzxbw	%xmm0, %ymm0
	vmovdqu	%ymm0, -32(%rbp,%rsi,2)
	movq	%rsi, %r8
	jmp	.LBB29_115
.LBB29_105:
	vpmovzxbw	%xmm0, %ymm0
	vmovdqu	%ymm0, 64(%rsp)
	movl	$16, %ebx
	movl	$32, %r15d
	jmp	.LBB29_165
.LBB29_106:
	cmpq	$31, %rbp
	ja	.LBB29_160
	vpmovzxbw	%xmm0, %ymm0
	vmovdqu	%ymm0, 64(%rsp)
	vmovdqu	-16(%rsi,%r13), %xmm0
	vpmovmskb	%xmm0, %eax
	movl	$16, %ebx
	testl	%eax, %eax
	jne	.LBB29_161
	vpmovzxbw	%xmm0, %ymm0
	vmovdqu	%ymm0, 32(%rsp,%rsi,2)
	leaq	(%rsi,%rsi), %r15
	movq	%rsi, %rbx
	jmp	.LBB29_165
.LBB29_109:
	cmpb	$-65, %dl
	jg	.LBB29_38
	leal	62(%rcx), %esi
.LBB29_111:
	movb	$-65, %al
	leal	-224(%rcx), %edi
	cmpl	$20, %edi
	ja	.LBB29_172
	leaq	.LJTI29_1(%rip), %r8
	movslq	(%r8,%rdi,4), %rdi
	addq	%r8, %rdi
	notrack jmpq	*%rdi
.LBB29_113:
	movb	$-96, %dil
	jmp	.LBB29_173
.LBB29_114:
	movq	%r13, %rdi
	movq	%rbp, %rdx
	callq	"utf16_from_utf8::ascii::write_front::<#418c2b53cf60437c>"
	movq	(%rsp), %r11
	movq	8(%rsp), %r10
	movq	%rax, %r8
	jmp	.LBB29_115
.LBB29_160:
	leaq	64(%rsp), %rdx
	movq	%r13, %rdi
	movq	%rsi, %r15
	movq	%r9, %rbx
	vzeroupper
	callq	"utf16_from_utf8::ascii::write_front::<#418c2b53cf60437c>"
	movq	%r15, %rsi
	movq	%rbx, %r9
	movq	(%rsp), %r11
	movq	%rax, %rbx
.LBB29_161:
	leaq	(%rbx,%rbx), %r15
	cmpq	%rsi, %rbx
	jne	.LBB29_89
	jmp	.LBB29_165
.LBB29_163:
	vpblendvb	%xmm0, %xmm1, %xmm2, %xmm5
	vpbroadcastd	.LCPI29_23(%rip), %xmm4
	vpmaxub	.LCPI29_6(%rip), %xmm3, %xmm6
	vpsrlw	$2, %xmm5, %xmm7
	vpbroadcastd	.LCPI29_24(%rip), %xmm8
	vpand	%xmm7, %xmm8, %xmm7
	vpsllw	$4, %xmm6, %xmm6
	vpandn	%xmm6, %xmm8, %xmm6
	vpmaxub	%xmm3, %xmm5, %xmm8
	vpminub	%xmm4, %xmm8, %xmm9
	vpcmpeqb	%xmm9, %xmm8, %xmm8
	vpand	.LCPI29_13(%rip), %xmm8, %xmm8
	vpor	%xmm6, %xmm7, %xmm6
	vpsllw	$2, %xmm1, %xmm7
	vpand	.LCPI29_14(%rip), %xmm7, %xmm7
	vpor	%xmm6, %xmm8, %xmm6
	vpsrlw	$4, %xmm0, %xmm8
	vpand	.LCPI29_15(%rip), %xmm8, %xmm8
	vpminub	.LCPI29_16(%rip), %xmm7, %xmm9
	vpcmpeqb	%xmm7, %xmm9, %xmm9
	vpaddb	%xmm3, %xmm9, %xmm9
	vpaddb	.LCPI29_17(%rip), %xmm9, %xmm9
	vpminub	.LCPI29_3(%rip), %xmm3, %xmm10
	vpor	%xmm7, %xmm8, %xmm7
	vpcmpeqb	%xmm3, %xmm10, %xmm3
	vpblendvb	%xmm3, %xmm6, %xmm9, %xmm6
	vpaddb	%xmm2, %xmm7, %xmm7
	vpand	.LCPI29_18(%rip), %xmm0, %xmm8
	vpsllw	$6, %xmm5, %xmm5
	vpand	%xmm2, %xmm5, %xmm2
	vpaddb	%xmm2, %xmm8, %xmm2
	vpblendvb	%xmm3, %xmm2, %xmm7, %xmm2
	vpunpcklbw	%xmm6, %xmm2, %xmm3
	vpminub	%xmm4, %xmm0, %xmm4
	vpminub	.LCPI29_2(%rip), %xmm1, %xmm5
	vpcmpeqb	%xmm4, %xmm0, %xmm0
	vpcmpeqb	%xmm5, %xmm1, %xmm1
	vpand	%xmm1, %xmm0, %xmm0
	vpmovmskb	%xmm0, %eax
	movzbl	%al, %ecx
	popcntl	%ecx, %edx
	shll	$4, %ecx
	leaq	.Lstatic.13(%rip), %rsi
	vpshufb	(%rcx,%rsi), %xmm3, %xmm0
	vmovdqa	%xmm0, 64(%rsp)
	vpunpckhbw	%xmm6, %xmm2, %xmm0
	shrl	$8, %eax
	popcntl	%eax, %r15d
	shll	$4, %eax
	vpshufb	(%rax,%rsi), %xmm0, %xmm0
	vmovdqu	%xmm0, 64(%rsp,%rdx,2)
	addl	%edx, %r15d
	addl	%r15d, %r15d
	movl	$16, %ebx
.LBB29_165:
	cmpq	%r9, %r15
	jbe	.LBB29_167
	movq	%r9, %rax
	andq	$-2, %rax
	orq	$1, %r9
	movzbl	64(%rsp,%r9), %ecx
	andb	$-4, %cl
	leaq	-2(%rax), %r15
	cmpb	$-36, %cl
	cmovneq	%rax, %r15
	leaq	64(%rsp), %rdi
	movq	%r15, %rsi
	vzeroupper
	callq	"utf16_to_utf8::lens::utf8_len::<#418c2b53cf60437c>"
	movq	(%rsp), %r11
	movq	%rax, %rbx
.LBB29_167:
	leaq	(%r11,%r14), %rdi
	leaq	64(%rsp), %rsi
	movq	%r15, %rdx
	vzeroupper
	callq	memcpy@PLT
	addq	%r14, %r15
	testq	%rbx, %rbx
	jne	.LBB29_45
	leaq	64(%rsp), %rdx
	movq	%r13, %rdi
	movq	%rbp, %rsi
	movq	(%rsp), %rcx
	movq	8(%rsp), %r8
	movq	%r15, %r9
	jmp	.LBB29_43
.LBB29_169:
	movb	$-112, %dil
	jmp	.LBB29_173
.LBB29_170:
	movb	$-97, %al
	jmp	.LBB29_172
.LBB29_171:
	movb	$-113, %al
.LBB29_172:
	movb	$-128, %dil
.LBB29_173:
	cmpb	$50, %sil
	ja	.LBB29_38
	cmpb	%dl, %dil
	ja	.LBB29_38
	cmpb	%al, %dl
	ja	.LBB29_38
	movl	$2, %eax
	cmpb	$-32, %cl
	jb	.LBB29_66
	cmpb	$-65, 2(%r13)
	jg	.LBB29_38
	movl	$3, %eax
	cmpb	$-16, %cl
	jb	.LBB29_66
	movl	$4, %eax
	cmpb	$-65, 3(%r13)
	jg	.LBB29_38
	jmp	.LBB29_66
.LBB29_180:
	movb	$-112, %r8b
	jmp	.LBB29_184
.LBB29_181:
	movb	$-97, %dil
	jmp	.LBB29_183
.LBB29_182:
	movb	$-113, %dil
.LBB29_183:
	movb	$-128, %r8b
.LBB29_184:
	cmpb	$50, %sil
	ja	.LBB29_38
	cmpb	%dl, %r8b
	ja	.LBB29_38
	cmpb	%dil, %dl
	ja	.LBB29_38
	cmpb	$-32, %cl
	jb	.LBB29_67
	cmpb	$-65, 2(%r13,%rax)
	jg	.LBB29_38
	cmpb	$-16, %cl
	jb	.LBB29_67
	cmpb	$-64, 3(%r13,%rax)
	jge	.LBB29_38
	jmp	.LBB29_67
.LBB29_191:
	movq	%r8, %rdx
	subq	%r12, %rdx
	cmpq	$3, %rdx
	jb	.LBB29_195
	leal	31(%rcx), %eax
	cmpb	$11, %al
	ja	.LBB29_196
	cmpb	$-65, 1(%rsi,%r12)
	jg	.LBB29_196
	cmpb	$-64, 2(%rsi,%r12)
	jl	.LBB29_1
	jmp	.LBB29_196
.LBB29_195:
	cmpq	$2, %rdx
	jne	.LBB29_201
.LBB29_196:
	movzbl	1(%rsi,%r12), %ebx
	movl	%ecx, %eax
	shrb	$4, %al
	andb	$12, %al
	movl	%ebx, %r8d
	shrb	$6, %r8b
	orb	%al, %r8b
	movb	$1, %al
	cmpb	$14, %r8b
	jne	.LBB29_200
	leal	31(%rcx), %r8d
	cmpb	$12, %r8b
	movq	16(%rsp), %r8
	jae	.LBB29_205
.LBB29_198:
	cmpq	$2, %rdx
	jne	.LBB29_209
.LBB29_199:
	movb	$2, %al
	xorl	%r9d, %r9d
	jmp	.LBB29_202
.LBB29_201:
	addb	$11, %cl
	cmpb	$-51, %cl
	setb	%r9b
	movb	$2, %al
	subb	%r9b, %al
	jmp	.LBB29_202
.LBB29_203:
	movq	%r8, %r12
	jmp	.LBB29_2
.LBB29_204:
	movb	$3, %cl
	xorl	%eax, %eax
	jmp	.LBB29_228
.LBB29_205:
	leal	62(%rcx), %r11d
	cmpb	$30, %r11b
	jb	.LBB29_1
	movb	$-65, %r8b
	leal	-224(%rcx), %r9d
	cmpl	$20, %r9d
	ja	.LBB29_221
	leaq	.LJTI29_0(%rip), %r10
	movslq	(%r10,%r9,4), %r9
	addq	%r10, %r9
	notrack jmpq	*%r9
.LBB29_208:
	movb	$-96, %r9b
	jmp	.LBB29_222
.LBB29_227:
	movb	$1, %al
	jmp	.LBB29_228
.LBB29_209:
	movb	$2, %r9b
	cmpb	$-65, 2(%rsi,%r12)
	jg	.LBB29_202
	cmpb	$-16, %cl
	jb	.LBB29_1
	cmpq	$4, %rdx
	jb	.LBB29_199
	movb	$3, %r9b
	cmpb	$-65, 3(%rsi,%r12)
	jle	.LBB29_1
	jmp	.LBB29_202
.LBB29_214:
	movb	$2, %cl
	xorl	%eax, %eax
	jmp	.LBB29_228
.LBB29_215:
	movb	$2, %al
	jmp	.LBB29_228
.LBB29_216:
	addb	$11, %al
	cmpb	$-51, %al
	setb	%al
	movb	$2, %cl
	subb	%al, %cl
	jmp	.LBB29_228
.LBB29_217:
	movb	$3, %al
.LBB29_228:
	movq	56(%rsp), %rdx
	movq	%rbx, (%rdx)
	movq	%r14, 8(%rdx)
	movb	%cl, 16(%rdx)
	movb	%al, 17(%rdx)
	jmp	.LBB29_229
.LBB29_218:
	movb	$-112, %r9b
	jmp	.LBB29_222
.LBB29_219:
	movb	$-97, %r8b
	jmp	.LBB29_221
.LBB29_220:
	movb	$-113, %r8b
.LBB29_221:
	movb	$-128, %r9b
.LBB29_222:
	cmpb	$51, %r11b
	setb	%r10b
	cmpb	%bl, %r9b
	setbe	%r9b
	cmpb	%r8b, %bl
	setbe	%r8b
	andb	%r9b, %r8b
	andb	%r10b, %r8b
	cmpb	$1, %r8b
	jne	.LBB29_200
	cmpb	$-32, %cl
	movq	8(%rsp), %r10
	movq	16(%rsp), %r8
	jb	.LBB29_1
	jmp	.LBB29_198
.LBB29_200:
	movb	$1, %r9b
.LBB29_202:
	movq	%r12, (%rdi)
	movq	%r14, 8(%rdi)
	movb	%al, 16(%rdi)
	movb	%r9b, 17(%rdi)
.LBB29_229:
	addq	$344, %rsp
	.cfi_def_cfa_offset 56
	popq	%rbx
	.cfi_def_cfa_offset 48
	popq	%r12
	.cfi_def_cfa_offset 40
	popq	%r13
	.cfi_def_cfa_offset 32
	popq	%r14
	.cfi_def_cfa_offset 24
	popq	%r15
	.cfi_def_cfa_offset 16
	popq	%rbp
	.cfi_def_cfa_offset 8
	vzeroupper
	retq
.Lfunc_end29:
	.size	"utf16_transcode::transcoding::transcode_many::<#58ba01604e1c9b81>", .Lfunc_end29-"utf16_transcode::transcoding::transcode_many::<#58ba01604e1c9b81>"
	.cfi_endproc
	.section	".rodata.utf16_transcode::transcoding::transcode_many::<#58ba01604e1c9b81>","a",@progbits
	.p2align	2, 0x0
.LJTI29_0:
	.long	.LBB29_208-.LJTI29_0
	.long	.LBB29_221-.LJTI29_0
	.long	.LBB29_221-.LJTI29_0
	.long	.LBB29_221-.LJTI29_0
	.long	.LBB29_221-.LJTI29_0
	.long	.LBB29_221-.LJTI29_0
	.long	.LBB29_221-.LJTI29_0
	.long	.LBB29_221-.LJTI29_0
	.long	.LBB29_221-.LJTI29_0
	.long	.LBB29_221-.LJTI29_0
	.long	.LBB29_221-.LJTI29_0
	.long	.LBB29_221-.LJTI29_0
	.long	.LBB29_221-.LJTI29_0
	.long	.LBB29_219-.LJTI29_0
	.long	.LBB29_221-.LJTI29_0
	.long	.LBB29_221-.LJTI29_0
	.long	.LBB29_218-.LJTI29_0
	.long	.LBB29_221-.LJTI29_0
	.long	.LBB29_221-.LJTI29_0
	.long	.LBB29_221-.LJTI29_0
	.long	.LBB29_220-.LJTI29_0
.LJTI29_1:
	.long	.LBB29_113-.LJTI29_1
	.long	.LBB29_172-.LJTI29_1
	.long	.LBB29_172-.LJTI29_1
	.long	.LBB29_172-.LJTI29_1
	.long	.LBB29_172-.LJTI29_1
	.long	.LBB29_172-.LJTI29_1
	.long	.LBB29_172-.LJTI29_1
	.long	.LBB29_172-.LJTI29_1
	.long	.LBB29_172-.LJTI29_1
	.long	.LBB29_172-.LJTI29_1
	.long	.LBB29_172-.LJTI29_1
	.long	.LBB29_172-.LJTI29_1
	.long	.LBB29_172-.LJTI29_1
	.long	.LBB29_170-.LJTI29_1
	.long	.LBB29_172-.LJTI29_1
	.long	.LBB29_172-.LJTI29_1
	.long	.LBB29_169-.LJTI29_1
	.long	.LBB29_172-.LJTI29_1
	.long	.LBB29_172-.LJTI29_1
	.long	.LBB29_172-.LJTI29_1
	.long	.LBB29_171-.LJTI29_1
.LJTI29_2:
	.long	.LBB29_101-.LJTI29_2
	.long	.LBB29_183-.LJTI29_2
	.long	.LBB29_183-.LJTI29_2
	.long	.LBB29_183-.LJTI29_2
	.long	.LBB29_183-.LJTI29_2
	.long	.LBB29_183-.LJTI29_2
	.long	.LBB29_183-.LJTI29_2
	.long	.LBB29_183-.LJTI29_2
	.long	.LBB29_183-.LJTI29_2
	.long	.LBB29_183-.LJTI29_2
	.long	.LBB29_183-.LJTI29_2
	.long	.LBB29_183-.LJTI29_2
	.long	.LBB29_183-.LJTI29_2
	.long	.LBB29_181-.LJTI29_2
	.long	.LBB29_183-.LJTI29_2
	.long	.LBB29_183-.LJTI29_2
	.long	.LBB29_180-.LJTI29_2
	.long	.LBB29_183-.LJTI29_2
	.long	.LBB29_183-.LJTI29_2
	.long	.LBB29_183-.LJTI29_2
	.long	.LBB29_182-.LJTI29_2
.LJTI29_3:
	.long	.LBB29_147-.LJTI29_3
	.long	.LBB29_154-.LJTI29_3
	.long	.LBB29_154-.LJTI29_3
	.long	.LBB29_154-.LJTI29_3
	.long	.LBB29_154-.LJTI29_3
	.long	.LBB29_154-.LJTI29_3
	.long	.LBB29_154-.LJTI29_3
	.long	.LBB29_154-.LJTI29_3
	.long	.LBB29_154-.LJTI29_3
	.long	.LBB29_154-.LJTI29_3
	.long	.LBB29_154-.LJTI29_3
	.long	.LBB29_154-.LJTI29_3
	.long	.LBB29_154-.LJTI29_3
	.long	.LBB29_152-.LJTI29_3
	.long	.LBB29_154-.LJTI29_3
	.long	.LBB29_154-.LJTI29_3
	.long	.LBB29_151-.LJTI29_3
	.long	.LBB29_154-.LJTI29_3
	.long	.LBB29_154-.LJTI29_3
	.long	.LBB29_154-.LJTI29_3
	.long	.LBB29_153-.LJTI29_3

	.section	".text.utf16_transcode::transcoding::write_chars::<#58ba01604e1c9b81>","ax",@progbits
	.p2align	4
	.type	"utf16_transcode::transcoding::write_chars::<#58ba01604e1c9b81>",@function
"utf16_transcode::transcoding::write_chars::<#58ba01604e1c9b81>":
	.cfi_startproc
	pushq	%r15
	.cfi_def_cfa_offset 16
	pushq	%r14
	.cfi_def_cfa_offset 24
	pushq	%r13
	.cfi_def_cfa_offset 32
	pushq	%r12
	.cfi_def_cfa_offset 40
	pushq	%rbx
	.cfi_def_cfa_offset 48
	.cfi_offset %rbx, -48
	.cfi_offset %r12, -40
	.cfi_offset %r13, -32
	.cfi_offset %r14, -24
	.cfi_offset %r15, -16
	movq	%r8, %r13
	movq	%rcx, %rbx
	movq	%rdx, %r14
	movq	%rsi, %r15
	movq	%rdi, %r12
	addq	%r8, %rdx
	subq	%r8, %rcx
	callq	"utf16_transcode::encode::FromUtf8Direction::begin::<#418c2b53cf60437c>"
	addq	%r13, %rdx
	jmp	.LBB30_1
	.p2align	4
.LBB30_34:
	leal	67043328(%rcx), %r8d
	shrl	$10, %r8d
	addl	$-10240, %r8d
	andl	$1023, %ecx
	orl	$56320, %ecx
	movw	%cx, 2(%r14,%rdx)
	movl	$4, %edi
	movl	%r8d, %ecx
.LBB30_35:
	movw	%cx, (%r14,%rdx)
	addq	%rdi, %rdx
	addq	%rsi, %rax
.LBB30_1:
	cmpq	%r15, %rax
	jae	.LBB30_36
	movzbl	(%r12,%rax), %ecx
	testb	%cl, %cl
	js	.LBB30_4
	movl	$1, %esi
.LBB30_31:
	movq	%rbx, %rdi
	subq	%rdx, %rdi
	xorl	%r8d, %r8d
	cmpl	$65536, %ecx
	setae	%r8b
	leaq	2(,%r8,2), %r8
	cmpq	%r8, %rdi
	jb	.LBB30_36
	cmpl	$65535, %ecx
	ja	.LBB30_34
	movl	$2, %edi
	jmp	.LBB30_35
	.p2align	4
.LBB30_4:
	movq	%r15, %rdi
	subq	%rax, %rdi
	cmpq	$3, %rdi
	jb	.LBB30_9
	leal	31(%rcx), %esi
	cmpb	$11, %sil
	ja	.LBB30_10
	movzbl	1(%r12,%rax), %esi
	cmpb	$-65, %sil
	jg	.LBB30_10
	movzbl	2(%r12,%rax), %r8d
	cmpb	$-65, %r8b
	jg	.LBB30_10
	jmp	.LBB30_8
.LBB30_9:
	cmpq	$2, %rdi
	jne	.LBB30_36
.LBB30_10:
	movzbl	1(%r12,%rax), %esi
	movl	%ecx, %r8d
	shrb	$4, %r8b
	andb	$12, %r8b
	movl	%esi, %r9d
	shrb	$6, %r9b
	orb	%r8b, %r9b
	cmpb	$14, %r9b
	jne	.LBB30_36
	leal	31(%rcx), %r8d
	cmpb	$12, %r8b
	jae	.LBB30_12
.LBB30_25:
	cmpq	$2, %rdi
	je	.LBB30_36
	movzbl	2(%r12,%rax), %r8d
	cmpb	$-65, %r8b
	jg	.LBB30_36
	cmpb	$-17, %cl
	ja	.LBB30_28
.LBB30_8:
	shll	$12, %ecx
	shll	$6, %esi
	addl	%ecx, %esi
	leal	(%r8,%rsi), %ecx
	addl	$-925824, %ecx
	movl	$3, %esi
	jmp	.LBB30_31
.LBB30_12:
	leal	62(%rcx), %r8d
	cmpb	$30, %r8b
	jb	.LBB30_24
	movb	$-65, %r9b
	leal	-224(%rcx), %r10d
	cmpl	$20, %r10d
	ja	.LBB30_19
	leaq	.LJTI30_0(%rip), %r11
	movslq	(%r11,%r10,4), %r10
	addq	%r11, %r10
	notrack jmpq	*%r10
.LBB30_15:
	movb	$-96, %r10b
	jmp	.LBB30_20
.LBB30_28:
	cmpq	$4, %rdi
	jb	.LBB30_36
	movzbl	3(%r12,%rax), %edi
	cmpb	$-65, %dil
	jg	.LBB30_36
	shll	$18, %ecx
	shll	$12, %esi
	addl	%ecx, %esi
	shll	$6, %r8d
	addl	%esi, %r8d
	leal	(%rdi,%r8), %ecx
	addl	$-63447168, %ecx
	movl	$4, %esi
	jmp	.LBB30_31
.LBB30_17:
	movb	$-112, %r10b
	jmp	.LBB30_20
.LBB30_16:
	movb	$-97, %r9b
	jmp	.LBB30_19
.LBB30_18:
	movb	$-113, %r9b
.LBB30_19:
	movb	$-128, %r10b
.LBB30_20:
	cmpb	$50, %r8b
	ja	.LBB30_36
	cmpb	%sil, %r10b
	ja	.LBB30_36
	cmpb	%r9b, %sil
	ja	.LBB30_36
	cmpb	$-33, %cl
	ja	.LBB30_25
.LBB30_24:
	shll	$6, %ecx
	addl	%esi, %ecx
	addl	$-12416, %ecx
	movl	$2, %esi
	jmp	.LBB30_31
.LBB30_36:
	popq	%rbx
	.cfi_def_cfa_offset 40
	popq	%r12
	.cfi_def_cfa_offset 32
	popq	%r13
	.cfi_def_cfa_offset 24
	popq	%r14
	.cfi_def_cfa_offset 16
	popq	%r15
	.cfi_def_cfa_offset 8
	retq
.Lfunc_end30:
	.size	"utf16_transcode::transcoding::write_chars::<#58ba01604e1c9b81>", .Lfunc_end30-"utf16_transcode::transcoding::write_chars::<#58ba01604e1c9b81>"
	.cfi_endproc
	.section	".rodata.utf16_transcode::transcoding::write_chars::<#58ba01604e1c9b81>","a",@progbits
	.p2align	2, 0x0
.LJTI30_0:
	.long	.LBB30_15-.LJTI30_0
	.long	.LBB30_19-.LJTI30_0
	.long	.LBB30_19-.LJTI30_0
	.long	.LBB30_19-.LJTI30_0
	.long	.LBB30_19-.LJTI30_0
	.long	.LBB30_19-.LJTI30_0
	.long	.LBB30_19-.LJTI30_0
	.long	.LBB30_19-.LJTI30_0
	.long	.LBB30_19-.LJTI30_0
	.long	.LBB30_19-.LJTI30_0
	.long	.LBB30_19-.LJTI30_0
	.long	.LBB30_19-.LJTI30_0
	.long	.LBB30_19-.LJTI30_0
	.long	.LBB30_16-.LJTI30_0
	.long	.LBB30_19-.LJTI30_0
	.long	.LBB30_19-.LJTI30_0
	.long	.LBB30_17-.LJTI30_0
	.long	.LBB30_19-.LJTI30_0
	.long	.LBB30_19-.LJTI30_0
	.long	.LBB30_19-.LJTI30_0
	.long	.LBB30_18-.LJTI30_0

	.section	.rodata.cst32,"aM",@progbits,32
	.p2align	5, 0x0
.LCPI31_0:
	.short	65408
	.short	65408
	.short	65408
	.short	65408
	.short	65408
	.short	65408
	.short	65408
	.short	65408
	.short	65408
	.short	65408
	.short	65408
	.short	65408
	.short	65408
	.short	65408
	.short	65408
	.short	65408
.LCPI31_1:
	.zero	32,248
.LCPI31_2:
	.zero	32,216
.LCPI31_3:
	.short	127
	.short	127
	.short	127
	.short	127
	.short	127
	.short	127
	.short	127
	.short	127
	.short	127
	.short	127
	.short	127
	.short	127
	.short	127
	.short	127
	.short	127
	.short	127
	.section	.rodata.cst4,"aM",@progbits,4
	.p2align	2, 0x0
.LCPI31_4:
	.short	127
	.short	127
	.section	".text.utf16_to_utf8::lens::utf8_len::<#418c2b53cf60437c>","ax",@progbits
	.p2align	4
	.type	"utf16_to_utf8::lens::utf8_len::<#418c2b53cf60437c>",@function
"utf16_to_utf8::lens::utf8_len::<#418c2b53cf60437c>":
	.cfi_startproc
	pushq	%rbp
	.cfi_def_cfa_offset 16
	.cfi_offset %rbp, -16
	movq	%rsp, %rbp
	.cfi_def_cfa_register %rbp
	pushq	%r14
	pushq	%rbx
	andq	$-64, %rsp
	subq	$128, %rsp
	.cfi_offset %rbx, -32
	.cfi_offset %r14, -24
	movq	%rsi, %rbx
	movq	%rdi, %rsi
	cmpq	$64, %rbx
	jb	.LBB31_1
	xorl	%eax, %eax
	movq	%rbx, %rdx
	xorl	%r14d, %r14d
	jmp	.LBB31_3
	.p2align	4
.LBB31_5:
	vpsrlw	$8, %ymm1, %ymm2
	vpsrlw	$8, %ymm0, %ymm3
	vpackuswb	%ymm3, %ymm2, %ymm2
	vpermq	$216, %ymm2, %ymm2
	vpand	.LCPI31_1(%rip), %ymm2, %ymm2
	vpxor	%xmm3, %xmm3, %xmm3
	vpcmpeqb	%ymm3, %ymm2, %ymm3
	vpmovmskb	%ymm3, %ecx
	vpcmpeqb	.LCPI31_2(%rip), %ymm2, %ymm2
	popcntl	%ecx, %ecx
	vpmovmskb	%ymm2, %edi
	popcntl	%edi, %edi
	vpbroadcastd	.LCPI31_4(%rip), %ymm2
	vpminuw	%ymm2, %ymm1, %ymm3
	vpcmpeqw	%ymm3, %ymm1, %ymm1
	vpminuw	%ymm2, %ymm0, %ymm2
	vpcmpeqw	%ymm2, %ymm0, %ymm0
	vpacksswb	%ymm0, %ymm1, %ymm0
	vpermq	$216, %ymm0, %ymm0
	vpmovmskb	%ymm0, %r8d
	popcntl	%r8d, %r8d
	addl	%edi, %r8d
	addl	%ecx, %r8d
	movl	$96, %ecx
	subq	%r8, %rcx
.LBB31_6:
	addq	%rcx, %r14
	addq	$64, %rax
	addq	$-64, %rdx
	cmpq	$63, %rdx
	jbe	.LBB31_7
.LBB31_3:
	vmovdqu	(%rsi,%rax), %ymm1
	vmovdqu	32(%rsi,%rax), %ymm0
	vpor	%ymm0, %ymm1, %ymm2
	vptest	.LCPI31_0(%rip), %ymm2
	jne	.LBB31_5
	movl	$32, %ecx
	jmp	.LBB31_6
.LBB31_1:
	xorl	%r14d, %r14d
	xorl	%eax, %eax
	movq	%rbx, %rdx
.LBB31_7:
	addq	%rax, %rsi
	vpxor	%xmm0, %xmm0, %xmm0
	vmovdqa	%ymm0, 32(%rsp)
	vmovdqa	%ymm0, (%rsp)
	movq	%rsp, %rdi
	vzeroupper
	callq	memcpy@PLT
	vmovdqa	(%rsp), %ymm0
	vpor	32(%rsp), %ymm0, %ymm0
	vptest	.LCPI31_0(%rip), %ymm0
	je	.LBB31_8
	vmovdqa	32(%rsp), %ymm0
	vmovdqa	(%rsp), %ymm1
	vpsrlw	$8, %ymm1, %ymm2
	vpsrlw	$8, %ymm0, %ymm3
	vpackuswb	%ymm3, %ymm2, %ymm2
	vpermq	$216, %ymm2, %ymm2
	vpand	.LCPI31_1(%rip), %ymm2, %ymm2
	vpxor	%xmm3, %xmm3, %xmm3
	vpcmpeqb	%ymm3, %ymm2, %ymm3
	vpmovmskb	%ymm3, %eax
	vpcmpeqb	.LCPI31_2(%rip), %ymm2, %ymm2
	popcntl	%eax, %eax
	vpmovmskb	%ymm2, %ecx
	popcntl	%ecx, %ecx
	vpbroadcastd	.LCPI31_4(%rip), %ymm2
	vpminuw	%ymm2, %ymm1, %ymm3
	vpcmpeqw	%ymm3, %ymm1, %ymm1
	vpminuw	%ymm2, %ymm0, %ymm2
	vpcmpeqw	%ymm2, %ymm0, %ymm0
	vpacksswb	%ymm0, %ymm1, %ymm0
	vpermq	$216, %ymm0, %ymm0
	vpmovmskb	%ymm0, %edx
	popcntl	%edx, %edx
	addl	%ecx, %edx
	addl	%eax, %edx
	movl	$96, %eax
	subq	%rdx, %rax
	jmp	.LBB31_10
.LBB31_8:
	movl	$32, %eax
.LBB31_10:
	addq	%rax, %r14
	shrl	%ebx
	orq	$-32, %rbx
	addq	%r14, %rbx
	movq	%rbx, %rax
	leaq	-16(%rbp), %rsp
	popq	%rbx
	popq	%r14
	popq	%rbp
	.cfi_def_cfa %rsp, 8
	vzeroupper
	retq
.Lfunc_end31:
	.size	"utf16_to_utf8::lens::utf8_len::<#418c2b53cf60437c>", .Lfunc_end31-"utf16_to_utf8::lens::utf8_len::<#418c2b53cf60437c>"
	.cfi_endproc

	.section	.rodata.cst16,"aM",@progbits,16
	.p2align	4, 0x0
.LCPI32_0:
	.zero	16,192
.LCPI32_1:
	.zero	16,191
.LCPI32_2:
	.zero	16,224
.LCPI32_3:
	.zero	16,15
.LCPI32_4:
	.zero	16,220
.LCPI32_5:
	.zero	16,252
.LCPI32_6:
	.zero	16,3
.LCPI32_7:
	.zero	16,63
.LCPI32_8:
	.zero	16,232
.LCPI32_9:
	.zero	16,239
.LCPI32_10:
	.zero	16,127
.LCPI32_11:
	.zero	16,223
	.section	.rodata.cst4,"aM",@progbits,4
	.p2align	2, 0x0
.LCPI32_12:
	.zero	4,192
.LCPI32_13:
	.zero	4,191
.LCPI32_14:
	.zero	4,15
	.section	".text.utf16_transcode::transcoding::write_buffered_text::<#58ba01604e1c9b81>","ax",@progbits
	.p2align	4
	.type	"utf16_transcode::transcoding::write_buffered_text::<#58ba01604e1c9b81>",@function
"utf16_transcode::transcoding::write_buffered_text::<#58ba01604e1c9b81>":
	.cfi_startproc
	pushq	%rbp
	.cfi_def_cfa_offset 16
	pushq	%r15
	.cfi_def_cfa_offset 24
	pushq	%r14
	.cfi_def_cfa_offset 32
	pushq	%r13
	.cfi_def_cfa_offset 40
	pushq	%r12
	.cfi_def_cfa_offset 48
	pushq	%rbx
	.cfi_def_cfa_offset 56
	pushq	%rax
	.cfi_def_cfa_offset 64
	.cfi_offset %rbx, -56
	.cfi_offset %r12, -48
	.cfi_offset %r13, -40
	.cfi_offset %r14, -32
	.cfi_offset %r15, -24
	.cfi_offset %rbp, -16
	movq	%r9, %rbx
	movq	%r8, %r13
	movq	%rcx, (%rsp)
	movq	%rdx, %r14
	movq	%rdi, %r12
	cmpq	$64, %rsi
	movl	$64, %ebp
	cmovbq	%rsi, %rbp
	jae	.LBB32_2
	movq	%r12, %rdi
	movq	%rbp, %rsi
	callq	"utf16_transcode::encode::valid_prefix"
	movq	%rax, %r15
	jmp	.LBB32_4
.LBB32_2:
	movl	$63, %esi
	movq	%r12, %rdi
	callq	"utf16_transcode::encode::valid_prefix"
	movq	%rax, %r15
	addq	$4, %rax
	cmpq	$64, %rax
	jb	.LBB32_4
	leaq	(%r12,%r15), %rdi
	subq	%r15, %rbp
	movq	%rbp, %rsi
	callq	"utf16_transcode::encode::valid_prefix"
	addq	%rax, %r15
.LBB32_4:
	cmpq	$7, %r15
	ja	.LBB32_16
	testq	%r15, %r15
	je	.LBB32_21
	xorl	%ebp, %ebp
	movq	%r15, %rax
	jmp	.LBB32_7
.LBB32_16:
	cmpq	$16, %r15
	ja	.LBB32_19
	vmovq	-8(%r12,%r15), %xmm0
	vmovq	(%r12), %xmm1
	vpunpcklqdq	%xmm0, %xmm1, %xmm0
	movq	%r15, %rax
	shlq	$4, %rax
	leaq	.Lstatic.11(%rip), %rcx
	vpshufb	-128(%rax,%rcx), %xmm0, %xmm0
	vpmovmskb	%xmm0, %eax
	testl	%eax, %eax
	je	.LBB32_24
	leaq	.Lstatic.12(%rip), %rax
	subq	%r15, %rax
	vpmaxub	16(%rax), %xmm0, %xmm1
	vpslldq	$1, %xmm1, %xmm0
	vpbroadcastd	.LCPI32_12(%rip), %xmm3
	vpblendvb	%xmm1, %xmm0, %xmm3, %xmm4
	vpslldq	$2, %xmm1, %xmm5
	vpbroadcastd	.LCPI32_13(%rip), %xmm2
	vpmaxub	.LCPI32_2(%rip), %xmm5, %xmm6
	vpsrlw	$2, %xmm4, %xmm7
	vpbroadcastd	.LCPI32_14(%rip), %xmm8
	vpand	%xmm7, %xmm8, %xmm7
	vpsllw	$4, %xmm6, %xmm6
	vpandn	%xmm6, %xmm8, %xmm6
	vpor	%xmm6, %xmm7, %xmm6
	vpmaxub	%xmm5, %xmm4, %xmm7
	vpminub	%xmm2, %xmm7, %xmm8
	vpcmpeqb	%xmm7, %xmm8, %xmm7
	vpand	.LCPI32_4(%rip), %xmm7, %xmm7
	vpor	%xmm7, %xmm6, %xmm6
	vpsllw	$2, %xmm0, %xmm7
	vpand	.LCPI32_5(%rip), %xmm7, %xmm7
	vpsrlw	$4, %xmm1, %xmm8
	vpand	.LCPI32_6(%rip), %xmm8, %xmm8
	vpminub	.LCPI32_7(%rip), %xmm7, %xmm9
	vpcmpeqb	%xmm7, %xmm9, %xmm9
	vpaddb	%xmm5, %xmm9, %xmm9
	vpaddb	.LCPI32_8(%rip), %xmm9, %xmm9
	vpor	%xmm7, %xmm8, %xmm7
	vpminub	.LCPI32_9(%rip), %xmm5, %xmm8
	vpcmpeqb	%xmm5, %xmm8, %xmm5
	vpblendvb	%xmm5, %xmm6, %xmm9, %xmm6
	vpand	.LCPI32_10(%rip), %xmm1, %xmm8
	vpaddb	%xmm3, %xmm7, %xmm7
	vpsllw	$6, %xmm4, %xmm4
	vpand	%xmm3, %xmm4, %xmm3
	vpaddb	%xmm3, %xmm8, %xmm3
	vpblendvb	%xmm5, %xmm3, %xmm7, %xmm3
	vpunpcklbw	%xmm6, %xmm3, %xmm4
	vpminub	%xmm2, %xmm1, %xmm2
	vpcmpeqb	%xmm2, %xmm1, %xmm1
	vpminub	.LCPI32_11(%rip), %xmm0, %xmm2
	vpcmpeqb	%xmm2, %xmm0, %xmm0
	vpand	%xmm0, %xmm1, %xmm0
	vpmovmskb	%xmm0, %eax
	movzbl	%al, %ecx
	popcntl	%ecx, %edx
	shll	$4, %ecx
	leaq	.Lstatic.13(%rip), %rsi
	vpshufb	(%rcx,%rsi), %xmm4, %xmm0
	vpunpckhbw	%xmm6, %xmm3, %xmm1
	vmovdqu	%xmm0, (%r14)
	shrl	$8, %eax
	popcntl	%eax, %ebp
	shll	$4, %eax
	vpshufb	(%rax,%rsi), %xmm1, %xmm0
	vmovdqu	%xmm0, (%r14,%rdx,2)
	addl	%edx, %ebp
	addl	%ebp, %ebp
	jmp	.LBB32_35
.LBB32_15:
	addl	$67043328, %ecx
	shrl	$10, %ecx
	addl	$-10240, %ecx
	movw	%cx, (%rdi)
	orl	$56320, %esi
	movw	%si, 2(%rdi)
	movl	$4, %ecx
	addq	%rcx, %rbp
	testq	%rax, %rax
	je	.LBB32_35
	.p2align	4
.LBB32_7:
	movzbl	(%r12), %ecx
	movl	$1, %esi
	testb	%cl, %cl
	jns	.LBB32_12
	movzbl	1(%r12), %edx
	andl	$63, %edx
	cmpb	$-33, %cl
	ja	.LBB32_10
	andl	$31, %ecx
	shll	$6, %ecx
	orl	%edx, %ecx
	movl	$2, %esi
	jmp	.LBB32_12
.LBB32_10:
	movzbl	2(%r12), %esi
	andl	$63, %esi
	cmpb	$-17, %cl
	ja	.LBB32_14
	shll	$12, %ecx
	movzwl	%cx, %ecx
	shll	$6, %edx
	orl	%ecx, %edx
	orl	%esi, %edx
	movl	$3, %esi
	movl	%edx, %ecx
	.p2align	4
.LBB32_12:
	addq	%rsi, %r12
	subq	%rsi, %rax
	leaq	(%r14,%rbp), %rdi
.LBB32_13:
	movw	%cx, (%rdi)
	movl	$2, %ecx
	addq	%rcx, %rbp
	testq	%rax, %rax
	jne	.LBB32_7
	jmp	.LBB32_35
.LBB32_14:
	movzbl	3(%r12), %edi
	andl	$63, %edi
	andl	$7, %ecx
	shll	$18, %ecx
	shll	$12, %edx
	orl	%ecx, %edx
	shll	$6, %esi
	orl	%edi, %esi
	leal	(%rsi,%rdx), %ecx
	addq	$4, %r12
	addq	$-4, %rax
	leaq	(%r14,%rbp), %rdi
	cmpl	$65535, %edx
	jbe	.LBB32_13
	jmp	.LBB32_15
.LBB32_19:
	leaq	16(,%r15,2), %rcx
	movq	%rcx, %rsi
	shrq	%rsi
	cmpq	%r15, %rsi
	cmovaeq	%r15, %rsi
	cmpq	$32, %rcx
	jb	.LBB32_20
	vmovdqu	(%r12), %xmm0
	vpmovmskb	%xmm0, %eax
	testl	%eax, %eax
	je	.LBB32_25
.LBB32_20:
	xorl	%r8d, %r8d
.LBB32_29:
	leaq	(%r8,%r8), %rbp
	movq	%r15, %rax
	subq	%r8, %rax
	je	.LBB32_35
	cmpq	$191, %rax
	ja	.LBB32_32
	movq	%r12, %rdi
	movq	%r15, %rsi
	movq	%r14, %rdx
	jmp	.LBB32_34
.LBB32_21:
	movq	(%rsp), %rdi
	addq	%rbx, %rdi
	xorl	%ebp, %ebp
	xorl	%r15d, %r15d
	jmp	.LBB32_40
.LBB32_24:
	leaq	(%r15,%r15), %rbp
	vpmovzxbw	%xmm0, %ymm0
	vmovdqu	%ymm0, (%r14)
	jmp	.LBB32_35
.LBB32_32:
	movq	%r12, %rdi
	movq	%r15, %rsi
	movq	%r14, %rdx
	movq	%rbp, %r9
	vzeroupper
	callq	"utf16_from_utf8::blocks::write_mixed_blocks::<#418c2b53cf60437c>"
	movq	%rdx, %rbp
	movq	%r15, %rcx
	subq	%rax, %rcx
	cmpq	$191, %rcx
	ja	.LBB32_35
	movq	%r12, %rdi
	movq	%r15, %rsi
	movq	%r14, %rdx
	leaq	16(,%r15,2), %rcx
	movq	%rax, %r8
.LBB32_34:
	movq	%rbp, %r9
	vzeroupper
	callq	"utf16_from_utf8::rest::write_rest::<#418c2b53cf60437c>"
	movq	%rdx, %rbp
.LBB32_35:
	subq	%rbx, %r13
	cmpq	%r13, %rbp
	jbe	.LBB32_37
	movq	%r13, %rax
	andq	$-2, %rax
	orq	$1, %r13
	movzbl	(%r14,%r13), %ecx
	andb	$-4, %cl
	leaq	-2(%rax), %rbp
	cmpb	$-36, %cl
	cmovneq	%rax, %rbp
	movq	%r14, %rdi
	movq	%rbp, %rsi
	vzeroupper
	callq	"utf16_to_utf8::lens::utf8_len::<#418c2b53cf60437c>"
	movq	%rax, %r15
.LBB32_37:
	movq	(%rsp), %r8
	leaq	(%r8,%rbx), %rdi
	movq	%rdi, %rax
	subq	%r14, %rax
	cmpq	%rbp, %rax
	jae	.LBB32_40
	cmpq	$8, %rbp
	jb	.LBB32_39
	leaq	(%r8,%rbx), %rax
	subq	%r14, %rax
	cmpq	$128, %rax
	jae	.LBB32_43
.LBB32_39:
	xorl	%eax, %eax
.LBB32_52:
	movq	%rbp, %rdx
	movq	%rax, %rcx
	andq	$7, %rdx
	je	.LBB32_55
	movq	%rax, %rcx
	.p2align	4
.LBB32_54:
	movzbl	(%r14,%rcx), %esi
	movb	%sil, (%rdi,%rcx)
	incq	%rcx
	decq	%rdx
	jne	.LBB32_54
.LBB32_55:
	subq	%rbp, %rax
	cmpq	$-8, %rax
	ja	.LBB32_58
	leaq	(%rbx,%r8), %rax
	addq	$7, %rax
	.p2align	4
.LBB32_57:
	movzbl	(%r14,%rcx), %edx
	movb	%dl, -7(%rax,%rcx)
	movzbl	1(%r14,%rcx), %edx
	movb	%dl, -6(%rax,%rcx)
	movzbl	2(%r14,%rcx), %edx
	movb	%dl, -5(%rax,%rcx)
	movzbl	3(%r14,%rcx), %edx
	movb	%dl, -4(%rax,%rcx)
	movzbl	4(%r14,%rcx), %edx
	movb	%dl, -3(%rax,%rcx)
	movzbl	5(%r14,%rcx), %edx
	movb	%dl, -2(%rax,%rcx)
	movzbl	6(%r14,%rcx), %edx
	movb	%dl, -1(%rax,%rcx)
	movzbl	7(%r14,%rcx), %edx
	movb	%dl, (%rax,%rcx)
	addq	$8, %rcx
	cmpq	%rcx, %rbp
	jne	.LBB32_57
	jmp	.LBB32_58
.LBB32_40:
	movq	%r14, %rsi
	movq	%rbp, %rdx
	vzeroupper
	callq	memmove@PLT
.LBB32_58:
	addq	%rbx, %rbp
	movq	%r15, %rax
	movq	%rbp, %rdx
	addq	$8, %rsp
	.cfi_def_cfa_offset 56
	popq	%rbx
	.cfi_def_cfa_offset 48
	popq	%r12
	.cfi_def_cfa_offset 40
	popq	%r13
	.cfi_def_cfa_offset 32
	popq	%r14
	.cfi_def_cfa_offset 24
	popq	%r15
	.cfi_def_cfa_offset 16
	popq	%rbp
	.cfi_def_cfa_offset 8
	vzeroupper
	retq
.LBB32_43:
	.cfi_def_cfa_offset 64
	cmpq	$128, %rbp
	jae	.LBB32_45
	xorl	%eax, %eax
	jmp	.LBB32_49
.LBB32_45:
	movq	%rbp, %rax
	andq	$-128, %rax
	leaq	(%rbx,%r8), %rcx
	addq	$96, %rcx
	xorl	%edx, %edx
	.p2align	4
.LBB32_46:
	vmovdqu	(%r14,%rdx), %ymm0
	vmovdqu	32(%r14,%rdx), %ymm1
	vmovdqu	64(%r14,%rdx), %ymm2
	vmovdqu	96(%r14,%rdx), %ymm3
	vmovdqu	%ymm0, -96(%rcx,%rdx)
	vmovdqu	%ymm1, -64(%rcx,%rdx)
	vmovdqu	%ymm2, -32(%rcx,%rdx)
	vmovdqu	%ymm3, (%rcx,%rdx)
	subq	$-128, %rdx
	cmpq	%rdx, %rax
	jne	.LBB32_46
	cmpq	%rax, %rbp
	je	.LBB32_58
	testb	$120, %bpl
	je	.LBB32_52
.LBB32_49:
	movq	%rax, %rcx
	movq	%rbp, %rax
	andq	$-8, %rax
	.p2align	4
.LBB32_50:
	movq	(%r14,%rcx), %rdx
	movq	%rdx, (%rdi,%rcx)
	addq	$8, %rcx
	cmpq	%rcx, %rax
	jne	.LBB32_50
	cmpq	%rax, %rbp
	je	.LBB32_58
	jmp	.LBB32_52
.LBB32_25:
	cmpq	$31, %rsi
	ja	.LBB32_28
	vpmovzxbw	%xmm0, %ymm0
	vmovdqu	%ymm0, (%r14)
	vmovdqu	-16(%rsi,%r12), %xmm0
	vpmovmskb	%xmm0, %eax
	movl	$16, %r8d
	testl	%eax, %eax
	jne	.LBB32_29
	vpmovzxbw	%xmm0, %ymm0
	vmovdqu	%ymm0, -32(%r14,%rsi,2)
	movq	%rsi, %r8
	jmp	.LBB32_29
.LBB32_28:
	movq	%r12, %rdi
	movq	%r14, %rdx
	movq	%rcx, %rbp
	callq	"utf16_from_utf8::ascii::write_front::<#418c2b53cf60437c>"
	movq	%rbp, %rcx
	movq	%rax, %r8
	jmp	.LBB32_29
.Lfunc_end32:
	.size	"utf16_transcode::transcoding::write_buffered_text::<#58ba01604e1c9b81>", .Lfunc_end32-"utf16_transcode::transcoding::write_buffered_text::<#58ba01604e1c9b81>"
	.cfi_endproc

	.section	.rodata.cst16,"aM",@progbits,16
	.p2align	4, 0x0
.LCPI33_0:
	.zero	16,127
	.section	".text.utf16_transcode::items::write_items::<#418c2b53cf60437c>","ax",@progbits
	.p2align	4
	.type	"utf16_transcode::items::write_items::<#418c2b53cf60437c>",@function
"utf16_transcode::items::write_items::<#418c2b53cf60437c>":
	.cfi_startproc
	pushq	%rbp
	.cfi_def_cfa_offset 16
	pushq	%r15
	.cfi_def_cfa_offset 24
	pushq	%r14
	.cfi_def_cfa_offset 32
	pushq	%r12
	.cfi_def_cfa_offset 40
	pushq	%rbx
	.cfi_def_cfa_offset 48
	.cfi_offset %rbx, -48
	.cfi_offset %r12, -40
	.cfi_offset %r14, -32
	.cfi_offset %r15, -24
	.cfi_offset %rbp, -16
	movq	%rdx, %r8
	xorl	%eax, %eax
	xorl	%edx, %edx
	xorl	%r9d, %r9d
	.p2align	4
.LBB33_4:
	movq	%rsi, %r10
	subq	%rax, %r10
	cmpq	$4, %r10
	jb	.LBB33_41
	movq	%rcx, %r11
	subq	%rdx, %r11
	cmpq	$4, %r11
	jb	.LBB33_41
	cmpq	$32, %r11
	jb	.LBB33_10
	cmpq	$15, %r10
	jbe	.LBB33_10
	vmovdqu	(%rdi,%rax), %xmm0
	vpmovmskb	%xmm0, %r10d
	orl	$65536, %r10d
	tzcntl	%r10d, %r10d
	cmpw	$4, %r10w
	jae	.LBB33_15
	vmovd	%xmm0, %r10d
	testb	%r10b, %r10b
	jns	.LBB33_1
.LBB33_11:
	cmpb	$-31, %r10b
	jae	.LBB33_17
	movzbl	1(%rdi,%rax), %r11d
	movl	%r10d, %ebx
	shrb	$4, %bl
	andb	$12, %bl
	movl	%r11d, %ebp
	shrb	$6, %bpl
	orb	%bl, %bpl
	cmpb	$14, %bpl
	jne	.LBB33_26
	leal	62(%r10), %ebp
	cmpb	$30, %bpl
	jae	.LBB33_23
.LBB33_14:
	movzbl	%r10b, %r10d
	shll	$6, %r10d
	movzbl	%r11b, %r11d
	leal	(%r10,%r11), %r14d
	addl	$-12416, %r14d
	movl	$2, %ebx
	jmp	.LBB33_3
	.p2align	4
.LBB33_10:
	movzbl	(%rdi,%rax), %r10d
	testb	%r10b, %r10b
	js	.LBB33_11
.LBB33_1:
	movzbl	%r10b, %r14d
	jmp	.LBB33_2
	.p2align	4
.LBB33_15:
	movzwl	%r10w, %ebx
	vpand	.LCPI33_0(%rip), %xmm0, %xmm0
	vpmovzxbw	%xmm0, %ymm0
	vmovdqu	%ymm0, (%r8,%rdx)
	movl	%ebx, %r11d
	addl	%r11d, %r11d
	movl	$2, %r10d
.LBB33_16:
	addq	%r11, %rdx
	addq	%r9, %r10
	addq	%rbx, %rax
	movq	%r10, %r9
	cmpq	$16, %r10
	jb	.LBB33_4
	jmp	.LBB33_41
.LBB33_17:
	movzbl	1(%rdi,%rax), %r11d
	cmpb	$-20, %r10b
	ja	.LBB33_21
	cmpb	$-65, %r11b
	jg	.LBB33_26
	movzbl	2(%rdi,%rax), %ebx
	cmpb	$-65, %bl
	jg	.LBB33_34
	movzbl	%r11b, %r11d
	movzbl	%r10b, %r10d
	shll	$12, %r10d
	shll	$6, %r11d
	addl	%r10d, %r11d
	leal	(%rbx,%r11), %r14d
	addl	$-925824, %r14d
	jmp	.LBB33_37
.LBB33_21:
	cmpb	$-65, %r11b
	jg	.LBB33_26
	leal	62(%r10), %ebp
.LBB33_23:
	movzbl	%r10b, %ebx
	movb	$-65, %r15b
	addl	$-224, %ebx
	cmpl	$20, %ebx
	ja	.LBB33_30
	leaq	.LJTI33_0(%rip), %r14
	movslq	(%r14,%rbx,4), %rbx
	addq	%r14, %rbx
	notrack jmpq	*%rbx
.LBB33_25:
	movb	$-96, %r12b
	jmp	.LBB33_31
.LBB33_26:
	movl	$65533, %r14d
.LBB33_2:
	movl	$1, %ebx
.LBB33_3:
	movw	%r14w, (%r8,%rdx)
	addq	$2, %rdx
	incq	%r9
	xorl	%r10d, %r10d
	cmpl	$65533, %r14d
	cmovneq	%r9, %r10
	addq	%rbx, %rax
	movq	%r10, %r9
	cmpq	$16, %r10
	jb	.LBB33_4
	jmp	.LBB33_41
.LBB33_27:
	movb	$-112, %r12b
	jmp	.LBB33_31
.LBB33_28:
	movb	$-97, %r15b
	jmp	.LBB33_30
.LBB33_29:
	movb	$-113, %r15b
.LBB33_30:
	movb	$-128, %r12b
.LBB33_31:
	movl	$65533, %r14d
	movl	$1, %ebx
	cmpb	$50, %bpl
	ja	.LBB33_3
	cmpb	%r11b, %r12b
	setbe	%bpl
	cmpb	%r15b, %r11b
	setbe	%r15b
	andb	%bpl, %r15b
	cmpb	$1, %r15b
	jne	.LBB33_3
	cmpb	$-33, %r10b
	jbe	.LBB33_14
.LBB33_34:
	movzbl	2(%rdi,%rax), %r15d
	movl	$65533, %r14d
	movl	$2, %ebx
	cmpb	$-65, %r15b
	jg	.LBB33_3
	cmpb	$-17, %r10b
	ja	.LBB33_38
	movzbl	%r10b, %r10d
	shll	$12, %r10d
	movzbl	%r11b, %r11d
	shll	$6, %r11d
	addl	%r10d, %r11d
	leal	(%r15,%r11), %r14d
	addl	$-925824, %r14d
.LBB33_37:
	movl	$3, %ebx
	jmp	.LBB33_3
.LBB33_38:
	movzbl	3(%rdi,%rax), %r12d
	movl	$3, %ebx
	cmpb	$-65, %r12b
	jg	.LBB33_3
	movzbl	%r10b, %r10d
	shll	$18, %r10d
	movzbl	%r11b, %r11d
	shll	$12, %r11d
	addl	%r10d, %r11d
	shll	$6, %r15d
	addl	%r11d, %r15d
	leal	(%r12,%r15), %r14d
	addl	$-63447168, %r14d
	movl	$4, %ebx
	cmpl	$65536, %r14d
	jb	.LBB33_3
	leal	67043328(%r14), %r10d
	shrl	$10, %r10d
	addl	$-10240, %r10d
	movw	%r10w, (%r8,%rdx)
	andl	$1023, %r14d
	orl	$56320, %r14d
	movw	%r14w, 2(%r8,%rdx)
	movl	$1, %r10d
	movl	$4, %r11d
	jmp	.LBB33_16
.LBB33_41:
	popq	%rbx
	.cfi_def_cfa_offset 40
	popq	%r12
	.cfi_def_cfa_offset 32
	popq	%r14
	.cfi_def_cfa_offset 24
	popq	%r15
	.cfi_def_cfa_offset 16
	popq	%rbp
	.cfi_def_cfa_offset 8
	vzeroupper
	retq
.Lfunc_end33:
	.size	"utf16_transcode::items::write_items::<#418c2b53cf60437c>", .Lfunc_end33-"utf16_transcode::items::write_items::<#418c2b53cf60437c>"
	.cfi_endproc
	.section	".rodata.utf16_transcode::items::write_items::<#418c2b53cf60437c>","a",@progbits
	.p2align	2, 0x0
.LJTI33_0:
	.long	.LBB33_25-.LJTI33_0
	.long	.LBB33_30-.LJTI33_0
	.long	.LBB33_30-.LJTI33_0
	.long	.LBB33_30-.LJTI33_0
	.long	.LBB33_30-.LJTI33_0
	.long	.LBB33_30-.LJTI33_0
	.long	.LBB33_30-.LJTI33_0
	.long	.LBB33_30-.LJTI33_0
	.long	.LBB33_30-.LJTI33_0
	.long	.LBB33_30-.LJTI33_0
	.long	.LBB33_30-.LJTI33_0
	.long	.LBB33_30-.LJTI33_0
	.long	.LBB33_30-.LJTI33_0
	.long	.LBB33_28-.LJTI33_0
	.long	.LBB33_30-.LJTI33_0
	.long	.LBB33_30-.LJTI33_0
	.long	.LBB33_27-.LJTI33_0
	.long	.LBB33_30-.LJTI33_0
	.long	.LBB33_30-.LJTI33_0
	.long	.LBB33_30-.LJTI33_0
	.long	.LBB33_29-.LJTI33_0

	.section	.rodata.cst16,"aM",@progbits,16
	.p2align	4, 0x0
.LCPI34_0:
	.byte	116
	.byte	104
	.byte	105
	.byte	115
	.byte	32
	.byte	109
	.byte	97
	.byte	99
	.byte	104
	.byte	105
	.byte	110
	.byte	101
	.byte	32
	.byte	108
	.byte	97
	.byte	99
.LCPI34_1:
	.byte	107
	.byte	115
	.byte	32
	.byte	97
	.byte	32
	.byte	102
	.byte	101
	.byte	97
	.byte	116
	.byte	117
	.byte	114
	.byte	101
	.byte	32
	.byte	111
	.byte	102
	.byte	32
.LCPI34_2:
	.byte	120
	.byte	56
	.byte	54
	.byte	45
	.byte	54
	.byte	52
	.byte	45
	.byte	118
	.byte	51
	.byte	44
	.byte	32
	.byte	119
	.byte	104
	.byte	105
	.byte	99
	.byte	104
.LCPI34_3:
	.byte	32
	.byte	116
	.byte	104
	.byte	105
	.byte	115
	.byte	32
	.byte	112
	.byte	114
	.byte	111
	.byte	103
	.byte	114
	.byte	97
	.byte	109
	.byte	32
	.byte	119
	.byte	97
.LCPI34_4:
	.byte	115
	.byte	32
	.byte	98
	.byte	117
	.byte	105
	.byte	108
	.byte	116
	.byte	32
	.byte	102
	.byte	111
	.byte	114
	.byte	58
	.byte	32
	.byte	114
	.byte	117
	.byte	110
.LCPI34_5:
	.byte	32
	.byte	105
	.byte	116
	.byte	32
	.byte	111
	.byte	110
	.byte	32
	.byte	97
	.byte	110
	.byte	111
	.byte	116
	.byte	104
	.byte	101
	.byte	114
	.byte	32
	.byte	109
.LCPI34_6:
	.byte	97
	.byte	99
	.byte	104
	.byte	105
	.byte	110
	.byte	101
	.byte	44
	.byte	32
	.byte	111
	.byte	114
	.byte	32
	.byte	98
	.byte	117
	.byte	105
	.byte	108
	.byte	100
.LCPI34_7:
	.byte	32
	.byte	105
	.byte	116
	.byte	32
	.byte	119
	.byte	105
	.byte	116
	.byte	104
	.byte	32
	.byte	45
	.byte	45
	.byte	99
	.byte	112
	.byte	117
	.byte	32
	.byte	120
	.section	.text.main,"ax",@progbits
	.globl	proved_main_v3
	.hidden	proved_main_v3
	.p2align	4
	.type	proved_main_v3,@function
proved_main_v3:
	.cfi_startproc
	pushq	%rbp
	.cfi_def_cfa_offset 16
	.cfi_offset %rbp, -16
	movq	%rsp, %rbp
	.cfi_def_cfa_register %rbp
	pushq	%r14
	pushq	%rbx
	.cfi_offset %rbx, -32
	.cfi_offset %r14, -24
	movl	$1, %esi
	movl	$13, %edi
	callq	__sysv_signal@PLT
	xorl	%edi, %edi
	callq	__x86_get_cpuid_feature_leaf@PLT
	movl	24(%rax), %ebx
	notl	%ebx
	andl	$9970177, %ebx
	movl	$2, %edi
	callq	__x86_get_cpuid_feature_leaf@PLT
	movl	24(%rax), %r14d
	notl	%r14d
	andl	$1, %r14d
	orl	%ebx, %r14d
	xorl	%edi, %edi
	callq	__x86_get_cpuid_feature_leaf@PLT
	movl	$809504768, %ebx
	andl	24(%rax), %ebx
	orl	%r14d, %ebx
	movl	$1, %edi
	callq	__x86_get_cpuid_feature_leaf@PLT
	movl	$296, %r14d
	andl	20(%rax), %r14d
	orl	%ebx, %r14d
	movl	$2, %edi
	callq	__x86_get_cpuid_feature_leaf@PLT
	cmpl	$809505064, %r14d
	jne	.LBB34_2
	movl	24(%rax), %eax
	andl	$32, %eax
	je	.LBB34_2
	leaq	-16(%rbp), %rsp
	popq	%rbx
	popq	%r14
	popq	%rbp
	.cfi_def_cfa %rsp, 8
	jmp	"utf16_enc::main+start"
.LBB34_2:
	.cfi_def_cfa %rbp, 16
	movq	%rsp, %rsi
	subq	$144, %rsi
	cmpq	%rsp, %rsi
	jge	.LBB34_5
.LBB34_4:
	xorq	$0, (%rsp)
	subq	$3072, %rsp
	cmpq	%rsp, %rsi
	jl	.LBB34_4
.LBB34_5:
	movq	%rsi, %rsp
	movaps	.LCPI34_0(%rip), %xmm0
	movaps	%xmm0, (%rsi)
	movaps	.LCPI34_1(%rip), %xmm0
	movaps	%xmm0, 16(%rsi)
	movaps	.LCPI34_2(%rip), %xmm0
	movaps	%xmm0, 32(%rsi)
	movaps	.LCPI34_3(%rip), %xmm0
	movaps	%xmm0, 48(%rsi)
	movaps	.LCPI34_4(%rip), %xmm0
	movaps	%xmm0, 64(%rsi)
	movaps	.LCPI34_5(%rip), %xmm0
	movaps	%xmm0, 80(%rsi)
	movaps	.LCPI34_6(%rip), %xmm0
	movaps	%xmm0, 96(%rsi)
	movaps	.LCPI34_7(%rip), %xmm0
	movaps	%xmm0, 112(%rsi)
	movl	$908932664, 128(%rsi)
	movw	$2612, 132(%rsi)
	movl	$134, %edx
	movl	$2, %edi
	callq	__write@PLT
	movl	$127, %eax
	leaq	-16(%rbp), %rsp
	popq	%rbx
	popq	%r14
	popq	%rbp
	.cfi_def_cfa %rsp, 8
	retq
.Lfunc_end34:
	.size	proved_main_v3, .Lfunc_end34-proved_main_v3
	.cfi_endproc

	.type	.Lstatic.11,@object
	.section	.rodata..Lstatic.11,"a",@progbits
.Lstatic.11:
	.ascii	"\000\001\002\003\004\005\006\007\000\000\000\000\000\000\000\000\000\001\002\003\004\005\006\007\017\000\000\000\000\000\000\000\000\001\002\003\004\005\006\007\016\017\000\000\000\000\000\000\000\001\002\003\004\005\006\007\r\016\017\000\000\000\000\000\000\001\002\003\004\005\006\007\f\r\016\017\000\000\000\000\000\001\002\003\004\005\006\007\013\f\r\016\017\000\000\000\000\001\002\003\004\005\006\007\n\013\f\r\016\017\000\000\000\001\002\003\004\005\006\007\t\n\013\f\r\016\017\000\000\001\002\003\004\005\006\007\b\t\n\013\f\r\016\017"
	.size	.Lstatic.11, 144

	.type	.Lstatic.12,@object
	.section	.rodata.cst32,"aM",@progbits,32
.Lstatic.12:
	.ascii	"\000\000\000\000\000\000\000\000\000\000\000\000\000\000\000\000\377\377\377\377\377\377\377\377\377\377\377\377\377\377\377\377"
	.size	.Lstatic.12, 32

	.type	.Lstatic.13,@object
	.section	.rodata..Lstatic.13,"a",@progbits
.Lstatic.13:
	.ascii	"\000\000\000\000\000\000\000\000\000\000\000\000\000\000\000\000\000\001\000\000\000\000\000\000\000\000\000\000\000\000\000\000\002\003\000\000\000\000\000\000\000\000\000\000\000\000\000\000\000\001\002\003\000\000\000\000\000\000\000\000\000\000\000\000\004\005\000\000\000\000\000\000\000\000\000\000\000\000\000\000\000\001\004\005\000\000\000\000\000\000\000\000\000\000\000\000\002\003\004\005\000\000\000\000\000\000\000\000\000\000\000\000\000\001\002\003\004\005\000\000\000\000\000\000\000\000\000\000\006\007\000\000\000\000\000\000\000\000\000\000\000\000\000\000\000\001\006\007\000\000\000\000\000\000\000\000\000\000\000\000\002\003\006\007\000\000\000\000\000\000\000\000\000\000\000\000\000\001\002\003\006\007\000\000\000\000\000\000\000\000\000\000\004\005\006\007\000\000\000\000\000\000\000\000\000\000\000\000\000\001\004\005\006\007\000\000\000\000\000\000\000\000\000\000\002\003\004\005\006\007\000\000\000\000\000\000\000\000\000\000\000\001\002\003\004\005\006\007\000\000\000\000\000\000\000\000\b\t\000\000\000\000\000\000\000\000\000\000\000\000\000\000\000\001\b\t\000\000\000\000\000\000\000\000\000\000\000\000\002\003\b\t\000\000\000\000\000\000\000\000\000\000\000\000\000\001\002\003\b\t\000\000\000\000\000\000\000\000\000\000\004\005\b\t\000\000\000\000\000\000\000\000\000\000\000\000\000\001\004\005\b\t\000\000\000\000\000\000\000\000\000\000\002\003\004\005\b\t\000\000\000\000\000\000\000\000\000\000\000\001\002\003\004\005\b\t\000\000\000\000\000\000\000\000\006\007\b\t\000\000\000\000\000\000\000\000\000\000\000\000\000\001\006\007\b\t\000\000\000\000\000\000\000\000\000\000\002\003\006\007\b\t\000\000\000\000\000\000\000\000\000\000\000\001\002\003\006\007\b\t\000\000\000\000\000\000\000\000\004\005\006\007\b\t\000\000\000\000\000\000\000\000\000\000\000\001\004\005\006\007\b\t\000\000\000\000\000\000\000\000\002\003\004\005\006\007\b\t\000\000\000\000\000\000\000\000\000\001\002\003\004\005\006\007\b\t\000\000\000\000\000\000\n\013\000\000\000\000\000\000\000\000\000\000\000\000\000\000\000\001\n\013\000\000\000\000\000\000\000\000\000\000\000\000\002\003\n\013\000\000\000\000\000\000\000\000\000\000\000\000\000\001\002\003\n\013\000\000\000\000\000\000\000\000\000\000\004\005\n\013\000\000\000\000\000\000\000\000\000\000\000\000\000\001\004\005\n\013\000\000\000\000\000\000\000\000\000\000\002\003\004\005\n\013\000\000\000\000\000\000\000\000\000\000\000\001\002\003\004\005\n\013\000\000\000\000\000\000\000\000\006\007\n\013\000\000\000\000\000\000\000\000\000\000\000\000\000\001\006\007\n\013\000\000\000\000\000\000\000\000\000\000\002\003\006\007\n\013\000\000\000\000\000\000\000\000\000\000\000\001\002\003\006\007\n\013\000\000\000\000\000\000\000\000\004\005\006\007\n\013\000\000\000\000\000\000\000\000\000\000\000\001\004\005\006\007\n\013\000\000\000\000\000\000\000\000\002\003\004\005\006\007\n\013\000\000\000\000\000\000\000\000\000\001\002\003\004\005\006\007\n\013\000\000\000\000\000\000\b\t\n\013\000\000\000\000\000\000\000\000\000\000\000\000\000\001\b\t\n\013\000\000\000\000\000\000\000\000\000\000\002\003\b\t\n\013\000\000\000\000\000\000\000\000\000\000\000\001\002\003\b\t\n\013\000\000\000\000\000\000\000\000\004\005\b\t\n\013\000\000\000\000\000\000\000\000\000\000\000\001\004\005\b\t\n\013\000\000\000\000\000\000\000\000\002\003\004\005\b\t\n\013\000\000\000\000\000\000\000\000\000\001\002\003\004\005\b\t\n\013\000\000\000\000\000\000\006\007\b\t\n\013\000\000\000\000\000\000\000\000\000\000\000\001\006\007\b\t\n\013\000\000\000\000\000\000\000\000\002\003\006\007\b\t\n\013\000\000\000\000\000\000\000\000\000\001\002\003\006\007\b\t\n\013\000\000\000\000\000\000\004\005\006\007\b\t\n\013\000\000\000\000\000\000\000\000\000\001\004\005\006\007\b\t\n\013\000\000\000\000\000\000\002\003\004\005\006\007\b\t\n\013\000\000\000\000\000\000\000\001\002\003\004\005\006\007\b\t\n\013\000\000\000\000\f\r\000\000\000\000\000\000\000\000\000\000\000\000\000\000\000\001\f\r\000\000\000\000\000\000\000\000\000\000\000\000\002\003\f\r\000\000\000\000\000\000\000\000\000\000\000\000\000\001\002\003\f\r\000\000\000\000\000\000\000\000\000\000\004\005\f\r\000\000\000\000\000\000\000\000\000\000\000\000\000\001\004\005\f\r\000\000\000\000\000\000\000\000\000\000\002\003\004\005\f\r\000\000\000\000\000\000\000\000\000\000\000\001\002\003\004\005\f\r\000\000\000\000\000\000\000\000\006\007\f\r\000\000\000\000\000\000\000\000\000\000\000\000\000\001\006\007\f\r\000\000\000\000\000\000\000\000\000\000\002\003\006\007\f\r\000\000\000\000\000\000\000\000\000\000\000\001\002\003\006\007\f\r\000\000\000\000\000\000\000\000\004\005\006\007\f\r\000\000\000\000\000\000\000\000\000\000\000\001\004\005\006\007\f\r\000\000\000\000\000\000\000\000\002\003\004\005\006\007\f\r\000\000\000\000\000\000\000\000\000\001\002\003\004\005\006\007\f\r\000\000\000\000\000\000\b\t\f\r\000\000\000\000\000\000\000\000\000\000\000\000\000\001\b\t\f\r\000\000\000\000\000\000\000\000\000\000\002\003\b\t\f\r\000\000\000\000\000\000\000\000\000\000\000\001\002\003\b\t\f\r\000\000\000\000\000\000\000\000\004\005\b\t\f\r\000\000\000\000\000\000\000\000\000\000\000\001\004\005\b\t\f\r\000\000\000\000\000\000\000\000\002\003\004\005\b\t\f\r\000\000\000\000\000\000\000\000\000\001\002\003\004\005\b\t\f\r\000\000\000\000\000\000\006\007\b\t\f\r\000\000\000\000\000\000\000\000\000\000\000\001\006\007\b\t\f\r\000\000\000\000\000\000\000\000\002\003\006\007\b\t\f\r\000\000\000\000\000\000\000\000\000\001\002\003\006\007\b\t\f\r\000\000\000\000\000\000\004\005\006\007\b\t\f\r\000\000\000\000\000\000\000\000\000\001\004\005\006\007\b\t\f\r\000\000\000\000\000\000\002\003\004\005\006\007\b\t\f\r\000\000\000\000\000\000\000\001\002\003\004\005\006\007\b\t\f\r\000\000\000\000\n\013\f\r\000\000\000\000\000\000\000\000\000\000\000\000\000\001\n\013\f\r\000\000\000\000\000\000\000\000\000\000\002\003\n\013\f\r\000\000\000\000\000\000\000\000\000\000\000\001\002\003\n\013\f\r\000\000\000\000\000\000\000\000\004\005\n\013\f\r\000\000\000\000\000\000\000\000\000\000\000\001\004\005\n\013\f\r\000\000\000\000\000\000\000\000\002\003\004\005\n\013\f\r\000\000\000\000\000\000\000\000\000\001\002\003\004\005\n\013\f\r\000\000\000\000\000\000\006\007\n\013\f\r\000\000\000\000\000\000\000\000\000\000\000\001\006\007\n\013\f\r\000\000\000\000\000\000\000\000\002\003\006\007\n\013\f\r\000\000\000\000\000\000\000\000\000\001\002\003\006\007\n\013\f\r\000\000\000\000\000\000\004\005\006\007\n\013\f\r\000\000\000\000\000\000\000\000\000\001\004\005\006\007\n\013\f\r\000\000\000\000\000\000\002\003\004\005\006\007\n\013\f\r\000\000\000\000\000\000\000\001\002\003\004\005\006\007\n\013\f\r\000\000\000\000\b\t\n\013\f\r\000\000\000\000\000\000\000\000\000\000\000\001\b\t\n\013\f\r\000\000\000\000\000\000\000\000\002\003\b\t\n\013\f\r\000\000\000\000\000\000\000\000\000\001\002\003\b\t\n\013\f\r\000\000\000\000\000\000\004\005\b\t\n\013\f\r\000\000\000\000\000\000\000\000\000\001\004\005\b\t\n\013\f\r\000\000\000\000\000\000\002\003\004\005\b\t\n\013\f\r\000\000\000\000\000\000\000\001\002\003\004\005\b\t\n\013\f\r\000\000\000\000\006\007\b\t\n\013\f\r\000\000\000\000\000\000\000\000\000\001\006\007\b\t\n\013\f\r\000\000\000\000\000\000\002\003\006\007\b\t\n\013\f\r\000\000\000\000\000\000\000\001\002\003\006\007\b\t\n\013\f\r\000\000\000\000\004\005\006\007\b\t\n\013\f\r\000\000\000\000\000\000\000\001\004\005\006\007\b\t\n\013\f\r\000\000\000\000\002\003\004\005\006\007\b\t\n\013\f\r\000\000\000\000\000\001\002\003\004\005\006\007\b\t\n\013\f\r\000\000\016\017\000\000\000\000\000\000\000\000\000\000\000\000\000\000\000\001\016\017\000\000\000\000\000\000\000\000\000\000\000\000\002\003\016\017\000\000\000\000\000\000\000\000\000\000\000\000\000\001\002\003\016\017\000\000\000\000\000\000\000\000\000\000\004\005\016\017\000\000\000\000\000\000\000\000\000\000\000\000\000\001\004\005\016\017\000\000\000\000\000\000\000\000\000\000\002\003\004\005\016\017\000\000\000\000\000\000\000\000\000\000\000\001\002\003\004\005\016\017\000\000\000\000\000\000\000\000\006\007\016\017\000\000\000\000\000\000\000\000\000\000\000\000\000\001\006\007\016\017\000\000\000\000\000\000\000\000\000\000\002\003\006\007\016\017\000\000\000\000\000\000\000\000\000\000\000\001\002\003\006\007\016\017\000\000\000\000\000\000\000\000\004\005\006\007\016\017\000\000\000\000\000\000\000\000\000\000\000\001\004\005\006\007\016\017\000\000\000\000\000\000\000\000\002\003\004\005\006\007\016\017\000\000\000\000\000\000\000\000\000\001\002\003\004\005\006\007\016\017\000\000\000\000\000\000\b\t\016\017\000\000\000\000\000\000\000\000\000\000\000\000\000\001\b\t\016\017\000\000\000\000\000\000\000\000\000\000\002\003\b\t\016\017\000\000\000\000\000\000\000\000\000\000\000\001\002\003\b\t\016\017\000\000\000\000\000\000\000\000\004\005\b\t\016\017\000\000\000\000\000\000\000\000\000\000\000\001\004\005\b\t\016\017\000\000\000\000\000\000\000\000\002\003\004\005\b\t\016\017\000\000\000\000\000\000\000\000\000\001\002\003\004\005\b\t\016\017\000\000\000\000\000\000\006\007\b\t\016\017\000\000\000\000\000\000\000\000\000\000\000\001\006\007\b\t\016\017\000\000\000\000\000\000\000\000\002\003\006\007\b\t\016\017\000\000\000\000\000\000\000\000\000\001\002\003\006\007\b\t\016\017\000\000\000\000\000\000\004\005\006\007\b\t\016\017\000\000\000\000\000\000\000\000\000\001\004\005\006\007\b\t\016\017\000\000\000\000\000\000\002\003\004\005\006\007\b\t\016\017\000\000\000\000\000\000\000\001\002\003\004\005\006\007\b\t\016\017\000\000\000\000\n\013\016\017\000\000\000\000\000\000\000\000\000\000\000\000\000\001\n\013\016\017\000\000\000\000\000\000\000\000\000\000\002\003\n\013\016\017\000\000\000\000\000\000\000\000\000\000\000\001\002\003\n\013\016\017\000\000\000\000\000\000\000\000\004\005\n\013\016\017\000\000\000\000\000\000\000\000\000\000\000\001\004\005\n\013\016\017\000\000\000\000\000\000\000\000\002\003\004\005\n\013\016\017\000\000\000\000\000\000\000\000\000\001\002\003\004\005\n\013\016\017\000\000\000\000\000\000\006\007\n\013\016\017\000\000\000\000\000\000\000\000\000\000\000\001\006\007\n\013\016\017\000\000\000\000\000\000\000\000\002\003\006\007\n\013\016\017\000\000\000\000\000\000\000\000\000\001\002\003\006\007\n\013\016\017\000\000\000\000\000\000\004\005\006\007\n\013\016\017\000\000\000\000\000\000\000\000\000\001\004\005\006\007\n\013\016\017\000\000\000\000\000\000\002\003\004\005\006\007\n\013\016\017\000\000\000\000\000\000\000\001\002\003\004\005\006\007\n\013\016\017\000\000\000\000\b\t\n\013\016\017\000\000\000\000\000\000\000\000\000\000\000\001\b\t\n\013\016\017\000\000\000\000\000\000\000\000\002\003\b\t\n\013\016\017\000\000\000\000\000\000\000\000\000\001\002\003\b\t\n\013\016\017\000\000\000\000\000\000\004\005\b\t\n\013\016\017\000\000\000\000\000\000\000\000\000\001\004\005\b\t\n\013\016\017\000\000\000\000\000\000\002\003\004\005\b\t\n\013\016\017\000\000\000\000\000\000\000\001\002\003\004\005\b\t\n\013\016\017\000\000\000\000\006\007\b\t\n\013\016\017\000\000\000\000\000\000\000\000\000\001\006\007\b\t\n\013\016\017\000\000\000\000\000\000\002\003\006\007\b\t\n\013\016\017\000\000\000\000\000\000\000\001\002\003\006\007\b\t\n\013\016\017\000\000\000\000\004\005\006\007\b\t\n\013\016\017\000\000\000\000\000\000\000\001\004\005\006\007\b\t\n\013\016\017\000\000\000\000\002\003\004\005\006\007\b\t\n\013\016\017\000\000\000\000\000\001\002\003\004\005\006\007\b\t\n\013\016\017\000\000\f\r\016\017\000\000\000\000\000\000\000\000\000\000\000\000\000\001\f\r\016\017\000\000\000\000\000\000\000\000\000\000\002\003\f\r\016\017\000\000\000\000\000\000\000\000\000\000\000\001\002\003\f\r\016\017\000\000\000\000\000\000\000\000\004\005\f\r\016\017\000\000\000\000\000\000\000\000\000\000\000\001\004\005\f\r\016\017\000\000\000\000\000\000\000\000\002\003\004\005\f\r\016\017\000\000\000\000\000\000\000\000\000\001\002\003\004\005\f\r\016\017\000\000\000\000\000\000\006\007\f\r\016\017\000\000\000\000\000\000\000\000\000\000\000\001\006\007\f\r\016\017\000\000\000\000\000\000\000\000\002\003\006\007\f\r\016\017\000\000\000\000\000\000\000\000\000\001\002\003\006\007\f\r\016\017\000\000\000\000\000\000\004\005\006\007\f\r\016\017\000\000\000\000\000\000\000\000\000\001\004\005\006\007\f\r\016\017\000\000\000\000\000\000\002\003\004\005\006\007\f\r\016\017\000\000\000\000\000\000\000\001\002\003\004\005\006\007\f\r\016\017\000\000\000\000\b\t\f\r\016\017\000\000\000\000\000\000\000\000\000\000\000\001\b\t\f\r\016\017\000\000\000\000\000\000\000\000\002\003\b\t\f\r\016\017\000\000\000\000\000\000\000\000\000\001\002\003\b\t\f\r\016\017\000\000\000\000\000\000\004\005\b\t\f\r\016\017\000\000\000\000\000\000\000\000\000\001\004\005\b\t\f\r\016\017\000\000\000\000\000\000\002\003\004\005\b\t\f\r\016\017\000\000\000\000\000\000\000\001\002\003\004\005\b\t\f\r\016\017\000\000\000\000\006\007\b\t\f\r\016\017\000\000\000\000\000\000\000\000\000\001\006\007\b\t\f\r\016\017\000\000\000\000\000\000\002\003\006\007\b\t\f\r\016\017\000\000\000\000\000\000\000\001\002\003\006\007\b\t\f\r\016\017\000\000\000\000\004\005\006\007\b\t\f\r\016\017\000\000\000\000\000\000\000\001\004\005\006\007\b\t\f\r\016\017\000\000\000\000\002\003\004\005\006\007\b\t\f\r\016\017\000\000\000\000\000\001\002\003\004\005\006\007\b\t\f\r\016\017\000\000\n\013\f\r\016\017\000\000\000\000\000\000\000\000\000\000\000\001\n\013\f\r\016\017\000\000\000\000\000\000\000\000\002\003\n\013\f\r\016\017\000\000\000\000\000\000\000\000\000\001\002\003\n\013\f\r\016\017\000\000\000\000\000\000\004\005\n\013\f\r\016\017\000\000\000\000\000\000\000\000\000\001\004\005\n\013\f\r\016\017\000\000\000\000\000\000\002\003\004\005\n\013\f\r\016\017\000\000\000\000\000\000\000\001\002\003\004\005\n\013\f\r\016\017\000\000\000\000\006\007\n\013\f\r\016\017\000\000\000\000\000\000\000\000\000\001\006\007\n\013\f\r\016\017\000\000\000\000\000\000\002\003\006\007\n\013\f\r\016\017\000\000\000\000\000\000\000\001\002\003\006\007\n\013\f\r\016\017\000\000\000\000\004\005\006\007\n\013\f\r\016\017\000\000\000\000\000\000\000\001\004\005\006\007\n\013\f\r\016\017\000\000\000\000\002\003\004\005\006\007\n\013\f\r\016\017\000\000\000\000\000\001\002\003\004\005\006\007\n\013\f\r\016\017\000\000\b\t\n\013\f\r\016\017\000\000\000\000\000\000\000\000\000\001\b\t\n\013\f\r\016\017\000\000\000\000\000\000\002\003\b\t\n\013\f\r\016\017\000\000\000\000\000\000\000\001\002\003\b\t\n\013\f\r\016\017\000\000\000\000\004\005\b\t\n\013\f\r\016\017\000\000\000\000\000\000\000\001\004\005\b\t\n\013\f\r\016\017\000\000\000\000\002\003\004\005\b\t\n\013\f\r\016\017\000\000\000\000\000\001\002\003\004\005\b\t\n\013\f\r\016\017\000\000\006\007\b\t\n\013\f\r\016\017\000\000\000\000\000\000\000\001\006\007\b\t\n\013\f\r\016\017\000\000\000\000\002\003\006\007\b\t\n\013\f\r\016\017\000\000\000\000\000\001\002\003\006\007\b\t\n\013\f\r\016\017\000\000\004\005\006\007\b\t\n\013\f\r\016\017\000\000\000\000\000\001\004\005\006\007\b\t\n\013\f\r\016\017\000\000\002\003\004\005\006\007\b\t\n\013\f\r\016\017\000\000\000\001\002\003\004\005\006\007\b\t\n\013\f\r\016\017"
	.size	.Lstatic.13, 4096

	.type	.Lstatic.25,@object
	.section	.rodata..Lstatic.25,"a",@progbits
.Lstatic.25:
	.ascii	"usage: "
	.size	.Lstatic.25, 7

	.type	.Lstatic.26,@object
	.section	.rodata..Lstatic.26,"a",@progbits
.Lstatic.26:
	.ascii	": read failed\n"
	.size	.Lstatic.26, 14

	.type	.Lstatic.27,@object
	.section	.rodata..Lstatic.27,"a",@progbits
.Lstatic.27:
	.ascii	": write failed\n"
	.size	.Lstatic.27, 15

	.type	.Lstatic.28,@object
	.section	.rodata.cst16,"aM",@progbits,16
.Lstatic.28:
	.ascii	": out of memory\n"
	.size	.Lstatic.28, 16

	.type	.Lstatic.29,@object
	.section	.rodata..Lstatic.29,"a",@progbits
.Lstatic.29:
	.ascii	": input too long\n"
	.size	.Lstatic.29, 17

	.type	.Lstatic.31,@object
	.section	.rodata..Lstatic.31,"a",@progbits
.Lstatic.31:
	.ascii	" le|be|le-bom|be-bom\n"
	.size	.Lstatic.31, 21

	.type	.Lstatic.33,@object
	.section	.rodata..Lstatic.33,"a",@progbits
.Lstatic.33:
	.ascii	"utf16_enc"
	.size	.Lstatic.33, 9

	.ident	"rattle logic=dac8208d650f15bf3e2dc313a14fa4c783a3acf887bdfab66e1714b038d9e11b"
	.section	".note.GNU-stack","",@progbits

/* A GNU property that names CET. */
	.section	.note.gnu.property,"a",@note
	.p2align	3
	.long	4, 16, 5
	.asciz	"GNU"
	.long	0xc0000002, 4, 3, 0
