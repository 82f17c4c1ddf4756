/* SPDX-License-Identifier: MIT OR Apache-2.0
 * utf16_cat 0.2.0, as assembly for Linux on x86-64-v3. packaging/assembly
 * wrote it from the code that rt proved in logic dac8208d650f15bf: do not edit it. */
	.section	".text.utf16_cat::main+start","ax",@progbits
	.p2align	4
	.type	"utf16_cat::main+start",@function
"utf16_cat::main+start":
	.cfi_startproc
	pushq	%rbp
	.cfi_def_cfa_offset 16
	pushq	%r15
	.cfi_def_cfa_offset 24
	pushq	%r14
	.cfi_def_cfa_offset 32
	pushq	%r13
	.cfi_def_cfa_offset 40
	pushq	%r12
	.cfi_def_cfa_offset 48
	pushq	%rbx
	.cfi_def_cfa_offset 56
	subq	$3072, %rsp
	.cfi_adjust_cfa_offset 3072
	movq	$0, (%rsp)
	subq	$1256, %rsp
	.cfi_def_cfa_offset 4384
	.cfi_offset %rbx, -56
	.cfi_offset %r12, -48
	.cfi_offset %r13, -40
	.cfi_offset %r14, -32
	.cfi_offset %r15, -24
	.cfi_offset %rbp, -16
	leaq	8(%rsp), %rax
	movq	%rax, 96(%rsp)
	movq	%rax, 104(%rsp)
	vxorps	%xmm0, %xmm0, %xmm0
	vmovups	%xmm0, 112(%rsp)
	xorl	%edx, %edx
	movq	$0, 32(%rsp)
.LBB0_1:
	movq	%rdx, 16(%rsp)
	movl	$256, %r15d
	movl	$64, %r14d
	jmp	.LBB0_3
	.p2align	4
.LBB0_2:
	movq	%r15, %rax
	addq	%r15, %rax
	movq	$-1, %r15
	cmovaeq	%rax, %r15
	decl	%r14d
	je	.LBB0_60
.LBB0_3:
	leaq	8(%rsp), %r12
	movq	%r12, 224(%rsp)
	vxorps	%xmm0, %xmm0, %xmm0
	leaq	232(%rsp), %rax
	vmovups	%xmm0, (%rax)
	testq	%r15, %r15
	jne	.LBB0_8
	xorl	%ebp, %ebp
	xorl	%r13d, %r13d
.LBB0_5:
	movq	32(%rsp), %rdi
	movq	%r12, %rsi
	movq	%r13, %rdx
	callq	rattle_arg@PLT
	movq	%rax, %rbx
	cmpq	$-1, %rax
	movl	$22, %eax
	movl	$36, %edi
	cmovel	%eax, %edi
	testq	%rbx, %rbx
	cmovnsl	%ebp, %edi
	callq	rattle_set_errno@PLT
	callq	rattle_errno@PLT
	cmpl	$36, %eax
	jne	.LBB0_11
	cmpq	$0, 240(%rsp)
	je	.LBB0_2
	movq	%r12, %rdi
	callq	rattle_dealloc@PLT
	jmp	.LBB0_2
.LBB0_8:
	leaq	224(%rsp), %rdi
	movq	%r15, %rsi
	callq	"std_alloc::vec::Vec::grow_amortized::<#9514263aca3ecb2c>"
	testb	%al, %al
	je	.LBB0_58
	movq	224(%rsp), %r12
	movq	232(%rsp), %rdi
	leaq	(%rdi,%r15), %r13
	xorl	%ebp, %ebp
	cmpq	%r13, %rdi
	jae	.LBB0_5
	addq	%r12, %rdi
	xorl	%esi, %esi
	movq	%r15, %rdx
	callq	memset@PLT
	jmp	.LBB0_5
	.p2align	4
.LBB0_11:
	testl	%eax, %eax
	jne	.LBB0_17
	cmpq	%r13, %rbx
	cmovbq	%rbx, %r13
	xorl	%r15d, %r15d
	testq	%rbx, %rbx
	cmovgq	%r13, %r15
	movq	240(%rsp), %rbx
	vxorps	%xmm0, %xmm0, %xmm0
	vmovaps	%xmm0, 224(%rsp)
	movq	$0, 240(%rsp)
	leaq	224(%rsp), %r13
	movq	%r13, %rdi
	movq	%r12, %rsi
	movq	%r15, %rdx
	callq	"core::str::utf8::from_utf8"
	cmpb	$1, 224(%rsp)
	je	.LBB0_186
	movq	16(%rsp), %rdx
	cmpq	%rdx, 120(%rsp)
	je	.LBB0_15
.LBB0_14:
	leaq	(%rdx,%rdx,2), %rax
	movq	96(%rsp), %rcx
	movq	%r12, (%rcx,%rax,8)
	movq	%r15, 8(%rcx,%rax,8)
	movq	%rbx, 16(%rcx,%rax,8)
	incq	%rdx
	movq	%rdx, 112(%rsp)
	movq	32(%rsp), %rcx
	incq	%rcx
	movq	%rcx, 32(%rsp)
	cmpq	$-1, %rcx
	jne	.LBB0_1
	jmp	.LBB0_20
.LBB0_15:
	leaq	104(%rsp), %r13
	movq	%r13, %rdi
	callq	"std_alloc::vec::Vec::grow_amortized::<#968d335fc558f578>"
	testb	%al, %al
	je	.LBB0_224
	movq	104(%rsp), %rax
	movq	%rax, 96(%rsp)
	movq	112(%rsp), %rdx
	jmp	.LBB0_14
.LBB0_17:
	cmpq	$0, 240(%rsp)
	je	.LBB0_19
	movq	%r12, %rdi
	callq	rattle_dealloc@PLT
.LBB0_19:
	movq	16(%rsp), %rdx
.LBB0_20:
	movq	104(%rsp), %r14
	movq	120(%rsp), %rax
	testq	%rdx, %rdx
	je	.LBB0_32
	movq	%rax, 32(%rsp)
	movq	(%r14), %rdi
	movq	16(%r14), %rbx
	cmpq	$1, %rdx
	jne	.LBB0_33
	xorl	%ebp, %ebp
	xorl	%r15d, %r15d
	xorl	%r13d, %r13d
	xorl	%r12d, %r12d
	testq	%rbx, %rbx
	je	.LBB0_24
.LBB0_23:
	callq	rattle_dealloc@PLT
.LBB0_24:
	movq	32(%rsp), %rax
	testq	%rax, %rax
	je	.LBB0_26
.LBB0_25:
	movq	%r14, %rdi
	callq	rattle_dealloc@PLT
.LBB0_26:
	testb	%bpl, %bpl
	je	.LBB0_45
	cmpq	$4, %r13
	je	.LBB0_50
	cmpq	$2, %r13
	jne	.LBB0_52
	movzbl	(%r15), %ecx
	movzbl	1(%r15), %edx
	shll	$16, %ecx
	movl	%edx, %eax
	shll	$8, %eax
	orl	%ecx, %eax
	orl	%edx, %eax
	cmpl	$7103845, %eax
	je	.LBB0_84
	cmpl	$6448485, %eax
	jne	.LBB0_52
	movb	$1, %bl
	xorl	%ebp, %ebp
	jmp	.LBB0_86
.LBB0_32:
	xorl	%ebp, %ebp
	xorl	%r15d, %r15d
	xorl	%r13d, %r13d
	xorl	%r12d, %r12d
	testq	%rax, %rax
	jne	.LBB0_25
	jmp	.LBB0_26
.LBB0_33:
	movq	24(%r14), %r15
	movq	40(%r14), %r12
	cmpq	$2, %rdx
	jne	.LBB0_35
	movq	32(%r14), %r13
	movb	$1, %bpl
	testq	%rbx, %rbx
	jne	.LBB0_23
	jmp	.LBB0_24
.LBB0_35:
	movq	%rdx, %rbp
	cmpq	$0, 64(%r14)
	je	.LBB0_37
	movq	%rdi, %r13
	movq	48(%r14), %rdi
	callq	rattle_dealloc@PLT
	movq	%r13, %rdi
.LBB0_37:
	testq	%r12, %r12
	je	.LBB0_39
	movq	%rdi, %r12
	movq	%r15, %rdi
	callq	rattle_dealloc@PLT
	movq	%r12, %rdi
.LBB0_39:
	testq	%rbx, %rbx
	je	.LBB0_41
	callq	rattle_dealloc@PLT
.LBB0_41:
	cmpq	$3, %rbp
	jne	.LBB0_54
.LBB0_42:
	cmpq	$0, 32(%rsp)
	je	.LBB0_45
	movq	%r14, %rdi
	jmp	.LBB0_44
.LBB0_50:
	movl	(%r15), %eax
	movq	%rax, %rcx
	shlq	$32, %rcx
	orq	%rax, %rcx
	movabsq	$8031173096850617697, %rax
	cmpq	%rax, %rcx
	jne	.LBB0_52
	movb	$1, %bpl
	jmp	.LBB0_85
.LBB0_52:
	testq	%r12, %r12
	je	.LBB0_45
	movq	%r15, %rdi
.LBB0_44:
	callq	rattle_dealloc@PLT
	jmp	.LBB0_45
.LBB0_54:
	addq	$-3, %rbp
	leaq	88(%r14), %rbx
	jmp	.LBB0_56
	.p2align	4
.LBB0_55:
	addq	$24, %rbx
	decq	%rbp
	je	.LBB0_42
.LBB0_56:
	cmpq	$0, (%rbx)
	je	.LBB0_55
	movq	-16(%rbx), %rdi
	callq	rattle_dealloc@PLT
	jmp	.LBB0_55
.LBB0_58:
	cmpq	$0, 240(%rsp)
	je	.LBB0_60
	movq	224(%rsp), %rdi
	callq	rattle_dealloc@PLT
.LBB0_60:
	movq	120(%rsp), %rbx
	movq	16(%rsp), %r15
	testq	%r15, %r15
	je	.LBB0_65
	movq	96(%rsp), %rax
	leaq	16(%rax), %r14
	jmp	.LBB0_63
	.p2align	4
.LBB0_62:
	addq	$24, %r14
	decq	%r15
	je	.LBB0_65
.LBB0_63:
	cmpq	$0, (%r14)
	je	.LBB0_62
	movq	-16(%r14), %rdi
	callq	rattle_dealloc@PLT
	jmp	.LBB0_62
.LBB0_65:
	leaq	104(%rsp), %r13
	testq	%rbx, %rbx
	je	.LBB0_68
	movq	96(%rsp), %rdi
.LBB0_67:
	callq	rattle_dealloc@PLT
.LBB0_68:
	movb	$21, 224(%rsp)
	movb	$38, 104(%rsp)
	cmpb	$38, (%r13)
	jne	.LBB0_45
.LBB0_69:
	leaq	.Lstatic.28(%rip), %r14
	movl	$16, %r15d
.LBB0_70:
	xorl	%ebp, %ebp
	jmp	.LBB0_71
.LBB0_45:
	xorl	%r15d, %r15d
	.p2align	4
.LBB0_46:
	leaq	.Lstatic.25(%rip), %rsi
	addq	%r15, %rsi
	movq	%r15, %r14
	xorq	$7, %r14
	movl	$2, %ebx
	movl	$2, %edi
	movq	%r14, %rdx
	callq	write@PLT
	testq	%rax, %rax
	js	.LBB0_82
	cmpq	%r14, %rax
	cmovbq	%rax, %r14
	testq	%r14, %r14
	je	.LBB0_83
	addq	%r14, %r15
	cmpq	$6, %r15
	jbe	.LBB0_46
	leaq	.Lstatic.30(%rip), %r14
	movl	$12, %r15d
	movb	$1, %bpl
.LBB0_71:
	xorl	%r12d, %r12d
	.p2align	4
.LBB0_72:
	leaq	.Lstatic.32(%rip), %rsi
	addq	%r12, %rsi
	movl	$9, %ebx
	subq	%r12, %rbx
	movl	$2, %edi
	movq	%rbx, %rdx
	callq	write@PLT
	testq	%rax, %rax
	js	.LBB0_79
	cmpq	%rbx, %rax
	cmovbq	%rax, %rbx
	testq	%rbx, %rbx
	je	.LBB0_80
	addq	%rbx, %r12
	cmpq	$9, %r12
	jb	.LBB0_72
	xorl	%r12d, %r12d
	.p2align	4
.LBB0_76:
	leaq	(%r14,%r12), %rsi
	movq	%r15, %rbx
	subq	%r12, %rbx
	movl	$2, %edi
	movq	%rbx, %rdx
	callq	write@PLT
	testq	%rax, %rax
	js	.LBB0_79
	cmpq	%rbx, %rax
	cmovbq	%rax, %rbx
	testq	%rbx, %rbx
	je	.LBB0_80
	addq	%rbx, %r12
	cmpq	%r15, %r12
	jb	.LBB0_76
	jmp	.LBB0_80
.LBB0_79:
	leaq	224(%rsp), %rdi
	callq	"std_io::io::error::last_error"
.LBB0_80:
	movl	$2, %ebx
	testb	%bpl, %bpl
	jne	.LBB0_83
.LBB0_81:
	movl	$1, %ebx
	jmp	.LBB0_83
.LBB0_82:
	leaq	224(%rsp), %rdi
	callq	"std_io::io::error::last_error"
.LBB0_83:
	movl	%ebx, %eax
	addq	$4328, %rsp
	.cfi_def_cfa_offset 56
	popq	%rbx
	.cfi_def_cfa_offset 48
	popq	%r12
	.cfi_def_cfa_offset 40
	popq	%r13
	.cfi_def_cfa_offset 32
	popq	%r14
	.cfi_def_cfa_offset 24
	popq	%r15
	.cfi_def_cfa_offset 16
	popq	%rbp
	.cfi_def_cfa_offset 8
	retq
.LBB0_84:
	.cfi_def_cfa_offset 4384
	xorl	%ebp, %ebp
.LBB0_85:
	xorl	%ebx, %ebx
.LBB0_86:
	testq	%r12, %r12
	je	.LBB0_88
	movq	%r15, %rdi
	callq	rattle_dealloc@PLT
.LBB0_88:
	testb	%bpl, %bpl
	je	.LBB0_132
	movb	$0, 24(%rsp)
	movl	$0, 25(%rsp)
	leaq	224(%rsp), %rdi
	movq	$0, 88(%rsp)
	movl	$4096, %edx
	xorl	%esi, %esi
	callq	memset@PLT
	vxorps	%xmm0, %xmm0, %xmm0
	vmovaps	%xmm0, 192(%rsp)
	movq	$0, 208(%rsp)
	leaq	8(%rsp), %rax
	movq	%rax, 40(%rsp)
	vmovups	%xmm0, 48(%rsp)
	movq	$0, 32(%rsp)
	movq	$0, 16(%rsp)
	xorl	%r13d, %r13d
.LBB0_92:
	leaq	224(%rsp), %rbp
	movl	$4096, %r12d
	movl	$4096, %edx
	xorl	%edi, %edi
	movq	%rbp, %rsi
	callq	read@PLT
	testq	%rax, %rax
	js	.LBB0_206
	movq	%rax, %r14
	cmpq	$4096, %rax
	cmovbq	%rax, %r12
	testq	%rax, %rax
	je	.LBB0_208
	cmpq	$8, %r14
	movq	%r13, 96(%rsp)
	jae	.LBB0_96
	movl	$24, %r15d
	leaq	192(%rsp), %r13
	movq	32(%rsp), %rdi
	jmp	.LBB0_108
.LBB0_96:
	cmpq	$0, 16(%rsp)
	movq	32(%rsp), %rdi
	jne	.LBB0_102
	leaq	-1(%rdi), %rax
	cmpq	$-8704, %rax
	jae	.LBB0_99
	movq	$0, 16(%rsp)
	jmp	.LBB0_102
.LBB0_99:
	movb	$4, %r15b
	cmpq	$-8705, %rdi
	ja	.LBB0_194
	leaq	8704(%rdi), %rbx
	movl	$1, %esi
	movq	%rbx, %rdi
	callq	rattle_alloc@PLT
	testb	$1, %al
	je	.LBB0_194
	movq	%rdx, 40(%rsp)
	movq	%rbx, 56(%rsp)
	movl	$8704, %eax
	movq	%rax, 88(%rsp)
	movq	%rax, 16(%rsp)
	movq	32(%rsp), %rdi
.LBB0_102:
	leaq	512(,%r12,2), %rbx
	subq	%rdi, %rbx
	jbe	.LBB0_107
	movq	16(%rsp), %rax
	subq	%rdi, %rax
	cmpq	%rax, %rbx
	ja	.LBB0_130
	leaq	(%rdi,%rbx), %r15
	movq	40(%rsp), %r13
	cmpq	%r15, %rdi
	jae	.LBB0_106
.LBB0_105:
	addq	%r13, %rdi
	xorl	%esi, %esi
	movq	%rbx, %rdx
	callq	memset@PLT
.LBB0_106:
	movq	%r15, 48(%rsp)
	movq	16(%rsp), %rax
	movq	%rax, 56(%rsp)
	movq	%rax, 88(%rsp)
	movq	%r15, %rdi
	jmp	.LBB0_108
.LBB0_107:
	movq	40(%rsp), %r13
	movq	%rdi, %r15
.LBB0_108:
	movb	$0, 108(%rsp)
	movl	$0, 104(%rsp)
	movzbl	24(%rsp), %eax
	cmpl	$2, %eax
	movq	%rdi, 32(%rsp)
	je	.LBB0_90
	cmpl	$1, %eax
	jne	.LBB0_111
	leaq	224(%rsp), %rsi
	leaq	25(%rsp), %rdi
	movq	%r12, %rdx
	movq	%r13, %rcx
	movq	%r15, %r8
	callq	"utf16_streams::lossy::LossyTranscoder::feed_to::<#8b18edd9dd9aa8df>"
	movq	%rax, %r14
	testq	%r14, %r14
	jne	.LBB0_126
	jmp	.LBB0_91
.LBB0_90:
	leaq	224(%rsp), %rsi
	leaq	25(%rsp), %rdi
	movq	%r12, %rdx
	movq	%r13, %rcx
	movq	%r15, %r8
	callq	"utf16_streams::lossy::LossyTranscoder::feed_to::<#418c2b53cf60437c>"
	movq	%rax, %r14
	testq	%r14, %r14
	jne	.LBB0_126
	jmp	.LBB0_91
.LBB0_111:
	movzbl	25(%rsp), %ecx
	movzbl	26(%rsp), %eax
	testb	%cl, %cl
	je	.LBB0_113
	leaq	-1(%r12), %rdx
	leaq	225(%rsp), %rsi
	movl	%eax, %r9d
	jmp	.LBB0_116
.LBB0_113:
	cmpq	$1, %r14
	jne	.LBB0_115
	movzbl	224(%rsp), %eax
	shll	$8, %eax
	incl	%eax
	movl	%eax, 105(%rsp)
	xorl	%r14d, %r14d
	jmp	.LBB0_125
.LBB0_115:
	leaq	-2(%r12), %rdx
	movzbl	224(%rsp), %r9d
	leaq	226(%rsp), %rsi
	leaq	225(%rsp), %rbp
.LBB0_116:
	movzbl	(%rbp), %r8d
	cmpb	$-1, %r9b
	je	.LBB0_120
	movzbl	%r9b, %r9d
	cmpl	$254, %r9d
	jne	.LBB0_122
	cmpb	$-1, %r8b
	jne	.LBB0_122
	xorl	%eax, %eax
	movq	%rdx, %r12
	jmp	.LBB0_123
.LBB0_120:
	cmpb	$-2, %r8b
	jne	.LBB0_122
	movb	$2, 104(%rsp)
	leaq	105(%rsp), %rdi
	movq	%r13, %rcx
	movq	%r15, %r8
	callq	"utf16_streams::lossy::LossyTranscoder::feed_to::<#418c2b53cf60437c>"
	jmp	.LBB0_124
.LBB0_122:
	xorl	%edx, %edx
	xorl	%esi, %esi
	cmpb	$1, %cl
	sete	%sil
	movzbl	%al, %eax
	cmovnel	%edx, %eax
	shll	$24, %esi
	movzbl	%al, %eax
	orl	%esi, %eax
	leaq	224(%rsp), %rsi
.LBB0_123:
	movb	$1, 104(%rsp)
	movl	%eax, 105(%rsp)
	leaq	105(%rsp), %rdi
	movq	%r12, %rdx
	movq	%r13, %rcx
	movq	%r15, %r8
	callq	"utf16_streams::lossy::LossyTranscoder::feed_to::<#8b18edd9dd9aa8df>"
.LBB0_124:
	movq	%rax, %r14
.LBB0_125:
	movzbl	104(%rsp), %eax
	movl	105(%rsp), %ecx
	movb	%al, 24(%rsp)
	movl	%ecx, 25(%rsp)
	testq	%r14, %r14
	je	.LBB0_91
.LBB0_126:
	xorl	%r15d, %r15d
	.p2align	4
.LBB0_127:
	leaq	(%r15,%r13), %rsi
	movq	%r14, %rbx
	subq	%r15, %rbx
	movl	$1, %edi
	movq	%rbx, %rdx
	callq	write@PLT
	testq	%rax, %rax
	js	.LBB0_183
	cmpq	%rbx, %rax
	cmovbq	%rax, %rbx
	testq	%rbx, %rbx
	je	.LBB0_184
	addq	%rbx, %r15
	cmpq	%r14, %r15
	jb	.LBB0_127
.LBB0_91:
	movq	96(%rsp), %r13
	incq	%r13
	cmpq	$-1, %r13
	jne	.LBB0_92
	jmp	.LBB0_211
.LBB0_130:
	leaq	40(%rsp), %rdi
	movq	%rbx, %rsi
	callq	"std_alloc::vec::Vec::grow_amortized::<#9514263aca3ecb2c>"
	movq	56(%rsp), %rcx
	movq	%rcx, 16(%rsp)
	testb	%al, %al
	je	.LBB0_274
	movq	48(%rsp), %rdi
	leaq	(%rdi,%rbx), %r15
	movq	40(%rsp), %r13
	cmpq	%r15, %rdi
	jb	.LBB0_105
	jmp	.LBB0_106
.LBB0_132:
	testb	%bl, %bl
	je	.LBB0_158
	movl	$0, 24(%rsp)
	leaq	224(%rsp), %rdi
	movq	$0, 16(%rsp)
	movl	$4096, %edx
	xorl	%esi, %esi
	callq	memset@PLT
	vxorps	%xmm0, %xmm0, %xmm0
	vmovaps	%xmm0, 192(%rsp)
	leaq	8(%rsp), %rax
	movq	%rax, 40(%rsp)
	vmovups	%xmm0, 48(%rsp)
	movq	$0, 208(%rsp)
	xorl	%r13d, %r13d
	xorl	%r12d, %r12d
	xorl	%ebp, %ebp
	jmp	.LBB0_135
.LBB0_134:
	incq	%rbp
	cmpq	$-1, %rbp
	movq	32(%rsp), %r12
	movq	%rbx, %r13
	je	.LBB0_237
.LBB0_135:
	leaq	224(%rsp), %rsi
	movl	$4096, %r14d
	movl	$4096, %edx
	xorl	%edi, %edi
	callq	read@PLT
	testq	%rax, %rax
	js	.LBB0_213
	cmpq	$4096, %rax
	cmovbq	%rax, %r14
	testq	%rax, %rax
	je	.LBB0_217
	cmpq	$8, %rax
	jae	.LBB0_139
	movq	%r13, %rbx
	movq	%r12, 32(%rsp)
	movl	$24, %r8d
	leaq	192(%rsp), %r15
	jmp	.LBB0_151
.LBB0_139:
	testq	%r12, %r12
	jne	.LBB0_145
	leaq	-1(%r13), %rax
	cmpq	$-8704, %rax
	jae	.LBB0_142
	xorl	%r12d, %r12d
	jmp	.LBB0_145
.LBB0_142:
	movb	$4, %r12b
	cmpq	$-8705, %r13
	ja	.LBB0_202
	leaq	8704(%r13), %r15
	movl	$1, %esi
	movq	%r15, %rdi
	callq	rattle_alloc@PLT
	testb	$1, %al
	je	.LBB0_202
	movq	%rdx, 40(%rsp)
	movq	%r15, 56(%rsp)
	movl	$8704, %eax
	movq	%rax, 16(%rsp)
	movl	$8704, %r12d
.LBB0_145:
	leaq	512(,%r14,2), %rdx
	subq	%r13, %rdx
	jbe	.LBB0_150
	movq	%r12, %rax
	subq	%r13, %rax
	cmpq	%rax, %rdx
	ja	.LBB0_156
	leaq	(%rdx,%r13), %r8
	movq	40(%rsp), %r15
	cmpq	%r8, %r13
	jae	.LBB0_149
.LBB0_148:
	addq	%r15, %r13
	movq	%r13, %rdi
	xorl	%esi, %esi
	movq	%r8, %rbx
	callq	memset@PLT
	movq	%rbx, %r8
.LBB0_149:
	movq	%r8, 48(%rsp)
	movq	%r12, 56(%rsp)
	movq	%r12, 32(%rsp)
	movq	%r12, 16(%rsp)
	movq	%r8, %rbx
	jmp	.LBB0_151
.LBB0_150:
	movq	%r12, 32(%rsp)
	movq	40(%rsp), %r15
	movq	%r13, %rbx
	movq	%r13, %r8
.LBB0_151:
	leaq	24(%rsp), %rdi
	leaq	224(%rsp), %rsi
	movq	%r14, %rdx
	movq	%r15, %rcx
	callq	"utf16_streams::lossy::LossyTranscoder::feed_to::<#8b18edd9dd9aa8df>"
	testq	%rax, %rax
	je	.LBB0_134
	movq	%rax, %r14
	xorl	%r13d, %r13d
	.p2align	4
.LBB0_153:
	leaq	(%r15,%r13), %rsi
	movq	%r14, %r12
	subq	%r13, %r12
	movl	$1, %edi
	movq	%r12, %rdx
	callq	write@PLT
	testq	%rax, %rax
	js	.LBB0_195
	cmpq	%r12, %rax
	cmovbq	%rax, %r12
	testq	%r12, %r12
	je	.LBB0_196
	addq	%r12, %r13
	cmpq	%r14, %r13
	jb	.LBB0_153
	jmp	.LBB0_134
.LBB0_156:
	leaq	40(%rsp), %rdi
	movq	%rdx, %r15
	movq	%rdx, %rsi
	callq	"std_alloc::vec::Vec::grow_amortized::<#9514263aca3ecb2c>"
	movq	56(%rsp), %r12
	testb	%al, %al
	je	.LBB0_276
	movq	48(%rsp), %r13
	movq	%r15, %rdx
	leaq	(%rdx,%r13), %r8
	movq	40(%rsp), %r15
	cmpq	%r8, %r13
	jb	.LBB0_148
	jmp	.LBB0_149
.LBB0_158:
	movl	$0, 24(%rsp)
	leaq	224(%rsp), %rdi
	movq	$0, 16(%rsp)
	movl	$4096, %edx
	xorl	%esi, %esi
	callq	memset@PLT
	vxorps	%xmm0, %xmm0, %xmm0
	vmovaps	%xmm0, 192(%rsp)
	leaq	8(%rsp), %rax
	movq	%rax, 40(%rsp)
	vmovups	%xmm0, 48(%rsp)
	movq	$0, 208(%rsp)
	xorl	%r13d, %r13d
	xorl	%r12d, %r12d
	xorl	%ebp, %ebp
	jmp	.LBB0_160
.LBB0_159:
	incq	%rbp
	cmpq	$-1, %rbp
	movq	32(%rsp), %r12
	movq	%rbx, %r13
	je	.LBB0_239
.LBB0_160:
	leaq	224(%rsp), %rsi
	movl	$4096, %r14d
	movl	$4096, %edx
	xorl	%edi, %edi
	callq	read@PLT
	testq	%rax, %rax
	js	.LBB0_215
	cmpq	$4096, %rax
	cmovbq	%rax, %r14
	testq	%rax, %rax
	je	.LBB0_220
	cmpq	$8, %rax
	jae	.LBB0_164
	movq	%r13, %rbx
	movq	%r12, 32(%rsp)
	movl	$24, %r8d
	leaq	192(%rsp), %r15
	jmp	.LBB0_176
.LBB0_164:
	testq	%r12, %r12
	jne	.LBB0_170
	leaq	-1(%r13), %rax
	cmpq	$-8704, %rax
	jae	.LBB0_167
	xorl	%r12d, %r12d
	jmp	.LBB0_170
.LBB0_167:
	movb	$4, %r12b
	cmpq	$-8705, %r13
	ja	.LBB0_204
	leaq	8704(%r13), %r15
	movl	$1, %esi
	movq	%r15, %rdi
	callq	rattle_alloc@PLT
	testb	$1, %al
	je	.LBB0_204
	movq	%rdx, 40(%rsp)
	movq	%r15, 56(%rsp)
	movl	$8704, %eax
	movq	%rax, 16(%rsp)
	movl	$8704, %r12d
.LBB0_170:
	leaq	512(,%r14,2), %rdx
	subq	%r13, %rdx
	jbe	.LBB0_175
	movq	%r12, %rax
	subq	%r13, %rax
	cmpq	%rax, %rdx
	ja	.LBB0_181
	leaq	(%rdx,%r13), %r8
	movq	40(%rsp), %r15
	cmpq	%r8, %r13
	jae	.LBB0_174
.LBB0_173:
	addq	%r15, %r13
	movq	%r13, %rdi
	xorl	%esi, %esi
	movq	%r8, %rbx
	callq	memset@PLT
	movq	%rbx, %r8
.LBB0_174:
	movq	%r8, 48(%rsp)
	movq	%r12, 56(%rsp)
	movq	%r12, 32(%rsp)
	movq	%r12, 16(%rsp)
	movq	%r8, %rbx
	jmp	.LBB0_176
.LBB0_175:
	movq	%r12, 32(%rsp)
	movq	40(%rsp), %r15
	movq	%r13, %rbx
	movq	%r13, %r8
.LBB0_176:
	leaq	24(%rsp), %rdi
	leaq	224(%rsp), %rsi
	movq	%r14, %rdx
	movq	%r15, %rcx
	callq	"utf16_streams::lossy::LossyTranscoder::feed_to::<#418c2b53cf60437c>"
	testq	%rax, %rax
	je	.LBB0_159
	movq	%rax, %r14
	xorl	%r13d, %r13d
	.p2align	4
.LBB0_178:
	leaq	(%r15,%r13), %rsi
	movq	%r14, %r12
	subq	%r13, %r12
	movl	$1, %edi
	movq	%r12, %rdx
	callq	write@PLT
	testq	%rax, %rax
	js	.LBB0_198
	cmpq	%r12, %rax
	cmovbq	%rax, %r12
	testq	%r12, %r12
	je	.LBB0_199
	addq	%r12, %r13
	cmpq	%r14, %r13
	jb	.LBB0_178
	jmp	.LBB0_159
.LBB0_181:
	leaq	40(%rsp), %rdi
	movq	%rdx, %r15
	movq	%rdx, %rsi
	callq	"std_alloc::vec::Vec::grow_amortized::<#9514263aca3ecb2c>"
	movq	56(%rsp), %r12
	testb	%al, %al
	je	.LBB0_278
	movq	48(%rsp), %r13
	movq	%r15, %rdx
	leaq	(%rdx,%r13), %r8
	movq	40(%rsp), %r15
	cmpq	%r8, %r13
	jb	.LBB0_173
	jmp	.LBB0_174
.LBB0_183:
	leaq	104(%rsp), %rdi
	callq	"std_io::io::error::last_error"
.LBB0_184:
	cmpq	$0, 88(%rsp)
	je	.LBB0_193
	movq	40(%rsp), %rdi
	callq	rattle_dealloc@PLT
	movb	$3, %al
	movzbl	%al, %ebx
	leaq	.Lstatic.27(%rip), %r14
	movl	$15, %r15d
	xorl	%ebp, %ebp
	leaq	.LJTI0_0(%rip), %rax
	movslq	(%rax,%rbx,4), %rcx
	addq	%rax, %rcx
	notrack jmpq	*%rcx
.LBB0_186:
	testq	%rbx, %rbx
	je	.LBB0_188
	movq	%r12, %rdi
	callq	rattle_dealloc@PLT
.LBB0_188:
	movq	104(%rsp), %rbx
	movq	120(%rsp), %r14
	movq	16(%rsp), %r12
	testq	%r12, %r12
	je	.LBB0_231
	leaq	16(%rbx), %r15
	jmp	.LBB0_191
	.p2align	4
.LBB0_190:
	addq	$24, %r15
	decq	%r12
	je	.LBB0_231
.LBB0_191:
	cmpq	$0, (%r15)
	je	.LBB0_190
	movq	-16(%r15), %rdi
	callq	rattle_dealloc@PLT
	jmp	.LBB0_190
.LBB0_195:
	leaq	104(%rsp), %rdi
	callq	"std_io::io::error::last_error"
.LBB0_196:
	cmpq	$0, 16(%rsp)
	je	.LBB0_201
	movq	40(%rsp), %rdi
	callq	rattle_dealloc@PLT
	movb	$3, %al
	movzbl	%al, %ebx
	leaq	.Lstatic.27(%rip), %r14
	movl	$15, %r15d
	xorl	%ebp, %ebp
	leaq	.LJTI0_0(%rip), %rax
	movslq	(%rax,%rbx,4), %rcx
	addq	%rax, %rcx
	notrack jmpq	*%rcx
.LBB0_198:
	leaq	104(%rsp), %rdi
	callq	"std_io::io::error::last_error"
.LBB0_199:
	cmpq	$0, 16(%rsp)
	je	.LBB0_203
	movq	40(%rsp), %rdi
	callq	rattle_dealloc@PLT
	movb	$3, %al
	movzbl	%al, %ebx
	leaq	.Lstatic.27(%rip), %r14
	movl	$15, %r15d
	xorl	%ebp, %ebp
	leaq	.LJTI0_0(%rip), %rax
	movslq	(%rax,%rbx,4), %rcx
	addq	%rax, %rcx
	notrack jmpq	*%rcx
.LBB0_206:
	leaq	104(%rsp), %rdi
	callq	"std_io::io::error::last_error"
	cmpq	$0, 88(%rsp)
	je	.LBB0_223
	movq	40(%rsp), %rdi
	callq	rattle_dealloc@PLT
	movb	$2, %al
	movzbl	%al, %ebx
	leaq	.Lstatic.27(%rip), %r14
	movl	$15, %r15d
	xorl	%ebp, %ebp
	leaq	.LJTI0_0(%rip), %rax
	movslq	(%rax,%rbx,4), %rcx
	addq	%rax, %rcx
	notrack jmpq	*%rcx
.LBB0_208:
	movzbl	24(%rsp), %ecx
	movl	25(%rsp), %eax
	vxorps	%xmm0, %xmm0, %xmm0
	vmovaps	%xmm0, 64(%rsp)
	movq	$0, 80(%rsp)
	testl	%ecx, %ecx
	je	.LBB0_233
	cmpl	$1, %ecx
	jne	.LBB0_234
	cmpl	$16777216, %eax
	jae	.LBB0_235
	jmp	.LBB0_245
.LBB0_211:
	movb	$5, %r15b
	cmpq	$0, 88(%rsp)
	je	.LBB0_194
	movq	40(%rsp), %rdi
	callq	rattle_dealloc@PLT
	jmp	.LBB0_194
.LBB0_213:
	leaq	104(%rsp), %rdi
	callq	"std_io::io::error::last_error"
	cmpq	$0, 16(%rsp)
	je	.LBB0_248
	movq	40(%rsp), %rdi
	callq	rattle_dealloc@PLT
	movb	$2, %al
	movzbl	%al, %ebx
	leaq	.Lstatic.27(%rip), %r14
	movl	$15, %r15d
	xorl	%ebp, %ebp
	leaq	.LJTI0_0(%rip), %rax
	movslq	(%rax,%rbx,4), %rcx
	addq	%rax, %rcx
	notrack jmpq	*%rcx
.LBB0_215:
	leaq	104(%rsp), %rdi
	callq	"std_io::io::error::last_error"
	cmpq	$0, 16(%rsp)
	je	.LBB0_249
	movq	40(%rsp), %rdi
	callq	rattle_dealloc@PLT
	movb	$2, %al
	movzbl	%al, %ebx
	leaq	.Lstatic.27(%rip), %r14
	movl	$15, %r15d
	xorl	%ebp, %ebp
	leaq	.LJTI0_0(%rip), %rax
	movslq	(%rax,%rbx,4), %rcx
	addq	%rax, %rcx
	notrack jmpq	*%rcx
.LBB0_217:
	cmpl	$16777216, 24(%rsp)
	vxorps	%xmm0, %xmm0, %xmm0
	vmovaps	%xmm0, 64(%rsp)
	movq	$0, 80(%rsp)
	jb	.LBB0_257
	leaq	.Lstatic.6(%rip), %rax
	negq	%rax
	addq	%rsp, %rax
	addq	$64, %rax
	cmpq	$2, %rax
	ja	.LBB0_253
	movw	$-16401, 64(%rsp)
	movb	$-67, 66(%rsp)
	xorl	%r14d, %r14d
	jmp	.LBB0_254
.LBB0_220:
	cmpl	$16777216, 24(%rsp)
	vxorps	%xmm0, %xmm0, %xmm0
	vmovaps	%xmm0, 64(%rsp)
	movq	$0, 80(%rsp)
	jb	.LBB0_263
	leaq	.Lstatic.6(%rip), %rax
	negq	%rax
	addq	%rsp, %rax
	addq	$64, %rax
	cmpq	$2, %rax
	ja	.LBB0_259
	movw	$-16401, 64(%rsp)
	movb	$-67, 66(%rsp)
	xorl	%r14d, %r14d
	jmp	.LBB0_260
.LBB0_223:
	movb	$2, %r15b
	jmp	.LBB0_194
.LBB0_224:
	testq	%rbx, %rbx
	je	.LBB0_226
	movq	%r12, %rdi
	callq	rattle_dealloc@PLT
.LBB0_226:
	movq	104(%rsp), %rbx
	movq	112(%rsp), %r15
	movq	120(%rsp), %r14
	testq	%r15, %r15
	je	.LBB0_231
	leaq	16(%rbx), %r12
	jmp	.LBB0_229
.LBB0_228:
	addq	$24, %r12
	decq	%r15
	je	.LBB0_231
.LBB0_229:
	cmpq	$0, (%r12)
	je	.LBB0_228
	movq	-16(%r12), %rdi
	callq	rattle_dealloc@PLT
	jmp	.LBB0_228
.LBB0_231:
	testq	%r14, %r14
	je	.LBB0_68
	movq	%rbx, %rdi
	jmp	.LBB0_67
.LBB0_233:
	cmpb	$1, %al
	je	.LBB0_235
	jmp	.LBB0_245
.LBB0_234:
	cmpl	$16777215, %eax
	jbe	.LBB0_245
.LBB0_235:
	leaq	.Lstatic.6(%rip), %rax
	negq	%rax
	addq	%rsp, %rax
	addq	$64, %rax
	cmpq	$2, %rax
	ja	.LBB0_241
	movw	$-16401, 64(%rsp)
	movb	$-67, 66(%rsp)
	xorl	%r14d, %r14d
	jmp	.LBB0_242
.LBB0_237:
	movb	$5, %r12b
	cmpq	$0, 16(%rsp)
	je	.LBB0_202
	movq	40(%rsp), %rdi
	callq	rattle_dealloc@PLT
	jmp	.LBB0_202
.LBB0_239:
	movb	$5, %r12b
	cmpq	$0, 16(%rsp)
	je	.LBB0_204
	movq	40(%rsp), %rdi
	callq	rattle_dealloc@PLT
	jmp	.LBB0_204
.LBB0_241:
	movb	$-67, 66(%rsp)
	movw	$-16401, 64(%rsp)
	xorl	%r14d, %r14d
.LBB0_242:
	leaq	(%rsp,%r14), %rsi
	addq	$64, %rsi
	movq	%r14, %rbx
	xorq	$3, %rbx
	movl	$1, %edi
	movq	%rbx, %rdx
	callq	write@PLT
	testq	%rax, %rax
	js	.LBB0_250
	cmpq	%rbx, %rax
	cmovbq	%rax, %rbx
	testq	%rbx, %rbx
	je	.LBB0_251
	addq	%rbx, %r14
	cmpq	$2, %r14
	jbe	.LBB0_242
.LBB0_245:
	cmpq	$0, 88(%rsp)
	je	.LBB0_247
	movq	40(%rsp), %rdi
	callq	rattle_dealloc@PLT
	xorl	%eax, %eax
	movzbl	%al, %ebx
	leaq	.Lstatic.27(%rip), %r14
	movl	$15, %r15d
	xorl	%ebp, %ebp
	leaq	.LJTI0_0(%rip), %rax
	movslq	(%rax,%rbx,4), %rcx
	addq	%rax, %rcx
	notrack jmpq	*%rcx
.LBB0_247:
	xorl	%r15d, %r15d
	jmp	.LBB0_194
.LBB0_248:
	movb	$2, %r12b
	jmp	.LBB0_202
.LBB0_249:
	movb	$2, %r12b
	jmp	.LBB0_204
.LBB0_250:
	leaq	104(%rsp), %rdi
	callq	"std_io::io::error::last_error"
.LBB0_251:
	cmpq	$0, 88(%rsp)
	je	.LBB0_193
	movq	40(%rsp), %rdi
	callq	rattle_dealloc@PLT
	movb	$3, %al
	movzbl	%al, %ebx
	leaq	.Lstatic.27(%rip), %r14
	movl	$15, %r15d
	xorl	%ebp, %ebp
	leaq	.LJTI0_0(%rip), %rax
	movslq	(%rax,%rbx,4), %rcx
	addq	%rax, %rcx
	notrack jmpq	*%rcx
.LBB0_193:
	movb	$3, %r15b
.LBB0_194:
	movzbl	%r15b, %ebx
	leaq	.Lstatic.27(%rip), %r14
	movl	$15, %r15d
	xorl	%ebp, %ebp
	leaq	.LJTI0_0(%rip), %rax
	movslq	(%rax,%rbx,4), %rcx
	addq	%rax, %rcx
	notrack jmpq	*%rcx
.LBB0_253:
	movb	$-67, 66(%rsp)
	movw	$-16401, 64(%rsp)
	xorl	%r14d, %r14d
.LBB0_254:
	leaq	(%rsp,%r14), %rsi
	addq	$64, %rsi
	movq	%r14, %rbx
	xorq	$3, %rbx
	movl	$1, %edi
	movq	%rbx, %rdx
	callq	write@PLT
	testq	%rax, %rax
	js	.LBB0_267
	cmpq	%rbx, %rax
	cmovbq	%rax, %rbx
	testq	%rbx, %rbx
	je	.LBB0_268
	addq	%rbx, %r14
	cmpq	$2, %r14
	jbe	.LBB0_254
.LBB0_257:
	cmpq	$0, 16(%rsp)
	je	.LBB0_265
	movq	40(%rsp), %rdi
	callq	rattle_dealloc@PLT
	xorl	%eax, %eax
	movzbl	%al, %ebx
	leaq	.Lstatic.27(%rip), %r14
	movl	$15, %r15d
	xorl	%ebp, %ebp
	leaq	.LJTI0_0(%rip), %rax
	movslq	(%rax,%rbx,4), %rcx
	addq	%rax, %rcx
	notrack jmpq	*%rcx
.LBB0_259:
	movb	$-67, 66(%rsp)
	movw	$-16401, 64(%rsp)
	xorl	%r14d, %r14d
.LBB0_260:
	leaq	(%rsp,%r14), %rsi
	addq	$64, %rsi
	movq	%r14, %rbx
	xorq	$3, %rbx
	movl	$1, %edi
	movq	%rbx, %rdx
	callq	write@PLT
	testq	%rax, %rax
	js	.LBB0_270
	cmpq	%rbx, %rax
	cmovbq	%rax, %rbx
	testq	%rbx, %rbx
	je	.LBB0_271
	addq	%rbx, %r14
	cmpq	$2, %r14
	jbe	.LBB0_260
.LBB0_263:
	cmpq	$0, 16(%rsp)
	je	.LBB0_266
	movq	40(%rsp), %rdi
	callq	rattle_dealloc@PLT
	xorl	%eax, %eax
	movzbl	%al, %ebx
	leaq	.Lstatic.27(%rip), %r14
	movl	$15, %r15d
	xorl	%ebp, %ebp
	leaq	.LJTI0_0(%rip), %rax
	movslq	(%rax,%rbx,4), %rcx
	addq	%rax, %rcx
	notrack jmpq	*%rcx
.LBB0_265:
	xorl	%r12d, %r12d
	jmp	.LBB0_202
.LBB0_266:
	xorl	%r12d, %r12d
	jmp	.LBB0_204
.LBB0_267:
	leaq	104(%rsp), %rdi
	callq	"std_io::io::error::last_error"
.LBB0_268:
	cmpq	$0, 16(%rsp)
	je	.LBB0_201
	movq	40(%rsp), %rdi
	callq	rattle_dealloc@PLT
	movb	$3, %al
	movzbl	%al, %ebx
	leaq	.Lstatic.27(%rip), %r14
	movl	$15, %r15d
	xorl	%ebp, %ebp
	leaq	.LJTI0_0(%rip), %rax
	movslq	(%rax,%rbx,4), %rcx
	addq	%rax, %rcx
	notrack jmpq	*%rcx
.LBB0_201:
	movb	$3, %r12b
.LBB0_202:
	movzbl	%r12b, %ebx
	leaq	.Lstatic.27(%rip), %r14
	movl	$15, %r15d
	xorl	%ebp, %ebp
	leaq	.LJTI0_0(%rip), %rax
	movslq	(%rax,%rbx,4), %rcx
	addq	%rax, %rcx
	notrack jmpq	*%rcx
.LBB0_270:
	leaq	104(%rsp), %rdi
	callq	"std_io::io::error::last_error"
.LBB0_271:
	cmpq	$0, 16(%rsp)
	je	.LBB0_203
	movq	40(%rsp), %rdi
	callq	rattle_dealloc@PLT
	movb	$3, %al
	movzbl	%al, %ebx
	leaq	.Lstatic.27(%rip), %r14
	movl	$15, %r15d
	xorl	%ebp, %ebp
	leaq	.LJTI0_0(%rip), %rax
	movslq	(%rax,%rbx,4), %rcx
	addq	%rax, %rcx
	notrack jmpq	*%rcx
.LBB0_203:
	movb	$3, %r12b
.LBB0_204:
	movzbl	%r12b, %ebx
	leaq	.Lstatic.27(%rip), %r14
	movl	$15, %r15d
	xorl	%ebp, %ebp
	leaq	.LJTI0_0(%rip), %rax
	movslq	(%rax,%rbx,4), %rcx
	addq	%rax, %rcx
	notrack jmpq	*%rcx
.LBB0_205:
	leaq	.Lstatic.26(%rip), %r14
	movl	$14, %r15d
	jmp	.LBB0_70
.LBB0_274:
	cmpq	$0, 16(%rsp)
	je	.LBB0_280
	movq	40(%rsp), %rdi
	callq	rattle_dealloc@PLT
	movb	$4, %al
	movzbl	%al, %ebx
	leaq	.Lstatic.27(%rip), %r14
	movl	$15, %r15d
	xorl	%ebp, %ebp
	leaq	.LJTI0_0(%rip), %rax
	movslq	(%rax,%rbx,4), %rcx
	addq	%rax, %rcx
	notrack jmpq	*%rcx
.LBB0_276:
	testq	%r12, %r12
	je	.LBB0_281
	movq	40(%rsp), %rdi
	callq	rattle_dealloc@PLT
	movb	$4, %al
	movzbl	%al, %ebx
	leaq	.Lstatic.27(%rip), %r14
	movl	$15, %r15d
	xorl	%ebp, %ebp
	leaq	.LJTI0_0(%rip), %rax
	movslq	(%rax,%rbx,4), %rcx
	addq	%rax, %rcx
	notrack jmpq	*%rcx
.LBB0_278:
	testq	%r12, %r12
	je	.LBB0_282
	movq	40(%rsp), %rdi
	callq	rattle_dealloc@PLT
	movb	$4, %al
	movzbl	%al, %ebx
	leaq	.Lstatic.27(%rip), %r14
	movl	$15, %r15d
	xorl	%ebp, %ebp
	leaq	.LJTI0_0(%rip), %rax
	movslq	(%rax,%rbx,4), %rcx
	addq	%rax, %rcx
	notrack jmpq	*%rcx
.LBB0_273:
	leaq	.Lstatic.29(%rip), %r14
	movl	$17, %r15d
	jmp	.LBB0_70
.LBB0_280:
	movb	$4, %r15b
	jmp	.LBB0_194
.LBB0_281:
	movb	$4, %r12b
	jmp	.LBB0_202
.LBB0_282:
	movb	$4, %r12b
	jmp	.LBB0_204
.Lfunc_end0:
	.size	"utf16_cat::main+start", .Lfunc_end0-"utf16_cat::main+start"
	.cfi_endproc
	.section	".rodata.utf16_cat::main+start","a",@progbits
	.p2align	2, 0x0
.LJTI0_0:
	.long	.LBB0_83-.LJTI0_0
	.long	.LBB0_81-.LJTI0_0
	.long	.LBB0_205-.LJTI0_0
	.long	.LBB0_71-.LJTI0_0
	.long	.LBB0_69-.LJTI0_0
	.long	.LBB0_273-.LJTI0_0

	.section	".text.unlikely.std_alloc::vec::Vec::grow_amortized::<#9514263aca3ecb2c>","ax",@progbits
	.p2align	4
	.type	"std_alloc::vec::Vec::grow_amortized::<#9514263aca3ecb2c>",@function
"std_alloc::vec::Vec::grow_amortized::<#9514263aca3ecb2c>":
	.cfi_startproc
	movq	%rsi, %rax
	movq	8(%rdi), %rsi
	addq	%rsi, %rax
	jae	.LBB1_2
	xorl	%eax, %eax
	retq
.LBB1_2:
	pushq	%r14
	.cfi_def_cfa_offset 16
	pushq	%rbx
	.cfi_def_cfa_offset 24
	pushq	%rax
	.cfi_def_cfa_offset 32
	.cfi_offset %rbx, -24
	.cfi_offset %r14, -16
	movq	16(%rdi), %rcx
	cmpq	$9, %rax
	movl	$8, %ebx
	cmovaeq	%rax, %rbx
	movq	%rcx, %rdx
	shrq	$62, %rdx
	leaq	(%rcx,%rcx), %rax
	cmpq	%rax, %rbx
	cmovaq	%rbx, %rax
	testq	%rdx, %rdx
	cmoveq	%rax, %rbx
	testq	%rbx, %rbx
	js	.LBB1_6
	testq	%rcx, %rcx
	je	.LBB1_8
	movq	%rdi, %r14
	movq	(%rdi), %rdi
	movl	$1, %ecx
	movq	%rbx, %rdx
	callq	rattle_realloc@PLT
	testb	$1, %al
	je	.LBB1_6
.LBB1_9:
	movq	%rdx, (%r14)
	movq	%rbx, 16(%r14)
	movb	$1, %al
	addq	$8, %rsp
	.cfi_def_cfa_offset 24
	popq	%rbx
	.cfi_def_cfa_offset 16
	popq	%r14
	.cfi_def_cfa_offset 8
	.cfi_restore %rbx
	.cfi_restore %r14
	retq
.LBB1_8:
	.cfi_def_cfa_offset 32
	.cfi_offset %rbx, -24
	.cfi_offset %r14, -16
	movq	%rdi, %r14
	movl	$1, %esi
	movq	%rax, %rdi
	callq	rattle_alloc@PLT
	testb	$1, %al
	jne	.LBB1_9
.LBB1_6:
	xorl	%eax, %eax
	addq	$8, %rsp
	.cfi_def_cfa_offset 24
	popq	%rbx
	.cfi_def_cfa_offset 16
	popq	%r14
	.cfi_def_cfa_offset 8
	.cfi_restore %rbx
	.cfi_restore %r14
	retq
.Lfunc_end1:
	.size	"std_alloc::vec::Vec::grow_amortized::<#9514263aca3ecb2c>", .Lfunc_end1-"std_alloc::vec::Vec::grow_amortized::<#9514263aca3ecb2c>"
	.cfi_endproc

	.section	".text.core::str::utf8::from_utf8","ax",@progbits
	.p2align	4
	.type	"core::str::utf8::from_utf8",@function
"core::str::utf8::from_utf8":
	.cfi_startproc
	pushq	%r15
	.cfi_def_cfa_offset 16
	pushq	%r14
	.cfi_def_cfa_offset 24
	pushq	%r13
	.cfi_def_cfa_offset 32
	pushq	%r12
	.cfi_def_cfa_offset 40
	pushq	%rbx
	.cfi_def_cfa_offset 48
	subq	$16, %rsp
	.cfi_def_cfa_offset 64
	.cfi_offset %rbx, -48
	.cfi_offset %r12, -40
	.cfi_offset %r13, -32
	.cfi_offset %r14, -24
	.cfi_offset %r15, -16
	movq	%rdx, %r15
	movq	%rsi, %r14
	movq	%rdi, %rbx
	testq	%rdx, %rdx
	je	.LBB2_49
	movabsq	$-9187201950435737472, %r12
	leaq	-8(%r15), %r13
	xorl	%ecx, %ecx
	jmp	.LBB2_5
.LBB2_25:
	movl	$1, %eax
.LBB2_3:
	addq	%rcx, %rax
.LBB2_4:
	movq	%rax, %rcx
	cmpq	%r15, %rax
	jae	.LBB2_49
.LBB2_5:
	movzbl	(%r14,%rcx), %edi
	testb	%dil, %dil
	sets	%al
	movq	%r15, %rdx
	subq	%rcx, %rdx
	cmpq	$2, %rdx
	setb	%sil
	orb	%al, %sil
	jne	.LBB2_2
	cmpb	$0, 1(%r14,%rcx)
	js	.LBB2_25
	movq	%r14, (%rsp)
	movq	%r15, 8(%rsp)
	cmpq	$7, %rdx
	ja	.LBB2_26
	cmpb	$0, (%r14,%rcx)
	js	.LBB2_41
	leaq	1(%rcx), %rax
	cmpq	%r15, %rax
	je	.LBB2_49
	cmpb	$0, (%r14,%rax)
	js	.LBB2_4
	leaq	2(%rcx), %rax
	cmpq	%r15, %rax
	je	.LBB2_49
	cmpb	$0, (%r14,%rax)
	js	.LBB2_4
	leaq	3(%rcx), %rax
	cmpq	%r15, %rax
	je	.LBB2_49
	cmpb	$0, (%r14,%rax)
	js	.LBB2_4
	leaq	4(%rcx), %rax
	cmpq	%r15, %rax
	je	.LBB2_49
	cmpb	$0, (%r14,%rax)
	js	.LBB2_4
	leaq	5(%rcx), %rax
	cmpq	%r15, %rax
	je	.LBB2_49
	cmpb	$0, (%r14,%rax)
	js	.LBB2_4
	addq	$6, %rcx
	cmpq	%r15, %rcx
	je	.LBB2_49
	cmpb	$0, (%r14,%rcx)
	movq	%rcx, %rax
	js	.LBB2_4
	jmp	.LBB2_49
	.p2align	4
.LBB2_2:
	movl	$1, %eax
	testb	%dil, %dil
	jns	.LBB2_3
	movl	$257, %esi
	cmpb	$-62, %dil
	jb	.LBB2_61
	cmpb	$-33, %dil
	ja	.LBB2_34
	cmpq	$2, %rdx
	jb	.LBB2_53
	movzbl	1(%r14,%rcx), %r8d
	movl	$2, %eax
	cmpb	$-65, %r8b
	jle	.LBB2_3
	jmp	.LBB2_55
.LBB2_26:
	movq	(%r14,%rcx), %rax
	andq	%r12, %rax
	xorl	%edx, %edx
	tzcntq	%rax, %rdx
	shrl	$3, %edx
	testq	%rax, %rax
	movl	$8, %eax
	cmovneq	%rdx, %rax
	addq	%rcx, %rax
	addq	$8, %rcx
	cmpq	%rcx, %rax
	jb	.LBB2_4
	movq	%r15, %rcx
	subq	%rax, %rcx
	cmpq	$32, %rcx
	jb	.LBB2_30
	.p2align	4
.LBB2_28:
	vmovdqu	(%r14,%rax), %xmm0
	vpor	16(%r14,%rax), %xmm0, %xmm0
	vpshufd	$238, %xmm0, %xmm1
	vpor	%xmm1, %xmm0, %xmm0
	vmovq	%xmm0, %rcx
	testq	%r12, %rcx
	jne	.LBB2_30
	addq	$32, %rax
	movq	%rsp, %rdi
	movq	%rax, %rsi
	movq	%r15, %rdx
	callq	"core::slice::words::skip_far::<#52f9edcae2f82f51>"
	movq	%r15, %rcx
	subq	%rax, %rcx
	cmpq	$31, %rcx
	ja	.LBB2_28
.LBB2_30:
	movq	%r15, %rcx
	subq	%rax, %rcx
	.p2align	4
.LBB2_31:
	cmpq	$9, %rcx
	jb	.LBB2_48
	movq	(%r14,%rax), %rdx
	andq	%r12, %rdx
	xorl	%esi, %esi
	tzcntq	%rdx, %rsi
	shrl	$3, %esi
	testq	%rdx, %rdx
	movl	$8, %edx
	cmovneq	%rsi, %rdx
	leaq	(%rdx,%rax), %rsi
	addq	$8, %rax
	addq	$-8, %rcx
	cmpq	%rax, %rsi
	jae	.LBB2_31
	addq	%rdx, %rax
	addq	$-8, %rax
	jmp	.LBB2_4
.LBB2_34:
	cmpb	$-17, %dil
	ja	.LBB2_42
	cmpq	$3, %rdx
	jb	.LBB2_51
	movzbl	1(%r14,%rcx), %r8d
	cmpb	$-65, %r8b
	jg	.LBB2_55
	cmpb	$-65, 2(%r14,%rcx)
	jg	.LBB2_55
	movzbl	%r8b, %eax
	movl	%edi, %r9d
	shll	$6, %r9d
	addl	%eax, %r9d
	addl	$-14464, %r9d
	cmpl	$32, %r9d
	jb	.LBB2_55
	xorl	%r8d, %r8d
	cmpl	$896, %r9d
	setae	%r10b
	movl	$3, %eax
	cmpl	$864, %r9d
	jb	.LBB2_3
	movb	%r10b, %r8b
	leaq	(%r8,%r8,2), %rax
	testq	%rax, %rax
	jne	.LBB2_3
	jmp	.LBB2_50
.LBB2_41:
	movq	%rcx, %rax
	jmp	.LBB2_4
.LBB2_42:
	cmpq	$4, %rdx
	jb	.LBB2_50
	movzbl	1(%r14,%rcx), %eax
	cmpb	$-65, %al
	jg	.LBB2_50
	cmpb	$-65, 2(%r14,%rcx)
	jg	.LBB2_50
	cmpb	$-65, 3(%r14,%rcx)
	jg	.LBB2_50
	movl	%edi, %r8d
	shll	$6, %r8d
	leal	(%r8,%rax), %r9d
	addl	$-15488, %r9d
	xorl	%eax, %eax
	cmpl	$272, %r9d
	setb	%r8b
	cmpl	$16, %r9d
	jb	.LBB2_50
	movb	%r8b, %al
	shll	$2, %eax
	testq	%rax, %rax
	jne	.LBB2_3
	jmp	.LBB2_50
.LBB2_48:
	movq	(%r14,%r13), %rax
	andq	%r12, %rax
	xorl	%ecx, %ecx
	tzcntq	%rax, %rcx
	shrl	$3, %ecx
	testq	%rax, %rax
	movl	$8, %eax
	cmovneq	%rcx, %rax
	addq	%r13, %rax
	jmp	.LBB2_4
.LBB2_49:
	movq	$0, (%rbx)
	movq	%r14, 8(%rbx)
	movq	%r15, 16(%rbx)
	jmp	.LBB2_62
.LBB2_50:
	cmpb	$-12, %dil
	ja	.LBB2_61
.LBB2_51:
	cmpq	$2, %rdx
	jb	.LBB2_53
	movzbl	1(%r14,%rcx), %r8d
.LBB2_55:
	cmpl	$240, %edi
	sete	%al
	shlb	$4, %al
	orb	$-128, %al
	cmpl	$224, %edi
	movzbl	%al, %eax
	movl	$160, %r9d
	cmovnel	%eax, %r9d
	cmpl	$244, %edi
	movl	$143, %eax
	movl	$191, %r10d
	cmovel	%eax, %r10d
	cmpl	$237, %edi
	movl	$159, %eax
	cmovnel	%r10d, %eax
	cmpb	%r8b, %r9b
	ja	.LBB2_61
	cmpb	%al, %r8b
	ja	.LBB2_61
	cmpq	$2, %rdx
	jne	.LBB2_59
.LBB2_53:
	xorl	%esi, %esi
.LBB2_61:
	movq	$1, (%rbx)
	movq	%rcx, 8(%rbx)
	movq	%rsi, 16(%rbx)
.LBB2_62:
	addq	$16, %rsp
	.cfi_def_cfa_offset 48
	popq	%rbx
	.cfi_def_cfa_offset 40
	popq	%r12
	.cfi_def_cfa_offset 32
	popq	%r13
	.cfi_def_cfa_offset 24
	popq	%r14
	.cfi_def_cfa_offset 16
	popq	%r15
	.cfi_def_cfa_offset 8
	retq
.LBB2_59:
	.cfi_def_cfa_offset 64
	movl	$513, %esi
	cmpb	$-65, 2(%r14,%rcx)
	jg	.LBB2_61
	xorl	%eax, %eax
	cmpq	$4, %rdx
	movl	$769, %esi
	cmovbq	%rax, %rsi
	jmp	.LBB2_61
.Lfunc_end2:
	.size	"core::str::utf8::from_utf8", .Lfunc_end2-"core::str::utf8::from_utf8"
	.cfi_endproc

	.section	.rodata.cst8,"aM",@progbits,8
	.p2align	3, 0x0
.LCPI3_0:
	.quad	-9187201950435737472
	.section	".text.core::slice::words::skip_far::<#52f9edcae2f82f51>","ax",@progbits
	.p2align	4
	.type	"core::slice::words::skip_far::<#52f9edcae2f82f51>",@function
"core::slice::words::skip_far::<#52f9edcae2f82f51>":
	.cfi_startproc
	movq	%rsi, %rax
	subq	%rsi, %rdx
	cmpq	$64, %rdx
	jb	.LBB3_4
	movq	(%rdi), %rcx
	.p2align	4
.LBB3_2:
	vmovdqu	(%rcx,%rax), %ymm0
	vpor	32(%rcx,%rax), %ymm0, %ymm0
	vpbroadcastq	.LCPI3_0(%rip), %ymm1
	vptest	%ymm1, %ymm0
	jne	.LBB3_4
	addq	$64, %rax
	addq	$-64, %rdx
	cmpq	$63, %rdx
	ja	.LBB3_2
.LBB3_4:
	vzeroupper
	retq
.Lfunc_end3:
	.size	"core::slice::words::skip_far::<#52f9edcae2f82f51>", .Lfunc_end3-"core::slice::words::skip_far::<#52f9edcae2f82f51>"
	.cfi_endproc

	.section	".text.unlikely.std_alloc::vec::Vec::grow_amortized::<#968d335fc558f578>","ax",@progbits
	.p2align	4
	.type	"std_alloc::vec::Vec::grow_amortized::<#968d335fc558f578>",@function
"std_alloc::vec::Vec::grow_amortized::<#968d335fc558f578>":
	.cfi_startproc
	movq	8(%rdi), %rax
	cmpq	$-1, %rax
	je	.LBB4_5
	pushq	%r14
	.cfi_def_cfa_offset 16
	pushq	%rbx
	.cfi_def_cfa_offset 24
	pushq	%rax
	.cfi_def_cfa_offset 32
	.cfi_offset %rbx, -24
	.cfi_offset %r14, -16
	movq	16(%rdi), %rcx
	cmpq	$4, %rax
	movl	$3, %ebx
	cmovaeq	%rax, %rbx
	incq	%rbx
	movq	%rcx, %rsi
	shrq	$62, %rsi
	leaq	(%rcx,%rcx), %rdx
	cmpq	%rdx, %rbx
	cmovaq	%rbx, %rdx
	testq	%rsi, %rsi
	cmoveq	%rdx, %rbx
	movabsq	$384307168202282325, %rsi
	cmpq	%rsi, %rbx
	ja	.LBB4_6
	testq	%rcx, %rcx
	je	.LBB4_8
	movq	%rdi, %r14
	movq	(%rdi), %rdi
	shlq	$3, %rax
	leaq	(%rax,%rax,2), %rsi
	leaq	(,%rbx,8), %rax
	leaq	(%rax,%rax,2), %rdx
	movl	$8, %ecx
	callq	rattle_realloc@PLT
	testb	$1, %al
	je	.LBB4_6
.LBB4_9:
	movq	%rdx, (%r14)
	movq	%rbx, 16(%r14)
	movb	$1, %al
	addq	$8, %rsp
	.cfi_def_cfa_offset 24
	popq	%rbx
	.cfi_def_cfa_offset 16
	popq	%r14
	.cfi_def_cfa_offset 8
	.cfi_restore %rbx
	.cfi_restore %r14
	retq
.LBB4_5:
	xorl	%eax, %eax
	retq
.LBB4_8:
	.cfi_def_cfa_offset 32
	.cfi_offset %rbx, -24
	.cfi_offset %r14, -16
	movq	%rdi, %r14
	shlq	$3, %rdx
	leaq	(%rdx,%rdx,2), %rdi
	movl	$8, %esi
	callq	rattle_alloc@PLT
	testb	$1, %al
	jne	.LBB4_9
.LBB4_6:
	xorl	%eax, %eax
	addq	$8, %rsp
	.cfi_def_cfa_offset 24
	popq	%rbx
	.cfi_def_cfa_offset 16
	popq	%r14
	.cfi_def_cfa_offset 8
	.cfi_restore %rbx
	.cfi_restore %r14
	retq
.Lfunc_end4:
	.size	"std_alloc::vec::Vec::grow_amortized::<#968d335fc558f578>", .Lfunc_end4-"std_alloc::vec::Vec::grow_amortized::<#968d335fc558f578>"
	.cfi_endproc

	.section	".text.std_io::io::error::last_error","ax",@progbits
	.p2align	4
	.type	"std_io::io::error::last_error",@function
"std_io::io::error::last_error":
	.cfi_startproc
	pushq	%rbx
	.cfi_def_cfa_offset 16
	.cfi_offset %rbx, -16
	movq	%rdi, %rbx
	callq	rattle_errno@PLT
	movl	%eax, %ecx
	movb	$41, %dl
	testl	%eax, %eax
	js	.LBB5_40
	decl	%eax
	cmpl	$121, %eax
	ja	.LBB5_40
	leaq	.LJTI5_0(%rip), %rsi
	movslq	(%rsi,%rax,4), %rax
	addq	%rsi, %rax
	notrack jmpq	*%rax
.LBB5_3:
	movb	$1, %dl
	jmp	.LBB5_40
.LBB5_24:
	movb	$36, %dl
	jmp	.LBB5_40
.LBB5_36:
	movb	$4, %dl
	jmp	.LBB5_40
.LBB5_33:
	movb	$7, %dl
	jmp	.LBB5_40
.LBB5_39:
	movb	$26, %dl
	jmp	.LBB5_40
.LBB5_37:
	movb	$39, %dl
	jmp	.LBB5_40
.LBB5_28:
	movb	$9, %dl
	jmp	.LBB5_40
.LBB5_27:
	movb	$8, %dl
	jmp	.LBB5_40
.LBB5_22:
	movb	$30, %dl
	jmp	.LBB5_40
.LBB5_18:
	movb	$25, %dl
	jmp	.LBB5_40
.LBB5_20:
	movb	$32, %dl
	jmp	.LBB5_40
.LBB5_23:
	movb	$33, %dl
	jmp	.LBB5_40
.LBB5_34:
	movb	$22, %dl
	jmp	.LBB5_40
.LBB5_11:
	movb	$31, %dl
	jmp	.LBB5_40
.LBB5_15:
	movb	$29, %dl
	jmp	.LBB5_40
.LBB5_26:
	movb	$18, %dl
	jmp	.LBB5_40
.LBB5_29:
	movb	$10, %dl
	jmp	.LBB5_40
.LBB5_9:
	movb	$28, %dl
	jmp	.LBB5_40
.LBB5_12:
	movb	$14, %dl
	jmp	.LBB5_40
.LBB5_10:
	movb	$12, %dl
	jmp	.LBB5_40
.LBB5_30:
	movb	$5, %dl
	jmp	.LBB5_40
.LBB5_32:
	movb	$3, %dl
	jmp	.LBB5_40
.LBB5_4:
	xorl	%edx, %edx
	jmp	.LBB5_40
.LBB5_7:
	movb	$13, %dl
	jmp	.LBB5_40
.LBB5_8:
	movb	$38, %dl
	jmp	.LBB5_40
.LBB5_21:
	movb	$11, %dl
	jmp	.LBB5_40
.LBB5_5:
	movb	$35, %dl
	jmp	.LBB5_40
.LBB5_6:
	movb	$34, %dl
	jmp	.LBB5_40
.LBB5_14:
	movb	$20, %dl
	jmp	.LBB5_40
.LBB5_13:
	movb	$15, %dl
	jmp	.LBB5_40
.LBB5_38:
	movb	$19, %dl
	jmp	.LBB5_40
.LBB5_25:
	movb	$16, %dl
	jmp	.LBB5_40
.LBB5_31:
	movb	$6, %dl
	jmp	.LBB5_40
.LBB5_16:
	movb	$27, %dl
	jmp	.LBB5_40
.LBB5_17:
	movb	$24, %dl
	jmp	.LBB5_40
.LBB5_35:
	movb	$2, %dl
	jmp	.LBB5_40
.LBB5_19:
	movb	$17, %dl
.LBB5_40:
	movb	$0, (%rbx)
	movb	%dl, 1(%rbx)
	movw	$0, 2(%rbx)
	movl	%ecx, 4(%rbx)
	vxorps	%xmm0, %xmm0, %xmm0
	vmovups	%ymm0, 8(%rbx)
	vmovups	%ymm0, 40(%rbx)
	vmovups	%ymm0, 56(%rbx)
	popq	%rbx
	.cfi_def_cfa_offset 8
	vzeroupper
	retq
.Lfunc_end5:
	.size	"std_io::io::error::last_error", .Lfunc_end5-"std_io::io::error::last_error"
	.cfi_endproc
	.section	".rodata.std_io::io::error::last_error","a",@progbits
	.p2align	2, 0x0
.LJTI5_0:
	.long	.LBB5_3-.LJTI5_0
	.long	.LBB5_4-.LJTI5_0
	.long	.LBB5_40-.LJTI5_0
	.long	.LBB5_5-.LJTI5_0
	.long	.LBB5_40-.LJTI5_0
	.long	.LBB5_40-.LJTI5_0
	.long	.LBB5_6-.LJTI5_0
	.long	.LBB5_40-.LJTI5_0
	.long	.LBB5_40-.LJTI5_0
	.long	.LBB5_40-.LJTI5_0
	.long	.LBB5_7-.LJTI5_0
	.long	.LBB5_8-.LJTI5_0
	.long	.LBB5_3-.LJTI5_0
	.long	.LBB5_40-.LJTI5_0
	.long	.LBB5_40-.LJTI5_0
	.long	.LBB5_9-.LJTI5_0
	.long	.LBB5_10-.LJTI5_0
	.long	.LBB5_11-.LJTI5_0
	.long	.LBB5_40-.LJTI5_0
	.long	.LBB5_12-.LJTI5_0
	.long	.LBB5_13-.LJTI5_0
	.long	.LBB5_14-.LJTI5_0
	.long	.LBB5_40-.LJTI5_0
	.long	.LBB5_40-.LJTI5_0
	.long	.LBB5_40-.LJTI5_0
	.long	.LBB5_15-.LJTI5_0
	.long	.LBB5_16-.LJTI5_0
	.long	.LBB5_17-.LJTI5_0
	.long	.LBB5_18-.LJTI5_0
	.long	.LBB5_19-.LJTI5_0
	.long	.LBB5_20-.LJTI5_0
	.long	.LBB5_21-.LJTI5_0
	.long	.LBB5_40-.LJTI5_0
	.long	.LBB5_40-.LJTI5_0
	.long	.LBB5_22-.LJTI5_0
	.long	.LBB5_23-.LJTI5_0
	.long	.LBB5_40-.LJTI5_0
	.long	.LBB5_24-.LJTI5_0
	.long	.LBB5_25-.LJTI5_0
	.long	.LBB5_26-.LJTI5_0
	.long	.LBB5_40-.LJTI5_0
	.long	.LBB5_40-.LJTI5_0
	.long	.LBB5_40-.LJTI5_0
	.long	.LBB5_40-.LJTI5_0
	.long	.LBB5_40-.LJTI5_0
	.long	.LBB5_40-.LJTI5_0
	.long	.LBB5_40-.LJTI5_0
	.long	.LBB5_40-.LJTI5_0
	.long	.LBB5_40-.LJTI5_0
	.long	.LBB5_40-.LJTI5_0
	.long	.LBB5_40-.LJTI5_0
	.long	.LBB5_40-.LJTI5_0
	.long	.LBB5_40-.LJTI5_0
	.long	.LBB5_40-.LJTI5_0
	.long	.LBB5_40-.LJTI5_0
	.long	.LBB5_40-.LJTI5_0
	.long	.LBB5_40-.LJTI5_0
	.long	.LBB5_40-.LJTI5_0
	.long	.LBB5_40-.LJTI5_0
	.long	.LBB5_40-.LJTI5_0
	.long	.LBB5_40-.LJTI5_0
	.long	.LBB5_40-.LJTI5_0
	.long	.LBB5_40-.LJTI5_0
	.long	.LBB5_40-.LJTI5_0
	.long	.LBB5_40-.LJTI5_0
	.long	.LBB5_40-.LJTI5_0
	.long	.LBB5_40-.LJTI5_0
	.long	.LBB5_40-.LJTI5_0
	.long	.LBB5_40-.LJTI5_0
	.long	.LBB5_40-.LJTI5_0
	.long	.LBB5_40-.LJTI5_0
	.long	.LBB5_40-.LJTI5_0
	.long	.LBB5_40-.LJTI5_0
	.long	.LBB5_40-.LJTI5_0
	.long	.LBB5_40-.LJTI5_0
	.long	.LBB5_40-.LJTI5_0
	.long	.LBB5_40-.LJTI5_0
	.long	.LBB5_40-.LJTI5_0
	.long	.LBB5_40-.LJTI5_0
	.long	.LBB5_40-.LJTI5_0
	.long	.LBB5_40-.LJTI5_0
	.long	.LBB5_40-.LJTI5_0
	.long	.LBB5_40-.LJTI5_0
	.long	.LBB5_40-.LJTI5_0
	.long	.LBB5_40-.LJTI5_0
	.long	.LBB5_40-.LJTI5_0
	.long	.LBB5_40-.LJTI5_0
	.long	.LBB5_40-.LJTI5_0
	.long	.LBB5_40-.LJTI5_0
	.long	.LBB5_40-.LJTI5_0
	.long	.LBB5_40-.LJTI5_0
	.long	.LBB5_40-.LJTI5_0
	.long	.LBB5_40-.LJTI5_0
	.long	.LBB5_40-.LJTI5_0
	.long	.LBB5_24-.LJTI5_0
	.long	.LBB5_40-.LJTI5_0
	.long	.LBB5_40-.LJTI5_0
	.long	.LBB5_27-.LJTI5_0
	.long	.LBB5_28-.LJTI5_0
	.long	.LBB5_29-.LJTI5_0
	.long	.LBB5_30-.LJTI5_0
	.long	.LBB5_40-.LJTI5_0
	.long	.LBB5_31-.LJTI5_0
	.long	.LBB5_32-.LJTI5_0
	.long	.LBB5_40-.LJTI5_0
	.long	.LBB5_40-.LJTI5_0
	.long	.LBB5_33-.LJTI5_0
	.long	.LBB5_40-.LJTI5_0
	.long	.LBB5_40-.LJTI5_0
	.long	.LBB5_34-.LJTI5_0
	.long	.LBB5_35-.LJTI5_0
	.long	.LBB5_40-.LJTI5_0
	.long	.LBB5_36-.LJTI5_0
	.long	.LBB5_40-.LJTI5_0
	.long	.LBB5_37-.LJTI5_0
	.long	.LBB5_38-.LJTI5_0
	.long	.LBB5_40-.LJTI5_0
	.long	.LBB5_40-.LJTI5_0
	.long	.LBB5_40-.LJTI5_0
	.long	.LBB5_40-.LJTI5_0
	.long	.LBB5_40-.LJTI5_0
	.long	.LBB5_39-.LJTI5_0

	.section	.rodata.cst16,"aM",@progbits,16
	.p2align	4, 0x0
.LCPI6_0:
	.byte	1
	.byte	0
	.byte	3
	.byte	2
	.byte	5
	.byte	4
	.byte	7
	.byte	6
	.byte	9
	.byte	8
	.byte	11
	.byte	10
	.byte	13
	.byte	12
	.byte	15
	.byte	14
.LCPI6_1:
	.short	128
	.short	128
	.short	128
	.short	128
	.short	128
	.short	128
	.short	128
	.short	128
	.section	".text.utf16_streams::lossy::LossyTranscoder::feed_to::<#8b18edd9dd9aa8df>","ax",@progbits
	.p2align	4
	.type	"utf16_streams::lossy::LossyTranscoder::feed_to::<#8b18edd9dd9aa8df>",@function
"utf16_streams::lossy::LossyTranscoder::feed_to::<#8b18edd9dd9aa8df>":
	.cfi_startproc
	pushq	%rbp
	.cfi_def_cfa_offset 16
	pushq	%r15
	.cfi_def_cfa_offset 24
	pushq	%r14
	.cfi_def_cfa_offset 32
	pushq	%r13
	.cfi_def_cfa_offset 40
	pushq	%r12
	.cfi_def_cfa_offset 48
	pushq	%rbx
	.cfi_def_cfa_offset 56
	subq	$168, %rsp
	.cfi_def_cfa_offset 224
	.cfi_offset %rbx, -56
	.cfi_offset %r12, -48
	.cfi_offset %r13, -40
	.cfi_offset %r14, -32
	.cfi_offset %r15, -24
	.cfi_offset %rbp, -16
	movq	%r8, 96(%rsp)
	movq	%rcx, 88(%rsp)
	movq	%rdx, 120(%rsp)
	movq	%rsi, 128(%rsp)
	movl	$0, 80(%rsp)
	movq	%rdi, 160(%rsp)
	movl	(%rdi), %eax
	movl	%eax, 60(%rsp)
	shrl	$24, %eax
	cmpb	$3, %al
	movl	$3, %r15d
	cmovbl	%eax, %r15d
	xorl	%r14d, %r14d
	xorl	%edi, %edi
	movq	%r15, 112(%rsp)
.LBB6_1:
	movq	%rdi, %rax
	subq	%r15, %rax
	movq	%r14, 144(%rsp)
	movq	%rdi, 136(%rsp)
	jae	.LBB6_44
	leaq	(%rsp,%rdi), %rsi
	addq	$60, %rsi
	subq	%rdi, %r15
	movl	$4, %r12d
	subq	%r15, %r12
	movq	120(%rsp), %rax
	cmpq	%rax, %r12
	cmovaeq	%rax, %r12
	movl	$0, 16(%rsp)
	leaq	16(%rsp), %rdi
	movq	%r15, %rdx
	callq	memcpy@PLT
	leaq	(%rsp,%r15), %rdi
	addq	$16, %rdi
	movq	128(%rsp), %rsi
	movq	%r12, %rdx
	callq	memcpy@PLT
	addq	%r15, %r12
	movl	16(%rsp), %eax
	movl	%eax, 84(%rsp)
	movq	88(%rsp), %rax
	addq	%r14, %rax
	movq	%rax, 72(%rsp)
	movq	96(%rsp), %rax
	subq	%r14, %rax
	movq	%rax, 64(%rsp)
	xorl	%r14d, %r14d
	xorl	%ebx, %ebx
	movq	%r12, 48(%rsp)
	jmp	.LBB6_5
	.p2align	4
.LBB6_3:
	movq	%r13, %rdi
	movq	%rbp, %rsi
	movq	%r15, %rdx
	movq	%r12, %rcx
	callq	"utf16_transcode::decode_lossy::write_copied::<#8b18edd9dd9aa8df>"
.LBB6_4:
	movq	48(%rsp), %r12
	addq	%rax, %rbx
	addq	%rdx, %r14
.LBB6_5:
	leaq	(%rsp,%rbx), %r9
	addq	$84, %r9
	movq	%r12, %rdx
	subq	%rbx, %rdx
	movq	72(%rsp), %rax
	leaq	(%rax,%r14), %r13
	movq	64(%rsp), %r8
	vpxor	%xmm0, %xmm0, %xmm0
	vmovdqa	%xmm0, 16(%rsp)
	subq	%r14, %r8
	movq	$0, 32(%rsp)
	leaq	-16(%rdx), %rax
	cmpq	$175, %rax
	ja	.LBB6_13
	movq	%rdx, %rax
	shrq	%rax
	cmpq	%rax, %r8
	cmovbq	%r8, %rax
	cmpq	$8, %rax
	jb	.LBB6_13
	leaq	(%rax,%rax), %rcx
	xorl	%r12d, %r12d
	xorl	%ebp, %ebp
	.p2align	4
.LBB6_8:
	vmovdqu	(%r9,%rbp,2), %xmm0
	vpshufb	.LCPI6_0(%rip), %xmm0, %xmm0
	vpmaxuw	.LCPI6_1(%rip), %xmm0, %xmm1
	vpcmpeqw	%xmm1, %xmm0, %xmm1
	vpmovmskb	%xmm1, %esi
	testl	%esi, %esi
	jne	.LBB6_28
	vpackuswb	%xmm0, %xmm0, %xmm0
	vmovq	%xmm0, (%r13,%rbp)
	addq	$8, %rbp
	leaq	(%rcx,%r12), %rsi
	addq	$-16, %rsi
	addq	$-16, %r12
	cmpq	$15, %rsi
	ja	.LBB6_8
	negq	%r12
	cmpq	%r12, %rcx
	jbe	.LBB6_14
	vmovdqu	-16(%r9,%rcx), %xmm0
	vpshufb	.LCPI6_0(%rip), %xmm0, %xmm0
	vpmaxuw	.LCPI6_1(%rip), %xmm0, %xmm1
	vpcmpeqw	%xmm1, %xmm0, %xmm1
	vpmovmskb	%xmm1, %esi
	testl	%esi, %esi
	jne	.LBB6_14
	vpackuswb	%xmm0, %xmm0, %xmm0
	vmovq	%xmm0, -8(%r13,%rax)
	movq	%rax, %rbp
	movq	%rcx, %r12
	movq	%rdx, %rax
	subq	%r12, %rax
	cmpq	$15, %rax
	ja	.LBB6_15
	jmp	.LBB6_29
	.p2align	4
.LBB6_13:
	xorl	%ebp, %ebp
	xorl	%r12d, %r12d
.LBB6_14:
	movq	%rdx, %rax
	subq	%r12, %rax
	cmpq	$15, %rax
	jbe	.LBB6_29
.LBB6_15:
	leaq	-8(%rdx), %rax
	cmpq	$183, %rax
	movq	%rbx, 104(%rsp)
	ja	.LBB6_17
	movq	%rdx, %rsi
	subq	%r12, %rsi
	cmpq	$8, %rsi
	jae	.LBB6_18
.LBB6_17:
	movq	%r9, %rbx
	movq	%r8, %r15
	cmpq	%rdx, %r12
	jne	.LBB6_19
	jmp	.LBB6_38
	.p2align	4
.LBB6_18:
	movq	%r9, %rbx
	leaq	(%r9,%r12), %rdi
	movq	%r13, %rax
	addq	%rbp, %rax
	movq	%r8, %r15
	movq	%r8, %rcx
	subq	%rbp, %rcx
	movq	%rdx, 152(%rsp)
	movq	%rax, %rdx
	callq	"utf16_to_utf8::vectors::write_vectors::<#8b18edd9dd9aa8df>"
	movq	%rdx, %rcx
	movq	152(%rsp), %rdx
	addq	%rax, %r12
	addq	%rcx, %rbp
	cmpq	%rdx, %r12
	je	.LBB6_38
.LBB6_19:
	movq	%rbp, (%rsp)
	leaq	16(%rsp), %rdi
	movq	%rbx, %rsi
	movq	%r13, %rcx
	movq	%r15, %r8
	movq	%r12, %r9
	callq	"utf16_transcode::transcoding::transcode_many::<#b8dc3d53e12e85b3>"
	movq	104(%rsp), %rbx
	addq	16(%rsp), %rbx
	movzbl	32(%rsp), %eax
	addq	24(%rsp), %r14
	cmpb	$1, %al
	jne	.LBB6_39
	movq	72(%rsp), %rax
	leaq	(%rax,%r14), %r15
	movq	64(%rsp), %r12
	subq	%r14, %r12
	cmpq	$512, %r12
	jb	.LBB6_23
	leaq	(%rsp,%rbx), %r13
	addq	$84, %r13
	movq	48(%rsp), %rbp
	subq	%rbx, %rbp
	cmpq	$128, %rbp
	jb	.LBB6_3
	movq	%r13, %rdi
	movq	%rbp, %rsi
	movq	%r15, %rdx
	movq	%r12, %rcx
	callq	"utf16_transcode::ascii::write_lossy_ascii_blocks::<#8b18edd9dd9aa8df>"
	cmpq	$127, %rax
	jbe	.LBB6_3
	jmp	.LBB6_4
	.p2align	4
.LBB6_23:
	cmpq	$2, %r12
	jbe	.LBB6_41
	movzbl	33(%rsp), %eax
	leaq	.Lstatic.6(%rip), %rcx
	movq	%r15, %rdx
	subq	%rcx, %rdx
	cmpq	$2, %rdx
	ja	.LBB6_26
	movw	$-16401, (%r15)
	movb	$-67, 2(%r15)
	jmp	.LBB6_27
	.p2align	4
.LBB6_26:
	movb	$-67, 2(%r15)
	movw	$-16401, (%r15)
.LBB6_27:
	movl	$3, %edx
	jmp	.LBB6_4
.LBB6_28:
	negq	%r12
	movq	%rdx, %rax
	subq	%r12, %rax
	cmpq	$15, %rax
	ja	.LBB6_15
	.p2align	4
.LBB6_29:
	cmpq	$2, %rax
	jb	.LBB6_15
	movq	%r8, %rcx
	subq	%rbp, %rcx
	movq	%rax, %rsi
	shrq	%rsi
	leaq	(%rsi,%rsi,2), %rsi
	cmpq	%rsi, %rcx
	jae	.LBB6_33
	jmp	.LBB6_15
	.p2align	4
.LBB6_31:
	movb	%cl, (%r13,%rbp)
	incq	%rbp
.LBB6_32:
	addq	$2, %r12
	addq	$-2, %rax
	cmpq	$1, %rax
	jbe	.LBB6_15
.LBB6_33:
	movbew	(%r9,%r12), %cx
	cmpw	$127, %cx
	jbe	.LBB6_31
	movzwl	%cx, %esi
	cmpl	$2047, %esi
	ja	.LBB6_36
	shrl	$6, %esi
	andl	$63, %ecx
	shll	$8, %ecx
	orl	%esi, %ecx
	orl	$32960, %ecx
	movw	%cx, (%r13,%rbp)
	addq	$2, %rbp
	jmp	.LBB6_32
	.p2align	4
.LBB6_36:
	movl	%ecx, %edi
	andl	$63488, %edi
	cmpl	$55296, %edi
	je	.LBB6_15
	movl	%ecx, %edi
	andb	$63, %dil
	orb	$-128, %dil
	shrl	$6, %ecx
	andb	$63, %cl
	orb	$-128, %cl
	shrl	$12, %esi
	orb	$-32, %sil
	movb	%sil, (%r13,%rbp)
	movb	%cl, 1(%r13,%rbp)
	movb	%dil, 2(%r13,%rbp)
	addq	$3, %rbp
	jmp	.LBB6_32
	.p2align	4
.LBB6_38:
	addq	%rbp, %r14
	xorl	%eax, %eax
	movq	48(%rsp), %rbx
.LBB6_39:
	movq	136(%rsp), %rdi
	addq	%rbx, %rdi
	movq	144(%rsp), %rcx
	addq	%r14, %rcx
	movq	%rcx, %r14
	testq	%rbx, %rbx
	movq	112(%rsp), %r15
	je	.LBB6_87
	cmpb	$3, %al
	jne	.LBB6_1
	jmp	.LBB6_87
.LBB6_41:
	addq	136(%rsp), %rbx
	movq	144(%rsp), %rax
	addq	%r14, %rax
	movq	%rax, %r14
	movq	112(%rsp), %rax
	cmpq	%rbx, %rax
	cmovbq	%rax, %rbx
	leaq	(%rsp,%rbx), %rsi
	addq	$60, %rsi
	subq	%rbx, %rax
	movq	%rax, %rbx
.LBB6_42:
	movb	$0, 18(%rsp)
	movw	$0, 16(%rsp)
	leaq	16(%rsp), %rdi
	movq	%rbx, %rdx
	callq	memcpy@PLT
	movzbl	18(%rsp), %eax
	shll	$16, %eax
	movzwl	16(%rsp), %ecx
	orl	%eax, %ecx
	shll	$24, %ebx
	orl	%ecx, %ebx
.LBB6_43:
	movq	160(%rsp), %rax
	movl	%ebx, (%rax)
	movq	%r14, %rax
	addq	$168, %rsp
	.cfi_def_cfa_offset 56
	popq	%rbx
	.cfi_def_cfa_offset 48
	popq	%r12
	.cfi_def_cfa_offset 40
	popq	%r13
	.cfi_def_cfa_offset 32
	popq	%r14
	.cfi_def_cfa_offset 24
	popq	%r15
	.cfi_def_cfa_offset 16
	popq	%rbp
	.cfi_def_cfa_offset 8
	retq
.LBB6_44:
	.cfi_def_cfa_offset 224
	movq	128(%rsp), %rcx
	leaq	(%rcx,%rax), %rdx
	movq	%rdx, 64(%rsp)
	movq	120(%rsp), %r10
	subq	%rax, %r10
	addq	%r14, 88(%rsp)
	subq	%r14, 96(%rsp)
	subq	%r15, %rcx
	addq	%rdi, %rcx
	movq	%rcx, 48(%rsp)
	xorl	%ebp, %ebp
	xorl	%r14d, %r14d
	movq	%r10, 104(%rsp)
	jmp	.LBB6_48
	.p2align	4
.LBB6_45:
	movb	$-67, 2(%rbx)
	movw	$-16401, (%rbx)
.LBB6_46:
	movl	$3, %edx
.LBB6_47:
	addq	%rax, %r14
	addq	%rdx, %rbp
.LBB6_48:
	movq	64(%rsp), %rax
	leaq	(%rax,%r14), %r8
	movq	%r10, %r15
	subq	%r14, %r15
	movq	88(%rsp), %rax
	leaq	(%rax,%rbp), %r13
	movq	96(%rsp), %r11
	vpxor	%xmm0, %xmm0, %xmm0
	vmovdqa	%xmm0, 16(%rsp)
	subq	%rbp, %r11
	movq	$0, 32(%rsp)
	leaq	-16(%r15), %rax
	cmpq	$175, %rax
	ja	.LBB6_56
	movq	%r15, %rax
	shrq	%rax
	cmpq	%rax, %r11
	cmovbq	%r11, %rax
	cmpq	$8, %rax
	jb	.LBB6_56
	leaq	(%rax,%rax), %rcx
	movq	48(%rsp), %rdx
	addq	%r14, %rdx
	xorl	%r9d, %r9d
	xorl	%r12d, %r12d
	.p2align	4
.LBB6_51:
	vmovdqu	(%rdx,%r12,2), %xmm0
	vpshufb	.LCPI6_0(%rip), %xmm0, %xmm0
	vpmaxuw	.LCPI6_1(%rip), %xmm0, %xmm1
	vpcmpeqw	%xmm1, %xmm0, %xmm1
	vpmovmskb	%xmm1, %esi
	testl	%esi, %esi
	jne	.LBB6_71
	vpackuswb	%xmm0, %xmm0, %xmm0
	vmovq	%xmm0, (%r13,%r12)
	addq	$8, %r12
	leaq	(%rcx,%r9), %rsi
	addq	$-16, %rsi
	addq	$-16, %r9
	cmpq	$15, %rsi
	ja	.LBB6_51
	negq	%r9
	cmpq	%r9, %rcx
	jbe	.LBB6_57
	vmovdqu	-16(%r8,%rcx), %xmm0
	vpshufb	.LCPI6_0(%rip), %xmm0, %xmm0
	vpmaxuw	.LCPI6_1(%rip), %xmm0, %xmm1
	vpcmpeqw	%xmm1, %xmm0, %xmm1
	vpmovmskb	%xmm1, %edx
	testl	%edx, %edx
	jne	.LBB6_57
	vpackuswb	%xmm0, %xmm0, %xmm0
	vmovq	%xmm0, -8(%r13,%rax)
	movq	%rax, %r12
	movq	%rcx, %r9
	movq	%r15, %rax
	subq	%r9, %rax
	cmpq	$15, %rax
	ja	.LBB6_58
	jmp	.LBB6_72
	.p2align	4
.LBB6_56:
	xorl	%r12d, %r12d
	xorl	%r9d, %r9d
.LBB6_57:
	movq	%r15, %rax
	subq	%r9, %rax
	cmpq	$15, %rax
	jbe	.LBB6_72
.LBB6_58:
	leaq	-8(%r15), %rax
	cmpq	$183, %rax
	movq	%rbp, 72(%rsp)
	ja	.LBB6_60
	movq	%r15, %rsi
	subq	%r9, %rsi
	cmpq	$8, %rsi
	jae	.LBB6_61
.LBB6_60:
	movq	%r11, %rbp
	movq	%r8, %rbx
	cmpq	%r15, %r9
	jne	.LBB6_62
	jmp	.LBB6_82
	.p2align	4
.LBB6_61:
	movq	%r8, %rbx
	leaq	(%r8,%r9), %rdi
	leaq	(%r12,%r13), %rdx
	movq	%r11, %rbp
	movq	%r11, %rcx
	subq	%r12, %rcx
	movq	%r9, 152(%rsp)
	callq	"utf16_to_utf8::vectors::write_vectors::<#8b18edd9dd9aa8df>"
	movq	152(%rsp), %r9
	movq	104(%rsp), %r10
	addq	%rax, %r9
	addq	%rdx, %r12
	cmpq	%r15, %r9
	je	.LBB6_82
.LBB6_62:
	movq	%r13, %rcx
	movq	%r10, %r13
	movq	%r12, (%rsp)
	leaq	16(%rsp), %rdi
	movq	%rbx, %rsi
	movq	%r15, %rdx
	movq	%rbp, %r8
	callq	"utf16_transcode::transcoding::transcode_many::<#b8dc3d53e12e85b3>"
	addq	16(%rsp), %r14
	movzbl	32(%rsp), %eax
	movq	72(%rsp), %rbp
	addq	24(%rsp), %rbp
	cmpb	$1, %al
	jne	.LBB6_85
	movq	88(%rsp), %rax
	leaq	(%rax,%rbp), %rbx
	movq	96(%rsp), %r15
	subq	%rbp, %r15
	cmpq	$512, %r15
	jb	.LBB6_68
	movq	64(%rsp), %rax
	leaq	(%rax,%r14), %r12
	subq	%r14, %r13
	cmpq	$128, %r13
	jb	.LBB6_66
	movq	%r12, %rdi
	movq	%r13, %rsi
	movq	%rbx, %rdx
	movq	%r15, %rcx
	callq	"utf16_transcode::ascii::write_lossy_ascii_blocks::<#8b18edd9dd9aa8df>"
	cmpq	$127, %rax
	ja	.LBB6_67
.LBB6_66:
	movq	%r12, %rdi
	movq	%r13, %rsi
	movq	%rbx, %rdx
	movq	%r15, %rcx
	callq	"utf16_transcode::decode_lossy::write_copied::<#8b18edd9dd9aa8df>"
.LBB6_67:
	movq	104(%rsp), %r10
	jmp	.LBB6_47
	.p2align	4
.LBB6_68:
	cmpq	$3, %r15
	jb	.LBB6_84
	movq	%r13, %r10
	movzbl	33(%rsp), %eax
	leaq	.Lstatic.6(%rip), %rcx
	movq	%rbx, %rdx
	subq	%rcx, %rdx
	cmpq	$2, %rdx
	ja	.LBB6_45
	movw	$-16401, (%rbx)
	movb	$-67, 2(%rbx)
	jmp	.LBB6_46
.LBB6_71:
	negq	%r9
	movq	%r15, %rax
	subq	%r9, %rax
	cmpq	$15, %rax
	ja	.LBB6_58
	.p2align	4
.LBB6_72:
	cmpq	$2, %rax
	jb	.LBB6_58
	movq	%r11, %rcx
	subq	%r12, %rcx
	movq	%rax, %rdx
	shrq	%rdx
	leaq	(%rdx,%rdx,2), %rdx
	cmpq	%rdx, %rcx
	jb	.LBB6_58
	leaq	(%r9,%r14), %rcx
	addq	48(%rsp), %rcx
	jmp	.LBB6_77
	.p2align	4
.LBB6_75:
	movb	%dl, (%r13,%r12)
	incq	%r12
.LBB6_76:
	addq	$2, %r9
	addq	$-2, %rax
	addq	$2, %rcx
	cmpq	$1, %rax
	jbe	.LBB6_58
.LBB6_77:
	movbew	(%rcx), %dx
	cmpw	$127, %dx
	jbe	.LBB6_75
	movzwl	%dx, %esi
	cmpl	$2047, %esi
	ja	.LBB6_80
	shrl	$6, %esi
	andl	$63, %edx
	shll	$8, %edx
	orl	%esi, %edx
	orl	$32960, %edx
	movw	%dx, (%r13,%r12)
	addq	$2, %r12
	jmp	.LBB6_76
	.p2align	4
.LBB6_80:
	movl	%edx, %edi
	andl	$63488, %edi
	cmpl	$55296, %edi
	je	.LBB6_58
	movl	%edx, %edi
	andb	$63, %dil
	orb	$-128, %dil
	shrl	$6, %edx
	andb	$63, %dl
	orb	$-128, %dl
	shrl	$12, %esi
	orb	$-32, %sil
	movb	%sil, (%r13,%r12)
	movb	%dl, 1(%r13,%r12)
	movb	%dil, 2(%r13,%r12)
	addq	$3, %r12
	jmp	.LBB6_76
.LBB6_82:
	movq	72(%rsp), %rbp
	addq	%r12, %rbp
	xorl	%eax, %eax
	jmp	.LBB6_86
.LBB6_84:
	movb	$3, %al
.LBB6_85:
	movq	%r14, %r10
.LBB6_86:
	movq	136(%rsp), %rdi
	addq	%r10, %rdi
	movq	144(%rsp), %r14
	addq	%rbp, %r14
	movq	112(%rsp), %r15
.LBB6_87:
	cmpq	%rdi, %r15
	movq	%rdi, %rcx
	cmovbq	%r15, %rcx
	leaq	(%rsp,%rcx), %rsi
	addq	$60, %rsi
	movq	%r15, %rbx
	subq	%rcx, %rbx
	cmpb	$3, %al
	je	.LBB6_42
	xorl	%eax, %eax
	subq	%r15, %rdi
	cmovaeq	%rdi, %rax
	movq	120(%rsp), %rcx
	subq	%rax, %rcx
	movq	128(%rsp), %r12
	addq	%rax, %r12
	movl	$4, %r15d
	subq	%rbx, %r15
	cmpq	%rcx, %r15
	cmovaeq	%rcx, %r15
	movl	$0, 16(%rsp)
	leaq	16(%rsp), %rdi
	movq	%rbx, %rdx
	callq	memcpy@PLT
	leaq	(%rsp,%rbx), %rdi
	addq	$16, %rdi
	movq	%r12, %rsi
	movq	%r15, %rdx
	callq	memcpy@PLT
	addq	%rbx, %r15
	movl	16(%rsp), %eax
	movl	%eax, 80(%rsp)
	movb	$0, 18(%rsp)
	movw	$0, 16(%rsp)
	leaq	16(%rsp), %rdi
	leaq	80(%rsp), %rsi
	movq	%r15, %rdx
	callq	memcpy@PLT
	movzbl	18(%rsp), %eax
	shll	$16, %eax
	movzwl	16(%rsp), %ecx
	orl	%eax, %ecx
	shll	$24, %r15d
	orl	%ecx, %r15d
	movl	%r15d, %ebx
	jmp	.LBB6_43
.Lfunc_end6:
	.size	"utf16_streams::lossy::LossyTranscoder::feed_to::<#8b18edd9dd9aa8df>", .Lfunc_end6-"utf16_streams::lossy::LossyTranscoder::feed_to::<#8b18edd9dd9aa8df>"
	.cfi_endproc

	.section	.rodata.cst16,"aM",@progbits,16
	.p2align	4, 0x0
.LCPI7_0:
	.byte	1
	.byte	0
	.byte	3
	.byte	2
	.byte	5
	.byte	4
	.byte	7
	.byte	6
	.byte	9
	.byte	8
	.byte	11
	.byte	10
	.byte	13
	.byte	12
	.byte	15
	.byte	14
.LCPI7_1:
	.short	2048
	.short	2048
	.short	2048
	.short	2048
	.short	2048
	.short	2048
	.short	2048
	.short	2048
.LCPI7_2:
	.short	63488
	.short	63488
	.short	63488
	.short	63488
	.short	63488
	.short	63488
	.short	63488
	.short	63488
.LCPI7_3:
	.short	55296
	.short	55296
	.short	55296
	.short	55296
	.short	55296
	.short	55296
	.short	55296
	.short	55296
.LCPI7_4:
	.short	2047
	.short	2047
	.short	2047
	.short	2047
	.short	2047
	.short	2047
	.short	2047
	.short	2047
.LCPI7_5:
	.short	34815
	.short	34815
	.short	34815
	.short	34815
	.short	34815
	.short	34815
	.short	34815
	.short	34815
.LCPI7_6:
	.short	32768
	.short	32768
	.short	32768
	.short	32768
	.short	32768
	.short	32768
	.short	32768
	.short	32768
.LCPI7_7:
	.short	63
	.short	63
	.short	63
	.short	63
	.short	63
	.short	63
	.short	63
	.short	63
.LCPI7_8:
	.short	16128
	.short	16128
	.short	16128
	.short	16128
	.short	16128
	.short	16128
	.short	16128
	.short	16128
.LCPI7_9:
	.zero	16,128
.LCPI7_10:
	.short	224
	.short	224
	.short	224
	.short	224
	.short	224
	.short	224
	.short	224
	.short	224
.LCPI7_11:
	.short	255
	.short	255
	.short	255
	.short	255
	.short	255
	.short	255
	.short	255
	.short	255
.LCPI7_12:
	.short	32992
	.short	32992
	.short	32992
	.short	32992
	.short	32992
	.short	32992
	.short	32992
	.short	32992
.LCPI7_13:
	.byte	128
	.byte	0
	.byte	128
	.byte	0
	.byte	128
	.byte	0
	.byte	128
	.byte	0
	.byte	128
	.byte	0
	.byte	128
	.byte	0
	.byte	128
	.byte	0
	.byte	128
	.byte	0
.LCPI7_14:
	.byte	0
	.byte	1
	.byte	128
	.byte	2
	.byte	3
	.byte	128
	.byte	4
	.byte	5
	.byte	128
	.byte	6
	.byte	7
	.byte	128
	.byte	8
	.byte	9
	.byte	128
	.byte	10
.LCPI7_15:
	.byte	128
	.byte	128
	.byte	0
	.byte	128
	.byte	128
	.byte	2
	.byte	128
	.byte	128
	.byte	4
	.byte	128
	.byte	128
	.byte	6
	.byte	128
	.byte	128
	.byte	8
	.byte	128
.LCPI7_16:
	.byte	6
	.byte	5
	.byte	8
	.byte	10
	.byte	9
	.byte	12
	.byte	14
	.byte	13
	.zero	1
	.zero	1
	.zero	1
	.zero	1
	.zero	1
	.zero	1
	.zero	1
	.zero	1
.LCPI7_17:
	.short	32960
	.short	32960
	.short	32960
	.short	32960
	.short	32960
	.short	32960
	.short	32960
	.short	32960
.LCPI7_18:
	.short	127
	.short	127
	.short	127
	.short	127
	.short	127
	.short	127
	.short	127
	.short	127
.LCPI7_19:
	.byte	1
	.byte	3
	.byte	5
	.byte	7
	.byte	9
	.byte	11
	.byte	13
	.byte	15
	.byte	1
	.byte	3
	.byte	5
	.byte	7
	.byte	9
	.byte	11
	.byte	13
	.byte	15
.LCPI7_20:
	.byte	252
	.byte	252
	.byte	252
	.byte	252
	.byte	252
	.byte	252
	.byte	252
	.byte	252
	.zero	1
	.zero	1
	.zero	1
	.zero	1
	.zero	1
	.zero	1
	.zero	1
	.zero	1
.LCPI7_21:
	.byte	216
	.byte	216
	.byte	216
	.byte	216
	.byte	216
	.byte	216
	.byte	216
	.byte	216
	.zero	1
	.zero	1
	.zero	1
	.zero	1
	.zero	1
	.zero	1
	.zero	1
	.zero	1
.LCPI7_22:
	.zero	16,220
.LCPI7_23:
	.short	10240
	.short	10240
	.short	10240
	.short	10240
	.short	10240
	.short	10240
	.short	10240
	.short	10240
.LCPI7_24:
	.short	4095
	.short	4095
	.short	4095
	.short	4095
	.short	4095
	.short	4095
	.short	4095
	.short	4095
.LCPI7_25:
	.short	8192
	.short	8192
	.short	8192
	.short	8192
	.short	8192
	.short	8192
	.short	8192
	.short	8192
.LCPI7_26:
	.short	9216
	.short	9216
	.short	9216
	.short	9216
	.short	9216
	.short	9216
	.short	9216
	.short	9216
.LCPI7_27:
	.short	752
	.short	752
	.short	752
	.short	752
	.short	752
	.short	752
	.short	752
	.short	752
.LCPI7_28:
	.short	3072
	.short	3072
	.short	3072
	.short	3072
	.short	3072
	.short	3072
	.short	3072
	.short	3072
.LCPI7_29:
	.short	17408
	.short	17408
	.short	17408
	.short	17408
	.short	17408
	.short	17408
	.short	17408
	.short	17408
.LCPI7_30:
	.short	12288
	.short	12288
	.short	12288
	.short	12288
	.short	12288
	.short	12288
	.short	12288
	.short	12288
	.section	.rodata.cst4,"aM",@progbits,4
	.p2align	2, 0x0
.LCPI7_31:
	.short	34815
	.short	34815
.LCPI7_32:
	.short	32768
	.short	32768
.LCPI7_33:
	.short	255
	.short	255
	.section	".text.utf16_to_utf8::vectors::write_vectors::<#8b18edd9dd9aa8df>","ax",@progbits
	.p2align	4
	.type	"utf16_to_utf8::vectors::write_vectors::<#8b18edd9dd9aa8df>",@function
"utf16_to_utf8::vectors::write_vectors::<#8b18edd9dd9aa8df>":
	.cfi_startproc
	pushq	%rbp
	.cfi_def_cfa_offset 16
	pushq	%r15
	.cfi_def_cfa_offset 24
	pushq	%r14
	.cfi_def_cfa_offset 32
	pushq	%r12
	.cfi_def_cfa_offset 40
	pushq	%rbx
	.cfi_def_cfa_offset 48
	.cfi_offset %rbx, -48
	.cfi_offset %r12, -40
	.cfi_offset %r14, -32
	.cfi_offset %r15, -24
	.cfi_offset %rbp, -16
	movq	%rdx, %r8
	movq	%rsi, %rax
	movq	%rsi, %rdx
	shrq	%rdx
	leaq	(%rdx,%rdx,2), %rsi
	addq	$128, %rsi
	cmpq	%rcx, %rsi
	cmovbq	%rsi, %rcx
	cmpq	$16, %rax
	setae	%bl
	setb	%sil
	cmpq	$32, %rcx
	setb	%r9b
	orb	%sil, %r9b
	jne	.LBB7_1
	vpxor	%xmm1, %xmm1, %xmm1
	xorl	%r11d, %r11d
	movq	%rax, %r10
	xorl	%esi, %esi
	xorl	%r9d, %r9d
	.p2align	4
.LBB7_3:
	vmovdqu	(%rdi,%r9), %xmm0
	vpshufb	.LCPI7_0(%rip), %xmm0, %xmm0
	testb	$1, %r11b
	jne	.LBB7_13
	vpmaxuw	.LCPI7_1(%rip), %xmm0, %xmm2
	vpcmpeqw	%xmm2, %xmm0, %xmm2
	vpmovmskb	%xmm2, %ebx
	testl	%ebx, %ebx
	je	.LBB7_9
	vpand	.LCPI7_2(%rip), %xmm0, %xmm2
	vpcmpeqw	.LCPI7_3(%rip), %xmm2, %xmm2
	vpmovmskb	%xmm2, %ebx
	testl	%ebx, %ebx
	je	.LBB7_6
.LBB7_13:
	vpshufb	.LCPI7_19(%rip), %xmm0, %xmm2
	vpand	.LCPI7_20(%rip), %xmm2, %xmm2
	vpcmpeqb	.LCPI7_21(%rip), %xmm2, %xmm3
	vpmovzxbw	%xmm3, %ymm3
	vextracti128	$1, %ymm3, %xmm4
	vpackuswb	%xmm4, %xmm3, %xmm3
	vpmovmskb	%xmm3, %ebx
	vpcmpeqb	.LCPI7_22(%rip), %xmm2, %xmm2
	vpmovmskb	%xmm2, %ebp
	movzbl	%bpl, %r14d
	leal	(%rbx,%rbx), %ebp
	movzbl	%bpl, %r15d
	orq	%r11, %r15
	cmpq	%r14, %r15
	jne	.LBB7_14
	vpaddw	.LCPI7_23(%rip), %xmm0, %xmm2
	vpminuw	%xmm2, %xmm0, %xmm2
	vpmaxuw	.LCPI7_1(%rip), %xmm2, %xmm3
	vpcmpeqw	%xmm3, %xmm2, %xmm2
	vpmovmskb	%xmm2, %r11d
	vpalignr	$14, %xmm1, %xmm0, %xmm1
	vpsllw	$10, %xmm1, %xmm1
	testl	%r11d, %r11d
	je	.LBB7_16
	vpbroadcastd	.LCPI7_31(%rip), %xmm2
	vpsubusw	%xmm0, %xmm2, %xmm2
	vpbroadcastd	.LCPI7_32(%rip), %xmm3
	vpand	%xmm3, %xmm2, %xmm2
	vpand	.LCPI7_24(%rip), %xmm0, %xmm4
	vpsrlw	$3, %xmm2, %xmm5
	vpor	%xmm5, %xmm4, %xmm4
	vpor	.LCPI7_25(%rip), %xmm4, %xmm4
	vpaddw	.LCPI7_26(%rip), %xmm0, %xmm5
	vpsrlw	$2, %xmm5, %xmm5
	vpsubusw	.LCPI7_27(%rip), %xmm5, %xmm5
	vpand	.LCPI7_28(%rip), %xmm1, %xmm1
	vpaddw	%xmm1, %xmm0, %xmm1
	vpaddw	.LCPI7_29(%rip), %xmm1, %xmm1
	vpmaxuw	%xmm1, %xmm5, %xmm1
	vpand	.LCPI7_2(%rip), %xmm0, %xmm5
	vpcmpeqw	.LCPI7_3(%rip), %xmm5, %xmm5
	vpblendvb	%xmm5, %xmm1, %xmm4, %xmm1
	vpsrlw	$6, %xmm1, %xmm4
	vpsllw	$8, %xmm1, %xmm1
	vpand	.LCPI7_8(%rip), %xmm1, %xmm1
	vpaddw	%xmm4, %xmm1, %xmm1
	vpsllw	$8, %xmm0, %xmm4
	vpsrlw	$12, %xmm0, %xmm6
	vpor	%xmm4, %xmm6, %xmm4
	vpor	.LCPI7_10(%rip), %xmm4, %xmm4
	vpor	%xmm3, %xmm1, %xmm1
	vpbroadcastd	.LCPI7_33(%rip), %xmm6
	vpblendvb	%xmm5, %xmm3, %xmm2, %xmm2
	vpsubusw	%xmm0, %xmm6, %xmm3
	vpor	%xmm3, %xmm2, %xmm2
	vpmovmskb	%xmm2, %r11d
	vpunpcklwd	%xmm1, %xmm4, %xmm2
	movzbl	%r11b, %r14d
	xorl	%r15d, %r15d
	popcntl	%r14d, %r15d
	shll	$4, %r14d
	leaq	.Lstatic.9(%rip), %r12
	vpshufb	(%r14,%r12), %xmm2, %xmm2
	vmovdqu	%xmm2, (%r8,%rsi)
	subq	%r15, %rsi
	vpunpckhwd	%xmm1, %xmm4, %xmm1
	shrl	$8, %r11d
	xorl	%r14d, %r14d
	popcntl	%r11d, %r14d
	shll	$4, %r11d
	vpshufb	(%r11,%r12), %xmm1, %xmm1
	vmovdqu	%xmm1, 12(%r8,%rsi)
	subq	%r14, %rsi
	addq	$24, %rsi
	jmp	.LBB7_18
	.p2align	4
.LBB7_16:
	vpaddw	.LCPI7_30(%rip), %xmm0, %xmm2
	vpaddw	.LCPI7_26(%rip), %xmm0, %xmm3
	vpsrlw	$2, %xmm3, %xmm3
	vpsubusw	.LCPI7_27(%rip), %xmm3, %xmm3
	vpand	.LCPI7_28(%rip), %xmm1, %xmm1
	vpaddw	%xmm1, %xmm0, %xmm1
	vpaddw	.LCPI7_29(%rip), %xmm1, %xmm1
	vpmaxuw	%xmm1, %xmm3, %xmm1
	vpxor	%xmm3, %xmm3, %xmm3
	vpcmpgtw	%xmm0, %xmm3, %xmm3
	vpblendvb	%xmm3, %xmm1, %xmm2, %xmm1
	vpsrlw	$6, %xmm1, %xmm2
	vpsllw	$8, %xmm1, %xmm1
	vpand	.LCPI7_8(%rip), %xmm1, %xmm1
	vpaddw	%xmm2, %xmm1, %xmm1
	vpor	.LCPI7_6(%rip), %xmm1, %xmm1
	vpminuw	.LCPI7_18(%rip), %xmm0, %xmm2
	vpcmpeqw	%xmm2, %xmm0, %xmm2
	vpblendvb	%xmm2, %xmm0, %xmm1, %xmm1
	vpacksswb	%xmm2, %xmm2, %xmm2
	vpmovmskb	%xmm2, %r11d
	movzbl	%r11b, %r11d
	xorl	%r14d, %r14d
	popcntl	%r11d, %r14d
	shll	$4, %r11d
	leaq	.Lstatic.8(%rip), %r15
	vpshufb	(%r11,%r15), %xmm1, %xmm1
	vmovdqu	%xmm1, (%r8,%rsi)
	subq	%r14, %rsi
	addq	$16, %rsi
.LBB7_18:
	shrb	$7, %bl
	movzbl	%bl, %r11d
.LBB7_19:
	addq	$16, %r9
	addq	$-16, %r10
	cmpq	$16, %r10
	setae	%bl
	jb	.LBB7_21
	movq	%rcx, %r14
	subq	%rsi, %r14
	vmovdqa	%xmm0, %xmm1
	cmpq	$31, %r14
	ja	.LBB7_3
	jmp	.LBB7_21
.LBB7_9:
	vpmaxuw	.LCPI7_13(%rip), %xmm0, %xmm1
	vpcmpeqw	%xmm1, %xmm0, %xmm1
	vpmovmskb	%xmm1, %r11d
	testl	%r11d, %r11d
	je	.LBB7_10
	vpsllw	$8, %xmm0, %xmm1
	vpand	.LCPI7_8(%rip), %xmm1, %xmm1
	vpsrlw	$6, %xmm0, %xmm2
	vpaddw	%xmm1, %xmm2, %xmm1
	vpaddw	.LCPI7_17(%rip), %xmm1, %xmm1
	vpminuw	.LCPI7_18(%rip), %xmm0, %xmm2
	vpcmpeqw	%xmm2, %xmm0, %xmm2
	vpblendvb	%xmm2, %xmm0, %xmm1, %xmm1
	vpacksswb	%xmm2, %xmm2, %xmm2
	vpmovmskb	%xmm2, %r11d
	movzbl	%r11b, %r11d
	xorl	%ebx, %ebx
	popcntl	%r11d, %ebx
	shll	$4, %r11d
	leaq	.Lstatic.8(%rip), %r14
	vpshufb	(%r11,%r14), %xmm1, %xmm1
	vmovdqu	%xmm1, (%r8,%rsi)
	subq	%rbx, %rsi
	addq	$16, %rsi
	xorl	%r11d, %r11d
	jmp	.LBB7_19
.LBB7_6:
	vpminuw	.LCPI7_4(%rip), %xmm0, %xmm1
	vpcmpeqw	%xmm1, %xmm0, %xmm1
	vpmovmskb	%xmm1, %r11d
	vpsrlw	$12, %xmm0, %xmm1
	testl	%r11d, %r11d
	je	.LBB7_7
	vpbroadcastd	.LCPI7_31(%rip), %xmm2
	vpsubusw	%xmm0, %xmm2, %xmm2
	vpand	.LCPI7_6(%rip), %xmm2, %xmm2
	vpsrlw	$6, %xmm0, %xmm3
	vpand	.LCPI7_7(%rip), %xmm3, %xmm3
	vpsrlw	$9, %xmm2, %xmm4
	vpsllw	$8, %xmm0, %xmm5
	vpand	.LCPI7_8(%rip), %xmm5, %xmm6
	vpor	%xmm3, %xmm6, %xmm3
	vpor	%xmm4, %xmm3, %xmm3
	vpor	.LCPI7_9(%rip), %xmm3, %xmm3
	vpor	%xmm5, %xmm1, %xmm1
	vpor	.LCPI7_10(%rip), %xmm1, %xmm1
	vpbroadcastd	.LCPI7_33(%rip), %xmm4
	vpsubusw	%xmm0, %xmm4, %xmm4
	vpor	%xmm4, %xmm2, %xmm2
	vpmovmskb	%xmm2, %r11d
	vpunpcklwd	%xmm3, %xmm1, %xmm2
	movzbl	%r11b, %ebx
	xorl	%r14d, %r14d
	popcntl	%ebx, %r14d
	shll	$4, %ebx
	leaq	.Lstatic.9(%rip), %r15
	vpshufb	(%rbx,%r15), %xmm2, %xmm2
	vmovdqu	%xmm2, (%r8,%rsi)
	subq	%r14, %rsi
	vpunpckhwd	%xmm3, %xmm1, %xmm1
	shrl	$8, %r11d
	xorl	%ebx, %ebx
	popcntl	%r11d, %ebx
	shll	$4, %r11d
	vpshufb	(%r11,%r15), %xmm1, %xmm1
	vmovdqu	%xmm1, 12(%r8,%rsi)
	subq	%rbx, %rsi
	jmp	.LBB7_8
.LBB7_10:
	vpackuswb	%xmm0, %xmm0, %xmm1
	vmovq	%xmm1, (%r8,%rsi)
	addq	$8, %rsi
	xorl	%r11d, %r11d
	jmp	.LBB7_19
.LBB7_7:
	vpsllw	$2, %xmm0, %xmm2
	vpand	.LCPI7_8(%rip), %xmm2, %xmm2
	vpor	%xmm2, %xmm1, %xmm1
	vpor	.LCPI7_12(%rip), %xmm1, %xmm1
	vpand	.LCPI7_7(%rip), %xmm0, %xmm2
	vpor	.LCPI7_13(%rip), %xmm2, %xmm2
	vpshufb	.LCPI7_14(%rip), %xmm1, %xmm3
	vpshufb	.LCPI7_15(%rip), %xmm2, %xmm4
	vpor	%xmm4, %xmm3, %xmm3
	vmovdqu	%xmm3, (%r8,%rsi)
	vpunpckhbw	%xmm2, %xmm1, %xmm1
	vpshufb	.LCPI7_16(%rip), %xmm1, %xmm1
	vmovq	%xmm1, 16(%r8,%rsi)
.LBB7_8:
	addq	$24, %rsi
	xorl	%r11d, %r11d
	jmp	.LBB7_19
.LBB7_1:
	vpxor	%xmm0, %xmm0, %xmm0
	xorl	%r9d, %r9d
	xorl	%esi, %esi
	xorl	%r11d, %r11d
	movq	%rax, %r10
.LBB7_21:
	testb	$1, %al
	jne	.LBB7_44
.LBB7_22:
	cmpq	%r9, %rax
	je	.LBB7_44
	testb	%bl, %bl
	jne	.LBB7_44
	subq	%rsi, %rcx
	cmpq	$32, %rcx
	jb	.LBB7_44
	cmpq	$15, %rax
	ja	.LBB7_27
	leaq	-8(%rax), %rcx
	vmovq	-8(%rdi,%rax), %xmm1
	vmovq	(%rdi), %xmm2
	vpunpcklqdq	%xmm1, %xmm2, %xmm1
	shlq	$4, %rcx
	leaq	.Lstatic.10(%rip), %rdi
	vmovq	(%rcx,%rdi), %xmm3
	vpshufb	%xmm3, %xmm1, %xmm1
	vpunpcklqdq	%xmm1, %xmm2, %xmm1
	jmp	.LBB7_28
.LBB7_27:
	vmovdqu	-16(%rdi,%rax), %xmm1
	shlq	$4, %r10
	leaq	.Lstatic.10(%rip), %rcx
	vpshufb	(%r10,%rcx), %xmm1, %xmm1
.LBB7_28:
	vpshufb	.LCPI7_0(%rip), %xmm1, %xmm1
	vpshufb	.LCPI7_19(%rip), %xmm1, %xmm2
	vpand	.LCPI7_20(%rip), %xmm2, %xmm2
	vpcmpeqb	.LCPI7_21(%rip), %xmm2, %xmm3
	vpmovmskb	%xmm3, %ecx
	vpcmpeqb	.LCPI7_22(%rip), %xmm2, %xmm2
	vpmovmskb	%xmm2, %edi
	movzbl	%dil, %edi
	addl	%ecx, %ecx
	movzbl	%cl, %ecx
	orq	%r11, %rcx
	cmpq	%rdi, %rcx
	jne	.LBB7_44
	vpmaxuw	.LCPI7_1(%rip), %xmm1, %xmm2
	vpcmpeqw	%xmm2, %xmm1, %xmm2
	vpmovmskb	%xmm2, %ecx
	testl	%ecx, %ecx
	je	.LBB7_34
	vpand	.LCPI7_2(%rip), %xmm1, %xmm2
	vpcmpeqw	.LCPI7_3(%rip), %xmm2, %xmm2
	vpmovmskb	%xmm2, %ecx
	testl	%ecx, %ecx
	je	.LBB7_38
	vpaddw	.LCPI7_23(%rip), %xmm1, %xmm3
	vpminuw	%xmm3, %xmm1, %xmm3
	vpmaxuw	.LCPI7_1(%rip), %xmm3, %xmm4
	vpcmpeqw	%xmm4, %xmm3, %xmm3
	vpmovmskb	%xmm3, %ecx
	vpalignr	$14, %xmm0, %xmm1, %xmm0
	testl	%ecx, %ecx
	je	.LBB7_32
	vpbroadcastd	.LCPI7_31(%rip), %xmm3
	vpsubusw	%xmm1, %xmm3, %xmm3
	vpbroadcastd	.LCPI7_32(%rip), %xmm4
	vpand	%xmm4, %xmm3, %xmm3
	vpsrlw	$3, %xmm3, %xmm5
	vpand	.LCPI7_24(%rip), %xmm1, %xmm6
	vpor	%xmm5, %xmm6, %xmm5
	vpor	.LCPI7_25(%rip), %xmm5, %xmm5
	vpaddw	.LCPI7_26(%rip), %xmm1, %xmm6
	vpsrlw	$2, %xmm6, %xmm6
	vpsubusw	.LCPI7_27(%rip), %xmm6, %xmm6
	vpsllw	$10, %xmm0, %xmm0
	vpand	.LCPI7_28(%rip), %xmm0, %xmm0
	vpaddw	%xmm0, %xmm1, %xmm0
	vpaddw	.LCPI7_29(%rip), %xmm0, %xmm0
	vpmaxuw	%xmm0, %xmm6, %xmm0
	vpblendvb	%xmm2, %xmm0, %xmm5, %xmm0
	vpsrlw	$6, %xmm0, %xmm5
	vpsllw	$8, %xmm0, %xmm0
	vpand	.LCPI7_8(%rip), %xmm0, %xmm0
	vpaddw	%xmm5, %xmm0, %xmm0
	vpsllw	$8, %xmm1, %xmm5
	vpsrlw	$12, %xmm1, %xmm6
	vpor	%xmm5, %xmm6, %xmm5
	vpor	.LCPI7_10(%rip), %xmm5, %xmm5
	vpor	%xmm4, %xmm0, %xmm0
	vpbroadcastd	.LCPI7_33(%rip), %xmm6
	vpblendvb	%xmm2, %xmm4, %xmm3, %xmm2
	vpsubusw	%xmm1, %xmm6, %xmm1
	vpor	%xmm1, %xmm2, %xmm1
	vpmovmskb	%xmm1, %ecx
	vpunpcklwd	%xmm0, %xmm5, %xmm1
	movzbl	%cl, %edi
	popcntl	%edi, %r9d
	shll	$4, %edi
	leaq	.Lstatic.9(%rip), %r10
	vpshufb	(%rdi,%r10), %xmm1, %xmm1
	vmovdqu	%xmm1, (%r8,%rsi)
	subq	%r9, %rsi
	vpunpckhwd	%xmm0, %xmm5, %xmm0
	jmp	.LBB7_41
.LBB7_14:
	movb	$1, %bl
	vmovdqa	%xmm1, %xmm0
	testb	$1, %al
	je	.LBB7_22
.LBB7_44:
	leaq	-2(%r9), %rax
	leaq	-2(%rsi), %rdx
	testb	$1, %r11b
	cmoveq	%rsi, %rdx
	cmoveq	%r9, %rax
	jmp	.LBB7_45
.LBB7_34:
	vpmaxuw	.LCPI7_13(%rip), %xmm1, %xmm0
	vpcmpeqw	%xmm0, %xmm1, %xmm0
	vpmovmskb	%xmm0, %ecx
	testl	%ecx, %ecx
	je	.LBB7_35
	vpsrlw	$6, %xmm1, %xmm0
	vpsllw	$8, %xmm1, %xmm2
	vpand	.LCPI7_8(%rip), %xmm2, %xmm2
	vpaddw	%xmm2, %xmm0, %xmm0
	vpaddw	.LCPI7_17(%rip), %xmm0, %xmm0
	jmp	.LBB7_37
.LBB7_38:
	vpminuw	.LCPI7_4(%rip), %xmm1, %xmm0
	vpcmpeqw	%xmm0, %xmm1, %xmm0
	vpmovmskb	%xmm0, %ecx
	testl	%ecx, %ecx
	je	.LBB7_39
	vpbroadcastd	.LCPI7_31(%rip), %xmm0
	vpsubusw	%xmm1, %xmm0, %xmm0
	vpand	.LCPI7_6(%rip), %xmm0, %xmm0
	vpsrlw	$9, %xmm0, %xmm2
	vpsrlw	$6, %xmm1, %xmm3
	vpand	.LCPI7_7(%rip), %xmm3, %xmm3
	vpsllw	$8, %xmm1, %xmm4
	vpand	.LCPI7_8(%rip), %xmm4, %xmm5
	vpor	%xmm5, %xmm3, %xmm3
	vpor	%xmm2, %xmm3, %xmm2
	vpor	.LCPI7_9(%rip), %xmm2, %xmm2
	vpsrlw	$12, %xmm1, %xmm3
	vpor	%xmm4, %xmm3, %xmm3
	vpor	.LCPI7_10(%rip), %xmm3, %xmm3
	vpbroadcastd	.LCPI7_33(%rip), %xmm4
	vpsubusw	%xmm1, %xmm4, %xmm1
	vpor	%xmm1, %xmm0, %xmm0
	vpmovmskb	%xmm0, %ecx
	vpunpcklwd	%xmm2, %xmm3, %xmm0
	movzbl	%cl, %edi
	popcntl	%edi, %r9d
	shll	$4, %edi
	leaq	.Lstatic.9(%rip), %r10
	vpshufb	(%rdi,%r10), %xmm0, %xmm0
	vmovdqu	%xmm0, (%r8,%rsi)
	subq	%r9, %rsi
	vpunpckhwd	%xmm2, %xmm3, %xmm0
.LBB7_41:
	shrl	$8, %ecx
	xorl	%edi, %edi
	popcntl	%ecx, %edi
	shll	$4, %ecx
	vpshufb	(%rcx,%r10), %xmm0, %xmm0
	vmovdqu	%xmm0, 12(%r8,%rsi)
	subq	%rdi, %rsi
.LBB7_42:
	addq	$24, %rsi
	jmp	.LBB7_43
.LBB7_32:
	vpaddw	.LCPI7_30(%rip), %xmm1, %xmm2
	vpaddw	.LCPI7_26(%rip), %xmm1, %xmm3
	vpsrlw	$2, %xmm3, %xmm3
	vpsubusw	.LCPI7_27(%rip), %xmm3, %xmm3
	vpsllw	$10, %xmm0, %xmm0
	vpand	.LCPI7_28(%rip), %xmm0, %xmm0
	vpaddw	%xmm0, %xmm1, %xmm0
	vpaddw	.LCPI7_29(%rip), %xmm0, %xmm0
	vpmaxuw	%xmm0, %xmm3, %xmm0
	vpxor	%xmm3, %xmm3, %xmm3
	vpcmpgtw	%xmm1, %xmm3, %xmm3
	vpblendvb	%xmm3, %xmm0, %xmm2, %xmm0
	vpsrlw	$6, %xmm0, %xmm2
	vpsllw	$8, %xmm0, %xmm0
	vpand	.LCPI7_8(%rip), %xmm0, %xmm0
	vpaddw	%xmm2, %xmm0, %xmm0
	vpor	.LCPI7_6(%rip), %xmm0, %xmm0
.LBB7_37:
	vpminuw	.LCPI7_18(%rip), %xmm1, %xmm2
	vpcmpeqw	%xmm2, %xmm1, %xmm2
	vpblendvb	%xmm2, %xmm1, %xmm0, %xmm0
	vpacksswb	%xmm2, %xmm2, %xmm1
	vpmovmskb	%xmm1, %ecx
	movzbl	%cl, %ecx
	xorl	%edi, %edi
	popcntl	%ecx, %edi
	shll	$4, %ecx
	leaq	.Lstatic.8(%rip), %r9
	vpshufb	(%rcx,%r9), %xmm0, %xmm0
	vmovdqu	%xmm0, (%r8,%rsi)
	subq	%rdi, %rsi
	addq	$16, %rsi
	jmp	.LBB7_43
.LBB7_35:
	vpackuswb	%xmm1, %xmm1, %xmm0
	vmovq	%xmm0, (%r8,%rsi)
	addq	$8, %rsi
.LBB7_43:
	orq	$-8, %rdx
	addq	%rsi, %rdx
.LBB7_45:
	popq	%rbx
	.cfi_def_cfa_offset 40
	popq	%r12
	.cfi_def_cfa_offset 32
	popq	%r14
	.cfi_def_cfa_offset 24
	popq	%r15
	.cfi_def_cfa_offset 16
	popq	%rbp
	.cfi_def_cfa_offset 8
	vzeroupper
	retq
.LBB7_39:
	.cfi_def_cfa_offset 48
	vpsllw	$2, %xmm1, %xmm0
	vpand	.LCPI7_8(%rip), %xmm0, %xmm0
	vpsrlw	$12, %xmm1, %xmm2
	vpor	%xmm0, %xmm2, %xmm0
	vpor	.LCPI7_12(%rip), %xmm0, %xmm0
	vpand	.LCPI7_7(%rip), %xmm1, %xmm1
	vpor	.LCPI7_13(%rip), %xmm1, %xmm1
	vpshufb	.LCPI7_14(%rip), %xmm0, %xmm2
	vpshufb	.LCPI7_15(%rip), %xmm1, %xmm3
	vpor	%xmm3, %xmm2, %xmm2
	vmovdqu	%xmm2, (%r8,%rsi)
	vpunpckhbw	%xmm1, %xmm0, %xmm0
	vpshufb	.LCPI7_16(%rip), %xmm0, %xmm0
	vmovq	%xmm0, 16(%r8,%rsi)
	jmp	.LBB7_42
.Lfunc_end7:
	.size	"utf16_to_utf8::vectors::write_vectors::<#8b18edd9dd9aa8df>", .Lfunc_end7-"utf16_to_utf8::vectors::write_vectors::<#8b18edd9dd9aa8df>"
	.cfi_endproc

	.section	.rodata.cst16,"aM",@progbits,16
	.p2align	4, 0x0
.LCPI8_0:
	.byte	1
	.byte	0
	.byte	3
	.byte	2
	.byte	5
	.byte	4
	.byte	7
	.byte	6
	.byte	9
	.byte	8
	.byte	11
	.byte	10
	.byte	13
	.byte	12
	.byte	15
	.byte	14
.LCPI8_1:
	.short	128
	.short	128
	.short	128
	.short	128
	.short	128
	.short	128
	.short	128
	.short	128
.LCPI8_4:
	.zero	16,191
.LCPI8_5:
	.zero	16,240
	.section	.rodata.cst32,"aM",@progbits,32
	.p2align	5, 0x0
.LCPI8_2:
	.zero	32,191
.LCPI8_3:
	.zero	32,240
	.section	.rodata.cst4,"aM",@progbits,4
	.p2align	2, 0x0
.LCPI8_6:
	.zero	4,191
.LCPI8_7:
	.zero	4,240
	.section	".text.utf16_transcode::transcoding::transcode_many::<#b8dc3d53e12e85b3>","ax",@progbits
	.p2align	4
	.type	"utf16_transcode::transcoding::transcode_many::<#b8dc3d53e12e85b3>",@function
"utf16_transcode::transcoding::transcode_many::<#b8dc3d53e12e85b3>":
	.cfi_startproc
	pushq	%rbp
	.cfi_def_cfa_offset 16
	pushq	%r15
	.cfi_def_cfa_offset 24
	pushq	%r14
	.cfi_def_cfa_offset 32
	pushq	%r13
	.cfi_def_cfa_offset 40
	pushq	%r12
	.cfi_def_cfa_offset 48
	pushq	%rbx
	.cfi_def_cfa_offset 56
	subq	$392, %rsp
	.cfi_def_cfa_offset 448
	.cfi_offset %rbx, -56
	.cfi_offset %r12, -48
	.cfi_offset %r13, -40
	.cfi_offset %r14, -32
	.cfi_offset %r15, -24
	.cfi_offset %rbp, -16
	movq	%r9, %rbp
	movq	%rdx, %rbx
	movq	448(%rsp), %r9
	subq	%rbp, %rdx
	cmpq	$2, %rdx
	jae	.LBB8_3
.LBB8_1:
	movb	$2, %al
	xorl	%ecx, %ecx
.LBB8_2:
	movq	%rbp, (%rdi)
	movq	%r9, 8(%rdi)
	movb	%al, 16(%rdi)
	movb	%cl, 17(%rdi)
	jmp	.LBB8_101
.LBB8_3:
	movq	%r8, %r14
	movq	%rcx, %r13
	movq	%rsi, %r12
	movbew	(%rsi,%rbp), %si
	movl	%esi, %eax
	andl	$63488, %eax
	cmpl	$55296, %eax
	jne	.LBB8_7
	notl	%esi
	movb	$2, %cl
	movb	$1, %al
	testl	$56320, %esi
	je	.LBB8_2
	cmpq	$4, %rdx
	jb	.LBB8_1
	movzbl	2(%r12,%rbp), %edx
	andb	$-4, %dl
	movb	$2, %cl
	cmpb	$-36, %dl
	jne	.LBB8_2
.LBB8_7:
	movq	%rdi, 32(%rsp)
	cmpq	%rbp, %rbx
	movq	%rbx, 40(%rsp)
	movq	%r13, 8(%rsp)
	movq	%r14, 56(%rsp)
	movq	%r12, 24(%rsp)
	ja	.LBB8_11
.LBB8_8:
	movq	32(%rsp), %rax
	movq	%rbp, (%rax)
	movq	%r9, 8(%rax)
	movw	$0, 16(%rax)
	jmp	.LBB8_101
	.p2align	4
.LBB8_9:
	movb	%al, (%r13,%r9)
	incq	%r9
.LBB8_10:
	addq	%r15, %rbp
	cmpq	%rbx, %rbp
	jae	.LBB8_8
.LBB8_11:
	addq	%rbp, %r12
	movq	%rbx, %r15
	subq	%rbp, %r15
	cmpq	$66, %r15
	jb	.LBB8_20
	leaq	(%r9,%r13), %rbx
	movq	%r9, 16(%rsp)
	subq	%r9, %r14
	vpxor	%xmm0, %xmm0, %xmm0
	vmovdqu	%ymm0, 112(%rsp)
	movq	$0, 144(%rsp)
	movq	%r15, %rax
	shrq	%rax
	leaq	(%rax,%rax,2), %r8
	addq	$128, %r8
	cmpq	%r14, %r8
	cmovaeq	%r14, %r8
	leaq	112(%rsp), %rdi
	movq	%r12, %rsi
	movq	%r15, %rdx
	movq	%rbx, %rcx
	vzeroupper
	callq	"utf16_to_utf8::runs::write_paired::<#8b18edd9dd9aa8df>"
	movq	112(%rsp), %rcx
	movq	120(%rsp), %rsi
	leaq	-2(%rcx), %rdx
	leaq	-2(%rsi), %rax
	testb	$1, 144(%rsp)
	cmoveq	%rsi, %rax
	cmoveq	%rcx, %rdx
	movq	%r15, %rcx
	subq	%rdx, %rcx
	shrq	%rcx
	subq	%rax, %r14
	cmpq	%rcx, %r14
	cmovaeq	%rcx, %r14
	movq	%rax, %rcx
	movq	%rdx, %r13
	cmpq	$8, %r14
	jb	.LBB8_16
	leaq	(%r14,%r14), %rsi
	movq	%rdx, %r13
	movq	%rax, %rcx
	.p2align	4
.LBB8_14:
	vmovdqu	(%r12,%r13), %xmm0
	vpshufb	.LCPI8_0(%rip), %xmm0, %xmm0
	vpmaxuw	.LCPI8_1(%rip), %xmm0, %xmm1
	vpcmpeqw	%xmm1, %xmm0, %xmm1
	vpmovmskb	%xmm1, %edi
	testl	%edi, %edi
	jne	.LBB8_33
	vpackuswb	%xmm0, %xmm0, %xmm0
	vmovq	%xmm0, (%rbx,%rcx)
	addq	$16, %r13
	addq	$8, %rcx
	addq	$-16, %rsi
	cmpq	$15, %rsi
	ja	.LBB8_14
.LBB8_16:
	leaq	(%rdx,%r14,2), %rdx
	cmpq	$16, %rdx
	jb	.LBB8_33
	cmpq	%r13, %rdx
	movq	16(%rsp), %r9
	jbe	.LBB8_34
	vmovdqu	-16(%r12,%rdx), %xmm0
	vpshufb	.LCPI8_0(%rip), %xmm0, %xmm0
	vpmaxuw	.LCPI8_1(%rip), %xmm0, %xmm1
	vpcmpeqw	%xmm1, %xmm0, %xmm1
	vpmovmskb	%xmm1, %esi
	testl	%esi, %esi
	jne	.LBB8_34
	addq	%rax, %r14
	vpackuswb	%xmm0, %xmm0, %xmm0
	vmovq	%xmm0, -8(%rbx,%r14)
	movq	%rdx, %r13
	movq	%r14, %rcx
	jmp	.LBB8_34
	.p2align	4
.LBB8_20:
	xorl	%r13d, %r13d
	movq	%r15, %r8
	subq	%r13, %r8
	je	.LBB8_35
.LBB8_21:
	addq	%r13, %r12
	cmpq	$7, %r8
	ja	.LBB8_25
.LBB8_22:
	movq	%r12, %rdi
	movq	%r8, %rsi
	movq	8(%rsp), %rdx
	movq	%r14, %rcx
	movq	%r9, %r8
	vzeroupper
	callq	"utf16_transcode::transcoding::write_chars::<#b8dc3d53e12e85b3>"
.LBB8_23:
	movq	%rax, %r15
	movq	%rdx, %rbx
.LBB8_24:
	movq	24(%rsp), %r12
	addq	%r13, %r15
	movq	%rbx, %r9
	movq	40(%rsp), %rbx
	jmp	.LBB8_36
	.p2align	4
.LBB8_25:
	cmpq	$128, %r8
	movl	$128, %esi
	cmovbq	%r8, %rsi
	movq	%r14, %rbx
	subq	%r9, %rbx
	xorl	%edx, %edx
	movq	%rbx, %rax
	subq	$128, %rax
	cmovaeq	%rax, %rdx
	movabsq	$-6148914691236517205, %rax
	mulxq	%rax, %rax, %rax
	andq	$-2, %rax
	cmpq	%rax, %rsi
	jbe	.LBB8_31
	cmpq	$23, %rbx
	jbe	.LBB8_22
	vpxor	%xmm0, %xmm0, %xmm0
	vmovdqu	%ymm0, 356(%rsp)
	vmovdqu	%ymm0, 336(%rsp)
	vmovdqu	%ymm0, 304(%rsp)
	vmovdqu	%ymm0, 272(%rsp)
	vmovdqu	%ymm0, 240(%rsp)
	vmovdqu	%ymm0, 208(%rsp)
	vmovdqu	%ymm0, 176(%rsp)
	vmovdqu	%ymm0, 144(%rsp)
	vmovdqu	%ymm0, 112(%rsp)
	cmpq	$65, %r8
	ja	.LBB8_52
	leaq	112(%rsp), %rdx
	movq	%r12, %rdi
	movq	%r8, %rsi
	movq	8(%rsp), %rcx
	movq	%r14, %r8
.LBB8_29:
	vzeroupper
	callq	"utf16_transcode::transcoding::write_buffered_text::<#b8dc3d53e12e85b3>"
	jmp	.LBB8_23
.LBB8_33:
	movq	16(%rsp), %r9
.LBB8_34:
	addq	%rcx, %r9
	movq	56(%rsp), %r14
	movq	40(%rsp), %rbx
	movq	%r15, %r8
	subq	%r13, %r8
	jne	.LBB8_21
.LBB8_35:
	movq	24(%rsp), %r12
.LBB8_36:
	addq	%rbp, %r15
	movq	%rbx, %rcx
	subq	%r15, %rcx
	movq	8(%rsp), %r13
	je	.LBB8_97
	cmpq	$2, %rcx
	jb	.LBB8_96
	movbew	(%r12,%r15), %di
	movl	%edi, %eax
	andl	$63488, %eax
	cmpl	$55296, %eax
	jne	.LBB8_42
	movl	%edi, %edx
	notl	%edx
	movb	$1, %al
	testl	$56320, %edx
	je	.LBB8_103
	cmpq	$4, %rcx
	jb	.LBB8_96
	movzbl	2(%r12,%r15), %ecx
	andb	$-4, %cl
	cmpb	$-36, %cl
	jne	.LBB8_103
.LBB8_42:
	movl	%edi, %eax
	andl	$64512, %eax
	cmpl	$55296, %eax
	jne	.LBB8_44
	movbew	2(%r12,%r15), %si
	movq	%r9, %rbp
	callq	"utf16_units::unit::decode_surrogates"
	movq	%rbp, %r9
	movl	$4, %ebp
	jmp	.LBB8_45
	.p2align	4
.LBB8_44:
	movzwl	%di, %eax
	movl	$2, %ebp
.LBB8_45:
	movq	%r14, %rcx
	subq	%r9, %rcx
	cmpl	$65536, %eax
	movl	$4, %edx
	sbbq	$0, %rdx
	cmpl	$2048, %eax
	movl	$2, %esi
	cmovaeq	%rdx, %rsi
	cmpl	$128, %eax
	movl	$1, %edx
	cmovaeq	%rsi, %rdx
	cmpq	%rdx, %rcx
	jb	.LBB8_98
	cmpl	$127, %eax
	jbe	.LBB8_9
	movl	%eax, %ecx
	andb	$63, %cl
	orb	$-128, %cl
	cmpl	$2047, %eax
	ja	.LBB8_49
	shrl	$6, %eax
	movzbl	%cl, %ecx
	shll	$8, %ecx
	orl	%eax, %ecx
	orl	$192, %ecx
	movw	%cx, (%r13,%r9)
	addq	$2, %r9
	jmp	.LBB8_10
.LBB8_49:
	movl	%eax, %edx
	cmpl	$65535, %eax
	ja	.LBB8_51
	shrl	$6, %edx
	andb	$63, %dl
	orb	$-128, %dl
	shrl	$12, %eax
	orb	$-32, %al
	movb	%al, (%r13,%r9)
	movb	%dl, 1(%r13,%r9)
	movb	%cl, 2(%r13,%r9)
	addq	$3, %r9
	jmp	.LBB8_10
.LBB8_31:
	movq	%r9, %rbx
	movq	%r12, %rdi
	callq	"utf16_transcode::decode::valid_up_to::<#8b18edd9dd9aa8df>"
	movq	%rax, %r15
	testq	%rax, %rax
	je	.LBB8_24
	movq	8(%rsp), %rax
	leaq	(%rax,%rbx), %rdx
	movq	%r12, %rdi
	movq	%r15, %rsi
	callq	"utf16_to_utf8::write::write_utf8::<#8b18edd9dd9aa8df>"
	addq	%rax, %rbx
	jmp	.LBB8_24
.LBB8_51:
	shrl	$18, %edx
	addl	$240, %edx
	movzbl	%cl, %ecx
	shll	$24, %ecx
	movl	%eax, %esi
	shll	$10, %esi
	andl	$4128768, %esi
	orl	%ecx, %esi
	shrl	$4, %eax
	andl	$16128, %eax
	orl	%esi, %eax
	movzbl	%dl, %ecx
	addl	%ecx, %eax
	addl	$8421376, %eax
	movl	%eax, (%r13,%r9)
	addq	$4, %r9
	jmp	.LBB8_10
.LBB8_52:
	movbew	(%r12), %ax
	movl	%eax, %ecx
	andl	$63488, %ecx
	cmpl	$55296, %ecx
	jne	.LBB8_55
	movl	%eax, %ecx
	notl	%ecx
	testl	$56320, %ecx
	je	.LBB8_22
	movzbl	2(%r12), %ecx
	andb	$-4, %cl
	cmpb	$-36, %cl
	jne	.LBB8_22
.LBB8_55:
	andl	$64512, %eax
	xorl	%ecx, %ecx
	cmpl	$55296, %eax
	sete	%cl
	movbew	2(%r12,%rcx,2), %ax
	movl	%eax, %edx
	andl	$63488, %edx
	cmpl	$55296, %edx
	jne	.LBB8_58
	notl	%eax
	testl	$56320, %eax
	je	.LBB8_22
	leaq	2(,%rcx,2), %rax
	movzbl	2(%r12,%rax), %eax
	andb	$-4, %al
	cmpb	$-36, %al
	jne	.LBB8_22
.LBB8_58:
	movq	%r9, 16(%rsp)
	xorl	%r15d, %r15d
	cmpq	$65, %rbx
	setae	%r15b
	shll	$6, %r15d
	addq	$66, %r15
	cmpq	%r8, %r15
	movq	%r8, 48(%rsp)
	cmovaeq	%r8, %r15
	vmovdqu	%ymm0, 64(%rsp)
	movq	$0, 96(%rsp)
	movl	%r15d, %eax
	shrl	%eax
	leaq	(%rax,%rax,2), %rax
	cmpq	$148, %rax
	movl	$148, %r8d
	cmovbq	%rax, %r8
	subq	$-128, %r8
	leaq	64(%rsp), %rdi
	leaq	112(%rsp), %rcx
	movq	%r12, %rsi
	movq	%r15, %rdx
	vzeroupper
	callq	"utf16_to_utf8::runs::write_paired::<#8b18edd9dd9aa8df>"
	movq	64(%rsp), %rcx
	movq	72(%rsp), %rdx
	leaq	-2(%rcx), %rsi
	leaq	-2(%rdx), %rax
	testb	$1, 96(%rsp)
	cmoveq	%rdx, %rax
	cmoveq	%rcx, %rsi
	subq	%rsi, %r15
	shrq	%r15
	movl	$276, %ecx
	subq	%rax, %rcx
	cmpq	%r15, %rcx
	cmovaeq	%r15, %rcx
	movq	%rax, %rdx
	movq	%rsi, %r15
	cmpq	$8, %rcx
	jb	.LBB8_62
	leaq	(%rcx,%rcx), %rdi
	movq	%rsi, %r15
	movq	%rax, %rdx
.LBB8_60:
	vmovdqu	(%r12,%r15), %xmm0
	vpshufb	.LCPI8_0(%rip), %xmm0, %xmm0
	vpmaxuw	.LCPI8_1(%rip), %xmm0, %xmm1
	vpcmpeqw	%xmm1, %xmm0, %xmm1
	vpmovmskb	%xmm1, %r8d
	testl	%r8d, %r8d
	jne	.LBB8_67
	vpackuswb	%xmm0, %xmm0, %xmm0
	vmovq	%xmm0, 112(%rsp,%rdx)
	addq	$16, %r15
	addq	$8, %rdx
	addq	$-16, %rdi
	cmpq	$15, %rdi
	ja	.LBB8_60
.LBB8_62:
	leaq	(%rsi,%rcx,2), %rsi
	cmpq	$16, %rsi
	jb	.LBB8_67
	cmpq	%r15, %rsi
	movq	16(%rsp), %r10
	jbe	.LBB8_68
	vmovdqu	-16(%r12,%rsi), %xmm0
	vpshufb	.LCPI8_0(%rip), %xmm0, %xmm0
	vpmaxuw	.LCPI8_1(%rip), %xmm0, %xmm1
	vpcmpeqw	%xmm1, %xmm0, %xmm1
	vpmovmskb	%xmm1, %edi
	testl	%edi, %edi
	jne	.LBB8_68
	addq	%rax, %rcx
	vpackuswb	%xmm0, %xmm0, %xmm0
	vmovq	%xmm0, 104(%rsp,%rcx)
	movq	%rsi, %r15
	movq	%rcx, %rdx
	jmp	.LBB8_68
.LBB8_67:
	movq	16(%rsp), %r10
.LBB8_68:
	cmpq	%rbx, %rdx
	jbe	.LBB8_90
	movq	%rbx, %rdx
.LBB8_70:
	cmpb	$-65, 112(%rsp,%rdx)
	jg	.LBB8_73
	decq	%rdx
	jne	.LBB8_70
	movq	8(%rsp), %rax
	leaq	(%rax,%r10), %rdi
	xorl	%r15d, %r15d
	xorl	%edx, %edx
	movq	%r10, %rbx
	jmp	.LBB8_93
.LBB8_73:
	cmpq	$15, %rdx
	ja	.LBB8_82
	xorl	%r15d, %r15d
	movq	%rdx, %rax
	leaq	112(%rsp), %rcx
	jmp	.LBB8_77
.LBB8_75:
	andl	$31, %esi
	shll	$6, %esi
	orl	%edi, %esi
	movl	$2, %r9d
.LBB8_76:
	addq	%r9, %rcx
	xorl	%edi, %edi
	cmpl	$65536, %esi
	setae	%dil
	leaq	(%r15,%rdi,2), %r15
	addq	$2, %r15
	subq	%r9, %rax
	je	.LBB8_90
.LBB8_77:
	movzbl	(%rcx), %esi
	movl	$1, %r9d
	testb	%sil, %sil
	jns	.LBB8_76
	movzbl	1(%rcx), %edi
	andl	$63, %edi
	cmpb	$-33, %sil
	jbe	.LBB8_75
	movzbl	2(%rcx), %r8d
	andl	$63, %r8d
	cmpb	$-17, %sil
	ja	.LBB8_81
	shll	$12, %esi
	movzwl	%si, %esi
	shll	$6, %edi
	orl	%esi, %edi
	orl	%r8d, %edi
	movl	$3, %r9d
	movl	%edi, %esi
	jmp	.LBB8_76
.LBB8_81:
	movzbl	3(%rcx), %r9d
	andl	$63, %r9d
	andl	$7, %esi
	shll	$18, %esi
	shll	$12, %edi
	orl	%esi, %edi
	shll	$6, %r8d
	orl	%edi, %r8d
	orl	%r9d, %r8d
	movl	$4, %r9d
	movl	%r8d, %esi
	jmp	.LBB8_76
.LBB8_82:
	cmpq	$64, %rdx
	jb	.LBB8_85
	xorl	%ecx, %ecx
	movq	%rdx, %rsi
	xorl	%eax, %eax
.LBB8_84:
	vmovdqu	112(%rsp,%rcx), %ymm0
	vmovdqu	144(%rsp,%rcx), %ymm1
	vpbroadcastd	.LCPI8_6(%rip), %ymm2
	vpbroadcastd	.LCPI8_7(%rip), %ymm3
	vpcmpgtb	%ymm2, %ymm0, %ymm4
	vpmovmskb	%ymm4, %edi
	vpcmpgtb	%ymm2, %ymm1, %ymm2
	vpmovmskb	%ymm2, %r8d
	shlq	$32, %r8
	orq	%rdi, %r8
	xorl	%edi, %edi
	popcntq	%r8, %rdi
	addq	%rax, %rdi
	vpmaxub	%ymm3, %ymm0, %ymm2
	vpcmpeqb	%ymm2, %ymm0, %ymm0
	vpmovmskb	%ymm0, %eax
	vpmaxub	%ymm3, %ymm1, %ymm0
	vpcmpeqb	%ymm0, %ymm1, %ymm0
	vpmovmskb	%ymm0, %r8d
	shlq	$32, %r8
	orq	%rax, %r8
	xorl	%eax, %eax
	popcntq	%r8, %rax
	addq	%rdi, %rax
	addq	$64, %rcx
	addq	$-64, %rsi
	cmpq	$63, %rsi
	ja	.LBB8_84
	jmp	.LBB8_86
.LBB8_85:
	xorl	%eax, %eax
	xorl	%ecx, %ecx
.LBB8_86:
	movq	%rdx, %rsi
	subq	%rcx, %rsi
	cmpq	$16, %rsi
	jb	.LBB8_89
	movq	%rdx, %rsi
	subq	%rcx, %rsi
	addq	%rsp, %rcx
	addq	$112, %rcx
.LBB8_88:
	vmovdqu	(%rcx), %xmm0
	vpcmpgtb	.LCPI8_4(%rip), %xmm0, %xmm1
	vpmovmskb	%xmm1, %edi
	popcntl	%edi, %edi
	vpmaxub	.LCPI8_5(%rip), %xmm0, %xmm1
	vpcmpeqb	%xmm1, %xmm0, %xmm0
	vpmovmskb	%xmm0, %r8d
	popcntl	%r8d, %r8d
	addl	%edi, %r8d
	addq	%r8, %rax
	addq	$-16, %rsi
	addq	$16, %rcx
	cmpq	$15, %rsi
	ja	.LBB8_88
.LBB8_89:
	vmovdqu	96(%rsp,%rdx), %xmm0
	vpcmpgtb	.LCPI8_4(%rip), %xmm0, %xmm1
	vpmovmskb	%xmm1, %ecx
	movb	$16, %dil
	subb	%sil, %dil
	shrxq	%rdi, %rcx, %rcx
	vpmaxub	.LCPI8_5(%rip), %xmm0, %xmm1
	popcntl	%ecx, %ecx
	vpcmpeqb	%xmm1, %xmm0, %xmm0
	vpmovmskb	%xmm0, %esi
	shrxq	%rdi, %rsi, %rsi
	xorl	%r15d, %r15d
	popcntl	%esi, %r15d
	addq	%rcx, %r15
	addq	%rax, %r15
	addq	%r15, %r15
.LBB8_90:
	leaq	(%rdx,%r10), %rbx
	addq	8(%rsp), %r10
	movq	%r10, %rax
	leaq	112(%rsp), %rcx
	subq	%rcx, %rax
	cmpq	%rdx, %rax
	jae	.LBB8_92
	leaq	112(%rsp), %rsi
	movq	%r10, %rdi
	jmp	.LBB8_94
.LBB8_92:
	movq	%r10, %rdi
.LBB8_93:
	leaq	112(%rsp), %rsi
.LBB8_94:
	vzeroupper
	callq	memcpy@PLT
	testq	%r15, %r15
	movq	48(%rsp), %rsi
	jne	.LBB8_24
	leaq	112(%rsp), %rdx
	movq	%r12, %rdi
	movq	8(%rsp), %rcx
	movq	%r14, %r8
	movq	%rbx, %r9
	jmp	.LBB8_29
.LBB8_96:
	movb	$2, %al
	jmp	.LBB8_99
.LBB8_97:
	movq	%rbx, %rbp
	jmp	.LBB8_8
.LBB8_103:
	movb	$2, %cl
	jmp	.LBB8_100
.LBB8_98:
	movb	$3, %al
.LBB8_99:
	xorl	%ecx, %ecx
.LBB8_100:
	movq	32(%rsp), %rdx
	movq	%r15, (%rdx)
	movq	%r9, 8(%rdx)
	movb	%al, 16(%rdx)
	movb	%cl, 17(%rdx)
.LBB8_101:
	addq	$392, %rsp
	.cfi_def_cfa_offset 56
	popq	%rbx
	.cfi_def_cfa_offset 48
	popq	%r12
	.cfi_def_cfa_offset 40
	popq	%r13
	.cfi_def_cfa_offset 32
	popq	%r14
	.cfi_def_cfa_offset 24
	popq	%r15
	.cfi_def_cfa_offset 16
	popq	%rbp
	.cfi_def_cfa_offset 8
	retq
.Lfunc_end8:
	.size	"utf16_transcode::transcoding::transcode_many::<#b8dc3d53e12e85b3>", .Lfunc_end8-"utf16_transcode::transcoding::transcode_many::<#b8dc3d53e12e85b3>"
	.cfi_endproc

	.section	".text.utf16_units::unit::decode_surrogates","ax",@progbits
	.p2align	4
	.type	"utf16_units::unit::decode_surrogates",@function
"utf16_units::unit::decode_surrogates":
	.cfi_startproc
	addl	$10240, %edi
	movzwl	%di, %eax
	shll	$10, %eax
	addl	$9216, %esi
	movzwl	%si, %ecx
	addl	%ecx, %eax
	addl	$65536, %eax
	retq
.Lfunc_end9:
	.size	"utf16_units::unit::decode_surrogates", .Lfunc_end9-"utf16_units::unit::decode_surrogates"
	.cfi_endproc

	.section	.rodata.cst32,"aM",@progbits,32
	.p2align	5, 0x0
.LCPI10_0:
	.byte	1
	.byte	0
	.byte	3
	.byte	2
	.byte	5
	.byte	4
	.byte	7
	.byte	6
	.byte	9
	.byte	8
	.byte	11
	.byte	10
	.byte	13
	.byte	12
	.byte	15
	.byte	14
	.byte	1
	.byte	0
	.byte	3
	.byte	2
	.byte	5
	.byte	4
	.byte	7
	.byte	6
	.byte	9
	.byte	8
	.byte	11
	.byte	10
	.byte	13
	.byte	12
	.byte	15
	.byte	14
.LCPI10_1:
	.short	65408
	.short	65408
	.short	65408
	.short	65408
	.short	65408
	.short	65408
	.short	65408
	.short	65408
	.short	65408
	.short	65408
	.short	65408
	.short	65408
	.short	65408
	.short	65408
	.short	65408
	.short	65408
.LCPI10_3:
	.short	10240
	.short	10240
	.short	10240
	.short	10240
	.short	10240
	.short	10240
	.short	10240
	.short	10240
	.short	10240
	.short	10240
	.short	10240
	.short	10240
	.short	10240
	.short	10240
	.short	10240
	.short	10240
.LCPI10_5:
	.short	63488
	.short	63488
	.short	63488
	.short	63488
	.short	63488
	.short	63488
	.short	63488
	.short	63488
	.short	63488
	.short	63488
	.short	63488
	.short	63488
	.short	63488
	.short	63488
	.short	63488
	.short	63488
.LCPI10_6:
	.short	224
	.short	224
	.short	224
	.short	224
	.short	224
	.short	224
	.short	224
	.short	224
	.short	224
	.short	224
	.short	224
	.short	224
	.short	224
	.short	224
	.short	224
	.short	224
.LCPI10_7:
	.short	34815
	.short	34815
	.short	34815
	.short	34815
	.short	34815
	.short	34815
	.short	34815
	.short	34815
	.short	34815
	.short	34815
	.short	34815
	.short	34815
	.short	34815
	.short	34815
	.short	34815
	.short	34815
.LCPI10_8:
	.short	32768
	.short	32768
	.short	32768
	.short	32768
	.short	32768
	.short	32768
	.short	32768
	.short	32768
	.short	32768
	.short	32768
	.short	32768
	.short	32768
	.short	32768
	.short	32768
	.short	32768
	.short	32768
.LCPI10_9:
	.short	63
	.short	63
	.short	63
	.short	63
	.short	63
	.short	63
	.short	63
	.short	63
	.short	63
	.short	63
	.short	63
	.short	63
	.short	63
	.short	63
	.short	63
	.short	63
.LCPI10_10:
	.short	16128
	.short	16128
	.short	16128
	.short	16128
	.short	16128
	.short	16128
	.short	16128
	.short	16128
	.short	16128
	.short	16128
	.short	16128
	.short	16128
	.short	16128
	.short	16128
	.short	16128
	.short	16128
.LCPI10_11:
	.zero	32,128
.LCPI10_12:
	.short	255
	.short	255
	.short	255
	.short	255
	.short	255
	.short	255
	.short	255
	.short	255
	.short	255
	.short	255
	.short	255
	.short	255
	.short	255
	.short	255
	.short	255
	.short	255
.LCPI10_13:
	.short	32992
	.short	32992
	.short	32992
	.short	32992
	.short	32992
	.short	32992
	.short	32992
	.short	32992
	.short	32992
	.short	32992
	.short	32992
	.short	32992
	.short	32992
	.short	32992
	.short	32992
	.short	32992
.LCPI10_14:
	.short	128
	.short	128
	.short	128
	.short	128
	.short	128
	.short	128
	.short	128
	.short	128
	.short	128
	.short	128
	.short	128
	.short	128
	.short	128
	.short	128
	.short	128
	.short	128
.LCPI10_18:
	.short	32960
	.short	32960
	.short	32960
	.short	32960
	.short	32960
	.short	32960
	.short	32960
	.short	32960
	.short	32960
	.short	32960
	.short	32960
	.short	32960
	.short	32960
	.short	32960
	.short	32960
	.short	32960
.LCPI10_19:
	.short	127
	.short	127
	.short	127
	.short	127
	.short	127
	.short	127
	.short	127
	.short	127
	.short	127
	.short	127
	.short	127
	.short	127
	.short	127
	.short	127
	.short	127
	.short	127
.LCPI10_20:
	.zero	32,252
.LCPI10_21:
	.zero	32,216
.LCPI10_22:
	.zero	32,220
.LCPI10_23:
	.short	12288
	.short	12288
	.short	12288
	.short	12288
	.short	12288
	.short	12288
	.short	12288
	.short	12288
	.short	12288
	.short	12288
	.short	12288
	.short	12288
	.short	12288
	.short	12288
	.short	12288
	.short	12288
.LCPI10_24:
	.short	9216
	.short	9216
	.short	9216
	.short	9216
	.short	9216
	.short	9216
	.short	9216
	.short	9216
	.short	9216
	.short	9216
	.short	9216
	.short	9216
	.short	9216
	.short	9216
	.short	9216
	.short	9216
.LCPI10_25:
	.short	752
	.short	752
	.short	752
	.short	752
	.short	752
	.short	752
	.short	752
	.short	752
	.short	752
	.short	752
	.short	752
	.short	752
	.short	752
	.short	752
	.short	752
	.short	752
.LCPI10_26:
	.short	3072
	.short	3072
	.short	3072
	.short	3072
	.short	3072
	.short	3072
	.short	3072
	.short	3072
	.short	3072
	.short	3072
	.short	3072
	.short	3072
	.short	3072
	.short	3072
	.short	3072
	.short	3072
.LCPI10_27:
	.short	17408
	.short	17408
	.short	17408
	.short	17408
	.short	17408
	.short	17408
	.short	17408
	.short	17408
	.short	17408
	.short	17408
	.short	17408
	.short	17408
	.short	17408
	.short	17408
	.short	17408
	.short	17408
	.section	.rodata.cst8,"aM",@progbits,8
	.p2align	3, 0x0
.LCPI10_2:
	.quad	-576188069258921984
	.section	.rodata.cst16,"aM",@progbits,16
	.p2align	4, 0x0
.LCPI10_4:
	.short	2047
	.short	2047
	.short	2047
	.short	2047
	.short	2047
	.short	2047
	.short	2047
	.short	2047
.LCPI10_15:
	.byte	128
	.byte	128
	.byte	0
	.byte	128
	.byte	128
	.byte	2
	.byte	128
	.byte	128
	.byte	4
	.byte	128
	.byte	128
	.byte	6
	.byte	128
	.byte	128
	.byte	8
	.byte	128
.LCPI10_16:
	.byte	0
	.byte	1
	.byte	128
	.byte	2
	.byte	3
	.byte	128
	.byte	4
	.byte	5
	.byte	128
	.byte	6
	.byte	7
	.byte	128
	.byte	8
	.byte	9
	.byte	128
	.byte	10
.LCPI10_17:
	.byte	6
	.byte	5
	.byte	8
	.byte	10
	.byte	9
	.byte	12
	.byte	14
	.byte	13
	.zero	1
	.zero	1
	.zero	1
	.zero	1
	.zero	1
	.zero	1
	.zero	1
	.zero	1
.LCPI10_28:
	.byte	1
	.byte	0
	.byte	3
	.byte	2
	.byte	5
	.byte	4
	.byte	7
	.byte	6
	.byte	9
	.byte	8
	.byte	11
	.byte	10
	.byte	13
	.byte	12
	.byte	15
	.byte	14
.LCPI10_41:
	.byte	6
	.byte	5
	.byte	8
	.byte	10
	.byte	9
	.byte	12
	.byte	14
	.byte	13
	.byte	0
	.byte	0
	.byte	0
	.byte	0
	.byte	0
	.byte	0
	.byte	0
	.byte	0
	.section	.rodata.cst4,"aM",@progbits,4
	.p2align	2, 0x0
.LCPI10_29:
	.short	10240
	.short	10240
.LCPI10_30:
	.short	224
	.short	224
.LCPI10_31:
	.short	34815
	.short	34815
.LCPI10_32:
	.short	32768
	.short	32768
.LCPI10_33:
	.short	63
	.short	63
.LCPI10_34:
	.short	16128
	.short	16128
.LCPI10_35:
	.zero	4,128
.LCPI10_36:
	.short	255
	.short	255
.LCPI10_37:
	.short	32960
	.short	32960
.LCPI10_38:
	.short	127
	.short	127
.LCPI10_39:
	.short	32992
	.short	32992
.LCPI10_40:
	.short	128
	.short	128
.LCPI10_42:
	.short	12288
	.short	12288
.LCPI10_43:
	.short	9216
	.short	9216
.LCPI10_44:
	.short	752
	.short	752
.LCPI10_45:
	.short	3072
	.short	3072
.LCPI10_46:
	.short	17408
	.short	17408
	.section	".text.utf16_to_utf8::runs::write_paired::<#8b18edd9dd9aa8df>","ax",@progbits
	.p2align	4
	.type	"utf16_to_utf8::runs::write_paired::<#8b18edd9dd9aa8df>",@function
"utf16_to_utf8::runs::write_paired::<#8b18edd9dd9aa8df>":
	.cfi_startproc
	pushq	%rbp
	.cfi_def_cfa_offset 16
	pushq	%r15
	.cfi_def_cfa_offset 24
	pushq	%r14
	.cfi_def_cfa_offset 32
	pushq	%r13
	.cfi_def_cfa_offset 40
	pushq	%r12
	.cfi_def_cfa_offset 48
	pushq	%rbx
	.cfi_def_cfa_offset 56
	subq	$120, %rsp
	.cfi_def_cfa_offset 176
	.cfi_offset %rbx, -56
	.cfi_offset %r12, -48
	.cfi_offset %r13, -40
	.cfi_offset %r14, -32
	.cfi_offset %r15, -24
	.cfi_offset %rbp, -16
	movq	%rcx, %r15
	cmpq	$64, %rdx
	setb	%al
	cmpq	$128, %r8
	setb	%cl
	orb	%al, %cl
	je	.LBB10_1
	vpxor	%xmm0, %xmm0, %xmm0
	vmovdqu	%ymm0, (%rdi)
	movq	$0, 32(%rdi)
	jmp	.LBB10_7
.LBB10_1:
	movq	%r8, %r14
	movq	%rdx, %r12
	movq	%rsi, %r13
	movq	%rdi, 8(%rsp)
	addq	$-128, %r14
	addq	$-64, %r12
	vpxor	%xmm0, %xmm0, %xmm0
	xorl	%ebp, %ebp
	xorl	%eax, %eax
	xorl	%ebx, %ebx
	jmp	.LBB10_2
	.p2align	4
.LBB10_41:
	vinserti128	$1, %xmm0, %ymm0, %ymm0
	movq	%r15, %rdi
	movq	%rax, %rsi
	movl	$5, %edx
	vmovdqu	%ymm15, 16(%rsp)
	vmovdqu	%ymm1, 48(%rsp)
	callq	"utf16_to_utf8::blocks::write_group"
	movq	%r15, %rdi
	movq	%rax, %rsi
	vmovups	48(%rsp), %ymm0
	vmovdqu	16(%rsp), %ymm1
	movl	$5, %edx
	callq	"utf16_to_utf8::blocks::write_group"
	addq	$64, %rbx
	vmovdqu	16(%rsp), %ymm0
	vextracti128	$1, %ymm0, %xmm0
.LBB10_42:
	cmpq	%r12, %rbx
	ja	.LBB10_43
.LBB10_2:
	testb	$1, %bpl
	jne	.LBB10_36
	.p2align	4
.LBB10_3:
	cmpq	%rax, %r14
	jb	.LBB10_36
	vmovdqu	(%r13,%rbx), %ymm1
	vmovdqu	32(%r13,%rbx), %ymm2
	vbroadcasti128	.LCPI10_28(%rip), %ymm12
	vpshufb	%ymm12, %ymm2, %ymm11
	vpshufb	%ymm12, %ymm1, %ymm5
	vpor	%ymm5, %ymm11, %ymm1
	vptest	.LCPI10_1(%rip), %ymm1
	jne	.LBB10_5
	vpackuswb	%ymm11, %ymm5, %ymm0
	vpermq	$216, %ymm0, %ymm0
	vmovdqu	%ymm0, (%r15,%rax)
	addq	$32, %rax
	addq	$64, %rbx
	vextracti128	$1, %ymm11, %xmm0
	cmpq	%r12, %rbx
	jbe	.LBB10_3
	jmp	.LBB10_36
	.p2align	4
.LBB10_5:
	movq	%rbp, 16(%rsp)
.LBB10_33:
	movq	%rax, %rsi
	movq	%rbx, %rbp
	vpor	%ymm5, %ymm11, %ymm1
	vpbroadcastq	.LCPI10_2(%rip), %ymm2
	vptest	%ymm2, %ymm1
	je	.LBB10_13
	vpbroadcastd	.LCPI10_29(%rip), %ymm13
	vpaddw	%ymm13, %ymm11, %ymm1
	vpaddw	%ymm5, %ymm13, %ymm2
	vpminuw	%ymm2, %ymm5, %ymm3
	vpminuw	%ymm1, %ymm11, %ymm4
	vpminuw	%ymm4, %ymm3, %ymm3
	vextracti128	$1, %ymm3, %xmm4
	vpminuw	%xmm4, %xmm3, %xmm3
	vpminuw	.LCPI10_4(%rip), %xmm3, %xmm4
	vpcmpeqw	%xmm4, %xmm3, %xmm3
	vpmovmskb	%xmm3, %eax
	testl	%eax, %eax
	je	.LBB10_14
	vpminuw	%ymm1, %ymm2, %ymm1
	vextracti128	$1, %ymm1, %xmm2
	vpminuw	%xmm2, %xmm1, %xmm1
	vpminuw	.LCPI10_4(%rip), %xmm1, %xmm2
	vpcmpeqw	%xmm2, %xmm1, %xmm1
	vpmovmskb	%xmm1, %eax
	testl	%eax, %eax
	jne	.LBB10_12
	vinserti128	$1, %xmm0, %ymm0, %ymm0
	movq	%r15, %rdi
	vmovdqa	%ymm5, %ymm1
	movl	$4, %edx
	vmovdqu	%ymm11, 48(%rsp)
	vmovdqu	%ymm5, 80(%rsp)
	callq	"utf16_to_utf8::blocks::write_group"
	movq	%r15, %rdi
	movq	%rax, %rsi
	vmovups	80(%rsp), %ymm0
	vmovdqu	48(%rsp), %ymm1
	movl	$4, %edx
	callq	"utf16_to_utf8::blocks::write_group"
	vmovdqu	48(%rsp), %ymm0
	vextracti128	$1, %ymm0, %xmm0
	addq	$64, %rbp
	cmpq	%r12, %rbp
	ja	.LBB10_23
	cmpq	%rax, %r14
	vbroadcasti128	.LCPI10_28(%rip), %ymm12
	vpbroadcastd	.LCPI10_29(%rip), %ymm13
	movq	%rbp, %rbx
	jb	.LBB10_29
	.p2align	4
.LBB10_25:
	vmovdqu	(%r13,%rbx), %ymm2
	vmovdqu	32(%r13,%rbx), %ymm1
	vpshufb	%ymm12, %ymm1, %ymm1
	vpshufb	%ymm12, %ymm2, %ymm9
	vpor	%ymm1, %ymm9, %ymm2
	vptest	.LCPI10_5(%rip), %ymm2
	je	.LBB10_29
	vpaddw	%ymm13, %ymm9, %ymm2
	vpaddw	%ymm1, %ymm13, %ymm3
	vpminuw	%ymm3, %ymm2, %ymm2
	vextracti128	$1, %ymm2, %xmm3
	vpminuw	%xmm3, %xmm2, %xmm2
	vpminuw	.LCPI10_4(%rip), %xmm2, %xmm3
	vpcmpeqw	%xmm3, %xmm2, %xmm2
	vpmovmskb	%xmm2, %ecx
	testl	%ecx, %ecx
	jne	.LBB10_29
	vpsllw	$8, %ymm9, %ymm6
	vpsrlw	$12, %ymm9, %ymm0
	vpor	%ymm6, %ymm0, %ymm2
	vpbroadcastd	.LCPI10_30(%rip), %ymm0
	vpor	%ymm0, %ymm2, %ymm8
	vpbroadcastd	.LCPI10_31(%rip), %ymm2
	vpsubusw	%ymm9, %ymm2, %ymm4
	vpbroadcastd	.LCPI10_32(%rip), %ymm3
	vpand	%ymm3, %ymm4, %ymm11
	vpsrlw	$9, %ymm11, %ymm7
	vpsrlw	$6, %ymm9, %ymm5
	vpbroadcastd	.LCPI10_33(%rip), %ymm4
	vpand	%ymm4, %ymm5, %ymm10
	vpbroadcastd	.LCPI10_34(%rip), %ymm5
	vpand	%ymm5, %ymm6, %ymm6
	vpor	%ymm6, %ymm10, %ymm6
	vpor	%ymm7, %ymm6, %ymm7
	vpbroadcastd	.LCPI10_35(%rip), %ymm6
	vpor	%ymm6, %ymm7, %ymm10
	vpbroadcastd	.LCPI10_36(%rip), %ymm7
	vpsubusw	%ymm9, %ymm7, %ymm9
	vpor	%ymm9, %ymm11, %ymm9
	vpmovmskb	%xmm9, %edx
	vpunpcklwd	%xmm10, %xmm8, %xmm11
	movzbl	%dl, %esi
	xorl	%edi, %edi
	popcntl	%esi, %edi
	shll	$4, %esi
	leaq	.Lstatic.9(%rip), %rcx
	vpshufb	(%rsi,%rcx), %xmm11, %xmm11
	vmovdqu	%xmm11, (%r15,%rax)
	subq	%rdi, %rax
	vpunpckhwd	%xmm10, %xmm8, %xmm11
	shrl	$8, %edx
	xorl	%esi, %esi
	popcntl	%edx, %esi
	shll	$4, %edx
	vpshufb	(%rdx,%rcx), %xmm11, %xmm11
	vmovdqu	%xmm11, 12(%r15,%rax)
	addq	$12, %rax
	subq	%rsi, %rax
	vextracti128	$1, %ymm8, %xmm8
	vextracti128	$1, %ymm10, %xmm10
	vextracti128	$1, %ymm9, %xmm9
	vpmovmskb	%xmm9, %edx
	vpunpcklwd	%xmm10, %xmm8, %xmm9
	movzbl	%dl, %esi
	xorl	%edi, %edi
	popcntl	%esi, %edi
	shll	$4, %esi
	vpshufb	(%rsi,%rcx), %xmm9, %xmm9
	vmovdqu	%xmm9, 12(%r15,%rax)
	addq	$12, %rax
	vpunpckhwd	%xmm10, %xmm8, %xmm8
	shrl	$8, %edx
	xorl	%esi, %esi
	popcntl	%edx, %esi
	shll	$4, %edx
	vpshufb	(%rdx,%rcx), %xmm8, %xmm8
	subq	%rdi, %rax
	vmovdqu	%xmm8, 12(%r15,%rax)
	subq	%rsi, %rax
	vpsllw	$8, %ymm1, %ymm8
	vpsrlw	$12, %ymm1, %ymm9
	vpor	%ymm8, %ymm9, %ymm9
	vpor	%ymm0, %ymm9, %ymm0
	vpsubusw	%ymm1, %ymm2, %ymm2
	vpand	%ymm3, %ymm2, %ymm3
	vpsrlw	$9, %ymm3, %ymm2
	vpsrlw	$6, %ymm1, %ymm9
	vpand	%ymm4, %ymm9, %ymm4
	vpand	%ymm5, %ymm8, %ymm5
	vpor	%ymm4, %ymm5, %ymm4
	vpor	%ymm2, %ymm4, %ymm2
	vpor	%ymm6, %ymm2, %ymm2
	vpsubusw	%ymm1, %ymm7, %ymm4
	vpor	%ymm4, %ymm3, %ymm3
	vpmovmskb	%xmm3, %edx
	vpunpcklwd	%xmm2, %xmm0, %xmm4
	movzbl	%dl, %esi
	xorl	%edi, %edi
	popcntl	%esi, %edi
	shll	$4, %esi
	vpshufb	(%rsi,%rcx), %xmm4, %xmm4
	vmovdqu	%xmm4, 24(%r15,%rax)
	addq	$24, %rax
	subq	%rdi, %rax
	vpunpckhwd	%xmm2, %xmm0, %xmm4
	shrl	$8, %edx
	xorl	%esi, %esi
	popcntl	%edx, %esi
	shll	$4, %edx
	vpshufb	(%rdx,%rcx), %xmm4, %xmm4
	vmovdqu	%xmm4, 12(%r15,%rax)
	addq	$12, %rax
	subq	%rsi, %rax
	vextracti128	$1, %ymm0, %xmm0
	vextracti128	$1, %ymm2, %xmm2
	vextracti128	$1, %ymm3, %xmm3
	vpmovmskb	%xmm3, %edx
	vpunpcklwd	%xmm2, %xmm0, %xmm3
	movzbl	%dl, %esi
	xorl	%edi, %edi
	popcntl	%esi, %edi
	shll	$4, %esi
	vpshufb	(%rsi,%rcx), %xmm3, %xmm3
	vmovdqu	%xmm3, 12(%r15,%rax)
	addq	$12, %rax
	vpunpckhwd	%xmm2, %xmm0, %xmm0
	shrl	$8, %edx
	xorl	%esi, %esi
	popcntl	%edx, %esi
	shll	$4, %edx
	vpshufb	(%rdx,%rcx), %xmm0, %xmm0
	subq	%rdi, %rax
	vmovdqu	%xmm0, 12(%r15,%rax)
	subq	%rsi, %rax
	addq	$24, %rax
	vextracti128	$1, %ymm1, %xmm0
	addq	$64, %rbx
	cmpq	%r12, %rbx
	ja	.LBB10_29
	cmpq	%rax, %r14
	jae	.LBB10_25
	jmp	.LBB10_29
	.p2align	4
.LBB10_13:
	vpsrlw	$6, %ymm5, %ymm2
	vpsllw	$8, %ymm5, %ymm1
	vpbroadcastd	.LCPI10_34(%rip), %ymm0
	vpand	%ymm0, %ymm1, %ymm3
	vpbroadcastd	.LCPI10_37(%rip), %ymm1
	vpaddw	%ymm1, %ymm2, %ymm2
	vpaddw	%ymm3, %ymm2, %ymm3
	vpbroadcastd	.LCPI10_38(%rip), %ymm2
	vpminuw	%ymm2, %ymm5, %ymm4
	vpcmpeqw	%ymm4, %ymm5, %ymm4
	vpblendvb	%ymm4, %ymm5, %ymm3, %ymm3
	vextracti128	$1, %ymm4, %xmm5
	vpacksswb	%xmm5, %xmm4, %xmm4
	vpmovmskb	%xmm4, %eax
	movzbl	%al, %edx
	xorl	%edi, %edi
	popcntl	%edx, %edi
	shll	$4, %edx
	leaq	.Lstatic.8(%rip), %rcx
	vpshufb	(%rdx,%rcx), %xmm3, %xmm4
	vmovdqu	%xmm4, (%r15,%rsi)
	subq	%rdi, %rsi
	shrl	$8, %eax
	vextracti128	$1, %ymm3, %xmm3
	xorl	%edx, %edx
	popcntl	%eax, %edx
	shll	$4, %eax
	vpshufb	(%rax,%rcx), %xmm3, %xmm3
	vmovdqu	%xmm3, 16(%r15,%rsi)
	subq	%rdx, %rsi
	vpsrlw	$6, %ymm11, %ymm3
	vpsllw	$8, %ymm11, %ymm4
	vpand	%ymm0, %ymm4, %ymm0
	vpaddw	%ymm1, %ymm3, %ymm1
	vpaddw	%ymm0, %ymm1, %ymm0
	vpminuw	%ymm2, %ymm11, %ymm1
	vpcmpeqw	%ymm1, %ymm11, %ymm1
	vpblendvb	%ymm1, %ymm11, %ymm0, %ymm0
	vextracti128	$1, %ymm1, %xmm2
	vpacksswb	%xmm2, %xmm1, %xmm1
	vpmovmskb	%xmm1, %edx
	movzbl	%dl, %eax
	xorl	%edi, %edi
	popcntl	%eax, %edi
	shll	$4, %eax
	vpshufb	(%rax,%rcx), %xmm0, %xmm1
	leaq	32(%rsi), %rax
	vmovdqu	%xmm1, 32(%r15,%rsi)
	subq	%rdi, %rax
	shrl	$8, %edx
	vextracti128	$1, %ymm0, %xmm0
	xorl	%esi, %esi
	popcntl	%edx, %esi
	shll	$4, %edx
	vpshufb	(%rdx,%rcx), %xmm0, %xmm0
	vmovdqu	%xmm0, 16(%r15,%rax)
	subq	%rsi, %rax
	addq	$32, %rax
	addq	$64, %rbp
	vextracti128	$1, %ymm11, %xmm0
	movq	%rbp, %rbx
	jmp	.LBB10_29
	.p2align	4
.LBB10_14:
	vpsrlw	$12, %ymm5, %ymm0
	vpsllw	$2, %ymm5, %ymm2
	vpbroadcastd	.LCPI10_34(%rip), %ymm1
	vpand	%ymm1, %ymm2, %ymm3
	vpbroadcastd	.LCPI10_39(%rip), %ymm2
	vpor	%ymm2, %ymm0, %ymm0
	vpor	%ymm3, %ymm0, %ymm0
	vpbroadcastd	.LCPI10_33(%rip), %ymm3
	vpand	%ymm3, %ymm5, %ymm5
	vpbroadcastd	.LCPI10_40(%rip), %ymm4
	vpor	%ymm4, %ymm5, %ymm8
	vmovdqa	.LCPI10_15(%rip), %xmm5
	vpshufb	%xmm5, %xmm8, %xmm7
	vmovdqa	.LCPI10_16(%rip), %xmm6
	vpshufb	%xmm6, %xmm0, %xmm9
	vpor	%xmm7, %xmm9, %xmm7
	vmovdqu	%xmm7, (%r15,%rsi)
	vpunpckhbw	%xmm8, %xmm0, %xmm9
	vmovq	.LCPI10_41(%rip), %xmm7
	vpshufb	%xmm7, %xmm9, %xmm9
	vmovq	%xmm9, 16(%r15,%rsi)
	vextracti128	$1, %ymm0, %xmm0
	vextracti128	$1, %ymm8, %xmm8
	vpshufb	%xmm5, %xmm8, %xmm9
	vpshufb	%xmm6, %xmm0, %xmm10
	vpor	%xmm9, %xmm10, %xmm9
	vmovdqu	%xmm9, 24(%r15,%rsi)
	vpunpckhbw	%xmm8, %xmm0, %xmm0
	vpshufb	%xmm7, %xmm0, %xmm0
	vmovq	%xmm0, 40(%r15,%rsi)
	vpsrlw	$12, %ymm11, %ymm0
	vpsllw	$2, %ymm11, %ymm8
	vpand	%ymm1, %ymm8, %ymm8
	vpor	%ymm2, %ymm0, %ymm0
	vpor	%ymm0, %ymm8, %ymm0
	vpand	%ymm3, %ymm11, %ymm8
	vpor	%ymm4, %ymm8, %ymm8
	vpshufb	%xmm5, %xmm8, %xmm9
	vpshufb	%xmm6, %xmm0, %xmm10
	vpor	%xmm9, %xmm10, %xmm9
	vmovdqu	%xmm9, 48(%r15,%rsi)
	vpunpckhbw	%xmm8, %xmm0, %xmm9
	vpshufb	%xmm7, %xmm9, %xmm9
	vmovq	%xmm9, 64(%r15,%rsi)
	vextracti128	$1, %ymm0, %xmm0
	vextracti128	$1, %ymm8, %xmm8
	vpshufb	%xmm5, %xmm8, %xmm9
	vpshufb	%xmm6, %xmm0, %xmm10
	vpor	%xmm9, %xmm10, %xmm9
	vmovdqu	%xmm9, 72(%r15,%rsi)
	vpunpckhbw	%xmm8, %xmm0, %xmm0
	vpshufb	%xmm7, %xmm0, %xmm0
	vmovq	%xmm0, 88(%r15,%rsi)
	vextracti128	$1, %ymm11, %xmm0
	leaq	96(%rsi), %rax
	leaq	64(%rbp), %rbx
	cmpq	%r12, %rbx
	ja	.LBB10_29
	cmpq	%rax, %r14
	jb	.LBB10_29
	vmovdqu	(%r13,%rbx), %ymm9
	vmovdqu	32(%r13,%rbx), %ymm8
	vpshufb	%ymm12, %ymm8, %ymm8
	vpshufb	%ymm12, %ymm9, %ymm9
	vpaddw	%ymm13, %ymm9, %ymm10
	vpaddw	%ymm13, %ymm8, %ymm11
	vpminuw	%ymm11, %ymm8, %ymm11
	vpminuw	%ymm10, %ymm9, %ymm10
	vpminuw	%ymm11, %ymm10, %ymm10
	vextracti128	$1, %ymm10, %xmm11
	vpminuw	%xmm11, %xmm10, %xmm10
	vpminuw	.LCPI10_4(%rip), %xmm10, %xmm11
	vpcmpeqw	%xmm11, %xmm10, %xmm10
	vpmovmskb	%xmm10, %ecx
	testl	%ecx, %ecx
	jne	.LBB10_29
	addq	$192, %rsi
	subq	$-128, %rbp
	.p2align	4
.LBB10_19:
	movq	%rsi, %rax
	vpsrlw	$12, %ymm9, %ymm0
	vpsllw	$2, %ymm9, %ymm10
	vpand	%ymm1, %ymm10, %ymm10
	vpor	%ymm2, %ymm0, %ymm0
	vpor	%ymm0, %ymm10, %ymm10
	vpand	%ymm3, %ymm9, %ymm0
	vpor	%ymm4, %ymm0, %ymm9
	vpshufb	%xmm5, %xmm9, %xmm0
	vpshufb	%xmm6, %xmm10, %xmm11
	vpor	%xmm0, %xmm11, %xmm0
	vmovdqu	%xmm0, -96(%r15,%rsi)
	vpunpckhbw	%xmm9, %xmm10, %xmm0
	vpshufb	%xmm7, %xmm0, %xmm0
	vmovq	%xmm0, -80(%r15,%rsi)
	vmovdqa	%ymm8, %ymm0
	movq	%rbp, %rbx
	vextracti128	$1, %ymm10, %xmm8
	vextracti128	$1, %ymm9, %xmm9
	vpshufb	%xmm5, %xmm9, %xmm10
	vpshufb	%xmm6, %xmm8, %xmm11
	vpor	%xmm10, %xmm11, %xmm10
	vmovdqu	%xmm10, -72(%r15,%rsi)
	vpunpckhbw	%xmm9, %xmm8, %xmm8
	vpshufb	%xmm7, %xmm8, %xmm8
	vmovq	%xmm8, -56(%r15,%rsi)
	vpsrlw	$12, %ymm0, %ymm8
	vpsllw	$2, %ymm0, %ymm9
	vpand	%ymm1, %ymm9, %ymm9
	vpor	%ymm2, %ymm8, %ymm8
	vpor	%ymm9, %ymm8, %ymm8
	vpand	%ymm3, %ymm0, %ymm9
	vpor	%ymm4, %ymm9, %ymm9
	vpshufb	%xmm5, %xmm9, %xmm10
	vpshufb	%xmm6, %xmm8, %xmm11
	vpor	%xmm10, %xmm11, %xmm10
	vmovdqu	%xmm10, -48(%r15,%rsi)
	vpunpckhbw	%xmm9, %xmm8, %xmm10
	vpshufb	%xmm7, %xmm10, %xmm10
	vmovq	%xmm10, -32(%r15,%rsi)
	vextracti128	$1, %ymm8, %xmm8
	vextracti128	$1, %ymm9, %xmm9
	vpshufb	%xmm5, %xmm9, %xmm10
	vpshufb	%xmm6, %xmm8, %xmm11
	vpor	%xmm10, %xmm11, %xmm10
	vmovdqu	%xmm10, -24(%r15,%rsi)
	vpunpckhbw	%xmm9, %xmm8, %xmm8
	vpshufb	%xmm7, %xmm8, %xmm8
	vmovq	%xmm8, -8(%r15,%rsi)
	cmpq	%r12, %rbp
	ja	.LBB10_21
	cmpq	%rax, %r14
	jb	.LBB10_21
	vmovdqu	(%r13,%rbx), %ymm9
	vmovdqu	32(%r13,%rbx), %ymm8
	vpshufb	%ymm12, %ymm8, %ymm8
	vpshufb	%ymm12, %ymm9, %ymm9
	vpaddw	%ymm13, %ymm9, %ymm10
	vpaddw	%ymm13, %ymm8, %ymm11
	vpminuw	%ymm11, %ymm8, %ymm11
	vpminuw	%ymm10, %ymm9, %ymm10
	vpminuw	%ymm11, %ymm10, %ymm10
	vextracti128	$1, %ymm10, %xmm11
	vpminuw	%xmm11, %xmm10, %xmm10
	vpminuw	.LCPI10_4(%rip), %xmm10, %xmm11
	vpcmpeqw	%xmm11, %xmm10, %xmm10
	vpmovmskb	%xmm10, %ecx
	leaq	96(%rax), %rsi
	leaq	64(%rbx), %rbp
	testl	%ecx, %ecx
	je	.LBB10_19
.LBB10_21:
	vextracti128	$1, %ymm0, %xmm0
	jmp	.LBB10_29
.LBB10_23:
	movq	%rbp, %rbx
	vbroadcasti128	.LCPI10_28(%rip), %ymm12
	.p2align	4
.LBB10_29:
	cmpq	%r12, %rbx
	ja	.LBB10_30
	cmpq	%rax, %r14
	movq	16(%rsp), %rbp
	jb	.LBB10_36
	.p2align	4
.LBB10_32:
	vmovdqu	(%r13,%rbx), %ymm1
	vmovdqu	32(%r13,%rbx), %ymm2
	vpshufb	%ymm12, %ymm2, %ymm11
	vpshufb	%ymm12, %ymm1, %ymm5
	vpor	%ymm5, %ymm11, %ymm1
	vptest	.LCPI10_1(%rip), %ymm1
	jne	.LBB10_33
	vpackuswb	%ymm11, %ymm5, %ymm0
	vpermq	$216, %ymm0, %ymm0
	vmovdqu	%ymm0, (%r15,%rax)
	addq	$32, %rax
	addq	$64, %rbx
	vextracti128	$1, %ymm11, %xmm0
	cmpq	%r12, %rbx
	ja	.LBB10_36
	cmpq	%rax, %r14
	jae	.LBB10_32
	.p2align	4
.LBB10_36:
	cmpq	%rbx, %r12
	jb	.LBB10_43
	cmpq	%rax, %r14
	jb	.LBB10_43
	vmovdqu	(%r13,%rbx), %ymm2
	vmovdqu	32(%r13,%rbx), %ymm3
	vbroadcasti128	.LCPI10_28(%rip), %ymm7
	vpshufb	%ymm7, %ymm2, %ymm1
	vpshufb	%ymm7, %ymm3, %ymm15
	vpsrlw	$8, %ymm15, %ymm2
	vpsrlw	$8, %ymm1, %ymm3
	vpackuswb	%ymm2, %ymm3, %ymm2
	vpermq	$216, %ymm2, %ymm2
	vpand	.LCPI10_20(%rip), %ymm2, %ymm2
	vpcmpeqb	.LCPI10_21(%rip), %ymm2, %ymm3
	vpmovmskb	%ymm3, %ecx
	vpcmpeqb	.LCPI10_22(%rip), %ymm2, %ymm2
	vpmovmskb	%ymm2, %edx
	movzbl	%bpl, %esi
	andl	$1, %esi
	leal	(%rsi,%rcx,2), %esi
	cmpl	%edx, %esi
	jne	.LBB10_43
	shrl	$31, %ecx
	movl	%ecx, %ebp
	vpor	%ymm1, %ymm15, %ymm2
	vpbroadcastq	.LCPI10_2(%rip), %ymm3
	vptest	%ymm3, %ymm2
	je	.LBB10_41
	vpbroadcastd	.LCPI10_29(%rip), %ymm2
	vpaddw	%ymm2, %ymm15, %ymm3
	vpaddw	%ymm2, %ymm1, %ymm4
	vpminuw	%ymm4, %ymm1, %ymm4
	vpminuw	%ymm3, %ymm15, %ymm3
	vpor	%ymm3, %ymm4, %ymm3
	vptest	.LCPI10_5(%rip), %ymm3
	jne	.LBB10_41
	vinserti128	$1, %xmm0, %ymm0, %ymm0
	vperm2i128	$33, %ymm1, %ymm0, %ymm0
	vpalignr	$14, %ymm0, %ymm1, %ymm0
	vpbroadcastd	.LCPI10_42(%rip), %ymm14
	vpaddw	%ymm1, %ymm14, %ymm8
	vpbroadcastd	.LCPI10_43(%rip), %ymm4
	vpaddw	%ymm4, %ymm1, %ymm5
	vpsrlw	$2, %ymm5, %ymm6
	vpbroadcastd	.LCPI10_44(%rip), %ymm5
	vpsubusw	%ymm5, %ymm6, %ymm9
	vpsllw	$10, %ymm0, %ymm0
	vpbroadcastd	.LCPI10_45(%rip), %ymm6
	vpand	%ymm6, %ymm0, %ymm0
	vpbroadcastd	.LCPI10_46(%rip), %ymm3
	vpaddw	%ymm3, %ymm1, %ymm10
	vpaddw	%ymm0, %ymm10, %ymm0
	vpmaxuw	%ymm0, %ymm9, %ymm9
	vpxor	%xmm0, %xmm0, %xmm0
	vpcmpgtw	%ymm1, %ymm0, %ymm10
	vpblendvb	%ymm10, %ymm9, %ymm8, %ymm9
	vpsrlw	$6, %ymm9, %ymm10
	vpbroadcastd	.LCPI10_32(%rip), %ymm8
	vpsllw	$8, %ymm9, %ymm11
	vpbroadcastd	.LCPI10_34(%rip), %ymm9
	vpand	%ymm9, %ymm11, %ymm11
	vpaddw	%ymm10, %ymm11, %ymm10
	vpor	%ymm8, %ymm10, %ymm11
	vpbroadcastd	.LCPI10_38(%rip), %ymm10
	vpminuw	%ymm10, %ymm1, %ymm12
	vpcmpeqw	%ymm1, %ymm12, %ymm12
	vpblendvb	%ymm12, %ymm1, %ymm11, %ymm11
	vextracti128	$1, %ymm12, %xmm13
	vpacksswb	%xmm13, %xmm12, %xmm12
	vpmovmskb	%xmm12, %edx
	movzbl	%dl, %esi
	popcntl	%esi, %edi
	shll	$4, %esi
	leaq	.Lstatic.8(%rip), %rcx
	vpshufb	(%rsi,%rcx), %xmm11, %xmm12
	vmovdqu	%xmm12, (%r15,%rax)
	subq	%rdi, %rax
	shrl	$8, %edx
	vextracti128	$1, %ymm11, %xmm11
	xorl	%esi, %esi
	popcntl	%edx, %esi
	shll	$4, %edx
	vpshufb	(%rdx,%rcx), %xmm11, %xmm11
	vmovdqu	%xmm11, 16(%r15,%rax)
	vperm2i128	$33, %ymm15, %ymm1, %ymm11
	vmovdqa	%ymm14, %ymm1
	vpalignr	$14, %ymm11, %ymm15, %ymm11
	vpaddw	%ymm14, %ymm15, %ymm12
	vpaddw	%ymm4, %ymm15, %ymm13
	vpsrlw	$2, %ymm13, %ymm13
	vpsubusw	%ymm5, %ymm13, %ymm13
	vpsllw	$10, %ymm11, %ymm11
	vpand	%ymm6, %ymm11, %ymm11
	vpaddw	%ymm3, %ymm15, %ymm14
	vpaddw	%ymm11, %ymm14, %ymm11
	vpmaxuw	%ymm11, %ymm13, %ymm11
	vpcmpgtw	%ymm15, %ymm0, %ymm0
	vpblendvb	%ymm0, %ymm11, %ymm12, %ymm0
	subq	%rsi, %rax
	vpsrlw	$6, %ymm0, %ymm11
	vpsllw	$8, %ymm0, %ymm0
	vpand	%ymm0, %ymm9, %ymm0
	vpaddw	%ymm0, %ymm11, %ymm0
	vpor	%ymm0, %ymm8, %ymm0
	vpminuw	%ymm10, %ymm15, %ymm11
	vpcmpeqw	%ymm11, %ymm15, %ymm11
	vpblendvb	%ymm11, %ymm15, %ymm0, %ymm0
	vextracti128	$1, %ymm11, %xmm12
	vpacksswb	%xmm12, %xmm11, %xmm11
	vpmovmskb	%xmm11, %edx
	movzbl	%dl, %esi
	xorl	%edi, %edi
	popcntl	%esi, %edi
	shll	$4, %esi
	vpshufb	(%rsi,%rcx), %xmm0, %xmm11
	vmovdqu	%xmm11, 32(%r15,%rax)
	addq	$32, %rax
	shrl	$8, %edx
	vextracti128	$1, %ymm0, %xmm0
	xorl	%esi, %esi
	popcntl	%edx, %esi
	shll	$4, %edx
	vpshufb	(%rdx,%rcx), %xmm0, %xmm0
	subq	%rdi, %rax
	vmovdqu	%xmm0, 16(%r15,%rax)
	subq	%rsi, %rax
	vextracti128	$1, %ymm15, %xmm0
	addq	$64, %rbx
	addq	$32, %rax
	cmpq	%r12, %rbx
	ja	.LBB10_42
.LBB10_46:
	cmpq	%rax, %r14
	jb	.LBB10_42
	vmovdqu	(%r13,%rbx), %ymm12
	vmovdqu	32(%r13,%rbx), %ymm11
	vpshufb	%ymm7, %ymm11, %ymm11
	vpshufb	%ymm7, %ymm12, %ymm12
	vpor	%ymm11, %ymm12, %ymm13
	vptest	.LCPI10_5(%rip), %ymm13
	je	.LBB10_42
	vpaddw	%ymm2, %ymm11, %ymm13
	vpaddw	%ymm2, %ymm12, %ymm14
	vpminuw	%ymm14, %ymm12, %ymm14
	vpminuw	%ymm13, %ymm11, %ymm13
	vpor	%ymm13, %ymm14, %ymm13
	vptest	.LCPI10_5(%rip), %ymm13
	jne	.LBB10_42
	vpsrlw	$8, %ymm12, %ymm13
	vpsrlw	$8, %ymm11, %ymm14
	vpackuswb	%ymm14, %ymm13, %ymm13
	vpermq	$216, %ymm13, %ymm13
	vpand	.LCPI10_20(%rip), %ymm13, %ymm13
	vpcmpeqb	.LCPI10_21(%rip), %ymm13, %ymm14
	vpmovmskb	%ymm14, %edx
	vpcmpeqb	.LCPI10_22(%rip), %ymm13, %ymm13
	vpmovmskb	%ymm13, %esi
	leal	(%rdx,%rdx), %edi
	movzbl	%bpl, %r8d
	orl	%edi, %r8d
	cmpl	%esi, %r8d
	jne	.LBB10_42
	vinserti128	$1, %xmm0, %ymm0, %ymm0
	vperm2i128	$33, %ymm12, %ymm0, %ymm0
	vpalignr	$14, %ymm0, %ymm12, %ymm0
	vpaddw	%ymm1, %ymm12, %ymm13
	vpaddw	%ymm4, %ymm12, %ymm14
	vpsrlw	$2, %ymm14, %ymm14
	vpsubusw	%ymm5, %ymm14, %ymm14
	vpsllw	$10, %ymm0, %ymm0
	vpand	%ymm6, %ymm0, %ymm0
	vpaddw	%ymm3, %ymm12, %ymm15
	vpaddw	%ymm0, %ymm15, %ymm0
	vpmaxuw	%ymm0, %ymm14, %ymm14
	vpxor	%xmm0, %xmm0, %xmm0
	vpcmpgtw	%ymm12, %ymm0, %ymm15
	vpblendvb	%ymm15, %ymm14, %ymm13, %ymm13
	vpsrlw	$6, %ymm13, %ymm14
	vpsllw	$8, %ymm13, %ymm13
	vpand	%ymm9, %ymm13, %ymm13
	vpaddw	%ymm14, %ymm13, %ymm13
	vpor	%ymm8, %ymm13, %ymm13
	vpminuw	%ymm10, %ymm12, %ymm14
	vpcmpeqw	%ymm14, %ymm12, %ymm14
	vpblendvb	%ymm14, %ymm12, %ymm13, %ymm13
	vextracti128	$1, %ymm14, %xmm15
	vpacksswb	%xmm15, %xmm14, %xmm14
	vpmovmskb	%xmm14, %esi
	movzbl	%sil, %edi
	xorl	%r8d, %r8d
	popcntl	%edi, %r8d
	shll	$4, %edi
	vpshufb	(%rdi,%rcx), %xmm13, %xmm14
	vmovdqu	%xmm14, (%r15,%rax)
	subq	%r8, %rax
	shrl	$8, %esi
	vextracti128	$1, %ymm13, %xmm13
	xorl	%edi, %edi
	popcntl	%esi, %edi
	shll	$4, %esi
	vpshufb	(%rsi,%rcx), %xmm13, %xmm13
	vmovdqu	%xmm13, 16(%r15,%rax)
	vperm2i128	$33, %ymm11, %ymm12, %ymm12
	vpalignr	$14, %ymm12, %ymm11, %ymm12
	vpaddw	%ymm1, %ymm11, %ymm13
	vpaddw	%ymm4, %ymm11, %ymm14
	vpsrlw	$2, %ymm14, %ymm14
	vpsubusw	%ymm5, %ymm14, %ymm14
	vpsllw	$10, %ymm12, %ymm12
	vpand	%ymm6, %ymm12, %ymm12
	vpaddw	%ymm3, %ymm11, %ymm15
	vpaddw	%ymm12, %ymm15, %ymm12
	vpmaxuw	%ymm12, %ymm14, %ymm12
	vpcmpgtw	%ymm11, %ymm0, %ymm0
	vpblendvb	%ymm0, %ymm12, %ymm13, %ymm0
	subq	%rdi, %rax
	vpsrlw	$6, %ymm0, %ymm12
	vpsllw	$8, %ymm0, %ymm0
	vpand	%ymm0, %ymm9, %ymm0
	vpaddw	%ymm0, %ymm12, %ymm0
	vpor	%ymm0, %ymm8, %ymm0
	vpminuw	%ymm10, %ymm11, %ymm12
	vpcmpeqw	%ymm12, %ymm11, %ymm12
	vpblendvb	%ymm12, %ymm11, %ymm0, %ymm0
	vextracti128	$1, %ymm12, %xmm13
	vpacksswb	%xmm13, %xmm12, %xmm12
	vpmovmskb	%xmm12, %esi
	movzbl	%sil, %edi
	xorl	%r8d, %r8d
	popcntl	%edi, %r8d
	shll	$4, %edi
	vpshufb	(%rdi,%rcx), %xmm0, %xmm12
	vmovdqu	%xmm12, 32(%r15,%rax)
	shrl	$31, %edx
	movl	%edx, %ebp
	addq	$32, %rax
	shrl	$8, %esi
	vextracti128	$1, %ymm0, %xmm0
	xorl	%edx, %edx
	popcntl	%esi, %edx
	shll	$4, %esi
	vpshufb	(%rsi,%rcx), %xmm0, %xmm0
	subq	%r8, %rax
	vmovdqu	%xmm0, 16(%r15,%rax)
	subq	%rdx, %rax
	vextracti128	$1, %ymm11, %xmm0
	addq	$64, %rbx
	addq	$32, %rax
	cmpq	%r12, %rbx
	jbe	.LBB10_46
	jmp	.LBB10_42
.LBB10_30:
	movq	16(%rsp), %rbp
	jmp	.LBB10_36
.LBB10_12:
	movq	%rbp, %rbx
	movq	%rsi, %rax
	movq	16(%rsp), %rbp
	jmp	.LBB10_36
.LBB10_43:
	movq	8(%rsp), %rcx
	movq	%rbx, (%rcx)
	movq	%rax, 8(%rcx)
	vmovdqu	%xmm0, 16(%rcx)
	andb	$1, %bpl
	movb	%bpl, 32(%rcx)
	movl	$0, 33(%rcx)
	movl	$0, 36(%rcx)
.LBB10_7:
	addq	$120, %rsp
	.cfi_def_cfa_offset 56
	popq	%rbx
	.cfi_def_cfa_offset 48
	popq	%r12
	.cfi_def_cfa_offset 40
	popq	%r13
	.cfi_def_cfa_offset 32
	popq	%r14
	.cfi_def_cfa_offset 24
	popq	%r15
	.cfi_def_cfa_offset 16
	popq	%rbp
	.cfi_def_cfa_offset 8
	vzeroupper
	retq
.Lfunc_end10:
	.size	"utf16_to_utf8::runs::write_paired::<#8b18edd9dd9aa8df>", .Lfunc_end10-"utf16_to_utf8::runs::write_paired::<#8b18edd9dd9aa8df>"
	.cfi_endproc

	.section	.rodata.cst32,"aM",@progbits,32
	.p2align	5, 0x0
.LCPI11_0:
	.short	224
	.short	224
	.short	224
	.short	224
	.short	224
	.short	224
	.short	224
	.short	224
	.short	224
	.short	224
	.short	224
	.short	224
	.short	224
	.short	224
	.short	224
	.short	224
.LCPI11_1:
	.short	34815
	.short	34815
	.short	34815
	.short	34815
	.short	34815
	.short	34815
	.short	34815
	.short	34815
	.short	34815
	.short	34815
	.short	34815
	.short	34815
	.short	34815
	.short	34815
	.short	34815
	.short	34815
.LCPI11_2:
	.short	32768
	.short	32768
	.short	32768
	.short	32768
	.short	32768
	.short	32768
	.short	32768
	.short	32768
	.short	32768
	.short	32768
	.short	32768
	.short	32768
	.short	32768
	.short	32768
	.short	32768
	.short	32768
.LCPI11_3:
	.short	4095
	.short	4095
	.short	4095
	.short	4095
	.short	4095
	.short	4095
	.short	4095
	.short	4095
	.short	4095
	.short	4095
	.short	4095
	.short	4095
	.short	4095
	.short	4095
	.short	4095
	.short	4095
.LCPI11_4:
	.short	8192
	.short	8192
	.short	8192
	.short	8192
	.short	8192
	.short	8192
	.short	8192
	.short	8192
	.short	8192
	.short	8192
	.short	8192
	.short	8192
	.short	8192
	.short	8192
	.short	8192
	.short	8192
.LCPI11_5:
	.short	9216
	.short	9216
	.short	9216
	.short	9216
	.short	9216
	.short	9216
	.short	9216
	.short	9216
	.short	9216
	.short	9216
	.short	9216
	.short	9216
	.short	9216
	.short	9216
	.short	9216
	.short	9216
.LCPI11_6:
	.short	752
	.short	752
	.short	752
	.short	752
	.short	752
	.short	752
	.short	752
	.short	752
	.short	752
	.short	752
	.short	752
	.short	752
	.short	752
	.short	752
	.short	752
	.short	752
.LCPI11_7:
	.short	3072
	.short	3072
	.short	3072
	.short	3072
	.short	3072
	.short	3072
	.short	3072
	.short	3072
	.short	3072
	.short	3072
	.short	3072
	.short	3072
	.short	3072
	.short	3072
	.short	3072
	.short	3072
.LCPI11_8:
	.short	17408
	.short	17408
	.short	17408
	.short	17408
	.short	17408
	.short	17408
	.short	17408
	.short	17408
	.short	17408
	.short	17408
	.short	17408
	.short	17408
	.short	17408
	.short	17408
	.short	17408
	.short	17408
.LCPI11_9:
	.short	63488
	.short	63488
	.short	63488
	.short	63488
	.short	63488
	.short	63488
	.short	63488
	.short	63488
	.short	63488
	.short	63488
	.short	63488
	.short	63488
	.short	63488
	.short	63488
	.short	63488
	.short	63488
.LCPI11_10:
	.short	55296
	.short	55296
	.short	55296
	.short	55296
	.short	55296
	.short	55296
	.short	55296
	.short	55296
	.short	55296
	.short	55296
	.short	55296
	.short	55296
	.short	55296
	.short	55296
	.short	55296
	.short	55296
.LCPI11_11:
	.short	16128
	.short	16128
	.short	16128
	.short	16128
	.short	16128
	.short	16128
	.short	16128
	.short	16128
	.short	16128
	.short	16128
	.short	16128
	.short	16128
	.short	16128
	.short	16128
	.short	16128
	.short	16128
.LCPI11_12:
	.short	255
	.short	255
	.short	255
	.short	255
	.short	255
	.short	255
	.short	255
	.short	255
	.short	255
	.short	255
	.short	255
	.short	255
	.short	255
	.short	255
	.short	255
	.short	255
.LCPI11_13:
	.short	63
	.short	63
	.short	63
	.short	63
	.short	63
	.short	63
	.short	63
	.short	63
	.short	63
	.short	63
	.short	63
	.short	63
	.short	63
	.short	63
	.short	63
	.short	63
.LCPI11_14:
	.zero	32,128
.LCPI11_15:
	.short	32992
	.short	32992
	.short	32992
	.short	32992
	.short	32992
	.short	32992
	.short	32992
	.short	32992
	.short	32992
	.short	32992
	.short	32992
	.short	32992
	.short	32992
	.short	32992
	.short	32992
	.short	32992
.LCPI11_16:
	.short	128
	.short	128
	.short	128
	.short	128
	.short	128
	.short	128
	.short	128
	.short	128
	.short	128
	.short	128
	.short	128
	.short	128
	.short	128
	.short	128
	.short	128
	.short	128
.LCPI11_20:
	.short	12288
	.short	12288
	.short	12288
	.short	12288
	.short	12288
	.short	12288
	.short	12288
	.short	12288
	.short	12288
	.short	12288
	.short	12288
	.short	12288
	.short	12288
	.short	12288
	.short	12288
	.short	12288
.LCPI11_21:
	.short	127
	.short	127
	.short	127
	.short	127
	.short	127
	.short	127
	.short	127
	.short	127
	.short	127
	.short	127
	.short	127
	.short	127
	.short	127
	.short	127
	.short	127
	.short	127
.LCPI11_22:
	.short	32960
	.short	32960
	.short	32960
	.short	32960
	.short	32960
	.short	32960
	.short	32960
	.short	32960
	.short	32960
	.short	32960
	.short	32960
	.short	32960
	.short	32960
	.short	32960
	.short	32960
	.short	32960
	.section	.rodata.cst16,"aM",@progbits,16
	.p2align	4, 0x0
.LCPI11_17:
	.byte	128
	.byte	128
	.byte	0
	.byte	128
	.byte	128
	.byte	2
	.byte	128
	.byte	128
	.byte	4
	.byte	128
	.byte	128
	.byte	6
	.byte	128
	.byte	128
	.byte	8
	.byte	128
.LCPI11_18:
	.byte	0
	.byte	1
	.byte	128
	.byte	2
	.byte	3
	.byte	128
	.byte	4
	.byte	5
	.byte	128
	.byte	6
	.byte	7
	.byte	128
	.byte	8
	.byte	9
	.byte	128
	.byte	10
.LCPI11_19:
	.byte	6
	.byte	5
	.byte	8
	.byte	10
	.byte	9
	.byte	12
	.byte	14
	.byte	13
	.zero	1
	.zero	1
	.zero	1
	.zero	1
	.zero	1
	.zero	1
	.zero	1
	.zero	1
.LCPI11_25:
	.byte	6
	.byte	5
	.byte	8
	.byte	10
	.byte	9
	.byte	12
	.byte	14
	.byte	13
	.byte	0
	.byte	0
	.byte	0
	.byte	0
	.byte	0
	.byte	0
	.byte	0
	.byte	0
	.section	.rodata.cst4,"aM",@progbits,4
	.p2align	2, 0x0
.LCPI11_23:
	.short	34815
	.short	34815
.LCPI11_24:
	.short	255
	.short	255
.LCPI11_26:
	.short	32768
	.short	32768
	.section	".text.utf16_to_utf8::blocks::write_group","ax",@progbits
	.p2align	4
	.type	"utf16_to_utf8::blocks::write_group",@function
"utf16_to_utf8::blocks::write_group":
	.cfi_startproc
	movq	%rsi, %rax
	movzbl	%dl, %ecx
	leaq	.LJTI11_0(%rip), %rdx
	movslq	(%rdx,%rcx,4), %rcx
	addq	%rdx, %rcx
	notrack jmpq	*%rcx
.LBB11_1:
	vextracti128	$1, %ymm1, %xmm0
	vpackuswb	%xmm0, %xmm1, %xmm0
	vmovdqu	%xmm0, (%rdi,%rax)
	addq	$16, %rax
	vzeroupper
	retq
.LBB11_6:
	vpsllw	$8, %ymm1, %ymm2
	vpsrlw	$12, %ymm1, %ymm0
	vpor	%ymm2, %ymm0, %ymm0
	vpor	.LCPI11_0(%rip), %ymm0, %ymm0
	vpbroadcastd	.LCPI11_23(%rip), %ymm3
	vpsubusw	%ymm1, %ymm3, %ymm3
	vpand	.LCPI11_2(%rip), %ymm3, %ymm3
	vpsrlw	$6, %ymm1, %ymm4
	vpand	.LCPI11_13(%rip), %ymm4, %ymm4
	vpsrlw	$9, %ymm3, %ymm5
	vpand	.LCPI11_11(%rip), %ymm2, %ymm2
	vpor	%ymm2, %ymm4, %ymm2
	vpor	%ymm5, %ymm2, %ymm2
	vpor	.LCPI11_14(%rip), %ymm2, %ymm2
	vpbroadcastd	.LCPI11_24(%rip), %ymm4
	vpsubusw	%ymm1, %ymm4, %ymm1
	vpor	%ymm1, %ymm3, %ymm1
	vpmovmskb	%xmm1, %edx
	vpunpcklwd	%xmm2, %xmm0, %xmm3
	movzbl	%dl, %esi
	popcntl	%esi, %r8d
	shll	$4, %esi
	leaq	.Lstatic.9(%rip), %rcx
	vpshufb	(%rsi,%rcx), %xmm3, %xmm3
	vmovdqu	%xmm3, (%rdi,%rax)
	subq	%r8, %rax
	vpunpckhwd	%xmm2, %xmm0, %xmm3
	shrl	$8, %edx
	xorl	%esi, %esi
	popcntl	%edx, %esi
	shll	$4, %edx
	vpshufb	(%rdx,%rcx), %xmm3, %xmm3
	vmovdqu	%xmm3, 12(%rdi,%rax)
	addq	$12, %rax
	subq	%rsi, %rax
	vextracti128	$1, %ymm0, %xmm0
	vextracti128	$1, %ymm2, %xmm2
	vextracti128	$1, %ymm1, %xmm1
	vpmovmskb	%xmm1, %edx
	vpunpcklwd	%xmm2, %xmm0, %xmm1
	movzbl	%dl, %esi
	xorl	%r8d, %r8d
	popcntl	%esi, %r8d
	shll	$4, %esi
	vpshufb	(%rsi,%rcx), %xmm1, %xmm1
	vmovdqu	%xmm1, 12(%rdi,%rax)
	addq	$12, %rax
	subq	%r8, %rax
	vpunpckhwd	%xmm2, %xmm0, %xmm0
	jmp	.LBB11_8
.LBB11_4:
	vperm2i128	$33, %ymm1, %ymm0, %ymm0
	vpaddw	.LCPI11_20(%rip), %ymm1, %ymm2
	vpaddw	.LCPI11_5(%rip), %ymm1, %ymm3
	vpalignr	$14, %ymm0, %ymm1, %ymm0
	vpsrlw	$2, %ymm3, %ymm3
	vpsubusw	.LCPI11_6(%rip), %ymm3, %ymm3
	vpsllw	$10, %ymm0, %ymm0
	vpand	.LCPI11_7(%rip), %ymm0, %ymm0
	vpaddw	%ymm0, %ymm1, %ymm0
	vpaddw	.LCPI11_8(%rip), %ymm0, %ymm0
	vpmaxuw	%ymm0, %ymm3, %ymm0
	vpxor	%xmm3, %xmm3, %xmm3
	vpcmpgtw	%ymm1, %ymm3, %ymm3
	vpblendvb	%ymm3, %ymm0, %ymm2, %ymm0
	vpsrlw	$6, %ymm0, %ymm2
	vpsllw	$8, %ymm0, %ymm0
	vpand	.LCPI11_11(%rip), %ymm0, %ymm0
	vpaddw	%ymm2, %ymm0, %ymm0
	vpor	.LCPI11_2(%rip), %ymm0, %ymm0
	jmp	.LBB11_3
.LBB11_5:
	vpsllw	$2, %ymm1, %ymm0
	vpand	.LCPI11_11(%rip), %ymm0, %ymm0
	vpsrlw	$12, %ymm1, %ymm2
	vpor	%ymm0, %ymm2, %ymm0
	vpor	.LCPI11_15(%rip), %ymm0, %ymm0
	vpand	.LCPI11_13(%rip), %ymm1, %ymm1
	vpor	.LCPI11_16(%rip), %ymm1, %ymm1
	vmovdqa	.LCPI11_17(%rip), %xmm2
	vpshufb	%xmm2, %xmm1, %xmm3
	vmovdqa	.LCPI11_18(%rip), %xmm4
	vpshufb	%xmm4, %xmm0, %xmm5
	vpor	%xmm3, %xmm5, %xmm3
	vmovdqu	%xmm3, (%rdi,%rax)
	vpunpckhbw	%xmm1, %xmm0, %xmm3
	vmovq	.LCPI11_25(%rip), %xmm5
	vpshufb	%xmm5, %xmm3, %xmm3
	vmovq	%xmm3, 16(%rdi,%rax)
	vextracti128	$1, %ymm0, %xmm0
	vextracti128	$1, %ymm1, %xmm1
	vpshufb	%xmm2, %xmm1, %xmm2
	vpshufb	%xmm4, %xmm0, %xmm3
	vpor	%xmm2, %xmm3, %xmm2
	vmovdqu	%xmm2, 24(%rdi,%rax)
	vpunpckhbw	%xmm1, %xmm0, %xmm0
	vpshufb	%xmm5, %xmm0, %xmm0
	vmovq	%xmm0, 40(%rdi,%rax)
	addq	$48, %rax
	vzeroupper
	retq
.LBB11_2:
	vpsrlw	$6, %ymm1, %ymm0
	vpsllw	$8, %ymm1, %ymm2
	vpand	.LCPI11_11(%rip), %ymm2, %ymm2
	vpaddw	%ymm2, %ymm0, %ymm0
	vpaddw	.LCPI11_22(%rip), %ymm0, %ymm0
.LBB11_3:
	vpminuw	.LCPI11_21(%rip), %ymm1, %ymm2
	vpcmpeqw	%ymm2, %ymm1, %ymm2
	vpblendvb	%ymm2, %ymm1, %ymm0, %ymm0
	vextracti128	$1, %ymm2, %xmm1
	vpacksswb	%xmm1, %xmm2, %xmm1
	vpmovmskb	%xmm1, %ecx
	movzbl	%cl, %edx
	xorl	%esi, %esi
	popcntl	%edx, %esi
	shll	$4, %edx
	leaq	.Lstatic.8(%rip), %r8
	vpshufb	(%rdx,%r8), %xmm0, %xmm1
	vmovdqu	%xmm1, (%rdi,%rax)
	subq	%rsi, %rax
	shrl	$8, %ecx
	vextracti128	$1, %ymm0, %xmm0
	xorl	%edx, %edx
	popcntl	%ecx, %edx
	shll	$4, %ecx
	vpshufb	(%rcx,%r8), %xmm0, %xmm0
	vmovdqu	%xmm0, 16(%rdi,%rax)
	subq	%rdx, %rax
	addq	$32, %rax
	vzeroupper
	retq
.LBB11_7:
	vpsllw	$8, %ymm1, %ymm2
	vpsrlw	$12, %ymm1, %ymm3
	vpor	%ymm2, %ymm3, %ymm2
	vpor	.LCPI11_0(%rip), %ymm2, %ymm2
	vpbroadcastd	.LCPI11_23(%rip), %ymm3
	vpsubusw	%ymm1, %ymm3, %ymm3
	vpbroadcastd	.LCPI11_26(%rip), %ymm4
	vpand	%ymm4, %ymm3, %ymm3
	vpsrlw	$3, %ymm3, %ymm5
	vpand	.LCPI11_3(%rip), %ymm1, %ymm6
	vpor	%ymm5, %ymm6, %ymm5
	vpor	.LCPI11_4(%rip), %ymm5, %ymm5
	vpaddw	.LCPI11_5(%rip), %ymm1, %ymm6
	vperm2i128	$33, %ymm1, %ymm0, %ymm0
	vpsrlw	$2, %ymm6, %ymm6
	vpsubusw	.LCPI11_6(%rip), %ymm6, %ymm6
	vpalignr	$14, %ymm0, %ymm1, %ymm0
	vpsllw	$10, %ymm0, %ymm0
	vpand	.LCPI11_7(%rip), %ymm0, %ymm0
	vpaddw	%ymm0, %ymm1, %ymm0
	vpaddw	.LCPI11_8(%rip), %ymm0, %ymm0
	vpand	.LCPI11_9(%rip), %ymm1, %ymm7
	vpcmpeqw	.LCPI11_10(%rip), %ymm7, %ymm7
	vpmaxuw	%ymm0, %ymm6, %ymm0
	vpblendvb	%ymm7, %ymm0, %ymm5, %ymm0
	vpsrlw	$6, %ymm0, %ymm5
	vpsllw	$8, %ymm0, %ymm0
	vpand	.LCPI11_11(%rip), %ymm0, %ymm0
	vpaddw	%ymm5, %ymm0, %ymm0
	vpor	%ymm4, %ymm0, %ymm0
	vpbroadcastd	.LCPI11_24(%rip), %ymm5
	vpblendvb	%ymm7, %ymm4, %ymm3, %ymm3
	vpsubusw	%ymm1, %ymm5, %ymm1
	vpor	%ymm1, %ymm3, %ymm1
	vpmovmskb	%xmm1, %edx
	vpunpcklwd	%xmm0, %xmm2, %xmm3
	movzbl	%dl, %esi
	popcntl	%esi, %r8d
	shll	$4, %esi
	leaq	.Lstatic.9(%rip), %rcx
	vpshufb	(%rsi,%rcx), %xmm3, %xmm3
	vmovdqu	%xmm3, (%rdi,%rax)
	subq	%r8, %rax
	vpunpckhwd	%xmm0, %xmm2, %xmm3
	shrl	$8, %edx
	xorl	%esi, %esi
	popcntl	%edx, %esi
	shll	$4, %edx
	vpshufb	(%rdx,%rcx), %xmm3, %xmm3
	vmovdqu	%xmm3, 12(%rdi,%rax)
	addq	$12, %rax
	subq	%rsi, %rax
	vextracti128	$1, %ymm2, %xmm2
	vextracti128	$1, %ymm0, %xmm0
	vextracti128	$1, %ymm1, %xmm1
	vpmovmskb	%xmm1, %edx
	vpunpcklwd	%xmm0, %xmm2, %xmm1
	movzbl	%dl, %esi
	xorl	%r8d, %r8d
	popcntl	%esi, %r8d
	shll	$4, %esi
	vpshufb	(%rsi,%rcx), %xmm1, %xmm1
	vmovdqu	%xmm1, 12(%rdi,%rax)
	addq	$12, %rax
	subq	%r8, %rax
	vpunpckhwd	%xmm0, %xmm2, %xmm0
.LBB11_8:
	shrl	$8, %edx
	xorl	%esi, %esi
	popcntl	%edx, %esi
	shll	$4, %edx
	vpshufb	(%rdx,%rcx), %xmm0, %xmm0
	vmovdqu	%xmm0, 12(%rdi,%rax)
	subq	%rsi, %rax
	addq	$24, %rax
	vzeroupper
	retq
.Lfunc_end11:
	.size	"utf16_to_utf8::blocks::write_group", .Lfunc_end11-"utf16_to_utf8::blocks::write_group"
	.cfi_endproc
	.section	".rodata.utf16_to_utf8::blocks::write_group","a",@progbits
	.p2align	2, 0x0
.LJTI11_0:
	.long	.LBB11_1-.LJTI11_0
	.long	.LBB11_2-.LJTI11_0
	.long	.LBB11_4-.LJTI11_0
	.long	.LBB11_5-.LJTI11_0
	.long	.LBB11_6-.LJTI11_0
	.long	.LBB11_7-.LJTI11_0

	.section	.rodata.cst16,"aM",@progbits,16
	.p2align	4, 0x0
.LCPI12_0:
	.byte	1
	.byte	0
	.byte	3
	.byte	2
	.byte	5
	.byte	4
	.byte	7
	.byte	6
	.byte	9
	.byte	8
	.byte	11
	.byte	10
	.byte	13
	.byte	12
	.byte	15
	.byte	14
.LCPI12_1:
	.short	128
	.short	128
	.short	128
	.short	128
	.short	128
	.short	128
	.short	128
	.short	128
	.section	".text.utf16_transcode::transcoding::write_chars::<#b8dc3d53e12e85b3>","ax",@progbits
	.p2align	4
	.type	"utf16_transcode::transcoding::write_chars::<#b8dc3d53e12e85b3>",@function
"utf16_transcode::transcoding::write_chars::<#b8dc3d53e12e85b3>":
	.cfi_startproc
	pushq	%rbp
	.cfi_def_cfa_offset 16
	pushq	%r15
	.cfi_def_cfa_offset 24
	pushq	%r14
	.cfi_def_cfa_offset 32
	pushq	%r13
	.cfi_def_cfa_offset 40
	pushq	%r12
	.cfi_def_cfa_offset 48
	pushq	%rbx
	.cfi_def_cfa_offset 56
	pushq	%rax
	.cfi_def_cfa_offset 64
	.cfi_offset %rbx, -56
	.cfi_offset %r12, -48
	.cfi_offset %r13, -40
	.cfi_offset %r14, -32
	.cfi_offset %r15, -24
	.cfi_offset %rbp, -16
	movq	%r8, %rbx
	movq	%rdx, %r14
	movq	%rsi, %r15
	movq	%rdi, %r12
	addq	%r8, %rdx
	movq	%rcx, (%rsp)
	subq	%r8, %rcx
	leaq	-16(%rsi), %rax
	cmpq	$175, %rax
	ja	.LBB12_1
	movq	%r15, %rax
	shrq	%rax
	cmpq	%rax, %rcx
	cmovbq	%rcx, %rax
	cmpq	$8, %rax
	jb	.LBB12_1
	leaq	(%rax,%rax), %rsi
	xorl	%ebp, %ebp
	xorl	%r13d, %r13d
	.p2align	4
.LBB12_4:
	vmovdqu	(%r12,%r13,2), %xmm0
	vpshufb	.LCPI12_0(%rip), %xmm0, %xmm0
	vpmaxuw	.LCPI12_1(%rip), %xmm0, %xmm1
	vpcmpeqw	%xmm1, %xmm0, %xmm1
	vpmovmskb	%xmm1, %edi
	testl	%edi, %edi
	jne	.LBB12_9
	vpackuswb	%xmm0, %xmm0, %xmm0
	vmovq	%xmm0, (%rdx,%r13)
	addq	$8, %r13
	leaq	(%rsi,%rbp), %rdi
	addq	$-16, %rdi
	addq	$-16, %rbp
	cmpq	$15, %rdi
	ja	.LBB12_4
	negq	%rbp
	cmpq	%rbp, %rsi
	jbe	.LBB12_10
	vmovdqu	-16(%r12,%rsi), %xmm0
	vpshufb	.LCPI12_0(%rip), %xmm0, %xmm0
	vpmaxuw	.LCPI12_1(%rip), %xmm0, %xmm1
	vpcmpeqw	%xmm1, %xmm0, %xmm1
	vpmovmskb	%xmm1, %edi
	testl	%edi, %edi
	jne	.LBB12_10
	vpackuswb	%xmm0, %xmm0, %xmm0
	vmovq	%xmm0, -8(%rdx,%rax)
	movq	%rax, %r13
	movq	%rsi, %rbp
	movq	%r15, %rax
	subq	%rbp, %rax
	cmpq	$15, %rax
	jbe	.LBB12_11
	jmp	.LBB12_19
.LBB12_1:
	xorl	%r13d, %r13d
	xorl	%ebp, %ebp
.LBB12_10:
	movq	%r15, %rax
	subq	%rbp, %rax
	cmpq	$15, %rax
	ja	.LBB12_19
.LBB12_11:
	movq	%rcx, %rsi
	subq	%r13, %rsi
	movq	%rax, %rdi
	shrq	%rdi
	leaq	(%rdi,%rdi,2), %rdi
	cmpq	%rdi, %rsi
	setb	%sil
	cmpq	$2, %rax
	setb	%dil
	orb	%sil, %dil
	je	.LBB12_12
	jmp	.LBB12_19
	.p2align	4
.LBB12_13:
	movb	%sil, (%rdx,%r13)
	incq	%r13
.LBB12_18:
	addq	$2, %rbp
	addq	$-2, %rax
	cmpq	$1, %rax
	jbe	.LBB12_19
.LBB12_12:
	movbew	(%r12,%rbp), %si
	cmpw	$127, %si
	jbe	.LBB12_13
	movzwl	%si, %edi
	cmpl	$2047, %edi
	ja	.LBB12_16
	shrl	$6, %edi
	andl	$63, %esi
	shll	$8, %esi
	orl	%edi, %esi
	orl	$32960, %esi
	movw	%si, (%rdx,%r13)
	addq	$2, %r13
	jmp	.LBB12_18
	.p2align	4
.LBB12_16:
	movl	%esi, %r8d
	andl	$63488, %r8d
	cmpl	$55296, %r8d
	je	.LBB12_19
	movl	%esi, %r8d
	andb	$63, %r8b
	orb	$-128, %r8b
	shrl	$6, %esi
	andb	$63, %sil
	orb	$-128, %sil
	shrl	$12, %edi
	orb	$-32, %dil
	movb	%dil, (%rdx,%r13)
	movb	%sil, 1(%rdx,%r13)
	movb	%r8b, 2(%rdx,%r13)
	addq	$3, %r13
	jmp	.LBB12_18
.LBB12_9:
	negq	%rbp
	movq	%r15, %rax
	subq	%rbp, %rax
	cmpq	$15, %rax
	jbe	.LBB12_11
.LBB12_19:
	leaq	-8(%r15), %rax
	cmpq	$183, %rax
	ja	.LBB12_22
	movq	%r15, %rsi
	subq	%rbp, %rsi
	cmpq	$8, %rsi
	jb	.LBB12_22
	leaq	(%r12,%rbp), %rdi
	addq	%r13, %rdx
	subq	%r13, %rcx
	callq	"utf16_to_utf8::vectors::write_vectors::<#8b18edd9dd9aa8df>"
	addq	%rax, %rbp
	addq	%rdx, %r13
.LBB12_22:
	addq	%rbx, %r13
	cmpq	%r15, %rbp
	jae	.LBB12_41
	movq	(%rsp), %rbx
	jmp	.LBB12_24
	.p2align	4
.LBB12_34:
	movb	%al, (%r14,%r13)
	incq	%r13
.LBB12_40:
	addq	%rcx, %rbp
	cmpq	%r15, %rbp
	jae	.LBB12_41
.LBB12_24:
	movq	%r15, %rax
	subq	%rbp, %rax
	cmpq	$2, %rax
	jb	.LBB12_41
	movbew	(%r12,%rbp), %di
	movl	%edi, %ecx
	andl	$63488, %ecx
	cmpl	$55296, %ecx
	jne	.LBB12_29
	cmpq	$4, %rax
	jb	.LBB12_41
	movl	%edi, %eax
	andl	$56320, %eax
	movzwl	%ax, %eax
	cmpl	$56320, %eax
	je	.LBB12_41
	movzbl	2(%r12,%rbp), %eax
	andb	$-4, %al
	cmpb	$-36, %al
	jne	.LBB12_41
.LBB12_29:
	movl	%edi, %eax
	andl	$64512, %eax
	cmpl	$55296, %eax
	jne	.LBB12_30
	movbew	2(%r12,%rbp), %si
	callq	"utf16_units::unit::decode_surrogates"
	movl	$4, %ecx
	jmp	.LBB12_32
	.p2align	4
.LBB12_30:
	movzwl	%di, %eax
	movl	$2, %ecx
.LBB12_32:
	movq	%rbx, %rdx
	subq	%r13, %rdx
	cmpl	$65536, %eax
	movl	$4, %esi
	sbbq	$0, %rsi
	cmpl	$2048, %eax
	movl	$2, %edi
	cmovaeq	%rsi, %rdi
	cmpl	$128, %eax
	movl	$1, %esi
	cmovaeq	%rdi, %rsi
	cmpq	%rsi, %rdx
	jb	.LBB12_41
	cmpl	$127, %eax
	jbe	.LBB12_34
	movl	%eax, %edx
	andb	$63, %dl
	orb	$-128, %dl
	cmpl	$2047, %eax
	ja	.LBB12_37
	shrl	$6, %eax
	movzbl	%dl, %edx
	shll	$8, %edx
	orl	%eax, %edx
	orl	$192, %edx
	movw	%dx, (%r14,%r13)
	addq	$2, %r13
	jmp	.LBB12_40
	.p2align	4
.LBB12_37:
	movl	%eax, %esi
	cmpl	$65535, %eax
	ja	.LBB12_39
	shrl	$6, %esi
	andb	$63, %sil
	orb	$-128, %sil
	shrl	$12, %eax
	orb	$-32, %al
	movb	%al, (%r14,%r13)
	movb	%sil, 1(%r14,%r13)
	movb	%dl, 2(%r14,%r13)
	addq	$3, %r13
	jmp	.LBB12_40
.LBB12_39:
	shrl	$18, %esi
	addl	$240, %esi
	movzbl	%dl, %edx
	shll	$24, %edx
	movl	%eax, %edi
	shll	$10, %edi
	andl	$4128768, %edi
	orl	%edx, %edi
	shrl	$4, %eax
	andl	$16128, %eax
	orl	%edi, %eax
	movzbl	%sil, %edx
	addl	%edx, %eax
	addl	$8421376, %eax
	movl	%eax, (%r14,%r13)
	addq	$4, %r13
	jmp	.LBB12_40
.LBB12_41:
	movq	%rbp, %rax
	movq	%r13, %rdx
	addq	$8, %rsp
	.cfi_def_cfa_offset 56
	popq	%rbx
	.cfi_def_cfa_offset 48
	popq	%r12
	.cfi_def_cfa_offset 40
	popq	%r13
	.cfi_def_cfa_offset 32
	popq	%r14
	.cfi_def_cfa_offset 24
	popq	%r15
	.cfi_def_cfa_offset 16
	popq	%rbp
	.cfi_def_cfa_offset 8
	retq
.Lfunc_end12:
	.size	"utf16_transcode::transcoding::write_chars::<#b8dc3d53e12e85b3>", .Lfunc_end12-"utf16_transcode::transcoding::write_chars::<#b8dc3d53e12e85b3>"
	.cfi_endproc

	.section	.rodata.cst32,"aM",@progbits,32
	.p2align	5, 0x0
.LCPI13_0:
	.short	255
	.short	255
	.short	255
	.short	255
	.short	255
	.short	255
	.short	255
	.short	255
	.short	255
	.short	255
	.short	255
	.short	255
	.short	255
	.short	255
	.short	255
	.short	255
	.section	.rodata.cst16,"aM",@progbits,16
	.p2align	4, 0x0
.LCPI13_1:
	.zero	16,248
.LCPI13_2:
	.zero	16,216
.LCPI13_3:
	.byte	0
	.byte	2
	.byte	4
	.byte	6
	.byte	8
	.byte	10
	.byte	12
	.byte	14
	.zero	1
	.zero	1
	.zero	1
	.zero	1
	.zero	1
	.zero	1
	.zero	1
	.zero	1
.LCPI13_4:
	.byte	0
	.byte	2
	.byte	4
	.byte	6
	.zero	1
	.zero	1
	.zero	1
	.zero	1
	.zero	1
	.zero	1
	.zero	1
	.zero	1
	.zero	1
	.zero	1
	.zero	1
	.zero	1
.LCPI13_5:
	.byte	248
	.byte	248
	.byte	248
	.byte	248
	.zero	1
	.zero	1
	.zero	1
	.zero	1
	.zero	1
	.zero	1
	.zero	1
	.zero	1
	.zero	1
	.zero	1
	.zero	1
	.zero	1
.LCPI13_6:
	.byte	216
	.byte	216
	.byte	216
	.byte	216
	.zero	1
	.zero	1
	.zero	1
	.zero	1
	.zero	1
	.zero	1
	.zero	1
	.zero	1
	.zero	1
	.zero	1
	.zero	1
	.zero	1
	.section	".text.utf16_transcode::decode::valid_up_to::<#8b18edd9dd9aa8df>","ax",@progbits
	.p2align	4
	.type	"utf16_transcode::decode::valid_up_to::<#8b18edd9dd9aa8df>",@function
"utf16_transcode::decode::valid_up_to::<#8b18edd9dd9aa8df>":
	.cfi_startproc
	cmpq	$2, %rsi
	jne	.LBB13_3
	movzbl	(%rdi), %ecx
	andb	$-8, %cl
	movl	$2, %eax
.LBB13_2:
	cmpb	$-40, %cl
	je	"utf16_units::validate::valid_len::<#8b18edd9dd9aa8df>"
	retq
.LBB13_3:
	cmpq	$7, %rsi
	ja	.LBB13_12
	testq	%rsi, %rsi
	je	.LBB13_23
	cmpq	$6, %rsi
	je	.LBB13_9
	cmpq	$4, %rsi
	jne	"utf16_units::validate::valid_len::<#8b18edd9dd9aa8df>"
	movzbl	(%rdi), %eax
	andb	$-8, %al
	cmpb	$-40, %al
	je	"utf16_units::validate::valid_len::<#8b18edd9dd9aa8df>"
	movzbl	2(%rdi), %ecx
	andb	$-8, %cl
	movl	$4, %eax
	jmp	.LBB13_2
.LBB13_12:
	cmpq	$65, %rsi
	setae	%al
	movl	%esi, %ecx
	orb	%al, %cl
	testb	$1, %cl
	jne	"utf16_units::validate::valid_len::<#8b18edd9dd9aa8df>"
	cmpq	$15, %rsi
	ja	.LBB13_17
	vmovq	(%rdi), %xmm0
	vpshufb	.LCPI13_4(%rip), %xmm0, %xmm0
	vpand	.LCPI13_5(%rip), %xmm0, %xmm0
	vpcmpeqb	.LCPI13_6(%rip), %xmm0, %xmm0
	vpmovsxbd	%xmm0, %xmm0
	vtestps	%xmm0, %xmm0
	jne	"utf16_units::validate::valid_len::<#8b18edd9dd9aa8df>"
	vmovq	-8(%rdi,%rsi), %xmm0
	vpshufb	.LCPI13_4(%rip), %xmm0, %xmm0
	vpand	.LCPI13_5(%rip), %xmm0, %xmm0
	vpcmpeqb	.LCPI13_6(%rip), %xmm0, %xmm0
	vpmovsxbd	%xmm0, %xmm0
	vtestps	%xmm0, %xmm0
	jne	"utf16_units::validate::valid_len::<#8b18edd9dd9aa8df>"
	jmp	.LBB13_23
.LBB13_17:
	cmpq	$31, %rsi
	ja	.LBB13_21
	vmovdqu	(%rdi), %xmm0
	vpshufb	.LCPI13_3(%rip), %xmm0, %xmm0
	vpand	.LCPI13_1(%rip), %xmm0, %xmm0
	vpcmpeqb	.LCPI13_2(%rip), %xmm0, %xmm0
	vpmovmskb	%xmm0, %eax
	testb	%al, %al
	jne	"utf16_units::validate::valid_len::<#8b18edd9dd9aa8df>"
	vmovdqu	-16(%rdi,%rsi), %xmm0
	vpshufb	.LCPI13_3(%rip), %xmm0, %xmm0
	vpand	.LCPI13_1(%rip), %xmm0, %xmm0
	vpcmpeqb	.LCPI13_2(%rip), %xmm0, %xmm0
	vpmovmskb	%xmm0, %eax
	testb	%al, %al
	jne	"utf16_units::validate::valid_len::<#8b18edd9dd9aa8df>"
	jmp	.LBB13_23
.LBB13_9:
	movzbl	(%rdi), %eax
	andb	$-8, %al
	cmpb	$-40, %al
	je	"utf16_units::validate::valid_len::<#8b18edd9dd9aa8df>"
	movzbl	2(%rdi), %eax
	andb	$-8, %al
	cmpb	$-40, %al
	je	"utf16_units::validate::valid_len::<#8b18edd9dd9aa8df>"
	movzbl	4(%rdi), %ecx
	andb	$-8, %cl
	movl	$6, %eax
	jmp	.LBB13_2
.LBB13_21:
	vmovdqu	(%rdi), %ymm0
	vpand	.LCPI13_0(%rip), %ymm0, %ymm0
	vextracti128	$1, %ymm0, %xmm1
	vpackuswb	%xmm1, %xmm0, %xmm0
	vpand	.LCPI13_1(%rip), %xmm0, %xmm0
	vpcmpeqb	.LCPI13_2(%rip), %xmm0, %xmm0
	vpmovmskb	%xmm0, %eax
	testl	%eax, %eax
	vzeroupper
	jne	"utf16_units::validate::valid_len::<#8b18edd9dd9aa8df>"
	vmovdqu	-32(%rdi,%rsi), %ymm0
	vpand	.LCPI13_0(%rip), %ymm0, %ymm0
	vextracti128	$1, %ymm0, %xmm1
	vpackuswb	%xmm1, %xmm0, %xmm0
	vpand	.LCPI13_1(%rip), %xmm0, %xmm0
	vpcmpeqb	.LCPI13_2(%rip), %xmm0, %xmm0
	vpmovmskb	%xmm0, %eax
	testl	%eax, %eax
	vzeroupper
	jne	"utf16_units::validate::valid_len::<#8b18edd9dd9aa8df>"
.LBB13_23:
	movq	%rsi, %rax
	retq
.Lfunc_end13:
	.size	"utf16_transcode::decode::valid_up_to::<#8b18edd9dd9aa8df>", .Lfunc_end13-"utf16_transcode::decode::valid_up_to::<#8b18edd9dd9aa8df>"
	.cfi_endproc

	.section	.rodata,"a",@progbits
	.p2align	1, 0x0
.LCPI14_0:
	.byte	255
	.byte	0
	.section	.rodata.cst32,"aM",@progbits,32
	.p2align	5, 0x0
.LCPI14_1:
	.zero	32,248
.LCPI14_2:
	.zero	32,216
.LCPI14_3:
	.zero	32,252
.LCPI14_4:
	.zero	32,220
.LCPI14_5:
	.short	255
	.short	255
	.short	255
	.short	255
	.short	255
	.short	255
	.short	255
	.short	255
	.short	255
	.short	255
	.short	255
	.short	255
	.short	255
	.short	255
	.short	255
	.short	255
	.section	.rodata.cst16,"aM",@progbits,16
	.p2align	4, 0x0
.LCPI14_6:
	.zero	16,252
.LCPI14_7:
	.zero	16,216
.LCPI14_8:
	.zero	16,220
	.section	.rodata.cst4,"aM",@progbits,4
	.p2align	2, 0x0
.LCPI14_9:
	.zero	4,248
.LCPI14_10:
	.zero	4,216
	.section	".text.utf16_units::validate::valid_len::<#8b18edd9dd9aa8df>","ax",@progbits
	.p2align	4
	.type	"utf16_units::validate::valid_len::<#8b18edd9dd9aa8df>",@function
"utf16_units::validate::valid_len::<#8b18edd9dd9aa8df>":
	.cfi_startproc
	cmpq	$32, %rsi
	jae	.LBB14_9
	testq	%rsi, %rsi
	je	.LBB14_14
	xorl	%ecx, %ecx
	jmp	.LBB14_4
	.p2align	4
.LBB14_3:
	addq	%rcx, %rax
	movq	%rax, %rcx
	cmpq	%rsi, %rax
	jae	.LBB14_61
.LBB14_4:
	movq	%rsi, %r8
	subq	%rcx, %r8
	cmpq	$2, %r8
	jb	.LBB14_60
	movbew	(%rdi,%rcx), %dx
	movl	%edx, %r9d
	andl	$63488, %r9d
	movl	$2, %eax
	cmpl	$55296, %r9d
	jne	.LBB14_3
	cmpq	$4, %r8
	jb	.LBB14_60
	andl	$56320, %edx
	movzwl	%dx, %eax
	cmpl	$56320, %eax
	je	.LBB14_60
	movzbl	2(%rdi,%rcx), %edx
	andb	$-4, %dl
	movl	$4, %eax
	cmpb	$-36, %dl
	je	.LBB14_3
	jmp	.LBB14_60
.LBB14_9:
	cmpq	$64, %rsi
	jb	.LBB14_13
	movq	%rsi, %rcx
	andq	$-128, %rcx
	vpbroadcastw	.LCPI14_0(%rip), %ymm0
	vmovdqu	(%rdi), %ymm1
	vmovdqu	32(%rdi), %ymm2
	vpand	%ymm0, %ymm2, %ymm3
	vpand	%ymm0, %ymm1, %ymm4
	vpackuswb	%ymm3, %ymm4, %ymm3
	vpermq	$216, %ymm3, %ymm3
	vpand	.LCPI14_1(%rip), %ymm3, %ymm3
	vpcmpeqb	.LCPI14_2(%rip), %ymm3, %ymm3
	vpmovmskb	%ymm3, %eax
	cmpq	$256, %rcx
	jne	.LBB14_15
	testl	%eax, %eax
	je	.LBB14_17
	xorl	%ecx, %ecx
	jmp	.LBB14_22
.LBB14_13:
	xorl	%ecx, %ecx
	xorl	%eax, %eax
	jmp	.LBB14_46
.LBB14_14:
	xorl	%eax, %eax
	retq
.LBB14_15:
	testl	%eax, %eax
	je	.LBB14_35
	xorl	%ecx, %ecx
	movq	%rsi, %rdx
	jmp	.LBB14_21
.LBB14_17:
	movl	$64, %ecx
	movq	%rsi, %rdx
	.p2align	4
.LBB14_18:
	leaq	-64(%rdx), %r8
	cmpq	$63, %r8
	jbe	.LBB14_42
	vmovdqu	(%rdi,%rcx), %ymm1
	vmovdqu	32(%rdi,%rcx), %ymm2
	vpand	%ymm0, %ymm2, %ymm3
	vpand	%ymm0, %ymm1, %ymm4
	vpackuswb	%ymm3, %ymm4, %ymm3
	vpermq	$216, %ymm3, %ymm3
	vpand	.LCPI14_1(%rip), %ymm3, %ymm3
	vpcmpeqb	.LCPI14_2(%rip), %ymm3, %ymm3
	vpmovmskb	%ymm3, %eax
	addq	$64, %rcx
	addq	$-64, %rdx
	testl	%eax, %eax
	je	.LBB14_18
	addq	$-64, %rcx
.LBB14_21:
	cmpq	$64, %rdx
	je	.LBB14_26
.LBB14_22:
	vpand	%ymm0, %ymm1, %ymm1
	vpand	%ymm0, %ymm2, %ymm2
	vpackuswb	%ymm2, %ymm1, %ymm1
	vpermq	$216, %ymm1, %ymm1
	vpand	.LCPI14_1(%rip), %ymm1, %ymm1
	vpcmpeqb	.LCPI14_2(%rip), %ymm1, %ymm1
	vpmovmskb	%ymm1, %eax
	tzcntl	%eax, %eax
	leaq	(%rcx,%rax,2), %rax
	movq	%rsi, %rdx
	subq	%rax, %rdx
	cmpq	$2, %rdx
	jb	.LBB14_61
	movbew	(%rdi,%rax), %r8w
	movl	%r8d, %r9d
	andl	$63488, %r9d
	cmpl	$55296, %r9d
	jne	.LBB14_26
	notl	%r8d
	testl	$56320, %r8d
	sete	%r8b
	cmpq	$4, %rdx
	setb	%dl
	orb	%r8b, %dl
	jne	.LBB14_61
	movzbl	2(%rdi,%rax), %edx
	andb	$-4, %dl
	cmpb	$-36, %dl
	jne	.LBB14_61
.LBB14_26:
	xorl	%r8d, %r8d
	jmp	.LBB14_28
	.p2align	4
.LBB14_27:
	shrl	$31, %eax
	movl	%eax, %r8d
	cmpq	$63, %rdx
	jbe	.LBB14_44
.LBB14_28:
	vpand	32(%rdi,%rcx), %ymm0, %ymm1
	vpand	(%rdi,%rcx), %ymm0, %ymm2
	vpackuswb	%ymm1, %ymm2, %ymm1
	vpermq	$216, %ymm1, %ymm1
	vpand	.LCPI14_3(%rip), %ymm1, %ymm1
	vpcmpeqb	.LCPI14_2(%rip), %ymm1, %ymm2
	vpmovmskb	%ymm2, %eax
	vpcmpeqb	.LCPI14_4(%rip), %ymm1, %ymm1
	vpmovmskb	%ymm1, %edx
	movzbl	%r8b, %r9d
	andl	$1, %r9d
	leal	(%r9,%rax,2), %r9d
	cmpl	%edx, %r9d
	jne	.LBB14_43
	addq	$64, %rcx
	movq	%rsi, %rdx
	subq	%rcx, %rdx
	cmpq	$64, %rdx
	jb	.LBB14_27
	movzbl	%cl, %r8d
	testq	%r8, %r8
	jne	.LBB14_27
	testl	%eax, %eax
	jne	.LBB14_27
	.p2align	4
.LBB14_32:
	vpand	32(%rdi,%rcx), %ymm0, %ymm1
	vpand	(%rdi,%rcx), %ymm0, %ymm2
	vpackuswb	%ymm1, %ymm2, %ymm1
	vpermq	$216, %ymm1, %ymm1
	vpand	.LCPI14_1(%rip), %ymm1, %ymm1
	vpcmpeqb	.LCPI14_2(%rip), %ymm1, %ymm1
	vpmovmskb	%ymm1, %r8d
	testl	%r8d, %r8d
	jne	.LBB14_27
	addq	$64, %rcx
	addq	$-64, %rdx
	cmpq	$63, %rdx
	ja	.LBB14_32
.LBB14_34:
	xorl	%eax, %eax
.LBB14_45:
	cmpq	$32, %rdx
	jb	.LBB14_47
.LBB14_46:
	vmovdqu	(%rdi,%rcx), %ymm0
	vpand	.LCPI14_5(%rip), %ymm0, %ymm0
	vextracti128	$1, %ymm0, %xmm1
	vpackuswb	%xmm1, %xmm0, %xmm0
	vpand	.LCPI14_6(%rip), %xmm0, %xmm0
	vpcmpeqb	.LCPI14_7(%rip), %xmm0, %xmm1
	vpcmpeqb	.LCPI14_8(%rip), %xmm0, %xmm0
	vpmovmskb	%xmm1, %edx
	movl	%edx, %r8d
	vpmovmskb	%xmm0, %r9d
	movzbl	%al, %r10d
	movl	%r10d, %eax
	andl	$1, %eax
	andl	$32767, %edx
	leaq	(%rax,%rdx,2), %rdx
	leaq	32(%rcx), %rax
	cmpq	%r9, %rdx
	cmoveq	%rax, %rcx
	xorl	%eax, %eax
	testw	%r8w, %r8w
	sets	%al
	cmpl	%r9d, %edx
	cmovnel	%r10d, %eax
.LBB14_47:
	leaq	-2(%rcx), %rdx
	testb	$1, %al
	cmoveq	%rcx, %rdx
	movq	%rsi, %rax
	subq	%rdx, %rax
	cmpq	$32, %rax
	ja	.LBB14_51
	movq	%rdx, %rax
	subq	%rsi, %rax
	testb	$1, %al
	jne	.LBB14_53
	vmovdqu	-32(%rdi,%rsi), %ymm0
	addl	$32, %eax
	shrl	%eax
	vpand	.LCPI14_5(%rip), %ymm0, %ymm0
	vextracti128	$1, %ymm0, %xmm1
	vpackuswb	%xmm1, %xmm0, %xmm0
	vpand	.LCPI14_6(%rip), %xmm0, %xmm0
	vpcmpeqb	.LCPI14_8(%rip), %xmm0, %xmm1
	vpmovmskb	%xmm1, %ecx
	shrxq	%rax, %rcx, %rcx
	vpcmpeqb	.LCPI14_7(%rip), %xmm0, %xmm0
	vpmovmskb	%xmm0, %r8d
	shrxq	%rax, %r8, %rax
	addl	%eax, %eax
	cmpl	%eax, %ecx
	jne	.LBB14_53
	movq	%rsi, %rax
	vzeroupper
	retq
.LBB14_51:
	cmpq	$64, %rax
	jae	.LBB14_52
.LBB14_53:
	xorl	%ecx, %ecx
	addq	%rdx, %rcx
	cmpq	%rsi, %rcx
	jb	.LBB14_55
	jmp	.LBB14_60
.LBB14_52:
	vpbroadcastw	.LCPI14_0(%rip), %ymm0
	vpand	32(%rdi,%rdx), %ymm0, %ymm1
	vpand	(%rdi,%rdx), %ymm0, %ymm0
	vpackuswb	%ymm1, %ymm0, %ymm0
	vpermq	$216, %ymm0, %ymm0
	vpand	.LCPI14_1(%rip), %ymm0, %ymm0
	vpcmpeqb	.LCPI14_2(%rip), %ymm0, %ymm0
	vpmovmskb	%ymm0, %eax
	xorl	%ecx, %ecx
	tzcntl	%eax, %ecx
	addl	%ecx, %ecx
	addq	%rdx, %rcx
	cmpq	%rsi, %rcx
	jb	.LBB14_55
	jmp	.LBB14_60
	.p2align	4
.LBB14_54:
	addq	%rcx, %rax
	movq	%rax, %rcx
	cmpq	%rsi, %rax
	jae	.LBB14_61
.LBB14_55:
	movq	%rsi, %r8
	subq	%rcx, %r8
	cmpq	$2, %r8
	jb	.LBB14_60
	movbew	(%rdi,%rcx), %dx
	movl	%edx, %r9d
	andl	$63488, %r9d
	movl	$2, %eax
	cmpl	$55296, %r9d
	jne	.LBB14_54
	cmpq	$4, %r8
	jb	.LBB14_60
	andl	$56320, %edx
	movzwl	%dx, %eax
	cmpl	$56320, %eax
	je	.LBB14_60
	movzbl	2(%rdi,%rcx), %edx
	andb	$-4, %dl
	movl	$4, %eax
	cmpb	$-36, %dl
	je	.LBB14_54
.LBB14_60:
	movq	%rcx, %rax
.LBB14_61:
	vzeroupper
	retq
.LBB14_35:
	leaq	-256(%rsi), %rax
	xorl	%ecx, %ecx
	.p2align	4
.LBB14_36:
	addq	$64, %rcx
	cmpq	$256, %rcx
	je	.LBB14_39
.LBB14_37:
	movq	%rsi, %rdx
	subq	%rcx, %rdx
	cmpq	$63, %rdx
	jbe	.LBB14_34
	vmovdqu	(%rdi,%rcx), %ymm1
	vmovdqu	32(%rdi,%rcx), %ymm2
	vpand	%ymm0, %ymm2, %ymm3
	vpand	%ymm0, %ymm1, %ymm4
	vpackuswb	%ymm3, %ymm4, %ymm3
	vpermq	$216, %ymm3, %ymm3
	vpand	.LCPI14_1(%rip), %ymm3, %ymm3
	vpcmpeqb	.LCPI14_2(%rip), %ymm3, %ymm3
	vpmovmskb	%ymm3, %r8d
	testl	%r8d, %r8d
	je	.LBB14_36
	jmp	.LBB14_21
	.p2align	4
.LBB14_39:
	movl	$256, %ecx
	movq	%rax, %rdx
	.p2align	4
.LBB14_40:
	vpand	32(%rdi,%rcx), %ymm0, %ymm1
	vpand	(%rdi,%rcx), %ymm0, %ymm2
	vpackuswb	%ymm1, %ymm2, %ymm1
	vpermq	$216, %ymm1, %ymm1
	vpbroadcastd	.LCPI14_9(%rip), %ymm2
	vpand	%ymm2, %ymm1, %ymm1
	vpbroadcastd	.LCPI14_10(%rip), %ymm3
	vpand	96(%rdi,%rcx), %ymm0, %ymm4
	vpand	64(%rdi,%rcx), %ymm0, %ymm5
	vpcmpeqb	%ymm3, %ymm1, %ymm1
	vpackuswb	%ymm4, %ymm5, %ymm4
	vpermq	$216, %ymm4, %ymm4
	vpand	%ymm2, %ymm4, %ymm2
	vpcmpeqb	%ymm3, %ymm2, %ymm2
	vpor	%ymm2, %ymm1, %ymm1
	vpmovmskb	%ymm1, %r8d
	testl	%r8d, %r8d
	jne	.LBB14_37
	subq	$-128, %rcx
	addq	$-128, %rdx
	cmpq	$127, %rdx
	ja	.LBB14_40
	jmp	.LBB14_37
.LBB14_42:
	xorl	%eax, %eax
	movq	%r8, %rdx
	jmp	.LBB14_45
.LBB14_43:
	movl	%r8d, %eax
.LBB14_44:
	movq	%rsi, %rdx
	subq	%rcx, %rdx
	jmp	.LBB14_45
.Lfunc_end14:
	.size	"utf16_units::validate::valid_len::<#8b18edd9dd9aa8df>", .Lfunc_end14-"utf16_units::validate::valid_len::<#8b18edd9dd9aa8df>"
	.cfi_endproc

	.section	".text.utf16_to_utf8::write::write_utf8::<#8b18edd9dd9aa8df>","ax",@progbits
	.p2align	4
	.type	"utf16_to_utf8::write::write_utf8::<#8b18edd9dd9aa8df>",@function
"utf16_to_utf8::write::write_utf8::<#8b18edd9dd9aa8df>":
	.cfi_startproc
	pushq	%r15
	.cfi_def_cfa_offset 16
	pushq	%r14
	.cfi_def_cfa_offset 24
	pushq	%r13
	.cfi_def_cfa_offset 32
	pushq	%r12
	.cfi_def_cfa_offset 40
	pushq	%rbx
	.cfi_def_cfa_offset 48
	subq	$48, %rsp
	.cfi_def_cfa_offset 96
	.cfi_offset %rbx, -48
	.cfi_offset %r12, -40
	.cfi_offset %r13, -32
	.cfi_offset %r14, -24
	.cfi_offset %r15, -16
	movq	%rdx, %rbx
	movq	%rsi, %r14
	movq	%rdi, %r15
	movq	%rsi, %rax
	shrq	%rax
	leaq	(%rax,%rax,2), %r12
	addq	$128, %r12
	cmpq	$191, %rsi
	jbe	.LBB15_3
	vxorps	%xmm0, %xmm0, %xmm0
	vmovups	%ymm0, (%rsp)
	movq	$0, 32(%rsp)
	movq	%rsp, %rdi
	movq	%r15, %rsi
	movq	%r14, %rdx
	movq	%rbx, %rcx
	movq	%r12, %r8
	vzeroupper
	callq	"utf16_to_utf8::runs::write_paired::<#8b18edd9dd9aa8df>"
	movq	(%rsp), %rax
	movq	8(%rsp), %rcx
	leaq	-2(%rax), %rdx
	leaq	-2(%rcx), %r13
	testb	$1, 32(%rsp)
	cmoveq	%rcx, %r13
	cmoveq	%rax, %rdx
	addq	%rdx, %r15
	subq	%rdx, %r14
	addq	%r13, %rbx
	cmpq	$7, %r14
	ja	.LBB15_5
	movq	%r15, %rdi
	movq	%r14, %rsi
	movq	%rbx, %rdx
	callq	"utf16_to_utf8::chars::write_chars::<#8b18edd9dd9aa8df>"
	jmp	.LBB15_6
.LBB15_3:
	movq	%r15, %rdi
	movq	%r14, %rsi
	movq	%rbx, %rdx
	cmpq	$7, %r14
	jbe	.LBB15_8
	movq	%r12, %rcx
	callq	"utf16_to_utf8::vectors::write_vectors::<#8b18edd9dd9aa8df>"
	movq	%rdx, %rax
	jmp	.LBB15_7
.LBB15_5:
	subq	%r13, %r12
	movq	%r15, %rdi
	movq	%r14, %rsi
	movq	%rbx, %rdx
	movq	%r12, %rcx
	callq	"utf16_to_utf8::vectors::write_vectors::<#8b18edd9dd9aa8df>"
	movq	%rdx, %rax
.LBB15_6:
	addq	%r13, %rax
.LBB15_7:
	addq	$48, %rsp
	.cfi_def_cfa_offset 48
	popq	%rbx
	.cfi_def_cfa_offset 40
	popq	%r12
	.cfi_def_cfa_offset 32
	popq	%r13
	.cfi_def_cfa_offset 24
	popq	%r14
	.cfi_def_cfa_offset 16
	popq	%r15
	.cfi_def_cfa_offset 8
	retq
.LBB15_8:
	.cfi_def_cfa_offset 96
	addq	$48, %rsp
	.cfi_def_cfa_offset 48
	popq	%rbx
	.cfi_def_cfa_offset 40
	popq	%r12
	.cfi_def_cfa_offset 32
	popq	%r13
	.cfi_def_cfa_offset 24
	popq	%r14
	.cfi_def_cfa_offset 16
	popq	%r15
	.cfi_def_cfa_offset 8
	jmp	"utf16_to_utf8::chars::write_chars::<#8b18edd9dd9aa8df>"
.Lfunc_end15:
	.size	"utf16_to_utf8::write::write_utf8::<#8b18edd9dd9aa8df>", .Lfunc_end15-"utf16_to_utf8::write::write_utf8::<#8b18edd9dd9aa8df>"
	.cfi_endproc

	.section	".text.utf16_to_utf8::chars::write_chars::<#8b18edd9dd9aa8df>","ax",@progbits
	.p2align	4
	.type	"utf16_to_utf8::chars::write_chars::<#8b18edd9dd9aa8df>",@function
"utf16_to_utf8::chars::write_chars::<#8b18edd9dd9aa8df>":
	.cfi_startproc
	pushq	%r15
	.cfi_def_cfa_offset 16
	pushq	%r14
	.cfi_def_cfa_offset 24
	pushq	%r12
	.cfi_def_cfa_offset 32
	pushq	%rbx
	.cfi_def_cfa_offset 40
	pushq	%rax
	.cfi_def_cfa_offset 48
	.cfi_offset %rbx, -40
	.cfi_offset %r12, -32
	.cfi_offset %r14, -24
	.cfi_offset %r15, -16
	testq	%rsi, %rsi
	je	.LBB16_1
	movq	%rdx, %rbx
	movq	%rsi, %r14
	movq	%rdi, %r12
	xorl	%r15d, %r15d
	jmp	.LBB16_3
	.p2align	4
.LBB16_7:
	movb	%al, (%rbx,%r15)
	incq	%r15
.LBB16_13:
	addq	%rcx, %r12
	subq	%rcx, %r14
	je	.LBB16_14
.LBB16_3:
	movbew	(%r12), %di
	movl	%edi, %eax
	andl	$64512, %eax
	cmpl	$55296, %eax
	jne	.LBB16_4
	movbew	2(%r12), %si
	callq	"utf16_units::unit::decode_surrogates"
	movl	$4, %ecx
	cmpl	$127, %eax
	jbe	.LBB16_7
	jmp	.LBB16_8
	.p2align	4
.LBB16_4:
	movzwl	%di, %eax
	movl	$2, %ecx
	cmpl	$127, %eax
	jbe	.LBB16_7
.LBB16_8:
	movl	%eax, %edx
	andb	$63, %dl
	orb	$-128, %dl
	cmpl	$2047, %eax
	ja	.LBB16_10
	shrl	$6, %eax
	movzbl	%dl, %edx
	shll	$8, %edx
	orl	%eax, %edx
	orl	$192, %edx
	movw	%dx, (%rbx,%r15)
	addq	$2, %r15
	jmp	.LBB16_13
	.p2align	4
.LBB16_10:
	movl	%eax, %esi
	cmpl	$65535, %eax
	ja	.LBB16_12
	shrl	$6, %esi
	andb	$63, %sil
	orb	$-128, %sil
	shrl	$12, %eax
	orb	$-32, %al
	movb	%al, (%rbx,%r15)
	movb	%sil, 1(%rbx,%r15)
	movb	%dl, 2(%rbx,%r15)
	addq	$3, %r15
	jmp	.LBB16_13
.LBB16_12:
	shrl	$18, %esi
	addl	$240, %esi
	movzbl	%dl, %edx
	shll	$24, %edx
	movl	%eax, %edi
	shll	$10, %edi
	andl	$4128768, %edi
	orl	%edx, %edi
	shrl	$4, %eax
	andl	$16128, %eax
	orl	%edi, %eax
	movzbl	%sil, %edx
	addl	%edx, %eax
	addl	$8421376, %eax
	movl	%eax, (%rbx,%r15)
	addq	$4, %r15
	jmp	.LBB16_13
.LBB16_1:
	xorl	%r15d, %r15d
.LBB16_14:
	movq	%r15, %rax
	addq	$8, %rsp
	.cfi_def_cfa_offset 40
	popq	%rbx
	.cfi_def_cfa_offset 32
	popq	%r12
	.cfi_def_cfa_offset 24
	popq	%r14
	.cfi_def_cfa_offset 16
	popq	%r15
	.cfi_def_cfa_offset 8
	retq
.Lfunc_end16:
	.size	"utf16_to_utf8::chars::write_chars::<#8b18edd9dd9aa8df>", .Lfunc_end16-"utf16_to_utf8::chars::write_chars::<#8b18edd9dd9aa8df>"
	.cfi_endproc

	.section	.rodata.cst32,"aM",@progbits,32
	.p2align	5, 0x0
.LCPI17_0:
	.zero	32,191
.LCPI17_1:
	.zero	32,240
	.section	.rodata.cst16,"aM",@progbits,16
	.p2align	4, 0x0
.LCPI17_2:
	.zero	16,191
.LCPI17_3:
	.zero	16,240
	.section	.rodata.cst4,"aM",@progbits,4
	.p2align	2, 0x0
.LCPI17_4:
	.zero	4,191
.LCPI17_5:
	.zero	4,240
	.section	".text.utf16_transcode::transcoding::write_buffered_text::<#b8dc3d53e12e85b3>","ax",@progbits
	.p2align	4
	.type	"utf16_transcode::transcoding::write_buffered_text::<#b8dc3d53e12e85b3>",@function
"utf16_transcode::transcoding::write_buffered_text::<#b8dc3d53e12e85b3>":
	.cfi_startproc
	pushq	%rbp
	.cfi_def_cfa_offset 16
	pushq	%r15
	.cfi_def_cfa_offset 24
	pushq	%r14
	.cfi_def_cfa_offset 32
	pushq	%r13
	.cfi_def_cfa_offset 40
	pushq	%r12
	.cfi_def_cfa_offset 48
	pushq	%rbx
	.cfi_def_cfa_offset 56
	pushq	%rax
	.cfi_def_cfa_offset 64
	.cfi_offset %rbx, -56
	.cfi_offset %r12, -48
	.cfi_offset %r13, -40
	.cfi_offset %r14, -32
	.cfi_offset %r15, -24
	.cfi_offset %rbp, -16
	movq	%r9, %rbx
	movq	%r8, %r14
	movq	%rcx, %r12
	movq	%rdx, %r15
	movq	%rdi, %rbp
	cmpq	$64, %rsi
	movl	$64, %eax
	cmovaeq	%rax, %rsi
	callq	"utf16_transcode::decode::valid_up_to::<#8b18edd9dd9aa8df>"
	movq	%rax, %r13
	movq	%rbp, %rdi
	movq	%rax, %rsi
	movq	%r15, %rdx
	callq	"utf16_to_utf8::write::write_utf8::<#8b18edd9dd9aa8df>"
	subq	%rbx, %r14
	cmpq	%r14, %rax
	jbe	.LBB17_5
	testq	%r14, %r14
	je	.LBB17_4
	.p2align	4
.LBB17_2:
	cmpb	$-65, (%r15,%r14)
	jg	.LBB17_13
	decq	%r14
	jne	.LBB17_2
.LBB17_4:
	addq	%rbx, %r12
	xorl	%r14d, %r14d
	movq	%r12, %rdi
	xorl	%r13d, %r13d
	jmp	.LBB17_9
.LBB17_5:
	movq	%rax, %r14
.LBB17_6:
	leaq	(%r12,%rbx), %rdi
	movq	%rdi, %rax
	subq	%r15, %rax
	cmpq	%r14, %rax
	jae	.LBB17_9
	cmpq	$8, %r14
	jb	.LBB17_8
	leaq	(%r12,%rbx), %rax
	subq	%r15, %rax
	cmpq	$128, %rax
	jae	.LBB17_22
.LBB17_8:
	xorl	%eax, %eax
.LBB17_34:
	movq	%r14, %rdx
	movq	%rax, %rcx
	andq	$7, %rdx
	je	.LBB17_37
	movq	%rax, %rcx
	.p2align	4
.LBB17_36:
	movzbl	(%r15,%rcx), %esi
	movb	%sil, (%rdi,%rcx)
	incq	%rcx
	decq	%rdx
	jne	.LBB17_36
.LBB17_37:
	subq	%r14, %rax
	cmpq	$-8, %rax
	ja	.LBB17_10
	leaq	(%rbx,%r12), %rax
	addq	$7, %rax
	.p2align	4
.LBB17_39:
	movzbl	(%r15,%rcx), %edx
	movb	%dl, -7(%rax,%rcx)
	movzbl	1(%r15,%rcx), %edx
	movb	%dl, -6(%rax,%rcx)
	movzbl	2(%r15,%rcx), %edx
	movb	%dl, -5(%rax,%rcx)
	movzbl	3(%r15,%rcx), %edx
	movb	%dl, -4(%rax,%rcx)
	movzbl	4(%r15,%rcx), %edx
	movb	%dl, -3(%rax,%rcx)
	movzbl	5(%r15,%rcx), %edx
	movb	%dl, -2(%rax,%rcx)
	movzbl	6(%r15,%rcx), %edx
	movb	%dl, -1(%rax,%rcx)
	movzbl	7(%r15,%rcx), %edx
	movb	%dl, (%rax,%rcx)
	addq	$8, %rcx
	cmpq	%rcx, %r14
	jne	.LBB17_39
	jmp	.LBB17_10
.LBB17_9:
	movq	%r15, %rsi
	movq	%r14, %rdx
	vzeroupper
	callq	memmove@PLT
.LBB17_10:
	addq	%rbx, %r14
	movq	%r13, %rax
	movq	%r14, %rdx
	addq	$8, %rsp
	.cfi_def_cfa_offset 56
	popq	%rbx
	.cfi_def_cfa_offset 48
	popq	%r12
	.cfi_def_cfa_offset 40
	popq	%r13
	.cfi_def_cfa_offset 32
	popq	%r14
	.cfi_def_cfa_offset 24
	popq	%r15
	.cfi_def_cfa_offset 16
	popq	%rbp
	.cfi_def_cfa_offset 8
	vzeroupper
	retq
.LBB17_13:
	.cfi_def_cfa_offset 64
	cmpq	$15, %r14
	ja	.LBB17_24
	xorl	%r13d, %r13d
	movq	%r14, %rax
	movq	%r15, %rcx
	jmp	.LBB17_17
.LBB17_15:
	andl	$31, %edx
	shll	$6, %edx
	orl	%esi, %edx
	movl	$2, %r8d
	.p2align	4
.LBB17_16:
	addq	%r8, %rcx
	xorl	%esi, %esi
	cmpl	$65536, %edx
	setae	%sil
	leaq	2(%r13,%rsi,2), %r13
	subq	%r8, %rax
	je	.LBB17_6
.LBB17_17:
	movzbl	(%rcx), %edx
	movl	$1, %r8d
	testb	%dl, %dl
	jns	.LBB17_16
	movzbl	1(%rcx), %esi
	andl	$63, %esi
	cmpb	$-33, %dl
	jbe	.LBB17_15
	movzbl	2(%rcx), %edi
	andl	$63, %edi
	cmpb	$-17, %dl
	ja	.LBB17_21
	shll	$12, %edx
	movzwl	%dx, %edx
	shll	$6, %esi
	orl	%edx, %esi
	orl	%edi, %esi
	movl	$3, %r8d
	movl	%esi, %edx
	jmp	.LBB17_16
.LBB17_21:
	movzbl	3(%rcx), %r8d
	andl	$63, %r8d
	andl	$7, %edx
	shll	$18, %edx
	shll	$12, %esi
	orl	%edx, %esi
	shll	$6, %edi
	orl	%esi, %edi
	orl	%r8d, %edi
	movl	$4, %r8d
	movl	%edi, %edx
	jmp	.LBB17_16
.LBB17_22:
	cmpq	$128, %r14
	jae	.LBB17_27
	xorl	%eax, %eax
	jmp	.LBB17_31
.LBB17_24:
	cmpq	$64, %r14
	jb	.LBB17_40
	xorl	%ecx, %ecx
	movq	%r14, %rdx
	xorl	%eax, %eax
	.p2align	4
.LBB17_26:
	vmovdqu	(%r15,%rcx), %ymm0
	vmovdqu	32(%r15,%rcx), %ymm1
	vpbroadcastd	.LCPI17_4(%rip), %ymm2
	vpbroadcastd	.LCPI17_5(%rip), %ymm3
	vpcmpgtb	%ymm2, %ymm0, %ymm4
	vpmovmskb	%ymm4, %esi
	vpcmpgtb	%ymm2, %ymm1, %ymm2
	vpmovmskb	%ymm2, %edi
	shlq	$32, %rdi
	orq	%rsi, %rdi
	xorl	%esi, %esi
	popcntq	%rdi, %rsi
	addq	%rax, %rsi
	vpmaxub	%ymm3, %ymm0, %ymm2
	vpcmpeqb	%ymm2, %ymm0, %ymm0
	vpmovmskb	%ymm0, %eax
	vpmaxub	%ymm3, %ymm1, %ymm0
	vpcmpeqb	%ymm0, %ymm1, %ymm0
	vpmovmskb	%ymm0, %edi
	shlq	$32, %rdi
	orq	%rax, %rdi
	xorl	%eax, %eax
	popcntq	%rdi, %rax
	addq	%rsi, %rax
	addq	$64, %rcx
	addq	$-64, %rdx
	cmpq	$63, %rdx
	ja	.LBB17_26
	jmp	.LBB17_41
.LBB17_27:
	movq	%r14, %rax
	andq	$-128, %rax
	leaq	(%rbx,%r12), %rcx
	addq	$96, %rcx
	xorl	%edx, %edx
	.p2align	4
.LBB17_28:
	vmovdqu	(%r15,%rdx), %ymm0
	vmovdqu	32(%r15,%rdx), %ymm1
	vmovdqu	64(%r15,%rdx), %ymm2
	vmovdqu	96(%r15,%rdx), %ymm3
	vmovdqu	%ymm0, -96(%rcx,%rdx)
	vmovdqu	%ymm1, -64(%rcx,%rdx)
	vmovdqu	%ymm2, -32(%rcx,%rdx)
	vmovdqu	%ymm3, (%rcx,%rdx)
	subq	$-128, %rdx
	cmpq	%rdx, %rax
	jne	.LBB17_28
	cmpq	%rax, %r14
	je	.LBB17_10
	testb	$120, %r14b
	je	.LBB17_34
.LBB17_31:
	movq	%rax, %rcx
	movq	%r14, %rax
	andq	$-8, %rax
	.p2align	4
.LBB17_32:
	movq	(%r15,%rcx), %rdx
	movq	%rdx, (%rdi,%rcx)
	addq	$8, %rcx
	cmpq	%rcx, %rax
	jne	.LBB17_32
	cmpq	%rax, %r14
	je	.LBB17_10
	jmp	.LBB17_34
.LBB17_40:
	xorl	%eax, %eax
	xorl	%ecx, %ecx
.LBB17_41:
	movq	%r14, %rdx
	subq	%rcx, %rdx
	cmpq	$16, %rdx
	jb	.LBB17_44
	movq	%r14, %rdx
	subq	%rcx, %rdx
	addq	%r15, %rcx
	.p2align	4
.LBB17_43:
	vmovdqu	(%rcx), %xmm0
	vpcmpgtb	.LCPI17_2(%rip), %xmm0, %xmm1
	vpmovmskb	%xmm1, %esi
	popcntl	%esi, %esi
	vpmaxub	.LCPI17_3(%rip), %xmm0, %xmm1
	vpcmpeqb	%xmm1, %xmm0, %xmm0
	vpmovmskb	%xmm0, %edi
	popcntl	%edi, %edi
	addl	%esi, %edi
	addq	%rdi, %rax
	addq	$-16, %rdx
	addq	$16, %rcx
	cmpq	$15, %rdx
	ja	.LBB17_43
.LBB17_44:
	vmovdqu	-16(%r15,%r14), %xmm0
	vpcmpgtb	.LCPI17_2(%rip), %xmm0, %xmm1
	vpmovmskb	%xmm1, %ecx
	movb	$16, %sil
	subb	%dl, %sil
	shrxq	%rsi, %rcx, %rcx
	vpmaxub	.LCPI17_3(%rip), %xmm0, %xmm1
	popcntl	%ecx, %ecx
	vpcmpeqb	%xmm1, %xmm0, %xmm0
	vpmovmskb	%xmm0, %edx
	shrxq	%rsi, %rdx, %rdx
	xorl	%r13d, %r13d
	popcntl	%edx, %r13d
	addq	%rcx, %r13
	addq	%rax, %r13
	addq	%r13, %r13
	jmp	.LBB17_6
.Lfunc_end17:
	.size	"utf16_transcode::transcoding::write_buffered_text::<#b8dc3d53e12e85b3>", .Lfunc_end17-"utf16_transcode::transcoding::write_buffered_text::<#b8dc3d53e12e85b3>"
	.cfi_endproc

	.section	.rodata.cst32,"aM",@progbits,32
	.p2align	5, 0x0
.LCPI18_0:
	.byte	1
	.byte	0
	.byte	3
	.byte	2
	.byte	5
	.byte	4
	.byte	7
	.byte	6
	.byte	9
	.byte	8
	.byte	11
	.byte	10
	.byte	13
	.byte	12
	.byte	15
	.byte	14
	.byte	1
	.byte	0
	.byte	3
	.byte	2
	.byte	5
	.byte	4
	.byte	7
	.byte	6
	.byte	9
	.byte	8
	.byte	11
	.byte	10
	.byte	13
	.byte	12
	.byte	15
	.byte	14
.LCPI18_1:
	.short	255
	.short	255
	.short	255
	.short	255
	.short	255
	.short	255
	.short	255
	.short	255
	.short	255
	.short	255
	.short	255
	.short	255
	.short	255
	.short	255
	.short	255
	.short	255
	.section	.rodata.cst16,"aM",@progbits,16
	.p2align	4, 0x0
.LCPI18_2:
	.byte	1
	.byte	0
	.byte	3
	.byte	2
	.byte	5
	.byte	4
	.byte	7
	.byte	6
	.byte	9
	.byte	8
	.byte	11
	.byte	10
	.byte	13
	.byte	12
	.byte	15
	.byte	14
	.section	.rodata.cst4,"aM",@progbits,4
	.p2align	2, 0x0
.LCPI18_3:
	.short	255
	.short	255
	.section	".text.utf16_transcode::ascii::write_lossy_ascii_blocks::<#8b18edd9dd9aa8df>","ax",@progbits
	.p2align	4
	.type	"utf16_transcode::ascii::write_lossy_ascii_blocks::<#8b18edd9dd9aa8df>",@function
"utf16_transcode::ascii::write_lossy_ascii_blocks::<#8b18edd9dd9aa8df>":
	.cfi_startproc
	pushq	%rbp
	.cfi_def_cfa_offset 16
	pushq	%r15
	.cfi_def_cfa_offset 24
	pushq	%r14
	.cfi_def_cfa_offset 32
	pushq	%rbx
	.cfi_def_cfa_offset 40
	.cfi_offset %rbx, -40
	.cfi_offset %r14, -32
	.cfi_offset %r15, -24
	.cfi_offset %rbp, -16
	movq	%rdx, %r8
	leaq	-66(%rsi), %r9
	addq	$-35, %rcx
	xorl	%eax, %eax
	xorl	%edx, %edx
	.p2align	4
.LBB18_1:
	vmovdqu	(%rdi,%rax), %ymm0
	vmovdqu	32(%rdi,%rax), %ymm1
	vbroadcasti128	.LCPI18_2(%rip), %ymm2
	vpshufb	%ymm2, %ymm0, %ymm0
	vpshufb	%ymm2, %ymm1, %ymm1
	vpbroadcastd	.LCPI18_3(%rip), %ymm2
	vpminuw	%ymm2, %ymm1, %ymm1
	vpminuw	%ymm2, %ymm0, %ymm0
	vpackuswb	%ymm1, %ymm0, %ymm1
	vpermq	$216, %ymm1, %ymm0
	vmovdqu	%ymm0, (%r8,%rdx)
	vpmovmskb	%ymm1, %r10d
	testl	%r10d, %r10d
	je	.LBB18_2
	vpmovmskb	%ymm0, %r10d
	tzcntl	%r10d, %r10d
	leal	(%r10,%r10), %r11d
	movq	%rsi, %rbx
	subq	%rax, %rbx
	subq	%r11, %rbx
	cmpq	$2, %rbx
	jb	.LBB18_13
	leaq	(%rdi,%rax), %r14
	movbew	(%r14,%r11), %bp
	movl	%ebp, %r15d
	andl	$63488, %r15d
	cmpl	$55296, %r15d
	jne	.LBB18_13
	notl	%ebp
	testl	$56320, %ebp
	je	.LBB18_8
	cmpq	$4, %rbx
	jb	.LBB18_13
	movzbl	2(%r14,%r11), %ebx
	andb	$-4, %bl
	cmpb	$-36, %bl
	je	.LBB18_13
.LBB18_8:
	leaq	(%r8,%rdx), %rbx
	addq	$2, %r11
	addq	%r10, %rbx
	addq	$3, %r10
	leaq	.Lstatic.6(%rip), %r14
	movq	%rbx, %r15
	subq	%r14, %r15
	cmpq	$2, %r15
	ja	.LBB18_10
	movw	$-16401, (%rbx)
	movb	$-67, 2(%rbx)
	addq	%r11, %rax
	addq	%r10, %rdx
	cmpq	%r9, %rax
	jbe	.LBB18_12
	jmp	.LBB18_13
	.p2align	4
.LBB18_2:
	movl	$64, %r11d
	movl	$32, %r10d
	addq	%r11, %rax
	addq	%r10, %rdx
	cmpq	%r9, %rax
	jbe	.LBB18_12
	jmp	.LBB18_13
	.p2align	4
.LBB18_10:
	movb	$-67, 2(%rbx)
	movw	$-16401, (%rbx)
	addq	%r11, %rax
	addq	%r10, %rdx
	cmpq	%r9, %rax
	ja	.LBB18_13
.LBB18_12:
	cmpq	%rcx, %rdx
	jbe	.LBB18_1
.LBB18_13:
	popq	%rbx
	.cfi_def_cfa_offset 32
	popq	%r14
	.cfi_def_cfa_offset 24
	popq	%r15
	.cfi_def_cfa_offset 16
	popq	%rbp
	.cfi_def_cfa_offset 8
	vzeroupper
	retq
.Lfunc_end18:
	.size	"utf16_transcode::ascii::write_lossy_ascii_blocks::<#8b18edd9dd9aa8df>", .Lfunc_end18-"utf16_transcode::ascii::write_lossy_ascii_blocks::<#8b18edd9dd9aa8df>"
	.cfi_endproc

	.section	".text.utf16_transcode::decode_lossy::write_copied::<#8b18edd9dd9aa8df>","ax",@progbits
	.p2align	4
	.type	"utf16_transcode::decode_lossy::write_copied::<#8b18edd9dd9aa8df>",@function
"utf16_transcode::decode_lossy::write_copied::<#8b18edd9dd9aa8df>":
	.cfi_startproc
	pushq	%r15
	.cfi_def_cfa_offset 16
	pushq	%r14
	.cfi_def_cfa_offset 24
	pushq	%r13
	.cfi_def_cfa_offset 32
	pushq	%r12
	.cfi_def_cfa_offset 40
	pushq	%rbx
	.cfi_def_cfa_offset 48
	subq	$1024, %rsp
	.cfi_def_cfa_offset 1072
	.cfi_offset %rbx, -48
	.cfi_offset %r12, -40
	.cfi_offset %r13, -32
	.cfi_offset %r14, -24
	.cfi_offset %r15, -16
	movq	%rdx, %rbx
	movq	%rdi, %r15
	leaq	-128(%rcx), %rdx
	movabsq	$-6148914691236517205, %rax
	mulxq	%rax, %rax, %rax
	andq	$-2, %rax
	cmpq	%rsi, %rax
	cmovaeq	%rsi, %rax
	cmpq	$1024, %rax
	movl	$1024, %r14d
	cmovbq	%rax, %r14
	movq	%rsp, %rdi
	movl	$1024, %edx
	xorl	%esi, %esi
	callq	memset@PLT
	andq	$2046, %r14
	je	.LBB19_3
	movzbl	-2(%r15,%r14), %eax
	andb	$-4, %al
	cmpb	$-40, %al
	jne	.LBB19_3
	addq	$-2, %r14
.LBB19_3:
	movq	%rsp, %rdi
	movq	%r15, %rsi
	movq	%r14, %rdx
	callq	memcpy@PLT
	movq	%r14, %r15
	andq	$-2, %r15
	je	.LBB19_13
	xorl	%r12d, %r12d
	jmp	.LBB19_5
	.p2align	4
.LBB19_11:
	movw	$-513, (%rsp,%r12)
	movl	$2, %eax
	addq	%rax, %r12
	cmpq	%r15, %r12
	jae	.LBB19_13
.LBB19_5:
	movq	%r15, %rcx
	subq	%r12, %rcx
	cmpq	$2, %rcx
	jb	.LBB19_11
	movbew	(%rsp,%r12), %ax
	movl	%eax, %edx
	andl	$63488, %edx
	movl	$2, %r13d
	cmpl	$55296, %edx
	jne	.LBB19_10
	cmpq	$4, %rcx
	jb	.LBB19_11
	andl	$56320, %eax
	movzwl	%ax, %eax
	cmpl	$56320, %eax
	je	.LBB19_11
	movzbl	2(%rsp,%r12), %eax
	andb	$-4, %al
	movl	$4, %r13d
	cmpb	$-36, %al
	jne	.LBB19_11
	.p2align	4
.LBB19_10:
	leaq	(%r12,%r13), %rax
	leaq	(%rsp,%rax), %rdi
	movq	%r15, %rsi
	subq	%rax, %rsi
	callq	"utf16_transcode::decode::valid_up_to::<#8b18edd9dd9aa8df>"
	addq	%r13, %rax
	addq	%rax, %r12
	cmpq	%r15, %r12
	jb	.LBB19_5
.LBB19_13:
	movq	%rsp, %rdi
	movq	%r14, %rsi
	movq	%rbx, %rdx
	callq	"utf16_to_utf8::write::write_utf8::<#8b18edd9dd9aa8df>"
	movq	%rax, %rdx
	movq	%r14, %rax
	addq	$1024, %rsp
	.cfi_def_cfa_offset 48
	popq	%rbx
	.cfi_def_cfa_offset 40
	popq	%r12
	.cfi_def_cfa_offset 32
	popq	%r13
	.cfi_def_cfa_offset 24
	popq	%r14
	.cfi_def_cfa_offset 16
	popq	%r15
	.cfi_def_cfa_offset 8
	retq
.Lfunc_end19:
	.size	"utf16_transcode::decode_lossy::write_copied::<#8b18edd9dd9aa8df>", .Lfunc_end19-"utf16_transcode::decode_lossy::write_copied::<#8b18edd9dd9aa8df>"
	.cfi_endproc

	.section	.rodata.cst16,"aM",@progbits,16
	.p2align	4, 0x0
.LCPI20_0:
	.short	128
	.short	128
	.short	128
	.short	128
	.short	128
	.short	128
	.short	128
	.short	128
	.section	".text.utf16_streams::lossy::LossyTranscoder::feed_to::<#418c2b53cf60437c>","ax",@progbits
	.p2align	4
	.type	"utf16_streams::lossy::LossyTranscoder::feed_to::<#418c2b53cf60437c>",@function
"utf16_streams::lossy::LossyTranscoder::feed_to::<#418c2b53cf60437c>":
	.cfi_startproc
	pushq	%rbp
	.cfi_def_cfa_offset 16
	pushq	%r15
	.cfi_def_cfa_offset 24
	pushq	%r14
	.cfi_def_cfa_offset 32
	pushq	%r13
	.cfi_def_cfa_offset 40
	pushq	%r12
	.cfi_def_cfa_offset 48
	pushq	%rbx
	.cfi_def_cfa_offset 56
	subq	$168, %rsp
	.cfi_def_cfa_offset 224
	.cfi_offset %rbx, -56
	.cfi_offset %r12, -48
	.cfi_offset %r13, -40
	.cfi_offset %r14, -32
	.cfi_offset %r15, -24
	.cfi_offset %rbp, -16
	movl	$0, 76(%rsp)
	movq	%rdi, 160(%rsp)
	movl	(%rdi), %eax
	movl	%eax, 48(%rsp)
	shrl	$24, %eax
	cmpb	$3, %al
	movl	$3, %r15d
	cmovbl	%eax, %r15d
	movq	%r8, 88(%rsp)
	movq	%rcx, 80(%rsp)
	movq	%rdx, 112(%rsp)
	movq	%rsi, 120(%rsp)
	xorl	%r14d, %r14d
	xorl	%edi, %edi
	movq	%r15, 104(%rsp)
.LBB20_1:
	movq	%rdi, %rax
	subq	%r15, %rax
	movq	%r14, 136(%rsp)
	movq	%rdi, 128(%rsp)
	jae	.LBB20_45
	leaq	(%rsp,%rdi), %rsi
	addq	$48, %rsi
	subq	%rdi, %r15
	movl	$4, %r12d
	subq	%r15, %r12
	movq	112(%rsp), %rax
	cmpq	%rax, %r12
	cmovaeq	%rax, %r12
	movl	$0, 16(%rsp)
	leaq	16(%rsp), %rdi
	movq	%r15, %rdx
	callq	memcpy@PLT
	leaq	(%rsp,%r15), %rdi
	addq	$16, %rdi
	movq	120(%rsp), %rsi
	movq	%r12, %rdx
	callq	memcpy@PLT
	addq	%r15, %r12
	movl	16(%rsp), %eax
	movl	%eax, 52(%rsp)
	movq	80(%rsp), %rax
	addq	%r14, %rax
	movq	%rax, 64(%rsp)
	movq	88(%rsp), %rax
	subq	%r14, %rax
	movq	%rax, 56(%rsp)
	xorl	%r14d, %r14d
	xorl	%ebx, %ebx
	movq	%r12, 40(%rsp)
	jmp	.LBB20_5
	.p2align	4
.LBB20_3:
	movq	%r13, %rdi
	movq	%rbp, %rsi
	movq	%r15, %rdx
	movq	%r12, %rcx
	callq	"utf16_transcode::decode_lossy::write_copied::<#418c2b53cf60437c>"
.LBB20_4:
	movq	40(%rsp), %r12
	addq	%rax, %rbx
	addq	%rdx, %r14
.LBB20_5:
	leaq	(%rsp,%rbx), %r10
	addq	$52, %r10
	movq	%r12, %rdx
	subq	%rbx, %rdx
	movq	64(%rsp), %rax
	leaq	(%rax,%r14), %r13
	movq	56(%rsp), %r11
	vpxor	%xmm0, %xmm0, %xmm0
	vmovdqa	%xmm0, 16(%rsp)
	subq	%r14, %r11
	movq	$0, 32(%rsp)
	leaq	-16(%rdx), %rax
	cmpq	$175, %rax
	ja	.LBB20_13
	movq	%rdx, %rax
	shrq	%rax
	cmpq	%rax, %r11
	cmovbq	%r11, %rax
	cmpq	$8, %rax
	jb	.LBB20_13
	leaq	(%rax,%rax), %rcx
	xorl	%r12d, %r12d
	xorl	%r15d, %r15d
	.p2align	4
.LBB20_8:
	vmovdqu	(%r10,%r15,2), %xmm0
	vpmaxuw	.LCPI20_0(%rip), %xmm0, %xmm1
	vpcmpeqw	%xmm1, %xmm0, %xmm1
	vpmovmskb	%xmm1, %esi
	testl	%esi, %esi
	jne	.LBB20_28
	vpackuswb	%xmm0, %xmm0, %xmm0
	vmovq	%xmm0, (%r13,%r15)
	addq	$8, %r15
	leaq	(%rcx,%r12), %rsi
	addq	$-16, %rsi
	addq	$-16, %r12
	cmpq	$15, %rsi
	ja	.LBB20_8
	negq	%r12
	cmpq	%r12, %rcx
	jbe	.LBB20_14
	vmovdqu	-16(%r10,%rcx), %xmm0
	vpmaxuw	.LCPI20_0(%rip), %xmm0, %xmm1
	vpcmpeqw	%xmm1, %xmm0, %xmm1
	vpmovmskb	%xmm1, %esi
	testl	%esi, %esi
	jne	.LBB20_14
	vpackuswb	%xmm0, %xmm0, %xmm0
	vmovq	%xmm0, -8(%r13,%rax)
	movq	%rax, %r15
	movq	%rcx, %r12
	movq	%rdx, %rax
	subq	%r12, %rax
	cmpq	$15, %rax
	ja	.LBB20_15
	jmp	.LBB20_29
	.p2align	4
.LBB20_13:
	xorl	%r15d, %r15d
	xorl	%r12d, %r12d
.LBB20_14:
	movq	%rdx, %rax
	subq	%r12, %rax
	cmpq	$15, %rax
	jbe	.LBB20_29
.LBB20_15:
	leaq	-8(%rdx), %rax
	cmpq	$183, %rax
	movq	%rbx, 96(%rsp)
	ja	.LBB20_17
	movq	%rdx, %rsi
	subq	%r12, %rsi
	cmpq	$8, %rsi
	jae	.LBB20_18
.LBB20_17:
	movq	%r13, %rbx
	movq	%r11, %r13
	movq	%r10, %rbp
	cmpq	%rdx, %r12
	jne	.LBB20_19
	jmp	.LBB20_39
	.p2align	4
.LBB20_18:
	movq	%r10, %rbp
	leaq	(%r10,%r12), %rdi
	movq	%r13, %rbx
	leaq	(%r15,%r13), %rax
	movq	%r11, %r13
	movq	%r11, %rcx
	subq	%r15, %rcx
	movq	%rdx, 144(%rsp)
	movq	%rax, %rdx
	callq	"utf16_to_utf8::vectors::write_vectors::<#418c2b53cf60437c>"
	movq	%rdx, %rcx
	movq	144(%rsp), %rdx
	addq	%rax, %r12
	addq	%rcx, %r15
	cmpq	%rdx, %r12
	je	.LBB20_39
.LBB20_19:
	movq	%r15, (%rsp)
	leaq	16(%rsp), %rdi
	movq	%rbp, %rsi
	movq	%rbx, %rcx
	movq	%r13, %r8
	movq	%r12, %r9
	callq	"utf16_transcode::transcoding::transcode_many::<#556930da7d070edc>"
	movq	96(%rsp), %rbx
	addq	16(%rsp), %rbx
	movzbl	32(%rsp), %eax
	addq	24(%rsp), %r14
	cmpb	$1, %al
	jne	.LBB20_40
	movq	64(%rsp), %rax
	leaq	(%rax,%r14), %r15
	movq	56(%rsp), %r12
	subq	%r14, %r12
	cmpq	$512, %r12
	jb	.LBB20_23
	leaq	(%rsp,%rbx), %r13
	addq	$52, %r13
	movq	40(%rsp), %rbp
	subq	%rbx, %rbp
	cmpq	$128, %rbp
	jb	.LBB20_3
	movq	%r13, %rdi
	movq	%rbp, %rsi
	movq	%r15, %rdx
	movq	%r12, %rcx
	callq	"utf16_transcode::ascii::write_lossy_ascii_blocks::<#418c2b53cf60437c>"
	cmpq	$127, %rax
	jbe	.LBB20_3
	jmp	.LBB20_4
	.p2align	4
.LBB20_23:
	cmpq	$2, %r12
	jbe	.LBB20_42
	movzbl	33(%rsp), %eax
	leaq	.Lstatic.6(%rip), %rcx
	movq	%r15, %rdx
	subq	%rcx, %rdx
	cmpq	$2, %rdx
	ja	.LBB20_26
	movw	$-16401, (%r15)
	movb	$-67, 2(%r15)
	jmp	.LBB20_27
	.p2align	4
.LBB20_26:
	movb	$-67, 2(%r15)
	movw	$-16401, (%r15)
.LBB20_27:
	movl	$3, %edx
	jmp	.LBB20_4
.LBB20_28:
	negq	%r12
	movq	%rdx, %rax
	subq	%r12, %rax
	cmpq	$15, %rax
	ja	.LBB20_15
	.p2align	4
.LBB20_29:
	cmpq	$2, %rax
	jb	.LBB20_15
	movq	%r11, %rcx
	subq	%r15, %rcx
	movq	%rax, %rsi
	shrq	%rsi
	leaq	(%rsi,%rsi,2), %rsi
	cmpq	%rsi, %rcx
	jb	.LBB20_15
	leaq	53(%rsp), %rcx
	addq	%rbx, %rcx
	jmp	.LBB20_34
	.p2align	4
.LBB20_32:
	movb	%sil, (%r13,%r15)
	incq	%r15
.LBB20_33:
	addq	$2, %r12
	addq	$-2, %rax
	cmpq	$1, %rax
	jbe	.LBB20_15
.LBB20_34:
	movzbl	-1(%rcx,%r12), %esi
	movzbl	(%rcx,%r12), %r8d
	movl	%r8d, %edi
	shll	$8, %edi
	orl	%esi, %edi
	cmpw	$127, %di
	jbe	.LBB20_32
	cmpb	$7, %r8b
	ja	.LBB20_37
	movzwl	%si, %esi
	andl	$63, %esi
	shll	$8, %esi
	movzwl	%di, %edi
	shrl	$6, %edi
	orl	%esi, %edi
	orl	$32960, %edi
	movw	%di, (%r13,%r15)
	addq	$2, %r15
	jmp	.LBB20_33
	.p2align	4
.LBB20_37:
	movzwl	%r8w, %r9d
	andl	$-8, %r9d
	cmpl	$216, %r9d
	je	.LBB20_15
	andb	$63, %sil
	orb	$-128, %sil
	shrl	$6, %edi
	andb	$63, %dil
	orb	$-128, %dil
	shrb	$4, %r8b
	orb	$-32, %r8b
	movb	%r8b, (%r13,%r15)
	movb	%dil, 1(%r13,%r15)
	movb	%sil, 2(%r13,%r15)
	addq	$3, %r15
	jmp	.LBB20_33
	.p2align	4
.LBB20_39:
	addq	%r15, %r14
	xorl	%eax, %eax
	movq	40(%rsp), %rbx
.LBB20_40:
	movq	128(%rsp), %rdi
	addq	%rbx, %rdi
	movq	136(%rsp), %rcx
	addq	%r14, %rcx
	movq	%rcx, %r14
	testq	%rbx, %rbx
	movq	104(%rsp), %r15
	je	.LBB20_89
	cmpb	$3, %al
	jne	.LBB20_1
	jmp	.LBB20_89
.LBB20_42:
	addq	128(%rsp), %rbx
	movq	136(%rsp), %rax
	addq	%r14, %rax
	movq	%rax, %r14
	movq	104(%rsp), %rax
	cmpq	%rbx, %rax
	cmovbq	%rax, %rbx
	leaq	(%rsp,%rbx), %rsi
	addq	$48, %rsi
	subq	%rbx, %rax
	movq	%rax, %rbx
.LBB20_43:
	movb	$0, 18(%rsp)
	movw	$0, 16(%rsp)
	leaq	16(%rsp), %rdi
	movq	%rbx, %rdx
	callq	memcpy@PLT
	movzbl	18(%rsp), %eax
	shll	$16, %eax
	movzwl	16(%rsp), %ecx
	orl	%eax, %ecx
	shll	$24, %ebx
	orl	%ecx, %ebx
.LBB20_44:
	movq	160(%rsp), %rax
	movl	%ebx, (%rax)
	movq	%r14, %rax
	addq	$168, %rsp
	.cfi_def_cfa_offset 56
	popq	%rbx
	.cfi_def_cfa_offset 48
	popq	%r12
	.cfi_def_cfa_offset 40
	popq	%r13
	.cfi_def_cfa_offset 32
	popq	%r14
	.cfi_def_cfa_offset 24
	popq	%r15
	.cfi_def_cfa_offset 16
	popq	%rbp
	.cfi_def_cfa_offset 8
	retq
.LBB20_45:
	.cfi_def_cfa_offset 224
	movq	120(%rsp), %rcx
	leaq	(%rcx,%rax), %rdx
	movq	%rdx, 56(%rsp)
	movq	112(%rsp), %r11
	subq	%rax, %r11
	addq	%r14, 80(%rsp)
	subq	%r14, 88(%rsp)
	subq	%r15, %rcx
	leaq	(%rcx,%rdi), %rax
	incq	%rax
	movq	%rax, 152(%rsp)
	addq	%rdi, %rcx
	movq	%rcx, 144(%rsp)
	xorl	%ebp, %ebp
	xorl	%r14d, %r14d
	movq	%r11, 96(%rsp)
	jmp	.LBB20_49
	.p2align	4
.LBB20_46:
	movb	$-67, 2(%rbx)
	movw	$-16401, (%rbx)
.LBB20_47:
	movl	$3, %edx
.LBB20_48:
	addq	%rax, %r14
	addq	%rdx, %rbp
.LBB20_49:
	movq	56(%rsp), %rax
	leaq	(%rax,%r14), %r10
	movq	%r11, %r15
	subq	%r14, %r15
	movq	80(%rsp), %rax
	leaq	(%rax,%rbp), %r13
	movq	88(%rsp), %rdi
	vpxor	%xmm0, %xmm0, %xmm0
	vmovdqa	%xmm0, 16(%rsp)
	subq	%rbp, %rdi
	movq	$0, 32(%rsp)
	leaq	-16(%r15), %rax
	cmpq	$175, %rax
	ja	.LBB20_57
	movq	%r15, %rax
	shrq	%rax
	cmpq	%rax, %rdi
	cmovbq	%rdi, %rax
	cmpq	$8, %rax
	jb	.LBB20_57
	leaq	(%rax,%rax), %rcx
	movq	144(%rsp), %rdx
	addq	%r14, %rdx
	xorl	%r9d, %r9d
	xorl	%r12d, %r12d
	.p2align	4
.LBB20_52:
	vmovdqu	(%rdx,%r12,2), %xmm0
	vpmaxuw	.LCPI20_0(%rip), %xmm0, %xmm1
	vpcmpeqw	%xmm1, %xmm0, %xmm1
	vpmovmskb	%xmm1, %esi
	testl	%esi, %esi
	jne	.LBB20_83
	vpackuswb	%xmm0, %xmm0, %xmm0
	vmovq	%xmm0, (%r13,%r12)
	addq	$8, %r12
	leaq	(%rcx,%r9), %rsi
	addq	$-16, %rsi
	addq	$-16, %r9
	cmpq	$15, %rsi
	ja	.LBB20_52
	negq	%r9
	cmpq	%r9, %rcx
	jbe	.LBB20_58
	vmovdqu	-16(%r10,%rcx), %xmm0
	vpmaxuw	.LCPI20_0(%rip), %xmm0, %xmm1
	vpcmpeqw	%xmm1, %xmm0, %xmm1
	vpmovmskb	%xmm1, %edx
	testl	%edx, %edx
	jne	.LBB20_58
	vpackuswb	%xmm0, %xmm0, %xmm0
	vmovq	%xmm0, -8(%r13,%rax)
	movq	%rax, %r12
	movq	%rcx, %r9
	jmp	.LBB20_58
	.p2align	4
.LBB20_57:
	xorl	%r12d, %r12d
	xorl	%r9d, %r9d
.LBB20_58:
	movq	%r15, %rax
	subq	%r9, %rax
	cmpq	$15, %rax
	movq	%rdi, 64(%rsp)
	jbe	.LBB20_62
.LBB20_59:
	leaq	-8(%r15), %rax
	cmpq	$183, %rax
	ja	.LBB20_72
	movq	%r15, %rsi
	subq	%r9, %rsi
	cmpq	$8, %rsi
	jae	.LBB20_73
.LBB20_72:
	movq	%r10, %rbx
	cmpq	%r15, %r9
	jne	.LBB20_74
	jmp	.LBB20_84
	.p2align	4
.LBB20_62:
	cmpq	$2, %rax
	jb	.LBB20_59
	movq	%rdi, %rcx
	subq	%r12, %rcx
	movq	%rax, %rdx
	shrq	%rdx
	leaq	(%rdx,%rdx,2), %rdx
	cmpq	%rdx, %rcx
	jb	.LBB20_59
	leaq	(%r9,%r14), %rcx
	addq	152(%rsp), %rcx
	jmp	.LBB20_67
	.p2align	4
.LBB20_65:
	movb	%dl, (%r13,%r12)
	incq	%r12
.LBB20_66:
	addq	$2, %r9
	addq	$-2, %rax
	addq	$2, %rcx
	cmpq	$1, %rax
	jbe	.LBB20_59
.LBB20_67:
	movzbl	-1(%rcx), %edx
	movzbl	(%rcx), %edi
	movl	%edi, %esi
	shll	$8, %esi
	orl	%edx, %esi
	cmpw	$127, %si
	jbe	.LBB20_65
	cmpb	$7, %dil
	ja	.LBB20_70
	movzwl	%dx, %edx
	andl	$63, %edx
	shll	$8, %edx
	movzwl	%si, %esi
	shrl	$6, %esi
	orl	%edx, %esi
	orl	$32960, %esi
	movw	%si, (%r13,%r12)
	addq	$2, %r12
	jmp	.LBB20_66
	.p2align	4
.LBB20_70:
	movzwl	%di, %r8d
	andl	$-8, %r8d
	cmpl	$216, %r8d
	je	.LBB20_59
	andb	$63, %dl
	orb	$-128, %dl
	shrl	$6, %esi
	andb	$63, %sil
	orb	$-128, %sil
	shrb	$4, %dil
	orb	$-32, %dil
	movb	%dil, (%r13,%r12)
	movb	%sil, 1(%r13,%r12)
	movb	%dl, 2(%r13,%r12)
	addq	$3, %r12
	jmp	.LBB20_66
	.p2align	4
.LBB20_73:
	movq	%r10, %rbx
	leaq	(%r10,%r9), %rdi
	leaq	(%r12,%r13), %rdx
	movq	64(%rsp), %rcx
	subq	%r12, %rcx
	movq	%r9, 40(%rsp)
	callq	"utf16_to_utf8::vectors::write_vectors::<#418c2b53cf60437c>"
	movq	40(%rsp), %r9
	movq	96(%rsp), %r11
	addq	%rax, %r9
	addq	%rdx, %r12
	cmpq	%r15, %r9
	je	.LBB20_84
.LBB20_74:
	movq	%r13, %rcx
	movq	%r11, %r13
	movq	%r12, (%rsp)
	leaq	16(%rsp), %rdi
	movq	%rbx, %rsi
	movq	%r15, %rdx
	movq	64(%rsp), %r8
	callq	"utf16_transcode::transcoding::transcode_many::<#556930da7d070edc>"
	addq	16(%rsp), %r14
	movzbl	32(%rsp), %eax
	addq	24(%rsp), %rbp
	cmpb	$1, %al
	jne	.LBB20_87
	movq	80(%rsp), %rax
	leaq	(%rax,%rbp), %rbx
	movq	88(%rsp), %r15
	subq	%rbp, %r15
	cmpq	$512, %r15
	jb	.LBB20_80
	movq	56(%rsp), %rax
	leaq	(%rax,%r14), %r12
	subq	%r14, %r13
	cmpq	$128, %r13
	jb	.LBB20_78
	movq	%r12, %rdi
	movq	%r13, %rsi
	movq	%rbx, %rdx
	movq	%r15, %rcx
	callq	"utf16_transcode::ascii::write_lossy_ascii_blocks::<#418c2b53cf60437c>"
	cmpq	$127, %rax
	ja	.LBB20_79
.LBB20_78:
	movq	%r12, %rdi
	movq	%r13, %rsi
	movq	%rbx, %rdx
	movq	%r15, %rcx
	callq	"utf16_transcode::decode_lossy::write_copied::<#418c2b53cf60437c>"
.LBB20_79:
	movq	96(%rsp), %r11
	jmp	.LBB20_48
	.p2align	4
.LBB20_80:
	cmpq	$3, %r15
	jb	.LBB20_86
	movq	%r13, %r11
	movzbl	33(%rsp), %eax
	leaq	.Lstatic.6(%rip), %rcx
	movq	%rbx, %rdx
	subq	%rcx, %rdx
	cmpq	$2, %rdx
	ja	.LBB20_46
	movw	$-16401, (%rbx)
	movb	$-67, 2(%rbx)
	jmp	.LBB20_47
.LBB20_83:
	negq	%r9
	jmp	.LBB20_58
.LBB20_84:
	addq	%r12, %rbp
	xorl	%eax, %eax
	jmp	.LBB20_88
.LBB20_86:
	movb	$3, %al
.LBB20_87:
	movq	%r14, %r11
.LBB20_88:
	movq	128(%rsp), %rdi
	addq	%r11, %rdi
	movq	136(%rsp), %r14
	addq	%rbp, %r14
	movq	104(%rsp), %r15
.LBB20_89:
	cmpq	%rdi, %r15
	movq	%rdi, %rcx
	cmovbq	%r15, %rcx
	leaq	(%rsp,%rcx), %rsi
	addq	$48, %rsi
	movq	%r15, %rbx
	subq	%rcx, %rbx
	cmpb	$3, %al
	je	.LBB20_43
	xorl	%eax, %eax
	subq	%r15, %rdi
	cmovaeq	%rdi, %rax
	movq	112(%rsp), %rcx
	subq	%rax, %rcx
	movq	120(%rsp), %r12
	addq	%rax, %r12
	movl	$4, %r15d
	subq	%rbx, %r15
	cmpq	%rcx, %r15
	cmovaeq	%rcx, %r15
	movl	$0, 16(%rsp)
	leaq	16(%rsp), %rdi
	movq	%rbx, %rdx
	callq	memcpy@PLT
	leaq	(%rsp,%rbx), %rdi
	addq	$16, %rdi
	movq	%r12, %rsi
	movq	%r15, %rdx
	callq	memcpy@PLT
	addq	%rbx, %r15
	movl	16(%rsp), %eax
	movl	%eax, 76(%rsp)
	movb	$0, 18(%rsp)
	movw	$0, 16(%rsp)
	leaq	16(%rsp), %rdi
	leaq	76(%rsp), %rsi
	movq	%r15, %rdx
	callq	memcpy@PLT
	movzbl	18(%rsp), %eax
	shll	$16, %eax
	movzwl	16(%rsp), %ecx
	orl	%eax, %ecx
	shll	$24, %r15d
	orl	%ecx, %r15d
	movl	%r15d, %ebx
	jmp	.LBB20_44
.Lfunc_end20:
	.size	"utf16_streams::lossy::LossyTranscoder::feed_to::<#418c2b53cf60437c>", .Lfunc_end20-"utf16_streams::lossy::LossyTranscoder::feed_to::<#418c2b53cf60437c>"
	.cfi_endproc

	.section	.rodata.cst16,"aM",@progbits,16
	.p2align	4, 0x0
.LCPI21_0:
	.short	2048
	.short	2048
	.short	2048
	.short	2048
	.short	2048
	.short	2048
	.short	2048
	.short	2048
.LCPI21_1:
	.short	63488
	.short	63488
	.short	63488
	.short	63488
	.short	63488
	.short	63488
	.short	63488
	.short	63488
.LCPI21_2:
	.short	55296
	.short	55296
	.short	55296
	.short	55296
	.short	55296
	.short	55296
	.short	55296
	.short	55296
.LCPI21_3:
	.short	2047
	.short	2047
	.short	2047
	.short	2047
	.short	2047
	.short	2047
	.short	2047
	.short	2047
.LCPI21_4:
	.short	34815
	.short	34815
	.short	34815
	.short	34815
	.short	34815
	.short	34815
	.short	34815
	.short	34815
.LCPI21_5:
	.short	32768
	.short	32768
	.short	32768
	.short	32768
	.short	32768
	.short	32768
	.short	32768
	.short	32768
.LCPI21_6:
	.short	63
	.short	63
	.short	63
	.short	63
	.short	63
	.short	63
	.short	63
	.short	63
.LCPI21_7:
	.short	16128
	.short	16128
	.short	16128
	.short	16128
	.short	16128
	.short	16128
	.short	16128
	.short	16128
.LCPI21_8:
	.zero	16,128
.LCPI21_9:
	.short	224
	.short	224
	.short	224
	.short	224
	.short	224
	.short	224
	.short	224
	.short	224
.LCPI21_10:
	.short	255
	.short	255
	.short	255
	.short	255
	.short	255
	.short	255
	.short	255
	.short	255
.LCPI21_11:
	.short	32992
	.short	32992
	.short	32992
	.short	32992
	.short	32992
	.short	32992
	.short	32992
	.short	32992
.LCPI21_12:
	.byte	128
	.byte	0
	.byte	128
	.byte	0
	.byte	128
	.byte	0
	.byte	128
	.byte	0
	.byte	128
	.byte	0
	.byte	128
	.byte	0
	.byte	128
	.byte	0
	.byte	128
	.byte	0
.LCPI21_13:
	.byte	0
	.byte	1
	.byte	128
	.byte	2
	.byte	3
	.byte	128
	.byte	4
	.byte	5
	.byte	128
	.byte	6
	.byte	7
	.byte	128
	.byte	8
	.byte	9
	.byte	128
	.byte	10
.LCPI21_14:
	.byte	128
	.byte	128
	.byte	0
	.byte	128
	.byte	128
	.byte	2
	.byte	128
	.byte	128
	.byte	4
	.byte	128
	.byte	128
	.byte	6
	.byte	128
	.byte	128
	.byte	8
	.byte	128
.LCPI21_15:
	.byte	6
	.byte	5
	.byte	8
	.byte	10
	.byte	9
	.byte	12
	.byte	14
	.byte	13
	.zero	1
	.zero	1
	.zero	1
	.zero	1
	.zero	1
	.zero	1
	.zero	1
	.zero	1
.LCPI21_16:
	.short	32960
	.short	32960
	.short	32960
	.short	32960
	.short	32960
	.short	32960
	.short	32960
	.short	32960
.LCPI21_17:
	.short	127
	.short	127
	.short	127
	.short	127
	.short	127
	.short	127
	.short	127
	.short	127
.LCPI21_18:
	.byte	1
	.byte	3
	.byte	5
	.byte	7
	.byte	9
	.byte	11
	.byte	13
	.byte	15
	.byte	1
	.byte	3
	.byte	5
	.byte	7
	.byte	9
	.byte	11
	.byte	13
	.byte	15
.LCPI21_19:
	.byte	252
	.byte	252
	.byte	252
	.byte	252
	.byte	252
	.byte	252
	.byte	252
	.byte	252
	.zero	1
	.zero	1
	.zero	1
	.zero	1
	.zero	1
	.zero	1
	.zero	1
	.zero	1
.LCPI21_20:
	.byte	216
	.byte	216
	.byte	216
	.byte	216
	.byte	216
	.byte	216
	.byte	216
	.byte	216
	.zero	1
	.zero	1
	.zero	1
	.zero	1
	.zero	1
	.zero	1
	.zero	1
	.zero	1
.LCPI21_21:
	.zero	16,220
.LCPI21_22:
	.short	10240
	.short	10240
	.short	10240
	.short	10240
	.short	10240
	.short	10240
	.short	10240
	.short	10240
.LCPI21_23:
	.short	4095
	.short	4095
	.short	4095
	.short	4095
	.short	4095
	.short	4095
	.short	4095
	.short	4095
.LCPI21_24:
	.short	8192
	.short	8192
	.short	8192
	.short	8192
	.short	8192
	.short	8192
	.short	8192
	.short	8192
.LCPI21_25:
	.short	9216
	.short	9216
	.short	9216
	.short	9216
	.short	9216
	.short	9216
	.short	9216
	.short	9216
.LCPI21_26:
	.short	752
	.short	752
	.short	752
	.short	752
	.short	752
	.short	752
	.short	752
	.short	752
.LCPI21_27:
	.short	3072
	.short	3072
	.short	3072
	.short	3072
	.short	3072
	.short	3072
	.short	3072
	.short	3072
.LCPI21_28:
	.short	17408
	.short	17408
	.short	17408
	.short	17408
	.short	17408
	.short	17408
	.short	17408
	.short	17408
.LCPI21_29:
	.short	12288
	.short	12288
	.short	12288
	.short	12288
	.short	12288
	.short	12288
	.short	12288
	.short	12288
	.section	.rodata.cst4,"aM",@progbits,4
	.p2align	2, 0x0
.LCPI21_30:
	.short	34815
	.short	34815
.LCPI21_31:
	.short	32768
	.short	32768
.LCPI21_32:
	.short	255
	.short	255
	.section	".text.utf16_to_utf8::vectors::write_vectors::<#418c2b53cf60437c>","ax",@progbits
	.p2align	4
	.type	"utf16_to_utf8::vectors::write_vectors::<#418c2b53cf60437c>",@function
"utf16_to_utf8::vectors::write_vectors::<#418c2b53cf60437c>":
	.cfi_startproc
	pushq	%rbp
	.cfi_def_cfa_offset 16
	pushq	%r15
	.cfi_def_cfa_offset 24
	pushq	%r14
	.cfi_def_cfa_offset 32
	pushq	%r12
	.cfi_def_cfa_offset 40
	pushq	%rbx
	.cfi_def_cfa_offset 48
	.cfi_offset %rbx, -48
	.cfi_offset %r12, -40
	.cfi_offset %r14, -32
	.cfi_offset %r15, -24
	.cfi_offset %rbp, -16
	movq	%rdx, %r8
	movq	%rsi, %rax
	movq	%rsi, %rdx
	shrq	%rdx
	leaq	(%rdx,%rdx,2), %rsi
	addq	$128, %rsi
	cmpq	%rcx, %rsi
	cmovbq	%rsi, %rcx
	cmpq	$16, %rax
	setae	%bl
	setb	%sil
	cmpq	$32, %rcx
	setb	%r9b
	orb	%sil, %r9b
	jne	.LBB21_1
	vpxor	%xmm1, %xmm1, %xmm1
	xorl	%r11d, %r11d
	movq	%rax, %r10
	xorl	%esi, %esi
	xorl	%r9d, %r9d
	.p2align	4
.LBB21_3:
	vmovdqu	(%rdi,%r9), %xmm0
	testb	$1, %r11b
	jne	.LBB21_13
	vpmaxuw	.LCPI21_0(%rip), %xmm0, %xmm2
	vpcmpeqw	%xmm2, %xmm0, %xmm2
	vpmovmskb	%xmm2, %ebx
	testl	%ebx, %ebx
	je	.LBB21_9
	vpand	.LCPI21_1(%rip), %xmm0, %xmm2
	vpcmpeqw	.LCPI21_2(%rip), %xmm2, %xmm2
	vpmovmskb	%xmm2, %ebx
	testl	%ebx, %ebx
	je	.LBB21_6
.LBB21_13:
	vpshufb	.LCPI21_18(%rip), %xmm0, %xmm2
	vpand	.LCPI21_19(%rip), %xmm2, %xmm2
	vpcmpeqb	.LCPI21_20(%rip), %xmm2, %xmm3
	vpmovzxbw	%xmm3, %ymm3
	vextracti128	$1, %ymm3, %xmm4
	vpackuswb	%xmm4, %xmm3, %xmm3
	vpmovmskb	%xmm3, %ebx
	vpcmpeqb	.LCPI21_21(%rip), %xmm2, %xmm2
	vpmovmskb	%xmm2, %ebp
	movzbl	%bpl, %r14d
	leal	(%rbx,%rbx), %ebp
	movzbl	%bpl, %r15d
	orq	%r11, %r15
	cmpq	%r14, %r15
	jne	.LBB21_14
	vpaddw	.LCPI21_22(%rip), %xmm0, %xmm2
	vpminuw	%xmm2, %xmm0, %xmm2
	vpmaxuw	.LCPI21_0(%rip), %xmm2, %xmm3
	vpcmpeqw	%xmm3, %xmm2, %xmm2
	vpmovmskb	%xmm2, %r11d
	vpalignr	$14, %xmm1, %xmm0, %xmm1
	vpsllw	$10, %xmm1, %xmm1
	testl	%r11d, %r11d
	je	.LBB21_16
	vpbroadcastd	.LCPI21_30(%rip), %xmm2
	vpsubusw	%xmm0, %xmm2, %xmm2
	vpbroadcastd	.LCPI21_31(%rip), %xmm3
	vpand	%xmm3, %xmm2, %xmm2
	vpand	.LCPI21_23(%rip), %xmm0, %xmm4
	vpsrlw	$3, %xmm2, %xmm5
	vpor	%xmm5, %xmm4, %xmm4
	vpor	.LCPI21_24(%rip), %xmm4, %xmm4
	vpaddw	.LCPI21_25(%rip), %xmm0, %xmm5
	vpsrlw	$2, %xmm5, %xmm5
	vpsubusw	.LCPI21_26(%rip), %xmm5, %xmm5
	vpand	.LCPI21_27(%rip), %xmm1, %xmm1
	vpaddw	%xmm1, %xmm0, %xmm1
	vpaddw	.LCPI21_28(%rip), %xmm1, %xmm1
	vpmaxuw	%xmm1, %xmm5, %xmm1
	vpand	.LCPI21_1(%rip), %xmm0, %xmm5
	vpcmpeqw	.LCPI21_2(%rip), %xmm5, %xmm5
	vpblendvb	%xmm5, %xmm1, %xmm4, %xmm1
	vpsrlw	$6, %xmm1, %xmm4
	vpsllw	$8, %xmm1, %xmm1
	vpand	.LCPI21_7(%rip), %xmm1, %xmm1
	vpaddw	%xmm4, %xmm1, %xmm1
	vpsllw	$8, %xmm0, %xmm4
	vpsrlw	$12, %xmm0, %xmm6
	vpor	%xmm4, %xmm6, %xmm4
	vpor	.LCPI21_9(%rip), %xmm4, %xmm4
	vpor	%xmm3, %xmm1, %xmm1
	vpbroadcastd	.LCPI21_32(%rip), %xmm6
	vpblendvb	%xmm5, %xmm3, %xmm2, %xmm2
	vpsubusw	%xmm0, %xmm6, %xmm3
	vpor	%xmm3, %xmm2, %xmm2
	vpmovmskb	%xmm2, %r11d
	vpunpcklwd	%xmm1, %xmm4, %xmm2
	movzbl	%r11b, %r14d
	xorl	%r15d, %r15d
	popcntl	%r14d, %r15d
	shll	$4, %r14d
	leaq	.Lstatic.9(%rip), %r12
	vpshufb	(%r14,%r12), %xmm2, %xmm2
	vmovdqu	%xmm2, (%r8,%rsi)
	subq	%r15, %rsi
	vpunpckhwd	%xmm1, %xmm4, %xmm1
	shrl	$8, %r11d
	xorl	%r14d, %r14d
	popcntl	%r11d, %r14d
	shll	$4, %r11d
	vpshufb	(%r11,%r12), %xmm1, %xmm1
	vmovdqu	%xmm1, 12(%r8,%rsi)
	subq	%r14, %rsi
	addq	$24, %rsi
	jmp	.LBB21_18
	.p2align	4
.LBB21_16:
	vpaddw	.LCPI21_29(%rip), %xmm0, %xmm2
	vpaddw	.LCPI21_25(%rip), %xmm0, %xmm3
	vpsrlw	$2, %xmm3, %xmm3
	vpsubusw	.LCPI21_26(%rip), %xmm3, %xmm3
	vpand	.LCPI21_27(%rip), %xmm1, %xmm1
	vpaddw	%xmm1, %xmm0, %xmm1
	vpaddw	.LCPI21_28(%rip), %xmm1, %xmm1
	vpmaxuw	%xmm1, %xmm3, %xmm1
	vpxor	%xmm3, %xmm3, %xmm3
	vpcmpgtw	%xmm0, %xmm3, %xmm3
	vpblendvb	%xmm3, %xmm1, %xmm2, %xmm1
	vpsrlw	$6, %xmm1, %xmm2
	vpsllw	$8, %xmm1, %xmm1
	vpand	.LCPI21_7(%rip), %xmm1, %xmm1
	vpaddw	%xmm2, %xmm1, %xmm1
	vpor	.LCPI21_5(%rip), %xmm1, %xmm1
	vpminuw	.LCPI21_17(%rip), %xmm0, %xmm2
	vpcmpeqw	%xmm2, %xmm0, %xmm2
	vpblendvb	%xmm2, %xmm0, %xmm1, %xmm1
	vpacksswb	%xmm2, %xmm2, %xmm2
	vpmovmskb	%xmm2, %r11d
	movzbl	%r11b, %r11d
	xorl	%r14d, %r14d
	popcntl	%r11d, %r14d
	shll	$4, %r11d
	leaq	.Lstatic.8(%rip), %r15
	vpshufb	(%r11,%r15), %xmm1, %xmm1
	vmovdqu	%xmm1, (%r8,%rsi)
	subq	%r14, %rsi
	addq	$16, %rsi
.LBB21_18:
	shrb	$7, %bl
	movzbl	%bl, %r11d
.LBB21_19:
	addq	$16, %r9
	addq	$-16, %r10
	cmpq	$16, %r10
	setae	%bl
	jb	.LBB21_21
	movq	%rcx, %r14
	subq	%rsi, %r14
	vmovdqa	%xmm0, %xmm1
	cmpq	$31, %r14
	ja	.LBB21_3
	jmp	.LBB21_21
.LBB21_9:
	vpmaxuw	.LCPI21_12(%rip), %xmm0, %xmm1
	vpcmpeqw	%xmm1, %xmm0, %xmm1
	vpmovmskb	%xmm1, %r11d
	testl	%r11d, %r11d
	je	.LBB21_10
	vpsllw	$8, %xmm0, %xmm1
	vpand	.LCPI21_7(%rip), %xmm1, %xmm1
	vpsrlw	$6, %xmm0, %xmm2
	vpaddw	%xmm1, %xmm2, %xmm1
	vpaddw	.LCPI21_16(%rip), %xmm1, %xmm1
	vpminuw	.LCPI21_17(%rip), %xmm0, %xmm2
	vpcmpeqw	%xmm2, %xmm0, %xmm2
	vpblendvb	%xmm2, %xmm0, %xmm1, %xmm1
	vpacksswb	%xmm2, %xmm2, %xmm2
	vpmovmskb	%xmm2, %r11d
	movzbl	%r11b, %r11d
	xorl	%ebx, %ebx
	popcntl	%r11d, %ebx
	shll	$4, %r11d
	leaq	.Lstatic.8(%rip), %r14
	vpshufb	(%r11,%r14), %xmm1, %xmm1
	vmovdqu	%xmm1, (%r8,%rsi)
	subq	%rbx, %rsi
	addq	$16, %rsi
	xorl	%r11d, %r11d
	jmp	.LBB21_19
.LBB21_6:
	vpminuw	.LCPI21_3(%rip), %xmm0, %xmm1
	vpcmpeqw	%xmm1, %xmm0, %xmm1
	vpmovmskb	%xmm1, %r11d
	vpsrlw	$12, %xmm0, %xmm1
	testl	%r11d, %r11d
	je	.LBB21_7
	vpbroadcastd	.LCPI21_30(%rip), %xmm2
	vpsubusw	%xmm0, %xmm2, %xmm2
	vpand	.LCPI21_5(%rip), %xmm2, %xmm2
	vpsrlw	$6, %xmm0, %xmm3
	vpand	.LCPI21_6(%rip), %xmm3, %xmm3
	vpsrlw	$9, %xmm2, %xmm4
	vpsllw	$8, %xmm0, %xmm5
	vpand	.LCPI21_7(%rip), %xmm5, %xmm6
	vpor	%xmm3, %xmm6, %xmm3
	vpor	%xmm4, %xmm3, %xmm3
	vpor	.LCPI21_8(%rip), %xmm3, %xmm3
	vpor	%xmm5, %xmm1, %xmm1
	vpor	.LCPI21_9(%rip), %xmm1, %xmm1
	vpbroadcastd	.LCPI21_32(%rip), %xmm4
	vpsubusw	%xmm0, %xmm4, %xmm4
	vpor	%xmm4, %xmm2, %xmm2
	vpmovmskb	%xmm2, %r11d
	vpunpcklwd	%xmm3, %xmm1, %xmm2
	movzbl	%r11b, %ebx
	xorl	%r14d, %r14d
	popcntl	%ebx, %r14d
	shll	$4, %ebx
	leaq	.Lstatic.9(%rip), %r15
	vpshufb	(%rbx,%r15), %xmm2, %xmm2
	vmovdqu	%xmm2, (%r8,%rsi)
	subq	%r14, %rsi
	vpunpckhwd	%xmm3, %xmm1, %xmm1
	shrl	$8, %r11d
	xorl	%ebx, %ebx
	popcntl	%r11d, %ebx
	shll	$4, %r11d
	vpshufb	(%r11,%r15), %xmm1, %xmm1
	vmovdqu	%xmm1, 12(%r8,%rsi)
	subq	%rbx, %rsi
	jmp	.LBB21_8
.LBB21_10:
	vpackuswb	%xmm0, %xmm0, %xmm1
	vmovq	%xmm1, (%r8,%rsi)
	addq	$8, %rsi
	xorl	%r11d, %r11d
	jmp	.LBB21_19
.LBB21_7:
	vpsllw	$2, %xmm0, %xmm2
	vpand	.LCPI21_7(%rip), %xmm2, %xmm2
	vpor	%xmm2, %xmm1, %xmm1
	vpor	.LCPI21_11(%rip), %xmm1, %xmm1
	vpand	.LCPI21_6(%rip), %xmm0, %xmm2
	vpor	.LCPI21_12(%rip), %xmm2, %xmm2
	vpshufb	.LCPI21_13(%rip), %xmm1, %xmm3
	vpshufb	.LCPI21_14(%rip), %xmm2, %xmm4
	vpor	%xmm4, %xmm3, %xmm3
	vmovdqu	%xmm3, (%r8,%rsi)
	vpunpckhbw	%xmm2, %xmm1, %xmm1
	vpshufb	.LCPI21_15(%rip), %xmm1, %xmm1
	vmovq	%xmm1, 16(%r8,%rsi)
.LBB21_8:
	addq	$24, %rsi
	xorl	%r11d, %r11d
	jmp	.LBB21_19
.LBB21_1:
	vpxor	%xmm0, %xmm0, %xmm0
	xorl	%r9d, %r9d
	xorl	%esi, %esi
	xorl	%r11d, %r11d
	movq	%rax, %r10
.LBB21_21:
	testb	$1, %al
	jne	.LBB21_44
.LBB21_22:
	cmpq	%r9, %rax
	je	.LBB21_44
	testb	%bl, %bl
	jne	.LBB21_44
	subq	%rsi, %rcx
	cmpq	$32, %rcx
	jb	.LBB21_44
	cmpq	$15, %rax
	ja	.LBB21_27
	leaq	-8(%rax), %rcx
	vmovq	-8(%rdi,%rax), %xmm1
	vmovq	(%rdi), %xmm2
	vpunpcklqdq	%xmm1, %xmm2, %xmm1
	shlq	$4, %rcx
	leaq	.Lstatic.10(%rip), %rdi
	vmovq	(%rcx,%rdi), %xmm3
	vpshufb	%xmm3, %xmm1, %xmm1
	vpunpcklqdq	%xmm1, %xmm2, %xmm1
	jmp	.LBB21_28
.LBB21_27:
	vmovdqu	-16(%rdi,%rax), %xmm1
	shlq	$4, %r10
	leaq	.Lstatic.10(%rip), %rcx
	vpshufb	(%r10,%rcx), %xmm1, %xmm1
.LBB21_28:
	vpshufb	.LCPI21_18(%rip), %xmm1, %xmm2
	vpand	.LCPI21_19(%rip), %xmm2, %xmm2
	vpcmpeqb	.LCPI21_20(%rip), %xmm2, %xmm3
	vpmovmskb	%xmm3, %ecx
	vpcmpeqb	.LCPI21_21(%rip), %xmm2, %xmm2
	vpmovmskb	%xmm2, %edi
	movzbl	%dil, %edi
	addl	%ecx, %ecx
	movzbl	%cl, %ecx
	orq	%r11, %rcx
	cmpq	%rdi, %rcx
	jne	.LBB21_44
	vpmaxuw	.LCPI21_0(%rip), %xmm1, %xmm2
	vpcmpeqw	%xmm2, %xmm1, %xmm2
	vpmovmskb	%xmm2, %ecx
	testl	%ecx, %ecx
	je	.LBB21_34
	vpand	.LCPI21_1(%rip), %xmm1, %xmm2
	vpcmpeqw	.LCPI21_2(%rip), %xmm2, %xmm2
	vpmovmskb	%xmm2, %ecx
	testl	%ecx, %ecx
	je	.LBB21_38
	vpaddw	.LCPI21_22(%rip), %xmm1, %xmm3
	vpminuw	%xmm3, %xmm1, %xmm3
	vpmaxuw	.LCPI21_0(%rip), %xmm3, %xmm4
	vpcmpeqw	%xmm4, %xmm3, %xmm3
	vpmovmskb	%xmm3, %ecx
	vpalignr	$14, %xmm0, %xmm1, %xmm0
	testl	%ecx, %ecx
	je	.LBB21_32
	vpbroadcastd	.LCPI21_30(%rip), %xmm3
	vpsubusw	%xmm1, %xmm3, %xmm3
	vpbroadcastd	.LCPI21_31(%rip), %xmm4
	vpand	%xmm4, %xmm3, %xmm3
	vpsrlw	$3, %xmm3, %xmm5
	vpand	.LCPI21_23(%rip), %xmm1, %xmm6
	vpor	%xmm5, %xmm6, %xmm5
	vpor	.LCPI21_24(%rip), %xmm5, %xmm5
	vpaddw	.LCPI21_25(%rip), %xmm1, %xmm6
	vpsrlw	$2, %xmm6, %xmm6
	vpsubusw	.LCPI21_26(%rip), %xmm6, %xmm6
	vpsllw	$10, %xmm0, %xmm0
	vpand	.LCPI21_27(%rip), %xmm0, %xmm0
	vpaddw	%xmm0, %xmm1, %xmm0
	vpaddw	.LCPI21_28(%rip), %xmm0, %xmm0
	vpmaxuw	%xmm0, %xmm6, %xmm0
	vpblendvb	%xmm2, %xmm0, %xmm5, %xmm0
	vpsrlw	$6, %xmm0, %xmm5
	vpsllw	$8, %xmm0, %xmm0
	vpand	.LCPI21_7(%rip), %xmm0, %xmm0
	vpaddw	%xmm5, %xmm0, %xmm0
	vpsllw	$8, %xmm1, %xmm5
	vpsrlw	$12, %xmm1, %xmm6
	vpor	%xmm5, %xmm6, %xmm5
	vpor	.LCPI21_9(%rip), %xmm5, %xmm5
	vpor	%xmm4, %xmm0, %xmm0
	vpbroadcastd	.LCPI21_32(%rip), %xmm6
	vpblendvb	%xmm2, %xmm4, %xmm3, %xmm2
	vpsubusw	%xmm1, %xmm6, %xmm1
	vpor	%xmm1, %xmm2, %xmm1
	vpmovmskb	%xmm1, %ecx
	vpunpcklwd	%xmm0, %xmm5, %xmm1
	movzbl	%cl, %edi
	popcntl	%edi, %r9d
	shll	$4, %edi
	leaq	.Lstatic.9(%rip), %r10
	vpshufb	(%rdi,%r10), %xmm1, %xmm1
	vmovdqu	%xmm1, (%r8,%rsi)
	subq	%r9, %rsi
	vpunpckhwd	%xmm0, %xmm5, %xmm0
	jmp	.LBB21_41
.LBB21_14:
	movb	$1, %bl
	vmovdqa	%xmm1, %xmm0
	testb	$1, %al
	je	.LBB21_22
.LBB21_44:
	leaq	-2(%r9), %rax
	leaq	-2(%rsi), %rdx
	testb	$1, %r11b
	cmoveq	%rsi, %rdx
	cmoveq	%r9, %rax
	jmp	.LBB21_45
.LBB21_34:
	vpmaxuw	.LCPI21_12(%rip), %xmm1, %xmm0
	vpcmpeqw	%xmm0, %xmm1, %xmm0
	vpmovmskb	%xmm0, %ecx
	testl	%ecx, %ecx
	je	.LBB21_35
	vpsrlw	$6, %xmm1, %xmm0
	vpsllw	$8, %xmm1, %xmm2
	vpand	.LCPI21_7(%rip), %xmm2, %xmm2
	vpaddw	%xmm2, %xmm0, %xmm0
	vpaddw	.LCPI21_16(%rip), %xmm0, %xmm0
	jmp	.LBB21_37
.LBB21_38:
	vpminuw	.LCPI21_3(%rip), %xmm1, %xmm0
	vpcmpeqw	%xmm0, %xmm1, %xmm0
	vpmovmskb	%xmm0, %ecx
	testl	%ecx, %ecx
	je	.LBB21_39
	vpbroadcastd	.LCPI21_30(%rip), %xmm0
	vpsubusw	%xmm1, %xmm0, %xmm0
	vpand	.LCPI21_5(%rip), %xmm0, %xmm0
	vpsrlw	$9, %xmm0, %xmm2
	vpsrlw	$6, %xmm1, %xmm3
	vpand	.LCPI21_6(%rip), %xmm3, %xmm3
	vpsllw	$8, %xmm1, %xmm4
	vpand	.LCPI21_7(%rip), %xmm4, %xmm5
	vpor	%xmm5, %xmm3, %xmm3
	vpor	%xmm2, %xmm3, %xmm2
	vpor	.LCPI21_8(%rip), %xmm2, %xmm2
	vpsrlw	$12, %xmm1, %xmm3
	vpor	%xmm4, %xmm3, %xmm3
	vpor	.LCPI21_9(%rip), %xmm3, %xmm3
	vpbroadcastd	.LCPI21_32(%rip), %xmm4
	vpsubusw	%xmm1, %xmm4, %xmm1
	vpor	%xmm1, %xmm0, %xmm0
	vpmovmskb	%xmm0, %ecx
	vpunpcklwd	%xmm2, %xmm3, %xmm0
	movzbl	%cl, %edi
	popcntl	%edi, %r9d
	shll	$4, %edi
	leaq	.Lstatic.9(%rip), %r10
	vpshufb	(%rdi,%r10), %xmm0, %xmm0
	vmovdqu	%xmm0, (%r8,%rsi)
	subq	%r9, %rsi
	vpunpckhwd	%xmm2, %xmm3, %xmm0
.LBB21_41:
	shrl	$8, %ecx
	xorl	%edi, %edi
	popcntl	%ecx, %edi
	shll	$4, %ecx
	vpshufb	(%rcx,%r10), %xmm0, %xmm0
	vmovdqu	%xmm0, 12(%r8,%rsi)
	subq	%rdi, %rsi
.LBB21_42:
	addq	$24, %rsi
	jmp	.LBB21_43
.LBB21_32:
	vpaddw	.LCPI21_29(%rip), %xmm1, %xmm2
	vpaddw	.LCPI21_25(%rip), %xmm1, %xmm3
	vpsrlw	$2, %xmm3, %xmm3
	vpsubusw	.LCPI21_26(%rip), %xmm3, %xmm3
	vpsllw	$10, %xmm0, %xmm0
	vpand	.LCPI21_27(%rip), %xmm0, %xmm0
	vpaddw	%xmm0, %xmm1, %xmm0
	vpaddw	.LCPI21_28(%rip), %xmm0, %xmm0
	vpmaxuw	%xmm0, %xmm3, %xmm0
	vpxor	%xmm3, %xmm3, %xmm3
	vpcmpgtw	%xmm1, %xmm3, %xmm3
	vpblendvb	%xmm3, %xmm0, %xmm2, %xmm0
	vpsrlw	$6, %xmm0, %xmm2
	vpsllw	$8, %xmm0, %xmm0
	vpand	.LCPI21_7(%rip), %xmm0, %xmm0
	vpaddw	%xmm2, %xmm0, %xmm0
	vpor	.LCPI21_5(%rip), %xmm0, %xmm0
.LBB21_37:
	vpminuw	.LCPI21_17(%rip), %xmm1, %xmm2
	vpcmpeqw	%xmm2, %xmm1, %xmm2
	vpblendvb	%xmm2, %xmm1, %xmm0, %xmm0
	vpacksswb	%xmm2, %xmm2, %xmm1
	vpmovmskb	%xmm1, %ecx
	movzbl	%cl, %ecx
	xorl	%edi, %edi
	popcntl	%ecx, %edi
	shll	$4, %ecx
	leaq	.Lstatic.8(%rip), %r9
	vpshufb	(%rcx,%r9), %xmm0, %xmm0
	vmovdqu	%xmm0, (%r8,%rsi)
	subq	%rdi, %rsi
	addq	$16, %rsi
	jmp	.LBB21_43
.LBB21_35:
	vpackuswb	%xmm1, %xmm1, %xmm0
	vmovq	%xmm0, (%r8,%rsi)
	addq	$8, %rsi
.LBB21_43:
	orq	$-8, %rdx
	addq	%rsi, %rdx
.LBB21_45:
	popq	%rbx
	.cfi_def_cfa_offset 40
	popq	%r12
	.cfi_def_cfa_offset 32
	popq	%r14
	.cfi_def_cfa_offset 24
	popq	%r15
	.cfi_def_cfa_offset 16
	popq	%rbp
	.cfi_def_cfa_offset 8
	vzeroupper
	retq
.LBB21_39:
	.cfi_def_cfa_offset 48
	vpsllw	$2, %xmm1, %xmm0
	vpand	.LCPI21_7(%rip), %xmm0, %xmm0
	vpsrlw	$12, %xmm1, %xmm2
	vpor	%xmm0, %xmm2, %xmm0
	vpor	.LCPI21_11(%rip), %xmm0, %xmm0
	vpand	.LCPI21_6(%rip), %xmm1, %xmm1
	vpor	.LCPI21_12(%rip), %xmm1, %xmm1
	vpshufb	.LCPI21_13(%rip), %xmm0, %xmm2
	vpshufb	.LCPI21_14(%rip), %xmm1, %xmm3
	vpor	%xmm3, %xmm2, %xmm2
	vmovdqu	%xmm2, (%r8,%rsi)
	vpunpckhbw	%xmm1, %xmm0, %xmm0
	vpshufb	.LCPI21_15(%rip), %xmm0, %xmm0
	vmovq	%xmm0, 16(%r8,%rsi)
	jmp	.LBB21_42
.Lfunc_end21:
	.size	"utf16_to_utf8::vectors::write_vectors::<#418c2b53cf60437c>", .Lfunc_end21-"utf16_to_utf8::vectors::write_vectors::<#418c2b53cf60437c>"
	.cfi_endproc

	.section	.rodata.cst16,"aM",@progbits,16
	.p2align	4, 0x0
.LCPI22_0:
	.short	128
	.short	128
	.short	128
	.short	128
	.short	128
	.short	128
	.short	128
	.short	128
.LCPI22_3:
	.zero	16,191
.LCPI22_4:
	.zero	16,240
	.section	.rodata.cst32,"aM",@progbits,32
	.p2align	5, 0x0
.LCPI22_1:
	.zero	32,191
.LCPI22_2:
	.zero	32,240
	.section	.rodata.cst4,"aM",@progbits,4
	.p2align	2, 0x0
.LCPI22_5:
	.zero	4,191
.LCPI22_6:
	.zero	4,240
	.section	".text.utf16_transcode::transcoding::transcode_many::<#556930da7d070edc>","ax",@progbits
	.p2align	4
	.type	"utf16_transcode::transcoding::transcode_many::<#556930da7d070edc>",@function
"utf16_transcode::transcoding::transcode_many::<#556930da7d070edc>":
	.cfi_startproc
	pushq	%rbp
	.cfi_def_cfa_offset 16
	pushq	%r15
	.cfi_def_cfa_offset 24
	pushq	%r14
	.cfi_def_cfa_offset 32
	pushq	%r13
	.cfi_def_cfa_offset 40
	pushq	%r12
	.cfi_def_cfa_offset 48
	pushq	%rbx
	.cfi_def_cfa_offset 56
	subq	$392, %rsp
	.cfi_def_cfa_offset 448
	.cfi_offset %rbx, -56
	.cfi_offset %r12, -48
	.cfi_offset %r13, -40
	.cfi_offset %r14, -32
	.cfi_offset %r15, -24
	.cfi_offset %rbp, -16
	movq	%r9, %rbp
	movq	%rdx, %rbx
	movq	448(%rsp), %r9
	subq	%rbp, %rdx
	cmpq	$2, %rdx
	jae	.LBB22_3
.LBB22_1:
	movb	$2, %al
	xorl	%ecx, %ecx
.LBB22_2:
	movq	%rbp, (%rdi)
	movq	%r9, 8(%rdi)
	movb	%al, 16(%rdi)
	movb	%cl, 17(%rdi)
	jmp	.LBB22_101
.LBB22_3:
	movq	%r8, %r14
	movq	%rcx, %r13
	movq	%rsi, %r12
	movzbl	1(%rsi,%rbp), %eax
	movl	%eax, %ecx
	andl	$-8, %ecx
	cmpl	$216, %ecx
	jne	.LBB22_7
	movzwl	%ax, %esi
	notl	%esi
	movb	$2, %cl
	movb	$1, %al
	testb	$-36, %sil
	je	.LBB22_2
	cmpq	$4, %rdx
	jb	.LBB22_1
	movzbl	3(%r12,%rbp), %edx
	andb	$-4, %dl
	movb	$2, %cl
	cmpb	$-36, %dl
	jne	.LBB22_2
.LBB22_7:
	movq	%rdi, 32(%rsp)
	cmpq	%rbp, %rbx
	movq	%rbx, 40(%rsp)
	movq	%r13, 8(%rsp)
	movq	%r14, 56(%rsp)
	movq	%r12, 24(%rsp)
	ja	.LBB22_11
.LBB22_8:
	movq	32(%rsp), %rax
	movq	%rbp, (%rax)
	movq	%r9, 8(%rax)
	movw	$0, 16(%rax)
	jmp	.LBB22_101
	.p2align	4
.LBB22_9:
	movb	%al, (%r13,%r9)
	incq	%r9
.LBB22_10:
	addq	%r15, %rbp
	cmpq	%rbx, %rbp
	jae	.LBB22_8
.LBB22_11:
	addq	%rbp, %r12
	movq	%rbx, %r15
	subq	%rbp, %r15
	cmpq	$66, %r15
	jb	.LBB22_20
	leaq	(%r9,%r13), %rbx
	movq	%r9, 16(%rsp)
	subq	%r9, %r14
	vpxor	%xmm0, %xmm0, %xmm0
	vmovdqu	%ymm0, 112(%rsp)
	movq	$0, 144(%rsp)
	movq	%r15, %rax
	shrq	%rax
	leaq	(%rax,%rax,2), %r8
	addq	$128, %r8
	cmpq	%r14, %r8
	cmovaeq	%r14, %r8
	leaq	112(%rsp), %rdi
	movq	%r12, %rsi
	movq	%r15, %rdx
	movq	%rbx, %rcx
	vzeroupper
	callq	"utf16_to_utf8::runs::write_paired::<#418c2b53cf60437c>"
	movq	112(%rsp), %rcx
	movq	120(%rsp), %rsi
	leaq	-2(%rcx), %rdx
	leaq	-2(%rsi), %rax
	testb	$1, 144(%rsp)
	cmoveq	%rsi, %rax
	cmoveq	%rcx, %rdx
	movq	%r15, %rcx
	subq	%rdx, %rcx
	shrq	%rcx
	subq	%rax, %r14
	cmpq	%rcx, %r14
	cmovaeq	%rcx, %r14
	movq	%rax, %rcx
	movq	%rdx, %r13
	cmpq	$8, %r14
	jb	.LBB22_16
	leaq	(%r14,%r14), %rsi
	movq	%rdx, %r13
	movq	%rax, %rcx
	.p2align	4
.LBB22_14:
	vmovdqu	(%r12,%r13), %xmm0
	vpmaxuw	.LCPI22_0(%rip), %xmm0, %xmm1
	vpcmpeqw	%xmm1, %xmm0, %xmm1
	vpmovmskb	%xmm1, %edi
	testl	%edi, %edi
	jne	.LBB22_33
	vpackuswb	%xmm0, %xmm0, %xmm0
	vmovq	%xmm0, (%rbx,%rcx)
	addq	$16, %r13
	addq	$8, %rcx
	addq	$-16, %rsi
	cmpq	$15, %rsi
	ja	.LBB22_14
.LBB22_16:
	leaq	(%rdx,%r14,2), %rdx
	cmpq	$16, %rdx
	jb	.LBB22_33
	cmpq	%r13, %rdx
	movq	16(%rsp), %r9
	jbe	.LBB22_34
	vmovdqu	-16(%r12,%rdx), %xmm0
	vpmaxuw	.LCPI22_0(%rip), %xmm0, %xmm1
	vpcmpeqw	%xmm1, %xmm0, %xmm1
	vpmovmskb	%xmm1, %esi
	testl	%esi, %esi
	jne	.LBB22_34
	addq	%rax, %r14
	vpackuswb	%xmm0, %xmm0, %xmm0
	vmovq	%xmm0, -8(%rbx,%r14)
	movq	%rdx, %r13
	movq	%r14, %rcx
	jmp	.LBB22_34
	.p2align	4
.LBB22_20:
	xorl	%r13d, %r13d
	movq	%r15, %r8
	subq	%r13, %r8
	je	.LBB22_35
.LBB22_21:
	addq	%r13, %r12
	cmpq	$7, %r8
	ja	.LBB22_25
.LBB22_22:
	movq	%r12, %rdi
	movq	%r8, %rsi
	movq	8(%rsp), %rdx
	movq	%r14, %rcx
	movq	%r9, %r8
	vzeroupper
	callq	"utf16_transcode::transcoding::write_chars::<#556930da7d070edc>"
.LBB22_23:
	movq	%rax, %r15
	movq	%rdx, %rbx
.LBB22_24:
	movq	24(%rsp), %r12
	addq	%r13, %r15
	movq	%rbx, %r9
	movq	40(%rsp), %rbx
	jmp	.LBB22_36
	.p2align	4
.LBB22_25:
	cmpq	$128, %r8
	movl	$128, %esi
	cmovbq	%r8, %rsi
	movq	%r14, %rbx
	subq	%r9, %rbx
	xorl	%edx, %edx
	movq	%rbx, %rax
	subq	$128, %rax
	cmovaeq	%rax, %rdx
	movabsq	$-6148914691236517205, %rax
	mulxq	%rax, %rax, %rax
	andq	$-2, %rax
	cmpq	%rax, %rsi
	jbe	.LBB22_31
	cmpq	$23, %rbx
	jbe	.LBB22_22
	vpxor	%xmm0, %xmm0, %xmm0
	vmovdqu	%ymm0, 356(%rsp)
	vmovdqu	%ymm0, 336(%rsp)
	vmovdqu	%ymm0, 304(%rsp)
	vmovdqu	%ymm0, 272(%rsp)
	vmovdqu	%ymm0, 240(%rsp)
	vmovdqu	%ymm0, 208(%rsp)
	vmovdqu	%ymm0, 176(%rsp)
	vmovdqu	%ymm0, 144(%rsp)
	vmovdqu	%ymm0, 112(%rsp)
	cmpq	$65, %r8
	ja	.LBB22_52
	leaq	112(%rsp), %rdx
	movq	%r12, %rdi
	movq	%r8, %rsi
	movq	8(%rsp), %rcx
	movq	%r14, %r8
.LBB22_29:
	vzeroupper
	callq	"utf16_transcode::transcoding::write_buffered_text::<#556930da7d070edc>"
	jmp	.LBB22_23
.LBB22_33:
	movq	16(%rsp), %r9
.LBB22_34:
	addq	%rcx, %r9
	movq	56(%rsp), %r14
	movq	40(%rsp), %rbx
	movq	%r15, %r8
	subq	%r13, %r8
	jne	.LBB22_21
.LBB22_35:
	movq	24(%rsp), %r12
.LBB22_36:
	addq	%rbp, %r15
	movq	%rbx, %rdx
	subq	%r15, %rdx
	movq	8(%rsp), %r13
	je	.LBB22_97
	cmpq	$2, %rdx
	jb	.LBB22_96
	movzbl	1(%r12,%r15), %eax
	movzwl	%ax, %ecx
	andl	$-8, %eax
	cmpl	$216, %eax
	jne	.LBB22_42
	movl	%ecx, %esi
	notl	%esi
	movb	$1, %al
	testb	$-36, %sil
	je	.LBB22_103
	cmpq	$4, %rdx
	jb	.LBB22_96
	movzbl	3(%r12,%r15), %edx
	andb	$-4, %dl
	cmpb	$-36, %dl
	jne	.LBB22_103
.LBB22_42:
	movzbl	(%r12,%r15), %edx
	movl	%ecx, %eax
	shll	$8, %eax
	orl	%edx, %eax
	andl	$-4, %ecx
	cmpl	$216, %ecx
	jne	.LBB22_44
	movzwl	2(%r12,%r15), %esi
	movl	%eax, %edi
	movq	%r9, %rbp
	callq	"utf16_units::unit::decode_surrogates"
	movq	%rbp, %r9
	movl	$4, %ebp
	jmp	.LBB22_45
	.p2align	4
.LBB22_44:
	movl	$2, %ebp
.LBB22_45:
	movq	%r14, %rcx
	subq	%r9, %rcx
	cmpl	$65536, %eax
	movl	$4, %edx
	sbbq	$0, %rdx
	cmpl	$2048, %eax
	movl	$2, %esi
	cmovaeq	%rdx, %rsi
	cmpl	$128, %eax
	movl	$1, %edx
	cmovaeq	%rsi, %rdx
	cmpq	%rdx, %rcx
	jb	.LBB22_98
	cmpl	$127, %eax
	jbe	.LBB22_9
	movl	%eax, %ecx
	andb	$63, %cl
	orb	$-128, %cl
	cmpl	$2047, %eax
	ja	.LBB22_49
	shrl	$6, %eax
	movzbl	%cl, %ecx
	shll	$8, %ecx
	orl	%eax, %ecx
	orl	$192, %ecx
	movw	%cx, (%r13,%r9)
	addq	$2, %r9
	jmp	.LBB22_10
.LBB22_49:
	movl	%eax, %edx
	cmpl	$65535, %eax
	ja	.LBB22_51
	shrl	$6, %edx
	andb	$63, %dl
	orb	$-128, %dl
	shrl	$12, %eax
	orb	$-32, %al
	movb	%al, (%r13,%r9)
	movb	%dl, 1(%r13,%r9)
	movb	%cl, 2(%r13,%r9)
	addq	$3, %r9
	jmp	.LBB22_10
.LBB22_31:
	movq	%r9, %rbx
	movq	%r12, %rdi
	callq	"utf16_transcode::decode::valid_up_to::<#418c2b53cf60437c>"
	movq	%rax, %r15
	testq	%rax, %rax
	je	.LBB22_24
	movq	8(%rsp), %rax
	leaq	(%rax,%rbx), %rdx
	movq	%r12, %rdi
	movq	%r15, %rsi
	callq	"utf16_to_utf8::write::write_utf8::<#418c2b53cf60437c>"
	addq	%rax, %rbx
	jmp	.LBB22_24
.LBB22_51:
	shrl	$18, %edx
	addl	$240, %edx
	movzbl	%cl, %ecx
	shll	$24, %ecx
	movl	%eax, %esi
	shll	$10, %esi
	andl	$4128768, %esi
	orl	%ecx, %esi
	shrl	$4, %eax
	andl	$16128, %eax
	orl	%esi, %eax
	movzbl	%dl, %ecx
	addl	%ecx, %eax
	addl	$8421376, %eax
	movl	%eax, (%r13,%r9)
	addq	$4, %r9
	jmp	.LBB22_10
.LBB22_52:
	movzbl	1(%r12), %ecx
	movzwl	%cx, %eax
	andl	$-8, %ecx
	cmpl	$216, %ecx
	jne	.LBB22_55
	movl	%eax, %ecx
	notl	%ecx
	testb	$-36, %cl
	je	.LBB22_22
	movzbl	3(%r12), %ecx
	andb	$-4, %cl
	cmpb	$-36, %cl
	jne	.LBB22_22
.LBB22_55:
	andl	$-4, %eax
	xorl	%ecx, %ecx
	cmpl	$216, %eax
	sete	%cl
	movzbl	3(%r12,%rcx,2), %eax
	movl	%eax, %edx
	andl	$-8, %edx
	cmpl	$216, %edx
	jne	.LBB22_58
	movzwl	%ax, %eax
	notl	%eax
	testb	$-36, %al
	je	.LBB22_22
	leaq	2(,%rcx,2), %rax
	movzbl	3(%r12,%rax), %eax
	andb	$-4, %al
	cmpb	$-36, %al
	jne	.LBB22_22
.LBB22_58:
	movq	%r9, 16(%rsp)
	xorl	%r15d, %r15d
	cmpq	$65, %rbx
	setae	%r15b
	shll	$6, %r15d
	addq	$66, %r15
	cmpq	%r8, %r15
	movq	%r8, 48(%rsp)
	cmovaeq	%r8, %r15
	vmovdqu	%ymm0, 64(%rsp)
	movq	$0, 96(%rsp)
	movl	%r15d, %eax
	shrl	%eax
	leaq	(%rax,%rax,2), %rax
	cmpq	$148, %rax
	movl	$148, %r8d
	cmovbq	%rax, %r8
	subq	$-128, %r8
	leaq	64(%rsp), %rdi
	leaq	112(%rsp), %rcx
	movq	%r12, %rsi
	movq	%r15, %rdx
	vzeroupper
	callq	"utf16_to_utf8::runs::write_paired::<#418c2b53cf60437c>"
	movq	64(%rsp), %rcx
	movq	72(%rsp), %rdx
	leaq	-2(%rcx), %rsi
	leaq	-2(%rdx), %rax
	testb	$1, 96(%rsp)
	cmoveq	%rdx, %rax
	cmoveq	%rcx, %rsi
	subq	%rsi, %r15
	shrq	%r15
	movl	$276, %ecx
	subq	%rax, %rcx
	cmpq	%r15, %rcx
	cmovaeq	%r15, %rcx
	movq	%rax, %rdx
	movq	%rsi, %r15
	cmpq	$8, %rcx
	jb	.LBB22_62
	leaq	(%rcx,%rcx), %rdi
	movq	%rsi, %r15
	movq	%rax, %rdx
.LBB22_60:
	vmovdqu	(%r12,%r15), %xmm0
	vpmaxuw	.LCPI22_0(%rip), %xmm0, %xmm1
	vpcmpeqw	%xmm1, %xmm0, %xmm1
	vpmovmskb	%xmm1, %r8d
	testl	%r8d, %r8d
	jne	.LBB22_67
	vpackuswb	%xmm0, %xmm0, %xmm0
	vmovq	%xmm0, 112(%rsp,%rdx)
	addq	$16, %r15
	addq	$8, %rdx
	addq	$-16, %rdi
	cmpq	$15, %rdi
	ja	.LBB22_60
.LBB22_62:
	leaq	(%rsi,%rcx,2), %rsi
	cmpq	$16, %rsi
	jb	.LBB22_67
	cmpq	%r15, %rsi
	movq	16(%rsp), %r10
	jbe	.LBB22_68
	vmovdqu	-16(%r12,%rsi), %xmm0
	vpmaxuw	.LCPI22_0(%rip), %xmm0, %xmm1
	vpcmpeqw	%xmm1, %xmm0, %xmm1
	vpmovmskb	%xmm1, %edi
	testl	%edi, %edi
	jne	.LBB22_68
	addq	%rax, %rcx
	vpackuswb	%xmm0, %xmm0, %xmm0
	vmovq	%xmm0, 104(%rsp,%rcx)
	movq	%rsi, %r15
	movq	%rcx, %rdx
	jmp	.LBB22_68
.LBB22_67:
	movq	16(%rsp), %r10
.LBB22_68:
	cmpq	%rbx, %rdx
	jbe	.LBB22_90
	movq	%rbx, %rdx
.LBB22_70:
	cmpb	$-65, 112(%rsp,%rdx)
	jg	.LBB22_73
	decq	%rdx
	jne	.LBB22_70
	movq	8(%rsp), %rax
	leaq	(%rax,%r10), %rdi
	xorl	%r15d, %r15d
	xorl	%edx, %edx
	movq	%r10, %rbx
	jmp	.LBB22_93
.LBB22_73:
	cmpq	$15, %rdx
	ja	.LBB22_82
	xorl	%r15d, %r15d
	movq	%rdx, %rax
	leaq	112(%rsp), %rcx
	jmp	.LBB22_77
.LBB22_75:
	andl	$31, %esi
	shll	$6, %esi
	orl	%edi, %esi
	movl	$2, %r9d
.LBB22_76:
	addq	%r9, %rcx
	xorl	%edi, %edi
	cmpl	$65536, %esi
	setae	%dil
	leaq	(%r15,%rdi,2), %r15
	addq	$2, %r15
	subq	%r9, %rax
	je	.LBB22_90
.LBB22_77:
	movzbl	(%rcx), %esi
	movl	$1, %r9d
	testb	%sil, %sil
	jns	.LBB22_76
	movzbl	1(%rcx), %edi
	andl	$63, %edi
	cmpb	$-33, %sil
	jbe	.LBB22_75
	movzbl	2(%rcx), %r8d
	andl	$63, %r8d
	cmpb	$-17, %sil
	ja	.LBB22_81
	shll	$12, %esi
	movzwl	%si, %esi
	shll	$6, %edi
	orl	%esi, %edi
	orl	%r8d, %edi
	movl	$3, %r9d
	movl	%edi, %esi
	jmp	.LBB22_76
.LBB22_81:
	movzbl	3(%rcx), %r9d
	andl	$63, %r9d
	andl	$7, %esi
	shll	$18, %esi
	shll	$12, %edi
	orl	%esi, %edi
	shll	$6, %r8d
	orl	%edi, %r8d
	orl	%r9d, %r8d
	movl	$4, %r9d
	movl	%r8d, %esi
	jmp	.LBB22_76
.LBB22_82:
	cmpq	$64, %rdx
	jb	.LBB22_85
	xorl	%ecx, %ecx
	movq	%rdx, %rsi
	xorl	%eax, %eax
.LBB22_84:
	vmovdqu	112(%rsp,%rcx), %ymm0
	vmovdqu	144(%rsp,%rcx), %ymm1
	vpbroadcastd	.LCPI22_5(%rip), %ymm2
	vpbroadcastd	.LCPI22_6(%rip), %ymm3
	vpcmpgtb	%ymm2, %ymm0, %ymm4
	vpmovmskb	%ymm4, %edi
	vpcmpgtb	%ymm2, %ymm1, %ymm2
	vpmovmskb	%ymm2, %r8d
	shlq	$32, %r8
	orq	%rdi, %r8
	xorl	%edi, %edi
	popcntq	%r8, %rdi
	addq	%rax, %rdi
	vpmaxub	%ymm3, %ymm0, %ymm2
	vpcmpeqb	%ymm2, %ymm0, %ymm0
	vpmovmskb	%ymm0, %eax
	vpmaxub	%ymm3, %ymm1, %ymm0
	vpcmpeqb	%ymm0, %ymm1, %ymm0
	vpmovmskb	%ymm0, %r8d
	shlq	$32, %r8
	orq	%rax, %r8
	xorl	%eax, %eax
	popcntq	%r8, %rax
	addq	%rdi, %rax
	addq	$64, %rcx
	addq	$-64, %rsi
	cmpq	$63, %rsi
	ja	.LBB22_84
	jmp	.LBB22_86
.LBB22_85:
	xorl	%eax, %eax
	xorl	%ecx, %ecx
.LBB22_86:
	movq	%rdx, %rsi
	subq	%rcx, %rsi
	cmpq	$16, %rsi
	jb	.LBB22_89
	movq	%rdx, %rsi
	subq	%rcx, %rsi
	addq	%rsp, %rcx
	addq	$112, %rcx
.LBB22_88:
	vmovdqu	(%rcx), %xmm0
	vpcmpgtb	.LCPI22_3(%rip), %xmm0, %xmm1
	vpmovmskb	%xmm1, %edi
	popcntl	%edi, %edi
	vpmaxub	.LCPI22_4(%rip), %xmm0, %xmm1
	vpcmpeqb	%xmm1, %xmm0, %xmm0
	vpmovmskb	%xmm0, %r8d
	popcntl	%r8d, %r8d
	addl	%edi, %r8d
	addq	%r8, %rax
	addq	$-16, %rsi
	addq	$16, %rcx
	cmpq	$15, %rsi
	ja	.LBB22_88
.LBB22_89:
	vmovdqu	96(%rsp,%rdx), %xmm0
	vpcmpgtb	.LCPI22_3(%rip), %xmm0, %xmm1
	vpmovmskb	%xmm1, %ecx
	movb	$16, %dil
	subb	%sil, %dil
	shrxq	%rdi, %rcx, %rcx
	vpmaxub	.LCPI22_4(%rip), %xmm0, %xmm1
	popcntl	%ecx, %ecx
	vpcmpeqb	%xmm1, %xmm0, %xmm0
	vpmovmskb	%xmm0, %esi
	shrxq	%rdi, %rsi, %rsi
	xorl	%r15d, %r15d
	popcntl	%esi, %r15d
	addq	%rcx, %r15
	addq	%rax, %r15
	addq	%r15, %r15
.LBB22_90:
	leaq	(%rdx,%r10), %rbx
	addq	8(%rsp), %r10
	movq	%r10, %rax
	leaq	112(%rsp), %rcx
	subq	%rcx, %rax
	cmpq	%rdx, %rax
	jae	.LBB22_92
	leaq	112(%rsp), %rsi
	movq	%r10, %rdi
	jmp	.LBB22_94
.LBB22_92:
	movq	%r10, %rdi
.LBB22_93:
	leaq	112(%rsp), %rsi
.LBB22_94:
	vzeroupper
	callq	memcpy@PLT
	testq	%r15, %r15
	movq	48(%rsp), %rsi
	jne	.LBB22_24
	leaq	112(%rsp), %rdx
	movq	%r12, %rdi
	movq	8(%rsp), %rcx
	movq	%r14, %r8
	movq	%rbx, %r9
	jmp	.LBB22_29
.LBB22_96:
	movb	$2, %al
	jmp	.LBB22_99
.LBB22_97:
	movq	%rbx, %rbp
	jmp	.LBB22_8
.LBB22_103:
	movb	$2, %cl
	jmp	.LBB22_100
.LBB22_98:
	movb	$3, %al
.LBB22_99:
	xorl	%ecx, %ecx
.LBB22_100:
	movq	32(%rsp), %rdx
	movq	%r15, (%rdx)
	movq	%r9, 8(%rdx)
	movb	%al, 16(%rdx)
	movb	%cl, 17(%rdx)
.LBB22_101:
	addq	$392, %rsp
	.cfi_def_cfa_offset 56
	popq	%rbx
	.cfi_def_cfa_offset 48
	popq	%r12
	.cfi_def_cfa_offset 40
	popq	%r13
	.cfi_def_cfa_offset 32
	popq	%r14
	.cfi_def_cfa_offset 24
	popq	%r15
	.cfi_def_cfa_offset 16
	popq	%rbp
	.cfi_def_cfa_offset 8
	retq
.Lfunc_end22:
	.size	"utf16_transcode::transcoding::transcode_many::<#556930da7d070edc>", .Lfunc_end22-"utf16_transcode::transcoding::transcode_many::<#556930da7d070edc>"
	.cfi_endproc

	.section	.rodata.cst32,"aM",@progbits,32
	.p2align	5, 0x0
.LCPI23_0:
	.short	65408
	.short	65408
	.short	65408
	.short	65408
	.short	65408
	.short	65408
	.short	65408
	.short	65408
	.short	65408
	.short	65408
	.short	65408
	.short	65408
	.short	65408
	.short	65408
	.short	65408
	.short	65408
.LCPI23_2:
	.short	10240
	.short	10240
	.short	10240
	.short	10240
	.short	10240
	.short	10240
	.short	10240
	.short	10240
	.short	10240
	.short	10240
	.short	10240
	.short	10240
	.short	10240
	.short	10240
	.short	10240
	.short	10240
.LCPI23_4:
	.short	63488
	.short	63488
	.short	63488
	.short	63488
	.short	63488
	.short	63488
	.short	63488
	.short	63488
	.short	63488
	.short	63488
	.short	63488
	.short	63488
	.short	63488
	.short	63488
	.short	63488
	.short	63488
.LCPI23_5:
	.short	224
	.short	224
	.short	224
	.short	224
	.short	224
	.short	224
	.short	224
	.short	224
	.short	224
	.short	224
	.short	224
	.short	224
	.short	224
	.short	224
	.short	224
	.short	224
.LCPI23_6:
	.short	34815
	.short	34815
	.short	34815
	.short	34815
	.short	34815
	.short	34815
	.short	34815
	.short	34815
	.short	34815
	.short	34815
	.short	34815
	.short	34815
	.short	34815
	.short	34815
	.short	34815
	.short	34815
.LCPI23_7:
	.short	32768
	.short	32768
	.short	32768
	.short	32768
	.short	32768
	.short	32768
	.short	32768
	.short	32768
	.short	32768
	.short	32768
	.short	32768
	.short	32768
	.short	32768
	.short	32768
	.short	32768
	.short	32768
.LCPI23_8:
	.short	63
	.short	63
	.short	63
	.short	63
	.short	63
	.short	63
	.short	63
	.short	63
	.short	63
	.short	63
	.short	63
	.short	63
	.short	63
	.short	63
	.short	63
	.short	63
.LCPI23_9:
	.short	16128
	.short	16128
	.short	16128
	.short	16128
	.short	16128
	.short	16128
	.short	16128
	.short	16128
	.short	16128
	.short	16128
	.short	16128
	.short	16128
	.short	16128
	.short	16128
	.short	16128
	.short	16128
.LCPI23_10:
	.zero	32,128
.LCPI23_11:
	.short	255
	.short	255
	.short	255
	.short	255
	.short	255
	.short	255
	.short	255
	.short	255
	.short	255
	.short	255
	.short	255
	.short	255
	.short	255
	.short	255
	.short	255
	.short	255
.LCPI23_12:
	.short	32992
	.short	32992
	.short	32992
	.short	32992
	.short	32992
	.short	32992
	.short	32992
	.short	32992
	.short	32992
	.short	32992
	.short	32992
	.short	32992
	.short	32992
	.short	32992
	.short	32992
	.short	32992
.LCPI23_13:
	.short	128
	.short	128
	.short	128
	.short	128
	.short	128
	.short	128
	.short	128
	.short	128
	.short	128
	.short	128
	.short	128
	.short	128
	.short	128
	.short	128
	.short	128
	.short	128
.LCPI23_17:
	.short	32960
	.short	32960
	.short	32960
	.short	32960
	.short	32960
	.short	32960
	.short	32960
	.short	32960
	.short	32960
	.short	32960
	.short	32960
	.short	32960
	.short	32960
	.short	32960
	.short	32960
	.short	32960
.LCPI23_18:
	.short	127
	.short	127
	.short	127
	.short	127
	.short	127
	.short	127
	.short	127
	.short	127
	.short	127
	.short	127
	.short	127
	.short	127
	.short	127
	.short	127
	.short	127
	.short	127
.LCPI23_19:
	.zero	32,252
.LCPI23_20:
	.zero	32,216
.LCPI23_21:
	.zero	32,220
.LCPI23_22:
	.short	12288
	.short	12288
	.short	12288
	.short	12288
	.short	12288
	.short	12288
	.short	12288
	.short	12288
	.short	12288
	.short	12288
	.short	12288
	.short	12288
	.short	12288
	.short	12288
	.short	12288
	.short	12288
.LCPI23_23:
	.short	9216
	.short	9216
	.short	9216
	.short	9216
	.short	9216
	.short	9216
	.short	9216
	.short	9216
	.short	9216
	.short	9216
	.short	9216
	.short	9216
	.short	9216
	.short	9216
	.short	9216
	.short	9216
.LCPI23_24:
	.short	752
	.short	752
	.short	752
	.short	752
	.short	752
	.short	752
	.short	752
	.short	752
	.short	752
	.short	752
	.short	752
	.short	752
	.short	752
	.short	752
	.short	752
	.short	752
.LCPI23_25:
	.short	3072
	.short	3072
	.short	3072
	.short	3072
	.short	3072
	.short	3072
	.short	3072
	.short	3072
	.short	3072
	.short	3072
	.short	3072
	.short	3072
	.short	3072
	.short	3072
	.short	3072
	.short	3072
.LCPI23_26:
	.short	17408
	.short	17408
	.short	17408
	.short	17408
	.short	17408
	.short	17408
	.short	17408
	.short	17408
	.short	17408
	.short	17408
	.short	17408
	.short	17408
	.short	17408
	.short	17408
	.short	17408
	.short	17408
	.section	.rodata.cst8,"aM",@progbits,8
	.p2align	3, 0x0
.LCPI23_1:
	.quad	-576188069258921984
	.section	.rodata.cst16,"aM",@progbits,16
	.p2align	4, 0x0
.LCPI23_3:
	.short	2047
	.short	2047
	.short	2047
	.short	2047
	.short	2047
	.short	2047
	.short	2047
	.short	2047
.LCPI23_14:
	.byte	128
	.byte	128
	.byte	0
	.byte	128
	.byte	128
	.byte	2
	.byte	128
	.byte	128
	.byte	4
	.byte	128
	.byte	128
	.byte	6
	.byte	128
	.byte	128
	.byte	8
	.byte	128
.LCPI23_15:
	.byte	0
	.byte	1
	.byte	128
	.byte	2
	.byte	3
	.byte	128
	.byte	4
	.byte	5
	.byte	128
	.byte	6
	.byte	7
	.byte	128
	.byte	8
	.byte	9
	.byte	128
	.byte	10
.LCPI23_16:
	.byte	6
	.byte	5
	.byte	8
	.byte	10
	.byte	9
	.byte	12
	.byte	14
	.byte	13
	.zero	1
	.zero	1
	.zero	1
	.zero	1
	.zero	1
	.zero	1
	.zero	1
	.zero	1
.LCPI23_39:
	.byte	6
	.byte	5
	.byte	8
	.byte	10
	.byte	9
	.byte	12
	.byte	14
	.byte	13
	.byte	0
	.byte	0
	.byte	0
	.byte	0
	.byte	0
	.byte	0
	.byte	0
	.byte	0
	.section	.rodata.cst4,"aM",@progbits,4
	.p2align	2, 0x0
.LCPI23_27:
	.short	10240
	.short	10240
.LCPI23_28:
	.short	224
	.short	224
.LCPI23_29:
	.short	34815
	.short	34815
.LCPI23_30:
	.short	32768
	.short	32768
.LCPI23_31:
	.short	63
	.short	63
.LCPI23_32:
	.short	16128
	.short	16128
.LCPI23_33:
	.zero	4,128
.LCPI23_34:
	.short	255
	.short	255
.LCPI23_35:
	.short	32960
	.short	32960
.LCPI23_36:
	.short	127
	.short	127
.LCPI23_37:
	.short	32992
	.short	32992
.LCPI23_38:
	.short	128
	.short	128
.LCPI23_40:
	.short	12288
	.short	12288
.LCPI23_41:
	.short	9216
	.short	9216
.LCPI23_42:
	.short	752
	.short	752
.LCPI23_43:
	.short	3072
	.short	3072
.LCPI23_44:
	.short	17408
	.short	17408
	.section	".text.utf16_to_utf8::runs::write_paired::<#418c2b53cf60437c>","ax",@progbits
	.p2align	4
	.type	"utf16_to_utf8::runs::write_paired::<#418c2b53cf60437c>",@function
"utf16_to_utf8::runs::write_paired::<#418c2b53cf60437c>":
	.cfi_startproc
	pushq	%rbp
	.cfi_def_cfa_offset 16
	pushq	%r15
	.cfi_def_cfa_offset 24
	pushq	%r14
	.cfi_def_cfa_offset 32
	pushq	%r13
	.cfi_def_cfa_offset 40
	pushq	%r12
	.cfi_def_cfa_offset 48
	pushq	%rbx
	.cfi_def_cfa_offset 56
	subq	$88, %rsp
	.cfi_def_cfa_offset 144
	.cfi_offset %rbx, -56
	.cfi_offset %r12, -48
	.cfi_offset %r13, -40
	.cfi_offset %r14, -32
	.cfi_offset %r15, -24
	.cfi_offset %rbp, -16
	movq	%rcx, %r15
	cmpq	$64, %rdx
	setb	%al
	cmpq	$128, %r8
	setb	%cl
	orb	%al, %cl
	je	.LBB23_1
	vpxor	%xmm0, %xmm0, %xmm0
	vmovdqu	%ymm0, (%rdi)
	movq	$0, 32(%rdi)
	jmp	.LBB23_10
.LBB23_1:
	movq	%r8, %r14
	movq	%rdx, %r12
	movq	%rsi, %r13
	movq	%rdi, 8(%rsp)
	addq	$-128, %r14
	addq	$-64, %r12
	vpxor	%xmm0, %xmm0, %xmm0
	xorl	%ebp, %ebp
	xorl	%esi, %esi
	xorl	%ebx, %ebx
	jmp	.LBB23_2
	.p2align	4
.LBB23_50:
	vinserti128	$1, %xmm0, %ymm0, %ymm0
	movq	%r15, %rdi
	movl	$5, %edx
	vmovdqu	%ymm14, 16(%rsp)
	vmovdqu	%ymm1, 48(%rsp)
	callq	"utf16_to_utf8::blocks::write_group"
	movq	%r15, %rdi
	movq	%rax, %rsi
	vmovups	48(%rsp), %ymm0
	vmovdqu	16(%rsp), %ymm1
	movl	$5, %edx
	callq	"utf16_to_utf8::blocks::write_group"
	movq	%rax, %rsi
	addq	$64, %rbx
	vmovdqu	16(%rsp), %ymm0
	vextracti128	$1, %ymm0, %xmm0
.LBB23_51:
	cmpq	%r12, %rbx
	ja	.LBB23_52
.LBB23_2:
	testb	$1, %bpl
	jne	.LBB23_45
	cmpq	%rsi, %r14
	jb	.LBB23_45
	vmovdqu	(%r13,%rbx), %ymm5
	vmovdqu	32(%r13,%rbx), %ymm11
	vpor	%ymm5, %ymm11, %ymm1
	vptest	.LCPI23_0(%rip), %ymm1
	jne	.LBB23_14
	addq	$64, %rbx
	.p2align	4
.LBB23_6:
	vmovdqa	%ymm11, %ymm0
	vpackuswb	%ymm11, %ymm5, %ymm1
	vpermq	$216, %ymm1, %ymm1
	vmovdqu	%ymm1, (%r15,%rsi)
	cmpq	%r12, %rbx
	ja	.LBB23_8
	leaq	32(%rsi), %rax
	cmpq	%rax, %r14
	jb	.LBB23_8
	vmovdqu	(%r13,%rbx), %ymm5
	vmovdqu	32(%r13,%rbx), %ymm11
	vpor	%ymm5, %ymm11, %ymm1
	addq	$64, %rbx
	vptest	.LCPI23_0(%rip), %ymm1
	movq	%rax, %rsi
	je	.LBB23_6
	vextracti128	$1, %ymm0, %xmm0
	addq	$-64, %rbx
	movq	%rax, %rsi
	.p2align	4
.LBB23_14:
	vpor	%ymm5, %ymm11, %ymm1
	vpbroadcastq	.LCPI23_1(%rip), %ymm2
	vptest	%ymm2, %ymm1
	je	.LBB23_22
	vpbroadcastd	.LCPI23_27(%rip), %ymm12
	vpaddw	%ymm12, %ymm11, %ymm1
	vpaddw	%ymm5, %ymm12, %ymm2
	vpminuw	%ymm2, %ymm5, %ymm3
	vpminuw	%ymm1, %ymm11, %ymm4
	vpminuw	%ymm4, %ymm3, %ymm3
	vextracti128	$1, %ymm3, %xmm4
	vpminuw	%xmm4, %xmm3, %xmm3
	vpminuw	.LCPI23_3(%rip), %xmm3, %xmm4
	vpcmpeqw	%xmm4, %xmm3, %xmm3
	vpmovmskb	%xmm3, %eax
	testl	%eax, %eax
	je	.LBB23_23
	vpminuw	%ymm1, %ymm2, %ymm1
	vextracti128	$1, %ymm1, %xmm2
	vpminuw	%xmm2, %xmm1, %xmm1
	vpminuw	.LCPI23_3(%rip), %xmm1, %xmm2
	vpcmpeqw	%xmm2, %xmm1, %xmm1
	vpmovmskb	%xmm1, %eax
	testl	%eax, %eax
	jne	.LBB23_45
	vinserti128	$1, %xmm0, %ymm0, %ymm0
	movq	%r15, %rdi
	vmovdqa	%ymm5, %ymm1
	movl	$4, %edx
	vmovdqu	%ymm11, 16(%rsp)
	vmovdqu	%ymm5, 48(%rsp)
	callq	"utf16_to_utf8::blocks::write_group"
	movq	%r15, %rdi
	movq	%rax, %rsi
	vmovups	48(%rsp), %ymm0
	vmovdqu	16(%rsp), %ymm1
	movl	$4, %edx
	callq	"utf16_to_utf8::blocks::write_group"
	vmovdqu	16(%rsp), %ymm0
	vextracti128	$1, %ymm0, %xmm0
	leaq	64(%rbx), %rcx
	cmpq	%r12, %rcx
	ja	.LBB23_35
	cmpq	%rax, %r14
	vpbroadcastd	.LCPI23_27(%rip), %ymm12
	jb	.LBB23_35
	vmovdqu	(%r13,%rcx), %ymm9
	vmovdqu	32(%r13,%rcx), %ymm1
	vpor	%ymm1, %ymm9, %ymm2
	vptest	.LCPI23_4(%rip), %ymm2
	je	.LBB23_35
	vpaddw	%ymm12, %ymm9, %ymm2
	vpaddw	%ymm1, %ymm12, %ymm3
	vpminuw	%ymm3, %ymm2, %ymm2
	vextracti128	$1, %ymm2, %xmm3
	vpminuw	%xmm3, %xmm2, %xmm2
	vpminuw	.LCPI23_3(%rip), %xmm2, %xmm3
	vpcmpeqw	%xmm3, %xmm2, %xmm2
	vpmovmskb	%xmm2, %edx
	testl	%edx, %edx
	jne	.LBB23_35
	subq	$-128, %rbx
	.p2align	4
.LBB23_32:
	vpsllw	$8, %ymm9, %ymm7
	vpsrlw	$12, %ymm9, %ymm0
	vpor	%ymm7, %ymm0, %ymm0
	vpbroadcastd	.LCPI23_28(%rip), %ymm2
	vpor	%ymm2, %ymm0, %ymm0
	vpbroadcastd	.LCPI23_29(%rip), %ymm3
	vpsubusw	%ymm9, %ymm3, %ymm5
	vpbroadcastd	.LCPI23_30(%rip), %ymm4
	vpand	%ymm4, %ymm5, %ymm11
	vpsrlw	$9, %ymm11, %ymm8
	vpsrlw	$6, %ymm9, %ymm6
	vpbroadcastd	.LCPI23_31(%rip), %ymm5
	vpand	%ymm5, %ymm6, %ymm10
	vpbroadcastd	.LCPI23_32(%rip), %ymm6
	vpand	%ymm6, %ymm7, %ymm7
	vpor	%ymm7, %ymm10, %ymm10
	vpbroadcastd	.LCPI23_33(%rip), %ymm7
	vpor	%ymm7, %ymm10, %ymm10
	vpor	%ymm8, %ymm10, %ymm10
	vpbroadcastd	.LCPI23_34(%rip), %ymm8
	vpsubusw	%ymm9, %ymm8, %ymm9
	vpor	%ymm9, %ymm11, %ymm9
	vpmovmskb	%xmm9, %edx
	vpunpcklwd	%xmm10, %xmm0, %xmm11
	movzbl	%dl, %esi
	xorl	%edi, %edi
	popcntl	%esi, %edi
	shll	$4, %esi
	leaq	.Lstatic.9(%rip), %rcx
	vpshufb	(%rsi,%rcx), %xmm11, %xmm11
	vmovdqu	%xmm11, (%r15,%rax)
	subq	%rdi, %rax
	vpunpckhwd	%xmm10, %xmm0, %xmm11
	shrl	$8, %edx
	xorl	%esi, %esi
	popcntl	%edx, %esi
	shll	$4, %edx
	vpshufb	(%rdx,%rcx), %xmm11, %xmm11
	vmovdqu	%xmm11, 12(%r15,%rax)
	addq	$12, %rax
	subq	%rsi, %rax
	vextracti128	$1, %ymm0, %xmm0
	vextracti128	$1, %ymm10, %xmm10
	vextracti128	$1, %ymm9, %xmm9
	vpmovmskb	%xmm9, %edx
	vpunpcklwd	%xmm10, %xmm0, %xmm9
	movzbl	%dl, %esi
	xorl	%edi, %edi
	popcntl	%esi, %edi
	shll	$4, %esi
	vpshufb	(%rsi,%rcx), %xmm9, %xmm9
	vmovdqu	%xmm9, 12(%r15,%rax)
	addq	$12, %rax
	subq	%rdi, %rax
	vpunpckhwd	%xmm10, %xmm0, %xmm0
	shrl	$8, %edx
	xorl	%esi, %esi
	popcntl	%edx, %esi
	shll	$4, %edx
	vpshufb	(%rdx,%rcx), %xmm0, %xmm0
	vmovdqu	%xmm0, 12(%r15,%rax)
	vmovdqa	%ymm1, %ymm0
	subq	%rsi, %rax
	vpsllw	$8, %ymm1, %ymm9
	vpsrlw	$12, %ymm1, %ymm1
	vpor	%ymm1, %ymm9, %ymm1
	vpor	%ymm2, %ymm1, %ymm1
	vpsubusw	%ymm0, %ymm3, %ymm2
	vpand	%ymm4, %ymm2, %ymm3
	vpsrlw	$9, %ymm3, %ymm2
	vpsrlw	$6, %ymm0, %ymm4
	vpand	%ymm5, %ymm4, %ymm4
	vpand	%ymm6, %ymm9, %ymm5
	vpor	%ymm4, %ymm5, %ymm4
	vpor	%ymm7, %ymm4, %ymm4
	vpor	%ymm2, %ymm4, %ymm2
	vpsubusw	%ymm0, %ymm8, %ymm4
	vpor	%ymm4, %ymm3, %ymm3
	vpmovmskb	%xmm3, %edx
	vpunpcklwd	%xmm2, %xmm1, %xmm4
	movzbl	%dl, %esi
	xorl	%edi, %edi
	popcntl	%esi, %edi
	shll	$4, %esi
	vpshufb	(%rsi,%rcx), %xmm4, %xmm4
	vmovdqu	%xmm4, 24(%r15,%rax)
	addq	$24, %rax
	subq	%rdi, %rax
	vpunpckhwd	%xmm2, %xmm1, %xmm4
	shrl	$8, %edx
	xorl	%esi, %esi
	popcntl	%edx, %esi
	shll	$4, %edx
	vpshufb	(%rdx,%rcx), %xmm4, %xmm4
	vmovdqu	%xmm4, 12(%r15,%rax)
	addq	$12, %rax
	subq	%rsi, %rax
	vextracti128	$1, %ymm1, %xmm1
	vextracti128	$1, %ymm2, %xmm2
	vextracti128	$1, %ymm3, %xmm3
	vpmovmskb	%xmm3, %edx
	vpunpcklwd	%xmm2, %xmm1, %xmm3
	movzbl	%dl, %esi
	xorl	%edi, %edi
	popcntl	%esi, %edi
	shll	$4, %esi
	vpshufb	(%rsi,%rcx), %xmm3, %xmm3
	vmovdqu	%xmm3, 12(%r15,%rax)
	addq	$12, %rax
	subq	%rdi, %rax
	vpunpckhwd	%xmm2, %xmm1, %xmm1
	shrl	$8, %edx
	xorl	%esi, %esi
	popcntl	%edx, %esi
	shll	$4, %edx
	vpshufb	(%rdx,%rcx), %xmm1, %xmm1
	vmovdqu	%xmm1, 12(%r15,%rax)
	movq	%rbx, %rcx
	subq	%rsi, %rax
	addq	$24, %rax
	cmpq	%r12, %rbx
	ja	.LBB23_34
	cmpq	%rax, %r14
	jb	.LBB23_34
	vmovdqu	(%r13,%rcx), %ymm9
	vmovdqu	32(%r13,%rcx), %ymm1
	vpor	%ymm1, %ymm9, %ymm2
	vptest	.LCPI23_4(%rip), %ymm2
	je	.LBB23_34
	vpaddw	%ymm12, %ymm9, %ymm2
	vpaddw	%ymm1, %ymm12, %ymm3
	vpminuw	%ymm3, %ymm2, %ymm2
	vextracti128	$1, %ymm2, %xmm3
	vpminuw	%xmm3, %xmm2, %xmm2
	vpminuw	.LCPI23_3(%rip), %xmm2, %xmm3
	vpcmpeqw	%xmm3, %xmm2, %xmm2
	vpmovmskb	%xmm2, %edx
	leaq	64(%rcx), %rbx
	testl	%edx, %edx
	je	.LBB23_32
	jmp	.LBB23_34
	.p2align	4
.LBB23_22:
	vpsrlw	$6, %ymm5, %ymm2
	vpsllw	$8, %ymm5, %ymm1
	vpbroadcastd	.LCPI23_32(%rip), %ymm0
	vpand	%ymm0, %ymm1, %ymm3
	vpbroadcastd	.LCPI23_35(%rip), %ymm1
	vpaddw	%ymm1, %ymm2, %ymm2
	vpaddw	%ymm3, %ymm2, %ymm3
	vpbroadcastd	.LCPI23_36(%rip), %ymm2
	vpminuw	%ymm2, %ymm5, %ymm4
	vpcmpeqw	%ymm4, %ymm5, %ymm4
	vpblendvb	%ymm4, %ymm5, %ymm3, %ymm3
	vextracti128	$1, %ymm4, %xmm5
	vpacksswb	%xmm5, %xmm4, %xmm4
	vpmovmskb	%xmm4, %eax
	movzbl	%al, %edx
	xorl	%edi, %edi
	popcntl	%edx, %edi
	shll	$4, %edx
	leaq	.Lstatic.8(%rip), %rcx
	vpshufb	(%rdx,%rcx), %xmm3, %xmm4
	vmovdqu	%xmm4, (%r15,%rsi)
	subq	%rdi, %rsi
	shrl	$8, %eax
	vextracti128	$1, %ymm3, %xmm3
	xorl	%edx, %edx
	popcntl	%eax, %edx
	shll	$4, %eax
	vpshufb	(%rax,%rcx), %xmm3, %xmm3
	vmovdqu	%xmm3, 16(%r15,%rsi)
	subq	%rdx, %rsi
	vpsrlw	$6, %ymm11, %ymm3
	vpsllw	$8, %ymm11, %ymm4
	vpand	%ymm0, %ymm4, %ymm0
	vpaddw	%ymm1, %ymm3, %ymm1
	vpaddw	%ymm0, %ymm1, %ymm0
	vpminuw	%ymm2, %ymm11, %ymm1
	vpcmpeqw	%ymm1, %ymm11, %ymm1
	vpblendvb	%ymm1, %ymm11, %ymm0, %ymm0
	vextracti128	$1, %ymm1, %xmm2
	vpacksswb	%xmm2, %xmm1, %xmm1
	vpmovmskb	%xmm1, %edx
	movzbl	%dl, %eax
	xorl	%edi, %edi
	popcntl	%eax, %edi
	shll	$4, %eax
	vpshufb	(%rax,%rcx), %xmm0, %xmm1
	leaq	32(%rsi), %rax
	vmovdqu	%xmm1, 32(%r15,%rsi)
	subq	%rdi, %rax
	shrl	$8, %edx
	vextracti128	$1, %ymm0, %xmm0
	xorl	%esi, %esi
	popcntl	%edx, %esi
	shll	$4, %edx
	vpshufb	(%rdx,%rcx), %xmm0, %xmm0
	vmovdqu	%xmm0, 16(%r15,%rax)
	subq	%rsi, %rax
	addq	$32, %rax
	addq	$64, %rbx
	vextracti128	$1, %ymm11, %xmm0
	movq	%rbx, %rcx
.LBB23_35:
	cmpq	%r12, %rcx
	ja	.LBB23_36
	cmpq	%rax, %r14
	jb	.LBB23_36
	vmovdqu	(%r13,%rcx), %ymm5
	vmovdqu	32(%r13,%rcx), %ymm11
	vpor	%ymm5, %ymm11, %ymm1
	vptest	.LCPI23_0(%rip), %ymm1
	movq	%rax, %rsi
	movq	%rcx, %rbx
	jne	.LBB23_14
	addq	$64, %rcx
	movq	%rcx, %rbx
	.p2align	4
.LBB23_41:
	vmovdqa	%ymm11, %ymm0
	vpackuswb	%ymm11, %ymm5, %ymm1
	vpermq	$216, %ymm1, %ymm1
	vmovdqu	%ymm1, (%r15,%rax)
	cmpq	%r12, %rbx
	ja	.LBB23_43
	leaq	32(%rax), %rsi
	cmpq	%rsi, %r14
	jb	.LBB23_43
	vmovdqu	(%r13,%rbx), %ymm5
	vmovdqu	32(%r13,%rbx), %ymm11
	vpor	%ymm5, %ymm11, %ymm1
	addq	$64, %rbx
	vptest	.LCPI23_0(%rip), %ymm1
	movq	%rsi, %rax
	je	.LBB23_41
	vextracti128	$1, %ymm0, %xmm0
	addq	$-64, %rbx
	jmp	.LBB23_14
	.p2align	4
.LBB23_23:
	vpsrlw	$12, %ymm5, %ymm0
	vpsllw	$2, %ymm5, %ymm2
	vpbroadcastd	.LCPI23_32(%rip), %ymm1
	vpand	%ymm1, %ymm2, %ymm3
	vpbroadcastd	.LCPI23_37(%rip), %ymm2
	vpor	%ymm2, %ymm0, %ymm0
	vpor	%ymm3, %ymm0, %ymm0
	vpbroadcastd	.LCPI23_31(%rip), %ymm3
	vpand	%ymm3, %ymm5, %ymm5
	vpbroadcastd	.LCPI23_38(%rip), %ymm4
	vpor	%ymm4, %ymm5, %ymm8
	vmovdqa	.LCPI23_14(%rip), %xmm5
	vpshufb	%xmm5, %xmm8, %xmm7
	vmovdqa	.LCPI23_15(%rip), %xmm6
	vpshufb	%xmm6, %xmm0, %xmm9
	vpor	%xmm7, %xmm9, %xmm7
	vmovdqu	%xmm7, (%r15,%rsi)
	vpunpckhbw	%xmm8, %xmm0, %xmm9
	vmovq	.LCPI23_39(%rip), %xmm7
	vpshufb	%xmm7, %xmm9, %xmm9
	vmovq	%xmm9, 16(%r15,%rsi)
	vextracti128	$1, %ymm0, %xmm0
	vextracti128	$1, %ymm8, %xmm8
	vpshufb	%xmm5, %xmm8, %xmm9
	vpshufb	%xmm6, %xmm0, %xmm10
	vpor	%xmm9, %xmm10, %xmm9
	vmovdqu	%xmm9, 24(%r15,%rsi)
	vpunpckhbw	%xmm8, %xmm0, %xmm0
	vpshufb	%xmm7, %xmm0, %xmm0
	vmovq	%xmm0, 40(%r15,%rsi)
	vpsrlw	$12, %ymm11, %ymm0
	vpsllw	$2, %ymm11, %ymm8
	vpand	%ymm1, %ymm8, %ymm8
	vpor	%ymm2, %ymm0, %ymm0
	vpor	%ymm0, %ymm8, %ymm0
	vpand	%ymm3, %ymm11, %ymm8
	vpor	%ymm4, %ymm8, %ymm8
	vpshufb	%xmm5, %xmm8, %xmm9
	vpshufb	%xmm6, %xmm0, %xmm10
	vpor	%xmm9, %xmm10, %xmm9
	vmovdqu	%xmm9, 48(%r15,%rsi)
	vpunpckhbw	%xmm8, %xmm0, %xmm9
	vpshufb	%xmm7, %xmm9, %xmm9
	vmovq	%xmm9, 64(%r15,%rsi)
	vextracti128	$1, %ymm0, %xmm0
	vextracti128	$1, %ymm8, %xmm8
	vpshufb	%xmm5, %xmm8, %xmm9
	vpshufb	%xmm6, %xmm0, %xmm10
	vpor	%xmm9, %xmm10, %xmm9
	vmovdqu	%xmm9, 72(%r15,%rsi)
	vpunpckhbw	%xmm8, %xmm0, %xmm0
	vpshufb	%xmm7, %xmm0, %xmm0
	vmovq	%xmm0, 88(%r15,%rsi)
	vextracti128	$1, %ymm11, %xmm0
	leaq	96(%rsi), %rax
	leaq	64(%rbx), %rcx
	cmpq	%r12, %rcx
	ja	.LBB23_35
	cmpq	%rax, %r14
	jb	.LBB23_35
	vmovdqu	(%r13,%rcx), %ymm9
	vmovdqu	32(%r13,%rcx), %ymm8
	vpaddw	%ymm12, %ymm9, %ymm10
	vpaddw	%ymm12, %ymm8, %ymm11
	vpminuw	%ymm11, %ymm8, %ymm11
	vpminuw	%ymm10, %ymm9, %ymm10
	vpminuw	%ymm11, %ymm10, %ymm10
	vextracti128	$1, %ymm10, %xmm11
	vpminuw	%xmm11, %xmm10, %xmm10
	vpminuw	.LCPI23_3(%rip), %xmm10, %xmm11
	vpcmpeqw	%xmm11, %xmm10, %xmm10
	vpmovmskb	%xmm10, %edx
	testl	%edx, %edx
	jne	.LBB23_35
	addq	$192, %rsi
	subq	$-128, %rbx
	.p2align	4
.LBB23_28:
	movq	%rsi, %rax
	vpsrlw	$12, %ymm9, %ymm0
	vpsllw	$2, %ymm9, %ymm10
	vpand	%ymm1, %ymm10, %ymm10
	vpor	%ymm2, %ymm0, %ymm0
	vpor	%ymm0, %ymm10, %ymm10
	vpand	%ymm3, %ymm9, %ymm0
	vpor	%ymm4, %ymm0, %ymm9
	vpshufb	%xmm5, %xmm9, %xmm0
	vpshufb	%xmm6, %xmm10, %xmm11
	vpor	%xmm0, %xmm11, %xmm0
	vmovdqu	%xmm0, -96(%r15,%rsi)
	vpunpckhbw	%xmm9, %xmm10, %xmm0
	vpshufb	%xmm7, %xmm0, %xmm0
	vmovq	%xmm0, -80(%r15,%rsi)
	vmovdqa	%ymm8, %ymm0
	movq	%rbx, %rcx
	vextracti128	$1, %ymm10, %xmm8
	vextracti128	$1, %ymm9, %xmm9
	vpshufb	%xmm5, %xmm9, %xmm10
	vpshufb	%xmm6, %xmm8, %xmm11
	vpor	%xmm10, %xmm11, %xmm10
	vmovdqu	%xmm10, -72(%r15,%rsi)
	vpunpckhbw	%xmm9, %xmm8, %xmm8
	vpshufb	%xmm7, %xmm8, %xmm8
	vmovq	%xmm8, -56(%r15,%rsi)
	vpsrlw	$12, %ymm0, %ymm8
	vpsllw	$2, %ymm0, %ymm9
	vpand	%ymm1, %ymm9, %ymm9
	vpor	%ymm2, %ymm8, %ymm8
	vpor	%ymm9, %ymm8, %ymm8
	vpand	%ymm3, %ymm0, %ymm9
	vpor	%ymm4, %ymm9, %ymm9
	vpshufb	%xmm5, %xmm9, %xmm10
	vpshufb	%xmm6, %xmm8, %xmm11
	vpor	%xmm10, %xmm11, %xmm10
	vmovdqu	%xmm10, -48(%r15,%rsi)
	vpunpckhbw	%xmm9, %xmm8, %xmm10
	vpshufb	%xmm7, %xmm10, %xmm10
	vmovq	%xmm10, -32(%r15,%rsi)
	vextracti128	$1, %ymm8, %xmm8
	vextracti128	$1, %ymm9, %xmm9
	vpshufb	%xmm5, %xmm9, %xmm10
	vpshufb	%xmm6, %xmm8, %xmm11
	vpor	%xmm10, %xmm11, %xmm10
	vmovdqu	%xmm10, -24(%r15,%rsi)
	vpunpckhbw	%xmm9, %xmm8, %xmm8
	vpshufb	%xmm7, %xmm8, %xmm8
	vmovq	%xmm8, -8(%r15,%rsi)
	cmpq	%r12, %rbx
	ja	.LBB23_34
	cmpq	%rax, %r14
	jb	.LBB23_34
	vmovdqu	(%r13,%rcx), %ymm9
	vmovdqu	32(%r13,%rcx), %ymm8
	vpaddw	%ymm12, %ymm9, %ymm10
	vpaddw	%ymm12, %ymm8, %ymm11
	vpminuw	%ymm11, %ymm8, %ymm11
	vpminuw	%ymm10, %ymm9, %ymm10
	vpminuw	%ymm11, %ymm10, %ymm10
	vextracti128	$1, %ymm10, %xmm11
	vpminuw	%xmm11, %xmm10, %xmm10
	vpminuw	.LCPI23_3(%rip), %xmm10, %xmm11
	vpcmpeqw	%xmm11, %xmm10, %xmm10
	vpmovmskb	%xmm10, %edx
	leaq	96(%rax), %rsi
	leaq	64(%rcx), %rbx
	testl	%edx, %edx
	je	.LBB23_28
.LBB23_34:
	vextracti128	$1, %ymm0, %xmm0
	jmp	.LBB23_35
	.p2align	4
.LBB23_43:
	vextracti128	$1, %ymm0, %xmm0
	addq	$32, %rax
.LBB23_44:
	movq	%rax, %rsi
.LBB23_45:
	cmpq	%rbx, %r12
	jb	.LBB23_52
.LBB23_46:
	cmpq	%rsi, %r14
	jb	.LBB23_52
	vmovdqu	(%r13,%rbx), %ymm1
	vmovdqu	32(%r13,%rbx), %ymm14
	vpsrlw	$8, %ymm14, %ymm3
	vpsrlw	$8, %ymm1, %ymm2
	vpackuswb	%ymm3, %ymm2, %ymm2
	vpermq	$216, %ymm2, %ymm2
	vpand	.LCPI23_19(%rip), %ymm2, %ymm3
	vpcmpeqb	.LCPI23_20(%rip), %ymm3, %ymm2
	vpmovmskb	%ymm2, %eax
	vpcmpeqb	.LCPI23_21(%rip), %ymm3, %ymm2
	vpmovmskb	%ymm2, %ecx
	movzbl	%bpl, %edx
	andl	$1, %edx
	leal	(%rdx,%rax,2), %edx
	cmpl	%ecx, %edx
	jne	.LBB23_52
	shrl	$31, %eax
	movl	%eax, %ebp
	vpor	%ymm1, %ymm14, %ymm3
	vpbroadcastq	.LCPI23_1(%rip), %ymm2
	vptest	%ymm2, %ymm3
	je	.LBB23_50
	vpbroadcastd	.LCPI23_27(%rip), %ymm15
	vpaddw	%ymm15, %ymm14, %ymm2
	vpaddw	%ymm1, %ymm15, %ymm3
	vpminuw	%ymm3, %ymm1, %ymm3
	vpminuw	%ymm2, %ymm14, %ymm2
	vpor	%ymm2, %ymm3, %ymm2
	vptest	.LCPI23_4(%rip), %ymm2
	jne	.LBB23_50
	vinserti128	$1, %xmm0, %ymm0, %ymm0
	vperm2i128	$33, %ymm1, %ymm0, %ymm0
	vpalignr	$14, %ymm0, %ymm1, %ymm0
	vpbroadcastd	.LCPI23_40(%rip), %ymm2
	vpaddw	%ymm2, %ymm1, %ymm7
	vpbroadcastd	.LCPI23_41(%rip), %ymm3
	vpaddw	%ymm3, %ymm1, %ymm4
	vpsrlw	$2, %ymm4, %ymm5
	vpbroadcastd	.LCPI23_42(%rip), %ymm4
	vpsubusw	%ymm4, %ymm5, %ymm8
	vpsllw	$10, %ymm0, %ymm0
	vpbroadcastd	.LCPI23_43(%rip), %ymm5
	vpand	%ymm5, %ymm0, %ymm0
	vpbroadcastd	.LCPI23_44(%rip), %ymm6
	vpaddw	%ymm6, %ymm1, %ymm9
	vpaddw	%ymm0, %ymm9, %ymm0
	vpmaxuw	%ymm0, %ymm8, %ymm8
	vpxor	%xmm0, %xmm0, %xmm0
	vpcmpgtw	%ymm1, %ymm0, %ymm9
	vpblendvb	%ymm9, %ymm8, %ymm7, %ymm8
	vpsrlw	$6, %ymm8, %ymm9
	vpbroadcastd	.LCPI23_30(%rip), %ymm7
	vpsllw	$8, %ymm8, %ymm10
	vpbroadcastd	.LCPI23_32(%rip), %ymm8
	vpand	%ymm8, %ymm10, %ymm10
	vpaddw	%ymm9, %ymm10, %ymm9
	vpor	%ymm7, %ymm9, %ymm10
	vpbroadcastd	.LCPI23_36(%rip), %ymm9
	vpminuw	%ymm9, %ymm1, %ymm11
	vpcmpeqw	%ymm1, %ymm11, %ymm11
	vpblendvb	%ymm11, %ymm1, %ymm10, %ymm10
	vextracti128	$1, %ymm11, %xmm12
	vpacksswb	%xmm12, %xmm11, %xmm11
	vpmovmskb	%xmm11, %ecx
	movzbl	%cl, %edx
	popcntl	%edx, %edi
	shll	$4, %edx
	leaq	.Lstatic.8(%rip), %rax
	vpshufb	(%rdx,%rax), %xmm10, %xmm11
	vmovdqu	%xmm11, (%r15,%rsi)
	subq	%rdi, %rsi
	shrl	$8, %ecx
	vextracti128	$1, %ymm10, %xmm10
	xorl	%edx, %edx
	popcntl	%ecx, %edx
	shll	$4, %ecx
	vpshufb	(%rcx,%rax), %xmm10, %xmm10
	vmovdqu	%xmm10, 16(%r15,%rsi)
	vperm2i128	$33, %ymm14, %ymm1, %ymm10
	vpalignr	$14, %ymm10, %ymm14, %ymm10
	vpaddw	%ymm2, %ymm14, %ymm11
	vpaddw	%ymm3, %ymm14, %ymm12
	vpsrlw	$2, %ymm12, %ymm12
	vpsubusw	%ymm4, %ymm12, %ymm12
	vpsllw	$10, %ymm10, %ymm10
	vpand	%ymm5, %ymm10, %ymm10
	vpaddw	%ymm6, %ymm14, %ymm13
	vpaddw	%ymm10, %ymm13, %ymm10
	vpmaxuw	%ymm10, %ymm12, %ymm10
	vpcmpgtw	%ymm14, %ymm0, %ymm0
	vpblendvb	%ymm0, %ymm10, %ymm11, %ymm0
	subq	%rdx, %rsi
	vpsrlw	$6, %ymm0, %ymm10
	vpsllw	$8, %ymm0, %ymm0
	vpand	%ymm0, %ymm8, %ymm0
	vpaddw	%ymm0, %ymm10, %ymm0
	vpor	%ymm7, %ymm0, %ymm0
	vpminuw	%ymm9, %ymm14, %ymm10
	vpcmpeqw	%ymm10, %ymm14, %ymm10
	vpblendvb	%ymm10, %ymm14, %ymm0, %ymm0
	vextracti128	$1, %ymm10, %xmm11
	vpacksswb	%xmm11, %xmm10, %xmm10
	vpmovmskb	%xmm10, %ecx
	movzbl	%cl, %edx
	xorl	%edi, %edi
	popcntl	%edx, %edi
	shll	$4, %edx
	vpshufb	(%rdx,%rax), %xmm0, %xmm10
	vmovdqu	%xmm10, 32(%r15,%rsi)
	addq	$32, %rsi
	shrl	$8, %ecx
	vextracti128	$1, %ymm0, %xmm0
	xorl	%edx, %edx
	popcntl	%ecx, %edx
	shll	$4, %ecx
	vpshufb	(%rcx,%rax), %xmm0, %xmm0
	subq	%rdi, %rsi
	vmovdqu	%xmm0, 16(%r15,%rsi)
	subq	%rdx, %rsi
	vextracti128	$1, %ymm14, %xmm0
	addq	$64, %rbx
	addq	$32, %rsi
	cmpq	%r12, %rbx
	ja	.LBB23_51
.LBB23_55:
	cmpq	%rsi, %r14
	jb	.LBB23_51
	vmovdqu	(%r13,%rbx), %ymm11
	vmovdqu	32(%r13,%rbx), %ymm10
	vpor	%ymm10, %ymm11, %ymm12
	vptest	.LCPI23_4(%rip), %ymm12
	je	.LBB23_51
	vpaddw	%ymm15, %ymm10, %ymm12
	vpaddw	%ymm15, %ymm11, %ymm13
	vpminuw	%ymm13, %ymm11, %ymm13
	vpminuw	%ymm12, %ymm10, %ymm12
	vpor	%ymm12, %ymm13, %ymm12
	vptest	.LCPI23_4(%rip), %ymm12
	jne	.LBB23_51
	vpsrlw	$8, %ymm11, %ymm12
	vpsrlw	$8, %ymm10, %ymm13
	vpackuswb	%ymm13, %ymm12, %ymm12
	vpermq	$216, %ymm12, %ymm12
	vpand	.LCPI23_19(%rip), %ymm12, %ymm12
	vpcmpeqb	.LCPI23_20(%rip), %ymm12, %ymm13
	vpmovmskb	%ymm13, %ecx
	vpcmpeqb	.LCPI23_21(%rip), %ymm12, %ymm12
	vpmovmskb	%ymm12, %edx
	leal	(%rcx,%rcx), %edi
	movzbl	%bpl, %r8d
	orl	%edi, %r8d
	cmpl	%edx, %r8d
	jne	.LBB23_51
	vinserti128	$1, %xmm0, %ymm0, %ymm0
	vperm2i128	$33, %ymm11, %ymm0, %ymm0
	vpalignr	$14, %ymm0, %ymm11, %ymm0
	vpaddw	%ymm2, %ymm11, %ymm12
	vpaddw	%ymm3, %ymm11, %ymm13
	vpsrlw	$2, %ymm13, %ymm13
	vpsubusw	%ymm4, %ymm13, %ymm13
	vpsllw	$10, %ymm0, %ymm0
	vpand	%ymm5, %ymm0, %ymm0
	vpaddw	%ymm6, %ymm11, %ymm14
	vpaddw	%ymm0, %ymm14, %ymm0
	vpmaxuw	%ymm0, %ymm13, %ymm13
	vpxor	%xmm0, %xmm0, %xmm0
	vpcmpgtw	%ymm11, %ymm0, %ymm14
	vpblendvb	%ymm14, %ymm13, %ymm12, %ymm12
	vpsrlw	$6, %ymm12, %ymm13
	vpsllw	$8, %ymm12, %ymm12
	vpand	%ymm8, %ymm12, %ymm12
	vpaddw	%ymm13, %ymm12, %ymm12
	vpor	%ymm7, %ymm12, %ymm12
	vpminuw	%ymm9, %ymm11, %ymm13
	vpcmpeqw	%ymm13, %ymm11, %ymm13
	vpblendvb	%ymm13, %ymm11, %ymm12, %ymm12
	vextracti128	$1, %ymm13, %xmm14
	vpacksswb	%xmm14, %xmm13, %xmm13
	vpmovmskb	%xmm13, %edx
	movzbl	%dl, %edi
	xorl	%r8d, %r8d
	popcntl	%edi, %r8d
	shll	$4, %edi
	vpshufb	(%rdi,%rax), %xmm12, %xmm13
	vmovdqu	%xmm13, (%r15,%rsi)
	subq	%r8, %rsi
	shrl	$8, %edx
	vextracti128	$1, %ymm12, %xmm12
	xorl	%edi, %edi
	popcntl	%edx, %edi
	shll	$4, %edx
	vpshufb	(%rdx,%rax), %xmm12, %xmm12
	vmovdqu	%xmm12, 16(%r15,%rsi)
	vperm2i128	$33, %ymm10, %ymm11, %ymm11
	vpalignr	$14, %ymm11, %ymm10, %ymm11
	vpaddw	%ymm2, %ymm10, %ymm12
	vpaddw	%ymm3, %ymm10, %ymm13
	vpsrlw	$2, %ymm13, %ymm13
	vpsubusw	%ymm4, %ymm13, %ymm13
	vpsllw	$10, %ymm11, %ymm11
	vpand	%ymm5, %ymm11, %ymm11
	vpaddw	%ymm6, %ymm10, %ymm14
	vpaddw	%ymm11, %ymm14, %ymm11
	vpmaxuw	%ymm11, %ymm13, %ymm11
	vpcmpgtw	%ymm10, %ymm0, %ymm0
	vpblendvb	%ymm0, %ymm11, %ymm12, %ymm0
	subq	%rdi, %rsi
	vpsrlw	$6, %ymm0, %ymm11
	vpsllw	$8, %ymm0, %ymm0
	vpand	%ymm0, %ymm8, %ymm0
	vpaddw	%ymm0, %ymm11, %ymm0
	vpor	%ymm7, %ymm0, %ymm0
	vpminuw	%ymm9, %ymm10, %ymm11
	vpcmpeqw	%ymm11, %ymm10, %ymm11
	vpblendvb	%ymm11, %ymm10, %ymm0, %ymm0
	vextracti128	$1, %ymm11, %xmm12
	vpacksswb	%xmm12, %xmm11, %xmm11
	vpmovmskb	%xmm11, %edx
	movzbl	%dl, %edi
	xorl	%r8d, %r8d
	popcntl	%edi, %r8d
	shll	$4, %edi
	vpshufb	(%rdi,%rax), %xmm0, %xmm11
	vmovdqu	%xmm11, 32(%r15,%rsi)
	shrl	$31, %ecx
	movl	%ecx, %ebp
	addq	$32, %rsi
	shrl	$8, %edx
	vextracti128	$1, %ymm0, %xmm0
	xorl	%ecx, %ecx
	popcntl	%edx, %ecx
	shll	$4, %edx
	vpshufb	(%rdx,%rax), %xmm0, %xmm0
	subq	%r8, %rsi
	vmovdqu	%xmm0, 16(%r15,%rsi)
	subq	%rcx, %rsi
	vextracti128	$1, %ymm10, %xmm0
	addq	$64, %rbx
	addq	$32, %rsi
	cmpq	%r12, %rbx
	jbe	.LBB23_55
	jmp	.LBB23_51
.LBB23_8:
	vextracti128	$1, %ymm0, %xmm0
	addq	$32, %rsi
	cmpq	%rbx, %r12
	jae	.LBB23_46
	jmp	.LBB23_52
.LBB23_36:
	movq	%rcx, %rbx
	jmp	.LBB23_44
.LBB23_52:
	movq	8(%rsp), %rax
	movq	%rbx, (%rax)
	movq	%rsi, 8(%rax)
	vmovdqu	%xmm0, 16(%rax)
	andb	$1, %bpl
	movb	%bpl, 32(%rax)
	movl	$0, 33(%rax)
	movl	$0, 36(%rax)
.LBB23_10:
	addq	$88, %rsp
	.cfi_def_cfa_offset 56
	popq	%rbx
	.cfi_def_cfa_offset 48
	popq	%r12
	.cfi_def_cfa_offset 40
	popq	%r13
	.cfi_def_cfa_offset 32
	popq	%r14
	.cfi_def_cfa_offset 24
	popq	%r15
	.cfi_def_cfa_offset 16
	popq	%rbp
	.cfi_def_cfa_offset 8
	vzeroupper
	retq
.Lfunc_end23:
	.size	"utf16_to_utf8::runs::write_paired::<#418c2b53cf60437c>", .Lfunc_end23-"utf16_to_utf8::runs::write_paired::<#418c2b53cf60437c>"
	.cfi_endproc

	.section	.rodata.cst16,"aM",@progbits,16
	.p2align	4, 0x0
.LCPI24_0:
	.short	128
	.short	128
	.short	128
	.short	128
	.short	128
	.short	128
	.short	128
	.short	128
	.section	".text.utf16_transcode::transcoding::write_chars::<#556930da7d070edc>","ax",@progbits
	.p2align	4
	.type	"utf16_transcode::transcoding::write_chars::<#556930da7d070edc>",@function
"utf16_transcode::transcoding::write_chars::<#556930da7d070edc>":
	.cfi_startproc
	pushq	%rbp
	.cfi_def_cfa_offset 16
	pushq	%r15
	.cfi_def_cfa_offset 24
	pushq	%r14
	.cfi_def_cfa_offset 32
	pushq	%r13
	.cfi_def_cfa_offset 40
	pushq	%r12
	.cfi_def_cfa_offset 48
	pushq	%rbx
	.cfi_def_cfa_offset 56
	pushq	%rax
	.cfi_def_cfa_offset 64
	.cfi_offset %rbx, -56
	.cfi_offset %r12, -48
	.cfi_offset %r13, -40
	.cfi_offset %r14, -32
	.cfi_offset %r15, -24
	.cfi_offset %rbp, -16
	movq	%r8, %rbx
	movq	%rdx, %r14
	movq	%rsi, %r15
	movq	%rdi, %r12
	addq	%r8, %rdx
	movq	%rcx, (%rsp)
	subq	%r8, %rcx
	leaq	-16(%rsi), %rax
	cmpq	$175, %rax
	ja	.LBB24_1
	movq	%r15, %rax
	shrq	%rax
	cmpq	%rax, %rcx
	cmovbq	%rcx, %rax
	cmpq	$8, %rax
	jb	.LBB24_1
	leaq	(%rax,%rax), %rsi
	xorl	%ebp, %ebp
	xorl	%r13d, %r13d
	.p2align	4
.LBB24_4:
	vmovdqu	(%r12,%r13,2), %xmm0
	vpmaxuw	.LCPI24_0(%rip), %xmm0, %xmm1
	vpcmpeqw	%xmm1, %xmm0, %xmm1
	vpmovmskb	%xmm1, %edi
	testl	%edi, %edi
	jne	.LBB24_9
	vpackuswb	%xmm0, %xmm0, %xmm0
	vmovq	%xmm0, (%rdx,%r13)
	addq	$8, %r13
	leaq	(%rsi,%rbp), %rdi
	addq	$-16, %rdi
	addq	$-16, %rbp
	cmpq	$15, %rdi
	ja	.LBB24_4
	negq	%rbp
	cmpq	%rbp, %rsi
	jbe	.LBB24_10
	vmovdqu	-16(%r12,%rsi), %xmm0
	vpmaxuw	.LCPI24_0(%rip), %xmm0, %xmm1
	vpcmpeqw	%xmm1, %xmm0, %xmm1
	vpmovmskb	%xmm1, %edi
	testl	%edi, %edi
	jne	.LBB24_10
	vpackuswb	%xmm0, %xmm0, %xmm0
	vmovq	%xmm0, -8(%rdx,%rax)
	movq	%rax, %r13
	movq	%rsi, %rbp
	movq	%r15, %rax
	subq	%rbp, %rax
	cmpq	$15, %rax
	jbe	.LBB24_11
	jmp	.LBB24_19
.LBB24_1:
	xorl	%r13d, %r13d
	xorl	%ebp, %ebp
.LBB24_10:
	movq	%r15, %rax
	subq	%rbp, %rax
	cmpq	$15, %rax
	ja	.LBB24_19
.LBB24_11:
	movq	%rcx, %rsi
	subq	%r13, %rsi
	movq	%rax, %rdi
	shrq	%rdi
	leaq	(%rdi,%rdi,2), %rdi
	cmpq	%rdi, %rsi
	setb	%sil
	cmpq	$2, %rax
	setb	%dil
	orb	%sil, %dil
	je	.LBB24_12
	jmp	.LBB24_19
	.p2align	4
.LBB24_13:
	movb	%sil, (%rdx,%r13)
	incq	%r13
.LBB24_18:
	addq	$2, %rbp
	addq	$-2, %rax
	cmpq	$1, %rax
	jbe	.LBB24_19
.LBB24_12:
	movzbl	(%r12,%rbp), %esi
	movzbl	1(%r12,%rbp), %r8d
	movl	%r8d, %edi
	shll	$8, %edi
	orl	%esi, %edi
	cmpw	$127, %di
	jbe	.LBB24_13
	cmpb	$7, %r8b
	ja	.LBB24_16
	movzwl	%si, %esi
	andl	$63, %esi
	shll	$8, %esi
	movzwl	%di, %edi
	shrl	$6, %edi
	orl	%esi, %edi
	orl	$32960, %edi
	movw	%di, (%rdx,%r13)
	addq	$2, %r13
	jmp	.LBB24_18
	.p2align	4
.LBB24_16:
	movzwl	%r8w, %r9d
	andl	$-8, %r9d
	cmpl	$216, %r9d
	je	.LBB24_19
	andb	$63, %sil
	orb	$-128, %sil
	shrl	$6, %edi
	andb	$63, %dil
	orb	$-128, %dil
	shrb	$4, %r8b
	orb	$-32, %r8b
	movb	%r8b, (%rdx,%r13)
	movb	%dil, 1(%rdx,%r13)
	movb	%sil, 2(%rdx,%r13)
	addq	$3, %r13
	jmp	.LBB24_18
.LBB24_9:
	negq	%rbp
	movq	%r15, %rax
	subq	%rbp, %rax
	cmpq	$15, %rax
	jbe	.LBB24_11
.LBB24_19:
	leaq	-8(%r15), %rax
	cmpq	$183, %rax
	ja	.LBB24_22
	movq	%r15, %rsi
	subq	%rbp, %rsi
	cmpq	$8, %rsi
	jb	.LBB24_22
	leaq	(%r12,%rbp), %rdi
	addq	%r13, %rdx
	subq	%r13, %rcx
	callq	"utf16_to_utf8::vectors::write_vectors::<#418c2b53cf60437c>"
	addq	%rax, %rbp
	addq	%rdx, %r13
.LBB24_22:
	addq	%rbx, %r13
	cmpq	%r15, %rbp
	jae	.LBB24_41
	movq	(%rsp), %rbx
	jmp	.LBB24_24
	.p2align	4
.LBB24_34:
	movb	%al, (%r14,%r13)
	incq	%r13
.LBB24_40:
	addq	%rcx, %rbp
	cmpq	%r15, %rbp
	jae	.LBB24_41
.LBB24_24:
	movq	%r15, %rax
	subq	%rbp, %rax
	cmpq	$2, %rax
	jb	.LBB24_41
	movzbl	1(%r12,%rbp), %edx
	movzwl	%dx, %ecx
	andl	$-8, %edx
	cmpl	$216, %edx
	jne	.LBB24_29
	cmpq	$4, %rax
	jb	.LBB24_41
	movl	%ecx, %eax
	andl	$-36, %eax
	movzwl	%ax, %eax
	cmpl	$220, %eax
	je	.LBB24_41
	movzbl	3(%r12,%rbp), %eax
	andb	$-4, %al
	cmpb	$-36, %al
	jne	.LBB24_41
.LBB24_29:
	movzbl	(%r12,%rbp), %edx
	movl	%ecx, %eax
	shll	$8, %eax
	orl	%edx, %eax
	andl	$-4, %ecx
	cmpl	$216, %ecx
	jne	.LBB24_30
	movzwl	2(%r12,%rbp), %esi
	movl	%eax, %edi
	callq	"utf16_units::unit::decode_surrogates"
	movl	$4, %ecx
	jmp	.LBB24_32
	.p2align	4
.LBB24_30:
	movl	$2, %ecx
.LBB24_32:
	movq	%rbx, %rdx
	subq	%r13, %rdx
	cmpl	$65536, %eax
	movl	$4, %esi
	sbbq	$0, %rsi
	cmpl	$2048, %eax
	movl	$2, %edi
	cmovaeq	%rsi, %rdi
	cmpl	$128, %eax
	movl	$1, %esi
	cmovaeq	%rdi, %rsi
	cmpq	%rsi, %rdx
	jb	.LBB24_41
	cmpl	$127, %eax
	jbe	.LBB24_34
	movl	%eax, %edx
	andb	$63, %dl
	orb	$-128, %dl
	cmpl	$2047, %eax
	ja	.LBB24_37
	shrl	$6, %eax
	movzbl	%dl, %edx
	shll	$8, %edx
	orl	%eax, %edx
	orl	$192, %edx
	movw	%dx, (%r14,%r13)
	addq	$2, %r13
	jmp	.LBB24_40
	.p2align	4
.LBB24_37:
	movl	%eax, %esi
	cmpl	$65535, %eax
	ja	.LBB24_39
	shrl	$6, %esi
	andb	$63, %sil
	orb	$-128, %sil
	shrl	$12, %eax
	orb	$-32, %al
	movb	%al, (%r14,%r13)
	movb	%sil, 1(%r14,%r13)
	movb	%dl, 2(%r14,%r13)
	addq	$3, %r13
	jmp	.LBB24_40
.LBB24_39:
	shrl	$18, %esi
	addl	$240, %esi
	movzbl	%dl, %edx
	shll	$24, %edx
	movl	%eax, %edi
	shll	$10, %edi
	andl	$4128768, %edi
	orl	%edx, %edi
	shrl	$4, %eax
	andl	$16128, %eax
	orl	%edi, %eax
	movzbl	%sil, %edx
	addl	%edx, %eax
	addl	$8421376, %eax
	movl	%eax, (%r14,%r13)
	addq	$4, %r13
	jmp	.LBB24_40
.LBB24_41:
	movq	%rbp, %rax
	movq	%r13, %rdx
	addq	$8, %rsp
	.cfi_def_cfa_offset 56
	popq	%rbx
	.cfi_def_cfa_offset 48
	popq	%r12
	.cfi_def_cfa_offset 40
	popq	%r13
	.cfi_def_cfa_offset 32
	popq	%r14
	.cfi_def_cfa_offset 24
	popq	%r15
	.cfi_def_cfa_offset 16
	popq	%rbp
	.cfi_def_cfa_offset 8
	retq
.Lfunc_end24:
	.size	"utf16_transcode::transcoding::write_chars::<#556930da7d070edc>", .Lfunc_end24-"utf16_transcode::transcoding::write_chars::<#556930da7d070edc>"
	.cfi_endproc

	.section	.rodata.cst16,"aM",@progbits,16
	.p2align	4, 0x0
.LCPI25_0:
	.zero	16,248
.LCPI25_1:
	.zero	16,216
.LCPI25_2:
	.byte	1
	.byte	3
	.byte	5
	.byte	7
	.byte	9
	.byte	11
	.byte	13
	.byte	15
	.zero	1
	.zero	1
	.zero	1
	.zero	1
	.zero	1
	.zero	1
	.zero	1
	.zero	1
.LCPI25_3:
	.byte	1
	.byte	3
	.byte	5
	.byte	7
	.zero	1
	.zero	1
	.zero	1
	.zero	1
	.zero	1
	.zero	1
	.zero	1
	.zero	1
	.zero	1
	.zero	1
	.zero	1
	.zero	1
.LCPI25_4:
	.byte	248
	.byte	248
	.byte	248
	.byte	248
	.zero	1
	.zero	1
	.zero	1
	.zero	1
	.zero	1
	.zero	1
	.zero	1
	.zero	1
	.zero	1
	.zero	1
	.zero	1
	.zero	1
.LCPI25_5:
	.byte	216
	.byte	216
	.byte	216
	.byte	216
	.zero	1
	.zero	1
	.zero	1
	.zero	1
	.zero	1
	.zero	1
	.zero	1
	.zero	1
	.zero	1
	.zero	1
	.zero	1
	.zero	1
	.section	".text.utf16_transcode::decode::valid_up_to::<#418c2b53cf60437c>","ax",@progbits
	.p2align	4
	.type	"utf16_transcode::decode::valid_up_to::<#418c2b53cf60437c>",@function
"utf16_transcode::decode::valid_up_to::<#418c2b53cf60437c>":
	.cfi_startproc
	cmpq	$2, %rsi
	jne	.LBB25_3
	movzbl	1(%rdi), %ecx
	andb	$-8, %cl
	movl	$2, %eax
.LBB25_2:
	cmpb	$-40, %cl
	je	"utf16_units::validate::valid_len::<#418c2b53cf60437c>"
	retq
.LBB25_3:
	cmpq	$7, %rsi
	ja	.LBB25_12
	testq	%rsi, %rsi
	je	.LBB25_23
	cmpq	$6, %rsi
	je	.LBB25_9
	cmpq	$4, %rsi
	jne	"utf16_units::validate::valid_len::<#418c2b53cf60437c>"
	movzbl	1(%rdi), %eax
	andb	$-8, %al
	cmpb	$-40, %al
	je	"utf16_units::validate::valid_len::<#418c2b53cf60437c>"
	movzbl	3(%rdi), %ecx
	andb	$-8, %cl
	movl	$4, %eax
	jmp	.LBB25_2
.LBB25_12:
	cmpq	$65, %rsi
	setae	%al
	movl	%esi, %ecx
	orb	%al, %cl
	testb	$1, %cl
	jne	"utf16_units::validate::valid_len::<#418c2b53cf60437c>"
	cmpq	$15, %rsi
	ja	.LBB25_17
	vmovq	(%rdi), %xmm0
	vpshufb	.LCPI25_3(%rip), %xmm0, %xmm0
	vpand	.LCPI25_4(%rip), %xmm0, %xmm0
	vpcmpeqb	.LCPI25_5(%rip), %xmm0, %xmm0
	vpmovsxbd	%xmm0, %xmm0
	vtestps	%xmm0, %xmm0
	jne	"utf16_units::validate::valid_len::<#418c2b53cf60437c>"
	vmovq	-8(%rdi,%rsi), %xmm0
	vpshufb	.LCPI25_3(%rip), %xmm0, %xmm0
	vpand	.LCPI25_4(%rip), %xmm0, %xmm0
	vpcmpeqb	.LCPI25_5(%rip), %xmm0, %xmm0
	vpmovsxbd	%xmm0, %xmm0
	vtestps	%xmm0, %xmm0
	jne	"utf16_units::validate::valid_len::<#418c2b53cf60437c>"
	jmp	.LBB25_23
.LBB25_17:
	cmpq	$31, %rsi
	ja	.LBB25_21
	vmovdqu	(%rdi), %xmm0
	vpshufb	.LCPI25_2(%rip), %xmm0, %xmm0
	vpand	.LCPI25_0(%rip), %xmm0, %xmm0
	vpcmpeqb	.LCPI25_1(%rip), %xmm0, %xmm0
	vpmovmskb	%xmm0, %eax
	testb	%al, %al
	jne	"utf16_units::validate::valid_len::<#418c2b53cf60437c>"
	vmovdqu	-16(%rdi,%rsi), %xmm0
	vpshufb	.LCPI25_2(%rip), %xmm0, %xmm0
	vpand	.LCPI25_0(%rip), %xmm0, %xmm0
	vpcmpeqb	.LCPI25_1(%rip), %xmm0, %xmm0
	vpmovmskb	%xmm0, %eax
	testb	%al, %al
	jne	"utf16_units::validate::valid_len::<#418c2b53cf60437c>"
	jmp	.LBB25_23
.LBB25_9:
	movzbl	1(%rdi), %eax
	andb	$-8, %al
	cmpb	$-40, %al
	je	"utf16_units::validate::valid_len::<#418c2b53cf60437c>"
	movzbl	3(%rdi), %eax
	andb	$-8, %al
	cmpb	$-40, %al
	je	"utf16_units::validate::valid_len::<#418c2b53cf60437c>"
	movzbl	5(%rdi), %ecx
	andb	$-8, %cl
	movl	$6, %eax
	jmp	.LBB25_2
.LBB25_21:
	vmovdqu	(%rdi), %ymm0
	vpsrlw	$8, %ymm0, %ymm0
	vextracti128	$1, %ymm0, %xmm1
	vpackuswb	%xmm1, %xmm0, %xmm0
	vpand	.LCPI25_0(%rip), %xmm0, %xmm0
	vpcmpeqb	.LCPI25_1(%rip), %xmm0, %xmm0
	vpmovmskb	%xmm0, %eax
	testl	%eax, %eax
	vzeroupper
	jne	"utf16_units::validate::valid_len::<#418c2b53cf60437c>"
	vmovdqu	-32(%rdi,%rsi), %ymm0
	vpsrlw	$8, %ymm0, %ymm0
	vextracti128	$1, %ymm0, %xmm1
	vpackuswb	%xmm1, %xmm0, %xmm0
	vpand	.LCPI25_0(%rip), %xmm0, %xmm0
	vpcmpeqb	.LCPI25_1(%rip), %xmm0, %xmm0
	vpmovmskb	%xmm0, %eax
	testl	%eax, %eax
	vzeroupper
	jne	"utf16_units::validate::valid_len::<#418c2b53cf60437c>"
.LBB25_23:
	movq	%rsi, %rax
	retq
.Lfunc_end25:
	.size	"utf16_transcode::decode::valid_up_to::<#418c2b53cf60437c>", .Lfunc_end25-"utf16_transcode::decode::valid_up_to::<#418c2b53cf60437c>"
	.cfi_endproc

	.section	.rodata.cst32,"aM",@progbits,32
	.p2align	5, 0x0
.LCPI26_0:
	.zero	32,248
.LCPI26_1:
	.zero	32,216
.LCPI26_2:
	.zero	32,252
.LCPI26_3:
	.zero	32,220
	.section	.rodata.cst16,"aM",@progbits,16
	.p2align	4, 0x0
.LCPI26_4:
	.zero	16,252
.LCPI26_5:
	.zero	16,216
.LCPI26_6:
	.zero	16,220
	.section	.rodata.cst4,"aM",@progbits,4
	.p2align	2, 0x0
.LCPI26_7:
	.zero	4,248
.LCPI26_8:
	.zero	4,216
	.section	".text.utf16_units::validate::valid_len::<#418c2b53cf60437c>","ax",@progbits
	.p2align	4
	.type	"utf16_units::validate::valid_len::<#418c2b53cf60437c>",@function
"utf16_units::validate::valid_len::<#418c2b53cf60437c>":
	.cfi_startproc
	cmpq	$32, %rsi
	jae	.LBB26_9
	testq	%rsi, %rsi
	je	.LBB26_14
	xorl	%ecx, %ecx
	jmp	.LBB26_4
	.p2align	4
.LBB26_3:
	addq	%rcx, %rax
	movq	%rax, %rcx
	cmpq	%rsi, %rax
	jae	.LBB26_62
.LBB26_4:
	movq	%rsi, %rdx
	subq	%rcx, %rdx
	cmpq	$2, %rdx
	jb	.LBB26_61
	movzbl	1(%rdi,%rcx), %r8d
	movl	%r8d, %r9d
	andl	$-8, %r9d
	movl	$2, %eax
	cmpl	$216, %r9d
	jne	.LBB26_3
	cmpq	$4, %rdx
	jb	.LBB26_61
	movzwl	%r8w, %eax
	andl	$-36, %eax
	movzwl	%ax, %eax
	cmpl	$220, %eax
	je	.LBB26_61
	movzbl	3(%rdi,%rcx), %edx
	andb	$-4, %dl
	movl	$4, %eax
	cmpb	$-36, %dl
	je	.LBB26_3
	jmp	.LBB26_61
.LBB26_9:
	cmpq	$64, %rsi
	jb	.LBB26_13
	movq	%rsi, %rcx
	andq	$-128, %rcx
	vmovdqu	(%rdi), %ymm0
	vmovdqu	32(%rdi), %ymm1
	vpsrlw	$8, %ymm1, %ymm2
	vpsrlw	$8, %ymm0, %ymm3
	vpackuswb	%ymm2, %ymm3, %ymm2
	vpermq	$216, %ymm2, %ymm2
	vpand	.LCPI26_0(%rip), %ymm2, %ymm2
	vpcmpeqb	.LCPI26_1(%rip), %ymm2, %ymm2
	vpmovmskb	%ymm2, %eax
	cmpq	$256, %rcx
	jne	.LBB26_15
	testl	%eax, %eax
	je	.LBB26_17
	xorl	%ecx, %ecx
	jmp	.LBB26_22
.LBB26_13:
	xorl	%ecx, %ecx
	xorl	%eax, %eax
	jmp	.LBB26_47
.LBB26_14:
	xorl	%eax, %eax
	retq
.LBB26_15:
	testl	%eax, %eax
	je	.LBB26_36
	xorl	%ecx, %ecx
	movq	%rsi, %rdx
	jmp	.LBB26_21
.LBB26_17:
	movl	$64, %ecx
	movq	%rsi, %rdx
	.p2align	4
.LBB26_18:
	leaq	-64(%rdx), %r8
	cmpq	$63, %r8
	jbe	.LBB26_43
	vmovdqu	(%rdi,%rcx), %ymm0
	vmovdqu	32(%rdi,%rcx), %ymm1
	vpsrlw	$8, %ymm1, %ymm2
	vpsrlw	$8, %ymm0, %ymm3
	vpackuswb	%ymm2, %ymm3, %ymm2
	vpermq	$216, %ymm2, %ymm2
	vpand	.LCPI26_0(%rip), %ymm2, %ymm2
	vpcmpeqb	.LCPI26_1(%rip), %ymm2, %ymm2
	vpmovmskb	%ymm2, %eax
	addq	$64, %rcx
	addq	$-64, %rdx
	testl	%eax, %eax
	je	.LBB26_18
	addq	$-64, %rcx
.LBB26_21:
	cmpq	$64, %rdx
	je	.LBB26_27
.LBB26_22:
	vpsrlw	$8, %ymm0, %ymm0
	vpsrlw	$8, %ymm1, %ymm1
	vpackuswb	%ymm1, %ymm0, %ymm0
	vpermq	$216, %ymm0, %ymm0
	vpand	.LCPI26_0(%rip), %ymm0, %ymm0
	vpcmpeqb	.LCPI26_1(%rip), %ymm0, %ymm0
	vpmovmskb	%ymm0, %eax
	tzcntl	%eax, %eax
	leaq	(%rcx,%rax,2), %rax
	movq	%rsi, %rdx
	subq	%rax, %rdx
	cmpq	$2, %rdx
	jb	.LBB26_62
	movzbl	1(%rdi,%rax), %r8d
	movl	%r8d, %r9d
	andl	$-8, %r9d
	cmpl	$216, %r9d
	jne	.LBB26_27
	cmpq	$4, %rdx
	jb	.LBB26_62
	movzwl	%r8w, %edx
	andl	$-36, %edx
	movzwl	%dx, %edx
	cmpl	$220, %edx
	je	.LBB26_62
	movzbl	3(%rdi,%rax), %edx
	andb	$-4, %dl
	cmpb	$-36, %dl
	jne	.LBB26_62
.LBB26_27:
	xorl	%r8d, %r8d
	jmp	.LBB26_29
	.p2align	4
.LBB26_28:
	shrl	$31, %eax
	movl	%eax, %r8d
	cmpq	$63, %rdx
	jbe	.LBB26_45
.LBB26_29:
	vmovdqu	(%rdi,%rcx), %ymm0
	vmovdqu	32(%rdi,%rcx), %ymm1
	vpsrlw	$8, %ymm1, %ymm1
	vpsrlw	$8, %ymm0, %ymm0
	vpackuswb	%ymm1, %ymm0, %ymm0
	vpermq	$216, %ymm0, %ymm0
	vpand	.LCPI26_2(%rip), %ymm0, %ymm0
	vpcmpeqb	.LCPI26_1(%rip), %ymm0, %ymm1
	vpmovmskb	%ymm1, %eax
	vpcmpeqb	.LCPI26_3(%rip), %ymm0, %ymm0
	vpmovmskb	%ymm0, %edx
	movzbl	%r8b, %r9d
	andl	$1, %r9d
	leal	(%r9,%rax,2), %r9d
	cmpl	%edx, %r9d
	jne	.LBB26_44
	addq	$64, %rcx
	movq	%rsi, %rdx
	subq	%rcx, %rdx
	cmpq	$64, %rdx
	jb	.LBB26_28
	movzbl	%cl, %r8d
	testq	%r8, %r8
	jne	.LBB26_28
	testl	%eax, %eax
	jne	.LBB26_28
	.p2align	4
.LBB26_33:
	vmovdqu	(%rdi,%rcx), %ymm0
	vmovdqu	32(%rdi,%rcx), %ymm1
	vpsrlw	$8, %ymm1, %ymm1
	vpsrlw	$8, %ymm0, %ymm0
	vpackuswb	%ymm1, %ymm0, %ymm0
	vpermq	$216, %ymm0, %ymm0
	vpand	.LCPI26_0(%rip), %ymm0, %ymm0
	vpcmpeqb	.LCPI26_1(%rip), %ymm0, %ymm0
	vpmovmskb	%ymm0, %r8d
	testl	%r8d, %r8d
	jne	.LBB26_28
	addq	$64, %rcx
	addq	$-64, %rdx
	cmpq	$63, %rdx
	ja	.LBB26_33
.LBB26_35:
	xorl	%eax, %eax
.LBB26_46:
	cmpq	$32, %rdx
	jb	.LBB26_48
.LBB26_47:
	vmovdqu	(%rdi,%rcx), %ymm0
	vpsrlw	$8, %ymm0, %ymm0
	vextracti128	$1, %ymm0, %xmm1
	vpackuswb	%xmm1, %xmm0, %xmm0
	vpand	.LCPI26_4(%rip), %xmm0, %xmm0
	vpcmpeqb	.LCPI26_5(%rip), %xmm0, %xmm1
	vpcmpeqb	.LCPI26_6(%rip), %xmm0, %xmm0
	vpmovmskb	%xmm1, %edx
	movl	%edx, %r8d
	vpmovmskb	%xmm0, %r9d
	movzbl	%al, %r10d
	movl	%r10d, %eax
	andl	$1, %eax
	andl	$32767, %edx
	leaq	(%rax,%rdx,2), %rdx
	leaq	32(%rcx), %rax
	cmpq	%r9, %rdx
	cmoveq	%rax, %rcx
	xorl	%eax, %eax
	testw	%r8w, %r8w
	sets	%al
	cmpl	%r9d, %edx
	cmovnel	%r10d, %eax
.LBB26_48:
	leaq	-2(%rcx), %rdx
	testb	$1, %al
	cmoveq	%rcx, %rdx
	movq	%rsi, %rax
	subq	%rdx, %rax
	cmpq	$32, %rax
	ja	.LBB26_52
	movq	%rdx, %rax
	subq	%rsi, %rax
	testb	$1, %al
	jne	.LBB26_54
	vmovdqu	-32(%rdi,%rsi), %ymm0
	addl	$32, %eax
	shrl	%eax
	vpsrlw	$8, %ymm0, %ymm0
	vextracti128	$1, %ymm0, %xmm1
	vpackuswb	%xmm1, %xmm0, %xmm0
	vpand	.LCPI26_4(%rip), %xmm0, %xmm0
	vpcmpeqb	.LCPI26_6(%rip), %xmm0, %xmm1
	vpmovmskb	%xmm1, %ecx
	shrxq	%rax, %rcx, %rcx
	vpcmpeqb	.LCPI26_5(%rip), %xmm0, %xmm0
	vpmovmskb	%xmm0, %r8d
	shrxq	%rax, %r8, %rax
	addl	%eax, %eax
	cmpl	%eax, %ecx
	jne	.LBB26_54
	movq	%rsi, %rax
	vzeroupper
	retq
.LBB26_52:
	cmpq	$64, %rax
	jae	.LBB26_53
.LBB26_54:
	xorl	%ecx, %ecx
	addq	%rdx, %rcx
	cmpq	%rsi, %rcx
	jb	.LBB26_56
	jmp	.LBB26_61
.LBB26_53:
	vmovdqu	(%rdi,%rdx), %ymm0
	vmovdqu	32(%rdi,%rdx), %ymm1
	vpsrlw	$8, %ymm1, %ymm1
	vpsrlw	$8, %ymm0, %ymm0
	vpackuswb	%ymm1, %ymm0, %ymm0
	vpermq	$216, %ymm0, %ymm0
	vpand	.LCPI26_0(%rip), %ymm0, %ymm0
	vpcmpeqb	.LCPI26_1(%rip), %ymm0, %ymm0
	vpmovmskb	%ymm0, %eax
	xorl	%ecx, %ecx
	tzcntl	%eax, %ecx
	addl	%ecx, %ecx
	addq	%rdx, %rcx
	cmpq	%rsi, %rcx
	jb	.LBB26_56
	jmp	.LBB26_61
	.p2align	4
.LBB26_55:
	addq	%rcx, %rax
	movq	%rax, %rcx
	cmpq	%rsi, %rax
	jae	.LBB26_62
.LBB26_56:
	movq	%rsi, %rdx
	subq	%rcx, %rdx
	cmpq	$2, %rdx
	jb	.LBB26_61
	movzbl	1(%rdi,%rcx), %r8d
	movl	%r8d, %r9d
	andl	$-8, %r9d
	movl	$2, %eax
	cmpl	$216, %r9d
	jne	.LBB26_55
	cmpq	$4, %rdx
	jb	.LBB26_61
	movzwl	%r8w, %eax
	andl	$-36, %eax
	movzwl	%ax, %eax
	cmpl	$220, %eax
	je	.LBB26_61
	movzbl	3(%rdi,%rcx), %edx
	andb	$-4, %dl
	movl	$4, %eax
	cmpb	$-36, %dl
	je	.LBB26_55
.LBB26_61:
	movq	%rcx, %rax
.LBB26_62:
	vzeroupper
	retq
.LBB26_36:
	leaq	-256(%rsi), %rax
	xorl	%ecx, %ecx
	.p2align	4
.LBB26_37:
	addq	$64, %rcx
	cmpq	$256, %rcx
	je	.LBB26_40
.LBB26_38:
	movq	%rsi, %rdx
	subq	%rcx, %rdx
	cmpq	$63, %rdx
	jbe	.LBB26_35
	vmovdqu	(%rdi,%rcx), %ymm0
	vmovdqu	32(%rdi,%rcx), %ymm1
	vpsrlw	$8, %ymm1, %ymm2
	vpsrlw	$8, %ymm0, %ymm3
	vpackuswb	%ymm2, %ymm3, %ymm2
	vpermq	$216, %ymm2, %ymm2
	vpand	.LCPI26_0(%rip), %ymm2, %ymm2
	vpcmpeqb	.LCPI26_1(%rip), %ymm2, %ymm2
	vpmovmskb	%ymm2, %r8d
	testl	%r8d, %r8d
	je	.LBB26_37
	jmp	.LBB26_21
	.p2align	4
.LBB26_40:
	movl	$256, %ecx
	movq	%rax, %rdx
	.p2align	4
.LBB26_41:
	vmovdqu	(%rdi,%rcx), %ymm0
	vmovdqu	32(%rdi,%rcx), %ymm1
	vmovdqu	64(%rdi,%rcx), %ymm2
	vmovdqu	96(%rdi,%rcx), %ymm3
	vpsrlw	$8, %ymm1, %ymm1
	vpsrlw	$8, %ymm0, %ymm0
	vpackuswb	%ymm1, %ymm0, %ymm0
	vpermq	$216, %ymm0, %ymm0
	vpbroadcastd	.LCPI26_7(%rip), %ymm1
	vpand	%ymm1, %ymm0, %ymm0
	vpbroadcastd	.LCPI26_8(%rip), %ymm4
	vpcmpeqb	%ymm4, %ymm0, %ymm0
	vpsrlw	$8, %ymm3, %ymm3
	vpsrlw	$8, %ymm2, %ymm2
	vpackuswb	%ymm3, %ymm2, %ymm2
	vpermq	$216, %ymm2, %ymm2
	vpand	%ymm1, %ymm2, %ymm1
	vpcmpeqb	%ymm4, %ymm1, %ymm1
	vpor	%ymm1, %ymm0, %ymm0
	vpmovmskb	%ymm0, %r8d
	testl	%r8d, %r8d
	jne	.LBB26_38
	subq	$-128, %rcx
	addq	$-128, %rdx
	cmpq	$127, %rdx
	ja	.LBB26_41
	jmp	.LBB26_38
.LBB26_43:
	xorl	%eax, %eax
	movq	%r8, %rdx
	jmp	.LBB26_46
.LBB26_44:
	movl	%r8d, %eax
.LBB26_45:
	movq	%rsi, %rdx
	subq	%rcx, %rdx
	jmp	.LBB26_46
.Lfunc_end26:
	.size	"utf16_units::validate::valid_len::<#418c2b53cf60437c>", .Lfunc_end26-"utf16_units::validate::valid_len::<#418c2b53cf60437c>"
	.cfi_endproc

	.section	".text.utf16_to_utf8::write::write_utf8::<#418c2b53cf60437c>","ax",@progbits
	.p2align	4
	.type	"utf16_to_utf8::write::write_utf8::<#418c2b53cf60437c>",@function
"utf16_to_utf8::write::write_utf8::<#418c2b53cf60437c>":
	.cfi_startproc
	pushq	%r15
	.cfi_def_cfa_offset 16
	pushq	%r14
	.cfi_def_cfa_offset 24
	pushq	%r13
	.cfi_def_cfa_offset 32
	pushq	%r12
	.cfi_def_cfa_offset 40
	pushq	%rbx
	.cfi_def_cfa_offset 48
	subq	$48, %rsp
	.cfi_def_cfa_offset 96
	.cfi_offset %rbx, -48
	.cfi_offset %r12, -40
	.cfi_offset %r13, -32
	.cfi_offset %r14, -24
	.cfi_offset %r15, -16
	movq	%rdx, %rbx
	movq	%rsi, %r14
	movq	%rdi, %r15
	movq	%rsi, %rax
	shrq	%rax
	leaq	(%rax,%rax,2), %r12
	addq	$128, %r12
	cmpq	$191, %rsi
	jbe	.LBB27_3
	vxorps	%xmm0, %xmm0, %xmm0
	vmovups	%ymm0, (%rsp)
	movq	$0, 32(%rsp)
	movq	%rsp, %rdi
	movq	%r15, %rsi
	movq	%r14, %rdx
	movq	%rbx, %rcx
	movq	%r12, %r8
	vzeroupper
	callq	"utf16_to_utf8::runs::write_paired::<#418c2b53cf60437c>"
	movq	(%rsp), %rax
	movq	8(%rsp), %rcx
	leaq	-2(%rax), %rdx
	leaq	-2(%rcx), %r13
	testb	$1, 32(%rsp)
	cmoveq	%rcx, %r13
	cmoveq	%rax, %rdx
	addq	%rdx, %r15
	subq	%rdx, %r14
	addq	%r13, %rbx
	cmpq	$7, %r14
	ja	.LBB27_5
	movq	%r15, %rdi
	movq	%r14, %rsi
	movq	%rbx, %rdx
	callq	"utf16_to_utf8::chars::write_chars::<#418c2b53cf60437c>"
	jmp	.LBB27_6
.LBB27_3:
	movq	%r15, %rdi
	movq	%r14, %rsi
	movq	%rbx, %rdx
	cmpq	$7, %r14
	jbe	.LBB27_8
	movq	%r12, %rcx
	callq	"utf16_to_utf8::vectors::write_vectors::<#418c2b53cf60437c>"
	movq	%rdx, %rax
	jmp	.LBB27_7
.LBB27_5:
	subq	%r13, %r12
	movq	%r15, %rdi
	movq	%r14, %rsi
	movq	%rbx, %rdx
	movq	%r12, %rcx
	callq	"utf16_to_utf8::vectors::write_vectors::<#418c2b53cf60437c>"
	movq	%rdx, %rax
.LBB27_6:
	addq	%r13, %rax
.LBB27_7:
	addq	$48, %rsp
	.cfi_def_cfa_offset 48
	popq	%rbx
	.cfi_def_cfa_offset 40
	popq	%r12
	.cfi_def_cfa_offset 32
	popq	%r13
	.cfi_def_cfa_offset 24
	popq	%r14
	.cfi_def_cfa_offset 16
	popq	%r15
	.cfi_def_cfa_offset 8
	retq
.LBB27_8:
	.cfi_def_cfa_offset 96
	addq	$48, %rsp
	.cfi_def_cfa_offset 48
	popq	%rbx
	.cfi_def_cfa_offset 40
	popq	%r12
	.cfi_def_cfa_offset 32
	popq	%r13
	.cfi_def_cfa_offset 24
	popq	%r14
	.cfi_def_cfa_offset 16
	popq	%r15
	.cfi_def_cfa_offset 8
	jmp	"utf16_to_utf8::chars::write_chars::<#418c2b53cf60437c>"
.Lfunc_end27:
	.size	"utf16_to_utf8::write::write_utf8::<#418c2b53cf60437c>", .Lfunc_end27-"utf16_to_utf8::write::write_utf8::<#418c2b53cf60437c>"
	.cfi_endproc

	.section	".text.utf16_to_utf8::chars::write_chars::<#418c2b53cf60437c>","ax",@progbits
	.p2align	4
	.type	"utf16_to_utf8::chars::write_chars::<#418c2b53cf60437c>",@function
"utf16_to_utf8::chars::write_chars::<#418c2b53cf60437c>":
	.cfi_startproc
	pushq	%r15
	.cfi_def_cfa_offset 16
	pushq	%r14
	.cfi_def_cfa_offset 24
	pushq	%r12
	.cfi_def_cfa_offset 32
	pushq	%rbx
	.cfi_def_cfa_offset 40
	pushq	%rax
	.cfi_def_cfa_offset 48
	.cfi_offset %rbx, -40
	.cfi_offset %r12, -32
	.cfi_offset %r14, -24
	.cfi_offset %r15, -16
	testq	%rsi, %rsi
	je	.LBB28_1
	movq	%rdx, %rbx
	movq	%rsi, %r14
	movq	%rdi, %r12
	xorl	%r15d, %r15d
	jmp	.LBB28_3
	.p2align	4
.LBB28_7:
	movb	%al, (%rbx,%r15)
	incq	%r15
.LBB28_13:
	addq	%rcx, %r12
	subq	%rcx, %r14
	je	.LBB28_14
.LBB28_3:
	movzbl	(%r12), %ecx
	movzbl	1(%r12), %edx
	movl	%edx, %eax
	shll	$8, %eax
	orl	%ecx, %eax
	andl	$-4, %edx
	cmpl	$216, %edx
	jne	.LBB28_4
	movzwl	2(%r12), %esi
	movl	%eax, %edi
	callq	"utf16_units::unit::decode_surrogates"
	movl	$4, %ecx
	cmpl	$127, %eax
	jbe	.LBB28_7
	jmp	.LBB28_8
	.p2align	4
.LBB28_4:
	movl	$2, %ecx
	cmpl	$127, %eax
	jbe	.LBB28_7
.LBB28_8:
	movl	%eax, %edx
	andb	$63, %dl
	orb	$-128, %dl
	cmpl	$2047, %eax
	ja	.LBB28_10
	shrl	$6, %eax
	movzbl	%dl, %edx
	shll	$8, %edx
	orl	%eax, %edx
	orl	$192, %edx
	movw	%dx, (%rbx,%r15)
	addq	$2, %r15
	jmp	.LBB28_13
	.p2align	4
.LBB28_10:
	movl	%eax, %esi
	cmpl	$65535, %eax
	ja	.LBB28_12
	shrl	$6, %esi
	andb	$63, %sil
	orb	$-128, %sil
	shrl	$12, %eax
	orb	$-32, %al
	movb	%al, (%rbx,%r15)
	movb	%sil, 1(%rbx,%r15)
	movb	%dl, 2(%rbx,%r15)
	addq	$3, %r15
	jmp	.LBB28_13
.LBB28_12:
	shrl	$18, %esi
	addl	$240, %esi
	movzbl	%dl, %edx
	shll	$24, %edx
	movl	%eax, %edi
	shll	$10, %edi
	andl	$4128768, %edi
	orl	%edx, %edi
	shrl	$4, %eax
	andl	$16128, %eax
	orl	%edi, %eax
	movzbl	%sil, %edx
	addl	%edx, %eax
	addl	$8421376, %eax
	movl	%eax, (%rbx,%r15)
	addq	$4, %r15
	jmp	.LBB28_13
.LBB28_1:
	xorl	%r15d, %r15d
.LBB28_14:
	movq	%r15, %rax
	addq	$8, %rsp
	.cfi_def_cfa_offset 40
	popq	%rbx
	.cfi_def_cfa_offset 32
	popq	%r12
	.cfi_def_cfa_offset 24
	popq	%r14
	.cfi_def_cfa_offset 16
	popq	%r15
	.cfi_def_cfa_offset 8
	retq
.Lfunc_end28:
	.size	"utf16_to_utf8::chars::write_chars::<#418c2b53cf60437c>", .Lfunc_end28-"utf16_to_utf8::chars::write_chars::<#418c2b53cf60437c>"
	.cfi_endproc

	.section	.rodata.cst32,"aM",@progbits,32
	.p2align	5, 0x0
.LCPI29_0:
	.zero	32,191
.LCPI29_1:
	.zero	32,240
	.section	.rodata.cst16,"aM",@progbits,16
	.p2align	4, 0x0
.LCPI29_2:
	.zero	16,191
.LCPI29_3:
	.zero	16,240
	.section	.rodata.cst4,"aM",@progbits,4
	.p2align	2, 0x0
.LCPI29_4:
	.zero	4,191
.LCPI29_5:
	.zero	4,240
	.section	".text.utf16_transcode::transcoding::write_buffered_text::<#556930da7d070edc>","ax",@progbits
	.p2align	4
	.type	"utf16_transcode::transcoding::write_buffered_text::<#556930da7d070edc>",@function
"utf16_transcode::transcoding::write_buffered_text::<#556930da7d070edc>":
	.cfi_startproc
	pushq	%rbp
	.cfi_def_cfa_offset 16
	pushq	%r15
	.cfi_def_cfa_offset 24
	pushq	%r14
	.cfi_def_cfa_offset 32
	pushq	%r13
	.cfi_def_cfa_offset 40
	pushq	%r12
	.cfi_def_cfa_offset 48
	pushq	%rbx
	.cfi_def_cfa_offset 56
	pushq	%rax
	.cfi_def_cfa_offset 64
	.cfi_offset %rbx, -56
	.cfi_offset %r12, -48
	.cfi_offset %r13, -40
	.cfi_offset %r14, -32
	.cfi_offset %r15, -24
	.cfi_offset %rbp, -16
	movq	%r9, %rbx
	movq	%r8, %r14
	movq	%rcx, %r12
	movq	%rdx, %r15
	movq	%rdi, %rbp
	cmpq	$64, %rsi
	movl	$64, %eax
	cmovaeq	%rax, %rsi
	callq	"utf16_transcode::decode::valid_up_to::<#418c2b53cf60437c>"
	movq	%rax, %r13
	movq	%rbp, %rdi
	movq	%rax, %rsi
	movq	%r15, %rdx
	callq	"utf16_to_utf8::write::write_utf8::<#418c2b53cf60437c>"
	subq	%rbx, %r14
	cmpq	%r14, %rax
	jbe	.LBB29_5
	testq	%r14, %r14
	je	.LBB29_4
	.p2align	4
.LBB29_2:
	cmpb	$-65, (%r15,%r14)
	jg	.LBB29_13
	decq	%r14
	jne	.LBB29_2
.LBB29_4:
	addq	%rbx, %r12
	xorl	%r14d, %r14d
	movq	%r12, %rdi
	xorl	%r13d, %r13d
	jmp	.LBB29_9
.LBB29_5:
	movq	%rax, %r14
.LBB29_6:
	leaq	(%r12,%rbx), %rdi
	movq	%rdi, %rax
	subq	%r15, %rax
	cmpq	%r14, %rax
	jae	.LBB29_9
	cmpq	$8, %r14
	jb	.LBB29_8
	leaq	(%r12,%rbx), %rax
	subq	%r15, %rax
	cmpq	$128, %rax
	jae	.LBB29_22
.LBB29_8:
	xorl	%eax, %eax
.LBB29_34:
	movq	%r14, %rdx
	movq	%rax, %rcx
	andq	$7, %rdx
	je	.LBB29_37
	movq	%rax, %rcx
	.p2align	4
.LBB29_36:
	movzbl	(%r15,%rcx), %esi
	movb	%sil, (%rdi,%rcx)
	incq	%rcx
	decq	%rdx
	jne	.LBB29_36
.LBB29_37:
	subq	%r14, %rax
	cmpq	$-8, %rax
	ja	.LBB29_10
	leaq	(%rbx,%r12), %rax
	addq	$7, %rax
	.p2align	4
.LBB29_39:
	movzbl	(%r15,%rcx), %edx
	movb	%dl, -7(%rax,%rcx)
	movzbl	1(%r15,%rcx), %edx
	movb	%dl, -6(%rax,%rcx)
	movzbl	2(%r15,%rcx), %edx
	movb	%dl, -5(%rax,%rcx)
	movzbl	3(%r15,%rcx), %edx
	movb	%dl, -4(%rax,%rcx)
	movzbl	4(%r15,%rcx), %edx
	movb	%dl, -3(%rax,%rcx)
	movzbl	5(%r15,%rcx), %edx
	movb	%dl, -2(%rax,%rcx)
	movzbl	6(%r15,%rcx), %edx
	movb	%dl, -1(%rax,%rcx)
	movzbl	7(%r15,%rcx), %edx
	movb	%dl, (%rax,%rcx)
	addq	$8, %rcx
	cmpq	%rcx, %r14
	jne	.LBB29_39
	jmp	.LBB29_10
.LBB29_9:
	movq	%r15, %rsi
	movq	%r14, %rdx
	vzeroupper
	callq	memmove@PLT
.LBB29_10:
	addq	%rbx, %r14
	movq	%r13, %rax
	movq	%r14, %rdx
	addq	$8, %rsp
	.cfi_def_cfa_offset 56
	popq	%rbx
	.cfi_def_cfa_offset 48
	popq	%r12
	.cfi_def_cfa_offset 40
	popq	%r13
	.cfi_def_cfa_offset 32
	popq	%r14
	.cfi_def_cfa_offset 24
	popq	%r15
	.cfi_def_cfa_offset 16
	popq	%rbp
	.cfi_def_cfa_offset 8
	vzeroupper
	retq
.LBB29_13:
	.cfi_def_cfa_offset 64
	cmpq	$15, %r14
	ja	.LBB29_24
	xorl	%r13d, %r13d
	movq	%r14, %rax
	movq	%r15, %rcx
	jmp	.LBB29_17
.LBB29_15:
	andl	$31, %edx
	shll	$6, %edx
	orl	%esi, %edx
	movl	$2, %r8d
	.p2align	4
.LBB29_16:
	addq	%r8, %rcx
	xorl	%esi, %esi
	cmpl	$65536, %edx
	setae	%sil
	leaq	2(%r13,%rsi,2), %r13
	subq	%r8, %rax
	je	.LBB29_6
.LBB29_17:
	movzbl	(%rcx), %edx
	movl	$1, %r8d
	testb	%dl, %dl
	jns	.LBB29_16
	movzbl	1(%rcx), %esi
	andl	$63, %esi
	cmpb	$-33, %dl
	jbe	.LBB29_15
	movzbl	2(%rcx), %edi
	andl	$63, %edi
	cmpb	$-17, %dl
	ja	.LBB29_21
	shll	$12, %edx
	movzwl	%dx, %edx
	shll	$6, %esi
	orl	%edx, %esi
	orl	%edi, %esi
	movl	$3, %r8d
	movl	%esi, %edx
	jmp	.LBB29_16
.LBB29_21:
	movzbl	3(%rcx), %r8d
	andl	$63, %r8d
	andl	$7, %edx
	shll	$18, %edx
	shll	$12, %esi
	orl	%edx, %esi
	shll	$6, %edi
	orl	%esi, %edi
	orl	%r8d, %edi
	movl	$4, %r8d
	movl	%edi, %edx
	jmp	.LBB29_16
.LBB29_22:
	cmpq	$128, %r14
	jae	.LBB29_27
	xorl	%eax, %eax
	jmp	.LBB29_31
.LBB29_24:
	cmpq	$64, %r14
	jb	.LBB29_40
	xorl	%ecx, %ecx
	movq	%r14, %rdx
	xorl	%eax, %eax
	.p2align	4
.LBB29_26:
	vmovdqu	(%r15,%rcx), %ymm0
	vmovdqu	32(%r15,%rcx), %ymm1
	vpbroadcastd	.LCPI29_4(%rip), %ymm2
	vpbroadcastd	.LCPI29_5(%rip), %ymm3
	vpcmpgtb	%ymm2, %ymm0, %ymm4
	vpmovmskb	%ymm4, %esi
	vpcmpgtb	%ymm2, %ymm1, %ymm2
	vpmovmskb	%ymm2, %edi
	shlq	$32, %rdi
	orq	%rsi, %rdi
	xorl	%esi, %esi
	popcntq	%rdi, %rsi
	addq	%rax, %rsi
	vpmaxub	%ymm3, %ymm0, %ymm2
	vpcmpeqb	%ymm2, %ymm0, %ymm0
	vpmovmskb	%ymm0, %eax
	vpmaxub	%ymm3, %ymm1, %ymm0
	vpcmpeqb	%ymm0, %ymm1, %ymm0
	vpmovmskb	%ymm0, %edi
	shlq	$32, %rdi
	orq	%rax, %rdi
	xorl	%eax, %eax
	popcntq	%rdi, %rax
	addq	%rsi, %rax
	addq	$64, %rcx
	addq	$-64, %rdx
	cmpq	$63, %rdx
	ja	.LBB29_26
	jmp	.LBB29_41
.LBB29_27:
	movq	%r14, %rax
	andq	$-128, %rax
	leaq	(%rbx,%r12), %rcx
	addq	$96, %rcx
	xorl	%edx, %edx
	.p2align	4
.LBB29_28:
	vmovdqu	(%r15,%rdx), %ymm0
	vmovdqu	32(%r15,%rdx), %ymm1
	vmovdqu	64(%r15,%rdx), %ymm2
	vmovdqu	96(%r15,%rdx), %ymm3
	vmovdqu	%ymm0, -96(%rcx,%rdx)
	vmovdqu	%ymm1, -64(%rcx,%rdx)
	vmovdqu	%ymm2, -32(%rcx,%rdx)
	vmovdqu	%ymm3, (%rcx,%rdx)
	subq	$-128, %rdx
	cmpq	%rdx, %rax
	jne	.LBB29_28
	cmpq	%rax, %r14
	je	.LBB29_10
	testb	$120, %r14b
	je	.LBB29_34
.LBB29_31:
	movq	%rax, %rcx
	movq	%r14, %rax
	andq	$-8, %rax
	.p2align	4
.LBB29_32:
	movq	(%r15,%rcx), %rdx
	movq	%rdx, (%rdi,%rcx)
	addq	$8, %rcx
	cmpq	%rcx, %rax
	jne	.LBB29_32
	cmpq	%rax, %r14
	je	.LBB29_10
	jmp	.LBB29_34
.LBB29_40:
	xorl	%eax, %eax
	xorl	%ecx, %ecx
.LBB29_41:
	movq	%r14, %rdx
	subq	%rcx, %rdx
	cmpq	$16, %rdx
	jb	.LBB29_44
	movq	%r14, %rdx
	subq	%rcx, %rdx
	addq	%r15, %rcx
	.p2align	4
.LBB29_43:
	vmovdqu	(%rcx), %xmm0
	vpcmpgtb	.LCPI29_2(%rip), %xmm0, %xmm1
	vpmovmskb	%xmm1, %esi
	popcntl	%esi, %esi
	vpmaxub	.LCPI29_3(%rip), %xmm0, %xmm1
	vpcmpeqb	%xmm1, %xmm0, %xmm0
	vpmovmskb	%xmm0, %edi
	popcntl	%edi, %edi
	addl	%esi, %edi
	addq	%rdi, %rax
	addq	$-16, %rdx
	addq	$16, %rcx
	cmpq	$15, %rdx
	ja	.LBB29_43
.LBB29_44:
	vmovdqu	-16(%r15,%r14), %xmm0
	vpcmpgtb	.LCPI29_2(%rip), %xmm0, %xmm1
	vpmovmskb	%xmm1, %ecx
	movb	$16, %sil
	subb	%dl, %sil
	shrxq	%rsi, %rcx, %rcx
	vpmaxub	.LCPI29_3(%rip), %xmm0, %xmm1
	popcntl	%ecx, %ecx
	vpcmpeqb	%xmm1, %xmm0, %xmm0
	vpmovmskb	%xmm0, %edx
	shrxq	%rsi, %rdx, %rdx
	xorl	%r13d, %r13d
	popcntl	%edx, %r13d
	addq	%rcx, %r13
	addq	%rax, %r13
	addq	%r13, %r13
	jmp	.LBB29_6
.Lfunc_end29:
	.size	"utf16_transcode::transcoding::write_buffered_text::<#556930da7d070edc>", .Lfunc_end29-"utf16_transcode::transcoding::write_buffered_text::<#556930da7d070edc>"
	.cfi_endproc

	.section	.rodata.cst32,"aM",@progbits,32
	.p2align	5, 0x0
.LCPI30_0:
	.short	255
	.short	255
	.short	255
	.short	255
	.short	255
	.short	255
	.short	255
	.short	255
	.short	255
	.short	255
	.short	255
	.short	255
	.short	255
	.short	255
	.short	255
	.short	255
	.section	.rodata.cst4,"aM",@progbits,4
	.p2align	2, 0x0
.LCPI30_1:
	.short	255
	.short	255
	.section	".text.utf16_transcode::ascii::write_lossy_ascii_blocks::<#418c2b53cf60437c>","ax",@progbits
	.p2align	4
	.type	"utf16_transcode::ascii::write_lossy_ascii_blocks::<#418c2b53cf60437c>",@function
"utf16_transcode::ascii::write_lossy_ascii_blocks::<#418c2b53cf60437c>":
	.cfi_startproc
	pushq	%rbp
	.cfi_def_cfa_offset 16
	pushq	%r15
	.cfi_def_cfa_offset 24
	pushq	%r14
	.cfi_def_cfa_offset 32
	pushq	%rbx
	.cfi_def_cfa_offset 40
	.cfi_offset %rbx, -40
	.cfi_offset %r14, -32
	.cfi_offset %r15, -24
	.cfi_offset %rbp, -16
	movq	%rdx, %r8
	leaq	-66(%rsi), %r9
	addq	$-35, %rcx
	xorl	%eax, %eax
	xorl	%edx, %edx
	.p2align	4
.LBB30_1:
	vpbroadcastd	.LCPI30_1(%rip), %ymm0
	vpminuw	32(%rdi,%rax), %ymm0, %ymm1
	vpminuw	(%rdi,%rax), %ymm0, %ymm0
	vpackuswb	%ymm1, %ymm0, %ymm1
	vpermq	$216, %ymm1, %ymm0
	vmovdqu	%ymm0, (%r8,%rdx)
	vpmovmskb	%ymm1, %r10d
	testl	%r10d, %r10d
	je	.LBB30_2
	vpmovmskb	%ymm0, %r10d
	tzcntl	%r10d, %r10d
	leal	(%r10,%r10), %r11d
	movq	%rsi, %rbx
	subq	%rax, %rbx
	subq	%r11, %rbx
	cmpq	$2, %rbx
	jb	.LBB30_13
	leaq	(%rdi,%rax), %r14
	movzbl	1(%r14,%r11), %ebp
	movl	%ebp, %r15d
	andl	$-8, %r15d
	cmpl	$216, %r15d
	jne	.LBB30_13
	movzwl	%bp, %ebp
	notl	%ebp
	testb	$-36, %bpl
	je	.LBB30_8
	cmpq	$4, %rbx
	jb	.LBB30_13
	movzbl	3(%r14,%r11), %ebx
	andb	$-4, %bl
	cmpb	$-36, %bl
	je	.LBB30_13
.LBB30_8:
	leaq	(%r8,%rdx), %rbx
	addq	$2, %r11
	addq	%r10, %rbx
	addq	$3, %r10
	leaq	.Lstatic.6(%rip), %r14
	movq	%rbx, %r15
	subq	%r14, %r15
	cmpq	$2, %r15
	ja	.LBB30_10
	movw	$-16401, (%rbx)
	movb	$-67, 2(%rbx)
	addq	%r11, %rax
	addq	%r10, %rdx
	cmpq	%r9, %rax
	jbe	.LBB30_12
	jmp	.LBB30_13
	.p2align	4
.LBB30_2:
	movl	$64, %r11d
	movl	$32, %r10d
	addq	%r11, %rax
	addq	%r10, %rdx
	cmpq	%r9, %rax
	jbe	.LBB30_12
	jmp	.LBB30_13
	.p2align	4
.LBB30_10:
	movb	$-67, 2(%rbx)
	movw	$-16401, (%rbx)
	addq	%r11, %rax
	addq	%r10, %rdx
	cmpq	%r9, %rax
	ja	.LBB30_13
.LBB30_12:
	cmpq	%rcx, %rdx
	jbe	.LBB30_1
.LBB30_13:
	popq	%rbx
	.cfi_def_cfa_offset 32
	popq	%r14
	.cfi_def_cfa_offset 24
	popq	%r15
	.cfi_def_cfa_offset 16
	popq	%rbp
	.cfi_def_cfa_offset 8
	vzeroupper
	retq
.Lfunc_end30:
	.size	"utf16_transcode::ascii::write_lossy_ascii_blocks::<#418c2b53cf60437c>", .Lfunc_end30-"utf16_transcode::ascii::write_lossy_ascii_blocks::<#418c2b53cf60437c>"
	.cfi_endproc

	.section	".text.utf16_transcode::decode_lossy::write_copied::<#418c2b53cf60437c>","ax",@progbits
	.p2align	4
	.type	"utf16_transcode::decode_lossy::write_copied::<#418c2b53cf60437c>",@function
"utf16_transcode::decode_lossy::write_copied::<#418c2b53cf60437c>":
	.cfi_startproc
	pushq	%r15
	.cfi_def_cfa_offset 16
	pushq	%r14
	.cfi_def_cfa_offset 24
	pushq	%r13
	.cfi_def_cfa_offset 32
	pushq	%r12
	.cfi_def_cfa_offset 40
	pushq	%rbx
	.cfi_def_cfa_offset 48
	subq	$1024, %rsp
	.cfi_def_cfa_offset 1072
	.cfi_offset %rbx, -48
	.cfi_offset %r12, -40
	.cfi_offset %r13, -32
	.cfi_offset %r14, -24
	.cfi_offset %r15, -16
	movq	%rdx, %rbx
	movq	%rdi, %r15
	leaq	-128(%rcx), %rdx
	movabsq	$-6148914691236517205, %rax
	mulxq	%rax, %rax, %rax
	andq	$-2, %rax
	cmpq	%rsi, %rax
	cmovaeq	%rsi, %rax
	cmpq	$1024, %rax
	movl	$1024, %r14d
	cmovbq	%rax, %r14
	movq	%rsp, %rdi
	movl	$1024, %edx
	xorl	%esi, %esi
	callq	memset@PLT
	andq	$2046, %r14
	je	.LBB31_3
	movzbl	-1(%r15,%r14), %eax
	andb	$-4, %al
	cmpb	$-40, %al
	jne	.LBB31_3
	addq	$-2, %r14
.LBB31_3:
	movq	%rsp, %rdi
	movq	%r15, %rsi
	movq	%r14, %rdx
	callq	memcpy@PLT
	movq	%r14, %r15
	andq	$-2, %r15
	je	.LBB31_13
	xorl	%r12d, %r12d
	jmp	.LBB31_5
	.p2align	4
.LBB31_11:
	movw	$-3, (%rsp,%r12)
	movl	$2, %eax
	addq	%rax, %r12
	cmpq	%r15, %r12
	jae	.LBB31_13
.LBB31_5:
	movq	%r15, %rax
	subq	%r12, %rax
	cmpq	$2, %rax
	jb	.LBB31_11
	movzbl	1(%rsp,%r12), %ecx
	movl	%ecx, %edx
	andl	$-8, %edx
	movl	$2, %r13d
	cmpl	$216, %edx
	jne	.LBB31_10
	cmpq	$4, %rax
	jb	.LBB31_11
	movzwl	%cx, %eax
	andl	$-36, %eax
	movzwl	%ax, %eax
	cmpl	$220, %eax
	je	.LBB31_11
	movzbl	3(%rsp,%r12), %eax
	andb	$-4, %al
	movl	$4, %r13d
	cmpb	$-36, %al
	jne	.LBB31_11
	.p2align	4
.LBB31_10:
	leaq	(%r12,%r13), %rax
	leaq	(%rsp,%rax), %rdi
	movq	%r15, %rsi
	subq	%rax, %rsi
	callq	"utf16_transcode::decode::valid_up_to::<#418c2b53cf60437c>"
	addq	%r13, %rax
	addq	%rax, %r12
	cmpq	%r15, %r12
	jb	.LBB31_5
.LBB31_13:
	movq	%rsp, %rdi
	movq	%r14, %rsi
	movq	%rbx, %rdx
	callq	"utf16_to_utf8::write::write_utf8::<#418c2b53cf60437c>"
	movq	%rax, %rdx
	movq	%r14, %rax
	addq	$1024, %rsp
	.cfi_def_cfa_offset 48
	popq	%rbx
	.cfi_def_cfa_offset 40
	popq	%r12
	.cfi_def_cfa_offset 32
	popq	%r13
	.cfi_def_cfa_offset 24
	popq	%r14
	.cfi_def_cfa_offset 16
	popq	%r15
	.cfi_def_cfa_offset 8
	retq
.Lfunc_end31:
	.size	"utf16_transcode::decode_lossy::write_copied::<#418c2b53cf60437c>", .Lfunc_end31-"utf16_transcode::decode_lossy::write_copied::<#418c2b53cf60437c>"
	.cfi_endproc

	.section	.rodata.cst16,"aM",@progbits,16
	.p2align	4, 0x0
.LCPI32_0:
	.byte	116
	.byte	104
	.byte	105
	.byte	115
	.byte	32
	.byte	109
	.byte	97
	.byte	99
	.byte	104
	.byte	105
	.byte	110
	.byte	101
	.byte	32
	.byte	108
	.byte	97
	.byte	99
.LCPI32_1:
	.byte	107
	.byte	115
	.byte	32
	.byte	97
	.byte	32
	.byte	102
	.byte	101
	.byte	97
	.byte	116
	.byte	117
	.byte	114
	.byte	101
	.byte	32
	.byte	111
	.byte	102
	.byte	32
.LCPI32_2:
	.byte	120
	.byte	56
	.byte	54
	.byte	45
	.byte	54
	.byte	52
	.byte	45
	.byte	118
	.byte	51
	.byte	44
	.byte	32
	.byte	119
	.byte	104
	.byte	105
	.byte	99
	.byte	104
.LCPI32_3:
	.byte	32
	.byte	116
	.byte	104
	.byte	105
	.byte	115
	.byte	32
	.byte	112
	.byte	114
	.byte	111
	.byte	103
	.byte	114
	.byte	97
	.byte	109
	.byte	32
	.byte	119
	.byte	97
.LCPI32_4:
	.byte	115
	.byte	32
	.byte	98
	.byte	117
	.byte	105
	.byte	108
	.byte	116
	.byte	32
	.byte	102
	.byte	111
	.byte	114
	.byte	58
	.byte	32
	.byte	114
	.byte	117
	.byte	110
.LCPI32_5:
	.byte	32
	.byte	105
	.byte	116
	.byte	32
	.byte	111
	.byte	110
	.byte	32
	.byte	97
	.byte	110
	.byte	111
	.byte	116
	.byte	104
	.byte	101
	.byte	114
	.byte	32
	.byte	109
.LCPI32_6:
	.byte	97
	.byte	99
	.byte	104
	.byte	105
	.byte	110
	.byte	101
	.byte	44
	.byte	32
	.byte	111
	.byte	114
	.byte	32
	.byte	98
	.byte	117
	.byte	105
	.byte	108
	.byte	100
.LCPI32_7:
	.byte	32
	.byte	105
	.byte	116
	.byte	32
	.byte	119
	.byte	105
	.byte	116
	.byte	104
	.byte	32
	.byte	45
	.byte	45
	.byte	99
	.byte	112
	.byte	117
	.byte	32
	.byte	120
	.section	.text.main,"ax",@progbits
	.globl	proved_main_v3
	.hidden	proved_main_v3
	.p2align	4
	.type	proved_main_v3,@function
proved_main_v3:
	.cfi_startproc
	pushq	%rbp
	.cfi_def_cfa_offset 16
	.cfi_offset %rbp, -16
	movq	%rsp, %rbp
	.cfi_def_cfa_register %rbp
	pushq	%r14
	pushq	%rbx
	.cfi_offset %rbx, -32
	.cfi_offset %r14, -24
	movl	$1, %esi
	movl	$13, %edi
	callq	__sysv_signal@PLT
	xorl	%edi, %edi
	callq	__x86_get_cpuid_feature_leaf@PLT
	movl	24(%rax), %ebx
	notl	%ebx
	andl	$9970177, %ebx
	movl	$2, %edi
	callq	__x86_get_cpuid_feature_leaf@PLT
	movl	24(%rax), %r14d
	notl	%r14d
	andl	$1, %r14d
	orl	%ebx, %r14d
	xorl	%edi, %edi
	callq	__x86_get_cpuid_feature_leaf@PLT
	movl	$809504768, %ebx
	andl	24(%rax), %ebx
	orl	%r14d, %ebx
	movl	$1, %edi
	callq	__x86_get_cpuid_feature_leaf@PLT
	movl	$296, %r14d
	andl	20(%rax), %r14d
	orl	%ebx, %r14d
	movl	$2, %edi
	callq	__x86_get_cpuid_feature_leaf@PLT
	cmpl	$809505064, %r14d
	jne	.LBB32_2
	movl	24(%rax), %eax
	andl	$32, %eax
	je	.LBB32_2
	leaq	-16(%rbp), %rsp
	popq	%rbx
	popq	%r14
	popq	%rbp
	.cfi_def_cfa %rsp, 8
	jmp	"utf16_cat::main+start"
.LBB32_2:
	.cfi_def_cfa %rbp, 16
	movq	%rsp, %rsi
	subq	$144, %rsi
	cmpq	%rsp, %rsi
	jge	.LBB32_5
.LBB32_4:
	xorq	$0, (%rsp)
	subq	$3072, %rsp
	cmpq	%rsp, %rsi
	jl	.LBB32_4
.LBB32_5:
	movq	%rsi, %rsp
	movaps	.LCPI32_0(%rip), %xmm0
	movaps	%xmm0, (%rsi)
	movaps	.LCPI32_1(%rip), %xmm0
	movaps	%xmm0, 16(%rsi)
	movaps	.LCPI32_2(%rip), %xmm0
	movaps	%xmm0, 32(%rsi)
	movaps	.LCPI32_3(%rip), %xmm0
	movaps	%xmm0, 48(%rsi)
	movaps	.LCPI32_4(%rip), %xmm0
	movaps	%xmm0, 64(%rsi)
	movaps	.LCPI32_5(%rip), %xmm0
	movaps	%xmm0, 80(%rsi)
	movaps	.LCPI32_6(%rip), %xmm0
	movaps	%xmm0, 96(%rsi)
	movaps	.LCPI32_7(%rip), %xmm0
	movaps	%xmm0, 112(%rsi)
	movl	$908932664, 128(%rsi)
	movw	$2612, 132(%rsi)
	movl	$134, %edx
	movl	$2, %edi
	callq	__write@PLT
	movl	$127, %eax
	leaq	-16(%rbp), %rsp
	popq	%rbx
	popq	%r14
	popq	%rbp
	.cfi_def_cfa %rsp, 8
	retq
.Lfunc_end32:
	.size	proved_main_v3, .Lfunc_end32-proved_main_v3
	.cfi_endproc

	.type	.Lstatic.6,@object
	.section	.rodata..Lstatic.6,"a",@progbits
.Lstatic.6:
	.ascii	"\357\277\275"
	.size	.Lstatic.6, 3

	.type	.Lstatic.8,@object
	.section	.rodata..Lstatic.8,"a",@progbits
.Lstatic.8:
	.asciz	"\000\001\002\003\004\005\006\007\b\t\n\013\f\r\016\017\000\002\003\004\005\006\007\b\t\n\013\f\r\016\017\000\000\001\002\004\005\006\007\b\t\n\013\f\r\016\017\000\000\002\004\005\006\007\b\t\n\013\f\r\016\017\000\000\000\001\002\003\004\006\007\b\t\n\013\f\r\016\017\000\000\002\003\004\006\007\b\t\n\013\f\r\016\017\000\000\000\001\002\004\006\007\b\t\n\013\f\r\016\017\000\000\000\002\004\006\007\b\t\n\013\f\r\016\017\000\000\000\000\001\002\003\004\005\006\b\t\n\013\f\r\016\017\000\000\002\003\004\005\006\b\t\n\013\f\r\016\017\000\000\000\001\002\004\005\006\b\t\n\013\f\r\016\017\000\000\000\002\004\005\006\b\t\n\013\f\r\016\017\000\000\000\000\001\002\003\004\006\b\t\n\013\f\r\016\017\000\000\000\002\003\004\006\b\t\n\013\f\r\016\017\000\000\000\000\001\002\004\006\b\t\n\013\f\r\016\017\000\000\000\000\002\004\006\b\t\n\013\f\r\016\017\000\000\000\000\000\001\002\003\004\005\006\007\b\n\013\f\r\016\017\000\000\002\003\004\005\006\007\b\n\013\f\r\016\017\000\000\000\001\002\004\005\006\007\b\n\013\f\r\016\017\000\000\000\002\004\005\006\007\b\n\013\f\r\016\017\000\000\000\000\001\002\003\004\006\007\b\n\013\f\r\016\017\000\000\000\002\003\004\006\007\b\n\013\f\r\016\017\000\000\000\000\001\002\004\006\007\b\n\013\f\r\016\017\000\000\000\000\002\004\006\007\b\n\013\f\r\016\017\000\000\000\000\000\001\002\003\004\005\006\b\n\013\f\r\016\017\000\000\000\002\003\004\005\006\b\n\013\f\r\016\017\000\000\000\000\001\002\004\005\006\b\n\013\f\r\016\017\000\000\000\000\002\004\005\006\b\n\013\f\r\016\017\000\000\000\000\000\001\002\003\004\006\b\n\013\f\r\016\017\000\000\000\000\002\003\004\006\b\n\013\f\r\016\017\000\000\000\000\000\001\002\004\006\b\n\013\f\r\016\017\000\000\000\000\000\002\004\006\b\n\013\f\r\016\017\000\000\000\000\000\000\001\002\003\004\005\006\007\b\t\n\f\r\016\017\000\000\002\003\004\005\006\007\b\t\n\f\r\016\017\000\000\000\001\002\004\005\006\007\b\t\n\f\r\016\017\000\000\000\002\004\005\006\007\b\t\n\f\r\016\017\000\000\000\000\001\002\003\004\006\007\b\t\n\f\r\016\017\000\000\000\002\003\004\006\007\b\t\n\f\r\016\017\000\000\000\000\001\002\004\006\007\b\t\n\f\r\016\017\000\000\000\000\002\004\006\007\b\t\n\f\r\016\017\000\000\000\000\000\001\002\003\004\005\006\b\t\n\f\r\016\017\000\000\000\002\003\004\005\006\b\t\n\f\r\016\017\000\000\000\000\001\002\004\005\006\b\t\n\f\r\016\017\000\000\000\000\002\004\005\006\b\t\n\f\r\016\017\000\000\000\000\000\001\002\003\004\006\b\t\n\f\r\016\017\000\000\000\000\002\003\004\006\b\t\n\f\r\016\017\000\000\000\000\000\001\002\004\006\b\t\n\f\r\016\017\000\000\000\000\000\002\004\006\b\t\n\f\r\016\017\000\000\000\000\000\000\001\002\003\004\005\006\007\b\n\f\r\016\017\000\000\000\002\003\004\005\006\007\b\n\f\r\016\017\000\000\000\000\001\002\004\005\006\007\b\n\f\r\016\017\000\000\000\000\002\004\005\006\007\b\n\f\r\016\017\000\000\000\000\000\001\002\003\004\006\007\b\n\f\r\016\017\000\000\000\000\002\003\004\006\007\b\n\f\r\016\017\000\000\000\000\000\001\002\004\006\007\b\n\f\r\016\017\000\000\000\000\000\002\004\006\007\b\n\f\r\016\017\000\000\000\000\000\000\001\002\003\004\005\006\b\n\f\r\016\017\000\000\000\000\002\003\004\005\006\b\n\f\r\016\017\000\000\000\000\000\001\002\004\005\006\b\n\f\r\016\017\000\000\000\000\000\002\004\005\006\b\n\f\r\016\017\000\000\000\000\000\000\001\002\003\004\006\b\n\f\r\016\017\000\000\000\000\000\002\003\004\006\b\n\f\r\016\017\000\000\000\000\000\000\001\002\004\006\b\n\f\r\016\017\000\000\000\000\000\000\002\004\006\b\n\f\r\016\017\000\000\000\000\000\000\000\001\002\003\004\005\006\007\b\t\n\013\f\016\017\000\000\002\003\004\005\006\007\b\t\n\013\f\016\017\000\000\000\001\002\004\005\006\007\b\t\n\013\f\016\017\000\000\000\002\004\005\006\007\b\t\n\013\f\016\017\000\000\000\000\001\002\003\004\006\007\b\t\n\013\f\016\017\000\000\000\002\003\004\006\007\b\t\n\013\f\016\017\000\000\000\000\001\002\004\006\007\b\t\n\013\f\016\017\000\000\000\000\002\004\006\007\b\t\n\013\f\016\017\000\000\000\000\000\001\002\003\004\005\006\b\t\n\013\f\016\017\000\000\000\002\003\004\005\006\b\t\n\013\f\016\017\000\000\000\000\001\002\004\005\006\b\t\n\013\f\016\017\000\000\000\000\002\004\005\006\b\t\n\013\f\016\017\000\000\000\000\000\001\002\003\004\006\b\t\n\013\f\016\017\000\000\000\000\002\003\004\006\b\t\n\013\f\016\017\000\000\000\000\000\001\002\004\006\b\t\n\013\f\016\017\000\000\000\000\000\002\004\006\b\t\n\013\f\016\017\000\000\000\000\000\000\001\002\003\004\005\006\007\b\n\013\f\016\017\000\000\000\002\003\004\005\006\007\b\n\013\f\016\017\000\000\000\000\001\002\004\005\006\007\b\n\013\f\016\017\000\000\000\000\002\004\005\006\007\b\n\013\f\016\017\000\000\000\000\000\001\002\003\004\006\007\b\n\013\f\016\017\000\000\000\000\002\003\004\006\007\b\n\013\f\016\017\000\000\000\000\000\001\002\004\006\007\b\n\013\f\016\017\000\000\000\000\000\002\004\006\007\b\n\013\f\016\017\000\000\000\000\000\000\001\002\003\004\005\006\b\n\013\f\016\017\000\000\000\000\002\003\004\005\006\b\n\013\f\016\017\000\000\000\000\000\001\002\004\005\006\b\n\013\f\016\017\000\000\000\000\000\002\004\005\006\b\n\013\f\016\017\000\000\000\000\000\000\001\002\003\004\006\b\n\013\f\016\017\000\000\000\000\000\002\003\004\006\b\n\013\f\016\017\000\000\000\000\000\000\001\002\004\006\b\n\013\f\016\017\000\000\000\000\000\000\002\004\006\b\n\013\f\016\017\000\000\000\000\000\000\000\001\002\003\004\005\006\007\b\t\n\f\016\017\000\000\000\002\003\004\005\006\007\b\t\n\f\016\017\000\000\000\000\001\002\004\005\006\007\b\t\n\f\016\017\000\000\000\000\002\004\005\006\007\b\t\n\f\016\017\000\000\000\000\000\001\002\003\004\006\007\b\t\n\f\016\017\000\000\000\000\002\003\004\006\007\b\t\n\f\016\017\000\000\000\000\000\001\002\004\006\007\b\t\n\f\016\017\000\000\000\000\000\002\004\006\007\b\t\n\f\016\017\000\000\000\000\000\000\001\002\003\004\005\006\b\t\n\f\016\017\000\000\000\000\002\003\004\005\006\b\t\n\f\016\017\000\000\000\000\000\001\002\004\005\006\b\t\n\f\016\017\000\000\000\000\000\002\004\005\006\b\t\n\f\016\017\000\000\000\000\000\000\001\002\003\004\006\b\t\n\f\016\017\000\000\000\000\000\002\003\004\006\b\t\n\f\016\017\000\000\000\000\000\000\001\002\004\006\b\t\n\f\016\017\000\000\000\000\000\000\002\004\006\b\t\n\f\016\017\000\000\000\000\000\000\000\001\002\003\004\005\006\007\b\n\f\016\017\000\000\000\000\002\003\004\005\006\007\b\n\f\016\017\000\000\000\000\000\001\002\004\005\006\007\b\n\f\016\017\000\000\000\000\000\002\004\005\006\007\b\n\f\016\017\000\000\000\000\000\000\001\002\003\004\006\007\b\n\f\016\017\000\000\000\000\000\002\003\004\006\007\b\n\f\016\017\000\000\000\000\000\000\001\002\004\006\007\b\n\f\016\017\000\000\000\000\000\000\002\004\006\007\b\n\f\016\017\000\000\000\000\000\000\000\001\002\003\004\005\006\b\n\f\016\017\000\000\000\000\000\002\003\004\005\006\b\n\f\016\017\000\000\000\000\000\000\001\002\004\005\006\b\n\f\016\017\000\000\000\000\000\000\002\004\005\006\b\n\f\016\017\000\000\000\000\000\000\000\001\002\003\004\006\b\n\f\016\017\000\000\000\000\000\000\002\003\004\006\b\n\f\016\017\000\000\000\000\000\000\000\001\002\004\006\b\n\f\016\017\000\000\000\000\000\000\000\002\004\006\b\n\f\016\017\000\000\000\000\000\000\000\000\001\002\003\004\005\006\007\b\t\n\013\f\r\016\000\000\002\003\004\005\006\007\b\t\n\013\f\r\016\000\000\000\001\002\004\005\006\007\b\t\n\013\f\r\016\000\000\000\002\004\005\006\007\b\t\n\013\f\r\016\000\000\000\000\001\002\003\004\006\007\b\t\n\013\f\r\016\000\000\000\002\003\004\006\007\b\t\n\013\f\r\016\000\000\000\000\001\002\004\006\007\b\t\n\013\f\r\016\000\000\000\000\002\004\006\007\b\t\n\013\f\r\016\000\000\000\000\000\001\002\003\004\005\006\b\t\n\013\f\r\016\000\000\000\002\003\004\005\006\b\t\n\013\f\r\016\000\000\000\000\001\002\004\005\006\b\t\n\013\f\r\016\000\000\000\000\002\004\005\006\b\t\n\013\f\r\016\000\000\000\000\000\001\002\003\004\006\b\t\n\013\f\r\016\000\000\000\000\002\003\004\006\b\t\n\013\f\r\016\000\000\000\000\000\001\002\004\006\b\t\n\013\f\r\016\000\000\000\000\000\002\004\006\b\t\n\013\f\r\016\000\000\000\000\000\000\001\002\003\004\005\006\007\b\n\013\f\r\016\000\000\000\002\003\004\005\006\007\b\n\013\f\r\016\000\000\000\000\001\002\004\005\006\007\b\n\013\f\r\016\000\000\000\000\002\004\005\006\007\b\n\013\f\r\016\000\000\000\000\000\001\002\003\004\006\007\b\n\013\f\r\016\000\000\000\000\002\003\004\006\007\b\n\013\f\r\016\000\000\000\000\000\001\002\004\006\007\b\n\013\f\r\016\000\000\000\000\000\002\004\006\007\b\n\013\f\r\016\000\000\000\000\000\000\001\002\003\004\005\006\b\n\013\f\r\016\000\000\000\000\002\003\004\005\006\b\n\013\f\r\016\000\000\000\000\000\001\002\004\005\006\b\n\013\f\r\016\000\000\000\000\000\002\004\005\006\b\n\013\f\r\016\000\000\000\000\000\000\001\002\003\004\006\b\n\013\f\r\016\000\000\000\000\000\002\003\004\006\b\n\013\f\r\016\000\000\000\000\000\000\001\002\004\006\b\n\013\f\r\016\000\000\000\000\000\000\002\004\006\b\n\013\f\r\016\000\000\000\000\000\000\000\001\002\003\004\005\006\007\b\t\n\f\r\016\000\000\000\002\003\004\005\006\007\b\t\n\f\r\016\000\000\000\000\001\002\004\005\006\007\b\t\n\f\r\016\000\000\000\000\002\004\005\006\007\b\t\n\f\r\016\000\000\000\000\000\001\002\003\004\006\007\b\t\n\f\r\016\000\000\000\000\002\003\004\006\007\b\t\n\f\r\016\000\000\000\000\000\001\002\004\006\007\b\t\n\f\r\016\000\000\000\000\000\002\004\006\007\b\t\n\f\r\016\000\000\000\000\000\000\001\002\003\004\005\006\b\t\n\f\r\016\000\000\000\000\002\003\004\005\006\b\t\n\f\r\016\000\000\000\000\000\001\002\004\005\006\b\t\n\f\r\016\000\000\000\000\000\002\004\005\006\b\t\n\f\r\016\000\000\000\000\000\000\001\002\003\004\006\b\t\n\f\r\016\000\000\000\000\000\002\003\004\006\b\t\n\f\r\016\000\000\000\000\000\000\001\002\004\006\b\t\n\f\r\016\000\000\000\000\000\000\002\004\006\b\t\n\f\r\016\000\000\000\000\000\000\000\001\002\003\004\005\006\007\b\n\f\r\016\000\000\000\000\002\003\004\005\006\007\b\n\f\r\016\000\000\000\000\000\001\002\004\005\006\007\b\n\f\r\016\000\000\000\000\000\002\004\005\006\007\b\n\f\r\016\000\000\000\000\000\000\001\002\003\004\006\007\b\n\f\r\016\000\000\000\000\000\002\003\004\006\007\b\n\f\r\016\000\000\000\000\000\000\001\002\004\006\007\b\n\f\r\016\000\000\000\000\000\000\002\004\006\007\b\n\f\r\016\000\000\000\000\000\000\000\001\002\003\004\005\006\b\n\f\r\016\000\000\000\000\000\002\003\004\005\006\b\n\f\r\016\000\000\000\000\000\000\001\002\004\005\006\b\n\f\r\016\000\000\000\000\000\000\002\004\005\006\b\n\f\r\016\000\000\000\000\000\000\000\001\002\003\004\006\b\n\f\r\016\000\000\000\000\000\000\002\003\004\006\b\n\f\r\016\000\000\000\000\000\000\000\001\002\004\006\b\n\f\r\016\000\000\000\000\000\000\000\002\004\006\b\n\f\r\016\000\000\000\000\000\000\000\000\001\002\003\004\005\006\007\b\t\n\013\f\016\000\000\000\002\003\004\005\006\007\b\t\n\013\f\016\000\000\000\000\001\002\004\005\006\007\b\t\n\013\f\016\000\000\000\000\002\004\005\006\007\b\t\n\013\f\016\000\000\000\000\000\001\002\003\004\006\007\b\t\n\013\f\016\000\000\000\000\002\003\004\006\007\b\t\n\013\f\016\000\000\000\000\000\001\002\004\006\007\b\t\n\013\f\016\000\000\000\000\000\002\004\006\007\b\t\n\013\f\016\000\000\000\000\000\000\001\002\003\004\005\006\b\t\n\013\f\016\000\000\000\000\002\003\004\005\006\b\t\n\013\f\016\000\000\000\000\000\001\002\004\005\006\b\t\n\013\f\016\000\000\000\000\000\002\004\005\006\b\t\n\013\f\016\000\000\000\000\000\000\001\002\003\004\006\b\t\n\013\f\016\000\000\000\000\000\002\003\004\006\b\t\n\013\f\016\000\000\000\000\000\000\001\002\004\006\b\t\n\013\f\016\000\000\000\000\000\000\002\004\006\b\t\n\013\f\016\000\000\000\000\000\000\000\001\002\003\004\005\006\007\b\n\013\f\016\000\000\000\000\002\003\004\005\006\007\b\n\013\f\016\000\000\000\000\000\001\002\004\005\006\007\b\n\013\f\016\000\000\000\000\000\002\004\005\006\007\b\n\013\f\016\000\000\000\000\000\000\001\002\003\004\006\007\b\n\013\f\016\000\000\000\000\000\002\003\004\006\007\b\n\013\f\016\000\000\000\000\000\000\001\002\004\006\007\b\n\013\f\016\000\000\000\000\000\000\002\004\006\007\b\n\013\f\016\000\000\000\000\000\000\000\001\002\003\004\005\006\b\n\013\f\016\000\000\000\000\000\002\003\004\005\006\b\n\013\f\016\000\000\000\000\000\000\001\002\004\005\006\b\n\013\f\016\000\000\000\000\000\000\002\004\005\006\b\n\013\f\016\000\000\000\000\000\000\000\001\002\003\004\006\b\n\013\f\016\000\000\000\000\000\000\002\003\004\006\b\n\013\f\016\000\000\000\000\000\000\000\001\002\004\006\b\n\013\f\016\000\000\000\000\000\000\000\002\004\006\b\n\013\f\016\000\000\000\000\000\000\000\000\001\002\003\004\005\006\007\b\t\n\f\016\000\000\000\000\002\003\004\005\006\007\b\t\n\f\016\000\000\000\000\000\001\002\004\005\006\007\b\t\n\f\016\000\000\000\000\000\002\004\005\006\007\b\t\n\f\016\000\000\000\000\000\000\001\002\003\004\006\007\b\t\n\f\016\000\000\000\000\000\002\003\004\006\007\b\t\n\f\016\000\000\000\000\000\000\001\002\004\006\007\b\t\n\f\016\000\000\000\000\000\000\002\004\006\007\b\t\n\f\016\000\000\000\000\000\000\000\001\002\003\004\005\006\b\t\n\f\016\000\000\000\000\000\002\003\004\005\006\b\t\n\f\016\000\000\000\000\000\000\001\002\004\005\006\b\t\n\f\016\000\000\000\000\000\000\002\004\005\006\b\t\n\f\016\000\000\000\000\000\000\000\001\002\003\004\006\b\t\n\f\016\000\000\000\000\000\000\002\003\004\006\b\t\n\f\016\000\000\000\000\000\000\000\001\002\004\006\b\t\n\f\016\000\000\000\000\000\000\000\002\004\006\b\t\n\f\016\000\000\000\000\000\000\000\000\001\002\003\004\005\006\007\b\n\f\016\000\000\000\000\000\002\003\004\005\006\007\b\n\f\016\000\000\000\000\000\000\001\002\004\005\006\007\b\n\f\016\000\000\000\000\000\000\002\004\005\006\007\b\n\f\016\000\000\000\000\000\000\000\001\002\003\004\006\007\b\n\f\016\000\000\000\000\000\000\002\003\004\006\007\b\n\f\016\000\000\000\000\000\000\000\001\002\004\006\007\b\n\f\016\000\000\000\000\000\000\000\002\004\006\007\b\n\f\016\000\000\000\000\000\000\000\000\001\002\003\004\005\006\b\n\f\016\000\000\000\000\000\000\002\003\004\005\006\b\n\f\016\000\000\000\000\000\000\000\001\002\004\005\006\b\n\f\016\000\000\000\000\000\000\000\002\004\005\006\b\n\f\016\000\000\000\000\000\000\000\000\001\002\003\004\006\b\n\f\016\000\000\000\000\000\000\000\002\003\004\006\b\n\f\016\000\000\000\000\000\000\000\000\001\002\004\006\b\n\f\016\000\000\000\000\000\000\000\000\002\004\006\b\n\f\016\000\000\000\000\000\000\000"
	.size	.Lstatic.8, 4096

	.type	.Lstatic.9,@object
	.section	.rodata..Lstatic.9,"a",@progbits
.Lstatic.9:
	.asciz	"\000\002\003\004\006\007\b\n\013\f\016\017\000\000\000\000\000\001\004\006\007\b\n\013\f\016\017\000\000\000\000\000\002\003\004\006\007\b\n\013\f\016\017\000\000\000\000\000\001\004\006\007\b\n\013\f\016\017\000\000\000\000\000\000\000\002\003\004\005\b\n\013\f\016\017\000\000\000\000\000\000\001\004\005\b\n\013\f\016\017\000\000\000\000\000\000\002\003\004\005\b\n\013\f\016\017\000\000\000\000\000\000\001\004\005\b\n\013\f\016\017\000\000\000\000\000\000\000\000\002\003\006\007\b\n\013\f\016\017\000\000\000\000\000\000\001\006\007\b\n\013\f\016\017\000\000\000\000\000\000\002\003\006\007\b\n\013\f\016\017\000\000\000\000\000\000\001\006\007\b\n\013\f\016\017\000\000\000\000\000\000\000\000\002\003\005\b\n\013\f\016\017\000\000\000\000\000\000\000\001\005\b\n\013\f\016\017\000\000\000\000\000\000\000\002\003\005\b\n\013\f\016\017\000\000\000\000\000\000\000\001\005\b\n\013\f\016\017\000\000\000\000\000\000\000\000\000\002\003\004\006\007\b\t\f\016\017\000\000\000\000\000\000\001\004\006\007\b\t\f\016\017\000\000\000\000\000\000\002\003\004\006\007\b\t\f\016\017\000\000\000\000\000\000\001\004\006\007\b\t\f\016\017\000\000\000\000\000\000\000\000\002\003\004\005\b\t\f\016\017\000\000\000\000\000\000\000\001\004\005\b\t\f\016\017\000\000\000\000\000\000\000\002\003\004\005\b\t\f\016\017\000\000\000\000\000\000\000\001\004\005\b\t\f\016\017\000\000\000\000\000\000\000\000\000\002\003\006\007\b\t\f\016\017\000\000\000\000\000\000\000\001\006\007\b\t\f\016\017\000\000\000\000\000\000\000\002\003\006\007\b\t\f\016\017\000\000\000\000\000\000\000\001\006\007\b\t\f\016\017\000\000\000\000\000\000\000\000\000\002\003\005\b\t\f\016\017\000\000\000\000\000\000\000\000\001\005\b\t\f\016\017\000\000\000\000\000\000\000\000\002\003\005\b\t\f\016\017\000\000\000\000\000\000\000\000\001\005\b\t\f\016\017\000\000\000\000\000\000\000\000\000\000\002\003\004\006\007\n\013\f\016\017\000\000\000\000\000\000\001\004\006\007\n\013\f\016\017\000\000\000\000\000\000\002\003\004\006\007\n\013\f\016\017\000\000\000\000\000\000\001\004\006\007\n\013\f\016\017\000\000\000\000\000\000\000\000\002\003\004\005\n\013\f\016\017\000\000\000\000\000\000\000\001\004\005\n\013\f\016\017\000\000\000\000\000\000\000\002\003\004\005\n\013\f\016\017\000\000\000\000\000\000\000\001\004\005\n\013\f\016\017\000\000\000\000\000\000\000\000\000\002\003\006\007\n\013\f\016\017\000\000\000\000\000\000\000\001\006\007\n\013\f\016\017\000\000\000\000\000\000\000\002\003\006\007\n\013\f\016\017\000\000\000\000\000\000\000\001\006\007\n\013\f\016\017\000\000\000\000\000\000\000\000\000\002\003\005\n\013\f\016\017\000\000\000\000\000\000\000\000\001\005\n\013\f\016\017\000\000\000\000\000\000\000\000\002\003\005\n\013\f\016\017\000\000\000\000\000\000\000\000\001\005\n\013\f\016\017\000\000\000\000\000\000\000\000\000\000\002\003\004\006\007\t\f\016\017\000\000\000\000\000\000\000\001\004\006\007\t\f\016\017\000\000\000\000\000\000\000\002\003\004\006\007\t\f\016\017\000\000\000\000\000\000\000\001\004\006\007\t\f\016\017\000\000\000\000\000\000\000\000\000\002\003\004\005\t\f\016\017\000\000\000\000\000\000\000\000\001\004\005\t\f\016\017\000\000\000\000\000\000\000\000\002\003\004\005\t\f\016\017\000\000\000\000\000\000\000\000\001\004\005\t\f\016\017\000\000\000\000\000\000\000\000\000\000\002\003\006\007\t\f\016\017\000\000\000\000\000\000\000\000\001\006\007\t\f\016\017\000\000\000\000\000\000\000\000\002\003\006\007\t\f\016\017\000\000\000\000\000\000\000\000\001\006\007\t\f\016\017\000\000\000\000\000\000\000\000\000\000\002\003\005\t\f\016\017\000\000\000\000\000\000\000\000\000\001\005\t\f\016\017\000\000\000\000\000\000\000\000\000\002\003\005\t\f\016\017\000\000\000\000\000\000\000\000\000\001\005\t\f\016\017\000\000\000\000\000\000\000\000\000\000\000\002\003\004\006\007\b\n\013\f\r\000\000\000\000\000\000\001\004\006\007\b\n\013\f\r\000\000\000\000\000\000\002\003\004\006\007\b\n\013\f\r\000\000\000\000\000\000\001\004\006\007\b\n\013\f\r\000\000\000\000\000\000\000\000\002\003\004\005\b\n\013\f\r\000\000\000\000\000\000\000\001\004\005\b\n\013\f\r\000\000\000\000\000\000\000\002\003\004\005\b\n\013\f\r\000\000\000\000\000\000\000\001\004\005\b\n\013\f\r\000\000\000\000\000\000\000\000\000\002\003\006\007\b\n\013\f\r\000\000\000\000\000\000\000\001\006\007\b\n\013\f\r\000\000\000\000\000\000\000\002\003\006\007\b\n\013\f\r\000\000\000\000\000\000\000\001\006\007\b\n\013\f\r\000\000\000\000\000\000\000\000\000\002\003\005\b\n\013\f\r\000\000\000\000\000\000\000\000\001\005\b\n\013\f\r\000\000\000\000\000\000\000\000\002\003\005\b\n\013\f\r\000\000\000\000\000\000\000\000\001\005\b\n\013\f\r\000\000\000\000\000\000\000\000\000\000\002\003\004\006\007\b\t\f\r\000\000\000\000\000\000\000\001\004\006\007\b\t\f\r\000\000\000\000\000\000\000\002\003\004\006\007\b\t\f\r\000\000\000\000\000\000\000\001\004\006\007\b\t\f\r\000\000\000\000\000\000\000\000\000\002\003\004\005\b\t\f\r\000\000\000\000\000\000\000\000\001\004\005\b\t\f\r\000\000\000\000\000\000\000\000\002\003\004\005\b\t\f\r\000\000\000\000\000\000\000\000\001\004\005\b\t\f\r\000\000\000\000\000\000\000\000\000\000\002\003\006\007\b\t\f\r\000\000\000\000\000\000\000\000\001\006\007\b\t\f\r\000\000\000\000\000\000\000\000\002\003\006\007\b\t\f\r\000\000\000\000\000\000\000\000\001\006\007\b\t\f\r\000\000\000\000\000\000\000\000\000\000\002\003\005\b\t\f\r\000\000\000\000\000\000\000\000\000\001\005\b\t\f\r\000\000\000\000\000\000\000\000\000\002\003\005\b\t\f\r\000\000\000\000\000\000\000\000\000\001\005\b\t\f\r\000\000\000\000\000\000\000\000\000\000\000\002\003\004\006\007\n\013\f\r\000\000\000\000\000\000\000\001\004\006\007\n\013\f\r\000\000\000\000\000\000\000\002\003\004\006\007\n\013\f\r\000\000\000\000\000\000\000\001\004\006\007\n\013\f\r\000\000\000\000\000\000\000\000\000\002\003\004\005\n\013\f\r\000\000\000\000\000\000\000\000\001\004\005\n\013\f\r\000\000\000\000\000\000\000\000\002\003\004\005\n\013\f\r\000\000\000\000\000\000\000\000\001\004\005\n\013\f\r\000\000\000\000\000\000\000\000\000\000\002\003\006\007\n\013\f\r\000\000\000\000\000\000\000\000\001\006\007\n\013\f\r\000\000\000\000\000\000\000\000\002\003\006\007\n\013\f\r\000\000\000\000\000\000\000\000\001\006\007\n\013\f\r\000\000\000\000\000\000\000\000\000\000\002\003\005\n\013\f\r\000\000\000\000\000\000\000\000\000\001\005\n\013\f\r\000\000\000\000\000\000\000\000\000\002\003\005\n\013\f\r\000\000\000\000\000\000\000\000\000\001\005\n\013\f\r\000\000\000\000\000\000\000\000\000\000\000\002\003\004\006\007\t\f\r\000\000\000\000\000\000\000\000\001\004\006\007\t\f\r\000\000\000\000\000\000\000\000\002\003\004\006\007\t\f\r\000\000\000\000\000\000\000\000\001\004\006\007\t\f\r\000\000\000\000\000\000\000\000\000\000\002\003\004\005\t\f\r\000\000\000\000\000\000\000\000\000\001\004\005\t\f\r\000\000\000\000\000\000\000\000\000\002\003\004\005\t\f\r\000\000\000\000\000\000\000\000\000\001\004\005\t\f\r\000\000\000\000\000\000\000\000\000\000\000\002\003\006\007\t\f\r\000\000\000\000\000\000\000\000\000\001\006\007\t\f\r\000\000\000\000\000\000\000\000\000\002\003\006\007\t\f\r\000\000\000\000\000\000\000\000\000\001\006\007\t\f\r\000\000\000\000\000\000\000\000\000\000\000\002\003\005\t\f\r\000\000\000\000\000\000\000\000\000\000\001\005\t\f\r\000\000\000\000\000\000\000\000\000\000\002\003\005\t\f\r\000\000\000\000\000\000\000\000\000\000\001\005\t\f\r\000\000\000\000\000\000\000\000\000\000\000\000\002\003\004\006\007\b\n\013\016\017\000\000\000\000\000\000\001\004\006\007\b\n\013\016\017\000\000\000\000\000\000\002\003\004\006\007\b\n\013\016\017\000\000\000\000\000\000\001\004\006\007\b\n\013\016\017\000\000\000\000\000\000\000\000\002\003\004\005\b\n\013\016\017\000\000\000\000\000\000\000\001\004\005\b\n\013\016\017\000\000\000\000\000\000\000\002\003\004\005\b\n\013\016\017\000\000\000\000\000\000\000\001\004\005\b\n\013\016\017\000\000\000\000\000\000\000\000\000\002\003\006\007\b\n\013\016\017\000\000\000\000\000\000\000\001\006\007\b\n\013\016\017\000\000\000\000\000\000\000\002\003\006\007\b\n\013\016\017\000\000\000\000\000\000\000\001\006\007\b\n\013\016\017\000\000\000\000\000\000\000\000\000\002\003\005\b\n\013\016\017\000\000\000\000\000\000\000\000\001\005\b\n\013\016\017\000\000\000\000\000\000\000\000\002\003\005\b\n\013\016\017\000\000\000\000\000\000\000\000\001\005\b\n\013\016\017\000\000\000\000\000\000\000\000\000\000\002\003\004\006\007\b\t\016\017\000\000\000\000\000\000\000\001\004\006\007\b\t\016\017\000\000\000\000\000\000\000\002\003\004\006\007\b\t\016\017\000\000\000\000\000\000\000\001\004\006\007\b\t\016\017\000\000\000\000\000\000\000\000\000\002\003\004\005\b\t\016\017\000\000\000\000\000\000\000\000\001\004\005\b\t\016\017\000\000\000\000\000\000\000\000\002\003\004\005\b\t\016\017\000\000\000\000\000\000\000\000\001\004\005\b\t\016\017\000\000\000\000\000\000\000\000\000\000\002\003\006\007\b\t\016\017\000\000\000\000\000\000\000\000\001\006\007\b\t\016\017\000\000\000\000\000\000\000\000\002\003\006\007\b\t\016\017\000\000\000\000\000\000\000\000\001\006\007\b\t\016\017\000\000\000\000\000\000\000\000\000\000\002\003\005\b\t\016\017\000\000\000\000\000\000\000\000\000\001\005\b\t\016\017\000\000\000\000\000\000\000\000\000\002\003\005\b\t\016\017\000\000\000\000\000\000\000\000\000\001\005\b\t\016\017\000\000\000\000\000\000\000\000\000\000\000\002\003\004\006\007\n\013\016\017\000\000\000\000\000\000\000\001\004\006\007\n\013\016\017\000\000\000\000\000\000\000\002\003\004\006\007\n\013\016\017\000\000\000\000\000\000\000\001\004\006\007\n\013\016\017\000\000\000\000\000\000\000\000\000\002\003\004\005\n\013\016\017\000\000\000\000\000\000\000\000\001\004\005\n\013\016\017\000\000\000\000\000\000\000\000\002\003\004\005\n\013\016\017\000\000\000\000\000\000\000\000\001\004\005\n\013\016\017\000\000\000\000\000\000\000\000\000\000\002\003\006\007\n\013\016\017\000\000\000\000\000\000\000\000\001\006\007\n\013\016\017\000\000\000\000\000\000\000\000\002\003\006\007\n\013\016\017\000\000\000\000\000\000\000\000\001\006\007\n\013\016\017\000\000\000\000\000\000\000\000\000\000\002\003\005\n\013\016\017\000\000\000\000\000\000\000\000\000\001\005\n\013\016\017\000\000\000\000\000\000\000\000\000\002\003\005\n\013\016\017\000\000\000\000\000\000\000\000\000\001\005\n\013\016\017\000\000\000\000\000\000\000\000\000\000\000\002\003\004\006\007\t\016\017\000\000\000\000\000\000\000\000\001\004\006\007\t\016\017\000\000\000\000\000\000\000\000\002\003\004\006\007\t\016\017\000\000\000\000\000\000\000\000\001\004\006\007\t\016\017\000\000\000\000\000\000\000\000\000\000\002\003\004\005\t\016\017\000\000\000\000\000\000\000\000\000\001\004\005\t\016\017\000\000\000\000\000\000\000\000\000\002\003\004\005\t\016\017\000\000\000\000\000\000\000\000\000\001\004\005\t\016\017\000\000\000\000\000\000\000\000\000\000\000\002\003\006\007\t\016\017\000\000\000\000\000\000\000\000\000\001\006\007\t\016\017\000\000\000\000\000\000\000\000\000\002\003\006\007\t\016\017\000\000\000\000\000\000\000\000\000\001\006\007\t\016\017\000\000\000\000\000\000\000\000\000\000\000\002\003\005\t\016\017\000\000\000\000\000\000\000\000\000\000\001\005\t\016\017\000\000\000\000\000\000\000\000\000\000\002\003\005\t\016\017\000\000\000\000\000\000\000\000\000\000\001\005\t\016\017\000\000\000\000\000\000\000\000\000\000\000\000\002\003\004\006\007\b\n\013\r\000\000\000\000\000\000\000\001\004\006\007\b\n\013\r\000\000\000\000\000\000\000\002\003\004\006\007\b\n\013\r\000\000\000\000\000\000\000\001\004\006\007\b\n\013\r\000\000\000\000\000\000\000\000\000\002\003\004\005\b\n\013\r\000\000\000\000\000\000\000\000\001\004\005\b\n\013\r\000\000\000\000\000\000\000\000\002\003\004\005\b\n\013\r\000\000\000\000\000\000\000\000\001\004\005\b\n\013\r\000\000\000\000\000\000\000\000\000\000\002\003\006\007\b\n\013\r\000\000\000\000\000\000\000\000\001\006\007\b\n\013\r\000\000\000\000\000\000\000\000\002\003\006\007\b\n\013\r\000\000\000\000\000\000\000\000\001\006\007\b\n\013\r\000\000\000\000\000\000\000\000\000\000\002\003\005\b\n\013\r\000\000\000\000\000\000\000\000\000\001\005\b\n\013\r\000\000\000\000\000\000\000\000\000\002\003\005\b\n\013\r\000\000\000\000\000\000\000\000\000\001\005\b\n\013\r\000\000\000\000\000\000\000\000\000\000\000\002\003\004\006\007\b\t\r\000\000\000\000\000\000\000\000\001\004\006\007\b\t\r\000\000\000\000\000\000\000\000\002\003\004\006\007\b\t\r\000\000\000\000\000\000\000\000\001\004\006\007\b\t\r\000\000\000\000\000\000\000\000\000\000\002\003\004\005\b\t\r\000\000\000\000\000\000\000\000\000\001\004\005\b\t\r\000\000\000\000\000\000\000\000\000\002\003\004\005\b\t\r\000\000\000\000\000\000\000\000\000\001\004\005\b\t\r\000\000\000\000\000\000\000\000\000\000\000\002\003\006\007\b\t\r\000\000\000\000\000\000\000\000\000\001\006\007\b\t\r\000\000\000\000\000\000\000\000\000\002\003\006\007\b\t\r\000\000\000\000\000\000\000\000\000\001\006\007\b\t\r\000\000\000\000\000\000\000\000\000\000\000\002\003\005\b\t\r\000\000\000\000\000\000\000\000\000\000\001\005\b\t\r\000\000\000\000\000\000\000\000\000\000\002\003\005\b\t\r\000\000\000\000\000\000\000\000\000\000\001\005\b\t\r\000\000\000\000\000\000\000\000\000\000\000\000\002\003\004\006\007\n\013\r\000\000\000\000\000\000\000\000\001\004\006\007\n\013\r\000\000\000\000\000\000\000\000\002\003\004\006\007\n\013\r\000\000\000\000\000\000\000\000\001\004\006\007\n\013\r\000\000\000\000\000\000\000\000\000\000\002\003\004\005\n\013\r\000\000\000\000\000\000\000\000\000\001\004\005\n\013\r\000\000\000\000\000\000\000\000\000\002\003\004\005\n\013\r\000\000\000\000\000\000\000\000\000\001\004\005\n\013\r\000\000\000\000\000\000\000\000\000\000\000\002\003\006\007\n\013\r\000\000\000\000\000\000\000\000\000\001\006\007\n\013\r\000\000\000\000\000\000\000\000\000\002\003\006\007\n\013\r\000\000\000\000\000\000\000\000\000\001\006\007\n\013\r\000\000\000\000\000\000\000\000\000\000\000\002\003\005\n\013\r\000\000\000\000\000\000\000\000\000\000\001\005\n\013\r\000\000\000\000\000\000\000\000\000\000\002\003\005\n\013\r\000\000\000\000\000\000\000\000\000\000\001\005\n\013\r\000\000\000\000\000\000\000\000\000\000\000\000\002\003\004\006\007\t\r\000\000\000\000\000\000\000\000\000\001\004\006\007\t\r\000\000\000\000\000\000\000\000\000\002\003\004\006\007\t\r\000\000\000\000\000\000\000\000\000\001\004\006\007\t\r\000\000\000\000\000\000\000\000\000\000\000\002\003\004\005\t\r\000\000\000\000\000\000\000\000\000\000\001\004\005\t\r\000\000\000\000\000\000\000\000\000\000\002\003\004\005\t\r\000\000\000\000\000\000\000\000\000\000\001\004\005\t\r\000\000\000\000\000\000\000\000\000\000\000\000\002\003\006\007\t\r\000\000\000\000\000\000\000\000\000\000\001\006\007\t\r\000\000\000\000\000\000\000\000\000\000\002\003\006\007\t\r\000\000\000\000\000\000\000\000\000\000\001\006\007\t\r\000\000\000\000\000\000\000\000\000\000\000\000\002\003\005\t\r\000\000\000\000\000\000\000\000\000\000\000\001\005\t\r\000\000\000\000\000\000\000\000\000\000\000\002\003\005\t\r\000\000\000\000\000\000\000\000\000\000\000\001\005\t\r\000\000\000\000\000\000\000\000\000\000\000"
	.size	.Lstatic.9, 4096

	.type	.Lstatic.10,@object
	.section	.rodata..Lstatic.10,"a",@progbits
.Lstatic.10:
	.ascii	"\200\200\200\200\200\200\200\200\200\200\200\200\200\200\200\200\017\200\200\200\200\200\200\200\200\200\200\200\200\200\200\200\016\017\200\200\200\200\200\200\200\200\200\200\200\200\200\200\r\016\017\200\200\200\200\200\200\200\200\200\200\200\200\200\f\r\016\017\200\200\200\200\200\200\200\200\200\200\200\200\013\f\r\016\017\200\200\200\200\200\200\200\200\200\200\200\n\013\f\r\016\017\200\200\200\200\200\200\200\200\200\200\t\n\013\f\r\016\017\200\200\200\200\200\200\200\200\200\b\t\n\013\f\r\016\017\200\200\200\200\200\200\200\200\007\b\t\n\013\f\r\016\017\200\200\200\200\200\200\200\006\007\b\t\n\013\f\r\016\017\200\200\200\200\200\200\005\006\007\b\t\n\013\f\r\016\017\200\200\200\200\200\004\005\006\007\b\t\n\013\f\r\016\017\200\200\200\200\003\004\005\006\007\b\t\n\013\f\r\016\017\200\200\200\002\003\004\005\006\007\b\t\n\013\f\r\016\017\200\200\001\002\003\004\005\006\007\b\t\n\013\f\r\016\017\200\000\001\002\003\004\005\006\007\b\t\n\013\f\r\016\017"
	.size	.Lstatic.10, 272

	.type	.Lstatic.25,@object
	.section	.rodata..Lstatic.25,"a",@progbits
.Lstatic.25:
	.ascii	"usage: "
	.size	.Lstatic.25, 7

	.type	.Lstatic.26,@object
	.section	.rodata..Lstatic.26,"a",@progbits
.Lstatic.26:
	.ascii	": read failed\n"
	.size	.Lstatic.26, 14

	.type	.Lstatic.27,@object
	.section	.rodata..Lstatic.27,"a",@progbits
.Lstatic.27:
	.ascii	": write failed\n"
	.size	.Lstatic.27, 15

	.type	.Lstatic.28,@object
	.section	.rodata.cst16,"aM",@progbits,16
.Lstatic.28:
	.ascii	": out of memory\n"
	.size	.Lstatic.28, 16

	.type	.Lstatic.29,@object
	.section	.rodata..Lstatic.29,"a",@progbits
.Lstatic.29:
	.ascii	": input too long\n"
	.size	.Lstatic.29, 17

	.type	.Lstatic.30,@object
	.section	.rodata..Lstatic.30,"a",@progbits
.Lstatic.30:
	.ascii	" le|be|auto\n"
	.size	.Lstatic.30, 12

	.type	.Lstatic.32,@object
	.section	.rodata..Lstatic.32,"a",@progbits
.Lstatic.32:
	.ascii	"utf16_cat"
	.size	.Lstatic.32, 9

	.ident	"rattle logic=dac8208d650f15bf3e2dc313a14fa4c783a3acf887bdfab66e1714b038d9e11b"
	.section	".note.GNU-stack","",@progbits

/* A GNU property that names CET. */
	.section	.note.gnu.property,"a",@note
	.p2align	3
	.long	4, 16, 5
	.asciz	"GNU"
	.long	0xc0000002, 4, 3, 0
