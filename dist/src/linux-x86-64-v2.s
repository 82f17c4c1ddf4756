/* SPDX-License-Identifier: MIT OR Apache-2.0
 * Dethrux 0.2.0 for C, as assembly for Linux on x86-64-v2. packaging/assembly
 * wrote it from the code that rt proved in logic dac8208d650f15bf: do not edit it. */
	.section	.rodata.cst16,"aM",@progbits,16
	.p2align	4, 0x0
.LCPI0_0:
	.zero	16,192
.LCPI0_1:
	.zero	16,191
.LCPI0_2:
	.zero	16,223
.LCPI0_3:
	.zero	16,239
.LCPI0_4:
	.zero	16,159
.LCPI0_5:
	.zero	16,237
.LCPI0_6:
	.zero	16,224
.LCPI0_7:
	.zero	16,143
.LCPI0_8:
	.zero	16,245
.LCPI0_9:
	.zero	16,244
.LCPI0_10:
	.zero	16,240
.LCPI0_11:
	.zero	16,254
.LCPI0_12:
	.byte	240
	.byte	224
	.zero	1
	.zero	1
	.zero	1
	.zero	1
	.zero	1
	.zero	1
	.zero	1
	.zero	1
	.zero	1
	.zero	1
	.zero	1
	.zero	1
	.zero	1
	.zero	1
.LCPI0_13:
	.byte	1
	.byte	2
	.byte	3
	.byte	4
	.byte	5
	.byte	6
	.byte	7
	.byte	8
	.byte	9
	.byte	10
	.byte	11
	.byte	12
	.byte	13
	.byte	14
	.byte	15
	.byte	16
.LCPI0_14:
	.byte	240
	.byte	224
	.byte	0
	.byte	0
	.byte	0
	.byte	0
	.byte	0
	.byte	0
	.byte	0
	.byte	0
	.byte	0
	.byte	0
	.byte	0
	.byte	0
	.byte	0
	.byte	0
	.section	".text.utf16_transcode::sizes::is_text_within_block","ax",@progbits
	.p2align	4
	.type	"utf16_transcode::sizes::is_text_within_block",@function
"utf16_transcode::sizes::is_text_within_block":
	.cfi_startproc
	leaq	-8(%rsi), %rax
	cmpq	$55, %rax
	ja	.LBB0_1
	cmpq	$17, %rsi
	jae	.LBB0_3
	movq	-8(%rdi,%rsi), %xmm0
	movq	(%rdi), %xmm1
	punpcklqdq	%xmm0, %xmm1
	movq	%rsi, %rax
	shlq	$4, %rax
	leaq	.Lstatic.1(%rip), %rcx
	movdqu	-128(%rax,%rcx), %xmm2
	pshufb	%xmm2, %xmm1
	pmovmskb	%xmm1, %eax
	testl	%eax, %eax
	je	.LBB0_11
	pextrb	$5, %xmm0, %ecx
	xorl	%eax, %eax
	cmpb	$-17, %cl
	ja	.LBB0_30
	pextrb	$7, %xmm0, %ecx
	cmpb	$-65, %cl
	ja	.LBB0_30
	pextrb	$6, %xmm0, %ecx
	cmpb	$-33, %cl
	ja	.LBB0_30
	leaq	.Lstatic.2(%rip), %rax
	subq	%rsi, %rax
	movdqu	16(%rax), %xmm0
	pmaxub	%xmm0, %xmm1
	movdqa	%xmm1, %xmm5
	pslldq	$1, %xmm5
	movdqa	%xmm1, %xmm4
	pslldq	$2, %xmm4
	movdqa	%xmm1, %xmm2
	pslldq	$3, %xmm2
	movdqa	.LCPI0_0(%rip), %xmm3
	movdqa	.LCPI0_4(%rip), %xmm0
	pminub	%xmm1, %xmm0
	pcmpeqb	%xmm1, %xmm0
	movdqa	.LCPI0_5(%rip), %xmm6
	pblendvb	%xmm0, .LCPI0_6(%rip), %xmm6
	movdqa	.LCPI0_7(%rip), %xmm0
	pminub	%xmm1, %xmm0
	pcmpeqb	%xmm1, %xmm0
	movdqa	.LCPI0_9(%rip), %xmm7
	pblendvb	%xmm0, .LCPI0_10(%rip), %xmm7
	movdqa	%xmm3, %xmm0
	pcmpeqb	%xmm5, %xmm6
	pcmpeqb	%xmm5, %xmm7
	psubusb	.LCPI0_1(%rip), %xmm5
	psubusb	.LCPI0_2(%rip), %xmm4
	pcmpgtb	%xmm1, %xmm0
	pmaxub	%xmm5, %xmm4
	psubusb	.LCPI0_3(%rip), %xmm2
	por	%xmm4, %xmm2
	pxor	%xmm4, %xmm4
	pcmpgtb	%xmm4, %xmm2
	pxor	%xmm0, %xmm2
	movdqa	.LCPI0_8(%rip), %xmm0
	pmaxub	%xmm1, %xmm0
	pcmpeqb	%xmm1, %xmm0
	por	%xmm6, %xmm7
	pand	.LCPI0_11(%rip), %xmm1
	pcmpeqb	%xmm3, %xmm1
	por	%xmm2, %xmm1
	por	%xmm0, %xmm1
	por	%xmm7, %xmm1
	movd	%esi, %xmm0
	pshufb	%xmm4, %xmm0
	movdqa	.LCPI0_13(%rip), %xmm2
	pmaxub	%xmm0, %xmm2
	pcmpeqb	%xmm0, %xmm2
	psllw	$7, %xmm1
	pand	%xmm2, %xmm1
	pmovmskb	%xmm1, %eax
	testl	%eax, %eax
	jmp	.LBB0_29
.LBB0_1:
	xorl	%eax, %eax
	retq
.LBB0_3:
	movdqu	(%rdi), %xmm2
	movdqa	%xmm2, %xmm3
	pslldq	$3, %xmm3
	movdqa	%xmm3, %xmm0
	por	%xmm2, %xmm0
	pmovmskb	%xmm0, %eax
	testl	%eax, %eax
	je	.LBB0_4
	movdqa	%xmm2, %xmm5
	pslldq	$1, %xmm5
	movdqa	%xmm2, %xmm4
	movdqa	.LCPI0_4(%rip), %xmm0
	pminub	%xmm2, %xmm0
	pcmpeqb	%xmm2, %xmm0
	movdqa	.LCPI0_5(%rip), %xmm6
	pblendvb	%xmm0, .LCPI0_6(%rip), %xmm6
	movdqa	.LCPI0_7(%rip), %xmm0
	pminub	%xmm2, %xmm0
	pcmpeqb	%xmm2, %xmm0
	movdqa	.LCPI0_9(%rip), %xmm7
	pblendvb	%xmm0, .LCPI0_10(%rip), %xmm7
	pslldq	$2, %xmm4
	movdqa	.LCPI0_0(%rip), %xmm0
	movdqa	.LCPI0_11(%rip), %xmm1
	pand	%xmm2, %xmm1
	pcmpeqb	%xmm0, %xmm1
	pcmpgtb	%xmm2, %xmm0
	pcmpeqb	%xmm5, %xmm6
	pcmpeqb	%xmm5, %xmm7
	psubusb	.LCPI0_1(%rip), %xmm5
	psubusb	.LCPI0_2(%rip), %xmm4
	psubusb	.LCPI0_3(%rip), %xmm3
	pmaxub	%xmm5, %xmm4
	por	%xmm4, %xmm3
	pxor	%xmm4, %xmm4
	pcmpgtb	%xmm4, %xmm3
	pxor	%xmm0, %xmm3
	movdqa	.LCPI0_8(%rip), %xmm0
	pmaxub	%xmm2, %xmm0
	pcmpeqb	%xmm2, %xmm0
	por	%xmm6, %xmm7
	por	%xmm0, %xmm7
	por	%xmm3, %xmm1
	por	%xmm7, %xmm1
	movl	%esi, %eax
	andl	$48, %eax
	cmpl	$16, %eax
	je	.LBB0_20
	jmp	.LBB0_7
.LBB0_11:
	movb	$1, %al
	retq
.LBB0_4:
	pxor	%xmm1, %xmm1
	movl	%esi, %eax
	andl	$48, %eax
	cmpl	$16, %eax
	jne	.LBB0_7
.LBB0_20:
	leaq	-16(%rsi), %rax
	movdqu	-16(%rdi,%rsi), %xmm3
	cmpq	$3, %rax
	jb	.LBB0_22
	movdqu	-3(%rdi,%rax), %xmm5
	movdqu	-2(%rdi,%rax), %xmm0
	movdqu	-1(%rdi,%rax), %xmm4
	movdqa	%xmm4, %xmm2
	psrldq	$14, %xmm2
	jmp	.LBB0_23
.LBB0_7:
	leaq	-16(%rsi), %rax
	movl	$16, %ecx
	jmp	.LBB0_8
	.p2align	4
.LBB0_19:
	addq	$16, %rcx
	addq	$-16, %rax
	cmpq	$15, %rax
	jbe	.LBB0_20
.LBB0_8:
	movdqu	(%rdi,%rcx), %xmm3
	testq	%rcx, %rcx
	je	.LBB0_16
	movdqu	-3(%rdi,%rcx), %xmm4
	movdqu	-2(%rdi,%rcx), %xmm0
	movdqu	-1(%rdi,%rcx), %xmm5
	jmp	.LBB0_17
	.p2align	4
.LBB0_16:
	movdqa	%xmm3, %xmm5
	pslldq	$1, %xmm5
	movdqa	%xmm3, %xmm0
	pslldq	$2, %xmm0
	movdqa	%xmm3, %xmm4
	pslldq	$3, %xmm4
.LBB0_17:
	movdqa	%xmm4, %xmm6
	por	%xmm3, %xmm6
	pmovmskb	%xmm6, %edx
	testl	%edx, %edx
	je	.LBB0_19
	movdqa	.LCPI0_0(%rip), %xmm6
	movdqa	%xmm6, %xmm7
	pcmpgtb	%xmm3, %xmm7
	movdqa	%xmm5, %xmm8
	psubusb	.LCPI0_1(%rip), %xmm8
	psubusb	.LCPI0_2(%rip), %xmm0
	pmaxub	%xmm8, %xmm0
	psubusb	.LCPI0_3(%rip), %xmm4
	por	%xmm0, %xmm4
	pxor	%xmm0, %xmm0
	pcmpgtb	%xmm0, %xmm4
	pxor	%xmm7, %xmm4
	movdqa	.LCPI0_4(%rip), %xmm0
	pminub	%xmm3, %xmm0
	pcmpeqb	%xmm3, %xmm0
	movdqa	.LCPI0_5(%rip), %xmm7
	pblendvb	%xmm0, .LCPI0_6(%rip), %xmm7
	pcmpeqb	%xmm5, %xmm7
	movdqa	.LCPI0_7(%rip), %xmm0
	pminub	%xmm3, %xmm0
	pcmpeqb	%xmm3, %xmm0
	movdqa	.LCPI0_8(%rip), %xmm8
	pmaxub	%xmm3, %xmm8
	pcmpeqb	%xmm3, %xmm8
	movdqa	.LCPI0_9(%rip), %xmm9
	pblendvb	%xmm0, .LCPI0_10(%rip), %xmm9
	pcmpeqb	%xmm5, %xmm9
	por	%xmm7, %xmm9
	por	%xmm8, %xmm9
	pand	.LCPI0_11(%rip), %xmm3
	pcmpeqb	%xmm6, %xmm3
	por	%xmm4, %xmm3
	por	%xmm9, %xmm3
	pmaxub	%xmm3, %xmm1
	jmp	.LBB0_19
.LBB0_22:
	movd	%xmm2, %ecx
	movzbl	-17(%rdi,%rsi), %edx
	movd	%edx, %xmm0
	pslldq	$15, %xmm0
	movdqa	%xmm3, %xmm4
	palignr	$15, %xmm0, %xmm4
	xorl	%edx, %edx
	cmpq	$2, %rax
	movzbl	%cl, %eax
	cmovnel	%edx, %eax
	movd	%eax, %xmm2
	pslldq	$15, %xmm2
	movdqa	%xmm4, %xmm0
	palignr	$15, %xmm2, %xmm0
	movdqa	%xmm0, %xmm5
	pslldq	$1, %xmm5
	movdqa	%xmm3, %xmm2
	psrldq	$13, %xmm2
.LBB0_23:
	movdqa	%xmm5, %xmm6
	por	%xmm3, %xmm6
	pmovmskb	%xmm6, %eax
	testl	%eax, %eax
	je	.LBB0_25
	movdqa	.LCPI0_0(%rip), %xmm6
	movdqa	.LCPI0_11(%rip), %xmm7
	pand	%xmm3, %xmm7
	pcmpeqb	%xmm6, %xmm7
	movdqa	%xmm4, %xmm8
	psubusb	.LCPI0_1(%rip), %xmm8
	pcmpgtb	%xmm3, %xmm6
	psubusb	.LCPI0_2(%rip), %xmm0
	pmaxub	%xmm8, %xmm0
	psubusb	.LCPI0_3(%rip), %xmm5
	por	%xmm0, %xmm5
	pxor	%xmm8, %xmm8
	movdqa	.LCPI0_4(%rip), %xmm0
	pminub	%xmm3, %xmm0
	pcmpeqb	%xmm3, %xmm0
	movdqa	.LCPI0_5(%rip), %xmm9
	pblendvb	%xmm0, .LCPI0_6(%rip), %xmm9
	pcmpgtb	%xmm8, %xmm5
	pxor	%xmm6, %xmm5
	pcmpeqb	%xmm4, %xmm9
	movdqa	.LCPI0_7(%rip), %xmm0
	pminub	%xmm3, %xmm0
	pcmpeqb	%xmm3, %xmm0
	movdqa	.LCPI0_8(%rip), %xmm6
	movdqa	.LCPI0_9(%rip), %xmm8
	pblendvb	%xmm0, .LCPI0_10(%rip), %xmm8
	pmaxub	%xmm3, %xmm6
	pcmpeqb	%xmm3, %xmm6
	pcmpeqb	%xmm4, %xmm8
	por	%xmm9, %xmm8
	por	%xmm6, %xmm8
	por	%xmm5, %xmm7
	por	%xmm8, %xmm7
	pmaxub	%xmm7, %xmm1
.LBB0_25:
	movd	.LCPI0_14(%rip), %xmm0
	pmaxub	%xmm2, %xmm0
	pcmpeqb	%xmm2, %xmm0
	pcmpeqd	%xmm2, %xmm2
	pxor	%xmm0, %xmm2
	pmovsxbq	%xmm2, %xmm0
	movmskpd	%xmm0, %ecx
	xorl	%eax, %eax
	testb	$1, %cl
	je	.LBB0_30
	pextrb	$15, %xmm3, %edx
	cmpb	$-65, %dl
	ja	.LBB0_30
	shrb	%cl
	je	.LBB0_30
	ptest	%xmm1, %xmm1
.LBB0_29:
	sete	%al
.LBB0_30:
	retq
.Lfunc_end0:
	.size	"utf16_transcode::sizes::is_text_within_block", .Lfunc_end0-"utf16_transcode::sizes::is_text_within_block"
	.cfi_endproc

	.section	.rodata.cst16,"aM",@progbits,16
	.p2align	4, 0x0
.LCPI1_0:
	.zero	16,15
.LCPI1_1:
	.byte	2
	.byte	2
	.byte	2
	.byte	2
	.byte	2
	.byte	2
	.byte	2
	.byte	2
	.byte	128
	.byte	128
	.byte	128
	.byte	128
	.byte	33
	.byte	1
	.byte	21
	.byte	73
.LCPI1_2:
	.byte	231
	.byte	163
	.byte	131
	.byte	131
	.byte	139
	.byte	203
	.byte	203
	.byte	203
	.byte	203
	.byte	203
	.byte	203
	.byte	203
	.byte	203
	.byte	219
	.byte	203
	.byte	203
.LCPI1_3:
	.byte	1
	.byte	1
	.byte	1
	.byte	1
	.byte	1
	.byte	1
	.byte	1
	.byte	1
	.byte	230
	.byte	174
	.byte	186
	.byte	186
	.byte	1
	.byte	1
	.byte	1
	.byte	1
.LCPI1_4:
	.zero	16,96
.LCPI1_5:
	.zero	16,112
.LCPI1_6:
	.zero	16,128
.LCPI1_7:
	.byte	255
	.byte	255
	.byte	255
	.byte	255
	.byte	255
	.byte	255
	.byte	255
	.byte	255
	.byte	255
	.byte	255
	.byte	255
	.byte	255
	.byte	255
	.byte	239
	.byte	223
	.byte	191
	.section	".text.simdutf8::compat::from_utf8","ax",@progbits
	.p2align	4
	.type	"simdutf8::compat::from_utf8",@function
"simdutf8::compat::from_utf8":
	.cfi_startproc
	pushq	%rbp
	.cfi_def_cfa_offset 16
	pushq	%r15
	.cfi_def_cfa_offset 24
	pushq	%r14
	.cfi_def_cfa_offset 32
	pushq	%r13
	.cfi_def_cfa_offset 40
	pushq	%r12
	.cfi_def_cfa_offset 48
	pushq	%rbx
	.cfi_def_cfa_offset 56
	subq	$232, %rsp
	.cfi_def_cfa_offset 288
	.cfi_offset %rbx, -56
	.cfi_offset %r12, -48
	.cfi_offset %r13, -40
	.cfi_offset %r14, -32
	.cfi_offset %r15, -24
	.cfi_offset %rbp, -16
	movq	%rdx, %r14
	movq	%rsi, %r15
	movq	%rdi, %rbx
	cmpq	$64, %rdx
	jb	.LBB1_14
	movl	$64, %eax
	subq	%r14, %rax
	movq	%r14, %rdx
	movq	%r15, %rsi
	.p2align	4
.LBB1_2:
	movdqu	(%rsi), %xmm0
	movdqu	16(%rsi), %xmm1
	por	%xmm0, %xmm1
	movdqu	32(%rsi), %xmm0
	movdqu	48(%rsi), %xmm2
	por	%xmm0, %xmm2
	por	%xmm1, %xmm2
	pmovmskb	%xmm2, %ecx
	testl	%ecx, %ecx
	jne	.LBB1_5
	addq	$64, %rsi
	addq	$-64, %rdx
	addq	$64, %rax
	cmpq	$63, %rdx
	ja	.LBB1_2
	pxor	%xmm0, %xmm0
	movdqa	%xmm0, 112(%rsp)
	xorl	%ecx, %ecx
	movdqa	%xmm0, 64(%rsp)
	movdqa	%xmm0, 96(%rsp)
	movdqa	%xmm0, 80(%rsp)
	movdqa	%xmm0, 32(%rsp)
	movdqa	%xmm0, 128(%rsp)
	movdqa	%xmm0, 48(%rsp)
	movdqa	%xmm0, 16(%rsp)
	movdqa	%xmm0, (%rsp)
	jmp	.LBB1_11
.LBB1_5:
	negq	%rax
	pxor	%xmm3, %xmm3
	xorl	%ecx, %ecx
	movq	%rsi, %rdi
	pxor	%xmm13, %xmm13
	pxor	%xmm14, %xmm14
	pxor	%xmm12, %xmm12
	pxor	%xmm11, %xmm11
	pxor	%xmm0, %xmm0
	pxor	%xmm6, %xmm6
	pxor	%xmm1, %xmm1
	pxor	%xmm2, %xmm2
	jmp	.LBB1_8
	.p2align	4
.LBB1_6:
	movdqa	%xmm7, 48(%rsp)
	movdqa	%xmm7, %xmm13
	palignr	$15, %xmm3, %xmm13
	movdqa	%xmm3, 16(%rsp)
	movdqa	%xmm9, 32(%rsp)
	movdqa	%xmm9, %xmm12
	palignr	$15, %xmm7, %xmm12
	movdqa	%xmm10, %xmm7
	palignr	$15, %xmm9, %xmm7
	movdqa	%xmm6, 64(%rsp)
	movdqa	%xmm8, %xmm6
	palignr	$15, %xmm10, %xmm6
	movdqa	%xmm6, %xmm11
	psrlw	$4, %xmm11
	movdqa	.LCPI1_0(%rip), %xmm5
	pand	%xmm5, %xmm11
	movdqa	%xmm7, %xmm14
	psrlw	$4, %xmm14
	pand	%xmm5, %xmm14
	movdqa	%xmm12, %xmm9
	psrlw	$4, %xmm9
	pand	%xmm5, %xmm9
	movdqa	%xmm8, (%rsp)
	movdqa	%xmm13, %xmm8
	psrlw	$4, %xmm8
	pand	%xmm5, %xmm8
	movdqa	.LCPI1_1(%rip), %xmm4
	movdqa	%xmm10, %xmm3
	movdqa	%xmm10, 208(%rsp)
	movdqa	%xmm4, %xmm10
	pshufb	%xmm8, %xmm10
	movdqa	%xmm4, %xmm8
	pshufb	%xmm9, %xmm8
	movdqa	%xmm4, %xmm9
	pshufb	%xmm14, %xmm9
	movdqa	%xmm9, 128(%rsp)
	pshufb	%xmm11, %xmm4
	pand	%xmm5, %xmm6
	pand	%xmm5, %xmm7
	pand	%xmm5, %xmm12
	pand	%xmm5, %xmm13
	movdqa	.LCPI1_2(%rip), %xmm11
	movdqa	%xmm11, %xmm14
	pshufb	%xmm13, %xmm14
	movdqa	%xmm11, %xmm15
	pshufb	%xmm12, %xmm15
	movdqa	%xmm11, %xmm12
	pshufb	%xmm7, %xmm12
	pshufb	%xmm6, %xmm11
	movdqa	(%rsp), %xmm13
	psrlw	$4, %xmm13
	pand	%xmm5, %xmm13
	movdqa	%xmm2, 80(%rsp)
	psrlw	$4, %xmm3
	pand	%xmm5, %xmm3
	movdqa	%xmm1, 96(%rsp)
	movdqa	32(%rsp), %xmm1
	psrlw	$4, %xmm1
	pand	%xmm5, %xmm1
	movdqa	%xmm0, 112(%rsp)
	movdqa	48(%rsp), %xmm9
	movdqa	%xmm9, %xmm0
	psrlw	$4, %xmm0
	pand	%xmm5, %xmm0
	movdqa	.LCPI1_3(%rip), %xmm6
	movdqa	%xmm6, %xmm7
	pshufb	%xmm0, %xmm7
	pand	%xmm14, %xmm7
	pand	%xmm10, %xmm7
	movdqa	%xmm6, %xmm5
	pshufb	%xmm1, %xmm5
	pand	%xmm15, %xmm5
	pand	%xmm8, %xmm5
	movdqa	%xmm6, %xmm8
	pshufb	%xmm3, %xmm8
	pand	%xmm12, %xmm8
	pand	128(%rsp), %xmm8
	pshufb	%xmm13, %xmm6
	pand	%xmm11, %xmm6
	pand	%xmm4, %xmm6
	movdqa	32(%rsp), %xmm3
	movdqa	%xmm3, %xmm11
	palignr	$14, %xmm9, %xmm11
	movdqa	208(%rsp), %xmm15
	movdqa	%xmm15, %xmm10
	palignr	$14, %xmm3, %xmm10
	movdqa	%xmm3, %xmm12
	movdqa	(%rsp), %xmm0
	palignr	$14, %xmm15, %xmm0
	movdqa	%xmm9, %xmm1
	movdqa	%xmm9, %xmm13
	movdqa	16(%rsp), %xmm3
	palignr	$14, %xmm3, %xmm1
	movdqa	.LCPI1_4(%rip), %xmm2
	psubusb	%xmm2, %xmm1
	psubusb	%xmm2, %xmm0
	psubusb	%xmm2, %xmm10
	psubusb	%xmm2, %xmm11
	movdqa	%xmm9, %xmm4
	palignr	$13, %xmm3, %xmm4
	movdqa	.LCPI1_5(%rip), %xmm2
	psubusb	%xmm2, %xmm4
	por	%xmm1, %xmm4
	movdqa	96(%rsp), %xmm1
	movdqa	(%rsp), %xmm3
	palignr	$13, %xmm15, %xmm3
	psubusb	%xmm2, %xmm3
	por	%xmm0, %xmm3
	movdqa	%xmm15, %xmm9
	palignr	$13, %xmm12, %xmm9
	psubusb	%xmm2, %xmm9
	por	%xmm10, %xmm9
	movdqa	%xmm12, %xmm10
	palignr	$13, %xmm13, %xmm10
	psubusb	%xmm2, %xmm10
	movdqa	80(%rsp), %xmm2
	por	%xmm11, %xmm10
	movdqa	.LCPI1_6(%rip), %xmm0
	pand	%xmm0, %xmm4
	pxor	%xmm7, %xmm4
	pand	%xmm0, %xmm3
	pxor	%xmm6, %xmm3
	movdqa	64(%rsp), %xmm6
	pand	%xmm0, %xmm9
	pxor	%xmm8, %xmm9
	movdqa	(%rsp), %xmm8
	pand	%xmm0, %xmm10
	pxor	%xmm5, %xmm10
	pcmpeqd	%xmm0, %xmm0
	psubusb	%xmm0, %xmm13
	psubusb	%xmm0, %xmm12
	movdqa	%xmm8, %xmm11
	psubusb	.LCPI1_7(%rip), %xmm11
	psubusb	%xmm0, %xmm15
	movdqa	112(%rsp), %xmm0
	movdqa	%xmm12, %xmm14
	movdqa	%xmm15, %xmm12
.LBB1_7:
	por	%xmm3, %xmm2
	por	%xmm9, %xmm1
	por	%xmm10, %xmm6
	por	%xmm4, %xmm0
	addq	$64, %rdi
	leaq	(%rax,%rcx), %r8
	addq	$-64, %rcx
	movdqa	%xmm8, %xmm3
	cmpq	$63, %r8
	jbe	.LBB1_10
.LBB1_8:
	movdqu	(%rdi), %xmm7
	movdqu	16(%rdi), %xmm9
	movdqu	32(%rdi), %xmm10
	movdqu	48(%rdi), %xmm8
	movdqa	%xmm9, %xmm4
	por	%xmm7, %xmm4
	movdqa	%xmm10, %xmm5
	por	%xmm8, %xmm5
	por	%xmm4, %xmm5
	pmovmskb	%xmm5, %r8d
	testl	%r8d, %r8d
	jne	.LBB1_6
	movdqa	%xmm13, %xmm4
	movdqa	%xmm14, %xmm10
	movdqa	%xmm12, %xmm9
	movdqa	%xmm11, %xmm3
	pxor	%xmm13, %xmm13
	pxor	%xmm14, %xmm14
	pxor	%xmm12, %xmm12
	pxor	%xmm11, %xmm11
	jmp	.LBB1_7
.LBB1_10:
	movdqa	%xmm14, 128(%rsp)
	movdqa	%xmm12, 48(%rsp)
	movdqa	%xmm11, 16(%rsp)
	movdqa	%xmm13, 32(%rsp)
	movdqa	%xmm8, (%rsp)
	movdqa	%xmm6, 64(%rsp)
	movdqa	%xmm2, 80(%rsp)
	movdqa	%xmm1, 96(%rsp)
	movdqa	%xmm0, 112(%rsp)
	negq	%rcx
.LBB1_11:
	leaq	144(%rsp), %rdi
	callq	"simdutf8::last_block"
	movdqa	144(%rsp), %xmm13
	movdqa	160(%rsp), %xmm12
	movdqa	176(%rsp), %xmm10
	movdqa	192(%rsp), %xmm1
	movdqa	%xmm12, %xmm4
	por	%xmm13, %xmm4
	movdqa	%xmm10, %xmm5
	por	%xmm1, %xmm5
	por	%xmm4, %xmm5
	pmovmskb	%xmm5, %eax
	testl	%eax, %eax
	movdqa	32(%rsp), %xmm0
	movdqa	16(%rsp), %xmm2
	movdqa	48(%rsp), %xmm3
	movdqa	128(%rsp), %xmm4
	je	.LBB1_13
	movdqa	%xmm13, %xmm0
	palignr	$15, (%rsp), %xmm0
	movdqa	%xmm12, %xmm2
	palignr	$15, %xmm13, %xmm2
	movdqa	%xmm10, %xmm6
	palignr	$15, %xmm12, %xmm6
	movdqa	%xmm1, %xmm5
	palignr	$15, %xmm10, %xmm5
	movdqa	%xmm5, %xmm11
	psrlw	$4, %xmm11
	movdqa	.LCPI1_0(%rip), %xmm4
	pand	%xmm4, %xmm11
	movdqa	%xmm6, %xmm14
	psrlw	$4, %xmm14
	pand	%xmm4, %xmm14
	movdqa	%xmm2, %xmm9
	psrlw	$4, %xmm9
	pand	%xmm4, %xmm9
	movdqa	%xmm0, %xmm8
	psrlw	$4, %xmm8
	pand	%xmm4, %xmm8
	movdqa	.LCPI1_1(%rip), %xmm7
	movdqa	%xmm7, %xmm3
	pshufb	%xmm8, %xmm3
	movdqa	%xmm3, 16(%rsp)
	movdqa	%xmm7, %xmm8
	pshufb	%xmm9, %xmm8
	movdqa	%xmm7, %xmm3
	pshufb	%xmm14, %xmm3
	movdqa	%xmm3, 32(%rsp)
	pshufb	%xmm11, %xmm7
	pand	%xmm4, %xmm5
	pand	%xmm4, %xmm6
	pand	%xmm4, %xmm2
	pand	%xmm4, %xmm0
	movdqa	.LCPI1_2(%rip), %xmm11
	movdqa	%xmm11, %xmm14
	pshufb	%xmm0, %xmm14
	movdqa	%xmm11, %xmm15
	pshufb	%xmm2, %xmm15
	movdqa	%xmm11, %xmm9
	pshufb	%xmm6, %xmm9
	pshufb	%xmm5, %xmm11
	movdqa	%xmm1, %xmm0
	psrlw	$4, %xmm0
	pand	%xmm4, %xmm0
	movdqa	%xmm10, %xmm2
	psrlw	$4, %xmm2
	pand	%xmm4, %xmm2
	movdqa	%xmm12, %xmm3
	psrlw	$4, %xmm3
	pand	%xmm4, %xmm3
	movdqa	%xmm1, 48(%rsp)
	movdqa	%xmm13, %xmm1
	psrlw	$4, %xmm1
	pand	%xmm4, %xmm1
	movdqa	.LCPI1_3(%rip), %xmm6
	movdqa	%xmm6, %xmm5
	pshufb	%xmm1, %xmm5
	pand	%xmm14, %xmm5
	pand	16(%rsp), %xmm5
	movdqa	%xmm6, %xmm4
	pshufb	%xmm3, %xmm4
	pand	%xmm15, %xmm4
	pand	%xmm8, %xmm4
	movdqa	%xmm6, %xmm8
	pshufb	%xmm2, %xmm8
	pand	%xmm9, %xmm8
	pand	32(%rsp), %xmm8
	pshufb	%xmm0, %xmm6
	pand	%xmm11, %xmm6
	pand	%xmm7, %xmm6
	movdqa	%xmm12, %xmm9
	palignr	$14, %xmm13, %xmm9
	movdqa	%xmm10, %xmm2
	palignr	$14, %xmm12, %xmm2
	movdqa	%xmm13, %xmm0
	movdqa	(%rsp), %xmm11
	palignr	$14, %xmm11, %xmm0
	movdqa	48(%rsp), %xmm14
	movdqa	%xmm14, %xmm1
	palignr	$14, %xmm10, %xmm1
	movdqa	.LCPI1_4(%rip), %xmm3
	psubusb	%xmm3, %xmm1
	psubusb	%xmm3, %xmm0
	psubusb	%xmm3, %xmm2
	psubusb	%xmm3, %xmm9
	movdqa	%xmm14, %xmm7
	palignr	$13, %xmm10, %xmm7
	palignr	$13, %xmm12, %xmm10
	palignr	$13, %xmm13, %xmm12
	palignr	$13, %xmm11, %xmm13
	movdqa	.LCPI1_5(%rip), %xmm3
	psubusb	%xmm3, %xmm7
	por	%xmm1, %xmm7
	psubusb	%xmm3, %xmm13
	por	%xmm0, %xmm13
	psubusb	%xmm3, %xmm10
	por	%xmm2, %xmm10
	psubusb	%xmm3, %xmm12
	por	%xmm9, %xmm12
	movdqa	.LCPI1_6(%rip), %xmm0
	pand	%xmm0, %xmm7
	pxor	%xmm6, %xmm7
	pand	%xmm0, %xmm13
	pxor	%xmm5, %xmm13
	pand	%xmm0, %xmm10
	pxor	%xmm8, %xmm10
	pand	%xmm0, %xmm12
	pxor	%xmm4, %xmm12
	movdqa	%xmm14, %xmm2
	psubusb	.LCPI1_7(%rip), %xmm2
	por	%xmm7, %xmm2
	movdqa	%xmm13, %xmm0
	movdqa	%xmm12, %xmm4
	movdqa	%xmm10, %xmm3
.LBB1_13:
	por	64(%rsp), %xmm4
	por	112(%rsp), %xmm0
	por	%xmm4, %xmm0
	por	96(%rsp), %xmm3
	por	80(%rsp), %xmm2
	por	%xmm3, %xmm2
	por	%xmm0, %xmm2
	ptest	%xmm2, %xmm2
	je	.LBB1_38
.LBB1_14:
	xorl	%ebp, %ebp
	jmp	.LBB1_16
	.p2align	4
.LBB1_15:
	por	80(%rsp), %xmm2
	por	32(%rsp), %xmm0
	por	%xmm2, %xmm0
	por	112(%rsp), %xmm1
	por	96(%rsp), %xmm4
	por	%xmm1, %xmm4
	por	%xmm0, %xmm4
	ptest	%xmm4, %xmm4
	jne	.LBB1_35
.LBB1_16:
	movq	%rbp, %r13
	movq	%r14, %r12
	subq	%rbp, %r12
	cmpq	$1025, %r12
	jb	.LBB1_35
	leaq	1024(%r13), %rbp
	xorl	%ecx, %ecx
	cmpb	$-64, 1024(%r15,%r13)
	setl	%cl
	subq	%rcx, %rbp
	xorl	%edx, %edx
	cmpb	$-64, (%r15,%rbp)
	setl	%dl
	subq	%rdx, %rbp
	xorl	%esi, %esi
	cmpb	$-64, (%r15,%rbp)
	setl	%sil
	subq	%rsi, %rbp
	leaq	(%r15,%r13), %rdi
	movq	%rbp, %rax
	subq	%r13, %rax
	cmpq	$64, %rax
	jb	.LBB1_22
	negq	%rcx
	negq	%rdx
	negq	%rsi
	addq	%rcx, %rdx
	addq	%rsi, %rdx
	addq	$960, %rdx
	xorl	%ecx, %ecx
	movq	%rdi, %rsi
	.p2align	4
.LBB1_19:
	movdqu	(%rsi), %xmm0
	movdqu	16(%rsi), %xmm1
	por	%xmm0, %xmm1
	movdqu	32(%rsi), %xmm0
	movdqu	48(%rsi), %xmm2
	por	%xmm0, %xmm2
	por	%xmm1, %xmm2
	pmovmskb	%xmm2, %r8d
	testl	%r8d, %r8d
	jne	.LBB1_27
	addq	$64, %rcx
	leaq	-64(%rdx), %r8
	addq	$64, %rsi
	addq	$-64, %rax
	cmpq	$63, %rdx
	movq	%r8, %rdx
	ja	.LBB1_19
	addq	$64, %r8
	movq	%r8, %rax
	jmp	.LBB1_23
	.p2align	4
.LBB1_22:
	xorl	%ecx, %ecx
.LBB1_23:
	addq	%rcx, %rdi
	pxor	%xmm0, %xmm0
	movdqa	%xmm0, 32(%rsp)
	xorl	%ecx, %ecx
	movq	%rdi, %rsi
	movq	%rax, %rdx
.LBB1_24:
	movdqa	%xmm0, 80(%rsp)
	movdqa	%xmm0, 112(%rsp)
	movdqa	%xmm0, 96(%rsp)
	movdqa	%xmm0, 16(%rsp)
	movdqa	%xmm0, (%rsp)
	movdqa	%xmm0, 48(%rsp)
	movdqa	%xmm0, 128(%rsp)
	movdqa	%xmm0, 64(%rsp)
.LBB1_25:
	leaq	144(%rsp), %rdi
	callq	"simdutf8::last_block"
	movdqa	144(%rsp), %xmm13
	movdqa	160(%rsp), %xmm12
	movdqa	176(%rsp), %xmm10
	movdqa	192(%rsp), %xmm3
	movdqa	%xmm12, %xmm4
	por	%xmm13, %xmm4
	movdqa	%xmm10, %xmm5
	por	%xmm3, %xmm5
	por	%xmm4, %xmm5
	pmovmskb	%xmm5, %eax
	testl	%eax, %eax
	movdqa	16(%rsp), %xmm0
	movdqa	48(%rsp), %xmm1
	movdqa	(%rsp), %xmm2
	movdqa	128(%rsp), %xmm4
	je	.LBB1_15
	movdqa	%xmm13, %xmm0
	palignr	$15, 64(%rsp), %xmm0
	movdqa	%xmm12, %xmm2
	palignr	$15, %xmm13, %xmm2
	movdqa	%xmm10, %xmm6
	palignr	$15, %xmm12, %xmm6
	movdqa	%xmm3, %xmm5
	palignr	$15, %xmm10, %xmm5
	movdqa	%xmm5, %xmm11
	psrlw	$4, %xmm11
	movdqa	.LCPI1_0(%rip), %xmm4
	pand	%xmm4, %xmm11
	movdqa	%xmm6, %xmm14
	psrlw	$4, %xmm14
	pand	%xmm4, %xmm14
	movdqa	%xmm2, %xmm9
	psrlw	$4, %xmm9
	pand	%xmm4, %xmm9
	movdqa	%xmm0, %xmm8
	psrlw	$4, %xmm8
	pand	%xmm4, %xmm8
	movdqa	%xmm3, 208(%rsp)
	movdqa	.LCPI1_1(%rip), %xmm7
	movdqa	%xmm7, %xmm1
	pshufb	%xmm8, %xmm1
	movdqa	%xmm1, 16(%rsp)
	movdqa	%xmm7, %xmm8
	pshufb	%xmm9, %xmm8
	movdqa	%xmm7, %xmm1
	pshufb	%xmm14, %xmm1
	movdqa	%xmm1, (%rsp)
	pshufb	%xmm11, %xmm7
	pand	%xmm4, %xmm5
	pand	%xmm4, %xmm6
	pand	%xmm4, %xmm2
	pand	%xmm4, %xmm0
	movdqa	.LCPI1_2(%rip), %xmm11
	movdqa	%xmm11, %xmm14
	pshufb	%xmm0, %xmm14
	movdqa	%xmm11, %xmm15
	pshufb	%xmm2, %xmm15
	movdqa	%xmm11, %xmm9
	pshufb	%xmm6, %xmm9
	pshufb	%xmm5, %xmm11
	movdqa	%xmm3, %xmm0
	psrlw	$4, %xmm0
	pand	%xmm4, %xmm0
	movdqa	%xmm10, %xmm2
	psrlw	$4, %xmm2
	pand	%xmm4, %xmm2
	movdqa	%xmm12, %xmm3
	psrlw	$4, %xmm3
	pand	%xmm4, %xmm3
	movdqa	%xmm13, %xmm1
	psrlw	$4, %xmm1
	pand	%xmm4, %xmm1
	movdqa	.LCPI1_3(%rip), %xmm6
	movdqa	%xmm6, %xmm5
	pshufb	%xmm1, %xmm5
	pand	%xmm14, %xmm5
	pand	16(%rsp), %xmm5
	movdqa	%xmm6, %xmm4
	pshufb	%xmm3, %xmm4
	pand	%xmm15, %xmm4
	pand	%xmm8, %xmm4
	movdqa	%xmm6, %xmm8
	pshufb	%xmm2, %xmm8
	pand	%xmm9, %xmm8
	pand	(%rsp), %xmm8
	pshufb	%xmm0, %xmm6
	pand	%xmm11, %xmm6
	pand	%xmm7, %xmm6
	movdqa	%xmm12, %xmm9
	palignr	$14, %xmm13, %xmm9
	movdqa	%xmm10, %xmm2
	palignr	$14, %xmm12, %xmm2
	movdqa	%xmm13, %xmm0
	movdqa	64(%rsp), %xmm14
	palignr	$14, %xmm14, %xmm0
	movdqa	208(%rsp), %xmm11
	movdqa	%xmm11, %xmm1
	palignr	$14, %xmm10, %xmm1
	movdqa	.LCPI1_4(%rip), %xmm3
	psubusb	%xmm3, %xmm1
	psubusb	%xmm3, %xmm0
	psubusb	%xmm3, %xmm2
	psubusb	%xmm3, %xmm9
	movdqa	%xmm11, %xmm7
	palignr	$13, %xmm10, %xmm7
	palignr	$13, %xmm12, %xmm10
	palignr	$13, %xmm13, %xmm12
	palignr	$13, %xmm14, %xmm13
	movdqa	.LCPI1_5(%rip), %xmm3
	psubusb	%xmm3, %xmm7
	por	%xmm1, %xmm7
	psubusb	%xmm3, %xmm13
	por	%xmm0, %xmm13
	psubusb	%xmm3, %xmm10
	por	%xmm2, %xmm10
	psubusb	%xmm3, %xmm12
	por	%xmm9, %xmm12
	movdqa	.LCPI1_6(%rip), %xmm0
	pand	%xmm0, %xmm7
	pxor	%xmm6, %xmm7
	pand	%xmm0, %xmm13
	pxor	%xmm5, %xmm13
	pand	%xmm0, %xmm10
	pxor	%xmm8, %xmm10
	pand	%xmm0, %xmm12
	pxor	%xmm4, %xmm12
	movdqa	%xmm11, %xmm0
	psubusb	.LCPI1_7(%rip), %xmm0
	por	%xmm7, %xmm0
	movdqa	%xmm0, %xmm3
	movdqa	%xmm13, %xmm0
	movdqa	%xmm12, %xmm2
	movdqa	%xmm10, %xmm1
	movdqa	%xmm3, %xmm4
	jmp	.LBB1_15
	.p2align	4
.LBB1_27:
	addq	$64, %rdx
	cmpq	$64, %rdx
	jb	.LBB1_33
	pxor	%xmm14, %xmm14
	xorl	%ecx, %ecx
	pxor	%xmm1, %xmm1
	pxor	%xmm4, %xmm4
	pxor	%xmm3, %xmm3
	pxor	%xmm2, %xmm2
	pxor	%xmm7, %xmm7
	pxor	%xmm10, %xmm10
	pxor	%xmm8, %xmm8
	pxor	%xmm9, %xmm9
	jmp	.LBB1_31
	.p2align	4
.LBB1_29:
	movdqa	%xmm10, 80(%rsp)
	movdqa	%xmm15, %xmm10
	palignr	$15, %xmm14, %xmm10
	movdqa	%xmm8, 112(%rsp)
	movdqa	%xmm11, %xmm8
	palignr	$15, %xmm15, %xmm8
	movdqa	%xmm7, 32(%rsp)
	movdqa	%xmm0, %xmm7
	palignr	$15, %xmm11, %xmm7
	movdqa	%xmm12, %xmm6
	palignr	$15, %xmm0, %xmm6
	movdqa	%xmm9, 96(%rsp)
	movdqa	%xmm6, %xmm9
	psrlw	$4, %xmm9
	movdqa	.LCPI1_0(%rip), %xmm2
	pand	%xmm2, %xmm9
	movdqa	%xmm11, (%rsp)
	movdqa	%xmm7, %xmm11
	psrlw	$4, %xmm11
	pand	%xmm2, %xmm11
	movdqa	%xmm8, %xmm3
	psrlw	$4, %xmm3
	pand	%xmm2, %xmm3
	movdqa	%xmm10, %xmm4
	psrlw	$4, %xmm4
	pand	%xmm2, %xmm4
	movdqa	.LCPI1_1(%rip), %xmm1
	movdqa	%xmm1, %xmm5
	pshufb	%xmm4, %xmm5
	movdqa	%xmm1, %xmm4
	pshufb	%xmm3, %xmm4
	movdqa	%xmm4, 16(%rsp)
	movdqa	%xmm1, %xmm3
	pshufb	%xmm11, %xmm3
	movdqa	%xmm3, 64(%rsp)
	pshufb	%xmm9, %xmm1
	pand	%xmm2, %xmm6
	pand	%xmm2, %xmm7
	pand	%xmm2, %xmm8
	pand	%xmm2, %xmm10
	movdqa	.LCPI1_2(%rip), %xmm9
	movdqa	%xmm12, %xmm4
	movdqa	%xmm9, %xmm12
	pshufb	%xmm10, %xmm12
	movdqa	%xmm9, %xmm13
	pshufb	%xmm8, %xmm13
	movdqa	%xmm9, %xmm10
	pshufb	%xmm7, %xmm10
	pshufb	%xmm6, %xmm9
	movdqa	%xmm4, %xmm11
	psrlw	$4, %xmm11
	pand	%xmm2, %xmm11
	movdqa	%xmm0, %xmm3
	movdqa	%xmm14, 48(%rsp)
	movdqa	%xmm0, %xmm14
	psrlw	$4, %xmm14
	pand	%xmm2, %xmm14
	movdqa	(%rsp), %xmm8
	psrlw	$4, %xmm8
	pand	%xmm2, %xmm8
	movdqa	%xmm15, %xmm0
	psrlw	$4, %xmm15
	pand	%xmm2, %xmm15
	movdqa	.LCPI1_3(%rip), %xmm6
	movdqa	%xmm6, %xmm7
	pshufb	%xmm15, %xmm7
	movdqa	%xmm0, %xmm15
	pand	%xmm12, %xmm7
	movdqa	%xmm4, %xmm12
	pand	%xmm5, %xmm7
	movdqa	%xmm6, %xmm5
	pshufb	%xmm8, %xmm5
	pand	%xmm13, %xmm5
	pand	16(%rsp), %xmm5
	movdqa	%xmm6, %xmm8
	pshufb	%xmm14, %xmm8
	movdqa	%xmm3, %xmm13
	pand	%xmm10, %xmm8
	movdqa	80(%rsp), %xmm10
	pand	64(%rsp), %xmm8
	pshufb	%xmm11, %xmm6
	movdqa	(%rsp), %xmm11
	pand	%xmm9, %xmm6
	pand	%xmm1, %xmm6
	movdqa	%xmm11, %xmm9
	palignr	$14, %xmm0, %xmm9
	movdqa	%xmm3, %xmm4
	palignr	$14, %xmm11, %xmm4
	movdqa	%xmm12, %xmm3
	palignr	$14, %xmm13, %xmm3
	movdqa	%xmm0, %xmm2
	movdqa	48(%rsp), %xmm0
	palignr	$14, %xmm0, %xmm2
	movdqa	.LCPI1_4(%rip), %xmm1
	psubusb	%xmm1, %xmm2
	psubusb	%xmm1, %xmm3
	psubusb	%xmm1, %xmm4
	psubusb	%xmm1, %xmm9
	movdqa	%xmm15, %xmm1
	palignr	$13, %xmm0, %xmm1
	movdqa	.LCPI1_5(%rip), %xmm0
	psubusb	%xmm0, %xmm1
	por	%xmm2, %xmm1
	movdqa	%xmm12, %xmm2
	palignr	$13, %xmm13, %xmm2
	psubusb	%xmm0, %xmm2
	por	%xmm3, %xmm2
	movdqa	%xmm13, %xmm3
	palignr	$13, %xmm11, %xmm3
	psubusb	%xmm0, %xmm3
	por	%xmm4, %xmm3
	movdqa	%xmm11, %xmm4
	palignr	$13, %xmm15, %xmm4
	psubusb	%xmm0, %xmm4
	por	%xmm9, %xmm4
	movdqa	96(%rsp), %xmm9
	movdqa	.LCPI1_6(%rip), %xmm0
	pand	%xmm0, %xmm1
	pxor	%xmm7, %xmm1
	movdqa	32(%rsp), %xmm7
	pand	%xmm0, %xmm2
	pxor	%xmm6, %xmm2
	pand	%xmm0, %xmm3
	pxor	%xmm8, %xmm3
	movdqa	112(%rsp), %xmm8
	pand	%xmm0, %xmm4
	pxor	%xmm5, %xmm4
	pcmpeqd	%xmm0, %xmm0
	psubusb	%xmm0, %xmm15
	psubusb	%xmm0, %xmm11
	psubusb	%xmm0, %xmm13
	movdqa	%xmm12, %xmm0
	psubusb	.LCPI1_7(%rip), %xmm0
.LBB1_30:
	por	%xmm2, %xmm9
	por	%xmm3, %xmm8
	por	%xmm4, %xmm10
	por	%xmm1, %xmm7
	addq	$64, %rcx
	addq	$-64, %rax
	movdqa	%xmm12, %xmm14
	movdqa	%xmm15, %xmm1
	movdqa	%xmm11, %xmm4
	movdqa	%xmm13, %xmm3
	movdqa	%xmm0, %xmm2
	cmpq	$63, %rax
	jbe	.LBB1_34
.LBB1_31:
	movdqu	(%rsi,%rcx), %xmm15
	movdqu	16(%rsi,%rcx), %xmm11
	movdqu	32(%rsi,%rcx), %xmm0
	movdqu	48(%rsi,%rcx), %xmm12
	movdqa	%xmm11, %xmm5
	por	%xmm15, %xmm5
	movdqa	%xmm0, %xmm6
	por	%xmm12, %xmm6
	por	%xmm5, %xmm6
	pmovmskb	%xmm6, %edi
	testl	%edi, %edi
	jne	.LBB1_29
	pxor	%xmm15, %xmm15
	pxor	%xmm11, %xmm11
	pxor	%xmm13, %xmm13
	pxor	%xmm0, %xmm0
	jmp	.LBB1_30
.LBB1_33:
	xorl	%ecx, %ecx
	pxor	%xmm0, %xmm0
	movdqa	%xmm0, 32(%rsp)
	jmp	.LBB1_24
.LBB1_34:
	movdqa	%xmm0, 128(%rsp)
	movdqa	%xmm11, (%rsp)
	movdqa	%xmm13, 48(%rsp)
	movdqa	%xmm15, 16(%rsp)
	movdqa	%xmm12, 64(%rsp)
	movdqa	%xmm10, 80(%rsp)
	movdqa	%xmm9, 96(%rsp)
	movdqa	%xmm8, 112(%rsp)
	movdqa	%xmm7, 32(%rsp)
	jmp	.LBB1_25
.LBB1_35:
	pxor	%xmm0, %xmm0
	movdqa	%xmm0, 144(%rsp)
	movq	$0, 160(%rsp)
	leaq	(%r15,%r13), %rsi
	leaq	144(%rsp), %rdi
	movq	%r12, %rdx
	callq	"core::str::utf8::from_utf8"
	movzbl	144(%rsp), %eax
	testq	%rax, %rax
	je	.LBB1_39
	addq	152(%rsp), %r13
	xorl	%ecx, %ecx
	xorl	%r14d, %r14d
	cmpb	$1, 160(%rsp)
	sete	%r14b
	movzbl	161(%rsp), %edx
	cmovnel	%ecx, %edx
	movzbl	%dl, %ecx
	movq	%r13, %r15
	jmp	.LBB1_40
.LBB1_38:
	xorl	%eax, %eax
.LBB1_39:
	xorl	%ecx, %ecx
.LBB1_40:
	movq	%rax, (%rbx)
	movq	%r15, 8(%rbx)
	movq	%r14, 16(%rbx)
	movq	%rcx, 24(%rbx)
	addq	$232, %rsp
	.cfi_def_cfa_offset 56
	popq	%rbx
	.cfi_def_cfa_offset 48
	popq	%r12
	.cfi_def_cfa_offset 40
	popq	%r13
	.cfi_def_cfa_offset 32
	popq	%r14
	.cfi_def_cfa_offset 24
	popq	%r15
	.cfi_def_cfa_offset 16
	popq	%rbp
	.cfi_def_cfa_offset 8
	retq
.Lfunc_end1:
	.size	"simdutf8::compat::from_utf8", .Lfunc_end1-"simdutf8::compat::from_utf8"
	.cfi_endproc

	.section	".text.simdutf8::last_block","ax",@progbits
	.p2align	4
	.type	"simdutf8::last_block",@function
"simdutf8::last_block":
	.cfi_startproc
	pushq	%rbp
	.cfi_def_cfa_offset 16
	.cfi_offset %rbp, -16
	movq	%rsp, %rbp
	.cfi_def_cfa_register %rbp
	pushq	%rbx
	andq	$-64, %rsp
	subq	$128, %rsp
	.cfi_offset %rbx, -24
	movq	%rdi, %rbx
	addq	%rcx, %rsi
	subq	%rcx, %rdx
	xorps	%xmm0, %xmm0
	movaps	%xmm0, 48(%rsp)
	movaps	%xmm0, 32(%rsp)
	movaps	%xmm0, 16(%rsp)
	movaps	%xmm0, (%rsp)
	movq	%rsp, %rdi
	callq	memcpy@PLT
	movaps	(%rsp), %xmm0
	movaps	16(%rsp), %xmm1
	movaps	32(%rsp), %xmm2
	movaps	48(%rsp), %xmm3
	movups	%xmm2, 32(%rbx)
	movups	%xmm3, 48(%rbx)
	movups	%xmm0, (%rbx)
	movups	%xmm1, 16(%rbx)
	leaq	-8(%rbp), %rsp
	popq	%rbx
	popq	%rbp
	.cfi_def_cfa %rsp, 8
	retq
.Lfunc_end2:
	.size	"simdutf8::last_block", .Lfunc_end2-"simdutf8::last_block"
	.cfi_endproc

	.section	".text.core::str::utf8::from_utf8","ax",@progbits
	.p2align	4
	.type	"core::str::utf8::from_utf8",@function
"core::str::utf8::from_utf8":
	.cfi_startproc
	pushq	%r15
	.cfi_def_cfa_offset 16
	pushq	%r14
	.cfi_def_cfa_offset 24
	pushq	%r13
	.cfi_def_cfa_offset 32
	pushq	%r12
	.cfi_def_cfa_offset 40
	pushq	%rbx
	.cfi_def_cfa_offset 48
	subq	$16, %rsp
	.cfi_def_cfa_offset 64
	.cfi_offset %rbx, -48
	.cfi_offset %r12, -40
	.cfi_offset %r13, -32
	.cfi_offset %r14, -24
	.cfi_offset %r15, -16
	movq	%rdx, %r15
	movq	%rsi, %r14
	movq	%rdi, %rbx
	testq	%rdx, %rdx
	je	.LBB3_57
	movabsq	$-9187201950435737472, %r12
	leaq	-8(%r15), %r13
	xorl	%ecx, %ecx
	jmp	.LBB3_5
.LBB3_25:
	movl	$1, %edi
.LBB3_3:
	addq	%rcx, %rdi
.LBB3_4:
	movq	%rdi, %rcx
	cmpq	%r15, %rdi
	jae	.LBB3_57
.LBB3_5:
	movzbl	(%r14,%rcx), %esi
	testb	%sil, %sil
	sets	%dl
	movq	%r15, %rax
	subq	%rcx, %rax
	cmpq	$2, %rax
	setb	%dil
	orb	%dl, %dil
	jne	.LBB3_2
	cmpb	$0, 1(%r14,%rcx)
	js	.LBB3_25
	movq	%r14, (%rsp)
	movq	%r15, 8(%rsp)
	cmpq	$7, %rax
	ja	.LBB3_26
	cmpb	$0, (%r14,%rcx)
	js	.LBB3_36
	leaq	1(%rcx), %rdi
	cmpq	%r15, %rdi
	je	.LBB3_57
	cmpb	$0, (%r14,%rdi)
	js	.LBB3_4
	leaq	2(%rcx), %rdi
	cmpq	%r15, %rdi
	je	.LBB3_57
	cmpb	$0, (%r14,%rdi)
	js	.LBB3_4
	leaq	3(%rcx), %rdi
	cmpq	%r15, %rdi
	je	.LBB3_57
	cmpb	$0, (%r14,%rdi)
	js	.LBB3_4
	leaq	4(%rcx), %rdi
	cmpq	%r15, %rdi
	je	.LBB3_57
	cmpb	$0, (%r14,%rdi)
	js	.LBB3_4
	leaq	5(%rcx), %rdi
	cmpq	%r15, %rdi
	je	.LBB3_57
	cmpb	$0, (%r14,%rdi)
	js	.LBB3_4
	addq	$6, %rcx
	cmpq	%r15, %rcx
	je	.LBB3_57
	cmpb	$0, (%r14,%rcx)
	movq	%rcx, %rdi
	js	.LBB3_4
	jmp	.LBB3_57
	.p2align	4
.LBB3_2:
	movl	$1, %edi
	testb	%sil, %sil
	jns	.LBB3_3
	movl	$257, %edx
	cmpb	$-62, %sil
	jb	.LBB3_66
	cmpb	$-33, %sil
	ja	.LBB3_29
	cmpq	$2, %rax
	jb	.LBB3_58
	movzbl	1(%r14,%rcx), %r8d
	movl	$2, %edi
	cmpb	$-65, %r8b
	jle	.LBB3_3
	jmp	.LBB3_60
.LBB3_26:
	movq	(%r14,%rcx), %rax
	andq	%r12, %rax
	je	.LBB3_37
	rep		bsfq	%rax, %rax
	shrl	$3, %eax
	addq	%rcx, %rax
	addq	$8, %rcx
	movq	%rax, %rdi
	cmpq	%rcx, %rax
	jb	.LBB3_4
	movq	%r15, %rcx
	subq	%rax, %rcx
	cmpq	$32, %rcx
	jae	.LBB3_38
	jmp	.LBB3_40
.LBB3_29:
	cmpb	$-17, %sil
	ja	.LBB3_48
	cmpq	$3, %rax
	jb	.LBB3_55
	movzbl	1(%r14,%rcx), %r8d
	cmpb	$-65, %r8b
	jg	.LBB3_60
	cmpb	$-65, 2(%r14,%rcx)
	jg	.LBB3_60
	movzbl	%r8b, %edi
	movl	%esi, %r9d
	shll	$6, %r9d
	addl	%edi, %r9d
	addl	$-14464, %r9d
	cmpl	$32, %r9d
	jb	.LBB3_60
	xorl	%r8d, %r8d
	cmpl	$896, %r9d
	setae	%r10b
	movl	$3, %edi
	cmpl	$864, %r9d
	jb	.LBB3_3
	movb	%r10b, %r8b
	leaq	(%r8,%r8,2), %rdi
	testq	%rdi, %rdi
	jne	.LBB3_3
	jmp	.LBB3_54
.LBB3_36:
	movq	%rcx, %rdi
	jmp	.LBB3_4
.LBB3_37:
	addq	$8, %rcx
	movq	%rcx, %rax
	movq	%r15, %rcx
	subq	%rax, %rcx
	cmpq	$32, %rcx
	jb	.LBB3_40
	.p2align	4
.LBB3_38:
	movdqu	(%r14,%rax), %xmm0
	movdqu	16(%r14,%rax), %xmm1
	por	%xmm0, %xmm1
	pshufd	$238, %xmm1, %xmm0
	por	%xmm1, %xmm0
	movq	%xmm0, %rcx
	testq	%r12, %rcx
	jne	.LBB3_40
	addq	$32, %rax
	movq	%rsp, %rdi
	movq	%rax, %rsi
	movq	%r15, %rdx
	callq	"core::slice::words::skip_far::<#52f9edcae2f82f51>"
	movq	%r15, %rcx
	subq	%rax, %rcx
	cmpq	$31, %rcx
	ja	.LBB3_38
.LBB3_40:
	movq	%r15, %rcx
	subq	%rax, %rcx
	jmp	.LBB3_43
	.p2align	4
.LBB3_41:
	rep		bsfq	%rdx, %rdi
	shrl	$3, %edi
	addq	%rax, %rdi
	addq	$8, %rax
	addq	$-8, %rcx
	cmpq	%rax, %rdi
	jb	.LBB3_4
.LBB3_43:
	cmpq	$9, %rcx
	jb	.LBB3_46
	movq	(%r14,%rax), %rdx
	andq	%r12, %rdx
	jne	.LBB3_41
	leaq	8(%rax), %rdi
	addq	$8, %rax
	addq	$-8, %rcx
	cmpq	%rax, %rdi
	jae	.LBB3_43
	jmp	.LBB3_4
.LBB3_46:
	movq	(%r14,%r13), %rax
	andq	%r12, %rax
	je	.LBB3_57
	rep		bsfq	%rax, %rdi
	shrl	$3, %edi
	addq	%r13, %rdi
	jmp	.LBB3_4
.LBB3_48:
	cmpq	$4, %rax
	jb	.LBB3_54
	movzbl	1(%r14,%rcx), %edi
	cmpb	$-65, %dil
	jg	.LBB3_54
	cmpb	$-65, 2(%r14,%rcx)
	jg	.LBB3_54
	cmpb	$-65, 3(%r14,%rcx)
	jg	.LBB3_54
	movl	%esi, %r8d
	shll	$6, %r8d
	leal	(%r8,%rdi), %r9d
	addl	$-15488, %r9d
	xorl	%edi, %edi
	cmpl	$272, %r9d
	setb	%r8b
	cmpl	$16, %r9d
	jb	.LBB3_54
	movb	%r8b, %dil
	shll	$2, %edi
	testq	%rdi, %rdi
	jne	.LBB3_3
.LBB3_54:
	cmpb	$-12, %sil
	ja	.LBB3_66
.LBB3_55:
	cmpq	$2, %rax
	jb	.LBB3_58
	movzbl	1(%r14,%rcx), %r8d
.LBB3_60:
	cmpl	$240, %esi
	sete	%dil
	shlb	$4, %dil
	orb	$-128, %dil
	cmpl	$224, %esi
	movzbl	%dil, %edi
	movl	$160, %r9d
	cmovnel	%edi, %r9d
	cmpl	$244, %esi
	movl	$143, %edi
	movl	$191, %r10d
	cmovel	%edi, %r10d
	cmpl	$237, %esi
	movl	$159, %esi
	cmovnel	%r10d, %esi
	cmpb	%r8b, %r9b
	ja	.LBB3_66
	cmpb	%sil, %r8b
	ja	.LBB3_66
	cmpq	$2, %rax
	jne	.LBB3_64
.LBB3_58:
	xorl	%edx, %edx
.LBB3_66:
	movq	$1, (%rbx)
	movq	%rcx, 8(%rbx)
	movq	%rdx, 16(%rbx)
	jmp	.LBB3_67
.LBB3_57:
	movq	$0, (%rbx)
	movq	%r14, 8(%rbx)
	movq	%r15, 16(%rbx)
.LBB3_67:
	addq	$16, %rsp
	.cfi_def_cfa_offset 48
	popq	%rbx
	.cfi_def_cfa_offset 40
	popq	%r12
	.cfi_def_cfa_offset 32
	popq	%r13
	.cfi_def_cfa_offset 24
	popq	%r14
	.cfi_def_cfa_offset 16
	popq	%r15
	.cfi_def_cfa_offset 8
	retq
.LBB3_64:
	.cfi_def_cfa_offset 64
	movl	$513, %edx
	cmpb	$-65, 2(%r14,%rcx)
	jg	.LBB3_66
	xorl	%esi, %esi
	cmpq	$4, %rax
	movl	$769, %edx
	cmovbq	%rsi, %rdx
	jmp	.LBB3_66
.Lfunc_end3:
	.size	"core::str::utf8::from_utf8", .Lfunc_end3-"core::str::utf8::from_utf8"
	.cfi_endproc

	.section	.rodata.cst16,"aM",@progbits,16
	.p2align	4, 0x0
.LCPI4_0:
	.zero	16,128
	.section	".text.core::slice::words::skip_far::<#52f9edcae2f82f51>","ax",@progbits
	.p2align	4
	.type	"core::slice::words::skip_far::<#52f9edcae2f82f51>",@function
"core::slice::words::skip_far::<#52f9edcae2f82f51>":
	.cfi_startproc
	movq	%rsi, %rax
	subq	%rsi, %rdx
	cmpq	$64, %rdx
	jb	.LBB4_4
	movq	(%rdi), %rcx
	.p2align	4
.LBB4_2:
	movdqu	(%rcx,%rax), %xmm0
	movdqu	16(%rcx,%rax), %xmm1
	movdqu	32(%rcx,%rax), %xmm2
	por	%xmm0, %xmm2
	movdqu	48(%rcx,%rax), %xmm0
	por	%xmm1, %xmm0
	por	%xmm2, %xmm0
	ptest	.LCPI4_0(%rip), %xmm0
	jne	.LBB4_4
	addq	$64, %rax
	addq	$-64, %rdx
	cmpq	$63, %rdx
	ja	.LBB4_2
.LBB4_4:
	retq
.Lfunc_end4:
	.size	"core::slice::words::skip_far::<#52f9edcae2f82f51>", .Lfunc_end4-"core::slice::words::skip_far::<#52f9edcae2f82f51>"
	.cfi_endproc

	.section	.rodata.cst16,"aM",@progbits,16
	.p2align	4, 0x0
.LCPI5_0:
	.zero	16,191
.LCPI5_1:
	.zero	16,240
	.section	".text.utf16_units::size::utf16_len","ax",@progbits
	.p2align	4
	.type	"utf16_units::size::utf16_len",@function
"utf16_units::size::utf16_len":
	.cfi_startproc
	cmpq	$16, %rsi
	jae	.LBB5_9
	xorl	%eax, %eax
	testq	%rsi, %rsi
	jne	.LBB5_2
.LBB5_15:
	retq
.LBB5_4:
	andl	$31, %ecx
	shll	$6, %ecx
	orl	%edx, %ecx
	movl	$2, %r9d
	.p2align	4
.LBB5_8:
	addq	%r9, %rdi
	xorl	%edx, %edx
	cmpl	$65536, %ecx
	setae	%dl
	leaq	(%rax,%rdx,2), %rax
	addq	$2, %rax
	subq	%r9, %rsi
	je	.LBB5_15
.LBB5_2:
	movzbl	(%rdi), %ecx
	movl	$1, %r9d
	testb	%cl, %cl
	jns	.LBB5_8
	movzbl	1(%rdi), %edx
	andl	$63, %edx
	cmpb	$-33, %cl
	jbe	.LBB5_4
	movzbl	2(%rdi), %r8d
	andl	$63, %r8d
	cmpb	$-17, %cl
	ja	.LBB5_7
	shll	$12, %ecx
	movzwl	%cx, %ecx
	shll	$6, %edx
	orl	%ecx, %edx
	orl	%r8d, %edx
	movl	$3, %r9d
	movl	%edx, %ecx
	jmp	.LBB5_8
.LBB5_7:
	movzbl	3(%rdi), %r9d
	andl	$63, %r9d
	andl	$7, %ecx
	shll	$18, %ecx
	shll	$12, %edx
	orl	%ecx, %edx
	shll	$6, %r8d
	orl	%edx, %r8d
	orl	%r9d, %r8d
	movl	$4, %r9d
	movl	%r8d, %ecx
	jmp	.LBB5_8
.LBB5_9:
	cmpq	$64, %rsi
	jb	.LBB5_10
	xorl	%ecx, %ecx
	movq	%rsi, %rdx
	xorl	%eax, %eax
	.p2align	4
.LBB5_17:
	movdqu	(%rdi,%rcx), %xmm3
	movdqu	16(%rdi,%rcx), %xmm7
	movdqu	32(%rdi,%rcx), %xmm4
	movdqu	48(%rdi,%rcx), %xmm6
	movdqa	.LCPI5_0(%rip), %xmm5
	movdqa	.LCPI5_1(%rip), %xmm2
	movdqa	%xmm6, %xmm0
	pmaxub	%xmm2, %xmm0
	pcmpeqb	%xmm6, %xmm0
	pcmpgtb	%xmm5, %xmm6
	movdqa	%xmm4, %xmm1
	pmaxub	%xmm2, %xmm1
	pcmpeqb	%xmm4, %xmm1
	movdqa	%xmm4, %xmm8
	pcmpgtb	%xmm5, %xmm8
	movdqa	%xmm7, %xmm4
	pmaxub	%xmm2, %xmm4
	pcmpeqb	%xmm7, %xmm4
	pcmpgtb	%xmm5, %xmm7
	pmaxub	%xmm3, %xmm2
	pcmpeqb	%xmm3, %xmm2
	pcmpgtb	%xmm5, %xmm3
	pmovmskb	%xmm3, %r8d
	pmovmskb	%xmm7, %r9d
	shll	$16, %r9d
	orl	%r8d, %r9d
	pmovmskb	%xmm8, %r8d
	shlq	$32, %r8
	orq	%r9, %r8
	pmovmskb	%xmm6, %r9d
	shlq	$48, %r9
	orq	%r8, %r9
	xorl	%r8d, %r8d
	popcntq	%r9, %r8
	addq	%rax, %r8
	pmovmskb	%xmm2, %eax
	pmovmskb	%xmm4, %r9d
	shll	$16, %r9d
	orl	%eax, %r9d
	pmovmskb	%xmm1, %eax
	shlq	$32, %rax
	orq	%r9, %rax
	pmovmskb	%xmm0, %r9d
	shlq	$48, %r9
	orq	%rax, %r9
	xorl	%eax, %eax
	popcntq	%r9, %rax
	addq	%r8, %rax
	addq	$64, %rcx
	addq	$-64, %rdx
	cmpq	$63, %rdx
	ja	.LBB5_17
	movq	%rsi, %rdx
	subq	%rcx, %rdx
	cmpq	$16, %rdx
	jae	.LBB5_12
	jmp	.LBB5_14
.LBB5_10:
	xorl	%eax, %eax
	xorl	%ecx, %ecx
	movq	%rsi, %rdx
	subq	%rcx, %rdx
	cmpq	$16, %rdx
	jb	.LBB5_14
.LBB5_12:
	addq	%rdi, %rcx
	.p2align	4
.LBB5_13:
	movdqu	(%rcx), %xmm0
	movdqa	.LCPI5_1(%rip), %xmm1
	pmaxub	%xmm0, %xmm1
	pcmpeqb	%xmm0, %xmm1
	pcmpgtb	.LCPI5_0(%rip), %xmm0
	pmovmskb	%xmm0, %r8d
	popcntl	%r8d, %r8d
	pmovmskb	%xmm1, %r9d
	popcntl	%r9d, %r9d
	addl	%r8d, %r9d
	addq	%r9, %rax
	addq	$-16, %rdx
	addq	$16, %rcx
	cmpq	$15, %rdx
	ja	.LBB5_13
.LBB5_14:
	movdqu	-16(%rdi,%rsi), %xmm0
	movdqa	%xmm0, %xmm1
	pcmpgtb	.LCPI5_0(%rip), %xmm1
	pmovmskb	%xmm1, %esi
	movb	$16, %cl
	subb	%dl, %cl
	shrq	%cl, %rsi
	movdqa	.LCPI5_1(%rip), %xmm1
	pmaxub	%xmm0, %xmm1
	pcmpeqb	%xmm0, %xmm1
	xorl	%edx, %edx
	popcntl	%esi, %edx
	pmovmskb	%xmm1, %esi
	shrq	%cl, %rsi
	addq	%rax, %rdx
	xorl	%eax, %eax
	popcntl	%esi, %eax
	addq	%rdx, %rax
	addq	%rax, %rax
	retq
.Lfunc_end5:
	.size	"utf16_units::size::utf16_len", .Lfunc_end5-"utf16_units::size::utf16_len"
	.cfi_endproc

	.section	".text.utf16_units::unit::decode_surrogates","ax",@progbits
	.p2align	4
	.type	"utf16_units::unit::decode_surrogates",@function
"utf16_units::unit::decode_surrogates":
	.cfi_startproc
	addl	$10240, %edi
	movzwl	%di, %eax
	shll	$10, %eax
	addl	$9216, %esi
	movzwl	%si, %ecx
	addl	%ecx, %eax
	addl	$65536, %eax
	retq
.Lfunc_end6:
	.size	"utf16_units::unit::decode_surrogates", .Lfunc_end6-"utf16_units::unit::decode_surrogates"
	.cfi_endproc

	.section	".text.utf16_units::text::has_few_ascii_units::<#8b18edd9dd9aa8df>","ax",@progbits
	.p2align	4
	.type	"utf16_units::text::has_few_ascii_units::<#8b18edd9dd9aa8df>",@function
"utf16_units::text::has_few_ascii_units::<#8b18edd9dd9aa8df>":
	.cfi_startproc
	movb	$1, %al
	cmpq	$2, %rsi
	jb	.LBB7_4
	.p2align	4
.LBB7_3:
	movzwl	(%rdi), %eax
	rolw	$8, %ax
	movzwl	%ax, %eax
	cmpl	$128, %eax
	setb	%al
	jae	.LBB7_4
	addq	$2, %rdi
	addq	$-2, %rsi
	cmpq	$2, %rsi
	jae	.LBB7_3
.LBB7_4:
	retq
.Lfunc_end7:
	.size	"utf16_units::text::has_few_ascii_units::<#8b18edd9dd9aa8df>", .Lfunc_end7-"utf16_units::text::has_few_ascii_units::<#8b18edd9dd9aa8df>"
	.cfi_endproc

	.section	".text.utf16_units::text::has_few_ascii_units::<#418c2b53cf60437c>","ax",@progbits
	.p2align	4
	.type	"utf16_units::text::has_few_ascii_units::<#418c2b53cf60437c>",@function
"utf16_units::text::has_few_ascii_units::<#418c2b53cf60437c>":
	.cfi_startproc
	movb	$1, %al
	cmpq	$2, %rsi
	jb	.LBB8_4
	.p2align	4
.LBB8_3:
	movzwl	(%rdi), %ecx
	cmpl	$128, %ecx
	setb	%al
	cmpw	$128, %cx
	jae	.LBB8_4
	addq	$2, %rdi
	addq	$-2, %rsi
	cmpq	$2, %rsi
	jae	.LBB8_3
.LBB8_4:
	retq
.Lfunc_end8:
	.size	"utf16_units::text::has_few_ascii_units::<#418c2b53cf60437c>", .Lfunc_end8-"utf16_units::text::has_few_ascii_units::<#418c2b53cf60437c>"
	.cfi_endproc

	.section	.rodata.cst16,"aM",@progbits,16
	.p2align	4, 0x0
.LCPI9_0:
	.byte	255
	.byte	0
	.byte	255
	.byte	0
	.byte	255
	.byte	0
	.byte	255
	.byte	0
	.byte	255
	.byte	0
	.byte	255
	.byte	0
	.byte	255
	.byte	0
	.byte	255
	.byte	0
.LCPI9_1:
	.zero	16,248
.LCPI9_2:
	.zero	16,216
.LCPI9_3:
	.byte	0
	.byte	2
	.byte	4
	.byte	6
	.byte	8
	.byte	10
	.byte	12
	.byte	14
	.zero	1
	.zero	1
	.zero	1
	.zero	1
	.zero	1
	.zero	1
	.zero	1
	.zero	1
.LCPI9_4:
	.byte	248
	.byte	248
	.byte	248
	.byte	248
	.byte	248
	.byte	248
	.byte	248
	.byte	248
	.zero	1
	.zero	1
	.zero	1
	.zero	1
	.zero	1
	.zero	1
	.zero	1
	.zero	1
.LCPI9_5:
	.byte	216
	.byte	216
	.byte	216
	.byte	216
	.byte	216
	.byte	216
	.byte	216
	.byte	216
	.zero	1
	.zero	1
	.zero	1
	.zero	1
	.zero	1
	.zero	1
	.zero	1
	.zero	1
.LCPI9_6:
	.byte	0
	.byte	2
	.byte	4
	.byte	6
	.zero	1
	.zero	1
	.zero	1
	.zero	1
	.zero	1
	.zero	1
	.zero	1
	.zero	1
	.zero	1
	.zero	1
	.zero	1
	.zero	1
.LCPI9_7:
	.byte	248
	.byte	248
	.byte	248
	.byte	248
	.zero	1
	.zero	1
	.zero	1
	.zero	1
	.zero	1
	.zero	1
	.zero	1
	.zero	1
	.zero	1
	.zero	1
	.zero	1
	.zero	1
.LCPI9_8:
	.byte	216
	.byte	216
	.byte	216
	.byte	216
	.zero	1
	.zero	1
	.zero	1
	.zero	1
	.zero	1
	.zero	1
	.zero	1
	.zero	1
	.zero	1
	.zero	1
	.zero	1
	.zero	1
	.section	".text.utf16_transcode::decode::valid_up_to::<#8b18edd9dd9aa8df>","ax",@progbits
	.p2align	4
	.type	"utf16_transcode::decode::valid_up_to::<#8b18edd9dd9aa8df>",@function
"utf16_transcode::decode::valid_up_to::<#8b18edd9dd9aa8df>":
	.cfi_startproc
	cmpq	$2, %rsi
	jne	.LBB9_3
	movzbl	(%rdi), %ecx
	andb	$-8, %cl
	movl	$2, %eax
.LBB9_2:
	cmpb	$-40, %cl
	je	"utf16_units::validate::valid_len::<#8b18edd9dd9aa8df>"
	retq
.LBB9_3:
	cmpq	$7, %rsi
	ja	.LBB9_12
	testq	%rsi, %rsi
	je	.LBB9_23
	cmpq	$6, %rsi
	je	.LBB9_9
	cmpq	$4, %rsi
	jne	"utf16_units::validate::valid_len::<#8b18edd9dd9aa8df>"
	movzbl	(%rdi), %eax
	andb	$-8, %al
	cmpb	$-40, %al
	je	"utf16_units::validate::valid_len::<#8b18edd9dd9aa8df>"
	movzbl	2(%rdi), %ecx
	andb	$-8, %cl
	movl	$4, %eax
	jmp	.LBB9_2
.LBB9_12:
	cmpq	$65, %rsi
	setae	%al
	movl	%esi, %ecx
	orb	%al, %cl
	testb	$1, %cl
	jne	"utf16_units::validate::valid_len::<#8b18edd9dd9aa8df>"
	cmpq	$15, %rsi
	ja	.LBB9_17
	movq	(%rdi), %xmm0
	pshufb	.LCPI9_6(%rip), %xmm0
	pand	.LCPI9_7(%rip), %xmm0
	pcmpeqb	.LCPI9_8(%rip), %xmm0
	pmovsxbd	%xmm0, %xmm0
	movmskps	%xmm0, %eax
	testl	%eax, %eax
	jne	"utf16_units::validate::valid_len::<#8b18edd9dd9aa8df>"
	movq	-8(%rdi,%rsi), %xmm0
	pshufb	.LCPI9_6(%rip), %xmm0
	pand	.LCPI9_7(%rip), %xmm0
	pcmpeqb	.LCPI9_8(%rip), %xmm0
	pmovsxbd	%xmm0, %xmm0
	movmskps	%xmm0, %eax
	testl	%eax, %eax
	jne	"utf16_units::validate::valid_len::<#8b18edd9dd9aa8df>"
	jmp	.LBB9_23
.LBB9_17:
	cmpq	$31, %rsi
	ja	.LBB9_21
	movdqu	(%rdi), %xmm0
	pshufb	.LCPI9_3(%rip), %xmm0
	pand	.LCPI9_4(%rip), %xmm0
	pcmpeqb	.LCPI9_5(%rip), %xmm0
	pmovmskb	%xmm0, %eax
	testb	%al, %al
	jne	"utf16_units::validate::valid_len::<#8b18edd9dd9aa8df>"
	movdqu	-16(%rdi,%rsi), %xmm0
	pshufb	.LCPI9_3(%rip), %xmm0
	pand	.LCPI9_4(%rip), %xmm0
	pcmpeqb	.LCPI9_5(%rip), %xmm0
	pmovmskb	%xmm0, %eax
	testb	%al, %al
	jne	"utf16_units::validate::valid_len::<#8b18edd9dd9aa8df>"
	jmp	.LBB9_23
.LBB9_9:
	movzbl	(%rdi), %eax
	andb	$-8, %al
	cmpb	$-40, %al
	je	"utf16_units::validate::valid_len::<#8b18edd9dd9aa8df>"
	movzbl	2(%rdi), %eax
	andb	$-8, %al
	cmpb	$-40, %al
	je	"utf16_units::validate::valid_len::<#8b18edd9dd9aa8df>"
	movzbl	4(%rdi), %ecx
	andb	$-8, %cl
	movl	$6, %eax
	jmp	.LBB9_2
.LBB9_21:
	movdqu	(%rdi), %xmm1
	movdqu	16(%rdi), %xmm2
	movdqa	.LCPI9_0(%rip), %xmm0
	pand	%xmm0, %xmm2
	pand	%xmm0, %xmm1
	packuswb	%xmm2, %xmm1
	pand	.LCPI9_1(%rip), %xmm1
	pcmpeqb	.LCPI9_2(%rip), %xmm1
	pmovmskb	%xmm1, %eax
	testl	%eax, %eax
	jne	"utf16_units::validate::valid_len::<#8b18edd9dd9aa8df>"
	movdqu	-32(%rdi,%rsi), %xmm1
	movdqu	-16(%rdi,%rsi), %xmm2
	pand	%xmm0, %xmm2
	pand	%xmm0, %xmm1
	packuswb	%xmm2, %xmm1
	pand	.LCPI9_1(%rip), %xmm1
	pcmpeqb	.LCPI9_2(%rip), %xmm1
	pmovmskb	%xmm1, %eax
	testl	%eax, %eax
	jne	"utf16_units::validate::valid_len::<#8b18edd9dd9aa8df>"
.LBB9_23:
	movq	%rsi, %rax
	retq
.Lfunc_end9:
	.size	"utf16_transcode::decode::valid_up_to::<#8b18edd9dd9aa8df>", .Lfunc_end9-"utf16_transcode::decode::valid_up_to::<#8b18edd9dd9aa8df>"
	.cfi_endproc

	.section	.rodata.cst16,"aM",@progbits,16
	.p2align	4, 0x0
.LCPI10_0:
	.byte	255
	.byte	0
	.byte	255
	.byte	0
	.byte	255
	.byte	0
	.byte	255
	.byte	0
	.byte	255
	.byte	0
	.byte	255
	.byte	0
	.byte	255
	.byte	0
	.byte	255
	.byte	0
.LCPI10_1:
	.zero	16,248
.LCPI10_2:
	.zero	16,216
.LCPI10_3:
	.zero	16,252
.LCPI10_4:
	.zero	16,220
	.section	".text.utf16_units::validate::valid_len::<#8b18edd9dd9aa8df>","ax",@progbits
	.p2align	4
	.type	"utf16_units::validate::valid_len::<#8b18edd9dd9aa8df>",@function
"utf16_units::validate::valid_len::<#8b18edd9dd9aa8df>":
	.cfi_startproc
	cmpq	$32, %rsi
	jae	.LBB10_10
	testq	%rsi, %rsi
	je	.LBB10_14
	xorl	%ecx, %ecx
	jmp	.LBB10_4
	.p2align	4
.LBB10_3:
	addq	%rcx, %rax
	movq	%rax, %rcx
	cmpq	%rsi, %rax
	jae	.LBB10_34
.LBB10_4:
	movq	%rsi, %r8
	subq	%rcx, %r8
	cmpq	$2, %r8
	jb	.LBB10_15
	movzwl	(%rdi,%rcx), %edx
	rolw	$8, %dx
	movl	%edx, %r9d
	andl	$63488, %r9d
	movl	$2, %eax
	cmpl	$55296, %r9d
	jne	.LBB10_3
	cmpq	$4, %r8
	jb	.LBB10_15
	andl	$56320, %edx
	movzwl	%dx, %eax
	cmpl	$56320, %eax
	je	.LBB10_15
	movzbl	2(%rdi,%rcx), %edx
	andb	$-4, %dl
	movl	$4, %eax
	cmpb	$-36, %dl
	je	.LBB10_3
	jmp	.LBB10_15
.LBB10_10:
	cmpq	$64, %rsi
	jb	.LBB10_13
	movdqu	(%rdi), %xmm3
	movdqu	16(%rdi), %xmm1
	movdqu	32(%rdi), %xmm4
	movdqu	48(%rdi), %xmm2
	movdqa	.LCPI10_0(%rip), %xmm0
	pand	%xmm0, %xmm1
	pand	%xmm0, %xmm3
	packuswb	%xmm1, %xmm3
	pand	%xmm0, %xmm2
	pand	%xmm0, %xmm4
	packuswb	%xmm2, %xmm4
	movdqa	.LCPI10_1(%rip), %xmm1
	pand	%xmm1, %xmm4
	pand	%xmm1, %xmm3
	movdqa	.LCPI10_2(%rip), %xmm2
	pcmpeqb	%xmm2, %xmm3
	pcmpeqb	%xmm2, %xmm4
	movdqa	%xmm4, %xmm5
	por	%xmm3, %xmm5
	pmovmskb	%xmm5, %eax
	testl	%eax, %eax
	je	.LBB10_16
	xorl	%ecx, %ecx
	movq	%rsi, %rax
	jmp	.LBB10_23
.LBB10_13:
	xorl	%ecx, %ecx
	xorl	%edx, %edx
	jmp	.LBB10_39
.LBB10_14:
	xorl	%eax, %eax
	retq
.LBB10_16:
	movq	%rsi, %rdx
	andq	$-128, %rdx
	leaq	-256(%rsi), %r8
	xorl	%ecx, %ecx
	.p2align	4
.LBB10_17:
	cmpq	$256, %rdx
	sete	%al
	addq	$64, %rcx
	cmpq	$256, %rcx
	setne	%r9b
	orb	%al, %r9b
	jne	.LBB10_21
	movl	$256, %ecx
	movq	%r8, %rax
	.p2align	4
.LBB10_19:
	movdqu	(%rdi,%rcx), %xmm4
	movdqu	16(%rdi,%rcx), %xmm5
	movdqu	32(%rdi,%rcx), %xmm3
	movdqu	48(%rdi,%rcx), %xmm6
	pand	%xmm0, %xmm5
	pand	%xmm0, %xmm4
	packuswb	%xmm5, %xmm4
	pand	%xmm0, %xmm6
	pand	%xmm0, %xmm3
	packuswb	%xmm6, %xmm3
	pand	%xmm1, %xmm3
	pand	%xmm1, %xmm4
	pcmpeqb	%xmm2, %xmm4
	pcmpeqb	%xmm2, %xmm3
	por	%xmm4, %xmm3
	movdqu	64(%rdi,%rcx), %xmm4
	movdqu	80(%rdi,%rcx), %xmm5
	movdqu	96(%rdi,%rcx), %xmm6
	movdqu	112(%rdi,%rcx), %xmm7
	pand	%xmm0, %xmm7
	pand	%xmm0, %xmm6
	packuswb	%xmm7, %xmm6
	pand	%xmm0, %xmm5
	pand	%xmm0, %xmm4
	packuswb	%xmm5, %xmm4
	pand	%xmm1, %xmm4
	pand	%xmm1, %xmm6
	pcmpeqb	%xmm2, %xmm6
	pcmpeqb	%xmm2, %xmm4
	por	%xmm6, %xmm4
	por	%xmm3, %xmm4
	pmovmskb	%xmm4, %r9d
	testl	%r9d, %r9d
	jne	.LBB10_21
	subq	$-128, %rcx
	addq	$-128, %rax
	cmpq	$127, %rax
	ja	.LBB10_19
.LBB10_21:
	movq	%rsi, %rax
	subq	%rcx, %rax
	cmpq	$63, %rax
	jbe	.LBB10_38
	movdqu	(%rdi,%rcx), %xmm3
	movdqu	16(%rdi,%rcx), %xmm5
	movdqu	32(%rdi,%rcx), %xmm4
	movdqu	48(%rdi,%rcx), %xmm6
	pand	%xmm0, %xmm5
	pand	%xmm0, %xmm3
	packuswb	%xmm5, %xmm3
	pand	%xmm0, %xmm6
	pand	%xmm0, %xmm4
	packuswb	%xmm6, %xmm4
	pand	%xmm1, %xmm4
	pand	%xmm1, %xmm3
	pcmpeqb	%xmm2, %xmm3
	pcmpeqb	%xmm2, %xmm4
	movdqa	%xmm4, %xmm5
	por	%xmm3, %xmm5
	pmovmskb	%xmm5, %r9d
	testl	%r9d, %r9d
	je	.LBB10_17
.LBB10_23:
	cmpq	$64, %rax
	jne	.LBB10_33
.LBB10_24:
	xorl	%edx, %edx
	jmp	.LBB10_26
	.p2align	4
.LBB10_25:
	movzwl	%r8w, %edx
	shrl	$15, %edx
	cmpq	$63, %rax
	jbe	.LBB10_60
.LBB10_26:
	movdqu	(%rdi,%rcx), %xmm4
	movdqu	16(%rdi,%rcx), %xmm5
	movdqu	32(%rdi,%rcx), %xmm3
	movdqu	48(%rdi,%rcx), %xmm6
	pand	%xmm0, %xmm6
	pand	%xmm0, %xmm3
	packuswb	%xmm6, %xmm3
	pand	%xmm0, %xmm5
	pand	%xmm0, %xmm4
	packuswb	%xmm5, %xmm4
	movdqa	.LCPI10_3(%rip), %xmm5
	pand	%xmm5, %xmm4
	pand	%xmm5, %xmm3
	movdqa	%xmm3, %xmm5
	pcmpeqb	%xmm2, %xmm5
	movdqa	%xmm4, %xmm6
	pcmpeqb	%xmm2, %xmm6
	pmovmskb	%xmm6, %eax
	pmovmskb	%xmm5, %r8d
	movl	%r8d, %r9d
	shll	$16, %r9d
	orl	%eax, %r9d
	movdqa	.LCPI10_4(%rip), %xmm5
	pcmpeqb	%xmm5, %xmm4
	pmovmskb	%xmm4, %eax
	pcmpeqb	%xmm5, %xmm3
	pmovmskb	%xmm3, %r10d
	shll	$16, %r10d
	orl	%eax, %r10d
	movzbl	%dl, %eax
	andl	$1, %eax
	leal	(%rax,%r9,2), %eax
	cmpl	%r10d, %eax
	jne	.LBB10_60
	addq	$64, %rcx
	movq	%rsi, %rax
	subq	%rcx, %rax
	testw	%r8w, %r8w
	js	.LBB10_25
	cmpq	$64, %rax
	jb	.LBB10_25
	movzbl	%cl, %edx
	orq	%r9, %rdx
	jne	.LBB10_25
	.p2align	4
.LBB10_30:
	movdqu	(%rdi,%rcx), %xmm3
	movdqu	16(%rdi,%rcx), %xmm4
	movdqu	32(%rdi,%rcx), %xmm5
	movdqu	48(%rdi,%rcx), %xmm6
	pand	%xmm0, %xmm4
	pand	%xmm0, %xmm3
	packuswb	%xmm4, %xmm3
	pand	%xmm0, %xmm6
	pand	%xmm0, %xmm5
	packuswb	%xmm6, %xmm5
	pand	%xmm1, %xmm5
	pand	%xmm1, %xmm3
	pcmpeqb	%xmm2, %xmm3
	pcmpeqb	%xmm2, %xmm5
	por	%xmm3, %xmm5
	pmovmskb	%xmm5, %edx
	testl	%edx, %edx
	jne	.LBB10_25
	addq	$64, %rcx
	addq	$-64, %rax
	cmpq	$63, %rax
	ja	.LBB10_30
.LBB10_38:
	xorl	%edx, %edx
	cmpq	$32, %rax
	jb	.LBB10_40
.LBB10_39:
	movdqu	(%rdi,%rcx), %xmm0
	movdqu	16(%rdi,%rcx), %xmm1
	movdqa	.LCPI10_0(%rip), %xmm2
	pand	%xmm2, %xmm1
	pand	%xmm2, %xmm0
	packuswb	%xmm1, %xmm0
	pand	.LCPI10_3(%rip), %xmm0
	movdqa	.LCPI10_2(%rip), %xmm1
	pcmpeqb	%xmm0, %xmm1
	pmovmskb	%xmm1, %eax
	movl	%eax, %r8d
	pcmpeqb	.LCPI10_4(%rip), %xmm0
	pmovmskb	%xmm0, %r9d
	movzbl	%dl, %r10d
	movl	%r10d, %edx
	andl	$1, %edx
	andl	$32767, %eax
	leaq	(%rdx,%rax,2), %rax
	leaq	32(%rcx), %rdx
	cmpq	%r9, %rax
	cmoveq	%rdx, %rcx
	xorl	%edx, %edx
	testw	%r8w, %r8w
	sets	%dl
	cmpl	%r9d, %eax
	cmovnel	%r10d, %edx
.LBB10_40:
	leaq	-2(%rcx), %rax
	testb	$1, %dl
	cmoveq	%rcx, %rax
	movq	%rsi, %rcx
	subq	%rax, %rcx
	cmpq	$32, %rcx
	ja	.LBB10_44
	movq	%rax, %rcx
	subq	%rsi, %rcx
	testb	$1, %cl
	jne	.LBB10_48
	movdqu	-32(%rdi,%rsi), %xmm0
	movdqu	-16(%rdi,%rsi), %xmm1
	addl	$32, %ecx
	movdqa	.LCPI10_0(%rip), %xmm2
	pand	%xmm2, %xmm1
	pand	%xmm2, %xmm0
	packuswb	%xmm1, %xmm0
	pand	.LCPI10_3(%rip), %xmm0
	shrl	%ecx
	movdqa	.LCPI10_4(%rip), %xmm1
	pcmpeqb	%xmm0, %xmm1
	pmovmskb	%xmm1, %edx
	shrq	%cl, %rdx
	pcmpeqb	.LCPI10_2(%rip), %xmm0
	pmovmskb	%xmm0, %r8d
	shrq	%cl, %r8
	addl	%r8d, %r8d
	cmpl	%r8d, %edx
	jne	.LBB10_48
	movq	%rsi, %rax
	retq
.LBB10_44:
	cmpq	$64, %rcx
	jae	.LBB10_47
.LBB10_48:
	xorl	%ecx, %ecx
	addq	%rax, %rcx
	cmpq	%rsi, %rcx
	jb	.LBB10_51
	jmp	.LBB10_15
.LBB10_47:
	movdqu	(%rdi,%rax), %xmm0
	movdqu	16(%rdi,%rax), %xmm1
	movdqu	32(%rdi,%rax), %xmm2
	movdqu	48(%rdi,%rax), %xmm3
	movdqa	.LCPI10_0(%rip), %xmm4
	pand	%xmm4, %xmm1
	pand	%xmm4, %xmm0
	packuswb	%xmm1, %xmm0
	pand	%xmm4, %xmm3
	pand	%xmm4, %xmm2
	packuswb	%xmm3, %xmm2
	movdqa	.LCPI10_1(%rip), %xmm1
	pand	%xmm1, %xmm2
	pand	%xmm1, %xmm0
	movdqa	.LCPI10_2(%rip), %xmm1
	pcmpeqb	%xmm1, %xmm0
	pmovmskb	%xmm0, %ecx
	pcmpeqb	%xmm1, %xmm2
	pmovmskb	%xmm2, %edx
	shll	$16, %edx
	orl	%ecx, %edx
	rep		bsfl	%edx, %r8d
	addl	%r8d, %r8d
	testl	%edx, %edx
	movl	$64, %ecx
	cmovnel	%r8d, %ecx
	addq	%rax, %rcx
	cmpq	%rsi, %rcx
	jb	.LBB10_51
	jmp	.LBB10_15
	.p2align	4
.LBB10_50:
	addq	%rcx, %rax
	movq	%rax, %rcx
	cmpq	%rsi, %rax
	jae	.LBB10_34
.LBB10_51:
	movq	%rsi, %r8
	subq	%rcx, %r8
	cmpq	$2, %r8
	jb	.LBB10_15
	movzwl	(%rdi,%rcx), %edx
	rolw	$8, %dx
	movl	%edx, %r9d
	andl	$63488, %r9d
	movl	$2, %eax
	cmpl	$55296, %r9d
	jne	.LBB10_50
	cmpq	$4, %r8
	jb	.LBB10_15
	andl	$56320, %edx
	movzwl	%dx, %eax
	cmpl	$56320, %eax
	je	.LBB10_15
	movzbl	2(%rdi,%rcx), %edx
	andb	$-4, %dl
	movl	$4, %eax
	cmpb	$-36, %dl
	je	.LBB10_50
.LBB10_15:
	movq	%rcx, %rax
	retq
.LBB10_33:
	pmovmskb	%xmm3, %eax
	pmovmskb	%xmm4, %edx
	shll	$16, %edx
	orl	%eax, %edx
	rep		bsfl	%edx, %r8d
	addl	%r8d, %r8d
	testl	%edx, %edx
	movl	$64, %eax
	cmovnel	%r8d, %eax
	addq	%rcx, %rax
	movq	%rsi, %rdx
	subq	%rax, %rdx
	cmpq	$2, %rdx
	jae	.LBB10_35
.LBB10_34:
	retq
.LBB10_35:
	movzwl	(%rdi,%rax), %r8d
	rolw	$8, %r8w
	movl	%r8d, %r9d
	andl	$63488, %r9d
	cmpl	$55296, %r9d
	jne	.LBB10_24
	notl	%r8d
	testl	$56320, %r8d
	sete	%r8b
	cmpq	$4, %rdx
	setb	%dl
	orb	%r8b, %dl
	jne	.LBB10_34
	movzbl	2(%rdi,%rax), %edx
	andb	$-4, %dl
	cmpb	$-36, %dl
	je	.LBB10_24
	jmp	.LBB10_34
.LBB10_60:
	movq	%rsi, %rax
	subq	%rcx, %rax
	cmpq	$32, %rax
	jae	.LBB10_39
	jmp	.LBB10_40
.Lfunc_end10:
	.size	"utf16_units::validate::valid_len::<#8b18edd9dd9aa8df>", .Lfunc_end10-"utf16_units::validate::valid_len::<#8b18edd9dd9aa8df>"
	.cfi_endproc

	.section	".text.utf16_units::validate::error_len::<#8b18edd9dd9aa8df>","ax",@progbits
	.p2align	4
	.type	"utf16_units::validate::error_len::<#8b18edd9dd9aa8df>",@function
"utf16_units::validate::error_len::<#8b18edd9dd9aa8df>":
	.cfi_startproc
	cmpq	$2, %rsi
	jb	.LBB11_1
	movzwl	(%rdi), %eax
	rolw	$8, %ax
	movl	%eax, %ecx
	andl	$63488, %ecx
	cmpl	$55296, %ecx
	jne	.LBB11_1
	notl	%eax
	testl	$56320, %eax
	jne	.LBB11_5
	movb	$2, %dl
	movb	$1, %al
	retq
.LBB11_5:
	cmpq	$4, %rsi
	jae	.LBB11_6
.LBB11_1:
	xorl	%eax, %eax
	xorl	%edx, %edx
	retq
.LBB11_6:
	movzbl	2(%rdi), %eax
	andb	$-4, %al
	cmpb	$-36, %al
	setne	%al
	leal	(%rax,%rax), %edx
	retq
.Lfunc_end11:
	.size	"utf16_units::validate::error_len::<#8b18edd9dd9aa8df>", .Lfunc_end11-"utf16_units::validate::error_len::<#8b18edd9dd9aa8df>"
	.cfi_endproc

	.section	.rodata.cst16,"aM",@progbits,16
	.p2align	4, 0x0
.LCPI12_0:
	.zero	16,248
.LCPI12_1:
	.zero	16,216
.LCPI12_2:
	.byte	248
	.byte	248
	.byte	248
	.byte	248
	.byte	248
	.byte	248
	.byte	248
	.byte	248
	.zero	1
	.zero	1
	.zero	1
	.zero	1
	.zero	1
	.zero	1
	.zero	1
	.zero	1
.LCPI12_3:
	.byte	216
	.byte	216
	.byte	216
	.byte	216
	.byte	216
	.byte	216
	.byte	216
	.byte	216
	.zero	1
	.zero	1
	.zero	1
	.zero	1
	.zero	1
	.zero	1
	.zero	1
	.zero	1
.LCPI12_4:
	.byte	248
	.byte	248
	.byte	248
	.byte	248
	.zero	1
	.zero	1
	.zero	1
	.zero	1
	.zero	1
	.zero	1
	.zero	1
	.zero	1
	.zero	1
	.zero	1
	.zero	1
	.zero	1
.LCPI12_5:
	.byte	216
	.byte	216
	.byte	216
	.byte	216
	.zero	1
	.zero	1
	.zero	1
	.zero	1
	.zero	1
	.zero	1
	.zero	1
	.zero	1
	.zero	1
	.zero	1
	.zero	1
	.zero	1
	.section	".text.utf16_transcode::decode::valid_up_to::<#418c2b53cf60437c>","ax",@progbits
	.p2align	4
	.type	"utf16_transcode::decode::valid_up_to::<#418c2b53cf60437c>",@function
"utf16_transcode::decode::valid_up_to::<#418c2b53cf60437c>":
	.cfi_startproc
	cmpq	$2, %rsi
	jne	.LBB12_3
	movzbl	1(%rdi), %ecx
	andb	$-8, %cl
	movl	$2, %eax
.LBB12_2:
	cmpb	$-40, %cl
	je	"utf16_units::validate::valid_len::<#418c2b53cf60437c>"
	retq
.LBB12_3:
	cmpq	$7, %rsi
	ja	.LBB12_12
	testq	%rsi, %rsi
	je	.LBB12_23
	cmpq	$6, %rsi
	je	.LBB12_9
	cmpq	$4, %rsi
	jne	"utf16_units::validate::valid_len::<#418c2b53cf60437c>"
	movzbl	1(%rdi), %eax
	andb	$-8, %al
	cmpb	$-40, %al
	je	"utf16_units::validate::valid_len::<#418c2b53cf60437c>"
	movzbl	3(%rdi), %ecx
	andb	$-8, %cl
	movl	$4, %eax
	jmp	.LBB12_2
.LBB12_12:
	cmpq	$65, %rsi
	setae	%al
	movl	%esi, %ecx
	orb	%al, %cl
	testb	$1, %cl
	jne	"utf16_units::validate::valid_len::<#418c2b53cf60437c>"
	cmpq	$15, %rsi
	ja	.LBB12_17
	movq	(%rdi), %xmm0
	psrlw	$8, %xmm0
	packuswb	%xmm0, %xmm0
	pand	.LCPI12_4(%rip), %xmm0
	pcmpeqb	.LCPI12_5(%rip), %xmm0
	pmovsxbd	%xmm0, %xmm0
	movmskps	%xmm0, %eax
	testl	%eax, %eax
	jne	"utf16_units::validate::valid_len::<#418c2b53cf60437c>"
	movq	-8(%rdi,%rsi), %xmm0
	psrlw	$8, %xmm0
	packuswb	%xmm0, %xmm0
	pand	.LCPI12_4(%rip), %xmm0
	pcmpeqb	.LCPI12_5(%rip), %xmm0
	pmovsxbd	%xmm0, %xmm0
	movmskps	%xmm0, %eax
	testl	%eax, %eax
	jne	"utf16_units::validate::valid_len::<#418c2b53cf60437c>"
	jmp	.LBB12_23
.LBB12_17:
	cmpq	$31, %rsi
	ja	.LBB12_21
	movdqu	(%rdi), %xmm0
	psrlw	$8, %xmm0
	packuswb	%xmm0, %xmm0
	pand	.LCPI12_2(%rip), %xmm0
	pcmpeqb	.LCPI12_3(%rip), %xmm0
	pmovmskb	%xmm0, %eax
	testb	%al, %al
	jne	"utf16_units::validate::valid_len::<#418c2b53cf60437c>"
	movdqu	-16(%rdi,%rsi), %xmm0
	psrlw	$8, %xmm0
	packuswb	%xmm0, %xmm0
	pand	.LCPI12_2(%rip), %xmm0
	pcmpeqb	.LCPI12_3(%rip), %xmm0
	pmovmskb	%xmm0, %eax
	testb	%al, %al
	jne	"utf16_units::validate::valid_len::<#418c2b53cf60437c>"
	jmp	.LBB12_23
.LBB12_9:
	movzbl	1(%rdi), %eax
	andb	$-8, %al
	cmpb	$-40, %al
	je	"utf16_units::validate::valid_len::<#418c2b53cf60437c>"
	movzbl	3(%rdi), %eax
	andb	$-8, %al
	cmpb	$-40, %al
	je	"utf16_units::validate::valid_len::<#418c2b53cf60437c>"
	movzbl	5(%rdi), %ecx
	andb	$-8, %cl
	movl	$6, %eax
	jmp	.LBB12_2
.LBB12_21:
	movdqu	(%rdi), %xmm0
	movdqu	16(%rdi), %xmm1
	psrlw	$8, %xmm1
	psrlw	$8, %xmm0
	packuswb	%xmm1, %xmm0
	pand	.LCPI12_0(%rip), %xmm0
	pcmpeqb	.LCPI12_1(%rip), %xmm0
	pmovmskb	%xmm0, %eax
	testl	%eax, %eax
	jne	"utf16_units::validate::valid_len::<#418c2b53cf60437c>"
	movdqu	-32(%rdi,%rsi), %xmm0
	movdqu	-16(%rdi,%rsi), %xmm1
	psrlw	$8, %xmm1
	psrlw	$8, %xmm0
	packuswb	%xmm1, %xmm0
	pand	.LCPI12_0(%rip), %xmm0
	pcmpeqb	.LCPI12_1(%rip), %xmm0
	pmovmskb	%xmm0, %eax
	testl	%eax, %eax
	jne	"utf16_units::validate::valid_len::<#418c2b53cf60437c>"
.LBB12_23:
	movq	%rsi, %rax
	retq
.Lfunc_end12:
	.size	"utf16_transcode::decode::valid_up_to::<#418c2b53cf60437c>", .Lfunc_end12-"utf16_transcode::decode::valid_up_to::<#418c2b53cf60437c>"
	.cfi_endproc

	.section	.rodata.cst16,"aM",@progbits,16
	.p2align	4, 0x0
.LCPI13_0:
	.zero	16,248
.LCPI13_1:
	.zero	16,216
.LCPI13_2:
	.zero	16,252
.LCPI13_3:
	.zero	16,220
	.section	".text.utf16_units::validate::valid_len::<#418c2b53cf60437c>","ax",@progbits
	.p2align	4
	.type	"utf16_units::validate::valid_len::<#418c2b53cf60437c>",@function
"utf16_units::validate::valid_len::<#418c2b53cf60437c>":
	.cfi_startproc
	cmpq	$32, %rsi
	jae	.LBB13_10
	testq	%rsi, %rsi
	je	.LBB13_19
	xorl	%ecx, %ecx
	jmp	.LBB13_4
	.p2align	4
.LBB13_3:
	addq	%rcx, %rax
	movq	%rax, %rcx
	cmpq	%rsi, %rax
	jae	.LBB13_20
.LBB13_4:
	movq	%rsi, %rdx
	subq	%rcx, %rdx
	cmpq	$2, %rdx
	jb	.LBB13_41
	movzbl	1(%rdi,%rcx), %r8d
	movl	%r8d, %r9d
	andl	$-8, %r9d
	movl	$2, %eax
	cmpl	$216, %r9d
	jne	.LBB13_3
	cmpq	$4, %rdx
	jb	.LBB13_41
	movzwl	%r8w, %eax
	andl	$-36, %eax
	movzwl	%ax, %eax
	cmpl	$220, %eax
	je	.LBB13_41
	movzbl	3(%rdi,%rcx), %edx
	andb	$-4, %dl
	movl	$4, %eax
	cmpb	$-36, %dl
	je	.LBB13_3
	jmp	.LBB13_41
.LBB13_10:
	cmpq	$64, %rsi
	jb	.LBB13_18
	movq	%rsi, %rdx
	andq	$-128, %rdx
	leaq	-256(%rsi), %r8
	xorl	%ecx, %ecx
	movq	%rsi, %rax
	jmp	.LBB13_13
	.p2align	4
.LBB13_12:
	movq	%rsi, %rax
	subq	%rcx, %rax
	cmpq	$63, %rax
	jbe	.LBB13_31
.LBB13_13:
	movdqu	(%rdi,%rcx), %xmm2
	movdqu	16(%rdi,%rcx), %xmm0
	movdqu	32(%rdi,%rcx), %xmm3
	movdqu	48(%rdi,%rcx), %xmm1
	psrlw	$8, %xmm1
	psrlw	$8, %xmm3
	packuswb	%xmm1, %xmm3
	psrlw	$8, %xmm0
	psrlw	$8, %xmm2
	packuswb	%xmm0, %xmm2
	movdqa	.LCPI13_0(%rip), %xmm0
	pand	%xmm0, %xmm3
	pand	%xmm0, %xmm2
	movdqa	.LCPI13_1(%rip), %xmm1
	pcmpeqb	%xmm1, %xmm2
	pcmpeqb	%xmm1, %xmm3
	movdqa	%xmm3, %xmm4
	por	%xmm2, %xmm4
	pmovmskb	%xmm4, %r9d
	testl	%r9d, %r9d
	jne	.LBB13_21
	cmpq	$256, %rdx
	sete	%al
	addq	$64, %rcx
	cmpq	$256, %rcx
	setne	%r9b
	orb	%al, %r9b
	jne	.LBB13_12
	movl	$256, %ecx
	movq	%r8, %rax
	.p2align	4
.LBB13_16:
	movdqu	(%rdi,%rcx), %xmm3
	movdqu	16(%rdi,%rcx), %xmm4
	movdqu	32(%rdi,%rcx), %xmm2
	movdqu	48(%rdi,%rcx), %xmm5
	psrlw	$8, %xmm5
	psrlw	$8, %xmm2
	packuswb	%xmm5, %xmm2
	psrlw	$8, %xmm4
	psrlw	$8, %xmm3
	packuswb	%xmm4, %xmm3
	pand	%xmm0, %xmm2
	pand	%xmm0, %xmm3
	pcmpeqb	%xmm1, %xmm3
	pcmpeqb	%xmm1, %xmm2
	por	%xmm3, %xmm2
	movdqu	96(%rdi,%rcx), %xmm3
	movdqu	112(%rdi,%rcx), %xmm4
	movdqu	64(%rdi,%rcx), %xmm5
	movdqu	80(%rdi,%rcx), %xmm6
	psrlw	$8, %xmm6
	psrlw	$8, %xmm5
	packuswb	%xmm6, %xmm5
	psrlw	$8, %xmm4
	psrlw	$8, %xmm3
	packuswb	%xmm4, %xmm3
	pand	%xmm0, %xmm5
	pand	%xmm0, %xmm3
	pcmpeqb	%xmm1, %xmm3
	pcmpeqb	%xmm1, %xmm5
	por	%xmm3, %xmm5
	por	%xmm2, %xmm5
	pmovmskb	%xmm5, %r9d
	testl	%r9d, %r9d
	jne	.LBB13_12
	subq	$-128, %rcx
	addq	$-128, %rax
	cmpq	$127, %rax
	ja	.LBB13_16
	jmp	.LBB13_12
.LBB13_18:
	xorl	%ecx, %ecx
	xorl	%edx, %edx
	jmp	.LBB13_32
.LBB13_19:
	xorl	%eax, %eax
.LBB13_20:
	retq
.LBB13_21:
	cmpq	$64, %rax
	jne	.LBB13_42
.LBB13_22:
	xorl	%edx, %edx
	jmp	.LBB13_24
	.p2align	4
.LBB13_23:
	movzwl	%r8w, %edx
	shrl	$15, %edx
	cmpq	$63, %rax
	jbe	.LBB13_61
.LBB13_24:
	movdqu	(%rdi,%rcx), %xmm3
	movdqu	16(%rdi,%rcx), %xmm4
	movdqu	32(%rdi,%rcx), %xmm2
	movdqu	48(%rdi,%rcx), %xmm5
	psrlw	$8, %xmm4
	psrlw	$8, %xmm3
	packuswb	%xmm4, %xmm3
	psrlw	$8, %xmm5
	psrlw	$8, %xmm2
	packuswb	%xmm5, %xmm2
	movdqa	.LCPI13_2(%rip), %xmm4
	pand	%xmm4, %xmm3
	pand	%xmm4, %xmm2
	movdqa	%xmm2, %xmm4
	pcmpeqb	%xmm1, %xmm4
	movdqa	%xmm3, %xmm5
	pcmpeqb	%xmm1, %xmm5
	pmovmskb	%xmm5, %eax
	pmovmskb	%xmm4, %r8d
	movl	%r8d, %r9d
	shll	$16, %r9d
	orl	%eax, %r9d
	movdqa	.LCPI13_3(%rip), %xmm4
	pcmpeqb	%xmm4, %xmm3
	pmovmskb	%xmm3, %eax
	pcmpeqb	%xmm4, %xmm2
	pmovmskb	%xmm2, %r10d
	shll	$16, %r10d
	orl	%eax, %r10d
	movzbl	%dl, %eax
	andl	$1, %eax
	leal	(%rax,%r9,2), %eax
	cmpl	%r10d, %eax
	jne	.LBB13_61
	addq	$64, %rcx
	movq	%rsi, %rax
	subq	%rcx, %rax
	testw	%r8w, %r8w
	js	.LBB13_23
	cmpq	$64, %rax
	jb	.LBB13_23
	movzbl	%cl, %edx
	orq	%r9, %rdx
	jne	.LBB13_23
	.p2align	4
.LBB13_28:
	movdqu	(%rdi,%rcx), %xmm2
	movdqu	16(%rdi,%rcx), %xmm3
	movdqu	32(%rdi,%rcx), %xmm4
	movdqu	48(%rdi,%rcx), %xmm5
	psrlw	$8, %xmm5
	psrlw	$8, %xmm4
	packuswb	%xmm5, %xmm4
	psrlw	$8, %xmm3
	psrlw	$8, %xmm2
	packuswb	%xmm3, %xmm2
	pand	%xmm0, %xmm4
	pand	%xmm0, %xmm2
	pcmpeqb	%xmm1, %xmm2
	pcmpeqb	%xmm1, %xmm4
	por	%xmm2, %xmm4
	pmovmskb	%xmm4, %edx
	testl	%edx, %edx
	jne	.LBB13_23
	addq	$64, %rcx
	addq	$-64, %rax
	cmpq	$63, %rax
	ja	.LBB13_28
.LBB13_31:
	xorl	%edx, %edx
	cmpq	$32, %rax
	jb	.LBB13_33
.LBB13_32:
	movdqu	(%rdi,%rcx), %xmm0
	movdqu	16(%rdi,%rcx), %xmm1
	psrlw	$8, %xmm1
	psrlw	$8, %xmm0
	packuswb	%xmm1, %xmm0
	pand	.LCPI13_2(%rip), %xmm0
	movdqa	.LCPI13_1(%rip), %xmm1
	pcmpeqb	%xmm0, %xmm1
	pmovmskb	%xmm1, %eax
	movl	%eax, %r8d
	pcmpeqb	.LCPI13_3(%rip), %xmm0
	pmovmskb	%xmm0, %r9d
	movzbl	%dl, %r10d
	movl	%r10d, %edx
	andl	$1, %edx
	andl	$32767, %eax
	leaq	(%rdx,%rax,2), %rax
	leaq	32(%rcx), %rdx
	cmpq	%r9, %rax
	cmoveq	%rdx, %rcx
	xorl	%edx, %edx
	testw	%r8w, %r8w
	sets	%dl
	cmpl	%r9d, %eax
	cmovnel	%r10d, %edx
.LBB13_33:
	leaq	-2(%rcx), %rax
	testb	$1, %dl
	cmoveq	%rcx, %rax
	movq	%rsi, %rcx
	subq	%rax, %rcx
	cmpq	$32, %rcx
	ja	.LBB13_37
	movq	%rax, %rcx
	subq	%rsi, %rcx
	testb	$1, %cl
	jne	.LBB13_47
	movdqu	-32(%rdi,%rsi), %xmm0
	movdqu	-16(%rdi,%rsi), %xmm1
	addl	$32, %ecx
	psrlw	$8, %xmm1
	psrlw	$8, %xmm0
	packuswb	%xmm1, %xmm0
	pand	.LCPI13_2(%rip), %xmm0
	shrl	%ecx
	movdqa	.LCPI13_3(%rip), %xmm1
	pcmpeqb	%xmm0, %xmm1
	pmovmskb	%xmm1, %edx
	shrq	%cl, %rdx
	pcmpeqb	.LCPI13_1(%rip), %xmm0
	pmovmskb	%xmm0, %r8d
	shrq	%cl, %r8
	addl	%r8d, %r8d
	cmpl	%r8d, %edx
	jne	.LBB13_47
	movq	%rsi, %rax
	retq
.LBB13_37:
	cmpq	$64, %rcx
	jae	.LBB13_40
.LBB13_47:
	xorl	%ecx, %ecx
	addq	%rax, %rcx
	cmpq	%rsi, %rcx
	jb	.LBB13_50
	jmp	.LBB13_41
.LBB13_40:
	movdqu	(%rdi,%rax), %xmm0
	movdqu	16(%rdi,%rax), %xmm1
	movdqu	32(%rdi,%rax), %xmm2
	movdqu	48(%rdi,%rax), %xmm3
	psrlw	$8, %xmm3
	psrlw	$8, %xmm2
	packuswb	%xmm3, %xmm2
	psrlw	$8, %xmm1
	psrlw	$8, %xmm0
	packuswb	%xmm1, %xmm0
	movdqa	.LCPI13_0(%rip), %xmm1
	pand	%xmm1, %xmm2
	pand	%xmm1, %xmm0
	movdqa	.LCPI13_1(%rip), %xmm1
	pcmpeqb	%xmm1, %xmm0
	pmovmskb	%xmm0, %ecx
	pcmpeqb	%xmm1, %xmm2
	pmovmskb	%xmm2, %edx
	shll	$16, %edx
	orl	%ecx, %edx
	rep		bsfl	%edx, %r8d
	addl	%r8d, %r8d
	testl	%edx, %edx
	movl	$64, %ecx
	cmovnel	%r8d, %ecx
	addq	%rax, %rcx
	cmpq	%rsi, %rcx
	jb	.LBB13_50
	jmp	.LBB13_41
	.p2align	4
.LBB13_49:
	addq	%rcx, %rax
	movq	%rax, %rcx
	cmpq	%rsi, %rax
	jae	.LBB13_20
.LBB13_50:
	movq	%rsi, %rdx
	subq	%rcx, %rdx
	cmpq	$2, %rdx
	jb	.LBB13_41
	movzbl	1(%rdi,%rcx), %r8d
	movl	%r8d, %r9d
	andl	$-8, %r9d
	movl	$2, %eax
	cmpl	$216, %r9d
	jne	.LBB13_49
	cmpq	$4, %rdx
	jb	.LBB13_41
	movzwl	%r8w, %eax
	andl	$-36, %eax
	movzwl	%ax, %eax
	cmpl	$220, %eax
	je	.LBB13_41
	movzbl	3(%rdi,%rcx), %edx
	andb	$-4, %dl
	movl	$4, %eax
	cmpb	$-36, %dl
	je	.LBB13_49
.LBB13_41:
	movq	%rcx, %rax
	retq
.LBB13_42:
	pmovmskb	%xmm2, %eax
	pmovmskb	%xmm3, %edx
	shll	$16, %edx
	orl	%eax, %edx
	rep		bsfl	%edx, %r8d
	addl	%r8d, %r8d
	testl	%edx, %edx
	movl	$64, %eax
	cmovnel	%r8d, %eax
	addq	%rcx, %rax
	movq	%rsi, %rdx
	subq	%rax, %rdx
	cmpq	$2, %rdx
	jb	.LBB13_20
	movzbl	1(%rdi,%rax), %r8d
	movl	%r8d, %r9d
	andl	$-8, %r9d
	cmpl	$216, %r9d
	jne	.LBB13_22
	cmpq	$4, %rdx
	jb	.LBB13_20
	movzwl	%r8w, %edx
	andl	$-36, %edx
	movzwl	%dx, %edx
	cmpl	$220, %edx
	je	.LBB13_20
	movzbl	3(%rdi,%rax), %edx
	andb	$-4, %dl
	cmpb	$-36, %dl
	jne	.LBB13_20
	jmp	.LBB13_22
.LBB13_61:
	movq	%rsi, %rax
	subq	%rcx, %rax
	cmpq	$32, %rax
	jae	.LBB13_32
	jmp	.LBB13_33
.Lfunc_end13:
	.size	"utf16_units::validate::valid_len::<#418c2b53cf60437c>", .Lfunc_end13-"utf16_units::validate::valid_len::<#418c2b53cf60437c>"
	.cfi_endproc

	.section	".text.utf16_units::validate::error_len::<#418c2b53cf60437c>","ax",@progbits
	.p2align	4
	.type	"utf16_units::validate::error_len::<#418c2b53cf60437c>",@function
"utf16_units::validate::error_len::<#418c2b53cf60437c>":
	.cfi_startproc
	cmpq	$2, %rsi
	jb	.LBB14_1
	movzbl	1(%rdi), %eax
	movl	%eax, %ecx
	andl	$-8, %ecx
	cmpl	$216, %ecx
	jne	.LBB14_1
	movzwl	%ax, %eax
	notl	%eax
	testb	$-36, %al
	jne	.LBB14_5
	movb	$2, %dl
	movb	$1, %al
	retq
.LBB14_5:
	cmpq	$4, %rsi
	jae	.LBB14_6
.LBB14_1:
	xorl	%eax, %eax
	xorl	%edx, %edx
	retq
.LBB14_6:
	movzbl	3(%rdi), %eax
	andb	$-4, %al
	cmpb	$-36, %al
	setne	%al
	leal	(%rax,%rax), %edx
	retq
.Lfunc_end14:
	.size	"utf16_units::validate::error_len::<#418c2b53cf60437c>", .Lfunc_end14-"utf16_units::validate::error_len::<#418c2b53cf60437c>"
	.cfi_endproc

	.section	".text.utf16_units::text::count_few::<#8b18edd9dd9aa8df>","ax",@progbits
	.p2align	4
	.type	"utf16_units::text::count_few::<#8b18edd9dd9aa8df>",@function
"utf16_units::text::count_few::<#8b18edd9dd9aa8df>":
	.cfi_startproc
	xorl	%eax, %eax
	testq	%rsi, %rsi
	je	.LBB15_2
	.p2align	4
.LBB15_1:
	movzwl	(%rdi), %ecx
	andl	$252, %ecx
	xorl	%edx, %edx
	cmpl	$216, %ecx
	sete	%dl
	leaq	2(,%rdx,2), %rcx
	leaq	(%rdi,%rdx,2), %rdi
	addq	$2, %rdi
	incq	%rax
	subq	%rcx, %rsi
	jne	.LBB15_1
.LBB15_2:
	retq
.Lfunc_end15:
	.size	"utf16_units::text::count_few::<#8b18edd9dd9aa8df>", .Lfunc_end15-"utf16_units::text::count_few::<#8b18edd9dd9aa8df>"
	.cfi_endproc

	.section	".text.utf16_units::text::count_few::<#418c2b53cf60437c>","ax",@progbits
	.p2align	4
	.type	"utf16_units::text::count_few::<#418c2b53cf60437c>",@function
"utf16_units::text::count_few::<#418c2b53cf60437c>":
	.cfi_startproc
	xorl	%eax, %eax
	testq	%rsi, %rsi
	je	.LBB16_2
	.p2align	4
.LBB16_1:
	movzbl	1(%rdi), %ecx
	andb	$-4, %cl
	xorl	%edx, %edx
	cmpb	$-40, %cl
	sete	%dl
	leaq	2(,%rdx,2), %rcx
	leaq	(%rdi,%rdx,2), %rdi
	addq	$2, %rdi
	incq	%rax
	subq	%rcx, %rsi
	jne	.LBB16_1
.LBB16_2:
	retq
.Lfunc_end16:
	.size	"utf16_units::text::count_few::<#418c2b53cf60437c>", .Lfunc_end16-"utf16_units::text::count_few::<#418c2b53cf60437c>"
	.cfi_endproc

	.section	.rodata.cst16,"aM",@progbits,16
	.p2align	4, 0x0
.LCPI17_0:
	.byte	255
	.byte	0
	.byte	255
	.byte	0
	.byte	255
	.byte	0
	.byte	255
	.byte	0
	.byte	255
	.byte	0
	.byte	255
	.byte	0
	.byte	255
	.byte	0
	.byte	255
	.byte	0
.LCPI17_1:
	.zero	16,248
.LCPI17_2:
	.zero	16,216
.LCPI17_3:
	.byte	0
	.byte	2
	.byte	4
	.byte	6
	.byte	8
	.byte	10
	.byte	12
	.byte	14
	.zero	1
	.zero	1
	.zero	1
	.zero	1
	.zero	1
	.zero	1
	.zero	1
	.zero	1
.LCPI17_4:
	.byte	248
	.byte	248
	.byte	248
	.byte	248
	.byte	248
	.byte	248
	.byte	248
	.byte	248
	.zero	1
	.zero	1
	.zero	1
	.zero	1
	.zero	1
	.zero	1
	.zero	1
	.zero	1
.LCPI17_5:
	.byte	216
	.byte	216
	.byte	216
	.byte	216
	.byte	216
	.byte	216
	.byte	216
	.byte	216
	.zero	1
	.zero	1
	.zero	1
	.zero	1
	.zero	1
	.zero	1
	.zero	1
	.zero	1
.LCPI17_6:
	.byte	0
	.byte	2
	.byte	4
	.byte	6
	.zero	1
	.zero	1
	.zero	1
	.zero	1
	.zero	1
	.zero	1
	.zero	1
	.zero	1
	.zero	1
	.zero	1
	.zero	1
	.zero	1
.LCPI17_7:
	.byte	248
	.byte	248
	.byte	248
	.byte	248
	.zero	1
	.zero	1
	.zero	1
	.zero	1
	.zero	1
	.zero	1
	.zero	1
	.zero	1
	.zero	1
	.zero	1
	.zero	1
	.zero	1
.LCPI17_8:
	.byte	216
	.byte	216
	.byte	216
	.byte	216
	.zero	1
	.zero	1
	.zero	1
	.zero	1
	.zero	1
	.zero	1
	.zero	1
	.zero	1
	.zero	1
	.zero	1
	.zero	1
	.zero	1
	.section	".text.utf16_transcode::sizes::to_utf8_lossy_len::<#8b18edd9dd9aa8df>","ax",@progbits
	.p2align	4
	.type	"utf16_transcode::sizes::to_utf8_lossy_len::<#8b18edd9dd9aa8df>",@function
"utf16_transcode::sizes::to_utf8_lossy_len::<#8b18edd9dd9aa8df>":
	.cfi_startproc
	pushq	%rbp
	.cfi_def_cfa_offset 16
	pushq	%r15
	.cfi_def_cfa_offset 24
	pushq	%r14
	.cfi_def_cfa_offset 32
	pushq	%r13
	.cfi_def_cfa_offset 40
	pushq	%r12
	.cfi_def_cfa_offset 48
	pushq	%rbx
	.cfi_def_cfa_offset 56
	pushq	%rax
	.cfi_def_cfa_offset 64
	.cfi_offset %rbx, -56
	.cfi_offset %r12, -48
	.cfi_offset %r13, -40
	.cfi_offset %r14, -32
	.cfi_offset %r15, -24
	.cfi_offset %rbp, -16
	movq	%rsi, %r14
	movq	%rdi, %r13
	xorl	%ebx, %ebx
	cmpq	$2, %r14
	jne	.LBB17_4
	.p2align	4
.LBB17_2:
	movzbl	(%r13), %eax
.LBB17_3:
	andb	$-8, %al
	cmpb	$-40, %al
	jne	.LBB17_24
.LBB17_23:
	movq	%r13, %rdi
	movq	%r14, %rsi
	callq	"utf16_units::validate::valid_len::<#8b18edd9dd9aa8df>"
	movq	%r14, %rsi
	subq	%rax, %rsi
	je	.LBB17_24
	movq	%rax, %r12
	movq	%rbx, (%rsp)
	movq	%r13, %rbx
	addq	%rax, %r13
	movq	%r13, %rdi
	callq	"utf16_units::validate::error_len::<#8b18edd9dd9aa8df>"
	movl	%eax, %r15d
	movl	%edx, %ebp
	movq	%rbx, %rdi
	movq	(%rsp), %rbx
	movq	%r12, %rsi
	callq	"utf16_to_utf8::lens::utf8_len::<#8b18edd9dd9aa8df>"
	addq	%rax, %rbx
	addq	$3, %rbx
	cmpb	$1, %r15b
	jne	.LBB17_25
	movzbl	%bpl, %eax
	addq	%rax, %r13
	addq	%rax, %r12
	subq	%r12, %r14
	cmpq	$2, %r14
	je	.LBB17_2
.LBB17_4:
	cmpq	$7, %r14
	ja	.LBB17_13
	cmpq	$4, %r14
	je	.LBB17_8
	cmpq	$6, %r14
	je	.LBB17_10
	testq	%r14, %r14
	jne	.LBB17_23
	jmp	.LBB17_24
	.p2align	4
.LBB17_13:
	cmpq	$65, %r14
	setae	%al
	movl	%r14d, %ecx
	orb	%al, %cl
	testb	$1, %cl
	jne	.LBB17_23
	cmpq	$15, %r14
	ja	.LBB17_17
	movq	(%r13), %xmm0
	pshufb	.LCPI17_6(%rip), %xmm0
	pand	.LCPI17_7(%rip), %xmm0
	pcmpeqb	.LCPI17_8(%rip), %xmm0
	pmovsxbd	%xmm0, %xmm0
	movmskps	%xmm0, %eax
	testl	%eax, %eax
	jne	.LBB17_23
	movq	-8(%r13,%r14), %xmm0
	pshufb	.LCPI17_6(%rip), %xmm0
	pand	.LCPI17_7(%rip), %xmm0
	pcmpeqb	.LCPI17_8(%rip), %xmm0
	pmovsxbd	%xmm0, %xmm0
	movmskps	%xmm0, %eax
	testl	%eax, %eax
	jne	.LBB17_23
	jmp	.LBB17_24
.LBB17_10:
	movzbl	(%r13), %eax
	andb	$-8, %al
	cmpb	$-40, %al
	je	.LBB17_23
	movzbl	2(%r13), %eax
	andb	$-8, %al
	cmpb	$-40, %al
	je	.LBB17_23
	movzbl	4(%r13), %eax
	jmp	.LBB17_3
.LBB17_8:
	movzbl	(%r13), %eax
	andb	$-8, %al
	cmpb	$-40, %al
	je	.LBB17_23
	movzbl	2(%r13), %eax
	jmp	.LBB17_3
.LBB17_17:
	cmpq	$31, %r14
	ja	.LBB17_20
	movdqu	(%r13), %xmm0
	pshufb	.LCPI17_3(%rip), %xmm0
	pand	.LCPI17_4(%rip), %xmm0
	pcmpeqb	.LCPI17_5(%rip), %xmm0
	pmovmskb	%xmm0, %eax
	testb	%al, %al
	jne	.LBB17_23
	movdqu	-16(%r13,%r14), %xmm0
	pshufb	.LCPI17_3(%rip), %xmm0
	pand	.LCPI17_4(%rip), %xmm0
	pcmpeqb	.LCPI17_5(%rip), %xmm0
	pmovmskb	%xmm0, %eax
	testb	%al, %al
	jne	.LBB17_23
	jmp	.LBB17_24
.LBB17_20:
	movdqu	(%r13), %xmm1
	movdqu	16(%r13), %xmm2
	movdqa	.LCPI17_0(%rip), %xmm0
	pand	%xmm0, %xmm2
	pand	%xmm0, %xmm1
	packuswb	%xmm2, %xmm1
	pand	.LCPI17_1(%rip), %xmm1
	pcmpeqb	.LCPI17_2(%rip), %xmm1
	pmovmskb	%xmm1, %eax
	testl	%eax, %eax
	jne	.LBB17_23
	movdqu	-32(%r13,%r14), %xmm1
	movdqu	-16(%r13,%r14), %xmm2
	pand	%xmm0, %xmm2
	pand	%xmm0, %xmm1
	packuswb	%xmm2, %xmm1
	pand	.LCPI17_1(%rip), %xmm1
	pcmpeqb	.LCPI17_2(%rip), %xmm1
	pmovmskb	%xmm1, %eax
	testl	%eax, %eax
	jne	.LBB17_23
.LBB17_24:
	movq	%r13, %rdi
	movq	%r14, %rsi
	callq	"utf16_to_utf8::lens::utf8_len::<#8b18edd9dd9aa8df>"
	addq	%rax, %rbx
.LBB17_25:
	movq	%rbx, %rax
	addq	$8, %rsp
	.cfi_def_cfa_offset 56
	popq	%rbx
	.cfi_def_cfa_offset 48
	popq	%r12
	.cfi_def_cfa_offset 40
	popq	%r13
	.cfi_def_cfa_offset 32
	popq	%r14
	.cfi_def_cfa_offset 24
	popq	%r15
	.cfi_def_cfa_offset 16
	popq	%rbp
	.cfi_def_cfa_offset 8
	retq
.Lfunc_end17:
	.size	"utf16_transcode::sizes::to_utf8_lossy_len::<#8b18edd9dd9aa8df>", .Lfunc_end17-"utf16_transcode::sizes::to_utf8_lossy_len::<#8b18edd9dd9aa8df>"
	.cfi_endproc

	.section	.rodata.cst16,"aM",@progbits,16
	.p2align	4, 0x0
.LCPI18_0:
	.byte	1
	.byte	0
	.byte	3
	.byte	2
	.byte	5
	.byte	4
	.byte	7
	.byte	6
	.byte	9
	.byte	8
	.byte	11
	.byte	10
	.byte	13
	.byte	12
	.byte	15
	.byte	14
.LCPI18_1:
	.short	65408
	.short	65408
	.short	65408
	.short	65408
	.short	65408
	.short	65408
	.short	65408
	.short	65408
.LCPI18_2:
	.zero	16,248
.LCPI18_3:
	.zero	16,216
.LCPI18_4:
	.short	127
	.short	127
	.short	127
	.short	127
	.short	127
	.short	127
	.short	127
	.short	127
	.section	".text.utf16_to_utf8::lens::utf8_len::<#8b18edd9dd9aa8df>","ax",@progbits
	.p2align	4
	.type	"utf16_to_utf8::lens::utf8_len::<#8b18edd9dd9aa8df>",@function
"utf16_to_utf8::lens::utf8_len::<#8b18edd9dd9aa8df>":
	.cfi_startproc
	pushq	%rbp
	.cfi_def_cfa_offset 16
	.cfi_offset %rbp, -16
	movq	%rsp, %rbp
	.cfi_def_cfa_register %rbp
	pushq	%r14
	pushq	%rbx
	andq	$-64, %rsp
	subq	$128, %rsp
	.cfi_offset %rbx, -32
	.cfi_offset %r14, -24
	movq	%rsi, %rbx
	movq	%rdi, %rsi
	cmpq	$64, %rbx
	jb	.LBB18_1
	xorl	%eax, %eax
	movq	%rbx, %rdx
	xorl	%r14d, %r14d
	jmp	.LBB18_3
	.p2align	4
.LBB18_5:
	movdqa	%xmm1, %xmm4
	psrlw	$8, %xmm4
	movdqa	%xmm0, %xmm5
	psrlw	$8, %xmm5
	packuswb	%xmm5, %xmm4
	movdqa	%xmm3, %xmm5
	psrlw	$8, %xmm5
	movdqa	%xmm2, %xmm6
	psrlw	$8, %xmm6
	packuswb	%xmm6, %xmm5
	movdqa	.LCPI18_2(%rip), %xmm6
	pand	%xmm6, %xmm4
	pand	%xmm6, %xmm5
	pxor	%xmm6, %xmm6
	movdqa	%xmm5, %xmm7
	pcmpeqb	%xmm6, %xmm7
	pmovmskb	%xmm7, %ecx
	pcmpeqb	%xmm4, %xmm6
	pmovmskb	%xmm6, %edi
	shll	$16, %edi
	orl	%ecx, %edi
	xorl	%ecx, %ecx
	popcntl	%edi, %ecx
	movdqa	.LCPI18_3(%rip), %xmm6
	pcmpeqb	%xmm6, %xmm5
	pmovmskb	%xmm5, %edi
	pcmpeqb	%xmm6, %xmm4
	pmovmskb	%xmm4, %r8d
	shll	$16, %r8d
	orl	%edi, %r8d
	xorl	%edi, %edi
	popcntl	%r8d, %edi
	movdqa	.LCPI18_4(%rip), %xmm4
	movdqa	%xmm3, %xmm5
	pminuw	%xmm4, %xmm5
	pcmpeqw	%xmm3, %xmm5
	movdqa	%xmm2, %xmm3
	pminuw	%xmm4, %xmm3
	pcmpeqw	%xmm2, %xmm3
	packsswb	%xmm3, %xmm5
	pmovmskb	%xmm5, %r8d
	movdqa	%xmm1, %xmm2
	pminuw	%xmm4, %xmm2
	pcmpeqw	%xmm1, %xmm2
	pminuw	%xmm0, %xmm4
	pcmpeqw	%xmm0, %xmm4
	packsswb	%xmm4, %xmm2
	pmovmskb	%xmm2, %r9d
	shll	$16, %r9d
	orl	%r8d, %r9d
	xorl	%r8d, %r8d
	popcntl	%r9d, %r8d
	addl	%edi, %r8d
	addl	%ecx, %r8d
	movl	$96, %ecx
	subq	%r8, %rcx
.LBB18_6:
	addq	%rcx, %r14
	addq	$64, %rax
	addq	$-64, %rdx
	cmpq	$63, %rdx
	jbe	.LBB18_7
.LBB18_3:
	movdqu	(%rsi,%rax), %xmm3
	movdqu	16(%rsi,%rax), %xmm2
	movdqu	32(%rsi,%rax), %xmm1
	movdqu	48(%rsi,%rax), %xmm0
	movdqa	.LCPI18_0(%rip), %xmm4
	pshufb	%xmm4, %xmm1
	pshufb	%xmm4, %xmm3
	pshufb	%xmm4, %xmm0
	pshufb	%xmm4, %xmm2
	movdqa	%xmm2, %xmm4
	por	%xmm0, %xmm4
	movdqa	%xmm3, %xmm5
	por	%xmm1, %xmm5
	por	%xmm4, %xmm5
	ptest	.LCPI18_1(%rip), %xmm5
	jne	.LBB18_5
	movl	$32, %ecx
	jmp	.LBB18_6
.LBB18_1:
	xorl	%r14d, %r14d
	xorl	%eax, %eax
	movq	%rbx, %rdx
.LBB18_7:
	addq	%rax, %rsi
	pxor	%xmm0, %xmm0
	movdqa	%xmm0, 48(%rsp)
	movdqa	%xmm0, 32(%rsp)
	movdqa	%xmm0, 16(%rsp)
	movdqa	%xmm0, (%rsp)
	movq	%rsp, %rdi
	callq	memcpy@PLT
	movdqa	.LCPI18_0(%rip), %xmm4
	movdqa	(%rsp), %xmm3
	movdqa	16(%rsp), %xmm2
	movdqa	32(%rsp), %xmm1
	movdqa	48(%rsp), %xmm0
	pshufb	%xmm4, %xmm1
	pshufb	%xmm4, %xmm3
	pshufb	%xmm4, %xmm0
	pshufb	%xmm4, %xmm2
	movdqa	%xmm2, %xmm4
	por	%xmm0, %xmm4
	movdqa	%xmm3, %xmm5
	por	%xmm1, %xmm5
	por	%xmm4, %xmm5
	ptest	.LCPI18_1(%rip), %xmm5
	je	.LBB18_8
	movdqa	%xmm1, %xmm4
	psrlw	$8, %xmm4
	movdqa	%xmm0, %xmm5
	psrlw	$8, %xmm5
	packuswb	%xmm5, %xmm4
	movdqa	%xmm3, %xmm5
	psrlw	$8, %xmm5
	movdqa	%xmm2, %xmm6
	psrlw	$8, %xmm6
	packuswb	%xmm6, %xmm5
	movdqa	.LCPI18_2(%rip), %xmm6
	pand	%xmm6, %xmm4
	pand	%xmm6, %xmm5
	movdqa	%xmm5, %xmm6
	pxor	%xmm7, %xmm7
	pcmpeqb	%xmm7, %xmm6
	pmovmskb	%xmm6, %eax
	pcmpeqb	%xmm4, %xmm7
	pmovmskb	%xmm7, %ecx
	shll	$16, %ecx
	orl	%eax, %ecx
	xorl	%eax, %eax
	popcntl	%ecx, %eax
	movdqa	.LCPI18_3(%rip), %xmm6
	pcmpeqb	%xmm6, %xmm5
	pmovmskb	%xmm5, %ecx
	pcmpeqb	%xmm6, %xmm4
	pmovmskb	%xmm4, %edx
	shll	$16, %edx
	orl	%ecx, %edx
	xorl	%ecx, %ecx
	popcntl	%edx, %ecx
	movdqa	.LCPI18_4(%rip), %xmm4
	movdqa	%xmm3, %xmm5
	pminuw	%xmm4, %xmm5
	pcmpeqw	%xmm3, %xmm5
	movdqa	%xmm2, %xmm3
	pminuw	%xmm4, %xmm3
	pcmpeqw	%xmm2, %xmm3
	packsswb	%xmm3, %xmm5
	pmovmskb	%xmm5, %edx
	movdqa	%xmm1, %xmm2
	pminuw	%xmm4, %xmm2
	pcmpeqw	%xmm1, %xmm2
	pminuw	%xmm0, %xmm4
	pcmpeqw	%xmm0, %xmm4
	packsswb	%xmm4, %xmm2
	pmovmskb	%xmm2, %esi
	shll	$16, %esi
	orl	%edx, %esi
	xorl	%edx, %edx
	popcntl	%esi, %edx
	addl	%ecx, %edx
	addl	%eax, %edx
	movl	$96, %eax
	subq	%rdx, %rax
	jmp	.LBB18_10
.LBB18_8:
	movl	$32, %eax
.LBB18_10:
	addq	%rax, %r14
	shrl	%ebx
	orq	$-32, %rbx
	addq	%r14, %rbx
	movq	%rbx, %rax
	leaq	-16(%rbp), %rsp
	popq	%rbx
	popq	%r14
	popq	%rbp
	.cfi_def_cfa %rsp, 8
	retq
.Lfunc_end18:
	.size	"utf16_to_utf8::lens::utf8_len::<#8b18edd9dd9aa8df>", .Lfunc_end18-"utf16_to_utf8::lens::utf8_len::<#8b18edd9dd9aa8df>"
	.cfi_endproc

	.section	.rodata.cst16,"aM",@progbits,16
	.p2align	4, 0x0
.LCPI19_0:
	.zero	16,248
.LCPI19_1:
	.zero	16,216
.LCPI19_2:
	.byte	248
	.byte	248
	.byte	248
	.byte	248
	.byte	248
	.byte	248
	.byte	248
	.byte	248
	.zero	1
	.zero	1
	.zero	1
	.zero	1
	.zero	1
	.zero	1
	.zero	1
	.zero	1
.LCPI19_3:
	.byte	216
	.byte	216
	.byte	216
	.byte	216
	.byte	216
	.byte	216
	.byte	216
	.byte	216
	.zero	1
	.zero	1
	.zero	1
	.zero	1
	.zero	1
	.zero	1
	.zero	1
	.zero	1
.LCPI19_4:
	.byte	248
	.byte	248
	.byte	248
	.byte	248
	.zero	1
	.zero	1
	.zero	1
	.zero	1
	.zero	1
	.zero	1
	.zero	1
	.zero	1
	.zero	1
	.zero	1
	.zero	1
	.zero	1
.LCPI19_5:
	.byte	216
	.byte	216
	.byte	216
	.byte	216
	.zero	1
	.zero	1
	.zero	1
	.zero	1
	.zero	1
	.zero	1
	.zero	1
	.zero	1
	.zero	1
	.zero	1
	.zero	1
	.zero	1
	.section	".text.utf16_transcode::sizes::to_utf8_lossy_len::<#418c2b53cf60437c>","ax",@progbits
	.p2align	4
	.type	"utf16_transcode::sizes::to_utf8_lossy_len::<#418c2b53cf60437c>",@function
"utf16_transcode::sizes::to_utf8_lossy_len::<#418c2b53cf60437c>":
	.cfi_startproc
	pushq	%rbp
	.cfi_def_cfa_offset 16
	pushq	%r15
	.cfi_def_cfa_offset 24
	pushq	%r14
	.cfi_def_cfa_offset 32
	pushq	%r13
	.cfi_def_cfa_offset 40
	pushq	%r12
	.cfi_def_cfa_offset 48
	pushq	%rbx
	.cfi_def_cfa_offset 56
	pushq	%rax
	.cfi_def_cfa_offset 64
	.cfi_offset %rbx, -56
	.cfi_offset %r12, -48
	.cfi_offset %r13, -40
	.cfi_offset %r14, -32
	.cfi_offset %r15, -24
	.cfi_offset %rbp, -16
	movq	%rsi, %r14
	movq	%rdi, %r13
	xorl	%ebx, %ebx
	cmpq	$2, %r14
	jne	.LBB19_4
	.p2align	4
.LBB19_2:
	movzbl	1(%r13), %eax
.LBB19_3:
	andb	$-8, %al
	cmpb	$-40, %al
	jne	.LBB19_24
.LBB19_23:
	movq	%r13, %rdi
	movq	%r14, %rsi
	callq	"utf16_units::validate::valid_len::<#418c2b53cf60437c>"
	movq	%r14, %rsi
	subq	%rax, %rsi
	je	.LBB19_24
	movq	%rax, %r12
	movq	%rbx, (%rsp)
	movq	%r13, %rbx
	addq	%rax, %r13
	movq	%r13, %rdi
	callq	"utf16_units::validate::error_len::<#418c2b53cf60437c>"
	movl	%eax, %r15d
	movl	%edx, %ebp
	movq	%rbx, %rdi
	movq	(%rsp), %rbx
	movq	%r12, %rsi
	callq	"utf16_to_utf8::lens::utf8_len::<#418c2b53cf60437c>"
	addq	%rax, %rbx
	addq	$3, %rbx
	cmpb	$1, %r15b
	jne	.LBB19_25
	movzbl	%bpl, %eax
	addq	%rax, %r13
	addq	%rax, %r12
	subq	%r12, %r14
	cmpq	$2, %r14
	je	.LBB19_2
.LBB19_4:
	cmpq	$7, %r14
	ja	.LBB19_13
	cmpq	$4, %r14
	je	.LBB19_8
	cmpq	$6, %r14
	je	.LBB19_10
	testq	%r14, %r14
	jne	.LBB19_23
	jmp	.LBB19_24
	.p2align	4
.LBB19_13:
	cmpq	$65, %r14
	setae	%al
	movl	%r14d, %ecx
	orb	%al, %cl
	testb	$1, %cl
	jne	.LBB19_23
	cmpq	$15, %r14
	ja	.LBB19_17
	movq	(%r13), %xmm0
	psrlw	$8, %xmm0
	packuswb	%xmm0, %xmm0
	pand	.LCPI19_4(%rip), %xmm0
	pcmpeqb	.LCPI19_5(%rip), %xmm0
	pmovsxbd	%xmm0, %xmm0
	movmskps	%xmm0, %eax
	testl	%eax, %eax
	jne	.LBB19_23
	movq	-8(%r13,%r14), %xmm0
	psrlw	$8, %xmm0
	packuswb	%xmm0, %xmm0
	pand	.LCPI19_4(%rip), %xmm0
	pcmpeqb	.LCPI19_5(%rip), %xmm0
	pmovsxbd	%xmm0, %xmm0
	movmskps	%xmm0, %eax
	testl	%eax, %eax
	jne	.LBB19_23
	jmp	.LBB19_24
.LBB19_10:
	movzbl	1(%r13), %eax
	andb	$-8, %al
	cmpb	$-40, %al
	je	.LBB19_23
	movzbl	3(%r13), %eax
	andb	$-8, %al
	cmpb	$-40, %al
	je	.LBB19_23
	movzbl	5(%r13), %eax
	jmp	.LBB19_3
.LBB19_8:
	movzbl	1(%r13), %eax
	andb	$-8, %al
	cmpb	$-40, %al
	je	.LBB19_23
	movzbl	3(%r13), %eax
	jmp	.LBB19_3
.LBB19_17:
	cmpq	$31, %r14
	ja	.LBB19_20
	movdqu	(%r13), %xmm0
	psrlw	$8, %xmm0
	packuswb	%xmm0, %xmm0
	pand	.LCPI19_2(%rip), %xmm0
	pcmpeqb	.LCPI19_3(%rip), %xmm0
	pmovmskb	%xmm0, %eax
	testb	%al, %al
	jne	.LBB19_23
	movdqu	-16(%r13,%r14), %xmm0
	psrlw	$8, %xmm0
	packuswb	%xmm0, %xmm0
	pand	.LCPI19_2(%rip), %xmm0
	pcmpeqb	.LCPI19_3(%rip), %xmm0
	pmovmskb	%xmm0, %eax
	testb	%al, %al
	jne	.LBB19_23
	jmp	.LBB19_24
.LBB19_20:
	movdqu	(%r13), %xmm0
	movdqu	16(%r13), %xmm1
	psrlw	$8, %xmm1
	psrlw	$8, %xmm0
	packuswb	%xmm1, %xmm0
	pand	.LCPI19_0(%rip), %xmm0
	pcmpeqb	.LCPI19_1(%rip), %xmm0
	pmovmskb	%xmm0, %eax
	testl	%eax, %eax
	jne	.LBB19_23
	movdqu	-32(%r13,%r14), %xmm0
	movdqu	-16(%r13,%r14), %xmm1
	psrlw	$8, %xmm1
	psrlw	$8, %xmm0
	packuswb	%xmm1, %xmm0
	pand	.LCPI19_0(%rip), %xmm0
	pcmpeqb	.LCPI19_1(%rip), %xmm0
	pmovmskb	%xmm0, %eax
	testl	%eax, %eax
	jne	.LBB19_23
.LBB19_24:
	movq	%r13, %rdi
	movq	%r14, %rsi
	callq	"utf16_to_utf8::lens::utf8_len::<#418c2b53cf60437c>"
	addq	%rax, %rbx
.LBB19_25:
	movq	%rbx, %rax
	addq	$8, %rsp
	.cfi_def_cfa_offset 56
	popq	%rbx
	.cfi_def_cfa_offset 48
	popq	%r12
	.cfi_def_cfa_offset 40
	popq	%r13
	.cfi_def_cfa_offset 32
	popq	%r14
	.cfi_def_cfa_offset 24
	popq	%r15
	.cfi_def_cfa_offset 16
	popq	%rbp
	.cfi_def_cfa_offset 8
	retq
.Lfunc_end19:
	.size	"utf16_transcode::sizes::to_utf8_lossy_len::<#418c2b53cf60437c>", .Lfunc_end19-"utf16_transcode::sizes::to_utf8_lossy_len::<#418c2b53cf60437c>"
	.cfi_endproc

	.section	.rodata.cst16,"aM",@progbits,16
	.p2align	4, 0x0
.LCPI20_0:
	.short	65408
	.short	65408
	.short	65408
	.short	65408
	.short	65408
	.short	65408
	.short	65408
	.short	65408
.LCPI20_1:
	.zero	16,248
.LCPI20_2:
	.zero	16,216
.LCPI20_3:
	.short	127
	.short	127
	.short	127
	.short	127
	.short	127
	.short	127
	.short	127
	.short	127
	.section	".text.utf16_to_utf8::lens::utf8_len::<#418c2b53cf60437c>","ax",@progbits
	.p2align	4
	.type	"utf16_to_utf8::lens::utf8_len::<#418c2b53cf60437c>",@function
"utf16_to_utf8::lens::utf8_len::<#418c2b53cf60437c>":
	.cfi_startproc
	pushq	%rbp
	.cfi_def_cfa_offset 16
	.cfi_offset %rbp, -16
	movq	%rsp, %rbp
	.cfi_def_cfa_register %rbp
	pushq	%r14
	pushq	%rbx
	andq	$-64, %rsp
	subq	$128, %rsp
	.cfi_offset %rbx, -32
	.cfi_offset %r14, -24
	movq	%rsi, %rbx
	movq	%rdi, %rsi
	cmpq	$64, %rbx
	jb	.LBB20_1
	xorl	%eax, %eax
	movq	%rbx, %rdx
	xorl	%r14d, %r14d
	jmp	.LBB20_3
	.p2align	4
.LBB20_5:
	movdqa	%xmm1, %xmm4
	psrlw	$8, %xmm4
	movdqa	%xmm0, %xmm5
	psrlw	$8, %xmm5
	packuswb	%xmm5, %xmm4
	movdqa	%xmm3, %xmm5
	psrlw	$8, %xmm5
	movdqa	%xmm2, %xmm6
	psrlw	$8, %xmm6
	packuswb	%xmm6, %xmm5
	movdqa	.LCPI20_1(%rip), %xmm6
	pand	%xmm6, %xmm4
	pand	%xmm6, %xmm5
	pxor	%xmm6, %xmm6
	movdqa	%xmm5, %xmm7
	pcmpeqb	%xmm6, %xmm7
	pmovmskb	%xmm7, %ecx
	pcmpeqb	%xmm4, %xmm6
	pmovmskb	%xmm6, %edi
	shll	$16, %edi
	orl	%ecx, %edi
	xorl	%ecx, %ecx
	popcntl	%edi, %ecx
	movdqa	.LCPI20_2(%rip), %xmm6
	pcmpeqb	%xmm6, %xmm5
	pmovmskb	%xmm5, %edi
	pcmpeqb	%xmm6, %xmm4
	pmovmskb	%xmm4, %r8d
	shll	$16, %r8d
	orl	%edi, %r8d
	xorl	%edi, %edi
	popcntl	%r8d, %edi
	movdqa	.LCPI20_3(%rip), %xmm4
	movdqa	%xmm3, %xmm5
	pminuw	%xmm4, %xmm5
	pcmpeqw	%xmm3, %xmm5
	movdqa	%xmm2, %xmm3
	pminuw	%xmm4, %xmm3
	pcmpeqw	%xmm2, %xmm3
	packsswb	%xmm3, %xmm5
	pmovmskb	%xmm5, %r8d
	movdqa	%xmm1, %xmm2
	pminuw	%xmm4, %xmm2
	pcmpeqw	%xmm1, %xmm2
	pminuw	%xmm0, %xmm4
	pcmpeqw	%xmm0, %xmm4
	packsswb	%xmm4, %xmm2
	pmovmskb	%xmm2, %r9d
	shll	$16, %r9d
	orl	%r8d, %r9d
	xorl	%r8d, %r8d
	popcntl	%r9d, %r8d
	addl	%edi, %r8d
	addl	%ecx, %r8d
	movl	$96, %ecx
	subq	%r8, %rcx
.LBB20_6:
	addq	%rcx, %r14
	addq	$64, %rax
	addq	$-64, %rdx
	cmpq	$63, %rdx
	jbe	.LBB20_7
.LBB20_3:
	movdqu	(%rsi,%rax), %xmm3
	movdqu	16(%rsi,%rax), %xmm2
	movdqu	32(%rsi,%rax), %xmm1
	movdqu	48(%rsi,%rax), %xmm0
	movdqa	%xmm2, %xmm4
	por	%xmm0, %xmm4
	movdqa	%xmm3, %xmm5
	por	%xmm1, %xmm5
	por	%xmm4, %xmm5
	ptest	.LCPI20_0(%rip), %xmm5
	jne	.LBB20_5
	movl	$32, %ecx
	jmp	.LBB20_6
.LBB20_1:
	xorl	%r14d, %r14d
	xorl	%eax, %eax
	movq	%rbx, %rdx
.LBB20_7:
	addq	%rax, %rsi
	pxor	%xmm0, %xmm0
	movdqa	%xmm0, 48(%rsp)
	movdqa	%xmm0, 32(%rsp)
	movdqa	%xmm0, 16(%rsp)
	movdqa	%xmm0, (%rsp)
	movq	%rsp, %rdi
	callq	memcpy@PLT
	movdqa	16(%rsp), %xmm0
	movdqa	(%rsp), %xmm1
	por	48(%rsp), %xmm0
	por	32(%rsp), %xmm1
	por	%xmm0, %xmm1
	ptest	.LCPI20_0(%rip), %xmm1
	je	.LBB20_8
	movdqa	(%rsp), %xmm0
	movdqa	32(%rsp), %xmm3
	movdqa	48(%rsp), %xmm2
	movdqa	16(%rsp), %xmm1
	movdqa	.LCPI20_3(%rip), %xmm4
	movdqa	%xmm3, %xmm5
	pminuw	%xmm4, %xmm5
	pcmpeqw	%xmm3, %xmm5
	movdqa	%xmm3, %xmm6
	psrlw	$8, %xmm6
	movdqa	%xmm0, %xmm3
	pminuw	%xmm4, %xmm3
	movdqa	%xmm1, %xmm7
	pminuw	%xmm4, %xmm7
	pminuw	%xmm2, %xmm4
	pcmpeqw	%xmm2, %xmm4
	psrlw	$8, %xmm2
	packuswb	%xmm2, %xmm6
	pcmpeqw	%xmm0, %xmm3
	psrlw	$8, %xmm0
	pcmpeqw	%xmm1, %xmm7
	psrlw	$8, %xmm1
	packuswb	%xmm1, %xmm0
	movdqa	.LCPI20_1(%rip), %xmm1
	pand	%xmm1, %xmm6
	pand	%xmm1, %xmm0
	movdqa	%xmm0, %xmm1
	pxor	%xmm2, %xmm2
	pcmpeqb	%xmm2, %xmm1
	pmovmskb	%xmm1, %eax
	pcmpeqb	%xmm6, %xmm2
	pmovmskb	%xmm2, %ecx
	shll	$16, %ecx
	orl	%eax, %ecx
	xorl	%eax, %eax
	popcntl	%ecx, %eax
	movdqa	.LCPI20_2(%rip), %xmm1
	pcmpeqb	%xmm1, %xmm0
	pmovmskb	%xmm0, %ecx
	pcmpeqb	%xmm1, %xmm6
	pmovmskb	%xmm6, %edx
	shll	$16, %edx
	orl	%ecx, %edx
	xorl	%ecx, %ecx
	popcntl	%edx, %ecx
	packsswb	%xmm7, %xmm3
	pmovmskb	%xmm3, %edx
	packsswb	%xmm4, %xmm5
	pmovmskb	%xmm5, %esi
	shll	$16, %esi
	orl	%edx, %esi
	xorl	%edx, %edx
	popcntl	%esi, %edx
	addl	%ecx, %edx
	addl	%eax, %edx
	movl	$96, %eax
	subq	%rdx, %rax
	jmp	.LBB20_10
.LBB20_8:
	movl	$32, %eax
.LBB20_10:
	addq	%rax, %r14
	shrl	%ebx
	orq	$-32, %rbx
	addq	%r14, %rbx
	movq	%rbx, %rax
	leaq	-16(%rbp), %rsp
	popq	%rbx
	popq	%r14
	popq	%rbp
	.cfi_def_cfa %rsp, 8
	retq
.Lfunc_end20:
	.size	"utf16_to_utf8::lens::utf8_len::<#418c2b53cf60437c>", .Lfunc_end20-"utf16_to_utf8::lens::utf8_len::<#418c2b53cf60437c>"
	.cfi_endproc

	.section	".text.memchr::memmem::Finder::new","ax",@progbits
	.p2align	4
	.type	"memchr::memmem::Finder::new",@function
"memchr::memmem::Finder::new":
	.cfi_startproc
	pushq	%rbp
	.cfi_def_cfa_offset 16
	pushq	%r15
	.cfi_def_cfa_offset 24
	pushq	%r14
	.cfi_def_cfa_offset 32
	pushq	%r12
	.cfi_def_cfa_offset 40
	pushq	%rbx
	.cfi_def_cfa_offset 48
	subq	$64, %rsp
	.cfi_def_cfa_offset 112
	.cfi_offset %rbx, -48
	.cfi_offset %r12, -40
	.cfi_offset %r14, -32
	.cfi_offset %r15, -24
	.cfi_offset %rbp, -16
	pxor	%xmm0, %xmm0
	movdqa	%xmm0, 16(%rsp)
	movdqa	%xmm0, (%rsp)
	testq	%rdx, %rdx
	je	.LBB21_1
	cmpq	$1, %rdx
	jne	.LBB21_3
	movzbl	(%rsi), %r15d
	movb	$1, %r8b
	xorl	%eax, %eax
	xorl	%ecx, %ecx
	xorl	%r9d, %r9d
	jmp	.LBB21_23
.LBB21_1:
	movq	%rdx, %xmm0
	pshufd	$68, %xmm0, %xmm0
	xorl	%r8d, %r8d
	xorl	%r15d, %r15d
	movq	%rdx, %rax
	movq	%rdx, %rcx
	xorl	%r9d, %r9d
	jmp	.LBB21_23
.LBB21_3:
	movzbl	(%rsi), %r8d
	movzbl	1(%rsi), %r10d
	leaq	.Lstatic.3(%rip), %rax
	movzbl	(%r10,%rax), %ecx
	cmpb	(%r8,%rax), %cl
	jae	.LBB21_4
	movb	$1, %cl
	xorl	%ebp, %ebp
	movl	%r8d, %r9d
	movl	%r10d, %r8d
	cmpq	$2, %rdx
	jne	.LBB21_7
	jmp	.LBB21_14
.LBB21_4:
	movb	$1, %bpl
	xorl	%ecx, %ecx
	movl	%r10d, %r9d
	cmpq	$2, %rdx
	je	.LBB21_14
.LBB21_7:
	cmpq	$255, %rdx
	movl	$255, %r10d
	cmovbq	%rdx, %r10
	movl	$2, %r11d
	jmp	.LBB21_8
	.p2align	4
.LBB21_9:
	movl	%ecx, %ebp
	movl	%r8d, %r9d
	movl	%r11d, %ecx
	incq	%r11
	movl	%ebx, %r8d
	cmpq	%r11, %r10
	je	.LBB21_14
.LBB21_8:
	movzbl	(%rsi,%r11), %ebx
	movzbl	(%rbx,%rax), %r14d
	movzbl	%r8b, %r15d
	cmpb	(%r15,%rax), %r14b
	jb	.LBB21_9
	cmpb	%r8b, %bl
	je	.LBB21_12
	movzbl	%r9b, %r15d
	cmpb	(%r15,%rax), %r14b
	movzbl	%bpl, %ebp
	cmovbl	%r11d, %ebp
	movzbl	%bl, %r9d
	cmovael	%r15d, %r9d
.LBB21_12:
	movl	%r8d, %ebx
	incq	%r11
	movl	%ebx, %r8d
	cmpq	%r11, %r10
	jne	.LBB21_8
.LBB21_14:
	movzbl	%cl, %r15d
	movzbl	(%rsi,%r15), %r8d
	movzbl	%bpl, %eax
	cmpb	%r8b, (%rsi,%rax)
	jne	.LBB21_19
	cmpq	$255, %rdx
	movl	$255, %r9d
	cmovbq	%rdx, %r9
	xorl	%ecx, %ecx
	.p2align	4
.LBB21_16:
	cmpb	%r8b, (%rsi,%rcx)
	jne	.LBB21_17
	incq	%rcx
	cmpq	%rcx, %r9
	jne	.LBB21_16
.LBB21_19:
	movq	%rdi, %r12
	cmpq	$33, %rdx
	jae	.LBB21_21
.LBB21_20:
	pxor	%xmm0, %xmm0
	movdqa	%xmm0, 48(%rsp)
	movdqa	%xmm0, 32(%rsp)
	leaq	32(%rsp), %rdi
	movq	%rsi, %rbx
	movq	%rdx, %r14
	callq	memcpy@PLT
	movq	%rbx, %rsi
	movq	%r14, %rdx
	movdqa	32(%rsp), %xmm0
	movq	48(%rsp), %rax
	movq	56(%rsp), %rcx
	movzbl	%bpl, %edi
	shll	$8, %edi
	orl	%edi, %r15d
	movb	$2, %r8b
	movl	%edx, %r9d
	jmp	.LBB21_22
.LBB21_17:
	movl	%ecx, %r8d
	cmpb	%cl, %r15b
	cmovel	%eax, %ecx
	cmpq	%r15, %rdx
	movzbl	%r8b, %r8d
	cmovbel	%eax, %ecx
	cmpq	%r8, %rdx
	cmovbel	%eax, %ecx
	movl	%ecx, %ebp
	movq	%rdi, %r12
	cmpq	$33, %rdx
	jb	.LBB21_20
.LBB21_21:
	movq	%rsp, %rdi
	movq	%rsi, %rbx
	movq	%rdx, %r14
	xorl	%ecx, %ecx
	callq	"memchr::arch::all::twoway::TwoWay::new"
	movq	%rbx, %rsi
	movq	%r14, %rdx
	movzbl	16(%rsp), %eax
	movq	24(%rsp), %rcx
	movzbl	%bpl, %edi
	shll	$8, %edi
	orl	%edi, %r15d
	movl	%r15d, %r9d
	movdqa	(%rsp), %xmm0
	movb	$4, %r8b
	xorl	%r15d, %r15d
.LBB21_22:
	movq	%r12, %rdi
.LBB21_23:
	movq	$0, (%rdi)
	movq	%rsi, 8(%rdi)
	movq	%rdx, 16(%rdi)
	movq	$0, 24(%rdi)
	movb	%r8b, 32(%rdi)
	movw	%r15w, 33(%rdi)
	movl	$0, 35(%rdi)
	movb	$0, 39(%rdi)
	movdqu	%xmm0, 40(%rdi)
	movq	%rax, 56(%rdi)
	movq	%rcx, 64(%rdi)
	movw	%r9w, 72(%rdi)
	movw	$0, 78(%rdi)
	movl	$0, 74(%rdi)
	addq	$64, %rsp
	.cfi_def_cfa_offset 48
	popq	%rbx
	.cfi_def_cfa_offset 40
	popq	%r12
	.cfi_def_cfa_offset 32
	popq	%r14
	.cfi_def_cfa_offset 24
	popq	%r15
	.cfi_def_cfa_offset 16
	popq	%rbp
	.cfi_def_cfa_offset 8
	retq
.Lfunc_end21:
	.size	"memchr::memmem::Finder::new", .Lfunc_end21-"memchr::memmem::Finder::new"
	.cfi_endproc

	.section	.rodata.cst16,"aM",@progbits,16
	.p2align	4, 0x0
.LCPI22_0:
	.byte	63
	.byte	63
	.zero	1
	.zero	1
	.zero	1
	.zero	1
	.zero	1
	.zero	1
	.zero	1
	.zero	1
	.zero	1
	.zero	1
	.zero	1
	.zero	1
	.zero	1
	.zero	1
.LCPI22_1:
	.long	63
	.long	0
	.long	0
	.long	0
.LCPI22_2:
	.quad	1
	.quad	1
	.section	.rodata.cst4,"aM",@progbits,4
	.p2align	2, 0x0
.LCPI22_3:
	.long	63
	.section	".text.memchr::arch::all::twoway::TwoWay::new","ax",@progbits
	.p2align	4
	.type	"memchr::arch::all::twoway::TwoWay::new",@function
"memchr::arch::all::twoway::TwoWay::new":
	.cfi_startproc
	movq	%rdx, %r8
	andq	$-4, %r8
	pxor	%xmm0, %xmm0
	xorl	%eax, %eax
	pxor	%xmm1, %xmm1
	.p2align	4
.LBB22_1:
	movzwl	(%rsi,%rax), %r9d
	movd	%r9d, %xmm2
	movzwl	2(%rsi,%rax), %r9d
	movd	%r9d, %xmm3
	movdqa	.LCPI22_0(%rip), %xmm4
	movdqa	%xmm2, %xmm5
	pand	%xmm4, %xmm5
	pand	%xmm3, %xmm4
	pmovzxbq	%xmm5, %xmm5
	pmovzxbq	%xmm4, %xmm4
	movd	.LCPI22_3(%rip), %xmm6
	pand	%xmm6, %xmm2
	movdqa	.LCPI22_2(%rip), %xmm7
	movdqa	%xmm7, %xmm8
	psllq	%xmm2, %xmm8
	pshufd	$238, %xmm5, %xmm2
	movdqa	%xmm7, %xmm5
	psllq	%xmm2, %xmm5
	pblendw	$15, %xmm8, %xmm5
	pand	%xmm6, %xmm3
	movdqa	%xmm7, %xmm2
	psllq	%xmm3, %xmm2
	por	%xmm5, %xmm1
	pshufd	$238, %xmm4, %xmm3
	psllq	%xmm3, %xmm7
	pblendw	$15, %xmm2, %xmm7
	por	%xmm7, %xmm0
	addq	$4, %rax
	cmpq	%rax, %r8
	jne	.LBB22_1
	por	%xmm1, %xmm0
	pshufd	$238, %xmm0, %xmm1
	por	%xmm0, %xmm1
	movq	%xmm1, %rax
	cmpq	%r8, %rdx
	je	.LBB22_4
	.p2align	4
.LBB22_3:
	movzbl	(%rsi,%r8), %r9d
	btsq	%r9, %rax
	incq	%r8
	cmpq	%r8, %rdx
	jne	.LBB22_3
.LBB22_4:
	pushq	%rbp
	.cfi_def_cfa_offset 16
	pushq	%r15
	.cfi_def_cfa_offset 24
	pushq	%r14
	.cfi_def_cfa_offset 32
	pushq	%r13
	.cfi_def_cfa_offset 40
	pushq	%r12
	.cfi_def_cfa_offset 48
	pushq	%rbx
	.cfi_def_cfa_offset 56
	.cfi_offset %rbx, -56
	.cfi_offset %r12, -48
	.cfi_offset %r13, -40
	.cfi_offset %r14, -32
	.cfi_offset %r15, -24
	.cfi_offset %rbp, -16
	leaq	(%rsi,%rdx), %r10
	movl	$1, %r8d
	xorl	%r9d, %r9d
	movl	$1, %r15d
	movl	$1, %ebx
	xorl	%r11d, %r11d
	testb	%cl, %cl
	jne	.LBB22_7
	jmp	.LBB22_13
	.p2align	4
.LBB22_5:
	leaq	1(%rbx), %r14
	movl	$1, %r8d
	xorl	%r11d, %r11d
	movq	%rbx, %r9
.LBB22_6:
	leaq	(%r14,%r11), %r15
	movq	%r14, %rbx
	cmpq	%rdx, %r15
	jae	.LBB22_18
.LBB22_7:
	leaq	(%r11,%r9), %r14
	notq	%r14
	movzbl	(%r10,%r14), %ebp
	notq	%r15
	movzbl	(%r10,%r15), %r14d
	cmpb	%bpl, %r14b
	jb	.LBB22_5
	incq	%r11
	cmpb	%r14b, %bpl
	jae	.LBB22_10
	movq	%r11, %r14
	addq	%rbx, %r14
	movq	%r14, %r8
	subq	%r9, %r8
	xorl	%r11d, %r11d
	jmp	.LBB22_6
	.p2align	4
.LBB22_10:
	xorl	%r14d, %r14d
	cmpq	%r8, %r11
	cmoveq	%r14, %r11
	cmoveq	%r8, %r14
	addq	%rbx, %r14
	jmp	.LBB22_6
	.p2align	4
.LBB22_11:
	leaq	1(%rbx), %r14
	movl	$1, %r8d
	xorl	%r11d, %r11d
.LBB22_12:
	movq	%rbx, %r9
	leaq	(%r14,%r11), %r15
	movq	%r14, %rbx
	cmpq	%rdx, %r15
	jae	.LBB22_18
.LBB22_13:
	leaq	(%rsi,%r9), %r14
	movzbl	(%r11,%r14), %ebp
	movzbl	(%rsi,%r15), %r14d
	cmpb	%bpl, %r14b
	jb	.LBB22_11
	incq	%r11
	cmpb	%r14b, %bpl
	jae	.LBB22_16
	movq	%r11, %r14
	addq	%rbx, %r14
	movq	%r14, %r8
	subq	%r9, %r8
	xorl	%r11d, %r11d
	jmp	.LBB22_17
	.p2align	4
.LBB22_16:
	xorl	%r14d, %r14d
	cmpq	%r8, %r11
	cmoveq	%r14, %r11
	cmoveq	%r8, %r14
	addq	%rbx, %r14
.LBB22_17:
	movq	%r9, %rbx
	jmp	.LBB22_12
.LBB22_18:
	movl	$1, %r11d
	xorl	%ebx, %ebx
	movl	$1, %r13d
	movl	$1, %r15d
	xorl	%r14d, %r14d
	testb	%cl, %cl
	jne	.LBB22_21
	jmp	.LBB22_27
	.p2align	4
.LBB22_19:
	leaq	1(%r15), %r12
	movl	$1, %r11d
	xorl	%r14d, %r14d
	movq	%r15, %rbx
.LBB22_20:
	leaq	(%r12,%r14), %r13
	movq	%r12, %r15
	cmpq	%rdx, %r13
	jae	.LBB22_31
.LBB22_21:
	leaq	(%r14,%rbx), %r12
	notq	%r12
	movzbl	(%r10,%r12), %ebp
	notq	%r13
	movzbl	(%r10,%r13), %r12d
	cmpb	%r12b, %bpl
	jb	.LBB22_19
	incq	%r14
	cmpb	%bpl, %r12b
	jae	.LBB22_24
	movq	%r14, %r12
	addq	%r15, %r12
	movq	%r12, %r11
	subq	%rbx, %r11
	xorl	%r14d, %r14d
	jmp	.LBB22_20
	.p2align	4
.LBB22_24:
	xorl	%r12d, %r12d
	cmpq	%r11, %r14
	cmoveq	%r12, %r14
	cmoveq	%r11, %r12
	addq	%r15, %r12
	jmp	.LBB22_20
	.p2align	4
.LBB22_25:
	leaq	1(%r15), %r12
	movl	$1, %r11d
	xorl	%r14d, %r14d
	movq	%r15, %rbx
.LBB22_26:
	leaq	(%r12,%r14), %r13
	movq	%r12, %r15
	cmpq	%rdx, %r13
	jae	.LBB22_31
.LBB22_27:
	leaq	(%rsi,%rbx), %r12
	movzbl	(%r14,%r12), %ebp
	movzbl	(%rsi,%r13), %r12d
	cmpb	%r12b, %bpl
	jb	.LBB22_25
	incq	%r14
	cmpb	%bpl, %r12b
	jae	.LBB22_30
	movq	%r14, %r12
	addq	%r15, %r12
	movq	%r12, %r11
	subq	%rbx, %r11
	xorl	%r14d, %r14d
	jmp	.LBB22_26
	.p2align	4
.LBB22_30:
	xorl	%r12d, %r12d
	cmpq	%r11, %r14
	cmoveq	%r12, %r14
	cmoveq	%r11, %r12
	addq	%r15, %r12
	jmp	.LBB22_26
.LBB22_31:
	cmpq	%r9, %rbx
	jae	.LBB22_39
	movq	%rdx, %r11
	subq	%r9, %r11
	cmpq	%r9, %r11
	cmovbeq	%r9, %r11
	leaq	(%r9,%r9), %rbx
	movl	$1, %r14d
	cmpq	%rbx, %rdx
	jbe	.LBB22_59
	testb	%cl, %cl
	je	.LBB22_47
	movzbl	-1(%r10), %ecx
	movq	%r8, %rdx
	notq	%rdx
	cmpb	(%r10,%rdx), %cl
	jne	.LBB22_59
	movq	%r10, %rcx
	subq	%r8, %rcx
	movq	$-1, %rdx
	.p2align	4
.LBB22_36:
	movq	%r9, %rsi
	addq	%rdx, %rsi
	je	.LBB22_57
	movzbl	-1(%r10,%rdx), %esi
	cmpb	-1(%rcx,%rdx), %sil
	leaq	-1(%rdx), %rdx
	je	.LBB22_36
	jmp	.LBB22_59
.LBB22_39:
	movq	%rdx, %r8
	subq	%rbx, %r8
	cmpq	%rbx, %r8
	cmovbeq	%rbx, %r8
	leaq	(%rbx,%rbx), %r9
	movl	$1, %r14d
	cmpq	%r9, %rdx
	jbe	.LBB22_46
	testq	%rbx, %rbx
	je	.LBB22_52
	testb	%cl, %cl
	je	.LBB22_53
	movzbl	-1(%r10), %ecx
	movq	%r11, %rdx
	notq	%rdx
	cmpb	(%r10,%rdx), %cl
	jne	.LBB22_46
	movq	%r10, %rcx
	subq	%r11, %rcx
	movq	$-1, %rdx
	.p2align	4
.LBB22_44:
	movq	%rbx, %rsi
	addq	%rdx, %rsi
	je	.LBB22_58
	movzbl	-1(%r10,%rdx), %esi
	cmpb	-1(%rcx,%rdx), %sil
	leaq	-1(%rdx), %rdx
	je	.LBB22_44
	jmp	.LBB22_46
.LBB22_47:
	movzbl	(%rsi), %ecx
	cmpb	(%rsi,%r8), %cl
	jne	.LBB22_59
	leaq	(%rsi,%r8), %rcx
	movl	$1, %edx
	.p2align	4
.LBB22_49:
	cmpq	%rdx, %r9
	je	.LBB22_57
	movzbl	(%rsi,%rdx), %r10d
	cmpb	(%rcx,%rdx), %r10b
	leaq	1(%rdx), %rdx
	je	.LBB22_49
	movl	$1, %r14d
	jmp	.LBB22_59
.LBB22_52:
	xorl	%r9d, %r9d
	xorl	%r14d, %r14d
	jmp	.LBB22_59
.LBB22_53:
	movzbl	(%rsi), %ecx
	cmpb	(%rsi,%r11), %cl
	jne	.LBB22_46
	leaq	(%rsi,%r11), %rcx
	movl	$1, %edx
	.p2align	4
.LBB22_55:
	cmpq	%rdx, %rbx
	je	.LBB22_58
	movzbl	(%rsi,%rdx), %r9d
	movl	$1, %r14d
	cmpb	(%rcx,%rdx), %r9b
	leaq	1(%rdx), %rdx
	je	.LBB22_55
.LBB22_46:
	movq	%rbx, %r9
	jmp	.LBB22_60
.LBB22_57:
	xorl	%r14d, %r14d
	jmp	.LBB22_60
.LBB22_58:
	xorl	%r14d, %r14d
	movq	%rbx, %r9
.LBB22_59:
	movq	%r11, %r8
.LBB22_60:
	movq	%rax, (%rdi)
	movq	%r9, 8(%rdi)
	movq	%r14, 16(%rdi)
	movq	%r8, 24(%rdi)
	popq	%rbx
	.cfi_def_cfa_offset 48
	popq	%r12
	.cfi_def_cfa_offset 40
	popq	%r13
	.cfi_def_cfa_offset 32
	popq	%r14
	.cfi_def_cfa_offset 24
	popq	%r15
	.cfi_def_cfa_offset 16
	popq	%rbp
	.cfi_def_cfa_offset 8
	retq
.Lfunc_end22:
	.size	"memchr::arch::all::twoway::TwoWay::new", .Lfunc_end22-"memchr::arch::all::twoway::TwoWay::new"
	.cfi_endproc

	.section	".text.utf16_bytes::bytes::find_bytes","ax",@progbits
	.p2align	4
	.type	"utf16_bytes::bytes::find_bytes",@function
"utf16_bytes::bytes::find_bytes":
	.cfi_startproc
	pushq	%rbp
	.cfi_def_cfa_offset 16
	pushq	%r15
	.cfi_def_cfa_offset 24
	pushq	%r14
	.cfi_def_cfa_offset 32
	pushq	%r13
	.cfi_def_cfa_offset 40
	pushq	%r12
	.cfi_def_cfa_offset 48
	pushq	%rbx
	.cfi_def_cfa_offset 56
	subq	$216, %rsp
	.cfi_def_cfa_offset 272
	.cfi_offset %rbx, -56
	.cfi_offset %r12, -48
	.cfi_offset %r13, -40
	.cfi_offset %r14, -32
	.cfi_offset %r15, -24
	.cfi_offset %rbp, -16
	movq	%rdx, 24(%rsp)
	movq	%rdx, %r14
	subq	%rcx, %r14
	movq	16(%rdi), %r10
	movq	%r14, %r11
	subq	%r10, %r11
	jae	.LBB23_2
.LBB23_1:
	xorl	%eax, %eax
	xorl	%edx, %edx
	jmp	.LBB23_112
.LBB23_2:
	movq	%rcx, %r13
	leaq	(%rsi,%rcx), %rax
	movq	%rax, 8(%rsp)
	movq	8(%rdi), %rax
	movq	%rax, 32(%rsp)
	movzbl	32(%rdi), %r12d
	leaq	.LJTI23_0(%rip), %rax
	movslq	(%rax,%r12,4), %rcx
	addq	%rax, %rcx
	movq	%r13, 64(%rsp)
	movq	%r14, 88(%rsp)
	movq	%r10, 16(%rsp)
	notrack jmpq	*%rcx
.LBB23_3:
	movzbl	33(%rdi), %edi
	cmpq	$32, %r14
	jae	.LBB23_74
	testq	%r14, %r14
	je	.LBB23_1
	xorl	%r12d, %r12d
	.p2align	4
.LBB23_6:
	movq	8(%rsp), %rax
	cmpb	%dil, (%rax,%r12)
	je	.LBB23_30
	incq	%r12
	xorl	%eax, %eax
	movl	$0, %edx
	cmpq	%r12, %r14
	jne	.LBB23_6
	jmp	.LBB23_112
.LBB23_8:
	testq	%r10, %r10
	je	.LBB23_110
	movq	40(%rdi), %rax
	movq	%rax, 192(%rsp)
	movq	48(%rdi), %r14
	movq	64(%rdi), %r12
	movzbl	72(%rdi), %ebx
	movzbl	73(%rdi), %ebp
	movq	32(%rsp), %r15
	movzbl	(%r15,%rbx), %r10d
	leaq	1(%r11), %rdx
	leaq	(%rsi,%r13), %rcx
	leaq	(%rcx,%rbx), %rax
	movq	%rax, 176(%rsp)
	leaq	(%rcx,%rbp), %r8
	cmpb	$0, 56(%rdi)
	movq	%rbp, %rdi
	movl	%r10d, %r9d
	movzbl	%r10b, %eax
	movd	%eax, %xmm0
	pxor	%xmm2, %xmm2
	pshufb	%xmm2, %xmm0
	movzbl	(%r15,%rbp), %eax
	movd	%eax, %xmm1
	pshufb	%xmm2, %xmm1
	leaq	-31(%rcx,%r11), %rax
	movq	%rax, 120(%rsp)
	movq	%r14, 160(%rsp)
	movq	%rbx, 48(%rsp)
	movq	%rbp, 56(%rsp)
	movq	%r12, 152(%rsp)
	je	.LBB23_113
	leaq	(%rsi,%r13), %r12
	movq	%r13, %rax
	leaq	(%rdi,%r12), %r13
	addq	$32, %r13
	leaq	(%rbx,%r12), %rdi
	addq	$32, %rdi
	movq	16(%rsp), %rcx
	movq	24(%rsp), %r10
	subq	%rcx, %r10
	subq	%rax, %r10
	leaq	-63(%r10), %rbx
	movq	%rbx, 128(%rsp)
	incq	%r10
	movq	%r10, 24(%rsp)
	subq	%r14, %rcx
	movq	%rcx, 144(%rsp)
	addq	%r14, %r12
	movq	%r12, 136(%rsp)
	leaq	(%r15,%r14), %rcx
	movq	%rcx, 96(%rsp)
	addq	%rsi, %rax
	decq	%rax
	movq	%rax, 72(%rsp)
	movl	$1, 40(%rsp)
	xorl	%esi, %esi
	movl	$0, 80(%rsp)
	movl	$1, %ebx
	movq	%rdx, %r11
	movl	%r9d, %r10d
	movq	176(%rsp), %r9
.LBB23_208:
	testl	%ebx, %ebx
	je	.LBB23_216
	cmpl	$51, %ebx
	jb	.LBB23_211
	cmpl	$536870913, %ebx
	leal	-8(,%rbx,8), %eax
	movl	$-1, %ecx
	cmovbl	%eax, %ecx
	xorl	%eax, %eax
	cmpl	80(%rsp), %ecx
	ja	.LBB23_217
.LBB23_211:
	cmpq	$32, %r11
	jae	.LBB23_219
	cmpq	%r11, %rsi
	jae	.LBB23_1
	movq	%rsi, %r12
	.p2align	4
.LBB23_214:
	cmpb	%r10b, (%r9,%r12)
	je	.LBB23_255
	incq	%r12
	xorl	%eax, %eax
	movl	$0, %edx
	cmpq	%r11, %r12
	jb	.LBB23_214
	jmp	.LBB23_112
.LBB23_216:
	movl	40(%rsp), %eax
.LBB23_217:
	xorl	%ebx, %ebx
	cmpq	%r11, %rsi
	jae	.LBB23_1
	movq	%rsi, %r12
	movl	%eax, 40(%rsp)
	jmp	.LBB23_259
.LBB23_219:
	movq	%rsi, %rbx
	cmpq	%r11, %rsi
	jae	.LBB23_1
.LBB23_220:
	movq	%r11, %rax
	subq	%rbx, %rax
	cmpq	$191, %rax
	jbe	.LBB23_227
	movq	8(%rsp), %rax
	addq	%rbx, %rax
	movq	48(%rsp), %rcx
	movdqu	(%rcx,%rax), %xmm3
	movdqu	16(%rcx,%rax), %xmm4
	movdqu	32(%rcx,%rax), %xmm5
	movdqu	48(%rcx,%rax), %xmm6
	pcmpeqb	%xmm0, %xmm3
	pcmpeqb	%xmm0, %xmm4
	movq	56(%rsp), %rcx
	movdqu	(%rcx,%rax), %xmm7
	movdqu	16(%rcx,%rax), %xmm8
	movdqu	32(%rcx,%rax), %xmm9
	movdqu	48(%rcx,%rax), %xmm2
	pcmpeqb	%xmm1, %xmm7
	pand	%xmm3, %xmm7
	pcmpeqb	%xmm1, %xmm8
	pand	%xmm4, %xmm8
	pcmpeqb	%xmm0, %xmm5
	pcmpeqb	%xmm0, %xmm6
	pcmpeqb	%xmm1, %xmm9
	pand	%xmm5, %xmm9
	pcmpeqb	%xmm1, %xmm2
	pand	%xmm6, %xmm2
	pmovmskb	%xmm7, %eax
	pmovmskb	%xmm8, %ecx
	shll	$16, %ecx
	orl	%eax, %ecx
	pmovmskb	%xmm9, %eax
	shlq	$32, %rax
	orq	%rcx, %rax
	pmovmskb	%xmm2, %r15d
	shlq	$48, %r15
	leaq	64(%rbx), %r14
	orq	%rax, %r15
	jne	.LBB23_248
	movq	%r11, %rcx
	subq	%r14, %rcx
	cmpq	$128, %rcx
	jb	.LBB23_240
	addq	$192, %rbx
	movq	%rbx, %rax
.LBB23_224:
	movdqu	-128(%r9,%rax), %xmm2
	movdqu	-112(%r9,%rax), %xmm3
	movdqu	-96(%r9,%rax), %xmm4
	movdqu	-80(%r9,%rax), %xmm5
	pcmpeqb	%xmm0, %xmm2
	pcmpeqb	%xmm0, %xmm3
	movdqu	-128(%r8,%rax), %xmm7
	movdqu	-112(%r8,%rax), %xmm6
	movdqu	-96(%r8,%rax), %xmm8
	movdqu	-80(%r8,%rax), %xmm10
	pcmpeqb	%xmm1, %xmm7
	pand	%xmm2, %xmm7
	pcmpeqb	%xmm1, %xmm6
	pand	%xmm3, %xmm6
	pcmpeqb	%xmm0, %xmm4
	pcmpeqb	%xmm0, %xmm5
	pcmpeqb	%xmm1, %xmm8
	pand	%xmm4, %xmm8
	pcmpeqb	%xmm1, %xmm10
	pand	%xmm5, %xmm10
	movdqu	-48(%r9,%rax), %xmm4
	movdqu	-64(%r9,%rax), %xmm5
	pcmpeqb	%xmm0, %xmm5
	pcmpeqb	%xmm0, %xmm4
	movdqu	-48(%r8,%rax), %xmm2
	movdqu	-64(%r8,%rax), %xmm3
	pcmpeqb	%xmm1, %xmm3
	pand	%xmm5, %xmm3
	pcmpeqb	%xmm1, %xmm2
	pand	%xmm4, %xmm2
	movdqu	-16(%r9,%rax), %xmm9
	movdqu	-32(%r9,%rax), %xmm11
	pcmpeqb	%xmm0, %xmm11
	pcmpeqb	%xmm0, %xmm9
	movdqu	-16(%r8,%rax), %xmm5
	movdqu	-32(%r8,%rax), %xmm4
	pcmpeqb	%xmm1, %xmm4
	pand	%xmm11, %xmm4
	pcmpeqb	%xmm1, %xmm5
	pand	%xmm9, %xmm5
	movdqa	%xmm3, %xmm9
	por	%xmm4, %xmm9
	movdqa	%xmm2, %xmm11
	por	%xmm5, %xmm11
	movdqa	%xmm7, %xmm12
	por	%xmm8, %xmm12
	por	%xmm9, %xmm12
	movdqa	%xmm6, %xmm9
	por	%xmm10, %xmm9
	por	%xmm11, %xmm9
	por	%xmm12, %xmm9
	pmovmskb	%xmm9, %ebx
	testl	%ebx, %ebx
	jne	.LBB23_251
	subq	$-128, %rax
	addq	$-128, %rcx
	cmpq	$127, %rcx
	ja	.LBB23_224
	addq	$-128, %rax
	movq	%rax, %rbx
	jmp	.LBB23_241
.LBB23_227:
	cmpq	$64, %rax
	jb	.LBB23_236
	.p2align	4
.LBB23_228:
	movdqu	-32(%rdi,%rbx), %xmm2
	movdqu	-16(%rdi,%rbx), %xmm3
	movdqu	(%rdi,%rbx), %xmm4
	movdqu	16(%rdi,%rbx), %xmm5
	pcmpeqb	%xmm0, %xmm2
	pcmpeqb	%xmm0, %xmm3
	movdqu	-32(%r13,%rbx), %xmm6
	movdqu	-16(%r13,%rbx), %xmm7
	movdqu	(%r13,%rbx), %xmm8
	movdqu	16(%r13,%rbx), %xmm9
	pcmpeqb	%xmm1, %xmm6
	pand	%xmm2, %xmm6
	pcmpeqb	%xmm1, %xmm7
	pand	%xmm3, %xmm7
	pcmpeqb	%xmm0, %xmm4
	pcmpeqb	%xmm0, %xmm5
	pcmpeqb	%xmm1, %xmm8
	pand	%xmm4, %xmm8
	por	%xmm6, %xmm8
	pcmpeqb	%xmm1, %xmm9
	pand	%xmm5, %xmm9
	por	%xmm7, %xmm9
	por	%xmm8, %xmm9
	pmovmskb	%xmm9, %ecx
	testl	%ecx, %ecx
	jne	.LBB23_230
	addq	$64, %rbx
	addq	$-64, %rax
	cmpq	$63, %rax
	ja	.LBB23_228
	jmp	.LBB23_236
.LBB23_230:
	cmpq	$64, %rax
	jb	.LBB23_236
.LBB23_231:
	movq	8(%rsp), %rax
	addq	%rbx, %rax
	movq	48(%rsp), %rcx
	movdqu	(%rcx,%rax), %xmm3
	movdqu	16(%rcx,%rax), %xmm4
	movdqu	32(%rcx,%rax), %xmm5
	movdqu	48(%rcx,%rax), %xmm6
	pcmpeqb	%xmm0, %xmm3
	pcmpeqb	%xmm0, %xmm4
	movq	56(%rsp), %rcx
	movdqu	(%rcx,%rax), %xmm7
	movdqu	16(%rcx,%rax), %xmm8
	movdqu	32(%rcx,%rax), %xmm9
	movdqu	48(%rcx,%rax), %xmm2
	pcmpeqb	%xmm1, %xmm7
	pand	%xmm3, %xmm7
	pcmpeqb	%xmm1, %xmm8
	pand	%xmm4, %xmm8
	pcmpeqb	%xmm0, %xmm5
	pcmpeqb	%xmm0, %xmm6
	pcmpeqb	%xmm1, %xmm9
	pand	%xmm5, %xmm9
	pcmpeqb	%xmm1, %xmm2
	pand	%xmm6, %xmm2
	pmovmskb	%xmm7, %eax
	pmovmskb	%xmm8, %ecx
	shll	$16, %ecx
	orl	%eax, %ecx
	pmovmskb	%xmm9, %eax
	shlq	$32, %rax
	orq	%rcx, %rax
	pmovmskb	%xmm2, %r15d
	shlq	$48, %r15
	orq	%rax, %r15
	jne	.LBB23_254
	movq	128(%rsp), %rax
	subq	%rbx, %rax
	addq	$64, %rbx
.LBB23_233:
	cmpq	$64, %rax
	jb	.LBB23_236
	movdqu	(%r9,%rbx), %xmm2
	movdqu	16(%r9,%rbx), %xmm3
	movdqu	32(%r9,%rbx), %xmm4
	movdqu	48(%r9,%rbx), %xmm5
	pcmpeqb	%xmm0, %xmm2
	pcmpeqb	%xmm0, %xmm3
	movdqu	(%r8,%rbx), %xmm6
	movdqu	16(%r8,%rbx), %xmm7
	movdqu	32(%r8,%rbx), %xmm8
	movdqu	48(%r8,%rbx), %xmm9
	pcmpeqb	%xmm1, %xmm6
	pand	%xmm2, %xmm6
	pcmpeqb	%xmm1, %xmm7
	pand	%xmm3, %xmm7
	pcmpeqb	%xmm0, %xmm4
	pcmpeqb	%xmm0, %xmm5
	pcmpeqb	%xmm1, %xmm8
	pand	%xmm4, %xmm8
	por	%xmm6, %xmm8
	pcmpeqb	%xmm1, %xmm9
	pand	%xmm5, %xmm9
	por	%xmm7, %xmm9
	por	%xmm8, %xmm9
	pmovmskb	%xmm9, %ecx
	addq	$64, %rbx
	addq	$-64, %rax
	testl	%ecx, %ecx
	je	.LBB23_233
	addq	$-64, %rbx
	jmp	.LBB23_231
.LBB23_236:
	cmpq	$32, %rax
	jb	.LBB23_245
	movq	24(%rsp), %rax
	subq	%rbx, %rax
	.p2align	4
.LBB23_238:
	movdqu	(%r9,%rbx), %xmm2
	movdqu	16(%r9,%rbx), %xmm3
	pcmpeqb	%xmm0, %xmm2
	pcmpeqb	%xmm0, %xmm3
	movdqu	(%r8,%rbx), %xmm4
	movdqu	16(%r8,%rbx), %xmm5
	pcmpeqb	%xmm1, %xmm4
	pand	%xmm2, %xmm4
	pcmpeqb	%xmm1, %xmm5
	pand	%xmm3, %xmm5
	pmovmskb	%xmm4, %ebp
	pmovmskb	%xmm5, %ecx
	shll	$16, %ecx
	orl	%ebp, %ecx
	jne	.LBB23_247
	addq	$-32, %rax
	addq	$32, %rbx
	cmpq	$31, %rax
	ja	.LBB23_238
	jmp	.LBB23_245
.LBB23_240:
	movq	%r14, %rbx
.LBB23_241:
	cmpq	$32, %rcx
	jb	.LBB23_245
	movq	24(%rsp), %rax
	subq	%rbx, %rax
.LBB23_243:
	movdqu	(%r9,%rbx), %xmm2
	movdqu	16(%r9,%rbx), %xmm3
	pcmpeqb	%xmm0, %xmm2
	pcmpeqb	%xmm0, %xmm3
	movdqu	(%r8,%rbx), %xmm4
	movdqu	16(%r8,%rbx), %xmm5
	pcmpeqb	%xmm1, %xmm4
	pand	%xmm2, %xmm4
	pcmpeqb	%xmm1, %xmm5
	pand	%xmm3, %xmm5
	pmovmskb	%xmm4, %ebp
	pmovmskb	%xmm5, %ecx
	shll	$16, %ecx
	orl	%ebp, %ecx
	jne	.LBB23_247
	addq	$-32, %rax
	addq	$32, %rbx
	cmpq	$31, %rax
	ja	.LBB23_243
.LBB23_245:
	movq	48(%rsp), %rax
	movq	120(%rsp), %rcx
	movdqu	(%rcx,%rax), %xmm2
	movdqu	16(%rcx,%rax), %xmm3
	pcmpeqb	%xmm0, %xmm2
	pcmpeqb	%xmm0, %xmm3
	movq	56(%rsp), %rax
	movdqu	(%rcx,%rax), %xmm4
	movdqu	16(%rcx,%rax), %xmm5
	pcmpeqb	%xmm1, %xmm4
	pand	%xmm2, %xmm4
	pcmpeqb	%xmm1, %xmm5
	pand	%xmm3, %xmm5
	pmovmskb	%xmm4, %eax
	pmovmskb	%xmm5, %r15d
	shll	$16, %r15d
	orl	%eax, %r15d
	movl	%ebx, %ecx
	subl	%r11d, %ecx
	addb	$32, %cl
	shrq	%cl, %r15
	movq	%rbx, %r14
	movq	%r11, %rax
.LBB23_246:
	movq	%r14, %rbx
	movq	%rax, %r14
	testq	%r15, %r15
	jne	.LBB23_248
	jmp	.LBB23_250
.LBB23_247:
	movl	%ecx, %r15d
	leaq	32(%rbx), %r14
	.p2align	4
.LBB23_248:
	rep		bsfq	%r15, %rcx
	leaq	(%rcx,%rbx), %r12
	cmpb	%r10b, (%r9,%r12)
	je	.LBB23_255
	movq	$-2, %rax
	rolq	%cl, %rax
	andq	%rax, %r15
	jne	.LBB23_248
.LBB23_250:
	xorl	%eax, %eax
	movq	%r14, %rbx
	movl	$0, %edx
	cmpq	%r11, %r14
	jb	.LBB23_220
	jmp	.LBB23_112
.LBB23_251:
	pextrb	$15, %xmm6, %ecx
	pextrb	$1, %xmm6, %ebx
	movd	%xmm10, %ebp
	movzbl	%bpl, %ebp
	movd	%ebp, %xmm9
	pextrb	$1, %xmm10, %ebp
	movzbl	%bpl, %ebp
	pinsrb	$1, %ebp, %xmm9
	pextrb	$2, %xmm10, %ebp
	movzbl	%bpl, %ebp
	pinsrb	$2, %ebp, %xmm9
	pextrb	$3, %xmm10, %ebp
	movzbl	%bpl, %ebp
	pinsrb	$3, %ebp, %xmm9
	pextrb	$4, %xmm10, %ebp
	movzbl	%bpl, %ebp
	pinsrb	$4, %ebp, %xmm9
	pextrb	$5, %xmm10, %ebp
	movzbl	%bpl, %ebp
	pinsrb	$5, %ebp, %xmm9
	pextrb	$6, %xmm10, %ebp
	movzbl	%bpl, %ebp
	pinsrb	$6, %ebp, %xmm9
	pextrb	$7, %xmm10, %ebp
	movzbl	%bpl, %ebp
	pinsrb	$7, %ebp, %xmm9
	pextrb	$8, %xmm10, %ebp
	movzbl	%bpl, %ebp
	pinsrb	$8, %ebp, %xmm9
	pextrb	$9, %xmm10, %ebp
	movzbl	%bpl, %ebp
	pinsrb	$9, %ebp, %xmm9
	pextrb	$10, %xmm10, %ebp
	movzbl	%bpl, %ebp
	pinsrb	$10, %ebp, %xmm9
	pextrb	$11, %xmm10, %ebp
	movzbl	%bpl, %ebp
	pinsrb	$11, %ebp, %xmm9
	pextrb	$12, %xmm10, %ebp
	movzbl	%bpl, %ebp
	pinsrb	$12, %ebp, %xmm9
	pextrb	$13, %xmm10, %ebp
	movzbl	%bpl, %ebp
	pinsrb	$13, %ebp, %xmm9
	pextrb	$14, %xmm10, %ebp
	movzbl	%bpl, %ebp
	pinsrb	$14, %ebp, %xmm9
	pextrb	$15, %xmm10, %ebp
	movzbl	%bpl, %ebp
	pinsrb	$15, %ebp, %xmm9
	movd	%xmm8, %ebp
	movzbl	%bpl, %ebp
	movd	%ebp, %xmm10
	pextrb	$1, %xmm8, %ebp
	movzbl	%bpl, %ebp
	pinsrb	$1, %ebp, %xmm10
	pextrb	$2, %xmm8, %ebp
	movzbl	%bpl, %ebp
	pinsrb	$2, %ebp, %xmm10
	pextrb	$3, %xmm8, %ebp
	movzbl	%bpl, %ebp
	pinsrb	$3, %ebp, %xmm10
	pextrb	$4, %xmm8, %ebp
	movzbl	%bpl, %ebp
	pinsrb	$4, %ebp, %xmm10
	pextrb	$5, %xmm8, %ebp
	movzbl	%bpl, %ebp
	pinsrb	$5, %ebp, %xmm10
	pextrb	$6, %xmm8, %ebp
	movzbl	%bpl, %ebp
	pinsrb	$6, %ebp, %xmm10
	pextrb	$7, %xmm8, %ebp
	movzbl	%bpl, %ebp
	pinsrb	$7, %ebp, %xmm10
	pextrb	$8, %xmm8, %ebp
	movzbl	%bpl, %ebp
	pinsrb	$8, %ebp, %xmm10
	pextrb	$9, %xmm8, %ebp
	movzbl	%bpl, %ebp
	pinsrb	$9, %ebp, %xmm10
	pextrb	$10, %xmm8, %ebp
	movzbl	%bpl, %ebp
	pinsrb	$10, %ebp, %xmm10
	pextrb	$11, %xmm8, %ebp
	movzbl	%bpl, %ebp
	pinsrb	$11, %ebp, %xmm10
	pextrb	$12, %xmm8, %ebp
	movzbl	%bpl, %ebp
	pinsrb	$12, %ebp, %xmm10
	pextrb	$13, %xmm8, %ebp
	movzbl	%bpl, %ebp
	pinsrb	$13, %ebp, %xmm10
	pextrb	$14, %xmm8, %ebp
	movzbl	%bpl, %ebp
	pinsrb	$14, %ebp, %xmm10
	pextrb	$15, %xmm8, %ebp
	movzbl	%bpl, %ebp
	pinsrb	$15, %ebp, %xmm10
	movd	%xmm7, %ebp
	movzbl	%bpl, %ebp
	movd	%ebp, %xmm8
	pextrb	$1, %xmm7, %ebp
	movzbl	%bpl, %ebp
	pinsrb	$1, %ebp, %xmm8
	pextrb	$2, %xmm7, %ebp
	movzbl	%bpl, %ebp
	pinsrb	$2, %ebp, %xmm8
	pextrb	$3, %xmm7, %ebp
	movzbl	%bpl, %ebp
	pinsrb	$3, %ebp, %xmm8
	pextrb	$4, %xmm7, %ebp
	movzbl	%bpl, %ebp
	pinsrb	$4, %ebp, %xmm8
	pextrb	$5, %xmm7, %ebp
	movzbl	%bpl, %ebp
	pinsrb	$5, %ebp, %xmm8
	pextrb	$6, %xmm7, %ebp
	movzbl	%bpl, %ebp
	pinsrb	$6, %ebp, %xmm8
	pextrb	$7, %xmm7, %ebp
	movzbl	%bpl, %ebp
	pinsrb	$7, %ebp, %xmm8
	pextrb	$8, %xmm7, %ebp
	movzbl	%bpl, %ebp
	pinsrb	$8, %ebp, %xmm8
	pextrb	$9, %xmm7, %ebp
	movzbl	%bpl, %ebp
	pinsrb	$9, %ebp, %xmm8
	pextrb	$10, %xmm7, %ebp
	movzbl	%bpl, %ebp
	pinsrb	$10, %ebp, %xmm8
	pextrb	$11, %xmm7, %ebp
	movzbl	%bpl, %ebp
	pinsrb	$11, %ebp, %xmm8
	pextrb	$12, %xmm7, %ebp
	movzbl	%bpl, %ebp
	pinsrb	$12, %ebp, %xmm8
	pextrb	$13, %xmm7, %ebp
	movzbl	%bpl, %ebp
	pinsrb	$13, %ebp, %xmm8
	pextrb	$14, %xmm7, %ebp
	movzbl	%bpl, %ebp
	pinsrb	$14, %ebp, %xmm8
	pextrb	$15, %xmm7, %ebp
	movzbl	%bpl, %ebp
	pinsrb	$15, %ebp, %xmm8
	movd	%xmm6, %ebp
	movzbl	%bpl, %ebp
	movd	%ebp, %xmm7
	movzbl	%bl, %ebx
	pinsrb	$1, %ebx, %xmm7
	pextrb	$2, %xmm6, %ebx
	movzbl	%bl, %ebx
	pinsrb	$2, %ebx, %xmm7
	pextrb	$3, %xmm6, %ebx
	movzbl	%bl, %ebx
	pinsrb	$3, %ebx, %xmm7
	pextrb	$4, %xmm6, %ebx
	movzbl	%bl, %ebx
	pinsrb	$4, %ebx, %xmm7
	pextrb	$5, %xmm6, %ebx
	movzbl	%bl, %ebx
	pinsrb	$5, %ebx, %xmm7
	pextrb	$6, %xmm6, %ebx
	movzbl	%bl, %ebx
	pinsrb	$6, %ebx, %xmm7
	pextrb	$7, %xmm6, %ebx
	movzbl	%bl, %ebx
	pinsrb	$7, %ebx, %xmm7
	pextrb	$8, %xmm6, %ebx
	movzbl	%bl, %ebx
	pinsrb	$8, %ebx, %xmm7
	pextrb	$9, %xmm6, %ebx
	movzbl	%bl, %ebx
	pinsrb	$9, %ebx, %xmm7
	pextrb	$10, %xmm6, %ebx
	movzbl	%bl, %ebx
	pinsrb	$10, %ebx, %xmm7
	pextrb	$11, %xmm6, %ebx
	movzbl	%bl, %ebx
	pinsrb	$11, %ebx, %xmm7
	pextrb	$12, %xmm6, %ebx
	movzbl	%bl, %ebx
	pinsrb	$12, %ebx, %xmm7
	pextrb	$13, %xmm6, %ebx
	movzbl	%bl, %ebx
	pinsrb	$13, %ebx, %xmm7
	pextrb	$14, %xmm6, %ebx
	psllw	$7, %xmm9
	psllw	$7, %xmm10
	movzbl	%bl, %ebx
	pinsrb	$14, %ebx, %xmm7
	psllw	$7, %xmm8
	movzbl	%cl, %ecx
	pinsrb	$15, %ecx, %xmm7
	pmovmskb	%xmm8, %ecx
	psllw	$7, %xmm7
	pmovmskb	%xmm7, %ebx
	shll	$16, %ebx
	orl	%ecx, %ebx
	pmovmskb	%xmm10, %ecx
	shlq	$32, %rcx
	orq	%rbx, %rcx
	pmovmskb	%xmm9, %r15d
	shlq	$48, %r15
	orq	%rcx, %r15
	leaq	-64(%rax), %r14
	je	.LBB23_253
	addq	$-128, %rax
	movq	%rax, %rbx
	jmp	.LBB23_248
.LBB23_253:
	pextrb	$15, %xmm2, %ecx
	movd	%xmm5, %ebx
	movzbl	%bl, %ebx
	movd	%ebx, %xmm6
	pextrb	$1, %xmm5, %ebx
	movzbl	%bl, %ebx
	pinsrb	$1, %ebx, %xmm6
	pextrb	$2, %xmm5, %ebx
	movzbl	%bl, %ebx
	pinsrb	$2, %ebx, %xmm6
	pextrb	$3, %xmm5, %ebx
	movzbl	%bl, %ebx
	pinsrb	$3, %ebx, %xmm6
	pextrb	$4, %xmm5, %ebx
	movzbl	%bl, %ebx
	pinsrb	$4, %ebx, %xmm6
	pextrb	$5, %xmm5, %ebx
	movzbl	%bl, %ebx
	pinsrb	$5, %ebx, %xmm6
	pextrb	$6, %xmm5, %ebx
	movzbl	%bl, %ebx
	pinsrb	$6, %ebx, %xmm6
	pextrb	$7, %xmm5, %ebx
	movzbl	%bl, %ebx
	pinsrb	$7, %ebx, %xmm6
	pextrb	$8, %xmm5, %ebx
	movzbl	%bl, %ebx
	pinsrb	$8, %ebx, %xmm6
	pextrb	$9, %xmm5, %ebx
	movzbl	%bl, %ebx
	pinsrb	$9, %ebx, %xmm6
	pextrb	$10, %xmm5, %ebx
	movzbl	%bl, %ebx
	pinsrb	$10, %ebx, %xmm6
	pextrb	$11, %xmm5, %ebx
	movzbl	%bl, %ebx
	pinsrb	$11, %ebx, %xmm6
	pextrb	$12, %xmm5, %ebx
	movzbl	%bl, %ebx
	pinsrb	$12, %ebx, %xmm6
	pextrb	$13, %xmm5, %ebx
	movzbl	%bl, %ebx
	pinsrb	$13, %ebx, %xmm6
	pextrb	$14, %xmm5, %ebx
	movzbl	%bl, %ebx
	pinsrb	$14, %ebx, %xmm6
	pextrb	$15, %xmm5, %ebx
	movzbl	%bl, %ebx
	pinsrb	$15, %ebx, %xmm6
	movd	%xmm4, %ebx
	movzbl	%bl, %ebx
	movd	%ebx, %xmm5
	pextrb	$1, %xmm4, %ebx
	movzbl	%bl, %ebx
	pinsrb	$1, %ebx, %xmm5
	pextrb	$2, %xmm4, %ebx
	movzbl	%bl, %ebx
	pinsrb	$2, %ebx, %xmm5
	pextrb	$3, %xmm4, %ebx
	movzbl	%bl, %ebx
	pinsrb	$3, %ebx, %xmm5
	pextrb	$4, %xmm4, %ebx
	movzbl	%bl, %ebx
	pinsrb	$4, %ebx, %xmm5
	pextrb	$5, %xmm4, %ebx
	movzbl	%bl, %ebx
	pinsrb	$5, %ebx, %xmm5
	pextrb	$6, %xmm4, %ebx
	movzbl	%bl, %ebx
	pinsrb	$6, %ebx, %xmm5
	pextrb	$7, %xmm4, %ebx
	movzbl	%bl, %ebx
	pinsrb	$7, %ebx, %xmm5
	pextrb	$8, %xmm4, %ebx
	movzbl	%bl, %ebx
	pinsrb	$8, %ebx, %xmm5
	pextrb	$9, %xmm4, %ebx
	movzbl	%bl, %ebx
	pinsrb	$9, %ebx, %xmm5
	pextrb	$10, %xmm4, %ebx
	movzbl	%bl, %ebx
	pinsrb	$10, %ebx, %xmm5
	pextrb	$11, %xmm4, %ebx
	movzbl	%bl, %ebx
	pinsrb	$11, %ebx, %xmm5
	pextrb	$12, %xmm4, %ebx
	movzbl	%bl, %ebx
	pinsrb	$12, %ebx, %xmm5
	pextrb	$13, %xmm4, %ebx
	movzbl	%bl, %ebx
	pinsrb	$13, %ebx, %xmm5
	pextrb	$14, %xmm4, %ebx
	movzbl	%bl, %ebx
	pinsrb	$14, %ebx, %xmm5
	pextrb	$15, %xmm4, %ebx
	movzbl	%bl, %ebx
	pinsrb	$15, %ebx, %xmm5
	movd	%xmm3, %ebx
	movzbl	%bl, %ebx
	movd	%ebx, %xmm4
	pextrb	$1, %xmm3, %ebx
	movzbl	%bl, %ebx
	pinsrb	$1, %ebx, %xmm4
	pextrb	$2, %xmm3, %ebx
	movzbl	%bl, %ebx
	pinsrb	$2, %ebx, %xmm4
	pextrb	$3, %xmm3, %ebx
	movzbl	%bl, %ebx
	pinsrb	$3, %ebx, %xmm4
	pextrb	$4, %xmm3, %ebx
	movzbl	%bl, %ebx
	pinsrb	$4, %ebx, %xmm4
	pextrb	$5, %xmm3, %ebx
	movzbl	%bl, %ebx
	pinsrb	$5, %ebx, %xmm4
	pextrb	$6, %xmm3, %ebx
	movzbl	%bl, %ebx
	pinsrb	$6, %ebx, %xmm4
	pextrb	$7, %xmm3, %ebx
	movzbl	%bl, %ebx
	pinsrb	$7, %ebx, %xmm4
	pextrb	$8, %xmm3, %ebx
	movzbl	%bl, %ebx
	pinsrb	$8, %ebx, %xmm4
	pextrb	$9, %xmm3, %ebx
	movzbl	%bl, %ebx
	pinsrb	$9, %ebx, %xmm4
	pextrb	$10, %xmm3, %ebx
	movzbl	%bl, %ebx
	pinsrb	$10, %ebx, %xmm4
	pextrb	$11, %xmm3, %ebx
	movzbl	%bl, %ebx
	pinsrb	$11, %ebx, %xmm4
	pextrb	$12, %xmm3, %ebx
	movzbl	%bl, %ebx
	pinsrb	$12, %ebx, %xmm4
	pextrb	$13, %xmm3, %ebx
	movzbl	%bl, %ebx
	pinsrb	$13, %ebx, %xmm4
	pextrb	$14, %xmm3, %ebx
	movzbl	%bl, %ebx
	pinsrb	$14, %ebx, %xmm4
	pextrb	$15, %xmm3, %ebx
	movzbl	%bl, %ebx
	pinsrb	$15, %ebx, %xmm4
	movd	%xmm2, %ebx
	movzbl	%bl, %ebx
	movd	%ebx, %xmm3
	pextrb	$1, %xmm2, %ebx
	movzbl	%bl, %ebx
	pinsrb	$1, %ebx, %xmm3
	pextrb	$2, %xmm2, %ebx
	movzbl	%bl, %ebx
	pinsrb	$2, %ebx, %xmm3
	pextrb	$3, %xmm2, %ebx
	movzbl	%bl, %ebx
	pinsrb	$3, %ebx, %xmm3
	pextrb	$4, %xmm2, %ebx
	movzbl	%bl, %ebx
	pinsrb	$4, %ebx, %xmm3
	pextrb	$5, %xmm2, %ebx
	movzbl	%bl, %ebx
	pinsrb	$5, %ebx, %xmm3
	pextrb	$6, %xmm2, %ebx
	movzbl	%bl, %ebx
	pinsrb	$6, %ebx, %xmm3
	pextrb	$7, %xmm2, %ebx
	movzbl	%bl, %ebx
	pinsrb	$7, %ebx, %xmm3
	pextrb	$8, %xmm2, %ebx
	movzbl	%bl, %ebx
	pinsrb	$8, %ebx, %xmm3
	pextrb	$9, %xmm2, %ebx
	movzbl	%bl, %ebx
	pinsrb	$9, %ebx, %xmm3
	pextrb	$10, %xmm2, %ebx
	movzbl	%bl, %ebx
	pinsrb	$10, %ebx, %xmm3
	pextrb	$11, %xmm2, %ebx
	movzbl	%bl, %ebx
	pinsrb	$11, %ebx, %xmm3
	pextrb	$12, %xmm2, %ebx
	movzbl	%bl, %ebx
	pinsrb	$12, %ebx, %xmm3
	pextrb	$13, %xmm2, %ebx
	movzbl	%bl, %ebx
	pinsrb	$13, %ebx, %xmm3
	pextrb	$14, %xmm2, %ebx
	psllw	$7, %xmm6
	psllw	$7, %xmm5
	psllw	$7, %xmm4
	movzbl	%bl, %ebx
	pinsrb	$14, %ebx, %xmm3
	pmovmskb	%xmm4, %ebx
	movzbl	%cl, %ecx
	pinsrb	$15, %ecx, %xmm3
	psllw	$7, %xmm3
	pmovmskb	%xmm3, %ecx
	shll	$16, %ecx
	orl	%ebx, %ecx
	pmovmskb	%xmm5, %ebx
	shlq	$32, %rbx
	orq	%rcx, %rbx
	pmovmskb	%xmm6, %r15d
	shlq	$48, %r15
	orq	%rbx, %r15
	jmp	.LBB23_246
.LBB23_254:
	leaq	64(%rbx), %r14
	jmp	.LBB23_248
.LBB23_255:
	movq	%r12, %rax
	subq	%rsi, %rax
	movl	40(%rsp), %esi
	incl	%esi
	movl	$-1, %ecx
	movl	%esi, %ebx
	cmovel	%ecx, %ebx
	movq	%rax, %rcx
	shrq	$32, %rcx
	je	.LBB23_257
	movl	$-1, 80(%rsp)
	jmp	.LBB23_258
.LBB23_257:
	addl	80(%rsp), %eax
	movl	$-1, %ecx
	cmovael	%eax, %ecx
	movl	%ecx, 80(%rsp)
.LBB23_258:
	movl	%ebx, 40(%rsp)
	movq	32(%rsp), %r15
.LBB23_259:
	movq	16(%rsp), %rcx
	leaq	(%r12,%rcx), %rsi
	movq	8(%rsp), %rax
	movzbl	-1(%rax,%rsi), %eax
	movq	192(%rsp), %r14
	btq	%rax, %r14
	jae	.LBB23_207
	cmpq	160(%rsp), %rcx
	movq	144(%rsp), %r14
	jbe	.LBB23_264
	movq	136(%rsp), %rax
	leaq	(%rax,%r12), %rcx
	xorl	%eax, %eax
	.p2align	4
.LBB23_262:
	movq	96(%rsp), %rsi
	movzbl	(%rsi,%rax), %esi
	cmpb	(%rcx,%rax), %sil
	jne	.LBB23_205
	incq	%rax
	cmpq	%rax, %r14
	jne	.LBB23_262
.LBB23_264:
	movq	72(%rsp), %rax
	addq	%r12, %rax
	movq	160(%rsp), %rsi
	movq	%rsi, %rcx
	.p2align	4
.LBB23_265:
	subq	$1, %rcx
	jb	.LBB23_30
	movzbl	-1(%r15,%rsi), %ebp
	cmpb	(%rax,%rsi), %bpl
	movq	%rcx, %rsi
	je	.LBB23_265
	addq	152(%rsp), %r12
	movq	%r12, %rsi
	jmp	.LBB23_206
.LBB23_205:
	leaq	(%r12,%rax), %rsi
	incq	%rsi
.LBB23_206:
	movq	16(%rsp), %rcx
.LBB23_207:
	leaq	(%rsi,%rcx), %r14
	xorl	%eax, %eax
	movl	$0, %edx
	cmpq	88(%rsp), %r14
	jbe	.LBB23_208
	jmp	.LBB23_112
.LBB23_11:
	movdqu	40(%rdi), %xmm15
	movdqu	56(%rdi), %xmm2
	movq	72(%rdi), %rbx
	incq	%r11
	cmpq	$32, %r11
	movdqa	%xmm2, 192(%rsp)
	movq	%rbx, 40(%rsp)
	jae	.LBB23_34
	testq	%r11, %r11
	movq	32(%rsp), %r15
	je	.LBB23_1
	movq	$-1, %rbx
	movq	40(%rsp), %rcx
	shlq	%cl, %rbx
	notq	%rbx
	movq	24(%rsp), %rdx
	notq	%rdx
	addq	%r10, %rdx
	addq	%r13, %rdx
	movq	%rdx, %r8
	xorl	%r12d, %r12d
	movdqa	%xmm15, 176(%rsp)
	jmp	.LBB23_16
	.p2align	4
.LBB23_14:
	movq	8(%rsp), %rax
	movdqu	(%rax), %xmm0
	movdqu	16(%rax), %xmm1
	pcmpeqb	%xmm15, %xmm0
	pmovmskb	%xmm0, %eax
	xorl	$65535, %eax
	pcmpeqb	%xmm2, %xmm1
	pmovmskb	%xmm1, %edx
	notl	%edx
	shll	$16, %edx
	orl	%eax, %edx
	testl	%ebx, %edx
	je	.LBB23_29
.LBB23_15:
	decq	%r12
	incq	8(%rsp)
	xorl	%eax, %eax
	movl	$0, %edx
	cmpq	%r12, %r8
	je	.LBB23_112
.LBB23_16:
	cmpq	$33, %rcx
	setae	%dl
	leaq	(%r14,%r12), %rax
	cmpq	$32, %rax
	setb	%sil
	orb	%dl, %sil
	je	.LBB23_14
	movq	16(%rsp), %rsi
	cmpq	%rax, %rsi
	ja	.LBB23_15
	cmpq	$4, %rsi
	jae	.LBB23_25
	testq	%rsi, %rsi
	je	.LBB23_29
	movq	8(%rsp), %rax
	movzbl	(%rax), %eax
	cmpb	(%r15), %al
	jne	.LBB23_27
	cmpq	$1, %rsi
	je	.LBB23_29
	movq	8(%rsp), %rax
	movzbl	1(%rax), %edx
	movl	$1, %eax
	cmpb	1(%r15), %dl
	jne	.LBB23_28
	cmpq	$2, %rsi
	je	.LBB23_29
	movq	8(%rsp), %rax
	movzbl	2(%rax), %edx
	movl	$2, %eax
	cmpb	2(%r15), %dl
	jne	.LBB23_28
	jmp	.LBB23_29
.LBB23_25:
	movq	8(%rsp), %rax
	movl	(%rax), %eax
	cmpl	(%r15), %eax
	jne	.LBB23_15
	movq	8(%rsp), %rdi
	movq	%r8, %r14
	movq	%r15, %rdx
	callq	"core::cmp::slices::groups_equal::<i8,31'core::cmp::numbers::U8PartialEq{}>"
	movq	40(%rsp), %rcx
	movdqa	192(%rsp), %xmm2
	movdqa	176(%rsp), %xmm15
	movq	%r14, %r8
	movq	88(%rsp), %r14
	testb	%al, %al
	je	.LBB23_15
	jmp	.LBB23_29
.LBB23_27:
	xorl	%eax, %eax
.LBB23_28:
	cmpq	%rsi, %rax
	jb	.LBB23_15
.LBB23_29:
	negq	%r12
.LBB23_30:
	movq	64(%rsp), %r13
	jmp	.LBB23_111
.LBB23_31:
	testq	%r10, %r10
	je	.LBB23_110
	movq	40(%rdi), %rax
	movq	%rax, 24(%rsp)
	movq	48(%rdi), %r8
	movq	64(%rdi), %rax
	incq	%r11
	movq	%r11, %r9
	cmpb	$0, 56(%rdi)
	je	.LBB23_178
	movq	%rax, 96(%rsp)
	movq	%r10, %rdi
	subq	%r8, %rdi
	leaq	(%rsi,%r13), %r10
	addq	%r8, %r10
	movq	32(%rsp), %r15
	leaq	(%r15,%r8), %r11
	addq	%r13, %rsi
	decq	%rsi
	xorl	%ebx, %ebx
	jmp	.LBB23_195
.LBB23_110:
	xorl	%r12d, %r12d
.LBB23_111:
	addq	%r13, %r12
	movb	$1, %al
	movq	%r12, %rdx
.LBB23_112:
	addq	$216, %rsp
	.cfi_def_cfa_offset 56
	popq	%rbx
	.cfi_def_cfa_offset 48
	popq	%r12
	.cfi_def_cfa_offset 40
	popq	%r13
	.cfi_def_cfa_offset 32
	popq	%r14
	.cfi_def_cfa_offset 24
	popq	%r15
	.cfi_def_cfa_offset 16
	popq	%rbp
	.cfi_def_cfa_offset 8
	retq
.LBB23_34:
	.cfi_def_cfa_offset 272
	movq	%r11, 56(%rsp)
	movzbl	34(%rdi), %eax
	movzbl	33(%rdi), %edi
	leaq	(%rsi,%r13), %r8
	leaq	(%r8,%rdi), %r12
	leaq	(%r8,%rax), %r15
	movq	32(%rsp), %r9
	movzbl	(%r9,%rdi), %ecx
	movd	%ecx, %xmm14
	pxor	%xmm0, %xmm0
	pshufb	%xmm0, %xmm14
	movzbl	(%r9,%rax), %ecx
	movd	%ecx, %xmm13
	pshufb	%xmm0, %xmm13
	movq	$-1, %rdx
	movl	%ebx, %ecx
	shlq	%cl, %rdx
	leaq	-1(%r10), %rcx
	movq	%rcx, 128(%rsp)
	leaq	(%r8,%r10), %rcx
	decq	%rcx
	movq	%rcx, 72(%rsp)
	notq	%rdx
	movq	%rdx, 48(%rsp)
	addq	%r13, %rax
	addq	%rsi, %rax
	addq	$32, %rax
	movq	%rax, 144(%rsp)
	addq	%r13, %rdi
	addq	%rsi, %rdi
	addq	$32, %rdi
	movq	24(%rsp), %rax
	subq	%r10, %rax
	subq	%r13, %rax
	leaq	-63(%rax), %rcx
	movq	%rcx, 136(%rsp)
	incq	%rax
	movq	%rax, 24(%rsp)
	xorl	%ebp, %ebp
	movq	%rbx, %r11
	movdqa	%xmm14, 160(%rsp)
	movdqa	%xmm13, 96(%rsp)
	movdqa	%xmm15, 176(%rsp)
	movq	%r12, 120(%rsp)
	movq	%r15, 80(%rsp)
	movq	%rdi, 152(%rsp)
.LBB23_35:
	movq	56(%rsp), %r10
	movq	%r10, %rax
	subq	%rbp, %rax
	cmpq	$64, %rax
	jb	.LBB23_39
	movq	64(%rsp), %r13
	movq	16(%rsp), %rsi
	movq	144(%rsp), %rdx
	.p2align	4
.LBB23_37:
	movdqu	-32(%rdi,%rbp), %xmm8
	movdqu	-16(%rdi,%rbp), %xmm9
	movdqu	(%rdi,%rbp), %xmm3
	movdqu	16(%rdi,%rbp), %xmm5
	movdqa	%xmm8, %xmm0
	pcmpeqb	%xmm14, %xmm0
	movdqa	%xmm9, %xmm1
	pcmpeqb	%xmm14, %xmm1
	movdqu	-32(%rdx,%rbp), %xmm6
	movdqu	-16(%rdx,%rbp), %xmm7
	movdqu	(%rdx,%rbp), %xmm2
	movdqu	16(%rdx,%rbp), %xmm4
	movdqa	%xmm6, %xmm10
	pcmpeqb	%xmm13, %xmm10
	pand	%xmm0, %xmm10
	movdqa	%xmm7, %xmm0
	pcmpeqb	%xmm13, %xmm0
	pand	%xmm1, %xmm0
	movdqa	%xmm3, %xmm1
	pcmpeqb	%xmm14, %xmm1
	movdqa	%xmm5, %xmm11
	pcmpeqb	%xmm14, %xmm11
	movdqa	%xmm2, %xmm12
	pcmpeqb	%xmm13, %xmm12
	pand	%xmm1, %xmm12
	por	%xmm10, %xmm12
	movdqa	%xmm4, %xmm1
	pcmpeqb	%xmm13, %xmm1
	pand	%xmm11, %xmm1
	por	%xmm0, %xmm1
	por	%xmm12, %xmm1
	pmovmskb	%xmm1, %ecx
	testl	%ecx, %ecx
	jne	.LBB23_40
	addq	$64, %rbp
	addq	$-64, %rax
	cmpq	$63, %rax
	ja	.LBB23_37
	jmp	.LBB23_48
.LBB23_39:
	movq	64(%rsp), %r13
	movq	16(%rsp), %rsi
	jmp	.LBB23_48
.LBB23_40:
	cmpq	$64, %rax
	jb	.LBB23_48
	movzbl	(%r9), %eax
	movd	%eax, %xmm0
	pxor	%xmm10, %xmm10
	pshufb	%xmm10, %xmm0
	movq	128(%rsp), %rax
	movzbl	(%r9,%rax), %eax
	movd	%eax, %xmm1
	pshufb	%xmm10, %xmm1
	movq	%rbp, %rbx
	movq	48(%rsp), %rdx
.LBB23_42:
	pcmpeqb	%xmm14, %xmm9
	pcmpeqb	%xmm14, %xmm8
	pcmpeqb	%xmm13, %xmm7
	pand	%xmm9, %xmm7
	pcmpeqb	%xmm13, %xmm6
	pand	%xmm8, %xmm6
	movq	8(%rsp), %rax
	movdqu	16(%rax,%rbx), %xmm9
	pcmpeqb	%xmm0, %xmm9
	movq	72(%rsp), %rcx
	movdqu	16(%rcx,%rbx), %xmm8
	pcmpeqb	%xmm1, %xmm8
	pand	%xmm9, %xmm8
	movdqu	(%rax,%rbx), %xmm9
	pcmpeqb	%xmm0, %xmm9
	pand	%xmm7, %xmm8
	movdqu	(%rcx,%rbx), %xmm7
	pcmpeqb	%xmm1, %xmm7
	pand	%xmm9, %xmm7
	pand	%xmm6, %xmm7
	pcmpeqb	%xmm14, %xmm5
	pcmpeqb	%xmm13, %xmm4
	pand	%xmm5, %xmm4
	movdqu	48(%rax,%rbx), %xmm5
	pcmpeqb	%xmm14, %xmm3
	pcmpeqb	%xmm13, %xmm2
	pand	%xmm3, %xmm2
	movdqu	48(%rcx,%rbx), %xmm3
	pcmpeqb	%xmm0, %xmm5
	pcmpeqb	%xmm1, %xmm3
	pand	%xmm5, %xmm3
	movdqu	32(%rax,%rbx), %xmm5
	pand	%xmm4, %xmm3
	movdqu	32(%rcx,%rbx), %xmm4
	pcmpeqb	%xmm0, %xmm5
	pcmpeqb	%xmm1, %xmm4
	pand	%xmm5, %xmm4
	pand	%xmm2, %xmm4
	pmovmskb	%xmm7, %eax
	pmovmskb	%xmm8, %ecx
	pmovmskb	%xmm4, %edi
	pmovmskb	%xmm3, %r15d
	shll	$16, %ecx
	orl	%eax, %ecx
	shlq	$32, %rdi
	orq	%rcx, %rdi
	shlq	$48, %r15
	orq	%rdi, %r15
	jne	.LBB23_73
	movq	136(%rsp), %rax
	subq	%rbx, %rax
	addq	$64, %rbx
	movq	80(%rsp), %r15
	.p2align	4
.LBB23_44:
	cmpq	$64, %rax
	jb	.LBB23_47
	movdqu	(%r12,%rbx), %xmm8
	movdqu	16(%r12,%rbx), %xmm9
	movdqu	32(%r12,%rbx), %xmm3
	movdqu	48(%r12,%rbx), %xmm5
	movdqa	%xmm8, %xmm10
	pcmpeqb	%xmm14, %xmm10
	movdqa	%xmm9, %xmm11
	pcmpeqb	%xmm14, %xmm11
	movdqu	(%r15,%rbx), %xmm6
	movdqu	16(%r15,%rbx), %xmm7
	movdqu	32(%r15,%rbx), %xmm2
	movdqu	48(%r15,%rbx), %xmm4
	movdqa	%xmm6, %xmm12
	pcmpeqb	%xmm13, %xmm12
	pand	%xmm10, %xmm12
	movdqa	%xmm7, %xmm10
	pcmpeqb	%xmm13, %xmm10
	pand	%xmm11, %xmm10
	movdqa	%xmm3, %xmm11
	pcmpeqb	%xmm14, %xmm11
	movdqa	%xmm5, %xmm13
	pcmpeqb	%xmm14, %xmm13
	movdqa	%xmm2, %xmm14
	pcmpeqb	96(%rsp), %xmm14
	pand	%xmm11, %xmm14
	por	%xmm12, %xmm14
	movdqa	%xmm4, %xmm11
	pcmpeqb	96(%rsp), %xmm11
	pand	%xmm13, %xmm11
	movdqa	96(%rsp), %xmm13
	por	%xmm10, %xmm11
	por	%xmm14, %xmm11
	movdqa	160(%rsp), %xmm14
	pmovmskb	%xmm11, %ecx
	addq	$64, %rbx
	addq	$-64, %rax
	testl	%ecx, %ecx
	je	.LBB23_44
	addq	$-64, %rbx
	jmp	.LBB23_42
.LBB23_47:
	movq	%rbx, %rbp
.LBB23_48:
	cmpq	$32, %rax
	jb	.LBB23_52
	movq	24(%rsp), %rax
	subq	%rbp, %rax
	movq	%rbp, %rbx
	movq	48(%rsp), %rdx
	.p2align	4
.LBB23_50:
	movdqu	(%r12,%rbx), %xmm0
	movdqu	16(%r12,%rbx), %xmm1
	pcmpeqb	%xmm14, %xmm0
	pcmpeqb	%xmm14, %xmm1
	movdqu	(%r15,%rbx), %xmm2
	movdqu	16(%r15,%rbx), %xmm3
	pcmpeqb	%xmm13, %xmm2
	pand	%xmm0, %xmm2
	pcmpeqb	%xmm13, %xmm3
	pand	%xmm1, %xmm3
	pmovmskb	%xmm2, %edi
	pmovmskb	%xmm3, %ecx
	shll	$16, %ecx
	orl	%edi, %ecx
	jne	.LBB23_54
	addq	$-32, %rax
	addq	$32, %rbx
	cmpq	$31, %rax
	ja	.LBB23_50
	jmp	.LBB23_53
.LBB23_52:
	movq	%rbp, %rbx
	movq	48(%rsp), %rdx
.LBB23_53:
	movdqu	-32(%r12,%r10), %xmm0
	movdqu	-16(%r12,%r10), %xmm1
	pcmpeqb	%xmm14, %xmm0
	pcmpeqb	%xmm14, %xmm1
	movdqu	-32(%r15,%r10), %xmm2
	movdqu	-16(%r15,%r10), %xmm3
	pcmpeqb	%xmm13, %xmm2
	pand	%xmm0, %xmm2
	pcmpeqb	%xmm13, %xmm3
	pand	%xmm1, %xmm3
	pmovmskb	%xmm2, %eax
	pmovmskb	%xmm3, %r15d
	shll	$16, %r15d
	orl	%eax, %r15d
	movl	%ebx, %ecx
	subl	%r10d, %ecx
	addb	$32, %cl
	shrq	%cl, %r15
	movq	%r10, %rbp
	testq	%r15, %r15
	jne	.LBB23_55
	jmp	.LBB23_1
.LBB23_54:
	movl	%ecx, %r15d
	leaq	32(%rbx), %rbp
.LBB23_55:
	movdqa	192(%rsp), %xmm2
	jmp	.LBB23_58
	.p2align	4
.LBB23_56:
	movq	8(%rsp), %rax
	movdqu	(%rax,%r12), %xmm0
	movdqu	16(%rax,%r12), %xmm1
	pcmpeqb	%xmm15, %xmm0
	pmovmskb	%xmm0, %eax
	xorl	$65535, %eax
	pcmpeqb	%xmm2, %xmm1
	pmovmskb	%xmm1, %edi
	notl	%edi
	shll	$16, %edi
	orl	%eax, %edi
	testl	%edx, %edi
	je	.LBB23_111
.LBB23_57:
	movq	$-2, %rax
	rolq	%cl, %rax
	andq	%rax, %r15
	je	.LBB23_72
.LBB23_58:
	rep		bsfq	%r15, %rcx
	leaq	(%rcx,%rbx), %r12
	movq	%r14, %rax
	subq	%r12, %rax
	cmpq	$32, %r11
	ja	.LBB23_60
	cmpq	$32, %rax
	jae	.LBB23_56
.LBB23_60:
	cmpq	%rax, %rsi
	ja	.LBB23_57
	movq	8(%rsp), %rax
	leaq	(%rax,%r12), %rdi
	cmpq	$4, %rsi
	jae	.LBB23_69
	testq	%rsi, %rsi
	je	.LBB23_111
	movzbl	(%rdi), %eax
	movq	32(%rsp), %r8
	cmpb	(%r8), %al
	jne	.LBB23_71
	cmpq	$1, %rsi
	je	.LBB23_111
	movzbl	1(%rdi), %r8d
	movl	$1, %eax
	movq	32(%rsp), %r9
	cmpb	1(%r9), %r8b
	jne	.LBB23_68
	cmpq	$2, %rsi
	je	.LBB23_111
	movzbl	2(%rdi), %edi
	movl	$2, %eax
	movq	32(%rsp), %r8
	cmpb	2(%r8), %dil
	je	.LBB23_111
.LBB23_68:
	cmpq	%rsi, %rax
	jb	.LBB23_57
	jmp	.LBB23_111
.LBB23_69:
	movl	(%rdi), %eax
	movq	32(%rsp), %r8
	cmpl	(%r8), %eax
	jne	.LBB23_57
	movq	32(%rsp), %rdx
	movq	%rcx, %r13
	callq	"core::cmp::slices::groups_equal::<i8,31'core::cmp::numbers::U8PartialEq{}>"
	movq	48(%rsp), %rdx
	movdqa	96(%rsp), %xmm13
	movdqa	160(%rsp), %xmm14
	movq	40(%rsp), %r11
	movdqa	192(%rsp), %xmm2
	movdqa	176(%rsp), %xmm15
	movq	56(%rsp), %r10
	movq	16(%rsp), %rsi
	movq	%r13, %rcx
	movq	64(%rsp), %r13
	movq	88(%rsp), %r14
	testb	%al, %al
	je	.LBB23_57
	jmp	.LBB23_111
.LBB23_71:
	xorl	%eax, %eax
	cmpq	%rsi, %rax
	jb	.LBB23_57
	jmp	.LBB23_111
.LBB23_72:
	xorl	%eax, %eax
	movl	$0, %edx
	cmpq	%r10, %rbp
	movq	32(%rsp), %r9
	movq	120(%rsp), %r12
	movq	80(%rsp), %r15
	movq	152(%rsp), %rdi
	jb	.LBB23_35
	jmp	.LBB23_112
.LBB23_73:
	leaq	64(%rbx), %rbp
	jmp	.LBB23_55
.LBB23_74:
	movzbl	%dil, %eax
	movd	%eax, %xmm0
	pxor	%xmm1, %xmm1
	pshufb	%xmm1, %xmm0
	leaq	(%rsi,%r13), %r8
	addq	$32, %r8
	movq	24(%rsp), %r9
	subq	%r13, %r9
	leaq	-64(%r9), %r10
	xorl	%r11d, %r11d
.LBB23_75:
	movq	%r14, %rax
	subq	%r11, %rax
	cmpq	$191, %rax
	jbe	.LBB23_86
	movq	8(%rsp), %rax
	movdqu	(%rax,%r11), %xmm1
	movdqu	16(%rax,%r11), %xmm2
	movdqu	32(%rax,%r11), %xmm3
	movdqu	48(%rax,%r11), %xmm4
	pcmpeqb	%xmm0, %xmm4
	pcmpeqb	%xmm0, %xmm3
	pcmpeqb	%xmm0, %xmm1
	pmovmskb	%xmm1, %eax
	pcmpeqb	%xmm0, %xmm2
	pmovmskb	%xmm2, %ecx
	shll	$16, %ecx
	orl	%eax, %ecx
	pmovmskb	%xmm3, %r14d
	shlq	$32, %r14
	orq	%rcx, %r14
	pmovmskb	%xmm4, %eax
	shlq	$48, %rax
	leaq	64(%r11), %rbx
	orq	%r14, %rax
	movq	64(%rsp), %r13
	jne	.LBB23_102
	movq	88(%rsp), %r14
	movq	%r14, %rax
	subq	%rbx, %rax
	cmpq	$128, %rax
	jb	.LBB23_82
	subq	$-128, %r11
	movq	%r11, %rbx
.LBB23_79:
	movq	8(%rsp), %rcx
	movdqu	-64(%rcx,%rbx), %xmm8
	movdqu	-48(%rcx,%rbx), %xmm7
	movdqu	-32(%rcx,%rbx), %xmm6
	movdqu	-16(%rcx,%rbx), %xmm3
	pcmpeqb	%xmm0, %xmm7
	pcmpeqb	%xmm0, %xmm8
	pcmpeqb	%xmm0, %xmm6
	pcmpeqb	%xmm0, %xmm3
	movdqu	(%rcx,%rbx), %xmm5
	movdqu	16(%rcx,%rbx), %xmm4
	pcmpeqb	%xmm0, %xmm4
	pcmpeqb	%xmm0, %xmm5
	movdqu	32(%rcx,%rbx), %xmm2
	movdqu	48(%rcx,%rbx), %xmm1
	pcmpeqb	%xmm0, %xmm1
	pcmpeqb	%xmm0, %xmm2
	movdqa	%xmm5, %xmm9
	por	%xmm2, %xmm9
	movdqa	%xmm4, %xmm10
	por	%xmm1, %xmm10
	movdqa	%xmm8, %xmm11
	por	%xmm6, %xmm11
	por	%xmm9, %xmm11
	movdqa	%xmm7, %xmm9
	por	%xmm3, %xmm9
	por	%xmm10, %xmm9
	por	%xmm11, %xmm9
	pmovmskb	%xmm9, %ecx
	testl	%ecx, %ecx
	jne	.LBB23_105
	subq	$-128, %rbx
	addq	$-128, %rax
	cmpq	$127, %rax
	ja	.LBB23_79
	addq	$-64, %rbx
.LBB23_82:
	movq	%rbx, %r11
	cmpq	$32, %rax
	jb	.LBB23_99
	movq	%r9, %rax
	subq	%r11, %rax
.LBB23_84:
	movq	8(%rsp), %rcx
	movdqu	(%rcx,%r11), %xmm1
	movdqu	16(%rcx,%r11), %xmm2
	pcmpeqb	%xmm0, %xmm1
	pmovmskb	%xmm1, %ebx
	pcmpeqb	%xmm0, %xmm2
	pmovmskb	%xmm2, %ecx
	shll	$16, %ecx
	orl	%ebx, %ecx
	jne	.LBB23_101
	addq	$-32, %rax
	addq	$32, %r11
	cmpq	$31, %rax
	ja	.LBB23_84
	jmp	.LBB23_99
.LBB23_86:
	cmpq	$64, %rax
	movq	64(%rsp), %r13
	jb	.LBB23_95
	.p2align	4
.LBB23_87:
	movdqu	-32(%r8,%r11), %xmm4
	movdqu	-16(%r8,%r11), %xmm3
	movdqu	(%r8,%r11), %xmm2
	movdqu	16(%r8,%r11), %xmm1
	movdqa	%xmm3, %xmm5
	pcmpeqb	%xmm0, %xmm5
	movdqa	%xmm4, %xmm6
	pcmpeqb	%xmm0, %xmm6
	movdqa	%xmm1, %xmm7
	pcmpeqb	%xmm0, %xmm7
	por	%xmm5, %xmm7
	movdqa	%xmm2, %xmm5
	pcmpeqb	%xmm0, %xmm5
	por	%xmm6, %xmm5
	por	%xmm7, %xmm5
	pmovmskb	%xmm5, %ecx
	testl	%ecx, %ecx
	jne	.LBB23_89
	addq	$64, %r11
	addq	$-64, %rax
	cmpq	$63, %rax
	ja	.LBB23_87
	jmp	.LBB23_95
.LBB23_89:
	cmpq	$64, %rax
	jb	.LBB23_95
.LBB23_90:
	pcmpeqb	%xmm0, %xmm1
	pcmpeqb	%xmm0, %xmm2
	pcmpeqb	%xmm0, %xmm4
	pmovmskb	%xmm4, %eax
	pcmpeqb	%xmm0, %xmm3
	pmovmskb	%xmm3, %ecx
	shll	$16, %ecx
	orl	%eax, %ecx
	pmovmskb	%xmm2, %ebx
	shlq	$32, %rbx
	orq	%rcx, %rbx
	pmovmskb	%xmm1, %eax
	shlq	$48, %rax
	orq	%rbx, %rax
	jne	.LBB23_108
	movq	%r10, %rax
	subq	%r11, %rax
	.p2align	4
.LBB23_92:
	cmpq	$64, %rax
	jb	.LBB23_94
	movdqu	32(%r8,%r11), %xmm4
	movdqu	48(%r8,%r11), %xmm3
	movdqu	64(%r8,%r11), %xmm2
	movdqu	80(%r8,%r11), %xmm1
	movdqa	%xmm3, %xmm5
	pcmpeqb	%xmm0, %xmm5
	movdqa	%xmm4, %xmm6
	pcmpeqb	%xmm0, %xmm6
	movdqa	%xmm1, %xmm7
	pcmpeqb	%xmm0, %xmm7
	por	%xmm5, %xmm7
	movdqa	%xmm2, %xmm5
	pcmpeqb	%xmm0, %xmm5
	por	%xmm6, %xmm5
	por	%xmm7, %xmm5
	pmovmskb	%xmm5, %ecx
	addq	$-64, %rax
	addq	$64, %r11
	testl	%ecx, %ecx
	je	.LBB23_92
	jmp	.LBB23_90
.LBB23_94:
	addq	$64, %r11
.LBB23_95:
	cmpq	$32, %rax
	jb	.LBB23_99
	movq	%r9, %rax
	subq	%r11, %rax
	.p2align	4
.LBB23_97:
	movq	8(%rsp), %rcx
	movdqu	(%rcx,%r11), %xmm1
	movdqu	16(%rcx,%r11), %xmm2
	pcmpeqb	%xmm0, %xmm1
	pmovmskb	%xmm1, %ebx
	pcmpeqb	%xmm0, %xmm2
	pmovmskb	%xmm2, %ecx
	shll	$16, %ecx
	orl	%ebx, %ecx
	jne	.LBB23_101
	addq	$-32, %rax
	addq	$32, %r11
	cmpq	$31, %rax
	ja	.LBB23_97
.LBB23_99:
	movq	24(%rsp), %rax
	movdqu	-32(%rsi,%rax), %xmm1
	movdqu	-16(%rsi,%rax), %xmm2
	pcmpeqb	%xmm0, %xmm1
	pmovmskb	%xmm1, %ecx
	pcmpeqb	%xmm0, %xmm2
	pmovmskb	%xmm2, %eax
	shll	$16, %eax
	orl	%ecx, %eax
	movl	%r11d, %ecx
	subl	%r14d, %ecx
	addb	$32, %cl
	shrq	%cl, %rax
	movq	%r11, %rbx
	movq	%r14, %rcx
.LBB23_100:
	movq	%rbx, %r11
	movq	%rcx, %rbx
	testq	%rax, %rax
	jne	.LBB23_102
	jmp	.LBB23_104
.LBB23_101:
	movl	%ecx, %eax
	leaq	32(%r11), %rbx
	.p2align	4
.LBB23_102:
	rep		bsfq	%rax, %rcx
	leaq	(%rcx,%r11), %r12
	movq	8(%rsp), %r14
	cmpb	%dil, (%r14,%r12)
	je	.LBB23_111
	movq	$-2, %r14
	rolq	%cl, %r14
	andq	%r14, %rax
	movq	88(%rsp), %r14
	jne	.LBB23_102
.LBB23_104:
	xorl	%eax, %eax
	movq	%rbx, %r11
	movl	$0, %edx
	cmpq	%r14, %rbx
	jb	.LBB23_75
	jmp	.LBB23_112
.LBB23_105:
	pmovmskb	%xmm8, %eax
	pmovmskb	%xmm7, %ecx
	shll	$16, %ecx
	orl	%eax, %ecx
	pmovmskb	%xmm6, %r11d
	shlq	$32, %r11
	orq	%rcx, %r11
	pmovmskb	%xmm3, %eax
	shlq	$48, %rax
	orq	%r11, %rax
	je	.LBB23_107
	leaq	-64(%rbx), %r11
	jmp	.LBB23_102
.LBB23_107:
	leaq	64(%rbx), %rcx
	pmovmskb	%xmm5, %eax
	pmovmskb	%xmm4, %r11d
	shll	$16, %r11d
	orl	%eax, %r11d
	pmovmskb	%xmm2, %r14d
	shlq	$32, %r14
	orq	%r11, %r14
	pmovmskb	%xmm1, %eax
	shlq	$48, %rax
	orq	%r14, %rax
	movq	88(%rsp), %r14
	jmp	.LBB23_100
.LBB23_108:
	leaq	64(%r11), %rbx
	jmp	.LBB23_102
.LBB23_113:
	movq	16(%rsp), %rax
	movq	%rbx, %rbp
	movq	%rax, %rbx
	subq	%r12, %rax
	movq	%rax, 136(%rsp)
	leaq	(%rsi,%r13), %rax
	leaq	(%rdi,%rax), %rcx
	addq	$32, %rcx
	movq	%rcx, 144(%rsp)
	movq	%r13, %rcx
	leaq	(%rax,%rbp), %r13
	addq	$32, %r13
	movq	24(%rsp), %rdi
	subq	%rbx, %rdi
	subq	%rcx, %rdi
	leaq	-63(%rdi), %rax
	movq	%rax, 208(%rsp)
	incq	%rdi
	movq	%rdi, 24(%rsp)
	movl	$1, %eax
	subq	%r14, %rax
	movq	%rax, 128(%rsp)
	leaq	(%rcx,%rsi), %rax
	decq	%rax
	movq	%rax, 80(%rsp)
	movl	$1, 96(%rsp)
	xorl	%ebp, %ebp
	movl	$0, 40(%rsp)
	movl	$1, %ebx
	xorl	%esi, %esi
	movq	%rdx, %r11
	movl	%r9d, %r10d
	movq	176(%rsp), %r9
.LBB23_114:
	testl	%ebx, %ebx
	je	.LBB23_122
	cmpl	$51, %ebx
	jb	.LBB23_117
	cmpl	$536870913, %ebx
	leal	-8(,%rbx,8), %eax
	movl	$-1, %ecx
	cmovbl	%eax, %ecx
	xorl	%eax, %eax
	cmpl	40(%rsp), %ecx
	ja	.LBB23_123
.LBB23_117:
	cmpq	$32, %r11
	jae	.LBB23_125
	cmpq	%r11, %rbp
	jae	.LBB23_1
	movq	%rbp, %r12
	.p2align	4
.LBB23_120:
	cmpb	%r10b, (%r9,%r12)
	je	.LBB23_162
	incq	%r12
	xorl	%eax, %eax
	movl	$0, %edx
	cmpq	%r11, %r12
	jb	.LBB23_120
	jmp	.LBB23_112
.LBB23_122:
	movl	96(%rsp), %eax
.LBB23_123:
	xorl	%ebx, %ebx
	cmpq	%r11, %rbp
	jae	.LBB23_1
	movq	%rbp, %r12
	movl	%eax, 96(%rsp)
	jmp	.LBB23_166
.LBB23_125:
	movq	%rbp, %rbx
	cmpq	%r11, %rbp
	movq	%rbp, 72(%rsp)
	jae	.LBB23_1
.LBB23_126:
	movq	%r11, %rax
	subq	%rbx, %rax
	cmpq	$191, %rax
	jbe	.LBB23_133
	movq	8(%rsp), %rax
	addq	%rbx, %rax
	movq	48(%rsp), %rcx
	movdqu	(%rcx,%rax), %xmm3
	movdqu	16(%rcx,%rax), %xmm4
	movdqu	32(%rcx,%rax), %xmm5
	movdqu	48(%rcx,%rax), %xmm6
	pcmpeqb	%xmm0, %xmm3
	pcmpeqb	%xmm0, %xmm4
	movq	56(%rsp), %rcx
	movdqu	(%rcx,%rax), %xmm7
	movdqu	16(%rcx,%rax), %xmm8
	movdqu	32(%rcx,%rax), %xmm9
	movdqu	48(%rcx,%rax), %xmm2
	pcmpeqb	%xmm1, %xmm7
	pand	%xmm3, %xmm7
	pcmpeqb	%xmm1, %xmm8
	pand	%xmm4, %xmm8
	pcmpeqb	%xmm0, %xmm5
	pcmpeqb	%xmm0, %xmm6
	pcmpeqb	%xmm1, %xmm9
	pand	%xmm5, %xmm9
	pcmpeqb	%xmm1, %xmm2
	pand	%xmm6, %xmm2
	pmovmskb	%xmm7, %eax
	pmovmskb	%xmm8, %ecx
	shll	$16, %ecx
	orl	%eax, %ecx
	pmovmskb	%xmm9, %eax
	shlq	$32, %rax
	orq	%rcx, %rax
	pmovmskb	%xmm2, %r15d
	shlq	$48, %r15
	leaq	64(%rbx), %r14
	orq	%rax, %r15
	jne	.LBB23_155
	movq	%r11, %rcx
	subq	%r14, %rcx
	cmpq	$128, %rcx
	jb	.LBB23_146
	addq	$192, %rbx
	movq	%rbx, %rax
.LBB23_130:
	movdqu	-128(%r9,%rax), %xmm2
	movdqu	-112(%r9,%rax), %xmm3
	movdqu	-96(%r9,%rax), %xmm4
	movdqu	-80(%r9,%rax), %xmm5
	pcmpeqb	%xmm0, %xmm2
	pcmpeqb	%xmm0, %xmm3
	movdqu	-128(%r8,%rax), %xmm7
	movdqu	-112(%r8,%rax), %xmm6
	movdqu	-96(%r8,%rax), %xmm8
	movdqu	-80(%r8,%rax), %xmm10
	pcmpeqb	%xmm1, %xmm7
	pand	%xmm2, %xmm7
	pcmpeqb	%xmm1, %xmm6
	pand	%xmm3, %xmm6
	pcmpeqb	%xmm0, %xmm4
	pcmpeqb	%xmm0, %xmm5
	pcmpeqb	%xmm1, %xmm8
	pand	%xmm4, %xmm8
	pcmpeqb	%xmm1, %xmm10
	pand	%xmm5, %xmm10
	movdqu	-48(%r9,%rax), %xmm4
	movdqu	-64(%r9,%rax), %xmm5
	pcmpeqb	%xmm0, %xmm5
	pcmpeqb	%xmm0, %xmm4
	movdqu	-48(%r8,%rax), %xmm2
	movdqu	-64(%r8,%rax), %xmm3
	pcmpeqb	%xmm1, %xmm3
	pand	%xmm5, %xmm3
	pcmpeqb	%xmm1, %xmm2
	pand	%xmm4, %xmm2
	movdqu	-16(%r9,%rax), %xmm9
	movdqu	-32(%r9,%rax), %xmm11
	pcmpeqb	%xmm0, %xmm11
	pcmpeqb	%xmm0, %xmm9
	movdqu	-16(%r8,%rax), %xmm5
	movdqu	-32(%r8,%rax), %xmm4
	pcmpeqb	%xmm1, %xmm4
	pand	%xmm11, %xmm4
	pcmpeqb	%xmm1, %xmm5
	pand	%xmm9, %xmm5
	movdqa	%xmm3, %xmm9
	por	%xmm4, %xmm9
	movdqa	%xmm2, %xmm11
	por	%xmm5, %xmm11
	movdqa	%xmm7, %xmm12
	por	%xmm8, %xmm12
	por	%xmm9, %xmm12
	movdqa	%xmm6, %xmm9
	por	%xmm10, %xmm9
	por	%xmm11, %xmm9
	por	%xmm12, %xmm9
	pmovmskb	%xmm9, %ebx
	testl	%ebx, %ebx
	jne	.LBB23_158
	subq	$-128, %rax
	addq	$-128, %rcx
	cmpq	$127, %rcx
	ja	.LBB23_130
	addq	$-128, %rax
	movq	%rax, %rbx
	jmp	.LBB23_147
.LBB23_133:
	cmpq	$64, %rax
	movq	144(%rsp), %rdi
	jb	.LBB23_142
.LBB23_134:
	movdqu	-32(%r13,%rbx), %xmm2
	movdqu	-16(%r13,%rbx), %xmm3
	movdqu	(%r13,%rbx), %xmm4
	movdqu	16(%r13,%rbx), %xmm5
	pcmpeqb	%xmm0, %xmm2
	pcmpeqb	%xmm0, %xmm3
	movdqu	-32(%rdi,%rbx), %xmm6
	movdqu	-16(%rdi,%rbx), %xmm7
	movdqu	(%rdi,%rbx), %xmm8
	movdqu	16(%rdi,%rbx), %xmm9
	pcmpeqb	%xmm1, %xmm6
	pand	%xmm2, %xmm6
	pcmpeqb	%xmm1, %xmm7
	pand	%xmm3, %xmm7
	pcmpeqb	%xmm0, %xmm4
	pcmpeqb	%xmm0, %xmm5
	pcmpeqb	%xmm1, %xmm8
	pand	%xmm4, %xmm8
	por	%xmm6, %xmm8
	pcmpeqb	%xmm1, %xmm9
	pand	%xmm5, %xmm9
	por	%xmm7, %xmm9
	por	%xmm8, %xmm9
	pmovmskb	%xmm9, %ecx
	testl	%ecx, %ecx
	jne	.LBB23_136
	addq	$64, %rbx
	addq	$-64, %rax
	cmpq	$63, %rax
	ja	.LBB23_134
	jmp	.LBB23_142
.LBB23_136:
	cmpq	$64, %rax
	jb	.LBB23_142
.LBB23_137:
	movq	8(%rsp), %rax
	addq	%rbx, %rax
	movq	48(%rsp), %rcx
	movdqu	(%rcx,%rax), %xmm3
	movdqu	16(%rcx,%rax), %xmm4
	movdqu	32(%rcx,%rax), %xmm5
	movdqu	48(%rcx,%rax), %xmm6
	pcmpeqb	%xmm0, %xmm3
	pcmpeqb	%xmm0, %xmm4
	movq	56(%rsp), %rcx
	movdqu	(%rcx,%rax), %xmm7
	movdqu	16(%rcx,%rax), %xmm8
	movdqu	32(%rcx,%rax), %xmm9
	movdqu	48(%rcx,%rax), %xmm2
	pcmpeqb	%xmm1, %xmm7
	pand	%xmm3, %xmm7
	pcmpeqb	%xmm1, %xmm8
	pand	%xmm4, %xmm8
	pcmpeqb	%xmm0, %xmm5
	pcmpeqb	%xmm0, %xmm6
	pcmpeqb	%xmm1, %xmm9
	pand	%xmm5, %xmm9
	pcmpeqb	%xmm1, %xmm2
	pand	%xmm6, %xmm2
	pmovmskb	%xmm7, %eax
	pmovmskb	%xmm8, %ecx
	shll	$16, %ecx
	orl	%eax, %ecx
	pmovmskb	%xmm9, %eax
	shlq	$32, %rax
	orq	%rcx, %rax
	pmovmskb	%xmm2, %r15d
	shlq	$48, %r15
	orq	%rax, %r15
	jne	.LBB23_161
	movq	208(%rsp), %rax
	subq	%rbx, %rax
	addq	$64, %rbx
.LBB23_139:
	cmpq	$64, %rax
	jb	.LBB23_142
	movdqu	(%r9,%rbx), %xmm2
	movdqu	16(%r9,%rbx), %xmm3
	movdqu	32(%r9,%rbx), %xmm4
	movdqu	48(%r9,%rbx), %xmm5
	pcmpeqb	%xmm0, %xmm2
	pcmpeqb	%xmm0, %xmm3
	movdqu	(%r8,%rbx), %xmm6
	movdqu	16(%r8,%rbx), %xmm7
	movdqu	32(%r8,%rbx), %xmm8
	movdqu	48(%r8,%rbx), %xmm9
	pcmpeqb	%xmm1, %xmm6
	pand	%xmm2, %xmm6
	pcmpeqb	%xmm1, %xmm7
	pand	%xmm3, %xmm7
	pcmpeqb	%xmm0, %xmm4
	pcmpeqb	%xmm0, %xmm5
	pcmpeqb	%xmm1, %xmm8
	pand	%xmm4, %xmm8
	por	%xmm6, %xmm8
	pcmpeqb	%xmm1, %xmm9
	pand	%xmm5, %xmm9
	por	%xmm7, %xmm9
	por	%xmm8, %xmm9
	pmovmskb	%xmm9, %ecx
	addq	$64, %rbx
	addq	$-64, %rax
	testl	%ecx, %ecx
	je	.LBB23_139
	addq	$-64, %rbx
	jmp	.LBB23_137
.LBB23_142:
	cmpq	$32, %rax
	jb	.LBB23_151
	movq	24(%rsp), %rax
	subq	%rbx, %rax
.LBB23_144:
	movdqu	(%r9,%rbx), %xmm2
	movdqu	16(%r9,%rbx), %xmm3
	pcmpeqb	%xmm0, %xmm2
	pcmpeqb	%xmm0, %xmm3
	movdqu	(%r8,%rbx), %xmm4
	movdqu	16(%r8,%rbx), %xmm5
	pcmpeqb	%xmm1, %xmm4
	pand	%xmm2, %xmm4
	pcmpeqb	%xmm1, %xmm5
	pand	%xmm3, %xmm5
	pmovmskb	%xmm4, %ebp
	pmovmskb	%xmm5, %ecx
	shll	$16, %ecx
	orl	%ebp, %ecx
	jne	.LBB23_153
	addq	$-32, %rax
	addq	$32, %rbx
	cmpq	$31, %rax
	ja	.LBB23_144
	jmp	.LBB23_151
.LBB23_146:
	movq	%r14, %rbx
.LBB23_147:
	cmpq	$32, %rcx
	jb	.LBB23_151
	movq	24(%rsp), %rax
	subq	%rbx, %rax
.LBB23_149:
	movdqu	(%r9,%rbx), %xmm2
	movdqu	16(%r9,%rbx), %xmm3
	pcmpeqb	%xmm0, %xmm2
	pcmpeqb	%xmm0, %xmm3
	movdqu	(%r8,%rbx), %xmm4
	movdqu	16(%r8,%rbx), %xmm5
	pcmpeqb	%xmm1, %xmm4
	pand	%xmm2, %xmm4
	pcmpeqb	%xmm1, %xmm5
	pand	%xmm3, %xmm5
	pmovmskb	%xmm4, %ebp
	pmovmskb	%xmm5, %ecx
	shll	$16, %ecx
	orl	%ebp, %ecx
	jne	.LBB23_153
	addq	$-32, %rax
	addq	$32, %rbx
	cmpq	$31, %rax
	ja	.LBB23_149
.LBB23_151:
	movq	48(%rsp), %rax
	movq	120(%rsp), %rcx
	movdqu	(%rcx,%rax), %xmm2
	movdqu	16(%rcx,%rax), %xmm3
	pcmpeqb	%xmm0, %xmm2
	pcmpeqb	%xmm0, %xmm3
	movq	56(%rsp), %rax
	movdqu	(%rcx,%rax), %xmm4
	movdqu	16(%rcx,%rax), %xmm5
	pcmpeqb	%xmm1, %xmm4
	pand	%xmm2, %xmm4
	pcmpeqb	%xmm1, %xmm5
	pand	%xmm3, %xmm5
	pmovmskb	%xmm4, %eax
	pmovmskb	%xmm5, %r15d
	shll	$16, %r15d
	orl	%eax, %r15d
	movl	%ebx, %ecx
	subl	%r11d, %ecx
	addb	$32, %cl
	shrq	%cl, %r15
	movq	%rbx, %r14
	movq	%r11, %rax
.LBB23_152:
	movq	72(%rsp), %rbp
	movq	%r14, %rbx
	movq	%rax, %r14
	testq	%r15, %r15
	jne	.LBB23_155
	jmp	.LBB23_157
.LBB23_153:
	movl	%ecx, %r15d
	leaq	32(%rbx), %r14
.LBB23_154:
	movq	72(%rsp), %rbp
	.p2align	4
.LBB23_155:
	rep		bsfq	%r15, %rcx
	leaq	(%rcx,%rbx), %r12
	cmpb	%r10b, (%r9,%r12)
	je	.LBB23_162
	movq	$-2, %rax
	rolq	%cl, %rax
	andq	%rax, %r15
	jne	.LBB23_155
.LBB23_157:
	xorl	%eax, %eax
	movq	%r14, %rbx
	movl	$0, %edx
	cmpq	%r11, %r14
	jb	.LBB23_126
	jmp	.LBB23_112
.LBB23_158:
	pextrb	$15, %xmm6, %ecx
	pextrb	$1, %xmm6, %ebx
	movd	%xmm10, %ebp
	movzbl	%bpl, %ebp
	movd	%ebp, %xmm9
	pextrb	$1, %xmm10, %ebp
	movzbl	%bpl, %ebp
	pinsrb	$1, %ebp, %xmm9
	pextrb	$2, %xmm10, %ebp
	movzbl	%bpl, %ebp
	pinsrb	$2, %ebp, %xmm9
	pextrb	$3, %xmm10, %ebp
	movzbl	%bpl, %ebp
	pinsrb	$3, %ebp, %xmm9
	pextrb	$4, %xmm10, %ebp
	movzbl	%bpl, %ebp
	pinsrb	$4, %ebp, %xmm9
	pextrb	$5, %xmm10, %ebp
	movzbl	%bpl, %ebp
	pinsrb	$5, %ebp, %xmm9
	pextrb	$6, %xmm10, %ebp
	movzbl	%bpl, %ebp
	pinsrb	$6, %ebp, %xmm9
	pextrb	$7, %xmm10, %ebp
	movzbl	%bpl, %ebp
	pinsrb	$7, %ebp, %xmm9
	pextrb	$8, %xmm10, %ebp
	movzbl	%bpl, %ebp
	pinsrb	$8, %ebp, %xmm9
	pextrb	$9, %xmm10, %ebp
	movzbl	%bpl, %ebp
	pinsrb	$9, %ebp, %xmm9
	pextrb	$10, %xmm10, %ebp
	movzbl	%bpl, %ebp
	pinsrb	$10, %ebp, %xmm9
	pextrb	$11, %xmm10, %ebp
	movzbl	%bpl, %ebp
	pinsrb	$11, %ebp, %xmm9
	pextrb	$12, %xmm10, %ebp
	movzbl	%bpl, %ebp
	pinsrb	$12, %ebp, %xmm9
	pextrb	$13, %xmm10, %ebp
	movzbl	%bpl, %ebp
	pinsrb	$13, %ebp, %xmm9
	pextrb	$14, %xmm10, %ebp
	movzbl	%bpl, %ebp
	pinsrb	$14, %ebp, %xmm9
	pextrb	$15, %xmm10, %ebp
	movzbl	%bpl, %ebp
	pinsrb	$15, %ebp, %xmm9
	movd	%xmm8, %ebp
	movzbl	%bpl, %ebp
	movd	%ebp, %xmm10
	pextrb	$1, %xmm8, %ebp
	movzbl	%bpl, %ebp
	pinsrb	$1, %ebp, %xmm10
	pextrb	$2, %xmm8, %ebp
	movzbl	%bpl, %ebp
	pinsrb	$2, %ebp, %xmm10
	pextrb	$3, %xmm8, %ebp
	movzbl	%bpl, %ebp
	pinsrb	$3, %ebp, %xmm10
	pextrb	$4, %xmm8, %ebp
	movzbl	%bpl, %ebp
	pinsrb	$4, %ebp, %xmm10
	pextrb	$5, %xmm8, %ebp
	movzbl	%bpl, %ebp
	pinsrb	$5, %ebp, %xmm10
	pextrb	$6, %xmm8, %ebp
	movzbl	%bpl, %ebp
	pinsrb	$6, %ebp, %xmm10
	pextrb	$7, %xmm8, %ebp
	movzbl	%bpl, %ebp
	pinsrb	$7, %ebp, %xmm10
	pextrb	$8, %xmm8, %ebp
	movzbl	%bpl, %ebp
	pinsrb	$8, %ebp, %xmm10
	pextrb	$9, %xmm8, %ebp
	movzbl	%bpl, %ebp
	pinsrb	$9, %ebp, %xmm10
	pextrb	$10, %xmm8, %ebp
	movzbl	%bpl, %ebp
	pinsrb	$10, %ebp, %xmm10
	pextrb	$11, %xmm8, %ebp
	movzbl	%bpl, %ebp
	pinsrb	$11, %ebp, %xmm10
	pextrb	$12, %xmm8, %ebp
	movzbl	%bpl, %ebp
	pinsrb	$12, %ebp, %xmm10
	pextrb	$13, %xmm8, %ebp
	movzbl	%bpl, %ebp
	pinsrb	$13, %ebp, %xmm10
	pextrb	$14, %xmm8, %ebp
	movzbl	%bpl, %ebp
	pinsrb	$14, %ebp, %xmm10
	pextrb	$15, %xmm8, %ebp
	movzbl	%bpl, %ebp
	pinsrb	$15, %ebp, %xmm10
	movd	%xmm7, %ebp
	movzbl	%bpl, %ebp
	movd	%ebp, %xmm8
	pextrb	$1, %xmm7, %ebp
	movzbl	%bpl, %ebp
	pinsrb	$1, %ebp, %xmm8
	pextrb	$2, %xmm7, %ebp
	movzbl	%bpl, %ebp
	pinsrb	$2, %ebp, %xmm8
	pextrb	$3, %xmm7, %ebp
	movzbl	%bpl, %ebp
	pinsrb	$3, %ebp, %xmm8
	pextrb	$4, %xmm7, %ebp
	movzbl	%bpl, %ebp
	pinsrb	$4, %ebp, %xmm8
	pextrb	$5, %xmm7, %ebp
	movzbl	%bpl, %ebp
	pinsrb	$5, %ebp, %xmm8
	pextrb	$6, %xmm7, %ebp
	movzbl	%bpl, %ebp
	pinsrb	$6, %ebp, %xmm8
	pextrb	$7, %xmm7, %ebp
	movzbl	%bpl, %ebp
	pinsrb	$7, %ebp, %xmm8
	pextrb	$8, %xmm7, %ebp
	movzbl	%bpl, %ebp
	pinsrb	$8, %ebp, %xmm8
	pextrb	$9, %xmm7, %ebp
	movzbl	%bpl, %ebp
	pinsrb	$9, %ebp, %xmm8
	pextrb	$10, %xmm7, %ebp
	movzbl	%bpl, %ebp
	pinsrb	$10, %ebp, %xmm8
	pextrb	$11, %xmm7, %ebp
	movzbl	%bpl, %ebp
	pinsrb	$11, %ebp, %xmm8
	pextrb	$12, %xmm7, %ebp
	movzbl	%bpl, %ebp
	pinsrb	$12, %ebp, %xmm8
	pextrb	$13, %xmm7, %ebp
	movzbl	%bpl, %ebp
	pinsrb	$13, %ebp, %xmm8
	pextrb	$14, %xmm7, %ebp
	movzbl	%bpl, %ebp
	pinsrb	$14, %ebp, %xmm8
	pextrb	$15, %xmm7, %ebp
	movzbl	%bpl, %ebp
	pinsrb	$15, %ebp, %xmm8
	movd	%xmm6, %ebp
	movzbl	%bpl, %ebp
	movd	%ebp, %xmm7
	movzbl	%bl, %ebx
	pinsrb	$1, %ebx, %xmm7
	pextrb	$2, %xmm6, %ebx
	movzbl	%bl, %ebx
	pinsrb	$2, %ebx, %xmm7
	pextrb	$3, %xmm6, %ebx
	movzbl	%bl, %ebx
	pinsrb	$3, %ebx, %xmm7
	pextrb	$4, %xmm6, %ebx
	movzbl	%bl, %ebx
	pinsrb	$4, %ebx, %xmm7
	pextrb	$5, %xmm6, %ebx
	movzbl	%bl, %ebx
	pinsrb	$5, %ebx, %xmm7
	pextrb	$6, %xmm6, %ebx
	movzbl	%bl, %ebx
	pinsrb	$6, %ebx, %xmm7
	pextrb	$7, %xmm6, %ebx
	movzbl	%bl, %ebx
	pinsrb	$7, %ebx, %xmm7
	pextrb	$8, %xmm6, %ebx
	movzbl	%bl, %ebx
	pinsrb	$8, %ebx, %xmm7
	pextrb	$9, %xmm6, %ebx
	movzbl	%bl, %ebx
	pinsrb	$9, %ebx, %xmm7
	pextrb	$10, %xmm6, %ebx
	movzbl	%bl, %ebx
	pinsrb	$10, %ebx, %xmm7
	pextrb	$11, %xmm6, %ebx
	movzbl	%bl, %ebx
	pinsrb	$11, %ebx, %xmm7
	pextrb	$12, %xmm6, %ebx
	movzbl	%bl, %ebx
	pinsrb	$12, %ebx, %xmm7
	pextrb	$13, %xmm6, %ebx
	movzbl	%bl, %ebx
	pinsrb	$13, %ebx, %xmm7
	pextrb	$14, %xmm6, %ebx
	psllw	$7, %xmm9
	psllw	$7, %xmm10
	movzbl	%bl, %ebx
	pinsrb	$14, %ebx, %xmm7
	psllw	$7, %xmm8
	movzbl	%cl, %ecx
	pinsrb	$15, %ecx, %xmm7
	pmovmskb	%xmm8, %ecx
	psllw	$7, %xmm7
	pmovmskb	%xmm7, %ebx
	shll	$16, %ebx
	orl	%ecx, %ebx
	pmovmskb	%xmm10, %ecx
	shlq	$32, %rcx
	orq	%rbx, %rcx
	pmovmskb	%xmm9, %r15d
	shlq	$48, %r15
	orq	%rcx, %r15
	leaq	-64(%rax), %r14
	je	.LBB23_160
	addq	$-128, %rax
	movq	%rax, %rbx
	jmp	.LBB23_154
.LBB23_160:
	pextrb	$15, %xmm2, %ecx
	movd	%xmm5, %ebx
	movzbl	%bl, %ebx
	movd	%ebx, %xmm6
	pextrb	$1, %xmm5, %ebx
	movzbl	%bl, %ebx
	pinsrb	$1, %ebx, %xmm6
	pextrb	$2, %xmm5, %ebx
	movzbl	%bl, %ebx
	pinsrb	$2, %ebx, %xmm6
	pextrb	$3, %xmm5, %ebx
	movzbl	%bl, %ebx
	pinsrb	$3, %ebx, %xmm6
	pextrb	$4, %xmm5, %ebx
	movzbl	%bl, %ebx
	pinsrb	$4, %ebx, %xmm6
	pextrb	$5, %xmm5, %ebx
	movzbl	%bl, %ebx
	pinsrb	$5, %ebx, %xmm6
	pextrb	$6, %xmm5, %ebx
	movzbl	%bl, %ebx
	pinsrb	$6, %ebx, %xmm6
	pextrb	$7, %xmm5, %ebx
	movzbl	%bl, %ebx
	pinsrb	$7, %ebx, %xmm6
	pextrb	$8, %xmm5, %ebx
	movzbl	%bl, %ebx
	pinsrb	$8, %ebx, %xmm6
	pextrb	$9, %xmm5, %ebx
	movzbl	%bl, %ebx
	pinsrb	$9, %ebx, %xmm6
	pextrb	$10, %xmm5, %ebx
	movzbl	%bl, %ebx
	pinsrb	$10, %ebx, %xmm6
	pextrb	$11, %xmm5, %ebx
	movzbl	%bl, %ebx
	pinsrb	$11, %ebx, %xmm6
	pextrb	$12, %xmm5, %ebx
	movzbl	%bl, %ebx
	pinsrb	$12, %ebx, %xmm6
	pextrb	$13, %xmm5, %ebx
	movzbl	%bl, %ebx
	pinsrb	$13, %ebx, %xmm6
	pextrb	$14, %xmm5, %ebx
	movzbl	%bl, %ebx
	pinsrb	$14, %ebx, %xmm6
	pextrb	$15, %xmm5, %ebx
	movzbl	%bl, %ebx
	pinsrb	$15, %ebx, %xmm6
	movd	%xmm4, %ebx
	movzbl	%bl, %ebx
	movd	%ebx, %xmm5
	pextrb	$1, %xmm4, %ebx
	movzbl	%bl, %ebx
	pinsrb	$1, %ebx, %xmm5
	pextrb	$2, %xmm4, %ebx
	movzbl	%bl, %ebx
	pinsrb	$2, %ebx, %xmm5
	pextrb	$3, %xmm4, %ebx
	movzbl	%bl, %ebx
	pinsrb	$3, %ebx, %xmm5
	pextrb	$4, %xmm4, %ebx
	movzbl	%bl, %ebx
	pinsrb	$4, %ebx, %xmm5
	pextrb	$5, %xmm4, %ebx
	movzbl	%bl, %ebx
	pinsrb	$5, %ebx, %xmm5
	pextrb	$6, %xmm4, %ebx
	movzbl	%bl, %ebx
	pinsrb	$6, %ebx, %xmm5
	pextrb	$7, %xmm4, %ebx
	movzbl	%bl, %ebx
	pinsrb	$7, %ebx, %xmm5
	pextrb	$8, %xmm4, %ebx
	movzbl	%bl, %ebx
	pinsrb	$8, %ebx, %xmm5
	pextrb	$9, %xmm4, %ebx
	movzbl	%bl, %ebx
	pinsrb	$9, %ebx, %xmm5
	pextrb	$10, %xmm4, %ebx
	movzbl	%bl, %ebx
	pinsrb	$10, %ebx, %xmm5
	pextrb	$11, %xmm4, %ebx
	movzbl	%bl, %ebx
	pinsrb	$11, %ebx, %xmm5
	pextrb	$12, %xmm4, %ebx
	movzbl	%bl, %ebx
	pinsrb	$12, %ebx, %xmm5
	pextrb	$13, %xmm4, %ebx
	movzbl	%bl, %ebx
	pinsrb	$13, %ebx, %xmm5
	pextrb	$14, %xmm4, %ebx
	movzbl	%bl, %ebx
	pinsrb	$14, %ebx, %xmm5
	pextrb	$15, %xmm4, %ebx
	movzbl	%bl, %ebx
	pinsrb	$15, %ebx, %xmm5
	movd	%xmm3, %ebx
	movzbl	%bl, %ebx
	movd	%ebx, %xmm4
	pextrb	$1, %xmm3, %ebx
	movzbl	%bl, %ebx
	pinsrb	$1, %ebx, %xmm4
	pextrb	$2, %xmm3, %ebx
	movzbl	%bl, %ebx
	pinsrb	$2, %ebx, %xmm4
	pextrb	$3, %xmm3, %ebx
	movzbl	%bl, %ebx
	pinsrb	$3, %ebx, %xmm4
	pextrb	$4, %xmm3, %ebx
	movzbl	%bl, %ebx
	pinsrb	$4, %ebx, %xmm4
	pextrb	$5, %xmm3, %ebx
	movzbl	%bl, %ebx
	pinsrb	$5, %ebx, %xmm4
	pextrb	$6, %xmm3, %ebx
	movzbl	%bl, %ebx
	pinsrb	$6, %ebx, %xmm4
	pextrb	$7, %xmm3, %ebx
	movzbl	%bl, %ebx
	pinsrb	$7, %ebx, %xmm4
	pextrb	$8, %xmm3, %ebx
	movzbl	%bl, %ebx
	pinsrb	$8, %ebx, %xmm4
	pextrb	$9, %xmm3, %ebx
	movzbl	%bl, %ebx
	pinsrb	$9, %ebx, %xmm4
	pextrb	$10, %xmm3, %ebx
	movzbl	%bl, %ebx
	pinsrb	$10, %ebx, %xmm4
	pextrb	$11, %xmm3, %ebx
	movzbl	%bl, %ebx
	pinsrb	$11, %ebx, %xmm4
	pextrb	$12, %xmm3, %ebx
	movzbl	%bl, %ebx
	pinsrb	$12, %ebx, %xmm4
	pextrb	$13, %xmm3, %ebx
	movzbl	%bl, %ebx
	pinsrb	$13, %ebx, %xmm4
	pextrb	$14, %xmm3, %ebx
	movzbl	%bl, %ebx
	pinsrb	$14, %ebx, %xmm4
	pextrb	$15, %xmm3, %ebx
	movzbl	%bl, %ebx
	pinsrb	$15, %ebx, %xmm4
	movd	%xmm2, %ebx
	movzbl	%bl, %ebx
	movd	%ebx, %xmm3
	pextrb	$1, %xmm2, %ebx
	movzbl	%bl, %ebx
	pinsrb	$1, %ebx, %xmm3
	pextrb	$2, %xmm2, %ebx
	movzbl	%bl, %ebx
	pinsrb	$2, %ebx, %xmm3
	pextrb	$3, %xmm2, %ebx
	movzbl	%bl, %ebx
	pinsrb	$3, %ebx, %xmm3
	pextrb	$4, %xmm2, %ebx
	movzbl	%bl, %ebx
	pinsrb	$4, %ebx, %xmm3
	pextrb	$5, %xmm2, %ebx
	movzbl	%bl, %ebx
	pinsrb	$5, %ebx, %xmm3
	pextrb	$6, %xmm2, %ebx
	movzbl	%bl, %ebx
	pinsrb	$6, %ebx, %xmm3
	pextrb	$7, %xmm2, %ebx
	movzbl	%bl, %ebx
	pinsrb	$7, %ebx, %xmm3
	pextrb	$8, %xmm2, %ebx
	movzbl	%bl, %ebx
	pinsrb	$8, %ebx, %xmm3
	pextrb	$9, %xmm2, %ebx
	movzbl	%bl, %ebx
	pinsrb	$9, %ebx, %xmm3
	pextrb	$10, %xmm2, %ebx
	movzbl	%bl, %ebx
	pinsrb	$10, %ebx, %xmm3
	pextrb	$11, %xmm2, %ebx
	movzbl	%bl, %ebx
	pinsrb	$11, %ebx, %xmm3
	pextrb	$12, %xmm2, %ebx
	movzbl	%bl, %ebx
	pinsrb	$12, %ebx, %xmm3
	pextrb	$13, %xmm2, %ebx
	movzbl	%bl, %ebx
	pinsrb	$13, %ebx, %xmm3
	pextrb	$14, %xmm2, %ebx
	psllw	$7, %xmm6
	psllw	$7, %xmm5
	psllw	$7, %xmm4
	movzbl	%bl, %ebx
	pinsrb	$14, %ebx, %xmm3
	pmovmskb	%xmm4, %ebx
	movzbl	%cl, %ecx
	pinsrb	$15, %ecx, %xmm3
	psllw	$7, %xmm3
	pmovmskb	%xmm3, %ecx
	shll	$16, %ecx
	orl	%ebx, %ecx
	pmovmskb	%xmm5, %ebx
	shlq	$32, %rbx
	orq	%rcx, %rbx
	pmovmskb	%xmm6, %r15d
	shlq	$48, %r15
	orq	%rbx, %r15
	jmp	.LBB23_152
.LBB23_161:
	leaq	64(%rbx), %r14
	jmp	.LBB23_155
.LBB23_162:
	movq	%r12, %rax
	subq	%rbp, %rax
	movl	96(%rsp), %ebx
	incl	%ebx
	movl	$-1, %ecx
	cmovel	%ecx, %ebx
	movq	%rax, %rcx
	shrq	$32, %rcx
	je	.LBB23_164
	movl	$-1, 40(%rsp)
	jmp	.LBB23_165
.LBB23_164:
	addl	40(%rsp), %eax
	movl	$-1, %ecx
	cmovael	%eax, %ecx
	movl	%ecx, 40(%rsp)
.LBB23_165:
	movl	%ebx, 96(%rsp)
	movq	32(%rsp), %r15
.LBB23_166:
	xorl	%ecx, %ecx
	cmpq	%rbp, %r12
	cmovneq	%rcx, %rsi
	movq	16(%rsp), %r14
	leaq	(%r12,%r14), %rdi
	movq	8(%rsp), %rax
	movzbl	-1(%rax,%rdi), %eax
	movq	192(%rsp), %rbp
	btq	%rax, %rbp
	movq	%rdi, %rbp
	jae	.LBB23_177
	movq	160(%rsp), %rax
	cmpq	%rax, %rsi
	cmovaq	%rsi, %rax
	cmpq	%r14, %rax
	jae	.LBB23_171
	movq	8(%rsp), %rcx
	addq	%r12, %rcx
	.p2align	4
.LBB23_169:
	movzbl	(%r15,%rax), %ebp
	cmpb	(%rcx,%rax), %bpl
	jne	.LBB23_175
	incq	%rax
	cmpq	%rax, 16(%rsp)
	jne	.LBB23_169
.LBB23_171:
	movq	80(%rsp), %rax
	addq	%r12, %rax
	movq	160(%rsp), %rcx
	.p2align	4
.LBB23_172:
	cmpq	%rcx, %rsi
	jae	.LBB23_30
	movzbl	-1(%r15,%rcx), %ebp
	cmpb	(%rax,%rcx), %bpl
	leaq	-1(%rcx), %rcx
	je	.LBB23_172
	addq	152(%rsp), %r12
	movq	136(%rsp), %rcx
	jmp	.LBB23_176
.LBB23_175:
	addq	128(%rsp), %r12
	addq	%rax, %r12
	xorl	%ecx, %ecx
.LBB23_176:
	movq	%r12, %rbp
	movq	16(%rsp), %r14
.LBB23_177:
	addq	%rbp, %r14
	xorl	%eax, %eax
	movq	%rcx, %rsi
	movl	$0, %edx
	cmpq	88(%rsp), %r14
	jbe	.LBB23_114
	jmp	.LBB23_112
.LBB23_178:
	movq	%r10, %rdi
	movq	%rax, %rbp
	subq	%rax, %rdi
	movl	$1, %r10d
	subq	%r8, %r10
	addq	%r13, %rsi
	decq	%rsi
	xorl	%ebx, %ebx
	xorl	%r11d, %r11d
	movq	32(%rsp), %r15
	jmp	.LBB23_181
.LBB23_179:
	xorl	%r11d, %r11d
.LBB23_180:
	movq	16(%rsp), %rax
	leaq	(%rcx,%rax), %r14
	xorl	%eax, %eax
	movq	%rcx, %rbx
	movl	$0, %edx
	cmpq	88(%rsp), %r14
	ja	.LBB23_112
.LBB23_181:
	xorl	%edx, %edx
	cmpq	%r9, %rbx
	movl	$0, %r12d
	cmovbq	%rbx, %r12
	jae	.LBB23_269
	movq	16(%rsp), %r14
	leaq	(%rbx,%r14), %rcx
	movq	8(%rsp), %rax
	movzbl	-1(%rax,%rcx), %eax
	movq	24(%rsp), %rdx
	btq	%rax, %rdx
	jae	.LBB23_179
	cmpq	%r8, %r11
	movq	%r8, %rax
	cmovaq	%r11, %rax
	cmpq	%r14, %rax
	movq	64(%rsp), %r13
	jae	.LBB23_187
	addq	8(%rsp), %rbx
	.p2align	4
.LBB23_185:
	movzbl	(%r15,%rax), %ecx
	cmpb	(%rbx,%rax), %cl
	jne	.LBB23_191
	incq	%rax
	cmpq	%rax, 16(%rsp)
	jne	.LBB23_185
.LBB23_187:
	leaq	(%rsi,%r12), %rax
	movq	%r8, %rcx
	.p2align	4
.LBB23_188:
	cmpq	%rcx, %r11
	jae	.LBB23_111
	movzbl	-1(%r15,%rcx), %ebx
	cmpb	(%rax,%rcx), %bl
	leaq	-1(%rcx), %rcx
	je	.LBB23_188
	addq	%rbp, %r12
	movq	%rdi, %r11
	movq	%r12, %rcx
	jmp	.LBB23_180
.LBB23_191:
	addq	%r10, %r12
	addq	%rax, %r12
	xorl	%r11d, %r11d
	movq	%r12, %rcx
	jmp	.LBB23_180
.LBB23_192:
	leaq	(%r12,%rax), %rcx
	incq	%rcx
.LBB23_193:
	movq	16(%rsp), %r14
.LBB23_194:
	addq	%rcx, %r14
	xorl	%eax, %eax
	movq	%rcx, %rbx
	movl	$0, %edx
	cmpq	88(%rsp), %r14
	ja	.LBB23_112
.LBB23_195:
	xorl	%edx, %edx
	cmpq	%r9, %rbx
	movl	$0, %r12d
	cmovbq	%rbx, %r12
	jae	.LBB23_269
	movq	16(%rsp), %r14
	leaq	(%rbx,%r14), %rcx
	movq	8(%rsp), %rax
	movzbl	-1(%rax,%rcx), %eax
	movq	24(%rsp), %rdx
	btq	%rax, %rdx
	jae	.LBB23_194
	cmpq	%r8, %r14
	movq	64(%rsp), %r13
	jbe	.LBB23_201
	addq	%r10, %rbx
	xorl	%eax, %eax
	.p2align	4
.LBB23_199:
	movzbl	(%r11,%rax), %ecx
	cmpb	(%rbx,%rax), %cl
	jne	.LBB23_192
	incq	%rax
	cmpq	%rax, %rdi
	jne	.LBB23_199
.LBB23_201:
	leaq	(%rsi,%r12), %rax
	movq	%r8, %rbx
	movq	%r8, %rcx
	.p2align	4
.LBB23_202:
	subq	$1, %rcx
	jb	.LBB23_111
	movzbl	-1(%r15,%rbx), %ebp
	cmpb	(%rax,%rbx), %bpl
	movq	%rcx, %rbx
	je	.LBB23_202
	addq	96(%rsp), %r12
	movq	%r12, %rcx
	jmp	.LBB23_193
.LBB23_269:
	xorl	%eax, %eax
	jmp	.LBB23_112
.Lfunc_end23:
	.size	"utf16_bytes::bytes::find_bytes", .Lfunc_end23-"utf16_bytes::bytes::find_bytes"
	.cfi_endproc
	.section	".rodata.utf16_bytes::bytes::find_bytes","a",@progbits
	.p2align	2, 0x0
.LJTI23_0:
	.long	.LBB23_111-.LJTI23_0
	.long	.LBB23_3-.LJTI23_0
	.long	.LBB23_11-.LJTI23_0
	.long	.LBB23_31-.LJTI23_0
	.long	.LBB23_8-.LJTI23_0

	.section	".text.core::slice::scan::any_in_quarters::<#953750c03e87c3e2>","ax",@progbits
	.p2align	4
	.type	"core::slice::scan::any_in_quarters::<#953750c03e87c3e2>",@function
"core::slice::scan::any_in_quarters::<#953750c03e87c3e2>":
	.cfi_startproc
	leaq	-8(%rdx), %rax
	cmpq	$8, %rax
	movl	$8, %ecx
	cmovbq	%rax, %rcx
	cmpq	$16, %rax
	movl	$16, %r8d
	cmovbq	%rax, %r8
	movq	(%rdi,%rcx), %xmm0
	movq	(%rdi), %xmm1
	punpcklqdq	%xmm0, %xmm1
	movq	(%rdi,%r8), %xmm0
	movq	-8(%rdi,%rdx), %xmm2
	punpcklqdq	%xmm2, %xmm0
	movq	(%rsi,%rcx), %xmm2
	movq	(%rsi), %xmm3
	punpcklqdq	%xmm2, %xmm3
	pxor	%xmm1, %xmm3
	movq	(%rsi,%r8), %xmm1
	movq	-8(%rsi,%rdx), %xmm2
	punpcklqdq	%xmm2, %xmm1
	pxor	%xmm0, %xmm1
	por	%xmm3, %xmm1
	ptest	%xmm1, %xmm1
	setne	%al
	retq
.Lfunc_end24:
	.size	"core::slice::scan::any_in_quarters::<#953750c03e87c3e2>", .Lfunc_end24-"core::slice::scan::any_in_quarters::<#953750c03e87c3e2>"
	.cfi_endproc

	.section	".text.core::cmp::slices::groups_equal::<i8,31'core::cmp::numbers::U8PartialEq{}>","ax",@progbits
	.p2align	4
	.type	"core::cmp::slices::groups_equal::<i8,31'core::cmp::numbers::U8PartialEq{}>",@function
"core::cmp::slices::groups_equal::<i8,31'core::cmp::numbers::U8PartialEq{}>":
	.cfi_startproc
	cmpq	$8, %rsi
	ja	.LBB25_2
	movd	(%rdi), %xmm0
	pinsrd	$1, -4(%rdi,%rsi), %xmm0
	movd	(%rdx), %xmm1
	pinsrd	$1, -4(%rdx,%rsi), %xmm1
	movq	%xmm0, %rax
	movq	%xmm1, %rcx
	cmpq	%rcx, %rax
.LBB25_14:
	setne	%al
.LBB25_15:
	xorb	$1, %al
	retq
.LBB25_2:
	cmpq	$32, %rsi
	ja	.LBB25_4
	pushq	%rax
	.cfi_def_cfa_offset 16
	movq	%rsi, %rax
	movq	%rdx, %rsi
	movq	%rax, %rdx
	callq	"core::slice::scan::any_in_quarters::<#953750c03e87c3e2>"
	addq	$8, %rsp
	.cfi_def_cfa_offset 8
	xorb	$1, %al
	retq
.LBB25_4:
	cmpq	$65, %rsi
	jae	.LBB25_5
	movdqu	(%rdi), %xmm0
	movdqu	16(%rdi), %xmm1
	movdqu	(%rdx), %xmm2
	pxor	%xmm0, %xmm2
	movdqu	16(%rdx), %xmm0
	pxor	%xmm1, %xmm0
	movdqu	-32(%rdi,%rsi), %xmm1
	movdqu	-16(%rdi,%rsi), %xmm3
	movdqu	-32(%rdx,%rsi), %xmm4
	pxor	%xmm1, %xmm4
	por	%xmm2, %xmm4
	movdqu	-16(%rdx,%rsi), %xmm1
	pxor	%xmm3, %xmm1
	por	%xmm0, %xmm1
	por	%xmm4, %xmm1
	ptest	%xmm1, %xmm1
	jmp	.LBB25_14
.LBB25_5:
	xorl	%eax, %eax
	movq	%rsi, %rcx
	.p2align	4
.LBB25_6:
	movdqu	(%rdi,%rax), %xmm0
	movdqu	16(%rdi,%rax), %xmm1
	movdqu	32(%rdi,%rax), %xmm2
	movdqu	48(%rdi,%rax), %xmm3
	movdqu	(%rdx,%rax), %xmm4
	pcmpeqb	%xmm0, %xmm4
	movdqu	16(%rdx,%rax), %xmm0
	pcmpeqb	%xmm1, %xmm0
	movdqu	32(%rdx,%rax), %xmm1
	pcmpeqb	%xmm2, %xmm1
	pand	%xmm4, %xmm1
	movdqu	48(%rdx,%rax), %xmm2
	pcmpeqb	%xmm3, %xmm2
	pand	%xmm0, %xmm2
	pand	%xmm1, %xmm2
	pmovmskb	%xmm2, %r8d
	cmpl	$65535, %r8d
	jne	.LBB25_8
	addq	$64, %rax
	addq	$-64, %rcx
	cmpq	$63, %rcx
	ja	.LBB25_6
.LBB25_8:
	cmpq	$32, %rcx
	jb	.LBB25_13
	movq	%rsi, %rcx
	subq	%rax, %rcx
	.p2align	4
.LBB25_10:
	movdqu	(%rdi,%rax), %xmm0
	movdqu	16(%rdi,%rax), %xmm1
	movdqu	(%rdx,%rax), %xmm2
	pxor	%xmm0, %xmm2
	movdqu	16(%rdx,%rax), %xmm0
	pxor	%xmm1, %xmm0
	por	%xmm2, %xmm0
	ptest	%xmm0, %xmm0
	jne	.LBB25_12
	addq	$32, %rax
	addq	$-32, %rcx
	cmpq	$32, %rcx
	jae	.LBB25_10
	jmp	.LBB25_13
.LBB25_12:
	movb	$1, %al
	cmpq	$31, %rcx
	ja	.LBB25_15
.LBB25_13:
	movdqu	-32(%rdi,%rsi), %xmm0
	movdqu	-16(%rdi,%rsi), %xmm1
	movdqu	-32(%rdx,%rsi), %xmm2
	pxor	%xmm0, %xmm2
	movdqu	-16(%rdx,%rsi), %xmm0
	pxor	%xmm1, %xmm0
	por	%xmm2, %xmm0
	ptest	%xmm0, %xmm0
	jmp	.LBB25_14
.Lfunc_end25:
	.size	"core::cmp::slices::groups_equal::<i8,31'core::cmp::numbers::U8PartialEq{}>", .Lfunc_end25-"core::cmp::slices::groups_equal::<i8,31'core::cmp::numbers::U8PartialEq{}>"
	.cfi_endproc

	.section	".text.core::slice::reads::slice+T::starts_with::<i8,31'core::cmp::numbers::U8PartialEq{}>","ax",@progbits
	.p2align	4
	.type	"core::slice::reads::slice+T::starts_with::<i8,31'core::cmp::numbers::U8PartialEq{}>",@function
"core::slice::reads::slice+T::starts_with::<i8,31'core::cmp::numbers::U8PartialEq{}>":
	.cfi_startproc
	cmpq	%rcx, %rsi
	jae	.LBB26_3
	xorl	%eax, %eax
	retq
.LBB26_3:
	cmpq	$3, %rcx
	ja	.LBB26_7
	testq	%rcx, %rcx
	je	.LBB26_5
	movzbl	(%rdx), %eax
	xorb	(%rdi), %al
	movq	%rcx, %rsi
	shrq	%rsi
	movzbl	(%rdx,%rsi), %r8d
	xorb	(%rdi,%rsi), %r8b
	orb	%al, %r8b
	movzbl	-1(%rdx,%rcx), %eax
	xorb	-1(%rdi,%rcx), %al
	orb	%r8b, %al
	jmp	.LBB26_21
.LBB26_7:
	cmpq	$8, %rcx
	ja	.LBB26_9
	movd	(%rdx), %xmm0
	pinsrd	$1, -4(%rdx,%rcx), %xmm0
	movd	(%rdi), %xmm1
	pinsrd	$1, -4(%rdi,%rcx), %xmm1
	movq	%xmm0, %rax
	movq	%xmm1, %rcx
	cmpq	%rcx, %rax
.LBB26_21:
	setne	%al
.LBB26_22:
	xorb	$1, %al
	retq
.LBB26_9:
	cmpq	$32, %rcx
	ja	.LBB26_11
	pushq	%rax
	.cfi_def_cfa_offset 16
	movq	%rdi, %rsi
	movq	%rdx, %rdi
	movq	%rcx, %rdx
	callq	"core::slice::scan::any_in_quarters::<#953750c03e87c3e2>"
	addq	$8, %rsp
	.cfi_def_cfa_offset 8
	xorb	$1, %al
	retq
.LBB26_5:
	xorl	%eax, %eax
	xorb	$1, %al
	retq
.LBB26_11:
	cmpq	$65, %rcx
	jae	.LBB26_12
	movdqu	(%rdx), %xmm0
	movdqu	16(%rdx), %xmm1
	movdqu	(%rdi), %xmm2
	pxor	%xmm0, %xmm2
	movdqu	16(%rdi), %xmm0
	pxor	%xmm1, %xmm0
	movdqu	-32(%rdx,%rcx), %xmm1
	movdqu	-16(%rdx,%rcx), %xmm3
	movdqu	-32(%rdi,%rcx), %xmm4
	pxor	%xmm1, %xmm4
	por	%xmm2, %xmm4
	movdqu	-16(%rdi,%rcx), %xmm1
	pxor	%xmm3, %xmm1
	por	%xmm0, %xmm1
	por	%xmm4, %xmm1
	ptest	%xmm1, %xmm1
	jmp	.LBB26_21
.LBB26_12:
	xorl	%eax, %eax
	movq	%rcx, %rsi
	.p2align	4
.LBB26_13:
	movdqu	(%rdx,%rax), %xmm0
	movdqu	16(%rdx,%rax), %xmm1
	movdqu	32(%rdx,%rax), %xmm2
	movdqu	48(%rdx,%rax), %xmm3
	movdqu	(%rdi,%rax), %xmm4
	pcmpeqb	%xmm0, %xmm4
	movdqu	16(%rdi,%rax), %xmm0
	pcmpeqb	%xmm1, %xmm0
	movdqu	32(%rdi,%rax), %xmm1
	pcmpeqb	%xmm2, %xmm1
	pand	%xmm4, %xmm1
	movdqu	48(%rdi,%rax), %xmm2
	pcmpeqb	%xmm3, %xmm2
	pand	%xmm0, %xmm2
	pand	%xmm1, %xmm2
	pmovmskb	%xmm2, %r8d
	cmpl	$65535, %r8d
	jne	.LBB26_15
	addq	$64, %rax
	addq	$-64, %rsi
	cmpq	$63, %rsi
	ja	.LBB26_13
.LBB26_15:
	cmpq	$32, %rsi
	jb	.LBB26_20
	movq	%rcx, %rsi
	subq	%rax, %rsi
	.p2align	4
.LBB26_17:
	movdqu	(%rdx,%rax), %xmm0
	movdqu	16(%rdx,%rax), %xmm1
	movdqu	(%rdi,%rax), %xmm2
	pxor	%xmm0, %xmm2
	movdqu	16(%rdi,%rax), %xmm0
	pxor	%xmm1, %xmm0
	por	%xmm2, %xmm0
	ptest	%xmm0, %xmm0
	jne	.LBB26_19
	addq	$32, %rax
	addq	$-32, %rsi
	cmpq	$32, %rsi
	jae	.LBB26_17
	jmp	.LBB26_20
.LBB26_19:
	movb	$1, %al
	cmpq	$31, %rsi
	ja	.LBB26_22
.LBB26_20:
	movdqu	-32(%rdx,%rcx), %xmm0
	movdqu	-16(%rdx,%rcx), %xmm1
	movdqu	-32(%rdi,%rcx), %xmm2
	pxor	%xmm0, %xmm2
	movdqu	-16(%rdi,%rcx), %xmm0
	pxor	%xmm1, %xmm0
	por	%xmm2, %xmm0
	ptest	%xmm0, %xmm0
	jmp	.LBB26_21
.Lfunc_end26:
	.size	"core::slice::reads::slice+T::starts_with::<i8,31'core::cmp::numbers::U8PartialEq{}>", .Lfunc_end26-"core::slice::reads::slice+T::starts_with::<i8,31'core::cmp::numbers::U8PartialEq{}>"
	.cfi_endproc

	.section	".text.memchr::memmem::FinderRev::new","ax",@progbits
	.p2align	4
	.type	"memchr::memmem::FinderRev::new",@function
"memchr::memmem::FinderRev::new":
	.cfi_startproc
	pushq	%rbp
	.cfi_def_cfa_offset 16
	pushq	%r15
	.cfi_def_cfa_offset 24
	pushq	%r14
	.cfi_def_cfa_offset 32
	pushq	%r12
	.cfi_def_cfa_offset 40
	pushq	%rbx
	.cfi_def_cfa_offset 48
	subq	$64, %rsp
	.cfi_def_cfa_offset 112
	.cfi_offset %rbx, -48
	.cfi_offset %r12, -40
	.cfi_offset %r14, -32
	.cfi_offset %r15, -24
	.cfi_offset %rbp, -16
	pxor	%xmm0, %xmm0
	movdqa	%xmm0, 16(%rsp)
	movdqa	%xmm0, (%rsp)
	testq	%rdx, %rdx
	je	.LBB27_1
	cmpq	$1, %rdx
	jne	.LBB27_3
	movzbl	(%rsi), %r15d
	movb	$1, %al
	xorl	%r8d, %r8d
	xorl	%ecx, %ecx
	xorl	%r9d, %r9d
	xorl	%r10d, %r10d
	jmp	.LBB27_23
.LBB27_1:
	movq	%rdx, %xmm0
	pshufd	$68, %xmm0, %xmm0
	xorl	%eax, %eax
	xorl	%r15d, %r15d
	xorl	%r8d, %r8d
	movq	%rdx, %rcx
	movq	%rdx, %r9
	movq	%rdx, %r10
	jmp	.LBB27_23
.LBB27_3:
	movzbl	(%rsi), %ecx
	movzbl	1(%rsi), %r9d
	leaq	.Lstatic.3(%rip), %rax
	movzbl	(%r9,%rax), %r8d
	cmpb	(%rcx,%rax), %r8b
	jae	.LBB27_4
	movb	$1, %r15b
	xorl	%ebp, %ebp
	movl	%ecx, %r8d
	movl	%r9d, %ecx
	cmpq	$2, %rdx
	jne	.LBB27_7
	jmp	.LBB27_14
.LBB27_4:
	movb	$1, %bpl
	xorl	%r15d, %r15d
	movl	%r9d, %r8d
	cmpq	$2, %rdx
	je	.LBB27_14
.LBB27_7:
	cmpq	$255, %rdx
	movl	$255, %r9d
	cmovbq	%rdx, %r9
	movl	$2, %r10d
	jmp	.LBB27_8
	.p2align	4
.LBB27_9:
	movl	%r15d, %ebp
	movl	%ecx, %r8d
	movl	%r10d, %r15d
	incq	%r10
	movl	%r11d, %ecx
	cmpq	%r10, %r9
	je	.LBB27_14
.LBB27_8:
	movzbl	(%rsi,%r10), %r11d
	movzbl	(%r11,%rax), %ebx
	movzbl	%cl, %r14d
	cmpb	(%r14,%rax), %bl
	jb	.LBB27_9
	cmpb	%cl, %r11b
	je	.LBB27_12
	movzbl	%r8b, %r14d
	cmpb	(%r14,%rax), %bl
	movzbl	%bpl, %ebp
	cmovbl	%r10d, %ebp
	movzbl	%r11b, %r8d
	cmovael	%r14d, %r8d
.LBB27_12:
	movl	%ecx, %r11d
	incq	%r10
	movl	%r11d, %ecx
	cmpq	%r10, %r9
	jne	.LBB27_8
.LBB27_14:
	movzbl	%r15b, %ecx
	movzbl	(%rsi,%rcx), %r9d
	movzbl	%bpl, %eax
	cmpb	%r9b, (%rsi,%rax)
	jne	.LBB27_19
	cmpq	$255, %rdx
	movl	$255, %r10d
	cmovbq	%rdx, %r10
	xorl	%r8d, %r8d
	.p2align	4
.LBB27_16:
	cmpb	%r9b, (%rsi,%r8)
	jne	.LBB27_17
	incq	%r8
	cmpq	%r8, %r10
	jne	.LBB27_16
.LBB27_19:
	movq	%rdi, %r12
	cmpq	$33, %rdx
	jae	.LBB27_21
.LBB27_20:
	pxor	%xmm0, %xmm0
	movdqa	%xmm0, 48(%rsp)
	movdqa	%xmm0, 32(%rsp)
	leaq	32(%rsp), %rdi
	movq	%rsi, %rbx
	movq	%rdx, %r14
	callq	memcpy@PLT
	movq	%rbx, %rsi
	movq	%r14, %rdx
	movdqa	32(%rsp), %xmm0
	movq	48(%rsp), %rcx
	movq	56(%rsp), %r9
	movzbl	%bpl, %r8d
	shll	$8, %r8d
	movb	$2, %al
	movq	%r14, %r10
	jmp	.LBB27_22
.LBB27_17:
	movl	%r8d, %r9d
	cmpb	%r8b, %cl
	cmovel	%eax, %r8d
	cmpq	%rcx, %rdx
	movzbl	%r9b, %ecx
	cmovbel	%eax, %r8d
	cmpq	%rcx, %rdx
	cmovbel	%eax, %r8d
	movl	%r8d, %ebp
	movq	%rdi, %r12
	cmpq	$33, %rdx
	jb	.LBB27_20
.LBB27_21:
	movq	%rsp, %rdi
	movq	%rsi, %rbx
	movq	%rdx, %r14
	movl	$1, %ecx
	callq	"memchr::arch::all::twoway::TwoWay::new"
	movq	%rbx, %rsi
	movq	%r14, %rdx
	movdqa	(%rsp), %xmm0
	movzbl	16(%rsp), %ecx
	movb	$3, %al
	xorl	%r15d, %r15d
	movq	24(%rsp), %r9
	xorl	%r8d, %r8d
	xorl	%r10d, %r10d
.LBB27_22:
	movq	%r12, %rdi
.LBB27_23:
	movzbl	%r15b, %r11d
	orl	%r11d, %r8d
	movq	$0, (%rdi)
	movq	%rsi, 8(%rdi)
	movq	%rdx, 16(%rdi)
	movq	$0, 24(%rdi)
	movb	%al, 32(%rdi)
	movw	%r8w, 33(%rdi)
	movl	$0, 35(%rdi)
	movb	$0, 39(%rdi)
	movdqu	%xmm0, 40(%rdi)
	movq	%rcx, 56(%rdi)
	movq	%r9, 64(%rdi)
	movq	%r10, 72(%rdi)
	addq	$64, %rsp
	.cfi_def_cfa_offset 48
	popq	%rbx
	.cfi_def_cfa_offset 40
	popq	%r12
	.cfi_def_cfa_offset 32
	popq	%r14
	.cfi_def_cfa_offset 24
	popq	%r15
	.cfi_def_cfa_offset 16
	popq	%rbp
	.cfi_def_cfa_offset 8
	retq
.Lfunc_end27:
	.size	"memchr::memmem::FinderRev::new", .Lfunc_end27-"memchr::memmem::FinderRev::new"
	.cfi_endproc

	.section	".text.utf16_bytes::bytes::rfind_bytes","ax",@progbits
	.p2align	4
	.type	"utf16_bytes::bytes::rfind_bytes",@function
"utf16_bytes::bytes::rfind_bytes":
	.cfi_startproc
	pushq	%rbp
	.cfi_def_cfa_offset 16
	pushq	%r15
	.cfi_def_cfa_offset 24
	pushq	%r14
	.cfi_def_cfa_offset 32
	pushq	%r13
	.cfi_def_cfa_offset 40
	pushq	%r12
	.cfi_def_cfa_offset 48
	pushq	%rbx
	.cfi_def_cfa_offset 56
	subq	$152, %rsp
	.cfi_def_cfa_offset 208
	.cfi_offset %rbx, -56
	.cfi_offset %r12, -48
	.cfi_offset %r13, -40
	.cfi_offset %r14, -32
	.cfi_offset %r15, -24
	.cfi_offset %rbp, -16
	movq	16(%rdi), %r11
	movq	%rdx, %r13
	subq	%r11, %r13
	jae	.LBB28_2
.LBB28_1:
	xorl	%r12d, %r12d
	xorl	%eax, %eax
	jmp	.LBB28_74
.LBB28_2:
	movq	8(%rdi), %rax
	movq	%rax, 8(%rsp)
	movzbl	32(%rdi), %ecx
	movb	$1, %al
	leaq	.LJTI28_0(%rip), %r8
	movslq	(%r8,%rcx,4), %rcx
	addq	%r8, %rcx
	movq	%r11, 16(%rsp)
	notrack jmpq	*%rcx
.LBB28_3:
	movzbl	33(%rdi), %edi
	cmpq	$32, %rdx
	jb	.LBB28_14
	movzbl	%dil, %ecx
	movd	%ecx, %xmm0
	pxor	%xmm1, %xmm1
	pshufb	%xmm1, %xmm0
.LBB28_5:
	movdqu	-32(%rsi,%rdx), %xmm1
	movdqu	-16(%rsi,%rdx), %xmm2
	pcmpeqb	%xmm0, %xmm1
	pmovmskb	%xmm1, %r8d
	pcmpeqb	%xmm0, %xmm2
	pmovmskb	%xmm2, %ecx
	shll	$16, %ecx
	orl	%r8d, %ecx
	je	.LBB28_9
	leaq	-32(%rdx), %r8
	movl	%ecx, %r9d
	.p2align	4
.LBB28_7:
	bsrq	%r9, %rcx
	leaq	(%rcx,%r8), %r12
	cmpb	%dil, (%rsi,%r12)
	je	.LBB28_74
	movq	$-2, %r10
	rolq	%cl, %r10
	andq	%r10, %r9
	jne	.LBB28_7
.LBB28_9:
	movq	%rdx, %r8
	.p2align	4
.LBB28_10:
	movq	%r8, %rcx
	leaq	-32(%r8), %rdx
	cmpq	$128, %rdx
	jb	.LBB28_12
	movdqu	-160(%rsi,%rcx), %xmm1
	movdqu	-144(%rsi,%rcx), %xmm2
	movdqu	-128(%rsi,%rcx), %xmm3
	movdqu	-112(%rsi,%rcx), %xmm4
	pcmpeqb	%xmm0, %xmm1
	pcmpeqb	%xmm0, %xmm2
	pcmpeqb	%xmm0, %xmm3
	por	%xmm1, %xmm3
	pcmpeqb	%xmm0, %xmm4
	por	%xmm2, %xmm4
	movdqu	-80(%rsi,%rcx), %xmm1
	movdqu	-96(%rsi,%rcx), %xmm2
	pcmpeqb	%xmm0, %xmm2
	pcmpeqb	%xmm0, %xmm1
	movdqu	-48(%rsi,%rcx), %xmm5
	movdqu	-64(%rsi,%rcx), %xmm6
	pcmpeqb	%xmm0, %xmm6
	por	%xmm2, %xmm6
	por	%xmm3, %xmm6
	pcmpeqb	%xmm0, %xmm5
	por	%xmm1, %xmm5
	por	%xmm4, %xmm5
	por	%xmm6, %xmm5
	pmovmskb	%xmm5, %r9d
	leaq	-128(%rcx), %r8
	testl	%r9d, %r9d
	je	.LBB28_10
.LBB28_12:
	cmpq	$31, %rdx
	ja	.LBB28_5
	addq	$-32, %rcx
	movq	%rcx, %rdx
	.p2align	4
.LBB28_14:
	testq	%rdx, %rdx
	je	.LBB28_1
	leaq	-1(%rdx), %r12
	cmpb	%dil, -1(%rsi,%rdx)
	movq	%r12, %rdx
	jne	.LBB28_14
	jmp	.LBB28_74
.LBB28_16:
	movdqu	40(%rdi), %xmm8
	movdqu	56(%rdi), %xmm9
	movq	72(%rdi), %r10
	incq	%r13
	cmpq	$32, %r13
	movq	%r10, 24(%rsp)
	jb	.LBB28_76
	movzbl	33(%rdi), %ecx
	movzbl	34(%rdi), %edi
	leaq	(%rsi,%rcx), %rbp
	leaq	(%rsi,%rdi), %r15
	movq	8(%rsp), %r8
	movzbl	(%r8,%rcx), %ecx
	movd	%ecx, %xmm10
	pxor	%xmm0, %xmm0
	pshufb	%xmm0, %xmm10
	movzbl	(%r8,%rdi), %ecx
	movd	%ecx, %xmm11
	pshufb	%xmm0, %xmm11
	leaq	-1(%r11), %r14
	leaq	-1(%rsi,%r11), %rcx
	movq	%rcx, 104(%rsp)
	movq	$-1, %rdi
	movl	%r10d, %ecx
	shlq	%cl, %rdi
	notq	%rdi
	movq	%rdi, 32(%rsp)
	movq	%rsi, 96(%rsp)
	movq	%rdx, 88(%rsp)
	movdqa	%xmm8, 48(%rsp)
	movdqa	%xmm9, 64(%rsp)
	movdqa	%xmm10, 128(%rsp)
	movdqa	%xmm11, 112(%rsp)
	movq	%r14, 80(%rsp)
	jmp	.LBB28_19
	.p2align	4
.LBB28_18:
	cmpq	$31, %r13
	jbe	.LBB28_75
.LBB28_19:
	movdqu	-32(%rbp,%r13), %xmm2
	movdqu	-16(%rbp,%r13), %xmm3
	pcmpeqb	%xmm10, %xmm2
	pcmpeqb	%xmm10, %xmm3
	movdqu	-32(%r15,%r13), %xmm0
	movdqu	-16(%r15,%r13), %xmm1
	pcmpeqb	%xmm11, %xmm0
	pand	%xmm2, %xmm0
	pcmpeqb	%xmm11, %xmm1
	pand	%xmm3, %xmm1
	movdqa	%xmm1, %xmm2
	por	%xmm0, %xmm2
	pmovmskb	%xmm2, %ecx
	testl	%ecx, %ecx
	je	.LBB28_38
	pextrb	$15, %xmm1, %ecx
	pextrb	$14, %xmm1, %edi
	pextrb	$13, %xmm1, %r8d
	pextrb	$12, %xmm1, %r9d
	movd	%xmm1, %r10d
	movzbl	%r10b, %r10d
	movd	%r10d, %xmm2
	pextrb	$1, %xmm1, %r10d
	movzbl	%r10b, %r10d
	pinsrb	$1, %r10d, %xmm2
	pextrb	$2, %xmm1, %r10d
	movzbl	%r10b, %r10d
	pinsrb	$2, %r10d, %xmm2
	pextrb	$3, %xmm1, %r10d
	movzbl	%r10b, %r10d
	pinsrb	$3, %r10d, %xmm2
	pextrb	$4, %xmm1, %r10d
	movzbl	%r10b, %r10d
	pinsrb	$4, %r10d, %xmm2
	pextrb	$5, %xmm1, %r10d
	movzbl	%r10b, %r10d
	pinsrb	$5, %r10d, %xmm2
	pextrb	$6, %xmm1, %r10d
	movzbl	%r10b, %r10d
	pinsrb	$6, %r10d, %xmm2
	pextrb	$7, %xmm1, %r10d
	movzbl	%r10b, %r10d
	pinsrb	$7, %r10d, %xmm2
	pextrb	$8, %xmm1, %r10d
	movzbl	%r10b, %r10d
	pinsrb	$8, %r10d, %xmm2
	pextrb	$9, %xmm1, %r10d
	movzbl	%r10b, %r10d
	pinsrb	$9, %r10d, %xmm2
	pextrb	$10, %xmm1, %r10d
	movzbl	%r10b, %r10d
	pinsrb	$10, %r10d, %xmm2
	pextrb	$11, %xmm1, %r10d
	movzbl	%r10b, %r10d
	pinsrb	$11, %r10d, %xmm2
	pextrb	$15, %xmm0, %r10d
	movzbl	%r9b, %r9d
	pinsrb	$12, %r9d, %xmm2
	pextrb	$14, %xmm0, %r9d
	movzbl	%r8b, %r8d
	pinsrb	$13, %r8d, %xmm2
	pextrb	$12, %xmm0, %r8d
	movzbl	%dil, %edi
	pinsrb	$14, %edi, %xmm2
	pextrb	$1, %xmm0, %edi
	movzbl	%cl, %ecx
	pinsrb	$15, %ecx, %xmm2
	movd	%xmm0, %ecx
	movzbl	%cl, %ecx
	movd	%ecx, %xmm1
	movzbl	%dil, %ecx
	pinsrb	$1, %ecx, %xmm1
	pextrb	$2, %xmm0, %ecx
	movzbl	%cl, %ecx
	pinsrb	$2, %ecx, %xmm1
	pextrb	$3, %xmm0, %ecx
	movzbl	%cl, %ecx
	pinsrb	$3, %ecx, %xmm1
	pextrb	$4, %xmm0, %ecx
	movzbl	%cl, %ecx
	pinsrb	$4, %ecx, %xmm1
	pextrb	$5, %xmm0, %ecx
	movzbl	%cl, %ecx
	pinsrb	$5, %ecx, %xmm1
	pextrb	$6, %xmm0, %ecx
	movzbl	%cl, %ecx
	pinsrb	$6, %ecx, %xmm1
	pextrb	$7, %xmm0, %ecx
	movzbl	%cl, %ecx
	pinsrb	$7, %ecx, %xmm1
	pextrb	$8, %xmm0, %ecx
	movzbl	%cl, %ecx
	pinsrb	$8, %ecx, %xmm1
	pextrb	$9, %xmm0, %ecx
	movzbl	%cl, %ecx
	pinsrb	$9, %ecx, %xmm1
	pextrb	$10, %xmm0, %ecx
	movzbl	%cl, %ecx
	pinsrb	$10, %ecx, %xmm1
	pextrb	$11, %xmm0, %ecx
	movzbl	%cl, %ecx
	pinsrb	$11, %ecx, %xmm1
	leaq	-32(%r13), %rbx
	movzbl	%r8b, %ecx
	pinsrb	$12, %ecx, %xmm1
	pextrb	$13, %xmm0, %ecx
	movdqu	(%rsi,%rbx), %xmm0
	movdqu	16(%rsi,%rbx), %xmm3
	movzbl	%cl, %ecx
	pinsrb	$13, %ecx, %xmm1
	movq	8(%rsp), %rdi
	movzbl	(%rdi,%r14), %ecx
	movd	%ecx, %xmm4
	movzbl	(%rdi), %ecx
	movl	%ecx, 40(%rsp)
	movd	%ecx, %xmm5
	pxor	%xmm6, %xmm6
	pshufb	%xmm6, %xmm5
	pcmpeqb	%xmm5, %xmm3
	pcmpeqb	%xmm0, %xmm5
	pshufb	%xmm6, %xmm4
	movq	104(%rsp), %rcx
	movdqu	16(%rcx,%rbx), %xmm0
	pcmpeqb	%xmm4, %xmm0
	pand	%xmm3, %xmm0
	movdqu	(%rcx,%rbx), %xmm3
	pcmpeqb	%xmm3, %xmm4
	movzbl	%r9b, %ecx
	pinsrb	$14, %ecx, %xmm1
	pand	%xmm5, %xmm4
	movzbl	%r10b, %ecx
	movq	24(%rsp), %r10
	pinsrb	$15, %ecx, %xmm1
	pand	%xmm0, %xmm2
	pand	%xmm4, %xmm1
	psllw	$7, %xmm1
	pmovmskb	%xmm1, %edi
	psllw	$7, %xmm2
	pmovmskb	%xmm2, %ecx
	shll	$16, %ecx
	orl	%edi, %ecx
	je	.LBB28_38
	movq	%rbx, %r9
	movl	%ecx, %ebx
	jmp	.LBB28_24
	.p2align	4
.LBB28_22:
	movdqu	(%rsi,%r12), %xmm0
	movdqu	16(%rsi,%r12), %xmm1
	pcmpeqb	%xmm8, %xmm0
	pmovmskb	%xmm0, %edi
	xorl	$65535, %edi
	pcmpeqb	%xmm9, %xmm1
	pmovmskb	%xmm1, %r8d
	notl	%r8d
	shll	$16, %r8d
	orl	%edi, %r8d
	testl	%r8d, 32(%rsp)
	je	.LBB28_74
.LBB28_23:
	movq	$-2, %rdi
	rolq	%cl, %rdi
	andq	%rdi, %rbx
	je	.LBB28_38
.LBB28_24:
	bsrq	%rbx, %rcx
	leaq	(%rcx,%r9), %r12
	movq	%rdx, %rdi
	subq	%r12, %rdi
	cmpq	$32, %r10
	ja	.LBB28_26
	cmpq	$32, %rdi
	jae	.LBB28_22
.LBB28_26:
	cmpq	%rdi, %r11
	ja	.LBB28_23
	leaq	(%rsi,%r12), %rdi
	cmpq	$4, %r11
	jae	.LBB28_35
	testq	%r11, %r11
	je	.LBB28_73
	movzbl	(%rdi), %r8d
	movq	8(%rsp), %r9
	cmpb	(%r9), %r8b
	jne	.LBB28_37
	cmpq	$1, %r11
	je	.LBB28_73
	movzbl	1(%rdi), %r9d
	movl	$1, %r8d
	movq	8(%rsp), %r10
	cmpb	1(%r10), %r9b
	movq	24(%rsp), %r10
	jne	.LBB28_34
	cmpq	$2, %r11
	je	.LBB28_73
	movzbl	2(%rdi), %edi
	movl	$2, %r8d
	movq	8(%rsp), %r9
	cmpb	2(%r9), %dil
	je	.LBB28_73
.LBB28_34:
	cmpq	%r11, %r8
	leaq	-32(%r13), %r9
	jb	.LBB28_23
	jmp	.LBB28_74
.LBB28_35:
	movq	8(%rsp), %r9
	movzwl	1(%r9), %r8d
	movd	%r8d, %xmm0
	pslld	$8, %xmm0
	movzbl	40(%rsp), %r8d
	pinsrb	$0, %r8d, %xmm0
	pinsrb	$3, 3(%r9), %xmm0
	leaq	-32(%r13), %r9
	movd	%xmm0, %r8d
	cmpl	%r8d, (%rdi)
	jne	.LBB28_23
	movq	%r11, %rsi
	movq	8(%rsp), %rdx
	movq	%rcx, %r14
	callq	"core::cmp::slices::groups_equal::<i8,31'core::cmp::numbers::U8PartialEq{}>"
	leaq	-32(%r13), %r9
	movdqa	112(%rsp), %xmm11
	movdqa	128(%rsp), %xmm10
	movq	24(%rsp), %r10
	movdqa	64(%rsp), %xmm9
	movdqa	48(%rsp), %xmm8
	movq	%r14, %rcx
	movq	80(%rsp), %r14
	movq	16(%rsp), %r11
	movq	96(%rsp), %rsi
	movq	88(%rsp), %rdx
	movl	%eax, %edi
	movb	$1, %al
	testb	%dil, %dil
	je	.LBB28_23
	jmp	.LBB28_74
.LBB28_37:
	xorl	%r8d, %r8d
	cmpq	%r11, %r8
	leaq	-32(%r13), %r9
	jb	.LBB28_23
	jmp	.LBB28_74
	.p2align	4
.LBB28_38:
	addq	$-64, %r13
	movq	%r13, %rdi
	.p2align	4
.LBB28_39:
	movq	%rdi, %rcx
	leaq	32(%rdi), %r13
	cmpq	$128, %r13
	jb	.LBB28_18
	movdqu	-96(%rbp,%rcx), %xmm2
	movdqu	-80(%rbp,%rcx), %xmm3
	movdqu	-64(%rbp,%rcx), %xmm4
	movdqu	-48(%rbp,%rcx), %xmm5
	pcmpeqb	%xmm10, %xmm3
	pcmpeqb	%xmm10, %xmm2
	movdqu	-96(%r15,%rcx), %xmm6
	movdqu	-80(%r15,%rcx), %xmm7
	movdqu	-64(%r15,%rcx), %xmm0
	movdqu	-48(%r15,%rcx), %xmm1
	pcmpeqb	%xmm11, %xmm7
	pand	%xmm3, %xmm7
	pcmpeqb	%xmm11, %xmm6
	pand	%xmm2, %xmm6
	pcmpeqb	%xmm10, %xmm5
	pcmpeqb	%xmm10, %xmm4
	pcmpeqb	%xmm11, %xmm1
	pand	%xmm5, %xmm1
	por	%xmm7, %xmm1
	pcmpeqb	%xmm11, %xmm0
	pand	%xmm4, %xmm0
	por	%xmm6, %xmm0
	movdqu	-32(%rbp,%rcx), %xmm2
	movdqu	-16(%rbp,%rcx), %xmm3
	pcmpeqb	%xmm10, %xmm3
	pcmpeqb	%xmm10, %xmm2
	movdqu	-32(%r15,%rcx), %xmm4
	movdqu	-16(%r15,%rcx), %xmm5
	pcmpeqb	%xmm11, %xmm5
	pand	%xmm3, %xmm5
	pcmpeqb	%xmm11, %xmm4
	pand	%xmm2, %xmm4
	movdqu	(%rbp,%rcx), %xmm2
	movdqu	16(%rbp,%rcx), %xmm3
	pcmpeqb	%xmm10, %xmm3
	pcmpeqb	%xmm10, %xmm2
	movdqu	(%r15,%rcx), %xmm6
	movdqu	16(%r15,%rcx), %xmm7
	pcmpeqb	%xmm11, %xmm7
	pand	%xmm3, %xmm7
	por	%xmm5, %xmm7
	por	%xmm1, %xmm7
	pcmpeqb	%xmm11, %xmm6
	pand	%xmm2, %xmm6
	por	%xmm4, %xmm6
	por	%xmm0, %xmm6
	por	%xmm7, %xmm6
	pmovmskb	%xmm6, %r8d
	leaq	-128(%rcx), %rdi
	testl	%r8d, %r8d
	je	.LBB28_39
	jmp	.LBB28_18
.LBB28_41:
	testq	%r11, %r11
	je	.LBB28_72
	movq	40(%rdi), %rcx
	movq	48(%rdi), %r9
	movq	64(%rdi), %rax
	incq	%r13
	leaq	(%rsi,%rdx), %r10
	cmpb	$0, 56(%rdi)
	movq	%rax, 32(%rsp)
	je	.LBB28_44
	movq	8(%rsp), %rax
	addq	%r11, %rax
	movq	%r9, %rdi
	subq	%r11, %rdi
	addq	%rdx, %rsi
	decq	%rsi
	movq	%rsi, 8(%rsp)
	movq	%r9, %r11
	notq	%r11
	movq	%rax, %rsi
	addq	%rax, %r11
	movq	%r9, %rbx
	negq	%rbx
	xorl	%r14d, %r14d
	jmp	.LBB28_61
.LBB28_44:
	movq	%r11, %rdi
	subq	%rax, %rdi
	movq	%rdi, 40(%rsp)
	movl	$1, %eax
	subq	%r9, %rax
	movq	%rax, 48(%rsp)
	movq	%r11, %rbx
	negq	%rbx
	leaq	(%rsi,%rdx), %rax
	decq	%rax
	movq	%rax, 24(%rsp)
	movq	8(%rsp), %rdi
	leaq	(%rdi,%r11), %r14
	decq	%r14
	addq	%r11, %rdi
	movq	%r9, %r15
	negq	%r15
	xorl	%esi, %esi
	xorl	%ebp, %ebp
	jmp	.LBB28_47
.LBB28_45:
	xorl	%ebp, %ebp
.LBB28_46:
	movq	16(%rsp), %rax
	leaq	(%rsi,%rax), %r8
	xorl	%r12d, %r12d
	movl	$0, %eax
	cmpq	%rdx, %r8
	ja	.LBB28_74
.LBB28_47:
	xorl	%r12d, %r12d
	cmpq	%r13, %rsi
	movl	$0, %eax
	cmovbq	%rsi, %rax
	jae	.LBB28_97
	movq	16(%rsp), %r11
	addq	%r11, %rsi
	movq	%r10, %r8
	subq	%rsi, %r8
	movzbl	(%r8), %r8d
	btq	%r8, %rcx
	jae	.LBB28_45
	cmpq	%r9, %rbp
	movq	%r9, %rsi
	cmovaq	%rbp, %rsi
	cmpq	%r11, %rsi
	jae	.LBB28_53
	negq	%rsi
	movq	24(%rsp), %r8
	subq	%rax, %r8
	.p2align	4
.LBB28_51:
	movzbl	(%r14,%rsi), %r12d
	cmpb	(%r8,%rsi), %r12b
	jne	.LBB28_57
	decq	%rsi
	cmpq	%rsi, %rbx
	jne	.LBB28_51
.LBB28_53:
	movq	%r10, %rsi
	subq	%rax, %rsi
	movq	%r15, %r12
	movq	%r9, %r8
	.p2align	4
.LBB28_54:
	cmpq	%r8, %rbp
	jae	.LBB28_71
	decq	%r8
	movzbl	(%rdi,%r12), %r11d
	cmpb	(%rsi,%r12), %r11b
	leaq	1(%r12), %r12
	je	.LBB28_54
	addq	32(%rsp), %rax
	movq	40(%rsp), %rbp
	movq	%rax, %rsi
	jmp	.LBB28_46
.LBB28_57:
	addq	48(%rsp), %rax
	subq	%rsi, %rax
	xorl	%ebp, %ebp
	movq	%rax, %rsi
	jmp	.LBB28_46
.LBB28_58:
	subq	%r14, %rax
	incq	%rax
.LBB28_59:
	movq	%rax, %r14
	movq	16(%rsp), %r15
.LBB28_60:
	leaq	(%r14,%r15), %r8
	xorl	%r12d, %r12d
	movl	$0, %eax
	cmpq	%rdx, %r8
	ja	.LBB28_74
.LBB28_61:
	xorl	%r12d, %r12d
	cmpq	%r13, %r14
	movl	$0, %eax
	cmovbq	%r14, %rax
	jae	.LBB28_97
	movq	16(%rsp), %r15
	addq	%r15, %r14
	movq	%r10, %r8
	subq	%r14, %r8
	movzbl	(%r8), %r8d
	btq	%r8, %rcx
	jae	.LBB28_60
	cmpq	%r15, %r9
	jae	.LBB28_67
	movq	8(%rsp), %r15
	subq	%r9, %r15
	subq	%rax, %r15
	xorl	%r14d, %r14d
	.p2align	4
.LBB28_65:
	movzbl	(%r11,%r14), %r8d
	cmpb	(%r15,%r14), %r8b
	jne	.LBB28_58
	decq	%r14
	cmpq	%r14, %rdi
	jne	.LBB28_65
.LBB28_67:
	movq	%r10, %r8
	subq	%rax, %r8
	movq	%rbx, %r14
	.p2align	4
.LBB28_68:
	testq	%r14, %r14
	je	.LBB28_71
	movzbl	(%rsi,%r14), %ebp
	cmpb	(%r8,%r14), %bpl
	leaq	1(%r14), %r14
	je	.LBB28_68
	addq	32(%rsp), %rax
	jmp	.LBB28_59
.LBB28_71:
	movq	16(%rsp), %rcx
	addq	%rax, %rcx
	subq	%rcx, %rdx
.LBB28_72:
	movq	%rdx, %r12
.LBB28_73:
	movb	$1, %al
.LBB28_74:
	movq	%r12, %rdx
	addq	$152, %rsp
	.cfi_def_cfa_offset 56
	popq	%rbx
	.cfi_def_cfa_offset 48
	popq	%r12
	.cfi_def_cfa_offset 40
	popq	%r13
	.cfi_def_cfa_offset 32
	popq	%r14
	.cfi_def_cfa_offset 24
	popq	%r15
	.cfi_def_cfa_offset 16
	popq	%rbp
	.cfi_def_cfa_offset 8
	retq
.LBB28_97:
	.cfi_def_cfa_offset 208
	xorl	%eax, %eax
	jmp	.LBB28_74
.LBB28_75:
	addq	$32, %rcx
	movq	%rcx, %r13
.LBB28_76:
	testq	%r13, %r13
	je	.LBB28_1
	movq	$-1, %r14
	movl	%r10d, %ecx
	shlq	%cl, %r14
	notq	%r14
	leaq	-1(%r13), %r15
	subq	%r13, %rdx
	incq	%rdx
	movdqa	%xmm8, 48(%rsp)
	movdqa	%xmm9, 64(%rsp)
	jmp	.LBB28_80
	.p2align	4
.LBB28_78:
	movdqu	(%rsi,%r15), %xmm0
	movdqu	16(%rsi,%r15), %xmm1
	pcmpeqb	%xmm8, %xmm0
	pmovmskb	%xmm0, %eax
	xorl	$65535, %eax
	pcmpeqb	%xmm9, %xmm1
	pmovmskb	%xmm1, %ecx
	notl	%ecx
	shll	$16, %ecx
	orl	%eax, %ecx
	testl	%r14d, %ecx
	je	.LBB28_95
.LBB28_79:
	incq	%rdx
	xorl	%r12d, %r12d
	movl	$0, %eax
	addq	$-1, %r15
	jae	.LBB28_74
.LBB28_80:
	decq	%r13
	cmpq	$32, %r10
	ja	.LBB28_82
	cmpq	$32, %rdx
	jae	.LBB28_78
.LBB28_82:
	cmpq	%rdx, 16(%rsp)
	ja	.LBB28_79
	leaq	(%rsi,%r15), %rdi
	movq	16(%rsp), %rax
	cmpq	$4, %rax
	jae	.LBB28_91
	testq	%rax, %rax
	je	.LBB28_95
	movzbl	(%rdi), %eax
	movq	8(%rsp), %rcx
	cmpb	(%rcx), %al
	jne	.LBB28_93
	cmpq	$1, 16(%rsp)
	je	.LBB28_95
	movzbl	1(%rsi,%r15), %ecx
	movl	$1, %eax
	movq	8(%rsp), %rdi
	cmpb	1(%rdi), %cl
	jne	.LBB28_90
	cmpq	$2, 16(%rsp)
	je	.LBB28_95
	movzbl	2(%rsi,%r15), %ecx
	movl	$2, %eax
	movq	8(%rsp), %rdi
	cmpb	2(%rdi), %cl
	je	.LBB28_95
.LBB28_90:
	cmpq	16(%rsp), %rax
	jb	.LBB28_79
	jmp	.LBB28_94
.LBB28_91:
	movl	(%rdi), %eax
	movq	8(%rsp), %rcx
	cmpl	(%rcx), %eax
	jne	.LBB28_79
	movq	%rsi, %rbx
	movq	16(%rsp), %rsi
	movq	%rdx, %r12
	movq	8(%rsp), %rdx
	callq	"core::cmp::slices::groups_equal::<i8,31'core::cmp::numbers::U8PartialEq{}>"
	movq	24(%rsp), %r10
	movdqa	64(%rsp), %xmm9
	movdqa	48(%rsp), %xmm8
	movq	%rbx, %rsi
	movq	%r12, %rdx
	testb	%al, %al
	je	.LBB28_79
	jmp	.LBB28_95
.LBB28_93:
	xorl	%eax, %eax
	cmpq	16(%rsp), %rax
	jb	.LBB28_79
.LBB28_94:
	movq	%r15, %r12
	jmp	.LBB28_73
.LBB28_95:
	movq	%r13, %r12
	jmp	.LBB28_73
.Lfunc_end28:
	.size	"utf16_bytes::bytes::rfind_bytes", .Lfunc_end28-"utf16_bytes::bytes::rfind_bytes"
	.cfi_endproc
	.section	".rodata.utf16_bytes::bytes::rfind_bytes","a",@progbits
	.p2align	2, 0x0
.LJTI28_0:
	.long	.LBB28_72-.LJTI28_0
	.long	.LBB28_3-.LJTI28_0
	.long	.LBB28_16-.LJTI28_0
	.long	.LBB28_41-.LJTI28_0

	.section	.rodata.cst16,"aM",@progbits,16
	.p2align	4, 0x0
.LCPI29_0:
	.byte	1
	.byte	0
	.byte	3
	.byte	2
	.byte	5
	.byte	4
	.byte	7
	.byte	6
	.byte	9
	.byte	8
	.byte	11
	.byte	10
	.byte	13
	.byte	12
	.byte	15
	.byte	14
.LCPI29_1:
	.short	2048
	.short	2048
	.short	2048
	.short	2048
	.short	2048
	.short	2048
	.short	2048
	.short	2048
.LCPI29_2:
	.short	63488
	.short	63488
	.short	63488
	.short	63488
	.short	63488
	.short	63488
	.short	63488
	.short	63488
.LCPI29_3:
	.short	55296
	.short	55296
	.short	55296
	.short	55296
	.short	55296
	.short	55296
	.short	55296
	.short	55296
.LCPI29_4:
	.short	2047
	.short	2047
	.short	2047
	.short	2047
	.short	2047
	.short	2047
	.short	2047
	.short	2047
.LCPI29_5:
	.short	34815
	.short	34815
	.short	34815
	.short	34815
	.short	34815
	.short	34815
	.short	34815
	.short	34815
.LCPI29_6:
	.short	32768
	.short	32768
	.short	32768
	.short	32768
	.short	32768
	.short	32768
	.short	32768
	.short	32768
.LCPI29_7:
	.short	63
	.short	63
	.short	63
	.short	63
	.short	63
	.short	63
	.short	63
	.short	63
.LCPI29_8:
	.short	16128
	.short	16128
	.short	16128
	.short	16128
	.short	16128
	.short	16128
	.short	16128
	.short	16128
.LCPI29_9:
	.zero	16,128
.LCPI29_10:
	.short	224
	.short	224
	.short	224
	.short	224
	.short	224
	.short	224
	.short	224
	.short	224
.LCPI29_11:
	.short	255
	.short	255
	.short	255
	.short	255
	.short	255
	.short	255
	.short	255
	.short	255
.LCPI29_12:
	.short	32992
	.short	32992
	.short	32992
	.short	32992
	.short	32992
	.short	32992
	.short	32992
	.short	32992
.LCPI29_13:
	.byte	128
	.byte	0
	.byte	128
	.byte	0
	.byte	128
	.byte	0
	.byte	128
	.byte	0
	.byte	128
	.byte	0
	.byte	128
	.byte	0
	.byte	128
	.byte	0
	.byte	128
	.byte	0
.LCPI29_14:
	.byte	0
	.byte	1
	.byte	128
	.byte	2
	.byte	3
	.byte	128
	.byte	4
	.byte	5
	.byte	128
	.byte	6
	.byte	7
	.byte	128
	.byte	8
	.byte	9
	.byte	128
	.byte	10
.LCPI29_15:
	.byte	128
	.byte	128
	.byte	0
	.byte	128
	.byte	128
	.byte	2
	.byte	128
	.byte	128
	.byte	4
	.byte	128
	.byte	128
	.byte	6
	.byte	128
	.byte	128
	.byte	8
	.byte	128
.LCPI29_16:
	.byte	6
	.byte	5
	.byte	8
	.byte	10
	.byte	9
	.byte	12
	.byte	14
	.byte	13
	.zero	1
	.zero	1
	.zero	1
	.zero	1
	.zero	1
	.zero	1
	.zero	1
	.zero	1
.LCPI29_17:
	.short	32960
	.short	32960
	.short	32960
	.short	32960
	.short	32960
	.short	32960
	.short	32960
	.short	32960
.LCPI29_18:
	.short	127
	.short	127
	.short	127
	.short	127
	.short	127
	.short	127
	.short	127
	.short	127
.LCPI29_19:
	.byte	252
	.byte	252
	.byte	252
	.byte	252
	.byte	252
	.byte	252
	.byte	252
	.byte	252
	.zero	1
	.zero	1
	.zero	1
	.zero	1
	.zero	1
	.zero	1
	.zero	1
	.zero	1
.LCPI29_20:
	.byte	216
	.byte	216
	.byte	216
	.byte	216
	.byte	216
	.byte	216
	.byte	216
	.byte	216
	.zero	1
	.zero	1
	.zero	1
	.zero	1
	.zero	1
	.zero	1
	.zero	1
	.zero	1
.LCPI29_21:
	.byte	220
	.byte	220
	.byte	220
	.byte	220
	.byte	220
	.byte	220
	.byte	220
	.byte	220
	.zero	1
	.zero	1
	.zero	1
	.zero	1
	.zero	1
	.zero	1
	.zero	1
	.zero	1
.LCPI29_22:
	.short	10240
	.short	10240
	.short	10240
	.short	10240
	.short	10240
	.short	10240
	.short	10240
	.short	10240
.LCPI29_23:
	.short	4095
	.short	4095
	.short	4095
	.short	4095
	.short	4095
	.short	4095
	.short	4095
	.short	4095
.LCPI29_24:
	.short	8192
	.short	8192
	.short	8192
	.short	8192
	.short	8192
	.short	8192
	.short	8192
	.short	8192
.LCPI29_25:
	.short	9216
	.short	9216
	.short	9216
	.short	9216
	.short	9216
	.short	9216
	.short	9216
	.short	9216
.LCPI29_26:
	.short	752
	.short	752
	.short	752
	.short	752
	.short	752
	.short	752
	.short	752
	.short	752
.LCPI29_27:
	.short	3072
	.short	3072
	.short	3072
	.short	3072
	.short	3072
	.short	3072
	.short	3072
	.short	3072
.LCPI29_28:
	.short	17408
	.short	17408
	.short	17408
	.short	17408
	.short	17408
	.short	17408
	.short	17408
	.short	17408
.LCPI29_29:
	.short	12288
	.short	12288
	.short	12288
	.short	12288
	.short	12288
	.short	12288
	.short	12288
	.short	12288
.LCPI29_30:
	.byte	216
	.byte	216
	.byte	216
	.byte	216
	.byte	216
	.byte	216
	.byte	216
	.zero	1
	.zero	1
	.zero	1
	.zero	1
	.zero	1
	.zero	1
	.zero	1
	.zero	1
	.zero	1
	.section	".text.utf16_to_utf8::vectors::write_vectors::<#8b18edd9dd9aa8df>","ax",@progbits
	.p2align	4
	.type	"utf16_to_utf8::vectors::write_vectors::<#8b18edd9dd9aa8df>",@function
"utf16_to_utf8::vectors::write_vectors::<#8b18edd9dd9aa8df>":
	.cfi_startproc
	pushq	%rbp
	.cfi_def_cfa_offset 16
	pushq	%r15
	.cfi_def_cfa_offset 24
	pushq	%r14
	.cfi_def_cfa_offset 32
	pushq	%r12
	.cfi_def_cfa_offset 40
	pushq	%rbx
	.cfi_def_cfa_offset 48
	.cfi_offset %rbx, -48
	.cfi_offset %r12, -40
	.cfi_offset %r14, -32
	.cfi_offset %r15, -24
	.cfi_offset %rbp, -16
	movq	%rdx, %r8
	movq	%rsi, %rax
	movq	%rsi, %rdx
	shrq	%rdx
	leaq	(%rdx,%rdx,2), %rsi
	addq	$128, %rsi
	cmpq	%rcx, %rsi
	cmovbq	%rsi, %rcx
	cmpq	$16, %rax
	setae	%bl
	setb	%sil
	cmpq	$32, %rcx
	setb	%r9b
	orb	%sil, %r9b
	jne	.LBB29_1
	pxor	%xmm0, %xmm0
	xorl	%r11d, %r11d
	movq	%rax, %r10
	xorl	%esi, %esi
	xorl	%r9d, %r9d
	.p2align	4
.LBB29_3:
	movdqu	(%rdi,%r9), %xmm1
	pshufb	.LCPI29_0(%rip), %xmm1
	testb	$1, %r11b
	jne	.LBB29_13
	movdqa	.LCPI29_1(%rip), %xmm2
	pmaxuw	%xmm1, %xmm2
	pcmpeqw	%xmm1, %xmm2
	pmovmskb	%xmm2, %ebx
	testl	%ebx, %ebx
	je	.LBB29_9
	movdqa	.LCPI29_2(%rip), %xmm2
	pand	%xmm1, %xmm2
	pcmpeqw	.LCPI29_3(%rip), %xmm2
	pmovmskb	%xmm2, %ebx
	testl	%ebx, %ebx
	je	.LBB29_6
.LBB29_13:
	movdqa	%xmm1, %xmm2
	psrlw	$8, %xmm2
	packuswb	%xmm2, %xmm2
	pand	.LCPI29_19(%rip), %xmm2
	movdqa	.LCPI29_20(%rip), %xmm3
	pcmpeqb	%xmm2, %xmm3
	pmovzxbw	%xmm3, %xmm3
	pxor	%xmm4, %xmm4
	packuswb	%xmm4, %xmm3
	pmovmskb	%xmm3, %ebx
	pcmpeqb	.LCPI29_21(%rip), %xmm2
	pmovmskb	%xmm2, %ebp
	movzbl	%bpl, %r14d
	leal	(%rbx,%rbx), %ebp
	movzbl	%bpl, %r15d
	orq	%r11, %r15
	cmpq	%r14, %r15
	jne	.LBB29_14
	movdqa	.LCPI29_22(%rip), %xmm2
	paddw	%xmm1, %xmm2
	pminuw	%xmm1, %xmm2
	movdqa	.LCPI29_1(%rip), %xmm3
	pmaxuw	%xmm2, %xmm3
	pcmpeqw	%xmm2, %xmm3
	pmovmskb	%xmm3, %r11d
	movdqa	%xmm1, %xmm3
	palignr	$14, %xmm0, %xmm3
	psllw	$10, %xmm3
	testl	%r11d, %r11d
	je	.LBB29_16
	movdqa	.LCPI29_5(%rip), %xmm4
	psubusw	%xmm1, %xmm4
	movdqa	.LCPI29_6(%rip), %xmm5
	pand	%xmm5, %xmm4
	movdqa	%xmm4, %xmm0
	psrlw	$3, %xmm0
	movdqa	.LCPI29_23(%rip), %xmm2
	pand	%xmm1, %xmm2
	por	%xmm0, %xmm2
	por	.LCPI29_24(%rip), %xmm2
	movdqa	.LCPI29_25(%rip), %xmm6
	paddw	%xmm1, %xmm6
	psrlw	$2, %xmm6
	psubusw	.LCPI29_26(%rip), %xmm6
	pand	.LCPI29_27(%rip), %xmm3
	paddw	%xmm1, %xmm3
	paddw	.LCPI29_28(%rip), %xmm3
	movdqa	.LCPI29_2(%rip), %xmm0
	pand	%xmm1, %xmm0
	pcmpeqw	.LCPI29_3(%rip), %xmm0
	pmaxuw	%xmm6, %xmm3
	pblendvb	%xmm0, %xmm3, %xmm2
	movdqa	%xmm2, %xmm3
	psllw	$8, %xmm2
	pand	.LCPI29_8(%rip), %xmm2
	psrlw	$6, %xmm3
	paddw	%xmm3, %xmm2
	por	%xmm5, %xmm2
	movdqa	%xmm1, %xmm6
	psllw	$8, %xmm6
	movdqa	%xmm1, %xmm3
	psrlw	$12, %xmm3
	por	%xmm6, %xmm3
	por	.LCPI29_10(%rip), %xmm3
	movdqa	.LCPI29_11(%rip), %xmm6
	psubusw	%xmm1, %xmm6
	pblendvb	%xmm0, %xmm5, %xmm4
	por	%xmm6, %xmm4
	pmovmskb	%xmm4, %r11d
	movdqa	%xmm3, %xmm0
	punpcklwd	%xmm2, %xmm0
	movzbl	%r11b, %r14d
	xorl	%r15d, %r15d
	popcntl	%r14d, %r15d
	shll	$4, %r14d
	leaq	.Lstatic.7(%rip), %r12
	movdqu	(%r14,%r12), %xmm4
	pshufb	%xmm4, %xmm0
	movdqu	%xmm0, (%r8,%rsi)
	subq	%r15, %rsi
	punpckhwd	%xmm2, %xmm3
	shrl	$8, %r11d
	xorl	%r14d, %r14d
	popcntl	%r11d, %r14d
	shll	$4, %r11d
	movdqu	(%r11,%r12), %xmm0
	pshufb	%xmm0, %xmm3
	movdqu	%xmm3, 12(%r8,%rsi)
	subq	%r14, %rsi
	addq	$24, %rsi
	jmp	.LBB29_18
	.p2align	4
.LBB29_16:
	movdqa	.LCPI29_29(%rip), %xmm2
	movdqa	.LCPI29_25(%rip), %xmm0
	paddw	%xmm1, %xmm0
	psrlw	$2, %xmm0
	psubusw	.LCPI29_26(%rip), %xmm0
	pand	.LCPI29_27(%rip), %xmm3
	paddw	%xmm1, %xmm2
	paddw	%xmm1, %xmm3
	paddw	.LCPI29_28(%rip), %xmm3
	pmaxuw	%xmm0, %xmm3
	pxor	%xmm0, %xmm0
	pcmpgtw	%xmm1, %xmm0
	pblendvb	%xmm0, %xmm3, %xmm2
	movdqa	%xmm2, %xmm0
	psrlw	$6, %xmm0
	psllw	$8, %xmm2
	pand	.LCPI29_8(%rip), %xmm2
	paddw	%xmm0, %xmm2
	por	.LCPI29_6(%rip), %xmm2
	movdqa	.LCPI29_18(%rip), %xmm0
	pminuw	%xmm1, %xmm0
	pcmpeqw	%xmm1, %xmm0
	pblendvb	%xmm0, %xmm1, %xmm2
	packsswb	%xmm0, %xmm0
	pmovmskb	%xmm0, %r11d
	movzbl	%r11b, %r11d
	xorl	%r14d, %r14d
	popcntl	%r11d, %r14d
	shll	$4, %r11d
	leaq	.Lstatic.6(%rip), %r15
	movdqu	(%r11,%r15), %xmm0
	pshufb	%xmm0, %xmm2
	movdqu	%xmm2, (%r8,%rsi)
	subq	%r14, %rsi
	addq	$16, %rsi
.LBB29_18:
	shrb	$7, %bl
	movzbl	%bl, %r11d
.LBB29_19:
	addq	$16, %r9
	addq	$-16, %r10
	cmpq	$16, %r10
	setae	%bl
	jb	.LBB29_21
	movq	%rcx, %r14
	subq	%rsi, %r14
	movdqa	%xmm1, %xmm0
	cmpq	$31, %r14
	ja	.LBB29_3
	jmp	.LBB29_21
.LBB29_9:
	movdqa	.LCPI29_13(%rip), %xmm0
	pmaxuw	%xmm1, %xmm0
	pcmpeqw	%xmm1, %xmm0
	pmovmskb	%xmm0, %r11d
	movdqa	%xmm1, %xmm0
	testl	%r11d, %r11d
	je	.LBB29_10
	psrlw	$6, %xmm0
	movdqa	%xmm1, %xmm2
	psllw	$8, %xmm2
	pand	.LCPI29_8(%rip), %xmm2
	paddw	%xmm0, %xmm2
	paddw	.LCPI29_17(%rip), %xmm2
	movdqa	.LCPI29_18(%rip), %xmm0
	pminuw	%xmm1, %xmm0
	pcmpeqw	%xmm1, %xmm0
	pblendvb	%xmm0, %xmm1, %xmm2
	packsswb	%xmm0, %xmm0
	pmovmskb	%xmm0, %r11d
	movzbl	%r11b, %r11d
	xorl	%ebx, %ebx
	popcntl	%r11d, %ebx
	shll	$4, %r11d
	leaq	.Lstatic.6(%rip), %r14
	movdqu	(%r11,%r14), %xmm0
	pshufb	%xmm0, %xmm2
	movdqu	%xmm2, (%r8,%rsi)
	subq	%rbx, %rsi
	addq	$16, %rsi
	xorl	%r11d, %r11d
	jmp	.LBB29_19
.LBB29_6:
	movdqa	.LCPI29_4(%rip), %xmm0
	pminuw	%xmm1, %xmm0
	pcmpeqw	%xmm1, %xmm0
	pmovmskb	%xmm0, %r11d
	movdqa	%xmm1, %xmm0
	psrlw	$12, %xmm0
	testl	%r11d, %r11d
	je	.LBB29_7
	movdqa	.LCPI29_5(%rip), %xmm3
	psubusw	%xmm1, %xmm3
	pand	.LCPI29_6(%rip), %xmm3
	movdqa	%xmm3, %xmm4
	movdqa	%xmm1, %xmm5
	psrlw	$6, %xmm5
	pand	.LCPI29_7(%rip), %xmm5
	psrlw	$9, %xmm4
	movdqa	%xmm1, %xmm2
	psllw	$8, %xmm2
	por	%xmm2, %xmm0
	pand	.LCPI29_8(%rip), %xmm2
	por	%xmm5, %xmm2
	por	%xmm4, %xmm2
	por	.LCPI29_9(%rip), %xmm2
	movdqa	.LCPI29_11(%rip), %xmm4
	psubusw	%xmm1, %xmm4
	por	%xmm3, %xmm4
	por	.LCPI29_10(%rip), %xmm0
	pmovmskb	%xmm4, %r11d
	movdqa	%xmm0, %xmm3
	punpcklwd	%xmm2, %xmm3
	movzbl	%r11b, %ebx
	xorl	%r14d, %r14d
	popcntl	%ebx, %r14d
	shll	$4, %ebx
	leaq	.Lstatic.7(%rip), %r15
	movdqu	(%rbx,%r15), %xmm4
	pshufb	%xmm4, %xmm3
	movdqu	%xmm3, (%r8,%rsi)
	subq	%r14, %rsi
	punpckhwd	%xmm2, %xmm0
	shrl	$8, %r11d
	xorl	%ebx, %ebx
	popcntl	%r11d, %ebx
	shll	$4, %r11d
	movdqu	(%r11,%r15), %xmm2
	pshufb	%xmm2, %xmm0
	movdqu	%xmm0, 12(%r8,%rsi)
	subq	%rbx, %rsi
	jmp	.LBB29_8
.LBB29_10:
	packuswb	%xmm0, %xmm0
	movq	%xmm0, (%r8,%rsi)
	addq	$8, %rsi
	xorl	%r11d, %r11d
	jmp	.LBB29_19
.LBB29_7:
	movdqa	%xmm1, %xmm2
	psllw	$2, %xmm2
	pand	.LCPI29_8(%rip), %xmm2
	por	%xmm2, %xmm0
	por	.LCPI29_12(%rip), %xmm0
	movdqa	.LCPI29_7(%rip), %xmm2
	pand	%xmm1, %xmm2
	por	.LCPI29_13(%rip), %xmm2
	movdqa	%xmm0, %xmm3
	pshufb	.LCPI29_14(%rip), %xmm3
	punpckhbw	%xmm2, %xmm0
	pshufb	.LCPI29_15(%rip), %xmm2
	por	%xmm3, %xmm2
	pshufb	.LCPI29_16(%rip), %xmm0
	movdqu	%xmm2, (%r8,%rsi)
	movq	%xmm0, 16(%r8,%rsi)
.LBB29_8:
	addq	$24, %rsi
	xorl	%r11d, %r11d
	jmp	.LBB29_19
.LBB29_1:
	pxor	%xmm1, %xmm1
	xorl	%r9d, %r9d
	xorl	%esi, %esi
	xorl	%r11d, %r11d
	movq	%rax, %r10
.LBB29_21:
	testb	$1, %al
	jne	.LBB29_44
.LBB29_22:
	cmpq	%r9, %rax
	je	.LBB29_44
	testb	%bl, %bl
	jne	.LBB29_44
	subq	%rsi, %rcx
	cmpq	$32, %rcx
	jb	.LBB29_44
	cmpq	$15, %rax
	ja	.LBB29_27
	leaq	-8(%rax), %rcx
	movq	-8(%rdi,%rax), %xmm0
	movq	(%rdi), %xmm2
	movdqa	%xmm2, %xmm3
	punpcklqdq	%xmm0, %xmm3
	shlq	$4, %rcx
	leaq	.Lstatic.8(%rip), %rdi
	movq	(%rcx,%rdi), %xmm0
	pshufb	%xmm0, %xmm3
	punpcklqdq	%xmm3, %xmm2
	jmp	.LBB29_28
.LBB29_27:
	movdqu	-16(%rdi,%rax), %xmm2
	shlq	$4, %r10
	leaq	.Lstatic.8(%rip), %rcx
	movdqu	(%r10,%rcx), %xmm0
	pshufb	%xmm0, %xmm2
.LBB29_28:
	pshufb	.LCPI29_0(%rip), %xmm2
	movdqa	%xmm2, %xmm0
	psrlw	$8, %xmm0
	packuswb	%xmm0, %xmm0
	pand	.LCPI29_19(%rip), %xmm0
	movdqa	.LCPI29_30(%rip), %xmm3
	pcmpeqb	%xmm0, %xmm3
	pmovmskb	%xmm3, %ecx
	pcmpeqb	.LCPI29_21(%rip), %xmm0
	pmovmskb	%xmm0, %edi
	movzbl	%dil, %edi
	addl	%ecx, %ecx
	movzbl	%cl, %ecx
	orq	%r11, %rcx
	cmpq	%rdi, %rcx
	jne	.LBB29_44
	movdqa	.LCPI29_1(%rip), %xmm0
	pmaxuw	%xmm2, %xmm0
	pcmpeqw	%xmm2, %xmm0
	pmovmskb	%xmm0, %ecx
	testl	%ecx, %ecx
	je	.LBB29_34
	movdqa	.LCPI29_2(%rip), %xmm0
	pand	%xmm2, %xmm0
	pcmpeqw	.LCPI29_3(%rip), %xmm0
	pmovmskb	%xmm0, %ecx
	testl	%ecx, %ecx
	je	.LBB29_38
	movdqa	.LCPI29_22(%rip), %xmm3
	paddw	%xmm2, %xmm3
	pminuw	%xmm2, %xmm3
	movdqa	.LCPI29_1(%rip), %xmm4
	pmaxuw	%xmm3, %xmm4
	pcmpeqw	%xmm3, %xmm4
	pmovmskb	%xmm4, %ecx
	movdqa	%xmm2, %xmm3
	palignr	$14, %xmm1, %xmm3
	testl	%ecx, %ecx
	je	.LBB29_32
	movdqa	.LCPI29_5(%rip), %xmm4
	psubusw	%xmm2, %xmm4
	movdqa	.LCPI29_6(%rip), %xmm5
	pand	%xmm5, %xmm4
	movdqa	%xmm4, %xmm6
	psrlw	$3, %xmm6
	movdqa	.LCPI29_23(%rip), %xmm1
	pand	%xmm2, %xmm1
	por	%xmm6, %xmm1
	por	.LCPI29_24(%rip), %xmm1
	movdqa	.LCPI29_25(%rip), %xmm6
	paddw	%xmm2, %xmm6
	psrlw	$2, %xmm6
	psubusw	.LCPI29_26(%rip), %xmm6
	psllw	$10, %xmm3
	pand	.LCPI29_27(%rip), %xmm3
	paddw	%xmm2, %xmm3
	paddw	.LCPI29_28(%rip), %xmm3
	pmaxuw	%xmm6, %xmm3
	pblendvb	%xmm0, %xmm3, %xmm1
	movdqa	%xmm1, %xmm3
	psllw	$8, %xmm1
	pand	.LCPI29_8(%rip), %xmm1
	psrlw	$6, %xmm3
	paddw	%xmm3, %xmm1
	por	%xmm5, %xmm1
	movdqa	%xmm2, %xmm6
	psllw	$8, %xmm6
	movdqa	%xmm2, %xmm3
	psrlw	$12, %xmm3
	por	%xmm6, %xmm3
	por	.LCPI29_10(%rip), %xmm3
	movdqa	.LCPI29_11(%rip), %xmm6
	psubusw	%xmm2, %xmm6
	pblendvb	%xmm0, %xmm5, %xmm4
	por	%xmm6, %xmm4
	pmovmskb	%xmm4, %ecx
	movdqa	%xmm3, %xmm0
	punpcklwd	%xmm1, %xmm0
	movzbl	%cl, %edi
	popcntl	%edi, %r9d
	shll	$4, %edi
	leaq	.Lstatic.7(%rip), %r10
	movdqu	(%rdi,%r10), %xmm2
	pshufb	%xmm2, %xmm0
	movdqu	%xmm0, (%r8,%rsi)
	subq	%r9, %rsi
	punpckhwd	%xmm1, %xmm3
	shrl	$8, %ecx
	xorl	%edi, %edi
	popcntl	%ecx, %edi
	shll	$4, %ecx
	movdqu	(%rcx,%r10), %xmm0
	pshufb	%xmm0, %xmm3
	movdqu	%xmm3, 12(%r8,%rsi)
	jmp	.LBB29_41
.LBB29_14:
	movb	$1, %bl
	movdqa	%xmm0, %xmm1
	testb	$1, %al
	je	.LBB29_22
.LBB29_44:
	leaq	-2(%r9), %rax
	leaq	-2(%rsi), %rdx
	testb	$1, %r11b
	cmoveq	%rsi, %rdx
	cmoveq	%r9, %rax
	jmp	.LBB29_45
.LBB29_34:
	movdqa	.LCPI29_13(%rip), %xmm0
	pmaxuw	%xmm2, %xmm0
	pcmpeqw	%xmm2, %xmm0
	pmovmskb	%xmm0, %ecx
	testl	%ecx, %ecx
	je	.LBB29_35
	movdqa	%xmm2, %xmm0
	psrlw	$6, %xmm0
	movdqa	%xmm2, %xmm1
	psllw	$8, %xmm1
	pand	.LCPI29_8(%rip), %xmm1
	paddw	%xmm0, %xmm1
	paddw	.LCPI29_17(%rip), %xmm1
	jmp	.LBB29_37
.LBB29_38:
	movdqa	.LCPI29_4(%rip), %xmm0
	pminuw	%xmm2, %xmm0
	pcmpeqw	%xmm2, %xmm0
	pmovmskb	%xmm0, %ecx
	testl	%ecx, %ecx
	je	.LBB29_39
	movdqa	.LCPI29_5(%rip), %xmm0
	psubusw	%xmm2, %xmm0
	pand	.LCPI29_6(%rip), %xmm0
	movdqa	.LCPI29_11(%rip), %xmm1
	psubusw	%xmm2, %xmm1
	por	%xmm0, %xmm1
	psrlw	$9, %xmm0
	movdqa	%xmm2, %xmm3
	psrlw	$6, %xmm3
	pand	.LCPI29_7(%rip), %xmm3
	movdqa	%xmm2, %xmm4
	psllw	$8, %xmm4
	movdqa	.LCPI29_8(%rip), %xmm5
	pand	%xmm4, %xmm5
	por	%xmm3, %xmm5
	por	%xmm0, %xmm5
	por	.LCPI29_9(%rip), %xmm5
	psrlw	$12, %xmm2
	por	%xmm4, %xmm2
	por	.LCPI29_10(%rip), %xmm2
	pmovmskb	%xmm1, %ecx
	movdqa	%xmm2, %xmm0
	punpcklwd	%xmm5, %xmm0
	movzbl	%cl, %edi
	popcntl	%edi, %r9d
	shll	$4, %edi
	leaq	.Lstatic.7(%rip), %r10
	movdqu	(%rdi,%r10), %xmm1
	pshufb	%xmm1, %xmm0
	movdqu	%xmm0, (%r8,%rsi)
	subq	%r9, %rsi
	punpckhwd	%xmm5, %xmm2
	shrl	$8, %ecx
	xorl	%edi, %edi
	popcntl	%ecx, %edi
	shll	$4, %ecx
	movdqu	(%rcx,%r10), %xmm0
	pshufb	%xmm0, %xmm2
	movdqu	%xmm2, 12(%r8,%rsi)
.LBB29_41:
	subq	%rdi, %rsi
.LBB29_42:
	addq	$24, %rsi
	jmp	.LBB29_43
.LBB29_32:
	movdqa	.LCPI29_25(%rip), %xmm0
	paddw	%xmm2, %xmm0
	psrlw	$2, %xmm0
	psubusw	.LCPI29_26(%rip), %xmm0
	movdqa	.LCPI29_29(%rip), %xmm1
	psllw	$10, %xmm3
	pand	.LCPI29_27(%rip), %xmm3
	paddw	%xmm2, %xmm1
	paddw	%xmm2, %xmm3
	paddw	.LCPI29_28(%rip), %xmm3
	pmaxuw	%xmm0, %xmm3
	pxor	%xmm0, %xmm0
	pcmpgtw	%xmm2, %xmm0
	pblendvb	%xmm0, %xmm3, %xmm1
	movdqa	%xmm1, %xmm0
	psrlw	$6, %xmm0
	psllw	$8, %xmm1
	pand	.LCPI29_8(%rip), %xmm1
	paddw	%xmm0, %xmm1
	por	.LCPI29_6(%rip), %xmm1
.LBB29_37:
	movdqa	.LCPI29_18(%rip), %xmm0
	pminuw	%xmm2, %xmm0
	pcmpeqw	%xmm2, %xmm0
	pblendvb	%xmm0, %xmm2, %xmm1
	packsswb	%xmm0, %xmm0
	pmovmskb	%xmm0, %ecx
	movzbl	%cl, %ecx
	xorl	%edi, %edi
	popcntl	%ecx, %edi
	shll	$4, %ecx
	leaq	.Lstatic.6(%rip), %r9
	movdqu	(%rcx,%r9), %xmm0
	pshufb	%xmm0, %xmm1
	movdqu	%xmm1, (%r8,%rsi)
	subq	%rdi, %rsi
	addq	$16, %rsi
	jmp	.LBB29_43
.LBB29_35:
	packuswb	%xmm2, %xmm2
	movq	%xmm2, (%r8,%rsi)
	addq	$8, %rsi
.LBB29_43:
	orq	$-8, %rdx
	addq	%rsi, %rdx
.LBB29_45:
	popq	%rbx
	.cfi_def_cfa_offset 40
	popq	%r12
	.cfi_def_cfa_offset 32
	popq	%r14
	.cfi_def_cfa_offset 24
	popq	%r15
	.cfi_def_cfa_offset 16
	popq	%rbp
	.cfi_def_cfa_offset 8
	retq
.LBB29_39:
	.cfi_def_cfa_offset 48
	movdqa	%xmm2, %xmm0
	movdqa	%xmm2, %xmm1
	psllw	$2, %xmm1
	pand	.LCPI29_8(%rip), %xmm1
	psrlw	$12, %xmm0
	por	%xmm0, %xmm1
	por	.LCPI29_12(%rip), %xmm1
	pand	.LCPI29_7(%rip), %xmm2
	por	.LCPI29_13(%rip), %xmm2
	movdqa	%xmm1, %xmm0
	pshufb	.LCPI29_14(%rip), %xmm0
	punpckhbw	%xmm2, %xmm1
	pshufb	.LCPI29_15(%rip), %xmm2
	por	%xmm0, %xmm2
	movdqu	%xmm2, (%r8,%rsi)
	pshufb	.LCPI29_16(%rip), %xmm1
	movq	%xmm1, 16(%r8,%rsi)
	jmp	.LBB29_42
.Lfunc_end29:
	.size	"utf16_to_utf8::vectors::write_vectors::<#8b18edd9dd9aa8df>", .Lfunc_end29-"utf16_to_utf8::vectors::write_vectors::<#8b18edd9dd9aa8df>"
	.cfi_endproc

	.section	.rodata.cst16,"aM",@progbits,16
	.p2align	4, 0x0
.LCPI30_0:
	.byte	1
	.byte	0
	.byte	3
	.byte	2
	.byte	5
	.byte	4
	.byte	7
	.byte	6
	.byte	9
	.byte	8
	.byte	11
	.byte	10
	.byte	13
	.byte	12
	.byte	15
	.byte	14
.LCPI30_1:
	.short	128
	.short	128
	.short	128
	.short	128
	.short	128
	.short	128
	.short	128
	.short	128
	.section	".text.utf16_transcode::transcoding::transcode_many::<#b8dc3d53e12e85b3>","ax",@progbits
	.p2align	4
	.type	"utf16_transcode::transcoding::transcode_many::<#b8dc3d53e12e85b3>",@function
"utf16_transcode::transcoding::transcode_many::<#b8dc3d53e12e85b3>":
	.cfi_startproc
	pushq	%rbp
	.cfi_def_cfa_offset 16
	pushq	%r15
	.cfi_def_cfa_offset 24
	pushq	%r14
	.cfi_def_cfa_offset 32
	pushq	%r13
	.cfi_def_cfa_offset 40
	pushq	%r12
	.cfi_def_cfa_offset 48
	pushq	%rbx
	.cfi_def_cfa_offset 56
	subq	$392, %rsp
	.cfi_def_cfa_offset 448
	.cfi_offset %rbx, -56
	.cfi_offset %r12, -48
	.cfi_offset %r13, -40
	.cfi_offset %r14, -32
	.cfi_offset %r15, -24
	.cfi_offset %rbp, -16
	movq	%r9, %rbp
	movq	%r8, %r14
	movq	%rdx, %rbx
	movq	448(%rsp), %r8
	subq	%r9, %rdx
	cmpq	$2, %rdx
	jae	.LBB30_3
.LBB30_1:
	movb	$2, %al
	xorl	%ecx, %ecx
.LBB30_2:
	movq	%rbp, (%rdi)
	movq	%r8, 8(%rdi)
	movb	%al, 16(%rdi)
	movb	%cl, 17(%rdi)
	jmp	.LBB30_99
.LBB30_3:
	movq	%rcx, %r12
	movq	%rsi, %r13
	movzwl	(%rsi,%rbp), %esi
	rolw	$8, %si
	movl	%esi, %eax
	andl	$63488, %eax
	cmpl	$55296, %eax
	jne	.LBB30_7
	notl	%esi
	movb	$2, %cl
	movb	$1, %al
	testl	$56320, %esi
	je	.LBB30_2
	cmpq	$4, %rdx
	jb	.LBB30_1
	movzbl	2(%r13,%rbp), %edx
	andb	$-4, %dl
	movb	$2, %cl
	cmpb	$-36, %dl
	jne	.LBB30_2
.LBB30_7:
	movq	%rdi, 32(%rsp)
	cmpq	%rbp, %rbx
	jbe	.LBB30_95
	movq	%r14, %rax
	negq	%rax
	movq	%rax, 56(%rsp)
	movq	%r14, 16(%rsp)
	movq	%rbx, 40(%rsp)
	movq	%r12, 24(%rsp)
	movq	%r13, 8(%rsp)
	jmp	.LBB30_11
	.p2align	4
.LBB30_9:
	movb	%al, (%r12,%r8)
	incq	%r8
.LBB30_10:
	addq	%r15, %rbp
	cmpq	%rbx, %rbp
	jae	.LBB30_95
.LBB30_11:
	addq	%rbp, %r13
	movq	%rbx, %r15
	subq	%rbp, %r15
	cmpq	$66, %r15
	jb	.LBB30_20
	leaq	(%r12,%r8), %rbx
	movq	%r8, (%rsp)
	subq	%r8, %r14
	pxor	%xmm0, %xmm0
	movdqa	%xmm0, 128(%rsp)
	movdqa	%xmm0, 112(%rsp)
	movq	$0, 144(%rsp)
	movq	%r15, %rax
	shrq	%rax
	leaq	(%rax,%rax,2), %r8
	addq	$128, %r8
	cmpq	%r14, %r8
	cmovaeq	%r14, %r8
	leaq	112(%rsp), %rdi
	movq	%r13, %rsi
	movq	%r15, %rdx
	movq	%rbx, %rcx
	callq	"utf16_to_utf8::runs::write_paired::<#8b18edd9dd9aa8df>"
	movq	112(%rsp), %rcx
	movq	120(%rsp), %rsi
	leaq	-2(%rcx), %rdx
	leaq	-2(%rsi), %rax
	testb	$1, 144(%rsp)
	cmoveq	%rsi, %rax
	cmoveq	%rcx, %rdx
	movq	%r15, %rcx
	subq	%rdx, %rcx
	shrq	%rcx
	subq	%rax, %r14
	cmpq	%rcx, %r14
	cmovaeq	%rcx, %r14
	movq	%rax, %rcx
	movq	%rdx, %r12
	cmpq	$8, %r14
	jb	.LBB30_16
	leaq	(%r14,%r14), %rsi
	movq	%rdx, %r12
	movq	%rax, %rcx
	.p2align	4
.LBB30_14:
	movdqu	(%r13,%r12), %xmm0
	pshufb	.LCPI30_0(%rip), %xmm0
	movdqa	.LCPI30_1(%rip), %xmm1
	pmaxuw	%xmm0, %xmm1
	pcmpeqw	%xmm0, %xmm1
	pmovmskb	%xmm1, %edi
	testl	%edi, %edi
	jne	.LBB30_39
	packuswb	%xmm0, %xmm0
	movq	%xmm0, (%rbx,%rcx)
	addq	$16, %r12
	addq	$8, %rcx
	addq	$-16, %rsi
	cmpq	$15, %rsi
	ja	.LBB30_14
.LBB30_16:
	leaq	(%rdx,%r14,2), %rdx
	cmpq	$16, %rdx
	jb	.LBB30_39
	cmpq	%r12, %rdx
	movq	(%rsp), %r8
	jbe	.LBB30_40
	movdqu	-16(%r13,%rdx), %xmm0
	pshufb	.LCPI30_0(%rip), %xmm0
	movdqa	.LCPI30_1(%rip), %xmm1
	pmaxuw	%xmm0, %xmm1
	pcmpeqw	%xmm0, %xmm1
	pmovmskb	%xmm1, %esi
	testl	%esi, %esi
	jne	.LBB30_40
	addq	%rax, %r14
	packuswb	%xmm0, %xmm0
	movq	%xmm0, -8(%rbx,%r14)
	movq	%rdx, %r12
	movq	%r14, %rcx
	jmp	.LBB30_40
	.p2align	4
.LBB30_20:
	xorl	%r12d, %r12d
	movq	%r15, %r14
	subq	%r12, %r14
	je	.LBB30_41
.LBB30_21:
	addq	%r12, %r13
	cmpq	$7, %r14
	ja	.LBB30_24
.LBB30_22:
	movq	%r13, %rdi
	movq	%r14, %rsi
	movq	24(%rsp), %rdx
	movq	16(%rsp), %r14
	movq	%r14, %rcx
.LBB30_23:
	callq	"utf16_transcode::transcoding::write_chars::<#b8dc3d53e12e85b3>"
	movq	%rax, %r15
	movq	%rdx, %rbx
	jmp	.LBB30_37
	.p2align	4
.LBB30_24:
	cmpq	$128, %r14
	movl	$128, %esi
	cmovbq	%r14, %rsi
	movq	16(%rsp), %rbx
	subq	%r8, %rbx
	xorl	%eax, %eax
	movq	%rbx, %rcx
	subq	$128, %rcx
	cmovaeq	%rcx, %rax
	movabsq	$-6148914691236517205, %rcx
	mulq	%rcx
	andq	$-2, %rdx
	cmpq	%rdx, %rsi
	jbe	.LBB30_34
	cmpq	$23, %rbx
	jbe	.LBB30_22
	movq	%r8, (%rsp)
	leaq	112(%rsp), %rdi
	movl	$276, %edx
	xorl	%esi, %esi
	callq	memset@PLT
	cmpq	$65, %r14
	ja	.LBB30_58
	cmpq	$64, %r14
	movl	$64, %esi
	cmovbq	%r14, %rsi
	movq	%r13, %rdi
	callq	"utf16_transcode::decode::valid_up_to::<#8b18edd9dd9aa8df>"
	movq	%rax, %r15
	leaq	112(%rsp), %rdx
	movq	%r13, %rdi
	movq	%rax, %rsi
	callq	"utf16_to_utf8::write::write_utf8::<#8b18edd9dd9aa8df>"
	cmpq	%rbx, %rax
	jbe	.LBB30_73
	movq	8(%rsp), %r13
	.p2align	4
.LBB30_29:
	cmpb	$-65, 112(%rsp,%rbx)
	jg	.LBB30_32
	decq	%rbx
	jne	.LBB30_29
	xorl	%ebx, %ebx
.LBB30_32:
	leaq	112(%rsp), %rdi
	movq	%rbx, %rsi
	callq	"utf16_units::size::utf16_len"
	movq	%rax, %r15
	movq	16(%rsp), %r14
	jmp	.LBB30_74
.LBB30_39:
	movq	(%rsp), %r8
.LBB30_40:
	addq	%rcx, %r8
	movq	40(%rsp), %rbx
	movq	%r15, %r14
	subq	%r12, %r14
	jne	.LBB30_21
.LBB30_41:
	movq	16(%rsp), %r14
	movq	8(%rsp), %r13
	jmp	.LBB30_42
.LBB30_34:
	movq	%r8, %rbx
	movq	%r13, %rdi
	callq	"utf16_transcode::decode::valid_up_to::<#8b18edd9dd9aa8df>"
	movq	%rax, %r15
	testq	%rax, %rax
	je	.LBB30_36
	movq	24(%rsp), %rax
	leaq	(%rax,%rbx), %rdx
	movq	%r13, %rdi
	movq	%r15, %rsi
	callq	"utf16_to_utf8::write::write_utf8::<#8b18edd9dd9aa8df>"
	addq	%rax, %rbx
.LBB30_36:
	movq	16(%rsp), %r14
.LBB30_37:
	movq	8(%rsp), %r13
.LBB30_38:
	addq	%r12, %r15
	movq	%rbx, %r8
	movq	40(%rsp), %rbx
.LBB30_42:
	addq	%rbp, %r15
	movq	%rbx, %rcx
	subq	%r15, %rcx
	movq	24(%rsp), %r12
	je	.LBB30_94
	cmpq	$2, %rcx
	jb	.LBB30_93
	movzwl	(%r13,%r15), %edi
	rolw	$8, %di
	movl	%edi, %eax
	andl	$63488, %eax
	cmpl	$55296, %eax
	jne	.LBB30_48
	movl	%edi, %edx
	notl	%edx
	movb	$1, %al
	testl	$56320, %edx
	je	.LBB30_101
	cmpq	$4, %rcx
	jb	.LBB30_93
	movzbl	2(%r13,%r15), %ecx
	andb	$-4, %cl
	cmpb	$-36, %cl
	jne	.LBB30_101
.LBB30_48:
	movl	%edi, %eax
	andl	$64512, %eax
	cmpl	$55296, %eax
	jne	.LBB30_50
	movzwl	2(%r13,%r15), %esi
	rolw	$8, %si
	movq	%r8, %rbp
	callq	"utf16_units::unit::decode_surrogates"
	movq	%rbp, %r8
	movl	$4, %ebp
	jmp	.LBB30_51
	.p2align	4
.LBB30_50:
	movzwl	%di, %eax
	movl	$2, %ebp
.LBB30_51:
	movq	%r14, %rcx
	subq	%r8, %rcx
	cmpl	$65536, %eax
	movl	$4, %edx
	sbbq	$0, %rdx
	cmpl	$2048, %eax
	movl	$2, %esi
	cmovaeq	%rdx, %rsi
	cmpl	$128, %eax
	movl	$1, %edx
	cmovaeq	%rsi, %rdx
	cmpq	%rdx, %rcx
	jb	.LBB30_96
	cmpl	$127, %eax
	jbe	.LBB30_9
	movl	%eax, %ecx
	andb	$63, %cl
	orb	$-128, %cl
	cmpl	$2047, %eax
	ja	.LBB30_55
	shrl	$6, %eax
	movzbl	%cl, %ecx
	shll	$8, %ecx
	orl	%eax, %ecx
	orl	$192, %ecx
	movw	%cx, (%r12,%r8)
	addq	$2, %r8
	jmp	.LBB30_10
.LBB30_55:
	movl	%eax, %edx
	cmpl	$65535, %eax
	ja	.LBB30_57
	shrl	$6, %edx
	andb	$63, %dl
	orb	$-128, %dl
	shrl	$12, %eax
	orb	$-32, %al
	movb	%al, (%r12,%r8)
	movb	%dl, 1(%r12,%r8)
	movb	%cl, 2(%r12,%r8)
	addq	$3, %r8
	jmp	.LBB30_10
.LBB30_57:
	shrl	$18, %edx
	addl	$240, %edx
	movzbl	%cl, %ecx
	shll	$24, %ecx
	movl	%eax, %esi
	shll	$10, %esi
	andl	$4128768, %esi
	orl	%ecx, %esi
	shrl	$4, %eax
	andl	$16128, %eax
	orl	%esi, %eax
	movzbl	%dl, %ecx
	addl	%ecx, %eax
	addl	$8421376, %eax
	movl	%eax, (%r12,%r8)
	addq	$4, %r8
	jmp	.LBB30_10
.LBB30_58:
	movzwl	(%r13), %eax
	rolw	$8, %ax
	movl	%eax, %ecx
	andl	$63488, %ecx
	cmpl	$55296, %ecx
	jne	.LBB30_61
	movl	%eax, %ecx
	notl	%ecx
	testl	$56320, %ecx
	je	.LBB30_72
	movzbl	2(%r13), %ecx
	andb	$-4, %cl
	cmpb	$-36, %cl
	jne	.LBB30_72
.LBB30_61:
	andl	$64512, %eax
	xorl	%ecx, %ecx
	cmpl	$55296, %eax
	sete	%cl
	movzwl	2(%r13,%rcx,2), %eax
	rolw	$8, %ax
	movl	%eax, %edx
	andl	$63488, %edx
	cmpl	$55296, %edx
	jne	.LBB30_64
	notl	%eax
	testl	$56320, %eax
	je	.LBB30_72
	leaq	2(,%rcx,2), %rax
	movzbl	2(%r13,%rax), %eax
	andb	$-4, %al
	cmpb	$-36, %al
	jne	.LBB30_72
.LBB30_64:
	xorl	%r15d, %r15d
	cmpq	$65, %rbx
	setae	%r15b
	shll	$6, %r15d
	addq	$66, %r15
	cmpq	%r14, %r15
	cmovaeq	%r14, %r15
	pxor	%xmm0, %xmm0
	movdqa	%xmm0, 80(%rsp)
	movdqa	%xmm0, 64(%rsp)
	movq	$0, 96(%rsp)
	movl	%r15d, %eax
	shrl	%eax
	leaq	(%rax,%rax,2), %rax
	cmpq	$148, %rax
	movl	$148, %r8d
	cmovbq	%rax, %r8
	subq	$-128, %r8
	leaq	64(%rsp), %rdi
	leaq	112(%rsp), %rcx
	movq	%r13, %rsi
	movq	%r15, %rdx
	callq	"utf16_to_utf8::runs::write_paired::<#8b18edd9dd9aa8df>"
	movq	64(%rsp), %rcx
	movq	72(%rsp), %rsi
	leaq	-2(%rcx), %r8
	leaq	-2(%rsi), %rax
	testb	$1, 96(%rsp)
	cmoveq	%rsi, %rax
	cmoveq	%rcx, %r8
	subq	%r8, %r15
	shrq	%r15
	movl	$276, %ecx
	subq	%rax, %rcx
	cmpq	%r15, %rcx
	cmovaeq	%r15, %rcx
	movq	%rax, %rdx
	movq	%r8, %r15
	cmpq	$8, %rcx
	movq	16(%rsp), %r14
	jb	.LBB30_68
	leaq	(%rcx,%rcx), %rsi
	movq	%r8, %r15
	movq	%rax, %rdx
.LBB30_66:
	movdqu	(%r13,%r15), %xmm0
	pshufb	.LCPI30_0(%rip), %xmm0
	movdqa	.LCPI30_1(%rip), %xmm1
	pmaxuw	%xmm0, %xmm1
	pcmpeqw	%xmm0, %xmm1
	pmovmskb	%xmm1, %edi
	testl	%edi, %edi
	jne	.LBB30_76
	packuswb	%xmm0, %xmm0
	movq	%xmm0, 112(%rsp,%rdx)
	addq	$16, %r15
	addq	$8, %rdx
	addq	$-16, %rsi
	cmpq	$15, %rsi
	ja	.LBB30_66
.LBB30_68:
	leaq	(%r8,%rcx,2), %r8
	cmpq	$16, %r8
	jb	.LBB30_76
	cmpq	%r15, %r8
	movq	(%rsp), %rdi
	jbe	.LBB30_77
	movdqu	-16(%r13,%r8), %xmm0
	pshufb	.LCPI30_0(%rip), %xmm0
	movdqa	.LCPI30_1(%rip), %xmm1
	pmaxuw	%xmm0, %xmm1
	pcmpeqw	%xmm0, %xmm1
	pmovmskb	%xmm1, %esi
	testl	%esi, %esi
	jne	.LBB30_77
	addq	%rax, %rcx
	packuswb	%xmm0, %xmm0
	movq	%xmm0, 104(%rsp,%rcx)
	movq	%r8, %r15
	movq	%rcx, %rdx
	jmp	.LBB30_77
.LBB30_72:
	movq	%r13, %rdi
	movq	%r14, %rsi
	movq	24(%rsp), %rdx
	movq	16(%rsp), %r14
	movq	%r14, %rcx
	movq	(%rsp), %r8
	jmp	.LBB30_23
.LBB30_73:
	movq	%rax, %rbx
	movq	16(%rsp), %r14
	movq	8(%rsp), %r13
.LBB30_74:
	movq	(%rsp), %rcx
	movq	24(%rsp), %rax
	leaq	(%rax,%rcx), %rdi
	leaq	112(%rsp), %rsi
	movq	%rbx, %rdx
	callq	memcpy@PLT
	addq	(%rsp), %rbx
	jmp	.LBB30_38
.LBB30_76:
	movq	(%rsp), %rdi
.LBB30_77:
	cmpq	%rbx, %rdx
	jbe	.LBB30_82
.LBB30_78:
	cmpb	$-65, 112(%rsp,%rbx)
	jg	.LBB30_81
	decq	%rbx
	jne	.LBB30_78
	xorl	%ebx, %ebx
.LBB30_81:
	leaq	112(%rsp), %rdi
	movq	%rbx, %rsi
	callq	"utf16_units::size::utf16_len"
	movq	%rax, %r15
	movq	%rbx, %rdx
	movq	(%rsp), %rdi
.LBB30_82:
	movq	%rdx, 48(%rsp)
	leaq	(%rdx,%rdi), %rbx
	movq	24(%rsp), %rax
	addq	%rax, %rdi
	leaq	112(%rsp), %rsi
	callq	memcpy@PLT
	testq	%r15, %r15
	jne	.LBB30_37
	movl	$64, %esi
	movq	%r13, %rdi
	callq	"utf16_transcode::decode::valid_up_to::<#8b18edd9dd9aa8df>"
	movq	%rax, %r15
	leaq	112(%rsp), %rdx
	movq	%r13, %rdi
	movq	%rax, %rsi
	callq	"utf16_to_utf8::write::write_utf8::<#8b18edd9dd9aa8df>"
	subq	%rbx, %r14
	cmpq	%r14, %rax
	jbe	.LBB30_91
	testq	%r14, %r14
	movq	8(%rsp), %r13
	je	.LBB30_89
	movq	48(%rsp), %rax
	addq	56(%rsp), %rax
	addq	(%rsp), %rax
.LBB30_87:
	cmpb	$-65, 112(%rsp,%r14)
	jg	.LBB30_90
	decq	%r14
	incq	%rax
	jne	.LBB30_87
.LBB30_89:
	xorl	%r14d, %r14d
.LBB30_90:
	leaq	112(%rsp), %rdi
	movq	%r14, %rsi
	callq	"utf16_units::size::utf16_len"
	movq	%rax, %r15
	jmp	.LBB30_92
.LBB30_91:
	movq	%rax, %r14
	movq	8(%rsp), %r13
.LBB30_92:
	movq	24(%rsp), %rax
	leaq	(%rax,%rbx), %rdi
	leaq	112(%rsp), %rsi
	movq	%r14, %rdx
	callq	memcpy@PLT
	addq	%r14, %rbx
	movq	16(%rsp), %r14
	jmp	.LBB30_38
.LBB30_93:
	movb	$2, %al
	jmp	.LBB30_97
.LBB30_94:
	movq	%rbx, %rbp
.LBB30_95:
	movq	32(%rsp), %rax
	movq	%rbp, (%rax)
	movq	%r8, 8(%rax)
	movw	$0, 16(%rax)
	jmp	.LBB30_99
.LBB30_101:
	movb	$2, %cl
	jmp	.LBB30_98
.LBB30_96:
	movb	$3, %al
.LBB30_97:
	xorl	%ecx, %ecx
.LBB30_98:
	movq	32(%rsp), %rdx
	movq	%r15, (%rdx)
	movq	%r8, 8(%rdx)
	movb	%al, 16(%rdx)
	movb	%cl, 17(%rdx)
.LBB30_99:
	addq	$392, %rsp
	.cfi_def_cfa_offset 56
	popq	%rbx
	.cfi_def_cfa_offset 48
	popq	%r12
	.cfi_def_cfa_offset 40
	popq	%r13
	.cfi_def_cfa_offset 32
	popq	%r14
	.cfi_def_cfa_offset 24
	popq	%r15
	.cfi_def_cfa_offset 16
	popq	%rbp
	.cfi_def_cfa_offset 8
	retq
.Lfunc_end30:
	.size	"utf16_transcode::transcoding::transcode_many::<#b8dc3d53e12e85b3>", .Lfunc_end30-"utf16_transcode::transcoding::transcode_many::<#b8dc3d53e12e85b3>"
	.cfi_endproc

	.section	.rodata.cst16,"aM",@progbits,16
	.p2align	4, 0x0
.LCPI31_0:
	.byte	1
	.byte	0
	.byte	3
	.byte	2
	.byte	5
	.byte	4
	.byte	7
	.byte	6
	.byte	9
	.byte	8
	.byte	11
	.byte	10
	.byte	13
	.byte	12
	.byte	15
	.byte	14
.LCPI31_1:
	.short	65408
	.short	65408
	.short	65408
	.short	65408
	.short	65408
	.short	65408
	.short	65408
	.short	65408
.LCPI31_2:
	.short	63488
	.short	63488
	.short	63488
	.short	63488
	.short	63488
	.short	63488
	.short	63488
	.short	63488
.LCPI31_3:
	.short	10240
	.short	10240
	.short	10240
	.short	10240
	.short	10240
	.short	10240
	.short	10240
	.short	10240
.LCPI31_4:
	.short	2047
	.short	2047
	.short	2047
	.short	2047
	.short	2047
	.short	2047
	.short	2047
	.short	2047
.LCPI31_5:
	.short	224
	.short	224
	.short	224
	.short	224
	.short	224
	.short	224
	.short	224
	.short	224
.LCPI31_6:
	.short	34815
	.short	34815
	.short	34815
	.short	34815
	.short	34815
	.short	34815
	.short	34815
	.short	34815
.LCPI31_7:
	.short	32768
	.short	32768
	.short	32768
	.short	32768
	.short	32768
	.short	32768
	.short	32768
	.short	32768
.LCPI31_8:
	.short	63
	.short	63
	.short	63
	.short	63
	.short	63
	.short	63
	.short	63
	.short	63
.LCPI31_9:
	.short	16128
	.short	16128
	.short	16128
	.short	16128
	.short	16128
	.short	16128
	.short	16128
	.short	16128
.LCPI31_10:
	.zero	16,128
.LCPI31_11:
	.short	255
	.short	255
	.short	255
	.short	255
	.short	255
	.short	255
	.short	255
	.short	255
.LCPI31_12:
	.short	32992
	.short	32992
	.short	32992
	.short	32992
	.short	32992
	.short	32992
	.short	32992
	.short	32992
.LCPI31_13:
	.short	128
	.short	128
	.short	128
	.short	128
	.short	128
	.short	128
	.short	128
	.short	128
.LCPI31_14:
	.byte	128
	.byte	128
	.byte	0
	.byte	128
	.byte	128
	.byte	2
	.byte	128
	.byte	128
	.byte	4
	.byte	128
	.byte	128
	.byte	6
	.byte	128
	.byte	128
	.byte	8
	.byte	128
.LCPI31_15:
	.byte	0
	.byte	1
	.byte	128
	.byte	2
	.byte	3
	.byte	128
	.byte	4
	.byte	5
	.byte	128
	.byte	6
	.byte	7
	.byte	128
	.byte	8
	.byte	9
	.byte	128
	.byte	10
.LCPI31_16:
	.byte	6
	.byte	5
	.byte	8
	.byte	10
	.byte	9
	.byte	12
	.byte	14
	.byte	13
	.zero	1
	.zero	1
	.zero	1
	.zero	1
	.zero	1
	.zero	1
	.zero	1
	.zero	1
.LCPI31_17:
	.short	32960
	.short	32960
	.short	32960
	.short	32960
	.short	32960
	.short	32960
	.short	32960
	.short	32960
.LCPI31_18:
	.short	127
	.short	127
	.short	127
	.short	127
	.short	127
	.short	127
	.short	127
	.short	127
.LCPI31_19:
	.zero	16,252
.LCPI31_20:
	.zero	16,216
.LCPI31_21:
	.zero	16,220
.LCPI31_22:
	.short	12288
	.short	12288
	.short	12288
	.short	12288
	.short	12288
	.short	12288
	.short	12288
	.short	12288
.LCPI31_23:
	.short	9216
	.short	9216
	.short	9216
	.short	9216
	.short	9216
	.short	9216
	.short	9216
	.short	9216
.LCPI31_24:
	.short	752
	.short	752
	.short	752
	.short	752
	.short	752
	.short	752
	.short	752
	.short	752
.LCPI31_25:
	.short	3072
	.short	3072
	.short	3072
	.short	3072
	.short	3072
	.short	3072
	.short	3072
	.short	3072
.LCPI31_26:
	.short	17408
	.short	17408
	.short	17408
	.short	17408
	.short	17408
	.short	17408
	.short	17408
	.short	17408
.LCPI31_27:
	.byte	6
	.byte	5
	.byte	8
	.byte	10
	.byte	9
	.byte	12
	.byte	14
	.byte	13
	.byte	0
	.byte	0
	.byte	0
	.byte	0
	.byte	0
	.byte	0
	.byte	0
	.byte	0
	.section	".text.utf16_to_utf8::runs::write_paired::<#8b18edd9dd9aa8df>","ax",@progbits
	.p2align	4
	.type	"utf16_to_utf8::runs::write_paired::<#8b18edd9dd9aa8df>",@function
"utf16_to_utf8::runs::write_paired::<#8b18edd9dd9aa8df>":
	.cfi_startproc
	pushq	%rbp
	.cfi_def_cfa_offset 16
	pushq	%r15
	.cfi_def_cfa_offset 24
	pushq	%r14
	.cfi_def_cfa_offset 32
	pushq	%r13
	.cfi_def_cfa_offset 40
	pushq	%r12
	.cfi_def_cfa_offset 48
	pushq	%rbx
	.cfi_def_cfa_offset 56
	subq	$72, %rsp
	.cfi_def_cfa_offset 128
	.cfi_offset %rbx, -56
	.cfi_offset %r12, -48
	.cfi_offset %r13, -40
	.cfi_offset %r14, -32
	.cfi_offset %r15, -24
	.cfi_offset %rbp, -16
	movq	%rcx, %r15
	cmpq	$64, %rdx
	setb	%al
	cmpq	$128, %r8
	setb	%cl
	orb	%al, %cl
	je	.LBB31_2
	pxor	%xmm0, %xmm0
	movdqu	%xmm0, 16(%rdi)
	movdqu	%xmm0, (%rdi)
	movq	$0, 32(%rdi)
	jmp	.LBB31_65
.LBB31_2:
	movq	%r8, %r14
	movq	%rdx, %r12
	movq	%rsi, %r13
	movq	%rdi, 64(%rsp)
	addq	$-128, %r14
	addq	$-64, %r12
	pxor	%xmm1, %xmm1
	xorl	%ebx, %ebx
	xorl	%eax, %eax
	xorl	%ebp, %ebp
	jmp	.LBB31_5
	.p2align	4
.LBB31_3:
	movq	%r15, %rdi
	movq	%rax, %rsi
	movdqa	%xmm12, %xmm0
	movdqa	%xmm12, %xmm1
	movdqa	%xmm14, %xmm3
	movl	$5, %edx
	movdqa	%xmm13, 16(%rsp)
	movdqa	%xmm14, 48(%rsp)
	movdqa	%xmm2, 32(%rsp)
	callq	"utf16_to_utf8::blocks::write_group"
	movq	%r15, %rdi
	movq	%rax, %rsi
	movdqa	32(%rsp), %xmm0
	movaps	48(%rsp), %xmm1
	movdqa	16(%rsp), %xmm2
	movdqa	(%rsp), %xmm3
	movl	$5, %edx
	callq	"utf16_to_utf8::blocks::write_group"
	addq	$64, %rbp
	movdqa	(%rsp), %xmm1
.LBB31_4:
	cmpq	%r12, %rbp
	ja	.LBB31_64
.LBB31_5:
	testb	$1, %bl
	jne	.LBB31_41
	cmpq	%rax, %r14
	jb	.LBB31_41
	.p2align	4
.LBB31_7:
	movdqu	(%r13,%rbp), %xmm2
	movdqu	16(%r13,%rbp), %xmm3
	movdqu	32(%r13,%rbp), %xmm13
	movdqu	48(%r13,%rbp), %xmm12
	movdqa	.LCPI31_0(%rip), %xmm15
	pshufb	%xmm15, %xmm13
	pshufb	%xmm15, %xmm2
	pshufb	%xmm15, %xmm12
	pshufb	%xmm15, %xmm3
	movdqa	%xmm3, %xmm0
	por	%xmm12, %xmm0
	movdqa	%xmm2, %xmm4
	por	%xmm13, %xmm4
	por	%xmm0, %xmm4
	ptest	.LCPI31_1(%rip), %xmm4
	jne	.LBB31_14
	packuswb	%xmm12, %xmm13
	packuswb	%xmm3, %xmm2
	movdqu	%xmm2, (%r15,%rax)
	movdqu	%xmm13, 16(%r15,%rax)
	addq	$32, %rax
	addq	$64, %rbp
	cmpq	%r12, %rbp
	ja	.LBB31_42
	movdqa	%xmm12, %xmm1
	cmpq	%rax, %r14
	jae	.LBB31_7
	jmp	.LBB31_42
	.p2align	4
.LBB31_10:
	movdqu	(%r13,%rbp), %xmm2
	movdqu	16(%r13,%rbp), %xmm3
	movdqu	32(%r13,%rbp), %xmm13
	movdqu	48(%r13,%rbp), %xmm12
	pshufb	%xmm15, %xmm13
	pshufb	%xmm15, %xmm2
	pshufb	%xmm15, %xmm12
	pshufb	%xmm15, %xmm3
	movdqa	%xmm3, %xmm0
	por	%xmm12, %xmm0
	movdqa	%xmm2, %xmm4
	por	%xmm13, %xmm4
	por	%xmm0, %xmm4
	ptest	.LCPI31_1(%rip), %xmm4
	jne	.LBB31_14
	packuswb	%xmm12, %xmm13
	packuswb	%xmm3, %xmm2
	movdqu	%xmm2, (%r15,%rax)
	movdqu	%xmm13, 16(%r15,%rax)
	addq	$32, %rax
	addq	$64, %rbp
	cmpq	%r12, %rbp
	ja	.LBB31_42
	movdqa	%xmm12, %xmm1
	cmpq	%rax, %r14
	jae	.LBB31_10
	jmp	.LBB31_42
.LBB31_13:
	movdqa	.LCPI31_0(%rip), %xmm15
	cmpq	%r12, %rbp
	jbe	.LBB31_38
	jmp	.LBB31_41
	.p2align	4
.LBB31_14:
	movdqa	%xmm2, %xmm0
	por	%xmm13, %xmm0
	movdqa	%xmm3, %xmm4
	por	%xmm12, %xmm4
	por	%xmm0, %xmm4
	ptest	.LCPI31_2(%rip), %xmm4
	je	.LBB31_24
	movdqa	.LCPI31_3(%rip), %xmm5
	movdqa	%xmm13, %xmm8
	paddw	%xmm5, %xmm8
	movdqa	%xmm2, %xmm9
	paddw	%xmm5, %xmm9
	movdqa	%xmm12, %xmm4
	paddw	%xmm5, %xmm4
	movdqa	%xmm3, %xmm0
	paddw	%xmm5, %xmm0
	movdqa	%xmm3, %xmm5
	pminuw	%xmm0, %xmm5
	movdqa	%xmm12, %xmm6
	pminuw	%xmm4, %xmm6
	pminuw	%xmm5, %xmm6
	movdqa	%xmm2, %xmm5
	pminuw	%xmm9, %xmm5
	movdqa	%xmm13, %xmm7
	pminuw	%xmm8, %xmm7
	pminuw	%xmm5, %xmm7
	pminuw	%xmm6, %xmm7
	movdqa	.LCPI31_4(%rip), %xmm5
	pminuw	%xmm7, %xmm5
	pcmpeqw	%xmm7, %xmm5
	pmovmskb	%xmm5, %ecx
	testl	%ecx, %ecx
	je	.LBB31_25
	pminuw	%xmm8, %xmm9
	pminuw	%xmm4, %xmm0
	pminuw	%xmm9, %xmm0
	movdqa	.LCPI31_4(%rip), %xmm4
	pminuw	%xmm0, %xmm4
	pcmpeqw	%xmm0, %xmm4
	pmovmskb	%xmm4, %ecx
	testl	%ecx, %ecx
	jne	.LBB31_41
	movq	%r15, %rdi
	movq	%rax, %rsi
	movdqa	%xmm1, %xmm0
	movl	$4, %edx
	movdqa	%xmm12, (%rsp)
	movdqa	%xmm13, 16(%rsp)
	movdqa	%xmm3, 48(%rsp)
	movdqa	%xmm2, 32(%rsp)
	callq	"utf16_to_utf8::blocks::write_group"
	movq	%r15, %rdi
	movq	%rax, %rsi
	movdqa	32(%rsp), %xmm0
	movaps	48(%rsp), %xmm1
	movdqa	16(%rsp), %xmm2
	movdqa	(%rsp), %xmm3
	movl	$4, %edx
	callq	"utf16_to_utf8::blocks::write_group"
	addq	$64, %rbp
	cmpq	%r12, %rbp
	ja	.LBB31_31
	cmpq	%rax, %r14
	movdqa	.LCPI31_0(%rip), %xmm15
	jb	.LBB31_30
	movdqa	(%rsp), %xmm6
	.p2align	4
.LBB31_20:
	movdqu	(%r13,%rbp), %xmm10
	movdqu	16(%r13,%rbp), %xmm8
	movdqu	32(%r13,%rbp), %xmm0
	movdqu	48(%r13,%rbp), %xmm1
	pshufb	%xmm15, %xmm0
	pshufb	%xmm15, %xmm10
	pshufb	%xmm15, %xmm1
	pshufb	%xmm15, %xmm8
	movdqa	%xmm8, %xmm2
	por	%xmm1, %xmm2
	movdqa	%xmm10, %xmm3
	por	%xmm0, %xmm3
	por	%xmm2, %xmm3
	ptest	.LCPI31_2(%rip), %xmm3
	je	.LBB31_33
	movdqa	%xmm8, %xmm2
	movdqa	.LCPI31_3(%rip), %xmm5
	paddw	%xmm5, %xmm2
	movdqa	%xmm1, %xmm3
	paddw	%xmm5, %xmm3
	pminuw	%xmm2, %xmm3
	movdqa	%xmm10, %xmm2
	paddw	%xmm5, %xmm2
	movdqa	%xmm0, %xmm4
	paddw	%xmm5, %xmm4
	pminuw	%xmm2, %xmm4
	pminuw	%xmm3, %xmm4
	movdqa	.LCPI31_4(%rip), %xmm2
	pminuw	%xmm4, %xmm2
	pcmpeqw	%xmm4, %xmm2
	pmovmskb	%xmm2, %ecx
	testl	%ecx, %ecx
	jne	.LBB31_33
	movdqa	%xmm8, %xmm9
	psllw	$8, %xmm9
	movdqa	%xmm10, %xmm12
	psllw	$8, %xmm12
	movdqa	%xmm8, %xmm7
	psrlw	$12, %xmm7
	movdqa	%xmm10, %xmm11
	psrlw	$12, %xmm11
	por	%xmm12, %xmm11
	por	%xmm9, %xmm7
	movdqa	.LCPI31_5(%rip), %xmm5
	por	%xmm5, %xmm11
	movdqa	.LCPI31_6(%rip), %xmm3
	movdqa	%xmm3, %xmm13
	psubusw	%xmm8, %xmm13
	movdqa	%xmm3, %xmm14
	psubusw	%xmm10, %xmm14
	movdqa	%xmm10, %xmm2
	psrlw	$6, %xmm2
	movdqa	.LCPI31_8(%rip), %xmm6
	pand	%xmm6, %xmm2
	movdqa	.LCPI31_9(%rip), %xmm4
	pand	%xmm4, %xmm12
	por	%xmm2, %xmm12
	movdqa	.LCPI31_11(%rip), %xmm2
	movdqa	%xmm2, %xmm15
	psubusw	%xmm10, %xmm15
	movdqa	.LCPI31_7(%rip), %xmm10
	pand	%xmm10, %xmm14
	pand	%xmm10, %xmm13
	por	%xmm14, %xmm15
	psrlw	$9, %xmm14
	por	%xmm14, %xmm12
	movdqa	%xmm2, %xmm14
	psubusw	%xmm8, %xmm14
	por	%xmm13, %xmm14
	psrlw	$9, %xmm13
	psrlw	$6, %xmm8
	pand	%xmm6, %xmm8
	pand	%xmm4, %xmm9
	por	%xmm8, %xmm9
	por	%xmm13, %xmm9
	movdqa	.LCPI31_10(%rip), %xmm8
	por	%xmm8, %xmm12
	pmovmskb	%xmm15, %edx
	movdqa	%xmm11, %xmm13
	punpcklwd	%xmm12, %xmm13
	movzbl	%dl, %esi
	popcntl	%esi, %edi
	shll	$4, %esi
	leaq	.Lstatic.7(%rip), %rcx
	movdqu	(%rsi,%rcx), %xmm15
	pshufb	%xmm15, %xmm13
	movdqu	%xmm13, (%r15,%rax)
	por	%xmm5, %xmm7
	por	%xmm8, %xmm9
	subq	%rdi, %rax
	punpckhwd	%xmm12, %xmm11
	shrl	$8, %edx
	xorl	%esi, %esi
	popcntl	%edx, %esi
	shll	$4, %edx
	movdqu	(%rdx,%rcx), %xmm12
	pshufb	%xmm12, %xmm11
	movdqu	%xmm11, 12(%r15,%rax)
	addq	$12, %rax
	subq	%rsi, %rax
	pmovmskb	%xmm14, %esi
	movdqa	%xmm7, %xmm11
	punpcklwd	%xmm9, %xmm11
	movzbl	%sil, %edx
	xorl	%edi, %edi
	popcntl	%edx, %edi
	shll	$4, %edx
	movdqu	(%rdx,%rcx), %xmm12
	pshufb	%xmm12, %xmm11
	movdqu	%xmm11, 12(%r15,%rax)
	addq	$12, %rax
	subq	%rdi, %rax
	punpckhwd	%xmm9, %xmm7
	shrl	$8, %esi
	xorl	%edx, %edx
	popcntl	%esi, %edx
	shll	$4, %esi
	movdqu	(%rsi,%rcx), %xmm9
	pshufb	%xmm9, %xmm7
	movdqu	%xmm7, 12(%r15,%rax)
	movdqa	%xmm1, %xmm9
	psllw	$8, %xmm9
	movdqa	%xmm0, %xmm12
	psllw	$8, %xmm12
	movdqa	%xmm1, %xmm7
	psrlw	$12, %xmm7
	movdqa	%xmm0, %xmm11
	psrlw	$12, %xmm11
	por	%xmm12, %xmm11
	por	%xmm9, %xmm7
	por	%xmm5, %xmm7
	por	%xmm5, %xmm11
	movdqa	%xmm3, %xmm5
	psubusw	%xmm1, %xmm5
	psubusw	%xmm0, %xmm3
	pand	%xmm10, %xmm3
	pand	%xmm10, %xmm5
	movdqa	%xmm1, %xmm13
	psrlw	$6, %xmm13
	movdqa	%xmm2, %xmm10
	psubusw	%xmm0, %xmm10
	psrlw	$6, %xmm0
	pand	%xmm6, %xmm0
	pand	%xmm6, %xmm13
	pand	%xmm4, %xmm12
	por	%xmm0, %xmm12
	por	%xmm3, %xmm10
	psrlw	$9, %xmm3
	por	%xmm3, %xmm12
	pand	%xmm4, %xmm9
	por	%xmm13, %xmm9
	psubusw	%xmm1, %xmm2
	por	%xmm5, %xmm2
	psrlw	$9, %xmm5
	por	%xmm5, %xmm9
	por	%xmm8, %xmm9
	por	%xmm8, %xmm12
	pmovmskb	%xmm10, %esi
	movdqa	%xmm11, %xmm0
	punpcklwd	%xmm12, %xmm0
	movzbl	%sil, %edi
	popcntl	%edi, %r8d
	shll	$4, %edi
	movdqu	(%rdi,%rcx), %xmm3
	pshufb	%xmm3, %xmm0
	subq	%rdx, %rax
	movdqu	%xmm0, 24(%r15,%rax)
	punpckhwd	%xmm12, %xmm11
	shrl	$8, %esi
	xorl	%edx, %edx
	popcntl	%esi, %edx
	shll	$4, %esi
	movdqu	(%rsi,%rcx), %xmm0
	pshufb	%xmm0, %xmm11
	addq	$24, %rax
	subq	%r8, %rax
	movdqu	%xmm11, 12(%r15,%rax)
	pmovmskb	%xmm2, %esi
	movdqa	%xmm7, %xmm0
	punpcklwd	%xmm9, %xmm0
	movzbl	%sil, %edi
	xorl	%r8d, %r8d
	popcntl	%edi, %r8d
	shll	$4, %edi
	movdqu	(%rdi,%rcx), %xmm2
	pshufb	%xmm2, %xmm0
	addq	$12, %rax
	subq	%rdx, %rax
	movdqu	%xmm0, 12(%r15,%rax)
	punpckhwd	%xmm9, %xmm7
	shrl	$8, %esi
	xorl	%edx, %edx
	popcntl	%esi, %edx
	shll	$4, %esi
	movdqu	(%rsi,%rcx), %xmm0
	pshufb	%xmm0, %xmm7
	addq	$12, %rax
	subq	%r8, %rax
	movdqu	%xmm7, 12(%r15,%rax)
	subq	%rdx, %rax
	addq	$24, %rax
	addq	$64, %rbp
	cmpq	%r12, %rbp
	ja	.LBB31_13
	movdqa	%xmm1, %xmm6
	cmpq	%rax, %r14
	movdqa	.LCPI31_0(%rip), %xmm15
	jae	.LBB31_20
	jmp	.LBB31_37
	.p2align	4
.LBB31_24:
	movdqa	%xmm2, %xmm6
	psrlw	$6, %xmm6
	movdqa	%xmm3, %xmm5
	psrlw	$6, %xmm5
	movdqa	%xmm3, %xmm0
	psllw	$8, %xmm0
	movdqa	.LCPI31_9(%rip), %xmm7
	pand	%xmm7, %xmm0
	movdqa	%xmm2, %xmm1
	psllw	$8, %xmm1
	pand	%xmm7, %xmm1
	movdqa	.LCPI31_17(%rip), %xmm4
	paddw	%xmm4, %xmm6
	paddw	%xmm1, %xmm6
	paddw	%xmm4, %xmm5
	paddw	%xmm0, %xmm5
	movdqa	.LCPI31_18(%rip), %xmm1
	movdqa	%xmm3, %xmm8
	pminuw	%xmm1, %xmm8
	pcmpeqw	%xmm3, %xmm8
	movdqa	%xmm8, %xmm0
	pblendvb	%xmm0, %xmm3, %xmm5
	movdqa	%xmm2, %xmm0
	pminuw	%xmm1, %xmm0
	pcmpeqw	%xmm2, %xmm0
	pblendvb	%xmm0, %xmm2, %xmm6
	packsswb	%xmm8, %xmm0
	pmovmskb	%xmm0, %edx
	movzbl	%dl, %esi
	xorl	%edi, %edi
	popcntl	%esi, %edi
	shll	$4, %esi
	leaq	.Lstatic.6(%rip), %rcx
	movdqu	(%rsi,%rcx), %xmm0
	pshufb	%xmm0, %xmm6
	movdqu	%xmm6, (%r15,%rax)
	subq	%rdi, %rax
	shrl	$8, %edx
	xorl	%esi, %esi
	popcntl	%edx, %esi
	shll	$4, %edx
	movdqu	(%rdx,%rcx), %xmm0
	pshufb	%xmm0, %xmm5
	movdqu	%xmm5, 16(%r15,%rax)
	subq	%rsi, %rax
	movdqa	%xmm13, %xmm6
	psrlw	$6, %xmm6
	movdqa	%xmm12, %xmm5
	psrlw	$6, %xmm5
	movdqa	%xmm12, %xmm0
	psllw	$8, %xmm0
	pand	%xmm7, %xmm0
	movdqa	%xmm13, %xmm2
	psllw	$8, %xmm2
	pand	%xmm7, %xmm2
	paddw	%xmm4, %xmm6
	paddw	%xmm2, %xmm6
	paddw	%xmm4, %xmm5
	paddw	%xmm0, %xmm5
	movdqa	%xmm12, %xmm2
	pminuw	%xmm1, %xmm2
	pcmpeqw	%xmm12, %xmm2
	movdqa	%xmm2, %xmm0
	pblendvb	%xmm0, %xmm12, %xmm5
	pminuw	%xmm13, %xmm1
	pcmpeqw	%xmm13, %xmm1
	movdqa	%xmm1, %xmm0
	pblendvb	%xmm0, %xmm13, %xmm6
	packsswb	%xmm2, %xmm1
	pmovmskb	%xmm1, %edx
	movzbl	%dl, %esi
	xorl	%edi, %edi
	popcntl	%esi, %edi
	shll	$4, %esi
	movdqu	(%rsi,%rcx), %xmm0
	pshufb	%xmm0, %xmm6
	movdqu	%xmm6, 32(%r15,%rax)
	addq	$32, %rax
	subq	%rdi, %rax
	shrl	$8, %edx
	xorl	%esi, %esi
	popcntl	%edx, %esi
	shll	$4, %edx
	movdqu	(%rdx,%rcx), %xmm0
	pshufb	%xmm0, %xmm5
	movdqu	%xmm5, 16(%r15,%rax)
	subq	%rsi, %rax
	addq	$32, %rax
	addq	$64, %rbp
	movdqa	%xmm12, %xmm1
	cmpq	%r12, %rbp
	jbe	.LBB31_38
	jmp	.LBB31_41
	.p2align	4
.LBB31_25:
	movdqa	%xmm3, %xmm1
	psrlw	$12, %xmm1
	movdqa	%xmm2, %xmm8
	psrlw	$12, %xmm8
	movdqa	%xmm2, %xmm5
	psllw	$2, %xmm5
	movdqa	.LCPI31_9(%rip), %xmm0
	pand	%xmm0, %xmm5
	movdqa	%xmm3, %xmm4
	psllw	$2, %xmm4
	pand	%xmm0, %xmm4
	movdqa	.LCPI31_12(%rip), %xmm11
	por	%xmm11, %xmm1
	por	%xmm4, %xmm1
	por	%xmm11, %xmm8
	por	%xmm5, %xmm8
	movdqa	.LCPI31_8(%rip), %xmm10
	pand	%xmm10, %xmm2
	pand	%xmm10, %xmm3
	movdqa	.LCPI31_13(%rip), %xmm4
	por	%xmm4, %xmm3
	por	%xmm4, %xmm2
	movdqa	.LCPI31_14(%rip), %xmm5
	movdqa	%xmm2, %xmm7
	pshufb	%xmm5, %xmm7
	movdqa	.LCPI31_15(%rip), %xmm6
	movdqa	%xmm8, %xmm9
	pshufb	%xmm6, %xmm9
	por	%xmm7, %xmm9
	movdqu	%xmm9, (%r15,%rax)
	punpckhbw	%xmm2, %xmm8
	movq	.LCPI31_27(%rip), %xmm7
	pshufb	%xmm7, %xmm8
	movq	%xmm8, 16(%r15,%rax)
	movdqa	%xmm3, %xmm8
	pshufb	%xmm5, %xmm8
	movdqa	%xmm1, %xmm9
	pshufb	%xmm6, %xmm9
	por	%xmm8, %xmm9
	movdqu	%xmm9, 24(%r15,%rax)
	punpckhbw	%xmm3, %xmm1
	movdqa	%xmm10, %xmm3
	pshufb	%xmm7, %xmm1
	movq	%xmm1, 40(%r15,%rax)
	movdqa	%xmm12, %xmm1
	psrlw	$12, %xmm1
	movdqa	%xmm13, %xmm8
	psrlw	$12, %xmm8
	movdqa	%xmm13, %xmm9
	psllw	$2, %xmm9
	pand	%xmm0, %xmm9
	movdqa	%xmm12, %xmm10
	psllw	$2, %xmm10
	pand	%xmm0, %xmm10
	por	%xmm11, %xmm1
	por	%xmm10, %xmm1
	por	%xmm11, %xmm8
	por	%xmm9, %xmm8
	pand	%xmm3, %xmm13
	movdqa	%xmm12, %xmm9
	pand	%xmm3, %xmm9
	por	%xmm4, %xmm9
	por	%xmm4, %xmm13
	movdqa	%xmm13, %xmm10
	pshufb	%xmm5, %xmm10
	movdqa	%xmm8, %xmm11
	pshufb	%xmm6, %xmm11
	por	%xmm10, %xmm11
	movdqu	%xmm11, 48(%r15,%rax)
	punpckhbw	%xmm13, %xmm8
	pshufb	%xmm7, %xmm8
	movq	%xmm8, 64(%r15,%rax)
	movdqa	%xmm1, %xmm8
	punpckhbw	%xmm9, %xmm1
	pshufb	%xmm5, %xmm9
	pshufb	%xmm6, %xmm8
	por	%xmm9, %xmm8
	movdqu	%xmm8, 72(%r15,%rax)
	pshufb	%xmm7, %xmm1
	movq	%xmm1, 88(%r15,%rax)
	addq	$96, %rax
	addq	$64, %rbp
	cmpq	%r12, %rbp
	ja	.LBB31_36
	cmpq	%rax, %r14
	jb	.LBB31_35
	.p2align	4
.LBB31_27:
	movdqa	%xmm12, %xmm2
	movdqu	(%r13,%rbp), %xmm10
	movdqu	16(%r13,%rbp), %xmm9
	movdqu	32(%r13,%rbp), %xmm8
	movdqu	48(%r13,%rbp), %xmm1
	pshufb	%xmm15, %xmm8
	pshufb	%xmm15, %xmm10
	pshufb	%xmm15, %xmm1
	pshufb	%xmm15, %xmm9
	movdqa	%xmm9, %xmm11
	movdqa	.LCPI31_3(%rip), %xmm0
	paddw	%xmm0, %xmm11
	movdqa	%xmm1, %xmm12
	paddw	%xmm0, %xmm12
	movdqa	%xmm10, %xmm13
	paddw	%xmm0, %xmm13
	movdqa	%xmm8, %xmm14
	paddw	%xmm0, %xmm14
	pminuw	%xmm8, %xmm14
	pminuw	%xmm10, %xmm13
	pminuw	%xmm14, %xmm13
	pminuw	%xmm1, %xmm12
	pminuw	%xmm9, %xmm11
	pminuw	%xmm12, %xmm11
	pminuw	%xmm13, %xmm11
	movdqa	.LCPI31_4(%rip), %xmm12
	pminuw	%xmm11, %xmm12
	pcmpeqw	%xmm11, %xmm12
	pmovmskb	%xmm12, %ecx
	testl	%ecx, %ecx
	jne	.LBB31_34
	movdqa	%xmm9, %xmm11
	psrlw	$12, %xmm11
	movdqa	%xmm10, %xmm12
	psrlw	$12, %xmm12
	movdqa	%xmm10, %xmm13
	psllw	$2, %xmm13
	movdqa	.LCPI31_9(%rip), %xmm0
	pand	%xmm0, %xmm13
	movdqa	%xmm9, %xmm14
	psllw	$2, %xmm14
	pand	%xmm0, %xmm14
	movdqa	.LCPI31_12(%rip), %xmm2
	por	%xmm2, %xmm11
	por	%xmm14, %xmm11
	por	%xmm2, %xmm12
	por	%xmm13, %xmm12
	pand	%xmm3, %xmm10
	pand	%xmm3, %xmm9
	por	%xmm4, %xmm9
	por	%xmm4, %xmm10
	movdqa	%xmm10, %xmm13
	pshufb	%xmm5, %xmm13
	movdqa	%xmm12, %xmm14
	pshufb	%xmm6, %xmm14
	por	%xmm13, %xmm14
	movdqu	%xmm14, (%r15,%rax)
	punpckhbw	%xmm10, %xmm12
	pshufb	%xmm7, %xmm12
	movq	%xmm12, 16(%r15,%rax)
	movdqa	%xmm9, %xmm10
	pshufb	%xmm5, %xmm10
	movdqa	%xmm11, %xmm12
	pshufb	%xmm6, %xmm12
	por	%xmm10, %xmm12
	movdqu	%xmm12, 24(%r15,%rax)
	punpckhbw	%xmm9, %xmm11
	pshufb	%xmm7, %xmm11
	movq	%xmm11, 40(%r15,%rax)
	movdqa	%xmm1, %xmm9
	psrlw	$12, %xmm9
	movdqa	%xmm8, %xmm10
	psrlw	$12, %xmm10
	movdqa	%xmm8, %xmm11
	psllw	$2, %xmm11
	pand	%xmm0, %xmm11
	movdqa	%xmm1, %xmm12
	psllw	$2, %xmm12
	pand	%xmm0, %xmm12
	por	%xmm2, %xmm9
	por	%xmm12, %xmm9
	por	%xmm2, %xmm10
	por	%xmm11, %xmm10
	pand	%xmm3, %xmm8
	movdqa	%xmm1, %xmm11
	pand	%xmm3, %xmm11
	por	%xmm4, %xmm11
	por	%xmm4, %xmm8
	movdqa	%xmm8, %xmm12
	pshufb	%xmm5, %xmm12
	movdqa	%xmm10, %xmm13
	pshufb	%xmm6, %xmm13
	por	%xmm12, %xmm13
	movdqu	%xmm13, 48(%r15,%rax)
	punpckhbw	%xmm8, %xmm10
	pshufb	%xmm7, %xmm10
	movq	%xmm10, 64(%r15,%rax)
	movdqa	%xmm9, %xmm8
	punpckhbw	%xmm11, %xmm9
	pshufb	%xmm5, %xmm11
	pshufb	%xmm6, %xmm8
	por	%xmm11, %xmm8
	movdqu	%xmm8, 72(%r15,%rax)
	pshufb	%xmm7, %xmm9
	movq	%xmm9, 88(%r15,%rax)
	addq	$96, %rax
	addq	$64, %rbp
	cmpq	%r12, %rbp
	ja	.LBB31_37
	movdqa	%xmm1, %xmm12
	cmpq	%rax, %r14
	jae	.LBB31_27
	jmp	.LBB31_37
.LBB31_33:
	movdqa	%xmm6, %xmm1
	cmpq	%r12, %rbp
	jbe	.LBB31_38
	jmp	.LBB31_41
.LBB31_30:
	movdqa	(%rsp), %xmm1
	cmpq	%r12, %rbp
	jbe	.LBB31_38
	jmp	.LBB31_41
.LBB31_31:
	movdqa	(%rsp), %xmm1
	movdqa	.LCPI31_0(%rip), %xmm15
	cmpq	%r12, %rbp
	jbe	.LBB31_38
	jmp	.LBB31_41
.LBB31_34:
	movdqa	%xmm2, %xmm1
	cmpq	%r12, %rbp
	jbe	.LBB31_38
	jmp	.LBB31_41
.LBB31_35:
	movdqa	%xmm12, %xmm1
	cmpq	%r12, %rbp
	jbe	.LBB31_38
	jmp	.LBB31_41
.LBB31_36:
	movdqa	%xmm12, %xmm1
	.p2align	4
.LBB31_37:
	cmpq	%r12, %rbp
	ja	.LBB31_41
.LBB31_38:
	cmpq	%rax, %r14
	jae	.LBB31_10
	.p2align	4
.LBB31_41:
	movdqa	%xmm1, %xmm12
.LBB31_42:
	cmpq	%rbp, %r12
	jb	.LBB31_63
	cmpq	%rax, %r14
	jb	.LBB31_63
	movdqu	(%r13,%rbp), %xmm2
	movdqu	16(%r13,%rbp), %xmm14
	movdqu	32(%r13,%rbp), %xmm13
	movdqu	48(%r13,%rbp), %xmm15
	movdqa	.LCPI31_0(%rip), %xmm5
	pshufb	%xmm5, %xmm13
	pshufb	%xmm5, %xmm15
	pshufb	%xmm5, %xmm2
	pshufb	%xmm5, %xmm14
	movdqa	%xmm14, %xmm0
	psrlw	$8, %xmm0
	movdqa	%xmm2, %xmm1
	psrlw	$8, %xmm1
	packuswb	%xmm0, %xmm1
	movdqa	%xmm15, %xmm0
	psrlw	$8, %xmm0
	movdqa	%xmm13, %xmm4
	psrlw	$8, %xmm4
	packuswb	%xmm0, %xmm4
	movdqa	.LCPI31_19(%rip), %xmm0
	pand	%xmm0, %xmm1
	pand	%xmm0, %xmm4
	movdqa	.LCPI31_20(%rip), %xmm7
	movdqa	%xmm4, %xmm0
	pcmpeqb	%xmm7, %xmm0
	movdqa	%xmm1, %xmm3
	pcmpeqb	%xmm7, %xmm3
	pmovmskb	%xmm3, %edx
	pmovmskb	%xmm0, %ecx
	movdqa	.LCPI31_21(%rip), %xmm8
	pcmpeqb	%xmm8, %xmm1
	pmovmskb	%xmm1, %esi
	pcmpeqb	%xmm8, %xmm4
	pmovmskb	%xmm4, %edi
	shll	$16, %edi
	orl	%esi, %edi
	movl	%ecx, %esi
	shll	$17, %esi
	movzbl	%bl, %r8d
	andl	$1, %r8d
	leal	(%rsi,%rdx,2), %edx
	orl	%r8d, %edx
	cmpl	%edi, %edx
	jne	.LBB31_63
	shrl	$15, %ecx
	movl	%ecx, %ebx
	movdqa	%xmm2, %xmm0
	por	%xmm13, %xmm0
	movdqa	%xmm14, %xmm1
	por	%xmm15, %xmm1
	por	%xmm0, %xmm1
	ptest	.LCPI31_2(%rip), %xmm1
	movdqa	%xmm15, (%rsp)
	je	.LBB31_3
	movdqa	.LCPI31_3(%rip), %xmm9
	movdqa	%xmm13, %xmm0
	paddw	%xmm9, %xmm0
	movdqa	%xmm2, %xmm1
	paddw	%xmm9, %xmm1
	movdqa	%xmm15, %xmm4
	paddw	%xmm9, %xmm4
	movdqa	%xmm14, %xmm3
	paddw	%xmm9, %xmm3
	pminuw	%xmm14, %xmm3
	pminuw	%xmm15, %xmm4
	por	%xmm3, %xmm4
	pminuw	%xmm2, %xmm1
	pminuw	%xmm13, %xmm0
	por	%xmm1, %xmm0
	por	%xmm4, %xmm0
	ptest	.LCPI31_2(%rip), %xmm0
	jne	.LBB31_3
	movdqa	%xmm2, %xmm1
	palignr	$14, %xmm12, %xmm1
	movdqa	%xmm14, %xmm0
	palignr	$14, %xmm2, %xmm0
	movdqa	.LCPI31_22(%rip), %xmm3
	movdqa	%xmm14, %xmm6
	paddw	%xmm3, %xmm6
	movdqa	%xmm2, %xmm12
	paddw	%xmm3, %xmm12
	movdqa	.LCPI31_23(%rip), %xmm4
	movdqa	%xmm2, %xmm11
	paddw	%xmm4, %xmm11
	movdqa	%xmm14, %xmm3
	paddw	%xmm4, %xmm3
	psrlw	$2, %xmm3
	psrlw	$2, %xmm11
	movdqa	.LCPI31_24(%rip), %xmm4
	psubusw	%xmm4, %xmm11
	psubusw	%xmm4, %xmm3
	psllw	$10, %xmm0
	psllw	$10, %xmm1
	movdqa	.LCPI31_25(%rip), %xmm4
	pand	%xmm4, %xmm1
	pand	%xmm4, %xmm0
	movdqa	.LCPI31_26(%rip), %xmm15
	movdqa	%xmm2, %xmm4
	movdqa	%xmm2, %xmm10
	paddw	%xmm15, %xmm10
	paddw	%xmm1, %xmm10
	pmaxuw	%xmm11, %xmm10
	movdqa	%xmm14, %xmm2
	paddw	%xmm15, %xmm2
	paddw	%xmm0, %xmm2
	pmaxuw	%xmm3, %xmm2
	pxor	%xmm1, %xmm1
	pxor	%xmm0, %xmm0
	pcmpgtw	%xmm4, %xmm0
	pblendvb	%xmm0, %xmm10, %xmm12
	pcmpgtw	%xmm14, %xmm1
	movdqa	%xmm1, %xmm0
	pblendvb	%xmm0, %xmm2, %xmm6
	movdqa	%xmm6, %xmm0
	psrlw	$6, %xmm0
	movdqa	%xmm12, %xmm1
	psrlw	$6, %xmm1
	movdqa	.LCPI31_7(%rip), %xmm2
	psllw	$8, %xmm12
	psllw	$8, %xmm6
	movdqa	.LCPI31_9(%rip), %xmm3
	pand	%xmm3, %xmm6
	paddw	%xmm0, %xmm6
	pand	%xmm3, %xmm12
	paddw	%xmm1, %xmm12
	por	%xmm2, %xmm12
	por	%xmm2, %xmm6
	movdqa	.LCPI31_18(%rip), %xmm1
	movdqa	%xmm14, %xmm0
	pminuw	%xmm1, %xmm0
	pcmpeqw	%xmm14, %xmm0
	movdqa	%xmm0, 16(%rsp)
	pblendvb	%xmm0, %xmm14, %xmm6
	movdqa	%xmm4, %xmm2
	pminuw	%xmm1, %xmm2
	pcmpeqw	%xmm4, %xmm2
	movdqa	%xmm2, %xmm0
	pblendvb	%xmm0, %xmm4, %xmm12
	pxor	%xmm0, %xmm0
	movdqa	%xmm13, %xmm3
	palignr	$14, %xmm14, %xmm3
	psllw	$10, %xmm3
	pand	.LCPI31_25(%rip), %xmm3
	movdqa	%xmm13, %xmm1
	paddw	%xmm15, %xmm13
	paddw	%xmm3, %xmm13
	movdqa	%xmm1, %xmm3
	movdqa	.LCPI31_23(%rip), %xmm11
	paddw	%xmm11, %xmm3
	psrlw	$2, %xmm3
	movdqa	.LCPI31_24(%rip), %xmm14
	psubusw	%xmm14, %xmm3
	pmaxuw	%xmm3, %xmm13
	movdqa	%xmm1, %xmm10
	movdqa	.LCPI31_22(%rip), %xmm4
	paddw	%xmm4, %xmm10
	pcmpgtw	%xmm1, %xmm0
	pblendvb	%xmm0, %xmm13, %xmm10
	movdqa	(%rsp), %xmm0
	palignr	$14, %xmm1, %xmm0
	psllw	$10, %xmm0
	pand	.LCPI31_25(%rip), %xmm0
	movdqa	(%rsp), %xmm3
	paddw	%xmm15, %xmm3
	movdqa	(%rsp), %xmm15
	paddw	%xmm0, %xmm3
	movdqa	%xmm15, %xmm0
	paddw	%xmm11, %xmm0
	psrlw	$2, %xmm0
	psubusw	%xmm14, %xmm0
	pmaxuw	%xmm0, %xmm3
	movdqa	%xmm15, %xmm13
	paddw	%xmm4, %xmm13
	pxor	%xmm0, %xmm0
	pcmpgtw	%xmm15, %xmm0
	pblendvb	%xmm0, %xmm3, %xmm13
	movdqa	%xmm13, %xmm0
	psrlw	$6, %xmm0
	psllw	$8, %xmm13
	movdqa	.LCPI31_9(%rip), %xmm3
	pand	%xmm3, %xmm13
	paddw	%xmm0, %xmm13
	movdqa	%xmm10, %xmm0
	psrlw	$6, %xmm0
	psllw	$8, %xmm10
	pand	%xmm3, %xmm10
	paddw	%xmm0, %xmm10
	movdqa	.LCPI31_7(%rip), %xmm4
	por	%xmm4, %xmm13
	movdqa	%xmm15, %xmm3
	movdqa	.LCPI31_18(%rip), %xmm11
	pminuw	%xmm11, %xmm3
	pcmpeqw	%xmm15, %xmm3
	movdqa	%xmm3, %xmm0
	pblendvb	%xmm0, %xmm15, %xmm13
	por	%xmm4, %xmm10
	movdqa	%xmm1, %xmm0
	pminuw	%xmm11, %xmm0
	pcmpeqw	%xmm1, %xmm0
	pblendvb	%xmm0, %xmm1, %xmm10
	packsswb	16(%rsp), %xmm2
	pmovmskb	%xmm2, %edx
	movzbl	%dl, %esi
	popcntl	%esi, %edi
	shll	$4, %esi
	leaq	.Lstatic.6(%rip), %rcx
	movdqu	(%rsi,%rcx), %xmm1
	pshufb	%xmm1, %xmm12
	movdqu	%xmm12, (%r15,%rax)
	shrl	$8, %edx
	xorl	%esi, %esi
	popcntl	%edx, %esi
	shll	$4, %edx
	movdqu	(%rdx,%rcx), %xmm1
	pshufb	%xmm1, %xmm6
	subq	%rdi, %rax
	movdqu	%xmm6, 16(%r15,%rax)
	packsswb	%xmm3, %xmm0
	pmovmskb	%xmm0, %edx
	movzbl	%dl, %edi
	popcntl	%edi, %r8d
	shll	$4, %edi
	movdqu	(%rdi,%rcx), %xmm0
	pshufb	%xmm0, %xmm10
	subq	%rsi, %rax
	movdqu	%xmm10, 32(%r15,%rax)
	shrl	$8, %edx
	xorl	%esi, %esi
	popcntl	%edx, %esi
	shll	$4, %edx
	movdqu	(%rdx,%rcx), %xmm0
	pshufb	%xmm0, %xmm13
	addq	$32, %rax
	subq	%r8, %rax
	movdqu	%xmm13, 16(%r15,%rax)
	subq	%rsi, %rax
	addq	$64, %rbp
	addq	$32, %rax
	cmpq	%r12, %rbp
	ja	.LBB31_55
	cmpq	%rax, %r14
	jb	.LBB31_55
	.p2align	4
.LBB31_49:
	movdqu	(%r13,%rbp), %xmm10
	movdqu	16(%r13,%rbp), %xmm13
	movdqu	32(%r13,%rbp), %xmm6
	movdqu	48(%r13,%rbp), %xmm1
	pshufb	%xmm5, %xmm6
	pshufb	%xmm5, %xmm10
	pshufb	%xmm5, %xmm1
	pshufb	%xmm5, %xmm13
	movdqa	%xmm13, %xmm0
	por	%xmm1, %xmm0
	movdqa	%xmm10, %xmm2
	por	%xmm6, %xmm2
	por	%xmm0, %xmm2
	ptest	.LCPI31_2(%rip), %xmm2
	je	.LBB31_55
	movdqa	%xmm6, %xmm0
	paddw	%xmm9, %xmm0
	movdqa	%xmm10, %xmm2
	paddw	%xmm9, %xmm2
	movdqa	%xmm1, %xmm3
	paddw	%xmm9, %xmm3
	movdqa	%xmm13, %xmm4
	paddw	%xmm9, %xmm4
	pminuw	%xmm13, %xmm4
	pminuw	%xmm1, %xmm3
	por	%xmm4, %xmm3
	pminuw	%xmm10, %xmm2
	pminuw	%xmm6, %xmm0
	por	%xmm2, %xmm0
	por	%xmm3, %xmm0
	ptest	.LCPI31_2(%rip), %xmm0
	jne	.LBB31_55
	movdqa	%xmm10, %xmm0
	psrlw	$8, %xmm0
	movdqa	%xmm13, %xmm2
	psrlw	$8, %xmm2
	packuswb	%xmm2, %xmm0
	movdqa	%xmm6, %xmm2
	psrlw	$8, %xmm2
	movdqa	%xmm1, %xmm3
	psrlw	$8, %xmm3
	packuswb	%xmm3, %xmm2
	movdqa	.LCPI31_19(%rip), %xmm3
	pand	%xmm3, %xmm0
	pand	%xmm3, %xmm2
	movdqa	%xmm2, %xmm3
	pcmpeqb	%xmm7, %xmm3
	movdqa	%xmm0, %xmm4
	pcmpeqb	%xmm7, %xmm4
	pmovmskb	%xmm4, %esi
	pmovmskb	%xmm3, %edx
	pcmpeqb	%xmm8, %xmm0
	pmovmskb	%xmm0, %edi
	pcmpeqb	%xmm8, %xmm2
	pmovmskb	%xmm2, %r8d
	shll	$16, %r8d
	orl	%edi, %r8d
	movl	%edx, %edi
	shll	$17, %edi
	leal	(%rdi,%rsi,2), %esi
	movzbl	%bl, %edi
	orl	%esi, %edi
	cmpl	%r8d, %edi
	jne	.LBB31_55
	movdqa	%xmm10, %xmm2
	palignr	$14, %xmm15, %xmm2
	movdqa	%xmm13, %xmm0
	palignr	$14, %xmm10, %xmm0
	movdqa	%xmm13, %xmm15
	movdqa	.LCPI31_22(%rip), %xmm12
	paddw	%xmm12, %xmm15
	movdqa	%xmm10, %xmm11
	paddw	%xmm12, %xmm11
	movdqa	%xmm10, %xmm3
	movdqa	.LCPI31_23(%rip), %xmm9
	paddw	%xmm9, %xmm3
	movdqa	%xmm13, %xmm4
	paddw	%xmm9, %xmm4
	psrlw	$2, %xmm4
	psrlw	$2, %xmm3
	movdqa	.LCPI31_24(%rip), %xmm8
	psubusw	%xmm8, %xmm3
	psubusw	%xmm8, %xmm4
	psllw	$10, %xmm0
	psllw	$10, %xmm2
	movdqa	.LCPI31_25(%rip), %xmm7
	pand	%xmm7, %xmm2
	pand	%xmm7, %xmm0
	movdqa	%xmm10, %xmm14
	movdqa	.LCPI31_26(%rip), %xmm5
	paddw	%xmm5, %xmm14
	paddw	%xmm2, %xmm14
	pmaxuw	%xmm3, %xmm14
	movdqa	%xmm13, %xmm3
	paddw	%xmm5, %xmm3
	paddw	%xmm0, %xmm3
	pmaxuw	%xmm4, %xmm3
	pxor	%xmm2, %xmm2
	pcmpgtw	%xmm13, %xmm2
	pxor	%xmm0, %xmm0
	pcmpgtw	%xmm10, %xmm0
	pblendvb	%xmm0, %xmm14, %xmm11
	movdqa	%xmm2, %xmm0
	pblendvb	%xmm0, %xmm3, %xmm15
	movdqa	%xmm15, %xmm0
	psrlw	$6, %xmm0
	movdqa	%xmm11, %xmm2
	psrlw	$6, %xmm2
	psllw	$8, %xmm11
	psllw	$8, %xmm15
	movdqa	.LCPI31_9(%rip), %xmm9
	pand	%xmm9, %xmm15
	paddw	%xmm0, %xmm15
	pand	%xmm9, %xmm11
	paddw	%xmm2, %xmm11
	movdqa	.LCPI31_7(%rip), %xmm9
	por	%xmm9, %xmm15
	movdqa	%xmm13, %xmm2
	movdqa	.LCPI31_18(%rip), %xmm4
	pminuw	%xmm4, %xmm2
	pcmpeqw	%xmm13, %xmm2
	movdqa	%xmm2, %xmm0
	pblendvb	%xmm0, %xmm13, %xmm15
	por	%xmm9, %xmm11
	movdqa	%xmm10, %xmm3
	pminuw	%xmm4, %xmm3
	pcmpeqw	%xmm10, %xmm3
	movdqa	%xmm3, %xmm0
	pblendvb	%xmm0, %xmm10, %xmm11
	movdqa	%xmm6, %xmm10
	palignr	$14, %xmm13, %xmm10
	movdqa	%xmm1, %xmm0
	palignr	$14, %xmm6, %xmm0
	movdqa	%xmm1, %xmm13
	movdqa	%xmm12, %xmm8
	paddw	%xmm12, %xmm13
	psllw	$10, %xmm10
	movdqa	%xmm7, %xmm5
	pand	%xmm7, %xmm10
	movdqa	%xmm6, %xmm12
	movdqa	.LCPI31_26(%rip), %xmm7
	paddw	%xmm7, %xmm12
	paddw	%xmm10, %xmm12
	movdqa	%xmm6, %xmm10
	movdqa	.LCPI31_23(%rip), %xmm14
	paddw	%xmm14, %xmm10
	psrlw	$2, %xmm10
	movdqa	.LCPI31_24(%rip), %xmm4
	psubusw	%xmm4, %xmm10
	psllw	$10, %xmm0
	pand	%xmm5, %xmm0
	pmaxuw	%xmm10, %xmm12
	movdqa	%xmm1, %xmm10
	paddw	%xmm7, %xmm10
	paddw	%xmm0, %xmm10
	movdqa	%xmm1, %xmm0
	paddw	%xmm14, %xmm0
	psrlw	$2, %xmm0
	psubusw	%xmm4, %xmm0
	pmaxuw	%xmm0, %xmm10
	movdqa	%xmm6, %xmm14
	paddw	%xmm8, %xmm14
	pxor	%xmm0, %xmm0
	pcmpgtw	%xmm6, %xmm0
	pblendvb	%xmm0, %xmm12, %xmm14
	pxor	%xmm0, %xmm0
	pcmpgtw	%xmm1, %xmm0
	pblendvb	%xmm0, %xmm10, %xmm13
	movdqa	%xmm13, %xmm0
	psrlw	$6, %xmm0
	movdqa	%xmm14, %xmm4
	psrlw	$6, %xmm4
	psllw	$8, %xmm14
	psllw	$8, %xmm13
	movdqa	.LCPI31_9(%rip), %xmm5
	pand	%xmm5, %xmm13
	paddw	%xmm0, %xmm13
	pand	%xmm5, %xmm14
	paddw	%xmm4, %xmm14
	por	%xmm9, %xmm14
	por	%xmm9, %xmm13
	movdqa	%xmm1, %xmm4
	movdqa	.LCPI31_18(%rip), %xmm5
	pminuw	%xmm5, %xmm4
	pcmpeqw	%xmm1, %xmm4
	movdqa	%xmm4, %xmm0
	pblendvb	%xmm0, %xmm1, %xmm13
	movdqa	%xmm6, %xmm0
	pminuw	%xmm5, %xmm0
	pcmpeqw	%xmm6, %xmm0
	pblendvb	%xmm0, %xmm6, %xmm14
	packsswb	%xmm2, %xmm3
	pmovmskb	%xmm3, %esi
	movzbl	%sil, %edi
	popcntl	%edi, %r8d
	shll	$4, %edi
	movdqu	(%rdi,%rcx), %xmm2
	pshufb	%xmm2, %xmm11
	movdqu	%xmm11, (%r15,%rax)
	shrl	$8, %esi
	xorl	%edi, %edi
	popcntl	%esi, %edi
	shll	$4, %esi
	movdqu	(%rsi,%rcx), %xmm2
	pshufb	%xmm2, %xmm15
	subq	%r8, %rax
	movdqu	%xmm15, 16(%r15,%rax)
	packsswb	%xmm4, %xmm0
	pmovmskb	%xmm0, %esi
	movzbl	%sil, %r8d
	popcntl	%r8d, %r9d
	shll	$4, %r8d
	movdqu	(%r8,%rcx), %xmm0
	pshufb	%xmm0, %xmm14
	subq	%rdi, %rax
	movdqu	%xmm14, 32(%r15,%rax)
	shrl	$8, %esi
	xorl	%edi, %edi
	popcntl	%esi, %edi
	shll	$4, %esi
	movdqu	(%rsi,%rcx), %xmm0
	pshufb	%xmm0, %xmm13
	addq	$32, %rax
	subq	%r9, %rax
	movdqu	%xmm13, 16(%r15,%rax)
	movzwl	%dx, %ebx
	shrl	$15, %ebx
	subq	%rdi, %rax
	addq	$64, %rbp
	addq	$32, %rax
	cmpq	%r12, %rbp
	ja	.LBB31_4
	movdqa	%xmm1, %xmm15
	cmpq	%rax, %r14
	movdqa	.LCPI31_20(%rip), %xmm7
	movdqa	.LCPI31_21(%rip), %xmm8
	movdqa	.LCPI31_3(%rip), %xmm9
	movdqa	.LCPI31_0(%rip), %xmm5
	jae	.LBB31_49
	jmp	.LBB31_4
.LBB31_55:
	movdqa	%xmm15, %xmm1
	jmp	.LBB31_4
.LBB31_63:
	movdqa	%xmm12, %xmm1
.LBB31_64:
	andb	$1, %bl
	movq	64(%rsp), %rcx
	movq	%rbp, (%rcx)
	movq	%rax, 8(%rcx)
	movdqu	%xmm1, 16(%rcx)
	movb	%bl, 32(%rcx)
	movl	$0, 33(%rcx)
	movl	$0, 36(%rcx)
.LBB31_65:
	addq	$72, %rsp
	.cfi_def_cfa_offset 56
	popq	%rbx
	.cfi_def_cfa_offset 48
	popq	%r12
	.cfi_def_cfa_offset 40
	popq	%r13
	.cfi_def_cfa_offset 32
	popq	%r14
	.cfi_def_cfa_offset 24
	popq	%r15
	.cfi_def_cfa_offset 16
	popq	%rbp
	.cfi_def_cfa_offset 8
	retq
.Lfunc_end31:
	.size	"utf16_to_utf8::runs::write_paired::<#8b18edd9dd9aa8df>", .Lfunc_end31-"utf16_to_utf8::runs::write_paired::<#8b18edd9dd9aa8df>"
	.cfi_endproc

	.section	.rodata.cst16,"aM",@progbits,16
	.p2align	4, 0x0
.LCPI32_0:
	.short	224
	.short	224
	.short	224
	.short	224
	.short	224
	.short	224
	.short	224
	.short	224
.LCPI32_1:
	.short	34815
	.short	34815
	.short	34815
	.short	34815
	.short	34815
	.short	34815
	.short	34815
	.short	34815
.LCPI32_2:
	.short	32768
	.short	32768
	.short	32768
	.short	32768
	.short	32768
	.short	32768
	.short	32768
	.short	32768
.LCPI32_3:
	.short	4095
	.short	4095
	.short	4095
	.short	4095
	.short	4095
	.short	4095
	.short	4095
	.short	4095
.LCPI32_4:
	.short	8192
	.short	8192
	.short	8192
	.short	8192
	.short	8192
	.short	8192
	.short	8192
	.short	8192
.LCPI32_5:
	.short	9216
	.short	9216
	.short	9216
	.short	9216
	.short	9216
	.short	9216
	.short	9216
	.short	9216
.LCPI32_6:
	.short	752
	.short	752
	.short	752
	.short	752
	.short	752
	.short	752
	.short	752
	.short	752
.LCPI32_7:
	.short	3072
	.short	3072
	.short	3072
	.short	3072
	.short	3072
	.short	3072
	.short	3072
	.short	3072
.LCPI32_8:
	.short	17408
	.short	17408
	.short	17408
	.short	17408
	.short	17408
	.short	17408
	.short	17408
	.short	17408
.LCPI32_9:
	.short	63488
	.short	63488
	.short	63488
	.short	63488
	.short	63488
	.short	63488
	.short	63488
	.short	63488
.LCPI32_10:
	.short	55296
	.short	55296
	.short	55296
	.short	55296
	.short	55296
	.short	55296
	.short	55296
	.short	55296
.LCPI32_11:
	.short	16128
	.short	16128
	.short	16128
	.short	16128
	.short	16128
	.short	16128
	.short	16128
	.short	16128
.LCPI32_12:
	.short	255
	.short	255
	.short	255
	.short	255
	.short	255
	.short	255
	.short	255
	.short	255
.LCPI32_13:
	.short	63
	.short	63
	.short	63
	.short	63
	.short	63
	.short	63
	.short	63
	.short	63
.LCPI32_14:
	.zero	16,128
.LCPI32_15:
	.short	32992
	.short	32992
	.short	32992
	.short	32992
	.short	32992
	.short	32992
	.short	32992
	.short	32992
.LCPI32_16:
	.short	128
	.short	128
	.short	128
	.short	128
	.short	128
	.short	128
	.short	128
	.short	128
.LCPI32_17:
	.byte	128
	.byte	128
	.byte	0
	.byte	128
	.byte	128
	.byte	2
	.byte	128
	.byte	128
	.byte	4
	.byte	128
	.byte	128
	.byte	6
	.byte	128
	.byte	128
	.byte	8
	.byte	128
.LCPI32_18:
	.byte	0
	.byte	1
	.byte	128
	.byte	2
	.byte	3
	.byte	128
	.byte	4
	.byte	5
	.byte	128
	.byte	6
	.byte	7
	.byte	128
	.byte	8
	.byte	9
	.byte	128
	.byte	10
.LCPI32_19:
	.byte	6
	.byte	5
	.byte	8
	.byte	10
	.byte	9
	.byte	12
	.byte	14
	.byte	13
	.zero	1
	.zero	1
	.zero	1
	.zero	1
	.zero	1
	.zero	1
	.zero	1
	.zero	1
.LCPI32_20:
	.short	12288
	.short	12288
	.short	12288
	.short	12288
	.short	12288
	.short	12288
	.short	12288
	.short	12288
.LCPI32_21:
	.short	127
	.short	127
	.short	127
	.short	127
	.short	127
	.short	127
	.short	127
	.short	127
.LCPI32_22:
	.short	32960
	.short	32960
	.short	32960
	.short	32960
	.short	32960
	.short	32960
	.short	32960
	.short	32960
.LCPI32_23:
	.byte	6
	.byte	5
	.byte	8
	.byte	10
	.byte	9
	.byte	12
	.byte	14
	.byte	13
	.byte	0
	.byte	0
	.byte	0
	.byte	0
	.byte	0
	.byte	0
	.byte	0
	.byte	0
	.section	".text.utf16_to_utf8::blocks::write_group","ax",@progbits
	.p2align	4
	.type	"utf16_to_utf8::blocks::write_group",@function
"utf16_to_utf8::blocks::write_group":
	.cfi_startproc
	movq	%rsi, %rax
	movzbl	%dl, %ecx
	leaq	.LJTI32_0(%rip), %rdx
	movslq	(%rdx,%rcx,4), %rcx
	addq	%rdx, %rcx
	notrack jmpq	*%rcx
.LBB32_1:
	packuswb	%xmm3, %xmm2
	movdqu	%xmm2, (%rdi,%rax)
	addq	$16, %rax
	retq
.LBB32_6:
	movdqa	%xmm3, %xmm1
	psllw	$8, %xmm1
	movdqa	%xmm2, %xmm5
	psllw	$8, %xmm5
	movdqa	%xmm3, %xmm0
	psrlw	$12, %xmm0
	movdqa	%xmm2, %xmm4
	psrlw	$12, %xmm4
	por	%xmm5, %xmm4
	por	%xmm1, %xmm0
	movdqa	.LCPI32_0(%rip), %xmm6
	por	%xmm6, %xmm0
	por	%xmm6, %xmm4
	movdqa	.LCPI32_1(%rip), %xmm7
	movdqa	%xmm7, %xmm8
	psubusw	%xmm2, %xmm8
	psubusw	%xmm3, %xmm7
	movdqa	.LCPI32_2(%rip), %xmm6
	pand	%xmm6, %xmm7
	pand	%xmm6, %xmm8
	movdqa	.LCPI32_12(%rip), %xmm6
	movdqa	%xmm6, %xmm9
	psubusw	%xmm2, %xmm9
	por	%xmm8, %xmm9
	psrlw	$9, %xmm8
	psubusw	%xmm3, %xmm6
	por	%xmm7, %xmm6
	psrlw	$9, %xmm7
	psrlw	$6, %xmm3
	psrlw	$6, %xmm2
	movdqa	.LCPI32_13(%rip), %xmm10
	pand	%xmm10, %xmm2
	pand	%xmm10, %xmm3
	movdqa	.LCPI32_11(%rip), %xmm10
	pand	%xmm10, %xmm5
	por	%xmm2, %xmm5
	pand	%xmm10, %xmm1
	por	%xmm3, %xmm1
	movdqa	.LCPI32_14(%rip), %xmm2
	por	%xmm2, %xmm1
	por	%xmm7, %xmm1
	por	%xmm2, %xmm5
	por	%xmm8, %xmm5
	pmovmskb	%xmm9, %edx
	movdqa	%xmm4, %xmm2
	punpcklwd	%xmm5, %xmm2
	movzbl	%dl, %esi
	popcntl	%esi, %r8d
	shll	$4, %esi
	leaq	.Lstatic.7(%rip), %rcx
	movdqu	(%rsi,%rcx), %xmm3
	pshufb	%xmm3, %xmm2
	movdqu	%xmm2, (%rdi,%rax)
	subq	%r8, %rax
	punpckhwd	%xmm5, %xmm4
	shrl	$8, %edx
	xorl	%esi, %esi
	popcntl	%edx, %esi
	shll	$4, %edx
	movdqu	(%rdx,%rcx), %xmm2
	pshufb	%xmm2, %xmm4
	movdqu	%xmm4, 12(%rdi,%rax)
	addq	$12, %rax
	subq	%rsi, %rax
	pmovmskb	%xmm6, %edx
	movdqa	%xmm0, %xmm2
	punpcklwd	%xmm1, %xmm2
	movzbl	%dl, %esi
	xorl	%r8d, %r8d
	popcntl	%esi, %r8d
	shll	$4, %esi
	movdqu	(%rsi,%rcx), %xmm3
	pshufb	%xmm3, %xmm2
	movdqu	%xmm2, 12(%rdi,%rax)
	addq	$12, %rax
	subq	%r8, %rax
	punpckhwd	%xmm1, %xmm0
	shrl	$8, %edx
	xorl	%esi, %esi
	popcntl	%edx, %esi
	shll	$4, %edx
	movdqu	(%rdx,%rcx), %xmm1
	pshufb	%xmm1, %xmm0
	movdqu	%xmm0, 12(%rdi,%rax)
	subq	%rsi, %rax
	addq	$24, %rax
	retq
.LBB32_4:
	movdqa	%xmm2, %xmm4
	palignr	$14, %xmm1, %xmm4
	movdqa	%xmm3, %xmm0
	palignr	$14, %xmm2, %xmm0
	movdqa	.LCPI32_20(%rip), %xmm6
	movdqa	%xmm3, %xmm5
	paddw	%xmm6, %xmm5
	paddw	%xmm2, %xmm6
	movdqa	.LCPI32_5(%rip), %xmm1
	movdqa	%xmm2, %xmm7
	paddw	%xmm1, %xmm7
	paddw	%xmm3, %xmm1
	psrlw	$2, %xmm1
	psrlw	$2, %xmm7
	movdqa	.LCPI32_6(%rip), %xmm8
	psubusw	%xmm8, %xmm7
	psubusw	%xmm8, %xmm1
	psllw	$10, %xmm0
	psllw	$10, %xmm4
	movdqa	.LCPI32_7(%rip), %xmm8
	pand	%xmm8, %xmm4
	pand	%xmm8, %xmm0
	movdqa	.LCPI32_8(%rip), %xmm8
	movdqa	%xmm2, %xmm9
	paddw	%xmm8, %xmm9
	paddw	%xmm4, %xmm9
	pmaxuw	%xmm7, %xmm9
	paddw	%xmm3, %xmm8
	paddw	%xmm0, %xmm8
	pmaxuw	%xmm1, %xmm8
	pxor	%xmm0, %xmm0
	pxor	%xmm1, %xmm1
	pcmpgtw	%xmm2, %xmm0
	pblendvb	%xmm0, %xmm9, %xmm6
	pcmpgtw	%xmm3, %xmm1
	movdqa	%xmm1, %xmm0
	pblendvb	%xmm0, %xmm8, %xmm5
	movdqa	%xmm5, %xmm0
	psrlw	$6, %xmm0
	movdqa	%xmm6, %xmm1
	psrlw	$6, %xmm1
	movdqa	.LCPI32_2(%rip), %xmm7
	psllw	$8, %xmm6
	psllw	$8, %xmm5
	movdqa	.LCPI32_11(%rip), %xmm4
	pand	%xmm4, %xmm5
	paddw	%xmm0, %xmm5
	pand	%xmm4, %xmm6
	paddw	%xmm1, %xmm6
	por	%xmm7, %xmm5
	movdqa	.LCPI32_21(%rip), %xmm1
	movdqa	%xmm3, %xmm4
	pminuw	%xmm1, %xmm4
	pcmpeqw	%xmm3, %xmm4
	movdqa	%xmm4, %xmm0
	pblendvb	%xmm0, %xmm3, %xmm5
	por	%xmm7, %xmm6
	pminuw	%xmm2, %xmm1
	pcmpeqw	%xmm2, %xmm1
	movdqa	%xmm1, %xmm0
	pblendvb	%xmm0, %xmm2, %xmm6
	packsswb	%xmm4, %xmm1
	pmovmskb	%xmm1, %ecx
	movzbl	%cl, %edx
	popcntl	%edx, %esi
	shll	$4, %edx
	leaq	.Lstatic.6(%rip), %r8
	movdqu	(%rdx,%r8), %xmm0
	pshufb	%xmm0, %xmm6
	movdqu	%xmm6, (%rdi,%rax)
	jmp	.LBB32_3
.LBB32_5:
	movdqa	%xmm3, %xmm0
	psrlw	$12, %xmm0
	movdqa	%xmm2, %xmm1
	psrlw	$12, %xmm1
	movdqa	%xmm2, %xmm4
	psllw	$2, %xmm4
	movdqa	.LCPI32_11(%rip), %xmm5
	pand	%xmm5, %xmm4
	movdqa	%xmm3, %xmm6
	psllw	$2, %xmm6
	pand	%xmm5, %xmm6
	movdqa	.LCPI32_15(%rip), %xmm5
	por	%xmm5, %xmm0
	por	%xmm6, %xmm0
	por	%xmm5, %xmm1
	por	%xmm4, %xmm1
	movdqa	.LCPI32_13(%rip), %xmm4
	pand	%xmm4, %xmm2
	pand	%xmm4, %xmm3
	movdqa	.LCPI32_16(%rip), %xmm4
	por	%xmm4, %xmm3
	por	%xmm4, %xmm2
	movdqa	.LCPI32_17(%rip), %xmm4
	movdqa	%xmm2, %xmm5
	pshufb	%xmm4, %xmm5
	movdqa	.LCPI32_18(%rip), %xmm6
	movdqa	%xmm1, %xmm7
	pshufb	%xmm6, %xmm7
	por	%xmm5, %xmm7
	movdqu	%xmm7, (%rdi,%rax)
	punpckhbw	%xmm2, %xmm1
	movq	.LCPI32_23(%rip), %xmm2
	pshufb	%xmm2, %xmm1
	movq	%xmm1, 16(%rdi,%rax)
	movdqa	%xmm3, %xmm1
	pshufb	%xmm4, %xmm1
	movdqa	%xmm0, %xmm4
	pshufb	%xmm6, %xmm4
	por	%xmm1, %xmm4
	movdqu	%xmm4, 24(%rdi,%rax)
	punpckhbw	%xmm3, %xmm0
	pshufb	%xmm2, %xmm0
	movq	%xmm0, 40(%rdi,%rax)
	addq	$48, %rax
	retq
.LBB32_2:
	movdqa	%xmm3, %xmm5
	psrlw	$6, %xmm5
	movdqa	%xmm3, %xmm0
	psllw	$8, %xmm0
	movdqa	.LCPI32_11(%rip), %xmm6
	pand	%xmm6, %xmm0
	movdqa	.LCPI32_22(%rip), %xmm7
	paddw	%xmm7, %xmm5
	paddw	%xmm0, %xmm5
	movdqa	.LCPI32_21(%rip), %xmm1
	movdqa	%xmm3, %xmm4
	pminuw	%xmm1, %xmm4
	pcmpeqw	%xmm3, %xmm4
	movdqa	%xmm4, %xmm0
	pblendvb	%xmm0, %xmm3, %xmm5
	movdqa	%xmm2, %xmm0
	psllw	$8, %xmm0
	pand	%xmm6, %xmm0
	movdqa	%xmm2, %xmm3
	psrlw	$6, %xmm3
	paddw	%xmm7, %xmm3
	paddw	%xmm0, %xmm3
	pminuw	%xmm2, %xmm1
	pcmpeqw	%xmm2, %xmm1
	movdqa	%xmm1, %xmm0
	pblendvb	%xmm0, %xmm2, %xmm3
	packsswb	%xmm4, %xmm1
	pmovmskb	%xmm1, %ecx
	movzbl	%cl, %edx
	xorl	%esi, %esi
	popcntl	%edx, %esi
	shll	$4, %edx
	leaq	.Lstatic.6(%rip), %r8
	movdqu	(%rdx,%r8), %xmm0
	pshufb	%xmm0, %xmm3
	movdqu	%xmm3, (%rdi,%rax)
.LBB32_3:
	subq	%rsi, %rax
	shrl	$8, %ecx
	xorl	%edx, %edx
	popcntl	%ecx, %edx
	shll	$4, %ecx
	movdqu	(%rcx,%r8), %xmm0
	pshufb	%xmm0, %xmm5
	movdqu	%xmm5, 16(%rdi,%rax)
	subq	%rdx, %rax
	addq	$32, %rax
	retq
.LBB32_7:
	movdqa	%xmm3, %xmm0
	psllw	$8, %xmm0
	movdqa	%xmm2, %xmm4
	psllw	$8, %xmm4
	movdqa	%xmm3, %xmm5
	psrlw	$12, %xmm5
	por	%xmm0, %xmm5
	movdqa	%xmm2, %xmm6
	psrlw	$12, %xmm6
	por	%xmm4, %xmm6
	movdqa	.LCPI32_0(%rip), %xmm0
	por	%xmm0, %xmm5
	por	%xmm0, %xmm6
	movdqa	%xmm3, %xmm4
	palignr	$14, %xmm2, %xmm4
	movdqa	%xmm2, %xmm0
	palignr	$14, %xmm1, %xmm0
	movdqa	.LCPI32_1(%rip), %xmm8
	movdqa	%xmm8, %xmm10
	psubusw	%xmm2, %xmm10
	psubusw	%xmm3, %xmm8
	movdqa	.LCPI32_2(%rip), %xmm11
	pand	%xmm11, %xmm8
	pand	%xmm11, %xmm10
	movdqa	%xmm10, %xmm1
	psrlw	$3, %xmm1
	movdqa	%xmm8, %xmm12
	psrlw	$3, %xmm12
	movdqa	.LCPI32_3(%rip), %xmm7
	movdqa	%xmm2, %xmm9
	pand	%xmm7, %xmm9
	pand	%xmm3, %xmm7
	movdqa	.LCPI32_4(%rip), %xmm13
	por	%xmm13, %xmm9
	por	%xmm1, %xmm9
	por	%xmm13, %xmm7
	por	%xmm12, %xmm7
	movdqa	.LCPI32_5(%rip), %xmm1
	movdqa	%xmm3, %xmm12
	paddw	%xmm1, %xmm12
	paddw	%xmm2, %xmm1
	psrlw	$2, %xmm1
	psrlw	$2, %xmm12
	movdqa	.LCPI32_6(%rip), %xmm13
	psubusw	%xmm13, %xmm12
	psubusw	%xmm13, %xmm1
	psllw	$10, %xmm0
	psllw	$10, %xmm4
	movdqa	.LCPI32_7(%rip), %xmm13
	pand	%xmm13, %xmm4
	pand	%xmm13, %xmm0
	movdqa	.LCPI32_8(%rip), %xmm13
	movdqa	%xmm3, %xmm14
	paddw	%xmm13, %xmm14
	paddw	%xmm4, %xmm14
	pmaxuw	%xmm12, %xmm14
	paddw	%xmm2, %xmm13
	paddw	%xmm0, %xmm13
	pmaxuw	%xmm1, %xmm13
	movdqa	.LCPI32_9(%rip), %xmm4
	movdqa	%xmm3, %xmm1
	pand	%xmm4, %xmm1
	pand	%xmm2, %xmm4
	movdqa	.LCPI32_10(%rip), %xmm0
	pcmpeqw	%xmm0, %xmm4
	pcmpeqw	%xmm0, %xmm1
	movdqa	%xmm1, %xmm0
	pblendvb	%xmm0, %xmm14, %xmm7
	movdqa	%xmm4, %xmm0
	pblendvb	%xmm0, %xmm13, %xmm9
	movdqa	%xmm9, %xmm0
	psrlw	$6, %xmm0
	movdqa	%xmm7, %xmm12
	psrlw	$6, %xmm12
	psllw	$8, %xmm7
	psllw	$8, %xmm9
	movdqa	.LCPI32_11(%rip), %xmm13
	pand	%xmm13, %xmm9
	paddw	%xmm0, %xmm9
	pand	%xmm13, %xmm7
	paddw	%xmm12, %xmm7
	por	%xmm11, %xmm7
	por	%xmm11, %xmm9
	movdqa	.LCPI32_12(%rip), %xmm12
	movdqa	%xmm12, %xmm13
	psubusw	%xmm2, %xmm13
	psubusw	%xmm3, %xmm12
	movdqa	%xmm4, %xmm0
	pblendvb	%xmm0, %xmm11, %xmm10
	por	%xmm13, %xmm10
	movdqa	%xmm1, %xmm0
	pblendvb	%xmm0, %xmm11, %xmm8
	por	%xmm12, %xmm8
	pmovmskb	%xmm10, %edx
	movdqa	%xmm6, %xmm0
	punpcklwd	%xmm9, %xmm0
	movzbl	%dl, %esi
	popcntl	%esi, %r8d
	shll	$4, %esi
	leaq	.Lstatic.7(%rip), %rcx
	movdqu	(%rsi,%rcx), %xmm1
	pshufb	%xmm1, %xmm0
	movdqu	%xmm0, (%rdi,%rax)
	subq	%r8, %rax
	punpckhwd	%xmm9, %xmm6
	shrl	$8, %edx
	xorl	%esi, %esi
	popcntl	%edx, %esi
	shll	$4, %edx
	movdqu	(%rdx,%rcx), %xmm0
	pshufb	%xmm0, %xmm6
	movdqu	%xmm6, 12(%rdi,%rax)
	addq	$12, %rax
	subq	%rsi, %rax
	pmovmskb	%xmm8, %edx
	movdqa	%xmm5, %xmm0
	punpcklwd	%xmm7, %xmm0
	movzbl	%dl, %esi
	xorl	%r8d, %r8d
	popcntl	%esi, %r8d
	shll	$4, %esi
	movdqu	(%rsi,%rcx), %xmm1
	pshufb	%xmm1, %xmm0
	movdqu	%xmm0, 12(%rdi,%rax)
	addq	$12, %rax
	subq	%r8, %rax
	punpckhwd	%xmm7, %xmm5
	shrl	$8, %edx
	xorl	%esi, %esi
	popcntl	%edx, %esi
	shll	$4, %edx
	movdqu	(%rdx,%rcx), %xmm0
	pshufb	%xmm0, %xmm5
	movdqu	%xmm5, 12(%rdi,%rax)
	subq	%rsi, %rax
	addq	$24, %rax
	retq
.Lfunc_end32:
	.size	"utf16_to_utf8::blocks::write_group", .Lfunc_end32-"utf16_to_utf8::blocks::write_group"
	.cfi_endproc
	.section	".rodata.utf16_to_utf8::blocks::write_group","a",@progbits
	.p2align	2, 0x0
.LJTI32_0:
	.long	.LBB32_1-.LJTI32_0
	.long	.LBB32_2-.LJTI32_0
	.long	.LBB32_4-.LJTI32_0
	.long	.LBB32_5-.LJTI32_0
	.long	.LBB32_6-.LJTI32_0
	.long	.LBB32_7-.LJTI32_0

	.section	.rodata.cst16,"aM",@progbits,16
	.p2align	4, 0x0
.LCPI33_0:
	.byte	1
	.byte	0
	.byte	3
	.byte	2
	.byte	5
	.byte	4
	.byte	7
	.byte	6
	.byte	9
	.byte	8
	.byte	11
	.byte	10
	.byte	13
	.byte	12
	.byte	15
	.byte	14
.LCPI33_1:
	.short	128
	.short	128
	.short	128
	.short	128
	.short	128
	.short	128
	.short	128
	.short	128
	.section	".text.utf16_transcode::transcoding::write_chars::<#b8dc3d53e12e85b3>","ax",@progbits
	.p2align	4
	.type	"utf16_transcode::transcoding::write_chars::<#b8dc3d53e12e85b3>",@function
"utf16_transcode::transcoding::write_chars::<#b8dc3d53e12e85b3>":
	.cfi_startproc
	pushq	%rbp
	.cfi_def_cfa_offset 16
	pushq	%r15
	.cfi_def_cfa_offset 24
	pushq	%r14
	.cfi_def_cfa_offset 32
	pushq	%r13
	.cfi_def_cfa_offset 40
	pushq	%r12
	.cfi_def_cfa_offset 48
	pushq	%rbx
	.cfi_def_cfa_offset 56
	pushq	%rax
	.cfi_def_cfa_offset 64
	.cfi_offset %rbx, -56
	.cfi_offset %r12, -48
	.cfi_offset %r13, -40
	.cfi_offset %r14, -32
	.cfi_offset %r15, -24
	.cfi_offset %rbp, -16
	movq	%r8, %rbx
	movq	%rdx, %r14
	movq	%rsi, %r15
	movq	%rdi, %r12
	addq	%r8, %rdx
	movq	%rcx, (%rsp)
	subq	%r8, %rcx
	leaq	-16(%rsi), %rax
	cmpq	$175, %rax
	ja	.LBB33_1
	movq	%r15, %rax
	shrq	%rax
	cmpq	%rax, %rcx
	cmovbq	%rcx, %rax
	cmpq	$8, %rax
	jb	.LBB33_1
	leaq	(%rax,%rax), %rsi
	xorl	%ebp, %ebp
	xorl	%r13d, %r13d
	.p2align	4
.LBB33_4:
	movdqu	(%r12,%r13,2), %xmm0
	pshufb	.LCPI33_0(%rip), %xmm0
	movdqa	.LCPI33_1(%rip), %xmm1
	pmaxuw	%xmm0, %xmm1
	pcmpeqw	%xmm0, %xmm1
	pmovmskb	%xmm1, %edi
	testl	%edi, %edi
	jne	.LBB33_9
	packuswb	%xmm0, %xmm0
	movq	%xmm0, (%rdx,%r13)
	addq	$8, %r13
	leaq	(%rsi,%rbp), %rdi
	addq	$-16, %rdi
	addq	$-16, %rbp
	cmpq	$15, %rdi
	ja	.LBB33_4
	negq	%rbp
	cmpq	%rbp, %rsi
	jbe	.LBB33_10
	movdqu	-16(%r12,%rsi), %xmm0
	pshufb	.LCPI33_0(%rip), %xmm0
	movdqa	.LCPI33_1(%rip), %xmm1
	pmaxuw	%xmm0, %xmm1
	pcmpeqw	%xmm0, %xmm1
	pmovmskb	%xmm1, %edi
	testl	%edi, %edi
	jne	.LBB33_10
	packuswb	%xmm0, %xmm0
	movq	%xmm0, -8(%rdx,%rax)
	movq	%rax, %r13
	movq	%rsi, %rbp
	movq	%r15, %rax
	subq	%rbp, %rax
	cmpq	$15, %rax
	jbe	.LBB33_11
	jmp	.LBB33_19
.LBB33_1:
	xorl	%r13d, %r13d
	xorl	%ebp, %ebp
.LBB33_10:
	movq	%r15, %rax
	subq	%rbp, %rax
	cmpq	$15, %rax
	ja	.LBB33_19
.LBB33_11:
	movq	%rcx, %rsi
	subq	%r13, %rsi
	movq	%rax, %rdi
	shrq	%rdi
	leaq	(%rdi,%rdi,2), %rdi
	cmpq	%rdi, %rsi
	setb	%sil
	cmpq	$2, %rax
	setb	%dil
	orb	%sil, %dil
	je	.LBB33_12
	jmp	.LBB33_19
	.p2align	4
.LBB33_13:
	movb	%sil, (%rdx,%r13)
	incq	%r13
.LBB33_18:
	addq	$2, %rbp
	addq	$-2, %rax
	cmpq	$1, %rax
	jbe	.LBB33_19
.LBB33_12:
	movzwl	(%r12,%rbp), %esi
	rolw	$8, %si
	cmpw	$127, %si
	jbe	.LBB33_13
	movzwl	%si, %edi
	cmpl	$2047, %edi
	ja	.LBB33_16
	shrl	$6, %edi
	andl	$63, %esi
	shll	$8, %esi
	orl	%edi, %esi
	orl	$32960, %esi
	movw	%si, (%rdx,%r13)
	addq	$2, %r13
	jmp	.LBB33_18
	.p2align	4
.LBB33_16:
	movl	%esi, %r8d
	andl	$63488, %r8d
	cmpl	$55296, %r8d
	je	.LBB33_19
	movl	%esi, %r8d
	andb	$63, %r8b
	orb	$-128, %r8b
	shrl	$6, %esi
	andb	$63, %sil
	orb	$-128, %sil
	shrl	$12, %edi
	orb	$-32, %dil
	movb	%dil, (%rdx,%r13)
	movb	%sil, 1(%rdx,%r13)
	movb	%r8b, 2(%rdx,%r13)
	addq	$3, %r13
	jmp	.LBB33_18
.LBB33_9:
	negq	%rbp
	movq	%r15, %rax
	subq	%rbp, %rax
	cmpq	$15, %rax
	jbe	.LBB33_11
.LBB33_19:
	leaq	-8(%r15), %rax
	cmpq	$183, %rax
	ja	.LBB33_22
	movq	%r15, %rsi
	subq	%rbp, %rsi
	cmpq	$8, %rsi
	jb	.LBB33_22
	leaq	(%r12,%rbp), %rdi
	addq	%r13, %rdx
	subq	%r13, %rcx
	callq	"utf16_to_utf8::vectors::write_vectors::<#8b18edd9dd9aa8df>"
	addq	%rax, %rbp
	addq	%rdx, %r13
.LBB33_22:
	addq	%rbx, %r13
	cmpq	%r15, %rbp
	jae	.LBB33_41
	movq	(%rsp), %rbx
	jmp	.LBB33_24
	.p2align	4
.LBB33_34:
	movb	%al, (%r14,%r13)
	incq	%r13
.LBB33_40:
	addq	%rcx, %rbp
	cmpq	%r15, %rbp
	jae	.LBB33_41
.LBB33_24:
	movq	%r15, %rax
	subq	%rbp, %rax
	cmpq	$2, %rax
	jb	.LBB33_41
	movzwl	(%r12,%rbp), %edi
	rolw	$8, %di
	movl	%edi, %ecx
	andl	$63488, %ecx
	cmpl	$55296, %ecx
	jne	.LBB33_29
	cmpq	$4, %rax
	jb	.LBB33_41
	movl	%edi, %eax
	andl	$56320, %eax
	movzwl	%ax, %eax
	cmpl	$56320, %eax
	je	.LBB33_41
	movzbl	2(%r12,%rbp), %eax
	andb	$-4, %al
	cmpb	$-36, %al
	jne	.LBB33_41
.LBB33_29:
	movl	%edi, %eax
	andl	$64512, %eax
	cmpl	$55296, %eax
	jne	.LBB33_30
	movzwl	2(%r12,%rbp), %esi
	rolw	$8, %si
	callq	"utf16_units::unit::decode_surrogates"
	movl	$4, %ecx
	jmp	.LBB33_32
	.p2align	4
.LBB33_30:
	movzwl	%di, %eax
	movl	$2, %ecx
.LBB33_32:
	movq	%rbx, %rdx
	subq	%r13, %rdx
	cmpl	$65536, %eax
	movl	$4, %esi
	sbbq	$0, %rsi
	cmpl	$2048, %eax
	movl	$2, %edi
	cmovaeq	%rsi, %rdi
	cmpl	$128, %eax
	movl	$1, %esi
	cmovaeq	%rdi, %rsi
	cmpq	%rsi, %rdx
	jb	.LBB33_41
	cmpl	$127, %eax
	jbe	.LBB33_34
	movl	%eax, %edx
	andb	$63, %dl
	orb	$-128, %dl
	cmpl	$2047, %eax
	ja	.LBB33_37
	shrl	$6, %eax
	movzbl	%dl, %edx
	shll	$8, %edx
	orl	%eax, %edx
	orl	$192, %edx
	movw	%dx, (%r14,%r13)
	addq	$2, %r13
	jmp	.LBB33_40
	.p2align	4
.LBB33_37:
	movl	%eax, %esi
	cmpl	$65535, %eax
	ja	.LBB33_39
	shrl	$6, %esi
	andb	$63, %sil
	orb	$-128, %sil
	shrl	$12, %eax
	orb	$-32, %al
	movb	%al, (%r14,%r13)
	movb	%sil, 1(%r14,%r13)
	movb	%dl, 2(%r14,%r13)
	addq	$3, %r13
	jmp	.LBB33_40
.LBB33_39:
	shrl	$18, %esi
	addl	$240, %esi
	movzbl	%dl, %edx
	shll	$24, %edx
	movl	%eax, %edi
	shll	$10, %edi
	andl	$4128768, %edi
	orl	%edx, %edi
	shrl	$4, %eax
	andl	$16128, %eax
	orl	%edi, %eax
	movzbl	%sil, %edx
	addl	%edx, %eax
	addl	$8421376, %eax
	movl	%eax, (%r14,%r13)
	addq	$4, %r13
	jmp	.LBB33_40
.LBB33_41:
	movq	%rbp, %rax
	movq	%r13, %rdx
	addq	$8, %rsp
	.cfi_def_cfa_offset 56
	popq	%rbx
	.cfi_def_cfa_offset 48
	popq	%r12
	.cfi_def_cfa_offset 40
	popq	%r13
	.cfi_def_cfa_offset 32
	popq	%r14
	.cfi_def_cfa_offset 24
	popq	%r15
	.cfi_def_cfa_offset 16
	popq	%rbp
	.cfi_def_cfa_offset 8
	retq
.Lfunc_end33:
	.size	"utf16_transcode::transcoding::write_chars::<#b8dc3d53e12e85b3>", .Lfunc_end33-"utf16_transcode::transcoding::write_chars::<#b8dc3d53e12e85b3>"
	.cfi_endproc

	.section	".text.utf16_to_utf8::write::write_utf8::<#8b18edd9dd9aa8df>","ax",@progbits
	.p2align	4
	.type	"utf16_to_utf8::write::write_utf8::<#8b18edd9dd9aa8df>",@function
"utf16_to_utf8::write::write_utf8::<#8b18edd9dd9aa8df>":
	.cfi_startproc
	pushq	%r15
	.cfi_def_cfa_offset 16
	pushq	%r14
	.cfi_def_cfa_offset 24
	pushq	%r13
	.cfi_def_cfa_offset 32
	pushq	%r12
	.cfi_def_cfa_offset 40
	pushq	%rbx
	.cfi_def_cfa_offset 48
	subq	$48, %rsp
	.cfi_def_cfa_offset 96
	.cfi_offset %rbx, -48
	.cfi_offset %r12, -40
	.cfi_offset %r13, -32
	.cfi_offset %r14, -24
	.cfi_offset %r15, -16
	movq	%rdx, %rbx
	movq	%rsi, %r14
	movq	%rdi, %r15
	movq	%rsi, %rax
	shrq	%rax
	leaq	(%rax,%rax,2), %r12
	addq	$128, %r12
	cmpq	$191, %rsi
	jbe	.LBB34_3
	xorps	%xmm0, %xmm0
	movaps	%xmm0, 16(%rsp)
	movaps	%xmm0, (%rsp)
	movq	$0, 32(%rsp)
	movq	%rsp, %rdi
	movq	%r15, %rsi
	movq	%r14, %rdx
	movq	%rbx, %rcx
	movq	%r12, %r8
	callq	"utf16_to_utf8::runs::write_paired::<#8b18edd9dd9aa8df>"
	movq	(%rsp), %rax
	movq	8(%rsp), %rcx
	leaq	-2(%rax), %rdx
	leaq	-2(%rcx), %r13
	testb	$1, 32(%rsp)
	cmoveq	%rcx, %r13
	cmoveq	%rax, %rdx
	addq	%rdx, %r15
	subq	%rdx, %r14
	addq	%r13, %rbx
	cmpq	$7, %r14
	ja	.LBB34_5
	movq	%r15, %rdi
	movq	%r14, %rsi
	movq	%rbx, %rdx
	callq	"utf16_to_utf8::chars::write_chars::<#8b18edd9dd9aa8df>"
	jmp	.LBB34_6
.LBB34_3:
	movq	%r15, %rdi
	movq	%r14, %rsi
	movq	%rbx, %rdx
	cmpq	$7, %r14
	jbe	.LBB34_8
	movq	%r12, %rcx
	callq	"utf16_to_utf8::vectors::write_vectors::<#8b18edd9dd9aa8df>"
	movq	%rdx, %rax
	jmp	.LBB34_7
.LBB34_5:
	subq	%r13, %r12
	movq	%r15, %rdi
	movq	%r14, %rsi
	movq	%rbx, %rdx
	movq	%r12, %rcx
	callq	"utf16_to_utf8::vectors::write_vectors::<#8b18edd9dd9aa8df>"
	movq	%rdx, %rax
.LBB34_6:
	addq	%r13, %rax
.LBB34_7:
	addq	$48, %rsp
	.cfi_def_cfa_offset 48
	popq	%rbx
	.cfi_def_cfa_offset 40
	popq	%r12
	.cfi_def_cfa_offset 32
	popq	%r13
	.cfi_def_cfa_offset 24
	popq	%r14
	.cfi_def_cfa_offset 16
	popq	%r15
	.cfi_def_cfa_offset 8
	retq
.LBB34_8:
	.cfi_def_cfa_offset 96
	addq	$48, %rsp
	.cfi_def_cfa_offset 48
	popq	%rbx
	.cfi_def_cfa_offset 40
	popq	%r12
	.cfi_def_cfa_offset 32
	popq	%r13
	.cfi_def_cfa_offset 24
	popq	%r14
	.cfi_def_cfa_offset 16
	popq	%r15
	.cfi_def_cfa_offset 8
	jmp	"utf16_to_utf8::chars::write_chars::<#8b18edd9dd9aa8df>"
.Lfunc_end34:
	.size	"utf16_to_utf8::write::write_utf8::<#8b18edd9dd9aa8df>", .Lfunc_end34-"utf16_to_utf8::write::write_utf8::<#8b18edd9dd9aa8df>"
	.cfi_endproc

	.section	".text.utf16_to_utf8::chars::write_chars::<#8b18edd9dd9aa8df>","ax",@progbits
	.p2align	4
	.type	"utf16_to_utf8::chars::write_chars::<#8b18edd9dd9aa8df>",@function
"utf16_to_utf8::chars::write_chars::<#8b18edd9dd9aa8df>":
	.cfi_startproc
	pushq	%r15
	.cfi_def_cfa_offset 16
	pushq	%r14
	.cfi_def_cfa_offset 24
	pushq	%r12
	.cfi_def_cfa_offset 32
	pushq	%rbx
	.cfi_def_cfa_offset 40
	pushq	%rax
	.cfi_def_cfa_offset 48
	.cfi_offset %rbx, -40
	.cfi_offset %r12, -32
	.cfi_offset %r14, -24
	.cfi_offset %r15, -16
	testq	%rsi, %rsi
	je	.LBB35_1
	movq	%rdx, %rbx
	movq	%rsi, %r14
	movq	%rdi, %r12
	xorl	%r15d, %r15d
	jmp	.LBB35_3
	.p2align	4
.LBB35_7:
	movb	%al, (%rbx,%r15)
	incq	%r15
.LBB35_13:
	addq	%rcx, %r12
	subq	%rcx, %r14
	je	.LBB35_14
.LBB35_3:
	movzwl	(%r12), %edi
	rolw	$8, %di
	movl	%edi, %eax
	andl	$64512, %eax
	cmpl	$55296, %eax
	jne	.LBB35_4
	movzwl	2(%r12), %esi
	rolw	$8, %si
	callq	"utf16_units::unit::decode_surrogates"
	movl	$4, %ecx
	cmpl	$127, %eax
	jbe	.LBB35_7
	jmp	.LBB35_8
	.p2align	4
.LBB35_4:
	movzwl	%di, %eax
	movl	$2, %ecx
	cmpl	$127, %eax
	jbe	.LBB35_7
.LBB35_8:
	movl	%eax, %edx
	andb	$63, %dl
	orb	$-128, %dl
	cmpl	$2047, %eax
	ja	.LBB35_10
	shrl	$6, %eax
	movzbl	%dl, %edx
	shll	$8, %edx
	orl	%eax, %edx
	orl	$192, %edx
	movw	%dx, (%rbx,%r15)
	addq	$2, %r15
	jmp	.LBB35_13
	.p2align	4
.LBB35_10:
	movl	%eax, %esi
	cmpl	$65535, %eax
	ja	.LBB35_12
	shrl	$6, %esi
	andb	$63, %sil
	orb	$-128, %sil
	shrl	$12, %eax
	orb	$-32, %al
	movb	%al, (%rbx,%r15)
	movb	%sil, 1(%rbx,%r15)
	movb	%dl, 2(%rbx,%r15)
	addq	$3, %r15
	jmp	.LBB35_13
.LBB35_12:
	shrl	$18, %esi
	addl	$240, %esi
	movzbl	%dl, %edx
	shll	$24, %edx
	movl	%eax, %edi
	shll	$10, %edi
	andl	$4128768, %edi
	orl	%edx, %edi
	shrl	$4, %eax
	andl	$16128, %eax
	orl	%edi, %eax
	movzbl	%sil, %edx
	addl	%edx, %eax
	addl	$8421376, %eax
	movl	%eax, (%rbx,%r15)
	addq	$4, %r15
	jmp	.LBB35_13
.LBB35_1:
	xorl	%r15d, %r15d
.LBB35_14:
	movq	%r15, %rax
	addq	$8, %rsp
	.cfi_def_cfa_offset 40
	popq	%rbx
	.cfi_def_cfa_offset 32
	popq	%r12
	.cfi_def_cfa_offset 24
	popq	%r14
	.cfi_def_cfa_offset 16
	popq	%r15
	.cfi_def_cfa_offset 8
	retq
.Lfunc_end35:
	.size	"utf16_to_utf8::chars::write_chars::<#8b18edd9dd9aa8df>", .Lfunc_end35-"utf16_to_utf8::chars::write_chars::<#8b18edd9dd9aa8df>"
	.cfi_endproc

	.section	.rodata.cst16,"aM",@progbits,16
	.p2align	4, 0x0
.LCPI36_0:
	.byte	1
	.byte	0
	.byte	3
	.byte	2
	.byte	5
	.byte	4
	.byte	7
	.byte	6
	.byte	9
	.byte	8
	.byte	11
	.byte	10
	.byte	13
	.byte	12
	.byte	15
	.byte	14
.LCPI36_1:
	.short	255
	.short	255
	.short	255
	.short	255
	.short	255
	.short	255
	.short	255
	.short	255
	.section	".text.utf16_transcode::ascii::write_lossy_ascii_blocks::<#8b18edd9dd9aa8df>","ax",@progbits
	.p2align	4
	.type	"utf16_transcode::ascii::write_lossy_ascii_blocks::<#8b18edd9dd9aa8df>",@function
"utf16_transcode::ascii::write_lossy_ascii_blocks::<#8b18edd9dd9aa8df>":
	.cfi_startproc
	pushq	%rbp
	.cfi_def_cfa_offset 16
	pushq	%r15
	.cfi_def_cfa_offset 24
	pushq	%r14
	.cfi_def_cfa_offset 32
	pushq	%rbx
	.cfi_def_cfa_offset 40
	.cfi_offset %rbx, -40
	.cfi_offset %r14, -32
	.cfi_offset %r15, -24
	.cfi_offset %rbp, -16
	movq	%rdx, %r8
	leaq	-66(%rsi), %r9
	addq	$-35, %rcx
	xorl	%eax, %eax
	xorl	%edx, %edx
	.p2align	4
.LBB36_1:
	movdqu	(%rdi,%rax), %xmm0
	movdqu	16(%rdi,%rax), %xmm1
	movdqu	32(%rdi,%rax), %xmm2
	movdqu	48(%rdi,%rax), %xmm3
	movdqa	.LCPI36_0(%rip), %xmm4
	pshufb	%xmm4, %xmm0
	pshufb	%xmm4, %xmm1
	pshufb	%xmm4, %xmm2
	pshufb	%xmm4, %xmm3
	movdqa	.LCPI36_1(%rip), %xmm4
	pminuw	%xmm4, %xmm3
	pminuw	%xmm4, %xmm2
	packuswb	%xmm3, %xmm2
	pminuw	%xmm4, %xmm1
	pminuw	%xmm4, %xmm0
	packuswb	%xmm1, %xmm0
	movdqu	%xmm2, 16(%r8,%rdx)
	movdqu	%xmm0, (%r8,%rdx)
	pmovmskb	%xmm0, %r11d
	pmovmskb	%xmm2, %r10d
	shll	$16, %r10d
	orl	%r11d, %r10d
	testl	%r10d, %r10d
	je	.LBB36_2
	rep		bsfl	%r10d, %r10d
	leal	(%r10,%r10), %r11d
	movq	%rsi, %rbx
	subq	%rax, %rbx
	subq	%r11, %rbx
	cmpq	$2, %rbx
	jb	.LBB36_13
	leaq	(%rdi,%rax), %r14
	movzwl	(%r14,%r11), %ebp
	rolw	$8, %bp
	movl	%ebp, %r15d
	andl	$63488, %r15d
	cmpl	$55296, %r15d
	jne	.LBB36_13
	notl	%ebp
	testl	$56320, %ebp
	je	.LBB36_8
	cmpq	$4, %rbx
	jb	.LBB36_13
	movzbl	2(%r14,%r11), %ebx
	andb	$-4, %bl
	cmpb	$-36, %bl
	je	.LBB36_13
.LBB36_8:
	leaq	(%r8,%rdx), %rbx
	addq	$2, %r11
	addq	%r10, %rbx
	addq	$3, %r10
	leaq	.Lstatic.9(%rip), %r14
	movq	%rbx, %r15
	subq	%r14, %r15
	cmpq	$2, %r15
	ja	.LBB36_10
	movw	$-16401, (%rbx)
	movb	$-67, 2(%rbx)
	addq	%r11, %rax
	addq	%r10, %rdx
	cmpq	%r9, %rax
	jbe	.LBB36_12
	jmp	.LBB36_13
	.p2align	4
.LBB36_2:
	movl	$64, %r11d
	movl	$32, %r10d
	addq	%r11, %rax
	addq	%r10, %rdx
	cmpq	%r9, %rax
	jbe	.LBB36_12
	jmp	.LBB36_13
	.p2align	4
.LBB36_10:
	movb	$-67, 2(%rbx)
	movw	$-16401, (%rbx)
	addq	%r11, %rax
	addq	%r10, %rdx
	cmpq	%r9, %rax
	ja	.LBB36_13
.LBB36_12:
	cmpq	%rcx, %rdx
	jbe	.LBB36_1
.LBB36_13:
	popq	%rbx
	.cfi_def_cfa_offset 32
	popq	%r14
	.cfi_def_cfa_offset 24
	popq	%r15
	.cfi_def_cfa_offset 16
	popq	%rbp
	.cfi_def_cfa_offset 8
	retq
.Lfunc_end36:
	.size	"utf16_transcode::ascii::write_lossy_ascii_blocks::<#8b18edd9dd9aa8df>", .Lfunc_end36-"utf16_transcode::ascii::write_lossy_ascii_blocks::<#8b18edd9dd9aa8df>"
	.cfi_endproc

	.section	".text.utf16_transcode::decode_lossy::write_copied::<#8b18edd9dd9aa8df>","ax",@progbits
	.p2align	4
	.type	"utf16_transcode::decode_lossy::write_copied::<#8b18edd9dd9aa8df>",@function
"utf16_transcode::decode_lossy::write_copied::<#8b18edd9dd9aa8df>":
	.cfi_startproc
	pushq	%r15
	.cfi_def_cfa_offset 16
	pushq	%r14
	.cfi_def_cfa_offset 24
	pushq	%r13
	.cfi_def_cfa_offset 32
	pushq	%r12
	.cfi_def_cfa_offset 40
	pushq	%rbx
	.cfi_def_cfa_offset 48
	subq	$1024, %rsp
	.cfi_def_cfa_offset 1072
	.cfi_offset %rbx, -48
	.cfi_offset %r12, -40
	.cfi_offset %r13, -32
	.cfi_offset %r14, -24
	.cfi_offset %r15, -16
	movq	%rdx, %rbx
	movq	%rdi, %r15
	leaq	-128(%rcx), %rax
	movabsq	$-6148914691236517205, %rcx
	mulq	%rcx
	andq	$-2, %rdx
	cmpq	%rsi, %rdx
	cmovaeq	%rsi, %rdx
	cmpq	$1024, %rdx
	movl	$1024, %r14d
	cmovbq	%rdx, %r14
	movq	%rsp, %rdi
	movl	$1024, %edx
	xorl	%esi, %esi
	callq	memset@PLT
	andq	$2046, %r14
	je	.LBB37_3
	movzbl	-2(%r15,%r14), %eax
	andb	$-4, %al
	cmpb	$-40, %al
	jne	.LBB37_3
	addq	$-2, %r14
.LBB37_3:
	movq	%rsp, %rdi
	movq	%r15, %rsi
	movq	%r14, %rdx
	callq	memcpy@PLT
	movq	%r14, %r15
	andq	$-2, %r15
	je	.LBB37_13
	xorl	%r12d, %r12d
	jmp	.LBB37_5
	.p2align	4
.LBB37_11:
	movw	$-513, (%rsp,%r12)
	movl	$2, %eax
	addq	%rax, %r12
	cmpq	%r15, %r12
	jae	.LBB37_13
.LBB37_5:
	movq	%r15, %rcx
	subq	%r12, %rcx
	cmpq	$2, %rcx
	jb	.LBB37_11
	movzwl	(%rsp,%r12), %eax
	rolw	$8, %ax
	movl	%eax, %edx
	andl	$63488, %edx
	movl	$2, %r13d
	cmpl	$55296, %edx
	jne	.LBB37_10
	cmpq	$4, %rcx
	jb	.LBB37_11
	andl	$56320, %eax
	movzwl	%ax, %eax
	cmpl	$56320, %eax
	je	.LBB37_11
	movzbl	2(%rsp,%r12), %eax
	andb	$-4, %al
	movl	$4, %r13d
	cmpb	$-36, %al
	jne	.LBB37_11
	.p2align	4
.LBB37_10:
	leaq	(%r12,%r13), %rax
	leaq	(%rsp,%rax), %rdi
	movq	%r15, %rsi
	subq	%rax, %rsi
	callq	"utf16_transcode::decode::valid_up_to::<#8b18edd9dd9aa8df>"
	addq	%r13, %rax
	addq	%rax, %r12
	cmpq	%r15, %r12
	jb	.LBB37_5
.LBB37_13:
	movq	%rsp, %rdi
	movq	%r14, %rsi
	movq	%rbx, %rdx
	callq	"utf16_to_utf8::write::write_utf8::<#8b18edd9dd9aa8df>"
	movq	%rax, %rdx
	movq	%r14, %rax
	addq	$1024, %rsp
	.cfi_def_cfa_offset 48
	popq	%rbx
	.cfi_def_cfa_offset 40
	popq	%r12
	.cfi_def_cfa_offset 32
	popq	%r13
	.cfi_def_cfa_offset 24
	popq	%r14
	.cfi_def_cfa_offset 16
	popq	%r15
	.cfi_def_cfa_offset 8
	retq
.Lfunc_end37:
	.size	"utf16_transcode::decode_lossy::write_copied::<#8b18edd9dd9aa8df>", .Lfunc_end37-"utf16_transcode::decode_lossy::write_copied::<#8b18edd9dd9aa8df>"
	.cfi_endproc

	.section	.rodata.cst16,"aM",@progbits,16
	.p2align	4, 0x0
.LCPI38_0:
	.short	2048
	.short	2048
	.short	2048
	.short	2048
	.short	2048
	.short	2048
	.short	2048
	.short	2048
.LCPI38_1:
	.short	63488
	.short	63488
	.short	63488
	.short	63488
	.short	63488
	.short	63488
	.short	63488
	.short	63488
.LCPI38_2:
	.short	55296
	.short	55296
	.short	55296
	.short	55296
	.short	55296
	.short	55296
	.short	55296
	.short	55296
.LCPI38_3:
	.short	2047
	.short	2047
	.short	2047
	.short	2047
	.short	2047
	.short	2047
	.short	2047
	.short	2047
.LCPI38_4:
	.short	34815
	.short	34815
	.short	34815
	.short	34815
	.short	34815
	.short	34815
	.short	34815
	.short	34815
.LCPI38_5:
	.short	32768
	.short	32768
	.short	32768
	.short	32768
	.short	32768
	.short	32768
	.short	32768
	.short	32768
.LCPI38_6:
	.short	63
	.short	63
	.short	63
	.short	63
	.short	63
	.short	63
	.short	63
	.short	63
.LCPI38_7:
	.short	16128
	.short	16128
	.short	16128
	.short	16128
	.short	16128
	.short	16128
	.short	16128
	.short	16128
.LCPI38_8:
	.zero	16,128
.LCPI38_9:
	.short	224
	.short	224
	.short	224
	.short	224
	.short	224
	.short	224
	.short	224
	.short	224
.LCPI38_10:
	.short	255
	.short	255
	.short	255
	.short	255
	.short	255
	.short	255
	.short	255
	.short	255
.LCPI38_11:
	.short	32992
	.short	32992
	.short	32992
	.short	32992
	.short	32992
	.short	32992
	.short	32992
	.short	32992
.LCPI38_12:
	.byte	128
	.byte	0
	.byte	128
	.byte	0
	.byte	128
	.byte	0
	.byte	128
	.byte	0
	.byte	128
	.byte	0
	.byte	128
	.byte	0
	.byte	128
	.byte	0
	.byte	128
	.byte	0
.LCPI38_13:
	.byte	0
	.byte	1
	.byte	128
	.byte	2
	.byte	3
	.byte	128
	.byte	4
	.byte	5
	.byte	128
	.byte	6
	.byte	7
	.byte	128
	.byte	8
	.byte	9
	.byte	128
	.byte	10
.LCPI38_14:
	.byte	128
	.byte	128
	.byte	0
	.byte	128
	.byte	128
	.byte	2
	.byte	128
	.byte	128
	.byte	4
	.byte	128
	.byte	128
	.byte	6
	.byte	128
	.byte	128
	.byte	8
	.byte	128
.LCPI38_15:
	.byte	6
	.byte	5
	.byte	8
	.byte	10
	.byte	9
	.byte	12
	.byte	14
	.byte	13
	.zero	1
	.zero	1
	.zero	1
	.zero	1
	.zero	1
	.zero	1
	.zero	1
	.zero	1
.LCPI38_16:
	.short	32960
	.short	32960
	.short	32960
	.short	32960
	.short	32960
	.short	32960
	.short	32960
	.short	32960
.LCPI38_17:
	.short	127
	.short	127
	.short	127
	.short	127
	.short	127
	.short	127
	.short	127
	.short	127
.LCPI38_18:
	.byte	252
	.byte	252
	.byte	252
	.byte	252
	.byte	252
	.byte	252
	.byte	252
	.byte	252
	.zero	1
	.zero	1
	.zero	1
	.zero	1
	.zero	1
	.zero	1
	.zero	1
	.zero	1
.LCPI38_19:
	.byte	216
	.byte	216
	.byte	216
	.byte	216
	.byte	216
	.byte	216
	.byte	216
	.byte	216
	.zero	1
	.zero	1
	.zero	1
	.zero	1
	.zero	1
	.zero	1
	.zero	1
	.zero	1
.LCPI38_20:
	.byte	220
	.byte	220
	.byte	220
	.byte	220
	.byte	220
	.byte	220
	.byte	220
	.byte	220
	.zero	1
	.zero	1
	.zero	1
	.zero	1
	.zero	1
	.zero	1
	.zero	1
	.zero	1
.LCPI38_21:
	.short	10240
	.short	10240
	.short	10240
	.short	10240
	.short	10240
	.short	10240
	.short	10240
	.short	10240
.LCPI38_22:
	.short	4095
	.short	4095
	.short	4095
	.short	4095
	.short	4095
	.short	4095
	.short	4095
	.short	4095
.LCPI38_23:
	.short	8192
	.short	8192
	.short	8192
	.short	8192
	.short	8192
	.short	8192
	.short	8192
	.short	8192
.LCPI38_24:
	.short	9216
	.short	9216
	.short	9216
	.short	9216
	.short	9216
	.short	9216
	.short	9216
	.short	9216
.LCPI38_25:
	.short	752
	.short	752
	.short	752
	.short	752
	.short	752
	.short	752
	.short	752
	.short	752
.LCPI38_26:
	.short	3072
	.short	3072
	.short	3072
	.short	3072
	.short	3072
	.short	3072
	.short	3072
	.short	3072
.LCPI38_27:
	.short	17408
	.short	17408
	.short	17408
	.short	17408
	.short	17408
	.short	17408
	.short	17408
	.short	17408
.LCPI38_28:
	.short	12288
	.short	12288
	.short	12288
	.short	12288
	.short	12288
	.short	12288
	.short	12288
	.short	12288
.LCPI38_29:
	.byte	216
	.byte	216
	.byte	216
	.byte	216
	.byte	216
	.byte	216
	.byte	216
	.zero	1
	.zero	1
	.zero	1
	.zero	1
	.zero	1
	.zero	1
	.zero	1
	.zero	1
	.zero	1
	.section	".text.utf16_to_utf8::vectors::write_vectors::<#418c2b53cf60437c>","ax",@progbits
	.p2align	4
	.type	"utf16_to_utf8::vectors::write_vectors::<#418c2b53cf60437c>",@function
"utf16_to_utf8::vectors::write_vectors::<#418c2b53cf60437c>":
	.cfi_startproc
	pushq	%rbp
	.cfi_def_cfa_offset 16
	pushq	%r15
	.cfi_def_cfa_offset 24
	pushq	%r14
	.cfi_def_cfa_offset 32
	pushq	%r12
	.cfi_def_cfa_offset 40
	pushq	%rbx
	.cfi_def_cfa_offset 48
	.cfi_offset %rbx, -48
	.cfi_offset %r12, -40
	.cfi_offset %r14, -32
	.cfi_offset %r15, -24
	.cfi_offset %rbp, -16
	movq	%rdx, %r8
	movq	%rsi, %rax
	movq	%rsi, %rdx
	shrq	%rdx
	leaq	(%rdx,%rdx,2), %rsi
	addq	$128, %rsi
	cmpq	%rcx, %rsi
	cmovbq	%rsi, %rcx
	cmpq	$16, %rax
	setae	%bl
	setb	%sil
	cmpq	$32, %rcx
	setb	%r9b
	orb	%sil, %r9b
	jne	.LBB38_1
	pxor	%xmm0, %xmm0
	xorl	%r11d, %r11d
	movq	%rax, %r10
	xorl	%esi, %esi
	xorl	%r9d, %r9d
	.p2align	4
.LBB38_3:
	movdqu	(%rdi,%r9), %xmm1
	testb	$1, %r11b
	jne	.LBB38_13
	movdqa	.LCPI38_0(%rip), %xmm2
	pmaxuw	%xmm1, %xmm2
	pcmpeqw	%xmm1, %xmm2
	pmovmskb	%xmm2, %ebx
	testl	%ebx, %ebx
	je	.LBB38_9
	movdqa	.LCPI38_1(%rip), %xmm2
	pand	%xmm1, %xmm2
	pcmpeqw	.LCPI38_2(%rip), %xmm2
	pmovmskb	%xmm2, %ebx
	testl	%ebx, %ebx
	je	.LBB38_6
.LBB38_13:
	movdqa	%xmm1, %xmm2
	psrlw	$8, %xmm2
	packuswb	%xmm2, %xmm2
	pand	.LCPI38_18(%rip), %xmm2
	movdqa	.LCPI38_19(%rip), %xmm3
	pcmpeqb	%xmm2, %xmm3
	pmovzxbw	%xmm3, %xmm3
	pxor	%xmm4, %xmm4
	packuswb	%xmm4, %xmm3
	pmovmskb	%xmm3, %ebx
	pcmpeqb	.LCPI38_20(%rip), %xmm2
	pmovmskb	%xmm2, %ebp
	movzbl	%bpl, %r14d
	leal	(%rbx,%rbx), %ebp
	movzbl	%bpl, %r15d
	orq	%r11, %r15
	cmpq	%r14, %r15
	jne	.LBB38_14
	movdqa	.LCPI38_21(%rip), %xmm2
	paddw	%xmm1, %xmm2
	pminuw	%xmm1, %xmm2
	movdqa	.LCPI38_0(%rip), %xmm3
	pmaxuw	%xmm2, %xmm3
	pcmpeqw	%xmm2, %xmm3
	pmovmskb	%xmm3, %r11d
	movdqa	%xmm1, %xmm3
	palignr	$14, %xmm0, %xmm3
	psllw	$10, %xmm3
	testl	%r11d, %r11d
	je	.LBB38_16
	movdqa	.LCPI38_4(%rip), %xmm4
	psubusw	%xmm1, %xmm4
	movdqa	.LCPI38_5(%rip), %xmm5
	pand	%xmm5, %xmm4
	movdqa	%xmm4, %xmm0
	psrlw	$3, %xmm0
	movdqa	.LCPI38_22(%rip), %xmm2
	pand	%xmm1, %xmm2
	por	%xmm0, %xmm2
	por	.LCPI38_23(%rip), %xmm2
	movdqa	.LCPI38_24(%rip), %xmm6
	paddw	%xmm1, %xmm6
	psrlw	$2, %xmm6
	psubusw	.LCPI38_25(%rip), %xmm6
	pand	.LCPI38_26(%rip), %xmm3
	paddw	%xmm1, %xmm3
	paddw	.LCPI38_27(%rip), %xmm3
	movdqa	.LCPI38_1(%rip), %xmm0
	pand	%xmm1, %xmm0
	pcmpeqw	.LCPI38_2(%rip), %xmm0
	pmaxuw	%xmm6, %xmm3
	pblendvb	%xmm0, %xmm3, %xmm2
	movdqa	%xmm2, %xmm3
	psllw	$8, %xmm2
	pand	.LCPI38_7(%rip), %xmm2
	psrlw	$6, %xmm3
	paddw	%xmm3, %xmm2
	por	%xmm5, %xmm2
	movdqa	%xmm1, %xmm6
	psllw	$8, %xmm6
	movdqa	%xmm1, %xmm3
	psrlw	$12, %xmm3
	por	%xmm6, %xmm3
	por	.LCPI38_9(%rip), %xmm3
	movdqa	.LCPI38_10(%rip), %xmm6
	psubusw	%xmm1, %xmm6
	pblendvb	%xmm0, %xmm5, %xmm4
	por	%xmm6, %xmm4
	pmovmskb	%xmm4, %r11d
	movdqa	%xmm3, %xmm0
	punpcklwd	%xmm2, %xmm0
	movzbl	%r11b, %r14d
	xorl	%r15d, %r15d
	popcntl	%r14d, %r15d
	shll	$4, %r14d
	leaq	.Lstatic.7(%rip), %r12
	movdqu	(%r14,%r12), %xmm4
	pshufb	%xmm4, %xmm0
	movdqu	%xmm0, (%r8,%rsi)
	subq	%r15, %rsi
	punpckhwd	%xmm2, %xmm3
	shrl	$8, %r11d
	xorl	%r14d, %r14d
	popcntl	%r11d, %r14d
	shll	$4, %r11d
	movdqu	(%r11,%r12), %xmm0
	pshufb	%xmm0, %xmm3
	movdqu	%xmm3, 12(%r8,%rsi)
	subq	%r14, %rsi
	addq	$24, %rsi
	jmp	.LBB38_18
	.p2align	4
.LBB38_16:
	movdqa	.LCPI38_28(%rip), %xmm2
	movdqa	.LCPI38_24(%rip), %xmm0
	paddw	%xmm1, %xmm0
	psrlw	$2, %xmm0
	psubusw	.LCPI38_25(%rip), %xmm0
	pand	.LCPI38_26(%rip), %xmm3
	paddw	%xmm1, %xmm2
	paddw	%xmm1, %xmm3
	paddw	.LCPI38_27(%rip), %xmm3
	pmaxuw	%xmm0, %xmm3
	pxor	%xmm0, %xmm0
	pcmpgtw	%xmm1, %xmm0
	pblendvb	%xmm0, %xmm3, %xmm2
	movdqa	%xmm2, %xmm0
	psrlw	$6, %xmm0
	psllw	$8, %xmm2
	pand	.LCPI38_7(%rip), %xmm2
	paddw	%xmm0, %xmm2
	por	.LCPI38_5(%rip), %xmm2
	movdqa	.LCPI38_17(%rip), %xmm0
	pminuw	%xmm1, %xmm0
	pcmpeqw	%xmm1, %xmm0
	pblendvb	%xmm0, %xmm1, %xmm2
	packsswb	%xmm0, %xmm0
	pmovmskb	%xmm0, %r11d
	movzbl	%r11b, %r11d
	xorl	%r14d, %r14d
	popcntl	%r11d, %r14d
	shll	$4, %r11d
	leaq	.Lstatic.6(%rip), %r15
	movdqu	(%r11,%r15), %xmm0
	pshufb	%xmm0, %xmm2
	movdqu	%xmm2, (%r8,%rsi)
	subq	%r14, %rsi
	addq	$16, %rsi
.LBB38_18:
	shrb	$7, %bl
	movzbl	%bl, %r11d
.LBB38_19:
	addq	$16, %r9
	addq	$-16, %r10
	cmpq	$16, %r10
	setae	%bl
	jb	.LBB38_21
	movq	%rcx, %r14
	subq	%rsi, %r14
	movdqa	%xmm1, %xmm0
	cmpq	$31, %r14
	ja	.LBB38_3
	jmp	.LBB38_21
.LBB38_9:
	movdqa	.LCPI38_12(%rip), %xmm0
	pmaxuw	%xmm1, %xmm0
	pcmpeqw	%xmm1, %xmm0
	pmovmskb	%xmm0, %r11d
	movdqa	%xmm1, %xmm0
	testl	%r11d, %r11d
	je	.LBB38_10
	psrlw	$6, %xmm0
	movdqa	%xmm1, %xmm2
	psllw	$8, %xmm2
	pand	.LCPI38_7(%rip), %xmm2
	paddw	%xmm0, %xmm2
	paddw	.LCPI38_16(%rip), %xmm2
	movdqa	.LCPI38_17(%rip), %xmm0
	pminuw	%xmm1, %xmm0
	pcmpeqw	%xmm1, %xmm0
	pblendvb	%xmm0, %xmm1, %xmm2
	packsswb	%xmm0, %xmm0
	pmovmskb	%xmm0, %r11d
	movzbl	%r11b, %r11d
	xorl	%ebx, %ebx
	popcntl	%r11d, %ebx
	shll	$4, %r11d
	leaq	.Lstatic.6(%rip), %r14
	movdqu	(%r11,%r14), %xmm0
	pshufb	%xmm0, %xmm2
	movdqu	%xmm2, (%r8,%rsi)
	subq	%rbx, %rsi
	addq	$16, %rsi
	xorl	%r11d, %r11d
	jmp	.LBB38_19
.LBB38_6:
	movdqa	.LCPI38_3(%rip), %xmm0
	pminuw	%xmm1, %xmm0
	pcmpeqw	%xmm1, %xmm0
	pmovmskb	%xmm0, %r11d
	movdqa	%xmm1, %xmm0
	psrlw	$12, %xmm0
	testl	%r11d, %r11d
	je	.LBB38_7
	movdqa	.LCPI38_4(%rip), %xmm3
	psubusw	%xmm1, %xmm3
	pand	.LCPI38_5(%rip), %xmm3
	movdqa	%xmm3, %xmm4
	movdqa	%xmm1, %xmm5
	psrlw	$6, %xmm5
	pand	.LCPI38_6(%rip), %xmm5
	psrlw	$9, %xmm4
	movdqa	%xmm1, %xmm2
	psllw	$8, %xmm2
	por	%xmm2, %xmm0
	pand	.LCPI38_7(%rip), %xmm2
	por	%xmm5, %xmm2
	por	%xmm4, %xmm2
	por	.LCPI38_8(%rip), %xmm2
	movdqa	.LCPI38_10(%rip), %xmm4
	psubusw	%xmm1, %xmm4
	por	%xmm3, %xmm4
	por	.LCPI38_9(%rip), %xmm0
	pmovmskb	%xmm4, %r11d
	movdqa	%xmm0, %xmm3
	punpcklwd	%xmm2, %xmm3
	movzbl	%r11b, %ebx
	xorl	%r14d, %r14d
	popcntl	%ebx, %r14d
	shll	$4, %ebx
	leaq	.Lstatic.7(%rip), %r15
	movdqu	(%rbx,%r15), %xmm4
	pshufb	%xmm4, %xmm3
	movdqu	%xmm3, (%r8,%rsi)
	subq	%r14, %rsi
	punpckhwd	%xmm2, %xmm0
	shrl	$8, %r11d
	xorl	%ebx, %ebx
	popcntl	%r11d, %ebx
	shll	$4, %r11d
	movdqu	(%r11,%r15), %xmm2
	pshufb	%xmm2, %xmm0
	movdqu	%xmm0, 12(%r8,%rsi)
	subq	%rbx, %rsi
	jmp	.LBB38_8
.LBB38_10:
	packuswb	%xmm0, %xmm0
	movq	%xmm0, (%r8,%rsi)
	addq	$8, %rsi
	xorl	%r11d, %r11d
	jmp	.LBB38_19
.LBB38_7:
	movdqa	%xmm1, %xmm2
	psllw	$2, %xmm2
	pand	.LCPI38_7(%rip), %xmm2
	por	%xmm2, %xmm0
	por	.LCPI38_11(%rip), %xmm0
	movdqa	.LCPI38_6(%rip), %xmm2
	pand	%xmm1, %xmm2
	por	.LCPI38_12(%rip), %xmm2
	movdqa	%xmm0, %xmm3
	pshufb	.LCPI38_13(%rip), %xmm3
	punpckhbw	%xmm2, %xmm0
	pshufb	.LCPI38_14(%rip), %xmm2
	por	%xmm3, %xmm2
	pshufb	.LCPI38_15(%rip), %xmm0
	movdqu	%xmm2, (%r8,%rsi)
	movq	%xmm0, 16(%r8,%rsi)
.LBB38_8:
	addq	$24, %rsi
	xorl	%r11d, %r11d
	jmp	.LBB38_19
.LBB38_1:
	pxor	%xmm1, %xmm1
	xorl	%r9d, %r9d
	xorl	%esi, %esi
	xorl	%r11d, %r11d
	movq	%rax, %r10
.LBB38_21:
	testb	$1, %al
	jne	.LBB38_44
.LBB38_22:
	cmpq	%r9, %rax
	je	.LBB38_44
	testb	%bl, %bl
	jne	.LBB38_44
	subq	%rsi, %rcx
	cmpq	$32, %rcx
	jb	.LBB38_44
	cmpq	$15, %rax
	ja	.LBB38_27
	leaq	-8(%rax), %rcx
	movq	-8(%rdi,%rax), %xmm0
	movq	(%rdi), %xmm2
	movdqa	%xmm2, %xmm3
	punpcklqdq	%xmm0, %xmm3
	shlq	$4, %rcx
	leaq	.Lstatic.8(%rip), %rdi
	movq	(%rcx,%rdi), %xmm0
	pshufb	%xmm0, %xmm3
	punpcklqdq	%xmm3, %xmm2
	jmp	.LBB38_28
.LBB38_27:
	movdqu	-16(%rdi,%rax), %xmm2
	shlq	$4, %r10
	leaq	.Lstatic.8(%rip), %rcx
	movdqu	(%r10,%rcx), %xmm0
	pshufb	%xmm0, %xmm2
.LBB38_28:
	movdqa	%xmm2, %xmm0
	psrlw	$8, %xmm0
	packuswb	%xmm0, %xmm0
	pand	.LCPI38_18(%rip), %xmm0
	movdqa	.LCPI38_29(%rip), %xmm3
	pcmpeqb	%xmm0, %xmm3
	pmovmskb	%xmm3, %ecx
	pcmpeqb	.LCPI38_20(%rip), %xmm0
	pmovmskb	%xmm0, %edi
	movzbl	%dil, %edi
	addl	%ecx, %ecx
	movzbl	%cl, %ecx
	orq	%r11, %rcx
	cmpq	%rdi, %rcx
	jne	.LBB38_44
	movdqa	.LCPI38_0(%rip), %xmm0
	pmaxuw	%xmm2, %xmm0
	pcmpeqw	%xmm2, %xmm0
	pmovmskb	%xmm0, %ecx
	testl	%ecx, %ecx
	je	.LBB38_34
	movdqa	.LCPI38_1(%rip), %xmm0
	pand	%xmm2, %xmm0
	pcmpeqw	.LCPI38_2(%rip), %xmm0
	pmovmskb	%xmm0, %ecx
	testl	%ecx, %ecx
	je	.LBB38_38
	movdqa	.LCPI38_21(%rip), %xmm3
	paddw	%xmm2, %xmm3
	pminuw	%xmm2, %xmm3
	movdqa	.LCPI38_0(%rip), %xmm4
	pmaxuw	%xmm3, %xmm4
	pcmpeqw	%xmm3, %xmm4
	pmovmskb	%xmm4, %ecx
	movdqa	%xmm2, %xmm3
	palignr	$14, %xmm1, %xmm3
	testl	%ecx, %ecx
	je	.LBB38_32
	movdqa	.LCPI38_4(%rip), %xmm4
	psubusw	%xmm2, %xmm4
	movdqa	.LCPI38_5(%rip), %xmm5
	pand	%xmm5, %xmm4
	movdqa	%xmm4, %xmm6
	psrlw	$3, %xmm6
	movdqa	.LCPI38_22(%rip), %xmm1
	pand	%xmm2, %xmm1
	por	%xmm6, %xmm1
	por	.LCPI38_23(%rip), %xmm1
	movdqa	.LCPI38_24(%rip), %xmm6
	paddw	%xmm2, %xmm6
	psrlw	$2, %xmm6
	psubusw	.LCPI38_25(%rip), %xmm6
	psllw	$10, %xmm3
	pand	.LCPI38_26(%rip), %xmm3
	paddw	%xmm2, %xmm3
	paddw	.LCPI38_27(%rip), %xmm3
	pmaxuw	%xmm6, %xmm3
	pblendvb	%xmm0, %xmm3, %xmm1
	movdqa	%xmm1, %xmm3
	psllw	$8, %xmm1
	pand	.LCPI38_7(%rip), %xmm1
	psrlw	$6, %xmm3
	paddw	%xmm3, %xmm1
	por	%xmm5, %xmm1
	movdqa	%xmm2, %xmm6
	psllw	$8, %xmm6
	movdqa	%xmm2, %xmm3
	psrlw	$12, %xmm3
	por	%xmm6, %xmm3
	por	.LCPI38_9(%rip), %xmm3
	movdqa	.LCPI38_10(%rip), %xmm6
	psubusw	%xmm2, %xmm6
	pblendvb	%xmm0, %xmm5, %xmm4
	por	%xmm6, %xmm4
	pmovmskb	%xmm4, %ecx
	movdqa	%xmm3, %xmm0
	punpcklwd	%xmm1, %xmm0
	movzbl	%cl, %edi
	popcntl	%edi, %r9d
	shll	$4, %edi
	leaq	.Lstatic.7(%rip), %r10
	movdqu	(%rdi,%r10), %xmm2
	pshufb	%xmm2, %xmm0
	movdqu	%xmm0, (%r8,%rsi)
	subq	%r9, %rsi
	punpckhwd	%xmm1, %xmm3
	shrl	$8, %ecx
	xorl	%edi, %edi
	popcntl	%ecx, %edi
	shll	$4, %ecx
	movdqu	(%rcx,%r10), %xmm0
	pshufb	%xmm0, %xmm3
	movdqu	%xmm3, 12(%r8,%rsi)
	jmp	.LBB38_41
.LBB38_14:
	movb	$1, %bl
	movdqa	%xmm0, %xmm1
	testb	$1, %al
	je	.LBB38_22
.LBB38_44:
	leaq	-2(%r9), %rax
	leaq	-2(%rsi), %rdx
	testb	$1, %r11b
	cmoveq	%rsi, %rdx
	cmoveq	%r9, %rax
	jmp	.LBB38_45
.LBB38_34:
	movdqa	.LCPI38_12(%rip), %xmm0
	pmaxuw	%xmm2, %xmm0
	pcmpeqw	%xmm2, %xmm0
	pmovmskb	%xmm0, %ecx
	testl	%ecx, %ecx
	je	.LBB38_35
	movdqa	%xmm2, %xmm0
	psrlw	$6, %xmm0
	movdqa	%xmm2, %xmm1
	psllw	$8, %xmm1
	pand	.LCPI38_7(%rip), %xmm1
	paddw	%xmm0, %xmm1
	paddw	.LCPI38_16(%rip), %xmm1
	jmp	.LBB38_37
.LBB38_38:
	movdqa	.LCPI38_3(%rip), %xmm0
	pminuw	%xmm2, %xmm0
	pcmpeqw	%xmm2, %xmm0
	pmovmskb	%xmm0, %ecx
	testl	%ecx, %ecx
	je	.LBB38_39
	movdqa	.LCPI38_4(%rip), %xmm0
	psubusw	%xmm2, %xmm0
	pand	.LCPI38_5(%rip), %xmm0
	movdqa	.LCPI38_10(%rip), %xmm1
	psubusw	%xmm2, %xmm1
	por	%xmm0, %xmm1
	psrlw	$9, %xmm0
	movdqa	%xmm2, %xmm3
	psrlw	$6, %xmm3
	pand	.LCPI38_6(%rip), %xmm3
	movdqa	%xmm2, %xmm4
	psllw	$8, %xmm4
	movdqa	.LCPI38_7(%rip), %xmm5
	pand	%xmm4, %xmm5
	por	%xmm3, %xmm5
	por	%xmm0, %xmm5
	por	.LCPI38_8(%rip), %xmm5
	psrlw	$12, %xmm2
	por	%xmm4, %xmm2
	por	.LCPI38_9(%rip), %xmm2
	pmovmskb	%xmm1, %ecx
	movdqa	%xmm2, %xmm0
	punpcklwd	%xmm5, %xmm0
	movzbl	%cl, %edi
	popcntl	%edi, %r9d
	shll	$4, %edi
	leaq	.Lstatic.7(%rip), %r10
	movdqu	(%rdi,%r10), %xmm1
	pshufb	%xmm1, %xmm0
	movdqu	%xmm0, (%r8,%rsi)
	subq	%r9, %rsi
	punpckhwd	%xmm5, %xmm2
	shrl	$8, %ecx
	xorl	%edi, %edi
	popcntl	%ecx, %edi
	shll	$4, %ecx
	movdqu	(%rcx,%r10), %xmm0
	pshufb	%xmm0, %xmm2
	movdqu	%xmm2, 12(%r8,%rsi)
.LBB38_41:
	subq	%rdi, %rsi
.LBB38_42:
	addq	$24, %rsi
	jmp	.LBB38_43
.LBB38_32:
	movdqa	.LCPI38_24(%rip), %xmm0
	paddw	%xmm2, %xmm0
	psrlw	$2, %xmm0
	psubusw	.LCPI38_25(%rip), %xmm0
	movdqa	.LCPI38_28(%rip), %xmm1
	psllw	$10, %xmm3
	pand	.LCPI38_26(%rip), %xmm3
	paddw	%xmm2, %xmm1
	paddw	%xmm2, %xmm3
	paddw	.LCPI38_27(%rip), %xmm3
	pmaxuw	%xmm0, %xmm3
	pxor	%xmm0, %xmm0
	pcmpgtw	%xmm2, %xmm0
	pblendvb	%xmm0, %xmm3, %xmm1
	movdqa	%xmm1, %xmm0
	psrlw	$6, %xmm0
	psllw	$8, %xmm1
	pand	.LCPI38_7(%rip), %xmm1
	paddw	%xmm0, %xmm1
	por	.LCPI38_5(%rip), %xmm1
.LBB38_37:
	movdqa	.LCPI38_17(%rip), %xmm0
	pminuw	%xmm2, %xmm0
	pcmpeqw	%xmm2, %xmm0
	pblendvb	%xmm0, %xmm2, %xmm1
	packsswb	%xmm0, %xmm0
	pmovmskb	%xmm0, %ecx
	movzbl	%cl, %ecx
	xorl	%edi, %edi
	popcntl	%ecx, %edi
	shll	$4, %ecx
	leaq	.Lstatic.6(%rip), %r9
	movdqu	(%rcx,%r9), %xmm0
	pshufb	%xmm0, %xmm1
	movdqu	%xmm1, (%r8,%rsi)
	subq	%rdi, %rsi
	addq	$16, %rsi
	jmp	.LBB38_43
.LBB38_35:
	packuswb	%xmm2, %xmm2
	movq	%xmm2, (%r8,%rsi)
	addq	$8, %rsi
.LBB38_43:
	orq	$-8, %rdx
	addq	%rsi, %rdx
.LBB38_45:
	popq	%rbx
	.cfi_def_cfa_offset 40
	popq	%r12
	.cfi_def_cfa_offset 32
	popq	%r14
	.cfi_def_cfa_offset 24
	popq	%r15
	.cfi_def_cfa_offset 16
	popq	%rbp
	.cfi_def_cfa_offset 8
	retq
.LBB38_39:
	.cfi_def_cfa_offset 48
	movdqa	%xmm2, %xmm0
	movdqa	%xmm2, %xmm1
	psllw	$2, %xmm1
	pand	.LCPI38_7(%rip), %xmm1
	psrlw	$12, %xmm0
	por	%xmm0, %xmm1
	por	.LCPI38_11(%rip), %xmm1
	pand	.LCPI38_6(%rip), %xmm2
	por	.LCPI38_12(%rip), %xmm2
	movdqa	%xmm1, %xmm0
	pshufb	.LCPI38_13(%rip), %xmm0
	punpckhbw	%xmm2, %xmm1
	pshufb	.LCPI38_14(%rip), %xmm2
	por	%xmm0, %xmm2
	movdqu	%xmm2, (%r8,%rsi)
	pshufb	.LCPI38_15(%rip), %xmm1
	movq	%xmm1, 16(%r8,%rsi)
	jmp	.LBB38_42
.Lfunc_end38:
	.size	"utf16_to_utf8::vectors::write_vectors::<#418c2b53cf60437c>", .Lfunc_end38-"utf16_to_utf8::vectors::write_vectors::<#418c2b53cf60437c>"
	.cfi_endproc

	.section	.rodata.cst16,"aM",@progbits,16
	.p2align	4, 0x0
.LCPI39_0:
	.short	128
	.short	128
	.short	128
	.short	128
	.short	128
	.short	128
	.short	128
	.short	128
	.section	".text.utf16_transcode::transcoding::transcode_many::<#556930da7d070edc>","ax",@progbits
	.p2align	4
	.type	"utf16_transcode::transcoding::transcode_many::<#556930da7d070edc>",@function
"utf16_transcode::transcoding::transcode_many::<#556930da7d070edc>":
	.cfi_startproc
	pushq	%rbp
	.cfi_def_cfa_offset 16
	pushq	%r15
	.cfi_def_cfa_offset 24
	pushq	%r14
	.cfi_def_cfa_offset 32
	pushq	%r13
	.cfi_def_cfa_offset 40
	pushq	%r12
	.cfi_def_cfa_offset 48
	pushq	%rbx
	.cfi_def_cfa_offset 56
	subq	$392, %rsp
	.cfi_def_cfa_offset 448
	.cfi_offset %rbx, -56
	.cfi_offset %r12, -48
	.cfi_offset %r13, -40
	.cfi_offset %r14, -32
	.cfi_offset %r15, -24
	.cfi_offset %rbp, -16
	movq	%r9, %rbp
	movq	%r8, %r13
	movq	%rdx, %r14
	movq	448(%rsp), %r8
	subq	%r9, %rdx
	cmpq	$2, %rdx
	jae	.LBB39_3
.LBB39_1:
	movb	$2, %al
	xorl	%ecx, %ecx
.LBB39_2:
	movq	%rbp, (%rdi)
	movq	%r8, 8(%rdi)
	movb	%al, 16(%rdi)
	movb	%cl, 17(%rdi)
	jmp	.LBB39_98
.LBB39_3:
	movq	%rcx, %r12
	movq	%rsi, %rbx
	movzbl	1(%rsi,%rbp), %eax
	movl	%eax, %ecx
	andl	$-8, %ecx
	cmpl	$216, %ecx
	jne	.LBB39_7
	movzwl	%ax, %esi
	notl	%esi
	movb	$2, %cl
	movb	$1, %al
	testb	$-36, %sil
	je	.LBB39_2
	cmpq	$4, %rdx
	jb	.LBB39_1
	movzbl	3(%rbx,%rbp), %edx
	andb	$-4, %dl
	movb	$2, %cl
	cmpb	$-36, %dl
	jne	.LBB39_2
.LBB39_7:
	movq	%rdi, 32(%rsp)
	cmpq	%rbp, %r14
	jbe	.LBB39_94
	movq	%r13, %rax
	negq	%rax
	movq	%rax, 56(%rsp)
	movq	%r13, 16(%rsp)
	movq	%r14, 40(%rsp)
	movq	%r12, 24(%rsp)
	movq	%rbx, 8(%rsp)
	jmp	.LBB39_11
	.p2align	4
.LBB39_9:
	movb	%al, (%r12,%r8)
	incq	%r8
.LBB39_10:
	addq	%r15, %rbp
	cmpq	%r14, %rbp
	jae	.LBB39_94
.LBB39_11:
	addq	%rbp, %rbx
	movq	%r14, %r15
	subq	%rbp, %r15
	cmpq	$66, %r15
	jb	.LBB39_20
	leaq	(%r12,%r8), %r14
	movq	%r8, (%rsp)
	subq	%r8, %r13
	pxor	%xmm0, %xmm0
	movdqa	%xmm0, 128(%rsp)
	movdqa	%xmm0, 112(%rsp)
	movq	$0, 144(%rsp)
	movq	%r15, %rax
	shrq	%rax
	leaq	(%rax,%rax,2), %r8
	addq	$128, %r8
	cmpq	%r13, %r8
	cmovaeq	%r13, %r8
	leaq	112(%rsp), %rdi
	movq	%rbx, %rsi
	movq	%r15, %rdx
	movq	%r14, %rcx
	callq	"utf16_to_utf8::runs::write_paired::<#418c2b53cf60437c>"
	movq	112(%rsp), %rcx
	movq	120(%rsp), %rsi
	leaq	-2(%rcx), %rdx
	leaq	-2(%rsi), %rax
	testb	$1, 144(%rsp)
	cmoveq	%rsi, %rax
	cmoveq	%rcx, %rdx
	movq	%r15, %rcx
	subq	%rdx, %rcx
	shrq	%rcx
	subq	%rax, %r13
	cmpq	%rcx, %r13
	cmovaeq	%rcx, %r13
	movq	%rax, %rcx
	movq	%rdx, %r12
	cmpq	$8, %r13
	jb	.LBB39_16
	leaq	(,%r13,2), %rsi
	movq	%rdx, %r12
	movq	%rax, %rcx
	.p2align	4
.LBB39_14:
	movdqu	(%rbx,%r12), %xmm0
	movdqa	.LCPI39_0(%rip), %xmm1
	pmaxuw	%xmm0, %xmm1
	pcmpeqw	%xmm0, %xmm1
	pmovmskb	%xmm1, %edi
	testl	%edi, %edi
	jne	.LBB39_39
	packuswb	%xmm0, %xmm0
	movq	%xmm0, (%r14,%rcx)
	addq	$16, %r12
	addq	$8, %rcx
	addq	$-16, %rsi
	cmpq	$15, %rsi
	ja	.LBB39_14
.LBB39_16:
	leaq	(%rdx,%r13,2), %rdx
	cmpq	$16, %rdx
	jb	.LBB39_39
	cmpq	%r12, %rdx
	movq	(%rsp), %r8
	jbe	.LBB39_40
	movdqu	-16(%rbx,%rdx), %xmm0
	movdqa	.LCPI39_0(%rip), %xmm1
	pmaxuw	%xmm0, %xmm1
	pcmpeqw	%xmm0, %xmm1
	pmovmskb	%xmm1, %esi
	testl	%esi, %esi
	jne	.LBB39_40
	addq	%rax, %r13
	packuswb	%xmm0, %xmm0
	movq	%xmm0, -8(%r14,%r13)
	movq	%rdx, %r12
	movq	%r13, %rcx
	jmp	.LBB39_40
	.p2align	4
.LBB39_20:
	xorl	%r12d, %r12d
	movq	%r15, %r13
	subq	%r12, %r13
	je	.LBB39_41
.LBB39_21:
	addq	%r12, %rbx
	cmpq	$7, %r13
	ja	.LBB39_24
.LBB39_22:
	movq	%rbx, %rdi
	movq	%r13, %rsi
	movq	24(%rsp), %rdx
	movq	16(%rsp), %r13
	movq	%r13, %rcx
.LBB39_23:
	callq	"utf16_transcode::transcoding::write_chars::<#556930da7d070edc>"
	movq	%rax, %r15
	movq	%rdx, %r14
	jmp	.LBB39_37
	.p2align	4
.LBB39_24:
	cmpq	$128, %r13
	movl	$128, %esi
	cmovbq	%r13, %rsi
	movq	16(%rsp), %r14
	subq	%r8, %r14
	xorl	%eax, %eax
	movq	%r14, %rcx
	subq	$128, %rcx
	cmovaeq	%rcx, %rax
	movabsq	$-6148914691236517205, %rcx
	mulq	%rcx
	andq	$-2, %rdx
	cmpq	%rdx, %rsi
	jbe	.LBB39_34
	cmpq	$23, %r14
	jbe	.LBB39_22
	movq	%r8, (%rsp)
	leaq	112(%rsp), %rdi
	movl	$276, %edx
	xorl	%esi, %esi
	callq	memset@PLT
	cmpq	$65, %r13
	ja	.LBB39_58
	cmpq	$64, %r13
	movl	$64, %esi
	cmovbq	%r13, %rsi
	movq	%rbx, %rdi
	callq	"utf16_transcode::decode::valid_up_to::<#418c2b53cf60437c>"
	movq	%rax, %r15
	leaq	112(%rsp), %rdx
	movq	%rbx, %rdi
	movq	%rax, %rsi
	callq	"utf16_to_utf8::write::write_utf8::<#418c2b53cf60437c>"
	cmpq	%r14, %rax
	jbe	.LBB39_73
	movq	8(%rsp), %rbx
	.p2align	4
.LBB39_29:
	cmpb	$-65, 112(%rsp,%r14)
	jg	.LBB39_32
	decq	%r14
	jne	.LBB39_29
	xorl	%r14d, %r14d
.LBB39_32:
	leaq	112(%rsp), %rdi
	movq	%r14, %rsi
	callq	"utf16_units::size::utf16_len"
	movq	%rax, %r15
	movq	16(%rsp), %r13
	jmp	.LBB39_74
.LBB39_39:
	movq	(%rsp), %r8
.LBB39_40:
	addq	%rcx, %r8
	movq	40(%rsp), %r14
	movq	%r15, %r13
	subq	%r12, %r13
	jne	.LBB39_21
.LBB39_41:
	movq	16(%rsp), %r13
	movq	8(%rsp), %rbx
	jmp	.LBB39_42
.LBB39_34:
	movq	%r8, %r14
	movq	%rbx, %rdi
	callq	"utf16_transcode::decode::valid_up_to::<#418c2b53cf60437c>"
	movq	%rax, %r15
	testq	%rax, %rax
	je	.LBB39_36
	movq	24(%rsp), %rax
	leaq	(%rax,%r14), %rdx
	movq	%rbx, %rdi
	movq	%r15, %rsi
	callq	"utf16_to_utf8::write::write_utf8::<#418c2b53cf60437c>"
	addq	%rax, %r14
.LBB39_36:
	movq	16(%rsp), %r13
.LBB39_37:
	movq	8(%rsp), %rbx
.LBB39_38:
	addq	%r12, %r15
	movq	%r14, %r8
	movq	40(%rsp), %r14
.LBB39_42:
	addq	%rbp, %r15
	movq	%r14, %rdx
	subq	%r15, %rdx
	movq	24(%rsp), %r12
	je	.LBB39_93
	cmpq	$2, %rdx
	jb	.LBB39_92
	movzbl	1(%rbx,%r15), %eax
	movzwl	%ax, %ecx
	andl	$-8, %eax
	cmpl	$216, %eax
	jne	.LBB39_48
	movl	%ecx, %esi
	notl	%esi
	movb	$1, %al
	testb	$-36, %sil
	je	.LBB39_100
	cmpq	$4, %rdx
	jb	.LBB39_92
	movzbl	3(%rbx,%r15), %edx
	andb	$-4, %dl
	cmpb	$-36, %dl
	jne	.LBB39_100
.LBB39_48:
	movzbl	(%rbx,%r15), %edx
	movl	%ecx, %eax
	shll	$8, %eax
	orl	%edx, %eax
	andl	$-4, %ecx
	cmpl	$216, %ecx
	jne	.LBB39_50
	movzwl	2(%rbx,%r15), %esi
	movl	%eax, %edi
	movq	%r8, %rbp
	callq	"utf16_units::unit::decode_surrogates"
	movq	%rbp, %r8
	movl	$4, %ebp
	jmp	.LBB39_51
	.p2align	4
.LBB39_50:
	movl	$2, %ebp
.LBB39_51:
	movq	%r13, %rcx
	subq	%r8, %rcx
	cmpl	$65536, %eax
	movl	$4, %edx
	sbbq	$0, %rdx
	cmpl	$2048, %eax
	movl	$2, %esi
	cmovaeq	%rdx, %rsi
	cmpl	$128, %eax
	movl	$1, %edx
	cmovaeq	%rsi, %rdx
	cmpq	%rdx, %rcx
	jb	.LBB39_95
	cmpl	$127, %eax
	jbe	.LBB39_9
	movl	%eax, %ecx
	andb	$63, %cl
	orb	$-128, %cl
	cmpl	$2047, %eax
	ja	.LBB39_55
	shrl	$6, %eax
	movzbl	%cl, %ecx
	shll	$8, %ecx
	orl	%eax, %ecx
	orl	$192, %ecx
	movw	%cx, (%r12,%r8)
	addq	$2, %r8
	jmp	.LBB39_10
.LBB39_55:
	movl	%eax, %edx
	cmpl	$65535, %eax
	ja	.LBB39_57
	shrl	$6, %edx
	andb	$63, %dl
	orb	$-128, %dl
	shrl	$12, %eax
	orb	$-32, %al
	movb	%al, (%r12,%r8)
	movb	%dl, 1(%r12,%r8)
	movb	%cl, 2(%r12,%r8)
	addq	$3, %r8
	jmp	.LBB39_10
.LBB39_57:
	shrl	$18, %edx
	addl	$240, %edx
	movzbl	%cl, %ecx
	shll	$24, %ecx
	movl	%eax, %esi
	shll	$10, %esi
	andl	$4128768, %esi
	orl	%ecx, %esi
	shrl	$4, %eax
	andl	$16128, %eax
	orl	%esi, %eax
	movzbl	%dl, %ecx
	addl	%ecx, %eax
	addl	$8421376, %eax
	movl	%eax, (%r12,%r8)
	addq	$4, %r8
	jmp	.LBB39_10
.LBB39_58:
	movzbl	1(%rbx), %ecx
	movzwl	%cx, %eax
	andl	$-8, %ecx
	cmpl	$216, %ecx
	jne	.LBB39_61
	movl	%eax, %ecx
	notl	%ecx
	testb	$-36, %cl
	je	.LBB39_72
	movzbl	3(%rbx), %ecx
	andb	$-4, %cl
	cmpb	$-36, %cl
	jne	.LBB39_72
.LBB39_61:
	andl	$-4, %eax
	xorl	%ecx, %ecx
	cmpl	$216, %eax
	sete	%cl
	movzbl	3(%rbx,%rcx,2), %eax
	movl	%eax, %edx
	andl	$-8, %edx
	cmpl	$216, %edx
	jne	.LBB39_64
	movzwl	%ax, %eax
	notl	%eax
	testb	$-36, %al
	je	.LBB39_72
	leaq	2(,%rcx,2), %rax
	movzbl	3(%rbx,%rax), %eax
	andb	$-4, %al
	cmpb	$-36, %al
	jne	.LBB39_72
.LBB39_64:
	xorl	%r15d, %r15d
	cmpq	$65, %r14
	setae	%r15b
	shll	$6, %r15d
	addq	$66, %r15
	cmpq	%r13, %r15
	cmovaeq	%r13, %r15
	pxor	%xmm0, %xmm0
	movdqa	%xmm0, 80(%rsp)
	movdqa	%xmm0, 64(%rsp)
	movq	$0, 96(%rsp)
	movl	%r15d, %eax
	shrl	%eax
	leaq	(%rax,%rax,2), %rax
	cmpq	$148, %rax
	movl	$148, %r8d
	cmovbq	%rax, %r8
	subq	$-128, %r8
	leaq	64(%rsp), %rdi
	leaq	112(%rsp), %rcx
	movq	%rbx, %rsi
	movq	%r15, %rdx
	callq	"utf16_to_utf8::runs::write_paired::<#418c2b53cf60437c>"
	movq	64(%rsp), %rcx
	movq	72(%rsp), %rsi
	leaq	-2(%rcx), %r8
	leaq	-2(%rsi), %rax
	testb	$1, 96(%rsp)
	cmoveq	%rsi, %rax
	cmoveq	%rcx, %r8
	subq	%r8, %r15
	shrq	%r15
	movl	$276, %ecx
	subq	%rax, %rcx
	cmpq	%r15, %rcx
	cmovaeq	%r15, %rcx
	movq	%rax, %rdx
	movq	%r8, %r15
	cmpq	$8, %rcx
	movq	16(%rsp), %r13
	jb	.LBB39_68
	leaq	(%rcx,%rcx), %rsi
	movq	%r8, %r15
	movq	%rax, %rdx
.LBB39_66:
	movdqu	(%rbx,%r15), %xmm0
	movdqa	.LCPI39_0(%rip), %xmm1
	pmaxuw	%xmm0, %xmm1
	pcmpeqw	%xmm0, %xmm1
	pmovmskb	%xmm1, %edi
	testl	%edi, %edi
	jne	.LBB39_76
	packuswb	%xmm0, %xmm0
	movq	%xmm0, 112(%rsp,%rdx)
	addq	$16, %r15
	addq	$8, %rdx
	addq	$-16, %rsi
	cmpq	$15, %rsi
	ja	.LBB39_66
.LBB39_68:
	leaq	(%r8,%rcx,2), %r8
	cmpq	$16, %r8
	jb	.LBB39_76
	cmpq	%r15, %r8
	movq	(%rsp), %rdi
	jbe	.LBB39_77
	movdqu	-16(%rbx,%r8), %xmm0
	movdqa	.LCPI39_0(%rip), %xmm1
	pmaxuw	%xmm0, %xmm1
	pcmpeqw	%xmm0, %xmm1
	pmovmskb	%xmm1, %esi
	testl	%esi, %esi
	jne	.LBB39_77
	addq	%rax, %rcx
	packuswb	%xmm0, %xmm0
	movq	%xmm0, 104(%rsp,%rcx)
	movq	%r8, %r15
	movq	%rcx, %rdx
	jmp	.LBB39_77
.LBB39_72:
	movq	%rbx, %rdi
	movq	%r13, %rsi
	movq	24(%rsp), %rdx
	movq	16(%rsp), %r13
	movq	%r13, %rcx
	movq	(%rsp), %r8
	jmp	.LBB39_23
.LBB39_73:
	movq	%rax, %r14
	movq	16(%rsp), %r13
	movq	8(%rsp), %rbx
.LBB39_74:
	movq	(%rsp), %rcx
	movq	24(%rsp), %rax
	leaq	(%rax,%rcx), %rdi
	leaq	112(%rsp), %rsi
	movq	%r14, %rdx
	callq	memcpy@PLT
	addq	(%rsp), %r14
	jmp	.LBB39_38
.LBB39_76:
	movq	(%rsp), %rdi
.LBB39_77:
	cmpq	%r14, %rdx
	jbe	.LBB39_82
.LBB39_78:
	cmpb	$-65, 112(%rsp,%r14)
	jg	.LBB39_81
	decq	%r14
	jne	.LBB39_78
	xorl	%r14d, %r14d
.LBB39_81:
	leaq	112(%rsp), %rdi
	movq	%r14, %rsi
	callq	"utf16_units::size::utf16_len"
	movq	%rax, %r15
	movq	%r14, %rdx
	movq	(%rsp), %rdi
.LBB39_82:
	movq	%rdx, 48(%rsp)
	leaq	(%rdx,%rdi), %r14
	movq	24(%rsp), %rax
	addq	%rax, %rdi
	leaq	112(%rsp), %rsi
	callq	memcpy@PLT
	testq	%r15, %r15
	jne	.LBB39_37
	movl	$64, %esi
	movq	%rbx, %rdi
	callq	"utf16_transcode::decode::valid_up_to::<#418c2b53cf60437c>"
	movq	%rax, %r15
	leaq	112(%rsp), %rdx
	movq	%rbx, %rdi
	movq	%rax, %rsi
	callq	"utf16_to_utf8::write::write_utf8::<#418c2b53cf60437c>"
	movq	%r13, %rbx
	subq	%r14, %rbx
	cmpq	%rbx, %rax
	jbe	.LBB39_90
	testq	%rbx, %rbx
	je	.LBB39_88
	movq	48(%rsp), %rax
	addq	56(%rsp), %rax
	addq	(%rsp), %rax
.LBB39_86:
	cmpb	$-65, 112(%rsp,%rbx)
	jg	.LBB39_89
	decq	%rbx
	incq	%rax
	jne	.LBB39_86
.LBB39_88:
	xorl	%ebx, %ebx
.LBB39_89:
	leaq	112(%rsp), %rdi
	movq	%rbx, %rsi
	callq	"utf16_units::size::utf16_len"
	movq	%rax, %r15
	jmp	.LBB39_91
.LBB39_90:
	movq	%rax, %rbx
.LBB39_91:
	movq	24(%rsp), %rax
	leaq	(%rax,%r14), %rdi
	leaq	112(%rsp), %rsi
	movq	%rbx, %rdx
	callq	memcpy@PLT
	addq	%rbx, %r14
	jmp	.LBB39_37
.LBB39_92:
	movb	$2, %al
	jmp	.LBB39_96
.LBB39_93:
	movq	%r14, %rbp
.LBB39_94:
	movq	32(%rsp), %rax
	movq	%rbp, (%rax)
	movq	%r8, 8(%rax)
	movw	$0, 16(%rax)
	jmp	.LBB39_98
.LBB39_100:
	movb	$2, %cl
	jmp	.LBB39_97
.LBB39_95:
	movb	$3, %al
.LBB39_96:
	xorl	%ecx, %ecx
.LBB39_97:
	movq	32(%rsp), %rdx
	movq	%r15, (%rdx)
	movq	%r8, 8(%rdx)
	movb	%al, 16(%rdx)
	movb	%cl, 17(%rdx)
.LBB39_98:
	addq	$392, %rsp
	.cfi_def_cfa_offset 56
	popq	%rbx
	.cfi_def_cfa_offset 48
	popq	%r12
	.cfi_def_cfa_offset 40
	popq	%r13
	.cfi_def_cfa_offset 32
	popq	%r14
	.cfi_def_cfa_offset 24
	popq	%r15
	.cfi_def_cfa_offset 16
	popq	%rbp
	.cfi_def_cfa_offset 8
	retq
.Lfunc_end39:
	.size	"utf16_transcode::transcoding::transcode_many::<#556930da7d070edc>", .Lfunc_end39-"utf16_transcode::transcoding::transcode_many::<#556930da7d070edc>"
	.cfi_endproc

	.section	.rodata.cst16,"aM",@progbits,16
	.p2align	4, 0x0
.LCPI40_0:
	.short	65408
	.short	65408
	.short	65408
	.short	65408
	.short	65408
	.short	65408
	.short	65408
	.short	65408
.LCPI40_1:
	.short	63488
	.short	63488
	.short	63488
	.short	63488
	.short	63488
	.short	63488
	.short	63488
	.short	63488
.LCPI40_2:
	.short	10240
	.short	10240
	.short	10240
	.short	10240
	.short	10240
	.short	10240
	.short	10240
	.short	10240
.LCPI40_3:
	.short	2047
	.short	2047
	.short	2047
	.short	2047
	.short	2047
	.short	2047
	.short	2047
	.short	2047
.LCPI40_4:
	.short	224
	.short	224
	.short	224
	.short	224
	.short	224
	.short	224
	.short	224
	.short	224
.LCPI40_5:
	.short	34815
	.short	34815
	.short	34815
	.short	34815
	.short	34815
	.short	34815
	.short	34815
	.short	34815
.LCPI40_6:
	.short	32768
	.short	32768
	.short	32768
	.short	32768
	.short	32768
	.short	32768
	.short	32768
	.short	32768
.LCPI40_7:
	.short	63
	.short	63
	.short	63
	.short	63
	.short	63
	.short	63
	.short	63
	.short	63
.LCPI40_8:
	.short	16128
	.short	16128
	.short	16128
	.short	16128
	.short	16128
	.short	16128
	.short	16128
	.short	16128
.LCPI40_9:
	.zero	16,128
.LCPI40_10:
	.short	255
	.short	255
	.short	255
	.short	255
	.short	255
	.short	255
	.short	255
	.short	255
.LCPI40_11:
	.short	32992
	.short	32992
	.short	32992
	.short	32992
	.short	32992
	.short	32992
	.short	32992
	.short	32992
.LCPI40_12:
	.short	128
	.short	128
	.short	128
	.short	128
	.short	128
	.short	128
	.short	128
	.short	128
.LCPI40_13:
	.byte	128
	.byte	128
	.byte	0
	.byte	128
	.byte	128
	.byte	2
	.byte	128
	.byte	128
	.byte	4
	.byte	128
	.byte	128
	.byte	6
	.byte	128
	.byte	128
	.byte	8
	.byte	128
.LCPI40_14:
	.byte	0
	.byte	1
	.byte	128
	.byte	2
	.byte	3
	.byte	128
	.byte	4
	.byte	5
	.byte	128
	.byte	6
	.byte	7
	.byte	128
	.byte	8
	.byte	9
	.byte	128
	.byte	10
.LCPI40_15:
	.byte	6
	.byte	5
	.byte	8
	.byte	10
	.byte	9
	.byte	12
	.byte	14
	.byte	13
	.zero	1
	.zero	1
	.zero	1
	.zero	1
	.zero	1
	.zero	1
	.zero	1
	.zero	1
.LCPI40_16:
	.short	32960
	.short	32960
	.short	32960
	.short	32960
	.short	32960
	.short	32960
	.short	32960
	.short	32960
.LCPI40_17:
	.short	127
	.short	127
	.short	127
	.short	127
	.short	127
	.short	127
	.short	127
	.short	127
.LCPI40_18:
	.zero	16,252
.LCPI40_19:
	.zero	16,216
.LCPI40_20:
	.zero	16,220
.LCPI40_21:
	.short	12288
	.short	12288
	.short	12288
	.short	12288
	.short	12288
	.short	12288
	.short	12288
	.short	12288
.LCPI40_22:
	.short	9216
	.short	9216
	.short	9216
	.short	9216
	.short	9216
	.short	9216
	.short	9216
	.short	9216
.LCPI40_23:
	.short	752
	.short	752
	.short	752
	.short	752
	.short	752
	.short	752
	.short	752
	.short	752
.LCPI40_24:
	.short	3072
	.short	3072
	.short	3072
	.short	3072
	.short	3072
	.short	3072
	.short	3072
	.short	3072
.LCPI40_25:
	.short	17408
	.short	17408
	.short	17408
	.short	17408
	.short	17408
	.short	17408
	.short	17408
	.short	17408
.LCPI40_26:
	.byte	6
	.byte	5
	.byte	8
	.byte	10
	.byte	9
	.byte	12
	.byte	14
	.byte	13
	.byte	0
	.byte	0
	.byte	0
	.byte	0
	.byte	0
	.byte	0
	.byte	0
	.byte	0
	.section	".text.utf16_to_utf8::runs::write_paired::<#418c2b53cf60437c>","ax",@progbits
	.p2align	4
	.type	"utf16_to_utf8::runs::write_paired::<#418c2b53cf60437c>",@function
"utf16_to_utf8::runs::write_paired::<#418c2b53cf60437c>":
	.cfi_startproc
	pushq	%rbp
	.cfi_def_cfa_offset 16
	pushq	%r15
	.cfi_def_cfa_offset 24
	pushq	%r14
	.cfi_def_cfa_offset 32
	pushq	%r13
	.cfi_def_cfa_offset 40
	pushq	%r12
	.cfi_def_cfa_offset 48
	pushq	%rbx
	.cfi_def_cfa_offset 56
	subq	$104, %rsp
	.cfi_def_cfa_offset 160
	.cfi_offset %rbx, -56
	.cfi_offset %r12, -48
	.cfi_offset %r13, -40
	.cfi_offset %r14, -32
	.cfi_offset %r15, -24
	.cfi_offset %rbp, -16
	movq	%rcx, %r15
	cmpq	$64, %rdx
	setb	%al
	cmpq	$128, %r8
	setb	%cl
	orb	%al, %cl
	je	.LBB40_2
	pxor	%xmm0, %xmm0
	movdqu	%xmm0, 16(%rdi)
	movdqu	%xmm0, (%rdi)
	movq	$0, 32(%rdi)
	jmp	.LBB40_65
.LBB40_2:
	movq	%r8, %r14
	movq	%rdx, %r12
	movq	%rsi, %r13
	movq	%rdi, 72(%rsp)
	addq	$-128, %r14
	addq	$-64, %r12
	pxor	%xmm1, %xmm1
	xorl	%ebp, %ebp
	xorl	%eax, %eax
	xorl	%ebx, %ebx
	jmp	.LBB40_5
	.p2align	4
.LBB40_3:
	movq	%r15, %rdi
	movq	%rax, %rsi
	movdqa	%xmm0, %xmm1
	movl	$5, %edx
	movdqa	%xmm11, 16(%rsp)
	movdqa	%xmm3, 48(%rsp)
	movdqa	%xmm2, 32(%rsp)
	callq	"utf16_to_utf8::blocks::write_group"
	movq	%r15, %rdi
	movq	%rax, %rsi
	movdqa	32(%rsp), %xmm0
	movaps	48(%rsp), %xmm1
	movdqa	16(%rsp), %xmm2
	movdqa	(%rsp), %xmm3
	movl	$5, %edx
	callq	"utf16_to_utf8::blocks::write_group"
	addq	$64, %rbx
	movdqa	(%rsp), %xmm1
.LBB40_4:
	cmpq	%r12, %rbx
	ja	.LBB40_64
.LBB40_5:
	testb	$1, %bpl
	jne	.LBB40_40
	cmpq	%rax, %r14
	jb	.LBB40_40
	.p2align	4
.LBB40_7:
	movdqu	(%r13,%rbx), %xmm2
	movdqu	16(%r13,%rbx), %xmm3
	movdqu	32(%r13,%rbx), %xmm12
	movdqu	48(%r13,%rbx), %xmm0
	movdqa	%xmm3, %xmm5
	por	%xmm0, %xmm5
	movdqa	%xmm2, %xmm4
	por	%xmm12, %xmm4
	por	%xmm5, %xmm4
	ptest	.LCPI40_0(%rip), %xmm4
	jne	.LBB40_10
	packuswb	%xmm0, %xmm12
	packuswb	%xmm3, %xmm2
	movdqu	%xmm2, (%r15,%rax)
	movdqu	%xmm12, 16(%r15,%rax)
	addq	$32, %rax
	addq	$64, %rbx
	cmpq	%r12, %rbx
	ja	.LBB40_41
	movdqa	%xmm0, %xmm1
	cmpq	%rax, %r14
	jae	.LBB40_7
	jmp	.LBB40_41
	.p2align	4
.LBB40_40:
	movdqa	%xmm1, %xmm0
.LBB40_41:
	cmpq	%rbx, %r12
	jb	.LBB40_63
	cmpq	%rax, %r14
	jb	.LBB40_63
	movdqu	(%r13,%rbx), %xmm2
	movdqu	16(%r13,%rbx), %xmm3
	movdqu	32(%r13,%rbx), %xmm11
	movdqu	48(%r13,%rbx), %xmm9
	movdqa	%xmm3, %xmm1
	psrlw	$8, %xmm1
	movdqa	%xmm2, %xmm5
	psrlw	$8, %xmm5
	packuswb	%xmm1, %xmm5
	movdqa	%xmm9, %xmm1
	psrlw	$8, %xmm1
	movdqa	%xmm11, %xmm8
	psrlw	$8, %xmm8
	packuswb	%xmm1, %xmm8
	movdqa	.LCPI40_18(%rip), %xmm1
	pand	%xmm1, %xmm5
	pand	%xmm1, %xmm8
	movdqa	.LCPI40_19(%rip), %xmm6
	movdqa	%xmm8, %xmm1
	pcmpeqb	%xmm6, %xmm1
	movdqa	%xmm5, %xmm4
	pcmpeqb	%xmm6, %xmm4
	pmovmskb	%xmm4, %edx
	pmovmskb	%xmm1, %ecx
	movdqa	.LCPI40_20(%rip), %xmm7
	pcmpeqb	%xmm7, %xmm5
	pmovmskb	%xmm5, %esi
	pcmpeqb	%xmm7, %xmm8
	pmovmskb	%xmm8, %edi
	shll	$16, %edi
	orl	%esi, %edi
	movl	%ecx, %esi
	shll	$17, %esi
	movzbl	%bpl, %r8d
	andl	$1, %r8d
	leal	(%rsi,%rdx,2), %edx
	orl	%r8d, %edx
	cmpl	%edi, %edx
	jne	.LBB40_63
	shrl	$15, %ecx
	movl	%ecx, %ebp
	movdqa	%xmm2, %xmm1
	por	%xmm11, %xmm1
	movdqa	%xmm3, %xmm4
	por	%xmm9, %xmm4
	por	%xmm1, %xmm4
	ptest	.LCPI40_1(%rip), %xmm4
	movdqa	%xmm9, (%rsp)
	je	.LBB40_3
	movdqa	.LCPI40_2(%rip), %xmm8
	movdqa	%xmm11, %xmm1
	paddw	%xmm8, %xmm1
	movdqa	%xmm2, %xmm5
	paddw	%xmm8, %xmm5
	movdqa	%xmm9, %xmm10
	paddw	%xmm8, %xmm10
	movdqa	%xmm3, %xmm4
	paddw	%xmm8, %xmm4
	pminuw	%xmm3, %xmm4
	pminuw	%xmm9, %xmm10
	por	%xmm4, %xmm10
	pminuw	%xmm2, %xmm5
	pminuw	%xmm11, %xmm1
	por	%xmm5, %xmm1
	por	%xmm10, %xmm1
	ptest	.LCPI40_1(%rip), %xmm1
	jne	.LBB40_3
	movdqa	%xmm2, %xmm1
	palignr	$14, %xmm0, %xmm1
	movdqa	%xmm3, %xmm0
	palignr	$14, %xmm2, %xmm0
	movdqa	.LCPI40_21(%rip), %xmm5
	movdqa	%xmm3, %xmm4
	paddw	%xmm5, %xmm4
	movdqa	%xmm2, %xmm10
	paddw	%xmm5, %xmm10
	movdqa	.LCPI40_22(%rip), %xmm13
	movdqa	%xmm2, %xmm5
	paddw	%xmm13, %xmm5
	movdqa	%xmm3, %xmm12
	paddw	%xmm13, %xmm12
	psrlw	$2, %xmm12
	psrlw	$2, %xmm5
	movdqa	.LCPI40_23(%rip), %xmm13
	psubusw	%xmm13, %xmm5
	psubusw	%xmm13, %xmm12
	psllw	$10, %xmm0
	psllw	$10, %xmm1
	movdqa	.LCPI40_24(%rip), %xmm15
	pand	%xmm15, %xmm1
	pand	%xmm15, %xmm0
	movdqa	.LCPI40_25(%rip), %xmm14
	movdqa	%xmm2, %xmm9
	paddw	%xmm14, %xmm9
	paddw	%xmm1, %xmm9
	pmaxuw	%xmm5, %xmm9
	movdqa	%xmm3, %xmm5
	paddw	%xmm14, %xmm5
	paddw	%xmm0, %xmm5
	pmaxuw	%xmm12, %xmm5
	pxor	%xmm1, %xmm1
	pxor	%xmm0, %xmm0
	pcmpgtw	%xmm2, %xmm0
	pblendvb	%xmm0, %xmm9, %xmm10
	pcmpgtw	%xmm3, %xmm1
	movdqa	%xmm1, %xmm0
	pblendvb	%xmm0, %xmm5, %xmm4
	movdqa	%xmm4, %xmm0
	psrlw	$6, %xmm0
	movdqa	%xmm10, %xmm1
	psrlw	$6, %xmm1
	movdqa	.LCPI40_6(%rip), %xmm5
	psllw	$8, %xmm10
	psllw	$8, %xmm4
	movdqa	.LCPI40_8(%rip), %xmm9
	pand	%xmm9, %xmm4
	paddw	%xmm0, %xmm4
	pand	%xmm9, %xmm10
	paddw	%xmm1, %xmm10
	por	%xmm5, %xmm10
	por	%xmm5, %xmm4
	movdqa	.LCPI40_17(%rip), %xmm1
	movdqa	%xmm3, %xmm13
	pminuw	%xmm1, %xmm13
	pcmpeqw	%xmm3, %xmm13
	movdqa	%xmm13, %xmm0
	pblendvb	%xmm0, %xmm3, %xmm4
	movdqa	%xmm2, %xmm9
	pminuw	%xmm1, %xmm9
	pcmpeqw	%xmm2, %xmm9
	movdqa	%xmm9, %xmm0
	pblendvb	%xmm0, %xmm2, %xmm10
	pxor	%xmm0, %xmm0
	movdqa	%xmm11, %xmm5
	palignr	$14, %xmm3, %xmm5
	psllw	$10, %xmm5
	pand	%xmm15, %xmm5
	movdqa	%xmm11, %xmm1
	movdqa	%xmm11, %xmm12
	paddw	%xmm14, %xmm12
	paddw	%xmm5, %xmm12
	movdqa	%xmm11, %xmm3
	movdqa	.LCPI40_22(%rip), %xmm5
	paddw	%xmm5, %xmm3
	psrlw	$2, %xmm3
	movdqa	.LCPI40_23(%rip), %xmm14
	psubusw	%xmm14, %xmm3
	pmaxuw	%xmm3, %xmm12
	movdqa	.LCPI40_21(%rip), %xmm2
	paddw	%xmm2, %xmm11
	pcmpgtw	%xmm1, %xmm0
	pblendvb	%xmm0, %xmm12, %xmm11
	movdqa	(%rsp), %xmm0
	palignr	$14, %xmm1, %xmm0
	psllw	$10, %xmm0
	pand	%xmm15, %xmm0
	movdqa	(%rsp), %xmm15
	movdqa	%xmm15, %xmm3
	paddw	.LCPI40_25(%rip), %xmm3
	paddw	%xmm0, %xmm3
	movdqa	%xmm15, %xmm0
	paddw	%xmm5, %xmm0
	psrlw	$2, %xmm0
	psubusw	%xmm14, %xmm0
	pmaxuw	%xmm0, %xmm3
	movdqa	%xmm15, %xmm12
	paddw	%xmm2, %xmm12
	pxor	%xmm0, %xmm0
	pcmpgtw	%xmm15, %xmm0
	pblendvb	%xmm0, %xmm3, %xmm12
	movdqa	%xmm12, %xmm0
	psrlw	$6, %xmm0
	psllw	$8, %xmm12
	movdqa	.LCPI40_8(%rip), %xmm2
	pand	%xmm2, %xmm12
	paddw	%xmm0, %xmm12
	movdqa	%xmm11, %xmm0
	psrlw	$6, %xmm0
	psllw	$8, %xmm11
	pand	%xmm2, %xmm11
	paddw	%xmm0, %xmm11
	movdqa	.LCPI40_6(%rip), %xmm2
	por	%xmm2, %xmm12
	movdqa	%xmm15, %xmm3
	movdqa	.LCPI40_17(%rip), %xmm5
	pminuw	%xmm5, %xmm3
	pcmpeqw	%xmm15, %xmm3
	movdqa	%xmm3, %xmm0
	pblendvb	%xmm0, %xmm15, %xmm12
	por	%xmm2, %xmm11
	movdqa	%xmm1, %xmm0
	pminuw	%xmm5, %xmm0
	pcmpeqw	%xmm1, %xmm0
	pblendvb	%xmm0, %xmm1, %xmm11
	packsswb	%xmm13, %xmm9
	pmovmskb	%xmm9, %edx
	movzbl	%dl, %esi
	popcntl	%esi, %edi
	shll	$4, %esi
	leaq	.Lstatic.6(%rip), %rcx
	movdqu	(%rsi,%rcx), %xmm1
	pshufb	%xmm1, %xmm10
	movdqu	%xmm10, (%r15,%rax)
	shrl	$8, %edx
	xorl	%esi, %esi
	popcntl	%edx, %esi
	shll	$4, %edx
	movdqu	(%rdx,%rcx), %xmm1
	pshufb	%xmm1, %xmm4
	subq	%rdi, %rax
	movdqu	%xmm4, 16(%r15,%rax)
	packsswb	%xmm3, %xmm0
	pmovmskb	%xmm0, %edx
	movzbl	%dl, %edi
	popcntl	%edi, %r8d
	shll	$4, %edi
	movdqu	(%rdi,%rcx), %xmm0
	pshufb	%xmm0, %xmm11
	subq	%rsi, %rax
	movdqu	%xmm11, 32(%r15,%rax)
	shrl	$8, %edx
	xorl	%esi, %esi
	popcntl	%edx, %esi
	shll	$4, %edx
	movdqu	(%rdx,%rcx), %xmm0
	pshufb	%xmm0, %xmm12
	addq	$32, %rax
	subq	%r8, %rax
	movdqu	%xmm12, 16(%r15,%rax)
	subq	%rsi, %rax
	addq	$64, %rbx
	addq	$32, %rax
	cmpq	%r12, %rbx
	ja	.LBB40_54
	cmpq	%rax, %r14
	jb	.LBB40_54
	.p2align	4
.LBB40_48:
	movdqu	(%r13,%rbx), %xmm14
	movdqu	16(%r13,%rbx), %xmm13
	movdqu	32(%r13,%rbx), %xmm9
	movdqu	48(%r13,%rbx), %xmm1
	movdqa	%xmm13, %xmm0
	por	%xmm1, %xmm0
	movdqa	%xmm14, %xmm2
	por	%xmm9, %xmm2
	por	%xmm0, %xmm2
	ptest	.LCPI40_1(%rip), %xmm2
	je	.LBB40_54
	movdqa	%xmm9, %xmm0
	paddw	%xmm8, %xmm0
	movdqa	%xmm14, %xmm2
	paddw	%xmm8, %xmm2
	movdqa	%xmm1, %xmm3
	paddw	%xmm8, %xmm3
	movdqa	%xmm13, %xmm4
	paddw	%xmm8, %xmm4
	pminuw	%xmm13, %xmm4
	pminuw	%xmm1, %xmm3
	por	%xmm4, %xmm3
	pminuw	%xmm14, %xmm2
	pminuw	%xmm9, %xmm0
	por	%xmm2, %xmm0
	por	%xmm3, %xmm0
	ptest	.LCPI40_1(%rip), %xmm0
	jne	.LBB40_54
	movdqa	%xmm14, %xmm0
	psrlw	$8, %xmm0
	movdqa	%xmm13, %xmm2
	psrlw	$8, %xmm2
	packuswb	%xmm2, %xmm0
	movdqa	%xmm9, %xmm2
	psrlw	$8, %xmm2
	movdqa	%xmm1, %xmm3
	psrlw	$8, %xmm3
	packuswb	%xmm3, %xmm2
	movdqa	.LCPI40_18(%rip), %xmm3
	pand	%xmm3, %xmm0
	pand	%xmm3, %xmm2
	movdqa	%xmm2, %xmm3
	pcmpeqb	%xmm6, %xmm3
	movdqa	%xmm0, %xmm4
	pcmpeqb	%xmm6, %xmm4
	pmovmskb	%xmm4, %esi
	pmovmskb	%xmm3, %edx
	pcmpeqb	%xmm7, %xmm0
	pmovmskb	%xmm0, %edi
	pcmpeqb	%xmm7, %xmm2
	pmovmskb	%xmm2, %r8d
	shll	$16, %r8d
	orl	%edi, %r8d
	movl	%edx, %edi
	shll	$17, %edi
	leal	(%rdi,%rsi,2), %esi
	movzbl	%bpl, %edi
	orl	%esi, %edi
	cmpl	%r8d, %edi
	jne	.LBB40_54
	movdqa	%xmm14, %xmm2
	palignr	$14, %xmm15, %xmm2
	movdqa	%xmm13, %xmm0
	palignr	$14, %xmm14, %xmm0
	movdqa	%xmm13, %xmm11
	movdqa	.LCPI40_21(%rip), %xmm10
	paddw	%xmm10, %xmm11
	movdqa	%xmm14, %xmm15
	paddw	%xmm10, %xmm15
	movdqa	%xmm14, %xmm3
	movdqa	.LCPI40_22(%rip), %xmm8
	paddw	%xmm8, %xmm3
	movdqa	%xmm13, %xmm4
	paddw	%xmm8, %xmm4
	psrlw	$2, %xmm4
	psrlw	$2, %xmm3
	movdqa	.LCPI40_23(%rip), %xmm7
	psubusw	%xmm7, %xmm3
	psubusw	%xmm7, %xmm4
	psllw	$10, %xmm0
	psllw	$10, %xmm2
	movdqa	.LCPI40_24(%rip), %xmm6
	pand	%xmm6, %xmm2
	pand	%xmm6, %xmm0
	movdqa	%xmm14, %xmm12
	movdqa	.LCPI40_25(%rip), %xmm5
	paddw	%xmm5, %xmm12
	paddw	%xmm2, %xmm12
	pmaxuw	%xmm3, %xmm12
	movdqa	%xmm13, %xmm3
	paddw	%xmm5, %xmm3
	paddw	%xmm0, %xmm3
	pmaxuw	%xmm4, %xmm3
	pxor	%xmm2, %xmm2
	pcmpgtw	%xmm13, %xmm2
	pxor	%xmm0, %xmm0
	pcmpgtw	%xmm14, %xmm0
	pblendvb	%xmm0, %xmm12, %xmm15
	movdqa	%xmm2, %xmm0
	pblendvb	%xmm0, %xmm3, %xmm11
	movdqa	%xmm11, %xmm0
	psrlw	$6, %xmm0
	movdqa	%xmm15, %xmm2
	psrlw	$6, %xmm2
	psllw	$8, %xmm15
	psllw	$8, %xmm11
	movdqa	.LCPI40_8(%rip), %xmm8
	pand	%xmm8, %xmm11
	paddw	%xmm0, %xmm11
	pand	%xmm8, %xmm15
	paddw	%xmm2, %xmm15
	movdqa	.LCPI40_6(%rip), %xmm7
	por	%xmm7, %xmm11
	movdqa	%xmm13, %xmm2
	movdqa	.LCPI40_17(%rip), %xmm4
	pminuw	%xmm4, %xmm2
	pcmpeqw	%xmm13, %xmm2
	movdqa	%xmm2, %xmm0
	pblendvb	%xmm0, %xmm13, %xmm11
	por	%xmm7, %xmm15
	movdqa	%xmm14, %xmm3
	pminuw	%xmm4, %xmm3
	pcmpeqw	%xmm14, %xmm3
	movdqa	%xmm3, %xmm0
	pblendvb	%xmm0, %xmm14, %xmm15
	movdqa	%xmm9, %xmm14
	palignr	$14, %xmm13, %xmm14
	movdqa	%xmm1, %xmm0
	palignr	$14, %xmm9, %xmm0
	movdqa	%xmm1, %xmm12
	movdqa	%xmm10, %xmm8
	paddw	%xmm10, %xmm12
	psllw	$10, %xmm14
	pand	%xmm6, %xmm14
	movdqa	%xmm9, %xmm10
	movdqa	%xmm5, %xmm7
	paddw	%xmm5, %xmm10
	paddw	%xmm14, %xmm10
	movdqa	%xmm9, %xmm13
	movdqa	.LCPI40_22(%rip), %xmm4
	paddw	%xmm4, %xmm13
	psrlw	$2, %xmm13
	movdqa	.LCPI40_23(%rip), %xmm5
	psubusw	%xmm5, %xmm13
	psllw	$10, %xmm0
	pand	%xmm6, %xmm0
	pmaxuw	%xmm13, %xmm10
	movdqa	%xmm1, %xmm14
	paddw	%xmm7, %xmm14
	paddw	%xmm0, %xmm14
	movdqa	%xmm1, %xmm0
	paddw	%xmm4, %xmm0
	psrlw	$2, %xmm0
	psubusw	%xmm5, %xmm0
	pmaxuw	%xmm0, %xmm14
	movdqa	%xmm9, %xmm13
	paddw	%xmm8, %xmm13
	pxor	%xmm0, %xmm0
	pcmpgtw	%xmm9, %xmm0
	pblendvb	%xmm0, %xmm10, %xmm13
	pxor	%xmm0, %xmm0
	pcmpgtw	%xmm1, %xmm0
	pblendvb	%xmm0, %xmm14, %xmm12
	movdqa	%xmm12, %xmm0
	psrlw	$6, %xmm0
	movdqa	%xmm13, %xmm4
	psrlw	$6, %xmm4
	psllw	$8, %xmm13
	psllw	$8, %xmm12
	movdqa	.LCPI40_8(%rip), %xmm5
	pand	%xmm5, %xmm12
	paddw	%xmm0, %xmm12
	pand	%xmm5, %xmm13
	paddw	%xmm4, %xmm13
	movdqa	.LCPI40_6(%rip), %xmm0
	por	%xmm0, %xmm13
	por	%xmm0, %xmm12
	movdqa	%xmm1, %xmm4
	movdqa	.LCPI40_17(%rip), %xmm5
	pminuw	%xmm5, %xmm4
	pcmpeqw	%xmm1, %xmm4
	movdqa	%xmm4, %xmm0
	pblendvb	%xmm0, %xmm1, %xmm12
	movdqa	%xmm9, %xmm0
	pminuw	%xmm5, %xmm0
	pcmpeqw	%xmm9, %xmm0
	pblendvb	%xmm0, %xmm9, %xmm13
	packsswb	%xmm2, %xmm3
	pmovmskb	%xmm3, %esi
	movzbl	%sil, %edi
	popcntl	%edi, %r8d
	shll	$4, %edi
	movdqu	(%rdi,%rcx), %xmm2
	pshufb	%xmm2, %xmm15
	movdqu	%xmm15, (%r15,%rax)
	shrl	$8, %esi
	xorl	%edi, %edi
	popcntl	%esi, %edi
	shll	$4, %esi
	movdqu	(%rsi,%rcx), %xmm2
	pshufb	%xmm2, %xmm11
	subq	%r8, %rax
	movdqu	%xmm11, 16(%r15,%rax)
	packsswb	%xmm4, %xmm0
	pmovmskb	%xmm0, %esi
	movzbl	%sil, %r8d
	popcntl	%r8d, %r9d
	shll	$4, %r8d
	movdqu	(%r8,%rcx), %xmm0
	pshufb	%xmm0, %xmm13
	subq	%rdi, %rax
	movdqu	%xmm13, 32(%r15,%rax)
	shrl	$8, %esi
	xorl	%edi, %edi
	popcntl	%esi, %edi
	shll	$4, %esi
	movdqu	(%rsi,%rcx), %xmm0
	pshufb	%xmm0, %xmm12
	addq	$32, %rax
	subq	%r9, %rax
	movdqu	%xmm12, 16(%r15,%rax)
	movzwl	%dx, %ebp
	shrl	$15, %ebp
	subq	%rdi, %rax
	addq	$64, %rbx
	addq	$32, %rax
	cmpq	%r12, %rbx
	ja	.LBB40_4
	movdqa	%xmm1, %xmm15
	cmpq	%rax, %r14
	movdqa	.LCPI40_19(%rip), %xmm6
	movdqa	.LCPI40_20(%rip), %xmm7
	movdqa	.LCPI40_2(%rip), %xmm8
	jae	.LBB40_48
	jmp	.LBB40_4
	.p2align	4
.LBB40_10:
	movq	%rbp, (%rsp)
.LBB40_11:
	movdqa	%xmm0, %xmm15
	movq	%rax, %rsi
	movq	%rbx, %rbp
	movdqa	%xmm2, %xmm0
	por	%xmm12, %xmm0
	movdqa	%xmm3, %xmm4
	por	%xmm15, %xmm4
	por	%xmm0, %xmm4
	ptest	.LCPI40_1(%rip), %xmm4
	je	.LBB40_22
	movdqa	.LCPI40_2(%rip), %xmm5
	movdqa	%xmm12, %xmm8
	paddw	%xmm5, %xmm8
	movdqa	%xmm2, %xmm9
	paddw	%xmm5, %xmm9
	movdqa	%xmm15, %xmm4
	paddw	%xmm5, %xmm4
	movdqa	%xmm3, %xmm0
	paddw	%xmm5, %xmm0
	movdqa	%xmm3, %xmm5
	pminuw	%xmm0, %xmm5
	movdqa	%xmm15, %xmm6
	pminuw	%xmm4, %xmm6
	pminuw	%xmm5, %xmm6
	movdqa	%xmm2, %xmm5
	pminuw	%xmm9, %xmm5
	movdqa	%xmm12, %xmm7
	pminuw	%xmm8, %xmm7
	pminuw	%xmm5, %xmm7
	pminuw	%xmm6, %xmm7
	movdqa	.LCPI40_3(%rip), %xmm5
	pminuw	%xmm7, %xmm5
	pcmpeqw	%xmm7, %xmm5
	pmovmskb	%xmm5, %eax
	testl	%eax, %eax
	je	.LBB40_23
	pminuw	%xmm8, %xmm9
	pminuw	%xmm4, %xmm0
	pminuw	%xmm9, %xmm0
	movdqa	.LCPI40_3(%rip), %xmm4
	pminuw	%xmm0, %xmm4
	pcmpeqw	%xmm0, %xmm4
	pmovmskb	%xmm4, %eax
	testl	%eax, %eax
	jne	.LBB40_60
	movq	%r15, %rdi
	movdqa	%xmm1, %xmm0
	movl	$4, %edx
	movdqa	%xmm15, 16(%rsp)
	movdqa	%xmm12, 48(%rsp)
	movdqa	%xmm3, 32(%rsp)
	movdqa	%xmm2, 80(%rsp)
	callq	"utf16_to_utf8::blocks::write_group"
	movq	%r15, %rdi
	movq	%rax, %rsi
	movdqa	80(%rsp), %xmm0
	movdqa	32(%rsp), %xmm1
	movdqa	48(%rsp), %xmm2
	movdqa	16(%rsp), %xmm3
	movl	$4, %edx
	callq	"utf16_to_utf8::blocks::write_group"
	addq	$64, %rbp
	cmpq	%r12, %rbp
	ja	.LBB40_30
	cmpq	%rax, %r14
	jb	.LBB40_30
	movq	%rbp, %rbx
	movdqa	16(%rsp), %xmm1
	.p2align	4
.LBB40_18:
	movdqu	(%r13,%rbx), %xmm9
	movdqu	16(%r13,%rbx), %xmm7
	movdqu	32(%r13,%rbx), %xmm0
	movdqu	48(%r13,%rbx), %xmm15
	movdqa	%xmm7, %xmm2
	por	%xmm15, %xmm2
	movdqa	%xmm9, %xmm3
	por	%xmm0, %xmm3
	por	%xmm2, %xmm3
	ptest	.LCPI40_1(%rip), %xmm3
	je	.LBB40_32
	movdqa	%xmm7, %xmm2
	movdqa	.LCPI40_2(%rip), %xmm5
	paddw	%xmm5, %xmm2
	movdqa	%xmm15, %xmm3
	paddw	%xmm5, %xmm3
	pminuw	%xmm2, %xmm3
	movdqa	%xmm9, %xmm2
	paddw	%xmm5, %xmm2
	movdqa	%xmm0, %xmm4
	paddw	%xmm5, %xmm4
	pminuw	%xmm2, %xmm4
	pminuw	%xmm3, %xmm4
	movdqa	.LCPI40_3(%rip), %xmm2
	pminuw	%xmm4, %xmm2
	pcmpeqw	%xmm4, %xmm2
	pmovmskb	%xmm2, %ecx
	testl	%ecx, %ecx
	jne	.LBB40_32
	movdqa	%xmm7, %xmm8
	psllw	$8, %xmm8
	movdqa	%xmm9, %xmm11
	psllw	$8, %xmm11
	movdqa	%xmm7, %xmm6
	psrlw	$12, %xmm6
	movdqa	%xmm9, %xmm10
	psrlw	$12, %xmm10
	por	%xmm11, %xmm10
	por	%xmm8, %xmm6
	movdqa	.LCPI40_4(%rip), %xmm4
	por	%xmm4, %xmm10
	movdqa	.LCPI40_5(%rip), %xmm2
	movdqa	%xmm2, %xmm12
	psubusw	%xmm7, %xmm12
	movdqa	%xmm2, %xmm13
	psubusw	%xmm9, %xmm13
	movdqa	%xmm9, %xmm1
	psrlw	$6, %xmm1
	movdqa	.LCPI40_7(%rip), %xmm5
	pand	%xmm5, %xmm1
	movdqa	.LCPI40_8(%rip), %xmm3
	pand	%xmm3, %xmm11
	por	%xmm1, %xmm11
	movdqa	.LCPI40_10(%rip), %xmm1
	movdqa	%xmm1, %xmm14
	psubusw	%xmm9, %xmm14
	movdqa	.LCPI40_6(%rip), %xmm9
	pand	%xmm9, %xmm13
	pand	%xmm9, %xmm12
	por	%xmm13, %xmm14
	psrlw	$9, %xmm13
	por	%xmm13, %xmm11
	movdqa	%xmm1, %xmm13
	psubusw	%xmm7, %xmm13
	por	%xmm12, %xmm13
	psrlw	$9, %xmm12
	psrlw	$6, %xmm7
	pand	%xmm5, %xmm7
	pand	%xmm3, %xmm8
	por	%xmm7, %xmm8
	por	%xmm12, %xmm8
	movdqa	.LCPI40_9(%rip), %xmm7
	por	%xmm7, %xmm11
	pmovmskb	%xmm14, %edx
	movdqa	%xmm10, %xmm12
	punpcklwd	%xmm11, %xmm12
	movzbl	%dl, %esi
	popcntl	%esi, %edi
	shll	$4, %esi
	leaq	.Lstatic.7(%rip), %rcx
	movdqu	(%rsi,%rcx), %xmm14
	pshufb	%xmm14, %xmm12
	movdqu	%xmm12, (%r15,%rax)
	por	%xmm4, %xmm6
	por	%xmm7, %xmm8
	subq	%rdi, %rax
	punpckhwd	%xmm11, %xmm10
	shrl	$8, %edx
	xorl	%esi, %esi
	popcntl	%edx, %esi
	shll	$4, %edx
	movdqu	(%rdx,%rcx), %xmm11
	pshufb	%xmm11, %xmm10
	movdqu	%xmm10, 12(%r15,%rax)
	addq	$12, %rax
	subq	%rsi, %rax
	pmovmskb	%xmm13, %esi
	movdqa	%xmm6, %xmm10
	punpcklwd	%xmm8, %xmm10
	movzbl	%sil, %edx
	xorl	%edi, %edi
	popcntl	%edx, %edi
	shll	$4, %edx
	movdqu	(%rdx,%rcx), %xmm11
	pshufb	%xmm11, %xmm10
	movdqu	%xmm10, 12(%r15,%rax)
	addq	$12, %rax
	subq	%rdi, %rax
	punpckhwd	%xmm8, %xmm6
	shrl	$8, %esi
	xorl	%edx, %edx
	popcntl	%esi, %edx
	shll	$4, %esi
	movdqu	(%rsi,%rcx), %xmm8
	pshufb	%xmm8, %xmm6
	movdqu	%xmm6, 12(%r15,%rax)
	movdqa	%xmm15, %xmm8
	psllw	$8, %xmm8
	movdqa	%xmm0, %xmm11
	psllw	$8, %xmm11
	movdqa	%xmm15, %xmm6
	psrlw	$12, %xmm6
	movdqa	%xmm0, %xmm10
	psrlw	$12, %xmm10
	por	%xmm11, %xmm10
	por	%xmm8, %xmm6
	por	%xmm4, %xmm6
	por	%xmm4, %xmm10
	movdqa	%xmm2, %xmm4
	psubusw	%xmm15, %xmm4
	psubusw	%xmm0, %xmm2
	pand	%xmm9, %xmm2
	pand	%xmm9, %xmm4
	movdqa	%xmm15, %xmm12
	psrlw	$6, %xmm12
	movdqa	%xmm1, %xmm9
	psubusw	%xmm0, %xmm9
	psrlw	$6, %xmm0
	pand	%xmm5, %xmm0
	pand	%xmm5, %xmm12
	pand	%xmm3, %xmm11
	por	%xmm0, %xmm11
	por	%xmm2, %xmm9
	psrlw	$9, %xmm2
	por	%xmm2, %xmm11
	pand	%xmm3, %xmm8
	por	%xmm12, %xmm8
	psubusw	%xmm15, %xmm1
	por	%xmm4, %xmm1
	psrlw	$9, %xmm4
	por	%xmm4, %xmm8
	por	%xmm7, %xmm8
	por	%xmm7, %xmm11
	pmovmskb	%xmm9, %esi
	movdqa	%xmm10, %xmm0
	punpcklwd	%xmm11, %xmm0
	movzbl	%sil, %edi
	popcntl	%edi, %r8d
	shll	$4, %edi
	movdqu	(%rdi,%rcx), %xmm2
	pshufb	%xmm2, %xmm0
	subq	%rdx, %rax
	movdqu	%xmm0, 24(%r15,%rax)
	punpckhwd	%xmm11, %xmm10
	shrl	$8, %esi
	xorl	%edx, %edx
	popcntl	%esi, %edx
	shll	$4, %esi
	movdqu	(%rsi,%rcx), %xmm0
	pshufb	%xmm0, %xmm10
	addq	$24, %rax
	subq	%r8, %rax
	movdqu	%xmm10, 12(%r15,%rax)
	pmovmskb	%xmm1, %esi
	movdqa	%xmm6, %xmm0
	punpcklwd	%xmm8, %xmm0
	movzbl	%sil, %edi
	xorl	%r8d, %r8d
	popcntl	%edi, %r8d
	shll	$4, %edi
	movdqu	(%rdi,%rcx), %xmm1
	pshufb	%xmm1, %xmm0
	addq	$12, %rax
	subq	%rdx, %rax
	movdqu	%xmm0, 12(%r15,%rax)
	punpckhwd	%xmm8, %xmm6
	shrl	$8, %esi
	xorl	%edx, %edx
	popcntl	%esi, %edx
	shll	$4, %esi
	movdqu	(%rsi,%rcx), %xmm0
	pshufb	%xmm0, %xmm6
	addq	$12, %rax
	subq	%r8, %rax
	movdqu	%xmm6, 12(%r15,%rax)
	subq	%rdx, %rax
	addq	$24, %rax
	addq	$64, %rbx
	cmpq	%r12, %rbx
	ja	.LBB40_33
	movdqa	%xmm15, %xmm1
	cmpq	%rax, %r14
	jae	.LBB40_18
	jmp	.LBB40_33
	.p2align	4
.LBB40_22:
	movdqa	%xmm2, %xmm6
	psrlw	$6, %xmm6
	movdqa	%xmm3, %xmm5
	psrlw	$6, %xmm5
	movdqa	%xmm3, %xmm0
	psllw	$8, %xmm0
	movdqa	.LCPI40_8(%rip), %xmm7
	pand	%xmm7, %xmm0
	movdqa	%xmm2, %xmm1
	psllw	$8, %xmm1
	pand	%xmm7, %xmm1
	movdqa	.LCPI40_16(%rip), %xmm4
	paddw	%xmm4, %xmm6
	paddw	%xmm1, %xmm6
	paddw	%xmm4, %xmm5
	paddw	%xmm0, %xmm5
	movdqa	.LCPI40_17(%rip), %xmm1
	movdqa	%xmm3, %xmm8
	pminuw	%xmm1, %xmm8
	pcmpeqw	%xmm3, %xmm8
	movdqa	%xmm8, %xmm0
	pblendvb	%xmm0, %xmm3, %xmm5
	movdqa	%xmm2, %xmm0
	pminuw	%xmm1, %xmm0
	pcmpeqw	%xmm2, %xmm0
	pblendvb	%xmm0, %xmm2, %xmm6
	packsswb	%xmm8, %xmm0
	pmovmskb	%xmm0, %eax
	movzbl	%al, %edx
	xorl	%edi, %edi
	popcntl	%edx, %edi
	shll	$4, %edx
	leaq	.Lstatic.6(%rip), %rcx
	movdqu	(%rdx,%rcx), %xmm0
	pshufb	%xmm0, %xmm6
	movdqu	%xmm6, (%r15,%rsi)
	subq	%rdi, %rsi
	shrl	$8, %eax
	xorl	%edx, %edx
	popcntl	%eax, %edx
	shll	$4, %eax
	movdqu	(%rax,%rcx), %xmm0
	pshufb	%xmm0, %xmm5
	movdqu	%xmm5, 16(%r15,%rsi)
	subq	%rdx, %rsi
	movdqa	%xmm12, %xmm6
	psrlw	$6, %xmm6
	movdqa	%xmm15, %xmm5
	psrlw	$6, %xmm5
	movdqa	%xmm15, %xmm0
	psllw	$8, %xmm0
	pand	%xmm7, %xmm0
	movdqa	%xmm12, %xmm2
	psllw	$8, %xmm2
	pand	%xmm7, %xmm2
	paddw	%xmm4, %xmm6
	paddw	%xmm2, %xmm6
	paddw	%xmm4, %xmm5
	paddw	%xmm0, %xmm5
	movdqa	%xmm15, %xmm2
	pminuw	%xmm1, %xmm2
	pcmpeqw	%xmm15, %xmm2
	movdqa	%xmm2, %xmm0
	pblendvb	%xmm0, %xmm15, %xmm5
	pminuw	%xmm12, %xmm1
	pcmpeqw	%xmm12, %xmm1
	movdqa	%xmm1, %xmm0
	pblendvb	%xmm0, %xmm12, %xmm6
	leaq	32(%rsi), %rax
	packsswb	%xmm2, %xmm1
	pmovmskb	%xmm1, %edx
	movzbl	%dl, %edi
	popcntl	%edi, %r8d
	shll	$4, %edi
	movdqu	(%rdi,%rcx), %xmm0
	pshufb	%xmm0, %xmm6
	movdqu	%xmm6, 32(%r15,%rsi)
	subq	%r8, %rax
	shrl	$8, %edx
	xorl	%esi, %esi
	popcntl	%edx, %esi
	shll	$4, %edx
	movdqu	(%rdx,%rcx), %xmm0
	pshufb	%xmm0, %xmm5
	movdqu	%xmm5, 16(%r15,%rax)
	subq	%rsi, %rax
	addq	$32, %rax
	addq	$64, %rbp
	movq	%rbp, %rbx
	cmpq	%r12, %rbx
	jbe	.LBB40_34
	jmp	.LBB40_58
	.p2align	4
.LBB40_23:
	movdqa	%xmm3, %xmm7
	psrlw	$12, %xmm7
	movdqa	%xmm2, %xmm8
	psrlw	$12, %xmm8
	movdqa	%xmm2, %xmm4
	psllw	$2, %xmm4
	movdqa	.LCPI40_8(%rip), %xmm0
	pand	%xmm0, %xmm4
	movdqa	%xmm3, %xmm1
	psllw	$2, %xmm1
	pand	%xmm0, %xmm1
	movdqa	.LCPI40_11(%rip), %xmm10
	por	%xmm10, %xmm7
	por	%xmm1, %xmm7
	por	%xmm10, %xmm8
	por	%xmm4, %xmm8
	movdqa	.LCPI40_7(%rip), %xmm11
	pand	%xmm11, %xmm2
	pand	%xmm11, %xmm3
	movdqa	.LCPI40_12(%rip), %xmm1
	por	%xmm1, %xmm3
	por	%xmm1, %xmm2
	movdqa	.LCPI40_13(%rip), %xmm4
	movdqa	%xmm2, %xmm6
	pshufb	%xmm4, %xmm6
	movdqa	.LCPI40_14(%rip), %xmm5
	movdqa	%xmm8, %xmm9
	pshufb	%xmm5, %xmm9
	por	%xmm6, %xmm9
	movdqu	%xmm9, (%r15,%rsi)
	punpckhbw	%xmm2, %xmm8
	movdqa	%xmm11, %xmm2
	movq	.LCPI40_26(%rip), %xmm6
	pshufb	%xmm6, %xmm8
	movq	%xmm8, 16(%r15,%rsi)
	movdqa	%xmm3, %xmm8
	pshufb	%xmm4, %xmm8
	movdqa	%xmm7, %xmm9
	pshufb	%xmm5, %xmm9
	por	%xmm8, %xmm9
	movdqu	%xmm9, 24(%r15,%rsi)
	punpckhbw	%xmm3, %xmm7
	movdqa	%xmm10, %xmm3
	pshufb	%xmm6, %xmm7
	movq	%xmm7, 40(%r15,%rsi)
	movdqa	%xmm15, %xmm7
	psrlw	$12, %xmm7
	movdqa	%xmm12, %xmm8
	psrlw	$12, %xmm8
	movdqa	%xmm12, %xmm9
	psllw	$2, %xmm9
	pand	%xmm0, %xmm9
	movdqa	%xmm15, %xmm10
	psllw	$2, %xmm10
	pand	%xmm0, %xmm10
	por	%xmm3, %xmm7
	por	%xmm10, %xmm7
	por	%xmm3, %xmm8
	por	%xmm9, %xmm8
	pand	%xmm11, %xmm12
	movdqa	%xmm15, %xmm9
	pand	%xmm11, %xmm9
	por	%xmm1, %xmm9
	por	%xmm1, %xmm12
	movdqa	%xmm12, %xmm10
	pshufb	%xmm4, %xmm10
	movdqa	%xmm8, %xmm11
	pshufb	%xmm5, %xmm11
	por	%xmm10, %xmm11
	movdqu	%xmm11, 48(%r15,%rsi)
	punpckhbw	%xmm12, %xmm8
	pshufb	%xmm6, %xmm8
	movq	%xmm8, 64(%r15,%rsi)
	movdqa	%xmm7, %xmm8
	punpckhbw	%xmm9, %xmm7
	pshufb	%xmm4, %xmm9
	pshufb	%xmm5, %xmm8
	por	%xmm9, %xmm8
	movdqu	%xmm8, 72(%r15,%rsi)
	pshufb	%xmm6, %xmm7
	movq	%xmm7, 88(%r15,%rsi)
	leaq	96(%rsi), %rax
	leaq	64(%rbp), %rbx
	cmpq	%r12, %rbx
	ja	.LBB40_33
	cmpq	%rax, %r14
	jb	.LBB40_33
	movdqu	(%r13,%rbx), %xmm9
	movdqu	16(%r13,%rbx), %xmm8
	movdqu	32(%r13,%rbx), %xmm7
	movdqu	48(%r13,%rbx), %xmm10
	movdqa	%xmm8, %xmm11
	movdqa	.LCPI40_2(%rip), %xmm0
	paddw	%xmm0, %xmm11
	movdqa	%xmm10, %xmm12
	paddw	%xmm0, %xmm12
	movdqa	%xmm9, %xmm13
	paddw	%xmm0, %xmm13
	movdqa	%xmm7, %xmm14
	paddw	%xmm0, %xmm14
	pminuw	%xmm7, %xmm14
	pminuw	%xmm9, %xmm13
	pminuw	%xmm14, %xmm13
	pminuw	%xmm10, %xmm12
	pminuw	%xmm8, %xmm11
	pminuw	%xmm12, %xmm11
	pminuw	%xmm13, %xmm11
	movdqa	.LCPI40_3(%rip), %xmm12
	pminuw	%xmm11, %xmm12
	pcmpeqw	%xmm11, %xmm12
	pmovmskb	%xmm12, %ecx
	testl	%ecx, %ecx
	jne	.LBB40_33
	addq	$192, %rsi
	subq	$-128, %rbp
	.p2align	4
.LBB40_27:
	movdqa	%xmm10, %xmm15
	movq	%rsi, %rax
	movq	%rbp, %rbx
	movdqa	%xmm8, %xmm10
	psrlw	$12, %xmm10
	movdqa	%xmm9, %xmm11
	psrlw	$12, %xmm11
	movdqa	%xmm9, %xmm12
	psllw	$2, %xmm12
	movdqa	.LCPI40_8(%rip), %xmm0
	pand	%xmm0, %xmm12
	movdqa	%xmm8, %xmm13
	psllw	$2, %xmm13
	pand	%xmm0, %xmm13
	por	%xmm3, %xmm10
	por	%xmm13, %xmm10
	por	%xmm3, %xmm11
	por	%xmm12, %xmm11
	pand	%xmm2, %xmm9
	pand	%xmm2, %xmm8
	por	%xmm1, %xmm8
	por	%xmm1, %xmm9
	movdqa	%xmm9, %xmm12
	pshufb	%xmm4, %xmm12
	movdqa	%xmm11, %xmm13
	pshufb	%xmm5, %xmm13
	por	%xmm12, %xmm13
	movdqu	%xmm13, -96(%r15,%rsi)
	punpckhbw	%xmm9, %xmm11
	pshufb	%xmm6, %xmm11
	movq	%xmm11, -80(%r15,%rsi)
	movdqa	%xmm8, %xmm9
	pshufb	%xmm4, %xmm9
	movdqa	%xmm10, %xmm11
	pshufb	%xmm5, %xmm11
	por	%xmm9, %xmm11
	movdqu	%xmm11, -72(%r15,%rsi)
	punpckhbw	%xmm8, %xmm10
	pshufb	%xmm6, %xmm10
	movq	%xmm10, -56(%r15,%rsi)
	movdqa	%xmm15, %xmm8
	psrlw	$12, %xmm8
	movdqa	%xmm7, %xmm9
	psrlw	$12, %xmm9
	movdqa	%xmm7, %xmm10
	psllw	$2, %xmm10
	pand	%xmm0, %xmm10
	movdqa	%xmm15, %xmm11
	psllw	$2, %xmm11
	pand	%xmm0, %xmm11
	por	%xmm3, %xmm8
	por	%xmm11, %xmm8
	por	%xmm3, %xmm9
	por	%xmm10, %xmm9
	pand	%xmm2, %xmm7
	movdqa	%xmm15, %xmm10
	pand	%xmm2, %xmm10
	por	%xmm1, %xmm10
	por	%xmm1, %xmm7
	movdqa	%xmm7, %xmm11
	pshufb	%xmm4, %xmm11
	movdqa	%xmm9, %xmm12
	pshufb	%xmm5, %xmm12
	por	%xmm11, %xmm12
	movdqu	%xmm12, -48(%r15,%rsi)
	punpckhbw	%xmm7, %xmm9
	pshufb	%xmm6, %xmm9
	movq	%xmm9, -32(%r15,%rsi)
	movdqa	%xmm8, %xmm7
	punpckhbw	%xmm10, %xmm8
	pshufb	%xmm4, %xmm10
	pshufb	%xmm5, %xmm7
	por	%xmm10, %xmm7
	movdqu	%xmm7, -24(%r15,%rsi)
	pshufb	%xmm6, %xmm8
	movq	%xmm8, -8(%r15,%rsi)
	cmpq	%r12, %rbp
	ja	.LBB40_33
	cmpq	%rax, %r14
	jb	.LBB40_33
	movdqu	(%r13,%rbx), %xmm9
	movdqu	16(%r13,%rbx), %xmm8
	movdqu	32(%r13,%rbx), %xmm7
	movdqu	48(%r13,%rbx), %xmm10
	movdqa	%xmm8, %xmm11
	movdqa	.LCPI40_2(%rip), %xmm0
	paddw	%xmm0, %xmm11
	movdqa	%xmm10, %xmm12
	paddw	%xmm0, %xmm12
	movdqa	%xmm9, %xmm13
	paddw	%xmm0, %xmm13
	movdqa	%xmm7, %xmm14
	paddw	%xmm0, %xmm14
	pminuw	%xmm7, %xmm14
	pminuw	%xmm9, %xmm13
	pminuw	%xmm14, %xmm13
	pminuw	%xmm10, %xmm12
	pminuw	%xmm8, %xmm11
	pminuw	%xmm12, %xmm11
	pminuw	%xmm13, %xmm11
	movdqa	.LCPI40_3(%rip), %xmm12
	pminuw	%xmm11, %xmm12
	pcmpeqw	%xmm11, %xmm12
	pmovmskb	%xmm12, %ecx
	leaq	96(%rax), %rsi
	leaq	64(%rbx), %rbp
	testl	%ecx, %ecx
	je	.LBB40_27
	jmp	.LBB40_33
.LBB40_30:
	movq	%rbp, %rbx
	movdqa	16(%rsp), %xmm15
	.p2align	4
.LBB40_33:
	cmpq	%r12, %rbx
	ja	.LBB40_58
.LBB40_34:
	cmpq	%rax, %r14
	movq	(%rsp), %rbp
	jb	.LBB40_59
	.p2align	4
.LBB40_35:
	movdqu	(%r13,%rbx), %xmm2
	movdqu	16(%r13,%rbx), %xmm3
	movdqu	32(%r13,%rbx), %xmm12
	movdqu	48(%r13,%rbx), %xmm0
	movdqa	%xmm3, %xmm1
	por	%xmm0, %xmm1
	movdqa	%xmm2, %xmm4
	por	%xmm12, %xmm4
	por	%xmm1, %xmm4
	ptest	.LCPI40_0(%rip), %xmm4
	jne	.LBB40_38
	packuswb	%xmm0, %xmm12
	packuswb	%xmm3, %xmm2
	movdqu	%xmm2, (%r15,%rax)
	movdqu	%xmm12, 16(%r15,%rax)
	addq	$32, %rax
	addq	$64, %rbx
	cmpq	%r12, %rbx
	ja	.LBB40_41
	movdqa	%xmm0, %xmm15
	cmpq	%rax, %r14
	jae	.LBB40_35
	jmp	.LBB40_41
	.p2align	4
.LBB40_38:
	movdqa	%xmm15, %xmm1
	jmp	.LBB40_11
.LBB40_32:
	movdqa	%xmm1, %xmm15
	cmpq	%r12, %rbx
	jbe	.LBB40_34
.LBB40_58:
	movdqa	%xmm15, %xmm0
	movq	(%rsp), %rbp
	jmp	.LBB40_41
.LBB40_54:
	movdqa	%xmm15, %xmm1
	jmp	.LBB40_4
.LBB40_59:
	movdqa	%xmm15, %xmm0
	jmp	.LBB40_41
.LBB40_60:
	movq	%rbp, %rbx
	movq	%rsi, %rax
	movdqa	%xmm1, %xmm0
	movq	(%rsp), %rbp
	jmp	.LBB40_41
.LBB40_63:
	movdqa	%xmm0, %xmm1
.LBB40_64:
	andb	$1, %bpl
	movq	72(%rsp), %rcx
	movq	%rbx, (%rcx)
	movq	%rax, 8(%rcx)
	movdqu	%xmm1, 16(%rcx)
	movb	%bpl, 32(%rcx)
	movl	$0, 33(%rcx)
	movl	$0, 36(%rcx)
.LBB40_65:
	addq	$104, %rsp
	.cfi_def_cfa_offset 56
	popq	%rbx
	.cfi_def_cfa_offset 48
	popq	%r12
	.cfi_def_cfa_offset 40
	popq	%r13
	.cfi_def_cfa_offset 32
	popq	%r14
	.cfi_def_cfa_offset 24
	popq	%r15
	.cfi_def_cfa_offset 16
	popq	%rbp
	.cfi_def_cfa_offset 8
	retq
.Lfunc_end40:
	.size	"utf16_to_utf8::runs::write_paired::<#418c2b53cf60437c>", .Lfunc_end40-"utf16_to_utf8::runs::write_paired::<#418c2b53cf60437c>"
	.cfi_endproc

	.section	.rodata.cst16,"aM",@progbits,16
	.p2align	4, 0x0
.LCPI41_0:
	.short	128
	.short	128
	.short	128
	.short	128
	.short	128
	.short	128
	.short	128
	.short	128
	.section	".text.utf16_transcode::transcoding::write_chars::<#556930da7d070edc>","ax",@progbits
	.p2align	4
	.type	"utf16_transcode::transcoding::write_chars::<#556930da7d070edc>",@function
"utf16_transcode::transcoding::write_chars::<#556930da7d070edc>":
	.cfi_startproc
	pushq	%rbp
	.cfi_def_cfa_offset 16
	pushq	%r15
	.cfi_def_cfa_offset 24
	pushq	%r14
	.cfi_def_cfa_offset 32
	pushq	%r13
	.cfi_def_cfa_offset 40
	pushq	%r12
	.cfi_def_cfa_offset 48
	pushq	%rbx
	.cfi_def_cfa_offset 56
	pushq	%rax
	.cfi_def_cfa_offset 64
	.cfi_offset %rbx, -56
	.cfi_offset %r12, -48
	.cfi_offset %r13, -40
	.cfi_offset %r14, -32
	.cfi_offset %r15, -24
	.cfi_offset %rbp, -16
	movq	%r8, %rbx
	movq	%rdx, %r14
	movq	%rsi, %r15
	movq	%rdi, %r12
	addq	%r8, %rdx
	movq	%rcx, (%rsp)
	subq	%r8, %rcx
	leaq	-16(%rsi), %rax
	cmpq	$175, %rax
	ja	.LBB41_1
	movq	%r15, %rax
	shrq	%rax
	cmpq	%rax, %rcx
	cmovbq	%rcx, %rax
	cmpq	$8, %rax
	jb	.LBB41_1
	leaq	(%rax,%rax), %rsi
	xorl	%ebp, %ebp
	xorl	%r13d, %r13d
	.p2align	4
.LBB41_4:
	movdqu	(%r12,%r13,2), %xmm0
	movdqa	.LCPI41_0(%rip), %xmm1
	pmaxuw	%xmm0, %xmm1
	pcmpeqw	%xmm0, %xmm1
	pmovmskb	%xmm1, %edi
	testl	%edi, %edi
	jne	.LBB41_9
	packuswb	%xmm0, %xmm0
	movq	%xmm0, (%rdx,%r13)
	addq	$8, %r13
	leaq	(%rsi,%rbp), %rdi
	addq	$-16, %rdi
	addq	$-16, %rbp
	cmpq	$15, %rdi
	ja	.LBB41_4
	negq	%rbp
	cmpq	%rbp, %rsi
	jbe	.LBB41_10
	movdqu	-16(%r12,%rsi), %xmm0
	movdqa	.LCPI41_0(%rip), %xmm1
	pmaxuw	%xmm0, %xmm1
	pcmpeqw	%xmm0, %xmm1
	pmovmskb	%xmm1, %edi
	testl	%edi, %edi
	jne	.LBB41_10
	packuswb	%xmm0, %xmm0
	movq	%xmm0, -8(%rdx,%rax)
	movq	%rax, %r13
	movq	%rsi, %rbp
	movq	%r15, %rax
	subq	%rbp, %rax
	cmpq	$15, %rax
	jbe	.LBB41_11
	jmp	.LBB41_19
.LBB41_1:
	xorl	%r13d, %r13d
	xorl	%ebp, %ebp
.LBB41_10:
	movq	%r15, %rax
	subq	%rbp, %rax
	cmpq	$15, %rax
	ja	.LBB41_19
.LBB41_11:
	movq	%rcx, %rsi
	subq	%r13, %rsi
	movq	%rax, %rdi
	shrq	%rdi
	leaq	(%rdi,%rdi,2), %rdi
	cmpq	%rdi, %rsi
	setb	%sil
	cmpq	$2, %rax
	setb	%dil
	orb	%sil, %dil
	je	.LBB41_12
	jmp	.LBB41_19
	.p2align	4
.LBB41_13:
	movb	%sil, (%rdx,%r13)
	incq	%r13
.LBB41_18:
	addq	$2, %rbp
	addq	$-2, %rax
	cmpq	$1, %rax
	jbe	.LBB41_19
.LBB41_12:
	movzbl	(%r12,%rbp), %esi
	movzbl	1(%r12,%rbp), %r8d
	movl	%r8d, %edi
	shll	$8, %edi
	orl	%esi, %edi
	cmpw	$127, %di
	jbe	.LBB41_13
	cmpb	$7, %r8b
	ja	.LBB41_16
	movzwl	%si, %esi
	andl	$63, %esi
	shll	$8, %esi
	movzwl	%di, %edi
	shrl	$6, %edi
	orl	%esi, %edi
	orl	$32960, %edi
	movw	%di, (%rdx,%r13)
	addq	$2, %r13
	jmp	.LBB41_18
	.p2align	4
.LBB41_16:
	movzwl	%r8w, %r9d
	andl	$-8, %r9d
	cmpl	$216, %r9d
	je	.LBB41_19
	andb	$63, %sil
	orb	$-128, %sil
	shrl	$6, %edi
	andb	$63, %dil
	orb	$-128, %dil
	shrb	$4, %r8b
	orb	$-32, %r8b
	movb	%r8b, (%rdx,%r13)
	movb	%dil, 1(%rdx,%r13)
	movb	%sil, 2(%rdx,%r13)
	addq	$3, %r13
	jmp	.LBB41_18
.LBB41_9:
	negq	%rbp
	movq	%r15, %rax
	subq	%rbp, %rax
	cmpq	$15, %rax
	jbe	.LBB41_11
.LBB41_19:
	leaq	-8(%r15), %rax
	cmpq	$183, %rax
	ja	.LBB41_22
	movq	%r15, %rsi
	subq	%rbp, %rsi
	cmpq	$8, %rsi
	jb	.LBB41_22
	leaq	(%r12,%rbp), %rdi
	addq	%r13, %rdx
	subq	%r13, %rcx
	callq	"utf16_to_utf8::vectors::write_vectors::<#418c2b53cf60437c>"
	addq	%rax, %rbp
	addq	%rdx, %r13
.LBB41_22:
	addq	%rbx, %r13
	cmpq	%r15, %rbp
	jae	.LBB41_41
	movq	(%rsp), %rbx
	jmp	.LBB41_24
	.p2align	4
.LBB41_34:
	movb	%al, (%r14,%r13)
	incq	%r13
.LBB41_40:
	addq	%rcx, %rbp
	cmpq	%r15, %rbp
	jae	.LBB41_41
.LBB41_24:
	movq	%r15, %rax
	subq	%rbp, %rax
	cmpq	$2, %rax
	jb	.LBB41_41
	movzbl	1(%r12,%rbp), %edx
	movzwl	%dx, %ecx
	andl	$-8, %edx
	cmpl	$216, %edx
	jne	.LBB41_29
	cmpq	$4, %rax
	jb	.LBB41_41
	movl	%ecx, %eax
	andl	$-36, %eax
	movzwl	%ax, %eax
	cmpl	$220, %eax
	je	.LBB41_41
	movzbl	3(%r12,%rbp), %eax
	andb	$-4, %al
	cmpb	$-36, %al
	jne	.LBB41_41
.LBB41_29:
	movzbl	(%r12,%rbp), %edx
	movl	%ecx, %eax
	shll	$8, %eax
	orl	%edx, %eax
	andl	$-4, %ecx
	cmpl	$216, %ecx
	jne	.LBB41_30
	movzwl	2(%r12,%rbp), %esi
	movl	%eax, %edi
	callq	"utf16_units::unit::decode_surrogates"
	movl	$4, %ecx
	jmp	.LBB41_32
	.p2align	4
.LBB41_30:
	movl	$2, %ecx
.LBB41_32:
	movq	%rbx, %rdx
	subq	%r13, %rdx
	cmpl	$65536, %eax
	movl	$4, %esi
	sbbq	$0, %rsi
	cmpl	$2048, %eax
	movl	$2, %edi
	cmovaeq	%rsi, %rdi
	cmpl	$128, %eax
	movl	$1, %esi
	cmovaeq	%rdi, %rsi
	cmpq	%rsi, %rdx
	jb	.LBB41_41
	cmpl	$127, %eax
	jbe	.LBB41_34
	movl	%eax, %edx
	andb	$63, %dl
	orb	$-128, %dl
	cmpl	$2047, %eax
	ja	.LBB41_37
	shrl	$6, %eax
	movzbl	%dl, %edx
	shll	$8, %edx
	orl	%eax, %edx
	orl	$192, %edx
	movw	%dx, (%r14,%r13)
	addq	$2, %r13
	jmp	.LBB41_40
	.p2align	4
.LBB41_37:
	movl	%eax, %esi
	cmpl	$65535, %eax
	ja	.LBB41_39
	shrl	$6, %esi
	andb	$63, %sil
	orb	$-128, %sil
	shrl	$12, %eax
	orb	$-32, %al
	movb	%al, (%r14,%r13)
	movb	%sil, 1(%r14,%r13)
	movb	%dl, 2(%r14,%r13)
	addq	$3, %r13
	jmp	.LBB41_40
.LBB41_39:
	shrl	$18, %esi
	addl	$240, %esi
	movzbl	%dl, %edx
	shll	$24, %edx
	movl	%eax, %edi
	shll	$10, %edi
	andl	$4128768, %edi
	orl	%edx, %edi
	shrl	$4, %eax
	andl	$16128, %eax
	orl	%edi, %eax
	movzbl	%sil, %edx
	addl	%edx, %eax
	addl	$8421376, %eax
	movl	%eax, (%r14,%r13)
	addq	$4, %r13
	jmp	.LBB41_40
.LBB41_41:
	movq	%rbp, %rax
	movq	%r13, %rdx
	addq	$8, %rsp
	.cfi_def_cfa_offset 56
	popq	%rbx
	.cfi_def_cfa_offset 48
	popq	%r12
	.cfi_def_cfa_offset 40
	popq	%r13
	.cfi_def_cfa_offset 32
	popq	%r14
	.cfi_def_cfa_offset 24
	popq	%r15
	.cfi_def_cfa_offset 16
	popq	%rbp
	.cfi_def_cfa_offset 8
	retq
.Lfunc_end41:
	.size	"utf16_transcode::transcoding::write_chars::<#556930da7d070edc>", .Lfunc_end41-"utf16_transcode::transcoding::write_chars::<#556930da7d070edc>"
	.cfi_endproc

	.section	".text.utf16_to_utf8::write::write_utf8::<#418c2b53cf60437c>","ax",@progbits
	.p2align	4
	.type	"utf16_to_utf8::write::write_utf8::<#418c2b53cf60437c>",@function
"utf16_to_utf8::write::write_utf8::<#418c2b53cf60437c>":
	.cfi_startproc
	pushq	%r15
	.cfi_def_cfa_offset 16
	pushq	%r14
	.cfi_def_cfa_offset 24
	pushq	%r13
	.cfi_def_cfa_offset 32
	pushq	%r12
	.cfi_def_cfa_offset 40
	pushq	%rbx
	.cfi_def_cfa_offset 48
	subq	$48, %rsp
	.cfi_def_cfa_offset 96
	.cfi_offset %rbx, -48
	.cfi_offset %r12, -40
	.cfi_offset %r13, -32
	.cfi_offset %r14, -24
	.cfi_offset %r15, -16
	movq	%rdx, %rbx
	movq	%rsi, %r14
	movq	%rdi, %r15
	movq	%rsi, %rax
	shrq	%rax
	leaq	(%rax,%rax,2), %r12
	addq	$128, %r12
	cmpq	$191, %rsi
	jbe	.LBB42_3
	xorps	%xmm0, %xmm0
	movaps	%xmm0, 16(%rsp)
	movaps	%xmm0, (%rsp)
	movq	$0, 32(%rsp)
	movq	%rsp, %rdi
	movq	%r15, %rsi
	movq	%r14, %rdx
	movq	%rbx, %rcx
	movq	%r12, %r8
	callq	"utf16_to_utf8::runs::write_paired::<#418c2b53cf60437c>"
	movq	(%rsp), %rax
	movq	8(%rsp), %rcx
	leaq	-2(%rax), %rdx
	leaq	-2(%rcx), %r13
	testb	$1, 32(%rsp)
	cmoveq	%rcx, %r13
	cmoveq	%rax, %rdx
	addq	%rdx, %r15
	subq	%rdx, %r14
	addq	%r13, %rbx
	cmpq	$7, %r14
	ja	.LBB42_5
	movq	%r15, %rdi
	movq	%r14, %rsi
	movq	%rbx, %rdx
	callq	"utf16_to_utf8::chars::write_chars::<#418c2b53cf60437c>"
	jmp	.LBB42_6
.LBB42_3:
	movq	%r15, %rdi
	movq	%r14, %rsi
	movq	%rbx, %rdx
	cmpq	$7, %r14
	jbe	.LBB42_8
	movq	%r12, %rcx
	callq	"utf16_to_utf8::vectors::write_vectors::<#418c2b53cf60437c>"
	movq	%rdx, %rax
	jmp	.LBB42_7
.LBB42_5:
	subq	%r13, %r12
	movq	%r15, %rdi
	movq	%r14, %rsi
	movq	%rbx, %rdx
	movq	%r12, %rcx
	callq	"utf16_to_utf8::vectors::write_vectors::<#418c2b53cf60437c>"
	movq	%rdx, %rax
.LBB42_6:
	addq	%r13, %rax
.LBB42_7:
	addq	$48, %rsp
	.cfi_def_cfa_offset 48
	popq	%rbx
	.cfi_def_cfa_offset 40
	popq	%r12
	.cfi_def_cfa_offset 32
	popq	%r13
	.cfi_def_cfa_offset 24
	popq	%r14
	.cfi_def_cfa_offset 16
	popq	%r15
	.cfi_def_cfa_offset 8
	retq
.LBB42_8:
	.cfi_def_cfa_offset 96
	addq	$48, %rsp
	.cfi_def_cfa_offset 48
	popq	%rbx
	.cfi_def_cfa_offset 40
	popq	%r12
	.cfi_def_cfa_offset 32
	popq	%r13
	.cfi_def_cfa_offset 24
	popq	%r14
	.cfi_def_cfa_offset 16
	popq	%r15
	.cfi_def_cfa_offset 8
	jmp	"utf16_to_utf8::chars::write_chars::<#418c2b53cf60437c>"
.Lfunc_end42:
	.size	"utf16_to_utf8::write::write_utf8::<#418c2b53cf60437c>", .Lfunc_end42-"utf16_to_utf8::write::write_utf8::<#418c2b53cf60437c>"
	.cfi_endproc

	.section	".text.utf16_to_utf8::chars::write_chars::<#418c2b53cf60437c>","ax",@progbits
	.p2align	4
	.type	"utf16_to_utf8::chars::write_chars::<#418c2b53cf60437c>",@function
"utf16_to_utf8::chars::write_chars::<#418c2b53cf60437c>":
	.cfi_startproc
	pushq	%r15
	.cfi_def_cfa_offset 16
	pushq	%r14
	.cfi_def_cfa_offset 24
	pushq	%r12
	.cfi_def_cfa_offset 32
	pushq	%rbx
	.cfi_def_cfa_offset 40
	pushq	%rax
	.cfi_def_cfa_offset 48
	.cfi_offset %rbx, -40
	.cfi_offset %r12, -32
	.cfi_offset %r14, -24
	.cfi_offset %r15, -16
	testq	%rsi, %rsi
	je	.LBB43_1
	movq	%rdx, %rbx
	movq	%rsi, %r14
	movq	%rdi, %r12
	xorl	%r15d, %r15d
	jmp	.LBB43_3
	.p2align	4
.LBB43_7:
	movb	%al, (%rbx,%r15)
	incq	%r15
.LBB43_13:
	addq	%rcx, %r12
	subq	%rcx, %r14
	je	.LBB43_14
.LBB43_3:
	movzbl	(%r12), %ecx
	movzbl	1(%r12), %edx
	movl	%edx, %eax
	shll	$8, %eax
	orl	%ecx, %eax
	andl	$-4, %edx
	cmpl	$216, %edx
	jne	.LBB43_4
	movzwl	2(%r12), %esi
	movl	%eax, %edi
	callq	"utf16_units::unit::decode_surrogates"
	movl	$4, %ecx
	cmpl	$127, %eax
	jbe	.LBB43_7
	jmp	.LBB43_8
	.p2align	4
.LBB43_4:
	movl	$2, %ecx
	cmpl	$127, %eax
	jbe	.LBB43_7
.LBB43_8:
	movl	%eax, %edx
	andb	$63, %dl
	orb	$-128, %dl
	cmpl	$2047, %eax
	ja	.LBB43_10
	shrl	$6, %eax
	movzbl	%dl, %edx
	shll	$8, %edx
	orl	%eax, %edx
	orl	$192, %edx
	movw	%dx, (%rbx,%r15)
	addq	$2, %r15
	jmp	.LBB43_13
	.p2align	4
.LBB43_10:
	movl	%eax, %esi
	cmpl	$65535, %eax
	ja	.LBB43_12
	shrl	$6, %esi
	andb	$63, %sil
	orb	$-128, %sil
	shrl	$12, %eax
	orb	$-32, %al
	movb	%al, (%rbx,%r15)
	movb	%sil, 1(%rbx,%r15)
	movb	%dl, 2(%rbx,%r15)
	addq	$3, %r15
	jmp	.LBB43_13
.LBB43_12:
	shrl	$18, %esi
	addl	$240, %esi
	movzbl	%dl, %edx
	shll	$24, %edx
	movl	%eax, %edi
	shll	$10, %edi
	andl	$4128768, %edi
	orl	%edx, %edi
	shrl	$4, %eax
	andl	$16128, %eax
	orl	%edi, %eax
	movzbl	%sil, %edx
	addl	%edx, %eax
	addl	$8421376, %eax
	movl	%eax, (%rbx,%r15)
	addq	$4, %r15
	jmp	.LBB43_13
.LBB43_1:
	xorl	%r15d, %r15d
.LBB43_14:
	movq	%r15, %rax
	addq	$8, %rsp
	.cfi_def_cfa_offset 40
	popq	%rbx
	.cfi_def_cfa_offset 32
	popq	%r12
	.cfi_def_cfa_offset 24
	popq	%r14
	.cfi_def_cfa_offset 16
	popq	%r15
	.cfi_def_cfa_offset 8
	retq
.Lfunc_end43:
	.size	"utf16_to_utf8::chars::write_chars::<#418c2b53cf60437c>", .Lfunc_end43-"utf16_to_utf8::chars::write_chars::<#418c2b53cf60437c>"
	.cfi_endproc

	.section	.rodata.cst16,"aM",@progbits,16
	.p2align	4, 0x0
.LCPI44_0:
	.short	255
	.short	255
	.short	255
	.short	255
	.short	255
	.short	255
	.short	255
	.short	255
	.section	".text.utf16_transcode::ascii::write_lossy_ascii_blocks::<#418c2b53cf60437c>","ax",@progbits
	.p2align	4
	.type	"utf16_transcode::ascii::write_lossy_ascii_blocks::<#418c2b53cf60437c>",@function
"utf16_transcode::ascii::write_lossy_ascii_blocks::<#418c2b53cf60437c>":
	.cfi_startproc
	pushq	%rbp
	.cfi_def_cfa_offset 16
	pushq	%r15
	.cfi_def_cfa_offset 24
	pushq	%r14
	.cfi_def_cfa_offset 32
	pushq	%rbx
	.cfi_def_cfa_offset 40
	.cfi_offset %rbx, -40
	.cfi_offset %r14, -32
	.cfi_offset %r15, -24
	.cfi_offset %rbp, -16
	movq	%rdx, %r8
	leaq	-66(%rsi), %r9
	addq	$-35, %rcx
	xorl	%eax, %eax
	xorl	%edx, %edx
	.p2align	4
.LBB44_1:
	movdqu	(%rdi,%rax), %xmm0
	movdqu	16(%rdi,%rax), %xmm1
	movdqu	32(%rdi,%rax), %xmm2
	movdqu	48(%rdi,%rax), %xmm3
	movdqa	.LCPI44_0(%rip), %xmm4
	pminuw	%xmm4, %xmm3
	pminuw	%xmm4, %xmm2
	packuswb	%xmm3, %xmm2
	pminuw	%xmm4, %xmm1
	pminuw	%xmm4, %xmm0
	packuswb	%xmm1, %xmm0
	movdqu	%xmm2, 16(%r8,%rdx)
	movdqu	%xmm0, (%r8,%rdx)
	pmovmskb	%xmm0, %r11d
	pmovmskb	%xmm2, %r10d
	shll	$16, %r10d
	orl	%r11d, %r10d
	testl	%r10d, %r10d
	je	.LBB44_2
	rep		bsfl	%r10d, %r10d
	leal	(%r10,%r10), %r11d
	movq	%rsi, %rbx
	subq	%rax, %rbx
	subq	%r11, %rbx
	cmpq	$2, %rbx
	jb	.LBB44_13
	leaq	(%rdi,%rax), %r14
	movzbl	1(%r14,%r11), %ebp
	movl	%ebp, %r15d
	andl	$-8, %r15d
	cmpl	$216, %r15d
	jne	.LBB44_13
	movzwl	%bp, %ebp
	notl	%ebp
	testb	$-36, %bpl
	je	.LBB44_8
	cmpq	$4, %rbx
	jb	.LBB44_13
	movzbl	3(%r14,%r11), %ebx
	andb	$-4, %bl
	cmpb	$-36, %bl
	je	.LBB44_13
.LBB44_8:
	leaq	(%r8,%rdx), %rbx
	addq	$2, %r11
	addq	%r10, %rbx
	addq	$3, %r10
	leaq	.Lstatic.9(%rip), %r14
	movq	%rbx, %r15
	subq	%r14, %r15
	cmpq	$2, %r15
	ja	.LBB44_10
	movw	$-16401, (%rbx)
	movb	$-67, 2(%rbx)
	addq	%r11, %rax
	addq	%r10, %rdx
	cmpq	%r9, %rax
	jbe	.LBB44_12
	jmp	.LBB44_13
	.p2align	4
.LBB44_2:
	movl	$64, %r11d
	movl	$32, %r10d
	addq	%r11, %rax
	addq	%r10, %rdx
	cmpq	%r9, %rax
	jbe	.LBB44_12
	jmp	.LBB44_13
	.p2align	4
.LBB44_10:
	movb	$-67, 2(%rbx)
	movw	$-16401, (%rbx)
	addq	%r11, %rax
	addq	%r10, %rdx
	cmpq	%r9, %rax
	ja	.LBB44_13
.LBB44_12:
	cmpq	%rcx, %rdx
	jbe	.LBB44_1
.LBB44_13:
	popq	%rbx
	.cfi_def_cfa_offset 32
	popq	%r14
	.cfi_def_cfa_offset 24
	popq	%r15
	.cfi_def_cfa_offset 16
	popq	%rbp
	.cfi_def_cfa_offset 8
	retq
.Lfunc_end44:
	.size	"utf16_transcode::ascii::write_lossy_ascii_blocks::<#418c2b53cf60437c>", .Lfunc_end44-"utf16_transcode::ascii::write_lossy_ascii_blocks::<#418c2b53cf60437c>"
	.cfi_endproc

	.section	".text.utf16_transcode::decode_lossy::write_copied::<#418c2b53cf60437c>","ax",@progbits
	.p2align	4
	.type	"utf16_transcode::decode_lossy::write_copied::<#418c2b53cf60437c>",@function
"utf16_transcode::decode_lossy::write_copied::<#418c2b53cf60437c>":
	.cfi_startproc
	pushq	%r15
	.cfi_def_cfa_offset 16
	pushq	%r14
	.cfi_def_cfa_offset 24
	pushq	%r13
	.cfi_def_cfa_offset 32
	pushq	%r12
	.cfi_def_cfa_offset 40
	pushq	%rbx
	.cfi_def_cfa_offset 48
	subq	$1024, %rsp
	.cfi_def_cfa_offset 1072
	.cfi_offset %rbx, -48
	.cfi_offset %r12, -40
	.cfi_offset %r13, -32
	.cfi_offset %r14, -24
	.cfi_offset %r15, -16
	movq	%rdx, %rbx
	movq	%rdi, %r15
	leaq	-128(%rcx), %rax
	movabsq	$-6148914691236517205, %rcx
	mulq	%rcx
	andq	$-2, %rdx
	cmpq	%rsi, %rdx
	cmovaeq	%rsi, %rdx
	cmpq	$1024, %rdx
	movl	$1024, %r14d
	cmovbq	%rdx, %r14
	movq	%rsp, %rdi
	movl	$1024, %edx
	xorl	%esi, %esi
	callq	memset@PLT
	andq	$2046, %r14
	je	.LBB45_3
	movzbl	-1(%r15,%r14), %eax
	andb	$-4, %al
	cmpb	$-40, %al
	jne	.LBB45_3
	addq	$-2, %r14
.LBB45_3:
	movq	%rsp, %rdi
	movq	%r15, %rsi
	movq	%r14, %rdx
	callq	memcpy@PLT
	movq	%r14, %r15
	andq	$-2, %r15
	je	.LBB45_13
	xorl	%r12d, %r12d
	jmp	.LBB45_5
	.p2align	4
.LBB45_11:
	movw	$-3, (%rsp,%r12)
	movl	$2, %eax
	addq	%rax, %r12
	cmpq	%r15, %r12
	jae	.LBB45_13
.LBB45_5:
	movq	%r15, %rax
	subq	%r12, %rax
	cmpq	$2, %rax
	jb	.LBB45_11
	movzbl	1(%rsp,%r12), %ecx
	movl	%ecx, %edx
	andl	$-8, %edx
	movl	$2, %r13d
	cmpl	$216, %edx
	jne	.LBB45_10
	cmpq	$4, %rax
	jb	.LBB45_11
	movzwl	%cx, %eax
	andl	$-36, %eax
	movzwl	%ax, %eax
	cmpl	$220, %eax
	je	.LBB45_11
	movzbl	3(%rsp,%r12), %eax
	andb	$-4, %al
	movl	$4, %r13d
	cmpb	$-36, %al
	jne	.LBB45_11
	.p2align	4
.LBB45_10:
	leaq	(%r12,%r13), %rax
	leaq	(%rsp,%rax), %rdi
	movq	%r15, %rsi
	subq	%rax, %rsi
	callq	"utf16_transcode::decode::valid_up_to::<#418c2b53cf60437c>"
	addq	%r13, %rax
	addq	%rax, %r12
	cmpq	%r15, %r12
	jb	.LBB45_5
.LBB45_13:
	movq	%rsp, %rdi
	movq	%r14, %rsi
	movq	%rbx, %rdx
	callq	"utf16_to_utf8::write::write_utf8::<#418c2b53cf60437c>"
	movq	%rax, %rdx
	movq	%r14, %rax
	addq	$1024, %rsp
	.cfi_def_cfa_offset 48
	popq	%rbx
	.cfi_def_cfa_offset 40
	popq	%r12
	.cfi_def_cfa_offset 32
	popq	%r13
	.cfi_def_cfa_offset 24
	popq	%r14
	.cfi_def_cfa_offset 16
	popq	%r15
	.cfi_def_cfa_offset 8
	retq
.Lfunc_end45:
	.size	"utf16_transcode::decode_lossy::write_copied::<#418c2b53cf60437c>", .Lfunc_end45-"utf16_transcode::decode_lossy::write_copied::<#418c2b53cf60437c>"
	.cfi_endproc

	.section	.rodata.cst16,"aM",@progbits,16
	.p2align	4, 0x0
.LCPI46_0:
	.zero	16,192
.LCPI46_1:
	.zero	16,191
.LCPI46_2:
	.zero	16,223
.LCPI46_3:
	.zero	16,239
.LCPI46_4:
	.zero	16,159
.LCPI46_5:
	.zero	16,237
.LCPI46_6:
	.zero	16,224
.LCPI46_7:
	.zero	16,143
.LCPI46_8:
	.zero	16,245
.LCPI46_9:
	.zero	16,244
.LCPI46_10:
	.zero	16,240
.LCPI46_11:
	.zero	16,254
.LCPI46_12:
	.byte	1
	.byte	2
	.byte	3
	.byte	4
	.byte	5
	.byte	6
	.byte	7
	.byte	8
	.byte	9
	.byte	10
	.byte	11
	.byte	12
	.byte	13
	.byte	14
	.byte	15
	.byte	16
.LCPI46_13:
	.zero	16,15
.LCPI46_14:
	.zero	16,220
.LCPI46_15:
	.zero	16,252
.LCPI46_16:
	.zero	16,3
.LCPI46_17:
	.zero	16,63
.LCPI46_18:
	.zero	16,232
.LCPI46_19:
	.zero	16,127
	.section	".text.utf16_transcode::encode::FromUtf8Direction::begin::<#8b18edd9dd9aa8df>","ax",@progbits
	.p2align	4
	.type	"utf16_transcode::encode::FromUtf8Direction::begin::<#8b18edd9dd9aa8df>",@function
"utf16_transcode::encode::FromUtf8Direction::begin::<#8b18edd9dd9aa8df>":
	.cfi_startproc
	pushq	%rbp
	.cfi_def_cfa_offset 16
	pushq	%r15
	.cfi_def_cfa_offset 24
	pushq	%r14
	.cfi_def_cfa_offset 32
	pushq	%r12
	.cfi_def_cfa_offset 40
	pushq	%rbx
	.cfi_def_cfa_offset 48
	.cfi_offset %rbx, -48
	.cfi_offset %r12, -40
	.cfi_offset %r14, -32
	.cfi_offset %r15, -24
	.cfi_offset %rbp, -16
	movq	%rcx, %rbx
	cmpq	$7, %rsi
	ja	.LBB46_16
	movq	%rbx, %rax
	shrq	%rax
	cmpq	%rsi, %rax
	cmovaeq	%rsi, %rax
	testq	%rax, %rax
	je	.LBB46_22
	movsbl	(%rdi), %ecx
	testw	%cx, %cx
	js	.LBB46_22
	movswl	%cx, %ecx
	shll	$8, %ecx
	movw	%cx, (%rdx)
	movl	$2, %r9d
	cmpq	$1, %rax
	je	.LBB46_84
	movsbl	1(%rdi), %ecx
	testw	%cx, %cx
	js	.LBB46_33
	movswl	%cx, %ecx
	shll	$8, %ecx
	movw	%cx, 2(%rdx)
	movl	$4, %r9d
	cmpq	$2, %rax
	je	.LBB46_84
	movsbl	2(%rdi), %ecx
	testw	%cx, %cx
	js	.LBB46_36
	movswl	%cx, %ecx
	shll	$8, %ecx
	movw	%cx, 4(%rdx)
	movl	$6, %r9d
	cmpq	$3, %rax
	je	.LBB46_84
	movsbl	3(%rdi), %ecx
	testw	%cx, %cx
	js	.LBB46_78
	movswl	%cx, %ecx
	shll	$8, %ecx
	movw	%cx, 6(%rdx)
	movl	$8, %r9d
	cmpq	$4, %rax
	je	.LBB46_84
	movsbl	4(%rdi), %ecx
	testw	%cx, %cx
	js	.LBB46_79
	movswl	%cx, %ecx
	shll	$8, %ecx
	movw	%cx, 8(%rdx)
	movl	$10, %r9d
	cmpq	$5, %rax
	je	.LBB46_84
	movsbl	5(%rdi), %ecx
	testw	%cx, %cx
	js	.LBB46_80
	movswl	%cx, %ecx
	shll	$8, %ecx
	movw	%cx, 10(%rdx)
	movl	$12, %r9d
	cmpq	$6, %rax
	je	.LBB46_84
	movsbl	6(%rdi), %ecx
	testw	%cx, %cx
	js	.LBB46_81
	movswl	%cx, %ecx
	shll	$8, %ecx
	movw	%cx, 12(%rdx)
	movl	$14, %r9d
	jmp	.LBB46_84
.LBB46_16:
	cmpq	$16, %rsi
	ja	.LBB46_23
	cmpq	$32, %rbx
	jb	.LBB46_21
	movq	-8(%rdi,%rsi), %xmm0
	movq	(%rdi), %xmm1
	punpcklqdq	%xmm0, %xmm1
	movq	%rsi, %rax
	shlq	$4, %rax
	leaq	.Lstatic.1(%rip), %rcx
	movdqu	-128(%rax,%rcx), %xmm2
	pshufb	%xmm2, %xmm1
	pmovmskb	%xmm1, %eax
	testl	%eax, %eax
	je	.LBB46_27
	pextrb	$5, %xmm0, %eax
	pextrb	$6, %xmm0, %ecx
	pextrb	$7, %xmm0, %r8d
	cmpb	$-64, %r8b
	setae	%r8b
	cmpb	$-32, %cl
	setae	%cl
	orb	%r8b, %cl
	cmpb	$-16, %al
	setae	%al
	orb	%cl, %al
	jne	.LBB46_21
	leaq	.Lstatic.2(%rip), %rax
	subq	%rsi, %rax
	movdqu	16(%rax), %xmm0
	pmaxub	%xmm0, %xmm1
	movdqa	%xmm1, %xmm2
	pslldq	$1, %xmm2
	movdqa	%xmm1, %xmm4
	pslldq	$2, %xmm4
	movdqa	%xmm1, %xmm5
	pslldq	$3, %xmm5
	movdqa	.LCPI46_0(%rip), %xmm3
	movdqa	%xmm3, %xmm0
	movdqa	%xmm2, %xmm6
	psubusb	.LCPI46_1(%rip), %xmm6
	pcmpgtb	%xmm1, %xmm0
	movdqa	%xmm4, %xmm7
	psubusb	.LCPI46_2(%rip), %xmm7
	pmaxub	%xmm6, %xmm7
	psubusb	.LCPI46_3(%rip), %xmm5
	por	%xmm7, %xmm5
	pxor	%xmm6, %xmm6
	pcmpgtb	%xmm6, %xmm5
	pxor	%xmm0, %xmm5
	movdqa	.LCPI46_4(%rip), %xmm0
	pminub	%xmm1, %xmm0
	pcmpeqb	%xmm1, %xmm0
	movdqa	.LCPI46_5(%rip), %xmm7
	pblendvb	%xmm0, .LCPI46_6(%rip), %xmm7
	pcmpeqb	%xmm2, %xmm7
	movdqa	.LCPI46_7(%rip), %xmm0
	pminub	%xmm1, %xmm0
	pcmpeqb	%xmm1, %xmm0
	movdqa	.LCPI46_8(%rip), %xmm8
	pmaxub	%xmm1, %xmm8
	pcmpeqb	%xmm1, %xmm8
	movdqa	.LCPI46_9(%rip), %xmm9
	pblendvb	%xmm0, .LCPI46_10(%rip), %xmm9
	pcmpeqb	%xmm2, %xmm9
	por	%xmm7, %xmm9
	movdqa	.LCPI46_11(%rip), %xmm0
	pand	%xmm1, %xmm0
	pcmpeqb	%xmm3, %xmm0
	por	%xmm5, %xmm0
	por	%xmm8, %xmm0
	por	%xmm9, %xmm0
	movd	%esi, %xmm5
	pshufb	%xmm6, %xmm5
	movdqa	.LCPI46_12(%rip), %xmm6
	pmaxub	%xmm5, %xmm6
	pcmpeqb	%xmm5, %xmm6
	psllw	$7, %xmm0
	pand	%xmm6, %xmm0
	pmovmskb	%xmm0, %eax
	testl	%eax, %eax
	je	.LBB46_35
.LBB46_21:
	xorl	%r9d, %r9d
	xorl	%eax, %eax
	cmpq	$31, %rsi
	jbe	.LBB46_45
	jmp	.LBB46_32
.LBB46_22:
	xorl	%r9d, %r9d
	xorl	%eax, %eax
	jmp	.LBB46_84
.LBB46_23:
	movq	%rbx, %rcx
	shrq	%rcx
	cmpq	%rsi, %rcx
	cmovaeq	%rsi, %rcx
	cmpq	$32, %rbx
	jb	.LBB46_24
	movdqu	(%rdi), %xmm1
	pmovmskb	%xmm1, %eax
	testl	%eax, %eax
	je	.LBB46_28
.LBB46_24:
	xorl	%eax, %eax
	leaq	(%rax,%rax), %r9
	movq	%rsi, %rcx
	subq	%rax, %rcx
	je	.LBB46_31
.LBB46_38:
	movq	%rdi, %r15
	cmpq	$191, %rcx
	ja	.LBB46_40
	movq	%rsi, %r12
	movq	%rdx, %r14
	movq	%rbx, %rcx
	movq	%rax, %r8
	callq	"utf16_from_utf8::rest::write_rest::<#8b18edd9dd9aa8df>"
	movq	%r15, %rdi
	movq	%r12, %rsi
	movq	%rdx, %r9
	movq	%r14, %rdx
	cmpq	$31, %rsi
	jbe	.LBB46_45
	jmp	.LBB46_32
.LBB46_40:
	movq	%rsi, %r14
	movq	%rdx, %r12
	movq	%rbx, %rcx
	movq	%rax, %r8
	callq	"utf16_from_utf8::blocks::write_mixed_blocks::<#8b18edd9dd9aa8df>"
	movq	%rdx, %r9
	movq	%r14, %rcx
	subq	%rax, %rcx
	cmpq	$191, %rcx
	jbe	.LBB46_42
	movq	%r14, %rsi
	movq	%r12, %rdx
	movq	%r15, %rdi
	cmpq	$31, %rsi
	jbe	.LBB46_45
	jmp	.LBB46_32
.LBB46_27:
	pxor	%xmm0, %xmm0
	pxor	%xmm2, %xmm2
	punpckhbw	%xmm1, %xmm2
	punpcklbw	%xmm1, %xmm0
	movdqu	%xmm0, (%rdx)
	movdqu	%xmm2, 16(%rdx)
	leaq	(%rsi,%rsi), %r9
	movq	%rsi, %rax
	cmpq	$31, %rsi
	jbe	.LBB46_45
	jmp	.LBB46_32
.LBB46_28:
	cmpq	$31, %rcx
	ja	.LBB46_34
	pxor	%xmm0, %xmm0
	pxor	%xmm2, %xmm2
	punpckhbw	%xmm1, %xmm2
	pxor	%xmm3, %xmm3
	punpcklbw	%xmm1, %xmm3
	movdqu	%xmm3, (%rdx)
	movdqu	%xmm2, 16(%rdx)
	movdqu	-16(%rcx,%rdi), %xmm1
	pmovmskb	%xmm1, %r8d
	movl	$16, %eax
	testl	%r8d, %r8d
	je	.LBB46_37
	leaq	(%rax,%rax), %r9
	movq	%rsi, %rcx
	subq	%rax, %rcx
	jne	.LBB46_38
.LBB46_31:
	cmpq	$31, %rsi
	jbe	.LBB46_45
.LBB46_32:
	movq	%r9, %rdx
	popq	%rbx
	.cfi_def_cfa_offset 40
	popq	%r12
	.cfi_def_cfa_offset 32
	popq	%r14
	.cfi_def_cfa_offset 24
	popq	%r15
	.cfi_def_cfa_offset 16
	popq	%rbp
	.cfi_def_cfa_offset 8
	retq
.LBB46_33:
	.cfi_def_cfa_offset 48
	movl	$1, %eax
	jmp	.LBB46_84
.LBB46_42:
	movq	%r15, %rdi
	movq	%r14, %rsi
	movq	%r12, %rdx
	movq	%rbx, %rcx
	movq	%rax, %r8
	callq	"utf16_from_utf8::rest::write_rest::<#8b18edd9dd9aa8df>"
	movq	%r15, %rdi
	movq	%r14, %rsi
	movq	%rdx, %r9
	movq	%r12, %rdx
	cmpq	$31, %rsi
	jbe	.LBB46_45
	jmp	.LBB46_32
.LBB46_34:
	movq	%rdi, %r14
	movq	%rsi, %r12
	movq	%rcx, %rsi
	movq	%rdx, %r15
	callq	"utf16_from_utf8::ascii::write_front::<#8b18edd9dd9aa8df>"
	movq	%r14, %rdi
	movq	%r12, %rsi
	movq	%r15, %rdx
	leaq	(%rax,%rax), %r9
	movq	%rsi, %rcx
	subq	%rax, %rcx
	je	.LBB46_31
	jmp	.LBB46_38
.LBB46_35:
	movdqa	%xmm3, %xmm6
	movdqa	%xmm1, %xmm0
	pblendvb	%xmm0, %xmm2, %xmm6
	movdqa	.LCPI46_1(%rip), %xmm5
	movdqa	.LCPI46_6(%rip), %xmm0
	pmaxub	%xmm4, %xmm0
	movdqa	%xmm6, %xmm7
	psrlw	$2, %xmm7
	movdqa	.LCPI46_13(%rip), %xmm8
	pand	%xmm8, %xmm7
	psllw	$4, %xmm0
	pandn	%xmm0, %xmm8
	por	%xmm7, %xmm8
	movdqa	%xmm6, %xmm0
	pmaxub	%xmm4, %xmm0
	movdqa	%xmm0, %xmm9
	pminub	%xmm5, %xmm9
	pcmpeqb	%xmm0, %xmm9
	pand	.LCPI46_14(%rip), %xmm9
	por	%xmm8, %xmm9
	movdqa	%xmm2, %xmm0
	psllw	$2, %xmm0
	pand	.LCPI46_15(%rip), %xmm0
	movdqa	%xmm1, %xmm8
	psrlw	$4, %xmm8
	pand	.LCPI46_16(%rip), %xmm8
	movdqa	.LCPI46_17(%rip), %xmm7
	pminub	%xmm0, %xmm7
	pcmpeqb	%xmm0, %xmm7
	paddb	%xmm4, %xmm7
	paddb	.LCPI46_18(%rip), %xmm7
	por	%xmm0, %xmm8
	paddb	%xmm3, %xmm8
	movdqa	.LCPI46_3(%rip), %xmm0
	pminub	%xmm4, %xmm0
	pcmpeqb	%xmm4, %xmm0
	pblendvb	%xmm0, %xmm9, %xmm7
	movdqa	.LCPI46_19(%rip), %xmm4
	pand	%xmm1, %xmm4
	psllw	$6, %xmm6
	pand	%xmm3, %xmm6
	paddb	%xmm4, %xmm6
	pblendvb	%xmm0, %xmm6, %xmm8
	movdqa	%xmm7, %xmm0
	punpckhbw	%xmm8, %xmm0
	punpcklbw	%xmm8, %xmm7
	pminub	%xmm1, %xmm5
	pcmpeqb	%xmm1, %xmm5
	movdqa	.LCPI46_2(%rip), %xmm1
	pminub	%xmm2, %xmm1
	pcmpeqb	%xmm2, %xmm1
	pand	%xmm5, %xmm1
	pmovmskb	%xmm1, %eax
	movzbl	%al, %ecx
	popcntl	%ecx, %r8d
	shll	$4, %ecx
	leaq	.Lstatic.10(%rip), %r10
	movdqu	(%rcx,%r10), %xmm1
	pshufb	%xmm1, %xmm7
	movdqu	%xmm7, (%rdx)
	shrl	$8, %eax
	popcntl	%eax, %r9d
	shll	$4, %eax
	movdqu	(%rax,%r10), %xmm1
	pshufb	%xmm1, %xmm0
	movdqu	%xmm0, (%rdx,%r8,2)
	addl	%r8d, %r9d
	addl	%r9d, %r9d
	movq	%rsi, %rax
	cmpq	$31, %rsi
	jbe	.LBB46_45
	jmp	.LBB46_32
	.p2align	4
.LBB46_43:
	leal	67043328(%rcx), %r11d
	shrl	$10, %r11d
	addl	$-10240, %r11d
	rolw	$8, %r11w
	andl	$1023, %ecx
	orl	$56320, %ecx
	rolw	$8, %cx
	movw	%cx, 2(%rdx,%r9)
	movl	$4, %r10d
	movl	%r11d, %ecx
.LBB46_44:
	movw	%cx, (%rdx,%r9)
	addq	%r10, %r9
	addq	%r8, %rax
.LBB46_45:
	cmpq	%rsi, %rax
	jae	.LBB46_32
	movzbl	(%rdi,%rax), %ecx
	testb	%cl, %cl
	js	.LBB46_51
	movl	$1, %r8d
.LBB46_48:
	movq	%rbx, %r10
	subq	%r9, %r10
	xorl	%r11d, %r11d
	cmpl	$65536, %ecx
	setae	%r11b
	leaq	2(,%r11,2), %r11
	cmpq	%r11, %r10
	jb	.LBB46_32
	cmpl	$65535, %ecx
	ja	.LBB46_43
	rolw	$8, %cx
	movl	$2, %r10d
	jmp	.LBB46_44
	.p2align	4
.LBB46_51:
	movq	%rsi, %r10
	subq	%rax, %r10
	cmpq	$3, %r10
	jb	.LBB46_55
	leal	31(%rcx), %r8d
	cmpb	$11, %r8b
	ja	.LBB46_56
	movzbl	1(%rdi,%rax), %r8d
	cmpb	$-65, %r8b
	jg	.LBB46_56
	movzbl	2(%rdi,%rax), %r11d
	cmpb	$-65, %r11b
	jg	.LBB46_56
	jmp	.LBB46_61
.LBB46_55:
	cmpq	$2, %r10
	jne	.LBB46_32
.LBB46_56:
	movzbl	1(%rdi,%rax), %r8d
	movl	%ecx, %r11d
	shrb	$4, %r11b
	andb	$12, %r11b
	movl	%r8d, %ebp
	shrb	$6, %bpl
	orb	%r11b, %bpl
	cmpb	$14, %bpl
	jne	.LBB46_32
	leal	31(%rcx), %r11d
	cmpb	$12, %r11b
	jae	.LBB46_62
.LBB46_58:
	cmpq	$2, %r10
	je	.LBB46_32
	movzbl	2(%rdi,%rax), %r11d
	cmpb	$-65, %r11b
	jg	.LBB46_32
	cmpb	$-17, %cl
	ja	.LBB46_66
.LBB46_61:
	shll	$12, %ecx
	shll	$6, %r8d
	addl	%ecx, %r8d
	leal	(%r11,%r8), %ecx
	addl	$-925824, %ecx
	movl	$3, %r8d
	jmp	.LBB46_48
.LBB46_62:
	leal	62(%rcx), %r11d
	cmpb	$30, %r11b
	jb	.LBB46_77
	movb	$-65, %bpl
	leal	-224(%rcx), %r14d
	cmpl	$20, %r14d
	ja	.LBB46_72
	leaq	.LJTI46_0(%rip), %r15
	movslq	(%r15,%r14,4), %r14
	addq	%r15, %r14
	notrack jmpq	*%r14
.LBB46_65:
	movb	$-96, %r14b
	jmp	.LBB46_73
.LBB46_66:
	cmpq	$4, %r10
	jb	.LBB46_32
	movzbl	3(%rdi,%rax), %r10d
	cmpb	$-65, %r10b
	jg	.LBB46_32
	shll	$18, %ecx
	shll	$12, %r8d
	addl	%ecx, %r8d
	shll	$6, %r11d
	addl	%r8d, %r11d
	leal	(%r10,%r11), %ecx
	addl	$-63447168, %ecx
	movl	$4, %r8d
	jmp	.LBB46_48
.LBB46_69:
	movb	$-112, %r14b
	jmp	.LBB46_73
.LBB46_70:
	movb	$-97, %bpl
	jmp	.LBB46_72
.LBB46_71:
	movb	$-113, %bpl
.LBB46_72:
	movb	$-128, %r14b
.LBB46_73:
	cmpb	$50, %r11b
	ja	.LBB46_32
	cmpb	%r8b, %r14b
	ja	.LBB46_32
	cmpb	%bpl, %r8b
	ja	.LBB46_32
	cmpb	$-33, %cl
	ja	.LBB46_58
.LBB46_77:
	shll	$6, %ecx
	addl	%r8d, %ecx
	addl	$-12416, %ecx
	movl	$2, %r8d
	jmp	.LBB46_48
.LBB46_36:
	movl	$2, %eax
	jmp	.LBB46_84
.LBB46_37:
	pxor	%xmm2, %xmm2
	punpckhbw	%xmm1, %xmm2
	punpcklbw	%xmm1, %xmm0
	movdqu	%xmm0, -32(%rdx,%rcx,2)
	movdqu	%xmm2, -16(%rdx,%rcx,2)
	movq	%rcx, %rax
	leaq	(%rax,%rax), %r9
	movq	%rsi, %rcx
	subq	%rax, %rcx
	je	.LBB46_31
	jmp	.LBB46_38
.LBB46_78:
	movl	$3, %eax
	jmp	.LBB46_84
.LBB46_79:
	movl	$4, %eax
	jmp	.LBB46_84
.LBB46_80:
	movl	$5, %eax
	jmp	.LBB46_84
.LBB46_81:
	movl	$6, %eax
	jmp	.LBB46_84
	.p2align	4
.LBB46_82:
	leal	67043328(%rcx), %r11d
	shrl	$10, %r11d
	addl	$-10240, %r11d
	rolw	$8, %r11w
	andl	$1023, %ecx
	orl	$56320, %ecx
	rolw	$8, %cx
	movw	%cx, 2(%rdx,%r9)
	movl	$4, %r10d
	movl	%r11d, %ecx
.LBB46_83:
	movw	%cx, (%rdx,%r9)
	addq	%r10, %r9
	addq	%r8, %rax
.LBB46_84:
	cmpq	%rsi, %rax
	jae	.LBB46_32
	movzbl	(%rdi,%rax), %ecx
	testb	%cl, %cl
	js	.LBB46_90
	movl	$1, %r8d
.LBB46_87:
	movq	%rbx, %r10
	subq	%r9, %r10
	xorl	%r11d, %r11d
	cmpl	$65536, %ecx
	setae	%r11b
	leaq	2(,%r11,2), %r11
	cmpq	%r11, %r10
	jb	.LBB46_32
	cmpl	$65535, %ecx
	ja	.LBB46_82
	rolw	$8, %cx
	movl	$2, %r10d
	jmp	.LBB46_83
	.p2align	4
.LBB46_90:
	movq	%rsi, %r10
	subq	%rax, %r10
	cmpq	$3, %r10
	jb	.LBB46_94
	leal	31(%rcx), %r8d
	cmpb	$11, %r8b
	ja	.LBB46_95
	movzbl	1(%rdi,%rax), %r8d
	cmpb	$-65, %r8b
	jg	.LBB46_95
	movzbl	2(%rdi,%rax), %r11d
	cmpb	$-65, %r11b
	jg	.LBB46_95
	jmp	.LBB46_100
.LBB46_94:
	cmpq	$2, %r10
	jne	.LBB46_32
.LBB46_95:
	movzbl	1(%rdi,%rax), %r8d
	movl	%ecx, %r11d
	shrb	$4, %r11b
	andb	$12, %r11b
	movl	%r8d, %ebp
	shrb	$6, %bpl
	orb	%r11b, %bpl
	cmpb	$14, %bpl
	jne	.LBB46_32
	leal	31(%rcx), %r11d
	cmpb	$12, %r11b
	jae	.LBB46_101
.LBB46_97:
	cmpq	$2, %r10
	je	.LBB46_32
	movzbl	2(%rdi,%rax), %r11d
	cmpb	$-65, %r11b
	jg	.LBB46_32
	cmpb	$-17, %cl
	ja	.LBB46_105
.LBB46_100:
	shll	$12, %ecx
	shll	$6, %r8d
	addl	%ecx, %r8d
	leal	(%r11,%r8), %ecx
	addl	$-925824, %ecx
	movl	$3, %r8d
	jmp	.LBB46_87
.LBB46_101:
	leal	62(%rcx), %r11d
	cmpb	$30, %r11b
	jb	.LBB46_116
	movb	$-65, %bpl
	leal	-224(%rcx), %r14d
	cmpl	$20, %r14d
	ja	.LBB46_111
	leaq	.LJTI46_1(%rip), %r15
	movslq	(%r15,%r14,4), %r14
	addq	%r15, %r14
	notrack jmpq	*%r14
.LBB46_104:
	movb	$-96, %r14b
	jmp	.LBB46_112
.LBB46_105:
	cmpq	$4, %r10
	jb	.LBB46_32
	movzbl	3(%rdi,%rax), %r10d
	cmpb	$-65, %r10b
	jg	.LBB46_32
	shll	$18, %ecx
	shll	$12, %r8d
	addl	%ecx, %r8d
	shll	$6, %r11d
	addl	%r8d, %r11d
	leal	(%r10,%r11), %ecx
	addl	$-63447168, %ecx
	movl	$4, %r8d
	jmp	.LBB46_87
.LBB46_108:
	movb	$-112, %r14b
	jmp	.LBB46_112
.LBB46_109:
	movb	$-97, %bpl
	jmp	.LBB46_111
.LBB46_110:
	movb	$-113, %bpl
.LBB46_111:
	movb	$-128, %r14b
.LBB46_112:
	cmpb	$50, %r11b
	ja	.LBB46_32
	cmpb	%r8b, %r14b
	ja	.LBB46_32
	cmpb	%bpl, %r8b
	ja	.LBB46_32
	cmpb	$-33, %cl
	ja	.LBB46_97
.LBB46_116:
	shll	$6, %ecx
	addl	%r8d, %ecx
	addl	$-12416, %ecx
	movl	$2, %r8d
	jmp	.LBB46_87
.Lfunc_end46:
	.size	"utf16_transcode::encode::FromUtf8Direction::begin::<#8b18edd9dd9aa8df>", .Lfunc_end46-"utf16_transcode::encode::FromUtf8Direction::begin::<#8b18edd9dd9aa8df>"
	.cfi_endproc
	.section	".rodata.utf16_transcode::encode::FromUtf8Direction::begin::<#8b18edd9dd9aa8df>","a",@progbits
	.p2align	2, 0x0
.LJTI46_0:
	.long	.LBB46_65-.LJTI46_0
	.long	.LBB46_72-.LJTI46_0
	.long	.LBB46_72-.LJTI46_0
	.long	.LBB46_72-.LJTI46_0
	.long	.LBB46_72-.LJTI46_0
	.long	.LBB46_72-.LJTI46_0
	.long	.LBB46_72-.LJTI46_0
	.long	.LBB46_72-.LJTI46_0
	.long	.LBB46_72-.LJTI46_0
	.long	.LBB46_72-.LJTI46_0
	.long	.LBB46_72-.LJTI46_0
	.long	.LBB46_72-.LJTI46_0
	.long	.LBB46_72-.LJTI46_0
	.long	.LBB46_70-.LJTI46_0
	.long	.LBB46_72-.LJTI46_0
	.long	.LBB46_72-.LJTI46_0
	.long	.LBB46_69-.LJTI46_0
	.long	.LBB46_72-.LJTI46_0
	.long	.LBB46_72-.LJTI46_0
	.long	.LBB46_72-.LJTI46_0
	.long	.LBB46_71-.LJTI46_0
.LJTI46_1:
	.long	.LBB46_104-.LJTI46_1
	.long	.LBB46_111-.LJTI46_1
	.long	.LBB46_111-.LJTI46_1
	.long	.LBB46_111-.LJTI46_1
	.long	.LBB46_111-.LJTI46_1
	.long	.LBB46_111-.LJTI46_1
	.long	.LBB46_111-.LJTI46_1
	.long	.LBB46_111-.LJTI46_1
	.long	.LBB46_111-.LJTI46_1
	.long	.LBB46_111-.LJTI46_1
	.long	.LBB46_111-.LJTI46_1
	.long	.LBB46_111-.LJTI46_1
	.long	.LBB46_111-.LJTI46_1
	.long	.LBB46_109-.LJTI46_1
	.long	.LBB46_111-.LJTI46_1
	.long	.LBB46_111-.LJTI46_1
	.long	.LBB46_108-.LJTI46_1
	.long	.LBB46_111-.LJTI46_1
	.long	.LBB46_111-.LJTI46_1
	.long	.LBB46_111-.LJTI46_1
	.long	.LBB46_110-.LJTI46_1

	.section	".text.utf16_from_utf8::ascii::write_front::<#8b18edd9dd9aa8df>","ax",@progbits
	.p2align	4
	.type	"utf16_from_utf8::ascii::write_front::<#8b18edd9dd9aa8df>",@function
"utf16_from_utf8::ascii::write_front::<#8b18edd9dd9aa8df>":
	.cfi_startproc
	xorl	%eax, %eax
	cmpq	$64, %rsi
	jb	.LBB47_4
	movq	%rsi, %rcx
	.p2align	4
.LBB47_2:
	movdqu	(%rdi,%rax), %xmm3
	movdqu	16(%rdi,%rax), %xmm2
	movdqu	32(%rdi,%rax), %xmm1
	movdqu	48(%rdi,%rax), %xmm0
	movdqa	%xmm3, %xmm4
	por	%xmm2, %xmm4
	movdqa	%xmm1, %xmm5
	por	%xmm0, %xmm5
	por	%xmm4, %xmm5
	pmovmskb	%xmm5, %r8d
	testl	%r8d, %r8d
	jne	.LBB47_4
	pxor	%xmm4, %xmm4
	pxor	%xmm5, %xmm5
	punpckhbw	%xmm3, %xmm5
	pxor	%xmm6, %xmm6
	punpcklbw	%xmm3, %xmm6
	movdqu	%xmm6, (%rdx,%rax,2)
	movdqu	%xmm5, 16(%rdx,%rax,2)
	pxor	%xmm3, %xmm3
	punpckhbw	%xmm2, %xmm3
	pxor	%xmm5, %xmm5
	punpcklbw	%xmm2, %xmm5
	movdqu	%xmm5, 32(%rdx,%rax,2)
	movdqu	%xmm3, 48(%rdx,%rax,2)
	pxor	%xmm2, %xmm2
	punpckhbw	%xmm1, %xmm2
	pxor	%xmm3, %xmm3
	punpcklbw	%xmm1, %xmm3
	movdqu	%xmm3, 64(%rdx,%rax,2)
	movdqu	%xmm2, 80(%rdx,%rax,2)
	pxor	%xmm1, %xmm1
	punpckhbw	%xmm0, %xmm1
	punpcklbw	%xmm0, %xmm4
	movdqu	%xmm4, 96(%rdx,%rax,2)
	movdqu	%xmm1, 112(%rdx,%rax,2)
	addq	$64, %rax
	addq	$-64, %rcx
	cmpq	$63, %rcx
	ja	.LBB47_2
.LBB47_4:
	movq	%rsi, %rcx
	subq	%rax, %rcx
	cmpq	$16, %rcx
	jb	.LBB47_7
	.p2align	4
.LBB47_5:
	movdqu	(%rdi,%rax), %xmm0
	pmovmskb	%xmm0, %r8d
	testl	%r8d, %r8d
	jne	.LBB47_9
	pxor	%xmm1, %xmm1
	pxor	%xmm2, %xmm2
	punpckhbw	%xmm0, %xmm2
	punpcklbw	%xmm0, %xmm1
	movdqu	%xmm1, (%rdx,%rax,2)
	movdqu	%xmm2, 16(%rdx,%rax,2)
	addq	$16, %rax
	addq	$-16, %rcx
	cmpq	$15, %rcx
	ja	.LBB47_5
.LBB47_7:
	movdqu	-16(%rsi,%rdi), %xmm0
	pmovmskb	%xmm0, %ecx
	testl	%ecx, %ecx
	je	.LBB47_8
.LBB47_9:
	retq
.LBB47_8:
	pxor	%xmm1, %xmm1
	pxor	%xmm2, %xmm2
	punpckhbw	%xmm0, %xmm2
	punpcklbw	%xmm0, %xmm1
	movdqu	%xmm1, -32(%rdx,%rsi,2)
	movdqu	%xmm2, -16(%rdx,%rsi,2)
	movq	%rsi, %rax
	retq
.Lfunc_end47:
	.size	"utf16_from_utf8::ascii::write_front::<#8b18edd9dd9aa8df>", .Lfunc_end47-"utf16_from_utf8::ascii::write_front::<#8b18edd9dd9aa8df>"
	.cfi_endproc

	.section	.rodata.cst16,"aM",@progbits,16
	.p2align	4, 0x0
.LCPI48_0:
	.zero	16,224
.LCPI48_1:
	.zero	1
	.byte	255
	.byte	0
	.zero	1
	.byte	255
	.byte	0
	.zero	1
	.byte	255
	.byte	0
	.zero	1
	.byte	255
	.byte	0
	.zero	1
	.byte	255
	.byte	0
	.zero	1
.LCPI48_2:
	.byte	0
	.byte	3
	.byte	6
	.byte	9
	.byte	12
	.byte	15
	.byte	128
	.byte	128
	.byte	128
	.byte	128
	.byte	128
	.byte	128
	.byte	128
	.byte	128
	.byte	128
	.byte	128
.LCPI48_3:
	.byte	128
	.byte	128
	.byte	128
	.byte	128
	.byte	128
	.byte	128
	.byte	2
	.byte	5
	.byte	8
	.byte	11
	.byte	14
	.byte	1
	.byte	4
	.byte	7
	.byte	10
	.byte	13
.LCPI48_4:
	.byte	255
	.zero	1
	.byte	0
	.byte	255
	.zero	1
	.byte	0
	.byte	255
	.zero	1
	.byte	0
	.byte	255
	.zero	1
	.byte	0
	.byte	255
	.zero	1
	.byte	0
	.byte	255
.LCPI48_5:
	.byte	1
	.byte	4
	.byte	7
	.byte	10
	.byte	13
	.byte	128
	.byte	128
	.byte	128
	.byte	128
	.byte	128
	.byte	128
	.byte	128
	.byte	128
	.byte	128
	.byte	128
	.byte	128
.LCPI48_6:
	.byte	128
	.byte	128
	.byte	128
	.byte	128
	.byte	128
	.byte	0
	.byte	3
	.byte	6
	.byte	9
	.byte	12
	.byte	15
	.byte	2
	.byte	5
	.byte	8
	.byte	11
	.byte	14
.LCPI48_7:
	.byte	255
	.byte	0
	.zero	1
	.byte	255
	.byte	0
	.zero	1
	.byte	255
	.byte	0
	.zero	1
	.byte	255
	.byte	0
	.zero	1
	.byte	255
	.byte	0
	.zero	1
	.byte	255
.LCPI48_8:
	.byte	2
	.byte	5
	.byte	8
	.byte	11
	.byte	14
	.byte	128
	.byte	128
	.byte	128
	.byte	128
	.byte	128
	.byte	128
	.byte	128
	.byte	128
	.byte	128
	.byte	128
	.byte	128
.LCPI48_9:
	.byte	128
	.byte	128
	.byte	128
	.byte	128
	.byte	128
	.byte	1
	.byte	4
	.byte	7
	.byte	10
	.byte	13
	.byte	0
	.byte	3
	.byte	6
	.byte	9
	.byte	12
	.byte	15
.LCPI48_10:
	.zero	16,240
.LCPI48_11:
	.zero	16,32
.LCPI48_12:
	.zero	16,192
.LCPI48_13:
	.zero	16,128
.LCPI48_14:
	.zero	16,15
.LCPI48_15:
	.zero	16,7
.LCPI48_16:
	.zero	16,248
.LCPI48_17:
	.zero	16,216
.LCPI48_18:
	.zero	16,63
.LCPI48_19:
	.zero	16,191
.LCPI48_20:
	.zero	16,223
.LCPI48_21:
	.zero	16,239
.LCPI48_22:
	.zero	16,159
.LCPI48_23:
	.zero	16,237
.LCPI48_24:
	.zero	16,143
.LCPI48_25:
	.zero	16,245
.LCPI48_26:
	.zero	16,244
.LCPI48_27:
	.zero	16,254
.LCPI48_28:
	.zero	16,220
.LCPI48_29:
	.zero	16,252
.LCPI48_30:
	.zero	16,232
.LCPI48_31:
	.zero	16,127
.LCPI48_32:
	.zero	16
	.section	".text.utf16_from_utf8::blocks::write_mixed_blocks::<#8b18edd9dd9aa8df>","ax",@progbits
	.p2align	4
	.type	"utf16_from_utf8::blocks::write_mixed_blocks::<#8b18edd9dd9aa8df>",@function
"utf16_from_utf8::blocks::write_mixed_blocks::<#8b18edd9dd9aa8df>":
	.cfi_startproc
	pushq	%rbp
	.cfi_def_cfa_offset 16
	pushq	%r15
	.cfi_def_cfa_offset 24
	pushq	%r14
	.cfi_def_cfa_offset 32
	pushq	%r13
	.cfi_def_cfa_offset 40
	pushq	%r12
	.cfi_def_cfa_offset 48
	pushq	%rbx
	.cfi_def_cfa_offset 56
	subq	$56, %rsp
	.cfi_def_cfa_offset 112
	.cfi_offset %rbx, -56
	.cfi_offset %r12, -48
	.cfi_offset %r13, -40
	.cfi_offset %r14, -32
	.cfi_offset %r15, -24
	.cfi_offset %rbp, -16
	movq	%r9, %rbx
	movq	%r8, %rax
	movq	%rcx, %r15
	movq	%rdx, %r12
	movq	%rsi, %r13
	movq	%rdi, %rbp
	jmp	.LBB48_1
	.p2align	4
.LBB48_4:
	shrq	%rsi
	cmpq	%rax, %rsi
	cmovaeq	%rax, %rsi
	leaq	(%r12,%rbx), %rdx
	callq	"utf16_from_utf8::ascii::write_front::<#8b18edd9dd9aa8df>"
	leaq	(%rbx,%rax,2), %rbx
	addq	%r14, %rax
.LBB48_27:
	cmpq	%r14, %rax
	je	.LBB48_28
.LBB48_1:
	movq	%rax, %r14
	movq	%r13, %rax
	subq	%r14, %rax
	cmpq	$64, %rax
	jb	.LBB48_28
	movq	%r15, %rsi
	subq	%rbx, %rsi
	cmpq	$128, %rsi
	jb	.LBB48_28
	leaq	(%r14,%rbp), %rdi
	movdqu	(%rbp,%r14), %xmm4
	movdqu	16(%rbp,%r14), %xmm2
	movdqu	32(%rbp,%r14), %xmm6
	movdqu	48(%rbp,%r14), %xmm3
	movdqa	%xmm4, %xmm0
	pmaxub	%xmm2, %xmm0
	movdqa	%xmm6, %xmm1
	pmaxub	%xmm3, %xmm1
	pmaxub	%xmm0, %xmm1
	pmovmskb	%xmm1, %ecx
	testl	%ecx, %ecx
	je	.LBB48_4
	movdqa	.LCPI48_0(%rip), %xmm0
	pmaxub	%xmm1, %xmm0
	pcmpeqb	%xmm1, %xmm0
	pmovmskb	%xmm0, %eax
	testl	%eax, %eax
	je	.LBB48_6
	movd	%xmm4, %eax
	andb	$-16, %al
	cmpb	$-32, %al
	jne	.LBB48_9
	leaq	-32(%r15), %rcx
	subq	%rbx, %rcx
	leaq	-48(%r13), %rdx
	subq	%r14, %rdx
	movq	%r14, %rax
	.p2align	4
.LBB48_11:
	movdqu	16(%rbp,%rax), %xmm2
	movdqu	32(%rbp,%rax), %xmm6
	movaps	.LCPI48_1(%rip), %xmm0
	movdqa	%xmm2, %xmm4
	pblendvb	%xmm0, %xmm6, %xmm4
	movdqu	(%rbp,%rax), %xmm5
	movdqa	%xmm5, %xmm7
	pshufb	.LCPI48_2(%rip), %xmm7
	pshufb	.LCPI48_3(%rip), %xmm4
	movaps	.LCPI48_4(%rip), %xmm0
	movdqa	%xmm6, %xmm3
	pblendvb	%xmm0, %xmm2, %xmm3
	movdqa	%xmm5, %xmm0
	pshufb	.LCPI48_5(%rip), %xmm0
	por	%xmm7, %xmm4
	pshufb	.LCPI48_6(%rip), %xmm3
	por	%xmm0, %xmm3
	movaps	.LCPI48_7(%rip), %xmm0
	pblendvb	%xmm0, %xmm6, %xmm2
	pshufb	.LCPI48_8(%rip), %xmm5
	pshufb	.LCPI48_9(%rip), %xmm2
	movdqa	.LCPI48_10(%rip), %xmm0
	pand	%xmm4, %xmm0
	paddb	.LCPI48_11(%rip), %xmm0
	por	%xmm5, %xmm2
	movdqa	.LCPI48_12(%rip), %xmm5
	movdqa	%xmm3, %xmm6
	pand	%xmm5, %xmm6
	movdqa	.LCPI48_13(%rip), %xmm7
	pxor	%xmm7, %xmm6
	pmaxub	%xmm0, %xmm6
	pand	%xmm2, %xmm5
	pxor	%xmm7, %xmm5
	por	%xmm6, %xmm5
	ptest	%xmm5, %xmm5
	jne	.LBB48_15
	psllw	$4, %xmm4
	pand	.LCPI48_10(%rip), %xmm4
	movdqa	%xmm3, %xmm0
	psrlw	$2, %xmm0
	pand	.LCPI48_14(%rip), %xmm0
	por	%xmm4, %xmm0
	movdqa	.LCPI48_15(%rip), %xmm4
	pminub	%xmm0, %xmm4
	movdqa	.LCPI48_16(%rip), %xmm5
	pand	%xmm0, %xmm5
	pcmpeqb	.LCPI48_17(%rip), %xmm5
	pcmpeqb	%xmm0, %xmm4
	por	%xmm4, %xmm5
	pmovmskb	%xmm5, %esi
	testl	%esi, %esi
	jne	.LBB48_15
	psllw	$6, %xmm3
	pand	.LCPI48_12(%rip), %xmm3
	pand	.LCPI48_18(%rip), %xmm2
	por	%xmm3, %xmm2
	movdqa	%xmm0, %xmm3
	punpckhbw	%xmm2, %xmm3
	punpcklbw	%xmm2, %xmm0
	movdqu	%xmm0, (%r12,%rbx)
	movdqu	%xmm3, 16(%r12,%rbx)
	addq	$32, %rbx
	addq	$48, %rax
	subq	$32, %rcx
	setb	%sil
	subq	$48, %rdx
	jb	.LBB48_15
	testb	%sil, %sil
	je	.LBB48_11
	jmp	.LBB48_15
	.p2align	4
.LBB48_6:
	movdqa	%xmm4, %xmm5
	pslldq	$1, %xmm5
	movdqa	.LCPI48_12(%rip), %xmm0
	movdqa	%xmm0, %xmm1
	pcmpgtb	%xmm4, %xmm1
	movdqa	%xmm5, %xmm7
	pmaxub	%xmm0, %xmm7
	pcmpeqb	%xmm5, %xmm7
	pxor	%xmm1, %xmm7
	movdqa	.LCPI48_27(%rip), %xmm1
	movdqa	%xmm4, %xmm8
	pand	%xmm1, %xmm8
	pcmpeqb	%xmm0, %xmm8
	por	%xmm7, %xmm8
	movdqa	%xmm0, %xmm9
	pcmpgtb	%xmm2, %xmm9
	movdqu	15(%rdi), %xmm10
	movdqu	31(%rdi), %xmm11
	movdqu	47(%rdi), %xmm7
	movdqa	%xmm10, %xmm12
	pmaxub	%xmm0, %xmm12
	pcmpeqb	%xmm10, %xmm12
	pxor	%xmm9, %xmm12
	pand	%xmm1, %xmm2
	pcmpeqb	%xmm0, %xmm2
	por	%xmm12, %xmm2
	por	%xmm8, %xmm2
	movdqa	%xmm0, %xmm8
	pcmpgtb	%xmm6, %xmm8
	movdqa	%xmm11, %xmm9
	pmaxub	%xmm0, %xmm9
	pcmpeqb	%xmm11, %xmm9
	pxor	%xmm8, %xmm9
	pand	%xmm1, %xmm6
	pcmpeqb	%xmm0, %xmm6
	por	%xmm9, %xmm6
	movdqa	%xmm0, %xmm8
	pcmpgtb	%xmm3, %xmm8
	movdqa	%xmm7, %xmm9
	pmaxub	%xmm0, %xmm9
	pcmpeqb	%xmm7, %xmm9
	pxor	%xmm8, %xmm9
	pand	%xmm1, %xmm3
	pcmpeqb	%xmm0, %xmm3
	por	%xmm9, %xmm3
	por	%xmm6, %xmm3
	por	%xmm2, %xmm3
	pmovmskb	%xmm3, %eax
	testl	%eax, %eax
	jne	.LBB48_28
	psubusb	%xmm0, %xmm5
	movdqa	.LCPI48_19(%rip), %xmm1
	movdqa	%xmm5, %xmm6
	psrlw	$2, %xmm6
	movdqa	.LCPI48_18(%rip), %xmm3
	pand	%xmm3, %xmm6
	movdqa	.LCPI48_31(%rip), %xmm2
	movdqa	%xmm4, %xmm7
	pand	%xmm2, %xmm7
	psllw	$6, %xmm5
	pand	%xmm0, %xmm5
	paddb	%xmm7, %xmm5
	movdqa	%xmm4, %xmm7
	pminub	%xmm1, %xmm7
	pcmpeqb	%xmm4, %xmm7
	pmovmskb	%xmm7, %edx
	movdqa	%xmm6, %xmm4
	punpckhbw	%xmm5, %xmm4
	punpcklbw	%xmm5, %xmm6
	movzbl	%dl, %ecx
	popcntl	%ecx, %r8d
	shll	$4, %ecx
	leaq	.Lstatic.10(%rip), %rax
	movdqu	(%rcx,%rax), %xmm5
	pshufb	%xmm5, %xmm6
	leaq	(%r12,%rbx), %rcx
	movdqu	%xmm6, (%r12,%rbx)
	shrl	$8, %edx
	popcntl	%edx, %esi
	shll	$4, %edx
	movdqu	(%rdx,%rax), %xmm5
	pshufb	%xmm5, %xmm4
	movdqu	%xmm4, (%rcx,%r8,2)
	addq	%r8, %rsi
	movdqu	15(%rdi), %xmm5
	movdqu	16(%rdi), %xmm6
	psubusb	%xmm0, %xmm5
	movdqa	%xmm5, %xmm4
	psrlw	$2, %xmm4
	pand	%xmm3, %xmm4
	movdqa	%xmm6, %xmm7
	pminub	%xmm1, %xmm7
	pcmpeqb	%xmm6, %xmm7
	pand	%xmm2, %xmm6
	psllw	$6, %xmm5
	pand	%xmm0, %xmm5
	paddb	%xmm6, %xmm5
	pmovmskb	%xmm7, %r8d
	movdqa	%xmm4, %xmm6
	punpckhbw	%xmm5, %xmm6
	punpcklbw	%xmm5, %xmm4
	movzbl	%r8b, %edx
	popcntl	%edx, %r9d
	shll	$4, %edx
	movdqu	(%rdx,%rax), %xmm5
	pshufb	%xmm5, %xmm4
	leaq	(%rcx,%rsi,2), %r10
	movdqu	%xmm4, (%rcx,%rsi,2)
	shrl	$8, %r8d
	xorl	%edx, %edx
	popcntl	%r8d, %edx
	shll	$4, %r8d
	movdqu	(%r8,%rax), %xmm4
	pshufb	%xmm4, %xmm6
	movdqu	%xmm6, (%r10,%r9,2)
	addq	%rsi, %rdx
	addq	%r9, %rdx
	movdqu	31(%rdi), %xmm5
	movdqu	32(%rdi), %xmm6
	psubusb	%xmm0, %xmm5
	movdqa	%xmm5, %xmm4
	psrlw	$2, %xmm4
	pand	%xmm3, %xmm4
	movdqa	%xmm6, %xmm7
	pminub	%xmm1, %xmm7
	pcmpeqb	%xmm6, %xmm7
	pand	%xmm2, %xmm6
	psllw	$6, %xmm5
	pand	%xmm0, %xmm5
	paddb	%xmm6, %xmm5
	pmovmskb	%xmm7, %r8d
	movdqa	%xmm4, %xmm6
	punpckhbw	%xmm5, %xmm6
	punpcklbw	%xmm5, %xmm4
	movzbl	%r8b, %esi
	xorl	%r9d, %r9d
	popcntl	%esi, %r9d
	shll	$4, %esi
	movdqu	(%rsi,%rax), %xmm5
	pshufb	%xmm5, %xmm4
	leaq	(%rcx,%rdx,2), %r10
	movdqu	%xmm4, (%rcx,%rdx,2)
	shrl	$8, %r8d
	xorl	%esi, %esi
	popcntl	%r8d, %esi
	shll	$4, %r8d
	movdqu	(%r8,%rax), %xmm4
	pshufb	%xmm4, %xmm6
	movdqu	%xmm6, (%r10,%r9,2)
	addq	%r9, %rsi
	addq	%rdx, %rsi
	movdqu	47(%rdi), %xmm4
	movdqu	48(%rdi), %xmm5
	psubusb	%xmm0, %xmm4
	movdqa	%xmm4, %xmm6
	psrlw	$2, %xmm6
	pand	%xmm3, %xmm6
	pand	%xmm5, %xmm2
	psllw	$6, %xmm4
	pand	%xmm0, %xmm4
	paddb	%xmm2, %xmm4
	pminub	%xmm5, %xmm1
	pcmpeqb	%xmm5, %xmm1
	pmovmskb	%xmm1, %edx
	movdqa	%xmm6, %xmm0
	punpckhbw	%xmm4, %xmm0
	punpcklbw	%xmm4, %xmm6
	movzbl	%dl, %r8d
	xorl	%r9d, %r9d
	popcntl	%r8d, %r9d
	shll	$4, %r8d
	movdqu	(%r8,%rax), %xmm1
	pshufb	%xmm1, %xmm6
	leaq	(%rcx,%rsi,2), %r8
	movdqu	%xmm6, (%rcx,%rsi,2)
	shrl	$8, %edx
	popcntl	%edx, %ecx
	shll	$4, %edx
	movdqu	(%rdx,%rax), %xmm1
	pshufb	%xmm1, %xmm0
	movdqu	%xmm0, (%r8,%r9,2)
	addq	%r9, %rcx
	addq	%rsi, %rcx
	leaq	(%rbx,%rcx,2), %rbx
	cmpb	$-64, 63(%rdi)
	movq	%r14, %rax
	adcq	$-1, %rax
	addq	$64, %rax
	jmp	.LBB48_27
.LBB48_9:
	movq	%r14, %rax
.LBB48_15:
	cmpq	%rax, %r14
	jb	.LBB48_27
	movdqa	.LCPI48_10(%rip), %xmm0
	pmaxub	%xmm1, %xmm0
	pcmpeqb	%xmm1, %xmm0
	pmovmskb	%xmm0, %ecx
	movdqu	(%rbp,%rax), %xmm9
	movdqa	%xmm9, %xmm8
	pslldq	$1, %xmm8
	movdqa	%xmm9, %xmm10
	pslldq	$2, %xmm10
	testl	%ecx, %ecx
	je	.LBB48_17
	movdqa	%xmm10, %xmm1
	pslldq	$1, %xmm1
	movdqa	.LCPI48_12(%rip), %xmm2
	movdqa	%xmm2, %xmm0
	movdqa	%xmm2, %xmm11
	pcmpgtb	%xmm9, %xmm0
	movdqa	%xmm8, %xmm2
	psubusb	.LCPI48_19(%rip), %xmm2
	movdqa	%xmm10, 16(%rsp)
	movdqa	%xmm10, %xmm3
	psubusb	.LCPI48_20(%rip), %xmm3
	pmaxub	%xmm2, %xmm3
	psubusb	.LCPI48_21(%rip), %xmm1
	por	%xmm3, %xmm1
	pxor	%xmm2, %xmm2
	pcmpgtb	%xmm2, %xmm1
	pxor	%xmm0, %xmm1
	movdqa	.LCPI48_22(%rip), %xmm3
	movdqa	%xmm9, %xmm0
	pminub	%xmm3, %xmm0
	pcmpeqb	%xmm9, %xmm0
	movdqa	.LCPI48_0(%rip), %xmm10
	movdqa	.LCPI48_23(%rip), %xmm6
	movdqa	%xmm6, %xmm2
	pblendvb	%xmm0, %xmm10, %xmm2
	pcmpeqb	%xmm8, %xmm2
	movdqa	.LCPI48_24(%rip), %xmm4
	movdqa	%xmm9, %xmm0
	pminub	%xmm4, %xmm0
	pcmpeqb	%xmm9, %xmm0
	movdqa	.LCPI48_25(%rip), %xmm14
	movdqa	.LCPI48_26(%rip), %xmm5
	movdqa	%xmm5, %xmm13
	pblendvb	%xmm0, .LCPI48_10(%rip), %xmm13
	movdqa	%xmm9, %xmm0
	pmaxub	%xmm14, %xmm0
	pcmpeqb	%xmm9, %xmm0
	movdqa	%xmm8, 32(%rsp)
	pcmpeqb	%xmm8, %xmm13
	por	%xmm2, %xmm13
	por	%xmm0, %xmm13
	movdqu	16(%rbp,%rax), %xmm15
	movdqa	%xmm15, %xmm0
	pminub	%xmm3, %xmm0
	pcmpeqb	%xmm15, %xmm0
	movdqa	%xmm6, %xmm12
	pblendvb	%xmm0, %xmm10, %xmm12
	movdqa	.LCPI48_27(%rip), %xmm8
	movdqa	%xmm9, (%rsp)
	movdqa	%xmm9, %xmm2
	pand	%xmm8, %xmm2
	movdqa	%xmm11, %xmm9
	pcmpeqb	%xmm11, %xmm2
	por	%xmm1, %xmm2
	movdqa	%xmm15, %xmm0
	pminub	%xmm4, %xmm0
	pcmpeqb	%xmm15, %xmm0
	movdqa	%xmm5, %xmm7
	movdqa	.LCPI48_10(%rip), %xmm11
	pblendvb	%xmm0, %xmm11, %xmm7
	por	%xmm13, %xmm2
	movdqu	15(%rbp,%rax), %xmm0
	pcmpeqb	%xmm0, %xmm12
	pcmpeqb	%xmm0, %xmm7
	movdqa	.LCPI48_19(%rip), %xmm13
	psubusb	%xmm13, %xmm0
	movdqu	14(%rbp,%rax), %xmm1
	movdqa	.LCPI48_20(%rip), %xmm10
	psubusb	%xmm10, %xmm1
	pmaxub	%xmm0, %xmm1
	movdqu	13(%rbp,%rax), %xmm0
	movdqa	.LCPI48_21(%rip), %xmm10
	psubusb	%xmm10, %xmm0
	por	%xmm1, %xmm0
	movdqa	%xmm9, %xmm1
	pcmpgtb	%xmm15, %xmm1
	pcmpgtb	.LCPI48_32(%rip), %xmm0
	pxor	%xmm1, %xmm0
	por	%xmm12, %xmm7
	movdqa	%xmm15, %xmm1
	pmaxub	%xmm14, %xmm1
	pcmpeqb	%xmm15, %xmm1
	por	%xmm1, %xmm7
	pand	%xmm8, %xmm15
	pcmpeqb	%xmm9, %xmm15
	por	%xmm0, %xmm15
	movdqu	32(%rbp,%rax), %xmm1
	movdqa	%xmm1, %xmm0
	pminub	%xmm3, %xmm0
	pcmpeqb	%xmm1, %xmm0
	movdqa	%xmm6, %xmm12
	pblendvb	%xmm0, .LCPI48_0(%rip), %xmm12
	por	%xmm7, %xmm15
	movdqa	%xmm1, %xmm0
	pminub	%xmm4, %xmm0
	pcmpeqb	%xmm1, %xmm0
	movdqa	%xmm5, %xmm7
	pblendvb	%xmm0, %xmm11, %xmm7
	por	%xmm2, %xmm15
	movdqu	31(%rbp,%rax), %xmm0
	pcmpeqb	%xmm0, %xmm12
	pcmpeqb	%xmm0, %xmm7
	psubusb	%xmm13, %xmm0
	movdqu	30(%rbp,%rax), %xmm2
	movdqa	.LCPI48_20(%rip), %xmm13
	psubusb	%xmm13, %xmm2
	pmaxub	%xmm0, %xmm2
	movdqu	29(%rbp,%rax), %xmm0
	psubusb	%xmm10, %xmm0
	movdqa	%xmm10, %xmm8
	por	%xmm2, %xmm0
	movdqa	%xmm9, %xmm2
	pcmpgtb	%xmm1, %xmm2
	pxor	%xmm10, %xmm10
	pcmpgtb	%xmm10, %xmm0
	pxor	%xmm11, %xmm11
	pxor	%xmm2, %xmm0
	por	%xmm12, %xmm7
	movdqa	%xmm1, %xmm2
	pmaxub	%xmm14, %xmm2
	pcmpeqb	%xmm1, %xmm2
	por	%xmm2, %xmm7
	movdqa	.LCPI48_27(%rip), %xmm10
	pand	%xmm10, %xmm1
	pcmpeqb	%xmm9, %xmm1
	por	%xmm0, %xmm1
	por	%xmm7, %xmm1
	movdqu	48(%rbp,%rax), %xmm2
	pminub	%xmm2, %xmm3
	pcmpeqb	%xmm2, %xmm3
	movdqa	%xmm3, %xmm0
	movdqa	.LCPI48_0(%rip), %xmm3
	movdqa	%xmm3, %xmm7
	pblendvb	%xmm0, %xmm3, %xmm6
	pminub	%xmm2, %xmm4
	pcmpeqb	%xmm2, %xmm4
	movdqa	%xmm4, %xmm0
	pblendvb	%xmm0, .LCPI48_10(%rip), %xmm5
	movdqu	46(%rbp,%rax), %xmm0
	movdqu	47(%rbp,%rax), %xmm3
	pcmpeqb	%xmm3, %xmm6
	pcmpeqb	%xmm3, %xmm5
	movdqa	.LCPI48_19(%rip), %xmm12
	psubusb	%xmm12, %xmm3
	psubusb	%xmm13, %xmm0
	pmaxub	%xmm3, %xmm0
	movdqu	45(%rbp,%rax), %xmm3
	psubusb	%xmm8, %xmm3
	por	%xmm0, %xmm3
	pcmpgtb	%xmm11, %xmm3
	movdqa	%xmm9, %xmm0
	pcmpgtb	%xmm2, %xmm0
	pxor	%xmm0, %xmm3
	por	%xmm6, %xmm5
	pmaxub	%xmm2, %xmm14
	pcmpeqb	%xmm2, %xmm14
	por	%xmm14, %xmm5
	pand	%xmm10, %xmm2
	pcmpeqb	%xmm9, %xmm2
	por	%xmm3, %xmm2
	por	%xmm5, %xmm2
	por	%xmm1, %xmm2
	por	%xmm15, %xmm2
	psllw	$7, %xmm2
	pmovmskb	%xmm2, %ecx
	testl	%ecx, %ecx
	jne	.LBB48_27
	movdqa	%xmm12, %xmm4
	movdqa	%xmm8, %xmm12
	movdqa	%xmm9, %xmm13
	movdqa	%xmm9, %xmm15
	movdqa	%xmm13, %xmm1
	movdqa	(%rsp), %xmm9
	movdqa	%xmm9, %xmm0
	movdqa	32(%rsp), %xmm8
	pblendvb	%xmm0, %xmm8, %xmm1
	movdqa	16(%rsp), %xmm10
	movdqa	%xmm10, %xmm0
	pmaxub	%xmm7, %xmm0
	movdqa	%xmm1, %xmm2
	psrlw	$2, %xmm2
	movdqa	.LCPI48_14(%rip), %xmm5
	pand	%xmm5, %xmm2
	psllw	$4, %xmm0
	movdqa	%xmm5, %xmm3
	pandn	%xmm0, %xmm3
	por	%xmm2, %xmm3
	movdqa	%xmm1, %xmm0
	pmaxub	%xmm10, %xmm0
	movdqa	%xmm0, %xmm6
	movdqa	%xmm4, %xmm11
	pminub	%xmm4, %xmm6
	pcmpeqb	%xmm0, %xmm6
	pand	.LCPI48_28(%rip), %xmm6
	por	%xmm3, %xmm6
	movdqa	%xmm8, %xmm7
	psllw	$2, %xmm7
	movdqa	.LCPI48_29(%rip), %xmm4
	pand	%xmm4, %xmm7
	movdqa	.LCPI48_18(%rip), %xmm13
	movdqa	%xmm7, %xmm0
	pminub	%xmm13, %xmm0
	pcmpeqb	%xmm7, %xmm0
	movdqa	.LCPI48_30(%rip), %xmm3
	movdqa	%xmm10, %xmm2
	paddb	%xmm3, %xmm2
	paddb	%xmm0, %xmm2
	movdqa	%xmm10, %xmm0
	pminub	%xmm12, %xmm0
	pcmpeqb	%xmm10, %xmm0
	pblendvb	%xmm0, %xmm6, %xmm2
	movdqa	%xmm9, %xmm6
	psrlw	$4, %xmm6
	movdqa	%xmm4, %xmm14
	pandn	%xmm6, %xmm14
	por	%xmm7, %xmm14
	movdqa	.LCPI48_31(%rip), %xmm10
	movdqa	%xmm9, %xmm6
	pand	%xmm10, %xmm6
	psllw	$6, %xmm1
	pand	%xmm15, %xmm1
	paddb	%xmm6, %xmm1
	paddb	%xmm15, %xmm14
	movdqa	%xmm15, %xmm6
	pblendvb	%xmm0, %xmm1, %xmm14
	movdqa	%xmm9, %xmm0
	pminub	%xmm11, %xmm0
	pcmpeqb	%xmm9, %xmm0
	movdqa	%xmm8, %xmm1
	movdqa	.LCPI48_20(%rip), %xmm15
	pminub	%xmm15, %xmm1
	pcmpeqb	%xmm8, %xmm1
	pand	%xmm0, %xmm1
	pmovmskb	%xmm1, %r8d
	movdqa	%xmm2, %xmm0
	punpckhbw	%xmm14, %xmm0
	punpcklbw	%xmm14, %xmm2
	movzbl	%r8b, %edx
	popcntl	%edx, %esi
	shll	$4, %edx
	leaq	.Lstatic.10(%rip), %rcx
	movdqu	(%rdx,%rcx), %xmm1
	pshufb	%xmm1, %xmm2
	leaq	(%r12,%rbx), %rdx
	movdqu	%xmm2, (%r12,%rbx)
	shrl	$8, %r8d
	popcntl	%r8d, %edi
	shll	$4, %r8d
	movdqu	(%r8,%rcx), %xmm1
	pshufb	%xmm1, %xmm0
	movdqu	%xmm0, (%rdx,%rsi,2)
	movdqu	15(%rbp,%rax), %xmm1
	movdqu	16(%rbp,%rax), %xmm2
	movdqa	%xmm2, %xmm0
	pblendvb	%xmm0, %xmm1, %xmm6
	movdqu	14(%rbp,%rax), %xmm7
	movdqa	%xmm7, %xmm0
	pmaxub	.LCPI48_0(%rip), %xmm0
	psllw	$4, %xmm0
	movdqa	%xmm5, %xmm9
	pandn	%xmm0, %xmm9
	movdqa	%xmm6, %xmm0
	psrlw	$2, %xmm0
	pand	%xmm5, %xmm0
	por	%xmm0, %xmm9
	movdqa	%xmm6, %xmm0
	pmaxub	%xmm7, %xmm0
	movdqa	%xmm0, %xmm8
	pminub	%xmm11, %xmm8
	pcmpeqb	%xmm0, %xmm8
	pand	.LCPI48_28(%rip), %xmm8
	por	%xmm9, %xmm8
	movdqa	%xmm7, %xmm0
	pminub	%xmm12, %xmm0
	pcmpeqb	%xmm7, %xmm0
	movdqa	%xmm1, %xmm9
	psllw	$2, %xmm9
	pand	%xmm4, %xmm9
	movdqa	%xmm9, %xmm14
	pminub	%xmm13, %xmm14
	pcmpeqb	%xmm9, %xmm14
	paddb	%xmm3, %xmm7
	paddb	%xmm14, %xmm7
	pblendvb	%xmm0, %xmm8, %xmm7
	movdqa	%xmm2, %xmm8
	psrlw	$4, %xmm8
	movdqa	%xmm4, %xmm14
	pandn	%xmm8, %xmm14
	por	%xmm9, %xmm14
	movdqa	%xmm2, %xmm8
	pand	%xmm10, %xmm8
	psllw	$6, %xmm6
	movdqa	.LCPI48_12(%rip), %xmm9
	pand	%xmm9, %xmm6
	paddb	%xmm8, %xmm6
	paddb	%xmm9, %xmm14
	pblendvb	%xmm0, %xmm6, %xmm14
	movdqa	%xmm1, %xmm0
	pminub	%xmm15, %xmm0
	pcmpeqb	%xmm1, %xmm0
	movdqa	%xmm2, %xmm1
	pminub	%xmm11, %xmm1
	pcmpeqb	%xmm2, %xmm1
	addl	%esi, %edi
	pand	%xmm0, %xmm1
	pmovmskb	%xmm1, %r9d
	movdqa	%xmm7, %xmm0
	punpckhbw	%xmm14, %xmm0
	punpcklbw	%xmm14, %xmm7
	movzbl	%r9b, %esi
	xorl	%r8d, %r8d
	popcntl	%esi, %r8d
	shll	$4, %esi
	movdqu	(%rsi,%rcx), %xmm1
	pshufb	%xmm1, %xmm7
	leaq	(%rdx,%rdi,2), %r10
	movdqu	%xmm7, (%rdx,%rdi,2)
	shrl	$8, %r9d
	xorl	%esi, %esi
	popcntl	%r9d, %esi
	shll	$4, %r9d
	movdqu	(%r9,%rcx), %xmm1
	pshufb	%xmm1, %xmm0
	movdqu	%xmm0, (%r10,%r8,2)
	movdqu	30(%rbp,%rax), %xmm7
	movdqu	31(%rbp,%rax), %xmm1
	movdqu	32(%rbp,%rax), %xmm2
	movdqa	%xmm9, %xmm6
	movdqa	%xmm2, %xmm0
	pblendvb	%xmm0, %xmm1, %xmm6
	movdqa	%xmm7, %xmm0
	pmaxub	.LCPI48_0(%rip), %xmm0
	psllw	$4, %xmm0
	movdqa	%xmm5, %xmm9
	pandn	%xmm0, %xmm9
	movdqa	%xmm6, %xmm0
	psrlw	$2, %xmm0
	pand	%xmm5, %xmm0
	por	%xmm0, %xmm9
	movdqa	%xmm6, %xmm0
	pmaxub	%xmm7, %xmm0
	movdqa	%xmm0, %xmm8
	pminub	%xmm11, %xmm8
	pcmpeqb	%xmm0, %xmm8
	movdqa	.LCPI48_28(%rip), %xmm0
	pand	%xmm0, %xmm8
	por	%xmm9, %xmm8
	movdqa	%xmm7, %xmm0
	pminub	%xmm12, %xmm0
	pcmpeqb	%xmm7, %xmm0
	movdqa	%xmm1, %xmm9
	psllw	$2, %xmm9
	pand	%xmm4, %xmm9
	movdqa	%xmm9, %xmm14
	pminub	%xmm13, %xmm14
	pcmpeqb	%xmm9, %xmm14
	paddb	%xmm3, %xmm7
	paddb	%xmm14, %xmm7
	pblendvb	%xmm0, %xmm8, %xmm7
	movdqa	%xmm2, %xmm8
	psrlw	$4, %xmm8
	movdqa	%xmm4, %xmm14
	pandn	%xmm8, %xmm14
	por	%xmm9, %xmm14
	movdqa	%xmm2, %xmm8
	pand	%xmm10, %xmm8
	psllw	$6, %xmm6
	movdqa	.LCPI48_12(%rip), %xmm9
	pand	%xmm9, %xmm6
	paddb	%xmm8, %xmm6
	paddb	%xmm9, %xmm14
	pblendvb	%xmm0, %xmm6, %xmm14
	movdqa	%xmm1, %xmm0
	pminub	%xmm15, %xmm0
	pcmpeqb	%xmm1, %xmm0
	movdqa	%xmm2, %xmm1
	pminub	%xmm11, %xmm1
	pcmpeqb	%xmm2, %xmm1
	addl	%r8d, %esi
	addl	%edi, %esi
	pand	%xmm0, %xmm1
	pmovmskb	%xmm1, %r9d
	movdqa	%xmm7, %xmm0
	punpckhbw	%xmm14, %xmm0
	punpcklbw	%xmm14, %xmm7
	movzbl	%r9b, %edi
	popcntl	%edi, %r8d
	shll	$4, %edi
	movdqu	(%rdi,%rcx), %xmm1
	pshufb	%xmm1, %xmm7
	leaq	(%rdx,%rsi,2), %r10
	movdqu	%xmm7, (%rdx,%rsi,2)
	shrl	$8, %r9d
	xorl	%edi, %edi
	popcntl	%r9d, %edi
	shll	$4, %r9d
	movdqu	(%r9,%rcx), %xmm1
	pshufb	%xmm1, %xmm0
	movdqu	%xmm0, (%r10,%r8,2)
	movdqu	47(%rbp,%rax), %xmm1
	movdqu	48(%rbp,%rax), %xmm2
	movdqa	%xmm9, %xmm6
	movdqa	%xmm2, %xmm0
	pblendvb	%xmm0, %xmm1, %xmm6
	movdqu	46(%rbp,%rax), %xmm0
	movdqa	.LCPI48_0(%rip), %xmm8
	pmaxub	%xmm0, %xmm8
	movdqa	%xmm6, %xmm7
	psrlw	$2, %xmm7
	pand	%xmm5, %xmm7
	psllw	$4, %xmm8
	pandn	%xmm8, %xmm5
	por	%xmm7, %xmm5
	movdqa	%xmm6, %xmm8
	pmaxub	%xmm0, %xmm8
	movdqa	%xmm8, %xmm7
	pminub	%xmm11, %xmm7
	pcmpeqb	%xmm8, %xmm7
	pand	.LCPI48_28(%rip), %xmm7
	por	%xmm5, %xmm7
	movdqa	%xmm1, %xmm5
	psllw	$2, %xmm5
	pand	%xmm4, %xmm5
	pminub	%xmm5, %xmm13
	pcmpeqb	%xmm5, %xmm13
	paddb	%xmm0, %xmm3
	paddb	%xmm13, %xmm3
	pminub	%xmm0, %xmm12
	pcmpeqb	%xmm0, %xmm12
	movdqa	%xmm12, %xmm0
	pblendvb	%xmm0, %xmm7, %xmm3
	movdqa	%xmm2, %xmm0
	psrlw	$4, %xmm0
	pandn	%xmm0, %xmm4
	por	%xmm5, %xmm4
	paddb	%xmm9, %xmm4
	psllw	$6, %xmm6
	pand	%xmm9, %xmm6
	pand	%xmm2, %xmm10
	paddb	%xmm10, %xmm6
	movdqa	%xmm12, %xmm0
	pblendvb	%xmm0, %xmm6, %xmm4
	pminub	%xmm1, %xmm15
	pcmpeqb	%xmm1, %xmm15
	pminub	%xmm2, %xmm11
	pcmpeqb	%xmm2, %xmm11
	pand	%xmm15, %xmm11
	pmovmskb	%xmm11, %r9d
	movdqa	%xmm3, %xmm0
	punpckhbw	%xmm4, %xmm0
	punpcklbw	%xmm4, %xmm3
	movzbl	%r9b, %r10d
	popcntl	%r10d, %r11d
	shll	$4, %r10d
	movdqu	(%r10,%rcx), %xmm1
	pshufb	%xmm1, %xmm3
	addl	%r8d, %edi
	addl	%esi, %edi
	movdqu	%xmm3, (%rdx,%rdi,2)
	shrl	$8, %r9d
	popcntl	%r9d, %esi
	shll	$4, %r9d
	movdqu	(%r9,%rcx), %xmm1
	pshufb	%xmm1, %xmm0
	leaq	(%rdx,%rdi,2), %rcx
	movdqu	%xmm0, (%rcx,%r11,2)
	addl	%r11d, %esi
	addl	%edi, %esi
	leaq	(%rbx,%rsi,2), %rbx
	cmpb	$-17, 61(%rbp,%rax)
	jbe	.LBB48_23
	addq	$-2, %rbx
	movl	$61, %ecx
	jmp	.LBB48_26
.LBB48_17:
	movdqa	.LCPI48_12(%rip), %xmm1
	movdqa	%xmm1, %xmm0
	movdqa	%xmm1, %xmm2
	pcmpgtb	%xmm9, %xmm0
	movdqa	%xmm8, %xmm1
	psubusb	.LCPI48_19(%rip), %xmm1
	movdqa	.LCPI48_20(%rip), %xmm4
	movdqa	%xmm10, %xmm6
	psubusb	%xmm4, %xmm6
	por	%xmm1, %xmm6
	pxor	%xmm1, %xmm1
	pcmpgtb	%xmm1, %xmm6
	pxor	%xmm0, %xmm6
	movdqa	.LCPI48_27(%rip), %xmm7
	movdqa	%xmm9, %xmm13
	pand	%xmm7, %xmm13
	pcmpeqb	%xmm2, %xmm13
	movdqa	.LCPI48_22(%rip), %xmm1
	movdqa	%xmm9, %xmm0
	pminub	%xmm1, %xmm0
	pcmpeqb	%xmm9, %xmm0
	movdqa	.LCPI48_0(%rip), %xmm3
	movdqa	.LCPI48_23(%rip), %xmm11
	movdqa	%xmm11, %xmm12
	pblendvb	%xmm0, %xmm3, %xmm12
	pcmpeqb	%xmm8, %xmm12
	por	%xmm13, %xmm12
	por	%xmm6, %xmm12
	movdqu	14(%rbp,%rax), %xmm13
	movdqu	15(%rbp,%rax), %xmm5
	movdqu	16(%rbp,%rax), %xmm6
	movdqa	%xmm6, %xmm0
	pminub	%xmm1, %xmm0
	pcmpeqb	%xmm6, %xmm0
	movdqa	%xmm11, %xmm14
	pblendvb	%xmm0, %xmm3, %xmm14
	movdqu	30(%rbp,%rax), %xmm15
	pcmpeqb	%xmm5, %xmm14
	movdqa	.LCPI48_19(%rip), %xmm3
	psubusb	%xmm3, %xmm5
	psubusb	%xmm4, %xmm13
	por	%xmm5, %xmm13
	movdqa	%xmm2, %xmm0
	pcmpgtb	%xmm6, %xmm0
	pxor	%xmm5, %xmm5
	pcmpgtb	%xmm5, %xmm13
	pxor	%xmm0, %xmm13
	pand	%xmm7, %xmm6
	pcmpeqb	%xmm2, %xmm6
	movdqa	%xmm2, %xmm5
	por	%xmm13, %xmm6
	por	%xmm6, %xmm14
	movdqu	32(%rbp,%rax), %xmm6
	movdqa	%xmm6, %xmm0
	pminub	%xmm1, %xmm0
	pcmpeqb	%xmm6, %xmm0
	movdqa	%xmm11, %xmm13
	movdqa	.LCPI48_0(%rip), %xmm2
	pblendvb	%xmm0, %xmm2, %xmm13
	movdqu	31(%rbp,%rax), %xmm0
	pcmpeqb	%xmm0, %xmm13
	psubusb	%xmm3, %xmm0
	psubusb	%xmm4, %xmm15
	por	%xmm0, %xmm15
	movdqa	%xmm5, %xmm0
	pcmpgtb	%xmm6, %xmm0
	pcmpgtb	.LCPI48_32(%rip), %xmm15
	pxor	%xmm0, %xmm15
	pand	%xmm7, %xmm6
	pcmpeqb	%xmm5, %xmm6
	por	%xmm15, %xmm6
	por	%xmm6, %xmm13
	por	%xmm14, %xmm13
	por	%xmm12, %xmm13
	movdqu	46(%rbp,%rax), %xmm12
	movdqu	48(%rbp,%rax), %xmm6
	pminub	%xmm6, %xmm1
	pcmpeqb	%xmm6, %xmm1
	movdqa	%xmm1, %xmm0
	pblendvb	%xmm0, %xmm2, %xmm11
	movdqu	47(%rbp,%rax), %xmm0
	pcmpeqb	%xmm0, %xmm11
	psubusb	%xmm3, %xmm0
	psubusb	%xmm4, %xmm12
	por	%xmm0, %xmm12
	pxor	%xmm0, %xmm0
	pcmpgtb	%xmm0, %xmm12
	movdqa	%xmm5, %xmm0
	pcmpgtb	%xmm6, %xmm0
	pxor	%xmm0, %xmm12
	pand	%xmm6, %xmm7
	pcmpeqb	%xmm5, %xmm7
	por	%xmm12, %xmm7
	por	%xmm7, %xmm11
	por	%xmm13, %xmm11
	pmovmskb	%xmm11, %ecx
	testl	%ecx, %ecx
	jne	.LBB48_27
	movdqa	%xmm2, %xmm15
	movdqa	%xmm5, %xmm14
	movdqa	%xmm5, %xmm2
	movdqa	%xmm9, %xmm0
	pblendvb	%xmm0, %xmm8, %xmm2
	pmaxub	%xmm15, %xmm10
	movdqa	%xmm2, %xmm5
	psrlw	$2, %xmm5
	movdqa	.LCPI48_14(%rip), %xmm1
	pand	%xmm1, %xmm5
	psllw	$4, %xmm10
	movdqa	%xmm1, %xmm0
	pandn	%xmm10, %xmm0
	por	%xmm5, %xmm0
	movdqa	.LCPI48_31(%rip), %xmm7
	movdqa	%xmm9, %xmm5
	pand	%xmm7, %xmm5
	psllw	$6, %xmm2
	pand	%xmm14, %xmm2
	paddb	%xmm5, %xmm2
	movdqa	%xmm9, %xmm5
	pminub	%xmm3, %xmm5
	pcmpeqb	%xmm9, %xmm5
	movdqa	%xmm8, %xmm6
	pminub	%xmm4, %xmm6
	pcmpeqb	%xmm8, %xmm6
	pand	%xmm5, %xmm6
	pmovmskb	%xmm6, %edi
	movdqa	%xmm0, %xmm5
	punpckhbw	%xmm2, %xmm5
	punpcklbw	%xmm2, %xmm0
	movzbl	%dil, %edx
	popcntl	%edx, %r8d
	shll	$4, %edx
	leaq	.Lstatic.10(%rip), %rcx
	movdqu	(%rdx,%rcx), %xmm2
	pshufb	%xmm2, %xmm0
	leaq	(%r12,%rbx), %rdx
	movdqu	%xmm0, (%r12,%rbx)
	shrl	$8, %edi
	popcntl	%edi, %esi
	shll	$4, %edi
	movdqu	(%rdi,%rcx), %xmm0
	pshufb	%xmm0, %xmm5
	movdqu	%xmm5, (%rdx,%r8,2)
	addl	%r8d, %esi
	movdqu	14(%rbp,%rax), %xmm5
	movdqu	15(%rbp,%rax), %xmm9
	movdqu	16(%rbp,%rax), %xmm0
	movdqa	%xmm14, %xmm8
	pblendvb	%xmm0, %xmm9, %xmm8
	pmaxub	%xmm15, %xmm5
	movdqa	%xmm8, %xmm6
	psrlw	$2, %xmm6
	pand	%xmm1, %xmm6
	psllw	$4, %xmm5
	movdqa	%xmm1, %xmm2
	pandn	%xmm5, %xmm2
	por	%xmm6, %xmm2
	movdqa	%xmm0, %xmm5
	pminub	%xmm3, %xmm5
	pcmpeqb	%xmm0, %xmm5
	pand	%xmm7, %xmm0
	psllw	$6, %xmm8
	pand	%xmm14, %xmm8
	paddb	%xmm0, %xmm8
	movdqa	%xmm9, %xmm0
	pminub	%xmm4, %xmm0
	pcmpeqb	%xmm9, %xmm0
	pand	%xmm0, %xmm5
	pmovmskb	%xmm5, %r8d
	movdqa	%xmm2, %xmm0
	punpckhbw	%xmm8, %xmm0
	punpcklbw	%xmm8, %xmm2
	movzbl	%r8b, %edi
	popcntl	%edi, %r9d
	shll	$4, %edi
	movdqu	(%rdi,%rcx), %xmm5
	pshufb	%xmm5, %xmm2
	leaq	(%rdx,%rsi,2), %r10
	movdqu	%xmm2, (%rdx,%rsi,2)
	shrl	$8, %r8d
	xorl	%edi, %edi
	popcntl	%r8d, %edi
	shll	$4, %r8d
	movdqu	(%r8,%rcx), %xmm2
	pshufb	%xmm2, %xmm0
	movdqu	%xmm0, (%r10,%r9,2)
	addl	%r9d, %edi
	addl	%esi, %edi
	movdqu	30(%rbp,%rax), %xmm5
	movdqu	31(%rbp,%rax), %xmm9
	movdqu	32(%rbp,%rax), %xmm0
	movdqa	%xmm14, %xmm8
	pblendvb	%xmm0, %xmm9, %xmm8
	pmaxub	%xmm15, %xmm5
	movdqa	%xmm8, %xmm6
	psrlw	$2, %xmm6
	pand	%xmm1, %xmm6
	psllw	$4, %xmm5
	movdqa	%xmm1, %xmm2
	pandn	%xmm5, %xmm2
	por	%xmm6, %xmm2
	movdqa	%xmm0, %xmm5
	pminub	%xmm3, %xmm5
	pcmpeqb	%xmm0, %xmm5
	pand	%xmm7, %xmm0
	psllw	$6, %xmm8
	pand	%xmm14, %xmm8
	paddb	%xmm0, %xmm8
	movdqa	%xmm9, %xmm0
	pminub	%xmm4, %xmm0
	pcmpeqb	%xmm9, %xmm0
	pand	%xmm0, %xmm5
	pmovmskb	%xmm5, %r8d
	movdqa	%xmm2, %xmm0
	punpckhbw	%xmm8, %xmm0
	punpcklbw	%xmm8, %xmm2
	movzbl	%r8b, %esi
	xorl	%r9d, %r9d
	popcntl	%esi, %r9d
	shll	$4, %esi
	movdqu	(%rsi,%rcx), %xmm5
	pshufb	%xmm5, %xmm2
	leaq	(%rdx,%rdi,2), %r10
	movdqu	%xmm2, (%rdx,%rdi,2)
	shrl	$8, %r8d
	xorl	%esi, %esi
	popcntl	%r8d, %esi
	shll	$4, %r8d
	movdqu	(%r8,%rcx), %xmm2
	pshufb	%xmm2, %xmm0
	movdqu	%xmm0, (%r10,%r9,2)
	addl	%r9d, %esi
	addl	%edi, %esi
	movdqu	46(%rbp,%rax), %xmm5
	movdqu	47(%rbp,%rax), %xmm6
	movdqu	48(%rbp,%rax), %xmm0
	movdqa	%xmm14, %xmm2
	pblendvb	%xmm0, %xmm6, %xmm2
	pmaxub	%xmm15, %xmm5
	movdqa	%xmm2, %xmm8
	psrlw	$2, %xmm8
	pand	%xmm1, %xmm8
	psllw	$4, %xmm5
	pandn	%xmm5, %xmm1
	por	%xmm8, %xmm1
	pand	%xmm0, %xmm7
	psllw	$6, %xmm2
	pand	%xmm14, %xmm2
	paddb	%xmm7, %xmm2
	pminub	%xmm6, %xmm4
	pcmpeqb	%xmm6, %xmm4
	pminub	%xmm0, %xmm3
	pcmpeqb	%xmm0, %xmm3
	pand	%xmm4, %xmm3
	pmovmskb	%xmm3, %edi
	movdqa	%xmm1, %xmm0
	punpckhbw	%xmm2, %xmm0
	punpcklbw	%xmm2, %xmm1
	movzbl	%dil, %r9d
	xorl	%r8d, %r8d
	popcntl	%r9d, %r8d
	shll	$4, %r9d
	movdqu	(%r9,%rcx), %xmm2
	pshufb	%xmm2, %xmm1
	leaq	(%rdx,%rsi,2), %r9
	movdqu	%xmm1, (%rdx,%rsi,2)
	shrl	$8, %edi
	movl	%edi, %edx
	shll	$4, %edx
	movdqu	(%rdx,%rcx), %xmm1
	pshufb	%xmm1, %xmm0
	movdqu	%xmm0, (%r9,%r8,2)
	movl	$62, %ecx
	cmpb	$-33, 62(%rbp,%rax)
	ja	.LBB48_20
	xorl	%ecx, %ecx
	cmpb	$-64, 63(%rbp,%rax)
	adcq	$63, %rcx
.LBB48_20:
	xorl	%edx, %edx
	popcntl	%edi, %edx
	addl	%edx, %r8d
	addl	%r8d, %esi
	leaq	(%rbx,%rsi,2), %rbx
	jmp	.LBB48_26
.LBB48_23:
	movl	$62, %ecx
	cmpb	$-33, 62(%rbp,%rax)
	ja	.LBB48_26
	xorl	%ecx, %ecx
	cmpb	$-64, 63(%rbp,%rax)
	adcq	$63, %rcx
.LBB48_26:
	addq	%rcx, %rax
	jmp	.LBB48_27
.LBB48_28:
	movq	%r14, %rax
	movq	%rbx, %rdx
	addq	$56, %rsp
	.cfi_def_cfa_offset 56
	popq	%rbx
	.cfi_def_cfa_offset 48
	popq	%r12
	.cfi_def_cfa_offset 40
	popq	%r13
	.cfi_def_cfa_offset 32
	popq	%r14
	.cfi_def_cfa_offset 24
	popq	%r15
	.cfi_def_cfa_offset 16
	popq	%rbp
	.cfi_def_cfa_offset 8
	retq
.Lfunc_end48:
	.size	"utf16_from_utf8::blocks::write_mixed_blocks::<#8b18edd9dd9aa8df>", .Lfunc_end48-"utf16_from_utf8::blocks::write_mixed_blocks::<#8b18edd9dd9aa8df>"
	.cfi_endproc

	.section	.rodata.cst16,"aM",@progbits,16
	.p2align	4, 0x0
.LCPI49_0:
	.zero	1
	.byte	255
	.byte	0
	.zero	1
	.byte	255
	.byte	0
	.zero	1
	.byte	255
	.byte	0
	.zero	1
	.byte	255
	.byte	0
	.zero	1
	.byte	255
	.byte	0
	.zero	1
.LCPI49_1:
	.byte	0
	.byte	3
	.byte	6
	.byte	9
	.byte	12
	.byte	15
	.byte	128
	.byte	128
	.byte	128
	.byte	128
	.byte	128
	.byte	128
	.byte	128
	.byte	128
	.byte	128
	.byte	128
.LCPI49_2:
	.byte	128
	.byte	128
	.byte	128
	.byte	128
	.byte	128
	.byte	128
	.byte	2
	.byte	5
	.byte	8
	.byte	11
	.byte	14
	.byte	1
	.byte	4
	.byte	7
	.byte	10
	.byte	13
.LCPI49_3:
	.byte	255
	.zero	1
	.byte	0
	.byte	255
	.zero	1
	.byte	0
	.byte	255
	.zero	1
	.byte	0
	.byte	255
	.zero	1
	.byte	0
	.byte	255
	.zero	1
	.byte	0
	.byte	255
.LCPI49_4:
	.byte	1
	.byte	4
	.byte	7
	.byte	10
	.byte	13
	.byte	128
	.byte	128
	.byte	128
	.byte	128
	.byte	128
	.byte	128
	.byte	128
	.byte	128
	.byte	128
	.byte	128
	.byte	128
.LCPI49_5:
	.byte	128
	.byte	128
	.byte	128
	.byte	128
	.byte	128
	.byte	0
	.byte	3
	.byte	6
	.byte	9
	.byte	12
	.byte	15
	.byte	2
	.byte	5
	.byte	8
	.byte	11
	.byte	14
.LCPI49_6:
	.byte	255
	.byte	0
	.zero	1
	.byte	255
	.byte	0
	.zero	1
	.byte	255
	.byte	0
	.zero	1
	.byte	255
	.byte	0
	.zero	1
	.byte	255
	.byte	0
	.zero	1
	.byte	255
.LCPI49_7:
	.byte	2
	.byte	5
	.byte	8
	.byte	11
	.byte	14
	.byte	128
	.byte	128
	.byte	128
	.byte	128
	.byte	128
	.byte	128
	.byte	128
	.byte	128
	.byte	128
	.byte	128
	.byte	128
.LCPI49_8:
	.byte	128
	.byte	128
	.byte	128
	.byte	128
	.byte	128
	.byte	1
	.byte	4
	.byte	7
	.byte	10
	.byte	13
	.byte	0
	.byte	3
	.byte	6
	.byte	9
	.byte	12
	.byte	15
.LCPI49_9:
	.zero	16,240
.LCPI49_10:
	.zero	16,32
.LCPI49_11:
	.zero	16,192
.LCPI49_12:
	.zero	16,128
.LCPI49_13:
	.zero	16,15
.LCPI49_14:
	.zero	16,7
.LCPI49_15:
	.zero	16,248
.LCPI49_16:
	.zero	16,216
.LCPI49_17:
	.zero	16,63
.LCPI49_18:
	.zero	16,224
	.section	".text.utf16_from_utf8::rest::write_rest::<#8b18edd9dd9aa8df>","ax",@progbits
	.p2align	4
	.type	"utf16_from_utf8::rest::write_rest::<#8b18edd9dd9aa8df>",@function
"utf16_from_utf8::rest::write_rest::<#8b18edd9dd9aa8df>":
	.cfi_startproc
	pushq	%r15
	.cfi_def_cfa_offset 16
	pushq	%r14
	.cfi_def_cfa_offset 24
	pushq	%rbx
	.cfi_def_cfa_offset 32
	.cfi_offset %rbx, -32
	.cfi_offset %r14, -24
	.cfi_offset %r15, -16
	movq	%r9, %rbx
	movq	%r8, %rax
	movq	%rsi, %r8
	subq	%rax, %r8
	je	.LBB49_8
	movzbl	(%rdi,%rax), %r9d
	andb	$-16, %r9b
	cmpb	$-32, %r9b
	jne	.LBB49_8
	cmpq	$48, %r8
	setb	%r10b
	movq	%rcx, %r9
	subq	%rbx, %r9
	cmpq	$32, %r9
	setb	%r11b
	orb	%r10b, %r11b
	je	.LBB49_3
.LBB49_8:
	cmpb	$-65, -1(%rdi,%rsi)
	jbe	.LBB49_10
	decq	%rsi
	jmp	.LBB49_13
.LBB49_10:
	cmpb	$-33, -2(%rdi,%rsi)
	jbe	.LBB49_12
	addq	$-2, %rsi
	jmp	.LBB49_13
.LBB49_12:
	leaq	-3(%rsi), %r8
	cmpb	$-16, -3(%rdi,%rsi)
	cmovaeq	%r8, %rsi
.LBB49_13:
	cmpq	$17, %rsi
	setb	%r9b
	movq	%rsi, %r8
	subq	%rax, %r8
	setbe	%r10b
	orb	%r9b, %r10b
	jne	.LBB49_23
	subq	%rbx, %rcx
	xorl	%r9d, %r9d
	subq	$16, %rcx
	cmovaeq	%rcx, %r9
	shrq	%r9
	cmpq	%r8, %r9
	jb	.LBB49_23
	xorl	%ecx, %ecx
	movq	%rax, %r8
	subq	$18, %r8
	cmovaeq	%r8, %rcx
	movdqu	-16(%rdi,%rsi), %xmm0
	movq	%rsi, %r8
	subq	%rcx, %r8
	cmpq	$17, %r8
	jb	.LBB49_18
	addq	%rdi, %rcx
	.p2align	4
.LBB49_17:
	movdqu	(%rcx), %xmm1
	pmaxub	%xmm1, %xmm0
	addq	$16, %rcx
	addq	$-16, %r8
	cmpq	$16, %r8
	ja	.LBB49_17
.LBB49_18:
	addq	%rbx, %rdx
	movdqa	.LCPI49_18(%rip), %xmm1
	pmaxub	%xmm0, %xmm1
	pcmpeqb	%xmm0, %xmm1
	pmovmskb	%xmm1, %ecx
	testl	%ecx, %ecx
	je	.LBB49_24
	movq	%rdx, %rcx
	movdqa	.LCPI49_9(%rip), %xmm1
	pmaxub	%xmm0, %xmm1
	pcmpeqb	%xmm0, %xmm1
	pmovmskb	%xmm1, %edx
	movq	%rsi, %r14
	movq	%rax, %r15
	testl	%edx, %edx
	je	.LBB49_20
	movq	%rax, %rdx
	callq	"utf16_from_utf8::rest::write_rest_of::<#333b1ec0269cc57c>"
	jmp	.LBB49_22
.LBB49_3:
	addq	$-32, %r9
	addq	$-48, %r8
	.p2align	4
.LBB49_4:
	movdqu	16(%rdi,%rax), %xmm1
	movdqu	32(%rdi,%rax), %xmm5
	movaps	.LCPI49_0(%rip), %xmm0
	movdqa	%xmm1, %xmm3
	pblendvb	%xmm0, %xmm5, %xmm3
	movdqu	(%rdi,%rax), %xmm4
	movdqa	%xmm4, %xmm6
	pshufb	.LCPI49_1(%rip), %xmm6
	pshufb	.LCPI49_2(%rip), %xmm3
	movaps	.LCPI49_3(%rip), %xmm0
	movdqa	%xmm5, %xmm2
	pblendvb	%xmm0, %xmm1, %xmm2
	movdqa	%xmm4, %xmm0
	pshufb	.LCPI49_4(%rip), %xmm0
	por	%xmm6, %xmm3
	pshufb	.LCPI49_5(%rip), %xmm2
	por	%xmm0, %xmm2
	movaps	.LCPI49_6(%rip), %xmm0
	pblendvb	%xmm0, %xmm5, %xmm1
	pshufb	.LCPI49_7(%rip), %xmm4
	pshufb	.LCPI49_8(%rip), %xmm1
	movdqa	.LCPI49_9(%rip), %xmm0
	pand	%xmm3, %xmm0
	paddb	.LCPI49_10(%rip), %xmm0
	por	%xmm4, %xmm1
	movdqa	.LCPI49_11(%rip), %xmm4
	movdqa	%xmm2, %xmm5
	pand	%xmm4, %xmm5
	movdqa	.LCPI49_12(%rip), %xmm6
	pxor	%xmm6, %xmm5
	pmaxub	%xmm0, %xmm5
	pand	%xmm1, %xmm4
	pxor	%xmm6, %xmm4
	por	%xmm5, %xmm4
	ptest	%xmm4, %xmm4
	jne	.LBB49_8
	psllw	$4, %xmm3
	pand	.LCPI49_9(%rip), %xmm3
	movdqa	%xmm2, %xmm0
	psrlw	$2, %xmm0
	pand	.LCPI49_13(%rip), %xmm0
	por	%xmm3, %xmm0
	movdqa	.LCPI49_14(%rip), %xmm3
	pminub	%xmm0, %xmm3
	movdqa	.LCPI49_15(%rip), %xmm4
	pand	%xmm0, %xmm4
	pcmpeqb	.LCPI49_16(%rip), %xmm4
	pcmpeqb	%xmm0, %xmm3
	por	%xmm3, %xmm4
	pmovmskb	%xmm4, %r10d
	testl	%r10d, %r10d
	jne	.LBB49_8
	psllw	$6, %xmm2
	pand	.LCPI49_11(%rip), %xmm2
	pand	.LCPI49_17(%rip), %xmm1
	por	%xmm2, %xmm1
	movdqa	%xmm0, %xmm2
	punpckhbw	%xmm1, %xmm2
	punpcklbw	%xmm1, %xmm0
	movdqu	%xmm0, (%rdx,%rbx)
	movdqu	%xmm2, 16(%rdx,%rbx)
	addq	$32, %rbx
	addq	$48, %rax
	subq	$32, %r9
	setb	%r10b
	subq	$48, %r8
	jb	.LBB49_8
	testb	%r10b, %r10b
	je	.LBB49_4
	jmp	.LBB49_8
.LBB49_24:
	movq	%rsi, %r14
	movq	%rax, %r15
	movq	%rdx, %rcx
	movq	%rax, %rdx
	callq	"utf16_from_utf8::rest::write_rest_of::<#00efe7c0aa38a8e6>"
	jmp	.LBB49_22
.LBB49_20:
	movq	%rax, %rdx
	callq	"utf16_from_utf8::rest::write_rest_of::<#639a12b236a9ca5f>"
.LBB49_22:
	addq	%rbx, %rdx
	cmpb	$1, %al
	movq	%r15, %rax
	cmoveq	%r14, %rax
	cmoveq	%rdx, %rbx
.LBB49_23:
	movq	%rbx, %rdx
	popq	%rbx
	.cfi_def_cfa_offset 24
	popq	%r14
	.cfi_def_cfa_offset 16
	popq	%r15
	.cfi_def_cfa_offset 8
	retq
.Lfunc_end49:
	.size	"utf16_from_utf8::rest::write_rest::<#8b18edd9dd9aa8df>", .Lfunc_end49-"utf16_from_utf8::rest::write_rest::<#8b18edd9dd9aa8df>"
	.cfi_endproc

	.section	.rodata.cst16,"aM",@progbits,16
	.p2align	4, 0x0
.LCPI50_0:
	.zero	16,192
.LCPI50_1:
	.zero	16,63
.LCPI50_2:
	.zero	16,127
.LCPI50_3:
	.zero	16,191
.LCPI50_4:
	.zero	16,254
	.section	".text.utf16_from_utf8::rest::write_rest_of::<#00efe7c0aa38a8e6>","ax",@progbits
	.p2align	4
	.type	"utf16_from_utf8::rest::write_rest_of::<#00efe7c0aa38a8e6>",@function
"utf16_from_utf8::rest::write_rest_of::<#00efe7c0aa38a8e6>":
	.cfi_startproc
	pushq	%r14
	.cfi_def_cfa_offset 16
	pushq	%rbx
	.cfi_def_cfa_offset 24
	.cfi_offset %rbx, -24
	.cfi_offset %r14, -16
	movq	%rcx, %rax
	movq	%rsi, %rcx
	subq	%rdx, %rcx
	pxor	%xmm0, %xmm0
	xorl	%r8d, %r8d
	cmpq	$16, %rcx
	jae	.LBB50_1
.LBB50_7:
	cmpq	%rsi, %rdx
	je	.LBB50_12
	leaq	-16(%rsi), %rcx
	movdqu	-16(%rdi,%rsi), %xmm1
	cmpq	$3, %rcx
	jb	.LBB50_10
	movdqu	-1(%rdi,%rcx), %xmm4
	jmp	.LBB50_11
	.p2align	4
.LBB50_2:
	movdqu	-1(%rdi,%rdx), %xmm4
.LBB50_6:
	movdqa	.LCPI50_0(%rip), %xmm5
	movdqa	%xmm4, %xmm3
	psubusb	%xmm5, %xmm3
	movdqa	%xmm3, %xmm2
	psrlw	$2, %xmm2
	pand	.LCPI50_1(%rip), %xmm2
	movdqa	.LCPI50_2(%rip), %xmm6
	pand	%xmm1, %xmm6
	psllw	$6, %xmm3
	pand	%xmm5, %xmm3
	paddb	%xmm6, %xmm3
	movdqa	.LCPI50_3(%rip), %xmm6
	pminub	%xmm1, %xmm6
	pcmpeqb	%xmm1, %xmm6
	pmovmskb	%xmm6, %r9d
	movdqa	%xmm5, %xmm6
	pcmpgtb	%xmm1, %xmm6
	movdqa	%xmm4, %xmm7
	pmaxub	%xmm5, %xmm7
	pcmpeqb	%xmm4, %xmm7
	pxor	%xmm6, %xmm7
	pand	.LCPI50_4(%rip), %xmm1
	pcmpeqb	%xmm5, %xmm1
	por	%xmm7, %xmm1
	pmaxub	%xmm1, %xmm0
	movdqa	%xmm2, %xmm1
	punpckhbw	%xmm3, %xmm1
	punpcklbw	%xmm3, %xmm2
	movzbl	%r9b, %r10d
	xorl	%r11d, %r11d
	popcntl	%r10d, %r11d
	shll	$4, %r10d
	leaq	.Lstatic.10(%rip), %rbx
	movdqu	(%r10,%rbx), %xmm3
	pshufb	%xmm3, %xmm2
	leaq	(%rax,%r8), %r10
	movdqu	%xmm2, (%rax,%r8)
	shrl	$8, %r9d
	xorl	%r14d, %r14d
	popcntl	%r9d, %r14d
	shll	$4, %r9d
	movdqu	(%r9,%rbx), %xmm2
	pshufb	%xmm2, %xmm1
	movdqu	%xmm1, (%r10,%r11,2)
	addl	%r11d, %r14d
	leaq	(%r8,%r14,2), %r8
	addq	$16, %rdx
	addq	$-16, %rcx
	cmpq	$15, %rcx
	jbe	.LBB50_7
.LBB50_1:
	movdqu	(%rdi,%rdx), %xmm1
	cmpq	$3, %rdx
	jae	.LBB50_2
	testq	%rdx, %rdx
	je	.LBB50_4
	movzbl	-1(%rdi,%rdx), %r9d
	movd	%r9d, %xmm2
	pslldq	$15, %xmm2
	movdqa	%xmm1, %xmm4
	palignr	$15, %xmm2, %xmm4
	jmp	.LBB50_6
.LBB50_4:
	movdqa	%xmm1, %xmm4
	pslldq	$1, %xmm4
	jmp	.LBB50_6
.LBB50_10:
	movzbl	-17(%rdi,%rsi), %r9d
	movd	%r9d, %xmm2
	pslldq	$15, %xmm2
	movdqa	%xmm1, %xmm4
	palignr	$15, %xmm2, %xmm4
.LBB50_11:
	movdqa	.LCPI50_0(%rip), %xmm5
	movdqa	%xmm4, %xmm3
	psubusb	%xmm5, %xmm3
	movdqa	%xmm3, %xmm2
	psrlw	$2, %xmm2
	pand	.LCPI50_1(%rip), %xmm2
	movdqa	.LCPI50_2(%rip), %xmm6
	pand	%xmm1, %xmm6
	psllw	$6, %xmm3
	pand	%xmm5, %xmm3
	paddb	%xmm6, %xmm3
	movdqa	.LCPI50_3(%rip), %xmm6
	pminub	%xmm1, %xmm6
	pcmpeqb	%xmm1, %xmm6
	pmovmskb	%xmm6, %r9d
	movdqa	%xmm5, %xmm6
	pcmpgtb	%xmm1, %xmm6
	movdqa	%xmm4, %xmm7
	pmaxub	%xmm5, %xmm7
	pcmpeqb	%xmm4, %xmm7
	pxor	%xmm6, %xmm7
	pand	.LCPI50_4(%rip), %xmm1
	pcmpeqb	%xmm5, %xmm1
	por	%xmm7, %xmm1
	subl	%ecx, %edx
	movdqa	%xmm2, %xmm4
	movq	$-1, %r10
	movl	%edx, %ecx
	shlq	%cl, %r10
	punpckhbw	%xmm3, %xmm4
	punpcklbw	%xmm3, %xmm2
	andl	%r9d, %r10d
	movzbl	%r10b, %ecx
	xorl	%edx, %edx
	popcntl	%ecx, %edx
	shll	$4, %ecx
	leaq	.Lstatic.10(%rip), %r9
	movdqu	(%rcx,%r9), %xmm3
	pshufb	%xmm3, %xmm2
	movdqu	%xmm2, (%rax,%r8)
	addq	%r8, %rax
	shrl	$8, %r10d
	xorl	%ecx, %ecx
	popcntl	%r10d, %ecx
	shll	$4, %r10d
	movdqu	(%r10,%r9), %xmm2
	pshufb	%xmm2, %xmm4
	movdqu	%xmm4, (%rax,%rdx,2)
	addl	%edx, %ecx
	leaq	(%r8,%rcx,2), %r8
	pmaxub	%xmm1, %xmm0
.LBB50_12:
	ptest	%xmm0, %xmm0
	je	.LBB50_14
	xorl	%edx, %edx
	xorl	%eax, %eax
	popq	%rbx
	.cfi_def_cfa_offset 16
	popq	%r14
	.cfi_def_cfa_offset 8
	retq
.LBB50_14:
	.cfi_def_cfa_offset 24
	cmpb	$-65, -1(%rdi,%rsi)
	jbe	.LBB50_16
	leaq	-1(%rsi), %rax
	jmp	.LBB50_19
.LBB50_16:
	cmpb	$-33, -2(%rdi,%rsi)
	jbe	.LBB50_18
	leaq	-2(%rsi), %rax
	jmp	.LBB50_19
.LBB50_18:
	leaq	-3(%rsi), %rax
	cmpb	$-16, -3(%rdi,%rsi)
	cmovbq	%rsi, %rax
.LBB50_19:
	xorl	%edx, %edx
	cmpq	%rsi, %rax
	setae	%al
	cmovaeq	%r8, %rdx
	popq	%rbx
	.cfi_def_cfa_offset 16
	popq	%r14
	.cfi_def_cfa_offset 8
	retq
.Lfunc_end50:
	.size	"utf16_from_utf8::rest::write_rest_of::<#00efe7c0aa38a8e6>", .Lfunc_end50-"utf16_from_utf8::rest::write_rest_of::<#00efe7c0aa38a8e6>"
	.cfi_endproc

	.section	.rodata.cst16,"aM",@progbits,16
	.p2align	4, 0x0
.LCPI51_0:
	.zero	16,192
.LCPI51_1:
	.zero	16,224
.LCPI51_2:
	.zero	16,15
.LCPI51_3:
	.zero	16,240
.LCPI51_4:
	.zero	16,127
.LCPI51_5:
	.zero	16,191
.LCPI51_6:
	.zero	16,223
.LCPI51_7:
	.zero	16,254
.LCPI51_8:
	.zero	16,159
.LCPI51_9:
	.zero	16,237
	.section	".text.utf16_from_utf8::rest::write_rest_of::<#639a12b236a9ca5f>","ax",@progbits
	.p2align	4
	.type	"utf16_from_utf8::rest::write_rest_of::<#639a12b236a9ca5f>",@function
"utf16_from_utf8::rest::write_rest_of::<#639a12b236a9ca5f>":
	.cfi_startproc
	pushq	%r14
	.cfi_def_cfa_offset 16
	pushq	%rbx
	.cfi_def_cfa_offset 24
	.cfi_offset %rbx, -24
	.cfi_offset %r14, -16
	movq	%rcx, %rax
	movq	%rsi, %rcx
	subq	%rdx, %rcx
	pxor	%xmm2, %xmm2
	xorl	%r8d, %r8d
	cmpq	$16, %rcx
	jae	.LBB51_6
.LBB51_1:
	cmpq	%rsi, %rdx
	je	.LBB51_18
	leaq	-16(%rsi), %rcx
	movdqu	-16(%rdi,%rsi), %xmm0
	cmpq	$3, %rcx
	jb	.LBB51_13
	movdqu	-2(%rdi,%rcx), %xmm6
	movdqu	-1(%rdi,%rcx), %xmm3
	jmp	.LBB51_17
	.p2align	4
.LBB51_4:
	movdqu	-2(%rdi,%rdx), %xmm1
	movdqu	-1(%rdi,%rdx), %xmm3
.LBB51_5:
	movdqa	.LCPI51_0(%rip), %xmm7
	movdqa	%xmm7, %xmm5
	pblendvb	%xmm0, %xmm3, %xmm5
	movdqa	.LCPI51_1(%rip), %xmm6
	movdqa	%xmm1, %xmm4
	pmaxub	%xmm6, %xmm4
	movdqa	%xmm5, %xmm8
	psrlw	$2, %xmm8
	pand	.LCPI51_2(%rip), %xmm8
	psllw	$4, %xmm4
	pand	.LCPI51_3(%rip), %xmm4
	por	%xmm8, %xmm4
	movdqa	.LCPI51_4(%rip), %xmm8
	pand	%xmm0, %xmm8
	psllw	$6, %xmm5
	pand	%xmm7, %xmm5
	paddb	%xmm8, %xmm5
	movdqa	.LCPI51_5(%rip), %xmm8
	movdqa	%xmm0, %xmm9
	pminub	%xmm8, %xmm9
	pcmpeqb	%xmm0, %xmm9
	movdqa	.LCPI51_6(%rip), %xmm10
	movdqa	%xmm3, %xmm11
	pminub	%xmm10, %xmm11
	pcmpeqb	%xmm3, %xmm11
	pand	%xmm9, %xmm11
	pmovmskb	%xmm11, %r9d
	movdqa	.LCPI51_7(%rip), %xmm9
	pand	%xmm0, %xmm9
	pcmpeqb	%xmm7, %xmm9
	pcmpgtb	%xmm0, %xmm7
	movdqa	%xmm3, %xmm11
	psubusb	%xmm8, %xmm11
	psubusb	%xmm10, %xmm1
	por	%xmm11, %xmm1
	pxor	%xmm8, %xmm8
	pcmpgtb	%xmm8, %xmm1
	pxor	%xmm7, %xmm1
	por	%xmm1, %xmm9
	movdqa	.LCPI51_8(%rip), %xmm1
	pminub	%xmm0, %xmm1
	pcmpeqb	%xmm0, %xmm1
	movdqa	.LCPI51_9(%rip), %xmm7
	movdqa	%xmm1, %xmm0
	pblendvb	%xmm0, %xmm6, %xmm7
	pcmpeqb	%xmm3, %xmm7
	por	%xmm9, %xmm7
	pmaxub	%xmm7, %xmm2
	movdqa	%xmm4, %xmm0
	punpckhbw	%xmm5, %xmm0
	punpcklbw	%xmm5, %xmm4
	movzbl	%r9b, %r10d
	popcntl	%r10d, %r11d
	shll	$4, %r10d
	leaq	.Lstatic.10(%rip), %rbx
	movdqu	(%r10,%rbx), %xmm1
	pshufb	%xmm1, %xmm4
	leaq	(%rax,%r8), %r10
	movdqu	%xmm4, (%rax,%r8)
	shrl	$8, %r9d
	popcntl	%r9d, %r14d
	shll	$4, %r9d
	movdqu	(%r9,%rbx), %xmm1
	pshufb	%xmm1, %xmm0
	movdqu	%xmm0, (%r10,%r11,2)
	addl	%r11d, %r14d
	leaq	(%r8,%r14,2), %r8
	addq	$16, %rdx
	addq	$-16, %rcx
	cmpq	$15, %rcx
	jbe	.LBB51_1
.LBB51_6:
	movdqu	(%rdi,%rdx), %xmm0
	cmpq	$3, %rdx
	jae	.LBB51_4
	testq	%rdx, %rdx
	je	.LBB51_10
	movzbl	-1(%rdi,%rdx), %r9d
	movd	%r9d, %xmm1
	pslldq	$15, %xmm1
	movdqa	%xmm0, %xmm3
	palignr	$15, %xmm1, %xmm3
	cmpq	$2, %rdx
	jne	.LBB51_11
	movzbl	(%rdi), %r9d
	jmp	.LBB51_12
.LBB51_10:
	movdqa	%xmm0, %xmm3
	pslldq	$1, %xmm3
.LBB51_11:
	xorl	%r9d, %r9d
.LBB51_12:
	movzbl	%r9b, %r9d
	movd	%r9d, %xmm4
	pslldq	$15, %xmm4
	movdqa	%xmm3, %xmm1
	palignr	$15, %xmm4, %xmm1
	jmp	.LBB51_5
.LBB51_13:
	movzbl	-17(%rdi,%rsi), %r9d
	movd	%r9d, %xmm1
	pslldq	$15, %xmm1
	movdqa	%xmm0, %xmm3
	palignr	$15, %xmm1, %xmm3
	cmpq	$2, %rcx
	jne	.LBB51_15
	movzbl	(%rdi), %r9d
	jmp	.LBB51_16
.LBB51_15:
	xorl	%r9d, %r9d
.LBB51_16:
	movzbl	%r9b, %r9d
	movd	%r9d, %xmm1
	pslldq	$15, %xmm1
	movdqa	%xmm3, %xmm6
	palignr	$15, %xmm1, %xmm6
.LBB51_17:
	movdqa	.LCPI51_0(%rip), %xmm1
	movdqa	%xmm1, %xmm5
	pblendvb	%xmm0, %xmm3, %xmm5
	movdqa	.LCPI51_1(%rip), %xmm7
	movdqa	%xmm6, %xmm4
	pmaxub	%xmm7, %xmm4
	movdqa	%xmm5, %xmm8
	psrlw	$2, %xmm8
	pand	.LCPI51_2(%rip), %xmm8
	psllw	$4, %xmm4
	pand	.LCPI51_3(%rip), %xmm4
	por	%xmm8, %xmm4
	movdqa	.LCPI51_4(%rip), %xmm8
	pand	%xmm0, %xmm8
	psllw	$6, %xmm5
	pand	%xmm1, %xmm5
	paddb	%xmm8, %xmm5
	movdqa	.LCPI51_5(%rip), %xmm8
	movdqa	%xmm0, %xmm9
	pminub	%xmm8, %xmm9
	pcmpeqb	%xmm0, %xmm9
	movdqa	.LCPI51_6(%rip), %xmm10
	movdqa	%xmm3, %xmm11
	pminub	%xmm10, %xmm11
	pcmpeqb	%xmm3, %xmm11
	pand	%xmm9, %xmm11
	pmovmskb	%xmm11, %r9d
	movdqa	.LCPI51_7(%rip), %xmm9
	pand	%xmm0, %xmm9
	pcmpeqb	%xmm1, %xmm9
	pcmpgtb	%xmm0, %xmm1
	movdqa	%xmm3, %xmm11
	psubusb	%xmm8, %xmm11
	psubusb	%xmm10, %xmm6
	por	%xmm11, %xmm6
	pxor	%xmm8, %xmm8
	pcmpgtb	%xmm8, %xmm6
	pxor	%xmm1, %xmm6
	movdqa	.LCPI51_8(%rip), %xmm1
	pminub	%xmm0, %xmm1
	pcmpeqb	%xmm0, %xmm1
	movdqa	.LCPI51_9(%rip), %xmm8
	movdqa	%xmm1, %xmm0
	pblendvb	%xmm0, %xmm7, %xmm8
	pcmpeqb	%xmm3, %xmm8
	por	%xmm9, %xmm8
	por	%xmm6, %xmm8
	subl	%ecx, %edx
	movdqa	%xmm4, %xmm0
	movq	$-1, %r10
	movl	%edx, %ecx
	shlq	%cl, %r10
	punpckhbw	%xmm5, %xmm0
	punpcklbw	%xmm5, %xmm4
	andl	%r9d, %r10d
	movzbl	%r10b, %ecx
	xorl	%edx, %edx
	popcntl	%ecx, %edx
	shll	$4, %ecx
	leaq	.Lstatic.10(%rip), %r9
	movdqu	(%rcx,%r9), %xmm1
	pshufb	%xmm1, %xmm4
	movdqu	%xmm4, (%rax,%r8)
	addq	%r8, %rax
	shrl	$8, %r10d
	xorl	%ecx, %ecx
	popcntl	%r10d, %ecx
	shll	$4, %r10d
	movdqu	(%r10,%r9), %xmm1
	pshufb	%xmm1, %xmm0
	movdqu	%xmm0, (%rax,%rdx,2)
	addl	%edx, %ecx
	leaq	(%r8,%rcx,2), %r8
	pmaxub	%xmm8, %xmm2
.LBB51_18:
	ptest	%xmm2, %xmm2
	je	.LBB51_20
	xorl	%edx, %edx
	xorl	%eax, %eax
	popq	%rbx
	.cfi_def_cfa_offset 16
	popq	%r14
	.cfi_def_cfa_offset 8
	retq
.LBB51_20:
	.cfi_def_cfa_offset 24
	cmpb	$-65, -1(%rdi,%rsi)
	jbe	.LBB51_22
	leaq	-1(%rsi), %rax
	jmp	.LBB51_25
.LBB51_22:
	cmpb	$-33, -2(%rdi,%rsi)
	jbe	.LBB51_24
	leaq	-2(%rsi), %rax
	jmp	.LBB51_25
.LBB51_24:
	leaq	-3(%rsi), %rax
	cmpb	$-16, -3(%rdi,%rsi)
	cmovbq	%rsi, %rax
.LBB51_25:
	xorl	%edx, %edx
	cmpq	%rsi, %rax
	setae	%al
	cmovaeq	%r8, %rdx
	popq	%rbx
	.cfi_def_cfa_offset 16
	popq	%r14
	.cfi_def_cfa_offset 8
	retq
.Lfunc_end51:
	.size	"utf16_from_utf8::rest::write_rest_of::<#639a12b236a9ca5f>", .Lfunc_end51-"utf16_from_utf8::rest::write_rest_of::<#639a12b236a9ca5f>"
	.cfi_endproc

	.section	.rodata.cst16,"aM",@progbits,16
	.p2align	4, 0x0
.LCPI52_0:
	.zero	16,192
.LCPI52_1:
	.zero	16,224
.LCPI52_2:
	.zero	16,15
.LCPI52_3:
	.zero	16,191
.LCPI52_4:
	.zero	16,220
.LCPI52_5:
	.zero	16,252
.LCPI52_6:
	.zero	16,3
.LCPI52_7:
	.zero	16,63
.LCPI52_8:
	.zero	16,232
.LCPI52_9:
	.zero	16,239
.LCPI52_10:
	.zero	16,127
.LCPI52_11:
	.zero	16,223
.LCPI52_12:
	.zero	16,159
.LCPI52_13:
	.zero	16,237
.LCPI52_14:
	.zero	16,143
.LCPI52_15:
	.zero	16,245
.LCPI52_16:
	.zero	16,244
.LCPI52_17:
	.zero	16,240
.LCPI52_18:
	.zero	16,254
	.section	".text.utf16_from_utf8::rest::write_rest_of::<#333b1ec0269cc57c>","ax",@progbits
	.p2align	4
	.type	"utf16_from_utf8::rest::write_rest_of::<#333b1ec0269cc57c>",@function
"utf16_from_utf8::rest::write_rest_of::<#333b1ec0269cc57c>":
	.cfi_startproc
	pushq	%r14
	.cfi_def_cfa_offset 16
	pushq	%rbx
	.cfi_def_cfa_offset 24
	.cfi_offset %rbx, -24
	.cfi_offset %r14, -16
	movq	%rcx, %rax
	movq	%rsi, %rcx
	subq	%rdx, %rcx
	pxor	%xmm2, %xmm2
	xorl	%r8d, %r8d
	cmpq	$16, %rcx
	jae	.LBB52_6
.LBB52_1:
	cmpq	%rsi, %rdx
	je	.LBB52_24
	leaq	-16(%rsi), %rcx
	movdqu	-16(%rdi,%rsi), %xmm1
	cmpq	$3, %rcx
	jb	.LBB52_16
	movdqu	-3(%rdi,%rcx), %xmm4
	movdqu	-2(%rdi,%rcx), %xmm7
	movdqu	-1(%rdi,%rcx), %xmm3
	jmp	.LBB52_20
	.p2align	4
.LBB52_4:
	movdqa	.LCPI52_0(%rip), %xmm6
	movdqa	%xmm6, %xmm10
	movdqa	%xmm1, %xmm0
	pblendvb	%xmm0, %xmm3, %xmm10
	movdqa	.LCPI52_1(%rip), %xmm9
	movdqa	%xmm7, %xmm0
	pmaxub	%xmm9, %xmm0
	movdqa	%xmm10, %xmm5
	psrlw	$2, %xmm5
	movdqa	.LCPI52_2(%rip), %xmm8
	pand	%xmm8, %xmm5
	psllw	$4, %xmm0
	pandn	%xmm0, %xmm8
	por	%xmm5, %xmm8
	movdqa	%xmm10, %xmm0
	pmaxub	%xmm7, %xmm0
	movdqa	.LCPI52_3(%rip), %xmm11
	movdqa	%xmm0, %xmm14
	pminub	%xmm11, %xmm14
	pcmpeqb	%xmm0, %xmm14
	pand	.LCPI52_4(%rip), %xmm14
	por	%xmm8, %xmm14
	movdqa	%xmm3, %xmm0
	psllw	$2, %xmm0
	pand	.LCPI52_5(%rip), %xmm0
	movdqa	%xmm1, %xmm8
	psrlw	$4, %xmm8
	pand	.LCPI52_6(%rip), %xmm8
	pxor	%xmm12, %xmm12
	movdqa	.LCPI52_7(%rip), %xmm5
	pminub	%xmm0, %xmm5
	pcmpeqb	%xmm0, %xmm5
	paddb	%xmm7, %xmm5
	paddb	.LCPI52_8(%rip), %xmm5
	por	%xmm0, %xmm8
	paddb	%xmm6, %xmm8
	movdqa	.LCPI52_9(%rip), %xmm13
	movdqa	%xmm7, %xmm0
	pminub	%xmm13, %xmm0
	pcmpeqb	%xmm7, %xmm0
	pblendvb	%xmm0, %xmm14, %xmm5
	movdqa	.LCPI52_10(%rip), %xmm14
	pand	%xmm1, %xmm14
	psllw	$6, %xmm10
	pand	%xmm6, %xmm10
	paddb	%xmm14, %xmm10
	pblendvb	%xmm0, %xmm10, %xmm8
	movdqa	%xmm1, %xmm0
	pminub	%xmm11, %xmm0
	pcmpeqb	%xmm1, %xmm0
	movdqa	.LCPI52_11(%rip), %xmm10
	movdqa	%xmm3, %xmm14
	pminub	%xmm10, %xmm14
	pcmpeqb	%xmm3, %xmm14
	pand	%xmm0, %xmm14
	pmovmskb	%xmm14, %r9d
	movdqa	%xmm6, %xmm0
	pcmpgtb	%xmm1, %xmm0
	movdqa	%xmm3, %xmm14
	psubusb	%xmm11, %xmm14
	psubusb	%xmm10, %xmm7
	pmaxub	%xmm14, %xmm7
	psubusb	%xmm13, %xmm4
	por	%xmm7, %xmm4
	pcmpgtb	%xmm12, %xmm4
	pxor	%xmm0, %xmm4
	movdqa	.LCPI52_12(%rip), %xmm0
	pminub	%xmm1, %xmm0
	pcmpeqb	%xmm1, %xmm0
	movdqa	.LCPI52_13(%rip), %xmm7
	pblendvb	%xmm0, %xmm9, %xmm7
	pcmpeqb	%xmm3, %xmm7
	movdqa	.LCPI52_14(%rip), %xmm0
	pminub	%xmm1, %xmm0
	pcmpeqb	%xmm1, %xmm0
	movdqa	.LCPI52_15(%rip), %xmm9
	pmaxub	%xmm1, %xmm9
	pcmpeqb	%xmm1, %xmm9
	por	%xmm7, %xmm9
	movdqa	.LCPI52_16(%rip), %xmm7
	pblendvb	%xmm0, .LCPI52_17(%rip), %xmm7
	pcmpeqb	%xmm3, %xmm7
	pand	.LCPI52_18(%rip), %xmm1
	pcmpeqb	%xmm6, %xmm1
	por	%xmm4, %xmm1
	por	%xmm9, %xmm1
	por	%xmm7, %xmm1
	pmaxub	%xmm1, %xmm2
	movdqa	%xmm8, %xmm1
.LBB52_5:
	movdqa	%xmm5, %xmm0
	punpckhbw	%xmm1, %xmm0
	punpcklbw	%xmm1, %xmm5
	movzbl	%r9b, %r10d
	xorl	%r11d, %r11d
	popcntl	%r10d, %r11d
	shll	$4, %r10d
	leaq	.Lstatic.10(%rip), %rbx
	movdqu	(%r10,%rbx), %xmm1
	pshufb	%xmm1, %xmm5
	leaq	(%rax,%r8), %r10
	movdqu	%xmm5, (%rax,%r8)
	shrl	$8, %r9d
	xorl	%r14d, %r14d
	popcntl	%r9d, %r14d
	shll	$4, %r9d
	movdqu	(%r9,%rbx), %xmm1
	pshufb	%xmm1, %xmm0
	movdqu	%xmm0, (%r10,%r11,2)
	addl	%r11d, %r14d
	leaq	(%r8,%r14,2), %r8
	addq	$16, %rdx
	addq	$-16, %rcx
	cmpq	$15, %rcx
	jbe	.LBB52_1
.LBB52_6:
	movdqu	(%rdi,%rdx), %xmm1
	cmpq	$3, %rdx
	jb	.LBB52_8
	movdqu	-3(%rdi,%rdx), %xmm4
	movdqu	-2(%rdi,%rdx), %xmm7
	movdqu	-1(%rdi,%rdx), %xmm3
	jmp	.LBB52_14
	.p2align	4
.LBB52_8:
	testq	%rdx, %rdx
	je	.LBB52_11
	movzbl	-1(%rdi,%rdx), %r9d
	movd	%r9d, %xmm0
	pslldq	$15, %xmm0
	movdqa	%xmm1, %xmm3
	palignr	$15, %xmm0, %xmm3
	cmpq	$2, %rdx
	jne	.LBB52_12
	movzbl	(%rdi), %r9d
	jmp	.LBB52_13
.LBB52_11:
	movdqa	%xmm1, %xmm3
	pslldq	$1, %xmm3
.LBB52_12:
	xorl	%r9d, %r9d
.LBB52_13:
	movzbl	%r9b, %r9d
	movd	%r9d, %xmm0
	pslldq	$15, %xmm0
	movdqa	%xmm3, %xmm7
	palignr	$15, %xmm0, %xmm7
	movdqa	%xmm7, %xmm4
	pslldq	$1, %xmm4
.LBB52_14:
	movdqa	%xmm4, %xmm0
	por	%xmm1, %xmm0
	pmovmskb	%xmm0, %r9d
	testl	%r9d, %r9d
	jne	.LBB52_4
	pxor	%xmm5, %xmm5
	movl	$65535, %r9d
	jmp	.LBB52_5
.LBB52_16:
	movzbl	-17(%rdi,%rsi), %r9d
	movd	%r9d, %xmm0
	pslldq	$15, %xmm0
	movdqa	%xmm1, %xmm3
	palignr	$15, %xmm0, %xmm3
	cmpq	$2, %rcx
	jne	.LBB52_18
	movzbl	(%rdi), %r9d
	jmp	.LBB52_19
.LBB52_18:
	xorl	%r9d, %r9d
.LBB52_19:
	movzbl	%r9b, %r9d
	movd	%r9d, %xmm0
	pslldq	$15, %xmm0
	movdqa	%xmm3, %xmm7
	palignr	$15, %xmm0, %xmm7
	movdqa	%xmm7, %xmm4
	pslldq	$1, %xmm4
.LBB52_20:
	movdqa	%xmm4, %xmm0
	por	%xmm1, %xmm0
	pmovmskb	%xmm0, %r9d
	testl	%r9d, %r9d
	je	.LBB52_22
	movdqa	.LCPI52_0(%rip), %xmm6
	movdqa	%xmm6, %xmm10
	movdqa	%xmm1, %xmm0
	pblendvb	%xmm0, %xmm3, %xmm10
	movdqa	.LCPI52_1(%rip), %xmm9
	movdqa	%xmm7, %xmm0
	pmaxub	%xmm9, %xmm0
	movdqa	%xmm10, %xmm5
	psrlw	$2, %xmm5
	movdqa	.LCPI52_2(%rip), %xmm8
	pand	%xmm8, %xmm5
	psllw	$4, %xmm0
	pandn	%xmm0, %xmm8
	por	%xmm5, %xmm8
	movdqa	%xmm10, %xmm0
	pmaxub	%xmm7, %xmm0
	movdqa	.LCPI52_3(%rip), %xmm11
	movdqa	%xmm0, %xmm14
	pminub	%xmm11, %xmm14
	pcmpeqb	%xmm0, %xmm14
	pand	.LCPI52_4(%rip), %xmm14
	por	%xmm8, %xmm14
	movdqa	%xmm3, %xmm0
	psllw	$2, %xmm0
	pand	.LCPI52_5(%rip), %xmm0
	movdqa	%xmm1, %xmm8
	psrlw	$4, %xmm8
	pand	.LCPI52_6(%rip), %xmm8
	pxor	%xmm12, %xmm12
	movdqa	.LCPI52_7(%rip), %xmm5
	pminub	%xmm0, %xmm5
	pcmpeqb	%xmm0, %xmm5
	paddb	%xmm7, %xmm5
	paddb	.LCPI52_8(%rip), %xmm5
	por	%xmm0, %xmm8
	paddb	%xmm6, %xmm8
	movdqa	.LCPI52_9(%rip), %xmm13
	movdqa	%xmm7, %xmm0
	pminub	%xmm13, %xmm0
	pcmpeqb	%xmm7, %xmm0
	pblendvb	%xmm0, %xmm14, %xmm5
	movdqa	.LCPI52_10(%rip), %xmm14
	pand	%xmm1, %xmm14
	psllw	$6, %xmm10
	pand	%xmm6, %xmm10
	paddb	%xmm14, %xmm10
	pblendvb	%xmm0, %xmm10, %xmm8
	movdqa	%xmm1, %xmm0
	pminub	%xmm11, %xmm0
	pcmpeqb	%xmm1, %xmm0
	movdqa	.LCPI52_11(%rip), %xmm10
	movdqa	%xmm3, %xmm14
	pminub	%xmm10, %xmm14
	pcmpeqb	%xmm3, %xmm14
	pand	%xmm0, %xmm14
	pmovmskb	%xmm14, %r9d
	movdqa	%xmm6, %xmm0
	pcmpgtb	%xmm1, %xmm0
	movdqa	%xmm3, %xmm14
	psubusb	%xmm11, %xmm14
	psubusb	%xmm10, %xmm7
	pmaxub	%xmm14, %xmm7
	psubusb	%xmm13, %xmm4
	por	%xmm7, %xmm4
	pcmpgtb	%xmm12, %xmm4
	pxor	%xmm0, %xmm4
	movdqa	.LCPI52_12(%rip), %xmm0
	pminub	%xmm1, %xmm0
	pcmpeqb	%xmm1, %xmm0
	movdqa	.LCPI52_13(%rip), %xmm7
	pblendvb	%xmm0, %xmm9, %xmm7
	pcmpeqb	%xmm3, %xmm7
	movdqa	.LCPI52_14(%rip), %xmm0
	pminub	%xmm1, %xmm0
	pcmpeqb	%xmm1, %xmm0
	movdqa	.LCPI52_15(%rip), %xmm9
	pmaxub	%xmm1, %xmm9
	pcmpeqb	%xmm1, %xmm9
	por	%xmm7, %xmm9
	movdqa	.LCPI52_16(%rip), %xmm7
	pblendvb	%xmm0, .LCPI52_17(%rip), %xmm7
	pcmpeqb	%xmm3, %xmm7
	pand	.LCPI52_18(%rip), %xmm1
	pcmpeqb	%xmm6, %xmm1
	por	%xmm4, %xmm1
	por	%xmm9, %xmm1
	por	%xmm7, %xmm1
	pmaxub	%xmm1, %xmm2
	movdqa	%xmm8, %xmm1
	jmp	.LBB52_23
.LBB52_22:
	pxor	%xmm5, %xmm5
	movl	$65535, %r9d
.LBB52_23:
	subl	%ecx, %edx
	movdqa	%xmm5, %xmm0
	punpckhbw	%xmm1, %xmm0
	punpcklbw	%xmm1, %xmm5
	movq	$-1, %r10
	movl	%edx, %ecx
	shlq	%cl, %r10
	andl	%r10d, %r9d
	movzbl	%r9b, %ecx
	xorl	%edx, %edx
	popcntl	%ecx, %edx
	shll	$4, %ecx
	leaq	.Lstatic.10(%rip), %r10
	movdqu	(%rcx,%r10), %xmm1
	pshufb	%xmm1, %xmm5
	movdqu	%xmm5, (%rax,%r8)
	addq	%r8, %rax
	shrl	$8, %r9d
	xorl	%ecx, %ecx
	popcntl	%r9d, %ecx
	shll	$4, %r9d
	movdqu	(%r9,%r10), %xmm1
	pshufb	%xmm1, %xmm0
	movdqu	%xmm0, (%rax,%rdx,2)
	addl	%edx, %ecx
	leaq	(%r8,%rcx,2), %r8
.LBB52_24:
	ptest	%xmm2, %xmm2
	je	.LBB52_26
	xorl	%edx, %edx
	xorl	%eax, %eax
	popq	%rbx
	.cfi_def_cfa_offset 16
	popq	%r14
	.cfi_def_cfa_offset 8
	retq
.LBB52_26:
	.cfi_def_cfa_offset 24
	cmpb	$-65, -1(%rdi,%rsi)
	jbe	.LBB52_28
	leaq	-1(%rsi), %rax
	jmp	.LBB52_31
.LBB52_28:
	cmpb	$-33, -2(%rdi,%rsi)
	jbe	.LBB52_30
	leaq	-2(%rsi), %rax
	jmp	.LBB52_31
.LBB52_30:
	leaq	-3(%rsi), %rax
	cmpb	$-16, -3(%rdi,%rsi)
	cmovbq	%rsi, %rax
.LBB52_31:
	xorl	%edx, %edx
	cmpq	%rsi, %rax
	setae	%al
	cmovaeq	%r8, %rdx
	popq	%rbx
	.cfi_def_cfa_offset 16
	popq	%r14
	.cfi_def_cfa_offset 8
	retq
.Lfunc_end52:
	.size	"utf16_from_utf8::rest::write_rest_of::<#333b1ec0269cc57c>", .Lfunc_end52-"utf16_from_utf8::rest::write_rest_of::<#333b1ec0269cc57c>"
	.cfi_endproc

	.section	.rodata.cst16,"aM",@progbits,16
	.p2align	4, 0x0
.LCPI53_0:
	.zero	16,192
.LCPI53_1:
	.zero	16,191
.LCPI53_2:
	.zero	16,223
.LCPI53_3:
	.zero	16,239
.LCPI53_4:
	.zero	16,159
.LCPI53_5:
	.zero	16,237
.LCPI53_6:
	.zero	16,224
.LCPI53_7:
	.zero	16,143
.LCPI53_8:
	.zero	16,245
.LCPI53_9:
	.zero	16,244
.LCPI53_10:
	.zero	16,240
.LCPI53_11:
	.zero	16,254
.LCPI53_12:
	.zero	16,15
.LCPI53_13:
	.zero	16,220
.LCPI53_14:
	.zero	16,252
.LCPI53_15:
	.zero	16,3
.LCPI53_16:
	.zero	16,63
.LCPI53_17:
	.zero	16,232
.LCPI53_18:
	.zero	16,127
.LCPI53_19:
	.byte	1
	.byte	2
	.byte	3
	.byte	4
	.byte	5
	.byte	6
	.byte	7
	.byte	8
	.byte	9
	.byte	10
	.byte	11
	.byte	12
	.byte	13
	.byte	14
	.byte	15
	.byte	16
	.section	".text.utf16_transcode::transcoding::transcode_many::<#824f73f0383279b7>","ax",@progbits
	.p2align	4
	.type	"utf16_transcode::transcoding::transcode_many::<#824f73f0383279b7>",@function
"utf16_transcode::transcoding::transcode_many::<#824f73f0383279b7>":
	.cfi_startproc
	pushq	%rbp
	.cfi_def_cfa_offset 16
	pushq	%r15
	.cfi_def_cfa_offset 24
	pushq	%r14
	.cfi_def_cfa_offset 32
	pushq	%r13
	.cfi_def_cfa_offset 40
	pushq	%r12
	.cfi_def_cfa_offset 48
	pushq	%rbx
	.cfi_def_cfa_offset 56
	subq	$344, %rsp
	.cfi_def_cfa_offset 400
	.cfi_offset %rbx, -56
	.cfi_offset %r12, -48
	.cfi_offset %r13, -40
	.cfi_offset %r14, -32
	.cfi_offset %r15, -24
	.cfi_offset %rbp, -16
	movq	%r9, %r12
	movq	%r8, %r10
	movq	%rcx, %r15
	movq	400(%rsp), %r14
	movzbl	(%rsi,%r9), %ecx
	testb	%cl, %cl
	movq	%r8, (%rsp)
	js	.LBB53_194
.LBB53_1:
	movq	%rdi, 56(%rsp)
	cmpq	%r12, %rdx
	movq	%rdx, 32(%rsp)
	movq	%r15, 8(%rsp)
	movq	%rsi, 24(%rsp)
	ja	.LBB53_5
.LBB53_2:
	movq	56(%rsp), %rax
	movq	%r12, (%rax)
	movq	%r14, 8(%rax)
	movw	$0, 16(%rax)
	jmp	.LBB53_232
	.p2align	4
.LBB53_3:
	leal	67043328(%rax), %edi
	shrl	$10, %edi
	addl	$-10240, %edi
	rolw	$8, %di
	andl	$1023, %eax
	orl	$56320, %eax
	rolw	$8, %ax
	movw	%ax, 2(%r15,%r14)
	movl	$4, %ecx
	movl	%edi, %eax
.LBB53_4:
	movw	%ax, (%r15,%r14)
	addq	%rcx, %r14
	addq	%rbx, %r12
	cmpq	%rdx, %r12
	jae	.LBB53_2
.LBB53_5:
	leaq	(%rsi,%r12), %r13
	movq	%rdx, %rbx
	subq	%r12, %rbx
	cmpq	$16, %rbx
	jb	.LBB53_9
	leaq	(%r15,%r14), %rbp
	movq	%r10, %r15
	subq	%r14, %r15
	cmpq	$16, %rbx
	jne	.LBB53_12
	cmpq	$32, %r15
	jae	.LBB53_18
	xorl	%r9d, %r9d
	xorl	%eax, %eax
	jmp	.LBB53_77
	.p2align	4
.LBB53_9:
	xorl	%eax, %eax
	movq	%rbx, %rbp
	subq	%rax, %rbp
	je	.LBB53_79
.LBB53_10:
	addq	%rax, %r13
	cmpq	$7, %rbp
	ja	.LBB53_14
	movq	%r13, %rdi
	movq	%rbp, %rsi
	movq	%r15, %rdx
	movq	%r10, %rcx
	movq	%r14, %r8
	movq	%rax, %rbx
	callq	"utf16_transcode::transcoding::write_chars::<#824f73f0383279b7>"
	movq	%rbx, %r11
	movq	(%rsp), %r10
	movq	%rax, %rbx
	movq	%rdx, %r15
	movq	24(%rsp), %rsi
	jmp	.LBB53_128
	.p2align	4
.LBB53_12:
	movq	%r15, %rsi
	shrq	%rsi
	cmpq	%rbx, %rsi
	cmovaeq	%rbx, %rsi
	cmpq	$16, %rsi
	jb	.LBB53_13
	movdqu	(%r13), %xmm1
	pmovmskb	%xmm1, %eax
	testl	%eax, %eax
	je	.LBB53_52
.LBB53_13:
	xorl	%eax, %eax
.LBB53_72:
	leaq	(%rax,%rax), %r9
	movq	%rbx, %rcx
	subq	%rax, %rcx
	je	.LBB53_77
	cmpq	$191, %rcx
	jbe	.LBB53_75
	movq	%r13, %rdi
	movq	%rbx, %rsi
	movq	%rbp, %rdx
	movq	%r15, %rcx
	movq	%rax, %r8
	callq	"utf16_from_utf8::blocks::write_mixed_blocks::<#8b18edd9dd9aa8df>"
	movq	%rdx, %r9
	movq	%rbx, %rcx
	subq	%rax, %rcx
	cmpq	$191, %rcx
	ja	.LBB53_76
.LBB53_75:
	movq	%r13, %rdi
	movq	%rbx, %rsi
	movq	%rbp, %rdx
	movq	%r15, %rcx
	movq	%rax, %r8
	callq	"utf16_from_utf8::rest::write_rest::<#8b18edd9dd9aa8df>"
	movq	%rdx, %r9
.LBB53_76:
	movq	(%rsp), %r10
.LBB53_77:
	movq	32(%rsp), %rdx
	movq	8(%rsp), %r15
.LBB53_78:
	addq	%r9, %r14
	movq	%rbx, %rbp
	subq	%rax, %rbp
	jne	.LBB53_10
.LBB53_79:
	movq	24(%rsp), %rsi
	addq	%r12, %rbx
	movq	%rdx, %r11
	subq	%rbx, %r11
	jne	.LBB53_129
	jmp	.LBB53_206
	.p2align	4
.LBB53_14:
	cmpq	$128, %rbp
	movl	$128, %ebx
	cmovbq	%rbp, %rbx
	movq	%r10, %rsi
	subq	%r14, %rsi
	xorl	%edx, %edx
	movq	%rsi, %rcx
	subq	$16, %rcx
	cmovaeq	%rcx, %rdx
	shrq	%rdx
	cmpq	%rdx, %rbx
	movq	%rax, 16(%rsp)
	jbe	.LBB53_26
	cmpq	$23, %rsi
	ja	.LBB53_29
	movq	%r13, %rdi
	movq	%rbp, %rsi
	movq	%r15, %rdx
	movq	%r10, %rcx
.LBB53_17:
	movq	%r14, %r8
	callq	"utf16_transcode::transcoding::write_chars::<#824f73f0383279b7>"
	jmp	.LBB53_32
.LBB53_18:
	movdqu	(%r13), %xmm1
	pmovmskb	%xmm1, %eax
	testl	%eax, %eax
	movq	32(%rsp), %rdx
	movq	8(%rsp), %r15
	je	.LBB53_51
	movq	8(%r13), %xmm0
	pextrb	$5, %xmm0, %eax
	xorl	%r9d, %r9d
	cmpb	$-17, %al
	ja	.LBB53_80
	pextrb	$7, %xmm0, %eax
	cmpb	$-65, %al
	ja	.LBB53_80
	pextrb	$6, %xmm0, %ecx
	movl	$0, %eax
	cmpb	$-33, %cl
	ja	.LBB53_78
	movdqa	%xmm1, %xmm2
	pslldq	$1, %xmm2
	movdqa	%xmm1, %xmm4
	pslldq	$2, %xmm4
	movdqa	%xmm1, %xmm5
	pslldq	$3, %xmm5
	movdqa	.LCPI53_0(%rip), %xmm3
	movdqa	%xmm3, %xmm6
	pcmpgtb	%xmm1, %xmm6
	movdqa	%xmm2, %xmm0
	psubusb	.LCPI53_1(%rip), %xmm0
	movdqa	%xmm4, %xmm7
	psubusb	.LCPI53_2(%rip), %xmm7
	pmaxub	%xmm0, %xmm7
	psubusb	.LCPI53_3(%rip), %xmm5
	por	%xmm7, %xmm5
	pxor	%xmm7, %xmm7
	movdqa	.LCPI53_4(%rip), %xmm0
	pminub	%xmm1, %xmm0
	pcmpeqb	%xmm1, %xmm0
	movdqa	.LCPI53_5(%rip), %xmm8
	pblendvb	%xmm0, .LCPI53_6(%rip), %xmm8
	pcmpgtb	%xmm7, %xmm5
	pxor	%xmm6, %xmm5
	pcmpeqb	%xmm2, %xmm8
	movdqa	.LCPI53_7(%rip), %xmm0
	pminub	%xmm1, %xmm0
	pcmpeqb	%xmm1, %xmm0
	movdqa	.LCPI53_8(%rip), %xmm6
	movdqa	.LCPI53_9(%rip), %xmm7
	pblendvb	%xmm0, .LCPI53_10(%rip), %xmm7
	pmaxub	%xmm1, %xmm6
	pcmpeqb	%xmm1, %xmm6
	pcmpeqb	%xmm2, %xmm7
	por	%xmm8, %xmm7
	por	%xmm6, %xmm7
	movdqa	.LCPI53_11(%rip), %xmm0
	pand	%xmm1, %xmm0
	pcmpeqb	%xmm3, %xmm0
	por	%xmm5, %xmm0
	por	%xmm7, %xmm0
	pmovmskb	%xmm0, %eax
	testl	%eax, %eax
	je	.LBB53_81
	xorl	%r9d, %r9d
	xorl	%eax, %eax
	jmp	.LBB53_78
.LBB53_26:
	pxor	%xmm0, %xmm0
	cmpq	$63, %rbp
	ja	.LBB53_34
	movdqa	%xmm0, 80(%rsp)
	movdqa	%xmm0, 64(%rsp)
	leaq	64(%rsp), %rdi
	movq	%r13, %rsi
	movq	%rbx, %rdx
	callq	"simdutf8::compat::from_utf8"
	cmpb	$0, 64(%rsp)
	je	.LBB53_68
	movq	72(%rsp), %rax
	jmp	.LBB53_38
.LBB53_29:
	movq	%rsi, 40(%rsp)
	leaq	64(%rsp), %rdi
	movl	$276, %edx
	xorl	%esi, %esi
	callq	memset@PLT
	cmpq	$15, %rbp
	ja	.LBB53_59
	leaq	64(%rsp), %rdx
	movq	%r13, %rdi
	movq	%rbp, %rsi
	movq	%r15, %rcx
	movq	(%rsp), %r8
	movq	%r14, %r9
.LBB53_31:
	callq	"utf16_transcode::transcoding::write_buffered_text::<#824f73f0383279b7>"
.LBB53_32:
	movq	%rax, %rbx
	movq	%rdx, %r15
.LBB53_33:
	movq	(%rsp), %r10
	movq	24(%rsp), %rsi
	movq	16(%rsp), %r11
	jmp	.LBB53_128
.LBB53_34:
	movdqa	%xmm0, 80(%rsp)
	movdqa	%xmm0, 64(%rsp)
	leaq	64(%rsp), %rdi
	movl	$63, %r15d
	movl	$63, %edx
	movq	%r13, %rsi
	callq	"simdutf8::compat::from_utf8"
	cmpb	$0, 64(%rsp)
	movq	72(%rsp), %rax
	cmovneq	%rax, %r15
	leaq	4(%r15), %rcx
	cmpq	$64, %rcx
	jb	.LBB53_38
	leaq	(%r15,%r13), %rsi
	subq	%r15, %rbx
	pxor	%xmm0, %xmm0
	movdqa	%xmm0, 80(%rsp)
	movdqa	%xmm0, 64(%rsp)
	leaq	64(%rsp), %rdi
	movq	%rbx, %rdx
	callq	"simdutf8::compat::from_utf8"
	cmpb	$0, 64(%rsp)
	je	.LBB53_37
	movq	72(%rsp), %rbx
.LBB53_37:
	addq	%r15, %rbx
	movq	%rbx, %rax
.LBB53_38:
	testq	%rax, %rax
	je	.LBB53_55
	movq	8(%rsp), %r15
	leaq	(%r15,%r14), %rbp
	cmpq	$7, %rax
	movq	(%rsp), %r10
	movq	16(%rsp), %r11
	ja	.LBB53_56
	xorl	%r9d, %r9d
	movq	%rax, %rcx
	jmp	.LBB53_41
.LBB53_49:
	addl	$67043328, %edx
	shrl	$10, %edx
	addl	$-10240, %edx
	rolw	$8, %dx
	movw	%dx, (%r8)
	orl	$56320, %esi
	rolw	$8, %si
	movw	%si, 2(%r8)
	movl	$4, %edx
	addq	%rdx, %r9
	testq	%rcx, %rcx
	je	.LBB53_50
	.p2align	4
.LBB53_41:
	movzbl	(%r13), %edx
	movl	$1, %esi
	testb	%dl, %dl
	jns	.LBB53_46
	movzbl	1(%r13), %edi
	andl	$63, %edi
	cmpb	$-33, %dl
	ja	.LBB53_44
	andl	$31, %edx
	shll	$6, %edx
	orl	%edi, %edx
	movl	$2, %esi
	jmp	.LBB53_46
.LBB53_44:
	movzbl	2(%r13), %esi
	andl	$63, %esi
	cmpb	$-17, %dl
	ja	.LBB53_48
	shll	$12, %edx
	movzwl	%dx, %edx
	shll	$6, %edi
	orl	%edx, %edi
	orl	%esi, %edi
	movl	$3, %esi
	movl	%edi, %edx
	.p2align	4
.LBB53_46:
	addq	%rsi, %r13
	subq	%rsi, %rcx
	leaq	(%r9,%rbp), %r8
.LBB53_47:
	rolw	$8, %dx
	movw	%dx, (%r8)
	movl	$2, %edx
	addq	%rdx, %r9
	testq	%rcx, %rcx
	jne	.LBB53_41
	jmp	.LBB53_50
.LBB53_48:
	movzbl	3(%r13), %r8d
	andl	$63, %r8d
	andl	$7, %edx
	shll	$18, %edx
	shll	$12, %edi
	orl	%edx, %edi
	shll	$6, %esi
	orl	%r8d, %esi
	leal	(%rsi,%rdi), %edx
	addq	$4, %r13
	addq	$-4, %rcx
	leaq	(%r9,%rbp), %r8
	cmpl	$65535, %edi
	jbe	.LBB53_47
	jmp	.LBB53_49
.LBB53_52:
	cmpq	$31, %rsi
	ja	.LBB53_71
	pxor	%xmm0, %xmm0
	pxor	%xmm2, %xmm2
	punpckhbw	%xmm1, %xmm2
	pxor	%xmm3, %xmm3
	punpcklbw	%xmm1, %xmm3
	movdqu	%xmm3, (%rbp)
	movdqu	%xmm2, 16(%rbp)
	movdqu	-16(%rsi,%r13), %xmm1
	pmovmskb	%xmm1, %ecx
	movl	$16, %eax
	testl	%ecx, %ecx
	jne	.LBB53_72
	pxor	%xmm2, %xmm2
	punpckhbw	%xmm1, %xmm2
	punpcklbw	%xmm1, %xmm0
	movdqu	%xmm0, -32(%rbp,%rsi,2)
	movdqu	%xmm2, -16(%rbp,%rsi,2)
	movq	%rsi, %rax
	jmp	.LBB53_72
.LBB53_51:
	pxor	%xmm0, %xmm0
	pxor	%xmm2, %xmm2
	punpckhbw	%xmm1, %xmm2
	punpcklbw	%xmm1, %xmm0
	movdqu	%xmm0, (%rbp)
	movdqu	%xmm2, 16(%rbp)
	movl	$16, %eax
	movl	$32, %r9d
	jmp	.LBB53_78
.LBB53_55:
	xorl	%ebx, %ebx
	movq	(%rsp), %r10
	movq	24(%rsp), %rsi
	movq	16(%rsp), %r11
	jmp	.LBB53_127
.LBB53_56:
	movq	%rax, %rbx
	cmpq	$16, %rbx
	ja	.LBB53_69
.LBB53_57:
	movq	-8(%r13,%rbx), %xmm0
	movq	(%r13), %xmm1
	punpcklqdq	%xmm0, %xmm1
	movq	%rbx, %rax
	shlq	$4, %rax
	leaq	.Lstatic.1(%rip), %rcx
	movdqu	-128(%rax,%rcx), %xmm0
	pshufb	%xmm0, %xmm1
	pmovmskb	%xmm1, %ecx
	leaq	(%r15,%r14), %rax
	testl	%ecx, %ecx
	je	.LBB53_87
	leaq	.Lstatic.2(%rip), %rcx
	subq	%rbx, %rcx
	movdqu	16(%rcx), %xmm0
	pmaxub	%xmm0, %xmm1
	movdqa	%xmm1, %xmm6
	pslldq	$1, %xmm6
	movdqa	%xmm1, %xmm5
	pslldq	$2, %xmm5
	movdqa	.LCPI53_0(%rip), %xmm4
	movdqa	%xmm4, %xmm3
	movdqa	%xmm1, %xmm0
	pblendvb	%xmm0, %xmm6, %xmm3
	movdqa	.LCPI53_1(%rip), %xmm2
	movdqa	.LCPI53_6(%rip), %xmm0
	pmaxub	%xmm5, %xmm0
	movdqa	%xmm3, %xmm7
	psrlw	$2, %xmm7
	movdqa	.LCPI53_12(%rip), %xmm8
	pand	%xmm8, %xmm7
	psllw	$4, %xmm0
	pandn	%xmm0, %xmm8
	por	%xmm7, %xmm8
	movdqa	%xmm3, %xmm0
	pmaxub	%xmm5, %xmm0
	movdqa	%xmm0, %xmm7
	pminub	%xmm2, %xmm7
	pcmpeqb	%xmm0, %xmm7
	pand	.LCPI53_13(%rip), %xmm7
	por	%xmm8, %xmm7
	movdqa	.LCPI53_2(%rip), %xmm8
	pminub	%xmm6, %xmm8
	pcmpeqb	%xmm6, %xmm8
	movdqa	%xmm6, %xmm0
	psllw	$2, %xmm0
	pand	.LCPI53_14(%rip), %xmm0
	movdqa	%xmm1, %xmm9
	psrlw	$4, %xmm9
	pand	.LCPI53_15(%rip), %xmm9
	movdqa	.LCPI53_16(%rip), %xmm6
	pminub	%xmm0, %xmm6
	pcmpeqb	%xmm0, %xmm6
	paddb	%xmm5, %xmm6
	paddb	.LCPI53_17(%rip), %xmm6
	por	%xmm0, %xmm9
	paddb	%xmm4, %xmm9
	movdqa	.LCPI53_3(%rip), %xmm0
	pminub	%xmm5, %xmm0
	pcmpeqb	%xmm5, %xmm0
	pblendvb	%xmm0, %xmm7, %xmm6
	movdqa	.LCPI53_18(%rip), %xmm5
	pand	%xmm1, %xmm5
	psllw	$6, %xmm3
	pand	%xmm4, %xmm3
	paddb	%xmm5, %xmm3
	pblendvb	%xmm0, %xmm3, %xmm9
	movdqa	%xmm6, %xmm0
	punpckhbw	%xmm9, %xmm0
	punpcklbw	%xmm9, %xmm6
	pminub	%xmm1, %xmm2
	pcmpeqb	%xmm1, %xmm2
	pand	%xmm2, %xmm8
	pmovmskb	%xmm8, %ecx
	movzbl	%cl, %edx
	popcntl	%edx, %esi
	shll	$4, %edx
	leaq	.Lstatic.10(%rip), %rdi
	movdqu	(%rdx,%rdi), %xmm1
	pshufb	%xmm1, %xmm6
	movdqu	%xmm6, (%rbp)
	shrl	$8, %ecx
	popcntl	%ecx, %r9d
	shll	$4, %ecx
	movdqu	(%rcx,%rdi), %xmm1
	pshufb	%xmm1, %xmm0
	movdqu	%xmm0, (%rax,%rsi,2)
	addl	%esi, %r9d
	addl	%r9d, %r9d
	jmp	.LBB53_126
.LBB53_50:
	movq	%rax, %rbx
	jmp	.LBB53_126
.LBB53_59:
	movzbl	(%r13), %r9d
	movl	$1, %eax
	testb	%r9b, %r9b
	movq	(%rsp), %rcx
	js	.LBB53_84
.LBB53_60:
	movzbl	(%r13,%rax), %r10d
	testb	%r10b, %r10b
	js	.LBB53_89
.LBB53_61:
	xorl	%esi, %esi
	movq	40(%rsp), %rdi
	cmpq	$65, %rdi
	setae	%sil
	shll	$6, %esi
	addq	$66, %rsi
	cmpq	%rbp, %rsi
	cmovaeq	%rbp, %rsi
	cmpq	$16, %rbp
	jne	.LBB53_92
	movq	-8(%r13,%rsi), %xmm0
	movq	(%r13), %xmm1
	punpcklqdq	%xmm0, %xmm1
	movq	%rsi, %rax
	shlq	$4, %rax
	leaq	.Lstatic.1(%rip), %rcx
	movdqu	-128(%rax,%rcx), %xmm2
	pshufb	%xmm2, %xmm1
	pmovmskb	%xmm1, %eax
	testl	%eax, %eax
	je	.LBB53_109
	pextrb	$5, %xmm0, %eax
	xorl	%r15d, %r15d
	cmpb	$-17, %al
	ja	.LBB53_166
	pextrb	$7, %xmm0, %eax
	cmpb	$-65, %al
	ja	.LBB53_166
	pextrb	$6, %xmm0, %eax
	movl	$0, %ebx
	cmpb	$-33, %al
	ja	.LBB53_167
	movdqa	%xmm1, %xmm2
	pslldq	$1, %xmm2
	movdqa	%xmm1, %xmm4
	pslldq	$2, %xmm4
	movdqa	%xmm1, %xmm5
	pslldq	$3, %xmm5
	movdqa	.LCPI53_0(%rip), %xmm3
	movdqa	%xmm3, %xmm0
	movdqa	%xmm2, %xmm6
	psubusb	.LCPI53_1(%rip), %xmm6
	pcmpgtb	%xmm1, %xmm0
	movdqa	%xmm4, %xmm7
	psubusb	.LCPI53_2(%rip), %xmm7
	pmaxub	%xmm6, %xmm7
	psubusb	.LCPI53_3(%rip), %xmm5
	por	%xmm7, %xmm5
	pxor	%xmm6, %xmm6
	pcmpgtb	%xmm6, %xmm5
	pxor	%xmm0, %xmm5
	movdqa	.LCPI53_4(%rip), %xmm0
	pminub	%xmm1, %xmm0
	pcmpeqb	%xmm1, %xmm0
	movdqa	.LCPI53_5(%rip), %xmm7
	pblendvb	%xmm0, .LCPI53_6(%rip), %xmm7
	pcmpeqb	%xmm2, %xmm7
	movdqa	.LCPI53_7(%rip), %xmm0
	pminub	%xmm1, %xmm0
	pcmpeqb	%xmm1, %xmm0
	movdqa	.LCPI53_8(%rip), %xmm8
	pmaxub	%xmm1, %xmm8
	pcmpeqb	%xmm1, %xmm8
	movdqa	.LCPI53_9(%rip), %xmm9
	pblendvb	%xmm0, .LCPI53_10(%rip), %xmm9
	pcmpeqb	%xmm2, %xmm9
	por	%xmm7, %xmm9
	movdqa	.LCPI53_11(%rip), %xmm0
	pand	%xmm1, %xmm0
	pcmpeqb	%xmm3, %xmm0
	por	%xmm5, %xmm0
	por	%xmm8, %xmm0
	por	%xmm9, %xmm0
	movd	%esi, %xmm5
	pshufb	%xmm6, %xmm5
	movdqa	.LCPI53_19(%rip), %xmm6
	pmaxub	%xmm5, %xmm6
	pcmpeqb	%xmm5, %xmm6
	psllw	$7, %xmm0
	pand	%xmm6, %xmm0
	pmovmskb	%xmm0, %eax
	testl	%eax, %eax
	je	.LBB53_165
	xorl	%r15d, %r15d
.LBB53_166:
	xorl	%ebx, %ebx
	jmp	.LBB53_167
.LBB53_80:
	xorl	%eax, %eax
	jmp	.LBB53_78
.LBB53_68:
	leaq	(%r15,%r14), %rbp
	movq	(%rsp), %r10
	movq	16(%rsp), %r11
	cmpq	$16, %rbx
	jbe	.LBB53_57
.LBB53_69:
	leaq	16(,%rbx,2), %r15
	movq	%r15, %rsi
	shrq	%rsi
	cmpq	%rbx, %rsi
	cmovaeq	%rbx, %rsi
	cmpq	$32, %r15
	jb	.LBB53_70
	movdqu	(%r13), %xmm1
	pmovmskb	%xmm1, %eax
	testl	%eax, %eax
	je	.LBB53_101
.LBB53_70:
	xorl	%r8d, %r8d
.LBB53_119:
	leaq	(%r8,%r8), %r9
	movq	%rbx, %rax
	subq	%r8, %rax
	je	.LBB53_126
	cmpq	$191, %rax
	ja	.LBB53_122
	movq	%r13, %rdi
	movq	%rbx, %rsi
	movq	%rbp, %rdx
	movq	%r15, %rcx
	jmp	.LBB53_124
.LBB53_71:
	movq	%r13, %rdi
	movq	%rbp, %rdx
	callq	"utf16_from_utf8::ascii::write_front::<#8b18edd9dd9aa8df>"
	movq	(%rsp), %r10
	jmp	.LBB53_72
.LBB53_81:
	movdqa	%xmm3, %xmm6
	movdqa	%xmm1, %xmm0
	pblendvb	%xmm0, %xmm2, %xmm6
	movdqa	.LCPI53_1(%rip), %xmm5
	movdqa	.LCPI53_6(%rip), %xmm0
	pmaxub	%xmm4, %xmm0
	movdqa	%xmm6, %xmm7
	psrlw	$2, %xmm7
	movdqa	.LCPI53_12(%rip), %xmm8
	pand	%xmm8, %xmm7
	psllw	$4, %xmm0
	pandn	%xmm0, %xmm8
	por	%xmm7, %xmm8
	movdqa	%xmm6, %xmm0
	pmaxub	%xmm4, %xmm0
	movdqa	%xmm0, %xmm9
	pminub	%xmm5, %xmm9
	pcmpeqb	%xmm0, %xmm9
	pand	.LCPI53_13(%rip), %xmm9
	por	%xmm8, %xmm9
	movdqa	%xmm2, %xmm0
	psllw	$2, %xmm0
	pand	.LCPI53_14(%rip), %xmm0
	movdqa	%xmm1, %xmm8
	psrlw	$4, %xmm8
	pand	.LCPI53_15(%rip), %xmm8
	movdqa	.LCPI53_16(%rip), %xmm7
	pminub	%xmm0, %xmm7
	pcmpeqb	%xmm0, %xmm7
	paddb	%xmm4, %xmm7
	paddb	.LCPI53_17(%rip), %xmm7
	por	%xmm0, %xmm8
	paddb	%xmm3, %xmm8
	movdqa	.LCPI53_3(%rip), %xmm0
	pminub	%xmm4, %xmm0
	pcmpeqb	%xmm4, %xmm0
	pblendvb	%xmm0, %xmm9, %xmm7
	movdqa	.LCPI53_18(%rip), %xmm4
	pand	%xmm1, %xmm4
	psllw	$6, %xmm6
	pand	%xmm3, %xmm6
	paddb	%xmm4, %xmm6
	pblendvb	%xmm0, %xmm6, %xmm8
	movdqa	%xmm7, %xmm0
	punpckhbw	%xmm8, %xmm0
	punpcklbw	%xmm8, %xmm7
	movdqa	.LCPI53_2(%rip), %xmm3
	pminub	%xmm2, %xmm3
	pcmpeqb	%xmm2, %xmm3
	pminub	%xmm1, %xmm5
	pcmpeqb	%xmm1, %xmm5
	pand	%xmm3, %xmm5
	pmovmskb	%xmm5, %eax
	movzbl	%al, %ecx
	popcntl	%ecx, %edi
	shll	$4, %ecx
	leaq	.Lstatic.10(%rip), %rsi
	movdqu	(%rcx,%rsi), %xmm1
	pshufb	%xmm1, %xmm7
	movdqu	%xmm7, (%rbp)
	shrl	$8, %eax
	popcntl	%eax, %r9d
	shll	$4, %eax
	movdqu	(%rax,%rsi), %xmm1
	pshufb	%xmm1, %xmm0
	movdqu	%xmm0, (%rbp,%rdi,2)
	addl	%edi, %r9d
	addl	%r9d, %r9d
	movl	$16, %eax
	jmp	.LBB53_78
.LBB53_84:
	cmpb	$-31, %r9b
	jae	.LBB53_98
	movzbl	1(%r13), %edx
	movl	%r9d, %eax
	shrb	$4, %al
	andb	$12, %al
	movl	%edx, %esi
	shrb	$6, %sil
	orb	%al, %sil
	cmpb	$14, %sil
	jne	.LBB53_193
	leal	62(%r9), %esi
	movl	$2, %eax
	cmpb	$30, %sil
	jb	.LBB53_60
	jmp	.LBB53_115
.LBB53_87:
	leaq	(%rbx,%rbx), %r9
	pxor	%xmm0, %xmm0
	pxor	%xmm2, %xmm2
	punpckhbw	%xmm1, %xmm2
	punpcklbw	%xmm1, %xmm0
	movdqu	%xmm0, (%rbp)
	movdqu	%xmm2, 16(%rax)
	jmp	.LBB53_126
.LBB53_89:
	leal	31(%r10), %esi
	movzbl	1(%r13,%rax), %edx
	cmpb	$11, %sil
	ja	.LBB53_104
	cmpb	$-65, %dl
	jg	.LBB53_193
	cmpb	$-64, 2(%r13,%rax)
	jl	.LBB53_61
	jmp	.LBB53_193
.LBB53_92:
	movdqu	(%r13), %xmm1
	pmovmskb	%xmm1, %eax
	testl	%eax, %eax
	je	.LBB53_110
	xorl	%r15d, %r15d
	xorl	%ebx, %ebx
.LBB53_94:
	movq	%rsi, %rax
	subq	%rbx, %rax
	cmpq	$191, %rax
	jbe	.LBB53_96
	leaq	64(%rsp), %rdx
	movl	$276, %ecx
	movq	%r13, %rdi
	movq	%rsi, 48(%rsp)
	movq	48(%rsp), %rsi
	movq	%rbx, %r8
	movq	%r15, %r9
	callq	"utf16_from_utf8::blocks::write_mixed_blocks::<#8b18edd9dd9aa8df>"
	movq	48(%rsp), %rsi
	movq	%rax, %rbx
	movq	%rdx, %r15
	movq	%rsi, %rax
	subq	%rbx, %rax
	cmpq	$191, %rax
	ja	.LBB53_97
.LBB53_96:
	leaq	64(%rsp), %rdx
	movl	$276, %ecx
	movq	%r13, %rdi
	movq	%rbx, %r8
	movq	%r15, %r9
	callq	"utf16_from_utf8::rest::write_rest::<#8b18edd9dd9aa8df>"
	movq	%rax, %rbx
	movq	%rdx, %r15
.LBB53_97:
	movq	40(%rsp), %rdi
	jmp	.LBB53_167
.LBB53_122:
	movq	%r13, %rdi
	movq	%rbx, %rsi
	movq	%rbp, %rdx
	movq	%r15, %rcx
	callq	"utf16_from_utf8::blocks::write_mixed_blocks::<#8b18edd9dd9aa8df>"
	movq	%rdx, %r9
	movq	%rbx, %rcx
	subq	%rax, %rcx
	cmpq	$191, %rcx
	ja	.LBB53_125
	movq	%r13, %rdi
	movq	%rbx, %rsi
	movq	%rbp, %rdx
	movq	%r15, %rcx
	movq	%rax, %r8
.LBB53_124:
	callq	"utf16_from_utf8::rest::write_rest::<#8b18edd9dd9aa8df>"
	movq	%rdx, %r9
.LBB53_125:
	movq	(%rsp), %r10
	movq	16(%rsp), %r11
.LBB53_126:
	movq	24(%rsp), %rsi
	addq	%r9, %r14
.LBB53_127:
	movq	%r14, %r15
.LBB53_128:
	addq	%r11, %rbx
	movq	%r15, %r14
	movq	32(%rsp), %rdx
	movq	8(%rsp), %r15
	addq	%r12, %rbx
	movq	%rdx, %r11
	subq	%rbx, %r11
	je	.LBB53_206
.LBB53_129:
	movzbl	(%rsi,%rbx), %eax
	testb	%al, %al
	js	.LBB53_134
	movl	$1, %r12d
.LBB53_131:
	movq	%r10, %rcx
	subq	%r14, %rcx
	xorl	%edi, %edi
	cmpl	$65536, %eax
	setae	%dil
	leaq	2(,%rdi,2), %rdi
	cmpq	%rdi, %rcx
	jb	.LBB53_207
	cmpl	$65535, %eax
	ja	.LBB53_3
	rolw	$8, %ax
	movl	$2, %ecx
	jmp	.LBB53_4
	.p2align	4
.LBB53_134:
	cmpq	$3, %r11
	jb	.LBB53_139
	leal	31(%rax), %ecx
	cmpb	$11, %cl
	ja	.LBB53_140
	movzbl	1(%rsi,%rbx), %ecx
	cmpb	$-65, %cl
	jg	.LBB53_140
	movzbl	2(%rsi,%rbx), %edi
	cmpb	$-65, %dil
	jg	.LBB53_140
	shll	$12, %eax
	shll	$6, %ecx
	addl	%eax, %ecx
	leal	(%rdi,%rcx), %eax
	addl	$-925824, %eax
	movl	$3, %r12d
	jmp	.LBB53_131
.LBB53_139:
	cmpq	$2, %r11
	jne	.LBB53_219
.LBB53_140:
	movzbl	1(%rsi,%rbx), %r12d
	movl	%eax, %ecx
	shrb	$4, %cl
	andb	$12, %cl
	movl	%r12d, %edi
	shrb	$6, %dil
	orb	%cl, %dil
	movb	$1, %cl
	cmpb	$14, %dil
	jne	.LBB53_230
	leal	31(%rax), %edi
	cmpb	$12, %dil
	jae	.LBB53_146
.LBB53_142:
	cmpq	$2, %r11
	je	.LBB53_217
	movzbl	2(%rsi,%rbx), %edi
	cmpb	$-65, %dil
	jg	.LBB53_218
	cmpb	$-17, %al
	ja	.LBB53_150
	shll	$12, %eax
	shll	$6, %r12d
	addl	%eax, %r12d
	leal	(%rdi,%r12), %eax
	addl	$-925824, %eax
	movl	$3, %r12d
	jmp	.LBB53_131
.LBB53_146:
	leal	62(%rax), %edi
	cmpb	$30, %dil
	jb	.LBB53_161
	movb	$-65, %r8b
	leal	-224(%rax), %r9d
	cmpl	$20, %r9d
	ja	.LBB53_156
	leaq	.LJTI53_3(%rip), %r10
	movslq	(%r10,%r9,4), %r9
	addq	%r10, %r9
	movq	(%rsp), %r10
	notrack jmpq	*%r9
.LBB53_149:
	movb	$-96, %r9b
	jmp	.LBB53_157
.LBB53_150:
	cmpq	$4, %r11
	jb	.LBB53_217
	movzbl	3(%rsi,%rbx), %r8d
	cmpb	$-65, %r8b
	jg	.LBB53_220
	shll	$18, %eax
	shll	$12, %r12d
	addl	%eax, %r12d
	shll	$6, %edi
	addl	%r12d, %edi
	leal	(%r8,%rdi), %eax
	addl	$-63447168, %eax
	movl	$4, %r12d
	jmp	.LBB53_131
.LBB53_153:
	movb	$-112, %r9b
	jmp	.LBB53_157
.LBB53_154:
	movb	$-97, %r8b
	jmp	.LBB53_156
.LBB53_155:
	movb	$-113, %r8b
.LBB53_156:
	movb	$-128, %r9b
.LBB53_157:
	cmpb	$50, %dil
	ja	.LBB53_230
	cmpb	%r12b, %r9b
	ja	.LBB53_230
	cmpb	%r8b, %r12b
	ja	.LBB53_230
	cmpb	$-33, %al
	ja	.LBB53_142
.LBB53_161:
	shll	$6, %eax
	addl	%r12d, %eax
	addl	$-12416, %eax
	movl	$2, %r12d
	jmp	.LBB53_131
.LBB53_98:
	movzbl	1(%r13), %edx
	cmpb	$-20, %r9b
	ja	.LBB53_113
	cmpb	$-65, %dl
	jg	.LBB53_193
	movl	$3, %eax
	cmpb	$-64, 2(%r13)
	jl	.LBB53_60
	jmp	.LBB53_193
.LBB53_101:
	cmpq	$31, %rsi
	ja	.LBB53_118
	pxor	%xmm0, %xmm0
	pxor	%xmm2, %xmm2
	punpckhbw	%xmm1, %xmm2
	pxor	%xmm3, %xmm3
	punpcklbw	%xmm1, %xmm3
	movq	8(%rsp), %rax
	movdqu	%xmm3, (%rax,%r14)
	movdqu	%xmm2, 16(%rax,%r14)
	movdqu	-16(%rsi,%r13), %xmm1
	pmovmskb	%xmm1, %eax
	movl	$16, %r8d
	testl	%eax, %eax
	jne	.LBB53_119
	movq	8(%rsp), %rax
	addq	%r14, %rax
	pxor	%xmm2, %xmm2
	punpckhbw	%xmm1, %xmm2
	punpcklbw	%xmm1, %xmm0
	movdqu	%xmm0, -32(%rax,%rsi,2)
	movdqu	%xmm2, -16(%rax,%rsi,2)
	movq	%rsi, %r8
	jmp	.LBB53_119
.LBB53_104:
	movl	%r10d, %esi
	shrb	$4, %sil
	andb	$12, %sil
	movl	%edx, %edi
	shrb	$6, %dil
	orb	%sil, %dil
	cmpb	$14, %dil
	jne	.LBB53_193
	leal	62(%r10), %esi
	cmpb	$30, %sil
	jb	.LBB53_61
	movb	$-65, %dil
	leal	-224(%r10), %r8d
	cmpl	$20, %r8d
	ja	.LBB53_185
	leaq	.LJTI53_2(%rip), %r9
	movslq	(%r9,%r8,4), %r8
	addq	%r9, %r8
	notrack jmpq	*%r8
.LBB53_108:
	movb	$-96, %r8b
	jmp	.LBB53_186
.LBB53_109:
	pxor	%xmm0, %xmm0
	pxor	%xmm2, %xmm2
	punpckhbw	%xmm1, %xmm2
	punpcklbw	%xmm1, %xmm0
	movdqa	%xmm0, 64(%rsp)
	movdqa	%xmm2, 80(%rsp)
	movl	$16, %ebx
	movl	$32, %r15d
	jmp	.LBB53_167
.LBB53_110:
	cmpq	$31, %rbp
	ja	.LBB53_162
	pxor	%xmm0, %xmm0
	pxor	%xmm2, %xmm2
	punpckhbw	%xmm1, %xmm2
	pxor	%xmm3, %xmm3
	punpcklbw	%xmm1, %xmm3
	movdqa	%xmm3, 64(%rsp)
	movdqa	%xmm2, 80(%rsp)
	movdqu	-16(%rsi,%r13), %xmm1
	pmovmskb	%xmm1, %eax
	movl	$16, %ebx
	testl	%eax, %eax
	jne	.LBB53_163
	pxor	%xmm2, %xmm2
	punpckhbw	%xmm1, %xmm2
	punpcklbw	%xmm1, %xmm0
	movdqu	%xmm0, 32(%rsp,%rsi,2)
	movdqu	%xmm2, 48(%rsp,%rsi,2)
	leaq	(%rsi,%rsi), %r15
	movq	%rsi, %rbx
	jmp	.LBB53_167
.LBB53_113:
	cmpb	$-65, %dl
	jg	.LBB53_193
	leal	62(%r9), %esi
.LBB53_115:
	movb	$-65, %al
	leal	-224(%r9), %edi
	cmpl	$20, %edi
	ja	.LBB53_174
	leaq	.LJTI53_1(%rip), %r8
	movslq	(%r8,%rdi,4), %rdi
	addq	%r8, %rdi
	notrack jmpq	*%rdi
.LBB53_117:
	movb	$-96, %dil
	jmp	.LBB53_175
.LBB53_118:
	movq	%r13, %rdi
	movq	%rbp, %rdx
	callq	"utf16_from_utf8::ascii::write_front::<#8b18edd9dd9aa8df>"
	movq	16(%rsp), %r11
	movq	(%rsp), %r10
	movq	%rax, %r8
	jmp	.LBB53_119
.LBB53_162:
	leaq	64(%rsp), %rdx
	movq	%r13, %rdi
	movq	%rsi, %rbx
	callq	"utf16_from_utf8::ascii::write_front::<#8b18edd9dd9aa8df>"
	movq	%rbx, %rsi
	movq	40(%rsp), %rdi
	movq	%rax, %rbx
.LBB53_163:
	leaq	(%rbx,%rbx), %r15
	cmpq	%rsi, %rbx
	jne	.LBB53_94
	jmp	.LBB53_167
.LBB53_165:
	movdqa	%xmm3, %xmm6
	movdqa	%xmm1, %xmm0
	pblendvb	%xmm0, %xmm2, %xmm6
	movdqa	.LCPI53_1(%rip), %xmm5
	movdqa	.LCPI53_6(%rip), %xmm0
	pmaxub	%xmm4, %xmm0
	movdqa	%xmm6, %xmm7
	psrlw	$2, %xmm7
	movdqa	.LCPI53_12(%rip), %xmm8
	pand	%xmm8, %xmm7
	psllw	$4, %xmm0
	pandn	%xmm0, %xmm8
	por	%xmm7, %xmm8
	movdqa	%xmm6, %xmm0
	pmaxub	%xmm4, %xmm0
	movdqa	%xmm0, %xmm9
	pminub	%xmm5, %xmm9
	pcmpeqb	%xmm0, %xmm9
	pand	.LCPI53_13(%rip), %xmm9
	por	%xmm8, %xmm9
	movdqa	%xmm2, %xmm0
	psllw	$2, %xmm0
	pand	.LCPI53_14(%rip), %xmm0
	movdqa	%xmm1, %xmm8
	psrlw	$4, %xmm8
	pand	.LCPI53_15(%rip), %xmm8
	movdqa	.LCPI53_16(%rip), %xmm7
	pminub	%xmm0, %xmm7
	pcmpeqb	%xmm0, %xmm7
	paddb	%xmm4, %xmm7
	paddb	.LCPI53_17(%rip), %xmm7
	por	%xmm0, %xmm8
	paddb	%xmm3, %xmm8
	movdqa	.LCPI53_3(%rip), %xmm0
	pminub	%xmm4, %xmm0
	pcmpeqb	%xmm4, %xmm0
	pblendvb	%xmm0, %xmm9, %xmm7
	movdqa	.LCPI53_18(%rip), %xmm4
	pand	%xmm1, %xmm4
	psllw	$6, %xmm6
	pand	%xmm3, %xmm6
	paddb	%xmm4, %xmm6
	pblendvb	%xmm0, %xmm6, %xmm8
	movdqa	%xmm7, %xmm0
	punpckhbw	%xmm8, %xmm0
	punpcklbw	%xmm8, %xmm7
	pminub	%xmm1, %xmm5
	pcmpeqb	%xmm1, %xmm5
	movdqa	.LCPI53_2(%rip), %xmm1
	pminub	%xmm2, %xmm1
	pcmpeqb	%xmm2, %xmm1
	pand	%xmm5, %xmm1
	pmovmskb	%xmm1, %eax
	movzbl	%al, %ecx
	popcntl	%ecx, %edx
	shll	$4, %ecx
	leaq	.Lstatic.10(%rip), %rsi
	movdqu	(%rcx,%rsi), %xmm1
	pshufb	%xmm1, %xmm7
	movdqa	%xmm7, 64(%rsp)
	shrl	$8, %eax
	popcntl	%eax, %r15d
	shll	$4, %eax
	movdqu	(%rax,%rsi), %xmm1
	pshufb	%xmm1, %xmm0
	movdqu	%xmm0, 64(%rsp,%rdx,2)
	addl	%edx, %r15d
	addl	%r15d, %r15d
	movl	$16, %ebx
.LBB53_167:
	cmpq	%rdi, %r15
	jbe	.LBB53_169
	andq	$-2, %rdi
	movzbl	64(%rsp,%rdi), %eax
	andb	$-4, %al
	leaq	-2(%rdi), %r15
	cmpb	$-36, %al
	cmovneq	%rdi, %r15
	leaq	64(%rsp), %rdi
	movq	%r15, %rsi
	callq	"utf16_to_utf8::lens::utf8_len::<#8b18edd9dd9aa8df>"
	movq	%rax, %rbx
.LBB53_169:
	movq	8(%rsp), %rax
	leaq	(%rax,%r14), %rdi
	leaq	64(%rsp), %rsi
	movq	%r15, %rdx
	callq	memcpy@PLT
	addq	%r14, %r15
	testq	%rbx, %rbx
	jne	.LBB53_33
	leaq	64(%rsp), %rdx
	movq	%r13, %rdi
	movq	%rbp, %rsi
	movq	8(%rsp), %rcx
	movq	(%rsp), %r8
	movq	%r15, %r9
	jmp	.LBB53_31
.LBB53_171:
	movb	$-112, %dil
	jmp	.LBB53_175
.LBB53_172:
	movb	$-97, %al
	jmp	.LBB53_174
.LBB53_173:
	movb	$-113, %al
.LBB53_174:
	movb	$-128, %dil
.LBB53_175:
	cmpb	$50, %sil
	ja	.LBB53_193
	cmpb	%dl, %dil
	ja	.LBB53_193
	cmpb	%al, %dl
	ja	.LBB53_193
	movl	$2, %eax
	cmpb	$-32, %r9b
	jb	.LBB53_60
	cmpb	$-65, 2(%r13)
	jg	.LBB53_193
	movl	$3, %eax
	cmpb	$-16, %r9b
	jb	.LBB53_60
	movl	$4, %eax
	cmpb	$-65, 3(%r13)
	jle	.LBB53_60
	jmp	.LBB53_193
.LBB53_182:
	movb	$-112, %r8b
	jmp	.LBB53_186
.LBB53_183:
	movb	$-97, %dil
	jmp	.LBB53_185
.LBB53_184:
	movb	$-113, %dil
.LBB53_185:
	movb	$-128, %r8b
.LBB53_186:
	cmpb	$50, %sil
	ja	.LBB53_193
	cmpb	%dl, %r8b
	ja	.LBB53_193
	cmpb	%dil, %dl
	ja	.LBB53_193
	cmpb	$-32, %r10b
	jb	.LBB53_61
	cmpb	$-65, 2(%r13,%rax)
	jg	.LBB53_193
	cmpb	$-16, %r10b
	jb	.LBB53_61
	cmpb	$-64, 3(%r13,%rax)
	jl	.LBB53_61
.LBB53_193:
	movq	%r13, %rdi
	movq	%rbp, %rsi
	movq	%r15, %rdx
	jmp	.LBB53_17
.LBB53_194:
	movq	%rdx, %rbx
	subq	%r12, %rbx
	cmpq	$3, %rbx
	jb	.LBB53_198
	leal	31(%rcx), %eax
	cmpb	$11, %al
	ja	.LBB53_199
	cmpb	$-65, 1(%rsi,%r12)
	jg	.LBB53_199
	cmpb	$-64, 2(%rsi,%r12)
	jl	.LBB53_1
	jmp	.LBB53_199
.LBB53_198:
	cmpq	$2, %rbx
	jne	.LBB53_204
.LBB53_199:
	movzbl	1(%rsi,%r12), %ebp
	movl	%ecx, %eax
	shrb	$4, %al
	andb	$12, %al
	movl	%ebp, %r8d
	shrb	$6, %r8b
	orb	%al, %r8b
	movb	$1, %al
	cmpb	$14, %r8b
	jne	.LBB53_203
	leal	31(%rcx), %r8d
	cmpb	$12, %r8b
	jae	.LBB53_208
.LBB53_201:
	cmpq	$2, %rbx
	jne	.LBB53_212
.LBB53_202:
	movb	$2, %al
	xorl	%r8d, %r8d
	jmp	.LBB53_205
.LBB53_204:
	addb	$11, %cl
	cmpb	$-51, %cl
	setb	%r8b
	movb	$2, %al
	subb	%r8b, %al
	jmp	.LBB53_205
.LBB53_206:
	movq	%rdx, %r12
	jmp	.LBB53_2
.LBB53_207:
	movb	$3, %cl
	xorl	%eax, %eax
	jmp	.LBB53_231
.LBB53_208:
	leal	62(%rcx), %r11d
	cmpb	$30, %r11b
	jb	.LBB53_1
	movb	$-65, %r8b
	leal	-224(%rcx), %r9d
	cmpl	$20, %r9d
	ja	.LBB53_224
	leaq	.LJTI53_0(%rip), %r10
	movslq	(%r10,%r9,4), %r9
	addq	%r10, %r9
	notrack jmpq	*%r9
.LBB53_211:
	movb	$-96, %r9b
	jmp	.LBB53_225
.LBB53_230:
	movb	$1, %al
	jmp	.LBB53_231
.LBB53_212:
	movb	$2, %r8b
	cmpb	$-65, 2(%rsi,%r12)
	jg	.LBB53_205
	cmpb	$-16, %cl
	jb	.LBB53_1
	cmpq	$4, %rbx
	jb	.LBB53_202
	movb	$3, %r8b
	cmpb	$-65, 3(%rsi,%r12)
	jle	.LBB53_1
	jmp	.LBB53_205
.LBB53_217:
	movb	$2, %cl
	xorl	%eax, %eax
	jmp	.LBB53_231
.LBB53_218:
	movb	$2, %al
	jmp	.LBB53_231
.LBB53_219:
	addb	$11, %al
	cmpb	$-51, %al
	setb	%al
	movb	$2, %cl
	subb	%al, %cl
	jmp	.LBB53_231
.LBB53_220:
	movb	$3, %al
.LBB53_231:
	movq	56(%rsp), %rdx
	movq	%rbx, (%rdx)
	movq	%r14, 8(%rdx)
	movb	%cl, 16(%rdx)
	movb	%al, 17(%rdx)
	jmp	.LBB53_232
.LBB53_221:
	movb	$-112, %r9b
	jmp	.LBB53_225
.LBB53_222:
	movb	$-97, %r8b
	jmp	.LBB53_224
.LBB53_223:
	movb	$-113, %r8b
.LBB53_224:
	movb	$-128, %r9b
.LBB53_225:
	cmpb	$51, %r11b
	setb	%r10b
	cmpb	%bpl, %r9b
	setbe	%r9b
	cmpb	%r8b, %bpl
	setbe	%r8b
	andb	%r9b, %r8b
	andb	%r10b, %r8b
	cmpb	$1, %r8b
	jne	.LBB53_203
	cmpb	$-32, %cl
	movq	(%rsp), %r10
	jb	.LBB53_1
	jmp	.LBB53_201
.LBB53_203:
	movb	$1, %r8b
.LBB53_205:
	movq	%r12, (%rdi)
	movq	%r14, 8(%rdi)
	movb	%al, 16(%rdi)
	movb	%r8b, 17(%rdi)
.LBB53_232:
	addq	$344, %rsp
	.cfi_def_cfa_offset 56
	popq	%rbx
	.cfi_def_cfa_offset 48
	popq	%r12
	.cfi_def_cfa_offset 40
	popq	%r13
	.cfi_def_cfa_offset 32
	popq	%r14
	.cfi_def_cfa_offset 24
	popq	%r15
	.cfi_def_cfa_offset 16
	popq	%rbp
	.cfi_def_cfa_offset 8
	retq
.Lfunc_end53:
	.size	"utf16_transcode::transcoding::transcode_many::<#824f73f0383279b7>", .Lfunc_end53-"utf16_transcode::transcoding::transcode_many::<#824f73f0383279b7>"
	.cfi_endproc
	.section	".rodata.utf16_transcode::transcoding::transcode_many::<#824f73f0383279b7>","a",@progbits
	.p2align	2, 0x0
.LJTI53_0:
	.long	.LBB53_211-.LJTI53_0
	.long	.LBB53_224-.LJTI53_0
	.long	.LBB53_224-.LJTI53_0
	.long	.LBB53_224-.LJTI53_0
	.long	.LBB53_224-.LJTI53_0
	.long	.LBB53_224-.LJTI53_0
	.long	.LBB53_224-.LJTI53_0
	.long	.LBB53_224-.LJTI53_0
	.long	.LBB53_224-.LJTI53_0
	.long	.LBB53_224-.LJTI53_0
	.long	.LBB53_224-.LJTI53_0
	.long	.LBB53_224-.LJTI53_0
	.long	.LBB53_224-.LJTI53_0
	.long	.LBB53_222-.LJTI53_0
	.long	.LBB53_224-.LJTI53_0
	.long	.LBB53_224-.LJTI53_0
	.long	.LBB53_221-.LJTI53_0
	.long	.LBB53_224-.LJTI53_0
	.long	.LBB53_224-.LJTI53_0
	.long	.LBB53_224-.LJTI53_0
	.long	.LBB53_223-.LJTI53_0
.LJTI53_1:
	.long	.LBB53_117-.LJTI53_1
	.long	.LBB53_174-.LJTI53_1
	.long	.LBB53_174-.LJTI53_1
	.long	.LBB53_174-.LJTI53_1
	.long	.LBB53_174-.LJTI53_1
	.long	.LBB53_174-.LJTI53_1
	.long	.LBB53_174-.LJTI53_1
	.long	.LBB53_174-.LJTI53_1
	.long	.LBB53_174-.LJTI53_1
	.long	.LBB53_174-.LJTI53_1
	.long	.LBB53_174-.LJTI53_1
	.long	.LBB53_174-.LJTI53_1
	.long	.LBB53_174-.LJTI53_1
	.long	.LBB53_172-.LJTI53_1
	.long	.LBB53_174-.LJTI53_1
	.long	.LBB53_174-.LJTI53_1
	.long	.LBB53_171-.LJTI53_1
	.long	.LBB53_174-.LJTI53_1
	.long	.LBB53_174-.LJTI53_1
	.long	.LBB53_174-.LJTI53_1
	.long	.LBB53_173-.LJTI53_1
.LJTI53_2:
	.long	.LBB53_108-.LJTI53_2
	.long	.LBB53_185-.LJTI53_2
	.long	.LBB53_185-.LJTI53_2
	.long	.LBB53_185-.LJTI53_2
	.long	.LBB53_185-.LJTI53_2
	.long	.LBB53_185-.LJTI53_2
	.long	.LBB53_185-.LJTI53_2
	.long	.LBB53_185-.LJTI53_2
	.long	.LBB53_185-.LJTI53_2
	.long	.LBB53_185-.LJTI53_2
	.long	.LBB53_185-.LJTI53_2
	.long	.LBB53_185-.LJTI53_2
	.long	.LBB53_185-.LJTI53_2
	.long	.LBB53_183-.LJTI53_2
	.long	.LBB53_185-.LJTI53_2
	.long	.LBB53_185-.LJTI53_2
	.long	.LBB53_182-.LJTI53_2
	.long	.LBB53_185-.LJTI53_2
	.long	.LBB53_185-.LJTI53_2
	.long	.LBB53_185-.LJTI53_2
	.long	.LBB53_184-.LJTI53_2
.LJTI53_3:
	.long	.LBB53_149-.LJTI53_3
	.long	.LBB53_156-.LJTI53_3
	.long	.LBB53_156-.LJTI53_3
	.long	.LBB53_156-.LJTI53_3
	.long	.LBB53_156-.LJTI53_3
	.long	.LBB53_156-.LJTI53_3
	.long	.LBB53_156-.LJTI53_3
	.long	.LBB53_156-.LJTI53_3
	.long	.LBB53_156-.LJTI53_3
	.long	.LBB53_156-.LJTI53_3
	.long	.LBB53_156-.LJTI53_3
	.long	.LBB53_156-.LJTI53_3
	.long	.LBB53_156-.LJTI53_3
	.long	.LBB53_154-.LJTI53_3
	.long	.LBB53_156-.LJTI53_3
	.long	.LBB53_156-.LJTI53_3
	.long	.LBB53_153-.LJTI53_3
	.long	.LBB53_156-.LJTI53_3
	.long	.LBB53_156-.LJTI53_3
	.long	.LBB53_156-.LJTI53_3
	.long	.LBB53_155-.LJTI53_3

	.section	".text.utf16_transcode::transcoding::write_chars::<#824f73f0383279b7>","ax",@progbits
	.p2align	4
	.type	"utf16_transcode::transcoding::write_chars::<#824f73f0383279b7>",@function
"utf16_transcode::transcoding::write_chars::<#824f73f0383279b7>":
	.cfi_startproc
	pushq	%r15
	.cfi_def_cfa_offset 16
	pushq	%r14
	.cfi_def_cfa_offset 24
	pushq	%r13
	.cfi_def_cfa_offset 32
	pushq	%r12
	.cfi_def_cfa_offset 40
	pushq	%rbx
	.cfi_def_cfa_offset 48
	.cfi_offset %rbx, -48
	.cfi_offset %r12, -40
	.cfi_offset %r13, -32
	.cfi_offset %r14, -24
	.cfi_offset %r15, -16
	movq	%r8, %r13
	movq	%rcx, %rbx
	movq	%rdx, %r14
	movq	%rsi, %r15
	movq	%rdi, %r12
	addq	%r8, %rdx
	subq	%r8, %rcx
	callq	"utf16_transcode::encode::FromUtf8Direction::begin::<#8b18edd9dd9aa8df>"
	addq	%r13, %rdx
	jmp	.LBB54_1
	.p2align	4
.LBB54_34:
	leal	67043328(%rcx), %r8d
	shrl	$10, %r8d
	addl	$-10240, %r8d
	rolw	$8, %r8w
	andl	$1023, %ecx
	orl	$56320, %ecx
	rolw	$8, %cx
	movw	%cx, 2(%r14,%rdx)
	movl	$4, %edi
	movl	%r8d, %ecx
.LBB54_35:
	movw	%cx, (%r14,%rdx)
	addq	%rdi, %rdx
	addq	%rsi, %rax
.LBB54_1:
	cmpq	%r15, %rax
	jae	.LBB54_36
	movzbl	(%r12,%rax), %ecx
	testb	%cl, %cl
	js	.LBB54_4
	movl	$1, %esi
.LBB54_31:
	movq	%rbx, %rdi
	subq	%rdx, %rdi
	xorl	%r8d, %r8d
	cmpl	$65536, %ecx
	setae	%r8b
	leaq	2(,%r8,2), %r8
	cmpq	%r8, %rdi
	jb	.LBB54_36
	cmpl	$65535, %ecx
	ja	.LBB54_34
	rolw	$8, %cx
	movl	$2, %edi
	jmp	.LBB54_35
	.p2align	4
.LBB54_4:
	movq	%r15, %rdi
	subq	%rax, %rdi
	cmpq	$3, %rdi
	jb	.LBB54_9
	leal	31(%rcx), %esi
	cmpb	$11, %sil
	ja	.LBB54_10
	movzbl	1(%r12,%rax), %esi
	cmpb	$-65, %sil
	jg	.LBB54_10
	movzbl	2(%r12,%rax), %r8d
	cmpb	$-65, %r8b
	jg	.LBB54_10
	jmp	.LBB54_8
.LBB54_9:
	cmpq	$2, %rdi
	jne	.LBB54_36
.LBB54_10:
	movzbl	1(%r12,%rax), %esi
	movl	%ecx, %r8d
	shrb	$4, %r8b
	andb	$12, %r8b
	movl	%esi, %r9d
	shrb	$6, %r9b
	orb	%r8b, %r9b
	cmpb	$14, %r9b
	jne	.LBB54_36
	leal	31(%rcx), %r8d
	cmpb	$12, %r8b
	jae	.LBB54_12
.LBB54_25:
	cmpq	$2, %rdi
	je	.LBB54_36
	movzbl	2(%r12,%rax), %r8d
	cmpb	$-65, %r8b
	jg	.LBB54_36
	cmpb	$-17, %cl
	ja	.LBB54_28
.LBB54_8:
	shll	$12, %ecx
	shll	$6, %esi
	addl	%ecx, %esi
	leal	(%r8,%rsi), %ecx
	addl	$-925824, %ecx
	movl	$3, %esi
	jmp	.LBB54_31
.LBB54_12:
	leal	62(%rcx), %r8d
	cmpb	$30, %r8b
	jb	.LBB54_24
	movb	$-65, %r9b
	leal	-224(%rcx), %r10d
	cmpl	$20, %r10d
	ja	.LBB54_19
	leaq	.LJTI54_0(%rip), %r11
	movslq	(%r11,%r10,4), %r10
	addq	%r11, %r10
	notrack jmpq	*%r10
.LBB54_15:
	movb	$-96, %r10b
	jmp	.LBB54_20
.LBB54_28:
	cmpq	$4, %rdi
	jb	.LBB54_36
	movzbl	3(%r12,%rax), %edi
	cmpb	$-65, %dil
	jg	.LBB54_36
	shll	$18, %ecx
	shll	$12, %esi
	addl	%ecx, %esi
	shll	$6, %r8d
	addl	%esi, %r8d
	leal	(%rdi,%r8), %ecx
	addl	$-63447168, %ecx
	movl	$4, %esi
	jmp	.LBB54_31
.LBB54_17:
	movb	$-112, %r10b
	jmp	.LBB54_20
.LBB54_16:
	movb	$-97, %r9b
	jmp	.LBB54_19
.LBB54_18:
	movb	$-113, %r9b
.LBB54_19:
	movb	$-128, %r10b
.LBB54_20:
	cmpb	$50, %r8b
	ja	.LBB54_36
	cmpb	%sil, %r10b
	ja	.LBB54_36
	cmpb	%r9b, %sil
	ja	.LBB54_36
	cmpb	$-33, %cl
	ja	.LBB54_25
.LBB54_24:
	shll	$6, %ecx
	addl	%esi, %ecx
	addl	$-12416, %ecx
	movl	$2, %esi
	jmp	.LBB54_31
.LBB54_36:
	popq	%rbx
	.cfi_def_cfa_offset 40
	popq	%r12
	.cfi_def_cfa_offset 32
	popq	%r13
	.cfi_def_cfa_offset 24
	popq	%r14
	.cfi_def_cfa_offset 16
	popq	%r15
	.cfi_def_cfa_offset 8
	retq
.Lfunc_end54:
	.size	"utf16_transcode::transcoding::write_chars::<#824f73f0383279b7>", .Lfunc_end54-"utf16_transcode::transcoding::write_chars::<#824f73f0383279b7>"
	.cfi_endproc
	.section	".rodata.utf16_transcode::transcoding::write_chars::<#824f73f0383279b7>","a",@progbits
	.p2align	2, 0x0
.LJTI54_0:
	.long	.LBB54_15-.LJTI54_0
	.long	.LBB54_19-.LJTI54_0
	.long	.LBB54_19-.LJTI54_0
	.long	.LBB54_19-.LJTI54_0
	.long	.LBB54_19-.LJTI54_0
	.long	.LBB54_19-.LJTI54_0
	.long	.LBB54_19-.LJTI54_0
	.long	.LBB54_19-.LJTI54_0
	.long	.LBB54_19-.LJTI54_0
	.long	.LBB54_19-.LJTI54_0
	.long	.LBB54_19-.LJTI54_0
	.long	.LBB54_19-.LJTI54_0
	.long	.LBB54_19-.LJTI54_0
	.long	.LBB54_16-.LJTI54_0
	.long	.LBB54_19-.LJTI54_0
	.long	.LBB54_19-.LJTI54_0
	.long	.LBB54_17-.LJTI54_0
	.long	.LBB54_19-.LJTI54_0
	.long	.LBB54_19-.LJTI54_0
	.long	.LBB54_19-.LJTI54_0
	.long	.LBB54_18-.LJTI54_0

	.section	.rodata.cst16,"aM",@progbits,16
	.p2align	4, 0x0
.LCPI55_0:
	.zero	16,192
.LCPI55_1:
	.zero	16,191
.LCPI55_2:
	.zero	16,224
.LCPI55_3:
	.zero	16,15
.LCPI55_4:
	.zero	16,220
.LCPI55_5:
	.zero	16,252
.LCPI55_6:
	.zero	16,3
.LCPI55_7:
	.zero	16,63
.LCPI55_8:
	.zero	16,232
.LCPI55_9:
	.zero	16,239
.LCPI55_10:
	.zero	16,127
.LCPI55_11:
	.zero	16,223
	.section	".text.utf16_transcode::transcoding::write_buffered_text::<#824f73f0383279b7>","ax",@progbits
	.p2align	4
	.type	"utf16_transcode::transcoding::write_buffered_text::<#824f73f0383279b7>",@function
"utf16_transcode::transcoding::write_buffered_text::<#824f73f0383279b7>":
	.cfi_startproc
	pushq	%rbp
	.cfi_def_cfa_offset 16
	pushq	%r15
	.cfi_def_cfa_offset 24
	pushq	%r14
	.cfi_def_cfa_offset 32
	pushq	%r13
	.cfi_def_cfa_offset 40
	pushq	%r12
	.cfi_def_cfa_offset 48
	pushq	%rbx
	.cfi_def_cfa_offset 56
	subq	$56, %rsp
	.cfi_def_cfa_offset 112
	.cfi_offset %rbx, -56
	.cfi_offset %r12, -48
	.cfi_offset %r13, -40
	.cfi_offset %r14, -32
	.cfi_offset %r15, -24
	.cfi_offset %rbp, -16
	movq	%r9, %rbx
	movq	%r8, %r12
	movq	%rcx, 8(%rsp)
	movq	%rdx, %r14
	movq	%rdi, %r15
	cmpq	$64, %rsi
	movl	$64, %r13d
	cmovbq	%rsi, %r13
	pxor	%xmm0, %xmm0
	jae	.LBB55_3
	movdqa	%xmm0, 32(%rsp)
	movdqa	%xmm0, 16(%rsp)
	leaq	16(%rsp), %rdi
	movq	%r15, %rsi
	movq	%r13, %rdx
	callq	"simdutf8::compat::from_utf8"
	cmpb	$0, 16(%rsp)
	je	.LBB55_21
	movq	24(%rsp), %rax
	jmp	.LBB55_7
.LBB55_3:
	movdqa	%xmm0, 32(%rsp)
	movdqa	%xmm0, 16(%rsp)
	leaq	16(%rsp), %rdi
	movl	$63, %ebp
	movl	$63, %edx
	movq	%r15, %rsi
	callq	"simdutf8::compat::from_utf8"
	cmpb	$0, 16(%rsp)
	movq	24(%rsp), %rax
	cmovneq	%rax, %rbp
	leaq	4(%rbp), %rcx
	cmpq	$64, %rcx
	jb	.LBB55_7
	leaq	(%r15,%rbp), %rsi
	subq	%rbp, %r13
	pxor	%xmm0, %xmm0
	movdqa	%xmm0, 32(%rsp)
	movdqa	%xmm0, 16(%rsp)
	leaq	16(%rsp), %rdi
	movq	%r13, %rdx
	callq	"simdutf8::compat::from_utf8"
	cmpb	$0, 16(%rsp)
	je	.LBB55_6
	movq	24(%rsp), %r13
.LBB55_6:
	addq	%rbp, %r13
	movq	%r13, %rax
.LBB55_7:
	cmpq	$7, %rax
	ja	.LBB55_20
	testq	%rax, %rax
	je	.LBB55_29
	xorl	%ebp, %ebp
	movq	%rax, %rcx
	jmp	.LBB55_10
.LBB55_20:
	movq	%rax, %r13
.LBB55_21:
	cmpq	$16, %r13
	ja	.LBB55_24
	movq	-8(%r15,%r13), %xmm0
	movq	(%r15), %xmm1
	punpcklqdq	%xmm0, %xmm1
	movq	%r13, %rax
	shlq	$4, %rax
	leaq	.Lstatic.1(%rip), %rcx
	movdqu	-128(%rax,%rcx), %xmm0
	pshufb	%xmm0, %xmm1
	pmovmskb	%xmm1, %eax
	testl	%eax, %eax
	je	.LBB55_33
	leaq	.Lstatic.2(%rip), %rax
	subq	%r13, %rax
	movdqu	16(%rax), %xmm0
	pmaxub	%xmm0, %xmm1
	movdqa	%xmm1, %xmm6
	pslldq	$1, %xmm6
	movdqa	%xmm1, %xmm5
	pslldq	$2, %xmm5
	movdqa	.LCPI55_0(%rip), %xmm4
	movdqa	%xmm4, %xmm3
	movdqa	%xmm1, %xmm0
	pblendvb	%xmm0, %xmm6, %xmm3
	movdqa	.LCPI55_1(%rip), %xmm2
	movdqa	.LCPI55_2(%rip), %xmm0
	pmaxub	%xmm5, %xmm0
	movdqa	%xmm3, %xmm7
	psrlw	$2, %xmm7
	movdqa	.LCPI55_3(%rip), %xmm8
	pand	%xmm8, %xmm7
	psllw	$4, %xmm0
	pandn	%xmm0, %xmm8
	por	%xmm7, %xmm8
	movdqa	%xmm3, %xmm0
	pmaxub	%xmm5, %xmm0
	movdqa	%xmm0, %xmm7
	pminub	%xmm2, %xmm7
	pcmpeqb	%xmm0, %xmm7
	pand	.LCPI55_4(%rip), %xmm7
	por	%xmm8, %xmm7
	movdqa	.LCPI55_11(%rip), %xmm8
	pminub	%xmm6, %xmm8
	pcmpeqb	%xmm6, %xmm8
	movdqa	%xmm6, %xmm0
	psllw	$2, %xmm0
	pand	.LCPI55_5(%rip), %xmm0
	movdqa	%xmm1, %xmm9
	psrlw	$4, %xmm9
	pand	.LCPI55_6(%rip), %xmm9
	movdqa	.LCPI55_7(%rip), %xmm6
	pminub	%xmm0, %xmm6
	pcmpeqb	%xmm0, %xmm6
	paddb	%xmm5, %xmm6
	paddb	.LCPI55_8(%rip), %xmm6
	por	%xmm0, %xmm9
	paddb	%xmm4, %xmm9
	movdqa	.LCPI55_9(%rip), %xmm0
	pminub	%xmm5, %xmm0
	pcmpeqb	%xmm5, %xmm0
	pblendvb	%xmm0, %xmm7, %xmm6
	movdqa	.LCPI55_10(%rip), %xmm5
	pand	%xmm1, %xmm5
	psllw	$6, %xmm3
	pand	%xmm4, %xmm3
	paddb	%xmm5, %xmm3
	pblendvb	%xmm0, %xmm3, %xmm9
	movdqa	%xmm6, %xmm0
	punpckhbw	%xmm9, %xmm0
	punpcklbw	%xmm9, %xmm6
	pminub	%xmm1, %xmm2
	pcmpeqb	%xmm1, %xmm2
	pand	%xmm2, %xmm8
	pmovmskb	%xmm8, %eax
	movzbl	%al, %ecx
	popcntl	%ecx, %edx
	shll	$4, %ecx
	leaq	.Lstatic.10(%rip), %rsi
	movdqu	(%rcx,%rsi), %xmm1
	pshufb	%xmm1, %xmm6
	movdqu	%xmm6, (%r14)
	shrl	$8, %eax
	popcntl	%eax, %ebp
	shll	$4, %eax
	movdqu	(%rax,%rsi), %xmm1
	pshufb	%xmm1, %xmm0
	movdqu	%xmm0, (%r14,%rdx,2)
	addl	%edx, %ebp
	addl	%ebp, %ebp
	jmp	.LBB55_34
.LBB55_18:
	addl	$67043328, %edx
	shrl	$10, %edx
	addl	$-10240, %edx
	rolw	$8, %dx
	movw	%dx, (%r8)
	orl	$56320, %esi
	rolw	$8, %si
	movw	%si, 2(%r8)
	movl	$4, %edx
	addq	%rdx, %rbp
	testq	%rcx, %rcx
	je	.LBB55_19
	.p2align	4
.LBB55_10:
	movzbl	(%r15), %edx
	movl	$1, %esi
	testb	%dl, %dl
	jns	.LBB55_15
	movzbl	1(%r15), %edi
	andl	$63, %edi
	cmpb	$-33, %dl
	ja	.LBB55_13
	andl	$31, %edx
	shll	$6, %edx
	orl	%edi, %edx
	movl	$2, %esi
	jmp	.LBB55_15
.LBB55_13:
	movzbl	2(%r15), %esi
	andl	$63, %esi
	cmpb	$-17, %dl
	ja	.LBB55_17
	shll	$12, %edx
	movzwl	%dx, %edx
	shll	$6, %edi
	orl	%edx, %edi
	orl	%esi, %edi
	movl	$3, %esi
	movl	%edi, %edx
	.p2align	4
.LBB55_15:
	addq	%rsi, %r15
	subq	%rsi, %rcx
	leaq	(%r14,%rbp), %r8
.LBB55_16:
	rolw	$8, %dx
	movw	%dx, (%r8)
	movl	$2, %edx
	addq	%rdx, %rbp
	testq	%rcx, %rcx
	jne	.LBB55_10
	jmp	.LBB55_19
.LBB55_17:
	movzbl	3(%r15), %r8d
	andl	$63, %r8d
	andl	$7, %edx
	shll	$18, %edx
	shll	$12, %edi
	orl	%edx, %edi
	shll	$6, %esi
	orl	%r8d, %esi
	leal	(%rsi,%rdi), %edx
	addq	$4, %r15
	addq	$-4, %rcx
	leaq	(%r14,%rbp), %r8
	cmpl	$65535, %edi
	jbe	.LBB55_16
	jmp	.LBB55_18
.LBB55_24:
	leaq	16(,%r13,2), %rcx
	movq	%rcx, %rsi
	shrq	%rsi
	cmpq	%r13, %rsi
	cmovaeq	%r13, %rsi
	cmpq	$32, %rcx
	jb	.LBB55_26
	movdqu	(%r15), %xmm1
	pmovmskb	%xmm1, %eax
	testl	%eax, %eax
	je	.LBB55_44
.LBB55_26:
	xorl	%ebp, %ebp
	xorl	%r8d, %r8d
.LBB55_27:
	movq	%r13, %rax
	subq	%r8, %rax
	cmpq	$191, %rax
	ja	.LBB55_30
	movq	%r15, %rdi
	movq	%r13, %rsi
	movq	%r14, %rdx
	movq	%rbp, %r9
	callq	"utf16_from_utf8::rest::write_rest::<#8b18edd9dd9aa8df>"
	movq	%rdx, %rbp
	jmp	.LBB55_34
.LBB55_19:
	movq	%rax, %r13
	jmp	.LBB55_34
.LBB55_29:
	movq	8(%rsp), %rdi
	addq	%rbx, %rdi
	xorl	%ebp, %ebp
	xorl	%r13d, %r13d
	jmp	.LBB55_39
.LBB55_30:
	movq	%rbx, 48(%rsp)
	movq	%r15, %rdi
	movq	%r13, %rsi
	movq	%r14, %rdx
	movq	%rcx, %rbx
	movq	%rbp, %r9
	callq	"utf16_from_utf8::blocks::write_mixed_blocks::<#8b18edd9dd9aa8df>"
	movq	%rdx, %rbp
	movq	%r13, %rcx
	subq	%rax, %rcx
	cmpq	$191, %rcx
	ja	.LBB55_32
	movq	%r15, %rdi
	movq	%r13, %rsi
	movq	%r14, %rdx
	movq	%rbx, %rcx
	movq	%rax, %r8
	movq	%rbp, %r9
	callq	"utf16_from_utf8::rest::write_rest::<#8b18edd9dd9aa8df>"
	movq	%rdx, %rbp
.LBB55_32:
	movq	48(%rsp), %rbx
	jmp	.LBB55_34
.LBB55_33:
	leaq	(,%r13,2), %rbp
	pxor	%xmm0, %xmm0
	pxor	%xmm2, %xmm2
	punpckhbw	%xmm1, %xmm2
	punpcklbw	%xmm1, %xmm0
	movdqu	%xmm0, (%r14)
	movdqu	%xmm2, 16(%r14)
.LBB55_34:
	movq	8(%rsp), %r15
	subq	%rbx, %r12
	cmpq	%r12, %rbp
	jbe	.LBB55_36
	andq	$-2, %r12
	movzbl	(%r14,%r12), %eax
	andb	$-4, %al
	leaq	-2(%r12), %rbp
	cmpb	$-36, %al
	cmovneq	%r12, %rbp
	movq	%r14, %rdi
	movq	%rbp, %rsi
	callq	"utf16_to_utf8::lens::utf8_len::<#8b18edd9dd9aa8df>"
	movq	%rax, %r13
.LBB55_36:
	leaq	(%r15,%rbx), %rdi
	movq	%rdi, %rax
	subq	%r14, %rax
	cmpq	%rbp, %rax
	jae	.LBB55_39
	cmpq	$4, %rbp
	jb	.LBB55_38
	leaq	(%r15,%rbx), %rax
	subq	%r14, %rax
	cmpq	$32, %rax
	jae	.LBB55_42
.LBB55_38:
	xorl	%eax, %eax
.LBB55_54:
	movq	%rbp, %rdx
	movq	%rax, %rcx
	andq	$3, %rdx
	je	.LBB55_57
	movq	%rax, %rcx
	.p2align	4
.LBB55_56:
	movzbl	(%r14,%rcx), %esi
	movb	%sil, (%rdi,%rcx)
	incq	%rcx
	decq	%rdx
	jne	.LBB55_56
.LBB55_57:
	subq	%rbp, %rax
	cmpq	$-4, %rax
	ja	.LBB55_60
	leaq	(%rbx,%r15), %rax
	addq	$3, %rax
	.p2align	4
.LBB55_59:
	movzbl	(%r14,%rcx), %edx
	movb	%dl, -3(%rax,%rcx)
	movzbl	1(%r14,%rcx), %edx
	movb	%dl, -2(%rax,%rcx)
	movzbl	2(%r14,%rcx), %edx
	movb	%dl, -1(%rax,%rcx)
	movzbl	3(%r14,%rcx), %edx
	movb	%dl, (%rax,%rcx)
	addq	$4, %rcx
	cmpq	%rcx, %rbp
	jne	.LBB55_59
	jmp	.LBB55_60
.LBB55_39:
	movq	%r14, %rsi
	movq	%rbp, %rdx
	callq	memmove@PLT
.LBB55_60:
	addq	%rbx, %rbp
	movq	%r13, %rax
	movq	%rbp, %rdx
	addq	$56, %rsp
	.cfi_def_cfa_offset 56
	popq	%rbx
	.cfi_def_cfa_offset 48
	popq	%r12
	.cfi_def_cfa_offset 40
	popq	%r13
	.cfi_def_cfa_offset 32
	popq	%r14
	.cfi_def_cfa_offset 24
	popq	%r15
	.cfi_def_cfa_offset 16
	popq	%rbp
	.cfi_def_cfa_offset 8
	retq
.LBB55_42:
	.cfi_def_cfa_offset 112
	cmpq	$32, %rbp
	jae	.LBB55_47
	xorl	%eax, %eax
	jmp	.LBB55_51
.LBB55_44:
	cmpq	$31, %rsi
	ja	.LBB55_61
	pxor	%xmm0, %xmm0
	pxor	%xmm2, %xmm2
	punpckhbw	%xmm1, %xmm2
	pxor	%xmm3, %xmm3
	punpcklbw	%xmm1, %xmm3
	movdqu	%xmm3, (%r14)
	movdqu	%xmm2, 16(%r14)
	movdqu	-16(%rsi,%r15), %xmm1
	pmovmskb	%xmm1, %eax
	movl	$16, %r8d
	testl	%eax, %eax
	je	.LBB55_62
	leaq	(%r8,%r8), %rbp
	cmpq	%r13, %r8
	jne	.LBB55_27
	jmp	.LBB55_34
.LBB55_47:
	movq	%rbp, %rax
	andq	$-32, %rax
	leaq	(%rbx,%r15), %rcx
	addq	$16, %rcx
	xorl	%edx, %edx
	.p2align	4
.LBB55_48:
	movdqu	(%r14,%rdx), %xmm0
	movdqu	16(%r14,%rdx), %xmm1
	movdqu	%xmm0, -16(%rcx,%rdx)
	movdqu	%xmm1, (%rcx,%rdx)
	addq	$32, %rdx
	cmpq	%rdx, %rax
	jne	.LBB55_48
	cmpq	%rax, %rbp
	je	.LBB55_60
	testb	$28, %bpl
	je	.LBB55_54
.LBB55_51:
	movq	%rax, %rcx
	movq	%rbp, %rax
	andq	$-4, %rax
	.p2align	4
.LBB55_52:
	movl	(%r14,%rcx), %edx
	movl	%edx, (%rdi,%rcx)
	addq	$4, %rcx
	cmpq	%rcx, %rax
	jne	.LBB55_52
	cmpq	%rax, %rbp
	je	.LBB55_60
	jmp	.LBB55_54
.LBB55_61:
	movq	%r15, %rdi
	movq	%r14, %rdx
	movq	%rbx, %rbp
	movq	%rcx, %rbx
	callq	"utf16_from_utf8::ascii::write_front::<#8b18edd9dd9aa8df>"
	movq	%rbx, %rcx
	movq	%rbp, %rbx
	movq	%rax, %r8
	leaq	(%r8,%r8), %rbp
	cmpq	%r13, %r8
	jne	.LBB55_27
	jmp	.LBB55_34
.LBB55_62:
	pxor	%xmm2, %xmm2
	punpckhbw	%xmm1, %xmm2
	punpcklbw	%xmm1, %xmm0
	movdqu	%xmm0, -32(%r14,%rsi,2)
	movdqu	%xmm2, -16(%r14,%rsi,2)
	movq	%rsi, %r8
	leaq	(%r8,%r8), %rbp
	cmpq	%r13, %r8
	jne	.LBB55_27
	jmp	.LBB55_34
.Lfunc_end55:
	.size	"utf16_transcode::transcoding::write_buffered_text::<#824f73f0383279b7>", .Lfunc_end55-"utf16_transcode::transcoding::write_buffered_text::<#824f73f0383279b7>"
	.cfi_endproc

	.section	".text.utf16_transcode::encode_lossy::write_replacement_and_more::<#8b18edd9dd9aa8df>","ax",@progbits
	.p2align	4
	.type	"utf16_transcode::encode_lossy::write_replacement_and_more::<#8b18edd9dd9aa8df>",@function
"utf16_transcode::encode_lossy::write_replacement_and_more::<#8b18edd9dd9aa8df>":
	.cfi_startproc
	pushq	%rbp
	.cfi_def_cfa_offset 16
	pushq	%r15
	.cfi_def_cfa_offset 24
	pushq	%r14
	.cfi_def_cfa_offset 32
	pushq	%r13
	.cfi_def_cfa_offset 40
	pushq	%r12
	.cfi_def_cfa_offset 48
	pushq	%rbx
	.cfi_def_cfa_offset 56
	subq	$40, %rsp
	.cfi_def_cfa_offset 96
	.cfi_offset %rbx, -56
	.cfi_offset %r12, -48
	.cfi_offset %r13, -40
	.cfi_offset %r14, -32
	.cfi_offset %r15, -24
	.cfi_offset %rbp, -16
	movq	%r8, %r13
	movq	%rsi, %r12
	movw	$-513, (%rcx)
	addq	%rdx, %rdi
	movq	%rdx, 24(%rsp)
	subq	%rdx, %r12
	addq	$2, %rcx
	addq	$-2, %r13
	movq	%rdi, (%rsp)
	movq	%r12, %rsi
	movq	%rcx, 16(%rsp)
	movq	%rcx, %rdx
	movq	%r13, %rcx
	callq	"utf16_transcode::items::write_items::<#8b18edd9dd9aa8df>"
	movq	%rax, %r14
	movq	%rdx, %r15
	movq	%r12, 8(%rsp)
	subq	%rax, %r12
	cmpq	$64, %r12
	jb	.LBB56_13
	movq	%r13, 32(%rsp)
	.p2align	4
.LBB56_2:
	subq	%r15, %r13
	cmpq	$128, %r13
	jb	.LBB56_13
	movq	(%rsp), %rcx
	leaq	(%rcx,%r14), %rdi
	movq	16(%rsp), %rax
	leaq	(%rax,%r15), %rdx
	movdqu	(%rcx,%r14), %xmm0
	pmovmskb	%xmm0, %eax
	testl	%eax, %eax
	je	.LBB56_5
	xorl	%ebx, %ebx
	jmp	.LBB56_6
	.p2align	4
.LBB56_5:
	movq	%r13, %rsi
	shrq	%rsi
	cmpq	%r12, %rsi
	cmovaeq	%r12, %rsi
	movq	%rdi, %rbp
	movq	%rdx, %rbx
	callq	"utf16_from_utf8::ascii::write_front::<#8b18edd9dd9aa8df>"
	movq	%rbp, %rdi
	movq	%rbx, %rdx
	movq	%rax, %rbx
.LBB56_6:
	leaq	(%rbx,%rbx), %rbp
	movq	%r12, %rax
	subq	%rbx, %rax
	cmpq	$64, %rax
	jb	.LBB56_9
	movq	%r13, %rax
	subq	%rbp, %rax
	cmpq	$128, %rax
	jb	.LBB56_9
	movq	%r12, %rsi
	movq	%r13, %rcx
	movq	%rbx, %r8
	movq	%rbp, %r9
	callq	"utf16_from_utf8::blocks::write_mixed_blocks::<#8b18edd9dd9aa8df>"
	movq	%rax, %rbx
	movq	%rdx, %rbp
.LBB56_9:
	addq	%r14, %rbx
	addq	%r15, %rbp
	movq	8(%rsp), %rsi
	subq	%rbx, %rsi
	cmpq	$4, %rsi
	movq	32(%rsp), %r13
	jb	.LBB56_10
	movq	%r13, %rcx
	subq	%rbp, %rcx
	cmpq	$4, %rcx
	jb	.LBB56_10
	movq	(%rsp), %rax
	leaq	(%rax,%rbx), %rdi
	movq	16(%rsp), %rax
	leaq	(%rax,%rbp), %rdx
	callq	"utf16_transcode::items::write_items::<#8b18edd9dd9aa8df>"
	movq	%rax, %r14
	movq	%rdx, %r15
	addq	%rbx, %r14
	addq	%rbp, %r15
	movq	8(%rsp), %r12
	subq	%r14, %r12
	cmpq	$63, %r12
	ja	.LBB56_2
	jmp	.LBB56_13
.LBB56_10:
	movq	%rbp, %r15
	movq	%rbx, %r14
.LBB56_13:
	addq	24(%rsp), %r14
	addq	$2, %r15
	movq	%r14, %rax
	movq	%r15, %rdx
	addq	$40, %rsp
	.cfi_def_cfa_offset 56
	popq	%rbx
	.cfi_def_cfa_offset 48
	popq	%r12
	.cfi_def_cfa_offset 40
	popq	%r13
	.cfi_def_cfa_offset 32
	popq	%r14
	.cfi_def_cfa_offset 24
	popq	%r15
	.cfi_def_cfa_offset 16
	popq	%rbp
	.cfi_def_cfa_offset 8
	retq
.Lfunc_end56:
	.size	"utf16_transcode::encode_lossy::write_replacement_and_more::<#8b18edd9dd9aa8df>", .Lfunc_end56-"utf16_transcode::encode_lossy::write_replacement_and_more::<#8b18edd9dd9aa8df>"
	.cfi_endproc

	.section	.rodata.cst16,"aM",@progbits,16
	.p2align	4, 0x0
.LCPI57_0:
	.zero	16,127
	.section	".text.utf16_transcode::items::write_items::<#8b18edd9dd9aa8df>","ax",@progbits
	.p2align	4
	.type	"utf16_transcode::items::write_items::<#8b18edd9dd9aa8df>",@function
"utf16_transcode::items::write_items::<#8b18edd9dd9aa8df>":
	.cfi_startproc
	pushq	%rbp
	.cfi_def_cfa_offset 16
	pushq	%r15
	.cfi_def_cfa_offset 24
	pushq	%r14
	.cfi_def_cfa_offset 32
	pushq	%r12
	.cfi_def_cfa_offset 40
	pushq	%rbx
	.cfi_def_cfa_offset 48
	.cfi_offset %rbx, -48
	.cfi_offset %r12, -40
	.cfi_offset %r14, -32
	.cfi_offset %r15, -24
	.cfi_offset %rbp, -16
	movq	%rdx, %r8
	xorl	%eax, %eax
	xorl	%edx, %edx
	xorl	%r9d, %r9d
	.p2align	4
.LBB57_4:
	movq	%rsi, %r10
	subq	%rax, %r10
	cmpq	$4, %r10
	jb	.LBB57_41
	movq	%rcx, %r11
	subq	%rdx, %r11
	cmpq	$4, %r11
	jb	.LBB57_41
	cmpq	$32, %r11
	jb	.LBB57_10
	cmpq	$15, %r10
	jbe	.LBB57_10
	movdqu	(%rdi,%rax), %xmm0
	pmovmskb	%xmm0, %r10d
	orl	$65536, %r10d
	rep		bsfl	%r10d, %r10d
	cmpw	$4, %r10w
	jae	.LBB57_15
	movd	%xmm0, %r10d
	testb	%r10b, %r10b
	jns	.LBB57_1
.LBB57_11:
	cmpb	$-31, %r10b
	jae	.LBB57_17
	movzbl	1(%rdi,%rax), %r11d
	movl	%r10d, %ebx
	shrb	$4, %bl
	andb	$12, %bl
	movl	%r11d, %ebp
	shrb	$6, %bpl
	orb	%bl, %bpl
	cmpb	$14, %bpl
	jne	.LBB57_26
	leal	62(%r10), %ebp
	cmpb	$30, %bpl
	jae	.LBB57_23
.LBB57_14:
	movzbl	%r10b, %r10d
	shll	$6, %r10d
	movzbl	%r11b, %r11d
	leal	(%r10,%r11), %r14d
	addl	$-12416, %r14d
	movl	$2, %ebx
	jmp	.LBB57_3
	.p2align	4
.LBB57_10:
	movzbl	(%rdi,%rax), %r10d
	testb	%r10b, %r10b
	js	.LBB57_11
.LBB57_1:
	movzbl	%r10b, %r14d
	jmp	.LBB57_2
	.p2align	4
.LBB57_15:
	movzwl	%r10w, %ebx
	pand	.LCPI57_0(%rip), %xmm0
	pxor	%xmm1, %xmm1
	pxor	%xmm2, %xmm2
	punpckhbw	%xmm0, %xmm2
	punpcklbw	%xmm0, %xmm1
	movdqu	%xmm1, (%r8,%rdx)
	movdqu	%xmm2, 16(%r8,%rdx)
	movl	%ebx, %r11d
	addl	%r11d, %r11d
	movl	$2, %r10d
.LBB57_16:
	addq	%r11, %rdx
	addq	%r9, %r10
	addq	%rbx, %rax
	movq	%r10, %r9
	cmpq	$16, %r10
	jb	.LBB57_4
	jmp	.LBB57_41
.LBB57_17:
	movzbl	1(%rdi,%rax), %r11d
	cmpb	$-20, %r10b
	ja	.LBB57_21
	cmpb	$-65, %r11b
	jg	.LBB57_26
	movzbl	2(%rdi,%rax), %ebx
	cmpb	$-65, %bl
	jg	.LBB57_34
	movzbl	%r11b, %r11d
	movzbl	%r10b, %r10d
	shll	$12, %r10d
	shll	$6, %r11d
	addl	%r10d, %r11d
	leal	(%rbx,%r11), %r14d
	addl	$-925824, %r14d
	jmp	.LBB57_37
.LBB57_21:
	cmpb	$-65, %r11b
	jg	.LBB57_26
	leal	62(%r10), %ebp
.LBB57_23:
	movzbl	%r10b, %ebx
	movb	$-65, %r15b
	addl	$-224, %ebx
	cmpl	$20, %ebx
	ja	.LBB57_30
	leaq	.LJTI57_0(%rip), %r14
	movslq	(%r14,%rbx,4), %rbx
	addq	%r14, %rbx
	notrack jmpq	*%rbx
.LBB57_25:
	movb	$-96, %r12b
	jmp	.LBB57_31
.LBB57_26:
	movl	$65533, %r14d
.LBB57_2:
	movl	$1, %ebx
.LBB57_3:
	movl	%r14d, %r10d
	rolw	$8, %r10w
	movw	%r10w, (%r8,%rdx)
	addq	$2, %rdx
	incq	%r9
	xorl	%r10d, %r10d
	cmpl	$65533, %r14d
	cmovneq	%r9, %r10
	addq	%rbx, %rax
	movq	%r10, %r9
	cmpq	$16, %r10
	jb	.LBB57_4
	jmp	.LBB57_41
.LBB57_27:
	movb	$-112, %r12b
	jmp	.LBB57_31
.LBB57_28:
	movb	$-97, %r15b
	jmp	.LBB57_30
.LBB57_29:
	movb	$-113, %r15b
.LBB57_30:
	movb	$-128, %r12b
.LBB57_31:
	movl	$65533, %r14d
	movl	$1, %ebx
	cmpb	$50, %bpl
	ja	.LBB57_3
	cmpb	%r11b, %r12b
	setbe	%bpl
	cmpb	%r15b, %r11b
	setbe	%r15b
	andb	%bpl, %r15b
	cmpb	$1, %r15b
	jne	.LBB57_3
	cmpb	$-33, %r10b
	jbe	.LBB57_14
.LBB57_34:
	movzbl	2(%rdi,%rax), %r15d
	movl	$65533, %r14d
	movl	$2, %ebx
	cmpb	$-65, %r15b
	jg	.LBB57_3
	cmpb	$-17, %r10b
	ja	.LBB57_38
	movzbl	%r10b, %r10d
	shll	$12, %r10d
	movzbl	%r11b, %r11d
	shll	$6, %r11d
	addl	%r10d, %r11d
	leal	(%r15,%r11), %r14d
	addl	$-925824, %r14d
.LBB57_37:
	movl	$3, %ebx
	jmp	.LBB57_3
.LBB57_38:
	movzbl	3(%rdi,%rax), %r12d
	movl	$3, %ebx
	cmpb	$-65, %r12b
	jg	.LBB57_3
	movzbl	%r10b, %r10d
	shll	$18, %r10d
	movzbl	%r11b, %r11d
	shll	$12, %r11d
	addl	%r10d, %r11d
	shll	$6, %r15d
	addl	%r11d, %r15d
	leal	(%r12,%r15), %r14d
	addl	$-63447168, %r14d
	movl	$4, %ebx
	cmpl	$65536, %r14d
	jb	.LBB57_3
	leal	67043328(%r14), %r10d
	shrl	$10, %r10d
	addl	$-10240, %r10d
	rolw	$8, %r10w
	movw	%r10w, (%r8,%rdx)
	andl	$1023, %r14d
	orl	$56320, %r14d
	rolw	$8, %r14w
	movw	%r14w, 2(%r8,%rdx)
	movl	$1, %r10d
	movl	$4, %r11d
	jmp	.LBB57_16
.LBB57_41:
	popq	%rbx
	.cfi_def_cfa_offset 40
	popq	%r12
	.cfi_def_cfa_offset 32
	popq	%r14
	.cfi_def_cfa_offset 24
	popq	%r15
	.cfi_def_cfa_offset 16
	popq	%rbp
	.cfi_def_cfa_offset 8
	retq
.Lfunc_end57:
	.size	"utf16_transcode::items::write_items::<#8b18edd9dd9aa8df>", .Lfunc_end57-"utf16_transcode::items::write_items::<#8b18edd9dd9aa8df>"
	.cfi_endproc
	.section	".rodata.utf16_transcode::items::write_items::<#8b18edd9dd9aa8df>","a",@progbits
	.p2align	2, 0x0
.LJTI57_0:
	.long	.LBB57_25-.LJTI57_0
	.long	.LBB57_30-.LJTI57_0
	.long	.LBB57_30-.LJTI57_0
	.long	.LBB57_30-.LJTI57_0
	.long	.LBB57_30-.LJTI57_0
	.long	.LBB57_30-.LJTI57_0
	.long	.LBB57_30-.LJTI57_0
	.long	.LBB57_30-.LJTI57_0
	.long	.LBB57_30-.LJTI57_0
	.long	.LBB57_30-.LJTI57_0
	.long	.LBB57_30-.LJTI57_0
	.long	.LBB57_30-.LJTI57_0
	.long	.LBB57_30-.LJTI57_0
	.long	.LBB57_28-.LJTI57_0
	.long	.LBB57_30-.LJTI57_0
	.long	.LBB57_30-.LJTI57_0
	.long	.LBB57_27-.LJTI57_0
	.long	.LBB57_30-.LJTI57_0
	.long	.LBB57_30-.LJTI57_0
	.long	.LBB57_30-.LJTI57_0
	.long	.LBB57_29-.LJTI57_0

	.section	.rodata.cst16,"aM",@progbits,16
	.p2align	4, 0x0
.LCPI58_0:
	.zero	16,192
.LCPI58_1:
	.zero	16,191
.LCPI58_2:
	.zero	16,223
.LCPI58_3:
	.zero	16,239
.LCPI58_4:
	.zero	16,159
.LCPI58_5:
	.zero	16,237
.LCPI58_6:
	.zero	16,224
.LCPI58_7:
	.zero	16,143
.LCPI58_8:
	.zero	16,245
.LCPI58_9:
	.zero	16,244
.LCPI58_10:
	.zero	16,240
.LCPI58_11:
	.zero	16,254
.LCPI58_12:
	.byte	1
	.byte	2
	.byte	3
	.byte	4
	.byte	5
	.byte	6
	.byte	7
	.byte	8
	.byte	9
	.byte	10
	.byte	11
	.byte	12
	.byte	13
	.byte	14
	.byte	15
	.byte	16
.LCPI58_13:
	.zero	16,15
.LCPI58_14:
	.zero	16,220
.LCPI58_15:
	.zero	16,252
.LCPI58_16:
	.zero	16,3
.LCPI58_17:
	.zero	16,63
.LCPI58_18:
	.zero	16,232
.LCPI58_19:
	.zero	16,127
	.section	".text.utf16_transcode::encode::FromUtf8Direction::begin::<#418c2b53cf60437c>","ax",@progbits
	.p2align	4
	.type	"utf16_transcode::encode::FromUtf8Direction::begin::<#418c2b53cf60437c>",@function
"utf16_transcode::encode::FromUtf8Direction::begin::<#418c2b53cf60437c>":
	.cfi_startproc
	pushq	%rbp
	.cfi_def_cfa_offset 16
	pushq	%r15
	.cfi_def_cfa_offset 24
	pushq	%r14
	.cfi_def_cfa_offset 32
	pushq	%r12
	.cfi_def_cfa_offset 40
	pushq	%rbx
	.cfi_def_cfa_offset 48
	.cfi_offset %rbx, -48
	.cfi_offset %r12, -40
	.cfi_offset %r14, -32
	.cfi_offset %r15, -24
	.cfi_offset %rbp, -16
	movq	%rcx, %rbx
	cmpq	$7, %rsi
	ja	.LBB58_16
	movq	%rbx, %rax
	shrq	%rax
	cmpq	%rsi, %rax
	cmovaeq	%rsi, %rax
	testq	%rax, %rax
	je	.LBB58_22
	movsbl	(%rdi), %ecx
	testw	%cx, %cx
	js	.LBB58_22
	movw	%cx, (%rdx)
	movl	$2, %r9d
	cmpq	$1, %rax
	je	.LBB58_84
	movsbl	1(%rdi), %ecx
	testw	%cx, %cx
	js	.LBB58_33
	movw	%cx, 2(%rdx)
	movl	$4, %r9d
	cmpq	$2, %rax
	je	.LBB58_84
	movsbl	2(%rdi), %ecx
	testw	%cx, %cx
	js	.LBB58_36
	movw	%cx, 4(%rdx)
	movl	$6, %r9d
	cmpq	$3, %rax
	je	.LBB58_84
	movsbl	3(%rdi), %ecx
	testw	%cx, %cx
	js	.LBB58_78
	movw	%cx, 6(%rdx)
	movl	$8, %r9d
	cmpq	$4, %rax
	je	.LBB58_84
	movsbl	4(%rdi), %ecx
	testw	%cx, %cx
	js	.LBB58_79
	movw	%cx, 8(%rdx)
	movl	$10, %r9d
	cmpq	$5, %rax
	je	.LBB58_84
	movsbl	5(%rdi), %ecx
	testw	%cx, %cx
	js	.LBB58_80
	movw	%cx, 10(%rdx)
	movl	$12, %r9d
	cmpq	$6, %rax
	je	.LBB58_84
	movsbl	6(%rdi), %ecx
	testw	%cx, %cx
	js	.LBB58_81
	movw	%cx, 12(%rdx)
	movl	$14, %r9d
	jmp	.LBB58_84
.LBB58_16:
	cmpq	$16, %rsi
	ja	.LBB58_23
	cmpq	$32, %rbx
	jb	.LBB58_21
	movq	-8(%rdi,%rsi), %xmm0
	movq	(%rdi), %xmm1
	punpcklqdq	%xmm0, %xmm1
	movq	%rsi, %rax
	shlq	$4, %rax
	leaq	.Lstatic.1(%rip), %rcx
	movdqu	-128(%rax,%rcx), %xmm2
	pshufb	%xmm2, %xmm1
	pmovmskb	%xmm1, %eax
	testl	%eax, %eax
	je	.LBB58_27
	pextrb	$5, %xmm0, %eax
	pextrb	$6, %xmm0, %ecx
	pextrb	$7, %xmm0, %r8d
	cmpb	$-64, %r8b
	setae	%r8b
	cmpb	$-32, %cl
	setae	%cl
	orb	%r8b, %cl
	cmpb	$-16, %al
	setae	%al
	orb	%cl, %al
	jne	.LBB58_21
	leaq	.Lstatic.2(%rip), %rax
	subq	%rsi, %rax
	movdqu	16(%rax), %xmm0
	pmaxub	%xmm0, %xmm1
	movdqa	%xmm1, %xmm2
	pslldq	$1, %xmm2
	movdqa	%xmm1, %xmm4
	pslldq	$2, %xmm4
	movdqa	%xmm1, %xmm5
	pslldq	$3, %xmm5
	movdqa	.LCPI58_0(%rip), %xmm3
	movdqa	%xmm3, %xmm0
	movdqa	%xmm2, %xmm6
	psubusb	.LCPI58_1(%rip), %xmm6
	pcmpgtb	%xmm1, %xmm0
	movdqa	%xmm4, %xmm7
	psubusb	.LCPI58_2(%rip), %xmm7
	pmaxub	%xmm6, %xmm7
	psubusb	.LCPI58_3(%rip), %xmm5
	por	%xmm7, %xmm5
	pxor	%xmm6, %xmm6
	pcmpgtb	%xmm6, %xmm5
	pxor	%xmm0, %xmm5
	movdqa	.LCPI58_4(%rip), %xmm0
	pminub	%xmm1, %xmm0
	pcmpeqb	%xmm1, %xmm0
	movdqa	.LCPI58_5(%rip), %xmm7
	pblendvb	%xmm0, .LCPI58_6(%rip), %xmm7
	pcmpeqb	%xmm2, %xmm7
	movdqa	.LCPI58_7(%rip), %xmm0
	pminub	%xmm1, %xmm0
	pcmpeqb	%xmm1, %xmm0
	movdqa	.LCPI58_8(%rip), %xmm8
	pmaxub	%xmm1, %xmm8
	pcmpeqb	%xmm1, %xmm8
	movdqa	.LCPI58_9(%rip), %xmm9
	pblendvb	%xmm0, .LCPI58_10(%rip), %xmm9
	pcmpeqb	%xmm2, %xmm9
	por	%xmm7, %xmm9
	movdqa	.LCPI58_11(%rip), %xmm0
	pand	%xmm1, %xmm0
	pcmpeqb	%xmm3, %xmm0
	por	%xmm5, %xmm0
	por	%xmm8, %xmm0
	por	%xmm9, %xmm0
	movd	%esi, %xmm5
	pshufb	%xmm6, %xmm5
	movdqa	.LCPI58_12(%rip), %xmm6
	pmaxub	%xmm5, %xmm6
	pcmpeqb	%xmm5, %xmm6
	psllw	$7, %xmm0
	pand	%xmm6, %xmm0
	pmovmskb	%xmm0, %eax
	testl	%eax, %eax
	je	.LBB58_35
.LBB58_21:
	xorl	%r9d, %r9d
	xorl	%eax, %eax
	cmpq	$31, %rsi
	jbe	.LBB58_45
	jmp	.LBB58_32
.LBB58_22:
	xorl	%r9d, %r9d
	xorl	%eax, %eax
	jmp	.LBB58_84
.LBB58_23:
	movq	%rbx, %rcx
	shrq	%rcx
	cmpq	%rsi, %rcx
	cmovaeq	%rsi, %rcx
	cmpq	$32, %rbx
	jb	.LBB58_24
	movdqu	(%rdi), %xmm1
	pmovmskb	%xmm1, %eax
	testl	%eax, %eax
	je	.LBB58_28
.LBB58_24:
	xorl	%eax, %eax
	leaq	(%rax,%rax), %r9
	movq	%rsi, %rcx
	subq	%rax, %rcx
	je	.LBB58_31
.LBB58_38:
	movq	%rdi, %r15
	cmpq	$191, %rcx
	ja	.LBB58_40
	movq	%rsi, %r12
	movq	%rdx, %r14
	movq	%rbx, %rcx
	movq	%rax, %r8
	callq	"utf16_from_utf8::rest::write_rest::<#418c2b53cf60437c>"
	movq	%r15, %rdi
	movq	%r12, %rsi
	movq	%rdx, %r9
	movq	%r14, %rdx
	cmpq	$31, %rsi
	jbe	.LBB58_45
	jmp	.LBB58_32
.LBB58_40:
	movq	%rsi, %r14
	movq	%rdx, %r12
	movq	%rbx, %rcx
	movq	%rax, %r8
	callq	"utf16_from_utf8::blocks::write_mixed_blocks::<#418c2b53cf60437c>"
	movq	%rdx, %r9
	movq	%r14, %rcx
	subq	%rax, %rcx
	cmpq	$191, %rcx
	jbe	.LBB58_42
	movq	%r14, %rsi
	movq	%r12, %rdx
	movq	%r15, %rdi
	cmpq	$31, %rsi
	jbe	.LBB58_45
	jmp	.LBB58_32
.LBB58_27:
	pxor	%xmm0, %xmm0
	pmovzxbw	%xmm1, %xmm2
	punpckhbw	%xmm0, %xmm1
	movdqu	%xmm2, (%rdx)
	movdqu	%xmm1, 16(%rdx)
	leaq	(%rsi,%rsi), %r9
	movq	%rsi, %rax
	cmpq	$31, %rsi
	jbe	.LBB58_45
	jmp	.LBB58_32
.LBB58_28:
	cmpq	$31, %rcx
	ja	.LBB58_34
	pxor	%xmm0, %xmm0
	pmovzxbw	%xmm1, %xmm2
	punpckhbw	%xmm0, %xmm1
	movdqu	%xmm2, (%rdx)
	movdqu	%xmm1, 16(%rdx)
	movdqu	-16(%rcx,%rdi), %xmm1
	pmovmskb	%xmm1, %r8d
	movl	$16, %eax
	testl	%r8d, %r8d
	je	.LBB58_37
	leaq	(%rax,%rax), %r9
	movq	%rsi, %rcx
	subq	%rax, %rcx
	jne	.LBB58_38
.LBB58_31:
	cmpq	$31, %rsi
	jbe	.LBB58_45
.LBB58_32:
	movq	%r9, %rdx
	popq	%rbx
	.cfi_def_cfa_offset 40
	popq	%r12
	.cfi_def_cfa_offset 32
	popq	%r14
	.cfi_def_cfa_offset 24
	popq	%r15
	.cfi_def_cfa_offset 16
	popq	%rbp
	.cfi_def_cfa_offset 8
	retq
.LBB58_33:
	.cfi_def_cfa_offset 48
	movl	$1, %eax
	jmp	.LBB58_84
.LBB58_42:
	movq	%r15, %rdi
	movq	%r14, %rsi
	movq	%r12, %rdx
	movq	%rbx, %rcx
	movq	%rax, %r8
	callq	"utf16_from_utf8::rest::write_rest::<#418c2b53cf60437c>"
	movq	%r15, %rdi
	movq	%r14, %rsi
	movq	%rdx, %r9
	movq	%r12, %rdx
	cmpq	$31, %rsi
	jbe	.LBB58_45
	jmp	.LBB58_32
.LBB58_34:
	movq	%rdi, %r14
	movq	%rsi, %r12
	movq	%rcx, %rsi
	movq	%rdx, %r15
	callq	"utf16_from_utf8::ascii::write_front::<#418c2b53cf60437c>"
	movq	%r14, %rdi
	movq	%r12, %rsi
	movq	%r15, %rdx
	leaq	(%rax,%rax), %r9
	movq	%rsi, %rcx
	subq	%rax, %rcx
	je	.LBB58_31
	jmp	.LBB58_38
.LBB58_35:
	movdqa	%xmm3, %xmm6
	movdqa	%xmm1, %xmm0
	pblendvb	%xmm0, %xmm2, %xmm6
	movdqa	.LCPI58_1(%rip), %xmm5
	movdqa	.LCPI58_6(%rip), %xmm0
	pmaxub	%xmm4, %xmm0
	movdqa	%xmm6, %xmm7
	psrlw	$2, %xmm7
	movdqa	.LCPI58_13(%rip), %xmm9
	pand	%xmm9, %xmm7
	psllw	$4, %xmm0
	pandn	%xmm0, %xmm9
	por	%xmm7, %xmm9
	movdqa	%xmm6, %xmm0
	pmaxub	%xmm4, %xmm0
	movdqa	%xmm0, %xmm8
	pminub	%xmm5, %xmm8
	pcmpeqb	%xmm0, %xmm8
	pand	.LCPI58_14(%rip), %xmm8
	por	%xmm9, %xmm8
	movdqa	%xmm2, %xmm0
	psllw	$2, %xmm0
	pand	.LCPI58_15(%rip), %xmm0
	movdqa	%xmm1, %xmm7
	psrlw	$4, %xmm7
	pand	.LCPI58_16(%rip), %xmm7
	movdqa	.LCPI58_17(%rip), %xmm9
	pminub	%xmm0, %xmm9
	pcmpeqb	%xmm0, %xmm9
	paddb	%xmm4, %xmm9
	paddb	.LCPI58_18(%rip), %xmm9
	por	%xmm0, %xmm7
	paddb	%xmm3, %xmm7
	movdqa	.LCPI58_3(%rip), %xmm0
	pminub	%xmm4, %xmm0
	pcmpeqb	%xmm4, %xmm0
	pblendvb	%xmm0, %xmm8, %xmm9
	movdqa	.LCPI58_19(%rip), %xmm4
	pand	%xmm1, %xmm4
	psllw	$6, %xmm6
	pand	%xmm3, %xmm6
	paddb	%xmm4, %xmm6
	pblendvb	%xmm0, %xmm6, %xmm7
	movdqa	%xmm7, %xmm0
	punpckhbw	%xmm9, %xmm0
	punpcklbw	%xmm9, %xmm7
	pminub	%xmm1, %xmm5
	pcmpeqb	%xmm1, %xmm5
	movdqa	.LCPI58_2(%rip), %xmm1
	pminub	%xmm2, %xmm1
	pcmpeqb	%xmm2, %xmm1
	pand	%xmm5, %xmm1
	pmovmskb	%xmm1, %eax
	movzbl	%al, %ecx
	popcntl	%ecx, %r8d
	shll	$4, %ecx
	leaq	.Lstatic.10(%rip), %r10
	movdqu	(%rcx,%r10), %xmm1
	pshufb	%xmm1, %xmm7
	movdqu	%xmm7, (%rdx)
	shrl	$8, %eax
	popcntl	%eax, %r9d
	shll	$4, %eax
	movdqu	(%rax,%r10), %xmm1
	pshufb	%xmm1, %xmm0
	movdqu	%xmm0, (%rdx,%r8,2)
	addl	%r8d, %r9d
	addl	%r9d, %r9d
	movq	%rsi, %rax
	cmpq	$31, %rsi
	jbe	.LBB58_45
	jmp	.LBB58_32
	.p2align	4
.LBB58_43:
	leal	67043328(%rcx), %r11d
	shrl	$10, %r11d
	addl	$-10240, %r11d
	andl	$1023, %ecx
	orl	$56320, %ecx
	movw	%cx, 2(%rdx,%r9)
	movl	$4, %r10d
	movl	%r11d, %ecx
.LBB58_44:
	movw	%cx, (%rdx,%r9)
	addq	%r10, %r9
	addq	%r8, %rax
.LBB58_45:
	cmpq	%rsi, %rax
	jae	.LBB58_32
	movzbl	(%rdi,%rax), %ecx
	testb	%cl, %cl
	js	.LBB58_51
	movl	$1, %r8d
.LBB58_48:
	movq	%rbx, %r10
	subq	%r9, %r10
	xorl	%r11d, %r11d
	cmpl	$65536, %ecx
	setae	%r11b
	leaq	2(,%r11,2), %r11
	cmpq	%r11, %r10
	jb	.LBB58_32
	cmpl	$65535, %ecx
	ja	.LBB58_43
	movl	$2, %r10d
	jmp	.LBB58_44
	.p2align	4
.LBB58_51:
	movq	%rsi, %r10
	subq	%rax, %r10
	cmpq	$3, %r10
	jb	.LBB58_55
	leal	31(%rcx), %r8d
	cmpb	$11, %r8b
	ja	.LBB58_56
	movzbl	1(%rdi,%rax), %r8d
	cmpb	$-65, %r8b
	jg	.LBB58_56
	movzbl	2(%rdi,%rax), %r11d
	cmpb	$-65, %r11b
	jg	.LBB58_56
	jmp	.LBB58_61
.LBB58_55:
	cmpq	$2, %r10
	jne	.LBB58_32
.LBB58_56:
	movzbl	1(%rdi,%rax), %r8d
	movl	%ecx, %r11d
	shrb	$4, %r11b
	andb	$12, %r11b
	movl	%r8d, %ebp
	shrb	$6, %bpl
	orb	%r11b, %bpl
	cmpb	$14, %bpl
	jne	.LBB58_32
	leal	31(%rcx), %r11d
	cmpb	$12, %r11b
	jae	.LBB58_62
.LBB58_58:
	cmpq	$2, %r10
	je	.LBB58_32
	movzbl	2(%rdi,%rax), %r11d
	cmpb	$-65, %r11b
	jg	.LBB58_32
	cmpb	$-17, %cl
	ja	.LBB58_66
.LBB58_61:
	shll	$12, %ecx
	shll	$6, %r8d
	addl	%ecx, %r8d
	leal	(%r11,%r8), %ecx
	addl	$-925824, %ecx
	movl	$3, %r8d
	jmp	.LBB58_48
.LBB58_62:
	leal	62(%rcx), %r11d
	cmpb	$30, %r11b
	jb	.LBB58_77
	movb	$-65, %bpl
	leal	-224(%rcx), %r14d
	cmpl	$20, %r14d
	ja	.LBB58_72
	leaq	.LJTI58_0(%rip), %r15
	movslq	(%r15,%r14,4), %r14
	addq	%r15, %r14
	notrack jmpq	*%r14
.LBB58_65:
	movb	$-96, %r14b
	jmp	.LBB58_73
.LBB58_66:
	cmpq	$4, %r10
	jb	.LBB58_32
	movzbl	3(%rdi,%rax), %r10d
	cmpb	$-65, %r10b
	jg	.LBB58_32
	shll	$18, %ecx
	shll	$12, %r8d
	addl	%ecx, %r8d
	shll	$6, %r11d
	addl	%r8d, %r11d
	leal	(%r10,%r11), %ecx
	addl	$-63447168, %ecx
	movl	$4, %r8d
	jmp	.LBB58_48
.LBB58_69:
	movb	$-112, %r14b
	jmp	.LBB58_73
.LBB58_70:
	movb	$-97, %bpl
	jmp	.LBB58_72
.LBB58_71:
	movb	$-113, %bpl
.LBB58_72:
	movb	$-128, %r14b
.LBB58_73:
	cmpb	$50, %r11b
	ja	.LBB58_32
	cmpb	%r8b, %r14b
	ja	.LBB58_32
	cmpb	%bpl, %r8b
	ja	.LBB58_32
	cmpb	$-33, %cl
	ja	.LBB58_58
.LBB58_77:
	shll	$6, %ecx
	addl	%r8d, %ecx
	addl	$-12416, %ecx
	movl	$2, %r8d
	jmp	.LBB58_48
.LBB58_36:
	movl	$2, %eax
	jmp	.LBB58_84
.LBB58_37:
	pmovzxbw	%xmm1, %xmm2
	punpckhbw	%xmm0, %xmm1
	movdqu	%xmm2, -32(%rdx,%rcx,2)
	movdqu	%xmm1, -16(%rdx,%rcx,2)
	movq	%rcx, %rax
	leaq	(%rax,%rax), %r9
	movq	%rsi, %rcx
	subq	%rax, %rcx
	je	.LBB58_31
	jmp	.LBB58_38
.LBB58_78:
	movl	$3, %eax
	jmp	.LBB58_84
.LBB58_79:
	movl	$4, %eax
	jmp	.LBB58_84
.LBB58_80:
	movl	$5, %eax
	jmp	.LBB58_84
.LBB58_81:
	movl	$6, %eax
	jmp	.LBB58_84
	.p2align	4
.LBB58_82:
	leal	67043328(%rcx), %r11d
	shrl	$10, %r11d
	addl	$-10240, %r11d
	andl	$1023, %ecx
	orl	$56320, %ecx
	movw	%cx, 2(%rdx,%r9)
	movl	$4, %r10d
	movl	%r11d, %ecx
.LBB58_83:
	movw	%cx, (%rdx,%r9)
	addq	%r10, %r9
	addq	%r8, %rax
.LBB58_84:
	cmpq	%rsi, %rax
	jae	.LBB58_32
	movzbl	(%rdi,%rax), %ecx
	testb	%cl, %cl
	js	.LBB58_90
	movl	$1, %r8d
.LBB58_87:
	movq	%rbx, %r10
	subq	%r9, %r10
	xorl	%r11d, %r11d
	cmpl	$65536, %ecx
	setae	%r11b
	leaq	2(,%r11,2), %r11
	cmpq	%r11, %r10
	jb	.LBB58_32
	cmpl	$65535, %ecx
	ja	.LBB58_82
	movl	$2, %r10d
	jmp	.LBB58_83
	.p2align	4
.LBB58_90:
	movq	%rsi, %r10
	subq	%rax, %r10
	cmpq	$3, %r10
	jb	.LBB58_94
	leal	31(%rcx), %r8d
	cmpb	$11, %r8b
	ja	.LBB58_95
	movzbl	1(%rdi,%rax), %r8d
	cmpb	$-65, %r8b
	jg	.LBB58_95
	movzbl	2(%rdi,%rax), %r11d
	cmpb	$-65, %r11b
	jg	.LBB58_95
	jmp	.LBB58_100
.LBB58_94:
	cmpq	$2, %r10
	jne	.LBB58_32
.LBB58_95:
	movzbl	1(%rdi,%rax), %r8d
	movl	%ecx, %r11d
	shrb	$4, %r11b
	andb	$12, %r11b
	movl	%r8d, %ebp
	shrb	$6, %bpl
	orb	%r11b, %bpl
	cmpb	$14, %bpl
	jne	.LBB58_32
	leal	31(%rcx), %r11d
	cmpb	$12, %r11b
	jae	.LBB58_101
.LBB58_97:
	cmpq	$2, %r10
	je	.LBB58_32
	movzbl	2(%rdi,%rax), %r11d
	cmpb	$-65, %r11b
	jg	.LBB58_32
	cmpb	$-17, %cl
	ja	.LBB58_105
.LBB58_100:
	shll	$12, %ecx
	shll	$6, %r8d
	addl	%ecx, %r8d
	leal	(%r11,%r8), %ecx
	addl	$-925824, %ecx
	movl	$3, %r8d
	jmp	.LBB58_87
.LBB58_101:
	leal	62(%rcx), %r11d
	cmpb	$30, %r11b
	jb	.LBB58_116
	movb	$-65, %bpl
	leal	-224(%rcx), %r14d
	cmpl	$20, %r14d
	ja	.LBB58_111
	leaq	.LJTI58_1(%rip), %r15
	movslq	(%r15,%r14,4), %r14
	addq	%r15, %r14
	notrack jmpq	*%r14
.LBB58_104:
	movb	$-96, %r14b
	jmp	.LBB58_112
.LBB58_105:
	cmpq	$4, %r10
	jb	.LBB58_32
	movzbl	3(%rdi,%rax), %r10d
	cmpb	$-65, %r10b
	jg	.LBB58_32
	shll	$18, %ecx
	shll	$12, %r8d
	addl	%ecx, %r8d
	shll	$6, %r11d
	addl	%r8d, %r11d
	leal	(%r10,%r11), %ecx
	addl	$-63447168, %ecx
	movl	$4, %r8d
	jmp	.LBB58_87
.LBB58_108:
	movb	$-112, %r14b
	jmp	.LBB58_112
.LBB58_109:
	movb	$-97, %bpl
	jmp	.LBB58_111
.LBB58_110:
	movb	$-113, %bpl
.LBB58_111:
	movb	$-128, %r14b
.LBB58_112:
	cmpb	$50, %r11b
	ja	.LBB58_32
	cmpb	%r8b, %r14b
	ja	.LBB58_32
	cmpb	%bpl, %r8b
	ja	.LBB58_32
	cmpb	$-33, %cl
	ja	.LBB58_97
.LBB58_116:
	shll	$6, %ecx
	addl	%r8d, %ecx
	addl	$-12416, %ecx
	movl	$2, %r8d
	jmp	.LBB58_87
.Lfunc_end58:
	.size	"utf16_transcode::encode::FromUtf8Direction::begin::<#418c2b53cf60437c>", .Lfunc_end58-"utf16_transcode::encode::FromUtf8Direction::begin::<#418c2b53cf60437c>"
	.cfi_endproc
	.section	".rodata.utf16_transcode::encode::FromUtf8Direction::begin::<#418c2b53cf60437c>","a",@progbits
	.p2align	2, 0x0
.LJTI58_0:
	.long	.LBB58_65-.LJTI58_0
	.long	.LBB58_72-.LJTI58_0
	.long	.LBB58_72-.LJTI58_0
	.long	.LBB58_72-.LJTI58_0
	.long	.LBB58_72-.LJTI58_0
	.long	.LBB58_72-.LJTI58_0
	.long	.LBB58_72-.LJTI58_0
	.long	.LBB58_72-.LJTI58_0
	.long	.LBB58_72-.LJTI58_0
	.long	.LBB58_72-.LJTI58_0
	.long	.LBB58_72-.LJTI58_0
	.long	.LBB58_72-.LJTI58_0
	.long	.LBB58_72-.LJTI58_0
	.long	.LBB58_70-.LJTI58_0
	.long	.LBB58_72-.LJTI58_0
	.long	.LBB58_72-.LJTI58_0
	.long	.LBB58_69-.LJTI58_0
	.long	.LBB58_72-.LJTI58_0
	.long	.LBB58_72-.LJTI58_0
	.long	.LBB58_72-.LJTI58_0
	.long	.LBB58_71-.LJTI58_0
.LJTI58_1:
	.long	.LBB58_104-.LJTI58_1
	.long	.LBB58_111-.LJTI58_1
	.long	.LBB58_111-.LJTI58_1
	.long	.LBB58_111-.LJTI58_1
	.long	.LBB58_111-.LJTI58_1
	.long	.LBB58_111-.LJTI58_1
	.long	.LBB58_111-.LJTI58_1
	.long	.LBB58_111-.LJTI58_1
	.long	.LBB58_111-.LJTI58_1
	.long	.LBB58_111-.LJTI58_1
	.long	.LBB58_111-.LJTI58_1
	.long	.LBB58_111-.LJTI58_1
	.long	.LBB58_111-.LJTI58_1
	.long	.LBB58_109-.LJTI58_1
	.long	.LBB58_111-.LJTI58_1
	.long	.LBB58_111-.LJTI58_1
	.long	.LBB58_108-.LJTI58_1
	.long	.LBB58_111-.LJTI58_1
	.long	.LBB58_111-.LJTI58_1
	.long	.LBB58_111-.LJTI58_1
	.long	.LBB58_110-.LJTI58_1

	.section	".text.utf16_from_utf8::ascii::write_front::<#418c2b53cf60437c>","ax",@progbits
	.p2align	4
	.type	"utf16_from_utf8::ascii::write_front::<#418c2b53cf60437c>",@function
"utf16_from_utf8::ascii::write_front::<#418c2b53cf60437c>":
	.cfi_startproc
	xorl	%eax, %eax
	cmpq	$64, %rsi
	jb	.LBB59_4
	movq	%rsi, %rcx
	.p2align	4
.LBB59_2:
	movdqu	(%rdi,%rax), %xmm3
	movdqu	16(%rdi,%rax), %xmm2
	movdqu	32(%rdi,%rax), %xmm1
	movdqu	48(%rdi,%rax), %xmm0
	movdqa	%xmm3, %xmm4
	por	%xmm2, %xmm4
	movdqa	%xmm1, %xmm5
	por	%xmm0, %xmm5
	por	%xmm4, %xmm5
	pmovmskb	%xmm5, %r8d
	testl	%r8d, %r8d
	jne	.LBB59_4
	pxor	%xmm4, %xmm4
	pmovzxbw	%xmm3, %xmm5
	punpckhbw	%xmm4, %xmm3
	movdqu	%xmm5, (%rdx,%rax,2)
	movdqu	%xmm3, 16(%rdx,%rax,2)
	pmovzxbw	%xmm2, %xmm3
	punpckhbw	%xmm4, %xmm2
	movdqu	%xmm3, 32(%rdx,%rax,2)
	movdqu	%xmm2, 48(%rdx,%rax,2)
	pmovzxbw	%xmm1, %xmm2
	punpckhbw	%xmm4, %xmm1
	movdqu	%xmm2, 64(%rdx,%rax,2)
	movdqu	%xmm1, 80(%rdx,%rax,2)
	pmovzxbw	%xmm0, %xmm1
	punpckhbw	%xmm4, %xmm0
	movdqu	%xmm1, 96(%rdx,%rax,2)
	movdqu	%xmm0, 112(%rdx,%rax,2)
	addq	$64, %rax
	addq	$-64, %rcx
	cmpq	$63, %rcx
	ja	.LBB59_2
.LBB59_4:
	movq	%rsi, %rcx
	subq	%rax, %rcx
	cmpq	$16, %rcx
	jb	.LBB59_7
	.p2align	4
.LBB59_5:
	movdqu	(%rdi,%rax), %xmm0
	pmovmskb	%xmm0, %r8d
	testl	%r8d, %r8d
	jne	.LBB59_9
	pxor	%xmm1, %xmm1
	pmovzxbw	%xmm0, %xmm2
	punpckhbw	%xmm1, %xmm0
	movdqu	%xmm2, (%rdx,%rax,2)
	movdqu	%xmm0, 16(%rdx,%rax,2)
	addq	$16, %rax
	addq	$-16, %rcx
	cmpq	$15, %rcx
	ja	.LBB59_5
.LBB59_7:
	movdqu	-16(%rsi,%rdi), %xmm0
	pmovmskb	%xmm0, %ecx
	testl	%ecx, %ecx
	je	.LBB59_8
.LBB59_9:
	retq
.LBB59_8:
	pxor	%xmm1, %xmm1
	pmovzxbw	%xmm0, %xmm2
	punpckhbw	%xmm1, %xmm0
	movdqu	%xmm2, -32(%rdx,%rsi,2)
	movdqu	%xmm0, -16(%rdx,%rsi,2)
	movq	%rsi, %rax
	retq
.Lfunc_end59:
	.size	"utf16_from_utf8::ascii::write_front::<#418c2b53cf60437c>", .Lfunc_end59-"utf16_from_utf8::ascii::write_front::<#418c2b53cf60437c>"
	.cfi_endproc

	.section	.rodata.cst16,"aM",@progbits,16
	.p2align	4, 0x0
.LCPI60_0:
	.zero	16,224
.LCPI60_1:
	.zero	1
	.byte	255
	.byte	0
	.zero	1
	.byte	255
	.byte	0
	.zero	1
	.byte	255
	.byte	0
	.zero	1
	.byte	255
	.byte	0
	.zero	1
	.byte	255
	.byte	0
	.zero	1
.LCPI60_2:
	.byte	0
	.byte	3
	.byte	6
	.byte	9
	.byte	12
	.byte	15
	.byte	128
	.byte	128
	.byte	128
	.byte	128
	.byte	128
	.byte	128
	.byte	128
	.byte	128
	.byte	128
	.byte	128
.LCPI60_3:
	.byte	128
	.byte	128
	.byte	128
	.byte	128
	.byte	128
	.byte	128
	.byte	2
	.byte	5
	.byte	8
	.byte	11
	.byte	14
	.byte	1
	.byte	4
	.byte	7
	.byte	10
	.byte	13
.LCPI60_4:
	.byte	255
	.zero	1
	.byte	0
	.byte	255
	.zero	1
	.byte	0
	.byte	255
	.zero	1
	.byte	0
	.byte	255
	.zero	1
	.byte	0
	.byte	255
	.zero	1
	.byte	0
	.byte	255
.LCPI60_5:
	.byte	1
	.byte	4
	.byte	7
	.byte	10
	.byte	13
	.byte	128
	.byte	128
	.byte	128
	.byte	128
	.byte	128
	.byte	128
	.byte	128
	.byte	128
	.byte	128
	.byte	128
	.byte	128
.LCPI60_6:
	.byte	128
	.byte	128
	.byte	128
	.byte	128
	.byte	128
	.byte	0
	.byte	3
	.byte	6
	.byte	9
	.byte	12
	.byte	15
	.byte	2
	.byte	5
	.byte	8
	.byte	11
	.byte	14
.LCPI60_7:
	.byte	255
	.byte	0
	.zero	1
	.byte	255
	.byte	0
	.zero	1
	.byte	255
	.byte	0
	.zero	1
	.byte	255
	.byte	0
	.zero	1
	.byte	255
	.byte	0
	.zero	1
	.byte	255
.LCPI60_8:
	.byte	2
	.byte	5
	.byte	8
	.byte	11
	.byte	14
	.byte	128
	.byte	128
	.byte	128
	.byte	128
	.byte	128
	.byte	128
	.byte	128
	.byte	128
	.byte	128
	.byte	128
	.byte	128
.LCPI60_9:
	.byte	128
	.byte	128
	.byte	128
	.byte	128
	.byte	128
	.byte	1
	.byte	4
	.byte	7
	.byte	10
	.byte	13
	.byte	0
	.byte	3
	.byte	6
	.byte	9
	.byte	12
	.byte	15
.LCPI60_10:
	.zero	16,240
.LCPI60_11:
	.zero	16,32
.LCPI60_12:
	.zero	16,192
.LCPI60_13:
	.zero	16,128
.LCPI60_14:
	.zero	16,15
.LCPI60_15:
	.zero	16,7
.LCPI60_16:
	.zero	16,248
.LCPI60_17:
	.zero	16,216
.LCPI60_18:
	.zero	16,63
.LCPI60_19:
	.zero	16,191
.LCPI60_20:
	.zero	16,223
.LCPI60_21:
	.zero	16,239
.LCPI60_22:
	.zero	16,159
.LCPI60_23:
	.zero	16,237
.LCPI60_24:
	.zero	16,143
.LCPI60_25:
	.zero	16,245
.LCPI60_26:
	.zero	16,244
.LCPI60_27:
	.zero	16,254
.LCPI60_28:
	.zero	16,220
.LCPI60_29:
	.zero	16,252
.LCPI60_30:
	.zero	16,232
.LCPI60_31:
	.zero	16,127
.LCPI60_32:
	.zero	16
	.section	".text.utf16_from_utf8::blocks::write_mixed_blocks::<#418c2b53cf60437c>","ax",@progbits
	.p2align	4
	.type	"utf16_from_utf8::blocks::write_mixed_blocks::<#418c2b53cf60437c>",@function
"utf16_from_utf8::blocks::write_mixed_blocks::<#418c2b53cf60437c>":
	.cfi_startproc
	pushq	%rbp
	.cfi_def_cfa_offset 16
	pushq	%r15
	.cfi_def_cfa_offset 24
	pushq	%r14
	.cfi_def_cfa_offset 32
	pushq	%r13
	.cfi_def_cfa_offset 40
	pushq	%r12
	.cfi_def_cfa_offset 48
	pushq	%rbx
	.cfi_def_cfa_offset 56
	subq	$56, %rsp
	.cfi_def_cfa_offset 112
	.cfi_offset %rbx, -56
	.cfi_offset %r12, -48
	.cfi_offset %r13, -40
	.cfi_offset %r14, -32
	.cfi_offset %r15, -24
	.cfi_offset %rbp, -16
	movq	%r9, %rbx
	movq	%r8, %rax
	movq	%rcx, %r15
	movq	%rdx, %r12
	movq	%rsi, %r13
	movq	%rdi, %rbp
	jmp	.LBB60_1
	.p2align	4
.LBB60_4:
	shrq	%rsi
	cmpq	%rax, %rsi
	cmovaeq	%rax, %rsi
	leaq	(%r12,%rbx), %rdx
	callq	"utf16_from_utf8::ascii::write_front::<#418c2b53cf60437c>"
	leaq	(%rbx,%rax,2), %rbx
	addq	%r14, %rax
.LBB60_27:
	cmpq	%r14, %rax
	je	.LBB60_28
.LBB60_1:
	movq	%rax, %r14
	movq	%r13, %rax
	subq	%r14, %rax
	cmpq	$64, %rax
	jb	.LBB60_28
	movq	%r15, %rsi
	subq	%rbx, %rsi
	cmpq	$128, %rsi
	jb	.LBB60_28
	leaq	(%r14,%rbp), %rdi
	movdqu	(%rbp,%r14), %xmm4
	movdqu	16(%rbp,%r14), %xmm2
	movdqu	32(%rbp,%r14), %xmm6
	movdqu	48(%rbp,%r14), %xmm3
	movdqa	%xmm4, %xmm0
	pmaxub	%xmm2, %xmm0
	movdqa	%xmm6, %xmm1
	pmaxub	%xmm3, %xmm1
	pmaxub	%xmm0, %xmm1
	pmovmskb	%xmm1, %ecx
	testl	%ecx, %ecx
	je	.LBB60_4
	movdqa	.LCPI60_0(%rip), %xmm0
	pmaxub	%xmm1, %xmm0
	pcmpeqb	%xmm1, %xmm0
	pmovmskb	%xmm0, %eax
	testl	%eax, %eax
	je	.LBB60_6
	movd	%xmm4, %eax
	andb	$-16, %al
	cmpb	$-32, %al
	jne	.LBB60_9
	leaq	-32(%r15), %rcx
	subq	%rbx, %rcx
	leaq	-48(%r13), %rdx
	subq	%r14, %rdx
	movq	%r14, %rax
	.p2align	4
.LBB60_11:
	movdqu	16(%rbp,%rax), %xmm2
	movdqu	32(%rbp,%rax), %xmm6
	movaps	.LCPI60_1(%rip), %xmm0
	movdqa	%xmm2, %xmm4
	pblendvb	%xmm0, %xmm6, %xmm4
	movdqu	(%rbp,%rax), %xmm5
	movdqa	%xmm5, %xmm7
	pshufb	.LCPI60_2(%rip), %xmm7
	pshufb	.LCPI60_3(%rip), %xmm4
	movaps	.LCPI60_4(%rip), %xmm0
	movdqa	%xmm6, %xmm3
	pblendvb	%xmm0, %xmm2, %xmm3
	movdqa	%xmm5, %xmm0
	pshufb	.LCPI60_5(%rip), %xmm0
	por	%xmm7, %xmm4
	pshufb	.LCPI60_6(%rip), %xmm3
	por	%xmm0, %xmm3
	movaps	.LCPI60_7(%rip), %xmm0
	pblendvb	%xmm0, %xmm6, %xmm2
	pshufb	.LCPI60_8(%rip), %xmm5
	pshufb	.LCPI60_9(%rip), %xmm2
	movdqa	.LCPI60_10(%rip), %xmm0
	pand	%xmm4, %xmm0
	paddb	.LCPI60_11(%rip), %xmm0
	por	%xmm5, %xmm2
	movdqa	.LCPI60_12(%rip), %xmm5
	movdqa	%xmm3, %xmm6
	pand	%xmm5, %xmm6
	movdqa	.LCPI60_13(%rip), %xmm7
	pxor	%xmm7, %xmm6
	pmaxub	%xmm0, %xmm6
	pand	%xmm2, %xmm5
	pxor	%xmm7, %xmm5
	por	%xmm6, %xmm5
	ptest	%xmm5, %xmm5
	jne	.LBB60_15
	psllw	$4, %xmm4
	pand	.LCPI60_10(%rip), %xmm4
	movdqa	%xmm3, %xmm0
	psrlw	$2, %xmm0
	pand	.LCPI60_14(%rip), %xmm0
	por	%xmm4, %xmm0
	movdqa	.LCPI60_15(%rip), %xmm4
	pminub	%xmm0, %xmm4
	movdqa	.LCPI60_16(%rip), %xmm5
	pand	%xmm0, %xmm5
	pcmpeqb	.LCPI60_17(%rip), %xmm5
	pcmpeqb	%xmm0, %xmm4
	por	%xmm4, %xmm5
	pmovmskb	%xmm5, %esi
	testl	%esi, %esi
	jne	.LBB60_15
	psllw	$6, %xmm3
	pand	.LCPI60_12(%rip), %xmm3
	pand	.LCPI60_18(%rip), %xmm2
	por	%xmm3, %xmm2
	movdqa	%xmm2, %xmm3
	punpckhbw	%xmm0, %xmm3
	punpcklbw	%xmm0, %xmm2
	movdqu	%xmm2, (%r12,%rbx)
	movdqu	%xmm3, 16(%r12,%rbx)
	addq	$32, %rbx
	addq	$48, %rax
	subq	$32, %rcx
	setb	%sil
	subq	$48, %rdx
	jb	.LBB60_15
	testb	%sil, %sil
	je	.LBB60_11
	jmp	.LBB60_15
	.p2align	4
.LBB60_6:
	movdqa	%xmm4, %xmm5
	pslldq	$1, %xmm5
	movdqa	.LCPI60_12(%rip), %xmm0
	movdqa	%xmm0, %xmm1
	pcmpgtb	%xmm4, %xmm1
	movdqa	%xmm5, %xmm7
	pmaxub	%xmm0, %xmm7
	pcmpeqb	%xmm5, %xmm7
	pxor	%xmm1, %xmm7
	movdqa	.LCPI60_27(%rip), %xmm1
	movdqa	%xmm4, %xmm8
	pand	%xmm1, %xmm8
	pcmpeqb	%xmm0, %xmm8
	por	%xmm7, %xmm8
	movdqa	%xmm0, %xmm9
	pcmpgtb	%xmm2, %xmm9
	movdqu	15(%rdi), %xmm10
	movdqu	31(%rdi), %xmm11
	movdqu	47(%rdi), %xmm7
	movdqa	%xmm10, %xmm12
	pmaxub	%xmm0, %xmm12
	pcmpeqb	%xmm10, %xmm12
	pxor	%xmm9, %xmm12
	pand	%xmm1, %xmm2
	pcmpeqb	%xmm0, %xmm2
	por	%xmm12, %xmm2
	por	%xmm8, %xmm2
	movdqa	%xmm0, %xmm8
	pcmpgtb	%xmm6, %xmm8
	movdqa	%xmm11, %xmm9
	pmaxub	%xmm0, %xmm9
	pcmpeqb	%xmm11, %xmm9
	pxor	%xmm8, %xmm9
	pand	%xmm1, %xmm6
	pcmpeqb	%xmm0, %xmm6
	por	%xmm9, %xmm6
	movdqa	%xmm0, %xmm8
	pcmpgtb	%xmm3, %xmm8
	movdqa	%xmm7, %xmm9
	pmaxub	%xmm0, %xmm9
	pcmpeqb	%xmm7, %xmm9
	pxor	%xmm8, %xmm9
	pand	%xmm1, %xmm3
	pcmpeqb	%xmm0, %xmm3
	por	%xmm9, %xmm3
	por	%xmm6, %xmm3
	por	%xmm2, %xmm3
	pmovmskb	%xmm3, %eax
	testl	%eax, %eax
	jne	.LBB60_28
	psubusb	%xmm0, %xmm5
	movdqa	.LCPI60_19(%rip), %xmm1
	movdqa	%xmm5, %xmm6
	psrlw	$2, %xmm6
	movdqa	.LCPI60_18(%rip), %xmm3
	pand	%xmm3, %xmm6
	movdqa	.LCPI60_31(%rip), %xmm2
	movdqa	%xmm4, %xmm7
	pand	%xmm2, %xmm7
	psllw	$6, %xmm5
	pand	%xmm0, %xmm5
	paddb	%xmm7, %xmm5
	movdqa	%xmm4, %xmm7
	pminub	%xmm1, %xmm7
	pcmpeqb	%xmm4, %xmm7
	pmovmskb	%xmm7, %edx
	movdqa	%xmm5, %xmm4
	punpckhbw	%xmm6, %xmm4
	punpcklbw	%xmm6, %xmm5
	movzbl	%dl, %ecx
	popcntl	%ecx, %r8d
	shll	$4, %ecx
	leaq	.Lstatic.10(%rip), %rax
	movdqu	(%rcx,%rax), %xmm6
	pshufb	%xmm6, %xmm5
	leaq	(%r12,%rbx), %rcx
	movdqu	%xmm5, (%r12,%rbx)
	shrl	$8, %edx
	popcntl	%edx, %esi
	shll	$4, %edx
	movdqu	(%rdx,%rax), %xmm5
	pshufb	%xmm5, %xmm4
	movdqu	%xmm4, (%rcx,%r8,2)
	addq	%r8, %rsi
	movdqu	15(%rdi), %xmm4
	movdqu	16(%rdi), %xmm5
	psubusb	%xmm0, %xmm4
	movdqa	%xmm4, %xmm6
	psrlw	$2, %xmm6
	pand	%xmm3, %xmm6
	movdqa	%xmm5, %xmm7
	pminub	%xmm1, %xmm7
	pcmpeqb	%xmm5, %xmm7
	pand	%xmm2, %xmm5
	psllw	$6, %xmm4
	pand	%xmm0, %xmm4
	paddb	%xmm5, %xmm4
	pmovmskb	%xmm7, %r8d
	movdqa	%xmm4, %xmm5
	punpckhbw	%xmm6, %xmm5
	punpcklbw	%xmm6, %xmm4
	movzbl	%r8b, %edx
	popcntl	%edx, %r9d
	shll	$4, %edx
	movdqu	(%rdx,%rax), %xmm6
	pshufb	%xmm6, %xmm4
	leaq	(%rcx,%rsi,2), %r10
	movdqu	%xmm4, (%rcx,%rsi,2)
	shrl	$8, %r8d
	xorl	%edx, %edx
	popcntl	%r8d, %edx
	shll	$4, %r8d
	movdqu	(%r8,%rax), %xmm4
	pshufb	%xmm4, %xmm5
	movdqu	%xmm5, (%r10,%r9,2)
	addq	%rsi, %rdx
	addq	%r9, %rdx
	movdqu	31(%rdi), %xmm4
	movdqu	32(%rdi), %xmm5
	psubusb	%xmm0, %xmm4
	movdqa	%xmm4, %xmm6
	psrlw	$2, %xmm6
	pand	%xmm3, %xmm6
	movdqa	%xmm5, %xmm7
	pminub	%xmm1, %xmm7
	pcmpeqb	%xmm5, %xmm7
	pand	%xmm2, %xmm5
	psllw	$6, %xmm4
	pand	%xmm0, %xmm4
	paddb	%xmm5, %xmm4
	pmovmskb	%xmm7, %r8d
	movdqa	%xmm4, %xmm5
	punpckhbw	%xmm6, %xmm5
	punpcklbw	%xmm6, %xmm4
	movzbl	%r8b, %esi
	xorl	%r9d, %r9d
	popcntl	%esi, %r9d
	shll	$4, %esi
	movdqu	(%rsi,%rax), %xmm6
	pshufb	%xmm6, %xmm4
	leaq	(%rcx,%rdx,2), %r10
	movdqu	%xmm4, (%rcx,%rdx,2)
	shrl	$8, %r8d
	xorl	%esi, %esi
	popcntl	%r8d, %esi
	shll	$4, %r8d
	movdqu	(%r8,%rax), %xmm4
	pshufb	%xmm4, %xmm5
	movdqu	%xmm5, (%r10,%r9,2)
	addq	%r9, %rsi
	addq	%rdx, %rsi
	movdqu	47(%rdi), %xmm4
	movdqu	48(%rdi), %xmm5
	psubusb	%xmm0, %xmm4
	movdqa	%xmm4, %xmm6
	psrlw	$2, %xmm6
	pand	%xmm3, %xmm6
	pand	%xmm5, %xmm2
	psllw	$6, %xmm4
	pand	%xmm0, %xmm4
	paddb	%xmm2, %xmm4
	pminub	%xmm5, %xmm1
	pcmpeqb	%xmm5, %xmm1
	pmovmskb	%xmm1, %edx
	movdqa	%xmm4, %xmm0
	punpckhbw	%xmm6, %xmm0
	punpcklbw	%xmm6, %xmm4
	movzbl	%dl, %r8d
	xorl	%r9d, %r9d
	popcntl	%r8d, %r9d
	shll	$4, %r8d
	movdqu	(%r8,%rax), %xmm1
	pshufb	%xmm1, %xmm4
	leaq	(%rcx,%rsi,2), %r8
	movdqu	%xmm4, (%rcx,%rsi,2)
	shrl	$8, %edx
	popcntl	%edx, %ecx
	shll	$4, %edx
	movdqu	(%rdx,%rax), %xmm1
	pshufb	%xmm1, %xmm0
	movdqu	%xmm0, (%r8,%r9,2)
	addq	%r9, %rcx
	addq	%rsi, %rcx
	leaq	(%rbx,%rcx,2), %rbx
	cmpb	$-64, 63(%rdi)
	movq	%r14, %rax
	adcq	$-1, %rax
	addq	$64, %rax
	jmp	.LBB60_27
.LBB60_9:
	movq	%r14, %rax
.LBB60_15:
	cmpq	%rax, %r14
	jb	.LBB60_27
	movdqa	.LCPI60_10(%rip), %xmm0
	pmaxub	%xmm1, %xmm0
	pcmpeqb	%xmm1, %xmm0
	pmovmskb	%xmm0, %ecx
	movdqu	(%rbp,%rax), %xmm9
	movdqa	%xmm9, %xmm8
	pslldq	$1, %xmm8
	movdqa	%xmm9, %xmm10
	pslldq	$2, %xmm10
	testl	%ecx, %ecx
	je	.LBB60_17
	movdqa	%xmm10, %xmm1
	pslldq	$1, %xmm1
	movdqa	.LCPI60_12(%rip), %xmm2
	movdqa	%xmm2, %xmm0
	movdqa	%xmm2, %xmm11
	pcmpgtb	%xmm9, %xmm0
	movdqa	%xmm8, %xmm2
	psubusb	.LCPI60_19(%rip), %xmm2
	movdqa	%xmm10, 16(%rsp)
	movdqa	%xmm10, %xmm3
	psubusb	.LCPI60_20(%rip), %xmm3
	pmaxub	%xmm2, %xmm3
	psubusb	.LCPI60_21(%rip), %xmm1
	por	%xmm3, %xmm1
	pxor	%xmm2, %xmm2
	pcmpgtb	%xmm2, %xmm1
	pxor	%xmm0, %xmm1
	movdqa	.LCPI60_22(%rip), %xmm3
	movdqa	%xmm9, %xmm0
	pminub	%xmm3, %xmm0
	pcmpeqb	%xmm9, %xmm0
	movdqa	.LCPI60_0(%rip), %xmm10
	movdqa	.LCPI60_23(%rip), %xmm6
	movdqa	%xmm6, %xmm2
	pblendvb	%xmm0, %xmm10, %xmm2
	pcmpeqb	%xmm8, %xmm2
	movdqa	.LCPI60_24(%rip), %xmm4
	movdqa	%xmm9, %xmm0
	pminub	%xmm4, %xmm0
	pcmpeqb	%xmm9, %xmm0
	movdqa	.LCPI60_25(%rip), %xmm14
	movdqa	.LCPI60_26(%rip), %xmm5
	movdqa	%xmm5, %xmm13
	pblendvb	%xmm0, .LCPI60_10(%rip), %xmm13
	movdqa	%xmm9, %xmm0
	pmaxub	%xmm14, %xmm0
	pcmpeqb	%xmm9, %xmm0
	movdqa	%xmm8, 32(%rsp)
	pcmpeqb	%xmm8, %xmm13
	por	%xmm2, %xmm13
	por	%xmm0, %xmm13
	movdqu	16(%rbp,%rax), %xmm15
	movdqa	%xmm15, %xmm0
	pminub	%xmm3, %xmm0
	pcmpeqb	%xmm15, %xmm0
	movdqa	%xmm6, %xmm12
	pblendvb	%xmm0, %xmm10, %xmm12
	movdqa	.LCPI60_27(%rip), %xmm8
	movdqa	%xmm9, (%rsp)
	movdqa	%xmm9, %xmm2
	pand	%xmm8, %xmm2
	movdqa	%xmm11, %xmm9
	pcmpeqb	%xmm11, %xmm2
	por	%xmm1, %xmm2
	movdqa	%xmm15, %xmm0
	pminub	%xmm4, %xmm0
	pcmpeqb	%xmm15, %xmm0
	movdqa	%xmm5, %xmm7
	movdqa	.LCPI60_10(%rip), %xmm11
	pblendvb	%xmm0, %xmm11, %xmm7
	por	%xmm13, %xmm2
	movdqu	15(%rbp,%rax), %xmm0
	pcmpeqb	%xmm0, %xmm12
	pcmpeqb	%xmm0, %xmm7
	movdqa	.LCPI60_19(%rip), %xmm13
	psubusb	%xmm13, %xmm0
	movdqu	14(%rbp,%rax), %xmm1
	movdqa	.LCPI60_20(%rip), %xmm10
	psubusb	%xmm10, %xmm1
	pmaxub	%xmm0, %xmm1
	movdqu	13(%rbp,%rax), %xmm0
	movdqa	.LCPI60_21(%rip), %xmm10
	psubusb	%xmm10, %xmm0
	por	%xmm1, %xmm0
	movdqa	%xmm9, %xmm1
	pcmpgtb	%xmm15, %xmm1
	pcmpgtb	.LCPI60_32(%rip), %xmm0
	pxor	%xmm1, %xmm0
	por	%xmm12, %xmm7
	movdqa	%xmm15, %xmm1
	pmaxub	%xmm14, %xmm1
	pcmpeqb	%xmm15, %xmm1
	por	%xmm1, %xmm7
	pand	%xmm8, %xmm15
	pcmpeqb	%xmm9, %xmm15
	por	%xmm0, %xmm15
	movdqu	32(%rbp,%rax), %xmm1
	movdqa	%xmm1, %xmm0
	pminub	%xmm3, %xmm0
	pcmpeqb	%xmm1, %xmm0
	movdqa	%xmm6, %xmm12
	pblendvb	%xmm0, .LCPI60_0(%rip), %xmm12
	por	%xmm7, %xmm15
	movdqa	%xmm1, %xmm0
	pminub	%xmm4, %xmm0
	pcmpeqb	%xmm1, %xmm0
	movdqa	%xmm5, %xmm7
	pblendvb	%xmm0, %xmm11, %xmm7
	por	%xmm2, %xmm15
	movdqu	31(%rbp,%rax), %xmm0
	pcmpeqb	%xmm0, %xmm12
	pcmpeqb	%xmm0, %xmm7
	psubusb	%xmm13, %xmm0
	movdqu	30(%rbp,%rax), %xmm2
	movdqa	.LCPI60_20(%rip), %xmm13
	psubusb	%xmm13, %xmm2
	pmaxub	%xmm0, %xmm2
	movdqu	29(%rbp,%rax), %xmm0
	psubusb	%xmm10, %xmm0
	movdqa	%xmm10, %xmm8
	por	%xmm2, %xmm0
	movdqa	%xmm9, %xmm2
	pcmpgtb	%xmm1, %xmm2
	pxor	%xmm10, %xmm10
	pcmpgtb	%xmm10, %xmm0
	pxor	%xmm11, %xmm11
	pxor	%xmm2, %xmm0
	por	%xmm12, %xmm7
	movdqa	%xmm1, %xmm2
	pmaxub	%xmm14, %xmm2
	pcmpeqb	%xmm1, %xmm2
	por	%xmm2, %xmm7
	movdqa	.LCPI60_27(%rip), %xmm10
	pand	%xmm10, %xmm1
	pcmpeqb	%xmm9, %xmm1
	por	%xmm0, %xmm1
	por	%xmm7, %xmm1
	movdqu	48(%rbp,%rax), %xmm2
	pminub	%xmm2, %xmm3
	pcmpeqb	%xmm2, %xmm3
	movdqa	%xmm3, %xmm0
	movdqa	.LCPI60_0(%rip), %xmm3
	movdqa	%xmm3, %xmm7
	pblendvb	%xmm0, %xmm3, %xmm6
	pminub	%xmm2, %xmm4
	pcmpeqb	%xmm2, %xmm4
	movdqa	%xmm4, %xmm0
	pblendvb	%xmm0, .LCPI60_10(%rip), %xmm5
	movdqu	46(%rbp,%rax), %xmm0
	movdqu	47(%rbp,%rax), %xmm3
	pcmpeqb	%xmm3, %xmm6
	pcmpeqb	%xmm3, %xmm5
	movdqa	.LCPI60_19(%rip), %xmm12
	psubusb	%xmm12, %xmm3
	psubusb	%xmm13, %xmm0
	pmaxub	%xmm3, %xmm0
	movdqu	45(%rbp,%rax), %xmm3
	psubusb	%xmm8, %xmm3
	por	%xmm0, %xmm3
	pcmpgtb	%xmm11, %xmm3
	movdqa	%xmm9, %xmm0
	pcmpgtb	%xmm2, %xmm0
	pxor	%xmm0, %xmm3
	por	%xmm6, %xmm5
	pmaxub	%xmm2, %xmm14
	pcmpeqb	%xmm2, %xmm14
	por	%xmm14, %xmm5
	pand	%xmm10, %xmm2
	pcmpeqb	%xmm9, %xmm2
	por	%xmm3, %xmm2
	por	%xmm5, %xmm2
	por	%xmm1, %xmm2
	por	%xmm15, %xmm2
	psllw	$7, %xmm2
	pmovmskb	%xmm2, %ecx
	testl	%ecx, %ecx
	jne	.LBB60_27
	movdqa	%xmm12, %xmm4
	movdqa	%xmm8, %xmm12
	movdqa	%xmm9, %xmm13
	movdqa	%xmm9, %xmm15
	movdqa	%xmm13, %xmm1
	movdqa	(%rsp), %xmm9
	movdqa	%xmm9, %xmm0
	movdqa	32(%rsp), %xmm8
	pblendvb	%xmm0, %xmm8, %xmm1
	movdqa	16(%rsp), %xmm10
	movdqa	%xmm10, %xmm0
	pmaxub	%xmm7, %xmm0
	movdqa	%xmm7, %xmm14
	movdqa	%xmm1, %xmm2
	psrlw	$2, %xmm2
	movdqa	.LCPI60_14(%rip), %xmm5
	pand	%xmm5, %xmm2
	psllw	$4, %xmm0
	movdqa	%xmm5, %xmm3
	pandn	%xmm0, %xmm3
	por	%xmm2, %xmm3
	movdqa	%xmm1, %xmm0
	pmaxub	%xmm10, %xmm0
	movdqa	%xmm0, %xmm6
	movdqa	%xmm4, %xmm11
	pminub	%xmm4, %xmm6
	pcmpeqb	%xmm0, %xmm6
	pand	.LCPI60_28(%rip), %xmm6
	por	%xmm3, %xmm6
	movdqa	%xmm8, %xmm7
	psllw	$2, %xmm7
	movdqa	.LCPI60_29(%rip), %xmm3
	pand	%xmm3, %xmm7
	movdqa	.LCPI60_18(%rip), %xmm13
	movdqa	%xmm7, %xmm0
	pminub	%xmm13, %xmm0
	pcmpeqb	%xmm7, %xmm0
	movdqa	.LCPI60_30(%rip), %xmm4
	movdqa	%xmm10, %xmm2
	paddb	%xmm4, %xmm2
	paddb	%xmm0, %xmm2
	movdqa	%xmm10, %xmm0
	pminub	%xmm12, %xmm0
	pcmpeqb	%xmm10, %xmm0
	pblendvb	%xmm0, %xmm6, %xmm2
	movdqa	%xmm9, %xmm10
	psrlw	$4, %xmm10
	movdqa	%xmm3, %xmm6
	pandn	%xmm10, %xmm6
	por	%xmm7, %xmm6
	movdqa	.LCPI60_31(%rip), %xmm10
	movdqa	%xmm9, %xmm7
	pand	%xmm10, %xmm7
	psllw	$6, %xmm1
	pand	%xmm15, %xmm1
	paddb	%xmm7, %xmm1
	paddb	%xmm15, %xmm6
	movdqa	%xmm15, %xmm7
	pblendvb	%xmm0, %xmm1, %xmm6
	movdqa	%xmm9, %xmm0
	pminub	%xmm11, %xmm0
	pcmpeqb	%xmm9, %xmm0
	movdqa	%xmm8, %xmm1
	movdqa	.LCPI60_20(%rip), %xmm15
	pminub	%xmm15, %xmm1
	pcmpeqb	%xmm8, %xmm1
	pand	%xmm0, %xmm1
	pmovmskb	%xmm1, %r8d
	movdqa	%xmm6, %xmm0
	punpckhbw	%xmm2, %xmm0
	punpcklbw	%xmm2, %xmm6
	movzbl	%r8b, %edx
	popcntl	%edx, %esi
	shll	$4, %edx
	leaq	.Lstatic.10(%rip), %rcx
	movdqu	(%rdx,%rcx), %xmm1
	pshufb	%xmm1, %xmm6
	leaq	(%r12,%rbx), %rdx
	movdqu	%xmm6, (%r12,%rbx)
	shrl	$8, %r8d
	popcntl	%r8d, %edi
	shll	$4, %r8d
	movdqu	(%r8,%rcx), %xmm1
	pshufb	%xmm1, %xmm0
	movdqu	%xmm0, (%rdx,%rsi,2)
	movdqu	15(%rbp,%rax), %xmm1
	movdqu	16(%rbp,%rax), %xmm2
	movdqa	%xmm7, %xmm6
	movdqa	%xmm2, %xmm0
	pblendvb	%xmm0, %xmm1, %xmm6
	movdqu	14(%rbp,%rax), %xmm7
	movdqa	%xmm7, %xmm0
	pmaxub	%xmm14, %xmm0
	psllw	$4, %xmm0
	movdqa	%xmm5, %xmm9
	pandn	%xmm0, %xmm9
	movdqa	%xmm6, %xmm0
	psrlw	$2, %xmm0
	pand	%xmm5, %xmm0
	por	%xmm0, %xmm9
	movdqa	%xmm6, %xmm0
	pmaxub	%xmm7, %xmm0
	movdqa	%xmm0, %xmm8
	pminub	%xmm11, %xmm8
	pcmpeqb	%xmm0, %xmm8
	pand	.LCPI60_28(%rip), %xmm8
	por	%xmm9, %xmm8
	movdqa	%xmm7, %xmm0
	pminub	%xmm12, %xmm0
	pcmpeqb	%xmm7, %xmm0
	movdqa	%xmm1, %xmm9
	psllw	$2, %xmm9
	pand	%xmm3, %xmm9
	movdqa	%xmm9, %xmm14
	pminub	%xmm13, %xmm14
	pcmpeqb	%xmm9, %xmm14
	paddb	%xmm4, %xmm7
	paddb	%xmm14, %xmm7
	pblendvb	%xmm0, %xmm8, %xmm7
	movdqa	%xmm2, %xmm14
	psrlw	$4, %xmm14
	movdqa	%xmm3, %xmm8
	pandn	%xmm14, %xmm8
	por	%xmm9, %xmm8
	movdqa	%xmm2, %xmm9
	pand	%xmm10, %xmm9
	psllw	$6, %xmm6
	movdqa	.LCPI60_12(%rip), %xmm14
	pand	%xmm14, %xmm6
	paddb	%xmm9, %xmm6
	paddb	%xmm14, %xmm8
	pblendvb	%xmm0, %xmm6, %xmm8
	movdqa	%xmm1, %xmm0
	pminub	%xmm15, %xmm0
	pcmpeqb	%xmm1, %xmm0
	movdqa	%xmm2, %xmm1
	pminub	%xmm11, %xmm1
	pcmpeqb	%xmm2, %xmm1
	addl	%esi, %edi
	pand	%xmm0, %xmm1
	pmovmskb	%xmm1, %r9d
	movdqa	%xmm8, %xmm0
	punpckhbw	%xmm7, %xmm0
	punpcklbw	%xmm7, %xmm8
	movzbl	%r9b, %esi
	popcntl	%esi, %r8d
	shll	$4, %esi
	movdqu	(%rsi,%rcx), %xmm1
	pshufb	%xmm1, %xmm8
	leaq	(%rdx,%rdi,2), %r10
	movdqu	%xmm8, (%rdx,%rdi,2)
	shrl	$8, %r9d
	xorl	%esi, %esi
	popcntl	%r9d, %esi
	shll	$4, %r9d
	movdqu	(%r9,%rcx), %xmm1
	pshufb	%xmm1, %xmm0
	movdqu	%xmm0, (%r10,%r8,2)
	movdqu	30(%rbp,%rax), %xmm7
	movdqu	31(%rbp,%rax), %xmm1
	movdqu	32(%rbp,%rax), %xmm2
	movdqa	%xmm14, %xmm6
	movdqa	%xmm2, %xmm0
	pblendvb	%xmm0, %xmm1, %xmm6
	movdqa	%xmm7, %xmm0
	pmaxub	.LCPI60_0(%rip), %xmm0
	psllw	$4, %xmm0
	movdqa	%xmm5, %xmm9
	pandn	%xmm0, %xmm9
	movdqa	%xmm6, %xmm0
	psrlw	$2, %xmm0
	pand	%xmm5, %xmm0
	por	%xmm0, %xmm9
	movdqa	%xmm6, %xmm0
	pmaxub	%xmm7, %xmm0
	movdqa	%xmm0, %xmm8
	pminub	%xmm11, %xmm8
	pcmpeqb	%xmm0, %xmm8
	pand	.LCPI60_28(%rip), %xmm8
	por	%xmm9, %xmm8
	movdqa	%xmm7, %xmm0
	pminub	%xmm12, %xmm0
	pcmpeqb	%xmm7, %xmm0
	movdqa	%xmm1, %xmm9
	psllw	$2, %xmm9
	pand	%xmm3, %xmm9
	movdqa	%xmm9, %xmm14
	pminub	%xmm13, %xmm14
	pcmpeqb	%xmm9, %xmm14
	paddb	%xmm4, %xmm7
	paddb	%xmm14, %xmm7
	pblendvb	%xmm0, %xmm8, %xmm7
	movdqa	%xmm2, %xmm14
	psrlw	$4, %xmm14
	movdqa	%xmm3, %xmm8
	pandn	%xmm14, %xmm8
	por	%xmm9, %xmm8
	movdqa	%xmm2, %xmm9
	pand	%xmm10, %xmm9
	psllw	$6, %xmm6
	movdqa	.LCPI60_12(%rip), %xmm14
	pand	%xmm14, %xmm6
	paddb	%xmm9, %xmm6
	paddb	%xmm14, %xmm8
	pblendvb	%xmm0, %xmm6, %xmm8
	movdqa	%xmm1, %xmm0
	pminub	%xmm15, %xmm0
	pcmpeqb	%xmm1, %xmm0
	movdqa	%xmm2, %xmm1
	pminub	%xmm11, %xmm1
	pcmpeqb	%xmm2, %xmm1
	addl	%r8d, %esi
	addl	%edi, %esi
	pand	%xmm0, %xmm1
	pmovmskb	%xmm1, %r9d
	movdqa	%xmm8, %xmm0
	punpckhbw	%xmm7, %xmm0
	punpcklbw	%xmm7, %xmm8
	movzbl	%r9b, %edi
	popcntl	%edi, %r8d
	shll	$4, %edi
	movdqu	(%rdi,%rcx), %xmm1
	pshufb	%xmm1, %xmm8
	leaq	(%rdx,%rsi,2), %r10
	movdqu	%xmm8, (%rdx,%rsi,2)
	shrl	$8, %r9d
	xorl	%edi, %edi
	popcntl	%r9d, %edi
	shll	$4, %r9d
	movdqu	(%r9,%rcx), %xmm1
	pshufb	%xmm1, %xmm0
	movdqu	%xmm0, (%r10,%r8,2)
	movdqu	47(%rbp,%rax), %xmm1
	movdqu	48(%rbp,%rax), %xmm2
	movdqa	%xmm14, %xmm6
	movdqa	%xmm2, %xmm0
	pblendvb	%xmm0, %xmm1, %xmm6
	movdqu	46(%rbp,%rax), %xmm0
	movdqa	.LCPI60_0(%rip), %xmm8
	pmaxub	%xmm0, %xmm8
	movdqa	%xmm6, %xmm7
	psrlw	$2, %xmm7
	pand	%xmm5, %xmm7
	psllw	$4, %xmm8
	pandn	%xmm8, %xmm5
	por	%xmm7, %xmm5
	movdqa	%xmm6, %xmm8
	pmaxub	%xmm0, %xmm8
	movdqa	%xmm8, %xmm7
	pminub	%xmm11, %xmm7
	pcmpeqb	%xmm8, %xmm7
	pand	.LCPI60_28(%rip), %xmm7
	por	%xmm5, %xmm7
	movdqa	%xmm1, %xmm5
	psllw	$2, %xmm5
	pand	%xmm3, %xmm5
	pminub	%xmm5, %xmm13
	pcmpeqb	%xmm5, %xmm13
	paddb	%xmm0, %xmm4
	paddb	%xmm13, %xmm4
	pminub	%xmm0, %xmm12
	pcmpeqb	%xmm0, %xmm12
	movdqa	%xmm12, %xmm0
	pblendvb	%xmm0, %xmm7, %xmm4
	movdqa	%xmm2, %xmm0
	psrlw	$4, %xmm0
	pandn	%xmm0, %xmm3
	por	%xmm5, %xmm3
	paddb	%xmm14, %xmm3
	psllw	$6, %xmm6
	pand	%xmm14, %xmm6
	pand	%xmm2, %xmm10
	paddb	%xmm10, %xmm6
	movdqa	%xmm12, %xmm0
	pblendvb	%xmm0, %xmm6, %xmm3
	pminub	%xmm1, %xmm15
	pcmpeqb	%xmm1, %xmm15
	pminub	%xmm2, %xmm11
	pcmpeqb	%xmm2, %xmm11
	pand	%xmm15, %xmm11
	pmovmskb	%xmm11, %r9d
	movdqa	%xmm3, %xmm0
	punpckhbw	%xmm4, %xmm0
	punpcklbw	%xmm4, %xmm3
	movzbl	%r9b, %r10d
	popcntl	%r10d, %r11d
	shll	$4, %r10d
	movdqu	(%r10,%rcx), %xmm1
	pshufb	%xmm1, %xmm3
	addl	%r8d, %edi
	addl	%esi, %edi
	movdqu	%xmm3, (%rdx,%rdi,2)
	shrl	$8, %r9d
	popcntl	%r9d, %esi
	shll	$4, %r9d
	movdqu	(%r9,%rcx), %xmm1
	pshufb	%xmm1, %xmm0
	leaq	(%rdx,%rdi,2), %rcx
	movdqu	%xmm0, (%rcx,%r11,2)
	addl	%r11d, %esi
	addl	%edi, %esi
	leaq	(%rbx,%rsi,2), %rbx
	cmpb	$-17, 61(%rbp,%rax)
	jbe	.LBB60_23
	addq	$-2, %rbx
	movl	$61, %ecx
	jmp	.LBB60_26
.LBB60_17:
	movdqa	.LCPI60_12(%rip), %xmm1
	movdqa	%xmm1, %xmm0
	movdqa	%xmm1, %xmm2
	pcmpgtb	%xmm9, %xmm0
	movdqa	%xmm8, %xmm1
	psubusb	.LCPI60_19(%rip), %xmm1
	movdqa	.LCPI60_20(%rip), %xmm4
	movdqa	%xmm10, %xmm6
	psubusb	%xmm4, %xmm6
	por	%xmm1, %xmm6
	pxor	%xmm1, %xmm1
	pcmpgtb	%xmm1, %xmm6
	pxor	%xmm0, %xmm6
	movdqa	.LCPI60_27(%rip), %xmm7
	movdqa	%xmm9, %xmm13
	pand	%xmm7, %xmm13
	pcmpeqb	%xmm2, %xmm13
	movdqa	.LCPI60_22(%rip), %xmm1
	movdqa	%xmm9, %xmm0
	pminub	%xmm1, %xmm0
	pcmpeqb	%xmm9, %xmm0
	movdqa	.LCPI60_0(%rip), %xmm3
	movdqa	.LCPI60_23(%rip), %xmm11
	movdqa	%xmm11, %xmm12
	pblendvb	%xmm0, %xmm3, %xmm12
	pcmpeqb	%xmm8, %xmm12
	por	%xmm13, %xmm12
	por	%xmm6, %xmm12
	movdqu	14(%rbp,%rax), %xmm13
	movdqu	15(%rbp,%rax), %xmm5
	movdqu	16(%rbp,%rax), %xmm6
	movdqa	%xmm6, %xmm0
	pminub	%xmm1, %xmm0
	pcmpeqb	%xmm6, %xmm0
	movdqa	%xmm11, %xmm14
	pblendvb	%xmm0, %xmm3, %xmm14
	movdqu	30(%rbp,%rax), %xmm15
	pcmpeqb	%xmm5, %xmm14
	movdqa	.LCPI60_19(%rip), %xmm3
	psubusb	%xmm3, %xmm5
	psubusb	%xmm4, %xmm13
	por	%xmm5, %xmm13
	movdqa	%xmm2, %xmm0
	pcmpgtb	%xmm6, %xmm0
	pxor	%xmm5, %xmm5
	pcmpgtb	%xmm5, %xmm13
	pxor	%xmm0, %xmm13
	pand	%xmm7, %xmm6
	pcmpeqb	%xmm2, %xmm6
	movdqa	%xmm2, %xmm5
	por	%xmm13, %xmm6
	por	%xmm6, %xmm14
	movdqu	32(%rbp,%rax), %xmm6
	movdqa	%xmm6, %xmm0
	pminub	%xmm1, %xmm0
	pcmpeqb	%xmm6, %xmm0
	movdqa	%xmm11, %xmm13
	movdqa	.LCPI60_0(%rip), %xmm2
	pblendvb	%xmm0, %xmm2, %xmm13
	movdqu	31(%rbp,%rax), %xmm0
	pcmpeqb	%xmm0, %xmm13
	psubusb	%xmm3, %xmm0
	psubusb	%xmm4, %xmm15
	por	%xmm0, %xmm15
	movdqa	%xmm5, %xmm0
	pcmpgtb	%xmm6, %xmm0
	pcmpgtb	.LCPI60_32(%rip), %xmm15
	pxor	%xmm0, %xmm15
	pand	%xmm7, %xmm6
	pcmpeqb	%xmm5, %xmm6
	por	%xmm15, %xmm6
	por	%xmm6, %xmm13
	por	%xmm14, %xmm13
	por	%xmm12, %xmm13
	movdqu	46(%rbp,%rax), %xmm12
	movdqu	48(%rbp,%rax), %xmm6
	pminub	%xmm6, %xmm1
	pcmpeqb	%xmm6, %xmm1
	movdqa	%xmm1, %xmm0
	pblendvb	%xmm0, %xmm2, %xmm11
	movdqu	47(%rbp,%rax), %xmm0
	pcmpeqb	%xmm0, %xmm11
	psubusb	%xmm3, %xmm0
	psubusb	%xmm4, %xmm12
	por	%xmm0, %xmm12
	pxor	%xmm0, %xmm0
	pcmpgtb	%xmm0, %xmm12
	movdqa	%xmm5, %xmm0
	pcmpgtb	%xmm6, %xmm0
	pxor	%xmm0, %xmm12
	pand	%xmm6, %xmm7
	pcmpeqb	%xmm5, %xmm7
	por	%xmm12, %xmm7
	por	%xmm7, %xmm11
	por	%xmm13, %xmm11
	pmovmskb	%xmm11, %ecx
	testl	%ecx, %ecx
	jne	.LBB60_27
	movdqa	%xmm2, %xmm15
	movdqa	%xmm5, %xmm14
	movdqa	%xmm5, %xmm2
	movdqa	%xmm9, %xmm0
	pblendvb	%xmm0, %xmm8, %xmm2
	pmaxub	%xmm15, %xmm10
	movdqa	%xmm2, %xmm0
	psrlw	$2, %xmm0
	movdqa	.LCPI60_14(%rip), %xmm1
	pand	%xmm1, %xmm0
	psllw	$4, %xmm10
	movdqa	%xmm1, %xmm5
	pandn	%xmm10, %xmm5
	por	%xmm0, %xmm5
	movdqa	.LCPI60_31(%rip), %xmm7
	movdqa	%xmm9, %xmm0
	pand	%xmm7, %xmm0
	psllw	$6, %xmm2
	pand	%xmm14, %xmm2
	paddb	%xmm0, %xmm2
	movdqa	%xmm9, %xmm0
	pminub	%xmm3, %xmm0
	pcmpeqb	%xmm9, %xmm0
	movdqa	%xmm8, %xmm6
	pminub	%xmm4, %xmm6
	pcmpeqb	%xmm8, %xmm6
	pand	%xmm0, %xmm6
	pmovmskb	%xmm6, %edi
	movdqa	%xmm2, %xmm0
	punpckhbw	%xmm5, %xmm0
	punpcklbw	%xmm5, %xmm2
	movzbl	%dil, %edx
	popcntl	%edx, %r8d
	shll	$4, %edx
	leaq	.Lstatic.10(%rip), %rcx
	movdqu	(%rdx,%rcx), %xmm5
	pshufb	%xmm5, %xmm2
	leaq	(%r12,%rbx), %rdx
	movdqu	%xmm2, (%r12,%rbx)
	shrl	$8, %edi
	popcntl	%edi, %esi
	shll	$4, %edi
	movdqu	(%rdi,%rcx), %xmm2
	pshufb	%xmm2, %xmm0
	movdqu	%xmm0, (%rdx,%r8,2)
	addl	%r8d, %esi
	movdqu	14(%rbp,%rax), %xmm5
	movdqu	15(%rbp,%rax), %xmm8
	movdqu	16(%rbp,%rax), %xmm0
	movdqa	%xmm14, %xmm2
	pblendvb	%xmm0, %xmm8, %xmm2
	pmaxub	%xmm15, %xmm5
	movdqa	%xmm2, %xmm9
	psrlw	$2, %xmm9
	pand	%xmm1, %xmm9
	psllw	$4, %xmm5
	movdqa	%xmm1, %xmm6
	pandn	%xmm5, %xmm6
	por	%xmm9, %xmm6
	movdqa	%xmm0, %xmm5
	pminub	%xmm3, %xmm5
	pcmpeqb	%xmm0, %xmm5
	pand	%xmm7, %xmm0
	psllw	$6, %xmm2
	pand	%xmm14, %xmm2
	paddb	%xmm0, %xmm2
	movdqa	%xmm8, %xmm0
	pminub	%xmm4, %xmm0
	pcmpeqb	%xmm8, %xmm0
	pand	%xmm0, %xmm5
	pmovmskb	%xmm5, %r8d
	movdqa	%xmm2, %xmm0
	punpckhbw	%xmm6, %xmm0
	punpcklbw	%xmm6, %xmm2
	movzbl	%r8b, %edi
	popcntl	%edi, %r9d
	shll	$4, %edi
	movdqu	(%rdi,%rcx), %xmm5
	pshufb	%xmm5, %xmm2
	leaq	(%rdx,%rsi,2), %r10
	movdqu	%xmm2, (%rdx,%rsi,2)
	shrl	$8, %r8d
	xorl	%edi, %edi
	popcntl	%r8d, %edi
	shll	$4, %r8d
	movdqu	(%r8,%rcx), %xmm2
	pshufb	%xmm2, %xmm0
	movdqu	%xmm0, (%r10,%r9,2)
	addl	%r9d, %edi
	addl	%esi, %edi
	movdqu	30(%rbp,%rax), %xmm5
	movdqu	31(%rbp,%rax), %xmm8
	movdqu	32(%rbp,%rax), %xmm0
	movdqa	%xmm14, %xmm2
	pblendvb	%xmm0, %xmm8, %xmm2
	pmaxub	%xmm15, %xmm5
	movdqa	%xmm2, %xmm9
	psrlw	$2, %xmm9
	pand	%xmm1, %xmm9
	psllw	$4, %xmm5
	movdqa	%xmm1, %xmm6
	pandn	%xmm5, %xmm6
	por	%xmm9, %xmm6
	movdqa	%xmm0, %xmm5
	pminub	%xmm3, %xmm5
	pcmpeqb	%xmm0, %xmm5
	pand	%xmm7, %xmm0
	psllw	$6, %xmm2
	pand	%xmm14, %xmm2
	paddb	%xmm0, %xmm2
	movdqa	%xmm8, %xmm0
	pminub	%xmm4, %xmm0
	pcmpeqb	%xmm8, %xmm0
	pand	%xmm0, %xmm5
	pmovmskb	%xmm5, %r8d
	movdqa	%xmm2, %xmm0
	punpckhbw	%xmm6, %xmm0
	punpcklbw	%xmm6, %xmm2
	movzbl	%r8b, %esi
	xorl	%r9d, %r9d
	popcntl	%esi, %r9d
	shll	$4, %esi
	movdqu	(%rsi,%rcx), %xmm5
	pshufb	%xmm5, %xmm2
	leaq	(%rdx,%rdi,2), %r10
	movdqu	%xmm2, (%rdx,%rdi,2)
	shrl	$8, %r8d
	xorl	%esi, %esi
	popcntl	%r8d, %esi
	shll	$4, %r8d
	movdqu	(%r8,%rcx), %xmm2
	pshufb	%xmm2, %xmm0
	movdqu	%xmm0, (%r10,%r9,2)
	addl	%r9d, %esi
	addl	%edi, %esi
	movdqu	46(%rbp,%rax), %xmm5
	movdqu	47(%rbp,%rax), %xmm6
	movdqu	48(%rbp,%rax), %xmm0
	movdqa	%xmm14, %xmm2
	pblendvb	%xmm0, %xmm6, %xmm2
	pmaxub	%xmm15, %xmm5
	movdqa	%xmm2, %xmm8
	psrlw	$2, %xmm8
	pand	%xmm1, %xmm8
	psllw	$4, %xmm5
	pandn	%xmm5, %xmm1
	por	%xmm8, %xmm1
	pand	%xmm0, %xmm7
	psllw	$6, %xmm2
	pand	%xmm14, %xmm2
	paddb	%xmm7, %xmm2
	pminub	%xmm6, %xmm4
	pcmpeqb	%xmm6, %xmm4
	pminub	%xmm0, %xmm3
	pcmpeqb	%xmm0, %xmm3
	pand	%xmm4, %xmm3
	pmovmskb	%xmm3, %edi
	movdqa	%xmm2, %xmm0
	punpckhbw	%xmm1, %xmm0
	punpcklbw	%xmm1, %xmm2
	movzbl	%dil, %r9d
	xorl	%r8d, %r8d
	popcntl	%r9d, %r8d
	shll	$4, %r9d
	movdqu	(%r9,%rcx), %xmm1
	pshufb	%xmm1, %xmm2
	leaq	(%rdx,%rsi,2), %r9
	movdqu	%xmm2, (%rdx,%rsi,2)
	shrl	$8, %edi
	movl	%edi, %edx
	shll	$4, %edx
	movdqu	(%rdx,%rcx), %xmm1
	pshufb	%xmm1, %xmm0
	movdqu	%xmm0, (%r9,%r8,2)
	movl	$62, %ecx
	cmpb	$-33, 62(%rbp,%rax)
	ja	.LBB60_20
	xorl	%ecx, %ecx
	cmpb	$-64, 63(%rbp,%rax)
	adcq	$63, %rcx
.LBB60_20:
	xorl	%edx, %edx
	popcntl	%edi, %edx
	addl	%edx, %r8d
	addl	%r8d, %esi
	leaq	(%rbx,%rsi,2), %rbx
	jmp	.LBB60_26
.LBB60_23:
	movl	$62, %ecx
	cmpb	$-33, 62(%rbp,%rax)
	ja	.LBB60_26
	xorl	%ecx, %ecx
	cmpb	$-64, 63(%rbp,%rax)
	adcq	$63, %rcx
.LBB60_26:
	addq	%rcx, %rax
	jmp	.LBB60_27
.LBB60_28:
	movq	%r14, %rax
	movq	%rbx, %rdx
	addq	$56, %rsp
	.cfi_def_cfa_offset 56
	popq	%rbx
	.cfi_def_cfa_offset 48
	popq	%r12
	.cfi_def_cfa_offset 40
	popq	%r13
	.cfi_def_cfa_offset 32
	popq	%r14
	.cfi_def_cfa_offset 24
	popq	%r15
	.cfi_def_cfa_offset 16
	popq	%rbp
	.cfi_def_cfa_offset 8
	retq
.Lfunc_end60:
	.size	"utf16_from_utf8::blocks::write_mixed_blocks::<#418c2b53cf60437c>", .Lfunc_end60-"utf16_from_utf8::blocks::write_mixed_blocks::<#418c2b53cf60437c>"
	.cfi_endproc

	.section	.rodata.cst16,"aM",@progbits,16
	.p2align	4, 0x0
.LCPI61_0:
	.zero	1
	.byte	255
	.byte	0
	.zero	1
	.byte	255
	.byte	0
	.zero	1
	.byte	255
	.byte	0
	.zero	1
	.byte	255
	.byte	0
	.zero	1
	.byte	255
	.byte	0
	.zero	1
.LCPI61_1:
	.byte	0
	.byte	3
	.byte	6
	.byte	9
	.byte	12
	.byte	15
	.byte	128
	.byte	128
	.byte	128
	.byte	128
	.byte	128
	.byte	128
	.byte	128
	.byte	128
	.byte	128
	.byte	128
.LCPI61_2:
	.byte	128
	.byte	128
	.byte	128
	.byte	128
	.byte	128
	.byte	128
	.byte	2
	.byte	5
	.byte	8
	.byte	11
	.byte	14
	.byte	1
	.byte	4
	.byte	7
	.byte	10
	.byte	13
.LCPI61_3:
	.byte	255
	.zero	1
	.byte	0
	.byte	255
	.zero	1
	.byte	0
	.byte	255
	.zero	1
	.byte	0
	.byte	255
	.zero	1
	.byte	0
	.byte	255
	.zero	1
	.byte	0
	.byte	255
.LCPI61_4:
	.byte	1
	.byte	4
	.byte	7
	.byte	10
	.byte	13
	.byte	128
	.byte	128
	.byte	128
	.byte	128
	.byte	128
	.byte	128
	.byte	128
	.byte	128
	.byte	128
	.byte	128
	.byte	128
.LCPI61_5:
	.byte	128
	.byte	128
	.byte	128
	.byte	128
	.byte	128
	.byte	0
	.byte	3
	.byte	6
	.byte	9
	.byte	12
	.byte	15
	.byte	2
	.byte	5
	.byte	8
	.byte	11
	.byte	14
.LCPI61_6:
	.byte	255
	.byte	0
	.zero	1
	.byte	255
	.byte	0
	.zero	1
	.byte	255
	.byte	0
	.zero	1
	.byte	255
	.byte	0
	.zero	1
	.byte	255
	.byte	0
	.zero	1
	.byte	255
.LCPI61_7:
	.byte	2
	.byte	5
	.byte	8
	.byte	11
	.byte	14
	.byte	128
	.byte	128
	.byte	128
	.byte	128
	.byte	128
	.byte	128
	.byte	128
	.byte	128
	.byte	128
	.byte	128
	.byte	128
.LCPI61_8:
	.byte	128
	.byte	128
	.byte	128
	.byte	128
	.byte	128
	.byte	1
	.byte	4
	.byte	7
	.byte	10
	.byte	13
	.byte	0
	.byte	3
	.byte	6
	.byte	9
	.byte	12
	.byte	15
.LCPI61_9:
	.zero	16,240
.LCPI61_10:
	.zero	16,32
.LCPI61_11:
	.zero	16,192
.LCPI61_12:
	.zero	16,128
.LCPI61_13:
	.zero	16,15
.LCPI61_14:
	.zero	16,7
.LCPI61_15:
	.zero	16,248
.LCPI61_16:
	.zero	16,216
.LCPI61_17:
	.zero	16,63
.LCPI61_18:
	.zero	16,224
	.section	".text.utf16_from_utf8::rest::write_rest::<#418c2b53cf60437c>","ax",@progbits
	.p2align	4
	.type	"utf16_from_utf8::rest::write_rest::<#418c2b53cf60437c>",@function
"utf16_from_utf8::rest::write_rest::<#418c2b53cf60437c>":
	.cfi_startproc
	pushq	%r15
	.cfi_def_cfa_offset 16
	pushq	%r14
	.cfi_def_cfa_offset 24
	pushq	%rbx
	.cfi_def_cfa_offset 32
	.cfi_offset %rbx, -32
	.cfi_offset %r14, -24
	.cfi_offset %r15, -16
	movq	%r9, %rbx
	movq	%r8, %rax
	movq	%rsi, %r8
	subq	%rax, %r8
	je	.LBB61_8
	movzbl	(%rdi,%rax), %r9d
	andb	$-16, %r9b
	cmpb	$-32, %r9b
	jne	.LBB61_8
	cmpq	$48, %r8
	setb	%r10b
	movq	%rcx, %r9
	subq	%rbx, %r9
	cmpq	$32, %r9
	setb	%r11b
	orb	%r10b, %r11b
	je	.LBB61_3
.LBB61_8:
	cmpb	$-65, -1(%rdi,%rsi)
	jbe	.LBB61_10
	decq	%rsi
	jmp	.LBB61_13
.LBB61_10:
	cmpb	$-33, -2(%rdi,%rsi)
	jbe	.LBB61_12
	addq	$-2, %rsi
	jmp	.LBB61_13
.LBB61_12:
	leaq	-3(%rsi), %r8
	cmpb	$-16, -3(%rdi,%rsi)
	cmovaeq	%r8, %rsi
.LBB61_13:
	cmpq	$17, %rsi
	setb	%r9b
	movq	%rsi, %r8
	subq	%rax, %r8
	setbe	%r10b
	orb	%r9b, %r10b
	jne	.LBB61_23
	subq	%rbx, %rcx
	xorl	%r9d, %r9d
	subq	$16, %rcx
	cmovaeq	%rcx, %r9
	shrq	%r9
	cmpq	%r8, %r9
	jb	.LBB61_23
	xorl	%ecx, %ecx
	movq	%rax, %r8
	subq	$18, %r8
	cmovaeq	%r8, %rcx
	movdqu	-16(%rdi,%rsi), %xmm0
	movq	%rsi, %r8
	subq	%rcx, %r8
	cmpq	$17, %r8
	jb	.LBB61_18
	addq	%rdi, %rcx
	.p2align	4
.LBB61_17:
	movdqu	(%rcx), %xmm1
	pmaxub	%xmm1, %xmm0
	addq	$16, %rcx
	addq	$-16, %r8
	cmpq	$16, %r8
	ja	.LBB61_17
.LBB61_18:
	addq	%rbx, %rdx
	movdqa	.LCPI61_18(%rip), %xmm1
	pmaxub	%xmm0, %xmm1
	pcmpeqb	%xmm0, %xmm1
	pmovmskb	%xmm1, %ecx
	testl	%ecx, %ecx
	je	.LBB61_24
	movq	%rdx, %rcx
	movdqa	.LCPI61_9(%rip), %xmm1
	pmaxub	%xmm0, %xmm1
	pcmpeqb	%xmm0, %xmm1
	pmovmskb	%xmm1, %edx
	movq	%rsi, %r14
	movq	%rax, %r15
	testl	%edx, %edx
	je	.LBB61_20
	movq	%rax, %rdx
	callq	"utf16_from_utf8::rest::write_rest_of::<#c16de31c8ac190b9>"
	jmp	.LBB61_22
.LBB61_3:
	addq	$-32, %r9
	addq	$-48, %r8
	.p2align	4
.LBB61_4:
	movdqu	16(%rdi,%rax), %xmm1
	movdqu	32(%rdi,%rax), %xmm5
	movaps	.LCPI61_0(%rip), %xmm0
	movdqa	%xmm1, %xmm3
	pblendvb	%xmm0, %xmm5, %xmm3
	movdqu	(%rdi,%rax), %xmm4
	movdqa	%xmm4, %xmm6
	pshufb	.LCPI61_1(%rip), %xmm6
	pshufb	.LCPI61_2(%rip), %xmm3
	movaps	.LCPI61_3(%rip), %xmm0
	movdqa	%xmm5, %xmm2
	pblendvb	%xmm0, %xmm1, %xmm2
	movdqa	%xmm4, %xmm0
	pshufb	.LCPI61_4(%rip), %xmm0
	por	%xmm6, %xmm3
	pshufb	.LCPI61_5(%rip), %xmm2
	por	%xmm0, %xmm2
	movaps	.LCPI61_6(%rip), %xmm0
	pblendvb	%xmm0, %xmm5, %xmm1
	pshufb	.LCPI61_7(%rip), %xmm4
	pshufb	.LCPI61_8(%rip), %xmm1
	movdqa	.LCPI61_9(%rip), %xmm0
	pand	%xmm3, %xmm0
	paddb	.LCPI61_10(%rip), %xmm0
	por	%xmm4, %xmm1
	movdqa	.LCPI61_11(%rip), %xmm4
	movdqa	%xmm2, %xmm5
	pand	%xmm4, %xmm5
	movdqa	.LCPI61_12(%rip), %xmm6
	pxor	%xmm6, %xmm5
	pmaxub	%xmm0, %xmm5
	pand	%xmm1, %xmm4
	pxor	%xmm6, %xmm4
	por	%xmm5, %xmm4
	ptest	%xmm4, %xmm4
	jne	.LBB61_8
	psllw	$4, %xmm3
	pand	.LCPI61_9(%rip), %xmm3
	movdqa	%xmm2, %xmm0
	psrlw	$2, %xmm0
	pand	.LCPI61_13(%rip), %xmm0
	por	%xmm3, %xmm0
	movdqa	.LCPI61_14(%rip), %xmm3
	pminub	%xmm0, %xmm3
	movdqa	.LCPI61_15(%rip), %xmm4
	pand	%xmm0, %xmm4
	pcmpeqb	.LCPI61_16(%rip), %xmm4
	pcmpeqb	%xmm0, %xmm3
	por	%xmm3, %xmm4
	pmovmskb	%xmm4, %r10d
	testl	%r10d, %r10d
	jne	.LBB61_8
	psllw	$6, %xmm2
	pand	.LCPI61_11(%rip), %xmm2
	pand	.LCPI61_17(%rip), %xmm1
	por	%xmm2, %xmm1
	movdqa	%xmm1, %xmm2
	punpckhbw	%xmm0, %xmm2
	punpcklbw	%xmm0, %xmm1
	movdqu	%xmm1, (%rdx,%rbx)
	movdqu	%xmm2, 16(%rdx,%rbx)
	addq	$32, %rbx
	addq	$48, %rax
	subq	$32, %r9
	setb	%r10b
	subq	$48, %r8
	jb	.LBB61_8
	testb	%r10b, %r10b
	je	.LBB61_4
	jmp	.LBB61_8
.LBB61_24:
	movq	%rsi, %r14
	movq	%rax, %r15
	movq	%rdx, %rcx
	movq	%rax, %rdx
	callq	"utf16_from_utf8::rest::write_rest_of::<#0fe1328e7259d677>"
	jmp	.LBB61_22
.LBB61_20:
	movq	%rax, %rdx
	callq	"utf16_from_utf8::rest::write_rest_of::<#f189504864b36784>"
.LBB61_22:
	addq	%rbx, %rdx
	cmpb	$1, %al
	movq	%r15, %rax
	cmoveq	%r14, %rax
	cmoveq	%rdx, %rbx
.LBB61_23:
	movq	%rbx, %rdx
	popq	%rbx
	.cfi_def_cfa_offset 24
	popq	%r14
	.cfi_def_cfa_offset 16
	popq	%r15
	.cfi_def_cfa_offset 8
	retq
.Lfunc_end61:
	.size	"utf16_from_utf8::rest::write_rest::<#418c2b53cf60437c>", .Lfunc_end61-"utf16_from_utf8::rest::write_rest::<#418c2b53cf60437c>"
	.cfi_endproc

	.section	.rodata.cst16,"aM",@progbits,16
	.p2align	4, 0x0
.LCPI62_0:
	.zero	16,192
.LCPI62_1:
	.zero	16,63
.LCPI62_2:
	.zero	16,127
.LCPI62_3:
	.zero	16,191
.LCPI62_4:
	.zero	16,254
	.section	".text.utf16_from_utf8::rest::write_rest_of::<#0fe1328e7259d677>","ax",@progbits
	.p2align	4
	.type	"utf16_from_utf8::rest::write_rest_of::<#0fe1328e7259d677>",@function
"utf16_from_utf8::rest::write_rest_of::<#0fe1328e7259d677>":
	.cfi_startproc
	pushq	%r14
	.cfi_def_cfa_offset 16
	pushq	%rbx
	.cfi_def_cfa_offset 24
	.cfi_offset %rbx, -24
	.cfi_offset %r14, -16
	movq	%rcx, %rax
	movq	%rsi, %rcx
	subq	%rdx, %rcx
	pxor	%xmm0, %xmm0
	xorl	%r8d, %r8d
	cmpq	$16, %rcx
	jae	.LBB62_1
.LBB62_7:
	cmpq	%rsi, %rdx
	je	.LBB62_12
	leaq	-16(%rsi), %rcx
	movdqu	-16(%rdi,%rsi), %xmm1
	cmpq	$3, %rcx
	jb	.LBB62_10
	movdqu	-1(%rdi,%rcx), %xmm4
	jmp	.LBB62_11
	.p2align	4
.LBB62_2:
	movdqu	-1(%rdi,%rdx), %xmm3
.LBB62_6:
	movdqa	.LCPI62_0(%rip), %xmm5
	movdqa	%xmm3, %xmm2
	psubusb	%xmm5, %xmm2
	movdqa	%xmm2, %xmm4
	psrlw	$2, %xmm4
	pand	.LCPI62_1(%rip), %xmm4
	movdqa	.LCPI62_2(%rip), %xmm6
	pand	%xmm1, %xmm6
	psllw	$6, %xmm2
	pand	%xmm5, %xmm2
	paddb	%xmm6, %xmm2
	movdqa	.LCPI62_3(%rip), %xmm6
	pminub	%xmm1, %xmm6
	pcmpeqb	%xmm1, %xmm6
	pmovmskb	%xmm6, %r9d
	movdqa	%xmm5, %xmm6
	pcmpgtb	%xmm1, %xmm6
	movdqa	%xmm3, %xmm7
	pmaxub	%xmm5, %xmm7
	pcmpeqb	%xmm3, %xmm7
	pxor	%xmm6, %xmm7
	pand	.LCPI62_4(%rip), %xmm1
	pcmpeqb	%xmm5, %xmm1
	por	%xmm7, %xmm1
	pmaxub	%xmm1, %xmm0
	movdqa	%xmm2, %xmm1
	punpckhbw	%xmm4, %xmm1
	punpcklbw	%xmm4, %xmm2
	movzbl	%r9b, %r10d
	xorl	%r11d, %r11d
	popcntl	%r10d, %r11d
	shll	$4, %r10d
	leaq	.Lstatic.10(%rip), %rbx
	movdqu	(%r10,%rbx), %xmm3
	pshufb	%xmm3, %xmm2
	leaq	(%rax,%r8), %r10
	movdqu	%xmm2, (%rax,%r8)
	shrl	$8, %r9d
	xorl	%r14d, %r14d
	popcntl	%r9d, %r14d
	shll	$4, %r9d
	movdqu	(%r9,%rbx), %xmm2
	pshufb	%xmm2, %xmm1
	movdqu	%xmm1, (%r10,%r11,2)
	addl	%r11d, %r14d
	leaq	(%r8,%r14,2), %r8
	addq	$16, %rdx
	addq	$-16, %rcx
	cmpq	$15, %rcx
	jbe	.LBB62_7
.LBB62_1:
	movdqu	(%rdi,%rdx), %xmm1
	cmpq	$3, %rdx
	jae	.LBB62_2
	testq	%rdx, %rdx
	je	.LBB62_4
	movzbl	-1(%rdi,%rdx), %r9d
	movd	%r9d, %xmm2
	pslldq	$15, %xmm2
	movdqa	%xmm1, %xmm3
	palignr	$15, %xmm2, %xmm3
	jmp	.LBB62_6
.LBB62_4:
	movdqa	%xmm1, %xmm3
	pslldq	$1, %xmm3
	jmp	.LBB62_6
.LBB62_10:
	movzbl	-17(%rdi,%rsi), %r9d
	movd	%r9d, %xmm2
	pslldq	$15, %xmm2
	movdqa	%xmm1, %xmm4
	palignr	$15, %xmm2, %xmm4
.LBB62_11:
	movdqa	.LCPI62_0(%rip), %xmm5
	movdqa	%xmm4, %xmm2
	psubusb	%xmm5, %xmm2
	movdqa	%xmm2, %xmm3
	psrlw	$2, %xmm3
	pand	.LCPI62_1(%rip), %xmm3
	movdqa	.LCPI62_2(%rip), %xmm6
	pand	%xmm1, %xmm6
	psllw	$6, %xmm2
	pand	%xmm5, %xmm2
	paddb	%xmm6, %xmm2
	movdqa	.LCPI62_3(%rip), %xmm6
	pminub	%xmm1, %xmm6
	pcmpeqb	%xmm1, %xmm6
	pmovmskb	%xmm6, %r9d
	movdqa	%xmm5, %xmm6
	pcmpgtb	%xmm1, %xmm6
	movdqa	%xmm4, %xmm7
	pmaxub	%xmm5, %xmm7
	pcmpeqb	%xmm4, %xmm7
	pxor	%xmm6, %xmm7
	pand	.LCPI62_4(%rip), %xmm1
	pcmpeqb	%xmm5, %xmm1
	por	%xmm7, %xmm1
	subl	%ecx, %edx
	movdqa	%xmm2, %xmm4
	movq	$-1, %r10
	movl	%edx, %ecx
	shlq	%cl, %r10
	punpckhbw	%xmm3, %xmm4
	punpcklbw	%xmm3, %xmm2
	andl	%r9d, %r10d
	movzbl	%r10b, %ecx
	xorl	%edx, %edx
	popcntl	%ecx, %edx
	shll	$4, %ecx
	leaq	.Lstatic.10(%rip), %r9
	movdqu	(%rcx,%r9), %xmm3
	pshufb	%xmm3, %xmm2
	movdqu	%xmm2, (%rax,%r8)
	addq	%r8, %rax
	shrl	$8, %r10d
	xorl	%ecx, %ecx
	popcntl	%r10d, %ecx
	shll	$4, %r10d
	movdqu	(%r10,%r9), %xmm2
	pshufb	%xmm2, %xmm4
	movdqu	%xmm4, (%rax,%rdx,2)
	addl	%edx, %ecx
	leaq	(%r8,%rcx,2), %r8
	pmaxub	%xmm1, %xmm0
.LBB62_12:
	ptest	%xmm0, %xmm0
	je	.LBB62_14
	xorl	%edx, %edx
	xorl	%eax, %eax
	popq	%rbx
	.cfi_def_cfa_offset 16
	popq	%r14
	.cfi_def_cfa_offset 8
	retq
.LBB62_14:
	.cfi_def_cfa_offset 24
	cmpb	$-65, -1(%rdi,%rsi)
	jbe	.LBB62_16
	leaq	-1(%rsi), %rax
	jmp	.LBB62_19
.LBB62_16:
	cmpb	$-33, -2(%rdi,%rsi)
	jbe	.LBB62_18
	leaq	-2(%rsi), %rax
	jmp	.LBB62_19
.LBB62_18:
	leaq	-3(%rsi), %rax
	cmpb	$-16, -3(%rdi,%rsi)
	cmovbq	%rsi, %rax
.LBB62_19:
	xorl	%edx, %edx
	cmpq	%rsi, %rax
	setae	%al
	cmovaeq	%r8, %rdx
	popq	%rbx
	.cfi_def_cfa_offset 16
	popq	%r14
	.cfi_def_cfa_offset 8
	retq
.Lfunc_end62:
	.size	"utf16_from_utf8::rest::write_rest_of::<#0fe1328e7259d677>", .Lfunc_end62-"utf16_from_utf8::rest::write_rest_of::<#0fe1328e7259d677>"
	.cfi_endproc

	.section	.rodata.cst16,"aM",@progbits,16
	.p2align	4, 0x0
.LCPI63_0:
	.zero	16,192
.LCPI63_1:
	.zero	16,224
.LCPI63_2:
	.zero	16,15
.LCPI63_3:
	.zero	16,240
.LCPI63_4:
	.zero	16,127
.LCPI63_5:
	.zero	16,191
.LCPI63_6:
	.zero	16,223
.LCPI63_7:
	.zero	16,254
.LCPI63_8:
	.zero	16,159
.LCPI63_9:
	.zero	16,237
	.section	".text.utf16_from_utf8::rest::write_rest_of::<#f189504864b36784>","ax",@progbits
	.p2align	4
	.type	"utf16_from_utf8::rest::write_rest_of::<#f189504864b36784>",@function
"utf16_from_utf8::rest::write_rest_of::<#f189504864b36784>":
	.cfi_startproc
	pushq	%r14
	.cfi_def_cfa_offset 16
	pushq	%rbx
	.cfi_def_cfa_offset 24
	.cfi_offset %rbx, -24
	.cfi_offset %r14, -16
	movq	%rcx, %rax
	movq	%rsi, %rcx
	subq	%rdx, %rcx
	pxor	%xmm2, %xmm2
	xorl	%r8d, %r8d
	cmpq	$16, %rcx
	jae	.LBB63_6
.LBB63_1:
	cmpq	%rsi, %rdx
	je	.LBB63_18
	leaq	-16(%rsi), %rcx
	movdqu	-16(%rdi,%rsi), %xmm0
	cmpq	$3, %rcx
	jb	.LBB63_13
	movdqu	-2(%rdi,%rcx), %xmm5
	movdqu	-1(%rdi,%rcx), %xmm4
	jmp	.LBB63_17
	.p2align	4
.LBB63_4:
	movdqu	-2(%rdi,%rdx), %xmm1
	movdqu	-1(%rdi,%rdx), %xmm3
.LBB63_5:
	movdqa	.LCPI63_0(%rip), %xmm7
	movdqa	%xmm7, %xmm4
	pblendvb	%xmm0, %xmm3, %xmm4
	movdqa	.LCPI63_1(%rip), %xmm6
	movdqa	%xmm1, %xmm5
	pmaxub	%xmm6, %xmm5
	movdqa	%xmm4, %xmm8
	psrlw	$2, %xmm8
	pand	.LCPI63_2(%rip), %xmm8
	psllw	$4, %xmm5
	pand	.LCPI63_3(%rip), %xmm5
	por	%xmm8, %xmm5
	movdqa	.LCPI63_4(%rip), %xmm8
	pand	%xmm0, %xmm8
	psllw	$6, %xmm4
	pand	%xmm7, %xmm4
	paddb	%xmm8, %xmm4
	movdqa	.LCPI63_5(%rip), %xmm8
	movdqa	%xmm0, %xmm9
	pminub	%xmm8, %xmm9
	pcmpeqb	%xmm0, %xmm9
	movdqa	.LCPI63_6(%rip), %xmm10
	movdqa	%xmm3, %xmm11
	pminub	%xmm10, %xmm11
	pcmpeqb	%xmm3, %xmm11
	pand	%xmm9, %xmm11
	pmovmskb	%xmm11, %r9d
	movdqa	.LCPI63_7(%rip), %xmm9
	pand	%xmm0, %xmm9
	pcmpeqb	%xmm7, %xmm9
	pcmpgtb	%xmm0, %xmm7
	movdqa	%xmm3, %xmm11
	psubusb	%xmm8, %xmm11
	psubusb	%xmm10, %xmm1
	por	%xmm11, %xmm1
	pxor	%xmm8, %xmm8
	pcmpgtb	%xmm8, %xmm1
	pxor	%xmm7, %xmm1
	por	%xmm1, %xmm9
	movdqa	.LCPI63_8(%rip), %xmm1
	pminub	%xmm0, %xmm1
	pcmpeqb	%xmm0, %xmm1
	movdqa	.LCPI63_9(%rip), %xmm7
	movdqa	%xmm1, %xmm0
	pblendvb	%xmm0, %xmm6, %xmm7
	pcmpeqb	%xmm3, %xmm7
	por	%xmm9, %xmm7
	pmaxub	%xmm7, %xmm2
	movdqa	%xmm4, %xmm0
	punpckhbw	%xmm5, %xmm0
	punpcklbw	%xmm5, %xmm4
	movzbl	%r9b, %r10d
	popcntl	%r10d, %r11d
	shll	$4, %r10d
	leaq	.Lstatic.10(%rip), %rbx
	movdqu	(%r10,%rbx), %xmm1
	pshufb	%xmm1, %xmm4
	leaq	(%rax,%r8), %r10
	movdqu	%xmm4, (%rax,%r8)
	shrl	$8, %r9d
	popcntl	%r9d, %r14d
	shll	$4, %r9d
	movdqu	(%r9,%rbx), %xmm1
	pshufb	%xmm1, %xmm0
	movdqu	%xmm0, (%r10,%r11,2)
	addl	%r11d, %r14d
	leaq	(%r8,%r14,2), %r8
	addq	$16, %rdx
	addq	$-16, %rcx
	cmpq	$15, %rcx
	jbe	.LBB63_1
.LBB63_6:
	movdqu	(%rdi,%rdx), %xmm0
	cmpq	$3, %rdx
	jae	.LBB63_4
	testq	%rdx, %rdx
	je	.LBB63_10
	movzbl	-1(%rdi,%rdx), %r9d
	movd	%r9d, %xmm1
	pslldq	$15, %xmm1
	movdqa	%xmm0, %xmm3
	palignr	$15, %xmm1, %xmm3
	cmpq	$2, %rdx
	jne	.LBB63_11
	movzbl	(%rdi), %r9d
	jmp	.LBB63_12
.LBB63_10:
	movdqa	%xmm0, %xmm3
	pslldq	$1, %xmm3
.LBB63_11:
	xorl	%r9d, %r9d
.LBB63_12:
	movzbl	%r9b, %r9d
	movd	%r9d, %xmm4
	pslldq	$15, %xmm4
	movdqa	%xmm3, %xmm1
	palignr	$15, %xmm4, %xmm1
	jmp	.LBB63_5
.LBB63_13:
	movzbl	-17(%rdi,%rsi), %r9d
	movd	%r9d, %xmm1
	pslldq	$15, %xmm1
	movdqa	%xmm0, %xmm4
	palignr	$15, %xmm1, %xmm4
	cmpq	$2, %rcx
	jne	.LBB63_15
	movzbl	(%rdi), %r9d
	jmp	.LBB63_16
.LBB63_15:
	xorl	%r9d, %r9d
.LBB63_16:
	movzbl	%r9b, %r9d
	movd	%r9d, %xmm1
	pslldq	$15, %xmm1
	movdqa	%xmm4, %xmm5
	palignr	$15, %xmm1, %xmm5
.LBB63_17:
	movdqa	.LCPI63_0(%rip), %xmm1
	movdqa	%xmm1, %xmm3
	pblendvb	%xmm0, %xmm4, %xmm3
	movdqa	.LCPI63_1(%rip), %xmm7
	movdqa	%xmm5, %xmm6
	pmaxub	%xmm7, %xmm6
	movdqa	%xmm3, %xmm8
	psrlw	$2, %xmm8
	pand	.LCPI63_2(%rip), %xmm8
	psllw	$4, %xmm6
	pand	.LCPI63_3(%rip), %xmm6
	por	%xmm8, %xmm6
	movdqa	.LCPI63_4(%rip), %xmm8
	pand	%xmm0, %xmm8
	psllw	$6, %xmm3
	pand	%xmm1, %xmm3
	paddb	%xmm8, %xmm3
	movdqa	.LCPI63_5(%rip), %xmm8
	movdqa	%xmm0, %xmm9
	pminub	%xmm8, %xmm9
	pcmpeqb	%xmm0, %xmm9
	movdqa	.LCPI63_6(%rip), %xmm10
	movdqa	%xmm4, %xmm11
	pminub	%xmm10, %xmm11
	pcmpeqb	%xmm4, %xmm11
	pand	%xmm9, %xmm11
	pmovmskb	%xmm11, %r9d
	movdqa	.LCPI63_7(%rip), %xmm9
	pand	%xmm0, %xmm9
	pcmpeqb	%xmm1, %xmm9
	pcmpgtb	%xmm0, %xmm1
	movdqa	%xmm4, %xmm11
	psubusb	%xmm8, %xmm11
	psubusb	%xmm10, %xmm5
	por	%xmm11, %xmm5
	pxor	%xmm8, %xmm8
	pcmpgtb	%xmm8, %xmm5
	pxor	%xmm1, %xmm5
	movdqa	.LCPI63_8(%rip), %xmm1
	pminub	%xmm0, %xmm1
	pcmpeqb	%xmm0, %xmm1
	movdqa	.LCPI63_9(%rip), %xmm8
	movdqa	%xmm1, %xmm0
	pblendvb	%xmm0, %xmm7, %xmm8
	pcmpeqb	%xmm4, %xmm8
	por	%xmm9, %xmm8
	por	%xmm5, %xmm8
	subl	%ecx, %edx
	movdqa	%xmm3, %xmm0
	movq	$-1, %r10
	movl	%edx, %ecx
	shlq	%cl, %r10
	punpckhbw	%xmm6, %xmm0
	punpcklbw	%xmm6, %xmm3
	andl	%r9d, %r10d
	movzbl	%r10b, %ecx
	xorl	%edx, %edx
	popcntl	%ecx, %edx
	shll	$4, %ecx
	leaq	.Lstatic.10(%rip), %r9
	movdqu	(%rcx,%r9), %xmm1
	pshufb	%xmm1, %xmm3
	movdqu	%xmm3, (%rax,%r8)
	addq	%r8, %rax
	shrl	$8, %r10d
	xorl	%ecx, %ecx
	popcntl	%r10d, %ecx
	shll	$4, %r10d
	movdqu	(%r10,%r9), %xmm1
	pshufb	%xmm1, %xmm0
	movdqu	%xmm0, (%rax,%rdx,2)
	addl	%edx, %ecx
	leaq	(%r8,%rcx,2), %r8
	pmaxub	%xmm8, %xmm2
.LBB63_18:
	ptest	%xmm2, %xmm2
	je	.LBB63_20
	xorl	%edx, %edx
	xorl	%eax, %eax
	popq	%rbx
	.cfi_def_cfa_offset 16
	popq	%r14
	.cfi_def_cfa_offset 8
	retq
.LBB63_20:
	.cfi_def_cfa_offset 24
	cmpb	$-65, -1(%rdi,%rsi)
	jbe	.LBB63_22
	leaq	-1(%rsi), %rax
	jmp	.LBB63_25
.LBB63_22:
	cmpb	$-33, -2(%rdi,%rsi)
	jbe	.LBB63_24
	leaq	-2(%rsi), %rax
	jmp	.LBB63_25
.LBB63_24:
	leaq	-3(%rsi), %rax
	cmpb	$-16, -3(%rdi,%rsi)
	cmovbq	%rsi, %rax
.LBB63_25:
	xorl	%edx, %edx
	cmpq	%rsi, %rax
	setae	%al
	cmovaeq	%r8, %rdx
	popq	%rbx
	.cfi_def_cfa_offset 16
	popq	%r14
	.cfi_def_cfa_offset 8
	retq
.Lfunc_end63:
	.size	"utf16_from_utf8::rest::write_rest_of::<#f189504864b36784>", .Lfunc_end63-"utf16_from_utf8::rest::write_rest_of::<#f189504864b36784>"
	.cfi_endproc

	.section	.rodata.cst16,"aM",@progbits,16
	.p2align	4, 0x0
.LCPI64_0:
	.zero	16,192
.LCPI64_1:
	.zero	16,224
.LCPI64_2:
	.zero	16,15
.LCPI64_3:
	.zero	16,191
.LCPI64_4:
	.zero	16,220
.LCPI64_5:
	.zero	16,252
.LCPI64_6:
	.zero	16,3
.LCPI64_7:
	.zero	16,63
.LCPI64_8:
	.zero	16,232
.LCPI64_9:
	.zero	16,239
.LCPI64_10:
	.zero	16,127
.LCPI64_11:
	.zero	16,223
.LCPI64_12:
	.zero	16,159
.LCPI64_13:
	.zero	16,237
.LCPI64_14:
	.zero	16,143
.LCPI64_15:
	.zero	16,245
.LCPI64_16:
	.zero	16,244
.LCPI64_17:
	.zero	16,240
.LCPI64_18:
	.zero	16,254
	.section	".text.utf16_from_utf8::rest::write_rest_of::<#c16de31c8ac190b9>","ax",@progbits
	.p2align	4
	.type	"utf16_from_utf8::rest::write_rest_of::<#c16de31c8ac190b9>",@function
"utf16_from_utf8::rest::write_rest_of::<#c16de31c8ac190b9>":
	.cfi_startproc
	pushq	%r14
	.cfi_def_cfa_offset 16
	pushq	%rbx
	.cfi_def_cfa_offset 24
	.cfi_offset %rbx, -24
	.cfi_offset %r14, -16
	movq	%rcx, %rax
	movq	%rsi, %rcx
	subq	%rdx, %rcx
	pxor	%xmm2, %xmm2
	xorl	%r8d, %r8d
	cmpq	$16, %rcx
	jae	.LBB64_6
.LBB64_1:
	cmpq	%rsi, %rdx
	je	.LBB64_24
	leaq	-16(%rsi), %rcx
	movdqu	-16(%rdi,%rsi), %xmm1
	cmpq	$3, %rcx
	jb	.LBB64_16
	movdqu	-3(%rdi,%rcx), %xmm4
	movdqu	-2(%rdi,%rcx), %xmm7
	movdqu	-1(%rdi,%rcx), %xmm3
	jmp	.LBB64_20
	.p2align	4
.LBB64_4:
	movdqa	.LCPI64_0(%rip), %xmm5
	movdqa	%xmm5, %xmm10
	movdqa	%xmm1, %xmm0
	pblendvb	%xmm0, %xmm3, %xmm10
	movdqa	.LCPI64_1(%rip), %xmm9
	movdqa	%xmm7, %xmm0
	pmaxub	%xmm9, %xmm0
	movdqa	%xmm10, %xmm6
	psrlw	$2, %xmm6
	movdqa	.LCPI64_2(%rip), %xmm8
	pand	%xmm8, %xmm6
	psllw	$4, %xmm0
	pandn	%xmm0, %xmm8
	por	%xmm6, %xmm8
	movdqa	%xmm10, %xmm0
	pmaxub	%xmm7, %xmm0
	movdqa	.LCPI64_3(%rip), %xmm11
	movdqa	%xmm0, %xmm14
	pminub	%xmm11, %xmm14
	pcmpeqb	%xmm0, %xmm14
	pand	.LCPI64_4(%rip), %xmm14
	por	%xmm8, %xmm14
	movdqa	%xmm3, %xmm0
	psllw	$2, %xmm0
	pand	.LCPI64_5(%rip), %xmm0
	movdqa	%xmm1, %xmm8
	psrlw	$4, %xmm8
	pand	.LCPI64_6(%rip), %xmm8
	pxor	%xmm12, %xmm12
	movdqa	.LCPI64_7(%rip), %xmm6
	pminub	%xmm0, %xmm6
	pcmpeqb	%xmm0, %xmm6
	paddb	%xmm7, %xmm6
	paddb	.LCPI64_8(%rip), %xmm6
	por	%xmm0, %xmm8
	paddb	%xmm5, %xmm8
	movdqa	.LCPI64_9(%rip), %xmm13
	movdqa	%xmm7, %xmm0
	pminub	%xmm13, %xmm0
	pcmpeqb	%xmm7, %xmm0
	pblendvb	%xmm0, %xmm14, %xmm6
	movdqa	.LCPI64_10(%rip), %xmm14
	pand	%xmm1, %xmm14
	psllw	$6, %xmm10
	pand	%xmm5, %xmm10
	paddb	%xmm14, %xmm10
	pblendvb	%xmm0, %xmm10, %xmm8
	movdqa	%xmm1, %xmm0
	pminub	%xmm11, %xmm0
	pcmpeqb	%xmm1, %xmm0
	movdqa	.LCPI64_11(%rip), %xmm10
	movdqa	%xmm3, %xmm14
	pminub	%xmm10, %xmm14
	pcmpeqb	%xmm3, %xmm14
	pand	%xmm0, %xmm14
	pmovmskb	%xmm14, %r9d
	movdqa	%xmm5, %xmm0
	pcmpgtb	%xmm1, %xmm0
	movdqa	%xmm3, %xmm14
	psubusb	%xmm11, %xmm14
	psubusb	%xmm10, %xmm7
	pmaxub	%xmm14, %xmm7
	psubusb	%xmm13, %xmm4
	por	%xmm7, %xmm4
	pcmpgtb	%xmm12, %xmm4
	pxor	%xmm0, %xmm4
	movdqa	.LCPI64_12(%rip), %xmm0
	pminub	%xmm1, %xmm0
	pcmpeqb	%xmm1, %xmm0
	movdqa	.LCPI64_13(%rip), %xmm7
	pblendvb	%xmm0, %xmm9, %xmm7
	pcmpeqb	%xmm3, %xmm7
	movdqa	.LCPI64_14(%rip), %xmm0
	pminub	%xmm1, %xmm0
	pcmpeqb	%xmm1, %xmm0
	movdqa	.LCPI64_15(%rip), %xmm9
	pmaxub	%xmm1, %xmm9
	pcmpeqb	%xmm1, %xmm9
	por	%xmm7, %xmm9
	movdqa	.LCPI64_16(%rip), %xmm7
	pblendvb	%xmm0, .LCPI64_17(%rip), %xmm7
	pcmpeqb	%xmm3, %xmm7
	pand	.LCPI64_18(%rip), %xmm1
	pcmpeqb	%xmm5, %xmm1
	por	%xmm4, %xmm1
	por	%xmm9, %xmm1
	por	%xmm7, %xmm1
	pmaxub	%xmm1, %xmm2
	movdqa	%xmm8, %xmm1
.LBB64_5:
	movdqa	%xmm1, %xmm0
	punpckhbw	%xmm6, %xmm0
	punpcklbw	%xmm6, %xmm1
	movzbl	%r9b, %r10d
	xorl	%r11d, %r11d
	popcntl	%r10d, %r11d
	shll	$4, %r10d
	leaq	.Lstatic.10(%rip), %rbx
	movdqu	(%r10,%rbx), %xmm3
	pshufb	%xmm3, %xmm1
	leaq	(%rax,%r8), %r10
	movdqu	%xmm1, (%rax,%r8)
	shrl	$8, %r9d
	xorl	%r14d, %r14d
	popcntl	%r9d, %r14d
	shll	$4, %r9d
	movdqu	(%r9,%rbx), %xmm1
	pshufb	%xmm1, %xmm0
	movdqu	%xmm0, (%r10,%r11,2)
	addl	%r11d, %r14d
	leaq	(%r8,%r14,2), %r8
	addq	$16, %rdx
	addq	$-16, %rcx
	cmpq	$15, %rcx
	jbe	.LBB64_1
.LBB64_6:
	movdqu	(%rdi,%rdx), %xmm1
	cmpq	$3, %rdx
	jb	.LBB64_8
	movdqu	-3(%rdi,%rdx), %xmm4
	movdqu	-2(%rdi,%rdx), %xmm7
	movdqu	-1(%rdi,%rdx), %xmm3
	jmp	.LBB64_14
	.p2align	4
.LBB64_8:
	testq	%rdx, %rdx
	je	.LBB64_11
	movzbl	-1(%rdi,%rdx), %r9d
	movd	%r9d, %xmm0
	pslldq	$15, %xmm0
	movdqa	%xmm1, %xmm3
	palignr	$15, %xmm0, %xmm3
	cmpq	$2, %rdx
	jne	.LBB64_12
	movzbl	(%rdi), %r9d
	jmp	.LBB64_13
.LBB64_11:
	movdqa	%xmm1, %xmm3
	pslldq	$1, %xmm3
.LBB64_12:
	xorl	%r9d, %r9d
.LBB64_13:
	movzbl	%r9b, %r9d
	movd	%r9d, %xmm0
	pslldq	$15, %xmm0
	movdqa	%xmm3, %xmm7
	palignr	$15, %xmm0, %xmm7
	movdqa	%xmm7, %xmm4
	pslldq	$1, %xmm4
.LBB64_14:
	movdqa	%xmm4, %xmm0
	por	%xmm1, %xmm0
	pmovmskb	%xmm0, %r9d
	testl	%r9d, %r9d
	jne	.LBB64_4
	pxor	%xmm6, %xmm6
	movl	$65535, %r9d
	jmp	.LBB64_5
.LBB64_16:
	movzbl	-17(%rdi,%rsi), %r9d
	movd	%r9d, %xmm0
	pslldq	$15, %xmm0
	movdqa	%xmm1, %xmm3
	palignr	$15, %xmm0, %xmm3
	cmpq	$2, %rcx
	jne	.LBB64_18
	movzbl	(%rdi), %r9d
	jmp	.LBB64_19
.LBB64_18:
	xorl	%r9d, %r9d
.LBB64_19:
	movzbl	%r9b, %r9d
	movd	%r9d, %xmm0
	pslldq	$15, %xmm0
	movdqa	%xmm3, %xmm7
	palignr	$15, %xmm0, %xmm7
	movdqa	%xmm7, %xmm4
	pslldq	$1, %xmm4
.LBB64_20:
	movdqa	%xmm4, %xmm0
	por	%xmm1, %xmm0
	pmovmskb	%xmm0, %r9d
	testl	%r9d, %r9d
	je	.LBB64_22
	movdqa	.LCPI64_0(%rip), %xmm5
	movdqa	%xmm5, %xmm10
	movdqa	%xmm1, %xmm0
	pblendvb	%xmm0, %xmm3, %xmm10
	movdqa	.LCPI64_1(%rip), %xmm9
	movdqa	%xmm7, %xmm0
	pmaxub	%xmm9, %xmm0
	movdqa	%xmm10, %xmm6
	psrlw	$2, %xmm6
	movdqa	.LCPI64_2(%rip), %xmm8
	pand	%xmm8, %xmm6
	psllw	$4, %xmm0
	pandn	%xmm0, %xmm8
	por	%xmm6, %xmm8
	movdqa	%xmm10, %xmm0
	pmaxub	%xmm7, %xmm0
	movdqa	.LCPI64_3(%rip), %xmm11
	movdqa	%xmm0, %xmm14
	pminub	%xmm11, %xmm14
	pcmpeqb	%xmm0, %xmm14
	pand	.LCPI64_4(%rip), %xmm14
	por	%xmm8, %xmm14
	movdqa	%xmm3, %xmm0
	psllw	$2, %xmm0
	pand	.LCPI64_5(%rip), %xmm0
	movdqa	%xmm1, %xmm8
	psrlw	$4, %xmm8
	pand	.LCPI64_6(%rip), %xmm8
	pxor	%xmm12, %xmm12
	movdqa	.LCPI64_7(%rip), %xmm6
	pminub	%xmm0, %xmm6
	pcmpeqb	%xmm0, %xmm6
	paddb	%xmm7, %xmm6
	paddb	.LCPI64_8(%rip), %xmm6
	por	%xmm0, %xmm8
	paddb	%xmm5, %xmm8
	movdqa	.LCPI64_9(%rip), %xmm13
	movdqa	%xmm7, %xmm0
	pminub	%xmm13, %xmm0
	pcmpeqb	%xmm7, %xmm0
	pblendvb	%xmm0, %xmm14, %xmm6
	movdqa	.LCPI64_10(%rip), %xmm14
	pand	%xmm1, %xmm14
	psllw	$6, %xmm10
	pand	%xmm5, %xmm10
	paddb	%xmm14, %xmm10
	pblendvb	%xmm0, %xmm10, %xmm8
	movdqa	%xmm1, %xmm0
	pminub	%xmm11, %xmm0
	pcmpeqb	%xmm1, %xmm0
	movdqa	.LCPI64_11(%rip), %xmm10
	movdqa	%xmm3, %xmm14
	pminub	%xmm10, %xmm14
	pcmpeqb	%xmm3, %xmm14
	pand	%xmm0, %xmm14
	pmovmskb	%xmm14, %r9d
	movdqa	%xmm5, %xmm0
	pcmpgtb	%xmm1, %xmm0
	movdqa	%xmm3, %xmm14
	psubusb	%xmm11, %xmm14
	psubusb	%xmm10, %xmm7
	pmaxub	%xmm14, %xmm7
	psubusb	%xmm13, %xmm4
	por	%xmm7, %xmm4
	pcmpgtb	%xmm12, %xmm4
	pxor	%xmm0, %xmm4
	movdqa	.LCPI64_12(%rip), %xmm0
	pminub	%xmm1, %xmm0
	pcmpeqb	%xmm1, %xmm0
	movdqa	.LCPI64_13(%rip), %xmm7
	pblendvb	%xmm0, %xmm9, %xmm7
	pcmpeqb	%xmm3, %xmm7
	movdqa	.LCPI64_14(%rip), %xmm0
	pminub	%xmm1, %xmm0
	pcmpeqb	%xmm1, %xmm0
	movdqa	.LCPI64_15(%rip), %xmm9
	pmaxub	%xmm1, %xmm9
	pcmpeqb	%xmm1, %xmm9
	por	%xmm7, %xmm9
	movdqa	.LCPI64_16(%rip), %xmm7
	pblendvb	%xmm0, .LCPI64_17(%rip), %xmm7
	pcmpeqb	%xmm3, %xmm7
	pand	.LCPI64_18(%rip), %xmm1
	pcmpeqb	%xmm5, %xmm1
	por	%xmm4, %xmm1
	por	%xmm9, %xmm1
	por	%xmm7, %xmm1
	pmaxub	%xmm1, %xmm2
	movdqa	%xmm8, %xmm1
	jmp	.LBB64_23
.LBB64_22:
	pxor	%xmm6, %xmm6
	movl	$65535, %r9d
.LBB64_23:
	subl	%ecx, %edx
	movdqa	%xmm1, %xmm0
	punpckhbw	%xmm6, %xmm0
	punpcklbw	%xmm6, %xmm1
	movq	$-1, %r10
	movl	%edx, %ecx
	shlq	%cl, %r10
	andl	%r10d, %r9d
	movzbl	%r9b, %ecx
	xorl	%edx, %edx
	popcntl	%ecx, %edx
	shll	$4, %ecx
	leaq	.Lstatic.10(%rip), %r10
	movdqu	(%rcx,%r10), %xmm3
	pshufb	%xmm3, %xmm1
	movdqu	%xmm1, (%rax,%r8)
	addq	%r8, %rax
	shrl	$8, %r9d
	xorl	%ecx, %ecx
	popcntl	%r9d, %ecx
	shll	$4, %r9d
	movdqu	(%r9,%r10), %xmm1
	pshufb	%xmm1, %xmm0
	movdqu	%xmm0, (%rax,%rdx,2)
	addl	%edx, %ecx
	leaq	(%r8,%rcx,2), %r8
.LBB64_24:
	ptest	%xmm2, %xmm2
	je	.LBB64_26
	xorl	%edx, %edx
	xorl	%eax, %eax
	popq	%rbx
	.cfi_def_cfa_offset 16
	popq	%r14
	.cfi_def_cfa_offset 8
	retq
.LBB64_26:
	.cfi_def_cfa_offset 24
	cmpb	$-65, -1(%rdi,%rsi)
	jbe	.LBB64_28
	leaq	-1(%rsi), %rax
	jmp	.LBB64_31
.LBB64_28:
	cmpb	$-33, -2(%rdi,%rsi)
	jbe	.LBB64_30
	leaq	-2(%rsi), %rax
	jmp	.LBB64_31
.LBB64_30:
	leaq	-3(%rsi), %rax
	cmpb	$-16, -3(%rdi,%rsi)
	cmovbq	%rsi, %rax
.LBB64_31:
	xorl	%edx, %edx
	cmpq	%rsi, %rax
	setae	%al
	cmovaeq	%r8, %rdx
	popq	%rbx
	.cfi_def_cfa_offset 16
	popq	%r14
	.cfi_def_cfa_offset 8
	retq
.Lfunc_end64:
	.size	"utf16_from_utf8::rest::write_rest_of::<#c16de31c8ac190b9>", .Lfunc_end64-"utf16_from_utf8::rest::write_rest_of::<#c16de31c8ac190b9>"
	.cfi_endproc

	.section	.rodata.cst16,"aM",@progbits,16
	.p2align	4, 0x0
.LCPI65_0:
	.zero	16,192
.LCPI65_1:
	.zero	16,191
.LCPI65_2:
	.zero	16,223
.LCPI65_3:
	.zero	16,239
.LCPI65_4:
	.zero	16,159
.LCPI65_5:
	.zero	16,237
.LCPI65_6:
	.zero	16,224
.LCPI65_7:
	.zero	16,143
.LCPI65_8:
	.zero	16,245
.LCPI65_9:
	.zero	16,244
.LCPI65_10:
	.zero	16,240
.LCPI65_11:
	.zero	16,254
.LCPI65_12:
	.zero	16,15
.LCPI65_13:
	.zero	16,220
.LCPI65_14:
	.zero	16,252
.LCPI65_15:
	.zero	16,3
.LCPI65_16:
	.zero	16,63
.LCPI65_17:
	.zero	16,232
.LCPI65_18:
	.zero	16,127
.LCPI65_19:
	.byte	1
	.byte	2
	.byte	3
	.byte	4
	.byte	5
	.byte	6
	.byte	7
	.byte	8
	.byte	9
	.byte	10
	.byte	11
	.byte	12
	.byte	13
	.byte	14
	.byte	15
	.byte	16
	.section	".text.utf16_transcode::transcoding::transcode_many::<#58ba01604e1c9b81>","ax",@progbits
	.p2align	4
	.type	"utf16_transcode::transcoding::transcode_many::<#58ba01604e1c9b81>",@function
"utf16_transcode::transcoding::transcode_many::<#58ba01604e1c9b81>":
	.cfi_startproc
	pushq	%rbp
	.cfi_def_cfa_offset 16
	pushq	%r15
	.cfi_def_cfa_offset 24
	pushq	%r14
	.cfi_def_cfa_offset 32
	pushq	%r13
	.cfi_def_cfa_offset 40
	pushq	%r12
	.cfi_def_cfa_offset 48
	pushq	%rbx
	.cfi_def_cfa_offset 56
	subq	$344, %rsp
	.cfi_def_cfa_offset 400
	.cfi_offset %rbx, -56
	.cfi_offset %r12, -48
	.cfi_offset %r13, -40
	.cfi_offset %r14, -32
	.cfi_offset %r15, -24
	.cfi_offset %rbp, -16
	movq	%r9, %r12
	movq	%r8, %r10
	movq	%rcx, %r15
	movq	400(%rsp), %r14
	movzbl	(%rsi,%r9), %ecx
	testb	%cl, %cl
	movq	%r8, (%rsp)
	js	.LBB65_194
.LBB65_1:
	movq	%rdi, 56(%rsp)
	cmpq	%r12, %rdx
	movq	%rdx, 32(%rsp)
	movq	%r15, 8(%rsp)
	movq	%rsi, 24(%rsp)
	ja	.LBB65_5
.LBB65_2:
	movq	56(%rsp), %rax
	movq	%r12, (%rax)
	movq	%r14, 8(%rax)
	movw	$0, 16(%rax)
	jmp	.LBB65_232
	.p2align	4
.LBB65_3:
	leal	67043328(%rax), %edi
	shrl	$10, %edi
	addl	$-10240, %edi
	andl	$1023, %eax
	orl	$56320, %eax
	movw	%ax, 2(%r15,%r14)
	movl	$4, %ecx
	movl	%edi, %eax
.LBB65_4:
	movw	%ax, (%r15,%r14)
	addq	%rcx, %r14
	addq	%rbx, %r12
	cmpq	%rdx, %r12
	jae	.LBB65_2
.LBB65_5:
	leaq	(%rsi,%r12), %r13
	movq	%rdx, %rbx
	subq	%r12, %rbx
	cmpq	$16, %rbx
	jb	.LBB65_9
	leaq	(%r15,%r14), %rbp
	movq	%r10, %r15
	subq	%r14, %r15
	cmpq	$16, %rbx
	jne	.LBB65_12
	cmpq	$32, %r15
	jae	.LBB65_18
	xorl	%r9d, %r9d
	xorl	%eax, %eax
	jmp	.LBB65_77
	.p2align	4
.LBB65_9:
	xorl	%eax, %eax
	movq	%rbx, %rbp
	subq	%rax, %rbp
	je	.LBB65_79
.LBB65_10:
	addq	%rax, %r13
	cmpq	$7, %rbp
	ja	.LBB65_14
	movq	%r13, %rdi
	movq	%rbp, %rsi
	movq	%r15, %rdx
	movq	%r10, %rcx
	movq	%r14, %r8
	movq	%rax, %rbx
	callq	"utf16_transcode::transcoding::write_chars::<#58ba01604e1c9b81>"
	movq	%rbx, %r11
	movq	(%rsp), %r10
	movq	%rax, %rbx
	movq	%rdx, %r15
	movq	24(%rsp), %rsi
	jmp	.LBB65_128
	.p2align	4
.LBB65_12:
	movq	%r15, %rsi
	shrq	%rsi
	cmpq	%rbx, %rsi
	cmovaeq	%rbx, %rsi
	cmpq	$16, %rsi
	jb	.LBB65_13
	movdqu	(%r13), %xmm1
	pmovmskb	%xmm1, %eax
	testl	%eax, %eax
	je	.LBB65_52
.LBB65_13:
	xorl	%eax, %eax
.LBB65_72:
	leaq	(%rax,%rax), %r9
	movq	%rbx, %rcx
	subq	%rax, %rcx
	je	.LBB65_77
	cmpq	$191, %rcx
	jbe	.LBB65_75
	movq	%r13, %rdi
	movq	%rbx, %rsi
	movq	%rbp, %rdx
	movq	%r15, %rcx
	movq	%rax, %r8
	callq	"utf16_from_utf8::blocks::write_mixed_blocks::<#418c2b53cf60437c>"
	movq	%rdx, %r9
	movq	%rbx, %rcx
	subq	%rax, %rcx
	cmpq	$191, %rcx
	ja	.LBB65_76
.LBB65_75:
	movq	%r13, %rdi
	movq	%rbx, %rsi
	movq	%rbp, %rdx
	movq	%r15, %rcx
	movq	%rax, %r8
	callq	"utf16_from_utf8::rest::write_rest::<#418c2b53cf60437c>"
	movq	%rdx, %r9
.LBB65_76:
	movq	(%rsp), %r10
.LBB65_77:
	movq	32(%rsp), %rdx
	movq	8(%rsp), %r15
.LBB65_78:
	addq	%r9, %r14
	movq	%rbx, %rbp
	subq	%rax, %rbp
	jne	.LBB65_10
.LBB65_79:
	movq	24(%rsp), %rsi
	addq	%r12, %rbx
	movq	%rdx, %r11
	subq	%rbx, %r11
	jne	.LBB65_129
	jmp	.LBB65_206
	.p2align	4
.LBB65_14:
	cmpq	$128, %rbp
	movl	$128, %ebx
	cmovbq	%rbp, %rbx
	movq	%r10, %rsi
	subq	%r14, %rsi
	xorl	%edx, %edx
	movq	%rsi, %rcx
	subq	$16, %rcx
	cmovaeq	%rcx, %rdx
	shrq	%rdx
	cmpq	%rdx, %rbx
	movq	%rax, 16(%rsp)
	jbe	.LBB65_26
	cmpq	$23, %rsi
	ja	.LBB65_29
	movq	%r13, %rdi
	movq	%rbp, %rsi
	movq	%r15, %rdx
	movq	%r10, %rcx
.LBB65_17:
	movq	%r14, %r8
	callq	"utf16_transcode::transcoding::write_chars::<#58ba01604e1c9b81>"
	jmp	.LBB65_32
.LBB65_18:
	movdqu	(%r13), %xmm1
	pmovmskb	%xmm1, %eax
	testl	%eax, %eax
	movq	32(%rsp), %rdx
	movq	8(%rsp), %r15
	je	.LBB65_51
	movq	8(%r13), %xmm0
	pextrb	$5, %xmm0, %eax
	xorl	%r9d, %r9d
	cmpb	$-17, %al
	ja	.LBB65_80
	pextrb	$7, %xmm0, %eax
	cmpb	$-65, %al
	ja	.LBB65_80
	pextrb	$6, %xmm0, %ecx
	movl	$0, %eax
	cmpb	$-33, %cl
	ja	.LBB65_78
	movdqa	%xmm1, %xmm2
	pslldq	$1, %xmm2
	movdqa	%xmm1, %xmm4
	pslldq	$2, %xmm4
	movdqa	%xmm1, %xmm5
	pslldq	$3, %xmm5
	movdqa	.LCPI65_0(%rip), %xmm3
	movdqa	%xmm3, %xmm6
	pcmpgtb	%xmm1, %xmm6
	movdqa	%xmm2, %xmm0
	psubusb	.LCPI65_1(%rip), %xmm0
	movdqa	%xmm4, %xmm7
	psubusb	.LCPI65_2(%rip), %xmm7
	pmaxub	%xmm0, %xmm7
	psubusb	.LCPI65_3(%rip), %xmm5
	por	%xmm7, %xmm5
	pxor	%xmm7, %xmm7
	movdqa	.LCPI65_4(%rip), %xmm0
	pminub	%xmm1, %xmm0
	pcmpeqb	%xmm1, %xmm0
	movdqa	.LCPI65_5(%rip), %xmm8
	pblendvb	%xmm0, .LCPI65_6(%rip), %xmm8
	pcmpgtb	%xmm7, %xmm5
	pxor	%xmm6, %xmm5
	pcmpeqb	%xmm2, %xmm8
	movdqa	.LCPI65_7(%rip), %xmm0
	pminub	%xmm1, %xmm0
	pcmpeqb	%xmm1, %xmm0
	movdqa	.LCPI65_8(%rip), %xmm6
	movdqa	.LCPI65_9(%rip), %xmm7
	pblendvb	%xmm0, .LCPI65_10(%rip), %xmm7
	pmaxub	%xmm1, %xmm6
	pcmpeqb	%xmm1, %xmm6
	pcmpeqb	%xmm2, %xmm7
	por	%xmm8, %xmm7
	por	%xmm6, %xmm7
	movdqa	.LCPI65_11(%rip), %xmm0
	pand	%xmm1, %xmm0
	pcmpeqb	%xmm3, %xmm0
	por	%xmm5, %xmm0
	por	%xmm7, %xmm0
	pmovmskb	%xmm0, %eax
	testl	%eax, %eax
	je	.LBB65_81
	xorl	%r9d, %r9d
	xorl	%eax, %eax
	jmp	.LBB65_78
.LBB65_26:
	pxor	%xmm0, %xmm0
	cmpq	$63, %rbp
	ja	.LBB65_34
	movdqa	%xmm0, 80(%rsp)
	movdqa	%xmm0, 64(%rsp)
	leaq	64(%rsp), %rdi
	movq	%r13, %rsi
	movq	%rbx, %rdx
	callq	"simdutf8::compat::from_utf8"
	cmpb	$0, 64(%rsp)
	je	.LBB65_68
	movq	72(%rsp), %rax
	jmp	.LBB65_38
.LBB65_29:
	movq	%rsi, 40(%rsp)
	leaq	64(%rsp), %rdi
	movl	$276, %edx
	xorl	%esi, %esi
	callq	memset@PLT
	cmpq	$15, %rbp
	ja	.LBB65_59
	leaq	64(%rsp), %rdx
	movq	%r13, %rdi
	movq	%rbp, %rsi
	movq	%r15, %rcx
	movq	(%rsp), %r8
	movq	%r14, %r9
.LBB65_31:
	callq	"utf16_transcode::transcoding::write_buffered_text::<#58ba01604e1c9b81>"
.LBB65_32:
	movq	%rax, %rbx
	movq	%rdx, %r15
.LBB65_33:
	movq	(%rsp), %r10
	movq	24(%rsp), %rsi
	movq	16(%rsp), %r11
	jmp	.LBB65_128
.LBB65_34:
	movdqa	%xmm0, 80(%rsp)
	movdqa	%xmm0, 64(%rsp)
	leaq	64(%rsp), %rdi
	movl	$63, %r15d
	movl	$63, %edx
	movq	%r13, %rsi
	callq	"simdutf8::compat::from_utf8"
	cmpb	$0, 64(%rsp)
	movq	72(%rsp), %rax
	cmovneq	%rax, %r15
	leaq	4(%r15), %rcx
	cmpq	$64, %rcx
	jb	.LBB65_38
	leaq	(%r15,%r13), %rsi
	subq	%r15, %rbx
	pxor	%xmm0, %xmm0
	movdqa	%xmm0, 80(%rsp)
	movdqa	%xmm0, 64(%rsp)
	leaq	64(%rsp), %rdi
	movq	%rbx, %rdx
	callq	"simdutf8::compat::from_utf8"
	cmpb	$0, 64(%rsp)
	je	.LBB65_37
	movq	72(%rsp), %rbx
.LBB65_37:
	addq	%r15, %rbx
	movq	%rbx, %rax
.LBB65_38:
	testq	%rax, %rax
	je	.LBB65_55
	movq	8(%rsp), %r15
	leaq	(%r15,%r14), %rbp
	cmpq	$7, %rax
	movq	(%rsp), %r10
	movq	16(%rsp), %r11
	ja	.LBB65_56
	xorl	%r9d, %r9d
	movq	%rax, %rcx
	jmp	.LBB65_41
.LBB65_49:
	addl	$67043328, %edx
	shrl	$10, %edx
	addl	$-10240, %edx
	movw	%dx, (%r8)
	orl	$56320, %edi
	movw	%di, 2(%r8)
	movl	$4, %edx
	addq	%rdx, %r9
	testq	%rcx, %rcx
	je	.LBB65_50
	.p2align	4
.LBB65_41:
	movzbl	(%r13), %edx
	movl	$1, %edi
	testb	%dl, %dl
	jns	.LBB65_46
	movzbl	1(%r13), %esi
	andl	$63, %esi
	cmpb	$-33, %dl
	ja	.LBB65_44
	andl	$31, %edx
	shll	$6, %edx
	orl	%esi, %edx
	movl	$2, %edi
	jmp	.LBB65_46
.LBB65_44:
	movzbl	2(%r13), %edi
	andl	$63, %edi
	cmpb	$-17, %dl
	ja	.LBB65_48
	shll	$12, %edx
	movzwl	%dx, %edx
	shll	$6, %esi
	orl	%edx, %esi
	orl	%edi, %esi
	movl	$3, %edi
	movl	%esi, %edx
	.p2align	4
.LBB65_46:
	addq	%rdi, %r13
	subq	%rdi, %rcx
	leaq	(%r9,%rbp), %r8
.LBB65_47:
	movw	%dx, (%r8)
	movl	$2, %edx
	addq	%rdx, %r9
	testq	%rcx, %rcx
	jne	.LBB65_41
	jmp	.LBB65_50
.LBB65_48:
	movzbl	3(%r13), %r8d
	andl	$63, %r8d
	andl	$7, %edx
	shll	$18, %edx
	shll	$12, %esi
	orl	%edx, %esi
	shll	$6, %edi
	orl	%r8d, %edi
	leal	(%rdi,%rsi), %edx
	addq	$4, %r13
	addq	$-4, %rcx
	leaq	(%r9,%rbp), %r8
	cmpl	$65535, %esi
	jbe	.LBB65_47
	jmp	.LBB65_49
.LBB65_52:
	cmpq	$31, %rsi
	ja	.LBB65_71
	pxor	%xmm0, %xmm0
	pmovzxbw	%xmm1, %xmm2
	punpckhbw	%xmm0, %xmm1
	movdqu	%xmm2, (%rbp)
	movdqu	%xmm1, 16(%rbp)
	movdqu	-16(%rsi,%r13), %xmm1
	pmovmskb	%xmm1, %ecx
	movl	$16, %eax
	testl	%ecx, %ecx
	jne	.LBB65_72
	pmovzxbw	%xmm1, %xmm2
	punpckhbw	%xmm0, %xmm1
	movdqu	%xmm2, -32(%rbp,%rsi,2)
	movdqu	%xmm1, -16(%rbp,%rsi,2)
	movq	%rsi, %rax
	jmp	.LBB65_72
.LBB65_51:
	pxor	%xmm0, %xmm0
	pmovzxbw	%xmm1, %xmm2
	punpckhbw	%xmm0, %xmm1
	movdqu	%xmm2, (%rbp)
	movdqu	%xmm1, 16(%rbp)
	movl	$16, %eax
	movl	$32, %r9d
	jmp	.LBB65_78
.LBB65_55:
	xorl	%ebx, %ebx
	movq	(%rsp), %r10
	movq	24(%rsp), %rsi
	movq	16(%rsp), %r11
	jmp	.LBB65_127
.LBB65_56:
	movq	%rax, %rbx
	cmpq	$16, %rbx
	ja	.LBB65_69
.LBB65_57:
	movq	-8(%r13,%rbx), %xmm0
	movq	(%r13), %xmm1
	punpcklqdq	%xmm0, %xmm1
	movq	%rbx, %rax
	shlq	$4, %rax
	leaq	.Lstatic.1(%rip), %rcx
	movdqu	-128(%rax,%rcx), %xmm0
	pshufb	%xmm0, %xmm1
	pmovmskb	%xmm1, %ecx
	leaq	(%r15,%r14), %rax
	testl	%ecx, %ecx
	je	.LBB65_87
	leaq	.Lstatic.2(%rip), %rcx
	subq	%rbx, %rcx
	movdqu	16(%rcx), %xmm0
	pmaxub	%xmm0, %xmm1
	movdqa	%xmm1, %xmm6
	pslldq	$1, %xmm6
	movdqa	%xmm1, %xmm5
	pslldq	$2, %xmm5
	movdqa	.LCPI65_0(%rip), %xmm4
	movdqa	%xmm4, %xmm3
	movdqa	%xmm1, %xmm0
	pblendvb	%xmm0, %xmm6, %xmm3
	movdqa	.LCPI65_1(%rip), %xmm2
	movdqa	.LCPI65_6(%rip), %xmm0
	pmaxub	%xmm5, %xmm0
	movdqa	%xmm3, %xmm7
	psrlw	$2, %xmm7
	movdqa	.LCPI65_12(%rip), %xmm8
	pand	%xmm8, %xmm7
	psllw	$4, %xmm0
	pandn	%xmm0, %xmm8
	por	%xmm7, %xmm8
	movdqa	%xmm3, %xmm0
	pmaxub	%xmm5, %xmm0
	movdqa	%xmm0, %xmm7
	pminub	%xmm2, %xmm7
	pcmpeqb	%xmm0, %xmm7
	pand	.LCPI65_13(%rip), %xmm7
	por	%xmm8, %xmm7
	movdqa	.LCPI65_2(%rip), %xmm8
	pminub	%xmm6, %xmm8
	pcmpeqb	%xmm6, %xmm8
	movdqa	%xmm6, %xmm0
	psllw	$2, %xmm0
	pand	.LCPI65_14(%rip), %xmm0
	movdqa	%xmm1, %xmm6
	psrlw	$4, %xmm6
	pand	.LCPI65_15(%rip), %xmm6
	movdqa	.LCPI65_16(%rip), %xmm9
	pminub	%xmm0, %xmm9
	pcmpeqb	%xmm0, %xmm9
	paddb	%xmm5, %xmm9
	paddb	.LCPI65_17(%rip), %xmm9
	por	%xmm0, %xmm6
	paddb	%xmm4, %xmm6
	movdqa	.LCPI65_3(%rip), %xmm0
	pminub	%xmm5, %xmm0
	pcmpeqb	%xmm5, %xmm0
	pblendvb	%xmm0, %xmm7, %xmm9
	movdqa	.LCPI65_18(%rip), %xmm5
	pand	%xmm1, %xmm5
	psllw	$6, %xmm3
	pand	%xmm4, %xmm3
	paddb	%xmm5, %xmm3
	pblendvb	%xmm0, %xmm3, %xmm6
	movdqa	%xmm6, %xmm0
	punpckhbw	%xmm9, %xmm0
	punpcklbw	%xmm9, %xmm6
	pminub	%xmm1, %xmm2
	pcmpeqb	%xmm1, %xmm2
	pand	%xmm2, %xmm8
	pmovmskb	%xmm8, %ecx
	movzbl	%cl, %edx
	popcntl	%edx, %esi
	shll	$4, %edx
	leaq	.Lstatic.10(%rip), %rdi
	movdqu	(%rdx,%rdi), %xmm1
	pshufb	%xmm1, %xmm6
	movdqu	%xmm6, (%rbp)
	shrl	$8, %ecx
	popcntl	%ecx, %r9d
	shll	$4, %ecx
	movdqu	(%rcx,%rdi), %xmm1
	pshufb	%xmm1, %xmm0
	movdqu	%xmm0, (%rax,%rsi,2)
	addl	%esi, %r9d
	addl	%r9d, %r9d
	jmp	.LBB65_126
.LBB65_50:
	movq	%rax, %rbx
	jmp	.LBB65_126
.LBB65_59:
	movzbl	(%r13), %r9d
	movl	$1, %eax
	testb	%r9b, %r9b
	movq	(%rsp), %rcx
	js	.LBB65_84
.LBB65_60:
	movzbl	(%r13,%rax), %r10d
	testb	%r10b, %r10b
	js	.LBB65_89
.LBB65_61:
	xorl	%esi, %esi
	movq	40(%rsp), %rdi
	cmpq	$65, %rdi
	setae	%sil
	shll	$6, %esi
	addq	$66, %rsi
	cmpq	%rbp, %rsi
	cmovaeq	%rbp, %rsi
	cmpq	$16, %rbp
	jne	.LBB65_92
	movq	-8(%r13,%rsi), %xmm0
	movq	(%r13), %xmm1
	punpcklqdq	%xmm0, %xmm1
	movq	%rsi, %rax
	shlq	$4, %rax
	leaq	.Lstatic.1(%rip), %rcx
	movdqu	-128(%rax,%rcx), %xmm2
	pshufb	%xmm2, %xmm1
	pmovmskb	%xmm1, %eax
	testl	%eax, %eax
	je	.LBB65_109
	pextrb	$5, %xmm0, %eax
	xorl	%r15d, %r15d
	cmpb	$-17, %al
	ja	.LBB65_166
	pextrb	$7, %xmm0, %eax
	cmpb	$-65, %al
	ja	.LBB65_166
	pextrb	$6, %xmm0, %eax
	movl	$0, %ebx
	cmpb	$-33, %al
	ja	.LBB65_167
	movdqa	%xmm1, %xmm2
	pslldq	$1, %xmm2
	movdqa	%xmm1, %xmm4
	pslldq	$2, %xmm4
	movdqa	%xmm1, %xmm5
	pslldq	$3, %xmm5
	movdqa	.LCPI65_0(%rip), %xmm3
	movdqa	%xmm3, %xmm0
	movdqa	%xmm2, %xmm6
	psubusb	.LCPI65_1(%rip), %xmm6
	pcmpgtb	%xmm1, %xmm0
	movdqa	%xmm4, %xmm7
	psubusb	.LCPI65_2(%rip), %xmm7
	pmaxub	%xmm6, %xmm7
	psubusb	.LCPI65_3(%rip), %xmm5
	por	%xmm7, %xmm5
	pxor	%xmm6, %xmm6
	pcmpgtb	%xmm6, %xmm5
	pxor	%xmm0, %xmm5
	movdqa	.LCPI65_4(%rip), %xmm0
	pminub	%xmm1, %xmm0
	pcmpeqb	%xmm1, %xmm0
	movdqa	.LCPI65_5(%rip), %xmm7
	pblendvb	%xmm0, .LCPI65_6(%rip), %xmm7
	pcmpeqb	%xmm2, %xmm7
	movdqa	.LCPI65_7(%rip), %xmm0
	pminub	%xmm1, %xmm0
	pcmpeqb	%xmm1, %xmm0
	movdqa	.LCPI65_8(%rip), %xmm8
	pmaxub	%xmm1, %xmm8
	pcmpeqb	%xmm1, %xmm8
	movdqa	.LCPI65_9(%rip), %xmm9
	pblendvb	%xmm0, .LCPI65_10(%rip), %xmm9
	pcmpeqb	%xmm2, %xmm9
	por	%xmm7, %xmm9
	movdqa	.LCPI65_11(%rip), %xmm0
	pand	%xmm1, %xmm0
	pcmpeqb	%xmm3, %xmm0
	por	%xmm5, %xmm0
	por	%xmm8, %xmm0
	por	%xmm9, %xmm0
	movd	%esi, %xmm5
	pshufb	%xmm6, %xmm5
	movdqa	.LCPI65_19(%rip), %xmm6
	pmaxub	%xmm5, %xmm6
	pcmpeqb	%xmm5, %xmm6
	psllw	$7, %xmm0
	pand	%xmm6, %xmm0
	pmovmskb	%xmm0, %eax
	testl	%eax, %eax
	je	.LBB65_165
	xorl	%r15d, %r15d
.LBB65_166:
	xorl	%ebx, %ebx
	jmp	.LBB65_167
.LBB65_80:
	xorl	%eax, %eax
	jmp	.LBB65_78
.LBB65_68:
	leaq	(%r15,%r14), %rbp
	movq	(%rsp), %r10
	movq	16(%rsp), %r11
	cmpq	$16, %rbx
	jbe	.LBB65_57
.LBB65_69:
	leaq	16(,%rbx,2), %r15
	movq	%r15, %rsi
	shrq	%rsi
	cmpq	%rbx, %rsi
	cmovaeq	%rbx, %rsi
	cmpq	$32, %r15
	jb	.LBB65_70
	movdqu	(%r13), %xmm1
	pmovmskb	%xmm1, %eax
	testl	%eax, %eax
	je	.LBB65_101
.LBB65_70:
	xorl	%r8d, %r8d
.LBB65_119:
	leaq	(%r8,%r8), %r9
	movq	%rbx, %rax
	subq	%r8, %rax
	je	.LBB65_126
	cmpq	$191, %rax
	ja	.LBB65_122
	movq	%r13, %rdi
	movq	%rbx, %rsi
	movq	%rbp, %rdx
	movq	%r15, %rcx
	jmp	.LBB65_124
.LBB65_71:
	movq	%r13, %rdi
	movq	%rbp, %rdx
	callq	"utf16_from_utf8::ascii::write_front::<#418c2b53cf60437c>"
	movq	(%rsp), %r10
	jmp	.LBB65_72
.LBB65_81:
	movdqa	%xmm3, %xmm6
	movdqa	%xmm1, %xmm0
	pblendvb	%xmm0, %xmm2, %xmm6
	movdqa	.LCPI65_1(%rip), %xmm5
	movdqa	.LCPI65_6(%rip), %xmm0
	pmaxub	%xmm4, %xmm0
	movdqa	%xmm6, %xmm7
	psrlw	$2, %xmm7
	movdqa	.LCPI65_12(%rip), %xmm9
	pand	%xmm9, %xmm7
	psllw	$4, %xmm0
	pandn	%xmm0, %xmm9
	por	%xmm7, %xmm9
	movdqa	%xmm6, %xmm0
	pmaxub	%xmm4, %xmm0
	movdqa	%xmm0, %xmm8
	pminub	%xmm5, %xmm8
	pcmpeqb	%xmm0, %xmm8
	pand	.LCPI65_13(%rip), %xmm8
	por	%xmm9, %xmm8
	movdqa	%xmm2, %xmm0
	psllw	$2, %xmm0
	pand	.LCPI65_14(%rip), %xmm0
	movdqa	%xmm1, %xmm7
	psrlw	$4, %xmm7
	pand	.LCPI65_15(%rip), %xmm7
	movdqa	.LCPI65_16(%rip), %xmm9
	pminub	%xmm0, %xmm9
	pcmpeqb	%xmm0, %xmm9
	paddb	%xmm4, %xmm9
	paddb	.LCPI65_17(%rip), %xmm9
	por	%xmm0, %xmm7
	paddb	%xmm3, %xmm7
	movdqa	.LCPI65_3(%rip), %xmm0
	pminub	%xmm4, %xmm0
	pcmpeqb	%xmm4, %xmm0
	pblendvb	%xmm0, %xmm8, %xmm9
	movdqa	.LCPI65_18(%rip), %xmm4
	pand	%xmm1, %xmm4
	psllw	$6, %xmm6
	pand	%xmm3, %xmm6
	paddb	%xmm4, %xmm6
	pblendvb	%xmm0, %xmm6, %xmm7
	movdqa	%xmm7, %xmm0
	punpckhbw	%xmm9, %xmm0
	punpcklbw	%xmm9, %xmm7
	movdqa	.LCPI65_2(%rip), %xmm3
	pminub	%xmm2, %xmm3
	pcmpeqb	%xmm2, %xmm3
	pminub	%xmm1, %xmm5
	pcmpeqb	%xmm1, %xmm5
	pand	%xmm3, %xmm5
	pmovmskb	%xmm5, %eax
	movzbl	%al, %ecx
	popcntl	%ecx, %edi
	shll	$4, %ecx
	leaq	.Lstatic.10(%rip), %rsi
	movdqu	(%rcx,%rsi), %xmm1
	pshufb	%xmm1, %xmm7
	movdqu	%xmm7, (%rbp)
	shrl	$8, %eax
	popcntl	%eax, %r9d
	shll	$4, %eax
	movdqu	(%rax,%rsi), %xmm1
	pshufb	%xmm1, %xmm0
	movdqu	%xmm0, (%rbp,%rdi,2)
	addl	%edi, %r9d
	addl	%r9d, %r9d
	movl	$16, %eax
	jmp	.LBB65_78
.LBB65_84:
	cmpb	$-31, %r9b
	jae	.LBB65_98
	movzbl	1(%r13), %edx
	movl	%r9d, %eax
	shrb	$4, %al
	andb	$12, %al
	movl	%edx, %esi
	shrb	$6, %sil
	orb	%al, %sil
	cmpb	$14, %sil
	jne	.LBB65_193
	leal	62(%r9), %esi
	movl	$2, %eax
	cmpb	$30, %sil
	jb	.LBB65_60
	jmp	.LBB65_115
.LBB65_87:
	leaq	(%rbx,%rbx), %r9
	pxor	%xmm0, %xmm0
	pmovzxbw	%xmm1, %xmm2
	punpckhbw	%xmm0, %xmm1
	movdqu	%xmm2, (%rbp)
	movdqu	%xmm1, 16(%rax)
	jmp	.LBB65_126
.LBB65_89:
	leal	31(%r10), %esi
	movzbl	1(%r13,%rax), %edx
	cmpb	$11, %sil
	ja	.LBB65_104
	cmpb	$-65, %dl
	jg	.LBB65_193
	cmpb	$-64, 2(%r13,%rax)
	jl	.LBB65_61
	jmp	.LBB65_193
.LBB65_92:
	movdqu	(%r13), %xmm1
	pmovmskb	%xmm1, %eax
	testl	%eax, %eax
	je	.LBB65_110
	xorl	%r15d, %r15d
	xorl	%ebx, %ebx
.LBB65_94:
	movq	%rsi, %rax
	subq	%rbx, %rax
	cmpq	$191, %rax
	jbe	.LBB65_96
	leaq	64(%rsp), %rdx
	movl	$276, %ecx
	movq	%r13, %rdi
	movq	%rsi, 48(%rsp)
	movq	48(%rsp), %rsi
	movq	%rbx, %r8
	movq	%r15, %r9
	callq	"utf16_from_utf8::blocks::write_mixed_blocks::<#418c2b53cf60437c>"
	movq	48(%rsp), %rsi
	movq	%rax, %rbx
	movq	%rdx, %r15
	movq	%rsi, %rax
	subq	%rbx, %rax
	cmpq	$191, %rax
	ja	.LBB65_97
.LBB65_96:
	leaq	64(%rsp), %rdx
	movl	$276, %ecx
	movq	%r13, %rdi
	movq	%rbx, %r8
	movq	%r15, %r9
	callq	"utf16_from_utf8::rest::write_rest::<#418c2b53cf60437c>"
	movq	%rax, %rbx
	movq	%rdx, %r15
.LBB65_97:
	movq	40(%rsp), %rdi
	jmp	.LBB65_167
.LBB65_122:
	movq	%r13, %rdi
	movq	%rbx, %rsi
	movq	%rbp, %rdx
	movq	%r15, %rcx
	callq	"utf16_from_utf8::blocks::write_mixed_blocks::<#418c2b53cf60437c>"
	movq	%rdx, %r9
	movq	%rbx, %rcx
	subq	%rax, %rcx
	cmpq	$191, %rcx
	ja	.LBB65_125
	movq	%r13, %rdi
	movq	%rbx, %rsi
	movq	%rbp, %rdx
	movq	%r15, %rcx
	movq	%rax, %r8
.LBB65_124:
	callq	"utf16_from_utf8::rest::write_rest::<#418c2b53cf60437c>"
	movq	%rdx, %r9
.LBB65_125:
	movq	(%rsp), %r10
	movq	16(%rsp), %r11
.LBB65_126:
	movq	24(%rsp), %rsi
	addq	%r9, %r14
.LBB65_127:
	movq	%r14, %r15
.LBB65_128:
	addq	%r11, %rbx
	movq	%r15, %r14
	movq	32(%rsp), %rdx
	movq	8(%rsp), %r15
	addq	%r12, %rbx
	movq	%rdx, %r11
	subq	%rbx, %r11
	je	.LBB65_206
.LBB65_129:
	movzbl	(%rsi,%rbx), %eax
	testb	%al, %al
	js	.LBB65_134
	movl	$1, %r12d
.LBB65_131:
	movq	%r10, %rcx
	subq	%r14, %rcx
	xorl	%edi, %edi
	cmpl	$65536, %eax
	setae	%dil
	leaq	2(,%rdi,2), %rdi
	cmpq	%rdi, %rcx
	jb	.LBB65_207
	cmpl	$65535, %eax
	ja	.LBB65_3
	movl	$2, %ecx
	jmp	.LBB65_4
	.p2align	4
.LBB65_134:
	cmpq	$3, %r11
	jb	.LBB65_139
	leal	31(%rax), %ecx
	cmpb	$11, %cl
	ja	.LBB65_140
	movzbl	1(%rsi,%rbx), %ecx
	cmpb	$-65, %cl
	jg	.LBB65_140
	movzbl	2(%rsi,%rbx), %edi
	cmpb	$-65, %dil
	jg	.LBB65_140
	shll	$12, %eax
	shll	$6, %ecx
	addl	%eax, %ecx
	leal	(%rdi,%rcx), %eax
	addl	$-925824, %eax
	movl	$3, %r12d
	jmp	.LBB65_131
.LBB65_139:
	cmpq	$2, %r11
	jne	.LBB65_219
.LBB65_140:
	movzbl	1(%rsi,%rbx), %r12d
	movl	%eax, %ecx
	shrb	$4, %cl
	andb	$12, %cl
	movl	%r12d, %edi
	shrb	$6, %dil
	orb	%cl, %dil
	movb	$1, %cl
	cmpb	$14, %dil
	jne	.LBB65_230
	leal	31(%rax), %edi
	cmpb	$12, %dil
	jae	.LBB65_146
.LBB65_142:
	cmpq	$2, %r11
	je	.LBB65_217
	movzbl	2(%rsi,%rbx), %edi
	cmpb	$-65, %dil
	jg	.LBB65_218
	cmpb	$-17, %al
	ja	.LBB65_150
	shll	$12, %eax
	shll	$6, %r12d
	addl	%eax, %r12d
	leal	(%rdi,%r12), %eax
	addl	$-925824, %eax
	movl	$3, %r12d
	jmp	.LBB65_131
.LBB65_146:
	leal	62(%rax), %edi
	cmpb	$30, %dil
	jb	.LBB65_161
	movb	$-65, %r8b
	leal	-224(%rax), %r9d
	cmpl	$20, %r9d
	ja	.LBB65_156
	leaq	.LJTI65_3(%rip), %r10
	movslq	(%r10,%r9,4), %r9
	addq	%r10, %r9
	movq	(%rsp), %r10
	notrack jmpq	*%r9
.LBB65_149:
	movb	$-96, %r9b
	jmp	.LBB65_157
.LBB65_150:
	cmpq	$4, %r11
	jb	.LBB65_217
	movzbl	3(%rsi,%rbx), %r8d
	cmpb	$-65, %r8b
	jg	.LBB65_220
	shll	$18, %eax
	shll	$12, %r12d
	addl	%eax, %r12d
	shll	$6, %edi
	addl	%r12d, %edi
	leal	(%r8,%rdi), %eax
	addl	$-63447168, %eax
	movl	$4, %r12d
	jmp	.LBB65_131
.LBB65_153:
	movb	$-112, %r9b
	jmp	.LBB65_157
.LBB65_154:
	movb	$-97, %r8b
	jmp	.LBB65_156
.LBB65_155:
	movb	$-113, %r8b
.LBB65_156:
	movb	$-128, %r9b
.LBB65_157:
	cmpb	$50, %dil
	ja	.LBB65_230
	cmpb	%r12b, %r9b
	ja	.LBB65_230
	cmpb	%r8b, %r12b
	ja	.LBB65_230
	cmpb	$-33, %al
	ja	.LBB65_142
.LBB65_161:
	shll	$6, %eax
	addl	%r12d, %eax
	addl	$-12416, %eax
	movl	$2, %r12d
	jmp	.LBB65_131
.LBB65_98:
	movzbl	1(%r13), %edx
	cmpb	$-20, %r9b
	ja	.LBB65_113
	cmpb	$-65, %dl
	jg	.LBB65_193
	movl	$3, %eax
	cmpb	$-64, 2(%r13)
	jl	.LBB65_60
	jmp	.LBB65_193
.LBB65_101:
	cmpq	$31, %rsi
	ja	.LBB65_118
	pxor	%xmm0, %xmm0
	pmovzxbw	%xmm1, %xmm2
	punpckhbw	%xmm0, %xmm1
	movq	8(%rsp), %rax
	movdqu	%xmm2, (%rax,%r14)
	movdqu	%xmm1, 16(%rax,%r14)
	movdqu	-16(%rsi,%r13), %xmm1
	pmovmskb	%xmm1, %eax
	movl	$16, %r8d
	testl	%eax, %eax
	jne	.LBB65_119
	movq	8(%rsp), %rax
	addq	%r14, %rax
	pmovzxbw	%xmm1, %xmm2
	punpckhbw	%xmm0, %xmm1
	movdqu	%xmm2, -32(%rax,%rsi,2)
	movdqu	%xmm1, -16(%rax,%rsi,2)
	movq	%rsi, %r8
	jmp	.LBB65_119
.LBB65_104:
	movl	%r10d, %esi
	shrb	$4, %sil
	andb	$12, %sil
	movl	%edx, %edi
	shrb	$6, %dil
	orb	%sil, %dil
	cmpb	$14, %dil
	jne	.LBB65_193
	leal	62(%r10), %esi
	cmpb	$30, %sil
	jb	.LBB65_61
	movb	$-65, %dil
	leal	-224(%r10), %r8d
	cmpl	$20, %r8d
	ja	.LBB65_185
	leaq	.LJTI65_2(%rip), %r9
	movslq	(%r9,%r8,4), %r8
	addq	%r9, %r8
	notrack jmpq	*%r8
.LBB65_108:
	movb	$-96, %r8b
	jmp	.LBB65_186
.LBB65_109:
	pxor	%xmm0, %xmm0
	pmovzxbw	%xmm1, %xmm2
	punpckhbw	%xmm0, %xmm1
	movdqa	%xmm2, 64(%rsp)
	movdqa	%xmm1, 80(%rsp)
	movl	$16, %ebx
	movl	$32, %r15d
	jmp	.LBB65_167
.LBB65_110:
	cmpq	$31, %rbp
	ja	.LBB65_162
	pxor	%xmm0, %xmm0
	pmovzxbw	%xmm1, %xmm2
	punpckhbw	%xmm0, %xmm1
	movdqa	%xmm2, 64(%rsp)
	movdqa	%xmm1, 80(%rsp)
	movdqu	-16(%rsi,%r13), %xmm1
	pmovmskb	%xmm1, %eax
	movl	$16, %ebx
	testl	%eax, %eax
	jne	.LBB65_163
	pmovzxbw	%xmm1, %xmm2
	punpckhbw	%xmm0, %xmm1
	movdqu	%xmm2, 32(%rsp,%rsi,2)
	movdqu	%xmm1, 48(%rsp,%rsi,2)
	leaq	(%rsi,%rsi), %r15
	movq	%rsi, %rbx
	jmp	.LBB65_167
.LBB65_113:
	cmpb	$-65, %dl
	jg	.LBB65_193
	leal	62(%r9), %esi
.LBB65_115:
	movb	$-65, %al
	leal	-224(%r9), %edi
	cmpl	$20, %edi
	ja	.LBB65_174
	leaq	.LJTI65_1(%rip), %r8
	movslq	(%r8,%rdi,4), %rdi
	addq	%r8, %rdi
	notrack jmpq	*%rdi
.LBB65_117:
	movb	$-96, %dil
	jmp	.LBB65_175
.LBB65_118:
	movq	%r13, %rdi
	movq	%rbp, %rdx
	callq	"utf16_from_utf8::ascii::write_front::<#418c2b53cf60437c>"
	movq	16(%rsp), %r11
	movq	(%rsp), %r10
	movq	%rax, %r8
	jmp	.LBB65_119
.LBB65_162:
	leaq	64(%rsp), %rdx
	movq	%r13, %rdi
	movq	%rsi, %rbx
	callq	"utf16_from_utf8::ascii::write_front::<#418c2b53cf60437c>"
	movq	%rbx, %rsi
	movq	40(%rsp), %rdi
	movq	%rax, %rbx
.LBB65_163:
	leaq	(%rbx,%rbx), %r15
	cmpq	%rsi, %rbx
	jne	.LBB65_94
	jmp	.LBB65_167
.LBB65_165:
	movdqa	%xmm3, %xmm6
	movdqa	%xmm1, %xmm0
	pblendvb	%xmm0, %xmm2, %xmm6
	movdqa	.LCPI65_1(%rip), %xmm5
	movdqa	.LCPI65_6(%rip), %xmm0
	pmaxub	%xmm4, %xmm0
	movdqa	%xmm6, %xmm7
	psrlw	$2, %xmm7
	movdqa	.LCPI65_12(%rip), %xmm9
	pand	%xmm9, %xmm7
	psllw	$4, %xmm0
	pandn	%xmm0, %xmm9
	por	%xmm7, %xmm9
	movdqa	%xmm6, %xmm0
	pmaxub	%xmm4, %xmm0
	movdqa	%xmm0, %xmm8
	pminub	%xmm5, %xmm8
	pcmpeqb	%xmm0, %xmm8
	pand	.LCPI65_13(%rip), %xmm8
	por	%xmm9, %xmm8
	movdqa	%xmm2, %xmm0
	psllw	$2, %xmm0
	pand	.LCPI65_14(%rip), %xmm0
	movdqa	%xmm1, %xmm7
	psrlw	$4, %xmm7
	pand	.LCPI65_15(%rip), %xmm7
	movdqa	.LCPI65_16(%rip), %xmm9
	pminub	%xmm0, %xmm9
	pcmpeqb	%xmm0, %xmm9
	paddb	%xmm4, %xmm9
	paddb	.LCPI65_17(%rip), %xmm9
	por	%xmm0, %xmm7
	paddb	%xmm3, %xmm7
	movdqa	.LCPI65_3(%rip), %xmm0
	pminub	%xmm4, %xmm0
	pcmpeqb	%xmm4, %xmm0
	pblendvb	%xmm0, %xmm8, %xmm9
	movdqa	.LCPI65_18(%rip), %xmm4
	pand	%xmm1, %xmm4
	psllw	$6, %xmm6
	pand	%xmm3, %xmm6
	paddb	%xmm4, %xmm6
	pblendvb	%xmm0, %xmm6, %xmm7
	movdqa	%xmm7, %xmm0
	punpckhbw	%xmm9, %xmm0
	punpcklbw	%xmm9, %xmm7
	pminub	%xmm1, %xmm5
	pcmpeqb	%xmm1, %xmm5
	movdqa	.LCPI65_2(%rip), %xmm1
	pminub	%xmm2, %xmm1
	pcmpeqb	%xmm2, %xmm1
	pand	%xmm5, %xmm1
	pmovmskb	%xmm1, %eax
	movzbl	%al, %ecx
	popcntl	%ecx, %edx
	shll	$4, %ecx
	leaq	.Lstatic.10(%rip), %rsi
	movdqu	(%rcx,%rsi), %xmm1
	pshufb	%xmm1, %xmm7
	movdqa	%xmm7, 64(%rsp)
	shrl	$8, %eax
	popcntl	%eax, %r15d
	shll	$4, %eax
	movdqu	(%rax,%rsi), %xmm1
	pshufb	%xmm1, %xmm0
	movdqu	%xmm0, 64(%rsp,%rdx,2)
	addl	%edx, %r15d
	addl	%r15d, %r15d
	movl	$16, %ebx
.LBB65_167:
	cmpq	%rdi, %r15
	jbe	.LBB65_169
	movq	%rdi, %rax
	andq	$-2, %rax
	orq	$1, %rdi
	movzbl	64(%rsp,%rdi), %ecx
	andb	$-4, %cl
	leaq	-2(%rax), %r15
	cmpb	$-36, %cl
	cmovneq	%rax, %r15
	leaq	64(%rsp), %rdi
	movq	%r15, %rsi
	callq	"utf16_to_utf8::lens::utf8_len::<#418c2b53cf60437c>"
	movq	%rax, %rbx
.LBB65_169:
	movq	8(%rsp), %rax
	leaq	(%rax,%r14), %rdi
	leaq	64(%rsp), %rsi
	movq	%r15, %rdx
	callq	memcpy@PLT
	addq	%r14, %r15
	testq	%rbx, %rbx
	jne	.LBB65_33
	leaq	64(%rsp), %rdx
	movq	%r13, %rdi
	movq	%rbp, %rsi
	movq	8(%rsp), %rcx
	movq	(%rsp), %r8
	movq	%r15, %r9
	jmp	.LBB65_31
.LBB65_171:
	movb	$-112, %dil
	jmp	.LBB65_175
.LBB65_172:
	movb	$-97, %al
	jmp	.LBB65_174
.LBB65_173:
	movb	$-113, %al
.LBB65_174:
	movb	$-128, %dil
.LBB65_175:
	cmpb	$50, %sil
	ja	.LBB65_193
	cmpb	%dl, %dil
	ja	.LBB65_193
	cmpb	%al, %dl
	ja	.LBB65_193
	movl	$2, %eax
	cmpb	$-32, %r9b
	jb	.LBB65_60
	cmpb	$-65, 2(%r13)
	jg	.LBB65_193
	movl	$3, %eax
	cmpb	$-16, %r9b
	jb	.LBB65_60
	movl	$4, %eax
	cmpb	$-65, 3(%r13)
	jle	.LBB65_60
	jmp	.LBB65_193
.LBB65_182:
	movb	$-112, %r8b
	jmp	.LBB65_186
.LBB65_183:
	movb	$-97, %dil
	jmp	.LBB65_185
.LBB65_184:
	movb	$-113, %dil
.LBB65_185:
	movb	$-128, %r8b
.LBB65_186:
	cmpb	$50, %sil
	ja	.LBB65_193
	cmpb	%dl, %r8b
	ja	.LBB65_193
	cmpb	%dil, %dl
	ja	.LBB65_193
	cmpb	$-32, %r10b
	jb	.LBB65_61
	cmpb	$-65, 2(%r13,%rax)
	jg	.LBB65_193
	cmpb	$-16, %r10b
	jb	.LBB65_61
	cmpb	$-64, 3(%r13,%rax)
	jl	.LBB65_61
.LBB65_193:
	movq	%r13, %rdi
	movq	%rbp, %rsi
	movq	%r15, %rdx
	jmp	.LBB65_17
.LBB65_194:
	movq	%rdx, %rbx
	subq	%r12, %rbx
	cmpq	$3, %rbx
	jb	.LBB65_198
	leal	31(%rcx), %eax
	cmpb	$11, %al
	ja	.LBB65_199
	cmpb	$-65, 1(%rsi,%r12)
	jg	.LBB65_199
	cmpb	$-64, 2(%rsi,%r12)
	jl	.LBB65_1
	jmp	.LBB65_199
.LBB65_198:
	cmpq	$2, %rbx
	jne	.LBB65_204
.LBB65_199:
	movzbl	1(%rsi,%r12), %ebp
	movl	%ecx, %eax
	shrb	$4, %al
	andb	$12, %al
	movl	%ebp, %r8d
	shrb	$6, %r8b
	orb	%al, %r8b
	movb	$1, %al
	cmpb	$14, %r8b
	jne	.LBB65_203
	leal	31(%rcx), %r8d
	cmpb	$12, %r8b
	jae	.LBB65_208
.LBB65_201:
	cmpq	$2, %rbx
	jne	.LBB65_212
.LBB65_202:
	movb	$2, %al
	xorl	%r8d, %r8d
	jmp	.LBB65_205
.LBB65_204:
	addb	$11, %cl
	cmpb	$-51, %cl
	setb	%r8b
	movb	$2, %al
	subb	%r8b, %al
	jmp	.LBB65_205
.LBB65_206:
	movq	%rdx, %r12
	jmp	.LBB65_2
.LBB65_207:
	movb	$3, %cl
	xorl	%eax, %eax
	jmp	.LBB65_231
.LBB65_208:
	leal	62(%rcx), %r11d
	cmpb	$30, %r11b
	jb	.LBB65_1
	movb	$-65, %r8b
	leal	-224(%rcx), %r9d
	cmpl	$20, %r9d
	ja	.LBB65_224
	leaq	.LJTI65_0(%rip), %r10
	movslq	(%r10,%r9,4), %r9
	addq	%r10, %r9
	notrack jmpq	*%r9
.LBB65_211:
	movb	$-96, %r9b
	jmp	.LBB65_225
.LBB65_230:
	movb	$1, %al
	jmp	.LBB65_231
.LBB65_212:
	movb	$2, %r8b
	cmpb	$-65, 2(%rsi,%r12)
	jg	.LBB65_205
	cmpb	$-16, %cl
	jb	.LBB65_1
	cmpq	$4, %rbx
	jb	.LBB65_202
	movb	$3, %r8b
	cmpb	$-65, 3(%rsi,%r12)
	jle	.LBB65_1
	jmp	.LBB65_205
.LBB65_217:
	movb	$2, %cl
	xorl	%eax, %eax
	jmp	.LBB65_231
.LBB65_218:
	movb	$2, %al
	jmp	.LBB65_231
.LBB65_219:
	addb	$11, %al
	cmpb	$-51, %al
	setb	%al
	movb	$2, %cl
	subb	%al, %cl
	jmp	.LBB65_231
.LBB65_220:
	movb	$3, %al
.LBB65_231:
	movq	56(%rsp), %rdx
	movq	%rbx, (%rdx)
	movq	%r14, 8(%rdx)
	movb	%cl, 16(%rdx)
	movb	%al, 17(%rdx)
	jmp	.LBB65_232
.LBB65_221:
	movb	$-112, %r9b
	jmp	.LBB65_225
.LBB65_222:
	movb	$-97, %r8b
	jmp	.LBB65_224
.LBB65_223:
	movb	$-113, %r8b
.LBB65_224:
	movb	$-128, %r9b
.LBB65_225:
	cmpb	$51, %r11b
	setb	%r10b
	cmpb	%bpl, %r9b
	setbe	%r9b
	cmpb	%r8b, %bpl
	setbe	%r8b
	andb	%r9b, %r8b
	andb	%r10b, %r8b
	cmpb	$1, %r8b
	jne	.LBB65_203
	cmpb	$-32, %cl
	movq	(%rsp), %r10
	jb	.LBB65_1
	jmp	.LBB65_201
.LBB65_203:
	movb	$1, %r8b
.LBB65_205:
	movq	%r12, (%rdi)
	movq	%r14, 8(%rdi)
	movb	%al, 16(%rdi)
	movb	%r8b, 17(%rdi)
.LBB65_232:
	addq	$344, %rsp
	.cfi_def_cfa_offset 56
	popq	%rbx
	.cfi_def_cfa_offset 48
	popq	%r12
	.cfi_def_cfa_offset 40
	popq	%r13
	.cfi_def_cfa_offset 32
	popq	%r14
	.cfi_def_cfa_offset 24
	popq	%r15
	.cfi_def_cfa_offset 16
	popq	%rbp
	.cfi_def_cfa_offset 8
	retq
.Lfunc_end65:
	.size	"utf16_transcode::transcoding::transcode_many::<#58ba01604e1c9b81>", .Lfunc_end65-"utf16_transcode::transcoding::transcode_many::<#58ba01604e1c9b81>"
	.cfi_endproc
	.section	".rodata.utf16_transcode::transcoding::transcode_many::<#58ba01604e1c9b81>","a",@progbits
	.p2align	2, 0x0
.LJTI65_0:
	.long	.LBB65_211-.LJTI65_0
	.long	.LBB65_224-.LJTI65_0
	.long	.LBB65_224-.LJTI65_0
	.long	.LBB65_224-.LJTI65_0
	.long	.LBB65_224-.LJTI65_0
	.long	.LBB65_224-.LJTI65_0
	.long	.LBB65_224-.LJTI65_0
	.long	.LBB65_224-.LJTI65_0
	.long	.LBB65_224-.LJTI65_0
	.long	.LBB65_224-.LJTI65_0
	.long	.LBB65_224-.LJTI65_0
	.long	.LBB65_224-.LJTI65_0
	.long	.LBB65_224-.LJTI65_0
	.long	.LBB65_222-.LJTI65_0
	.long	.LBB65_224-.LJTI65_0
	.long	.LBB65_224-.LJTI65_0
	.long	.LBB65_221-.LJTI65_0
	.long	.LBB65_224-.LJTI65_0
	.long	.LBB65_224-.LJTI65_0
	.long	.LBB65_224-.LJTI65_0
	.long	.LBB65_223-.LJTI65_0
.LJTI65_1:
	.long	.LBB65_117-.LJTI65_1
	.long	.LBB65_174-.LJTI65_1
	.long	.LBB65_174-.LJTI65_1
	.long	.LBB65_174-.LJTI65_1
	.long	.LBB65_174-.LJTI65_1
	.long	.LBB65_174-.LJTI65_1
	.long	.LBB65_174-.LJTI65_1
	.long	.LBB65_174-.LJTI65_1
	.long	.LBB65_174-.LJTI65_1
	.long	.LBB65_174-.LJTI65_1
	.long	.LBB65_174-.LJTI65_1
	.long	.LBB65_174-.LJTI65_1
	.long	.LBB65_174-.LJTI65_1
	.long	.LBB65_172-.LJTI65_1
	.long	.LBB65_174-.LJTI65_1
	.long	.LBB65_174-.LJTI65_1
	.long	.LBB65_171-.LJTI65_1
	.long	.LBB65_174-.LJTI65_1
	.long	.LBB65_174-.LJTI65_1
	.long	.LBB65_174-.LJTI65_1
	.long	.LBB65_173-.LJTI65_1
.LJTI65_2:
	.long	.LBB65_108-.LJTI65_2
	.long	.LBB65_185-.LJTI65_2
	.long	.LBB65_185-.LJTI65_2
	.long	.LBB65_185-.LJTI65_2
	.long	.LBB65_185-.LJTI65_2
	.long	.LBB65_185-.LJTI65_2
	.long	.LBB65_185-.LJTI65_2
	.long	.LBB65_185-.LJTI65_2
	.long	.LBB65_185-.LJTI65_2
	.long	.LBB65_185-.LJTI65_2
	.long	.LBB65_185-.LJTI65_2
	.long	.LBB65_185-.LJTI65_2
	.long	.LBB65_185-.LJTI65_2
	.long	.LBB65_183-.LJTI65_2
	.long	.LBB65_185-.LJTI65_2
	.long	.LBB65_185-.LJTI65_2
	.long	.LBB65_182-.LJTI65_2
	.long	.LBB65_185-.LJTI65_2
	.long	.LBB65_185-.LJTI65_2
	.long	.LBB65_185-.LJTI65_2
	.long	.LBB65_184-.LJTI65_2
.LJTI65_3:
	.long	.LBB65_149-.LJTI65_3
	.long	.LBB65_156-.LJTI65_3
	.long	.LBB65_156-.LJTI65_3
	.long	.LBB65_156-.LJTI65_3
	.long	.LBB65_156-.LJTI65_3
	.long	.LBB65_156-.LJTI65_3
	.long	.LBB65_156-.LJTI65_3
	.long	.LBB65_156-.LJTI65_3
	.long	.LBB65_156-.LJTI65_3
	.long	.LBB65_156-.LJTI65_3
	.long	.LBB65_156-.LJTI65_3
	.long	.LBB65_156-.LJTI65_3
	.long	.LBB65_156-.LJTI65_3
	.long	.LBB65_154-.LJTI65_3
	.long	.LBB65_156-.LJTI65_3
	.long	.LBB65_156-.LJTI65_3
	.long	.LBB65_153-.LJTI65_3
	.long	.LBB65_156-.LJTI65_3
	.long	.LBB65_156-.LJTI65_3
	.long	.LBB65_156-.LJTI65_3
	.long	.LBB65_155-.LJTI65_3

	.section	".text.utf16_transcode::transcoding::write_chars::<#58ba01604e1c9b81>","ax",@progbits
	.p2align	4
	.type	"utf16_transcode::transcoding::write_chars::<#58ba01604e1c9b81>",@function
"utf16_transcode::transcoding::write_chars::<#58ba01604e1c9b81>":
	.cfi_startproc
	pushq	%r15
	.cfi_def_cfa_offset 16
	pushq	%r14
	.cfi_def_cfa_offset 24
	pushq	%r13
	.cfi_def_cfa_offset 32
	pushq	%r12
	.cfi_def_cfa_offset 40
	pushq	%rbx
	.cfi_def_cfa_offset 48
	.cfi_offset %rbx, -48
	.cfi_offset %r12, -40
	.cfi_offset %r13, -32
	.cfi_offset %r14, -24
	.cfi_offset %r15, -16
	movq	%r8, %r13
	movq	%rcx, %rbx
	movq	%rdx, %r14
	movq	%rsi, %r15
	movq	%rdi, %r12
	addq	%r8, %rdx
	subq	%r8, %rcx
	callq	"utf16_transcode::encode::FromUtf8Direction::begin::<#418c2b53cf60437c>"
	addq	%r13, %rdx
	jmp	.LBB66_1
	.p2align	4
.LBB66_34:
	leal	67043328(%rcx), %r8d
	shrl	$10, %r8d
	addl	$-10240, %r8d
	andl	$1023, %ecx
	orl	$56320, %ecx
	movw	%cx, 2(%r14,%rdx)
	movl	$4, %edi
	movl	%r8d, %ecx
.LBB66_35:
	movw	%cx, (%r14,%rdx)
	addq	%rdi, %rdx
	addq	%rsi, %rax
.LBB66_1:
	cmpq	%r15, %rax
	jae	.LBB66_36
	movzbl	(%r12,%rax), %ecx
	testb	%cl, %cl
	js	.LBB66_4
	movl	$1, %esi
.LBB66_31:
	movq	%rbx, %rdi
	subq	%rdx, %rdi
	xorl	%r8d, %r8d
	cmpl	$65536, %ecx
	setae	%r8b
	leaq	2(,%r8,2), %r8
	cmpq	%r8, %rdi
	jb	.LBB66_36
	cmpl	$65535, %ecx
	ja	.LBB66_34
	movl	$2, %edi
	jmp	.LBB66_35
	.p2align	4
.LBB66_4:
	movq	%r15, %rdi
	subq	%rax, %rdi
	cmpq	$3, %rdi
	jb	.LBB66_9
	leal	31(%rcx), %esi
	cmpb	$11, %sil
	ja	.LBB66_10
	movzbl	1(%r12,%rax), %esi
	cmpb	$-65, %sil
	jg	.LBB66_10
	movzbl	2(%r12,%rax), %r8d
	cmpb	$-65, %r8b
	jg	.LBB66_10
	jmp	.LBB66_8
.LBB66_9:
	cmpq	$2, %rdi
	jne	.LBB66_36
.LBB66_10:
	movzbl	1(%r12,%rax), %esi
	movl	%ecx, %r8d
	shrb	$4, %r8b
	andb	$12, %r8b
	movl	%esi, %r9d
	shrb	$6, %r9b
	orb	%r8b, %r9b
	cmpb	$14, %r9b
	jne	.LBB66_36
	leal	31(%rcx), %r8d
	cmpb	$12, %r8b
	jae	.LBB66_12
.LBB66_25:
	cmpq	$2, %rdi
	je	.LBB66_36
	movzbl	2(%r12,%rax), %r8d
	cmpb	$-65, %r8b
	jg	.LBB66_36
	cmpb	$-17, %cl
	ja	.LBB66_28
.LBB66_8:
	shll	$12, %ecx
	shll	$6, %esi
	addl	%ecx, %esi
	leal	(%r8,%rsi), %ecx
	addl	$-925824, %ecx
	movl	$3, %esi
	jmp	.LBB66_31
.LBB66_12:
	leal	62(%rcx), %r8d
	cmpb	$30, %r8b
	jb	.LBB66_24
	movb	$-65, %r9b
	leal	-224(%rcx), %r10d
	cmpl	$20, %r10d
	ja	.LBB66_19
	leaq	.LJTI66_0(%rip), %r11
	movslq	(%r11,%r10,4), %r10
	addq	%r11, %r10
	notrack jmpq	*%r10
.LBB66_15:
	movb	$-96, %r10b
	jmp	.LBB66_20
.LBB66_28:
	cmpq	$4, %rdi
	jb	.LBB66_36
	movzbl	3(%r12,%rax), %edi
	cmpb	$-65, %dil
	jg	.LBB66_36
	shll	$18, %ecx
	shll	$12, %esi
	addl	%ecx, %esi
	shll	$6, %r8d
	addl	%esi, %r8d
	leal	(%rdi,%r8), %ecx
	addl	$-63447168, %ecx
	movl	$4, %esi
	jmp	.LBB66_31
.LBB66_17:
	movb	$-112, %r10b
	jmp	.LBB66_20
.LBB66_16:
	movb	$-97, %r9b
	jmp	.LBB66_19
.LBB66_18:
	movb	$-113, %r9b
.LBB66_19:
	movb	$-128, %r10b
.LBB66_20:
	cmpb	$50, %r8b
	ja	.LBB66_36
	cmpb	%sil, %r10b
	ja	.LBB66_36
	cmpb	%r9b, %sil
	ja	.LBB66_36
	cmpb	$-33, %cl
	ja	.LBB66_25
.LBB66_24:
	shll	$6, %ecx
	addl	%esi, %ecx
	addl	$-12416, %ecx
	movl	$2, %esi
	jmp	.LBB66_31
.LBB66_36:
	popq	%rbx
	.cfi_def_cfa_offset 40
	popq	%r12
	.cfi_def_cfa_offset 32
	popq	%r13
	.cfi_def_cfa_offset 24
	popq	%r14
	.cfi_def_cfa_offset 16
	popq	%r15
	.cfi_def_cfa_offset 8
	retq
.Lfunc_end66:
	.size	"utf16_transcode::transcoding::write_chars::<#58ba01604e1c9b81>", .Lfunc_end66-"utf16_transcode::transcoding::write_chars::<#58ba01604e1c9b81>"
	.cfi_endproc
	.section	".rodata.utf16_transcode::transcoding::write_chars::<#58ba01604e1c9b81>","a",@progbits
	.p2align	2, 0x0
.LJTI66_0:
	.long	.LBB66_15-.LJTI66_0
	.long	.LBB66_19-.LJTI66_0
	.long	.LBB66_19-.LJTI66_0
	.long	.LBB66_19-.LJTI66_0
	.long	.LBB66_19-.LJTI66_0
	.long	.LBB66_19-.LJTI66_0
	.long	.LBB66_19-.LJTI66_0
	.long	.LBB66_19-.LJTI66_0
	.long	.LBB66_19-.LJTI66_0
	.long	.LBB66_19-.LJTI66_0
	.long	.LBB66_19-.LJTI66_0
	.long	.LBB66_19-.LJTI66_0
	.long	.LBB66_19-.LJTI66_0
	.long	.LBB66_16-.LJTI66_0
	.long	.LBB66_19-.LJTI66_0
	.long	.LBB66_19-.LJTI66_0
	.long	.LBB66_17-.LJTI66_0
	.long	.LBB66_19-.LJTI66_0
	.long	.LBB66_19-.LJTI66_0
	.long	.LBB66_19-.LJTI66_0
	.long	.LBB66_18-.LJTI66_0

	.section	.rodata.cst16,"aM",@progbits,16
	.p2align	4, 0x0
.LCPI67_0:
	.zero	16,192
.LCPI67_1:
	.zero	16,191
.LCPI67_2:
	.zero	16,224
.LCPI67_3:
	.zero	16,15
.LCPI67_4:
	.zero	16,220
.LCPI67_5:
	.zero	16,252
.LCPI67_6:
	.zero	16,3
.LCPI67_7:
	.zero	16,63
.LCPI67_8:
	.zero	16,232
.LCPI67_9:
	.zero	16,239
.LCPI67_10:
	.zero	16,127
.LCPI67_11:
	.zero	16,223
	.section	".text.utf16_transcode::transcoding::write_buffered_text::<#58ba01604e1c9b81>","ax",@progbits
	.p2align	4
	.type	"utf16_transcode::transcoding::write_buffered_text::<#58ba01604e1c9b81>",@function
"utf16_transcode::transcoding::write_buffered_text::<#58ba01604e1c9b81>":
	.cfi_startproc
	pushq	%rbp
	.cfi_def_cfa_offset 16
	pushq	%r15
	.cfi_def_cfa_offset 24
	pushq	%r14
	.cfi_def_cfa_offset 32
	pushq	%r13
	.cfi_def_cfa_offset 40
	pushq	%r12
	.cfi_def_cfa_offset 48
	pushq	%rbx
	.cfi_def_cfa_offset 56
	subq	$56, %rsp
	.cfi_def_cfa_offset 112
	.cfi_offset %rbx, -56
	.cfi_offset %r12, -48
	.cfi_offset %r13, -40
	.cfi_offset %r14, -32
	.cfi_offset %r15, -24
	.cfi_offset %rbp, -16
	movq	%r9, %rbx
	movq	%r8, %r13
	movq	%rcx, 8(%rsp)
	movq	%rdx, %r14
	movq	%rdi, %r15
	cmpq	$64, %rsi
	movl	$64, %r12d
	cmovbq	%rsi, %r12
	pxor	%xmm0, %xmm0
	jae	.LBB67_3
	movdqa	%xmm0, 32(%rsp)
	movdqa	%xmm0, 16(%rsp)
	leaq	16(%rsp), %rdi
	movq	%r15, %rsi
	movq	%r12, %rdx
	callq	"simdutf8::compat::from_utf8"
	cmpb	$0, 16(%rsp)
	je	.LBB67_21
	movq	24(%rsp), %rax
	jmp	.LBB67_7
.LBB67_3:
	movdqa	%xmm0, 32(%rsp)
	movdqa	%xmm0, 16(%rsp)
	leaq	16(%rsp), %rdi
	movl	$63, %ebp
	movl	$63, %edx
	movq	%r15, %rsi
	callq	"simdutf8::compat::from_utf8"
	cmpb	$0, 16(%rsp)
	movq	24(%rsp), %rax
	cmovneq	%rax, %rbp
	leaq	4(%rbp), %rcx
	cmpq	$64, %rcx
	jb	.LBB67_7
	leaq	(%r15,%rbp), %rsi
	subq	%rbp, %r12
	pxor	%xmm0, %xmm0
	movdqa	%xmm0, 32(%rsp)
	movdqa	%xmm0, 16(%rsp)
	leaq	16(%rsp), %rdi
	movq	%r12, %rdx
	callq	"simdutf8::compat::from_utf8"
	cmpb	$0, 16(%rsp)
	je	.LBB67_6
	movq	24(%rsp), %r12
.LBB67_6:
	addq	%rbp, %r12
	movq	%r12, %rax
.LBB67_7:
	cmpq	$7, %rax
	ja	.LBB67_20
	testq	%rax, %rax
	je	.LBB67_29
	xorl	%ebp, %ebp
	movq	%rax, %rcx
	jmp	.LBB67_10
.LBB67_20:
	movq	%rax, %r12
.LBB67_21:
	cmpq	$16, %r12
	ja	.LBB67_24
	movq	-8(%r15,%r12), %xmm0
	movq	(%r15), %xmm1
	punpcklqdq	%xmm0, %xmm1
	movq	%r12, %rax
	shlq	$4, %rax
	leaq	.Lstatic.1(%rip), %rcx
	movdqu	-128(%rax,%rcx), %xmm0
	pshufb	%xmm0, %xmm1
	pmovmskb	%xmm1, %eax
	testl	%eax, %eax
	je	.LBB67_33
	leaq	.Lstatic.2(%rip), %rax
	subq	%r12, %rax
	movdqu	16(%rax), %xmm0
	pmaxub	%xmm0, %xmm1
	movdqa	%xmm1, %xmm6
	pslldq	$1, %xmm6
	movdqa	%xmm1, %xmm5
	pslldq	$2, %xmm5
	movdqa	.LCPI67_0(%rip), %xmm4
	movdqa	%xmm4, %xmm3
	movdqa	%xmm1, %xmm0
	pblendvb	%xmm0, %xmm6, %xmm3
	movdqa	.LCPI67_1(%rip), %xmm2
	movdqa	.LCPI67_2(%rip), %xmm0
	pmaxub	%xmm5, %xmm0
	movdqa	%xmm3, %xmm7
	psrlw	$2, %xmm7
	movdqa	.LCPI67_3(%rip), %xmm8
	pand	%xmm8, %xmm7
	psllw	$4, %xmm0
	pandn	%xmm0, %xmm8
	por	%xmm7, %xmm8
	movdqa	%xmm3, %xmm0
	pmaxub	%xmm5, %xmm0
	movdqa	%xmm0, %xmm7
	pminub	%xmm2, %xmm7
	pcmpeqb	%xmm0, %xmm7
	pand	.LCPI67_4(%rip), %xmm7
	por	%xmm8, %xmm7
	movdqa	.LCPI67_11(%rip), %xmm8
	pminub	%xmm6, %xmm8
	pcmpeqb	%xmm6, %xmm8
	movdqa	%xmm6, %xmm0
	psllw	$2, %xmm0
	pand	.LCPI67_5(%rip), %xmm0
	movdqa	%xmm1, %xmm6
	psrlw	$4, %xmm6
	pand	.LCPI67_6(%rip), %xmm6
	movdqa	.LCPI67_7(%rip), %xmm9
	pminub	%xmm0, %xmm9
	pcmpeqb	%xmm0, %xmm9
	paddb	%xmm5, %xmm9
	paddb	.LCPI67_8(%rip), %xmm9
	por	%xmm0, %xmm6
	paddb	%xmm4, %xmm6
	movdqa	.LCPI67_9(%rip), %xmm0
	pminub	%xmm5, %xmm0
	pcmpeqb	%xmm5, %xmm0
	pblendvb	%xmm0, %xmm7, %xmm9
	movdqa	.LCPI67_10(%rip), %xmm5
	pand	%xmm1, %xmm5
	psllw	$6, %xmm3
	pand	%xmm4, %xmm3
	paddb	%xmm5, %xmm3
	pblendvb	%xmm0, %xmm3, %xmm6
	movdqa	%xmm6, %xmm0
	punpckhbw	%xmm9, %xmm0
	punpcklbw	%xmm9, %xmm6
	pminub	%xmm1, %xmm2
	pcmpeqb	%xmm1, %xmm2
	pand	%xmm2, %xmm8
	pmovmskb	%xmm8, %eax
	movzbl	%al, %ecx
	popcntl	%ecx, %edx
	shll	$4, %ecx
	leaq	.Lstatic.10(%rip), %rsi
	movdqu	(%rcx,%rsi), %xmm1
	pshufb	%xmm1, %xmm6
	movdqu	%xmm6, (%r14)
	shrl	$8, %eax
	popcntl	%eax, %ebp
	shll	$4, %eax
	movdqu	(%rax,%rsi), %xmm1
	pshufb	%xmm1, %xmm0
	movdqu	%xmm0, (%r14,%rdx,2)
	addl	%edx, %ebp
	addl	%ebp, %ebp
	jmp	.LBB67_34
.LBB67_18:
	addl	$67043328, %edx
	shrl	$10, %edx
	addl	$-10240, %edx
	movw	%dx, (%r8)
	orl	$56320, %edi
	movw	%di, 2(%r8)
	movl	$4, %edx
	addq	%rdx, %rbp
	testq	%rcx, %rcx
	je	.LBB67_19
	.p2align	4
.LBB67_10:
	movzbl	(%r15), %edx
	movl	$1, %edi
	testb	%dl, %dl
	jns	.LBB67_15
	movzbl	1(%r15), %esi
	andl	$63, %esi
	cmpb	$-33, %dl
	ja	.LBB67_13
	andl	$31, %edx
	shll	$6, %edx
	orl	%esi, %edx
	movl	$2, %edi
	jmp	.LBB67_15
.LBB67_13:
	movzbl	2(%r15), %edi
	andl	$63, %edi
	cmpb	$-17, %dl
	ja	.LBB67_17
	shll	$12, %edx
	movzwl	%dx, %edx
	shll	$6, %esi
	orl	%edx, %esi
	orl	%edi, %esi
	movl	$3, %edi
	movl	%esi, %edx
	.p2align	4
.LBB67_15:
	addq	%rdi, %r15
	subq	%rdi, %rcx
	leaq	(%r14,%rbp), %r8
.LBB67_16:
	movw	%dx, (%r8)
	movl	$2, %edx
	addq	%rdx, %rbp
	testq	%rcx, %rcx
	jne	.LBB67_10
	jmp	.LBB67_19
.LBB67_17:
	movzbl	3(%r15), %r8d
	andl	$63, %r8d
	andl	$7, %edx
	shll	$18, %edx
	shll	$12, %esi
	orl	%edx, %esi
	shll	$6, %edi
	orl	%r8d, %edi
	leal	(%rdi,%rsi), %edx
	addq	$4, %r15
	addq	$-4, %rcx
	leaq	(%r14,%rbp), %r8
	cmpl	$65535, %esi
	jbe	.LBB67_16
	jmp	.LBB67_18
.LBB67_24:
	leaq	16(,%r12,2), %rcx
	movq	%rcx, %rsi
	shrq	%rsi
	cmpq	%r12, %rsi
	cmovaeq	%r12, %rsi
	cmpq	$32, %rcx
	jb	.LBB67_26
	movdqu	(%r15), %xmm1
	pmovmskb	%xmm1, %eax
	testl	%eax, %eax
	je	.LBB67_44
.LBB67_26:
	xorl	%ebp, %ebp
	xorl	%r8d, %r8d
.LBB67_27:
	movq	%r12, %rax
	subq	%r8, %rax
	cmpq	$191, %rax
	ja	.LBB67_30
	movq	%r15, %rdi
	movq	%r12, %rsi
	movq	%r14, %rdx
	movq	%rbp, %r9
	callq	"utf16_from_utf8::rest::write_rest::<#418c2b53cf60437c>"
	movq	%rdx, %rbp
	jmp	.LBB67_34
.LBB67_19:
	movq	%rax, %r12
	jmp	.LBB67_34
.LBB67_29:
	movq	8(%rsp), %rdi
	addq	%rbx, %rdi
	xorl	%ebp, %ebp
	xorl	%r12d, %r12d
	jmp	.LBB67_39
.LBB67_30:
	movq	%rbx, 48(%rsp)
	movq	%r15, %rdi
	movq	%r12, %rsi
	movq	%r14, %rdx
	movq	%rcx, %rbx
	movq	%rbp, %r9
	callq	"utf16_from_utf8::blocks::write_mixed_blocks::<#418c2b53cf60437c>"
	movq	%rdx, %rbp
	movq	%r12, %rcx
	subq	%rax, %rcx
	cmpq	$191, %rcx
	ja	.LBB67_32
	movq	%r15, %rdi
	movq	%r12, %rsi
	movq	%r14, %rdx
	movq	%rbx, %rcx
	movq	%rax, %r8
	movq	%rbp, %r9
	callq	"utf16_from_utf8::rest::write_rest::<#418c2b53cf60437c>"
	movq	%rdx, %rbp
.LBB67_32:
	movq	48(%rsp), %rbx
	jmp	.LBB67_34
.LBB67_33:
	leaq	(%r12,%r12), %rbp
	pxor	%xmm0, %xmm0
	pmovzxbw	%xmm1, %xmm2
	punpckhbw	%xmm0, %xmm1
	movdqu	%xmm2, (%r14)
	movdqu	%xmm1, 16(%r14)
.LBB67_34:
	movq	8(%rsp), %r15
	subq	%rbx, %r13
	cmpq	%r13, %rbp
	jbe	.LBB67_36
	movq	%r13, %rax
	andq	$-2, %rax
	orq	$1, %r13
	movzbl	(%r14,%r13), %ecx
	andb	$-4, %cl
	leaq	-2(%rax), %rbp
	cmpb	$-36, %cl
	cmovneq	%rax, %rbp
	movq	%r14, %rdi
	movq	%rbp, %rsi
	callq	"utf16_to_utf8::lens::utf8_len::<#418c2b53cf60437c>"
	movq	%rax, %r12
.LBB67_36:
	leaq	(%r15,%rbx), %rdi
	movq	%rdi, %rax
	subq	%r14, %rax
	cmpq	%rbp, %rax
	jae	.LBB67_39
	cmpq	$4, %rbp
	jb	.LBB67_38
	leaq	(%r15,%rbx), %rax
	subq	%r14, %rax
	cmpq	$32, %rax
	jae	.LBB67_42
.LBB67_38:
	xorl	%eax, %eax
.LBB67_54:
	movq	%rbp, %rdx
	movq	%rax, %rcx
	andq	$3, %rdx
	je	.LBB67_57
	movq	%rax, %rcx
	.p2align	4
.LBB67_56:
	movzbl	(%r14,%rcx), %esi
	movb	%sil, (%rdi,%rcx)
	incq	%rcx
	decq	%rdx
	jne	.LBB67_56
.LBB67_57:
	subq	%rbp, %rax
	cmpq	$-4, %rax
	ja	.LBB67_60
	leaq	(%rbx,%r15), %rax
	addq	$3, %rax
	.p2align	4
.LBB67_59:
	movzbl	(%r14,%rcx), %edx
	movb	%dl, -3(%rax,%rcx)
	movzbl	1(%r14,%rcx), %edx
	movb	%dl, -2(%rax,%rcx)
	movzbl	2(%r14,%rcx), %edx
	movb	%dl, -1(%rax,%rcx)
	movzbl	3(%r14,%rcx), %edx
	movb	%dl, (%rax,%rcx)
	addq	$4, %rcx
	cmpq	%rcx, %rbp
	jne	.LBB67_59
	jmp	.LBB67_60
.LBB67_39:
	movq	%r14, %rsi
	movq	%rbp, %rdx
	callq	memmove@PLT
.LBB67_60:
	addq	%rbx, %rbp
	movq	%r12, %rax
	movq	%rbp, %rdx
	addq	$56, %rsp
	.cfi_def_cfa_offset 56
	popq	%rbx
	.cfi_def_cfa_offset 48
	popq	%r12
	.cfi_def_cfa_offset 40
	popq	%r13
	.cfi_def_cfa_offset 32
	popq	%r14
	.cfi_def_cfa_offset 24
	popq	%r15
	.cfi_def_cfa_offset 16
	popq	%rbp
	.cfi_def_cfa_offset 8
	retq
.LBB67_42:
	.cfi_def_cfa_offset 112
	cmpq	$32, %rbp
	jae	.LBB67_47
	xorl	%eax, %eax
	jmp	.LBB67_51
.LBB67_44:
	cmpq	$31, %rsi
	ja	.LBB67_61
	pxor	%xmm0, %xmm0
	pmovzxbw	%xmm1, %xmm2
	punpckhbw	%xmm0, %xmm1
	movdqu	%xmm2, (%r14)
	movdqu	%xmm1, 16(%r14)
	movdqu	-16(%rsi,%r15), %xmm1
	pmovmskb	%xmm1, %eax
	movl	$16, %r8d
	testl	%eax, %eax
	je	.LBB67_62
	leaq	(%r8,%r8), %rbp
	cmpq	%r12, %r8
	jne	.LBB67_27
	jmp	.LBB67_34
.LBB67_47:
	movq	%rbp, %rax
	andq	$-32, %rax
	leaq	(%rbx,%r15), %rcx
	addq	$16, %rcx
	xorl	%edx, %edx
	.p2align	4
.LBB67_48:
	movdqu	(%r14,%rdx), %xmm0
	movdqu	16(%r14,%rdx), %xmm1
	movdqu	%xmm0, -16(%rcx,%rdx)
	movdqu	%xmm1, (%rcx,%rdx)
	addq	$32, %rdx
	cmpq	%rdx, %rax
	jne	.LBB67_48
	cmpq	%rax, %rbp
	je	.LBB67_60
	testb	$28, %bpl
	je	.LBB67_54
.LBB67_51:
	movq	%rax, %rcx
	movq	%rbp, %rax
	andq	$-4, %rax
	.p2align	4
.LBB67_52:
	movl	(%r14,%rcx), %edx
	movl	%edx, (%rdi,%rcx)
	addq	$4, %rcx
	cmpq	%rcx, %rax
	jne	.LBB67_52
	cmpq	%rax, %rbp
	je	.LBB67_60
	jmp	.LBB67_54
.LBB67_61:
	movq	%r15, %rdi
	movq	%r14, %rdx
	movq	%rbx, %rbp
	movq	%rcx, %rbx
	callq	"utf16_from_utf8::ascii::write_front::<#418c2b53cf60437c>"
	movq	%rbx, %rcx
	movq	%rbp, %rbx
	movq	%rax, %r8
	leaq	(%r8,%r8), %rbp
	cmpq	%r12, %r8
	jne	.LBB67_27
	jmp	.LBB67_34
.LBB67_62:
	pmovzxbw	%xmm1, %xmm2
	punpckhbw	%xmm0, %xmm1
	movdqu	%xmm2, -32(%r14,%rsi,2)
	movdqu	%xmm1, -16(%r14,%rsi,2)
	movq	%rsi, %r8
	leaq	(%r8,%r8), %rbp
	cmpq	%r12, %r8
	jne	.LBB67_27
	jmp	.LBB67_34
.Lfunc_end67:
	.size	"utf16_transcode::transcoding::write_buffered_text::<#58ba01604e1c9b81>", .Lfunc_end67-"utf16_transcode::transcoding::write_buffered_text::<#58ba01604e1c9b81>"
	.cfi_endproc

	.section	".text.utf16_transcode::encode_lossy::write_replacement_and_more::<#418c2b53cf60437c>","ax",@progbits
	.p2align	4
	.type	"utf16_transcode::encode_lossy::write_replacement_and_more::<#418c2b53cf60437c>",@function
"utf16_transcode::encode_lossy::write_replacement_and_more::<#418c2b53cf60437c>":
	.cfi_startproc
	pushq	%rbp
	.cfi_def_cfa_offset 16
	pushq	%r15
	.cfi_def_cfa_offset 24
	pushq	%r14
	.cfi_def_cfa_offset 32
	pushq	%r13
	.cfi_def_cfa_offset 40
	pushq	%r12
	.cfi_def_cfa_offset 48
	pushq	%rbx
	.cfi_def_cfa_offset 56
	subq	$40, %rsp
	.cfi_def_cfa_offset 96
	.cfi_offset %rbx, -56
	.cfi_offset %r12, -48
	.cfi_offset %r13, -40
	.cfi_offset %r14, -32
	.cfi_offset %r15, -24
	.cfi_offset %rbp, -16
	movq	%r8, %r13
	movq	%rsi, %r12
	movw	$-3, (%rcx)
	addq	%rdx, %rdi
	movq	%rdx, 24(%rsp)
	subq	%rdx, %r12
	addq	$2, %rcx
	addq	$-2, %r13
	movq	%rdi, (%rsp)
	movq	%r12, %rsi
	movq	%rcx, 16(%rsp)
	movq	%rcx, %rdx
	movq	%r13, %rcx
	callq	"utf16_transcode::items::write_items::<#418c2b53cf60437c>"
	movq	%rax, %r14
	movq	%rdx, %r15
	movq	%r12, 8(%rsp)
	subq	%rax, %r12
	cmpq	$64, %r12
	jb	.LBB68_13
	movq	%r13, 32(%rsp)
	.p2align	4
.LBB68_2:
	subq	%r15, %r13
	cmpq	$128, %r13
	jb	.LBB68_13
	movq	(%rsp), %rcx
	leaq	(%rcx,%r14), %rdi
	movq	16(%rsp), %rax
	leaq	(%rax,%r15), %rdx
	movdqu	(%rcx,%r14), %xmm0
	pmovmskb	%xmm0, %eax
	testl	%eax, %eax
	je	.LBB68_5
	xorl	%ebx, %ebx
	jmp	.LBB68_6
	.p2align	4
.LBB68_5:
	movq	%r13, %rsi
	shrq	%rsi
	cmpq	%r12, %rsi
	cmovaeq	%r12, %rsi
	movq	%rdi, %rbp
	movq	%rdx, %rbx
	callq	"utf16_from_utf8::ascii::write_front::<#418c2b53cf60437c>"
	movq	%rbp, %rdi
	movq	%rbx, %rdx
	movq	%rax, %rbx
.LBB68_6:
	leaq	(%rbx,%rbx), %rbp
	movq	%r12, %rax
	subq	%rbx, %rax
	cmpq	$64, %rax
	jb	.LBB68_9
	movq	%r13, %rax
	subq	%rbp, %rax
	cmpq	$128, %rax
	jb	.LBB68_9
	movq	%r12, %rsi
	movq	%r13, %rcx
	movq	%rbx, %r8
	movq	%rbp, %r9
	callq	"utf16_from_utf8::blocks::write_mixed_blocks::<#418c2b53cf60437c>"
	movq	%rax, %rbx
	movq	%rdx, %rbp
.LBB68_9:
	addq	%r14, %rbx
	addq	%r15, %rbp
	movq	8(%rsp), %rsi
	subq	%rbx, %rsi
	cmpq	$4, %rsi
	movq	32(%rsp), %r13
	jb	.LBB68_10
	movq	%r13, %rcx
	subq	%rbp, %rcx
	cmpq	$4, %rcx
	jb	.LBB68_10
	movq	(%rsp), %rax
	leaq	(%rax,%rbx), %rdi
	movq	16(%rsp), %rax
	leaq	(%rax,%rbp), %rdx
	callq	"utf16_transcode::items::write_items::<#418c2b53cf60437c>"
	movq	%rax, %r14
	movq	%rdx, %r15
	addq	%rbx, %r14
	addq	%rbp, %r15
	movq	8(%rsp), %r12
	subq	%r14, %r12
	cmpq	$63, %r12
	ja	.LBB68_2
	jmp	.LBB68_13
.LBB68_10:
	movq	%rbp, %r15
	movq	%rbx, %r14
.LBB68_13:
	addq	24(%rsp), %r14
	addq	$2, %r15
	movq	%r14, %rax
	movq	%r15, %rdx
	addq	$40, %rsp
	.cfi_def_cfa_offset 56
	popq	%rbx
	.cfi_def_cfa_offset 48
	popq	%r12
	.cfi_def_cfa_offset 40
	popq	%r13
	.cfi_def_cfa_offset 32
	popq	%r14
	.cfi_def_cfa_offset 24
	popq	%r15
	.cfi_def_cfa_offset 16
	popq	%rbp
	.cfi_def_cfa_offset 8
	retq
.Lfunc_end68:
	.size	"utf16_transcode::encode_lossy::write_replacement_and_more::<#418c2b53cf60437c>", .Lfunc_end68-"utf16_transcode::encode_lossy::write_replacement_and_more::<#418c2b53cf60437c>"
	.cfi_endproc

	.section	.rodata.cst16,"aM",@progbits,16
	.p2align	4, 0x0
.LCPI69_0:
	.zero	16,127
	.section	".text.utf16_transcode::items::write_items::<#418c2b53cf60437c>","ax",@progbits
	.p2align	4
	.type	"utf16_transcode::items::write_items::<#418c2b53cf60437c>",@function
"utf16_transcode::items::write_items::<#418c2b53cf60437c>":
	.cfi_startproc
	pushq	%rbp
	.cfi_def_cfa_offset 16
	pushq	%r15
	.cfi_def_cfa_offset 24
	pushq	%r14
	.cfi_def_cfa_offset 32
	pushq	%r12
	.cfi_def_cfa_offset 40
	pushq	%rbx
	.cfi_def_cfa_offset 48
	.cfi_offset %rbx, -48
	.cfi_offset %r12, -40
	.cfi_offset %r14, -32
	.cfi_offset %r15, -24
	.cfi_offset %rbp, -16
	movq	%rdx, %r8
	xorl	%eax, %eax
	xorl	%edx, %edx
	xorl	%r9d, %r9d
	.p2align	4
.LBB69_4:
	movq	%rsi, %r10
	subq	%rax, %r10
	cmpq	$4, %r10
	jb	.LBB69_41
	movq	%rcx, %r11
	subq	%rdx, %r11
	cmpq	$4, %r11
	jb	.LBB69_41
	cmpq	$32, %r11
	jb	.LBB69_10
	cmpq	$15, %r10
	jbe	.LBB69_10
	movdqu	(%rdi,%rax), %xmm0
	pmovmskb	%xmm0, %r10d
	orl	$65536, %r10d
	rep		bsfl	%r10d, %r10d
	cmpw	$4, %r10w
	jae	.LBB69_15
	movd	%xmm0, %r10d
	testb	%r10b, %r10b
	jns	.LBB69_1
.LBB69_11:
	cmpb	$-31, %r10b
	jae	.LBB69_17
	movzbl	1(%rdi,%rax), %r11d
	movl	%r10d, %ebx
	shrb	$4, %bl
	andb	$12, %bl
	movl	%r11d, %ebp
	shrb	$6, %bpl
	orb	%bl, %bpl
	cmpb	$14, %bpl
	jne	.LBB69_26
	leal	62(%r10), %ebp
	cmpb	$30, %bpl
	jae	.LBB69_23
.LBB69_14:
	movzbl	%r10b, %r10d
	shll	$6, %r10d
	movzbl	%r11b, %r11d
	leal	(%r10,%r11), %r14d
	addl	$-12416, %r14d
	movl	$2, %ebx
	jmp	.LBB69_3
	.p2align	4
.LBB69_10:
	movzbl	(%rdi,%rax), %r10d
	testb	%r10b, %r10b
	js	.LBB69_11
.LBB69_1:
	movzbl	%r10b, %r14d
	jmp	.LBB69_2
	.p2align	4
.LBB69_15:
	movzwl	%r10w, %ebx
	pand	.LCPI69_0(%rip), %xmm0
	pxor	%xmm1, %xmm1
	pmovzxbw	%xmm0, %xmm2
	punpckhbw	%xmm1, %xmm0
	movdqu	%xmm2, (%r8,%rdx)
	movdqu	%xmm0, 16(%r8,%rdx)
	movl	%ebx, %r11d
	addl	%r11d, %r11d
	movl	$2, %r10d
.LBB69_16:
	addq	%r11, %rdx
	addq	%r9, %r10
	addq	%rbx, %rax
	movq	%r10, %r9
	cmpq	$16, %r10
	jb	.LBB69_4
	jmp	.LBB69_41
.LBB69_17:
	movzbl	1(%rdi,%rax), %r11d
	cmpb	$-20, %r10b
	ja	.LBB69_21
	cmpb	$-65, %r11b
	jg	.LBB69_26
	movzbl	2(%rdi,%rax), %ebx
	cmpb	$-65, %bl
	jg	.LBB69_34
	movzbl	%r11b, %r11d
	movzbl	%r10b, %r10d
	shll	$12, %r10d
	shll	$6, %r11d
	addl	%r10d, %r11d
	leal	(%rbx,%r11), %r14d
	addl	$-925824, %r14d
	jmp	.LBB69_37
.LBB69_21:
	cmpb	$-65, %r11b
	jg	.LBB69_26
	leal	62(%r10), %ebp
.LBB69_23:
	movzbl	%r10b, %ebx
	movb	$-65, %r15b
	addl	$-224, %ebx
	cmpl	$20, %ebx
	ja	.LBB69_30
	leaq	.LJTI69_0(%rip), %r14
	movslq	(%r14,%rbx,4), %rbx
	addq	%r14, %rbx
	notrack jmpq	*%rbx
.LBB69_25:
	movb	$-96, %r12b
	jmp	.LBB69_31
.LBB69_26:
	movl	$65533, %r14d
.LBB69_2:
	movl	$1, %ebx
.LBB69_3:
	movw	%r14w, (%r8,%rdx)
	addq	$2, %rdx
	incq	%r9
	xorl	%r10d, %r10d
	cmpl	$65533, %r14d
	cmovneq	%r9, %r10
	addq	%rbx, %rax
	movq	%r10, %r9
	cmpq	$16, %r10
	jb	.LBB69_4
	jmp	.LBB69_41
.LBB69_27:
	movb	$-112, %r12b
	jmp	.LBB69_31
.LBB69_28:
	movb	$-97, %r15b
	jmp	.LBB69_30
.LBB69_29:
	movb	$-113, %r15b
.LBB69_30:
	movb	$-128, %r12b
.LBB69_31:
	movl	$65533, %r14d
	movl	$1, %ebx
	cmpb	$50, %bpl
	ja	.LBB69_3
	cmpb	%r11b, %r12b
	setbe	%bpl
	cmpb	%r15b, %r11b
	setbe	%r15b
	andb	%bpl, %r15b
	cmpb	$1, %r15b
	jne	.LBB69_3
	cmpb	$-33, %r10b
	jbe	.LBB69_14
.LBB69_34:
	movzbl	2(%rdi,%rax), %r15d
	movl	$65533, %r14d
	movl	$2, %ebx
	cmpb	$-65, %r15b
	jg	.LBB69_3
	cmpb	$-17, %r10b
	ja	.LBB69_38
	movzbl	%r10b, %r10d
	shll	$12, %r10d
	movzbl	%r11b, %r11d
	shll	$6, %r11d
	addl	%r10d, %r11d
	leal	(%r15,%r11), %r14d
	addl	$-925824, %r14d
.LBB69_37:
	movl	$3, %ebx
	jmp	.LBB69_3
.LBB69_38:
	movzbl	3(%rdi,%rax), %r12d
	movl	$3, %ebx
	cmpb	$-65, %r12b
	jg	.LBB69_3
	movzbl	%r10b, %r10d
	shll	$18, %r10d
	movzbl	%r11b, %r11d
	shll	$12, %r11d
	addl	%r10d, %r11d
	shll	$6, %r15d
	addl	%r11d, %r15d
	leal	(%r12,%r15), %r14d
	addl	$-63447168, %r14d
	movl	$4, %ebx
	cmpl	$65536, %r14d
	jb	.LBB69_3
	leal	67043328(%r14), %r10d
	shrl	$10, %r10d
	addl	$-10240, %r10d
	movw	%r10w, (%r8,%rdx)
	andl	$1023, %r14d
	orl	$56320, %r14d
	movw	%r14w, 2(%r8,%rdx)
	movl	$1, %r10d
	movl	$4, %r11d
	jmp	.LBB69_16
.LBB69_41:
	popq	%rbx
	.cfi_def_cfa_offset 40
	popq	%r12
	.cfi_def_cfa_offset 32
	popq	%r14
	.cfi_def_cfa_offset 24
	popq	%r15
	.cfi_def_cfa_offset 16
	popq	%rbp
	.cfi_def_cfa_offset 8
	retq
.Lfunc_end69:
	.size	"utf16_transcode::items::write_items::<#418c2b53cf60437c>", .Lfunc_end69-"utf16_transcode::items::write_items::<#418c2b53cf60437c>"
	.cfi_endproc
	.section	".rodata.utf16_transcode::items::write_items::<#418c2b53cf60437c>","a",@progbits
	.p2align	2, 0x0
.LJTI69_0:
	.long	.LBB69_25-.LJTI69_0
	.long	.LBB69_30-.LJTI69_0
	.long	.LBB69_30-.LJTI69_0
	.long	.LBB69_30-.LJTI69_0
	.long	.LBB69_30-.LJTI69_0
	.long	.LBB69_30-.LJTI69_0
	.long	.LBB69_30-.LJTI69_0
	.long	.LBB69_30-.LJTI69_0
	.long	.LBB69_30-.LJTI69_0
	.long	.LBB69_30-.LJTI69_0
	.long	.LBB69_30-.LJTI69_0
	.long	.LBB69_30-.LJTI69_0
	.long	.LBB69_30-.LJTI69_0
	.long	.LBB69_28-.LJTI69_0
	.long	.LBB69_30-.LJTI69_0
	.long	.LBB69_30-.LJTI69_0
	.long	.LBB69_27-.LJTI69_0
	.long	.LBB69_30-.LJTI69_0
	.long	.LBB69_30-.LJTI69_0
	.long	.LBB69_30-.LJTI69_0
	.long	.LBB69_29-.LJTI69_0

	.section	.rodata.cst16,"aM",@progbits,16
	.p2align	4, 0x0
.LCPI70_0:
	.long	65535
	.long	65535
	.long	65535
	.long	65535
.LCPI70_1:
	.short	10240
	.short	10240
	.short	10240
	.short	10240
	.short	10240
	.short	10240
	.short	10240
	.short	10240
.LCPI70_2:
	.short	2047
	.short	2047
	.short	2047
	.short	2047
	.short	2047
	.short	2047
	.short	2047
	.short	2047
.LCPI70_3:
	.byte	1
	.byte	0
	.byte	3
	.byte	2
	.byte	5
	.byte	4
	.byte	7
	.byte	6
	.byte	9
	.byte	8
	.byte	11
	.byte	10
	.byte	13
	.byte	12
	.byte	15
	.byte	14
.LCPI70_4:
	.long	65536
	.long	65536
	.long	65536
	.long	65536
.LCPI70_5:
	.byte	248
	.byte	248
	.byte	248
	.byte	248
	.byte	248
	.byte	248
	.byte	248
	.byte	248
	.zero	1
	.zero	1
	.zero	1
	.zero	1
	.zero	1
	.zero	1
	.zero	1
	.zero	1
.LCPI70_6:
	.byte	216
	.byte	216
	.byte	216
	.byte	216
	.byte	216
	.byte	216
	.byte	216
	.byte	216
	.zero	1
	.zero	1
	.zero	1
	.zero	1
	.zero	1
	.zero	1
	.zero	1
	.zero	1
.LCPI70_7:
	.long	1114112
	.long	1114112
	.long	1114112
	.long	1114112
.LCPI70_8:
	.long	4294965248
	.long	4294965248
	.long	4294965248
	.long	4294965248
.LCPI70_9:
	.long	55296
	.long	55296
	.long	55296
	.long	55296
.LCPI70_10:
	.long	4294901760
	.long	4294901760
	.long	4294901760
	.long	4294901760
.LCPI70_11:
	.long	67043328
	.long	67043328
	.long	67043328
	.long	67043328
.LCPI70_12:
	.long	3691042816
	.long	3691042816
	.long	3691042816
	.long	3691042816
.LCPI70_13:
	.long	65537
	.long	65537
	.long	65537
	.long	65537
.LCPI70_14:
	.long	1
	.long	1
	.long	1
	.long	1
	.section	".text.utf16_fixed::encode::from_utf32::<#8b18edd9dd9aa8df>","ax",@progbits
	.p2align	4
	.type	"utf16_fixed::encode::from_utf32::<#8b18edd9dd9aa8df>",@function
"utf16_fixed::encode::from_utf32::<#8b18edd9dd9aa8df>":
	.cfi_startproc
	pushq	%rbp
	.cfi_def_cfa_offset 16
	pushq	%r15
	.cfi_def_cfa_offset 24
	pushq	%r14
	.cfi_def_cfa_offset 32
	pushq	%r13
	.cfi_def_cfa_offset 40
	pushq	%r12
	.cfi_def_cfa_offset 48
	pushq	%rbx
	.cfi_def_cfa_offset 56
	.cfi_offset %rbx, -56
	.cfi_offset %r12, -48
	.cfi_offset %r13, -40
	.cfi_offset %r14, -32
	.cfi_offset %r15, -24
	.cfi_offset %rbp, -16
	testq	%rdx, %rdx
	je	.LBB70_1
	leaq	48(%rcx), %r9
	xorl	%r11d, %r11d
	xorl	%ebx, %ebx
	jmp	.LBB70_3
	.p2align	4
.LBB70_42:
	leal	67043328(%rbx), %eax
	shrl	$10, %eax
	addl	$-10240, %eax
	rolw	$8, %ax
	andl	$1023, %ebx
	orl	$56320, %ebx
	rolw	$8, %bx
	movw	%bx, 2(%rcx,%r15)
	movl	$4, %r11d
	movl	%eax, %ebx
.LBB70_43:
	movw	%bx, (%rcx,%r15)
	addq	%r15, %r11
	incq	%r14
	movq	%r14, %rbx
	cmpq	%rdx, %r14
	jae	.LBB70_44
.LBB70_3:
	movq	%rdx, %r15
	subq	%rbx, %r15
	movq	%r8, %r14
	subq	%r11, %r14
	shrq	%r14
	cmpq	%r15, %r14
	cmovaeq	%r15, %r14
	cmpq	$32, %r14
	jb	.LBB70_4
	leaq	(,%rbx,4), %r15
	leaq	64(%rsi), %rax
	addq	%rax, %r15
	leaq	(%r9,%r11), %r13
	xorl	%r12d, %r12d
	movq	%r14, %rbp
	.p2align	4
.LBB70_6:
	movdqu	-64(%r15,%r12,4), %xmm0
	movdqu	-48(%r15,%r12,4), %xmm2
	movdqu	-32(%r15,%r12,4), %xmm1
	movdqu	-16(%r15,%r12,4), %xmm3
	movdqa	.LCPI70_0(%rip), %xmm4
	pminud	%xmm4, %xmm2
	pminud	%xmm4, %xmm0
	packusdw	%xmm2, %xmm0
	pminud	%xmm4, %xmm3
	pminud	%xmm4, %xmm1
	packusdw	%xmm3, %xmm1
	movdqu	32(%r15,%r12,4), %xmm2
	movdqu	48(%r15,%r12,4), %xmm5
	movdqu	(%r15,%r12,4), %xmm3
	movdqu	16(%r15,%r12,4), %xmm6
	pminud	%xmm4, %xmm6
	pminud	%xmm4, %xmm3
	packusdw	%xmm6, %xmm3
	pminud	%xmm4, %xmm5
	pminud	%xmm4, %xmm2
	packusdw	%xmm5, %xmm2
	movdqa	.LCPI70_1(%rip), %xmm4
	movdqa	%xmm0, %xmm5
	paddw	%xmm4, %xmm5
	movdqa	%xmm1, %xmm6
	paddw	%xmm4, %xmm6
	movdqa	%xmm3, %xmm7
	paddw	%xmm4, %xmm7
	pminuw	%xmm5, %xmm7
	paddw	%xmm2, %xmm4
	pminuw	%xmm6, %xmm4
	movdqa	%xmm1, %xmm5
	pmaxuw	%xmm2, %xmm5
	movdqa	%xmm0, %xmm6
	pmaxuw	%xmm3, %xmm6
	pcmpeqd	%xmm8, %xmm8
	pcmpeqw	%xmm8, %xmm6
	pcmpeqw	%xmm8, %xmm5
	movdqa	.LCPI70_2(%rip), %xmm8
	movdqa	%xmm7, %xmm9
	pminuw	%xmm8, %xmm9
	pcmpeqw	%xmm7, %xmm9
	por	%xmm6, %xmm9
	pminuw	%xmm4, %xmm8
	pcmpeqw	%xmm4, %xmm8
	por	%xmm5, %xmm8
	packsswb	%xmm8, %xmm9
	pmovmskb	%xmm9, %r10d
	testl	%r10d, %r10d
	jne	.LBB70_8
	movdqa	.LCPI70_3(%rip), %xmm4
	pshufb	%xmm4, %xmm1
	pshufb	%xmm4, %xmm0
	movdqu	%xmm0, -48(%r13,%r12,2)
	movdqu	%xmm1, -32(%r13,%r12,2)
	pshufb	%xmm4, %xmm2
	pshufb	%xmm4, %xmm3
	movdqu	%xmm3, -16(%r13,%r12,2)
	movdqu	%xmm2, (%r13,%r12,2)
	addq	$32, %r12
	addq	$-32, %rbp
	cmpq	$31, %rbp
	ja	.LBB70_6
	jmp	.LBB70_8
	.p2align	4
.LBB70_4:
	xorl	%r12d, %r12d
.LBB70_8:
	leaq	(%rsi,%rbx,4), %r15
	leaq	(%rcx,%r11), %r13
	.p2align	4
.LBB70_9:
	movq	%r14, %r10
	subq	%r12, %r10
	cmpq	$8, %r10
	jb	.LBB70_12
	movdqu	(%r15,%r12,4), %xmm0
	movdqu	16(%r15,%r12,4), %xmm3
	movdqa	.LCPI70_0(%rip), %xmm2
	movdqa	.LCPI70_4(%rip), %xmm1
	movdqa	%xmm3, %xmm4
	pmaxud	%xmm1, %xmm4
	pcmpeqd	%xmm3, %xmm4
	pminud	%xmm2, %xmm3
	pminud	%xmm0, %xmm2
	movdqa	%xmm2, %xmm5
	packusdw	%xmm3, %xmm5
	pshufb	.LCPI70_3(%rip), %xmm5
	psrld	$8, %xmm3
	psrld	$8, %xmm2
	packusdw	%xmm3, %xmm2
	packuswb	%xmm2, %xmm2
	pand	.LCPI70_5(%rip), %xmm2
	pcmpeqb	.LCPI70_6(%rip), %xmm2
	movdqu	%xmm5, (%r13,%r12,2)
	pmovsxbw	%xmm2, %xmm2
	pmaxud	%xmm0, %xmm1
	pcmpeqd	%xmm0, %xmm1
	packssdw	%xmm4, %xmm1
	por	%xmm2, %xmm1
	packsswb	%xmm1, %xmm1
	pmovmskb	%xmm1, %r10d
	orl	$256, %r10d
	rep		bsfl	%r10d, %r10d
	addq	%r10, %r12
	cmpb	$7, %r10b
	ja	.LBB70_9
	movq	%r14, %r10
	subq	%r12, %r10
	cmpq	$7, %r10
	ja	.LBB70_22
.LBB70_12:
	cmpq	$7, %r14
	jbe	.LBB70_13
	movdqu	-32(%r15,%r14,4), %xmm0
	movdqu	-16(%r15,%r14,4), %xmm2
	movdqa	.LCPI70_0(%rip), %xmm1
	movdqa	%xmm2, %xmm3
	movdqa	%xmm2, %xmm4
	pminud	%xmm1, %xmm4
	pminud	%xmm0, %xmm1
	movdqa	.LCPI70_4(%rip), %xmm5
	movdqa	%xmm1, %xmm6
	packusdw	%xmm4, %xmm6
	pshufb	.LCPI70_3(%rip), %xmm6
	pmaxud	%xmm5, %xmm3
	pcmpeqd	%xmm2, %xmm3
	movdqu	%xmm6, -16(%r13,%r14,2)
	psrld	$8, %xmm4
	psrld	$8, %xmm1
	packusdw	%xmm4, %xmm1
	packuswb	%xmm1, %xmm1
	pand	.LCPI70_5(%rip), %xmm1
	pcmpeqb	.LCPI70_6(%rip), %xmm1
	pmovsxbw	%xmm1, %xmm1
	pmaxud	%xmm0, %xmm5
	pcmpeqd	%xmm0, %xmm5
	packssdw	%xmm3, %xmm5
	por	%xmm1, %xmm5
	packsswb	%xmm5, %xmm5
	pmovmskb	%xmm5, %r10d
	orl	$256, %r10d
	rep		bsfl	%r10d, %r10d
	leaq	(%r14,%r10), %r12
	addq	$-8, %r12
	jmp	.LBB70_22
	.p2align	4
.LBB70_13:
	cmpq	%r12, %r14
	jne	.LBB70_14
.LBB70_21:
	movq	%r14, %r12
.LBB70_22:
	leaq	(%r12,%rbx), %r14
	leaq	(%r11,%r12,2), %r15
	movq	%rdx, %r11
	subq	%r14, %r11
	jbe	.LBB70_32
	cmpl	$65536, (%rsi,%r14,4)
	jb	.LBB70_32
	movq	%r8, %rax
	subq	%r15, %rax
	cmpq	$32, %rax
	jb	.LBB70_32
	cmpq	$8, %r11
	jb	.LBB70_32
	leaq	-8(%rdx), %r11
	subq	%r12, %r11
	subq	%rbx, %r11
	xorl	%ebx, %ebx
	.p2align	4
.LBB70_27:
	cmpq	$4, %rbx
	je	.LBB70_32
	movdqu	(%rsi,%r14,4), %xmm4
	movdqu	16(%rsi,%r14,4), %xmm3
	movdqa	.LCPI70_7(%rip), %xmm0
	movdqa	%xmm3, %xmm1
	pmaxud	%xmm0, %xmm1
	pcmpeqd	%xmm3, %xmm1
	pmaxud	%xmm4, %xmm0
	pcmpeqd	%xmm4, %xmm0
	packssdw	%xmm1, %xmm0
	packsswb	%xmm0, %xmm0
	pmovmskb	%xmm0, %eax
	testb	%al, %al
	jne	.LBB70_32
	movdqa	.LCPI70_8(%rip), %xmm0
	movdqa	%xmm3, %xmm1
	pand	%xmm0, %xmm1
	pand	%xmm4, %xmm0
	movdqa	.LCPI70_9(%rip), %xmm2
	pcmpeqd	%xmm2, %xmm0
	pcmpeqd	%xmm2, %xmm1
	packssdw	%xmm1, %xmm0
	pmovmskb	%xmm0, %eax
	testl	%eax, %eax
	jne	.LBB70_32
	movdqa	.LCPI70_10(%rip), %xmm5
	movdqa	%xmm4, %xmm6
	paddd	%xmm5, %xmm6
	paddd	%xmm3, %xmm5
	movdqa	%xmm4, %xmm0
	pslld	$16, %xmm0
	movdqa	%xmm3, %xmm1
	pslld	$16, %xmm1
	movdqa	.LCPI70_11(%rip), %xmm2
	pand	%xmm2, %xmm1
	pand	%xmm2, %xmm0
	psrld	$10, %xmm5
	paddd	%xmm1, %xmm5
	psrld	$10, %xmm6
	paddd	%xmm0, %xmm6
	movdqa	.LCPI70_12(%rip), %xmm0
	paddd	%xmm0, %xmm5
	paddd	%xmm0, %xmm6
	movdqa	.LCPI70_4(%rip), %xmm1
	movdqa	%xmm3, %xmm2
	pmaxud	%xmm1, %xmm2
	pmaxud	%xmm4, %xmm1
	pcmpeqd	%xmm4, %xmm1
	movdqa	%xmm1, %xmm0
	blendvps	%xmm0, %xmm6, %xmm4
	pcmpeqd	%xmm3, %xmm2
	movdqa	%xmm2, %xmm0
	blendvps	%xmm0, %xmm5, %xmm3
	movaps	.LCPI70_13(%rip), %xmm5
	movaps	.LCPI70_14(%rip), %xmm6
	movaps	%xmm6, %xmm7
	blendvps	%xmm0, %xmm5, %xmm7
	movdqa	.LCPI70_3(%rip), %xmm2
	pshufb	%xmm2, %xmm3
	movdqa	%xmm1, %xmm0
	blendvps	%xmm0, %xmm5, %xmm6
	pshufb	%xmm2, %xmm4
	pxor	%xmm0, %xmm0
	pcmpgtw	%xmm0, %xmm6
	pcmpgtw	%xmm0, %xmm7
	packsswb	%xmm7, %xmm6
	pmovmskb	%xmm6, %eax
	movzbl	%al, %r10d
	popcntl	%r10d, %r12d
	shll	$4, %r10d
	leaq	.Lstatic.10(%rip), %r13
	movdqu	(%r10,%r13), %xmm0
	pshufb	%xmm0, %xmm4
	leaq	(%rcx,%r15), %r10
	movdqu	%xmm4, (%rcx,%r15)
	shrl	$8, %eax
	popcntl	%eax, %ebp
	shll	$4, %eax
	movdqu	(%rax,%r13), %xmm0
	pshufb	%xmm0, %xmm3
	movdqu	%xmm3, (%r10,%r12,2)
	addq	%r12, %rbp
	leaq	(%r15,%rbp,2), %r15
	movq	%rbx, %rax
	incq	%rax
	xorl	%ebx, %ebx
	cmpq	$8, %rbp
	cmoveq	%rax, %rbx
	addq	$8, %r14
	movq	%r8, %rax
	subq	%r15, %rax
	cmpq	$32, %rax
	jb	.LBB70_32
	cmpq	$7, %r11
	leaq	-8(%r11), %r11
	ja	.LBB70_27
	.p2align	4
.LBB70_32:
	cmpq	%rdx, %r14
	je	.LBB70_33
	movl	(%rsi,%r14,4), %ebx
	cmpl	$55296, %ebx
	setae	%al
	leal	-57344(%rbx), %r10d
	cmpl	$1056768, %r10d
	setae	%r10b
	testb	%r10b, %al
	jne	.LBB70_35
	movq	%r8, %rax
	subq	%r15, %rax
	xorl	%r10d, %r10d
	cmpl	$65536, %ebx
	setae	%r10b
	leaq	2(,%r10,2), %r10
	cmpq	%r10, %rax
	jb	.LBB70_39
	cmpl	$65535, %ebx
	ja	.LBB70_42
	rolw	$8, %bx
	movl	$2, %r11d
	jmp	.LBB70_43
.LBB70_14:
	leaq	(%r11,%r12,2), %rax
	addq	%rcx, %rax
	jmp	.LBB70_15
	.p2align	4
.LBB70_19:
	movw	%bp, (%rax)
	incq	%r12
	addq	$2, %rax
	cmpq	%r12, %r14
	je	.LBB70_21
.LBB70_15:
	movl	(%r15,%r12,4), %ebp
	cmpl	$65535, %ebp
	ja	.LBB70_22
	movl	%ebp, %r10d
	andl	$63488, %r10d
	cmpl	$55296, %r10d
	je	.LBB70_22
	rolw	$8, %bp
	movw	%bp, -2(%rsp)
	leaq	-2(%rsp), %r10
	movq	%rax, %r13
	subq	%r10, %r13
	cmpq	$1, %r13
	ja	.LBB70_19
	movzwl	-2(%rsp), %r10d
	movw	%r10w, (%rax)
	incq	%r12
	addq	$2, %rax
	cmpq	%r12, %r14
	jne	.LBB70_15
	jmp	.LBB70_21
.LBB70_1:
	xorl	%r14d, %r14d
	xorl	%r11d, %r11d
	jmp	.LBB70_44
.LBB70_33:
	movq	%rdx, %r14
	movq	%r15, %r11
.LBB70_44:
	movq	%r14, (%rdi)
	movq	%r11, 8(%rdi)
	movw	$0, 16(%rdi)
	jmp	.LBB70_37
.LBB70_35:
	movb	$1, %al
	movb	$1, %cl
	jmp	.LBB70_36
.LBB70_39:
	movb	$3, %al
	xorl	%ecx, %ecx
.LBB70_36:
	movq	%r14, (%rdi)
	movq	%r15, 8(%rdi)
	movb	%al, 16(%rdi)
	movb	%cl, 17(%rdi)
.LBB70_37:
	popq	%rbx
	.cfi_def_cfa_offset 48
	popq	%r12
	.cfi_def_cfa_offset 40
	popq	%r13
	.cfi_def_cfa_offset 32
	popq	%r14
	.cfi_def_cfa_offset 24
	popq	%r15
	.cfi_def_cfa_offset 16
	popq	%rbp
	.cfi_def_cfa_offset 8
	retq
.Lfunc_end70:
	.size	"utf16_fixed::encode::from_utf32::<#8b18edd9dd9aa8df>", .Lfunc_end70-"utf16_fixed::encode::from_utf32::<#8b18edd9dd9aa8df>"
	.cfi_endproc

	.section	.rodata.cst16,"aM",@progbits,16
	.p2align	4, 0x0
.LCPI71_0:
	.long	65535
	.long	65535
	.long	65535
	.long	65535
.LCPI71_1:
	.short	10240
	.short	10240
	.short	10240
	.short	10240
	.short	10240
	.short	10240
	.short	10240
	.short	10240
.LCPI71_2:
	.short	2047
	.short	2047
	.short	2047
	.short	2047
	.short	2047
	.short	2047
	.short	2047
	.short	2047
.LCPI71_3:
	.long	65536
	.long	65536
	.long	65536
	.long	65536
.LCPI71_4:
	.byte	248
	.byte	248
	.byte	248
	.byte	248
	.byte	248
	.byte	248
	.byte	248
	.byte	248
	.zero	1
	.zero	1
	.zero	1
	.zero	1
	.zero	1
	.zero	1
	.zero	1
	.zero	1
.LCPI71_5:
	.byte	216
	.byte	216
	.byte	216
	.byte	216
	.byte	216
	.byte	216
	.byte	216
	.byte	216
	.zero	1
	.zero	1
	.zero	1
	.zero	1
	.zero	1
	.zero	1
	.zero	1
	.zero	1
.LCPI71_6:
	.long	1114112
	.long	1114112
	.long	1114112
	.long	1114112
.LCPI71_7:
	.long	4294965248
	.long	4294965248
	.long	4294965248
	.long	4294965248
.LCPI71_8:
	.long	55296
	.long	55296
	.long	55296
	.long	55296
.LCPI71_9:
	.long	4294901760
	.long	4294901760
	.long	4294901760
	.long	4294901760
.LCPI71_10:
	.long	67043328
	.long	67043328
	.long	67043328
	.long	67043328
.LCPI71_11:
	.long	3691042816
	.long	3691042816
	.long	3691042816
	.long	3691042816
.LCPI71_12:
	.long	65537
	.long	65537
	.long	65537
	.long	65537
.LCPI71_13:
	.long	1
	.long	1
	.long	1
	.long	1
	.section	".text.utf16_fixed::encode::from_utf32::<#418c2b53cf60437c>","ax",@progbits
	.p2align	4
	.type	"utf16_fixed::encode::from_utf32::<#418c2b53cf60437c>",@function
"utf16_fixed::encode::from_utf32::<#418c2b53cf60437c>":
	.cfi_startproc
	pushq	%rbp
	.cfi_def_cfa_offset 16
	pushq	%r15
	.cfi_def_cfa_offset 24
	pushq	%r14
	.cfi_def_cfa_offset 32
	pushq	%r13
	.cfi_def_cfa_offset 40
	pushq	%r12
	.cfi_def_cfa_offset 48
	pushq	%rbx
	.cfi_def_cfa_offset 56
	.cfi_offset %rbx, -56
	.cfi_offset %r12, -48
	.cfi_offset %r13, -40
	.cfi_offset %r14, -32
	.cfi_offset %r15, -24
	.cfi_offset %rbp, -16
	testq	%rdx, %rdx
	je	.LBB71_1
	leaq	48(%rcx), %r9
	xorl	%r11d, %r11d
	xorl	%ebx, %ebx
	jmp	.LBB71_3
	.p2align	4
.LBB71_42:
	leal	67043328(%rbx), %eax
	shrl	$10, %eax
	addl	$-10240, %eax
	andl	$1023, %ebx
	orl	$56320, %ebx
	movw	%bx, 2(%rcx,%r15)
	movl	$4, %r11d
	movl	%eax, %ebx
.LBB71_43:
	movw	%bx, (%rcx,%r15)
	addq	%r15, %r11
	incq	%r14
	movq	%r14, %rbx
	cmpq	%rdx, %r14
	jae	.LBB71_44
.LBB71_3:
	movq	%rdx, %r15
	subq	%rbx, %r15
	movq	%r8, %r14
	subq	%r11, %r14
	shrq	%r14
	cmpq	%r15, %r14
	cmovaeq	%r15, %r14
	cmpq	$32, %r14
	jb	.LBB71_4
	leaq	(,%rbx,4), %r15
	leaq	64(%rsi), %rax
	addq	%rax, %r15
	leaq	(%r9,%r11), %r13
	xorl	%r12d, %r12d
	movq	%r14, %rbp
	.p2align	4
.LBB71_6:
	movdqu	-64(%r15,%r12,4), %xmm0
	movdqu	-48(%r15,%r12,4), %xmm2
	movdqu	-32(%r15,%r12,4), %xmm1
	movdqu	-16(%r15,%r12,4), %xmm3
	movdqa	.LCPI71_0(%rip), %xmm4
	pminud	%xmm4, %xmm2
	pminud	%xmm4, %xmm0
	packusdw	%xmm2, %xmm0
	pminud	%xmm4, %xmm3
	pminud	%xmm4, %xmm1
	packusdw	%xmm3, %xmm1
	movdqu	32(%r15,%r12,4), %xmm2
	movdqu	48(%r15,%r12,4), %xmm5
	movdqu	(%r15,%r12,4), %xmm3
	movdqu	16(%r15,%r12,4), %xmm6
	pminud	%xmm4, %xmm6
	pminud	%xmm4, %xmm3
	packusdw	%xmm6, %xmm3
	pminud	%xmm4, %xmm5
	pminud	%xmm4, %xmm2
	packusdw	%xmm5, %xmm2
	movdqa	.LCPI71_1(%rip), %xmm4
	movdqa	%xmm0, %xmm5
	paddw	%xmm4, %xmm5
	movdqa	%xmm1, %xmm6
	paddw	%xmm4, %xmm6
	movdqa	%xmm3, %xmm7
	paddw	%xmm4, %xmm7
	pminuw	%xmm5, %xmm7
	paddw	%xmm2, %xmm4
	pminuw	%xmm6, %xmm4
	movdqa	%xmm1, %xmm5
	pmaxuw	%xmm2, %xmm5
	movdqa	%xmm0, %xmm6
	pmaxuw	%xmm3, %xmm6
	pcmpeqd	%xmm8, %xmm8
	pcmpeqw	%xmm8, %xmm6
	pcmpeqw	%xmm8, %xmm5
	movdqa	.LCPI71_2(%rip), %xmm8
	movdqa	%xmm7, %xmm9
	pminuw	%xmm8, %xmm9
	pcmpeqw	%xmm7, %xmm9
	por	%xmm6, %xmm9
	pminuw	%xmm4, %xmm8
	pcmpeqw	%xmm4, %xmm8
	por	%xmm5, %xmm8
	packsswb	%xmm8, %xmm9
	pmovmskb	%xmm9, %r10d
	testl	%r10d, %r10d
	jne	.LBB71_8
	movdqu	%xmm0, -48(%r13,%r12,2)
	movdqu	%xmm1, -32(%r13,%r12,2)
	movdqu	%xmm3, -16(%r13,%r12,2)
	movdqu	%xmm2, (%r13,%r12,2)
	addq	$32, %r12
	addq	$-32, %rbp
	cmpq	$31, %rbp
	ja	.LBB71_6
	jmp	.LBB71_8
	.p2align	4
.LBB71_4:
	xorl	%r12d, %r12d
.LBB71_8:
	leaq	(%rsi,%rbx,4), %r15
	leaq	(%rcx,%r11), %r13
	.p2align	4
.LBB71_9:
	movq	%r14, %r10
	subq	%r12, %r10
	cmpq	$8, %r10
	jb	.LBB71_12
	movdqu	(%r15,%r12,4), %xmm0
	movdqu	16(%r15,%r12,4), %xmm3
	movdqa	.LCPI71_0(%rip), %xmm2
	movdqa	.LCPI71_3(%rip), %xmm1
	movdqa	%xmm3, %xmm4
	pmaxud	%xmm1, %xmm4
	pcmpeqd	%xmm3, %xmm4
	pminud	%xmm2, %xmm3
	pminud	%xmm0, %xmm2
	movdqa	%xmm2, %xmm5
	packusdw	%xmm3, %xmm5
	psrld	$8, %xmm3
	psrld	$8, %xmm2
	packusdw	%xmm3, %xmm2
	packuswb	%xmm2, %xmm2
	pand	.LCPI71_4(%rip), %xmm2
	pcmpeqb	.LCPI71_5(%rip), %xmm2
	movdqu	%xmm5, (%r13,%r12,2)
	pmovsxbw	%xmm2, %xmm2
	pmaxud	%xmm0, %xmm1
	pcmpeqd	%xmm0, %xmm1
	packssdw	%xmm4, %xmm1
	por	%xmm2, %xmm1
	packsswb	%xmm1, %xmm1
	pmovmskb	%xmm1, %r10d
	orl	$256, %r10d
	rep		bsfl	%r10d, %r10d
	addq	%r10, %r12
	cmpb	$7, %r10b
	ja	.LBB71_9
	movq	%r14, %r10
	subq	%r12, %r10
	cmpq	$7, %r10
	ja	.LBB71_22
.LBB71_12:
	cmpq	$7, %r14
	jbe	.LBB71_13
	movdqu	-32(%r15,%r14,4), %xmm0
	movdqu	-16(%r15,%r14,4), %xmm3
	movdqa	.LCPI71_0(%rip), %xmm2
	movdqa	.LCPI71_3(%rip), %xmm1
	movdqa	%xmm3, %xmm4
	pmaxud	%xmm1, %xmm4
	pcmpeqd	%xmm3, %xmm4
	pminud	%xmm2, %xmm3
	pminud	%xmm0, %xmm2
	movdqa	%xmm2, %xmm5
	packusdw	%xmm3, %xmm5
	movdqu	%xmm5, -16(%r13,%r14,2)
	psrld	$8, %xmm3
	psrld	$8, %xmm2
	packusdw	%xmm3, %xmm2
	packuswb	%xmm2, %xmm2
	pand	.LCPI71_4(%rip), %xmm2
	pcmpeqb	.LCPI71_5(%rip), %xmm2
	pmovsxbw	%xmm2, %xmm2
	pmaxud	%xmm0, %xmm1
	pcmpeqd	%xmm0, %xmm1
	packssdw	%xmm4, %xmm1
	por	%xmm2, %xmm1
	packsswb	%xmm1, %xmm1
	pmovmskb	%xmm1, %r10d
	orl	$256, %r10d
	rep		bsfl	%r10d, %r10d
	leaq	(%r14,%r10), %r12
	addq	$-8, %r12
	jmp	.LBB71_22
	.p2align	4
.LBB71_13:
	cmpq	%r12, %r14
	jne	.LBB71_14
.LBB71_21:
	movq	%r14, %r12
.LBB71_22:
	leaq	(%r12,%rbx), %r14
	leaq	(%r11,%r12,2), %r15
	movq	%rdx, %r11
	subq	%r14, %r11
	jbe	.LBB71_32
	cmpl	$65536, (%rsi,%r14,4)
	jb	.LBB71_32
	movq	%r8, %rax
	subq	%r15, %rax
	cmpq	$32, %rax
	jb	.LBB71_32
	cmpq	$8, %r11
	jb	.LBB71_32
	leaq	-8(%rdx), %r11
	subq	%r12, %r11
	subq	%rbx, %r11
	xorl	%ebx, %ebx
	.p2align	4
.LBB71_27:
	cmpq	$4, %rbx
	je	.LBB71_32
	movdqu	(%rsi,%r14,4), %xmm4
	movdqu	16(%rsi,%r14,4), %xmm3
	movdqa	.LCPI71_6(%rip), %xmm0
	movdqa	%xmm3, %xmm1
	pmaxud	%xmm0, %xmm1
	pcmpeqd	%xmm3, %xmm1
	pmaxud	%xmm4, %xmm0
	pcmpeqd	%xmm4, %xmm0
	packssdw	%xmm1, %xmm0
	packsswb	%xmm0, %xmm0
	pmovmskb	%xmm0, %eax
	testb	%al, %al
	jne	.LBB71_32
	movdqa	.LCPI71_7(%rip), %xmm0
	movdqa	%xmm3, %xmm1
	pand	%xmm0, %xmm1
	pand	%xmm4, %xmm0
	movdqa	.LCPI71_8(%rip), %xmm2
	pcmpeqd	%xmm2, %xmm0
	pcmpeqd	%xmm2, %xmm1
	packssdw	%xmm1, %xmm0
	pmovmskb	%xmm0, %eax
	testl	%eax, %eax
	jne	.LBB71_32
	movdqa	.LCPI71_9(%rip), %xmm5
	movdqa	%xmm3, %xmm6
	paddd	%xmm5, %xmm6
	paddd	%xmm4, %xmm5
	movdqa	%xmm3, %xmm0
	pslld	$16, %xmm0
	movdqa	%xmm4, %xmm1
	pslld	$16, %xmm1
	movdqa	.LCPI71_10(%rip), %xmm2
	pand	%xmm2, %xmm1
	pand	%xmm2, %xmm0
	psrld	$10, %xmm5
	paddd	%xmm1, %xmm5
	psrld	$10, %xmm6
	paddd	%xmm0, %xmm6
	movdqa	.LCPI71_11(%rip), %xmm0
	paddd	%xmm0, %xmm5
	paddd	%xmm0, %xmm6
	movdqa	.LCPI71_3(%rip), %xmm1
	movdqa	%xmm4, %xmm2
	pmaxud	%xmm1, %xmm2
	pcmpeqd	%xmm4, %xmm2
	pmaxud	%xmm3, %xmm1
	pcmpeqd	%xmm3, %xmm1
	movdqa	%xmm1, %xmm0
	blendvps	%xmm0, %xmm6, %xmm3
	movdqa	%xmm2, %xmm0
	blendvps	%xmm0, %xmm5, %xmm4
	movaps	.LCPI71_12(%rip), %xmm5
	movaps	.LCPI71_13(%rip), %xmm6
	movaps	%xmm6, %xmm7
	movdqa	%xmm1, %xmm0
	blendvps	%xmm0, %xmm5, %xmm7
	movdqa	%xmm2, %xmm0
	blendvps	%xmm0, %xmm5, %xmm6
	pxor	%xmm0, %xmm0
	pcmpgtw	%xmm0, %xmm6
	pcmpgtw	%xmm0, %xmm7
	packsswb	%xmm7, %xmm6
	pmovmskb	%xmm6, %eax
	movzbl	%al, %r10d
	popcntl	%r10d, %r12d
	shll	$4, %r10d
	leaq	.Lstatic.10(%rip), %r13
	movdqu	(%r10,%r13), %xmm0
	pshufb	%xmm0, %xmm4
	leaq	(%rcx,%r15), %r10
	movdqu	%xmm4, (%rcx,%r15)
	shrl	$8, %eax
	popcntl	%eax, %ebp
	shll	$4, %eax
	movdqu	(%rax,%r13), %xmm0
	pshufb	%xmm0, %xmm3
	movdqu	%xmm3, (%r10,%r12,2)
	addq	%r12, %rbp
	leaq	(%r15,%rbp,2), %r15
	movq	%rbx, %rax
	incq	%rax
	xorl	%ebx, %ebx
	cmpq	$8, %rbp
	cmoveq	%rax, %rbx
	addq	$8, %r14
	movq	%r8, %rax
	subq	%r15, %rax
	cmpq	$32, %rax
	jb	.LBB71_32
	cmpq	$7, %r11
	leaq	-8(%r11), %r11
	ja	.LBB71_27
	.p2align	4
.LBB71_32:
	cmpq	%rdx, %r14
	je	.LBB71_33
	movl	(%rsi,%r14,4), %ebx
	cmpl	$55296, %ebx
	setae	%al
	leal	-57344(%rbx), %r10d
	cmpl	$1056768, %r10d
	setae	%r10b
	testb	%r10b, %al
	jne	.LBB71_35
	movq	%r8, %rax
	subq	%r15, %rax
	xorl	%r10d, %r10d
	cmpl	$65536, %ebx
	setae	%r10b
	leaq	2(,%r10,2), %r10
	cmpq	%r10, %rax
	jb	.LBB71_39
	cmpl	$65535, %ebx
	ja	.LBB71_42
	movl	$2, %r11d
	jmp	.LBB71_43
.LBB71_14:
	leaq	(%r11,%r12,2), %rax
	addq	%rcx, %rax
	jmp	.LBB71_15
	.p2align	4
.LBB71_19:
	movw	%bp, (%rax)
	incq	%r12
	addq	$2, %rax
	cmpq	%r12, %r14
	je	.LBB71_21
.LBB71_15:
	movl	(%r15,%r12,4), %ebp
	cmpl	$65535, %ebp
	ja	.LBB71_22
	movl	%ebp, %r10d
	andl	$63488, %r10d
	cmpl	$55296, %r10d
	je	.LBB71_22
	movw	%bp, -2(%rsp)
	leaq	-2(%rsp), %r10
	movq	%rax, %r13
	subq	%r10, %r13
	cmpq	$1, %r13
	ja	.LBB71_19
	movzwl	-2(%rsp), %r10d
	movw	%r10w, (%rax)
	incq	%r12
	addq	$2, %rax
	cmpq	%r12, %r14
	jne	.LBB71_15
	jmp	.LBB71_21
.LBB71_1:
	xorl	%r14d, %r14d
	xorl	%r11d, %r11d
	jmp	.LBB71_44
.LBB71_33:
	movq	%rdx, %r14
	movq	%r15, %r11
.LBB71_44:
	movq	%r14, (%rdi)
	movq	%r11, 8(%rdi)
	movw	$0, 16(%rdi)
	jmp	.LBB71_37
.LBB71_35:
	movb	$1, %al
	movb	$1, %cl
	jmp	.LBB71_36
.LBB71_39:
	movb	$3, %al
	xorl	%ecx, %ecx
.LBB71_36:
	movq	%r14, (%rdi)
	movq	%r15, 8(%rdi)
	movb	%al, 16(%rdi)
	movb	%cl, 17(%rdi)
.LBB71_37:
	popq	%rbx
	.cfi_def_cfa_offset 48
	popq	%r12
	.cfi_def_cfa_offset 40
	popq	%r13
	.cfi_def_cfa_offset 32
	popq	%r14
	.cfi_def_cfa_offset 24
	popq	%r15
	.cfi_def_cfa_offset 16
	popq	%rbp
	.cfi_def_cfa_offset 8
	retq
.Lfunc_end71:
	.size	"utf16_fixed::encode::from_utf32::<#418c2b53cf60437c>", .Lfunc_end71-"utf16_fixed::encode::from_utf32::<#418c2b53cf60437c>"
	.cfi_endproc

	.section	".text.utf16_wtf8::encode::transcode_wtf8::<#8b18edd9dd9aa8df>","ax",@progbits
	.p2align	4
	.type	"utf16_wtf8::encode::transcode_wtf8::<#8b18edd9dd9aa8df>",@function
"utf16_wtf8::encode::transcode_wtf8::<#8b18edd9dd9aa8df>":
	.cfi_startproc
	pushq	%rbp
	.cfi_def_cfa_offset 16
	pushq	%r15
	.cfi_def_cfa_offset 24
	pushq	%r14
	.cfi_def_cfa_offset 32
	pushq	%r13
	.cfi_def_cfa_offset 40
	pushq	%r12
	.cfi_def_cfa_offset 48
	pushq	%rbx
	.cfi_def_cfa_offset 56
	subq	$88, %rsp
	.cfi_def_cfa_offset 144
	.cfi_offset %rbx, -56
	.cfi_offset %r12, -48
	.cfi_offset %r13, -40
	.cfi_offset %r14, -32
	.cfi_offset %r15, -24
	.cfi_offset %rbp, -16
	movq	%r8, %r14
	movq	%rdx, %rbp
	movq	%rdi, 8(%rsp)
	xorl	%r13d, %r13d
	xorl	%ebx, %ebx
	xorl	%r12d, %r12d
	movq	%r8, 72(%rsp)
	movq	%rcx, 48(%rsp)
	movq	%rdx, 64(%rsp)
	movq	%rsi, 56(%rsp)
	.p2align	4
.LBB72_1:
	leaq	(%rsi,%r12), %rdi
	subq	%r12, %rbp
	leaq	(%rcx,%rbx), %rdx
	subq	%rbx, %r14
	xorps	%xmm0, %xmm0
	movaps	%xmm0, 16(%rsp)
	movq	$0, 32(%rsp)
	movq	%rdi, %r15
	movq	%rbp, %rsi
	movq	%rdx, 80(%rsp)
	movq	%r14, %rcx
	callq	"utf16_transcode::encode::FromUtf8Direction::begin::<#8b18edd9dd9aa8df>"
	cmpq	%rbp, %rax
	jne	.LBB72_3
	xorl	%eax, %eax
	xorl	%r11d, %r11d
	jmp	.LBB72_4
	.p2align	4
.LBB72_3:
	movq	%rdx, (%rsp)
	leaq	16(%rsp), %rdi
	movq	%r15, %rsi
	movq	%rbp, %rdx
	movq	80(%rsp), %rcx
	movq	%r14, %r8
	movq	%rax, %r9
	callq	"utf16_transcode::transcoding::transcode_many::<#824f73f0383279b7>"
	movq	16(%rsp), %rbp
	movq	24(%rsp), %rdx
	movzbl	32(%rsp), %eax
	movzbl	33(%rsp), %r11d
.LBB72_4:
	addq	%rbp, %r12
	addq	%rbx, %rdx
	testq	%rbp, %rbp
	sete	%cl
	andb	%cl, %r13b
	movq	64(%rsp), %rbp
	movq	%rbp, %rdi
	subq	%r12, %rdi
	cmpq	$2, %rdi
	movq	72(%rsp), %r14
	movq	56(%rsp), %rsi
	jb	.LBB72_7
	cmpb	$-19, (%rsi,%r12)
	jne	.LBB72_7
	movzbl	1(%rsi,%r12), %ecx
	movl	%ecx, %r9d
	andb	$-32, %r9b
	cmpb	$-96, %r9b
	jne	.LBB72_7
	cmpq	$2, %rdi
	je	.LBB72_9
	movzbl	2(%rsi,%r12), %r11d
	cmpb	$-65, %r11b
	jg	.LBB72_11
	andl	$63, %ecx
	shll	$6, %ecx
	leal	53248(%rcx), %edi
	movl	%edi, %eax
	andl	$56320, %eax
	cmpl	$56320, %eax
	sete	%r9b
	testb	%r9b, %r13b
	jne	.LBB72_13
	movq	%r14, %r9
	subq	%rdx, %r9
	cmpq	$2, %r9
	jb	.LBB72_15
	movswl	%di, %edi
	andl	$-8448, %edi
	andb	$63, %r11b
	orb	%r11b, %cl
	movzbl	%cl, %ecx
	orl	%edi, %ecx
	rolw	$8, %cx
	movq	48(%rsp), %rdi
	movw	%cx, (%rdi,%rdx)
	movq	%rdi, %rcx
	addq	$2, %rdx
	addq	$3, %r12
	movzwl	%ax, %eax
	cmpl	$55296, %eax
	sete	%r13b
	movq	%rdx, %rbx
	jmp	.LBB72_1
.LBB72_7:
	movq	8(%rsp), %rcx
	movq	%r12, (%rcx)
	movq	%rdx, 8(%rcx)
	movb	%al, 16(%rcx)
	movb	%r11b, 17(%rcx)
	movl	$0, 18(%rcx)
	movw	$0, 22(%rcx)
	movb	%r13b, 24(%rcx)
	movl	$0, 25(%rcx)
	movl	$0, 28(%rcx)
	jmp	.LBB72_16
.LBB72_9:
	movb	$2, %cl
	xorl	%eax, %eax
	jmp	.LBB72_14
.LBB72_11:
	movb	$1, %cl
	movb	$2, %al
	jmp	.LBB72_14
.LBB72_13:
	movb	$1, %r13b
	movb	$3, %al
	movb	$1, %cl
.LBB72_14:
	movq	8(%rsp), %rsi
	movq	%r12, (%rsi)
	movq	%rdx, 8(%rsi)
	movb	%cl, 16(%rsi)
	movb	%al, 17(%rsi)
	movl	$0, 18(%rsi)
	movw	$0, 22(%rsi)
	movb	%r13b, 24(%rsi)
	movl	$0, 25(%rsi)
	movl	$0, 28(%rsi)
	jmp	.LBB72_16
.LBB72_15:
	movq	8(%rsp), %rax
	movq	%r12, (%rax)
	movq	%rdx, 8(%rax)
	movb	$3, 16(%rax)
	movl	$0, 17(%rax)
	movl	$0, 20(%rax)
	movb	%r13b, 24(%rax)
	movl	$0, 25(%rax)
	movl	$0, 28(%rax)
.LBB72_16:
	addq	$88, %rsp
	.cfi_def_cfa_offset 56
	popq	%rbx
	.cfi_def_cfa_offset 48
	popq	%r12
	.cfi_def_cfa_offset 40
	popq	%r13
	.cfi_def_cfa_offset 32
	popq	%r14
	.cfi_def_cfa_offset 24
	popq	%r15
	.cfi_def_cfa_offset 16
	popq	%rbp
	.cfi_def_cfa_offset 8
	retq
.Lfunc_end72:
	.size	"utf16_wtf8::encode::transcode_wtf8::<#8b18edd9dd9aa8df>", .Lfunc_end72-"utf16_wtf8::encode::transcode_wtf8::<#8b18edd9dd9aa8df>"
	.cfi_endproc

	.section	".text.utf16_wtf8::encode::transcode_wtf8::<#418c2b53cf60437c>","ax",@progbits
	.p2align	4
	.type	"utf16_wtf8::encode::transcode_wtf8::<#418c2b53cf60437c>",@function
"utf16_wtf8::encode::transcode_wtf8::<#418c2b53cf60437c>":
	.cfi_startproc
	pushq	%rbp
	.cfi_def_cfa_offset 16
	pushq	%r15
	.cfi_def_cfa_offset 24
	pushq	%r14
	.cfi_def_cfa_offset 32
	pushq	%r13
	.cfi_def_cfa_offset 40
	pushq	%r12
	.cfi_def_cfa_offset 48
	pushq	%rbx
	.cfi_def_cfa_offset 56
	subq	$88, %rsp
	.cfi_def_cfa_offset 144
	.cfi_offset %rbx, -56
	.cfi_offset %r12, -48
	.cfi_offset %r13, -40
	.cfi_offset %r14, -32
	.cfi_offset %r15, -24
	.cfi_offset %rbp, -16
	movq	%r8, %r14
	movq	%rdx, %rbp
	movq	%rdi, 8(%rsp)
	xorl	%r13d, %r13d
	xorl	%ebx, %ebx
	xorl	%r12d, %r12d
	movq	%r8, 72(%rsp)
	movq	%rcx, 48(%rsp)
	movq	%rdx, 64(%rsp)
	movq	%rsi, 56(%rsp)
	.p2align	4
.LBB73_1:
	leaq	(%rsi,%r12), %rdi
	subq	%r12, %rbp
	leaq	(%rcx,%rbx), %rdx
	subq	%rbx, %r14
	xorps	%xmm0, %xmm0
	movaps	%xmm0, 16(%rsp)
	movq	$0, 32(%rsp)
	movq	%rdi, %r15
	movq	%rbp, %rsi
	movq	%rdx, 80(%rsp)
	movq	%r14, %rcx
	callq	"utf16_transcode::encode::FromUtf8Direction::begin::<#418c2b53cf60437c>"
	cmpq	%rbp, %rax
	jne	.LBB73_3
	xorl	%eax, %eax
	xorl	%r11d, %r11d
	jmp	.LBB73_4
	.p2align	4
.LBB73_3:
	movq	%rdx, (%rsp)
	leaq	16(%rsp), %rdi
	movq	%r15, %rsi
	movq	%rbp, %rdx
	movq	80(%rsp), %rcx
	movq	%r14, %r8
	movq	%rax, %r9
	callq	"utf16_transcode::transcoding::transcode_many::<#58ba01604e1c9b81>"
	movq	16(%rsp), %rbp
	movq	24(%rsp), %rdx
	movzbl	32(%rsp), %eax
	movzbl	33(%rsp), %r11d
.LBB73_4:
	addq	%rbp, %r12
	addq	%rbx, %rdx
	testq	%rbp, %rbp
	sete	%cl
	andb	%cl, %r13b
	movq	64(%rsp), %rbp
	movq	%rbp, %rdi
	subq	%r12, %rdi
	cmpq	$2, %rdi
	movq	72(%rsp), %r14
	movq	56(%rsp), %rsi
	jb	.LBB73_7
	cmpb	$-19, (%rsi,%r12)
	jne	.LBB73_7
	movzbl	1(%rsi,%r12), %ecx
	movl	%ecx, %r9d
	andb	$-32, %r9b
	cmpb	$-96, %r9b
	jne	.LBB73_7
	cmpq	$2, %rdi
	je	.LBB73_9
	movzbl	2(%rsi,%r12), %eax
	cmpb	$-65, %al
	jg	.LBB73_11
	andl	$63, %ecx
	shll	$6, %ecx
	leal	53248(%rcx), %edi
	movl	%edi, %r11d
	andl	$56320, %r11d
	cmpl	$56320, %r11d
	sete	%r9b
	testb	%r9b, %r13b
	jne	.LBB73_13
	movq	%r14, %r9
	subq	%rdx, %r9
	cmpq	$2, %r9
	jb	.LBB73_15
	movswl	%di, %edi
	andl	$-8448, %edi
	andb	$63, %al
	orb	%al, %cl
	movzbl	%cl, %eax
	orl	%edi, %eax
	movq	48(%rsp), %rcx
	movw	%ax, (%rcx,%rdx)
	addq	$2, %rdx
	addq	$3, %r12
	movzwl	%r11w, %eax
	cmpl	$55296, %eax
	sete	%r13b
	movq	%rdx, %rbx
	jmp	.LBB73_1
.LBB73_7:
	movq	8(%rsp), %rcx
	movq	%r12, (%rcx)
	movq	%rdx, 8(%rcx)
	movb	%al, 16(%rcx)
	movb	%r11b, 17(%rcx)
	movl	$0, 18(%rcx)
	movw	$0, 22(%rcx)
	movb	%r13b, 24(%rcx)
	movl	$0, 25(%rcx)
	movl	$0, 28(%rcx)
	jmp	.LBB73_16
.LBB73_9:
	movb	$2, %cl
	xorl	%eax, %eax
	jmp	.LBB73_14
.LBB73_11:
	movb	$1, %cl
	movb	$2, %al
	jmp	.LBB73_14
.LBB73_13:
	movb	$1, %r13b
	movb	$3, %al
	movb	$1, %cl
.LBB73_14:
	movq	8(%rsp), %rsi
	movq	%r12, (%rsi)
	movq	%rdx, 8(%rsi)
	movb	%cl, 16(%rsi)
	movb	%al, 17(%rsi)
	movl	$0, 18(%rsi)
	movw	$0, 22(%rsi)
	movb	%r13b, 24(%rsi)
	movl	$0, 25(%rsi)
	movl	$0, 28(%rsi)
	jmp	.LBB73_16
.LBB73_15:
	movq	8(%rsp), %rax
	movq	%r12, (%rax)
	movq	%rdx, 8(%rax)
	movb	$3, 16(%rax)
	movl	$0, 17(%rax)
	movl	$0, 20(%rax)
	movb	%r13b, 24(%rax)
	movl	$0, 25(%rax)
	movl	$0, 28(%rax)
.LBB73_16:
	addq	$88, %rsp
	.cfi_def_cfa_offset 56
	popq	%rbx
	.cfi_def_cfa_offset 48
	popq	%r12
	.cfi_def_cfa_offset 40
	popq	%r13
	.cfi_def_cfa_offset 32
	popq	%r14
	.cfi_def_cfa_offset 24
	popq	%r15
	.cfi_def_cfa_offset 16
	popq	%rbp
	.cfi_def_cfa_offset 8
	retq
.Lfunc_end73:
	.size	"utf16_wtf8::encode::transcode_wtf8::<#418c2b53cf60437c>", .Lfunc_end73-"utf16_wtf8::encode::transcode_wtf8::<#418c2b53cf60437c>"
	.cfi_endproc

	.section	.rodata.cst16,"aM",@progbits,16
	.p2align	4, 0x0
.LCPI74_0:
	.byte	1
	.byte	0
	.byte	3
	.byte	2
	.byte	5
	.byte	4
	.byte	7
	.byte	6
	.byte	9
	.byte	8
	.byte	11
	.byte	10
	.byte	13
	.byte	12
	.byte	15
	.byte	14
.LCPI74_1:
	.short	63488
	.short	63488
	.short	63488
	.short	63488
	.short	63488
	.short	63488
	.short	63488
	.short	63488
.LCPI74_2:
	.short	55296
	.short	55296
	.short	55296
	.short	55296
	.short	55296
	.short	55296
	.short	55296
	.short	55296
.LCPI74_3:
	.byte	248
	.byte	248
	.byte	248
	.byte	248
	.byte	248
	.byte	248
	.byte	248
	.byte	248
	.zero	1
	.zero	1
	.zero	1
	.zero	1
	.zero	1
	.zero	1
	.zero	1
	.zero	1
.LCPI74_4:
	.byte	216
	.byte	216
	.byte	216
	.byte	216
	.byte	216
	.byte	216
	.byte	216
	.byte	216
	.zero	1
	.zero	1
	.zero	1
	.zero	1
	.zero	1
	.zero	1
	.zero	1
	.zero	1
.LCPI74_5:
	.long	603924480
	.long	603924480
	.long	603924480
	.long	603924480
.LCPI74_6:
	.long	67107840
	.long	67107840
	.long	67107840
	.long	67107840
.LCPI74_7:
	.long	65536
	.long	65536
	.long	65536
	.long	65536
.LCPI74_8:
	.long	64512
	.long	64512
	.long	64512
	.long	64512
.LCPI74_9:
	.long	1023
	.long	1023
	.long	1023
	.long	1023
	.section	".text.utf16_fixed::decode::to_utf32::<#8b18edd9dd9aa8df>","ax",@progbits
	.p2align	4
	.type	"utf16_fixed::decode::to_utf32::<#8b18edd9dd9aa8df>",@function
"utf16_fixed::decode::to_utf32::<#8b18edd9dd9aa8df>":
	.cfi_startproc
	pushq	%rbp
	.cfi_def_cfa_offset 16
	pushq	%r15
	.cfi_def_cfa_offset 24
	pushq	%r14
	.cfi_def_cfa_offset 32
	pushq	%r13
	.cfi_def_cfa_offset 40
	pushq	%r12
	.cfi_def_cfa_offset 48
	pushq	%rbx
	.cfi_def_cfa_offset 56
	subq	$24, %rsp
	.cfi_def_cfa_offset 80
	.cfi_offset %rbx, -56
	.cfi_offset %r12, -48
	.cfi_offset %r13, -40
	.cfi_offset %r14, -32
	.cfi_offset %r15, -24
	.cfi_offset %rbp, -16
	movq	%rdi, (%rsp)
	testq	%rdx, %rdx
	je	.LBB74_39
	movq	%r8, %r13
	movq	%rdx, %r15
	movq	%rsi, %rbx
	leaq	-32(%rdx), %r9
	leaq	-8(%r8), %r12
	xorl	%r14d, %r14d
	xorl	%ebp, %ebp
	movq	%rdx, 16(%rsp)
	movq	%r12, 8(%rsp)
	jmp	.LBB74_2
	.p2align	4
.LBB74_35:
	movzwl	%di, %eax
	movl	$2, %edx
	cmpq	%r13, %r14
	je	.LBB74_42
.LBB74_36:
	movl	%eax, (%rcx,%r14,4)
	incq	%r14
	addq	%rdx, %rbp
	cmpq	%r15, %rbp
	jae	.LBB74_40
.LBB74_2:
	movq	%r15, %rax
	subq	%rbp, %rax
	cmpq	$2, %rax
	jb	.LBB74_11
	movzbl	(%rbx,%rbp), %edx
	andb	$-8, %dl
	cmpb	$-40, %dl
	jne	.LBB74_11
	cmpq	$32, %rax
	jb	.LBB74_27
	movq	%r13, %rax
	subq	%r14, %rax
	cmpq	$8, %rax
	jb	.LBB74_27
	leaq	(%rbx,%rbp), %rax
	negq	%rbp
	leaq	(%rcx,%r14,4), %rdx
	negq	%r14
	xorl	%esi, %esi
	movq	%r14, %r10
	.p2align	4
.LBB74_7:
	movdqu	(%rax,%rsi), %xmm0
	movdqu	16(%rax,%rsi), %xmm1
	movdqa	.LCPI74_0(%rip), %xmm2
	pshufb	%xmm2, %xmm0
	pshufb	%xmm2, %xmm1
	movdqa	.LCPI74_5(%rip), %xmm2
	paddd	%xmm2, %xmm1
	paddd	%xmm2, %xmm0
	movdqa	%xmm0, %xmm3
	pslld	$10, %xmm3
	movdqa	%xmm1, %xmm2
	pslld	$10, %xmm2
	movdqa	.LCPI74_6(%rip), %xmm4
	pand	%xmm4, %xmm2
	pand	%xmm4, %xmm3
	movdqa	%xmm1, %xmm4
	psrld	$16, %xmm4
	movdqa	%xmm0, %xmm5
	psrld	$16, %xmm5
	movdqa	.LCPI74_7(%rip), %xmm6
	movdqa	.LCPI74_8(%rip), %xmm7
	pand	%xmm7, %xmm0
	por	%xmm5, %xmm0
	paddd	%xmm6, %xmm5
	paddd	%xmm3, %xmm5
	paddd	%xmm4, %xmm6
	paddd	%xmm2, %xmm6
	movdqu	%xmm6, 16(%rdx,%rsi)
	movdqu	%xmm5, (%rdx,%rsi)
	pand	%xmm7, %xmm1
	por	%xmm4, %xmm1
	movdqa	.LCPI74_9(%rip), %xmm2
	pcmpgtd	%xmm2, %xmm1
	pcmpgtd	%xmm2, %xmm0
	packssdw	%xmm1, %xmm0
	packsswb	%xmm0, %xmm0
	pmovmskb	%xmm0, %edi
	orl	$256, %edi
	rep		bsfl	%edi, %edi
	cmpb	$7, %dil
	jbe	.LBB74_37
	leaq	(%r9,%rbp), %rdi
	addq	$-32, %rbp
	leaq	-8(%r10), %r14
	cmpq	$32, %rdi
	jb	.LBB74_10
	addq	%r12, %r10
	addq	$32, %rsi
	cmpq	$7, %r10
	movq	%r14, %r10
	ja	.LBB74_7
.LBB74_10:
	negq	%rbp
	negq	%r14
	movq	%r15, %rsi
	subq	%rbp, %rsi
	jne	.LBB74_28
	jmp	.LBB74_38
	.p2align	4
.LBB74_11:
	leaq	(%rbx,%rbp), %r10
	movq	%r13, %rdx
	subq	%r14, %rdx
	shrq	%rax
	cmpq	%rax, %rdx
	cmovbq	%rdx, %rax
	cmpq	$32, %rax
	jb	.LBB74_15
	leaq	(,%r14,4), %rsi
	leaq	112(%rcx), %rdx
	addq	%rdx, %rsi
	xorl	%edx, %edx
	movq	%rax, %rdi
	.p2align	4
.LBB74_13:
	movdqu	(%r10,%rdx,2), %xmm3
	movdqu	16(%r10,%rdx,2), %xmm2
	movdqu	32(%r10,%rdx,2), %xmm1
	movdqu	48(%r10,%rdx,2), %xmm0
	movdqa	.LCPI74_0(%rip), %xmm4
	pshufb	%xmm4, %xmm3
	pshufb	%xmm4, %xmm1
	pshufb	%xmm4, %xmm2
	pshufb	%xmm4, %xmm0
	movdqa	.LCPI74_1(%rip), %xmm4
	movdqa	%xmm0, %xmm5
	pand	%xmm4, %xmm5
	movdqa	%xmm2, %xmm6
	pand	%xmm4, %xmm6
	movdqa	%xmm1, %xmm7
	pand	%xmm4, %xmm7
	pand	%xmm3, %xmm4
	movdqa	.LCPI74_2(%rip), %xmm8
	pcmpeqw	%xmm8, %xmm4
	pcmpeqw	%xmm8, %xmm7
	por	%xmm4, %xmm7
	pcmpeqw	%xmm8, %xmm6
	pcmpeqw	%xmm8, %xmm5
	por	%xmm6, %xmm5
	packsswb	%xmm5, %xmm7
	pmovmskb	%xmm7, %r11d
	testl	%r11d, %r11d
	jne	.LBB74_16
	pxor	%xmm4, %xmm4
	pmovzxwd	%xmm3, %xmm5
	punpckhwd	%xmm4, %xmm3
	movdqu	%xmm5, -112(%rsi,%rdx,4)
	movdqu	%xmm3, -96(%rsi,%rdx,4)
	pmovzxwd	%xmm2, %xmm3
	punpckhwd	%xmm4, %xmm2
	movdqu	%xmm3, -80(%rsi,%rdx,4)
	movdqu	%xmm2, -64(%rsi,%rdx,4)
	pmovzxwd	%xmm1, %xmm2
	punpckhwd	%xmm4, %xmm1
	movdqu	%xmm2, -48(%rsi,%rdx,4)
	movdqu	%xmm1, -32(%rsi,%rdx,4)
	pmovzxwd	%xmm0, %xmm1
	punpckhwd	%xmm4, %xmm0
	movdqu	%xmm1, -16(%rsi,%rdx,4)
	movdqu	%xmm0, (%rsi,%rdx,4)
	addq	$32, %rdx
	addq	$-32, %rdi
	cmpq	$31, %rdi
	ja	.LBB74_13
	jmp	.LBB74_16
	.p2align	4
.LBB74_15:
	xorl	%edx, %edx
.LBB74_16:
	leaq	(%rcx,%r14,4), %rsi
	.p2align	4
.LBB74_17:
	movq	%rax, %rdi
	subq	%rdx, %rdi
	cmpq	$8, %rdi
	jb	.LBB74_20
	movdqu	(%r10,%rdx,2), %xmm0
	pshufb	.LCPI74_0(%rip), %xmm0
	pxor	%xmm1, %xmm1
	movdqa	%xmm0, %xmm2
	punpckhwd	%xmm1, %xmm2
	pmovzxwd	%xmm0, %xmm1
	movdqu	%xmm1, (%rsi,%rdx,4)
	psrlw	$8, %xmm0
	packuswb	%xmm0, %xmm0
	pand	.LCPI74_3(%rip), %xmm0
	movdqu	%xmm2, 16(%rsi,%rdx,4)
	pcmpeqb	.LCPI74_4(%rip), %xmm0
	pmovmskb	%xmm0, %edi
	orl	$256, %edi
	rep		bsfl	%edi, %edi
	addq	%rdi, %rdx
	cmpb	$7, %dil
	ja	.LBB74_17
	movq	%rax, %rdi
	subq	%rdx, %rdi
	cmpq	$7, %rdi
	ja	.LBB74_26
.LBB74_20:
	cmpq	$7, %rax
	jbe	.LBB74_22
	movdqu	-16(%r10,%rax,2), %xmm0
	pshufb	.LCPI74_0(%rip), %xmm0
	pxor	%xmm1, %xmm1
	movdqa	%xmm0, %xmm2
	punpckhwd	%xmm1, %xmm2
	pmovzxwd	%xmm0, %xmm1
	movdqu	%xmm1, -32(%rsi,%rax,4)
	movdqu	%xmm2, -16(%rsi,%rax,4)
	psrlw	$8, %xmm0
	packuswb	%xmm0, %xmm0
	pand	.LCPI74_3(%rip), %xmm0
	pcmpeqb	.LCPI74_4(%rip), %xmm0
	pmovmskb	%xmm0, %edx
	orl	$256, %edx
	rep		bsfl	%edx, %edx
	addq	%rax, %rdx
	addq	$-8, %rdx
	jmp	.LBB74_26
	.p2align	4
.LBB74_22:
	cmpq	%rdx, %rax
	je	.LBB74_25
	movzwl	(%r10,%rdx,2), %edi
	rolw	$8, %di
	movl	%edi, %r11d
	andl	$63488, %r11d
	cmpl	$55296, %r11d
	je	.LBB74_26
	movzwl	%di, %edi
	movl	%edi, (%rsi,%rdx,4)
	incq	%rdx
	jmp	.LBB74_22
	.p2align	4
.LBB74_25:
	movq	%rax, %rdx
.LBB74_26:
	leaq	(%rbp,%rdx,2), %rbp
	addq	%rdx, %r14
.LBB74_27:
	movq	%r15, %rsi
	subq	%rbp, %rsi
	je	.LBB74_38
.LBB74_28:
	cmpq	$2, %rsi
	jb	.LBB74_41
	movzwl	(%rbx,%rbp), %edi
	rolw	$8, %di
	movl	%edi, %eax
	andl	$63488, %eax
	cmpl	$55296, %eax
	jne	.LBB74_33
	movl	%edi, %edx
	notl	%edx
	movb	$1, %al
	testl	$56320, %edx
	je	.LBB74_44
	cmpq	$4, %rsi
	jb	.LBB74_41
	movzbl	2(%rbx,%rbp), %edx
	andb	$-4, %dl
	cmpb	$-36, %dl
	jne	.LBB74_44
.LBB74_33:
	movl	%edi, %eax
	andl	$64512, %eax
	cmpl	$55296, %eax
	jne	.LBB74_35
	movzwl	2(%rbx,%rbp), %esi
	rolw	$8, %si
	movq	%r9, %r12
	movq	%rbx, %r15
	movq	%rcx, %rbx
	callq	"utf16_units::unit::decode_surrogates"
	movq	%rbx, %rcx
	movq	%r15, %rbx
	movq	16(%rsp), %r15
	movq	%r12, %r9
	movq	8(%rsp), %r12
	movl	$4, %edx
	cmpq	%r13, %r14
	jne	.LBB74_36
	jmp	.LBB74_42
.LBB74_37:
	movzbl	%dil, %r14d
	leaq	(,%r14,4), %rax
	subq	%rbp, %rax
	subq	%r10, %r14
	movq	%rax, %rbp
	movq	%r15, %rsi
	subq	%rbp, %rsi
	jne	.LBB74_28
.LBB74_38:
	movq	%r15, %rbp
	jmp	.LBB74_40
.LBB74_39:
	xorl	%ebp, %ebp
	xorl	%r14d, %r14d
.LBB74_40:
	movq	(%rsp), %rax
	movq	%rbp, (%rax)
	movq	%r14, 8(%rax)
	movw	$0, 16(%rax)
	jmp	.LBB74_46
.LBB74_41:
	movb	$2, %al
	xorl	%ecx, %ecx
	jmp	.LBB74_45
.LBB74_44:
	movb	$2, %cl
	jmp	.LBB74_45
.LBB74_42:
	movb	$3, %al
	xorl	%ecx, %ecx
	movq	%r13, %r14
.LBB74_45:
	movq	(%rsp), %rdx
	movq	%rbp, (%rdx)
	movq	%r14, 8(%rdx)
	movb	%al, 16(%rdx)
	movb	%cl, 17(%rdx)
.LBB74_46:
	addq	$24, %rsp
	.cfi_def_cfa_offset 56
	popq	%rbx
	.cfi_def_cfa_offset 48
	popq	%r12
	.cfi_def_cfa_offset 40
	popq	%r13
	.cfi_def_cfa_offset 32
	popq	%r14
	.cfi_def_cfa_offset 24
	popq	%r15
	.cfi_def_cfa_offset 16
	popq	%rbp
	.cfi_def_cfa_offset 8
	retq
.Lfunc_end74:
	.size	"utf16_fixed::decode::to_utf32::<#8b18edd9dd9aa8df>", .Lfunc_end74-"utf16_fixed::decode::to_utf32::<#8b18edd9dd9aa8df>"
	.cfi_endproc

	.section	.rodata.cst16,"aM",@progbits,16
	.p2align	4, 0x0
.LCPI75_0:
	.short	63488
	.short	63488
	.short	63488
	.short	63488
	.short	63488
	.short	63488
	.short	63488
	.short	63488
.LCPI75_1:
	.short	55296
	.short	55296
	.short	55296
	.short	55296
	.short	55296
	.short	55296
	.short	55296
	.short	55296
.LCPI75_2:
	.byte	248
	.byte	248
	.byte	248
	.byte	248
	.byte	248
	.byte	248
	.byte	248
	.byte	248
	.zero	1
	.zero	1
	.zero	1
	.zero	1
	.zero	1
	.zero	1
	.zero	1
	.zero	1
.LCPI75_3:
	.byte	216
	.byte	216
	.byte	216
	.byte	216
	.byte	216
	.byte	216
	.byte	216
	.byte	216
	.zero	1
	.zero	1
	.zero	1
	.zero	1
	.zero	1
	.zero	1
	.zero	1
	.zero	1
.LCPI75_4:
	.long	603924480
	.long	603924480
	.long	603924480
	.long	603924480
.LCPI75_5:
	.long	67107840
	.long	67107840
	.long	67107840
	.long	67107840
.LCPI75_6:
	.long	65536
	.long	65536
	.long	65536
	.long	65536
.LCPI75_7:
	.long	64512
	.long	64512
	.long	64512
	.long	64512
.LCPI75_8:
	.long	1023
	.long	1023
	.long	1023
	.long	1023
	.section	".text.utf16_fixed::decode::to_utf32::<#418c2b53cf60437c>","ax",@progbits
	.p2align	4
	.type	"utf16_fixed::decode::to_utf32::<#418c2b53cf60437c>",@function
"utf16_fixed::decode::to_utf32::<#418c2b53cf60437c>":
	.cfi_startproc
	pushq	%rbp
	.cfi_def_cfa_offset 16
	pushq	%r15
	.cfi_def_cfa_offset 24
	pushq	%r14
	.cfi_def_cfa_offset 32
	pushq	%r13
	.cfi_def_cfa_offset 40
	pushq	%r12
	.cfi_def_cfa_offset 48
	pushq	%rbx
	.cfi_def_cfa_offset 56
	subq	$24, %rsp
	.cfi_def_cfa_offset 80
	.cfi_offset %rbx, -56
	.cfi_offset %r12, -48
	.cfi_offset %r13, -40
	.cfi_offset %r14, -32
	.cfi_offset %r15, -24
	.cfi_offset %rbp, -16
	movq	%rdi, (%rsp)
	testq	%rdx, %rdx
	je	.LBB75_40
	movq	%rcx, %r10
	movq	%rdx, %rbx
	movq	%rsi, %r13
	leaq	-32(%rdx), %r9
	leaq	-8(%r8), %r12
	xorl	%r14d, %r14d
	xorl	%ebp, %ebp
	movq	%rdx, 16(%rsp)
	movq	%r12, 8(%rsp)
	jmp	.LBB75_2
	.p2align	4
.LBB75_36:
	movl	$2, %ecx
	cmpq	%r8, %r14
	je	.LBB75_43
.LBB75_37:
	movl	%eax, (%r10,%r14,4)
	incq	%r14
	addq	%rcx, %rbp
	cmpq	%rbx, %rbp
	jae	.LBB75_41
.LBB75_2:
	movq	%rbx, %rax
	subq	%rbp, %rax
	cmpq	$2, %rax
	jb	.LBB75_11
	movzbl	1(%r13,%rbp), %ecx
	andb	$-8, %cl
	cmpb	$-40, %cl
	jne	.LBB75_11
	cmpq	$32, %rax
	jb	.LBB75_28
	movq	%r8, %rax
	subq	%r14, %rax
	cmpq	$8, %rax
	jb	.LBB75_28
	movq	%r13, %rax
	addq	%rbp, %rax
	negq	%rbp
	leaq	(%r10,%r14,4), %rdx
	negq	%r14
	xorl	%esi, %esi
	movq	%r14, %rcx
	.p2align	4
.LBB75_7:
	movdqu	(%rax,%rsi), %xmm0
	movdqu	16(%rax,%rsi), %xmm1
	movdqa	.LCPI75_4(%rip), %xmm2
	paddd	%xmm2, %xmm1
	paddd	%xmm2, %xmm0
	movdqa	%xmm0, %xmm3
	pslld	$10, %xmm3
	movdqa	%xmm1, %xmm2
	pslld	$10, %xmm2
	movdqa	.LCPI75_5(%rip), %xmm4
	pand	%xmm4, %xmm2
	pand	%xmm4, %xmm3
	movdqa	%xmm1, %xmm4
	psrld	$16, %xmm4
	movdqa	%xmm0, %xmm5
	psrld	$16, %xmm5
	movdqa	.LCPI75_6(%rip), %xmm6
	movdqa	.LCPI75_7(%rip), %xmm7
	pand	%xmm7, %xmm0
	por	%xmm5, %xmm0
	paddd	%xmm6, %xmm5
	paddd	%xmm3, %xmm5
	paddd	%xmm4, %xmm6
	paddd	%xmm2, %xmm6
	movdqu	%xmm6, 16(%rdx,%rsi)
	movdqu	%xmm5, (%rdx,%rsi)
	pand	%xmm7, %xmm1
	por	%xmm4, %xmm1
	movdqa	.LCPI75_8(%rip), %xmm2
	pcmpgtd	%xmm2, %xmm1
	pcmpgtd	%xmm2, %xmm0
	packssdw	%xmm1, %xmm0
	packsswb	%xmm0, %xmm0
	pmovmskb	%xmm0, %edi
	orl	$256, %edi
	rep		bsfl	%edi, %edi
	cmpb	$7, %dil
	jbe	.LBB75_38
	leaq	(%r9,%rbp), %rdi
	addq	$-32, %rbp
	leaq	-8(%rcx), %r14
	cmpq	$32, %rdi
	jb	.LBB75_10
	addq	%r12, %rcx
	addq	$32, %rsi
	cmpq	$7, %rcx
	movq	%r14, %rcx
	ja	.LBB75_7
.LBB75_10:
	negq	%rbp
	negq	%r14
	movq	%rbx, %rdx
	subq	%rbp, %rdx
	jne	.LBB75_29
	jmp	.LBB75_39
	.p2align	4
.LBB75_11:
	movq	%r13, %rdx
	addq	%rbp, %rdx
	movq	%r8, %rcx
	subq	%r14, %rcx
	shrq	%rax
	cmpq	%rax, %rcx
	cmovbq	%rcx, %rax
	cmpq	$32, %rax
	jb	.LBB75_15
	leaq	(,%r14,4), %rsi
	leaq	112(%r10), %rcx
	addq	%rcx, %rsi
	xorl	%ecx, %ecx
	movq	%rax, %rdi
	.p2align	4
.LBB75_13:
	movdqu	(%rdx,%rcx,2), %xmm3
	movdqu	16(%rdx,%rcx,2), %xmm2
	movdqu	32(%rdx,%rcx,2), %xmm1
	movdqu	48(%rdx,%rcx,2), %xmm0
	movdqa	.LCPI75_0(%rip), %xmm4
	movdqa	%xmm0, %xmm5
	pand	%xmm4, %xmm5
	movdqa	%xmm2, %xmm6
	pand	%xmm4, %xmm6
	movdqa	%xmm1, %xmm7
	pand	%xmm4, %xmm7
	pand	%xmm3, %xmm4
	movdqa	.LCPI75_1(%rip), %xmm8
	pcmpeqw	%xmm8, %xmm4
	pcmpeqw	%xmm8, %xmm7
	por	%xmm4, %xmm7
	pcmpeqw	%xmm8, %xmm6
	pcmpeqw	%xmm8, %xmm5
	por	%xmm6, %xmm5
	packsswb	%xmm5, %xmm7
	pmovmskb	%xmm7, %r11d
	testl	%r11d, %r11d
	jne	.LBB75_16
	pxor	%xmm4, %xmm4
	pmovzxwd	%xmm3, %xmm5
	punpckhwd	%xmm4, %xmm3
	movdqu	%xmm5, -112(%rsi,%rcx,4)
	movdqu	%xmm3, -96(%rsi,%rcx,4)
	pmovzxwd	%xmm2, %xmm3
	punpckhwd	%xmm4, %xmm2
	movdqu	%xmm3, -80(%rsi,%rcx,4)
	movdqu	%xmm2, -64(%rsi,%rcx,4)
	pmovzxwd	%xmm1, %xmm2
	punpckhwd	%xmm4, %xmm1
	movdqu	%xmm2, -48(%rsi,%rcx,4)
	movdqu	%xmm1, -32(%rsi,%rcx,4)
	pmovzxwd	%xmm0, %xmm1
	punpckhwd	%xmm4, %xmm0
	movdqu	%xmm1, -16(%rsi,%rcx,4)
	movdqu	%xmm0, (%rsi,%rcx,4)
	addq	$32, %rcx
	addq	$-32, %rdi
	cmpq	$31, %rdi
	ja	.LBB75_13
	jmp	.LBB75_16
	.p2align	4
.LBB75_15:
	xorl	%ecx, %ecx
.LBB75_16:
	leaq	(%r10,%r14,4), %rsi
	.p2align	4
.LBB75_17:
	movq	%rax, %rdi
	subq	%rcx, %rdi
	cmpq	$8, %rdi
	jb	.LBB75_20
	movdqu	(%rdx,%rcx,2), %xmm0
	pxor	%xmm1, %xmm1
	movdqa	%xmm0, %xmm2
	punpckhwd	%xmm1, %xmm2
	pmovzxwd	%xmm0, %xmm1
	movdqu	%xmm1, (%rsi,%rcx,4)
	psrlw	$8, %xmm0
	packuswb	%xmm0, %xmm0
	pand	.LCPI75_2(%rip), %xmm0
	movdqu	%xmm2, 16(%rsi,%rcx,4)
	pcmpeqb	.LCPI75_3(%rip), %xmm0
	pmovmskb	%xmm0, %edi
	orl	$256, %edi
	rep		bsfl	%edi, %edi
	addq	%rdi, %rcx
	cmpb	$7, %dil
	ja	.LBB75_17
	movq	%rax, %rdi
	subq	%rcx, %rdi
	cmpq	$7, %rdi
	ja	.LBB75_27
.LBB75_20:
	cmpq	$7, %rax
	jbe	.LBB75_22
	movdqu	-16(%rdx,%rax,2), %xmm0
	pxor	%xmm1, %xmm1
	movdqa	%xmm0, %xmm2
	punpckhwd	%xmm1, %xmm2
	pmovzxwd	%xmm0, %xmm1
	movdqu	%xmm1, -32(%rsi,%rax,4)
	movdqu	%xmm2, -16(%rsi,%rax,4)
	psrlw	$8, %xmm0
	packuswb	%xmm0, %xmm0
	pand	.LCPI75_2(%rip), %xmm0
	pcmpeqb	.LCPI75_3(%rip), %xmm0
	pmovmskb	%xmm0, %ecx
	orl	$256, %ecx
	rep		bsfl	%ecx, %ecx
	addq	%rax, %rcx
	addq	$-8, %rcx
	jmp	.LBB75_27
	.p2align	4
.LBB75_22:
	cmpq	%rcx, %rax
	je	.LBB75_26
	leaq	1(%r13), %rdx
	addq	%rbp, %rdx
	.p2align	4
.LBB75_24:
	movzbl	(%rdx,%rcx,2), %edi
	movl	%edi, %r11d
	andl	$-8, %r11d
	cmpl	$216, %r11d
	je	.LBB75_27
	shll	$8, %edi
	movzbl	-1(%rdx,%rcx,2), %r11d
	orl	%edi, %r11d
	movl	%r11d, (%rsi,%rcx,4)
	incq	%rcx
	cmpq	%rcx, %rax
	jne	.LBB75_24
.LBB75_26:
	movq	%rax, %rcx
.LBB75_27:
	leaq	(%rbp,%rcx,2), %rbp
	addq	%rcx, %r14
.LBB75_28:
	movq	%rbx, %rdx
	subq	%rbp, %rdx
	je	.LBB75_39
.LBB75_29:
	cmpq	$2, %rdx
	jb	.LBB75_42
	movzbl	1(%r13,%rbp), %eax
	movzwl	%ax, %ecx
	andl	$-8, %eax
	cmpl	$216, %eax
	jne	.LBB75_34
	movl	%ecx, %esi
	notl	%esi
	movb	$1, %al
	testb	$-36, %sil
	je	.LBB75_45
	cmpq	$4, %rdx
	jb	.LBB75_42
	movzbl	3(%r13,%rbp), %edx
	andb	$-4, %dl
	cmpb	$-36, %dl
	jne	.LBB75_45
.LBB75_34:
	movzbl	(%r13,%rbp), %edx
	movl	%ecx, %eax
	shll	$8, %eax
	orl	%edx, %eax
	andl	$-4, %ecx
	cmpl	$216, %ecx
	jne	.LBB75_36
	movzwl	2(%r13,%rbp), %esi
	movl	%eax, %edi
	movq	%r9, %r12
	movq	%r10, %rbx
	movq	%r8, %r15
	callq	"utf16_units::unit::decode_surrogates"
	movq	%r15, %r8
	movq	%rbx, %r10
	movq	16(%rsp), %rbx
	movq	%r12, %r9
	movq	8(%rsp), %r12
	movl	$4, %ecx
	cmpq	%r8, %r14
	jne	.LBB75_37
	jmp	.LBB75_43
.LBB75_38:
	movzbl	%dil, %r14d
	leaq	(,%r14,4), %rax
	subq	%rbp, %rax
	subq	%rcx, %r14
	movq	%rax, %rbp
	movq	%rbx, %rdx
	subq	%rbp, %rdx
	jne	.LBB75_29
.LBB75_39:
	movq	%rbx, %rbp
	jmp	.LBB75_41
.LBB75_40:
	xorl	%ebp, %ebp
	xorl	%r14d, %r14d
.LBB75_41:
	movq	(%rsp), %rax
	movq	%rbp, (%rax)
	movq	%r14, 8(%rax)
	movw	$0, 16(%rax)
	jmp	.LBB75_47
.LBB75_42:
	movb	$2, %al
	xorl	%ecx, %ecx
	jmp	.LBB75_46
.LBB75_45:
	movb	$2, %cl
	jmp	.LBB75_46
.LBB75_43:
	movb	$3, %al
	xorl	%ecx, %ecx
	movq	%r8, %r14
.LBB75_46:
	movq	(%rsp), %rdx
	movq	%rbp, (%rdx)
	movq	%r14, 8(%rdx)
	movb	%al, 16(%rdx)
	movb	%cl, 17(%rdx)
.LBB75_47:
	addq	$24, %rsp
	.cfi_def_cfa_offset 56
	popq	%rbx
	.cfi_def_cfa_offset 48
	popq	%r12
	.cfi_def_cfa_offset 40
	popq	%r13
	.cfi_def_cfa_offset 32
	popq	%r14
	.cfi_def_cfa_offset 24
	popq	%r15
	.cfi_def_cfa_offset 16
	popq	%rbp
	.cfi_def_cfa_offset 8
	retq
.Lfunc_end75:
	.size	"utf16_fixed::decode::to_utf32::<#418c2b53cf60437c>", .Lfunc_end75-"utf16_fixed::decode::to_utf32::<#418c2b53cf60437c>"
	.cfi_endproc

	.section	.rodata.cst16,"aM",@progbits,16
	.p2align	4, 0x0
.LCPI76_0:
	.byte	1
	.byte	0
	.byte	3
	.byte	2
	.byte	5
	.byte	4
	.byte	7
	.byte	6
	.byte	9
	.byte	8
	.byte	11
	.byte	10
	.byte	13
	.byte	12
	.byte	15
	.byte	14
.LCPI76_1:
	.short	128
	.short	128
	.short	128
	.short	128
	.short	128
	.short	128
	.short	128
	.short	128
	.section	".text.utf16_wtf8::decode::to_wtf8_partial::<#8b18edd9dd9aa8df>","ax",@progbits
	.p2align	4
	.type	"utf16_wtf8::decode::to_wtf8_partial::<#8b18edd9dd9aa8df>",@function
"utf16_wtf8::decode::to_wtf8_partial::<#8b18edd9dd9aa8df>":
	.cfi_startproc
	pushq	%rbp
	.cfi_def_cfa_offset 16
	pushq	%r15
	.cfi_def_cfa_offset 24
	pushq	%r14
	.cfi_def_cfa_offset 32
	pushq	%r13
	.cfi_def_cfa_offset 40
	pushq	%r12
	.cfi_def_cfa_offset 48
	pushq	%rbx
	.cfi_def_cfa_offset 56
	subq	$104, %rsp
	.cfi_def_cfa_offset 160
	.cfi_offset %rbx, -56
	.cfi_offset %r12, -48
	.cfi_offset %r13, -40
	.cfi_offset %r14, -32
	.cfi_offset %r15, -24
	.cfi_offset %rbp, -16
	movq	%rdx, %r14
	movq	%rdi, 80(%rsp)
	xorl	%r11d, %r11d
	xorl	%r15d, %r15d
	movq	%r8, 32(%rsp)
	movq	%rdx, 16(%rsp)
	movq	%rcx, 24(%rsp)
	movq	%rsi, 88(%rsp)
	jmp	.LBB76_1
	.p2align	4
.LBB76_40:
	addq	$2, %r15
	addq	%rax, %r11
.LBB76_1:
	leaq	(%rsi,%r15), %rdi
	movq	%r15, 96(%rsp)
	subq	%r15, %r14
	leaq	(%rcx,%r11), %r9
	subq	%r11, %r8
	pxor	%xmm0, %xmm0
	movdqa	%xmm0, 48(%rsp)
	movq	$0, 64(%rsp)
	leaq	-16(%r14), %rax
	cmpq	$175, %rax
	ja	.LBB76_2
	movq	%r14, %rax
	shrq	%rax
	cmpq	%rax, %r8
	cmovbq	%r8, %rax
	cmpq	$8, %rax
	jb	.LBB76_2
	leaq	(%rax,%rax), %rcx
	xorl	%r13d, %r13d
	xorl	%ebp, %ebp
	.p2align	4
.LBB76_5:
	movdqu	(%rdi,%rbp,2), %xmm0
	pshufb	.LCPI76_0(%rip), %xmm0
	movdqa	.LCPI76_1(%rip), %xmm1
	pmaxuw	%xmm0, %xmm1
	pcmpeqw	%xmm0, %xmm1
	pmovmskb	%xmm1, %edx
	testl	%edx, %edx
	jne	.LBB76_10
	packuswb	%xmm0, %xmm0
	movq	%xmm0, (%r9,%rbp)
	addq	$8, %rbp
	leaq	(%rcx,%r13), %rdx
	addq	$-16, %rdx
	addq	$-16, %r13
	cmpq	$15, %rdx
	ja	.LBB76_5
	negq	%r13
	cmpq	%r13, %rcx
	jbe	.LBB76_11
	movdqu	-16(%rdi,%rcx), %xmm0
	pshufb	.LCPI76_0(%rip), %xmm0
	movdqa	.LCPI76_1(%rip), %xmm1
	pmaxuw	%xmm0, %xmm1
	pcmpeqw	%xmm0, %xmm1
	pmovmskb	%xmm1, %edx
	testl	%edx, %edx
	jne	.LBB76_11
	packuswb	%xmm0, %xmm0
	movq	%xmm0, -8(%r9,%rax)
	movq	%rax, %rbp
	movq	%rcx, %r13
	movq	%r14, %rax
	subq	%r13, %rax
	cmpq	$15, %rax
	ja	.LBB76_21
	jmp	.LBB76_12
	.p2align	4
.LBB76_2:
	xorl	%ebp, %ebp
	xorl	%r13d, %r13d
.LBB76_11:
	movq	%r14, %rax
	subq	%r13, %rax
	cmpq	$15, %rax
	jbe	.LBB76_12
.LBB76_21:
	leaq	-8(%r14), %rax
	cmpq	$183, %rax
	movq	%r11, 40(%rsp)
	ja	.LBB76_22
	movq	%r14, %rsi
	subq	%r13, %rsi
	cmpq	$8, %rsi
	jae	.LBB76_24
.LBB76_22:
	movq	%r9, %r12
	movq	%r8, %rbx
	movq	%rdi, %r15
	cmpq	%r14, %r13
	jne	.LBB76_28
	jmp	.LBB76_26
	.p2align	4
.LBB76_24:
	movq	%rdi, %r15
	addq	%r13, %rdi
	movq	%r9, %r12
	leaq	(%r9,%rbp), %rdx
	movq	%r8, %rbx
	movq	%r8, %rcx
	subq	%rbp, %rcx
	callq	"utf16_to_utf8::vectors::write_vectors::<#8b18edd9dd9aa8df>"
	addq	%rax, %r13
	addq	%rdx, %rbp
	cmpq	%r14, %r13
	je	.LBB76_26
.LBB76_28:
	movq	%rbp, (%rsp)
	leaq	48(%rsp), %rdi
	movq	%r15, %rsi
	movq	%r14, %rdx
	movq	%r12, %rcx
	movq	%rbx, %r8
	movq	%r13, %r9
	callq	"utf16_transcode::transcoding::transcode_many::<#b8dc3d53e12e85b3>"
	movq	96(%rsp), %r15
	addq	48(%rsp), %r15
	movzbl	64(%rsp), %eax
	movq	40(%rsp), %r11
	addq	56(%rsp), %r11
	cmpb	$1, %al
	jne	.LBB76_29
	movq	88(%rsp), %rsi
	movzwl	(%rsi,%r15), %edi
	rolw	$8, %di
	cmpw	$127, %di
	ja	.LBB76_34
	movq	32(%rsp), %r8
	cmpq	%r11, %r8
	movq	16(%rsp), %r14
	movq	24(%rsp), %rcx
	je	.LBB76_32
	movb	%dil, (%rcx,%r11)
	movl	$1, %eax
	jmp	.LBB76_40
	.p2align	4
.LBB76_34:
	movq	32(%rsp), %r8
	movq	%r8, %r10
	subq	%r11, %r10
	movl	%edi, %eax
	andb	$63, %al
	orb	$-128, %al
	movzwl	%di, %edi
	movl	%edi, %r9d
	shrl	$6, %r9d
	cmpl	$2047, %edi
	movq	16(%rsp), %r14
	movq	24(%rsp), %rcx
	ja	.LBB76_38
	cmpq	$2, %r10
	jb	.LBB76_36
	movzwl	%r9w, %edi
	movzbl	%al, %eax
	shll	$8, %eax
	orl	%edi, %eax
	orl	$192, %eax
	movw	%ax, (%rcx,%r11)
	movl	$2, %eax
	jmp	.LBB76_40
	.p2align	4
.LBB76_38:
	cmpq	$3, %r10
	jb	.LBB76_36
	shrl	$12, %edi
	orb	$-32, %dil
	andb	$63, %r9b
	orb	$-128, %r9b
	movb	%dil, (%rcx,%r11)
	movb	%r9b, 1(%rcx,%r11)
	movb	%al, 2(%rcx,%r11)
	movl	$3, %eax
	jmp	.LBB76_40
.LBB76_10:
	negq	%r13
	movq	%r14, %rax
	subq	%r13, %rax
	cmpq	$15, %rax
	ja	.LBB76_21
	.p2align	4
.LBB76_12:
	movq	%r8, %rcx
	subq	%rbp, %rcx
	movq	%rax, %rdx
	shrq	%rdx
	leaq	(%rdx,%rdx,2), %rdx
	cmpq	%rdx, %rcx
	jb	.LBB76_21
	cmpq	$2, %rax
	jae	.LBB76_14
	jmp	.LBB76_21
	.p2align	4
.LBB76_15:
	movb	%cl, (%r9,%rbp)
	incq	%rbp
.LBB76_20:
	addq	$2, %r13
	addq	$-2, %rax
	cmpq	$1, %rax
	jbe	.LBB76_21
.LBB76_14:
	movzwl	(%rdi,%r13), %ecx
	rolw	$8, %cx
	cmpw	$127, %cx
	jbe	.LBB76_15
	movzwl	%cx, %edx
	cmpl	$2047, %edx
	ja	.LBB76_18
	shrl	$6, %edx
	andl	$63, %ecx
	shll	$8, %ecx
	orl	%edx, %ecx
	orl	$32960, %ecx
	movw	%cx, (%r9,%rbp)
	addq	$2, %rbp
	jmp	.LBB76_20
	.p2align	4
.LBB76_18:
	movl	%ecx, %esi
	andl	$63488, %esi
	cmpl	$55296, %esi
	je	.LBB76_21
	movl	%ecx, %esi
	andb	$63, %sil
	orb	$-128, %sil
	shrl	$6, %ecx
	andb	$63, %cl
	orb	$-128, %cl
	shrl	$12, %edx
	orb	$-32, %dl
	movb	%dl, (%r9,%rbp)
	movb	%cl, 1(%r9,%rbp)
	movb	%sil, 2(%r9,%rbp)
	addq	$3, %rbp
	jmp	.LBB76_20
.LBB76_26:
	movq	40(%rsp), %r11
	addq	%rbp, %r11
	xorl	%eax, %eax
	xorl	%ecx, %ecx
	movq	16(%rsp), %r15
	jmp	.LBB76_27
.LBB76_29:
	movzbl	65(%rsp), %ecx
	jmp	.LBB76_27
.LBB76_36:
	movb	$3, %al
	xorl	%ecx, %ecx
	jmp	.LBB76_27
.LBB76_32:
	movb	$3, %al
	xorl	%ecx, %ecx
	movq	%r8, %r11
.LBB76_27:
	movq	80(%rsp), %rdx
	movq	%r15, (%rdx)
	movq	%r11, 8(%rdx)
	movb	%al, 16(%rdx)
	movb	%cl, 17(%rdx)
	addq	$104, %rsp
	.cfi_def_cfa_offset 56
	popq	%rbx
	.cfi_def_cfa_offset 48
	popq	%r12
	.cfi_def_cfa_offset 40
	popq	%r13
	.cfi_def_cfa_offset 32
	popq	%r14
	.cfi_def_cfa_offset 24
	popq	%r15
	.cfi_def_cfa_offset 16
	popq	%rbp
	.cfi_def_cfa_offset 8
	retq
.Lfunc_end76:
	.size	"utf16_wtf8::decode::to_wtf8_partial::<#8b18edd9dd9aa8df>", .Lfunc_end76-"utf16_wtf8::decode::to_wtf8_partial::<#8b18edd9dd9aa8df>"
	.cfi_endproc

	.section	.rodata.cst16,"aM",@progbits,16
	.p2align	4, 0x0
.LCPI77_0:
	.short	128
	.short	128
	.short	128
	.short	128
	.short	128
	.short	128
	.short	128
	.short	128
	.section	".text.utf16_wtf8::decode::to_wtf8_partial::<#418c2b53cf60437c>","ax",@progbits
	.p2align	4
	.type	"utf16_wtf8::decode::to_wtf8_partial::<#418c2b53cf60437c>",@function
"utf16_wtf8::decode::to_wtf8_partial::<#418c2b53cf60437c>":
	.cfi_startproc
	pushq	%rbp
	.cfi_def_cfa_offset 16
	pushq	%r15
	.cfi_def_cfa_offset 24
	pushq	%r14
	.cfi_def_cfa_offset 32
	pushq	%r13
	.cfi_def_cfa_offset 40
	pushq	%r12
	.cfi_def_cfa_offset 48
	pushq	%rbx
	.cfi_def_cfa_offset 56
	subq	$104, %rsp
	.cfi_def_cfa_offset 160
	.cfi_offset %rbx, -56
	.cfi_offset %r12, -48
	.cfi_offset %r13, -40
	.cfi_offset %r14, -32
	.cfi_offset %r15, -24
	.cfi_offset %rbp, -16
	movq	%rdx, %r14
	movq	%rdi, 80(%rsp)
	leaq	1(%rsi), %rax
	movq	%rax, 88(%rsp)
	xorl	%r11d, %r11d
	xorl	%ebp, %ebp
	movq	%r8, 24(%rsp)
	movq	%rcx, 8(%rsp)
	movq	%rdx, 16(%rsp)
	movq	%rsi, 96(%rsp)
	jmp	.LBB77_1
	.p2align	4
.LBB77_41:
	addq	$2, %rbp
	addq	%rax, %r11
.LBB77_1:
	leaq	(%rsi,%rbp), %r9
	subq	%rbp, %r14
	leaq	(%rcx,%r11), %r10
	subq	%r11, %r8
	pxor	%xmm0, %xmm0
	movdqa	%xmm0, 48(%rsp)
	movq	$0, 64(%rsp)
	leaq	-16(%r14), %rax
	cmpq	$175, %rax
	ja	.LBB77_2
	movq	%r14, %rax
	shrq	%rax
	cmpq	%rax, %r8
	cmovbq	%r8, %rax
	cmpq	$8, %rax
	jb	.LBB77_2
	leaq	(%rax,%rax), %rcx
	xorl	%r12d, %r12d
	xorl	%r15d, %r15d
	.p2align	4
.LBB77_5:
	movdqu	(%r9,%r15,2), %xmm0
	movdqa	.LCPI77_0(%rip), %xmm1
	pmaxuw	%xmm0, %xmm1
	pcmpeqw	%xmm0, %xmm1
	pmovmskb	%xmm1, %edx
	testl	%edx, %edx
	jne	.LBB77_10
	packuswb	%xmm0, %xmm0
	movq	%xmm0, (%r10,%r15)
	addq	$8, %r15
	leaq	(%rcx,%r12), %rdx
	addq	$-16, %rdx
	addq	$-16, %r12
	cmpq	$15, %rdx
	ja	.LBB77_5
	negq	%r12
	cmpq	%r12, %rcx
	jbe	.LBB77_11
	movdqu	-16(%r9,%rcx), %xmm0
	movdqa	.LCPI77_0(%rip), %xmm1
	pmaxuw	%xmm0, %xmm1
	pcmpeqw	%xmm0, %xmm1
	pmovmskb	%xmm1, %edx
	testl	%edx, %edx
	jne	.LBB77_11
	packuswb	%xmm0, %xmm0
	movq	%xmm0, -8(%r10,%rax)
	movq	%rax, %r15
	movq	%rcx, %r12
	jmp	.LBB77_11
	.p2align	4
.LBB77_2:
	xorl	%r15d, %r15d
	xorl	%r12d, %r12d
.LBB77_11:
	movq	%r14, %rax
	subq	%r12, %rax
	cmpq	$15, %rax
	movq	%r8, 40(%rsp)
	jbe	.LBB77_12
.LBB77_22:
	leaq	-8(%r14), %rax
	cmpq	$183, %rax
	movq	%r11, 32(%rsp)
	ja	.LBB77_23
	movq	%r14, %rsi
	subq	%r12, %rsi
	cmpq	$8, %rsi
	jae	.LBB77_25
.LBB77_23:
	movq	%r10, %r13
	movq	%r9, %rbx
	cmpq	%r14, %r12
	jne	.LBB77_29
	jmp	.LBB77_27
	.p2align	4
.LBB77_12:
	movq	%r8, %rcx
	subq	%r15, %rcx
	movq	%rax, %rdx
	shrq	%rdx
	leaq	(%rdx,%rdx,2), %rdx
	cmpq	%rdx, %rcx
	jb	.LBB77_22
	cmpq	$2, %rax
	jb	.LBB77_22
	movq	88(%rsp), %rcx
	addq	%rbp, %rcx
	jmp	.LBB77_15
	.p2align	4
.LBB77_16:
	movb	%dl, (%r10,%r15)
	incq	%r15
.LBB77_21:
	addq	$2, %r12
	addq	$-2, %rax
	cmpq	$1, %rax
	jbe	.LBB77_22
.LBB77_15:
	movzbl	-1(%rcx,%r12), %edx
	movzbl	(%rcx,%r12), %edi
	movl	%edi, %esi
	shll	$8, %esi
	orl	%edx, %esi
	cmpw	$127, %si
	jbe	.LBB77_16
	cmpb	$7, %dil
	ja	.LBB77_19
	movzwl	%dx, %edx
	andl	$63, %edx
	shll	$8, %edx
	movzwl	%si, %esi
	shrl	$6, %esi
	orl	%edx, %esi
	orl	$32960, %esi
	movw	%si, (%r10,%r15)
	addq	$2, %r15
	jmp	.LBB77_21
	.p2align	4
.LBB77_19:
	movzwl	%di, %r8d
	andl	$-8, %r8d
	cmpl	$216, %r8d
	je	.LBB77_22
	andb	$63, %dl
	orb	$-128, %dl
	shrl	$6, %esi
	andb	$63, %sil
	orb	$-128, %sil
	shrb	$4, %dil
	orb	$-32, %dil
	movb	%dil, (%r10,%r15)
	movb	%sil, 1(%r10,%r15)
	movb	%dl, 2(%r10,%r15)
	addq	$3, %r15
	jmp	.LBB77_21
	.p2align	4
.LBB77_25:
	movq	%r9, %rbx
	leaq	(%r9,%r12), %rdi
	movq	%r10, %r13
	leaq	(%r10,%r15), %rdx
	movq	40(%rsp), %rcx
	subq	%r15, %rcx
	callq	"utf16_to_utf8::vectors::write_vectors::<#418c2b53cf60437c>"
	addq	%rax, %r12
	addq	%rdx, %r15
	cmpq	%r14, %r12
	je	.LBB77_27
.LBB77_29:
	movq	%r15, (%rsp)
	leaq	48(%rsp), %rdi
	movq	%rbx, %rsi
	movq	%r14, %rdx
	movq	%r13, %rcx
	movq	40(%rsp), %r8
	movq	%r12, %r9
	callq	"utf16_transcode::transcoding::transcode_many::<#556930da7d070edc>"
	addq	48(%rsp), %rbp
	movzbl	64(%rsp), %eax
	movq	32(%rsp), %r11
	addq	56(%rsp), %r11
	cmpb	$1, %al
	jne	.LBB77_30
	movq	96(%rsp), %rsi
	movzbl	(%rsi,%rbp), %eax
	movzbl	1(%rsi,%rbp), %ecx
	movl	%ecx, %edx
	shll	$8, %edx
	orl	%eax, %edx
	cmpw	$127, %dx
	ja	.LBB77_35
	movq	24(%rsp), %r8
	cmpq	%r11, %r8
	movq	16(%rsp), %r14
	je	.LBB77_33
	movq	8(%rsp), %rcx
	movb	%al, (%rcx,%r11)
	movl	$1, %eax
	jmp	.LBB77_41
	.p2align	4
.LBB77_35:
	movq	24(%rsp), %r8
	movq	%r8, %r9
	subq	%r11, %r9
	andl	$63, %eax
	orl	$128, %eax
	movzwl	%dx, %edi
	shrl	$6, %edi
	cmpb	$7, %cl
	movq	16(%rsp), %r14
	ja	.LBB77_39
	cmpq	$2, %r9
	jb	.LBB77_37
	movzwl	%ax, %eax
	shll	$8, %eax
	movzwl	%di, %ecx
	orl	%eax, %ecx
	orl	$192, %ecx
	movq	8(%rsp), %rax
	movw	%cx, (%rax,%r11)
	movq	%rax, %rcx
	movl	$2, %eax
	jmp	.LBB77_41
	.p2align	4
.LBB77_39:
	cmpq	$3, %r9
	jb	.LBB77_37
	shrb	$4, %cl
	orb	$-32, %cl
	andb	$63, %dil
	orb	$-128, %dil
	movq	8(%rsp), %r9
	movb	%cl, (%r9,%r11)
	movq	%r9, %rcx
	movb	%dil, 1(%r9,%r11)
	movb	%al, 2(%r9,%r11)
	movl	$3, %eax
	jmp	.LBB77_41
.LBB77_10:
	negq	%r12
	jmp	.LBB77_11
.LBB77_27:
	movq	32(%rsp), %r11
	addq	%r15, %r11
	xorl	%eax, %eax
	xorl	%ecx, %ecx
	movq	16(%rsp), %rbp
	jmp	.LBB77_28
.LBB77_30:
	movzbl	65(%rsp), %ecx
	jmp	.LBB77_28
.LBB77_37:
	movb	$3, %al
	xorl	%ecx, %ecx
	jmp	.LBB77_28
.LBB77_33:
	movb	$3, %al
	xorl	%ecx, %ecx
	movq	%r8, %r11
.LBB77_28:
	movq	80(%rsp), %rdx
	movq	%rbp, (%rdx)
	movq	%r11, 8(%rdx)
	movb	%al, 16(%rdx)
	movb	%cl, 17(%rdx)
	addq	$104, %rsp
	.cfi_def_cfa_offset 56
	popq	%rbx
	.cfi_def_cfa_offset 48
	popq	%r12
	.cfi_def_cfa_offset 40
	popq	%r13
	.cfi_def_cfa_offset 32
	popq	%r14
	.cfi_def_cfa_offset 24
	popq	%r15
	.cfi_def_cfa_offset 16
	popq	%rbp
	.cfi_def_cfa_offset 8
	retq
.Lfunc_end77:
	.size	"utf16_wtf8::decode::to_wtf8_partial::<#418c2b53cf60437c>", .Lfunc_end77-"utf16_wtf8::decode::to_wtf8_partial::<#418c2b53cf60437c>"
	.cfi_endproc

	.section	.rodata.cst16,"aM",@progbits,16
	.p2align	4, 0x0
.LCPI78_0:
	.byte	255
	.byte	0
	.byte	255
	.byte	0
	.byte	255
	.byte	0
	.byte	255
	.byte	0
	.byte	255
	.byte	0
	.byte	255
	.byte	0
	.byte	255
	.byte	0
	.byte	255
	.byte	0
.LCPI78_1:
	.zero	16,248
.LCPI78_2:
	.zero	16,216
.LCPI78_3:
	.byte	0
	.byte	2
	.byte	4
	.byte	6
	.byte	8
	.byte	10
	.byte	12
	.byte	14
	.zero	1
	.zero	1
	.zero	1
	.zero	1
	.zero	1
	.zero	1
	.zero	1
	.zero	1
.LCPI78_4:
	.byte	248
	.byte	248
	.byte	248
	.byte	248
	.byte	248
	.byte	248
	.byte	248
	.byte	248
	.zero	1
	.zero	1
	.zero	1
	.zero	1
	.zero	1
	.zero	1
	.zero	1
	.zero	1
.LCPI78_5:
	.byte	216
	.byte	216
	.byte	216
	.byte	216
	.byte	216
	.byte	216
	.byte	216
	.byte	216
	.zero	1
	.zero	1
	.zero	1
	.zero	1
	.zero	1
	.zero	1
	.zero	1
	.zero	1
.LCPI78_6:
	.byte	0
	.byte	2
	.byte	4
	.byte	6
	.zero	1
	.zero	1
	.zero	1
	.zero	1
	.zero	1
	.zero	1
	.zero	1
	.zero	1
	.zero	1
	.zero	1
	.zero	1
	.zero	1
.LCPI78_7:
	.byte	248
	.byte	248
	.byte	248
	.byte	248
	.zero	1
	.zero	1
	.zero	1
	.zero	1
	.zero	1
	.zero	1
	.zero	1
	.zero	1
	.zero	1
	.zero	1
	.zero	1
	.zero	1
.LCPI78_8:
	.byte	216
	.byte	216
	.byte	216
	.byte	216
	.zero	1
	.zero	1
	.zero	1
	.zero	1
	.zero	1
	.zero	1
	.zero	1
	.zero	1
	.zero	1
	.zero	1
	.zero	1
	.zero	1
	.section	".text.dethrux::validate::validity_of_many::<#8b18edd9dd9aa8df>","ax",@progbits
	.p2align	4
	.type	"dethrux::validate::validity_of_many::<#8b18edd9dd9aa8df>",@function
"dethrux::validate::validity_of_many::<#8b18edd9dd9aa8df>":
	.cfi_startproc
	pushq	%r15
	.cfi_def_cfa_offset 16
	pushq	%r14
	.cfi_def_cfa_offset 24
	pushq	%r12
	.cfi_def_cfa_offset 32
	pushq	%rbx
	.cfi_def_cfa_offset 40
	pushq	%rax
	.cfi_def_cfa_offset 48
	.cfi_offset %rbx, -40
	.cfi_offset %r12, -32
	.cfi_offset %r14, -24
	.cfi_offset %r15, -16
	movq	%rdx, %r14
	movq	%rsi, %r15
	movq	%rdi, %rbx
	cmpq	$2, %rdx
	jne	.LBB78_3
	movzbl	(%r15), %eax
	andb	$-8, %al
	cmpb	$-40, %al
	je	.LBB78_23
	xorl	%ecx, %ecx
	movl	$2, %r12d
	xorl	%eax, %eax
	jmp	.LBB78_25
.LBB78_3:
	cmpq	$7, %r14
	ja	.LBB78_14
	xorl	%ecx, %ecx
	testq	%r14, %r14
	je	.LBB78_5
	cmpq	$6, %r14
	je	.LBB78_11
	cmpq	$4, %r14
	jne	.LBB78_23
	movzbl	(%r15), %eax
	andb	$-8, %al
	cmpb	$-40, %al
	je	.LBB78_23
	movzbl	2(%r15), %edx
	andb	$-8, %dl
	movl	$4, %r12d
	movl	$0, %eax
	cmpb	$-40, %dl
	jne	.LBB78_25
	jmp	.LBB78_23
.LBB78_14:
	cmpq	$65, %r14
	setae	%al
	movl	%r14d, %ecx
	orb	%al, %cl
	testb	$1, %cl
	jne	.LBB78_23
	cmpq	$15, %r14
	ja	.LBB78_20
	movq	(%r15), %xmm0
	pshufb	.LCPI78_6(%rip), %xmm0
	pand	.LCPI78_7(%rip), %xmm0
	pcmpeqb	.LCPI78_8(%rip), %xmm0
	pmovsxbd	%xmm0, %xmm0
	movmskps	%xmm0, %eax
	testl	%eax, %eax
	jne	.LBB78_23
	movq	-8(%r15,%r14), %xmm0
	pshufb	.LCPI78_6(%rip), %xmm0
	pand	.LCPI78_7(%rip), %xmm0
	pcmpeqb	.LCPI78_8(%rip), %xmm0
	pmovsxbd	%xmm0, %xmm0
	movmskps	%xmm0, %eax
	testl	%eax, %eax
	jne	.LBB78_23
	jmp	.LBB78_19
.LBB78_11:
	movzbl	(%r15), %eax
	andb	$-8, %al
	cmpb	$-40, %al
	je	.LBB78_23
	movzbl	2(%r15), %eax
	andb	$-8, %al
	cmpb	$-40, %al
	je	.LBB78_23
	movzbl	4(%r15), %edx
	andb	$-8, %dl
	movl	$6, %r12d
	movl	$0, %eax
	cmpb	$-40, %dl
	jne	.LBB78_25
	jmp	.LBB78_23
.LBB78_20:
	cmpq	$31, %r14
	ja	.LBB78_26
	movdqu	(%r15), %xmm0
	pshufb	.LCPI78_3(%rip), %xmm0
	pand	.LCPI78_4(%rip), %xmm0
	pcmpeqb	.LCPI78_5(%rip), %xmm0
	pmovmskb	%xmm0, %eax
	testb	%al, %al
	jne	.LBB78_23
	movdqu	-16(%r15,%r14), %xmm0
	pshufb	.LCPI78_3(%rip), %xmm0
	pand	.LCPI78_4(%rip), %xmm0
	pcmpeqb	.LCPI78_5(%rip), %xmm0
	pmovmskb	%xmm0, %eax
	testb	%al, %al
	jne	.LBB78_23
	jmp	.LBB78_19
.LBB78_26:
	movdqu	(%r15), %xmm1
	movdqu	16(%r15), %xmm2
	movdqa	.LCPI78_0(%rip), %xmm0
	pand	%xmm0, %xmm2
	pand	%xmm0, %xmm1
	packuswb	%xmm2, %xmm1
	pand	.LCPI78_1(%rip), %xmm1
	pcmpeqb	.LCPI78_2(%rip), %xmm1
	pmovmskb	%xmm1, %eax
	testl	%eax, %eax
	jne	.LBB78_23
	movdqu	-32(%r15,%r14), %xmm1
	movdqu	-16(%r15,%r14), %xmm2
	pand	%xmm0, %xmm2
	pand	%xmm0, %xmm1
	packuswb	%xmm2, %xmm1
	pand	.LCPI78_1(%rip), %xmm1
	pcmpeqb	.LCPI78_2(%rip), %xmm1
	pmovmskb	%xmm1, %eax
	testl	%eax, %eax
	je	.LBB78_19
.LBB78_23:
	movq	%r15, %rdi
	movq	%r14, %rsi
	callq	"utf16_units::validate::valid_len::<#8b18edd9dd9aa8df>"
	movq	%r14, %rsi
	subq	%rax, %rsi
	jne	.LBB78_24
.LBB78_19:
	xorl	%ecx, %ecx
.LBB78_5:
	movq	%r14, %r12
	xorl	%eax, %eax
	jmp	.LBB78_25
.LBB78_24:
	movq	%rax, %r12
	addq	%rax, %r15
	movq	%r15, %rdi
	callq	"utf16_units::validate::error_len::<#8b18edd9dd9aa8df>"
	xorl	%esi, %esi
	xorl	%ecx, %ecx
	cmpb	$1, %al
	setne	%cl
	movzbl	%dl, %eax
	cmovnel	%esi, %eax
	incl	%ecx
	movzbl	%al, %eax
.LBB78_25:
	movq	%r12, (%rbx)
	movl	%ecx, 8(%rbx)
	movl	%eax, 12(%rbx)
	addq	$8, %rsp
	.cfi_def_cfa_offset 40
	popq	%rbx
	.cfi_def_cfa_offset 32
	popq	%r12
	.cfi_def_cfa_offset 24
	popq	%r14
	.cfi_def_cfa_offset 16
	popq	%r15
	.cfi_def_cfa_offset 8
	retq
.Lfunc_end78:
	.size	"dethrux::validate::validity_of_many::<#8b18edd9dd9aa8df>", .Lfunc_end78-"dethrux::validate::validity_of_many::<#8b18edd9dd9aa8df>"
	.cfi_endproc

	.section	.rodata.cst16,"aM",@progbits,16
	.p2align	4, 0x0
.LCPI79_0:
	.zero	16,248
.LCPI79_1:
	.zero	16,216
.LCPI79_2:
	.byte	248
	.byte	248
	.byte	248
	.byte	248
	.byte	248
	.byte	248
	.byte	248
	.byte	248
	.zero	1
	.zero	1
	.zero	1
	.zero	1
	.zero	1
	.zero	1
	.zero	1
	.zero	1
.LCPI79_3:
	.byte	216
	.byte	216
	.byte	216
	.byte	216
	.byte	216
	.byte	216
	.byte	216
	.byte	216
	.zero	1
	.zero	1
	.zero	1
	.zero	1
	.zero	1
	.zero	1
	.zero	1
	.zero	1
.LCPI79_4:
	.byte	248
	.byte	248
	.byte	248
	.byte	248
	.zero	1
	.zero	1
	.zero	1
	.zero	1
	.zero	1
	.zero	1
	.zero	1
	.zero	1
	.zero	1
	.zero	1
	.zero	1
	.zero	1
.LCPI79_5:
	.byte	216
	.byte	216
	.byte	216
	.byte	216
	.zero	1
	.zero	1
	.zero	1
	.zero	1
	.zero	1
	.zero	1
	.zero	1
	.zero	1
	.zero	1
	.zero	1
	.zero	1
	.zero	1
	.section	".text.dethrux::validate::validity_of_many::<#418c2b53cf60437c>","ax",@progbits
	.p2align	4
	.type	"dethrux::validate::validity_of_many::<#418c2b53cf60437c>",@function
"dethrux::validate::validity_of_many::<#418c2b53cf60437c>":
	.cfi_startproc
	pushq	%r15
	.cfi_def_cfa_offset 16
	pushq	%r14
	.cfi_def_cfa_offset 24
	pushq	%r12
	.cfi_def_cfa_offset 32
	pushq	%rbx
	.cfi_def_cfa_offset 40
	pushq	%rax
	.cfi_def_cfa_offset 48
	.cfi_offset %rbx, -40
	.cfi_offset %r12, -32
	.cfi_offset %r14, -24
	.cfi_offset %r15, -16
	movq	%rdx, %r14
	movq	%rsi, %r15
	movq	%rdi, %rbx
	cmpq	$2, %rdx
	jne	.LBB79_3
	movzbl	1(%r15), %eax
	andb	$-8, %al
	cmpb	$-40, %al
	je	.LBB79_23
	xorl	%ecx, %ecx
	movl	$2, %r12d
	xorl	%eax, %eax
	jmp	.LBB79_25
.LBB79_3:
	cmpq	$7, %r14
	ja	.LBB79_14
	xorl	%ecx, %ecx
	testq	%r14, %r14
	je	.LBB79_5
	cmpq	$6, %r14
	je	.LBB79_11
	cmpq	$4, %r14
	jne	.LBB79_23
	movzbl	1(%r15), %eax
	andb	$-8, %al
	cmpb	$-40, %al
	je	.LBB79_23
	movzbl	3(%r15), %edx
	andb	$-8, %dl
	movl	$4, %r12d
	movl	$0, %eax
	cmpb	$-40, %dl
	jne	.LBB79_25
	jmp	.LBB79_23
.LBB79_14:
	cmpq	$65, %r14
	setae	%al
	movl	%r14d, %ecx
	orb	%al, %cl
	testb	$1, %cl
	jne	.LBB79_23
	cmpq	$15, %r14
	ja	.LBB79_20
	movq	(%r15), %xmm0
	psrlw	$8, %xmm0
	packuswb	%xmm0, %xmm0
	pand	.LCPI79_4(%rip), %xmm0
	pcmpeqb	.LCPI79_5(%rip), %xmm0
	pmovsxbd	%xmm0, %xmm0
	movmskps	%xmm0, %eax
	testl	%eax, %eax
	jne	.LBB79_23
	movq	-8(%r15,%r14), %xmm0
	psrlw	$8, %xmm0
	packuswb	%xmm0, %xmm0
	pand	.LCPI79_4(%rip), %xmm0
	pcmpeqb	.LCPI79_5(%rip), %xmm0
	pmovsxbd	%xmm0, %xmm0
	movmskps	%xmm0, %eax
	testl	%eax, %eax
	jne	.LBB79_23
	jmp	.LBB79_19
.LBB79_11:
	movzbl	1(%r15), %eax
	andb	$-8, %al
	cmpb	$-40, %al
	je	.LBB79_23
	movzbl	3(%r15), %eax
	andb	$-8, %al
	cmpb	$-40, %al
	je	.LBB79_23
	movzbl	5(%r15), %edx
	andb	$-8, %dl
	movl	$6, %r12d
	movl	$0, %eax
	cmpb	$-40, %dl
	jne	.LBB79_25
	jmp	.LBB79_23
.LBB79_20:
	cmpq	$31, %r14
	ja	.LBB79_26
	movdqu	(%r15), %xmm0
	psrlw	$8, %xmm0
	packuswb	%xmm0, %xmm0
	pand	.LCPI79_2(%rip), %xmm0
	pcmpeqb	.LCPI79_3(%rip), %xmm0
	pmovmskb	%xmm0, %eax
	testb	%al, %al
	jne	.LBB79_23
	movdqu	-16(%r15,%r14), %xmm0
	psrlw	$8, %xmm0
	packuswb	%xmm0, %xmm0
	pand	.LCPI79_2(%rip), %xmm0
	pcmpeqb	.LCPI79_3(%rip), %xmm0
	pmovmskb	%xmm0, %eax
	testb	%al, %al
	jne	.LBB79_23
	jmp	.LBB79_19
.LBB79_26:
	movdqu	(%r15), %xmm0
	movdqu	16(%r15), %xmm1
	psrlw	$8, %xmm1
	psrlw	$8, %xmm0
	packuswb	%xmm1, %xmm0
	pand	.LCPI79_0(%rip), %xmm0
	pcmpeqb	.LCPI79_1(%rip), %xmm0
	pmovmskb	%xmm0, %eax
	testl	%eax, %eax
	jne	.LBB79_23
	movdqu	-32(%r15,%r14), %xmm0
	movdqu	-16(%r15,%r14), %xmm1
	psrlw	$8, %xmm1
	psrlw	$8, %xmm0
	packuswb	%xmm1, %xmm0
	pand	.LCPI79_0(%rip), %xmm0
	pcmpeqb	.LCPI79_1(%rip), %xmm0
	pmovmskb	%xmm0, %eax
	testl	%eax, %eax
	je	.LBB79_19
.LBB79_23:
	movq	%r15, %rdi
	movq	%r14, %rsi
	callq	"utf16_units::validate::valid_len::<#418c2b53cf60437c>"
	movq	%r14, %rsi
	subq	%rax, %rsi
	jne	.LBB79_24
.LBB79_19:
	xorl	%ecx, %ecx
.LBB79_5:
	movq	%r14, %r12
	xorl	%eax, %eax
	jmp	.LBB79_25
.LBB79_24:
	movq	%rax, %r12
	addq	%rax, %r15
	movq	%r15, %rdi
	callq	"utf16_units::validate::error_len::<#418c2b53cf60437c>"
	xorl	%esi, %esi
	xorl	%ecx, %ecx
	cmpb	$1, %al
	setne	%cl
	movzbl	%dl, %eax
	cmovnel	%esi, %eax
	incl	%ecx
	movzbl	%al, %eax
.LBB79_25:
	movq	%r12, (%rbx)
	movl	%ecx, 8(%rbx)
	movl	%eax, 12(%rbx)
	addq	$8, %rsp
	.cfi_def_cfa_offset 40
	popq	%rbx
	.cfi_def_cfa_offset 32
	popq	%r12
	.cfi_def_cfa_offset 24
	popq	%r14
	.cfi_def_cfa_offset 16
	popq	%r15
	.cfi_def_cfa_offset 8
	retq
.Lfunc_end79:
	.size	"dethrux::validate::validity_of_many::<#418c2b53cf60437c>", .Lfunc_end79-"dethrux::validate::validity_of_many::<#418c2b53cf60437c>"
	.cfi_endproc

	.section	.rodata.cst16,"aM",@progbits,16
	.p2align	4, 0x0
.LCPI80_0:
	.long	65536
	.long	65536
	.long	65536
	.long	65536
.LCPI80_1:
	.long	65535
	.long	65535
	.zero	4
	.zero	4
.LCPI80_2:
	.quad	1
	.quad	1
.LCPI80_3:
	.long	1114112
	.long	1114112
	.long	1114112
	.long	1114112
.LCPI80_4:
	.long	1114111
	.long	1114111
	.zero	4
	.zero	4
	.section	.text.dethrux_from_utf32_lossy_len,"ax",@progbits
	.globl	dethrux_from_utf32_lossy_len_v2
	.hidden	dethrux_from_utf32_lossy_len_v2
	.p2align	4
	.type	dethrux_from_utf32_lossy_len_v2,@function
dethrux_from_utf32_lossy_len_v2:
	.cfi_startproc
	xorl	%edx, %edx
	testq	%rdi, %rdi
	sete	%dl
	shll	$12, %edx
	leaq	(%rdi,%rdx), %rcx
	cmpq	$16, %rsi
	jb	.LBB80_1
	xorl	%r8d, %r8d
	movq	%rsi, %r9
	xorl	%eax, %eax
	.p2align	4
.LBB80_18:
	movdqu	(%rcx,%r8,4), %xmm0
	movdqu	16(%rcx,%r8,4), %xmm1
	movdqu	32(%rcx,%r8,4), %xmm2
	movdqu	48(%rcx,%r8,4), %xmm3
	movdqa	.LCPI80_0(%rip), %xmm4
	movdqa	%xmm3, %xmm5
	pmaxud	%xmm4, %xmm5
	pcmpeqd	%xmm3, %xmm5
	movdqa	%xmm2, %xmm3
	pmaxud	%xmm4, %xmm3
	pcmpeqd	%xmm2, %xmm3
	packssdw	%xmm5, %xmm3
	movdqa	%xmm1, %xmm2
	pmaxud	%xmm4, %xmm2
	pcmpeqd	%xmm1, %xmm2
	pmaxud	%xmm0, %xmm4
	pcmpeqd	%xmm0, %xmm4
	packssdw	%xmm2, %xmm4
	packsswb	%xmm3, %xmm4
	pmovmskb	%xmm4, %r10d
	popcntl	%r10d, %r10d
	addq	%r10, %rax
	addq	$16, %r8
	addq	$-16, %r9
	cmpq	$15, %r9
	ja	.LBB80_18
	movq	%rsi, %r9
	subq	%r8, %r9
	ja	.LBB80_3
	jmp	.LBB80_8
.LBB80_1:
	xorl	%eax, %eax
	xorl	%r8d, %r8d
	movq	%rsi, %r9
	subq	%r8, %r9
	jbe	.LBB80_8
.LBB80_3:
	cmpq	$4, %r9
	jb	.LBB80_7
	movq	%r9, %r10
	andq	$-4, %r10
	movq	%rax, %xmm0
	leaq	(%rdx,%r8,4), %rax
	addq	%r10, %r8
	addq	%rdi, %rax
	addq	$8, %rax
	pxor	%xmm1, %xmm1
	xorl	%r11d, %r11d
	.p2align	4
.LBB80_5:
	movq	-8(%rax,%r11,4), %xmm2
	movq	(%rax,%r11,4), %xmm3
	movdqa	.LCPI80_1(%rip), %xmm4
	movdqa	%xmm2, %xmm5
	pminud	%xmm4, %xmm5
	pcmpeqd	%xmm2, %xmm5
	pcmpeqd	%xmm2, %xmm2
	pxor	%xmm2, %xmm5
	pmovzxdq	%xmm5, %xmm5
	movdqa	.LCPI80_2(%rip), %xmm6
	pand	%xmm6, %xmm5
	paddq	%xmm5, %xmm0
	pminud	%xmm3, %xmm4
	pcmpeqd	%xmm3, %xmm4
	pxor	%xmm2, %xmm4
	pmovzxdq	%xmm4, %xmm2
	pand	%xmm6, %xmm2
	paddq	%xmm2, %xmm1
	addq	$4, %r11
	cmpq	%r11, %r10
	jne	.LBB80_5
	paddq	%xmm0, %xmm1
	pshufd	$238, %xmm1, %xmm0
	paddq	%xmm1, %xmm0
	movq	%xmm0, %rax
	cmpq	%r10, %r9
	je	.LBB80_8
	.p2align	4
.LBB80_7:
	cmpl	$65536, (%rcx,%r8,4)
	sbbq	$-1, %rax
	incq	%r8
	cmpq	%r8, %rsi
	jne	.LBB80_7
.LBB80_8:
	cmpq	$16, %rsi
	jb	.LBB80_9
	xorl	%r8d, %r8d
	movq	%rsi, %r10
	xorl	%r9d, %r9d
	.p2align	4
.LBB80_20:
	movdqu	(%rcx,%r8,4), %xmm0
	movdqu	16(%rcx,%r8,4), %xmm1
	movdqu	32(%rcx,%r8,4), %xmm2
	movdqu	48(%rcx,%r8,4), %xmm3
	movdqa	.LCPI80_3(%rip), %xmm4
	movdqa	%xmm3, %xmm5
	pmaxud	%xmm4, %xmm5
	pcmpeqd	%xmm3, %xmm5
	movdqa	%xmm2, %xmm3
	pmaxud	%xmm4, %xmm3
	pcmpeqd	%xmm2, %xmm3
	packssdw	%xmm5, %xmm3
	movdqa	%xmm1, %xmm2
	pmaxud	%xmm4, %xmm2
	pcmpeqd	%xmm1, %xmm2
	pmaxud	%xmm0, %xmm4
	pcmpeqd	%xmm0, %xmm4
	packssdw	%xmm2, %xmm4
	packsswb	%xmm3, %xmm4
	pmovmskb	%xmm4, %r11d
	popcntl	%r11d, %r11d
	addq	%r11, %r9
	addq	$16, %r8
	addq	$-16, %r10
	cmpq	$15, %r10
	ja	.LBB80_20
	movq	%rsi, %r10
	subq	%r8, %r10
	ja	.LBB80_11
	jmp	.LBB80_16
.LBB80_9:
	xorl	%r9d, %r9d
	xorl	%r8d, %r8d
	movq	%rsi, %r10
	subq	%r8, %r10
	jbe	.LBB80_16
.LBB80_11:
	cmpq	$4, %r10
	jb	.LBB80_15
	movq	%r10, %r11
	andq	$-4, %r11
	movq	%r9, %xmm0
	leaq	(%rdx,%r8,4), %rdx
	addq	%r11, %r8
	addq	%rdi, %rdx
	addq	$8, %rdx
	pxor	%xmm1, %xmm1
	xorl	%edi, %edi
	.p2align	4
.LBB80_13:
	movq	-8(%rdx,%rdi,4), %xmm2
	movq	(%rdx,%rdi,4), %xmm3
	movdqa	.LCPI80_4(%rip), %xmm4
	movdqa	%xmm2, %xmm5
	pminud	%xmm4, %xmm5
	pcmpeqd	%xmm2, %xmm5
	pcmpeqd	%xmm2, %xmm2
	pxor	%xmm2, %xmm5
	pmovzxdq	%xmm5, %xmm5
	movdqa	.LCPI80_2(%rip), %xmm6
	pand	%xmm6, %xmm5
	paddq	%xmm5, %xmm0
	pminud	%xmm3, %xmm4
	pcmpeqd	%xmm3, %xmm4
	pxor	%xmm2, %xmm4
	pmovzxdq	%xmm4, %xmm2
	pand	%xmm6, %xmm2
	paddq	%xmm2, %xmm1
	addq	$4, %rdi
	cmpq	%rdi, %r11
	jne	.LBB80_13
	paddq	%xmm0, %xmm1
	pshufd	$238, %xmm1, %xmm0
	paddq	%xmm1, %xmm0
	movq	%xmm0, %r9
	cmpq	%r11, %r10
	je	.LBB80_16
	.p2align	4
.LBB80_15:
	cmpl	$1114112, (%rcx,%r8,4)
	sbbq	$-1, %r9
	incq	%r8
	cmpq	%r8, %rsi
	jne	.LBB80_15
.LBB80_16:
	addq	%rsi, %rax
	subq	%r9, %rax
	addq	%rax, %rax
	retq
.Lfunc_end80:
	.size	dethrux_from_utf32_lossy_len_v2, .Lfunc_end80-dethrux_from_utf32_lossy_len_v2
	.cfi_endproc

	.section	.text.dethrux_from_utf8_len,"ax",@progbits
	.globl	dethrux_from_utf8_len_v2
	.hidden	dethrux_from_utf8_len_v2
	.p2align	4
	.type	dethrux_from_utf8_len_v2,@function
dethrux_from_utf8_len_v2:
	.cfi_startproc
	pushq	%r14
	.cfi_def_cfa_offset 16
	pushq	%rbx
	.cfi_def_cfa_offset 24
	subq	$40, %rsp
	.cfi_def_cfa_offset 64
	.cfi_offset %rbx, -24
	.cfi_offset %r14, -16
	movq	%rsi, %r14
	xorl	%ebx, %ebx
	testq	%rdi, %rdi
	sete	%bl
	shll	$12, %ebx
	addq	%rdi, %rbx
	xorps	%xmm0, %xmm0
	movaps	%xmm0, 16(%rsp)
	movaps	%xmm0, (%rsp)
	movq	%rbx, %rdi
	callq	"utf16_transcode::sizes::is_text_within_block"
	testb	%al, %al
	je	.LBB81_3
	movq	%rbx, %rdi
	movq	%r14, %rsi
	addq	$40, %rsp
	.cfi_def_cfa_offset 24
	popq	%rbx
	.cfi_def_cfa_offset 16
	popq	%r14
	.cfi_def_cfa_offset 8
	jmp	"utf16_units::size::utf16_len"
.LBB81_3:
	.cfi_def_cfa_offset 64
	movq	%rsp, %rdi
	movq	%rbx, %rsi
	movq	%r14, %rdx
	callq	"simdutf8::compat::from_utf8"
	cmpb	$0, (%rsp)
	je	.LBB81_4
	movq	8(%rsp), %rsi
	movq	%rbx, %rdi
	addq	$40, %rsp
	.cfi_def_cfa_offset 24
	popq	%rbx
	.cfi_def_cfa_offset 16
	popq	%r14
	.cfi_def_cfa_offset 8
	jmp	"utf16_units::size::utf16_len"
.LBB81_4:
	.cfi_def_cfa_offset 64
	movq	8(%rsp), %rdi
	movq	16(%rsp), %rsi
	addq	$40, %rsp
	.cfi_def_cfa_offset 24
	popq	%rbx
	.cfi_def_cfa_offset 16
	popq	%r14
	.cfi_def_cfa_offset 8
	jmp	"utf16_units::size::utf16_len"
.Lfunc_end81:
	.size	dethrux_from_utf8_len_v2, .Lfunc_end81-dethrux_from_utf8_len_v2
	.cfi_endproc

	.section	.text.dethrux_from_utf8_lossy_len,"ax",@progbits
	.globl	dethrux_from_utf8_lossy_len_v2
	.hidden	dethrux_from_utf8_lossy_len_v2
	.p2align	4
	.type	dethrux_from_utf8_lossy_len_v2,@function
dethrux_from_utf8_lossy_len_v2:
	.cfi_startproc
	pushq	%rbp
	.cfi_def_cfa_offset 16
	pushq	%r15
	.cfi_def_cfa_offset 24
	pushq	%r14
	.cfi_def_cfa_offset 32
	pushq	%r13
	.cfi_def_cfa_offset 40
	pushq	%r12
	.cfi_def_cfa_offset 48
	pushq	%rbx
	.cfi_def_cfa_offset 56
	subq	$72, %rsp
	.cfi_def_cfa_offset 128
	.cfi_offset %rbx, -56
	.cfi_offset %r12, -48
	.cfi_offset %r13, -40
	.cfi_offset %r14, -32
	.cfi_offset %r15, -24
	.cfi_offset %rbp, -16
	movq	%rsi, %rbx
	xorl	%r14d, %r14d
	testq	%rdi, %rdi
	sete	%r14b
	shll	$12, %r14d
	addq	%rdi, %r14
	xorps	%xmm0, %xmm0
	movaps	%xmm0, 48(%rsp)
	movaps	%xmm0, 32(%rsp)
	movq	%r14, %rdi
	callq	"utf16_transcode::sizes::is_text_within_block"
	testb	%al, %al
	je	.LBB82_3
	movq	%r14, %rdi
	movq	%rbx, %rsi
	jmp	.LBB82_2
.LBB82_3:
	leaq	32(%rsp), %rdi
	movq	%r14, %rsi
	movq	%rbx, %rdx
	callq	"simdutf8::compat::from_utf8"
	cmpb	$0, 32(%rsp)
	je	.LBB82_9
	xorl	%r15d, %r15d
	testq	%rbx, %rbx
	jne	.LBB82_5
.LBB82_8:
	movq	%r15, %rax
	addq	$72, %rsp
	.cfi_def_cfa_offset 56
	popq	%rbx
	.cfi_def_cfa_offset 48
	popq	%r12
	.cfi_def_cfa_offset 40
	popq	%r13
	.cfi_def_cfa_offset 32
	popq	%r14
	.cfi_def_cfa_offset 24
	popq	%r15
	.cfi_def_cfa_offset 16
	popq	%rbp
	.cfi_def_cfa_offset 8
	retq
	.p2align	4
.LBB82_7:
	.cfi_def_cfa_offset 128
	leaq	(%r14,%r13), %rbp
	movq	%r14, %rdi
	movq	%r12, %rsi
	callq	"utf16_units::size::utf16_len"
	leaq	(%rax,%r15), %rcx
	cmpq	%r12, %r13
	leaq	2(%rax,%r15), %r15
	cmoveq	%rcx, %r15
	movq	%rbp, %r14
	subq	%r13, %rbx
	je	.LBB82_8
.LBB82_5:
	xorps	%xmm0, %xmm0
	movaps	%xmm0, (%rsp)
	movq	$0, 16(%rsp)
	movq	%rsp, %rdi
	movq	%r14, %rsi
	movq	%rbx, %rdx
	callq	"core::str::utf8::from_utf8"
	cmpb	$0, (%rsp)
	movq	%rbx, %r13
	movq	%rbx, %r12
	je	.LBB82_7
	movq	8(%rsp), %r12
	movzbl	17(%rsp), %eax
	movq	%rbx, %rcx
	subq	%r12, %rcx
	cmpb	$1, 16(%rsp)
	cmovneq	%rcx, %rax
	cmpq	%rax, %rcx
	cmovaeq	%rax, %rcx
	testq	%rax, %rax
	movl	$1, %r13d
	cmovneq	%rcx, %r13
	addq	%r12, %r13
	jmp	.LBB82_7
.LBB82_9:
	movq	40(%rsp), %rdi
	movq	48(%rsp), %rsi
.LBB82_2:
	addq	$72, %rsp
	.cfi_def_cfa_offset 56
	popq	%rbx
	.cfi_def_cfa_offset 48
	popq	%r12
	.cfi_def_cfa_offset 40
	popq	%r13
	.cfi_def_cfa_offset 32
	popq	%r14
	.cfi_def_cfa_offset 24
	popq	%r15
	.cfi_def_cfa_offset 16
	popq	%rbp
	.cfi_def_cfa_offset 8
	jmp	"utf16_units::size::utf16_len"
.Lfunc_end82:
	.size	dethrux_from_utf8_lossy_len_v2, .Lfunc_end82-dethrux_from_utf8_lossy_len_v2
	.cfi_endproc

	.section	.text.dethrux_from_utf8_replacements,"ax",@progbits
	.globl	dethrux_from_utf8_replacements_v2
	.hidden	dethrux_from_utf8_replacements_v2
	.p2align	4
	.type	dethrux_from_utf8_replacements_v2,@function
dethrux_from_utf8_replacements_v2:
	.cfi_startproc
	pushq	%r15
	.cfi_def_cfa_offset 16
	pushq	%r14
	.cfi_def_cfa_offset 24
	pushq	%rbx
	.cfi_def_cfa_offset 32
	subq	$32, %rsp
	.cfi_def_cfa_offset 64
	.cfi_offset %rbx, -32
	.cfi_offset %r14, -24
	.cfi_offset %r15, -16
	testq	%rsi, %rsi
	je	.LBB83_1
	movq	%rsi, %rbx
	xorl	%r14d, %r14d
	testq	%rdi, %rdi
	sete	%r14b
	shll	$12, %r14d
	addq	%rdi, %r14
	xorl	%r15d, %r15d
	jmp	.LBB83_3
	.p2align	4
.LBB83_5:
	movq	8(%rsp), %rax
	movzbl	17(%rsp), %ecx
	movq	%rbx, %rdx
	subq	%rax, %rdx
	cmpb	$1, 16(%rsp)
	cmovneq	%rdx, %rcx
	cmpq	%rcx, %rdx
	cmovaeq	%rcx, %rdx
	testq	%rcx, %rcx
	movl	$1, %esi
	cmovneq	%rdx, %rsi
	addq	%rsi, %rax
	xorl	%ecx, %ecx
	testq	%rsi, %rsi
	setne	%cl
	addq	%rcx, %r15
	addq	%rax, %r14
	subq	%rax, %rbx
	je	.LBB83_7
.LBB83_3:
	xorps	%xmm0, %xmm0
	movaps	%xmm0, (%rsp)
	movq	$0, 16(%rsp)
	movq	%rsp, %rdi
	movq	%r14, %rsi
	movq	%rbx, %rdx
	callq	"core::str::utf8::from_utf8"
	cmpb	$0, (%rsp)
	jne	.LBB83_5
	xorl	%ecx, %ecx
	movq	%rbx, %rax
	addq	%rcx, %r15
	addq	%rax, %r14
	subq	%rax, %rbx
	jne	.LBB83_3
	jmp	.LBB83_7
.LBB83_1:
	xorl	%r15d, %r15d
.LBB83_7:
	movq	%r15, %rax
	addq	$32, %rsp
	.cfi_def_cfa_offset 32
	popq	%rbx
	.cfi_def_cfa_offset 24
	popq	%r14
	.cfi_def_cfa_offset 16
	popq	%r15
	.cfi_def_cfa_offset 8
	retq
.Lfunc_end83:
	.size	dethrux_from_utf8_replacements_v2, .Lfunc_end83-dethrux_from_utf8_replacements_v2
	.cfi_endproc

	.section	.text.dethrux_from_wtf8_len,"ax",@progbits
	.globl	dethrux_from_wtf8_len_v2
	.hidden	dethrux_from_wtf8_len_v2
	.p2align	4
	.type	dethrux_from_wtf8_len_v2,@function
dethrux_from_wtf8_len_v2:
	.cfi_startproc
	pushq	%rbp
	.cfi_def_cfa_offset 16
	pushq	%r15
	.cfi_def_cfa_offset 24
	pushq	%r14
	.cfi_def_cfa_offset 32
	pushq	%r13
	.cfi_def_cfa_offset 40
	pushq	%r12
	.cfi_def_cfa_offset 48
	pushq	%rbx
	.cfi_def_cfa_offset 56
	subq	$40, %rsp
	.cfi_def_cfa_offset 96
	.cfi_offset %rbx, -56
	.cfi_offset %r12, -48
	.cfi_offset %r13, -40
	.cfi_offset %r14, -32
	.cfi_offset %r15, -24
	.cfi_offset %rbp, -16
	xorl	%r12d, %r12d
	testq	%rdi, %rdi
	sete	%r12b
	shll	$12, %r12d
	addq	%rdi, %r12
	xorl	%ebp, %ebp
	movq	$0, 8(%rsp)
	xorl	%r13d, %r13d
	.p2align	4
.LBB84_1:
	leaq	(%r12,%r13), %r15
	movq	%rsi, %rbx
	movq	%rsi, %rdx
	subq	%r13, %rdx
	xorps	%xmm0, %xmm0
	movaps	%xmm0, 16(%rsp)
	movq	$0, 32(%rsp)
	leaq	16(%rsp), %rdi
	movq	%r15, %rsi
	callq	"core::str::utf8::from_utf8"
	movq	24(%rsp), %rdi
	cmpb	$0, 16(%rsp)
	jne	.LBB84_2
	movq	32(%rsp), %r14
	jmp	.LBB84_4
	.p2align	4
.LBB84_2:
	movq	%rdi, %r14
	movq	%r15, %rdi
.LBB84_4:
	addq	%r14, %r13
	movq	%r14, %rsi
	callq	"utf16_units::size::utf16_len"
	addq	8(%rsp), %rax
	testq	%r14, %r14
	sete	%cl
	movq	%rbx, %rdx
	subq	%r13, %rdx
	cmpq	$2, %rdx
	jb	.LBB84_11
	cmpb	$-19, (%r12,%r13)
	jne	.LBB84_11
	cmpq	$2, %rdx
	je	.LBB84_11
	movzbl	1(%r12,%r13), %edx
	movl	%edx, %edi
	andb	$-32, %dil
	cmpb	$-96, %dil
	jne	.LBB84_11
	cmpb	$-65, 2(%r12,%r13)
	jg	.LBB84_11
	andb	%cl, %bpl
	andb	$48, %dl
	cmpb	$48, %dl
	sete	%cl
	testb	%cl, %bpl
	jne	.LBB84_11
	movq	%rbx, %rsi
	addq	$3, %r13
	addq	$2, %rax
	cmpb	$32, %dl
	sete	%bpl
	movq	%rax, 8(%rsp)
	jmp	.LBB84_1
.LBB84_11:
	addq	$40, %rsp
	.cfi_def_cfa_offset 56
	popq	%rbx
	.cfi_def_cfa_offset 48
	popq	%r12
	.cfi_def_cfa_offset 40
	popq	%r13
	.cfi_def_cfa_offset 32
	popq	%r14
	.cfi_def_cfa_offset 24
	popq	%r15
	.cfi_def_cfa_offset 16
	popq	%rbp
	.cfi_def_cfa_offset 8
	retq
.Lfunc_end84:
	.size	dethrux_from_wtf8_len_v2, .Lfunc_end84-dethrux_from_wtf8_len_v2
	.cfi_endproc

	.section	.text.dethrux_nul_offset,"ax",@progbits
	.globl	dethrux_nul_offset_v2
	.hidden	dethrux_nul_offset_v2
	.p2align	4
	.type	dethrux_nul_offset_v2,@function
dethrux_nul_offset_v2:
	.cfi_startproc
	movq	%rsi, %rax
	xorl	%r8d, %r8d
	testq	%rdi, %rdi
	sete	%r8b
	shll	$12, %r8d
	leaq	(%rdi,%r8), %rdx
	movq	%rsi, %rcx
	andq	$-2, %rcx
	cmpq	$15, %rsi
	ja	.LBB85_5
	xorl	%edi, %edi
	testq	%rcx, %rcx
	je	.LBB85_4
	.p2align	4
.LBB85_2:
	cmpw	$0, (%rdx,%rdi)
	je	.LBB85_4
	addq	$2, %rdi
	cmpq	%rcx, %rdi
	jb	.LBB85_2
.LBB85_4:
	cmpq	%rcx, %rdi
	cmovneq	%rdi, %rax
	retq
.LBB85_5:
	pushq	%rbx
	.cfi_def_cfa_offset 16
	.cfi_offset %rbx, -16
	xorl	%esi, %esi
	cmpq	$64, %rax
	jb	.LBB85_10
	movq	%rdx, %r9
	.p2align	4
.LBB85_7:
	movdqu	(%r9), %xmm0
	movdqu	16(%r9), %xmm1
	movdqu	32(%r9), %xmm2
	movdqu	48(%r9), %xmm3
	pxor	%xmm4, %xmm4
	pcmpeqw	%xmm4, %xmm1
	pcmpeqw	%xmm4, %xmm0
	packsswb	%xmm1, %xmm0
	pmovmskb	%xmm0, %r10d
	pcmpeqw	%xmm4, %xmm3
	pcmpeqw	%xmm4, %xmm2
	packsswb	%xmm3, %xmm2
	pmovmskb	%xmm2, %r11d
	shll	$16, %r11d
	orl	%r10d, %r11d
	rep		bsfl	%r11d, %ebx
	addl	%ebx, %ebx
	testl	%r11d, %r11d
	movl	$64, %r10d
	cmovnel	%ebx, %r10d
	cmpl	$63, %r10d
	jbe	.LBB85_15
	leaq	(%rax,%rsi), %r10
	addq	$-64, %r10
	addq	$-64, %rsi
	addq	$64, %r9
	cmpq	$63, %r10
	ja	.LBB85_7
	negq	%rsi
.LBB85_10:
	movq	%rcx, %r9
	subq	%rsi, %r9
	cmpq	$17, %r9
	jb	.LBB85_14
	addq	%rsi, %r8
	negq	%rsi
	addq	%r8, %rdi
	.p2align	4
.LBB85_12:
	movdqu	(%rdi), %xmm0
	pxor	%xmm1, %xmm1
	pcmpeqw	%xmm0, %xmm1
	packsswb	%xmm1, %xmm1
	pmovmskb	%xmm1, %r8d
	orl	$256, %r8d
	rep		bsfl	%r8d, %r8d
	cmpb	$7, %r8b
	jbe	.LBB85_17
	leaq	(%rcx,%rsi), %r8
	addq	$-16, %r8
	addq	$-16, %rsi
	addq	$16, %rdi
	cmpq	$16, %r8
	ja	.LBB85_12
.LBB85_14:
	movdqu	-16(%rdx,%rcx), %xmm0
	pxor	%xmm1, %xmm1
	pcmpeqw	%xmm0, %xmm1
	packsswb	%xmm1, %xmm1
	pmovmskb	%xmm1, %edx
	orl	$256, %edx
	rep		bsfl	%edx, %edx
	movzbl	%dl, %edx
	leaq	(%rcx,%rdx,2), %rdi
	addq	$-16, %rdi
	popq	%rbx
	.cfi_def_cfa_offset 8
	.cfi_restore %rbx
	cmpq	%rcx, %rdi
	cmovneq	%rdi, %rax
	retq
.LBB85_15:
	.cfi_def_cfa_offset 16
	.cfi_offset %rbx, -16
	movl	%r10d, %edi
	jmp	.LBB85_16
.LBB85_17:
	movzbl	%r8b, %edi
	addq	%rdi, %rdi
.LBB85_16:
	subq	%rsi, %rdi
	popq	%rbx
	.cfi_def_cfa_offset 8
	.cfi_restore %rbx
	cmpq	%rcx, %rdi
	cmovneq	%rdi, %rax
	retq
.Lfunc_end85:
	.size	dethrux_nul_offset_v2, .Lfunc_end85-dethrux_nul_offset_v2
	.cfi_endproc

	.section	.text.dethrux_shard_offset,"ax",@progbits
	.globl	dethrux_shard_offset_v2
	.hidden	dethrux_shard_offset_v2
	.p2align	4
	.type	dethrux_shard_offset_v2,@function
dethrux_shard_offset_v2:
	.cfi_startproc
	movq	%rdi, %rax
	cmpq	%rdx, %rsi
	jbe	.LBB86_5
	movq	%rdx, %rcx
	shrq	%rax
	movq	%rax, %rdx
	orq	%rsi, %rdx
	shrq	$32, %rdx
	je	.LBB86_2
	xorl	%edx, %edx
	divq	%rsi
	jmp	.LBB86_4
.LBB86_2:
	xorl	%edx, %edx
	divl	%esi
.LBB86_4:
	imulq	%rcx, %rax
	cmpq	%rcx, %rdx
	cmovbq	%rdx, %rcx
	addq	%rax, %rcx
	addq	%rcx, %rcx
	movq	%rcx, %rax
.LBB86_5:
	retq
.Lfunc_end86:
	.size	dethrux_shard_offset_v2, .Lfunc_end86-dethrux_shard_offset_v2
	.cfi_endproc

	.section	.rodata.cst16,"aM",@progbits,16
	.p2align	4, 0x0
.LCPI87_0:
	.byte	1
	.byte	0
	.byte	3
	.byte	2
	.byte	5
	.byte	4
	.byte	7
	.byte	6
	.byte	9
	.byte	8
	.byte	11
	.byte	10
	.byte	13
	.byte	12
	.byte	15
	.byte	14
	.section	.text.dethrux_swap_byte_order,"ax",@progbits
	.globl	dethrux_swap_byte_order_v2
	.hidden	dethrux_swap_byte_order_v2
	.p2align	4
	.type	dethrux_swap_byte_order_v2,@function
dethrux_swap_byte_order_v2:
	.cfi_startproc
	xorl	%eax, %eax
	testq	%rdi, %rdi
	sete	%al
	shll	$12, %eax
	leaq	(%rdi,%rax), %rcx
	cmpq	$64, %rsi
	jb	.LBB87_1
	leaq	-64(%rsi), %r8
	shrq	$6, %r8
	je	.LBB87_3
	incq	%r8
	movq	%r8, %r9
	andq	$-2, %r9
	leaq	(%rax,%rdi), %r10
	addq	$64, %r10
	xorl	%edx, %edx
	.p2align	4
.LBB87_16:
	movdqu	-64(%r10,%rdx), %xmm0
	movdqu	-48(%r10,%rdx), %xmm1
	movdqu	-32(%r10,%rdx), %xmm2
	movdqu	-16(%r10,%rdx), %xmm3
	movdqa	.LCPI87_0(%rip), %xmm4
	pshufb	%xmm4, %xmm1
	pshufb	%xmm4, %xmm0
	pshufb	%xmm4, %xmm3
	pshufb	%xmm4, %xmm2
	movdqu	%xmm2, -32(%r10,%rdx)
	movdqu	%xmm3, -16(%r10,%rdx)
	movdqu	%xmm0, -64(%r10,%rdx)
	movdqu	%xmm1, -48(%r10,%rdx)
	movdqu	32(%r10,%rdx), %xmm0
	movdqu	48(%r10,%rdx), %xmm1
	movdqu	(%r10,%rdx), %xmm2
	movdqu	16(%r10,%rdx), %xmm3
	pshufb	%xmm4, %xmm3
	pshufb	%xmm4, %xmm2
	pshufb	%xmm4, %xmm1
	pshufb	%xmm4, %xmm0
	movdqu	%xmm0, 32(%r10,%rdx)
	movdqu	%xmm1, 48(%r10,%rdx)
	movdqu	%xmm2, (%r10,%rdx)
	movdqu	%xmm3, 16(%r10,%rdx)
	subq	$-128, %rdx
	addq	$-2, %r9
	jne	.LBB87_16
	testb	$1, %r8b
	je	.LBB87_6
	jmp	.LBB87_5
.LBB87_1:
	xorl	%edx, %edx
.LBB87_6:
	movq	%rsi, %r8
	subq	%rdx, %r8
	cmpq	$2, %r8
	jae	.LBB87_7
	jmp	.LBB87_14
.LBB87_3:
	xorl	%edx, %edx
.LBB87_5:
	movdqu	(%rcx,%rdx), %xmm0
	movdqu	16(%rcx,%rdx), %xmm1
	movdqu	32(%rcx,%rdx), %xmm2
	movdqu	48(%rcx,%rdx), %xmm3
	movdqa	.LCPI87_0(%rip), %xmm4
	pshufb	%xmm4, %xmm1
	pshufb	%xmm4, %xmm0
	pshufb	%xmm4, %xmm3
	pshufb	%xmm4, %xmm2
	movdqu	%xmm2, 32(%rcx,%rdx)
	movdqu	%xmm3, 48(%rcx,%rdx)
	movdqu	%xmm0, (%rcx,%rdx)
	movdqu	%xmm1, 16(%rcx,%rdx)
	addq	$64, %rdx
	movq	%rsi, %r8
	subq	%rdx, %r8
	cmpq	$2, %r8
	jb	.LBB87_14
.LBB87_7:
	addq	$-2, %r8
	cmpq	$46, %r8
	jb	.LBB87_12
	movq	%r8, %r9
	andq	$-2, %r9
	leaq	(%rdx,%rcx), %r10
	incq	%r10
	addq	%rdx, %rcx
	addq	%rcx, %r9
	incq	%r9
	cmpq	%r10, %r9
	jb	.LBB87_12
	shrq	%r8
	incq	%r8
	movq	%r8, %r9
	andq	$-8, %r9
	leaq	(%rdx,%r9,2), %rdx
	xorl	%r10d, %r10d
	.p2align	4
.LBB87_10:
	movzbl	1(%rcx,%r10,2), %r11d
	movd	%r11d, %xmm0
	pinsrb	$1, (%rcx,%r10,2), %xmm0
	pinsrb	$2, 3(%rcx,%r10,2), %xmm0
	pinsrb	$3, 2(%rcx,%r10,2), %xmm0
	pinsrb	$4, 5(%rcx,%r10,2), %xmm0
	pinsrb	$5, 4(%rcx,%r10,2), %xmm0
	pinsrb	$6, 7(%rcx,%r10,2), %xmm0
	pinsrb	$7, 6(%rcx,%r10,2), %xmm0
	pinsrb	$8, 9(%rcx,%r10,2), %xmm0
	pinsrb	$9, 8(%rcx,%r10,2), %xmm0
	pinsrb	$10, 11(%rcx,%r10,2), %xmm0
	pinsrb	$11, 10(%rcx,%r10,2), %xmm0
	pinsrb	$12, 13(%rcx,%r10,2), %xmm0
	pinsrb	$13, 12(%rcx,%r10,2), %xmm0
	pinsrb	$14, 15(%rcx,%r10,2), %xmm0
	pinsrb	$15, 14(%rcx,%r10,2), %xmm0
	movdqu	%xmm0, (%rcx,%r10,2)
	addq	$8, %r10
	cmpq	%r10, %r9
	jne	.LBB87_10
	cmpq	%r9, %r8
	je	.LBB87_14
.LBB87_12:
	subq	%rdx, %rsi
	addq	%rdx, %rax
	addq	%rdi, %rax
	incq	%rax
	.p2align	4
.LBB87_13:
	rolw	$8, -1(%rax)
	addq	$-2, %rsi
	addq	$2, %rax
	cmpq	$1, %rsi
	ja	.LBB87_13
.LBB87_14:
	retq
.Lfunc_end87:
	.size	dethrux_swap_byte_order_v2, .Lfunc_end87-dethrux_swap_byte_order_v2
	.cfi_endproc

	.section	.rodata.cst16,"aM",@progbits,16
	.p2align	4, 0x0
.LCPI88_0:
	.long	1114112
	.long	1114112
	.long	1114112
	.long	1114112
.LCPI88_1:
	.long	4294965248
	.long	4294965248
	.long	4294965248
	.long	4294965248
.LCPI88_2:
	.long	55296
	.long	55296
	.long	55296
	.long	55296
	.section	.text.dethrux_validate_utf32,"ax",@progbits
	.globl	dethrux_validate_utf32_v2
	.hidden	dethrux_validate_utf32_v2
	.p2align	4
	.type	dethrux_validate_utf32_v2,@function
dethrux_validate_utf32_v2:
	.cfi_startproc
	movq	%rsi, %rax
	xorl	%ecx, %ecx
	testq	%rdi, %rdi
	sete	%cl
	shll	$12, %ecx
	addq	%rdi, %rcx
	cmpq	$16, %rsi
	jb	.LBB88_1
	xorl	%esi, %esi
	movq	%rax, %rdx
	.p2align	4
.LBB88_3:
	movdqu	(%rcx,%rsi,4), %xmm0
	movdqu	16(%rcx,%rsi,4), %xmm3
	movdqu	32(%rcx,%rsi,4), %xmm1
	movdqu	48(%rcx,%rsi,4), %xmm2
	movdqa	.LCPI88_0(%rip), %xmm4
	movdqa	%xmm2, %xmm5
	pmaxud	%xmm4, %xmm5
	pcmpeqd	%xmm2, %xmm5
	movdqa	%xmm1, %xmm6
	pmaxud	%xmm4, %xmm6
	pcmpeqd	%xmm1, %xmm6
	packssdw	%xmm5, %xmm6
	movdqa	%xmm3, %xmm5
	pmaxud	%xmm4, %xmm5
	pcmpeqd	%xmm3, %xmm5
	pmaxud	%xmm0, %xmm4
	pcmpeqd	%xmm0, %xmm4
	packssdw	%xmm5, %xmm4
	packsswb	%xmm6, %xmm4
	pmovmskb	%xmm4, %edi
	testl	%edi, %edi
	jne	.LBB88_6
	movdqa	.LCPI88_1(%rip), %xmm4
	pand	%xmm4, %xmm2
	pand	%xmm4, %xmm1
	pand	%xmm4, %xmm3
	pand	%xmm4, %xmm0
	movdqa	.LCPI88_2(%rip), %xmm4
	pcmpeqd	%xmm4, %xmm0
	pcmpeqd	%xmm4, %xmm3
	packssdw	%xmm3, %xmm0
	pcmpeqd	%xmm4, %xmm1
	pcmpeqd	%xmm4, %xmm2
	packssdw	%xmm2, %xmm1
	packsswb	%xmm1, %xmm0
	pmovmskb	%xmm0, %edi
	testl	%edi, %edi
	jne	.LBB88_6
	addq	$16, %rsi
	addq	$-16, %rdx
	cmpq	$15, %rdx
	ja	.LBB88_3
.LBB88_6:
	cmpq	%rax, %rsi
	jae	.LBB88_10
	.p2align	4
.LBB88_7:
	movl	(%rcx,%rsi,4), %edx
	cmpl	$55296, %edx
	setae	%dil
	addl	$-57344, %edx
	cmpl	$1056768, %edx
	setae	%dl
	testb	%dl, %dil
	jne	.LBB88_8
	incq	%rsi
	cmpq	%rsi, %rax
	jne	.LBB88_7
	jmp	.LBB88_10
.LBB88_1:
	xorl	%esi, %esi
	cmpq	%rax, %rsi
	jb	.LBB88_7
.LBB88_10:
	xorl	%edx, %edx
	retq
.LBB88_8:
	movabsq	$4294967297, %rdx
	movq	%rsi, %rax
	retq
.Lfunc_end88:
	.size	dethrux_validate_utf32_v2, .Lfunc_end88-dethrux_validate_utf32_v2
	.cfi_endproc

	.section	.text.dethrux_version,"ax",@progbits
	.globl	dethrux_version_v2
	.hidden	dethrux_version_v2
	.p2align	4
	.type	dethrux_version_v2,@function
dethrux_version_v2:
	.cfi_startproc
	movl	$2000, %eax
	retq
.Lfunc_end89:
	.size	dethrux_version_v2, .Lfunc_end89-dethrux_version_v2
	.cfi_endproc

	.section	.text.dethrux_compare,"ax",@progbits
	.globl	dethrux_compare_v2
	.hidden	dethrux_compare_v2
	.p2align	4
	.type	dethrux_compare_v2,@function
dethrux_compare_v2:
	.cfi_startproc
	pushq	%rbp
	.cfi_def_cfa_offset 16
	pushq	%r15
	.cfi_def_cfa_offset 24
	pushq	%r14
	.cfi_def_cfa_offset 32
	pushq	%r13
	.cfi_def_cfa_offset 40
	pushq	%r12
	.cfi_def_cfa_offset 48
	pushq	%rbx
	.cfi_def_cfa_offset 56
	pushq	%rax
	.cfi_def_cfa_offset 64
	.cfi_offset %rbx, -56
	.cfi_offset %r12, -48
	.cfi_offset %r13, -40
	.cfi_offset %r14, -32
	.cfi_offset %r15, -24
	.cfi_offset %rbp, -16
	movq	%r9, %rbx
	movq	%rdx, %r14
	xorl	%r9d, %r9d
	testq	%rsi, %rsi
	sete	%r9b
	shll	$12, %r9d
	addq	%rsi, %r9
	xorl	%r12d, %r12d
	testq	%r8, %r8
	sete	%r12b
	shll	$12, %r12d
	addq	%r8, %r12
	cmpl	$1, %edi
	jne	.LBB90_60
	cmpl	$1, %ecx
	jne	.LBB90_31
	.p2align	4
	testq	%r14, %r14
	je	.LBB90_6
.LBB90_3:
	cmpq	$1, %r14
	jne	.LBB90_8
	movl	$65533, %esi
	movb	$2, %dl
.LBB90_5:
	xorl	%r15d, %r15d
	jmp	.LBB90_7
	.p2align	4
.LBB90_8:
	movzwl	(%r9), %edi
	rolw	$8, %di
	movl	%edi, %eax
	andl	$63488, %eax
	cmpl	$55296, %eax
	jne	.LBB90_13
	movl	%edi, %eax
	notl	%eax
	movl	$2, %r13d
	movl	$65533, %esi
	movb	$2, %dl
	testl	$56320, %eax
	jne	.LBB90_11
.LBB90_10:
	xorl	%r15d, %r15d
	movl	$65533, %eax
	cmpq	$1, %rbx
	jne	.LBB90_17
	jmp	.LBB90_27
.LBB90_11:
	cmpq	$4, %r14
	jb	.LBB90_5
	movzbl	2(%r9), %eax
	andb	$-4, %al
	cmpb	$-36, %al
	jne	.LBB90_10
.LBB90_13:
	movl	%edi, %eax
	andl	$64512, %eax
	cmpl	$55296, %eax
	jne	.LBB90_15
	movzwl	2(%r9), %esi
	rolw	$8, %si
	movq	%r9, %r15
	callq	"utf16_units::unit::decode_surrogates"
	movq	%r15, %r9
	movl	%eax, %esi
	movl	$4, %r13d
	jmp	.LBB90_16
.LBB90_15:
	movzwl	%di, %esi
	movl	$2, %r13d
.LBB90_16:
	movb	$2, %dl
	xorl	%r15d, %r15d
	movl	$65533, %eax
	cmpq	$1, %rbx
	jne	.LBB90_17
	jmp	.LBB90_27
	.p2align	4
.LBB90_6:
	xorl	%esi, %esi
	movb	$1, %dl
	movb	$1, %r15b
.LBB90_7:
	movq	%r14, %r13
	movl	$65533, %eax
	cmpq	$1, %rbx
	je	.LBB90_27
.LBB90_17:
	testq	%rbx, %rbx
	je	.LBB90_119
	movzwl	(%r12), %edi
	rolw	$8, %di
	movl	%edi, %ecx
	andl	$63488, %ecx
	cmpl	$55296, %ecx
	jne	.LBB90_23
	movl	%edi, %ecx
	notl	%ecx
	movl	$2, %edx
	testl	$56320, %ecx
	je	.LBB90_28
	cmpq	$4, %rbx
	jae	.LBB90_22
	.p2align	4
.LBB90_27:
	movq	%rbx, %rdx
.LBB90_28:
	movl	$-1, %ecx
	testb	%r15b, %r15b
	jne	.LBB90_121
	cmpl	%eax, %esi
	jne	.LBB90_125
	addq	%r13, %r9
	subq	%r13, %r14
	addq	%rdx, %r12
	subq	%rdx, %rbx
	testq	%r14, %r14
	jne	.LBB90_3
	jmp	.LBB90_6
.LBB90_22:
	movzbl	2(%r12), %ecx
	andb	$-4, %cl
	cmpb	$-36, %cl
	jne	.LBB90_28
	.p2align	4
.LBB90_23:
	movl	%edi, %eax
	andl	$64512, %eax
	cmpl	$55296, %eax
	jne	.LBB90_25
	movl	%esi, (%rsp)
	movzwl	2(%r12), %esi
	rolw	$8, %si
	movq	%r9, %rbp
	callq	"utf16_units::unit::decode_surrogates"
	movl	(%rsp), %esi
	movq	%rbp, %r9
	movl	$4, %edx
	jmp	.LBB90_28
.LBB90_25:
	movzwl	%di, %eax
	movl	$2, %edx
	jmp	.LBB90_28
	.p2align	4
.LBB90_31:
	testq	%r14, %r14
	je	.LBB90_35
	cmpq	$1, %r14
	jne	.LBB90_37
	movl	$65533, %ebp
	movb	$2, %dl
.LBB90_34:
	xorl	%r15d, %r15d
	jmp	.LBB90_36
	.p2align	4
.LBB90_35:
	xorl	%ebp, %ebp
	movb	$1, %dl
	movb	$1, %r15b
.LBB90_36:
	movq	%r14, %r13
	movl	$65533, %eax
	cmpq	$1, %rbx
	jne	.LBB90_46
	jmp	.LBB90_56
	.p2align	4
.LBB90_37:
	movzwl	(%r9), %edi
	rolw	$8, %di
	movl	%edi, %eax
	andl	$63488, %eax
	cmpl	$55296, %eax
	jne	.LBB90_42
	movl	%edi, %eax
	notl	%eax
	movl	$2, %r13d
	movl	$65533, %ebp
	movb	$2, %dl
	testl	$56320, %eax
	jne	.LBB90_40
.LBB90_39:
	xorl	%r15d, %r15d
	movl	$65533, %eax
	cmpq	$1, %rbx
	jne	.LBB90_46
	jmp	.LBB90_56
.LBB90_40:
	cmpq	$4, %r14
	jb	.LBB90_34
	movzbl	2(%r9), %eax
	andb	$-4, %al
	cmpb	$-36, %al
	jne	.LBB90_39
.LBB90_42:
	movl	%edi, %eax
	andl	$64512, %eax
	cmpl	$55296, %eax
	jne	.LBB90_44
	movzwl	2(%r9), %esi
	rolw	$8, %si
	movq	%r9, %r15
	callq	"utf16_units::unit::decode_surrogates"
	movq	%r15, %r9
	movl	%eax, %ebp
	movl	$4, %r13d
	jmp	.LBB90_45
.LBB90_44:
	movzwl	%di, %ebp
	movl	$2, %r13d
.LBB90_45:
	movb	$2, %dl
	xorl	%r15d, %r15d
	movl	$65533, %eax
	cmpq	$1, %rbx
	je	.LBB90_56
	.p2align	4
.LBB90_46:
	testq	%rbx, %rbx
	je	.LBB90_119
	movzbl	1(%r12), %edx
	movzwl	%dx, %ecx
	andl	$-8, %edx
	cmpl	$216, %edx
	jne	.LBB90_52
	movl	%ecx, %esi
	notl	%esi
	movl	$2, %edx
	testb	$-36, %sil
	je	.LBB90_57
	cmpq	$4, %rbx
	jae	.LBB90_51
	.p2align	4
.LBB90_56:
	movq	%rbx, %rdx
.LBB90_57:
	movl	$-1, %ecx
	testb	%r15b, %r15b
	jne	.LBB90_121
	cmpl	%eax, %ebp
	jne	.LBB90_125
	addq	%r13, %r9
	subq	%r13, %r14
	addq	%rdx, %r12
	subq	%rdx, %rbx
	jmp	.LBB90_31
.LBB90_51:
	movzbl	3(%r12), %esi
	andb	$-4, %sil
	cmpb	$-36, %sil
	jne	.LBB90_57
	.p2align	4
.LBB90_52:
	movzbl	(%r12), %edx
	movl	%ecx, %eax
	shll	$8, %eax
	orl	%edx, %eax
	andl	$-4, %ecx
	cmpl	$216, %ecx
	jne	.LBB90_54
	movzwl	2(%r12), %esi
	movl	%eax, %edi
	movq	%r9, (%rsp)
	callq	"utf16_units::unit::decode_surrogates"
	movq	(%rsp), %r9
	movl	$4, %edx
	jmp	.LBB90_57
.LBB90_54:
	movl	$2, %edx
	jmp	.LBB90_57
.LBB90_60:
	cmpl	$1, %ecx
	jne	.LBB90_90
	.p2align	4
	testq	%r14, %r14
	je	.LBB90_65
.LBB90_62:
	cmpq	$1, %r14
	jne	.LBB90_67
	movl	$65533, %ebp
	movb	$2, %dl
.LBB90_64:
	xorl	%r15d, %r15d
	jmp	.LBB90_66
	.p2align	4
.LBB90_67:
	movzbl	1(%r9), %ecx
	movzwl	%cx, %eax
	andl	$-8, %ecx
	cmpl	$216, %ecx
	jne	.LBB90_72
	movl	%eax, %ecx
	notl	%ecx
	movl	$2, %r13d
	movl	$65533, %ebp
	movb	$2, %dl
	testb	$-36, %cl
	jne	.LBB90_70
.LBB90_69:
	xorl	%r15d, %r15d
	movl	$65533, %eax
	cmpq	$1, %rbx
	jne	.LBB90_76
	jmp	.LBB90_86
.LBB90_70:
	cmpq	$4, %r14
	jb	.LBB90_64
	movzbl	3(%r9), %ecx
	andb	$-4, %cl
	cmpb	$-36, %cl
	jne	.LBB90_69
.LBB90_72:
	movzbl	(%r9), %ecx
	movl	%eax, %ebp
	shll	$8, %ebp
	orl	%ecx, %ebp
	andl	$-4, %eax
	cmpl	$216, %eax
	jne	.LBB90_74
	movzwl	2(%r9), %esi
	movl	%ebp, %edi
	movq	%r9, %r15
	callq	"utf16_units::unit::decode_surrogates"
	movq	%r15, %r9
	movl	%eax, %ebp
	movl	$4, %r13d
	jmp	.LBB90_75
.LBB90_74:
	movl	$2, %r13d
.LBB90_75:
	movb	$2, %dl
	xorl	%r15d, %r15d
	movl	$65533, %eax
	cmpq	$1, %rbx
	jne	.LBB90_76
	jmp	.LBB90_86
	.p2align	4
.LBB90_65:
	xorl	%ebp, %ebp
	movb	$1, %dl
	movb	$1, %r15b
.LBB90_66:
	movq	%r14, %r13
	movl	$65533, %eax
	cmpq	$1, %rbx
	je	.LBB90_86
.LBB90_76:
	testq	%rbx, %rbx
	je	.LBB90_119
	movzwl	(%r12), %edi
	rolw	$8, %di
	movl	%edi, %ecx
	andl	$63488, %ecx
	cmpl	$55296, %ecx
	jne	.LBB90_82
	movl	%edi, %ecx
	notl	%ecx
	movl	$2, %edx
	testl	$56320, %ecx
	je	.LBB90_87
	cmpq	$4, %rbx
	jae	.LBB90_81
	.p2align	4
.LBB90_86:
	movq	%rbx, %rdx
.LBB90_87:
	movl	$-1, %ecx
	testb	%r15b, %r15b
	jne	.LBB90_121
	cmpl	%eax, %ebp
	jne	.LBB90_125
	addq	%r13, %r9
	subq	%r13, %r14
	addq	%rdx, %r12
	subq	%rdx, %rbx
	testq	%r14, %r14
	jne	.LBB90_62
	jmp	.LBB90_65
.LBB90_81:
	movzbl	2(%r12), %ecx
	andb	$-4, %cl
	cmpb	$-36, %cl
	jne	.LBB90_87
	.p2align	4
.LBB90_82:
	movl	%edi, %eax
	andl	$64512, %eax
	cmpl	$55296, %eax
	jne	.LBB90_84
	movzwl	2(%r12), %esi
	rolw	$8, %si
	movq	%r9, (%rsp)
	callq	"utf16_units::unit::decode_surrogates"
	movq	(%rsp), %r9
	movl	$4, %edx
	jmp	.LBB90_87
.LBB90_84:
	movzwl	%di, %eax
	movl	$2, %edx
	jmp	.LBB90_87
	.p2align	4
.LBB90_90:
	testq	%r14, %r14
	je	.LBB90_94
	cmpq	$1, %r14
	jne	.LBB90_96
	movl	$65533, %ebp
	movb	$2, %dl
.LBB90_93:
	xorl	%r15d, %r15d
	jmp	.LBB90_95
	.p2align	4
.LBB90_94:
	xorl	%ebp, %ebp
	movb	$1, %dl
	movb	$1, %r15b
.LBB90_95:
	movq	%r14, %r13
	movl	$65533, %eax
	cmpq	$1, %rbx
	jne	.LBB90_105
	jmp	.LBB90_115
	.p2align	4
.LBB90_96:
	movzbl	1(%r9), %ecx
	movzwl	%cx, %eax
	andl	$-8, %ecx
	cmpl	$216, %ecx
	jne	.LBB90_101
	movl	%eax, %ecx
	notl	%ecx
	movl	$2, %r13d
	movl	$65533, %ebp
	movb	$2, %dl
	testb	$-36, %cl
	jne	.LBB90_99
.LBB90_98:
	xorl	%r15d, %r15d
	movl	$65533, %eax
	cmpq	$1, %rbx
	jne	.LBB90_105
	jmp	.LBB90_115
.LBB90_99:
	cmpq	$4, %r14
	jb	.LBB90_93
	movzbl	3(%r9), %ecx
	andb	$-4, %cl
	cmpb	$-36, %cl
	jne	.LBB90_98
.LBB90_101:
	movzbl	(%r9), %ecx
	movl	%eax, %ebp
	shll	$8, %ebp
	orl	%ecx, %ebp
	andl	$-4, %eax
	cmpl	$216, %eax
	jne	.LBB90_103
	movzwl	2(%r9), %esi
	movl	%ebp, %edi
	movq	%r9, %r15
	callq	"utf16_units::unit::decode_surrogates"
	movq	%r15, %r9
	movl	%eax, %ebp
	movl	$4, %r13d
	jmp	.LBB90_104
.LBB90_103:
	movl	$2, %r13d
.LBB90_104:
	movb	$2, %dl
	xorl	%r15d, %r15d
	movl	$65533, %eax
	cmpq	$1, %rbx
	je	.LBB90_115
	.p2align	4
.LBB90_105:
	testq	%rbx, %rbx
	je	.LBB90_119
	movzbl	1(%r12), %edx
	movzwl	%dx, %ecx
	andl	$-8, %edx
	cmpl	$216, %edx
	jne	.LBB90_111
	movl	%ecx, %esi
	notl	%esi
	movl	$2, %edx
	testb	$-36, %sil
	je	.LBB90_116
	cmpq	$4, %rbx
	jae	.LBB90_110
	.p2align	4
.LBB90_115:
	movq	%rbx, %rdx
.LBB90_116:
	movl	$-1, %ecx
	testb	%r15b, %r15b
	jne	.LBB90_121
	cmpl	%eax, %ebp
	jne	.LBB90_125
	addq	%r13, %r9
	subq	%r13, %r14
	addq	%rdx, %r12
	subq	%rdx, %rbx
	jmp	.LBB90_90
.LBB90_110:
	movzbl	3(%r12), %esi
	andb	$-4, %sil
	cmpb	$-36, %sil
	jne	.LBB90_116
	.p2align	4
.LBB90_111:
	movzbl	(%r12), %edx
	movl	%ecx, %eax
	shll	$8, %eax
	orl	%edx, %eax
	andl	$-4, %ecx
	cmpl	$216, %ecx
	jne	.LBB90_113
	movzwl	2(%r12), %esi
	movl	%eax, %edi
	movq	%r9, (%rsp)
	callq	"utf16_units::unit::decode_surrogates"
	movq	(%rsp), %r9
	movl	$4, %edx
	jmp	.LBB90_116
.LBB90_113:
	movl	$2, %edx
	jmp	.LBB90_116
.LBB90_125:
	jb	.LBB90_121
.LBB90_120:
	movl	$1, %ecx
.LBB90_121:
	movl	%ecx, %eax
	addq	$8, %rsp
	.cfi_def_cfa_offset 56
	popq	%rbx
	.cfi_def_cfa_offset 48
	popq	%r12
	.cfi_def_cfa_offset 40
	popq	%r13
	.cfi_def_cfa_offset 32
	popq	%r14
	.cfi_def_cfa_offset 24
	popq	%r15
	.cfi_def_cfa_offset 16
	popq	%rbp
	.cfi_def_cfa_offset 8
	retq
.LBB90_119:
	.cfi_def_cfa_offset 64
	xorl	%ecx, %ecx
	cmpb	$2, %dl
	jne	.LBB90_121
	jmp	.LBB90_120
.Lfunc_end90:
	.size	dethrux_compare_v2, .Lfunc_end90-dethrux_compare_v2
	.cfi_endproc

	.section	.rodata.cst16,"aM",@progbits,16
	.p2align	4, 0x0
.LCPI91_0:
	.zero	16,252
.LCPI91_1:
	.zero	16,220
.LCPI91_2:
	.byte	252
	.byte	252
	.zero	1
	.zero	1
	.zero	1
	.zero	1
	.zero	1
	.zero	1
	.zero	1
	.zero	1
	.zero	1
	.zero	1
	.zero	1
	.zero	1
	.zero	1
	.zero	1
.LCPI91_3:
	.byte	220
	.byte	220
	.zero	1
	.zero	1
	.zero	1
	.zero	1
	.zero	1
	.zero	1
	.zero	1
	.zero	1
	.zero	1
	.zero	1
	.zero	1
	.zero	1
	.zero	1
	.zero	1
.LCPI91_4:
	.quad	1
	.quad	1
.LCPI91_5:
	.byte	255
	.byte	0
	.byte	255
	.byte	0
	.byte	255
	.byte	0
	.byte	255
	.byte	0
	.byte	255
	.byte	0
	.byte	255
	.byte	0
	.byte	255
	.byte	0
	.byte	255
	.byte	0
	.section	.text.dethrux_count_chars,"ax",@progbits
	.globl	dethrux_count_chars_v2
	.hidden	dethrux_count_chars_v2
	.p2align	4
	.type	dethrux_count_chars_v2,@function
dethrux_count_chars_v2:
	.cfi_startproc
	movq	%rdx, %rax
	xorl	%ecx, %ecx
	testq	%rsi, %rsi
	sete	%cl
	shll	$12, %ecx
	leaq	(%rsi,%rcx), %r8
	cmpl	$1, %edi
	jne	.LBB91_13
	cmpq	$64, %rax
	jb	.LBB91_2
	xorl	%edi, %edi
	movq	%rax, %r9
	xorl	%edx, %edx
	.p2align	4
.LBB91_12:
	movdqu	(%r8,%rdi), %xmm0
	movdqu	16(%r8,%rdi), %xmm1
	movdqu	32(%r8,%rdi), %xmm2
	movdqu	48(%r8,%rdi), %xmm3
	movdqa	.LCPI91_5(%rip), %xmm4
	pand	%xmm4, %xmm1
	pand	%xmm4, %xmm0
	packuswb	%xmm1, %xmm0
	pand	%xmm4, %xmm3
	pand	%xmm4, %xmm2
	packuswb	%xmm3, %xmm2
	movdqa	.LCPI91_0(%rip), %xmm1
	pand	%xmm1, %xmm2
	pand	%xmm1, %xmm0
	movdqa	.LCPI91_1(%rip), %xmm1
	pcmpeqb	%xmm1, %xmm0
	pmovmskb	%xmm0, %r10d
	pcmpeqb	%xmm1, %xmm2
	pmovmskb	%xmm2, %r11d
	shll	$16, %r11d
	orl	%r10d, %r11d
	xorl	%r10d, %r10d
	popcntl	%r11d, %r10d
	addq	%r10, %rdx
	addq	$64, %rdi
	addq	$-64, %r9
	cmpq	$63, %r9
	ja	.LBB91_12
	movq	%rax, %r8
	subq	%rdi, %r8
	cmpq	$2, %r8
	jae	.LBB91_4
	jmp	.LBB91_23
.LBB91_13:
	cmpq	$64, %rax
	jb	.LBB91_14
	xorl	%edi, %edi
	movq	%rax, %r9
	xorl	%edx, %edx
	.p2align	4
.LBB91_25:
	movdqu	(%r8,%rdi), %xmm0
	movdqu	16(%r8,%rdi), %xmm1
	movdqu	32(%r8,%rdi), %xmm2
	movdqu	48(%r8,%rdi), %xmm3
	psrlw	$8, %xmm3
	psrlw	$8, %xmm2
	packuswb	%xmm3, %xmm2
	psrlw	$8, %xmm1
	psrlw	$8, %xmm0
	packuswb	%xmm1, %xmm0
	movdqa	.LCPI91_0(%rip), %xmm1
	pand	%xmm1, %xmm2
	pand	%xmm1, %xmm0
	movdqa	.LCPI91_1(%rip), %xmm1
	pcmpeqb	%xmm1, %xmm0
	pmovmskb	%xmm0, %r10d
	pcmpeqb	%xmm1, %xmm2
	pmovmskb	%xmm2, %r11d
	shll	$16, %r11d
	orl	%r10d, %r11d
	xorl	%r10d, %r10d
	popcntl	%r11d, %r10d
	addq	%r10, %rdx
	addq	$64, %rdi
	addq	$-64, %r9
	cmpq	$63, %r9
	ja	.LBB91_25
	movq	%rax, %r8
	subq	%rdi, %r8
	cmpq	$2, %r8
	jae	.LBB91_16
	jmp	.LBB91_23
.LBB91_2:
	xorl	%edx, %edx
	xorl	%edi, %edi
	movq	%rax, %r8
	subq	%rdi, %r8
	cmpq	$2, %r8
	jb	.LBB91_23
.LBB91_4:
	addq	$-2, %r8
	cmpq	$8, %r8
	jae	.LBB91_6
	movq	%rdi, %r9
	jmp	.LBB91_9
.LBB91_14:
	xorl	%edx, %edx
	xorl	%edi, %edi
	movq	%rax, %r8
	subq	%rdi, %r8
	cmpq	$2, %r8
	jb	.LBB91_23
.LBB91_16:
	addq	$-2, %r8
	cmpq	$8, %r8
	jae	.LBB91_18
	movq	%rdi, %r9
	jmp	.LBB91_21
.LBB91_6:
	shrq	%r8
	leaq	1(%r8), %r9
	movl	%r9d, %r10d
	andl	$3, %r10d
	movl	$4, %r11d
	cmovneq	%r10, %r11
	subq	%r11, %r9
	leaq	(%rdi,%r9,2), %r9
	movq	%rdx, %xmm0
	addq	%rcx, %rdi
	leaq	(%rsi,%rdi), %rdx
	addq	$6, %rdx
	subq	%r11, %r8
	pxor	%xmm1, %xmm1
	movq	$-1, %rdi
	.p2align	4
.LBB91_7:
	movzbl	-4(%rdx,%rdi,2), %r10d
	movd	%r10d, %xmm2
	pinsrb	$1, -2(%rdx,%rdi,2), %xmm2
	movzbl	(%rdx,%rdi,2), %r10d
	movd	%r10d, %xmm3
	pinsrb	$1, 2(%rdx,%rdi,2), %xmm3
	movdqa	.LCPI91_2(%rip), %xmm4
	pand	%xmm4, %xmm2
	pand	%xmm4, %xmm3
	movdqa	.LCPI91_3(%rip), %xmm4
	pcmpeqb	%xmm4, %xmm2
	pmovzxbq	%xmm2, %xmm2
	movdqa	.LCPI91_4(%rip), %xmm5
	pand	%xmm5, %xmm2
	paddq	%xmm2, %xmm0
	pcmpeqb	%xmm4, %xmm3
	pmovzxbq	%xmm3, %xmm2
	pand	%xmm5, %xmm2
	paddq	%xmm2, %xmm1
	addq	$4, %rdi
	cmpq	%rdi, %r8
	jne	.LBB91_7
	paddq	%xmm0, %xmm1
	pshufd	$238, %xmm1, %xmm0
	paddq	%xmm1, %xmm0
	movq	%xmm0, %rdx
.LBB91_9:
	movq	%rax, %rdi
	subq	%r9, %rdi
	addq	%r9, %rcx
	addq	%rcx, %rsi
	.p2align	4
.LBB91_10:
	movzbl	(%rsi), %ecx
	andb	$-4, %cl
	xorl	%r8d, %r8d
	cmpb	$-36, %cl
	sete	%r8b
	addq	%r8, %rdx
	addq	$-2, %rdi
	addq	$2, %rsi
	cmpq	$1, %rdi
	ja	.LBB91_10
	jmp	.LBB91_23
.LBB91_18:
	shrq	%r8
	leaq	1(%r8), %r9
	movl	%r9d, %r10d
	andl	$3, %r10d
	movl	$4, %r11d
	cmovneq	%r10, %r11
	subq	%r11, %r9
	leaq	(%rdi,%r9,2), %r9
	movq	%rdx, %xmm0
	addq	%rcx, %rdi
	leaq	(%rsi,%rdi), %rdx
	addq	$7, %rdx
	subq	%r11, %r8
	pxor	%xmm1, %xmm1
	movq	$-1, %rdi
	.p2align	4
.LBB91_19:
	movzbl	-4(%rdx,%rdi,2), %r10d
	movd	%r10d, %xmm2
	pinsrb	$1, -2(%rdx,%rdi,2), %xmm2
	movzbl	(%rdx,%rdi,2), %r10d
	movd	%r10d, %xmm3
	pinsrb	$1, 2(%rdx,%rdi,2), %xmm3
	movdqa	.LCPI91_2(%rip), %xmm4
	pand	%xmm4, %xmm2
	pand	%xmm4, %xmm3
	movdqa	.LCPI91_3(%rip), %xmm4
	pcmpeqb	%xmm4, %xmm2
	pmovzxbq	%xmm2, %xmm2
	movdqa	.LCPI91_4(%rip), %xmm5
	pand	%xmm5, %xmm2
	paddq	%xmm2, %xmm0
	pcmpeqb	%xmm4, %xmm3
	pmovzxbq	%xmm3, %xmm2
	pand	%xmm5, %xmm2
	paddq	%xmm2, %xmm1
	addq	$4, %rdi
	cmpq	%rdi, %r8
	jne	.LBB91_19
	paddq	%xmm0, %xmm1
	pshufd	$238, %xmm1, %xmm0
	paddq	%xmm1, %xmm0
	movq	%xmm0, %rdx
.LBB91_21:
	movq	%rax, %rdi
	subq	%r9, %rdi
	addq	%r9, %rcx
	addq	%rsi, %rcx
	incq	%rcx
	.p2align	4
.LBB91_22:
	movzbl	(%rcx), %esi
	andb	$-4, %sil
	xorl	%r8d, %r8d
	cmpb	$-36, %sil
	sete	%r8b
	addq	%r8, %rdx
	addq	$-2, %rdi
	addq	$2, %rcx
	cmpq	$1, %rdi
	ja	.LBB91_22
.LBB91_23:
	shrq	%rax
	subq	%rdx, %rax
	retq
.Lfunc_end91:
	.size	dethrux_count_chars_v2, .Lfunc_end91-dethrux_count_chars_v2
	.cfi_endproc

	.section	.text.dethrux_floor_char_boundary,"ax",@progbits
	.globl	dethrux_floor_char_boundary_v2
	.hidden	dethrux_floor_char_boundary_v2
	.p2align	4
	.type	dethrux_floor_char_boundary_v2,@function
dethrux_floor_char_boundary_v2:
	.cfi_startproc
	xorl	%r8d, %r8d
	testq	%rsi, %rsi
	sete	%r8b
	shll	$12, %r8d
	addq	%rsi, %r8
	cmpl	$1, %edi
	jne	.LBB92_6
	cmpq	%rcx, %rdx
	jbe	.LBB92_15
	movq	%rcx, %rax
	andq	$-2, %rax
	cmpq	$2, %rcx
	jb	.LBB92_13
	movzbl	-2(%r8,%rax), %ecx
	andb	$-4, %cl
	cmpb	$-40, %cl
	jne	.LBB92_13
	leaq	2(%rax), %rcx
	cmpq	%rdx, %rcx
	ja	.LBB92_12
	movzbl	(%r8,%rax), %ecx
	jmp	.LBB92_11
.LBB92_6:
	cmpq	%rcx, %rdx
	jbe	.LBB92_15
	movq	%rcx, %rax
	andq	$-2, %rax
	cmpq	$2, %rcx
	jb	.LBB92_13
	movzbl	-1(%r8,%rax), %ecx
	andb	$-4, %cl
	cmpb	$-40, %cl
	jne	.LBB92_13
	leaq	2(%rax), %rcx
	cmpq	%rdx, %rcx
	ja	.LBB92_12
	movzbl	1(%r8,%rax), %ecx
.LBB92_11:
	andb	$-4, %cl
	cmpb	$-36, %cl
	jne	.LBB92_13
.LBB92_12:
	addq	$-2, %rax
.LBB92_13:
	retq
.LBB92_15:
	movq	%rdx, %rax
	retq
.Lfunc_end92:
	.size	dethrux_floor_char_boundary_v2, .Lfunc_end92-dethrux_floor_char_boundary_v2
	.cfi_endproc

	.section	.text.dethrux_floor_char_boundary_around,"ax",@progbits
	.globl	dethrux_floor_char_boundary_around_v2
	.hidden	dethrux_floor_char_boundary_around_v2
	.p2align	4
	.type	dethrux_floor_char_boundary_around_v2,@function
dethrux_floor_char_boundary_around_v2:
	.cfi_startproc
	xorl	%r8d, %r8d
	testq	%rsi, %rsi
	sete	%r8b
	shll	$12, %r8d
	addq	%rsi, %r8
	movq	%rcx, %rax
	andq	$-2, %rax
	xorl	%esi, %esi
	subq	$2, %rax
	cmovaeq	%rax, %rsi
	subq	%rsi, %rcx
	cmpl	$1, %edi
	jne	.LBB93_6
	cmpq	%rcx, %rdx
	jbe	.LBB93_15
	movq	%rcx, %rax
	andq	$-2, %rax
	cmpq	$2, %rcx
	jb	.LBB93_13
	movzbl	-2(%r8,%rax), %ecx
	andb	$-4, %cl
	cmpb	$-40, %cl
	jne	.LBB93_13
	leaq	2(%rax), %rcx
	cmpq	%rdx, %rcx
	ja	.LBB93_12
	movzbl	(%r8,%rax), %ecx
	jmp	.LBB93_11
.LBB93_6:
	cmpq	%rcx, %rdx
	jbe	.LBB93_15
	movq	%rcx, %rax
	andq	$-2, %rax
	cmpq	$2, %rcx
	jb	.LBB93_13
	movzbl	-1(%r8,%rax), %ecx
	andb	$-4, %cl
	cmpb	$-40, %cl
	jne	.LBB93_13
	leaq	2(%rax), %rcx
	cmpq	%rdx, %rcx
	ja	.LBB93_12
	movzbl	1(%r8,%rax), %ecx
.LBB93_11:
	andb	$-4, %cl
	cmpb	$-36, %cl
	jne	.LBB93_13
.LBB93_12:
	addq	$-2, %rax
.LBB93_13:
	addq	%rsi, %rax
	retq
.LBB93_15:
	movq	%rdx, %rax
	addq	%rsi, %rax
	retq
.Lfunc_end93:
	.size	dethrux_floor_char_boundary_around_v2, .Lfunc_end93-dethrux_floor_char_boundary_around_v2
	.cfi_endproc

	.section	.rodata.cst16,"aM",@progbits,16
	.p2align	4, 0x0
.LCPI94_0:
	.byte	128
	.byte	1
	.byte	128
	.byte	1
	.byte	128
	.byte	1
	.byte	128
	.byte	1
	.byte	128
	.byte	1
	.byte	128
	.byte	1
	.byte	128
	.byte	1
	.byte	128
	.byte	1
.LCPI94_1:
	.byte	1
	.byte	128
	.byte	1
	.byte	128
	.byte	1
	.byte	128
	.byte	1
	.byte	128
	.byte	1
	.byte	128
	.byte	1
	.byte	128
	.byte	1
	.byte	128
	.byte	1
	.byte	128
	.section	.text.dethrux_is_ascii,"ax",@progbits
	.globl	dethrux_is_ascii_v2
	.hidden	dethrux_is_ascii_v2
	.p2align	4
	.type	dethrux_is_ascii_v2,@function
dethrux_is_ascii_v2:
	.cfi_startproc
	pushq	%rax
	.cfi_def_cfa_offset 16
	movl	%edi, %ecx
	xorl	%edi, %edi
	testq	%rsi, %rsi
	sete	%dil
	shll	$12, %edi
	addq	%rsi, %rdi
	movl	%edx, %eax
	xorb	$1, %al
	cmpl	$1, %ecx
	jne	.LBB94_6
	testb	$1, %dl
	jne	.LBB94_12
	xorl	%eax, %eax
	cmpq	$64, %rdx
	jb	.LBB94_5
	.p2align	4
.LBB94_3:
	movdqu	(%rdi,%rax), %xmm0
	movdqu	16(%rdi,%rax), %xmm1
	pmaxub	%xmm0, %xmm1
	movdqu	32(%rdi,%rax), %xmm0
	movdqu	48(%rdi,%rax), %xmm2
	pmaxub	%xmm0, %xmm2
	pmaxub	%xmm1, %xmm2
	movdqa	.LCPI94_1(%rip), %xmm0
	pmaxub	%xmm2, %xmm0
	pcmpeqb	%xmm2, %xmm0
	pmovmskb	%xmm0, %ecx
	testl	%ecx, %ecx
	jne	.LBB94_14
	addq	$64, %rax
	addq	$-64, %rdx
	cmpq	$63, %rdx
	ja	.LBB94_3
.LBB94_5:
	addq	%rax, %rdi
	movq	%rdx, %rsi
	callq	"utf16_units::text::has_few_ascii_units::<#8b18edd9dd9aa8df>"
	jmp	.LBB94_11
.LBB94_6:
	testb	$1, %dl
	jne	.LBB94_12
	xorl	%eax, %eax
	cmpq	$64, %rdx
	jb	.LBB94_10
	.p2align	4
.LBB94_8:
	movdqu	(%rdi,%rax), %xmm0
	movdqu	16(%rdi,%rax), %xmm1
	pmaxub	%xmm0, %xmm1
	movdqu	32(%rdi,%rax), %xmm0
	movdqu	48(%rdi,%rax), %xmm2
	pmaxub	%xmm0, %xmm2
	pmaxub	%xmm1, %xmm2
	movdqa	.LCPI94_0(%rip), %xmm0
	pmaxub	%xmm2, %xmm0
	pcmpeqb	%xmm2, %xmm0
	pmovmskb	%xmm0, %ecx
	testl	%ecx, %ecx
	jne	.LBB94_14
	addq	$64, %rax
	addq	$-64, %rdx
	cmpq	$63, %rdx
	ja	.LBB94_8
.LBB94_10:
	addq	%rax, %rdi
	movq	%rdx, %rsi
	callq	"utf16_units::text::has_few_ascii_units::<#418c2b53cf60437c>"
.LBB94_11:
.LBB94_12:
	andb	$1, %al
	popq	%rcx
	.cfi_def_cfa_offset 8
	retq
.LBB94_14:
	.cfi_def_cfa_offset 16
	xorl	%eax, %eax
	andb	$1, %al
	popq	%rcx
	.cfi_def_cfa_offset 8
	retq
.Lfunc_end94:
	.size	dethrux_is_ascii_v2, .Lfunc_end94-dethrux_is_ascii_v2
	.cfi_endproc

	.section	.text.dethrux_is_char_boundary,"ax",@progbits
	.globl	dethrux_is_char_boundary_v2
	.hidden	dethrux_is_char_boundary_v2
	.p2align	4
	.type	dethrux_is_char_boundary_v2,@function
dethrux_is_char_boundary_v2:
	.cfi_startproc
	xorl	%r8d, %r8d
	testq	%rsi, %rsi
	sete	%r8b
	shll	$12, %r8d
	addq	%rsi, %r8
	cmpl	$1, %edi
	jne	.LBB95_7
	cmpq	%rcx, %rdx
	jbe	.LBB95_14
	testb	$1, %cl
	jne	.LBB95_15
	movb	$1, %al
	cmpq	$2, %rcx
	jb	.LBB95_20
	movzbl	-2(%r8,%rcx), %esi
	andb	$-4, %sil
	cmpb	$-40, %sil
	jne	.LBB95_20
	leaq	2(%rcx), %rax
	cmpq	%rdx, %rax
	ja	.LBB95_15
	movzbl	(%r8,%rcx), %eax
	jmp	.LBB95_19
.LBB95_7:
	cmpq	%rcx, %rdx
	jbe	.LBB95_14
	testb	$1, %cl
	jne	.LBB95_15
	movb	$1, %al
	cmpq	$2, %rcx
	jb	.LBB95_20
	movzbl	-1(%r8,%rcx), %esi
	andb	$-4, %sil
	cmpb	$-40, %sil
	jne	.LBB95_20
	leaq	2(%rcx), %rax
	cmpq	%rdx, %rax
	jbe	.LBB95_18
.LBB95_15:
	xorl	%eax, %eax
	retq
.LBB95_14:
	sete	%al
	retq
.LBB95_18:
	movzbl	1(%r8,%rcx), %eax
.LBB95_19:
	andb	$-4, %al
	cmpb	$-36, %al
	setne	%al
.LBB95_20:
	retq
.Lfunc_end95:
	.size	dethrux_is_char_boundary_v2, .Lfunc_end95-dethrux_is_char_boundary_v2
	.cfi_endproc

	.section	.text.dethrux_make_well_formed,"ax",@progbits
	.globl	dethrux_make_well_formed_v2
	.hidden	dethrux_make_well_formed_v2
	.p2align	4
	.type	dethrux_make_well_formed_v2,@function
dethrux_make_well_formed_v2:
	.cfi_startproc
	pushq	%r15
	.cfi_def_cfa_offset 16
	pushq	%r14
	.cfi_def_cfa_offset 24
	pushq	%r13
	.cfi_def_cfa_offset 32
	pushq	%r12
	.cfi_def_cfa_offset 40
	pushq	%rbx
	.cfi_def_cfa_offset 48
	.cfi_offset %rbx, -48
	.cfi_offset %r12, -40
	.cfi_offset %r13, -32
	.cfi_offset %r14, -24
	.cfi_offset %r15, -16
	movq	%rdx, %rbx
	xorl	%r15d, %r15d
	testq	%rsi, %rsi
	sete	%r15b
	shll	$12, %r15d
	addq	%rsi, %r15
	andq	$-2, %rbx
	xorl	%r14d, %r14d
	cmpl	$1, %edi
	jne	.LBB96_11
	testq	%rbx, %rbx
	je	.LBB96_21
	xorl	%r12d, %r12d
	jmp	.LBB96_3
	.p2align	4
.LBB96_9:
	movw	$-513, (%r15,%r12)
	incq	%r14
	movl	$2, %eax
	addq	%rax, %r12
	cmpq	%rbx, %r12
	jae	.LBB96_21
.LBB96_3:
	movq	%rbx, %rcx
	subq	%r12, %rcx
	cmpq	$2, %rcx
	jb	.LBB96_9
	movzwl	(%r15,%r12), %eax
	rolw	$8, %ax
	movl	%eax, %edx
	andl	$63488, %edx
	movl	$2, %r13d
	cmpl	$55296, %edx
	jne	.LBB96_8
	cmpq	$4, %rcx
	jb	.LBB96_9
	andl	$56320, %eax
	movzwl	%ax, %eax
	cmpl	$56320, %eax
	je	.LBB96_9
	movzbl	2(%r15,%r12), %eax
	andb	$-4, %al
	movl	$4, %r13d
	cmpb	$-36, %al
	jne	.LBB96_9
	.p2align	4
.LBB96_8:
	leaq	(%r12,%r13), %rax
	leaq	(%r15,%rax), %rdi
	movq	%rbx, %rsi
	subq	%rax, %rsi
	callq	"utf16_transcode::decode::valid_up_to::<#8b18edd9dd9aa8df>"
	addq	%r13, %rax
	addq	%rax, %r12
	cmpq	%rbx, %r12
	jb	.LBB96_3
	jmp	.LBB96_21
.LBB96_11:
	testq	%rbx, %rbx
	je	.LBB96_21
	xorl	%r12d, %r12d
	jmp	.LBB96_13
	.p2align	4
.LBB96_19:
	movw	$-3, (%r15,%r12)
	incq	%r14
	movl	$2, %eax
	addq	%rax, %r12
	cmpq	%rbx, %r12
	jae	.LBB96_21
.LBB96_13:
	movq	%rbx, %rax
	subq	%r12, %rax
	cmpq	$2, %rax
	jb	.LBB96_19
	movzbl	1(%r15,%r12), %ecx
	movl	%ecx, %edx
	andl	$-8, %edx
	movl	$2, %r13d
	cmpl	$216, %edx
	jne	.LBB96_18
	cmpq	$4, %rax
	jb	.LBB96_19
	movzwl	%cx, %eax
	andl	$-36, %eax
	movzwl	%ax, %eax
	cmpl	$220, %eax
	je	.LBB96_19
	movzbl	3(%r15,%r12), %eax
	andb	$-4, %al
	movl	$4, %r13d
	cmpb	$-36, %al
	jne	.LBB96_19
	.p2align	4
.LBB96_18:
	leaq	(%r12,%r13), %rax
	leaq	(%r15,%rax), %rdi
	movq	%rbx, %rsi
	subq	%rax, %rsi
	callq	"utf16_transcode::decode::valid_up_to::<#418c2b53cf60437c>"
	addq	%r13, %rax
	addq	%rax, %r12
	cmpq	%rbx, %r12
	jb	.LBB96_13
.LBB96_21:
	movq	%r14, %rax
	popq	%rbx
	.cfi_def_cfa_offset 40
	popq	%r12
	.cfi_def_cfa_offset 32
	popq	%r13
	.cfi_def_cfa_offset 24
	popq	%r14
	.cfi_def_cfa_offset 16
	popq	%r15
	.cfi_def_cfa_offset 8
	retq
.Lfunc_end96:
	.size	dethrux_make_well_formed_v2, .Lfunc_end96-dethrux_make_well_formed_v2
	.cfi_endproc

	.section	.rodata.cst16,"aM",@progbits,16
	.p2align	4, 0x0
.LCPI97_0:
	.zero	16,248
.LCPI97_1:
	.zero	16,216
.LCPI97_2:
	.byte	248
	.byte	248
	.byte	248
	.byte	248
	.byte	248
	.byte	248
	.byte	248
	.byte	248
	.zero	1
	.zero	1
	.zero	1
	.zero	1
	.zero	1
	.zero	1
	.zero	1
	.zero	1
.LCPI97_3:
	.byte	216
	.byte	216
	.byte	216
	.byte	216
	.byte	216
	.byte	216
	.byte	216
	.byte	216
	.zero	1
	.zero	1
	.zero	1
	.zero	1
	.zero	1
	.zero	1
	.zero	1
	.zero	1
.LCPI97_4:
	.byte	248
	.byte	248
	.byte	248
	.byte	248
	.zero	1
	.zero	1
	.zero	1
	.zero	1
	.zero	1
	.zero	1
	.zero	1
	.zero	1
	.zero	1
	.zero	1
	.zero	1
	.zero	1
.LCPI97_5:
	.byte	216
	.byte	216
	.byte	216
	.byte	216
	.zero	1
	.zero	1
	.zero	1
	.zero	1
	.zero	1
	.zero	1
	.zero	1
	.zero	1
	.zero	1
	.zero	1
	.zero	1
	.zero	1
.LCPI97_6:
	.zero	16,252
.LCPI97_7:
	.zero	16,220
.LCPI97_8:
	.byte	252
	.byte	252
	.zero	1
	.zero	1
	.zero	1
	.zero	1
	.zero	1
	.zero	1
	.zero	1
	.zero	1
	.zero	1
	.zero	1
	.zero	1
	.zero	1
	.zero	1
	.zero	1
.LCPI97_9:
	.byte	220
	.byte	220
	.zero	1
	.zero	1
	.zero	1
	.zero	1
	.zero	1
	.zero	1
	.zero	1
	.zero	1
	.zero	1
	.zero	1
	.zero	1
	.zero	1
	.zero	1
	.zero	1
.LCPI97_10:
	.quad	1
	.quad	1
.LCPI97_11:
	.byte	255
	.byte	0
	.byte	255
	.byte	0
	.byte	255
	.byte	0
	.byte	255
	.byte	0
	.byte	255
	.byte	0
	.byte	255
	.byte	0
	.byte	255
	.byte	0
	.byte	255
	.byte	0
.LCPI97_12:
	.byte	0
	.byte	2
	.byte	4
	.byte	6
	.byte	8
	.byte	10
	.byte	12
	.byte	14
	.zero	1
	.zero	1
	.zero	1
	.zero	1
	.zero	1
	.zero	1
	.zero	1
	.zero	1
.LCPI97_13:
	.byte	0
	.byte	2
	.byte	4
	.byte	6
	.zero	1
	.zero	1
	.zero	1
	.zero	1
	.zero	1
	.zero	1
	.zero	1
	.zero	1
	.zero	1
	.zero	1
	.zero	1
	.zero	1
	.section	.text.dethrux_to_utf32_lossy_len,"ax",@progbits
	.globl	dethrux_to_utf32_lossy_len_v2
	.hidden	dethrux_to_utf32_lossy_len_v2
	.p2align	4
	.type	dethrux_to_utf32_lossy_len_v2,@function
dethrux_to_utf32_lossy_len_v2:
	.cfi_startproc
	pushq	%rbp
	.cfi_def_cfa_offset 16
	pushq	%r15
	.cfi_def_cfa_offset 24
	pushq	%r14
	.cfi_def_cfa_offset 32
	pushq	%r13
	.cfi_def_cfa_offset 40
	pushq	%r12
	.cfi_def_cfa_offset 48
	pushq	%rbx
	.cfi_def_cfa_offset 56
	pushq	%rax
	.cfi_def_cfa_offset 64
	.cfi_offset %rbx, -56
	.cfi_offset %r12, -48
	.cfi_offset %r13, -40
	.cfi_offset %r14, -32
	.cfi_offset %r15, -24
	.cfi_offset %rbp, -16
	movq	%rdx, %r14
	xorl	%r15d, %r15d
	testq	%rsi, %rsi
	sete	%r15b
	shll	$12, %r15d
	addq	%rsi, %r15
	xorl	%ebx, %ebx
	cmpl	$1, %edi
	jne	.LBB97_1
	.p2align	4
	cmpq	$2, %r14
	jne	.LBB97_7
.LBB97_5:
	movzbl	(%r15), %eax
.LBB97_6:
	andb	$-8, %al
	cmpb	$-40, %al
	jne	.LBB97_23
.LBB97_28:
	movq	%r15, %rdi
	movq	%r14, %rsi
	callq	"utf16_units::validate::valid_len::<#8b18edd9dd9aa8df>"
	movq	%r14, %rsi
	subq	%rax, %rsi
	je	.LBB97_29
	movq	%rax, %r12
	leaq	(%r15,%rax), %r13
	movq	%r13, %rdi
	callq	"utf16_units::validate::error_len::<#8b18edd9dd9aa8df>"
	movl	%eax, %ebp
	cmpq	$64, %r12
	jae	.LBB97_42
	movq	%r15, %rdi
	movq	%r12, %rsi
	movl	%edx, %r15d
	callq	"utf16_units::text::count_few::<#8b18edd9dd9aa8df>"
	movl	%r15d, %edx
	addq	%rax, %rbx
	incq	%rbx
	cmpb	$1, %bpl
	je	.LBB97_53
	jmp	.LBB97_25
	.p2align	4
.LBB97_7:
	cmpq	$7, %r14
	ja	.LBB97_16
	cmpq	$4, %r14
	je	.LBB97_11
	cmpq	$6, %r14
	je	.LBB97_13
	testq	%r14, %r14
	jne	.LBB97_28
	jmp	.LBB97_23
	.p2align	4
.LBB97_42:
	leaq	70(%r15), %rsi
	xorl	%eax, %eax
	xorl	%ecx, %ecx
	.p2align	4
.LBB97_43:
	movq	%rsi, %r9
	movdqu	(%r15,%rax), %xmm0
	movdqu	16(%r15,%rax), %xmm1
	movdqu	32(%r15,%rax), %xmm2
	movdqu	48(%r15,%rax), %xmm3
	movdqa	.LCPI97_11(%rip), %xmm4
	pand	%xmm4, %xmm1
	pand	%xmm4, %xmm0
	packuswb	%xmm1, %xmm0
	pand	%xmm4, %xmm3
	pand	%xmm4, %xmm2
	packuswb	%xmm3, %xmm2
	movdqa	.LCPI97_6(%rip), %xmm1
	pand	%xmm1, %xmm2
	pand	%xmm1, %xmm0
	movdqa	.LCPI97_7(%rip), %xmm1
	pcmpeqb	%xmm1, %xmm0
	pmovmskb	%xmm0, %esi
	pcmpeqb	%xmm1, %xmm2
	pmovmskb	%xmm2, %edi
	shll	$16, %edi
	orl	%esi, %edi
	xorl	%esi, %esi
	popcntl	%edi, %esi
	addq	%rsi, %rcx
	addq	$64, %rax
	movq	%r12, %rdi
	subq	%rax, %rdi
	leaq	64(%r9), %rsi
	cmpq	$63, %rdi
	ja	.LBB97_43
	cmpq	$2, %rdi
	jb	.LBB97_51
	movq	%r12, %rsi
	andq	$-64, %rsi
	leaq	-2(%r12), %rdi
	xorl	%r8d, %r8d
	cmpq	%rsi, %rdi
	setne	%r8b
	movq	%r12, %rdi
	subq	%r8, %rdi
	notq	%rsi
	addq	%rdi, %rsi
	cmpq	$8, %rsi
	jb	.LBB97_49
	shrq	%rsi
	incq	%rsi
	movl	%esi, %edi
	andl	$3, %edi
	movl	$4, %r8d
	cmovneq	%rdi, %r8
	subq	%r8, %rsi
	leaq	(%rax,%rsi,2), %rax
	movq	%rcx, %xmm1
	pxor	%xmm0, %xmm0
	.p2align	4
.LBB97_47:
	movzbl	-6(%r9), %ecx
	movd	%ecx, %xmm2
	pinsrb	$1, -4(%r9), %xmm2
	movzbl	-2(%r9), %ecx
	movd	%ecx, %xmm3
	pinsrb	$1, (%r9), %xmm3
	movdqa	.LCPI97_8(%rip), %xmm4
	pand	%xmm4, %xmm2
	pand	%xmm4, %xmm3
	movdqa	.LCPI97_9(%rip), %xmm4
	pcmpeqb	%xmm4, %xmm2
	pmovzxbq	%xmm2, %xmm2
	movdqa	.LCPI97_10(%rip), %xmm5
	pand	%xmm5, %xmm2
	paddq	%xmm2, %xmm1
	pcmpeqb	%xmm4, %xmm3
	pmovzxbq	%xmm3, %xmm2
	pand	%xmm5, %xmm2
	paddq	%xmm2, %xmm0
	addq	$8, %r9
	addq	$-4, %rsi
	jne	.LBB97_47
	paddq	%xmm1, %xmm0
	pshufd	$238, %xmm0, %xmm1
	paddq	%xmm0, %xmm1
	movq	%xmm1, %rcx
.LBB97_49:
	movq	%r12, %rdi
	subq	%rax, %rdi
	addq	%rax, %r15
	.p2align	4
.LBB97_50:
	movzbl	(%r15), %eax
	andb	$-4, %al
	xorl	%esi, %esi
	cmpb	$-36, %al
	sete	%sil
	addq	%rsi, %rcx
	addq	$-2, %rdi
	addq	$2, %r15
	cmpq	$1, %rdi
	ja	.LBB97_50
.LBB97_51:
	movq	%r12, %rax
	shrq	%rax
	subq	%rcx, %rax
	addq	%rax, %rbx
	incq	%rbx
	cmpb	$1, %bpl
	jne	.LBB97_25
.LBB97_53:
	movzbl	%dl, %eax
	addq	%rax, %r13
	addq	%rax, %r12
	subq	%r12, %r14
	movq	%r13, %r15
	cmpq	$2, %r14
	je	.LBB97_5
	jmp	.LBB97_7
	.p2align	4
.LBB97_16:
	cmpq	$65, %r14
	setae	%al
	movl	%r14d, %ecx
	orb	%al, %cl
	testb	$1, %cl
	jne	.LBB97_28
	cmpq	$15, %r14
	ja	.LBB97_20
	movq	(%r15), %xmm0
	pshufb	.LCPI97_13(%rip), %xmm0
	pand	.LCPI97_4(%rip), %xmm0
	pcmpeqb	.LCPI97_5(%rip), %xmm0
	pmovsxbd	%xmm0, %xmm0
	movmskps	%xmm0, %eax
	testl	%eax, %eax
	jne	.LBB97_28
	movq	-8(%r15,%r14), %xmm0
	pshufb	.LCPI97_13(%rip), %xmm0
	pand	.LCPI97_4(%rip), %xmm0
	pcmpeqb	.LCPI97_5(%rip), %xmm0
	pmovsxbd	%xmm0, %xmm0
	movmskps	%xmm0, %eax
	testl	%eax, %eax
	jne	.LBB97_28
	jmp	.LBB97_23
.LBB97_13:
	movzbl	(%r15), %eax
	andb	$-8, %al
	cmpb	$-40, %al
	je	.LBB97_28
	movzbl	2(%r15), %eax
	andb	$-8, %al
	cmpb	$-40, %al
	je	.LBB97_28
	movzbl	4(%r15), %eax
	jmp	.LBB97_6
.LBB97_11:
	movzbl	(%r15), %eax
	andb	$-8, %al
	cmpb	$-40, %al
	je	.LBB97_28
	movzbl	2(%r15), %eax
	jmp	.LBB97_6
.LBB97_20:
	cmpq	$31, %r14
	ja	.LBB97_26
	movdqu	(%r15), %xmm0
	pshufb	.LCPI97_12(%rip), %xmm0
	pand	.LCPI97_2(%rip), %xmm0
	pcmpeqb	.LCPI97_3(%rip), %xmm0
	pmovmskb	%xmm0, %eax
	testb	%al, %al
	jne	.LBB97_28
	movdqu	-16(%r15,%r14), %xmm0
	pshufb	.LCPI97_12(%rip), %xmm0
	pand	.LCPI97_2(%rip), %xmm0
	pcmpeqb	.LCPI97_3(%rip), %xmm0
	pmovmskb	%xmm0, %eax
	testb	%al, %al
	jne	.LBB97_28
	jmp	.LBB97_23
.LBB97_26:
	movdqu	(%r15), %xmm1
	movdqu	16(%r15), %xmm2
	movdqa	.LCPI97_11(%rip), %xmm0
	pand	%xmm0, %xmm2
	pand	%xmm0, %xmm1
	packuswb	%xmm2, %xmm1
	pand	.LCPI97_0(%rip), %xmm1
	pcmpeqb	.LCPI97_1(%rip), %xmm1
	pmovmskb	%xmm1, %eax
	testl	%eax, %eax
	jne	.LBB97_28
	movdqu	-32(%r15,%r14), %xmm1
	movdqu	-16(%r15,%r14), %xmm2
	pand	%xmm0, %xmm2
	pand	%xmm0, %xmm1
	packuswb	%xmm2, %xmm1
	pand	.LCPI97_0(%rip), %xmm1
	pcmpeqb	.LCPI97_1(%rip), %xmm1
	pmovmskb	%xmm1, %eax
	testl	%eax, %eax
	jne	.LBB97_28
.LBB97_29:
	cmpq	$64, %r14
	jae	.LBB97_30
.LBB97_23:
	movq	%r15, %rdi
	movq	%r14, %rsi
	callq	"utf16_units::text::count_few::<#8b18edd9dd9aa8df>"
	jmp	.LBB97_24
	.p2align	4
.LBB97_1:
	cmpq	$2, %r14
	jne	.LBB97_54
	movzbl	1(%r15), %eax
.LBB97_3:
	andb	$-8, %al
	cmpb	$-40, %al
	jne	.LBB97_70
.LBB97_73:
	movq	%r15, %rdi
	movq	%r14, %rsi
	callq	"utf16_units::validate::valid_len::<#418c2b53cf60437c>"
	movq	%r14, %rsi
	subq	%rax, %rsi
	je	.LBB97_74
	movq	%rax, %r12
	leaq	(%r15,%rax), %r13
	movq	%r13, %rdi
	callq	"utf16_units::validate::error_len::<#418c2b53cf60437c>"
	movl	%eax, %ebp
	cmpq	$64, %r12
	jae	.LBB97_86
	movq	%r15, %rdi
	movq	%r12, %rsi
	movl	%edx, %r15d
	callq	"utf16_units::text::count_few::<#418c2b53cf60437c>"
	movl	%r15d, %edx
	addq	%rax, %rbx
	incq	%rbx
	cmpb	$1, %bpl
	je	.LBB97_97
	jmp	.LBB97_25
	.p2align	4
.LBB97_54:
	cmpq	$7, %r14
	ja	.LBB97_63
	cmpq	$4, %r14
	je	.LBB97_58
	cmpq	$6, %r14
	je	.LBB97_60
	testq	%r14, %r14
	jne	.LBB97_73
	jmp	.LBB97_70
	.p2align	4
.LBB97_86:
	leaq	71(%r15), %rsi
	xorl	%eax, %eax
	xorl	%ecx, %ecx
	.p2align	4
.LBB97_87:
	movq	%rsi, %r9
	movdqu	(%r15,%rax), %xmm0
	movdqu	16(%r15,%rax), %xmm1
	movdqu	32(%r15,%rax), %xmm2
	movdqu	48(%r15,%rax), %xmm3
	psrlw	$8, %xmm3
	psrlw	$8, %xmm2
	packuswb	%xmm3, %xmm2
	psrlw	$8, %xmm1
	psrlw	$8, %xmm0
	packuswb	%xmm1, %xmm0
	movdqa	.LCPI97_6(%rip), %xmm1
	pand	%xmm1, %xmm2
	pand	%xmm1, %xmm0
	movdqa	.LCPI97_7(%rip), %xmm1
	pcmpeqb	%xmm1, %xmm0
	pmovmskb	%xmm0, %esi
	pcmpeqb	%xmm1, %xmm2
	pmovmskb	%xmm2, %edi
	shll	$16, %edi
	orl	%esi, %edi
	xorl	%esi, %esi
	popcntl	%edi, %esi
	addq	%rsi, %rcx
	addq	$64, %rax
	movq	%r12, %rdi
	subq	%rax, %rdi
	leaq	64(%r9), %rsi
	cmpq	$63, %rdi
	ja	.LBB97_87
	cmpq	$2, %rdi
	jb	.LBB97_95
	movq	%r12, %rsi
	andq	$-64, %rsi
	leaq	-2(%r12), %rdi
	xorl	%r8d, %r8d
	cmpq	%rsi, %rdi
	setne	%r8b
	movq	%r12, %rdi
	subq	%r8, %rdi
	notq	%rsi
	addq	%rdi, %rsi
	cmpq	$8, %rsi
	jb	.LBB97_93
	shrq	%rsi
	incq	%rsi
	movl	%esi, %edi
	andl	$3, %edi
	movl	$4, %r8d
	cmovneq	%rdi, %r8
	subq	%r8, %rsi
	leaq	(%rax,%rsi,2), %rax
	movq	%rcx, %xmm1
	pxor	%xmm0, %xmm0
	.p2align	4
.LBB97_91:
	movzbl	-6(%r9), %ecx
	movd	%ecx, %xmm2
	pinsrb	$1, -4(%r9), %xmm2
	movzbl	-2(%r9), %ecx
	movd	%ecx, %xmm3
	pinsrb	$1, (%r9), %xmm3
	movdqa	.LCPI97_8(%rip), %xmm4
	pand	%xmm4, %xmm2
	pand	%xmm4, %xmm3
	movdqa	.LCPI97_9(%rip), %xmm4
	pcmpeqb	%xmm4, %xmm2
	pmovzxbq	%xmm2, %xmm2
	movdqa	.LCPI97_10(%rip), %xmm5
	pand	%xmm5, %xmm2
	paddq	%xmm2, %xmm1
	pcmpeqb	%xmm4, %xmm3
	pmovzxbq	%xmm3, %xmm2
	pand	%xmm5, %xmm2
	paddq	%xmm2, %xmm0
	addq	$8, %r9
	addq	$-4, %rsi
	jne	.LBB97_91
	paddq	%xmm1, %xmm0
	pshufd	$238, %xmm0, %xmm1
	paddq	%xmm0, %xmm1
	movq	%xmm1, %rcx
.LBB97_93:
	movq	%r12, %r8
	subq	%rax, %r8
	addq	%r15, %rax
	incq	%rax
	.p2align	4
.LBB97_94:
	movzbl	(%rax), %esi
	andb	$-4, %sil
	xorl	%edi, %edi
	cmpb	$-36, %sil
	sete	%dil
	addq	%rdi, %rcx
	addq	$-2, %r8
	addq	$2, %rax
	cmpq	$1, %r8
	ja	.LBB97_94
.LBB97_95:
	movq	%r12, %rax
	shrq	%rax
	subq	%rcx, %rax
	addq	%rax, %rbx
	incq	%rbx
	cmpb	$1, %bpl
	jne	.LBB97_25
.LBB97_97:
	movzbl	%dl, %eax
	addq	%rax, %r13
	addq	%rax, %r12
	subq	%r12, %r14
	movq	%r13, %r15
	jmp	.LBB97_1
	.p2align	4
.LBB97_63:
	cmpq	$65, %r14
	setae	%al
	movl	%r14d, %ecx
	orb	%al, %cl
	testb	$1, %cl
	jne	.LBB97_73
	cmpq	$15, %r14
	ja	.LBB97_67
	movq	(%r15), %xmm0
	psrlw	$8, %xmm0
	packuswb	%xmm0, %xmm0
	pand	.LCPI97_4(%rip), %xmm0
	pcmpeqb	.LCPI97_5(%rip), %xmm0
	pmovsxbd	%xmm0, %xmm0
	movmskps	%xmm0, %eax
	testl	%eax, %eax
	jne	.LBB97_73
	movq	-8(%r15,%r14), %xmm0
	psrlw	$8, %xmm0
	packuswb	%xmm0, %xmm0
	pand	.LCPI97_4(%rip), %xmm0
	pcmpeqb	.LCPI97_5(%rip), %xmm0
	pmovsxbd	%xmm0, %xmm0
	movmskps	%xmm0, %eax
	testl	%eax, %eax
	jne	.LBB97_73
	jmp	.LBB97_70
.LBB97_60:
	movzbl	1(%r15), %eax
	andb	$-8, %al
	cmpb	$-40, %al
	je	.LBB97_73
	movzbl	3(%r15), %eax
	andb	$-8, %al
	cmpb	$-40, %al
	je	.LBB97_73
	movzbl	5(%r15), %eax
	jmp	.LBB97_3
.LBB97_58:
	movzbl	1(%r15), %eax
	andb	$-8, %al
	cmpb	$-40, %al
	je	.LBB97_73
	movzbl	3(%r15), %eax
	jmp	.LBB97_3
.LBB97_67:
	cmpq	$31, %r14
	ja	.LBB97_71
	movdqu	(%r15), %xmm0
	psrlw	$8, %xmm0
	packuswb	%xmm0, %xmm0
	pand	.LCPI97_2(%rip), %xmm0
	pcmpeqb	.LCPI97_3(%rip), %xmm0
	pmovmskb	%xmm0, %eax
	testb	%al, %al
	jne	.LBB97_73
	movdqu	-16(%r15,%r14), %xmm0
	psrlw	$8, %xmm0
	packuswb	%xmm0, %xmm0
	pand	.LCPI97_2(%rip), %xmm0
	pcmpeqb	.LCPI97_3(%rip), %xmm0
	pmovmskb	%xmm0, %eax
	testb	%al, %al
	jne	.LBB97_73
	jmp	.LBB97_70
.LBB97_71:
	movdqu	(%r15), %xmm0
	movdqu	16(%r15), %xmm1
	psrlw	$8, %xmm1
	psrlw	$8, %xmm0
	packuswb	%xmm1, %xmm0
	pand	.LCPI97_0(%rip), %xmm0
	pcmpeqb	.LCPI97_1(%rip), %xmm0
	pmovmskb	%xmm0, %eax
	testl	%eax, %eax
	jne	.LBB97_73
	movdqu	-32(%r15,%r14), %xmm0
	movdqu	-16(%r15,%r14), %xmm1
	psrlw	$8, %xmm1
	psrlw	$8, %xmm0
	packuswb	%xmm1, %xmm0
	pand	.LCPI97_0(%rip), %xmm0
	pcmpeqb	.LCPI97_1(%rip), %xmm0
	pmovmskb	%xmm0, %eax
	testl	%eax, %eax
	jne	.LBB97_73
.LBB97_74:
	cmpq	$64, %r14
	jae	.LBB97_75
.LBB97_70:
	movq	%r15, %rdi
	movq	%r14, %rsi
	callq	"utf16_units::text::count_few::<#418c2b53cf60437c>"
.LBB97_24:
	addq	%rax, %rbx
	jmp	.LBB97_25
.LBB97_30:
	leaq	6(%r15), %rdx
	xorl	%eax, %eax
	xorl	%esi, %esi
	.p2align	4
.LBB97_31:
	movdqu	-6(%rdx), %xmm0
	movdqu	10(%rdx), %xmm1
	movdqu	26(%rdx), %xmm2
	movdqu	42(%rdx), %xmm3
	movdqa	.LCPI97_11(%rip), %xmm4
	pand	%xmm4, %xmm1
	pand	%xmm4, %xmm0
	packuswb	%xmm1, %xmm0
	pand	%xmm4, %xmm3
	pand	%xmm4, %xmm2
	packuswb	%xmm3, %xmm2
	movdqa	.LCPI97_6(%rip), %xmm1
	pand	%xmm1, %xmm2
	pand	%xmm1, %xmm0
	movdqa	.LCPI97_7(%rip), %xmm1
	pcmpeqb	%xmm1, %xmm0
	pmovmskb	%xmm0, %ecx
	pcmpeqb	%xmm1, %xmm2
	pmovmskb	%xmm2, %edi
	shll	$16, %edi
	orl	%ecx, %edi
	xorl	%ecx, %ecx
	popcntl	%edi, %ecx
	addq	%rcx, %rsi
	addq	$64, %rdx
	leaq	(%r14,%rax), %rcx
	addq	$-64, %rcx
	addq	$-64, %rax
	cmpq	$63, %rcx
	ja	.LBB97_31
	movq	%r14, %rcx
	shrq	%rcx
	leaq	(%r14,%rax), %rdi
	cmpq	$2, %rdi
	jb	.LBB97_40
	movq	%r14, %r8
	andq	$-64, %r8
	leaq	-2(%r14), %rdi
	xorl	%r9d, %r9d
	cmpq	%r8, %rdi
	setne	%r9b
	movq	%r14, %rdi
	subq	%r9, %rdi
	notq	%r8
	addq	%rdi, %r8
	cmpq	$8, %r8
	jae	.LBB97_35
	negq	%rax
	jmp	.LBB97_38
.LBB97_75:
	leaq	7(%r15), %rdx
	xorl	%eax, %eax
	xorl	%esi, %esi
	.p2align	4
.LBB97_76:
	movdqu	-7(%rdx), %xmm0
	movdqu	9(%rdx), %xmm1
	movdqu	25(%rdx), %xmm2
	movdqu	41(%rdx), %xmm3
	psrlw	$8, %xmm3
	psrlw	$8, %xmm2
	packuswb	%xmm3, %xmm2
	psrlw	$8, %xmm1
	psrlw	$8, %xmm0
	packuswb	%xmm1, %xmm0
	movdqa	.LCPI97_6(%rip), %xmm1
	pand	%xmm1, %xmm2
	pand	%xmm1, %xmm0
	movdqa	.LCPI97_7(%rip), %xmm1
	pcmpeqb	%xmm1, %xmm0
	pmovmskb	%xmm0, %ecx
	pcmpeqb	%xmm1, %xmm2
	pmovmskb	%xmm2, %edi
	shll	$16, %edi
	orl	%ecx, %edi
	xorl	%ecx, %ecx
	popcntl	%edi, %ecx
	addq	%rcx, %rsi
	addq	$64, %rdx
	leaq	(%r14,%rax), %rcx
	addq	$-64, %rcx
	addq	$-64, %rax
	cmpq	$63, %rcx
	ja	.LBB97_76
	movq	%r14, %rcx
	shrq	%rcx
	leaq	(%r14,%rax), %rdi
	cmpq	$2, %rdi
	jb	.LBB97_40
	movq	%r14, %r8
	andq	$-64, %r8
	leaq	-2(%r14), %rdi
	xorl	%r9d, %r9d
	cmpq	%r8, %rdi
	setne	%r9b
	movq	%r14, %rdi
	subq	%r9, %rdi
	notq	%r8
	addq	%rdi, %r8
	cmpq	$8, %r8
	jae	.LBB97_80
	negq	%rax
	jmp	.LBB97_83
.LBB97_35:
	movq	%r8, %rdi
	shrq	%rdi
	incq	%rdi
	movl	%edi, %r9d
	andl	$3, %r9d
	movl	$4, %r10d
	cmovneq	%r9, %r10
	subq	%r10, %rdi
	andq	$-2, %r8
	addl	%r10d, %r10d
	subq	%r10, %r8
	subq	%rax, %r8
	movq	%r8, %rax
	addq	$2, %rax
	movq	%rsi, %xmm1
	pxor	%xmm0, %xmm0
	.p2align	4
.LBB97_36:
	movzbl	-6(%rdx), %esi
	movd	%esi, %xmm2
	pinsrb	$1, -4(%rdx), %xmm2
	movzbl	-2(%rdx), %esi
	movd	%esi, %xmm3
	pinsrb	$1, (%rdx), %xmm3
	movdqa	.LCPI97_8(%rip), %xmm4
	pand	%xmm4, %xmm2
	pand	%xmm4, %xmm3
	movdqa	.LCPI97_9(%rip), %xmm4
	pcmpeqb	%xmm4, %xmm2
	pmovzxbq	%xmm2, %xmm2
	movdqa	.LCPI97_10(%rip), %xmm5
	pand	%xmm5, %xmm2
	paddq	%xmm2, %xmm1
	pcmpeqb	%xmm4, %xmm3
	pmovzxbq	%xmm3, %xmm2
	pand	%xmm5, %xmm2
	paddq	%xmm2, %xmm0
	addq	$8, %rdx
	addq	$-4, %rdi
	jne	.LBB97_36
	paddq	%xmm1, %xmm0
	pshufd	$238, %xmm0, %xmm1
	paddq	%xmm0, %xmm1
	movq	%xmm1, %rsi
.LBB97_38:
	subq	%rax, %r14
	addq	%rax, %r15
	.p2align	4
.LBB97_39:
	movzbl	(%r15), %eax
	andb	$-4, %al
	xorl	%edx, %edx
	cmpb	$-36, %al
	sete	%dl
	addq	%rdx, %rsi
	addq	$-2, %r14
	addq	$2, %r15
	cmpq	$1, %r14
	ja	.LBB97_39
	jmp	.LBB97_40
.LBB97_80:
	movq	%r8, %rdi
	shrq	%rdi
	incq	%rdi
	movl	%edi, %r9d
	andl	$3, %r9d
	movl	$4, %r10d
	cmovneq	%r9, %r10
	subq	%r10, %rdi
	andq	$-2, %r8
	addl	%r10d, %r10d
	subq	%r10, %r8
	subq	%rax, %r8
	movq	%r8, %rax
	addq	$2, %rax
	movq	%rsi, %xmm1
	pxor	%xmm0, %xmm0
	.p2align	4
.LBB97_81:
	movzbl	-6(%rdx), %esi
	movd	%esi, %xmm2
	pinsrb	$1, -4(%rdx), %xmm2
	movzbl	-2(%rdx), %esi
	movd	%esi, %xmm3
	pinsrb	$1, (%rdx), %xmm3
	movdqa	.LCPI97_8(%rip), %xmm4
	pand	%xmm4, %xmm2
	pand	%xmm4, %xmm3
	movdqa	.LCPI97_9(%rip), %xmm4
	pcmpeqb	%xmm4, %xmm2
	pmovzxbq	%xmm2, %xmm2
	movdqa	.LCPI97_10(%rip), %xmm5
	pand	%xmm5, %xmm2
	paddq	%xmm2, %xmm1
	pcmpeqb	%xmm4, %xmm3
	pmovzxbq	%xmm3, %xmm2
	pand	%xmm5, %xmm2
	paddq	%xmm2, %xmm0
	addq	$8, %rdx
	addq	$-4, %rdi
	jne	.LBB97_81
	paddq	%xmm1, %xmm0
	pshufd	$238, %xmm0, %xmm1
	paddq	%xmm0, %xmm1
	movq	%xmm1, %rsi
.LBB97_83:
	subq	%rax, %r14
	addq	%r15, %rax
	incq	%rax
	.p2align	4
.LBB97_84:
	movzbl	(%rax), %edx
	andb	$-4, %dl
	xorl	%edi, %edi
	cmpb	$-36, %dl
	sete	%dil
	addq	%rdi, %rsi
	addq	$-2, %r14
	addq	$2, %rax
	cmpq	$1, %r14
	ja	.LBB97_84
.LBB97_40:
	subq	%rsi, %rcx
	addq	%rcx, %rbx
.LBB97_25:
	movq	%rbx, %rax
	addq	$8, %rsp
	.cfi_def_cfa_offset 56
	popq	%rbx
	.cfi_def_cfa_offset 48
	popq	%r12
	.cfi_def_cfa_offset 40
	popq	%r13
	.cfi_def_cfa_offset 32
	popq	%r14
	.cfi_def_cfa_offset 24
	popq	%r15
	.cfi_def_cfa_offset 16
	popq	%rbp
	.cfi_def_cfa_offset 8
	retq
.Lfunc_end97:
	.size	dethrux_to_utf32_lossy_len_v2, .Lfunc_end97-dethrux_to_utf32_lossy_len_v2
	.cfi_endproc

	.section	.text.dethrux_to_utf8_lossy_len,"ax",@progbits
	.globl	dethrux_to_utf8_lossy_len_v2
	.hidden	dethrux_to_utf8_lossy_len_v2
	.p2align	4
	.type	dethrux_to_utf8_lossy_len_v2,@function
dethrux_to_utf8_lossy_len_v2:
	.cfi_startproc
	movl	%edi, %eax
	xorl	%edi, %edi
	testq	%rsi, %rsi
	sete	%dil
	shll	$12, %edi
	addq	%rsi, %rdi
	movq	%rdx, %rsi
	cmpl	$1, %eax
	jne	"utf16_transcode::sizes::to_utf8_lossy_len::<#418c2b53cf60437c>"
	jmp	"utf16_transcode::sizes::to_utf8_lossy_len::<#8b18edd9dd9aa8df>"
.Lfunc_end98:
	.size	dethrux_to_utf8_lossy_len_v2, .Lfunc_end98-dethrux_to_utf8_lossy_len_v2
	.cfi_endproc

	.section	.rodata.cst16,"aM",@progbits,16
	.p2align	4, 0x0
.LCPI99_0:
	.zero	16,248
.LCPI99_1:
	.zero	16,216
.LCPI99_2:
	.byte	248
	.byte	248
	.byte	248
	.byte	248
	.byte	248
	.byte	248
	.byte	248
	.byte	248
	.zero	1
	.zero	1
	.zero	1
	.zero	1
	.zero	1
	.zero	1
	.zero	1
	.zero	1
.LCPI99_3:
	.byte	216
	.byte	216
	.byte	216
	.byte	216
	.byte	216
	.byte	216
	.byte	216
	.byte	216
	.zero	1
	.zero	1
	.zero	1
	.zero	1
	.zero	1
	.zero	1
	.zero	1
	.zero	1
.LCPI99_4:
	.byte	248
	.byte	248
	.byte	248
	.byte	248
	.zero	1
	.zero	1
	.zero	1
	.zero	1
	.zero	1
	.zero	1
	.zero	1
	.zero	1
	.zero	1
	.zero	1
	.zero	1
	.zero	1
.LCPI99_5:
	.byte	216
	.byte	216
	.byte	216
	.byte	216
	.zero	1
	.zero	1
	.zero	1
	.zero	1
	.zero	1
	.zero	1
	.zero	1
	.zero	1
	.zero	1
	.zero	1
	.zero	1
	.zero	1
.LCPI99_6:
	.byte	255
	.byte	0
	.byte	255
	.byte	0
	.byte	255
	.byte	0
	.byte	255
	.byte	0
	.byte	255
	.byte	0
	.byte	255
	.byte	0
	.byte	255
	.byte	0
	.byte	255
	.byte	0
.LCPI99_7:
	.byte	0
	.byte	2
	.byte	4
	.byte	6
	.byte	8
	.byte	10
	.byte	12
	.byte	14
	.zero	1
	.zero	1
	.zero	1
	.zero	1
	.zero	1
	.zero	1
	.zero	1
	.zero	1
.LCPI99_8:
	.byte	0
	.byte	2
	.byte	4
	.byte	6
	.zero	1
	.zero	1
	.zero	1
	.zero	1
	.zero	1
	.zero	1
	.zero	1
	.zero	1
	.zero	1
	.zero	1
	.zero	1
	.zero	1
	.section	.text.dethrux_to_utf8_replacements,"ax",@progbits
	.globl	dethrux_to_utf8_replacements_v2
	.hidden	dethrux_to_utf8_replacements_v2
	.p2align	4
	.type	dethrux_to_utf8_replacements_v2,@function
dethrux_to_utf8_replacements_v2:
	.cfi_startproc
	pushq	%r15
	.cfi_def_cfa_offset 16
	pushq	%r14
	.cfi_def_cfa_offset 24
	pushq	%r12
	.cfi_def_cfa_offset 32
	pushq	%rbx
	.cfi_def_cfa_offset 40
	pushq	%rax
	.cfi_def_cfa_offset 48
	.cfi_offset %rbx, -40
	.cfi_offset %r12, -32
	.cfi_offset %r14, -24
	.cfi_offset %r15, -16
	movq	%rdx, %r14
	xorl	%r15d, %r15d
	testq	%rsi, %rsi
	sete	%r15b
	shll	$12, %r15d
	addq	%rsi, %r15
	xorl	%ebx, %ebx
	cmpl	$1, %edi
	jne	.LBB99_1
	.p2align	4
	cmpq	$2, %r14
	jne	.LBB99_7
.LBB99_5:
	movzbl	(%r15), %eax
.LBB99_6:
	andb	$-8, %al
	cmpb	$-40, %al
	jne	.LBB99_52
.LBB99_26:
	movq	%r15, %rdi
	movq	%r14, %rsi
	callq	"utf16_units::validate::valid_len::<#8b18edd9dd9aa8df>"
	movq	%r14, %rsi
	subq	%rax, %rsi
	je	.LBB99_52
	movq	%rax, %r12
	addq	%rax, %r15
	movq	%r15, %rdi
	callq	"utf16_units::validate::error_len::<#8b18edd9dd9aa8df>"
	cmpb	$1, %al
	jne	.LBB99_51
	movzbl	%dl, %eax
	addq	%rax, %r15
	addq	%rax, %r12
	subq	%r12, %r14
	incq	%rbx
	cmpq	$2, %r14
	je	.LBB99_5
.LBB99_7:
	cmpq	$7, %r14
	ja	.LBB99_16
	cmpq	$4, %r14
	je	.LBB99_11
	cmpq	$6, %r14
	je	.LBB99_13
	testq	%r14, %r14
	jne	.LBB99_26
	jmp	.LBB99_52
	.p2align	4
.LBB99_16:
	cmpq	$65, %r14
	setae	%al
	movl	%r14d, %ecx
	orb	%al, %cl
	testb	$1, %cl
	jne	.LBB99_26
	cmpq	$15, %r14
	ja	.LBB99_20
	movq	(%r15), %xmm0
	pshufb	.LCPI99_8(%rip), %xmm0
	pand	.LCPI99_4(%rip), %xmm0
	pcmpeqb	.LCPI99_5(%rip), %xmm0
	pmovsxbd	%xmm0, %xmm0
	movmskps	%xmm0, %eax
	testl	%eax, %eax
	jne	.LBB99_26
	movq	-8(%r15,%r14), %xmm0
	pshufb	.LCPI99_8(%rip), %xmm0
	pand	.LCPI99_4(%rip), %xmm0
	pcmpeqb	.LCPI99_5(%rip), %xmm0
	pmovsxbd	%xmm0, %xmm0
	movmskps	%xmm0, %eax
	testl	%eax, %eax
	jne	.LBB99_26
	jmp	.LBB99_52
.LBB99_13:
	movzbl	(%r15), %eax
	andb	$-8, %al
	cmpb	$-40, %al
	je	.LBB99_26
	movzbl	2(%r15), %eax
	andb	$-8, %al
	cmpb	$-40, %al
	je	.LBB99_26
	movzbl	4(%r15), %eax
	jmp	.LBB99_6
.LBB99_11:
	movzbl	(%r15), %eax
	andb	$-8, %al
	cmpb	$-40, %al
	je	.LBB99_26
	movzbl	2(%r15), %eax
	jmp	.LBB99_6
.LBB99_20:
	cmpq	$31, %r14
	ja	.LBB99_23
	movdqu	(%r15), %xmm0
	pshufb	.LCPI99_7(%rip), %xmm0
	pand	.LCPI99_2(%rip), %xmm0
	pcmpeqb	.LCPI99_3(%rip), %xmm0
	pmovmskb	%xmm0, %eax
	testb	%al, %al
	jne	.LBB99_26
	movdqu	-16(%r15,%r14), %xmm0
	pshufb	.LCPI99_7(%rip), %xmm0
	pand	.LCPI99_2(%rip), %xmm0
	pcmpeqb	.LCPI99_3(%rip), %xmm0
	pmovmskb	%xmm0, %eax
	testb	%al, %al
	jne	.LBB99_26
	jmp	.LBB99_52
.LBB99_23:
	movdqu	(%r15), %xmm1
	movdqu	16(%r15), %xmm2
	movdqa	.LCPI99_6(%rip), %xmm0
	pand	%xmm0, %xmm2
	pand	%xmm0, %xmm1
	packuswb	%xmm2, %xmm1
	pand	.LCPI99_0(%rip), %xmm1
	pcmpeqb	.LCPI99_1(%rip), %xmm1
	pmovmskb	%xmm1, %eax
	testl	%eax, %eax
	jne	.LBB99_26
	movdqu	-32(%r15,%r14), %xmm1
	movdqu	-16(%r15,%r14), %xmm2
	pand	%xmm0, %xmm2
	pand	%xmm0, %xmm1
	packuswb	%xmm2, %xmm1
	pand	.LCPI99_0(%rip), %xmm1
	pcmpeqb	.LCPI99_1(%rip), %xmm1
	pmovmskb	%xmm1, %eax
	testl	%eax, %eax
	jne	.LBB99_26
	jmp	.LBB99_52
	.p2align	4
.LBB99_1:
	cmpq	$2, %r14
	jne	.LBB99_29
	movzbl	1(%r15), %eax
.LBB99_3:
	andb	$-8, %al
	cmpb	$-40, %al
	jne	.LBB99_52
.LBB99_48:
	movq	%r15, %rdi
	movq	%r14, %rsi
	callq	"utf16_units::validate::valid_len::<#418c2b53cf60437c>"
	movq	%r14, %rsi
	subq	%rax, %rsi
	je	.LBB99_52
	movq	%rax, %r12
	addq	%rax, %r15
	movq	%r15, %rdi
	callq	"utf16_units::validate::error_len::<#418c2b53cf60437c>"
	cmpb	$1, %al
	jne	.LBB99_51
	movzbl	%dl, %eax
	addq	%rax, %r15
	addq	%rax, %r12
	subq	%r12, %r14
	incq	%rbx
	jmp	.LBB99_1
	.p2align	4
.LBB99_29:
	cmpq	$7, %r14
	ja	.LBB99_38
	cmpq	$4, %r14
	je	.LBB99_33
	cmpq	$6, %r14
	je	.LBB99_35
	testq	%r14, %r14
	jne	.LBB99_48
	jmp	.LBB99_52
	.p2align	4
.LBB99_38:
	cmpq	$65, %r14
	setae	%al
	movl	%r14d, %ecx
	orb	%al, %cl
	testb	$1, %cl
	jne	.LBB99_48
	cmpq	$15, %r14
	ja	.LBB99_42
	movq	(%r15), %xmm0
	psrlw	$8, %xmm0
	packuswb	%xmm0, %xmm0
	pand	.LCPI99_4(%rip), %xmm0
	pcmpeqb	.LCPI99_5(%rip), %xmm0
	pmovsxbd	%xmm0, %xmm0
	movmskps	%xmm0, %eax
	testl	%eax, %eax
	jne	.LBB99_48
	movq	-8(%r15,%r14), %xmm0
	psrlw	$8, %xmm0
	packuswb	%xmm0, %xmm0
	pand	.LCPI99_4(%rip), %xmm0
	pcmpeqb	.LCPI99_5(%rip), %xmm0
	pmovsxbd	%xmm0, %xmm0
	movmskps	%xmm0, %eax
	testl	%eax, %eax
	jne	.LBB99_48
	jmp	.LBB99_52
.LBB99_35:
	movzbl	1(%r15), %eax
	andb	$-8, %al
	cmpb	$-40, %al
	je	.LBB99_48
	movzbl	3(%r15), %eax
	andb	$-8, %al
	cmpb	$-40, %al
	je	.LBB99_48
	movzbl	5(%r15), %eax
	jmp	.LBB99_3
.LBB99_33:
	movzbl	1(%r15), %eax
	andb	$-8, %al
	cmpb	$-40, %al
	je	.LBB99_48
	movzbl	3(%r15), %eax
	jmp	.LBB99_3
.LBB99_42:
	cmpq	$31, %r14
	ja	.LBB99_45
	movdqu	(%r15), %xmm0
	psrlw	$8, %xmm0
	packuswb	%xmm0, %xmm0
	pand	.LCPI99_2(%rip), %xmm0
	pcmpeqb	.LCPI99_3(%rip), %xmm0
	pmovmskb	%xmm0, %eax
	testb	%al, %al
	jne	.LBB99_48
	movdqu	-16(%r15,%r14), %xmm0
	psrlw	$8, %xmm0
	packuswb	%xmm0, %xmm0
	pand	.LCPI99_2(%rip), %xmm0
	pcmpeqb	.LCPI99_3(%rip), %xmm0
	pmovmskb	%xmm0, %eax
	testb	%al, %al
	jne	.LBB99_48
	jmp	.LBB99_52
.LBB99_45:
	movdqu	(%r15), %xmm0
	movdqu	16(%r15), %xmm1
	psrlw	$8, %xmm1
	psrlw	$8, %xmm0
	packuswb	%xmm1, %xmm0
	pand	.LCPI99_0(%rip), %xmm0
	pcmpeqb	.LCPI99_1(%rip), %xmm0
	pmovmskb	%xmm0, %eax
	testl	%eax, %eax
	jne	.LBB99_48
	movdqu	-32(%r15,%r14), %xmm0
	movdqu	-16(%r15,%r14), %xmm1
	psrlw	$8, %xmm1
	psrlw	$8, %xmm0
	packuswb	%xmm1, %xmm0
	pand	.LCPI99_0(%rip), %xmm0
	pcmpeqb	.LCPI99_1(%rip), %xmm0
	pmovmskb	%xmm0, %eax
	testl	%eax, %eax
	jne	.LBB99_48
	jmp	.LBB99_52
.LBB99_51:
	incq	%rbx
.LBB99_52:
	movq	%rbx, %rax
	addq	$8, %rsp
	.cfi_def_cfa_offset 40
	popq	%rbx
	.cfi_def_cfa_offset 32
	popq	%r12
	.cfi_def_cfa_offset 24
	popq	%r14
	.cfi_def_cfa_offset 16
	popq	%r15
	.cfi_def_cfa_offset 8
	retq
.Lfunc_end99:
	.size	dethrux_to_utf8_replacements_v2, .Lfunc_end99-dethrux_to_utf8_replacements_v2
	.cfi_endproc

	.section	.text.dethrux_to_wtf8_len,"ax",@progbits
	.globl	dethrux_to_wtf8_len_v2
	.hidden	dethrux_to_wtf8_len_v2
	.p2align	4
	.type	dethrux_to_wtf8_len_v2,@function
dethrux_to_wtf8_len_v2:
	.cfi_startproc
	movl	%edi, %eax
	xorl	%edi, %edi
	testq	%rsi, %rsi
	sete	%dil
	shll	$12, %edi
	addq	%rsi, %rdi
	andq	$-2, %rdx
	movq	%rdx, %rsi
	cmpl	$1, %eax
	jne	"utf16_transcode::sizes::to_utf8_lossy_len::<#418c2b53cf60437c>"
	jmp	"utf16_transcode::sizes::to_utf8_lossy_len::<#8b18edd9dd9aa8df>"
.Lfunc_end100:
	.size	dethrux_to_wtf8_len_v2, .Lfunc_end100-dethrux_to_wtf8_len_v2
	.cfi_endproc

	.section	.rodata.cst16,"aM",@progbits,16
	.p2align	4, 0x0
.LCPI101_0:
	.short	256
	.short	256
	.short	256
	.short	256
	.short	256
	.short	256
	.short	256
	.short	256
.LCPI101_1:
	.byte	255
	.byte	0
	.byte	255
	.byte	0
	.byte	255
	.byte	0
	.byte	255
	.byte	0
	.byte	255
	.byte	0
	.byte	255
	.byte	0
	.byte	255
	.byte	0
	.byte	255
	.byte	0
.LCPI101_2:
	.byte	0
	.byte	2
	.byte	4
	.byte	6
	.byte	8
	.byte	10
	.byte	12
	.byte	14
	.zero	1
	.zero	1
	.zero	1
	.zero	1
	.zero	1
	.zero	1
	.zero	1
	.zero	1
.LCPI101_3:
	.byte	1
	.byte	0
	.byte	3
	.byte	2
	.byte	5
	.byte	4
	.byte	7
	.byte	6
	.byte	9
	.byte	8
	.byte	11
	.byte	10
	.byte	13
	.byte	12
	.byte	15
	.byte	14
	.section	.text.dethrux_to_latin1,"ax",@progbits
	.globl	dethrux_to_latin1_v2
	.hidden	dethrux_to_latin1_v2
	.p2align	4
	.type	dethrux_to_latin1_v2,@function
dethrux_to_latin1_v2:
	.cfi_startproc
	pushq	%rbx
	.cfi_def_cfa_offset 16
	.cfi_offset %rbx, -16
	movq	%rdi, %rax
	xorl	%ebx, %ebx
	testq	%rdx, %rdx
	sete	%bl
	shll	$12, %ebx
	leaq	(%rdx,%rbx), %r10
	xorl	%r11d, %r11d
	testq	%r8, %r8
	sete	%r11b
	shll	$12, %r11d
	addq	%r8, %r11
	movq	%rcx, %rdi
	shrq	%rdi
	cmpq	%rdi, %r9
	cmovbq	%r9, %rdi
	cmpl	$1, %esi
	jne	.LBB101_11
	xorl	%edx, %edx
	cmpq	$32, %rdi
	jb	.LBB101_5
	movq	%rdi, %rsi
	.p2align	4
.LBB101_3:
	movdqu	(%r10,%rdx,2), %xmm0
	movdqu	16(%r10,%rdx,2), %xmm2
	movdqu	32(%r10,%rdx,2), %xmm1
	movdqu	48(%r10,%rdx,2), %xmm3
	movdqa	.LCPI101_3(%rip), %xmm4
	pshufb	%xmm4, %xmm1
	pshufb	%xmm4, %xmm0
	pshufb	%xmm4, %xmm3
	pshufb	%xmm4, %xmm2
	movdqa	.LCPI101_0(%rip), %xmm4
	movdqa	%xmm3, %xmm5
	pmaxuw	%xmm2, %xmm5
	movdqa	%xmm5, %xmm6
	pmaxuw	%xmm4, %xmm6
	pcmpeqw	%xmm5, %xmm6
	movdqa	%xmm1, %xmm5
	pmaxuw	%xmm0, %xmm5
	pmaxuw	%xmm5, %xmm4
	pcmpeqw	%xmm5, %xmm4
	packsswb	%xmm6, %xmm4
	pmovmskb	%xmm4, %r8d
	testl	%r8d, %r8d
	jne	.LBB101_5
	movdqa	.LCPI101_1(%rip), %xmm4
	pand	%xmm4, %xmm1
	pand	%xmm4, %xmm3
	packuswb	%xmm3, %xmm1
	pand	%xmm4, %xmm0
	pand	%xmm4, %xmm2
	packuswb	%xmm2, %xmm0
	movdqu	%xmm0, (%r11,%rdx)
	movdqu	%xmm1, 16(%r11,%rdx)
	addq	$32, %rdx
	addq	$-32, %rsi
	cmpq	$31, %rsi
	ja	.LBB101_3
.LBB101_5:
	movq	%rdi, %rsi
	subq	%rdx, %rsi
	cmpq	$8, %rsi
	jb	.LBB101_10
	.p2align	4
.LBB101_6:
	movdqu	(%r10,%rdx,2), %xmm0
	pshufb	.LCPI101_3(%rip), %xmm0
	movdqa	.LCPI101_0(%rip), %xmm1
	pmaxuw	%xmm0, %xmm1
	pcmpeqw	%xmm0, %xmm1
	pmovmskb	%xmm1, %r8d
	testl	%r8d, %r8d
	jne	.LBB101_10
	pshufb	.LCPI101_2(%rip), %xmm0
	movq	%xmm0, (%r11,%rdx)
	addq	$8, %rdx
	addq	$-8, %rsi
	cmpq	$7, %rsi
	ja	.LBB101_6
	jmp	.LBB101_10
	.p2align	4
.LBB101_8:
	movzwl	(%r10,%rdx,2), %esi
	rolw	$8, %si
	movzwl	%si, %r8d
	cmpl	$255, %r8d
	ja	.LBB101_22
	movb	%sil, (%r11,%rdx)
	incq	%rdx
.LBB101_10:
	cmpq	%rdx, %rdi
	jne	.LBB101_8
	jmp	.LBB101_23
.LBB101_11:
	xorl	%esi, %esi
	cmpq	$32, %rdi
	jb	.LBB101_15
	movq	%rdi, %r8
	.p2align	4
.LBB101_13:
	movdqu	(%r10,%rsi,2), %xmm0
	movdqu	16(%r10,%rsi,2), %xmm2
	movdqu	32(%r10,%rsi,2), %xmm1
	movdqu	48(%r10,%rsi,2), %xmm3
	movdqa	.LCPI101_0(%rip), %xmm4
	movdqa	%xmm3, %xmm5
	pmaxuw	%xmm2, %xmm5
	movdqa	%xmm5, %xmm6
	pmaxuw	%xmm4, %xmm6
	pcmpeqw	%xmm5, %xmm6
	movdqa	%xmm1, %xmm5
	pmaxuw	%xmm0, %xmm5
	pmaxuw	%xmm5, %xmm4
	pcmpeqw	%xmm5, %xmm4
	packsswb	%xmm6, %xmm4
	pmovmskb	%xmm4, %r9d
	testl	%r9d, %r9d
	jne	.LBB101_15
	movdqa	.LCPI101_1(%rip), %xmm4
	pand	%xmm4, %xmm1
	pand	%xmm4, %xmm3
	packuswb	%xmm3, %xmm1
	pand	%xmm4, %xmm0
	pand	%xmm4, %xmm2
	packuswb	%xmm2, %xmm0
	movdqu	%xmm0, (%r11,%rsi)
	movdqu	%xmm1, 16(%r11,%rsi)
	addq	$32, %rsi
	addq	$-32, %r8
	cmpq	$31, %r8
	ja	.LBB101_13
.LBB101_15:
	movq	%rdi, %r8
	subq	%rsi, %r8
	cmpq	$8, %r8
	jb	.LBB101_18
	.p2align	4
.LBB101_16:
	movdqu	(%r10,%rsi,2), %xmm0
	movdqa	.LCPI101_0(%rip), %xmm1
	pmaxuw	%xmm0, %xmm1
	pcmpeqw	%xmm0, %xmm1
	pmovmskb	%xmm1, %r9d
	testl	%r9d, %r9d
	jne	.LBB101_18
	pshufb	.LCPI101_2(%rip), %xmm0
	movq	%xmm0, (%r11,%rsi)
	addq	$8, %rsi
	addq	$-8, %r8
	cmpq	$7, %r8
	ja	.LBB101_16
.LBB101_18:
	cmpq	%rsi, %rdi
	je	.LBB101_29
	addq	%rbx, %rdx
	incq	%rdx
	.p2align	4
.LBB101_20:
	cmpb	$0, (%rdx,%rsi,2)
	jne	.LBB101_28
	movzbl	-1(%rdx,%rsi,2), %r8d
	movb	%r8b, (%r11,%rsi)
	incq	%rsi
	cmpq	%rsi, %rdi
	jne	.LBB101_20
	jmp	.LBB101_29
.LBB101_22:
	movq	%rdx, %rdi
.LBB101_23:
	leaq	(%rdi,%rdi), %rdx
	xorl	%esi, %esi
	movq	%rcx, %r9
	subq	%rdx, %r9
	je	.LBB101_30
	movl	$2, %ecx
	cmpq	$2, %r9
	jb	.LBB101_44
	movzwl	(%r10,%rdx), %r8d
	movl	%r8d, %r11d
	rolw	$8, %r11w
	movl	%r11d, %ecx
	andl	$63488, %ecx
	cmpl	$55296, %ecx
	jne	.LBB101_40
	notl	%r11d
	movl	$1, %ecx
	testl	$56320, %r11d
	je	.LBB101_27
	cmpq	$4, %r9
	jb	.LBB101_36
	movzbl	2(%r10,%rdx), %r9d
	andb	$-4, %r9b
	cmpb	$-36, %r9b
	jne	.LBB101_27
.LBB101_40:
	cmpb	$1, %r8b
	jmp	.LBB101_43
.LBB101_28:
	movq	%rsi, %rdi
.LBB101_29:
	leaq	(%rdi,%rdi), %rdx
	xorl	%esi, %esi
	movq	%rcx, %r9
	subq	%rdx, %r9
	jne	.LBB101_31
.LBB101_30:
	movq	%rcx, %rdx
	xorl	%ecx, %ecx
	jmp	.LBB101_44
.LBB101_31:
	movl	$2, %ecx
	cmpq	$2, %r9
	jb	.LBB101_44
	movzbl	1(%r10,%rdx), %r8d
	movl	%r8d, %ecx
	andl	$-8, %ecx
	cmpl	$216, %ecx
	jne	.LBB101_42
	movzwl	%r8w, %r11d
	notl	%r11d
	movl	$1, %ecx
	testb	$-36, %r11b
	jne	.LBB101_37
.LBB101_27:
	movl	$2, %esi
	jmp	.LBB101_44
.LBB101_37:
	cmpq	$4, %r9
	jae	.LBB101_41
.LBB101_36:
	movl	$2, %ecx
	jmp	.LBB101_44
.LBB101_41:
	movzbl	3(%r10,%rdx), %r9d
	andb	$-4, %r9b
	cmpb	$-36, %r9b
	jne	.LBB101_27
.LBB101_42:
	cmpb	$1, %r8b
.LBB101_43:
	movl	$4, %ecx
	sbbl	$0, %ecx
.LBB101_44:
	movq	%rdx, (%rax)
	movq	%rdi, 8(%rax)
	movl	%ecx, 16(%rax)
	movl	%esi, 20(%rax)
	popq	%rbx
	.cfi_def_cfa_offset 8
	retq
.Lfunc_end101:
	.size	dethrux_to_latin1_v2, .Lfunc_end101-dethrux_to_latin1_v2
	.cfi_endproc

	.section	.text.dethrux_find,"ax",@progbits
	.globl	dethrux_find_v2
	.hidden	dethrux_find_v2
	.p2align	4
	.type	dethrux_find_v2,@function
dethrux_find_v2:
	.cfi_startproc
	pushq	%rbp
	.cfi_def_cfa_offset 16
	pushq	%r15
	.cfi_def_cfa_offset 24
	pushq	%r14
	.cfi_def_cfa_offset 32
	pushq	%r13
	.cfi_def_cfa_offset 40
	pushq	%r12
	.cfi_def_cfa_offset 48
	pushq	%rbx
	.cfi_def_cfa_offset 56
	subq	$264, %rsp
	.cfi_def_cfa_offset 320
	.cfi_offset %rbx, -56
	.cfi_offset %r12, -48
	.cfi_offset %r13, -40
	.cfi_offset %r14, -32
	.cfi_offset %r15, -24
	.cfi_offset %rbp, -16
	movq	%r8, %r14
	movq	%rdx, %rbp
	movq	%rsi, %r15
	xorl	%ebx, %ebx
	testq	%rsi, %rsi
	sete	%bl
	shll	$12, %ebx
	leaq	(%rsi,%rbx), %rax
	movq	%rax, 32(%rsp)
	xorl	%esi, %esi
	testq	%rcx, %rcx
	sete	%sil
	shll	$12, %esi
	addq	%rcx, %rsi
	leaq	1(%r8), %rax
	movq	%rax, 88(%rsp)
	cmpl	$1, %edi
	movq	%r8, (%rsp)
	movq	%rsi, 40(%rsp)
	xorps	%xmm0, %xmm0
	jne	.LBB102_45
	movaps	%xmm0, 160(%rsp)
	movaps	%xmm0, 144(%rsp)
	movaps	%xmm0, 128(%rsp)
	movaps	%xmm0, 112(%rsp)
	movaps	%xmm0, 96(%rsp)
	leaq	96(%rsp), %rdi
	movq	%r14, %rdx
	callq	"memchr::memmem::Finder::new"
	movaps	160(%rsp), %xmm0
	movaps	%xmm0, 240(%rsp)
	movaps	96(%rsp), %xmm0
	movaps	112(%rsp), %xmm1
	movaps	128(%rsp), %xmm2
	movaps	144(%rsp), %xmm3
	movaps	%xmm3, 224(%rsp)
	movaps	%xmm2, 208(%rsp)
	movaps	%xmm1, 192(%rsp)
	movaps	%xmm0, 176(%rsp)
	movq	%rbp, %rax
	negq	%rax
	movq	%rax, 56(%rsp)
	addq	%r14, %rbx
	addq	%rbx, %r15
	movq	%r15, 64(%rsp)
	subq	%rbp, %r14
	movq	%r14, 48(%rsp)
	xorl	%r15d, %r15d
	xorl	%r14d, %r14d
	jmp	.LBB102_3
	.p2align	4
.LBB102_2:
	addq	$32, %r15
	movq	%r12, %r14
	cmpq	%rbp, %r15
	ja	.LBB102_89
.LBB102_3:
	leaq	176(%rsp), %rdi
	movq	32(%rsp), %rbx
	movq	%rbx, %rsi
	movq	%rbp, %rdx
	movq	%r15, %rcx
	callq	"utf16_bytes::bytes::find_bytes"
	xorl	%ecx, %ecx
	testb	$1, %al
	movl	$0, %r12d
	cmovneq	%rdx, %r12
	cmpb	$1, %al
	jne	.LBB102_91
	movq	%rdx, %r15
	movq	%rbp, %rsi
	subq	%rdx, %rsi
	jbe	.LBB102_10
	testb	$1, %r15b
	jne	.LBB102_19
	cmpq	$2, %r15
	jb	.LBB102_11
	movzbl	-2(%rbx,%r15), %eax
	andb	$-4, %al
	cmpb	$-40, %al
	jne	.LBB102_11
	leaq	2(%r15), %rax
	cmpq	%rbp, %rax
	ja	.LBB102_19
	movzbl	(%rbx,%r15), %eax
	andb	$-4, %al
	cmpb	$-36, %al
	jne	.LBB102_11
	jmp	.LBB102_19
	.p2align	4
.LBB102_10:
	jne	.LBB102_19
.LBB102_11:
	leaq	(%rbx,%r15), %rdi
	movq	40(%rsp), %rdx
	movq	(%rsp), %rcx
	callq	"core::slice::reads::slice+T::starts_with::<i8,31'core::cmp::numbers::U8PartialEq{}>"
	testb	%al, %al
	je	.LBB102_19
	movq	(%rsp), %rax
	addq	%r15, %rax
	cmpq	%rax, %rbp
	jbe	.LBB102_18
	testb	$1, %al
	jne	.LBB102_19
	movb	$1, %cl
	cmpq	$2, %rax
	jb	.LBB102_92
	movzbl	-2(%rbx,%rax), %edx
	andb	$-4, %dl
	cmpb	$-40, %dl
	jne	.LBB102_92
	leaq	2(%rax), %rdx
	cmpq	%rbp, %rdx
	ja	.LBB102_19
	movzbl	(%rbx,%rax), %eax
	andb	$-4, %al
	cmpb	$-36, %al
	je	.LBB102_19
	jmp	.LBB102_92
.LBB102_18:
	je	.LBB102_94
	.p2align	4
.LBB102_19:
	movq	%r15, %rcx
	subq	%r14, %rcx
	xorl	%eax, %eax
	movq	%r15, %rdx
	subq	$2, %rdx
	cmovaeq	%rdx, %rax
	leaq	-1(,%rcx,2), %rcx
	cmpq	%rax, %rcx
	jae	.LBB102_26
	cmpq	%rbp, %rax
	jae	.LBB102_25
	cmpq	$2, %r15
	movl	$2, %edx
	cmovbq	%r15, %rdx
	addq	%r15, %rdx
	leaq	(%rbx,%r14,2), %rcx
	subq	%rdx, %rcx
	.p2align	4
.LBB102_22:
	movzbl	(%rbx,%rax), %edx
	cmpb	(%rcx), %dl
	jne	.LBB102_25
	incq	%rax
	incq	%rcx
	cmpq	%rax, %rbp
	jne	.LBB102_22
	movq	%rbp, %rax
.LBB102_25:
	leaq	1(%r12), %rcx
	xorl	%r15d, %r15d
	subq	88(%rsp), %rax
	cmovaeq	%rax, %r15
	cmpq	%rcx, %r15
	cmovbeq	%rcx, %r15
	cmpq	$-33, %r15
	ja	.LBB102_2
	jmp	.LBB102_27
	.p2align	4
.LBB102_26:
	incq	%r15
	cmpq	$-33, %r15
	ja	.LBB102_2
.LBB102_27:
	movq	32(%rsp), %rax
	addq	%r15, %rax
	movq	%rax, 8(%rsp)
	movq	56(%rsp), %rax
	leaq	(%rax,%r15), %rax
	movq	%rax, 80(%rsp)
	movq	64(%rsp), %rax
	addq	%r15, %rax
	movq	%rax, 16(%rsp)
	movq	(%rsp), %rax
	addq	%r15, %rax
	movq	%rax, 24(%rsp)
	movq	48(%rsp), %rax
	addq	%r15, %rax
	movq	%rax, 72(%rsp)
	movq	%rbp, %r14
	subq	%r15, %r14
	xorl	%ebx, %ebx
	jmp	.LBB102_30
	.p2align	4
.LBB102_28:
	movq	80(%rsp), %rax
	addq	%rbx, %rax
	je	.LBB102_36
.LBB102_29:
	incq	%rbx
	decq	%r14
	cmpq	$32, %rbx
	je	.LBB102_2
.LBB102_30:
	leaq	(%r15,%rbx), %r13
	cmpq	%r13, %rbp
	jbe	.LBB102_28
	testb	$1, %r13b
	jne	.LBB102_29
	cmpq	$2, %r13
	jb	.LBB102_36
	movq	8(%rsp), %rax
	movzbl	-2(%rax,%rbx), %eax
	andb	$-4, %al
	cmpb	$-40, %al
	jne	.LBB102_36
	leaq	(%r15,%rbx), %rax
	addq	$2, %rax
	cmpq	%rbp, %rax
	ja	.LBB102_29
	movq	8(%rsp), %rax
	movzbl	(%rax,%rbx), %eax
	andb	$-4, %al
	cmpb	$-36, %al
	je	.LBB102_29
	.p2align	4
.LBB102_36:
	movq	8(%rsp), %rax
	leaq	(%rax,%rbx), %rdi
	movq	%r14, %rsi
	movq	40(%rsp), %rdx
	movq	(%rsp), %rcx
	callq	"core::slice::reads::slice+T::starts_with::<i8,31'core::cmp::numbers::U8PartialEq{}>"
	testb	%al, %al
	je	.LBB102_29
	movq	24(%rsp), %rax
	addq	%rbx, %rax
	cmpq	%rax, %rbp
	jbe	.LBB102_43
	testb	$1, %al
	jne	.LBB102_29
	cmpq	$2, %rax
	jb	.LBB102_44
	movq	16(%rsp), %rax
	movzbl	-2(%rax,%rbx), %eax
	andb	$-4, %al
	cmpb	$-40, %al
	jne	.LBB102_44
	movq	24(%rsp), %rax
	addq	%rbx, %rax
	addq	$2, %rax
	cmpq	%rbp, %rax
	ja	.LBB102_29
	movq	16(%rsp), %rax
	movzbl	(%rax,%rbx), %eax
	andb	$-4, %al
	cmpb	$-36, %al
	je	.LBB102_29
	jmp	.LBB102_44
.LBB102_43:
	movq	72(%rsp), %rax
	addq	%rbx, %rax
	jne	.LBB102_29
.LBB102_44:
	movb	$1, %cl
	movq	%r13, %r15
	jmp	.LBB102_92
.LBB102_45:
	movaps	%xmm0, 160(%rsp)
	movaps	%xmm0, 144(%rsp)
	movaps	%xmm0, 128(%rsp)
	movaps	%xmm0, 112(%rsp)
	movaps	%xmm0, 96(%rsp)
	leaq	96(%rsp), %rdi
	movq	%r14, %rdx
	callq	"memchr::memmem::Finder::new"
	movaps	160(%rsp), %xmm0
	movaps	%xmm0, 240(%rsp)
	movaps	96(%rsp), %xmm0
	movaps	112(%rsp), %xmm1
	movaps	128(%rsp), %xmm2
	movaps	144(%rsp), %xmm3
	movaps	%xmm3, 224(%rsp)
	movaps	%xmm2, 208(%rsp)
	movaps	%xmm1, 192(%rsp)
	movaps	%xmm0, 176(%rsp)
	movq	%rbp, %rax
	negq	%rax
	movq	%rax, 64(%rsp)
	addq	%r14, %rbx
	leaq	(%r15,%rbx), %rax
	incq	%rax
	movq	%rax, 56(%rsp)
	subq	%rbp, %r14
	movq	%r14, 48(%rsp)
	xorl	%r15d, %r15d
	xorl	%r14d, %r14d
	jmp	.LBB102_47
	.p2align	4
.LBB102_46:
	addq	$32, %r15
	movq	%r13, %r14
	cmpq	%rbp, %r15
	ja	.LBB102_89
.LBB102_47:
	leaq	176(%rsp), %rdi
	movq	32(%rsp), %rbx
	movq	%rbx, %rsi
	movq	%rbp, %rdx
	movq	%r15, %rcx
	callq	"utf16_bytes::bytes::find_bytes"
	xorl	%ecx, %ecx
	testb	$1, %al
	movl	$0, %r13d
	cmovneq	%rdx, %r13
	cmpb	$1, %al
	jne	.LBB102_91
	movq	%rdx, %r15
	movq	%rbp, %rsi
	subq	%rdx, %rsi
	jbe	.LBB102_54
	testb	$1, %r15b
	jne	.LBB102_63
	cmpq	$2, %r15
	jb	.LBB102_55
	movzbl	-1(%rbx,%r15), %eax
	andb	$-4, %al
	cmpb	$-40, %al
	jne	.LBB102_55
	leaq	2(%r15), %rax
	cmpq	%rbp, %rax
	ja	.LBB102_63
	movzbl	1(%rbx,%r15), %eax
	andb	$-4, %al
	cmpb	$-36, %al
	jne	.LBB102_55
	jmp	.LBB102_63
	.p2align	4
.LBB102_54:
	jne	.LBB102_63
.LBB102_55:
	leaq	(%rbx,%r15), %rdi
	movq	40(%rsp), %rdx
	movq	(%rsp), %rcx
	callq	"core::slice::reads::slice+T::starts_with::<i8,31'core::cmp::numbers::U8PartialEq{}>"
	testb	%al, %al
	je	.LBB102_63
	movq	(%rsp), %rax
	addq	%r15, %rax
	cmpq	%rax, %rbp
	jbe	.LBB102_62
	testb	$1, %al
	jne	.LBB102_63
	movb	$1, %cl
	cmpq	$2, %rax
	jb	.LBB102_92
	movzbl	-1(%rbx,%rax), %edx
	andb	$-4, %dl
	cmpb	$-40, %dl
	jne	.LBB102_92
	leaq	2(%rax), %rdx
	cmpq	%rbp, %rdx
	ja	.LBB102_63
	movzbl	1(%rbx,%rax), %eax
	andb	$-4, %al
	cmpb	$-36, %al
	je	.LBB102_63
	jmp	.LBB102_92
.LBB102_62:
	je	.LBB102_94
	.p2align	4
.LBB102_63:
	movq	%r15, %rcx
	subq	%r14, %rcx
	xorl	%eax, %eax
	movq	%r15, %rdx
	subq	$2, %rdx
	cmovaeq	%rdx, %rax
	leaq	-1(,%rcx,2), %rcx
	cmpq	%rax, %rcx
	jae	.LBB102_70
	cmpq	%rbp, %rax
	jae	.LBB102_69
	cmpq	$2, %r15
	movl	$2, %edx
	cmovbq	%r15, %rdx
	addq	%r15, %rdx
	leaq	(%rbx,%r14,2), %rcx
	subq	%rdx, %rcx
	.p2align	4
.LBB102_66:
	movzbl	(%rbx,%rax), %edx
	cmpb	(%rcx), %dl
	jne	.LBB102_69
	incq	%rax
	incq	%rcx
	cmpq	%rax, %rbp
	jne	.LBB102_66
	movq	%rbp, %rax
.LBB102_69:
	leaq	1(%r13), %rcx
	xorl	%r15d, %r15d
	subq	88(%rsp), %rax
	cmovaeq	%rax, %r15
	cmpq	%rcx, %r15
	cmovbeq	%rcx, %r15
	cmpq	$-33, %r15
	ja	.LBB102_46
	jmp	.LBB102_71
	.p2align	4
.LBB102_70:
	incq	%r15
	cmpq	$-33, %r15
	ja	.LBB102_46
.LBB102_71:
	movq	32(%rsp), %rax
	addq	%r15, %rax
	movq	%rax, 8(%rsp)
	movq	64(%rsp), %rax
	leaq	(%rax,%r15), %rax
	movq	%rax, 80(%rsp)
	movq	56(%rsp), %rax
	addq	%r15, %rax
	movq	%rax, 16(%rsp)
	movq	(%rsp), %rax
	addq	%r15, %rax
	movq	%rax, 24(%rsp)
	movq	48(%rsp), %rax
	addq	%r15, %rax
	movq	%rax, 72(%rsp)
	movq	%rbp, %r14
	subq	%r15, %r14
	xorl	%ebx, %ebx
	jmp	.LBB102_74
	.p2align	4
.LBB102_72:
	movq	80(%rsp), %rax
	addq	%rbx, %rax
	je	.LBB102_80
.LBB102_73:
	incq	%rbx
	decq	%r14
	cmpq	$32, %rbx
	je	.LBB102_46
.LBB102_74:
	leaq	(%r15,%rbx), %r12
	cmpq	%r12, %rbp
	jbe	.LBB102_72
	testb	$1, %r12b
	jne	.LBB102_73
	cmpq	$2, %r12
	jb	.LBB102_80
	movq	8(%rsp), %rax
	movzbl	-1(%rax,%rbx), %eax
	andb	$-4, %al
	cmpb	$-40, %al
	jne	.LBB102_80
	leaq	(%r15,%rbx), %rax
	addq	$2, %rax
	cmpq	%rbp, %rax
	ja	.LBB102_73
	movq	8(%rsp), %rax
	movzbl	1(%rax,%rbx), %eax
	andb	$-4, %al
	cmpb	$-36, %al
	je	.LBB102_73
	.p2align	4
.LBB102_80:
	movq	8(%rsp), %rax
	leaq	(%rax,%rbx), %rdi
	movq	%r14, %rsi
	movq	40(%rsp), %rdx
	movq	(%rsp), %rcx
	callq	"core::slice::reads::slice+T::starts_with::<i8,31'core::cmp::numbers::U8PartialEq{}>"
	testb	%al, %al
	je	.LBB102_73
	movq	24(%rsp), %rax
	addq	%rbx, %rax
	cmpq	%rax, %rbp
	jbe	.LBB102_87
	testb	$1, %al
	jne	.LBB102_73
	cmpq	$2, %rax
	jb	.LBB102_88
	movq	16(%rsp), %rax
	movzbl	-2(%rax,%rbx), %eax
	andb	$-4, %al
	cmpb	$-40, %al
	jne	.LBB102_88
	movq	24(%rsp), %rax
	addq	%rbx, %rax
	addq	$2, %rax
	cmpq	%rbp, %rax
	ja	.LBB102_73
	movq	16(%rsp), %rax
	movzbl	(%rax,%rbx), %eax
	andb	$-4, %al
	cmpb	$-36, %al
	je	.LBB102_73
	jmp	.LBB102_88
.LBB102_87:
	movq	72(%rsp), %rax
	addq	%rbx, %rax
	jne	.LBB102_73
.LBB102_88:
	movb	$1, %cl
	movq	%r12, %r15
	jmp	.LBB102_92
.LBB102_91:
	xorl	%r15d, %r15d
	jmp	.LBB102_92
.LBB102_89:
	xorl	%r15d, %r15d
	xorl	%ecx, %ecx
.LBB102_92:
	testb	%cl, %cl
	movq	$-1, %rax
	cmovneq	%r15, %rax
	addq	$264, %rsp
	.cfi_def_cfa_offset 56
	popq	%rbx
	.cfi_def_cfa_offset 48
	popq	%r12
	.cfi_def_cfa_offset 40
	popq	%r13
	.cfi_def_cfa_offset 32
	popq	%r14
	.cfi_def_cfa_offset 24
	popq	%r15
	.cfi_def_cfa_offset 16
	popq	%rbp
	.cfi_def_cfa_offset 8
	retq
.LBB102_94:
	.cfi_def_cfa_offset 320
	movb	$1, %cl
	jmp	.LBB102_92
.Lfunc_end102:
	.size	dethrux_find_v2, .Lfunc_end102-dethrux_find_v2
	.cfi_endproc

	.section	.text.dethrux_rfind,"ax",@progbits
	.globl	dethrux_rfind_v2
	.hidden	dethrux_rfind_v2
	.p2align	4
	.type	dethrux_rfind_v2,@function
dethrux_rfind_v2:
	.cfi_startproc
	pushq	%rbp
	.cfi_def_cfa_offset 16
	pushq	%r15
	.cfi_def_cfa_offset 24
	pushq	%r14
	.cfi_def_cfa_offset 32
	pushq	%r13
	.cfi_def_cfa_offset 40
	pushq	%r12
	.cfi_def_cfa_offset 48
	pushq	%rbx
	.cfi_def_cfa_offset 56
	subq	$264, %rsp
	.cfi_def_cfa_offset 320
	.cfi_offset %rbx, -56
	.cfi_offset %r12, -48
	.cfi_offset %r13, -40
	.cfi_offset %r14, -32
	.cfi_offset %r15, -24
	.cfi_offset %rbp, -16
	movq	%rsi, %r12
	xorl	%ebx, %ebx
	testq	%rsi, %rsi
	sete	%bl
	shll	$12, %ebx
	leaq	(%rsi,%rbx), %rax
	movq	%rax, (%rsp)
	xorl	%esi, %esi
	testq	%rcx, %rcx
	sete	%sil
	shll	$12, %esi
	addq	%rcx, %rsi
	movq	%rdx, 16(%rsp)
	leaq	1(%rdx), %r13
	cmpl	$1, %edi
	movq	%r8, 8(%rsp)
	movq	%rsi, 48(%rsp)
	xorps	%xmm0, %xmm0
	jne	.LBB103_44
	movaps	%xmm0, 160(%rsp)
	movaps	%xmm0, 144(%rsp)
	movaps	%xmm0, 128(%rsp)
	movaps	%xmm0, 112(%rsp)
	movaps	%xmm0, 96(%rsp)
	leaq	96(%rsp), %rdi
	movq	%r8, %rdx
	movq	%r8, %r14
	callq	"memchr::memmem::FinderRev::new"
	movaps	160(%rsp), %xmm0
	movaps	%xmm0, 240(%rsp)
	movaps	96(%rsp), %xmm0
	movaps	112(%rsp), %xmm1
	movaps	128(%rsp), %xmm2
	movaps	144(%rsp), %xmm3
	movaps	%xmm3, 224(%rsp)
	movaps	%xmm2, 208(%rsp)
	movaps	%xmm1, 192(%rsp)
	movaps	%xmm0, 176(%rsp)
	testq	%r13, %r13
	je	.LBB103_88
	leaq	-1(%r14), %rcx
	leaq	(%rbx,%r12), %rax
	incq	%rax
	movq	%rax, 24(%rsp)
	leaq	2(%r14), %rax
	movq	%rax, 56(%rsp)
	movq	16(%rsp), %r8
	movq	%r8, %rax
	notq	%rax
	movq	%rax, 88(%rsp)
	movq	(%rsp), %rax
	addq	%r14, %rax
	addq	$-3, %rax
	movq	%rax, 32(%rsp)
	movq	%rcx, 72(%rsp)
	subq	%r8, %rcx
	movq	%rcx, 40(%rsp)
	leaq	1(%r8), %rax
	movq	%rax, 64(%rsp)
	movq	%r8, %r12
	jmp	.LBB103_4
	.p2align	4
.LBB103_3:
	movq	80(%rsp), %r12
	cmpq	$33, %rbx
	jb	.LBB103_88
.LBB103_4:
	addq	72(%rsp), %r13
	cmpq	%r8, %r13
	cmovaeq	%r8, %r13
	leaq	176(%rsp), %rdi
	movq	(%rsp), %rsi
	movq	%r13, %rdx
	movq	%r8, %r14
	callq	"utf16_bytes::bytes::rfind_bytes"
	xorl	%ebp, %ebp
	testb	$1, %al
	movl	$0, %r15d
	cmovneq	%rdx, %r15
	cmpb	$1, %al
	jne	.LBB103_89
	movq	%rdx, %rbx
	movq	%r14, %rsi
	subq	%rdx, %rsi
	movq	%r14, %r8
	jbe	.LBB103_11
	testb	$1, %bl
	movq	8(%rsp), %rcx
	jne	.LBB103_20
	cmpq	$2, %rbx
	jb	.LBB103_12
	movq	(%rsp), %rax
	movzbl	-2(%rax,%rbx), %eax
	andb	$-4, %al
	cmpb	$-40, %al
	jne	.LBB103_12
	leaq	2(%rbx), %rax
	cmpq	%r8, %rax
	ja	.LBB103_20
	movq	(%rsp), %rax
	movzbl	(%rax,%rbx), %eax
	andb	$-4, %al
	cmpb	$-36, %al
	jne	.LBB103_12
	jmp	.LBB103_20
	.p2align	4
.LBB103_11:
	movq	8(%rsp), %rcx
	jne	.LBB103_20
.LBB103_12:
	movq	(%rsp), %rax
	leaq	(%rax,%rbx), %rdi
	movq	48(%rsp), %rdx
	callq	"core::slice::reads::slice+T::starts_with::<i8,31'core::cmp::numbers::U8PartialEq{}>"
	movq	16(%rsp), %r8
	movq	8(%rsp), %rcx
	testb	%al, %al
	je	.LBB103_20
	leaq	(%rbx,%rcx), %rsi
	cmpq	%rsi, %r8
	jbe	.LBB103_19
	testb	$1, %sil
	jne	.LBB103_20
	movb	$1, %al
	cmpq	$2, %rsi
	jb	.LBB103_94
	movq	(%rsp), %rdx
	movzbl	-2(%rdx,%rsi), %edx
	andb	$-4, %dl
	cmpb	$-40, %dl
	jne	.LBB103_94
	leaq	2(%rsi), %rdx
	cmpq	%r8, %rdx
	ja	.LBB103_20
	movq	(%rsp), %rdx
	movzbl	(%rdx,%rsi), %edx
	andb	$-4, %dl
	cmpb	$-36, %dl
	je	.LBB103_20
	jmp	.LBB103_94
.LBB103_19:
	je	.LBB103_93
	.p2align	4
.LBB103_20:
	movq	%r12, %rax
	subq	%rbx, %rax
	addq	%rax, %rax
	je	.LBB103_26
	movq	%r8, %rdx
	subq	%rbx, %rdx
	subq	%rcx, %rdx
	xorl	%esi, %esi
	subq	$2, %rdx
	cmovaeq	%rdx, %rsi
	cmpq	%rax, %rsi
	jb	.LBB103_26
	movq	%rbx, %rdi
	negq	%rdi
	movq	24(%rsp), %rdx
	leaq	(%rdx,%r12,2), %rax
	subq	%rbx, %rax
	addq	%rdx, %rbx
	movq	56(%rsp), %r9
	.p2align	4
.LBB103_23:
	movq	%rdi, %rdx
	cmpq	%rdi, %r9
	je	.LBB103_25
	movzbl	(%rbx,%rcx), %esi
	leaq	1(%rdx), %rdi
	decq	%rbx
	cmpb	(%rax,%rcx), %sil
	leaq	-1(%rax), %rax
	je	.LBB103_23
.LBB103_25:
	movq	%rcx, %rbx
	subq	%rdx, %rbx
	addq	$4, %rbx
	cmpq	%r15, %rbx
	cmovaeq	%r15, %rbx
.LBB103_26:
	movq	%r15, 80(%rsp)
	xorl	%r13d, %r13d
	movq	%rbx, %rax
	subq	$32, %rax
	cmovaeq	%rax, %r13
	cmpq	%rbx, %r13
	jae	.LBB103_3
	leaq	1(%rbx), %r14
	movq	64(%rsp), %r12
	subq	%rbx, %r12
	jmp	.LBB103_30
.LBB103_28:
	addq	40(%rsp), %r15
	cmpq	$1, %r15
	je	.LBB103_87
	.p2align	4
.LBB103_29:
	incq	%r12
	cmpq	%rbp, %r13
	jae	.LBB103_3
.LBB103_30:
	movq	%r14, %r15
	decq	%r14
	leaq	-2(%r15), %rbp
	cmpq	%rbp, %r8
	jbe	.LBB103_36
	testb	$1, %bpl
	jne	.LBB103_29
	cmpq	$3, %r14
	jb	.LBB103_37
	movq	24(%rsp), %rax
	movzbl	-5(%rax,%r15), %eax
	andb	$-4, %al
	cmpb	$-40, %al
	jne	.LBB103_37
	cmpq	%r8, %r15
	ja	.LBB103_29
	movq	24(%rsp), %rax
	movzbl	-3(%rax,%r15), %eax
	andb	$-4, %al
	cmpb	$-36, %al
	je	.LBB103_29
	jmp	.LBB103_37
	.p2align	4
.LBB103_36:
	movq	88(%rsp), %rax
	addq	%r15, %rax
	cmpq	$1, %rax
	jne	.LBB103_29
.LBB103_37:
	movq	(%rsp), %rax
	leaq	(%rax,%r15), %rdi
	addq	$-2, %rdi
	movq	%r12, %rsi
	movq	48(%rsp), %rdx
	callq	"core::slice::reads::slice+T::starts_with::<i8,31'core::cmp::numbers::U8PartialEq{}>"
	movq	16(%rsp), %r8
	movq	8(%rsp), %rcx
	testb	%al, %al
	je	.LBB103_29
	leaq	(%rcx,%r15), %rax
	addq	$-2, %rax
	cmpq	%rax, %r8
	jbe	.LBB103_28
	testb	$1, %al
	jne	.LBB103_29
	cmpq	$2, %rax
	jb	.LBB103_87
	movq	32(%rsp), %rax
	movzbl	-1(%rax,%r15), %eax
	andb	$-4, %al
	cmpb	$-40, %al
	jne	.LBB103_87
	leaq	(%rcx,%r15), %rax
	cmpq	%r8, %rax
	ja	.LBB103_29
	movq	32(%rsp), %rax
	movzbl	1(%rax,%r15), %eax
	andb	$-4, %al
	cmpb	$-36, %al
	je	.LBB103_29
	jmp	.LBB103_87
.LBB103_44:
	movaps	%xmm0, 160(%rsp)
	movaps	%xmm0, 144(%rsp)
	movaps	%xmm0, 128(%rsp)
	movaps	%xmm0, 112(%rsp)
	movaps	%xmm0, 96(%rsp)
	leaq	96(%rsp), %rdi
	movq	%r8, %rdx
	movq	%r8, %r14
	callq	"memchr::memmem::FinderRev::new"
	movaps	160(%rsp), %xmm0
	movaps	%xmm0, 240(%rsp)
	movaps	96(%rsp), %xmm0
	movaps	112(%rsp), %xmm1
	movaps	128(%rsp), %xmm2
	movaps	144(%rsp), %xmm3
	movaps	%xmm3, 224(%rsp)
	movaps	%xmm2, 208(%rsp)
	movaps	%xmm1, 192(%rsp)
	movaps	%xmm0, 176(%rsp)
	testq	%r13, %r13
	je	.LBB103_88
	leaq	-1(%r14), %rax
	movq	%rax, 32(%rsp)
	leaq	(%rbx,%r12), %rax
	incq	%rax
	movq	%rax, 64(%rsp)
	leaq	2(%r14), %rax
	movq	%rax, 56(%rsp)
	movq	16(%rsp), %r8
	movq	%r8, %rax
	negq	%rax
	movq	%rax, 88(%rsp)
	movq	(%rsp), %rax
	addq	%r14, %rax
	addq	$-2, %rax
	movq	%rax, 40(%rsp)
	subq	%r8, %r14
	movq	%r14, 80(%rsp)
	leaq	1(%r8), %rax
	movq	%rax, 72(%rsp)
	movq	%r8, %r12
	jmp	.LBB103_47
	.p2align	4
.LBB103_46:
	movq	24(%rsp), %r12
	cmpq	$33, %rbx
	jb	.LBB103_88
.LBB103_47:
	addq	32(%rsp), %r13
	cmpq	%r8, %r13
	cmovaeq	%r8, %r13
	leaq	176(%rsp), %rdi
	movq	(%rsp), %rsi
	movq	%r13, %rdx
	movq	%r8, %r14
	callq	"utf16_bytes::bytes::rfind_bytes"
	xorl	%ebp, %ebp
	testb	$1, %al
	movl	$0, %r15d
	cmovneq	%rdx, %r15
	cmpb	$1, %al
	jne	.LBB103_89
	movq	%rdx, %rbx
	movq	%r14, %rsi
	subq	%rdx, %rsi
	movq	%r14, %r8
	jbe	.LBB103_54
	testb	$1, %bl
	movq	8(%rsp), %rcx
	jne	.LBB103_63
	cmpq	$2, %rbx
	jb	.LBB103_55
	movq	(%rsp), %rax
	movzbl	-1(%rax,%rbx), %eax
	andb	$-4, %al
	cmpb	$-40, %al
	jne	.LBB103_55
	leaq	2(%rbx), %rax
	cmpq	%r8, %rax
	ja	.LBB103_63
	movq	(%rsp), %rax
	movzbl	1(%rax,%rbx), %eax
	andb	$-4, %al
	cmpb	$-36, %al
	jne	.LBB103_55
	jmp	.LBB103_63
	.p2align	4
.LBB103_54:
	movq	8(%rsp), %rcx
	jne	.LBB103_63
.LBB103_55:
	movq	(%rsp), %rax
	leaq	(%rax,%rbx), %rdi
	movq	48(%rsp), %rdx
	callq	"core::slice::reads::slice+T::starts_with::<i8,31'core::cmp::numbers::U8PartialEq{}>"
	movq	16(%rsp), %r8
	movq	8(%rsp), %rcx
	testb	%al, %al
	je	.LBB103_63
	leaq	(%rbx,%rcx), %rsi
	cmpq	%rsi, %r8
	jbe	.LBB103_62
	testb	$1, %sil
	jne	.LBB103_63
	movb	$1, %al
	cmpq	$2, %rsi
	jb	.LBB103_94
	movq	(%rsp), %rdx
	movzbl	-1(%rdx,%rsi), %edx
	andb	$-4, %dl
	cmpb	$-40, %dl
	jne	.LBB103_94
	leaq	2(%rsi), %rdx
	cmpq	%r8, %rdx
	ja	.LBB103_63
	movq	(%rsp), %rdx
	movzbl	1(%rdx,%rsi), %edx
	andb	$-4, %dl
	cmpb	$-36, %dl
	je	.LBB103_63
	jmp	.LBB103_94
.LBB103_62:
	je	.LBB103_93
	.p2align	4
.LBB103_63:
	movq	%r12, %rax
	subq	%rbx, %rax
	addq	%rax, %rax
	je	.LBB103_69
	movq	%r8, %rdx
	subq	%rbx, %rdx
	subq	%rcx, %rdx
	xorl	%esi, %esi
	subq	$2, %rdx
	cmovaeq	%rdx, %rsi
	cmpq	%rax, %rsi
	jb	.LBB103_69
	movq	%rbx, %rdi
	negq	%rdi
	movq	64(%rsp), %rdx
	leaq	(%rdx,%r12,2), %rax
	subq	%rbx, %rax
	addq	%rdx, %rbx
	movq	56(%rsp), %r9
	.p2align	4
.LBB103_66:
	movq	%rdi, %rdx
	cmpq	%rdi, %r9
	je	.LBB103_68
	movzbl	(%rbx,%rcx), %esi
	leaq	1(%rdx), %rdi
	decq	%rbx
	cmpb	(%rax,%rcx), %sil
	leaq	-1(%rax), %rax
	je	.LBB103_66
.LBB103_68:
	movq	%rcx, %rbx
	subq	%rdx, %rbx
	addq	$4, %rbx
	cmpq	%r15, %rbx
	cmovaeq	%r15, %rbx
.LBB103_69:
	movq	%r15, 24(%rsp)
	xorl	%r13d, %r13d
	movq	%rbx, %rax
	subq	$32, %rax
	cmovaeq	%rax, %r13
	cmpq	%rbx, %r13
	jae	.LBB103_46
	leaq	1(%rbx), %r15
	movq	72(%rsp), %r12
	subq	%rbx, %r12
	jmp	.LBB103_73
.LBB103_71:
	addq	80(%rsp), %r14
	cmpq	$2, %r14
	je	.LBB103_87
	.p2align	4
.LBB103_72:
	incq	%r12
	cmpq	%rbp, %r13
	jae	.LBB103_46
.LBB103_73:
	movq	%r15, %r14
	decq	%r15
	leaq	-2(%r14), %rbp
	cmpq	%rbp, %r8
	jbe	.LBB103_79
	testb	$1, %bpl
	jne	.LBB103_72
	cmpq	$3, %r15
	jb	.LBB103_80
	movq	(%rsp), %rax
	movzbl	-3(%rax,%r14), %eax
	andb	$-4, %al
	cmpb	$-40, %al
	jne	.LBB103_80
	cmpq	%r8, %r14
	ja	.LBB103_72
	movq	(%rsp), %rax
	movzbl	-1(%rax,%r14), %eax
	andb	$-4, %al
	cmpb	$-36, %al
	je	.LBB103_72
	jmp	.LBB103_80
	.p2align	4
.LBB103_79:
	movq	88(%rsp), %rax
	addq	%r14, %rax
	cmpq	$2, %rax
	jne	.LBB103_72
.LBB103_80:
	movq	(%rsp), %rax
	leaq	(%rax,%r14), %rdi
	addq	$-2, %rdi
	movq	%r12, %rsi
	movq	48(%rsp), %rdx
	callq	"core::slice::reads::slice+T::starts_with::<i8,31'core::cmp::numbers::U8PartialEq{}>"
	movq	16(%rsp), %r8
	movq	8(%rsp), %rcx
	testb	%al, %al
	je	.LBB103_72
	leaq	(%rcx,%r14), %rax
	addq	$-2, %rax
	cmpq	%rax, %r8
	jbe	.LBB103_71
	testb	$1, %al
	jne	.LBB103_72
	cmpq	$2, %rax
	jb	.LBB103_87
	movq	40(%rsp), %rax
	movzbl	-1(%rax,%r14), %eax
	andb	$-4, %al
	cmpb	$-40, %al
	jne	.LBB103_87
	leaq	(%rcx,%r14), %rax
	cmpq	%r8, %rax
	ja	.LBB103_72
	movq	40(%rsp), %rax
	movzbl	1(%rax,%r14), %eax
	andb	$-4, %al
	cmpb	$-36, %al
	je	.LBB103_72
.LBB103_87:
	movb	$1, %al
	jmp	.LBB103_90
.LBB103_88:
	xorl	%ebp, %ebp
.LBB103_89:
	xorl	%eax, %eax
.LBB103_90:
	testb	%al, %al
	movq	$-1, %rax
	cmovneq	%rbp, %rax
	addq	$264, %rsp
	.cfi_def_cfa_offset 56
	popq	%rbx
	.cfi_def_cfa_offset 48
	popq	%r12
	.cfi_def_cfa_offset 40
	popq	%r13
	.cfi_def_cfa_offset 32
	popq	%r14
	.cfi_def_cfa_offset 24
	popq	%r15
	.cfi_def_cfa_offset 16
	popq	%rbp
	.cfi_def_cfa_offset 8
	retq
.LBB103_93:
	.cfi_def_cfa_offset 320
	movb	$1, %al
.LBB103_94:
	movq	%rbx, %rbp
	jmp	.LBB103_90
.Lfunc_end103:
	.size	dethrux_rfind_v2, .Lfunc_end103-dethrux_rfind_v2
	.cfi_endproc

	.section	.rodata.cst16,"aM",@progbits,16
	.p2align	4, 0x0
.LCPI104_0:
	.zero	16,248
.LCPI104_1:
	.zero	16,216
.LCPI104_2:
	.zero	16,252
.LCPI104_3:
	.zero	16,220
.LCPI104_4:
	.byte	248
	.byte	248
	.byte	248
	.byte	248
	.byte	248
	.byte	248
	.byte	248
	.byte	248
	.zero	1
	.zero	1
	.zero	1
	.zero	1
	.zero	1
	.zero	1
	.zero	1
	.zero	1
.LCPI104_5:
	.byte	216
	.byte	216
	.byte	216
	.byte	216
	.byte	216
	.byte	216
	.byte	216
	.byte	216
	.zero	1
	.zero	1
	.zero	1
	.zero	1
	.zero	1
	.zero	1
	.zero	1
	.zero	1
.LCPI104_6:
	.byte	248
	.byte	248
	.byte	248
	.byte	248
	.zero	1
	.zero	1
	.zero	1
	.zero	1
	.zero	1
	.zero	1
	.zero	1
	.zero	1
	.zero	1
	.zero	1
	.zero	1
	.zero	1
.LCPI104_7:
	.byte	216
	.byte	216
	.byte	216
	.byte	216
	.zero	1
	.zero	1
	.zero	1
	.zero	1
	.zero	1
	.zero	1
	.zero	1
	.zero	1
	.zero	1
	.zero	1
	.zero	1
	.zero	1
.LCPI104_8:
	.short	256
	.short	256
	.short	256
	.short	256
	.short	256
	.short	256
	.short	256
	.short	256
.LCPI104_9:
	.short	128
	.short	128
	.short	128
	.short	128
	.short	128
	.short	128
	.short	128
	.short	128
.LCPI104_10:
	.byte	1
	.byte	0
	.byte	3
	.byte	2
	.byte	5
	.byte	4
	.byte	7
	.byte	6
	.byte	9
	.byte	8
	.byte	11
	.byte	10
	.byte	13
	.byte	12
	.byte	15
	.byte	14
.LCPI104_11:
	.byte	255
	.byte	0
	.byte	255
	.byte	0
	.byte	255
	.byte	0
	.byte	255
	.byte	0
	.byte	255
	.byte	0
	.byte	255
	.byte	0
	.byte	255
	.byte	0
	.byte	255
	.byte	0
.LCPI104_12:
	.byte	0
	.byte	2
	.byte	4
	.byte	6
	.byte	8
	.byte	10
	.byte	12
	.byte	14
	.zero	1
	.zero	1
	.zero	1
	.zero	1
	.zero	1
	.zero	1
	.zero	1
	.zero	1
.LCPI104_13:
	.byte	0
	.byte	2
	.byte	4
	.byte	6
	.zero	1
	.zero	1
	.zero	1
	.zero	1
	.zero	1
	.zero	1
	.zero	1
	.zero	1
	.zero	1
	.zero	1
	.zero	1
	.zero	1
	.section	.text.dethrux_inspect,"ax",@progbits
	.globl	dethrux_inspect_v2
	.hidden	dethrux_inspect_v2
	.p2align	4
	.type	dethrux_inspect_v2,@function
dethrux_inspect_v2:
	.cfi_startproc
	pushq	%rbp
	.cfi_def_cfa_offset 16
	.cfi_offset %rbp, -16
	movq	%rsp, %rbp
	.cfi_def_cfa_register %rbp
	pushq	%r15
	pushq	%r14
	pushq	%r13
	pushq	%r12
	pushq	%rbx
	andq	$-64, %rsp
	subq	$256, %rsp
	.cfi_offset %rbx, -56
	.cfi_offset %r12, -48
	.cfi_offset %r13, -40
	.cfi_offset %r14, -32
	.cfi_offset %r15, -24
	movq	%rcx, %r12
	movq	%rdi, %rbx
	xorl	%r15d, %r15d
	testq	%rdx, %rdx
	sete	%r15b
	shll	$12, %r15d
	addq	%rdx, %r15
	cmpl	$1, %esi
	jne	.LBB104_11
	testb	$1, %r12b
	jne	.LBB104_25
	pxor	%xmm10, %xmm10
	xorl	%esi, %esi
	cmpq	$64, %r12
	jb	.LBB104_21
	movq	%r12, %rax
	pxor	%xmm11, %xmm11
	pxor	%xmm9, %xmm9
	pxor	%xmm8, %xmm8
	.p2align	4
.LBB104_4:
	movdqu	(%r15,%rsi), %xmm3
	movdqu	16(%r15,%rsi), %xmm2
	movdqu	32(%r15,%rsi), %xmm1
	movdqu	48(%r15,%rsi), %xmm0
	movdqa	.LCPI104_10(%rip), %xmm4
	pshufb	%xmm4, %xmm3
	pshufb	%xmm4, %xmm2
	pshufb	%xmm4, %xmm1
	pshufb	%xmm4, %xmm0
	movdqa	%xmm0, %xmm4
	psrlw	$8, %xmm4
	movdqa	%xmm1, %xmm5
	psrlw	$8, %xmm5
	packuswb	%xmm4, %xmm5
	movdqa	%xmm2, %xmm4
	psrlw	$8, %xmm4
	movdqa	%xmm3, %xmm6
	psrlw	$8, %xmm6
	packuswb	%xmm4, %xmm6
	movdqa	.LCPI104_0(%rip), %xmm4
	pand	%xmm4, %xmm5
	pand	%xmm4, %xmm6
	movdqa	.LCPI104_1(%rip), %xmm4
	pcmpeqb	%xmm4, %xmm6
	pcmpeqb	%xmm4, %xmm5
	por	%xmm6, %xmm5
	pmovmskb	%xmm5, %ecx
	testl	%ecx, %ecx
	jne	.LBB104_6
	pmaxuw	%xmm3, %xmm10
	pmaxuw	%xmm2, %xmm11
	pmaxuw	%xmm1, %xmm9
	pmaxuw	%xmm0, %xmm8
	addq	$64, %rsi
	addq	$-64, %rax
	cmpq	$63, %rax
	ja	.LBB104_4
.LBB104_6:
	movq	%r12, %rdx
	subq	%rsi, %rdx
	cmpq	$64, %rdx
	jb	.LBB104_22
.LBB104_7:
	xorl	%r13d, %r13d
	xorl	%r14d, %r14d
	.p2align	4
.LBB104_8:
	movdqu	(%r15,%rsi), %xmm3
	movdqu	16(%r15,%rsi), %xmm2
	movdqu	32(%r15,%rsi), %xmm1
	movdqu	48(%r15,%rsi), %xmm0
	movdqa	.LCPI104_10(%rip), %xmm4
	pshufb	%xmm4, %xmm1
	pshufb	%xmm4, %xmm0
	pshufb	%xmm4, %xmm3
	pshufb	%xmm4, %xmm2
	movdqa	%xmm2, %xmm4
	psrlw	$8, %xmm4
	movdqa	%xmm3, %xmm5
	psrlw	$8, %xmm5
	packuswb	%xmm4, %xmm5
	movdqa	%xmm0, %xmm4
	psrlw	$8, %xmm4
	movdqa	%xmm1, %xmm6
	psrlw	$8, %xmm6
	packuswb	%xmm4, %xmm6
	movdqa	.LCPI104_2(%rip), %xmm4
	pand	%xmm4, %xmm5
	pand	%xmm4, %xmm6
	movdqa	.LCPI104_1(%rip), %xmm4
	movdqa	%xmm6, %xmm7
	pcmpeqb	%xmm4, %xmm7
	pcmpeqb	%xmm5, %xmm4
	pmovmskb	%xmm4, %edi
	pmovmskb	%xmm7, %eax
	movdqa	.LCPI104_3(%rip), %xmm4
	pcmpeqb	%xmm4, %xmm5
	pmovmskb	%xmm5, %r8d
	pcmpeqb	%xmm4, %xmm6
	pmovmskb	%xmm6, %ecx
	shll	$16, %ecx
	orl	%r8d, %ecx
	movl	%eax, %r8d
	shll	$17, %r8d
	movzbl	%r13b, %r9d
	andl	$1, %r9d
	leal	(%r8,%rdi,2), %edi
	orl	%r9d, %edi
	cmpl	%ecx, %edi
	jne	.LBB104_25
	movzwl	%ax, %r13d
	shrl	$15, %r13d
	xorl	%eax, %eax
	popcntl	%ecx, %eax
	addq	%rax, %r14
	pmaxuw	%xmm3, %xmm10
	pmaxuw	%xmm2, %xmm11
	pmaxuw	%xmm1, %xmm9
	pmaxuw	%xmm0, %xmm8
	addq	$64, %rsi
	addq	$-64, %rdx
	cmpq	$63, %rdx
	ja	.LBB104_8
	movdqa	%xmm11, 48(%rsp)
	movdqa	%xmm10, 64(%rsp)
	movdqa	%xmm9, 80(%rsp)
	movdqa	%xmm8, 112(%rsp)
	jmp	.LBB104_23
.LBB104_11:
	testb	$1, %r12b
	jne	.LBB104_39
	pxor	%xmm8, %xmm8
	xorl	%esi, %esi
	cmpq	$64, %r12
	jb	.LBB104_35
	movq	%r12, %rax
	pxor	%xmm11, %xmm11
	pxor	%xmm9, %xmm9
	pxor	%xmm10, %xmm10
	.p2align	4
.LBB104_14:
	movdqu	(%r15,%rsi), %xmm3
	movdqu	16(%r15,%rsi), %xmm2
	movdqu	32(%r15,%rsi), %xmm1
	movdqu	48(%r15,%rsi), %xmm0
	movdqa	%xmm0, %xmm4
	psrlw	$8, %xmm4
	movdqa	%xmm1, %xmm5
	psrlw	$8, %xmm5
	packuswb	%xmm4, %xmm5
	movdqa	%xmm2, %xmm4
	psrlw	$8, %xmm4
	movdqa	%xmm3, %xmm6
	psrlw	$8, %xmm6
	packuswb	%xmm4, %xmm6
	movdqa	.LCPI104_0(%rip), %xmm4
	pand	%xmm4, %xmm5
	pand	%xmm4, %xmm6
	movdqa	.LCPI104_1(%rip), %xmm4
	pcmpeqb	%xmm4, %xmm6
	pcmpeqb	%xmm4, %xmm5
	por	%xmm6, %xmm5
	pmovmskb	%xmm5, %ecx
	testl	%ecx, %ecx
	jne	.LBB104_16
	pmaxuw	%xmm3, %xmm8
	pmaxuw	%xmm2, %xmm11
	pmaxuw	%xmm1, %xmm9
	pmaxuw	%xmm0, %xmm10
	addq	$64, %rsi
	addq	$-64, %rax
	cmpq	$63, %rax
	ja	.LBB104_14
.LBB104_16:
	movq	%r12, %rdx
	subq	%rsi, %rdx
	cmpq	$64, %rdx
	jb	.LBB104_36
.LBB104_17:
	xorl	%r13d, %r13d
	xorl	%r14d, %r14d
	.p2align	4
.LBB104_18:
	movdqu	(%r15,%rsi), %xmm3
	movdqu	16(%r15,%rsi), %xmm2
	movdqu	32(%r15,%rsi), %xmm1
	movdqu	48(%r15,%rsi), %xmm0
	movdqa	%xmm2, %xmm4
	psrlw	$8, %xmm4
	movdqa	%xmm3, %xmm5
	psrlw	$8, %xmm5
	packuswb	%xmm4, %xmm5
	movdqa	%xmm0, %xmm4
	psrlw	$8, %xmm4
	movdqa	%xmm1, %xmm6
	psrlw	$8, %xmm6
	packuswb	%xmm4, %xmm6
	movdqa	.LCPI104_2(%rip), %xmm4
	pand	%xmm4, %xmm5
	pand	%xmm4, %xmm6
	movdqa	.LCPI104_1(%rip), %xmm4
	movdqa	%xmm6, %xmm7
	pcmpeqb	%xmm4, %xmm7
	pcmpeqb	%xmm5, %xmm4
	pmovmskb	%xmm4, %edi
	pmovmskb	%xmm7, %eax
	movdqa	.LCPI104_3(%rip), %xmm4
	pcmpeqb	%xmm4, %xmm5
	pmovmskb	%xmm5, %r8d
	pcmpeqb	%xmm4, %xmm6
	pmovmskb	%xmm6, %ecx
	shll	$16, %ecx
	orl	%r8d, %ecx
	movl	%eax, %r8d
	shll	$17, %r8d
	movzbl	%r13b, %r9d
	andl	$1, %r9d
	leal	(%r8,%rdi,2), %edi
	orl	%r9d, %edi
	cmpl	%ecx, %edi
	jne	.LBB104_39
	movzwl	%ax, %r13d
	shrl	$15, %r13d
	xorl	%eax, %eax
	popcntl	%ecx, %eax
	addq	%rax, %r14
	pmaxuw	%xmm3, %xmm8
	pmaxuw	%xmm2, %xmm11
	pmaxuw	%xmm1, %xmm9
	pmaxuw	%xmm0, %xmm10
	addq	$64, %rsi
	addq	$-64, %rdx
	cmpq	$63, %rdx
	ja	.LBB104_18
	movdqa	%xmm11, 96(%rsp)
	movdqa	%xmm10, 48(%rsp)
	movdqa	%xmm9, 64(%rsp)
	movdqa	%xmm8, 80(%rsp)
	jmp	.LBB104_37
.LBB104_21:
	pxor	%xmm11, %xmm11
	pxor	%xmm9, %xmm9
	pxor	%xmm8, %xmm8
	movq	%r12, %rdx
	subq	%rsi, %rdx
	cmpq	$64, %rdx
	jae	.LBB104_7
.LBB104_22:
	movdqa	%xmm11, 48(%rsp)
	movdqa	%xmm10, 64(%rsp)
	movdqa	%xmm9, 80(%rsp)
	movdqa	%xmm8, 112(%rsp)
	xorl	%r14d, %r14d
	xorl	%r13d, %r13d
.LBB104_23:
	addq	%r15, %rsi
	pxor	%xmm0, %xmm0
	movdqa	%xmm0, 176(%rsp)
	movdqa	%xmm0, 160(%rsp)
	movdqa	%xmm0, 144(%rsp)
	movdqa	%xmm0, 128(%rsp)
	leaq	128(%rsp), %rdi
	callq	memcpy@PLT
	movdqa	.LCPI104_10(%rip), %xmm4
	movdqa	128(%rsp), %xmm3
	movdqa	144(%rsp), %xmm2
	movdqa	160(%rsp), %xmm1
	movdqa	176(%rsp), %xmm0
	pshufb	%xmm4, %xmm1
	pshufb	%xmm4, %xmm0
	pshufb	%xmm4, %xmm3
	pshufb	%xmm4, %xmm2
	movdqa	%xmm2, %xmm4
	psrlw	$8, %xmm4
	movdqa	%xmm3, %xmm5
	psrlw	$8, %xmm5
	packuswb	%xmm4, %xmm5
	movdqa	%xmm0, %xmm4
	psrlw	$8, %xmm4
	movdqa	%xmm1, %xmm6
	psrlw	$8, %xmm6
	packuswb	%xmm4, %xmm6
	movdqa	.LCPI104_2(%rip), %xmm4
	pand	%xmm4, %xmm5
	pand	%xmm4, %xmm6
	movdqa	.LCPI104_1(%rip), %xmm4
	movdqa	%xmm6, %xmm7
	pcmpeqb	%xmm4, %xmm7
	pcmpeqb	%xmm5, %xmm4
	pmovmskb	%xmm4, %ecx
	pmovmskb	%xmm7, %edx
	movdqa	.LCPI104_3(%rip), %xmm4
	pcmpeqb	%xmm4, %xmm5
	pmovmskb	%xmm5, %esi
	pcmpeqb	%xmm4, %xmm6
	pmovmskb	%xmm6, %eax
	shll	$16, %eax
	orl	%esi, %eax
	shll	$17, %edx
	leal	(%r13,%rcx,2), %ecx
	orl	%edx, %ecx
	cmpl	%eax, %ecx
	movdqa	112(%rsp), %xmm4
	movdqa	80(%rsp), %xmm5
	movdqa	64(%rsp), %xmm6
	movdqa	48(%rsp), %xmm7
	jne	.LBB104_25
	popcntl	%eax, %eax
	addq	%r14, %rax
	pmaxuw	%xmm3, %xmm6
	pmaxuw	%xmm2, %xmm7
	pmaxuw	%xmm1, %xmm5
	pmaxuw	%xmm0, %xmm4
	xorl	%r13d, %r13d
	movq	$0, 112(%rsp)
	movl	$3, %ecx
	testq	%rax, %rax
	jne	.LBB104_106
	jmp	.LBB104_96
.LBB104_25:
	cmpq	$2, %r12
	jne	.LBB104_28
	movzbl	(%r15), %eax
	andb	$-8, %al
	cmpb	$-40, %al
	je	.LBB104_77
	pxor	%xmm0, %xmm0
	movdqa	%xmm0, 80(%rsp)
	movl	$2, %r12d
	movq	$0, 112(%rsp)
	xorl	%r13d, %r13d
	xorl	%r14d, %r14d
	movdqa	%xmm0, 64(%rsp)
	movdqa	%xmm0, 48(%rsp)
	movdqa	%xmm0, 96(%rsp)
	xorl	%eax, %eax
	movl	$2, %edx
	jmp	.LBB104_95
.LBB104_28:
	cmpq	$7, %r12
	ja	.LBB104_49
	testq	%r12, %r12
	je	.LBB104_65
	cmpq	$6, %r12
	je	.LBB104_57
	cmpq	$4, %r12
	jne	.LBB104_77
	movzbl	(%r15), %eax
	andb	$-8, %al
	cmpb	$-40, %al
	je	.LBB104_77
	movzbl	2(%r15), %eax
	andb	$-8, %al
	cmpb	$-40, %al
	je	.LBB104_77
	movq	$0, 112(%rsp)
	pxor	%xmm0, %xmm0
	movdqa	%xmm0, 80(%rsp)
	movl	$4, %r12d
	xorl	%r13d, %r13d
	xorl	%r14d, %r14d
	movdqa	%xmm0, 64(%rsp)
	movdqa	%xmm0, 48(%rsp)
	movdqa	%xmm0, 96(%rsp)
	xorl	%eax, %eax
	movl	$4, %edx
	jmp	.LBB104_95
.LBB104_35:
	pxor	%xmm11, %xmm11
	pxor	%xmm9, %xmm9
	pxor	%xmm10, %xmm10
	movq	%r12, %rdx
	subq	%rsi, %rdx
	cmpq	$64, %rdx
	jae	.LBB104_17
.LBB104_36:
	movdqa	%xmm11, 96(%rsp)
	movdqa	%xmm10, 48(%rsp)
	movdqa	%xmm9, 64(%rsp)
	movdqa	%xmm8, 80(%rsp)
	xorl	%r14d, %r14d
	xorl	%r13d, %r13d
.LBB104_37:
	addq	%r15, %rsi
	pxor	%xmm0, %xmm0
	movdqa	%xmm0, 176(%rsp)
	movdqa	%xmm0, 160(%rsp)
	movdqa	%xmm0, 144(%rsp)
	movdqa	%xmm0, 128(%rsp)
	leaq	128(%rsp), %rdi
	callq	memcpy@PLT
	movdqa	128(%rsp), %xmm3
	movdqa	144(%rsp), %xmm2
	movdqa	160(%rsp), %xmm1
	movdqa	176(%rsp), %xmm0
	movdqa	%xmm2, %xmm4
	psrlw	$8, %xmm4
	movdqa	%xmm3, %xmm5
	psrlw	$8, %xmm5
	packuswb	%xmm4, %xmm5
	movdqa	%xmm0, %xmm4
	psrlw	$8, %xmm4
	movdqa	%xmm1, %xmm6
	psrlw	$8, %xmm6
	packuswb	%xmm4, %xmm6
	movdqa	.LCPI104_2(%rip), %xmm4
	pand	%xmm4, %xmm5
	pand	%xmm4, %xmm6
	movdqa	.LCPI104_1(%rip), %xmm4
	movdqa	%xmm6, %xmm7
	pcmpeqb	%xmm4, %xmm7
	pcmpeqb	%xmm5, %xmm4
	pmovmskb	%xmm4, %ecx
	pmovmskb	%xmm7, %edx
	movdqa	.LCPI104_3(%rip), %xmm4
	pcmpeqb	%xmm4, %xmm5
	pmovmskb	%xmm5, %esi
	pcmpeqb	%xmm4, %xmm6
	pmovmskb	%xmm6, %eax
	shll	$16, %eax
	orl	%esi, %eax
	shll	$17, %edx
	leal	(%r13,%rcx,2), %ecx
	orl	%edx, %ecx
	cmpl	%eax, %ecx
	movdqa	80(%rsp), %xmm4
	movdqa	64(%rsp), %xmm5
	movdqa	48(%rsp), %xmm6
	movdqa	96(%rsp), %xmm7
	jne	.LBB104_39
	popcntl	%eax, %eax
	addq	%r14, %rax
	pmaxuw	%xmm3, %xmm4
	pmaxuw	%xmm2, %xmm7
	pmaxuw	%xmm1, %xmm5
	pmaxuw	%xmm0, %xmm6
	xorl	%r13d, %r13d
	movq	$0, 112(%rsp)
	movl	$3, %ecx
	testq	%rax, %rax
	jne	.LBB104_106
	jmp	.LBB104_103
.LBB104_39:
	cmpq	$2, %r12
	jne	.LBB104_42
	movzbl	1(%r15), %eax
	andb	$-8, %al
	cmpb	$-40, %al
	je	.LBB104_85
	pxor	%xmm0, %xmm0
	movdqa	%xmm0, 80(%rsp)
	movl	$2, %r12d
	movq	$0, 112(%rsp)
	xorl	%r13d, %r13d
	xorl	%r14d, %r14d
	movdqa	%xmm0, 96(%rsp)
	movdqa	%xmm0, 64(%rsp)
	movdqa	%xmm0, 48(%rsp)
	xorl	%eax, %eax
	movl	$2, %edx
	jmp	.LBB104_102
.LBB104_42:
	cmpq	$7, %r12
	ja	.LBB104_53
	testq	%r12, %r12
	je	.LBB104_66
	cmpq	$6, %r12
	je	.LBB104_61
	cmpq	$4, %r12
	jne	.LBB104_85
	movzbl	1(%r15), %eax
	andb	$-8, %al
	cmpb	$-40, %al
	je	.LBB104_85
	movzbl	3(%r15), %eax
	andb	$-8, %al
	cmpb	$-40, %al
	je	.LBB104_85
	movq	$0, 112(%rsp)
	pxor	%xmm0, %xmm0
	movdqa	%xmm0, 80(%rsp)
	movl	$4, %r12d
	xorl	%r13d, %r13d
	xorl	%r14d, %r14d
	movdqa	%xmm0, 96(%rsp)
	movdqa	%xmm0, 64(%rsp)
	movdqa	%xmm0, 48(%rsp)
	xorl	%eax, %eax
	movl	$4, %edx
	jmp	.LBB104_102
.LBB104_49:
	cmpq	$65, %r12
	setae	%al
	orb	%r12b, %al
	testb	$1, %al
	jne	.LBB104_77
	cmpq	$15, %r12
	ja	.LBB104_67
	movq	(%r15), %xmm0
	pshufb	.LCPI104_13(%rip), %xmm0
	pand	.LCPI104_6(%rip), %xmm0
	pcmpeqb	.LCPI104_7(%rip), %xmm0
	pmovsxbd	%xmm0, %xmm0
	movmskps	%xmm0, %eax
	testl	%eax, %eax
	jne	.LBB104_77
	movq	-8(%r15,%r12), %xmm0
	pshufb	.LCPI104_13(%rip), %xmm0
	pand	.LCPI104_6(%rip), %xmm0
	pcmpeqb	.LCPI104_7(%rip), %xmm0
	pmovsxbd	%xmm0, %xmm0
	movmskps	%xmm0, %eax
	testl	%eax, %eax
	jne	.LBB104_77
	jmp	.LBB104_70
.LBB104_53:
	cmpq	$65, %r12
	setae	%al
	orb	%r12b, %al
	testb	$1, %al
	jne	.LBB104_85
	cmpq	$15, %r12
	ja	.LBB104_71
	movq	(%r15), %xmm0
	psrlw	$8, %xmm0
	packuswb	%xmm0, %xmm0
	pand	.LCPI104_6(%rip), %xmm0
	pcmpeqb	.LCPI104_7(%rip), %xmm0
	pmovsxbd	%xmm0, %xmm0
	movmskps	%xmm0, %eax
	testl	%eax, %eax
	jne	.LBB104_85
	movq	-8(%r15,%r12), %xmm0
	psrlw	$8, %xmm0
	packuswb	%xmm0, %xmm0
	pand	.LCPI104_6(%rip), %xmm0
	pcmpeqb	.LCPI104_7(%rip), %xmm0
	pmovsxbd	%xmm0, %xmm0
	movmskps	%xmm0, %eax
	testl	%eax, %eax
	jne	.LBB104_85
	jmp	.LBB104_74
.LBB104_57:
	movzbl	(%r15), %eax
	andb	$-8, %al
	cmpb	$-40, %al
	je	.LBB104_77
	movzbl	2(%r15), %eax
	andb	$-8, %al
	cmpb	$-40, %al
	je	.LBB104_77
	movzbl	4(%r15), %eax
	andb	$-8, %al
	cmpb	$-40, %al
	je	.LBB104_77
	movq	$0, 112(%rsp)
	pxor	%xmm0, %xmm0
	movdqa	%xmm0, 80(%rsp)
	movl	$6, %r12d
	xorl	%r13d, %r13d
	xorl	%r14d, %r14d
	movdqa	%xmm0, 64(%rsp)
	movdqa	%xmm0, 48(%rsp)
	movdqa	%xmm0, 96(%rsp)
	xorl	%eax, %eax
	movl	$6, %edx
	jmp	.LBB104_95
.LBB104_61:
	movzbl	1(%r15), %eax
	andb	$-8, %al
	cmpb	$-40, %al
	je	.LBB104_85
	movzbl	3(%r15), %eax
	andb	$-8, %al
	cmpb	$-40, %al
	je	.LBB104_85
	movzbl	5(%r15), %eax
	andb	$-8, %al
	cmpb	$-40, %al
	je	.LBB104_85
	movq	$0, 112(%rsp)
	pxor	%xmm0, %xmm0
	movdqa	%xmm0, 80(%rsp)
	movl	$6, %r12d
	xorl	%r13d, %r13d
	xorl	%r14d, %r14d
	movdqa	%xmm0, 96(%rsp)
	movdqa	%xmm0, 64(%rsp)
	movdqa	%xmm0, 48(%rsp)
	xorl	%eax, %eax
	movl	$6, %edx
	jmp	.LBB104_102
.LBB104_65:
	pxor	%xmm0, %xmm0
	movdqa	%xmm0, 80(%rsp)
	movq	$0, 112(%rsp)
	xorl	%r13d, %r13d
	movq	%r12, %r14
	movdqa	%xmm0, 64(%rsp)
	movdqa	%xmm0, 48(%rsp)
	movdqa	%xmm0, 96(%rsp)
	movq	%r12, %rax
	jmp	.LBB104_94
.LBB104_66:
	pxor	%xmm0, %xmm0
	movdqa	%xmm0, 80(%rsp)
	movq	$0, 112(%rsp)
	xorl	%r13d, %r13d
	movq	%r12, %r14
	movdqa	%xmm0, 96(%rsp)
	movdqa	%xmm0, 64(%rsp)
	movdqa	%xmm0, 48(%rsp)
	movq	%r12, %rax
	jmp	.LBB104_101
.LBB104_67:
	cmpq	$31, %r12
	ja	.LBB104_75
	movdqu	(%r15), %xmm0
	pshufb	.LCPI104_12(%rip), %xmm0
	pand	.LCPI104_4(%rip), %xmm0
	pcmpeqb	.LCPI104_5(%rip), %xmm0
	pmovmskb	%xmm0, %eax
	testb	%al, %al
	jne	.LBB104_77
	movdqu	-16(%r15,%r12), %xmm0
	pshufb	.LCPI104_12(%rip), %xmm0
	pand	.LCPI104_4(%rip), %xmm0
	pcmpeqb	.LCPI104_5(%rip), %xmm0
	pmovmskb	%xmm0, %eax
	testb	%al, %al
	jne	.LBB104_77
.LBB104_70:
	pxor	%xmm0, %xmm0
	movdqa	%xmm0, 80(%rsp)
	movq	$0, 112(%rsp)
	xorl	%r13d, %r13d
	jmp	.LBB104_93
.LBB104_71:
	cmpq	$31, %r12
	ja	.LBB104_83
	movdqu	(%r15), %xmm0
	psrlw	$8, %xmm0
	packuswb	%xmm0, %xmm0
	pand	.LCPI104_4(%rip), %xmm0
	pcmpeqb	.LCPI104_5(%rip), %xmm0
	pmovmskb	%xmm0, %eax
	testb	%al, %al
	jne	.LBB104_85
	movdqu	-16(%r15,%r12), %xmm0
	psrlw	$8, %xmm0
	packuswb	%xmm0, %xmm0
	pand	.LCPI104_4(%rip), %xmm0
	pcmpeqb	.LCPI104_5(%rip), %xmm0
	pmovmskb	%xmm0, %eax
	testb	%al, %al
	jne	.LBB104_85
.LBB104_74:
	pxor	%xmm0, %xmm0
	movdqa	%xmm0, 80(%rsp)
	movq	$0, 112(%rsp)
	xorl	%r13d, %r13d
	jmp	.LBB104_100
.LBB104_75:
	movdqu	(%r15), %xmm1
	movdqu	16(%r15), %xmm2
	movdqa	.LCPI104_11(%rip), %xmm0
	pand	%xmm0, %xmm2
	pand	%xmm0, %xmm1
	packuswb	%xmm2, %xmm1
	pand	.LCPI104_0(%rip), %xmm1
	pcmpeqb	.LCPI104_1(%rip), %xmm1
	pmovmskb	%xmm1, %eax
	testl	%eax, %eax
	jne	.LBB104_77
	movdqu	-32(%r15,%r12), %xmm1
	movdqu	-16(%r15,%r12), %xmm2
	pand	%xmm0, %xmm2
	pand	%xmm0, %xmm1
	packuswb	%xmm2, %xmm1
	pand	.LCPI104_0(%rip), %xmm1
	pcmpeqb	.LCPI104_1(%rip), %xmm1
	pmovmskb	%xmm1, %eax
	testl	%eax, %eax
	je	.LBB104_91
.LBB104_77:
	movq	%r15, %rdi
	movq	%r12, %rsi
	callq	"utf16_units::validate::valid_len::<#8b18edd9dd9aa8df>"
	xorl	%r13d, %r13d
	movq	%r12, %rsi
	movl	$0, %edx
	subq	%rax, %rsi
	je	.LBB104_79
	movq	%rax, %rdi
	addq	%r15, %rdi
	movq	%rax, %r12
	callq	"utf16_units::validate::error_len::<#8b18edd9dd9aa8df>"
	cmpb	$1, %al
	sete	%al
	movzbl	%dl, %ecx
	cmovel	%ecx, %r13d
	movl	%r13d, %edx
	movb	$2, %cl
	subb	%al, %cl
	movl	%ecx, %r13d
.LBB104_79:
	movq	%rdx, 112(%rsp)
	cmpq	$64, %r12
	jb	.LBB104_92
.LBB104_80:
	pxor	%xmm5, %xmm5
	xorl	%eax, %eax
	movq	%r12, %rdx
	pxor	%xmm6, %xmm6
	pxor	%xmm7, %xmm7
	pxor	%xmm8, %xmm8
	xorl	%r14d, %r14d
	.p2align	4
.LBB104_81:
	movdqu	(%r15,%rax), %xmm0
	movdqu	16(%r15,%rax), %xmm1
	movdqu	32(%r15,%rax), %xmm2
	movdqu	48(%r15,%rax), %xmm3
	movdqa	.LCPI104_10(%rip), %xmm4
	pshufb	%xmm4, %xmm0
	pshufb	%xmm4, %xmm1
	pshufb	%xmm4, %xmm2
	pshufb	%xmm4, %xmm3
	pmaxuw	%xmm3, %xmm8
	psrlw	$8, %xmm3
	pmaxuw	%xmm2, %xmm7
	psrlw	$8, %xmm2
	packuswb	%xmm3, %xmm2
	pmaxuw	%xmm1, %xmm6
	psrlw	$8, %xmm1
	pmaxuw	%xmm0, %xmm5
	psrlw	$8, %xmm0
	packuswb	%xmm1, %xmm0
	movdqa	.LCPI104_2(%rip), %xmm1
	pand	%xmm1, %xmm2
	pand	%xmm1, %xmm0
	movdqa	.LCPI104_3(%rip), %xmm1
	pcmpeqb	%xmm1, %xmm0
	pmovmskb	%xmm0, %ecx
	pcmpeqb	%xmm1, %xmm2
	pmovmskb	%xmm2, %esi
	shll	$16, %esi
	orl	%ecx, %esi
	xorl	%ecx, %ecx
	popcntl	%esi, %ecx
	addq	%rcx, %r14
	addq	$64, %rax
	addq	$-64, %rdx
	cmpq	$63, %rdx
	ja	.LBB104_81
	movdqa	%xmm5, 80(%rsp)
	movdqa	%xmm6, 64(%rsp)
	movdqa	%xmm7, 48(%rsp)
	movdqa	%xmm8, 96(%rsp)
	jmp	.LBB104_95
.LBB104_83:
	movdqu	(%r15), %xmm0
	movdqu	16(%r15), %xmm1
	psrlw	$8, %xmm1
	psrlw	$8, %xmm0
	packuswb	%xmm1, %xmm0
	pand	.LCPI104_0(%rip), %xmm0
	pcmpeqb	.LCPI104_1(%rip), %xmm0
	pmovmskb	%xmm0, %eax
	testl	%eax, %eax
	jne	.LBB104_85
	movdqu	-32(%r15,%r12), %xmm0
	movdqu	-16(%r15,%r12), %xmm1
	psrlw	$8, %xmm1
	psrlw	$8, %xmm0
	packuswb	%xmm1, %xmm0
	pand	.LCPI104_0(%rip), %xmm0
	pcmpeqb	.LCPI104_1(%rip), %xmm0
	pmovmskb	%xmm0, %eax
	testl	%eax, %eax
	je	.LBB104_98
.LBB104_85:
	movq	%r15, %rdi
	movq	%r12, %rsi
	callq	"utf16_units::validate::valid_len::<#418c2b53cf60437c>"
	xorl	%r13d, %r13d
	movq	%r12, %rsi
	movl	$0, %edx
	subq	%rax, %rsi
	je	.LBB104_87
	movq	%rax, %rdi
	addq	%r15, %rdi
	movq	%rax, %r12
	callq	"utf16_units::validate::error_len::<#418c2b53cf60437c>"
	cmpb	$1, %al
	sete	%al
	movzbl	%dl, %ecx
	cmovel	%ecx, %r13d
	movl	%r13d, %edx
	movb	$2, %cl
	subb	%al, %cl
	movl	%ecx, %r13d
.LBB104_87:
	movq	%rdx, 112(%rsp)
	cmpq	$64, %r12
	jb	.LBB104_99
.LBB104_88:
	pxor	%xmm4, %xmm4
	xorl	%eax, %eax
	movq	%r12, %rdx
	pxor	%xmm7, %xmm7
	pxor	%xmm5, %xmm5
	pxor	%xmm6, %xmm6
	xorl	%r14d, %r14d
	.p2align	4
.LBB104_89:
	movdqu	(%r15,%rax), %xmm0
	movdqu	16(%r15,%rax), %xmm1
	movdqu	32(%r15,%rax), %xmm2
	movdqu	48(%r15,%rax), %xmm3
	pmaxuw	%xmm3, %xmm6
	psrlw	$8, %xmm3
	pmaxuw	%xmm2, %xmm5
	psrlw	$8, %xmm2
	packuswb	%xmm3, %xmm2
	pmaxuw	%xmm1, %xmm7
	psrlw	$8, %xmm1
	pmaxuw	%xmm0, %xmm4
	psrlw	$8, %xmm0
	packuswb	%xmm1, %xmm0
	movdqa	.LCPI104_2(%rip), %xmm1
	pand	%xmm1, %xmm2
	pand	%xmm1, %xmm0
	movdqa	.LCPI104_3(%rip), %xmm1
	pcmpeqb	%xmm1, %xmm0
	pmovmskb	%xmm0, %ecx
	pcmpeqb	%xmm1, %xmm2
	pmovmskb	%xmm2, %esi
	shll	$16, %esi
	orl	%ecx, %esi
	xorl	%ecx, %ecx
	popcntl	%esi, %ecx
	addq	%rcx, %r14
	addq	$64, %rax
	addq	$-64, %rdx
	cmpq	$63, %rdx
	ja	.LBB104_89
	movdqa	%xmm4, 80(%rsp)
	movdqa	%xmm5, 64(%rsp)
	movdqa	%xmm6, 48(%rsp)
	movdqa	%xmm7, 96(%rsp)
	jmp	.LBB104_102
.LBB104_91:
	xorl	%r13d, %r13d
	xorl	%edx, %edx
	movq	%rdx, 112(%rsp)
	cmpq	$64, %r12
	jae	.LBB104_80
.LBB104_92:
	pxor	%xmm0, %xmm0
	movdqa	%xmm0, 80(%rsp)
.LBB104_93:
	xorl	%r14d, %r14d
	movdqa	%xmm0, 64(%rsp)
	movdqa	%xmm0, 48(%rsp)
	movdqa	%xmm0, 96(%rsp)
	xorl	%eax, %eax
.LBB104_94:
	movq	%r12, %rdx
.LBB104_95:
	addq	%rax, %r15
	pxor	%xmm0, %xmm0
	movdqa	%xmm0, 176(%rsp)
	movdqa	%xmm0, 160(%rsp)
	movdqa	%xmm0, 144(%rsp)
	movdqa	%xmm0, 128(%rsp)
	leaq	128(%rsp), %rdi
	movq	%r15, %rsi
	callq	memcpy@PLT
	movdqa	.LCPI104_10(%rip), %xmm0
	movdqa	128(%rsp), %xmm6
	movdqa	144(%rsp), %xmm7
	movdqa	160(%rsp), %xmm5
	movdqa	176(%rsp), %xmm4
	pshufb	%xmm0, %xmm6
	pshufb	%xmm0, %xmm7
	pshufb	%xmm0, %xmm5
	pshufb	%xmm0, %xmm4
	movdqa	%xmm4, %xmm0
	psrlw	$8, %xmm0
	movdqa	%xmm5, %xmm1
	psrlw	$8, %xmm1
	packuswb	%xmm0, %xmm1
	movdqa	%xmm7, %xmm0
	psrlw	$8, %xmm0
	movdqa	%xmm6, %xmm2
	psrlw	$8, %xmm2
	packuswb	%xmm0, %xmm2
	movdqa	.LCPI104_2(%rip), %xmm0
	pand	%xmm0, %xmm1
	pand	%xmm0, %xmm2
	movdqa	.LCPI104_3(%rip), %xmm0
	pcmpeqb	%xmm0, %xmm2
	pmovmskb	%xmm2, %eax
	pcmpeqb	%xmm0, %xmm1
	pmovmskb	%xmm1, %ecx
	shll	$16, %ecx
	orl	%eax, %ecx
	xorl	%eax, %eax
	popcntl	%ecx, %eax
	addq	%r14, %rax
	pmaxuw	96(%rsp), %xmm4
	pmaxuw	48(%rsp), %xmm5
	pmaxuw	64(%rsp), %xmm7
	pmaxuw	80(%rsp), %xmm6
	movl	$3, %ecx
	testq	%rax, %rax
	jne	.LBB104_106
.LBB104_96:
	movdqa	.LCPI104_8(%rip), %xmm0
	pmaxuw	%xmm6, %xmm5
	movdqa	%xmm5, %xmm1
	pmaxuw	%xmm0, %xmm1
	pcmpeqw	%xmm5, %xmm1
	pmaxuw	%xmm7, %xmm4
	pmaxuw	%xmm4, %xmm0
	pcmpeqw	%xmm4, %xmm0
	packsswb	%xmm0, %xmm1
	pmovmskb	%xmm1, %edx
	movl	$2, %ecx
	testl	%edx, %edx
	jne	.LBB104_106
	movdqa	.LCPI104_9(%rip), %xmm0
	movdqa	%xmm5, %xmm1
	pmaxuw	%xmm0, %xmm1
	pcmpeqw	%xmm5, %xmm1
	pmaxuw	%xmm4, %xmm0
	pcmpeqw	%xmm4, %xmm0
	jmp	.LBB104_105
.LBB104_98:
	xorl	%r13d, %r13d
	xorl	%edx, %edx
	movq	%rdx, 112(%rsp)
	cmpq	$64, %r12
	jae	.LBB104_88
.LBB104_99:
	pxor	%xmm0, %xmm0
	movdqa	%xmm0, 80(%rsp)
.LBB104_100:
	xorl	%r14d, %r14d
	movdqa	%xmm0, 96(%rsp)
	movdqa	%xmm0, 64(%rsp)
	movdqa	%xmm0, 48(%rsp)
	xorl	%eax, %eax
.LBB104_101:
	movq	%r12, %rdx
.LBB104_102:
	addq	%rax, %r15
	pxor	%xmm0, %xmm0
	movdqa	%xmm0, 176(%rsp)
	movdqa	%xmm0, 160(%rsp)
	movdqa	%xmm0, 144(%rsp)
	movdqa	%xmm0, 128(%rsp)
	leaq	128(%rsp), %rdi
	movq	%r15, %rsi
	callq	memcpy@PLT
	movdqa	128(%rsp), %xmm0
	movdqa	144(%rsp), %xmm1
	movdqa	160(%rsp), %xmm2
	movdqa	176(%rsp), %xmm3
	movdqa	48(%rsp), %xmm6
	pmaxuw	%xmm3, %xmm6
	psrlw	$8, %xmm3
	movdqa	64(%rsp), %xmm5
	pmaxuw	%xmm2, %xmm5
	psrlw	$8, %xmm2
	packuswb	%xmm3, %xmm2
	movdqa	96(%rsp), %xmm7
	pmaxuw	%xmm1, %xmm7
	psrlw	$8, %xmm1
	movdqa	80(%rsp), %xmm4
	pmaxuw	%xmm0, %xmm4
	psrlw	$8, %xmm0
	packuswb	%xmm1, %xmm0
	movdqa	.LCPI104_2(%rip), %xmm1
	pand	%xmm1, %xmm2
	pand	%xmm1, %xmm0
	movdqa	.LCPI104_3(%rip), %xmm1
	pcmpeqb	%xmm1, %xmm0
	pmovmskb	%xmm0, %eax
	pcmpeqb	%xmm1, %xmm2
	pmovmskb	%xmm2, %ecx
	shll	$16, %ecx
	orl	%eax, %ecx
	xorl	%eax, %eax
	popcntl	%ecx, %eax
	addq	%r14, %rax
	movl	$3, %ecx
	testq	%rax, %rax
	jne	.LBB104_106
.LBB104_103:
	movdqa	.LCPI104_8(%rip), %xmm0
	pmaxuw	%xmm4, %xmm5
	movdqa	%xmm5, %xmm1
	pmaxuw	%xmm0, %xmm1
	pcmpeqw	%xmm5, %xmm1
	pmaxuw	%xmm7, %xmm6
	pmaxuw	%xmm6, %xmm0
	pcmpeqw	%xmm6, %xmm0
	packsswb	%xmm0, %xmm1
	pmovmskb	%xmm1, %edx
	movl	$2, %ecx
	testl	%edx, %edx
	jne	.LBB104_106
	movdqa	.LCPI104_9(%rip), %xmm0
	movdqa	%xmm5, %xmm1
	pmaxuw	%xmm0, %xmm1
	pcmpeqw	%xmm5, %xmm1
	pmaxuw	%xmm6, %xmm0
	pcmpeqw	%xmm6, %xmm0
.LBB104_105:
	packsswb	%xmm0, %xmm1
	pmovmskb	%xmm1, %edx
	xorl	%ecx, %ecx
	testl	%edx, %edx
	setne	%cl
.LBB104_106:
	movq	%r12, %rdx
	shrq	%rdx
	subq	%rax, %rdx
	movzbl	%r13b, %eax
	testb	%al, %al
	je	.LBB104_109
	cmpl	$2, %eax
	jne	.LBB104_110
	xorl	%esi, %esi
	movl	$2, %eax
	jmp	.LBB104_111
.LBB104_109:
	movl	%eax, %esi
	jmp	.LBB104_111
.LBB104_110:
	movzbl	112(%rsp), %esi
	movl	$1, %eax
.LBB104_111:
	movq	%r12, (%rbx)
	movq	%rdx, 8(%rbx)
	movl	%ecx, 16(%rbx)
	movl	%eax, 20(%rbx)
	movl	%esi, 24(%rbx)
	movl	$0, 28(%rbx)
	movq	%rbx, %rax
	leaq	-40(%rbp), %rsp
	popq	%rbx
	popq	%r12
	popq	%r13
	popq	%r14
	popq	%r15
	popq	%rbp
	.cfi_def_cfa %rsp, 8
	retq
.Lfunc_end104:
	.size	dethrux_inspect_v2, .Lfunc_end104-dethrux_inspect_v2
	.cfi_endproc

	.section	.rodata.cst16,"aM",@progbits,16
	.p2align	4, 0x0
.LCPI105_0:
	.short	128
	.short	128
	.short	128
	.short	128
	.short	128
	.short	128
	.short	128
	.short	128
.LCPI105_1:
	.byte	1
	.byte	0
	.byte	3
	.byte	2
	.byte	5
	.byte	4
	.byte	7
	.byte	6
	.byte	9
	.byte	8
	.byte	11
	.byte	10
	.byte	13
	.byte	12
	.byte	15
	.byte	14
	.section	.text.dethrux_decoder_feed,"ax",@progbits
	.globl	dethrux_decoder_feed_v2
	.hidden	dethrux_decoder_feed_v2
	.p2align	4
	.type	dethrux_decoder_feed_v2,@function
dethrux_decoder_feed_v2:
	.cfi_startproc
	pushq	%rbp
	.cfi_def_cfa_offset 16
	pushq	%r15
	.cfi_def_cfa_offset 24
	pushq	%r14
	.cfi_def_cfa_offset 32
	pushq	%r13
	.cfi_def_cfa_offset 40
	pushq	%r12
	.cfi_def_cfa_offset 48
	pushq	%rbx
	.cfi_def_cfa_offset 56
	subq	$200, %rsp
	.cfi_def_cfa_offset 256
	.cfi_offset %rbx, -56
	.cfi_offset %r12, -48
	.cfi_offset %r13, -40
	.cfi_offset %r14, -32
	.cfi_offset %r15, -24
	.cfi_offset %rbp, -16
	movq	%r8, 136(%rsp)
	movq	%rdi, 184(%rsp)
	movq	256(%rsp), %rax
	movq	%rax, 152(%rsp)
	xorl	%ebx, %ebx
	testq	%rcx, %rcx
	sete	%bl
	shll	$12, %ebx
	movq	%rcx, 144(%rsp)
	leaq	(%rcx,%rbx), %rax
	movq	%rax, 192(%rsp)
	xorl	%eax, %eax
	testq	%r9, %r9
	sete	%al
	shll	$12, %eax
	addq	%r9, %rax
	movq	%rax, 112(%rsp)
	cmpl	$1, %edx
	movq	%rsi, 176(%rsp)
	jne	.LBB105_44
	movl	$0, 100(%rsp)
	movl	(%rsi), %eax
	movl	%eax, 44(%rsp)
	shrl	$24, %eax
	cmpb	$3, %al
	movl	$3, %r12d
	cmovbl	%eax, %r12d
	testl	%eax, %eax
	movq	%r12, 56(%rsp)
	je	.LBB105_90
	xorl	%edi, %edi
	xorl	%r15d, %r15d
	movq	%rbx, 160(%rsp)
.LBB105_3:
	leaq	(%rsp,%rdi), %rsi
	addq	$44, %rsi
	movq	%rdi, 72(%rsp)
	subq	%rdi, %r12
	movl	$4, %r14d
	subq	%r12, %r14
	movq	136(%rsp), %rax
	cmpq	%rax, %r14
	cmovaeq	%rax, %r14
	movl	$0, 16(%rsp)
	leaq	16(%rsp), %rdi
	movq	%r12, %rdx
	callq	memcpy@PLT
	leaq	(%rsp,%r12), %rdi
	addq	$16, %rdi
	movq	144(%rsp), %rax
	leaq	(%rax,%rbx), %rsi
	movq	%r14, %rdx
	callq	memcpy@PLT
	movq	%r14, 168(%rsp)
	addq	%r14, %r12
	movq	%r12, 48(%rsp)
	movl	16(%rsp), %eax
	movl	%eax, 68(%rsp)
	movq	112(%rsp), %rax
	leaq	(%rax,%r15), %r10
	movq	256(%rsp), %rax
	movq	%r15, 80(%rsp)
	subq	%r15, %rax
	movq	%rax, 88(%rsp)
	xorl	%ebp, %ebp
	xorl	%r14d, %r14d
	movq	%r10, 104(%rsp)
	jmp	.LBB105_7
	.p2align	4
.LBB105_4:
	movb	$-67, 2(%rbx)
	movw	$-16401, (%rbx)
.LBB105_5:
	movl	$3, %edx
.LBB105_6:
	addq	%rax, %r14
	addq	%rdx, %rbp
.LBB105_7:
	leaq	(%rsp,%r14), %rbx
	addq	$68, %rbx
	movq	48(%rsp), %rdx
	subq	%r14, %rdx
	leaq	(%r10,%rbp), %r15
	movq	88(%rsp), %r8
	subq	%rbp, %r8
	pxor	%xmm0, %xmm0
	movdqa	%xmm0, 16(%rsp)
	movq	$0, 32(%rsp)
	leaq	-16(%rdx), %rax
	cmpq	$175, %rax
	ja	.LBB105_15
	movq	%rdx, %rax
	shrq	%rax
	cmpq	%rax, %r8
	cmovbq	%r8, %rax
	cmpq	$8, %rax
	jb	.LBB105_15
	leaq	(%rax,%rax), %rcx
	xorl	%r9d, %r9d
	xorl	%r13d, %r13d
	.p2align	4
.LBB105_10:
	movdqu	(%rbx,%r13,2), %xmm0
	pshufb	.LCPI105_1(%rip), %xmm0
	movdqa	.LCPI105_0(%rip), %xmm1
	pmaxuw	%xmm0, %xmm1
	pcmpeqw	%xmm0, %xmm1
	pmovmskb	%xmm1, %esi
	testl	%esi, %esi
	jne	.LBB105_31
	packuswb	%xmm0, %xmm0
	movq	%xmm0, (%r15,%r13)
	addq	$8, %r13
	leaq	(%rcx,%r9), %rsi
	addq	$-16, %rsi
	addq	$-16, %r9
	cmpq	$15, %rsi
	ja	.LBB105_10
	negq	%r9
	cmpq	%r9, %rcx
	jbe	.LBB105_16
	movdqu	-16(%rbx,%rcx), %xmm0
	pshufb	.LCPI105_1(%rip), %xmm0
	movdqa	.LCPI105_0(%rip), %xmm1
	pmaxuw	%xmm0, %xmm1
	pcmpeqw	%xmm0, %xmm1
	pmovmskb	%xmm1, %esi
	testl	%esi, %esi
	jne	.LBB105_16
	packuswb	%xmm0, %xmm0
	movq	%xmm0, -8(%r15,%rax)
	movq	%rax, %r13
	movq	%rcx, %r9
	movq	%rdx, %rax
	subq	%r9, %rax
	cmpq	$15, %rax
	ja	.LBB105_17
	jmp	.LBB105_32
	.p2align	4
.LBB105_15:
	xorl	%r13d, %r13d
	xorl	%r9d, %r9d
.LBB105_16:
	movq	%rdx, %rax
	subq	%r9, %rax
	cmpq	$15, %rax
	jbe	.LBB105_32
.LBB105_17:
	leaq	-8(%rdx), %rax
	cmpq	$183, %rax
	ja	.LBB105_20
	movq	%rdx, %rsi
	subq	%r9, %rsi
	cmpq	$8, %rsi
	jae	.LBB105_21
.LBB105_20:
	movq	%r8, %r12
	cmpq	%rdx, %r9
	jne	.LBB105_22
	jmp	.LBB105_88
	.p2align	4
.LBB105_21:
	leaq	(%rbx,%r9), %rdi
	leaq	(%r15,%r13), %rax
	movq	%r8, %r12
	movq	%r8, %rcx
	subq	%r13, %rcx
	movq	%rdx, 128(%rsp)
	movq	%rax, %rdx
	movq	%r9, 120(%rsp)
	callq	"utf16_to_utf8::vectors::write_vectors::<#8b18edd9dd9aa8df>"
	movq	120(%rsp), %r9
	movq	104(%rsp), %r10
	movq	%rdx, %rcx
	movq	128(%rsp), %rdx
	addq	%rax, %r9
	addq	%rcx, %r13
	cmpq	%rdx, %r9
	je	.LBB105_88
.LBB105_22:
	movq	%rbx, %rsi
	movq	%r10, %rbx
	movq	%r13, (%rsp)
	leaq	16(%rsp), %rdi
	movq	%r15, %rcx
	movq	%r12, %r8
	callq	"utf16_transcode::transcoding::transcode_many::<#b8dc3d53e12e85b3>"
	addq	16(%rsp), %r14
	movzbl	32(%rsp), %eax
	addq	24(%rsp), %rbp
	cmpb	$1, %al
	jne	.LBB105_41
	movq	%rbx, %r10
	addq	%rbp, %rbx
	movq	88(%rsp), %r15
	subq	%rbp, %r15
	cmpq	$512, %r15
	jb	.LBB105_28
	leaq	(%rsp,%r14), %r12
	addq	$68, %r12
	movq	48(%rsp), %r13
	subq	%r14, %r13
	cmpq	$128, %r13
	jb	.LBB105_26
	movq	%r12, %rdi
	movq	%r13, %rsi
	movq	%rbx, %rdx
	movq	%r15, %rcx
	callq	"utf16_transcode::ascii::write_lossy_ascii_blocks::<#8b18edd9dd9aa8df>"
	cmpq	$127, %rax
	ja	.LBB105_27
.LBB105_26:
	movq	%r12, %rdi
	movq	%r13, %rsi
	movq	%rbx, %rdx
	movq	%r15, %rcx
	callq	"utf16_transcode::decode_lossy::write_copied::<#8b18edd9dd9aa8df>"
.LBB105_27:
	movq	104(%rsp), %r10
	jmp	.LBB105_6
	.p2align	4
.LBB105_28:
	cmpq	$3, %r15
	jb	.LBB105_171
	movzbl	33(%rsp), %eax
	leaq	.Lstatic.9(%rip), %rcx
	movq	%rbx, %rdx
	subq	%rcx, %rdx
	cmpq	$2, %rdx
	ja	.LBB105_4
	movw	$-16401, (%rbx)
	movb	$-67, 2(%rbx)
	jmp	.LBB105_5
.LBB105_31:
	negq	%r9
	movq	%rdx, %rax
	subq	%r9, %rax
	cmpq	$15, %rax
	ja	.LBB105_17
	.p2align	4
.LBB105_32:
	cmpq	$2, %rax
	jb	.LBB105_17
	movq	%r8, %rcx
	subq	%r13, %rcx
	movq	%rax, %rsi
	shrq	%rsi
	leaq	(%rsi,%rsi,2), %rsi
	cmpq	%rsi, %rcx
	jae	.LBB105_36
	jmp	.LBB105_17
	.p2align	4
.LBB105_34:
	movb	%cl, (%r15,%r13)
	incq	%r13
.LBB105_35:
	addq	$2, %r9
	addq	$-2, %rax
	cmpq	$1, %rax
	jbe	.LBB105_17
.LBB105_36:
	movzwl	(%rbx,%r9), %ecx
	rolw	$8, %cx
	cmpw	$127, %cx
	jbe	.LBB105_34
	movzwl	%cx, %esi
	cmpl	$2047, %esi
	ja	.LBB105_39
	shrl	$6, %esi
	andl	$63, %ecx
	shll	$8, %ecx
	orl	%esi, %ecx
	orl	$32960, %ecx
	movw	%cx, (%r15,%r13)
	addq	$2, %r13
	jmp	.LBB105_35
	.p2align	4
.LBB105_39:
	movl	%ecx, %edi
	andl	$63488, %edi
	cmpl	$55296, %edi
	je	.LBB105_17
	movl	%ecx, %edi
	andb	$63, %dil
	orb	$-128, %dil
	shrl	$6, %ecx
	andb	$63, %cl
	orb	$-128, %cl
	shrl	$12, %esi
	orb	$-32, %sil
	movb	%sil, (%r15,%r13)
	movb	%cl, 1(%r15,%r13)
	movb	%dil, 2(%r15,%r13)
	addq	$3, %r13
	jmp	.LBB105_35
.LBB105_41:
	movq	72(%rsp), %rdi
	addq	%r14, %rdi
	movq	80(%rsp), %r15
	addq	%rbp, %r15
	testq	%r14, %r14
	je	.LBB105_192
	cmpb	$3, %al
	movq	56(%rsp), %r12
	je	.LBB105_172
	cmpq	%r12, %rdi
	movq	160(%rsp), %rbx
	jb	.LBB105_3
	jmp	.LBB105_91
.LBB105_44:
	movl	$0, 100(%rsp)
	movl	(%rsi), %eax
	movl	%eax, 44(%rsp)
	shrl	$24, %eax
	cmpb	$3, %al
	movl	$3, %ecx
	cmovbl	%eax, %ecx
	movq	%rcx, 72(%rsp)
	testl	%eax, %eax
	je	.LBB105_128
	xorl	%edi, %edi
	xorl	%r15d, %r15d
	movq	%rbx, 160(%rsp)
.LBB105_46:
	leaq	(%rsp,%rdi), %rsi
	addq	$44, %rsi
	movq	72(%rsp), %r12
	movq	%rdi, 56(%rsp)
	subq	%rdi, %r12
	movl	$4, %r14d
	subq	%r12, %r14
	movq	136(%rsp), %rax
	cmpq	%rax, %r14
	cmovaeq	%rax, %r14
	movl	$0, 16(%rsp)
	leaq	16(%rsp), %rdi
	movq	%r12, %rdx
	callq	memcpy@PLT
	leaq	(%rsp,%r12), %rdi
	addq	$16, %rdi
	movq	144(%rsp), %rax
	leaq	(%rax,%rbx), %rsi
	movq	%r14, %rdx
	callq	memcpy@PLT
	movq	%r14, 168(%rsp)
	addq	%r14, %r12
	movq	%r12, 120(%rsp)
	movl	16(%rsp), %eax
	movl	%eax, 68(%rsp)
	movq	112(%rsp), %rax
	addq	%r15, %rax
	movq	%rax, 88(%rsp)
	movq	256(%rsp), %rax
	movq	%r15, 80(%rsp)
	subq	%r15, %rax
	movq	%rax, 48(%rsp)
	xorl	%r15d, %r15d
	xorl	%r12d, %r12d
	jmp	.LBB105_49
	.p2align	4
.LBB105_47:
	movq	%rbp, %rdi
	movq	%r13, %rsi
	movq	%rbx, %rdx
	movq	%r14, %rcx
	callq	"utf16_transcode::decode_lossy::write_copied::<#418c2b53cf60437c>"
.LBB105_48:
	addq	%rax, %r12
	addq	%rdx, %r15
.LBB105_49:
	leaq	(%rsp,%r12), %r9
	addq	$68, %r9
	movq	120(%rsp), %r14
	subq	%r12, %r14
	movq	88(%rsp), %rax
	leaq	(%rax,%r15), %r10
	movq	48(%rsp), %r11
	subq	%r15, %r11
	pxor	%xmm0, %xmm0
	movdqa	%xmm0, 16(%rsp)
	movq	$0, 32(%rsp)
	leaq	-16(%r14), %rax
	cmpq	$175, %rax
	ja	.LBB105_57
	movq	%r14, %rax
	shrq	%rax
	cmpq	%rax, %r11
	cmovbq	%r11, %rax
	cmpq	$8, %rax
	jb	.LBB105_57
	leaq	(%rax,%rax), %rcx
	xorl	%ebp, %ebp
	xorl	%r13d, %r13d
	.p2align	4
.LBB105_52:
	movdqu	(%r9,%r13,2), %xmm0
	movdqa	.LCPI105_0(%rip), %xmm1
	pmaxuw	%xmm0, %xmm1
	pcmpeqw	%xmm0, %xmm1
	pmovmskb	%xmm1, %edx
	testl	%edx, %edx
	jne	.LBB105_72
	packuswb	%xmm0, %xmm0
	movq	%xmm0, (%r10,%r13)
	addq	$8, %r13
	leaq	(%rcx,%rbp), %rdx
	addq	$-16, %rdx
	addq	$-16, %rbp
	cmpq	$15, %rdx
	ja	.LBB105_52
	negq	%rbp
	cmpq	%rbp, %rcx
	jbe	.LBB105_58
	movdqu	-16(%r9,%rcx), %xmm0
	movdqa	.LCPI105_0(%rip), %xmm1
	pmaxuw	%xmm0, %xmm1
	pcmpeqw	%xmm0, %xmm1
	pmovmskb	%xmm1, %edx
	testl	%edx, %edx
	jne	.LBB105_58
	packuswb	%xmm0, %xmm0
	movq	%xmm0, -8(%r10,%rax)
	movq	%rax, %r13
	movq	%rcx, %rbp
	movq	%r14, %rax
	subq	%rbp, %rax
	cmpq	$15, %rax
	ja	.LBB105_59
	jmp	.LBB105_73
	.p2align	4
.LBB105_57:
	xorl	%r13d, %r13d
	xorl	%ebp, %ebp
.LBB105_58:
	movq	%r14, %rax
	subq	%rbp, %rax
	cmpq	$15, %rax
	jbe	.LBB105_73
.LBB105_59:
	leaq	-8(%r14), %rax
	cmpq	$183, %rax
	movq	%r12, 128(%rsp)
	movq	%r15, 104(%rsp)
	ja	.LBB105_61
	movq	%r14, %rsi
	subq	%rbp, %rsi
	cmpq	$8, %rsi
	jae	.LBB105_62
.LBB105_61:
	movq	%r11, %r15
	movq	%r10, %r12
	movq	%r9, %rbx
	cmpq	%r14, %rbp
	jne	.LBB105_63
	jmp	.LBB105_86
	.p2align	4
.LBB105_62:
	movq	%r9, %rbx
	leaq	(%r9,%rbp), %rdi
	movq	%r10, %r12
	leaq	(%r10,%r13), %rdx
	movq	%r11, %r15
	movq	%r11, %rcx
	subq	%r13, %rcx
	callq	"utf16_to_utf8::vectors::write_vectors::<#418c2b53cf60437c>"
	addq	%rax, %rbp
	addq	%rdx, %r13
	cmpq	%r14, %rbp
	je	.LBB105_86
.LBB105_63:
	movq	%r13, (%rsp)
	leaq	16(%rsp), %rdi
	movq	%rbx, %rsi
	movq	%r14, %rdx
	movq	%r12, %rcx
	movq	%r15, %r8
	movq	%rbp, %r9
	callq	"utf16_transcode::transcoding::transcode_many::<#556930da7d070edc>"
	movq	128(%rsp), %r12
	addq	16(%rsp), %r12
	movzbl	32(%rsp), %eax
	movq	104(%rsp), %r15
	addq	24(%rsp), %r15
	cmpb	$1, %al
	jne	.LBB105_83
	movq	88(%rsp), %rax
	leaq	(%rax,%r15), %rbx
	movq	48(%rsp), %r14
	subq	%r15, %r14
	cmpq	$512, %r14
	jb	.LBB105_67
	leaq	(%rsp,%r12), %rbp
	addq	$68, %rbp
	movq	120(%rsp), %r13
	subq	%r12, %r13
	cmpq	$128, %r13
	jb	.LBB105_47
	movq	%rbp, %rdi
	movq	%r13, %rsi
	movq	%rbx, %rdx
	movq	%r14, %rcx
	callq	"utf16_transcode::ascii::write_lossy_ascii_blocks::<#418c2b53cf60437c>"
	cmpq	$127, %rax
	jbe	.LBB105_47
	jmp	.LBB105_48
	.p2align	4
.LBB105_67:
	cmpq	$3, %r14
	jb	.LBB105_173
	movzbl	33(%rsp), %eax
	leaq	.Lstatic.9(%rip), %rcx
	movq	%rbx, %rdx
	subq	%rcx, %rdx
	cmpq	$2, %rdx
	ja	.LBB105_70
	movw	$-16401, (%rbx)
	movb	$-67, 2(%rbx)
	jmp	.LBB105_71
	.p2align	4
.LBB105_70:
	movb	$-67, 2(%rbx)
	movw	$-16401, (%rbx)
.LBB105_71:
	movl	$3, %edx
	jmp	.LBB105_48
.LBB105_72:
	negq	%rbp
	movq	%r14, %rax
	subq	%rbp, %rax
	cmpq	$15, %rax
	ja	.LBB105_59
	.p2align	4
.LBB105_73:
	cmpq	$2, %rax
	jb	.LBB105_59
	movq	%r11, %rcx
	subq	%r13, %rcx
	movq	%rax, %rdx
	shrq	%rdx
	leaq	(%rdx,%rdx,2), %rdx
	cmpq	%rdx, %rcx
	jb	.LBB105_59
	leaq	69(%rsp), %rcx
	addq	%r12, %rcx
	jmp	.LBB105_78
	.p2align	4
.LBB105_76:
	movb	%dl, (%r10,%r13)
	incq	%r13
.LBB105_77:
	addq	$2, %rbp
	addq	$-2, %rax
	cmpq	$1, %rax
	jbe	.LBB105_59
.LBB105_78:
	movzbl	-1(%rcx,%rbp), %edx
	movzbl	(%rcx,%rbp), %edi
	movl	%edi, %esi
	shll	$8, %esi
	orl	%edx, %esi
	cmpw	$127, %si
	jbe	.LBB105_76
	cmpb	$7, %dil
	ja	.LBB105_81
	movzwl	%dx, %edx
	andl	$63, %edx
	shll	$8, %edx
	movzwl	%si, %esi
	shrl	$6, %esi
	orl	%edx, %esi
	orl	$32960, %esi
	movw	%si, (%r10,%r13)
	addq	$2, %r13
	jmp	.LBB105_77
	.p2align	4
.LBB105_81:
	movzwl	%di, %r8d
	andl	$-8, %r8d
	cmpl	$216, %r8d
	je	.LBB105_59
	andb	$63, %dl
	orb	$-128, %dl
	shrl	$6, %esi
	andb	$63, %sil
	orb	$-128, %sil
	shrb	$4, %dil
	orb	$-32, %dil
	movb	%dil, (%r10,%r13)
	movb	%sil, 1(%r10,%r13)
	movb	%dl, 2(%r10,%r13)
	addq	$3, %r13
	jmp	.LBB105_77
.LBB105_83:
	movq	56(%rsp), %rdi
	addq	%r12, %rdi
	movq	80(%rsp), %rcx
	addq	%r15, %rcx
	movq	%rcx, %r15
	testq	%r12, %r12
	movq	160(%rsp), %rbx
	je	.LBB105_180
	cmpb	$3, %al
	je	.LBB105_174
	cmpq	72(%rsp), %rdi
	jb	.LBB105_46
	jmp	.LBB105_129
.LBB105_86:
	movq	72(%rsp), %rcx
	movq	168(%rsp), %r14
	addq	%rcx, %r14
	movq	80(%rsp), %rax
	addq	104(%rsp), %rax
	movq	%rax, %r15
	addq	%r13, %r15
	cmpq	$0, 120(%rsp)
	je	.LBB105_175
	movq	%r14, %rdi
	movq	160(%rsp), %rbx
	jmp	.LBB105_129
.LBB105_88:
	movq	56(%rsp), %r12
	movq	168(%rsp), %r14
	addq	%r12, %r14
	movq	80(%rsp), %r15
	addq	%rbp, %r15
	addq	%r13, %r15
	cmpq	$0, 48(%rsp)
	je	.LBB105_176
	movq	%r14, %rdi
	movq	160(%rsp), %rbx
	jmp	.LBB105_91
.LBB105_90:
	xorl	%r15d, %r15d
	xorl	%edi, %edi
.LBB105_91:
	movq	%rdi, %rax
	subq	%r12, %rax
	movq	144(%rsp), %rdx
	leaq	(%rdx,%rbx), %rcx
	addq	%rax, %rcx
	movq	%rcx, 88(%rsp)
	movq	136(%rsp), %rcx
	subq	%rax, %rcx
	addq	%r15, 112(%rsp)
	movq	%r15, 80(%rsp)
	subq	%r15, 152(%rsp)
	movq	%rdi, 72(%rsp)
	addq	%rdi, %rbx
	subq	%r12, %rbx
	addq	%rbx, %rdx
	movq	%rdx, 144(%rsp)
	xorl	%r13d, %r13d
	xorl	%r15d, %r15d
	movq	%rcx, 48(%rsp)
	jmp	.LBB105_94
	.p2align	4
.LBB105_92:
	movq	%rbp, %rdi
	movq	%r12, %rsi
	movq	%rbx, %rdx
	movq	%r14, %rcx
	callq	"utf16_transcode::decode_lossy::write_copied::<#8b18edd9dd9aa8df>"
.LBB105_93:
	movq	48(%rsp), %rcx
	addq	%rax, %r15
	addq	%rdx, %r13
.LBB105_94:
	movq	88(%rsp), %rax
	leaq	(%rax,%r15), %r10
	movq	%rcx, %rdx
	subq	%r15, %rdx
	movq	112(%rsp), %rax
	leaq	(%rax,%r13), %rbp
	movq	152(%rsp), %r11
	subq	%r13, %r11
	pxor	%xmm0, %xmm0
	movdqa	%xmm0, 16(%rsp)
	movq	$0, 32(%rsp)
	leaq	-16(%rdx), %rax
	cmpq	$175, %rax
	ja	.LBB105_102
	movq	%rdx, %rax
	shrq	%rax
	cmpq	%rax, %r11
	cmovbq	%r11, %rax
	cmpq	$8, %rax
	jb	.LBB105_102
	leaq	(%rax,%rax), %rcx
	xorl	%r9d, %r9d
	xorl	%ebx, %ebx
	.p2align	4
.LBB105_97:
	movdqu	(%r10,%rbx,2), %xmm0
	pshufb	.LCPI105_1(%rip), %xmm0
	movdqa	.LCPI105_0(%rip), %xmm1
	pmaxuw	%xmm0, %xmm1
	pcmpeqw	%xmm0, %xmm1
	pmovmskb	%xmm1, %esi
	testl	%esi, %esi
	jne	.LBB105_117
	packuswb	%xmm0, %xmm0
	movq	%xmm0, (%rbp,%rbx)
	addq	$8, %rbx
	leaq	(%rcx,%r9), %rsi
	addq	$-16, %rsi
	addq	$-16, %r9
	cmpq	$15, %rsi
	ja	.LBB105_97
	negq	%r9
	cmpq	%r9, %rcx
	jbe	.LBB105_103
	movdqu	-16(%r10,%rcx), %xmm0
	pshufb	.LCPI105_1(%rip), %xmm0
	movdqa	.LCPI105_0(%rip), %xmm1
	pmaxuw	%xmm0, %xmm1
	pcmpeqw	%xmm0, %xmm1
	pmovmskb	%xmm1, %esi
	testl	%esi, %esi
	jne	.LBB105_103
	packuswb	%xmm0, %xmm0
	movq	%xmm0, -8(%rbp,%rax)
	movq	%rax, %rbx
	movq	%rcx, %r9
	movq	%rdx, %rax
	subq	%r9, %rax
	cmpq	$15, %rax
	ja	.LBB105_104
	jmp	.LBB105_118
	.p2align	4
.LBB105_102:
	xorl	%ebx, %ebx
	xorl	%r9d, %r9d
.LBB105_103:
	movq	%rdx, %rax
	subq	%r9, %rax
	cmpq	$15, %rax
	jbe	.LBB105_118
.LBB105_104:
	leaq	-8(%rdx), %rax
	cmpq	$183, %rax
	ja	.LBB105_106
	movq	%rdx, %rsi
	subq	%r9, %rsi
	cmpq	$8, %rsi
	jae	.LBB105_107
.LBB105_106:
	movq	%r11, %r14
	movq	%r10, %r12
	cmpq	%rdx, %r9
	jne	.LBB105_108
	jmp	.LBB105_168
	.p2align	4
.LBB105_107:
	movq	%r10, %r12
	leaq	(%r10,%r9), %rdi
	leaq	(%rbx,%rbp), %rax
	movq	%r11, %r14
	movq	%r11, %rcx
	subq	%rbx, %rcx
	movq	%rdx, 104(%rsp)
	movq	%rax, %rdx
	movq	%r9, 128(%rsp)
	callq	"utf16_to_utf8::vectors::write_vectors::<#8b18edd9dd9aa8df>"
	movq	128(%rsp), %r9
	movq	%rdx, %rcx
	movq	104(%rsp), %rdx
	addq	%rax, %r9
	addq	%rcx, %rbx
	cmpq	%rdx, %r9
	je	.LBB105_168
.LBB105_108:
	movq	%rbx, (%rsp)
	leaq	16(%rsp), %rdi
	movq	%r12, %rsi
	movq	%rbp, %rcx
	movq	%r14, %r8
	callq	"utf16_transcode::transcoding::transcode_many::<#b8dc3d53e12e85b3>"
	addq	16(%rsp), %r15
	movzbl	32(%rsp), %eax
	addq	24(%rsp), %r13
	cmpb	$1, %al
	jne	.LBB105_185
	movq	112(%rsp), %rax
	leaq	(%rax,%r13), %rbx
	movq	152(%rsp), %r14
	subq	%r13, %r14
	cmpq	$512, %r14
	jb	.LBB105_112
	movq	88(%rsp), %rax
	leaq	(%rax,%r15), %rbp
	movq	48(%rsp), %r12
	subq	%r15, %r12
	cmpq	$128, %r12
	jb	.LBB105_92
	movq	%rbp, %rdi
	movq	%r12, %rsi
	movq	%rbx, %rdx
	movq	%r14, %rcx
	callq	"utf16_transcode::ascii::write_lossy_ascii_blocks::<#8b18edd9dd9aa8df>"
	cmpq	$127, %rax
	jbe	.LBB105_92
	jmp	.LBB105_93
	.p2align	4
.LBB105_112:
	cmpq	$3, %r14
	jb	.LBB105_184
	movzbl	33(%rsp), %eax
	leaq	.Lstatic.9(%rip), %rcx
	movq	%rbx, %rdx
	subq	%rcx, %rdx
	cmpq	$2, %rdx
	ja	.LBB105_115
	movw	$-16401, (%rbx)
	movb	$-67, 2(%rbx)
	jmp	.LBB105_116
	.p2align	4
.LBB105_115:
	movb	$-67, 2(%rbx)
	movw	$-16401, (%rbx)
.LBB105_116:
	movl	$3, %edx
	jmp	.LBB105_93
.LBB105_117:
	negq	%r9
	movq	%rdx, %rax
	subq	%r9, %rax
	cmpq	$15, %rax
	ja	.LBB105_104
	.p2align	4
.LBB105_118:
	cmpq	$2, %rax
	jb	.LBB105_104
	movq	%r11, %rcx
	subq	%rbx, %rcx
	movq	%rax, %rsi
	shrq	%rsi
	leaq	(%rsi,%rsi,2), %rsi
	cmpq	%rsi, %rcx
	jb	.LBB105_104
	leaq	(%r9,%r15), %rcx
	addq	144(%rsp), %rcx
	jmp	.LBB105_123
	.p2align	4
.LBB105_121:
	movb	%sil, (%rbp,%rbx)
	incq	%rbx
.LBB105_122:
	addq	$2, %r9
	addq	$-2, %rax
	addq	$2, %rcx
	cmpq	$1, %rax
	jbe	.LBB105_104
.LBB105_123:
	movzwl	(%rcx), %esi
	rolw	$8, %si
	cmpw	$127, %si
	jbe	.LBB105_121
	movzwl	%si, %edi
	cmpl	$2047, %edi
	ja	.LBB105_126
	shrl	$6, %edi
	andl	$63, %esi
	shll	$8, %esi
	orl	%edi, %esi
	orl	$32960, %esi
	movw	%si, (%rbp,%rbx)
	addq	$2, %rbx
	jmp	.LBB105_122
	.p2align	4
.LBB105_126:
	movl	%esi, %r8d
	andl	$63488, %r8d
	cmpl	$55296, %r8d
	je	.LBB105_104
	movl	%esi, %r8d
	andb	$63, %r8b
	orb	$-128, %r8b
	shrl	$6, %esi
	andb	$63, %sil
	orb	$-128, %sil
	shrl	$12, %edi
	orb	$-32, %dil
	movb	%dil, (%rbp,%rbx)
	movb	%sil, 1(%rbp,%rbx)
	movb	%r8b, 2(%rbp,%rbx)
	addq	$3, %rbx
	jmp	.LBB105_122
.LBB105_128:
	xorl	%r15d, %r15d
	xorl	%edi, %edi
.LBB105_129:
	movq	%rdi, %rax
	movq	72(%rsp), %rsi
	subq	%rsi, %rax
	movq	144(%rsp), %rdx
	leaq	(%rdx,%rbx), %rcx
	addq	%rax, %rcx
	movq	%rcx, 88(%rsp)
	movq	136(%rsp), %rcx
	subq	%rax, %rcx
	addq	%r15, 112(%rsp)
	movq	%r15, 80(%rsp)
	subq	%r15, 152(%rsp)
	movq	%rdi, 56(%rsp)
	addq	%rdi, %rbx
	subq	%rsi, %rbx
	leaq	(%rbx,%rdx), %rax
	incq	%rax
	movq	%rax, 120(%rsp)
	xorl	%r15d, %r15d
	xorl	%ebp, %ebp
	movq	%rcx, 48(%rsp)
	jmp	.LBB105_132
	.p2align	4
.LBB105_130:
	movq	%r13, %rdi
	movq	%r12, %rsi
	movq	%rbx, %rdx
	movq	%r14, %rcx
	callq	"utf16_transcode::decode_lossy::write_copied::<#418c2b53cf60437c>"
.LBB105_131:
	movq	48(%rsp), %rcx
	addq	%rax, %rbp
	addq	%rdx, %r15
.LBB105_132:
	movq	88(%rsp), %rax
	leaq	(%rax,%rbp), %r11
	movq	%rcx, %rdx
	subq	%rbp, %rdx
	movq	112(%rsp), %rax
	leaq	(%rax,%r15), %r13
	movq	152(%rsp), %r14
	subq	%r15, %r14
	pxor	%xmm0, %xmm0
	movdqa	%xmm0, 16(%rsp)
	movq	$0, 32(%rsp)
	leaq	-16(%rdx), %rax
	cmpq	$175, %rax
	ja	.LBB105_140
	movq	%rdx, %rax
	shrq	%rax
	cmpq	%rax, %r14
	cmovbq	%r14, %rax
	cmpq	$8, %rax
	jb	.LBB105_140
	leaq	(%rax,%rax), %rcx
	xorl	%r9d, %r9d
	xorl	%r12d, %r12d
	.p2align	4
.LBB105_135:
	movdqu	(%r11,%r12,2), %xmm0
	movdqa	.LCPI105_0(%rip), %xmm1
	pmaxuw	%xmm0, %xmm1
	pcmpeqw	%xmm0, %xmm1
	pmovmskb	%xmm1, %esi
	testl	%esi, %esi
	jne	.LBB105_156
	packuswb	%xmm0, %xmm0
	movq	%xmm0, (%r13,%r12)
	addq	$8, %r12
	leaq	(%rcx,%r9), %rsi
	addq	$-16, %rsi
	addq	$-16, %r9
	cmpq	$15, %rsi
	ja	.LBB105_135
	negq	%r9
	cmpq	%r9, %rcx
	jbe	.LBB105_141
	movdqu	-16(%r11,%rcx), %xmm0
	movdqa	.LCPI105_0(%rip), %xmm1
	pmaxuw	%xmm0, %xmm1
	pcmpeqw	%xmm0, %xmm1
	pmovmskb	%xmm1, %esi
	testl	%esi, %esi
	jne	.LBB105_141
	packuswb	%xmm0, %xmm0
	movq	%xmm0, -8(%r13,%rax)
	movq	%rax, %r12
	movq	%rcx, %r9
	movq	%rdx, %rax
	subq	%r9, %rax
	cmpq	$15, %rax
	ja	.LBB105_142
	jmp	.LBB105_157
	.p2align	4
.LBB105_140:
	xorl	%r12d, %r12d
	xorl	%r9d, %r9d
.LBB105_141:
	movq	%rdx, %rax
	subq	%r9, %rax
	cmpq	$15, %rax
	jbe	.LBB105_157
.LBB105_142:
	leaq	-8(%rdx), %rax
	cmpq	$183, %rax
	ja	.LBB105_145
	movq	%rdx, %rsi
	subq	%r9, %rsi
	cmpq	$8, %rsi
	jae	.LBB105_146
.LBB105_145:
	movq	%r11, %rbx
	cmpq	%rdx, %r9
	jne	.LBB105_147
	jmp	.LBB105_167
	.p2align	4
.LBB105_146:
	movq	%r11, %rbx
	leaq	(%r11,%r9), %rdi
	leaq	(%r12,%r13), %rax
	movq	%r14, %rcx
	subq	%r12, %rcx
	movq	%rdx, 104(%rsp)
	movq	%rax, %rdx
	movq	%r9, 128(%rsp)
	callq	"utf16_to_utf8::vectors::write_vectors::<#418c2b53cf60437c>"
	movq	128(%rsp), %r9
	movq	%rdx, %rcx
	movq	104(%rsp), %rdx
	addq	%rax, %r9
	addq	%rcx, %r12
	cmpq	%rdx, %r9
	je	.LBB105_167
.LBB105_147:
	movq	%r12, (%rsp)
	leaq	16(%rsp), %rdi
	movq	%rbx, %rsi
	movq	%r13, %rcx
	movq	%r14, %r8
	callq	"utf16_transcode::transcoding::transcode_many::<#556930da7d070edc>"
	addq	16(%rsp), %rbp
	movzbl	32(%rsp), %eax
	addq	24(%rsp), %r15
	cmpb	$1, %al
	jne	.LBB105_178
	movq	112(%rsp), %rax
	leaq	(%rax,%r15), %rbx
	movq	152(%rsp), %r14
	subq	%r15, %r14
	cmpq	$512, %r14
	jb	.LBB105_151
	movq	88(%rsp), %rax
	leaq	(%rax,%rbp), %r13
	movq	48(%rsp), %r12
	subq	%rbp, %r12
	cmpq	$128, %r12
	jb	.LBB105_130
	movq	%r13, %rdi
	movq	%r12, %rsi
	movq	%rbx, %rdx
	movq	%r14, %rcx
	callq	"utf16_transcode::ascii::write_lossy_ascii_blocks::<#418c2b53cf60437c>"
	cmpq	$127, %rax
	jbe	.LBB105_130
	jmp	.LBB105_131
	.p2align	4
.LBB105_151:
	cmpq	$3, %r14
	jb	.LBB105_177
	movzbl	33(%rsp), %eax
	leaq	.Lstatic.9(%rip), %rcx
	movq	%rbx, %rdx
	subq	%rcx, %rdx
	cmpq	$2, %rdx
	ja	.LBB105_154
	movw	$-16401, (%rbx)
	movb	$-67, 2(%rbx)
	jmp	.LBB105_155
	.p2align	4
.LBB105_154:
	movb	$-67, 2(%rbx)
	movw	$-16401, (%rbx)
.LBB105_155:
	movl	$3, %edx
	jmp	.LBB105_131
.LBB105_156:
	negq	%r9
	movq	%rdx, %rax
	subq	%r9, %rax
	cmpq	$15, %rax
	ja	.LBB105_142
	.p2align	4
.LBB105_157:
	cmpq	$2, %rax
	jb	.LBB105_142
	movq	%r14, %rcx
	subq	%r12, %rcx
	movq	%rax, %rsi
	shrq	%rsi
	leaq	(%rsi,%rsi,2), %rsi
	cmpq	%rsi, %rcx
	jb	.LBB105_142
	leaq	(%r9,%rbp), %rcx
	addq	120(%rsp), %rcx
	jmp	.LBB105_162
	.p2align	4
.LBB105_160:
	movb	%sil, (%r13,%r12)
	incq	%r12
.LBB105_161:
	addq	$2, %r9
	addq	$-2, %rax
	addq	$2, %rcx
	cmpq	$1, %rax
	jbe	.LBB105_142
.LBB105_162:
	movzbl	-1(%rcx), %esi
	movzbl	(%rcx), %r8d
	movl	%r8d, %edi
	shll	$8, %edi
	orl	%esi, %edi
	cmpw	$127, %di
	jbe	.LBB105_160
	cmpb	$7, %r8b
	ja	.LBB105_165
	movzwl	%si, %esi
	andl	$63, %esi
	shll	$8, %esi
	movzwl	%di, %edi
	shrl	$6, %edi
	orl	%esi, %edi
	orl	$32960, %edi
	movw	%di, (%r13,%r12)
	addq	$2, %r12
	jmp	.LBB105_161
	.p2align	4
.LBB105_165:
	movzwl	%r8w, %r10d
	andl	$-8, %r10d
	cmpl	$216, %r10d
	je	.LBB105_142
	andb	$63, %sil
	orb	$-128, %sil
	shrl	$6, %edi
	andb	$63, %dil
	orb	$-128, %dil
	shrb	$4, %r8b
	orb	$-32, %r8b
	movb	%r8b, (%r13,%r12)
	movb	%dil, 1(%r13,%r12)
	movb	%sil, 2(%r13,%r12)
	addq	$3, %r12
	jmp	.LBB105_161
.LBB105_167:
	addq	%r12, %r15
	xorl	%eax, %eax
	movq	56(%rsp), %rdi
	movq	48(%rsp), %rbp
	jmp	.LBB105_179
.LBB105_168:
	addq	%rbx, %r13
	xorl	%eax, %eax
	movq	56(%rsp), %rdx
	movq	48(%rsp), %r15
	jmp	.LBB105_186
.LBB105_171:
	movq	72(%rsp), %rdi
	addq	%r14, %rdi
	movq	80(%rsp), %r15
	addq	%rbp, %r15
	movq	56(%rsp), %r12
.LBB105_172:
	cmpq	%rdi, %r12
	movq	%rdi, %rax
	cmovbq	%r12, %rax
	leaq	(%rsp,%rax), %rsi
	addq	$44, %rsi
	movq	%r12, %rbx
	subq	%rax, %rbx
	xorl	%r14d, %r14d
	subq	%r12, %rdi
	cmovaeq	%rdi, %r14
	jmp	.LBB105_188
.LBB105_173:
	movq	56(%rsp), %rdi
	addq	%r12, %rdi
	movq	80(%rsp), %rax
	addq	%r15, %rax
	movq	%rax, %r15
.LBB105_174:
	movq	72(%rsp), %rcx
	cmpq	%rdi, %rcx
	movq	%rdi, %rax
	cmovbq	%rcx, %rax
	leaq	(%rsp,%rax), %rsi
	addq	$44, %rsi
	movq	%rcx, %rbx
	subq	%rax, %rbx
	xorl	%r14d, %r14d
	subq	%rcx, %rdi
	cmovaeq	%rdi, %r14
	jmp	.LBB105_181
.LBB105_175:
	leaq	(%rsp,%rcx), %rsi
	addq	$44, %rsi
	xorl	%ebx, %ebx
	subq	%rcx, %r14
	cmovbq	%rbx, %r14
	jmp	.LBB105_182
.LBB105_176:
	leaq	(%rsp,%r12), %rsi
	addq	$44, %rsi
	xorl	%ebx, %ebx
	subq	%r12, %r14
	cmovbq	%rbx, %r14
	jmp	.LBB105_189
.LBB105_177:
	movb	$3, %al
.LBB105_178:
	movq	56(%rsp), %rdi
.LBB105_179:
	addq	%rbp, %rdi
	movq	80(%rsp), %rcx
	addq	%r15, %rcx
	movq	%rcx, %r15
.LBB105_180:
	movq	72(%rsp), %rdx
	cmpq	%rdi, %rdx
	movq	%rdi, %rcx
	cmovbq	%rdx, %rcx
	leaq	(%rsp,%rcx), %rsi
	addq	$44, %rsi
	movq	%rdx, %rbx
	subq	%rcx, %rbx
	xorl	%r14d, %r14d
	subq	%rdx, %rdi
	cmovaeq	%rdi, %r14
	cmpb	$3, %al
	jne	.LBB105_182
.LBB105_181:
	movb	$0, 18(%rsp)
	movw	$0, 16(%rsp)
	leaq	16(%rsp), %rdi
	movq	%rbx, %rdx
	callq	memcpy@PLT
	movzbl	18(%rsp), %eax
	shll	$16, %eax
	movzwl	16(%rsp), %ecx
	orl	%eax, %ecx
	shll	$24, %ebx
	orl	%ecx, %ebx
	movb	$3, %dl
	movq	%r14, %r12
	jmp	.LBB105_183
.LBB105_182:
	movq	136(%rsp), %r12
	movq	%r12, %rax
	subq	%r14, %rax
	movq	192(%rsp), %r13
	addq	%r14, %r13
	movl	$4, %r14d
	subq	%rbx, %r14
	cmpq	%rax, %r14
	cmovaeq	%rax, %r14
	movl	$0, 16(%rsp)
	leaq	16(%rsp), %rdi
	movq	%rbx, %rdx
	callq	memcpy@PLT
	leaq	(%rsp,%rbx), %rdi
	addq	$16, %rdi
	movq	%r13, %rsi
	movq	%r14, %rdx
	callq	memcpy@PLT
	addq	%rbx, %r14
	movl	16(%rsp), %eax
	movl	%eax, 100(%rsp)
	movb	$0, 18(%rsp)
	movw	$0, 16(%rsp)
	leaq	16(%rsp), %rdi
	leaq	100(%rsp), %rsi
	movq	%r14, %rdx
	callq	memcpy@PLT
	movzbl	18(%rsp), %eax
	shll	$16, %eax
	movzwl	16(%rsp), %ecx
	orl	%eax, %ecx
	shll	$24, %r14d
	orl	%ecx, %r14d
	xorl	%edx, %edx
	movl	%r14d, %ebx
.LBB105_183:
	movq	176(%rsp), %rax
	movl	%ebx, (%rax)
	jmp	.LBB105_190
.LBB105_184:
	movb	$3, %al
.LBB105_185:
	movq	56(%rsp), %rdx
.LBB105_186:
	movq	72(%rsp), %rdi
	addq	%r15, %rdi
	movq	80(%rsp), %r15
	addq	%r13, %r15
.LBB105_187:
	cmpq	%rdi, %rdx
	movq	%rdi, %rcx
	cmovbq	%rdx, %rcx
	leaq	(%rsp,%rcx), %rsi
	addq	$44, %rsi
	movq	%rdx, %rbx
	subq	%rcx, %rbx
	xorl	%r14d, %r14d
	subq	%rdx, %rdi
	cmovaeq	%rdi, %r14
	cmpb	$3, %al
	jne	.LBB105_189
.LBB105_188:
	movb	$0, 18(%rsp)
	movw	$0, 16(%rsp)
	leaq	16(%rsp), %rdi
	movq	%rbx, %rdx
	callq	memcpy@PLT
	movzbl	18(%rsp), %eax
	shll	$16, %eax
	movzwl	16(%rsp), %ecx
	orl	%eax, %ecx
	shll	$24, %ebx
	orl	%ecx, %ebx
	movb	$3, %dl
	movq	176(%rsp), %rax
	movl	%ebx, (%rax)
	jmp	.LBB105_191
.LBB105_189:
	movq	136(%rsp), %r12
	movq	%r12, %rax
	subq	%r14, %rax
	movq	192(%rsp), %r13
	addq	%r14, %r13
	movl	$4, %r14d
	subq	%rbx, %r14
	cmpq	%rax, %r14
	cmovaeq	%rax, %r14
	movl	$0, 16(%rsp)
	leaq	16(%rsp), %rdi
	movq	%rbx, %rdx
	callq	memcpy@PLT
	leaq	(%rsp,%rbx), %rdi
	addq	$16, %rdi
	movq	%r13, %rsi
	movq	%r14, %rdx
	callq	memcpy@PLT
	addq	%rbx, %r14
	movl	16(%rsp), %eax
	movl	%eax, 100(%rsp)
	movb	$0, 18(%rsp)
	movw	$0, 16(%rsp)
	leaq	16(%rsp), %rdi
	leaq	100(%rsp), %rsi
	movq	%r14, %rdx
	callq	memcpy@PLT
	movzbl	18(%rsp), %eax
	shll	$16, %eax
	movzwl	16(%rsp), %ecx
	orl	%eax, %ecx
	shll	$24, %r14d
	orl	%ecx, %r14d
	xorl	%edx, %edx
	movq	176(%rsp), %rax
	movl	%r14d, (%rax)
.LBB105_190:
	movq	%r12, %r14
.LBB105_191:
	movq	184(%rsp), %rax
	xorl	%ecx, %ecx
	testb	%dl, %dl
	setne	%cl
	leal	(%rcx,%rcx,2), %ecx
	movq	%r14, (%rax)
	movq	%r15, 8(%rax)
	movl	%ecx, 16(%rax)
	movl	$0, 20(%rax)
	addq	$200, %rsp
	.cfi_def_cfa_offset 56
	popq	%rbx
	.cfi_def_cfa_offset 48
	popq	%r12
	.cfi_def_cfa_offset 40
	popq	%r13
	.cfi_def_cfa_offset 32
	popq	%r14
	.cfi_def_cfa_offset 24
	popq	%r15
	.cfi_def_cfa_offset 16
	popq	%rbp
	.cfi_def_cfa_offset 8
	retq
.LBB105_192:
	.cfi_def_cfa_offset 256
	movq	56(%rsp), %rdx
	jmp	.LBB105_187
.Lfunc_end105:
	.size	dethrux_decoder_feed_v2, .Lfunc_end105-dethrux_decoder_feed_v2
	.cfi_endproc

	.section	.text.dethrux_decoder_finish,"ax",@progbits
	.globl	dethrux_decoder_finish_v2
	.hidden	dethrux_decoder_finish_v2
	.p2align	4
	.type	dethrux_decoder_finish_v2,@function
dethrux_decoder_finish_v2:
	.cfi_startproc
	movq	%rdi, %rax
	xorl	%edi, %edi
	testq	%rcx, %rcx
	sete	%r9b
	xorl	%edx, %edx
	cmpb	$0, 3(%rsi)
	je	.LBB106_1
	cmpq	$3, %r8
	jae	.LBB106_4
	movl	$3, %edx
	xorl	%ecx, %ecx
	jmp	.LBB106_9
.LBB106_1:
	xorl	%ecx, %ecx
	jmp	.LBB106_8
.LBB106_4:
	movb	%r9b, %dil
	shll	$12, %edi
	addq	%rdi, %rcx
	leaq	.Lstatic.9(%rip), %rdi
	movq	%rcx, %r8
	subq	%rdi, %r8
	cmpq	$2, %r8
	ja	.LBB106_6
	movw	$-16401, (%rcx)
	movb	$-67, 2(%rcx)
	jmp	.LBB106_7
.LBB106_6:
	movb	$-67, 2(%rcx)
	movw	$-16401, (%rcx)
.LBB106_7:
	movl	$3, %ecx
.LBB106_8:
	movl	$0, (%rsi)
.LBB106_9:
	movq	$0, (%rax)
	movq	%rcx, 8(%rax)
	movl	%edx, 16(%rax)
	movl	$0, 20(%rax)
	retq
.Lfunc_end106:
	.size	dethrux_decoder_finish_v2, .Lfunc_end106-dethrux_decoder_finish_v2
	.cfi_endproc

	.section	.text.dethrux_encoder_feed,"ax",@progbits
	.globl	dethrux_encoder_feed_v2
	.hidden	dethrux_encoder_feed_v2
	.p2align	4
	.type	dethrux_encoder_feed_v2,@function
dethrux_encoder_feed_v2:
	.cfi_startproc
	pushq	%rbp
	.cfi_def_cfa_offset 16
	pushq	%r15
	.cfi_def_cfa_offset 24
	pushq	%r14
	.cfi_def_cfa_offset 32
	pushq	%r13
	.cfi_def_cfa_offset 40
	pushq	%r12
	.cfi_def_cfa_offset 48
	pushq	%rbx
	.cfi_def_cfa_offset 56
	subq	$200, %rsp
	.cfi_def_cfa_offset 256
	.cfi_offset %rbx, -56
	.cfi_offset %r12, -48
	.cfi_offset %r13, -40
	.cfi_offset %r14, -32
	.cfi_offset %r15, -24
	.cfi_offset %rbp, -16
	movq	256(%rsp), %rbp
	xorl	%eax, %eax
	testq	%rcx, %rcx
	sete	%al
	shll	$12, %eax
	addq	%rcx, %rax
	movq	%rax, 136(%rsp)
	xorl	%r14d, %r14d
	testq	%r9, %r9
	sete	%r14b
	shll	$12, %r14d
	addq	%r9, %r14
	cmpl	$1, %edx
	movq	%r8, 112(%rsp)
	movq	%r14, 88(%rsp)
	movq	%rdi, 176(%rsp)
	movq	%rsi, 168(%rsp)
	jne	.LBB107_42
	movl	$0, 84(%rsp)
	movl	(%rsi), %eax
	movl	%eax, 48(%rsp)
	shrl	$24, %eax
	cmpb	$3, %al
	movl	$3, %edx
	cmovbl	%eax, %edx
	movl	$0, 52(%rsp)
	testl	%eax, %eax
	movq	%rdx, 56(%rsp)
	je	.LBB107_2
	xorl	%edi, %edi
	xorl	%eax, %eax
.LBB107_4:
	leaq	(%rsp,%rdi), %rsi
	addq	$48, %rsi
	movq	%rdx, %rbx
	movq	%rdi, 64(%rsp)
	subq	%rdi, %rbx
	movl	$4, %r12d
	subq	%rbx, %r12
	cmpq	%r8, %r12
	cmovaeq	%r8, %r12
	movl	$0, 16(%rsp)
	leaq	16(%rsp), %rdi
	movq	%rbx, %rdx
	movq	%rax, %r15
	callq	memcpy@PLT
	leaq	(%rsp,%rbx), %rdi
	addq	$16, %rdi
	movq	136(%rsp), %rsi
	movq	%r12, %rdx
	callq	memcpy@PLT
	addq	%rbx, %r12
	movl	16(%rsp), %eax
	movl	%eax, 52(%rsp)
	leaq	(%r14,%r15), %rax
	movq	%r12, %r14
	movq	%rax, %r12
	movq	%r15, 120(%rsp)
	subq	%r15, %rbp
	pxor	%xmm0, %xmm0
	movdqa	%xmm0, 16(%rsp)
	movq	$0, 32(%rsp)
	leaq	52(%rsp), %rbx
	movq	%rbx, %rdi
	movq	%r14, %rsi
	movq	%rax, %rdx
	movq	%rbp, %rcx
	callq	"utf16_transcode::encode::FromUtf8Direction::begin::<#8b18edd9dd9aa8df>"
	cmpq	%r14, %rax
	jne	.LBB107_6
	xorl	%r13d, %r13d
	xorl	%ebp, %ebp
.LBB107_23:
	addq	%r14, %rbp
	movq	64(%rsp), %rdi
	addq	%rbp, %rdi
	addq	120(%rsp), %r13
	addq	%rdx, %r13
	testq	%rbp, %rbp
	movq	%r13, %r12
	je	.LBB107_40
	movq	112(%rsp), %r8
	movq	256(%rsp), %rbp
	movq	88(%rsp), %r14
	movq	56(%rsp), %rdx
	jmp	.LBB107_27
	.p2align	4
.LBB107_6:
	movq	%rbp, %r15
	xorl	%ebp, %ebp
	movq	%r15, 160(%rsp)
	movq	%r12, 144(%rsp)
	movq	%r14, 152(%rsp)
	xorl	%r13d, %r13d
	jmp	.LBB107_7
	.p2align	4
.LBB107_19:
	movq	%r15, %r12
	movq	%rbp, %rbx
.LBB107_22:
	movq	184(%rsp), %rbp
	addq	%rbx, %rbp
	movq	128(%rsp), %r13
	leaq	(%r12,%r13), %rax
	addq	%r12, %r13
	addq	$2, %r13
	leaq	(%rsp,%rbp), %rbx
	addq	$52, %rbx
	movq	152(%rsp), %r14
	subq	%rbp, %r14
	movq	144(%rsp), %rcx
	leaq	(%rcx,%rax), %r12
	addq	$2, %r12
	movq	160(%rsp), %r15
	subq	%r13, %r15
	pxor	%xmm0, %xmm0
	movdqa	%xmm0, 16(%rsp)
	movq	$0, 32(%rsp)
	movq	%rbx, %rdi
	movq	%r14, %rsi
	movq	%r12, %rdx
	movq	%r15, %rcx
	callq	"utf16_transcode::encode::FromUtf8Direction::begin::<#8b18edd9dd9aa8df>"
	cmpq	%r14, %rax
	je	.LBB107_23
.LBB107_7:
	movq	%rdx, (%rsp)
	leaq	16(%rsp), %rdi
	movq	%rbx, %rsi
	movq	%r14, %rdx
	movq	%r12, %rcx
	movq	%r15, %r8
	movq	%rax, %r9
	callq	"utf16_transcode::transcoding::transcode_many::<#824f73f0383279b7>"
	addq	16(%rsp), %rbp
	movzbl	32(%rsp), %eax
	addq	24(%rsp), %r13
	cmpb	$1, %al
	movq	%r13, %r12
	jne	.LBB107_25
	movq	160(%rsp), %r13
	subq	%r12, %r13
	cmpq	$2, %r13
	jb	.LBB107_37
	movzbl	33(%rsp), %eax
	movq	144(%rsp), %rcx
	movw	$-513, (%rcx,%r12)
	addq	%rax, %rbp
	leaq	(%rsp,%rbp), %rdi
	addq	$52, %rdi
	movq	152(%rsp), %r14
	movq	%rbp, 184(%rsp)
	subq	%rbp, %r14
	movq	%r12, 128(%rsp)
	leaq	(%rcx,%r12), %rdx
	addq	$2, %rdx
	addq	$-2, %r13
	movq	%rdi, 104(%rsp)
	movq	%r14, %rsi
	movq	%rdx, 96(%rsp)
	movq	%r13, %rcx
	callq	"utf16_transcode::items::write_items::<#8b18edd9dd9aa8df>"
	movq	%rax, %rbx
	movq	%rdx, %r12
	movq	%r14, 72(%rsp)
	subq	%rax, %r14
	cmpq	$64, %r14
	jb	.LBB107_22
	movq	%r13, 192(%rsp)
	.p2align	4
.LBB107_11:
	subq	%r12, %r13
	cmpq	$128, %r13
	jb	.LBB107_22
	movq	104(%rsp), %rax
	leaq	(%rax,%rbx), %rdi
	movq	96(%rsp), %rcx
	leaq	(%rcx,%r12), %rdx
	movdqu	(%rax,%rbx), %xmm0
	pmovmskb	%xmm0, %eax
	testl	%eax, %eax
	je	.LBB107_14
	xorl	%ebp, %ebp
	jmp	.LBB107_15
	.p2align	4
.LBB107_14:
	movq	%r13, %rsi
	shrq	%rsi
	cmpq	%r14, %rsi
	cmovaeq	%r14, %rsi
	movq	%rdi, %rbp
	movq	%rdx, %r15
	callq	"utf16_from_utf8::ascii::write_front::<#8b18edd9dd9aa8df>"
	movq	%rbp, %rdi
	movq	%r15, %rdx
	movq	%rax, %rbp
.LBB107_15:
	leaq	(,%rbp,2), %r15
	movq	%r14, %rax
	subq	%rbp, %rax
	cmpq	$64, %rax
	jb	.LBB107_18
	movq	%r13, %rax
	subq	%r15, %rax
	cmpq	$128, %rax
	jb	.LBB107_18
	movq	%r14, %rsi
	movq	%r13, %rcx
	movq	%rbp, %r8
	movq	%r15, %r9
	callq	"utf16_from_utf8::blocks::write_mixed_blocks::<#8b18edd9dd9aa8df>"
	movq	%rax, %rbp
	movq	%rdx, %r15
.LBB107_18:
	addq	%rbx, %rbp
	addq	%r12, %r15
	movq	72(%rsp), %rsi
	subq	%rbp, %rsi
	cmpq	$4, %rsi
	movq	192(%rsp), %r13
	jb	.LBB107_19
	movq	%r13, %rcx
	subq	%r15, %rcx
	cmpq	$4, %rcx
	jb	.LBB107_19
	movq	104(%rsp), %rax
	leaq	(%rax,%rbp), %rdi
	movq	96(%rsp), %rax
	leaq	(%rax,%r15), %rdx
	callq	"utf16_transcode::items::write_items::<#8b18edd9dd9aa8df>"
	movq	%rax, %rbx
	movq	%rdx, %r12
	addq	%rbp, %rbx
	addq	%r15, %r12
	movq	72(%rsp), %r14
	subq	%rbx, %r14
	cmpq	$63, %r14
	ja	.LBB107_11
	jmp	.LBB107_22
.LBB107_25:
	movq	64(%rsp), %rdi
	addq	%rbp, %rdi
	addq	120(%rsp), %r12
	testq	%rbp, %rbp
	movq	112(%rsp), %r8
	movq	256(%rsp), %rbp
	movq	88(%rsp), %r14
	movq	56(%rsp), %rdx
	je	.LBB107_36
	cmpb	$3, %al
	je	.LBB107_38
.LBB107_27:
	movq	%r12, %rax
	cmpq	%rdx, %rdi
	jb	.LBB107_4
	jmp	.LBB107_28
.LBB107_42:
	movl	$0, 84(%rsp)
	movl	(%rsi), %eax
	movl	%eax, 48(%rsp)
	shrl	$24, %eax
	cmpb	$3, %al
	movl	$3, %edx
	cmovbl	%eax, %edx
	movl	$0, 52(%rsp)
	testl	%eax, %eax
	movq	%rdx, 56(%rsp)
	je	.LBB107_43
	xorl	%edi, %edi
	xorl	%eax, %eax
.LBB107_45:
	leaq	(%rsp,%rdi), %rsi
	addq	$48, %rsi
	movq	%rdx, %rbx
	movq	%rdi, 64(%rsp)
	subq	%rdi, %rbx
	movl	$4, %r13d
	subq	%rbx, %r13
	cmpq	%r8, %r13
	cmovaeq	%r8, %r13
	movl	$0, 16(%rsp)
	leaq	16(%rsp), %rdi
	movq	%rbx, %rdx
	movq	%rax, %r15
	callq	memcpy@PLT
	leaq	(%rsp,%rbx), %rdi
	addq	$16, %rdi
	movq	136(%rsp), %rsi
	movq	%r13, %rdx
	callq	memcpy@PLT
	addq	%rbx, %r13
	movl	16(%rsp), %eax
	movl	%eax, 52(%rsp)
	addq	%r15, %r14
	movq	%rbp, %r12
	movq	%r15, 120(%rsp)
	subq	%r15, %r12
	pxor	%xmm0, %xmm0
	movdqa	%xmm0, 16(%rsp)
	movq	$0, 32(%rsp)
	leaq	52(%rsp), %rbx
	movq	%rbx, %rdi
	movq	%r13, %rsi
	movq	%r14, %rdx
	movq	%r12, %rcx
	callq	"utf16_transcode::encode::FromUtf8Direction::begin::<#418c2b53cf60437c>"
	movq	%r13, %rcx
	cmpq	%r13, %rax
	jne	.LBB107_47
	xorl	%r13d, %r13d
	xorl	%ebp, %ebp
	movq	%rcx, %r14
.LBB107_64:
	addq	%r14, %rbp
	movq	64(%rsp), %rdi
	addq	%rbp, %rdi
	addq	120(%rsp), %r13
	addq	%rdx, %r13
	testq	%rbp, %rbp
	movq	%r13, %r12
	je	.LBB107_81
	movq	112(%rsp), %r8
	movq	256(%rsp), %rbp
	movq	88(%rsp), %r14
	movq	56(%rsp), %rdx
	jmp	.LBB107_68
	.p2align	4
.LBB107_47:
	xorl	%ebp, %ebp
	movq	%r12, 160(%rsp)
	movq	%r12, %r15
	movq	%r14, 144(%rsp)
	movq	%r14, %r12
	movq	%rcx, 152(%rsp)
	movq	%rcx, %r14
	xorl	%r13d, %r13d
	jmp	.LBB107_48
	.p2align	4
.LBB107_60:
	movq	%r13, %r12
	movq	%r14, %rbx
.LBB107_63:
	movq	184(%rsp), %rbp
	addq	%rbx, %rbp
	movq	128(%rsp), %r13
	leaq	(%r12,%r13), %rax
	addq	%r12, %r13
	addq	$2, %r13
	leaq	(%rsp,%rbp), %rbx
	addq	$52, %rbx
	movq	152(%rsp), %r14
	subq	%rbp, %r14
	movq	144(%rsp), %rcx
	leaq	(%rcx,%rax), %r12
	addq	$2, %r12
	movq	160(%rsp), %r15
	subq	%r13, %r15
	pxor	%xmm0, %xmm0
	movdqa	%xmm0, 16(%rsp)
	movq	$0, 32(%rsp)
	movq	%rbx, %rdi
	movq	%r14, %rsi
	movq	%r12, %rdx
	movq	%r15, %rcx
	callq	"utf16_transcode::encode::FromUtf8Direction::begin::<#418c2b53cf60437c>"
	cmpq	%r14, %rax
	je	.LBB107_64
.LBB107_48:
	movq	%rdx, (%rsp)
	leaq	16(%rsp), %rdi
	movq	%rbx, %rsi
	movq	%r14, %rdx
	movq	%r12, %rcx
	movq	%r15, %r8
	movq	%rax, %r9
	callq	"utf16_transcode::transcoding::transcode_many::<#58ba01604e1c9b81>"
	addq	16(%rsp), %rbp
	movzbl	32(%rsp), %eax
	addq	24(%rsp), %r13
	cmpb	$1, %al
	movq	%r13, %r12
	jne	.LBB107_66
	movq	160(%rsp), %r15
	subq	%r12, %r15
	cmpq	$2, %r15
	jb	.LBB107_78
	movzbl	33(%rsp), %eax
	movq	144(%rsp), %rcx
	movw	$-3, (%rcx,%r12)
	addq	%rax, %rbp
	leaq	(%rsp,%rbp), %rdi
	addq	$52, %rdi
	movq	152(%rsp), %r14
	movq	%rbp, 184(%rsp)
	subq	%rbp, %r14
	movq	%r12, 128(%rsp)
	leaq	(%rcx,%r12), %rdx
	addq	$2, %rdx
	addq	$-2, %r15
	movq	%rdi, 104(%rsp)
	movq	%r14, %rsi
	movq	%rdx, 96(%rsp)
	movq	%r15, %rcx
	callq	"utf16_transcode::items::write_items::<#418c2b53cf60437c>"
	movq	%rax, %rbx
	movq	%rdx, %r12
	movq	%r14, 72(%rsp)
	movq	%r14, %rbp
	subq	%rax, %rbp
	cmpq	$64, %rbp
	jb	.LBB107_63
	movq	%r15, 192(%rsp)
	.p2align	4
.LBB107_52:
	subq	%r12, %r15
	cmpq	$128, %r15
	jb	.LBB107_63
	movq	104(%rsp), %rax
	leaq	(%rax,%rbx), %rdi
	movq	96(%rsp), %rcx
	leaq	(%rcx,%r12), %rdx
	movdqu	(%rax,%rbx), %xmm0
	pmovmskb	%xmm0, %eax
	testl	%eax, %eax
	je	.LBB107_55
	xorl	%r14d, %r14d
	jmp	.LBB107_56
	.p2align	4
.LBB107_55:
	movq	%r15, %rsi
	shrq	%rsi
	cmpq	%rbp, %rsi
	cmovaeq	%rbp, %rsi
	movq	%rdi, %r13
	movq	%rdx, %r14
	callq	"utf16_from_utf8::ascii::write_front::<#418c2b53cf60437c>"
	movq	%r13, %rdi
	movq	%r14, %rdx
	movq	%rax, %r14
.LBB107_56:
	leaq	(%r14,%r14), %r13
	movq	%rbp, %rax
	subq	%r14, %rax
	cmpq	$64, %rax
	jb	.LBB107_59
	movq	%r15, %rax
	subq	%r13, %rax
	cmpq	$128, %rax
	jb	.LBB107_59
	movq	%rbp, %rsi
	movq	%r15, %rcx
	movq	%r14, %r8
	movq	%r13, %r9
	callq	"utf16_from_utf8::blocks::write_mixed_blocks::<#418c2b53cf60437c>"
	movq	%rax, %r14
	movq	%rdx, %r13
.LBB107_59:
	addq	%rbx, %r14
	addq	%r12, %r13
	movq	72(%rsp), %rsi
	subq	%r14, %rsi
	cmpq	$4, %rsi
	movq	192(%rsp), %r15
	jb	.LBB107_60
	movq	%r15, %rcx
	subq	%r13, %rcx
	cmpq	$4, %rcx
	jb	.LBB107_60
	movq	104(%rsp), %rax
	leaq	(%rax,%r14), %rdi
	movq	96(%rsp), %rax
	leaq	(%rax,%r13), %rdx
	callq	"utf16_transcode::items::write_items::<#418c2b53cf60437c>"
	movq	%rax, %rbx
	movq	%rdx, %r12
	addq	%r14, %rbx
	addq	%r13, %r12
	movq	72(%rsp), %rbp
	subq	%rbx, %rbp
	cmpq	$63, %rbp
	ja	.LBB107_52
	jmp	.LBB107_63
.LBB107_66:
	movq	64(%rsp), %rdi
	addq	%rbp, %rdi
	addq	120(%rsp), %r12
	testq	%rbp, %rbp
	movq	112(%rsp), %r8
	movq	256(%rsp), %rbp
	movq	88(%rsp), %r14
	movq	56(%rsp), %rdx
	je	.LBB107_77
	cmpb	$3, %al
	je	.LBB107_79
.LBB107_68:
	movq	%r12, %rax
	cmpq	%rdx, %rdi
	jb	.LBB107_45
	jmp	.LBB107_69
.LBB107_37:
	movq	64(%rsp), %rdi
	addq	%rbp, %rdi
	addq	120(%rsp), %r12
	movq	56(%rsp), %rdx
.LBB107_38:
	cmpq	%rdi, %rdx
	movq	%rdi, %rax
	cmovbq	%rdx, %rax
	leaq	(%rsp,%rax), %rsi
	addq	$48, %rsi
	movq	%rdx, %rbx
	subq	%rax, %rbx
	xorl	%r14d, %r14d
	subq	%rdx, %rdi
	cmovaeq	%rdi, %r14
	jmp	.LBB107_39
.LBB107_78:
	movq	64(%rsp), %rdi
	addq	%rbp, %rdi
	addq	120(%rsp), %r12
	movq	56(%rsp), %rdx
.LBB107_79:
	cmpq	%rdi, %rdx
	movq	%rdi, %rax
	cmovbq	%rdx, %rax
	leaq	(%rsp,%rax), %rsi
	addq	$48, %rsi
	movq	%rdx, %rbx
	subq	%rax, %rbx
	xorl	%r14d, %r14d
	subq	%rdx, %rdi
	cmovaeq	%rdi, %r14
	jmp	.LBB107_80
.LBB107_2:
	xorl	%r12d, %r12d
	xorl	%edi, %edi
.LBB107_28:
	movq	%rdi, 64(%rsp)
	movq	%rdi, %rax
	subq	%rdx, %rax
	movq	136(%rsp), %rcx
	leaq	(%rcx,%rax), %rbx
	movq	%r8, %r15
	subq	%rax, %r15
	addq	%r12, %r14
	movq	%r12, 128(%rsp)
	subq	%r12, %rbp
	pxor	%xmm0, %xmm0
	movdqa	%xmm0, 16(%rsp)
	movq	$0, 32(%rsp)
	movq	%rbx, %rdi
	movq	%r15, %rsi
	movq	%r14, %rdx
	movq	%rbp, %rcx
	callq	"utf16_transcode::encode::FromUtf8Direction::begin::<#8b18edd9dd9aa8df>"
	cmpq	%r15, %rax
	jne	.LBB107_31
	xorl	%r12d, %r12d
	xorl	%r13d, %r13d
	jmp	.LBB107_30
.LBB107_43:
	xorl	%r12d, %r12d
	xorl	%edi, %edi
.LBB107_69:
	movq	%rdi, 64(%rsp)
	movq	%rdi, %rax
	subq	%rdx, %rax
	movq	136(%rsp), %rcx
	leaq	(%rcx,%rax), %rbx
	movq	%r8, %r15
	subq	%rax, %r15
	addq	%r12, %r14
	movq	%r12, 128(%rsp)
	subq	%r12, %rbp
	pxor	%xmm0, %xmm0
	movdqa	%xmm0, 16(%rsp)
	movq	$0, 32(%rsp)
	movq	%rbx, %rdi
	movq	%r15, %rsi
	movq	%r14, %rdx
	movq	%rbp, %rcx
	callq	"utf16_transcode::encode::FromUtf8Direction::begin::<#418c2b53cf60437c>"
	cmpq	%r15, %rax
	jne	.LBB107_72
	xorl	%r12d, %r12d
	xorl	%r13d, %r13d
	jmp	.LBB107_71
.LBB107_31:
	movq	%r14, %rcx
	xorl	%r14d, %r14d
	movq	%rbp, 104(%rsp)
	movq	%rcx, 88(%rsp)
	movq	%r15, 72(%rsp)
	movq	%rbx, 96(%rsp)
	movq	%rbx, %rsi
	xorl	%ebx, %ebx
	.p2align	4
.LBB107_32:
	movq	%rdx, (%rsp)
	leaq	16(%rsp), %rdi
	movq	%r15, %rdx
	movq	%rbp, %r8
	movq	%rax, %r9
	callq	"utf16_transcode::transcoding::transcode_many::<#824f73f0383279b7>"
	addq	16(%rsp), %r14
	movzbl	32(%rsp), %eax
	addq	24(%rsp), %rbx
	cmpb	$1, %al
	jne	.LBB107_35
	movq	104(%rsp), %rbp
	movq	%rbp, %r8
	subq	%rbx, %r8
	cmpq	$2, %r8
	jb	.LBB107_34
	movzbl	33(%rsp), %edx
	movq	88(%rsp), %rax
	leaq	(%rax,%rbx), %rcx
	movq	72(%rsp), %rsi
	subq	%r14, %rsi
	movq	96(%rsp), %r15
	leaq	(%r15,%r14), %rdi
	callq	"utf16_transcode::encode_lossy::write_replacement_and_more::<#8b18edd9dd9aa8df>"
	movq	%rax, %r13
	movq	%rdx, %r12
	addq	%r14, %r13
	addq	%rbx, %r12
	leaq	(%r15,%r13), %r14
	movq	72(%rsp), %r15
	subq	%r13, %r15
	movq	88(%rsp), %rax
	leaq	(%rax,%r12), %rbx
	subq	%r12, %rbp
	pxor	%xmm0, %xmm0
	movdqa	%xmm0, 16(%rsp)
	movq	$0, 32(%rsp)
	movq	%r14, %rdi
	movq	%r15, %rsi
	movq	%rbx, %rdx
	movq	%rbp, %rcx
	callq	"utf16_transcode::encode::FromUtf8Direction::begin::<#8b18edd9dd9aa8df>"
	movq	%r14, %rsi
	movq	%rbx, %rcx
	movq	%r13, %r14
	movq	%r12, %rbx
	cmpq	%r15, %rax
	jne	.LBB107_32
.LBB107_30:
	addq	%rdx, %r12
	addq	%r15, %r13
	xorl	%eax, %eax
	movq	%r12, %rbx
	movq	%r13, %r14
	jmp	.LBB107_35
.LBB107_72:
	movq	%r14, %rcx
	xorl	%r14d, %r14d
	movq	%rbp, 104(%rsp)
	movq	%rcx, 88(%rsp)
	movq	%r15, 72(%rsp)
	movq	%rbx, 96(%rsp)
	movq	%rbx, %rsi
	xorl	%ebx, %ebx
	.p2align	4
.LBB107_73:
	movq	%rdx, (%rsp)
	leaq	16(%rsp), %rdi
	movq	%r15, %rdx
	movq	%rbp, %r8
	movq	%rax, %r9
	callq	"utf16_transcode::transcoding::transcode_many::<#58ba01604e1c9b81>"
	addq	16(%rsp), %r14
	movzbl	32(%rsp), %eax
	addq	24(%rsp), %rbx
	cmpb	$1, %al
	jne	.LBB107_76
	movq	104(%rsp), %rbp
	movq	%rbp, %r8
	subq	%rbx, %r8
	cmpq	$2, %r8
	jb	.LBB107_75
	movzbl	33(%rsp), %edx
	movq	88(%rsp), %rax
	leaq	(%rax,%rbx), %rcx
	movq	72(%rsp), %rsi
	subq	%r14, %rsi
	movq	96(%rsp), %r15
	leaq	(%r15,%r14), %rdi
	callq	"utf16_transcode::encode_lossy::write_replacement_and_more::<#418c2b53cf60437c>"
	movq	%rax, %r13
	movq	%rdx, %r12
	addq	%r14, %r13
	addq	%rbx, %r12
	leaq	(%r15,%r13), %r14
	movq	72(%rsp), %r15
	subq	%r13, %r15
	movq	88(%rsp), %rax
	leaq	(%rax,%r12), %rbx
	subq	%r12, %rbp
	pxor	%xmm0, %xmm0
	movdqa	%xmm0, 16(%rsp)
	movq	$0, 32(%rsp)
	movq	%r14, %rdi
	movq	%r15, %rsi
	movq	%rbx, %rdx
	movq	%rbp, %rcx
	callq	"utf16_transcode::encode::FromUtf8Direction::begin::<#418c2b53cf60437c>"
	movq	%r14, %rsi
	movq	%rbx, %rcx
	movq	%r13, %r14
	movq	%r12, %rbx
	cmpq	%r15, %rax
	jne	.LBB107_73
.LBB107_71:
	addq	%rdx, %r12
	addq	%r15, %r13
	xorl	%eax, %eax
	movq	%r12, %rbx
	movq	%r13, %r14
	jmp	.LBB107_76
.LBB107_34:
	movb	$3, %al
.LBB107_35:
	movq	64(%rsp), %rdi
	addq	%r14, %rdi
	movq	128(%rsp), %r12
	addq	%rbx, %r12
	movq	112(%rsp), %r8
	movq	56(%rsp), %rdx
.LBB107_36:
	cmpq	%rdi, %rdx
	movq	%rdi, %rcx
	cmovbq	%rdx, %rcx
	leaq	(%rsp,%rcx), %rsi
	addq	$48, %rsi
	movq	%rdx, %rbx
	subq	%rcx, %rbx
	xorl	%r14d, %r14d
	subq	%rdx, %rdi
	cmovaeq	%rdi, %r14
	cmpb	$3, %al
	jne	.LBB107_41
.LBB107_39:
	movb	$0, 18(%rsp)
	movw	$0, 16(%rsp)
	leaq	16(%rsp), %rdi
	movq	%rbx, %rdx
	callq	memcpy@PLT
	movzbl	18(%rsp), %eax
	shll	$16, %eax
	movzwl	16(%rsp), %ecx
	orl	%eax, %ecx
	shll	$24, %ebx
	orl	%ecx, %ebx
	movb	$3, %dl
	movq	168(%rsp), %rax
	movl	%ebx, (%rax)
	jmp	.LBB107_84
.LBB107_75:
	movb	$3, %al
.LBB107_76:
	movq	64(%rsp), %rdi
	addq	%r14, %rdi
	movq	128(%rsp), %r12
	addq	%rbx, %r12
	movq	112(%rsp), %r8
	movq	56(%rsp), %rdx
.LBB107_77:
	cmpq	%rdi, %rdx
	movq	%rdi, %rcx
	cmovbq	%rdx, %rcx
	leaq	(%rsp,%rcx), %rsi
	addq	$48, %rsi
	movq	%rdx, %rbx
	subq	%rcx, %rbx
	xorl	%r14d, %r14d
	subq	%rdx, %rdi
	cmovaeq	%rdi, %r14
	cmpb	$3, %al
	jne	.LBB107_82
.LBB107_80:
	movb	$0, 18(%rsp)
	movw	$0, 16(%rsp)
	leaq	16(%rsp), %rdi
	movq	%rbx, %rdx
	callq	memcpy@PLT
	movzbl	18(%rsp), %eax
	shll	$16, %eax
	movzwl	16(%rsp), %ecx
	orl	%eax, %ecx
	shll	$24, %ebx
	orl	%ecx, %ebx
	movb	$3, %dl
	movq	%r14, %rsi
	jmp	.LBB107_83
.LBB107_40:
	movq	56(%rsp), %rcx
	cmpq	%rdi, %rcx
	movq	%rdi, %rax
	cmovbq	%rcx, %rax
	leaq	(%rsp,%rax), %rsi
	addq	$48, %rsi
	movq	%rcx, %rbx
	subq	%rax, %rbx
	xorl	%r14d, %r14d
	subq	%rcx, %rdi
	cmovaeq	%rdi, %r14
	movq	112(%rsp), %r8
.LBB107_41:
	movq	%r8, %rax
	subq	%r14, %rax
	movq	136(%rsp), %r13
	addq	%r14, %r13
	movl	$4, %r14d
	subq	%rbx, %r14
	cmpq	%rax, %r14
	cmovaeq	%rax, %r14
	movl	$0, 16(%rsp)
	leaq	16(%rsp), %rdi
	movq	%rbx, %rdx
	movq	%r8, %r15
	callq	memcpy@PLT
	leaq	(%rsp,%rbx), %rdi
	addq	$16, %rdi
	movq	%r13, %rsi
	movq	%r14, %rdx
	callq	memcpy@PLT
	addq	%rbx, %r14
	movl	16(%rsp), %eax
	movl	%eax, 84(%rsp)
	movb	$0, 18(%rsp)
	movw	$0, 16(%rsp)
	leaq	16(%rsp), %rdi
	leaq	84(%rsp), %rsi
	movq	%r14, %rdx
	callq	memcpy@PLT
	movzbl	18(%rsp), %eax
	shll	$16, %eax
	movzwl	16(%rsp), %ecx
	orl	%eax, %ecx
	shll	$24, %r14d
	orl	%ecx, %r14d
	xorl	%edx, %edx
	movq	168(%rsp), %rax
	movl	%r14d, (%rax)
	movq	%r15, %r14
	jmp	.LBB107_84
.LBB107_81:
	movq	56(%rsp), %rcx
	cmpq	%rdi, %rcx
	movq	%rdi, %rax
	cmovbq	%rcx, %rax
	leaq	(%rsp,%rax), %rsi
	addq	$48, %rsi
	movq	%rcx, %rbx
	subq	%rax, %rbx
	xorl	%r14d, %r14d
	subq	%rcx, %rdi
	cmovaeq	%rdi, %r14
	movq	112(%rsp), %r8
.LBB107_82:
	movq	%r8, %rax
	subq	%r14, %rax
	movq	136(%rsp), %r13
	addq	%r14, %r13
	movl	$4, %r14d
	subq	%rbx, %r14
	cmpq	%rax, %r14
	cmovaeq	%rax, %r14
	movl	$0, 16(%rsp)
	leaq	16(%rsp), %rdi
	movq	%rbx, %rdx
	movq	%r8, %r15
	callq	memcpy@PLT
	leaq	(%rsp,%rbx), %rdi
	addq	$16, %rdi
	movq	%r13, %rsi
	movq	%r14, %rdx
	callq	memcpy@PLT
	addq	%rbx, %r14
	movl	16(%rsp), %eax
	movl	%eax, 84(%rsp)
	movb	$0, 18(%rsp)
	movw	$0, 16(%rsp)
	leaq	16(%rsp), %rdi
	leaq	84(%rsp), %rsi
	movq	%r14, %rdx
	callq	memcpy@PLT
	movq	%r15, %rsi
	movzbl	18(%rsp), %eax
	shll	$16, %eax
	movzwl	16(%rsp), %ecx
	orl	%eax, %ecx
	shll	$24, %r14d
	orl	%ecx, %r14d
	xorl	%edx, %edx
	movl	%r14d, %ebx
.LBB107_83:
	movq	168(%rsp), %rax
	movl	%ebx, (%rax)
	movq	%rsi, %r14
.LBB107_84:
	movq	176(%rsp), %rax
	xorl	%ecx, %ecx
	testb	%dl, %dl
	setne	%cl
	leal	(%rcx,%rcx,2), %ecx
	movq	%r14, (%rax)
	movq	%r12, 8(%rax)
	movl	%ecx, 16(%rax)
	movl	$0, 20(%rax)
	addq	$200, %rsp
	.cfi_def_cfa_offset 56
	popq	%rbx
	.cfi_def_cfa_offset 48
	popq	%r12
	.cfi_def_cfa_offset 40
	popq	%r13
	.cfi_def_cfa_offset 32
	popq	%r14
	.cfi_def_cfa_offset 24
	popq	%r15
	.cfi_def_cfa_offset 16
	popq	%rbp
	.cfi_def_cfa_offset 8
	retq
.Lfunc_end107:
	.size	dethrux_encoder_feed_v2, .Lfunc_end107-dethrux_encoder_feed_v2
	.cfi_endproc

	.section	.text.dethrux_encoder_finish,"ax",@progbits
	.globl	dethrux_encoder_finish_v2
	.hidden	dethrux_encoder_finish_v2
	.p2align	4
	.type	dethrux_encoder_finish_v2,@function
dethrux_encoder_finish_v2:
	.cfi_startproc
	movq	%rdi, %rax
	xorl	%edi, %edi
	testq	%rcx, %rcx
	sete	%dil
	shll	$12, %edi
	movzbl	3(%rsi), %r9d
	cmpl	$1, %edx
	jne	.LBB108_4
	xorl	%edx, %edx
	testb	%r9b, %r9b
	je	.LBB108_8
	cmpq	$2, %r8
	jb	.LBB108_6
	movw	$-513, (%rcx,%rdi)
	jmp	.LBB108_10
.LBB108_4:
	xorl	%edx, %edx
	testb	%r9b, %r9b
	je	.LBB108_8
	cmpq	$2, %r8
	jae	.LBB108_9
.LBB108_6:
	movl	$3, %edx
	xorl	%ecx, %ecx
	jmp	.LBB108_12
.LBB108_8:
	xorl	%ecx, %ecx
	jmp	.LBB108_11
.LBB108_9:
	movw	$-3, (%rcx,%rdi)
.LBB108_10:
	movl	$2, %ecx
.LBB108_11:
	movl	$0, (%rsi)
.LBB108_12:
	movq	$0, (%rax)
	movq	%rcx, 8(%rax)
	movl	%edx, 16(%rax)
	movl	$0, 20(%rax)
	retq
.Lfunc_end108:
	.size	dethrux_encoder_finish_v2, .Lfunc_end108-dethrux_encoder_finish_v2
	.cfi_endproc

	.section	.text.dethrux_from_latin1,"ax",@progbits
	.globl	dethrux_from_latin1_v2
	.hidden	dethrux_from_latin1_v2
	.p2align	4
	.type	dethrux_from_latin1_v2,@function
dethrux_from_latin1_v2:
	.cfi_startproc
	pushq	%rbp
	.cfi_def_cfa_offset 16
	pushq	%r15
	.cfi_def_cfa_offset 24
	pushq	%r14
	.cfi_def_cfa_offset 32
	pushq	%rbx
	.cfi_def_cfa_offset 40
	.cfi_offset %rbx, -40
	.cfi_offset %r14, -32
	.cfi_offset %r15, -24
	.cfi_offset %rbp, -16
	movq	%rdi, %rax
	xorl	%r14d, %r14d
	testq	%rdx, %rdx
	sete	%r14b
	shll	$12, %r14d
	leaq	(%rdx,%r14), %r10
	xorl	%r11d, %r11d
	testq	%r8, %r8
	sete	%r11b
	shll	$12, %r11d
	leaq	(%r8,%r11), %rbx
	shrq	%r9
	cmpq	%rcx, %r9
	movq	%rcx, %rdi
	cmovbq	%r9, %rdi
	cmpl	$1, %esi
	jne	.LBB109_17
	cmpq	$16, %rdi
	jb	.LBB109_9
	leaq	-16(%rdi), %rsi
	shrq	$4, %rsi
	je	.LBB109_3
	incq	%rsi
	movq	%rsi, %r15
	andq	$-2, %r15
	addq	%rdx, %r14
	addq	$16, %r14
	addq	%r11, %r8
	addq	$48, %r8
	xorl	%edx, %edx
	.p2align	4
.LBB109_5:
	movdqu	-16(%r14,%rdx), %xmm0
	pxor	%xmm1, %xmm1
	pxor	%xmm2, %xmm2
	punpckhbw	%xmm0, %xmm2
	pxor	%xmm3, %xmm3
	punpcklbw	%xmm0, %xmm3
	movdqu	%xmm3, -48(%r8,%rdx,2)
	movdqu	%xmm2, -32(%r8,%rdx,2)
	movdqu	(%r14,%rdx), %xmm0
	pxor	%xmm2, %xmm2
	punpckhbw	%xmm0, %xmm2
	punpcklbw	%xmm0, %xmm1
	movdqu	%xmm1, -16(%r8,%rdx,2)
	movdqu	%xmm2, (%r8,%rdx,2)
	addq	$32, %rdx
	addq	$-2, %r15
	jne	.LBB109_5
	testb	$1, %sil
	jne	.LBB109_7
	jmp	.LBB109_8
.LBB109_17:
	cmpq	$16, %rdi
	jb	.LBB109_25
	leaq	-16(%rdi), %rsi
	shrq	$4, %rsi
	je	.LBB109_19
	incq	%rsi
	movq	%rsi, %r15
	andq	$-2, %r15
	addq	%rdx, %r14
	addq	$16, %r14
	addq	%r11, %r8
	addq	$48, %r8
	xorl	%edx, %edx
	.p2align	4
.LBB109_21:
	pmovzxbw	-8(%r14,%rdx), %xmm0
	pmovzxbw	-16(%r14,%rdx), %xmm1
	movdqu	%xmm1, -48(%r8,%rdx,2)
	movdqu	%xmm0, -32(%r8,%rdx,2)
	pmovzxbw	8(%r14,%rdx), %xmm0
	pmovzxbw	(%r14,%rdx), %xmm1
	movdqu	%xmm1, -16(%r8,%rdx,2)
	movdqu	%xmm0, (%r8,%rdx,2)
	addq	$32, %rdx
	addq	$-2, %r15
	jne	.LBB109_21
	testb	$1, %sil
	jne	.LBB109_23
	jmp	.LBB109_24
.LBB109_9:
	testq	%rdi, %rdi
	je	.LBB109_33
	movl	%edi, %esi
	andl	$3, %esi
	cmpq	$4, %rdi
	jae	.LBB109_12
	xorl	%edx, %edx
	jmp	.LBB109_15
.LBB109_25:
	testq	%rdi, %rdi
	je	.LBB109_33
	movl	%edi, %esi
	andl	$3, %esi
	cmpq	$4, %rdi
	jae	.LBB109_28
	xorl	%edx, %edx
	jmp	.LBB109_31
.LBB109_3:
	xorl	%edx, %edx
.LBB109_7:
	movdqu	(%r10,%rdx), %xmm0
	pxor	%xmm1, %xmm1
	pxor	%xmm2, %xmm2
	punpckhbw	%xmm0, %xmm2
	punpcklbw	%xmm0, %xmm1
	movdqu	%xmm1, (%rbx,%rdx,2)
	movdqu	%xmm2, 16(%rbx,%rdx,2)
.LBB109_8:
	movdqu	-16(%r10,%rdi), %xmm0
	pxor	%xmm1, %xmm1
	pxor	%xmm2, %xmm2
	punpckhbw	%xmm0, %xmm2
	punpcklbw	%xmm0, %xmm1
	movdqu	%xmm1, -32(%rbx,%rdi,2)
	movdqu	%xmm2, -16(%rbx,%rdi,2)
	jmp	.LBB109_33
.LBB109_19:
	xorl	%edx, %edx
.LBB109_23:
	pmovzxbw	8(%r10,%rdx), %xmm0
	pmovzxbw	(%r10,%rdx), %xmm1
	movdqu	%xmm1, (%rbx,%rdx,2)
	movdqu	%xmm0, 16(%rbx,%rdx,2)
.LBB109_24:
	pmovzxbw	-8(%r10,%rdi), %xmm0
	pmovzxbw	-16(%r10,%rdi), %xmm1
	movdqu	%xmm1, -32(%rbx,%rdi,2)
	movdqu	%xmm0, -16(%rbx,%rdi,2)
	jmp	.LBB109_33
.LBB109_12:
	movl	%edi, %ebx
	andl	$12, %ebx
	addq	%rdx, %r14
	addq	$3, %r14
	leaq	(%r11,%r8), %r15
	addq	$6, %r15
	xorl	%edx, %edx
	.p2align	4
.LBB109_13:
	movzbl	-3(%r14,%rdx), %ebp
	shll	$8, %ebp
	movw	%bp, -6(%r15,%rdx,2)
	movzbl	-2(%r14,%rdx), %ebp
	shll	$8, %ebp
	movw	%bp, -4(%r15,%rdx,2)
	movzbl	-1(%r14,%rdx), %ebp
	shll	$8, %ebp
	movw	%bp, -2(%r15,%rdx,2)
	movzbl	(%r14,%rdx), %ebp
	shll	$8, %ebp
	movw	%bp, (%r15,%rdx,2)
	addq	$4, %rdx
	cmpq	%rdx, %rbx
	jne	.LBB109_13
	testq	%rsi, %rsi
	je	.LBB109_33
.LBB109_15:
	leaq	(%r11,%rdx,2), %r11
	addq	%r11, %r8
	addq	%rdx, %r10
	xorl	%edx, %edx
	.p2align	4
.LBB109_16:
	movzbl	(%r10,%rdx), %r11d
	shll	$8, %r11d
	movw	%r11w, (%r8,%rdx,2)
	incq	%rdx
	cmpq	%rdx, %rsi
	jne	.LBB109_16
	jmp	.LBB109_33
.LBB109_28:
	movl	%edi, %ebx
	andl	$12, %ebx
	addq	%rdx, %r14
	addq	$3, %r14
	leaq	(%r11,%r8), %r15
	addq	$6, %r15
	xorl	%edx, %edx
	.p2align	4
.LBB109_29:
	movzbl	-3(%r14,%rdx), %ebp
	movw	%bp, -6(%r15,%rdx,2)
	movzbl	-2(%r14,%rdx), %ebp
	movw	%bp, -4(%r15,%rdx,2)
	movzbl	-1(%r14,%rdx), %ebp
	movw	%bp, -2(%r15,%rdx,2)
	movzbl	(%r14,%rdx), %ebp
	movw	%bp, (%r15,%rdx,2)
	addq	$4, %rdx
	cmpq	%rdx, %rbx
	jne	.LBB109_29
	testq	%rsi, %rsi
	je	.LBB109_33
.LBB109_31:
	leaq	(%r11,%rdx,2), %r11
	addq	%r11, %r8
	addq	%rdx, %r10
	xorl	%edx, %edx
	.p2align	4
.LBB109_32:
	movzbl	(%r10,%rdx), %r11d
	movw	%r11w, (%r8,%rdx,2)
	incq	%rdx
	cmpq	%rdx, %rsi
	jne	.LBB109_32
.LBB109_33:
	leaq	(%rdi,%rdi), %rdx
	movl	$3, %esi
	cmpq	%r9, %rcx
	ja	.LBB109_35
	xorl	%esi, %esi
.LBB109_35:
	movq	%rdi, (%rax)
	movq	%rdx, 8(%rax)
	movl	%esi, 16(%rax)
	movl	$0, 20(%rax)
	popq	%rbx
	.cfi_def_cfa_offset 32
	popq	%r14
	.cfi_def_cfa_offset 24
	popq	%r15
	.cfi_def_cfa_offset 16
	popq	%rbp
	.cfi_def_cfa_offset 8
	retq
.Lfunc_end109:
	.size	dethrux_from_latin1_v2, .Lfunc_end109-dethrux_from_latin1_v2
	.cfi_endproc

	.section	.text.dethrux_from_utf32,"ax",@progbits
	.globl	dethrux_from_utf32_v2
	.hidden	dethrux_from_utf32_v2
	.p2align	4
	.type	dethrux_from_utf32_v2,@function
dethrux_from_utf32_v2:
	.cfi_startproc
	pushq	%rbx
	.cfi_def_cfa_offset 16
	subq	$32, %rsp
	.cfi_def_cfa_offset 48
	.cfi_offset %rbx, -16
	movl	%esi, %r10d
	movq	%rdi, %rbx
	xorl	%esi, %esi
	testq	%rdx, %rdx
	sete	%sil
	shll	$12, %esi
	addq	%rdx, %rsi
	xorl	%eax, %eax
	testq	%r8, %r8
	sete	%al
	shll	$12, %eax
	addq	%r8, %rax
	xorps	%xmm0, %xmm0
	movaps	%xmm0, (%rsp)
	movq	$0, 16(%rsp)
	movq	%rsp, %rdi
	movq	%rcx, %rdx
	movq	%rax, %rcx
	movq	%r9, %r8
	cmpl	$1, %r10d
	jne	.LBB110_2
	callq	"utf16_fixed::encode::from_utf32::<#8b18edd9dd9aa8df>"
	movaps	(%rsp), %xmm0
	movzbl	16(%rsp), %eax
	leaq	.LJTI110_0(%rip), %rcx
	movslq	(%rcx,%rax,4), %rdx
	addq	%rcx, %rdx
	movl	%eax, %ecx
	notrack jmpq	*%rdx
.LBB110_2:
	callq	"utf16_fixed::encode::from_utf32::<#418c2b53cf60437c>"
	movaps	(%rsp), %xmm0
	movzbl	16(%rsp), %eax
	leaq	.LJTI110_0(%rip), %rcx
	movslq	(%rcx,%rax,4), %rdx
	addq	%rcx, %rdx
	movl	%eax, %ecx
	notrack jmpq	*%rdx
.LBB110_3:
	movzbl	17(%rsp), %ecx
	movl	$1, %eax
	jmp	.LBB110_6
.LBB110_4:
	xorl	%ecx, %ecx
	movl	$2, %eax
	jmp	.LBB110_6
.LBB110_5:
	xorl	%ecx, %ecx
	movl	$3, %eax
.LBB110_6:
	movups	%xmm0, (%rbx)
	movl	%eax, 16(%rbx)
	movl	%ecx, 20(%rbx)
	movq	%rbx, %rax
	addq	$32, %rsp
	.cfi_def_cfa_offset 16
	popq	%rbx
	.cfi_def_cfa_offset 8
	retq
.Lfunc_end110:
	.size	dethrux_from_utf32_v2, .Lfunc_end110-dethrux_from_utf32_v2
	.cfi_endproc
	.section	.rodata.dethrux_from_utf32,"a",@progbits
	.p2align	2, 0x0
.LJTI110_0:
	.long	.LBB110_6-.LJTI110_0
	.long	.LBB110_3-.LJTI110_0
	.long	.LBB110_4-.LJTI110_0
	.long	.LBB110_5-.LJTI110_0

	.section	.rodata.cst16,"aM",@progbits,16
	.p2align	4, 0x0
.LCPI111_0:
	.quad	1
	.quad	2
	.section	.text.dethrux_from_utf32_lossy,"ax",@progbits
	.globl	dethrux_from_utf32_lossy_v2
	.hidden	dethrux_from_utf32_lossy_v2
	.p2align	4
	.type	dethrux_from_utf32_lossy_v2,@function
dethrux_from_utf32_lossy_v2:
	.cfi_startproc
	pushq	%r15
	.cfi_def_cfa_offset 16
	pushq	%r14
	.cfi_def_cfa_offset 24
	pushq	%r13
	.cfi_def_cfa_offset 32
	pushq	%r12
	.cfi_def_cfa_offset 40
	pushq	%rbx
	.cfi_def_cfa_offset 48
	subq	$48, %rsp
	.cfi_def_cfa_offset 96
	.cfi_offset %rbx, -48
	.cfi_offset %r12, -40
	.cfi_offset %r13, -32
	.cfi_offset %r14, -24
	.cfi_offset %r15, -16
	movq	%r9, %r14
	movq	%rcx, %r15
	movq	%rdi, %rbx
	xorl	%r12d, %r12d
	testq	%rdx, %rdx
	sete	%r12b
	shll	$12, %r12d
	addq	%rdx, %r12
	xorl	%r13d, %r13d
	testq	%r8, %r8
	sete	%r13b
	shll	$12, %r13d
	addq	%r8, %r13
	xorps	%xmm0, %xmm0
	cmpl	$1, %esi
	jne	.LBB111_5
	movaps	%xmm0, (%rsp)
	movq	$0, 16(%rsp)
	movq	%rsp, %rdi
	movq	%r12, %rsi
	movq	%r15, %rdx
	movq	%r13, %rcx
	movq	%r14, %r8
	callq	"utf16_fixed::encode::from_utf32::<#8b18edd9dd9aa8df>"
	movdqa	(%rsp), %xmm0
	movzbl	16(%rsp), %eax
	cmpb	$1, %al
	jne	.LBB111_9
	.p2align	4
.LBB111_3:
	pextrq	$1, %xmm0, %rax
	movq	%r14, %rcx
	subq	%rax, %rcx
	cmpq	$2, %rcx
	jb	.LBB111_8
	paddq	.LCPI111_0(%rip), %xmm0
	movdqa	%xmm0, 32(%rsp)
	movw	$-513, (%r13,%rax)
	movq	%xmm0, %rax
	leaq	(%r12,%rax,4), %rsi
	movq	%r15, %rdx
	pextrq	$1, %xmm0, %rdi
	subq	%rax, %rdx
	leaq	(%rdi,%r13), %rcx
	movq	%r14, %r8
	subq	%rdi, %r8
	movq	%rsp, %rdi
	callq	"utf16_fixed::encode::from_utf32::<#8b18edd9dd9aa8df>"
	movdqa	32(%rsp), %xmm0
	paddq	(%rsp), %xmm0
	movzbl	16(%rsp), %eax
	cmpb	$1, %al
	je	.LBB111_3
	jmp	.LBB111_9
.LBB111_5:
	movaps	%xmm0, (%rsp)
	movq	$0, 16(%rsp)
	movq	%rsp, %rdi
	movq	%r12, %rsi
	movq	%r15, %rdx
	movq	%r13, %rcx
	movq	%r14, %r8
	callq	"utf16_fixed::encode::from_utf32::<#418c2b53cf60437c>"
	movdqa	(%rsp), %xmm0
	movzbl	16(%rsp), %eax
	cmpb	$1, %al
	jne	.LBB111_9
	.p2align	4
.LBB111_7:
	pextrq	$1, %xmm0, %rax
	movq	%r14, %rcx
	subq	%rax, %rcx
	cmpq	$2, %rcx
	jb	.LBB111_8
	paddq	.LCPI111_0(%rip), %xmm0
	movdqa	%xmm0, 32(%rsp)
	movw	$-3, (%r13,%rax)
	movq	%xmm0, %rax
	leaq	(%r12,%rax,4), %rsi
	movq	%r15, %rdx
	pextrq	$1, %xmm0, %rdi
	subq	%rax, %rdx
	leaq	(%rdi,%r13), %rcx
	movq	%r14, %r8
	subq	%rdi, %r8
	movq	%rsp, %rdi
	callq	"utf16_fixed::encode::from_utf32::<#418c2b53cf60437c>"
	movdqa	32(%rsp), %xmm0
	paddq	(%rsp), %xmm0
	movzbl	16(%rsp), %eax
	cmpb	$1, %al
	je	.LBB111_7
	jmp	.LBB111_9
.LBB111_8:
	movb	$3, %al
.LBB111_9:
	movzbl	%al, %eax
	leaq	.Lswitch.table.dethrux_from_utf32_lossy(%rip), %rcx
	movl	(%rcx,%rax,4), %eax
	movdqu	%xmm0, (%rbx)
	movl	%eax, 16(%rbx)
	movl	$0, 20(%rbx)
	movq	%rbx, %rax
	addq	$48, %rsp
	.cfi_def_cfa_offset 48
	popq	%rbx
	.cfi_def_cfa_offset 40
	popq	%r12
	.cfi_def_cfa_offset 32
	popq	%r13
	.cfi_def_cfa_offset 24
	popq	%r14
	.cfi_def_cfa_offset 16
	popq	%r15
	.cfi_def_cfa_offset 8
	retq
.Lfunc_end111:
	.size	dethrux_from_utf32_lossy_v2, .Lfunc_end111-dethrux_from_utf32_lossy_v2
	.cfi_endproc

	.section	.text.dethrux_from_utf8,"ax",@progbits
	.globl	dethrux_from_utf8_v2
	.hidden	dethrux_from_utf8_v2
	.p2align	4
	.type	dethrux_from_utf8_v2,@function
dethrux_from_utf8_v2:
	.cfi_startproc
	pushq	%r15
	.cfi_def_cfa_offset 16
	pushq	%r14
	.cfi_def_cfa_offset 24
	pushq	%r13
	.cfi_def_cfa_offset 32
	pushq	%r12
	.cfi_def_cfa_offset 40
	pushq	%rbx
	.cfi_def_cfa_offset 48
	subq	$48, %rsp
	.cfi_def_cfa_offset 96
	.cfi_offset %rbx, -48
	.cfi_offset %r12, -40
	.cfi_offset %r13, -32
	.cfi_offset %r14, -24
	.cfi_offset %r15, -16
	movq	%r9, %r15
	movq	%rcx, %r14
	movq	%rdi, %rbx
	xorl	%r12d, %r12d
	testq	%rdx, %rdx
	sete	%r12b
	shll	$12, %r12d
	addq	%rdx, %r12
	xorl	%r13d, %r13d
	testq	%r8, %r8
	sete	%r13b
	shll	$12, %r13d
	addq	%r8, %r13
	xorps	%xmm0, %xmm0
	cmpl	$1, %esi
	jne	.LBB112_4
	movaps	%xmm0, 16(%rsp)
	movq	$0, 32(%rsp)
	movq	%r12, %rdi
	movq	%r14, %rsi
	movq	%r13, %rdx
	movq	%r15, %rcx
	callq	"utf16_transcode::encode::FromUtf8Direction::begin::<#8b18edd9dd9aa8df>"
	cmpq	%r14, %rax
	je	.LBB112_2
	movq	%rdx, (%rsp)
	leaq	16(%rsp), %rdi
	movq	%r12, %rsi
	movq	%r14, %rdx
	movq	%r13, %rcx
	movq	%r15, %r8
	movq	%rax, %r9
	callq	"utf16_transcode::transcoding::transcode_many::<#824f73f0383279b7>"
	movq	16(%rsp), %r14
	movq	24(%rsp), %rdx
	movzbl	32(%rsp), %ecx
	movzbl	%cl, %eax
	leaq	.LJTI112_1(%rip), %rsi
	movslq	(%rsi,%rax,4), %rdi
	addq	%rsi, %rdi
	notrack jmpq	*%rdi
.LBB112_4:
	movaps	%xmm0, 16(%rsp)
	movq	$0, 32(%rsp)
	movq	%r12, %rdi
	movq	%r14, %rsi
	movq	%r13, %rdx
	movq	%r15, %rcx
	callq	"utf16_transcode::encode::FromUtf8Direction::begin::<#418c2b53cf60437c>"
	cmpq	%r14, %rax
	jne	.LBB112_5
.LBB112_2:
	xorl	%eax, %eax
.LBB112_9:
	xorl	%ecx, %ecx
.LBB112_10:
	movzbl	%cl, %ecx
	movq	%r14, (%rbx)
	movq	%rdx, 8(%rbx)
	movl	%eax, 16(%rbx)
	movl	%ecx, 20(%rbx)
	movq	%rbx, %rax
	addq	$48, %rsp
	.cfi_def_cfa_offset 48
	popq	%rbx
	.cfi_def_cfa_offset 40
	popq	%r12
	.cfi_def_cfa_offset 32
	popq	%r13
	.cfi_def_cfa_offset 24
	popq	%r14
	.cfi_def_cfa_offset 16
	popq	%r15
	.cfi_def_cfa_offset 8
	retq
.LBB112_5:
	.cfi_def_cfa_offset 96
	movq	%rdx, (%rsp)
	leaq	16(%rsp), %rdi
	movq	%r12, %rsi
	movq	%r14, %rdx
	movq	%r13, %rcx
	movq	%r15, %r8
	movq	%rax, %r9
	callq	"utf16_transcode::transcoding::transcode_many::<#58ba01604e1c9b81>"
	movq	16(%rsp), %r14
	movq	24(%rsp), %rdx
	movzbl	32(%rsp), %ecx
	movzbl	%cl, %eax
	leaq	.LJTI112_0(%rip), %rsi
	movslq	(%rsi,%rax,4), %rdi
	addq	%rsi, %rdi
	notrack jmpq	*%rdi
.LBB112_6:
	movzbl	33(%rsp), %ecx
	movl	$1, %eax
	jmp	.LBB112_10
.LBB112_7:
	movl	$2, %eax
	jmp	.LBB112_9
.LBB112_8:
	movl	$3, %eax
	jmp	.LBB112_9
.Lfunc_end112:
	.size	dethrux_from_utf8_v2, .Lfunc_end112-dethrux_from_utf8_v2
	.cfi_endproc
	.section	.rodata.dethrux_from_utf8,"a",@progbits
	.p2align	2, 0x0
.LJTI112_0:
	.long	.LBB112_10-.LJTI112_0
	.long	.LBB112_6-.LJTI112_0
	.long	.LBB112_7-.LJTI112_0
	.long	.LBB112_8-.LJTI112_0
.LJTI112_1:
	.long	.LBB112_10-.LJTI112_1
	.long	.LBB112_6-.LJTI112_1
	.long	.LBB112_7-.LJTI112_1
	.long	.LBB112_8-.LJTI112_1

	.section	.text.dethrux_from_utf8_lossy,"ax",@progbits
	.globl	dethrux_from_utf8_lossy_v2
	.hidden	dethrux_from_utf8_lossy_v2
	.p2align	4
	.type	dethrux_from_utf8_lossy_v2,@function
dethrux_from_utf8_lossy_v2:
	.cfi_startproc
	pushq	%rbp
	.cfi_def_cfa_offset 16
	pushq	%r15
	.cfi_def_cfa_offset 24
	pushq	%r14
	.cfi_def_cfa_offset 32
	pushq	%r13
	.cfi_def_cfa_offset 40
	pushq	%r12
	.cfi_def_cfa_offset 48
	pushq	%rbx
	.cfi_def_cfa_offset 56
	subq	$72, %rsp
	.cfi_def_cfa_offset 128
	.cfi_offset %rbx, -56
	.cfi_offset %r12, -48
	.cfi_offset %r13, -40
	.cfi_offset %r14, -32
	.cfi_offset %r15, -24
	.cfi_offset %rbp, -16
	movq	%r9, %r15
	movq	%rcx, %rbp
	xorl	%r12d, %r12d
	testq	%rdx, %rdx
	sete	%r12b
	shll	$12, %r12d
	addq	%rdx, %r12
	xorl	%r14d, %r14d
	testq	%r8, %r8
	sete	%r14b
	shll	$12, %r14d
	addq	%r8, %r14
	cmpl	$1, %esi
	movq	%rcx, 16(%rsp)
	movq	%r9, 56(%rsp)
	movq	%r14, 24(%rsp)
	movq	%r12, 64(%rsp)
	movq	%rdi, 8(%rsp)
	xorps	%xmm0, %xmm0
	jne	.LBB113_6
	movaps	%xmm0, 32(%rsp)
	movq	$0, 48(%rsp)
	movq	%r12, %rdi
	movq	%rbp, %rsi
	movq	%r14, %rdx
	movq	%r15, %rcx
	callq	"utf16_transcode::encode::FromUtf8Direction::begin::<#8b18edd9dd9aa8df>"
	cmpq	%rbp, %rax
	je	.LBB113_7
	xorl	%r13d, %r13d
	movq	%r14, %rcx
	movq	%r12, %rsi
	xorl	%r12d, %r12d
	.p2align	4
.LBB113_3:
	movq	%rdx, (%rsp)
	leaq	32(%rsp), %rdi
	movq	%rbp, %rdx
	movq	%r15, %r8
	movq	%rax, %r9
	callq	"utf16_transcode::transcoding::transcode_many::<#824f73f0383279b7>"
	addq	32(%rsp), %r13
	movzbl	48(%rsp), %edx
	addq	40(%rsp), %r12
	cmpl	$1, %edx
	jne	.LBB113_14
	movq	56(%rsp), %r15
	movq	%r15, %r8
	subq	%r12, %r8
	cmpq	$2, %r8
	jb	.LBB113_21
	movzbl	49(%rsp), %edx
	movq	24(%rsp), %rax
	leaq	(%rax,%r12), %rcx
	movq	16(%rsp), %rsi
	subq	%r13, %rsi
	movq	64(%rsp), %rbp
	movq	%rbp, %rdi
	addq	%r13, %rdi
	callq	"utf16_transcode::encode_lossy::write_replacement_and_more::<#8b18edd9dd9aa8df>"
	movq	%rax, %rbx
	movq	%rdx, %r14
	addq	%r13, %rbx
	addq	%r12, %r14
	leaq	(%rbx,%rbp), %r13
	movq	16(%rsp), %rbp
	subq	%rbx, %rbp
	movq	24(%rsp), %rax
	leaq	(%rax,%r14), %r12
	subq	%r14, %r15
	xorps	%xmm0, %xmm0
	movaps	%xmm0, 32(%rsp)
	movq	$0, 48(%rsp)
	movq	%r13, %rdi
	movq	%rbp, %rsi
	movq	%r12, %rdx
	movq	%r15, %rcx
	callq	"utf16_transcode::encode::FromUtf8Direction::begin::<#8b18edd9dd9aa8df>"
	movq	%r13, %rsi
	movq	%r12, %rcx
	movq	%rbx, %r13
	movq	%r14, %r12
	cmpq	%rbp, %rax
	jne	.LBB113_3
	jmp	.LBB113_8
.LBB113_6:
	movaps	%xmm0, 32(%rsp)
	movq	$0, 48(%rsp)
	movq	%r12, %rdi
	movq	%rbp, %rsi
	movq	%r14, %rdx
	movq	%r15, %rcx
	callq	"utf16_transcode::encode::FromUtf8Direction::begin::<#418c2b53cf60437c>"
	cmpq	%rbp, %rax
	jne	.LBB113_10
.LBB113_7:
	xorl	%r14d, %r14d
	xorl	%ebx, %ebx
.LBB113_8:
	addq	%rdx, %r14
	addq	%rbp, %rbx
	movq	%r14, %r12
	movq	%rbx, %r13
	movq	8(%rsp), %rax
	xorl	%ecx, %ecx
.LBB113_9:
	movq	%r13, (%rax)
	movq	%r12, 8(%rax)
	movl	%ecx, 16(%rax)
	movl	$0, 20(%rax)
	addq	$72, %rsp
	.cfi_def_cfa_offset 56
	popq	%rbx
	.cfi_def_cfa_offset 48
	popq	%r12
	.cfi_def_cfa_offset 40
	popq	%r13
	.cfi_def_cfa_offset 32
	popq	%r14
	.cfi_def_cfa_offset 24
	popq	%r15
	.cfi_def_cfa_offset 16
	popq	%rbp
	.cfi_def_cfa_offset 8
	retq
.LBB113_10:
	.cfi_def_cfa_offset 128
	xorl	%r13d, %r13d
	movq	%r14, %rcx
	movq	%r12, %rsi
	xorl	%r12d, %r12d
	.p2align	4
.LBB113_11:
	movq	%rdx, (%rsp)
	leaq	32(%rsp), %rdi
	movq	%rbp, %rdx
	movq	%r15, %r8
	movq	%rax, %r9
	callq	"utf16_transcode::transcoding::transcode_many::<#58ba01604e1c9b81>"
	addq	32(%rsp), %r13
	movzbl	48(%rsp), %edx
	addq	40(%rsp), %r12
	cmpl	$1, %edx
	jne	.LBB113_17
	movq	56(%rsp), %r15
	movq	%r15, %r8
	subq	%r12, %r8
	cmpq	$2, %r8
	jb	.LBB113_21
	movzbl	49(%rsp), %edx
	movq	24(%rsp), %rax
	leaq	(%rax,%r12), %rcx
	movq	16(%rsp), %rsi
	subq	%r13, %rsi
	movq	64(%rsp), %rbp
	movq	%rbp, %rdi
	addq	%r13, %rdi
	callq	"utf16_transcode::encode_lossy::write_replacement_and_more::<#418c2b53cf60437c>"
	movq	%rax, %rbx
	movq	%rdx, %r14
	addq	%r13, %rbx
	addq	%r12, %r14
	leaq	(%rbx,%rbp), %r13
	movq	16(%rsp), %rbp
	subq	%rbx, %rbp
	movq	24(%rsp), %rax
	leaq	(%rax,%r14), %r12
	subq	%r14, %r15
	xorps	%xmm0, %xmm0
	movaps	%xmm0, 32(%rsp)
	movq	$0, 48(%rsp)
	movq	%r13, %rdi
	movq	%rbp, %rsi
	movq	%r12, %rdx
	movq	%r15, %rcx
	callq	"utf16_transcode::encode::FromUtf8Direction::begin::<#418c2b53cf60437c>"
	movq	%r13, %rsi
	movq	%r12, %rcx
	movq	%rbx, %r13
	movq	%r14, %r12
	cmpq	%rbp, %rax
	jne	.LBB113_11
	jmp	.LBB113_8
.LBB113_14:
	cmpl	$2, %edx
	movq	56(%rsp), %rsi
	jne	.LBB113_20
	xorl	%ecx, %ecx
	movq	16(%rsp), %rdx
	cmpq	%r13, %rdx
	movq	8(%rsp), %rax
	je	.LBB113_16
	subq	%r12, %rsi
	cmpq	$2, %rsi
	jb	.LBB113_23
	movq	24(%rsp), %rdx
	movw	$-513, (%rdx,%r12)
	jmp	.LBB113_28
.LBB113_17:
	cmpl	$2, %edx
	movq	56(%rsp), %rsi
	jne	.LBB113_20
	xorl	%ecx, %ecx
	movq	16(%rsp), %rdx
	cmpq	%r13, %rdx
	movq	8(%rsp), %rax
	jne	.LBB113_24
.LBB113_16:
	movq	%rdx, %r13
	jmp	.LBB113_9
.LBB113_20:
	movq	8(%rsp), %rax
	xorl	%ecx, %ecx
	testb	%dl, %dl
	setne	%cl
	leal	(%rcx,%rcx,2), %ecx
	jmp	.LBB113_9
.LBB113_21:
	movl	$3, %ecx
	movq	8(%rsp), %rax
	jmp	.LBB113_9
.LBB113_24:
	subq	%r12, %rsi
	cmpq	$2, %rsi
	jae	.LBB113_27
.LBB113_23:
	movl	$3, %ecx
	jmp	.LBB113_9
.LBB113_27:
	movq	24(%rsp), %rdx
	movw	$-3, (%rdx,%r12)
.LBB113_28:
	addq	$2, %r12
	movq	16(%rsp), %r13
	jmp	.LBB113_9
.Lfunc_end113:
	.size	dethrux_from_utf8_lossy_v2, .Lfunc_end113-dethrux_from_utf8_lossy_v2
	.cfi_endproc

	.section	.text.dethrux_from_utf8_partial,"ax",@progbits
	.globl	dethrux_from_utf8_partial_v2
	.hidden	dethrux_from_utf8_partial_v2
	.p2align	4
	.type	dethrux_from_utf8_partial_v2,@function
dethrux_from_utf8_partial_v2:
	.cfi_startproc
	pushq	%rbp
	.cfi_def_cfa_offset 16
	pushq	%r15
	.cfi_def_cfa_offset 24
	pushq	%r14
	.cfi_def_cfa_offset 32
	pushq	%r13
	.cfi_def_cfa_offset 40
	pushq	%r12
	.cfi_def_cfa_offset 48
	pushq	%rbx
	.cfi_def_cfa_offset 56
	subq	$72, %rsp
	.cfi_def_cfa_offset 128
	.cfi_offset %rbx, -56
	.cfi_offset %r12, -48
	.cfi_offset %r13, -40
	.cfi_offset %r14, -32
	.cfi_offset %r15, -24
	.cfi_offset %rbp, -16
	movq	%r9, %r15
	movq	%rcx, %rbp
	xorl	%r14d, %r14d
	testq	%rdx, %rdx
	sete	%r14b
	shll	$12, %r14d
	addq	%rdx, %r14
	xorl	%r12d, %r12d
	testq	%r8, %r8
	sete	%r12b
	shll	$12, %r12d
	addq	%r8, %r12
	cmpl	$1, %esi
	movq	%rcx, 48(%rsp)
	movq	%r9, 64(%rsp)
	movq	%r14, 56(%rsp)
	movq	%r12, 40(%rsp)
	movq	%rdi, 8(%rsp)
	xorps	%xmm0, %xmm0
	jne	.LBB114_9
	movaps	%xmm0, 16(%rsp)
	movq	$0, 32(%rsp)
	movq	%r14, %rdi
	movq	%rbp, %rsi
	movq	%r12, %rdx
	movq	%r15, %rcx
	callq	"utf16_transcode::encode::FromUtf8Direction::begin::<#8b18edd9dd9aa8df>"
	cmpq	%rbp, %rax
	je	.LBB114_2
	xorl	%r13d, %r13d
	movq	%r12, %rcx
	movq	%r14, %rsi
	xorl	%r12d, %r12d
	.p2align	4
.LBB114_5:
	movq	%rdx, (%rsp)
	leaq	16(%rsp), %rdi
	movq	%rbp, %rdx
	movq	%r15, %r8
	movq	%rax, %r9
	callq	"utf16_transcode::transcoding::transcode_many::<#824f73f0383279b7>"
	addq	16(%rsp), %r13
	movzbl	32(%rsp), %ecx
	addq	24(%rsp), %r12
	cmpb	$1, %cl
	jne	.LBB114_12
	movq	64(%rsp), %r15
	movq	%r15, %r8
	subq	%r12, %r8
	cmpq	$2, %r8
	jb	.LBB114_7
	movzbl	33(%rsp), %edx
	movq	40(%rsp), %rax
	leaq	(%rax,%r12), %rcx
	movq	48(%rsp), %rsi
	subq	%r13, %rsi
	movq	56(%rsp), %rbp
	movq	%rbp, %rdi
	addq	%r13, %rdi
	callq	"utf16_transcode::encode_lossy::write_replacement_and_more::<#8b18edd9dd9aa8df>"
	movq	%rax, %rbx
	movq	%rdx, %r14
	addq	%r13, %rbx
	addq	%r12, %r14
	leaq	(%rbx,%rbp), %r13
	movq	48(%rsp), %rbp
	subq	%rbx, %rbp
	movq	40(%rsp), %rax
	leaq	(%rax,%r14), %r12
	subq	%r14, %r15
	xorps	%xmm0, %xmm0
	movaps	%xmm0, 16(%rsp)
	movq	$0, 32(%rsp)
	movq	%r13, %rdi
	movq	%rbp, %rsi
	movq	%r12, %rdx
	movq	%r15, %rcx
	callq	"utf16_transcode::encode::FromUtf8Direction::begin::<#8b18edd9dd9aa8df>"
	movq	%r13, %rsi
	movq	%r12, %rcx
	movq	%rbx, %r13
	movq	%r14, %r12
	cmpq	%rbp, %rax
	jne	.LBB114_5
	jmp	.LBB114_3
.LBB114_9:
	movaps	%xmm0, 16(%rsp)
	movq	$0, 32(%rsp)
	movq	%r14, %rdi
	movq	%rbp, %rsi
	movq	%r12, %rdx
	movq	%r15, %rcx
	callq	"utf16_transcode::encode::FromUtf8Direction::begin::<#418c2b53cf60437c>"
	cmpq	%rbp, %rax
	jne	.LBB114_10
.LBB114_2:
	xorl	%r14d, %r14d
	xorl	%ebx, %ebx
.LBB114_3:
	addq	%rdx, %r14
	addq	%rbp, %rbx
	movq	%r14, %r12
	movq	%rbx, %r13
	movq	8(%rsp), %rax
	xorl	%ecx, %ecx
	jmp	.LBB114_18
.LBB114_10:
	xorl	%r13d, %r13d
	movq	%r12, %rcx
	movq	%r14, %rsi
	xorl	%r12d, %r12d
	.p2align	4
.LBB114_11:
	movq	%rdx, (%rsp)
	leaq	16(%rsp), %rdi
	movq	%rbp, %rdx
	movq	%r15, %r8
	movq	%rax, %r9
	callq	"utf16_transcode::transcoding::transcode_many::<#58ba01604e1c9b81>"
	addq	16(%rsp), %r13
	movzbl	32(%rsp), %ecx
	addq	24(%rsp), %r12
	cmpb	$1, %cl
	jne	.LBB114_12
	movq	64(%rsp), %r15
	movq	%r15, %r8
	subq	%r12, %r8
	cmpq	$2, %r8
	jb	.LBB114_7
	movzbl	33(%rsp), %edx
	movq	40(%rsp), %rax
	leaq	(%rax,%r12), %rcx
	movq	48(%rsp), %rsi
	subq	%r13, %rsi
	movq	56(%rsp), %rbp
	movq	%rbp, %rdi
	addq	%r13, %rdi
	callq	"utf16_transcode::encode_lossy::write_replacement_and_more::<#418c2b53cf60437c>"
	movq	%rax, %rbx
	movq	%rdx, %r14
	addq	%r13, %rbx
	addq	%r12, %r14
	leaq	(%rbx,%rbp), %r13
	movq	48(%rsp), %rbp
	subq	%rbx, %rbp
	movq	40(%rsp), %rax
	leaq	(%rax,%r14), %r12
	subq	%r14, %r15
	xorps	%xmm0, %xmm0
	movaps	%xmm0, 16(%rsp)
	movq	$0, 32(%rsp)
	movq	%r13, %rdi
	movq	%rbp, %rsi
	movq	%r12, %rdx
	movq	%r15, %rcx
	callq	"utf16_transcode::encode::FromUtf8Direction::begin::<#418c2b53cf60437c>"
	movq	%r13, %rsi
	movq	%r12, %rcx
	movq	%rbx, %r13
	movq	%r14, %r12
	cmpq	%rbp, %rax
	jne	.LBB114_11
	jmp	.LBB114_3
.LBB114_12:
	movq	8(%rsp), %rax
	movzbl	%cl, %ecx
	testb	%cl, %cl
	je	.LBB114_18
	cmpl	$3, %ecx
	jne	.LBB114_14
	movl	$3, %ecx
	jmp	.LBB114_18
.LBB114_7:
	movl	$3, %ecx
	movq	8(%rsp), %rax
	jmp	.LBB114_18
.LBB114_14:
	movl	$2, %ecx
.LBB114_18:
	movq	%r13, (%rax)
	movq	%r12, 8(%rax)
	movl	%ecx, 16(%rax)
	movl	$0, 20(%rax)
	addq	$72, %rsp
	.cfi_def_cfa_offset 56
	popq	%rbx
	.cfi_def_cfa_offset 48
	popq	%r12
	.cfi_def_cfa_offset 40
	popq	%r13
	.cfi_def_cfa_offset 32
	popq	%r14
	.cfi_def_cfa_offset 24
	popq	%r15
	.cfi_def_cfa_offset 16
	popq	%rbp
	.cfi_def_cfa_offset 8
	retq
.Lfunc_end114:
	.size	dethrux_from_utf8_partial_v2, .Lfunc_end114-dethrux_from_utf8_partial_v2
	.cfi_endproc

	.section	.text.dethrux_from_wtf8,"ax",@progbits
	.globl	dethrux_from_wtf8_v2
	.hidden	dethrux_from_wtf8_v2
	.p2align	4
	.type	dethrux_from_wtf8_v2,@function
dethrux_from_wtf8_v2:
	.cfi_startproc
	pushq	%rbx
	.cfi_def_cfa_offset 16
	subq	$32, %rsp
	.cfi_def_cfa_offset 48
	.cfi_offset %rbx, -16
	movl	%esi, %r10d
	movq	%rdi, %rbx
	xorl	%esi, %esi
	testq	%rdx, %rdx
	sete	%sil
	shll	$12, %esi
	addq	%rdx, %rsi
	xorl	%eax, %eax
	testq	%r8, %r8
	sete	%al
	shll	$12, %eax
	addq	%r8, %rax
	xorps	%xmm0, %xmm0
	cmpl	$1, %r10d
	jne	.LBB115_2
	movaps	%xmm0, 16(%rsp)
	movaps	%xmm0, (%rsp)
	movq	%rsp, %rdi
	movq	%rcx, %rdx
	movq	%rax, %rcx
	movq	%r9, %r8
	callq	"utf16_wtf8::encode::transcode_wtf8::<#8b18edd9dd9aa8df>"
	movaps	(%rsp), %xmm0
	movzbl	17(%rsp), %ecx
	movzbl	16(%rsp), %eax
	leaq	.LJTI115_0(%rip), %rdx
	movslq	(%rdx,%rax,4), %rsi
	addq	%rdx, %rsi
	movl	%eax, %edx
	notrack jmpq	*%rsi
.LBB115_2:
	movaps	%xmm0, 16(%rsp)
	movaps	%xmm0, (%rsp)
	movq	%rsp, %rdi
	movq	%rcx, %rdx
	movq	%rax, %rcx
	movq	%r9, %r8
	callq	"utf16_wtf8::encode::transcode_wtf8::<#418c2b53cf60437c>"
	movaps	(%rsp), %xmm0
	movzbl	17(%rsp), %ecx
	movzbl	16(%rsp), %eax
	leaq	.LJTI115_0(%rip), %rdx
	movslq	(%rdx,%rax,4), %rsi
	addq	%rdx, %rsi
	movl	%eax, %edx
	notrack jmpq	*%rsi
.LBB115_3:
	movzbl	%cl, %edx
	movl	$1, %eax
	jmp	.LBB115_6
.LBB115_4:
	xorl	%edx, %edx
	movl	$2, %eax
	jmp	.LBB115_6
.LBB115_5:
	xorl	%edx, %edx
	movl	$3, %eax
.LBB115_6:
	movups	%xmm0, (%rbx)
	movl	%eax, 16(%rbx)
	movl	%edx, 20(%rbx)
	movq	%rbx, %rax
	addq	$32, %rsp
	.cfi_def_cfa_offset 16
	popq	%rbx
	.cfi_def_cfa_offset 8
	retq
.Lfunc_end115:
	.size	dethrux_from_wtf8_v2, .Lfunc_end115-dethrux_from_wtf8_v2
	.cfi_endproc
	.section	.rodata.dethrux_from_wtf8,"a",@progbits
	.p2align	2, 0x0
.LJTI115_0:
	.long	.LBB115_6-.LJTI115_0
	.long	.LBB115_3-.LJTI115_0
	.long	.LBB115_4-.LJTI115_0
	.long	.LBB115_5-.LJTI115_0

	.section	.rodata.cst16,"aM",@progbits,16
	.p2align	4, 0x0
.LCPI116_0:
	.quad	-3
	.quad	-2
	.section	.text.dethrux_from_wtf8_partial,"ax",@progbits
	.globl	dethrux_from_wtf8_partial_v2
	.hidden	dethrux_from_wtf8_partial_v2
	.p2align	4
	.type	dethrux_from_wtf8_partial_v2,@function
dethrux_from_wtf8_partial_v2:
	.cfi_startproc
	pushq	%rbx
	.cfi_def_cfa_offset 16
	subq	$32, %rsp
	.cfi_def_cfa_offset 48
	.cfi_offset %rbx, -16
	movl	%esi, %r10d
	movq	%rdi, %rbx
	xorl	%esi, %esi
	testq	%rdx, %rdx
	sete	%sil
	shll	$12, %esi
	addq	%rdx, %rsi
	xorl	%eax, %eax
	testq	%r8, %r8
	sete	%al
	shll	$12, %eax
	addq	%r8, %rax
	xorps	%xmm0, %xmm0
	cmpl	$1, %r10d
	jne	.LBB116_5
	movaps	%xmm0, 16(%rsp)
	movaps	%xmm0, (%rsp)
	movq	%rsp, %rdi
	movq	%rcx, %rdx
	movq	%rax, %rcx
	movq	%r9, %r8
	callq	"utf16_wtf8::encode::transcode_wtf8::<#8b18edd9dd9aa8df>"
	movdqa	(%rsp), %xmm0
	movzbl	16(%rsp), %eax
	movzbl	17(%rsp), %ecx
	cmpb	$1, 24(%rsp)
	jne	.LBB116_4
	movl	%eax, %edx
	leaq	.LJTI116_1(%rip), %rsi
	movslq	(%rsi,%rdx,4), %rdx
	addq	%rsi, %rdx
	notrack jmpq	*%rdx
.LBB116_3:
	paddq	.LCPI116_0(%rip), %xmm0
	movb	$2, %al
	xorl	%ecx, %ecx
	movzbl	%al, %eax
	leaq	.LJTI116_2(%rip), %rdx
	movslq	(%rdx,%rax,4), %rsi
	addq	%rdx, %rsi
	movl	%eax, %edx
	notrack jmpq	*%rsi
.LBB116_5:
	movaps	%xmm0, 16(%rsp)
	movaps	%xmm0, (%rsp)
	movq	%rsp, %rdi
	movq	%rcx, %rdx
	movq	%rax, %rcx
	movq	%r9, %r8
	callq	"utf16_wtf8::encode::transcode_wtf8::<#418c2b53cf60437c>"
	movdqa	(%rsp), %xmm0
	movzbl	16(%rsp), %eax
	movzbl	17(%rsp), %ecx
	cmpb	$1, 24(%rsp)
	jne	.LBB116_8
	movl	%eax, %edx
	leaq	.LJTI116_0(%rip), %rsi
	movslq	(%rsi,%rdx,4), %rdx
	addq	%rsi, %rdx
	notrack jmpq	*%rdx
.LBB116_7:
	paddq	.LCPI116_0(%rip), %xmm0
	movb	$2, %al
	xorl	%ecx, %ecx
	movzbl	%al, %eax
	leaq	.LJTI116_2(%rip), %rdx
	movslq	(%rdx,%rax,4), %rsi
	addq	%rdx, %rsi
	movl	%eax, %edx
	notrack jmpq	*%rsi
.LBB116_4:
	leaq	.LJTI116_2(%rip), %rdx
	movslq	(%rdx,%rax,4), %rsi
	addq	%rdx, %rsi
	movl	%eax, %edx
	notrack jmpq	*%rsi
.LBB116_8:
	leaq	.LJTI116_2(%rip), %rdx
	movslq	(%rdx,%rax,4), %rsi
	addq	%rdx, %rsi
	movl	%eax, %edx
	notrack jmpq	*%rsi
.LBB116_9:
	movzbl	%cl, %edx
	movl	$1, %eax
	jmp	.LBB116_12
.LBB116_10:
	xorl	%edx, %edx
	movl	$2, %eax
	jmp	.LBB116_12
.LBB116_11:
	xorl	%edx, %edx
	movl	$3, %eax
.LBB116_12:
	movdqu	%xmm0, (%rbx)
	movl	%eax, 16(%rbx)
	movl	%edx, 20(%rbx)
	movq	%rbx, %rax
	addq	$32, %rsp
	.cfi_def_cfa_offset 16
	popq	%rbx
	.cfi_def_cfa_offset 8
	retq
.Lfunc_end116:
	.size	dethrux_from_wtf8_partial_v2, .Lfunc_end116-dethrux_from_wtf8_partial_v2
	.cfi_endproc
	.section	.rodata.dethrux_from_wtf8_partial,"a",@progbits
	.p2align	2, 0x0
.LJTI116_0:
	.long	.LBB116_7-.LJTI116_0
	.long	.LBB116_8-.LJTI116_0
	.long	.LBB116_7-.LJTI116_0
	.long	.LBB116_8-.LJTI116_0
.LJTI116_1:
	.long	.LBB116_3-.LJTI116_1
	.long	.LBB116_4-.LJTI116_1
	.long	.LBB116_3-.LJTI116_1
	.long	.LBB116_4-.LJTI116_1
.LJTI116_2:
	.long	.LBB116_12-.LJTI116_2
	.long	.LBB116_9-.LJTI116_2
	.long	.LBB116_10-.LJTI116_2
	.long	.LBB116_11-.LJTI116_2

	.section	.text.dethrux_to_utf32,"ax",@progbits
	.globl	dethrux_to_utf32_v2
	.hidden	dethrux_to_utf32_v2
	.p2align	4
	.type	dethrux_to_utf32_v2,@function
dethrux_to_utf32_v2:
	.cfi_startproc
	pushq	%rbx
	.cfi_def_cfa_offset 16
	subq	$32, %rsp
	.cfi_def_cfa_offset 48
	.cfi_offset %rbx, -16
	movl	%esi, %r10d
	movq	%rdi, %rbx
	xorl	%esi, %esi
	testq	%rdx, %rdx
	sete	%sil
	shll	$12, %esi
	addq	%rdx, %rsi
	xorl	%eax, %eax
	testq	%r8, %r8
	sete	%al
	shll	$12, %eax
	addq	%r8, %rax
	xorps	%xmm0, %xmm0
	movaps	%xmm0, (%rsp)
	movq	$0, 16(%rsp)
	movq	%rsp, %rdi
	movq	%rcx, %rdx
	movq	%rax, %rcx
	movq	%r9, %r8
	cmpl	$1, %r10d
	jne	.LBB117_2
	callq	"utf16_fixed::decode::to_utf32::<#8b18edd9dd9aa8df>"
	movaps	(%rsp), %xmm0
	movzbl	16(%rsp), %eax
	leaq	.LJTI117_0(%rip), %rcx
	movslq	(%rcx,%rax,4), %rdx
	addq	%rcx, %rdx
	movl	%eax, %ecx
	notrack jmpq	*%rdx
.LBB117_2:
	callq	"utf16_fixed::decode::to_utf32::<#418c2b53cf60437c>"
	movaps	(%rsp), %xmm0
	movzbl	16(%rsp), %eax
	leaq	.LJTI117_0(%rip), %rcx
	movslq	(%rcx,%rax,4), %rdx
	addq	%rcx, %rdx
	movl	%eax, %ecx
	notrack jmpq	*%rdx
.LBB117_3:
	movzbl	17(%rsp), %ecx
	movl	$1, %eax
	jmp	.LBB117_6
.LBB117_4:
	xorl	%ecx, %ecx
	movl	$2, %eax
	jmp	.LBB117_6
.LBB117_5:
	xorl	%ecx, %ecx
	movl	$3, %eax
.LBB117_6:
	movups	%xmm0, (%rbx)
	movl	%eax, 16(%rbx)
	movl	%ecx, 20(%rbx)
	movq	%rbx, %rax
	addq	$32, %rsp
	.cfi_def_cfa_offset 16
	popq	%rbx
	.cfi_def_cfa_offset 8
	retq
.Lfunc_end117:
	.size	dethrux_to_utf32_v2, .Lfunc_end117-dethrux_to_utf32_v2
	.cfi_endproc
	.section	.rodata.dethrux_to_utf32,"a",@progbits
	.p2align	2, 0x0
.LJTI117_0:
	.long	.LBB117_6-.LJTI117_0
	.long	.LBB117_3-.LJTI117_0
	.long	.LBB117_4-.LJTI117_0
	.long	.LBB117_5-.LJTI117_0

	.section	.text.dethrux_to_utf32_lossy,"ax",@progbits
	.globl	dethrux_to_utf32_lossy_v2
	.hidden	dethrux_to_utf32_lossy_v2
	.p2align	4
	.type	dethrux_to_utf32_lossy_v2,@function
dethrux_to_utf32_lossy_v2:
	.cfi_startproc
	pushq	%rbp
	.cfi_def_cfa_offset 16
	pushq	%r15
	.cfi_def_cfa_offset 24
	pushq	%r14
	.cfi_def_cfa_offset 32
	pushq	%r13
	.cfi_def_cfa_offset 40
	pushq	%r12
	.cfi_def_cfa_offset 48
	pushq	%rbx
	.cfi_def_cfa_offset 56
	subq	$40, %rsp
	.cfi_def_cfa_offset 96
	.cfi_offset %rbx, -56
	.cfi_offset %r12, -48
	.cfi_offset %r13, -40
	.cfi_offset %r14, -32
	.cfi_offset %r15, -24
	.cfi_offset %rbp, -16
	movq	%r9, %rbx
	movq	%rcx, %r15
	movq	%rdi, 32(%rsp)
	xorl	%r13d, %r13d
	testq	%rdx, %rdx
	sete	%r13b
	shll	$12, %r13d
	addq	%rdx, %r13
	xorl	%r12d, %r12d
	testq	%r8, %r8
	sete	%r12b
	shll	$12, %r12d
	addq	%r8, %r12
	xorps	%xmm0, %xmm0
	cmpl	$1, %esi
	jne	.LBB118_7
	movaps	%xmm0, (%rsp)
	movq	$0, 16(%rsp)
	movq	%rsp, %rdi
	movq	%r13, %rsi
	movq	%r15, %rdx
	movq	%r12, %rcx
	movq	%rbx, %r8
	callq	"utf16_fixed::decode::to_utf32::<#8b18edd9dd9aa8df>"
	movq	(%rsp), %rbp
	movq	8(%rsp), %r14
	movzbl	16(%rsp), %eax
	cmpb	$1, %al
	jne	.LBB118_4
	.p2align	4
.LBB118_2:
	cmpq	%rbx, %r14
	je	.LBB118_12
	movzbl	17(%rsp), %eax
	movl	$65533, (%r12,%r14,4)
	addq	%rax, %rbp
	movq	%r13, %rsi
	addq	%rbp, %rsi
	movq	%r15, %rdx
	subq	%rbp, %rdx
	leaq	(%r12,%r14,4), %rcx
	addq	$4, %rcx
	incq	%r14
	movq	%rbx, %r8
	subq	%r14, %r8
	movq	%rsp, %rdi
	callq	"utf16_fixed::decode::to_utf32::<#8b18edd9dd9aa8df>"
	addq	(%rsp), %rbp
	addq	8(%rsp), %r14
	movzbl	16(%rsp), %eax
	cmpb	$1, %al
	je	.LBB118_2
	jmp	.LBB118_4
.LBB118_7:
	movaps	%xmm0, (%rsp)
	movq	$0, 16(%rsp)
	movq	%rsp, %rdi
	movq	%r13, %rsi
	movq	%r15, %rdx
	movq	%r12, %rcx
	movq	%rbx, %r8
	callq	"utf16_fixed::decode::to_utf32::<#418c2b53cf60437c>"
	movq	(%rsp), %rbp
	movq	8(%rsp), %r14
	movzbl	16(%rsp), %eax
	cmpb	$1, %al
	jne	.LBB118_4
	.p2align	4
.LBB118_8:
	cmpq	%rbx, %r14
	je	.LBB118_12
	movzbl	17(%rsp), %eax
	movl	$65533, (%r12,%r14,4)
	addq	%rax, %rbp
	movq	%r13, %rsi
	addq	%rbp, %rsi
	movq	%r15, %rdx
	subq	%rbp, %rdx
	leaq	(%r12,%r14,4), %rcx
	addq	$4, %rcx
	incq	%r14
	movq	%rbx, %r8
	subq	%r14, %r8
	movq	%rsp, %rdi
	callq	"utf16_fixed::decode::to_utf32::<#418c2b53cf60437c>"
	addq	(%rsp), %rbp
	addq	8(%rsp), %r14
	movzbl	16(%rsp), %eax
	cmpb	$1, %al
	je	.LBB118_8
.LBB118_4:
	cmpb	$2, %al
	jne	.LBB118_10
	movl	$3, %ecx
	cmpq	%rbx, %r14
	je	.LBB118_13
	movl	$65533, (%r12,%r14,4)
	incq	%r14
	xorl	%ecx, %ecx
	movq	%r14, %rbx
	movq	%r15, %rbp
	jmp	.LBB118_13
.LBB118_10:
	xorl	%ecx, %ecx
	testb	%al, %al
	setne	%cl
	leal	(%rcx,%rcx,2), %ecx
	movq	%r14, %rbx
	jmp	.LBB118_13
.LBB118_12:
	movl	$3, %ecx
.LBB118_13:
	movq	32(%rsp), %rax
	movq	%rbp, (%rax)
	movq	%rbx, 8(%rax)
	movl	%ecx, 16(%rax)
	movl	$0, 20(%rax)
	addq	$40, %rsp
	.cfi_def_cfa_offset 56
	popq	%rbx
	.cfi_def_cfa_offset 48
	popq	%r12
	.cfi_def_cfa_offset 40
	popq	%r13
	.cfi_def_cfa_offset 32
	popq	%r14
	.cfi_def_cfa_offset 24
	popq	%r15
	.cfi_def_cfa_offset 16
	popq	%rbp
	.cfi_def_cfa_offset 8
	retq
.Lfunc_end118:
	.size	dethrux_to_utf32_lossy_v2, .Lfunc_end118-dethrux_to_utf32_lossy_v2
	.cfi_endproc

	.section	.rodata.cst16,"aM",@progbits,16
	.p2align	4, 0x0
.LCPI119_0:
	.short	128
	.short	128
	.short	128
	.short	128
	.short	128
	.short	128
	.short	128
	.short	128
.LCPI119_1:
	.byte	1
	.byte	0
	.byte	3
	.byte	2
	.byte	5
	.byte	4
	.byte	7
	.byte	6
	.byte	9
	.byte	8
	.byte	11
	.byte	10
	.byte	13
	.byte	12
	.byte	15
	.byte	14
	.section	.text.dethrux_to_utf8,"ax",@progbits
	.globl	dethrux_to_utf8_v2
	.hidden	dethrux_to_utf8_v2
	.p2align	4
	.type	dethrux_to_utf8_v2,@function
dethrux_to_utf8_v2:
	.cfi_startproc
	pushq	%rbp
	.cfi_def_cfa_offset 16
	pushq	%r15
	.cfi_def_cfa_offset 24
	pushq	%r14
	.cfi_def_cfa_offset 32
	pushq	%r13
	.cfi_def_cfa_offset 40
	pushq	%r12
	.cfi_def_cfa_offset 48
	pushq	%rbx
	.cfi_def_cfa_offset 56
	subq	$56, %rsp
	.cfi_def_cfa_offset 112
	.cfi_offset %rbx, -56
	.cfi_offset %r12, -48
	.cfi_offset %r13, -40
	.cfi_offset %r14, -32
	.cfi_offset %r15, -24
	.cfi_offset %rbp, -16
	movq	%rdi, %r14
	xorl	%eax, %eax
	testq	%rdx, %rdx
	sete	%al
	shll	$12, %eax
	leaq	(%rdx,%rax), %r12
	xorl	%r15d, %r15d
	testq	%r8, %r8
	sete	%r15b
	shll	$12, %r15d
	addq	%r8, %r15
	leaq	-16(%rcx), %rdi
	pxor	%xmm0, %xmm0
	cmpl	$1, %esi
	jne	.LBB119_9
	movdqa	%xmm0, 16(%rsp)
	movq	$0, 32(%rsp)
	cmpq	$175, %rdi
	ja	.LBB119_17
	movq	%rcx, %rax
	shrq	%rax
	cmpq	%rax, %r9
	cmovbq	%r9, %rax
	cmpq	$8, %rax
	jb	.LBB119_17
	leaq	(%rax,%rax), %rdx
	xorl	%r13d, %r13d
	xorl	%ebp, %ebp
	.p2align	4
.LBB119_4:
	movdqu	(%r12,%rbp,2), %xmm0
	pshufb	.LCPI119_1(%rip), %xmm0
	movdqa	.LCPI119_0(%rip), %xmm1
	pmaxuw	%xmm0, %xmm1
	pcmpeqw	%xmm0, %xmm1
	pmovmskb	%xmm1, %esi
	testl	%esi, %esi
	jne	.LBB119_39
	packuswb	%xmm0, %xmm0
	movq	%xmm0, (%r15,%rbp)
	addq	$8, %rbp
	leaq	(%rdx,%r13), %rsi
	addq	$-16, %rsi
	addq	$-16, %r13
	cmpq	$15, %rsi
	ja	.LBB119_4
	negq	%r13
	cmpq	%r13, %rdx
	jbe	.LBB119_18
	movdqu	-16(%r12,%rdx), %xmm0
	pshufb	.LCPI119_1(%rip), %xmm0
	movdqa	.LCPI119_0(%rip), %xmm1
	pmaxuw	%xmm0, %xmm1
	pcmpeqw	%xmm0, %xmm1
	pmovmskb	%xmm1, %esi
	testl	%esi, %esi
	jne	.LBB119_18
	packuswb	%xmm0, %xmm0
	movq	%xmm0, -8(%r15,%rax)
	movq	%rax, %rbp
	movq	%rdx, %r13
	movq	%rcx, %rax
	subq	%r13, %rax
	cmpq	$15, %rax
	ja	.LBB119_19
	jmp	.LBB119_40
.LBB119_9:
	movdqa	%xmm0, 16(%rsp)
	movq	$0, 32(%rsp)
	cmpq	$175, %rdi
	ja	.LBB119_22
	movq	%rcx, %rsi
	shrq	%rsi
	cmpq	%rsi, %r9
	cmovbq	%r9, %rsi
	cmpq	$8, %rsi
	jb	.LBB119_22
	leaq	(%rsi,%rsi), %rdi
	xorl	%r13d, %r13d
	xorl	%ebp, %ebp
	.p2align	4
.LBB119_12:
	movdqu	(%r12,%rbp,2), %xmm0
	movdqa	.LCPI119_0(%rip), %xmm1
	pmaxuw	%xmm0, %xmm1
	pcmpeqw	%xmm0, %xmm1
	pmovmskb	%xmm1, %r8d
	testl	%r8d, %r8d
	jne	.LBB119_49
	packuswb	%xmm0, %xmm0
	movq	%xmm0, (%r15,%rbp)
	addq	$8, %rbp
	leaq	(%rdi,%r13), %r8
	addq	$-16, %r8
	addq	$-16, %r13
	cmpq	$15, %r8
	ja	.LBB119_12
	negq	%r13
	cmpq	%r13, %rdi
	jbe	.LBB119_23
	movdqu	-16(%r12,%rdi), %xmm0
	movdqa	.LCPI119_0(%rip), %xmm1
	pmaxuw	%xmm0, %xmm1
	pcmpeqw	%xmm0, %xmm1
	pmovmskb	%xmm1, %r8d
	testl	%r8d, %r8d
	jne	.LBB119_23
	packuswb	%xmm0, %xmm0
	movq	%xmm0, -8(%r15,%rsi)
	movq	%rsi, %rbp
	movq	%rdi, %r13
	movq	%rcx, %rsi
	subq	%r13, %rsi
	cmpq	$15, %rsi
	ja	.LBB119_24
	jmp	.LBB119_50
.LBB119_17:
	xorl	%ebp, %ebp
	xorl	%r13d, %r13d
.LBB119_18:
	movq	%rcx, %rax
	subq	%r13, %rax
	cmpq	$15, %rax
	jbe	.LBB119_40
.LBB119_19:
	leaq	-8(%rcx), %rax
	cmpq	$183, %rax
	ja	.LBB119_27
	movq	%rcx, %rsi
	subq	%r13, %rsi
	cmpq	$8, %rsi
	jae	.LBB119_29
.LBB119_27:
	movq	%r9, %rbx
	cmpq	%rcx, %r13
	jne	.LBB119_30
	jmp	.LBB119_32
.LBB119_22:
	xorl	%ebp, %ebp
	xorl	%r13d, %r13d
.LBB119_23:
	movq	%rcx, %rsi
	subq	%r13, %rsi
	cmpq	$15, %rsi
	jbe	.LBB119_50
.LBB119_24:
	leaq	-8(%rcx), %rax
	cmpq	$183, %rax
	ja	.LBB119_28
	movq	%rcx, %rsi
	subq	%r13, %rsi
	cmpq	$8, %rsi
	jae	.LBB119_31
.LBB119_28:
	movq	%r9, %rbx
	cmpq	%rcx, %r13
	je	.LBB119_32
	jmp	.LBB119_35
.LBB119_29:
	leaq	(%r12,%r13), %rdi
	leaq	(%r15,%rbp), %rdx
	movq	%r9, %rbx
	movq	%r9, %rax
	subq	%rbp, %rax
	movq	%r14, 48(%rsp)
	movq	%rcx, %r14
	movq	%rax, %rcx
	callq	"utf16_to_utf8::vectors::write_vectors::<#8b18edd9dd9aa8df>"
	movq	%r14, %rcx
	movq	48(%rsp), %r14
	addq	%rax, %r13
	addq	%rdx, %rbp
	cmpq	%rcx, %r13
	je	.LBB119_32
.LBB119_30:
	movq	%rbp, (%rsp)
	leaq	16(%rsp), %rdi
	movq	%r12, %rsi
	movq	%rcx, %rdx
	movq	%r15, %rcx
	movq	%rbx, %r8
	movq	%r13, %r9
	callq	"utf16_transcode::transcoding::transcode_many::<#b8dc3d53e12e85b3>"
	movq	16(%rsp), %rcx
	movq	24(%rsp), %rbp
	movzbl	32(%rsp), %edx
	movzbl	%dl, %eax
	leaq	.LJTI119_1(%rip), %rsi
	movslq	(%rsi,%rax,4), %rdi
	addq	%rsi, %rdi
	notrack jmpq	*%rdi
.LBB119_31:
	leaq	(%r12,%r13), %rdi
	leaq	(%r15,%rbp), %rdx
	movq	%r9, %rbx
	movq	%r9, %rax
	subq	%rbp, %rax
	movq	%r14, 48(%rsp)
	movq	%rcx, %r14
	movq	%rax, %rcx
	callq	"utf16_to_utf8::vectors::write_vectors::<#418c2b53cf60437c>"
	movq	%r14, %rcx
	movq	48(%rsp), %r14
	addq	%rax, %r13
	addq	%rdx, %rbp
	cmpq	%rcx, %r13
	jne	.LBB119_35
.LBB119_32:
	xorl	%eax, %eax
.LBB119_33:
	xorl	%edx, %edx
.LBB119_34:
	movzbl	%dl, %edx
	movq	%rcx, (%r14)
	movq	%rbp, 8(%r14)
	movl	%eax, 16(%r14)
	movl	%edx, 20(%r14)
	movq	%r14, %rax
	addq	$56, %rsp
	.cfi_def_cfa_offset 56
	popq	%rbx
	.cfi_def_cfa_offset 48
	popq	%r12
	.cfi_def_cfa_offset 40
	popq	%r13
	.cfi_def_cfa_offset 32
	popq	%r14
	.cfi_def_cfa_offset 24
	popq	%r15
	.cfi_def_cfa_offset 16
	popq	%rbp
	.cfi_def_cfa_offset 8
	retq
.LBB119_35:
	.cfi_def_cfa_offset 112
	movq	%rbp, (%rsp)
	leaq	16(%rsp), %rdi
	movq	%r12, %rsi
	movq	%rcx, %rdx
	movq	%r15, %rcx
	movq	%rbx, %r8
	movq	%r13, %r9
	callq	"utf16_transcode::transcoding::transcode_many::<#556930da7d070edc>"
	movq	16(%rsp), %rcx
	movq	24(%rsp), %rbp
	movzbl	32(%rsp), %edx
	movzbl	%dl, %eax
	leaq	.LJTI119_0(%rip), %rsi
	movslq	(%rsi,%rax,4), %rdi
	addq	%rsi, %rdi
	notrack jmpq	*%rdi
.LBB119_36:
	movzbl	33(%rsp), %edx
	movl	$1, %eax
	jmp	.LBB119_34
.LBB119_37:
	movl	$2, %eax
	jmp	.LBB119_33
.LBB119_38:
	movl	$3, %eax
	jmp	.LBB119_33
.LBB119_39:
	negq	%r13
	movq	%rcx, %rax
	subq	%r13, %rax
	cmpq	$15, %rax
	ja	.LBB119_19
.LBB119_40:
	cmpq	$2, %rax
	jb	.LBB119_19
	movq	%r9, %rdx
	subq	%rbp, %rdx
	movq	%rax, %rsi
	shrq	%rsi
	leaq	(%rsi,%rsi,2), %rsi
	cmpq	%rsi, %rdx
	jae	.LBB119_44
	jmp	.LBB119_19
	.p2align	4
.LBB119_42:
	movb	%dl, (%r15,%rbp)
	incq	%rbp
.LBB119_43:
	addq	$2, %r13
	addq	$-2, %rax
	cmpq	$1, %rax
	jbe	.LBB119_19
.LBB119_44:
	movzwl	(%r12,%r13), %edx
	rolw	$8, %dx
	cmpw	$127, %dx
	jbe	.LBB119_42
	movzwl	%dx, %esi
	cmpl	$2047, %esi
	ja	.LBB119_47
	shrl	$6, %esi
	andl	$63, %edx
	shll	$8, %edx
	orl	%esi, %edx
	orl	$32960, %edx
	movw	%dx, (%r15,%rbp)
	addq	$2, %rbp
	jmp	.LBB119_43
	.p2align	4
.LBB119_47:
	movl	%edx, %edi
	andl	$63488, %edi
	cmpl	$55296, %edi
	je	.LBB119_19
	movl	%edx, %edi
	andb	$63, %dil
	orb	$-128, %dil
	shrl	$6, %edx
	andb	$63, %dl
	orb	$-128, %dl
	shrl	$12, %esi
	orb	$-32, %sil
	movb	%sil, (%r15,%rbp)
	movb	%dl, 1(%r15,%rbp)
	movb	%dil, 2(%r15,%rbp)
	addq	$3, %rbp
	jmp	.LBB119_43
.LBB119_49:
	negq	%r13
	movq	%rcx, %rsi
	subq	%r13, %rsi
	cmpq	$15, %rsi
	ja	.LBB119_24
.LBB119_50:
	cmpq	$2, %rsi
	jb	.LBB119_24
	movq	%r9, %rdi
	subq	%rbp, %rdi
	movq	%rsi, %r8
	shrq	%r8
	leaq	(%r8,%r8,2), %r8
	cmpq	%r8, %rdi
	jb	.LBB119_24
	addq	%rdx, %rax
	incq	%rax
	jmp	.LBB119_55
	.p2align	4
.LBB119_53:
	movb	%dl, (%r15,%rbp)
	incq	%rbp
.LBB119_54:
	addq	$2, %r13
	addq	$-2, %rsi
	cmpq	$1, %rsi
	jbe	.LBB119_24
.LBB119_55:
	movzbl	-1(%rax,%r13), %edx
	movzbl	(%rax,%r13), %r8d
	movl	%r8d, %edi
	shll	$8, %edi
	orl	%edx, %edi
	cmpw	$127, %di
	jbe	.LBB119_53
	cmpb	$7, %r8b
	ja	.LBB119_58
	movzwl	%dx, %edx
	andl	$63, %edx
	shll	$8, %edx
	movzwl	%di, %edi
	shrl	$6, %edi
	orl	%edx, %edi
	orl	$32960, %edi
	movw	%di, (%r15,%rbp)
	addq	$2, %rbp
	jmp	.LBB119_54
	.p2align	4
.LBB119_58:
	movzwl	%r8w, %r10d
	andl	$-8, %r10d
	cmpl	$216, %r10d
	je	.LBB119_24
	andb	$63, %dl
	orb	$-128, %dl
	shrl	$6, %edi
	andb	$63, %dil
	orb	$-128, %dil
	shrb	$4, %r8b
	orb	$-32, %r8b
	movb	%r8b, (%r15,%rbp)
	movb	%dil, 1(%r15,%rbp)
	movb	%dl, 2(%r15,%rbp)
	addq	$3, %rbp
	jmp	.LBB119_54
.Lfunc_end119:
	.size	dethrux_to_utf8_v2, .Lfunc_end119-dethrux_to_utf8_v2
	.cfi_endproc
	.section	.rodata.dethrux_to_utf8,"a",@progbits
	.p2align	2, 0x0
.LJTI119_0:
	.long	.LBB119_34-.LJTI119_0
	.long	.LBB119_36-.LJTI119_0
	.long	.LBB119_37-.LJTI119_0
	.long	.LBB119_38-.LJTI119_0
.LJTI119_1:
	.long	.LBB119_34-.LJTI119_1
	.long	.LBB119_36-.LJTI119_1
	.long	.LBB119_37-.LJTI119_1
	.long	.LBB119_38-.LJTI119_1

	.section	.rodata.cst16,"aM",@progbits,16
	.p2align	4, 0x0
.LCPI120_0:
	.short	128
	.short	128
	.short	128
	.short	128
	.short	128
	.short	128
	.short	128
	.short	128
.LCPI120_1:
	.byte	1
	.byte	0
	.byte	3
	.byte	2
	.byte	5
	.byte	4
	.byte	7
	.byte	6
	.byte	9
	.byte	8
	.byte	11
	.byte	10
	.byte	13
	.byte	12
	.byte	15
	.byte	14
	.section	.text.dethrux_to_utf8_lossy,"ax",@progbits
	.globl	dethrux_to_utf8_lossy_v2
	.hidden	dethrux_to_utf8_lossy_v2
	.p2align	4
	.type	dethrux_to_utf8_lossy_v2,@function
dethrux_to_utf8_lossy_v2:
	.cfi_startproc
	pushq	%rbp
	.cfi_def_cfa_offset 16
	pushq	%r15
	.cfi_def_cfa_offset 24
	pushq	%r14
	.cfi_def_cfa_offset 32
	pushq	%r13
	.cfi_def_cfa_offset 40
	pushq	%r12
	.cfi_def_cfa_offset 48
	pushq	%rbx
	.cfi_def_cfa_offset 56
	subq	$104, %rsp
	.cfi_def_cfa_offset 160
	.cfi_offset %rbx, -56
	.cfi_offset %r12, -48
	.cfi_offset %r13, -40
	.cfi_offset %r14, -32
	.cfi_offset %r15, -24
	.cfi_offset %rbp, -16
	movq	%r9, 40(%rsp)
	movq	%rcx, %r11
	movq	%rdi, 16(%rsp)
	xorl	%eax, %eax
	testq	%rdx, %rdx
	sete	%al
	shll	$12, %eax
	leaq	(%rdx,%rax), %rcx
	movq	%rcx, 56(%rsp)
	xorl	%edi, %edi
	testq	%r8, %r8
	sete	%dil
	shll	$12, %edi
	addq	%r8, %rdi
	cmpl	$1, %esi
	movq	%r11, 24(%rsp)
	movq	%rdi, 32(%rsp)
	jne	.LBB120_39
	xorl	%r14d, %r14d
	xorl	%r15d, %r15d
	jmp	.LBB120_5
	.p2align	4
.LBB120_2:
	movb	$-67, 2(%rbx)
	movw	$-16401, (%rbx)
.LBB120_3:
	movl	$3, %edx
.LBB120_4:
	addq	%rax, %r15
	addq	%rdx, %r14
.LBB120_5:
	movq	56(%rsp), %rax
	leaq	(%rax,%r15), %r13
	movq	%r11, %rdx
	subq	%r15, %rdx
	leaq	(%rdi,%r14), %r12
	movq	40(%rsp), %r8
	subq	%r14, %r8
	pxor	%xmm0, %xmm0
	movdqa	%xmm0, 64(%rsp)
	movq	$0, 80(%rsp)
	leaq	-16(%rdx), %rax
	cmpq	$175, %rax
	ja	.LBB120_13
	movq	%rdx, %rax
	shrq	%rax
	cmpq	%rax, %r8
	cmovbq	%r8, %rax
	cmpq	$8, %rax
	jb	.LBB120_13
	leaq	(%rax,%rax), %rcx
	xorl	%r9d, %r9d
	xorl	%ebx, %ebx
	.p2align	4
.LBB120_8:
	movdqu	(%r13,%rbx,2), %xmm0
	pshufb	.LCPI120_1(%rip), %xmm0
	movdqa	.LCPI120_0(%rip), %xmm1
	pmaxuw	%xmm0, %xmm1
	pcmpeqw	%xmm0, %xmm1
	pmovmskb	%xmm1, %esi
	testl	%esi, %esi
	jne	.LBB120_29
	packuswb	%xmm0, %xmm0
	movq	%xmm0, (%r12,%rbx)
	addq	$8, %rbx
	leaq	(%rcx,%r9), %rsi
	addq	$-16, %rsi
	addq	$-16, %r9
	cmpq	$15, %rsi
	ja	.LBB120_8
	negq	%r9
	cmpq	%r9, %rcx
	jbe	.LBB120_14
	movdqu	-16(%r13,%rcx), %xmm0
	pshufb	.LCPI120_1(%rip), %xmm0
	movdqa	.LCPI120_0(%rip), %xmm1
	pmaxuw	%xmm0, %xmm1
	pcmpeqw	%xmm0, %xmm1
	pmovmskb	%xmm1, %esi
	testl	%esi, %esi
	jne	.LBB120_14
	packuswb	%xmm0, %xmm0
	movq	%xmm0, -8(%r12,%rax)
	movq	%rax, %rbx
	movq	%rcx, %r9
	movq	%rdx, %rax
	subq	%r9, %rax
	cmpq	$15, %rax
	ja	.LBB120_15
	jmp	.LBB120_30
	.p2align	4
.LBB120_13:
	xorl	%ebx, %ebx
	xorl	%r9d, %r9d
.LBB120_14:
	movq	%rdx, %rax
	subq	%r9, %rax
	cmpq	$15, %rax
	jbe	.LBB120_30
.LBB120_15:
	leaq	-8(%rdx), %rax
	cmpq	$183, %rax
	ja	.LBB120_18
	movq	%rdx, %rsi
	subq	%r9, %rsi
	cmpq	$8, %rsi
	jae	.LBB120_19
.LBB120_18:
	movq	%r8, %rbp
	cmpq	%rdx, %r9
	jne	.LBB120_20
	jmp	.LBB120_84
	.p2align	4
.LBB120_19:
	leaq	(%r9,%r13), %rdi
	leaq	(%r12,%rbx), %rax
	movq	%r8, %rbp
	movq	%r8, %rcx
	subq	%rbx, %rcx
	movq	%rdx, 48(%rsp)
	movq	%rax, %rdx
	movq	%r9, 88(%rsp)
	callq	"utf16_to_utf8::vectors::write_vectors::<#8b18edd9dd9aa8df>"
	movq	88(%rsp), %r9
	movq	24(%rsp), %r11
	movq	%rdx, %rcx
	movq	48(%rsp), %rdx
	addq	%rax, %r9
	addq	%rcx, %rbx
	cmpq	%rdx, %r9
	je	.LBB120_84
.LBB120_20:
	movq	%r13, %rsi
	movq	%r11, %r13
	movq	%rbx, (%rsp)
	leaq	64(%rsp), %rdi
	movq	%r12, %rcx
	movq	%rbp, %r8
	callq	"utf16_transcode::transcoding::transcode_many::<#b8dc3d53e12e85b3>"
	addq	64(%rsp), %r15
	movzbl	80(%rsp), %eax
	addq	72(%rsp), %r14
	cmpl	$1, %eax
	jne	.LBB120_77
	movq	32(%rsp), %rdi
	leaq	(%rdi,%r14), %rbx
	movq	40(%rsp), %r12
	subq	%r14, %r12
	cmpq	$512, %r12
	movq	%r13, %r11
	jb	.LBB120_26
	movq	56(%rsp), %rax
	leaq	(%rax,%r15), %r13
	movq	%r11, %rbp
	subq	%r15, %rbp
	cmpq	$128, %rbp
	jb	.LBB120_24
	movq	%r13, %rdi
	movq	%rbp, %rsi
	movq	%rbx, %rdx
	movq	%r12, %rcx
	callq	"utf16_transcode::ascii::write_lossy_ascii_blocks::<#8b18edd9dd9aa8df>"
	cmpq	$127, %rax
	ja	.LBB120_25
.LBB120_24:
	movq	%r13, %rdi
	movq	%rbp, %rsi
	movq	%rbx, %rdx
	movq	%r12, %rcx
	callq	"utf16_transcode::decode_lossy::write_copied::<#8b18edd9dd9aa8df>"
.LBB120_25:
	movq	24(%rsp), %r11
	movq	32(%rsp), %rdi
	jmp	.LBB120_4
	.p2align	4
.LBB120_26:
	cmpq	$3, %r12
	jb	.LBB120_86
	movzbl	81(%rsp), %eax
	leaq	.Lstatic.9(%rip), %rcx
	movq	%rbx, %rdx
	subq	%rcx, %rdx
	cmpq	$2, %rdx
	ja	.LBB120_2
	movw	$-16401, (%rbx)
	movb	$-67, 2(%rbx)
	jmp	.LBB120_3
.LBB120_29:
	negq	%r9
	movq	%rdx, %rax
	subq	%r9, %rax
	cmpq	$15, %rax
	ja	.LBB120_15
	.p2align	4
.LBB120_30:
	cmpq	$2, %rax
	jb	.LBB120_15
	movq	%r8, %rcx
	subq	%rbx, %rcx
	movq	%rax, %rsi
	shrq	%rsi
	leaq	(%rsi,%rsi,2), %rsi
	cmpq	%rsi, %rcx
	jae	.LBB120_34
	jmp	.LBB120_15
	.p2align	4
.LBB120_32:
	movb	%cl, (%r12,%rbx)
	incq	%rbx
.LBB120_33:
	addq	$2, %r9
	addq	$-2, %rax
	cmpq	$1, %rax
	jbe	.LBB120_15
.LBB120_34:
	movzwl	(%r13,%r9), %ecx
	rolw	$8, %cx
	cmpw	$127, %cx
	jbe	.LBB120_32
	movzwl	%cx, %esi
	cmpl	$2047, %esi
	ja	.LBB120_37
	shrl	$6, %esi
	andl	$63, %ecx
	shll	$8, %ecx
	orl	%esi, %ecx
	orl	$32960, %ecx
	movw	%cx, (%r12,%rbx)
	addq	$2, %rbx
	jmp	.LBB120_33
	.p2align	4
.LBB120_37:
	movl	%ecx, %edi
	andl	$63488, %edi
	cmpl	$55296, %edi
	je	.LBB120_15
	movl	%ecx, %edi
	andb	$63, %dil
	orb	$-128, %dil
	shrl	$6, %ecx
	andb	$63, %cl
	orb	$-128, %cl
	shrl	$12, %esi
	orb	$-32, %sil
	movb	%sil, (%r12,%rbx)
	movb	%cl, 1(%r12,%rbx)
	movb	%dil, 2(%r12,%rbx)
	addq	$3, %rbx
	jmp	.LBB120_33
.LBB120_39:
	addq	%rdx, %rax
	incq	%rax
	movq	%rax, 96(%rsp)
	xorl	%r14d, %r14d
	xorl	%r15d, %r15d
	jmp	.LBB120_43
	.p2align	4
.LBB120_40:
	movb	$-67, 2(%rbx)
	movw	$-16401, (%rbx)
.LBB120_41:
	movl	$3, %edx
.LBB120_42:
	addq	%rax, %r15
	addq	%rdx, %r14
.LBB120_43:
	movq	56(%rsp), %rax
	leaq	(%rax,%r15), %r10
	movq	%r11, %rdx
	subq	%r15, %rdx
	leaq	(%rdi,%r14), %r13
	movq	40(%rsp), %r11
	subq	%r14, %r11
	pxor	%xmm0, %xmm0
	movdqa	%xmm0, 64(%rsp)
	movq	$0, 80(%rsp)
	leaq	-16(%rdx), %rax
	cmpq	$175, %rax
	ja	.LBB120_51
	movq	%rdx, %rax
	shrq	%rax
	cmpq	%rax, %r11
	cmovbq	%r11, %rax
	cmpq	$8, %rax
	jb	.LBB120_51
	leaq	(%rax,%rax), %rcx
	xorl	%ebx, %ebx
	xorl	%r12d, %r12d
	.p2align	4
.LBB120_46:
	movdqu	(%r10,%r12,2), %xmm0
	movdqa	.LCPI120_0(%rip), %xmm1
	pmaxuw	%xmm0, %xmm1
	pcmpeqw	%xmm0, %xmm1
	pmovmskb	%xmm1, %esi
	testl	%esi, %esi
	jne	.LBB120_66
	packuswb	%xmm0, %xmm0
	movq	%xmm0, (%r13,%r12)
	addq	$8, %r12
	leaq	(%rcx,%rbx), %rsi
	addq	$-16, %rsi
	addq	$-16, %rbx
	cmpq	$15, %rsi
	ja	.LBB120_46
	negq	%rbx
	cmpq	%rbx, %rcx
	jbe	.LBB120_52
	movdqu	-16(%r10,%rcx), %xmm0
	movdqa	.LCPI120_0(%rip), %xmm1
	pmaxuw	%xmm0, %xmm1
	pcmpeqw	%xmm0, %xmm1
	pmovmskb	%xmm1, %esi
	testl	%esi, %esi
	jne	.LBB120_52
	packuswb	%xmm0, %xmm0
	movq	%xmm0, -8(%r13,%rax)
	movq	%rax, %r12
	movq	%rcx, %rbx
	movq	%rdx, %rax
	subq	%rbx, %rax
	cmpq	$15, %rax
	ja	.LBB120_53
	jmp	.LBB120_67
	.p2align	4
.LBB120_51:
	xorl	%r12d, %r12d
	xorl	%ebx, %ebx
.LBB120_52:
	movq	%rdx, %rax
	subq	%rbx, %rax
	cmpq	$15, %rax
	jbe	.LBB120_67
.LBB120_53:
	leaq	-8(%rdx), %rax
	cmpq	$183, %rax
	movq	%r14, 48(%rsp)
	ja	.LBB120_55
	movq	%rdx, %rsi
	subq	%rbx, %rsi
	cmpq	$8, %rsi
	jae	.LBB120_56
.LBB120_55:
	movq	%r11, %r14
	movq	%r10, %rbp
	cmpq	%rdx, %rbx
	jne	.LBB120_57
	jmp	.LBB120_85
	.p2align	4
.LBB120_56:
	movq	%r10, %rbp
	leaq	(%r10,%rbx), %rdi
	leaq	(%r12,%r13), %rax
	movq	%r11, %r14
	movq	%r11, %rcx
	subq	%r12, %rcx
	movq	%rdx, 88(%rsp)
	movq	%rax, %rdx
	callq	"utf16_to_utf8::vectors::write_vectors::<#418c2b53cf60437c>"
	movq	%rdx, %rcx
	movq	88(%rsp), %rdx
	addq	%rax, %rbx
	addq	%rcx, %r12
	cmpq	%rdx, %rbx
	je	.LBB120_85
.LBB120_57:
	movq	%r12, (%rsp)
	leaq	64(%rsp), %rdi
	movq	%rbp, %rsi
	movq	%r13, %rcx
	movq	%r14, %r8
	movq	%rbx, %r9
	callq	"utf16_transcode::transcoding::transcode_many::<#556930da7d070edc>"
	addq	64(%rsp), %r15
	movzbl	80(%rsp), %eax
	movq	48(%rsp), %r14
	addq	72(%rsp), %r14
	cmpl	$1, %eax
	jne	.LBB120_79
	movq	32(%rsp), %rdi
	leaq	(%rdi,%r14), %rbx
	movq	40(%rsp), %r12
	subq	%r14, %r12
	cmpq	$512, %r12
	movq	24(%rsp), %r11
	jb	.LBB120_63
	movq	56(%rsp), %rax
	leaq	(%rax,%r15), %r13
	movq	%r11, %rbp
	subq	%r15, %rbp
	cmpq	$128, %rbp
	jb	.LBB120_61
	movq	%r13, %rdi
	movq	%rbp, %rsi
	movq	%rbx, %rdx
	movq	%r12, %rcx
	callq	"utf16_transcode::ascii::write_lossy_ascii_blocks::<#418c2b53cf60437c>"
	cmpq	$127, %rax
	ja	.LBB120_62
.LBB120_61:
	movq	%r13, %rdi
	movq	%rbp, %rsi
	movq	%rbx, %rdx
	movq	%r12, %rcx
	callq	"utf16_transcode::decode_lossy::write_copied::<#418c2b53cf60437c>"
.LBB120_62:
	movq	24(%rsp), %r11
	movq	32(%rsp), %rdi
	jmp	.LBB120_42
	.p2align	4
.LBB120_63:
	cmpq	$3, %r12
	jb	.LBB120_86
	movzbl	81(%rsp), %eax
	leaq	.Lstatic.9(%rip), %rcx
	movq	%rbx, %rdx
	subq	%rcx, %rdx
	cmpq	$2, %rdx
	ja	.LBB120_40
	movw	$-16401, (%rbx)
	movb	$-67, 2(%rbx)
	jmp	.LBB120_41
.LBB120_66:
	negq	%rbx
	movq	%rdx, %rax
	subq	%rbx, %rax
	cmpq	$15, %rax
	ja	.LBB120_53
	.p2align	4
.LBB120_67:
	cmpq	$2, %rax
	jb	.LBB120_53
	movq	%r11, %rcx
	subq	%r12, %rcx
	movq	%rax, %rsi
	shrq	%rsi
	leaq	(%rsi,%rsi,2), %rsi
	cmpq	%rsi, %rcx
	jb	.LBB120_53
	movq	96(%rsp), %rcx
	addq	%r15, %rcx
	jmp	.LBB120_72
	.p2align	4
.LBB120_70:
	movb	%sil, (%r13,%r12)
	incq	%r12
.LBB120_71:
	addq	$2, %rbx
	addq	$-2, %rax
	cmpq	$1, %rax
	jbe	.LBB120_53
.LBB120_72:
	movzbl	-1(%rcx,%rbx), %esi
	movzbl	(%rcx,%rbx), %r8d
	movl	%r8d, %edi
	shll	$8, %edi
	orl	%esi, %edi
	cmpw	$127, %di
	jbe	.LBB120_70
	cmpb	$7, %r8b
	ja	.LBB120_75
	movzwl	%si, %esi
	andl	$63, %esi
	shll	$8, %esi
	movzwl	%di, %edi
	shrl	$6, %edi
	orl	%esi, %edi
	orl	$32960, %edi
	movw	%di, (%r13,%r12)
	addq	$2, %r12
	jmp	.LBB120_71
	.p2align	4
.LBB120_75:
	movzwl	%r8w, %r9d
	andl	$-8, %r9d
	cmpl	$216, %r9d
	je	.LBB120_53
	andb	$63, %sil
	orb	$-128, %sil
	shrl	$6, %edi
	andb	$63, %dil
	orb	$-128, %dil
	shrb	$4, %r8b
	orb	$-32, %r8b
	movb	%r8b, (%r13,%r12)
	movb	%dil, 1(%r13,%r12)
	movb	%sil, 2(%r13,%r12)
	addq	$3, %r12
	jmp	.LBB120_71
.LBB120_77:
	cmpl	$2, %eax
	movq	32(%rsp), %rdi
	jne	.LBB120_83
	movq	%r13, %r11
	jmp	.LBB120_80
.LBB120_79:
	cmpl	$2, %eax
	movq	24(%rsp), %r11
	movq	32(%rsp), %rdi
	jne	.LBB120_83
.LBB120_80:
	xorl	%esi, %esi
	cmpq	%r15, %r11
	je	.LBB120_90
	movq	40(%rsp), %rax
	subq	%r14, %rax
	cmpq	$3, %rax
	jae	.LBB120_87
	movq	%r15, %r11
	movl	$3, %esi
	jmp	.LBB120_90
.LBB120_83:
	xorl	%ecx, %ecx
	testb	%al, %al
	setne	%cl
	leal	(%rcx,%rcx,2), %esi
	movq	%r15, %r11
	jmp	.LBB120_90
.LBB120_84:
	addq	%rbx, %r14
	xorl	%esi, %esi
	jmp	.LBB120_90
.LBB120_85:
	movq	48(%rsp), %r14
	addq	%r12, %r14
	xorl	%esi, %esi
	movq	16(%rsp), %rax
	movq	24(%rsp), %r11
	jmp	.LBB120_91
.LBB120_86:
	movl	$3, %esi
	movq	%r15, %r11
	jmp	.LBB120_90
.LBB120_87:
	addq	%r14, %rdi
	addq	$3, %r14
	leaq	.Lstatic.9(%rip), %rcx
	movq	%rdi, %rdx
	subq	%rcx, %rdx
	cmpq	$2, %rdx
	ja	.LBB120_89
	movw	$-16401, (%rdi)
	movb	$-67, 2(%rdi)
	jmp	.LBB120_90
.LBB120_89:
	movb	$-67, 2(%rdi)
	movw	$-16401, (%rdi)
.LBB120_90:
	movq	16(%rsp), %rax
.LBB120_91:
	movq	%r11, (%rax)
	movq	%r14, 8(%rax)
	movl	%esi, 16(%rax)
	movl	$0, 20(%rax)
	addq	$104, %rsp
	.cfi_def_cfa_offset 56
	popq	%rbx
	.cfi_def_cfa_offset 48
	popq	%r12
	.cfi_def_cfa_offset 40
	popq	%r13
	.cfi_def_cfa_offset 32
	popq	%r14
	.cfi_def_cfa_offset 24
	popq	%r15
	.cfi_def_cfa_offset 16
	popq	%rbp
	.cfi_def_cfa_offset 8
	retq
.Lfunc_end120:
	.size	dethrux_to_utf8_lossy_v2, .Lfunc_end120-dethrux_to_utf8_lossy_v2
	.cfi_endproc

	.section	.rodata.cst16,"aM",@progbits,16
	.p2align	4, 0x0
.LCPI121_0:
	.short	128
	.short	128
	.short	128
	.short	128
	.short	128
	.short	128
	.short	128
	.short	128
.LCPI121_1:
	.byte	1
	.byte	0
	.byte	3
	.byte	2
	.byte	5
	.byte	4
	.byte	7
	.byte	6
	.byte	9
	.byte	8
	.byte	11
	.byte	10
	.byte	13
	.byte	12
	.byte	15
	.byte	14
	.section	.text.dethrux_to_utf8_partial,"ax",@progbits
	.globl	dethrux_to_utf8_partial_v2
	.hidden	dethrux_to_utf8_partial_v2
	.p2align	4
	.type	dethrux_to_utf8_partial_v2,@function
dethrux_to_utf8_partial_v2:
	.cfi_startproc
	pushq	%rbp
	.cfi_def_cfa_offset 16
	pushq	%r15
	.cfi_def_cfa_offset 24
	pushq	%r14
	.cfi_def_cfa_offset 32
	pushq	%r13
	.cfi_def_cfa_offset 40
	pushq	%r12
	.cfi_def_cfa_offset 48
	pushq	%rbx
	.cfi_def_cfa_offset 56
	subq	$104, %rsp
	.cfi_def_cfa_offset 160
	.cfi_offset %rbx, -56
	.cfi_offset %r12, -48
	.cfi_offset %r13, -40
	.cfi_offset %r14, -32
	.cfi_offset %r15, -24
	.cfi_offset %rbp, -16
	movq	%r9, 40(%rsp)
	movq	%rcx, 8(%rsp)
	movq	%rdi, 16(%rsp)
	xorl	%eax, %eax
	testq	%rdx, %rdx
	sete	%al
	shll	$12, %eax
	leaq	(%rdx,%rax), %rcx
	movq	%rcx, 24(%rsp)
	xorl	%ecx, %ecx
	testq	%r8, %r8
	sete	%cl
	shll	$12, %ecx
	addq	%r8, %rcx
	movq	%rcx, 32(%rsp)
	cmpl	$1, %esi
	jne	.LBB121_38
	xorl	%r14d, %r14d
	xorl	%r15d, %r15d
	jmp	.LBB121_4
	.p2align	4
.LBB121_2:
	movq	%r13, %rdi
	movq	%rbp, %rsi
	movq	%rbx, %rdx
	movq	%r12, %rcx
	callq	"utf16_transcode::decode_lossy::write_copied::<#8b18edd9dd9aa8df>"
.LBB121_3:
	addq	%rax, %r15
	addq	%rdx, %r14
.LBB121_4:
	movq	24(%rsp), %rax
	leaq	(%rax,%r15), %r12
	movq	8(%rsp), %rdx
	subq	%r15, %rdx
	movq	32(%rsp), %rax
	leaq	(%rax,%r14), %r13
	movq	40(%rsp), %r8
	subq	%r14, %r8
	pxor	%xmm0, %xmm0
	movdqa	%xmm0, 48(%rsp)
	movq	$0, 64(%rsp)
	leaq	-16(%rdx), %rax
	cmpq	$175, %rax
	ja	.LBB121_12
	movq	%rdx, %rax
	shrq	%rax
	cmpq	%rax, %r8
	cmovbq	%r8, %rax
	cmpq	$8, %rax
	jb	.LBB121_12
	leaq	(%rax,%rax), %rcx
	xorl	%r9d, %r9d
	xorl	%ebx, %ebx
	.p2align	4
.LBB121_7:
	movdqu	(%r12,%rbx,2), %xmm0
	pshufb	.LCPI121_1(%rip), %xmm0
	movdqa	.LCPI121_0(%rip), %xmm1
	pmaxuw	%xmm0, %xmm1
	pcmpeqw	%xmm0, %xmm1
	pmovmskb	%xmm1, %esi
	testl	%esi, %esi
	jne	.LBB121_28
	packuswb	%xmm0, %xmm0
	movq	%xmm0, (%r13,%rbx)
	addq	$8, %rbx
	leaq	(%rcx,%r9), %rsi
	addq	$-16, %rsi
	addq	$-16, %r9
	cmpq	$15, %rsi
	ja	.LBB121_7
	negq	%r9
	cmpq	%r9, %rcx
	jbe	.LBB121_13
	movdqu	-16(%r12,%rcx), %xmm0
	pshufb	.LCPI121_1(%rip), %xmm0
	movdqa	.LCPI121_0(%rip), %xmm1
	pmaxuw	%xmm0, %xmm1
	pcmpeqw	%xmm0, %xmm1
	pmovmskb	%xmm1, %esi
	testl	%esi, %esi
	jne	.LBB121_13
	packuswb	%xmm0, %xmm0
	movq	%xmm0, -8(%r13,%rax)
	movq	%rax, %rbx
	movq	%rcx, %r9
	movq	%rdx, %rax
	subq	%r9, %rax
	cmpq	$15, %rax
	ja	.LBB121_14
	jmp	.LBB121_29
	.p2align	4
.LBB121_12:
	xorl	%ebx, %ebx
	xorl	%r9d, %r9d
.LBB121_13:
	movq	%rdx, %rax
	subq	%r9, %rax
	cmpq	$15, %rax
	jbe	.LBB121_29
.LBB121_14:
	leaq	-8(%rdx), %rax
	cmpq	$183, %rax
	ja	.LBB121_17
	movq	%rdx, %rsi
	subq	%r9, %rsi
	cmpq	$8, %rsi
	jae	.LBB121_18
.LBB121_17:
	movq	%r8, %rbp
	cmpq	%rdx, %r9
	jne	.LBB121_19
	jmp	.LBB121_79
	.p2align	4
.LBB121_18:
	leaq	(%r12,%r9), %rdi
	leaq	(%rbx,%r13), %rax
	movq	%r8, %rbp
	movq	%r8, %rcx
	subq	%rbx, %rcx
	movq	%rdx, 88(%rsp)
	movq	%rax, %rdx
	movq	%r9, 80(%rsp)
	callq	"utf16_to_utf8::vectors::write_vectors::<#8b18edd9dd9aa8df>"
	movq	80(%rsp), %r9
	movq	%rdx, %rcx
	movq	88(%rsp), %rdx
	addq	%rax, %r9
	addq	%rcx, %rbx
	cmpq	%rdx, %r9
	je	.LBB121_79
.LBB121_19:
	movq	%rbx, (%rsp)
	leaq	48(%rsp), %rdi
	movq	%r12, %rsi
	movq	%r13, %rcx
	movq	%rbp, %r8
	callq	"utf16_transcode::transcoding::transcode_many::<#b8dc3d53e12e85b3>"
	addq	48(%rsp), %r15
	movzbl	64(%rsp), %eax
	addq	56(%rsp), %r14
	cmpb	$1, %al
	jne	.LBB121_75
	movq	32(%rsp), %rax
	leaq	(%rax,%r14), %rbx
	movq	40(%rsp), %r12
	subq	%r14, %r12
	cmpq	$512, %r12
	jb	.LBB121_23
	movq	24(%rsp), %rax
	leaq	(%rax,%r15), %r13
	movq	8(%rsp), %rbp
	subq	%r15, %rbp
	cmpq	$128, %rbp
	jb	.LBB121_2
	movq	%r13, %rdi
	movq	%rbp, %rsi
	movq	%rbx, %rdx
	movq	%r12, %rcx
	callq	"utf16_transcode::ascii::write_lossy_ascii_blocks::<#8b18edd9dd9aa8df>"
	cmpq	$127, %rax
	jbe	.LBB121_2
	jmp	.LBB121_3
	.p2align	4
.LBB121_23:
	cmpq	$3, %r12
	jb	.LBB121_81
	movzbl	65(%rsp), %eax
	leaq	.Lstatic.9(%rip), %rcx
	movq	%rbx, %rdx
	subq	%rcx, %rdx
	cmpq	$2, %rdx
	ja	.LBB121_26
	movw	$-16401, (%rbx)
	movb	$-67, 2(%rbx)
	jmp	.LBB121_27
	.p2align	4
.LBB121_26:
	movb	$-67, 2(%rbx)
	movw	$-16401, (%rbx)
.LBB121_27:
	movl	$3, %edx
	jmp	.LBB121_3
.LBB121_28:
	negq	%r9
	movq	%rdx, %rax
	subq	%r9, %rax
	cmpq	$15, %rax
	ja	.LBB121_14
	.p2align	4
.LBB121_29:
	cmpq	$2, %rax
	jb	.LBB121_14
	movq	%r8, %rcx
	subq	%rbx, %rcx
	movq	%rax, %rsi
	shrq	%rsi
	leaq	(%rsi,%rsi,2), %rsi
	cmpq	%rsi, %rcx
	jae	.LBB121_33
	jmp	.LBB121_14
	.p2align	4
.LBB121_31:
	movb	%cl, (%r13,%rbx)
	incq	%rbx
.LBB121_32:
	addq	$2, %r9
	addq	$-2, %rax
	cmpq	$1, %rax
	jbe	.LBB121_14
.LBB121_33:
	movzwl	(%r12,%r9), %ecx
	rolw	$8, %cx
	cmpw	$127, %cx
	jbe	.LBB121_31
	movzwl	%cx, %esi
	cmpl	$2047, %esi
	ja	.LBB121_36
	shrl	$6, %esi
	andl	$63, %ecx
	shll	$8, %ecx
	orl	%esi, %ecx
	orl	$32960, %ecx
	movw	%cx, (%r13,%rbx)
	addq	$2, %rbx
	jmp	.LBB121_32
	.p2align	4
.LBB121_36:
	movl	%ecx, %edi
	andl	$63488, %edi
	cmpl	$55296, %edi
	je	.LBB121_14
	movl	%ecx, %edi
	andb	$63, %dil
	orb	$-128, %dil
	shrl	$6, %ecx
	andb	$63, %cl
	orb	$-128, %cl
	shrl	$12, %esi
	orb	$-32, %sil
	movb	%sil, (%r13,%rbx)
	movb	%cl, 1(%r13,%rbx)
	movb	%dil, 2(%r13,%rbx)
	addq	$3, %rbx
	jmp	.LBB121_32
.LBB121_38:
	addq	%rdx, %rax
	incq	%rax
	movq	%rax, 96(%rsp)
	xorl	%r14d, %r14d
	xorl	%r15d, %r15d
	jmp	.LBB121_41
	.p2align	4
.LBB121_39:
	movq	%r13, %rdi
	movq	%rbp, %rsi
	movq	%rbx, %rdx
	movq	%r12, %rcx
	callq	"utf16_transcode::decode_lossy::write_copied::<#418c2b53cf60437c>"
.LBB121_40:
	addq	%rax, %r15
	addq	%rdx, %r14
.LBB121_41:
	movq	24(%rsp), %rax
	leaq	(%rax,%r15), %r10
	movq	8(%rsp), %rdx
	subq	%r15, %rdx
	movq	32(%rsp), %rax
	leaq	(%rax,%r14), %r13
	movq	40(%rsp), %r11
	subq	%r14, %r11
	pxor	%xmm0, %xmm0
	movdqa	%xmm0, 48(%rsp)
	movq	$0, 64(%rsp)
	leaq	-16(%rdx), %rax
	cmpq	$175, %rax
	ja	.LBB121_49
	movq	%rdx, %rax
	shrq	%rax
	cmpq	%rax, %r11
	cmovbq	%r11, %rax
	cmpq	$8, %rax
	jb	.LBB121_49
	leaq	(%rax,%rax), %rcx
	xorl	%ebx, %ebx
	xorl	%r12d, %r12d
	.p2align	4
.LBB121_44:
	movdqu	(%r10,%r12,2), %xmm0
	movdqa	.LCPI121_0(%rip), %xmm1
	pmaxuw	%xmm0, %xmm1
	pcmpeqw	%xmm0, %xmm1
	pmovmskb	%xmm1, %esi
	testl	%esi, %esi
	jne	.LBB121_64
	packuswb	%xmm0, %xmm0
	movq	%xmm0, (%r13,%r12)
	addq	$8, %r12
	leaq	(%rcx,%rbx), %rsi
	addq	$-16, %rsi
	addq	$-16, %rbx
	cmpq	$15, %rsi
	ja	.LBB121_44
	negq	%rbx
	cmpq	%rbx, %rcx
	jbe	.LBB121_50
	movdqu	-16(%r10,%rcx), %xmm0
	movdqa	.LCPI121_0(%rip), %xmm1
	pmaxuw	%xmm0, %xmm1
	pcmpeqw	%xmm0, %xmm1
	pmovmskb	%xmm1, %esi
	testl	%esi, %esi
	jne	.LBB121_50
	packuswb	%xmm0, %xmm0
	movq	%xmm0, -8(%r13,%rax)
	movq	%rax, %r12
	movq	%rcx, %rbx
	movq	%rdx, %rax
	subq	%rbx, %rax
	cmpq	$15, %rax
	ja	.LBB121_51
	jmp	.LBB121_65
	.p2align	4
.LBB121_49:
	xorl	%r12d, %r12d
	xorl	%ebx, %ebx
.LBB121_50:
	movq	%rdx, %rax
	subq	%rbx, %rax
	cmpq	$15, %rax
	jbe	.LBB121_65
.LBB121_51:
	leaq	-8(%rdx), %rax
	cmpq	$183, %rax
	movq	%r15, 88(%rsp)
	ja	.LBB121_53
	movq	%rdx, %rsi
	subq	%rbx, %rsi
	cmpq	$8, %rsi
	jae	.LBB121_54
.LBB121_53:
	movq	%r13, %r15
	movq	%r11, %r13
	movq	%r10, %rbp
	cmpq	%rdx, %rbx
	jne	.LBB121_55
	jmp	.LBB121_78
	.p2align	4
.LBB121_54:
	movq	%r10, %rbp
	leaq	(%r10,%rbx), %rdi
	movq	%r13, %r15
	leaq	(%r12,%r13), %rax
	movq	%r11, %r13
	movq	%r11, %rcx
	subq	%r12, %rcx
	movq	%rdx, 80(%rsp)
	movq	%rax, %rdx
	callq	"utf16_to_utf8::vectors::write_vectors::<#418c2b53cf60437c>"
	movq	%rdx, %rcx
	movq	80(%rsp), %rdx
	addq	%rax, %rbx
	addq	%rcx, %r12
	cmpq	%rdx, %rbx
	je	.LBB121_78
.LBB121_55:
	movq	%r12, (%rsp)
	leaq	48(%rsp), %rdi
	movq	%rbp, %rsi
	movq	%r15, %rcx
	movq	%r13, %r8
	movq	%rbx, %r9
	callq	"utf16_transcode::transcoding::transcode_many::<#556930da7d070edc>"
	movq	88(%rsp), %r15
	addq	48(%rsp), %r15
	movzbl	64(%rsp), %eax
	addq	56(%rsp), %r14
	cmpb	$1, %al
	jne	.LBB121_75
	movq	32(%rsp), %rax
	leaq	(%rax,%r14), %rbx
	movq	40(%rsp), %r12
	subq	%r14, %r12
	cmpq	$512, %r12
	jb	.LBB121_59
	movq	24(%rsp), %rax
	leaq	(%rax,%r15), %r13
	movq	8(%rsp), %rbp
	subq	%r15, %rbp
	cmpq	$128, %rbp
	jb	.LBB121_39
	movq	%r13, %rdi
	movq	%rbp, %rsi
	movq	%rbx, %rdx
	movq	%r12, %rcx
	callq	"utf16_transcode::ascii::write_lossy_ascii_blocks::<#418c2b53cf60437c>"
	cmpq	$127, %rax
	jbe	.LBB121_39
	jmp	.LBB121_40
	.p2align	4
.LBB121_59:
	cmpq	$3, %r12
	jb	.LBB121_81
	movzbl	65(%rsp), %eax
	leaq	.Lstatic.9(%rip), %rcx
	movq	%rbx, %rdx
	subq	%rcx, %rdx
	cmpq	$2, %rdx
	ja	.LBB121_62
	movw	$-16401, (%rbx)
	movb	$-67, 2(%rbx)
	jmp	.LBB121_63
	.p2align	4
.LBB121_62:
	movb	$-67, 2(%rbx)
	movw	$-16401, (%rbx)
.LBB121_63:
	movl	$3, %edx
	jmp	.LBB121_40
.LBB121_64:
	negq	%rbx
	movq	%rdx, %rax
	subq	%rbx, %rax
	cmpq	$15, %rax
	ja	.LBB121_51
	.p2align	4
.LBB121_65:
	cmpq	$2, %rax
	jb	.LBB121_51
	movq	%r11, %rcx
	subq	%r12, %rcx
	movq	%rax, %rsi
	shrq	%rsi
	leaq	(%rsi,%rsi,2), %rsi
	cmpq	%rsi, %rcx
	jb	.LBB121_51
	movq	96(%rsp), %rcx
	addq	%r15, %rcx
	jmp	.LBB121_70
	.p2align	4
.LBB121_68:
	movb	%sil, (%r13,%r12)
	incq	%r12
.LBB121_69:
	addq	$2, %rbx
	addq	$-2, %rax
	cmpq	$1, %rax
	jbe	.LBB121_51
.LBB121_70:
	movzbl	-1(%rcx,%rbx), %esi
	movzbl	(%rcx,%rbx), %r8d
	movl	%r8d, %edi
	shll	$8, %edi
	orl	%esi, %edi
	cmpw	$127, %di
	jbe	.LBB121_68
	cmpb	$7, %r8b
	ja	.LBB121_73
	movzwl	%si, %esi
	andl	$63, %esi
	shll	$8, %esi
	movzwl	%di, %edi
	shrl	$6, %edi
	orl	%esi, %edi
	orl	$32960, %edi
	movw	%di, (%r13,%r12)
	addq	$2, %r12
	jmp	.LBB121_69
	.p2align	4
.LBB121_73:
	movzwl	%r8w, %r9d
	andl	$-8, %r9d
	cmpl	$216, %r9d
	je	.LBB121_51
	andb	$63, %sil
	orb	$-128, %sil
	shrl	$6, %edi
	andb	$63, %dil
	orb	$-128, %dil
	shrb	$4, %r8b
	orb	$-32, %r8b
	movb	%r8b, (%r13,%r12)
	movb	%dil, 1(%r13,%r12)
	movb	%sil, 2(%r13,%r12)
	addq	$3, %r12
	jmp	.LBB121_69
.LBB121_75:
	movq	%r15, 8(%rsp)
	movzbl	%al, %ecx
	testb	%cl, %cl
	movq	16(%rsp), %rax
	je	.LBB121_83
	cmpl	$3, %ecx
	jne	.LBB121_82
	movl	$3, %ecx
	jmp	.LBB121_83
.LBB121_78:
	addq	%r12, %r14
	jmp	.LBB121_80
.LBB121_79:
	addq	%rbx, %r14
.LBB121_80:
	xorl	%ecx, %ecx
	movq	16(%rsp), %rax
	jmp	.LBB121_83
.LBB121_81:
	movl	$3, %ecx
	movq	%r15, 8(%rsp)
	movq	16(%rsp), %rax
	jmp	.LBB121_83
.LBB121_82:
	movl	$2, %ecx
.LBB121_83:
	movq	8(%rsp), %rdx
	movq	%rdx, (%rax)
	movq	%r14, 8(%rax)
	movl	%ecx, 16(%rax)
	movl	$0, 20(%rax)
	addq	$104, %rsp
	.cfi_def_cfa_offset 56
	popq	%rbx
	.cfi_def_cfa_offset 48
	popq	%r12
	.cfi_def_cfa_offset 40
	popq	%r13
	.cfi_def_cfa_offset 32
	popq	%r14
	.cfi_def_cfa_offset 24
	popq	%r15
	.cfi_def_cfa_offset 16
	popq	%rbp
	.cfi_def_cfa_offset 8
	retq
.Lfunc_end121:
	.size	dethrux_to_utf8_partial_v2, .Lfunc_end121-dethrux_to_utf8_partial_v2
	.cfi_endproc

	.section	.text.dethrux_to_wtf8,"ax",@progbits
	.globl	dethrux_to_wtf8_v2
	.hidden	dethrux_to_wtf8_v2
	.p2align	4
	.type	dethrux_to_wtf8_v2,@function
dethrux_to_wtf8_v2:
	.cfi_startproc
	pushq	%r15
	.cfi_def_cfa_offset 16
	pushq	%r14
	.cfi_def_cfa_offset 24
	pushq	%r13
	.cfi_def_cfa_offset 32
	pushq	%r12
	.cfi_def_cfa_offset 40
	pushq	%rbx
	.cfi_def_cfa_offset 48
	subq	$32, %rsp
	.cfi_def_cfa_offset 80
	.cfi_offset %rbx, -48
	.cfi_offset %r12, -40
	.cfi_offset %r13, -32
	.cfi_offset %r14, -24
	.cfi_offset %r15, -16
	movq	%r9, %r14
	movq	%rcx, %r15
	movq	%rdi, %rbx
	xorl	%r13d, %r13d
	testq	%rdx, %rdx
	sete	%r13b
	shll	$12, %r13d
	addq	%rdx, %r13
	xorl	%r12d, %r12d
	testq	%r8, %r8
	sete	%r12b
	shll	$12, %r12d
	addq	%r8, %r12
	xorps	%xmm0, %xmm0
	cmpl	$1, %esi
	jne	.LBB122_17
	movaps	%xmm0, (%rsp)
	movq	$0, 16(%rsp)
	movq	%rsp, %rdi
	movq	%r13, %rsi
	movq	%r15, %rdx
	movq	%r12, %rcx
	movq	%r14, %r8
	callq	"utf16_wtf8::decode::to_wtf8_partial::<#8b18edd9dd9aa8df>"
	movzbl	16(%rsp), %edx
	movq	(%rsp), %rax
	cmpb	$2, %dl
	jne	.LBB122_2
	subq	%rax, %r15
	movq	8(%rsp), %rdx
	cmpq	$2, %r15
	jae	.LBB122_4
.LBB122_14:
	cmpq	$2, %r15
	setne	%sil
	addb	%sil, %sil
	andq	$-2, %r15
	addq	%r15, %rax
.LBB122_15:
	xorl	%ecx, %ecx
	movq	%rdx, %r14
.LBB122_16:
	movzbl	%sil, %edx
	leaq	.LJTI122_0(%rip), %rsi
	movslq	(%rsi,%rdx,4), %rdi
	addq	%rsi, %rdi
	movl	%edx, %esi
	notrack jmpq	*%rdi
.LBB122_17:
	movaps	%xmm0, (%rsp)
	movq	$0, 16(%rsp)
	movq	%rsp, %rdi
	movq	%r13, %rsi
	movq	%r15, %rdx
	movq	%r12, %rcx
	movq	%r14, %r8
	callq	"utf16_wtf8::decode::to_wtf8_partial::<#418c2b53cf60437c>"
	movzbl	16(%rsp), %edx
	movq	(%rsp), %rax
	cmpb	$2, %dl
	jne	.LBB122_18
	subq	%rax, %r15
	movq	8(%rsp), %rdx
	cmpq	$2, %r15
	jae	.LBB122_20
.LBB122_30:
	cmpq	$2, %r15
	setne	%sil
	addb	%sil, %sil
	andq	$-2, %r15
	addq	%r15, %rax
.LBB122_31:
	xorl	%ecx, %ecx
	movq	%rdx, %r14
.LBB122_32:
	movzbl	%sil, %edx
	leaq	.LJTI122_0(%rip), %rsi
	movslq	(%rsi,%rdx,4), %rdi
	addq	%rsi, %rdi
	movl	%edx, %esi
	notrack jmpq	*%rdi
.LBB122_2:
	movq	8(%rsp), %r14
	movzbl	17(%rsp), %ecx
	movzbl	%dl, %edx
	leaq	.LJTI122_0(%rip), %rsi
	movslq	(%rsi,%rdx,4), %rdi
	addq	%rsi, %rdi
	movl	%edx, %esi
	notrack jmpq	*%rdi
.LBB122_18:
	movq	8(%rsp), %r14
	movzbl	17(%rsp), %ecx
	movzbl	%dl, %edx
	leaq	.LJTI122_0(%rip), %rsi
	movslq	(%rsi,%rdx,4), %rdi
	addq	%rsi, %rdi
	movl	%edx, %esi
	notrack jmpq	*%rdi
.LBB122_33:
	movzbl	%cl, %esi
	movl	$1, %edx
	jmp	.LBB122_36
.LBB122_34:
	xorl	%esi, %esi
	movl	$2, %edx
	jmp	.LBB122_36
.LBB122_35:
	xorl	%esi, %esi
	movl	$3, %edx
.LBB122_36:
	movq	%rax, (%rbx)
	movq	%r14, 8(%rbx)
	movl	%edx, 16(%rbx)
	movl	%esi, 20(%rbx)
	movq	%rbx, %rax
	addq	$32, %rsp
	.cfi_def_cfa_offset 48
	popq	%rbx
	.cfi_def_cfa_offset 40
	popq	%r12
	.cfi_def_cfa_offset 32
	popq	%r13
	.cfi_def_cfa_offset 24
	popq	%r14
	.cfi_def_cfa_offset 16
	popq	%r15
	.cfi_def_cfa_offset 8
	retq
.LBB122_4:
	.cfi_def_cfa_offset 80
	movzwl	(%r13,%rax), %esi
	rolw	$8, %si
	cmpw	$127, %si
	ja	.LBB122_8
	cmpq	%rdx, %r14
	jne	.LBB122_7
	movb	$3, %sil
	xorl	%ecx, %ecx
	jmp	.LBB122_16
.LBB122_20:
	movzbl	(%r13,%rax), %ecx
	movzbl	1(%r13,%rax), %esi
	movl	%esi, %edi
	shll	$8, %edi
	orl	%ecx, %edi
	cmpw	$127, %di
	ja	.LBB122_24
	cmpq	%rdx, %r14
	jne	.LBB122_23
	movb	$3, %sil
	xorl	%ecx, %ecx
	jmp	.LBB122_32
.LBB122_8:
	movl	%esi, %ecx
	andb	$63, %cl
	orb	$-128, %cl
	movzwl	%si, %edi
	movl	%edi, %esi
	shrl	$6, %esi
	subq	%rdx, %r14
	cmpl	$2047, %edi
	ja	.LBB122_12
	cmpq	$2, %r14
	jb	.LBB122_10
	movzwl	%si, %esi
	movzbl	%cl, %ecx
	shll	$8, %ecx
	orl	%esi, %ecx
	orl	$192, %ecx
	movw	%cx, (%r12,%rdx)
	addq	$2, %rdx
	jmp	.LBB122_14
.LBB122_24:
	andl	$63, %ecx
	orl	$128, %ecx
	movzwl	%di, %edi
	shrl	$6, %edi
	subq	%rdx, %r14
	cmpb	$7, %sil
	ja	.LBB122_28
	cmpq	$2, %r14
	jb	.LBB122_26
	movzwl	%cx, %ecx
	shll	$8, %ecx
	movzwl	%di, %esi
	orl	%ecx, %esi
	orl	$192, %esi
	movw	%si, (%r12,%rdx)
	addq	$2, %rdx
	jmp	.LBB122_30
.LBB122_7:
	movb	%sil, (%r12,%rdx)
	incq	%rdx
	jmp	.LBB122_14
.LBB122_23:
	movb	%cl, (%r12,%rdx)
	incq	%rdx
	jmp	.LBB122_30
.LBB122_12:
	cmpq	$3, %r14
	jae	.LBB122_13
.LBB122_10:
	movb	$3, %sil
	jmp	.LBB122_15
.LBB122_28:
	cmpq	$3, %r14
	jae	.LBB122_29
.LBB122_26:
	movb	$3, %sil
	jmp	.LBB122_31
.LBB122_13:
	shrl	$12, %edi
	orb	$-32, %dil
	andb	$63, %sil
	orb	$-128, %sil
	movb	%dil, (%r12,%rdx)
	movb	%sil, 1(%r12,%rdx)
	movb	%cl, 2(%r12,%rdx)
	addq	$3, %rdx
	jmp	.LBB122_14
.LBB122_29:
	shrb	$4, %sil
	orb	$-32, %sil
	andb	$63, %dil
	orb	$-128, %dil
	movb	%sil, (%r12,%rdx)
	movb	%dil, 1(%r12,%rdx)
	movb	%cl, 2(%r12,%rdx)
	addq	$3, %rdx
	jmp	.LBB122_30
.Lfunc_end122:
	.size	dethrux_to_wtf8_v2, .Lfunc_end122-dethrux_to_wtf8_v2
	.cfi_endproc
	.section	.rodata.dethrux_to_wtf8,"a",@progbits
	.p2align	2, 0x0
.LJTI122_0:
	.long	.LBB122_36-.LJTI122_0
	.long	.LBB122_33-.LJTI122_0
	.long	.LBB122_34-.LJTI122_0
	.long	.LBB122_35-.LJTI122_0

	.section	.text.dethrux_to_wtf8_partial,"ax",@progbits
	.globl	dethrux_to_wtf8_partial_v2
	.hidden	dethrux_to_wtf8_partial_v2
	.p2align	4
	.type	dethrux_to_wtf8_partial_v2,@function
dethrux_to_wtf8_partial_v2:
	.cfi_startproc
	pushq	%rbx
	.cfi_def_cfa_offset 16
	subq	$32, %rsp
	.cfi_def_cfa_offset 48
	.cfi_offset %rbx, -16
	movl	%esi, %r10d
	movq	%rdi, %rbx
	xorl	%esi, %esi
	testq	%rdx, %rdx
	sete	%sil
	shll	$12, %esi
	addq	%rdx, %rsi
	xorl	%eax, %eax
	testq	%r8, %r8
	sete	%al
	shll	$12, %eax
	addq	%r8, %rax
	xorps	%xmm0, %xmm0
	movaps	%xmm0, (%rsp)
	movq	$0, 16(%rsp)
	movq	%rsp, %rdi
	movq	%rcx, %rdx
	movq	%rax, %rcx
	movq	%r9, %r8
	cmpl	$1, %r10d
	jne	.LBB123_2
	callq	"utf16_wtf8::decode::to_wtf8_partial::<#8b18edd9dd9aa8df>"
	movaps	(%rsp), %xmm0
	movzbl	16(%rsp), %eax
	leaq	.LJTI123_0(%rip), %rcx
	movslq	(%rcx,%rax,4), %rdx
	addq	%rcx, %rdx
	movl	%eax, %ecx
	notrack jmpq	*%rdx
.LBB123_2:
	callq	"utf16_wtf8::decode::to_wtf8_partial::<#418c2b53cf60437c>"
	movaps	(%rsp), %xmm0
	movzbl	16(%rsp), %eax
	leaq	.LJTI123_0(%rip), %rcx
	movslq	(%rcx,%rax,4), %rdx
	addq	%rcx, %rdx
	movl	%eax, %ecx
	notrack jmpq	*%rdx
.LBB123_3:
	movzbl	17(%rsp), %ecx
	movl	$1, %eax
	jmp	.LBB123_6
.LBB123_4:
	xorl	%ecx, %ecx
	movl	$2, %eax
	jmp	.LBB123_6
.LBB123_5:
	xorl	%ecx, %ecx
	movl	$3, %eax
.LBB123_6:
	movups	%xmm0, (%rbx)
	movl	%eax, 16(%rbx)
	movl	%ecx, 20(%rbx)
	movq	%rbx, %rax
	addq	$32, %rsp
	.cfi_def_cfa_offset 16
	popq	%rbx
	.cfi_def_cfa_offset 8
	retq
.Lfunc_end123:
	.size	dethrux_to_wtf8_partial_v2, .Lfunc_end123-dethrux_to_wtf8_partial_v2
	.cfi_endproc
	.section	.rodata.dethrux_to_wtf8_partial,"a",@progbits
	.p2align	2, 0x0
.LJTI123_0:
	.long	.LBB123_6-.LJTI123_0
	.long	.LBB123_3-.LJTI123_0
	.long	.LBB123_4-.LJTI123_0
	.long	.LBB123_5-.LJTI123_0

	.section	.rodata.cst16,"aM",@progbits,16
	.p2align	4, 0x0
.LCPI124_0:
	.short	128
	.short	128
	.short	128
	.short	128
	.short	128
	.short	128
	.short	128
	.short	128
.LCPI124_1:
	.byte	1
	.byte	0
	.byte	3
	.byte	2
	.byte	5
	.byte	4
	.byte	7
	.byte	6
	.byte	9
	.byte	8
	.byte	11
	.byte	10
	.byte	13
	.byte	12
	.byte	15
	.byte	14
	.section	.text.dethrux_wtf8_decoder_feed,"ax",@progbits
	.globl	dethrux_wtf8_decoder_feed_v2
	.hidden	dethrux_wtf8_decoder_feed_v2
	.p2align	4
	.type	dethrux_wtf8_decoder_feed_v2,@function
dethrux_wtf8_decoder_feed_v2:
	.cfi_startproc
	pushq	%rbp
	.cfi_def_cfa_offset 16
	pushq	%r15
	.cfi_def_cfa_offset 24
	pushq	%r14
	.cfi_def_cfa_offset 32
	pushq	%r13
	.cfi_def_cfa_offset 40
	pushq	%r12
	.cfi_def_cfa_offset 48
	pushq	%rbx
	.cfi_def_cfa_offset 56
	subq	$200, %rsp
	.cfi_def_cfa_offset 256
	.cfi_offset %rbx, -56
	.cfi_offset %r12, -48
	.cfi_offset %r13, -40
	.cfi_offset %r14, -32
	.cfi_offset %r15, -24
	.cfi_offset %rbp, -16
	movq	%r8, 144(%rsp)
	movq	%rdi, 192(%rsp)
	xorl	%eax, %eax
	testq	%rcx, %rcx
	sete	%al
	shll	$12, %eax
	movq	%rcx, 152(%rsp)
	movq	%rax, 168(%rsp)
	addq	%rcx, %rax
	movq	%rax, 184(%rsp)
	xorl	%eax, %eax
	testq	%r9, %r9
	sete	%al
	shll	$12, %eax
	addq	%r9, %rax
	movq	%rax, 88(%rsp)
	cmpl	$1, %edx
	movq	%rsi, 176(%rsp)
	jne	.LBB124_45
	movl	$0, 100(%rsp)
	movl	(%rsi), %eax
	movl	%eax, 52(%rsp)
	shrl	$24, %eax
	cmpb	$3, %al
	movl	$3, %edi
	cmovbl	%eax, %edi
	testl	%eax, %eax
	movq	%rdi, 104(%rsp)
	je	.LBB124_93
	xorl	%edx, %edx
	xorl	%r12d, %r12d
.LBB124_3:
	leaq	(%rsp,%rdx), %rsi
	addq	$52, %rsi
	movq	%rdi, %r14
	movq	%rdx, 56(%rsp)
	subq	%rdx, %r14
	movl	$4, %ebx
	subq	%r14, %rbx
	movq	144(%rsp), %rax
	cmpq	%rax, %rbx
	cmovaeq	%rax, %rbx
	movl	$0, 16(%rsp)
	leaq	16(%rsp), %rdi
	movq	%r14, %rdx
	callq	memcpy@PLT
	leaq	(%rsp,%r14), %rdi
	addq	$16, %rdi
	movq	152(%rsp), %rax
	movq	168(%rsp), %rcx
	leaq	(%rax,%rcx), %rsi
	movq	%rbx, %rdx
	callq	memcpy@PLT
	movq	%rbx, 160(%rsp)
	addq	%rbx, %r14
	movq	%r14, 64(%rsp)
	movl	16(%rsp), %eax
	movl	%eax, 76(%rsp)
	movq	88(%rsp), %rax
	leaq	(%rax,%r12), %r8
	movq	256(%rsp), %rdi
	movq	%r12, 80(%rsp)
	subq	%r12, %rdi
	xorl	%ebp, %ebp
	xorl	%r13d, %r13d
	movq	%rdi, 128(%rsp)
	movq	%r8, 120(%rsp)
	jmp	.LBB124_5
	.p2align	4
.LBB124_4:
	addq	$2, %r13
	addq	%rax, %rbp
.LBB124_5:
	leaq	(%rsp,%r13), %rbx
	addq	$76, %rbx
	movq	64(%rsp), %rdx
	subq	%r13, %rdx
	leaq	(%r8,%rbp), %r15
	movq	%rdi, %r8
	subq	%rbp, %r8
	pxor	%xmm0, %xmm0
	movdqa	%xmm0, 16(%rsp)
	movq	$0, 32(%rsp)
	leaq	-16(%rdx), %rax
	cmpq	$175, %rax
	ja	.LBB124_13
	movq	%rdx, %rax
	shrq	%rax
	cmpq	%rax, %r8
	cmovbq	%r8, %rax
	cmpq	$8, %rax
	jb	.LBB124_13
	leaq	(%rax,%rax), %rcx
	xorl	%r9d, %r9d
	xorl	%r14d, %r14d
	.p2align	4
.LBB124_8:
	movdqu	(%rbx,%r14,2), %xmm0
	pshufb	.LCPI124_1(%rip), %xmm0
	movdqa	.LCPI124_0(%rip), %xmm1
	pmaxuw	%xmm0, %xmm1
	pcmpeqw	%xmm0, %xmm1
	pmovmskb	%xmm1, %esi
	testl	%esi, %esi
	jne	.LBB124_29
	packuswb	%xmm0, %xmm0
	movq	%xmm0, (%r15,%r14)
	addq	$8, %r14
	leaq	(%rcx,%r9), %rsi
	addq	$-16, %rsi
	addq	$-16, %r9
	cmpq	$15, %rsi
	ja	.LBB124_8
	negq	%r9
	cmpq	%r9, %rcx
	jbe	.LBB124_14
	movdqu	-16(%rbx,%rcx), %xmm0
	pshufb	.LCPI124_1(%rip), %xmm0
	movdqa	.LCPI124_0(%rip), %xmm1
	pmaxuw	%xmm0, %xmm1
	pcmpeqw	%xmm0, %xmm1
	pmovmskb	%xmm1, %esi
	testl	%esi, %esi
	jne	.LBB124_14
	packuswb	%xmm0, %xmm0
	movq	%xmm0, -8(%r15,%rax)
	movq	%rax, %r14
	movq	%rcx, %r9
	movq	%rdx, %rax
	subq	%r9, %rax
	cmpq	$15, %rax
	ja	.LBB124_15
	jmp	.LBB124_30
	.p2align	4
.LBB124_13:
	xorl	%r14d, %r14d
	xorl	%r9d, %r9d
.LBB124_14:
	movq	%rdx, %rax
	subq	%r9, %rax
	cmpq	$15, %rax
	jbe	.LBB124_30
.LBB124_15:
	leaq	-8(%rdx), %rax
	cmpq	$183, %rax
	ja	.LBB124_18
	movq	%rdx, %rsi
	subq	%r9, %rsi
	cmpq	$8, %rsi
	jae	.LBB124_19
.LBB124_18:
	movq	%r8, %r12
	cmpq	%rdx, %r9
	jne	.LBB124_20
	jmp	.LBB124_89
	.p2align	4
.LBB124_19:
	leaq	(%rbx,%r9), %rdi
	leaq	(%r15,%r14), %rax
	movq	%r8, %r12
	movq	%r8, %rcx
	subq	%r14, %rcx
	movq	%rdx, 136(%rsp)
	movq	%rax, %rdx
	movq	%r9, 112(%rsp)
	callq	"utf16_to_utf8::vectors::write_vectors::<#8b18edd9dd9aa8df>"
	movq	112(%rsp), %r9
	movq	%rdx, %rcx
	movq	136(%rsp), %rdx
	addq	%rax, %r9
	addq	%rcx, %r14
	cmpq	%rdx, %r9
	je	.LBB124_89
.LBB124_20:
	movq	%r14, (%rsp)
	leaq	16(%rsp), %rdi
	movq	%rbx, %rsi
	movq	%r15, %rcx
	movq	%r12, %r8
	callq	"utf16_transcode::transcoding::transcode_many::<#b8dc3d53e12e85b3>"
	addq	16(%rsp), %r13
	movzbl	32(%rsp), %eax
	addq	24(%rsp), %rbp
	cmpb	$1, %al
	jne	.LBB124_39
	movzwl	76(%rsp,%r13), %ecx
	rolw	$8, %cx
	cmpw	$127, %cx
	ja	.LBB124_24
	movq	128(%rsp), %rdi
	cmpq	%rbp, %rdi
	movq	120(%rsp), %r8
	je	.LBB124_41
	movb	%cl, (%r8,%rbp)
	movl	$1, %eax
	jmp	.LBB124_4
	.p2align	4
.LBB124_24:
	movq	128(%rsp), %rdi
	movq	%rdi, %rsi
	subq	%rbp, %rsi
	movl	%ecx, %eax
	andb	$63, %al
	orb	$-128, %al
	movzwl	%cx, %edx
	movl	%edx, %ecx
	shrl	$6, %ecx
	cmpl	$2047, %edx
	movq	120(%rsp), %r8
	ja	.LBB124_27
	cmpq	$2, %rsi
	jb	.LBB124_40
	movzwl	%cx, %ecx
	movzbl	%al, %eax
	shll	$8, %eax
	orl	%ecx, %eax
	orl	$192, %eax
	movw	%ax, (%r8,%rbp)
	movl	$2, %eax
	jmp	.LBB124_4
	.p2align	4
.LBB124_27:
	cmpq	$3, %rsi
	jb	.LBB124_40
	shrl	$12, %edx
	orb	$-32, %dl
	andb	$63, %cl
	orb	$-128, %cl
	movb	%dl, (%r8,%rbp)
	movb	%cl, 1(%r8,%rbp)
	movb	%al, 2(%r8,%rbp)
	movl	$3, %eax
	jmp	.LBB124_4
.LBB124_29:
	negq	%r9
	movq	%rdx, %rax
	subq	%r9, %rax
	cmpq	$15, %rax
	ja	.LBB124_15
	.p2align	4
.LBB124_30:
	cmpq	$2, %rax
	jb	.LBB124_15
	movq	%r8, %rcx
	subq	%r14, %rcx
	movq	%rax, %rsi
	shrq	%rsi
	leaq	(%rsi,%rsi,2), %rsi
	cmpq	%rsi, %rcx
	jae	.LBB124_34
	jmp	.LBB124_15
	.p2align	4
.LBB124_32:
	movb	%cl, (%r15,%r14)
	incq	%r14
.LBB124_33:
	addq	$2, %r9
	addq	$-2, %rax
	cmpq	$1, %rax
	jbe	.LBB124_15
.LBB124_34:
	movzwl	(%rbx,%r9), %ecx
	rolw	$8, %cx
	cmpw	$127, %cx
	jbe	.LBB124_32
	movzwl	%cx, %esi
	cmpl	$2047, %esi
	ja	.LBB124_37
	shrl	$6, %esi
	andl	$63, %ecx
	shll	$8, %ecx
	orl	%esi, %ecx
	orl	$32960, %ecx
	movw	%cx, (%r15,%r14)
	addq	$2, %r14
	jmp	.LBB124_33
	.p2align	4
.LBB124_37:
	movl	%ecx, %edi
	andl	$63488, %edi
	cmpl	$55296, %edi
	je	.LBB124_15
	movl	%ecx, %edi
	andb	$63, %dil
	orb	$-128, %dil
	shrl	$6, %ecx
	andb	$63, %cl
	orb	$-128, %cl
	shrl	$12, %esi
	orb	$-32, %sil
	movb	%sil, (%r15,%r14)
	movb	%cl, 1(%r15,%r14)
	movb	%dil, 2(%r15,%r14)
	addq	$3, %r14
	jmp	.LBB124_33
	.p2align	4
.LBB124_39:
	movq	%rbp, %rdi
	jmp	.LBB124_42
.LBB124_40:
	movb	$3, %al
	movq	%rbp, %rdi
	jmp	.LBB124_42
.LBB124_41:
	movb	$3, %al
.LBB124_42:
	movq	56(%rsp), %rdx
	addq	%r13, %rdx
	movq	80(%rsp), %r12
	addq	%rdi, %r12
	testq	%r13, %r13
	je	.LBB124_190
	cmpb	$3, %al
	movq	104(%rsp), %rdi
	je	.LBB124_192
	cmpq	%rdi, %rdx
	jb	.LBB124_3
	jmp	.LBB124_94
.LBB124_45:
	movl	$0, 100(%rsp)
	movl	(%rsi), %eax
	movl	%eax, 52(%rsp)
	shrl	$24, %eax
	cmpb	$3, %al
	movl	$3, %edi
	cmovbl	%eax, %edi
	testl	%eax, %eax
	movq	%rdi, 104(%rsp)
	je	.LBB124_130
	xorl	%r8d, %r8d
	xorl	%r12d, %r12d
.LBB124_47:
	leaq	(%rsp,%r8), %rsi
	addq	$52, %rsi
	movq	%rdi, %r14
	movq	%r8, 56(%rsp)
	subq	%r8, %r14
	movl	$4, %ebx
	subq	%r14, %rbx
	movq	144(%rsp), %rax
	cmpq	%rax, %rbx
	cmovaeq	%rax, %rbx
	movl	$0, 16(%rsp)
	leaq	16(%rsp), %rdi
	movq	%r14, %rdx
	callq	memcpy@PLT
	leaq	(%rsp,%r14), %rdi
	addq	$16, %rdi
	movq	152(%rsp), %rax
	movq	168(%rsp), %rcx
	leaq	(%rax,%rcx), %rsi
	movq	%rbx, %rdx
	callq	memcpy@PLT
	movq	%rbx, 160(%rsp)
	addq	%rbx, %r14
	movq	%r14, 120(%rsp)
	movl	16(%rsp), %eax
	movl	%eax, 76(%rsp)
	movq	88(%rsp), %rax
	leaq	(%rax,%r12), %rcx
	movq	256(%rsp), %rdi
	movq	%r12, 80(%rsp)
	subq	%r12, %rdi
	xorl	%r12d, %r12d
	xorl	%r11d, %r11d
	movq	%rdi, 136(%rsp)
	movq	%rcx, 112(%rsp)
	jmp	.LBB124_49
	.p2align	4
.LBB124_48:
	addq	$2, %r11
	addq	%rax, %r12
.LBB124_49:
	leaq	(%rsp,%r11), %r9
	addq	$76, %r9
	movq	120(%rsp), %r14
	subq	%r11, %r14
	leaq	(%rcx,%r12), %r10
	subq	%r12, %rdi
	pxor	%xmm0, %xmm0
	movdqa	%xmm0, 16(%rsp)
	movq	$0, 32(%rsp)
	leaq	-16(%r14), %rax
	cmpq	$175, %rax
	ja	.LBB124_57
	movq	%r14, %rax
	shrq	%rax
	cmpq	%rax, %rdi
	cmovbq	%rdi, %rax
	cmpq	$8, %rax
	jb	.LBB124_57
	leaq	(%rax,%rax), %rcx
	xorl	%ebp, %ebp
	xorl	%r15d, %r15d
	.p2align	4
.LBB124_52:
	movdqu	(%r9,%r15,2), %xmm0
	movdqa	.LCPI124_0(%rip), %xmm1
	pmaxuw	%xmm0, %xmm1
	pcmpeqw	%xmm0, %xmm1
	pmovmskb	%xmm1, %edx
	testl	%edx, %edx
	jne	.LBB124_82
	packuswb	%xmm0, %xmm0
	movq	%xmm0, (%r10,%r15)
	addq	$8, %r15
	leaq	(%rcx,%rbp), %rdx
	addq	$-16, %rdx
	addq	$-16, %rbp
	cmpq	$15, %rdx
	ja	.LBB124_52
	negq	%rbp
	cmpq	%rbp, %rcx
	jbe	.LBB124_58
	movdqu	-16(%r9,%rcx), %xmm0
	movdqa	.LCPI124_0(%rip), %xmm1
	pmaxuw	%xmm0, %xmm1
	pcmpeqw	%xmm0, %xmm1
	pmovmskb	%xmm1, %edx
	testl	%edx, %edx
	jne	.LBB124_58
	packuswb	%xmm0, %xmm0
	movq	%xmm0, -8(%r10,%rax)
	movq	%rax, %r15
	movq	%rcx, %rbp
	jmp	.LBB124_58
	.p2align	4
.LBB124_57:
	xorl	%r15d, %r15d
	xorl	%ebp, %ebp
.LBB124_58:
	movq	%r14, %rax
	subq	%rbp, %rax
	cmpq	$15, %rax
	movq	%rdi, 64(%rsp)
	jbe	.LBB124_62
.LBB124_59:
	leaq	-8(%r14), %rax
	cmpq	$183, %rax
	movq	%r11, 128(%rsp)
	ja	.LBB124_61
	movq	%r14, %rsi
	subq	%rbp, %rsi
	cmpq	$8, %rsi
	jae	.LBB124_72
.LBB124_61:
	movq	%r10, %rbx
	movq	%r9, %r13
	cmpq	%r14, %rbp
	jne	.LBB124_73
	jmp	.LBB124_91
	.p2align	4
.LBB124_62:
	cmpq	$2, %rax
	jb	.LBB124_59
	movq	%rdi, %rcx
	subq	%r15, %rcx
	movq	%rax, %rdx
	shrq	%rdx
	leaq	(%rdx,%rdx,2), %rdx
	cmpq	%rdx, %rcx
	jb	.LBB124_59
	leaq	77(%rsp), %rcx
	addq	%r11, %rcx
	jmp	.LBB124_67
	.p2align	4
.LBB124_65:
	movb	%dl, (%r10,%r15)
	incq	%r15
.LBB124_66:
	addq	$2, %rbp
	addq	$-2, %rax
	cmpq	$1, %rax
	jbe	.LBB124_59
.LBB124_67:
	movzbl	-1(%rcx,%rbp), %edx
	movzbl	(%rcx,%rbp), %edi
	movl	%edi, %esi
	shll	$8, %esi
	orl	%edx, %esi
	cmpw	$127, %si
	jbe	.LBB124_65
	cmpb	$7, %dil
	ja	.LBB124_70
	movzwl	%dx, %edx
	andl	$63, %edx
	shll	$8, %edx
	movzwl	%si, %esi
	shrl	$6, %esi
	orl	%edx, %esi
	orl	$32960, %esi
	movw	%si, (%r10,%r15)
	addq	$2, %r15
	jmp	.LBB124_66
	.p2align	4
.LBB124_70:
	movzwl	%di, %r8d
	andl	$-8, %r8d
	cmpl	$216, %r8d
	je	.LBB124_59
	andb	$63, %dl
	orb	$-128, %dl
	shrl	$6, %esi
	andb	$63, %sil
	orb	$-128, %sil
	shrb	$4, %dil
	orb	$-32, %dil
	movb	%dil, (%r10,%r15)
	movb	%sil, 1(%r10,%r15)
	movb	%dl, 2(%r10,%r15)
	addq	$3, %r15
	jmp	.LBB124_66
	.p2align	4
.LBB124_72:
	movq	%r9, %r13
	leaq	(%r9,%rbp), %rdi
	movq	%r10, %rbx
	leaq	(%r10,%r15), %rdx
	movq	64(%rsp), %rcx
	subq	%r15, %rcx
	callq	"utf16_to_utf8::vectors::write_vectors::<#418c2b53cf60437c>"
	addq	%rax, %rbp
	addq	%rdx, %r15
	cmpq	%r14, %rbp
	je	.LBB124_91
.LBB124_73:
	movq	%r15, (%rsp)
	leaq	16(%rsp), %rdi
	movq	%r13, %rsi
	movq	%r14, %rdx
	movq	%rbx, %rcx
	movq	64(%rsp), %r8
	movq	%rbp, %r9
	callq	"utf16_transcode::transcoding::transcode_many::<#556930da7d070edc>"
	movq	128(%rsp), %r11
	addq	16(%rsp), %r11
	movzbl	32(%rsp), %eax
	addq	24(%rsp), %r12
	cmpb	$1, %al
	jne	.LBB124_83
	movzbl	76(%rsp,%r11), %eax
	movzbl	77(%rsp,%r11), %ecx
	movl	%ecx, %edx
	shll	$8, %edx
	orl	%eax, %edx
	cmpw	$127, %dx
	ja	.LBB124_77
	movq	136(%rsp), %rdi
	cmpq	%r12, %rdi
	je	.LBB124_85
	movq	112(%rsp), %rcx
	movb	%al, (%rcx,%r12)
	movl	$1, %eax
	jmp	.LBB124_48
	.p2align	4
.LBB124_77:
	movq	136(%rsp), %rdi
	movq	%rdi, %rsi
	subq	%r12, %rsi
	andl	$63, %eax
	orl	$128, %eax
	movzwl	%dx, %edx
	shrl	$6, %edx
	cmpb	$7, %cl
	ja	.LBB124_80
	cmpq	$2, %rsi
	jb	.LBB124_84
	movzwl	%ax, %eax
	shll	$8, %eax
	movzwl	%dx, %ecx
	orl	%eax, %ecx
	orl	$192, %ecx
	movq	112(%rsp), %rax
	movw	%cx, (%rax,%r12)
	movq	%rax, %rcx
	movl	$2, %eax
	jmp	.LBB124_48
	.p2align	4
.LBB124_80:
	cmpq	$3, %rsi
	jb	.LBB124_84
	shrb	$4, %cl
	orb	$-32, %cl
	andb	$63, %dl
	orb	$-128, %dl
	movq	112(%rsp), %rsi
	movb	%cl, (%rsi,%r12)
	movq	%rsi, %rcx
	movb	%dl, 1(%rsi,%r12)
	movb	%al, 2(%rsi,%r12)
	movl	$3, %eax
	jmp	.LBB124_48
.LBB124_82:
	negq	%rbp
	jmp	.LBB124_58
	.p2align	4
.LBB124_83:
	movq	%r12, %rdi
	jmp	.LBB124_86
.LBB124_84:
	movb	$3, %al
	movq	%r12, %rdi
	jmp	.LBB124_86
.LBB124_85:
	movb	$3, %al
.LBB124_86:
	addq	%r11, 56(%rsp)
	movq	80(%rsp), %r12
	addq	%rdi, %r12
	testq	%r11, %r11
	je	.LBB124_191
	cmpb	$3, %al
	movq	104(%rsp), %rdi
	je	.LBB124_193
	movq	56(%rsp), %r8
	cmpq	%rdi, %r8
	jb	.LBB124_47
	jmp	.LBB124_131
.LBB124_89:
	movq	104(%rsp), %rdi
	movq	160(%rsp), %r13
	addq	%rdi, %r13
	movq	80(%rsp), %r12
	addq	%rbp, %r12
	addq	%r14, %r12
	cmpq	$0, 64(%rsp)
	je	.LBB124_175
	movq	%r13, %rdx
	jmp	.LBB124_94
.LBB124_91:
	movq	104(%rsp), %rdi
	movq	160(%rsp), %r14
	addq	%rdi, %r14
	movq	80(%rsp), %rax
	addq	%r12, %rax
	movq	%rax, %r12
	addq	%r15, %r12
	cmpq	$0, 120(%rsp)
	je	.LBB124_176
	movq	%r14, %r8
	jmp	.LBB124_131
.LBB124_93:
	xorl	%r12d, %r12d
	xorl	%edx, %edx
.LBB124_94:
	movq	%rdx, %r8
	subq	%rdi, %r8
	movq	152(%rsp), %rcx
	movq	%rdx, %rsi
	movq	168(%rsp), %rdx
	leaq	(%rcx,%rdx), %rax
	movq	%r8, 128(%rsp)
	addq	%rax, %r8
	addq	%r12, 88(%rsp)
	movq	%r12, 80(%rsp)
	movq	256(%rsp), %rax
	subq	%r12, %rax
	movq	%rax, %r12
	movq	%rsi, 56(%rsp)
	addq	%rsi, %rdx
	subq	%rdi, %rdx
	addq	%rdx, %rcx
	movq	%rcx, 152(%rsp)
	xorl	%r13d, %r13d
	xorl	%ebx, %ebx
	movq	144(%rsp), %rdx
	movq	%r8, 120(%rsp)
	movq	%rax, 64(%rsp)
	jmp	.LBB124_98
	.p2align	4
.LBB124_95:
	cmpq	$3, %rsi
	jb	.LBB124_179
	shrl	$12, %edx
	orb	$-32, %dl
	andb	$63, %cl
	orb	$-128, %cl
	movq	88(%rsp), %rsi
	movb	%dl, (%rsi,%r13)
	movb	%cl, 1(%rsi,%r13)
	movb	%al, 2(%rsi,%r13)
	movl	$3, %eax
.LBB124_97:
	addq	$2, %rbx
	addq	%rax, %r13
	movq	144(%rsp), %rdx
	movq	64(%rsp), %r12
.LBB124_98:
	leaq	(%r8,%rbx), %r10
	movq	128(%rsp), %rax
	addq	%rbx, %rax
	subq	%rax, %rdx
	movq	88(%rsp), %rax
	leaq	(%rax,%r13), %rbp
	movq	%r12, %r11
	subq	%r13, %r11
	pxor	%xmm0, %xmm0
	movdqa	%xmm0, 16(%rsp)
	movq	$0, 32(%rsp)
	leaq	-16(%rdx), %rax
	cmpq	$175, %rax
	ja	.LBB124_106
	movq	%rdx, %rax
	shrq	%rax
	cmpq	%rax, %r11
	cmovbq	%r11, %rax
	cmpq	$8, %rax
	jb	.LBB124_106
	leaq	(%rax,%rax), %rcx
	xorl	%r9d, %r9d
	xorl	%r15d, %r15d
	.p2align	4
.LBB124_101:
	movdqu	(%r10,%r15,2), %xmm0
	pshufb	.LCPI124_1(%rip), %xmm0
	movdqa	.LCPI124_0(%rip), %xmm1
	pmaxuw	%xmm0, %xmm1
	pcmpeqw	%xmm0, %xmm1
	pmovmskb	%xmm1, %esi
	testl	%esi, %esi
	jne	.LBB124_119
	packuswb	%xmm0, %xmm0
	movq	%xmm0, (%rbp,%r15)
	addq	$8, %r15
	leaq	(%rcx,%r9), %rsi
	addq	$-16, %rsi
	addq	$-16, %r9
	cmpq	$15, %rsi
	ja	.LBB124_101
	negq	%r9
	cmpq	%r9, %rcx
	jbe	.LBB124_107
	movdqu	-16(%r10,%rcx), %xmm0
	pshufb	.LCPI124_1(%rip), %xmm0
	movdqa	.LCPI124_0(%rip), %xmm1
	pmaxuw	%xmm0, %xmm1
	pcmpeqw	%xmm0, %xmm1
	pmovmskb	%xmm1, %esi
	testl	%esi, %esi
	jne	.LBB124_107
	packuswb	%xmm0, %xmm0
	movq	%xmm0, -8(%rbp,%rax)
	movq	%rax, %r15
	movq	%rcx, %r9
	movq	%rdx, %rax
	subq	%r9, %rax
	cmpq	$15, %rax
	ja	.LBB124_108
	jmp	.LBB124_120
	.p2align	4
.LBB124_106:
	xorl	%r15d, %r15d
	xorl	%r9d, %r9d
.LBB124_107:
	movq	%rdx, %rax
	subq	%r9, %rax
	cmpq	$15, %rax
	jbe	.LBB124_120
.LBB124_108:
	leaq	-8(%rdx), %rax
	cmpq	$183, %rax
	ja	.LBB124_110
	movq	%rdx, %rsi
	subq	%r9, %rsi
	cmpq	$8, %rsi
	jae	.LBB124_111
.LBB124_110:
	movq	%r11, %r14
	movq	%r10, %r12
	cmpq	%rdx, %r9
	jne	.LBB124_112
	jmp	.LBB124_168
	.p2align	4
.LBB124_111:
	movq	%r10, %r12
	leaq	(%r10,%r9), %rdi
	leaq	(%r15,%rbp), %rax
	movq	%r11, %r14
	movq	%r11, %rcx
	subq	%r15, %rcx
	movq	%rdx, 136(%rsp)
	movq	%rax, %rdx
	movq	%r9, 112(%rsp)
	callq	"utf16_to_utf8::vectors::write_vectors::<#8b18edd9dd9aa8df>"
	movq	112(%rsp), %r9
	movq	%rdx, %rcx
	movq	136(%rsp), %rdx
	addq	%rax, %r9
	addq	%rcx, %r15
	cmpq	%rdx, %r9
	je	.LBB124_168
.LBB124_112:
	movq	%r15, (%rsp)
	leaq	16(%rsp), %rdi
	movq	%r12, %rsi
	movq	%rbp, %rcx
	movq	%r14, %r8
	callq	"utf16_transcode::transcoding::transcode_many::<#b8dc3d53e12e85b3>"
	addq	16(%rsp), %rbx
	movzbl	32(%rsp), %eax
	addq	24(%rsp), %r13
	cmpb	$1, %al
	jne	.LBB124_174
	movq	120(%rsp), %r8
	movzwl	(%r8,%rbx), %ecx
	rolw	$8, %cx
	cmpw	$127, %cx
	movq	80(%rsp), %r12
	ja	.LBB124_116
	cmpq	%r13, 64(%rsp)
	je	.LBB124_180
	movq	88(%rsp), %rax
	movb	%cl, (%rax,%r13)
	movl	$1, %eax
	jmp	.LBB124_97
	.p2align	4
.LBB124_116:
	movq	64(%rsp), %rsi
	subq	%r13, %rsi
	movl	%ecx, %eax
	andb	$63, %al
	orb	$-128, %al
	movzwl	%cx, %edx
	movl	%edx, %ecx
	shrl	$6, %ecx
	cmpl	$2047, %edx
	ja	.LBB124_95
	cmpq	$2, %rsi
	jb	.LBB124_179
	movzwl	%cx, %ecx
	movzbl	%al, %eax
	shll	$8, %eax
	orl	%ecx, %eax
	orl	$192, %eax
	movq	88(%rsp), %rcx
	movw	%ax, (%rcx,%r13)
	movl	$2, %eax
	jmp	.LBB124_97
.LBB124_119:
	negq	%r9
	movq	%rdx, %rax
	subq	%r9, %rax
	cmpq	$15, %rax
	ja	.LBB124_108
	.p2align	4
.LBB124_120:
	cmpq	$2, %rax
	jb	.LBB124_108
	movq	%r11, %rcx
	subq	%r15, %rcx
	movq	%rax, %rsi
	shrq	%rsi
	leaq	(%rsi,%rsi,2), %rsi
	cmpq	%rsi, %rcx
	jb	.LBB124_108
	leaq	(%r9,%rbx), %rcx
	addq	152(%rsp), %rcx
	jmp	.LBB124_125
	.p2align	4
.LBB124_123:
	movb	%sil, (%rbp,%r15)
	incq	%r15
.LBB124_124:
	addq	$2, %r9
	addq	$-2, %rax
	addq	$2, %rcx
	cmpq	$1, %rax
	jbe	.LBB124_108
.LBB124_125:
	movzwl	(%rcx), %esi
	rolw	$8, %si
	cmpw	$127, %si
	jbe	.LBB124_123
	movzwl	%si, %edi
	cmpl	$2047, %edi
	ja	.LBB124_128
	shrl	$6, %edi
	andl	$63, %esi
	shll	$8, %esi
	orl	%edi, %esi
	orl	$32960, %esi
	movw	%si, (%rbp,%r15)
	addq	$2, %r15
	jmp	.LBB124_124
	.p2align	4
.LBB124_128:
	movl	%esi, %r8d
	andl	$63488, %r8d
	cmpl	$55296, %r8d
	je	.LBB124_108
	movl	%esi, %r8d
	andb	$63, %r8b
	orb	$-128, %r8b
	shrl	$6, %esi
	andb	$63, %sil
	orb	$-128, %sil
	shrl	$12, %edi
	orb	$-32, %dil
	movb	%dil, (%rbp,%r15)
	movb	%sil, 1(%rbp,%r15)
	movb	%r8b, 2(%rbp,%r15)
	addq	$3, %r15
	jmp	.LBB124_124
.LBB124_130:
	xorl	%r12d, %r12d
	xorl	%r8d, %r8d
.LBB124_131:
	movq	%r12, 80(%rsp)
	movq	%r8, %r14
	subq	%rdi, %r14
	movq	152(%rsp), %rcx
	movq	168(%rsp), %rdx
	leaq	(%rcx,%rdx), %rax
	leaq	(%rax,%r14), %r9
	addq	%r12, 88(%rsp)
	movq	256(%rsp), %rbp
	subq	%r12, %rbp
	movq	%r8, 56(%rsp)
	addq	%r8, %rdx
	subq	%rdi, %rdx
	leaq	(%rdx,%rcx), %rax
	incq	%rax
	movq	%rax, 112(%rsp)
	xorl	%r15d, %r15d
	xorl	%ebx, %ebx
	movq	144(%rsp), %rdx
	movq	%rbp, 64(%rsp)
	movq	%r9, 120(%rsp)
	movq	%r14, 160(%rsp)
	jmp	.LBB124_135
	.p2align	4
.LBB124_132:
	cmpq	$3, %rsi
	jb	.LBB124_189
	shrb	$4, %cl
	orb	$-32, %cl
	andb	$63, %dl
	orb	$-128, %dl
	movq	88(%rsp), %rsi
	movb	%cl, (%rsi,%r15)
	movb	%dl, 1(%rsi,%r15)
	movb	%al, 2(%rsi,%r15)
	movl	$3, %eax
.LBB124_134:
	addq	$2, %rbx
	addq	%rax, %r15
	movq	144(%rsp), %rdx
	movq	64(%rsp), %rbp
.LBB124_135:
	leaq	(%r9,%rbx), %r11
	subq	%r14, %rdx
	subq	%rbx, %rdx
	movq	88(%rsp), %rax
	leaq	(%rax,%r15), %r13
	subq	%r15, %rbp
	pxor	%xmm0, %xmm0
	movdqa	%xmm0, 16(%rsp)
	movq	$0, 32(%rsp)
	leaq	-16(%rdx), %rax
	cmpq	$175, %rax
	ja	.LBB124_143
	movq	%rdx, %rax
	shrq	%rax
	cmpq	%rax, %rbp
	cmovbq	%rbp, %rax
	cmpq	$8, %rax
	jb	.LBB124_143
	leaq	(%rax,%rax), %rcx
	xorl	%r9d, %r9d
	xorl	%r12d, %r12d
	.p2align	4
.LBB124_138:
	movdqu	(%r11,%r12,2), %xmm0
	movdqa	.LCPI124_0(%rip), %xmm1
	pmaxuw	%xmm0, %xmm1
	pcmpeqw	%xmm0, %xmm1
	pmovmskb	%xmm1, %esi
	testl	%esi, %esi
	jne	.LBB124_167
	packuswb	%xmm0, %xmm0
	movq	%xmm0, (%r13,%r12)
	addq	$8, %r12
	leaq	(%rcx,%r9), %rsi
	addq	$-16, %rsi
	addq	$-16, %r9
	cmpq	$15, %rsi
	ja	.LBB124_138
	negq	%r9
	cmpq	%r9, %rcx
	jbe	.LBB124_144
	movdqu	-16(%r11,%rcx), %xmm0
	movdqa	.LCPI124_0(%rip), %xmm1
	pmaxuw	%xmm0, %xmm1
	pcmpeqw	%xmm0, %xmm1
	pmovmskb	%xmm1, %esi
	testl	%esi, %esi
	jne	.LBB124_144
	packuswb	%xmm0, %xmm0
	movq	%xmm0, -8(%r13,%rax)
	movq	%rax, %r12
	movq	%rcx, %r9
	jmp	.LBB124_144
	.p2align	4
.LBB124_143:
	xorl	%r12d, %r12d
	xorl	%r9d, %r9d
.LBB124_144:
	movq	%rdx, %rax
	subq	%r9, %rax
	cmpq	$15, %rax
	movq	%rbp, 128(%rsp)
	jbe	.LBB124_148
.LBB124_145:
	leaq	-8(%rdx), %rax
	cmpq	$183, %rax
	ja	.LBB124_158
	movq	%rdx, %rsi
	subq	%r9, %rsi
	cmpq	$8, %rsi
	jae	.LBB124_159
.LBB124_158:
	movq	%r11, %rbp
	cmpq	%rdx, %r9
	jne	.LBB124_160
	jmp	.LBB124_169
	.p2align	4
.LBB124_148:
	cmpq	$2, %rax
	jb	.LBB124_145
	movq	%rbp, %rcx
	subq	%r12, %rcx
	movq	%rax, %rsi
	shrq	%rsi
	leaq	(%rsi,%rsi,2), %rsi
	cmpq	%rsi, %rcx
	jb	.LBB124_145
	leaq	(%r9,%rbx), %rcx
	addq	112(%rsp), %rcx
	jmp	.LBB124_153
	.p2align	4
.LBB124_151:
	movb	%sil, (%r13,%r12)
	incq	%r12
.LBB124_152:
	addq	$2, %r9
	addq	$-2, %rax
	addq	$2, %rcx
	cmpq	$1, %rax
	jbe	.LBB124_145
.LBB124_153:
	movzbl	-1(%rcx), %esi
	movzbl	(%rcx), %r8d
	movl	%r8d, %edi
	shll	$8, %edi
	orl	%esi, %edi
	cmpw	$127, %di
	jbe	.LBB124_151
	cmpb	$7, %r8b
	ja	.LBB124_156
	movzwl	%si, %esi
	andl	$63, %esi
	shll	$8, %esi
	movzwl	%di, %edi
	shrl	$6, %edi
	orl	%esi, %edi
	orl	$32960, %edi
	movw	%di, (%r13,%r12)
	addq	$2, %r12
	jmp	.LBB124_152
	.p2align	4
.LBB124_156:
	movzwl	%r8w, %r10d
	andl	$-8, %r10d
	cmpl	$216, %r10d
	je	.LBB124_145
	andb	$63, %sil
	orb	$-128, %sil
	shrl	$6, %edi
	andb	$63, %dil
	orb	$-128, %dil
	shrb	$4, %r8b
	orb	$-32, %r8b
	movb	%r8b, (%r13,%r12)
	movb	%dil, 1(%r13,%r12)
	movb	%sil, 2(%r13,%r12)
	addq	$3, %r12
	jmp	.LBB124_152
	.p2align	4
.LBB124_159:
	movq	%r11, %rbp
	leaq	(%r11,%r9), %rdi
	leaq	(%r12,%r13), %rax
	movq	128(%rsp), %rcx
	subq	%r12, %rcx
	movq	%rdx, 136(%rsp)
	movq	%rax, %rdx
	movq	%r9, %r14
	callq	"utf16_to_utf8::vectors::write_vectors::<#418c2b53cf60437c>"
	movq	%r14, %r9
	movq	160(%rsp), %r14
	movq	%rdx, %rcx
	movq	136(%rsp), %rdx
	addq	%rax, %r9
	addq	%rcx, %r12
	cmpq	%rdx, %r9
	je	.LBB124_169
.LBB124_160:
	movq	%r12, (%rsp)
	leaq	16(%rsp), %rdi
	movq	%rbp, %rsi
	movq	%r13, %rcx
	movq	128(%rsp), %r8
	callq	"utf16_transcode::transcoding::transcode_many::<#556930da7d070edc>"
	addq	16(%rsp), %rbx
	movzbl	32(%rsp), %eax
	addq	24(%rsp), %r15
	cmpb	$1, %al
	jne	.LBB124_170
	movq	120(%rsp), %r9
	movzbl	(%r9,%rbx), %eax
	movzbl	1(%r9,%rbx), %ecx
	movl	%ecx, %edx
	shll	$8, %edx
	orl	%eax, %edx
	cmpw	$127, %dx
	movq	80(%rsp), %r12
	ja	.LBB124_164
	cmpq	%r15, 64(%rsp)
	je	.LBB124_187
	movq	88(%rsp), %rcx
	movb	%al, (%rcx,%r15)
	movl	$1, %eax
	jmp	.LBB124_134
	.p2align	4
.LBB124_164:
	movq	64(%rsp), %rsi
	subq	%r15, %rsi
	andl	$63, %eax
	orl	$128, %eax
	movzwl	%dx, %edx
	shrl	$6, %edx
	cmpb	$7, %cl
	ja	.LBB124_132
	cmpq	$2, %rsi
	jb	.LBB124_189
	movzwl	%ax, %eax
	shll	$8, %eax
	movzwl	%dx, %ecx
	orl	%eax, %ecx
	orl	$192, %ecx
	movq	88(%rsp), %rax
	movw	%cx, (%rax,%r15)
	movl	$2, %eax
	jmp	.LBB124_134
.LBB124_167:
	negq	%r9
	jmp	.LBB124_144
.LBB124_168:
	addq	%rdx, %rbx
	addq	%r13, %r15
	xorl	%eax, %eax
	movq	%r15, %r13
	movq	80(%rsp), %r12
	jmp	.LBB124_181
.LBB124_169:
	addq	%rdx, %rbx
	addq	%r15, %r12
	xorl	%eax, %eax
	movq	%r12, %r15
.LBB124_170:
	movq	80(%rsp), %r12
.LBB124_171:
	movq	56(%rsp), %rdi
	addq	%rbx, %rdi
	addq	%r15, %r12
	movq	104(%rsp), %rdx
.LBB124_172:
	cmpq	%rdi, %rdx
	movq	%rdi, %rcx
	cmovbq	%rdx, %rcx
	leaq	(%rsp,%rcx), %rsi
	addq	$52, %rsi
	movq	%rdx, %rbx
	subq	%rcx, %rbx
	xorl	%r14d, %r14d
	subq	%rdx, %rdi
	cmovaeq	%rdi, %r14
	cmpb	$3, %al
	jne	.LBB124_177
.LBB124_173:
	movb	$0, 18(%rsp)
	movw	$0, 16(%rsp)
	leaq	16(%rsp), %rdi
	movq	%rbx, %rdx
	callq	memcpy@PLT
	movzbl	18(%rsp), %eax
	shll	$16, %eax
	movzwl	16(%rsp), %ecx
	orl	%eax, %ecx
	shll	$24, %ebx
	orl	%ecx, %ebx
	movb	$3, %al
	movq	%r14, %r15
	jmp	.LBB124_178
.LBB124_174:
	movq	80(%rsp), %r12
	jmp	.LBB124_181
.LBB124_175:
	leaq	(%rsp,%rdi), %rsi
	addq	$52, %rsi
	xorl	%ebx, %ebx
	subq	%rdi, %r13
	cmovbq	%rbx, %r13
	jmp	.LBB124_184
.LBB124_176:
	leaq	(%rsp,%rdi), %rsi
	addq	$52, %rsi
	xorl	%ebx, %ebx
	subq	%rdi, %r14
	cmovbq	%rbx, %r14
.LBB124_177:
	movq	144(%rsp), %r15
	movq	%r15, %rax
	subq	%r14, %rax
	movq	184(%rsp), %r13
	addq	%r14, %r13
	movl	$4, %r14d
	subq	%rbx, %r14
	cmpq	%rax, %r14
	cmovaeq	%rax, %r14
	movl	$0, 16(%rsp)
	leaq	16(%rsp), %rdi
	movq	%rbx, %rdx
	callq	memcpy@PLT
	leaq	(%rsp,%rbx), %rdi
	addq	$16, %rdi
	movq	%r13, %rsi
	movq	%r14, %rdx
	callq	memcpy@PLT
	addq	%rbx, %r14
	movl	16(%rsp), %eax
	movl	%eax, 100(%rsp)
	movb	$0, 18(%rsp)
	movw	$0, 16(%rsp)
	leaq	16(%rsp), %rdi
	leaq	100(%rsp), %rsi
	movq	%r14, %rdx
	callq	memcpy@PLT
	movzbl	18(%rsp), %eax
	shll	$16, %eax
	movzwl	16(%rsp), %ecx
	orl	%eax, %ecx
	shll	$24, %r14d
	orl	%ecx, %r14d
	xorl	%eax, %eax
	movl	%r14d, %ebx
.LBB124_178:
	movq	176(%rsp), %rcx
	movl	%ebx, (%rcx)
	jmp	.LBB124_185
.LBB124_189:
	movb	$3, %al
	jmp	.LBB124_171
.LBB124_179:
	movb	$3, %al
	jmp	.LBB124_181
.LBB124_180:
	movb	$3, %al
	movq	64(%rsp), %r13
.LBB124_181:
	movq	56(%rsp), %rdi
	addq	%rbx, %rdi
	addq	%r13, %r12
.LBB124_182:
	movq	104(%rsp), %rdx
	cmpq	%rdi, %rdx
	movq	%rdi, %rcx
	cmovbq	%rdx, %rcx
	leaq	(%rsp,%rcx), %rsi
	addq	$52, %rsi
	movq	%rdx, %rbx
	subq	%rcx, %rbx
	xorl	%r13d, %r13d
	subq	%rdx, %rdi
	cmovaeq	%rdi, %r13
	cmpb	$3, %al
	jne	.LBB124_184
.LBB124_183:
	movb	$0, 18(%rsp)
	movw	$0, 16(%rsp)
	leaq	16(%rsp), %rdi
	movq	%rbx, %rdx
	callq	memcpy@PLT
	movzbl	18(%rsp), %eax
	shll	$16, %eax
	movzwl	16(%rsp), %ecx
	orl	%eax, %ecx
	shll	$24, %ebx
	orl	%ecx, %ebx
	movb	$3, %al
	movq	176(%rsp), %rcx
	movl	%ebx, (%rcx)
	jmp	.LBB124_186
.LBB124_184:
	movq	144(%rsp), %r15
	movq	%r15, %rax
	subq	%r13, %rax
	movq	%r13, %rcx
	movq	184(%rsp), %r13
	addq	%rcx, %r13
	movl	$4, %r14d
	subq	%rbx, %r14
	cmpq	%rax, %r14
	cmovaeq	%rax, %r14
	movl	$0, 16(%rsp)
	leaq	16(%rsp), %rdi
	movq	%rbx, %rdx
	callq	memcpy@PLT
	leaq	(%rsp,%rbx), %rdi
	addq	$16, %rdi
	movq	%r13, %rsi
	movq	%r14, %rdx
	callq	memcpy@PLT
	addq	%rbx, %r14
	movl	16(%rsp), %eax
	movl	%eax, 100(%rsp)
	movb	$0, 18(%rsp)
	movw	$0, 16(%rsp)
	leaq	16(%rsp), %rdi
	leaq	100(%rsp), %rsi
	movq	%r14, %rdx
	callq	memcpy@PLT
	movzbl	18(%rsp), %eax
	shll	$16, %eax
	movzwl	16(%rsp), %ecx
	orl	%eax, %ecx
	shll	$24, %r14d
	orl	%ecx, %r14d
	xorl	%eax, %eax
	movq	176(%rsp), %rcx
	movl	%r14d, (%rcx)
.LBB124_185:
	movq	%r15, %r13
.LBB124_186:
	xorl	%ecx, %ecx
	testb	%al, %al
	setne	%cl
	leal	(%rcx,%rcx,2), %ecx
	movq	192(%rsp), %rax
	movq	%r13, (%rax)
	movq	%r12, 8(%rax)
	movl	%ecx, 16(%rax)
	movl	$0, 20(%rax)
	addq	$200, %rsp
	.cfi_def_cfa_offset 56
	popq	%rbx
	.cfi_def_cfa_offset 48
	popq	%r12
	.cfi_def_cfa_offset 40
	popq	%r13
	.cfi_def_cfa_offset 32
	popq	%r14
	.cfi_def_cfa_offset 24
	popq	%r15
	.cfi_def_cfa_offset 16
	popq	%rbp
	.cfi_def_cfa_offset 8
	retq
.LBB124_187:
	.cfi_def_cfa_offset 256
	movb	$3, %al
	movq	64(%rsp), %r15
	jmp	.LBB124_171
.LBB124_190:
	movq	%rdx, %rdi
	jmp	.LBB124_182
.LBB124_191:
	movq	104(%rsp), %rdx
	movq	56(%rsp), %rdi
	jmp	.LBB124_172
.LBB124_192:
	cmpq	%rdx, %rdi
	movq	%rdx, %rax
	cmovbq	%rdi, %rax
	leaq	(%rsp,%rax), %rsi
	addq	$52, %rsi
	movq	%rdi, %rbx
	subq	%rax, %rbx
	xorl	%r13d, %r13d
	subq	%rdi, %rdx
	cmovaeq	%rdx, %r13
	jmp	.LBB124_183
.LBB124_193:
	movq	56(%rsp), %rdx
	cmpq	%rdx, %rdi
	movq	%rdx, %rax
	cmovbq	%rdi, %rax
	leaq	(%rsp,%rax), %rsi
	addq	$52, %rsi
	movq	%rdi, %rbx
	subq	%rax, %rbx
	xorl	%r14d, %r14d
	subq	%rdi, %rdx
	cmovaeq	%rdx, %r14
	jmp	.LBB124_173
.Lfunc_end124:
	.size	dethrux_wtf8_decoder_feed_v2, .Lfunc_end124-dethrux_wtf8_decoder_feed_v2
	.cfi_endproc

	.section	.text.dethrux_wtf8_decoder_finish,"ax",@progbits
	.globl	dethrux_wtf8_decoder_finish_v2
	.hidden	dethrux_wtf8_decoder_finish_v2
	.p2align	4
	.type	dethrux_wtf8_decoder_finish_v2,@function
dethrux_wtf8_decoder_finish_v2:
	.cfi_startproc
	movq	%rdi, %rax
	xorl	%r9d, %r9d
	testq	%rcx, %rcx
	sete	%r9b
	shll	$12, %r9d
	movzbl	3(%rsi), %r10d
	cmpb	$3, %r10b
	movl	$3, %edi
	cmovbl	%r10d, %edi
	cmpl	$1, %edx
	jne	.LBB125_3
	cmpb	$2, %r10b
	jb	.LBB125_2
	movzwl	(%rsi), %r10d
	rolw	$8, %r10w
	cmpw	$127, %r10w
	ja	.LBB125_11
	testq	%r8, %r8
	je	.LBB125_20
	movb	%r10b, (%rcx,%r9)
	movl	$1, %ecx
	jmp	.LBB125_23
.LBB125_3:
	cmpb	$2, %r10b
	jae	.LBB125_8
.LBB125_2:
	xorl	%ecx, %ecx
.LBB125_23:
	movl	$0, (%rsi)
	addb	%dil, %dil
	andb	$2, %dil
	movzbl	%dil, %edx
	jmp	.LBB125_24
.LBB125_8:
	movzbl	(%rsi), %edx
	movzbl	1(%rsi), %r10d
	movl	%r10d, %r11d
	shll	$8, %r11d
	orl	%edx, %r11d
	cmpw	$127, %r11w
	ja	.LBB125_14
	testq	%r8, %r8
	je	.LBB125_20
	movb	%dl, (%rcx,%r9)
	movl	$1, %ecx
	jmp	.LBB125_23
.LBB125_11:
	movl	%r10d, %edx
	andb	$63, %dl
	orb	$-128, %dl
	movzwl	%r10w, %r11d
	movl	%r11d, %r10d
	shrl	$6, %r10d
	cmpl	$2047, %r11d
	ja	.LBB125_17
	cmpq	$2, %r8
	jb	.LBB125_20
	movzwl	%r10w, %r8d
	movzbl	%dl, %edx
	shll	$8, %edx
	orl	%r8d, %edx
	orl	$192, %edx
	movw	%dx, (%rcx,%r9)
	movl	$2, %ecx
	jmp	.LBB125_23
.LBB125_14:
	andl	$63, %edx
	orl	$128, %edx
	movzwl	%r11w, %r11d
	shrl	$6, %r11d
	cmpb	$7, %r10b
	ja	.LBB125_19
	cmpq	$2, %r8
	jb	.LBB125_20
	movzwl	%dx, %edx
	shll	$8, %edx
	movzwl	%r11w, %r8d
	orl	%edx, %r8d
	orl	$192, %r8d
	movw	%r8w, (%rcx,%r9)
	movl	$2, %ecx
	jmp	.LBB125_23
.LBB125_17:
	cmpq	$3, %r8
	jb	.LBB125_20
	shrl	$12, %r11d
	orb	$-32, %r11b
	andb	$63, %r10b
	orb	$-128, %r10b
	movb	%r11b, (%rcx,%r9)
	movb	%r10b, 1(%rcx,%r9)
	movb	%dl, 2(%rcx,%r9)
	jmp	.LBB125_22
.LBB125_19:
	cmpq	$3, %r8
	jae	.LBB125_21
.LBB125_20:
	movl	$3, %edx
	xorl	%ecx, %ecx
.LBB125_24:
	movq	$0, (%rax)
	movq	%rcx, 8(%rax)
	movl	%edx, 16(%rax)
	movl	$0, 20(%rax)
	retq
.LBB125_21:
	shrb	$4, %r10b
	orb	$-32, %r10b
	andb	$63, %r11b
	orb	$-128, %r11b
	movb	%r10b, (%rcx,%r9)
	movb	%r11b, 1(%rcx,%r9)
	movb	%dl, 2(%rcx,%r9)
.LBB125_22:
	movl	$3, %ecx
	jmp	.LBB125_23
.Lfunc_end125:
	.size	dethrux_wtf8_decoder_finish_v2, .Lfunc_end125-dethrux_wtf8_decoder_finish_v2
	.cfi_endproc

	.section	.rodata.cst16,"aM",@progbits,16
	.p2align	4, 0x0
.LCPI126_0:
	.quad	-3
	.quad	-2
	.section	.text.dethrux_wtf8_encoder_feed,"ax",@progbits
	.globl	dethrux_wtf8_encoder_feed_v2
	.hidden	dethrux_wtf8_encoder_feed_v2
	.p2align	4
	.type	dethrux_wtf8_encoder_feed_v2,@function
dethrux_wtf8_encoder_feed_v2:
	.cfi_startproc
	pushq	%rbp
	.cfi_def_cfa_offset 16
	pushq	%r15
	.cfi_def_cfa_offset 24
	pushq	%r14
	.cfi_def_cfa_offset 32
	pushq	%r13
	.cfi_def_cfa_offset 40
	pushq	%r12
	.cfi_def_cfa_offset 48
	pushq	%rbx
	.cfi_def_cfa_offset 56
	subq	$120, %rsp
	.cfi_def_cfa_offset 176
	.cfi_offset %rbx, -56
	.cfi_offset %r12, -48
	.cfi_offset %r13, -40
	.cfi_offset %r14, -32
	.cfi_offset %r15, -24
	.cfi_offset %rbp, -16
	movq	%rdi, 112(%rsp)
	movq	176(%rsp), %r13
	xorl	%r12d, %r12d
	testq	%rcx, %rcx
	sete	%r12b
	shll	$12, %r12d
	addq	%rcx, %r12
	xorl	%ebp, %ebp
	testq	%r9, %r9
	sete	%bpl
	shll	$12, %ebp
	addq	%r9, %rbp
	cmpl	$1, %edx
	movq	%rsi, 88(%rsp)
	movq	%r8, 80(%rsp)
	jne	.LBB126_13
	movq	$0, 64(%rsp)
	movl	$0, 72(%rsp)
	movl	$0, 40(%rsp)
	movw	$0, 44(%rsp)
	movl	(%rsi), %eax
	movl	3(%rsi), %ecx
	movl	%ecx, 35(%rsp)
	movl	%eax, 32(%rsp)
	movzbl	38(%rsp), %eax
	cmpb	$6, %al
	movl	$6, %ecx
	cmovbl	%eax, %ecx
	movzbl	%cl, %r15d
	movl	$12, %ebx
	subq	%r15, %rbx
	cmpq	%r8, %rbx
	cmovaeq	%r8, %rbx
	movl	$0, 8(%rsp)
	movq	$0, (%rsp)
	movq	%rsp, %rdi
	leaq	32(%rsp), %rsi
	movq	%r15, %rdx
	callq	memcpy@PLT
	leaq	(%rsp,%r15), %rdi
	movq	%r12, %rsi
	movq	%rbx, %rdx
	callq	memcpy@PLT
	addq	%r15, %rbx
	movq	(%rsp), %rax
	movl	8(%rsp), %ecx
	movq	%rax, 96(%rsp)
	movl	%ecx, 104(%rsp)
	xorps	%xmm0, %xmm0
	movaps	%xmm0, 16(%rsp)
	movaps	%xmm0, (%rsp)
	movq	%rsp, %rdi
	leaq	96(%rsp), %rsi
	movq	%rbx, %rdx
	movq	%rbp, %rcx
	movq	%r13, %r8
	callq	"utf16_wtf8::encode::transcode_wtf8::<#8b18edd9dd9aa8df>"
	movdqa	(%rsp), %xmm0
	movzbl	16(%rsp), %r14d
	movzbl	17(%rsp), %r8d
	cmpb	$1, 24(%rsp)
	jne	.LBB126_4
	movzbl	%r14b, %eax
	movl	%eax, %eax
	leaq	.LJTI126_4(%rip), %rcx
	movslq	(%rcx,%rax,4), %rax
	addq	%rcx, %rax
	notrack jmpq	*%rax
.LBB126_3:
	paddq	.LCPI126_0(%rip), %xmm0
	movb	$2, %r14b
	xorl	%r8d, %r8d
.LBB126_4:
	cmpq	$12, %rbx
	jb	.LBB126_10
	movzbl	%r14b, %eax
	leaq	.LJTI126_5(%rip), %rcx
	movslq	(%rcx,%rax,4), %rax
	addq	%rcx, %rax
	notrack jmpq	*%rax
.LBB126_6:
	movq	%xmm0, %rax
	subq	%r15, %rax
	leaq	(%r12,%rax), %rsi
	movq	80(%rsp), %rdx
	subq	%rax, %rdx
	movdqa	%xmm0, 48(%rsp)
	pextrq	$1, %xmm0, %rax
	addq	%rax, %rbp
	subq	%rax, %r13
	pxor	%xmm0, %xmm0
	movdqa	%xmm0, 16(%rsp)
	movdqa	%xmm0, (%rsp)
	movq	%rsp, %rdi
	movq	%rbp, %rcx
	movq	%r13, %r8
	callq	"utf16_wtf8::encode::transcode_wtf8::<#8b18edd9dd9aa8df>"
	movdqa	(%rsp), %xmm0
	movzbl	16(%rsp), %eax
	movzbl	%al, %r14d
	movzbl	17(%rsp), %r8d
	cmpb	$1, 24(%rsp)
	jne	.LBB126_9
	movl	%r14d, %eax
	leaq	.LJTI126_6(%rip), %rcx
	movslq	(%rcx,%rax,4), %rax
	addq	%rcx, %rax
	notrack jmpq	*%rax
.LBB126_8:
	paddq	.LCPI126_0(%rip), %xmm0
	xorl	%r8d, %r8d
	paddq	48(%rsp), %xmm0
	movdqa	%xmm0, 48(%rsp)
	movq	%xmm0, %rax
	cmpq	%rax, %r15
	movq	%rax, %rcx
	cmovbq	%r15, %rcx
	movb	$2, %dl
	leaq	(%rsp,%rcx), %rsi
	addq	$32, %rsi
	movq	%r15, %r13
	subq	%rcx, %r13
	xorl	%ebx, %ebx
	subq	%r15, %rax
	cmovaeq	%rax, %rbx
	movzbl	%dl, %r14d
	leaq	.LJTI126_7(%rip), %rax
	movslq	(%rax,%r14,4), %rcx
	addq	%rax, %rcx
	notrack jmpq	*%rcx
.LBB126_13:
	movq	$0, 64(%rsp)
	movl	$0, 72(%rsp)
	movl	$0, 40(%rsp)
	movw	$0, 44(%rsp)
	movl	(%rsi), %eax
	movl	3(%rsi), %ecx
	movl	%ecx, 35(%rsp)
	movl	%eax, 32(%rsp)
	movzbl	38(%rsp), %eax
	cmpb	$6, %al
	movl	$6, %ecx
	cmovbl	%eax, %ecx
	movzbl	%cl, %r15d
	movl	$12, %ebx
	subq	%r15, %rbx
	cmpq	%r8, %rbx
	cmovaeq	%r8, %rbx
	movl	$0, 8(%rsp)
	movq	$0, (%rsp)
	movq	%rsp, %rdi
	leaq	32(%rsp), %rsi
	movq	%r15, %rdx
	callq	memcpy@PLT
	leaq	(%rsp,%r15), %rdi
	movq	%r12, %rsi
	movq	%rbx, %rdx
	callq	memcpy@PLT
	addq	%r15, %rbx
	movq	(%rsp), %rax
	movl	8(%rsp), %ecx
	movq	%rax, 96(%rsp)
	movl	%ecx, 104(%rsp)
	xorps	%xmm0, %xmm0
	movaps	%xmm0, 16(%rsp)
	movaps	%xmm0, (%rsp)
	movq	%rsp, %rdi
	leaq	96(%rsp), %rsi
	movq	%rbx, %rdx
	movq	%rbp, %rcx
	movq	%r13, %r8
	callq	"utf16_wtf8::encode::transcode_wtf8::<#418c2b53cf60437c>"
	movdqa	(%rsp), %xmm0
	movzbl	16(%rsp), %r14d
	movzbl	17(%rsp), %r8d
	cmpb	$1, 24(%rsp)
	jne	.LBB126_16
	movzbl	%r14b, %eax
	movl	%eax, %eax
	leaq	.LJTI126_0(%rip), %rcx
	movslq	(%rcx,%rax,4), %rax
	addq	%rcx, %rax
	notrack jmpq	*%rax
.LBB126_15:
	paddq	.LCPI126_0(%rip), %xmm0
	movb	$2, %r14b
	xorl	%r8d, %r8d
.LBB126_16:
	cmpq	$12, %rbx
	jb	.LBB126_22
	movzbl	%r14b, %eax
	leaq	.LJTI126_1(%rip), %rcx
	movslq	(%rcx,%rax,4), %rax
	addq	%rcx, %rax
	notrack jmpq	*%rax
.LBB126_18:
	movq	%xmm0, %rax
	subq	%r15, %rax
	leaq	(%r12,%rax), %rsi
	movq	80(%rsp), %rdx
	subq	%rax, %rdx
	movdqa	%xmm0, 48(%rsp)
	pextrq	$1, %xmm0, %rax
	addq	%rax, %rbp
	subq	%rax, %r13
	pxor	%xmm0, %xmm0
	movdqa	%xmm0, 16(%rsp)
	movdqa	%xmm0, (%rsp)
	movq	%rsp, %rdi
	movq	%rbp, %rcx
	movq	%r13, %r8
	callq	"utf16_wtf8::encode::transcode_wtf8::<#418c2b53cf60437c>"
	movdqa	(%rsp), %xmm0
	movzbl	16(%rsp), %eax
	movzbl	%al, %r14d
	movzbl	17(%rsp), %r8d
	cmpb	$1, 24(%rsp)
	jne	.LBB126_21
	movl	%r14d, %eax
	leaq	.LJTI126_2(%rip), %rcx
	movslq	(%rcx,%rax,4), %rax
	addq	%rcx, %rax
	notrack jmpq	*%rax
.LBB126_20:
	paddq	.LCPI126_0(%rip), %xmm0
	xorl	%r8d, %r8d
	paddq	48(%rsp), %xmm0
	movdqa	%xmm0, 48(%rsp)
	movq	%xmm0, %rax
	cmpq	%rax, %r15
	movq	%rax, %rcx
	cmovbq	%r15, %rcx
	movb	$2, %dl
	leaq	(%rsp,%rcx), %rsi
	addq	$32, %rsi
	movq	%r15, %r13
	subq	%rcx, %r13
	xorl	%ebx, %ebx
	subq	%r15, %rax
	cmovaeq	%rax, %rbx
	movzbl	%dl, %r14d
	leaq	.LJTI126_3(%rip), %rax
	movslq	(%rax,%r14,4), %rcx
	addq	%rax, %rcx
	notrack jmpq	*%rcx
.LBB126_10:
	movq	%xmm0, %rax
	cmpq	%rax, %r15
	movq	%rax, %rcx
	cmovbq	%r15, %rcx
	leaq	(%rsp,%rcx), %rsi
	addq	$32, %rsi
	movq	%r15, %r13
	subq	%rcx, %r13
	xorl	%ebx, %ebx
	subq	%r15, %rax
	cmovaeq	%rax, %rbx
	movzbl	%r14b, %eax
	leaq	.LJTI126_7(%rip), %rcx
	movslq	(%rcx,%rax,4), %rax
	addq	%rcx, %rax
	movdqa	%xmm0, 48(%rsp)
	notrack jmpq	*%rax
.LBB126_12:
	movq	80(%rsp), %r14
	movq	%r14, %rax
	subq	%rbx, %rax
	addq	%rbx, %r12
	movl	$12, %ebx
	subq	%r13, %rbx
	cmpq	%rax, %rbx
	cmovaeq	%rax, %rbx
	movl	$0, 8(%rsp)
	movq	$0, (%rsp)
	movq	%rsp, %rdi
	movq	%r13, %rdx
	callq	memcpy@PLT
	leaq	(%rsp,%r13), %rdi
	movq	%r12, %rsi
	movq	%rbx, %rdx
	callq	memcpy@PLT
	addq	%r13, %rbx
	movq	(%rsp), %rax
	movl	8(%rsp), %ecx
	movq	%rax, 64(%rsp)
	movl	%ecx, 72(%rsp)
	movw	$0, 4(%rsp)
	movl	$0, (%rsp)
	movq	%rsp, %rdi
	leaq	64(%rsp), %rsi
	movq	%rbx, %rdx
	callq	memcpy@PLT
	movzwl	4(%rsp), %eax
	movw	%ax, 44(%rsp)
	movl	(%rsp), %ecx
	movl	%ecx, 40(%rsp)
	movq	88(%rsp), %rdx
	movw	%ax, 4(%rdx)
	movl	%ecx, (%rdx)
	movb	%bl, 6(%rdx)
	xorl	%r8d, %r8d
	movdqa	48(%rsp), %xmm0
	pextrq	$1, %xmm0, %rdi
	movzbl	%r8b, %ecx
	leaq	.LJTI126_8(%rip), %rdx
	movslq	(%rdx,%rcx,4), %rsi
	addq	%rdx, %rsi
	movq	%r14, %rbx
	movl	%ecx, %edx
	notrack jmpq	*%rsi
.LBB126_22:
	movq	%xmm0, %rax
	cmpq	%rax, %r15
	movq	%rax, %rcx
	cmovbq	%r15, %rcx
	leaq	(%rsp,%rcx), %rsi
	addq	$32, %rsi
	movq	%r15, %r13
	subq	%rcx, %r13
	xorl	%ebx, %ebx
	subq	%r15, %rax
	cmovaeq	%rax, %rbx
	movzbl	%r14b, %eax
	leaq	.LJTI126_3(%rip), %rcx
	movslq	(%rcx,%rax,4), %rax
	addq	%rcx, %rax
	movdqa	%xmm0, 48(%rsp)
	notrack jmpq	*%rax
.LBB126_24:
	movq	80(%rsp), %r14
	movq	%r14, %rax
	subq	%rbx, %rax
	addq	%rbx, %r12
	movl	$12, %ebx
	subq	%r13, %rbx
	cmpq	%rax, %rbx
	cmovaeq	%rax, %rbx
	movl	$0, 8(%rsp)
	movq	$0, (%rsp)
	movq	%rsp, %rdi
	movq	%r13, %rdx
	callq	memcpy@PLT
	leaq	(%rsp,%r13), %rdi
	movq	%r12, %rsi
	movq	%rbx, %rdx
	callq	memcpy@PLT
	addq	%r13, %rbx
	movq	(%rsp), %rax
	movl	8(%rsp), %ecx
	movq	%rax, 64(%rsp)
	movl	%ecx, 72(%rsp)
	movw	$0, 4(%rsp)
	movl	$0, (%rsp)
	movq	%rsp, %rdi
	leaq	64(%rsp), %rsi
	movq	%rbx, %rdx
	callq	memcpy@PLT
	movzwl	4(%rsp), %eax
	movw	%ax, 44(%rsp)
	movl	(%rsp), %ecx
	movl	%ecx, 40(%rsp)
	movq	88(%rsp), %rdx
	movw	%ax, 4(%rdx)
	movl	%ecx, (%rdx)
	movb	%bl, 6(%rdx)
	movdqa	48(%rsp), %xmm0
	pextrq	$1, %xmm0, %rdi
	xorl	%ecx, %ecx
	movzbl	%cl, %r8d
	leaq	.LJTI126_8(%rip), %rcx
	movslq	(%rcx,%r8,4), %rsi
	addq	%rcx, %rsi
	movq	%r14, %rbx
	movl	%r8d, %ecx
	movl	%r8d, %edx
	notrack jmpq	*%rsi
.LBB126_9:
	paddq	48(%rsp), %xmm0
	movdqa	%xmm0, 48(%rsp)
	movq	%xmm0, %rax
	cmpq	%rax, %r15
	movq	%rax, %rcx
	cmovbq	%r15, %rcx
	movq	%r15, %r13
	subq	%rcx, %r13
	xorl	%ebx, %ebx
	subq	%r15, %rax
	cmovaeq	%rax, %rbx
	leaq	(%rsp,%rcx), %rsi
	addq	$32, %rsi
	leaq	.LJTI126_7(%rip), %rax
	movslq	(%rax,%r14,4), %rcx
	addq	%rax, %rcx
	notrack jmpq	*%rcx
.LBB126_11:
	movw	$0, 4(%rsp)
	movl	$0, (%rsp)
	movq	%rsp, %rdi
	movq	%r13, %rdx
	movq	%r8, %r15
	callq	memcpy@PLT
	movq	%r15, %r8
	movl	(%rsp), %eax
	movq	88(%rsp), %rcx
	movl	%eax, (%rcx)
	movzwl	4(%rsp), %eax
	movw	%ax, 4(%rcx)
	movb	%r13b, 6(%rcx)
	movdqa	48(%rsp), %xmm0
	pextrq	$1, %xmm0, %rdi
	movzbl	%r14b, %ecx
	leaq	.LJTI126_8(%rip), %rdx
	movslq	(%rdx,%rcx,4), %rsi
	addq	%rdx, %rsi
	movl	%ecx, %edx
	notrack jmpq	*%rsi
.LBB126_21:
	paddq	48(%rsp), %xmm0
	movdqa	%xmm0, 48(%rsp)
	movq	%xmm0, %rax
	cmpq	%rax, %r15
	movq	%rax, %rcx
	cmovbq	%r15, %rcx
	movq	%r15, %r13
	subq	%rcx, %r13
	xorl	%ebx, %ebx
	subq	%r15, %rax
	cmovaeq	%rax, %rbx
	leaq	(%rsp,%rcx), %rsi
	addq	$32, %rsi
	leaq	.LJTI126_3(%rip), %rax
	movslq	(%rax,%r14,4), %rcx
	addq	%rax, %rcx
	notrack jmpq	*%rcx
.LBB126_23:
	movw	$0, 4(%rsp)
	movl	$0, (%rsp)
	movq	%rsp, %rdi
	movq	%r13, %rdx
	movq	%r8, %r15
	callq	memcpy@PLT
	movq	%r15, %r8
	movl	(%rsp), %eax
	movq	88(%rsp), %rcx
	movl	%eax, (%rcx)
	movzwl	4(%rsp), %eax
	movw	%ax, 4(%rcx)
	movb	%r13b, 6(%rcx)
	movdqa	48(%rsp), %xmm0
	pextrq	$1, %xmm0, %rdi
	movzbl	%r14b, %ecx
	leaq	.LJTI126_8(%rip), %rdx
	movslq	(%rdx,%rcx,4), %rsi
	addq	%rdx, %rsi
	movl	%ecx, %edx
	notrack jmpq	*%rsi
.LBB126_25:
	movzbl	%r8b, %edx
	movl	$1, %ecx
	jmp	.LBB126_28
.LBB126_26:
	xorl	%edx, %edx
	movl	$2, %ecx
	jmp	.LBB126_28
.LBB126_27:
	xorl	%edx, %edx
	movl	$3, %ecx
.LBB126_28:
	movq	112(%rsp), %rax
	movq	%rbx, (%rax)
	movq	%rdi, 8(%rax)
	movl	%ecx, 16(%rax)
	movl	%edx, 20(%rax)
	addq	$120, %rsp
	.cfi_def_cfa_offset 56
	popq	%rbx
	.cfi_def_cfa_offset 48
	popq	%r12
	.cfi_def_cfa_offset 40
	popq	%r13
	.cfi_def_cfa_offset 32
	popq	%r14
	.cfi_def_cfa_offset 24
	popq	%r15
	.cfi_def_cfa_offset 16
	popq	%rbp
	.cfi_def_cfa_offset 8
	retq
.Lfunc_end126:
	.size	dethrux_wtf8_encoder_feed_v2, .Lfunc_end126-dethrux_wtf8_encoder_feed_v2
	.cfi_endproc
	.section	.rodata.dethrux_wtf8_encoder_feed,"a",@progbits
	.p2align	2, 0x0
.LJTI126_0:
	.long	.LBB126_15-.LJTI126_0
	.long	.LBB126_16-.LJTI126_0
	.long	.LBB126_15-.LJTI126_0
	.long	.LBB126_16-.LJTI126_0
.LJTI126_1:
	.long	.LBB126_18-.LJTI126_1
	.long	.LBB126_22-.LJTI126_1
	.long	.LBB126_18-.LJTI126_1
	.long	.LBB126_22-.LJTI126_1
.LJTI126_2:
	.long	.LBB126_20-.LJTI126_2
	.long	.LBB126_21-.LJTI126_2
	.long	.LBB126_20-.LJTI126_2
	.long	.LBB126_21-.LJTI126_2
.LJTI126_3:
	.long	.LBB126_24-.LJTI126_3
	.long	.LBB126_23-.LJTI126_3
	.long	.LBB126_24-.LJTI126_3
	.long	.LBB126_23-.LJTI126_3
.LJTI126_4:
	.long	.LBB126_3-.LJTI126_4
	.long	.LBB126_4-.LJTI126_4
	.long	.LBB126_3-.LJTI126_4
	.long	.LBB126_4-.LJTI126_4
.LJTI126_5:
	.long	.LBB126_6-.LJTI126_5
	.long	.LBB126_10-.LJTI126_5
	.long	.LBB126_6-.LJTI126_5
	.long	.LBB126_10-.LJTI126_5
.LJTI126_6:
	.long	.LBB126_8-.LJTI126_6
	.long	.LBB126_9-.LJTI126_6
	.long	.LBB126_8-.LJTI126_6
	.long	.LBB126_9-.LJTI126_6
.LJTI126_7:
	.long	.LBB126_12-.LJTI126_7
	.long	.LBB126_11-.LJTI126_7
	.long	.LBB126_12-.LJTI126_7
	.long	.LBB126_11-.LJTI126_7
.LJTI126_8:
	.long	.LBB126_28-.LJTI126_8
	.long	.LBB126_25-.LJTI126_8
	.long	.LBB126_26-.LJTI126_8
	.long	.LBB126_27-.LJTI126_8

	.section	.text.dethrux_wtf8_encoder_finish,"ax",@progbits
	.globl	dethrux_wtf8_encoder_finish_v2
	.hidden	dethrux_wtf8_encoder_finish_v2
	.p2align	4
	.type	dethrux_wtf8_encoder_finish_v2,@function
dethrux_wtf8_encoder_finish_v2:
	.cfi_startproc
	pushq	%rbp
	.cfi_def_cfa_offset 16
	pushq	%r15
	.cfi_def_cfa_offset 24
	pushq	%r14
	.cfi_def_cfa_offset 32
	pushq	%r12
	.cfi_def_cfa_offset 40
	pushq	%rbx
	.cfi_def_cfa_offset 48
	subq	$64, %rsp
	.cfi_def_cfa_offset 112
	.cfi_offset %rbx, -48
	.cfi_offset %r12, -40
	.cfi_offset %r14, -32
	.cfi_offset %r15, -24
	.cfi_offset %rbp, -16
	movq	%rcx, %rax
	movq	%rsi, %r14
	movq	%rdi, %rbx
	xorl	%ecx, %ecx
	testq	%rax, %rax
	sete	%cl
	shll	$12, %ecx
	addq	%rax, %rcx
	cmpl	$1, %edx
	jne	.LBB127_4
	movl	(%r14), %eax
	movl	3(%r14), %edx
	movl	%edx, 11(%rsp)
	movl	%eax, 8(%rsp)
	movzbl	14(%rsp), %eax
	cmpb	$6, %al
	movl	$6, %edx
	cmovbl	%eax, %edx
	movzbl	%dl, %r15d
	xorps	%xmm0, %xmm0
	movaps	%xmm0, 32(%rsp)
	movaps	%xmm0, 16(%rsp)
	leaq	16(%rsp), %rdi
	leaq	8(%rsp), %rsi
	movq	%r15, %rdx
	callq	"utf16_wtf8::encode::transcode_wtf8::<#8b18edd9dd9aa8df>"
	movaps	16(%rsp), %xmm0
	movzbl	32(%rsp), %r12d
	movzbl	33(%rsp), %ebp
	cmpb	$3, %r12b
	jne	.LBB127_3
	movq	16(%rsp), %rax
	leaq	(%rsp,%rax), %rsi
	addq	$8, %rsi
	subq	%rax, %r15
	movw	$0, 20(%rsp)
	movl	$0, 16(%rsp)
	leaq	16(%rsp), %rdi
	movq	%r15, %rdx
	movaps	%xmm0, 48(%rsp)
	callq	memcpy@PLT
	movaps	48(%rsp), %xmm0
	movzwl	20(%rsp), %eax
	movw	%ax, 4(%r14)
	movl	16(%rsp), %eax
	movl	%eax, (%r14)
	movb	%r15b, 6(%r14)
	movzbl	%r12b, %eax
	leaq	.LJTI127_0(%rip), %rcx
	movslq	(%rcx,%rax,4), %rdx
	addq	%rcx, %rdx
	movl	%eax, %ecx
	notrack jmpq	*%rdx
.LBB127_4:
	movl	(%r14), %eax
	movl	3(%r14), %edx
	movl	%edx, 11(%rsp)
	movl	%eax, 8(%rsp)
	movzbl	14(%rsp), %eax
	cmpb	$6, %al
	movl	$6, %edx
	cmovbl	%eax, %edx
	movzbl	%dl, %r15d
	xorps	%xmm0, %xmm0
	movaps	%xmm0, 32(%rsp)
	movaps	%xmm0, 16(%rsp)
	leaq	16(%rsp), %rdi
	leaq	8(%rsp), %rsi
	movq	%r15, %rdx
	callq	"utf16_wtf8::encode::transcode_wtf8::<#418c2b53cf60437c>"
	movaps	16(%rsp), %xmm0
	movzbl	32(%rsp), %r12d
	movzbl	33(%rsp), %ebp
	cmpb	$3, %r12b
	jne	.LBB127_6
	movq	16(%rsp), %rax
	leaq	(%rsp,%rax), %rsi
	addq	$8, %rsi
	subq	%rax, %r15
	movw	$0, 20(%rsp)
	movl	$0, 16(%rsp)
	leaq	16(%rsp), %rdi
	movq	%r15, %rdx
	movaps	%xmm0, 48(%rsp)
	callq	memcpy@PLT
	movaps	48(%rsp), %xmm0
	movzwl	20(%rsp), %eax
	movw	%ax, 4(%r14)
	movl	16(%rsp), %eax
	movl	%eax, (%r14)
	movb	%r15b, 6(%r14)
	movzbl	%r12b, %eax
	leaq	.LJTI127_0(%rip), %rcx
	movslq	(%rcx,%rax,4), %rdx
	addq	%rcx, %rdx
	movl	%eax, %ecx
	notrack jmpq	*%rdx
.LBB127_3:
	movw	$0, 20(%rsp)
	movl	$0, 16(%rsp)
	xorl	%eax, %eax
	movzwl	20(%rsp), %ecx
	movw	%cx, 4(%r14)
	movl	16(%rsp), %ecx
	movl	%ecx, (%r14)
	movb	%al, 6(%r14)
	movzbl	%r12b, %eax
	leaq	.LJTI127_0(%rip), %rcx
	movslq	(%rcx,%rax,4), %rdx
	addq	%rcx, %rdx
	movl	%eax, %ecx
	notrack jmpq	*%rdx
.LBB127_6:
	movw	$0, 20(%rsp)
	movl	$0, 16(%rsp)
	xorl	%eax, %eax
	movzwl	20(%rsp), %ecx
	movw	%cx, 4(%r14)
	movl	16(%rsp), %ecx
	movl	%ecx, (%r14)
	movb	%al, 6(%r14)
	movzbl	%r12b, %eax
	leaq	.LJTI127_0(%rip), %rcx
	movslq	(%rcx,%rax,4), %rdx
	addq	%rcx, %rdx
	movl	%eax, %ecx
	notrack jmpq	*%rdx
.LBB127_7:
	movzbl	%bpl, %ecx
	movl	$1, %eax
	jmp	.LBB127_10
.LBB127_8:
	xorl	%ecx, %ecx
	movl	$2, %eax
	jmp	.LBB127_10
.LBB127_9:
	xorl	%ecx, %ecx
	movl	$3, %eax
.LBB127_10:
	movups	%xmm0, (%rbx)
	movl	%eax, 16(%rbx)
	movl	%ecx, 20(%rbx)
	movq	%rbx, %rax
	addq	$64, %rsp
	.cfi_def_cfa_offset 48
	popq	%rbx
	.cfi_def_cfa_offset 40
	popq	%r12
	.cfi_def_cfa_offset 32
	popq	%r14
	.cfi_def_cfa_offset 24
	popq	%r15
	.cfi_def_cfa_offset 16
	popq	%rbp
	.cfi_def_cfa_offset 8
	retq
.Lfunc_end127:
	.size	dethrux_wtf8_encoder_finish_v2, .Lfunc_end127-dethrux_wtf8_encoder_finish_v2
	.cfi_endproc
	.section	.rodata.dethrux_wtf8_encoder_finish,"a",@progbits
	.p2align	2, 0x0
.LJTI127_0:
	.long	.LBB127_10-.LJTI127_0
	.long	.LBB127_7-.LJTI127_0
	.long	.LBB127_8-.LJTI127_0
	.long	.LBB127_9-.LJTI127_0

	.section	.rodata.cst16,"aM",@progbits,16
	.p2align	4, 0x0
.LCPI128_0:
	.zero	16,248
.LCPI128_1:
	.zero	16,216
.LCPI128_2:
	.byte	248
	.byte	248
	.byte	248
	.byte	248
	.byte	248
	.byte	248
	.byte	248
	.byte	248
	.zero	1
	.zero	1
	.zero	1
	.zero	1
	.zero	1
	.zero	1
	.zero	1
	.zero	1
.LCPI128_3:
	.byte	216
	.byte	216
	.byte	216
	.byte	216
	.byte	216
	.byte	216
	.byte	216
	.byte	216
	.zero	1
	.zero	1
	.zero	1
	.zero	1
	.zero	1
	.zero	1
	.zero	1
	.zero	1
.LCPI128_4:
	.byte	248
	.byte	248
	.byte	248
	.byte	248
	.zero	1
	.zero	1
	.zero	1
	.zero	1
	.zero	1
	.zero	1
	.zero	1
	.zero	1
	.zero	1
	.zero	1
	.zero	1
	.zero	1
.LCPI128_5:
	.byte	216
	.byte	216
	.byte	216
	.byte	216
	.zero	1
	.zero	1
	.zero	1
	.zero	1
	.zero	1
	.zero	1
	.zero	1
	.zero	1
	.zero	1
	.zero	1
	.zero	1
	.zero	1
.LCPI128_6:
	.byte	255
	.byte	0
	.byte	255
	.byte	0
	.byte	255
	.byte	0
	.byte	255
	.byte	0
	.byte	255
	.byte	0
	.byte	255
	.byte	0
	.byte	255
	.byte	0
	.byte	255
	.byte	0
.LCPI128_7:
	.byte	0
	.byte	2
	.byte	4
	.byte	6
	.byte	8
	.byte	10
	.byte	12
	.byte	14
	.zero	1
	.zero	1
	.zero	1
	.zero	1
	.zero	1
	.zero	1
	.zero	1
	.zero	1
.LCPI128_8:
	.byte	0
	.byte	2
	.byte	4
	.byte	6
	.zero	1
	.zero	1
	.zero	1
	.zero	1
	.zero	1
	.zero	1
	.zero	1
	.zero	1
	.zero	1
	.zero	1
	.zero	1
	.zero	1
	.section	.text.dethrux_validate,"ax",@progbits
	.globl	dethrux_validate_v2
	.hidden	dethrux_validate_v2
	.p2align	4
	.type	dethrux_validate_v2,@function
dethrux_validate_v2:
	.cfi_startproc
	subq	$24, %rsp
	.cfi_def_cfa_offset 32
	movq	%rsi, %rax
	xorl	%esi, %esi
	testq	%rax, %rax
	sete	%sil
	shll	$12, %esi
	addq	%rax, %rsi
	pxor	%xmm0, %xmm0
	cmpl	$1, %edi
	jne	.LBB128_24
	movdqa	%xmm0, (%rsp)
	cmpq	$2, %rdx
	jne	.LBB128_4
	movzbl	(%rsi), %eax
.LBB128_3:
	andb	$-8, %al
	cmpb	$-40, %al
	jne	.LBB128_48
	jmp	.LBB128_20
.LBB128_24:
	movdqa	%xmm0, (%rsp)
	cmpq	$2, %rdx
	jne	.LBB128_27
	movzbl	1(%rsi), %eax
.LBB128_26:
	andb	$-8, %al
	cmpb	$-40, %al
	jne	.LBB128_48
	jmp	.LBB128_46
.LBB128_4:
	cmpq	$7, %rdx
	ja	.LBB128_13
	testq	%rdx, %rdx
	je	.LBB128_48
	cmpq	$6, %rdx
	je	.LBB128_10
	cmpq	$4, %rdx
	jne	.LBB128_20
	movzbl	(%rsi), %eax
	andb	$-8, %al
	cmpb	$-40, %al
	je	.LBB128_20
	movzbl	2(%rsi), %eax
	jmp	.LBB128_3
.LBB128_27:
	cmpq	$7, %rdx
	ja	.LBB128_36
	testq	%rdx, %rdx
	je	.LBB128_48
	cmpq	$6, %rdx
	je	.LBB128_33
	cmpq	$4, %rdx
	jne	.LBB128_46
	movzbl	1(%rsi), %eax
	andb	$-8, %al
	cmpb	$-40, %al
	je	.LBB128_46
	movzbl	3(%rsi), %eax
	jmp	.LBB128_26
.LBB128_13:
	cmpq	$65, %rdx
	setae	%al
	movl	%edx, %ecx
	orb	%al, %cl
	testb	$1, %cl
	jne	.LBB128_20
	cmpq	$15, %rdx
	ja	.LBB128_17
	movq	(%rsi), %xmm0
	pshufb	.LCPI128_8(%rip), %xmm0
	pand	.LCPI128_4(%rip), %xmm0
	pcmpeqb	.LCPI128_5(%rip), %xmm0
	pmovsxbd	%xmm0, %xmm0
	movmskps	%xmm0, %eax
	testl	%eax, %eax
	jne	.LBB128_20
	movq	-8(%rsi,%rdx), %xmm0
	pshufb	.LCPI128_8(%rip), %xmm0
	pand	.LCPI128_4(%rip), %xmm0
	pcmpeqb	.LCPI128_5(%rip), %xmm0
	pmovsxbd	%xmm0, %xmm0
	movmskps	%xmm0, %eax
	jmp	.LBB128_23
.LBB128_36:
	cmpq	$65, %rdx
	setae	%al
	movl	%edx, %ecx
	orb	%al, %cl
	testb	$1, %cl
	jne	.LBB128_46
	cmpq	$15, %rdx
	ja	.LBB128_40
	movq	(%rsi), %xmm0
	psrlw	$8, %xmm0
	packuswb	%xmm0, %xmm0
	pand	.LCPI128_4(%rip), %xmm0
	pcmpeqb	.LCPI128_5(%rip), %xmm0
	pmovsxbd	%xmm0, %xmm0
	movmskps	%xmm0, %eax
	testl	%eax, %eax
	jne	.LBB128_46
	movq	-8(%rsi,%rdx), %xmm0
	psrlw	$8, %xmm0
	packuswb	%xmm0, %xmm0
	pand	.LCPI128_4(%rip), %xmm0
	pcmpeqb	.LCPI128_5(%rip), %xmm0
	pmovsxbd	%xmm0, %xmm0
	movmskps	%xmm0, %eax
	jmp	.LBB128_45
.LBB128_10:
	movzbl	(%rsi), %eax
	andb	$-8, %al
	cmpb	$-40, %al
	je	.LBB128_20
	movzbl	2(%rsi), %eax
	andb	$-8, %al
	cmpb	$-40, %al
	je	.LBB128_20
	movzbl	4(%rsi), %eax
	jmp	.LBB128_3
.LBB128_33:
	movzbl	1(%rsi), %eax
	andb	$-8, %al
	cmpb	$-40, %al
	je	.LBB128_46
	movzbl	3(%rsi), %eax
	andb	$-8, %al
	cmpb	$-40, %al
	je	.LBB128_46
	movzbl	5(%rsi), %eax
	jmp	.LBB128_26
.LBB128_17:
	cmpq	$31, %rdx
	ja	.LBB128_21
	movdqu	(%rsi), %xmm0
	pshufb	.LCPI128_7(%rip), %xmm0
	pand	.LCPI128_2(%rip), %xmm0
	pcmpeqb	.LCPI128_3(%rip), %xmm0
	pmovmskb	%xmm0, %eax
	testb	%al, %al
	jne	.LBB128_20
	movdqu	-16(%rsi,%rdx), %xmm0
	pshufb	.LCPI128_7(%rip), %xmm0
	pand	.LCPI128_2(%rip), %xmm0
	pcmpeqb	.LCPI128_3(%rip), %xmm0
	pmovmskb	%xmm0, %eax
	testb	%al, %al
	jne	.LBB128_20
	jmp	.LBB128_48
.LBB128_40:
	cmpq	$31, %rdx
	ja	.LBB128_43
	movdqu	(%rsi), %xmm0
	psrlw	$8, %xmm0
	packuswb	%xmm0, %xmm0
	pand	.LCPI128_2(%rip), %xmm0
	pcmpeqb	.LCPI128_3(%rip), %xmm0
	pmovmskb	%xmm0, %eax
	testb	%al, %al
	jne	.LBB128_46
	movdqu	-16(%rsi,%rdx), %xmm0
	psrlw	$8, %xmm0
	packuswb	%xmm0, %xmm0
	pand	.LCPI128_2(%rip), %xmm0
	pcmpeqb	.LCPI128_3(%rip), %xmm0
	pmovmskb	%xmm0, %eax
	testb	%al, %al
	jne	.LBB128_46
	jmp	.LBB128_48
.LBB128_21:
	movdqu	(%rsi), %xmm1
	movdqu	16(%rsi), %xmm2
	movdqa	.LCPI128_6(%rip), %xmm0
	pand	%xmm0, %xmm2
	pand	%xmm0, %xmm1
	packuswb	%xmm2, %xmm1
	pand	.LCPI128_0(%rip), %xmm1
	pcmpeqb	.LCPI128_1(%rip), %xmm1
	pmovmskb	%xmm1, %eax
	testl	%eax, %eax
	jne	.LBB128_20
	movdqu	-32(%rsi,%rdx), %xmm1
	movdqu	-16(%rsi,%rdx), %xmm2
	pand	%xmm0, %xmm2
	pand	%xmm0, %xmm1
	packuswb	%xmm2, %xmm1
	pand	.LCPI128_0(%rip), %xmm1
	pcmpeqb	.LCPI128_1(%rip), %xmm1
	pmovmskb	%xmm1, %eax
.LBB128_23:
	testl	%eax, %eax
	je	.LBB128_48
.LBB128_20:
	movq	%rsp, %rdi
	callq	"dethrux::validate::validity_of_many::<#8b18edd9dd9aa8df>"
	jmp	.LBB128_47
.LBB128_43:
	movdqu	(%rsi), %xmm0
	movdqu	16(%rsi), %xmm1
	psrlw	$8, %xmm1
	psrlw	$8, %xmm0
	packuswb	%xmm1, %xmm0
	pand	.LCPI128_0(%rip), %xmm0
	pcmpeqb	.LCPI128_1(%rip), %xmm0
	pmovmskb	%xmm0, %eax
	testl	%eax, %eax
	jne	.LBB128_46
	movdqu	-32(%rsi,%rdx), %xmm0
	movdqu	-16(%rsi,%rdx), %xmm1
	psrlw	$8, %xmm1
	psrlw	$8, %xmm0
	packuswb	%xmm1, %xmm0
	pand	.LCPI128_0(%rip), %xmm0
	pcmpeqb	.LCPI128_1(%rip), %xmm0
	pmovmskb	%xmm0, %eax
.LBB128_45:
	testl	%eax, %eax
	je	.LBB128_48
.LBB128_46:
	movq	%rsp, %rdi
	callq	"dethrux::validate::validity_of_many::<#418c2b53cf60437c>"
.LBB128_47:
	movq	(%rsp), %rdx
.LBB128_48:
	movq	8(%rsp), %rcx
	movq	%rdx, %rax
	movq	%rcx, %rdx
	addq	$24, %rsp
	.cfi_def_cfa_offset 8
	retq
.Lfunc_end128:
	.size	dethrux_validate_v2, .Lfunc_end128-dethrux_validate_v2
	.cfi_endproc

	.section	.text.dethrux_detect_bom,"ax",@progbits
	.globl	dethrux_detect_bom_v2
	.hidden	dethrux_detect_bom_v2
	.p2align	4
	.type	dethrux_detect_bom_v2,@function
dethrux_detect_bom_v2:
	.cfi_startproc
	cmpq	$1, %rdx
	ja	.LBB129_2
	cmpl	$1, %edi
	sete	%cl
	movabsq	$8589934592, %rsi
	xorl	%eax, %eax
	movzbl	%cl, %edx
	orq	%rsi, %rdx
	retq
.LBB129_2:
	xorl	%ecx, %ecx
	testq	%rsi, %rsi
	sete	%cl
	shll	$12, %ecx
	movzbl	(%rsi,%rcx), %eax
	movzbl	1(%rsi,%rcx), %ecx
	cmpl	$255, %eax
	je	.LBB129_7
	cmpl	$254, %eax
	jne	.LBB129_5
	cmpb	$-1, %cl
	je	.LBB129_8
.LBB129_5:
	cmpl	$1, %edi
	sete	%cl
	xorl	%esi, %esi
	xorl	%eax, %eax
	movzbl	%cl, %edx
	orq	%rsi, %rdx
	retq
.LBB129_7:
	cmpb	$-2, %cl
	jne	.LBB129_5
.LBB129_8:
	cmpb	$-1, %al
	setne	%cl
	movl	$2, %eax
	movabsq	$4294967296, %rsi
	movzbl	%cl, %edx
	orq	%rsi, %rdx
	retq
.Lfunc_end129:
	.size	dethrux_detect_bom_v2, .Lfunc_end129-dethrux_detect_bom_v2
	.cfi_endproc

	.type	.Lstatic.1,@object
	.section	.rodata..Lstatic.1,"a",@progbits
.Lstatic.1:
	.ascii	"\000\001\002\003\004\005\006\007\000\000\000\000\000\000\000\000\000\001\002\003\004\005\006\007\017\000\000\000\000\000\000\000\000\001\002\003\004\005\006\007\016\017\000\000\000\000\000\000\000\001\002\003\004\005\006\007\r\016\017\000\000\000\000\000\000\001\002\003\004\005\006\007\f\r\016\017\000\000\000\000\000\001\002\003\004\005\006\007\013\f\r\016\017\000\000\000\000\001\002\003\004\005\006\007\n\013\f\r\016\017\000\000\000\001\002\003\004\005\006\007\t\n\013\f\r\016\017\000\000\001\002\003\004\005\006\007\b\t\n\013\f\r\016\017"
	.size	.Lstatic.1, 144

	.type	.Lstatic.2,@object
	.section	.rodata.cst32,"aM",@progbits,32
.Lstatic.2:
	.ascii	"\000\000\000\000\000\000\000\000\000\000\000\000\000\000\000\000\377\377\377\377\377\377\377\377\377\377\377\377\377\377\377\377"
	.size	.Lstatic.2, 32

	.type	.Lstatic.3,@object
	.section	.rodata..Lstatic.3,"a",@progbits
.Lstatic.3:
	.ascii	"743210/.-g\362BC\345,+*)('&%$#\"!8 \037\036\035\034\377\224\244\225\210\240\233\255\335\336\206z\350\312\327\340\320\334\314\273\267\263\261\250\262\310\342\303\232\270\256~x\277\235\302\252\275\242\241\226\301\216\211\253\260\271\247\272p\257\300\274\234\214\217{\205\200\223\212\222r\337\227\371\330\356\354\375\343\332\346\367\207\264\361\351\366\364\347\213\365\363\373\353\311\304\360\326\230\266\315\265\177\033\324\323\322\325\344\305\251\237\203\254iPb`aQ\317\221ts\220\202\231yk\204mn|oRlv\215q\201w}\245u\\jSHc]AO\246\355\243\307\276\341\321\313\306\331\333\316\352\370\236\357\377\377\377\377\377\377\377\377\377\377\377\377\377\377\377\377\377\377\377\377\377\377\377\377\377\377\377\377\377\377\377\377\377\377\377\377\377\377\377\377\377\377\377\377\377\377\377\377\377\377\377\377\377\377\377\377\377\377\377\377\377\377\377\377"
	.size	.Lstatic.3, 256

	.type	.Lstatic.6,@object
	.section	.rodata..Lstatic.6,"a",@progbits
.Lstatic.6:
	.asciz	"\000\001\002\003\004\005\006\007\b\t\n\013\f\r\016\017\000\002\003\004\005\006\007\b\t\n\013\f\r\016\017\000\000\001\002\004\005\006\007\b\t\n\013\f\r\016\017\000\000\002\004\005\006\007\b\t\n\013\f\r\016\017\000\000\000\001\002\003\004\006\007\b\t\n\013\f\r\016\017\000\000\002\003\004\006\007\b\t\n\013\f\r\016\017\000\000\000\001\002\004\006\007\b\t\n\013\f\r\016\017\000\000\000\002\004\006\007\b\t\n\013\f\r\016\017\000\000\000\000\001\002\003\004\005\006\b\t\n\013\f\r\016\017\000\000\002\003\004\005\006\b\t\n\013\f\r\016\017\000\000\000\001\002\004\005\006\b\t\n\013\f\r\016\017\000\000\000\002\004\005\006\b\t\n\013\f\r\016\017\000\000\000\000\001\002\003\004\006\b\t\n\013\f\r\016\017\000\000\000\002\003\004\006\b\t\n\013\f\r\016\017\000\000\000\000\001\002\004\006\b\t\n\013\f\r\016\017\000\000\000\000\002\004\006\b\t\n\013\f\r\016\017\000\000\000\000\000\001\002\003\004\005\006\007\b\n\013\f\r\016\017\000\000\002\003\004\005\006\007\b\n\013\f\r\016\017\000\000\000\001\002\004\005\006\007\b\n\013\f\r\016\017\000\000\000\002\004\005\006\007\b\n\013\f\r\016\017\000\000\000\000\001\002\003\004\006\007\b\n\013\f\r\016\017\000\000\000\002\003\004\006\007\b\n\013\f\r\016\017\000\000\000\000\001\002\004\006\007\b\n\013\f\r\016\017\000\000\000\000\002\004\006\007\b\n\013\f\r\016\017\000\000\000\000\000\001\002\003\004\005\006\b\n\013\f\r\016\017\000\000\000\002\003\004\005\006\b\n\013\f\r\016\017\000\000\000\000\001\002\004\005\006\b\n\013\f\r\016\017\000\000\000\000\002\004\005\006\b\n\013\f\r\016\017\000\000\000\000\000\001\002\003\004\006\b\n\013\f\r\016\017\000\000\000\000\002\003\004\006\b\n\013\f\r\016\017\000\000\000\000\000\001\002\004\006\b\n\013\f\r\016\017\000\000\000\000\000\002\004\006\b\n\013\f\r\016\017\000\000\000\000\000\000\001\002\003\004\005\006\007\b\t\n\f\r\016\017\000\000\002\003\004\005\006\007\b\t\n\f\r\016\017\000\000\000\001\002\004\005\006\007\b\t\n\f\r\016\017\000\000\000\002\004\005\006\007\b\t\n\f\r\016\017\000\000\000\000\001\002\003\004\006\007\b\t\n\f\r\016\017\000\000\000\002\003\004\006\007\b\t\n\f\r\016\017\000\000\000\000\001\002\004\006\007\b\t\n\f\r\016\017\000\000\000\000\002\004\006\007\b\t\n\f\r\016\017\000\000\000\000\000\001\002\003\004\005\006\b\t\n\f\r\016\017\000\000\000\002\003\004\005\006\b\t\n\f\r\016\017\000\000\000\000\001\002\004\005\006\b\t\n\f\r\016\017\000\000\000\000\002\004\005\006\b\t\n\f\r\016\017\000\000\000\000\000\001\002\003\004\006\b\t\n\f\r\016\017\000\000\000\000\002\003\004\006\b\t\n\f\r\016\017\000\000\000\000\000\001\002\004\006\b\t\n\f\r\016\017\000\000\000\000\000\002\004\006\b\t\n\f\r\016\017\000\000\000\000\000\000\001\002\003\004\005\006\007\b\n\f\r\016\017\000\000\000\002\003\004\005\006\007\b\n\f\r\016\017\000\000\000\000\001\002\004\005\006\007\b\n\f\r\016\017\000\000\000\000\002\004\005\006\007\b\n\f\r\016\017\000\000\000\000\000\001\002\003\004\006\007\b\n\f\r\016\017\000\000\000\000\002\003\004\006\007\b\n\f\r\016\017\000\000\000\000\000\001\002\004\006\007\b\n\f\r\016\017\000\000\000\000\000\002\004\006\007\b\n\f\r\016\017\000\000\000\000\000\000\001\002\003\004\005\006\b\n\f\r\016\017\000\000\000\000\002\003\004\005\006\b\n\f\r\016\017\000\000\000\000\000\001\002\004\005\006\b\n\f\r\016\017\000\000\000\000\000\002\004\005\006\b\n\f\r\016\017\000\000\000\000\000\000\001\002\003\004\006\b\n\f\r\016\017\000\000\000\000\000\002\003\004\006\b\n\f\r\016\017\000\000\000\000\000\000\001\002\004\006\b\n\f\r\016\017\000\000\000\000\000\000\002\004\006\b\n\f\r\016\017\000\000\000\000\000\000\000\001\002\003\004\005\006\007\b\t\n\013\f\016\017\000\000\002\003\004\005\006\007\b\t\n\013\f\016\017\000\000\000\001\002\004\005\006\007\b\t\n\013\f\016\017\000\000\000\002\004\005\006\007\b\t\n\013\f\016\017\000\000\000\000\001\002\003\004\006\007\b\t\n\013\f\016\017\000\000\000\002\003\004\006\007\b\t\n\013\f\016\017\000\000\000\000\001\002\004\006\007\b\t\n\013\f\016\017\000\000\000\000\002\004\006\007\b\t\n\013\f\016\017\000\000\000\000\000\001\002\003\004\005\006\b\t\n\013\f\016\017\000\000\000\002\003\004\005\006\b\t\n\013\f\016\017\000\000\000\000\001\002\004\005\006\b\t\n\013\f\016\017\000\000\000\000\002\004\005\006\b\t\n\013\f\016\017\000\000\000\000\000\001\002\003\004\006\b\t\n\013\f\016\017\000\000\000\000\002\003\004\006\b\t\n\013\f\016\017\000\000\000\000\000\001\002\004\006\b\t\n\013\f\016\017\000\000\000\000\000\002\004\006\b\t\n\013\f\016\017\000\000\000\000\000\000\001\002\003\004\005\006\007\b\n\013\f\016\017\000\000\000\002\003\004\005\006\007\b\n\013\f\016\017\000\000\000\000\001\002\004\005\006\007\b\n\013\f\016\017\000\000\000\000\002\004\005\006\007\b\n\013\f\016\017\000\000\000\000\000\001\002\003\004\006\007\b\n\013\f\016\017\000\000\000\000\002\003\004\006\007\b\n\013\f\016\017\000\000\000\000\000\001\002\004\006\007\b\n\013\f\016\017\000\000\000\000\000\002\004\006\007\b\n\013\f\016\017\000\000\000\000\000\000\001\002\003\004\005\006\b\n\013\f\016\017\000\000\000\000\002\003\004\005\006\b\n\013\f\016\017\000\000\000\000\000\001\002\004\005\006\b\n\013\f\016\017\000\000\000\000\000\002\004\005\006\b\n\013\f\016\017\000\000\000\000\000\000\001\002\003\004\006\b\n\013\f\016\017\000\000\000\000\000\002\003\004\006\b\n\013\f\016\017\000\000\000\000\000\000\001\002\004\006\b\n\013\f\016\017\000\000\000\000\000\000\002\004\006\b\n\013\f\016\017\000\000\000\000\000\000\000\001\002\003\004\005\006\007\b\t\n\f\016\017\000\000\000\002\003\004\005\006\007\b\t\n\f\016\017\000\000\000\000\001\002\004\005\006\007\b\t\n\f\016\017\000\000\000\000\002\004\005\006\007\b\t\n\f\016\017\000\000\000\000\000\001\002\003\004\006\007\b\t\n\f\016\017\000\000\000\000\002\003\004\006\007\b\t\n\f\016\017\000\000\000\000\000\001\002\004\006\007\b\t\n\f\016\017\000\000\000\000\000\002\004\006\007\b\t\n\f\016\017\000\000\000\000\000\000\001\002\003\004\005\006\b\t\n\f\016\017\000\000\000\000\002\003\004\005\006\b\t\n\f\016\017\000\000\000\000\000\001\002\004\005\006\b\t\n\f\016\017\000\000\000\000\000\002\004\005\006\b\t\n\f\016\017\000\000\000\000\000\000\001\002\003\004\006\b\t\n\f\016\017\000\000\000\000\000\002\003\004\006\b\t\n\f\016\017\000\000\000\000\000\000\001\002\004\006\b\t\n\f\016\017\000\000\000\000\000\000\002\004\006\b\t\n\f\016\017\000\000\000\000\000\000\000\001\002\003\004\005\006\007\b\n\f\016\017\000\000\000\000\002\003\004\005\006\007\b\n\f\016\017\000\000\000\000\000\001\002\004\005\006\007\b\n\f\016\017\000\000\000\000\000\002\004\005\006\007\b\n\f\016\017\000\000\000\000\000\000\001\002\003\004\006\007\b\n\f\016\017\000\000\000\000\000\002\003\004\006\007\b\n\f\016\017\000\000\000\000\000\000\001\002\004\006\007\b\n\f\016\017\000\000\000\000\000\000\002\004\006\007\b\n\f\016\017\000\000\000\000\000\000\000\001\002\003\004\005\006\b\n\f\016\017\000\000\000\000\000\002\003\004\005\006\b\n\f\016\017\000\000\000\000\000\000\001\002\004\005\006\b\n\f\016\017\000\000\000\000\000\000\002\004\005\006\b\n\f\016\017\000\000\000\000\000\000\000\001\002\003\004\006\b\n\f\016\017\000\000\000\000\000\000\002\003\004\006\b\n\f\016\017\000\000\000\000\000\000\000\001\002\004\006\b\n\f\016\017\000\000\000\000\000\000\000\002\004\006\b\n\f\016\017\000\000\000\000\000\000\000\000\001\002\003\004\005\006\007\b\t\n\013\f\r\016\000\000\002\003\004\005\006\007\b\t\n\013\f\r\016\000\000\000\001\002\004\005\006\007\b\t\n\013\f\r\016\000\000\000\002\004\005\006\007\b\t\n\013\f\r\016\000\000\000\000\001\002\003\004\006\007\b\t\n\013\f\r\016\000\000\000\002\003\004\006\007\b\t\n\013\f\r\016\000\000\000\000\001\002\004\006\007\b\t\n\013\f\r\016\000\000\000\000\002\004\006\007\b\t\n\013\f\r\016\000\000\000\000\000\001\002\003\004\005\006\b\t\n\013\f\r\016\000\000\000\002\003\004\005\006\b\t\n\013\f\r\016\000\000\000\000\001\002\004\005\006\b\t\n\013\f\r\016\000\000\000\000\002\004\005\006\b\t\n\013\f\r\016\000\000\000\000\000\001\002\003\004\006\b\t\n\013\f\r\016\000\000\000\000\002\003\004\006\b\t\n\013\f\r\016\000\000\000\000\000\001\002\004\006\b\t\n\013\f\r\016\000\000\000\000\000\002\004\006\b\t\n\013\f\r\016\000\000\000\000\000\000\001\002\003\004\005\006\007\b\n\013\f\r\016\000\000\000\002\003\004\005\006\007\b\n\013\f\r\016\000\000\000\000\001\002\004\005\006\007\b\n\013\f\r\016\000\000\000\000\002\004\005\006\007\b\n\013\f\r\016\000\000\000\000\000\001\002\003\004\006\007\b\n\013\f\r\016\000\000\000\000\002\003\004\006\007\b\n\013\f\r\016\000\000\000\000\000\001\002\004\006\007\b\n\013\f\r\016\000\000\000\000\000\002\004\006\007\b\n\013\f\r\016\000\000\000\000\000\000\001\002\003\004\005\006\b\n\013\f\r\016\000\000\000\000\002\003\004\005\006\b\n\013\f\r\016\000\000\000\000\000\001\002\004\005\006\b\n\013\f\r\016\000\000\000\000\000\002\004\005\006\b\n\013\f\r\016\000\000\000\000\000\000\001\002\003\004\006\b\n\013\f\r\016\000\000\000\000\000\002\003\004\006\b\n\013\f\r\016\000\000\000\000\000\000\001\002\004\006\b\n\013\f\r\016\000\000\000\000\000\000\002\004\006\b\n\013\f\r\016\000\000\000\000\000\000\000\001\002\003\004\005\006\007\b\t\n\f\r\016\000\000\000\002\003\004\005\006\007\b\t\n\f\r\016\000\000\000\000\001\002\004\005\006\007\b\t\n\f\r\016\000\000\000\000\002\004\005\006\007\b\t\n\f\r\016\000\000\000\000\000\001\002\003\004\006\007\b\t\n\f\r\016\000\000\000\000\002\003\004\006\007\b\t\n\f\r\016\000\000\000\000\000\001\002\004\006\007\b\t\n\f\r\016\000\000\000\000\000\002\004\006\007\b\t\n\f\r\016\000\000\000\000\000\000\001\002\003\004\005\006\b\t\n\f\r\016\000\000\000\000\002\003\004\005\006\b\t\n\f\r\016\000\000\000\000\000\001\002\004\005\006\b\t\n\f\r\016\000\000\000\000\000\002\004\005\006\b\t\n\f\r\016\000\000\000\000\000\000\001\002\003\004\006\b\t\n\f\r\016\000\000\000\000\000\002\003\004\006\b\t\n\f\r\016\000\000\000\000\000\000\001\002\004\006\b\t\n\f\r\016\000\000\000\000\000\000\002\004\006\b\t\n\f\r\016\000\000\000\000\000\000\000\001\002\003\004\005\006\007\b\n\f\r\016\000\000\000\000\002\003\004\005\006\007\b\n\f\r\016\000\000\000\000\000\001\002\004\005\006\007\b\n\f\r\016\000\000\000\000\000\002\004\005\006\007\b\n\f\r\016\000\000\000\000\000\000\001\002\003\004\006\007\b\n\f\r\016\000\000\000\000\000\002\003\004\006\007\b\n\f\r\016\000\000\000\000\000\000\001\002\004\006\007\b\n\f\r\016\000\000\000\000\000\000\002\004\006\007\b\n\f\r\016\000\000\000\000\000\000\000\001\002\003\004\005\006\b\n\f\r\016\000\000\000\000\000\002\003\004\005\006\b\n\f\r\016\000\000\000\000\000\000\001\002\004\005\006\b\n\f\r\016\000\000\000\000\000\000\002\004\005\006\b\n\f\r\016\000\000\000\000\000\000\000\001\002\003\004\006\b\n\f\r\016\000\000\000\000\000\000\002\003\004\006\b\n\f\r\016\000\000\000\000\000\000\000\001\002\004\006\b\n\f\r\016\000\000\000\000\000\000\000\002\004\006\b\n\f\r\016\000\000\000\000\000\000\000\000\001\002\003\004\005\006\007\b\t\n\013\f\016\000\000\000\002\003\004\005\006\007\b\t\n\013\f\016\000\000\000\000\001\002\004\005\006\007\b\t\n\013\f\016\000\000\000\000\002\004\005\006\007\b\t\n\013\f\016\000\000\000\000\000\001\002\003\004\006\007\b\t\n\013\f\016\000\000\000\000\002\003\004\006\007\b\t\n\013\f\016\000\000\000\000\000\001\002\004\006\007\b\t\n\013\f\016\000\000\000\000\000\002\004\006\007\b\t\n\013\f\016\000\000\000\000\000\000\001\002\003\004\005\006\b\t\n\013\f\016\000\000\000\000\002\003\004\005\006\b\t\n\013\f\016\000\000\000\000\000\001\002\004\005\006\b\t\n\013\f\016\000\000\000\000\000\002\004\005\006\b\t\n\013\f\016\000\000\000\000\000\000\001\002\003\004\006\b\t\n\013\f\016\000\000\000\000\000\002\003\004\006\b\t\n\013\f\016\000\000\000\000\000\000\001\002\004\006\b\t\n\013\f\016\000\000\000\000\000\000\002\004\006\b\t\n\013\f\016\000\000\000\000\000\000\000\001\002\003\004\005\006\007\b\n\013\f\016\000\000\000\000\002\003\004\005\006\007\b\n\013\f\016\000\000\000\000\000\001\002\004\005\006\007\b\n\013\f\016\000\000\000\000\000\002\004\005\006\007\b\n\013\f\016\000\000\000\000\000\000\001\002\003\004\006\007\b\n\013\f\016\000\000\000\000\000\002\003\004\006\007\b\n\013\f\016\000\000\000\000\000\000\001\002\004\006\007\b\n\013\f\016\000\000\000\000\000\000\002\004\006\007\b\n\013\f\016\000\000\000\000\000\000\000\001\002\003\004\005\006\b\n\013\f\016\000\000\000\000\000\002\003\004\005\006\b\n\013\f\016\000\000\000\000\000\000\001\002\004\005\006\b\n\013\f\016\000\000\000\000\000\000\002\004\005\006\b\n\013\f\016\000\000\000\000\000\000\000\001\002\003\004\006\b\n\013\f\016\000\000\000\000\000\000\002\003\004\006\b\n\013\f\016\000\000\000\000\000\000\000\001\002\004\006\b\n\013\f\016\000\000\000\000\000\000\000\002\004\006\b\n\013\f\016\000\000\000\000\000\000\000\000\001\002\003\004\005\006\007\b\t\n\f\016\000\000\000\000\002\003\004\005\006\007\b\t\n\f\016\000\000\000\000\000\001\002\004\005\006\007\b\t\n\f\016\000\000\000\000\000\002\004\005\006\007\b\t\n\f\016\000\000\000\000\000\000\001\002\003\004\006\007\b\t\n\f\016\000\000\000\000\000\002\003\004\006\007\b\t\n\f\016\000\000\000\000\000\000\001\002\004\006\007\b\t\n\f\016\000\000\000\000\000\000\002\004\006\007\b\t\n\f\016\000\000\000\000\000\000\000\001\002\003\004\005\006\b\t\n\f\016\000\000\000\000\000\002\003\004\005\006\b\t\n\f\016\000\000\000\000\000\000\001\002\004\005\006\b\t\n\f\016\000\000\000\000\000\000\002\004\005\006\b\t\n\f\016\000\000\000\000\000\000\000\001\002\003\004\006\b\t\n\f\016\000\000\000\000\000\000\002\003\004\006\b\t\n\f\016\000\000\000\000\000\000\000\001\002\004\006\b\t\n\f\016\000\000\000\000\000\000\000\002\004\006\b\t\n\f\016\000\000\000\000\000\000\000\000\001\002\003\004\005\006\007\b\n\f\016\000\000\000\000\000\002\003\004\005\006\007\b\n\f\016\000\000\000\000\000\000\001\002\004\005\006\007\b\n\f\016\000\000\000\000\000\000\002\004\005\006\007\b\n\f\016\000\000\000\000\000\000\000\001\002\003\004\006\007\b\n\f\016\000\000\000\000\000\000\002\003\004\006\007\b\n\f\016\000\000\000\000\000\000\000\001\002\004\006\007\b\n\f\016\000\000\000\000\000\000\000\002\004\006\007\b\n\f\016\000\000\000\000\000\000\000\000\001\002\003\004\005\006\b\n\f\016\000\000\000\000\000\000\002\003\004\005\006\b\n\f\016\000\000\000\000\000\000\000\001\002\004\005\006\b\n\f\016\000\000\000\000\000\000\000\002\004\005\006\b\n\f\016\000\000\000\000\000\000\000\000\001\002\003\004\006\b\n\f\016\000\000\000\000\000\000\000\002\003\004\006\b\n\f\016\000\000\000\000\000\000\000\000\001\002\004\006\b\n\f\016\000\000\000\000\000\000\000\000\002\004\006\b\n\f\016\000\000\000\000\000\000\000"
	.size	.Lstatic.6, 4096

	.type	.Lstatic.7,@object
	.section	.rodata..Lstatic.7,"a",@progbits
.Lstatic.7:
	.asciz	"\000\002\003\004\006\007\b\n\013\f\016\017\000\000\000\000\000\001\004\006\007\b\n\013\f\016\017\000\000\000\000\000\002\003\004\006\007\b\n\013\f\016\017\000\000\000\000\000\001\004\006\007\b\n\013\f\016\017\000\000\000\000\000\000\000\002\003\004\005\b\n\013\f\016\017\000\000\000\000\000\000\001\004\005\b\n\013\f\016\017\000\000\000\000\000\000\002\003\004\005\b\n\013\f\016\017\000\000\000\000\000\000\001\004\005\b\n\013\f\016\017\000\000\000\000\000\000\000\000\002\003\006\007\b\n\013\f\016\017\000\000\000\000\000\000\001\006\007\b\n\013\f\016\017\000\000\000\000\000\000\002\003\006\007\b\n\013\f\016\017\000\000\000\000\000\000\001\006\007\b\n\013\f\016\017\000\000\000\000\000\000\000\000\002\003\005\b\n\013\f\016\017\000\000\000\000\000\000\000\001\005\b\n\013\f\016\017\000\000\000\000\000\000\000\002\003\005\b\n\013\f\016\017\000\000\000\000\000\000\000\001\005\b\n\013\f\016\017\000\000\000\000\000\000\000\000\000\002\003\004\006\007\b\t\f\016\017\000\000\000\000\000\000\001\004\006\007\b\t\f\016\017\000\000\000\000\000\000\002\003\004\006\007\b\t\f\016\017\000\000\000\000\000\000\001\004\006\007\b\t\f\016\017\000\000\000\000\000\000\000\000\002\003\004\005\b\t\f\016\017\000\000\000\000\000\000\000\001\004\005\b\t\f\016\017\000\000\000\000\000\000\000\002\003\004\005\b\t\f\016\017\000\000\000\000\000\000\000\001\004\005\b\t\f\016\017\000\000\000\000\000\000\000\000\000\002\003\006\007\b\t\f\016\017\000\000\000\000\000\000\000\001\006\007\b\t\f\016\017\000\000\000\000\000\000\000\002\003\006\007\b\t\f\016\017\000\000\000\000\000\000\000\001\006\007\b\t\f\016\017\000\000\000\000\000\000\000\000\000\002\003\005\b\t\f\016\017\000\000\000\000\000\000\000\000\001\005\b\t\f\016\017\000\000\000\000\000\000\000\000\002\003\005\b\t\f\016\017\000\000\000\000\000\000\000\000\001\005\b\t\f\016\017\000\000\000\000\000\000\000\000\000\000\002\003\004\006\007\n\013\f\016\017\000\000\000\000\000\000\001\004\006\007\n\013\f\016\017\000\000\000\000\000\000\002\003\004\006\007\n\013\f\016\017\000\000\000\000\000\000\001\004\006\007\n\013\f\016\017\000\000\000\000\000\000\000\000\002\003\004\005\n\013\f\016\017\000\000\000\000\000\000\000\001\004\005\n\013\f\016\017\000\000\000\000\000\000\000\002\003\004\005\n\013\f\016\017\000\000\000\000\000\000\000\001\004\005\n\013\f\016\017\000\000\000\000\000\000\000\000\000\002\003\006\007\n\013\f\016\017\000\000\000\000\000\000\000\001\006\007\n\013\f\016\017\000\000\000\000\000\000\000\002\003\006\007\n\013\f\016\017\000\000\000\000\000\000\000\001\006\007\n\013\f\016\017\000\000\000\000\000\000\000\000\000\002\003\005\n\013\f\016\017\000\000\000\000\000\000\000\000\001\005\n\013\f\016\017\000\000\000\000\000\000\000\000\002\003\005\n\013\f\016\017\000\000\000\000\000\000\000\000\001\005\n\013\f\016\017\000\000\000\000\000\000\000\000\000\000\002\003\004\006\007\t\f\016\017\000\000\000\000\000\000\000\001\004\006\007\t\f\016\017\000\000\000\000\000\000\000\002\003\004\006\007\t\f\016\017\000\000\000\000\000\000\000\001\004\006\007\t\f\016\017\000\000\000\000\000\000\000\000\000\002\003\004\005\t\f\016\017\000\000\000\000\000\000\000\000\001\004\005\t\f\016\017\000\000\000\000\000\000\000\000\002\003\004\005\t\f\016\017\000\000\000\000\000\000\000\000\001\004\005\t\f\016\017\000\000\000\000\000\000\000\000\000\000\002\003\006\007\t\f\016\017\000\000\000\000\000\000\000\000\001\006\007\t\f\016\017\000\000\000\000\000\000\000\000\002\003\006\007\t\f\016\017\000\000\000\000\000\000\000\000\001\006\007\t\f\016\017\000\000\000\000\000\000\000\000\000\000\002\003\005\t\f\016\017\000\000\000\000\000\000\000\000\000\001\005\t\f\016\017\000\000\000\000\000\000\000\000\000\002\003\005\t\f\016\017\000\000\000\000\000\000\000\000\000\001\005\t\f\016\017\000\000\000\000\000\000\000\000\000\000\000\002\003\004\006\007\b\n\013\f\r\000\000\000\000\000\000\001\004\006\007\b\n\013\f\r\000\000\000\000\000\000\002\003\004\006\007\b\n\013\f\r\000\000\000\000\000\000\001\004\006\007\b\n\013\f\r\000\000\000\000\000\000\000\000\002\003\004\005\b\n\013\f\r\000\000\000\000\000\000\000\001\004\005\b\n\013\f\r\000\000\000\000\000\000\000\002\003\004\005\b\n\013\f\r\000\000\000\000\000\000\000\001\004\005\b\n\013\f\r\000\000\000\000\000\000\000\000\000\002\003\006\007\b\n\013\f\r\000\000\000\000\000\000\000\001\006\007\b\n\013\f\r\000\000\000\000\000\000\000\002\003\006\007\b\n\013\f\r\000\000\000\000\000\000\000\001\006\007\b\n\013\f\r\000\000\000\000\000\000\000\000\000\002\003\005\b\n\013\f\r\000\000\000\000\000\000\000\000\001\005\b\n\013\f\r\000\000\000\000\000\000\000\000\002\003\005\b\n\013\f\r\000\000\000\000\000\000\000\000\001\005\b\n\013\f\r\000\000\000\000\000\000\000\000\000\000\002\003\004\006\007\b\t\f\r\000\000\000\000\000\000\000\001\004\006\007\b\t\f\r\000\000\000\000\000\000\000\002\003\004\006\007\b\t\f\r\000\000\000\000\000\000\000\001\004\006\007\b\t\f\r\000\000\000\000\000\000\000\000\000\002\003\004\005\b\t\f\r\000\000\000\000\000\000\000\000\001\004\005\b\t\f\r\000\000\000\000\000\000\000\000\002\003\004\005\b\t\f\r\000\000\000\000\000\000\000\000\001\004\005\b\t\f\r\000\000\000\000\000\000\000\000\000\000\002\003\006\007\b\t\f\r\000\000\000\000\000\000\000\000\001\006\007\b\t\f\r\000\000\000\000\000\000\000\000\002\003\006\007\b\t\f\r\000\000\000\000\000\000\000\000\001\006\007\b\t\f\r\000\000\000\000\000\000\000\000\000\000\002\003\005\b\t\f\r\000\000\000\000\000\000\000\000\000\001\005\b\t\f\r\000\000\000\000\000\000\000\000\000\002\003\005\b\t\f\r\000\000\000\000\000\000\000\000\000\001\005\b\t\f\r\000\000\000\000\000\000\000\000\000\000\000\002\003\004\006\007\n\013\f\r\000\000\000\000\000\000\000\001\004\006\007\n\013\f\r\000\000\000\000\000\000\000\002\003\004\006\007\n\013\f\r\000\000\000\000\000\000\000\001\004\006\007\n\013\f\r\000\000\000\000\000\000\000\000\000\002\003\004\005\n\013\f\r\000\000\000\000\000\000\000\000\001\004\005\n\013\f\r\000\000\000\000\000\000\000\000\002\003\004\005\n\013\f\r\000\000\000\000\000\000\000\000\001\004\005\n\013\f\r\000\000\000\000\000\000\000\000\000\000\002\003\006\007\n\013\f\r\000\000\000\000\000\000\000\000\001\006\007\n\013\f\r\000\000\000\000\000\000\000\000\002\003\006\007\n\013\f\r\000\000\000\000\000\000\000\000\001\006\007\n\013\f\r\000\000\000\000\000\000\000\000\000\000\002\003\005\n\013\f\r\000\000\000\000\000\000\000\000\000\001\005\n\013\f\r\000\000\000\000\000\000\000\000\000\002\003\005\n\013\f\r\000\000\000\000\000\000\000\000\000\001\005\n\013\f\r\000\000\000\000\000\000\000\000\000\000\000\002\003\004\006\007\t\f\r\000\000\000\000\000\000\000\000\001\004\006\007\t\f\r\000\000\000\000\000\000\000\000\002\003\004\006\007\t\f\r\000\000\000\000\000\000\000\000\001\004\006\007\t\f\r\000\000\000\000\000\000\000\000\000\000\002\003\004\005\t\f\r\000\000\000\000\000\000\000\000\000\001\004\005\t\f\r\000\000\000\000\000\000\000\000\000\002\003\004\005\t\f\r\000\000\000\000\000\000\000\000\000\001\004\005\t\f\r\000\000\000\000\000\000\000\000\000\000\000\002\003\006\007\t\f\r\000\000\000\000\000\000\000\000\000\001\006\007\t\f\r\000\000\000\000\000\000\000\000\000\002\003\006\007\t\f\r\000\000\000\000\000\000\000\000\000\001\006\007\t\f\r\000\000\000\000\000\000\000\000\000\000\000\002\003\005\t\f\r\000\000\000\000\000\000\000\000\000\000\001\005\t\f\r\000\000\000\000\000\000\000\000\000\000\002\003\005\t\f\r\000\000\000\000\000\000\000\000\000\000\001\005\t\f\r\000\000\000\000\000\000\000\000\000\000\000\000\002\003\004\006\007\b\n\013\016\017\000\000\000\000\000\000\001\004\006\007\b\n\013\016\017\000\000\000\000\000\000\002\003\004\006\007\b\n\013\016\017\000\000\000\000\000\000\001\004\006\007\b\n\013\016\017\000\000\000\000\000\000\000\000\002\003\004\005\b\n\013\016\017\000\000\000\000\000\000\000\001\004\005\b\n\013\016\017\000\000\000\000\000\000\000\002\003\004\005\b\n\013\016\017\000\000\000\000\000\000\000\001\004\005\b\n\013\016\017\000\000\000\000\000\000\000\000\000\002\003\006\007\b\n\013\016\017\000\000\000\000\000\000\000\001\006\007\b\n\013\016\017\000\000\000\000\000\000\000\002\003\006\007\b\n\013\016\017\000\000\000\000\000\000\000\001\006\007\b\n\013\016\017\000\000\000\000\000\000\000\000\000\002\003\005\b\n\013\016\017\000\000\000\000\000\000\000\000\001\005\b\n\013\016\017\000\000\000\000\000\000\000\000\002\003\005\b\n\013\016\017\000\000\000\000\000\000\000\000\001\005\b\n\013\016\017\000\000\000\000\000\000\000\000\000\000\002\003\004\006\007\b\t\016\017\000\000\000\000\000\000\000\001\004\006\007\b\t\016\017\000\000\000\000\000\000\000\002\003\004\006\007\b\t\016\017\000\000\000\000\000\000\000\001\004\006\007\b\t\016\017\000\000\000\000\000\000\000\000\000\002\003\004\005\b\t\016\017\000\000\000\000\000\000\000\000\001\004\005\b\t\016\017\000\000\000\000\000\000\000\000\002\003\004\005\b\t\016\017\000\000\000\000\000\000\000\000\001\004\005\b\t\016\017\000\000\000\000\000\000\000\000\000\000\002\003\006\007\b\t\016\017\000\000\000\000\000\000\000\000\001\006\007\b\t\016\017\000\000\000\000\000\000\000\000\002\003\006\007\b\t\016\017\000\000\000\000\000\000\000\000\001\006\007\b\t\016\017\000\000\000\000\000\000\000\000\000\000\002\003\005\b\t\016\017\000\000\000\000\000\000\000\000\000\001\005\b\t\016\017\000\000\000\000\000\000\000\000\000\002\003\005\b\t\016\017\000\000\000\000\000\000\000\000\000\001\005\b\t\016\017\000\000\000\000\000\000\000\000\000\000\000\002\003\004\006\007\n\013\016\017\000\000\000\000\000\000\000\001\004\006\007\n\013\016\017\000\000\000\000\000\000\000\002\003\004\006\007\n\013\016\017\000\000\000\000\000\000\000\001\004\006\007\n\013\016\017\000\000\000\000\000\000\000\000\000\002\003\004\005\n\013\016\017\000\000\000\000\000\000\000\000\001\004\005\n\013\016\017\000\000\000\000\000\000\000\000\002\003\004\005\n\013\016\017\000\000\000\000\000\000\000\000\001\004\005\n\013\016\017\000\000\000\000\000\000\000\000\000\000\002\003\006\007\n\013\016\017\000\000\000\000\000\000\000\000\001\006\007\n\013\016\017\000\000\000\000\000\000\000\000\002\003\006\007\n\013\016\017\000\000\000\000\000\000\000\000\001\006\007\n\013\016\017\000\000\000\000\000\000\000\000\000\000\002\003\005\n\013\016\017\000\000\000\000\000\000\000\000\000\001\005\n\013\016\017\000\000\000\000\000\000\000\000\000\002\003\005\n\013\016\017\000\000\000\000\000\000\000\000\000\001\005\n\013\016\017\000\000\000\000\000\000\000\000\000\000\000\002\003\004\006\007\t\016\017\000\000\000\000\000\000\000\000\001\004\006\007\t\016\017\000\000\000\000\000\000\000\000\002\003\004\006\007\t\016\017\000\000\000\000\000\000\000\000\001\004\006\007\t\016\017\000\000\000\000\000\000\000\000\000\000\002\003\004\005\t\016\017\000\000\000\000\000\000\000\000\000\001\004\005\t\016\017\000\000\000\000\000\000\000\000\000\002\003\004\005\t\016\017\000\000\000\000\000\000\000\000\000\001\004\005\t\016\017\000\000\000\000\000\000\000\000\000\000\000\002\003\006\007\t\016\017\000\000\000\000\000\000\000\000\000\001\006\007\t\016\017\000\000\000\000\000\000\000\000\000\002\003\006\007\t\016\017\000\000\000\000\000\000\000\000\000\001\006\007\t\016\017\000\000\000\000\000\000\000\000\000\000\000\002\003\005\t\016\017\000\000\000\000\000\000\000\000\000\000\001\005\t\016\017\000\000\000\000\000\000\000\000\000\000\002\003\005\t\016\017\000\000\000\000\000\000\000\000\000\000\001\005\t\016\017\000\000\000\000\000\000\000\000\000\000\000\000\002\003\004\006\007\b\n\013\r\000\000\000\000\000\000\000\001\004\006\007\b\n\013\r\000\000\000\000\000\000\000\002\003\004\006\007\b\n\013\r\000\000\000\000\000\000\000\001\004\006\007\b\n\013\r\000\000\000\000\000\000\000\000\000\002\003\004\005\b\n\013\r\000\000\000\000\000\000\000\000\001\004\005\b\n\013\r\000\000\000\000\000\000\000\000\002\003\004\005\b\n\013\r\000\000\000\000\000\000\000\000\001\004\005\b\n\013\r\000\000\000\000\000\000\000\000\000\000\002\003\006\007\b\n\013\r\000\000\000\000\000\000\000\000\001\006\007\b\n\013\r\000\000\000\000\000\000\000\000\002\003\006\007\b\n\013\r\000\000\000\000\000\000\000\000\001\006\007\b\n\013\r\000\000\000\000\000\000\000\000\000\000\002\003\005\b\n\013\r\000\000\000\000\000\000\000\000\000\001\005\b\n\013\r\000\000\000\000\000\000\000\000\000\002\003\005\b\n\013\r\000\000\000\000\000\000\000\000\000\001\005\b\n\013\r\000\000\000\000\000\000\000\000\000\000\000\002\003\004\006\007\b\t\r\000\000\000\000\000\000\000\000\001\004\006\007\b\t\r\000\000\000\000\000\000\000\000\002\003\004\006\007\b\t\r\000\000\000\000\000\000\000\000\001\004\006\007\b\t\r\000\000\000\000\000\000\000\000\000\000\002\003\004\005\b\t\r\000\000\000\000\000\000\000\000\000\001\004\005\b\t\r\000\000\000\000\000\000\000\000\000\002\003\004\005\b\t\r\000\000\000\000\000\000\000\000\000\001\004\005\b\t\r\000\000\000\000\000\000\000\000\000\000\000\002\003\006\007\b\t\r\000\000\000\000\000\000\000\000\000\001\006\007\b\t\r\000\000\000\000\000\000\000\000\000\002\003\006\007\b\t\r\000\000\000\000\000\000\000\000\000\001\006\007\b\t\r\000\000\000\000\000\000\000\000\000\000\000\002\003\005\b\t\r\000\000\000\000\000\000\000\000\000\000\001\005\b\t\r\000\000\000\000\000\000\000\000\000\000\002\003\005\b\t\r\000\000\000\000\000\000\000\000\000\000\001\005\b\t\r\000\000\000\000\000\000\000\000\000\000\000\000\002\003\004\006\007\n\013\r\000\000\000\000\000\000\000\000\001\004\006\007\n\013\r\000\000\000\000\000\000\000\000\002\003\004\006\007\n\013\r\000\000\000\000\000\000\000\000\001\004\006\007\n\013\r\000\000\000\000\000\000\000\000\000\000\002\003\004\005\n\013\r\000\000\000\000\000\000\000\000\000\001\004\005\n\013\r\000\000\000\000\000\000\000\000\000\002\003\004\005\n\013\r\000\000\000\000\000\000\000\000\000\001\004\005\n\013\r\000\000\000\000\000\000\000\000\000\000\000\002\003\006\007\n\013\r\000\000\000\000\000\000\000\000\000\001\006\007\n\013\r\000\000\000\000\000\000\000\000\000\002\003\006\007\n\013\r\000\000\000\000\000\000\000\000\000\001\006\007\n\013\r\000\000\000\000\000\000\000\000\000\000\000\002\003\005\n\013\r\000\000\000\000\000\000\000\000\000\000\001\005\n\013\r\000\000\000\000\000\000\000\000\000\000\002\003\005\n\013\r\000\000\000\000\000\000\000\000\000\000\001\005\n\013\r\000\000\000\000\000\000\000\000\000\000\000\000\002\003\004\006\007\t\r\000\000\000\000\000\000\000\000\000\001\004\006\007\t\r\000\000\000\000\000\000\000\000\000\002\003\004\006\007\t\r\000\000\000\000\000\000\000\000\000\001\004\006\007\t\r\000\000\000\000\000\000\000\000\000\000\000\002\003\004\005\t\r\000\000\000\000\000\000\000\000\000\000\001\004\005\t\r\000\000\000\000\000\000\000\000\000\000\002\003\004\005\t\r\000\000\000\000\000\000\000\000\000\000\001\004\005\t\r\000\000\000\000\000\000\000\000\000\000\000\000\002\003\006\007\t\r\000\000\000\000\000\000\000\000\000\000\001\006\007\t\r\000\000\000\000\000\000\000\000\000\000\002\003\006\007\t\r\000\000\000\000\000\000\000\000\000\000\001\006\007\t\r\000\000\000\000\000\000\000\000\000\000\000\000\002\003\005\t\r\000\000\000\000\000\000\000\000\000\000\000\001\005\t\r\000\000\000\000\000\000\000\000\000\000\000\002\003\005\t\r\000\000\000\000\000\000\000\000\000\000\000\001\005\t\r\000\000\000\000\000\000\000\000\000\000\000"
	.size	.Lstatic.7, 4096

	.type	.Lstatic.8,@object
	.section	.rodata..Lstatic.8,"a",@progbits
.Lstatic.8:
	.ascii	"\200\200\200\200\200\200\200\200\200\200\200\200\200\200\200\200\017\200\200\200\200\200\200\200\200\200\200\200\200\200\200\200\016\017\200\200\200\200\200\200\200\200\200\200\200\200\200\200\r\016\017\200\200\200\200\200\200\200\200\200\200\200\200\200\f\r\016\017\200\200\200\200\200\200\200\200\200\200\200\200\013\f\r\016\017\200\200\200\200\200\200\200\200\200\200\200\n\013\f\r\016\017\200\200\200\200\200\200\200\200\200\200\t\n\013\f\r\016\017\200\200\200\200\200\200\200\200\200\b\t\n\013\f\r\016\017\200\200\200\200\200\200\200\200\007\b\t\n\013\f\r\016\017\200\200\200\200\200\200\200\006\007\b\t\n\013\f\r\016\017\200\200\200\200\200\200\005\006\007\b\t\n\013\f\r\016\017\200\200\200\200\200\004\005\006\007\b\t\n\013\f\r\016\017\200\200\200\200\003\004\005\006\007\b\t\n\013\f\r\016\017\200\200\200\002\003\004\005\006\007\b\t\n\013\f\r\016\017\200\200\001\002\003\004\005\006\007\b\t\n\013\f\r\016\017\200\000\001\002\003\004\005\006\007\b\t\n\013\f\r\016\017"
	.size	.Lstatic.8, 272

	.type	.Lstatic.9,@object
	.section	.rodata..Lstatic.9,"a",@progbits
.Lstatic.9:
	.ascii	"\357\277\275"
	.size	.Lstatic.9, 3

	.type	.Lstatic.10,@object
	.section	.rodata..Lstatic.10,"a",@progbits
.Lstatic.10:
	.ascii	"\000\000\000\000\000\000\000\000\000\000\000\000\000\000\000\000\000\001\000\000\000\000\000\000\000\000\000\000\000\000\000\000\002\003\000\000\000\000\000\000\000\000\000\000\000\000\000\000\000\001\002\003\000\000\000\000\000\000\000\000\000\000\000\000\004\005\000\000\000\000\000\000\000\000\000\000\000\000\000\000\000\001\004\005\000\000\000\000\000\000\000\000\000\000\000\000\002\003\004\005\000\000\000\000\000\000\000\000\000\000\000\000\000\001\002\003\004\005\000\000\000\000\000\000\000\000\000\000\006\007\000\000\000\000\000\000\000\000\000\000\000\000\000\000\000\001\006\007\000\000\000\000\000\000\000\000\000\000\000\000\002\003\006\007\000\000\000\000\000\000\000\000\000\000\000\000\000\001\002\003\006\007\000\000\000\000\000\000\000\000\000\000\004\005\006\007\000\000\000\000\000\000\000\000\000\000\000\000\000\001\004\005\006\007\000\000\000\000\000\000\000\000\000\000\002\003\004\005\006\007\000\000\000\000\000\000\000\000\000\000\000\001\002\003\004\005\006\007\000\000\000\000\000\000\000\000\b\t\000\000\000\000\000\000\000\000\000\000\000\000\000\000\000\001\b\t\000\000\000\000\000\000\000\000\000\000\000\000\002\003\b\t\000\000\000\000\000\000\000\000\000\000\000\000\000\001\002\003\b\t\000\000\000\000\000\000\000\000\000\000\004\005\b\t\000\000\000\000\000\000\000\000\000\000\000\000\000\001\004\005\b\t\000\000\000\000\000\000\000\000\000\000\002\003\004\005\b\t\000\000\000\000\000\000\000\000\000\000\000\001\002\003\004\005\b\t\000\000\000\000\000\000\000\000\006\007\b\t\000\000\000\000\000\000\000\000\000\000\000\000\000\001\006\007\b\t\000\000\000\000\000\000\000\000\000\000\002\003\006\007\b\t\000\000\000\000\000\000\000\000\000\000\000\001\002\003\006\007\b\t\000\000\000\000\000\000\000\000\004\005\006\007\b\t\000\000\000\000\000\000\000\000\000\000\000\001\004\005\006\007\b\t\000\000\000\000\000\000\000\000\002\003\004\005\006\007\b\t\000\000\000\000\000\000\000\000\000\001\002\003\004\005\006\007\b\t\000\000\000\000\000\000\n\013\000\000\000\000\000\000\000\000\000\000\000\000\000\000\000\001\n\013\000\000\000\000\000\000\000\000\000\000\000\000\002\003\n\013\000\000\000\000\000\000\000\000\000\000\000\000\000\001\002\003\n\013\000\000\000\000\000\000\000\000\000\000\004\005\n\013\000\000\000\000\000\000\000\000\000\000\000\000\000\001\004\005\n\013\000\000\000\000\000\000\000\000\000\000\002\003\004\005\n\013\000\000\000\000\000\000\000\000\000\000\000\001\002\003\004\005\n\013\000\000\000\000\000\000\000\000\006\007\n\013\000\000\000\000\000\000\000\000\000\000\000\000\000\001\006\007\n\013\000\000\000\000\000\000\000\000\000\000\002\003\006\007\n\013\000\000\000\000\000\000\000\000\000\000\000\001\002\003\006\007\n\013\000\000\000\000\000\000\000\000\004\005\006\007\n\013\000\000\000\000\000\000\000\000\000\000\000\001\004\005\006\007\n\013\000\000\000\000\000\000\000\000\002\003\004\005\006\007\n\013\000\000\000\000\000\000\000\000\000\001\002\003\004\005\006\007\n\013\000\000\000\000\000\000\b\t\n\013\000\000\000\000\000\000\000\000\000\000\000\000\000\001\b\t\n\013\000\000\000\000\000\000\000\000\000\000\002\003\b\t\n\013\000\000\000\000\000\000\000\000\000\000\000\001\002\003\b\t\n\013\000\000\000\000\000\000\000\000\004\005\b\t\n\013\000\000\000\000\000\000\000\000\000\000\000\001\004\005\b\t\n\013\000\000\000\000\000\000\000\000\002\003\004\005\b\t\n\013\000\000\000\000\000\000\000\000\000\001\002\003\004\005\b\t\n\013\000\000\000\000\000\000\006\007\b\t\n\013\000\000\000\000\000\000\000\000\000\000\000\001\006\007\b\t\n\013\000\000\000\000\000\000\000\000\002\003\006\007\b\t\n\013\000\000\000\000\000\000\000\000\000\001\002\003\006\007\b\t\n\013\000\000\000\000\000\000\004\005\006\007\b\t\n\013\000\000\000\000\000\000\000\000\000\001\004\005\006\007\b\t\n\013\000\000\000\000\000\000\002\003\004\005\006\007\b\t\n\013\000\000\000\000\000\000\000\001\002\003\004\005\006\007\b\t\n\013\000\000\000\000\f\r\000\000\000\000\000\000\000\000\000\000\000\000\000\000\000\001\f\r\000\000\000\000\000\000\000\000\000\000\000\000\002\003\f\r\000\000\000\000\000\000\000\000\000\000\000\000\000\001\002\003\f\r\000\000\000\000\000\000\000\000\000\000\004\005\f\r\000\000\000\000\000\000\000\000\000\000\000\000\000\001\004\005\f\r\000\000\000\000\000\000\000\000\000\000\002\003\004\005\f\r\000\000\000\000\000\000\000\000\000\000\000\001\002\003\004\005\f\r\000\000\000\000\000\000\000\000\006\007\f\r\000\000\000\000\000\000\000\000\000\000\000\000\000\001\006\007\f\r\000\000\000\000\000\000\000\000\000\000\002\003\006\007\f\r\000\000\000\000\000\000\000\000\000\000\000\001\002\003\006\007\f\r\000\000\000\000\000\000\000\000\004\005\006\007\f\r\000\000\000\000\000\000\000\000\000\000\000\001\004\005\006\007\f\r\000\000\000\000\000\000\000\000\002\003\004\005\006\007\f\r\000\000\000\000\000\000\000\000\000\001\002\003\004\005\006\007\f\r\000\000\000\000\000\000\b\t\f\r\000\000\000\000\000\000\000\000\000\000\000\000\000\001\b\t\f\r\000\000\000\000\000\000\000\000\000\000\002\003\b\t\f\r\000\000\000\000\000\000\000\000\000\000\000\001\002\003\b\t\f\r\000\000\000\000\000\000\000\000\004\005\b\t\f\r\000\000\000\000\000\000\000\000\000\000\000\001\004\005\b\t\f\r\000\000\000\000\000\000\000\000\002\003\004\005\b\t\f\r\000\000\000\000\000\000\000\000\000\001\002\003\004\005\b\t\f\r\000\000\000\000\000\000\006\007\b\t\f\r\000\000\000\000\000\000\000\000\000\000\000\001\006\007\b\t\f\r\000\000\000\000\000\000\000\000\002\003\006\007\b\t\f\r\000\000\000\000\000\000\000\000\000\001\002\003\006\007\b\t\f\r\000\000\000\000\000\000\004\005\006\007\b\t\f\r\000\000\000\000\000\000\000\000\000\001\004\005\006\007\b\t\f\r\000\000\000\000\000\000\002\003\004\005\006\007\b\t\f\r\000\000\000\000\000\000\000\001\002\003\004\005\006\007\b\t\f\r\000\000\000\000\n\013\f\r\000\000\000\000\000\000\000\000\000\000\000\000\000\001\n\013\f\r\000\000\000\000\000\000\000\000\000\000\002\003\n\013\f\r\000\000\000\000\000\000\000\000\000\000\000\001\002\003\n\013\f\r\000\000\000\000\000\000\000\000\004\005\n\013\f\r\000\000\000\000\000\000\000\000\000\000\000\001\004\005\n\013\f\r\000\000\000\000\000\000\000\000\002\003\004\005\n\013\f\r\000\000\000\000\000\000\000\000\000\001\002\003\004\005\n\013\f\r\000\000\000\000\000\000\006\007\n\013\f\r\000\000\000\000\000\000\000\000\000\000\000\001\006\007\n\013\f\r\000\000\000\000\000\000\000\000\002\003\006\007\n\013\f\r\000\000\000\000\000\000\000\000\000\001\002\003\006\007\n\013\f\r\000\000\000\000\000\000\004\005\006\007\n\013\f\r\000\000\000\000\000\000\000\000\000\001\004\005\006\007\n\013\f\r\000\000\000\000\000\000\002\003\004\005\006\007\n\013\f\r\000\000\000\000\000\000\000\001\002\003\004\005\006\007\n\013\f\r\000\000\000\000\b\t\n\013\f\r\000\000\000\000\000\000\000\000\000\000\000\001\b\t\n\013\f\r\000\000\000\000\000\000\000\000\002\003\b\t\n\013\f\r\000\000\000\000\000\000\000\000\000\001\002\003\b\t\n\013\f\r\000\000\000\000\000\000\004\005\b\t\n\013\f\r\000\000\000\000\000\000\000\000\000\001\004\005\b\t\n\013\f\r\000\000\000\000\000\000\002\003\004\005\b\t\n\013\f\r\000\000\000\000\000\000\000\001\002\003\004\005\b\t\n\013\f\r\000\000\000\000\006\007\b\t\n\013\f\r\000\000\000\000\000\000\000\000\000\001\006\007\b\t\n\013\f\r\000\000\000\000\000\000\002\003\006\007\b\t\n\013\f\r\000\000\000\000\000\000\000\001\002\003\006\007\b\t\n\013\f\r\000\000\000\000\004\005\006\007\b\t\n\013\f\r\000\000\000\000\000\000\000\001\004\005\006\007\b\t\n\013\f\r\000\000\000\000\002\003\004\005\006\007\b\t\n\013\f\r\000\000\000\000\000\001\002\003\004\005\006\007\b\t\n\013\f\r\000\000\016\017\000\000\000\000\000\000\000\000\000\000\000\000\000\000\000\001\016\017\000\000\000\000\000\000\000\000\000\000\000\000\002\003\016\017\000\000\000\000\000\000\000\000\000\000\000\000\000\001\002\003\016\017\000\000\000\000\000\000\000\000\000\000\004\005\016\017\000\000\000\000\000\000\000\000\000\000\000\000\000\001\004\005\016\017\000\000\000\000\000\000\000\000\000\000\002\003\004\005\016\017\000\000\000\000\000\000\000\000\000\000\000\001\002\003\004\005\016\017\000\000\000\000\000\000\000\000\006\007\016\017\000\000\000\000\000\000\000\000\000\000\000\000\000\001\006\007\016\017\000\000\000\000\000\000\000\000\000\000\002\003\006\007\016\017\000\000\000\000\000\000\000\000\000\000\000\001\002\003\006\007\016\017\000\000\000\000\000\000\000\000\004\005\006\007\016\017\000\000\000\000\000\000\000\000\000\000\000\001\004\005\006\007\016\017\000\000\000\000\000\000\000\000\002\003\004\005\006\007\016\017\000\000\000\000\000\000\000\000\000\001\002\003\004\005\006\007\016\017\000\000\000\000\000\000\b\t\016\017\000\000\000\000\000\000\000\000\000\000\000\000\000\001\b\t\016\017\000\000\000\000\000\000\000\000\000\000\002\003\b\t\016\017\000\000\000\000\000\000\000\000\000\000\000\001\002\003\b\t\016\017\000\000\000\000\000\000\000\000\004\005\b\t\016\017\000\000\000\000\000\000\000\000\000\000\000\001\004\005\b\t\016\017\000\000\000\000\000\000\000\000\002\003\004\005\b\t\016\017\000\000\000\000\000\000\000\000\000\001\002\003\004\005\b\t\016\017\000\000\000\000\000\000\006\007\b\t\016\017\000\000\000\000\000\000\000\000\000\000\000\001\006\007\b\t\016\017\000\000\000\000\000\000\000\000\002\003\006\007\b\t\016\017\000\000\000\000\000\000\000\000\000\001\002\003\006\007\b\t\016\017\000\000\000\000\000\000\004\005\006\007\b\t\016\017\000\000\000\000\000\000\000\000\000\001\004\005\006\007\b\t\016\017\000\000\000\000\000\000\002\003\004\005\006\007\b\t\016\017\000\000\000\000\000\000\000\001\002\003\004\005\006\007\b\t\016\017\000\000\000\000\n\013\016\017\000\000\000\000\000\000\000\000\000\000\000\000\000\001\n\013\016\017\000\000\000\000\000\000\000\000\000\000\002\003\n\013\016\017\000\000\000\000\000\000\000\000\000\000\000\001\002\003\n\013\016\017\000\000\000\000\000\000\000\000\004\005\n\013\016\017\000\000\000\000\000\000\000\000\000\000\000\001\004\005\n\013\016\017\000\000\000\000\000\000\000\000\002\003\004\005\n\013\016\017\000\000\000\000\000\000\000\000\000\001\002\003\004\005\n\013\016\017\000\000\000\000\000\000\006\007\n\013\016\017\000\000\000\000\000\000\000\000\000\000\000\001\006\007\n\013\016\017\000\000\000\000\000\000\000\000\002\003\006\007\n\013\016\017\000\000\000\000\000\000\000\000\000\001\002\003\006\007\n\013\016\017\000\000\000\000\000\000\004\005\006\007\n\013\016\017\000\000\000\000\000\000\000\000\000\001\004\005\006\007\n\013\016\017\000\000\000\000\000\000\002\003\004\005\006\007\n\013\016\017\000\000\000\000\000\000\000\001\002\003\004\005\006\007\n\013\016\017\000\000\000\000\b\t\n\013\016\017\000\000\000\000\000\000\000\000\000\000\000\001\b\t\n\013\016\017\000\000\000\000\000\000\000\000\002\003\b\t\n\013\016\017\000\000\000\000\000\000\000\000\000\001\002\003\b\t\n\013\016\017\000\000\000\000\000\000\004\005\b\t\n\013\016\017\000\000\000\000\000\000\000\000\000\001\004\005\b\t\n\013\016\017\000\000\000\000\000\000\002\003\004\005\b\t\n\013\016\017\000\000\000\000\000\000\000\001\002\003\004\005\b\t\n\013\016\017\000\000\000\000\006\007\b\t\n\013\016\017\000\000\000\000\000\000\000\000\000\001\006\007\b\t\n\013\016\017\000\000\000\000\000\000\002\003\006\007\b\t\n\013\016\017\000\000\000\000\000\000\000\001\002\003\006\007\b\t\n\013\016\017\000\000\000\000\004\005\006\007\b\t\n\013\016\017\000\000\000\000\000\000\000\001\004\005\006\007\b\t\n\013\016\017\000\000\000\000\002\003\004\005\006\007\b\t\n\013\016\017\000\000\000\000\000\001\002\003\004\005\006\007\b\t\n\013\016\017\000\000\f\r\016\017\000\000\000\000\000\000\000\000\000\000\000\000\000\001\f\r\016\017\000\000\000\000\000\000\000\000\000\000\002\003\f\r\016\017\000\000\000\000\000\000\000\000\000\000\000\001\002\003\f\r\016\017\000\000\000\000\000\000\000\000\004\005\f\r\016\017\000\000\000\000\000\000\000\000\000\000\000\001\004\005\f\r\016\017\000\000\000\000\000\000\000\000\002\003\004\005\f\r\016\017\000\000\000\000\000\000\000\000\000\001\002\003\004\005\f\r\016\017\000\000\000\000\000\000\006\007\f\r\016\017\000\000\000\000\000\000\000\000\000\000\000\001\006\007\f\r\016\017\000\000\000\000\000\000\000\000\002\003\006\007\f\r\016\017\000\000\000\000\000\000\000\000\000\001\002\003\006\007\f\r\016\017\000\000\000\000\000\000\004\005\006\007\f\r\016\017\000\000\000\000\000\000\000\000\000\001\004\005\006\007\f\r\016\017\000\000\000\000\000\000\002\003\004\005\006\007\f\r\016\017\000\000\000\000\000\000\000\001\002\003\004\005\006\007\f\r\016\017\000\000\000\000\b\t\f\r\016\017\000\000\000\000\000\000\000\000\000\000\000\001\b\t\f\r\016\017\000\000\000\000\000\000\000\000\002\003\b\t\f\r\016\017\000\000\000\000\000\000\000\000\000\001\002\003\b\t\f\r\016\017\000\000\000\000\000\000\004\005\b\t\f\r\016\017\000\000\000\000\000\000\000\000\000\001\004\005\b\t\f\r\016\017\000\000\000\000\000\000\002\003\004\005\b\t\f\r\016\017\000\000\000\000\000\000\000\001\002\003\004\005\b\t\f\r\016\017\000\000\000\000\006\007\b\t\f\r\016\017\000\000\000\000\000\000\000\000\000\001\006\007\b\t\f\r\016\017\000\000\000\000\000\000\002\003\006\007\b\t\f\r\016\017\000\000\000\000\000\000\000\001\002\003\006\007\b\t\f\r\016\017\000\000\000\000\004\005\006\007\b\t\f\r\016\017\000\000\000\000\000\000\000\001\004\005\006\007\b\t\f\r\016\017\000\000\000\000\002\003\004\005\006\007\b\t\f\r\016\017\000\000\000\000\000\001\002\003\004\005\006\007\b\t\f\r\016\017\000\000\n\013\f\r\016\017\000\000\000\000\000\000\000\000\000\000\000\001\n\013\f\r\016\017\000\000\000\000\000\000\000\000\002\003\n\013\f\r\016\017\000\000\000\000\000\000\000\000\000\001\002\003\n\013\f\r\016\017\000\000\000\000\000\000\004\005\n\013\f\r\016\017\000\000\000\000\000\000\000\000\000\001\004\005\n\013\f\r\016\017\000\000\000\000\000\000\002\003\004\005\n\013\f\r\016\017\000\000\000\000\000\000\000\001\002\003\004\005\n\013\f\r\016\017\000\000\000\000\006\007\n\013\f\r\016\017\000\000\000\000\000\000\000\000\000\001\006\007\n\013\f\r\016\017\000\000\000\000\000\000\002\003\006\007\n\013\f\r\016\017\000\000\000\000\000\000\000\001\002\003\006\007\n\013\f\r\016\017\000\000\000\000\004\005\006\007\n\013\f\r\016\017\000\000\000\000\000\000\000\001\004\005\006\007\n\013\f\r\016\017\000\000\000\000\002\003\004\005\006\007\n\013\f\r\016\017\000\000\000\000\000\001\002\003\004\005\006\007\n\013\f\r\016\017\000\000\b\t\n\013\f\r\016\017\000\000\000\000\000\000\000\000\000\001\b\t\n\013\f\r\016\017\000\000\000\000\000\000\002\003\b\t\n\013\f\r\016\017\000\000\000\000\000\000\000\001\002\003\b\t\n\013\f\r\016\017\000\000\000\000\004\005\b\t\n\013\f\r\016\017\000\000\000\000\000\000\000\001\004\005\b\t\n\013\f\r\016\017\000\000\000\000\002\003\004\005\b\t\n\013\f\r\016\017\000\000\000\000\000\001\002\003\004\005\b\t\n\013\f\r\016\017\000\000\006\007\b\t\n\013\f\r\016\017\000\000\000\000\000\000\000\001\006\007\b\t\n\013\f\r\016\017\000\000\000\000\002\003\006\007\b\t\n\013\f\r\016\017\000\000\000\000\000\001\002\003\006\007\b\t\n\013\f\r\016\017\000\000\004\005\006\007\b\t\n\013\f\r\016\017\000\000\000\000\000\001\004\005\006\007\b\t\n\013\f\r\016\017\000\000\002\003\004\005\006\007\b\t\n\013\f\r\016\017\000\000\000\001\002\003\004\005\006\007\b\t\n\013\f\r\016\017"
	.size	.Lstatic.10, 4096

	.type	.Lswitch.table.dethrux_from_utf32_lossy,@object
	.section	.rodata.cst16,"aM",@progbits,16
	.p2align	2, 0x0
.Lswitch.table.dethrux_from_utf32_lossy:
	.long	0
	.zero	4
	.long	2
	.long	3
	.size	.Lswitch.table.dethrux_from_utf32_lossy, 16

	.ident	"rattle logic=dac8208d650f15bf3e2dc313a14fa4c783a3acf887bdfab66e1714b038d9e11b"
	.section	".note.GNU-stack","",@progbits

/* A GNU property that names CET. */
	.section	.note.gnu.property,"a",@note
	.p2align	3
	.long	4, 16, 5
	.asciz	"GNU"
	.long	0xc0000002, 4, 3, 0
