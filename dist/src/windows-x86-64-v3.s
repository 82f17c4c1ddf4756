/* SPDX-License-Identifier: MIT OR Apache-2.0
 * Dethrux 0.2.0 for C, as assembly for Windows on x86-64-v3. packaging/assembly
 * wrote it from the code that rt proved in logic dac8208d650f15bf: do not edit it. */
	.section	.rdata$000,"dr"
	.p2align	4, 0x0
.LCPI0_0:
	.zero	16,192
.LCPI0_1:
	.zero	16,191
.LCPI0_2:
	.zero	16,223
.LCPI0_3:
	.zero	16,239
.LCPI0_4:
	.zero	16,159
.LCPI0_5:
	.zero	16,237
.LCPI0_6:
	.zero	16,224
.LCPI0_7:
	.zero	16,143
.LCPI0_8:
	.zero	16,245
.LCPI0_9:
	.zero	16,244
.LCPI0_10:
	.zero	16,240
.LCPI0_11:
	.zero	16,254
.LCPI0_12:
	.byte	240
	.byte	224
	.zero	1
	.zero	1
	.zero	1
	.zero	1
	.zero	1
	.zero	1
	.zero	1
	.zero	1
	.zero	1
	.zero	1
	.zero	1
	.zero	1
	.zero	1
	.zero	1
.LCPI0_13:
	.byte	1
	.byte	2
	.byte	3
	.byte	4
	.byte	5
	.byte	6
	.byte	7
	.byte	8
	.byte	9
	.byte	10
	.byte	11
	.byte	12
	.byte	13
	.byte	14
	.byte	15
	.byte	16
	.section	.rdata$001,"dr"
	.p2align	2, 0x0
.LCPI0_14:
	.zero	4,192
.LCPI0_15:
	.zero	4,237
.LCPI0_16:
	.zero	4,244
	.section	.text$002,"xr"
	.p2align	4
L_0:
	leaq	-8(%rsi), %rax
	cmpq	$55, %rax
	ja	.LBB0_1
	cmpq	$17, %rsi
	jae	.LBB0_3
	vmovq	-8(%rdi,%rsi), %xmm1
	vmovq	(%rdi), %xmm0
	vpunpcklqdq	%xmm1, %xmm0, %xmm0
	movq	%rsi, %rax
	shlq	$4, %rax
	leaq	.Lstatic.1(%rip), %rcx
	vpshufb	-128(%rax,%rcx), %xmm0, %xmm0
	vpmovmskb	%xmm0, %eax
	testl	%eax, %eax
	je	.LBB0_11
	vpextrb	$5, %xmm1, %ecx
	xorl	%eax, %eax
	cmpb	$-17, %cl
	ja	.LBB0_30
	vpextrb	$7, %xmm1, %ecx
	cmpb	$-65, %cl
	ja	.LBB0_30
	vpextrb	$6, %xmm1, %ecx
	cmpb	$-33, %cl
	ja	.LBB0_30
	leaq	.Lstatic.2(%rip), %rax
	subq	%rsi, %rax
	vpmaxub	16(%rax), %xmm0, %xmm0
	vpslldq	$1, %xmm0, %xmm1
	vpslldq	$2, %xmm0, %xmm2
	vpslldq	$3, %xmm0, %xmm3
	vpbroadcastd	.LCPI0_14(%rip), %xmm4
	vpsubusb	.LCPI0_1(%rip), %xmm1, %xmm5
	vpsubusb	.LCPI0_2(%rip), %xmm2, %xmm2
	vpcmpgtb	%xmm0, %xmm4, %xmm6
	vpmaxub	%xmm2, %xmm5, %xmm2
	vpsubusb	.LCPI0_3(%rip), %xmm3, %xmm3
	vpor	%xmm3, %xmm2, %xmm2
	vpminub	.LCPI0_4(%rip), %xmm0, %xmm3
	vpcmpeqb	%xmm3, %xmm0, %xmm3
	vpbroadcastd	.LCPI0_15(%rip), %xmm5
	vpblendvb	%xmm3, .LCPI0_6(%rip), %xmm5, %xmm3
	vpxor	%xmm5, %xmm5, %xmm5
	vpcmpgtb	%xmm5, %xmm2, %xmm2
	vpminub	.LCPI0_7(%rip), %xmm0, %xmm5
	vpxor	%xmm2, %xmm6, %xmm2
	vpcmpeqb	%xmm5, %xmm0, %xmm5
	vpmaxub	.LCPI0_8(%rip), %xmm0, %xmm6
	vpbroadcastd	.LCPI0_16(%rip), %xmm7
	vpblendvb	%xmm5, .LCPI0_10(%rip), %xmm7, %xmm5
	vpcmpeqb	%xmm3, %xmm1, %xmm3
	vpcmpeqb	%xmm6, %xmm0, %xmm6
	vpcmpeqb	%xmm5, %xmm1, %xmm1
	vpor	%xmm3, %xmm1, %xmm1
	vpor	%xmm6, %xmm1, %xmm1
	vpand	.LCPI0_11(%rip), %xmm0, %xmm0
	vpcmpeqb	%xmm4, %xmm0, %xmm0
	vpor	%xmm2, %xmm0, %xmm0
	vpor	%xmm0, %xmm1, %xmm0
	vmovd	%esi, %xmm1
	vpbroadcastb	%xmm1, %xmm1
	vpmaxub	.LCPI0_13(%rip), %xmm1, %xmm2
	vpcmpeqb	%xmm2, %xmm1, %xmm1
	vpsllw	$7, %xmm0, %xmm0
	vpand	%xmm0, %xmm1, %xmm0
	vpmovmskb	%xmm0, %eax
	testl	%eax, %eax
	jmp	.LBB0_29
.LBB0_1:
	xorl	%eax, %eax
	retq
.LBB0_3:
	vmovdqu	(%rdi), %xmm1
	vpslldq	$3, %xmm1, %xmm0
	vpor	%xmm1, %xmm0, %xmm2
	vpmovmskb	%xmm2, %eax
	testl	%eax, %eax
	je	.LBB0_4
	vpslldq	$1, %xmm1, %xmm2
	vpslldq	$2, %xmm1, %xmm3
	vpbroadcastd	.LCPI0_14(%rip), %xmm4
	vpsubusb	.LCPI0_1(%rip), %xmm2, %xmm5
	vpcmpgtb	%xmm1, %xmm4, %xmm6
	vpsubusb	.LCPI0_2(%rip), %xmm3, %xmm3
	vpmaxub	%xmm3, %xmm5, %xmm3
	vpsubusb	.LCPI0_3(%rip), %xmm0, %xmm0
	vpor	%xmm0, %xmm3, %xmm0
	vpxor	%xmm3, %xmm3, %xmm3
	vpcmpgtb	%xmm3, %xmm0, %xmm0
	vpminub	.LCPI0_4(%rip), %xmm1, %xmm3
	vpcmpeqb	%xmm3, %xmm1, %xmm3
	vpbroadcastd	.LCPI0_15(%rip), %xmm5
	vpblendvb	%xmm3, .LCPI0_6(%rip), %xmm5, %xmm3
	vpxor	%xmm0, %xmm6, %xmm0
	vpcmpeqb	%xmm3, %xmm2, %xmm3
	vpminub	.LCPI0_7(%rip), %xmm1, %xmm5
	vpcmpeqb	%xmm5, %xmm1, %xmm5
	vpmaxub	.LCPI0_8(%rip), %xmm1, %xmm6
	vpcmpeqb	%xmm6, %xmm1, %xmm6
	vpbroadcastd	.LCPI0_16(%rip), %xmm7
	vpblendvb	%xmm5, .LCPI0_10(%rip), %xmm7, %xmm5
	vpcmpeqb	%xmm5, %xmm2, %xmm2
	vpor	%xmm3, %xmm2, %xmm2
	vpand	.LCPI0_11(%rip), %xmm1, %xmm3
	vpor	%xmm6, %xmm2, %xmm2
	vpcmpeqb	%xmm4, %xmm3, %xmm3
	vpor	%xmm0, %xmm3, %xmm0
	vpor	%xmm0, %xmm2, %xmm0
	movl	%esi, %eax
	andl	$48, %eax
	cmpl	$16, %eax
	je	.LBB0_20
	jmp	.LBB0_7
.LBB0_11:
	movb	$1, %al
	retq
.LBB0_4:
	vpxor	%xmm0, %xmm0, %xmm0
	movl	%esi, %eax
	andl	$48, %eax
	cmpl	$16, %eax
	jne	.LBB0_7
.LBB0_20:
	leaq	-16(%rsi), %rax
	vmovdqu	-16(%rdi,%rsi), %xmm2
	cmpq	$3, %rax
	jb	.LBB0_22
	vmovdqu	-3(%rdi,%rax), %xmm4
	vmovdqu	-2(%rdi,%rax), %xmm5
	vmovdqu	-1(%rdi,%rax), %xmm3
	vpsrldq	$14, %xmm3, %xmm1
	vpor	%xmm2, %xmm4, %xmm6
	vpmovmskb	%xmm6, %eax
	testl	%eax, %eax
	jne	.LBB0_24
	jmp	.LBB0_25
.LBB0_7:
	leaq	-16(%rsi), %rax
	movl	$16, %ecx
	jmp	.LBB0_8
	.p2align	4
.LBB0_19:
	addq	$16, %rcx
	addq	$-16, %rax
	cmpq	$15, %rax
	jbe	.LBB0_20
.LBB0_8:
	vmovdqu	(%rdi,%rcx), %xmm2
	testq	%rcx, %rcx
	je	.LBB0_16
	vmovdqu	-3(%rdi,%rcx), %xmm4
	vmovdqu	-2(%rdi,%rcx), %xmm5
	vmovdqu	-1(%rdi,%rcx), %xmm3
	vpor	%xmm2, %xmm4, %xmm6
	vpmovmskb	%xmm6, %edx
	testl	%edx, %edx
	jne	.LBB0_18
	jmp	.LBB0_19
	.p2align	4
.LBB0_16:
	vpslldq	$1, %xmm2, %xmm3
	vpslldq	$2, %xmm2, %xmm5
	vpslldq	$3, %xmm2, %xmm4
	vpor	%xmm2, %xmm4, %xmm6
	vpmovmskb	%xmm6, %edx
	testl	%edx, %edx
	je	.LBB0_19
.LBB0_18:
	vpbroadcastd	.LCPI0_14(%rip), %xmm6
	vpcmpgtb	%xmm2, %xmm6, %xmm7
	vpsubusb	.LCPI0_1(%rip), %xmm3, %xmm8
	vpsubusb	.LCPI0_2(%rip), %xmm5, %xmm5
	vpsubusb	.LCPI0_3(%rip), %xmm4, %xmm4
	vpmaxub	%xmm5, %xmm8, %xmm5
	vpor	%xmm4, %xmm5, %xmm4
	vpxor	%xmm5, %xmm5, %xmm5
	vpcmpgtb	%xmm5, %xmm4, %xmm4
	vpxor	%xmm4, %xmm7, %xmm4
	vpminub	.LCPI0_4(%rip), %xmm2, %xmm5
	vpcmpeqb	%xmm5, %xmm2, %xmm5
	vpbroadcastd	.LCPI0_15(%rip), %xmm7
	vpblendvb	%xmm5, .LCPI0_6(%rip), %xmm7, %xmm5
	vpcmpeqb	%xmm5, %xmm3, %xmm5
	vpminub	.LCPI0_7(%rip), %xmm2, %xmm7
	vpcmpeqb	%xmm7, %xmm2, %xmm7
	vpmaxub	.LCPI0_8(%rip), %xmm2, %xmm8
	vpcmpeqb	%xmm2, %xmm8, %xmm8
	vpbroadcastd	.LCPI0_16(%rip), %xmm9
	vpblendvb	%xmm7, .LCPI0_10(%rip), %xmm9, %xmm7
	vpcmpeqb	%xmm7, %xmm3, %xmm3
	vpor	%xmm5, %xmm3, %xmm3
	vpor	%xmm3, %xmm8, %xmm3
	vpand	.LCPI0_11(%rip), %xmm2, %xmm2
	vpcmpeqb	%xmm6, %xmm2, %xmm2
	vpor	%xmm4, %xmm2, %xmm2
	vpor	%xmm2, %xmm3, %xmm2
	vpmaxub	%xmm2, %xmm0, %xmm0
	jmp	.LBB0_19
.LBB0_22:
	vpbroadcastb	-17(%rdi,%rsi), %xmm3
	vmovd	%xmm1, %ecx
	vpalignr	$15, %xmm3, %xmm2, %xmm3
	xorl	%edx, %edx
	cmpq	$2, %rax
	movzbl	%cl, %eax
	cmovnel	%edx, %eax
	vmovd	%eax, %xmm1
	vpbroadcastb	%xmm1, %xmm1
	vpalignr	$15, %xmm1, %xmm3, %xmm5
	vpslldq	$1, %xmm5, %xmm4
	vpsrldq	$13, %xmm2, %xmm1
	vpor	%xmm2, %xmm4, %xmm6
	vpmovmskb	%xmm6, %eax
	testl	%eax, %eax
	je	.LBB0_25
.LBB0_24:
	vpbroadcastd	.LCPI0_14(%rip), %xmm6
	vpcmpgtb	%xmm2, %xmm6, %xmm7
	vpsubusb	.LCPI0_1(%rip), %xmm3, %xmm8
	vpsubusb	.LCPI0_2(%rip), %xmm5, %xmm5
	vpsubusb	.LCPI0_3(%rip), %xmm4, %xmm4
	vpmaxub	%xmm5, %xmm8, %xmm5
	vpor	%xmm4, %xmm5, %xmm4
	vpxor	%xmm5, %xmm5, %xmm5
	vpcmpgtb	%xmm5, %xmm4, %xmm4
	vpxor	%xmm4, %xmm7, %xmm4
	vpminub	.LCPI0_4(%rip), %xmm2, %xmm5
	vpcmpeqb	%xmm5, %xmm2, %xmm5
	vpbroadcastd	.LCPI0_15(%rip), %xmm7
	vpblendvb	%xmm5, .LCPI0_6(%rip), %xmm7, %xmm5
	vpcmpeqb	%xmm5, %xmm3, %xmm5
	vpminub	.LCPI0_7(%rip), %xmm2, %xmm7
	vpcmpeqb	%xmm7, %xmm2, %xmm7
	vpmaxub	.LCPI0_8(%rip), %xmm2, %xmm8
	vpcmpeqb	%xmm2, %xmm8, %xmm8
	vpbroadcastd	.LCPI0_16(%rip), %xmm9
	vpblendvb	%xmm7, .LCPI0_10(%rip), %xmm9, %xmm7
	vpcmpeqb	%xmm7, %xmm3, %xmm3
	vpor	%xmm5, %xmm3, %xmm3
	vpor	%xmm3, %xmm8, %xmm3
	vpand	.LCPI0_11(%rip), %xmm2, %xmm5
	vpcmpeqb	%xmm6, %xmm5, %xmm5
	vpor	%xmm4, %xmm5, %xmm4
	vpor	%xmm4, %xmm3, %xmm3
	vpmaxub	%xmm3, %xmm0, %xmm0
.LBB0_25:
	vpmaxub	.LCPI0_12(%rip), %xmm1, %xmm3
	vpcmpeqb	%xmm3, %xmm1, %xmm1
	vpcmpeqd	%xmm3, %xmm3, %xmm3
	vpxor	%xmm3, %xmm1, %xmm1
	vpmovsxbq	%xmm1, %xmm1
	vmovmskpd	%xmm1, %ecx
	xorl	%eax, %eax
	testb	$1, %cl
	je	.LBB0_30
	vpextrb	$15, %xmm2, %edx
	cmpb	$-65, %dl
	ja	.LBB0_30
	shrb	%cl
	je	.LBB0_30
	vptest	%xmm0, %xmm0
.LBB0_29:
	sete	%al
.LBB0_30:
	retq
.Lfunc_end0:

	.section	.rdata$003,"dr"
	.p2align	5, 0x0
.LCPI1_0:
	.zero	32,15
.LCPI1_1:
	.byte	2
	.byte	2
	.byte	2
	.byte	2
	.byte	2
	.byte	2
	.byte	2
	.byte	2
	.byte	128
	.byte	128
	.byte	128
	.byte	128
	.byte	33
	.byte	1
	.byte	21
	.byte	73
	.byte	2
	.byte	2
	.byte	2
	.byte	2
	.byte	2
	.byte	2
	.byte	2
	.byte	2
	.byte	128
	.byte	128
	.byte	128
	.byte	128
	.byte	33
	.byte	1
	.byte	21
	.byte	73
.LCPI1_2:
	.byte	231
	.byte	163
	.byte	131
	.byte	131
	.byte	139
	.byte	203
	.byte	203
	.byte	203
	.byte	203
	.byte	203
	.byte	203
	.byte	203
	.byte	203
	.byte	219
	.byte	203
	.byte	203
	.byte	231
	.byte	163
	.byte	131
	.byte	131
	.byte	139
	.byte	203
	.byte	203
	.byte	203
	.byte	203
	.byte	203
	.byte	203
	.byte	203
	.byte	203
	.byte	219
	.byte	203
	.byte	203
.LCPI1_3:
	.byte	1
	.byte	1
	.byte	1
	.byte	1
	.byte	1
	.byte	1
	.byte	1
	.byte	1
	.byte	230
	.byte	174
	.byte	186
	.byte	186
	.byte	1
	.byte	1
	.byte	1
	.byte	1
	.byte	1
	.byte	1
	.byte	1
	.byte	1
	.byte	1
	.byte	1
	.byte	1
	.byte	1
	.byte	230
	.byte	174
	.byte	186
	.byte	186
	.byte	1
	.byte	1
	.byte	1
	.byte	1
.LCPI1_4:
	.zero	32,96
.LCPI1_5:
	.zero	32,112
.LCPI1_6:
	.zero	32,128
.LCPI1_7:
	.byte	255
	.byte	255
	.byte	255
	.byte	255
	.byte	255
	.byte	255
	.byte	255
	.byte	255
	.byte	255
	.byte	255
	.byte	255
	.byte	255
	.byte	255
	.byte	255
	.byte	255
	.byte	255
	.byte	255
	.byte	255
	.byte	255
	.byte	255
	.byte	255
	.byte	255
	.byte	255
	.byte	255
	.byte	255
	.byte	255
	.byte	255
	.byte	255
	.byte	255
	.byte	239
	.byte	223
	.byte	191
	.section	.rdata$001,"dr"
	.p2align	2, 0x0
.LCPI1_8:
	.zero	4,15
.LCPI1_12:
	.zero	4,96
.LCPI1_13:
	.zero	4,112
.LCPI1_14:
	.zero	4,128
	.section	.rdata$000,"dr"
	.p2align	4, 0x0
.LCPI1_9:
	.byte	2
	.byte	2
	.byte	2
	.byte	2
	.byte	2
	.byte	2
	.byte	2
	.byte	2
	.byte	128
	.byte	128
	.byte	128
	.byte	128
	.byte	33
	.byte	1
	.byte	21
	.byte	73
.LCPI1_10:
	.byte	231
	.byte	163
	.byte	131
	.byte	131
	.byte	139
	.byte	203
	.byte	203
	.byte	203
	.byte	203
	.byte	203
	.byte	203
	.byte	203
	.byte	203
	.byte	219
	.byte	203
	.byte	203
.LCPI1_11:
	.byte	1
	.byte	1
	.byte	1
	.byte	1
	.byte	1
	.byte	1
	.byte	1
	.byte	1
	.byte	230
	.byte	174
	.byte	186
	.byte	186
	.byte	1
	.byte	1
	.byte	1
	.byte	1
	.section	.text$004,"xr"
	.p2align	4
L_1:
	pushq	%rbp
	movq	%rsp, %rbp
	pushq	%r15
	pushq	%r14
	pushq	%r13
	pushq	%r12
	pushq	%rbx
	andq	$-32, %rsp
	subq	$288, %rsp
	movq	%rdx, %r14
	movq	%rsi, %rbx
	movq	%rdi, %r15
	cmpq	$63, %rdx
	jbe	.LBB1_1
	vmovdqu	32(%rbx), %ymm0
	vpor	(%rbx), %ymm0, %ymm0
	vpmovmskb	%ymm0, %eax
	testl	%eax, %eax
	je	.LBB1_7
	xorl	%esi, %esi
	movq	%r14, %rdx
	jmp	.LBB1_12
.LBB1_7:
	movq	$-64, %rax
	xorl	%esi, %esi
	.p2align	4
.LBB1_9:
	leaq	(%r14,%rax), %rdx
	cmpq	$63, %rdx
	jbe	.LBB1_10
	vmovdqu	96(%rbx,%rsi), %ymm0
	vpor	64(%rbx,%rsi), %ymm0, %ymm0
	vpmovmskb	%ymm0, %ecx
	addq	$-64, %rax
	addq	$64, %rsi
	testl	%ecx, %ecx
	je	.LBB1_9
	movq	%r14, %rdx
	subq	%rsi, %rdx
.LBB1_12:
	addq	%rbx, %rsi
	vpxor	%xmm1, %xmm1, %xmm1
	xorl	%ecx, %ecx
	movq	%rdx, %rax
	vpxor	%xmm3, %xmm3, %xmm3
	vpxor	%xmm4, %xmm4, %xmm4
	vpxor	%xmm10, %xmm10, %xmm10
	vpxor	%xmm11, %xmm11, %xmm11
	jmp	.LBB1_13
	.p2align	4
.LBB1_15:
	vperm2i128	$33, %ymm0, %ymm1, %ymm1
	vpalignr	$15, %ymm1, %ymm0, %ymm2
	vperm2i128	$33, %ymm12, %ymm0, %ymm3
	vpalignr	$15, %ymm3, %ymm12, %ymm4
	vpsrlw	$4, %ymm4, %ymm5
	vpbroadcastd	.LCPI1_8(%rip), %ymm6
	vpand	%ymm6, %ymm5, %ymm5
	vpsrlw	$4, %ymm2, %ymm7
	vpand	%ymm6, %ymm7, %ymm7
	vbroadcasti128	.LCPI1_9(%rip), %ymm8
	vpshufb	%ymm7, %ymm8, %ymm7
	vpshufb	%ymm5, %ymm8, %ymm5
	vpand	%ymm6, %ymm4, %ymm4
	vpand	%ymm6, %ymm2, %ymm2
	vbroadcasti128	.LCPI1_10(%rip), %ymm8
	vpshufb	%ymm2, %ymm8, %ymm2
	vpshufb	%ymm4, %ymm8, %ymm4
	vpsrlw	$4, %ymm12, %ymm8
	vpand	%ymm6, %ymm8, %ymm8
	vpsrlw	$4, %ymm0, %ymm9
	vpand	%ymm6, %ymm9, %ymm6
	vbroadcasti128	.LCPI1_11(%rip), %ymm9
	vpshufb	%ymm6, %ymm9, %ymm6
	vpand	%ymm6, %ymm2, %ymm2
	vpand	%ymm7, %ymm2, %ymm2
	vpshufb	%ymm8, %ymm9, %ymm6
	vpand	%ymm6, %ymm4, %ymm4
	vpand	%ymm5, %ymm4, %ymm4
	vpalignr	$14, %ymm3, %ymm12, %ymm5
	vpalignr	$14, %ymm1, %ymm0, %ymm6
	vpbroadcastd	.LCPI1_12(%rip), %ymm7
	vpsubusb	%ymm7, %ymm6, %ymm6
	vpsubusb	%ymm7, %ymm5, %ymm5
	vpalignr	$13, %ymm3, %ymm12, %ymm3
	vpalignr	$13, %ymm1, %ymm0, %ymm1
	vpbroadcastd	.LCPI1_13(%rip), %ymm7
	vpsubusb	%ymm7, %ymm1, %ymm1
	vpor	%ymm1, %ymm6, %ymm1
	vpsubusb	%ymm7, %ymm3, %ymm3
	vpor	%ymm3, %ymm5, %ymm3
	vpbroadcastd	.LCPI1_14(%rip), %ymm5
	vpand	%ymm5, %ymm1, %ymm1
	vpxor	%ymm1, %ymm2, %ymm1
	vpand	%ymm5, %ymm3, %ymm2
	vpxor	%ymm2, %ymm4, %ymm2
	vpcmpeqd	%ymm3, %ymm3, %ymm3
	vpsubusb	%ymm3, %ymm0, %ymm3
	vpsubusb	.LCPI1_7(%rip), %ymm12, %ymm4
.LBB1_16:
	vpor	%ymm2, %ymm11, %ymm11
	vpor	%ymm1, %ymm10, %ymm10
	addq	$64, %rcx
	addq	$-64, %rax
	vmovdqa	%ymm12, %ymm1
	cmpq	$63, %rax
	jbe	.LBB1_17
.LBB1_13:
	vmovdqu	(%rsi,%rcx), %ymm0
	vmovdqu	32(%rsi,%rcx), %ymm12
	vpor	%ymm0, %ymm12, %ymm2
	vpmovmskb	%ymm2, %edi
	testl	%edi, %edi
	jne	.LBB1_15
	vmovdqa	%ymm3, %ymm1
	vmovdqa	%ymm4, %ymm2
	vpxor	%xmm3, %xmm3, %xmm3
	vpxor	%xmm4, %xmm4, %xmm4
	jmp	.LBB1_16
.LBB1_17:
	vmovdqa	%ymm4, 128(%rsp)
	vmovdqa	%ymm3, 160(%rsp)
	vmovdqa	%ymm12, 96(%rsp)
	vmovdqa	%ymm11, 192(%rsp)
	vmovdqa	%ymm10, 224(%rsp)
.LBB1_18:
	leaq	32(%rsp), %rdi
	vzeroupper
	callq	L_2
	vmovdqa	32(%rsp), %ymm1
	vmovdqa	64(%rsp), %ymm0
	vpor	%ymm1, %ymm0, %ymm2
	vpmovmskb	%ymm2, %eax
	testl	%eax, %eax
	vmovdqa	160(%rsp), %ymm3
	vmovdqa	128(%rsp), %ymm2
	je	.LBB1_20
	vperm2i128	$3, 96(%rsp), %ymm1, %ymm2
	vpalignr	$15, %ymm2, %ymm1, %ymm3
	vperm2i128	$33, %ymm0, %ymm1, %ymm4
	vpalignr	$15, %ymm4, %ymm0, %ymm5
	vpsrlw	$4, %ymm5, %ymm6
	vpbroadcastd	.LCPI1_8(%rip), %ymm7
	vpand	%ymm7, %ymm6, %ymm6
	vpsrlw	$4, %ymm3, %ymm8
	vpand	%ymm7, %ymm8, %ymm8
	vbroadcasti128	.LCPI1_9(%rip), %ymm9
	vpshufb	%ymm8, %ymm9, %ymm8
	vpshufb	%ymm6, %ymm9, %ymm6
	vpand	%ymm7, %ymm5, %ymm5
	vpand	%ymm7, %ymm3, %ymm3
	vbroadcasti128	.LCPI1_10(%rip), %ymm9
	vpshufb	%ymm3, %ymm9, %ymm3
	vpshufb	%ymm5, %ymm9, %ymm5
	vpsrlw	$4, %ymm0, %ymm9
	vpand	%ymm7, %ymm9, %ymm9
	vpsrlw	$4, %ymm1, %ymm10
	vpand	%ymm7, %ymm10, %ymm7
	vbroadcasti128	.LCPI1_11(%rip), %ymm10
	vpshufb	%ymm7, %ymm10, %ymm7
	vpand	%ymm7, %ymm3, %ymm3
	vpand	%ymm3, %ymm8, %ymm3
	vpshufb	%ymm9, %ymm10, %ymm7
	vpand	%ymm7, %ymm5, %ymm5
	vpand	%ymm6, %ymm5, %ymm5
	vpalignr	$14, %ymm2, %ymm1, %ymm6
	vpalignr	$14, %ymm4, %ymm0, %ymm7
	vpbroadcastd	.LCPI1_12(%rip), %ymm8
	vpsubusb	%ymm8, %ymm7, %ymm7
	vpsubusb	%ymm8, %ymm6, %ymm6
	vpalignr	$13, %ymm2, %ymm1, %ymm1
	vpalignr	$13, %ymm4, %ymm0, %ymm2
	vpbroadcastd	.LCPI1_13(%rip), %ymm4
	vpsubusb	%ymm4, %ymm2, %ymm2
	vpor	%ymm2, %ymm7, %ymm2
	vpsubusb	%ymm4, %ymm1, %ymm1
	vpor	%ymm1, %ymm6, %ymm1
	vpbroadcastd	.LCPI1_14(%rip), %ymm4
	vpand	%ymm4, %ymm2, %ymm2
	vpxor	%ymm2, %ymm5, %ymm2
	vpand	%ymm4, %ymm1, %ymm1
	vpxor	%ymm1, %ymm3, %ymm3
	vpsubusb	.LCPI1_7(%rip), %ymm0, %ymm0
	vpor	%ymm0, %ymm2, %ymm2
.LBB1_20:
	vpor	192(%rsp), %ymm2, %ymm0
	vpor	224(%rsp), %ymm3, %ymm1
	vpor	%ymm1, %ymm0, %ymm0
	vptest	%ymm0, %ymm0
	je	.LBB1_21
.LBB1_1:
	movq	%r15, 24(%rsp)
	xorl	%r13d, %r13d
	jmp	.LBB1_2
	.p2align	4
.LBB1_38:
	vpor	192(%rsp), %ymm2, %ymm0
	vpor	224(%rsp), %ymm3, %ymm1
	vpor	%ymm1, %ymm0, %ymm0
	vptest	%ymm0, %ymm0
	jne	.LBB1_39
.LBB1_2:
	movq	%r13, %r15
	movq	%r14, %r12
	subq	%r13, %r12
	cmpq	$1025, %r12
	jb	.LBB1_39
	xorl	%eax, %eax
	cmpb	$-64, 1024(%rbx,%r15)
	setl	%al
	negq	%rax
	leaq	(%r15,%rax), %r13
	addq	$1024, %r13
	xorl	%eax, %eax
	cmpb	$-64, (%rbx,%r13)
	setl	%al
	subq	%rax, %r13
	xorl	%eax, %eax
	cmpb	$-64, (%rbx,%r13)
	setl	%al
	subq	%rax, %r13
	leaq	(%rbx,%r15), %rsi
	movq	%r13, %rdx
	subq	%r15, %rdx
	cmpq	$64, %rdx
	jb	.LBB1_4
	vmovdqu	32(%rsi), %ymm0
	vpor	(%rsi), %ymm0, %ymm0
	vpmovmskb	%ymm0, %eax
	testl	%eax, %eax
	je	.LBB1_24
	xorl	%eax, %eax
	jmp	.LBB1_30
	.p2align	4
.LBB1_4:
	xorl	%eax, %eax
.LBB1_28:
	addq	%rax, %rsi
	vpxor	%xmm0, %xmm0, %xmm0
	vmovdqa	%ymm0, 224(%rsp)
	xorl	%ecx, %ecx
	vmovdqa	%ymm0, 192(%rsp)
	vmovdqa	%ymm0, 160(%rsp)
	vmovdqa	%ymm0, 128(%rsp)
	vmovdqa	%ymm0, 96(%rsp)
	jmp	.LBB1_36
.LBB1_24:
	movl	$64, %eax
	.p2align	4
.LBB1_26:
	leaq	-64(%rdx), %rcx
	cmpq	$63, %rcx
	jbe	.LBB1_27
	vmovdqu	32(%rsi,%rax), %ymm0
	vpor	(%rsi,%rax), %ymm0, %ymm0
	vpmovmskb	%ymm0, %ecx
	addq	$64, %rax
	addq	$-64, %rdx
	testl	%ecx, %ecx
	je	.LBB1_26
	addq	$-64, %rax
.LBB1_30:
	addq	%rax, %rsi
	vpxor	%xmm3, %xmm3, %xmm3
	xorl	%ecx, %ecx
	movq	%rdx, %rax
	vpxor	%xmm1, %xmm1, %xmm1
	vpxor	%xmm2, %xmm2, %xmm2
	vpxor	%xmm10, %xmm10, %xmm10
	vpxor	%xmm11, %xmm11, %xmm11
	jmp	.LBB1_31
	.p2align	4
.LBB1_32:
	vpxor	%xmm0, %xmm0, %xmm0
	vpxor	%xmm4, %xmm4, %xmm4
.LBB1_34:
	vpor	%ymm2, %ymm11, %ymm11
	vpor	%ymm1, %ymm10, %ymm10
	addq	$64, %rcx
	addq	$-64, %rax
	vmovdqa	%ymm12, %ymm3
	vmovdqa	%ymm0, %ymm1
	vmovdqa	%ymm4, %ymm2
	cmpq	$63, %rax
	jbe	.LBB1_35
.LBB1_31:
	vmovdqu	(%rsi,%rcx), %ymm0
	vmovdqu	32(%rsi,%rcx), %ymm12
	vpor	%ymm0, %ymm12, %ymm4
	vpmovmskb	%ymm4, %edi
	testl	%edi, %edi
	je	.LBB1_32
	vperm2i128	$33, %ymm0, %ymm3, %ymm1
	vpalignr	$15, %ymm1, %ymm0, %ymm2
	vperm2i128	$33, %ymm12, %ymm0, %ymm3
	vpalignr	$15, %ymm3, %ymm12, %ymm4
	vpsrlw	$4, %ymm4, %ymm5
	vpbroadcastd	.LCPI1_8(%rip), %ymm6
	vpand	%ymm6, %ymm5, %ymm5
	vpsrlw	$4, %ymm2, %ymm7
	vpand	%ymm6, %ymm7, %ymm7
	vbroadcasti128	.LCPI1_9(%rip), %ymm8
	vpshufb	%ymm7, %ymm8, %ymm7
	vpshufb	%ymm5, %ymm8, %ymm5
	vpand	%ymm6, %ymm4, %ymm4
	vpand	%ymm6, %ymm2, %ymm2
	vbroadcasti128	.LCPI1_10(%rip), %ymm8
	vpshufb	%ymm2, %ymm8, %ymm2
	vpshufb	%ymm4, %ymm8, %ymm4
	vpsrlw	$4, %ymm12, %ymm8
	vpand	%ymm6, %ymm8, %ymm8
	vpsrlw	$4, %ymm0, %ymm9
	vpand	%ymm6, %ymm9, %ymm6
	vbroadcasti128	.LCPI1_11(%rip), %ymm9
	vpshufb	%ymm6, %ymm9, %ymm6
	vpand	%ymm6, %ymm2, %ymm2
	vpand	%ymm7, %ymm2, %ymm2
	vpshufb	%ymm8, %ymm9, %ymm6
	vpand	%ymm6, %ymm4, %ymm4
	vpand	%ymm5, %ymm4, %ymm4
	vpalignr	$14, %ymm3, %ymm12, %ymm5
	vpalignr	$14, %ymm1, %ymm0, %ymm6
	vpbroadcastd	.LCPI1_12(%rip), %ymm7
	vpsubusb	%ymm7, %ymm6, %ymm6
	vpsubusb	%ymm7, %ymm5, %ymm5
	vpalignr	$13, %ymm3, %ymm12, %ymm3
	vpalignr	$13, %ymm1, %ymm0, %ymm1
	vpbroadcastd	.LCPI1_13(%rip), %ymm7
	vpsubusb	%ymm7, %ymm1, %ymm1
	vpor	%ymm1, %ymm6, %ymm1
	vpsubusb	%ymm7, %ymm3, %ymm3
	vpor	%ymm3, %ymm5, %ymm3
	vpbroadcastd	.LCPI1_14(%rip), %ymm5
	vpand	%ymm5, %ymm1, %ymm1
	vpxor	%ymm1, %ymm2, %ymm1
	vpand	%ymm5, %ymm3, %ymm2
	vpxor	%ymm2, %ymm4, %ymm2
	vpcmpeqd	%ymm3, %ymm3, %ymm3
	vpsubusb	%ymm3, %ymm0, %ymm0
	vpsubusb	.LCPI1_7(%rip), %ymm12, %ymm4
	jmp	.LBB1_34
	.p2align	4
.LBB1_35:
	vmovdqa	%ymm4, 128(%rsp)
	vmovdqa	%ymm0, 160(%rsp)
	vmovdqa	%ymm12, 96(%rsp)
	vmovdqa	%ymm11, 192(%rsp)
	vmovdqa	%ymm10, 224(%rsp)
.LBB1_36:
	leaq	32(%rsp), %rdi
	vzeroupper
	callq	L_2
	vmovdqa	32(%rsp), %ymm1
	vmovdqa	64(%rsp), %ymm0
	vpor	%ymm1, %ymm0, %ymm2
	vpmovmskb	%ymm2, %eax
	testl	%eax, %eax
	vmovdqa	160(%rsp), %ymm3
	vmovdqa	128(%rsp), %ymm2
	je	.LBB1_38
	vperm2i128	$3, 96(%rsp), %ymm1, %ymm2
	vpalignr	$15, %ymm2, %ymm1, %ymm3
	vperm2i128	$33, %ymm0, %ymm1, %ymm4
	vpalignr	$15, %ymm4, %ymm0, %ymm5
	vpsrlw	$4, %ymm5, %ymm6
	vpbroadcastd	.LCPI1_8(%rip), %ymm7
	vpand	%ymm7, %ymm6, %ymm6
	vpsrlw	$4, %ymm3, %ymm8
	vpand	%ymm7, %ymm8, %ymm8
	vbroadcasti128	.LCPI1_9(%rip), %ymm9
	vpshufb	%ymm8, %ymm9, %ymm8
	vpshufb	%ymm6, %ymm9, %ymm6
	vpand	%ymm7, %ymm5, %ymm5
	vpand	%ymm7, %ymm3, %ymm3
	vbroadcasti128	.LCPI1_10(%rip), %ymm9
	vpshufb	%ymm3, %ymm9, %ymm3
	vpshufb	%ymm5, %ymm9, %ymm5
	vpsrlw	$4, %ymm0, %ymm9
	vpand	%ymm7, %ymm9, %ymm9
	vpsrlw	$4, %ymm1, %ymm10
	vpand	%ymm7, %ymm10, %ymm7
	vbroadcasti128	.LCPI1_11(%rip), %ymm10
	vpshufb	%ymm7, %ymm10, %ymm7
	vpand	%ymm7, %ymm3, %ymm3
	vpand	%ymm3, %ymm8, %ymm3
	vpshufb	%ymm9, %ymm10, %ymm7
	vpand	%ymm7, %ymm5, %ymm5
	vpand	%ymm6, %ymm5, %ymm5
	vpalignr	$14, %ymm2, %ymm1, %ymm6
	vpalignr	$14, %ymm4, %ymm0, %ymm7
	vpbroadcastd	.LCPI1_12(%rip), %ymm8
	vpsubusb	%ymm8, %ymm7, %ymm7
	vpsubusb	%ymm8, %ymm6, %ymm6
	vpalignr	$13, %ymm2, %ymm1, %ymm1
	vpalignr	$13, %ymm4, %ymm0, %ymm2
	vpbroadcastd	.LCPI1_13(%rip), %ymm4
	vpsubusb	%ymm4, %ymm2, %ymm2
	vpor	%ymm2, %ymm7, %ymm2
	vpsubusb	%ymm4, %ymm1, %ymm1
	vpor	%ymm1, %ymm6, %ymm1
	vpbroadcastd	.LCPI1_14(%rip), %ymm4
	vpand	%ymm4, %ymm2, %ymm2
	vpxor	%ymm2, %ymm5, %ymm2
	vpand	%ymm4, %ymm1, %ymm1
	vpxor	%ymm1, %ymm3, %ymm3
	vpsubusb	.LCPI1_7(%rip), %ymm0, %ymm0
	vpor	%ymm0, %ymm2, %ymm2
	jmp	.LBB1_38
.LBB1_27:
	movq	%rcx, %rdx
	jmp	.LBB1_28
.LBB1_39:
	vpxor	%xmm0, %xmm0, %xmm0
	vmovdqa	%xmm0, 32(%rsp)
	movq	$0, 48(%rsp)
	leaq	(%rbx,%r15), %rsi
	leaq	32(%rsp), %rdi
	movq	%r12, %rdx
	vzeroupper
	callq	L_3
	movzbl	32(%rsp), %eax
	testq	%rax, %rax
	je	.LBB1_40
	addq	40(%rsp), %r15
	xorl	%ecx, %ecx
	xorl	%r14d, %r14d
	cmpb	$1, 48(%rsp)
	sete	%r14b
	movzbl	49(%rsp), %edx
	cmovnel	%ecx, %edx
	movzbl	%dl, %ecx
	movq	%r15, %rbx
	jmp	.LBB1_42
.LBB1_40:
	xorl	%ecx, %ecx
.LBB1_42:
	movq	24(%rsp), %r15
.LBB1_43:
	movq	%rax, (%r15)
	movq	%rbx, 8(%r15)
	movq	%r14, 16(%r15)
	movq	%rcx, 24(%r15)
	leaq	-40(%rbp), %rsp
	popq	%rbx
	popq	%r12
	popq	%r13
	popq	%r14
	popq	%r15
	popq	%rbp
	vzeroupper
	retq
.LBB1_21:
	xorl	%eax, %eax
	xorl	%ecx, %ecx
	jmp	.LBB1_43
.LBB1_10:
	addq	%rbx, %rsi
	addq	$64, %rsi
	vpxor	%xmm0, %xmm0, %xmm0
	vmovdqa	%ymm0, 224(%rsp)
	xorl	%ecx, %ecx
	vmovdqa	%ymm0, 192(%rsp)
	vmovdqa	%ymm0, 160(%rsp)
	vmovdqa	%ymm0, 128(%rsp)
	vmovdqa	%ymm0, 96(%rsp)
	jmp	.LBB1_18
.Lfunc_end1:

	.section	.text$005,"xr"
	.p2align	4
L_2:
	pushq	%rbp
	movq	%rsp, %rbp
	pushq	%rbx
	andq	$-64, %rsp
	subq	$128, %rsp
	movq	%rdi, %rbx
	addq	%rcx, %rsi
	subq	%rcx, %rdx
	vxorps	%xmm0, %xmm0, %xmm0
	vmovaps	%ymm0, 32(%rsp)
	vmovaps	%ymm0, (%rsp)
	movq	%rsp, %rdi
	vzeroupper
	callq	sysv_memcpy
	vmovaps	(%rsp), %ymm0
	vmovaps	32(%rsp), %ymm1
	vmovups	%ymm1, 32(%rbx)
	vmovups	%ymm0, (%rbx)
	leaq	-8(%rbp), %rsp
	popq	%rbx
	popq	%rbp
	vzeroupper
	retq
.Lfunc_end2:

	.section	.text$006,"xr"
	.p2align	4
L_3:
	pushq	%r15
	pushq	%r14
	pushq	%r13
	pushq	%r12
	pushq	%rbx
	subq	$16, %rsp
	movq	%rdx, %r15
	movq	%rsi, %r14
	movq	%rdi, %rbx
	testq	%rdx, %rdx
	je	.LBB3_49
	movabsq	$-9187201950435737472, %r12
	leaq	-8(%r15), %r13
	xorl	%ecx, %ecx
	jmp	.LBB3_5
.LBB3_25:
	movl	$1, %eax
.LBB3_3:
	addq	%rcx, %rax
.LBB3_4:
	movq	%rax, %rcx
	cmpq	%r15, %rax
	jae	.LBB3_49
.LBB3_5:
	movzbl	(%r14,%rcx), %edi
	testb	%dil, %dil
	sets	%al
	movq	%r15, %rdx
	subq	%rcx, %rdx
	cmpq	$2, %rdx
	setb	%sil
	orb	%al, %sil
	jne	.LBB3_2
	cmpb	$0, 1(%r14,%rcx)
	js	.LBB3_25
	movq	%r14, (%rsp)
	movq	%r15, 8(%rsp)
	cmpq	$7, %rdx
	ja	.LBB3_26
	cmpb	$0, (%r14,%rcx)
	js	.LBB3_41
	leaq	1(%rcx), %rax
	cmpq	%r15, %rax
	je	.LBB3_49
	cmpb	$0, (%r14,%rax)
	js	.LBB3_4
	leaq	2(%rcx), %rax
	cmpq	%r15, %rax
	je	.LBB3_49
	cmpb	$0, (%r14,%rax)
	js	.LBB3_4
	leaq	3(%rcx), %rax
	cmpq	%r15, %rax
	je	.LBB3_49
	cmpb	$0, (%r14,%rax)
	js	.LBB3_4
	leaq	4(%rcx), %rax
	cmpq	%r15, %rax
	je	.LBB3_49
	cmpb	$0, (%r14,%rax)
	js	.LBB3_4
	leaq	5(%rcx), %rax
	cmpq	%r15, %rax
	je	.LBB3_49
	cmpb	$0, (%r14,%rax)
	js	.LBB3_4
	addq	$6, %rcx
	cmpq	%r15, %rcx
	je	.LBB3_49
	cmpb	$0, (%r14,%rcx)
	movq	%rcx, %rax
	js	.LBB3_4
	jmp	.LBB3_49
	.p2align	4
.LBB3_2:
	movl	$1, %eax
	testb	%dil, %dil
	jns	.LBB3_3
	movl	$257, %esi
	cmpb	$-62, %dil
	jb	.LBB3_61
	cmpb	$-33, %dil
	ja	.LBB3_34
	cmpq	$2, %rdx
	jb	.LBB3_53
	movzbl	1(%r14,%rcx), %r8d
	movl	$2, %eax
	cmpb	$-65, %r8b
	jle	.LBB3_3
	jmp	.LBB3_55
.LBB3_26:
	movq	(%r14,%rcx), %rax
	andq	%r12, %rax
	xorl	%edx, %edx
	tzcntq	%rax, %rdx
	shrl	$3, %edx
	testq	%rax, %rax
	movl	$8, %eax
	cmovneq	%rdx, %rax
	addq	%rcx, %rax
	addq	$8, %rcx
	cmpq	%rcx, %rax
	jb	.LBB3_4
	movq	%r15, %rcx
	subq	%rax, %rcx
	cmpq	$32, %rcx
	jb	.LBB3_30
	.p2align	4
.LBB3_28:
	vmovdqu	(%r14,%rax), %xmm0
	vpor	16(%r14,%rax), %xmm0, %xmm0
	vpshufd	$238, %xmm0, %xmm1
	vpor	%xmm1, %xmm0, %xmm0
	vmovq	%xmm0, %rcx
	testq	%r12, %rcx
	jne	.LBB3_30
	addq	$32, %rax
	movq	%rsp, %rdi
	movq	%rax, %rsi
	movq	%r15, %rdx
	callq	L_4
	movq	%r15, %rcx
	subq	%rax, %rcx
	cmpq	$31, %rcx
	ja	.LBB3_28
.LBB3_30:
	movq	%r15, %rcx
	subq	%rax, %rcx
	.p2align	4
.LBB3_31:
	cmpq	$9, %rcx
	jb	.LBB3_48
	movq	(%r14,%rax), %rdx
	andq	%r12, %rdx
	xorl	%esi, %esi
	tzcntq	%rdx, %rsi
	shrl	$3, %esi
	testq	%rdx, %rdx
	movl	$8, %edx
	cmovneq	%rsi, %rdx
	leaq	(%rdx,%rax), %rsi
	addq	$8, %rax
	addq	$-8, %rcx
	cmpq	%rax, %rsi
	jae	.LBB3_31
	addq	%rdx, %rax
	addq	$-8, %rax
	jmp	.LBB3_4
.LBB3_34:
	cmpb	$-17, %dil
	ja	.LBB3_42
	cmpq	$3, %rdx
	jb	.LBB3_51
	movzbl	1(%r14,%rcx), %r8d
	cmpb	$-65, %r8b
	jg	.LBB3_55
	cmpb	$-65, 2(%r14,%rcx)
	jg	.LBB3_55
	movzbl	%r8b, %eax
	movl	%edi, %r9d
	shll	$6, %r9d
	addl	%eax, %r9d
	addl	$-14464, %r9d
	cmpl	$32, %r9d
	jb	.LBB3_55
	xorl	%r8d, %r8d
	cmpl	$896, %r9d
	setae	%r10b
	movl	$3, %eax
	cmpl	$864, %r9d
	jb	.LBB3_3
	movb	%r10b, %r8b
	leaq	(%r8,%r8,2), %rax
	testq	%rax, %rax
	jne	.LBB3_3
	jmp	.LBB3_50
.LBB3_41:
	movq	%rcx, %rax
	jmp	.LBB3_4
.LBB3_42:
	cmpq	$4, %rdx
	jb	.LBB3_50
	movzbl	1(%r14,%rcx), %eax
	cmpb	$-65, %al
	jg	.LBB3_50
	cmpb	$-65, 2(%r14,%rcx)
	jg	.LBB3_50
	cmpb	$-65, 3(%r14,%rcx)
	jg	.LBB3_50
	movl	%edi, %r8d
	shll	$6, %r8d
	leal	(%r8,%rax), %r9d
	addl	$-15488, %r9d
	xorl	%eax, %eax
	cmpl	$272, %r9d
	setb	%r8b
	cmpl	$16, %r9d
	jb	.LBB3_50
	movb	%r8b, %al
	shll	$2, %eax
	testq	%rax, %rax
	jne	.LBB3_3
	jmp	.LBB3_50
.LBB3_48:
	movq	(%r14,%r13), %rax
	andq	%r12, %rax
	xorl	%ecx, %ecx
	tzcntq	%rax, %rcx
	shrl	$3, %ecx
	testq	%rax, %rax
	movl	$8, %eax
	cmovneq	%rcx, %rax
	addq	%r13, %rax
	jmp	.LBB3_4
.LBB3_49:
	movq	$0, (%rbx)
	movq	%r14, 8(%rbx)
	movq	%r15, 16(%rbx)
	jmp	.LBB3_62
.LBB3_50:
	cmpb	$-12, %dil
	ja	.LBB3_61
.LBB3_51:
	cmpq	$2, %rdx
	jb	.LBB3_53
	movzbl	1(%r14,%rcx), %r8d
.LBB3_55:
	cmpl	$240, %edi
	sete	%al
	shlb	$4, %al
	orb	$-128, %al
	cmpl	$224, %edi
	movzbl	%al, %eax
	movl	$160, %r9d
	cmovnel	%eax, %r9d
	cmpl	$244, %edi
	movl	$143, %eax
	movl	$191, %r10d
	cmovel	%eax, %r10d
	cmpl	$237, %edi
	movl	$159, %eax
	cmovnel	%r10d, %eax
	cmpb	%r8b, %r9b
	ja	.LBB3_61
	cmpb	%al, %r8b
	ja	.LBB3_61
	cmpq	$2, %rdx
	jne	.LBB3_59
.LBB3_53:
	xorl	%esi, %esi
.LBB3_61:
	movq	$1, (%rbx)
	movq	%rcx, 8(%rbx)
	movq	%rsi, 16(%rbx)
.LBB3_62:
	addq	$16, %rsp
	popq	%rbx
	popq	%r12
	popq	%r13
	popq	%r14
	popq	%r15
	retq
.LBB3_59:
	movl	$513, %esi
	cmpb	$-65, 2(%r14,%rcx)
	jg	.LBB3_61
	xorl	%eax, %eax
	cmpq	$4, %rdx
	movl	$769, %esi
	cmovbq	%rax, %rsi
	jmp	.LBB3_61
.Lfunc_end3:

	.section	.rdata$007,"dr"
	.p2align	3, 0x0
.LCPI4_0:
	.quad	-9187201950435737472
	.section	.text$008,"xr"
	.p2align	4
L_4:
	movq	%rsi, %rax
	subq	%rsi, %rdx
	cmpq	$64, %rdx
	jb	.LBB4_4
	movq	(%rdi), %rcx
	.p2align	4
.LBB4_2:
	vmovdqu	(%rcx,%rax), %ymm0
	vpor	32(%rcx,%rax), %ymm0, %ymm0
	vpbroadcastq	.LCPI4_0(%rip), %ymm1
	vptest	%ymm1, %ymm0
	jne	.LBB4_4
	addq	$64, %rax
	addq	$-64, %rdx
	cmpq	$63, %rdx
	ja	.LBB4_2
.LBB4_4:
	vzeroupper
	retq
.Lfunc_end4:

	.section	.text$009,"xr"
	.p2align	4
L_5:
	addl	$10240, %edi
	movzwl	%di, %eax
	shll	$10, %eax
	addl	$9216, %esi
	movzwl	%si, %ecx
	addl	%ecx, %eax
	addl	$65536, %eax
	retq
.Lfunc_end5:

	.section	.text$010,"xr"
	.p2align	4
L_6:
	movb	$1, %al
	cmpq	$2, %rsi
	jb	.LBB6_4
	.p2align	4
.LBB6_3:
	movbew	(%rdi), %ax
	movzwl	%ax, %eax
	cmpl	$128, %eax
	setb	%al
	jae	.LBB6_4
	addq	$2, %rdi
	addq	$-2, %rsi
	cmpq	$2, %rsi
	jae	.LBB6_3
.LBB6_4:
	retq
.Lfunc_end6:

	.section	.text$011,"xr"
	.p2align	4
L_7:
	movb	$1, %al
	cmpq	$2, %rsi
	jb	.LBB7_4
	.p2align	4
.LBB7_3:
	movzwl	(%rdi), %ecx
	cmpl	$128, %ecx
	setb	%al
	cmpw	$128, %cx
	jae	.LBB7_4
	addq	$2, %rdi
	addq	$-2, %rsi
	cmpq	$2, %rsi
	jae	.LBB7_3
.LBB7_4:
	retq
.Lfunc_end7:

	.section	.rdata$003,"dr"
	.p2align	5, 0x0
.LCPI8_0:
	.short	255
	.short	255
	.short	255
	.short	255
	.short	255
	.short	255
	.short	255
	.short	255
	.short	255
	.short	255
	.short	255
	.short	255
	.short	255
	.short	255
	.short	255
	.short	255
	.section	.rdata$000,"dr"
	.p2align	4, 0x0
.LCPI8_1:
	.zero	16,248
.LCPI8_2:
	.zero	16,216
.LCPI8_3:
	.byte	0
	.byte	2
	.byte	4
	.byte	6
	.byte	8
	.byte	10
	.byte	12
	.byte	14
	.zero	1
	.zero	1
	.zero	1
	.zero	1
	.zero	1
	.zero	1
	.zero	1
	.zero	1
.LCPI8_4:
	.byte	0
	.byte	2
	.byte	4
	.byte	6
	.zero	1
	.zero	1
	.zero	1
	.zero	1
	.zero	1
	.zero	1
	.zero	1
	.zero	1
	.zero	1
	.zero	1
	.zero	1
	.zero	1
.LCPI8_5:
	.byte	248
	.byte	248
	.byte	248
	.byte	248
	.zero	1
	.zero	1
	.zero	1
	.zero	1
	.zero	1
	.zero	1
	.zero	1
	.zero	1
	.zero	1
	.zero	1
	.zero	1
	.zero	1
.LCPI8_6:
	.byte	216
	.byte	216
	.byte	216
	.byte	216
	.zero	1
	.zero	1
	.zero	1
	.zero	1
	.zero	1
	.zero	1
	.zero	1
	.zero	1
	.zero	1
	.zero	1
	.zero	1
	.zero	1
	.section	.text$012,"xr"
	.p2align	4
L_8:
	cmpq	$2, %rsi
	jne	.LBB8_3
	movzbl	(%rdi), %ecx
	andb	$-8, %cl
	movl	$2, %eax
.LBB8_2:
	cmpb	$-40, %cl
	je	L_9
	retq
.LBB8_3:
	cmpq	$7, %rsi
	ja	.LBB8_12
	testq	%rsi, %rsi
	je	.LBB8_23
	cmpq	$6, %rsi
	je	.LBB8_9
	cmpq	$4, %rsi
	jne	L_9
	movzbl	(%rdi), %eax
	andb	$-8, %al
	cmpb	$-40, %al
	je	L_9
	movzbl	2(%rdi), %ecx
	andb	$-8, %cl
	movl	$4, %eax
	jmp	.LBB8_2
.LBB8_12:
	cmpq	$65, %rsi
	setae	%al
	movl	%esi, %ecx
	orb	%al, %cl
	testb	$1, %cl
	jne	L_9
	cmpq	$15, %rsi
	ja	.LBB8_17
	vmovq	(%rdi), %xmm0
	vpshufb	.LCPI8_4(%rip), %xmm0, %xmm0
	vpand	.LCPI8_5(%rip), %xmm0, %xmm0
	vpcmpeqb	.LCPI8_6(%rip), %xmm0, %xmm0
	vpmovsxbd	%xmm0, %xmm0
	vtestps	%xmm0, %xmm0
	jne	L_9
	vmovq	-8(%rdi,%rsi), %xmm0
	vpshufb	.LCPI8_4(%rip), %xmm0, %xmm0
	vpand	.LCPI8_5(%rip), %xmm0, %xmm0
	vpcmpeqb	.LCPI8_6(%rip), %xmm0, %xmm0
	vpmovsxbd	%xmm0, %xmm0
	vtestps	%xmm0, %xmm0
	jne	L_9
	jmp	.LBB8_23
.LBB8_17:
	cmpq	$31, %rsi
	ja	.LBB8_21
	vmovdqu	(%rdi), %xmm0
	vpshufb	.LCPI8_3(%rip), %xmm0, %xmm0
	vpand	.LCPI8_1(%rip), %xmm0, %xmm0
	vpcmpeqb	.LCPI8_2(%rip), %xmm0, %xmm0
	vpmovmskb	%xmm0, %eax
	testb	%al, %al
	jne	L_9
	vmovdqu	-16(%rdi,%rsi), %xmm0
	vpshufb	.LCPI8_3(%rip), %xmm0, %xmm0
	vpand	.LCPI8_1(%rip), %xmm0, %xmm0
	vpcmpeqb	.LCPI8_2(%rip), %xmm0, %xmm0
	vpmovmskb	%xmm0, %eax
	testb	%al, %al
	jne	L_9
	jmp	.LBB8_23
.LBB8_9:
	movzbl	(%rdi), %eax
	andb	$-8, %al
	cmpb	$-40, %al
	je	L_9
	movzbl	2(%rdi), %eax
	andb	$-8, %al
	cmpb	$-40, %al
	je	L_9
	movzbl	4(%rdi), %ecx
	andb	$-8, %cl
	movl	$6, %eax
	jmp	.LBB8_2
.LBB8_21:
	vmovdqu	(%rdi), %ymm0
	vpand	.LCPI8_0(%rip), %ymm0, %ymm0
	vextracti128	$1, %ymm0, %xmm1
	vpackuswb	%xmm1, %xmm0, %xmm0
	vpand	.LCPI8_1(%rip), %xmm0, %xmm0
	vpcmpeqb	.LCPI8_2(%rip), %xmm0, %xmm0
	vpmovmskb	%xmm0, %eax
	testl	%eax, %eax
	vzeroupper
	jne	L_9
	vmovdqu	-32(%rdi,%rsi), %ymm0
	vpand	.LCPI8_0(%rip), %ymm0, %ymm0
	vextracti128	$1, %ymm0, %xmm1
	vpackuswb	%xmm1, %xmm0, %xmm0
	vpand	.LCPI8_1(%rip), %xmm0, %xmm0
	vpcmpeqb	.LCPI8_2(%rip), %xmm0, %xmm0
	vpmovmskb	%xmm0, %eax
	testl	%eax, %eax
	vzeroupper
	jne	L_9
.LBB8_23:
	movq	%rsi, %rax
	retq
.Lfunc_end8:

	.section	.rdata$013,"dr"
	.p2align	1, 0x0
.LCPI9_0:
	.byte	255
	.byte	0
	.section	.rdata$003,"dr"
	.p2align	5, 0x0
.LCPI9_1:
	.zero	32,248
.LCPI9_2:
	.zero	32,216
.LCPI9_3:
	.zero	32,252
.LCPI9_4:
	.zero	32,220
.LCPI9_5:
	.short	255
	.short	255
	.short	255
	.short	255
	.short	255
	.short	255
	.short	255
	.short	255
	.short	255
	.short	255
	.short	255
	.short	255
	.short	255
	.short	255
	.short	255
	.short	255
	.section	.rdata$000,"dr"
	.p2align	4, 0x0
.LCPI9_6:
	.zero	16,252
.LCPI9_7:
	.zero	16,216
.LCPI9_8:
	.zero	16,220
	.section	.rdata$001,"dr"
	.p2align	2, 0x0
.LCPI9_9:
	.zero	4,248
.LCPI9_10:
	.zero	4,216
	.section	.text$014,"xr"
	.p2align	4
L_9:
	cmpq	$32, %rsi
	jae	.LBB9_9
	testq	%rsi, %rsi
	je	.LBB9_14
	xorl	%ecx, %ecx
	jmp	.LBB9_4
	.p2align	4
.LBB9_3:
	addq	%rcx, %rax
	movq	%rax, %rcx
	cmpq	%rsi, %rax
	jae	.LBB9_61
.LBB9_4:
	movq	%rsi, %r8
	subq	%rcx, %r8
	cmpq	$2, %r8
	jb	.LBB9_60
	movbew	(%rdi,%rcx), %dx
	movl	%edx, %r9d
	andl	$63488, %r9d
	movl	$2, %eax
	cmpl	$55296, %r9d
	jne	.LBB9_3
	cmpq	$4, %r8
	jb	.LBB9_60
	andl	$56320, %edx
	movzwl	%dx, %eax
	cmpl	$56320, %eax
	je	.LBB9_60
	movzbl	2(%rdi,%rcx), %edx
	andb	$-4, %dl
	movl	$4, %eax
	cmpb	$-36, %dl
	je	.LBB9_3
	jmp	.LBB9_60
.LBB9_9:
	cmpq	$64, %rsi
	jb	.LBB9_13
	movq	%rsi, %rcx
	andq	$-128, %rcx
	vpbroadcastw	.LCPI9_0(%rip), %ymm0
	vmovdqu	(%rdi), %ymm1
	vmovdqu	32(%rdi), %ymm2
	vpand	%ymm0, %ymm2, %ymm3
	vpand	%ymm0, %ymm1, %ymm4
	vpackuswb	%ymm3, %ymm4, %ymm3
	vpermq	$216, %ymm3, %ymm3
	vpand	.LCPI9_1(%rip), %ymm3, %ymm3
	vpcmpeqb	.LCPI9_2(%rip), %ymm3, %ymm3
	vpmovmskb	%ymm3, %eax
	cmpq	$256, %rcx
	jne	.LBB9_15
	testl	%eax, %eax
	je	.LBB9_17
	xorl	%ecx, %ecx
	jmp	.LBB9_22
.LBB9_13:
	xorl	%ecx, %ecx
	xorl	%eax, %eax
	jmp	.LBB9_46
.LBB9_14:
	xorl	%eax, %eax
	retq
.LBB9_15:
	testl	%eax, %eax
	je	.LBB9_35
	xorl	%ecx, %ecx
	movq	%rsi, %rdx
	jmp	.LBB9_21
.LBB9_17:
	movl	$64, %ecx
	movq	%rsi, %rdx
	.p2align	4
.LBB9_18:
	leaq	-64(%rdx), %r8
	cmpq	$63, %r8
	jbe	.LBB9_42
	vmovdqu	(%rdi,%rcx), %ymm1
	vmovdqu	32(%rdi,%rcx), %ymm2
	vpand	%ymm0, %ymm2, %ymm3
	vpand	%ymm0, %ymm1, %ymm4
	vpackuswb	%ymm3, %ymm4, %ymm3
	vpermq	$216, %ymm3, %ymm3
	vpand	.LCPI9_1(%rip), %ymm3, %ymm3
	vpcmpeqb	.LCPI9_2(%rip), %ymm3, %ymm3
	vpmovmskb	%ymm3, %eax
	addq	$64, %rcx
	addq	$-64, %rdx
	testl	%eax, %eax
	je	.LBB9_18
	addq	$-64, %rcx
.LBB9_21:
	cmpq	$64, %rdx
	je	.LBB9_26
.LBB9_22:
	vpand	%ymm0, %ymm1, %ymm1
	vpand	%ymm0, %ymm2, %ymm2
	vpackuswb	%ymm2, %ymm1, %ymm1
	vpermq	$216, %ymm1, %ymm1
	vpand	.LCPI9_1(%rip), %ymm1, %ymm1
	vpcmpeqb	.LCPI9_2(%rip), %ymm1, %ymm1
	vpmovmskb	%ymm1, %eax
	tzcntl	%eax, %eax
	leaq	(%rcx,%rax,2), %rax
	movq	%rsi, %rdx
	subq	%rax, %rdx
	cmpq	$2, %rdx
	jb	.LBB9_61
	movbew	(%rdi,%rax), %r8w
	movl	%r8d, %r9d
	andl	$63488, %r9d
	cmpl	$55296, %r9d
	jne	.LBB9_26
	notl	%r8d
	testl	$56320, %r8d
	sete	%r8b
	cmpq	$4, %rdx
	setb	%dl
	orb	%r8b, %dl
	jne	.LBB9_61
	movzbl	2(%rdi,%rax), %edx
	andb	$-4, %dl
	cmpb	$-36, %dl
	jne	.LBB9_61
.LBB9_26:
	xorl	%r8d, %r8d
	jmp	.LBB9_28
	.p2align	4
.LBB9_27:
	shrl	$31, %eax
	movl	%eax, %r8d
	cmpq	$63, %rdx
	jbe	.LBB9_44
.LBB9_28:
	vpand	32(%rdi,%rcx), %ymm0, %ymm1
	vpand	(%rdi,%rcx), %ymm0, %ymm2
	vpackuswb	%ymm1, %ymm2, %ymm1
	vpermq	$216, %ymm1, %ymm1
	vpand	.LCPI9_3(%rip), %ymm1, %ymm1
	vpcmpeqb	.LCPI9_2(%rip), %ymm1, %ymm2
	vpmovmskb	%ymm2, %eax
	vpcmpeqb	.LCPI9_4(%rip), %ymm1, %ymm1
	vpmovmskb	%ymm1, %edx
	movzbl	%r8b, %r9d
	andl	$1, %r9d
	leal	(%r9,%rax,2), %r9d
	cmpl	%edx, %r9d
	jne	.LBB9_43
	addq	$64, %rcx
	movq	%rsi, %rdx
	subq	%rcx, %rdx
	cmpq	$64, %rdx
	jb	.LBB9_27
	movzbl	%cl, %r8d
	testq	%r8, %r8
	jne	.LBB9_27
	testl	%eax, %eax
	jne	.LBB9_27
	.p2align	4
.LBB9_32:
	vpand	32(%rdi,%rcx), %ymm0, %ymm1
	vpand	(%rdi,%rcx), %ymm0, %ymm2
	vpackuswb	%ymm1, %ymm2, %ymm1
	vpermq	$216, %ymm1, %ymm1
	vpand	.LCPI9_1(%rip), %ymm1, %ymm1
	vpcmpeqb	.LCPI9_2(%rip), %ymm1, %ymm1
	vpmovmskb	%ymm1, %r8d
	testl	%r8d, %r8d
	jne	.LBB9_27
	addq	$64, %rcx
	addq	$-64, %rdx
	cmpq	$63, %rdx
	ja	.LBB9_32
.LBB9_34:
	xorl	%eax, %eax
.LBB9_45:
	cmpq	$32, %rdx
	jb	.LBB9_47
.LBB9_46:
	vmovdqu	(%rdi,%rcx), %ymm0
	vpand	.LCPI9_5(%rip), %ymm0, %ymm0
	vextracti128	$1, %ymm0, %xmm1
	vpackuswb	%xmm1, %xmm0, %xmm0
	vpand	.LCPI9_6(%rip), %xmm0, %xmm0
	vpcmpeqb	.LCPI9_7(%rip), %xmm0, %xmm1
	vpcmpeqb	.LCPI9_8(%rip), %xmm0, %xmm0
	vpmovmskb	%xmm1, %edx
	movl	%edx, %r8d
	vpmovmskb	%xmm0, %r9d
	movzbl	%al, %r10d
	movl	%r10d, %eax
	andl	$1, %eax
	andl	$32767, %edx
	leaq	(%rax,%rdx,2), %rdx
	leaq	32(%rcx), %rax
	cmpq	%r9, %rdx
	cmoveq	%rax, %rcx
	xorl	%eax, %eax
	testw	%r8w, %r8w
	sets	%al
	cmpl	%r9d, %edx
	cmovnel	%r10d, %eax
.LBB9_47:
	leaq	-2(%rcx), %rdx
	testb	$1, %al
	cmoveq	%rcx, %rdx
	movq	%rsi, %rax
	subq	%rdx, %rax
	cmpq	$32, %rax
	ja	.LBB9_51
	movq	%rdx, %rax
	subq	%rsi, %rax
	testb	$1, %al
	jne	.LBB9_53
	vmovdqu	-32(%rdi,%rsi), %ymm0
	addl	$32, %eax
	shrl	%eax
	vpand	.LCPI9_5(%rip), %ymm0, %ymm0
	vextracti128	$1, %ymm0, %xmm1
	vpackuswb	%xmm1, %xmm0, %xmm0
	vpand	.LCPI9_6(%rip), %xmm0, %xmm0
	vpcmpeqb	.LCPI9_8(%rip), %xmm0, %xmm1
	vpmovmskb	%xmm1, %ecx
	shrxq	%rax, %rcx, %rcx
	vpcmpeqb	.LCPI9_7(%rip), %xmm0, %xmm0
	vpmovmskb	%xmm0, %r8d
	shrxq	%rax, %r8, %rax
	addl	%eax, %eax
	cmpl	%eax, %ecx
	jne	.LBB9_53
	movq	%rsi, %rax
	vzeroupper
	retq
.LBB9_51:
	cmpq	$64, %rax
	jae	.LBB9_52
.LBB9_53:
	xorl	%ecx, %ecx
	addq	%rdx, %rcx
	cmpq	%rsi, %rcx
	jb	.LBB9_55
	jmp	.LBB9_60
.LBB9_52:
	vpbroadcastw	.LCPI9_0(%rip), %ymm0
	vpand	32(%rdi,%rdx), %ymm0, %ymm1
	vpand	(%rdi,%rdx), %ymm0, %ymm0
	vpackuswb	%ymm1, %ymm0, %ymm0
	vpermq	$216, %ymm0, %ymm0
	vpand	.LCPI9_1(%rip), %ymm0, %ymm0
	vpcmpeqb	.LCPI9_2(%rip), %ymm0, %ymm0
	vpmovmskb	%ymm0, %eax
	xorl	%ecx, %ecx
	tzcntl	%eax, %ecx
	addl	%ecx, %ecx
	addq	%rdx, %rcx
	cmpq	%rsi, %rcx
	jb	.LBB9_55
	jmp	.LBB9_60
	.p2align	4
.LBB9_54:
	addq	%rcx, %rax
	movq	%rax, %rcx
	cmpq	%rsi, %rax
	jae	.LBB9_61
.LBB9_55:
	movq	%rsi, %r8
	subq	%rcx, %r8
	cmpq	$2, %r8
	jb	.LBB9_60
	movbew	(%rdi,%rcx), %dx
	movl	%edx, %r9d
	andl	$63488, %r9d
	movl	$2, %eax
	cmpl	$55296, %r9d
	jne	.LBB9_54
	cmpq	$4, %r8
	jb	.LBB9_60
	andl	$56320, %edx
	movzwl	%dx, %eax
	cmpl	$56320, %eax
	je	.LBB9_60
	movzbl	2(%rdi,%rcx), %edx
	andb	$-4, %dl
	movl	$4, %eax
	cmpb	$-36, %dl
	je	.LBB9_54
.LBB9_60:
	movq	%rcx, %rax
.LBB9_61:
	vzeroupper
	retq
.LBB9_35:
	leaq	-256(%rsi), %rax
	xorl	%ecx, %ecx
	.p2align	4
.LBB9_36:
	addq	$64, %rcx
	cmpq	$256, %rcx
	je	.LBB9_39
.LBB9_37:
	movq	%rsi, %rdx
	subq	%rcx, %rdx
	cmpq	$63, %rdx
	jbe	.LBB9_34
	vmovdqu	(%rdi,%rcx), %ymm1
	vmovdqu	32(%rdi,%rcx), %ymm2
	vpand	%ymm0, %ymm2, %ymm3
	vpand	%ymm0, %ymm1, %ymm4
	vpackuswb	%ymm3, %ymm4, %ymm3
	vpermq	$216, %ymm3, %ymm3
	vpand	.LCPI9_1(%rip), %ymm3, %ymm3
	vpcmpeqb	.LCPI9_2(%rip), %ymm3, %ymm3
	vpmovmskb	%ymm3, %r8d
	testl	%r8d, %r8d
	je	.LBB9_36
	jmp	.LBB9_21
	.p2align	4
.LBB9_39:
	movl	$256, %ecx
	movq	%rax, %rdx
	.p2align	4
.LBB9_40:
	vpand	32(%rdi,%rcx), %ymm0, %ymm1
	vpand	(%rdi,%rcx), %ymm0, %ymm2
	vpackuswb	%ymm1, %ymm2, %ymm1
	vpermq	$216, %ymm1, %ymm1
	vpbroadcastd	.LCPI9_9(%rip), %ymm2
	vpand	%ymm2, %ymm1, %ymm1
	vpbroadcastd	.LCPI9_10(%rip), %ymm3
	vpand	96(%rdi,%rcx), %ymm0, %ymm4
	vpand	64(%rdi,%rcx), %ymm0, %ymm5
	vpcmpeqb	%ymm3, %ymm1, %ymm1
	vpackuswb	%ymm4, %ymm5, %ymm4
	vpermq	$216, %ymm4, %ymm4
	vpand	%ymm2, %ymm4, %ymm2
	vpcmpeqb	%ymm3, %ymm2, %ymm2
	vpor	%ymm2, %ymm1, %ymm1
	vpmovmskb	%ymm1, %r8d
	testl	%r8d, %r8d
	jne	.LBB9_37
	subq	$-128, %rcx
	addq	$-128, %rdx
	cmpq	$127, %rdx
	ja	.LBB9_40
	jmp	.LBB9_37
.LBB9_42:
	xorl	%eax, %eax
	movq	%r8, %rdx
	jmp	.LBB9_45
.LBB9_43:
	movl	%r8d, %eax
.LBB9_44:
	movq	%rsi, %rdx
	subq	%rcx, %rdx
	jmp	.LBB9_45
.Lfunc_end9:

	.section	.text$015,"xr"
	.p2align	4
L_10:
	cmpq	$2, %rsi
	jb	.LBB10_1
	movbew	(%rdi), %ax
	movl	%eax, %ecx
	andl	$63488, %ecx
	cmpl	$55296, %ecx
	jne	.LBB10_1
	notl	%eax
	testl	$56320, %eax
	jne	.LBB10_5
	movb	$2, %dl
	movb	$1, %al
	retq
.LBB10_5:
	cmpq	$4, %rsi
	jae	.LBB10_6
.LBB10_1:
	xorl	%eax, %eax
	xorl	%edx, %edx
	retq
.LBB10_6:
	movzbl	2(%rdi), %eax
	andb	$-4, %al
	cmpb	$-36, %al
	setne	%al
	leal	(%rax,%rax), %edx
	retq
.Lfunc_end10:

	.section	.rdata$000,"dr"
	.p2align	4, 0x0
.LCPI11_0:
	.zero	16,248
.LCPI11_1:
	.zero	16,216
.LCPI11_2:
	.byte	1
	.byte	3
	.byte	5
	.byte	7
	.byte	9
	.byte	11
	.byte	13
	.byte	15
	.zero	1
	.zero	1
	.zero	1
	.zero	1
	.zero	1
	.zero	1
	.zero	1
	.zero	1
.LCPI11_3:
	.byte	1
	.byte	3
	.byte	5
	.byte	7
	.zero	1
	.zero	1
	.zero	1
	.zero	1
	.zero	1
	.zero	1
	.zero	1
	.zero	1
	.zero	1
	.zero	1
	.zero	1
	.zero	1
.LCPI11_4:
	.byte	248
	.byte	248
	.byte	248
	.byte	248
	.zero	1
	.zero	1
	.zero	1
	.zero	1
	.zero	1
	.zero	1
	.zero	1
	.zero	1
	.zero	1
	.zero	1
	.zero	1
	.zero	1
.LCPI11_5:
	.byte	216
	.byte	216
	.byte	216
	.byte	216
	.zero	1
	.zero	1
	.zero	1
	.zero	1
	.zero	1
	.zero	1
	.zero	1
	.zero	1
	.zero	1
	.zero	1
	.zero	1
	.zero	1
	.section	.text$016,"xr"
	.p2align	4
L_11:
	cmpq	$2, %rsi
	jne	.LBB11_3
	movzbl	1(%rdi), %ecx
	andb	$-8, %cl
	movl	$2, %eax
.LBB11_2:
	cmpb	$-40, %cl
	je	L_12
	retq
.LBB11_3:
	cmpq	$7, %rsi
	ja	.LBB11_12
	testq	%rsi, %rsi
	je	.LBB11_23
	cmpq	$6, %rsi
	je	.LBB11_9
	cmpq	$4, %rsi
	jne	L_12
	movzbl	1(%rdi), %eax
	andb	$-8, %al
	cmpb	$-40, %al
	je	L_12
	movzbl	3(%rdi), %ecx
	andb	$-8, %cl
	movl	$4, %eax
	jmp	.LBB11_2
.LBB11_12:
	cmpq	$65, %rsi
	setae	%al
	movl	%esi, %ecx
	orb	%al, %cl
	testb	$1, %cl
	jne	L_12
	cmpq	$15, %rsi
	ja	.LBB11_17
	vmovq	(%rdi), %xmm0
	vpshufb	.LCPI11_3(%rip), %xmm0, %xmm0
	vpand	.LCPI11_4(%rip), %xmm0, %xmm0
	vpcmpeqb	.LCPI11_5(%rip), %xmm0, %xmm0
	vpmovsxbd	%xmm0, %xmm0
	vtestps	%xmm0, %xmm0
	jne	L_12
	vmovq	-8(%rdi,%rsi), %xmm0
	vpshufb	.LCPI11_3(%rip), %xmm0, %xmm0
	vpand	.LCPI11_4(%rip), %xmm0, %xmm0
	vpcmpeqb	.LCPI11_5(%rip), %xmm0, %xmm0
	vpmovsxbd	%xmm0, %xmm0
	vtestps	%xmm0, %xmm0
	jne	L_12
	jmp	.LBB11_23
.LBB11_17:
	cmpq	$31, %rsi
	ja	.LBB11_21
	vmovdqu	(%rdi), %xmm0
	vpshufb	.LCPI11_2(%rip), %xmm0, %xmm0
	vpand	.LCPI11_0(%rip), %xmm0, %xmm0
	vpcmpeqb	.LCPI11_1(%rip), %xmm0, %xmm0
	vpmovmskb	%xmm0, %eax
	testb	%al, %al
	jne	L_12
	vmovdqu	-16(%rdi,%rsi), %xmm0
	vpshufb	.LCPI11_2(%rip), %xmm0, %xmm0
	vpand	.LCPI11_0(%rip), %xmm0, %xmm0
	vpcmpeqb	.LCPI11_1(%rip), %xmm0, %xmm0
	vpmovmskb	%xmm0, %eax
	testb	%al, %al
	jne	L_12
	jmp	.LBB11_23
.LBB11_9:
	movzbl	1(%rdi), %eax
	andb	$-8, %al
	cmpb	$-40, %al
	je	L_12
	movzbl	3(%rdi), %eax
	andb	$-8, %al
	cmpb	$-40, %al
	je	L_12
	movzbl	5(%rdi), %ecx
	andb	$-8, %cl
	movl	$6, %eax
	jmp	.LBB11_2
.LBB11_21:
	vmovdqu	(%rdi), %ymm0
	vpsrlw	$8, %ymm0, %ymm0
	vextracti128	$1, %ymm0, %xmm1
	vpackuswb	%xmm1, %xmm0, %xmm0
	vpand	.LCPI11_0(%rip), %xmm0, %xmm0
	vpcmpeqb	.LCPI11_1(%rip), %xmm0, %xmm0
	vpmovmskb	%xmm0, %eax
	testl	%eax, %eax
	vzeroupper
	jne	L_12
	vmovdqu	-32(%rdi,%rsi), %ymm0
	vpsrlw	$8, %ymm0, %ymm0
	vextracti128	$1, %ymm0, %xmm1
	vpackuswb	%xmm1, %xmm0, %xmm0
	vpand	.LCPI11_0(%rip), %xmm0, %xmm0
	vpcmpeqb	.LCPI11_1(%rip), %xmm0, %xmm0
	vpmovmskb	%xmm0, %eax
	testl	%eax, %eax
	vzeroupper
	jne	L_12
.LBB11_23:
	movq	%rsi, %rax
	retq
.Lfunc_end11:

	.section	.rdata$003,"dr"
	.p2align	5, 0x0
.LCPI12_0:
	.zero	32,248
.LCPI12_1:
	.zero	32,216
.LCPI12_2:
	.zero	32,252
.LCPI12_3:
	.zero	32,220
	.section	.rdata$000,"dr"
	.p2align	4, 0x0
.LCPI12_4:
	.zero	16,252
.LCPI12_5:
	.zero	16,216
.LCPI12_6:
	.zero	16,220
	.section	.rdata$001,"dr"
	.p2align	2, 0x0
.LCPI12_7:
	.zero	4,248
.LCPI12_8:
	.zero	4,216
	.section	.text$017,"xr"
	.p2align	4
L_12:
	cmpq	$32, %rsi
	jae	.LBB12_9
	testq	%rsi, %rsi
	je	.LBB12_14
	xorl	%ecx, %ecx
	jmp	.LBB12_4
	.p2align	4
.LBB12_3:
	addq	%rcx, %rax
	movq	%rax, %rcx
	cmpq	%rsi, %rax
	jae	.LBB12_62
.LBB12_4:
	movq	%rsi, %rdx
	subq	%rcx, %rdx
	cmpq	$2, %rdx
	jb	.LBB12_61
	movzbl	1(%rdi,%rcx), %r8d
	movl	%r8d, %r9d
	andl	$-8, %r9d
	movl	$2, %eax
	cmpl	$216, %r9d
	jne	.LBB12_3
	cmpq	$4, %rdx
	jb	.LBB12_61
	movzwl	%r8w, %eax
	andl	$-36, %eax
	movzwl	%ax, %eax
	cmpl	$220, %eax
	je	.LBB12_61
	movzbl	3(%rdi,%rcx), %edx
	andb	$-4, %dl
	movl	$4, %eax
	cmpb	$-36, %dl
	je	.LBB12_3
	jmp	.LBB12_61
.LBB12_9:
	cmpq	$64, %rsi
	jb	.LBB12_13
	movq	%rsi, %rcx
	andq	$-128, %rcx
	vmovdqu	(%rdi), %ymm0
	vmovdqu	32(%rdi), %ymm1
	vpsrlw	$8, %ymm1, %ymm2
	vpsrlw	$8, %ymm0, %ymm3
	vpackuswb	%ymm2, %ymm3, %ymm2
	vpermq	$216, %ymm2, %ymm2
	vpand	.LCPI12_0(%rip), %ymm2, %ymm2
	vpcmpeqb	.LCPI12_1(%rip), %ymm2, %ymm2
	vpmovmskb	%ymm2, %eax
	cmpq	$256, %rcx
	jne	.LBB12_15
	testl	%eax, %eax
	je	.LBB12_17
	xorl	%ecx, %ecx
	jmp	.LBB12_22
.LBB12_13:
	xorl	%ecx, %ecx
	xorl	%eax, %eax
	jmp	.LBB12_47
.LBB12_14:
	xorl	%eax, %eax
	retq
.LBB12_15:
	testl	%eax, %eax
	je	.LBB12_36
	xorl	%ecx, %ecx
	movq	%rsi, %rdx
	jmp	.LBB12_21
.LBB12_17:
	movl	$64, %ecx
	movq	%rsi, %rdx
	.p2align	4
.LBB12_18:
	leaq	-64(%rdx), %r8
	cmpq	$63, %r8
	jbe	.LBB12_43
	vmovdqu	(%rdi,%rcx), %ymm0
	vmovdqu	32(%rdi,%rcx), %ymm1
	vpsrlw	$8, %ymm1, %ymm2
	vpsrlw	$8, %ymm0, %ymm3
	vpackuswb	%ymm2, %ymm3, %ymm2
	vpermq	$216, %ymm2, %ymm2
	vpand	.LCPI12_0(%rip), %ymm2, %ymm2
	vpcmpeqb	.LCPI12_1(%rip), %ymm2, %ymm2
	vpmovmskb	%ymm2, %eax
	addq	$64, %rcx
	addq	$-64, %rdx
	testl	%eax, %eax
	je	.LBB12_18
	addq	$-64, %rcx
.LBB12_21:
	cmpq	$64, %rdx
	je	.LBB12_27
.LBB12_22:
	vpsrlw	$8, %ymm0, %ymm0
	vpsrlw	$8, %ymm1, %ymm1
	vpackuswb	%ymm1, %ymm0, %ymm0
	vpermq	$216, %ymm0, %ymm0
	vpand	.LCPI12_0(%rip), %ymm0, %ymm0
	vpcmpeqb	.LCPI12_1(%rip), %ymm0, %ymm0
	vpmovmskb	%ymm0, %eax
	tzcntl	%eax, %eax
	leaq	(%rcx,%rax,2), %rax
	movq	%rsi, %rdx
	subq	%rax, %rdx
	cmpq	$2, %rdx
	jb	.LBB12_62
	movzbl	1(%rdi,%rax), %r8d
	movl	%r8d, %r9d
	andl	$-8, %r9d
	cmpl	$216, %r9d
	jne	.LBB12_27
	cmpq	$4, %rdx
	jb	.LBB12_62
	movzwl	%r8w, %edx
	andl	$-36, %edx
	movzwl	%dx, %edx
	cmpl	$220, %edx
	je	.LBB12_62
	movzbl	3(%rdi,%rax), %edx
	andb	$-4, %dl
	cmpb	$-36, %dl
	jne	.LBB12_62
.LBB12_27:
	xorl	%r8d, %r8d
	jmp	.LBB12_29
	.p2align	4
.LBB12_28:
	shrl	$31, %eax
	movl	%eax, %r8d
	cmpq	$63, %rdx
	jbe	.LBB12_45
.LBB12_29:
	vmovdqu	(%rdi,%rcx), %ymm0
	vmovdqu	32(%rdi,%rcx), %ymm1
	vpsrlw	$8, %ymm1, %ymm1
	vpsrlw	$8, %ymm0, %ymm0
	vpackuswb	%ymm1, %ymm0, %ymm0
	vpermq	$216, %ymm0, %ymm0
	vpand	.LCPI12_2(%rip), %ymm0, %ymm0
	vpcmpeqb	.LCPI12_1(%rip), %ymm0, %ymm1
	vpmovmskb	%ymm1, %eax
	vpcmpeqb	.LCPI12_3(%rip), %ymm0, %ymm0
	vpmovmskb	%ymm0, %edx
	movzbl	%r8b, %r9d
	andl	$1, %r9d
	leal	(%r9,%rax,2), %r9d
	cmpl	%edx, %r9d
	jne	.LBB12_44
	addq	$64, %rcx
	movq	%rsi, %rdx
	subq	%rcx, %rdx
	cmpq	$64, %rdx
	jb	.LBB12_28
	movzbl	%cl, %r8d
	testq	%r8, %r8
	jne	.LBB12_28
	testl	%eax, %eax
	jne	.LBB12_28
	.p2align	4
.LBB12_33:
	vmovdqu	(%rdi,%rcx), %ymm0
	vmovdqu	32(%rdi,%rcx), %ymm1
	vpsrlw	$8, %ymm1, %ymm1
	vpsrlw	$8, %ymm0, %ymm0
	vpackuswb	%ymm1, %ymm0, %ymm0
	vpermq	$216, %ymm0, %ymm0
	vpand	.LCPI12_0(%rip), %ymm0, %ymm0
	vpcmpeqb	.LCPI12_1(%rip), %ymm0, %ymm0
	vpmovmskb	%ymm0, %r8d
	testl	%r8d, %r8d
	jne	.LBB12_28
	addq	$64, %rcx
	addq	$-64, %rdx
	cmpq	$63, %rdx
	ja	.LBB12_33
.LBB12_35:
	xorl	%eax, %eax
.LBB12_46:
	cmpq	$32, %rdx
	jb	.LBB12_48
.LBB12_47:
	vmovdqu	(%rdi,%rcx), %ymm0
	vpsrlw	$8, %ymm0, %ymm0
	vextracti128	$1, %ymm0, %xmm1
	vpackuswb	%xmm1, %xmm0, %xmm0
	vpand	.LCPI12_4(%rip), %xmm0, %xmm0
	vpcmpeqb	.LCPI12_5(%rip), %xmm0, %xmm1
	vpcmpeqb	.LCPI12_6(%rip), %xmm0, %xmm0
	vpmovmskb	%xmm1, %edx
	movl	%edx, %r8d
	vpmovmskb	%xmm0, %r9d
	movzbl	%al, %r10d
	movl	%r10d, %eax
	andl	$1, %eax
	andl	$32767, %edx
	leaq	(%rax,%rdx,2), %rdx
	leaq	32(%rcx), %rax
	cmpq	%r9, %rdx
	cmoveq	%rax, %rcx
	xorl	%eax, %eax
	testw	%r8w, %r8w
	sets	%al
	cmpl	%r9d, %edx
	cmovnel	%r10d, %eax
.LBB12_48:
	leaq	-2(%rcx), %rdx
	testb	$1, %al
	cmoveq	%rcx, %rdx
	movq	%rsi, %rax
	subq	%rdx, %rax
	cmpq	$32, %rax
	ja	.LBB12_52
	movq	%rdx, %rax
	subq	%rsi, %rax
	testb	$1, %al
	jne	.LBB12_54
	vmovdqu	-32(%rdi,%rsi), %ymm0
	addl	$32, %eax
	shrl	%eax
	vpsrlw	$8, %ymm0, %ymm0
	vextracti128	$1, %ymm0, %xmm1
	vpackuswb	%xmm1, %xmm0, %xmm0
	vpand	.LCPI12_4(%rip), %xmm0, %xmm0
	vpcmpeqb	.LCPI12_6(%rip), %xmm0, %xmm1
	vpmovmskb	%xmm1, %ecx
	shrxq	%rax, %rcx, %rcx
	vpcmpeqb	.LCPI12_5(%rip), %xmm0, %xmm0
	vpmovmskb	%xmm0, %r8d
	shrxq	%rax, %r8, %rax
	addl	%eax, %eax
	cmpl	%eax, %ecx
	jne	.LBB12_54
	movq	%rsi, %rax
	vzeroupper
	retq
.LBB12_52:
	cmpq	$64, %rax
	jae	.LBB12_53
.LBB12_54:
	xorl	%ecx, %ecx
	addq	%rdx, %rcx
	cmpq	%rsi, %rcx
	jb	.LBB12_56
	jmp	.LBB12_61
.LBB12_53:
	vmovdqu	(%rdi,%rdx), %ymm0
	vmovdqu	32(%rdi,%rdx), %ymm1
	vpsrlw	$8, %ymm1, %ymm1
	vpsrlw	$8, %ymm0, %ymm0
	vpackuswb	%ymm1, %ymm0, %ymm0
	vpermq	$216, %ymm0, %ymm0
	vpand	.LCPI12_0(%rip), %ymm0, %ymm0
	vpcmpeqb	.LCPI12_1(%rip), %ymm0, %ymm0
	vpmovmskb	%ymm0, %eax
	xorl	%ecx, %ecx
	tzcntl	%eax, %ecx
	addl	%ecx, %ecx
	addq	%rdx, %rcx
	cmpq	%rsi, %rcx
	jb	.LBB12_56
	jmp	.LBB12_61
	.p2align	4
.LBB12_55:
	addq	%rcx, %rax
	movq	%rax, %rcx
	cmpq	%rsi, %rax
	jae	.LBB12_62
.LBB12_56:
	movq	%rsi, %rdx
	subq	%rcx, %rdx
	cmpq	$2, %rdx
	jb	.LBB12_61
	movzbl	1(%rdi,%rcx), %r8d
	movl	%r8d, %r9d
	andl	$-8, %r9d
	movl	$2, %eax
	cmpl	$216, %r9d
	jne	.LBB12_55
	cmpq	$4, %rdx
	jb	.LBB12_61
	movzwl	%r8w, %eax
	andl	$-36, %eax
	movzwl	%ax, %eax
	cmpl	$220, %eax
	je	.LBB12_61
	movzbl	3(%rdi,%rcx), %edx
	andb	$-4, %dl
	movl	$4, %eax
	cmpb	$-36, %dl
	je	.LBB12_55
.LBB12_61:
	movq	%rcx, %rax
.LBB12_62:
	vzeroupper
	retq
.LBB12_36:
	leaq	-256(%rsi), %rax
	xorl	%ecx, %ecx
	.p2align	4
.LBB12_37:
	addq	$64, %rcx
	cmpq	$256, %rcx
	je	.LBB12_40
.LBB12_38:
	movq	%rsi, %rdx
	subq	%rcx, %rdx
	cmpq	$63, %rdx
	jbe	.LBB12_35
	vmovdqu	(%rdi,%rcx), %ymm0
	vmovdqu	32(%rdi,%rcx), %ymm1
	vpsrlw	$8, %ymm1, %ymm2
	vpsrlw	$8, %ymm0, %ymm3
	vpackuswb	%ymm2, %ymm3, %ymm2
	vpermq	$216, %ymm2, %ymm2
	vpand	.LCPI12_0(%rip), %ymm2, %ymm2
	vpcmpeqb	.LCPI12_1(%rip), %ymm2, %ymm2
	vpmovmskb	%ymm2, %r8d
	testl	%r8d, %r8d
	je	.LBB12_37
	jmp	.LBB12_21
	.p2align	4
.LBB12_40:
	movl	$256, %ecx
	movq	%rax, %rdx
	.p2align	4
.LBB12_41:
	vmovdqu	(%rdi,%rcx), %ymm0
	vmovdqu	32(%rdi,%rcx), %ymm1
	vmovdqu	64(%rdi,%rcx), %ymm2
	vmovdqu	96(%rdi,%rcx), %ymm3
	vpsrlw	$8, %ymm1, %ymm1
	vpsrlw	$8, %ymm0, %ymm0
	vpackuswb	%ymm1, %ymm0, %ymm0
	vpermq	$216, %ymm0, %ymm0
	vpbroadcastd	.LCPI12_7(%rip), %ymm1
	vpand	%ymm1, %ymm0, %ymm0
	vpbroadcastd	.LCPI12_8(%rip), %ymm4
	vpcmpeqb	%ymm4, %ymm0, %ymm0
	vpsrlw	$8, %ymm3, %ymm3
	vpsrlw	$8, %ymm2, %ymm2
	vpackuswb	%ymm3, %ymm2, %ymm2
	vpermq	$216, %ymm2, %ymm2
	vpand	%ymm1, %ymm2, %ymm1
	vpcmpeqb	%ymm4, %ymm1, %ymm1
	vpor	%ymm1, %ymm0, %ymm0
	vpmovmskb	%ymm0, %r8d
	testl	%r8d, %r8d
	jne	.LBB12_38
	subq	$-128, %rcx
	addq	$-128, %rdx
	cmpq	$127, %rdx
	ja	.LBB12_41
	jmp	.LBB12_38
.LBB12_43:
	xorl	%eax, %eax
	movq	%r8, %rdx
	jmp	.LBB12_46
.LBB12_44:
	movl	%r8d, %eax
.LBB12_45:
	movq	%rsi, %rdx
	subq	%rcx, %rdx
	jmp	.LBB12_46
.Lfunc_end12:

	.section	.text$018,"xr"
	.p2align	4
L_13:
	cmpq	$2, %rsi
	jb	.LBB13_1
	movzbl	1(%rdi), %eax
	movl	%eax, %ecx
	andl	$-8, %ecx
	cmpl	$216, %ecx
	jne	.LBB13_1
	movzwl	%ax, %eax
	notl	%eax
	testb	$-36, %al
	jne	.LBB13_5
	movb	$2, %dl
	movb	$1, %al
	retq
.LBB13_5:
	cmpq	$4, %rsi
	jae	.LBB13_6
.LBB13_1:
	xorl	%eax, %eax
	xorl	%edx, %edx
	retq
.LBB13_6:
	movzbl	3(%rdi), %eax
	andb	$-4, %al
	cmpb	$-36, %al
	setne	%al
	leal	(%rax,%rax), %edx
	retq
.Lfunc_end13:

	.section	.text$019,"xr"
	.p2align	4
L_14:
	xorl	%eax, %eax
	testq	%rsi, %rsi
	je	.LBB14_2
	.p2align	4
.LBB14_1:
	movzwl	(%rdi), %ecx
	andl	$252, %ecx
	xorl	%edx, %edx
	cmpl	$216, %ecx
	sete	%dl
	leaq	2(,%rdx,2), %rcx
	leaq	(%rdi,%rdx,2), %rdi
	addq	$2, %rdi
	incq	%rax
	subq	%rcx, %rsi
	jne	.LBB14_1
.LBB14_2:
	retq
.Lfunc_end14:

	.section	.text$020,"xr"
	.p2align	4
L_15:
	xorl	%eax, %eax
	testq	%rsi, %rsi
	je	.LBB15_2
	.p2align	4
.LBB15_1:
	movzbl	1(%rdi), %ecx
	andb	$-4, %cl
	xorl	%edx, %edx
	cmpb	$-40, %cl
	sete	%dl
	leaq	2(,%rdx,2), %rcx
	leaq	(%rdi,%rdx,2), %rdi
	addq	$2, %rdi
	incq	%rax
	subq	%rcx, %rsi
	jne	.LBB15_1
.LBB15_2:
	retq
.Lfunc_end15:

	.section	.rdata$003,"dr"
	.p2align	5, 0x0
.LCPI16_0:
	.short	255
	.short	255
	.short	255
	.short	255
	.short	255
	.short	255
	.short	255
	.short	255
	.short	255
	.short	255
	.short	255
	.short	255
	.short	255
	.short	255
	.short	255
	.short	255
	.section	.rdata$000,"dr"
	.p2align	4, 0x0
.LCPI16_1:
	.zero	16,248
.LCPI16_2:
	.zero	16,216
.LCPI16_3:
	.byte	0
	.byte	2
	.byte	4
	.byte	6
	.byte	8
	.byte	10
	.byte	12
	.byte	14
	.zero	1
	.zero	1
	.zero	1
	.zero	1
	.zero	1
	.zero	1
	.zero	1
	.zero	1
.LCPI16_4:
	.byte	0
	.byte	2
	.byte	4
	.byte	6
	.zero	1
	.zero	1
	.zero	1
	.zero	1
	.zero	1
	.zero	1
	.zero	1
	.zero	1
	.zero	1
	.zero	1
	.zero	1
	.zero	1
.LCPI16_5:
	.byte	248
	.byte	248
	.byte	248
	.byte	248
	.zero	1
	.zero	1
	.zero	1
	.zero	1
	.zero	1
	.zero	1
	.zero	1
	.zero	1
	.zero	1
	.zero	1
	.zero	1
	.zero	1
.LCPI16_6:
	.byte	216
	.byte	216
	.byte	216
	.byte	216
	.zero	1
	.zero	1
	.zero	1
	.zero	1
	.zero	1
	.zero	1
	.zero	1
	.zero	1
	.zero	1
	.zero	1
	.zero	1
	.zero	1
	.section	.text$021,"xr"
	.p2align	4
L_16:
	pushq	%rbp
	pushq	%r15
	pushq	%r14
	pushq	%r13
	pushq	%r12
	pushq	%rbx
	pushq	%rax
	movq	%rsi, %r14
	movq	%rdi, %r13
	xorl	%ebx, %ebx
	cmpq	$2, %r14
	jne	.LBB16_4
	.p2align	4
.LBB16_2:
	movzbl	(%r13), %eax
.LBB16_3:
	andb	$-8, %al
	cmpb	$-40, %al
	jne	.LBB16_23
.LBB16_22:
	movq	%r13, %rdi
	movq	%r14, %rsi
	vzeroupper
	callq	L_9
	movq	%r14, %rsi
	subq	%rax, %rsi
	je	.LBB16_23
	movq	%rax, %r12
	movq	%rbx, (%rsp)
	movq	%r13, %rbx
	addq	%rax, %r13
	movq	%r13, %rdi
	callq	L_10
	movl	%eax, %r15d
	movl	%edx, %ebp
	movq	%rbx, %rdi
	movq	(%rsp), %rbx
	movq	%r12, %rsi
	callq	L_17
	addq	%rax, %rbx
	addq	$3, %rbx
	cmpb	$1, %r15b
	jne	.LBB16_24
	movzbl	%bpl, %eax
	addq	%rax, %r13
	addq	%rax, %r12
	subq	%r12, %r14
	cmpq	$2, %r14
	je	.LBB16_2
.LBB16_4:
	cmpq	$7, %r14
	ja	.LBB16_13
	cmpq	$4, %r14
	je	.LBB16_8
	cmpq	$6, %r14
	je	.LBB16_10
	testq	%r14, %r14
	jne	.LBB16_22
	jmp	.LBB16_23
	.p2align	4
.LBB16_13:
	cmpq	$65, %r14
	setae	%al
	movl	%r14d, %ecx
	orb	%al, %cl
	testb	$1, %cl
	jne	.LBB16_22
	cmpq	$15, %r14
	ja	.LBB16_17
	vmovq	(%r13), %xmm0
	vpshufb	.LCPI16_4(%rip), %xmm0, %xmm0
	vpand	.LCPI16_5(%rip), %xmm0, %xmm0
	vpcmpeqb	.LCPI16_6(%rip), %xmm0, %xmm0
	vpmovsxbd	%xmm0, %xmm0
	vtestps	%xmm0, %xmm0
	jne	.LBB16_22
	vmovq	-8(%r13,%r14), %xmm0
	vpshufb	.LCPI16_4(%rip), %xmm0, %xmm0
	vpand	.LCPI16_5(%rip), %xmm0, %xmm0
	vpcmpeqb	.LCPI16_6(%rip), %xmm0, %xmm0
	vpmovsxbd	%xmm0, %xmm0
	vtestps	%xmm0, %xmm0
	jne	.LBB16_22
	jmp	.LBB16_23
.LBB16_10:
	movzbl	(%r13), %eax
	andb	$-8, %al
	cmpb	$-40, %al
	je	.LBB16_22
	movzbl	2(%r13), %eax
	andb	$-8, %al
	cmpb	$-40, %al
	je	.LBB16_22
	movzbl	4(%r13), %eax
	jmp	.LBB16_3
.LBB16_8:
	movzbl	(%r13), %eax
	andb	$-8, %al
	cmpb	$-40, %al
	je	.LBB16_22
	movzbl	2(%r13), %eax
	jmp	.LBB16_3
.LBB16_17:
	cmpq	$31, %r14
	ja	.LBB16_20
	vmovdqu	(%r13), %xmm0
	vpshufb	.LCPI16_3(%rip), %xmm0, %xmm0
	vpand	.LCPI16_1(%rip), %xmm0, %xmm0
	vpcmpeqb	.LCPI16_2(%rip), %xmm0, %xmm0
	vpmovmskb	%xmm0, %eax
	testb	%al, %al
	jne	.LBB16_22
	vmovdqu	-16(%r13,%r14), %xmm0
	vpshufb	.LCPI16_3(%rip), %xmm0, %xmm0
	vpand	.LCPI16_1(%rip), %xmm0, %xmm0
	vpcmpeqb	.LCPI16_2(%rip), %xmm0, %xmm0
	vpmovmskb	%xmm0, %eax
	testb	%al, %al
	jne	.LBB16_22
	jmp	.LBB16_23
.LBB16_20:
	vmovdqu	(%r13), %ymm0
	vpand	.LCPI16_0(%rip), %ymm0, %ymm0
	vextracti128	$1, %ymm0, %xmm1
	vpackuswb	%xmm1, %xmm0, %xmm0
	vpand	.LCPI16_1(%rip), %xmm0, %xmm0
	vpcmpeqb	.LCPI16_2(%rip), %xmm0, %xmm0
	vpmovmskb	%xmm0, %eax
	testl	%eax, %eax
	jne	.LBB16_22
	vmovdqu	-32(%r13,%r14), %ymm0
	vpand	.LCPI16_0(%rip), %ymm0, %ymm0
	vextracti128	$1, %ymm0, %xmm1
	vpackuswb	%xmm1, %xmm0, %xmm0
	vpand	.LCPI16_1(%rip), %xmm0, %xmm0
	vpcmpeqb	.LCPI16_2(%rip), %xmm0, %xmm0
	vpmovmskb	%xmm0, %eax
	testl	%eax, %eax
	jne	.LBB16_22
.LBB16_23:
	movq	%r13, %rdi
	movq	%r14, %rsi
	vzeroupper
	callq	L_17
	addq	%rax, %rbx
.LBB16_24:
	movq	%rbx, %rax
	addq	$8, %rsp
	popq	%rbx
	popq	%r12
	popq	%r13
	popq	%r14
	popq	%r15
	popq	%rbp
	retq
.Lfunc_end16:

	.section	.rdata$003,"dr"
	.p2align	5, 0x0
.LCPI17_0:
	.byte	1
	.byte	0
	.byte	3
	.byte	2
	.byte	5
	.byte	4
	.byte	7
	.byte	6
	.byte	9
	.byte	8
	.byte	11
	.byte	10
	.byte	13
	.byte	12
	.byte	15
	.byte	14
	.byte	1
	.byte	0
	.byte	3
	.byte	2
	.byte	5
	.byte	4
	.byte	7
	.byte	6
	.byte	9
	.byte	8
	.byte	11
	.byte	10
	.byte	13
	.byte	12
	.byte	15
	.byte	14
.LCPI17_1:
	.short	65408
	.short	65408
	.short	65408
	.short	65408
	.short	65408
	.short	65408
	.short	65408
	.short	65408
	.short	65408
	.short	65408
	.short	65408
	.short	65408
	.short	65408
	.short	65408
	.short	65408
	.short	65408
.LCPI17_2:
	.zero	32,248
.LCPI17_3:
	.zero	32,216
.LCPI17_4:
	.short	127
	.short	127
	.short	127
	.short	127
	.short	127
	.short	127
	.short	127
	.short	127
	.short	127
	.short	127
	.short	127
	.short	127
	.short	127
	.short	127
	.short	127
	.short	127
	.section	.rdata$001,"dr"
	.p2align	2, 0x0
.LCPI17_5:
	.short	127
	.short	127
	.section	.rdata$000,"dr"
	.p2align	4, 0x0
.LCPI17_6:
	.byte	1
	.byte	0
	.byte	3
	.byte	2
	.byte	5
	.byte	4
	.byte	7
	.byte	6
	.byte	9
	.byte	8
	.byte	11
	.byte	10
	.byte	13
	.byte	12
	.byte	15
	.byte	14
	.section	.text$022,"xr"
	.p2align	4
L_17:
	pushq	%rbp
	movq	%rsp, %rbp
	pushq	%r14
	pushq	%rbx
	andq	$-64, %rsp
	subq	$128, %rsp
	movq	%rsi, %rbx
	movq	%rdi, %rsi
	cmpq	$64, %rbx
	jb	.LBB17_1
	xorl	%eax, %eax
	movq	%rbx, %rdx
	xorl	%r14d, %r14d
	jmp	.LBB17_3
	.p2align	4
.LBB17_5:
	vpsrlw	$8, %ymm1, %ymm2
	vpsrlw	$8, %ymm0, %ymm3
	vpackuswb	%ymm3, %ymm2, %ymm2
	vpermq	$216, %ymm2, %ymm2
	vpand	.LCPI17_2(%rip), %ymm2, %ymm2
	vpxor	%xmm3, %xmm3, %xmm3
	vpcmpeqb	%ymm3, %ymm2, %ymm3
	vpmovmskb	%ymm3, %ecx
	vpcmpeqb	.LCPI17_3(%rip), %ymm2, %ymm2
	popcntl	%ecx, %ecx
	vpmovmskb	%ymm2, %edi
	popcntl	%edi, %edi
	vpbroadcastd	.LCPI17_5(%rip), %ymm2
	vpminuw	%ymm2, %ymm1, %ymm3
	vpcmpeqw	%ymm3, %ymm1, %ymm1
	vpminuw	%ymm2, %ymm0, %ymm2
	vpcmpeqw	%ymm2, %ymm0, %ymm0
	vpacksswb	%ymm0, %ymm1, %ymm0
	vpermq	$216, %ymm0, %ymm0
	vpmovmskb	%ymm0, %r8d
	popcntl	%r8d, %r8d
	addl	%edi, %r8d
	addl	%ecx, %r8d
	movl	$96, %ecx
	subq	%r8, %rcx
.LBB17_6:
	addq	%rcx, %r14
	addq	$64, %rax
	addq	$-64, %rdx
	cmpq	$63, %rdx
	jbe	.LBB17_7
.LBB17_3:
	vmovdqu	(%rsi,%rax), %ymm1
	vmovdqu	32(%rsi,%rax), %ymm0
	vbroadcasti128	.LCPI17_6(%rip), %ymm2
	vpshufb	%ymm2, %ymm0, %ymm0
	vpshufb	%ymm2, %ymm1, %ymm1
	vpor	%ymm0, %ymm1, %ymm2
	vptest	.LCPI17_1(%rip), %ymm2
	jne	.LBB17_5
	movl	$32, %ecx
	jmp	.LBB17_6
.LBB17_1:
	xorl	%r14d, %r14d
	xorl	%eax, %eax
	movq	%rbx, %rdx
.LBB17_7:
	addq	%rax, %rsi
	vpxor	%xmm0, %xmm0, %xmm0
	vmovdqa	%ymm0, 32(%rsp)
	vmovdqa	%ymm0, (%rsp)
	movq	%rsp, %rdi
	vzeroupper
	callq	sysv_memcpy
	vbroadcasti128	.LCPI17_6(%rip), %ymm1
	vmovdqa	(%rsp), %ymm2
	vmovdqa	32(%rsp), %ymm0
	vpshufb	%ymm1, %ymm0, %ymm0
	vpshufb	%ymm1, %ymm2, %ymm1
	vpor	%ymm0, %ymm1, %ymm2
	vptest	.LCPI17_1(%rip), %ymm2
	je	.LBB17_8
	vpsrlw	$8, %ymm1, %ymm2
	vpsrlw	$8, %ymm0, %ymm3
	vpackuswb	%ymm3, %ymm2, %ymm2
	vpermq	$216, %ymm2, %ymm2
	vpand	.LCPI17_2(%rip), %ymm2, %ymm2
	vpxor	%xmm3, %xmm3, %xmm3
	vpcmpeqb	%ymm3, %ymm2, %ymm3
	vpmovmskb	%ymm3, %eax
	vpcmpeqb	.LCPI17_3(%rip), %ymm2, %ymm2
	popcntl	%eax, %eax
	vpmovmskb	%ymm2, %ecx
	popcntl	%ecx, %ecx
	vpbroadcastd	.LCPI17_5(%rip), %ymm2
	vpminuw	%ymm2, %ymm1, %ymm3
	vpcmpeqw	%ymm3, %ymm1, %ymm1
	vpminuw	%ymm2, %ymm0, %ymm2
	vpcmpeqw	%ymm2, %ymm0, %ymm0
	vpacksswb	%ymm0, %ymm1, %ymm0
	vpermq	$216, %ymm0, %ymm0
	vpmovmskb	%ymm0, %edx
	popcntl	%edx, %edx
	addl	%ecx, %edx
	addl	%eax, %edx
	movl	$96, %eax
	subq	%rdx, %rax
	jmp	.LBB17_10
.LBB17_8:
	movl	$32, %eax
.LBB17_10:
	addq	%rax, %r14
	shrl	%ebx
	orq	$-32, %rbx
	addq	%r14, %rbx
	movq	%rbx, %rax
	leaq	-16(%rbp), %rsp
	popq	%rbx
	popq	%r14
	popq	%rbp
	vzeroupper
	retq
.Lfunc_end17:

	.section	.rdata$000,"dr"
	.p2align	4, 0x0
.LCPI18_0:
	.zero	16,248
.LCPI18_1:
	.zero	16,216
.LCPI18_2:
	.byte	1
	.byte	3
	.byte	5
	.byte	7
	.byte	9
	.byte	11
	.byte	13
	.byte	15
	.zero	1
	.zero	1
	.zero	1
	.zero	1
	.zero	1
	.zero	1
	.zero	1
	.zero	1
.LCPI18_3:
	.byte	1
	.byte	3
	.byte	5
	.byte	7
	.zero	1
	.zero	1
	.zero	1
	.zero	1
	.zero	1
	.zero	1
	.zero	1
	.zero	1
	.zero	1
	.zero	1
	.zero	1
	.zero	1
.LCPI18_4:
	.byte	248
	.byte	248
	.byte	248
	.byte	248
	.zero	1
	.zero	1
	.zero	1
	.zero	1
	.zero	1
	.zero	1
	.zero	1
	.zero	1
	.zero	1
	.zero	1
	.zero	1
	.zero	1
.LCPI18_5:
	.byte	216
	.byte	216
	.byte	216
	.byte	216
	.zero	1
	.zero	1
	.zero	1
	.zero	1
	.zero	1
	.zero	1
	.zero	1
	.zero	1
	.zero	1
	.zero	1
	.zero	1
	.zero	1
	.section	.text$023,"xr"
	.p2align	4
L_18:
	pushq	%rbp
	pushq	%r15
	pushq	%r14
	pushq	%r13
	pushq	%r12
	pushq	%rbx
	pushq	%rax
	movq	%rsi, %r14
	movq	%rdi, %r13
	xorl	%ebx, %ebx
	cmpq	$2, %r14
	jne	.LBB18_4
	.p2align	4
.LBB18_2:
	movzbl	1(%r13), %eax
.LBB18_3:
	andb	$-8, %al
	cmpb	$-40, %al
	jne	.LBB18_23
.LBB18_22:
	movq	%r13, %rdi
	movq	%r14, %rsi
	vzeroupper
	callq	L_12
	movq	%r14, %rsi
	subq	%rax, %rsi
	je	.LBB18_23
	movq	%rax, %r12
	movq	%rbx, (%rsp)
	movq	%r13, %rbx
	addq	%rax, %r13
	movq	%r13, %rdi
	callq	L_13
	movl	%eax, %r15d
	movl	%edx, %ebp
	movq	%rbx, %rdi
	movq	(%rsp), %rbx
	movq	%r12, %rsi
	callq	L_19
	addq	%rax, %rbx
	addq	$3, %rbx
	cmpb	$1, %r15b
	jne	.LBB18_24
	movzbl	%bpl, %eax
	addq	%rax, %r13
	addq	%rax, %r12
	subq	%r12, %r14
	cmpq	$2, %r14
	je	.LBB18_2
.LBB18_4:
	cmpq	$7, %r14
	ja	.LBB18_13
	cmpq	$4, %r14
	je	.LBB18_8
	cmpq	$6, %r14
	je	.LBB18_10
	testq	%r14, %r14
	jne	.LBB18_22
	jmp	.LBB18_23
	.p2align	4
.LBB18_13:
	cmpq	$65, %r14
	setae	%al
	movl	%r14d, %ecx
	orb	%al, %cl
	testb	$1, %cl
	jne	.LBB18_22
	cmpq	$15, %r14
	ja	.LBB18_17
	vmovq	(%r13), %xmm0
	vpshufb	.LCPI18_3(%rip), %xmm0, %xmm0
	vpand	.LCPI18_4(%rip), %xmm0, %xmm0
	vpcmpeqb	.LCPI18_5(%rip), %xmm0, %xmm0
	vpmovsxbd	%xmm0, %xmm0
	vtestps	%xmm0, %xmm0
	jne	.LBB18_22
	vmovq	-8(%r13,%r14), %xmm0
	vpshufb	.LCPI18_3(%rip), %xmm0, %xmm0
	vpand	.LCPI18_4(%rip), %xmm0, %xmm0
	vpcmpeqb	.LCPI18_5(%rip), %xmm0, %xmm0
	vpmovsxbd	%xmm0, %xmm0
	vtestps	%xmm0, %xmm0
	jne	.LBB18_22
	jmp	.LBB18_23
.LBB18_10:
	movzbl	1(%r13), %eax
	andb	$-8, %al
	cmpb	$-40, %al
	je	.LBB18_22
	movzbl	3(%r13), %eax
	andb	$-8, %al
	cmpb	$-40, %al
	je	.LBB18_22
	movzbl	5(%r13), %eax
	jmp	.LBB18_3
.LBB18_8:
	movzbl	1(%r13), %eax
	andb	$-8, %al
	cmpb	$-40, %al
	je	.LBB18_22
	movzbl	3(%r13), %eax
	jmp	.LBB18_3
.LBB18_17:
	cmpq	$31, %r14
	ja	.LBB18_20
	vmovdqu	(%r13), %xmm0
	vpshufb	.LCPI18_2(%rip), %xmm0, %xmm0
	vpand	.LCPI18_0(%rip), %xmm0, %xmm0
	vpcmpeqb	.LCPI18_1(%rip), %xmm0, %xmm0
	vpmovmskb	%xmm0, %eax
	testb	%al, %al
	jne	.LBB18_22
	vmovdqu	-16(%r13,%r14), %xmm0
	vpshufb	.LCPI18_2(%rip), %xmm0, %xmm0
	vpand	.LCPI18_0(%rip), %xmm0, %xmm0
	vpcmpeqb	.LCPI18_1(%rip), %xmm0, %xmm0
	vpmovmskb	%xmm0, %eax
	testb	%al, %al
	jne	.LBB18_22
	jmp	.LBB18_23
.LBB18_20:
	vmovdqu	(%r13), %ymm0
	vpsrlw	$8, %ymm0, %ymm0
	vextracti128	$1, %ymm0, %xmm1
	vpackuswb	%xmm1, %xmm0, %xmm0
	vpand	.LCPI18_0(%rip), %xmm0, %xmm0
	vpcmpeqb	.LCPI18_1(%rip), %xmm0, %xmm0
	vpmovmskb	%xmm0, %eax
	testl	%eax, %eax
	jne	.LBB18_22
	vmovdqu	-32(%r13,%r14), %ymm0
	vpsrlw	$8, %ymm0, %ymm0
	vextracti128	$1, %ymm0, %xmm1
	vpackuswb	%xmm1, %xmm0, %xmm0
	vpand	.LCPI18_0(%rip), %xmm0, %xmm0
	vpcmpeqb	.LCPI18_1(%rip), %xmm0, %xmm0
	vpmovmskb	%xmm0, %eax
	testl	%eax, %eax
	jne	.LBB18_22
.LBB18_23:
	movq	%r13, %rdi
	movq	%r14, %rsi
	vzeroupper
	callq	L_19
	addq	%rax, %rbx
.LBB18_24:
	movq	%rbx, %rax
	addq	$8, %rsp
	popq	%rbx
	popq	%r12
	popq	%r13
	popq	%r14
	popq	%r15
	popq	%rbp
	retq
.Lfunc_end18:

	.section	.rdata$003,"dr"
	.p2align	5, 0x0
.LCPI19_0:
	.short	65408
	.short	65408
	.short	65408
	.short	65408
	.short	65408
	.short	65408
	.short	65408
	.short	65408
	.short	65408
	.short	65408
	.short	65408
	.short	65408
	.short	65408
	.short	65408
	.short	65408
	.short	65408
.LCPI19_1:
	.zero	32,248
.LCPI19_2:
	.zero	32,216
.LCPI19_3:
	.short	127
	.short	127
	.short	127
	.short	127
	.short	127
	.short	127
	.short	127
	.short	127
	.short	127
	.short	127
	.short	127
	.short	127
	.short	127
	.short	127
	.short	127
	.short	127
	.section	.rdata$001,"dr"
	.p2align	2, 0x0
.LCPI19_4:
	.short	127
	.short	127
	.section	.text$024,"xr"
	.p2align	4
L_19:
	pushq	%rbp
	movq	%rsp, %rbp
	pushq	%r14
	pushq	%rbx
	andq	$-64, %rsp
	subq	$128, %rsp
	movq	%rsi, %rbx
	movq	%rdi, %rsi
	cmpq	$64, %rbx
	jb	.LBB19_1
	xorl	%eax, %eax
	movq	%rbx, %rdx
	xorl	%r14d, %r14d
	jmp	.LBB19_3
	.p2align	4
.LBB19_5:
	vpsrlw	$8, %ymm1, %ymm2
	vpsrlw	$8, %ymm0, %ymm3
	vpackuswb	%ymm3, %ymm2, %ymm2
	vpermq	$216, %ymm2, %ymm2
	vpand	.LCPI19_1(%rip), %ymm2, %ymm2
	vpxor	%xmm3, %xmm3, %xmm3
	vpcmpeqb	%ymm3, %ymm2, %ymm3
	vpmovmskb	%ymm3, %ecx
	vpcmpeqb	.LCPI19_2(%rip), %ymm2, %ymm2
	popcntl	%ecx, %ecx
	vpmovmskb	%ymm2, %edi
	popcntl	%edi, %edi
	vpbroadcastd	.LCPI19_4(%rip), %ymm2
	vpminuw	%ymm2, %ymm1, %ymm3
	vpcmpeqw	%ymm3, %ymm1, %ymm1
	vpminuw	%ymm2, %ymm0, %ymm2
	vpcmpeqw	%ymm2, %ymm0, %ymm0
	vpacksswb	%ymm0, %ymm1, %ymm0
	vpermq	$216, %ymm0, %ymm0
	vpmovmskb	%ymm0, %r8d
	popcntl	%r8d, %r8d
	addl	%edi, %r8d
	addl	%ecx, %r8d
	movl	$96, %ecx
	subq	%r8, %rcx
.LBB19_6:
	addq	%rcx, %r14
	addq	$64, %rax
	addq	$-64, %rdx
	cmpq	$63, %rdx
	jbe	.LBB19_7
.LBB19_3:
	vmovdqu	(%rsi,%rax), %ymm1
	vmovdqu	32(%rsi,%rax), %ymm0
	vpor	%ymm0, %ymm1, %ymm2
	vptest	.LCPI19_0(%rip), %ymm2
	jne	.LBB19_5
	movl	$32, %ecx
	jmp	.LBB19_6
.LBB19_1:
	xorl	%r14d, %r14d
	xorl	%eax, %eax
	movq	%rbx, %rdx
.LBB19_7:
	addq	%rax, %rsi
	vpxor	%xmm0, %xmm0, %xmm0
	vmovdqa	%ymm0, 32(%rsp)
	vmovdqa	%ymm0, (%rsp)
	movq	%rsp, %rdi
	vzeroupper
	callq	sysv_memcpy
	vmovdqa	(%rsp), %ymm0
	vpor	32(%rsp), %ymm0, %ymm0
	vptest	.LCPI19_0(%rip), %ymm0
	je	.LBB19_8
	vmovdqa	32(%rsp), %ymm0
	vmovdqa	(%rsp), %ymm1
	vpsrlw	$8, %ymm1, %ymm2
	vpsrlw	$8, %ymm0, %ymm3
	vpackuswb	%ymm3, %ymm2, %ymm2
	vpermq	$216, %ymm2, %ymm2
	vpand	.LCPI19_1(%rip), %ymm2, %ymm2
	vpxor	%xmm3, %xmm3, %xmm3
	vpcmpeqb	%ymm3, %ymm2, %ymm3
	vpmovmskb	%ymm3, %eax
	vpcmpeqb	.LCPI19_2(%rip), %ymm2, %ymm2
	popcntl	%eax, %eax
	vpmovmskb	%ymm2, %ecx
	popcntl	%ecx, %ecx
	vpbroadcastd	.LCPI19_4(%rip), %ymm2
	vpminuw	%ymm2, %ymm1, %ymm3
	vpcmpeqw	%ymm3, %ymm1, %ymm1
	vpminuw	%ymm2, %ymm0, %ymm2
	vpcmpeqw	%ymm2, %ymm0, %ymm0
	vpacksswb	%ymm0, %ymm1, %ymm0
	vpermq	$216, %ymm0, %ymm0
	vpmovmskb	%ymm0, %edx
	popcntl	%edx, %edx
	addl	%ecx, %edx
	addl	%eax, %edx
	movl	$96, %eax
	subq	%rdx, %rax
	jmp	.LBB19_10
.LBB19_8:
	movl	$32, %eax
.LBB19_10:
	addq	%rax, %r14
	shrl	%ebx
	orq	$-32, %rbx
	addq	%r14, %rbx
	movq	%rbx, %rax
	leaq	-16(%rbp), %rsp
	popq	%rbx
	popq	%r14
	popq	%rbp
	vzeroupper
	retq
.Lfunc_end19:

	.section	.text$025,"xr"
	.p2align	4
L_20:
	pushq	%rbp
	movq	%rsp, %rbp
	pushq	%r15
	pushq	%r14
	pushq	%r13
	pushq	%r12
	pushq	%rbx
	andq	$-32, %rsp
	subq	$128, %rsp
	vpxor	%xmm0, %xmm0, %xmm0
	vmovdqa	%ymm0, 32(%rsp)
	testq	%rdx, %rdx
	je	.LBB20_3
	cmpq	$1, %rdx
	jne	.LBB20_4
	movzbl	(%rsi), %r12d
	movb	$1, %cl
	xorl	%eax, %eax
	jmp	.LBB20_32
.LBB20_3:
	vmovq	%rdx, %xmm0
	vpbroadcastq	%xmm0, %ymm0
	xorl	%ecx, %ecx
	xorl	%r12d, %r12d
	xorl	%eax, %eax
	jmp	.LBB20_32
.LBB20_4:
	movzbl	(%rsi), %r8d
	movzbl	1(%rsi), %r9d
	leaq	.Lstatic.3(%rip), %rcx
	movzbl	(%r9,%rcx), %eax
	cmpb	(%r8,%rcx), %al
	jae	.LBB20_21
	movb	$1, %al
	xorl	%r15d, %r15d
	movl	%r8d, %r10d
	movl	%r9d, %r8d
	cmpq	$2, %rdx
	je	.LBB20_22
	jmp	.LBB20_6
.LBB20_21:
	movb	$1, %r15b
	xorl	%eax, %eax
	movl	%r9d, %r10d
	cmpq	$2, %rdx
	je	.LBB20_22
.LBB20_6:
	cmpq	$255, %rdx
	movl	$255, %ebx
	cmovbq	%rdx, %rbx
	movl	$2, %r9d
	cmpq	$3, %rdx
	je	.LBB20_19
	movq	%rbx, 24(%rsp)
	andl	$254, %ebx
	movb	$3, %r14b
	jmp	.LBB20_9
	.p2align	4
.LBB20_8:
	movl	%eax, %r15d
	movl	%r12d, %r10d
	movl	%r14d, %eax
	addq	$2, %r9
	addb	$2, %r14b
	cmpq	%r9, %rbx
	je	.LBB20_18
.LBB20_9:
	movzbl	(%rsi,%r9), %r12d
	movzbl	(%r12,%rcx), %r13d
	movzbl	%r8b, %r11d
	cmpb	(%r11,%rcx), %r13b
	jae	.LBB20_11
	movl	%eax, %r15d
	movl	%r8d, %r10d
	movl	%r9d, %eax
	jmp	.LBB20_14
	.p2align	4
.LBB20_11:
	cmpb	%r8b, %r12b
	je	.LBB20_13
	movzbl	%r10b, %r11d
	cmpb	(%r11,%rcx), %r13b
	movzbl	%r15b, %r15d
	cmovbl	%r9d, %r15d
	movzbl	%r12b, %r10d
	cmovael	%r11d, %r10d
.LBB20_13:
	movl	%r8d, %r12d
.LBB20_14:
	movzbl	1(%rsi,%r9), %r8d
	movzbl	(%r8,%rcx), %r13d
	movzbl	%r12b, %r11d
	cmpb	(%r11,%rcx), %r13b
	jb	.LBB20_8
	cmpb	%r12b, %r8b
	je	.LBB20_17
	movzbl	%r10b, %r11d
	cmpb	(%r11,%rcx), %r13b
	movzbl	%r14b, %r10d
	movzbl	%r15b, %r15d
	cmovbl	%r10d, %r15d
	movzbl	%r8b, %r10d
	cmovael	%r11d, %r10d
.LBB20_17:
	movl	%r12d, %r8d
	addq	$2, %r9
	addb	$2, %r14b
	cmpq	%r9, %rbx
	jne	.LBB20_9
.LBB20_18:
	movl	%eax, %ebx
	testb	$1, 24(%rsp)
	je	.LBB20_23
.LBB20_19:
	movzbl	(%rsi,%r9), %ebx
	movzbl	(%rbx,%rcx), %r11d
	movzbl	%r8b, %r14d
	cmpb	(%r14,%rcx), %r11b
	jae	.LBB20_33
	movl	%r9d, %ebx
	movl	%eax, %r15d
	jmp	.LBB20_23
.LBB20_33:
	cmpb	%r8b, %bl
	je	.LBB20_22
	movzbl	%r10b, %r8d
	cmpb	(%r8,%rcx), %r11b
	movzbl	%r15b, %r15d
	cmovbl	%r9d, %r15d
.LBB20_22:
	movl	%eax, %ebx
.LBB20_23:
	movzbl	%bl, %r12d
	movzbl	(%rsi,%r12), %r8d
	movzbl	%r15b, %eax
	cmpb	%r8b, (%rsi,%rax)
	jne	.LBB20_27
	cmpq	$255, %rdx
	movl	$255, %r9d
	cmovbq	%rdx, %r9
	xorl	%ecx, %ecx
	.p2align	4
.LBB20_25:
	cmpb	%r8b, (%rsi,%rcx)
	jne	.LBB20_29
	incq	%rcx
	cmpq	%rcx, %r9
	jne	.LBB20_25
.LBB20_27:
	movq	%rdi, %r13
	cmpq	$33, %rdx
	jae	.LBB20_30
.LBB20_28:
	vpxor	%xmm0, %xmm0, %xmm0
	vmovdqa	%ymm0, 64(%rsp)
	leaq	64(%rsp), %rdi
	movq	%rsi, %rbx
	movq	%rdx, %r14
	vzeroupper
	callq	sysv_memcpy
	movq	%rbx, %rsi
	movq	%r14, %rdx
	vmovdqa	64(%rsp), %ymm0
	movzbl	%r15b, %eax
	shll	$8, %eax
	orl	%eax, %r12d
	movb	$2, %cl
	movl	%edx, %eax
	jmp	.LBB20_31
.LBB20_29:
	movl	%ecx, %r8d
	cmpb	%cl, %r12b
	cmovel	%eax, %ecx
	cmpq	%r12, %rdx
	movzbl	%r8b, %r8d
	cmovbel	%eax, %ecx
	cmpq	%r8, %rdx
	cmovbel	%eax, %ecx
	movl	%ecx, %r15d
	movq	%rdi, %r13
	cmpq	$33, %rdx
	jb	.LBB20_28
.LBB20_30:
	leaq	32(%rsp), %rdi
	movq	%rsi, %rbx
	movq	%rdx, %r14
	xorl	%ecx, %ecx
	vzeroupper
	callq	L_21
	movq	%rbx, %rsi
	movq	%r14, %rdx
	movzbl	48(%rsp), %ecx
	movzbl	%r15b, %eax
	shll	$8, %eax
	orl	%eax, %r12d
	movl	%r12d, %eax
	vmovd	%ecx, %xmm0
	vmovq	56(%rsp), %xmm1
	vpunpcklqdq	%xmm1, %xmm0, %xmm0
	vinserti128	$1, %xmm0, %ymm0, %ymm0
	vpblendd	$15, 32(%rsp), %ymm0, %ymm0
	movb	$4, %cl
	xorl	%r12d, %r12d
.LBB20_31:
	movq	%r13, %rdi
.LBB20_32:
	movq	$0, (%rdi)
	movq	%rsi, 8(%rdi)
	movq	%rdx, 16(%rdi)
	movq	$0, 24(%rdi)
	movb	%cl, 32(%rdi)
	movw	%r12w, 33(%rdi)
	movl	$0, 35(%rdi)
	movb	$0, 39(%rdi)
	vmovdqu	%ymm0, 40(%rdi)
	movw	%ax, 72(%rdi)
	movw	$0, 78(%rdi)
	movl	$0, 74(%rdi)
	leaq	-40(%rbp), %rsp
	popq	%rbx
	popq	%r12
	popq	%r13
	popq	%r14
	popq	%r15
	popq	%rbp
	vzeroupper
	retq
.Lfunc_end20:

	.section	.rdata$000,"dr"
	.p2align	4, 0x0
.LCPI21_0:
	.byte	63
	.byte	63
	.byte	63
	.byte	63
	.zero	1
	.zero	1
	.zero	1
	.zero	1
	.zero	1
	.zero	1
	.zero	1
	.zero	1
	.zero	1
	.zero	1
	.zero	1
	.zero	1
	.section	.rdata$007,"dr"
	.p2align	3, 0x0
.LCPI21_1:
	.quad	1
	.section	.rdata$001,"dr"
	.p2align	2, 0x0
.LCPI21_2:
	.zero	4,63
	.section	.text$026,"xr"
	.p2align	4
L_21:
	movq	%rdx, %r8
	andq	$-16, %r8
	vpxor	%xmm1, %xmm1, %xmm1
	xorl	%eax, %eax
	vpxor	%xmm2, %xmm2, %xmm2
	vpxor	%xmm3, %xmm3, %xmm3
	vpxor	%xmm4, %xmm4, %xmm4
	.p2align	4
.LBB21_1:
	vmovd	(%rsi,%rax), %xmm0
	vmovd	4(%rsi,%rax), %xmm5
	vmovd	8(%rsi,%rax), %xmm6
	vmovd	12(%rsi,%rax), %xmm7
	vpbroadcastd	.LCPI21_2(%rip), %xmm8
	vpand	%xmm0, %xmm8, %xmm0
	vpand	%xmm5, %xmm8, %xmm5
	vpand	%xmm6, %xmm8, %xmm6
	vpand	%xmm7, %xmm8, %xmm7
	vpmovzxbq	%xmm0, %ymm8
	vpmovzxbq	%xmm5, %ymm5
	vpmovzxbq	%xmm6, %ymm6
	vpmovzxbq	%xmm7, %ymm7
	vpbroadcastq	.LCPI21_1(%rip), %ymm0
	vpsllvq	%ymm8, %ymm0, %ymm8
	vpor	%ymm1, %ymm8, %ymm1
	vpsllvq	%ymm5, %ymm0, %ymm5
	vpor	%ymm2, %ymm5, %ymm2
	vpsllvq	%ymm6, %ymm0, %ymm5
	vpor	%ymm3, %ymm5, %ymm3
	vpsllvq	%ymm7, %ymm0, %ymm5
	vpor	%ymm4, %ymm5, %ymm4
	addq	$16, %rax
	cmpq	%rax, %r8
	jne	.LBB21_1
	vpor	%ymm1, %ymm2, %ymm1
	vpor	%ymm1, %ymm3, %ymm1
	vpor	%ymm1, %ymm4, %ymm1
	vextracti128	$1, %ymm1, %xmm2
	vpor	%xmm2, %xmm1, %xmm1
	vpshufd	$238, %xmm1, %xmm2
	vpor	%xmm2, %xmm1, %xmm1
	vmovq	%xmm1, %rax
	cmpq	%r8, %rdx
	je	.LBB21_10
	testb	$12, %dl
	je	.LBB21_7
	movq	%rdx, %r9
	andq	$-4, %r9
	vmovq	%rax, %xmm1
	.p2align	4
.LBB21_5:
	vmovd	(%rsi,%r8), %xmm2
	vpand	.LCPI21_0(%rip), %xmm2, %xmm2
	vpmovzxbq	%xmm2, %ymm2
	vpsllvq	%ymm2, %ymm0, %ymm2
	vpor	%ymm1, %ymm2, %ymm1
	addq	$4, %r8
	cmpq	%r8, %r9
	jne	.LBB21_5
	vextracti128	$1, %ymm1, %xmm0
	vpor	%xmm0, %xmm1, %xmm0
	vpshufd	$238, %xmm0, %xmm1
	vpor	%xmm1, %xmm0, %xmm0
	vmovq	%xmm0, %rax
	jmp	.LBB21_9
.LBB21_7:
	movq	%r8, %r9
.LBB21_8:
	movzbl	(%rsi,%r9), %r8d
	btsq	%r8, %rax
	incq	%r9
.LBB21_9:
	cmpq	%r9, %rdx
	jne	.LBB21_8
.LBB21_10:
	pushq	%rbp
	pushq	%r15
	pushq	%r14
	pushq	%r13
	pushq	%r12
	pushq	%rbx
	leaq	(%rsi,%rdx), %r10
	movl	$1, %r8d
	xorl	%r9d, %r9d
	movl	$1, %r15d
	movl	$1, %ebx
	xorl	%r11d, %r11d
	testb	%cl, %cl
	jne	.LBB21_13
	jmp	.LBB21_19
	.p2align	4
.LBB21_11:
	leaq	1(%rbx), %r14
	movl	$1, %r8d
	xorl	%r11d, %r11d
	movq	%rbx, %r9
.LBB21_12:
	leaq	(%r14,%r11), %r15
	movq	%r14, %rbx
	cmpq	%rdx, %r15
	jae	.LBB21_24
.LBB21_13:
	leaq	(%r11,%r9), %r14
	notq	%r14
	movzbl	(%r10,%r14), %ebp
	notq	%r15
	movzbl	(%r10,%r15), %r14d
	cmpb	%bpl, %r14b
	jb	.LBB21_11
	incq	%r11
	cmpb	%r14b, %bpl
	jae	.LBB21_16
	movq	%r11, %r14
	addq	%rbx, %r14
	movq	%r14, %r8
	subq	%r9, %r8
	xorl	%r11d, %r11d
	jmp	.LBB21_12
	.p2align	4
.LBB21_16:
	xorl	%r14d, %r14d
	cmpq	%r8, %r11
	cmoveq	%r14, %r11
	cmoveq	%r8, %r14
	addq	%rbx, %r14
	jmp	.LBB21_12
	.p2align	4
.LBB21_17:
	leaq	1(%rbx), %r14
	movl	$1, %r8d
	xorl	%r11d, %r11d
.LBB21_18:
	movq	%rbx, %r9
	leaq	(%r14,%r11), %r15
	movq	%r14, %rbx
	cmpq	%rdx, %r15
	jae	.LBB21_24
.LBB21_19:
	leaq	(%rsi,%r9), %r14
	movzbl	(%r11,%r14), %ebp
	movzbl	(%rsi,%r15), %r14d
	cmpb	%bpl, %r14b
	jb	.LBB21_17
	incq	%r11
	cmpb	%r14b, %bpl
	jae	.LBB21_22
	movq	%r11, %r14
	addq	%rbx, %r14
	movq	%r14, %r8
	subq	%r9, %r8
	xorl	%r11d, %r11d
	jmp	.LBB21_23
	.p2align	4
.LBB21_22:
	xorl	%r14d, %r14d
	cmpq	%r8, %r11
	cmoveq	%r14, %r11
	cmoveq	%r8, %r14
	addq	%rbx, %r14
.LBB21_23:
	movq	%r9, %rbx
	jmp	.LBB21_18
.LBB21_24:
	movl	$1, %r11d
	xorl	%ebx, %ebx
	movl	$1, %r13d
	movl	$1, %r15d
	xorl	%r14d, %r14d
	testb	%cl, %cl
	jne	.LBB21_27
	jmp	.LBB21_33
	.p2align	4
.LBB21_25:
	leaq	1(%r15), %r12
	movl	$1, %r11d
	xorl	%r14d, %r14d
	movq	%r15, %rbx
.LBB21_26:
	leaq	(%r12,%r14), %r13
	movq	%r12, %r15
	cmpq	%rdx, %r13
	jae	.LBB21_37
.LBB21_27:
	leaq	(%r14,%rbx), %r12
	notq	%r12
	movzbl	(%r10,%r12), %ebp
	notq	%r13
	movzbl	(%r10,%r13), %r12d
	cmpb	%r12b, %bpl
	jb	.LBB21_25
	incq	%r14
	cmpb	%bpl, %r12b
	jae	.LBB21_30
	movq	%r14, %r12
	addq	%r15, %r12
	movq	%r12, %r11
	subq	%rbx, %r11
	xorl	%r14d, %r14d
	jmp	.LBB21_26
	.p2align	4
.LBB21_30:
	xorl	%r12d, %r12d
	cmpq	%r11, %r14
	cmoveq	%r12, %r14
	cmoveq	%r11, %r12
	addq	%r15, %r12
	jmp	.LBB21_26
	.p2align	4
.LBB21_31:
	leaq	1(%r15), %r12
	movl	$1, %r11d
	xorl	%r14d, %r14d
	movq	%r15, %rbx
.LBB21_32:
	leaq	(%r12,%r14), %r13
	movq	%r12, %r15
	cmpq	%rdx, %r13
	jae	.LBB21_37
.LBB21_33:
	leaq	(%rsi,%rbx), %r12
	movzbl	(%r14,%r12), %ebp
	movzbl	(%rsi,%r13), %r12d
	cmpb	%r12b, %bpl
	jb	.LBB21_31
	incq	%r14
	cmpb	%bpl, %r12b
	jae	.LBB21_36
	movq	%r14, %r12
	addq	%r15, %r12
	movq	%r12, %r11
	subq	%rbx, %r11
	xorl	%r14d, %r14d
	jmp	.LBB21_32
	.p2align	4
.LBB21_36:
	xorl	%r12d, %r12d
	cmpq	%r11, %r14
	cmoveq	%r12, %r14
	cmoveq	%r11, %r12
	addq	%r15, %r12
	jmp	.LBB21_32
.LBB21_37:
	cmpq	%r9, %rbx
	jae	.LBB21_45
	movq	%rdx, %r11
	subq	%r9, %r11
	cmpq	%r9, %r11
	cmovbeq	%r9, %r11
	leaq	(%r9,%r9), %rbx
	movl	$1, %r14d
	cmpq	%rbx, %rdx
	jbe	.LBB21_65
	testb	%cl, %cl
	je	.LBB21_53
	movzbl	-1(%r10), %ecx
	movq	%r8, %rdx
	notq	%rdx
	cmpb	(%r10,%rdx), %cl
	jne	.LBB21_65
	movq	%r10, %rcx
	subq	%r8, %rcx
	movq	$-1, %rdx
	.p2align	4
.LBB21_42:
	movq	%r9, %rsi
	addq	%rdx, %rsi
	je	.LBB21_63
	movzbl	-1(%r10,%rdx), %esi
	cmpb	-1(%rcx,%rdx), %sil
	leaq	-1(%rdx), %rdx
	je	.LBB21_42
	jmp	.LBB21_65
.LBB21_45:
	movq	%rdx, %r8
	subq	%rbx, %r8
	cmpq	%rbx, %r8
	cmovbeq	%rbx, %r8
	leaq	(%rbx,%rbx), %r9
	movl	$1, %r14d
	cmpq	%r9, %rdx
	jbe	.LBB21_52
	testq	%rbx, %rbx
	je	.LBB21_58
	testb	%cl, %cl
	je	.LBB21_59
	movzbl	-1(%r10), %ecx
	movq	%r11, %rdx
	notq	%rdx
	cmpb	(%r10,%rdx), %cl
	jne	.LBB21_52
	movq	%r10, %rcx
	subq	%r11, %rcx
	movq	$-1, %rdx
	.p2align	4
.LBB21_50:
	movq	%rbx, %rsi
	addq	%rdx, %rsi
	je	.LBB21_64
	movzbl	-1(%r10,%rdx), %esi
	cmpb	-1(%rcx,%rdx), %sil
	leaq	-1(%rdx), %rdx
	je	.LBB21_50
	jmp	.LBB21_52
.LBB21_53:
	movzbl	(%rsi), %ecx
	cmpb	(%rsi,%r8), %cl
	jne	.LBB21_65
	leaq	(%rsi,%r8), %rcx
	movl	$1, %edx
	.p2align	4
.LBB21_55:
	cmpq	%rdx, %r9
	je	.LBB21_63
	movzbl	(%rsi,%rdx), %r10d
	cmpb	(%rcx,%rdx), %r10b
	leaq	1(%rdx), %rdx
	je	.LBB21_55
	movl	$1, %r14d
	jmp	.LBB21_65
.LBB21_58:
	xorl	%r9d, %r9d
	xorl	%r14d, %r14d
	jmp	.LBB21_65
.LBB21_59:
	movzbl	(%rsi), %ecx
	cmpb	(%rsi,%r11), %cl
	jne	.LBB21_52
	leaq	(%rsi,%r11), %rcx
	movl	$1, %edx
	.p2align	4
.LBB21_61:
	cmpq	%rdx, %rbx
	je	.LBB21_64
	movzbl	(%rsi,%rdx), %r9d
	movl	$1, %r14d
	cmpb	(%rcx,%rdx), %r9b
	leaq	1(%rdx), %rdx
	je	.LBB21_61
.LBB21_52:
	movq	%rbx, %r9
	jmp	.LBB21_66
.LBB21_63:
	xorl	%r14d, %r14d
	jmp	.LBB21_66
.LBB21_64:
	xorl	%r14d, %r14d
	movq	%rbx, %r9
.LBB21_65:
	movq	%r11, %r8
.LBB21_66:
	movq	%rax, (%rdi)
	movq	%r9, 8(%rdi)
	movq	%r14, 16(%rdi)
	movq	%r8, 24(%rdi)
	popq	%rbx
	popq	%r12
	popq	%r13
	popq	%r14
	popq	%r15
	popq	%rbp
	vzeroupper
	retq
.Lfunc_end21:

	.section	.text$027,"xr"
	.p2align	4
L_22:
	pushq	%rbp
	pushq	%r15
	pushq	%r14
	pushq	%r13
	pushq	%r12
	pushq	%rbx
	subq	$248, %rsp
	movq	%rdx, %rax
	subq	%rcx, %rax
	movq	16(%rdi), %r10
	movq	%rax, %r14
	subq	%r10, %r14
	jae	.LBB22_2
.LBB22_1:
	xorl	%eax, %eax
	xorl	%ecx, %ecx
	jmp	.LBB22_112
.LBB22_2:
	movq	%rcx, %r12
	movq	%rax, 48(%rsp)
	leaq	(%rsi,%rcx), %rax
	movq	%rax, 16(%rsp)
	movq	8(%rdi), %rax
	movq	%rax, 32(%rsp)
	movzbl	32(%rdi), %ebp
	leaq	.LJTI22_0(%rip), %rax
	movslq	(%rax,%rbp,4), %rcx
	addq	%rax, %rcx
	movq	%r10, 8(%rsp)
	jmpq	*%rcx
.LBB22_3:
	movzbl	33(%rdi), %edi
	movq	48(%rsp), %r14
	cmpq	$32, %r14
	jae	.LBB22_72
	testq	%r14, %r14
	je	.LBB22_1
	xorl	%ebp, %ebp
	.p2align	4
.LBB22_6:
	movq	16(%rsp), %rax
	cmpb	%dil, (%rax,%rbp)
	je	.LBB22_111
	incq	%rbp
	xorl	%eax, %eax
	movl	$0, %ecx
	cmpq	%rbp, %r14
	jne	.LBB22_6
	jmp	.LBB22_112
.LBB22_8:
	testq	%r10, %r10
	je	.LBB22_110
	movq	40(%rdi), %rax
	movq	%rax, 112(%rsp)
	movq	48(%rdi), %r8
	movq	64(%rdi), %r9
	movzbl	72(%rdi), %r15d
	movzbl	73(%rdi), %r13d
	movq	32(%rsp), %rbx
	movzbl	(%rbx,%r15), %r10d
	movzbl	(%rbx,%r13), %eax
	leaq	1(%r14), %rcx
	movq	%rcx, 104(%rsp)
	leaq	(%rsi,%r12), %rcx
	leaq	(%rcx,%r15), %r11
	leaq	(%rcx,%r13), %rbp
	movq	%rbp, 64(%rsp)
	cmpb	$0, 56(%rdi)
	vmovd	%r10d, %xmm2
	vpbroadcastb	%xmm2, %ymm0
	vmovd	%eax, %xmm3
	vmovd	%eax, %xmm1
	vpbroadcastb	%xmm1, %ymm1
	leaq	-31(%rcx,%r14), %rax
	movq	%rax, 72(%rsp)
	movq	%r8, 192(%rsp)
	movq	%r15, 160(%rsp)
	movq	%r13, 128(%rsp)
	movq	%r9, 96(%rsp)
	je	.LBB22_113
	vpbroadcastb	%xmm2, %ymm2
	vpbroadcastb	%xmm3, %ymm3
	leaq	(%rsi,%r12), %rax
	leaq	(%rax,%r13), %r9
	addq	$32, %r9
	leaq	(%r15,%rax), %rdi
	addq	$32, %rdi
	movq	8(%rsp), %r13
	subq	%r13, %rdx
	subq	%r12, %rdx
	leaq	-63(%rdx), %rcx
	movq	%rcx, 120(%rsp)
	incq	%rdx
	subq	%r8, %r13
	addq	%r8, %rax
	movq	%rax, 80(%rsp)
	leaq	(%rbx,%r8), %rax
	movq	%rax, 40(%rsp)
	leaq	(%r12,%rsi), %rax
	decq	%rax
	movq	%rax, 88(%rsp)
	movl	$1, 24(%rsp)
	xorl	%esi, %esi
	movl	$0, 56(%rsp)
	movl	$1, %ebx
	movq	48(%rsp), %r15
	movq	104(%rsp), %r8
.LBB22_209:
	testl	%ebx, %ebx
	je	.LBB22_217
	cmpl	$51, %ebx
	jb	.LBB22_212
	cmpl	$536870913, %ebx
	leal	-8(,%rbx,8), %eax
	movl	$-1, %ecx
	cmovbl	%eax, %ecx
	xorl	%eax, %eax
	cmpl	56(%rsp), %ecx
	ja	.LBB22_218
.LBB22_212:
	cmpq	$32, %r8
	jae	.LBB22_220
	cmpq	%r8, %rsi
	jae	.LBB22_1
	movq	%rsi, %rbp
	.p2align	4
.LBB22_215:
	cmpb	%r10b, (%r11,%rbp)
	je	.LBB22_258
	incq	%rbp
	xorl	%eax, %eax
	movl	$0, %ecx
	cmpq	%r8, %rbp
	jb	.LBB22_215
	jmp	.LBB22_112
.LBB22_217:
	movl	24(%rsp), %eax
.LBB22_218:
	xorl	%ebx, %ebx
	cmpq	%r8, %rsi
	jae	.LBB22_1
	movq	%rsi, %rbp
	movl	%eax, 24(%rsp)
	jmp	.LBB22_262
.LBB22_220:
	movq	%rsi, %rbx
	cmpq	%r8, %rsi
	jae	.LBB22_1
.LBB22_221:
	movq	%r8, %rax
	subq	%rbx, %rax
	cmpq	$191, %rax
	jbe	.LBB22_228
	movq	16(%rsp), %rax
	addq	%rbx, %rax
	movq	160(%rsp), %rcx
	vpcmpeqb	(%rcx,%rax), %ymm2, %ymm4
	vpcmpeqb	32(%rcx,%rax), %ymm2, %ymm5
	movq	128(%rsp), %rcx
	vpcmpeqb	(%rcx,%rax), %ymm3, %ymm6
	vpand	%ymm6, %ymm4, %ymm4
	vpcmpeqb	32(%rcx,%rax), %ymm3, %ymm6
	vpand	%ymm6, %ymm5, %ymm5
	vpmovmskb	%ymm4, %ecx
	vpmovmskb	%ymm5, %eax
	shlq	$32, %rax
	leaq	64(%rbx), %r14
	orq	%rcx, %rax
	jne	.LBB22_255
	movq	%r8, %rax
	subq	%r14, %rax
	cmpq	$128, %rax
	jb	.LBB22_239
	addq	$192, %rbx
	movq	%rbx, %rcx
	movq	64(%rsp), %r14
.LBB22_225:
	vpcmpeqb	-128(%r11,%rcx), %ymm0, %ymm4
	vpcmpeqb	-128(%r14,%rcx), %ymm1, %ymm5
	vpand	%ymm5, %ymm4, %ymm5
	vpcmpeqb	-96(%r11,%rcx), %ymm0, %ymm4
	vpcmpeqb	-96(%r14,%rcx), %ymm1, %ymm6
	vpcmpeqb	-64(%r11,%rcx), %ymm0, %ymm8
	vpcmpeqb	-64(%r14,%rcx), %ymm1, %ymm9
	vpand	%ymm6, %ymm4, %ymm7
	vpand	%ymm9, %ymm8, %ymm4
	vpcmpeqb	-32(%r11,%rcx), %ymm0, %ymm6
	vpcmpeqb	-32(%r14,%rcx), %ymm1, %ymm8
	vpand	%ymm6, %ymm8, %ymm6
	vpor	%ymm6, %ymm4, %ymm8
	vpor	%ymm7, %ymm5, %ymm9
	vpor	%ymm8, %ymm9, %ymm8
	vpmovmskb	%ymm8, %ebx
	testl	%ebx, %ebx
	jne	.LBB22_244
	subq	$-128, %rcx
	addq	$-128, %rax
	cmpq	$127, %rax
	ja	.LBB22_225
	addq	$-128, %rcx
	movq	%rcx, %rbx
	jmp	.LBB22_240
.LBB22_228:
	cmpq	$64, %rax
	jb	.LBB22_248
	leaq	64(%rbx), %rcx
	movq	120(%rsp), %r14
	subq	%rbx, %r14
	.p2align	4
.LBB22_230:
	vpcmpeqb	-32(%rdi,%rbx), %ymm0, %ymm4
	vpcmpeqb	-32(%r9,%rbx), %ymm1, %ymm5
	vpand	%ymm5, %ymm4, %ymm4
	vpcmpeqb	(%rdi,%rbx), %ymm0, %ymm5
	vpcmpeqb	(%r9,%rbx), %ymm1, %ymm6
	vpand	%ymm6, %ymm5, %ymm5
	vpor	%ymm5, %ymm4, %ymm6
	vpmovmskb	%ymm6, %ebp
	testl	%ebp, %ebp
	jne	.LBB22_232
	addq	$64, %rbx
	addq	$-64, %rax
	addq	$64, %rcx
	addq	$-64, %r14
	cmpq	$63, %rax
	ja	.LBB22_230
	jmp	.LBB22_248
.LBB22_232:
	cmpq	$64, %rax
	jb	.LBB22_248
	vpmovmskb	%ymm5, %r15d
	shlq	$32, %r15
	vpmovmskb	%ymm4, %eax
	orq	%r15, %rax
	movq	48(%rsp), %r15
	movq	64(%rsp), %rbp
	jne	.LBB22_238
.LBB22_234:
	cmpq	$64, %r14
	jb	.LBB22_247
	vpcmpeqb	(%r11,%rcx), %ymm0, %ymm4
	vpcmpeqb	(%rbp,%rcx), %ymm1, %ymm5
	vpand	%ymm5, %ymm4, %ymm4
	vpcmpeqb	32(%r11,%rcx), %ymm0, %ymm5
	vpcmpeqb	32(%rbp,%rcx), %ymm1, %ymm6
	vpand	%ymm6, %ymm5, %ymm5
	vpor	%ymm5, %ymm4, %ymm6
	vpmovmskb	%ymm6, %eax
	addq	$64, %rcx
	addq	$-64, %r14
	testl	%eax, %eax
	je	.LBB22_234
	vpmovmskb	%ymm4, %ebx
	vpmovmskb	%ymm5, %eax
	shlq	$32, %rax
	orq	%rbx, %rax
	testq	%rax, %rax
	je	.LBB22_234
	addq	$-64, %rcx
	movq	%rcx, %rbx
.LBB22_238:
	leaq	64(%rbx), %r14
	jmp	.LBB22_255
.LBB22_239:
	movq	%r14, %rbx
	movq	64(%rsp), %r14
.LBB22_240:
	cmpq	$32, %rax
	jb	.LBB22_252
	movq	%rdx, %rax
	subq	%rbx, %rax
.LBB22_242:
	vpcmpeqb	(%r11,%rbx), %ymm0, %ymm4
	vpcmpeqb	(%r14,%rbx), %ymm1, %ymm5
	vpand	%ymm5, %ymm4, %ymm4
	vpmovmskb	%ymm4, %ecx
	testl	%ecx, %ecx
	jne	.LBB22_254
	addq	$32, %rbx
	addq	$-32, %rax
	cmpq	$31, %rax
	ja	.LBB22_242
	jmp	.LBB22_252
.LBB22_244:
	vpmovmskb	%ymm7, %ebx
	shlq	$32, %rbx
	vpmovmskb	%ymm5, %eax
	leaq	-64(%rcx), %r14
	orq	%rbx, %rax
	je	.LBB22_246
	addq	$-128, %rcx
	movq	%rcx, %rbx
	jmp	.LBB22_255
.LBB22_246:
	vpmovmskb	%ymm6, %ebx
	shlq	$32, %rbx
	vpmovmskb	%ymm4, %eax
	orq	%rbx, %rax
	jmp	.LBB22_253
.LBB22_247:
	movq	%r14, %rax
	movq	%rcx, %rbx
.LBB22_248:
	cmpq	$32, %rax
	jb	.LBB22_252
	movq	%rdx, %rax
	subq	%rbx, %rax
	movq	64(%rsp), %r14
.LBB22_250:
	vpcmpeqb	(%r11,%rbx), %ymm0, %ymm4
	vpcmpeqb	(%r14,%rbx), %ymm1, %ymm5
	vpand	%ymm5, %ymm4, %ymm4
	vpmovmskb	%ymm4, %ecx
	testl	%ecx, %ecx
	jne	.LBB22_254
	addq	$32, %rbx
	addq	$-32, %rax
	cmpq	$31, %rax
	ja	.LBB22_250
.LBB22_252:
	movq	160(%rsp), %rax
	movq	72(%rsp), %rcx
	vpcmpeqb	(%rcx,%rax), %ymm0, %ymm4
	movq	128(%rsp), %rax
	vpcmpeqb	(%rcx,%rax), %ymm1, %ymm5
	vpand	%ymm5, %ymm4, %ymm4
	vpmovmskb	%ymm4, %eax
	movl	%ebx, %ecx
	subl	%r8d, %ecx
	addb	$32, %cl
	shrxq	%rcx, %rax, %rax
	movq	%rbx, %r14
	movq	%r8, %rcx
.LBB22_253:
	movq	%r14, %rbx
	movq	%rcx, %r14
	testq	%rax, %rax
	jne	.LBB22_255
	jmp	.LBB22_257
.LBB22_254:
	movl	%ecx, %eax
	leaq	32(%rbx), %r14
	.p2align	4
.LBB22_255:
	xorl	%ecx, %ecx
	tzcntq	%rax, %rcx
	leaq	(%rcx,%rbx), %rbp
	cmpb	%r10b, (%r11,%rbp)
	je	.LBB22_258
	movq	$-2, %r15
	rolq	%cl, %r15
	andq	%r15, %rax
	movq	48(%rsp), %r15
	jne	.LBB22_255
.LBB22_257:
	xorl	%eax, %eax
	movq	%r14, %rbx
	movl	$0, %ecx
	cmpq	%r8, %r14
	jb	.LBB22_221
	jmp	.LBB22_112
.LBB22_258:
	movq	%rbp, %rax
	subq	%rsi, %rax
	movl	24(%rsp), %esi
	incl	%esi
	movl	$-1, %ecx
	movl	%esi, %ebx
	cmovel	%ecx, %ebx
	movq	%rax, %rcx
	shrq	$32, %rcx
	je	.LBB22_260
	movl	$-1, 56(%rsp)
	jmp	.LBB22_261
.LBB22_260:
	addl	56(%rsp), %eax
	movl	$-1, %ecx
	cmovael	%eax, %ecx
	movl	%ecx, 56(%rsp)
.LBB22_261:
	movl	%ebx, 24(%rsp)
.LBB22_262:
	movq	8(%rsp), %rcx
	leaq	(%rcx,%rbp), %rsi
	movq	16(%rsp), %rax
	movzbl	-1(%rax,%rsi), %eax
	movq	112(%rsp), %r14
	btq	%rax, %r14
	jae	.LBB22_208
	cmpq	192(%rsp), %rcx
	jbe	.LBB22_267
	movq	80(%rsp), %rax
	leaq	(%rax,%rbp), %rcx
	xorl	%eax, %eax
	.p2align	4
.LBB22_265:
	movq	40(%rsp), %rsi
	movzbl	(%rsi,%rax), %esi
	cmpb	(%rcx,%rax), %sil
	jne	.LBB22_206
	incq	%rax
	cmpq	%rax, %r13
	jne	.LBB22_265
.LBB22_267:
	movq	88(%rsp), %rax
	addq	%rbp, %rax
	movq	192(%rsp), %rsi
	movq	%rsi, %rcx
	.p2align	4
.LBB22_268:
	subq	$1, %rcx
	jb	.LBB22_111
	movq	32(%rsp), %r14
	movzbl	-1(%r14,%rsi), %r14d
	cmpb	(%rax,%rsi), %r14b
	movq	%rcx, %rsi
	je	.LBB22_268
	addq	96(%rsp), %rbp
	movq	%rbp, %rsi
	jmp	.LBB22_207
.LBB22_206:
	leaq	(%rax,%rbp), %rsi
	incq	%rsi
.LBB22_207:
	movq	8(%rsp), %rcx
.LBB22_208:
	leaq	(%rsi,%rcx), %r14
	xorl	%eax, %eax
	movl	$0, %ecx
	cmpq	%r15, %r14
	jbe	.LBB22_209
	jmp	.LBB22_112
.LBB22_11:
	vmovdqu	40(%rdi), %ymm9
	movq	72(%rdi), %r11
	incq	%r14
	cmpq	$32, %r14
	jae	.LBB22_33
	testq	%r14, %r14
	je	.LBB22_1
	movq	$-1, %rax
	shlxq	%r11, %rax, %rbx
	notq	%rbx
	notq	%rdx
	addq	%r10, %rdx
	addq	%r12, %rdx
	xorl	%ebp, %ebp
	movq	48(%rsp), %r15
	vmovdqu	%ymm9, 192(%rsp)
	jmp	.LBB22_16
	.p2align	4
.LBB22_14:
	movq	16(%rsp), %rax
	vpcmpeqb	(%rax), %ymm9, %ymm0
	vpmovmskb	%ymm0, %eax
	andnl	%ebx, %eax, %eax
	je	.LBB22_29
.LBB22_15:
	decq	%rbp
	incq	16(%rsp)
	xorl	%eax, %eax
	movl	$0, %ecx
	cmpq	%rbp, %rdx
	je	.LBB22_112
.LBB22_16:
	cmpq	$33, %r11
	setae	%cl
	leaq	(%r15,%rbp), %rax
	cmpq	$32, %rax
	setb	%sil
	orb	%cl, %sil
	je	.LBB22_14
	movq	8(%rsp), %rsi
	cmpq	%rax, %rsi
	movq	32(%rsp), %r8
	ja	.LBB22_15
	cmpq	$4, %rsi
	jae	.LBB22_25
	testq	%rsi, %rsi
	je	.LBB22_29
	movq	16(%rsp), %rax
	movzbl	(%rax), %eax
	cmpb	(%r8), %al
	jne	.LBB22_27
	cmpq	$1, %rsi
	je	.LBB22_29
	movq	16(%rsp), %rax
	movzbl	1(%rax), %ecx
	movl	$1, %eax
	cmpb	1(%r8), %cl
	jne	.LBB22_28
	cmpq	$2, %rsi
	je	.LBB22_29
	movq	16(%rsp), %rax
	movzbl	2(%rax), %ecx
	movl	$2, %eax
	cmpb	2(%r8), %cl
	jne	.LBB22_28
	jmp	.LBB22_29
.LBB22_25:
	movq	16(%rsp), %rax
	movl	(%rax), %eax
	cmpl	(%r8), %eax
	jne	.LBB22_15
	movq	16(%rsp), %rdi
	movq	%rdx, %r14
	movq	%r8, %rdx
	movq	%r11, %r13
	vzeroupper
	callq	L_23
	movq	%r13, %r11
	vmovdqu	192(%rsp), %ymm9
	movq	%r14, %rdx
	testb	%al, %al
	je	.LBB22_15
	jmp	.LBB22_29
.LBB22_27:
	xorl	%eax, %eax
.LBB22_28:
	cmpq	%rsi, %rax
	jb	.LBB22_15
.LBB22_29:
	negq	%rbp
	jmp	.LBB22_111
.LBB22_30:
	testq	%r10, %r10
	je	.LBB22_110
	movq	40(%rdi), %rdx
	movq	48(%rdi), %r8
	movq	64(%rdi), %r13
	incq	%r14
	cmpb	$0, 56(%rdi)
	movq	%r14, %r9
	movq	%r10, %rdi
	je	.LBB22_180
	subq	%r8, %rdi
	leaq	(%rsi,%r12), %r10
	addq	%r8, %r10
	movq	32(%rsp), %rax
	leaq	(%rax,%r8), %r11
	leaq	(%r12,%rsi), %rax
	decq	%rax
	movq	%rax, 40(%rsp)
	xorl	%ebx, %ebx
	movq	48(%rsp), %r15
	jmp	.LBB22_196
.LBB22_110:
	xorl	%ebp, %ebp
.LBB22_111:
	addq	%r12, %rbp
	movb	$1, %al
	movq	%rbp, %rcx
.LBB22_112:
	movq	%rcx, %rdx
	addq	$248, %rsp
	popq	%rbx
	popq	%r12
	popq	%r13
	popq	%r14
	popq	%r15
	popq	%rbp
	vzeroupper
	retq
.LBB22_33:
	movzbl	33(%rdi), %eax
	movq	32(%rsp), %r8
	vpbroadcastb	(%r8,%rax), %ymm10
	movzbl	34(%rdi), %ecx
	vpbroadcastb	(%r8,%rcx), %ymm11
	leaq	(%rsi,%r12), %rdi
	leaq	(%rdi,%rax), %r8
	leaq	(%rdi,%rcx), %r9
	leaq	-1(%r10), %rbx
	movq	%rbx, 80(%rsp)
	leaq	-1(%rdi,%r10), %rdi
	movq	%rdi, 96(%rsp)
	movq	$-1, %rdi
	shlxq	%r11, %rdi, %rdi
	notq	%rdi
	movq	%rdi, 40(%rsp)
	addq	%r12, %rcx
	leaq	(%rsi,%rcx), %rdi
	addq	$32, %rdi
	addq	%r12, %rax
	leaq	(%rsi,%rax), %rbp
	addq	$32, %rbp
	subq	%r10, %rdx
	subq	%r12, %rdx
	leaq	-63(%rdx), %rax
	movq	%rax, 88(%rsp)
	incq	%rdx
	xorl	%r13d, %r13d
	movq	%r12, 240(%rsp)
	movq	%r14, 112(%rsp)
	vmovdqu	%ymm9, 192(%rsp)
	movq	%rdx, 24(%rsp)
	vmovdqu	%ymm10, 160(%rsp)
	vmovdqu	%ymm11, 128(%rsp)
	movq	%r8, 104(%rsp)
	movq	%r9, 56(%rsp)
	movq	%rdi, 64(%rsp)
	movq	%rbp, 72(%rsp)
.LBB22_34:
	movq	%r14, %rax
	subq	%r13, %rax
	cmpq	$64, %rax
	jb	.LBB22_38
	movq	8(%rsp), %rsi
	movq	40(%rsp), %r10
	.p2align	4
.LBB22_36:
	vmovdqu	-32(%rbp,%r13), %ymm2
	vmovdqu	(%rbp,%r13), %ymm3
	vpcmpeqb	%ymm2, %ymm10, %ymm0
	vmovdqu	-32(%rdi,%r13), %ymm4
	vmovdqu	(%rdi,%r13), %ymm5
	vpcmpeqb	%ymm4, %ymm11, %ymm1
	vpand	%ymm1, %ymm0, %ymm0
	vpcmpeqb	%ymm3, %ymm10, %ymm1
	vpcmpeqb	%ymm5, %ymm11, %ymm6
	vpand	%ymm6, %ymm1, %ymm1
	vpor	%ymm1, %ymm0, %ymm0
	vpmovmskb	%ymm0, %ecx
	testl	%ecx, %ecx
	jne	.LBB22_39
	addq	$64, %r13
	addq	$-64, %rax
	cmpq	$63, %rax
	ja	.LBB22_36
	jmp	.LBB22_47
.LBB22_38:
	movq	8(%rsp), %rsi
	movq	40(%rsp), %r10
	jmp	.LBB22_47
.LBB22_39:
	cmpq	$64, %rax
	jb	.LBB22_47
	movq	32(%rsp), %rax
	vpbroadcastb	(%rax), %ymm0
	movq	80(%rsp), %rcx
	vpbroadcastb	(%rax,%rcx), %ymm1
	movq	%r13, %r15
.LBB22_41:
	vpcmpeqb	%ymm5, %ymm11, %ymm5
	vpcmpeqb	%ymm4, %ymm11, %ymm4
	vpcmpeqb	%ymm3, %ymm10, %ymm3
	vpand	%ymm3, %ymm5, %ymm3
	vpcmpeqb	%ymm2, %ymm10, %ymm2
	vpand	%ymm2, %ymm4, %ymm2
	movq	16(%rsp), %rax
	vpcmpeqb	32(%rax,%r15), %ymm0, %ymm4
	vpcmpeqb	(%rax,%r15), %ymm0, %ymm5
	movq	96(%rsp), %rax
	vpcmpeqb	32(%rax,%r15), %ymm1, %ymm6
	vpand	%ymm6, %ymm4, %ymm4
	vpand	%ymm4, %ymm3, %ymm3
	vpcmpeqb	(%rax,%r15), %ymm1, %ymm4
	vpand	%ymm4, %ymm5, %ymm4
	vpand	%ymm4, %ymm2, %ymm2
	vpmovmskb	%ymm2, %eax
	vpmovmskb	%ymm3, %ebx
	shlq	$32, %rbx
	orq	%rax, %rbx
	jne	.LBB22_54
	movq	88(%rsp), %rax
	subq	%r15, %rax
	addq	$64, %r15
	.p2align	4
.LBB22_43:
	cmpq	$64, %rax
	jb	.LBB22_46
	vmovdqu	(%r8,%r15), %ymm2
	vmovdqu	32(%r8,%r15), %ymm3
	vpcmpeqb	%ymm2, %ymm10, %ymm6
	vmovdqu	(%r9,%r15), %ymm4
	vmovdqu	32(%r9,%r15), %ymm5
	vpcmpeqb	%ymm4, %ymm11, %ymm7
	vpand	%ymm7, %ymm6, %ymm6
	vpcmpeqb	%ymm3, %ymm10, %ymm7
	vpcmpeqb	%ymm5, %ymm11, %ymm8
	vpand	%ymm7, %ymm8, %ymm7
	vpor	%ymm7, %ymm6, %ymm6
	vpmovmskb	%ymm6, %ecx
	addq	$64, %r15
	addq	$-64, %rax
	testl	%ecx, %ecx
	je	.LBB22_43
	addq	$-64, %r15
	jmp	.LBB22_41
.LBB22_46:
	movq	%r15, %r13
.LBB22_47:
	cmpq	$32, %rax
	jb	.LBB22_51
	movq	%rdx, %rax
	subq	%r13, %rax
	movq	%r13, %r15
	.p2align	4
.LBB22_49:
	vpcmpeqb	(%r8,%r15), %ymm10, %ymm0
	vpcmpeqb	(%r9,%r15), %ymm11, %ymm1
	vpand	%ymm1, %ymm0, %ymm0
	vpmovmskb	%ymm0, %ecx
	testl	%ecx, %ecx
	jne	.LBB22_53
	addq	$32, %r15
	addq	$-32, %rax
	cmpq	$31, %rax
	ja	.LBB22_49
	jmp	.LBB22_52
.LBB22_51:
	movq	%r13, %r15
.LBB22_52:
	vpcmpeqb	-32(%r8,%r14), %ymm10, %ymm0
	vpcmpeqb	-32(%r9,%r14), %ymm11, %ymm1
	vpand	%ymm1, %ymm0, %ymm0
	vpmovmskb	%ymm0, %eax
	movl	%r15d, %ecx
	subl	%r14d, %ecx
	addb	$32, %cl
	shrxq	%rcx, %rax, %rbx
	movq	%r14, %r13
	testq	%rbx, %rbx
	jne	.LBB22_57
	jmp	.LBB22_1
.LBB22_53:
	movl	%ecx, %ebx
	leaq	32(%r15), %r13
	jmp	.LBB22_57
.LBB22_54:
	leaq	64(%r15), %r13
	jmp	.LBB22_57
	.p2align	4
.LBB22_55:
	movq	16(%rsp), %rax
	vpcmpeqb	(%rax,%rbp), %ymm9, %ymm0
	vpmovmskb	%ymm0, %eax
	andnl	%r10d, %eax, %eax
	je	.LBB22_111
.LBB22_56:
	movq	$-2, %rax
	rolq	%cl, %rax
	andq	%rax, %rbx
	je	.LBB22_71
.LBB22_57:
	xorl	%ecx, %ecx
	tzcntq	%rbx, %rcx
	leaq	(%rcx,%r15), %rbp
	movq	48(%rsp), %rax
	subq	%rbp, %rax
	cmpq	$32, %r11
	ja	.LBB22_59
	cmpq	$32, %rax
	jae	.LBB22_55
.LBB22_59:
	cmpq	%rax, %rsi
	ja	.LBB22_56
	movq	16(%rsp), %rax
	leaq	(%rax,%rbp), %rdi
	cmpq	$4, %rsi
	jae	.LBB22_68
	testq	%rsi, %rsi
	je	.LBB22_111
	movzbl	(%rdi), %eax
	movq	32(%rsp), %r8
	cmpb	(%r8), %al
	jne	.LBB22_70
	cmpq	$1, %rsi
	je	.LBB22_111
	movzbl	1(%rdi), %r8d
	movl	$1, %eax
	movq	32(%rsp), %r9
	cmpb	1(%r9), %r8b
	jne	.LBB22_67
	cmpq	$2, %rsi
	je	.LBB22_111
	movzbl	2(%rdi), %edi
	movl	$2, %eax
	movq	32(%rsp), %r8
	cmpb	2(%r8), %dil
	je	.LBB22_111
.LBB22_67:
	cmpq	%rsi, %rax
	jb	.LBB22_56
	jmp	.LBB22_111
.LBB22_68:
	movl	(%rdi), %eax
	movq	32(%rsp), %r8
	cmpl	(%r8), %eax
	jne	.LBB22_56
	movq	32(%rsp), %rdx
	movq	%rcx, %r14
	movq	%r11, %r12
	vzeroupper
	callq	L_23
	movq	40(%rsp), %r10
	vmovdqu	128(%rsp), %ymm11
	vmovdqu	160(%rsp), %ymm10
	movq	%r12, %r11
	vmovdqu	192(%rsp), %ymm9
	movq	8(%rsp), %rsi
	movq	%r14, %rcx
	movq	112(%rsp), %r14
	movq	24(%rsp), %rdx
	movq	240(%rsp), %r12
	testb	%al, %al
	je	.LBB22_56
	jmp	.LBB22_111
.LBB22_70:
	xorl	%eax, %eax
	cmpq	%rsi, %rax
	jb	.LBB22_56
	jmp	.LBB22_111
.LBB22_71:
	xorl	%eax, %eax
	movl	$0, %ecx
	cmpq	%r14, %r13
	movq	104(%rsp), %r8
	movq	56(%rsp), %r9
	movq	64(%rsp), %rdi
	movq	72(%rsp), %rbp
	jb	.LBB22_34
	jmp	.LBB22_112
.LBB22_72:
	vmovd	%edi, %xmm0
	vpbroadcastb	%xmm0, %ymm0
	leaq	(%r12,%rsi), %r8
	addq	$32, %r8
	movq	%rdx, %r9
	subq	%r12, %r9
	leaq	-64(%r9), %r10
	xorl	%r11d, %r11d
.LBB22_73:
	movq	%r14, %rax
	subq	%r11, %rax
	cmpq	$191, %rax
	jbe	.LBB22_84
	leaq	(%rsi,%r12), %rax
	vpcmpeqb	(%rax,%r11), %ymm0, %ymm1
	vpmovmskb	%ymm1, %ecx
	vpcmpeqb	32(%rax,%r11), %ymm0, %ymm1
	vpmovmskb	%ymm1, %eax
	shlq	$32, %rax
	leaq	64(%r11), %rbx
	orq	%rcx, %rax
	jne	.LBB22_105
	movq	%r14, %rax
	subq	%rbx, %rax
	cmpq	$128, %rax
	jb	.LBB22_80
	subq	$-128, %r11
	movq	%r11, %rbx
.LBB22_77:
	leaq	(%rsi,%r12), %rcx
	vpcmpeqb	-64(%rcx,%rbx), %ymm0, %ymm3
	vpcmpeqb	-32(%rcx,%rbx), %ymm0, %ymm4
	vpcmpeqb	(%rcx,%rbx), %ymm0, %ymm1
	vpcmpeqb	32(%rcx,%rbx), %ymm0, %ymm2
	vpor	%ymm2, %ymm1, %ymm5
	vpor	%ymm4, %ymm3, %ymm6
	vpor	%ymm5, %ymm6, %ymm5
	vpmovmskb	%ymm5, %ecx
	testl	%ecx, %ecx
	jne	.LBB22_94
	subq	$-128, %rbx
	addq	$-128, %rax
	cmpq	$127, %rax
	ja	.LBB22_77
	addq	$-64, %rbx
.LBB22_80:
	movq	%rbx, %r11
	cmpq	$32, %rax
	jb	.LBB22_102
	movq	%r9, %rax
	subq	%r11, %rax
.LBB22_82:
	leaq	(%rsi,%r12), %rcx
	vpcmpeqb	(%rcx,%r11), %ymm0, %ymm1
	vpmovmskb	%ymm1, %ecx
	testl	%ecx, %ecx
	jne	.LBB22_104
	addq	$32, %r11
	addq	$-32, %rax
	cmpq	$31, %rax
	ja	.LBB22_82
	jmp	.LBB22_102
.LBB22_84:
	cmpq	$64, %rax
	jb	.LBB22_98
	movq	%r10, %rcx
	subq	%r11, %rcx
	.p2align	4
.LBB22_86:
	vpcmpeqb	-32(%r8,%r11), %ymm0, %ymm1
	vpcmpeqb	(%r8,%r11), %ymm0, %ymm2
	vpor	%ymm2, %ymm1, %ymm3
	vpmovmskb	%ymm3, %ebx
	testl	%ebx, %ebx
	jne	.LBB22_88
	addq	$64, %r11
	addq	$-64, %rax
	addq	$-64, %rcx
	cmpq	$63, %rax
	ja	.LBB22_86
	jmp	.LBB22_98
.LBB22_88:
	cmpq	$64, %rax
	jb	.LBB22_98
	vpmovmskb	%ymm2, %ebx
	shlq	$32, %rbx
	vpmovmskb	%ymm1, %eax
	orq	%rbx, %rax
	jne	.LBB22_93
.LBB22_90:
	cmpq	$64, %rcx
	jb	.LBB22_97
	vpcmpeqb	32(%r8,%r11), %ymm0, %ymm2
	vpcmpeqb	64(%r8,%r11), %ymm0, %ymm1
	vpor	%ymm1, %ymm2, %ymm3
	vpmovmskb	%ymm3, %eax
	addq	$-64, %rcx
	addq	$64, %r11
	testl	%eax, %eax
	je	.LBB22_90
	vpmovmskb	%ymm2, %ebx
	vpmovmskb	%ymm1, %eax
	shlq	$32, %rax
	orq	%rbx, %rax
	testq	%rax, %rax
	je	.LBB22_90
.LBB22_93:
	leaq	64(%r11), %rbx
	jmp	.LBB22_105
.LBB22_94:
	vpmovmskb	%ymm4, %ecx
	shlq	$32, %rcx
	vpmovmskb	%ymm3, %eax
	orq	%rcx, %rax
	je	.LBB22_96
	leaq	-64(%rbx), %r11
	jmp	.LBB22_105
.LBB22_96:
	vpmovmskb	%ymm2, %ecx
	shlq	$32, %rcx
	vpmovmskb	%ymm1, %eax
	orq	%rcx, %rax
	leaq	64(%rbx), %rcx
	jmp	.LBB22_103
.LBB22_97:
	addq	$64, %r11
	movq	%rcx, %rax
.LBB22_98:
	cmpq	$32, %rax
	jb	.LBB22_102
	movq	%r9, %rax
	subq	%r11, %rax
	.p2align	4
.LBB22_100:
	leaq	(%rsi,%r12), %rcx
	vpcmpeqb	(%rcx,%r11), %ymm0, %ymm1
	vpmovmskb	%ymm1, %ecx
	testl	%ecx, %ecx
	jne	.LBB22_104
	addq	$32, %r11
	addq	$-32, %rax
	cmpq	$31, %rax
	ja	.LBB22_100
.LBB22_102:
	vpcmpeqb	-32(%rsi,%rdx), %ymm0, %ymm1
	vpmovmskb	%ymm1, %eax
	movl	%r11d, %ecx
	subl	%r14d, %ecx
	addb	$32, %cl
	shrxq	%rcx, %rax, %rax
	movq	%r11, %rbx
	movq	%r14, %rcx
.LBB22_103:
	movq	%rbx, %r11
	movq	%rcx, %rbx
	testq	%rax, %rax
	jne	.LBB22_105
	jmp	.LBB22_108
.LBB22_104:
	movl	%ecx, %eax
	leaq	32(%r11), %rbx
	.p2align	4
.LBB22_105:
	xorl	%ecx, %ecx
	tzcntq	%rax, %rcx
	leaq	(%rcx,%r11), %rbp
	leaq	(%rsi,%r12), %r14
	cmpb	%dil, (%r14,%rbp)
	je	.LBB22_111
	movq	$-2, %r14
	rolq	%cl, %r14
	andq	%r14, %rax
	jne	.LBB22_105
	movq	48(%rsp), %r14
.LBB22_108:
	xorl	%eax, %eax
	movq	%rbx, %r11
	movl	$0, %ecx
	cmpq	%r14, %rbx
	jb	.LBB22_73
	jmp	.LBB22_112
.LBB22_113:
	movq	8(%rsp), %rcx
	movq	%rcx, %rax
	subq	%r9, %rax
	movq	%rax, 80(%rsp)
	vpbroadcastb	%xmm2, %ymm2
	vpbroadcastb	%xmm3, %ymm3
	leaq	(%rsi,%r12), %rax
	leaq	(%rax,%r13), %rdi
	addq	$32, %rdi
	leaq	(%r15,%rax), %r9
	addq	$32, %r9
	subq	%rcx, %rdx
	subq	%r12, %rdx
	leaq	-63(%rdx), %rax
	movq	%rax, 232(%rsp)
	incq	%rdx
	movl	$1, %eax
	subq	%r8, %rax
	movq	%rax, 120(%rsp)
	leaq	(%r12,%rsi), %rax
	decq	%rax
	movq	%rax, 88(%rsp)
	movl	$1, 40(%rsp)
	xorl	%r13d, %r13d
	movl	$0, 56(%rsp)
	movl	$1, %ebx
	xorl	%esi, %esi
	movq	48(%rsp), %r15
	movq	%rdi, 24(%rsp)
	movq	104(%rsp), %r8
.LBB22_114:
	testl	%ebx, %ebx
	je	.LBB22_122
	cmpl	$51, %ebx
	jb	.LBB22_117
	cmpl	$536870913, %ebx
	leal	-8(,%rbx,8), %eax
	movl	$-1, %ecx
	cmovbl	%eax, %ecx
	xorl	%eax, %eax
	cmpl	56(%rsp), %ecx
	ja	.LBB22_123
.LBB22_117:
	cmpq	$32, %r8
	jae	.LBB22_125
	cmpq	%r8, %r13
	jae	.LBB22_1
	movq	%r13, %rbp
	.p2align	4
.LBB22_120:
	cmpb	%r10b, (%r11,%rbp)
	je	.LBB22_164
	incq	%rbp
	xorl	%eax, %eax
	movl	$0, %ecx
	cmpq	%r8, %rbp
	jb	.LBB22_120
	jmp	.LBB22_112
.LBB22_122:
	movl	40(%rsp), %eax
.LBB22_123:
	xorl	%ebx, %ebx
	cmpq	%r8, %r13
	jae	.LBB22_1
	movq	%r13, %rbp
	movl	%eax, 40(%rsp)
	jmp	.LBB22_168
.LBB22_125:
	movq	%r13, %rbx
	cmpq	%r8, %r13
	jae	.LBB22_1
.LBB22_126:
	movq	%r8, %rax
	subq	%rbx, %rax
	cmpq	$191, %rax
	jbe	.LBB22_133
	movq	16(%rsp), %rax
	addq	%rbx, %rax
	movq	160(%rsp), %rcx
	vpcmpeqb	(%rcx,%rax), %ymm2, %ymm4
	vpcmpeqb	32(%rcx,%rax), %ymm2, %ymm5
	movq	128(%rsp), %rcx
	vpcmpeqb	(%rcx,%rax), %ymm3, %ymm6
	vpand	%ymm6, %ymm4, %ymm4
	vpcmpeqb	32(%rcx,%rax), %ymm3, %ymm6
	vpand	%ymm6, %ymm5, %ymm5
	vpmovmskb	%ymm4, %ecx
	vpmovmskb	%ymm5, %eax
	shlq	$32, %rax
	leaq	64(%rbx), %r14
	orq	%rcx, %rax
	jne	.LBB22_161
	movq	%r8, %rax
	subq	%r14, %rax
	cmpq	$128, %rax
	jb	.LBB22_144
	addq	$192, %rbx
	movq	%rbx, %rcx
	movq	64(%rsp), %rdi
.LBB22_130:
	vpcmpeqb	-128(%r11,%rcx), %ymm0, %ymm4
	vpcmpeqb	-128(%rdi,%rcx), %ymm1, %ymm5
	vpand	%ymm5, %ymm4, %ymm5
	vpcmpeqb	-96(%r11,%rcx), %ymm0, %ymm4
	vpcmpeqb	-96(%rdi,%rcx), %ymm1, %ymm6
	vpcmpeqb	-64(%r11,%rcx), %ymm0, %ymm8
	vpcmpeqb	-64(%rdi,%rcx), %ymm1, %ymm9
	vpand	%ymm6, %ymm4, %ymm7
	vpand	%ymm9, %ymm8, %ymm4
	vpcmpeqb	-32(%r11,%rcx), %ymm0, %ymm6
	vpcmpeqb	-32(%rdi,%rcx), %ymm1, %ymm8
	vpand	%ymm6, %ymm8, %ymm6
	vpor	%ymm6, %ymm4, %ymm8
	vpor	%ymm7, %ymm5, %ymm9
	vpor	%ymm8, %ymm9, %ymm8
	vpmovmskb	%ymm8, %ebx
	testl	%ebx, %ebx
	jne	.LBB22_149
	subq	$-128, %rcx
	addq	$-128, %rax
	cmpq	$127, %rax
	ja	.LBB22_130
	addq	$-128, %rcx
	movq	%rcx, %rbx
	jmp	.LBB22_145
.LBB22_133:
	cmpq	$64, %rax
	jb	.LBB22_153
	leaq	64(%rbx), %rcx
	movq	232(%rsp), %r14
	subq	%rbx, %r14
.LBB22_135:
	vpcmpeqb	-32(%r9,%rbx), %ymm0, %ymm4
	vpcmpeqb	-32(%rdi,%rbx), %ymm1, %ymm5
	vpand	%ymm5, %ymm4, %ymm4
	vpcmpeqb	(%r9,%rbx), %ymm0, %ymm5
	vpcmpeqb	(%rdi,%rbx), %ymm1, %ymm6
	vpand	%ymm6, %ymm5, %ymm5
	vpor	%ymm5, %ymm4, %ymm6
	vpmovmskb	%ymm6, %ebp
	testl	%ebp, %ebp
	jne	.LBB22_137
	addq	$64, %rbx
	addq	$-64, %rax
	addq	$64, %rcx
	addq	$-64, %r14
	cmpq	$63, %rax
	ja	.LBB22_135
	jmp	.LBB22_153
.LBB22_137:
	cmpq	$64, %rax
	jb	.LBB22_153
	vpmovmskb	%ymm5, %r15d
	shlq	$32, %r15
	vpmovmskb	%ymm4, %eax
	orq	%r15, %rax
	movq	48(%rsp), %r15
	movq	64(%rsp), %rdi
	jne	.LBB22_143
.LBB22_139:
	cmpq	$64, %r14
	jb	.LBB22_152
	vpcmpeqb	(%r11,%rcx), %ymm0, %ymm4
	vpcmpeqb	(%rdi,%rcx), %ymm1, %ymm5
	vpand	%ymm5, %ymm4, %ymm4
	vpcmpeqb	32(%r11,%rcx), %ymm0, %ymm5
	vpcmpeqb	32(%rdi,%rcx), %ymm1, %ymm6
	vpand	%ymm6, %ymm5, %ymm5
	vpor	%ymm5, %ymm4, %ymm6
	vpmovmskb	%ymm6, %eax
	addq	$64, %rcx
	addq	$-64, %r14
	testl	%eax, %eax
	je	.LBB22_139
	vpmovmskb	%ymm4, %ebx
	vpmovmskb	%ymm5, %eax
	shlq	$32, %rax
	orq	%rbx, %rax
	testq	%rax, %rax
	je	.LBB22_139
	addq	$-64, %rcx
	movq	%rcx, %rbx
.LBB22_143:
	leaq	64(%rbx), %r14
	jmp	.LBB22_160
.LBB22_144:
	movq	%r14, %rbx
	movq	64(%rsp), %rdi
.LBB22_145:
	cmpq	$32, %rax
	jb	.LBB22_157
	movq	%rdx, %rax
	subq	%rbx, %rax
.LBB22_147:
	vpcmpeqb	(%r11,%rbx), %ymm0, %ymm4
	vpcmpeqb	(%rdi,%rbx), %ymm1, %ymm5
	vpand	%ymm5, %ymm4, %ymm4
	vpmovmskb	%ymm4, %ecx
	testl	%ecx, %ecx
	jne	.LBB22_159
	addq	$32, %rbx
	addq	$-32, %rax
	cmpq	$31, %rax
	ja	.LBB22_147
	jmp	.LBB22_157
.LBB22_149:
	vpmovmskb	%ymm7, %ebx
	shlq	$32, %rbx
	vpmovmskb	%ymm5, %eax
	leaq	-64(%rcx), %r14
	orq	%rbx, %rax
	je	.LBB22_151
	addq	$-128, %rcx
	movq	%rcx, %rbx
	jmp	.LBB22_160
.LBB22_151:
	vpmovmskb	%ymm6, %ebx
	shlq	$32, %rbx
	vpmovmskb	%ymm4, %eax
	orq	%rbx, %rax
	jmp	.LBB22_158
.LBB22_152:
	movq	%r14, %rax
	movq	%rcx, %rbx
.LBB22_153:
	cmpq	$32, %rax
	jb	.LBB22_157
	movq	%rdx, %rax
	subq	%rbx, %rax
	movq	64(%rsp), %rdi
.LBB22_155:
	vpcmpeqb	(%r11,%rbx), %ymm0, %ymm4
	vpcmpeqb	(%rdi,%rbx), %ymm1, %ymm5
	vpand	%ymm5, %ymm4, %ymm4
	vpmovmskb	%ymm4, %ecx
	testl	%ecx, %ecx
	jne	.LBB22_159
	addq	$32, %rbx
	addq	$-32, %rax
	cmpq	$31, %rax
	ja	.LBB22_155
.LBB22_157:
	movq	160(%rsp), %rax
	movq	72(%rsp), %rcx
	vpcmpeqb	(%rcx,%rax), %ymm0, %ymm4
	movq	128(%rsp), %rax
	vpcmpeqb	(%rcx,%rax), %ymm1, %ymm5
	vpand	%ymm5, %ymm4, %ymm4
	vpmovmskb	%ymm4, %eax
	movl	%ebx, %ecx
	subl	%r8d, %ecx
	addb	$32, %cl
	shrxq	%rcx, %rax, %rax
	movq	%rbx, %r14
	movq	%r8, %rcx
.LBB22_158:
	movq	24(%rsp), %rdi
	movq	%r14, %rbx
	movq	%rcx, %r14
	testq	%rax, %rax
	jne	.LBB22_161
	jmp	.LBB22_163
.LBB22_159:
	movl	%ecx, %eax
	leaq	32(%rbx), %r14
.LBB22_160:
	movq	24(%rsp), %rdi
	.p2align	4
.LBB22_161:
	xorl	%ecx, %ecx
	tzcntq	%rax, %rcx
	leaq	(%rcx,%rbx), %rbp
	cmpb	%r10b, (%r11,%rbp)
	je	.LBB22_164
	movq	$-2, %r15
	rolq	%cl, %r15
	andq	%r15, %rax
	movq	48(%rsp), %r15
	jne	.LBB22_161
.LBB22_163:
	xorl	%eax, %eax
	movq	%r14, %rbx
	movl	$0, %ecx
	cmpq	%r8, %r14
	jb	.LBB22_126
	jmp	.LBB22_112
.LBB22_164:
	movq	%rbp, %rax
	subq	%r13, %rax
	movl	40(%rsp), %edi
	incl	%edi
	movl	$-1, %ecx
	movl	%edi, %ebx
	cmovel	%ecx, %ebx
	movq	%rax, %rcx
	shrq	$32, %rcx
	je	.LBB22_166
	movl	$-1, 56(%rsp)
	jmp	.LBB22_167
.LBB22_166:
	addl	56(%rsp), %eax
	movl	$-1, %ecx
	cmovael	%eax, %ecx
	movl	%ecx, 56(%rsp)
.LBB22_167:
	movl	%ebx, 40(%rsp)
.LBB22_168:
	xorl	%ecx, %ecx
	cmpq	%r13, %rbp
	cmovneq	%rcx, %rsi
	movq	8(%rsp), %r14
	leaq	(%rbp,%r14), %r13
	movq	16(%rsp), %rax
	movzbl	-1(%rax,%r13), %eax
	movq	112(%rsp), %rdi
	btq	%rax, %rdi
	movq	24(%rsp), %rdi
	jae	.LBB22_179
	movq	192(%rsp), %rax
	cmpq	%rax, %rsi
	cmovaq	%rsi, %rax
	cmpq	%r14, %rax
	movq	32(%rsp), %r13
	jae	.LBB22_173
	movq	16(%rsp), %rcx
	addq	%rbp, %rcx
	.p2align	4
.LBB22_171:
	movzbl	(%r13,%rax), %r14d
	cmpb	(%rcx,%rax), %r14b
	jne	.LBB22_177
	incq	%rax
	cmpq	%rax, 8(%rsp)
	jne	.LBB22_171
.LBB22_173:
	movq	88(%rsp), %rax
	addq	%rbp, %rax
	movq	192(%rsp), %rcx
	.p2align	4
.LBB22_174:
	cmpq	%rcx, %rsi
	jae	.LBB22_111
	movzbl	-1(%r13,%rcx), %r14d
	cmpb	(%rax,%rcx), %r14b
	leaq	-1(%rcx), %rcx
	je	.LBB22_174
	addq	96(%rsp), %rbp
	movq	80(%rsp), %rcx
	jmp	.LBB22_178
.LBB22_177:
	addq	120(%rsp), %rbp
	addq	%rax, %rbp
	xorl	%ecx, %ecx
.LBB22_178:
	movq	%rbp, %r13
	movq	8(%rsp), %r14
.LBB22_179:
	addq	%r13, %r14
	xorl	%eax, %eax
	movq	%rcx, %rsi
	movl	$0, %ecx
	cmpq	%r15, %r14
	jbe	.LBB22_114
	jmp	.LBB22_112
.LBB22_180:
	subq	%r13, %rdi
	movl	$1, %r10d
	subq	%r8, %r10
	addq	%r12, %rsi
	decq	%rsi
	xorl	%ebx, %ebx
	xorl	%r11d, %r11d
	movq	48(%rsp), %r15
	jmp	.LBB22_183
.LBB22_181:
	xorl	%r11d, %r11d
.LBB22_182:
	movq	8(%rsp), %rax
	leaq	(%rcx,%rax), %r14
	xorl	%eax, %eax
	movq	%rcx, %rbx
	movl	$0, %ecx
	cmpq	%r15, %r14
	movq	%r9, %r14
	ja	.LBB22_112
.LBB22_183:
	xorl	%ecx, %ecx
	cmpq	%r14, %rbx
	movl	$0, %ebp
	cmovbq	%rbx, %rbp
	jae	.LBB22_272
	movq	8(%rsp), %r14
	leaq	(%rbx,%r14), %rcx
	movq	16(%rsp), %rax
	movzbl	-1(%rax,%rcx), %eax
	btq	%rax, %rdx
	jae	.LBB22_181
	cmpq	%r8, %r11
	movq	%r8, %rax
	cmovaq	%r11, %rax
	cmpq	%r14, %rax
	movq	32(%rsp), %r14
	jae	.LBB22_189
	addq	16(%rsp), %rbx
	.p2align	4
.LBB22_187:
	movzbl	(%r14,%rax), %ecx
	cmpb	(%rbx,%rax), %cl
	jne	.LBB22_193
	incq	%rax
	cmpq	%rax, 8(%rsp)
	jne	.LBB22_187
.LBB22_189:
	leaq	(%rsi,%rbp), %rax
	movq	%r8, %rcx
	.p2align	4
.LBB22_190:
	cmpq	%rcx, %r11
	jae	.LBB22_111
	movzbl	-1(%r14,%rcx), %ebx
	cmpb	(%rax,%rcx), %bl
	leaq	-1(%rcx), %rcx
	je	.LBB22_190
	addq	%r13, %rbp
	movq	%rdi, %r11
	movq	%rbp, %rcx
	jmp	.LBB22_182
.LBB22_193:
	addq	%r10, %rbp
	addq	%rax, %rbp
	xorl	%r11d, %r11d
	movq	%rbp, %rcx
	jmp	.LBB22_182
.LBB22_194:
	leaq	(%rax,%rbp), %rcx
	incq	%rcx
	movq	8(%rsp), %r14
	movq	%rsi, %r13
.LBB22_195:
	addq	%rcx, %r14
	xorl	%eax, %eax
	movq	%rcx, %rbx
	movl	$0, %ecx
	cmpq	%r15, %r14
	movq	%r9, %r14
	ja	.LBB22_112
.LBB22_196:
	xorl	%ecx, %ecx
	cmpq	%r14, %rbx
	movl	$0, %ebp
	cmovbq	%rbx, %rbp
	jae	.LBB22_272
	movq	8(%rsp), %r14
	leaq	(%rbx,%r14), %rcx
	movq	16(%rsp), %rax
	movzbl	-1(%rax,%rcx), %eax
	btq	%rax, %rdx
	jae	.LBB22_195
	movq	%r13, %rsi
	cmpq	%r8, %r14
	movq	32(%rsp), %r13
	jbe	.LBB22_202
	addq	%r10, %rbx
	xorl	%eax, %eax
	.p2align	4
.LBB22_200:
	movzbl	(%r11,%rax), %ecx
	cmpb	(%rbx,%rax), %cl
	jne	.LBB22_194
	incq	%rax
	cmpq	%rax, %rdi
	jne	.LBB22_200
.LBB22_202:
	movq	40(%rsp), %rax
	addq	%rbp, %rax
	movq	%r8, %rbx
	movq	%r8, %rcx
	.p2align	4
.LBB22_203:
	subq	$1, %rcx
	jb	.LBB22_111
	movzbl	-1(%r13,%rbx), %r14d
	cmpb	(%rax,%rbx), %r14b
	movq	%rcx, %rbx
	je	.LBB22_203
	movq	%rsi, %r13
	addq	%rsi, %rbp
	movq	%rbp, %rcx
	movq	8(%rsp), %r14
	jmp	.LBB22_195
.LBB22_272:
	xorl	%eax, %eax
	jmp	.LBB22_112
.Lfunc_end22:
	.section	.rdata$028,"dr"
	.p2align	2, 0x0
.LJTI22_0:
	.long	.LBB22_111-.LJTI22_0
	.long	.LBB22_3-.LJTI22_0
	.long	.LBB22_11-.LJTI22_0
	.long	.LBB22_30-.LJTI22_0
	.long	.LBB22_8-.LJTI22_0

	.section	.text$029,"xr"
	.p2align	4
L_24:
	leaq	-8(%rdx), %rax
	cmpq	$8, %rax
	movl	$8, %ecx
	cmovbq	%rax, %rcx
	cmpq	$16, %rax
	movl	$16, %r8d
	cmovbq	%rax, %r8
	vmovq	(%rdi), %xmm0
	vmovq	(%rsi), %xmm1
	vmovq	(%rdi,%rcx), %xmm2
	vmovq	(%rsi,%rcx), %xmm3
	vmovq	(%rdi,%r8), %xmm4
	vmovq	(%rsi,%r8), %xmm5
	vmovq	-8(%rdi,%rdx), %xmm6
	vmovq	-8(%rsi,%rdx), %xmm7
	vinserti128	$1, %xmm2, %ymm0, %ymm0
	vinserti128	$1, %xmm6, %ymm4, %ymm2
	vpunpcklqdq	%ymm2, %ymm0, %ymm0
	vpermq	$216, %ymm0, %ymm0
	vinserti128	$1, %xmm3, %ymm1, %ymm1
	vinserti128	$1, %xmm7, %ymm5, %ymm2
	vpunpcklqdq	%ymm2, %ymm1, %ymm1
	vpermq	$216, %ymm1, %ymm1
	vpxor	%ymm1, %ymm0, %ymm0
	vptest	%ymm0, %ymm0
	setne	%al
	vzeroupper
	retq
.Lfunc_end23:

	.section	.text$030,"xr"
	.p2align	4
L_23:
	cmpq	$8, %rsi
	ja	.LBB24_2
	vmovd	(%rdi), %xmm0
	vpinsrd	$1, -4(%rdi,%rsi), %xmm0, %xmm0
	vmovd	(%rdx), %xmm1
	vpinsrd	$1, -4(%rdx,%rsi), %xmm1, %xmm1
	vmovq	%xmm0, %rax
	vmovq	%xmm1, %rcx
	cmpq	%rcx, %rax
	jmp	.LBB24_15
.LBB24_2:
	cmpq	$32, %rsi
	ja	.LBB24_4
	pushq	%rax
	movq	%rsi, %rax
	movq	%rdx, %rsi
	movq	%rax, %rdx
	callq	L_24
	addq	$8, %rsp
	xorb	$1, %al
	retq
.LBB24_4:
	cmpq	$65, %rsi
	jae	.LBB24_5
	vmovdqu	(%rdi), %ymm0
	vmovdqu	-32(%rdi,%rsi), %ymm1
	vpxor	-32(%rdx,%rsi), %ymm1, %ymm1
	vpxor	(%rdx), %ymm0, %ymm0
	vpor	%ymm1, %ymm0, %ymm0
	jmp	.LBB24_14
.LBB24_5:
	xorl	%eax, %eax
	movq	%rsi, %rcx
	.p2align	4
.LBB24_6:
	vmovdqu	(%rdi,%rax), %ymm0
	vmovdqu	32(%rdi,%rax), %ymm1
	vpxor	32(%rdx,%rax), %ymm1, %ymm1
	vpxor	(%rdx,%rax), %ymm0, %ymm0
	vpor	%ymm0, %ymm1, %ymm0
	vptest	%ymm0, %ymm0
	jne	.LBB24_8
	addq	$64, %rax
	addq	$-64, %rcx
	cmpq	$63, %rcx
	ja	.LBB24_6
.LBB24_8:
	cmpq	$32, %rcx
	jb	.LBB24_13
	movq	%rsi, %rcx
	subq	%rax, %rcx
	.p2align	4
.LBB24_10:
	vmovdqu	(%rdi,%rax), %ymm0
	vpxor	(%rdx,%rax), %ymm0, %ymm0
	vptest	%ymm0, %ymm0
	jne	.LBB24_12
	addq	$32, %rax
	addq	$-32, %rcx
	cmpq	$32, %rcx
	jae	.LBB24_10
	jmp	.LBB24_13
.LBB24_12:
	movb	$1, %al
	cmpq	$31, %rcx
	ja	.LBB24_16
.LBB24_13:
	vmovdqu	-32(%rdi,%rsi), %ymm0
	vpxor	-32(%rdx,%rsi), %ymm0, %ymm0
.LBB24_14:
	vptest	%ymm0, %ymm0
.LBB24_15:
	setne	%al
.LBB24_16:
	xorb	$1, %al
	vzeroupper
	retq
.Lfunc_end24:

	.section	.text$031,"xr"
	.p2align	4
L_25:
	cmpq	%rcx, %rsi
	jae	.LBB25_3
	xorl	%eax, %eax
	retq
.LBB25_3:
	cmpq	$3, %rcx
	ja	.LBB25_7
	testq	%rcx, %rcx
	je	.LBB25_5
	movzbl	(%rdx), %eax
	xorb	(%rdi), %al
	movq	%rcx, %rsi
	shrq	%rsi
	movzbl	(%rdx,%rsi), %r8d
	xorb	(%rdi,%rsi), %r8b
	orb	%al, %r8b
	movzbl	-1(%rdx,%rcx), %eax
	xorb	-1(%rdi,%rcx), %al
	orb	%r8b, %al
	jmp	.LBB25_22
.LBB25_7:
	cmpq	$8, %rcx
	ja	.LBB25_9
	vmovd	(%rdx), %xmm0
	vpinsrd	$1, -4(%rdx,%rcx), %xmm0, %xmm0
	vmovd	(%rdi), %xmm1
	vpinsrd	$1, -4(%rdi,%rcx), %xmm1, %xmm1
	vmovq	%xmm0, %rax
	vmovq	%xmm1, %rcx
	cmpq	%rcx, %rax
	jmp	.LBB25_22
.LBB25_9:
	cmpq	$32, %rcx
	ja	.LBB25_11
	pushq	%rax
	movq	%rdi, %rsi
	movq	%rdx, %rdi
	movq	%rcx, %rdx
	callq	L_24
	addq	$8, %rsp
	xorb	$1, %al
	retq
.LBB25_5:
	xorl	%eax, %eax
	xorb	$1, %al
	retq
.LBB25_11:
	cmpq	$65, %rcx
	jae	.LBB25_12
	vmovdqu	(%rdx), %ymm0
	vmovdqu	-32(%rdx,%rcx), %ymm1
	vpxor	-32(%rdi,%rcx), %ymm1, %ymm1
	vpxor	(%rdi), %ymm0, %ymm0
	vpor	%ymm1, %ymm0, %ymm0
	jmp	.LBB25_21
.LBB25_12:
	xorl	%eax, %eax
	movq	%rcx, %rsi
	.p2align	4
.LBB25_13:
	vmovdqu	(%rdx,%rax), %ymm0
	vmovdqu	32(%rdx,%rax), %ymm1
	vpxor	32(%rdi,%rax), %ymm1, %ymm1
	vpxor	(%rdi,%rax), %ymm0, %ymm0
	vpor	%ymm0, %ymm1, %ymm0
	vptest	%ymm0, %ymm0
	jne	.LBB25_15
	addq	$64, %rax
	addq	$-64, %rsi
	cmpq	$63, %rsi
	ja	.LBB25_13
.LBB25_15:
	cmpq	$32, %rsi
	jb	.LBB25_20
	movq	%rcx, %rsi
	subq	%rax, %rsi
	.p2align	4
.LBB25_17:
	vmovdqu	(%rdx,%rax), %ymm0
	vpxor	(%rdi,%rax), %ymm0, %ymm0
	vptest	%ymm0, %ymm0
	jne	.LBB25_19
	addq	$32, %rax
	addq	$-32, %rsi
	cmpq	$32, %rsi
	jae	.LBB25_17
	jmp	.LBB25_20
.LBB25_19:
	movb	$1, %al
	cmpq	$31, %rsi
	ja	.LBB25_23
.LBB25_20:
	vmovdqu	-32(%rdx,%rcx), %ymm0
	vpxor	-32(%rdi,%rcx), %ymm0, %ymm0
.LBB25_21:
	vptest	%ymm0, %ymm0
.LBB25_22:
	setne	%al
.LBB25_23:
	xorb	$1, %al
	vzeroupper
	retq
.Lfunc_end25:

	.section	.text$032,"xr"
	.p2align	4
L_26:
	pushq	%rbp
	movq	%rsp, %rbp
	pushq	%r15
	pushq	%r14
	pushq	%r13
	pushq	%r12
	pushq	%rbx
	andq	$-32, %rsp
	subq	$128, %rsp
	vpxor	%xmm0, %xmm0, %xmm0
	vmovdqa	%ymm0, 32(%rsp)
	testq	%rdx, %rdx
	je	.LBB26_1
	cmpq	$1, %rdx
	jne	.LBB26_3
	movzbl	(%rsi), %r15d
	movb	$1, %al
	xorl	%ecx, %ecx
	xorl	%r8d, %r8d
	jmp	.LBB26_34
.LBB26_1:
	vmovq	%rdx, %xmm0
	vpbroadcastq	%xmm0, %ymm0
	xorl	%eax, %eax
	xorl	%r15d, %r15d
	xorl	%ecx, %ecx
	movq	%rdx, %r8
	jmp	.LBB26_34
.LBB26_3:
	movzbl	(%rsi), %ecx
	movzbl	1(%rsi), %r8d
	leaq	.Lstatic.3(%rip), %rax
	movzbl	(%r8,%rax), %r9d
	cmpb	(%rcx,%rax), %r9b
	jae	.LBB26_4
	movb	$1, %r15b
	xorl	%r12d, %r12d
	movl	%ecx, %r9d
	movl	%r8d, %ecx
	cmpq	$2, %rdx
	jne	.LBB26_7
	jmp	.LBB26_25
.LBB26_4:
	movb	$1, %r12b
	xorl	%r15d, %r15d
	movl	%r8d, %r9d
	cmpq	$2, %rdx
	je	.LBB26_25
.LBB26_7:
	cmpq	$255, %rdx
	movl	$255, %r11d
	cmovbq	%rdx, %r11
	movl	$2, %r8d
	cmpq	$3, %rdx
	je	.LBB26_21
	movq	%r11, 24(%rsp)
	andl	$254, %r11d
	movb	$3, %bl
	jmp	.LBB26_9
	.p2align	4
.LBB26_15:
	movl	%r15d, %r12d
	movl	%r14d, %r9d
	movl	%ebx, %r15d
	addq	$2, %r8
	addb	$2, %bl
	cmpq	%r8, %r11
	je	.LBB26_20
.LBB26_9:
	movzbl	(%rsi,%r8), %r14d
	movzbl	(%r14,%rax), %r13d
	movzbl	%cl, %r10d
	cmpb	(%r10,%rax), %r13b
	jae	.LBB26_11
	movl	%r15d, %r12d
	movl	%ecx, %r9d
	movl	%r8d, %r15d
	jmp	.LBB26_14
	.p2align	4
.LBB26_11:
	cmpb	%cl, %r14b
	je	.LBB26_13
	movzbl	%r9b, %r10d
	cmpb	(%r10,%rax), %r13b
	movzbl	%r12b, %r12d
	cmovbl	%r8d, %r12d
	movzbl	%r14b, %r9d
	cmovael	%r10d, %r9d
.LBB26_13:
	movl	%ecx, %r14d
.LBB26_14:
	movzbl	1(%rsi,%r8), %ecx
	movzbl	(%rcx,%rax), %r13d
	movzbl	%r14b, %r10d
	cmpb	(%r10,%rax), %r13b
	jb	.LBB26_15
	cmpb	%r14b, %cl
	je	.LBB26_18
	movzbl	%r9b, %r10d
	cmpb	(%r10,%rax), %r13b
	movzbl	%bl, %r9d
	movzbl	%r12b, %r12d
	cmovbl	%r9d, %r12d
	movzbl	%cl, %r9d
	cmovael	%r10d, %r9d
.LBB26_18:
	movl	%r14d, %ecx
	addq	$2, %r8
	addb	$2, %bl
	cmpq	%r8, %r11
	jne	.LBB26_9
.LBB26_20:
	testb	$1, 24(%rsp)
	je	.LBB26_25
.LBB26_21:
	movzbl	(%rsi,%r8), %r11d
	movzbl	(%r11,%rax), %r10d
	movzbl	%cl, %ebx
	cmpb	(%rbx,%rax), %r10b
	jae	.LBB26_22
	movl	%r15d, %r12d
	movl	%r8d, %r15d
	jmp	.LBB26_25
.LBB26_22:
	cmpb	%cl, %r11b
	je	.LBB26_25
	movzbl	%r9b, %ecx
	cmpb	(%rcx,%rax), %r10b
	movzbl	%r12b, %r12d
	cmovbl	%r8d, %r12d
.LBB26_25:
	movzbl	%r15b, %ecx
	movzbl	(%rsi,%rcx), %r9d
	movzbl	%r12b, %eax
	cmpb	%r9b, (%rsi,%rax)
	jne	.LBB26_30
	cmpq	$255, %rdx
	movl	$255, %r10d
	cmovbq	%rdx, %r10
	xorl	%r8d, %r8d
	.p2align	4
.LBB26_27:
	cmpb	%r9b, (%rsi,%r8)
	jne	.LBB26_28
	incq	%r8
	cmpq	%r8, %r10
	jne	.LBB26_27
.LBB26_30:
	movq	%rdi, %r13
	cmpq	$33, %rdx
	jae	.LBB26_32
.LBB26_31:
	vpxor	%xmm0, %xmm0, %xmm0
	vmovdqa	%ymm0, 64(%rsp)
	leaq	64(%rsp), %rdi
	movq	%rsi, %rbx
	movq	%rdx, %r14
	vzeroupper
	callq	sysv_memcpy
	movq	%rbx, %rsi
	movq	%r14, %rdx
	vmovdqa	64(%rsp), %ymm0
	movzbl	%r12b, %ecx
	shll	$8, %ecx
	movb	$2, %al
	movq	%r14, %r8
	jmp	.LBB26_33
.LBB26_28:
	movl	%r8d, %r9d
	cmpb	%r8b, %cl
	cmovel	%eax, %r8d
	cmpq	%rcx, %rdx
	movzbl	%r9b, %ecx
	cmovbel	%eax, %r8d
	cmpq	%rcx, %rdx
	cmovbel	%eax, %r8d
	movl	%r8d, %r12d
	movq	%rdi, %r13
	cmpq	$33, %rdx
	jb	.LBB26_31
.LBB26_32:
	leaq	32(%rsp), %rdi
	movq	%rsi, %rbx
	movq	%rdx, %r14
	movl	$1, %ecx
	vzeroupper
	callq	L_21
	movq	%rbx, %rsi
	movq	%r14, %rdx
	movzbl	48(%rsp), %eax
	vmovd	%eax, %xmm0
	vmovq	56(%rsp), %xmm1
	vpunpcklqdq	%xmm1, %xmm0, %xmm0
	vinserti128	$1, %xmm0, %ymm0, %ymm0
	vpblendd	$15, 32(%rsp), %ymm0, %ymm0
	movb	$3, %al
	xorl	%r15d, %r15d
	xorl	%ecx, %ecx
	xorl	%r8d, %r8d
.LBB26_33:
	movq	%r13, %rdi
.LBB26_34:
	movzbl	%r15b, %r9d
	orl	%r9d, %ecx
	movq	$0, (%rdi)
	movq	%rsi, 8(%rdi)
	movq	%rdx, 16(%rdi)
	movq	$0, 24(%rdi)
	movb	%al, 32(%rdi)
	movw	%cx, 33(%rdi)
	movl	$0, 35(%rdi)
	movb	$0, 39(%rdi)
	vmovdqu	%ymm0, 40(%rdi)
	movq	%r8, 72(%rdi)
	leaq	-40(%rbp), %rsp
	popq	%rbx
	popq	%r12
	popq	%r13
	popq	%r14
	popq	%r15
	popq	%rbp
	vzeroupper
	retq
.Lfunc_end26:

	.section	.text$033,"xr"
	.p2align	4
L_27:
	pushq	%rbp
	pushq	%r15
	pushq	%r14
	pushq	%r13
	pushq	%r12
	pushq	%rbx
	subq	$184, %rsp
	movq	16(%rdi), %rbx
	movq	%rdx, %r12
	subq	%rbx, %r12
	jae	.LBB27_2
.LBB27_1:
	xorl	%r15d, %r15d
	xorl	%eax, %eax
	jmp	.LBB27_80
.LBB27_2:
	movq	8(%rdi), %rax
	movq	%rax, 8(%rsp)
	movzbl	32(%rdi), %ecx
	movb	$1, %al
	leaq	.LJTI27_0(%rip), %r8
	movslq	(%r8,%rcx,4), %rcx
	addq	%r8, %rcx
	jmpq	*%rcx
.LBB27_3:
	movzbl	33(%rdi), %edi
	cmpq	$32, %rdx
	jb	.LBB27_14
	vmovd	%edi, %xmm0
	vpbroadcastb	%xmm0, %ymm0
.LBB27_5:
	vpcmpeqb	-32(%rsi,%rdx), %ymm0, %ymm1
	vpmovmskb	%ymm1, %ecx
	testl	%ecx, %ecx
	je	.LBB27_9
	leaq	-32(%rdx), %r8
	movl	%ecx, %r9d
	.p2align	4
.LBB27_7:
	bsrq	%r9, %rcx
	leaq	(%rcx,%r8), %r15
	cmpb	%dil, (%rsi,%r15)
	je	.LBB27_80
	movq	$-2, %r10
	rolq	%cl, %r10
	andq	%r10, %r9
	jne	.LBB27_7
.LBB27_9:
	movq	%rdx, %r8
	.p2align	4
.LBB27_10:
	movq	%r8, %rcx
	leaq	-32(%r8), %rdx
	cmpq	$128, %rdx
	jb	.LBB27_12
	vpcmpeqb	-160(%rsi,%rcx), %ymm0, %ymm1
	vpcmpeqb	-128(%rsi,%rcx), %ymm0, %ymm2
	vpcmpeqb	-96(%rsi,%rcx), %ymm0, %ymm3
	vpor	%ymm2, %ymm1, %ymm1
	vpcmpeqb	-64(%rsi,%rcx), %ymm0, %ymm2
	vpor	%ymm2, %ymm3, %ymm2
	vpor	%ymm2, %ymm1, %ymm1
	vpmovmskb	%ymm1, %r9d
	leaq	-128(%rcx), %r8
	testl	%r9d, %r9d
	je	.LBB27_10
.LBB27_12:
	cmpq	$31, %rdx
	ja	.LBB27_5
	addq	$-32, %rcx
	movq	%rcx, %rdx
	.p2align	4
.LBB27_14:
	testq	%rdx, %rdx
	je	.LBB27_1
	leaq	-1(%rdx), %r15
	cmpb	%dil, -1(%rsi,%rdx)
	movq	%r15, %rdx
	jne	.LBB27_14
	jmp	.LBB27_80
.LBB27_16:
	vmovdqu	40(%rdi), %ymm4
	movq	72(%rdi), %r9
	incq	%r12
	cmpq	$32, %r12
	jb	.LBB27_82
	movzbl	33(%rdi), %eax
	movzbl	34(%rdi), %ecx
	leaq	(%rsi,%rax), %rbp
	leaq	(%rsi,%rcx), %r14
	movq	8(%rsp), %rdi
	vpbroadcastb	(%rdi,%rax), %ymm5
	vpbroadcastb	(%rdi,%rcx), %ymm6
	leaq	-1(%rbx), %rax
	movq	%rax, 24(%rsp)
	leaq	-1(%rsi,%rbx), %rax
	movq	%rax, 72(%rsp)
	movq	$-1, %rax
	shlxq	%r9, %rax, %r10
	notq	%r10
	jmp	.LBB27_19
	.p2align	4
.LBB27_18:
	cmpq	$31, %r12
	jbe	.LBB27_81
.LBB27_19:
	vpcmpeqb	-32(%rbp,%r12), %ymm5, %ymm0
	vpcmpeqb	-32(%r14,%r12), %ymm6, %ymm1
	vpand	%ymm1, %ymm0, %ymm0
	vpmovmskb	%ymm0, %eax
	testl	%eax, %eax
	je	.LBB27_43
	leaq	-32(%r12), %r11
	movq	8(%rsp), %rax
	movzbl	(%rax), %r8d
	vmovd	%r8d, %xmm1
	vpbroadcastb	%xmm1, %ymm1
	movq	24(%rsp), %rcx
	vpbroadcastb	(%rax,%rcx), %ymm2
	vpcmpeqb	(%rsi,%r11), %ymm1, %ymm1
	movq	72(%rsp), %rax
	vpcmpeqb	(%rax,%r11), %ymm2, %ymm2
	vpand	%ymm2, %ymm1, %ymm1
	vpand	%ymm1, %ymm0, %ymm0
	vpmovmskb	%ymm0, %eax
	testl	%eax, %eax
	je	.LBB27_43
	movl	%eax, %r13d
	cmpq	$4, %rbx
	jb	.LBB27_32
	movq	%rsi, 16(%rsp)
	movq	%rdx, 64(%rsp)
	movq	%rbx, 56(%rsp)
	vmovdqu	%ymm4, 80(%rsp)
	movq	%r9, 48(%rsp)
	vmovdqu	%ymm5, 144(%rsp)
	vmovdqu	%ymm6, 112(%rsp)
	movl	%r8d, 44(%rsp)
	jmp	.LBB27_25
	.p2align	4
.LBB27_23:
	vpcmpeqb	(%rsi,%r15), %ymm4, %ymm0
	vpmovmskb	%ymm0, %eax
	andnl	%r10d, %eax, %eax
	je	.LBB27_79
.LBB27_24:
	movq	$-2, %rax
	rolq	%cl, %rax
	andq	%rax, %r13
	je	.LBB27_43
.LBB27_25:
	bsrq	%r13, %rcx
	leaq	(%rcx,%r11), %r15
	movq	%rdx, %rax
	subq	%r15, %rax
	cmpq	$32, %r9
	ja	.LBB27_27
	cmpq	$32, %rax
	jae	.LBB27_23
.LBB27_27:
	cmpq	%rax, %rbx
	ja	.LBB27_24
	movq	8(%rsp), %rdi
	movzwl	1(%rdi), %eax
	vmovd	%eax, %xmm0
	vpslld	$8, %xmm0, %xmm0
	vpinsrb	$0, %r8d, %xmm0, %xmm0
	vpinsrb	$3, 3(%rdi), %xmm0, %xmm0
	vmovd	%xmm0, %eax
	cmpl	%eax, (%rsi,%r15)
	jne	.LBB27_24
	leaq	(%rsi,%r15), %rdi
	movq	%rbx, %rsi
	movq	8(%rsp), %rdx
	movq	%rcx, 32(%rsp)
	movq	%r10, %rbx
	vzeroupper
	callq	L_23
	movl	44(%rsp), %r8d
	leaq	-32(%r12), %r11
	movq	%rbx, %r10
	vmovdqu	112(%rsp), %ymm6
	vmovdqu	144(%rsp), %ymm5
	movq	48(%rsp), %r9
	vmovdqu	80(%rsp), %ymm4
	movq	32(%rsp), %rcx
	movq	56(%rsp), %rbx
	movq	16(%rsp), %rsi
	movq	64(%rsp), %rdx
	testb	%al, %al
	je	.LBB27_24
	jmp	.LBB27_79
.LBB27_41:
	cmpq	%rbx, %rax
	jae	.LBB27_79
.LBB27_31:
	movq	$-2, %rax
	rolq	%cl, %rax
	andq	%rax, %r13
	je	.LBB27_43
.LBB27_32:
	bsrq	%r13, %rcx
	leaq	(%rcx,%r11), %r15
	movq	%rdx, %rax
	subq	%r15, %rax
	cmpq	$32, %r9
	ja	.LBB27_34
	cmpq	$31, %rax
	jbe	.LBB27_34
	vpcmpeqb	(%rsi,%r15), %ymm4, %ymm0
	vpmovmskb	%ymm0, %eax
	andnl	%r10d, %eax, %eax
	jne	.LBB27_31
	jmp	.LBB27_79
	.p2align	4
.LBB27_34:
	cmpq	%rax, %rbx
	ja	.LBB27_31
	testq	%rbx, %rbx
	je	.LBB27_79
	movzbl	(%rsi,%r15), %eax
	movq	8(%rsp), %rdi
	cmpb	(%rdi), %al
	jne	.LBB27_42
	cmpq	$1, %rbx
	je	.LBB27_79
	movzbl	1(%rsi,%r15), %edi
	movl	$1, %eax
	movq	8(%rsp), %r8
	cmpb	1(%r8), %dil
	jne	.LBB27_41
	cmpq	$2, %rbx
	je	.LBB27_79
	movzbl	2(%rsi,%r15), %edi
	movl	$2, %eax
	movq	8(%rsp), %r8
	cmpb	2(%r8), %dil
	jne	.LBB27_41
	jmp	.LBB27_79
.LBB27_42:
	xorl	%eax, %eax
	cmpq	%rbx, %rax
	jb	.LBB27_31
	jmp	.LBB27_79
	.p2align	4
.LBB27_43:
	addq	$-64, %r12
	movq	%r12, %rcx
	.p2align	4
.LBB27_44:
	movq	%rcx, %rax
	leaq	32(%rcx), %r12
	cmpq	$128, %r12
	jb	.LBB27_18
	vpcmpeqb	-96(%rbp,%rax), %ymm5, %ymm0
	vpcmpeqb	-96(%r14,%rax), %ymm6, %ymm1
	vpcmpeqb	-64(%rbp,%rax), %ymm5, %ymm2
	vpand	%ymm1, %ymm0, %ymm0
	vpcmpeqb	-64(%r14,%rax), %ymm6, %ymm1
	vpand	%ymm1, %ymm2, %ymm1
	vpcmpeqb	-32(%rbp,%rax), %ymm5, %ymm2
	vpcmpeqb	-32(%r14,%rax), %ymm6, %ymm3
	vpor	%ymm1, %ymm0, %ymm0
	vpand	%ymm3, %ymm2, %ymm1
	vpcmpeqb	(%rbp,%rax), %ymm5, %ymm2
	vpcmpeqb	(%r14,%rax), %ymm6, %ymm3
	vpand	%ymm3, %ymm2, %ymm2
	vpor	%ymm2, %ymm1, %ymm1
	vpor	%ymm1, %ymm0, %ymm0
	vpmovmskb	%ymm0, %edi
	leaq	-128(%rax), %rcx
	testl	%edi, %edi
	je	.LBB27_44
	jmp	.LBB27_18
.LBB27_46:
	testq	%rbx, %rbx
	je	.LBB27_78
	movq	40(%rdi), %rcx
	movq	48(%rdi), %r9
	movq	64(%rdi), %rax
	incq	%r12
	leaq	(%rsi,%rdx), %r10
	cmpb	$0, 56(%rdi)
	movq	%rax, 80(%rsp)
	je	.LBB27_49
	movq	8(%rsp), %rax
	addq	%rbx, %rax
	movq	%r9, %rdi
	subq	%rbx, %rdi
	addq	%rdx, %rsi
	decq	%rsi
	movq	%rsi, 8(%rsp)
	movq	%r9, %r11
	notq	%r11
	movq	%rax, %rsi
	addq	%rax, %r11
	movq	%r9, %r8
	negq	%r8
	xorl	%r14d, %r14d
	jmp	.LBB27_67
.LBB27_49:
	movq	%rbx, %rdi
	subq	%rax, %rdi
	movq	%rdi, 32(%rsp)
	movl	$1, %eax
	subq	%r9, %rax
	movq	%rax, 24(%rsp)
	movq	%rbx, %r14
	negq	%r14
	leaq	(%rsi,%rdx), %rax
	decq	%rax
	movq	%rax, 16(%rsp)
	movq	8(%rsp), %r11
	leaq	(%r11,%rbx), %r13
	decq	%r13
	addq	%rbx, %r11
	movq	%r9, %rax
	negq	%rax
	movq	%rax, 8(%rsp)
	xorl	%esi, %esi
	xorl	%edi, %edi
	jmp	.LBB27_52
.LBB27_50:
	xorl	%edi, %edi
.LBB27_51:
	leaq	(%rsi,%rbx), %r8
	xorl	%r15d, %r15d
	movl	$0, %eax
	cmpq	%rdx, %r8
	ja	.LBB27_80
.LBB27_52:
	xorl	%r15d, %r15d
	cmpq	%r12, %rsi
	movl	$0, %eax
	cmovbq	%rsi, %rax
	jae	.LBB27_103
	addq	%rbx, %rsi
	movq	%r10, %r8
	subq	%rsi, %r8
	movzbl	(%r8), %r8d
	btq	%r8, %rcx
	jae	.LBB27_50
	cmpq	%r9, %rdi
	movq	%r9, %rsi
	cmovaq	%rdi, %rsi
	movq	%rbx, %rbp
	cmpq	%rbx, %rsi
	jae	.LBB27_58
	negq	%rsi
	movq	16(%rsp), %r8
	subq	%rax, %r8
	.p2align	4
.LBB27_56:
	movzbl	(%r13,%rsi), %ebx
	cmpb	(%r8,%rsi), %bl
	jne	.LBB27_62
	decq	%rsi
	cmpq	%rsi, %r14
	jne	.LBB27_56
.LBB27_58:
	movq	%r10, %rsi
	subq	%rax, %rsi
	movq	8(%rsp), %r15
	movq	%r9, %r8
	.p2align	4
.LBB27_59:
	cmpq	%r8, %rdi
	jae	.LBB27_77
	decq	%r8
	movzbl	(%r11,%r15), %ebx
	cmpb	(%rsi,%r15), %bl
	leaq	1(%r15), %r15
	je	.LBB27_59
	addq	80(%rsp), %rax
	movq	32(%rsp), %rdi
	jmp	.LBB27_63
.LBB27_62:
	addq	24(%rsp), %rax
	subq	%rsi, %rax
	xorl	%edi, %edi
.LBB27_63:
	movq	%rax, %rsi
	movq	%rbp, %rbx
	jmp	.LBB27_51
.LBB27_64:
	subq	%r14, %rax
	incq	%rax
.LBB27_65:
	movq	%rax, %r14
	movq	%rbp, %r13
.LBB27_66:
	leaq	(%r14,%r13), %rbx
	xorl	%r15d, %r15d
	movl	$0, %eax
	cmpq	%rdx, %rbx
	movq	%r13, %rbx
	ja	.LBB27_80
.LBB27_67:
	xorl	%r15d, %r15d
	cmpq	%r12, %r14
	movl	$0, %eax
	cmovbq	%r14, %rax
	jae	.LBB27_103
	addq	%rbx, %r14
	movq	%rbx, %r13
	movq	%r10, %rbx
	subq	%r14, %rbx
	movzbl	(%rbx), %ebx
	btq	%rbx, %rcx
	jae	.LBB27_66
	movq	%r13, %rbp
	cmpq	%r13, %r9
	jae	.LBB27_73
	movq	8(%rsp), %r15
	subq	%r9, %r15
	subq	%rax, %r15
	xorl	%r14d, %r14d
	.p2align	4
.LBB27_71:
	movzbl	(%r11,%r14), %ebx
	cmpb	(%r15,%r14), %bl
	jne	.LBB27_64
	decq	%r14
	cmpq	%r14, %rdi
	jne	.LBB27_71
.LBB27_73:
	movq	%r10, %r14
	subq	%rax, %r14
	movq	%r8, %r15
	.p2align	4
.LBB27_74:
	testq	%r15, %r15
	je	.LBB27_77
	movzbl	(%rsi,%r15), %ebx
	cmpb	(%r14,%r15), %bl
	leaq	1(%r15), %r15
	je	.LBB27_74
	addq	80(%rsp), %rax
	jmp	.LBB27_65
.LBB27_77:
	addq	%rax, %rbp
	subq	%rbp, %rdx
.LBB27_78:
	movq	%rdx, %r15
.LBB27_79:
	movb	$1, %al
.LBB27_80:
	movq	%r15, %rdx
	addq	$184, %rsp
	popq	%rbx
	popq	%r12
	popq	%r13
	popq	%r14
	popq	%r15
	popq	%rbp
	vzeroupper
	retq
.LBB27_103:
	xorl	%eax, %eax
	jmp	.LBB27_80
.LBB27_81:
	addq	$32, %rax
	movq	%rax, %r12
.LBB27_82:
	testq	%r12, %r12
	je	.LBB27_1
	movq	$-1, %rax
	shlxq	%r9, %rax, %r14
	notq	%r14
	leaq	-1(%r12), %r13
	subq	%r12, %rdx
	incq	%rdx
	movq	%rsi, 16(%rsp)
	vmovdqu	%ymm4, 80(%rsp)
	jmp	.LBB27_86
	.p2align	4
.LBB27_84:
	vpcmpeqb	(%rsi,%r13), %ymm4, %ymm0
	vpmovmskb	%ymm0, %eax
	andnl	%r14d, %eax, %eax
	je	.LBB27_101
.LBB27_85:
	incq	%rdx
	xorl	%r15d, %r15d
	movl	$0, %eax
	addq	$-1, %r13
	jae	.LBB27_80
.LBB27_86:
	decq	%r12
	cmpq	$32, %r9
	ja	.LBB27_88
	cmpq	$32, %rdx
	jae	.LBB27_84
.LBB27_88:
	cmpq	%rdx, %rbx
	ja	.LBB27_85
	leaq	(%rsi,%r13), %rdi
	cmpq	$4, %rbx
	jae	.LBB27_97
	testq	%rbx, %rbx
	je	.LBB27_101
	movzbl	(%rdi), %eax
	movq	8(%rsp), %rcx
	cmpb	(%rcx), %al
	jne	.LBB27_99
	cmpq	$1, %rbx
	je	.LBB27_101
	movzbl	1(%rsi,%r13), %ecx
	movl	$1, %eax
	movq	8(%rsp), %rdi
	cmpb	1(%rdi), %cl
	jne	.LBB27_96
	cmpq	$2, %rbx
	je	.LBB27_101
	movzbl	2(%rsi,%r13), %ecx
	movl	$2, %eax
	movq	8(%rsp), %rdi
	cmpb	2(%rdi), %cl
	je	.LBB27_101
.LBB27_96:
	cmpq	%rbx, %rax
	jb	.LBB27_85
	jmp	.LBB27_100
.LBB27_97:
	movl	(%rdi), %eax
	movq	8(%rsp), %rcx
	cmpl	(%rcx), %eax
	jne	.LBB27_85
	movq	%rbx, %rbp
	movq	%rbx, %rsi
	movq	%rdx, %r15
	movq	8(%rsp), %rdx
	movq	%r9, %rbx
	vzeroupper
	callq	L_23
	movq	%rbx, %r9
	vmovdqu	80(%rsp), %ymm4
	movq	16(%rsp), %rsi
	movq	%rbp, %rbx
	movq	%r15, %rdx
	testb	%al, %al
	je	.LBB27_85
	jmp	.LBB27_101
.LBB27_99:
	xorl	%eax, %eax
	cmpq	%rbx, %rax
	jb	.LBB27_85
.LBB27_100:
	movq	%r13, %r15
	jmp	.LBB27_79
.LBB27_101:
	movq	%r12, %r15
	jmp	.LBB27_79
.Lfunc_end27:
	.section	.rdata$034,"dr"
	.p2align	2, 0x0
.LJTI27_0:
	.long	.LBB27_78-.LJTI27_0
	.long	.LBB27_3-.LJTI27_0
	.long	.LBB27_16-.LJTI27_0
	.long	.LBB27_46-.LJTI27_0

	.section	.rdata$000,"dr"
	.p2align	4, 0x0
.LCPI28_0:
	.byte	1
	.byte	0
	.byte	3
	.byte	2
	.byte	5
	.byte	4
	.byte	7
	.byte	6
	.byte	9
	.byte	8
	.byte	11
	.byte	10
	.byte	13
	.byte	12
	.byte	15
	.byte	14
.LCPI28_1:
	.short	2048
	.short	2048
	.short	2048
	.short	2048
	.short	2048
	.short	2048
	.short	2048
	.short	2048
.LCPI28_2:
	.short	63488
	.short	63488
	.short	63488
	.short	63488
	.short	63488
	.short	63488
	.short	63488
	.short	63488
.LCPI28_3:
	.short	55296
	.short	55296
	.short	55296
	.short	55296
	.short	55296
	.short	55296
	.short	55296
	.short	55296
.LCPI28_4:
	.short	2047
	.short	2047
	.short	2047
	.short	2047
	.short	2047
	.short	2047
	.short	2047
	.short	2047
.LCPI28_5:
	.short	34815
	.short	34815
	.short	34815
	.short	34815
	.short	34815
	.short	34815
	.short	34815
	.short	34815
.LCPI28_6:
	.short	32768
	.short	32768
	.short	32768
	.short	32768
	.short	32768
	.short	32768
	.short	32768
	.short	32768
.LCPI28_7:
	.short	63
	.short	63
	.short	63
	.short	63
	.short	63
	.short	63
	.short	63
	.short	63
.LCPI28_8:
	.short	16128
	.short	16128
	.short	16128
	.short	16128
	.short	16128
	.short	16128
	.short	16128
	.short	16128
.LCPI28_9:
	.zero	16,128
.LCPI28_10:
	.short	224
	.short	224
	.short	224
	.short	224
	.short	224
	.short	224
	.short	224
	.short	224
.LCPI28_11:
	.short	255
	.short	255
	.short	255
	.short	255
	.short	255
	.short	255
	.short	255
	.short	255
.LCPI28_12:
	.short	32992
	.short	32992
	.short	32992
	.short	32992
	.short	32992
	.short	32992
	.short	32992
	.short	32992
.LCPI28_13:
	.byte	128
	.byte	0
	.byte	128
	.byte	0
	.byte	128
	.byte	0
	.byte	128
	.byte	0
	.byte	128
	.byte	0
	.byte	128
	.byte	0
	.byte	128
	.byte	0
	.byte	128
	.byte	0
.LCPI28_14:
	.byte	0
	.byte	1
	.byte	128
	.byte	2
	.byte	3
	.byte	128
	.byte	4
	.byte	5
	.byte	128
	.byte	6
	.byte	7
	.byte	128
	.byte	8
	.byte	9
	.byte	128
	.byte	10
.LCPI28_15:
	.byte	128
	.byte	128
	.byte	0
	.byte	128
	.byte	128
	.byte	2
	.byte	128
	.byte	128
	.byte	4
	.byte	128
	.byte	128
	.byte	6
	.byte	128
	.byte	128
	.byte	8
	.byte	128
.LCPI28_16:
	.byte	6
	.byte	5
	.byte	8
	.byte	10
	.byte	9
	.byte	12
	.byte	14
	.byte	13
	.zero	1
	.zero	1
	.zero	1
	.zero	1
	.zero	1
	.zero	1
	.zero	1
	.zero	1
.LCPI28_17:
	.short	32960
	.short	32960
	.short	32960
	.short	32960
	.short	32960
	.short	32960
	.short	32960
	.short	32960
.LCPI28_18:
	.short	127
	.short	127
	.short	127
	.short	127
	.short	127
	.short	127
	.short	127
	.short	127
.LCPI28_19:
	.byte	1
	.byte	3
	.byte	5
	.byte	7
	.byte	9
	.byte	11
	.byte	13
	.byte	15
	.byte	1
	.byte	3
	.byte	5
	.byte	7
	.byte	9
	.byte	11
	.byte	13
	.byte	15
.LCPI28_20:
	.byte	252
	.byte	252
	.byte	252
	.byte	252
	.byte	252
	.byte	252
	.byte	252
	.byte	252
	.zero	1
	.zero	1
	.zero	1
	.zero	1
	.zero	1
	.zero	1
	.zero	1
	.zero	1
.LCPI28_21:
	.byte	216
	.byte	216
	.byte	216
	.byte	216
	.byte	216
	.byte	216
	.byte	216
	.byte	216
	.zero	1
	.zero	1
	.zero	1
	.zero	1
	.zero	1
	.zero	1
	.zero	1
	.zero	1
.LCPI28_22:
	.zero	16,220
.LCPI28_23:
	.short	10240
	.short	10240
	.short	10240
	.short	10240
	.short	10240
	.short	10240
	.short	10240
	.short	10240
.LCPI28_24:
	.short	4095
	.short	4095
	.short	4095
	.short	4095
	.short	4095
	.short	4095
	.short	4095
	.short	4095
.LCPI28_25:
	.short	8192
	.short	8192
	.short	8192
	.short	8192
	.short	8192
	.short	8192
	.short	8192
	.short	8192
.LCPI28_26:
	.short	9216
	.short	9216
	.short	9216
	.short	9216
	.short	9216
	.short	9216
	.short	9216
	.short	9216
.LCPI28_27:
	.short	752
	.short	752
	.short	752
	.short	752
	.short	752
	.short	752
	.short	752
	.short	752
.LCPI28_28:
	.short	3072
	.short	3072
	.short	3072
	.short	3072
	.short	3072
	.short	3072
	.short	3072
	.short	3072
.LCPI28_29:
	.short	17408
	.short	17408
	.short	17408
	.short	17408
	.short	17408
	.short	17408
	.short	17408
	.short	17408
.LCPI28_30:
	.short	12288
	.short	12288
	.short	12288
	.short	12288
	.short	12288
	.short	12288
	.short	12288
	.short	12288
	.section	.rdata$001,"dr"
	.p2align	2, 0x0
.LCPI28_31:
	.short	34815
	.short	34815
.LCPI28_32:
	.short	32768
	.short	32768
.LCPI28_33:
	.short	255
	.short	255
	.section	.text$035,"xr"
	.p2align	4
L_28:
	pushq	%rbp
	pushq	%r15
	pushq	%r14
	pushq	%r12
	pushq	%rbx
	movq	%rdx, %r8
	movq	%rsi, %rax
	movq	%rsi, %rdx
	shrq	%rdx
	leaq	(%rdx,%rdx,2), %rsi
	addq	$128, %rsi
	cmpq	%rcx, %rsi
	cmovbq	%rsi, %rcx
	cmpq	$16, %rax
	setae	%bl
	setb	%sil
	cmpq	$32, %rcx
	setb	%r9b
	orb	%sil, %r9b
	jne	.LBB28_1
	vpxor	%xmm1, %xmm1, %xmm1
	xorl	%r11d, %r11d
	movq	%rax, %r10
	xorl	%esi, %esi
	xorl	%r9d, %r9d
	.p2align	4
.LBB28_3:
	vmovdqu	(%rdi,%r9), %xmm0
	vpshufb	.LCPI28_0(%rip), %xmm0, %xmm0
	testb	$1, %r11b
	jne	.LBB28_13
	vpmaxuw	.LCPI28_1(%rip), %xmm0, %xmm2
	vpcmpeqw	%xmm2, %xmm0, %xmm2
	vpmovmskb	%xmm2, %ebx
	testl	%ebx, %ebx
	je	.LBB28_9
	vpand	.LCPI28_2(%rip), %xmm0, %xmm2
	vpcmpeqw	.LCPI28_3(%rip), %xmm2, %xmm2
	vpmovmskb	%xmm2, %ebx
	testl	%ebx, %ebx
	je	.LBB28_6
.LBB28_13:
	vpshufb	.LCPI28_19(%rip), %xmm0, %xmm2
	vpand	.LCPI28_20(%rip), %xmm2, %xmm2
	vpcmpeqb	.LCPI28_21(%rip), %xmm2, %xmm3
	vpmovzxbw	%xmm3, %ymm3
	vextracti128	$1, %ymm3, %xmm4
	vpackuswb	%xmm4, %xmm3, %xmm3
	vpmovmskb	%xmm3, %ebx
	vpcmpeqb	.LCPI28_22(%rip), %xmm2, %xmm2
	vpmovmskb	%xmm2, %ebp
	movzbl	%bpl, %r14d
	leal	(%rbx,%rbx), %ebp
	movzbl	%bpl, %r15d
	orq	%r11, %r15
	cmpq	%r14, %r15
	jne	.LBB28_14
	vpaddw	.LCPI28_23(%rip), %xmm0, %xmm2
	vpminuw	%xmm2, %xmm0, %xmm2
	vpmaxuw	.LCPI28_1(%rip), %xmm2, %xmm3
	vpcmpeqw	%xmm3, %xmm2, %xmm2
	vpmovmskb	%xmm2, %r11d
	vpalignr	$14, %xmm1, %xmm0, %xmm1
	vpsllw	$10, %xmm1, %xmm1
	testl	%r11d, %r11d
	je	.LBB28_16
	vpbroadcastd	.LCPI28_31(%rip), %xmm2
	vpsubusw	%xmm0, %xmm2, %xmm2
	vpbroadcastd	.LCPI28_32(%rip), %xmm3
	vpand	%xmm3, %xmm2, %xmm2
	vpand	.LCPI28_24(%rip), %xmm0, %xmm4
	vpsrlw	$3, %xmm2, %xmm5
	vpor	%xmm5, %xmm4, %xmm4
	vpor	.LCPI28_25(%rip), %xmm4, %xmm4
	vpaddw	.LCPI28_26(%rip), %xmm0, %xmm5
	vpsrlw	$2, %xmm5, %xmm5
	vpsubusw	.LCPI28_27(%rip), %xmm5, %xmm5
	vpand	.LCPI28_28(%rip), %xmm1, %xmm1
	vpaddw	%xmm1, %xmm0, %xmm1
	vpaddw	.LCPI28_29(%rip), %xmm1, %xmm1
	vpmaxuw	%xmm1, %xmm5, %xmm1
	vpand	.LCPI28_2(%rip), %xmm0, %xmm5
	vpcmpeqw	.LCPI28_3(%rip), %xmm5, %xmm5
	vpblendvb	%xmm5, %xmm1, %xmm4, %xmm1
	vpsrlw	$6, %xmm1, %xmm4
	vpsllw	$8, %xmm1, %xmm1
	vpand	.LCPI28_8(%rip), %xmm1, %xmm1
	vpaddw	%xmm4, %xmm1, %xmm1
	vpsllw	$8, %xmm0, %xmm4
	vpsrlw	$12, %xmm0, %xmm6
	vpor	%xmm4, %xmm6, %xmm4
	vpor	.LCPI28_10(%rip), %xmm4, %xmm4
	vpor	%xmm3, %xmm1, %xmm1
	vpbroadcastd	.LCPI28_33(%rip), %xmm6
	vpblendvb	%xmm5, %xmm3, %xmm2, %xmm2
	vpsubusw	%xmm0, %xmm6, %xmm3
	vpor	%xmm3, %xmm2, %xmm2
	vpmovmskb	%xmm2, %r11d
	vpunpcklwd	%xmm1, %xmm4, %xmm2
	movzbl	%r11b, %r14d
	xorl	%r15d, %r15d
	popcntl	%r14d, %r15d
	shll	$4, %r14d
	leaq	.Lstatic.7(%rip), %r12
	vpshufb	(%r14,%r12), %xmm2, %xmm2
	vmovdqu	%xmm2, (%r8,%rsi)
	subq	%r15, %rsi
	vpunpckhwd	%xmm1, %xmm4, %xmm1
	shrl	$8, %r11d
	xorl	%r14d, %r14d
	popcntl	%r11d, %r14d
	shll	$4, %r11d
	vpshufb	(%r11,%r12), %xmm1, %xmm1
	vmovdqu	%xmm1, 12(%r8,%rsi)
	subq	%r14, %rsi
	addq	$24, %rsi
	jmp	.LBB28_18
	.p2align	4
.LBB28_16:
	vpaddw	.LCPI28_30(%rip), %xmm0, %xmm2
	vpaddw	.LCPI28_26(%rip), %xmm0, %xmm3
	vpsrlw	$2, %xmm3, %xmm3
	vpsubusw	.LCPI28_27(%rip), %xmm3, %xmm3
	vpand	.LCPI28_28(%rip), %xmm1, %xmm1
	vpaddw	%xmm1, %xmm0, %xmm1
	vpaddw	.LCPI28_29(%rip), %xmm1, %xmm1
	vpmaxuw	%xmm1, %xmm3, %xmm1
	vpxor	%xmm3, %xmm3, %xmm3
	vpcmpgtw	%xmm0, %xmm3, %xmm3
	vpblendvb	%xmm3, %xmm1, %xmm2, %xmm1
	vpsrlw	$6, %xmm1, %xmm2
	vpsllw	$8, %xmm1, %xmm1
	vpand	.LCPI28_8(%rip), %xmm1, %xmm1
	vpaddw	%xmm2, %xmm1, %xmm1
	vpor	.LCPI28_6(%rip), %xmm1, %xmm1
	vpminuw	.LCPI28_18(%rip), %xmm0, %xmm2
	vpcmpeqw	%xmm2, %xmm0, %xmm2
	vpblendvb	%xmm2, %xmm0, %xmm1, %xmm1
	vpacksswb	%xmm2, %xmm2, %xmm2
	vpmovmskb	%xmm2, %r11d
	movzbl	%r11b, %r11d
	xorl	%r14d, %r14d
	popcntl	%r11d, %r14d
	shll	$4, %r11d
	leaq	.Lstatic.6(%rip), %r15
	vpshufb	(%r11,%r15), %xmm1, %xmm1
	vmovdqu	%xmm1, (%r8,%rsi)
	subq	%r14, %rsi
	addq	$16, %rsi
.LBB28_18:
	shrb	$7, %bl
	movzbl	%bl, %r11d
.LBB28_19:
	addq	$16, %r9
	addq	$-16, %r10
	cmpq	$16, %r10
	setae	%bl
	jb	.LBB28_21
	movq	%rcx, %r14
	subq	%rsi, %r14
	vmovdqa	%xmm0, %xmm1
	cmpq	$31, %r14
	ja	.LBB28_3
	jmp	.LBB28_21
.LBB28_9:
	vpmaxuw	.LCPI28_13(%rip), %xmm0, %xmm1
	vpcmpeqw	%xmm1, %xmm0, %xmm1
	vpmovmskb	%xmm1, %r11d
	testl	%r11d, %r11d
	je	.LBB28_10
	vpsllw	$8, %xmm0, %xmm1
	vpand	.LCPI28_8(%rip), %xmm1, %xmm1
	vpsrlw	$6, %xmm0, %xmm2
	vpaddw	%xmm1, %xmm2, %xmm1
	vpaddw	.LCPI28_17(%rip), %xmm1, %xmm1
	vpminuw	.LCPI28_18(%rip), %xmm0, %xmm2
	vpcmpeqw	%xmm2, %xmm0, %xmm2
	vpblendvb	%xmm2, %xmm0, %xmm1, %xmm1
	vpacksswb	%xmm2, %xmm2, %xmm2
	vpmovmskb	%xmm2, %r11d
	movzbl	%r11b, %r11d
	xorl	%ebx, %ebx
	popcntl	%r11d, %ebx
	shll	$4, %r11d
	leaq	.Lstatic.6(%rip), %r14
	vpshufb	(%r11,%r14), %xmm1, %xmm1
	vmovdqu	%xmm1, (%r8,%rsi)
	subq	%rbx, %rsi
	addq	$16, %rsi
	xorl	%r11d, %r11d
	jmp	.LBB28_19
.LBB28_6:
	vpminuw	.LCPI28_4(%rip), %xmm0, %xmm1
	vpcmpeqw	%xmm1, %xmm0, %xmm1
	vpmovmskb	%xmm1, %r11d
	vpsrlw	$12, %xmm0, %xmm1
	testl	%r11d, %r11d
	je	.LBB28_7
	vpbroadcastd	.LCPI28_31(%rip), %xmm2
	vpsubusw	%xmm0, %xmm2, %xmm2
	vpand	.LCPI28_6(%rip), %xmm2, %xmm2
	vpsrlw	$6, %xmm0, %xmm3
	vpand	.LCPI28_7(%rip), %xmm3, %xmm3
	vpsrlw	$9, %xmm2, %xmm4
	vpsllw	$8, %xmm0, %xmm5
	vpand	.LCPI28_8(%rip), %xmm5, %xmm6
	vpor	%xmm3, %xmm6, %xmm3
	vpor	%xmm4, %xmm3, %xmm3
	vpor	.LCPI28_9(%rip), %xmm3, %xmm3
	vpor	%xmm5, %xmm1, %xmm1
	vpor	.LCPI28_10(%rip), %xmm1, %xmm1
	vpbroadcastd	.LCPI28_33(%rip), %xmm4
	vpsubusw	%xmm0, %xmm4, %xmm4
	vpor	%xmm4, %xmm2, %xmm2
	vpmovmskb	%xmm2, %r11d
	vpunpcklwd	%xmm3, %xmm1, %xmm2
	movzbl	%r11b, %ebx
	xorl	%r14d, %r14d
	popcntl	%ebx, %r14d
	shll	$4, %ebx
	leaq	.Lstatic.7(%rip), %r15
	vpshufb	(%rbx,%r15), %xmm2, %xmm2
	vmovdqu	%xmm2, (%r8,%rsi)
	subq	%r14, %rsi
	vpunpckhwd	%xmm3, %xmm1, %xmm1
	shrl	$8, %r11d
	xorl	%ebx, %ebx
	popcntl	%r11d, %ebx
	shll	$4, %r11d
	vpshufb	(%r11,%r15), %xmm1, %xmm1
	vmovdqu	%xmm1, 12(%r8,%rsi)
	subq	%rbx, %rsi
	jmp	.LBB28_8
.LBB28_10:
	vpackuswb	%xmm0, %xmm0, %xmm1
	vmovq	%xmm1, (%r8,%rsi)
	addq	$8, %rsi
	xorl	%r11d, %r11d
	jmp	.LBB28_19
.LBB28_7:
	vpsllw	$2, %xmm0, %xmm2
	vpand	.LCPI28_8(%rip), %xmm2, %xmm2
	vpor	%xmm2, %xmm1, %xmm1
	vpor	.LCPI28_12(%rip), %xmm1, %xmm1
	vpand	.LCPI28_7(%rip), %xmm0, %xmm2
	vpor	.LCPI28_13(%rip), %xmm2, %xmm2
	vpshufb	.LCPI28_14(%rip), %xmm1, %xmm3
	vpshufb	.LCPI28_15(%rip), %xmm2, %xmm4
	vpor	%xmm4, %xmm3, %xmm3
	vmovdqu	%xmm3, (%r8,%rsi)
	vpunpckhbw	%xmm2, %xmm1, %xmm1
	vpshufb	.LCPI28_16(%rip), %xmm1, %xmm1
	vmovq	%xmm1, 16(%r8,%rsi)
.LBB28_8:
	addq	$24, %rsi
	xorl	%r11d, %r11d
	jmp	.LBB28_19
.LBB28_1:
	vpxor	%xmm0, %xmm0, %xmm0
	xorl	%r9d, %r9d
	xorl	%esi, %esi
	xorl	%r11d, %r11d
	movq	%rax, %r10
.LBB28_21:
	testb	$1, %al
	jne	.LBB28_44
.LBB28_22:
	cmpq	%r9, %rax
	je	.LBB28_44
	testb	%bl, %bl
	jne	.LBB28_44
	subq	%rsi, %rcx
	cmpq	$32, %rcx
	jb	.LBB28_44
	cmpq	$15, %rax
	ja	.LBB28_27
	leaq	-8(%rax), %rcx
	vmovq	-8(%rdi,%rax), %xmm1
	vmovq	(%rdi), %xmm2
	vpunpcklqdq	%xmm1, %xmm2, %xmm1
	shlq	$4, %rcx
	leaq	.Lstatic.8(%rip), %rdi
	vmovq	(%rcx,%rdi), %xmm3
	vpshufb	%xmm3, %xmm1, %xmm1
	vpunpcklqdq	%xmm1, %xmm2, %xmm1
	jmp	.LBB28_28
.LBB28_27:
	vmovdqu	-16(%rdi,%rax), %xmm1
	shlq	$4, %r10
	leaq	.Lstatic.8(%rip), %rcx
	vpshufb	(%r10,%rcx), %xmm1, %xmm1
.LBB28_28:
	vpshufb	.LCPI28_0(%rip), %xmm1, %xmm1
	vpshufb	.LCPI28_19(%rip), %xmm1, %xmm2
	vpand	.LCPI28_20(%rip), %xmm2, %xmm2
	vpcmpeqb	.LCPI28_21(%rip), %xmm2, %xmm3
	vpmovmskb	%xmm3, %ecx
	vpcmpeqb	.LCPI28_22(%rip), %xmm2, %xmm2
	vpmovmskb	%xmm2, %edi
	movzbl	%dil, %edi
	addl	%ecx, %ecx
	movzbl	%cl, %ecx
	orq	%r11, %rcx
	cmpq	%rdi, %rcx
	jne	.LBB28_44
	vpmaxuw	.LCPI28_1(%rip), %xmm1, %xmm2
	vpcmpeqw	%xmm2, %xmm1, %xmm2
	vpmovmskb	%xmm2, %ecx
	testl	%ecx, %ecx
	je	.LBB28_34
	vpand	.LCPI28_2(%rip), %xmm1, %xmm2
	vpcmpeqw	.LCPI28_3(%rip), %xmm2, %xmm2
	vpmovmskb	%xmm2, %ecx
	testl	%ecx, %ecx
	je	.LBB28_38
	vpaddw	.LCPI28_23(%rip), %xmm1, %xmm3
	vpminuw	%xmm3, %xmm1, %xmm3
	vpmaxuw	.LCPI28_1(%rip), %xmm3, %xmm4
	vpcmpeqw	%xmm4, %xmm3, %xmm3
	vpmovmskb	%xmm3, %ecx
	vpalignr	$14, %xmm0, %xmm1, %xmm0
	testl	%ecx, %ecx
	je	.LBB28_32
	vpbroadcastd	.LCPI28_31(%rip), %xmm3
	vpsubusw	%xmm1, %xmm3, %xmm3
	vpbroadcastd	.LCPI28_32(%rip), %xmm4
	vpand	%xmm4, %xmm3, %xmm3
	vpsrlw	$3, %xmm3, %xmm5
	vpand	.LCPI28_24(%rip), %xmm1, %xmm6
	vpor	%xmm5, %xmm6, %xmm5
	vpor	.LCPI28_25(%rip), %xmm5, %xmm5
	vpaddw	.LCPI28_26(%rip), %xmm1, %xmm6
	vpsrlw	$2, %xmm6, %xmm6
	vpsubusw	.LCPI28_27(%rip), %xmm6, %xmm6
	vpsllw	$10, %xmm0, %xmm0
	vpand	.LCPI28_28(%rip), %xmm0, %xmm0
	vpaddw	%xmm0, %xmm1, %xmm0
	vpaddw	.LCPI28_29(%rip), %xmm0, %xmm0
	vpmaxuw	%xmm0, %xmm6, %xmm0
	vpblendvb	%xmm2, %xmm0, %xmm5, %xmm0
	vpsrlw	$6, %xmm0, %xmm5
	vpsllw	$8, %xmm0, %xmm0
	vpand	.LCPI28_8(%rip), %xmm0, %xmm0
	vpaddw	%xmm5, %xmm0, %xmm0
	vpsllw	$8, %xmm1, %xmm5
	vpsrlw	$12, %xmm1, %xmm6
	vpor	%xmm5, %xmm6, %xmm5
	vpor	.LCPI28_10(%rip), %xmm5, %xmm5
	vpor	%xmm4, %xmm0, %xmm0
	vpbroadcastd	.LCPI28_33(%rip), %xmm6
	vpblendvb	%xmm2, %xmm4, %xmm3, %xmm2
	vpsubusw	%xmm1, %xmm6, %xmm1
	vpor	%xmm1, %xmm2, %xmm1
	vpmovmskb	%xmm1, %ecx
	vpunpcklwd	%xmm0, %xmm5, %xmm1
	movzbl	%cl, %edi
	popcntl	%edi, %r9d
	shll	$4, %edi
	leaq	.Lstatic.7(%rip), %r10
	vpshufb	(%rdi,%r10), %xmm1, %xmm1
	vmovdqu	%xmm1, (%r8,%rsi)
	subq	%r9, %rsi
	vpunpckhwd	%xmm0, %xmm5, %xmm0
	jmp	.LBB28_41
.LBB28_14:
	movb	$1, %bl
	vmovdqa	%xmm1, %xmm0
	testb	$1, %al
	je	.LBB28_22
.LBB28_44:
	leaq	-2(%r9), %rax
	leaq	-2(%rsi), %rdx
	testb	$1, %r11b
	cmoveq	%rsi, %rdx
	cmoveq	%r9, %rax
	jmp	.LBB28_45
.LBB28_34:
	vpmaxuw	.LCPI28_13(%rip), %xmm1, %xmm0
	vpcmpeqw	%xmm0, %xmm1, %xmm0
	vpmovmskb	%xmm0, %ecx
	testl	%ecx, %ecx
	je	.LBB28_35
	vpsrlw	$6, %xmm1, %xmm0
	vpsllw	$8, %xmm1, %xmm2
	vpand	.LCPI28_8(%rip), %xmm2, %xmm2
	vpaddw	%xmm2, %xmm0, %xmm0
	vpaddw	.LCPI28_17(%rip), %xmm0, %xmm0
	jmp	.LBB28_37
.LBB28_38:
	vpminuw	.LCPI28_4(%rip), %xmm1, %xmm0
	vpcmpeqw	%xmm0, %xmm1, %xmm0
	vpmovmskb	%xmm0, %ecx
	testl	%ecx, %ecx
	je	.LBB28_39
	vpbroadcastd	.LCPI28_31(%rip), %xmm0
	vpsubusw	%xmm1, %xmm0, %xmm0
	vpand	.LCPI28_6(%rip), %xmm0, %xmm0
	vpsrlw	$9, %xmm0, %xmm2
	vpsrlw	$6, %xmm1, %xmm3
	vpand	.LCPI28_7(%rip), %xmm3, %xmm3
	vpsllw	$8, %xmm1, %xmm4
	vpand	.LCPI28_8(%rip), %xmm4, %xmm5
	vpor	%xmm5, %xmm3, %xmm3
	vpor	%xmm2, %xmm3, %xmm2
	vpor	.LCPI28_9(%rip), %xmm2, %xmm2
	vpsrlw	$12, %xmm1, %xmm3
	vpor	%xmm4, %xmm3, %xmm3
	vpor	.LCPI28_10(%rip), %xmm3, %xmm3
	vpbroadcastd	.LCPI28_33(%rip), %xmm4
	vpsubusw	%xmm1, %xmm4, %xmm1
	vpor	%xmm1, %xmm0, %xmm0
	vpmovmskb	%xmm0, %ecx
	vpunpcklwd	%xmm2, %xmm3, %xmm0
	movzbl	%cl, %edi
	popcntl	%edi, %r9d
	shll	$4, %edi
	leaq	.Lstatic.7(%rip), %r10
	vpshufb	(%rdi,%r10), %xmm0, %xmm0
	vmovdqu	%xmm0, (%r8,%rsi)
	subq	%r9, %rsi
	vpunpckhwd	%xmm2, %xmm3, %xmm0
.LBB28_41:
	shrl	$8, %ecx
	xorl	%edi, %edi
	popcntl	%ecx, %edi
	shll	$4, %ecx
	vpshufb	(%rcx,%r10), %xmm0, %xmm0
	vmovdqu	%xmm0, 12(%r8,%rsi)
	subq	%rdi, %rsi
.LBB28_42:
	addq	$24, %rsi
	jmp	.LBB28_43
.LBB28_32:
	vpaddw	.LCPI28_30(%rip), %xmm1, %xmm2
	vpaddw	.LCPI28_26(%rip), %xmm1, %xmm3
	vpsrlw	$2, %xmm3, %xmm3
	vpsubusw	.LCPI28_27(%rip), %xmm3, %xmm3
	vpsllw	$10, %xmm0, %xmm0
	vpand	.LCPI28_28(%rip), %xmm0, %xmm0
	vpaddw	%xmm0, %xmm1, %xmm0
	vpaddw	.LCPI28_29(%rip), %xmm0, %xmm0
	vpmaxuw	%xmm0, %xmm3, %xmm0
	vpxor	%xmm3, %xmm3, %xmm3
	vpcmpgtw	%xmm1, %xmm3, %xmm3
	vpblendvb	%xmm3, %xmm0, %xmm2, %xmm0
	vpsrlw	$6, %xmm0, %xmm2
	vpsllw	$8, %xmm0, %xmm0
	vpand	.LCPI28_8(%rip), %xmm0, %xmm0
	vpaddw	%xmm2, %xmm0, %xmm0
	vpor	.LCPI28_6(%rip), %xmm0, %xmm0
.LBB28_37:
	vpminuw	.LCPI28_18(%rip), %xmm1, %xmm2
	vpcmpeqw	%xmm2, %xmm1, %xmm2
	vpblendvb	%xmm2, %xmm1, %xmm0, %xmm0
	vpacksswb	%xmm2, %xmm2, %xmm1
	vpmovmskb	%xmm1, %ecx
	movzbl	%cl, %ecx
	xorl	%edi, %edi
	popcntl	%ecx, %edi
	shll	$4, %ecx
	leaq	.Lstatic.6(%rip), %r9
	vpshufb	(%rcx,%r9), %xmm0, %xmm0
	vmovdqu	%xmm0, (%r8,%rsi)
	subq	%rdi, %rsi
	addq	$16, %rsi
	jmp	.LBB28_43
.LBB28_35:
	vpackuswb	%xmm1, %xmm1, %xmm0
	vmovq	%xmm0, (%r8,%rsi)
	addq	$8, %rsi
.LBB28_43:
	orq	$-8, %rdx
	addq	%rsi, %rdx
.LBB28_45:
	popq	%rbx
	popq	%r12
	popq	%r14
	popq	%r15
	popq	%rbp
	vzeroupper
	retq
.LBB28_39:
	vpsllw	$2, %xmm1, %xmm0
	vpand	.LCPI28_8(%rip), %xmm0, %xmm0
	vpsrlw	$12, %xmm1, %xmm2
	vpor	%xmm0, %xmm2, %xmm0
	vpor	.LCPI28_12(%rip), %xmm0, %xmm0
	vpand	.LCPI28_7(%rip), %xmm1, %xmm1
	vpor	.LCPI28_13(%rip), %xmm1, %xmm1
	vpshufb	.LCPI28_14(%rip), %xmm0, %xmm2
	vpshufb	.LCPI28_15(%rip), %xmm1, %xmm3
	vpor	%xmm3, %xmm2, %xmm2
	vmovdqu	%xmm2, (%r8,%rsi)
	vpunpckhbw	%xmm1, %xmm0, %xmm0
	vpshufb	.LCPI28_16(%rip), %xmm0, %xmm0
	vmovq	%xmm0, 16(%r8,%rsi)
	jmp	.LBB28_42
.Lfunc_end28:

	.section	.rdata$000,"dr"
	.p2align	4, 0x0
.LCPI29_0:
	.byte	1
	.byte	0
	.byte	3
	.byte	2
	.byte	5
	.byte	4
	.byte	7
	.byte	6
	.byte	9
	.byte	8
	.byte	11
	.byte	10
	.byte	13
	.byte	12
	.byte	15
	.byte	14
.LCPI29_1:
	.short	128
	.short	128
	.short	128
	.short	128
	.short	128
	.short	128
	.short	128
	.short	128
.LCPI29_4:
	.zero	16,191
.LCPI29_5:
	.zero	16,240
	.section	.rdata$003,"dr"
	.p2align	5, 0x0
.LCPI29_2:
	.zero	32,191
.LCPI29_3:
	.zero	32,240
	.section	.rdata$001,"dr"
	.p2align	2, 0x0
.LCPI29_6:
	.zero	4,191
.LCPI29_7:
	.zero	4,240
	.section	.text$036,"xr"
	.p2align	4
L_29:
	pushq	%rbp
	pushq	%r15
	pushq	%r14
	pushq	%r13
	pushq	%r12
	pushq	%rbx
	subq	$392, %rsp
	movq	%r9, %rbp
	movq	%rdx, %rbx
	movq	448(%rsp), %r9
	subq	%rbp, %rdx
	cmpq	$2, %rdx
	jae	.LBB29_3
.LBB29_1:
	movb	$2, %al
	xorl	%ecx, %ecx
.LBB29_2:
	movq	%rbp, (%rdi)
	movq	%r9, 8(%rdi)
	movb	%al, 16(%rdi)
	movb	%cl, 17(%rdi)
	jmp	.LBB29_101
.LBB29_3:
	movq	%r8, %r14
	movq	%rcx, %r13
	movq	%rsi, %r12
	movbew	(%rsi,%rbp), %si
	movl	%esi, %eax
	andl	$63488, %eax
	cmpl	$55296, %eax
	jne	.LBB29_7
	notl	%esi
	movb	$2, %cl
	movb	$1, %al
	testl	$56320, %esi
	je	.LBB29_2
	cmpq	$4, %rdx
	jb	.LBB29_1
	movzbl	2(%r12,%rbp), %edx
	andb	$-4, %dl
	movb	$2, %cl
	cmpb	$-36, %dl
	jne	.LBB29_2
.LBB29_7:
	movq	%rdi, 32(%rsp)
	cmpq	%rbp, %rbx
	movq	%rbx, 40(%rsp)
	movq	%r13, 8(%rsp)
	movq	%r14, 56(%rsp)
	movq	%r12, 24(%rsp)
	ja	.LBB29_11
.LBB29_8:
	movq	32(%rsp), %rax
	movq	%rbp, (%rax)
	movq	%r9, 8(%rax)
	movw	$0, 16(%rax)
	jmp	.LBB29_101
	.p2align	4
.LBB29_9:
	movb	%al, (%r13,%r9)
	incq	%r9
.LBB29_10:
	addq	%r15, %rbp
	cmpq	%rbx, %rbp
	jae	.LBB29_8
.LBB29_11:
	addq	%rbp, %r12
	movq	%rbx, %r15
	subq	%rbp, %r15
	cmpq	$66, %r15
	jb	.LBB29_20
	leaq	(%r9,%r13), %rbx
	movq	%r9, 16(%rsp)
	subq	%r9, %r14
	vpxor	%xmm0, %xmm0, %xmm0
	vmovdqu	%ymm0, 112(%rsp)
	movq	$0, 144(%rsp)
	movq	%r15, %rax
	shrq	%rax
	leaq	(%rax,%rax,2), %r8
	addq	$128, %r8
	cmpq	%r14, %r8
	cmovaeq	%r14, %r8
	leaq	112(%rsp), %rdi
	movq	%r12, %rsi
	movq	%r15, %rdx
	movq	%rbx, %rcx
	vzeroupper
	callq	L_30
	movq	112(%rsp), %rcx
	movq	120(%rsp), %rsi
	leaq	-2(%rcx), %rdx
	leaq	-2(%rsi), %rax
	testb	$1, 144(%rsp)
	cmoveq	%rsi, %rax
	cmoveq	%rcx, %rdx
	movq	%r15, %rcx
	subq	%rdx, %rcx
	shrq	%rcx
	subq	%rax, %r14
	cmpq	%rcx, %r14
	cmovaeq	%rcx, %r14
	movq	%rax, %rcx
	movq	%rdx, %r13
	cmpq	$8, %r14
	jb	.LBB29_16
	leaq	(%r14,%r14), %rsi
	movq	%rdx, %r13
	movq	%rax, %rcx
	.p2align	4
.LBB29_14:
	vmovdqu	(%r12,%r13), %xmm0
	vpshufb	.LCPI29_0(%rip), %xmm0, %xmm0
	vpmaxuw	.LCPI29_1(%rip), %xmm0, %xmm1
	vpcmpeqw	%xmm1, %xmm0, %xmm1
	vpmovmskb	%xmm1, %edi
	testl	%edi, %edi
	jne	.LBB29_33
	vpackuswb	%xmm0, %xmm0, %xmm0
	vmovq	%xmm0, (%rbx,%rcx)
	addq	$16, %r13
	addq	$8, %rcx
	addq	$-16, %rsi
	cmpq	$15, %rsi
	ja	.LBB29_14
.LBB29_16:
	leaq	(%rdx,%r14,2), %rdx
	cmpq	$16, %rdx
	jb	.LBB29_33
	cmpq	%r13, %rdx
	movq	16(%rsp), %r9
	jbe	.LBB29_34
	vmovdqu	-16(%r12,%rdx), %xmm0
	vpshufb	.LCPI29_0(%rip), %xmm0, %xmm0
	vpmaxuw	.LCPI29_1(%rip), %xmm0, %xmm1
	vpcmpeqw	%xmm1, %xmm0, %xmm1
	vpmovmskb	%xmm1, %esi
	testl	%esi, %esi
	jne	.LBB29_34
	addq	%rax, %r14
	vpackuswb	%xmm0, %xmm0, %xmm0
	vmovq	%xmm0, -8(%rbx,%r14)
	movq	%rdx, %r13
	movq	%r14, %rcx
	jmp	.LBB29_34
	.p2align	4
.LBB29_20:
	xorl	%r13d, %r13d
	movq	%r15, %r8
	subq	%r13, %r8
	je	.LBB29_35
.LBB29_21:
	addq	%r13, %r12
	cmpq	$7, %r8
	ja	.LBB29_25
.LBB29_22:
	movq	%r12, %rdi
	movq	%r8, %rsi
	movq	8(%rsp), %rdx
	movq	%r14, %rcx
	movq	%r9, %r8
	vzeroupper
	callq	L_31
.LBB29_23:
	movq	%rax, %r15
	movq	%rdx, %rbx
.LBB29_24:
	movq	24(%rsp), %r12
	addq	%r13, %r15
	movq	%rbx, %r9
	movq	40(%rsp), %rbx
	jmp	.LBB29_36
	.p2align	4
.LBB29_25:
	cmpq	$128, %r8
	movl	$128, %esi
	cmovbq	%r8, %rsi
	movq	%r14, %rbx
	subq	%r9, %rbx
	xorl	%edx, %edx
	movq	%rbx, %rax
	subq	$128, %rax
	cmovaeq	%rax, %rdx
	movabsq	$-6148914691236517205, %rax
	mulxq	%rax, %rax, %rax
	andq	$-2, %rax
	cmpq	%rax, %rsi
	jbe	.LBB29_31
	cmpq	$23, %rbx
	jbe	.LBB29_22
	vpxor	%xmm0, %xmm0, %xmm0
	vmovdqu	%ymm0, 356(%rsp)
	vmovdqu	%ymm0, 336(%rsp)
	vmovdqu	%ymm0, 304(%rsp)
	vmovdqu	%ymm0, 272(%rsp)
	vmovdqu	%ymm0, 240(%rsp)
	vmovdqu	%ymm0, 208(%rsp)
	vmovdqu	%ymm0, 176(%rsp)
	vmovdqu	%ymm0, 144(%rsp)
	vmovdqu	%ymm0, 112(%rsp)
	cmpq	$65, %r8
	ja	.LBB29_52
	leaq	112(%rsp), %rdx
	movq	%r12, %rdi
	movq	%r8, %rsi
	movq	8(%rsp), %rcx
	movq	%r14, %r8
.LBB29_29:
	vzeroupper
	callq	L_32
	jmp	.LBB29_23
.LBB29_33:
	movq	16(%rsp), %r9
.LBB29_34:
	addq	%rcx, %r9
	movq	56(%rsp), %r14
	movq	40(%rsp), %rbx
	movq	%r15, %r8
	subq	%r13, %r8
	jne	.LBB29_21
.LBB29_35:
	movq	24(%rsp), %r12
.LBB29_36:
	addq	%rbp, %r15
	movq	%rbx, %rcx
	subq	%r15, %rcx
	movq	8(%rsp), %r13
	je	.LBB29_97
	cmpq	$2, %rcx
	jb	.LBB29_96
	movbew	(%r12,%r15), %di
	movl	%edi, %eax
	andl	$63488, %eax
	cmpl	$55296, %eax
	jne	.LBB29_42
	movl	%edi, %edx
	notl	%edx
	movb	$1, %al
	testl	$56320, %edx
	je	.LBB29_103
	cmpq	$4, %rcx
	jb	.LBB29_96
	movzbl	2(%r12,%r15), %ecx
	andb	$-4, %cl
	cmpb	$-36, %cl
	jne	.LBB29_103
.LBB29_42:
	movl	%edi, %eax
	andl	$64512, %eax
	cmpl	$55296, %eax
	jne	.LBB29_44
	movbew	2(%r12,%r15), %si
	movq	%r9, %rbp
	callq	L_5
	movq	%rbp, %r9
	movl	$4, %ebp
	jmp	.LBB29_45
	.p2align	4
.LBB29_44:
	movzwl	%di, %eax
	movl	$2, %ebp
.LBB29_45:
	movq	%r14, %rcx
	subq	%r9, %rcx
	cmpl	$65536, %eax
	movl	$4, %edx
	sbbq	$0, %rdx
	cmpl	$2048, %eax
	movl	$2, %esi
	cmovaeq	%rdx, %rsi
	cmpl	$128, %eax
	movl	$1, %edx
	cmovaeq	%rsi, %rdx
	cmpq	%rdx, %rcx
	jb	.LBB29_98
	cmpl	$127, %eax
	jbe	.LBB29_9
	movl	%eax, %ecx
	andb	$63, %cl
	orb	$-128, %cl
	cmpl	$2047, %eax
	ja	.LBB29_49
	shrl	$6, %eax
	movzbl	%cl, %ecx
	shll	$8, %ecx
	orl	%eax, %ecx
	orl	$192, %ecx
	movw	%cx, (%r13,%r9)
	addq	$2, %r9
	jmp	.LBB29_10
.LBB29_49:
	movl	%eax, %edx
	cmpl	$65535, %eax
	ja	.LBB29_51
	shrl	$6, %edx
	andb	$63, %dl
	orb	$-128, %dl
	shrl	$12, %eax
	orb	$-32, %al
	movb	%al, (%r13,%r9)
	movb	%dl, 1(%r13,%r9)
	movb	%cl, 2(%r13,%r9)
	addq	$3, %r9
	jmp	.LBB29_10
.LBB29_31:
	movq	%r9, %rbx
	movq	%r12, %rdi
	callq	L_8
	movq	%rax, %r15
	testq	%rax, %rax
	je	.LBB29_24
	movq	8(%rsp), %rax
	leaq	(%rax,%rbx), %rdx
	movq	%r12, %rdi
	movq	%r15, %rsi
	callq	L_33
	addq	%rax, %rbx
	jmp	.LBB29_24
.LBB29_51:
	shrl	$18, %edx
	addl	$240, %edx
	movzbl	%cl, %ecx
	shll	$24, %ecx
	movl	%eax, %esi
	shll	$10, %esi
	andl	$4128768, %esi
	orl	%ecx, %esi
	shrl	$4, %eax
	andl	$16128, %eax
	orl	%esi, %eax
	movzbl	%dl, %ecx
	addl	%ecx, %eax
	addl	$8421376, %eax
	movl	%eax, (%r13,%r9)
	addq	$4, %r9
	jmp	.LBB29_10
.LBB29_52:
	movbew	(%r12), %ax
	movl	%eax, %ecx
	andl	$63488, %ecx
	cmpl	$55296, %ecx
	jne	.LBB29_55
	movl	%eax, %ecx
	notl	%ecx
	testl	$56320, %ecx
	je	.LBB29_22
	movzbl	2(%r12), %ecx
	andb	$-4, %cl
	cmpb	$-36, %cl
	jne	.LBB29_22
.LBB29_55:
	andl	$64512, %eax
	xorl	%ecx, %ecx
	cmpl	$55296, %eax
	sete	%cl
	movbew	2(%r12,%rcx,2), %ax
	movl	%eax, %edx
	andl	$63488, %edx
	cmpl	$55296, %edx
	jne	.LBB29_58
	notl	%eax
	testl	$56320, %eax
	je	.LBB29_22
	leaq	2(,%rcx,2), %rax
	movzbl	2(%r12,%rax), %eax
	andb	$-4, %al
	cmpb	$-36, %al
	jne	.LBB29_22
.LBB29_58:
	movq	%r9, 16(%rsp)
	xorl	%r15d, %r15d
	cmpq	$65, %rbx
	setae	%r15b
	shll	$6, %r15d
	addq	$66, %r15
	cmpq	%r8, %r15
	movq	%r8, 48(%rsp)
	cmovaeq	%r8, %r15
	vmovdqu	%ymm0, 64(%rsp)
	movq	$0, 96(%rsp)
	movl	%r15d, %eax
	shrl	%eax
	leaq	(%rax,%rax,2), %rax
	cmpq	$148, %rax
	movl	$148, %r8d
	cmovbq	%rax, %r8
	subq	$-128, %r8
	leaq	64(%rsp), %rdi
	leaq	112(%rsp), %rcx
	movq	%r12, %rsi
	movq	%r15, %rdx
	vzeroupper
	callq	L_30
	movq	64(%rsp), %rcx
	movq	72(%rsp), %rdx
	leaq	-2(%rcx), %rsi
	leaq	-2(%rdx), %rax
	testb	$1, 96(%rsp)
	cmoveq	%rdx, %rax
	cmoveq	%rcx, %rsi
	subq	%rsi, %r15
	shrq	%r15
	movl	$276, %ecx
	subq	%rax, %rcx
	cmpq	%r15, %rcx
	cmovaeq	%r15, %rcx
	movq	%rax, %rdx
	movq	%rsi, %r15
	cmpq	$8, %rcx
	jb	.LBB29_62
	leaq	(%rcx,%rcx), %rdi
	movq	%rsi, %r15
	movq	%rax, %rdx
.LBB29_60:
	vmovdqu	(%r12,%r15), %xmm0
	vpshufb	.LCPI29_0(%rip), %xmm0, %xmm0
	vpmaxuw	.LCPI29_1(%rip), %xmm0, %xmm1
	vpcmpeqw	%xmm1, %xmm0, %xmm1
	vpmovmskb	%xmm1, %r8d
	testl	%r8d, %r8d
	jne	.LBB29_67
	vpackuswb	%xmm0, %xmm0, %xmm0
	vmovq	%xmm0, 112(%rsp,%rdx)
	addq	$16, %r15
	addq	$8, %rdx
	addq	$-16, %rdi
	cmpq	$15, %rdi
	ja	.LBB29_60
.LBB29_62:
	leaq	(%rsi,%rcx,2), %rsi
	cmpq	$16, %rsi
	jb	.LBB29_67
	cmpq	%r15, %rsi
	movq	16(%rsp), %r10
	jbe	.LBB29_68
	vmovdqu	-16(%r12,%rsi), %xmm0
	vpshufb	.LCPI29_0(%rip), %xmm0, %xmm0
	vpmaxuw	.LCPI29_1(%rip), %xmm0, %xmm1
	vpcmpeqw	%xmm1, %xmm0, %xmm1
	vpmovmskb	%xmm1, %edi
	testl	%edi, %edi
	jne	.LBB29_68
	addq	%rax, %rcx
	vpackuswb	%xmm0, %xmm0, %xmm0
	vmovq	%xmm0, 104(%rsp,%rcx)
	movq	%rsi, %r15
	movq	%rcx, %rdx
	jmp	.LBB29_68
.LBB29_67:
	movq	16(%rsp), %r10
.LBB29_68:
	cmpq	%rbx, %rdx
	jbe	.LBB29_90
	movq	%rbx, %rdx
.LBB29_70:
	cmpb	$-65, 112(%rsp,%rdx)
	jg	.LBB29_73
	decq	%rdx
	jne	.LBB29_70
	movq	8(%rsp), %rax
	leaq	(%rax,%r10), %rdi
	xorl	%r15d, %r15d
	xorl	%edx, %edx
	movq	%r10, %rbx
	jmp	.LBB29_93
.LBB29_73:
	cmpq	$15, %rdx
	ja	.LBB29_82
	xorl	%r15d, %r15d
	movq	%rdx, %rax
	leaq	112(%rsp), %rcx
	jmp	.LBB29_77
.LBB29_75:
	andl	$31, %esi
	shll	$6, %esi
	orl	%edi, %esi
	movl	$2, %r9d
.LBB29_76:
	addq	%r9, %rcx
	xorl	%edi, %edi
	cmpl	$65536, %esi
	setae	%dil
	leaq	(%r15,%rdi,2), %r15
	addq	$2, %r15
	subq	%r9, %rax
	je	.LBB29_90
.LBB29_77:
	movzbl	(%rcx), %esi
	movl	$1, %r9d
	testb	%sil, %sil
	jns	.LBB29_76
	movzbl	1(%rcx), %edi
	andl	$63, %edi
	cmpb	$-33, %sil
	jbe	.LBB29_75
	movzbl	2(%rcx), %r8d
	andl	$63, %r8d
	cmpb	$-17, %sil
	ja	.LBB29_81
	shll	$12, %esi
	movzwl	%si, %esi
	shll	$6, %edi
	orl	%esi, %edi
	orl	%r8d, %edi
	movl	$3, %r9d
	movl	%edi, %esi
	jmp	.LBB29_76
.LBB29_81:
	movzbl	3(%rcx), %r9d
	andl	$63, %r9d
	andl	$7, %esi
	shll	$18, %esi
	shll	$12, %edi
	orl	%esi, %edi
	shll	$6, %r8d
	orl	%edi, %r8d
	orl	%r9d, %r8d
	movl	$4, %r9d
	movl	%r8d, %esi
	jmp	.LBB29_76
.LBB29_82:
	cmpq	$64, %rdx
	jb	.LBB29_85
	xorl	%ecx, %ecx
	movq	%rdx, %rsi
	xorl	%eax, %eax
.LBB29_84:
	vmovdqu	112(%rsp,%rcx), %ymm0
	vmovdqu	144(%rsp,%rcx), %ymm1
	vpbroadcastd	.LCPI29_6(%rip), %ymm2
	vpbroadcastd	.LCPI29_7(%rip), %ymm3
	vpcmpgtb	%ymm2, %ymm0, %ymm4
	vpmovmskb	%ymm4, %edi
	vpcmpgtb	%ymm2, %ymm1, %ymm2
	vpmovmskb	%ymm2, %r8d
	shlq	$32, %r8
	orq	%rdi, %r8
	xorl	%edi, %edi
	popcntq	%r8, %rdi
	addq	%rax, %rdi
	vpmaxub	%ymm3, %ymm0, %ymm2
	vpcmpeqb	%ymm2, %ymm0, %ymm0
	vpmovmskb	%ymm0, %eax
	vpmaxub	%ymm3, %ymm1, %ymm0
	vpcmpeqb	%ymm0, %ymm1, %ymm0
	vpmovmskb	%ymm0, %r8d
	shlq	$32, %r8
	orq	%rax, %r8
	xorl	%eax, %eax
	popcntq	%r8, %rax
	addq	%rdi, %rax
	addq	$64, %rcx
	addq	$-64, %rsi
	cmpq	$63, %rsi
	ja	.LBB29_84
	jmp	.LBB29_86
.LBB29_85:
	xorl	%eax, %eax
	xorl	%ecx, %ecx
.LBB29_86:
	movq	%rdx, %rsi
	subq	%rcx, %rsi
	cmpq	$16, %rsi
	jb	.LBB29_89
	movq	%rdx, %rsi
	subq	%rcx, %rsi
	addq	%rsp, %rcx
	addq	$112, %rcx
.LBB29_88:
	vmovdqu	(%rcx), %xmm0
	vpcmpgtb	.LCPI29_4(%rip), %xmm0, %xmm1
	vpmovmskb	%xmm1, %edi
	popcntl	%edi, %edi
	vpmaxub	.LCPI29_5(%rip), %xmm0, %xmm1
	vpcmpeqb	%xmm1, %xmm0, %xmm0
	vpmovmskb	%xmm0, %r8d
	popcntl	%r8d, %r8d
	addl	%edi, %r8d
	addq	%r8, %rax
	addq	$-16, %rsi
	addq	$16, %rcx
	cmpq	$15, %rsi
	ja	.LBB29_88
.LBB29_89:
	vmovdqu	96(%rsp,%rdx), %xmm0
	vpcmpgtb	.LCPI29_4(%rip), %xmm0, %xmm1
	vpmovmskb	%xmm1, %ecx
	movb	$16, %dil
	subb	%sil, %dil
	shrxq	%rdi, %rcx, %rcx
	vpmaxub	.LCPI29_5(%rip), %xmm0, %xmm1
	popcntl	%ecx, %ecx
	vpcmpeqb	%xmm1, %xmm0, %xmm0
	vpmovmskb	%xmm0, %esi
	shrxq	%rdi, %rsi, %rsi
	xorl	%r15d, %r15d
	popcntl	%esi, %r15d
	addq	%rcx, %r15
	addq	%rax, %r15
	addq	%r15, %r15
.LBB29_90:
	leaq	(%rdx,%r10), %rbx
	addq	8(%rsp), %r10
	movq	%r10, %rax
	leaq	112(%rsp), %rcx
	subq	%rcx, %rax
	cmpq	%rdx, %rax
	jae	.LBB29_92
	leaq	112(%rsp), %rsi
	movq	%r10, %rdi
	jmp	.LBB29_94
.LBB29_92:
	movq	%r10, %rdi
.LBB29_93:
	leaq	112(%rsp), %rsi
.LBB29_94:
	vzeroupper
	callq	sysv_memcpy
	testq	%r15, %r15
	movq	48(%rsp), %rsi
	jne	.LBB29_24
	leaq	112(%rsp), %rdx
	movq	%r12, %rdi
	movq	8(%rsp), %rcx
	movq	%r14, %r8
	movq	%rbx, %r9
	jmp	.LBB29_29
.LBB29_96:
	movb	$2, %al
	jmp	.LBB29_99
.LBB29_97:
	movq	%rbx, %rbp
	jmp	.LBB29_8
.LBB29_103:
	movb	$2, %cl
	jmp	.LBB29_100
.LBB29_98:
	movb	$3, %al
.LBB29_99:
	xorl	%ecx, %ecx
.LBB29_100:
	movq	32(%rsp), %rdx
	movq	%r15, (%rdx)
	movq	%r9, 8(%rdx)
	movb	%al, 16(%rdx)
	movb	%cl, 17(%rdx)
.LBB29_101:
	addq	$392, %rsp
	popq	%rbx
	popq	%r12
	popq	%r13
	popq	%r14
	popq	%r15
	popq	%rbp
	retq
.Lfunc_end29:

	.section	.rdata$003,"dr"
	.p2align	5, 0x0
.LCPI30_0:
	.byte	1
	.byte	0
	.byte	3
	.byte	2
	.byte	5
	.byte	4
	.byte	7
	.byte	6
	.byte	9
	.byte	8
	.byte	11
	.byte	10
	.byte	13
	.byte	12
	.byte	15
	.byte	14
	.byte	1
	.byte	0
	.byte	3
	.byte	2
	.byte	5
	.byte	4
	.byte	7
	.byte	6
	.byte	9
	.byte	8
	.byte	11
	.byte	10
	.byte	13
	.byte	12
	.byte	15
	.byte	14
.LCPI30_1:
	.short	65408
	.short	65408
	.short	65408
	.short	65408
	.short	65408
	.short	65408
	.short	65408
	.short	65408
	.short	65408
	.short	65408
	.short	65408
	.short	65408
	.short	65408
	.short	65408
	.short	65408
	.short	65408
.LCPI30_3:
	.short	10240
	.short	10240
	.short	10240
	.short	10240
	.short	10240
	.short	10240
	.short	10240
	.short	10240
	.short	10240
	.short	10240
	.short	10240
	.short	10240
	.short	10240
	.short	10240
	.short	10240
	.short	10240
.LCPI30_5:
	.short	63488
	.short	63488
	.short	63488
	.short	63488
	.short	63488
	.short	63488
	.short	63488
	.short	63488
	.short	63488
	.short	63488
	.short	63488
	.short	63488
	.short	63488
	.short	63488
	.short	63488
	.short	63488
.LCPI30_6:
	.short	224
	.short	224
	.short	224
	.short	224
	.short	224
	.short	224
	.short	224
	.short	224
	.short	224
	.short	224
	.short	224
	.short	224
	.short	224
	.short	224
	.short	224
	.short	224
.LCPI30_7:
	.short	34815
	.short	34815
	.short	34815
	.short	34815
	.short	34815
	.short	34815
	.short	34815
	.short	34815
	.short	34815
	.short	34815
	.short	34815
	.short	34815
	.short	34815
	.short	34815
	.short	34815
	.short	34815
.LCPI30_8:
	.short	32768
	.short	32768
	.short	32768
	.short	32768
	.short	32768
	.short	32768
	.short	32768
	.short	32768
	.short	32768
	.short	32768
	.short	32768
	.short	32768
	.short	32768
	.short	32768
	.short	32768
	.short	32768
.LCPI30_9:
	.short	63
	.short	63
	.short	63
	.short	63
	.short	63
	.short	63
	.short	63
	.short	63
	.short	63
	.short	63
	.short	63
	.short	63
	.short	63
	.short	63
	.short	63
	.short	63
.LCPI30_10:
	.short	16128
	.short	16128
	.short	16128
	.short	16128
	.short	16128
	.short	16128
	.short	16128
	.short	16128
	.short	16128
	.short	16128
	.short	16128
	.short	16128
	.short	16128
	.short	16128
	.short	16128
	.short	16128
.LCPI30_11:
	.zero	32,128
.LCPI30_12:
	.short	255
	.short	255
	.short	255
	.short	255
	.short	255
	.short	255
	.short	255
	.short	255
	.short	255
	.short	255
	.short	255
	.short	255
	.short	255
	.short	255
	.short	255
	.short	255
.LCPI30_13:
	.short	32992
	.short	32992
	.short	32992
	.short	32992
	.short	32992
	.short	32992
	.short	32992
	.short	32992
	.short	32992
	.short	32992
	.short	32992
	.short	32992
	.short	32992
	.short	32992
	.short	32992
	.short	32992
.LCPI30_14:
	.short	128
	.short	128
	.short	128
	.short	128
	.short	128
	.short	128
	.short	128
	.short	128
	.short	128
	.short	128
	.short	128
	.short	128
	.short	128
	.short	128
	.short	128
	.short	128
.LCPI30_18:
	.short	32960
	.short	32960
	.short	32960
	.short	32960
	.short	32960
	.short	32960
	.short	32960
	.short	32960
	.short	32960
	.short	32960
	.short	32960
	.short	32960
	.short	32960
	.short	32960
	.short	32960
	.short	32960
.LCPI30_19:
	.short	127
	.short	127
	.short	127
	.short	127
	.short	127
	.short	127
	.short	127
	.short	127
	.short	127
	.short	127
	.short	127
	.short	127
	.short	127
	.short	127
	.short	127
	.short	127
.LCPI30_20:
	.zero	32,252
.LCPI30_21:
	.zero	32,216
.LCPI30_22:
	.zero	32,220
.LCPI30_23:
	.short	12288
	.short	12288
	.short	12288
	.short	12288
	.short	12288
	.short	12288
	.short	12288
	.short	12288
	.short	12288
	.short	12288
	.short	12288
	.short	12288
	.short	12288
	.short	12288
	.short	12288
	.short	12288
.LCPI30_24:
	.short	9216
	.short	9216
	.short	9216
	.short	9216
	.short	9216
	.short	9216
	.short	9216
	.short	9216
	.short	9216
	.short	9216
	.short	9216
	.short	9216
	.short	9216
	.short	9216
	.short	9216
	.short	9216
.LCPI30_25:
	.short	752
	.short	752
	.short	752
	.short	752
	.short	752
	.short	752
	.short	752
	.short	752
	.short	752
	.short	752
	.short	752
	.short	752
	.short	752
	.short	752
	.short	752
	.short	752
.LCPI30_26:
	.short	3072
	.short	3072
	.short	3072
	.short	3072
	.short	3072
	.short	3072
	.short	3072
	.short	3072
	.short	3072
	.short	3072
	.short	3072
	.short	3072
	.short	3072
	.short	3072
	.short	3072
	.short	3072
.LCPI30_27:
	.short	17408
	.short	17408
	.short	17408
	.short	17408
	.short	17408
	.short	17408
	.short	17408
	.short	17408
	.short	17408
	.short	17408
	.short	17408
	.short	17408
	.short	17408
	.short	17408
	.short	17408
	.short	17408
	.section	.rdata$007,"dr"
	.p2align	3, 0x0
.LCPI30_2:
	.quad	-576188069258921984
	.section	.rdata$000,"dr"
	.p2align	4, 0x0
.LCPI30_4:
	.short	2047
	.short	2047
	.short	2047
	.short	2047
	.short	2047
	.short	2047
	.short	2047
	.short	2047
.LCPI30_15:
	.byte	128
	.byte	128
	.byte	0
	.byte	128
	.byte	128
	.byte	2
	.byte	128
	.byte	128
	.byte	4
	.byte	128
	.byte	128
	.byte	6
	.byte	128
	.byte	128
	.byte	8
	.byte	128
.LCPI30_16:
	.byte	0
	.byte	1
	.byte	128
	.byte	2
	.byte	3
	.byte	128
	.byte	4
	.byte	5
	.byte	128
	.byte	6
	.byte	7
	.byte	128
	.byte	8
	.byte	9
	.byte	128
	.byte	10
.LCPI30_17:
	.byte	6
	.byte	5
	.byte	8
	.byte	10
	.byte	9
	.byte	12
	.byte	14
	.byte	13
	.zero	1
	.zero	1
	.zero	1
	.zero	1
	.zero	1
	.zero	1
	.zero	1
	.zero	1
.LCPI30_28:
	.byte	1
	.byte	0
	.byte	3
	.byte	2
	.byte	5
	.byte	4
	.byte	7
	.byte	6
	.byte	9
	.byte	8
	.byte	11
	.byte	10
	.byte	13
	.byte	12
	.byte	15
	.byte	14
.LCPI30_41:
	.byte	6
	.byte	5
	.byte	8
	.byte	10
	.byte	9
	.byte	12
	.byte	14
	.byte	13
	.byte	0
	.byte	0
	.byte	0
	.byte	0
	.byte	0
	.byte	0
	.byte	0
	.byte	0
	.section	.rdata$001,"dr"
	.p2align	2, 0x0
.LCPI30_29:
	.short	10240
	.short	10240
.LCPI30_30:
	.short	224
	.short	224
.LCPI30_31:
	.short	34815
	.short	34815
.LCPI30_32:
	.short	32768
	.short	32768
.LCPI30_33:
	.short	63
	.short	63
.LCPI30_34:
	.short	16128
	.short	16128
.LCPI30_35:
	.zero	4,128
.LCPI30_36:
	.short	255
	.short	255
.LCPI30_37:
	.short	32960
	.short	32960
.LCPI30_38:
	.short	127
	.short	127
.LCPI30_39:
	.short	32992
	.short	32992
.LCPI30_40:
	.short	128
	.short	128
.LCPI30_42:
	.short	12288
	.short	12288
.LCPI30_43:
	.short	9216
	.short	9216
.LCPI30_44:
	.short	752
	.short	752
.LCPI30_45:
	.short	3072
	.short	3072
.LCPI30_46:
	.short	17408
	.short	17408
	.section	.text$037,"xr"
	.p2align	4
L_30:
	pushq	%rbp
	pushq	%r15
	pushq	%r14
	pushq	%r13
	pushq	%r12
	pushq	%rbx
	subq	$120, %rsp
	movq	%rcx, %r15
	cmpq	$64, %rdx
	setb	%al
	cmpq	$128, %r8
	setb	%cl
	orb	%al, %cl
	je	.LBB30_1
	vpxor	%xmm0, %xmm0, %xmm0
	vmovdqu	%ymm0, (%rdi)
	movq	$0, 32(%rdi)
	jmp	.LBB30_7
.LBB30_1:
	movq	%r8, %r14
	movq	%rdx, %r12
	movq	%rsi, %r13
	movq	%rdi, 8(%rsp)
	addq	$-128, %r14
	addq	$-64, %r12
	vpxor	%xmm0, %xmm0, %xmm0
	xorl	%ebp, %ebp
	xorl	%eax, %eax
	xorl	%ebx, %ebx
	jmp	.LBB30_2
	.p2align	4
.LBB30_41:
	vinserti128	$1, %xmm0, %ymm0, %ymm0
	movq	%r15, %rdi
	movq	%rax, %rsi
	movl	$5, %edx
	vmovdqu	%ymm15, 16(%rsp)
	vmovdqu	%ymm1, 48(%rsp)
	callq	L_34
	movq	%r15, %rdi
	movq	%rax, %rsi
	vmovups	48(%rsp), %ymm0
	vmovdqu	16(%rsp), %ymm1
	movl	$5, %edx
	callq	L_34
	addq	$64, %rbx
	vmovdqu	16(%rsp), %ymm0
	vextracti128	$1, %ymm0, %xmm0
.LBB30_42:
	cmpq	%r12, %rbx
	ja	.LBB30_43
.LBB30_2:
	testb	$1, %bpl
	jne	.LBB30_36
	.p2align	4
.LBB30_3:
	cmpq	%rax, %r14
	jb	.LBB30_36
	vmovdqu	(%r13,%rbx), %ymm1
	vmovdqu	32(%r13,%rbx), %ymm2
	vbroadcasti128	.LCPI30_28(%rip), %ymm12
	vpshufb	%ymm12, %ymm2, %ymm11
	vpshufb	%ymm12, %ymm1, %ymm5
	vpor	%ymm5, %ymm11, %ymm1
	vptest	.LCPI30_1(%rip), %ymm1
	jne	.LBB30_5
	vpackuswb	%ymm11, %ymm5, %ymm0
	vpermq	$216, %ymm0, %ymm0
	vmovdqu	%ymm0, (%r15,%rax)
	addq	$32, %rax
	addq	$64, %rbx
	vextracti128	$1, %ymm11, %xmm0
	cmpq	%r12, %rbx
	jbe	.LBB30_3
	jmp	.LBB30_36
	.p2align	4
.LBB30_5:
	movq	%rbp, 16(%rsp)
.LBB30_33:
	movq	%rax, %rsi
	movq	%rbx, %rbp
	vpor	%ymm5, %ymm11, %ymm1
	vpbroadcastq	.LCPI30_2(%rip), %ymm2
	vptest	%ymm2, %ymm1
	je	.LBB30_13
	vpbroadcastd	.LCPI30_29(%rip), %ymm13
	vpaddw	%ymm13, %ymm11, %ymm1
	vpaddw	%ymm5, %ymm13, %ymm2
	vpminuw	%ymm2, %ymm5, %ymm3
	vpminuw	%ymm1, %ymm11, %ymm4
	vpminuw	%ymm4, %ymm3, %ymm3
	vextracti128	$1, %ymm3, %xmm4
	vpminuw	%xmm4, %xmm3, %xmm3
	vpminuw	.LCPI30_4(%rip), %xmm3, %xmm4
	vpcmpeqw	%xmm4, %xmm3, %xmm3
	vpmovmskb	%xmm3, %eax
	testl	%eax, %eax
	je	.LBB30_14
	vpminuw	%ymm1, %ymm2, %ymm1
	vextracti128	$1, %ymm1, %xmm2
	vpminuw	%xmm2, %xmm1, %xmm1
	vpminuw	.LCPI30_4(%rip), %xmm1, %xmm2
	vpcmpeqw	%xmm2, %xmm1, %xmm1
	vpmovmskb	%xmm1, %eax
	testl	%eax, %eax
	jne	.LBB30_12
	vinserti128	$1, %xmm0, %ymm0, %ymm0
	movq	%r15, %rdi
	vmovdqa	%ymm5, %ymm1
	movl	$4, %edx
	vmovdqu	%ymm11, 48(%rsp)
	vmovdqu	%ymm5, 80(%rsp)
	callq	L_34
	movq	%r15, %rdi
	movq	%rax, %rsi
	vmovups	80(%rsp), %ymm0
	vmovdqu	48(%rsp), %ymm1
	movl	$4, %edx
	callq	L_34
	vmovdqu	48(%rsp), %ymm0
	vextracti128	$1, %ymm0, %xmm0
	addq	$64, %rbp
	cmpq	%r12, %rbp
	ja	.LBB30_23
	cmpq	%rax, %r14
	vbroadcasti128	.LCPI30_28(%rip), %ymm12
	vpbroadcastd	.LCPI30_29(%rip), %ymm13
	movq	%rbp, %rbx
	jb	.LBB30_29
	.p2align	4
.LBB30_25:
	vmovdqu	(%r13,%rbx), %ymm2
	vmovdqu	32(%r13,%rbx), %ymm1
	vpshufb	%ymm12, %ymm1, %ymm1
	vpshufb	%ymm12, %ymm2, %ymm9
	vpor	%ymm1, %ymm9, %ymm2
	vptest	.LCPI30_5(%rip), %ymm2
	je	.LBB30_29
	vpaddw	%ymm13, %ymm9, %ymm2
	vpaddw	%ymm1, %ymm13, %ymm3
	vpminuw	%ymm3, %ymm2, %ymm2
	vextracti128	$1, %ymm2, %xmm3
	vpminuw	%xmm3, %xmm2, %xmm2
	vpminuw	.LCPI30_4(%rip), %xmm2, %xmm3
	vpcmpeqw	%xmm3, %xmm2, %xmm2
	vpmovmskb	%xmm2, %ecx
	testl	%ecx, %ecx
	jne	.LBB30_29
	vpsllw	$8, %ymm9, %ymm6
	vpsrlw	$12, %ymm9, %ymm0
	vpor	%ymm6, %ymm0, %ymm2
	vpbroadcastd	.LCPI30_30(%rip), %ymm0
	vpor	%ymm0, %ymm2, %ymm8
	vpbroadcastd	.LCPI30_31(%rip), %ymm2
	vpsubusw	%ymm9, %ymm2, %ymm4
	vpbroadcastd	.LCPI30_32(%rip), %ymm3
	vpand	%ymm3, %ymm4, %ymm11
	vpsrlw	$9, %ymm11, %ymm7
	vpsrlw	$6, %ymm9, %ymm5
	vpbroadcastd	.LCPI30_33(%rip), %ymm4
	vpand	%ymm4, %ymm5, %ymm10
	vpbroadcastd	.LCPI30_34(%rip), %ymm5
	vpand	%ymm5, %ymm6, %ymm6
	vpor	%ymm6, %ymm10, %ymm6
	vpor	%ymm7, %ymm6, %ymm7
	vpbroadcastd	.LCPI30_35(%rip), %ymm6
	vpor	%ymm6, %ymm7, %ymm10
	vpbroadcastd	.LCPI30_36(%rip), %ymm7
	vpsubusw	%ymm9, %ymm7, %ymm9
	vpor	%ymm9, %ymm11, %ymm9
	vpmovmskb	%xmm9, %edx
	vpunpcklwd	%xmm10, %xmm8, %xmm11
	movzbl	%dl, %esi
	xorl	%edi, %edi
	popcntl	%esi, %edi
	shll	$4, %esi
	leaq	.Lstatic.7(%rip), %rcx
	vpshufb	(%rsi,%rcx), %xmm11, %xmm11
	vmovdqu	%xmm11, (%r15,%rax)
	subq	%rdi, %rax
	vpunpckhwd	%xmm10, %xmm8, %xmm11
	shrl	$8, %edx
	xorl	%esi, %esi
	popcntl	%edx, %esi
	shll	$4, %edx
	vpshufb	(%rdx,%rcx), %xmm11, %xmm11
	vmovdqu	%xmm11, 12(%r15,%rax)
	addq	$12, %rax
	subq	%rsi, %rax
	vextracti128	$1, %ymm8, %xmm8
	vextracti128	$1, %ymm10, %xmm10
	vextracti128	$1, %ymm9, %xmm9
	vpmovmskb	%xmm9, %edx
	vpunpcklwd	%xmm10, %xmm8, %xmm9
	movzbl	%dl, %esi
	xorl	%edi, %edi
	popcntl	%esi, %edi
	shll	$4, %esi
	vpshufb	(%rsi,%rcx), %xmm9, %xmm9
	vmovdqu	%xmm9, 12(%r15,%rax)
	addq	$12, %rax
	vpunpckhwd	%xmm10, %xmm8, %xmm8
	shrl	$8, %edx
	xorl	%esi, %esi
	popcntl	%edx, %esi
	shll	$4, %edx
	vpshufb	(%rdx,%rcx), %xmm8, %xmm8
	subq	%rdi, %rax
	vmovdqu	%xmm8, 12(%r15,%rax)
	subq	%rsi, %rax
	vpsllw	$8, %ymm1, %ymm8
	vpsrlw	$12, %ymm1, %ymm9
	vpor	%ymm8, %ymm9, %ymm9
	vpor	%ymm0, %ymm9, %ymm0
	vpsubusw	%ymm1, %ymm2, %ymm2
	vpand	%ymm3, %ymm2, %ymm3
	vpsrlw	$9, %ymm3, %ymm2
	vpsrlw	$6, %ymm1, %ymm9
	vpand	%ymm4, %ymm9, %ymm4
	vpand	%ymm5, %ymm8, %ymm5
	vpor	%ymm4, %ymm5, %ymm4
	vpor	%ymm2, %ymm4, %ymm2
	vpor	%ymm6, %ymm2, %ymm2
	vpsubusw	%ymm1, %ymm7, %ymm4
	vpor	%ymm4, %ymm3, %ymm3
	vpmovmskb	%xmm3, %edx
	vpunpcklwd	%xmm2, %xmm0, %xmm4
	movzbl	%dl, %esi
	xorl	%edi, %edi
	popcntl	%esi, %edi
	shll	$4, %esi
	vpshufb	(%rsi,%rcx), %xmm4, %xmm4
	vmovdqu	%xmm4, 24(%r15,%rax)
	addq	$24, %rax
	subq	%rdi, %rax
	vpunpckhwd	%xmm2, %xmm0, %xmm4
	shrl	$8, %edx
	xorl	%esi, %esi
	popcntl	%edx, %esi
	shll	$4, %edx
	vpshufb	(%rdx,%rcx), %xmm4, %xmm4
	vmovdqu	%xmm4, 12(%r15,%rax)
	addq	$12, %rax
	subq	%rsi, %rax
	vextracti128	$1, %ymm0, %xmm0
	vextracti128	$1, %ymm2, %xmm2
	vextracti128	$1, %ymm3, %xmm3
	vpmovmskb	%xmm3, %edx
	vpunpcklwd	%xmm2, %xmm0, %xmm3
	movzbl	%dl, %esi
	xorl	%edi, %edi
	popcntl	%esi, %edi
	shll	$4, %esi
	vpshufb	(%rsi,%rcx), %xmm3, %xmm3
	vmovdqu	%xmm3, 12(%r15,%rax)
	addq	$12, %rax
	vpunpckhwd	%xmm2, %xmm0, %xmm0
	shrl	$8, %edx
	xorl	%esi, %esi
	popcntl	%edx, %esi
	shll	$4, %edx
	vpshufb	(%rdx,%rcx), %xmm0, %xmm0
	subq	%rdi, %rax
	vmovdqu	%xmm0, 12(%r15,%rax)
	subq	%rsi, %rax
	addq	$24, %rax
	vextracti128	$1, %ymm1, %xmm0
	addq	$64, %rbx
	cmpq	%r12, %rbx
	ja	.LBB30_29
	cmpq	%rax, %r14
	jae	.LBB30_25
	jmp	.LBB30_29
	.p2align	4
.LBB30_13:
	vpsrlw	$6, %ymm5, %ymm2
	vpsllw	$8, %ymm5, %ymm1
	vpbroadcastd	.LCPI30_34(%rip), %ymm0
	vpand	%ymm0, %ymm1, %ymm3
	vpbroadcastd	.LCPI30_37(%rip), %ymm1
	vpaddw	%ymm1, %ymm2, %ymm2
	vpaddw	%ymm3, %ymm2, %ymm3
	vpbroadcastd	.LCPI30_38(%rip), %ymm2
	vpminuw	%ymm2, %ymm5, %ymm4
	vpcmpeqw	%ymm4, %ymm5, %ymm4
	vpblendvb	%ymm4, %ymm5, %ymm3, %ymm3
	vextracti128	$1, %ymm4, %xmm5
	vpacksswb	%xmm5, %xmm4, %xmm4
	vpmovmskb	%xmm4, %eax
	movzbl	%al, %edx
	xorl	%edi, %edi
	popcntl	%edx, %edi
	shll	$4, %edx
	leaq	.Lstatic.6(%rip), %rcx
	vpshufb	(%rdx,%rcx), %xmm3, %xmm4
	vmovdqu	%xmm4, (%r15,%rsi)
	subq	%rdi, %rsi
	shrl	$8, %eax
	vextracti128	$1, %ymm3, %xmm3
	xorl	%edx, %edx
	popcntl	%eax, %edx
	shll	$4, %eax
	vpshufb	(%rax,%rcx), %xmm3, %xmm3
	vmovdqu	%xmm3, 16(%r15,%rsi)
	subq	%rdx, %rsi
	vpsrlw	$6, %ymm11, %ymm3
	vpsllw	$8, %ymm11, %ymm4
	vpand	%ymm0, %ymm4, %ymm0
	vpaddw	%ymm1, %ymm3, %ymm1
	vpaddw	%ymm0, %ymm1, %ymm0
	vpminuw	%ymm2, %ymm11, %ymm1
	vpcmpeqw	%ymm1, %ymm11, %ymm1
	vpblendvb	%ymm1, %ymm11, %ymm0, %ymm0
	vextracti128	$1, %ymm1, %xmm2
	vpacksswb	%xmm2, %xmm1, %xmm1
	vpmovmskb	%xmm1, %edx
	movzbl	%dl, %eax
	xorl	%edi, %edi
	popcntl	%eax, %edi
	shll	$4, %eax
	vpshufb	(%rax,%rcx), %xmm0, %xmm1
	leaq	32(%rsi), %rax
	vmovdqu	%xmm1, 32(%r15,%rsi)
	subq	%rdi, %rax
	shrl	$8, %edx
	vextracti128	$1, %ymm0, %xmm0
	xorl	%esi, %esi
	popcntl	%edx, %esi
	shll	$4, %edx
	vpshufb	(%rdx,%rcx), %xmm0, %xmm0
	vmovdqu	%xmm0, 16(%r15,%rax)
	subq	%rsi, %rax
	addq	$32, %rax
	addq	$64, %rbp
	vextracti128	$1, %ymm11, %xmm0
	movq	%rbp, %rbx
	jmp	.LBB30_29
	.p2align	4
.LBB30_14:
	vpsrlw	$12, %ymm5, %ymm0
	vpsllw	$2, %ymm5, %ymm2
	vpbroadcastd	.LCPI30_34(%rip), %ymm1
	vpand	%ymm1, %ymm2, %ymm3
	vpbroadcastd	.LCPI30_39(%rip), %ymm2
	vpor	%ymm2, %ymm0, %ymm0
	vpor	%ymm3, %ymm0, %ymm0
	vpbroadcastd	.LCPI30_33(%rip), %ymm3
	vpand	%ymm3, %ymm5, %ymm5
	vpbroadcastd	.LCPI30_40(%rip), %ymm4
	vpor	%ymm4, %ymm5, %ymm8
	vmovdqa	.LCPI30_15(%rip), %xmm5
	vpshufb	%xmm5, %xmm8, %xmm7
	vmovdqa	.LCPI30_16(%rip), %xmm6
	vpshufb	%xmm6, %xmm0, %xmm9
	vpor	%xmm7, %xmm9, %xmm7
	vmovdqu	%xmm7, (%r15,%rsi)
	vpunpckhbw	%xmm8, %xmm0, %xmm9
	vmovq	.LCPI30_41(%rip), %xmm7
	vpshufb	%xmm7, %xmm9, %xmm9
	vmovq	%xmm9, 16(%r15,%rsi)
	vextracti128	$1, %ymm0, %xmm0
	vextracti128	$1, %ymm8, %xmm8
	vpshufb	%xmm5, %xmm8, %xmm9
	vpshufb	%xmm6, %xmm0, %xmm10
	vpor	%xmm9, %xmm10, %xmm9
	vmovdqu	%xmm9, 24(%r15,%rsi)
	vpunpckhbw	%xmm8, %xmm0, %xmm0
	vpshufb	%xmm7, %xmm0, %xmm0
	vmovq	%xmm0, 40(%r15,%rsi)
	vpsrlw	$12, %ymm11, %ymm0
	vpsllw	$2, %ymm11, %ymm8
	vpand	%ymm1, %ymm8, %ymm8
	vpor	%ymm2, %ymm0, %ymm0
	vpor	%ymm0, %ymm8, %ymm0
	vpand	%ymm3, %ymm11, %ymm8
	vpor	%ymm4, %ymm8, %ymm8
	vpshufb	%xmm5, %xmm8, %xmm9
	vpshufb	%xmm6, %xmm0, %xmm10
	vpor	%xmm9, %xmm10, %xmm9
	vmovdqu	%xmm9, 48(%r15,%rsi)
	vpunpckhbw	%xmm8, %xmm0, %xmm9
	vpshufb	%xmm7, %xmm9, %xmm9
	vmovq	%xmm9, 64(%r15,%rsi)
	vextracti128	$1, %ymm0, %xmm0
	vextracti128	$1, %ymm8, %xmm8
	vpshufb	%xmm5, %xmm8, %xmm9
	vpshufb	%xmm6, %xmm0, %xmm10
	vpor	%xmm9, %xmm10, %xmm9
	vmovdqu	%xmm9, 72(%r15,%rsi)
	vpunpckhbw	%xmm8, %xmm0, %xmm0
	vpshufb	%xmm7, %xmm0, %xmm0
	vmovq	%xmm0, 88(%r15,%rsi)
	vextracti128	$1, %ymm11, %xmm0
	leaq	96(%rsi), %rax
	leaq	64(%rbp), %rbx
	cmpq	%r12, %rbx
	ja	.LBB30_29
	cmpq	%rax, %r14
	jb	.LBB30_29
	vmovdqu	(%r13,%rbx), %ymm9
	vmovdqu	32(%r13,%rbx), %ymm8
	vpshufb	%ymm12, %ymm8, %ymm8
	vpshufb	%ymm12, %ymm9, %ymm9
	vpaddw	%ymm13, %ymm9, %ymm10
	vpaddw	%ymm13, %ymm8, %ymm11
	vpminuw	%ymm11, %ymm8, %ymm11
	vpminuw	%ymm10, %ymm9, %ymm10
	vpminuw	%ymm11, %ymm10, %ymm10
	vextracti128	$1, %ymm10, %xmm11
	vpminuw	%xmm11, %xmm10, %xmm10
	vpminuw	.LCPI30_4(%rip), %xmm10, %xmm11
	vpcmpeqw	%xmm11, %xmm10, %xmm10
	vpmovmskb	%xmm10, %ecx
	testl	%ecx, %ecx
	jne	.LBB30_29
	addq	$192, %rsi
	subq	$-128, %rbp
	.p2align	4
.LBB30_19:
	movq	%rsi, %rax
	vpsrlw	$12, %ymm9, %ymm0
	vpsllw	$2, %ymm9, %ymm10
	vpand	%ymm1, %ymm10, %ymm10
	vpor	%ymm2, %ymm0, %ymm0
	vpor	%ymm0, %ymm10, %ymm10
	vpand	%ymm3, %ymm9, %ymm0
	vpor	%ymm4, %ymm0, %ymm9
	vpshufb	%xmm5, %xmm9, %xmm0
	vpshufb	%xmm6, %xmm10, %xmm11
	vpor	%xmm0, %xmm11, %xmm0
	vmovdqu	%xmm0, -96(%r15,%rsi)
	vpunpckhbw	%xmm9, %xmm10, %xmm0
	vpshufb	%xmm7, %xmm0, %xmm0
	vmovq	%xmm0, -80(%r15,%rsi)
	vmovdqa	%ymm8, %ymm0
	movq	%rbp, %rbx
	vextracti128	$1, %ymm10, %xmm8
	vextracti128	$1, %ymm9, %xmm9
	vpshufb	%xmm5, %xmm9, %xmm10
	vpshufb	%xmm6, %xmm8, %xmm11
	vpor	%xmm10, %xmm11, %xmm10
	vmovdqu	%xmm10, -72(%r15,%rsi)
	vpunpckhbw	%xmm9, %xmm8, %xmm8
	vpshufb	%xmm7, %xmm8, %xmm8
	vmovq	%xmm8, -56(%r15,%rsi)
	vpsrlw	$12, %ymm0, %ymm8
	vpsllw	$2, %ymm0, %ymm9
	vpand	%ymm1, %ymm9, %ymm9
	vpor	%ymm2, %ymm8, %ymm8
	vpor	%ymm9, %ymm8, %ymm8
	vpand	%ymm3, %ymm0, %ymm9
	vpor	%ymm4, %ymm9, %ymm9
	vpshufb	%xmm5, %xmm9, %xmm10
	vpshufb	%xmm6, %xmm8, %xmm11
	vpor	%xmm10, %xmm11, %xmm10
	vmovdqu	%xmm10, -48(%r15,%rsi)
	vpunpckhbw	%xmm9, %xmm8, %xmm10
	vpshufb	%xmm7, %xmm10, %xmm10
	vmovq	%xmm10, -32(%r15,%rsi)
	vextracti128	$1, %ymm8, %xmm8
	vextracti128	$1, %ymm9, %xmm9
	vpshufb	%xmm5, %xmm9, %xmm10
	vpshufb	%xmm6, %xmm8, %xmm11
	vpor	%xmm10, %xmm11, %xmm10
	vmovdqu	%xmm10, -24(%r15,%rsi)
	vpunpckhbw	%xmm9, %xmm8, %xmm8
	vpshufb	%xmm7, %xmm8, %xmm8
	vmovq	%xmm8, -8(%r15,%rsi)
	cmpq	%r12, %rbp
	ja	.LBB30_21
	cmpq	%rax, %r14
	jb	.LBB30_21
	vmovdqu	(%r13,%rbx), %ymm9
	vmovdqu	32(%r13,%rbx), %ymm8
	vpshufb	%ymm12, %ymm8, %ymm8
	vpshufb	%ymm12, %ymm9, %ymm9
	vpaddw	%ymm13, %ymm9, %ymm10
	vpaddw	%ymm13, %ymm8, %ymm11
	vpminuw	%ymm11, %ymm8, %ymm11
	vpminuw	%ymm10, %ymm9, %ymm10
	vpminuw	%ymm11, %ymm10, %ymm10
	vextracti128	$1, %ymm10, %xmm11
	vpminuw	%xmm11, %xmm10, %xmm10
	vpminuw	.LCPI30_4(%rip), %xmm10, %xmm11
	vpcmpeqw	%xmm11, %xmm10, %xmm10
	vpmovmskb	%xmm10, %ecx
	leaq	96(%rax), %rsi
	leaq	64(%rbx), %rbp
	testl	%ecx, %ecx
	je	.LBB30_19
.LBB30_21:
	vextracti128	$1, %ymm0, %xmm0
	jmp	.LBB30_29
.LBB30_23:
	movq	%rbp, %rbx
	vbroadcasti128	.LCPI30_28(%rip), %ymm12
	.p2align	4
.LBB30_29:
	cmpq	%r12, %rbx
	ja	.LBB30_30
	cmpq	%rax, %r14
	movq	16(%rsp), %rbp
	jb	.LBB30_36
	.p2align	4
.LBB30_32:
	vmovdqu	(%r13,%rbx), %ymm1
	vmovdqu	32(%r13,%rbx), %ymm2
	vpshufb	%ymm12, %ymm2, %ymm11
	vpshufb	%ymm12, %ymm1, %ymm5
	vpor	%ymm5, %ymm11, %ymm1
	vptest	.LCPI30_1(%rip), %ymm1
	jne	.LBB30_33
	vpackuswb	%ymm11, %ymm5, %ymm0
	vpermq	$216, %ymm0, %ymm0
	vmovdqu	%ymm0, (%r15,%rax)
	addq	$32, %rax
	addq	$64, %rbx
	vextracti128	$1, %ymm11, %xmm0
	cmpq	%r12, %rbx
	ja	.LBB30_36
	cmpq	%rax, %r14
	jae	.LBB30_32
	.p2align	4
.LBB30_36:
	cmpq	%rbx, %r12
	jb	.LBB30_43
	cmpq	%rax, %r14
	jb	.LBB30_43
	vmovdqu	(%r13,%rbx), %ymm2
	vmovdqu	32(%r13,%rbx), %ymm3
	vbroadcasti128	.LCPI30_28(%rip), %ymm7
	vpshufb	%ymm7, %ymm2, %ymm1
	vpshufb	%ymm7, %ymm3, %ymm15
	vpsrlw	$8, %ymm15, %ymm2
	vpsrlw	$8, %ymm1, %ymm3
	vpackuswb	%ymm2, %ymm3, %ymm2
	vpermq	$216, %ymm2, %ymm2
	vpand	.LCPI30_20(%rip), %ymm2, %ymm2
	vpcmpeqb	.LCPI30_21(%rip), %ymm2, %ymm3
	vpmovmskb	%ymm3, %ecx
	vpcmpeqb	.LCPI30_22(%rip), %ymm2, %ymm2
	vpmovmskb	%ymm2, %edx
	movzbl	%bpl, %esi
	andl	$1, %esi
	leal	(%rsi,%rcx,2), %esi
	cmpl	%edx, %esi
	jne	.LBB30_43
	shrl	$31, %ecx
	movl	%ecx, %ebp
	vpor	%ymm1, %ymm15, %ymm2
	vpbroadcastq	.LCPI30_2(%rip), %ymm3
	vptest	%ymm3, %ymm2
	je	.LBB30_41
	vpbroadcastd	.LCPI30_29(%rip), %ymm2
	vpaddw	%ymm2, %ymm15, %ymm3
	vpaddw	%ymm2, %ymm1, %ymm4
	vpminuw	%ymm4, %ymm1, %ymm4
	vpminuw	%ymm3, %ymm15, %ymm3
	vpor	%ymm3, %ymm4, %ymm3
	vptest	.LCPI30_5(%rip), %ymm3
	jne	.LBB30_41
	vinserti128	$1, %xmm0, %ymm0, %ymm0
	vperm2i128	$33, %ymm1, %ymm0, %ymm0
	vpalignr	$14, %ymm0, %ymm1, %ymm0
	vpbroadcastd	.LCPI30_42(%rip), %ymm14
	vpaddw	%ymm1, %ymm14, %ymm8
	vpbroadcastd	.LCPI30_43(%rip), %ymm4
	vpaddw	%ymm4, %ymm1, %ymm5
	vpsrlw	$2, %ymm5, %ymm6
	vpbroadcastd	.LCPI30_44(%rip), %ymm5
	vpsubusw	%ymm5, %ymm6, %ymm9
	vpsllw	$10, %ymm0, %ymm0
	vpbroadcastd	.LCPI30_45(%rip), %ymm6
	vpand	%ymm6, %ymm0, %ymm0
	vpbroadcastd	.LCPI30_46(%rip), %ymm3
	vpaddw	%ymm3, %ymm1, %ymm10
	vpaddw	%ymm0, %ymm10, %ymm0
	vpmaxuw	%ymm0, %ymm9, %ymm9
	vpxor	%xmm0, %xmm0, %xmm0
	vpcmpgtw	%ymm1, %ymm0, %ymm10
	vpblendvb	%ymm10, %ymm9, %ymm8, %ymm9
	vpsrlw	$6, %ymm9, %ymm10
	vpbroadcastd	.LCPI30_32(%rip), %ymm8
	vpsllw	$8, %ymm9, %ymm11
	vpbroadcastd	.LCPI30_34(%rip), %ymm9
	vpand	%ymm9, %ymm11, %ymm11
	vpaddw	%ymm10, %ymm11, %ymm10
	vpor	%ymm8, %ymm10, %ymm11
	vpbroadcastd	.LCPI30_38(%rip), %ymm10
	vpminuw	%ymm10, %ymm1, %ymm12
	vpcmpeqw	%ymm1, %ymm12, %ymm12
	vpblendvb	%ymm12, %ymm1, %ymm11, %ymm11
	vextracti128	$1, %ymm12, %xmm13
	vpacksswb	%xmm13, %xmm12, %xmm12
	vpmovmskb	%xmm12, %edx
	movzbl	%dl, %esi
	popcntl	%esi, %edi
	shll	$4, %esi
	leaq	.Lstatic.6(%rip), %rcx
	vpshufb	(%rsi,%rcx), %xmm11, %xmm12
	vmovdqu	%xmm12, (%r15,%rax)
	subq	%rdi, %rax
	shrl	$8, %edx
	vextracti128	$1, %ymm11, %xmm11
	xorl	%esi, %esi
	popcntl	%edx, %esi
	shll	$4, %edx
	vpshufb	(%rdx,%rcx), %xmm11, %xmm11
	vmovdqu	%xmm11, 16(%r15,%rax)
	vperm2i128	$33, %ymm15, %ymm1, %ymm11
	vmovdqa	%ymm14, %ymm1
	vpalignr	$14, %ymm11, %ymm15, %ymm11
	vpaddw	%ymm14, %ymm15, %ymm12
	vpaddw	%ymm4, %ymm15, %ymm13
	vpsrlw	$2, %ymm13, %ymm13
	vpsubusw	%ymm5, %ymm13, %ymm13
	vpsllw	$10, %ymm11, %ymm11
	vpand	%ymm6, %ymm11, %ymm11
	vpaddw	%ymm3, %ymm15, %ymm14
	vpaddw	%ymm11, %ymm14, %ymm11
	vpmaxuw	%ymm11, %ymm13, %ymm11
	vpcmpgtw	%ymm15, %ymm0, %ymm0
	vpblendvb	%ymm0, %ymm11, %ymm12, %ymm0
	subq	%rsi, %rax
	vpsrlw	$6, %ymm0, %ymm11
	vpsllw	$8, %ymm0, %ymm0
	vpand	%ymm0, %ymm9, %ymm0
	vpaddw	%ymm0, %ymm11, %ymm0
	vpor	%ymm0, %ymm8, %ymm0
	vpminuw	%ymm10, %ymm15, %ymm11
	vpcmpeqw	%ymm11, %ymm15, %ymm11
	vpblendvb	%ymm11, %ymm15, %ymm0, %ymm0
	vextracti128	$1, %ymm11, %xmm12
	vpacksswb	%xmm12, %xmm11, %xmm11
	vpmovmskb	%xmm11, %edx
	movzbl	%dl, %esi
	xorl	%edi, %edi
	popcntl	%esi, %edi
	shll	$4, %esi
	vpshufb	(%rsi,%rcx), %xmm0, %xmm11
	vmovdqu	%xmm11, 32(%r15,%rax)
	addq	$32, %rax
	shrl	$8, %edx
	vextracti128	$1, %ymm0, %xmm0
	xorl	%esi, %esi
	popcntl	%edx, %esi
	shll	$4, %edx
	vpshufb	(%rdx,%rcx), %xmm0, %xmm0
	subq	%rdi, %rax
	vmovdqu	%xmm0, 16(%r15,%rax)
	subq	%rsi, %rax
	vextracti128	$1, %ymm15, %xmm0
	addq	$64, %rbx
	addq	$32, %rax
	cmpq	%r12, %rbx
	ja	.LBB30_42
.LBB30_46:
	cmpq	%rax, %r14
	jb	.LBB30_42
	vmovdqu	(%r13,%rbx), %ymm12
	vmovdqu	32(%r13,%rbx), %ymm11
	vpshufb	%ymm7, %ymm11, %ymm11
	vpshufb	%ymm7, %ymm12, %ymm12
	vpor	%ymm11, %ymm12, %ymm13
	vptest	.LCPI30_5(%rip), %ymm13
	je	.LBB30_42
	vpaddw	%ymm2, %ymm11, %ymm13
	vpaddw	%ymm2, %ymm12, %ymm14
	vpminuw	%ymm14, %ymm12, %ymm14
	vpminuw	%ymm13, %ymm11, %ymm13
	vpor	%ymm13, %ymm14, %ymm13
	vptest	.LCPI30_5(%rip), %ymm13
	jne	.LBB30_42
	vpsrlw	$8, %ymm12, %ymm13
	vpsrlw	$8, %ymm11, %ymm14
	vpackuswb	%ymm14, %ymm13, %ymm13
	vpermq	$216, %ymm13, %ymm13
	vpand	.LCPI30_20(%rip), %ymm13, %ymm13
	vpcmpeqb	.LCPI30_21(%rip), %ymm13, %ymm14
	vpmovmskb	%ymm14, %edx
	vpcmpeqb	.LCPI30_22(%rip), %ymm13, %ymm13
	vpmovmskb	%ymm13, %esi
	leal	(%rdx,%rdx), %edi
	movzbl	%bpl, %r8d
	orl	%edi, %r8d
	cmpl	%esi, %r8d
	jne	.LBB30_42
	vinserti128	$1, %xmm0, %ymm0, %ymm0
	vperm2i128	$33, %ymm12, %ymm0, %ymm0
	vpalignr	$14, %ymm0, %ymm12, %ymm0
	vpaddw	%ymm1, %ymm12, %ymm13
	vpaddw	%ymm4, %ymm12, %ymm14
	vpsrlw	$2, %ymm14, %ymm14
	vpsubusw	%ymm5, %ymm14, %ymm14
	vpsllw	$10, %ymm0, %ymm0
	vpand	%ymm6, %ymm0, %ymm0
	vpaddw	%ymm3, %ymm12, %ymm15
	vpaddw	%ymm0, %ymm15, %ymm0
	vpmaxuw	%ymm0, %ymm14, %ymm14
	vpxor	%xmm0, %xmm0, %xmm0
	vpcmpgtw	%ymm12, %ymm0, %ymm15
	vpblendvb	%ymm15, %ymm14, %ymm13, %ymm13
	vpsrlw	$6, %ymm13, %ymm14
	vpsllw	$8, %ymm13, %ymm13
	vpand	%ymm9, %ymm13, %ymm13
	vpaddw	%ymm14, %ymm13, %ymm13
	vpor	%ymm8, %ymm13, %ymm13
	vpminuw	%ymm10, %ymm12, %ymm14
	vpcmpeqw	%ymm14, %ymm12, %ymm14
	vpblendvb	%ymm14, %ymm12, %ymm13, %ymm13
	vextracti128	$1, %ymm14, %xmm15
	vpacksswb	%xmm15, %xmm14, %xmm14
	vpmovmskb	%xmm14, %esi
	movzbl	%sil, %edi
	xorl	%r8d, %r8d
	popcntl	%edi, %r8d
	shll	$4, %edi
	vpshufb	(%rdi,%rcx), %xmm13, %xmm14
	vmovdqu	%xmm14, (%r15,%rax)
	subq	%r8, %rax
	shrl	$8, %esi
	vextracti128	$1, %ymm13, %xmm13
	xorl	%edi, %edi
	popcntl	%esi, %edi
	shll	$4, %esi
	vpshufb	(%rsi,%rcx), %xmm13, %xmm13
	vmovdqu	%xmm13, 16(%r15,%rax)
	vperm2i128	$33, %ymm11, %ymm12, %ymm12
	vpalignr	$14, %ymm12, %ymm11, %ymm12
	vpaddw	%ymm1, %ymm11, %ymm13
	vpaddw	%ymm4, %ymm11, %ymm14
	vpsrlw	$2, %ymm14, %ymm14
	vpsubusw	%ymm5, %ymm14, %ymm14
	vpsllw	$10, %ymm12, %ymm12
	vpand	%ymm6, %ymm12, %ymm12
	vpaddw	%ymm3, %ymm11, %ymm15
	vpaddw	%ymm12, %ymm15, %ymm12
	vpmaxuw	%ymm12, %ymm14, %ymm12
	vpcmpgtw	%ymm11, %ymm0, %ymm0
	vpblendvb	%ymm0, %ymm12, %ymm13, %ymm0
	subq	%rdi, %rax
	vpsrlw	$6, %ymm0, %ymm12
	vpsllw	$8, %ymm0, %ymm0
	vpand	%ymm0, %ymm9, %ymm0
	vpaddw	%ymm0, %ymm12, %ymm0
	vpor	%ymm0, %ymm8, %ymm0
	vpminuw	%ymm10, %ymm11, %ymm12
	vpcmpeqw	%ymm12, %ymm11, %ymm12
	vpblendvb	%ymm12, %ymm11, %ymm0, %ymm0
	vextracti128	$1, %ymm12, %xmm13
	vpacksswb	%xmm13, %xmm12, %xmm12
	vpmovmskb	%xmm12, %esi
	movzbl	%sil, %edi
	xorl	%r8d, %r8d
	popcntl	%edi, %r8d
	shll	$4, %edi
	vpshufb	(%rdi,%rcx), %xmm0, %xmm12
	vmovdqu	%xmm12, 32(%r15,%rax)
	shrl	$31, %edx
	movl	%edx, %ebp
	addq	$32, %rax
	shrl	$8, %esi
	vextracti128	$1, %ymm0, %xmm0
	xorl	%edx, %edx
	popcntl	%esi, %edx
	shll	$4, %esi
	vpshufb	(%rsi,%rcx), %xmm0, %xmm0
	subq	%r8, %rax
	vmovdqu	%xmm0, 16(%r15,%rax)
	subq	%rdx, %rax
	vextracti128	$1, %ymm11, %xmm0
	addq	$64, %rbx
	addq	$32, %rax
	cmpq	%r12, %rbx
	jbe	.LBB30_46
	jmp	.LBB30_42
.LBB30_30:
	movq	16(%rsp), %rbp
	jmp	.LBB30_36
.LBB30_12:
	movq	%rbp, %rbx
	movq	%rsi, %rax
	movq	16(%rsp), %rbp
	jmp	.LBB30_36
.LBB30_43:
	movq	8(%rsp), %rcx
	movq	%rbx, (%rcx)
	movq	%rax, 8(%rcx)
	vmovdqu	%xmm0, 16(%rcx)
	andb	$1, %bpl
	movb	%bpl, 32(%rcx)
	movl	$0, 33(%rcx)
	movl	$0, 36(%rcx)
.LBB30_7:
	addq	$120, %rsp
	popq	%rbx
	popq	%r12
	popq	%r13
	popq	%r14
	popq	%r15
	popq	%rbp
	vzeroupper
	retq
.Lfunc_end30:

	.section	.rdata$003,"dr"
	.p2align	5, 0x0
.LCPI31_0:
	.short	224
	.short	224
	.short	224
	.short	224
	.short	224
	.short	224
	.short	224
	.short	224
	.short	224
	.short	224
	.short	224
	.short	224
	.short	224
	.short	224
	.short	224
	.short	224
.LCPI31_1:
	.short	34815
	.short	34815
	.short	34815
	.short	34815
	.short	34815
	.short	34815
	.short	34815
	.short	34815
	.short	34815
	.short	34815
	.short	34815
	.short	34815
	.short	34815
	.short	34815
	.short	34815
	.short	34815
.LCPI31_2:
	.short	32768
	.short	32768
	.short	32768
	.short	32768
	.short	32768
	.short	32768
	.short	32768
	.short	32768
	.short	32768
	.short	32768
	.short	32768
	.short	32768
	.short	32768
	.short	32768
	.short	32768
	.short	32768
.LCPI31_3:
	.short	4095
	.short	4095
	.short	4095
	.short	4095
	.short	4095
	.short	4095
	.short	4095
	.short	4095
	.short	4095
	.short	4095
	.short	4095
	.short	4095
	.short	4095
	.short	4095
	.short	4095
	.short	4095
.LCPI31_4:
	.short	8192
	.short	8192
	.short	8192
	.short	8192
	.short	8192
	.short	8192
	.short	8192
	.short	8192
	.short	8192
	.short	8192
	.short	8192
	.short	8192
	.short	8192
	.short	8192
	.short	8192
	.short	8192
.LCPI31_5:
	.short	9216
	.short	9216
	.short	9216
	.short	9216
	.short	9216
	.short	9216
	.short	9216
	.short	9216
	.short	9216
	.short	9216
	.short	9216
	.short	9216
	.short	9216
	.short	9216
	.short	9216
	.short	9216
.LCPI31_6:
	.short	752
	.short	752
	.short	752
	.short	752
	.short	752
	.short	752
	.short	752
	.short	752
	.short	752
	.short	752
	.short	752
	.short	752
	.short	752
	.short	752
	.short	752
	.short	752
.LCPI31_7:
	.short	3072
	.short	3072
	.short	3072
	.short	3072
	.short	3072
	.short	3072
	.short	3072
	.short	3072
	.short	3072
	.short	3072
	.short	3072
	.short	3072
	.short	3072
	.short	3072
	.short	3072
	.short	3072
.LCPI31_8:
	.short	17408
	.short	17408
	.short	17408
	.short	17408
	.short	17408
	.short	17408
	.short	17408
	.short	17408
	.short	17408
	.short	17408
	.short	17408
	.short	17408
	.short	17408
	.short	17408
	.short	17408
	.short	17408
.LCPI31_9:
	.short	63488
	.short	63488
	.short	63488
	.short	63488
	.short	63488
	.short	63488
	.short	63488
	.short	63488
	.short	63488
	.short	63488
	.short	63488
	.short	63488
	.short	63488
	.short	63488
	.short	63488
	.short	63488
.LCPI31_10:
	.short	55296
	.short	55296
	.short	55296
	.short	55296
	.short	55296
	.short	55296
	.short	55296
	.short	55296
	.short	55296
	.short	55296
	.short	55296
	.short	55296
	.short	55296
	.short	55296
	.short	55296
	.short	55296
.LCPI31_11:
	.short	16128
	.short	16128
	.short	16128
	.short	16128
	.short	16128
	.short	16128
	.short	16128
	.short	16128
	.short	16128
	.short	16128
	.short	16128
	.short	16128
	.short	16128
	.short	16128
	.short	16128
	.short	16128
.LCPI31_12:
	.short	255
	.short	255
	.short	255
	.short	255
	.short	255
	.short	255
	.short	255
	.short	255
	.short	255
	.short	255
	.short	255
	.short	255
	.short	255
	.short	255
	.short	255
	.short	255
.LCPI31_13:
	.short	63
	.short	63
	.short	63
	.short	63
	.short	63
	.short	63
	.short	63
	.short	63
	.short	63
	.short	63
	.short	63
	.short	63
	.short	63
	.short	63
	.short	63
	.short	63
.LCPI31_14:
	.zero	32,128
.LCPI31_15:
	.short	32992
	.short	32992
	.short	32992
	.short	32992
	.short	32992
	.short	32992
	.short	32992
	.short	32992
	.short	32992
	.short	32992
	.short	32992
	.short	32992
	.short	32992
	.short	32992
	.short	32992
	.short	32992
.LCPI31_16:
	.short	128
	.short	128
	.short	128
	.short	128
	.short	128
	.short	128
	.short	128
	.short	128
	.short	128
	.short	128
	.short	128
	.short	128
	.short	128
	.short	128
	.short	128
	.short	128
.LCPI31_20:
	.short	12288
	.short	12288
	.short	12288
	.short	12288
	.short	12288
	.short	12288
	.short	12288
	.short	12288
	.short	12288
	.short	12288
	.short	12288
	.short	12288
	.short	12288
	.short	12288
	.short	12288
	.short	12288
.LCPI31_21:
	.short	127
	.short	127
	.short	127
	.short	127
	.short	127
	.short	127
	.short	127
	.short	127
	.short	127
	.short	127
	.short	127
	.short	127
	.short	127
	.short	127
	.short	127
	.short	127
.LCPI31_22:
	.short	32960
	.short	32960
	.short	32960
	.short	32960
	.short	32960
	.short	32960
	.short	32960
	.short	32960
	.short	32960
	.short	32960
	.short	32960
	.short	32960
	.short	32960
	.short	32960
	.short	32960
	.short	32960
	.section	.rdata$000,"dr"
	.p2align	4, 0x0
.LCPI31_17:
	.byte	128
	.byte	128
	.byte	0
	.byte	128
	.byte	128
	.byte	2
	.byte	128
	.byte	128
	.byte	4
	.byte	128
	.byte	128
	.byte	6
	.byte	128
	.byte	128
	.byte	8
	.byte	128
.LCPI31_18:
	.byte	0
	.byte	1
	.byte	128
	.byte	2
	.byte	3
	.byte	128
	.byte	4
	.byte	5
	.byte	128
	.byte	6
	.byte	7
	.byte	128
	.byte	8
	.byte	9
	.byte	128
	.byte	10
.LCPI31_19:
	.byte	6
	.byte	5
	.byte	8
	.byte	10
	.byte	9
	.byte	12
	.byte	14
	.byte	13
	.zero	1
	.zero	1
	.zero	1
	.zero	1
	.zero	1
	.zero	1
	.zero	1
	.zero	1
.LCPI31_25:
	.byte	6
	.byte	5
	.byte	8
	.byte	10
	.byte	9
	.byte	12
	.byte	14
	.byte	13
	.byte	0
	.byte	0
	.byte	0
	.byte	0
	.byte	0
	.byte	0
	.byte	0
	.byte	0
	.section	.rdata$001,"dr"
	.p2align	2, 0x0
.LCPI31_23:
	.short	34815
	.short	34815
.LCPI31_24:
	.short	255
	.short	255
.LCPI31_26:
	.short	32768
	.short	32768
	.section	.text$038,"xr"
	.p2align	4
L_34:
	movq	%rsi, %rax
	movzbl	%dl, %ecx
	leaq	.LJTI31_0(%rip), %rdx
	movslq	(%rdx,%rcx,4), %rcx
	addq	%rdx, %rcx
	jmpq	*%rcx
.LBB31_1:
	vextracti128	$1, %ymm1, %xmm0
	vpackuswb	%xmm0, %xmm1, %xmm0
	vmovdqu	%xmm0, (%rdi,%rax)
	addq	$16, %rax
	vzeroupper
	retq
.LBB31_6:
	vpsllw	$8, %ymm1, %ymm2
	vpsrlw	$12, %ymm1, %ymm0
	vpor	%ymm2, %ymm0, %ymm0
	vpor	.LCPI31_0(%rip), %ymm0, %ymm0
	vpbroadcastd	.LCPI31_23(%rip), %ymm3
	vpsubusw	%ymm1, %ymm3, %ymm3
	vpand	.LCPI31_2(%rip), %ymm3, %ymm3
	vpsrlw	$6, %ymm1, %ymm4
	vpand	.LCPI31_13(%rip), %ymm4, %ymm4
	vpsrlw	$9, %ymm3, %ymm5
	vpand	.LCPI31_11(%rip), %ymm2, %ymm2
	vpor	%ymm2, %ymm4, %ymm2
	vpor	%ymm5, %ymm2, %ymm2
	vpor	.LCPI31_14(%rip), %ymm2, %ymm2
	vpbroadcastd	.LCPI31_24(%rip), %ymm4
	vpsubusw	%ymm1, %ymm4, %ymm1
	vpor	%ymm1, %ymm3, %ymm1
	vpmovmskb	%xmm1, %edx
	vpunpcklwd	%xmm2, %xmm0, %xmm3
	movzbl	%dl, %esi
	popcntl	%esi, %r8d
	shll	$4, %esi
	leaq	.Lstatic.7(%rip), %rcx
	vpshufb	(%rsi,%rcx), %xmm3, %xmm3
	vmovdqu	%xmm3, (%rdi,%rax)
	subq	%r8, %rax
	vpunpckhwd	%xmm2, %xmm0, %xmm3
	shrl	$8, %edx
	xorl	%esi, %esi
	popcntl	%edx, %esi
	shll	$4, %edx
	vpshufb	(%rdx,%rcx), %xmm3, %xmm3
	vmovdqu	%xmm3, 12(%rdi,%rax)
	addq	$12, %rax
	subq	%rsi, %rax
	vextracti128	$1, %ymm0, %xmm0
	vextracti128	$1, %ymm2, %xmm2
	vextracti128	$1, %ymm1, %xmm1
	vpmovmskb	%xmm1, %edx
	vpunpcklwd	%xmm2, %xmm0, %xmm1
	movzbl	%dl, %esi
	xorl	%r8d, %r8d
	popcntl	%esi, %r8d
	shll	$4, %esi
	vpshufb	(%rsi,%rcx), %xmm1, %xmm1
	vmovdqu	%xmm1, 12(%rdi,%rax)
	addq	$12, %rax
	subq	%r8, %rax
	vpunpckhwd	%xmm2, %xmm0, %xmm0
	jmp	.LBB31_8
.LBB31_4:
	vperm2i128	$33, %ymm1, %ymm0, %ymm0
	vpaddw	.LCPI31_20(%rip), %ymm1, %ymm2
	vpaddw	.LCPI31_5(%rip), %ymm1, %ymm3
	vpalignr	$14, %ymm0, %ymm1, %ymm0
	vpsrlw	$2, %ymm3, %ymm3
	vpsubusw	.LCPI31_6(%rip), %ymm3, %ymm3
	vpsllw	$10, %ymm0, %ymm0
	vpand	.LCPI31_7(%rip), %ymm0, %ymm0
	vpaddw	%ymm0, %ymm1, %ymm0
	vpaddw	.LCPI31_8(%rip), %ymm0, %ymm0
	vpmaxuw	%ymm0, %ymm3, %ymm0
	vpxor	%xmm3, %xmm3, %xmm3
	vpcmpgtw	%ymm1, %ymm3, %ymm3
	vpblendvb	%ymm3, %ymm0, %ymm2, %ymm0
	vpsrlw	$6, %ymm0, %ymm2
	vpsllw	$8, %ymm0, %ymm0
	vpand	.LCPI31_11(%rip), %ymm0, %ymm0
	vpaddw	%ymm2, %ymm0, %ymm0
	vpor	.LCPI31_2(%rip), %ymm0, %ymm0
	jmp	.LBB31_3
.LBB31_5:
	vpsllw	$2, %ymm1, %ymm0
	vpand	.LCPI31_11(%rip), %ymm0, %ymm0
	vpsrlw	$12, %ymm1, %ymm2
	vpor	%ymm0, %ymm2, %ymm0
	vpor	.LCPI31_15(%rip), %ymm0, %ymm0
	vpand	.LCPI31_13(%rip), %ymm1, %ymm1
	vpor	.LCPI31_16(%rip), %ymm1, %ymm1
	vmovdqa	.LCPI31_17(%rip), %xmm2
	vpshufb	%xmm2, %xmm1, %xmm3
	vmovdqa	.LCPI31_18(%rip), %xmm4
	vpshufb	%xmm4, %xmm0, %xmm5
	vpor	%xmm3, %xmm5, %xmm3
	vmovdqu	%xmm3, (%rdi,%rax)
	vpunpckhbw	%xmm1, %xmm0, %xmm3
	vmovq	.LCPI31_25(%rip), %xmm5
	vpshufb	%xmm5, %xmm3, %xmm3
	vmovq	%xmm3, 16(%rdi,%rax)
	vextracti128	$1, %ymm0, %xmm0
	vextracti128	$1, %ymm1, %xmm1
	vpshufb	%xmm2, %xmm1, %xmm2
	vpshufb	%xmm4, %xmm0, %xmm3
	vpor	%xmm2, %xmm3, %xmm2
	vmovdqu	%xmm2, 24(%rdi,%rax)
	vpunpckhbw	%xmm1, %xmm0, %xmm0
	vpshufb	%xmm5, %xmm0, %xmm0
	vmovq	%xmm0, 40(%rdi,%rax)
	addq	$48, %rax
	vzeroupper
	retq
.LBB31_2:
	vpsrlw	$6, %ymm1, %ymm0
	vpsllw	$8, %ymm1, %ymm2
	vpand	.LCPI31_11(%rip), %ymm2, %ymm2
	vpaddw	%ymm2, %ymm0, %ymm0
	vpaddw	.LCPI31_22(%rip), %ymm0, %ymm0
.LBB31_3:
	vpminuw	.LCPI31_21(%rip), %ymm1, %ymm2
	vpcmpeqw	%ymm2, %ymm1, %ymm2
	vpblendvb	%ymm2, %ymm1, %ymm0, %ymm0
	vextracti128	$1, %ymm2, %xmm1
	vpacksswb	%xmm1, %xmm2, %xmm1
	vpmovmskb	%xmm1, %ecx
	movzbl	%cl, %edx
	xorl	%esi, %esi
	popcntl	%edx, %esi
	shll	$4, %edx
	leaq	.Lstatic.6(%rip), %r8
	vpshufb	(%rdx,%r8), %xmm0, %xmm1
	vmovdqu	%xmm1, (%rdi,%rax)
	subq	%rsi, %rax
	shrl	$8, %ecx
	vextracti128	$1, %ymm0, %xmm0
	xorl	%edx, %edx
	popcntl	%ecx, %edx
	shll	$4, %ecx
	vpshufb	(%rcx,%r8), %xmm0, %xmm0
	vmovdqu	%xmm0, 16(%rdi,%rax)
	subq	%rdx, %rax
	addq	$32, %rax
	vzeroupper
	retq
.LBB31_7:
	vpsllw	$8, %ymm1, %ymm2
	vpsrlw	$12, %ymm1, %ymm3
	vpor	%ymm2, %ymm3, %ymm2
	vpor	.LCPI31_0(%rip), %ymm2, %ymm2
	vpbroadcastd	.LCPI31_23(%rip), %ymm3
	vpsubusw	%ymm1, %ymm3, %ymm3
	vpbroadcastd	.LCPI31_26(%rip), %ymm4
	vpand	%ymm4, %ymm3, %ymm3
	vpsrlw	$3, %ymm3, %ymm5
	vpand	.LCPI31_3(%rip), %ymm1, %ymm6
	vpor	%ymm5, %ymm6, %ymm5
	vpor	.LCPI31_4(%rip), %ymm5, %ymm5
	vpaddw	.LCPI31_5(%rip), %ymm1, %ymm6
	vperm2i128	$33, %ymm1, %ymm0, %ymm0
	vpsrlw	$2, %ymm6, %ymm6
	vpsubusw	.LCPI31_6(%rip), %ymm6, %ymm6
	vpalignr	$14, %ymm0, %ymm1, %ymm0
	vpsllw	$10, %ymm0, %ymm0
	vpand	.LCPI31_7(%rip), %ymm0, %ymm0
	vpaddw	%ymm0, %ymm1, %ymm0
	vpaddw	.LCPI31_8(%rip), %ymm0, %ymm0
	vpand	.LCPI31_9(%rip), %ymm1, %ymm7
	vpcmpeqw	.LCPI31_10(%rip), %ymm7, %ymm7
	vpmaxuw	%ymm0, %ymm6, %ymm0
	vpblendvb	%ymm7, %ymm0, %ymm5, %ymm0
	vpsrlw	$6, %ymm0, %ymm5
	vpsllw	$8, %ymm0, %ymm0
	vpand	.LCPI31_11(%rip), %ymm0, %ymm0
	vpaddw	%ymm5, %ymm0, %ymm0
	vpor	%ymm4, %ymm0, %ymm0
	vpbroadcastd	.LCPI31_24(%rip), %ymm5
	vpblendvb	%ymm7, %ymm4, %ymm3, %ymm3
	vpsubusw	%ymm1, %ymm5, %ymm1
	vpor	%ymm1, %ymm3, %ymm1
	vpmovmskb	%xmm1, %edx
	vpunpcklwd	%xmm0, %xmm2, %xmm3
	movzbl	%dl, %esi
	popcntl	%esi, %r8d
	shll	$4, %esi
	leaq	.Lstatic.7(%rip), %rcx
	vpshufb	(%rsi,%rcx), %xmm3, %xmm3
	vmovdqu	%xmm3, (%rdi,%rax)
	subq	%r8, %rax
	vpunpckhwd	%xmm0, %xmm2, %xmm3
	shrl	$8, %edx
	xorl	%esi, %esi
	popcntl	%edx, %esi
	shll	$4, %edx
	vpshufb	(%rdx,%rcx), %xmm3, %xmm3
	vmovdqu	%xmm3, 12(%rdi,%rax)
	addq	$12, %rax
	subq	%rsi, %rax
	vextracti128	$1, %ymm2, %xmm2
	vextracti128	$1, %ymm0, %xmm0
	vextracti128	$1, %ymm1, %xmm1
	vpmovmskb	%xmm1, %edx
	vpunpcklwd	%xmm0, %xmm2, %xmm1
	movzbl	%dl, %esi
	xorl	%r8d, %r8d
	popcntl	%esi, %r8d
	shll	$4, %esi
	vpshufb	(%rsi,%rcx), %xmm1, %xmm1
	vmovdqu	%xmm1, 12(%rdi,%rax)
	addq	$12, %rax
	subq	%r8, %rax
	vpunpckhwd	%xmm0, %xmm2, %xmm0
.LBB31_8:
	shrl	$8, %edx
	xorl	%esi, %esi
	popcntl	%edx, %esi
	shll	$4, %edx
	vpshufb	(%rdx,%rcx), %xmm0, %xmm0
	vmovdqu	%xmm0, 12(%rdi,%rax)
	subq	%rsi, %rax
	addq	$24, %rax
	vzeroupper
	retq
.Lfunc_end31:
	.section	.rdata$039,"dr"
	.p2align	2, 0x0
.LJTI31_0:
	.long	.LBB31_1-.LJTI31_0
	.long	.LBB31_2-.LJTI31_0
	.long	.LBB31_4-.LJTI31_0
	.long	.LBB31_5-.LJTI31_0
	.long	.LBB31_6-.LJTI31_0
	.long	.LBB31_7-.LJTI31_0

	.section	.rdata$000,"dr"
	.p2align	4, 0x0
.LCPI32_0:
	.byte	1
	.byte	0
	.byte	3
	.byte	2
	.byte	5
	.byte	4
	.byte	7
	.byte	6
	.byte	9
	.byte	8
	.byte	11
	.byte	10
	.byte	13
	.byte	12
	.byte	15
	.byte	14
.LCPI32_1:
	.short	128
	.short	128
	.short	128
	.short	128
	.short	128
	.short	128
	.short	128
	.short	128
	.section	.text$040,"xr"
	.p2align	4
L_31:
	pushq	%rbp
	pushq	%r15
	pushq	%r14
	pushq	%r13
	pushq	%r12
	pushq	%rbx
	pushq	%rax
	movq	%r8, %rbx
	movq	%rdx, %r14
	movq	%rsi, %r15
	movq	%rdi, %r12
	addq	%r8, %rdx
	movq	%rcx, (%rsp)
	subq	%r8, %rcx
	leaq	-16(%rsi), %rax
	cmpq	$175, %rax
	ja	.LBB32_1
	movq	%r15, %rax
	shrq	%rax
	cmpq	%rax, %rcx
	cmovbq	%rcx, %rax
	cmpq	$8, %rax
	jb	.LBB32_1
	leaq	(%rax,%rax), %rsi
	xorl	%ebp, %ebp
	xorl	%r13d, %r13d
	.p2align	4
.LBB32_4:
	vmovdqu	(%r12,%r13,2), %xmm0
	vpshufb	.LCPI32_0(%rip), %xmm0, %xmm0
	vpmaxuw	.LCPI32_1(%rip), %xmm0, %xmm1
	vpcmpeqw	%xmm1, %xmm0, %xmm1
	vpmovmskb	%xmm1, %edi
	testl	%edi, %edi
	jne	.LBB32_9
	vpackuswb	%xmm0, %xmm0, %xmm0
	vmovq	%xmm0, (%rdx,%r13)
	addq	$8, %r13
	leaq	(%rsi,%rbp), %rdi
	addq	$-16, %rdi
	addq	$-16, %rbp
	cmpq	$15, %rdi
	ja	.LBB32_4
	negq	%rbp
	cmpq	%rbp, %rsi
	jbe	.LBB32_10
	vmovdqu	-16(%r12,%rsi), %xmm0
	vpshufb	.LCPI32_0(%rip), %xmm0, %xmm0
	vpmaxuw	.LCPI32_1(%rip), %xmm0, %xmm1
	vpcmpeqw	%xmm1, %xmm0, %xmm1
	vpmovmskb	%xmm1, %edi
	testl	%edi, %edi
	jne	.LBB32_10
	vpackuswb	%xmm0, %xmm0, %xmm0
	vmovq	%xmm0, -8(%rdx,%rax)
	movq	%rax, %r13
	movq	%rsi, %rbp
	movq	%r15, %rax
	subq	%rbp, %rax
	cmpq	$15, %rax
	jbe	.LBB32_11
	jmp	.LBB32_19
.LBB32_1:
	xorl	%r13d, %r13d
	xorl	%ebp, %ebp
.LBB32_10:
	movq	%r15, %rax
	subq	%rbp, %rax
	cmpq	$15, %rax
	ja	.LBB32_19
.LBB32_11:
	movq	%rcx, %rsi
	subq	%r13, %rsi
	movq	%rax, %rdi
	shrq	%rdi
	leaq	(%rdi,%rdi,2), %rdi
	cmpq	%rdi, %rsi
	setb	%sil
	cmpq	$2, %rax
	setb	%dil
	orb	%sil, %dil
	je	.LBB32_12
	jmp	.LBB32_19
	.p2align	4
.LBB32_13:
	movb	%sil, (%rdx,%r13)
	incq	%r13
.LBB32_18:
	addq	$2, %rbp
	addq	$-2, %rax
	cmpq	$1, %rax
	jbe	.LBB32_19
.LBB32_12:
	movbew	(%r12,%rbp), %si
	cmpw	$127, %si
	jbe	.LBB32_13
	movzwl	%si, %edi
	cmpl	$2047, %edi
	ja	.LBB32_16
	shrl	$6, %edi
	andl	$63, %esi
	shll	$8, %esi
	orl	%edi, %esi
	orl	$32960, %esi
	movw	%si, (%rdx,%r13)
	addq	$2, %r13
	jmp	.LBB32_18
	.p2align	4
.LBB32_16:
	movl	%esi, %r8d
	andl	$63488, %r8d
	cmpl	$55296, %r8d
	je	.LBB32_19
	movl	%esi, %r8d
	andb	$63, %r8b
	orb	$-128, %r8b
	shrl	$6, %esi
	andb	$63, %sil
	orb	$-128, %sil
	shrl	$12, %edi
	orb	$-32, %dil
	movb	%dil, (%rdx,%r13)
	movb	%sil, 1(%rdx,%r13)
	movb	%r8b, 2(%rdx,%r13)
	addq	$3, %r13
	jmp	.LBB32_18
.LBB32_9:
	negq	%rbp
	movq	%r15, %rax
	subq	%rbp, %rax
	cmpq	$15, %rax
	jbe	.LBB32_11
.LBB32_19:
	leaq	-8(%r15), %rax
	cmpq	$183, %rax
	ja	.LBB32_22
	movq	%r15, %rsi
	subq	%rbp, %rsi
	cmpq	$8, %rsi
	jb	.LBB32_22
	leaq	(%r12,%rbp), %rdi
	addq	%r13, %rdx
	subq	%r13, %rcx
	callq	L_28
	addq	%rax, %rbp
	addq	%rdx, %r13
.LBB32_22:
	addq	%rbx, %r13
	cmpq	%r15, %rbp
	jae	.LBB32_41
	movq	(%rsp), %rbx
	jmp	.LBB32_24
	.p2align	4
.LBB32_34:
	movb	%al, (%r14,%r13)
	incq	%r13
.LBB32_40:
	addq	%rcx, %rbp
	cmpq	%r15, %rbp
	jae	.LBB32_41
.LBB32_24:
	movq	%r15, %rax
	subq	%rbp, %rax
	cmpq	$2, %rax
	jb	.LBB32_41
	movbew	(%r12,%rbp), %di
	movl	%edi, %ecx
	andl	$63488, %ecx
	cmpl	$55296, %ecx
	jne	.LBB32_29
	cmpq	$4, %rax
	jb	.LBB32_41
	movl	%edi, %eax
	andl	$56320, %eax
	movzwl	%ax, %eax
	cmpl	$56320, %eax
	je	.LBB32_41
	movzbl	2(%r12,%rbp), %eax
	andb	$-4, %al
	cmpb	$-36, %al
	jne	.LBB32_41
.LBB32_29:
	movl	%edi, %eax
	andl	$64512, %eax
	cmpl	$55296, %eax
	jne	.LBB32_30
	movbew	2(%r12,%rbp), %si
	callq	L_5
	movl	$4, %ecx
	jmp	.LBB32_32
	.p2align	4
.LBB32_30:
	movzwl	%di, %eax
	movl	$2, %ecx
.LBB32_32:
	movq	%rbx, %rdx
	subq	%r13, %rdx
	cmpl	$65536, %eax
	movl	$4, %esi
	sbbq	$0, %rsi
	cmpl	$2048, %eax
	movl	$2, %edi
	cmovaeq	%rsi, %rdi
	cmpl	$128, %eax
	movl	$1, %esi
	cmovaeq	%rdi, %rsi
	cmpq	%rsi, %rdx
	jb	.LBB32_41
	cmpl	$127, %eax
	jbe	.LBB32_34
	movl	%eax, %edx
	andb	$63, %dl
	orb	$-128, %dl
	cmpl	$2047, %eax
	ja	.LBB32_37
	shrl	$6, %eax
	movzbl	%dl, %edx
	shll	$8, %edx
	orl	%eax, %edx
	orl	$192, %edx
	movw	%dx, (%r14,%r13)
	addq	$2, %r13
	jmp	.LBB32_40
	.p2align	4
.LBB32_37:
	movl	%eax, %esi
	cmpl	$65535, %eax
	ja	.LBB32_39
	shrl	$6, %esi
	andb	$63, %sil
	orb	$-128, %sil
	shrl	$12, %eax
	orb	$-32, %al
	movb	%al, (%r14,%r13)
	movb	%sil, 1(%r14,%r13)
	movb	%dl, 2(%r14,%r13)
	addq	$3, %r13
	jmp	.LBB32_40
.LBB32_39:
	shrl	$18, %esi
	addl	$240, %esi
	movzbl	%dl, %edx
	shll	$24, %edx
	movl	%eax, %edi
	shll	$10, %edi
	andl	$4128768, %edi
	orl	%edx, %edi
	shrl	$4, %eax
	andl	$16128, %eax
	orl	%edi, %eax
	movzbl	%sil, %edx
	addl	%edx, %eax
	addl	$8421376, %eax
	movl	%eax, (%r14,%r13)
	addq	$4, %r13
	jmp	.LBB32_40
.LBB32_41:
	movq	%rbp, %rax
	movq	%r13, %rdx
	addq	$8, %rsp
	popq	%rbx
	popq	%r12
	popq	%r13
	popq	%r14
	popq	%r15
	popq	%rbp
	retq
.Lfunc_end32:

	.section	.text$041,"xr"
	.p2align	4
L_33:
	pushq	%r15
	pushq	%r14
	pushq	%r13
	pushq	%r12
	pushq	%rbx
	subq	$48, %rsp
	movq	%rdx, %rbx
	movq	%rsi, %r14
	movq	%rdi, %r15
	movq	%rsi, %rax
	shrq	%rax
	leaq	(%rax,%rax,2), %r12
	addq	$128, %r12
	cmpq	$191, %rsi
	jbe	.LBB33_3
	vxorps	%xmm0, %xmm0, %xmm0
	vmovups	%ymm0, (%rsp)
	movq	$0, 32(%rsp)
	movq	%rsp, %rdi
	movq	%r15, %rsi
	movq	%r14, %rdx
	movq	%rbx, %rcx
	movq	%r12, %r8
	vzeroupper
	callq	L_30
	movq	(%rsp), %rax
	movq	8(%rsp), %rcx
	leaq	-2(%rax), %rdx
	leaq	-2(%rcx), %r13
	testb	$1, 32(%rsp)
	cmoveq	%rcx, %r13
	cmoveq	%rax, %rdx
	addq	%rdx, %r15
	subq	%rdx, %r14
	addq	%r13, %rbx
	cmpq	$7, %r14
	ja	.LBB33_5
	movq	%r15, %rdi
	movq	%r14, %rsi
	movq	%rbx, %rdx
	callq	L_35
	jmp	.LBB33_6
.LBB33_3:
	movq	%r15, %rdi
	movq	%r14, %rsi
	movq	%rbx, %rdx
	cmpq	$7, %r14
	jbe	.LBB33_8
	movq	%r12, %rcx
	callq	L_28
	movq	%rdx, %rax
	jmp	.LBB33_7
.LBB33_5:
	subq	%r13, %r12
	movq	%r15, %rdi
	movq	%r14, %rsi
	movq	%rbx, %rdx
	movq	%r12, %rcx
	callq	L_28
	movq	%rdx, %rax
.LBB33_6:
	addq	%r13, %rax
.LBB33_7:
	addq	$48, %rsp
	popq	%rbx
	popq	%r12
	popq	%r13
	popq	%r14
	popq	%r15
	retq
.LBB33_8:
	addq	$48, %rsp
	popq	%rbx
	popq	%r12
	popq	%r13
	popq	%r14
	popq	%r15
	jmp	L_35
.Lfunc_end33:

	.section	.text$042,"xr"
	.p2align	4
L_35:
	pushq	%r15
	pushq	%r14
	pushq	%r12
	pushq	%rbx
	pushq	%rax
	testq	%rsi, %rsi
	je	.LBB34_1
	movq	%rdx, %rbx
	movq	%rsi, %r14
	movq	%rdi, %r12
	xorl	%r15d, %r15d
	jmp	.LBB34_3
	.p2align	4
.LBB34_7:
	movb	%al, (%rbx,%r15)
	incq	%r15
.LBB34_13:
	addq	%rcx, %r12
	subq	%rcx, %r14
	je	.LBB34_14
.LBB34_3:
	movbew	(%r12), %di
	movl	%edi, %eax
	andl	$64512, %eax
	cmpl	$55296, %eax
	jne	.LBB34_4
	movbew	2(%r12), %si
	callq	L_5
	movl	$4, %ecx
	cmpl	$127, %eax
	jbe	.LBB34_7
	jmp	.LBB34_8
	.p2align	4
.LBB34_4:
	movzwl	%di, %eax
	movl	$2, %ecx
	cmpl	$127, %eax
	jbe	.LBB34_7
.LBB34_8:
	movl	%eax, %edx
	andb	$63, %dl
	orb	$-128, %dl
	cmpl	$2047, %eax
	ja	.LBB34_10
	shrl	$6, %eax
	movzbl	%dl, %edx
	shll	$8, %edx
	orl	%eax, %edx
	orl	$192, %edx
	movw	%dx, (%rbx,%r15)
	addq	$2, %r15
	jmp	.LBB34_13
	.p2align	4
.LBB34_10:
	movl	%eax, %esi
	cmpl	$65535, %eax
	ja	.LBB34_12
	shrl	$6, %esi
	andb	$63, %sil
	orb	$-128, %sil
	shrl	$12, %eax
	orb	$-32, %al
	movb	%al, (%rbx,%r15)
	movb	%sil, 1(%rbx,%r15)
	movb	%dl, 2(%rbx,%r15)
	addq	$3, %r15
	jmp	.LBB34_13
.LBB34_12:
	shrl	$18, %esi
	addl	$240, %esi
	movzbl	%dl, %edx
	shll	$24, %edx
	movl	%eax, %edi
	shll	$10, %edi
	andl	$4128768, %edi
	orl	%edx, %edi
	shrl	$4, %eax
	andl	$16128, %eax
	orl	%edi, %eax
	movzbl	%sil, %edx
	addl	%edx, %eax
	addl	$8421376, %eax
	movl	%eax, (%rbx,%r15)
	addq	$4, %r15
	jmp	.LBB34_13
.LBB34_1:
	xorl	%r15d, %r15d
.LBB34_14:
	movq	%r15, %rax
	addq	$8, %rsp
	popq	%rbx
	popq	%r12
	popq	%r14
	popq	%r15
	retq
.Lfunc_end34:

	.section	.rdata$003,"dr"
	.p2align	5, 0x0
.LCPI35_0:
	.zero	32,191
.LCPI35_1:
	.zero	32,240
	.section	.rdata$000,"dr"
	.p2align	4, 0x0
.LCPI35_2:
	.zero	16,191
.LCPI35_3:
	.zero	16,240
	.section	.rdata$001,"dr"
	.p2align	2, 0x0
.LCPI35_4:
	.zero	4,191
.LCPI35_5:
	.zero	4,240
	.section	.text$043,"xr"
	.p2align	4
L_32:
	pushq	%rbp
	pushq	%r15
	pushq	%r14
	pushq	%r13
	pushq	%r12
	pushq	%rbx
	pushq	%rax
	movq	%r9, %rbx
	movq	%r8, %r14
	movq	%rcx, %r12
	movq	%rdx, %r15
	movq	%rdi, %rbp
	cmpq	$64, %rsi
	movl	$64, %eax
	cmovaeq	%rax, %rsi
	callq	L_8
	movq	%rax, %r13
	movq	%rbp, %rdi
	movq	%rax, %rsi
	movq	%r15, %rdx
	callq	L_33
	subq	%rbx, %r14
	cmpq	%r14, %rax
	jbe	.LBB35_5
	testq	%r14, %r14
	je	.LBB35_4
	.p2align	4
.LBB35_2:
	cmpb	$-65, (%r15,%r14)
	jg	.LBB35_13
	decq	%r14
	jne	.LBB35_2
.LBB35_4:
	addq	%rbx, %r12
	xorl	%r14d, %r14d
	movq	%r12, %rdi
	xorl	%r13d, %r13d
	jmp	.LBB35_9
.LBB35_5:
	movq	%rax, %r14
.LBB35_6:
	leaq	(%r12,%rbx), %rdi
	movq	%rdi, %rax
	subq	%r15, %rax
	cmpq	%r14, %rax
	jae	.LBB35_9
	cmpq	$8, %r14
	jb	.LBB35_8
	leaq	(%r12,%rbx), %rax
	subq	%r15, %rax
	cmpq	$128, %rax
	jae	.LBB35_22
.LBB35_8:
	xorl	%eax, %eax
.LBB35_34:
	movq	%r14, %rdx
	movq	%rax, %rcx
	andq	$7, %rdx
	je	.LBB35_37
	movq	%rax, %rcx
	.p2align	4
.LBB35_36:
	movzbl	(%r15,%rcx), %esi
	movb	%sil, (%rdi,%rcx)
	incq	%rcx
	decq	%rdx
	jne	.LBB35_36
.LBB35_37:
	subq	%r14, %rax
	cmpq	$-8, %rax
	ja	.LBB35_10
	leaq	(%rbx,%r12), %rax
	addq	$7, %rax
	.p2align	4
.LBB35_39:
	movzbl	(%r15,%rcx), %edx
	movb	%dl, -7(%rax,%rcx)
	movzbl	1(%r15,%rcx), %edx
	movb	%dl, -6(%rax,%rcx)
	movzbl	2(%r15,%rcx), %edx
	movb	%dl, -5(%rax,%rcx)
	movzbl	3(%r15,%rcx), %edx
	movb	%dl, -4(%rax,%rcx)
	movzbl	4(%r15,%rcx), %edx
	movb	%dl, -3(%rax,%rcx)
	movzbl	5(%r15,%rcx), %edx
	movb	%dl, -2(%rax,%rcx)
	movzbl	6(%r15,%rcx), %edx
	movb	%dl, -1(%rax,%rcx)
	movzbl	7(%r15,%rcx), %edx
	movb	%dl, (%rax,%rcx)
	addq	$8, %rcx
	cmpq	%rcx, %r14
	jne	.LBB35_39
	jmp	.LBB35_10
.LBB35_9:
	movq	%r15, %rsi
	movq	%r14, %rdx
	vzeroupper
	callq	sysv_memmove
.LBB35_10:
	addq	%rbx, %r14
	movq	%r13, %rax
	movq	%r14, %rdx
	addq	$8, %rsp
	popq	%rbx
	popq	%r12
	popq	%r13
	popq	%r14
	popq	%r15
	popq	%rbp
	vzeroupper
	retq
.LBB35_13:
	cmpq	$15, %r14
	ja	.LBB35_24
	xorl	%r13d, %r13d
	movq	%r14, %rax
	movq	%r15, %rcx
	jmp	.LBB35_17
.LBB35_15:
	andl	$31, %edx
	shll	$6, %edx
	orl	%esi, %edx
	movl	$2, %r8d
	.p2align	4
.LBB35_16:
	addq	%r8, %rcx
	xorl	%esi, %esi
	cmpl	$65536, %edx
	setae	%sil
	leaq	2(%r13,%rsi,2), %r13
	subq	%r8, %rax
	je	.LBB35_6
.LBB35_17:
	movzbl	(%rcx), %edx
	movl	$1, %r8d
	testb	%dl, %dl
	jns	.LBB35_16
	movzbl	1(%rcx), %esi
	andl	$63, %esi
	cmpb	$-33, %dl
	jbe	.LBB35_15
	movzbl	2(%rcx), %edi
	andl	$63, %edi
	cmpb	$-17, %dl
	ja	.LBB35_21
	shll	$12, %edx
	movzwl	%dx, %edx
	shll	$6, %esi
	orl	%edx, %esi
	orl	%edi, %esi
	movl	$3, %r8d
	movl	%esi, %edx
	jmp	.LBB35_16
.LBB35_21:
	movzbl	3(%rcx), %r8d
	andl	$63, %r8d
	andl	$7, %edx
	shll	$18, %edx
	shll	$12, %esi
	orl	%edx, %esi
	shll	$6, %edi
	orl	%esi, %edi
	orl	%r8d, %edi
	movl	$4, %r8d
	movl	%edi, %edx
	jmp	.LBB35_16
.LBB35_22:
	cmpq	$128, %r14
	jae	.LBB35_27
	xorl	%eax, %eax
	jmp	.LBB35_31
.LBB35_24:
	cmpq	$64, %r14
	jb	.LBB35_40
	xorl	%ecx, %ecx
	movq	%r14, %rdx
	xorl	%eax, %eax
	.p2align	4
.LBB35_26:
	vmovdqu	(%r15,%rcx), %ymm0
	vmovdqu	32(%r15,%rcx), %ymm1
	vpbroadcastd	.LCPI35_4(%rip), %ymm2
	vpbroadcastd	.LCPI35_5(%rip), %ymm3
	vpcmpgtb	%ymm2, %ymm0, %ymm4
	vpmovmskb	%ymm4, %esi
	vpcmpgtb	%ymm2, %ymm1, %ymm2
	vpmovmskb	%ymm2, %edi
	shlq	$32, %rdi
	orq	%rsi, %rdi
	xorl	%esi, %esi
	popcntq	%rdi, %rsi
	addq	%rax, %rsi
	vpmaxub	%ymm3, %ymm0, %ymm2
	vpcmpeqb	%ymm2, %ymm0, %ymm0
	vpmovmskb	%ymm0, %eax
	vpmaxub	%ymm3, %ymm1, %ymm0
	vpcmpeqb	%ymm0, %ymm1, %ymm0
	vpmovmskb	%ymm0, %edi
	shlq	$32, %rdi
	orq	%rax, %rdi
	xorl	%eax, %eax
	popcntq	%rdi, %rax
	addq	%rsi, %rax
	addq	$64, %rcx
	addq	$-64, %rdx
	cmpq	$63, %rdx
	ja	.LBB35_26
	jmp	.LBB35_41
.LBB35_27:
	movq	%r14, %rax
	andq	$-128, %rax
	leaq	(%rbx,%r12), %rcx
	addq	$96, %rcx
	xorl	%edx, %edx
	.p2align	4
.LBB35_28:
	vmovdqu	(%r15,%rdx), %ymm0
	vmovdqu	32(%r15,%rdx), %ymm1
	vmovdqu	64(%r15,%rdx), %ymm2
	vmovdqu	96(%r15,%rdx), %ymm3
	vmovdqu	%ymm0, -96(%rcx,%rdx)
	vmovdqu	%ymm1, -64(%rcx,%rdx)
	vmovdqu	%ymm2, -32(%rcx,%rdx)
	vmovdqu	%ymm3, (%rcx,%rdx)
	subq	$-128, %rdx
	cmpq	%rdx, %rax
	jne	.LBB35_28
	cmpq	%rax, %r14
	je	.LBB35_10
	testb	$120, %r14b
	je	.LBB35_34
.LBB35_31:
	movq	%rax, %rcx
	movq	%r14, %rax
	andq	$-8, %rax
	.p2align	4
.LBB35_32:
	movq	(%r15,%rcx), %rdx
	movq	%rdx, (%rdi,%rcx)
	addq	$8, %rcx
	cmpq	%rcx, %rax
	jne	.LBB35_32
	cmpq	%rax, %r14
	je	.LBB35_10
	jmp	.LBB35_34
.LBB35_40:
	xorl	%eax, %eax
	xorl	%ecx, %ecx
.LBB35_41:
	movq	%r14, %rdx
	subq	%rcx, %rdx
	cmpq	$16, %rdx
	jb	.LBB35_44
	movq	%r14, %rdx
	subq	%rcx, %rdx
	addq	%r15, %rcx
	.p2align	4
.LBB35_43:
	vmovdqu	(%rcx), %xmm0
	vpcmpgtb	.LCPI35_2(%rip), %xmm0, %xmm1
	vpmovmskb	%xmm1, %esi
	popcntl	%esi, %esi
	vpmaxub	.LCPI35_3(%rip), %xmm0, %xmm1
	vpcmpeqb	%xmm1, %xmm0, %xmm0
	vpmovmskb	%xmm0, %edi
	popcntl	%edi, %edi
	addl	%esi, %edi
	addq	%rdi, %rax
	addq	$-16, %rdx
	addq	$16, %rcx
	cmpq	$15, %rdx
	ja	.LBB35_43
.LBB35_44:
	vmovdqu	-16(%r15,%r14), %xmm0
	vpcmpgtb	.LCPI35_2(%rip), %xmm0, %xmm1
	vpmovmskb	%xmm1, %ecx
	movb	$16, %sil
	subb	%dl, %sil
	shrxq	%rsi, %rcx, %rcx
	vpmaxub	.LCPI35_3(%rip), %xmm0, %xmm1
	popcntl	%ecx, %ecx
	vpcmpeqb	%xmm1, %xmm0, %xmm0
	vpmovmskb	%xmm0, %edx
	shrxq	%rsi, %rdx, %rdx
	xorl	%r13d, %r13d
	popcntl	%edx, %r13d
	addq	%rcx, %r13
	addq	%rax, %r13
	addq	%r13, %r13
	jmp	.LBB35_6
.Lfunc_end35:

	.section	.rdata$003,"dr"
	.p2align	5, 0x0
.LCPI36_0:
	.byte	1
	.byte	0
	.byte	3
	.byte	2
	.byte	5
	.byte	4
	.byte	7
	.byte	6
	.byte	9
	.byte	8
	.byte	11
	.byte	10
	.byte	13
	.byte	12
	.byte	15
	.byte	14
	.byte	1
	.byte	0
	.byte	3
	.byte	2
	.byte	5
	.byte	4
	.byte	7
	.byte	6
	.byte	9
	.byte	8
	.byte	11
	.byte	10
	.byte	13
	.byte	12
	.byte	15
	.byte	14
.LCPI36_1:
	.short	255
	.short	255
	.short	255
	.short	255
	.short	255
	.short	255
	.short	255
	.short	255
	.short	255
	.short	255
	.short	255
	.short	255
	.short	255
	.short	255
	.short	255
	.short	255
	.section	.rdata$000,"dr"
	.p2align	4, 0x0
.LCPI36_2:
	.byte	1
	.byte	0
	.byte	3
	.byte	2
	.byte	5
	.byte	4
	.byte	7
	.byte	6
	.byte	9
	.byte	8
	.byte	11
	.byte	10
	.byte	13
	.byte	12
	.byte	15
	.byte	14
	.section	.rdata$001,"dr"
	.p2align	2, 0x0
.LCPI36_3:
	.short	255
	.short	255
	.section	.text$044,"xr"
	.p2align	4
L_36:
	pushq	%rbp
	pushq	%r15
	pushq	%r14
	pushq	%rbx
	movq	%rdx, %r8
	leaq	-66(%rsi), %r9
	addq	$-35, %rcx
	xorl	%eax, %eax
	xorl	%edx, %edx
	.p2align	4
.LBB36_1:
	vmovdqu	(%rdi,%rax), %ymm0
	vmovdqu	32(%rdi,%rax), %ymm1
	vbroadcasti128	.LCPI36_2(%rip), %ymm2
	vpshufb	%ymm2, %ymm0, %ymm0
	vpshufb	%ymm2, %ymm1, %ymm1
	vpbroadcastd	.LCPI36_3(%rip), %ymm2
	vpminuw	%ymm2, %ymm1, %ymm1
	vpminuw	%ymm2, %ymm0, %ymm0
	vpackuswb	%ymm1, %ymm0, %ymm1
	vpermq	$216, %ymm1, %ymm0
	vmovdqu	%ymm0, (%r8,%rdx)
	vpmovmskb	%ymm1, %r10d
	testl	%r10d, %r10d
	je	.LBB36_2
	vpmovmskb	%ymm0, %r10d
	tzcntl	%r10d, %r10d
	leal	(%r10,%r10), %r11d
	movq	%rsi, %rbx
	subq	%rax, %rbx
	subq	%r11, %rbx
	cmpq	$2, %rbx
	jb	.LBB36_13
	leaq	(%rdi,%rax), %r14
	movbew	(%r14,%r11), %bp
	movl	%ebp, %r15d
	andl	$63488, %r15d
	cmpl	$55296, %r15d
	jne	.LBB36_13
	notl	%ebp
	testl	$56320, %ebp
	je	.LBB36_8
	cmpq	$4, %rbx
	jb	.LBB36_13
	movzbl	2(%r14,%r11), %ebx
	andb	$-4, %bl
	cmpb	$-36, %bl
	je	.LBB36_13
.LBB36_8:
	leaq	(%r8,%rdx), %rbx
	addq	$2, %r11
	addq	%r10, %rbx
	addq	$3, %r10
	leaq	.Lstatic.9(%rip), %r14
	movq	%rbx, %r15
	subq	%r14, %r15
	cmpq	$2, %r15
	ja	.LBB36_10
	movw	$-16401, (%rbx)
	movb	$-67, 2(%rbx)
	addq	%r11, %rax
	addq	%r10, %rdx
	cmpq	%r9, %rax
	jbe	.LBB36_12
	jmp	.LBB36_13
	.p2align	4
.LBB36_2:
	movl	$64, %r11d
	movl	$32, %r10d
	addq	%r11, %rax
	addq	%r10, %rdx
	cmpq	%r9, %rax
	jbe	.LBB36_12
	jmp	.LBB36_13
	.p2align	4
.LBB36_10:
	movb	$-67, 2(%rbx)
	movw	$-16401, (%rbx)
	addq	%r11, %rax
	addq	%r10, %rdx
	cmpq	%r9, %rax
	ja	.LBB36_13
.LBB36_12:
	cmpq	%rcx, %rdx
	jbe	.LBB36_1
.LBB36_13:
	popq	%rbx
	popq	%r14
	popq	%r15
	popq	%rbp
	vzeroupper
	retq
.Lfunc_end36:

	.section	.text$045,"xr"
	.p2align	4
L_37:
	pushq	%r15
	pushq	%r14
	pushq	%r13
	pushq	%r12
	pushq	%rbx
	subq	$1024, %rsp
	movq	%rdx, %rbx
	movq	%rdi, %r15
	leaq	-128(%rcx), %rdx
	movabsq	$-6148914691236517205, %rax
	mulxq	%rax, %rax, %rax
	andq	$-2, %rax
	cmpq	%rsi, %rax
	cmovaeq	%rsi, %rax
	cmpq	$1024, %rax
	movl	$1024, %r14d
	cmovbq	%rax, %r14
	movq	%rsp, %rdi
	movl	$1024, %edx
	xorl	%esi, %esi
	callq	sysv_memset
	andq	$2046, %r14
	je	.LBB37_3
	movzbl	-2(%r15,%r14), %eax
	andb	$-4, %al
	cmpb	$-40, %al
	jne	.LBB37_3
	addq	$-2, %r14
.LBB37_3:
	movq	%rsp, %rdi
	movq	%r15, %rsi
	movq	%r14, %rdx
	callq	sysv_memcpy
	movq	%r14, %r15
	andq	$-2, %r15
	je	.LBB37_13
	xorl	%r12d, %r12d
	jmp	.LBB37_5
	.p2align	4
.LBB37_11:
	movw	$-513, (%rsp,%r12)
	movl	$2, %eax
	addq	%rax, %r12
	cmpq	%r15, %r12
	jae	.LBB37_13
.LBB37_5:
	movq	%r15, %rcx
	subq	%r12, %rcx
	cmpq	$2, %rcx
	jb	.LBB37_11
	movbew	(%rsp,%r12), %ax
	movl	%eax, %edx
	andl	$63488, %edx
	movl	$2, %r13d
	cmpl	$55296, %edx
	jne	.LBB37_10
	cmpq	$4, %rcx
	jb	.LBB37_11
	andl	$56320, %eax
	movzwl	%ax, %eax
	cmpl	$56320, %eax
	je	.LBB37_11
	movzbl	2(%rsp,%r12), %eax
	andb	$-4, %al
	movl	$4, %r13d
	cmpb	$-36, %al
	jne	.LBB37_11
	.p2align	4
.LBB37_10:
	leaq	(%r12,%r13), %rax
	leaq	(%rsp,%rax), %rdi
	movq	%r15, %rsi
	subq	%rax, %rsi
	callq	L_8
	addq	%r13, %rax
	addq	%rax, %r12
	cmpq	%r15, %r12
	jb	.LBB37_5
.LBB37_13:
	movq	%rsp, %rdi
	movq	%r14, %rsi
	movq	%rbx, %rdx
	callq	L_33
	movq	%rax, %rdx
	movq	%r14, %rax
	addq	$1024, %rsp
	popq	%rbx
	popq	%r12
	popq	%r13
	popq	%r14
	popq	%r15
	retq
.Lfunc_end37:

	.section	.rdata$000,"dr"
	.p2align	4, 0x0
.LCPI38_0:
	.short	2048
	.short	2048
	.short	2048
	.short	2048
	.short	2048
	.short	2048
	.short	2048
	.short	2048
.LCPI38_1:
	.short	63488
	.short	63488
	.short	63488
	.short	63488
	.short	63488
	.short	63488
	.short	63488
	.short	63488
.LCPI38_2:
	.short	55296
	.short	55296
	.short	55296
	.short	55296
	.short	55296
	.short	55296
	.short	55296
	.short	55296
.LCPI38_3:
	.short	2047
	.short	2047
	.short	2047
	.short	2047
	.short	2047
	.short	2047
	.short	2047
	.short	2047
.LCPI38_4:
	.short	34815
	.short	34815
	.short	34815
	.short	34815
	.short	34815
	.short	34815
	.short	34815
	.short	34815
.LCPI38_5:
	.short	32768
	.short	32768
	.short	32768
	.short	32768
	.short	32768
	.short	32768
	.short	32768
	.short	32768
.LCPI38_6:
	.short	63
	.short	63
	.short	63
	.short	63
	.short	63
	.short	63
	.short	63
	.short	63
.LCPI38_7:
	.short	16128
	.short	16128
	.short	16128
	.short	16128
	.short	16128
	.short	16128
	.short	16128
	.short	16128
.LCPI38_8:
	.zero	16,128
.LCPI38_9:
	.short	224
	.short	224
	.short	224
	.short	224
	.short	224
	.short	224
	.short	224
	.short	224
.LCPI38_10:
	.short	255
	.short	255
	.short	255
	.short	255
	.short	255
	.short	255
	.short	255
	.short	255
.LCPI38_11:
	.short	32992
	.short	32992
	.short	32992
	.short	32992
	.short	32992
	.short	32992
	.short	32992
	.short	32992
.LCPI38_12:
	.byte	128
	.byte	0
	.byte	128
	.byte	0
	.byte	128
	.byte	0
	.byte	128
	.byte	0
	.byte	128
	.byte	0
	.byte	128
	.byte	0
	.byte	128
	.byte	0
	.byte	128
	.byte	0
.LCPI38_13:
	.byte	0
	.byte	1
	.byte	128
	.byte	2
	.byte	3
	.byte	128
	.byte	4
	.byte	5
	.byte	128
	.byte	6
	.byte	7
	.byte	128
	.byte	8
	.byte	9
	.byte	128
	.byte	10
.LCPI38_14:
	.byte	128
	.byte	128
	.byte	0
	.byte	128
	.byte	128
	.byte	2
	.byte	128
	.byte	128
	.byte	4
	.byte	128
	.byte	128
	.byte	6
	.byte	128
	.byte	128
	.byte	8
	.byte	128
.LCPI38_15:
	.byte	6
	.byte	5
	.byte	8
	.byte	10
	.byte	9
	.byte	12
	.byte	14
	.byte	13
	.zero	1
	.zero	1
	.zero	1
	.zero	1
	.zero	1
	.zero	1
	.zero	1
	.zero	1
.LCPI38_16:
	.short	32960
	.short	32960
	.short	32960
	.short	32960
	.short	32960
	.short	32960
	.short	32960
	.short	32960
.LCPI38_17:
	.short	127
	.short	127
	.short	127
	.short	127
	.short	127
	.short	127
	.short	127
	.short	127
.LCPI38_18:
	.byte	1
	.byte	3
	.byte	5
	.byte	7
	.byte	9
	.byte	11
	.byte	13
	.byte	15
	.byte	1
	.byte	3
	.byte	5
	.byte	7
	.byte	9
	.byte	11
	.byte	13
	.byte	15
.LCPI38_19:
	.byte	252
	.byte	252
	.byte	252
	.byte	252
	.byte	252
	.byte	252
	.byte	252
	.byte	252
	.zero	1
	.zero	1
	.zero	1
	.zero	1
	.zero	1
	.zero	1
	.zero	1
	.zero	1
.LCPI38_20:
	.byte	216
	.byte	216
	.byte	216
	.byte	216
	.byte	216
	.byte	216
	.byte	216
	.byte	216
	.zero	1
	.zero	1
	.zero	1
	.zero	1
	.zero	1
	.zero	1
	.zero	1
	.zero	1
.LCPI38_21:
	.zero	16,220
.LCPI38_22:
	.short	10240
	.short	10240
	.short	10240
	.short	10240
	.short	10240
	.short	10240
	.short	10240
	.short	10240
.LCPI38_23:
	.short	4095
	.short	4095
	.short	4095
	.short	4095
	.short	4095
	.short	4095
	.short	4095
	.short	4095
.LCPI38_24:
	.short	8192
	.short	8192
	.short	8192
	.short	8192
	.short	8192
	.short	8192
	.short	8192
	.short	8192
.LCPI38_25:
	.short	9216
	.short	9216
	.short	9216
	.short	9216
	.short	9216
	.short	9216
	.short	9216
	.short	9216
.LCPI38_26:
	.short	752
	.short	752
	.short	752
	.short	752
	.short	752
	.short	752
	.short	752
	.short	752
.LCPI38_27:
	.short	3072
	.short	3072
	.short	3072
	.short	3072
	.short	3072
	.short	3072
	.short	3072
	.short	3072
.LCPI38_28:
	.short	17408
	.short	17408
	.short	17408
	.short	17408
	.short	17408
	.short	17408
	.short	17408
	.short	17408
.LCPI38_29:
	.short	12288
	.short	12288
	.short	12288
	.short	12288
	.short	12288
	.short	12288
	.short	12288
	.short	12288
	.section	.rdata$001,"dr"
	.p2align	2, 0x0
.LCPI38_30:
	.short	34815
	.short	34815
.LCPI38_31:
	.short	32768
	.short	32768
.LCPI38_32:
	.short	255
	.short	255
	.section	.text$046,"xr"
	.p2align	4
L_38:
	pushq	%rbp
	pushq	%r15
	pushq	%r14
	pushq	%r12
	pushq	%rbx
	movq	%rdx, %r8
	movq	%rsi, %rax
	movq	%rsi, %rdx
	shrq	%rdx
	leaq	(%rdx,%rdx,2), %rsi
	addq	$128, %rsi
	cmpq	%rcx, %rsi
	cmovbq	%rsi, %rcx
	cmpq	$16, %rax
	setae	%bl
	setb	%sil
	cmpq	$32, %rcx
	setb	%r9b
	orb	%sil, %r9b
	jne	.LBB38_1
	vpxor	%xmm1, %xmm1, %xmm1
	xorl	%r11d, %r11d
	movq	%rax, %r10
	xorl	%esi, %esi
	xorl	%r9d, %r9d
	.p2align	4
.LBB38_3:
	vmovdqu	(%rdi,%r9), %xmm0
	testb	$1, %r11b
	jne	.LBB38_13
	vpmaxuw	.LCPI38_0(%rip), %xmm0, %xmm2
	vpcmpeqw	%xmm2, %xmm0, %xmm2
	vpmovmskb	%xmm2, %ebx
	testl	%ebx, %ebx
	je	.LBB38_9
	vpand	.LCPI38_1(%rip), %xmm0, %xmm2
	vpcmpeqw	.LCPI38_2(%rip), %xmm2, %xmm2
	vpmovmskb	%xmm2, %ebx
	testl	%ebx, %ebx
	je	.LBB38_6
.LBB38_13:
	vpshufb	.LCPI38_18(%rip), %xmm0, %xmm2
	vpand	.LCPI38_19(%rip), %xmm2, %xmm2
	vpcmpeqb	.LCPI38_20(%rip), %xmm2, %xmm3
	vpmovzxbw	%xmm3, %ymm3
	vextracti128	$1, %ymm3, %xmm4
	vpackuswb	%xmm4, %xmm3, %xmm3
	vpmovmskb	%xmm3, %ebx
	vpcmpeqb	.LCPI38_21(%rip), %xmm2, %xmm2
	vpmovmskb	%xmm2, %ebp
	movzbl	%bpl, %r14d
	leal	(%rbx,%rbx), %ebp
	movzbl	%bpl, %r15d
	orq	%r11, %r15
	cmpq	%r14, %r15
	jne	.LBB38_14
	vpaddw	.LCPI38_22(%rip), %xmm0, %xmm2
	vpminuw	%xmm2, %xmm0, %xmm2
	vpmaxuw	.LCPI38_0(%rip), %xmm2, %xmm3
	vpcmpeqw	%xmm3, %xmm2, %xmm2
	vpmovmskb	%xmm2, %r11d
	vpalignr	$14, %xmm1, %xmm0, %xmm1
	vpsllw	$10, %xmm1, %xmm1
	testl	%r11d, %r11d
	je	.LBB38_16
	vpbroadcastd	.LCPI38_30(%rip), %xmm2
	vpsubusw	%xmm0, %xmm2, %xmm2
	vpbroadcastd	.LCPI38_31(%rip), %xmm3
	vpand	%xmm3, %xmm2, %xmm2
	vpand	.LCPI38_23(%rip), %xmm0, %xmm4
	vpsrlw	$3, %xmm2, %xmm5
	vpor	%xmm5, %xmm4, %xmm4
	vpor	.LCPI38_24(%rip), %xmm4, %xmm4
	vpaddw	.LCPI38_25(%rip), %xmm0, %xmm5
	vpsrlw	$2, %xmm5, %xmm5
	vpsubusw	.LCPI38_26(%rip), %xmm5, %xmm5
	vpand	.LCPI38_27(%rip), %xmm1, %xmm1
	vpaddw	%xmm1, %xmm0, %xmm1
	vpaddw	.LCPI38_28(%rip), %xmm1, %xmm1
	vpmaxuw	%xmm1, %xmm5, %xmm1
	vpand	.LCPI38_1(%rip), %xmm0, %xmm5
	vpcmpeqw	.LCPI38_2(%rip), %xmm5, %xmm5
	vpblendvb	%xmm5, %xmm1, %xmm4, %xmm1
	vpsrlw	$6, %xmm1, %xmm4
	vpsllw	$8, %xmm1, %xmm1
	vpand	.LCPI38_7(%rip), %xmm1, %xmm1
	vpaddw	%xmm4, %xmm1, %xmm1
	vpsllw	$8, %xmm0, %xmm4
	vpsrlw	$12, %xmm0, %xmm6
	vpor	%xmm4, %xmm6, %xmm4
	vpor	.LCPI38_9(%rip), %xmm4, %xmm4
	vpor	%xmm3, %xmm1, %xmm1
	vpbroadcastd	.LCPI38_32(%rip), %xmm6
	vpblendvb	%xmm5, %xmm3, %xmm2, %xmm2
	vpsubusw	%xmm0, %xmm6, %xmm3
	vpor	%xmm3, %xmm2, %xmm2
	vpmovmskb	%xmm2, %r11d
	vpunpcklwd	%xmm1, %xmm4, %xmm2
	movzbl	%r11b, %r14d
	xorl	%r15d, %r15d
	popcntl	%r14d, %r15d
	shll	$4, %r14d
	leaq	.Lstatic.7(%rip), %r12
	vpshufb	(%r14,%r12), %xmm2, %xmm2
	vmovdqu	%xmm2, (%r8,%rsi)
	subq	%r15, %rsi
	vpunpckhwd	%xmm1, %xmm4, %xmm1
	shrl	$8, %r11d
	xorl	%r14d, %r14d
	popcntl	%r11d, %r14d
	shll	$4, %r11d
	vpshufb	(%r11,%r12), %xmm1, %xmm1
	vmovdqu	%xmm1, 12(%r8,%rsi)
	subq	%r14, %rsi
	addq	$24, %rsi
	jmp	.LBB38_18
	.p2align	4
.LBB38_16:
	vpaddw	.LCPI38_29(%rip), %xmm0, %xmm2
	vpaddw	.LCPI38_25(%rip), %xmm0, %xmm3
	vpsrlw	$2, %xmm3, %xmm3
	vpsubusw	.LCPI38_26(%rip), %xmm3, %xmm3
	vpand	.LCPI38_27(%rip), %xmm1, %xmm1
	vpaddw	%xmm1, %xmm0, %xmm1
	vpaddw	.LCPI38_28(%rip), %xmm1, %xmm1
	vpmaxuw	%xmm1, %xmm3, %xmm1
	vpxor	%xmm3, %xmm3, %xmm3
	vpcmpgtw	%xmm0, %xmm3, %xmm3
	vpblendvb	%xmm3, %xmm1, %xmm2, %xmm1
	vpsrlw	$6, %xmm1, %xmm2
	vpsllw	$8, %xmm1, %xmm1
	vpand	.LCPI38_7(%rip), %xmm1, %xmm1
	vpaddw	%xmm2, %xmm1, %xmm1
	vpor	.LCPI38_5(%rip), %xmm1, %xmm1
	vpminuw	.LCPI38_17(%rip), %xmm0, %xmm2
	vpcmpeqw	%xmm2, %xmm0, %xmm2
	vpblendvb	%xmm2, %xmm0, %xmm1, %xmm1
	vpacksswb	%xmm2, %xmm2, %xmm2
	vpmovmskb	%xmm2, %r11d
	movzbl	%r11b, %r11d
	xorl	%r14d, %r14d
	popcntl	%r11d, %r14d
	shll	$4, %r11d
	leaq	.Lstatic.6(%rip), %r15
	vpshufb	(%r11,%r15), %xmm1, %xmm1
	vmovdqu	%xmm1, (%r8,%rsi)
	subq	%r14, %rsi
	addq	$16, %rsi
.LBB38_18:
	shrb	$7, %bl
	movzbl	%bl, %r11d
.LBB38_19:
	addq	$16, %r9
	addq	$-16, %r10
	cmpq	$16, %r10
	setae	%bl
	jb	.LBB38_21
	movq	%rcx, %r14
	subq	%rsi, %r14
	vmovdqa	%xmm0, %xmm1
	cmpq	$31, %r14
	ja	.LBB38_3
	jmp	.LBB38_21
.LBB38_9:
	vpmaxuw	.LCPI38_12(%rip), %xmm0, %xmm1
	vpcmpeqw	%xmm1, %xmm0, %xmm1
	vpmovmskb	%xmm1, %r11d
	testl	%r11d, %r11d
	je	.LBB38_10
	vpsllw	$8, %xmm0, %xmm1
	vpand	.LCPI38_7(%rip), %xmm1, %xmm1
	vpsrlw	$6, %xmm0, %xmm2
	vpaddw	%xmm1, %xmm2, %xmm1
	vpaddw	.LCPI38_16(%rip), %xmm1, %xmm1
	vpminuw	.LCPI38_17(%rip), %xmm0, %xmm2
	vpcmpeqw	%xmm2, %xmm0, %xmm2
	vpblendvb	%xmm2, %xmm0, %xmm1, %xmm1
	vpacksswb	%xmm2, %xmm2, %xmm2
	vpmovmskb	%xmm2, %r11d
	movzbl	%r11b, %r11d
	xorl	%ebx, %ebx
	popcntl	%r11d, %ebx
	shll	$4, %r11d
	leaq	.Lstatic.6(%rip), %r14
	vpshufb	(%r11,%r14), %xmm1, %xmm1
	vmovdqu	%xmm1, (%r8,%rsi)
	subq	%rbx, %rsi
	addq	$16, %rsi
	xorl	%r11d, %r11d
	jmp	.LBB38_19
.LBB38_6:
	vpminuw	.LCPI38_3(%rip), %xmm0, %xmm1
	vpcmpeqw	%xmm1, %xmm0, %xmm1
	vpmovmskb	%xmm1, %r11d
	vpsrlw	$12, %xmm0, %xmm1
	testl	%r11d, %r11d
	je	.LBB38_7
	vpbroadcastd	.LCPI38_30(%rip), %xmm2
	vpsubusw	%xmm0, %xmm2, %xmm2
	vpand	.LCPI38_5(%rip), %xmm2, %xmm2
	vpsrlw	$6, %xmm0, %xmm3
	vpand	.LCPI38_6(%rip), %xmm3, %xmm3
	vpsrlw	$9, %xmm2, %xmm4
	vpsllw	$8, %xmm0, %xmm5
	vpand	.LCPI38_7(%rip), %xmm5, %xmm6
	vpor	%xmm3, %xmm6, %xmm3
	vpor	%xmm4, %xmm3, %xmm3
	vpor	.LCPI38_8(%rip), %xmm3, %xmm3
	vpor	%xmm5, %xmm1, %xmm1
	vpor	.LCPI38_9(%rip), %xmm1, %xmm1
	vpbroadcastd	.LCPI38_32(%rip), %xmm4
	vpsubusw	%xmm0, %xmm4, %xmm4
	vpor	%xmm4, %xmm2, %xmm2
	vpmovmskb	%xmm2, %r11d
	vpunpcklwd	%xmm3, %xmm1, %xmm2
	movzbl	%r11b, %ebx
	xorl	%r14d, %r14d
	popcntl	%ebx, %r14d
	shll	$4, %ebx
	leaq	.Lstatic.7(%rip), %r15
	vpshufb	(%rbx,%r15), %xmm2, %xmm2
	vmovdqu	%xmm2, (%r8,%rsi)
	subq	%r14, %rsi
	vpunpckhwd	%xmm3, %xmm1, %xmm1
	shrl	$8, %r11d
	xorl	%ebx, %ebx
	popcntl	%r11d, %ebx
	shll	$4, %r11d
	vpshufb	(%r11,%r15), %xmm1, %xmm1
	vmovdqu	%xmm1, 12(%r8,%rsi)
	subq	%rbx, %rsi
	jmp	.LBB38_8
.LBB38_10:
	vpackuswb	%xmm0, %xmm0, %xmm1
	vmovq	%xmm1, (%r8,%rsi)
	addq	$8, %rsi
	xorl	%r11d, %r11d
	jmp	.LBB38_19
.LBB38_7:
	vpsllw	$2, %xmm0, %xmm2
	vpand	.LCPI38_7(%rip), %xmm2, %xmm2
	vpor	%xmm2, %xmm1, %xmm1
	vpor	.LCPI38_11(%rip), %xmm1, %xmm1
	vpand	.LCPI38_6(%rip), %xmm0, %xmm2
	vpor	.LCPI38_12(%rip), %xmm2, %xmm2
	vpshufb	.LCPI38_13(%rip), %xmm1, %xmm3
	vpshufb	.LCPI38_14(%rip), %xmm2, %xmm4
	vpor	%xmm4, %xmm3, %xmm3
	vmovdqu	%xmm3, (%r8,%rsi)
	vpunpckhbw	%xmm2, %xmm1, %xmm1
	vpshufb	.LCPI38_15(%rip), %xmm1, %xmm1
	vmovq	%xmm1, 16(%r8,%rsi)
.LBB38_8:
	addq	$24, %rsi
	xorl	%r11d, %r11d
	jmp	.LBB38_19
.LBB38_1:
	vpxor	%xmm0, %xmm0, %xmm0
	xorl	%r9d, %r9d
	xorl	%esi, %esi
	xorl	%r11d, %r11d
	movq	%rax, %r10
.LBB38_21:
	testb	$1, %al
	jne	.LBB38_44
.LBB38_22:
	cmpq	%r9, %rax
	je	.LBB38_44
	testb	%bl, %bl
	jne	.LBB38_44
	subq	%rsi, %rcx
	cmpq	$32, %rcx
	jb	.LBB38_44
	cmpq	$15, %rax
	ja	.LBB38_27
	leaq	-8(%rax), %rcx
	vmovq	-8(%rdi,%rax), %xmm1
	vmovq	(%rdi), %xmm2
	vpunpcklqdq	%xmm1, %xmm2, %xmm1
	shlq	$4, %rcx
	leaq	.Lstatic.8(%rip), %rdi
	vmovq	(%rcx,%rdi), %xmm3
	vpshufb	%xmm3, %xmm1, %xmm1
	vpunpcklqdq	%xmm1, %xmm2, %xmm1
	jmp	.LBB38_28
.LBB38_27:
	vmovdqu	-16(%rdi,%rax), %xmm1
	shlq	$4, %r10
	leaq	.Lstatic.8(%rip), %rcx
	vpshufb	(%r10,%rcx), %xmm1, %xmm1
.LBB38_28:
	vpshufb	.LCPI38_18(%rip), %xmm1, %xmm2
	vpand	.LCPI38_19(%rip), %xmm2, %xmm2
	vpcmpeqb	.LCPI38_20(%rip), %xmm2, %xmm3
	vpmovmskb	%xmm3, %ecx
	vpcmpeqb	.LCPI38_21(%rip), %xmm2, %xmm2
	vpmovmskb	%xmm2, %edi
	movzbl	%dil, %edi
	addl	%ecx, %ecx
	movzbl	%cl, %ecx
	orq	%r11, %rcx
	cmpq	%rdi, %rcx
	jne	.LBB38_44
	vpmaxuw	.LCPI38_0(%rip), %xmm1, %xmm2
	vpcmpeqw	%xmm2, %xmm1, %xmm2
	vpmovmskb	%xmm2, %ecx
	testl	%ecx, %ecx
	je	.LBB38_34
	vpand	.LCPI38_1(%rip), %xmm1, %xmm2
	vpcmpeqw	.LCPI38_2(%rip), %xmm2, %xmm2
	vpmovmskb	%xmm2, %ecx
	testl	%ecx, %ecx
	je	.LBB38_38
	vpaddw	.LCPI38_22(%rip), %xmm1, %xmm3
	vpminuw	%xmm3, %xmm1, %xmm3
	vpmaxuw	.LCPI38_0(%rip), %xmm3, %xmm4
	vpcmpeqw	%xmm4, %xmm3, %xmm3
	vpmovmskb	%xmm3, %ecx
	vpalignr	$14, %xmm0, %xmm1, %xmm0
	testl	%ecx, %ecx
	je	.LBB38_32
	vpbroadcastd	.LCPI38_30(%rip), %xmm3
	vpsubusw	%xmm1, %xmm3, %xmm3
	vpbroadcastd	.LCPI38_31(%rip), %xmm4
	vpand	%xmm4, %xmm3, %xmm3
	vpsrlw	$3, %xmm3, %xmm5
	vpand	.LCPI38_23(%rip), %xmm1, %xmm6
	vpor	%xmm5, %xmm6, %xmm5
	vpor	.LCPI38_24(%rip), %xmm5, %xmm5
	vpaddw	.LCPI38_25(%rip), %xmm1, %xmm6
	vpsrlw	$2, %xmm6, %xmm6
	vpsubusw	.LCPI38_26(%rip), %xmm6, %xmm6
	vpsllw	$10, %xmm0, %xmm0
	vpand	.LCPI38_27(%rip), %xmm0, %xmm0
	vpaddw	%xmm0, %xmm1, %xmm0
	vpaddw	.LCPI38_28(%rip), %xmm0, %xmm0
	vpmaxuw	%xmm0, %xmm6, %xmm0
	vpblendvb	%xmm2, %xmm0, %xmm5, %xmm0
	vpsrlw	$6, %xmm0, %xmm5
	vpsllw	$8, %xmm0, %xmm0
	vpand	.LCPI38_7(%rip), %xmm0, %xmm0
	vpaddw	%xmm5, %xmm0, %xmm0
	vpsllw	$8, %xmm1, %xmm5
	vpsrlw	$12, %xmm1, %xmm6
	vpor	%xmm5, %xmm6, %xmm5
	vpor	.LCPI38_9(%rip), %xmm5, %xmm5
	vpor	%xmm4, %xmm0, %xmm0
	vpbroadcastd	.LCPI38_32(%rip), %xmm6
	vpblendvb	%xmm2, %xmm4, %xmm3, %xmm2
	vpsubusw	%xmm1, %xmm6, %xmm1
	vpor	%xmm1, %xmm2, %xmm1
	vpmovmskb	%xmm1, %ecx
	vpunpcklwd	%xmm0, %xmm5, %xmm1
	movzbl	%cl, %edi
	popcntl	%edi, %r9d
	shll	$4, %edi
	leaq	.Lstatic.7(%rip), %r10
	vpshufb	(%rdi,%r10), %xmm1, %xmm1
	vmovdqu	%xmm1, (%r8,%rsi)
	subq	%r9, %rsi
	vpunpckhwd	%xmm0, %xmm5, %xmm0
	jmp	.LBB38_41
.LBB38_14:
	movb	$1, %bl
	vmovdqa	%xmm1, %xmm0
	testb	$1, %al
	je	.LBB38_22
.LBB38_44:
	leaq	-2(%r9), %rax
	leaq	-2(%rsi), %rdx
	testb	$1, %r11b
	cmoveq	%rsi, %rdx
	cmoveq	%r9, %rax
	jmp	.LBB38_45
.LBB38_34:
	vpmaxuw	.LCPI38_12(%rip), %xmm1, %xmm0
	vpcmpeqw	%xmm0, %xmm1, %xmm0
	vpmovmskb	%xmm0, %ecx
	testl	%ecx, %ecx
	je	.LBB38_35
	vpsrlw	$6, %xmm1, %xmm0
	vpsllw	$8, %xmm1, %xmm2
	vpand	.LCPI38_7(%rip), %xmm2, %xmm2
	vpaddw	%xmm2, %xmm0, %xmm0
	vpaddw	.LCPI38_16(%rip), %xmm0, %xmm0
	jmp	.LBB38_37
.LBB38_38:
	vpminuw	.LCPI38_3(%rip), %xmm1, %xmm0
	vpcmpeqw	%xmm0, %xmm1, %xmm0
	vpmovmskb	%xmm0, %ecx
	testl	%ecx, %ecx
	je	.LBB38_39
	vpbroadcastd	.LCPI38_30(%rip), %xmm0
	vpsubusw	%xmm1, %xmm0, %xmm0
	vpand	.LCPI38_5(%rip), %xmm0, %xmm0
	vpsrlw	$9, %xmm0, %xmm2
	vpsrlw	$6, %xmm1, %xmm3
	vpand	.LCPI38_6(%rip), %xmm3, %xmm3
	vpsllw	$8, %xmm1, %xmm4
	vpand	.LCPI38_7(%rip), %xmm4, %xmm5
	vpor	%xmm5, %xmm3, %xmm3
	vpor	%xmm2, %xmm3, %xmm2
	vpor	.LCPI38_8(%rip), %xmm2, %xmm2
	vpsrlw	$12, %xmm1, %xmm3
	vpor	%xmm4, %xmm3, %xmm3
	vpor	.LCPI38_9(%rip), %xmm3, %xmm3
	vpbroadcastd	.LCPI38_32(%rip), %xmm4
	vpsubusw	%xmm1, %xmm4, %xmm1
	vpor	%xmm1, %xmm0, %xmm0
	vpmovmskb	%xmm0, %ecx
	vpunpcklwd	%xmm2, %xmm3, %xmm0
	movzbl	%cl, %edi
	popcntl	%edi, %r9d
	shll	$4, %edi
	leaq	.Lstatic.7(%rip), %r10
	vpshufb	(%rdi,%r10), %xmm0, %xmm0
	vmovdqu	%xmm0, (%r8,%rsi)
	subq	%r9, %rsi
	vpunpckhwd	%xmm2, %xmm3, %xmm0
.LBB38_41:
	shrl	$8, %ecx
	xorl	%edi, %edi
	popcntl	%ecx, %edi
	shll	$4, %ecx
	vpshufb	(%rcx,%r10), %xmm0, %xmm0
	vmovdqu	%xmm0, 12(%r8,%rsi)
	subq	%rdi, %rsi
.LBB38_42:
	addq	$24, %rsi
	jmp	.LBB38_43
.LBB38_32:
	vpaddw	.LCPI38_29(%rip), %xmm1, %xmm2
	vpaddw	.LCPI38_25(%rip), %xmm1, %xmm3
	vpsrlw	$2, %xmm3, %xmm3
	vpsubusw	.LCPI38_26(%rip), %xmm3, %xmm3
	vpsllw	$10, %xmm0, %xmm0
	vpand	.LCPI38_27(%rip), %xmm0, %xmm0
	vpaddw	%xmm0, %xmm1, %xmm0
	vpaddw	.LCPI38_28(%rip), %xmm0, %xmm0
	vpmaxuw	%xmm0, %xmm3, %xmm0
	vpxor	%xmm3, %xmm3, %xmm3
	vpcmpgtw	%xmm1, %xmm3, %xmm3
	vpblendvb	%xmm3, %xmm0, %xmm2, %xmm0
	vpsrlw	$6, %xmm0, %xmm2
	vpsllw	$8, %xmm0, %xmm0
	vpand	.LCPI38_7(%rip), %xmm0, %xmm0
	vpaddw	%xmm2, %xmm0, %xmm0
	vpor	.LCPI38_5(%rip), %xmm0, %xmm0
.LBB38_37:
	vpminuw	.LCPI38_17(%rip), %xmm1, %xmm2
	vpcmpeqw	%xmm2, %xmm1, %xmm2
	vpblendvb	%xmm2, %xmm1, %xmm0, %xmm0
	vpacksswb	%xmm2, %xmm2, %xmm1
	vpmovmskb	%xmm1, %ecx
	movzbl	%cl, %ecx
	xorl	%edi, %edi
	popcntl	%ecx, %edi
	shll	$4, %ecx
	leaq	.Lstatic.6(%rip), %r9
	vpshufb	(%rcx,%r9), %xmm0, %xmm0
	vmovdqu	%xmm0, (%r8,%rsi)
	subq	%rdi, %rsi
	addq	$16, %rsi
	jmp	.LBB38_43
.LBB38_35:
	vpackuswb	%xmm1, %xmm1, %xmm0
	vmovq	%xmm0, (%r8,%rsi)
	addq	$8, %rsi
.LBB38_43:
	orq	$-8, %rdx
	addq	%rsi, %rdx
.LBB38_45:
	popq	%rbx
	popq	%r12
	popq	%r14
	popq	%r15
	popq	%rbp
	vzeroupper
	retq
.LBB38_39:
	vpsllw	$2, %xmm1, %xmm0
	vpand	.LCPI38_7(%rip), %xmm0, %xmm0
	vpsrlw	$12, %xmm1, %xmm2
	vpor	%xmm0, %xmm2, %xmm0
	vpor	.LCPI38_11(%rip), %xmm0, %xmm0
	vpand	.LCPI38_6(%rip), %xmm1, %xmm1
	vpor	.LCPI38_12(%rip), %xmm1, %xmm1
	vpshufb	.LCPI38_13(%rip), %xmm0, %xmm2
	vpshufb	.LCPI38_14(%rip), %xmm1, %xmm3
	vpor	%xmm3, %xmm2, %xmm2
	vmovdqu	%xmm2, (%r8,%rsi)
	vpunpckhbw	%xmm1, %xmm0, %xmm0
	vpshufb	.LCPI38_15(%rip), %xmm0, %xmm0
	vmovq	%xmm0, 16(%r8,%rsi)
	jmp	.LBB38_42
.Lfunc_end38:

	.section	.rdata$000,"dr"
	.p2align	4, 0x0
.LCPI39_0:
	.short	128
	.short	128
	.short	128
	.short	128
	.short	128
	.short	128
	.short	128
	.short	128
.LCPI39_3:
	.zero	16,191
.LCPI39_4:
	.zero	16,240
	.section	.rdata$003,"dr"
	.p2align	5, 0x0
.LCPI39_1:
	.zero	32,191
.LCPI39_2:
	.zero	32,240
	.section	.rdata$001,"dr"
	.p2align	2, 0x0
.LCPI39_5:
	.zero	4,191
.LCPI39_6:
	.zero	4,240
	.section	.text$047,"xr"
	.p2align	4
L_39:
	pushq	%rbp
	pushq	%r15
	pushq	%r14
	pushq	%r13
	pushq	%r12
	pushq	%rbx
	subq	$392, %rsp
	movq	%r9, %rbp
	movq	%rdx, %rbx
	movq	448(%rsp), %r9
	subq	%rbp, %rdx
	cmpq	$2, %rdx
	jae	.LBB39_3
.LBB39_1:
	movb	$2, %al
	xorl	%ecx, %ecx
.LBB39_2:
	movq	%rbp, (%rdi)
	movq	%r9, 8(%rdi)
	movb	%al, 16(%rdi)
	movb	%cl, 17(%rdi)
	jmp	.LBB39_101
.LBB39_3:
	movq	%r8, %r14
	movq	%rcx, %r13
	movq	%rsi, %r12
	movzbl	1(%rsi,%rbp), %eax
	movl	%eax, %ecx
	andl	$-8, %ecx
	cmpl	$216, %ecx
	jne	.LBB39_7
	movzwl	%ax, %esi
	notl	%esi
	movb	$2, %cl
	movb	$1, %al
	testb	$-36, %sil
	je	.LBB39_2
	cmpq	$4, %rdx
	jb	.LBB39_1
	movzbl	3(%r12,%rbp), %edx
	andb	$-4, %dl
	movb	$2, %cl
	cmpb	$-36, %dl
	jne	.LBB39_2
.LBB39_7:
	movq	%rdi, 32(%rsp)
	cmpq	%rbp, %rbx
	movq	%rbx, 40(%rsp)
	movq	%r13, 8(%rsp)
	movq	%r14, 56(%rsp)
	movq	%r12, 24(%rsp)
	ja	.LBB39_11
.LBB39_8:
	movq	32(%rsp), %rax
	movq	%rbp, (%rax)
	movq	%r9, 8(%rax)
	movw	$0, 16(%rax)
	jmp	.LBB39_101
	.p2align	4
.LBB39_9:
	movb	%al, (%r13,%r9)
	incq	%r9
.LBB39_10:
	addq	%r15, %rbp
	cmpq	%rbx, %rbp
	jae	.LBB39_8
.LBB39_11:
	addq	%rbp, %r12
	movq	%rbx, %r15
	subq	%rbp, %r15
	cmpq	$66, %r15
	jb	.LBB39_20
	leaq	(%r9,%r13), %rbx
	movq	%r9, 16(%rsp)
	subq	%r9, %r14
	vpxor	%xmm0, %xmm0, %xmm0
	vmovdqu	%ymm0, 112(%rsp)
	movq	$0, 144(%rsp)
	movq	%r15, %rax
	shrq	%rax
	leaq	(%rax,%rax,2), %r8
	addq	$128, %r8
	cmpq	%r14, %r8
	cmovaeq	%r14, %r8
	leaq	112(%rsp), %rdi
	movq	%r12, %rsi
	movq	%r15, %rdx
	movq	%rbx, %rcx
	vzeroupper
	callq	L_40
	movq	112(%rsp), %rcx
	movq	120(%rsp), %rsi
	leaq	-2(%rcx), %rdx
	leaq	-2(%rsi), %rax
	testb	$1, 144(%rsp)
	cmoveq	%rsi, %rax
	cmoveq	%rcx, %rdx
	movq	%r15, %rcx
	subq	%rdx, %rcx
	shrq	%rcx
	subq	%rax, %r14
	cmpq	%rcx, %r14
	cmovaeq	%rcx, %r14
	movq	%rax, %rcx
	movq	%rdx, %r13
	cmpq	$8, %r14
	jb	.LBB39_16
	leaq	(%r14,%r14), %rsi
	movq	%rdx, %r13
	movq	%rax, %rcx
	.p2align	4
.LBB39_14:
	vmovdqu	(%r12,%r13), %xmm0
	vpmaxuw	.LCPI39_0(%rip), %xmm0, %xmm1
	vpcmpeqw	%xmm1, %xmm0, %xmm1
	vpmovmskb	%xmm1, %edi
	testl	%edi, %edi
	jne	.LBB39_33
	vpackuswb	%xmm0, %xmm0, %xmm0
	vmovq	%xmm0, (%rbx,%rcx)
	addq	$16, %r13
	addq	$8, %rcx
	addq	$-16, %rsi
	cmpq	$15, %rsi
	ja	.LBB39_14
.LBB39_16:
	leaq	(%rdx,%r14,2), %rdx
	cmpq	$16, %rdx
	jb	.LBB39_33
	cmpq	%r13, %rdx
	movq	16(%rsp), %r9
	jbe	.LBB39_34
	vmovdqu	-16(%r12,%rdx), %xmm0
	vpmaxuw	.LCPI39_0(%rip), %xmm0, %xmm1
	vpcmpeqw	%xmm1, %xmm0, %xmm1
	vpmovmskb	%xmm1, %esi
	testl	%esi, %esi
	jne	.LBB39_34
	addq	%rax, %r14
	vpackuswb	%xmm0, %xmm0, %xmm0
	vmovq	%xmm0, -8(%rbx,%r14)
	movq	%rdx, %r13
	movq	%r14, %rcx
	jmp	.LBB39_34
	.p2align	4
.LBB39_20:
	xorl	%r13d, %r13d
	movq	%r15, %r8
	subq	%r13, %r8
	je	.LBB39_35
.LBB39_21:
	addq	%r13, %r12
	cmpq	$7, %r8
	ja	.LBB39_25
.LBB39_22:
	movq	%r12, %rdi
	movq	%r8, %rsi
	movq	8(%rsp), %rdx
	movq	%r14, %rcx
	movq	%r9, %r8
	vzeroupper
	callq	L_41
.LBB39_23:
	movq	%rax, %r15
	movq	%rdx, %rbx
.LBB39_24:
	movq	24(%rsp), %r12
	addq	%r13, %r15
	movq	%rbx, %r9
	movq	40(%rsp), %rbx
	jmp	.LBB39_36
	.p2align	4
.LBB39_25:
	cmpq	$128, %r8
	movl	$128, %esi
	cmovbq	%r8, %rsi
	movq	%r14, %rbx
	subq	%r9, %rbx
	xorl	%edx, %edx
	movq	%rbx, %rax
	subq	$128, %rax
	cmovaeq	%rax, %rdx
	movabsq	$-6148914691236517205, %rax
	mulxq	%rax, %rax, %rax
	andq	$-2, %rax
	cmpq	%rax, %rsi
	jbe	.LBB39_31
	cmpq	$23, %rbx
	jbe	.LBB39_22
	vpxor	%xmm0, %xmm0, %xmm0
	vmovdqu	%ymm0, 356(%rsp)
	vmovdqu	%ymm0, 336(%rsp)
	vmovdqu	%ymm0, 304(%rsp)
	vmovdqu	%ymm0, 272(%rsp)
	vmovdqu	%ymm0, 240(%rsp)
	vmovdqu	%ymm0, 208(%rsp)
	vmovdqu	%ymm0, 176(%rsp)
	vmovdqu	%ymm0, 144(%rsp)
	vmovdqu	%ymm0, 112(%rsp)
	cmpq	$65, %r8
	ja	.LBB39_52
	leaq	112(%rsp), %rdx
	movq	%r12, %rdi
	movq	%r8, %rsi
	movq	8(%rsp), %rcx
	movq	%r14, %r8
.LBB39_29:
	vzeroupper
	callq	L_42
	jmp	.LBB39_23
.LBB39_33:
	movq	16(%rsp), %r9
.LBB39_34:
	addq	%rcx, %r9
	movq	56(%rsp), %r14
	movq	40(%rsp), %rbx
	movq	%r15, %r8
	subq	%r13, %r8
	jne	.LBB39_21
.LBB39_35:
	movq	24(%rsp), %r12
.LBB39_36:
	addq	%rbp, %r15
	movq	%rbx, %rdx
	subq	%r15, %rdx
	movq	8(%rsp), %r13
	je	.LBB39_97
	cmpq	$2, %rdx
	jb	.LBB39_96
	movzbl	1(%r12,%r15), %eax
	movzwl	%ax, %ecx
	andl	$-8, %eax
	cmpl	$216, %eax
	jne	.LBB39_42
	movl	%ecx, %esi
	notl	%esi
	movb	$1, %al
	testb	$-36, %sil
	je	.LBB39_103
	cmpq	$4, %rdx
	jb	.LBB39_96
	movzbl	3(%r12,%r15), %edx
	andb	$-4, %dl
	cmpb	$-36, %dl
	jne	.LBB39_103
.LBB39_42:
	movzbl	(%r12,%r15), %edx
	movl	%ecx, %eax
	shll	$8, %eax
	orl	%edx, %eax
	andl	$-4, %ecx
	cmpl	$216, %ecx
	jne	.LBB39_44
	movzwl	2(%r12,%r15), %esi
	movl	%eax, %edi
	movq	%r9, %rbp
	callq	L_5
	movq	%rbp, %r9
	movl	$4, %ebp
	jmp	.LBB39_45
	.p2align	4
.LBB39_44:
	movl	$2, %ebp
.LBB39_45:
	movq	%r14, %rcx
	subq	%r9, %rcx
	cmpl	$65536, %eax
	movl	$4, %edx
	sbbq	$0, %rdx
	cmpl	$2048, %eax
	movl	$2, %esi
	cmovaeq	%rdx, %rsi
	cmpl	$128, %eax
	movl	$1, %edx
	cmovaeq	%rsi, %rdx
	cmpq	%rdx, %rcx
	jb	.LBB39_98
	cmpl	$127, %eax
	jbe	.LBB39_9
	movl	%eax, %ecx
	andb	$63, %cl
	orb	$-128, %cl
	cmpl	$2047, %eax
	ja	.LBB39_49
	shrl	$6, %eax
	movzbl	%cl, %ecx
	shll	$8, %ecx
	orl	%eax, %ecx
	orl	$192, %ecx
	movw	%cx, (%r13,%r9)
	addq	$2, %r9
	jmp	.LBB39_10
.LBB39_49:
	movl	%eax, %edx
	cmpl	$65535, %eax
	ja	.LBB39_51
	shrl	$6, %edx
	andb	$63, %dl
	orb	$-128, %dl
	shrl	$12, %eax
	orb	$-32, %al
	movb	%al, (%r13,%r9)
	movb	%dl, 1(%r13,%r9)
	movb	%cl, 2(%r13,%r9)
	addq	$3, %r9
	jmp	.LBB39_10
.LBB39_31:
	movq	%r9, %rbx
	movq	%r12, %rdi
	callq	L_11
	movq	%rax, %r15
	testq	%rax, %rax
	je	.LBB39_24
	movq	8(%rsp), %rax
	leaq	(%rax,%rbx), %rdx
	movq	%r12, %rdi
	movq	%r15, %rsi
	callq	L_43
	addq	%rax, %rbx
	jmp	.LBB39_24
.LBB39_51:
	shrl	$18, %edx
	addl	$240, %edx
	movzbl	%cl, %ecx
	shll	$24, %ecx
	movl	%eax, %esi
	shll	$10, %esi
	andl	$4128768, %esi
	orl	%ecx, %esi
	shrl	$4, %eax
	andl	$16128, %eax
	orl	%esi, %eax
	movzbl	%dl, %ecx
	addl	%ecx, %eax
	addl	$8421376, %eax
	movl	%eax, (%r13,%r9)
	addq	$4, %r9
	jmp	.LBB39_10
.LBB39_52:
	movzbl	1(%r12), %ecx
	movzwl	%cx, %eax
	andl	$-8, %ecx
	cmpl	$216, %ecx
	jne	.LBB39_55
	movl	%eax, %ecx
	notl	%ecx
	testb	$-36, %cl
	je	.LBB39_22
	movzbl	3(%r12), %ecx
	andb	$-4, %cl
	cmpb	$-36, %cl
	jne	.LBB39_22
.LBB39_55:
	andl	$-4, %eax
	xorl	%ecx, %ecx
	cmpl	$216, %eax
	sete	%cl
	movzbl	3(%r12,%rcx,2), %eax
	movl	%eax, %edx
	andl	$-8, %edx
	cmpl	$216, %edx
	jne	.LBB39_58
	movzwl	%ax, %eax
	notl	%eax
	testb	$-36, %al
	je	.LBB39_22
	leaq	2(,%rcx,2), %rax
	movzbl	3(%r12,%rax), %eax
	andb	$-4, %al
	cmpb	$-36, %al
	jne	.LBB39_22
.LBB39_58:
	movq	%r9, 16(%rsp)
	xorl	%r15d, %r15d
	cmpq	$65, %rbx
	setae	%r15b
	shll	$6, %r15d
	addq	$66, %r15
	cmpq	%r8, %r15
	movq	%r8, 48(%rsp)
	cmovaeq	%r8, %r15
	vmovdqu	%ymm0, 64(%rsp)
	movq	$0, 96(%rsp)
	movl	%r15d, %eax
	shrl	%eax
	leaq	(%rax,%rax,2), %rax
	cmpq	$148, %rax
	movl	$148, %r8d
	cmovbq	%rax, %r8
	subq	$-128, %r8
	leaq	64(%rsp), %rdi
	leaq	112(%rsp), %rcx
	movq	%r12, %rsi
	movq	%r15, %rdx
	vzeroupper
	callq	L_40
	movq	64(%rsp), %rcx
	movq	72(%rsp), %rdx
	leaq	-2(%rcx), %rsi
	leaq	-2(%rdx), %rax
	testb	$1, 96(%rsp)
	cmoveq	%rdx, %rax
	cmoveq	%rcx, %rsi
	subq	%rsi, %r15
	shrq	%r15
	movl	$276, %ecx
	subq	%rax, %rcx
	cmpq	%r15, %rcx
	cmovaeq	%r15, %rcx
	movq	%rax, %rdx
	movq	%rsi, %r15
	cmpq	$8, %rcx
	jb	.LBB39_62
	leaq	(%rcx,%rcx), %rdi
	movq	%rsi, %r15
	movq	%rax, %rdx
.LBB39_60:
	vmovdqu	(%r12,%r15), %xmm0
	vpmaxuw	.LCPI39_0(%rip), %xmm0, %xmm1
	vpcmpeqw	%xmm1, %xmm0, %xmm1
	vpmovmskb	%xmm1, %r8d
	testl	%r8d, %r8d
	jne	.LBB39_67
	vpackuswb	%xmm0, %xmm0, %xmm0
	vmovq	%xmm0, 112(%rsp,%rdx)
	addq	$16, %r15
	addq	$8, %rdx
	addq	$-16, %rdi
	cmpq	$15, %rdi
	ja	.LBB39_60
.LBB39_62:
	leaq	(%rsi,%rcx,2), %rsi
	cmpq	$16, %rsi
	jb	.LBB39_67
	cmpq	%r15, %rsi
	movq	16(%rsp), %r10
	jbe	.LBB39_68
	vmovdqu	-16(%r12,%rsi), %xmm0
	vpmaxuw	.LCPI39_0(%rip), %xmm0, %xmm1
	vpcmpeqw	%xmm1, %xmm0, %xmm1
	vpmovmskb	%xmm1, %edi
	testl	%edi, %edi
	jne	.LBB39_68
	addq	%rax, %rcx
	vpackuswb	%xmm0, %xmm0, %xmm0
	vmovq	%xmm0, 104(%rsp,%rcx)
	movq	%rsi, %r15
	movq	%rcx, %rdx
	jmp	.LBB39_68
.LBB39_67:
	movq	16(%rsp), %r10
.LBB39_68:
	cmpq	%rbx, %rdx
	jbe	.LBB39_90
	movq	%rbx, %rdx
.LBB39_70:
	cmpb	$-65, 112(%rsp,%rdx)
	jg	.LBB39_73
	decq	%rdx
	jne	.LBB39_70
	movq	8(%rsp), %rax
	leaq	(%rax,%r10), %rdi
	xorl	%r15d, %r15d
	xorl	%edx, %edx
	movq	%r10, %rbx
	jmp	.LBB39_93
.LBB39_73:
	cmpq	$15, %rdx
	ja	.LBB39_82
	xorl	%r15d, %r15d
	movq	%rdx, %rax
	leaq	112(%rsp), %rcx
	jmp	.LBB39_77
.LBB39_75:
	andl	$31, %esi
	shll	$6, %esi
	orl	%edi, %esi
	movl	$2, %r9d
.LBB39_76:
	addq	%r9, %rcx
	xorl	%edi, %edi
	cmpl	$65536, %esi
	setae	%dil
	leaq	(%r15,%rdi,2), %r15
	addq	$2, %r15
	subq	%r9, %rax
	je	.LBB39_90
.LBB39_77:
	movzbl	(%rcx), %esi
	movl	$1, %r9d
	testb	%sil, %sil
	jns	.LBB39_76
	movzbl	1(%rcx), %edi
	andl	$63, %edi
	cmpb	$-33, %sil
	jbe	.LBB39_75
	movzbl	2(%rcx), %r8d
	andl	$63, %r8d
	cmpb	$-17, %sil
	ja	.LBB39_81
	shll	$12, %esi
	movzwl	%si, %esi
	shll	$6, %edi
	orl	%esi, %edi
	orl	%r8d, %edi
	movl	$3, %r9d
	movl	%edi, %esi
	jmp	.LBB39_76
.LBB39_81:
	movzbl	3(%rcx), %r9d
	andl	$63, %r9d
	andl	$7, %esi
	shll	$18, %esi
	shll	$12, %edi
	orl	%esi, %edi
	shll	$6, %r8d
	orl	%edi, %r8d
	orl	%r9d, %r8d
	movl	$4, %r9d
	movl	%r8d, %esi
	jmp	.LBB39_76
.LBB39_82:
	cmpq	$64, %rdx
	jb	.LBB39_85
	xorl	%ecx, %ecx
	movq	%rdx, %rsi
	xorl	%eax, %eax
.LBB39_84:
	vmovdqu	112(%rsp,%rcx), %ymm0
	vmovdqu	144(%rsp,%rcx), %ymm1
	vpbroadcastd	.LCPI39_5(%rip), %ymm2
	vpbroadcastd	.LCPI39_6(%rip), %ymm3
	vpcmpgtb	%ymm2, %ymm0, %ymm4
	vpmovmskb	%ymm4, %edi
	vpcmpgtb	%ymm2, %ymm1, %ymm2
	vpmovmskb	%ymm2, %r8d
	shlq	$32, %r8
	orq	%rdi, %r8
	xorl	%edi, %edi
	popcntq	%r8, %rdi
	addq	%rax, %rdi
	vpmaxub	%ymm3, %ymm0, %ymm2
	vpcmpeqb	%ymm2, %ymm0, %ymm0
	vpmovmskb	%ymm0, %eax
	vpmaxub	%ymm3, %ymm1, %ymm0
	vpcmpeqb	%ymm0, %ymm1, %ymm0
	vpmovmskb	%ymm0, %r8d
	shlq	$32, %r8
	orq	%rax, %r8
	xorl	%eax, %eax
	popcntq	%r8, %rax
	addq	%rdi, %rax
	addq	$64, %rcx
	addq	$-64, %rsi
	cmpq	$63, %rsi
	ja	.LBB39_84
	jmp	.LBB39_86
.LBB39_85:
	xorl	%eax, %eax
	xorl	%ecx, %ecx
.LBB39_86:
	movq	%rdx, %rsi
	subq	%rcx, %rsi
	cmpq	$16, %rsi
	jb	.LBB39_89
	movq	%rdx, %rsi
	subq	%rcx, %rsi
	addq	%rsp, %rcx
	addq	$112, %rcx
.LBB39_88:
	vmovdqu	(%rcx), %xmm0
	vpcmpgtb	.LCPI39_3(%rip), %xmm0, %xmm1
	vpmovmskb	%xmm1, %edi
	popcntl	%edi, %edi
	vpmaxub	.LCPI39_4(%rip), %xmm0, %xmm1
	vpcmpeqb	%xmm1, %xmm0, %xmm0
	vpmovmskb	%xmm0, %r8d
	popcntl	%r8d, %r8d
	addl	%edi, %r8d
	addq	%r8, %rax
	addq	$-16, %rsi
	addq	$16, %rcx
	cmpq	$15, %rsi
	ja	.LBB39_88
.LBB39_89:
	vmovdqu	96(%rsp,%rdx), %xmm0
	vpcmpgtb	.LCPI39_3(%rip), %xmm0, %xmm1
	vpmovmskb	%xmm1, %ecx
	movb	$16, %dil
	subb	%sil, %dil
	shrxq	%rdi, %rcx, %rcx
	vpmaxub	.LCPI39_4(%rip), %xmm0, %xmm1
	popcntl	%ecx, %ecx
	vpcmpeqb	%xmm1, %xmm0, %xmm0
	vpmovmskb	%xmm0, %esi
	shrxq	%rdi, %rsi, %rsi
	xorl	%r15d, %r15d
	popcntl	%esi, %r15d
	addq	%rcx, %r15
	addq	%rax, %r15
	addq	%r15, %r15
.LBB39_90:
	leaq	(%rdx,%r10), %rbx
	addq	8(%rsp), %r10
	movq	%r10, %rax
	leaq	112(%rsp), %rcx
	subq	%rcx, %rax
	cmpq	%rdx, %rax
	jae	.LBB39_92
	leaq	112(%rsp), %rsi
	movq	%r10, %rdi
	jmp	.LBB39_94
.LBB39_92:
	movq	%r10, %rdi
.LBB39_93:
	leaq	112(%rsp), %rsi
.LBB39_94:
	vzeroupper
	callq	sysv_memcpy
	testq	%r15, %r15
	movq	48(%rsp), %rsi
	jne	.LBB39_24
	leaq	112(%rsp), %rdx
	movq	%r12, %rdi
	movq	8(%rsp), %rcx
	movq	%r14, %r8
	movq	%rbx, %r9
	jmp	.LBB39_29
.LBB39_96:
	movb	$2, %al
	jmp	.LBB39_99
.LBB39_97:
	movq	%rbx, %rbp
	jmp	.LBB39_8
.LBB39_103:
	movb	$2, %cl
	jmp	.LBB39_100
.LBB39_98:
	movb	$3, %al
.LBB39_99:
	xorl	%ecx, %ecx
.LBB39_100:
	movq	32(%rsp), %rdx
	movq	%r15, (%rdx)
	movq	%r9, 8(%rdx)
	movb	%al, 16(%rdx)
	movb	%cl, 17(%rdx)
.LBB39_101:
	addq	$392, %rsp
	popq	%rbx
	popq	%r12
	popq	%r13
	popq	%r14
	popq	%r15
	popq	%rbp
	retq
.Lfunc_end39:

	.section	.rdata$003,"dr"
	.p2align	5, 0x0
.LCPI40_0:
	.short	65408
	.short	65408
	.short	65408
	.short	65408
	.short	65408
	.short	65408
	.short	65408
	.short	65408
	.short	65408
	.short	65408
	.short	65408
	.short	65408
	.short	65408
	.short	65408
	.short	65408
	.short	65408
.LCPI40_2:
	.short	10240
	.short	10240
	.short	10240
	.short	10240
	.short	10240
	.short	10240
	.short	10240
	.short	10240
	.short	10240
	.short	10240
	.short	10240
	.short	10240
	.short	10240
	.short	10240
	.short	10240
	.short	10240
.LCPI40_4:
	.short	63488
	.short	63488
	.short	63488
	.short	63488
	.short	63488
	.short	63488
	.short	63488
	.short	63488
	.short	63488
	.short	63488
	.short	63488
	.short	63488
	.short	63488
	.short	63488
	.short	63488
	.short	63488
.LCPI40_5:
	.short	224
	.short	224
	.short	224
	.short	224
	.short	224
	.short	224
	.short	224
	.short	224
	.short	224
	.short	224
	.short	224
	.short	224
	.short	224
	.short	224
	.short	224
	.short	224
.LCPI40_6:
	.short	34815
	.short	34815
	.short	34815
	.short	34815
	.short	34815
	.short	34815
	.short	34815
	.short	34815
	.short	34815
	.short	34815
	.short	34815
	.short	34815
	.short	34815
	.short	34815
	.short	34815
	.short	34815
.LCPI40_7:
	.short	32768
	.short	32768
	.short	32768
	.short	32768
	.short	32768
	.short	32768
	.short	32768
	.short	32768
	.short	32768
	.short	32768
	.short	32768
	.short	32768
	.short	32768
	.short	32768
	.short	32768
	.short	32768
.LCPI40_8:
	.short	63
	.short	63
	.short	63
	.short	63
	.short	63
	.short	63
	.short	63
	.short	63
	.short	63
	.short	63
	.short	63
	.short	63
	.short	63
	.short	63
	.short	63
	.short	63
.LCPI40_9:
	.short	16128
	.short	16128
	.short	16128
	.short	16128
	.short	16128
	.short	16128
	.short	16128
	.short	16128
	.short	16128
	.short	16128
	.short	16128
	.short	16128
	.short	16128
	.short	16128
	.short	16128
	.short	16128
.LCPI40_10:
	.zero	32,128
.LCPI40_11:
	.short	255
	.short	255
	.short	255
	.short	255
	.short	255
	.short	255
	.short	255
	.short	255
	.short	255
	.short	255
	.short	255
	.short	255
	.short	255
	.short	255
	.short	255
	.short	255
.LCPI40_12:
	.short	32992
	.short	32992
	.short	32992
	.short	32992
	.short	32992
	.short	32992
	.short	32992
	.short	32992
	.short	32992
	.short	32992
	.short	32992
	.short	32992
	.short	32992
	.short	32992
	.short	32992
	.short	32992
.LCPI40_13:
	.short	128
	.short	128
	.short	128
	.short	128
	.short	128
	.short	128
	.short	128
	.short	128
	.short	128
	.short	128
	.short	128
	.short	128
	.short	128
	.short	128
	.short	128
	.short	128
.LCPI40_17:
	.short	32960
	.short	32960
	.short	32960
	.short	32960
	.short	32960
	.short	32960
	.short	32960
	.short	32960
	.short	32960
	.short	32960
	.short	32960
	.short	32960
	.short	32960
	.short	32960
	.short	32960
	.short	32960
.LCPI40_18:
	.short	127
	.short	127
	.short	127
	.short	127
	.short	127
	.short	127
	.short	127
	.short	127
	.short	127
	.short	127
	.short	127
	.short	127
	.short	127
	.short	127
	.short	127
	.short	127
.LCPI40_19:
	.zero	32,252
.LCPI40_20:
	.zero	32,216
.LCPI40_21:
	.zero	32,220
.LCPI40_22:
	.short	12288
	.short	12288
	.short	12288
	.short	12288
	.short	12288
	.short	12288
	.short	12288
	.short	12288
	.short	12288
	.short	12288
	.short	12288
	.short	12288
	.short	12288
	.short	12288
	.short	12288
	.short	12288
.LCPI40_23:
	.short	9216
	.short	9216
	.short	9216
	.short	9216
	.short	9216
	.short	9216
	.short	9216
	.short	9216
	.short	9216
	.short	9216
	.short	9216
	.short	9216
	.short	9216
	.short	9216
	.short	9216
	.short	9216
.LCPI40_24:
	.short	752
	.short	752
	.short	752
	.short	752
	.short	752
	.short	752
	.short	752
	.short	752
	.short	752
	.short	752
	.short	752
	.short	752
	.short	752
	.short	752
	.short	752
	.short	752
.LCPI40_25:
	.short	3072
	.short	3072
	.short	3072
	.short	3072
	.short	3072
	.short	3072
	.short	3072
	.short	3072
	.short	3072
	.short	3072
	.short	3072
	.short	3072
	.short	3072
	.short	3072
	.short	3072
	.short	3072
.LCPI40_26:
	.short	17408
	.short	17408
	.short	17408
	.short	17408
	.short	17408
	.short	17408
	.short	17408
	.short	17408
	.short	17408
	.short	17408
	.short	17408
	.short	17408
	.short	17408
	.short	17408
	.short	17408
	.short	17408
	.section	.rdata$007,"dr"
	.p2align	3, 0x0
.LCPI40_1:
	.quad	-576188069258921984
	.section	.rdata$000,"dr"
	.p2align	4, 0x0
.LCPI40_3:
	.short	2047
	.short	2047
	.short	2047
	.short	2047
	.short	2047
	.short	2047
	.short	2047
	.short	2047
.LCPI40_14:
	.byte	128
	.byte	128
	.byte	0
	.byte	128
	.byte	128
	.byte	2
	.byte	128
	.byte	128
	.byte	4
	.byte	128
	.byte	128
	.byte	6
	.byte	128
	.byte	128
	.byte	8
	.byte	128
.LCPI40_15:
	.byte	0
	.byte	1
	.byte	128
	.byte	2
	.byte	3
	.byte	128
	.byte	4
	.byte	5
	.byte	128
	.byte	6
	.byte	7
	.byte	128
	.byte	8
	.byte	9
	.byte	128
	.byte	10
.LCPI40_16:
	.byte	6
	.byte	5
	.byte	8
	.byte	10
	.byte	9
	.byte	12
	.byte	14
	.byte	13
	.zero	1
	.zero	1
	.zero	1
	.zero	1
	.zero	1
	.zero	1
	.zero	1
	.zero	1
.LCPI40_39:
	.byte	6
	.byte	5
	.byte	8
	.byte	10
	.byte	9
	.byte	12
	.byte	14
	.byte	13
	.byte	0
	.byte	0
	.byte	0
	.byte	0
	.byte	0
	.byte	0
	.byte	0
	.byte	0
	.section	.rdata$001,"dr"
	.p2align	2, 0x0
.LCPI40_27:
	.short	10240
	.short	10240
.LCPI40_28:
	.short	224
	.short	224
.LCPI40_29:
	.short	34815
	.short	34815
.LCPI40_30:
	.short	32768
	.short	32768
.LCPI40_31:
	.short	63
	.short	63
.LCPI40_32:
	.short	16128
	.short	16128
.LCPI40_33:
	.zero	4,128
.LCPI40_34:
	.short	255
	.short	255
.LCPI40_35:
	.short	32960
	.short	32960
.LCPI40_36:
	.short	127
	.short	127
.LCPI40_37:
	.short	32992
	.short	32992
.LCPI40_38:
	.short	128
	.short	128
.LCPI40_40:
	.short	12288
	.short	12288
.LCPI40_41:
	.short	9216
	.short	9216
.LCPI40_42:
	.short	752
	.short	752
.LCPI40_43:
	.short	3072
	.short	3072
.LCPI40_44:
	.short	17408
	.short	17408
	.section	.text$048,"xr"
	.p2align	4
L_40:
	pushq	%rbp
	pushq	%r15
	pushq	%r14
	pushq	%r13
	pushq	%r12
	pushq	%rbx
	subq	$88, %rsp
	movq	%rcx, %r15
	cmpq	$64, %rdx
	setb	%al
	cmpq	$128, %r8
	setb	%cl
	orb	%al, %cl
	je	.LBB40_1
	vpxor	%xmm0, %xmm0, %xmm0
	vmovdqu	%ymm0, (%rdi)
	movq	$0, 32(%rdi)
	jmp	.LBB40_10
.LBB40_1:
	movq	%r8, %r14
	movq	%rdx, %r12
	movq	%rsi, %r13
	movq	%rdi, 8(%rsp)
	addq	$-128, %r14
	addq	$-64, %r12
	vpxor	%xmm0, %xmm0, %xmm0
	xorl	%ebp, %ebp
	xorl	%esi, %esi
	xorl	%ebx, %ebx
	jmp	.LBB40_2
	.p2align	4
.LBB40_50:
	vinserti128	$1, %xmm0, %ymm0, %ymm0
	movq	%r15, %rdi
	movl	$5, %edx
	vmovdqu	%ymm14, 16(%rsp)
	vmovdqu	%ymm1, 48(%rsp)
	callq	L_34
	movq	%r15, %rdi
	movq	%rax, %rsi
	vmovups	48(%rsp), %ymm0
	vmovdqu	16(%rsp), %ymm1
	movl	$5, %edx
	callq	L_34
	movq	%rax, %rsi
	addq	$64, %rbx
	vmovdqu	16(%rsp), %ymm0
	vextracti128	$1, %ymm0, %xmm0
.LBB40_51:
	cmpq	%r12, %rbx
	ja	.LBB40_52
.LBB40_2:
	testb	$1, %bpl
	jne	.LBB40_45
	cmpq	%rsi, %r14
	jb	.LBB40_45
	vmovdqu	(%r13,%rbx), %ymm5
	vmovdqu	32(%r13,%rbx), %ymm11
	vpor	%ymm5, %ymm11, %ymm1
	vptest	.LCPI40_0(%rip), %ymm1
	jne	.LBB40_14
	addq	$64, %rbx
	.p2align	4
.LBB40_6:
	vmovdqa	%ymm11, %ymm0
	vpackuswb	%ymm11, %ymm5, %ymm1
	vpermq	$216, %ymm1, %ymm1
	vmovdqu	%ymm1, (%r15,%rsi)
	cmpq	%r12, %rbx
	ja	.LBB40_8
	leaq	32(%rsi), %rax
	cmpq	%rax, %r14
	jb	.LBB40_8
	vmovdqu	(%r13,%rbx), %ymm5
	vmovdqu	32(%r13,%rbx), %ymm11
	vpor	%ymm5, %ymm11, %ymm1
	addq	$64, %rbx
	vptest	.LCPI40_0(%rip), %ymm1
	movq	%rax, %rsi
	je	.LBB40_6
	vextracti128	$1, %ymm0, %xmm0
	addq	$-64, %rbx
	movq	%rax, %rsi
	.p2align	4
.LBB40_14:
	vpor	%ymm5, %ymm11, %ymm1
	vpbroadcastq	.LCPI40_1(%rip), %ymm2
	vptest	%ymm2, %ymm1
	je	.LBB40_22
	vpbroadcastd	.LCPI40_27(%rip), %ymm12
	vpaddw	%ymm12, %ymm11, %ymm1
	vpaddw	%ymm5, %ymm12, %ymm2
	vpminuw	%ymm2, %ymm5, %ymm3
	vpminuw	%ymm1, %ymm11, %ymm4
	vpminuw	%ymm4, %ymm3, %ymm3
	vextracti128	$1, %ymm3, %xmm4
	vpminuw	%xmm4, %xmm3, %xmm3
	vpminuw	.LCPI40_3(%rip), %xmm3, %xmm4
	vpcmpeqw	%xmm4, %xmm3, %xmm3
	vpmovmskb	%xmm3, %eax
	testl	%eax, %eax
	je	.LBB40_23
	vpminuw	%ymm1, %ymm2, %ymm1
	vextracti128	$1, %ymm1, %xmm2
	vpminuw	%xmm2, %xmm1, %xmm1
	vpminuw	.LCPI40_3(%rip), %xmm1, %xmm2
	vpcmpeqw	%xmm2, %xmm1, %xmm1
	vpmovmskb	%xmm1, %eax
	testl	%eax, %eax
	jne	.LBB40_45
	vinserti128	$1, %xmm0, %ymm0, %ymm0
	movq	%r15, %rdi
	vmovdqa	%ymm5, %ymm1
	movl	$4, %edx
	vmovdqu	%ymm11, 16(%rsp)
	vmovdqu	%ymm5, 48(%rsp)
	callq	L_34
	movq	%r15, %rdi
	movq	%rax, %rsi
	vmovups	48(%rsp), %ymm0
	vmovdqu	16(%rsp), %ymm1
	movl	$4, %edx
	callq	L_34
	vmovdqu	16(%rsp), %ymm0
	vextracti128	$1, %ymm0, %xmm0
	leaq	64(%rbx), %rcx
	cmpq	%r12, %rcx
	ja	.LBB40_35
	cmpq	%rax, %r14
	vpbroadcastd	.LCPI40_27(%rip), %ymm12
	jb	.LBB40_35
	vmovdqu	(%r13,%rcx), %ymm9
	vmovdqu	32(%r13,%rcx), %ymm1
	vpor	%ymm1, %ymm9, %ymm2
	vptest	.LCPI40_4(%rip), %ymm2
	je	.LBB40_35
	vpaddw	%ymm12, %ymm9, %ymm2
	vpaddw	%ymm1, %ymm12, %ymm3
	vpminuw	%ymm3, %ymm2, %ymm2
	vextracti128	$1, %ymm2, %xmm3
	vpminuw	%xmm3, %xmm2, %xmm2
	vpminuw	.LCPI40_3(%rip), %xmm2, %xmm3
	vpcmpeqw	%xmm3, %xmm2, %xmm2
	vpmovmskb	%xmm2, %edx
	testl	%edx, %edx
	jne	.LBB40_35
	subq	$-128, %rbx
	.p2align	4
.LBB40_32:
	vpsllw	$8, %ymm9, %ymm7
	vpsrlw	$12, %ymm9, %ymm0
	vpor	%ymm7, %ymm0, %ymm0
	vpbroadcastd	.LCPI40_28(%rip), %ymm2
	vpor	%ymm2, %ymm0, %ymm0
	vpbroadcastd	.LCPI40_29(%rip), %ymm3
	vpsubusw	%ymm9, %ymm3, %ymm5
	vpbroadcastd	.LCPI40_30(%rip), %ymm4
	vpand	%ymm4, %ymm5, %ymm11
	vpsrlw	$9, %ymm11, %ymm8
	vpsrlw	$6, %ymm9, %ymm6
	vpbroadcastd	.LCPI40_31(%rip), %ymm5
	vpand	%ymm5, %ymm6, %ymm10
	vpbroadcastd	.LCPI40_32(%rip), %ymm6
	vpand	%ymm6, %ymm7, %ymm7
	vpor	%ymm7, %ymm10, %ymm10
	vpbroadcastd	.LCPI40_33(%rip), %ymm7
	vpor	%ymm7, %ymm10, %ymm10
	vpor	%ymm8, %ymm10, %ymm10
	vpbroadcastd	.LCPI40_34(%rip), %ymm8
	vpsubusw	%ymm9, %ymm8, %ymm9
	vpor	%ymm9, %ymm11, %ymm9
	vpmovmskb	%xmm9, %edx
	vpunpcklwd	%xmm10, %xmm0, %xmm11
	movzbl	%dl, %esi
	xorl	%edi, %edi
	popcntl	%esi, %edi
	shll	$4, %esi
	leaq	.Lstatic.7(%rip), %rcx
	vpshufb	(%rsi,%rcx), %xmm11, %xmm11
	vmovdqu	%xmm11, (%r15,%rax)
	subq	%rdi, %rax
	vpunpckhwd	%xmm10, %xmm0, %xmm11
	shrl	$8, %edx
	xorl	%esi, %esi
	popcntl	%edx, %esi
	shll	$4, %edx
	vpshufb	(%rdx,%rcx), %xmm11, %xmm11
	vmovdqu	%xmm11, 12(%r15,%rax)
	addq	$12, %rax
	subq	%rsi, %rax
	vextracti128	$1, %ymm0, %xmm0
	vextracti128	$1, %ymm10, %xmm10
	vextracti128	$1, %ymm9, %xmm9
	vpmovmskb	%xmm9, %edx
	vpunpcklwd	%xmm10, %xmm0, %xmm9
	movzbl	%dl, %esi
	xorl	%edi, %edi
	popcntl	%esi, %edi
	shll	$4, %esi
	vpshufb	(%rsi,%rcx), %xmm9, %xmm9
	vmovdqu	%xmm9, 12(%r15,%rax)
	addq	$12, %rax
	subq	%rdi, %rax
	vpunpckhwd	%xmm10, %xmm0, %xmm0
	shrl	$8, %edx
	xorl	%esi, %esi
	popcntl	%edx, %esi
	shll	$4, %edx
	vpshufb	(%rdx,%rcx), %xmm0, %xmm0
	vmovdqu	%xmm0, 12(%r15,%rax)
	vmovdqa	%ymm1, %ymm0
	subq	%rsi, %rax
	vpsllw	$8, %ymm1, %ymm9
	vpsrlw	$12, %ymm1, %ymm1
	vpor	%ymm1, %ymm9, %ymm1
	vpor	%ymm2, %ymm1, %ymm1
	vpsubusw	%ymm0, %ymm3, %ymm2
	vpand	%ymm4, %ymm2, %ymm3
	vpsrlw	$9, %ymm3, %ymm2
	vpsrlw	$6, %ymm0, %ymm4
	vpand	%ymm5, %ymm4, %ymm4
	vpand	%ymm6, %ymm9, %ymm5
	vpor	%ymm4, %ymm5, %ymm4
	vpor	%ymm7, %ymm4, %ymm4
	vpor	%ymm2, %ymm4, %ymm2
	vpsubusw	%ymm0, %ymm8, %ymm4
	vpor	%ymm4, %ymm3, %ymm3
	vpmovmskb	%xmm3, %edx
	vpunpcklwd	%xmm2, %xmm1, %xmm4
	movzbl	%dl, %esi
	xorl	%edi, %edi
	popcntl	%esi, %edi
	shll	$4, %esi
	vpshufb	(%rsi,%rcx), %xmm4, %xmm4
	vmovdqu	%xmm4, 24(%r15,%rax)
	addq	$24, %rax
	subq	%rdi, %rax
	vpunpckhwd	%xmm2, %xmm1, %xmm4
	shrl	$8, %edx
	xorl	%esi, %esi
	popcntl	%edx, %esi
	shll	$4, %edx
	vpshufb	(%rdx,%rcx), %xmm4, %xmm4
	vmovdqu	%xmm4, 12(%r15,%rax)
	addq	$12, %rax
	subq	%rsi, %rax
	vextracti128	$1, %ymm1, %xmm1
	vextracti128	$1, %ymm2, %xmm2
	vextracti128	$1, %ymm3, %xmm3
	vpmovmskb	%xmm3, %edx
	vpunpcklwd	%xmm2, %xmm1, %xmm3
	movzbl	%dl, %esi
	xorl	%edi, %edi
	popcntl	%esi, %edi
	shll	$4, %esi
	vpshufb	(%rsi,%rcx), %xmm3, %xmm3
	vmovdqu	%xmm3, 12(%r15,%rax)
	addq	$12, %rax
	subq	%rdi, %rax
	vpunpckhwd	%xmm2, %xmm1, %xmm1
	shrl	$8, %edx
	xorl	%esi, %esi
	popcntl	%edx, %esi
	shll	$4, %edx
	vpshufb	(%rdx,%rcx), %xmm1, %xmm1
	vmovdqu	%xmm1, 12(%r15,%rax)
	movq	%rbx, %rcx
	subq	%rsi, %rax
	addq	$24, %rax
	cmpq	%r12, %rbx
	ja	.LBB40_34
	cmpq	%rax, %r14
	jb	.LBB40_34
	vmovdqu	(%r13,%rcx), %ymm9
	vmovdqu	32(%r13,%rcx), %ymm1
	vpor	%ymm1, %ymm9, %ymm2
	vptest	.LCPI40_4(%rip), %ymm2
	je	.LBB40_34
	vpaddw	%ymm12, %ymm9, %ymm2
	vpaddw	%ymm1, %ymm12, %ymm3
	vpminuw	%ymm3, %ymm2, %ymm2
	vextracti128	$1, %ymm2, %xmm3
	vpminuw	%xmm3, %xmm2, %xmm2
	vpminuw	.LCPI40_3(%rip), %xmm2, %xmm3
	vpcmpeqw	%xmm3, %xmm2, %xmm2
	vpmovmskb	%xmm2, %edx
	leaq	64(%rcx), %rbx
	testl	%edx, %edx
	je	.LBB40_32
	jmp	.LBB40_34
	.p2align	4
.LBB40_22:
	vpsrlw	$6, %ymm5, %ymm2
	vpsllw	$8, %ymm5, %ymm1
	vpbroadcastd	.LCPI40_32(%rip), %ymm0
	vpand	%ymm0, %ymm1, %ymm3
	vpbroadcastd	.LCPI40_35(%rip), %ymm1
	vpaddw	%ymm1, %ymm2, %ymm2
	vpaddw	%ymm3, %ymm2, %ymm3
	vpbroadcastd	.LCPI40_36(%rip), %ymm2
	vpminuw	%ymm2, %ymm5, %ymm4
	vpcmpeqw	%ymm4, %ymm5, %ymm4
	vpblendvb	%ymm4, %ymm5, %ymm3, %ymm3
	vextracti128	$1, %ymm4, %xmm5
	vpacksswb	%xmm5, %xmm4, %xmm4
	vpmovmskb	%xmm4, %eax
	movzbl	%al, %edx
	xorl	%edi, %edi
	popcntl	%edx, %edi
	shll	$4, %edx
	leaq	.Lstatic.6(%rip), %rcx
	vpshufb	(%rdx,%rcx), %xmm3, %xmm4
	vmovdqu	%xmm4, (%r15,%rsi)
	subq	%rdi, %rsi
	shrl	$8, %eax
	vextracti128	$1, %ymm3, %xmm3
	xorl	%edx, %edx
	popcntl	%eax, %edx
	shll	$4, %eax
	vpshufb	(%rax,%rcx), %xmm3, %xmm3
	vmovdqu	%xmm3, 16(%r15,%rsi)
	subq	%rdx, %rsi
	vpsrlw	$6, %ymm11, %ymm3
	vpsllw	$8, %ymm11, %ymm4
	vpand	%ymm0, %ymm4, %ymm0
	vpaddw	%ymm1, %ymm3, %ymm1
	vpaddw	%ymm0, %ymm1, %ymm0
	vpminuw	%ymm2, %ymm11, %ymm1
	vpcmpeqw	%ymm1, %ymm11, %ymm1
	vpblendvb	%ymm1, %ymm11, %ymm0, %ymm0
	vextracti128	$1, %ymm1, %xmm2
	vpacksswb	%xmm2, %xmm1, %xmm1
	vpmovmskb	%xmm1, %edx
	movzbl	%dl, %eax
	xorl	%edi, %edi
	popcntl	%eax, %edi
	shll	$4, %eax
	vpshufb	(%rax,%rcx), %xmm0, %xmm1
	leaq	32(%rsi), %rax
	vmovdqu	%xmm1, 32(%r15,%rsi)
	subq	%rdi, %rax
	shrl	$8, %edx
	vextracti128	$1, %ymm0, %xmm0
	xorl	%esi, %esi
	popcntl	%edx, %esi
	shll	$4, %edx
	vpshufb	(%rdx,%rcx), %xmm0, %xmm0
	vmovdqu	%xmm0, 16(%r15,%rax)
	subq	%rsi, %rax
	addq	$32, %rax
	addq	$64, %rbx
	vextracti128	$1, %ymm11, %xmm0
	movq	%rbx, %rcx
.LBB40_35:
	cmpq	%r12, %rcx
	ja	.LBB40_36
	cmpq	%rax, %r14
	jb	.LBB40_36
	vmovdqu	(%r13,%rcx), %ymm5
	vmovdqu	32(%r13,%rcx), %ymm11
	vpor	%ymm5, %ymm11, %ymm1
	vptest	.LCPI40_0(%rip), %ymm1
	movq	%rax, %rsi
	movq	%rcx, %rbx
	jne	.LBB40_14
	addq	$64, %rcx
	movq	%rcx, %rbx
	.p2align	4
.LBB40_41:
	vmovdqa	%ymm11, %ymm0
	vpackuswb	%ymm11, %ymm5, %ymm1
	vpermq	$216, %ymm1, %ymm1
	vmovdqu	%ymm1, (%r15,%rax)
	cmpq	%r12, %rbx
	ja	.LBB40_43
	leaq	32(%rax), %rsi
	cmpq	%rsi, %r14
	jb	.LBB40_43
	vmovdqu	(%r13,%rbx), %ymm5
	vmovdqu	32(%r13,%rbx), %ymm11
	vpor	%ymm5, %ymm11, %ymm1
	addq	$64, %rbx
	vptest	.LCPI40_0(%rip), %ymm1
	movq	%rsi, %rax
	je	.LBB40_41
	vextracti128	$1, %ymm0, %xmm0
	addq	$-64, %rbx
	jmp	.LBB40_14
	.p2align	4
.LBB40_23:
	vpsrlw	$12, %ymm5, %ymm0
	vpsllw	$2, %ymm5, %ymm2
	vpbroadcastd	.LCPI40_32(%rip), %ymm1
	vpand	%ymm1, %ymm2, %ymm3
	vpbroadcastd	.LCPI40_37(%rip), %ymm2
	vpor	%ymm2, %ymm0, %ymm0
	vpor	%ymm3, %ymm0, %ymm0
	vpbroadcastd	.LCPI40_31(%rip), %ymm3
	vpand	%ymm3, %ymm5, %ymm5
	vpbroadcastd	.LCPI40_38(%rip), %ymm4
	vpor	%ymm4, %ymm5, %ymm8
	vmovdqa	.LCPI40_14(%rip), %xmm5
	vpshufb	%xmm5, %xmm8, %xmm7
	vmovdqa	.LCPI40_15(%rip), %xmm6
	vpshufb	%xmm6, %xmm0, %xmm9
	vpor	%xmm7, %xmm9, %xmm7
	vmovdqu	%xmm7, (%r15,%rsi)
	vpunpckhbw	%xmm8, %xmm0, %xmm9
	vmovq	.LCPI40_39(%rip), %xmm7
	vpshufb	%xmm7, %xmm9, %xmm9
	vmovq	%xmm9, 16(%r15,%rsi)
	vextracti128	$1, %ymm0, %xmm0
	vextracti128	$1, %ymm8, %xmm8
	vpshufb	%xmm5, %xmm8, %xmm9
	vpshufb	%xmm6, %xmm0, %xmm10
	vpor	%xmm9, %xmm10, %xmm9
	vmovdqu	%xmm9, 24(%r15,%rsi)
	vpunpckhbw	%xmm8, %xmm0, %xmm0
	vpshufb	%xmm7, %xmm0, %xmm0
	vmovq	%xmm0, 40(%r15,%rsi)
	vpsrlw	$12, %ymm11, %ymm0
	vpsllw	$2, %ymm11, %ymm8
	vpand	%ymm1, %ymm8, %ymm8
	vpor	%ymm2, %ymm0, %ymm0
	vpor	%ymm0, %ymm8, %ymm0
	vpand	%ymm3, %ymm11, %ymm8
	vpor	%ymm4, %ymm8, %ymm8
	vpshufb	%xmm5, %xmm8, %xmm9
	vpshufb	%xmm6, %xmm0, %xmm10
	vpor	%xmm9, %xmm10, %xmm9
	vmovdqu	%xmm9, 48(%r15,%rsi)
	vpunpckhbw	%xmm8, %xmm0, %xmm9
	vpshufb	%xmm7, %xmm9, %xmm9
	vmovq	%xmm9, 64(%r15,%rsi)
	vextracti128	$1, %ymm0, %xmm0
	vextracti128	$1, %ymm8, %xmm8
	vpshufb	%xmm5, %xmm8, %xmm9
	vpshufb	%xmm6, %xmm0, %xmm10
	vpor	%xmm9, %xmm10, %xmm9
	vmovdqu	%xmm9, 72(%r15,%rsi)
	vpunpckhbw	%xmm8, %xmm0, %xmm0
	vpshufb	%xmm7, %xmm0, %xmm0
	vmovq	%xmm0, 88(%r15,%rsi)
	vextracti128	$1, %ymm11, %xmm0
	leaq	96(%rsi), %rax
	leaq	64(%rbx), %rcx
	cmpq	%r12, %rcx
	ja	.LBB40_35
	cmpq	%rax, %r14
	jb	.LBB40_35
	vmovdqu	(%r13,%rcx), %ymm9
	vmovdqu	32(%r13,%rcx), %ymm8
	vpaddw	%ymm12, %ymm9, %ymm10
	vpaddw	%ymm12, %ymm8, %ymm11
	vpminuw	%ymm11, %ymm8, %ymm11
	vpminuw	%ymm10, %ymm9, %ymm10
	vpminuw	%ymm11, %ymm10, %ymm10
	vextracti128	$1, %ymm10, %xmm11
	vpminuw	%xmm11, %xmm10, %xmm10
	vpminuw	.LCPI40_3(%rip), %xmm10, %xmm11
	vpcmpeqw	%xmm11, %xmm10, %xmm10
	vpmovmskb	%xmm10, %edx
	testl	%edx, %edx
	jne	.LBB40_35
	addq	$192, %rsi
	subq	$-128, %rbx
	.p2align	4
.LBB40_28:
	movq	%rsi, %rax
	vpsrlw	$12, %ymm9, %ymm0
	vpsllw	$2, %ymm9, %ymm10
	vpand	%ymm1, %ymm10, %ymm10
	vpor	%ymm2, %ymm0, %ymm0
	vpor	%ymm0, %ymm10, %ymm10
	vpand	%ymm3, %ymm9, %ymm0
	vpor	%ymm4, %ymm0, %ymm9
	vpshufb	%xmm5, %xmm9, %xmm0
	vpshufb	%xmm6, %xmm10, %xmm11
	vpor	%xmm0, %xmm11, %xmm0
	vmovdqu	%xmm0, -96(%r15,%rsi)
	vpunpckhbw	%xmm9, %xmm10, %xmm0
	vpshufb	%xmm7, %xmm0, %xmm0
	vmovq	%xmm0, -80(%r15,%rsi)
	vmovdqa	%ymm8, %ymm0
	movq	%rbx, %rcx
	vextracti128	$1, %ymm10, %xmm8
	vextracti128	$1, %ymm9, %xmm9
	vpshufb	%xmm5, %xmm9, %xmm10
	vpshufb	%xmm6, %xmm8, %xmm11
	vpor	%xmm10, %xmm11, %xmm10
	vmovdqu	%xmm10, -72(%r15,%rsi)
	vpunpckhbw	%xmm9, %xmm8, %xmm8
	vpshufb	%xmm7, %xmm8, %xmm8
	vmovq	%xmm8, -56(%r15,%rsi)
	vpsrlw	$12, %ymm0, %ymm8
	vpsllw	$2, %ymm0, %ymm9
	vpand	%ymm1, %ymm9, %ymm9
	vpor	%ymm2, %ymm8, %ymm8
	vpor	%ymm9, %ymm8, %ymm8
	vpand	%ymm3, %ymm0, %ymm9
	vpor	%ymm4, %ymm9, %ymm9
	vpshufb	%xmm5, %xmm9, %xmm10
	vpshufb	%xmm6, %xmm8, %xmm11
	vpor	%xmm10, %xmm11, %xmm10
	vmovdqu	%xmm10, -48(%r15,%rsi)
	vpunpckhbw	%xmm9, %xmm8, %xmm10
	vpshufb	%xmm7, %xmm10, %xmm10
	vmovq	%xmm10, -32(%r15,%rsi)
	vextracti128	$1, %ymm8, %xmm8
	vextracti128	$1, %ymm9, %xmm9
	vpshufb	%xmm5, %xmm9, %xmm10
	vpshufb	%xmm6, %xmm8, %xmm11
	vpor	%xmm10, %xmm11, %xmm10
	vmovdqu	%xmm10, -24(%r15,%rsi)
	vpunpckhbw	%xmm9, %xmm8, %xmm8
	vpshufb	%xmm7, %xmm8, %xmm8
	vmovq	%xmm8, -8(%r15,%rsi)
	cmpq	%r12, %rbx
	ja	.LBB40_34
	cmpq	%rax, %r14
	jb	.LBB40_34
	vmovdqu	(%r13,%rcx), %ymm9
	vmovdqu	32(%r13,%rcx), %ymm8
	vpaddw	%ymm12, %ymm9, %ymm10
	vpaddw	%ymm12, %ymm8, %ymm11
	vpminuw	%ymm11, %ymm8, %ymm11
	vpminuw	%ymm10, %ymm9, %ymm10
	vpminuw	%ymm11, %ymm10, %ymm10
	vextracti128	$1, %ymm10, %xmm11
	vpminuw	%xmm11, %xmm10, %xmm10
	vpminuw	.LCPI40_3(%rip), %xmm10, %xmm11
	vpcmpeqw	%xmm11, %xmm10, %xmm10
	vpmovmskb	%xmm10, %edx
	leaq	96(%rax), %rsi
	leaq	64(%rcx), %rbx
	testl	%edx, %edx
	je	.LBB40_28
.LBB40_34:
	vextracti128	$1, %ymm0, %xmm0
	jmp	.LBB40_35
	.p2align	4
.LBB40_43:
	vextracti128	$1, %ymm0, %xmm0
	addq	$32, %rax
.LBB40_44:
	movq	%rax, %rsi
.LBB40_45:
	cmpq	%rbx, %r12
	jb	.LBB40_52
.LBB40_46:
	cmpq	%rsi, %r14
	jb	.LBB40_52
	vmovdqu	(%r13,%rbx), %ymm1
	vmovdqu	32(%r13,%rbx), %ymm14
	vpsrlw	$8, %ymm14, %ymm3
	vpsrlw	$8, %ymm1, %ymm2
	vpackuswb	%ymm3, %ymm2, %ymm2
	vpermq	$216, %ymm2, %ymm2
	vpand	.LCPI40_19(%rip), %ymm2, %ymm3
	vpcmpeqb	.LCPI40_20(%rip), %ymm3, %ymm2
	vpmovmskb	%ymm2, %eax
	vpcmpeqb	.LCPI40_21(%rip), %ymm3, %ymm2
	vpmovmskb	%ymm2, %ecx
	movzbl	%bpl, %edx
	andl	$1, %edx
	leal	(%rdx,%rax,2), %edx
	cmpl	%ecx, %edx
	jne	.LBB40_52
	shrl	$31, %eax
	movl	%eax, %ebp
	vpor	%ymm1, %ymm14, %ymm3
	vpbroadcastq	.LCPI40_1(%rip), %ymm2
	vptest	%ymm2, %ymm3
	je	.LBB40_50
	vpbroadcastd	.LCPI40_27(%rip), %ymm15
	vpaddw	%ymm15, %ymm14, %ymm2
	vpaddw	%ymm1, %ymm15, %ymm3
	vpminuw	%ymm3, %ymm1, %ymm3
	vpminuw	%ymm2, %ymm14, %ymm2
	vpor	%ymm2, %ymm3, %ymm2
	vptest	.LCPI40_4(%rip), %ymm2
	jne	.LBB40_50
	vinserti128	$1, %xmm0, %ymm0, %ymm0
	vperm2i128	$33, %ymm1, %ymm0, %ymm0
	vpalignr	$14, %ymm0, %ymm1, %ymm0
	vpbroadcastd	.LCPI40_40(%rip), %ymm2
	vpaddw	%ymm2, %ymm1, %ymm7
	vpbroadcastd	.LCPI40_41(%rip), %ymm3
	vpaddw	%ymm3, %ymm1, %ymm4
	vpsrlw	$2, %ymm4, %ymm5
	vpbroadcastd	.LCPI40_42(%rip), %ymm4
	vpsubusw	%ymm4, %ymm5, %ymm8
	vpsllw	$10, %ymm0, %ymm0
	vpbroadcastd	.LCPI40_43(%rip), %ymm5
	vpand	%ymm5, %ymm0, %ymm0
	vpbroadcastd	.LCPI40_44(%rip), %ymm6
	vpaddw	%ymm6, %ymm1, %ymm9
	vpaddw	%ymm0, %ymm9, %ymm0
	vpmaxuw	%ymm0, %ymm8, %ymm8
	vpxor	%xmm0, %xmm0, %xmm0
	vpcmpgtw	%ymm1, %ymm0, %ymm9
	vpblendvb	%ymm9, %ymm8, %ymm7, %ymm8
	vpsrlw	$6, %ymm8, %ymm9
	vpbroadcastd	.LCPI40_30(%rip), %ymm7
	vpsllw	$8, %ymm8, %ymm10
	vpbroadcastd	.LCPI40_32(%rip), %ymm8
	vpand	%ymm8, %ymm10, %ymm10
	vpaddw	%ymm9, %ymm10, %ymm9
	vpor	%ymm7, %ymm9, %ymm10
	vpbroadcastd	.LCPI40_36(%rip), %ymm9
	vpminuw	%ymm9, %ymm1, %ymm11
	vpcmpeqw	%ymm1, %ymm11, %ymm11
	vpblendvb	%ymm11, %ymm1, %ymm10, %ymm10
	vextracti128	$1, %ymm11, %xmm12
	vpacksswb	%xmm12, %xmm11, %xmm11
	vpmovmskb	%xmm11, %ecx
	movzbl	%cl, %edx
	popcntl	%edx, %edi
	shll	$4, %edx
	leaq	.Lstatic.6(%rip), %rax
	vpshufb	(%rdx,%rax), %xmm10, %xmm11
	vmovdqu	%xmm11, (%r15,%rsi)
	subq	%rdi, %rsi
	shrl	$8, %ecx
	vextracti128	$1, %ymm10, %xmm10
	xorl	%edx, %edx
	popcntl	%ecx, %edx
	shll	$4, %ecx
	vpshufb	(%rcx,%rax), %xmm10, %xmm10
	vmovdqu	%xmm10, 16(%r15,%rsi)
	vperm2i128	$33, %ymm14, %ymm1, %ymm10
	vpalignr	$14, %ymm10, %ymm14, %ymm10
	vpaddw	%ymm2, %ymm14, %ymm11
	vpaddw	%ymm3, %ymm14, %ymm12
	vpsrlw	$2, %ymm12, %ymm12
	vpsubusw	%ymm4, %ymm12, %ymm12
	vpsllw	$10, %ymm10, %ymm10
	vpand	%ymm5, %ymm10, %ymm10
	vpaddw	%ymm6, %ymm14, %ymm13
	vpaddw	%ymm10, %ymm13, %ymm10
	vpmaxuw	%ymm10, %ymm12, %ymm10
	vpcmpgtw	%ymm14, %ymm0, %ymm0
	vpblendvb	%ymm0, %ymm10, %ymm11, %ymm0
	subq	%rdx, %rsi
	vpsrlw	$6, %ymm0, %ymm10
	vpsllw	$8, %ymm0, %ymm0
	vpand	%ymm0, %ymm8, %ymm0
	vpaddw	%ymm0, %ymm10, %ymm0
	vpor	%ymm7, %ymm0, %ymm0
	vpminuw	%ymm9, %ymm14, %ymm10
	vpcmpeqw	%ymm10, %ymm14, %ymm10
	vpblendvb	%ymm10, %ymm14, %ymm0, %ymm0
	vextracti128	$1, %ymm10, %xmm11
	vpacksswb	%xmm11, %xmm10, %xmm10
	vpmovmskb	%xmm10, %ecx
	movzbl	%cl, %edx
	xorl	%edi, %edi
	popcntl	%edx, %edi
	shll	$4, %edx
	vpshufb	(%rdx,%rax), %xmm0, %xmm10
	vmovdqu	%xmm10, 32(%r15,%rsi)
	addq	$32, %rsi
	shrl	$8, %ecx
	vextracti128	$1, %ymm0, %xmm0
	xorl	%edx, %edx
	popcntl	%ecx, %edx
	shll	$4, %ecx
	vpshufb	(%rcx,%rax), %xmm0, %xmm0
	subq	%rdi, %rsi
	vmovdqu	%xmm0, 16(%r15,%rsi)
	subq	%rdx, %rsi
	vextracti128	$1, %ymm14, %xmm0
	addq	$64, %rbx
	addq	$32, %rsi
	cmpq	%r12, %rbx
	ja	.LBB40_51
.LBB40_55:
	cmpq	%rsi, %r14
	jb	.LBB40_51
	vmovdqu	(%r13,%rbx), %ymm11
	vmovdqu	32(%r13,%rbx), %ymm10
	vpor	%ymm10, %ymm11, %ymm12
	vptest	.LCPI40_4(%rip), %ymm12
	je	.LBB40_51
	vpaddw	%ymm15, %ymm10, %ymm12
	vpaddw	%ymm15, %ymm11, %ymm13
	vpminuw	%ymm13, %ymm11, %ymm13
	vpminuw	%ymm12, %ymm10, %ymm12
	vpor	%ymm12, %ymm13, %ymm12
	vptest	.LCPI40_4(%rip), %ymm12
	jne	.LBB40_51
	vpsrlw	$8, %ymm11, %ymm12
	vpsrlw	$8, %ymm10, %ymm13
	vpackuswb	%ymm13, %ymm12, %ymm12
	vpermq	$216, %ymm12, %ymm12
	vpand	.LCPI40_19(%rip), %ymm12, %ymm12
	vpcmpeqb	.LCPI40_20(%rip), %ymm12, %ymm13
	vpmovmskb	%ymm13, %ecx
	vpcmpeqb	.LCPI40_21(%rip), %ymm12, %ymm12
	vpmovmskb	%ymm12, %edx
	leal	(%rcx,%rcx), %edi
	movzbl	%bpl, %r8d
	orl	%edi, %r8d
	cmpl	%edx, %r8d
	jne	.LBB40_51
	vinserti128	$1, %xmm0, %ymm0, %ymm0
	vperm2i128	$33, %ymm11, %ymm0, %ymm0
	vpalignr	$14, %ymm0, %ymm11, %ymm0
	vpaddw	%ymm2, %ymm11, %ymm12
	vpaddw	%ymm3, %ymm11, %ymm13
	vpsrlw	$2, %ymm13, %ymm13
	vpsubusw	%ymm4, %ymm13, %ymm13
	vpsllw	$10, %ymm0, %ymm0
	vpand	%ymm5, %ymm0, %ymm0
	vpaddw	%ymm6, %ymm11, %ymm14
	vpaddw	%ymm0, %ymm14, %ymm0
	vpmaxuw	%ymm0, %ymm13, %ymm13
	vpxor	%xmm0, %xmm0, %xmm0
	vpcmpgtw	%ymm11, %ymm0, %ymm14
	vpblendvb	%ymm14, %ymm13, %ymm12, %ymm12
	vpsrlw	$6, %ymm12, %ymm13
	vpsllw	$8, %ymm12, %ymm12
	vpand	%ymm8, %ymm12, %ymm12
	vpaddw	%ymm13, %ymm12, %ymm12
	vpor	%ymm7, %ymm12, %ymm12
	vpminuw	%ymm9, %ymm11, %ymm13
	vpcmpeqw	%ymm13, %ymm11, %ymm13
	vpblendvb	%ymm13, %ymm11, %ymm12, %ymm12
	vextracti128	$1, %ymm13, %xmm14
	vpacksswb	%xmm14, %xmm13, %xmm13
	vpmovmskb	%xmm13, %edx
	movzbl	%dl, %edi
	xorl	%r8d, %r8d
	popcntl	%edi, %r8d
	shll	$4, %edi
	vpshufb	(%rdi,%rax), %xmm12, %xmm13
	vmovdqu	%xmm13, (%r15,%rsi)
	subq	%r8, %rsi
	shrl	$8, %edx
	vextracti128	$1, %ymm12, %xmm12
	xorl	%edi, %edi
	popcntl	%edx, %edi
	shll	$4, %edx
	vpshufb	(%rdx,%rax), %xmm12, %xmm12
	vmovdqu	%xmm12, 16(%r15,%rsi)
	vperm2i128	$33, %ymm10, %ymm11, %ymm11
	vpalignr	$14, %ymm11, %ymm10, %ymm11
	vpaddw	%ymm2, %ymm10, %ymm12
	vpaddw	%ymm3, %ymm10, %ymm13
	vpsrlw	$2, %ymm13, %ymm13
	vpsubusw	%ymm4, %ymm13, %ymm13
	vpsllw	$10, %ymm11, %ymm11
	vpand	%ymm5, %ymm11, %ymm11
	vpaddw	%ymm6, %ymm10, %ymm14
	vpaddw	%ymm11, %ymm14, %ymm11
	vpmaxuw	%ymm11, %ymm13, %ymm11
	vpcmpgtw	%ymm10, %ymm0, %ymm0
	vpblendvb	%ymm0, %ymm11, %ymm12, %ymm0
	subq	%rdi, %rsi
	vpsrlw	$6, %ymm0, %ymm11
	vpsllw	$8, %ymm0, %ymm0
	vpand	%ymm0, %ymm8, %ymm0
	vpaddw	%ymm0, %ymm11, %ymm0
	vpor	%ymm7, %ymm0, %ymm0
	vpminuw	%ymm9, %ymm10, %ymm11
	vpcmpeqw	%ymm11, %ymm10, %ymm11
	vpblendvb	%ymm11, %ymm10, %ymm0, %ymm0
	vextracti128	$1, %ymm11, %xmm12
	vpacksswb	%xmm12, %xmm11, %xmm11
	vpmovmskb	%xmm11, %edx
	movzbl	%dl, %edi
	xorl	%r8d, %r8d
	popcntl	%edi, %r8d
	shll	$4, %edi
	vpshufb	(%rdi,%rax), %xmm0, %xmm11
	vmovdqu	%xmm11, 32(%r15,%rsi)
	shrl	$31, %ecx
	movl	%ecx, %ebp
	addq	$32, %rsi
	shrl	$8, %edx
	vextracti128	$1, %ymm0, %xmm0
	xorl	%ecx, %ecx
	popcntl	%edx, %ecx
	shll	$4, %edx
	vpshufb	(%rdx,%rax), %xmm0, %xmm0
	subq	%r8, %rsi
	vmovdqu	%xmm0, 16(%r15,%rsi)
	subq	%rcx, %rsi
	vextracti128	$1, %ymm10, %xmm0
	addq	$64, %rbx
	addq	$32, %rsi
	cmpq	%r12, %rbx
	jbe	.LBB40_55
	jmp	.LBB40_51
.LBB40_8:
	vextracti128	$1, %ymm0, %xmm0
	addq	$32, %rsi
	cmpq	%rbx, %r12
	jae	.LBB40_46
	jmp	.LBB40_52
.LBB40_36:
	movq	%rcx, %rbx
	jmp	.LBB40_44
.LBB40_52:
	movq	8(%rsp), %rax
	movq	%rbx, (%rax)
	movq	%rsi, 8(%rax)
	vmovdqu	%xmm0, 16(%rax)
	andb	$1, %bpl
	movb	%bpl, 32(%rax)
	movl	$0, 33(%rax)
	movl	$0, 36(%rax)
.LBB40_10:
	addq	$88, %rsp
	popq	%rbx
	popq	%r12
	popq	%r13
	popq	%r14
	popq	%r15
	popq	%rbp
	vzeroupper
	retq
.Lfunc_end40:

	.section	.rdata$000,"dr"
	.p2align	4, 0x0
.LCPI41_0:
	.short	128
	.short	128
	.short	128
	.short	128
	.short	128
	.short	128
	.short	128
	.short	128
	.section	.text$049,"xr"
	.p2align	4
L_41:
	pushq	%rbp
	pushq	%r15
	pushq	%r14
	pushq	%r13
	pushq	%r12
	pushq	%rbx
	pushq	%rax
	movq	%r8, %rbx
	movq	%rdx, %r14
	movq	%rsi, %r15
	movq	%rdi, %r12
	addq	%r8, %rdx
	movq	%rcx, (%rsp)
	subq	%r8, %rcx
	leaq	-16(%rsi), %rax
	cmpq	$175, %rax
	ja	.LBB41_1
	movq	%r15, %rax
	shrq	%rax
	cmpq	%rax, %rcx
	cmovbq	%rcx, %rax
	cmpq	$8, %rax
	jb	.LBB41_1
	leaq	(%rax,%rax), %rsi
	xorl	%ebp, %ebp
	xorl	%r13d, %r13d
	.p2align	4
.LBB41_4:
	vmovdqu	(%r12,%r13,2), %xmm0
	vpmaxuw	.LCPI41_0(%rip), %xmm0, %xmm1
	vpcmpeqw	%xmm1, %xmm0, %xmm1
	vpmovmskb	%xmm1, %edi
	testl	%edi, %edi
	jne	.LBB41_9
	vpackuswb	%xmm0, %xmm0, %xmm0
	vmovq	%xmm0, (%rdx,%r13)
	addq	$8, %r13
	leaq	(%rsi,%rbp), %rdi
	addq	$-16, %rdi
	addq	$-16, %rbp
	cmpq	$15, %rdi
	ja	.LBB41_4
	negq	%rbp
	cmpq	%rbp, %rsi
	jbe	.LBB41_10
	vmovdqu	-16(%r12,%rsi), %xmm0
	vpmaxuw	.LCPI41_0(%rip), %xmm0, %xmm1
	vpcmpeqw	%xmm1, %xmm0, %xmm1
	vpmovmskb	%xmm1, %edi
	testl	%edi, %edi
	jne	.LBB41_10
	vpackuswb	%xmm0, %xmm0, %xmm0
	vmovq	%xmm0, -8(%rdx,%rax)
	movq	%rax, %r13
	movq	%rsi, %rbp
	movq	%r15, %rax
	subq	%rbp, %rax
	cmpq	$15, %rax
	jbe	.LBB41_11
	jmp	.LBB41_19
.LBB41_1:
	xorl	%r13d, %r13d
	xorl	%ebp, %ebp
.LBB41_10:
	movq	%r15, %rax
	subq	%rbp, %rax
	cmpq	$15, %rax
	ja	.LBB41_19
.LBB41_11:
	movq	%rcx, %rsi
	subq	%r13, %rsi
	movq	%rax, %rdi
	shrq	%rdi
	leaq	(%rdi,%rdi,2), %rdi
	cmpq	%rdi, %rsi
	setb	%sil
	cmpq	$2, %rax
	setb	%dil
	orb	%sil, %dil
	je	.LBB41_12
	jmp	.LBB41_19
	.p2align	4
.LBB41_13:
	movb	%sil, (%rdx,%r13)
	incq	%r13
.LBB41_18:
	addq	$2, %rbp
	addq	$-2, %rax
	cmpq	$1, %rax
	jbe	.LBB41_19
.LBB41_12:
	movzbl	(%r12,%rbp), %esi
	movzbl	1(%r12,%rbp), %r8d
	movl	%r8d, %edi
	shll	$8, %edi
	orl	%esi, %edi
	cmpw	$127, %di
	jbe	.LBB41_13
	cmpb	$7, %r8b
	ja	.LBB41_16
	movzwl	%si, %esi
	andl	$63, %esi
	shll	$8, %esi
	movzwl	%di, %edi
	shrl	$6, %edi
	orl	%esi, %edi
	orl	$32960, %edi
	movw	%di, (%rdx,%r13)
	addq	$2, %r13
	jmp	.LBB41_18
	.p2align	4
.LBB41_16:
	movzwl	%r8w, %r9d
	andl	$-8, %r9d
	cmpl	$216, %r9d
	je	.LBB41_19
	andb	$63, %sil
	orb	$-128, %sil
	shrl	$6, %edi
	andb	$63, %dil
	orb	$-128, %dil
	shrb	$4, %r8b
	orb	$-32, %r8b
	movb	%r8b, (%rdx,%r13)
	movb	%dil, 1(%rdx,%r13)
	movb	%sil, 2(%rdx,%r13)
	addq	$3, %r13
	jmp	.LBB41_18
.LBB41_9:
	negq	%rbp
	movq	%r15, %rax
	subq	%rbp, %rax
	cmpq	$15, %rax
	jbe	.LBB41_11
.LBB41_19:
	leaq	-8(%r15), %rax
	cmpq	$183, %rax
	ja	.LBB41_22
	movq	%r15, %rsi
	subq	%rbp, %rsi
	cmpq	$8, %rsi
	jb	.LBB41_22
	leaq	(%r12,%rbp), %rdi
	addq	%r13, %rdx
	subq	%r13, %rcx
	callq	L_38
	addq	%rax, %rbp
	addq	%rdx, %r13
.LBB41_22:
	addq	%rbx, %r13
	cmpq	%r15, %rbp
	jae	.LBB41_41
	movq	(%rsp), %rbx
	jmp	.LBB41_24
	.p2align	4
.LBB41_34:
	movb	%al, (%r14,%r13)
	incq	%r13
.LBB41_40:
	addq	%rcx, %rbp
	cmpq	%r15, %rbp
	jae	.LBB41_41
.LBB41_24:
	movq	%r15, %rax
	subq	%rbp, %rax
	cmpq	$2, %rax
	jb	.LBB41_41
	movzbl	1(%r12,%rbp), %edx
	movzwl	%dx, %ecx
	andl	$-8, %edx
	cmpl	$216, %edx
	jne	.LBB41_29
	cmpq	$4, %rax
	jb	.LBB41_41
	movl	%ecx, %eax
	andl	$-36, %eax
	movzwl	%ax, %eax
	cmpl	$220, %eax
	je	.LBB41_41
	movzbl	3(%r12,%rbp), %eax
	andb	$-4, %al
	cmpb	$-36, %al
	jne	.LBB41_41
.LBB41_29:
	movzbl	(%r12,%rbp), %edx
	movl	%ecx, %eax
	shll	$8, %eax
	orl	%edx, %eax
	andl	$-4, %ecx
	cmpl	$216, %ecx
	jne	.LBB41_30
	movzwl	2(%r12,%rbp), %esi
	movl	%eax, %edi
	callq	L_5
	movl	$4, %ecx
	jmp	.LBB41_32
	.p2align	4
.LBB41_30:
	movl	$2, %ecx
.LBB41_32:
	movq	%rbx, %rdx
	subq	%r13, %rdx
	cmpl	$65536, %eax
	movl	$4, %esi
	sbbq	$0, %rsi
	cmpl	$2048, %eax
	movl	$2, %edi
	cmovaeq	%rsi, %rdi
	cmpl	$128, %eax
	movl	$1, %esi
	cmovaeq	%rdi, %rsi
	cmpq	%rsi, %rdx
	jb	.LBB41_41
	cmpl	$127, %eax
	jbe	.LBB41_34
	movl	%eax, %edx
	andb	$63, %dl
	orb	$-128, %dl
	cmpl	$2047, %eax
	ja	.LBB41_37
	shrl	$6, %eax
	movzbl	%dl, %edx
	shll	$8, %edx
	orl	%eax, %edx
	orl	$192, %edx
	movw	%dx, (%r14,%r13)
	addq	$2, %r13
	jmp	.LBB41_40
	.p2align	4
.LBB41_37:
	movl	%eax, %esi
	cmpl	$65535, %eax
	ja	.LBB41_39
	shrl	$6, %esi
	andb	$63, %sil
	orb	$-128, %sil
	shrl	$12, %eax
	orb	$-32, %al
	movb	%al, (%r14,%r13)
	movb	%sil, 1(%r14,%r13)
	movb	%dl, 2(%r14,%r13)
	addq	$3, %r13
	jmp	.LBB41_40
.LBB41_39:
	shrl	$18, %esi
	addl	$240, %esi
	movzbl	%dl, %edx
	shll	$24, %edx
	movl	%eax, %edi
	shll	$10, %edi
	andl	$4128768, %edi
	orl	%edx, %edi
	shrl	$4, %eax
	andl	$16128, %eax
	orl	%edi, %eax
	movzbl	%sil, %edx
	addl	%edx, %eax
	addl	$8421376, %eax
	movl	%eax, (%r14,%r13)
	addq	$4, %r13
	jmp	.LBB41_40
.LBB41_41:
	movq	%rbp, %rax
	movq	%r13, %rdx
	addq	$8, %rsp
	popq	%rbx
	popq	%r12
	popq	%r13
	popq	%r14
	popq	%r15
	popq	%rbp
	retq
.Lfunc_end41:

	.section	.text$050,"xr"
	.p2align	4
L_43:
	pushq	%r15
	pushq	%r14
	pushq	%r13
	pushq	%r12
	pushq	%rbx
	subq	$48, %rsp
	movq	%rdx, %rbx
	movq	%rsi, %r14
	movq	%rdi, %r15
	movq	%rsi, %rax
	shrq	%rax
	leaq	(%rax,%rax,2), %r12
	addq	$128, %r12
	cmpq	$191, %rsi
	jbe	.LBB42_3
	vxorps	%xmm0, %xmm0, %xmm0
	vmovups	%ymm0, (%rsp)
	movq	$0, 32(%rsp)
	movq	%rsp, %rdi
	movq	%r15, %rsi
	movq	%r14, %rdx
	movq	%rbx, %rcx
	movq	%r12, %r8
	vzeroupper
	callq	L_40
	movq	(%rsp), %rax
	movq	8(%rsp), %rcx
	leaq	-2(%rax), %rdx
	leaq	-2(%rcx), %r13
	testb	$1, 32(%rsp)
	cmoveq	%rcx, %r13
	cmoveq	%rax, %rdx
	addq	%rdx, %r15
	subq	%rdx, %r14
	addq	%r13, %rbx
	cmpq	$7, %r14
	ja	.LBB42_5
	movq	%r15, %rdi
	movq	%r14, %rsi
	movq	%rbx, %rdx
	callq	L_44
	jmp	.LBB42_6
.LBB42_3:
	movq	%r15, %rdi
	movq	%r14, %rsi
	movq	%rbx, %rdx
	cmpq	$7, %r14
	jbe	.LBB42_8
	movq	%r12, %rcx
	callq	L_38
	movq	%rdx, %rax
	jmp	.LBB42_7
.LBB42_5:
	subq	%r13, %r12
	movq	%r15, %rdi
	movq	%r14, %rsi
	movq	%rbx, %rdx
	movq	%r12, %rcx
	callq	L_38
	movq	%rdx, %rax
.LBB42_6:
	addq	%r13, %rax
.LBB42_7:
	addq	$48, %rsp
	popq	%rbx
	popq	%r12
	popq	%r13
	popq	%r14
	popq	%r15
	retq
.LBB42_8:
	addq	$48, %rsp
	popq	%rbx
	popq	%r12
	popq	%r13
	popq	%r14
	popq	%r15
	jmp	L_44
.Lfunc_end42:

	.section	.text$051,"xr"
	.p2align	4
L_44:
	pushq	%r15
	pushq	%r14
	pushq	%r12
	pushq	%rbx
	pushq	%rax
	testq	%rsi, %rsi
	je	.LBB43_1
	movq	%rdx, %rbx
	movq	%rsi, %r14
	movq	%rdi, %r12
	xorl	%r15d, %r15d
	jmp	.LBB43_3
	.p2align	4
.LBB43_7:
	movb	%al, (%rbx,%r15)
	incq	%r15
.LBB43_13:
	addq	%rcx, %r12
	subq	%rcx, %r14
	je	.LBB43_14
.LBB43_3:
	movzbl	(%r12), %ecx
	movzbl	1(%r12), %edx
	movl	%edx, %eax
	shll	$8, %eax
	orl	%ecx, %eax
	andl	$-4, %edx
	cmpl	$216, %edx
	jne	.LBB43_4
	movzwl	2(%r12), %esi
	movl	%eax, %edi
	callq	L_5
	movl	$4, %ecx
	cmpl	$127, %eax
	jbe	.LBB43_7
	jmp	.LBB43_8
	.p2align	4
.LBB43_4:
	movl	$2, %ecx
	cmpl	$127, %eax
	jbe	.LBB43_7
.LBB43_8:
	movl	%eax, %edx
	andb	$63, %dl
	orb	$-128, %dl
	cmpl	$2047, %eax
	ja	.LBB43_10
	shrl	$6, %eax
	movzbl	%dl, %edx
	shll	$8, %edx
	orl	%eax, %edx
	orl	$192, %edx
	movw	%dx, (%rbx,%r15)
	addq	$2, %r15
	jmp	.LBB43_13
	.p2align	4
.LBB43_10:
	movl	%eax, %esi
	cmpl	$65535, %eax
	ja	.LBB43_12
	shrl	$6, %esi
	andb	$63, %sil
	orb	$-128, %sil
	shrl	$12, %eax
	orb	$-32, %al
	movb	%al, (%rbx,%r15)
	movb	%sil, 1(%rbx,%r15)
	movb	%dl, 2(%rbx,%r15)
	addq	$3, %r15
	jmp	.LBB43_13
.LBB43_12:
	shrl	$18, %esi
	addl	$240, %esi
	movzbl	%dl, %edx
	shll	$24, %edx
	movl	%eax, %edi
	shll	$10, %edi
	andl	$4128768, %edi
	orl	%edx, %edi
	shrl	$4, %eax
	andl	$16128, %eax
	orl	%edi, %eax
	movzbl	%sil, %edx
	addl	%edx, %eax
	addl	$8421376, %eax
	movl	%eax, (%rbx,%r15)
	addq	$4, %r15
	jmp	.LBB43_13
.LBB43_1:
	xorl	%r15d, %r15d
.LBB43_14:
	movq	%r15, %rax
	addq	$8, %rsp
	popq	%rbx
	popq	%r12
	popq	%r14
	popq	%r15
	retq
.Lfunc_end43:

	.section	.rdata$003,"dr"
	.p2align	5, 0x0
.LCPI44_0:
	.zero	32,191
.LCPI44_1:
	.zero	32,240
	.section	.rdata$000,"dr"
	.p2align	4, 0x0
.LCPI44_2:
	.zero	16,191
.LCPI44_3:
	.zero	16,240
	.section	.rdata$001,"dr"
	.p2align	2, 0x0
.LCPI44_4:
	.zero	4,191
.LCPI44_5:
	.zero	4,240
	.section	.text$052,"xr"
	.p2align	4
L_42:
	pushq	%rbp
	pushq	%r15
	pushq	%r14
	pushq	%r13
	pushq	%r12
	pushq	%rbx
	pushq	%rax
	movq	%r9, %rbx
	movq	%r8, %r14
	movq	%rcx, %r12
	movq	%rdx, %r15
	movq	%rdi, %rbp
	cmpq	$64, %rsi
	movl	$64, %eax
	cmovaeq	%rax, %rsi
	callq	L_11
	movq	%rax, %r13
	movq	%rbp, %rdi
	movq	%rax, %rsi
	movq	%r15, %rdx
	callq	L_43
	subq	%rbx, %r14
	cmpq	%r14, %rax
	jbe	.LBB44_5
	testq	%r14, %r14
	je	.LBB44_4
	.p2align	4
.LBB44_2:
	cmpb	$-65, (%r15,%r14)
	jg	.LBB44_13
	decq	%r14
	jne	.LBB44_2
.LBB44_4:
	addq	%rbx, %r12
	xorl	%r14d, %r14d
	movq	%r12, %rdi
	xorl	%r13d, %r13d
	jmp	.LBB44_9
.LBB44_5:
	movq	%rax, %r14
.LBB44_6:
	leaq	(%r12,%rbx), %rdi
	movq	%rdi, %rax
	subq	%r15, %rax
	cmpq	%r14, %rax
	jae	.LBB44_9
	cmpq	$8, %r14
	jb	.LBB44_8
	leaq	(%r12,%rbx), %rax
	subq	%r15, %rax
	cmpq	$128, %rax
	jae	.LBB44_22
.LBB44_8:
	xorl	%eax, %eax
.LBB44_34:
	movq	%r14, %rdx
	movq	%rax, %rcx
	andq	$7, %rdx
	je	.LBB44_37
	movq	%rax, %rcx
	.p2align	4
.LBB44_36:
	movzbl	(%r15,%rcx), %esi
	movb	%sil, (%rdi,%rcx)
	incq	%rcx
	decq	%rdx
	jne	.LBB44_36
.LBB44_37:
	subq	%r14, %rax
	cmpq	$-8, %rax
	ja	.LBB44_10
	leaq	(%rbx,%r12), %rax
	addq	$7, %rax
	.p2align	4
.LBB44_39:
	movzbl	(%r15,%rcx), %edx
	movb	%dl, -7(%rax,%rcx)
	movzbl	1(%r15,%rcx), %edx
	movb	%dl, -6(%rax,%rcx)
	movzbl	2(%r15,%rcx), %edx
	movb	%dl, -5(%rax,%rcx)
	movzbl	3(%r15,%rcx), %edx
	movb	%dl, -4(%rax,%rcx)
	movzbl	4(%r15,%rcx), %edx
	movb	%dl, -3(%rax,%rcx)
	movzbl	5(%r15,%rcx), %edx
	movb	%dl, -2(%rax,%rcx)
	movzbl	6(%r15,%rcx), %edx
	movb	%dl, -1(%rax,%rcx)
	movzbl	7(%r15,%rcx), %edx
	movb	%dl, (%rax,%rcx)
	addq	$8, %rcx
	cmpq	%rcx, %r14
	jne	.LBB44_39
	jmp	.LBB44_10
.LBB44_9:
	movq	%r15, %rsi
	movq	%r14, %rdx
	vzeroupper
	callq	sysv_memmove
.LBB44_10:
	addq	%rbx, %r14
	movq	%r13, %rax
	movq	%r14, %rdx
	addq	$8, %rsp
	popq	%rbx
	popq	%r12
	popq	%r13
	popq	%r14
	popq	%r15
	popq	%rbp
	vzeroupper
	retq
.LBB44_13:
	cmpq	$15, %r14
	ja	.LBB44_24
	xorl	%r13d, %r13d
	movq	%r14, %rax
	movq	%r15, %rcx
	jmp	.LBB44_17
.LBB44_15:
	andl	$31, %edx
	shll	$6, %edx
	orl	%esi, %edx
	movl	$2, %r8d
	.p2align	4
.LBB44_16:
	addq	%r8, %rcx
	xorl	%esi, %esi
	cmpl	$65536, %edx
	setae	%sil
	leaq	2(%r13,%rsi,2), %r13
	subq	%r8, %rax
	je	.LBB44_6
.LBB44_17:
	movzbl	(%rcx), %edx
	movl	$1, %r8d
	testb	%dl, %dl
	jns	.LBB44_16
	movzbl	1(%rcx), %esi
	andl	$63, %esi
	cmpb	$-33, %dl
	jbe	.LBB44_15
	movzbl	2(%rcx), %edi
	andl	$63, %edi
	cmpb	$-17, %dl
	ja	.LBB44_21
	shll	$12, %edx
	movzwl	%dx, %edx
	shll	$6, %esi
	orl	%edx, %esi
	orl	%edi, %esi
	movl	$3, %r8d
	movl	%esi, %edx
	jmp	.LBB44_16
.LBB44_21:
	movzbl	3(%rcx), %r8d
	andl	$63, %r8d
	andl	$7, %edx
	shll	$18, %edx
	shll	$12, %esi
	orl	%edx, %esi
	shll	$6, %edi
	orl	%esi, %edi
	orl	%r8d, %edi
	movl	$4, %r8d
	movl	%edi, %edx
	jmp	.LBB44_16
.LBB44_22:
	cmpq	$128, %r14
	jae	.LBB44_27
	xorl	%eax, %eax
	jmp	.LBB44_31
.LBB44_24:
	cmpq	$64, %r14
	jb	.LBB44_40
	xorl	%ecx, %ecx
	movq	%r14, %rdx
	xorl	%eax, %eax
	.p2align	4
.LBB44_26:
	vmovdqu	(%r15,%rcx), %ymm0
	vmovdqu	32(%r15,%rcx), %ymm1
	vpbroadcastd	.LCPI44_4(%rip), %ymm2
	vpbroadcastd	.LCPI44_5(%rip), %ymm3
	vpcmpgtb	%ymm2, %ymm0, %ymm4
	vpmovmskb	%ymm4, %esi
	vpcmpgtb	%ymm2, %ymm1, %ymm2
	vpmovmskb	%ymm2, %edi
	shlq	$32, %rdi
	orq	%rsi, %rdi
	xorl	%esi, %esi
	popcntq	%rdi, %rsi
	addq	%rax, %rsi
	vpmaxub	%ymm3, %ymm0, %ymm2
	vpcmpeqb	%ymm2, %ymm0, %ymm0
	vpmovmskb	%ymm0, %eax
	vpmaxub	%ymm3, %ymm1, %ymm0
	vpcmpeqb	%ymm0, %ymm1, %ymm0
	vpmovmskb	%ymm0, %edi
	shlq	$32, %rdi
	orq	%rax, %rdi
	xorl	%eax, %eax
	popcntq	%rdi, %rax
	addq	%rsi, %rax
	addq	$64, %rcx
	addq	$-64, %rdx
	cmpq	$63, %rdx
	ja	.LBB44_26
	jmp	.LBB44_41
.LBB44_27:
	movq	%r14, %rax
	andq	$-128, %rax
	leaq	(%rbx,%r12), %rcx
	addq	$96, %rcx
	xorl	%edx, %edx
	.p2align	4
.LBB44_28:
	vmovdqu	(%r15,%rdx), %ymm0
	vmovdqu	32(%r15,%rdx), %ymm1
	vmovdqu	64(%r15,%rdx), %ymm2
	vmovdqu	96(%r15,%rdx), %ymm3
	vmovdqu	%ymm0, -96(%rcx,%rdx)
	vmovdqu	%ymm1, -64(%rcx,%rdx)
	vmovdqu	%ymm2, -32(%rcx,%rdx)
	vmovdqu	%ymm3, (%rcx,%rdx)
	subq	$-128, %rdx
	cmpq	%rdx, %rax
	jne	.LBB44_28
	cmpq	%rax, %r14
	je	.LBB44_10
	testb	$120, %r14b
	je	.LBB44_34
.LBB44_31:
	movq	%rax, %rcx
	movq	%r14, %rax
	andq	$-8, %rax
	.p2align	4
.LBB44_32:
	movq	(%r15,%rcx), %rdx
	movq	%rdx, (%rdi,%rcx)
	addq	$8, %rcx
	cmpq	%rcx, %rax
	jne	.LBB44_32
	cmpq	%rax, %r14
	je	.LBB44_10
	jmp	.LBB44_34
.LBB44_40:
	xorl	%eax, %eax
	xorl	%ecx, %ecx
.LBB44_41:
	movq	%r14, %rdx
	subq	%rcx, %rdx
	cmpq	$16, %rdx
	jb	.LBB44_44
	movq	%r14, %rdx
	subq	%rcx, %rdx
	addq	%r15, %rcx
	.p2align	4
.LBB44_43:
	vmovdqu	(%rcx), %xmm0
	vpcmpgtb	.LCPI44_2(%rip), %xmm0, %xmm1
	vpmovmskb	%xmm1, %esi
	popcntl	%esi, %esi
	vpmaxub	.LCPI44_3(%rip), %xmm0, %xmm1
	vpcmpeqb	%xmm1, %xmm0, %xmm0
	vpmovmskb	%xmm0, %edi
	popcntl	%edi, %edi
	addl	%esi, %edi
	addq	%rdi, %rax
	addq	$-16, %rdx
	addq	$16, %rcx
	cmpq	$15, %rdx
	ja	.LBB44_43
.LBB44_44:
	vmovdqu	-16(%r15,%r14), %xmm0
	vpcmpgtb	.LCPI44_2(%rip), %xmm0, %xmm1
	vpmovmskb	%xmm1, %ecx
	movb	$16, %sil
	subb	%dl, %sil
	shrxq	%rsi, %rcx, %rcx
	vpmaxub	.LCPI44_3(%rip), %xmm0, %xmm1
	popcntl	%ecx, %ecx
	vpcmpeqb	%xmm1, %xmm0, %xmm0
	vpmovmskb	%xmm0, %edx
	shrxq	%rsi, %rdx, %rdx
	xorl	%r13d, %r13d
	popcntl	%edx, %r13d
	addq	%rcx, %r13
	addq	%rax, %r13
	addq	%r13, %r13
	jmp	.LBB44_6
.Lfunc_end44:

	.section	.rdata$003,"dr"
	.p2align	5, 0x0
.LCPI45_0:
	.short	255
	.short	255
	.short	255
	.short	255
	.short	255
	.short	255
	.short	255
	.short	255
	.short	255
	.short	255
	.short	255
	.short	255
	.short	255
	.short	255
	.short	255
	.short	255
	.section	.rdata$001,"dr"
	.p2align	2, 0x0
.LCPI45_1:
	.short	255
	.short	255
	.section	.text$053,"xr"
	.p2align	4
L_45:
	pushq	%rbp
	pushq	%r15
	pushq	%r14
	pushq	%rbx
	movq	%rdx, %r8
	leaq	-66(%rsi), %r9
	addq	$-35, %rcx
	xorl	%eax, %eax
	xorl	%edx, %edx
	.p2align	4
.LBB45_1:
	vpbroadcastd	.LCPI45_1(%rip), %ymm0
	vpminuw	32(%rdi,%rax), %ymm0, %ymm1
	vpminuw	(%rdi,%rax), %ymm0, %ymm0
	vpackuswb	%ymm1, %ymm0, %ymm1
	vpermq	$216, %ymm1, %ymm0
	vmovdqu	%ymm0, (%r8,%rdx)
	vpmovmskb	%ymm1, %r10d
	testl	%r10d, %r10d
	je	.LBB45_2
	vpmovmskb	%ymm0, %r10d
	tzcntl	%r10d, %r10d
	leal	(%r10,%r10), %r11d
	movq	%rsi, %rbx
	subq	%rax, %rbx
	subq	%r11, %rbx
	cmpq	$2, %rbx
	jb	.LBB45_13
	leaq	(%rdi,%rax), %r14
	movzbl	1(%r14,%r11), %ebp
	movl	%ebp, %r15d
	andl	$-8, %r15d
	cmpl	$216, %r15d
	jne	.LBB45_13
	movzwl	%bp, %ebp
	notl	%ebp
	testb	$-36, %bpl
	je	.LBB45_8
	cmpq	$4, %rbx
	jb	.LBB45_13
	movzbl	3(%r14,%r11), %ebx
	andb	$-4, %bl
	cmpb	$-36, %bl
	je	.LBB45_13
.LBB45_8:
	leaq	(%r8,%rdx), %rbx
	addq	$2, %r11
	addq	%r10, %rbx
	addq	$3, %r10
	leaq	.Lstatic.9(%rip), %r14
	movq	%rbx, %r15
	subq	%r14, %r15
	cmpq	$2, %r15
	ja	.LBB45_10
	movw	$-16401, (%rbx)
	movb	$-67, 2(%rbx)
	addq	%r11, %rax
	addq	%r10, %rdx
	cmpq	%r9, %rax
	jbe	.LBB45_12
	jmp	.LBB45_13
	.p2align	4
.LBB45_2:
	movl	$64, %r11d
	movl	$32, %r10d
	addq	%r11, %rax
	addq	%r10, %rdx
	cmpq	%r9, %rax
	jbe	.LBB45_12
	jmp	.LBB45_13
	.p2align	4
.LBB45_10:
	movb	$-67, 2(%rbx)
	movw	$-16401, (%rbx)
	addq	%r11, %rax
	addq	%r10, %rdx
	cmpq	%r9, %rax
	ja	.LBB45_13
.LBB45_12:
	cmpq	%rcx, %rdx
	jbe	.LBB45_1
.LBB45_13:
	popq	%rbx
	popq	%r14
	popq	%r15
	popq	%rbp
	vzeroupper
	retq
.Lfunc_end45:

	.section	.text$054,"xr"
	.p2align	4
L_46:
	pushq	%r15
	pushq	%r14
	pushq	%r13
	pushq	%r12
	pushq	%rbx
	subq	$1024, %rsp
	movq	%rdx, %rbx
	movq	%rdi, %r15
	leaq	-128(%rcx), %rdx
	movabsq	$-6148914691236517205, %rax
	mulxq	%rax, %rax, %rax
	andq	$-2, %rax
	cmpq	%rsi, %rax
	cmovaeq	%rsi, %rax
	cmpq	$1024, %rax
	movl	$1024, %r14d
	cmovbq	%rax, %r14
	movq	%rsp, %rdi
	movl	$1024, %edx
	xorl	%esi, %esi
	callq	sysv_memset
	andq	$2046, %r14
	je	.LBB46_3
	movzbl	-1(%r15,%r14), %eax
	andb	$-4, %al
	cmpb	$-40, %al
	jne	.LBB46_3
	addq	$-2, %r14
.LBB46_3:
	movq	%rsp, %rdi
	movq	%r15, %rsi
	movq	%r14, %rdx
	callq	sysv_memcpy
	movq	%r14, %r15
	andq	$-2, %r15
	je	.LBB46_13
	xorl	%r12d, %r12d
	jmp	.LBB46_5
	.p2align	4
.LBB46_11:
	movw	$-3, (%rsp,%r12)
	movl	$2, %eax
	addq	%rax, %r12
	cmpq	%r15, %r12
	jae	.LBB46_13
.LBB46_5:
	movq	%r15, %rax
	subq	%r12, %rax
	cmpq	$2, %rax
	jb	.LBB46_11
	movzbl	1(%rsp,%r12), %ecx
	movl	%ecx, %edx
	andl	$-8, %edx
	movl	$2, %r13d
	cmpl	$216, %edx
	jne	.LBB46_10
	cmpq	$4, %rax
	jb	.LBB46_11
	movzwl	%cx, %eax
	andl	$-36, %eax
	movzwl	%ax, %eax
	cmpl	$220, %eax
	je	.LBB46_11
	movzbl	3(%rsp,%r12), %eax
	andb	$-4, %al
	movl	$4, %r13d
	cmpb	$-36, %al
	jne	.LBB46_11
	.p2align	4
.LBB46_10:
	leaq	(%r12,%r13), %rax
	leaq	(%rsp,%rax), %rdi
	movq	%r15, %rsi
	subq	%rax, %rsi
	callq	L_11
	addq	%r13, %rax
	addq	%rax, %r12
	cmpq	%r15, %r12
	jb	.LBB46_5
.LBB46_13:
	movq	%rsp, %rdi
	movq	%r14, %rsi
	movq	%rbx, %rdx
	callq	L_43
	movq	%rax, %rdx
	movq	%r14, %rax
	addq	$1024, %rsp
	popq	%rbx
	popq	%r12
	popq	%r13
	popq	%r14
	popq	%r15
	retq
.Lfunc_end46:

	.section	.rdata$000,"dr"
	.p2align	4, 0x0
.LCPI47_0:
	.zero	16,192
.LCPI47_1:
	.zero	16,191
.LCPI47_2:
	.zero	16,223
.LCPI47_3:
	.zero	16,239
.LCPI47_4:
	.zero	16,159
.LCPI47_5:
	.zero	16,237
.LCPI47_6:
	.zero	16,224
.LCPI47_7:
	.zero	16,143
.LCPI47_8:
	.zero	16,245
.LCPI47_9:
	.zero	16,244
.LCPI47_10:
	.zero	16,240
.LCPI47_11:
	.zero	16,254
.LCPI47_12:
	.byte	1
	.byte	2
	.byte	3
	.byte	4
	.byte	5
	.byte	6
	.byte	7
	.byte	8
	.byte	9
	.byte	10
	.byte	11
	.byte	12
	.byte	13
	.byte	14
	.byte	15
	.byte	16
.LCPI47_13:
	.zero	16,15
.LCPI47_14:
	.zero	16,220
.LCPI47_15:
	.zero	16,252
.LCPI47_16:
	.zero	16,3
.LCPI47_17:
	.zero	16,63
.LCPI47_18:
	.zero	16,232
.LCPI47_19:
	.zero	16,127
	.section	.rdata$001,"dr"
	.p2align	2, 0x0
.LCPI47_20:
	.zero	4,192
.LCPI47_21:
	.zero	4,237
.LCPI47_22:
	.zero	4,244
.LCPI47_23:
	.zero	4,191
.LCPI47_24:
	.zero	4,15
	.section	.text$055,"xr"
	.p2align	4
L_47:
	pushq	%rbp
	pushq	%r15
	pushq	%r14
	pushq	%r12
	pushq	%rbx
	movq	%rcx, %rbx
	cmpq	$7, %rsi
	ja	.LBB47_16
	movq	%rbx, %rax
	shrq	%rax
	cmpq	%rsi, %rax
	cmovaeq	%rsi, %rax
	testq	%rax, %rax
	je	.LBB47_22
	movsbl	(%rdi), %ecx
	testw	%cx, %cx
	js	.LBB47_22
	movswl	%cx, %ecx
	shll	$8, %ecx
	movw	%cx, (%rdx)
	movl	$2, %r9d
	cmpq	$1, %rax
	je	.LBB47_84
	movsbl	1(%rdi), %ecx
	testw	%cx, %cx
	js	.LBB47_33
	movswl	%cx, %ecx
	shll	$8, %ecx
	movw	%cx, 2(%rdx)
	movl	$4, %r9d
	cmpq	$2, %rax
	je	.LBB47_84
	movsbl	2(%rdi), %ecx
	testw	%cx, %cx
	js	.LBB47_36
	movswl	%cx, %ecx
	shll	$8, %ecx
	movw	%cx, 4(%rdx)
	movl	$6, %r9d
	cmpq	$3, %rax
	je	.LBB47_84
	movsbl	3(%rdi), %ecx
	testw	%cx, %cx
	js	.LBB47_78
	movswl	%cx, %ecx
	shll	$8, %ecx
	movw	%cx, 6(%rdx)
	movl	$8, %r9d
	cmpq	$4, %rax
	je	.LBB47_84
	movsbl	4(%rdi), %ecx
	testw	%cx, %cx
	js	.LBB47_79
	movswl	%cx, %ecx
	shll	$8, %ecx
	movw	%cx, 8(%rdx)
	movl	$10, %r9d
	cmpq	$5, %rax
	je	.LBB47_84
	movsbl	5(%rdi), %ecx
	testw	%cx, %cx
	js	.LBB47_80
	movswl	%cx, %ecx
	shll	$8, %ecx
	movw	%cx, 10(%rdx)
	movl	$12, %r9d
	cmpq	$6, %rax
	je	.LBB47_84
	movsbl	6(%rdi), %ecx
	testw	%cx, %cx
	js	.LBB47_81
	movswl	%cx, %ecx
	shll	$8, %ecx
	movw	%cx, 12(%rdx)
	movl	$14, %r9d
	jmp	.LBB47_84
.LBB47_16:
	cmpq	$16, %rsi
	ja	.LBB47_23
	cmpq	$32, %rbx
	jb	.LBB47_21
	vmovq	-8(%rdi,%rsi), %xmm1
	vmovq	(%rdi), %xmm0
	vpunpcklqdq	%xmm1, %xmm0, %xmm0
	movq	%rsi, %rax
	shlq	$4, %rax
	leaq	.Lstatic.1(%rip), %rcx
	vpshufb	-128(%rax,%rcx), %xmm0, %xmm0
	vpmovmskb	%xmm0, %eax
	testl	%eax, %eax
	je	.LBB47_27
	vpextrb	$5, %xmm1, %eax
	vpextrb	$6, %xmm1, %ecx
	vpextrb	$7, %xmm1, %r8d
	cmpb	$-64, %r8b
	setae	%r8b
	cmpb	$-32, %cl
	setae	%cl
	orb	%r8b, %cl
	cmpb	$-16, %al
	setae	%al
	orb	%cl, %al
	jne	.LBB47_21
	leaq	.Lstatic.2(%rip), %rax
	subq	%rsi, %rax
	vpmaxub	16(%rax), %xmm0, %xmm1
	vpslldq	$1, %xmm1, %xmm0
	vpslldq	$2, %xmm1, %xmm3
	vpslldq	$3, %xmm1, %xmm4
	vpbroadcastd	.LCPI47_20(%rip), %xmm2
	vpcmpgtb	%xmm1, %xmm2, %xmm5
	vpsubusb	.LCPI47_1(%rip), %xmm0, %xmm6
	vpsubusb	.LCPI47_2(%rip), %xmm3, %xmm7
	vpsubusb	.LCPI47_3(%rip), %xmm4, %xmm4
	vpmaxub	%xmm7, %xmm6, %xmm6
	vpor	%xmm4, %xmm6, %xmm4
	vpxor	%xmm6, %xmm6, %xmm6
	vpcmpgtb	%xmm6, %xmm4, %xmm4
	vpxor	%xmm4, %xmm5, %xmm4
	vpminub	.LCPI47_4(%rip), %xmm1, %xmm5
	vpcmpeqb	%xmm5, %xmm1, %xmm5
	vpbroadcastd	.LCPI47_21(%rip), %xmm6
	vpblendvb	%xmm5, .LCPI47_6(%rip), %xmm6, %xmm5
	vpcmpeqb	%xmm5, %xmm0, %xmm5
	vpminub	.LCPI47_7(%rip), %xmm1, %xmm6
	vpcmpeqb	%xmm6, %xmm1, %xmm6
	vpmaxub	.LCPI47_8(%rip), %xmm1, %xmm7
	vpcmpeqb	%xmm7, %xmm1, %xmm7
	vpbroadcastd	.LCPI47_22(%rip), %xmm8
	vpblendvb	%xmm6, .LCPI47_10(%rip), %xmm8, %xmm6
	vpcmpeqb	%xmm6, %xmm0, %xmm6
	vpor	%xmm5, %xmm6, %xmm5
	vpor	%xmm7, %xmm5, %xmm5
	vpand	.LCPI47_11(%rip), %xmm1, %xmm6
	vpcmpeqb	%xmm2, %xmm6, %xmm6
	vpor	%xmm4, %xmm6, %xmm4
	vpor	%xmm4, %xmm5, %xmm4
	vmovd	%esi, %xmm5
	vpbroadcastb	%xmm5, %xmm5
	vpmaxub	.LCPI47_12(%rip), %xmm5, %xmm6
	vpcmpeqb	%xmm6, %xmm5, %xmm5
	vpsllw	$7, %xmm4, %xmm4
	vpand	%xmm4, %xmm5, %xmm4
	vpmovmskb	%xmm4, %eax
	testl	%eax, %eax
	je	.LBB47_35
.LBB47_21:
	xorl	%r9d, %r9d
	xorl	%eax, %eax
	cmpq	$31, %rsi
	jbe	.LBB47_45
	jmp	.LBB47_32
.LBB47_22:
	xorl	%r9d, %r9d
	xorl	%eax, %eax
	jmp	.LBB47_84
.LBB47_23:
	movq	%rbx, %rcx
	shrq	%rcx
	cmpq	%rsi, %rcx
	cmovaeq	%rsi, %rcx
	cmpq	$32, %rbx
	jb	.LBB47_24
	vmovdqu	(%rdi), %xmm0
	vpmovmskb	%xmm0, %eax
	testl	%eax, %eax
	je	.LBB47_28
.LBB47_24:
	xorl	%eax, %eax
	leaq	(%rax,%rax), %r9
	movq	%rsi, %rcx
	subq	%rax, %rcx
	je	.LBB47_31
.LBB47_38:
	movq	%rdi, %r15
	cmpq	$191, %rcx
	ja	.LBB47_40
	movq	%rsi, %r12
	movq	%rdx, %r14
	movq	%rbx, %rcx
	movq	%rax, %r8
	vzeroupper
	callq	L_48
	movq	%r15, %rdi
	movq	%r12, %rsi
	movq	%rdx, %r9
	movq	%r14, %rdx
	cmpq	$31, %rsi
	jbe	.LBB47_45
	jmp	.LBB47_32
.LBB47_40:
	movq	%rsi, %r14
	movq	%rdx, %r12
	movq	%rbx, %rcx
	movq	%rax, %r8
	vzeroupper
	callq	L_49
	movq	%rdx, %r9
	movq	%r14, %rcx
	subq	%rax, %rcx
	cmpq	$191, %rcx
	jbe	.LBB47_42
	movq	%r14, %rsi
	movq	%r12, %rdx
	movq	%r15, %rdi
	cmpq	$31, %rsi
	jbe	.LBB47_45
	jmp	.LBB47_32
.LBB47_27:
	vpmovzxbw	%xmm0, %ymm0
	vpsllw	$8, %ymm0, %ymm0
	vmovdqu	%ymm0, (%rdx)
	leaq	(%rsi,%rsi), %r9
	movq	%rsi, %rax
	cmpq	$31, %rsi
	jbe	.LBB47_45
	jmp	.LBB47_32
.LBB47_28:
	cmpq	$31, %rcx
	ja	.LBB47_34
	vpmovzxbw	%xmm0, %ymm0
	vpsllw	$8, %ymm0, %ymm0
	vmovdqu	%ymm0, (%rdx)
	vmovdqu	-16(%rcx,%rdi), %xmm0
	vpmovmskb	%xmm0, %r8d
	movl	$16, %eax
	testl	%r8d, %r8d
	je	.LBB47_37
	leaq	(%rax,%rax), %r9
	movq	%rsi, %rcx
	subq	%rax, %rcx
	jne	.LBB47_38
.LBB47_31:
	cmpq	$31, %rsi
	jbe	.LBB47_45
.LBB47_32:
	movq	%r9, %rdx
	popq	%rbx
	popq	%r12
	popq	%r14
	popq	%r15
	popq	%rbp
	vzeroupper
	retq
.LBB47_33:
	movl	$1, %eax
	jmp	.LBB47_84
.LBB47_42:
	movq	%r15, %rdi
	movq	%r14, %rsi
	movq	%r12, %rdx
	movq	%rbx, %rcx
	movq	%rax, %r8
	callq	L_48
	movq	%r15, %rdi
	movq	%r14, %rsi
	movq	%rdx, %r9
	movq	%r12, %rdx
	cmpq	$31, %rsi
	jbe	.LBB47_45
	jmp	.LBB47_32
.LBB47_34:
	movq	%rdi, %r14
	movq	%rsi, %r12
	movq	%rcx, %rsi
	movq	%rdx, %r15
	callq	L_50
	movq	%r14, %rdi
	movq	%r12, %rsi
	movq	%r15, %rdx
	leaq	(%rax,%rax), %r9
	movq	%rsi, %rcx
	subq	%rax, %rcx
	je	.LBB47_31
	jmp	.LBB47_38
.LBB47_35:
	vpblendvb	%xmm1, %xmm0, %xmm2, %xmm5
	vpbroadcastd	.LCPI47_23(%rip), %xmm4
	vpmaxub	.LCPI47_6(%rip), %xmm3, %xmm6
	vpsrlw	$2, %xmm5, %xmm7
	vpbroadcastd	.LCPI47_24(%rip), %xmm8
	vpand	%xmm7, %xmm8, %xmm7
	vpsllw	$4, %xmm6, %xmm6
	vpandn	%xmm6, %xmm8, %xmm6
	vpor	%xmm6, %xmm7, %xmm6
	vpmaxub	%xmm3, %xmm5, %xmm7
	vpminub	%xmm4, %xmm7, %xmm8
	vpcmpeqb	%xmm7, %xmm8, %xmm7
	vpand	.LCPI47_14(%rip), %xmm7, %xmm7
	vpor	%xmm7, %xmm6, %xmm6
	vpsllw	$2, %xmm0, %xmm7
	vpand	.LCPI47_15(%rip), %xmm7, %xmm7
	vpsrlw	$4, %xmm1, %xmm8
	vpand	.LCPI47_16(%rip), %xmm8, %xmm8
	vpminub	.LCPI47_17(%rip), %xmm7, %xmm9
	vpcmpeqb	%xmm7, %xmm9, %xmm9
	vpaddb	%xmm3, %xmm9, %xmm9
	vpaddb	.LCPI47_18(%rip), %xmm9, %xmm9
	vpor	%xmm7, %xmm8, %xmm7
	vpminub	.LCPI47_3(%rip), %xmm3, %xmm8
	vpcmpeqb	%xmm3, %xmm8, %xmm3
	vpblendvb	%xmm3, %xmm6, %xmm9, %xmm6
	vpand	.LCPI47_19(%rip), %xmm1, %xmm8
	vpaddb	%xmm2, %xmm7, %xmm7
	vpsllw	$6, %xmm5, %xmm5
	vpand	%xmm2, %xmm5, %xmm2
	vpaddb	%xmm2, %xmm8, %xmm2
	vpblendvb	%xmm3, %xmm2, %xmm7, %xmm2
	vpunpcklbw	%xmm2, %xmm6, %xmm3
	vpminub	%xmm4, %xmm1, %xmm4
	vpcmpeqb	%xmm4, %xmm1, %xmm1
	vpminub	.LCPI47_2(%rip), %xmm0, %xmm4
	vpcmpeqb	%xmm4, %xmm0, %xmm0
	vpand	%xmm0, %xmm1, %xmm0
	vpmovmskb	%xmm0, %eax
	movzbl	%al, %ecx
	popcntl	%ecx, %r8d
	shll	$4, %ecx
	leaq	.Lstatic.10(%rip), %r10
	vpshufb	(%rcx,%r10), %xmm3, %xmm0
	vpunpckhbw	%xmm2, %xmm6, %xmm1
	vmovdqu	%xmm0, (%rdx)
	shrl	$8, %eax
	popcntl	%eax, %r9d
	shll	$4, %eax
	vpshufb	(%rax,%r10), %xmm1, %xmm0
	vmovdqu	%xmm0, (%rdx,%r8,2)
	addl	%r8d, %r9d
	addl	%r9d, %r9d
	movq	%rsi, %rax
	cmpq	$31, %rsi
	jbe	.LBB47_45
	jmp	.LBB47_32
	.p2align	4
.LBB47_43:
	leal	67043328(%rcx), %r11d
	shrl	$10, %r11d
	addl	$-10240, %r11d
	rolw	$8, %r11w
	andl	$1023, %ecx
	orl	$56320, %ecx
	movbew	%cx, 2(%rdx,%r9)
	movl	$4, %r10d
	movl	%r11d, %ecx
.LBB47_44:
	movw	%cx, (%rdx,%r9)
	addq	%r10, %r9
	addq	%r8, %rax
.LBB47_45:
	cmpq	%rsi, %rax
	jae	.LBB47_32
	movzbl	(%rdi,%rax), %ecx
	testb	%cl, %cl
	js	.LBB47_51
	movl	$1, %r8d
.LBB47_48:
	movq	%rbx, %r10
	subq	%r9, %r10
	xorl	%r11d, %r11d
	cmpl	$65536, %ecx
	setae	%r11b
	leaq	2(,%r11,2), %r11
	cmpq	%r11, %r10
	jb	.LBB47_32
	cmpl	$65535, %ecx
	ja	.LBB47_43
	rolw	$8, %cx
	movl	$2, %r10d
	jmp	.LBB47_44
	.p2align	4
.LBB47_51:
	movq	%rsi, %r10
	subq	%rax, %r10
	cmpq	$3, %r10
	jb	.LBB47_55
	leal	31(%rcx), %r8d
	cmpb	$11, %r8b
	ja	.LBB47_56
	movzbl	1(%rdi,%rax), %r8d
	cmpb	$-65, %r8b
	jg	.LBB47_56
	movzbl	2(%rdi,%rax), %r11d
	cmpb	$-65, %r11b
	jg	.LBB47_56
	jmp	.LBB47_61
.LBB47_55:
	cmpq	$2, %r10
	jne	.LBB47_32
.LBB47_56:
	movzbl	1(%rdi,%rax), %r8d
	movl	%ecx, %r11d
	shrb	$4, %r11b
	andb	$12, %r11b
	movl	%r8d, %ebp
	shrb	$6, %bpl
	orb	%r11b, %bpl
	cmpb	$14, %bpl
	jne	.LBB47_32
	leal	31(%rcx), %r11d
	cmpb	$12, %r11b
	jae	.LBB47_62
.LBB47_58:
	cmpq	$2, %r10
	je	.LBB47_32
	movzbl	2(%rdi,%rax), %r11d
	cmpb	$-65, %r11b
	jg	.LBB47_32
	cmpb	$-17, %cl
	ja	.LBB47_66
.LBB47_61:
	shll	$12, %ecx
	shll	$6, %r8d
	addl	%ecx, %r8d
	leal	(%r11,%r8), %ecx
	addl	$-925824, %ecx
	movl	$3, %r8d
	jmp	.LBB47_48
.LBB47_62:
	leal	62(%rcx), %r11d
	cmpb	$30, %r11b
	jb	.LBB47_77
	movb	$-65, %bpl
	leal	-224(%rcx), %r14d
	cmpl	$20, %r14d
	ja	.LBB47_72
	leaq	.LJTI47_0(%rip), %r15
	movslq	(%r15,%r14,4), %r14
	addq	%r15, %r14
	jmpq	*%r14
.LBB47_65:
	movb	$-96, %r14b
	jmp	.LBB47_73
.LBB47_66:
	cmpq	$4, %r10
	jb	.LBB47_32
	movzbl	3(%rdi,%rax), %r10d
	cmpb	$-65, %r10b
	jg	.LBB47_32
	shll	$18, %ecx
	shll	$12, %r8d
	addl	%ecx, %r8d
	shll	$6, %r11d
	addl	%r8d, %r11d
	leal	(%r10,%r11), %ecx
	addl	$-63447168, %ecx
	movl	$4, %r8d
	jmp	.LBB47_48
.LBB47_69:
	movb	$-112, %r14b
	jmp	.LBB47_73
.LBB47_70:
	movb	$-97, %bpl
	jmp	.LBB47_72
.LBB47_71:
	movb	$-113, %bpl
.LBB47_72:
	movb	$-128, %r14b
.LBB47_73:
	cmpb	$50, %r11b
	ja	.LBB47_32
	cmpb	%r8b, %r14b
	ja	.LBB47_32
	cmpb	%bpl, %r8b
	ja	.LBB47_32
	cmpb	$-33, %cl
	ja	.LBB47_58
.LBB47_77:
	shll	$6, %ecx
	addl	%r8d, %ecx
	addl	$-12416, %ecx
	movl	$2, %r8d
	jmp	.LBB47_48
.LBB47_36:
	movl	$2, %eax
	jmp	.LBB47_84
.LBB47_37:
	vpmovzxbw	%xmm0, %ymm0
	vpsllw	$8, %ymm0, %ymm0
	vmovdqu	%ymm0, -32(%rdx,%rcx,2)
	movq	%rcx, %rax
	leaq	(%rax,%rax), %r9
	movq	%rsi, %rcx
	subq	%rax, %rcx
	je	.LBB47_31
	jmp	.LBB47_38
.LBB47_78:
	movl	$3, %eax
	jmp	.LBB47_84
.LBB47_79:
	movl	$4, %eax
	jmp	.LBB47_84
.LBB47_80:
	movl	$5, %eax
	jmp	.LBB47_84
.LBB47_81:
	movl	$6, %eax
	jmp	.LBB47_84
	.p2align	4
.LBB47_82:
	leal	67043328(%rcx), %r11d
	shrl	$10, %r11d
	addl	$-10240, %r11d
	rolw	$8, %r11w
	andl	$1023, %ecx
	orl	$56320, %ecx
	movbew	%cx, 2(%rdx,%r9)
	movl	$4, %r10d
	movl	%r11d, %ecx
.LBB47_83:
	movw	%cx, (%rdx,%r9)
	addq	%r10, %r9
	addq	%r8, %rax
.LBB47_84:
	cmpq	%rsi, %rax
	jae	.LBB47_32
	movzbl	(%rdi,%rax), %ecx
	testb	%cl, %cl
	js	.LBB47_90
	movl	$1, %r8d
.LBB47_87:
	movq	%rbx, %r10
	subq	%r9, %r10
	xorl	%r11d, %r11d
	cmpl	$65536, %ecx
	setae	%r11b
	leaq	2(,%r11,2), %r11
	cmpq	%r11, %r10
	jb	.LBB47_32
	cmpl	$65535, %ecx
	ja	.LBB47_82
	rolw	$8, %cx
	movl	$2, %r10d
	jmp	.LBB47_83
	.p2align	4
.LBB47_90:
	movq	%rsi, %r10
	subq	%rax, %r10
	cmpq	$3, %r10
	jb	.LBB47_94
	leal	31(%rcx), %r8d
	cmpb	$11, %r8b
	ja	.LBB47_95
	movzbl	1(%rdi,%rax), %r8d
	cmpb	$-65, %r8b
	jg	.LBB47_95
	movzbl	2(%rdi,%rax), %r11d
	cmpb	$-65, %r11b
	jg	.LBB47_95
	jmp	.LBB47_100
.LBB47_94:
	cmpq	$2, %r10
	jne	.LBB47_32
.LBB47_95:
	movzbl	1(%rdi,%rax), %r8d
	movl	%ecx, %r11d
	shrb	$4, %r11b
	andb	$12, %r11b
	movl	%r8d, %ebp
	shrb	$6, %bpl
	orb	%r11b, %bpl
	cmpb	$14, %bpl
	jne	.LBB47_32
	leal	31(%rcx), %r11d
	cmpb	$12, %r11b
	jae	.LBB47_101
.LBB47_97:
	cmpq	$2, %r10
	je	.LBB47_32
	movzbl	2(%rdi,%rax), %r11d
	cmpb	$-65, %r11b
	jg	.LBB47_32
	cmpb	$-17, %cl
	ja	.LBB47_105
.LBB47_100:
	shll	$12, %ecx
	shll	$6, %r8d
	addl	%ecx, %r8d
	leal	(%r11,%r8), %ecx
	addl	$-925824, %ecx
	movl	$3, %r8d
	jmp	.LBB47_87
.LBB47_101:
	leal	62(%rcx), %r11d
	cmpb	$30, %r11b
	jb	.LBB47_116
	movb	$-65, %bpl
	leal	-224(%rcx), %r14d
	cmpl	$20, %r14d
	ja	.LBB47_111
	leaq	.LJTI47_1(%rip), %r15
	movslq	(%r15,%r14,4), %r14
	addq	%r15, %r14
	jmpq	*%r14
.LBB47_104:
	movb	$-96, %r14b
	jmp	.LBB47_112
.LBB47_105:
	cmpq	$4, %r10
	jb	.LBB47_32
	movzbl	3(%rdi,%rax), %r10d
	cmpb	$-65, %r10b
	jg	.LBB47_32
	shll	$18, %ecx
	shll	$12, %r8d
	addl	%ecx, %r8d
	shll	$6, %r11d
	addl	%r8d, %r11d
	leal	(%r10,%r11), %ecx
	addl	$-63447168, %ecx
	movl	$4, %r8d
	jmp	.LBB47_87
.LBB47_108:
	movb	$-112, %r14b
	jmp	.LBB47_112
.LBB47_109:
	movb	$-97, %bpl
	jmp	.LBB47_111
.LBB47_110:
	movb	$-113, %bpl
.LBB47_111:
	movb	$-128, %r14b
.LBB47_112:
	cmpb	$50, %r11b
	ja	.LBB47_32
	cmpb	%r8b, %r14b
	ja	.LBB47_32
	cmpb	%bpl, %r8b
	ja	.LBB47_32
	cmpb	$-33, %cl
	ja	.LBB47_97
.LBB47_116:
	shll	$6, %ecx
	addl	%r8d, %ecx
	addl	$-12416, %ecx
	movl	$2, %r8d
	jmp	.LBB47_87
.Lfunc_end47:
	.section	.rdata$056,"dr"
	.p2align	2, 0x0
.LJTI47_0:
	.long	.LBB47_65-.LJTI47_0
	.long	.LBB47_72-.LJTI47_0
	.long	.LBB47_72-.LJTI47_0
	.long	.LBB47_72-.LJTI47_0
	.long	.LBB47_72-.LJTI47_0
	.long	.LBB47_72-.LJTI47_0
	.long	.LBB47_72-.LJTI47_0
	.long	.LBB47_72-.LJTI47_0
	.long	.LBB47_72-.LJTI47_0
	.long	.LBB47_72-.LJTI47_0
	.long	.LBB47_72-.LJTI47_0
	.long	.LBB47_72-.LJTI47_0
	.long	.LBB47_72-.LJTI47_0
	.long	.LBB47_70-.LJTI47_0
	.long	.LBB47_72-.LJTI47_0
	.long	.LBB47_72-.LJTI47_0
	.long	.LBB47_69-.LJTI47_0
	.long	.LBB47_72-.LJTI47_0
	.long	.LBB47_72-.LJTI47_0
	.long	.LBB47_72-.LJTI47_0
	.long	.LBB47_71-.LJTI47_0
.LJTI47_1:
	.long	.LBB47_104-.LJTI47_1
	.long	.LBB47_111-.LJTI47_1
	.long	.LBB47_111-.LJTI47_1
	.long	.LBB47_111-.LJTI47_1
	.long	.LBB47_111-.LJTI47_1
	.long	.LBB47_111-.LJTI47_1
	.long	.LBB47_111-.LJTI47_1
	.long	.LBB47_111-.LJTI47_1
	.long	.LBB47_111-.LJTI47_1
	.long	.LBB47_111-.LJTI47_1
	.long	.LBB47_111-.LJTI47_1
	.long	.LBB47_111-.LJTI47_1
	.long	.LBB47_111-.LJTI47_1
	.long	.LBB47_109-.LJTI47_1
	.long	.LBB47_111-.LJTI47_1
	.long	.LBB47_111-.LJTI47_1
	.long	.LBB47_108-.LJTI47_1
	.long	.LBB47_111-.LJTI47_1
	.long	.LBB47_111-.LJTI47_1
	.long	.LBB47_111-.LJTI47_1
	.long	.LBB47_110-.LJTI47_1

	.section	.text$057,"xr"
	.p2align	4
L_50:
	xorl	%eax, %eax
	cmpq	$64, %rsi
	jb	.LBB48_4
	movq	%rsi, %rcx
	.p2align	4
.LBB48_2:
	vmovdqu	(%rdi,%rax), %xmm3
	vmovdqu	16(%rdi,%rax), %xmm2
	vmovdqu	32(%rdi,%rax), %xmm1
	vmovdqu	48(%rdi,%rax), %xmm0
	vpor	%xmm2, %xmm3, %xmm4
	vpor	%xmm0, %xmm1, %xmm5
	vpor	%xmm5, %xmm4, %xmm4
	vpmovmskb	%xmm4, %r8d
	testl	%r8d, %r8d
	jne	.LBB48_4
	vpmovzxbw	%xmm3, %ymm3
	vpsllw	$8, %ymm3, %ymm3
	vmovdqu	%ymm3, (%rdx,%rax,2)
	vpmovzxbw	%xmm2, %ymm2
	vpsllw	$8, %ymm2, %ymm2
	vmovdqu	%ymm2, 32(%rdx,%rax,2)
	vpmovzxbw	%xmm1, %ymm1
	vpsllw	$8, %ymm1, %ymm1
	vmovdqu	%ymm1, 64(%rdx,%rax,2)
	vpmovzxbw	%xmm0, %ymm0
	vpsllw	$8, %ymm0, %ymm0
	vmovdqu	%ymm0, 96(%rdx,%rax,2)
	addq	$64, %rax
	addq	$-64, %rcx
	cmpq	$63, %rcx
	ja	.LBB48_2
.LBB48_4:
	movq	%rsi, %rcx
	subq	%rax, %rcx
	cmpq	$16, %rcx
	jb	.LBB48_7
	.p2align	4
.LBB48_5:
	vmovdqu	(%rdi,%rax), %xmm0
	vpmovmskb	%xmm0, %r8d
	testl	%r8d, %r8d
	jne	.LBB48_9
	vpmovzxbw	%xmm0, %ymm0
	vpsllw	$8, %ymm0, %ymm0
	vmovdqu	%ymm0, (%rdx,%rax,2)
	addq	$16, %rax
	addq	$-16, %rcx
	cmpq	$15, %rcx
	ja	.LBB48_5
.LBB48_7:
	vmovdqu	-16(%rsi,%rdi), %xmm0
	vpmovmskb	%xmm0, %ecx
	testl	%ecx, %ecx
	je	.LBB48_8
.LBB48_9:
	vzeroupper
	retq
.LBB48_8:
	vpmovzxbw	%xmm0, %ymm0
	vpsllw	$8, %ymm0, %ymm0
	vmovdqu	%ymm0, -32(%rdx,%rsi,2)
	movq	%rsi, %rax
	vzeroupper
	retq
.Lfunc_end48:

	.section	.rdata$000,"dr"
	.p2align	4, 0x0
.LCPI49_0:
	.zero	16,224
.LCPI49_1:
	.zero	1
	.byte	255
	.byte	0
	.zero	1
	.byte	255
	.byte	0
	.zero	1
	.byte	255
	.byte	0
	.zero	1
	.byte	255
	.byte	0
	.zero	1
	.byte	255
	.byte	0
	.zero	1
.LCPI49_2:
	.byte	0
	.byte	3
	.byte	6
	.byte	9
	.byte	12
	.byte	15
	.byte	128
	.byte	128
	.byte	128
	.byte	128
	.byte	128
	.byte	128
	.byte	128
	.byte	128
	.byte	128
	.byte	128
.LCPI49_3:
	.byte	128
	.byte	128
	.byte	128
	.byte	128
	.byte	128
	.byte	128
	.byte	2
	.byte	5
	.byte	8
	.byte	11
	.byte	14
	.byte	1
	.byte	4
	.byte	7
	.byte	10
	.byte	13
.LCPI49_4:
	.byte	255
	.zero	1
	.byte	0
	.byte	255
	.zero	1
	.byte	0
	.byte	255
	.zero	1
	.byte	0
	.byte	255
	.zero	1
	.byte	0
	.byte	255
	.zero	1
	.byte	0
	.byte	255
.LCPI49_5:
	.byte	1
	.byte	4
	.byte	7
	.byte	10
	.byte	13
	.byte	128
	.byte	128
	.byte	128
	.byte	128
	.byte	128
	.byte	128
	.byte	128
	.byte	128
	.byte	128
	.byte	128
	.byte	128
.LCPI49_6:
	.byte	128
	.byte	128
	.byte	128
	.byte	128
	.byte	128
	.byte	0
	.byte	3
	.byte	6
	.byte	9
	.byte	12
	.byte	15
	.byte	2
	.byte	5
	.byte	8
	.byte	11
	.byte	14
.LCPI49_7:
	.byte	255
	.byte	0
	.zero	1
	.byte	255
	.byte	0
	.zero	1
	.byte	255
	.byte	0
	.zero	1
	.byte	255
	.byte	0
	.zero	1
	.byte	255
	.byte	0
	.zero	1
	.byte	255
.LCPI49_8:
	.byte	2
	.byte	5
	.byte	8
	.byte	11
	.byte	14
	.byte	128
	.byte	128
	.byte	128
	.byte	128
	.byte	128
	.byte	128
	.byte	128
	.byte	128
	.byte	128
	.byte	128
	.byte	128
.LCPI49_9:
	.byte	128
	.byte	128
	.byte	128
	.byte	128
	.byte	128
	.byte	1
	.byte	4
	.byte	7
	.byte	10
	.byte	13
	.byte	0
	.byte	3
	.byte	6
	.byte	9
	.byte	12
	.byte	15
.LCPI49_10:
	.zero	16,240
.LCPI49_11:
	.zero	16,32
.LCPI49_12:
	.zero	16,192
.LCPI49_13:
	.zero	16,128
.LCPI49_14:
	.zero	16,15
.LCPI49_15:
	.zero	16,7
.LCPI49_16:
	.zero	16,248
.LCPI49_17:
	.zero	16,216
.LCPI49_18:
	.zero	16,63
.LCPI49_19:
	.zero	16,191
.LCPI49_20:
	.zero	16,223
.LCPI49_21:
	.zero	16,239
.LCPI49_22:
	.zero	16,159
.LCPI49_23:
	.zero	16,237
.LCPI49_24:
	.zero	16,143
.LCPI49_25:
	.zero	16,245
.LCPI49_26:
	.zero	16,244
.LCPI49_27:
	.zero	16,254
.LCPI49_28:
	.zero	16,220
.LCPI49_29:
	.zero	16,252
.LCPI49_30:
	.zero	16,232
.LCPI49_31:
	.zero	16,127
	.section	.rdata$001,"dr"
	.p2align	2, 0x0
.LCPI49_32:
	.zero	4,192
.LCPI49_33:
	.zero	4,128
.LCPI49_34:
	.zero	4,254
.LCPI49_35:
	.zero	4,191
.LCPI49_36:
	.zero	4,63
.LCPI49_37:
	.zero	4,127
.LCPI49_38:
	.zero	4,223
.LCPI49_39:
	.zero	4,239
.LCPI49_40:
	.zero	4,159
.LCPI49_41:
	.zero	4,224
.LCPI49_42:
	.zero	4,237
.LCPI49_43:
	.zero	4,143
.LCPI49_44:
	.zero	4,244
.LCPI49_45:
	.zero	4,240
.LCPI49_46:
	.zero	4,245
.LCPI49_47:
	.zero	4,15
.LCPI49_48:
	.zero	4,252
.LCPI49_49:
	.zero	4,232
.LCPI49_50:
	.zero	4,220
	.section	.text$058,"xr"
	.p2align	4
L_49:
	pushq	%rbp
	pushq	%r15
	pushq	%r14
	pushq	%r13
	pushq	%r12
	pushq	%rbx
	subq	$56, %rsp
	movq	%r9, %rbx
	movq	%r8, %rax
	movq	%rcx, %r15
	movq	%rdx, %r12
	movq	%rsi, %r13
	movq	%rdi, %rbp
	jmp	.LBB49_1
	.p2align	4
.LBB49_4:
	shrq	%rsi
	cmpq	%rax, %rsi
	cmovaeq	%rax, %rsi
	leaq	(%r12,%rbx), %rdx
	callq	L_50
	leaq	(%rbx,%rax,2), %rbx
	addq	%r14, %rax
.LBB49_27:
	cmpq	%r14, %rax
	je	.LBB49_28
.LBB49_1:
	movq	%rax, %r14
	movq	%r13, %rax
	subq	%r14, %rax
	cmpq	$64, %rax
	jb	.LBB49_28
	movq	%r15, %rsi
	subq	%rbx, %rsi
	cmpq	$128, %rsi
	jb	.LBB49_28
	leaq	(%r14,%rbp), %rdi
	vmovdqu	(%rbp,%r14), %xmm4
	vmovdqu	16(%rbp,%r14), %xmm5
	vmovdqu	32(%rbp,%r14), %xmm2
	vmovdqu	48(%rbp,%r14), %xmm1
	vpmaxub	%xmm5, %xmm4, %xmm0
	vpmaxub	%xmm1, %xmm2, %xmm3
	vpmaxub	%xmm3, %xmm0, %xmm0
	vpmovmskb	%xmm0, %ecx
	testl	%ecx, %ecx
	je	.LBB49_4
	vpmaxub	.LCPI49_0(%rip), %xmm0, %xmm3
	vpcmpeqb	%xmm3, %xmm0, %xmm3
	vpmovmskb	%xmm3, %eax
	testl	%eax, %eax
	je	.LBB49_6
	vmovd	%xmm4, %eax
	andb	$-16, %al
	cmpb	$-32, %al
	jne	.LBB49_9
	leaq	-32(%r15), %rcx
	subq	%rbx, %rcx
	leaq	-48(%r13), %rdx
	subq	%r14, %rdx
	movq	%r14, %rax
	.p2align	4
.LBB49_11:
	vmovdqu	(%rbp,%rax), %xmm1
	vmovdqu	16(%rbp,%rax), %xmm2
	vmovdqu	32(%rbp,%rax), %xmm4
	vmovdqa	.LCPI49_1(%rip), %xmm3
	vpblendvb	%xmm3, %xmm4, %xmm2, %xmm3
	vpshufb	.LCPI49_2(%rip), %xmm1, %xmm5
	vpshufb	.LCPI49_3(%rip), %xmm3, %xmm3
	vmovdqa	.LCPI49_4(%rip), %xmm6
	vpblendvb	%xmm6, %xmm2, %xmm4, %xmm6
	vpshufb	.LCPI49_5(%rip), %xmm1, %xmm7
	vpshufb	.LCPI49_6(%rip), %xmm6, %xmm6
	vpor	%xmm5, %xmm3, %xmm3
	vmovdqa	.LCPI49_7(%rip), %xmm5
	vpblendvb	%xmm5, %xmm4, %xmm2, %xmm2
	vpshufb	.LCPI49_8(%rip), %xmm1, %xmm1
	vpshufb	.LCPI49_9(%rip), %xmm2, %xmm4
	vpor	%xmm7, %xmm6, %xmm2
	vpor	%xmm1, %xmm4, %xmm1
	vpand	.LCPI49_10(%rip), %xmm3, %xmm4
	vpaddb	.LCPI49_11(%rip), %xmm4, %xmm4
	vpbroadcastd	.LCPI49_32(%rip), %xmm5
	vpand	%xmm5, %xmm2, %xmm6
	vpbroadcastd	.LCPI49_33(%rip), %xmm7
	vpxor	%xmm7, %xmm6, %xmm6
	vpmaxub	%xmm6, %xmm4, %xmm4
	vpand	%xmm5, %xmm1, %xmm5
	vpxor	%xmm7, %xmm5, %xmm5
	vpor	%xmm5, %xmm4, %xmm4
	vptest	%xmm4, %xmm4
	jne	.LBB49_15
	vpsllw	$4, %xmm3, %xmm3
	vpand	.LCPI49_10(%rip), %xmm3, %xmm3
	vpsrlw	$2, %xmm2, %xmm4
	vpand	.LCPI49_14(%rip), %xmm4, %xmm4
	vpor	%xmm3, %xmm4, %xmm3
	vpminub	.LCPI49_15(%rip), %xmm3, %xmm4
	vpand	.LCPI49_16(%rip), %xmm3, %xmm5
	vpcmpeqb	.LCPI49_17(%rip), %xmm5, %xmm5
	vpcmpeqb	%xmm4, %xmm3, %xmm4
	vpor	%xmm5, %xmm4, %xmm4
	vpmovmskb	%xmm4, %esi
	testl	%esi, %esi
	jne	.LBB49_15
	vpsllw	$6, %xmm2, %xmm2
	vpand	.LCPI49_12(%rip), %xmm2, %xmm2
	vpand	.LCPI49_18(%rip), %xmm1, %xmm1
	vpor	%xmm1, %xmm2, %xmm1
	vpunpcklbw	%xmm1, %xmm3, %xmm2
	vmovdqu	%xmm2, (%r12,%rbx)
	vpunpckhbw	%xmm1, %xmm3, %xmm1
	vmovdqu	%xmm1, 16(%r12,%rbx)
	addq	$32, %rbx
	addq	$48, %rax
	subq	$32, %rcx
	setb	%sil
	subq	$48, %rdx
	jb	.LBB49_15
	testb	%sil, %sil
	je	.LBB49_11
	jmp	.LBB49_15
	.p2align	4
.LBB49_6:
	vpslldq	$1, %xmm4, %xmm3
	vpbroadcastd	.LCPI49_32(%rip), %xmm0
	vpcmpgtb	%xmm4, %xmm0, %xmm6
	vpmaxub	%xmm0, %xmm3, %xmm7
	vpcmpeqb	%xmm7, %xmm3, %xmm7
	vpxor	%xmm7, %xmm6, %xmm6
	vpbroadcastd	.LCPI49_34(%rip), %xmm7
	vpand	%xmm7, %xmm4, %xmm8
	vpcmpeqb	%xmm0, %xmm8, %xmm8
	vpor	%xmm6, %xmm8, %xmm6
	vpcmpgtb	%xmm5, %xmm0, %xmm8
	vmovdqu	15(%rdi), %xmm9
	vmovdqu	31(%rdi), %xmm10
	vmovdqu	47(%rdi), %xmm11
	vpmaxub	%xmm0, %xmm9, %xmm12
	vpcmpeqb	%xmm12, %xmm9, %xmm9
	vpxor	%xmm9, %xmm8, %xmm8
	vpand	%xmm7, %xmm5, %xmm5
	vpcmpeqb	%xmm0, %xmm5, %xmm5
	vpor	%xmm5, %xmm8, %xmm5
	vpor	%xmm5, %xmm6, %xmm5
	vpcmpgtb	%xmm2, %xmm0, %xmm6
	vpmaxub	%xmm0, %xmm10, %xmm8
	vpcmpeqb	%xmm8, %xmm10, %xmm8
	vpxor	%xmm6, %xmm8, %xmm6
	vpand	%xmm7, %xmm2, %xmm2
	vpcmpeqb	%xmm0, %xmm2, %xmm2
	vpor	%xmm6, %xmm2, %xmm2
	vpcmpgtb	%xmm1, %xmm0, %xmm6
	vpmaxub	%xmm0, %xmm11, %xmm8
	vpcmpeqb	%xmm8, %xmm11, %xmm8
	vpxor	%xmm6, %xmm8, %xmm6
	vpand	%xmm7, %xmm1, %xmm1
	vpcmpeqb	%xmm0, %xmm1, %xmm1
	vpor	%xmm6, %xmm1, %xmm1
	vpor	%xmm1, %xmm2, %xmm1
	vpor	%xmm1, %xmm5, %xmm1
	vpmovmskb	%xmm1, %eax
	testl	%eax, %eax
	jne	.LBB49_28
	vpsubusb	%xmm0, %xmm3, %xmm5
	vpbroadcastd	.LCPI49_35(%rip), %xmm1
	vpsrlw	$2, %xmm5, %xmm3
	vpbroadcastd	.LCPI49_36(%rip), %xmm2
	vpand	%xmm2, %xmm3, %xmm6
	vpbroadcastd	.LCPI49_37(%rip), %xmm3
	vpand	%xmm3, %xmm4, %xmm7
	vpsllw	$6, %xmm5, %xmm5
	vpand	%xmm0, %xmm5, %xmm5
	vpaddb	%xmm7, %xmm5, %xmm5
	vpminub	%xmm1, %xmm4, %xmm7
	vpcmpeqb	%xmm7, %xmm4, %xmm4
	vpmovmskb	%xmm4, %edx
	vpunpckhbw	%xmm5, %xmm6, %xmm4
	vpunpcklbw	%xmm5, %xmm6, %xmm5
	movzbl	%dl, %ecx
	popcntl	%ecx, %r8d
	shll	$4, %ecx
	leaq	.Lstatic.10(%rip), %rax
	vpshufb	(%rcx,%rax), %xmm5, %xmm5
	leaq	(%r12,%rbx), %rcx
	vmovdqu	%xmm5, (%r12,%rbx)
	shrl	$8, %edx
	popcntl	%edx, %esi
	shll	$4, %edx
	vpshufb	(%rdx,%rax), %xmm4, %xmm4
	vmovdqu	%xmm4, (%rcx,%r8,2)
	addq	%r8, %rsi
	vmovdqu	15(%rdi), %xmm4
	vmovdqu	16(%rdi), %xmm5
	vpsubusb	%xmm0, %xmm4, %xmm4
	vpsrlw	$2, %xmm4, %xmm6
	vpand	%xmm2, %xmm6, %xmm6
	vpand	%xmm3, %xmm5, %xmm7
	vpsllw	$6, %xmm4, %xmm4
	vpand	%xmm0, %xmm4, %xmm4
	vpaddb	%xmm4, %xmm7, %xmm4
	vpminub	%xmm1, %xmm5, %xmm7
	vpcmpeqb	%xmm7, %xmm5, %xmm5
	vpmovmskb	%xmm5, %r8d
	vpunpckhbw	%xmm4, %xmm6, %xmm5
	vpunpcklbw	%xmm4, %xmm6, %xmm4
	movzbl	%r8b, %edx
	popcntl	%edx, %r9d
	shll	$4, %edx
	vpshufb	(%rdx,%rax), %xmm4, %xmm4
	vmovdqu	%xmm4, (%rcx,%rsi,2)
	leaq	(%rcx,%rsi,2), %r10
	shrl	$8, %r8d
	xorl	%edx, %edx
	popcntl	%r8d, %edx
	shll	$4, %r8d
	vpshufb	(%r8,%rax), %xmm5, %xmm4
	vmovdqu	%xmm4, (%r10,%r9,2)
	addq	%rsi, %rdx
	addq	%r9, %rdx
	vmovdqu	31(%rdi), %xmm4
	vmovdqu	32(%rdi), %xmm5
	vpsubusb	%xmm0, %xmm4, %xmm4
	vpsrlw	$2, %xmm4, %xmm6
	vpand	%xmm2, %xmm6, %xmm6
	vpand	%xmm3, %xmm5, %xmm7
	vpsllw	$6, %xmm4, %xmm4
	vpand	%xmm0, %xmm4, %xmm4
	vpaddb	%xmm4, %xmm7, %xmm4
	vpminub	%xmm1, %xmm5, %xmm7
	vpcmpeqb	%xmm7, %xmm5, %xmm5
	vpmovmskb	%xmm5, %r8d
	vpunpckhbw	%xmm4, %xmm6, %xmm5
	vpunpcklbw	%xmm4, %xmm6, %xmm4
	movzbl	%r8b, %esi
	xorl	%r9d, %r9d
	popcntl	%esi, %r9d
	shll	$4, %esi
	vpshufb	(%rsi,%rax), %xmm4, %xmm4
	vmovdqu	%xmm4, (%rcx,%rdx,2)
	leaq	(%rcx,%rdx,2), %r10
	shrl	$8, %r8d
	xorl	%esi, %esi
	popcntl	%r8d, %esi
	shll	$4, %r8d
	vpshufb	(%r8,%rax), %xmm5, %xmm4
	vmovdqu	%xmm4, (%r10,%r9,2)
	addq	%r9, %rsi
	addq	%rdx, %rsi
	vmovdqu	47(%rdi), %xmm4
	vmovdqu	48(%rdi), %xmm5
	vpsubusb	%xmm0, %xmm4, %xmm4
	vpsrlw	$2, %xmm4, %xmm6
	vpand	%xmm2, %xmm6, %xmm2
	vpand	%xmm3, %xmm5, %xmm3
	vpsllw	$6, %xmm4, %xmm4
	vpand	%xmm0, %xmm4, %xmm0
	vpaddb	%xmm0, %xmm3, %xmm0
	vpminub	%xmm1, %xmm5, %xmm1
	vpcmpeqb	%xmm1, %xmm5, %xmm1
	vpmovmskb	%xmm1, %edx
	vpunpckhbw	%xmm0, %xmm2, %xmm1
	vpunpcklbw	%xmm0, %xmm2, %xmm0
	movzbl	%dl, %r8d
	xorl	%r9d, %r9d
	popcntl	%r8d, %r9d
	shll	$4, %r8d
	vpshufb	(%r8,%rax), %xmm0, %xmm0
	vmovdqu	%xmm0, (%rcx,%rsi,2)
	leaq	(%rcx,%rsi,2), %rcx
	shrl	$8, %edx
	xorl	%r8d, %r8d
	popcntl	%edx, %r8d
	shll	$4, %edx
	vpshufb	(%rdx,%rax), %xmm1, %xmm0
	vmovdqu	%xmm0, (%rcx,%r9,2)
	addq	%r9, %r8
	addq	%rsi, %r8
	cmpb	$-64, 63(%rdi)
	leaq	(%rbx,%r8,2), %rbx
	movq	%r14, %rax
	adcq	$-1, %rax
	addq	$64, %rax
	jmp	.LBB49_27
.LBB49_9:
	movq	%r14, %rax
.LBB49_15:
	cmpq	%rax, %r14
	jb	.LBB49_27
	vpmaxub	.LCPI49_10(%rip), %xmm0, %xmm1
	vpcmpeqb	%xmm1, %xmm0, %xmm0
	vpmovmskb	%xmm0, %ecx
	vmovdqu	(%rbp,%rax), %xmm6
	vpslldq	$1, %xmm6, %xmm5
	vpslldq	$2, %xmm6, %xmm7
	testl	%ecx, %ecx
	je	.LBB49_17
	vpslldq	$1, %xmm7, %xmm2
	vpbroadcastd	.LCPI49_32(%rip), %xmm14
	vpcmpgtb	%xmm6, %xmm14, %xmm3
	vpbroadcastd	.LCPI49_35(%rip), %xmm15
	vpsubusb	%xmm15, %xmm5, %xmm4
	vpbroadcastd	.LCPI49_38(%rip), %xmm13
	vmovdqa	%xmm7, 16(%rsp)
	vpsubusb	%xmm13, %xmm7, %xmm8
	vpmaxub	%xmm4, %xmm8, %xmm4
	vpbroadcastd	.LCPI49_39(%rip), %xmm1
	vpsubusb	%xmm1, %xmm2, %xmm2
	vpor	%xmm2, %xmm4, %xmm2
	vpxor	%xmm0, %xmm0, %xmm0
	vpcmpgtb	%xmm0, %xmm2, %xmm2
	vpbroadcastd	.LCPI49_40(%rip), %xmm9
	vpminub	%xmm6, %xmm9, %xmm4
	vpcmpeqb	%xmm4, %xmm6, %xmm4
	vpbroadcastd	.LCPI49_41(%rip), %xmm11
	vpbroadcastd	.LCPI49_42(%rip), %xmm10
	vpblendvb	%xmm4, %xmm11, %xmm10, %xmm4
	vpxor	%xmm2, %xmm3, %xmm2
	vpcmpeqb	%xmm4, %xmm5, %xmm3
	vpbroadcastd	.LCPI49_43(%rip), %xmm8
	vpminub	%xmm6, %xmm8, %xmm4
	vpcmpeqb	%xmm4, %xmm6, %xmm4
	vpmaxub	.LCPI49_25(%rip), %xmm6, %xmm12
	vpcmpeqb	%xmm6, %xmm12, %xmm12
	vpbroadcastd	.LCPI49_44(%rip), %xmm0
	vpblendvb	%xmm4, .LCPI49_10(%rip), %xmm0, %xmm4
	vmovdqa	%xmm5, (%rsp)
	vpcmpeqb	%xmm4, %xmm5, %xmm4
	vpor	%xmm3, %xmm4, %xmm3
	vpor	%xmm3, %xmm12, %xmm3
	vpbroadcastd	.LCPI49_34(%rip), %xmm12
	vpand	%xmm6, %xmm12, %xmm4
	vpcmpeqb	%xmm4, %xmm14, %xmm4
	vpor	%xmm2, %xmm4, %xmm2
	vpor	%xmm2, %xmm3, %xmm5
	vmovdqu	14(%rbp,%rax), %xmm3
	vmovdqu	15(%rbp,%rax), %xmm4
	vpsubusb	%xmm13, %xmm3, %xmm3
	vpsubusb	%xmm15, %xmm4, %xmm0
	vpmaxub	%xmm3, %xmm0, %xmm0
	vmovdqu	13(%rbp,%rax), %xmm3
	vmovdqa	%xmm1, %xmm7
	vpsubusb	%xmm1, %xmm3, %xmm3
	vpor	%xmm3, %xmm0, %xmm0
	vpxor	%xmm1, %xmm1, %xmm1
	vpcmpgtb	%xmm1, %xmm0, %xmm0
	vmovdqu	16(%rbp,%rax), %xmm3
	vpcmpgtb	%xmm3, %xmm14, %xmm1
	vpxor	%xmm0, %xmm1, %xmm0
	vpminub	%xmm3, %xmm9, %xmm1
	vpcmpeqb	%xmm1, %xmm3, %xmm1
	vpblendvb	%xmm1, %xmm11, %xmm10, %xmm1
	vmovdqa	%xmm8, %xmm14
	vpminub	%xmm3, %xmm8, %xmm8
	vpcmpeqb	%xmm3, %xmm8, %xmm8
	vpbroadcastd	.LCPI49_44(%rip), %xmm15
	vpbroadcastd	.LCPI49_45(%rip), %xmm2
	vpblendvb	%xmm8, %xmm2, %xmm15, %xmm8
	vpcmpeqb	%xmm1, %xmm4, %xmm1
	vpcmpeqb	%xmm4, %xmm8, %xmm4
	vpor	%xmm1, %xmm4, %xmm1
	vpbroadcastd	.LCPI49_46(%rip), %xmm11
	vpmaxub	%xmm3, %xmm11, %xmm4
	vpcmpeqb	%xmm4, %xmm3, %xmm4
	vpor	%xmm4, %xmm1, %xmm1
	vpand	%xmm3, %xmm12, %xmm3
	vpbroadcastd	.LCPI49_32(%rip), %xmm8
	vpcmpeqb	%xmm3, %xmm8, %xmm3
	vpor	%xmm0, %xmm3, %xmm0
	vpor	%xmm1, %xmm0, %xmm0
	vpor	%xmm0, %xmm5, %xmm0
	vmovdqa	%xmm0, 32(%rsp)
	vmovdqu	30(%rbp,%rax), %xmm0
	vmovdqu	31(%rbp,%rax), %xmm1
	vpsubusb	%xmm13, %xmm0, %xmm0
	vpsubusb	.LCPI49_19(%rip), %xmm1, %xmm3
	vpmaxub	%xmm0, %xmm3, %xmm0
	vmovdqu	29(%rbp,%rax), %xmm3
	vpsubusb	%xmm7, %xmm3, %xmm3
	vpor	%xmm3, %xmm0, %xmm0
	vpxor	%xmm3, %xmm3, %xmm3
	vpcmpgtb	%xmm3, %xmm0, %xmm0
	vpxor	%xmm5, %xmm5, %xmm5
	vmovdqu	32(%rbp,%rax), %xmm3
	vpcmpgtb	%xmm3, %xmm8, %xmm4
	vmovdqa	%xmm8, %xmm13
	vpxor	%xmm0, %xmm4, %xmm0
	vpminub	%xmm3, %xmm9, %xmm4
	vpcmpeqb	%xmm4, %xmm3, %xmm4
	vpblendvb	%xmm4, .LCPI49_0(%rip), %xmm10, %xmm4
	vpcmpeqb	%xmm4, %xmm1, %xmm4
	vpminub	%xmm3, %xmm14, %xmm8
	vpcmpeqb	%xmm3, %xmm8, %xmm8
	vpblendvb	%xmm8, %xmm2, %xmm15, %xmm8
	vpcmpeqb	%xmm1, %xmm8, %xmm1
	vpor	%xmm4, %xmm1, %xmm1
	vpmaxub	%xmm3, %xmm11, %xmm4
	vpcmpeqb	%xmm4, %xmm3, %xmm4
	vpor	%xmm4, %xmm1, %xmm1
	vpand	%xmm3, %xmm12, %xmm3
	vpcmpeqb	%xmm3, %xmm13, %xmm3
	vpor	%xmm0, %xmm3, %xmm0
	vpor	%xmm1, %xmm0, %xmm3
	vmovdqu	48(%rbp,%rax), %xmm4
	vpminub	%xmm4, %xmm14, %xmm0
	vpcmpeqb	%xmm0, %xmm4, %xmm0
	vpblendvb	%xmm0, %xmm2, %xmm15, %xmm0
	vmovdqa	%xmm13, %xmm15
	vmovdqu	46(%rbp,%rax), %xmm1
	vmovdqu	47(%rbp,%rax), %xmm8
	vpsubusb	.LCPI49_20(%rip), %xmm1, %xmm1
	vpsubusb	.LCPI49_19(%rip), %xmm8, %xmm13
	vpmaxub	%xmm1, %xmm13, %xmm1
	vmovdqu	45(%rbp,%rax), %xmm13
	vpsubusb	.LCPI49_21(%rip), %xmm13, %xmm13
	vpor	%xmm1, %xmm13, %xmm1
	vpcmpgtb	%xmm5, %xmm1, %xmm1
	vpminub	%xmm4, %xmm9, %xmm9
	vpcmpeqb	%xmm4, %xmm9, %xmm9
	vpbroadcastd	.LCPI49_41(%rip), %xmm5
	vpblendvb	%xmm9, %xmm5, %xmm10, %xmm9
	vpcmpgtb	%xmm4, %xmm15, %xmm10
	vpxor	%xmm1, %xmm10, %xmm1
	vpcmpeqb	%xmm9, %xmm8, %xmm9
	vpcmpeqb	%xmm0, %xmm8, %xmm0
	vpor	%xmm0, %xmm9, %xmm0
	vpmaxub	%xmm4, %xmm11, %xmm8
	vpcmpeqb	%xmm4, %xmm8, %xmm8
	vpor	%xmm0, %xmm8, %xmm0
	vpand	%xmm4, %xmm12, %xmm4
	vpcmpeqb	%xmm4, %xmm15, %xmm4
	vpor	%xmm1, %xmm4, %xmm1
	vpor	%xmm0, %xmm1, %xmm0
	vpor	%xmm0, %xmm3, %xmm0
	vpor	32(%rsp), %xmm0, %xmm0
	vpsllw	$7, %xmm0, %xmm0
	vpmovmskb	%xmm0, %ecx
	testl	%ecx, %ecx
	jne	.LBB49_27
	vmovdqa	%xmm5, %xmm7
	vmovdqa	(%rsp), %xmm5
	vpblendvb	%xmm6, %xmm5, %xmm15, %xmm2
	vmovdqa	%xmm7, %xmm0
	vmovdqa	16(%rsp), %xmm7
	vpmaxub	%xmm0, %xmm7, %xmm0
	vpsrlw	$2, %xmm2, %xmm1
	vpbroadcastd	.LCPI49_47(%rip), %xmm11
	vpand	%xmm1, %xmm11, %xmm1
	vpsllw	$4, %xmm0, %xmm0
	vpandn	%xmm0, %xmm11, %xmm0
	vpor	%xmm0, %xmm1, %xmm0
	vpmaxub	%xmm7, %xmm2, %xmm1
	vpbroadcastd	.LCPI49_35(%rip), %xmm9
	vpminub	%xmm1, %xmm9, %xmm3
	vpcmpeqb	%xmm3, %xmm1, %xmm1
	vpand	.LCPI49_28(%rip), %xmm1, %xmm1
	vpor	%xmm1, %xmm0, %xmm0
	vpsllw	$2, %xmm5, %xmm1
	vpbroadcastd	.LCPI49_48(%rip), %xmm14
	vpand	%xmm1, %xmm14, %xmm1
	vpbroadcastd	.LCPI49_36(%rip), %xmm12
	vpminub	%xmm1, %xmm12, %xmm3
	vpcmpeqb	%xmm3, %xmm1, %xmm3
	vpbroadcastd	.LCPI49_49(%rip), %xmm13
	vpaddb	%xmm7, %xmm13, %xmm4
	vpaddb	%xmm4, %xmm3, %xmm3
	vpsrlw	$4, %xmm6, %xmm4
	vpandn	%xmm4, %xmm14, %xmm4
	vpor	%xmm4, %xmm1, %xmm1
	vpbroadcastd	.LCPI49_39(%rip), %xmm10
	vpminub	%xmm7, %xmm10, %xmm4
	vpcmpeqb	%xmm4, %xmm7, %xmm4
	vpblendvb	%xmm4, %xmm0, %xmm3, %xmm0
	vpsllw	$6, %xmm2, %xmm2
	vpand	%xmm2, %xmm15, %xmm2
	vpand	.LCPI49_31(%rip), %xmm6, %xmm3
	vpaddb	%xmm3, %xmm2, %xmm2
	vpaddb	%xmm1, %xmm15, %xmm1
	vpblendvb	%xmm4, %xmm2, %xmm1, %xmm1
	vpminub	%xmm6, %xmm9, %xmm2
	vpcmpeqb	%xmm2, %xmm6, %xmm2
	vpbroadcastd	.LCPI49_38(%rip), %xmm7
	vpminub	%xmm7, %xmm5, %xmm3
	vpcmpeqb	%xmm3, %xmm5, %xmm3
	vpand	%xmm3, %xmm2, %xmm2
	vpmovmskb	%xmm2, %r8d
	vpunpckhbw	%xmm1, %xmm0, %xmm2
	vpunpcklbw	%xmm1, %xmm0, %xmm0
	movzbl	%r8b, %edx
	popcntl	%edx, %esi
	shll	$4, %edx
	leaq	.Lstatic.10(%rip), %rcx
	vpshufb	(%rdx,%rcx), %xmm0, %xmm0
	vmovdqu	%xmm0, (%r12,%rbx)
	leaq	(%r12,%rbx), %rdx
	shrl	$8, %r8d
	popcntl	%r8d, %edi
	shll	$4, %r8d
	vpshufb	(%r8,%rcx), %xmm2, %xmm0
	vmovdqu	%xmm0, (%rdx,%rsi,2)
	vmovdqu	15(%rbp,%rax), %xmm3
	vmovdqu	16(%rbp,%rax), %xmm2
	vpblendvb	%xmm2, %xmm3, %xmm15, %xmm0
	vmovdqu	14(%rbp,%rax), %xmm1
	vpsrlw	$2, %xmm0, %xmm4
	vpand	%xmm4, %xmm11, %xmm4
	vpbroadcastd	.LCPI49_41(%rip), %xmm7
	vpmaxub	%xmm7, %xmm1, %xmm5
	vpsllw	$4, %xmm5, %xmm5
	vpandn	%xmm5, %xmm11, %xmm5
	vpor	%xmm5, %xmm4, %xmm4
	vpmaxub	%xmm1, %xmm0, %xmm5
	vpminub	%xmm5, %xmm9, %xmm6
	vmovdqa	%xmm9, %xmm11
	vpcmpeqb	%xmm6, %xmm5, %xmm5
	vpbroadcastd	.LCPI49_50(%rip), %xmm8
	vpand	%xmm5, %xmm8, %xmm5
	vpor	%xmm5, %xmm4, %xmm4
	vpsllw	$2, %xmm3, %xmm5
	vpand	%xmm5, %xmm14, %xmm5
	vpminub	%xmm5, %xmm12, %xmm6
	vpcmpeqb	%xmm6, %xmm5, %xmm6
	vmovdqa	%xmm13, %xmm9
	vpaddb	%xmm1, %xmm13, %xmm13
	vpaddb	%xmm6, %xmm13, %xmm6
	vpminub	%xmm1, %xmm10, %xmm13
	vpcmpeqb	%xmm1, %xmm13, %xmm1
	vpblendvb	%xmm1, %xmm4, %xmm6, %xmm4
	vpsrlw	$4, %xmm2, %xmm6
	vpandn	%xmm6, %xmm14, %xmm6
	vpor	%xmm6, %xmm5, %xmm5
	vpsllw	$6, %xmm0, %xmm0
	vpand	%xmm0, %xmm15, %xmm0
	vpbroadcastd	.LCPI49_37(%rip), %xmm10
	vpand	%xmm2, %xmm10, %xmm6
	vpaddb	%xmm6, %xmm0, %xmm0
	vpaddb	%xmm5, %xmm15, %xmm5
	vpblendvb	%xmm1, %xmm0, %xmm5, %xmm0
	addl	%esi, %edi
	vpminub	.LCPI49_20(%rip), %xmm3, %xmm1
	vpcmpeqb	%xmm1, %xmm3, %xmm1
	vpminub	%xmm2, %xmm11, %xmm3
	vpcmpeqb	%xmm3, %xmm2, %xmm2
	vpand	%xmm2, %xmm1, %xmm1
	vpmovmskb	%xmm1, %r9d
	vpunpckhbw	%xmm0, %xmm4, %xmm1
	vpunpcklbw	%xmm0, %xmm4, %xmm0
	movzbl	%r9b, %esi
	xorl	%r8d, %r8d
	popcntl	%esi, %r8d
	shll	$4, %esi
	vpshufb	(%rsi,%rcx), %xmm0, %xmm0
	vmovdqu	%xmm0, (%rdx,%rdi,2)
	leaq	(%rdx,%rdi,2), %r10
	shrl	$8, %r9d
	xorl	%esi, %esi
	popcntl	%r9d, %esi
	shll	$4, %r9d
	vpshufb	(%r9,%rcx), %xmm1, %xmm0
	vmovdqu	%xmm0, (%r10,%r8,2)
	vmovdqu	31(%rbp,%rax), %xmm3
	vmovdqu	32(%rbp,%rax), %xmm2
	vpblendvb	%xmm2, %xmm3, %xmm15, %xmm0
	vmovdqu	30(%rbp,%rax), %xmm1
	vpsrlw	$2, %xmm0, %xmm4
	vpbroadcastd	.LCPI49_47(%rip), %xmm6
	vpand	%xmm6, %xmm4, %xmm4
	vpmaxub	%xmm7, %xmm1, %xmm5
	vpsllw	$4, %xmm5, %xmm5
	vpandn	%xmm5, %xmm6, %xmm5
	vmovdqa	%xmm6, %xmm7
	vpor	%xmm5, %xmm4, %xmm4
	vpmaxub	%xmm1, %xmm0, %xmm5
	vpminub	%xmm5, %xmm11, %xmm6
	vpcmpeqb	%xmm6, %xmm5, %xmm5
	vpand	%xmm5, %xmm8, %xmm5
	vpor	%xmm5, %xmm4, %xmm4
	vpsllw	$2, %xmm3, %xmm5
	vpand	%xmm5, %xmm14, %xmm5
	vpminub	%xmm5, %xmm12, %xmm6
	vpcmpeqb	%xmm6, %xmm5, %xmm6
	vpaddb	%xmm1, %xmm9, %xmm13
	vpaddb	%xmm6, %xmm13, %xmm6
	vpminub	.LCPI49_21(%rip), %xmm1, %xmm13
	vpcmpeqb	%xmm1, %xmm13, %xmm1
	vpblendvb	%xmm1, %xmm4, %xmm6, %xmm4
	vpsrlw	$4, %xmm2, %xmm6
	vpandn	%xmm6, %xmm14, %xmm6
	vpor	%xmm6, %xmm5, %xmm5
	vpsllw	$6, %xmm0, %xmm0
	vpand	%xmm0, %xmm15, %xmm0
	vpand	%xmm2, %xmm10, %xmm6
	vpaddb	%xmm6, %xmm0, %xmm0
	vpaddb	%xmm5, %xmm15, %xmm5
	vpblendvb	%xmm1, %xmm0, %xmm5, %xmm0
	addl	%r8d, %esi
	addl	%edi, %esi
	vpminub	.LCPI49_20(%rip), %xmm3, %xmm1
	vpcmpeqb	%xmm1, %xmm3, %xmm1
	vpminub	%xmm2, %xmm11, %xmm3
	vpcmpeqb	%xmm3, %xmm2, %xmm2
	vpand	%xmm2, %xmm1, %xmm1
	vpmovmskb	%xmm1, %r9d
	vpunpckhbw	%xmm0, %xmm4, %xmm1
	vpunpcklbw	%xmm0, %xmm4, %xmm0
	movzbl	%r9b, %edi
	xorl	%r8d, %r8d
	popcntl	%edi, %r8d
	shll	$4, %edi
	vpshufb	(%rdi,%rcx), %xmm0, %xmm0
	leaq	(%rdx,%rsi,2), %r10
	vmovdqu	%xmm0, (%rdx,%rsi,2)
	shrl	$8, %r9d
	xorl	%edi, %edi
	popcntl	%r9d, %edi
	shll	$4, %r9d
	vpshufb	(%r9,%rcx), %xmm1, %xmm0
	vmovdqu	%xmm0, (%r10,%r8,2)
	vmovdqu	46(%rbp,%rax), %xmm0
	vmovdqu	47(%rbp,%rax), %xmm3
	vmovdqu	48(%rbp,%rax), %xmm2
	vpblendvb	%xmm2, %xmm3, %xmm15, %xmm1
	vpmaxub	.LCPI49_0(%rip), %xmm0, %xmm4
	vpsrlw	$2, %xmm1, %xmm5
	vpand	%xmm7, %xmm5, %xmm5
	vpsllw	$4, %xmm4, %xmm4
	vpandn	%xmm4, %xmm7, %xmm4
	vpor	%xmm4, %xmm5, %xmm4
	vpmaxub	%xmm0, %xmm1, %xmm5
	vpminub	%xmm5, %xmm11, %xmm6
	vpcmpeqb	%xmm6, %xmm5, %xmm5
	vpand	%xmm5, %xmm8, %xmm5
	vpor	%xmm5, %xmm4, %xmm4
	vpsllw	$2, %xmm3, %xmm5
	vpand	%xmm5, %xmm14, %xmm5
	vpminub	%xmm5, %xmm12, %xmm6
	vpcmpeqb	%xmm6, %xmm5, %xmm6
	vpaddb	%xmm0, %xmm9, %xmm9
	vpaddb	%xmm6, %xmm9, %xmm6
	vpsrlw	$4, %xmm2, %xmm9
	vpandn	%xmm9, %xmm14, %xmm8
	vpor	%xmm5, %xmm8, %xmm5
	vpminub	.LCPI49_21(%rip), %xmm0, %xmm8
	vpcmpeqb	%xmm0, %xmm8, %xmm0
	vpblendvb	%xmm0, %xmm4, %xmm6, %xmm4
	vpaddb	%xmm5, %xmm15, %xmm5
	vpsllw	$6, %xmm1, %xmm1
	vpand	%xmm1, %xmm15, %xmm1
	vpand	%xmm2, %xmm10, %xmm6
	vpaddb	%xmm6, %xmm1, %xmm1
	vpblendvb	%xmm0, %xmm1, %xmm5, %xmm0
	vpminub	.LCPI49_20(%rip), %xmm3, %xmm1
	vpcmpeqb	%xmm1, %xmm3, %xmm1
	vpminub	%xmm2, %xmm11, %xmm3
	vpcmpeqb	%xmm3, %xmm2, %xmm2
	vpand	%xmm2, %xmm1, %xmm1
	vpmovmskb	%xmm1, %r9d
	vpunpckhbw	%xmm0, %xmm4, %xmm1
	vpunpcklbw	%xmm0, %xmm4, %xmm0
	addl	%r8d, %edi
	movzbl	%r9b, %r8d
	xorl	%r10d, %r10d
	popcntl	%r8d, %r10d
	shll	$4, %r8d
	vpshufb	(%r8,%rcx), %xmm0, %xmm0
	addl	%esi, %edi
	vmovdqu	%xmm0, (%rdx,%rdi,2)
	shrl	$8, %r9d
	popcntl	%r9d, %esi
	shll	$4, %r9d
	vpshufb	(%r9,%rcx), %xmm1, %xmm0
	leaq	(%rdx,%rdi,2), %rcx
	vmovdqu	%xmm0, (%rcx,%r10,2)
	addl	%r10d, %esi
	addl	%edi, %esi
	leaq	(%rbx,%rsi,2), %rbx
	cmpb	$-17, 61(%rbp,%rax)
	jbe	.LBB49_23
	addq	$-2, %rbx
	movl	$61, %ecx
	jmp	.LBB49_26
.LBB49_17:
	vpbroadcastd	.LCPI49_32(%rip), %xmm1
	vpcmpgtb	%xmm6, %xmm1, %xmm3
	vpbroadcastd	.LCPI49_35(%rip), %xmm10
	vpsubusb	%xmm10, %xmm5, %xmm4
	vpsubusb	.LCPI49_20(%rip), %xmm7, %xmm8
	vpor	%xmm4, %xmm8, %xmm8
	vpxor	%xmm0, %xmm0, %xmm0
	vpcmpgtb	%xmm0, %xmm8, %xmm8
	vpxor	%xmm3, %xmm8, %xmm11
	vpand	.LCPI49_27(%rip), %xmm6, %xmm3
	vpcmpeqb	%xmm1, %xmm3, %xmm12
	vpminub	.LCPI49_22(%rip), %xmm6, %xmm3
	vpcmpeqb	%xmm3, %xmm6, %xmm13
	vpbroadcastd	.LCPI49_41(%rip), %xmm9
	vpbroadcastd	.LCPI49_42(%rip), %xmm0
	vpblendvb	%xmm13, %xmm9, %xmm0, %xmm13
	vpcmpeqb	%xmm5, %xmm13, %xmm13
	vpor	%xmm13, %xmm12, %xmm12
	vpor	%xmm11, %xmm12, %xmm11
	vmovdqu	14(%rbp,%rax), %xmm12
	vmovdqu	15(%rbp,%rax), %xmm13
	vmovdqu	16(%rbp,%rax), %xmm14
	vmovdqu	30(%rbp,%rax), %xmm15
	vmovdqa	%xmm10, %xmm8
	vpsubusb	%xmm10, %xmm13, %xmm0
	vpbroadcastd	.LCPI49_38(%rip), %xmm10
	vpsubusb	%xmm10, %xmm12, %xmm12
	vpor	%xmm0, %xmm12, %xmm0
	vpcmpgtb	%xmm14, %xmm1, %xmm12
	vpxor	%xmm4, %xmm4, %xmm4
	vpcmpgtb	%xmm4, %xmm0, %xmm0
	vpxor	%xmm0, %xmm12, %xmm0
	vpbroadcastd	.LCPI49_34(%rip), %xmm2
	vpand	%xmm2, %xmm14, %xmm12
	vpcmpeqb	%xmm1, %xmm12, %xmm12
	vpor	%xmm0, %xmm12, %xmm0
	vpbroadcastd	.LCPI49_40(%rip), %xmm3
	vpminub	%xmm3, %xmm14, %xmm12
	vpcmpeqb	%xmm12, %xmm14, %xmm12
	vpbroadcastd	.LCPI49_42(%rip), %xmm14
	vpblendvb	%xmm12, %xmm9, %xmm14, %xmm12
	vpcmpeqb	%xmm12, %xmm13, %xmm12
	vpor	%xmm0, %xmm12, %xmm0
	vmovdqu	31(%rbp,%rax), %xmm12
	vmovdqu	32(%rbp,%rax), %xmm13
	vpsubusb	%xmm8, %xmm12, %xmm14
	vpsubusb	%xmm10, %xmm15, %xmm15
	vpor	%xmm15, %xmm14, %xmm14
	vpcmpgtb	%xmm13, %xmm1, %xmm15
	vpcmpgtb	%xmm4, %xmm14, %xmm14
	vpxor	%xmm14, %xmm15, %xmm14
	vpand	%xmm2, %xmm13, %xmm15
	vpcmpeqb	%xmm1, %xmm15, %xmm15
	vpor	%xmm15, %xmm14, %xmm14
	vpminub	%xmm3, %xmm13, %xmm15
	vpcmpeqb	%xmm15, %xmm13, %xmm13
	vpbroadcastd	.LCPI49_42(%rip), %xmm15
	vpblendvb	%xmm13, %xmm9, %xmm15, %xmm13
	vpcmpeqb	%xmm13, %xmm12, %xmm12
	vpor	%xmm12, %xmm14, %xmm12
	vmovdqa	%xmm8, %xmm14
	vpor	%xmm0, %xmm12, %xmm0
	vpor	%xmm0, %xmm11, %xmm0
	vmovdqu	46(%rbp,%rax), %xmm11
	vmovdqu	47(%rbp,%rax), %xmm12
	vpsubusb	%xmm8, %xmm12, %xmm13
	vpsubusb	%xmm10, %xmm11, %xmm11
	vpor	%xmm11, %xmm13, %xmm11
	vmovdqu	48(%rbp,%rax), %xmm13
	vpcmpgtb	%xmm4, %xmm11, %xmm4
	vpcmpgtb	%xmm13, %xmm1, %xmm11
	vpxor	%xmm4, %xmm11, %xmm4
	vpand	%xmm2, %xmm13, %xmm8
	vpcmpeqb	%xmm1, %xmm8, %xmm8
	vpor	%xmm4, %xmm8, %xmm4
	vpminub	%xmm3, %xmm13, %xmm8
	vpcmpeqb	%xmm8, %xmm13, %xmm8
	vpblendvb	%xmm8, %xmm9, %xmm15, %xmm8
	vpcmpeqb	%xmm8, %xmm12, %xmm8
	vpor	%xmm4, %xmm8, %xmm4
	vpor	%xmm4, %xmm0, %xmm0
	vpmovmskb	%xmm0, %ecx
	testl	%ecx, %ecx
	jne	.LBB49_27
	vmovdqa	%xmm9, %xmm3
	vpblendvb	%xmm6, %xmm5, %xmm1, %xmm0
	vpmaxub	%xmm7, %xmm9, %xmm7
	vpsrlw	$2, %xmm0, %xmm8
	vpbroadcastd	.LCPI49_47(%rip), %xmm4
	vpand	%xmm4, %xmm8, %xmm8
	vpsllw	$4, %xmm7, %xmm7
	vpandn	%xmm7, %xmm4, %xmm7
	vpor	%xmm7, %xmm8, %xmm8
	vpbroadcastd	.LCPI49_37(%rip), %xmm7
	vpand	%xmm7, %xmm6, %xmm9
	vpsllw	$6, %xmm0, %xmm0
	vpand	%xmm1, %xmm0, %xmm0
	vpaddb	%xmm0, %xmm9, %xmm0
	vpminub	%xmm6, %xmm14, %xmm9
	vpcmpeqb	%xmm6, %xmm9, %xmm6
	vpminub	%xmm5, %xmm10, %xmm9
	vpcmpeqb	%xmm5, %xmm9, %xmm5
	vpand	%xmm5, %xmm6, %xmm5
	vpmovmskb	%xmm5, %edi
	vpunpckhbw	%xmm0, %xmm8, %xmm5
	vpunpcklbw	%xmm0, %xmm8, %xmm0
	movzbl	%dil, %edx
	popcntl	%edx, %r8d
	shll	$4, %edx
	leaq	.Lstatic.10(%rip), %rcx
	vpshufb	(%rdx,%rcx), %xmm0, %xmm0
	vmovdqu	%xmm0, (%r12,%rbx)
	leaq	(%r12,%rbx), %rdx
	shrl	$8, %edi
	popcntl	%edi, %esi
	shll	$4, %edi
	vpshufb	(%rdi,%rcx), %xmm5, %xmm0
	vmovdqu	%xmm0, (%rdx,%r8,2)
	addl	%r8d, %esi
	vmovdqu	15(%rbp,%rax), %xmm0
	vmovdqu	16(%rbp,%rax), %xmm5
	vpblendvb	%xmm5, %xmm0, %xmm1, %xmm6
	vpmaxub	14(%rbp,%rax), %xmm3, %xmm8
	vpsrlw	$2, %xmm6, %xmm9
	vpand	%xmm4, %xmm9, %xmm9
	vpsllw	$4, %xmm8, %xmm8
	vpandn	%xmm8, %xmm4, %xmm8
	vpor	%xmm8, %xmm9, %xmm8
	vpand	%xmm7, %xmm5, %xmm9
	vpsllw	$6, %xmm6, %xmm6
	vpand	%xmm1, %xmm6, %xmm6
	vpaddb	%xmm6, %xmm9, %xmm6
	vpminub	%xmm0, %xmm10, %xmm9
	vpcmpeqb	%xmm0, %xmm9, %xmm0
	vpminub	%xmm5, %xmm14, %xmm9
	vpcmpeqb	%xmm5, %xmm9, %xmm5
	vpand	%xmm5, %xmm0, %xmm0
	vpmovmskb	%xmm0, %r8d
	vpunpckhbw	%xmm6, %xmm8, %xmm0
	vpunpcklbw	%xmm6, %xmm8, %xmm5
	movzbl	%r8b, %edi
	popcntl	%edi, %r9d
	shll	$4, %edi
	vpshufb	(%rdi,%rcx), %xmm5, %xmm5
	vmovdqu	%xmm5, (%rdx,%rsi,2)
	leaq	(%rdx,%rsi,2), %r10
	shrl	$8, %r8d
	xorl	%edi, %edi
	popcntl	%r8d, %edi
	shll	$4, %r8d
	vpshufb	(%r8,%rcx), %xmm0, %xmm0
	vmovdqu	%xmm0, (%r10,%r9,2)
	addl	%r9d, %edi
	addl	%esi, %edi
	vmovdqu	31(%rbp,%rax), %xmm0
	vmovdqu	32(%rbp,%rax), %xmm5
	vpblendvb	%xmm5, %xmm0, %xmm1, %xmm6
	vpmaxub	30(%rbp,%rax), %xmm3, %xmm8
	vpsrlw	$2, %xmm6, %xmm9
	vpand	%xmm4, %xmm9, %xmm9
	vpsllw	$4, %xmm8, %xmm8
	vpandn	%xmm8, %xmm4, %xmm8
	vpor	%xmm8, %xmm9, %xmm8
	vpand	%xmm7, %xmm5, %xmm9
	vpsllw	$6, %xmm6, %xmm6
	vpand	%xmm1, %xmm6, %xmm6
	vpaddb	%xmm6, %xmm9, %xmm6
	vpminub	%xmm0, %xmm10, %xmm9
	vpcmpeqb	%xmm0, %xmm9, %xmm0
	vpminub	%xmm5, %xmm14, %xmm9
	vpcmpeqb	%xmm5, %xmm9, %xmm5
	vpand	%xmm5, %xmm0, %xmm0
	vpmovmskb	%xmm0, %r8d
	vpunpckhbw	%xmm6, %xmm8, %xmm0
	vpunpcklbw	%xmm6, %xmm8, %xmm5
	movzbl	%r8b, %esi
	xorl	%r9d, %r9d
	popcntl	%esi, %r9d
	shll	$4, %esi
	vpshufb	(%rsi,%rcx), %xmm5, %xmm5
	vmovdqu	%xmm5, (%rdx,%rdi,2)
	leaq	(%rdx,%rdi,2), %r10
	shrl	$8, %r8d
	xorl	%esi, %esi
	popcntl	%r8d, %esi
	shll	$4, %r8d
	vpshufb	(%r8,%rcx), %xmm0, %xmm0
	vmovdqu	%xmm0, (%r10,%r9,2)
	addl	%r9d, %esi
	vmovdqu	47(%rbp,%rax), %xmm0
	vmovdqu	48(%rbp,%rax), %xmm5
	vpblendvb	%xmm5, %xmm0, %xmm1, %xmm6
	vpmaxub	46(%rbp,%rax), %xmm3, %xmm3
	addl	%edi, %esi
	vpsrlw	$2, %xmm6, %xmm8
	vpand	%xmm4, %xmm8, %xmm8
	vpsllw	$4, %xmm3, %xmm3
	vpandn	%xmm3, %xmm4, %xmm3
	vpor	%xmm3, %xmm8, %xmm3
	vpand	%xmm7, %xmm5, %xmm4
	vpsllw	$6, %xmm6, %xmm6
	vpand	%xmm1, %xmm6, %xmm1
	vpaddb	%xmm4, %xmm1, %xmm1
	vpminub	%xmm0, %xmm10, %xmm2
	vpcmpeqb	%xmm2, %xmm0, %xmm0
	vpminub	%xmm5, %xmm14, %xmm2
	vpcmpeqb	%xmm2, %xmm5, %xmm2
	vpand	%xmm2, %xmm0, %xmm0
	vpmovmskb	%xmm0, %edi
	vpunpckhbw	%xmm1, %xmm3, %xmm0
	vpunpcklbw	%xmm1, %xmm3, %xmm1
	movzbl	%dil, %r9d
	xorl	%r8d, %r8d
	popcntl	%r9d, %r8d
	shll	$4, %r9d
	vpshufb	(%r9,%rcx), %xmm1, %xmm1
	leaq	(%rdx,%rsi,2), %r9
	vmovdqu	%xmm1, (%rdx,%rsi,2)
	shrl	$8, %edi
	movl	%edi, %edx
	shll	$4, %edx
	vpshufb	(%rdx,%rcx), %xmm0, %xmm0
	vmovdqu	%xmm0, (%r9,%r8,2)
	movl	$62, %ecx
	cmpb	$-33, 62(%rbp,%rax)
	ja	.LBB49_20
	xorl	%ecx, %ecx
	cmpb	$-64, 63(%rbp,%rax)
	adcq	$63, %rcx
.LBB49_20:
	xorl	%edx, %edx
	popcntl	%edi, %edx
	addl	%edx, %r8d
	addl	%r8d, %esi
	leaq	(%rbx,%rsi,2), %rbx
	jmp	.LBB49_26
.LBB49_23:
	movl	$62, %ecx
	cmpb	$-33, 62(%rbp,%rax)
	ja	.LBB49_26
	xorl	%ecx, %ecx
	cmpb	$-64, 63(%rbp,%rax)
	adcq	$63, %rcx
.LBB49_26:
	addq	%rcx, %rax
	jmp	.LBB49_27
.LBB49_28:
	movq	%r14, %rax
	movq	%rbx, %rdx
	addq	$56, %rsp
	popq	%rbx
	popq	%r12
	popq	%r13
	popq	%r14
	popq	%r15
	popq	%rbp
	retq
.Lfunc_end49:

	.section	.rdata$000,"dr"
	.p2align	4, 0x0
.LCPI50_0:
	.zero	1
	.byte	255
	.byte	0
	.zero	1
	.byte	255
	.byte	0
	.zero	1
	.byte	255
	.byte	0
	.zero	1
	.byte	255
	.byte	0
	.zero	1
	.byte	255
	.byte	0
	.zero	1
.LCPI50_1:
	.byte	0
	.byte	3
	.byte	6
	.byte	9
	.byte	12
	.byte	15
	.byte	128
	.byte	128
	.byte	128
	.byte	128
	.byte	128
	.byte	128
	.byte	128
	.byte	128
	.byte	128
	.byte	128
.LCPI50_2:
	.byte	128
	.byte	128
	.byte	128
	.byte	128
	.byte	128
	.byte	128
	.byte	2
	.byte	5
	.byte	8
	.byte	11
	.byte	14
	.byte	1
	.byte	4
	.byte	7
	.byte	10
	.byte	13
.LCPI50_3:
	.byte	255
	.zero	1
	.byte	0
	.byte	255
	.zero	1
	.byte	0
	.byte	255
	.zero	1
	.byte	0
	.byte	255
	.zero	1
	.byte	0
	.byte	255
	.zero	1
	.byte	0
	.byte	255
.LCPI50_4:
	.byte	1
	.byte	4
	.byte	7
	.byte	10
	.byte	13
	.byte	128
	.byte	128
	.byte	128
	.byte	128
	.byte	128
	.byte	128
	.byte	128
	.byte	128
	.byte	128
	.byte	128
	.byte	128
.LCPI50_5:
	.byte	128
	.byte	128
	.byte	128
	.byte	128
	.byte	128
	.byte	0
	.byte	3
	.byte	6
	.byte	9
	.byte	12
	.byte	15
	.byte	2
	.byte	5
	.byte	8
	.byte	11
	.byte	14
.LCPI50_6:
	.byte	255
	.byte	0
	.zero	1
	.byte	255
	.byte	0
	.zero	1
	.byte	255
	.byte	0
	.zero	1
	.byte	255
	.byte	0
	.zero	1
	.byte	255
	.byte	0
	.zero	1
	.byte	255
.LCPI50_7:
	.byte	2
	.byte	5
	.byte	8
	.byte	11
	.byte	14
	.byte	128
	.byte	128
	.byte	128
	.byte	128
	.byte	128
	.byte	128
	.byte	128
	.byte	128
	.byte	128
	.byte	128
	.byte	128
.LCPI50_8:
	.byte	128
	.byte	128
	.byte	128
	.byte	128
	.byte	128
	.byte	1
	.byte	4
	.byte	7
	.byte	10
	.byte	13
	.byte	0
	.byte	3
	.byte	6
	.byte	9
	.byte	12
	.byte	15
.LCPI50_9:
	.zero	16,240
.LCPI50_10:
	.zero	16,32
.LCPI50_11:
	.zero	16,192
.LCPI50_12:
	.zero	16,128
.LCPI50_13:
	.zero	16,15
.LCPI50_14:
	.zero	16,7
.LCPI50_15:
	.zero	16,248
.LCPI50_16:
	.zero	16,216
.LCPI50_17:
	.zero	16,63
.LCPI50_18:
	.zero	16,224
	.section	.rdata$001,"dr"
	.p2align	2, 0x0
.LCPI50_19:
	.zero	4,192
.LCPI50_20:
	.zero	4,128
	.section	.text$059,"xr"
	.p2align	4
L_48:
	pushq	%r15
	pushq	%r14
	pushq	%rbx
	movq	%r9, %rbx
	movq	%r8, %rax
	movq	%rsi, %r8
	subq	%rax, %r8
	je	.LBB50_8
	movzbl	(%rdi,%rax), %r9d
	andb	$-16, %r9b
	cmpb	$-32, %r9b
	jne	.LBB50_8
	cmpq	$48, %r8
	setb	%r10b
	movq	%rcx, %r9
	subq	%rbx, %r9
	cmpq	$32, %r9
	setb	%r11b
	orb	%r10b, %r11b
	je	.LBB50_3
.LBB50_8:
	cmpb	$-65, -1(%rdi,%rsi)
	jbe	.LBB50_10
	decq	%rsi
	jmp	.LBB50_13
.LBB50_10:
	cmpb	$-33, -2(%rdi,%rsi)
	jbe	.LBB50_12
	addq	$-2, %rsi
	jmp	.LBB50_13
.LBB50_12:
	leaq	-3(%rsi), %r8
	cmpb	$-16, -3(%rdi,%rsi)
	cmovaeq	%r8, %rsi
.LBB50_13:
	cmpq	$17, %rsi
	setb	%r9b
	movq	%rsi, %r8
	subq	%rax, %r8
	setbe	%r10b
	orb	%r9b, %r10b
	jne	.LBB50_23
	subq	%rbx, %rcx
	xorl	%r9d, %r9d
	subq	$16, %rcx
	cmovaeq	%rcx, %r9
	shrq	%r9
	cmpq	%r8, %r9
	jb	.LBB50_23
	vmovdqu	-16(%rdi,%rsi), %xmm0
	xorl	%ecx, %ecx
	movq	%rax, %r8
	subq	$18, %r8
	cmovaeq	%r8, %rcx
	movq	%rsi, %r8
	subq	%rcx, %r8
	cmpq	$17, %r8
	jb	.LBB50_18
	addq	%rdi, %rcx
	.p2align	4
.LBB50_17:
	vpmaxub	(%rcx), %xmm0, %xmm0
	addq	$16, %rcx
	addq	$-16, %r8
	cmpq	$16, %r8
	ja	.LBB50_17
.LBB50_18:
	vpmaxub	.LCPI50_18(%rip), %xmm0, %xmm1
	addq	%rbx, %rdx
	vpcmpeqb	%xmm1, %xmm0, %xmm1
	vpmovmskb	%xmm1, %ecx
	testl	%ecx, %ecx
	je	.LBB50_24
	movq	%rdx, %rcx
	vpmaxub	.LCPI50_9(%rip), %xmm0, %xmm1
	vpcmpeqb	%xmm1, %xmm0, %xmm0
	vpmovmskb	%xmm0, %edx
	movq	%rsi, %r14
	movq	%rax, %r15
	testl	%edx, %edx
	je	.LBB50_20
	movq	%rax, %rdx
	callq	L_51
	jmp	.LBB50_22
.LBB50_3:
	addq	$-32, %r9
	addq	$-48, %r8
	.p2align	4
.LBB50_4:
	vmovdqu	(%rdi,%rax), %xmm0
	vmovdqu	16(%rdi,%rax), %xmm1
	vmovdqu	32(%rdi,%rax), %xmm3
	vmovdqa	.LCPI50_0(%rip), %xmm2
	vpblendvb	%xmm2, %xmm3, %xmm1, %xmm2
	vpshufb	.LCPI50_1(%rip), %xmm0, %xmm4
	vpshufb	.LCPI50_2(%rip), %xmm2, %xmm2
	vmovdqa	.LCPI50_3(%rip), %xmm5
	vpblendvb	%xmm5, %xmm1, %xmm3, %xmm5
	vpshufb	.LCPI50_4(%rip), %xmm0, %xmm6
	vpshufb	.LCPI50_5(%rip), %xmm5, %xmm5
	vpor	%xmm4, %xmm2, %xmm2
	vmovdqa	.LCPI50_6(%rip), %xmm4
	vpblendvb	%xmm4, %xmm3, %xmm1, %xmm1
	vpshufb	.LCPI50_7(%rip), %xmm0, %xmm0
	vpshufb	.LCPI50_8(%rip), %xmm1, %xmm3
	vpor	%xmm6, %xmm5, %xmm1
	vpor	%xmm0, %xmm3, %xmm0
	vpand	.LCPI50_9(%rip), %xmm2, %xmm3
	vpaddb	.LCPI50_10(%rip), %xmm3, %xmm3
	vpbroadcastd	.LCPI50_19(%rip), %xmm4
	vpand	%xmm4, %xmm1, %xmm5
	vpbroadcastd	.LCPI50_20(%rip), %xmm6
	vpxor	%xmm6, %xmm5, %xmm5
	vpmaxub	%xmm5, %xmm3, %xmm3
	vpand	%xmm4, %xmm0, %xmm4
	vpxor	%xmm6, %xmm4, %xmm4
	vpor	%xmm4, %xmm3, %xmm3
	vptest	%xmm3, %xmm3
	jne	.LBB50_8
	vpsllw	$4, %xmm2, %xmm2
	vpand	.LCPI50_9(%rip), %xmm2, %xmm2
	vpsrlw	$2, %xmm1, %xmm3
	vpand	.LCPI50_13(%rip), %xmm3, %xmm3
	vpor	%xmm2, %xmm3, %xmm2
	vpminub	.LCPI50_14(%rip), %xmm2, %xmm3
	vpand	.LCPI50_15(%rip), %xmm2, %xmm4
	vpcmpeqb	.LCPI50_16(%rip), %xmm4, %xmm4
	vpcmpeqb	%xmm3, %xmm2, %xmm3
	vpor	%xmm4, %xmm3, %xmm3
	vpmovmskb	%xmm3, %r10d
	testl	%r10d, %r10d
	jne	.LBB50_8
	vpsllw	$6, %xmm1, %xmm1
	vpand	.LCPI50_11(%rip), %xmm1, %xmm1
	vpand	.LCPI50_17(%rip), %xmm0, %xmm0
	vpor	%xmm0, %xmm1, %xmm0
	vpunpcklbw	%xmm0, %xmm2, %xmm1
	vmovdqu	%xmm1, (%rdx,%rbx)
	vpunpckhbw	%xmm0, %xmm2, %xmm0
	vmovdqu	%xmm0, 16(%rdx,%rbx)
	addq	$32, %rbx
	addq	$48, %rax
	subq	$32, %r9
	setb	%r10b
	subq	$48, %r8
	jb	.LBB50_8
	testb	%r10b, %r10b
	je	.LBB50_4
	jmp	.LBB50_8
.LBB50_24:
	movq	%rsi, %r14
	movq	%rax, %r15
	movq	%rdx, %rcx
	movq	%rax, %rdx
	callq	L_52
	jmp	.LBB50_22
.LBB50_20:
	movq	%rax, %rdx
	callq	L_53
.LBB50_22:
	addq	%rbx, %rdx
	cmpb	$1, %al
	movq	%r15, %rax
	cmoveq	%r14, %rax
	cmoveq	%rdx, %rbx
.LBB50_23:
	movq	%rbx, %rdx
	popq	%rbx
	popq	%r14
	popq	%r15
	retq
.Lfunc_end50:

	.section	.rdata$000,"dr"
	.p2align	4, 0x0
.LCPI51_0:
	.zero	16,192
.LCPI51_1:
	.zero	16,63
.LCPI51_2:
	.zero	16,127
.LCPI51_3:
	.zero	16,191
.LCPI51_4:
	.zero	16,254
	.section	.rdata$001,"dr"
	.p2align	2, 0x0
.LCPI51_5:
	.zero	4,192
	.section	.text$060,"xr"
	.p2align	4
L_52:
	pushq	%rbx
	movq	%rsi, %rax
	subq	%rdx, %rax
	vpxor	%xmm0, %xmm0, %xmm0
	xorl	%r8d, %r8d
	cmpq	$16, %rax
	jae	.LBB51_1
.LBB51_7:
	cmpq	%rsi, %rdx
	je	.LBB51_12
	leaq	-16(%rsi), %rax
	vmovdqu	-16(%rdi,%rsi), %xmm1
	cmpq	$3, %rax
	jb	.LBB51_10
	vmovdqu	-1(%rdi,%rax), %xmm2
	jmp	.LBB51_11
	.p2align	4
.LBB51_2:
	vmovdqu	-1(%rdi,%rdx), %xmm2
.LBB51_6:
	vpbroadcastd	.LCPI51_5(%rip), %xmm3
	vpsubusb	%xmm3, %xmm2, %xmm4
	vpsrlw	$2, %xmm4, %xmm5
	vpand	.LCPI51_1(%rip), %xmm5, %xmm5
	vpand	.LCPI51_2(%rip), %xmm1, %xmm6
	vpsllw	$6, %xmm4, %xmm4
	vpand	%xmm3, %xmm4, %xmm4
	vpaddb	%xmm6, %xmm4, %xmm4
	vpminub	.LCPI51_3(%rip), %xmm1, %xmm6
	vpcmpeqb	%xmm6, %xmm1, %xmm6
	vpmovmskb	%xmm6, %r9d
	vpcmpgtb	%xmm1, %xmm3, %xmm6
	vpmaxub	%xmm3, %xmm2, %xmm7
	vpcmpeqb	%xmm7, %xmm2, %xmm2
	vpxor	%xmm2, %xmm6, %xmm2
	vpand	.LCPI51_4(%rip), %xmm1, %xmm1
	vpcmpeqb	%xmm3, %xmm1, %xmm1
	vpor	%xmm2, %xmm1, %xmm1
	vpmaxub	%xmm1, %xmm0, %xmm0
	vpunpcklbw	%xmm4, %xmm5, %xmm1
	movzbl	%r9b, %r10d
	xorl	%r11d, %r11d
	popcntl	%r10d, %r11d
	shll	$4, %r10d
	leaq	.Lstatic.10(%rip), %rbx
	vpshufb	(%r10,%rbx), %xmm1, %xmm1
	vpunpckhbw	%xmm4, %xmm5, %xmm2
	vmovdqu	%xmm1, (%rcx,%r8)
	shrl	$8, %r9d
	xorl	%r10d, %r10d
	popcntl	%r9d, %r10d
	shll	$4, %r9d
	vpshufb	(%r9,%rbx), %xmm2, %xmm1
	leaq	(%rcx,%r8), %r9
	vmovdqu	%xmm1, (%r9,%r11,2)
	addl	%r11d, %r10d
	leaq	(%r8,%r10,2), %r8
	addq	$16, %rdx
	addq	$-16, %rax
	cmpq	$15, %rax
	jbe	.LBB51_7
.LBB51_1:
	vmovdqu	(%rdi,%rdx), %xmm1
	cmpq	$3, %rdx
	jae	.LBB51_2
	testq	%rdx, %rdx
	je	.LBB51_4
	vpbroadcastb	-1(%rdi,%rdx), %xmm2
	vpalignr	$15, %xmm2, %xmm1, %xmm2
	jmp	.LBB51_6
.LBB51_4:
	vpslldq	$1, %xmm1, %xmm2
	jmp	.LBB51_6
.LBB51_10:
	vpbroadcastb	-17(%rdi,%rsi), %xmm2
	vpalignr	$15, %xmm2, %xmm1, %xmm2
.LBB51_11:
	vpbroadcastd	.LCPI51_5(%rip), %xmm3
	vpsubusb	%xmm3, %xmm2, %xmm4
	vpsrlw	$2, %xmm4, %xmm5
	vpand	.LCPI51_1(%rip), %xmm5, %xmm5
	vpand	.LCPI51_2(%rip), %xmm1, %xmm6
	vpsllw	$6, %xmm4, %xmm4
	vpand	%xmm3, %xmm4, %xmm4
	vpminub	.LCPI51_3(%rip), %xmm1, %xmm7
	vpaddb	%xmm6, %xmm4, %xmm4
	vpcmpeqb	%xmm7, %xmm1, %xmm6
	vpmovmskb	%xmm6, %r9d
	vpcmpgtb	%xmm1, %xmm3, %xmm6
	vpmaxub	%xmm3, %xmm2, %xmm7
	vpcmpeqb	%xmm7, %xmm2, %xmm2
	vpand	.LCPI51_4(%rip), %xmm1, %xmm7
	vpxor	%xmm2, %xmm6, %xmm1
	vpcmpeqb	%xmm3, %xmm7, %xmm2
	subl	%eax, %edx
	vpunpckhbw	%xmm4, %xmm5, %xmm3
	vpunpcklbw	%xmm4, %xmm5, %xmm4
	movq	$-1, %rax
	shlxq	%rdx, %rax, %rax
	andl	%r9d, %eax
	movzbl	%al, %edx
	xorl	%r9d, %r9d
	popcntl	%edx, %r9d
	shll	$4, %edx
	leaq	.Lstatic.10(%rip), %r10
	vpshufb	(%rdx,%r10), %xmm4, %xmm4
	vmovdqu	%xmm4, (%rcx,%r8)
	addq	%r8, %rcx
	shrl	$8, %eax
	xorl	%edx, %edx
	popcntl	%eax, %edx
	shll	$4, %eax
	vpshufb	(%rax,%r10), %xmm3, %xmm3
	vmovdqu	%xmm3, (%rcx,%r9,2)
	vpor	%xmm1, %xmm2, %xmm1
	addl	%r9d, %edx
	leaq	(%r8,%rdx,2), %r8
	vpmaxub	%xmm1, %xmm0, %xmm0
.LBB51_12:
	vptest	%xmm0, %xmm0
	je	.LBB51_14
	xorl	%edx, %edx
	xorl	%eax, %eax
	popq	%rbx
	retq
.LBB51_14:
	cmpb	$-65, -1(%rdi,%rsi)
	jbe	.LBB51_16
	leaq	-1(%rsi), %rax
	jmp	.LBB51_19
.LBB51_16:
	cmpb	$-33, -2(%rdi,%rsi)
	jbe	.LBB51_18
	leaq	-2(%rsi), %rax
	jmp	.LBB51_19
.LBB51_18:
	leaq	-3(%rsi), %rax
	cmpb	$-16, -3(%rdi,%rsi)
	cmovbq	%rsi, %rax
.LBB51_19:
	xorl	%edx, %edx
	cmpq	%rsi, %rax
	setae	%al
	cmovaeq	%r8, %rdx
	popq	%rbx
	retq
.Lfunc_end51:

	.section	.rdata$000,"dr"
	.p2align	4, 0x0
.LCPI52_0:
	.zero	16,192
.LCPI52_1:
	.zero	16,224
.LCPI52_2:
	.zero	16,15
.LCPI52_3:
	.zero	16,240
.LCPI52_4:
	.zero	16,127
.LCPI52_5:
	.zero	16,191
.LCPI52_6:
	.zero	16,223
.LCPI52_7:
	.zero	16,254
.LCPI52_8:
	.zero	16,159
.LCPI52_9:
	.zero	16,237
	.section	.rdata$001,"dr"
	.p2align	2, 0x0
.LCPI52_10:
	.zero	4,192
.LCPI52_11:
	.zero	4,224
.LCPI52_12:
	.zero	4,191
.LCPI52_13:
	.zero	4,223
.LCPI52_14:
	.zero	4,237
	.section	.text$061,"xr"
	.p2align	4
L_53:
	pushq	%rbx
	movq	%rsi, %rax
	subq	%rdx, %rax
	vpxor	%xmm0, %xmm0, %xmm0
	xorl	%r8d, %r8d
	cmpq	$16, %rax
	jae	.LBB52_6
.LBB52_1:
	cmpq	%rsi, %rdx
	je	.LBB52_18
	leaq	-16(%rsi), %rax
	vmovdqu	-16(%rdi,%rsi), %xmm1
	cmpq	$3, %rax
	jb	.LBB52_13
	vmovdqu	-2(%rdi,%rax), %xmm3
	vmovdqu	-1(%rdi,%rax), %xmm2
	jmp	.LBB52_17
	.p2align	4
.LBB52_4:
	vmovdqu	-2(%rdi,%rdx), %xmm5
	vmovdqu	-1(%rdi,%rdx), %xmm2
.LBB52_5:
	vpbroadcastd	.LCPI52_10(%rip), %xmm6
	vpblendvb	%xmm1, %xmm2, %xmm6, %xmm4
	vpbroadcastd	.LCPI52_11(%rip), %xmm7
	vpmaxub	%xmm7, %xmm5, %xmm3
	vpsrlw	$2, %xmm4, %xmm8
	vpand	.LCPI52_2(%rip), %xmm8, %xmm8
	vpsllw	$4, %xmm3, %xmm3
	vpand	.LCPI52_3(%rip), %xmm3, %xmm3
	vpor	%xmm3, %xmm8, %xmm3
	vpand	.LCPI52_4(%rip), %xmm1, %xmm8
	vpsllw	$6, %xmm4, %xmm4
	vpand	%xmm6, %xmm4, %xmm4
	vpaddb	%xmm4, %xmm8, %xmm4
	vpbroadcastd	.LCPI52_12(%rip), %xmm8
	vpminub	%xmm1, %xmm8, %xmm9
	vpcmpeqb	%xmm1, %xmm9, %xmm9
	vpbroadcastd	.LCPI52_13(%rip), %xmm10
	vpminub	%xmm2, %xmm10, %xmm11
	vpcmpeqb	%xmm2, %xmm11, %xmm11
	vpand	%xmm11, %xmm9, %xmm9
	vpmovmskb	%xmm9, %r9d
	vpcmpgtb	%xmm1, %xmm6, %xmm9
	vpsubusb	%xmm8, %xmm2, %xmm8
	vpsubusb	%xmm10, %xmm5, %xmm5
	vpor	%xmm5, %xmm8, %xmm5
	vpxor	%xmm8, %xmm8, %xmm8
	vpcmpgtb	%xmm8, %xmm5, %xmm5
	vpxor	%xmm5, %xmm9, %xmm5
	vpand	.LCPI52_7(%rip), %xmm1, %xmm8
	vpcmpeqb	%xmm6, %xmm8, %xmm6
	vpor	%xmm5, %xmm6, %xmm5
	vpminub	.LCPI52_8(%rip), %xmm1, %xmm6
	vpcmpeqb	%xmm6, %xmm1, %xmm1
	vpbroadcastd	.LCPI52_14(%rip), %xmm6
	vpblendvb	%xmm1, %xmm7, %xmm6, %xmm1
	vpcmpeqb	%xmm1, %xmm2, %xmm1
	vpor	%xmm1, %xmm5, %xmm1
	vpmaxub	%xmm1, %xmm0, %xmm0
	vpunpcklbw	%xmm4, %xmm3, %xmm1
	movzbl	%r9b, %r10d
	xorl	%r11d, %r11d
	popcntl	%r10d, %r11d
	shll	$4, %r10d
	leaq	.Lstatic.10(%rip), %rbx
	vpshufb	(%r10,%rbx), %xmm1, %xmm1
	vpunpckhbw	%xmm4, %xmm3, %xmm2
	vmovdqu	%xmm1, (%rcx,%r8)
	shrl	$8, %r9d
	xorl	%r10d, %r10d
	popcntl	%r9d, %r10d
	shll	$4, %r9d
	vpshufb	(%r9,%rbx), %xmm2, %xmm1
	leaq	(%rcx,%r8), %r9
	vmovdqu	%xmm1, (%r9,%r11,2)
	addl	%r11d, %r10d
	leaq	(%r8,%r10,2), %r8
	addq	$16, %rdx
	addq	$-16, %rax
	cmpq	$15, %rax
	jbe	.LBB52_1
.LBB52_6:
	vmovdqu	(%rdi,%rdx), %xmm1
	cmpq	$3, %rdx
	jae	.LBB52_4
	testq	%rdx, %rdx
	je	.LBB52_10
	vpbroadcastb	-1(%rdi,%rdx), %xmm2
	vpalignr	$15, %xmm2, %xmm1, %xmm2
	cmpq	$2, %rdx
	jne	.LBB52_11
	movzbl	(%rdi), %r9d
	jmp	.LBB52_12
.LBB52_10:
	vpslldq	$1, %xmm1, %xmm2
.LBB52_11:
	xorl	%r9d, %r9d
.LBB52_12:
	vmovd	%r9d, %xmm3
	vpbroadcastb	%xmm3, %xmm3
	vpalignr	$15, %xmm3, %xmm2, %xmm5
	jmp	.LBB52_5
.LBB52_13:
	vpbroadcastb	-17(%rdi,%rsi), %xmm2
	vpalignr	$15, %xmm2, %xmm1, %xmm2
	cmpq	$2, %rax
	jne	.LBB52_15
	movzbl	(%rdi), %r9d
	jmp	.LBB52_16
.LBB52_15:
	xorl	%r9d, %r9d
.LBB52_16:
	vmovd	%r9d, %xmm3
	vpbroadcastb	%xmm3, %xmm3
	vpalignr	$15, %xmm3, %xmm2, %xmm3
.LBB52_17:
	vpbroadcastd	.LCPI52_10(%rip), %xmm6
	vpblendvb	%xmm1, %xmm2, %xmm6, %xmm7
	vpbroadcastd	.LCPI52_11(%rip), %xmm5
	vpmaxub	%xmm5, %xmm3, %xmm4
	vpsrlw	$2, %xmm7, %xmm8
	vpand	.LCPI52_2(%rip), %xmm8, %xmm8
	vpsllw	$4, %xmm4, %xmm4
	vpand	.LCPI52_3(%rip), %xmm4, %xmm4
	vpand	.LCPI52_4(%rip), %xmm1, %xmm9
	vpor	%xmm4, %xmm8, %xmm4
	vpsllw	$6, %xmm7, %xmm7
	vpand	%xmm6, %xmm7, %xmm7
	vpaddb	%xmm7, %xmm9, %xmm7
	vpbroadcastd	.LCPI52_12(%rip), %xmm8
	vpminub	%xmm1, %xmm8, %xmm9
	vpcmpeqb	%xmm1, %xmm9, %xmm9
	vpbroadcastd	.LCPI52_13(%rip), %xmm10
	vpminub	%xmm2, %xmm10, %xmm11
	vpcmpeqb	%xmm2, %xmm11, %xmm11
	vpand	%xmm11, %xmm9, %xmm9
	vpmovmskb	%xmm9, %r9d
	vpcmpgtb	%xmm1, %xmm6, %xmm9
	vpsubusb	%xmm8, %xmm2, %xmm8
	vpsubusb	%xmm10, %xmm3, %xmm3
	vpor	%xmm3, %xmm8, %xmm3
	vpxor	%xmm8, %xmm8, %xmm8
	vpcmpgtb	%xmm8, %xmm3, %xmm3
	vpand	.LCPI52_7(%rip), %xmm1, %xmm8
	vpxor	%xmm3, %xmm9, %xmm3
	vpcmpeqb	%xmm6, %xmm8, %xmm6
	vpminub	.LCPI52_8(%rip), %xmm1, %xmm8
	vpcmpeqb	%xmm1, %xmm8, %xmm1
	vpbroadcastd	.LCPI52_14(%rip), %xmm8
	vpblendvb	%xmm1, %xmm5, %xmm8, %xmm1
	vpcmpeqb	%xmm1, %xmm2, %xmm1
	vpor	%xmm1, %xmm6, %xmm1
	subl	%eax, %edx
	vpunpckhbw	%xmm7, %xmm4, %xmm2
	vpunpcklbw	%xmm7, %xmm4, %xmm4
	movq	$-1, %rax
	shlxq	%rdx, %rax, %rax
	andl	%r9d, %eax
	movzbl	%al, %edx
	xorl	%r9d, %r9d
	popcntl	%edx, %r9d
	shll	$4, %edx
	leaq	.Lstatic.10(%rip), %r10
	vpshufb	(%rdx,%r10), %xmm4, %xmm4
	vmovdqu	%xmm4, (%rcx,%r8)
	addq	%r8, %rcx
	shrl	$8, %eax
	xorl	%edx, %edx
	popcntl	%eax, %edx
	shll	$4, %eax
	vpshufb	(%rax,%r10), %xmm2, %xmm2
	vmovdqu	%xmm2, (%rcx,%r9,2)
	vpor	%xmm3, %xmm1, %xmm1
	addl	%r9d, %edx
	leaq	(%r8,%rdx,2), %r8
	vpmaxub	%xmm1, %xmm0, %xmm0
.LBB52_18:
	vptest	%xmm0, %xmm0
	je	.LBB52_20
	xorl	%edx, %edx
	xorl	%eax, %eax
	popq	%rbx
	retq
.LBB52_20:
	cmpb	$-65, -1(%rdi,%rsi)
	jbe	.LBB52_22
	leaq	-1(%rsi), %rax
	jmp	.LBB52_25
.LBB52_22:
	cmpb	$-33, -2(%rdi,%rsi)
	jbe	.LBB52_24
	leaq	-2(%rsi), %rax
	jmp	.LBB52_25
.LBB52_24:
	leaq	-3(%rsi), %rax
	cmpb	$-16, -3(%rdi,%rsi)
	cmovbq	%rsi, %rax
.LBB52_25:
	xorl	%edx, %edx
	cmpq	%rsi, %rax
	setae	%al
	cmovaeq	%r8, %rdx
	popq	%rbx
	retq
.Lfunc_end52:

	.section	.rdata$000,"dr"
	.p2align	4, 0x0
.LCPI53_0:
	.zero	16,192
.LCPI53_1:
	.zero	16,224
.LCPI53_2:
	.zero	16,15
.LCPI53_3:
	.zero	16,191
.LCPI53_4:
	.zero	16,220
.LCPI53_5:
	.zero	16,252
.LCPI53_6:
	.zero	16,3
.LCPI53_7:
	.zero	16,63
.LCPI53_8:
	.zero	16,232
.LCPI53_9:
	.zero	16,239
.LCPI53_10:
	.zero	16,127
.LCPI53_11:
	.zero	16,223
.LCPI53_12:
	.zero	16,159
.LCPI53_13:
	.zero	16,237
.LCPI53_14:
	.zero	16,143
.LCPI53_15:
	.zero	16,245
.LCPI53_16:
	.zero	16,244
.LCPI53_17:
	.zero	16,240
.LCPI53_18:
	.zero	16,254
	.section	.rdata$001,"dr"
	.p2align	2, 0x0
.LCPI53_19:
	.zero	4,192
.LCPI53_20:
	.zero	4,15
.LCPI53_21:
	.zero	4,191
.LCPI53_22:
	.zero	4,239
.LCPI53_23:
	.zero	4,223
.LCPI53_24:
	.zero	4,237
.LCPI53_25:
	.zero	4,244
.LCPI53_26:
	.zero	4,224
	.section	.text$062,"xr"
	.p2align	4
L_51:
	pushq	%rbx
	subq	$16, %rsp
	movq	%rsi, %rax
	subq	%rdx, %rax
	vpxor	%xmm7, %xmm7, %xmm7
	xorl	%r8d, %r8d
	cmpq	$16, %rax
	jae	.LBB53_7
.LBB53_1:
	cmpq	%rsi, %rdx
	je	.LBB53_22
	leaq	-16(%rsi), %rax
	vmovdqu	-16(%rdi,%rsi), %xmm1
	cmpq	$3, %rax
	jb	.LBB53_16
	vmovdqu	-3(%rdi,%rax), %xmm3
	vmovdqu	-2(%rdi,%rax), %xmm4
	vmovdqu	-1(%rdi,%rax), %xmm2
	vpor	%xmm1, %xmm3, %xmm0
	vpmovmskb	%xmm0, %r9d
	testl	%r9d, %r9d
	je	.LBB53_20
.LBB53_4:
	vpbroadcastd	.LCPI53_19(%rip), %xmm5
	vpblendvb	%xmm1, %xmm2, %xmm5, %xmm0
	vpmaxub	.LCPI53_1(%rip), %xmm4, %xmm6
	vpsrlw	$2, %xmm0, %xmm8
	vpbroadcastd	.LCPI53_20(%rip), %xmm9
	vpand	%xmm9, %xmm8, %xmm8
	vpsllw	$4, %xmm6, %xmm6
	vpandn	%xmm6, %xmm9, %xmm6
	vpor	%xmm6, %xmm8, %xmm6
	vpmaxub	%xmm4, %xmm0, %xmm9
	vpbroadcastd	.LCPI53_21(%rip), %xmm8
	vpminub	%xmm8, %xmm9, %xmm10
	vpcmpeqb	%xmm10, %xmm9, %xmm9
	vpand	.LCPI53_4(%rip), %xmm9, %xmm9
	vpor	%xmm6, %xmm9, %xmm6
	vpsllw	$2, %xmm2, %xmm9
	vpand	.LCPI53_5(%rip), %xmm9, %xmm9
	vpsrlw	$4, %xmm1, %xmm10
	vpand	.LCPI53_6(%rip), %xmm10, %xmm10
	vpminub	.LCPI53_7(%rip), %xmm9, %xmm11
	vpcmpeqb	%xmm11, %xmm9, %xmm11
	vpaddb	%xmm4, %xmm11, %xmm11
	vpaddb	.LCPI53_8(%rip), %xmm11, %xmm11
	vpor	%xmm10, %xmm9, %xmm10
	vpbroadcastd	.LCPI53_22(%rip), %xmm9
	vpminub	%xmm4, %xmm9, %xmm12
	vpcmpeqb	%xmm4, %xmm12, %xmm12
	vpblendvb	%xmm12, %xmm6, %xmm11, %xmm6
	vpand	.LCPI53_10(%rip), %xmm1, %xmm11
	vpaddb	%xmm5, %xmm10, %xmm10
	vpsllw	$6, %xmm0, %xmm0
	vpand	%xmm5, %xmm0, %xmm0
	vpaddb	%xmm0, %xmm11, %xmm0
	vpminub	%xmm1, %xmm8, %xmm11
	vpcmpeqb	%xmm1, %xmm11, %xmm11
	vpminub	.LCPI53_12(%rip), %xmm1, %xmm13
	vpcmpgtb	%xmm1, %xmm5, %xmm14
	vpcmpeqb	%xmm1, %xmm13, %xmm13
	vpminub	.LCPI53_14(%rip), %xmm1, %xmm15
	vpblendvb	%xmm12, %xmm0, %xmm10, %xmm10
	vpbroadcastd	.LCPI53_23(%rip), %xmm0
	vpminub	%xmm0, %xmm2, %xmm12
	vpcmpeqb	%xmm2, %xmm12, %xmm12
	vpand	%xmm12, %xmm11, %xmm11
	vpmaxub	.LCPI53_15(%rip), %xmm1, %xmm12
	vpcmpeqb	%xmm1, %xmm15, %xmm15
	vpcmpeqb	%xmm1, %xmm12, %xmm12
	vpand	.LCPI53_18(%rip), %xmm1, %xmm1
	vpmovmskb	%xmm11, %r9d
	vpsubusb	%xmm0, %xmm4, %xmm0
	vpsubusb	%xmm8, %xmm2, %xmm4
	vpmaxub	%xmm0, %xmm4, %xmm0
	vpxor	%xmm4, %xmm4, %xmm4
	vpsubusb	%xmm9, %xmm3, %xmm3
	vpor	%xmm3, %xmm0, %xmm0
	vpcmpgtb	%xmm4, %xmm0, %xmm0
	vpxor	%xmm0, %xmm14, %xmm0
	vpbroadcastd	.LCPI53_24(%rip), %xmm3
	vpblendvb	%xmm13, .LCPI53_1(%rip), %xmm3, %xmm3
	vpbroadcastd	.LCPI53_25(%rip), %xmm4
	vpblendvb	%xmm15, .LCPI53_17(%rip), %xmm4, %xmm4
	vpcmpeqb	%xmm3, %xmm2, %xmm3
	vpor	%xmm3, %xmm12, %xmm3
	vpcmpeqb	%xmm4, %xmm2, %xmm2
	vpcmpeqb	%xmm5, %xmm1, %xmm1
	vpor	%xmm0, %xmm1, %xmm0
	vpor	%xmm0, %xmm3, %xmm0
	vpor	%xmm0, %xmm2, %xmm0
	vpmaxub	%xmm0, %xmm7, %xmm7
	vmovdqa	%xmm10, %xmm1
	jmp	.LBB53_21
	.p2align	4
.LBB53_8:
	vmovdqu	-3(%rdi,%rdx), %xmm3
	vmovdqu	-2(%rdi,%rdx), %xmm4
	vmovdqu	-1(%rdi,%rdx), %xmm2
	vpor	%xmm1, %xmm3, %xmm5
	vpmovmskb	%xmm5, %r9d
	testl	%r9d, %r9d
	je	.LBB53_15
.LBB53_5:
	vpbroadcastd	.LCPI53_19(%rip), %xmm6
	vpblendvb	%xmm1, %xmm2, %xmm6, %xmm10
	vmovdqa	%xmm7, (%rsp)
	vpbroadcastd	.LCPI53_26(%rip), %xmm7
	vpmaxub	%xmm7, %xmm4, %xmm5
	vpsrlw	$2, %xmm10, %xmm8
	vpbroadcastd	.LCPI53_20(%rip), %xmm9
	vpand	%xmm9, %xmm8, %xmm8
	vpsllw	$4, %xmm5, %xmm5
	vpandn	%xmm5, %xmm9, %xmm5
	vpor	%xmm5, %xmm8, %xmm5
	vpmaxub	%xmm4, %xmm10, %xmm9
	vpbroadcastd	.LCPI53_21(%rip), %xmm8
	vpminub	%xmm8, %xmm9, %xmm11
	vpcmpeqb	%xmm11, %xmm9, %xmm9
	vpand	.LCPI53_4(%rip), %xmm9, %xmm9
	vpor	%xmm5, %xmm9, %xmm5
	vpsllw	$2, %xmm2, %xmm9
	vpand	.LCPI53_5(%rip), %xmm9, %xmm9
	vpsrlw	$4, %xmm1, %xmm11
	vpand	.LCPI53_6(%rip), %xmm11, %xmm11
	vpminub	.LCPI53_7(%rip), %xmm9, %xmm12
	vpcmpeqb	%xmm12, %xmm9, %xmm12
	vpaddb	%xmm4, %xmm12, %xmm12
	vpaddb	.LCPI53_8(%rip), %xmm12, %xmm12
	vpor	%xmm11, %xmm9, %xmm11
	vpbroadcastd	.LCPI53_22(%rip), %xmm9
	vpminub	%xmm4, %xmm9, %xmm13
	vpcmpeqb	%xmm4, %xmm13, %xmm13
	vpblendvb	%xmm13, %xmm5, %xmm12, %xmm5
	vpand	.LCPI53_10(%rip), %xmm1, %xmm12
	vpaddb	%xmm6, %xmm11, %xmm11
	vpsllw	$6, %xmm10, %xmm10
	vpand	%xmm6, %xmm10, %xmm10
	vpaddb	%xmm12, %xmm10, %xmm10
	vpminub	%xmm1, %xmm8, %xmm12
	vpcmpeqb	%xmm1, %xmm12, %xmm12
	vpminub	.LCPI53_12(%rip), %xmm1, %xmm14
	vpcmpgtb	%xmm1, %xmm6, %xmm15
	vpcmpeqb	%xmm1, %xmm14, %xmm14
	vpminub	.LCPI53_14(%rip), %xmm1, %xmm0
	vpblendvb	%xmm13, %xmm10, %xmm11, %xmm10
	vpbroadcastd	.LCPI53_23(%rip), %xmm11
	vpminub	%xmm2, %xmm11, %xmm13
	vpcmpeqb	%xmm2, %xmm13, %xmm13
	vpand	%xmm13, %xmm12, %xmm12
	vpmaxub	.LCPI53_15(%rip), %xmm1, %xmm13
	vpcmpeqb	%xmm0, %xmm1, %xmm0
	vpcmpeqb	%xmm1, %xmm13, %xmm13
	vpand	.LCPI53_18(%rip), %xmm1, %xmm1
	vpmovmskb	%xmm12, %r9d
	vpsubusb	%xmm11, %xmm4, %xmm4
	vpsubusb	%xmm8, %xmm2, %xmm8
	vpmaxub	%xmm4, %xmm8, %xmm4
	vpxor	%xmm8, %xmm8, %xmm8
	vpsubusb	%xmm9, %xmm3, %xmm3
	vpor	%xmm3, %xmm4, %xmm3
	vpcmpgtb	%xmm8, %xmm3, %xmm3
	vpxor	%xmm3, %xmm15, %xmm3
	vpbroadcastd	.LCPI53_24(%rip), %xmm4
	vpblendvb	%xmm14, %xmm7, %xmm4, %xmm4
	vpbroadcastd	.LCPI53_25(%rip), %xmm7
	vpblendvb	%xmm0, .LCPI53_17(%rip), %xmm7, %xmm0
	vmovdqa	(%rsp), %xmm7
	vpcmpeqb	%xmm4, %xmm2, %xmm4
	vpor	%xmm4, %xmm13, %xmm4
	vpcmpeqb	%xmm0, %xmm2, %xmm0
	vpcmpeqb	%xmm6, %xmm1, %xmm1
	vpor	%xmm3, %xmm1, %xmm1
	vpor	%xmm1, %xmm4, %xmm1
	vpor	%xmm1, %xmm0, %xmm0
	vpmaxub	%xmm0, %xmm7, %xmm7
	vmovdqa	%xmm10, %xmm1
.LBB53_6:
	vpunpcklbw	%xmm1, %xmm5, %xmm0
	movzbl	%r9b, %r10d
	xorl	%r11d, %r11d
	popcntl	%r10d, %r11d
	shll	$4, %r10d
	leaq	.Lstatic.10(%rip), %rbx
	vpshufb	(%r10,%rbx), %xmm0, %xmm0
	vpunpckhbw	%xmm1, %xmm5, %xmm1
	vmovdqu	%xmm0, (%rcx,%r8)
	shrl	$8, %r9d
	xorl	%r10d, %r10d
	popcntl	%r9d, %r10d
	shll	$4, %r9d
	vpshufb	(%r9,%rbx), %xmm1, %xmm0
	leaq	(%rcx,%r8), %r9
	vmovdqu	%xmm0, (%r9,%r11,2)
	addl	%r11d, %r10d
	leaq	(%r8,%r10,2), %r8
	addq	$16, %rdx
	addq	$-16, %rax
	cmpq	$15, %rax
	jbe	.LBB53_1
.LBB53_7:
	vmovdqu	(%rdi,%rdx), %xmm1
	cmpq	$3, %rdx
	jae	.LBB53_8
	testq	%rdx, %rdx
	je	.LBB53_12
	vpbroadcastb	-1(%rdi,%rdx), %xmm2
	vpalignr	$15, %xmm2, %xmm1, %xmm2
	cmpq	$2, %rdx
	jne	.LBB53_13
	movzbl	(%rdi), %r9d
	jmp	.LBB53_14
.LBB53_12:
	vpslldq	$1, %xmm1, %xmm2
.LBB53_13:
	xorl	%r9d, %r9d
.LBB53_14:
	vmovd	%r9d, %xmm3
	vpbroadcastb	%xmm3, %xmm3
	vpalignr	$15, %xmm3, %xmm2, %xmm4
	vpslldq	$1, %xmm4, %xmm3
	vpor	%xmm1, %xmm3, %xmm5
	vpmovmskb	%xmm5, %r9d
	testl	%r9d, %r9d
	jne	.LBB53_5
.LBB53_15:
	vpxor	%xmm5, %xmm5, %xmm5
	movl	$65535, %r9d
	jmp	.LBB53_6
.LBB53_16:
	vpbroadcastb	-17(%rdi,%rsi), %xmm0
	vpalignr	$15, %xmm0, %xmm1, %xmm2
	cmpq	$2, %rax
	jne	.LBB53_18
	movzbl	(%rdi), %r9d
	jmp	.LBB53_19
.LBB53_18:
	xorl	%r9d, %r9d
.LBB53_19:
	vmovd	%r9d, %xmm0
	vpbroadcastb	%xmm0, %xmm0
	vpalignr	$15, %xmm0, %xmm2, %xmm4
	vpslldq	$1, %xmm4, %xmm3
	vpor	%xmm1, %xmm3, %xmm0
	vpmovmskb	%xmm0, %r9d
	testl	%r9d, %r9d
	jne	.LBB53_4
.LBB53_20:
	vpxor	%xmm6, %xmm6, %xmm6
	movl	$65535, %r9d
.LBB53_21:
	subl	%eax, %edx
	vpunpckhbw	%xmm1, %xmm6, %xmm0
	vpunpcklbw	%xmm1, %xmm6, %xmm1
	movq	$-1, %rax
	shlxq	%rdx, %rax, %rax
	andl	%eax, %r9d
	movzbl	%r9b, %eax
	xorl	%edx, %edx
	popcntl	%eax, %edx
	shll	$4, %eax
	leaq	.Lstatic.10(%rip), %r10
	vpshufb	(%rax,%r10), %xmm1, %xmm1
	vmovdqu	%xmm1, (%rcx,%r8)
	addq	%r8, %rcx
	shrl	$8, %r9d
	xorl	%eax, %eax
	popcntl	%r9d, %eax
	shll	$4, %r9d
	vpshufb	(%r9,%r10), %xmm0, %xmm0
	vmovdqu	%xmm0, (%rcx,%rdx,2)
	addl	%edx, %eax
	leaq	(%r8,%rax,2), %r8
.LBB53_22:
	vptest	%xmm7, %xmm7
	je	.LBB53_24
	xorl	%edx, %edx
	xorl	%eax, %eax
	addq	$16, %rsp
	popq	%rbx
	retq
.LBB53_24:
	cmpb	$-65, -1(%rdi,%rsi)
	jbe	.LBB53_26
	leaq	-1(%rsi), %rax
	jmp	.LBB53_29
.LBB53_26:
	cmpb	$-33, -2(%rdi,%rsi)
	jbe	.LBB53_28
	leaq	-2(%rsi), %rax
	jmp	.LBB53_29
.LBB53_28:
	leaq	-3(%rsi), %rax
	cmpb	$-16, -3(%rdi,%rsi)
	cmovbq	%rsi, %rax
.LBB53_29:
	xorl	%edx, %edx
	cmpq	%rsi, %rax
	setae	%al
	cmovaeq	%r8, %rdx
	addq	$16, %rsp
	popq	%rbx
	retq
.Lfunc_end53:

	.section	.rdata$000,"dr"
	.p2align	4, 0x0
.LCPI54_0:
	.zero	16,192
.LCPI54_1:
	.zero	16,191
.LCPI54_2:
	.zero	16,223
.LCPI54_3:
	.zero	16,239
.LCPI54_4:
	.zero	16,159
.LCPI54_5:
	.zero	16,237
.LCPI54_6:
	.zero	16,224
.LCPI54_7:
	.zero	16,143
.LCPI54_8:
	.zero	16,245
.LCPI54_9:
	.zero	16,244
.LCPI54_10:
	.zero	16,240
.LCPI54_11:
	.zero	16,254
.LCPI54_12:
	.zero	16,15
.LCPI54_13:
	.zero	16,220
.LCPI54_14:
	.zero	16,252
.LCPI54_15:
	.zero	16,3
.LCPI54_16:
	.zero	16,63
.LCPI54_17:
	.zero	16,232
.LCPI54_18:
	.zero	16,127
.LCPI54_19:
	.byte	1
	.byte	2
	.byte	3
	.byte	4
	.byte	5
	.byte	6
	.byte	7
	.byte	8
	.byte	9
	.byte	10
	.byte	11
	.byte	12
	.byte	13
	.byte	14
	.byte	15
	.byte	16
	.section	.rdata$001,"dr"
	.p2align	2, 0x0
.LCPI54_20:
	.zero	4,192
.LCPI54_21:
	.zero	4,237
.LCPI54_22:
	.zero	4,244
.LCPI54_23:
	.zero	4,191
.LCPI54_24:
	.zero	4,15
	.section	.text$063,"xr"
	.p2align	4
L_54:
	pushq	%rbp
	pushq	%r15
	pushq	%r14
	pushq	%r13
	pushq	%r12
	pushq	%rbx
	subq	$344, %rsp
	movq	%r9, %r12
	movq	%r8, %r10
	movq	%rcx, %r15
	movq	400(%rsp), %r14
	movzbl	(%rsi,%r9), %ecx
	testb	%cl, %cl
	movq	%r8, (%rsp)
	js	.LBB54_192
.LBB54_1:
	movq	%rdi, 56(%rsp)
	cmpq	%r12, %rdx
	movq	%rdx, 32(%rsp)
	movq	%r15, 8(%rsp)
	movq	%rsi, 24(%rsp)
	ja	.LBB54_5
.LBB54_2:
	movq	56(%rsp), %rax
	movq	%r12, (%rax)
	movq	%r14, 8(%rax)
	movw	$0, 16(%rax)
	jmp	.LBB54_230
	.p2align	4
.LBB54_3:
	leal	67043328(%rax), %edi
	shrl	$10, %edi
	addl	$-10240, %edi
	rolw	$8, %di
	andl	$1023, %eax
	orl	$56320, %eax
	movbew	%ax, 2(%r15,%r14)
	movl	$4, %ecx
	movl	%edi, %eax
.LBB54_4:
	movw	%ax, (%r15,%r14)
	addq	%rcx, %r14
	addq	%rbx, %r12
	cmpq	%rdx, %r12
	jae	.LBB54_2
.LBB54_5:
	leaq	(%rsi,%r12), %r13
	movq	%rdx, %rbx
	subq	%r12, %rbx
	cmpq	$16, %rbx
	jb	.LBB54_9
	leaq	(%r15,%r14), %rbp
	movq	%r10, %r15
	subq	%r14, %r15
	cmpq	$16, %rbx
	jne	.LBB54_12
	cmpq	$32, %r15
	jae	.LBB54_17
	xorl	%r9d, %r9d
	xorl	%r11d, %r11d
	jmp	.LBB54_76
	.p2align	4
.LBB54_9:
	xorl	%r11d, %r11d
	movq	%rbx, %rbp
	subq	%r11, %rbp
	je	.LBB54_78
.LBB54_10:
	addq	%r11, %r13
	cmpq	$7, %rbp
	ja	.LBB54_14
	movq	%r13, %rdi
	movq	%rbp, %rsi
	movq	%r15, %rdx
	movq	%r10, %rcx
	movq	%r14, %r8
	movq	%r11, %rbx
	vzeroupper
	callq	L_55
	movq	%rbx, %r11
	movq	(%rsp), %r10
	movq	%rax, %rbx
	movq	%rdx, %r15
	movq	24(%rsp), %rsi
	jmp	.LBB54_127
	.p2align	4
.LBB54_12:
	movq	%r15, %rsi
	shrq	%rsi
	cmpq	%rbx, %rsi
	cmovaeq	%rbx, %rsi
	cmpq	$16, %rsi
	jb	.LBB54_13
	vmovdqu	(%r13), %xmm0
	vpmovmskb	%xmm0, %eax
	testl	%eax, %eax
	je	.LBB54_51
.LBB54_13:
	xorl	%r11d, %r11d
.LBB54_71:
	leaq	(%r11,%r11), %r9
	movq	%rbx, %rax
	subq	%r11, %rax
	je	.LBB54_76
	cmpq	$191, %rax
	jbe	.LBB54_74
	movq	%r13, %rdi
	movq	%rbx, %rsi
	movq	%rbp, %rdx
	movq	%r15, %rcx
	movq	%r11, %r8
	vzeroupper
	callq	L_49
	movq	%rax, %r11
	movq	%rdx, %r9
	movq	%rbx, %rax
	subq	%r11, %rax
	cmpq	$191, %rax
	ja	.LBB54_75
.LBB54_74:
	movq	%r13, %rdi
	movq	%rbx, %rsi
	movq	%rbp, %rdx
	movq	%r15, %rcx
	movq	%r11, %r8
	vzeroupper
	callq	L_48
	movq	%rax, %r11
	movq	%rdx, %r9
.LBB54_75:
	movq	(%rsp), %r10
.LBB54_76:
	movq	32(%rsp), %rdx
	movq	8(%rsp), %r15
.LBB54_77:
	addq	%r9, %r14
	movq	%rbx, %rbp
	subq	%r11, %rbp
	jne	.LBB54_10
.LBB54_78:
	movq	24(%rsp), %rsi
	addq	%r12, %rbx
	movq	%rdx, %r11
	subq	%rbx, %r11
	jne	.LBB54_128
	jmp	.LBB54_204
	.p2align	4
.LBB54_14:
	cmpq	$128, %rbp
	movl	$128, %ebx
	cmovbq	%rbp, %rbx
	movq	%r10, %r9
	subq	%r14, %r9
	xorl	%eax, %eax
	movq	%r9, %rcx
	subq	$16, %rcx
	cmovaeq	%rcx, %rax
	shrq	%rax
	cmpq	%rax, %rbx
	movq	%r11, 16(%rsp)
	jbe	.LBB54_25
	cmpq	$23, %r9
	ja	.LBB54_28
.LBB54_16:
	movq	%r13, %rdi
	movq	%rbp, %rsi
	movq	%r15, %rdx
	movq	%r10, %rcx
	movq	%r14, %r8
	vzeroupper
	callq	L_55
	jmp	.LBB54_31
.LBB54_17:
	vmovdqu	(%r13), %xmm0
	vpmovmskb	%xmm0, %eax
	testl	%eax, %eax
	movq	32(%rsp), %rdx
	movq	8(%rsp), %r15
	je	.LBB54_50
	vmovq	8(%r13), %xmm1
	vpextrb	$5, %xmm1, %eax
	xorl	%r9d, %r9d
	cmpb	$-17, %al
	ja	.LBB54_79
	vpextrb	$7, %xmm1, %eax
	cmpb	$-65, %al
	ja	.LBB54_79
	vpextrb	$6, %xmm1, %eax
	movl	$0, %r11d
	cmpb	$-33, %al
	ja	.LBB54_77
	vpslldq	$1, %xmm0, %xmm1
	vpslldq	$2, %xmm0, %xmm3
	vpslldq	$3, %xmm0, %xmm4
	vpbroadcastd	.LCPI54_20(%rip), %xmm2
	vpsubusb	.LCPI54_1(%rip), %xmm1, %xmm5
	vpsubusb	.LCPI54_2(%rip), %xmm3, %xmm6
	vpcmpgtb	%xmm0, %xmm2, %xmm7
	vpmaxub	%xmm6, %xmm5, %xmm5
	vpsubusb	.LCPI54_3(%rip), %xmm4, %xmm4
	vpor	%xmm4, %xmm5, %xmm4
	vpminub	.LCPI54_4(%rip), %xmm0, %xmm5
	vpcmpeqb	%xmm5, %xmm0, %xmm5
	vpbroadcastd	.LCPI54_21(%rip), %xmm6
	vpblendvb	%xmm5, .LCPI54_6(%rip), %xmm6, %xmm5
	vpxor	%xmm6, %xmm6, %xmm6
	vpcmpgtb	%xmm6, %xmm4, %xmm4
	vpminub	.LCPI54_7(%rip), %xmm0, %xmm6
	vpxor	%xmm4, %xmm7, %xmm4
	vpcmpeqb	%xmm6, %xmm0, %xmm6
	vpmaxub	.LCPI54_8(%rip), %xmm0, %xmm7
	vpbroadcastd	.LCPI54_22(%rip), %xmm8
	vpblendvb	%xmm6, .LCPI54_10(%rip), %xmm8, %xmm6
	vpcmpeqb	%xmm5, %xmm1, %xmm5
	vpcmpeqb	%xmm7, %xmm0, %xmm7
	vpcmpeqb	%xmm6, %xmm1, %xmm6
	vpor	%xmm5, %xmm6, %xmm5
	vpor	%xmm7, %xmm5, %xmm5
	vpand	.LCPI54_11(%rip), %xmm0, %xmm6
	vpcmpeqb	%xmm2, %xmm6, %xmm6
	vpor	%xmm4, %xmm6, %xmm4
	vpor	%xmm4, %xmm5, %xmm4
	vpmovmskb	%xmm4, %eax
	testl	%eax, %eax
	je	.LBB54_80
	xorl	%r9d, %r9d
	xorl	%r11d, %r11d
	jmp	.LBB54_77
.LBB54_25:
	vpxor	%xmm0, %xmm0, %xmm0
	cmpq	$63, %rbp
	ja	.LBB54_33
	vmovdqu	%ymm0, 64(%rsp)
	leaq	64(%rsp), %rdi
	movq	%r13, %rsi
	movq	%rbx, %rdx
	vzeroupper
	callq	L_1
	cmpb	$0, 64(%rsp)
	je	.LBB54_67
	movq	72(%rsp), %rax
	jmp	.LBB54_37
.LBB54_28:
	vpxor	%xmm0, %xmm0, %xmm0
	vmovdqu	%ymm0, 308(%rsp)
	vmovdqu	%ymm0, 288(%rsp)
	vmovdqu	%ymm0, 256(%rsp)
	vmovdqu	%ymm0, 224(%rsp)
	vmovdqu	%ymm0, 192(%rsp)
	vmovdqu	%ymm0, 160(%rsp)
	vmovdqu	%ymm0, 128(%rsp)
	vmovdqu	%ymm0, 96(%rsp)
	vmovdqu	%ymm0, 64(%rsp)
	cmpq	$15, %rbp
	ja	.LBB54_58
	leaq	64(%rsp), %rdx
	movq	%r13, %rdi
	movq	%rbp, %rsi
	movq	%r15, %rcx
	movq	%r10, %r8
	movq	%r14, %r9
.LBB54_30:
	vzeroupper
	callq	L_56
.LBB54_31:
	movq	%rax, %rbx
	movq	%rdx, %r15
.LBB54_32:
	movq	(%rsp), %r10
	movq	24(%rsp), %rsi
	movq	16(%rsp), %r11
	jmp	.LBB54_127
.LBB54_33:
	vmovdqu	%ymm0, 64(%rsp)
	leaq	64(%rsp), %rdi
	movl	$63, %r15d
	movl	$63, %edx
	movq	%r13, %rsi
	vzeroupper
	callq	L_1
	cmpb	$0, 64(%rsp)
	movq	72(%rsp), %rax
	cmovneq	%rax, %r15
	leaq	4(%r15), %rcx
	cmpq	$64, %rcx
	jb	.LBB54_37
	leaq	(%r15,%r13), %rsi
	subq	%r15, %rbx
	vpxor	%xmm0, %xmm0, %xmm0
	vmovdqu	%ymm0, 64(%rsp)
	leaq	64(%rsp), %rdi
	movq	%rbx, %rdx
	vzeroupper
	callq	L_1
	cmpb	$0, 64(%rsp)
	je	.LBB54_36
	movq	72(%rsp), %rbx
.LBB54_36:
	addq	%r15, %rbx
	movq	%rbx, %rax
.LBB54_37:
	testq	%rax, %rax
	je	.LBB54_54
	movq	8(%rsp), %r15
	leaq	(%r15,%r14), %rbp
	cmpq	$7, %rax
	movq	(%rsp), %r10
	movq	16(%rsp), %r11
	ja	.LBB54_55
	xorl	%r9d, %r9d
	movq	%rax, %rcx
	jmp	.LBB54_40
.LBB54_48:
	addl	$67043328, %edx
	shrl	$10, %edx
	addl	$-10240, %edx
	movbew	%dx, (%r8)
	orl	$56320, %edi
	movbew	%di, 2(%r8)
	movl	$4, %edx
	addq	%rdx, %r9
	testq	%rcx, %rcx
	je	.LBB54_49
	.p2align	4
.LBB54_40:
	movzbl	(%r13), %edx
	movl	$1, %edi
	testb	%dl, %dl
	jns	.LBB54_45
	movzbl	1(%r13), %esi
	andl	$63, %esi
	cmpb	$-33, %dl
	ja	.LBB54_43
	andl	$31, %edx
	shll	$6, %edx
	orl	%esi, %edx
	movl	$2, %edi
	jmp	.LBB54_45
.LBB54_43:
	movzbl	2(%r13), %edi
	andl	$63, %edi
	cmpb	$-17, %dl
	ja	.LBB54_47
	shll	$12, %edx
	movzwl	%dx, %edx
	shll	$6, %esi
	orl	%edx, %esi
	orl	%edi, %esi
	movl	$3, %edi
	movl	%esi, %edx
	.p2align	4
.LBB54_45:
	addq	%rdi, %r13
	subq	%rdi, %rcx
	leaq	(%r9,%rbp), %r8
.LBB54_46:
	movbew	%dx, (%r8)
	movl	$2, %edx
	addq	%rdx, %r9
	testq	%rcx, %rcx
	jne	.LBB54_40
	jmp	.LBB54_49
.LBB54_47:
	movzbl	3(%r13), %r8d
	andl	$63, %r8d
	andl	$7, %edx
	shll	$18, %edx
	shll	$12, %esi
	orl	%edx, %esi
	shll	$6, %edi
	orl	%r8d, %edi
	leal	(%rdi,%rsi), %edx
	addq	$4, %r13
	addq	$-4, %rcx
	leaq	(%r9,%rbp), %r8
	cmpl	$65535, %esi
	jbe	.LBB54_46
	jmp	.LBB54_48
.LBB54_51:
	cmpq	$31, %rsi
	ja	.LBB54_70
	vpmovzxbw	%xmm0, %ymm0
	vpsllw	$8, %ymm0, %ymm0
	vmovdqu	%ymm0, (%rbp)
	vmovdqu	-16(%rsi,%r13), %xmm0
	vpmovmskb	%xmm0, %eax
	movl	$16, %r11d
	testl	%eax, %eax
	jne	.LBB54_71
	vpmovzxbw	%xmm0, %ymm0
	vpsllw	$8, %ymm0, %ymm0
	vmovdqu	%ymm0, -32(%rbp,%rsi,2)
	movq	%rsi, %r11
	jmp	.LBB54_71
.LBB54_50:
	vpmovzxbw	%xmm0, %ymm0
	vpsllw	$8, %ymm0, %ymm0
	vmovdqu	%ymm0, (%rbp)
	movl	$16, %r11d
	movl	$32, %r9d
	jmp	.LBB54_77
.LBB54_54:
	xorl	%ebx, %ebx
	movq	(%rsp), %r10
	movq	24(%rsp), %rsi
	movq	16(%rsp), %r11
	jmp	.LBB54_126
.LBB54_55:
	movq	%rax, %rbx
	cmpq	$16, %rbx
	ja	.LBB54_68
.LBB54_56:
	vmovq	-8(%r13,%rbx), %xmm0
	vmovq	(%r13), %xmm1
	vpunpcklqdq	%xmm0, %xmm1, %xmm0
	movq	%rbx, %rax
	shlq	$4, %rax
	leaq	.Lstatic.1(%rip), %rcx
	vpshufb	-128(%rax,%rcx), %xmm0, %xmm0
	vpmovmskb	%xmm0, %ecx
	leaq	(%r15,%r14), %rax
	testl	%ecx, %ecx
	je	.LBB54_86
	leaq	.Lstatic.2(%rip), %rcx
	subq	%rbx, %rcx
	vpmaxub	16(%rcx), %xmm0, %xmm1
	vpslldq	$1, %xmm1, %xmm0
	vpbroadcastd	.LCPI54_20(%rip), %xmm3
	vpblendvb	%xmm1, %xmm0, %xmm3, %xmm4
	vpslldq	$2, %xmm1, %xmm5
	vpbroadcastd	.LCPI54_23(%rip), %xmm2
	vpmaxub	.LCPI54_6(%rip), %xmm5, %xmm6
	vpsrlw	$2, %xmm4, %xmm7
	vpbroadcastd	.LCPI54_24(%rip), %xmm8
	vpand	%xmm7, %xmm8, %xmm7
	vpsllw	$4, %xmm6, %xmm6
	vpandn	%xmm6, %xmm8, %xmm6
	vpor	%xmm6, %xmm7, %xmm6
	vpmaxub	%xmm5, %xmm4, %xmm7
	vpminub	%xmm2, %xmm7, %xmm8
	vpcmpeqb	%xmm7, %xmm8, %xmm7
	vpand	.LCPI54_13(%rip), %xmm7, %xmm7
	vpor	%xmm7, %xmm6, %xmm6
	vpsllw	$2, %xmm0, %xmm7
	vpand	.LCPI54_14(%rip), %xmm7, %xmm7
	vpsrlw	$4, %xmm1, %xmm8
	vpand	.LCPI54_15(%rip), %xmm8, %xmm8
	vpminub	.LCPI54_16(%rip), %xmm7, %xmm9
	vpcmpeqb	%xmm7, %xmm9, %xmm9
	vpaddb	%xmm5, %xmm9, %xmm9
	vpaddb	.LCPI54_17(%rip), %xmm9, %xmm9
	vpor	%xmm7, %xmm8, %xmm7
	vpminub	.LCPI54_3(%rip), %xmm5, %xmm8
	vpcmpeqb	%xmm5, %xmm8, %xmm5
	vpblendvb	%xmm5, %xmm6, %xmm9, %xmm6
	vpand	.LCPI54_18(%rip), %xmm1, %xmm8
	vpaddb	%xmm3, %xmm7, %xmm7
	vpsllw	$6, %xmm4, %xmm4
	vpand	%xmm3, %xmm4, %xmm3
	vpaddb	%xmm3, %xmm8, %xmm3
	vpblendvb	%xmm5, %xmm3, %xmm7, %xmm3
	vpunpcklbw	%xmm3, %xmm6, %xmm4
	vpminub	%xmm2, %xmm1, %xmm2
	vpcmpeqb	%xmm2, %xmm1, %xmm1
	vpminub	.LCPI54_2(%rip), %xmm0, %xmm2
	vpcmpeqb	%xmm2, %xmm0, %xmm0
	vpand	%xmm0, %xmm1, %xmm0
	vpmovmskb	%xmm0, %ecx
	movzbl	%cl, %edx
	popcntl	%edx, %esi
	shll	$4, %edx
	leaq	.Lstatic.10(%rip), %rdi
	vpshufb	(%rdx,%rdi), %xmm4, %xmm0
	vpunpckhbw	%xmm3, %xmm6, %xmm1
	vmovdqu	%xmm0, (%rbp)
	shrl	$8, %ecx
	popcntl	%ecx, %r9d
	shll	$4, %ecx
	vpshufb	(%rcx,%rdi), %xmm1, %xmm0
	vmovdqu	%xmm0, (%rax,%rsi,2)
	addl	%esi, %r9d
	addl	%r9d, %r9d
	jmp	.LBB54_125
.LBB54_49:
	movq	%rax, %rbx
	jmp	.LBB54_125
.LBB54_58:
	movzbl	(%r13), %ecx
	movl	$1, %eax
	testb	%cl, %cl
	js	.LBB54_83
.LBB54_59:
	movzbl	(%r13,%rax), %ecx
	testb	%cl, %cl
	js	.LBB54_88
.LBB54_60:
	xorl	%esi, %esi
	cmpq	$65, %r9
	setae	%sil
	shll	$6, %esi
	addq	$66, %rsi
	cmpq	%rbp, %rsi
	cmovaeq	%rbp, %rsi
	cmpq	$16, %rbp
	jne	.LBB54_91
	vmovq	-8(%r13,%rsi), %xmm1
	vmovq	(%r13), %xmm0
	vpunpcklqdq	%xmm1, %xmm0, %xmm0
	movq	%rsi, %rax
	shlq	$4, %rax
	leaq	.Lstatic.1(%rip), %rcx
	vpshufb	-128(%rax,%rcx), %xmm0, %xmm0
	vpmovmskb	%xmm0, %eax
	testl	%eax, %eax
	je	.LBB54_108
	vpextrb	$5, %xmm1, %eax
	xorl	%r15d, %r15d
	cmpb	$-17, %al
	ja	.LBB54_165
	vpextrb	$7, %xmm1, %eax
	cmpb	$-65, %al
	ja	.LBB54_165
	vpextrb	$6, %xmm1, %eax
	movl	$0, %ebx
	cmpb	$-33, %al
	ja	.LBB54_166
	vpslldq	$1, %xmm0, %xmm1
	vpslldq	$2, %xmm0, %xmm3
	vpslldq	$3, %xmm0, %xmm4
	vpbroadcastd	.LCPI54_20(%rip), %xmm2
	vpcmpgtb	%xmm0, %xmm2, %xmm5
	vpsubusb	.LCPI54_1(%rip), %xmm1, %xmm6
	vpsubusb	.LCPI54_2(%rip), %xmm3, %xmm7
	vpsubusb	.LCPI54_3(%rip), %xmm4, %xmm4
	vpmaxub	%xmm7, %xmm6, %xmm6
	vpor	%xmm4, %xmm6, %xmm4
	vpxor	%xmm6, %xmm6, %xmm6
	vpcmpgtb	%xmm6, %xmm4, %xmm4
	vpxor	%xmm4, %xmm5, %xmm4
	vpminub	.LCPI54_4(%rip), %xmm0, %xmm5
	vpcmpeqb	%xmm5, %xmm0, %xmm5
	vpbroadcastd	.LCPI54_21(%rip), %xmm6
	vpblendvb	%xmm5, .LCPI54_6(%rip), %xmm6, %xmm5
	vpcmpeqb	%xmm5, %xmm1, %xmm5
	vpminub	.LCPI54_7(%rip), %xmm0, %xmm6
	vpcmpeqb	%xmm6, %xmm0, %xmm6
	vpmaxub	.LCPI54_8(%rip), %xmm0, %xmm7
	vpcmpeqb	%xmm7, %xmm0, %xmm7
	vpbroadcastd	.LCPI54_22(%rip), %xmm8
	vpblendvb	%xmm6, .LCPI54_10(%rip), %xmm8, %xmm6
	vpcmpeqb	%xmm6, %xmm1, %xmm6
	vpor	%xmm5, %xmm6, %xmm5
	vpor	%xmm7, %xmm5, %xmm5
	vpand	.LCPI54_11(%rip), %xmm0, %xmm6
	vpcmpeqb	%xmm2, %xmm6, %xmm6
	vpor	%xmm4, %xmm6, %xmm4
	vpor	%xmm4, %xmm5, %xmm4
	vmovd	%esi, %xmm5
	vpbroadcastb	%xmm5, %xmm5
	vpmaxub	.LCPI54_19(%rip), %xmm5, %xmm6
	vpcmpeqb	%xmm6, %xmm5, %xmm5
	vpsllw	$7, %xmm4, %xmm4
	vpand	%xmm4, %xmm5, %xmm4
	vpmovmskb	%xmm4, %eax
	testl	%eax, %eax
	je	.LBB54_164
	xorl	%r15d, %r15d
.LBB54_165:
	xorl	%ebx, %ebx
	jmp	.LBB54_166
.LBB54_79:
	xorl	%r11d, %r11d
	jmp	.LBB54_77
.LBB54_67:
	leaq	(%r15,%r14), %rbp
	movq	(%rsp), %r10
	movq	16(%rsp), %r11
	cmpq	$16, %rbx
	jbe	.LBB54_56
.LBB54_68:
	leaq	16(,%rbx,2), %r15
	movq	%r15, %rsi
	shrq	%rsi
	cmpq	%rbx, %rsi
	cmovaeq	%rbx, %rsi
	cmpq	$32, %r15
	jb	.LBB54_69
	vmovdqu	(%r13), %xmm0
	vpmovmskb	%xmm0, %eax
	testl	%eax, %eax
	je	.LBB54_100
.LBB54_69:
	xorl	%r8d, %r8d
.LBB54_118:
	leaq	(%r8,%r8), %r9
	movq	%rbx, %rax
	subq	%r8, %rax
	je	.LBB54_125
	cmpq	$191, %rax
	ja	.LBB54_121
	movq	%r13, %rdi
	movq	%rbx, %rsi
	movq	%rbp, %rdx
	movq	%r15, %rcx
	jmp	.LBB54_123
.LBB54_70:
	movq	%r13, %rdi
	movq	%rbp, %rdx
	vzeroupper
	callq	L_50
	movq	(%rsp), %r10
	movq	%rax, %r11
	jmp	.LBB54_71
.LBB54_80:
	vpblendvb	%xmm0, %xmm1, %xmm2, %xmm5
	vpbroadcastd	.LCPI54_23(%rip), %xmm4
	vpmaxub	.LCPI54_6(%rip), %xmm3, %xmm6
	vpsrlw	$2, %xmm5, %xmm7
	vpbroadcastd	.LCPI54_24(%rip), %xmm8
	vpand	%xmm7, %xmm8, %xmm7
	vpsllw	$4, %xmm6, %xmm6
	vpandn	%xmm6, %xmm8, %xmm6
	vpmaxub	%xmm3, %xmm5, %xmm8
	vpminub	%xmm4, %xmm8, %xmm9
	vpcmpeqb	%xmm9, %xmm8, %xmm8
	vpand	.LCPI54_13(%rip), %xmm8, %xmm8
	vpor	%xmm6, %xmm7, %xmm6
	vpsllw	$2, %xmm1, %xmm7
	vpand	.LCPI54_14(%rip), %xmm7, %xmm7
	vpor	%xmm6, %xmm8, %xmm6
	vpsrlw	$4, %xmm0, %xmm8
	vpand	.LCPI54_15(%rip), %xmm8, %xmm8
	vpminub	.LCPI54_16(%rip), %xmm7, %xmm9
	vpcmpeqb	%xmm7, %xmm9, %xmm9
	vpaddb	%xmm3, %xmm9, %xmm9
	vpaddb	.LCPI54_17(%rip), %xmm9, %xmm9
	vpminub	.LCPI54_3(%rip), %xmm3, %xmm10
	vpor	%xmm7, %xmm8, %xmm7
	vpcmpeqb	%xmm3, %xmm10, %xmm3
	vpblendvb	%xmm3, %xmm6, %xmm9, %xmm6
	vpaddb	%xmm2, %xmm7, %xmm7
	vpand	.LCPI54_18(%rip), %xmm0, %xmm8
	vpsllw	$6, %xmm5, %xmm5
	vpand	%xmm2, %xmm5, %xmm2
	vpaddb	%xmm2, %xmm8, %xmm2
	vpblendvb	%xmm3, %xmm2, %xmm7, %xmm2
	vpunpcklbw	%xmm2, %xmm6, %xmm3
	vpminub	.LCPI54_2(%rip), %xmm1, %xmm5
	vpcmpeqb	%xmm5, %xmm1, %xmm1
	vpminub	%xmm4, %xmm0, %xmm4
	vpcmpeqb	%xmm4, %xmm0, %xmm0
	vpand	%xmm1, %xmm0, %xmm0
	vpmovmskb	%xmm0, %eax
	movzbl	%al, %ecx
	popcntl	%ecx, %edi
	shll	$4, %ecx
	leaq	.Lstatic.10(%rip), %rsi
	vpshufb	(%rcx,%rsi), %xmm3, %xmm0
	vmovdqu	%xmm0, (%rbp)
	vpunpckhbw	%xmm2, %xmm6, %xmm0
	shrl	$8, %eax
	popcntl	%eax, %r9d
	shll	$4, %eax
	vpshufb	(%rax,%rsi), %xmm0, %xmm0
	vmovdqu	%xmm0, (%rbp,%rdi,2)
	addl	%edi, %r9d
	addl	%r9d, %r9d
	movl	$16, %r11d
	jmp	.LBB54_77
.LBB54_83:
	cmpb	$-31, %cl
	jae	.LBB54_97
	movzbl	1(%r13), %edx
	movl	%ecx, %eax
	shrb	$4, %al
	andb	$12, %al
	movl	%edx, %esi
	shrb	$6, %sil
	orb	%al, %sil
	cmpb	$14, %sil
	jne	.LBB54_16
	leal	62(%rcx), %esi
	movl	$2, %eax
	cmpb	$30, %sil
	jb	.LBB54_59
	jmp	.LBB54_114
.LBB54_86:
	leaq	(%rbx,%rbx), %r9
	vpmovzxbw	%xmm0, %ymm0
	vpsllw	$8, %ymm0, %ymm0
	vmovdqu	%xmm0, (%rbp)
	vextracti128	$1, %ymm0, 16(%rax)
	jmp	.LBB54_125
.LBB54_88:
	leal	31(%rcx), %esi
	movzbl	1(%r13,%rax), %edx
	cmpb	$11, %sil
	ja	.LBB54_103
	cmpb	$-65, %dl
	jg	.LBB54_16
	cmpb	$-64, 2(%r13,%rax)
	jge	.LBB54_16
	jmp	.LBB54_60
.LBB54_91:
	vmovdqu	(%r13), %xmm0
	vpmovmskb	%xmm0, %eax
	testl	%eax, %eax
	movq	%r9, 40(%rsp)
	je	.LBB54_109
	xorl	%r15d, %r15d
	xorl	%ebx, %ebx
.LBB54_93:
	movq	%rsi, %rax
	subq	%rbx, %rax
	cmpq	$191, %rax
	jbe	.LBB54_95
	leaq	64(%rsp), %rdx
	movl	$276, %ecx
	movq	%r13, %rdi
	movq	%rsi, 48(%rsp)
	movq	48(%rsp), %rsi
	movq	%rbx, %r8
	movq	%r15, %r9
	vzeroupper
	callq	L_49
	movq	48(%rsp), %rsi
	movq	%rax, %rbx
	movq	%rdx, %r15
	movq	%rsi, %rax
	subq	%rbx, %rax
	cmpq	$191, %rax
	ja	.LBB54_96
.LBB54_95:
	leaq	64(%rsp), %rdx
	movl	$276, %ecx
	movq	%r13, %rdi
	movq	%rbx, %r8
	movq	%r15, %r9
	vzeroupper
	callq	L_48
	movq	%rax, %rbx
	movq	%rdx, %r15
.LBB54_96:
	movq	40(%rsp), %r9
	jmp	.LBB54_166
.LBB54_121:
	movq	%r13, %rdi
	movq	%rbx, %rsi
	movq	%rbp, %rdx
	movq	%r15, %rcx
	vzeroupper
	callq	L_49
	movq	%rdx, %r9
	movq	%rbx, %rcx
	subq	%rax, %rcx
	cmpq	$191, %rcx
	ja	.LBB54_124
	movq	%r13, %rdi
	movq	%rbx, %rsi
	movq	%rbp, %rdx
	movq	%r15, %rcx
	movq	%rax, %r8
.LBB54_123:
	vzeroupper
	callq	L_48
	movq	%rdx, %r9
.LBB54_124:
	movq	(%rsp), %r10
	movq	16(%rsp), %r11
.LBB54_125:
	movq	24(%rsp), %rsi
	addq	%r9, %r14
.LBB54_126:
	movq	%r14, %r15
.LBB54_127:
	addq	%r11, %rbx
	movq	%r15, %r14
	movq	32(%rsp), %rdx
	movq	8(%rsp), %r15
	addq	%r12, %rbx
	movq	%rdx, %r11
	subq	%rbx, %r11
	je	.LBB54_204
.LBB54_128:
	movzbl	(%rsi,%rbx), %eax
	testb	%al, %al
	js	.LBB54_133
	movl	$1, %r12d
.LBB54_130:
	movq	%r10, %rcx
	subq	%r14, %rcx
	xorl	%edi, %edi
	cmpl	$65536, %eax
	setae	%dil
	leaq	2(,%rdi,2), %rdi
	cmpq	%rdi, %rcx
	jb	.LBB54_205
	cmpl	$65535, %eax
	ja	.LBB54_3
	rolw	$8, %ax
	movl	$2, %ecx
	jmp	.LBB54_4
	.p2align	4
.LBB54_133:
	cmpq	$3, %r11
	jb	.LBB54_138
	leal	31(%rax), %ecx
	cmpb	$11, %cl
	ja	.LBB54_139
	movzbl	1(%rsi,%rbx), %ecx
	cmpb	$-65, %cl
	jg	.LBB54_139
	movzbl	2(%rsi,%rbx), %edi
	cmpb	$-65, %dil
	jg	.LBB54_139
	shll	$12, %eax
	shll	$6, %ecx
	addl	%eax, %ecx
	leal	(%rdi,%rcx), %eax
	addl	$-925824, %eax
	movl	$3, %r12d
	jmp	.LBB54_130
.LBB54_138:
	cmpq	$2, %r11
	jne	.LBB54_217
.LBB54_139:
	movzbl	1(%rsi,%rbx), %r12d
	movl	%eax, %ecx
	shrb	$4, %cl
	andb	$12, %cl
	movl	%r12d, %edi
	shrb	$6, %dil
	orb	%cl, %dil
	movb	$1, %cl
	cmpb	$14, %dil
	jne	.LBB54_228
	leal	31(%rax), %edi
	cmpb	$12, %dil
	jae	.LBB54_145
.LBB54_141:
	cmpq	$2, %r11
	je	.LBB54_215
	movzbl	2(%rsi,%rbx), %edi
	cmpb	$-65, %dil
	jg	.LBB54_216
	cmpb	$-17, %al
	ja	.LBB54_149
	shll	$12, %eax
	shll	$6, %r12d
	addl	%eax, %r12d
	leal	(%rdi,%r12), %eax
	addl	$-925824, %eax
	movl	$3, %r12d
	jmp	.LBB54_130
.LBB54_145:
	leal	62(%rax), %edi
	cmpb	$30, %dil
	jb	.LBB54_160
	movb	$-65, %r8b
	leal	-224(%rax), %r9d
	cmpl	$20, %r9d
	ja	.LBB54_155
	leaq	.LJTI54_3(%rip), %r10
	movslq	(%r10,%r9,4), %r9
	addq	%r10, %r9
	movq	(%rsp), %r10
	jmpq	*%r9
.LBB54_148:
	movb	$-96, %r9b
	jmp	.LBB54_156
.LBB54_149:
	cmpq	$4, %r11
	jb	.LBB54_215
	movzbl	3(%rsi,%rbx), %r8d
	cmpb	$-65, %r8b
	jg	.LBB54_218
	shll	$18, %eax
	shll	$12, %r12d
	addl	%eax, %r12d
	shll	$6, %edi
	addl	%r12d, %edi
	leal	(%r8,%rdi), %eax
	addl	$-63447168, %eax
	movl	$4, %r12d
	jmp	.LBB54_130
.LBB54_152:
	movb	$-112, %r9b
	jmp	.LBB54_156
.LBB54_153:
	movb	$-97, %r8b
	jmp	.LBB54_155
.LBB54_154:
	movb	$-113, %r8b
.LBB54_155:
	movb	$-128, %r9b
.LBB54_156:
	cmpb	$50, %dil
	ja	.LBB54_228
	cmpb	%r12b, %r9b
	ja	.LBB54_228
	cmpb	%r8b, %r12b
	ja	.LBB54_228
	cmpb	$-33, %al
	ja	.LBB54_141
.LBB54_160:
	shll	$6, %eax
	addl	%r12d, %eax
	addl	$-12416, %eax
	movl	$2, %r12d
	jmp	.LBB54_130
.LBB54_97:
	movzbl	1(%r13), %edx
	cmpb	$-20, %cl
	ja	.LBB54_112
	cmpb	$-65, %dl
	jg	.LBB54_16
	movl	$3, %eax
	cmpb	$-64, 2(%r13)
	jge	.LBB54_16
	jmp	.LBB54_59
.LBB54_100:
	cmpq	$31, %rsi
	ja	.LBB54_117
	vpmovzxbw	%xmm0, %ymm0
	vpsllw	$8, %ymm0, %ymm0
	movq	8(%rsp), %rax
	vmovdqu	%ymm0, (%rax,%r14)
	vmovdqu	-16(%rsi,%r13), %xmm0
	vpmovmskb	%xmm0, %eax
	movl	$16, %r8d
	testl	%eax, %eax
	jne	.LBB54_118
	movq	8(%rsp), %rax
	addq	%r14, %rax
	vpmovzxbw	%xmm0, %ymm0
	vpsllw	$8, %ymm0, %ymm0
	vmovdqu	%ymm0, -32(%rax,%rsi,2)
	movq	%rsi, %r8
	jmp	.LBB54_118
.LBB54_103:
	movl	%ecx, %esi
	shrb	$4, %sil
	andb	$12, %sil
	movl	%edx, %edi
	shrb	$6, %dil
	orb	%sil, %dil
	cmpb	$14, %dil
	jne	.LBB54_16
	leal	62(%rcx), %esi
	cmpb	$30, %sil
	jb	.LBB54_60
	movb	$-65, %dil
	leal	-224(%rcx), %r8d
	cmpl	$20, %r8d
	ja	.LBB54_184
	movq	%r9, %rbx
	leaq	.LJTI54_2(%rip), %r9
	movslq	(%r9,%r8,4), %r8
	addq	%r9, %r8
	movq	%rbx, %r9
	jmpq	*%r8
.LBB54_107:
	movb	$-96, %r8b
	jmp	.LBB54_185
.LBB54_108:
	vpmovzxbw	%xmm0, %ymm0
	vpsllw	$8, %ymm0, %ymm0
	vmovdqu	%ymm0, 64(%rsp)
	movl	$16, %ebx
	movl	$32, %r15d
	jmp	.LBB54_166
.LBB54_109:
	cmpq	$31, %rbp
	ja	.LBB54_161
	vpmovzxbw	%xmm0, %ymm0
	vpsllw	$8, %ymm0, %ymm0
	vmovdqu	%ymm0, 64(%rsp)
	vmovdqu	-16(%rsi,%r13), %xmm0
	vpmovmskb	%xmm0, %eax
	movl	$16, %ebx
	testl	%eax, %eax
	jne	.LBB54_162
	vpmovzxbw	%xmm0, %ymm0
	vpsllw	$8, %ymm0, %ymm0
	vmovdqu	%ymm0, 32(%rsp,%rsi,2)
	leaq	(%rsi,%rsi), %r15
	movq	%rsi, %rbx
	jmp	.LBB54_166
.LBB54_112:
	cmpb	$-65, %dl
	jg	.LBB54_16
	leal	62(%rcx), %esi
.LBB54_114:
	movb	$-65, %al
	leal	-224(%rcx), %edi
	cmpl	$20, %edi
	ja	.LBB54_173
	leaq	.LJTI54_1(%rip), %r8
	movslq	(%r8,%rdi,4), %rdi
	addq	%r8, %rdi
	jmpq	*%rdi
.LBB54_116:
	movb	$-96, %dil
	jmp	.LBB54_174
.LBB54_117:
	movq	%r13, %rdi
	movq	%rbp, %rdx
	callq	L_50
	movq	16(%rsp), %r11
	movq	(%rsp), %r10
	movq	%rax, %r8
	jmp	.LBB54_118
.LBB54_161:
	leaq	64(%rsp), %rdx
	movq	%r13, %rdi
	movq	%rsi, %r15
	vzeroupper
	callq	L_50
	movq	%r15, %rsi
	movq	40(%rsp), %r9
	movq	%rax, %rbx
.LBB54_162:
	leaq	(%rbx,%rbx), %r15
	cmpq	%rsi, %rbx
	jne	.LBB54_93
	jmp	.LBB54_166
.LBB54_164:
	vpblendvb	%xmm0, %xmm1, %xmm2, %xmm5
	vpbroadcastd	.LCPI54_23(%rip), %xmm4
	vpmaxub	.LCPI54_6(%rip), %xmm3, %xmm6
	vpsrlw	$2, %xmm5, %xmm7
	vpbroadcastd	.LCPI54_24(%rip), %xmm8
	vpand	%xmm7, %xmm8, %xmm7
	vpsllw	$4, %xmm6, %xmm6
	vpandn	%xmm6, %xmm8, %xmm6
	vpmaxub	%xmm3, %xmm5, %xmm8
	vpminub	%xmm4, %xmm8, %xmm9
	vpcmpeqb	%xmm9, %xmm8, %xmm8
	vpand	.LCPI54_13(%rip), %xmm8, %xmm8
	vpor	%xmm6, %xmm7, %xmm6
	vpsllw	$2, %xmm1, %xmm7
	vpand	.LCPI54_14(%rip), %xmm7, %xmm7
	vpor	%xmm6, %xmm8, %xmm6
	vpsrlw	$4, %xmm0, %xmm8
	vpand	.LCPI54_15(%rip), %xmm8, %xmm8
	vpminub	.LCPI54_16(%rip), %xmm7, %xmm9
	vpcmpeqb	%xmm7, %xmm9, %xmm9
	vpaddb	%xmm3, %xmm9, %xmm9
	vpaddb	.LCPI54_17(%rip), %xmm9, %xmm9
	vpminub	.LCPI54_3(%rip), %xmm3, %xmm10
	vpor	%xmm7, %xmm8, %xmm7
	vpcmpeqb	%xmm3, %xmm10, %xmm3
	vpblendvb	%xmm3, %xmm6, %xmm9, %xmm6
	vpaddb	%xmm2, %xmm7, %xmm7
	vpand	.LCPI54_18(%rip), %xmm0, %xmm8
	vpsllw	$6, %xmm5, %xmm5
	vpand	%xmm2, %xmm5, %xmm2
	vpaddb	%xmm2, %xmm8, %xmm2
	vpblendvb	%xmm3, %xmm2, %xmm7, %xmm2
	vpunpcklbw	%xmm2, %xmm6, %xmm3
	vpminub	%xmm4, %xmm0, %xmm4
	vpminub	.LCPI54_2(%rip), %xmm1, %xmm5
	vpcmpeqb	%xmm4, %xmm0, %xmm0
	vpcmpeqb	%xmm5, %xmm1, %xmm1
	vpand	%xmm1, %xmm0, %xmm0
	vpmovmskb	%xmm0, %eax
	movzbl	%al, %ecx
	popcntl	%ecx, %edx
	shll	$4, %ecx
	leaq	.Lstatic.10(%rip), %rsi
	vpshufb	(%rcx,%rsi), %xmm3, %xmm0
	vmovdqa	%xmm0, 64(%rsp)
	vpunpckhbw	%xmm2, %xmm6, %xmm0
	shrl	$8, %eax
	popcntl	%eax, %r15d
	shll	$4, %eax
	vpshufb	(%rax,%rsi), %xmm0, %xmm0
	vmovdqu	%xmm0, 64(%rsp,%rdx,2)
	addl	%edx, %r15d
	addl	%r15d, %r15d
	movl	$16, %ebx
.LBB54_166:
	cmpq	%r9, %r15
	jbe	.LBB54_168
	andq	$-2, %r9
	movzbl	64(%rsp,%r9), %eax
	andb	$-4, %al
	leaq	-2(%r9), %r15
	cmpb	$-36, %al
	cmovneq	%r9, %r15
	leaq	64(%rsp), %rdi
	movq	%r15, %rsi
	vzeroupper
	callq	L_17
	movq	%rax, %rbx
.LBB54_168:
	movq	8(%rsp), %rax
	leaq	(%rax,%r14), %rdi
	leaq	64(%rsp), %rsi
	movq	%r15, %rdx
	vzeroupper
	callq	sysv_memcpy
	addq	%r14, %r15
	testq	%rbx, %rbx
	jne	.LBB54_32
	leaq	64(%rsp), %rdx
	movq	%r13, %rdi
	movq	%rbp, %rsi
	movq	8(%rsp), %rcx
	movq	(%rsp), %r8
	movq	%r15, %r9
	jmp	.LBB54_30
.LBB54_170:
	movb	$-112, %dil
	jmp	.LBB54_174
.LBB54_171:
	movb	$-97, %al
	jmp	.LBB54_173
.LBB54_172:
	movb	$-113, %al
.LBB54_173:
	movb	$-128, %dil
.LBB54_174:
	cmpb	$50, %sil
	ja	.LBB54_16
	cmpb	%dl, %dil
	ja	.LBB54_16
	cmpb	%al, %dl
	ja	.LBB54_16
	movl	$2, %eax
	cmpb	$-32, %cl
	jb	.LBB54_59
	cmpb	$-65, 2(%r13)
	jg	.LBB54_16
	movl	$3, %eax
	cmpb	$-16, %cl
	jb	.LBB54_59
	movl	$4, %eax
	cmpb	$-65, 3(%r13)
	jg	.LBB54_16
	jmp	.LBB54_59
.LBB54_181:
	movb	$-112, %r8b
	jmp	.LBB54_185
.LBB54_182:
	movb	$-97, %dil
	jmp	.LBB54_184
.LBB54_183:
	movb	$-113, %dil
.LBB54_184:
	movb	$-128, %r8b
.LBB54_185:
	cmpb	$50, %sil
	ja	.LBB54_16
	cmpb	%dl, %r8b
	ja	.LBB54_16
	cmpb	%dil, %dl
	ja	.LBB54_16
	cmpb	$-32, %cl
	jb	.LBB54_60
	cmpb	$-65, 2(%r13,%rax)
	jg	.LBB54_16
	cmpb	$-16, %cl
	jb	.LBB54_60
	cmpb	$-64, 3(%r13,%rax)
	jge	.LBB54_16
	jmp	.LBB54_60
.LBB54_192:
	movq	%rdx, %rbx
	subq	%r12, %rbx
	cmpq	$3, %rbx
	jb	.LBB54_196
	leal	31(%rcx), %eax
	cmpb	$11, %al
	ja	.LBB54_197
	cmpb	$-65, 1(%rsi,%r12)
	jg	.LBB54_197
	cmpb	$-64, 2(%rsi,%r12)
	jl	.LBB54_1
	jmp	.LBB54_197
.LBB54_196:
	cmpq	$2, %rbx
	jne	.LBB54_202
.LBB54_197:
	movzbl	1(%rsi,%r12), %ebp
	movl	%ecx, %eax
	shrb	$4, %al
	andb	$12, %al
	movl	%ebp, %r8d
	shrb	$6, %r8b
	orb	%al, %r8b
	movb	$1, %al
	cmpb	$14, %r8b
	jne	.LBB54_201
	leal	31(%rcx), %r8d
	cmpb	$12, %r8b
	jae	.LBB54_206
.LBB54_199:
	cmpq	$2, %rbx
	jne	.LBB54_210
.LBB54_200:
	movb	$2, %al
	xorl	%r8d, %r8d
	jmp	.LBB54_203
.LBB54_202:
	addb	$11, %cl
	cmpb	$-51, %cl
	setb	%r8b
	movb	$2, %al
	subb	%r8b, %al
	jmp	.LBB54_203
.LBB54_204:
	movq	%rdx, %r12
	jmp	.LBB54_2
.LBB54_205:
	movb	$3, %cl
	xorl	%eax, %eax
	jmp	.LBB54_229
.LBB54_206:
	leal	62(%rcx), %r11d
	cmpb	$30, %r11b
	jb	.LBB54_1
	movb	$-65, %r8b
	leal	-224(%rcx), %r9d
	cmpl	$20, %r9d
	ja	.LBB54_222
	leaq	.LJTI54_0(%rip), %r10
	movslq	(%r10,%r9,4), %r9
	addq	%r10, %r9
	jmpq	*%r9
.LBB54_209:
	movb	$-96, %r9b
	jmp	.LBB54_223
.LBB54_228:
	movb	$1, %al
	jmp	.LBB54_229
.LBB54_210:
	movb	$2, %r8b
	cmpb	$-65, 2(%rsi,%r12)
	jg	.LBB54_203
	cmpb	$-16, %cl
	jb	.LBB54_1
	cmpq	$4, %rbx
	jb	.LBB54_200
	movb	$3, %r8b
	cmpb	$-65, 3(%rsi,%r12)
	jle	.LBB54_1
	jmp	.LBB54_203
.LBB54_215:
	movb	$2, %cl
	xorl	%eax, %eax
	jmp	.LBB54_229
.LBB54_216:
	movb	$2, %al
	jmp	.LBB54_229
.LBB54_217:
	addb	$11, %al
	cmpb	$-51, %al
	setb	%al
	movb	$2, %cl
	subb	%al, %cl
	jmp	.LBB54_229
.LBB54_218:
	movb	$3, %al
.LBB54_229:
	movq	56(%rsp), %rdx
	movq	%rbx, (%rdx)
	movq	%r14, 8(%rdx)
	movb	%cl, 16(%rdx)
	movb	%al, 17(%rdx)
	jmp	.LBB54_230
.LBB54_219:
	movb	$-112, %r9b
	jmp	.LBB54_223
.LBB54_220:
	movb	$-97, %r8b
	jmp	.LBB54_222
.LBB54_221:
	movb	$-113, %r8b
.LBB54_222:
	movb	$-128, %r9b
.LBB54_223:
	cmpb	$51, %r11b
	setb	%r10b
	cmpb	%bpl, %r9b
	setbe	%r9b
	cmpb	%r8b, %bpl
	setbe	%r8b
	andb	%r9b, %r8b
	andb	%r10b, %r8b
	cmpb	$1, %r8b
	jne	.LBB54_201
	cmpb	$-32, %cl
	movq	(%rsp), %r10
	jb	.LBB54_1
	jmp	.LBB54_199
.LBB54_201:
	movb	$1, %r8b
.LBB54_203:
	movq	%r12, (%rdi)
	movq	%r14, 8(%rdi)
	movb	%al, 16(%rdi)
	movb	%r8b, 17(%rdi)
.LBB54_230:
	addq	$344, %rsp
	popq	%rbx
	popq	%r12
	popq	%r13
	popq	%r14
	popq	%r15
	popq	%rbp
	vzeroupper
	retq
.Lfunc_end54:
	.section	.rdata$064,"dr"
	.p2align	2, 0x0
.LJTI54_0:
	.long	.LBB54_209-.LJTI54_0
	.long	.LBB54_222-.LJTI54_0
	.long	.LBB54_222-.LJTI54_0
	.long	.LBB54_222-.LJTI54_0
	.long	.LBB54_222-.LJTI54_0
	.long	.LBB54_222-.LJTI54_0
	.long	.LBB54_222-.LJTI54_0
	.long	.LBB54_222-.LJTI54_0
	.long	.LBB54_222-.LJTI54_0
	.long	.LBB54_222-.LJTI54_0
	.long	.LBB54_222-.LJTI54_0
	.long	.LBB54_222-.LJTI54_0
	.long	.LBB54_222-.LJTI54_0
	.long	.LBB54_220-.LJTI54_0
	.long	.LBB54_222-.LJTI54_0
	.long	.LBB54_222-.LJTI54_0
	.long	.LBB54_219-.LJTI54_0
	.long	.LBB54_222-.LJTI54_0
	.long	.LBB54_222-.LJTI54_0
	.long	.LBB54_222-.LJTI54_0
	.long	.LBB54_221-.LJTI54_0
.LJTI54_1:
	.long	.LBB54_116-.LJTI54_1
	.long	.LBB54_173-.LJTI54_1
	.long	.LBB54_173-.LJTI54_1
	.long	.LBB54_173-.LJTI54_1
	.long	.LBB54_173-.LJTI54_1
	.long	.LBB54_173-.LJTI54_1
	.long	.LBB54_173-.LJTI54_1
	.long	.LBB54_173-.LJTI54_1
	.long	.LBB54_173-.LJTI54_1
	.long	.LBB54_173-.LJTI54_1
	.long	.LBB54_173-.LJTI54_1
	.long	.LBB54_173-.LJTI54_1
	.long	.LBB54_173-.LJTI54_1
	.long	.LBB54_171-.LJTI54_1
	.long	.LBB54_173-.LJTI54_1
	.long	.LBB54_173-.LJTI54_1
	.long	.LBB54_170-.LJTI54_1
	.long	.LBB54_173-.LJTI54_1
	.long	.LBB54_173-.LJTI54_1
	.long	.LBB54_173-.LJTI54_1
	.long	.LBB54_172-.LJTI54_1
.LJTI54_2:
	.long	.LBB54_107-.LJTI54_2
	.long	.LBB54_184-.LJTI54_2
	.long	.LBB54_184-.LJTI54_2
	.long	.LBB54_184-.LJTI54_2
	.long	.LBB54_184-.LJTI54_2
	.long	.LBB54_184-.LJTI54_2
	.long	.LBB54_184-.LJTI54_2
	.long	.LBB54_184-.LJTI54_2
	.long	.LBB54_184-.LJTI54_2
	.long	.LBB54_184-.LJTI54_2
	.long	.LBB54_184-.LJTI54_2
	.long	.LBB54_184-.LJTI54_2
	.long	.LBB54_184-.LJTI54_2
	.long	.LBB54_182-.LJTI54_2
	.long	.LBB54_184-.LJTI54_2
	.long	.LBB54_184-.LJTI54_2
	.long	.LBB54_181-.LJTI54_2
	.long	.LBB54_184-.LJTI54_2
	.long	.LBB54_184-.LJTI54_2
	.long	.LBB54_184-.LJTI54_2
	.long	.LBB54_183-.LJTI54_2
.LJTI54_3:
	.long	.LBB54_148-.LJTI54_3
	.long	.LBB54_155-.LJTI54_3
	.long	.LBB54_155-.LJTI54_3
	.long	.LBB54_155-.LJTI54_3
	.long	.LBB54_155-.LJTI54_3
	.long	.LBB54_155-.LJTI54_3
	.long	.LBB54_155-.LJTI54_3
	.long	.LBB54_155-.LJTI54_3
	.long	.LBB54_155-.LJTI54_3
	.long	.LBB54_155-.LJTI54_3
	.long	.LBB54_155-.LJTI54_3
	.long	.LBB54_155-.LJTI54_3
	.long	.LBB54_155-.LJTI54_3
	.long	.LBB54_153-.LJTI54_3
	.long	.LBB54_155-.LJTI54_3
	.long	.LBB54_155-.LJTI54_3
	.long	.LBB54_152-.LJTI54_3
	.long	.LBB54_155-.LJTI54_3
	.long	.LBB54_155-.LJTI54_3
	.long	.LBB54_155-.LJTI54_3
	.long	.LBB54_154-.LJTI54_3

	.section	.text$065,"xr"
	.p2align	4
L_55:
	pushq	%r15
	pushq	%r14
	pushq	%r13
	pushq	%r12
	pushq	%rbx
	movq	%r8, %r13
	movq	%rcx, %rbx
	movq	%rdx, %r14
	movq	%rsi, %r15
	movq	%rdi, %r12
	addq	%r8, %rdx
	subq	%r8, %rcx
	callq	L_47
	addq	%r13, %rdx
	jmp	.LBB55_1
	.p2align	4
.LBB55_34:
	leal	67043328(%rcx), %r8d
	shrl	$10, %r8d
	addl	$-10240, %r8d
	rolw	$8, %r8w
	andl	$1023, %ecx
	orl	$56320, %ecx
	movbew	%cx, 2(%r14,%rdx)
	movl	$4, %edi
	movl	%r8d, %ecx
.LBB55_35:
	movw	%cx, (%r14,%rdx)
	addq	%rdi, %rdx
	addq	%rsi, %rax
.LBB55_1:
	cmpq	%r15, %rax
	jae	.LBB55_36
	movzbl	(%r12,%rax), %ecx
	testb	%cl, %cl
	js	.LBB55_4
	movl	$1, %esi
.LBB55_31:
	movq	%rbx, %rdi
	subq	%rdx, %rdi
	xorl	%r8d, %r8d
	cmpl	$65536, %ecx
	setae	%r8b
	leaq	2(,%r8,2), %r8
	cmpq	%r8, %rdi
	jb	.LBB55_36
	cmpl	$65535, %ecx
	ja	.LBB55_34
	rolw	$8, %cx
	movl	$2, %edi
	jmp	.LBB55_35
	.p2align	4
.LBB55_4:
	movq	%r15, %rdi
	subq	%rax, %rdi
	cmpq	$3, %rdi
	jb	.LBB55_9
	leal	31(%rcx), %esi
	cmpb	$11, %sil
	ja	.LBB55_10
	movzbl	1(%r12,%rax), %esi
	cmpb	$-65, %sil
	jg	.LBB55_10
	movzbl	2(%r12,%rax), %r8d
	cmpb	$-65, %r8b
	jg	.LBB55_10
	jmp	.LBB55_8
.LBB55_9:
	cmpq	$2, %rdi
	jne	.LBB55_36
.LBB55_10:
	movzbl	1(%r12,%rax), %esi
	movl	%ecx, %r8d
	shrb	$4, %r8b
	andb	$12, %r8b
	movl	%esi, %r9d
	shrb	$6, %r9b
	orb	%r8b, %r9b
	cmpb	$14, %r9b
	jne	.LBB55_36
	leal	31(%rcx), %r8d
	cmpb	$12, %r8b
	jae	.LBB55_12
.LBB55_25:
	cmpq	$2, %rdi
	je	.LBB55_36
	movzbl	2(%r12,%rax), %r8d
	cmpb	$-65, %r8b
	jg	.LBB55_36
	cmpb	$-17, %cl
	ja	.LBB55_28
.LBB55_8:
	shll	$12, %ecx
	shll	$6, %esi
	addl	%ecx, %esi
	leal	(%r8,%rsi), %ecx
	addl	$-925824, %ecx
	movl	$3, %esi
	jmp	.LBB55_31
.LBB55_12:
	leal	62(%rcx), %r8d
	cmpb	$30, %r8b
	jb	.LBB55_24
	movb	$-65, %r9b
	leal	-224(%rcx), %r10d
	cmpl	$20, %r10d
	ja	.LBB55_19
	leaq	.LJTI55_0(%rip), %r11
	movslq	(%r11,%r10,4), %r10
	addq	%r11, %r10
	jmpq	*%r10
.LBB55_15:
	movb	$-96, %r10b
	jmp	.LBB55_20
.LBB55_28:
	cmpq	$4, %rdi
	jb	.LBB55_36
	movzbl	3(%r12,%rax), %edi
	cmpb	$-65, %dil
	jg	.LBB55_36
	shll	$18, %ecx
	shll	$12, %esi
	addl	%ecx, %esi
	shll	$6, %r8d
	addl	%esi, %r8d
	leal	(%rdi,%r8), %ecx
	addl	$-63447168, %ecx
	movl	$4, %esi
	jmp	.LBB55_31
.LBB55_17:
	movb	$-112, %r10b
	jmp	.LBB55_20
.LBB55_16:
	movb	$-97, %r9b
	jmp	.LBB55_19
.LBB55_18:
	movb	$-113, %r9b
.LBB55_19:
	movb	$-128, %r10b
.LBB55_20:
	cmpb	$50, %r8b
	ja	.LBB55_36
	cmpb	%sil, %r10b
	ja	.LBB55_36
	cmpb	%r9b, %sil
	ja	.LBB55_36
	cmpb	$-33, %cl
	ja	.LBB55_25
.LBB55_24:
	shll	$6, %ecx
	addl	%esi, %ecx
	addl	$-12416, %ecx
	movl	$2, %esi
	jmp	.LBB55_31
.LBB55_36:
	popq	%rbx
	popq	%r12
	popq	%r13
	popq	%r14
	popq	%r15
	retq
.Lfunc_end55:
	.section	.rdata$066,"dr"
	.p2align	2, 0x0
.LJTI55_0:
	.long	.LBB55_15-.LJTI55_0
	.long	.LBB55_19-.LJTI55_0
	.long	.LBB55_19-.LJTI55_0
	.long	.LBB55_19-.LJTI55_0
	.long	.LBB55_19-.LJTI55_0
	.long	.LBB55_19-.LJTI55_0
	.long	.LBB55_19-.LJTI55_0
	.long	.LBB55_19-.LJTI55_0
	.long	.LBB55_19-.LJTI55_0
	.long	.LBB55_19-.LJTI55_0
	.long	.LBB55_19-.LJTI55_0
	.long	.LBB55_19-.LJTI55_0
	.long	.LBB55_19-.LJTI55_0
	.long	.LBB55_16-.LJTI55_0
	.long	.LBB55_19-.LJTI55_0
	.long	.LBB55_19-.LJTI55_0
	.long	.LBB55_17-.LJTI55_0
	.long	.LBB55_19-.LJTI55_0
	.long	.LBB55_19-.LJTI55_0
	.long	.LBB55_19-.LJTI55_0
	.long	.LBB55_18-.LJTI55_0

	.section	.rdata$000,"dr"
	.p2align	4, 0x0
.LCPI56_0:
	.zero	16,192
.LCPI56_1:
	.zero	16,191
.LCPI56_2:
	.zero	16,224
.LCPI56_3:
	.zero	16,15
.LCPI56_4:
	.zero	16,220
.LCPI56_5:
	.zero	16,252
.LCPI56_6:
	.zero	16,3
.LCPI56_7:
	.zero	16,63
.LCPI56_8:
	.zero	16,232
.LCPI56_9:
	.zero	16,239
.LCPI56_10:
	.zero	16,127
.LCPI56_11:
	.zero	16,223
	.section	.rdata$001,"dr"
	.p2align	2, 0x0
.LCPI56_12:
	.zero	4,192
.LCPI56_13:
	.zero	4,191
.LCPI56_14:
	.zero	4,15
	.section	.text$067,"xr"
	.p2align	4
L_56:
	pushq	%rbp
	pushq	%r15
	pushq	%r14
	pushq	%r13
	pushq	%r12
	pushq	%rbx
	subq	$56, %rsp
	movq	%r9, %rbx
	movq	%r8, %r13
	movq	%rcx, 8(%rsp)
	movq	%rdx, %r14
	movq	%rdi, %r15
	cmpq	$64, %rsi
	movl	$64, %r12d
	cmovbq	%rsi, %r12
	vpxor	%xmm0, %xmm0, %xmm0
	jae	.LBB56_3
	vmovdqu	%ymm0, 16(%rsp)
	leaq	16(%rsp), %rdi
	movq	%r15, %rsi
	movq	%r12, %rdx
	vzeroupper
	callq	L_1
	cmpb	$0, 16(%rsp)
	je	.LBB56_21
	movq	24(%rsp), %rax
	jmp	.LBB56_7
.LBB56_3:
	vmovdqu	%ymm0, 16(%rsp)
	leaq	16(%rsp), %rdi
	movl	$63, %ebp
	movl	$63, %edx
	movq	%r15, %rsi
	vzeroupper
	callq	L_1
	cmpb	$0, 16(%rsp)
	movq	24(%rsp), %rax
	cmovneq	%rax, %rbp
	leaq	4(%rbp), %rcx
	cmpq	$64, %rcx
	jb	.LBB56_7
	leaq	(%r15,%rbp), %rsi
	subq	%rbp, %r12
	vpxor	%xmm0, %xmm0, %xmm0
	vmovdqu	%ymm0, 16(%rsp)
	leaq	16(%rsp), %rdi
	movq	%r12, %rdx
	vzeroupper
	callq	L_1
	cmpb	$0, 16(%rsp)
	je	.LBB56_6
	movq	24(%rsp), %r12
.LBB56_6:
	addq	%rbp, %r12
	movq	%r12, %rax
.LBB56_7:
	cmpq	$7, %rax
	ja	.LBB56_20
	testq	%rax, %rax
	je	.LBB56_29
	xorl	%ebp, %ebp
	movq	%rax, %rcx
	jmp	.LBB56_10
.LBB56_20:
	movq	%rax, %r12
.LBB56_21:
	cmpq	$16, %r12
	ja	.LBB56_24
	vmovq	-8(%r15,%r12), %xmm0
	vmovq	(%r15), %xmm1
	vpunpcklqdq	%xmm0, %xmm1, %xmm0
	movq	%r12, %rax
	shlq	$4, %rax
	leaq	.Lstatic.1(%rip), %rcx
	vpshufb	-128(%rax,%rcx), %xmm0, %xmm0
	vpmovmskb	%xmm0, %eax
	testl	%eax, %eax
	je	.LBB56_33
	leaq	.Lstatic.2(%rip), %rax
	subq	%r12, %rax
	vpmaxub	16(%rax), %xmm0, %xmm1
	vpslldq	$1, %xmm1, %xmm0
	vpbroadcastd	.LCPI56_12(%rip), %xmm3
	vpblendvb	%xmm1, %xmm0, %xmm3, %xmm4
	vpslldq	$2, %xmm1, %xmm5
	vpbroadcastd	.LCPI56_13(%rip), %xmm2
	vpmaxub	.LCPI56_2(%rip), %xmm5, %xmm6
	vpsrlw	$2, %xmm4, %xmm7
	vpbroadcastd	.LCPI56_14(%rip), %xmm8
	vpand	%xmm7, %xmm8, %xmm7
	vpsllw	$4, %xmm6, %xmm6
	vpandn	%xmm6, %xmm8, %xmm6
	vpor	%xmm6, %xmm7, %xmm6
	vpmaxub	%xmm5, %xmm4, %xmm7
	vpminub	%xmm2, %xmm7, %xmm8
	vpcmpeqb	%xmm7, %xmm8, %xmm7
	vpand	.LCPI56_4(%rip), %xmm7, %xmm7
	vpor	%xmm7, %xmm6, %xmm6
	vpsllw	$2, %xmm0, %xmm7
	vpand	.LCPI56_5(%rip), %xmm7, %xmm7
	vpsrlw	$4, %xmm1, %xmm8
	vpand	.LCPI56_6(%rip), %xmm8, %xmm8
	vpminub	.LCPI56_7(%rip), %xmm7, %xmm9
	vpcmpeqb	%xmm7, %xmm9, %xmm9
	vpaddb	%xmm5, %xmm9, %xmm9
	vpaddb	.LCPI56_8(%rip), %xmm9, %xmm9
	vpor	%xmm7, %xmm8, %xmm7
	vpminub	.LCPI56_9(%rip), %xmm5, %xmm8
	vpcmpeqb	%xmm5, %xmm8, %xmm5
	vpblendvb	%xmm5, %xmm6, %xmm9, %xmm6
	vpand	.LCPI56_10(%rip), %xmm1, %xmm8
	vpaddb	%xmm3, %xmm7, %xmm7
	vpsllw	$6, %xmm4, %xmm4
	vpand	%xmm3, %xmm4, %xmm3
	vpaddb	%xmm3, %xmm8, %xmm3
	vpblendvb	%xmm5, %xmm3, %xmm7, %xmm3
	vpunpcklbw	%xmm3, %xmm6, %xmm4
	vpminub	%xmm2, %xmm1, %xmm2
	vpcmpeqb	%xmm2, %xmm1, %xmm1
	vpminub	.LCPI56_11(%rip), %xmm0, %xmm2
	vpcmpeqb	%xmm2, %xmm0, %xmm0
	vpand	%xmm0, %xmm1, %xmm0
	vpmovmskb	%xmm0, %eax
	movzbl	%al, %ecx
	xorl	%edx, %edx
	popcntl	%ecx, %edx
	shll	$4, %ecx
	leaq	.Lstatic.10(%rip), %rsi
	vpshufb	(%rcx,%rsi), %xmm4, %xmm0
	vpunpckhbw	%xmm3, %xmm6, %xmm1
	vmovdqu	%xmm0, (%r14)
	shrl	$8, %eax
	popcntl	%eax, %ebp
	shll	$4, %eax
	vpshufb	(%rax,%rsi), %xmm1, %xmm0
	vmovdqu	%xmm0, (%r14,%rdx,2)
	addl	%edx, %ebp
	addl	%ebp, %ebp
	jmp	.LBB56_34
.LBB56_18:
	addl	$67043328, %edx
	shrl	$10, %edx
	addl	$-10240, %edx
	movbew	%dx, (%r8)
	orl	$56320, %edi
	movbew	%di, 2(%r8)
	movl	$4, %edx
	addq	%rdx, %rbp
	testq	%rcx, %rcx
	je	.LBB56_19
	.p2align	4
.LBB56_10:
	movzbl	(%r15), %edx
	movl	$1, %edi
	testb	%dl, %dl
	jns	.LBB56_15
	movzbl	1(%r15), %esi
	andl	$63, %esi
	cmpb	$-33, %dl
	ja	.LBB56_13
	andl	$31, %edx
	shll	$6, %edx
	orl	%esi, %edx
	movl	$2, %edi
	jmp	.LBB56_15
.LBB56_13:
	movzbl	2(%r15), %edi
	andl	$63, %edi
	cmpb	$-17, %dl
	ja	.LBB56_17
	shll	$12, %edx
	movzwl	%dx, %edx
	shll	$6, %esi
	orl	%edx, %esi
	orl	%edi, %esi
	movl	$3, %edi
	movl	%esi, %edx
	.p2align	4
.LBB56_15:
	addq	%rdi, %r15
	subq	%rdi, %rcx
	leaq	(%r14,%rbp), %r8
.LBB56_16:
	movbew	%dx, (%r8)
	movl	$2, %edx
	addq	%rdx, %rbp
	testq	%rcx, %rcx
	jne	.LBB56_10
	jmp	.LBB56_19
.LBB56_17:
	movzbl	3(%r15), %r8d
	andl	$63, %r8d
	andl	$7, %edx
	shll	$18, %edx
	shll	$12, %esi
	orl	%edx, %esi
	shll	$6, %edi
	orl	%r8d, %edi
	leal	(%rdi,%rsi), %edx
	addq	$4, %r15
	addq	$-4, %rcx
	leaq	(%r14,%rbp), %r8
	cmpl	$65535, %esi
	jbe	.LBB56_16
	jmp	.LBB56_18
.LBB56_24:
	leaq	16(,%r12,2), %rcx
	movq	%rcx, %rsi
	shrq	%rsi
	cmpq	%r12, %rsi
	cmovaeq	%r12, %rsi
	cmpq	$32, %rcx
	jb	.LBB56_26
	vmovdqu	(%r15), %xmm0
	vpmovmskb	%xmm0, %eax
	testl	%eax, %eax
	je	.LBB56_44
.LBB56_26:
	xorl	%ebp, %ebp
	xorl	%r8d, %r8d
.LBB56_27:
	movq	%r12, %rax
	subq	%r8, %rax
	cmpq	$191, %rax
	ja	.LBB56_30
	movq	%r15, %rdi
	movq	%r12, %rsi
	movq	%r14, %rdx
	movq	%rbp, %r9
	vzeroupper
	callq	L_48
	movq	%rdx, %rbp
	jmp	.LBB56_34
.LBB56_19:
	movq	%rax, %r12
	jmp	.LBB56_34
.LBB56_29:
	movq	8(%rsp), %rdi
	addq	%rbx, %rdi
	xorl	%ebp, %ebp
	xorl	%r12d, %r12d
	jmp	.LBB56_39
.LBB56_30:
	movq	%rbx, 48(%rsp)
	movq	%r15, %rdi
	movq	%r12, %rsi
	movq	%r14, %rdx
	movq	%rcx, %rbx
	movq	%rbp, %r9
	vzeroupper
	callq	L_49
	movq	%rdx, %rbp
	movq	%r12, %rcx
	subq	%rax, %rcx
	cmpq	$191, %rcx
	ja	.LBB56_32
	movq	%r15, %rdi
	movq	%r12, %rsi
	movq	%r14, %rdx
	movq	%rbx, %rcx
	movq	%rax, %r8
	movq	%rbp, %r9
	callq	L_48
	movq	%rdx, %rbp
.LBB56_32:
	movq	48(%rsp), %rbx
	jmp	.LBB56_34
.LBB56_33:
	leaq	(%r12,%r12), %rbp
	vpmovzxbw	%xmm0, %ymm0
	vpsllw	$8, %ymm0, %ymm0
	vmovdqu	%ymm0, (%r14)
.LBB56_34:
	movq	8(%rsp), %r15
	subq	%rbx, %r13
	cmpq	%r13, %rbp
	jbe	.LBB56_36
	andq	$-2, %r13
	movzbl	(%r14,%r13), %eax
	andb	$-4, %al
	leaq	-2(%r13), %rbp
	cmpb	$-36, %al
	cmovneq	%r13, %rbp
	movq	%r14, %rdi
	movq	%rbp, %rsi
	vzeroupper
	callq	L_17
	movq	%rax, %r12
.LBB56_36:
	leaq	(%r15,%rbx), %rdi
	movq	%rdi, %rax
	subq	%r14, %rax
	cmpq	%rbp, %rax
	jae	.LBB56_39
	cmpq	$8, %rbp
	jb	.LBB56_38
	leaq	(%r15,%rbx), %rax
	subq	%r14, %rax
	cmpq	$128, %rax
	jae	.LBB56_42
.LBB56_38:
	xorl	%eax, %eax
.LBB56_54:
	movq	%rbp, %rdx
	movq	%rax, %rcx
	andq	$7, %rdx
	je	.LBB56_57
	movq	%rax, %rcx
	.p2align	4
.LBB56_56:
	movzbl	(%r14,%rcx), %esi
	movb	%sil, (%rdi,%rcx)
	incq	%rcx
	decq	%rdx
	jne	.LBB56_56
.LBB56_57:
	subq	%rbp, %rax
	cmpq	$-8, %rax
	ja	.LBB56_60
	leaq	(%rbx,%r15), %rax
	addq	$7, %rax
	.p2align	4
.LBB56_59:
	movzbl	(%r14,%rcx), %edx
	movb	%dl, -7(%rax,%rcx)
	movzbl	1(%r14,%rcx), %edx
	movb	%dl, -6(%rax,%rcx)
	movzbl	2(%r14,%rcx), %edx
	movb	%dl, -5(%rax,%rcx)
	movzbl	3(%r14,%rcx), %edx
	movb	%dl, -4(%rax,%rcx)
	movzbl	4(%r14,%rcx), %edx
	movb	%dl, -3(%rax,%rcx)
	movzbl	5(%r14,%rcx), %edx
	movb	%dl, -2(%rax,%rcx)
	movzbl	6(%r14,%rcx), %edx
	movb	%dl, -1(%rax,%rcx)
	movzbl	7(%r14,%rcx), %edx
	movb	%dl, (%rax,%rcx)
	addq	$8, %rcx
	cmpq	%rcx, %rbp
	jne	.LBB56_59
	jmp	.LBB56_60
.LBB56_39:
	movq	%r14, %rsi
	movq	%rbp, %rdx
	vzeroupper
	callq	sysv_memmove
.LBB56_60:
	addq	%rbx, %rbp
	movq	%r12, %rax
	movq	%rbp, %rdx
	addq	$56, %rsp
	popq	%rbx
	popq	%r12
	popq	%r13
	popq	%r14
	popq	%r15
	popq	%rbp
	vzeroupper
	retq
.LBB56_42:
	cmpq	$128, %rbp
	jae	.LBB56_47
	xorl	%eax, %eax
	jmp	.LBB56_51
.LBB56_44:
	cmpq	$31, %rsi
	ja	.LBB56_61
	vpmovzxbw	%xmm0, %ymm0
	vpsllw	$8, %ymm0, %ymm0
	vmovdqu	%ymm0, (%r14)
	vmovdqu	-16(%rsi,%r15), %xmm0
	vpmovmskb	%xmm0, %eax
	movl	$16, %r8d
	testl	%eax, %eax
	je	.LBB56_62
	leaq	(%r8,%r8), %rbp
	cmpq	%r12, %r8
	jne	.LBB56_27
	jmp	.LBB56_34
.LBB56_47:
	movq	%rbp, %rax
	andq	$-128, %rax
	leaq	(%rbx,%r15), %rcx
	addq	$96, %rcx
	xorl	%edx, %edx
	.p2align	4
.LBB56_48:
	vmovdqu	(%r14,%rdx), %ymm0
	vmovdqu	32(%r14,%rdx), %ymm1
	vmovdqu	64(%r14,%rdx), %ymm2
	vmovdqu	96(%r14,%rdx), %ymm3
	vmovdqu	%ymm0, -96(%rcx,%rdx)
	vmovdqu	%ymm1, -64(%rcx,%rdx)
	vmovdqu	%ymm2, -32(%rcx,%rdx)
	vmovdqu	%ymm3, (%rcx,%rdx)
	subq	$-128, %rdx
	cmpq	%rdx, %rax
	jne	.LBB56_48
	cmpq	%rax, %rbp
	je	.LBB56_60
	testb	$120, %bpl
	je	.LBB56_54
.LBB56_51:
	movq	%rax, %rcx
	movq	%rbp, %rax
	andq	$-8, %rax
	.p2align	4
.LBB56_52:
	movq	(%r14,%rcx), %rdx
	movq	%rdx, (%rdi,%rcx)
	addq	$8, %rcx
	cmpq	%rcx, %rax
	jne	.LBB56_52
	cmpq	%rax, %rbp
	je	.LBB56_60
	jmp	.LBB56_54
.LBB56_61:
	movq	%r15, %rdi
	movq	%r14, %rdx
	movq	%rbx, %rbp
	movq	%rcx, %rbx
	callq	L_50
	movq	%rbx, %rcx
	movq	%rbp, %rbx
	movq	%rax, %r8
	leaq	(%r8,%r8), %rbp
	cmpq	%r12, %r8
	jne	.LBB56_27
	jmp	.LBB56_34
.LBB56_62:
	vpmovzxbw	%xmm0, %ymm0
	vpsllw	$8, %ymm0, %ymm0
	vmovdqu	%ymm0, -32(%r14,%rsi,2)
	movq	%rsi, %r8
	leaq	(%r8,%r8), %rbp
	cmpq	%r12, %r8
	jne	.LBB56_27
	jmp	.LBB56_34
.Lfunc_end56:

	.section	.text$068,"xr"
	.p2align	4
L_57:
	pushq	%rbp
	pushq	%r15
	pushq	%r14
	pushq	%r13
	pushq	%r12
	pushq	%rbx
	subq	$40, %rsp
	movq	%r8, %r13
	movq	%rsi, %r12
	movw	$-513, (%rcx)
	addq	%rdx, %rdi
	movq	%rdx, 24(%rsp)
	subq	%rdx, %r12
	addq	$2, %rcx
	addq	$-2, %r13
	movq	%rdi, (%rsp)
	movq	%r12, %rsi
	movq	%rcx, 16(%rsp)
	movq	%rcx, %rdx
	movq	%r13, %rcx
	callq	L_58
	movq	%rax, %r14
	movq	%rdx, %r15
	movq	%r12, 8(%rsp)
	subq	%rax, %r12
	cmpq	$64, %r12
	jb	.LBB57_13
	movq	%r13, 32(%rsp)
	.p2align	4
.LBB57_2:
	subq	%r15, %r13
	cmpq	$128, %r13
	jb	.LBB57_13
	movq	(%rsp), %rcx
	leaq	(%rcx,%r14), %rdi
	movq	16(%rsp), %rax
	leaq	(%rax,%r15), %rdx
	vmovdqu	(%rcx,%r14), %xmm0
	vpmovmskb	%xmm0, %eax
	testl	%eax, %eax
	je	.LBB57_5
	xorl	%ebx, %ebx
	jmp	.LBB57_6
	.p2align	4
.LBB57_5:
	movq	%r13, %rsi
	shrq	%rsi
	cmpq	%r12, %rsi
	cmovaeq	%r12, %rsi
	movq	%rdi, %rbp
	movq	%rdx, %rbx
	callq	L_50
	movq	%rbp, %rdi
	movq	%rbx, %rdx
	movq	%rax, %rbx
.LBB57_6:
	leaq	(%rbx,%rbx), %rbp
	movq	%r12, %rax
	subq	%rbx, %rax
	cmpq	$64, %rax
	jb	.LBB57_9
	movq	%r13, %rax
	subq	%rbp, %rax
	cmpq	$128, %rax
	jb	.LBB57_9
	movq	%r12, %rsi
	movq	%r13, %rcx
	movq	%rbx, %r8
	movq	%rbp, %r9
	callq	L_49
	movq	%rax, %rbx
	movq	%rdx, %rbp
.LBB57_9:
	addq	%r14, %rbx
	addq	%r15, %rbp
	movq	8(%rsp), %rsi
	subq	%rbx, %rsi
	cmpq	$4, %rsi
	movq	32(%rsp), %r13
	jb	.LBB57_10
	movq	%r13, %rcx
	subq	%rbp, %rcx
	cmpq	$4, %rcx
	jb	.LBB57_10
	movq	(%rsp), %rax
	leaq	(%rax,%rbx), %rdi
	movq	16(%rsp), %rax
	leaq	(%rax,%rbp), %rdx
	callq	L_58
	movq	%rax, %r14
	movq	%rdx, %r15
	addq	%rbx, %r14
	addq	%rbp, %r15
	movq	8(%rsp), %r12
	subq	%r14, %r12
	cmpq	$63, %r12
	ja	.LBB57_2
	jmp	.LBB57_13
.LBB57_10:
	movq	%rbp, %r15
	movq	%rbx, %r14
.LBB57_13:
	addq	24(%rsp), %r14
	addq	$2, %r15
	movq	%r14, %rax
	movq	%r15, %rdx
	addq	$40, %rsp
	popq	%rbx
	popq	%r12
	popq	%r13
	popq	%r14
	popq	%r15
	popq	%rbp
	retq
.Lfunc_end57:

	.section	.rdata$000,"dr"
	.p2align	4, 0x0
.LCPI58_0:
	.zero	16,127
	.section	.text$069,"xr"
	.p2align	4
L_58:
	pushq	%rbp
	pushq	%r15
	pushq	%r14
	pushq	%r12
	pushq	%rbx
	movq	%rdx, %r8
	xorl	%eax, %eax
	xorl	%edx, %edx
	xorl	%r9d, %r9d
	.p2align	4
.LBB58_4:
	movq	%rsi, %r10
	subq	%rax, %r10
	cmpq	$4, %r10
	jb	.LBB58_41
	movq	%rcx, %r11
	subq	%rdx, %r11
	cmpq	$4, %r11
	jb	.LBB58_41
	cmpq	$32, %r11
	jb	.LBB58_10
	cmpq	$15, %r10
	jbe	.LBB58_10
	vmovdqu	(%rdi,%rax), %xmm0
	vpmovmskb	%xmm0, %r10d
	orl	$65536, %r10d
	tzcntl	%r10d, %r10d
	cmpw	$4, %r10w
	jae	.LBB58_15
	vmovd	%xmm0, %r10d
	testb	%r10b, %r10b
	jns	.LBB58_1
.LBB58_11:
	cmpb	$-31, %r10b
	jae	.LBB58_17
	movzbl	1(%rdi,%rax), %r11d
	movl	%r10d, %ebx
	shrb	$4, %bl
	andb	$12, %bl
	movl	%r11d, %ebp
	shrb	$6, %bpl
	orb	%bl, %bpl
	cmpb	$14, %bpl
	jne	.LBB58_26
	leal	62(%r10), %ebp
	cmpb	$30, %bpl
	jae	.LBB58_23
.LBB58_14:
	movzbl	%r10b, %r10d
	shll	$6, %r10d
	movzbl	%r11b, %r11d
	leal	(%r10,%r11), %r14d
	addl	$-12416, %r14d
	movl	$2, %ebx
	jmp	.LBB58_3
	.p2align	4
.LBB58_10:
	movzbl	(%rdi,%rax), %r10d
	testb	%r10b, %r10b
	js	.LBB58_11
.LBB58_1:
	movzbl	%r10b, %r14d
	jmp	.LBB58_2
	.p2align	4
.LBB58_15:
	movzwl	%r10w, %ebx
	vpand	.LCPI58_0(%rip), %xmm0, %xmm0
	vpmovzxbw	%xmm0, %ymm0
	vpsllw	$8, %ymm0, %ymm0
	vmovdqu	%ymm0, (%r8,%rdx)
	movl	%ebx, %r11d
	addl	%r11d, %r11d
	movl	$2, %r10d
.LBB58_16:
	addq	%r11, %rdx
	addq	%r9, %r10
	addq	%rbx, %rax
	movq	%r10, %r9
	cmpq	$16, %r10
	jb	.LBB58_4
	jmp	.LBB58_41
.LBB58_17:
	movzbl	1(%rdi,%rax), %r11d
	cmpb	$-20, %r10b
	ja	.LBB58_21
	cmpb	$-65, %r11b
	jg	.LBB58_26
	movzbl	2(%rdi,%rax), %ebx
	cmpb	$-65, %bl
	jg	.LBB58_34
	movzbl	%r11b, %r11d
	movzbl	%r10b, %r10d
	shll	$12, %r10d
	shll	$6, %r11d
	addl	%r10d, %r11d
	leal	(%rbx,%r11), %r14d
	addl	$-925824, %r14d
	jmp	.LBB58_37
.LBB58_21:
	cmpb	$-65, %r11b
	jg	.LBB58_26
	leal	62(%r10), %ebp
.LBB58_23:
	movzbl	%r10b, %ebx
	movb	$-65, %r15b
	addl	$-224, %ebx
	cmpl	$20, %ebx
	ja	.LBB58_30
	leaq	.LJTI58_0(%rip), %r14
	movslq	(%r14,%rbx,4), %rbx
	addq	%r14, %rbx
	jmpq	*%rbx
.LBB58_25:
	movb	$-96, %r12b
	jmp	.LBB58_31
.LBB58_26:
	movl	$65533, %r14d
.LBB58_2:
	movl	$1, %ebx
.LBB58_3:
	movbew	%r14w, (%r8,%rdx)
	addq	$2, %rdx
	incq	%r9
	xorl	%r10d, %r10d
	cmpl	$65533, %r14d
	cmovneq	%r9, %r10
	addq	%rbx, %rax
	movq	%r10, %r9
	cmpq	$16, %r10
	jb	.LBB58_4
	jmp	.LBB58_41
.LBB58_27:
	movb	$-112, %r12b
	jmp	.LBB58_31
.LBB58_28:
	movb	$-97, %r15b
	jmp	.LBB58_30
.LBB58_29:
	movb	$-113, %r15b
.LBB58_30:
	movb	$-128, %r12b
.LBB58_31:
	movl	$65533, %r14d
	movl	$1, %ebx
	cmpb	$50, %bpl
	ja	.LBB58_3
	cmpb	%r11b, %r12b
	setbe	%bpl
	cmpb	%r15b, %r11b
	setbe	%r15b
	andb	%bpl, %r15b
	cmpb	$1, %r15b
	jne	.LBB58_3
	cmpb	$-33, %r10b
	jbe	.LBB58_14
.LBB58_34:
	movzbl	2(%rdi,%rax), %r15d
	movl	$65533, %r14d
	movl	$2, %ebx
	cmpb	$-65, %r15b
	jg	.LBB58_3
	cmpb	$-17, %r10b
	ja	.LBB58_38
	movzbl	%r10b, %r10d
	shll	$12, %r10d
	movzbl	%r11b, %r11d
	shll	$6, %r11d
	addl	%r10d, %r11d
	leal	(%r15,%r11), %r14d
	addl	$-925824, %r14d
.LBB58_37:
	movl	$3, %ebx
	jmp	.LBB58_3
.LBB58_38:
	movzbl	3(%rdi,%rax), %r12d
	movl	$3, %ebx
	cmpb	$-65, %r12b
	jg	.LBB58_3
	movzbl	%r10b, %r10d
	shll	$18, %r10d
	movzbl	%r11b, %r11d
	shll	$12, %r11d
	addl	%r10d, %r11d
	shll	$6, %r15d
	addl	%r11d, %r15d
	leal	(%r12,%r15), %r14d
	addl	$-63447168, %r14d
	movl	$4, %ebx
	cmpl	$65536, %r14d
	jb	.LBB58_3
	leal	67043328(%r14), %r10d
	shrl	$10, %r10d
	addl	$-10240, %r10d
	movbew	%r10w, (%r8,%rdx)
	andl	$1023, %r14d
	orl	$56320, %r14d
	movbew	%r14w, 2(%r8,%rdx)
	movl	$1, %r10d
	movl	$4, %r11d
	jmp	.LBB58_16
.LBB58_41:
	popq	%rbx
	popq	%r12
	popq	%r14
	popq	%r15
	popq	%rbp
	vzeroupper
	retq
.Lfunc_end58:
	.section	.rdata$070,"dr"
	.p2align	2, 0x0
.LJTI58_0:
	.long	.LBB58_25-.LJTI58_0
	.long	.LBB58_30-.LJTI58_0
	.long	.LBB58_30-.LJTI58_0
	.long	.LBB58_30-.LJTI58_0
	.long	.LBB58_30-.LJTI58_0
	.long	.LBB58_30-.LJTI58_0
	.long	.LBB58_30-.LJTI58_0
	.long	.LBB58_30-.LJTI58_0
	.long	.LBB58_30-.LJTI58_0
	.long	.LBB58_30-.LJTI58_0
	.long	.LBB58_30-.LJTI58_0
	.long	.LBB58_30-.LJTI58_0
	.long	.LBB58_30-.LJTI58_0
	.long	.LBB58_28-.LJTI58_0
	.long	.LBB58_30-.LJTI58_0
	.long	.LBB58_30-.LJTI58_0
	.long	.LBB58_27-.LJTI58_0
	.long	.LBB58_30-.LJTI58_0
	.long	.LBB58_30-.LJTI58_0
	.long	.LBB58_30-.LJTI58_0
	.long	.LBB58_29-.LJTI58_0

	.section	.rdata$000,"dr"
	.p2align	4, 0x0
.LCPI59_0:
	.zero	16,192
.LCPI59_1:
	.zero	16,191
.LCPI59_2:
	.zero	16,223
.LCPI59_3:
	.zero	16,239
.LCPI59_4:
	.zero	16,159
.LCPI59_5:
	.zero	16,237
.LCPI59_6:
	.zero	16,224
.LCPI59_7:
	.zero	16,143
.LCPI59_8:
	.zero	16,245
.LCPI59_9:
	.zero	16,244
.LCPI59_10:
	.zero	16,240
.LCPI59_11:
	.zero	16,254
.LCPI59_12:
	.byte	1
	.byte	2
	.byte	3
	.byte	4
	.byte	5
	.byte	6
	.byte	7
	.byte	8
	.byte	9
	.byte	10
	.byte	11
	.byte	12
	.byte	13
	.byte	14
	.byte	15
	.byte	16
.LCPI59_13:
	.zero	16,15
.LCPI59_14:
	.zero	16,220
.LCPI59_15:
	.zero	16,252
.LCPI59_16:
	.zero	16,3
.LCPI59_17:
	.zero	16,63
.LCPI59_18:
	.zero	16,232
.LCPI59_19:
	.zero	16,127
	.section	.rdata$001,"dr"
	.p2align	2, 0x0
.LCPI59_20:
	.zero	4,192
.LCPI59_21:
	.zero	4,237
.LCPI59_22:
	.zero	4,244
.LCPI59_23:
	.zero	4,191
.LCPI59_24:
	.zero	4,15
	.section	.text$071,"xr"
	.p2align	4
L_59:
	pushq	%rbp
	pushq	%r15
	pushq	%r14
	pushq	%r12
	pushq	%rbx
	movq	%rcx, %rbx
	cmpq	$7, %rsi
	ja	.LBB59_16
	movq	%rbx, %rax
	shrq	%rax
	cmpq	%rsi, %rax
	cmovaeq	%rsi, %rax
	testq	%rax, %rax
	je	.LBB59_22
	movsbl	(%rdi), %ecx
	testw	%cx, %cx
	js	.LBB59_22
	movw	%cx, (%rdx)
	movl	$2, %r9d
	cmpq	$1, %rax
	je	.LBB59_84
	movsbl	1(%rdi), %ecx
	testw	%cx, %cx
	js	.LBB59_33
	movw	%cx, 2(%rdx)
	movl	$4, %r9d
	cmpq	$2, %rax
	je	.LBB59_84
	movsbl	2(%rdi), %ecx
	testw	%cx, %cx
	js	.LBB59_36
	movw	%cx, 4(%rdx)
	movl	$6, %r9d
	cmpq	$3, %rax
	je	.LBB59_84
	movsbl	3(%rdi), %ecx
	testw	%cx, %cx
	js	.LBB59_78
	movw	%cx, 6(%rdx)
	movl	$8, %r9d
	cmpq	$4, %rax
	je	.LBB59_84
	movsbl	4(%rdi), %ecx
	testw	%cx, %cx
	js	.LBB59_79
	movw	%cx, 8(%rdx)
	movl	$10, %r9d
	cmpq	$5, %rax
	je	.LBB59_84
	movsbl	5(%rdi), %ecx
	testw	%cx, %cx
	js	.LBB59_80
	movw	%cx, 10(%rdx)
	movl	$12, %r9d
	cmpq	$6, %rax
	je	.LBB59_84
	movsbl	6(%rdi), %ecx
	testw	%cx, %cx
	js	.LBB59_81
	movw	%cx, 12(%rdx)
	movl	$14, %r9d
	jmp	.LBB59_84
.LBB59_16:
	cmpq	$16, %rsi
	ja	.LBB59_23
	cmpq	$32, %rbx
	jb	.LBB59_21
	vmovq	-8(%rdi,%rsi), %xmm1
	vmovq	(%rdi), %xmm0
	vpunpcklqdq	%xmm1, %xmm0, %xmm0
	movq	%rsi, %rax
	shlq	$4, %rax
	leaq	.Lstatic.1(%rip), %rcx
	vpshufb	-128(%rax,%rcx), %xmm0, %xmm0
	vpmovmskb	%xmm0, %eax
	testl	%eax, %eax
	je	.LBB59_27
	vpextrb	$5, %xmm1, %eax
	vpextrb	$6, %xmm1, %ecx
	vpextrb	$7, %xmm1, %r8d
	cmpb	$-64, %r8b
	setae	%r8b
	cmpb	$-32, %cl
	setae	%cl
	orb	%r8b, %cl
	cmpb	$-16, %al
	setae	%al
	orb	%cl, %al
	jne	.LBB59_21
	leaq	.Lstatic.2(%rip), %rax
	subq	%rsi, %rax
	vpmaxub	16(%rax), %xmm0, %xmm1
	vpslldq	$1, %xmm1, %xmm0
	vpslldq	$2, %xmm1, %xmm3
	vpslldq	$3, %xmm1, %xmm4
	vpbroadcastd	.LCPI59_20(%rip), %xmm2
	vpcmpgtb	%xmm1, %xmm2, %xmm5
	vpsubusb	.LCPI59_1(%rip), %xmm0, %xmm6
	vpsubusb	.LCPI59_2(%rip), %xmm3, %xmm7
	vpsubusb	.LCPI59_3(%rip), %xmm4, %xmm4
	vpmaxub	%xmm7, %xmm6, %xmm6
	vpor	%xmm4, %xmm6, %xmm4
	vpxor	%xmm6, %xmm6, %xmm6
	vpcmpgtb	%xmm6, %xmm4, %xmm4
	vpxor	%xmm4, %xmm5, %xmm4
	vpminub	.LCPI59_4(%rip), %xmm1, %xmm5
	vpcmpeqb	%xmm5, %xmm1, %xmm5
	vpbroadcastd	.LCPI59_21(%rip), %xmm6
	vpblendvb	%xmm5, .LCPI59_6(%rip), %xmm6, %xmm5
	vpcmpeqb	%xmm5, %xmm0, %xmm5
	vpminub	.LCPI59_7(%rip), %xmm1, %xmm6
	vpcmpeqb	%xmm6, %xmm1, %xmm6
	vpmaxub	.LCPI59_8(%rip), %xmm1, %xmm7
	vpcmpeqb	%xmm7, %xmm1, %xmm7
	vpbroadcastd	.LCPI59_22(%rip), %xmm8
	vpblendvb	%xmm6, .LCPI59_10(%rip), %xmm8, %xmm6
	vpcmpeqb	%xmm6, %xmm0, %xmm6
	vpor	%xmm5, %xmm6, %xmm5
	vpor	%xmm7, %xmm5, %xmm5
	vpand	.LCPI59_11(%rip), %xmm1, %xmm6
	vpcmpeqb	%xmm2, %xmm6, %xmm6
	vpor	%xmm4, %xmm6, %xmm4
	vpor	%xmm4, %xmm5, %xmm4
	vmovd	%esi, %xmm5
	vpbroadcastb	%xmm5, %xmm5
	vpmaxub	.LCPI59_12(%rip), %xmm5, %xmm6
	vpcmpeqb	%xmm6, %xmm5, %xmm5
	vpsllw	$7, %xmm4, %xmm4
	vpand	%xmm4, %xmm5, %xmm4
	vpmovmskb	%xmm4, %eax
	testl	%eax, %eax
	je	.LBB59_35
.LBB59_21:
	xorl	%r9d, %r9d
	xorl	%eax, %eax
	cmpq	$31, %rsi
	jbe	.LBB59_45
	jmp	.LBB59_32
.LBB59_22:
	xorl	%r9d, %r9d
	xorl	%eax, %eax
	jmp	.LBB59_84
.LBB59_23:
	movq	%rbx, %rcx
	shrq	%rcx
	cmpq	%rsi, %rcx
	cmovaeq	%rsi, %rcx
	cmpq	$32, %rbx
	jb	.LBB59_24
	vmovdqu	(%rdi), %xmm0
	vpmovmskb	%xmm0, %eax
	testl	%eax, %eax
	je	.LBB59_28
.LBB59_24:
	xorl	%eax, %eax
	leaq	(%rax,%rax), %r9
	movq	%rsi, %rcx
	subq	%rax, %rcx
	je	.LBB59_31
.LBB59_38:
	movq	%rdi, %r15
	cmpq	$191, %rcx
	ja	.LBB59_40
	movq	%rsi, %r12
	movq	%rdx, %r14
	movq	%rbx, %rcx
	movq	%rax, %r8
	vzeroupper
	callq	L_60
	movq	%r15, %rdi
	movq	%r12, %rsi
	movq	%rdx, %r9
	movq	%r14, %rdx
	cmpq	$31, %rsi
	jbe	.LBB59_45
	jmp	.LBB59_32
.LBB59_40:
	movq	%rsi, %r14
	movq	%rdx, %r12
	movq	%rbx, %rcx
	movq	%rax, %r8
	vzeroupper
	callq	L_61
	movq	%rdx, %r9
	movq	%r14, %rcx
	subq	%rax, %rcx
	cmpq	$191, %rcx
	jbe	.LBB59_42
	movq	%r14, %rsi
	movq	%r12, %rdx
	movq	%r15, %rdi
	cmpq	$31, %rsi
	jbe	.LBB59_45
	jmp	.LBB59_32
.LBB59_27:
	vpmovzxbw	%xmm0, %ymm0
	vmovdqu	%ymm0, (%rdx)
	leaq	(%rsi,%rsi), %r9
	movq	%rsi, %rax
	cmpq	$31, %rsi
	jbe	.LBB59_45
	jmp	.LBB59_32
.LBB59_28:
	cmpq	$31, %rcx
	ja	.LBB59_34
	vpmovzxbw	%xmm0, %ymm0
	vmovdqu	%ymm0, (%rdx)
	vmovdqu	-16(%rcx,%rdi), %xmm0
	vpmovmskb	%xmm0, %r8d
	movl	$16, %eax
	testl	%r8d, %r8d
	je	.LBB59_37
	leaq	(%rax,%rax), %r9
	movq	%rsi, %rcx
	subq	%rax, %rcx
	jne	.LBB59_38
.LBB59_31:
	cmpq	$31, %rsi
	jbe	.LBB59_45
.LBB59_32:
	movq	%r9, %rdx
	popq	%rbx
	popq	%r12
	popq	%r14
	popq	%r15
	popq	%rbp
	vzeroupper
	retq
.LBB59_33:
	movl	$1, %eax
	jmp	.LBB59_84
.LBB59_42:
	movq	%r15, %rdi
	movq	%r14, %rsi
	movq	%r12, %rdx
	movq	%rbx, %rcx
	movq	%rax, %r8
	callq	L_60
	movq	%r15, %rdi
	movq	%r14, %rsi
	movq	%rdx, %r9
	movq	%r12, %rdx
	cmpq	$31, %rsi
	jbe	.LBB59_45
	jmp	.LBB59_32
.LBB59_34:
	movq	%rdi, %r14
	movq	%rsi, %r12
	movq	%rcx, %rsi
	movq	%rdx, %r15
	callq	L_62
	movq	%r14, %rdi
	movq	%r12, %rsi
	movq	%r15, %rdx
	leaq	(%rax,%rax), %r9
	movq	%rsi, %rcx
	subq	%rax, %rcx
	je	.LBB59_31
	jmp	.LBB59_38
.LBB59_35:
	vpblendvb	%xmm1, %xmm0, %xmm2, %xmm5
	vpbroadcastd	.LCPI59_23(%rip), %xmm4
	vpmaxub	.LCPI59_6(%rip), %xmm3, %xmm6
	vpsrlw	$2, %xmm5, %xmm7
	vpbroadcastd	.LCPI59_24(%rip), %xmm8
	vpand	%xmm7, %xmm8, %xmm7
	vpsllw	$4, %xmm6, %xmm6
	vpandn	%xmm6, %xmm8, %xmm6
	vpor	%xmm6, %xmm7, %xmm6
	vpmaxub	%xmm3, %xmm5, %xmm7
	vpminub	%xmm4, %xmm7, %xmm8
	vpcmpeqb	%xmm7, %xmm8, %xmm7
	vpand	.LCPI59_14(%rip), %xmm7, %xmm7
	vpor	%xmm7, %xmm6, %xmm6
	vpsllw	$2, %xmm0, %xmm7
	vpand	.LCPI59_15(%rip), %xmm7, %xmm7
	vpsrlw	$4, %xmm1, %xmm8
	vpand	.LCPI59_16(%rip), %xmm8, %xmm8
	vpminub	.LCPI59_17(%rip), %xmm7, %xmm9
	vpcmpeqb	%xmm7, %xmm9, %xmm9
	vpaddb	%xmm3, %xmm9, %xmm9
	vpaddb	.LCPI59_18(%rip), %xmm9, %xmm9
	vpor	%xmm7, %xmm8, %xmm7
	vpminub	.LCPI59_3(%rip), %xmm3, %xmm8
	vpcmpeqb	%xmm3, %xmm8, %xmm3
	vpblendvb	%xmm3, %xmm6, %xmm9, %xmm6
	vpand	.LCPI59_19(%rip), %xmm1, %xmm8
	vpaddb	%xmm2, %xmm7, %xmm7
	vpsllw	$6, %xmm5, %xmm5
	vpand	%xmm2, %xmm5, %xmm2
	vpaddb	%xmm2, %xmm8, %xmm2
	vpblendvb	%xmm3, %xmm2, %xmm7, %xmm2
	vpunpcklbw	%xmm6, %xmm2, %xmm3
	vpminub	%xmm4, %xmm1, %xmm4
	vpcmpeqb	%xmm4, %xmm1, %xmm1
	vpminub	.LCPI59_2(%rip), %xmm0, %xmm4
	vpcmpeqb	%xmm4, %xmm0, %xmm0
	vpand	%xmm0, %xmm1, %xmm0
	vpmovmskb	%xmm0, %eax
	movzbl	%al, %ecx
	popcntl	%ecx, %r8d
	shll	$4, %ecx
	leaq	.Lstatic.10(%rip), %r10
	vpshufb	(%rcx,%r10), %xmm3, %xmm0
	vpunpckhbw	%xmm6, %xmm2, %xmm1
	vmovdqu	%xmm0, (%rdx)
	shrl	$8, %eax
	popcntl	%eax, %r9d
	shll	$4, %eax
	vpshufb	(%rax,%r10), %xmm1, %xmm0
	vmovdqu	%xmm0, (%rdx,%r8,2)
	addl	%r8d, %r9d
	addl	%r9d, %r9d
	movq	%rsi, %rax
	cmpq	$31, %rsi
	jbe	.LBB59_45
	jmp	.LBB59_32
	.p2align	4
.LBB59_43:
	leal	67043328(%rcx), %r11d
	shrl	$10, %r11d
	addl	$-10240, %r11d
	andl	$1023, %ecx
	orl	$56320, %ecx
	movw	%cx, 2(%rdx,%r9)
	movl	$4, %r10d
	movl	%r11d, %ecx
.LBB59_44:
	movw	%cx, (%rdx,%r9)
	addq	%r10, %r9
	addq	%r8, %rax
.LBB59_45:
	cmpq	%rsi, %rax
	jae	.LBB59_32
	movzbl	(%rdi,%rax), %ecx
	testb	%cl, %cl
	js	.LBB59_51
	movl	$1, %r8d
.LBB59_48:
	movq	%rbx, %r10
	subq	%r9, %r10
	xorl	%r11d, %r11d
	cmpl	$65536, %ecx
	setae	%r11b
	leaq	2(,%r11,2), %r11
	cmpq	%r11, %r10
	jb	.LBB59_32
	cmpl	$65535, %ecx
	ja	.LBB59_43
	movl	$2, %r10d
	jmp	.LBB59_44
	.p2align	4
.LBB59_51:
	movq	%rsi, %r10
	subq	%rax, %r10
	cmpq	$3, %r10
	jb	.LBB59_55
	leal	31(%rcx), %r8d
	cmpb	$11, %r8b
	ja	.LBB59_56
	movzbl	1(%rdi,%rax), %r8d
	cmpb	$-65, %r8b
	jg	.LBB59_56
	movzbl	2(%rdi,%rax), %r11d
	cmpb	$-65, %r11b
	jg	.LBB59_56
	jmp	.LBB59_61
.LBB59_55:
	cmpq	$2, %r10
	jne	.LBB59_32
.LBB59_56:
	movzbl	1(%rdi,%rax), %r8d
	movl	%ecx, %r11d
	shrb	$4, %r11b
	andb	$12, %r11b
	movl	%r8d, %ebp
	shrb	$6, %bpl
	orb	%r11b, %bpl
	cmpb	$14, %bpl
	jne	.LBB59_32
	leal	31(%rcx), %r11d
	cmpb	$12, %r11b
	jae	.LBB59_62
.LBB59_58:
	cmpq	$2, %r10
	je	.LBB59_32
	movzbl	2(%rdi,%rax), %r11d
	cmpb	$-65, %r11b
	jg	.LBB59_32
	cmpb	$-17, %cl
	ja	.LBB59_66
.LBB59_61:
	shll	$12, %ecx
	shll	$6, %r8d
	addl	%ecx, %r8d
	leal	(%r11,%r8), %ecx
	addl	$-925824, %ecx
	movl	$3, %r8d
	jmp	.LBB59_48
.LBB59_62:
	leal	62(%rcx), %r11d
	cmpb	$30, %r11b
	jb	.LBB59_77
	movb	$-65, %bpl
	leal	-224(%rcx), %r14d
	cmpl	$20, %r14d
	ja	.LBB59_72
	leaq	.LJTI59_0(%rip), %r15
	movslq	(%r15,%r14,4), %r14
	addq	%r15, %r14
	jmpq	*%r14
.LBB59_65:
	movb	$-96, %r14b
	jmp	.LBB59_73
.LBB59_66:
	cmpq	$4, %r10
	jb	.LBB59_32
	movzbl	3(%rdi,%rax), %r10d
	cmpb	$-65, %r10b
	jg	.LBB59_32
	shll	$18, %ecx
	shll	$12, %r8d
	addl	%ecx, %r8d
	shll	$6, %r11d
	addl	%r8d, %r11d
	leal	(%r10,%r11), %ecx
	addl	$-63447168, %ecx
	movl	$4, %r8d
	jmp	.LBB59_48
.LBB59_69:
	movb	$-112, %r14b
	jmp	.LBB59_73
.LBB59_70:
	movb	$-97, %bpl
	jmp	.LBB59_72
.LBB59_71:
	movb	$-113, %bpl
.LBB59_72:
	movb	$-128, %r14b
.LBB59_73:
	cmpb	$50, %r11b
	ja	.LBB59_32
	cmpb	%r8b, %r14b
	ja	.LBB59_32
	cmpb	%bpl, %r8b
	ja	.LBB59_32
	cmpb	$-33, %cl
	ja	.LBB59_58
.LBB59_77:
	shll	$6, %ecx
	addl	%r8d, %ecx
	addl	$-12416, %ecx
	movl	$2, %r8d
	jmp	.LBB59_48
.LBB59_36:
	movl	$2, %eax
	jmp	.LBB59_84
.LBB59_37:
	vpmovzxbw	%xmm0, %ymm0
	vmovdqu	%ymm0, -32(%rdx,%rcx,2)
	movq	%rcx, %rax
	leaq	(%rax,%rax), %r9
	movq	%rsi, %rcx
	subq	%rax, %rcx
	je	.LBB59_31
	jmp	.LBB59_38
.LBB59_78:
	movl	$3, %eax
	jmp	.LBB59_84
.LBB59_79:
	movl	$4, %eax
	jmp	.LBB59_84
.LBB59_80:
	movl	$5, %eax
	jmp	.LBB59_84
.LBB59_81:
	movl	$6, %eax
	jmp	.LBB59_84
	.p2align	4
.LBB59_82:
	leal	67043328(%rcx), %r11d
	shrl	$10, %r11d
	addl	$-10240, %r11d
	andl	$1023, %ecx
	orl	$56320, %ecx
	movw	%cx, 2(%rdx,%r9)
	movl	$4, %r10d
	movl	%r11d, %ecx
.LBB59_83:
	movw	%cx, (%rdx,%r9)
	addq	%r10, %r9
	addq	%r8, %rax
.LBB59_84:
	cmpq	%rsi, %rax
	jae	.LBB59_32
	movzbl	(%rdi,%rax), %ecx
	testb	%cl, %cl
	js	.LBB59_90
	movl	$1, %r8d
.LBB59_87:
	movq	%rbx, %r10
	subq	%r9, %r10
	xorl	%r11d, %r11d
	cmpl	$65536, %ecx
	setae	%r11b
	leaq	2(,%r11,2), %r11
	cmpq	%r11, %r10
	jb	.LBB59_32
	cmpl	$65535, %ecx
	ja	.LBB59_82
	movl	$2, %r10d
	jmp	.LBB59_83
	.p2align	4
.LBB59_90:
	movq	%rsi, %r10
	subq	%rax, %r10
	cmpq	$3, %r10
	jb	.LBB59_94
	leal	31(%rcx), %r8d
	cmpb	$11, %r8b
	ja	.LBB59_95
	movzbl	1(%rdi,%rax), %r8d
	cmpb	$-65, %r8b
	jg	.LBB59_95
	movzbl	2(%rdi,%rax), %r11d
	cmpb	$-65, %r11b
	jg	.LBB59_95
	jmp	.LBB59_100
.LBB59_94:
	cmpq	$2, %r10
	jne	.LBB59_32
.LBB59_95:
	movzbl	1(%rdi,%rax), %r8d
	movl	%ecx, %r11d
	shrb	$4, %r11b
	andb	$12, %r11b
	movl	%r8d, %ebp
	shrb	$6, %bpl
	orb	%r11b, %bpl
	cmpb	$14, %bpl
	jne	.LBB59_32
	leal	31(%rcx), %r11d
	cmpb	$12, %r11b
	jae	.LBB59_101
.LBB59_97:
	cmpq	$2, %r10
	je	.LBB59_32
	movzbl	2(%rdi,%rax), %r11d
	cmpb	$-65, %r11b
	jg	.LBB59_32
	cmpb	$-17, %cl
	ja	.LBB59_105
.LBB59_100:
	shll	$12, %ecx
	shll	$6, %r8d
	addl	%ecx, %r8d
	leal	(%r11,%r8), %ecx
	addl	$-925824, %ecx
	movl	$3, %r8d
	jmp	.LBB59_87
.LBB59_101:
	leal	62(%rcx), %r11d
	cmpb	$30, %r11b
	jb	.LBB59_116
	movb	$-65, %bpl
	leal	-224(%rcx), %r14d
	cmpl	$20, %r14d
	ja	.LBB59_111
	leaq	.LJTI59_1(%rip), %r15
	movslq	(%r15,%r14,4), %r14
	addq	%r15, %r14
	jmpq	*%r14
.LBB59_104:
	movb	$-96, %r14b
	jmp	.LBB59_112
.LBB59_105:
	cmpq	$4, %r10
	jb	.LBB59_32
	movzbl	3(%rdi,%rax), %r10d
	cmpb	$-65, %r10b
	jg	.LBB59_32
	shll	$18, %ecx
	shll	$12, %r8d
	addl	%ecx, %r8d
	shll	$6, %r11d
	addl	%r8d, %r11d
	leal	(%r10,%r11), %ecx
	addl	$-63447168, %ecx
	movl	$4, %r8d
	jmp	.LBB59_87
.LBB59_108:
	movb	$-112, %r14b
	jmp	.LBB59_112
.LBB59_109:
	movb	$-97, %bpl
	jmp	.LBB59_111
.LBB59_110:
	movb	$-113, %bpl
.LBB59_111:
	movb	$-128, %r14b
.LBB59_112:
	cmpb	$50, %r11b
	ja	.LBB59_32
	cmpb	%r8b, %r14b
	ja	.LBB59_32
	cmpb	%bpl, %r8b
	ja	.LBB59_32
	cmpb	$-33, %cl
	ja	.LBB59_97
.LBB59_116:
	shll	$6, %ecx
	addl	%r8d, %ecx
	addl	$-12416, %ecx
	movl	$2, %r8d
	jmp	.LBB59_87
.Lfunc_end59:
	.section	.rdata$072,"dr"
	.p2align	2, 0x0
.LJTI59_0:
	.long	.LBB59_65-.LJTI59_0
	.long	.LBB59_72-.LJTI59_0
	.long	.LBB59_72-.LJTI59_0
	.long	.LBB59_72-.LJTI59_0
	.long	.LBB59_72-.LJTI59_0
	.long	.LBB59_72-.LJTI59_0
	.long	.LBB59_72-.LJTI59_0
	.long	.LBB59_72-.LJTI59_0
	.long	.LBB59_72-.LJTI59_0
	.long	.LBB59_72-.LJTI59_0
	.long	.LBB59_72-.LJTI59_0
	.long	.LBB59_72-.LJTI59_0
	.long	.LBB59_72-.LJTI59_0
	.long	.LBB59_70-.LJTI59_0
	.long	.LBB59_72-.LJTI59_0
	.long	.LBB59_72-.LJTI59_0
	.long	.LBB59_69-.LJTI59_0
	.long	.LBB59_72-.LJTI59_0
	.long	.LBB59_72-.LJTI59_0
	.long	.LBB59_72-.LJTI59_0
	.long	.LBB59_71-.LJTI59_0
.LJTI59_1:
	.long	.LBB59_104-.LJTI59_1
	.long	.LBB59_111-.LJTI59_1
	.long	.LBB59_111-.LJTI59_1
	.long	.LBB59_111-.LJTI59_1
	.long	.LBB59_111-.LJTI59_1
	.long	.LBB59_111-.LJTI59_1
	.long	.LBB59_111-.LJTI59_1
	.long	.LBB59_111-.LJTI59_1
	.long	.LBB59_111-.LJTI59_1
	.long	.LBB59_111-.LJTI59_1
	.long	.LBB59_111-.LJTI59_1
	.long	.LBB59_111-.LJTI59_1
	.long	.LBB59_111-.LJTI59_1
	.long	.LBB59_109-.LJTI59_1
	.long	.LBB59_111-.LJTI59_1
	.long	.LBB59_111-.LJTI59_1
	.long	.LBB59_108-.LJTI59_1
	.long	.LBB59_111-.LJTI59_1
	.long	.LBB59_111-.LJTI59_1
	.long	.LBB59_111-.LJTI59_1
	.long	.LBB59_110-.LJTI59_1

	.section	.text$073,"xr"
	.p2align	4
L_62:
	xorl	%eax, %eax
	cmpq	$64, %rsi
	jb	.LBB60_4
	movq	%rsi, %rcx
	.p2align	4
.LBB60_2:
	vmovdqu	(%rdi,%rax), %xmm3
	vmovdqu	16(%rdi,%rax), %xmm2
	vmovdqu	32(%rdi,%rax), %xmm1
	vmovdqu	48(%rdi,%rax), %xmm0
	vpor	%xmm2, %xmm3, %xmm4
	vpor	%xmm0, %xmm1, %xmm5
	vpor	%xmm5, %xmm4, %xmm4
	vpmovmskb	%xmm4, %r8d
	testl	%r8d, %r8d
	jne	.LBB60_4
	vpmovzxbw	%xmm3, %ymm3
	vmovdqu	%ymm3, (%rdx,%rax,2)
	vpmovzxbw	%xmm2, %ymm2
	vmovdqu	%ymm2, 32(%rdx,%rax,2)
	vpmovzxbw	%xmm1, %ymm1
	vmovdqu	%ymm1, 64(%rdx,%rax,2)
	vpmovzxbw	%xmm0, %ymm0
	vmovdqu	%ymm0, 96(%rdx,%rax,2)
	addq	$64, %rax
	addq	$-64, %rcx
	cmpq	$63, %rcx
	ja	.LBB60_2
.LBB60_4:
	movq	%rsi, %rcx
	subq	%rax, %rcx
	cmpq	$16, %rcx
	jb	.LBB60_7
	.p2align	4
.LBB60_5:
	vmovdqu	(%rdi,%rax), %xmm0
	vpmovmskb	%xmm0, %r8d
	testl	%r8d, %r8d
	jne	.LBB60_9
	vpmovzxbw	%xmm0, %ymm0
	vmovdqu	%ymm0, (%rdx,%rax,2)
	addq	$16, %rax
	addq	$-16, %rcx
	cmpq	$15, %rcx
	ja	.LBB60_5
.LBB60_7:
	vmovdqu	-16(%rsi,%rdi), %xmm0
	vpmovmskb	%xmm0, %ecx
	testl	%ecx, %ecx
	je	.LBB60_8
.LBB60_9:
	vzeroupper
	retq
.LBB60_8:
	vpmovzxbw	%xmm0, %ymm0
	vmovdqu	%ymm0, -32(%rdx,%rsi,2)
	movq	%rsi, %rax
	vzeroupper
	retq
.Lfunc_end60:

	.section	.rdata$000,"dr"
	.p2align	4, 0x0
.LCPI61_0:
	.zero	16,224
.LCPI61_1:
	.zero	1
	.byte	255
	.byte	0
	.zero	1
	.byte	255
	.byte	0
	.zero	1
	.byte	255
	.byte	0
	.zero	1
	.byte	255
	.byte	0
	.zero	1
	.byte	255
	.byte	0
	.zero	1
.LCPI61_2:
	.byte	0
	.byte	3
	.byte	6
	.byte	9
	.byte	12
	.byte	15
	.byte	128
	.byte	128
	.byte	128
	.byte	128
	.byte	128
	.byte	128
	.byte	128
	.byte	128
	.byte	128
	.byte	128
.LCPI61_3:
	.byte	128
	.byte	128
	.byte	128
	.byte	128
	.byte	128
	.byte	128
	.byte	2
	.byte	5
	.byte	8
	.byte	11
	.byte	14
	.byte	1
	.byte	4
	.byte	7
	.byte	10
	.byte	13
.LCPI61_4:
	.byte	255
	.zero	1
	.byte	0
	.byte	255
	.zero	1
	.byte	0
	.byte	255
	.zero	1
	.byte	0
	.byte	255
	.zero	1
	.byte	0
	.byte	255
	.zero	1
	.byte	0
	.byte	255
.LCPI61_5:
	.byte	1
	.byte	4
	.byte	7
	.byte	10
	.byte	13
	.byte	128
	.byte	128
	.byte	128
	.byte	128
	.byte	128
	.byte	128
	.byte	128
	.byte	128
	.byte	128
	.byte	128
	.byte	128
.LCPI61_6:
	.byte	128
	.byte	128
	.byte	128
	.byte	128
	.byte	128
	.byte	0
	.byte	3
	.byte	6
	.byte	9
	.byte	12
	.byte	15
	.byte	2
	.byte	5
	.byte	8
	.byte	11
	.byte	14
.LCPI61_7:
	.byte	255
	.byte	0
	.zero	1
	.byte	255
	.byte	0
	.zero	1
	.byte	255
	.byte	0
	.zero	1
	.byte	255
	.byte	0
	.zero	1
	.byte	255
	.byte	0
	.zero	1
	.byte	255
.LCPI61_8:
	.byte	2
	.byte	5
	.byte	8
	.byte	11
	.byte	14
	.byte	128
	.byte	128
	.byte	128
	.byte	128
	.byte	128
	.byte	128
	.byte	128
	.byte	128
	.byte	128
	.byte	128
	.byte	128
.LCPI61_9:
	.byte	128
	.byte	128
	.byte	128
	.byte	128
	.byte	128
	.byte	1
	.byte	4
	.byte	7
	.byte	10
	.byte	13
	.byte	0
	.byte	3
	.byte	6
	.byte	9
	.byte	12
	.byte	15
.LCPI61_10:
	.zero	16,240
.LCPI61_11:
	.zero	16,32
.LCPI61_12:
	.zero	16,192
.LCPI61_13:
	.zero	16,128
.LCPI61_14:
	.zero	16,15
.LCPI61_15:
	.zero	16,7
.LCPI61_16:
	.zero	16,248
.LCPI61_17:
	.zero	16,216
.LCPI61_18:
	.zero	16,63
.LCPI61_19:
	.zero	16,191
.LCPI61_20:
	.zero	16,223
.LCPI61_21:
	.zero	16,239
.LCPI61_22:
	.zero	16,159
.LCPI61_23:
	.zero	16,237
.LCPI61_24:
	.zero	16,143
.LCPI61_25:
	.zero	16,245
.LCPI61_26:
	.zero	16,244
.LCPI61_27:
	.zero	16,254
.LCPI61_28:
	.zero	16,220
.LCPI61_29:
	.zero	16,252
.LCPI61_30:
	.zero	16,232
.LCPI61_31:
	.zero	16,127
	.section	.rdata$001,"dr"
	.p2align	2, 0x0
.LCPI61_32:
	.zero	4,192
.LCPI61_33:
	.zero	4,128
.LCPI61_34:
	.zero	4,254
.LCPI61_35:
	.zero	4,191
.LCPI61_36:
	.zero	4,63
.LCPI61_37:
	.zero	4,127
.LCPI61_38:
	.zero	4,223
.LCPI61_39:
	.zero	4,239
.LCPI61_40:
	.zero	4,159
.LCPI61_41:
	.zero	4,224
.LCPI61_42:
	.zero	4,237
.LCPI61_43:
	.zero	4,143
.LCPI61_44:
	.zero	4,244
.LCPI61_45:
	.zero	4,240
.LCPI61_46:
	.zero	4,245
.LCPI61_47:
	.zero	4,15
.LCPI61_48:
	.zero	4,252
.LCPI61_49:
	.zero	4,232
.LCPI61_50:
	.zero	4,220
	.section	.text$074,"xr"
	.p2align	4
L_61:
	pushq	%rbp
	pushq	%r15
	pushq	%r14
	pushq	%r13
	pushq	%r12
	pushq	%rbx
	subq	$56, %rsp
	movq	%r9, %rbx
	movq	%r8, %rax
	movq	%rcx, %r15
	movq	%rdx, %r12
	movq	%rsi, %r13
	movq	%rdi, %rbp
	jmp	.LBB61_1
	.p2align	4
.LBB61_4:
	shrq	%rsi
	cmpq	%rax, %rsi
	cmovaeq	%rax, %rsi
	leaq	(%r12,%rbx), %rdx
	callq	L_62
	leaq	(%rbx,%rax,2), %rbx
	addq	%r14, %rax
.LBB61_27:
	cmpq	%r14, %rax
	je	.LBB61_28
.LBB61_1:
	movq	%rax, %r14
	movq	%r13, %rax
	subq	%r14, %rax
	cmpq	$64, %rax
	jb	.LBB61_28
	movq	%r15, %rsi
	subq	%rbx, %rsi
	cmpq	$128, %rsi
	jb	.LBB61_28
	leaq	(%r14,%rbp), %rdi
	vmovdqu	(%rbp,%r14), %xmm4
	vmovdqu	16(%rbp,%r14), %xmm5
	vmovdqu	32(%rbp,%r14), %xmm2
	vmovdqu	48(%rbp,%r14), %xmm1
	vpmaxub	%xmm5, %xmm4, %xmm0
	vpmaxub	%xmm1, %xmm2, %xmm3
	vpmaxub	%xmm3, %xmm0, %xmm0
	vpmovmskb	%xmm0, %ecx
	testl	%ecx, %ecx
	je	.LBB61_4
	vpmaxub	.LCPI61_0(%rip), %xmm0, %xmm3
	vpcmpeqb	%xmm3, %xmm0, %xmm3
	vpmovmskb	%xmm3, %eax
	testl	%eax, %eax
	je	.LBB61_6
	vmovd	%xmm4, %eax
	andb	$-16, %al
	cmpb	$-32, %al
	jne	.LBB61_9
	leaq	-32(%r15), %rcx
	subq	%rbx, %rcx
	leaq	-48(%r13), %rdx
	subq	%r14, %rdx
	movq	%r14, %rax
	.p2align	4
.LBB61_11:
	vmovdqu	(%rbp,%rax), %xmm1
	vmovdqu	16(%rbp,%rax), %xmm2
	vmovdqu	32(%rbp,%rax), %xmm4
	vmovdqa	.LCPI61_1(%rip), %xmm3
	vpblendvb	%xmm3, %xmm4, %xmm2, %xmm3
	vpshufb	.LCPI61_2(%rip), %xmm1, %xmm5
	vpshufb	.LCPI61_3(%rip), %xmm3, %xmm3
	vmovdqa	.LCPI61_4(%rip), %xmm6
	vpblendvb	%xmm6, %xmm2, %xmm4, %xmm6
	vpshufb	.LCPI61_5(%rip), %xmm1, %xmm7
	vpshufb	.LCPI61_6(%rip), %xmm6, %xmm6
	vpor	%xmm5, %xmm3, %xmm3
	vmovdqa	.LCPI61_7(%rip), %xmm5
	vpblendvb	%xmm5, %xmm4, %xmm2, %xmm2
	vpshufb	.LCPI61_8(%rip), %xmm1, %xmm1
	vpshufb	.LCPI61_9(%rip), %xmm2, %xmm4
	vpor	%xmm7, %xmm6, %xmm2
	vpor	%xmm1, %xmm4, %xmm1
	vpand	.LCPI61_10(%rip), %xmm3, %xmm4
	vpaddb	.LCPI61_11(%rip), %xmm4, %xmm4
	vpbroadcastd	.LCPI61_32(%rip), %xmm5
	vpand	%xmm5, %xmm2, %xmm6
	vpbroadcastd	.LCPI61_33(%rip), %xmm7
	vpxor	%xmm7, %xmm6, %xmm6
	vpmaxub	%xmm6, %xmm4, %xmm4
	vpand	%xmm5, %xmm1, %xmm5
	vpxor	%xmm7, %xmm5, %xmm5
	vpor	%xmm5, %xmm4, %xmm4
	vptest	%xmm4, %xmm4
	jne	.LBB61_15
	vpsllw	$4, %xmm3, %xmm3
	vpand	.LCPI61_10(%rip), %xmm3, %xmm3
	vpsrlw	$2, %xmm2, %xmm4
	vpand	.LCPI61_14(%rip), %xmm4, %xmm4
	vpor	%xmm3, %xmm4, %xmm3
	vpminub	.LCPI61_15(%rip), %xmm3, %xmm4
	vpand	.LCPI61_16(%rip), %xmm3, %xmm5
	vpcmpeqb	.LCPI61_17(%rip), %xmm5, %xmm5
	vpcmpeqb	%xmm4, %xmm3, %xmm4
	vpor	%xmm5, %xmm4, %xmm4
	vpmovmskb	%xmm4, %esi
	testl	%esi, %esi
	jne	.LBB61_15
	vpsllw	$6, %xmm2, %xmm2
	vpand	.LCPI61_12(%rip), %xmm2, %xmm2
	vpand	.LCPI61_18(%rip), %xmm1, %xmm1
	vpor	%xmm1, %xmm2, %xmm1
	vpunpcklbw	%xmm3, %xmm1, %xmm2
	vmovdqu	%xmm2, (%r12,%rbx)
	vpunpckhbw	%xmm3, %xmm1, %xmm1
	vmovdqu	%xmm1, 16(%r12,%rbx)
	addq	$32, %rbx
	addq	$48, %rax
	subq	$32, %rcx
	setb	%sil
	subq	$48, %rdx
	jb	.LBB61_15
	testb	%sil, %sil
	je	.LBB61_11
	jmp	.LBB61_15
	.p2align	4
.LBB61_6:
	vpslldq	$1, %xmm4, %xmm3
	vpbroadcastd	.LCPI61_32(%rip), %xmm0
	vpcmpgtb	%xmm4, %xmm0, %xmm6
	vpmaxub	%xmm0, %xmm3, %xmm7
	vpcmpeqb	%xmm7, %xmm3, %xmm7
	vpxor	%xmm7, %xmm6, %xmm6
	vpbroadcastd	.LCPI61_34(%rip), %xmm7
	vpand	%xmm7, %xmm4, %xmm8
	vpcmpeqb	%xmm0, %xmm8, %xmm8
	vpor	%xmm6, %xmm8, %xmm6
	vpcmpgtb	%xmm5, %xmm0, %xmm8
	vmovdqu	15(%rdi), %xmm9
	vmovdqu	31(%rdi), %xmm10
	vmovdqu	47(%rdi), %xmm11
	vpmaxub	%xmm0, %xmm9, %xmm12
	vpcmpeqb	%xmm12, %xmm9, %xmm9
	vpxor	%xmm9, %xmm8, %xmm8
	vpand	%xmm7, %xmm5, %xmm5
	vpcmpeqb	%xmm0, %xmm5, %xmm5
	vpor	%xmm5, %xmm8, %xmm5
	vpor	%xmm5, %xmm6, %xmm5
	vpcmpgtb	%xmm2, %xmm0, %xmm6
	vpmaxub	%xmm0, %xmm10, %xmm8
	vpcmpeqb	%xmm8, %xmm10, %xmm8
	vpxor	%xmm6, %xmm8, %xmm6
	vpand	%xmm7, %xmm2, %xmm2
	vpcmpeqb	%xmm0, %xmm2, %xmm2
	vpor	%xmm6, %xmm2, %xmm2
	vpcmpgtb	%xmm1, %xmm0, %xmm6
	vpmaxub	%xmm0, %xmm11, %xmm8
	vpcmpeqb	%xmm8, %xmm11, %xmm8
	vpxor	%xmm6, %xmm8, %xmm6
	vpand	%xmm7, %xmm1, %xmm1
	vpcmpeqb	%xmm0, %xmm1, %xmm1
	vpor	%xmm6, %xmm1, %xmm1
	vpor	%xmm1, %xmm2, %xmm1
	vpor	%xmm1, %xmm5, %xmm1
	vpmovmskb	%xmm1, %eax
	testl	%eax, %eax
	jne	.LBB61_28
	vpsubusb	%xmm0, %xmm3, %xmm5
	vpbroadcastd	.LCPI61_35(%rip), %xmm1
	vpsrlw	$2, %xmm5, %xmm3
	vpbroadcastd	.LCPI61_36(%rip), %xmm2
	vpand	%xmm2, %xmm3, %xmm6
	vpbroadcastd	.LCPI61_37(%rip), %xmm3
	vpand	%xmm3, %xmm4, %xmm7
	vpsllw	$6, %xmm5, %xmm5
	vpand	%xmm0, %xmm5, %xmm5
	vpaddb	%xmm7, %xmm5, %xmm5
	vpminub	%xmm1, %xmm4, %xmm7
	vpcmpeqb	%xmm7, %xmm4, %xmm4
	vpmovmskb	%xmm4, %edx
	vpunpckhbw	%xmm6, %xmm5, %xmm4
	vpunpcklbw	%xmm6, %xmm5, %xmm5
	movzbl	%dl, %ecx
	popcntl	%ecx, %r8d
	shll	$4, %ecx
	leaq	.Lstatic.10(%rip), %rax
	vpshufb	(%rcx,%rax), %xmm5, %xmm5
	leaq	(%r12,%rbx), %rcx
	vmovdqu	%xmm5, (%r12,%rbx)
	shrl	$8, %edx
	popcntl	%edx, %esi
	shll	$4, %edx
	vpshufb	(%rdx,%rax), %xmm4, %xmm4
	vmovdqu	%xmm4, (%rcx,%r8,2)
	addq	%r8, %rsi
	vmovdqu	15(%rdi), %xmm4
	vmovdqu	16(%rdi), %xmm5
	vpsubusb	%xmm0, %xmm4, %xmm4
	vpsrlw	$2, %xmm4, %xmm6
	vpand	%xmm2, %xmm6, %xmm6
	vpand	%xmm3, %xmm5, %xmm7
	vpsllw	$6, %xmm4, %xmm4
	vpand	%xmm0, %xmm4, %xmm4
	vpaddb	%xmm4, %xmm7, %xmm4
	vpminub	%xmm1, %xmm5, %xmm7
	vpcmpeqb	%xmm7, %xmm5, %xmm5
	vpmovmskb	%xmm5, %r8d
	vpunpckhbw	%xmm6, %xmm4, %xmm5
	vpunpcklbw	%xmm6, %xmm4, %xmm4
	movzbl	%r8b, %edx
	popcntl	%edx, %r9d
	shll	$4, %edx
	vpshufb	(%rdx,%rax), %xmm4, %xmm4
	vmovdqu	%xmm4, (%rcx,%rsi,2)
	leaq	(%rcx,%rsi,2), %r10
	shrl	$8, %r8d
	xorl	%edx, %edx
	popcntl	%r8d, %edx
	shll	$4, %r8d
	vpshufb	(%r8,%rax), %xmm5, %xmm4
	vmovdqu	%xmm4, (%r10,%r9,2)
	addq	%rsi, %rdx
	addq	%r9, %rdx
	vmovdqu	31(%rdi), %xmm4
	vmovdqu	32(%rdi), %xmm5
	vpsubusb	%xmm0, %xmm4, %xmm4
	vpsrlw	$2, %xmm4, %xmm6
	vpand	%xmm2, %xmm6, %xmm6
	vpand	%xmm3, %xmm5, %xmm7
	vpsllw	$6, %xmm4, %xmm4
	vpand	%xmm0, %xmm4, %xmm4
	vpaddb	%xmm4, %xmm7, %xmm4
	vpminub	%xmm1, %xmm5, %xmm7
	vpcmpeqb	%xmm7, %xmm5, %xmm5
	vpmovmskb	%xmm5, %r8d
	vpunpckhbw	%xmm6, %xmm4, %xmm5
	vpunpcklbw	%xmm6, %xmm4, %xmm4
	movzbl	%r8b, %esi
	xorl	%r9d, %r9d
	popcntl	%esi, %r9d
	shll	$4, %esi
	vpshufb	(%rsi,%rax), %xmm4, %xmm4
	vmovdqu	%xmm4, (%rcx,%rdx,2)
	leaq	(%rcx,%rdx,2), %r10
	shrl	$8, %r8d
	xorl	%esi, %esi
	popcntl	%r8d, %esi
	shll	$4, %r8d
	vpshufb	(%r8,%rax), %xmm5, %xmm4
	vmovdqu	%xmm4, (%r10,%r9,2)
	addq	%r9, %rsi
	addq	%rdx, %rsi
	vmovdqu	47(%rdi), %xmm4
	vmovdqu	48(%rdi), %xmm5
	vpsubusb	%xmm0, %xmm4, %xmm4
	vpsrlw	$2, %xmm4, %xmm6
	vpand	%xmm2, %xmm6, %xmm2
	vpand	%xmm3, %xmm5, %xmm3
	vpsllw	$6, %xmm4, %xmm4
	vpand	%xmm0, %xmm4, %xmm0
	vpaddb	%xmm0, %xmm3, %xmm0
	vpminub	%xmm1, %xmm5, %xmm1
	vpcmpeqb	%xmm1, %xmm5, %xmm1
	vpmovmskb	%xmm1, %edx
	vpunpckhbw	%xmm2, %xmm0, %xmm1
	vpunpcklbw	%xmm2, %xmm0, %xmm0
	movzbl	%dl, %r8d
	xorl	%r9d, %r9d
	popcntl	%r8d, %r9d
	shll	$4, %r8d
	vpshufb	(%r8,%rax), %xmm0, %xmm0
	vmovdqu	%xmm0, (%rcx,%rsi,2)
	leaq	(%rcx,%rsi,2), %rcx
	shrl	$8, %edx
	xorl	%r8d, %r8d
	popcntl	%edx, %r8d
	shll	$4, %edx
	vpshufb	(%rdx,%rax), %xmm1, %xmm0
	vmovdqu	%xmm0, (%rcx,%r9,2)
	addq	%r9, %r8
	addq	%rsi, %r8
	cmpb	$-64, 63(%rdi)
	leaq	(%rbx,%r8,2), %rbx
	movq	%r14, %rax
	adcq	$-1, %rax
	addq	$64, %rax
	jmp	.LBB61_27
.LBB61_9:
	movq	%r14, %rax
.LBB61_15:
	cmpq	%rax, %r14
	jb	.LBB61_27
	vpmaxub	.LCPI61_10(%rip), %xmm0, %xmm1
	vpcmpeqb	%xmm1, %xmm0, %xmm0
	vpmovmskb	%xmm0, %ecx
	vmovdqu	(%rbp,%rax), %xmm6
	vpslldq	$1, %xmm6, %xmm5
	vpslldq	$2, %xmm6, %xmm7
	testl	%ecx, %ecx
	je	.LBB61_17
	vpslldq	$1, %xmm7, %xmm2
	vpbroadcastd	.LCPI61_32(%rip), %xmm14
	vpcmpgtb	%xmm6, %xmm14, %xmm3
	vpbroadcastd	.LCPI61_35(%rip), %xmm15
	vpsubusb	%xmm15, %xmm5, %xmm4
	vpbroadcastd	.LCPI61_38(%rip), %xmm13
	vmovdqa	%xmm7, 16(%rsp)
	vpsubusb	%xmm13, %xmm7, %xmm8
	vpmaxub	%xmm4, %xmm8, %xmm4
	vpbroadcastd	.LCPI61_39(%rip), %xmm1
	vpsubusb	%xmm1, %xmm2, %xmm2
	vpor	%xmm2, %xmm4, %xmm2
	vpxor	%xmm0, %xmm0, %xmm0
	vpcmpgtb	%xmm0, %xmm2, %xmm2
	vpbroadcastd	.LCPI61_40(%rip), %xmm9
	vpminub	%xmm6, %xmm9, %xmm4
	vpcmpeqb	%xmm4, %xmm6, %xmm4
	vpbroadcastd	.LCPI61_41(%rip), %xmm11
	vpbroadcastd	.LCPI61_42(%rip), %xmm10
	vpblendvb	%xmm4, %xmm11, %xmm10, %xmm4
	vpxor	%xmm2, %xmm3, %xmm2
	vpcmpeqb	%xmm4, %xmm5, %xmm3
	vpbroadcastd	.LCPI61_43(%rip), %xmm8
	vpminub	%xmm6, %xmm8, %xmm4
	vpcmpeqb	%xmm4, %xmm6, %xmm4
	vpmaxub	.LCPI61_25(%rip), %xmm6, %xmm12
	vpcmpeqb	%xmm6, %xmm12, %xmm12
	vpbroadcastd	.LCPI61_44(%rip), %xmm0
	vpblendvb	%xmm4, .LCPI61_10(%rip), %xmm0, %xmm4
	vmovdqa	%xmm5, (%rsp)
	vpcmpeqb	%xmm4, %xmm5, %xmm4
	vpor	%xmm3, %xmm4, %xmm3
	vpor	%xmm3, %xmm12, %xmm3
	vpbroadcastd	.LCPI61_34(%rip), %xmm12
	vpand	%xmm6, %xmm12, %xmm4
	vpcmpeqb	%xmm4, %xmm14, %xmm4
	vpor	%xmm2, %xmm4, %xmm2
	vpor	%xmm2, %xmm3, %xmm5
	vmovdqu	14(%rbp,%rax), %xmm3
	vmovdqu	15(%rbp,%rax), %xmm4
	vpsubusb	%xmm13, %xmm3, %xmm3
	vpsubusb	%xmm15, %xmm4, %xmm0
	vpmaxub	%xmm3, %xmm0, %xmm0
	vmovdqu	13(%rbp,%rax), %xmm3
	vmovdqa	%xmm1, %xmm7
	vpsubusb	%xmm1, %xmm3, %xmm3
	vpor	%xmm3, %xmm0, %xmm0
	vpxor	%xmm1, %xmm1, %xmm1
	vpcmpgtb	%xmm1, %xmm0, %xmm0
	vmovdqu	16(%rbp,%rax), %xmm3
	vpcmpgtb	%xmm3, %xmm14, %xmm1
	vpxor	%xmm0, %xmm1, %xmm0
	vpminub	%xmm3, %xmm9, %xmm1
	vpcmpeqb	%xmm1, %xmm3, %xmm1
	vpblendvb	%xmm1, %xmm11, %xmm10, %xmm1
	vmovdqa	%xmm8, %xmm14
	vpminub	%xmm3, %xmm8, %xmm8
	vpcmpeqb	%xmm3, %xmm8, %xmm8
	vpbroadcastd	.LCPI61_44(%rip), %xmm15
	vpbroadcastd	.LCPI61_45(%rip), %xmm2
	vpblendvb	%xmm8, %xmm2, %xmm15, %xmm8
	vpcmpeqb	%xmm1, %xmm4, %xmm1
	vpcmpeqb	%xmm4, %xmm8, %xmm4
	vpor	%xmm1, %xmm4, %xmm1
	vpbroadcastd	.LCPI61_46(%rip), %xmm11
	vpmaxub	%xmm3, %xmm11, %xmm4
	vpcmpeqb	%xmm4, %xmm3, %xmm4
	vpor	%xmm4, %xmm1, %xmm1
	vpand	%xmm3, %xmm12, %xmm3
	vpbroadcastd	.LCPI61_32(%rip), %xmm8
	vpcmpeqb	%xmm3, %xmm8, %xmm3
	vpor	%xmm0, %xmm3, %xmm0
	vpor	%xmm1, %xmm0, %xmm0
	vpor	%xmm0, %xmm5, %xmm0
	vmovdqa	%xmm0, 32(%rsp)
	vmovdqu	30(%rbp,%rax), %xmm0
	vmovdqu	31(%rbp,%rax), %xmm1
	vpsubusb	%xmm13, %xmm0, %xmm0
	vpsubusb	.LCPI61_19(%rip), %xmm1, %xmm3
	vpmaxub	%xmm0, %xmm3, %xmm0
	vmovdqu	29(%rbp,%rax), %xmm3
	vpsubusb	%xmm7, %xmm3, %xmm3
	vpor	%xmm3, %xmm0, %xmm0
	vpxor	%xmm3, %xmm3, %xmm3
	vpcmpgtb	%xmm3, %xmm0, %xmm0
	vpxor	%xmm5, %xmm5, %xmm5
	vmovdqu	32(%rbp,%rax), %xmm3
	vpcmpgtb	%xmm3, %xmm8, %xmm4
	vmovdqa	%xmm8, %xmm13
	vpxor	%xmm0, %xmm4, %xmm0
	vpminub	%xmm3, %xmm9, %xmm4
	vpcmpeqb	%xmm4, %xmm3, %xmm4
	vpblendvb	%xmm4, .LCPI61_0(%rip), %xmm10, %xmm4
	vpcmpeqb	%xmm4, %xmm1, %xmm4
	vpminub	%xmm3, %xmm14, %xmm8
	vpcmpeqb	%xmm3, %xmm8, %xmm8
	vpblendvb	%xmm8, %xmm2, %xmm15, %xmm8
	vpcmpeqb	%xmm1, %xmm8, %xmm1
	vpor	%xmm4, %xmm1, %xmm1
	vpmaxub	%xmm3, %xmm11, %xmm4
	vpcmpeqb	%xmm4, %xmm3, %xmm4
	vpor	%xmm4, %xmm1, %xmm1
	vpand	%xmm3, %xmm12, %xmm3
	vpcmpeqb	%xmm3, %xmm13, %xmm3
	vpor	%xmm0, %xmm3, %xmm0
	vpor	%xmm1, %xmm0, %xmm3
	vmovdqu	48(%rbp,%rax), %xmm4
	vpminub	%xmm4, %xmm14, %xmm0
	vpcmpeqb	%xmm0, %xmm4, %xmm0
	vpblendvb	%xmm0, %xmm2, %xmm15, %xmm0
	vmovdqa	%xmm13, %xmm15
	vmovdqu	46(%rbp,%rax), %xmm1
	vmovdqu	47(%rbp,%rax), %xmm8
	vpsubusb	.LCPI61_20(%rip), %xmm1, %xmm1
	vpsubusb	.LCPI61_19(%rip), %xmm8, %xmm13
	vpmaxub	%xmm1, %xmm13, %xmm1
	vmovdqu	45(%rbp,%rax), %xmm13
	vpsubusb	.LCPI61_21(%rip), %xmm13, %xmm13
	vpor	%xmm1, %xmm13, %xmm1
	vpcmpgtb	%xmm5, %xmm1, %xmm1
	vpminub	%xmm4, %xmm9, %xmm9
	vpcmpeqb	%xmm4, %xmm9, %xmm9
	vpbroadcastd	.LCPI61_41(%rip), %xmm5
	vpblendvb	%xmm9, %xmm5, %xmm10, %xmm9
	vpcmpgtb	%xmm4, %xmm15, %xmm10
	vpxor	%xmm1, %xmm10, %xmm1
	vpcmpeqb	%xmm9, %xmm8, %xmm9
	vpcmpeqb	%xmm0, %xmm8, %xmm0
	vpor	%xmm0, %xmm9, %xmm0
	vpmaxub	%xmm4, %xmm11, %xmm8
	vpcmpeqb	%xmm4, %xmm8, %xmm8
	vpor	%xmm0, %xmm8, %xmm0
	vpand	%xmm4, %xmm12, %xmm4
	vpcmpeqb	%xmm4, %xmm15, %xmm4
	vpor	%xmm1, %xmm4, %xmm1
	vpor	%xmm0, %xmm1, %xmm0
	vpor	%xmm0, %xmm3, %xmm0
	vpor	32(%rsp), %xmm0, %xmm0
	vpsllw	$7, %xmm0, %xmm0
	vpmovmskb	%xmm0, %ecx
	testl	%ecx, %ecx
	jne	.LBB61_27
	vmovdqa	%xmm5, %xmm7
	vmovdqa	(%rsp), %xmm5
	vpblendvb	%xmm6, %xmm5, %xmm15, %xmm2
	vmovdqa	%xmm7, %xmm0
	vmovdqa	16(%rsp), %xmm7
	vpmaxub	%xmm0, %xmm7, %xmm0
	vpsrlw	$2, %xmm2, %xmm1
	vpbroadcastd	.LCPI61_47(%rip), %xmm11
	vpand	%xmm1, %xmm11, %xmm1
	vpsllw	$4, %xmm0, %xmm0
	vpandn	%xmm0, %xmm11, %xmm0
	vpor	%xmm0, %xmm1, %xmm0
	vpmaxub	%xmm7, %xmm2, %xmm1
	vpbroadcastd	.LCPI61_35(%rip), %xmm9
	vpminub	%xmm1, %xmm9, %xmm3
	vpcmpeqb	%xmm3, %xmm1, %xmm1
	vpand	.LCPI61_28(%rip), %xmm1, %xmm1
	vpor	%xmm1, %xmm0, %xmm0
	vpsllw	$2, %xmm5, %xmm1
	vpbroadcastd	.LCPI61_48(%rip), %xmm14
	vpand	%xmm1, %xmm14, %xmm1
	vpbroadcastd	.LCPI61_36(%rip), %xmm12
	vpminub	%xmm1, %xmm12, %xmm3
	vpcmpeqb	%xmm3, %xmm1, %xmm3
	vpbroadcastd	.LCPI61_49(%rip), %xmm13
	vpaddb	%xmm7, %xmm13, %xmm4
	vpaddb	%xmm4, %xmm3, %xmm3
	vpsrlw	$4, %xmm6, %xmm4
	vpandn	%xmm4, %xmm14, %xmm4
	vpor	%xmm4, %xmm1, %xmm1
	vpbroadcastd	.LCPI61_39(%rip), %xmm10
	vpminub	%xmm7, %xmm10, %xmm4
	vpcmpeqb	%xmm4, %xmm7, %xmm4
	vpblendvb	%xmm4, %xmm0, %xmm3, %xmm0
	vpsllw	$6, %xmm2, %xmm2
	vpand	%xmm2, %xmm15, %xmm2
	vpand	.LCPI61_31(%rip), %xmm6, %xmm3
	vpaddb	%xmm3, %xmm2, %xmm2
	vpaddb	%xmm1, %xmm15, %xmm1
	vpblendvb	%xmm4, %xmm2, %xmm1, %xmm1
	vpminub	%xmm6, %xmm9, %xmm2
	vpcmpeqb	%xmm2, %xmm6, %xmm2
	vpbroadcastd	.LCPI61_38(%rip), %xmm7
	vpminub	%xmm7, %xmm5, %xmm3
	vpcmpeqb	%xmm3, %xmm5, %xmm3
	vpand	%xmm3, %xmm2, %xmm2
	vpmovmskb	%xmm2, %r8d
	vpunpckhbw	%xmm0, %xmm1, %xmm2
	vpunpcklbw	%xmm0, %xmm1, %xmm0
	movzbl	%r8b, %edx
	popcntl	%edx, %esi
	shll	$4, %edx
	leaq	.Lstatic.10(%rip), %rcx
	vpshufb	(%rdx,%rcx), %xmm0, %xmm0
	vmovdqu	%xmm0, (%r12,%rbx)
	leaq	(%r12,%rbx), %rdx
	shrl	$8, %r8d
	popcntl	%r8d, %edi
	shll	$4, %r8d
	vpshufb	(%r8,%rcx), %xmm2, %xmm0
	vmovdqu	%xmm0, (%rdx,%rsi,2)
	vmovdqu	15(%rbp,%rax), %xmm3
	vmovdqu	16(%rbp,%rax), %xmm2
	vpblendvb	%xmm2, %xmm3, %xmm15, %xmm0
	vmovdqu	14(%rbp,%rax), %xmm1
	vpsrlw	$2, %xmm0, %xmm4
	vpand	%xmm4, %xmm11, %xmm4
	vpbroadcastd	.LCPI61_41(%rip), %xmm7
	vpmaxub	%xmm7, %xmm1, %xmm5
	vpsllw	$4, %xmm5, %xmm5
	vpandn	%xmm5, %xmm11, %xmm5
	vpor	%xmm5, %xmm4, %xmm4
	vpmaxub	%xmm1, %xmm0, %xmm5
	vpminub	%xmm5, %xmm9, %xmm6
	vmovdqa	%xmm9, %xmm11
	vpcmpeqb	%xmm6, %xmm5, %xmm5
	vpbroadcastd	.LCPI61_50(%rip), %xmm8
	vpand	%xmm5, %xmm8, %xmm5
	vpor	%xmm5, %xmm4, %xmm4
	vpsllw	$2, %xmm3, %xmm5
	vpand	%xmm5, %xmm14, %xmm5
	vpminub	%xmm5, %xmm12, %xmm6
	vpcmpeqb	%xmm6, %xmm5, %xmm6
	vmovdqa	%xmm13, %xmm9
	vpaddb	%xmm1, %xmm13, %xmm13
	vpaddb	%xmm6, %xmm13, %xmm6
	vpminub	%xmm1, %xmm10, %xmm13
	vpcmpeqb	%xmm1, %xmm13, %xmm1
	vpblendvb	%xmm1, %xmm4, %xmm6, %xmm4
	vpsrlw	$4, %xmm2, %xmm6
	vpandn	%xmm6, %xmm14, %xmm6
	vpor	%xmm6, %xmm5, %xmm5
	vpsllw	$6, %xmm0, %xmm0
	vpand	%xmm0, %xmm15, %xmm0
	vpbroadcastd	.LCPI61_37(%rip), %xmm10
	vpand	%xmm2, %xmm10, %xmm6
	vpaddb	%xmm6, %xmm0, %xmm0
	vpaddb	%xmm5, %xmm15, %xmm5
	vpblendvb	%xmm1, %xmm0, %xmm5, %xmm0
	addl	%esi, %edi
	vpminub	.LCPI61_20(%rip), %xmm3, %xmm1
	vpcmpeqb	%xmm1, %xmm3, %xmm1
	vpminub	%xmm2, %xmm11, %xmm3
	vpcmpeqb	%xmm3, %xmm2, %xmm2
	vpand	%xmm2, %xmm1, %xmm1
	vpmovmskb	%xmm1, %r9d
	vpunpckhbw	%xmm4, %xmm0, %xmm1
	vpunpcklbw	%xmm4, %xmm0, %xmm0
	movzbl	%r9b, %esi
	xorl	%r8d, %r8d
	popcntl	%esi, %r8d
	shll	$4, %esi
	vpshufb	(%rsi,%rcx), %xmm0, %xmm0
	vmovdqu	%xmm0, (%rdx,%rdi,2)
	leaq	(%rdx,%rdi,2), %r10
	shrl	$8, %r9d
	xorl	%esi, %esi
	popcntl	%r9d, %esi
	shll	$4, %r9d
	vpshufb	(%r9,%rcx), %xmm1, %xmm0
	vmovdqu	%xmm0, (%r10,%r8,2)
	vmovdqu	31(%rbp,%rax), %xmm3
	vmovdqu	32(%rbp,%rax), %xmm2
	vpblendvb	%xmm2, %xmm3, %xmm15, %xmm0
	vmovdqu	30(%rbp,%rax), %xmm1
	vpsrlw	$2, %xmm0, %xmm4
	vpbroadcastd	.LCPI61_47(%rip), %xmm6
	vpand	%xmm6, %xmm4, %xmm4
	vpmaxub	%xmm7, %xmm1, %xmm5
	vpsllw	$4, %xmm5, %xmm5
	vpandn	%xmm5, %xmm6, %xmm5
	vmovdqa	%xmm6, %xmm7
	vpor	%xmm5, %xmm4, %xmm4
	vpmaxub	%xmm1, %xmm0, %xmm5
	vpminub	%xmm5, %xmm11, %xmm6
	vpcmpeqb	%xmm6, %xmm5, %xmm5
	vpand	%xmm5, %xmm8, %xmm5
	vpor	%xmm5, %xmm4, %xmm4
	vpsllw	$2, %xmm3, %xmm5
	vpand	%xmm5, %xmm14, %xmm5
	vpminub	%xmm5, %xmm12, %xmm6
	vpcmpeqb	%xmm6, %xmm5, %xmm6
	vpaddb	%xmm1, %xmm9, %xmm13
	vpaddb	%xmm6, %xmm13, %xmm6
	vpminub	.LCPI61_21(%rip), %xmm1, %xmm13
	vpcmpeqb	%xmm1, %xmm13, %xmm1
	vpblendvb	%xmm1, %xmm4, %xmm6, %xmm4
	vpsrlw	$4, %xmm2, %xmm6
	vpandn	%xmm6, %xmm14, %xmm6
	vpor	%xmm6, %xmm5, %xmm5
	vpsllw	$6, %xmm0, %xmm0
	vpand	%xmm0, %xmm15, %xmm0
	vpand	%xmm2, %xmm10, %xmm6
	vpaddb	%xmm6, %xmm0, %xmm0
	vpaddb	%xmm5, %xmm15, %xmm5
	vpblendvb	%xmm1, %xmm0, %xmm5, %xmm0
	addl	%r8d, %esi
	addl	%edi, %esi
	vpminub	.LCPI61_20(%rip), %xmm3, %xmm1
	vpcmpeqb	%xmm1, %xmm3, %xmm1
	vpminub	%xmm2, %xmm11, %xmm3
	vpcmpeqb	%xmm3, %xmm2, %xmm2
	vpand	%xmm2, %xmm1, %xmm1
	vpmovmskb	%xmm1, %r9d
	vpunpckhbw	%xmm4, %xmm0, %xmm1
	vpunpcklbw	%xmm4, %xmm0, %xmm0
	movzbl	%r9b, %edi
	xorl	%r8d, %r8d
	popcntl	%edi, %r8d
	shll	$4, %edi
	vpshufb	(%rdi,%rcx), %xmm0, %xmm0
	leaq	(%rdx,%rsi,2), %r10
	vmovdqu	%xmm0, (%rdx,%rsi,2)
	shrl	$8, %r9d
	xorl	%edi, %edi
	popcntl	%r9d, %edi
	shll	$4, %r9d
	vpshufb	(%r9,%rcx), %xmm1, %xmm0
	vmovdqu	%xmm0, (%r10,%r8,2)
	vmovdqu	46(%rbp,%rax), %xmm0
	vmovdqu	47(%rbp,%rax), %xmm3
	vmovdqu	48(%rbp,%rax), %xmm2
	vpblendvb	%xmm2, %xmm3, %xmm15, %xmm1
	vpmaxub	.LCPI61_0(%rip), %xmm0, %xmm4
	vpsrlw	$2, %xmm1, %xmm5
	vpand	%xmm7, %xmm5, %xmm5
	vpsllw	$4, %xmm4, %xmm4
	vpandn	%xmm4, %xmm7, %xmm4
	vpor	%xmm4, %xmm5, %xmm4
	vpmaxub	%xmm0, %xmm1, %xmm5
	vpminub	%xmm5, %xmm11, %xmm6
	vpcmpeqb	%xmm6, %xmm5, %xmm5
	vpand	%xmm5, %xmm8, %xmm5
	vpor	%xmm5, %xmm4, %xmm4
	vpsllw	$2, %xmm3, %xmm5
	vpand	%xmm5, %xmm14, %xmm5
	vpminub	%xmm5, %xmm12, %xmm6
	vpcmpeqb	%xmm6, %xmm5, %xmm6
	vpaddb	%xmm0, %xmm9, %xmm9
	vpaddb	%xmm6, %xmm9, %xmm6
	vpsrlw	$4, %xmm2, %xmm9
	vpandn	%xmm9, %xmm14, %xmm8
	vpor	%xmm5, %xmm8, %xmm5
	vpminub	.LCPI61_21(%rip), %xmm0, %xmm8
	vpcmpeqb	%xmm0, %xmm8, %xmm0
	vpblendvb	%xmm0, %xmm4, %xmm6, %xmm4
	vpaddb	%xmm5, %xmm15, %xmm5
	vpsllw	$6, %xmm1, %xmm1
	vpand	%xmm1, %xmm15, %xmm1
	vpand	%xmm2, %xmm10, %xmm6
	vpaddb	%xmm6, %xmm1, %xmm1
	vpblendvb	%xmm0, %xmm1, %xmm5, %xmm0
	vpminub	.LCPI61_20(%rip), %xmm3, %xmm1
	vpcmpeqb	%xmm1, %xmm3, %xmm1
	vpminub	%xmm2, %xmm11, %xmm3
	vpcmpeqb	%xmm3, %xmm2, %xmm2
	vpand	%xmm2, %xmm1, %xmm1
	vpmovmskb	%xmm1, %r9d
	vpunpckhbw	%xmm4, %xmm0, %xmm1
	vpunpcklbw	%xmm4, %xmm0, %xmm0
	addl	%r8d, %edi
	movzbl	%r9b, %r8d
	xorl	%r10d, %r10d
	popcntl	%r8d, %r10d
	shll	$4, %r8d
	vpshufb	(%r8,%rcx), %xmm0, %xmm0
	addl	%esi, %edi
	vmovdqu	%xmm0, (%rdx,%rdi,2)
	shrl	$8, %r9d
	popcntl	%r9d, %esi
	shll	$4, %r9d
	vpshufb	(%r9,%rcx), %xmm1, %xmm0
	leaq	(%rdx,%rdi,2), %rcx
	vmovdqu	%xmm0, (%rcx,%r10,2)
	addl	%r10d, %esi
	addl	%edi, %esi
	leaq	(%rbx,%rsi,2), %rbx
	cmpb	$-17, 61(%rbp,%rax)
	jbe	.LBB61_23
	addq	$-2, %rbx
	movl	$61, %ecx
	jmp	.LBB61_26
.LBB61_17:
	vpbroadcastd	.LCPI61_32(%rip), %xmm1
	vpcmpgtb	%xmm6, %xmm1, %xmm3
	vpbroadcastd	.LCPI61_35(%rip), %xmm10
	vpsubusb	%xmm10, %xmm5, %xmm4
	vpsubusb	.LCPI61_20(%rip), %xmm7, %xmm8
	vpor	%xmm4, %xmm8, %xmm8
	vpxor	%xmm0, %xmm0, %xmm0
	vpcmpgtb	%xmm0, %xmm8, %xmm8
	vpxor	%xmm3, %xmm8, %xmm11
	vpand	.LCPI61_27(%rip), %xmm6, %xmm3
	vpcmpeqb	%xmm1, %xmm3, %xmm12
	vpminub	.LCPI61_22(%rip), %xmm6, %xmm3
	vpcmpeqb	%xmm3, %xmm6, %xmm13
	vpbroadcastd	.LCPI61_41(%rip), %xmm9
	vpbroadcastd	.LCPI61_42(%rip), %xmm0
	vpblendvb	%xmm13, %xmm9, %xmm0, %xmm13
	vpcmpeqb	%xmm5, %xmm13, %xmm13
	vpor	%xmm13, %xmm12, %xmm12
	vpor	%xmm11, %xmm12, %xmm11
	vmovdqu	14(%rbp,%rax), %xmm12
	vmovdqu	15(%rbp,%rax), %xmm13
	vmovdqu	16(%rbp,%rax), %xmm14
	vmovdqu	30(%rbp,%rax), %xmm15
	vmovdqa	%xmm10, %xmm8
	vpsubusb	%xmm10, %xmm13, %xmm0
	vpbroadcastd	.LCPI61_38(%rip), %xmm10
	vpsubusb	%xmm10, %xmm12, %xmm12
	vpor	%xmm0, %xmm12, %xmm0
	vpcmpgtb	%xmm14, %xmm1, %xmm12
	vpxor	%xmm4, %xmm4, %xmm4
	vpcmpgtb	%xmm4, %xmm0, %xmm0
	vpxor	%xmm0, %xmm12, %xmm0
	vpbroadcastd	.LCPI61_34(%rip), %xmm2
	vpand	%xmm2, %xmm14, %xmm12
	vpcmpeqb	%xmm1, %xmm12, %xmm12
	vpor	%xmm0, %xmm12, %xmm0
	vpbroadcastd	.LCPI61_40(%rip), %xmm3
	vpminub	%xmm3, %xmm14, %xmm12
	vpcmpeqb	%xmm12, %xmm14, %xmm12
	vpbroadcastd	.LCPI61_42(%rip), %xmm14
	vpblendvb	%xmm12, %xmm9, %xmm14, %xmm12
	vpcmpeqb	%xmm12, %xmm13, %xmm12
	vpor	%xmm0, %xmm12, %xmm0
	vmovdqu	31(%rbp,%rax), %xmm12
	vmovdqu	32(%rbp,%rax), %xmm13
	vpsubusb	%xmm8, %xmm12, %xmm14
	vpsubusb	%xmm10, %xmm15, %xmm15
	vpor	%xmm15, %xmm14, %xmm14
	vpcmpgtb	%xmm13, %xmm1, %xmm15
	vpcmpgtb	%xmm4, %xmm14, %xmm14
	vpxor	%xmm14, %xmm15, %xmm14
	vpand	%xmm2, %xmm13, %xmm15
	vpcmpeqb	%xmm1, %xmm15, %xmm15
	vpor	%xmm15, %xmm14, %xmm14
	vpminub	%xmm3, %xmm13, %xmm15
	vpcmpeqb	%xmm15, %xmm13, %xmm13
	vpbroadcastd	.LCPI61_42(%rip), %xmm15
	vpblendvb	%xmm13, %xmm9, %xmm15, %xmm13
	vpcmpeqb	%xmm13, %xmm12, %xmm12
	vpor	%xmm12, %xmm14, %xmm12
	vmovdqa	%xmm8, %xmm14
	vpor	%xmm0, %xmm12, %xmm0
	vpor	%xmm0, %xmm11, %xmm0
	vmovdqu	46(%rbp,%rax), %xmm11
	vmovdqu	47(%rbp,%rax), %xmm12
	vpsubusb	%xmm8, %xmm12, %xmm13
	vpsubusb	%xmm10, %xmm11, %xmm11
	vpor	%xmm11, %xmm13, %xmm11
	vmovdqu	48(%rbp,%rax), %xmm13
	vpcmpgtb	%xmm4, %xmm11, %xmm4
	vpcmpgtb	%xmm13, %xmm1, %xmm11
	vpxor	%xmm4, %xmm11, %xmm4
	vpand	%xmm2, %xmm13, %xmm8
	vpcmpeqb	%xmm1, %xmm8, %xmm8
	vpor	%xmm4, %xmm8, %xmm4
	vpminub	%xmm3, %xmm13, %xmm8
	vpcmpeqb	%xmm8, %xmm13, %xmm8
	vpblendvb	%xmm8, %xmm9, %xmm15, %xmm8
	vpcmpeqb	%xmm8, %xmm12, %xmm8
	vpor	%xmm4, %xmm8, %xmm4
	vpor	%xmm4, %xmm0, %xmm0
	vpmovmskb	%xmm0, %ecx
	testl	%ecx, %ecx
	jne	.LBB61_27
	vmovdqa	%xmm9, %xmm3
	vpblendvb	%xmm6, %xmm5, %xmm1, %xmm0
	vpmaxub	%xmm7, %xmm9, %xmm7
	vpsrlw	$2, %xmm0, %xmm8
	vpbroadcastd	.LCPI61_47(%rip), %xmm4
	vpand	%xmm4, %xmm8, %xmm8
	vpsllw	$4, %xmm7, %xmm7
	vpandn	%xmm7, %xmm4, %xmm7
	vpor	%xmm7, %xmm8, %xmm8
	vpbroadcastd	.LCPI61_37(%rip), %xmm7
	vpand	%xmm7, %xmm6, %xmm9
	vpsllw	$6, %xmm0, %xmm0
	vpand	%xmm1, %xmm0, %xmm0
	vpaddb	%xmm0, %xmm9, %xmm0
	vpminub	%xmm6, %xmm14, %xmm9
	vpcmpeqb	%xmm6, %xmm9, %xmm6
	vpminub	%xmm5, %xmm10, %xmm9
	vpcmpeqb	%xmm5, %xmm9, %xmm5
	vpand	%xmm5, %xmm6, %xmm5
	vpmovmskb	%xmm5, %edi
	vpunpckhbw	%xmm8, %xmm0, %xmm5
	vpunpcklbw	%xmm8, %xmm0, %xmm0
	movzbl	%dil, %edx
	popcntl	%edx, %r8d
	shll	$4, %edx
	leaq	.Lstatic.10(%rip), %rcx
	vpshufb	(%rdx,%rcx), %xmm0, %xmm0
	vmovdqu	%xmm0, (%r12,%rbx)
	leaq	(%r12,%rbx), %rdx
	shrl	$8, %edi
	popcntl	%edi, %esi
	shll	$4, %edi
	vpshufb	(%rdi,%rcx), %xmm5, %xmm0
	vmovdqu	%xmm0, (%rdx,%r8,2)
	addl	%r8d, %esi
	vmovdqu	15(%rbp,%rax), %xmm0
	vmovdqu	16(%rbp,%rax), %xmm5
	vpblendvb	%xmm5, %xmm0, %xmm1, %xmm6
	vpmaxub	14(%rbp,%rax), %xmm3, %xmm8
	vpsrlw	$2, %xmm6, %xmm9
	vpand	%xmm4, %xmm9, %xmm9
	vpsllw	$4, %xmm8, %xmm8
	vpandn	%xmm8, %xmm4, %xmm8
	vpor	%xmm8, %xmm9, %xmm8
	vpand	%xmm7, %xmm5, %xmm9
	vpsllw	$6, %xmm6, %xmm6
	vpand	%xmm1, %xmm6, %xmm6
	vpaddb	%xmm6, %xmm9, %xmm6
	vpminub	%xmm0, %xmm10, %xmm9
	vpcmpeqb	%xmm0, %xmm9, %xmm0
	vpminub	%xmm5, %xmm14, %xmm9
	vpcmpeqb	%xmm5, %xmm9, %xmm5
	vpand	%xmm5, %xmm0, %xmm0
	vpmovmskb	%xmm0, %r8d
	vpunpckhbw	%xmm8, %xmm6, %xmm0
	vpunpcklbw	%xmm8, %xmm6, %xmm5
	movzbl	%r8b, %edi
	popcntl	%edi, %r9d
	shll	$4, %edi
	vpshufb	(%rdi,%rcx), %xmm5, %xmm5
	vmovdqu	%xmm5, (%rdx,%rsi,2)
	leaq	(%rdx,%rsi,2), %r10
	shrl	$8, %r8d
	xorl	%edi, %edi
	popcntl	%r8d, %edi
	shll	$4, %r8d
	vpshufb	(%r8,%rcx), %xmm0, %xmm0
	vmovdqu	%xmm0, (%r10,%r9,2)
	addl	%r9d, %edi
	addl	%esi, %edi
	vmovdqu	31(%rbp,%rax), %xmm0
	vmovdqu	32(%rbp,%rax), %xmm5
	vpblendvb	%xmm5, %xmm0, %xmm1, %xmm6
	vpmaxub	30(%rbp,%rax), %xmm3, %xmm8
	vpsrlw	$2, %xmm6, %xmm9
	vpand	%xmm4, %xmm9, %xmm9
	vpsllw	$4, %xmm8, %xmm8
	vpandn	%xmm8, %xmm4, %xmm8
	vpor	%xmm8, %xmm9, %xmm8
	vpand	%xmm7, %xmm5, %xmm9
	vpsllw	$6, %xmm6, %xmm6
	vpand	%xmm1, %xmm6, %xmm6
	vpaddb	%xmm6, %xmm9, %xmm6
	vpminub	%xmm0, %xmm10, %xmm9
	vpcmpeqb	%xmm0, %xmm9, %xmm0
	vpminub	%xmm5, %xmm14, %xmm9
	vpcmpeqb	%xmm5, %xmm9, %xmm5
	vpand	%xmm5, %xmm0, %xmm0
	vpmovmskb	%xmm0, %r8d
	vpunpckhbw	%xmm8, %xmm6, %xmm0
	vpunpcklbw	%xmm8, %xmm6, %xmm5
	movzbl	%r8b, %esi
	xorl	%r9d, %r9d
	popcntl	%esi, %r9d
	shll	$4, %esi
	vpshufb	(%rsi,%rcx), %xmm5, %xmm5
	vmovdqu	%xmm5, (%rdx,%rdi,2)
	leaq	(%rdx,%rdi,2), %r10
	shrl	$8, %r8d
	xorl	%esi, %esi
	popcntl	%r8d, %esi
	shll	$4, %r8d
	vpshufb	(%r8,%rcx), %xmm0, %xmm0
	vmovdqu	%xmm0, (%r10,%r9,2)
	addl	%r9d, %esi
	vmovdqu	47(%rbp,%rax), %xmm0
	vmovdqu	48(%rbp,%rax), %xmm5
	vpblendvb	%xmm5, %xmm0, %xmm1, %xmm6
	vpmaxub	46(%rbp,%rax), %xmm3, %xmm3
	addl	%edi, %esi
	vpsrlw	$2, %xmm6, %xmm8
	vpand	%xmm4, %xmm8, %xmm8
	vpsllw	$4, %xmm3, %xmm3
	vpandn	%xmm3, %xmm4, %xmm3
	vpor	%xmm3, %xmm8, %xmm3
	vpand	%xmm7, %xmm5, %xmm4
	vpsllw	$6, %xmm6, %xmm6
	vpand	%xmm1, %xmm6, %xmm1
	vpaddb	%xmm4, %xmm1, %xmm1
	vpminub	%xmm0, %xmm10, %xmm2
	vpcmpeqb	%xmm2, %xmm0, %xmm0
	vpminub	%xmm5, %xmm14, %xmm2
	vpcmpeqb	%xmm2, %xmm5, %xmm2
	vpand	%xmm2, %xmm0, %xmm0
	vpmovmskb	%xmm0, %edi
	vpunpckhbw	%xmm3, %xmm1, %xmm0
	vpunpcklbw	%xmm3, %xmm1, %xmm1
	movzbl	%dil, %r9d
	xorl	%r8d, %r8d
	popcntl	%r9d, %r8d
	shll	$4, %r9d
	vpshufb	(%r9,%rcx), %xmm1, %xmm1
	leaq	(%rdx,%rsi,2), %r9
	vmovdqu	%xmm1, (%rdx,%rsi,2)
	shrl	$8, %edi
	movl	%edi, %edx
	shll	$4, %edx
	vpshufb	(%rdx,%rcx), %xmm0, %xmm0
	vmovdqu	%xmm0, (%r9,%r8,2)
	movl	$62, %ecx
	cmpb	$-33, 62(%rbp,%rax)
	ja	.LBB61_20
	xorl	%ecx, %ecx
	cmpb	$-64, 63(%rbp,%rax)
	adcq	$63, %rcx
.LBB61_20:
	xorl	%edx, %edx
	popcntl	%edi, %edx
	addl	%edx, %r8d
	addl	%r8d, %esi
	leaq	(%rbx,%rsi,2), %rbx
	jmp	.LBB61_26
.LBB61_23:
	movl	$62, %ecx
	cmpb	$-33, 62(%rbp,%rax)
	ja	.LBB61_26
	xorl	%ecx, %ecx
	cmpb	$-64, 63(%rbp,%rax)
	adcq	$63, %rcx
.LBB61_26:
	addq	%rcx, %rax
	jmp	.LBB61_27
.LBB61_28:
	movq	%r14, %rax
	movq	%rbx, %rdx
	addq	$56, %rsp
	popq	%rbx
	popq	%r12
	popq	%r13
	popq	%r14
	popq	%r15
	popq	%rbp
	retq
.Lfunc_end61:

	.section	.rdata$000,"dr"
	.p2align	4, 0x0
.LCPI62_0:
	.zero	1
	.byte	255
	.byte	0
	.zero	1
	.byte	255
	.byte	0
	.zero	1
	.byte	255
	.byte	0
	.zero	1
	.byte	255
	.byte	0
	.zero	1
	.byte	255
	.byte	0
	.zero	1
.LCPI62_1:
	.byte	0
	.byte	3
	.byte	6
	.byte	9
	.byte	12
	.byte	15
	.byte	128
	.byte	128
	.byte	128
	.byte	128
	.byte	128
	.byte	128
	.byte	128
	.byte	128
	.byte	128
	.byte	128
.LCPI62_2:
	.byte	128
	.byte	128
	.byte	128
	.byte	128
	.byte	128
	.byte	128
	.byte	2
	.byte	5
	.byte	8
	.byte	11
	.byte	14
	.byte	1
	.byte	4
	.byte	7
	.byte	10
	.byte	13
.LCPI62_3:
	.byte	255
	.zero	1
	.byte	0
	.byte	255
	.zero	1
	.byte	0
	.byte	255
	.zero	1
	.byte	0
	.byte	255
	.zero	1
	.byte	0
	.byte	255
	.zero	1
	.byte	0
	.byte	255
.LCPI62_4:
	.byte	1
	.byte	4
	.byte	7
	.byte	10
	.byte	13
	.byte	128
	.byte	128
	.byte	128
	.byte	128
	.byte	128
	.byte	128
	.byte	128
	.byte	128
	.byte	128
	.byte	128
	.byte	128
.LCPI62_5:
	.byte	128
	.byte	128
	.byte	128
	.byte	128
	.byte	128
	.byte	0
	.byte	3
	.byte	6
	.byte	9
	.byte	12
	.byte	15
	.byte	2
	.byte	5
	.byte	8
	.byte	11
	.byte	14
.LCPI62_6:
	.byte	255
	.byte	0
	.zero	1
	.byte	255
	.byte	0
	.zero	1
	.byte	255
	.byte	0
	.zero	1
	.byte	255
	.byte	0
	.zero	1
	.byte	255
	.byte	0
	.zero	1
	.byte	255
.LCPI62_7:
	.byte	2
	.byte	5
	.byte	8
	.byte	11
	.byte	14
	.byte	128
	.byte	128
	.byte	128
	.byte	128
	.byte	128
	.byte	128
	.byte	128
	.byte	128
	.byte	128
	.byte	128
	.byte	128
.LCPI62_8:
	.byte	128
	.byte	128
	.byte	128
	.byte	128
	.byte	128
	.byte	1
	.byte	4
	.byte	7
	.byte	10
	.byte	13
	.byte	0
	.byte	3
	.byte	6
	.byte	9
	.byte	12
	.byte	15
.LCPI62_9:
	.zero	16,240
.LCPI62_10:
	.zero	16,32
.LCPI62_11:
	.zero	16,192
.LCPI62_12:
	.zero	16,128
.LCPI62_13:
	.zero	16,15
.LCPI62_14:
	.zero	16,7
.LCPI62_15:
	.zero	16,248
.LCPI62_16:
	.zero	16,216
.LCPI62_17:
	.zero	16,63
.LCPI62_18:
	.zero	16,224
	.section	.rdata$001,"dr"
	.p2align	2, 0x0
.LCPI62_19:
	.zero	4,192
.LCPI62_20:
	.zero	4,128
	.section	.text$075,"xr"
	.p2align	4
L_60:
	pushq	%r15
	pushq	%r14
	pushq	%rbx
	movq	%r9, %rbx
	movq	%r8, %rax
	movq	%rsi, %r8
	subq	%rax, %r8
	je	.LBB62_8
	movzbl	(%rdi,%rax), %r9d
	andb	$-16, %r9b
	cmpb	$-32, %r9b
	jne	.LBB62_8
	cmpq	$48, %r8
	setb	%r10b
	movq	%rcx, %r9
	subq	%rbx, %r9
	cmpq	$32, %r9
	setb	%r11b
	orb	%r10b, %r11b
	je	.LBB62_3
.LBB62_8:
	cmpb	$-65, -1(%rdi,%rsi)
	jbe	.LBB62_10
	decq	%rsi
	jmp	.LBB62_13
.LBB62_10:
	cmpb	$-33, -2(%rdi,%rsi)
	jbe	.LBB62_12
	addq	$-2, %rsi
	jmp	.LBB62_13
.LBB62_12:
	leaq	-3(%rsi), %r8
	cmpb	$-16, -3(%rdi,%rsi)
	cmovaeq	%r8, %rsi
.LBB62_13:
	cmpq	$17, %rsi
	setb	%r9b
	movq	%rsi, %r8
	subq	%rax, %r8
	setbe	%r10b
	orb	%r9b, %r10b
	jne	.LBB62_23
	subq	%rbx, %rcx
	xorl	%r9d, %r9d
	subq	$16, %rcx
	cmovaeq	%rcx, %r9
	shrq	%r9
	cmpq	%r8, %r9
	jb	.LBB62_23
	vmovdqu	-16(%rdi,%rsi), %xmm0
	xorl	%ecx, %ecx
	movq	%rax, %r8
	subq	$18, %r8
	cmovaeq	%r8, %rcx
	movq	%rsi, %r8
	subq	%rcx, %r8
	cmpq	$17, %r8
	jb	.LBB62_18
	addq	%rdi, %rcx
	.p2align	4
.LBB62_17:
	vpmaxub	(%rcx), %xmm0, %xmm0
	addq	$16, %rcx
	addq	$-16, %r8
	cmpq	$16, %r8
	ja	.LBB62_17
.LBB62_18:
	vpmaxub	.LCPI62_18(%rip), %xmm0, %xmm1
	addq	%rbx, %rdx
	vpcmpeqb	%xmm1, %xmm0, %xmm1
	vpmovmskb	%xmm1, %ecx
	testl	%ecx, %ecx
	je	.LBB62_24
	movq	%rdx, %rcx
	vpmaxub	.LCPI62_9(%rip), %xmm0, %xmm1
	vpcmpeqb	%xmm1, %xmm0, %xmm0
	vpmovmskb	%xmm0, %edx
	movq	%rsi, %r14
	movq	%rax, %r15
	testl	%edx, %edx
	je	.LBB62_20
	movq	%rax, %rdx
	callq	L_63
	jmp	.LBB62_22
.LBB62_3:
	addq	$-32, %r9
	addq	$-48, %r8
	.p2align	4
.LBB62_4:
	vmovdqu	(%rdi,%rax), %xmm0
	vmovdqu	16(%rdi,%rax), %xmm1
	vmovdqu	32(%rdi,%rax), %xmm3
	vmovdqa	.LCPI62_0(%rip), %xmm2
	vpblendvb	%xmm2, %xmm3, %xmm1, %xmm2
	vpshufb	.LCPI62_1(%rip), %xmm0, %xmm4
	vpshufb	.LCPI62_2(%rip), %xmm2, %xmm2
	vmovdqa	.LCPI62_3(%rip), %xmm5
	vpblendvb	%xmm5, %xmm1, %xmm3, %xmm5
	vpshufb	.LCPI62_4(%rip), %xmm0, %xmm6
	vpshufb	.LCPI62_5(%rip), %xmm5, %xmm5
	vpor	%xmm4, %xmm2, %xmm2
	vmovdqa	.LCPI62_6(%rip), %xmm4
	vpblendvb	%xmm4, %xmm3, %xmm1, %xmm1
	vpshufb	.LCPI62_7(%rip), %xmm0, %xmm0
	vpshufb	.LCPI62_8(%rip), %xmm1, %xmm3
	vpor	%xmm6, %xmm5, %xmm1
	vpor	%xmm0, %xmm3, %xmm0
	vpand	.LCPI62_9(%rip), %xmm2, %xmm3
	vpaddb	.LCPI62_10(%rip), %xmm3, %xmm3
	vpbroadcastd	.LCPI62_19(%rip), %xmm4
	vpand	%xmm4, %xmm1, %xmm5
	vpbroadcastd	.LCPI62_20(%rip), %xmm6
	vpxor	%xmm6, %xmm5, %xmm5
	vpmaxub	%xmm5, %xmm3, %xmm3
	vpand	%xmm4, %xmm0, %xmm4
	vpxor	%xmm6, %xmm4, %xmm4
	vpor	%xmm4, %xmm3, %xmm3
	vptest	%xmm3, %xmm3
	jne	.LBB62_8
	vpsllw	$4, %xmm2, %xmm2
	vpand	.LCPI62_9(%rip), %xmm2, %xmm2
	vpsrlw	$2, %xmm1, %xmm3
	vpand	.LCPI62_13(%rip), %xmm3, %xmm3
	vpor	%xmm2, %xmm3, %xmm2
	vpminub	.LCPI62_14(%rip), %xmm2, %xmm3
	vpand	.LCPI62_15(%rip), %xmm2, %xmm4
	vpcmpeqb	.LCPI62_16(%rip), %xmm4, %xmm4
	vpcmpeqb	%xmm3, %xmm2, %xmm3
	vpor	%xmm4, %xmm3, %xmm3
	vpmovmskb	%xmm3, %r10d
	testl	%r10d, %r10d
	jne	.LBB62_8
	vpsllw	$6, %xmm1, %xmm1
	vpand	.LCPI62_11(%rip), %xmm1, %xmm1
	vpand	.LCPI62_17(%rip), %xmm0, %xmm0
	vpor	%xmm0, %xmm1, %xmm0
	vpunpcklbw	%xmm2, %xmm0, %xmm1
	vmovdqu	%xmm1, (%rdx,%rbx)
	vpunpckhbw	%xmm2, %xmm0, %xmm0
	vmovdqu	%xmm0, 16(%rdx,%rbx)
	addq	$32, %rbx
	addq	$48, %rax
	subq	$32, %r9
	setb	%r10b
	subq	$48, %r8
	jb	.LBB62_8
	testb	%r10b, %r10b
	je	.LBB62_4
	jmp	.LBB62_8
.LBB62_24:
	movq	%rsi, %r14
	movq	%rax, %r15
	movq	%rdx, %rcx
	movq	%rax, %rdx
	callq	L_64
	jmp	.LBB62_22
.LBB62_20:
	movq	%rax, %rdx
	callq	L_65
.LBB62_22:
	addq	%rbx, %rdx
	cmpb	$1, %al
	movq	%r15, %rax
	cmoveq	%r14, %rax
	cmoveq	%rdx, %rbx
.LBB62_23:
	movq	%rbx, %rdx
	popq	%rbx
	popq	%r14
	popq	%r15
	retq
.Lfunc_end62:

	.section	.rdata$000,"dr"
	.p2align	4, 0x0
.LCPI63_0:
	.zero	16,192
.LCPI63_1:
	.zero	16,63
.LCPI63_2:
	.zero	16,127
.LCPI63_3:
	.zero	16,191
.LCPI63_4:
	.zero	16,254
	.section	.rdata$001,"dr"
	.p2align	2, 0x0
.LCPI63_5:
	.zero	4,192
	.section	.text$076,"xr"
	.p2align	4
L_64:
	pushq	%rbx
	movq	%rsi, %rax
	subq	%rdx, %rax
	vpxor	%xmm0, %xmm0, %xmm0
	xorl	%r8d, %r8d
	cmpq	$16, %rax
	jae	.LBB63_1
.LBB63_7:
	cmpq	%rsi, %rdx
	je	.LBB63_12
	leaq	-16(%rsi), %rax
	vmovdqu	-16(%rdi,%rsi), %xmm1
	cmpq	$3, %rax
	jb	.LBB63_10
	vmovdqu	-1(%rdi,%rax), %xmm2
	jmp	.LBB63_11
	.p2align	4
.LBB63_2:
	vmovdqu	-1(%rdi,%rdx), %xmm2
.LBB63_6:
	vpbroadcastd	.LCPI63_5(%rip), %xmm3
	vpsubusb	%xmm3, %xmm2, %xmm4
	vpsrlw	$2, %xmm4, %xmm5
	vpand	.LCPI63_1(%rip), %xmm5, %xmm5
	vpand	.LCPI63_2(%rip), %xmm1, %xmm6
	vpsllw	$6, %xmm4, %xmm4
	vpand	%xmm3, %xmm4, %xmm4
	vpaddb	%xmm6, %xmm4, %xmm4
	vpminub	.LCPI63_3(%rip), %xmm1, %xmm6
	vpcmpeqb	%xmm6, %xmm1, %xmm6
	vpmovmskb	%xmm6, %r9d
	vpcmpgtb	%xmm1, %xmm3, %xmm6
	vpmaxub	%xmm3, %xmm2, %xmm7
	vpcmpeqb	%xmm7, %xmm2, %xmm2
	vpxor	%xmm2, %xmm6, %xmm2
	vpand	.LCPI63_4(%rip), %xmm1, %xmm1
	vpcmpeqb	%xmm3, %xmm1, %xmm1
	vpor	%xmm2, %xmm1, %xmm1
	vpmaxub	%xmm1, %xmm0, %xmm0
	vpunpcklbw	%xmm5, %xmm4, %xmm1
	movzbl	%r9b, %r10d
	xorl	%r11d, %r11d
	popcntl	%r10d, %r11d
	shll	$4, %r10d
	leaq	.Lstatic.10(%rip), %rbx
	vpshufb	(%r10,%rbx), %xmm1, %xmm1
	vpunpckhbw	%xmm5, %xmm4, %xmm2
	vmovdqu	%xmm1, (%rcx,%r8)
	shrl	$8, %r9d
	xorl	%r10d, %r10d
	popcntl	%r9d, %r10d
	shll	$4, %r9d
	vpshufb	(%r9,%rbx), %xmm2, %xmm1
	leaq	(%rcx,%r8), %r9
	vmovdqu	%xmm1, (%r9,%r11,2)
	addl	%r11d, %r10d
	leaq	(%r8,%r10,2), %r8
	addq	$16, %rdx
	addq	$-16, %rax
	cmpq	$15, %rax
	jbe	.LBB63_7
.LBB63_1:
	vmovdqu	(%rdi,%rdx), %xmm1
	cmpq	$3, %rdx
	jae	.LBB63_2
	testq	%rdx, %rdx
	je	.LBB63_4
	vpbroadcastb	-1(%rdi,%rdx), %xmm2
	vpalignr	$15, %xmm2, %xmm1, %xmm2
	jmp	.LBB63_6
.LBB63_4:
	vpslldq	$1, %xmm1, %xmm2
	jmp	.LBB63_6
.LBB63_10:
	vpbroadcastb	-17(%rdi,%rsi), %xmm2
	vpalignr	$15, %xmm2, %xmm1, %xmm2
.LBB63_11:
	vpbroadcastd	.LCPI63_5(%rip), %xmm3
	vpsubusb	%xmm3, %xmm2, %xmm4
	vpsrlw	$2, %xmm4, %xmm5
	vpand	.LCPI63_1(%rip), %xmm5, %xmm5
	vpand	.LCPI63_2(%rip), %xmm1, %xmm6
	vpsllw	$6, %xmm4, %xmm4
	vpand	%xmm3, %xmm4, %xmm4
	vpminub	.LCPI63_3(%rip), %xmm1, %xmm7
	vpaddb	%xmm6, %xmm4, %xmm4
	vpcmpeqb	%xmm7, %xmm1, %xmm6
	vpmovmskb	%xmm6, %r9d
	vpcmpgtb	%xmm1, %xmm3, %xmm6
	vpmaxub	%xmm3, %xmm2, %xmm7
	vpcmpeqb	%xmm7, %xmm2, %xmm2
	vpand	.LCPI63_4(%rip), %xmm1, %xmm7
	vpxor	%xmm2, %xmm6, %xmm1
	vpcmpeqb	%xmm3, %xmm7, %xmm2
	subl	%eax, %edx
	vpunpckhbw	%xmm5, %xmm4, %xmm3
	vpunpcklbw	%xmm5, %xmm4, %xmm4
	movq	$-1, %rax
	shlxq	%rdx, %rax, %rax
	andl	%r9d, %eax
	movzbl	%al, %edx
	xorl	%r9d, %r9d
	popcntl	%edx, %r9d
	shll	$4, %edx
	leaq	.Lstatic.10(%rip), %r10
	vpshufb	(%rdx,%r10), %xmm4, %xmm4
	vmovdqu	%xmm4, (%rcx,%r8)
	addq	%r8, %rcx
	shrl	$8, %eax
	xorl	%edx, %edx
	popcntl	%eax, %edx
	shll	$4, %eax
	vpshufb	(%rax,%r10), %xmm3, %xmm3
	vmovdqu	%xmm3, (%rcx,%r9,2)
	vpor	%xmm1, %xmm2, %xmm1
	addl	%r9d, %edx
	leaq	(%r8,%rdx,2), %r8
	vpmaxub	%xmm1, %xmm0, %xmm0
.LBB63_12:
	vptest	%xmm0, %xmm0
	je	.LBB63_14
	xorl	%edx, %edx
	xorl	%eax, %eax
	popq	%rbx
	retq
.LBB63_14:
	cmpb	$-65, -1(%rdi,%rsi)
	jbe	.LBB63_16
	leaq	-1(%rsi), %rax
	jmp	.LBB63_19
.LBB63_16:
	cmpb	$-33, -2(%rdi,%rsi)
	jbe	.LBB63_18
	leaq	-2(%rsi), %rax
	jmp	.LBB63_19
.LBB63_18:
	leaq	-3(%rsi), %rax
	cmpb	$-16, -3(%rdi,%rsi)
	cmovbq	%rsi, %rax
.LBB63_19:
	xorl	%edx, %edx
	cmpq	%rsi, %rax
	setae	%al
	cmovaeq	%r8, %rdx
	popq	%rbx
	retq
.Lfunc_end63:

	.section	.rdata$000,"dr"
	.p2align	4, 0x0
.LCPI64_0:
	.zero	16,192
.LCPI64_1:
	.zero	16,224
.LCPI64_2:
	.zero	16,15
.LCPI64_3:
	.zero	16,240
.LCPI64_4:
	.zero	16,127
.LCPI64_5:
	.zero	16,191
.LCPI64_6:
	.zero	16,223
.LCPI64_7:
	.zero	16,254
.LCPI64_8:
	.zero	16,159
.LCPI64_9:
	.zero	16,237
	.section	.rdata$001,"dr"
	.p2align	2, 0x0
.LCPI64_10:
	.zero	4,192
.LCPI64_11:
	.zero	4,224
.LCPI64_12:
	.zero	4,191
.LCPI64_13:
	.zero	4,223
.LCPI64_14:
	.zero	4,237
	.section	.text$077,"xr"
	.p2align	4
L_65:
	pushq	%rbx
	movq	%rsi, %rax
	subq	%rdx, %rax
	vpxor	%xmm0, %xmm0, %xmm0
	xorl	%r8d, %r8d
	cmpq	$16, %rax
	jae	.LBB64_6
.LBB64_1:
	cmpq	%rsi, %rdx
	je	.LBB64_18
	leaq	-16(%rsi), %rax
	vmovdqu	-16(%rdi,%rsi), %xmm1
	cmpq	$3, %rax
	jb	.LBB64_13
	vmovdqu	-2(%rdi,%rax), %xmm3
	vmovdqu	-1(%rdi,%rax), %xmm2
	jmp	.LBB64_17
	.p2align	4
.LBB64_4:
	vmovdqu	-2(%rdi,%rdx), %xmm5
	vmovdqu	-1(%rdi,%rdx), %xmm2
.LBB64_5:
	vpbroadcastd	.LCPI64_10(%rip), %xmm6
	vpblendvb	%xmm1, %xmm2, %xmm6, %xmm4
	vpbroadcastd	.LCPI64_11(%rip), %xmm7
	vpmaxub	%xmm7, %xmm5, %xmm3
	vpsrlw	$2, %xmm4, %xmm8
	vpand	.LCPI64_2(%rip), %xmm8, %xmm8
	vpsllw	$4, %xmm3, %xmm3
	vpand	.LCPI64_3(%rip), %xmm3, %xmm3
	vpor	%xmm3, %xmm8, %xmm3
	vpand	.LCPI64_4(%rip), %xmm1, %xmm8
	vpsllw	$6, %xmm4, %xmm4
	vpand	%xmm6, %xmm4, %xmm4
	vpaddb	%xmm4, %xmm8, %xmm4
	vpbroadcastd	.LCPI64_12(%rip), %xmm8
	vpminub	%xmm1, %xmm8, %xmm9
	vpcmpeqb	%xmm1, %xmm9, %xmm9
	vpbroadcastd	.LCPI64_13(%rip), %xmm10
	vpminub	%xmm2, %xmm10, %xmm11
	vpcmpeqb	%xmm2, %xmm11, %xmm11
	vpand	%xmm11, %xmm9, %xmm9
	vpmovmskb	%xmm9, %r9d
	vpcmpgtb	%xmm1, %xmm6, %xmm9
	vpsubusb	%xmm8, %xmm2, %xmm8
	vpsubusb	%xmm10, %xmm5, %xmm5
	vpor	%xmm5, %xmm8, %xmm5
	vpxor	%xmm8, %xmm8, %xmm8
	vpcmpgtb	%xmm8, %xmm5, %xmm5
	vpxor	%xmm5, %xmm9, %xmm5
	vpand	.LCPI64_7(%rip), %xmm1, %xmm8
	vpcmpeqb	%xmm6, %xmm8, %xmm6
	vpor	%xmm5, %xmm6, %xmm5
	vpminub	.LCPI64_8(%rip), %xmm1, %xmm6
	vpcmpeqb	%xmm6, %xmm1, %xmm1
	vpbroadcastd	.LCPI64_14(%rip), %xmm6
	vpblendvb	%xmm1, %xmm7, %xmm6, %xmm1
	vpcmpeqb	%xmm1, %xmm2, %xmm1
	vpor	%xmm1, %xmm5, %xmm1
	vpmaxub	%xmm1, %xmm0, %xmm0
	vpunpcklbw	%xmm3, %xmm4, %xmm1
	movzbl	%r9b, %r10d
	xorl	%r11d, %r11d
	popcntl	%r10d, %r11d
	shll	$4, %r10d
	leaq	.Lstatic.10(%rip), %rbx
	vpshufb	(%r10,%rbx), %xmm1, %xmm1
	vpunpckhbw	%xmm3, %xmm4, %xmm2
	vmovdqu	%xmm1, (%rcx,%r8)
	shrl	$8, %r9d
	xorl	%r10d, %r10d
	popcntl	%r9d, %r10d
	shll	$4, %r9d
	vpshufb	(%r9,%rbx), %xmm2, %xmm1
	leaq	(%rcx,%r8), %r9
	vmovdqu	%xmm1, (%r9,%r11,2)
	addl	%r11d, %r10d
	leaq	(%r8,%r10,2), %r8
	addq	$16, %rdx
	addq	$-16, %rax
	cmpq	$15, %rax
	jbe	.LBB64_1
.LBB64_6:
	vmovdqu	(%rdi,%rdx), %xmm1
	cmpq	$3, %rdx
	jae	.LBB64_4
	testq	%rdx, %rdx
	je	.LBB64_10
	vpbroadcastb	-1(%rdi,%rdx), %xmm2
	vpalignr	$15, %xmm2, %xmm1, %xmm2
	cmpq	$2, %rdx
	jne	.LBB64_11
	movzbl	(%rdi), %r9d
	jmp	.LBB64_12
.LBB64_10:
	vpslldq	$1, %xmm1, %xmm2
.LBB64_11:
	xorl	%r9d, %r9d
.LBB64_12:
	vmovd	%r9d, %xmm3
	vpbroadcastb	%xmm3, %xmm3
	vpalignr	$15, %xmm3, %xmm2, %xmm5
	jmp	.LBB64_5
.LBB64_13:
	vpbroadcastb	-17(%rdi,%rsi), %xmm2
	vpalignr	$15, %xmm2, %xmm1, %xmm2
	cmpq	$2, %rax
	jne	.LBB64_15
	movzbl	(%rdi), %r9d
	jmp	.LBB64_16
.LBB64_15:
	xorl	%r9d, %r9d
.LBB64_16:
	vmovd	%r9d, %xmm3
	vpbroadcastb	%xmm3, %xmm3
	vpalignr	$15, %xmm3, %xmm2, %xmm3
.LBB64_17:
	vpbroadcastd	.LCPI64_10(%rip), %xmm6
	vpblendvb	%xmm1, %xmm2, %xmm6, %xmm7
	vpbroadcastd	.LCPI64_11(%rip), %xmm5
	vpmaxub	%xmm5, %xmm3, %xmm4
	vpsrlw	$2, %xmm7, %xmm8
	vpand	.LCPI64_2(%rip), %xmm8, %xmm8
	vpsllw	$4, %xmm4, %xmm4
	vpand	.LCPI64_3(%rip), %xmm4, %xmm4
	vpand	.LCPI64_4(%rip), %xmm1, %xmm9
	vpor	%xmm4, %xmm8, %xmm4
	vpsllw	$6, %xmm7, %xmm7
	vpand	%xmm6, %xmm7, %xmm7
	vpaddb	%xmm7, %xmm9, %xmm7
	vpbroadcastd	.LCPI64_12(%rip), %xmm8
	vpminub	%xmm1, %xmm8, %xmm9
	vpcmpeqb	%xmm1, %xmm9, %xmm9
	vpbroadcastd	.LCPI64_13(%rip), %xmm10
	vpminub	%xmm2, %xmm10, %xmm11
	vpcmpeqb	%xmm2, %xmm11, %xmm11
	vpand	%xmm11, %xmm9, %xmm9
	vpmovmskb	%xmm9, %r9d
	vpcmpgtb	%xmm1, %xmm6, %xmm9
	vpsubusb	%xmm8, %xmm2, %xmm8
	vpsubusb	%xmm10, %xmm3, %xmm3
	vpor	%xmm3, %xmm8, %xmm3
	vpxor	%xmm8, %xmm8, %xmm8
	vpcmpgtb	%xmm8, %xmm3, %xmm3
	vpand	.LCPI64_7(%rip), %xmm1, %xmm8
	vpxor	%xmm3, %xmm9, %xmm3
	vpcmpeqb	%xmm6, %xmm8, %xmm6
	vpminub	.LCPI64_8(%rip), %xmm1, %xmm8
	vpcmpeqb	%xmm1, %xmm8, %xmm1
	vpbroadcastd	.LCPI64_14(%rip), %xmm8
	vpblendvb	%xmm1, %xmm5, %xmm8, %xmm1
	vpcmpeqb	%xmm1, %xmm2, %xmm1
	vpor	%xmm1, %xmm6, %xmm1
	subl	%eax, %edx
	vpunpckhbw	%xmm4, %xmm7, %xmm2
	vpunpcklbw	%xmm4, %xmm7, %xmm4
	movq	$-1, %rax
	shlxq	%rdx, %rax, %rax
	andl	%r9d, %eax
	movzbl	%al, %edx
	xorl	%r9d, %r9d
	popcntl	%edx, %r9d
	shll	$4, %edx
	leaq	.Lstatic.10(%rip), %r10
	vpshufb	(%rdx,%r10), %xmm4, %xmm4
	vmovdqu	%xmm4, (%rcx,%r8)
	addq	%r8, %rcx
	shrl	$8, %eax
	xorl	%edx, %edx
	popcntl	%eax, %edx
	shll	$4, %eax
	vpshufb	(%rax,%r10), %xmm2, %xmm2
	vmovdqu	%xmm2, (%rcx,%r9,2)
	vpor	%xmm3, %xmm1, %xmm1
	addl	%r9d, %edx
	leaq	(%r8,%rdx,2), %r8
	vpmaxub	%xmm1, %xmm0, %xmm0
.LBB64_18:
	vptest	%xmm0, %xmm0
	je	.LBB64_20
	xorl	%edx, %edx
	xorl	%eax, %eax
	popq	%rbx
	retq
.LBB64_20:
	cmpb	$-65, -1(%rdi,%rsi)
	jbe	.LBB64_22
	leaq	-1(%rsi), %rax
	jmp	.LBB64_25
.LBB64_22:
	cmpb	$-33, -2(%rdi,%rsi)
	jbe	.LBB64_24
	leaq	-2(%rsi), %rax
	jmp	.LBB64_25
.LBB64_24:
	leaq	-3(%rsi), %rax
	cmpb	$-16, -3(%rdi,%rsi)
	cmovbq	%rsi, %rax
.LBB64_25:
	xorl	%edx, %edx
	cmpq	%rsi, %rax
	setae	%al
	cmovaeq	%r8, %rdx
	popq	%rbx
	retq
.Lfunc_end64:

	.section	.rdata$000,"dr"
	.p2align	4, 0x0
.LCPI65_0:
	.zero	16,192
.LCPI65_1:
	.zero	16,224
.LCPI65_2:
	.zero	16,15
.LCPI65_3:
	.zero	16,191
.LCPI65_4:
	.zero	16,220
.LCPI65_5:
	.zero	16,252
.LCPI65_6:
	.zero	16,3
.LCPI65_7:
	.zero	16,63
.LCPI65_8:
	.zero	16,232
.LCPI65_9:
	.zero	16,239
.LCPI65_10:
	.zero	16,127
.LCPI65_11:
	.zero	16,223
.LCPI65_12:
	.zero	16,159
.LCPI65_13:
	.zero	16,237
.LCPI65_14:
	.zero	16,143
.LCPI65_15:
	.zero	16,245
.LCPI65_16:
	.zero	16,244
.LCPI65_17:
	.zero	16,240
.LCPI65_18:
	.zero	16,254
	.section	.rdata$001,"dr"
	.p2align	2, 0x0
.LCPI65_19:
	.zero	4,192
.LCPI65_20:
	.zero	4,15
.LCPI65_21:
	.zero	4,191
.LCPI65_22:
	.zero	4,239
.LCPI65_23:
	.zero	4,223
.LCPI65_24:
	.zero	4,237
.LCPI65_25:
	.zero	4,244
.LCPI65_26:
	.zero	4,224
	.section	.text$078,"xr"
	.p2align	4
L_63:
	pushq	%rbx
	subq	$16, %rsp
	movq	%rsi, %rax
	subq	%rdx, %rax
	vpxor	%xmm7, %xmm7, %xmm7
	xorl	%r8d, %r8d
	cmpq	$16, %rax
	jae	.LBB65_7
.LBB65_1:
	cmpq	%rsi, %rdx
	je	.LBB65_22
	leaq	-16(%rsi), %rax
	vmovdqu	-16(%rdi,%rsi), %xmm1
	cmpq	$3, %rax
	jb	.LBB65_16
	vmovdqu	-3(%rdi,%rax), %xmm3
	vmovdqu	-2(%rdi,%rax), %xmm4
	vmovdqu	-1(%rdi,%rax), %xmm2
	vpor	%xmm1, %xmm3, %xmm0
	vpmovmskb	%xmm0, %r9d
	testl	%r9d, %r9d
	je	.LBB65_20
.LBB65_4:
	vpbroadcastd	.LCPI65_19(%rip), %xmm5
	vpblendvb	%xmm1, %xmm2, %xmm5, %xmm0
	vpmaxub	.LCPI65_1(%rip), %xmm4, %xmm6
	vpsrlw	$2, %xmm0, %xmm8
	vpbroadcastd	.LCPI65_20(%rip), %xmm9
	vpand	%xmm9, %xmm8, %xmm8
	vpsllw	$4, %xmm6, %xmm6
	vpandn	%xmm6, %xmm9, %xmm6
	vpor	%xmm6, %xmm8, %xmm6
	vpmaxub	%xmm4, %xmm0, %xmm9
	vpbroadcastd	.LCPI65_21(%rip), %xmm8
	vpminub	%xmm8, %xmm9, %xmm10
	vpcmpeqb	%xmm10, %xmm9, %xmm9
	vpand	.LCPI65_4(%rip), %xmm9, %xmm9
	vpor	%xmm6, %xmm9, %xmm6
	vpsllw	$2, %xmm2, %xmm9
	vpand	.LCPI65_5(%rip), %xmm9, %xmm9
	vpsrlw	$4, %xmm1, %xmm10
	vpand	.LCPI65_6(%rip), %xmm10, %xmm10
	vpminub	.LCPI65_7(%rip), %xmm9, %xmm11
	vpcmpeqb	%xmm11, %xmm9, %xmm11
	vpaddb	%xmm4, %xmm11, %xmm11
	vpaddb	.LCPI65_8(%rip), %xmm11, %xmm11
	vpor	%xmm10, %xmm9, %xmm10
	vpbroadcastd	.LCPI65_22(%rip), %xmm9
	vpminub	%xmm4, %xmm9, %xmm12
	vpcmpeqb	%xmm4, %xmm12, %xmm12
	vpblendvb	%xmm12, %xmm6, %xmm11, %xmm6
	vpand	.LCPI65_10(%rip), %xmm1, %xmm11
	vpaddb	%xmm5, %xmm10, %xmm10
	vpsllw	$6, %xmm0, %xmm0
	vpand	%xmm5, %xmm0, %xmm0
	vpaddb	%xmm0, %xmm11, %xmm0
	vpminub	%xmm1, %xmm8, %xmm11
	vpcmpeqb	%xmm1, %xmm11, %xmm11
	vpminub	.LCPI65_12(%rip), %xmm1, %xmm13
	vpcmpgtb	%xmm1, %xmm5, %xmm14
	vpcmpeqb	%xmm1, %xmm13, %xmm13
	vpminub	.LCPI65_14(%rip), %xmm1, %xmm15
	vpblendvb	%xmm12, %xmm0, %xmm10, %xmm10
	vpbroadcastd	.LCPI65_23(%rip), %xmm0
	vpminub	%xmm0, %xmm2, %xmm12
	vpcmpeqb	%xmm2, %xmm12, %xmm12
	vpand	%xmm12, %xmm11, %xmm11
	vpmaxub	.LCPI65_15(%rip), %xmm1, %xmm12
	vpcmpeqb	%xmm1, %xmm15, %xmm15
	vpcmpeqb	%xmm1, %xmm12, %xmm12
	vpand	.LCPI65_18(%rip), %xmm1, %xmm1
	vpmovmskb	%xmm11, %r9d
	vpsubusb	%xmm0, %xmm4, %xmm0
	vpsubusb	%xmm8, %xmm2, %xmm4
	vpmaxub	%xmm0, %xmm4, %xmm0
	vpxor	%xmm4, %xmm4, %xmm4
	vpsubusb	%xmm9, %xmm3, %xmm3
	vpor	%xmm3, %xmm0, %xmm0
	vpcmpgtb	%xmm4, %xmm0, %xmm0
	vpxor	%xmm0, %xmm14, %xmm0
	vpbroadcastd	.LCPI65_24(%rip), %xmm3
	vpblendvb	%xmm13, .LCPI65_1(%rip), %xmm3, %xmm3
	vpbroadcastd	.LCPI65_25(%rip), %xmm4
	vpblendvb	%xmm15, .LCPI65_17(%rip), %xmm4, %xmm4
	vpcmpeqb	%xmm3, %xmm2, %xmm3
	vpor	%xmm3, %xmm12, %xmm3
	vpcmpeqb	%xmm4, %xmm2, %xmm2
	vpcmpeqb	%xmm5, %xmm1, %xmm1
	vpor	%xmm0, %xmm1, %xmm0
	vpor	%xmm0, %xmm3, %xmm0
	vpor	%xmm0, %xmm2, %xmm0
	vpmaxub	%xmm0, %xmm7, %xmm7
	vmovdqa	%xmm10, %xmm1
	jmp	.LBB65_21
	.p2align	4
.LBB65_8:
	vmovdqu	-3(%rdi,%rdx), %xmm3
	vmovdqu	-2(%rdi,%rdx), %xmm4
	vmovdqu	-1(%rdi,%rdx), %xmm2
	vpor	%xmm1, %xmm3, %xmm5
	vpmovmskb	%xmm5, %r9d
	testl	%r9d, %r9d
	je	.LBB65_15
.LBB65_5:
	vpbroadcastd	.LCPI65_19(%rip), %xmm6
	vpblendvb	%xmm1, %xmm2, %xmm6, %xmm10
	vmovdqa	%xmm7, (%rsp)
	vpbroadcastd	.LCPI65_26(%rip), %xmm7
	vpmaxub	%xmm7, %xmm4, %xmm5
	vpsrlw	$2, %xmm10, %xmm8
	vpbroadcastd	.LCPI65_20(%rip), %xmm9
	vpand	%xmm9, %xmm8, %xmm8
	vpsllw	$4, %xmm5, %xmm5
	vpandn	%xmm5, %xmm9, %xmm5
	vpor	%xmm5, %xmm8, %xmm5
	vpmaxub	%xmm4, %xmm10, %xmm9
	vpbroadcastd	.LCPI65_21(%rip), %xmm8
	vpminub	%xmm8, %xmm9, %xmm11
	vpcmpeqb	%xmm11, %xmm9, %xmm9
	vpand	.LCPI65_4(%rip), %xmm9, %xmm9
	vpor	%xmm5, %xmm9, %xmm5
	vpsllw	$2, %xmm2, %xmm9
	vpand	.LCPI65_5(%rip), %xmm9, %xmm9
	vpsrlw	$4, %xmm1, %xmm11
	vpand	.LCPI65_6(%rip), %xmm11, %xmm11
	vpminub	.LCPI65_7(%rip), %xmm9, %xmm12
	vpcmpeqb	%xmm12, %xmm9, %xmm12
	vpaddb	%xmm4, %xmm12, %xmm12
	vpaddb	.LCPI65_8(%rip), %xmm12, %xmm12
	vpor	%xmm11, %xmm9, %xmm11
	vpbroadcastd	.LCPI65_22(%rip), %xmm9
	vpminub	%xmm4, %xmm9, %xmm13
	vpcmpeqb	%xmm4, %xmm13, %xmm13
	vpblendvb	%xmm13, %xmm5, %xmm12, %xmm5
	vpand	.LCPI65_10(%rip), %xmm1, %xmm12
	vpaddb	%xmm6, %xmm11, %xmm11
	vpsllw	$6, %xmm10, %xmm10
	vpand	%xmm6, %xmm10, %xmm10
	vpaddb	%xmm12, %xmm10, %xmm10
	vpminub	%xmm1, %xmm8, %xmm12
	vpcmpeqb	%xmm1, %xmm12, %xmm12
	vpminub	.LCPI65_12(%rip), %xmm1, %xmm14
	vpcmpgtb	%xmm1, %xmm6, %xmm15
	vpcmpeqb	%xmm1, %xmm14, %xmm14
	vpminub	.LCPI65_14(%rip), %xmm1, %xmm0
	vpblendvb	%xmm13, %xmm10, %xmm11, %xmm10
	vpbroadcastd	.LCPI65_23(%rip), %xmm11
	vpminub	%xmm2, %xmm11, %xmm13
	vpcmpeqb	%xmm2, %xmm13, %xmm13
	vpand	%xmm13, %xmm12, %xmm12
	vpmaxub	.LCPI65_15(%rip), %xmm1, %xmm13
	vpcmpeqb	%xmm0, %xmm1, %xmm0
	vpcmpeqb	%xmm1, %xmm13, %xmm13
	vpand	.LCPI65_18(%rip), %xmm1, %xmm1
	vpmovmskb	%xmm12, %r9d
	vpsubusb	%xmm11, %xmm4, %xmm4
	vpsubusb	%xmm8, %xmm2, %xmm8
	vpmaxub	%xmm4, %xmm8, %xmm4
	vpxor	%xmm8, %xmm8, %xmm8
	vpsubusb	%xmm9, %xmm3, %xmm3
	vpor	%xmm3, %xmm4, %xmm3
	vpcmpgtb	%xmm8, %xmm3, %xmm3
	vpxor	%xmm3, %xmm15, %xmm3
	vpbroadcastd	.LCPI65_24(%rip), %xmm4
	vpblendvb	%xmm14, %xmm7, %xmm4, %xmm4
	vpbroadcastd	.LCPI65_25(%rip), %xmm7
	vpblendvb	%xmm0, .LCPI65_17(%rip), %xmm7, %xmm0
	vmovdqa	(%rsp), %xmm7
	vpcmpeqb	%xmm4, %xmm2, %xmm4
	vpor	%xmm4, %xmm13, %xmm4
	vpcmpeqb	%xmm0, %xmm2, %xmm0
	vpcmpeqb	%xmm6, %xmm1, %xmm1
	vpor	%xmm3, %xmm1, %xmm1
	vpor	%xmm1, %xmm4, %xmm1
	vpor	%xmm1, %xmm0, %xmm0
	vpmaxub	%xmm0, %xmm7, %xmm7
	vmovdqa	%xmm10, %xmm1
.LBB65_6:
	vpunpcklbw	%xmm5, %xmm1, %xmm0
	movzbl	%r9b, %r10d
	xorl	%r11d, %r11d
	popcntl	%r10d, %r11d
	shll	$4, %r10d
	leaq	.Lstatic.10(%rip), %rbx
	vpshufb	(%r10,%rbx), %xmm0, %xmm0
	vpunpckhbw	%xmm5, %xmm1, %xmm1
	vmovdqu	%xmm0, (%rcx,%r8)
	shrl	$8, %r9d
	xorl	%r10d, %r10d
	popcntl	%r9d, %r10d
	shll	$4, %r9d
	vpshufb	(%r9,%rbx), %xmm1, %xmm0
	leaq	(%rcx,%r8), %r9
	vmovdqu	%xmm0, (%r9,%r11,2)
	addl	%r11d, %r10d
	leaq	(%r8,%r10,2), %r8
	addq	$16, %rdx
	addq	$-16, %rax
	cmpq	$15, %rax
	jbe	.LBB65_1
.LBB65_7:
	vmovdqu	(%rdi,%rdx), %xmm1
	cmpq	$3, %rdx
	jae	.LBB65_8
	testq	%rdx, %rdx
	je	.LBB65_12
	vpbroadcastb	-1(%rdi,%rdx), %xmm2
	vpalignr	$15, %xmm2, %xmm1, %xmm2
	cmpq	$2, %rdx
	jne	.LBB65_13
	movzbl	(%rdi), %r9d
	jmp	.LBB65_14
.LBB65_12:
	vpslldq	$1, %xmm1, %xmm2
.LBB65_13:
	xorl	%r9d, %r9d
.LBB65_14:
	vmovd	%r9d, %xmm3
	vpbroadcastb	%xmm3, %xmm3
	vpalignr	$15, %xmm3, %xmm2, %xmm4
	vpslldq	$1, %xmm4, %xmm3
	vpor	%xmm1, %xmm3, %xmm5
	vpmovmskb	%xmm5, %r9d
	testl	%r9d, %r9d
	jne	.LBB65_5
.LBB65_15:
	vpxor	%xmm5, %xmm5, %xmm5
	movl	$65535, %r9d
	jmp	.LBB65_6
.LBB65_16:
	vpbroadcastb	-17(%rdi,%rsi), %xmm0
	vpalignr	$15, %xmm0, %xmm1, %xmm2
	cmpq	$2, %rax
	jne	.LBB65_18
	movzbl	(%rdi), %r9d
	jmp	.LBB65_19
.LBB65_18:
	xorl	%r9d, %r9d
.LBB65_19:
	vmovd	%r9d, %xmm0
	vpbroadcastb	%xmm0, %xmm0
	vpalignr	$15, %xmm0, %xmm2, %xmm4
	vpslldq	$1, %xmm4, %xmm3
	vpor	%xmm1, %xmm3, %xmm0
	vpmovmskb	%xmm0, %r9d
	testl	%r9d, %r9d
	jne	.LBB65_4
.LBB65_20:
	vpxor	%xmm6, %xmm6, %xmm6
	movl	$65535, %r9d
.LBB65_21:
	subl	%eax, %edx
	vpunpckhbw	%xmm6, %xmm1, %xmm0
	vpunpcklbw	%xmm6, %xmm1, %xmm1
	movq	$-1, %rax
	shlxq	%rdx, %rax, %rax
	andl	%eax, %r9d
	movzbl	%r9b, %eax
	xorl	%edx, %edx
	popcntl	%eax, %edx
	shll	$4, %eax
	leaq	.Lstatic.10(%rip), %r10
	vpshufb	(%rax,%r10), %xmm1, %xmm1
	vmovdqu	%xmm1, (%rcx,%r8)
	addq	%r8, %rcx
	shrl	$8, %r9d
	xorl	%eax, %eax
	popcntl	%r9d, %eax
	shll	$4, %r9d
	vpshufb	(%r9,%r10), %xmm0, %xmm0
	vmovdqu	%xmm0, (%rcx,%rdx,2)
	addl	%edx, %eax
	leaq	(%r8,%rax,2), %r8
.LBB65_22:
	vptest	%xmm7, %xmm7
	je	.LBB65_24
	xorl	%edx, %edx
	xorl	%eax, %eax
	addq	$16, %rsp
	popq	%rbx
	retq
.LBB65_24:
	cmpb	$-65, -1(%rdi,%rsi)
	jbe	.LBB65_26
	leaq	-1(%rsi), %rax
	jmp	.LBB65_29
.LBB65_26:
	cmpb	$-33, -2(%rdi,%rsi)
	jbe	.LBB65_28
	leaq	-2(%rsi), %rax
	jmp	.LBB65_29
.LBB65_28:
	leaq	-3(%rsi), %rax
	cmpb	$-16, -3(%rdi,%rsi)
	cmovbq	%rsi, %rax
.LBB65_29:
	xorl	%edx, %edx
	cmpq	%rsi, %rax
	setae	%al
	cmovaeq	%r8, %rdx
	addq	$16, %rsp
	popq	%rbx
	retq
.Lfunc_end65:

	.section	.rdata$000,"dr"
	.p2align	4, 0x0
.LCPI66_0:
	.zero	16,192
.LCPI66_1:
	.zero	16,191
.LCPI66_2:
	.zero	16,223
.LCPI66_3:
	.zero	16,239
.LCPI66_4:
	.zero	16,159
.LCPI66_5:
	.zero	16,237
.LCPI66_6:
	.zero	16,224
.LCPI66_7:
	.zero	16,143
.LCPI66_8:
	.zero	16,245
.LCPI66_9:
	.zero	16,244
.LCPI66_10:
	.zero	16,240
.LCPI66_11:
	.zero	16,254
.LCPI66_12:
	.zero	16,15
.LCPI66_13:
	.zero	16,220
.LCPI66_14:
	.zero	16,252
.LCPI66_15:
	.zero	16,3
.LCPI66_16:
	.zero	16,63
.LCPI66_17:
	.zero	16,232
.LCPI66_18:
	.zero	16,127
.LCPI66_19:
	.byte	1
	.byte	2
	.byte	3
	.byte	4
	.byte	5
	.byte	6
	.byte	7
	.byte	8
	.byte	9
	.byte	10
	.byte	11
	.byte	12
	.byte	13
	.byte	14
	.byte	15
	.byte	16
	.section	.rdata$001,"dr"
	.p2align	2, 0x0
.LCPI66_20:
	.zero	4,192
.LCPI66_21:
	.zero	4,237
.LCPI66_22:
	.zero	4,244
.LCPI66_23:
	.zero	4,191
.LCPI66_24:
	.zero	4,15
	.section	.text$079,"xr"
	.p2align	4
L_66:
	pushq	%rbp
	pushq	%r15
	pushq	%r14
	pushq	%r13
	pushq	%r12
	pushq	%rbx
	subq	$344, %rsp
	movq	%r9, %r12
	movq	%r8, %r10
	movq	%rcx, %r15
	movq	400(%rsp), %r14
	movzbl	(%rsi,%r9), %ecx
	testb	%cl, %cl
	movq	%r8, (%rsp)
	js	.LBB66_192
.LBB66_1:
	movq	%rdi, 56(%rsp)
	cmpq	%r12, %rdx
	movq	%rdx, 32(%rsp)
	movq	%r15, 8(%rsp)
	movq	%rsi, 24(%rsp)
	ja	.LBB66_5
.LBB66_2:
	movq	56(%rsp), %rax
	movq	%r12, (%rax)
	movq	%r14, 8(%rax)
	movw	$0, 16(%rax)
	jmp	.LBB66_230
	.p2align	4
.LBB66_3:
	leal	67043328(%rax), %edi
	shrl	$10, %edi
	addl	$-10240, %edi
	andl	$1023, %eax
	orl	$56320, %eax
	movw	%ax, 2(%r15,%r14)
	movl	$4, %ecx
	movl	%edi, %eax
.LBB66_4:
	movw	%ax, (%r15,%r14)
	addq	%rcx, %r14
	addq	%rbx, %r12
	cmpq	%rdx, %r12
	jae	.LBB66_2
.LBB66_5:
	leaq	(%rsi,%r12), %r13
	movq	%rdx, %rbx
	subq	%r12, %rbx
	cmpq	$16, %rbx
	jb	.LBB66_9
	leaq	(%r15,%r14), %rbp
	movq	%r10, %r15
	subq	%r14, %r15
	cmpq	$16, %rbx
	jne	.LBB66_12
	cmpq	$32, %r15
	jae	.LBB66_17
	xorl	%r9d, %r9d
	xorl	%r11d, %r11d
	jmp	.LBB66_76
	.p2align	4
.LBB66_9:
	xorl	%r11d, %r11d
	movq	%rbx, %rbp
	subq	%r11, %rbp
	je	.LBB66_78
.LBB66_10:
	addq	%r11, %r13
	cmpq	$7, %rbp
	ja	.LBB66_14
	movq	%r13, %rdi
	movq	%rbp, %rsi
	movq	%r15, %rdx
	movq	%r10, %rcx
	movq	%r14, %r8
	movq	%r11, %rbx
	vzeroupper
	callq	L_67
	movq	%rbx, %r11
	movq	(%rsp), %r10
	movq	%rax, %rbx
	movq	%rdx, %r15
	movq	24(%rsp), %rsi
	jmp	.LBB66_127
	.p2align	4
.LBB66_12:
	movq	%r15, %rsi
	shrq	%rsi
	cmpq	%rbx, %rsi
	cmovaeq	%rbx, %rsi
	cmpq	$16, %rsi
	jb	.LBB66_13
	vmovdqu	(%r13), %xmm0
	vpmovmskb	%xmm0, %eax
	testl	%eax, %eax
	je	.LBB66_51
.LBB66_13:
	xorl	%r11d, %r11d
.LBB66_71:
	leaq	(%r11,%r11), %r9
	movq	%rbx, %rax
	subq	%r11, %rax
	je	.LBB66_76
	cmpq	$191, %rax
	jbe	.LBB66_74
	movq	%r13, %rdi
	movq	%rbx, %rsi
	movq	%rbp, %rdx
	movq	%r15, %rcx
	movq	%r11, %r8
	vzeroupper
	callq	L_61
	movq	%rax, %r11
	movq	%rdx, %r9
	movq	%rbx, %rax
	subq	%r11, %rax
	cmpq	$191, %rax
	ja	.LBB66_75
.LBB66_74:
	movq	%r13, %rdi
	movq	%rbx, %rsi
	movq	%rbp, %rdx
	movq	%r15, %rcx
	movq	%r11, %r8
	vzeroupper
	callq	L_60
	movq	%rax, %r11
	movq	%rdx, %r9
.LBB66_75:
	movq	(%rsp), %r10
.LBB66_76:
	movq	32(%rsp), %rdx
	movq	8(%rsp), %r15
.LBB66_77:
	addq	%r9, %r14
	movq	%rbx, %rbp
	subq	%r11, %rbp
	jne	.LBB66_10
.LBB66_78:
	movq	24(%rsp), %rsi
	addq	%r12, %rbx
	movq	%rdx, %r11
	subq	%rbx, %r11
	jne	.LBB66_128
	jmp	.LBB66_204
	.p2align	4
.LBB66_14:
	cmpq	$128, %rbp
	movl	$128, %ebx
	cmovbq	%rbp, %rbx
	movq	%r10, %r9
	subq	%r14, %r9
	xorl	%eax, %eax
	movq	%r9, %rcx
	subq	$16, %rcx
	cmovaeq	%rcx, %rax
	shrq	%rax
	cmpq	%rax, %rbx
	movq	%r11, 16(%rsp)
	jbe	.LBB66_25
	cmpq	$23, %r9
	ja	.LBB66_28
.LBB66_16:
	movq	%r13, %rdi
	movq	%rbp, %rsi
	movq	%r15, %rdx
	movq	%r10, %rcx
	movq	%r14, %r8
	vzeroupper
	callq	L_67
	jmp	.LBB66_31
.LBB66_17:
	vmovdqu	(%r13), %xmm0
	vpmovmskb	%xmm0, %eax
	testl	%eax, %eax
	movq	32(%rsp), %rdx
	movq	8(%rsp), %r15
	je	.LBB66_50
	vmovq	8(%r13), %xmm1
	vpextrb	$5, %xmm1, %eax
	xorl	%r9d, %r9d
	cmpb	$-17, %al
	ja	.LBB66_79
	vpextrb	$7, %xmm1, %eax
	cmpb	$-65, %al
	ja	.LBB66_79
	vpextrb	$6, %xmm1, %eax
	movl	$0, %r11d
	cmpb	$-33, %al
	ja	.LBB66_77
	vpslldq	$1, %xmm0, %xmm1
	vpslldq	$2, %xmm0, %xmm3
	vpslldq	$3, %xmm0, %xmm4
	vpbroadcastd	.LCPI66_20(%rip), %xmm2
	vpsubusb	.LCPI66_1(%rip), %xmm1, %xmm5
	vpsubusb	.LCPI66_2(%rip), %xmm3, %xmm6
	vpcmpgtb	%xmm0, %xmm2, %xmm7
	vpmaxub	%xmm6, %xmm5, %xmm5
	vpsubusb	.LCPI66_3(%rip), %xmm4, %xmm4
	vpor	%xmm4, %xmm5, %xmm4
	vpminub	.LCPI66_4(%rip), %xmm0, %xmm5
	vpcmpeqb	%xmm5, %xmm0, %xmm5
	vpbroadcastd	.LCPI66_21(%rip), %xmm6
	vpblendvb	%xmm5, .LCPI66_6(%rip), %xmm6, %xmm5
	vpxor	%xmm6, %xmm6, %xmm6
	vpcmpgtb	%xmm6, %xmm4, %xmm4
	vpminub	.LCPI66_7(%rip), %xmm0, %xmm6
	vpxor	%xmm4, %xmm7, %xmm4
	vpcmpeqb	%xmm6, %xmm0, %xmm6
	vpmaxub	.LCPI66_8(%rip), %xmm0, %xmm7
	vpbroadcastd	.LCPI66_22(%rip), %xmm8
	vpblendvb	%xmm6, .LCPI66_10(%rip), %xmm8, %xmm6
	vpcmpeqb	%xmm5, %xmm1, %xmm5
	vpcmpeqb	%xmm7, %xmm0, %xmm7
	vpcmpeqb	%xmm6, %xmm1, %xmm6
	vpor	%xmm5, %xmm6, %xmm5
	vpor	%xmm7, %xmm5, %xmm5
	vpand	.LCPI66_11(%rip), %xmm0, %xmm6
	vpcmpeqb	%xmm2, %xmm6, %xmm6
	vpor	%xmm4, %xmm6, %xmm4
	vpor	%xmm4, %xmm5, %xmm4
	vpmovmskb	%xmm4, %eax
	testl	%eax, %eax
	je	.LBB66_80
	xorl	%r9d, %r9d
	xorl	%r11d, %r11d
	jmp	.LBB66_77
.LBB66_25:
	vpxor	%xmm0, %xmm0, %xmm0
	cmpq	$63, %rbp
	ja	.LBB66_33
	vmovdqu	%ymm0, 64(%rsp)
	leaq	64(%rsp), %rdi
	movq	%r13, %rsi
	movq	%rbx, %rdx
	vzeroupper
	callq	L_1
	cmpb	$0, 64(%rsp)
	je	.LBB66_67
	movq	72(%rsp), %rax
	jmp	.LBB66_37
.LBB66_28:
	vpxor	%xmm0, %xmm0, %xmm0
	vmovdqu	%ymm0, 308(%rsp)
	vmovdqu	%ymm0, 288(%rsp)
	vmovdqu	%ymm0, 256(%rsp)
	vmovdqu	%ymm0, 224(%rsp)
	vmovdqu	%ymm0, 192(%rsp)
	vmovdqu	%ymm0, 160(%rsp)
	vmovdqu	%ymm0, 128(%rsp)
	vmovdqu	%ymm0, 96(%rsp)
	vmovdqu	%ymm0, 64(%rsp)
	cmpq	$15, %rbp
	ja	.LBB66_58
	leaq	64(%rsp), %rdx
	movq	%r13, %rdi
	movq	%rbp, %rsi
	movq	%r15, %rcx
	movq	%r10, %r8
	movq	%r14, %r9
.LBB66_30:
	vzeroupper
	callq	L_68
.LBB66_31:
	movq	%rax, %rbx
	movq	%rdx, %r15
.LBB66_32:
	movq	(%rsp), %r10
	movq	24(%rsp), %rsi
	movq	16(%rsp), %r11
	jmp	.LBB66_127
.LBB66_33:
	vmovdqu	%ymm0, 64(%rsp)
	leaq	64(%rsp), %rdi
	movl	$63, %r15d
	movl	$63, %edx
	movq	%r13, %rsi
	vzeroupper
	callq	L_1
	cmpb	$0, 64(%rsp)
	movq	72(%rsp), %rax
	cmovneq	%rax, %r15
	leaq	4(%r15), %rcx
	cmpq	$64, %rcx
	jb	.LBB66_37
	leaq	(%r15,%r13), %rsi
	subq	%r15, %rbx
	vpxor	%xmm0, %xmm0, %xmm0
	vmovdqu	%ymm0, 64(%rsp)
	leaq	64(%rsp), %rdi
	movq	%rbx, %rdx
	vzeroupper
	callq	L_1
	cmpb	$0, 64(%rsp)
	je	.LBB66_36
	movq	72(%rsp), %rbx
.LBB66_36:
	addq	%r15, %rbx
	movq	%rbx, %rax
.LBB66_37:
	testq	%rax, %rax
	je	.LBB66_54
	movq	8(%rsp), %r15
	leaq	(%r15,%r14), %rbp
	cmpq	$7, %rax
	movq	(%rsp), %r10
	movq	16(%rsp), %r11
	ja	.LBB66_55
	xorl	%r9d, %r9d
	movq	%rax, %rcx
	jmp	.LBB66_40
.LBB66_48:
	addl	$67043328, %edx
	shrl	$10, %edx
	addl	$-10240, %edx
	movw	%dx, (%r8)
	orl	$56320, %edi
	movw	%di, 2(%r8)
	movl	$4, %edx
	addq	%rdx, %r9
	testq	%rcx, %rcx
	je	.LBB66_49
	.p2align	4
.LBB66_40:
	movzbl	(%r13), %edx
	movl	$1, %edi
	testb	%dl, %dl
	jns	.LBB66_45
	movzbl	1(%r13), %esi
	andl	$63, %esi
	cmpb	$-33, %dl
	ja	.LBB66_43
	andl	$31, %edx
	shll	$6, %edx
	orl	%esi, %edx
	movl	$2, %edi
	jmp	.LBB66_45
.LBB66_43:
	movzbl	2(%r13), %edi
	andl	$63, %edi
	cmpb	$-17, %dl
	ja	.LBB66_47
	shll	$12, %edx
	movzwl	%dx, %edx
	shll	$6, %esi
	orl	%edx, %esi
	orl	%edi, %esi
	movl	$3, %edi
	movl	%esi, %edx
	.p2align	4
.LBB66_45:
	addq	%rdi, %r13
	subq	%rdi, %rcx
	leaq	(%r9,%rbp), %r8
.LBB66_46:
	movw	%dx, (%r8)
	movl	$2, %edx
	addq	%rdx, %r9
	testq	%rcx, %rcx
	jne	.LBB66_40
	jmp	.LBB66_49
.LBB66_47:
	movzbl	3(%r13), %r8d
	andl	$63, %r8d
	andl	$7, %edx
	shll	$18, %edx
	shll	$12, %esi
	orl	%edx, %esi
	shll	$6, %edi
	orl	%r8d, %edi
	leal	(%rdi,%rsi), %edx
	addq	$4, %r13
	addq	$-4, %rcx
	leaq	(%r9,%rbp), %r8
	cmpl	$65535, %esi
	jbe	.LBB66_46
	jmp	.LBB66_48
.LBB66_51:
	cmpq	$31, %rsi
	ja	.LBB66_70
	vpmovzxbw	%xmm0, %ymm0
	vmovdqu	%ymm0, (%rbp)
	vmovdqu	-16(%rsi,%r13), %xmm0
	vpmovmskb	%xmm0, %eax
	movl	$16, %r11d
	testl	%eax, %eax
	jne	.LBB66_71
	vpmovzxbw	%xmm0, %ymm0
	vmovdqu	%ymm0, -32(%rbp,%rsi,2)
	movq	%rsi, %r11
	jmp	.LBB66_71
.LBB66_50:
	vpmovzxbw	%xmm0, %ymm0
	vmovdqu	%ymm0, (%rbp)
	movl	$16, %r11d
	movl	$32, %r9d
	jmp	.LBB66_77
.LBB66_54:
	xorl	%ebx, %ebx
	movq	(%rsp), %r10
	movq	24(%rsp), %rsi
	movq	16(%rsp), %r11
	jmp	.LBB66_126
.LBB66_55:
	movq	%rax, %rbx
	cmpq	$16, %rbx
	ja	.LBB66_68
.LBB66_56:
	vmovq	-8(%r13,%rbx), %xmm0
	vmovq	(%r13), %xmm1
	vpunpcklqdq	%xmm0, %xmm1, %xmm0
	movq	%rbx, %rax
	shlq	$4, %rax
	leaq	.Lstatic.1(%rip), %rcx
	vpshufb	-128(%rax,%rcx), %xmm0, %xmm0
	vpmovmskb	%xmm0, %ecx
	leaq	(%r15,%r14), %rax
	testl	%ecx, %ecx
	je	.LBB66_86
	leaq	.Lstatic.2(%rip), %rcx
	subq	%rbx, %rcx
	vpmaxub	16(%rcx), %xmm0, %xmm1
	vpslldq	$1, %xmm1, %xmm0
	vpbroadcastd	.LCPI66_20(%rip), %xmm3
	vpblendvb	%xmm1, %xmm0, %xmm3, %xmm4
	vpslldq	$2, %xmm1, %xmm5
	vpbroadcastd	.LCPI66_23(%rip), %xmm2
	vpmaxub	.LCPI66_6(%rip), %xmm5, %xmm6
	vpsrlw	$2, %xmm4, %xmm7
	vpbroadcastd	.LCPI66_24(%rip), %xmm8
	vpand	%xmm7, %xmm8, %xmm7
	vpsllw	$4, %xmm6, %xmm6
	vpandn	%xmm6, %xmm8, %xmm6
	vpor	%xmm6, %xmm7, %xmm6
	vpmaxub	%xmm5, %xmm4, %xmm7
	vpminub	%xmm2, %xmm7, %xmm8
	vpcmpeqb	%xmm7, %xmm8, %xmm7
	vpand	.LCPI66_13(%rip), %xmm7, %xmm7
	vpor	%xmm7, %xmm6, %xmm6
	vpsllw	$2, %xmm0, %xmm7
	vpand	.LCPI66_14(%rip), %xmm7, %xmm7
	vpsrlw	$4, %xmm1, %xmm8
	vpand	.LCPI66_15(%rip), %xmm8, %xmm8
	vpminub	.LCPI66_16(%rip), %xmm7, %xmm9
	vpcmpeqb	%xmm7, %xmm9, %xmm9
	vpaddb	%xmm5, %xmm9, %xmm9
	vpaddb	.LCPI66_17(%rip), %xmm9, %xmm9
	vpor	%xmm7, %xmm8, %xmm7
	vpminub	.LCPI66_3(%rip), %xmm5, %xmm8
	vpcmpeqb	%xmm5, %xmm8, %xmm5
	vpblendvb	%xmm5, %xmm6, %xmm9, %xmm6
	vpand	.LCPI66_18(%rip), %xmm1, %xmm8
	vpaddb	%xmm3, %xmm7, %xmm7
	vpsllw	$6, %xmm4, %xmm4
	vpand	%xmm3, %xmm4, %xmm3
	vpaddb	%xmm3, %xmm8, %xmm3
	vpblendvb	%xmm5, %xmm3, %xmm7, %xmm3
	vpunpcklbw	%xmm6, %xmm3, %xmm4
	vpminub	%xmm2, %xmm1, %xmm2
	vpcmpeqb	%xmm2, %xmm1, %xmm1
	vpminub	.LCPI66_2(%rip), %xmm0, %xmm2
	vpcmpeqb	%xmm2, %xmm0, %xmm0
	vpand	%xmm0, %xmm1, %xmm0
	vpmovmskb	%xmm0, %ecx
	movzbl	%cl, %edx
	popcntl	%edx, %esi
	shll	$4, %edx
	leaq	.Lstatic.10(%rip), %rdi
	vpshufb	(%rdx,%rdi), %xmm4, %xmm0
	vpunpckhbw	%xmm6, %xmm3, %xmm1
	vmovdqu	%xmm0, (%rbp)
	shrl	$8, %ecx
	popcntl	%ecx, %r9d
	shll	$4, %ecx
	vpshufb	(%rcx,%rdi), %xmm1, %xmm0
	vmovdqu	%xmm0, (%rax,%rsi,2)
	addl	%esi, %r9d
	addl	%r9d, %r9d
	jmp	.LBB66_125
.LBB66_49:
	movq	%rax, %rbx
	jmp	.LBB66_125
.LBB66_58:
	movzbl	(%r13), %ecx
	movl	$1, %eax
	testb	%cl, %cl
	js	.LBB66_83
.LBB66_59:
	movzbl	(%r13,%rax), %ecx
	testb	%cl, %cl
	js	.LBB66_88
.LBB66_60:
	xorl	%esi, %esi
	cmpq	$65, %r9
	setae	%sil
	shll	$6, %esi
	addq	$66, %rsi
	cmpq	%rbp, %rsi
	cmovaeq	%rbp, %rsi
	cmpq	$16, %rbp
	jne	.LBB66_91
	vmovq	-8(%r13,%rsi), %xmm1
	vmovq	(%r13), %xmm0
	vpunpcklqdq	%xmm1, %xmm0, %xmm0
	movq	%rsi, %rax
	shlq	$4, %rax
	leaq	.Lstatic.1(%rip), %rcx
	vpshufb	-128(%rax,%rcx), %xmm0, %xmm0
	vpmovmskb	%xmm0, %eax
	testl	%eax, %eax
	je	.LBB66_108
	vpextrb	$5, %xmm1, %eax
	xorl	%r15d, %r15d
	cmpb	$-17, %al
	ja	.LBB66_165
	vpextrb	$7, %xmm1, %eax
	cmpb	$-65, %al
	ja	.LBB66_165
	vpextrb	$6, %xmm1, %eax
	movl	$0, %ebx
	cmpb	$-33, %al
	ja	.LBB66_166
	vpslldq	$1, %xmm0, %xmm1
	vpslldq	$2, %xmm0, %xmm3
	vpslldq	$3, %xmm0, %xmm4
	vpbroadcastd	.LCPI66_20(%rip), %xmm2
	vpcmpgtb	%xmm0, %xmm2, %xmm5
	vpsubusb	.LCPI66_1(%rip), %xmm1, %xmm6
	vpsubusb	.LCPI66_2(%rip), %xmm3, %xmm7
	vpsubusb	.LCPI66_3(%rip), %xmm4, %xmm4
	vpmaxub	%xmm7, %xmm6, %xmm6
	vpor	%xmm4, %xmm6, %xmm4
	vpxor	%xmm6, %xmm6, %xmm6
	vpcmpgtb	%xmm6, %xmm4, %xmm4
	vpxor	%xmm4, %xmm5, %xmm4
	vpminub	.LCPI66_4(%rip), %xmm0, %xmm5
	vpcmpeqb	%xmm5, %xmm0, %xmm5
	vpbroadcastd	.LCPI66_21(%rip), %xmm6
	vpblendvb	%xmm5, .LCPI66_6(%rip), %xmm6, %xmm5
	vpcmpeqb	%xmm5, %xmm1, %xmm5
	vpminub	.LCPI66_7(%rip), %xmm0, %xmm6
	vpcmpeqb	%xmm6, %xmm0, %xmm6
	vpmaxub	.LCPI66_8(%rip), %xmm0, %xmm7
	vpcmpeqb	%xmm7, %xmm0, %xmm7
	vpbroadcastd	.LCPI66_22(%rip), %xmm8
	vpblendvb	%xmm6, .LCPI66_10(%rip), %xmm8, %xmm6
	vpcmpeqb	%xmm6, %xmm1, %xmm6
	vpor	%xmm5, %xmm6, %xmm5
	vpor	%xmm7, %xmm5, %xmm5
	vpand	.LCPI66_11(%rip), %xmm0, %xmm6
	vpcmpeqb	%xmm2, %xmm6, %xmm6
	vpor	%xmm4, %xmm6, %xmm4
	vpor	%xmm4, %xmm5, %xmm4
	vmovd	%esi, %xmm5
	vpbroadcastb	%xmm5, %xmm5
	vpmaxub	.LCPI66_19(%rip), %xmm5, %xmm6
	vpcmpeqb	%xmm6, %xmm5, %xmm5
	vpsllw	$7, %xmm4, %xmm4
	vpand	%xmm4, %xmm5, %xmm4
	vpmovmskb	%xmm4, %eax
	testl	%eax, %eax
	je	.LBB66_164
	xorl	%r15d, %r15d
.LBB66_165:
	xorl	%ebx, %ebx
	jmp	.LBB66_166
.LBB66_79:
	xorl	%r11d, %r11d
	jmp	.LBB66_77
.LBB66_67:
	leaq	(%r15,%r14), %rbp
	movq	(%rsp), %r10
	movq	16(%rsp), %r11
	cmpq	$16, %rbx
	jbe	.LBB66_56
.LBB66_68:
	leaq	16(,%rbx,2), %r15
	movq	%r15, %rsi
	shrq	%rsi
	cmpq	%rbx, %rsi
	cmovaeq	%rbx, %rsi
	cmpq	$32, %r15
	jb	.LBB66_69
	vmovdqu	(%r13), %xmm0
	vpmovmskb	%xmm0, %eax
	testl	%eax, %eax
	je	.LBB66_100
.LBB66_69:
	xorl	%r8d, %r8d
.LBB66_118:
	leaq	(%r8,%r8), %r9
	movq	%rbx, %rax
	subq	%r8, %rax
	je	.LBB66_125
	cmpq	$191, %rax
	ja	.LBB66_121
	movq	%r13, %rdi
	movq	%rbx, %rsi
	movq	%rbp, %rdx
	movq	%r15, %rcx
	jmp	.LBB66_123
.LBB66_70:
	movq	%r13, %rdi
	movq	%rbp, %rdx
	vzeroupper
	callq	L_62
	movq	(%rsp), %r10
	movq	%rax, %r11
	jmp	.LBB66_71
.LBB66_80:
	vpblendvb	%xmm0, %xmm1, %xmm2, %xmm5
	vpbroadcastd	.LCPI66_23(%rip), %xmm4
	vpmaxub	.LCPI66_6(%rip), %xmm3, %xmm6
	vpsrlw	$2, %xmm5, %xmm7
	vpbroadcastd	.LCPI66_24(%rip), %xmm8
	vpand	%xmm7, %xmm8, %xmm7
	vpsllw	$4, %xmm6, %xmm6
	vpandn	%xmm6, %xmm8, %xmm6
	vpmaxub	%xmm3, %xmm5, %xmm8
	vpminub	%xmm4, %xmm8, %xmm9
	vpcmpeqb	%xmm9, %xmm8, %xmm8
	vpand	.LCPI66_13(%rip), %xmm8, %xmm8
	vpor	%xmm6, %xmm7, %xmm6
	vpsllw	$2, %xmm1, %xmm7
	vpand	.LCPI66_14(%rip), %xmm7, %xmm7
	vpor	%xmm6, %xmm8, %xmm6
	vpsrlw	$4, %xmm0, %xmm8
	vpand	.LCPI66_15(%rip), %xmm8, %xmm8
	vpminub	.LCPI66_16(%rip), %xmm7, %xmm9
	vpcmpeqb	%xmm7, %xmm9, %xmm9
	vpaddb	%xmm3, %xmm9, %xmm9
	vpaddb	.LCPI66_17(%rip), %xmm9, %xmm9
	vpminub	.LCPI66_3(%rip), %xmm3, %xmm10
	vpor	%xmm7, %xmm8, %xmm7
	vpcmpeqb	%xmm3, %xmm10, %xmm3
	vpblendvb	%xmm3, %xmm6, %xmm9, %xmm6
	vpaddb	%xmm2, %xmm7, %xmm7
	vpand	.LCPI66_18(%rip), %xmm0, %xmm8
	vpsllw	$6, %xmm5, %xmm5
	vpand	%xmm2, %xmm5, %xmm2
	vpaddb	%xmm2, %xmm8, %xmm2
	vpblendvb	%xmm3, %xmm2, %xmm7, %xmm2
	vpunpcklbw	%xmm6, %xmm2, %xmm3
	vpminub	.LCPI66_2(%rip), %xmm1, %xmm5
	vpcmpeqb	%xmm5, %xmm1, %xmm1
	vpminub	%xmm4, %xmm0, %xmm4
	vpcmpeqb	%xmm4, %xmm0, %xmm0
	vpand	%xmm1, %xmm0, %xmm0
	vpmovmskb	%xmm0, %eax
	movzbl	%al, %ecx
	popcntl	%ecx, %edi
	shll	$4, %ecx
	leaq	.Lstatic.10(%rip), %rsi
	vpshufb	(%rcx,%rsi), %xmm3, %xmm0
	vmovdqu	%xmm0, (%rbp)
	vpunpckhbw	%xmm6, %xmm2, %xmm0
	shrl	$8, %eax
	popcntl	%eax, %r9d
	shll	$4, %eax
	vpshufb	(%rax,%rsi), %xmm0, %xmm0
	vmovdqu	%xmm0, (%rbp,%rdi,2)
	addl	%edi, %r9d
	addl	%r9d, %r9d
	movl	$16, %r11d
	jmp	.LBB66_77
.LBB66_83:
	cmpb	$-31, %cl
	jae	.LBB66_97
	movzbl	1(%r13), %edx
	movl	%ecx, %eax
	shrb	$4, %al
	andb	$12, %al
	movl	%edx, %esi
	shrb	$6, %sil
	orb	%al, %sil
	cmpb	$14, %sil
	jne	.LBB66_16
	leal	62(%rcx), %esi
	movl	$2, %eax
	cmpb	$30, %sil
	jb	.LBB66_59
	jmp	.LBB66_114
.LBB66_86:
	leaq	(%rbx,%rbx), %r9
	vpmovzxbw	%xmm0, %ymm0
	vmovdqu	%xmm0, (%rbp)
	vextracti128	$1, %ymm0, 16(%rax)
	jmp	.LBB66_125
.LBB66_88:
	leal	31(%rcx), %esi
	movzbl	1(%r13,%rax), %edx
	cmpb	$11, %sil
	ja	.LBB66_103
	cmpb	$-65, %dl
	jg	.LBB66_16
	cmpb	$-64, 2(%r13,%rax)
	jge	.LBB66_16
	jmp	.LBB66_60
.LBB66_91:
	vmovdqu	(%r13), %xmm0
	vpmovmskb	%xmm0, %eax
	testl	%eax, %eax
	movq	%r9, 40(%rsp)
	je	.LBB66_109
	xorl	%r15d, %r15d
	xorl	%ebx, %ebx
.LBB66_93:
	movq	%rsi, %rax
	subq	%rbx, %rax
	cmpq	$191, %rax
	jbe	.LBB66_95
	leaq	64(%rsp), %rdx
	movl	$276, %ecx
	movq	%r13, %rdi
	movq	%rsi, 48(%rsp)
	movq	48(%rsp), %rsi
	movq	%rbx, %r8
	movq	%r15, %r9
	vzeroupper
	callq	L_61
	movq	48(%rsp), %rsi
	movq	%rax, %rbx
	movq	%rdx, %r15
	movq	%rsi, %rax
	subq	%rbx, %rax
	cmpq	$191, %rax
	ja	.LBB66_96
.LBB66_95:
	leaq	64(%rsp), %rdx
	movl	$276, %ecx
	movq	%r13, %rdi
	movq	%rbx, %r8
	movq	%r15, %r9
	vzeroupper
	callq	L_60
	movq	%rax, %rbx
	movq	%rdx, %r15
.LBB66_96:
	movq	40(%rsp), %r9
	jmp	.LBB66_166
.LBB66_121:
	movq	%r13, %rdi
	movq	%rbx, %rsi
	movq	%rbp, %rdx
	movq	%r15, %rcx
	vzeroupper
	callq	L_61
	movq	%rdx, %r9
	movq	%rbx, %rcx
	subq	%rax, %rcx
	cmpq	$191, %rcx
	ja	.LBB66_124
	movq	%r13, %rdi
	movq	%rbx, %rsi
	movq	%rbp, %rdx
	movq	%r15, %rcx
	movq	%rax, %r8
.LBB66_123:
	vzeroupper
	callq	L_60
	movq	%rdx, %r9
.LBB66_124:
	movq	(%rsp), %r10
	movq	16(%rsp), %r11
.LBB66_125:
	movq	24(%rsp), %rsi
	addq	%r9, %r14
.LBB66_126:
	movq	%r14, %r15
.LBB66_127:
	addq	%r11, %rbx
	movq	%r15, %r14
	movq	32(%rsp), %rdx
	movq	8(%rsp), %r15
	addq	%r12, %rbx
	movq	%rdx, %r11
	subq	%rbx, %r11
	je	.LBB66_204
.LBB66_128:
	movzbl	(%rsi,%rbx), %eax
	testb	%al, %al
	js	.LBB66_133
	movl	$1, %r12d
.LBB66_130:
	movq	%r10, %rcx
	subq	%r14, %rcx
	xorl	%edi, %edi
	cmpl	$65536, %eax
	setae	%dil
	leaq	2(,%rdi,2), %rdi
	cmpq	%rdi, %rcx
	jb	.LBB66_205
	cmpl	$65535, %eax
	ja	.LBB66_3
	movl	$2, %ecx
	jmp	.LBB66_4
	.p2align	4
.LBB66_133:
	cmpq	$3, %r11
	jb	.LBB66_138
	leal	31(%rax), %ecx
	cmpb	$11, %cl
	ja	.LBB66_139
	movzbl	1(%rsi,%rbx), %ecx
	cmpb	$-65, %cl
	jg	.LBB66_139
	movzbl	2(%rsi,%rbx), %edi
	cmpb	$-65, %dil
	jg	.LBB66_139
	shll	$12, %eax
	shll	$6, %ecx
	addl	%eax, %ecx
	leal	(%rdi,%rcx), %eax
	addl	$-925824, %eax
	movl	$3, %r12d
	jmp	.LBB66_130
.LBB66_138:
	cmpq	$2, %r11
	jne	.LBB66_217
.LBB66_139:
	movzbl	1(%rsi,%rbx), %r12d
	movl	%eax, %ecx
	shrb	$4, %cl
	andb	$12, %cl
	movl	%r12d, %edi
	shrb	$6, %dil
	orb	%cl, %dil
	movb	$1, %cl
	cmpb	$14, %dil
	jne	.LBB66_228
	leal	31(%rax), %edi
	cmpb	$12, %dil
	jae	.LBB66_145
.LBB66_141:
	cmpq	$2, %r11
	je	.LBB66_215
	movzbl	2(%rsi,%rbx), %edi
	cmpb	$-65, %dil
	jg	.LBB66_216
	cmpb	$-17, %al
	ja	.LBB66_149
	shll	$12, %eax
	shll	$6, %r12d
	addl	%eax, %r12d
	leal	(%rdi,%r12), %eax
	addl	$-925824, %eax
	movl	$3, %r12d
	jmp	.LBB66_130
.LBB66_145:
	leal	62(%rax), %edi
	cmpb	$30, %dil
	jb	.LBB66_160
	movb	$-65, %r8b
	leal	-224(%rax), %r9d
	cmpl	$20, %r9d
	ja	.LBB66_155
	leaq	.LJTI66_3(%rip), %r10
	movslq	(%r10,%r9,4), %r9
	addq	%r10, %r9
	movq	(%rsp), %r10
	jmpq	*%r9
.LBB66_148:
	movb	$-96, %r9b
	jmp	.LBB66_156
.LBB66_149:
	cmpq	$4, %r11
	jb	.LBB66_215
	movzbl	3(%rsi,%rbx), %r8d
	cmpb	$-65, %r8b
	jg	.LBB66_218
	shll	$18, %eax
	shll	$12, %r12d
	addl	%eax, %r12d
	shll	$6, %edi
	addl	%r12d, %edi
	leal	(%r8,%rdi), %eax
	addl	$-63447168, %eax
	movl	$4, %r12d
	jmp	.LBB66_130
.LBB66_152:
	movb	$-112, %r9b
	jmp	.LBB66_156
.LBB66_153:
	movb	$-97, %r8b
	jmp	.LBB66_155
.LBB66_154:
	movb	$-113, %r8b
.LBB66_155:
	movb	$-128, %r9b
.LBB66_156:
	cmpb	$50, %dil
	ja	.LBB66_228
	cmpb	%r12b, %r9b
	ja	.LBB66_228
	cmpb	%r8b, %r12b
	ja	.LBB66_228
	cmpb	$-33, %al
	ja	.LBB66_141
.LBB66_160:
	shll	$6, %eax
	addl	%r12d, %eax
	addl	$-12416, %eax
	movl	$2, %r12d
	jmp	.LBB66_130
.LBB66_97:
	movzbl	1(%r13), %edx
	cmpb	$-20, %cl
	ja	.LBB66_112
	cmpb	$-65, %dl
	jg	.LBB66_16
	movl	$3, %eax
	cmpb	$-64, 2(%r13)
	jge	.LBB66_16
	jmp	.LBB66_59
.LBB66_100:
	cmpq	$31, %rsi
	ja	.LBB66_117
	vpmovzxbw	%xmm0, %ymm0
	movq	8(%rsp), %rax
	vmovdqu	%ymm0, (%rax,%r14)
	vmovdqu	-16(%rsi,%r13), %xmm0
	vpmovmskb	%xmm0, %eax
	movl	$16, %r8d
	testl	%eax, %eax
	jne	.LBB66_118
	movq	8(%rsp), %rax
	addq	%r14, %rax
	vpmovzxbw	%xmm0, %ymm0
	vmovdqu	%ymm0, -32(%rax,%rsi,2)
	movq	%rsi, %r8
	jmp	.LBB66_118
.LBB66_103:
	movl	%ecx, %esi
	shrb	$4, %sil
	andb	$12, %sil
	movl	%edx, %edi
	shrb	$6, %dil
	orb	%sil, %dil
	cmpb	$14, %dil
	jne	.LBB66_16
	leal	62(%rcx), %esi
	cmpb	$30, %sil
	jb	.LBB66_60
	movb	$-65, %dil
	leal	-224(%rcx), %r8d
	cmpl	$20, %r8d
	ja	.LBB66_184
	movq	%r9, %rbx
	leaq	.LJTI66_2(%rip), %r9
	movslq	(%r9,%r8,4), %r8
	addq	%r9, %r8
	movq	%rbx, %r9
	jmpq	*%r8
.LBB66_107:
	movb	$-96, %r8b
	jmp	.LBB66_185
.LBB66_108:
	vpmovzxbw	%xmm0, %ymm0
	vmovdqu	%ymm0, 64(%rsp)
	movl	$16, %ebx
	movl	$32, %r15d
	jmp	.LBB66_166
.LBB66_109:
	cmpq	$31, %rbp
	ja	.LBB66_161
	vpmovzxbw	%xmm0, %ymm0
	vmovdqu	%ymm0, 64(%rsp)
	vmovdqu	-16(%rsi,%r13), %xmm0
	vpmovmskb	%xmm0, %eax
	movl	$16, %ebx
	testl	%eax, %eax
	jne	.LBB66_162
	vpmovzxbw	%xmm0, %ymm0
	vmovdqu	%ymm0, 32(%rsp,%rsi,2)
	leaq	(%rsi,%rsi), %r15
	movq	%rsi, %rbx
	jmp	.LBB66_166
.LBB66_112:
	cmpb	$-65, %dl
	jg	.LBB66_16
	leal	62(%rcx), %esi
.LBB66_114:
	movb	$-65, %al
	leal	-224(%rcx), %edi
	cmpl	$20, %edi
	ja	.LBB66_173
	leaq	.LJTI66_1(%rip), %r8
	movslq	(%r8,%rdi,4), %rdi
	addq	%r8, %rdi
	jmpq	*%rdi
.LBB66_116:
	movb	$-96, %dil
	jmp	.LBB66_174
.LBB66_117:
	movq	%r13, %rdi
	movq	%rbp, %rdx
	callq	L_62
	movq	16(%rsp), %r11
	movq	(%rsp), %r10
	movq	%rax, %r8
	jmp	.LBB66_118
.LBB66_161:
	leaq	64(%rsp), %rdx
	movq	%r13, %rdi
	movq	%rsi, %r15
	vzeroupper
	callq	L_62
	movq	%r15, %rsi
	movq	40(%rsp), %r9
	movq	%rax, %rbx
.LBB66_162:
	leaq	(%rbx,%rbx), %r15
	cmpq	%rsi, %rbx
	jne	.LBB66_93
	jmp	.LBB66_166
.LBB66_164:
	vpblendvb	%xmm0, %xmm1, %xmm2, %xmm5
	vpbroadcastd	.LCPI66_23(%rip), %xmm4
	vpmaxub	.LCPI66_6(%rip), %xmm3, %xmm6
	vpsrlw	$2, %xmm5, %xmm7
	vpbroadcastd	.LCPI66_24(%rip), %xmm8
	vpand	%xmm7, %xmm8, %xmm7
	vpsllw	$4, %xmm6, %xmm6
	vpandn	%xmm6, %xmm8, %xmm6
	vpmaxub	%xmm3, %xmm5, %xmm8
	vpminub	%xmm4, %xmm8, %xmm9
	vpcmpeqb	%xmm9, %xmm8, %xmm8
	vpand	.LCPI66_13(%rip), %xmm8, %xmm8
	vpor	%xmm6, %xmm7, %xmm6
	vpsllw	$2, %xmm1, %xmm7
	vpand	.LCPI66_14(%rip), %xmm7, %xmm7
	vpor	%xmm6, %xmm8, %xmm6
	vpsrlw	$4, %xmm0, %xmm8
	vpand	.LCPI66_15(%rip), %xmm8, %xmm8
	vpminub	.LCPI66_16(%rip), %xmm7, %xmm9
	vpcmpeqb	%xmm7, %xmm9, %xmm9
	vpaddb	%xmm3, %xmm9, %xmm9
	vpaddb	.LCPI66_17(%rip), %xmm9, %xmm9
	vpminub	.LCPI66_3(%rip), %xmm3, %xmm10
	vpor	%xmm7, %xmm8, %xmm7
	vpcmpeqb	%xmm3, %xmm10, %xmm3
	vpblendvb	%xmm3, %xmm6, %xmm9, %xmm6
	vpaddb	%xmm2, %xmm7, %xmm7
	vpand	.LCPI66_18(%rip), %xmm0, %xmm8
	vpsllw	$6, %xmm5, %xmm5
	vpand	%xmm2, %xmm5, %xmm2
	vpaddb	%xmm2, %xmm8, %xmm2
	vpblendvb	%xmm3, %xmm2, %xmm7, %xmm2
	vpunpcklbw	%xmm6, %xmm2, %xmm3
	vpminub	%xmm4, %xmm0, %xmm4
	vpminub	.LCPI66_2(%rip), %xmm1, %xmm5
	vpcmpeqb	%xmm4, %xmm0, %xmm0
	vpcmpeqb	%xmm5, %xmm1, %xmm1
	vpand	%xmm1, %xmm0, %xmm0
	vpmovmskb	%xmm0, %eax
	movzbl	%al, %ecx
	popcntl	%ecx, %edx
	shll	$4, %ecx
	leaq	.Lstatic.10(%rip), %rsi
	vpshufb	(%rcx,%rsi), %xmm3, %xmm0
	vmovdqa	%xmm0, 64(%rsp)
	vpunpckhbw	%xmm6, %xmm2, %xmm0
	shrl	$8, %eax
	popcntl	%eax, %r15d
	shll	$4, %eax
	vpshufb	(%rax,%rsi), %xmm0, %xmm0
	vmovdqu	%xmm0, 64(%rsp,%rdx,2)
	addl	%edx, %r15d
	addl	%r15d, %r15d
	movl	$16, %ebx
.LBB66_166:
	cmpq	%r9, %r15
	jbe	.LBB66_168
	movq	%r9, %rax
	andq	$-2, %rax
	orq	$1, %r9
	movzbl	64(%rsp,%r9), %ecx
	andb	$-4, %cl
	leaq	-2(%rax), %r15
	cmpb	$-36, %cl
	cmovneq	%rax, %r15
	leaq	64(%rsp), %rdi
	movq	%r15, %rsi
	vzeroupper
	callq	L_19
	movq	%rax, %rbx
.LBB66_168:
	movq	8(%rsp), %rax
	leaq	(%rax,%r14), %rdi
	leaq	64(%rsp), %rsi
	movq	%r15, %rdx
	vzeroupper
	callq	sysv_memcpy
	addq	%r14, %r15
	testq	%rbx, %rbx
	jne	.LBB66_32
	leaq	64(%rsp), %rdx
	movq	%r13, %rdi
	movq	%rbp, %rsi
	movq	8(%rsp), %rcx
	movq	(%rsp), %r8
	movq	%r15, %r9
	jmp	.LBB66_30
.LBB66_170:
	movb	$-112, %dil
	jmp	.LBB66_174
.LBB66_171:
	movb	$-97, %al
	jmp	.LBB66_173
.LBB66_172:
	movb	$-113, %al
.LBB66_173:
	movb	$-128, %dil
.LBB66_174:
	cmpb	$50, %sil
	ja	.LBB66_16
	cmpb	%dl, %dil
	ja	.LBB66_16
	cmpb	%al, %dl
	ja	.LBB66_16
	movl	$2, %eax
	cmpb	$-32, %cl
	jb	.LBB66_59
	cmpb	$-65, 2(%r13)
	jg	.LBB66_16
	movl	$3, %eax
	cmpb	$-16, %cl
	jb	.LBB66_59
	movl	$4, %eax
	cmpb	$-65, 3(%r13)
	jg	.LBB66_16
	jmp	.LBB66_59
.LBB66_181:
	movb	$-112, %r8b
	jmp	.LBB66_185
.LBB66_182:
	movb	$-97, %dil
	jmp	.LBB66_184
.LBB66_183:
	movb	$-113, %dil
.LBB66_184:
	movb	$-128, %r8b
.LBB66_185:
	cmpb	$50, %sil
	ja	.LBB66_16
	cmpb	%dl, %r8b
	ja	.LBB66_16
	cmpb	%dil, %dl
	ja	.LBB66_16
	cmpb	$-32, %cl
	jb	.LBB66_60
	cmpb	$-65, 2(%r13,%rax)
	jg	.LBB66_16
	cmpb	$-16, %cl
	jb	.LBB66_60
	cmpb	$-64, 3(%r13,%rax)
	jge	.LBB66_16
	jmp	.LBB66_60
.LBB66_192:
	movq	%rdx, %rbx
	subq	%r12, %rbx
	cmpq	$3, %rbx
	jb	.LBB66_196
	leal	31(%rcx), %eax
	cmpb	$11, %al
	ja	.LBB66_197
	cmpb	$-65, 1(%rsi,%r12)
	jg	.LBB66_197
	cmpb	$-64, 2(%rsi,%r12)
	jl	.LBB66_1
	jmp	.LBB66_197
.LBB66_196:
	cmpq	$2, %rbx
	jne	.LBB66_202
.LBB66_197:
	movzbl	1(%rsi,%r12), %ebp
	movl	%ecx, %eax
	shrb	$4, %al
	andb	$12, %al
	movl	%ebp, %r8d
	shrb	$6, %r8b
	orb	%al, %r8b
	movb	$1, %al
	cmpb	$14, %r8b
	jne	.LBB66_201
	leal	31(%rcx), %r8d
	cmpb	$12, %r8b
	jae	.LBB66_206
.LBB66_199:
	cmpq	$2, %rbx
	jne	.LBB66_210
.LBB66_200:
	movb	$2, %al
	xorl	%r8d, %r8d
	jmp	.LBB66_203
.LBB66_202:
	addb	$11, %cl
	cmpb	$-51, %cl
	setb	%r8b
	movb	$2, %al
	subb	%r8b, %al
	jmp	.LBB66_203
.LBB66_204:
	movq	%rdx, %r12
	jmp	.LBB66_2
.LBB66_205:
	movb	$3, %cl
	xorl	%eax, %eax
	jmp	.LBB66_229
.LBB66_206:
	leal	62(%rcx), %r11d
	cmpb	$30, %r11b
	jb	.LBB66_1
	movb	$-65, %r8b
	leal	-224(%rcx), %r9d
	cmpl	$20, %r9d
	ja	.LBB66_222
	leaq	.LJTI66_0(%rip), %r10
	movslq	(%r10,%r9,4), %r9
	addq	%r10, %r9
	jmpq	*%r9
.LBB66_209:
	movb	$-96, %r9b
	jmp	.LBB66_223
.LBB66_228:
	movb	$1, %al
	jmp	.LBB66_229
.LBB66_210:
	movb	$2, %r8b
	cmpb	$-65, 2(%rsi,%r12)
	jg	.LBB66_203
	cmpb	$-16, %cl
	jb	.LBB66_1
	cmpq	$4, %rbx
	jb	.LBB66_200
	movb	$3, %r8b
	cmpb	$-65, 3(%rsi,%r12)
	jle	.LBB66_1
	jmp	.LBB66_203
.LBB66_215:
	movb	$2, %cl
	xorl	%eax, %eax
	jmp	.LBB66_229
.LBB66_216:
	movb	$2, %al
	jmp	.LBB66_229
.LBB66_217:
	addb	$11, %al
	cmpb	$-51, %al
	setb	%al
	movb	$2, %cl
	subb	%al, %cl
	jmp	.LBB66_229
.LBB66_218:
	movb	$3, %al
.LBB66_229:
	movq	56(%rsp), %rdx
	movq	%rbx, (%rdx)
	movq	%r14, 8(%rdx)
	movb	%cl, 16(%rdx)
	movb	%al, 17(%rdx)
	jmp	.LBB66_230
.LBB66_219:
	movb	$-112, %r9b
	jmp	.LBB66_223
.LBB66_220:
	movb	$-97, %r8b
	jmp	.LBB66_222
.LBB66_221:
	movb	$-113, %r8b
.LBB66_222:
	movb	$-128, %r9b
.LBB66_223:
	cmpb	$51, %r11b
	setb	%r10b
	cmpb	%bpl, %r9b
	setbe	%r9b
	cmpb	%r8b, %bpl
	setbe	%r8b
	andb	%r9b, %r8b
	andb	%r10b, %r8b
	cmpb	$1, %r8b
	jne	.LBB66_201
	cmpb	$-32, %cl
	movq	(%rsp), %r10
	jb	.LBB66_1
	jmp	.LBB66_199
.LBB66_201:
	movb	$1, %r8b
.LBB66_203:
	movq	%r12, (%rdi)
	movq	%r14, 8(%rdi)
	movb	%al, 16(%rdi)
	movb	%r8b, 17(%rdi)
.LBB66_230:
	addq	$344, %rsp
	popq	%rbx
	popq	%r12
	popq	%r13
	popq	%r14
	popq	%r15
	popq	%rbp
	vzeroupper
	retq
.Lfunc_end66:
	.section	.rdata$080,"dr"
	.p2align	2, 0x0
.LJTI66_0:
	.long	.LBB66_209-.LJTI66_0
	.long	.LBB66_222-.LJTI66_0
	.long	.LBB66_222-.LJTI66_0
	.long	.LBB66_222-.LJTI66_0
	.long	.LBB66_222-.LJTI66_0
	.long	.LBB66_222-.LJTI66_0
	.long	.LBB66_222-.LJTI66_0
	.long	.LBB66_222-.LJTI66_0
	.long	.LBB66_222-.LJTI66_0
	.long	.LBB66_222-.LJTI66_0
	.long	.LBB66_222-.LJTI66_0
	.long	.LBB66_222-.LJTI66_0
	.long	.LBB66_222-.LJTI66_0
	.long	.LBB66_220-.LJTI66_0
	.long	.LBB66_222-.LJTI66_0
	.long	.LBB66_222-.LJTI66_0
	.long	.LBB66_219-.LJTI66_0
	.long	.LBB66_222-.LJTI66_0
	.long	.LBB66_222-.LJTI66_0
	.long	.LBB66_222-.LJTI66_0
	.long	.LBB66_221-.LJTI66_0
.LJTI66_1:
	.long	.LBB66_116-.LJTI66_1
	.long	.LBB66_173-.LJTI66_1
	.long	.LBB66_173-.LJTI66_1
	.long	.LBB66_173-.LJTI66_1
	.long	.LBB66_173-.LJTI66_1
	.long	.LBB66_173-.LJTI66_1
	.long	.LBB66_173-.LJTI66_1
	.long	.LBB66_173-.LJTI66_1
	.long	.LBB66_173-.LJTI66_1
	.long	.LBB66_173-.LJTI66_1
	.long	.LBB66_173-.LJTI66_1
	.long	.LBB66_173-.LJTI66_1
	.long	.LBB66_173-.LJTI66_1
	.long	.LBB66_171-.LJTI66_1
	.long	.LBB66_173-.LJTI66_1
	.long	.LBB66_173-.LJTI66_1
	.long	.LBB66_170-.LJTI66_1
	.long	.LBB66_173-.LJTI66_1
	.long	.LBB66_173-.LJTI66_1
	.long	.LBB66_173-.LJTI66_1
	.long	.LBB66_172-.LJTI66_1
.LJTI66_2:
	.long	.LBB66_107-.LJTI66_2
	.long	.LBB66_184-.LJTI66_2
	.long	.LBB66_184-.LJTI66_2
	.long	.LBB66_184-.LJTI66_2
	.long	.LBB66_184-.LJTI66_2
	.long	.LBB66_184-.LJTI66_2
	.long	.LBB66_184-.LJTI66_2
	.long	.LBB66_184-.LJTI66_2
	.long	.LBB66_184-.LJTI66_2
	.long	.LBB66_184-.LJTI66_2
	.long	.LBB66_184-.LJTI66_2
	.long	.LBB66_184-.LJTI66_2
	.long	.LBB66_184-.LJTI66_2
	.long	.LBB66_182-.LJTI66_2
	.long	.LBB66_184-.LJTI66_2
	.long	.LBB66_184-.LJTI66_2
	.long	.LBB66_181-.LJTI66_2
	.long	.LBB66_184-.LJTI66_2
	.long	.LBB66_184-.LJTI66_2
	.long	.LBB66_184-.LJTI66_2
	.long	.LBB66_183-.LJTI66_2
.LJTI66_3:
	.long	.LBB66_148-.LJTI66_3
	.long	.LBB66_155-.LJTI66_3
	.long	.LBB66_155-.LJTI66_3
	.long	.LBB66_155-.LJTI66_3
	.long	.LBB66_155-.LJTI66_3
	.long	.LBB66_155-.LJTI66_3
	.long	.LBB66_155-.LJTI66_3
	.long	.LBB66_155-.LJTI66_3
	.long	.LBB66_155-.LJTI66_3
	.long	.LBB66_155-.LJTI66_3
	.long	.LBB66_155-.LJTI66_3
	.long	.LBB66_155-.LJTI66_3
	.long	.LBB66_155-.LJTI66_3
	.long	.LBB66_153-.LJTI66_3
	.long	.LBB66_155-.LJTI66_3
	.long	.LBB66_155-.LJTI66_3
	.long	.LBB66_152-.LJTI66_3
	.long	.LBB66_155-.LJTI66_3
	.long	.LBB66_155-.LJTI66_3
	.long	.LBB66_155-.LJTI66_3
	.long	.LBB66_154-.LJTI66_3

	.section	.text$081,"xr"
	.p2align	4
L_67:
	pushq	%r15
	pushq	%r14
	pushq	%r13
	pushq	%r12
	pushq	%rbx
	movq	%r8, %r13
	movq	%rcx, %rbx
	movq	%rdx, %r14
	movq	%rsi, %r15
	movq	%rdi, %r12
	addq	%r8, %rdx
	subq	%r8, %rcx
	callq	L_59
	addq	%r13, %rdx
	jmp	.LBB67_1
	.p2align	4
.LBB67_34:
	leal	67043328(%rcx), %r8d
	shrl	$10, %r8d
	addl	$-10240, %r8d
	andl	$1023, %ecx
	orl	$56320, %ecx
	movw	%cx, 2(%r14,%rdx)
	movl	$4, %edi
	movl	%r8d, %ecx
.LBB67_35:
	movw	%cx, (%r14,%rdx)
	addq	%rdi, %rdx
	addq	%rsi, %rax
.LBB67_1:
	cmpq	%r15, %rax
	jae	.LBB67_36
	movzbl	(%r12,%rax), %ecx
	testb	%cl, %cl
	js	.LBB67_4
	movl	$1, %esi
.LBB67_31:
	movq	%rbx, %rdi
	subq	%rdx, %rdi
	xorl	%r8d, %r8d
	cmpl	$65536, %ecx
	setae	%r8b
	leaq	2(,%r8,2), %r8
	cmpq	%r8, %rdi
	jb	.LBB67_36
	cmpl	$65535, %ecx
	ja	.LBB67_34
	movl	$2, %edi
	jmp	.LBB67_35
	.p2align	4
.LBB67_4:
	movq	%r15, %rdi
	subq	%rax, %rdi
	cmpq	$3, %rdi
	jb	.LBB67_9
	leal	31(%rcx), %esi
	cmpb	$11, %sil
	ja	.LBB67_10
	movzbl	1(%r12,%rax), %esi
	cmpb	$-65, %sil
	jg	.LBB67_10
	movzbl	2(%r12,%rax), %r8d
	cmpb	$-65, %r8b
	jg	.LBB67_10
	jmp	.LBB67_8
.LBB67_9:
	cmpq	$2, %rdi
	jne	.LBB67_36
.LBB67_10:
	movzbl	1(%r12,%rax), %esi
	movl	%ecx, %r8d
	shrb	$4, %r8b
	andb	$12, %r8b
	movl	%esi, %r9d
	shrb	$6, %r9b
	orb	%r8b, %r9b
	cmpb	$14, %r9b
	jne	.LBB67_36
	leal	31(%rcx), %r8d
	cmpb	$12, %r8b
	jae	.LBB67_12
.LBB67_25:
	cmpq	$2, %rdi
	je	.LBB67_36
	movzbl	2(%r12,%rax), %r8d
	cmpb	$-65, %r8b
	jg	.LBB67_36
	cmpb	$-17, %cl
	ja	.LBB67_28
.LBB67_8:
	shll	$12, %ecx
	shll	$6, %esi
	addl	%ecx, %esi
	leal	(%r8,%rsi), %ecx
	addl	$-925824, %ecx
	movl	$3, %esi
	jmp	.LBB67_31
.LBB67_12:
	leal	62(%rcx), %r8d
	cmpb	$30, %r8b
	jb	.LBB67_24
	movb	$-65, %r9b
	leal	-224(%rcx), %r10d
	cmpl	$20, %r10d
	ja	.LBB67_19
	leaq	.LJTI67_0(%rip), %r11
	movslq	(%r11,%r10,4), %r10
	addq	%r11, %r10
	jmpq	*%r10
.LBB67_15:
	movb	$-96, %r10b
	jmp	.LBB67_20
.LBB67_28:
	cmpq	$4, %rdi
	jb	.LBB67_36
	movzbl	3(%r12,%rax), %edi
	cmpb	$-65, %dil
	jg	.LBB67_36
	shll	$18, %ecx
	shll	$12, %esi
	addl	%ecx, %esi
	shll	$6, %r8d
	addl	%esi, %r8d
	leal	(%rdi,%r8), %ecx
	addl	$-63447168, %ecx
	movl	$4, %esi
	jmp	.LBB67_31
.LBB67_17:
	movb	$-112, %r10b
	jmp	.LBB67_20
.LBB67_16:
	movb	$-97, %r9b
	jmp	.LBB67_19
.LBB67_18:
	movb	$-113, %r9b
.LBB67_19:
	movb	$-128, %r10b
.LBB67_20:
	cmpb	$50, %r8b
	ja	.LBB67_36
	cmpb	%sil, %r10b
	ja	.LBB67_36
	cmpb	%r9b, %sil
	ja	.LBB67_36
	cmpb	$-33, %cl
	ja	.LBB67_25
.LBB67_24:
	shll	$6, %ecx
	addl	%esi, %ecx
	addl	$-12416, %ecx
	movl	$2, %esi
	jmp	.LBB67_31
.LBB67_36:
	popq	%rbx
	popq	%r12
	popq	%r13
	popq	%r14
	popq	%r15
	retq
.Lfunc_end67:
	.section	.rdata$082,"dr"
	.p2align	2, 0x0
.LJTI67_0:
	.long	.LBB67_15-.LJTI67_0
	.long	.LBB67_19-.LJTI67_0
	.long	.LBB67_19-.LJTI67_0
	.long	.LBB67_19-.LJTI67_0
	.long	.LBB67_19-.LJTI67_0
	.long	.LBB67_19-.LJTI67_0
	.long	.LBB67_19-.LJTI67_0
	.long	.LBB67_19-.LJTI67_0
	.long	.LBB67_19-.LJTI67_0
	.long	.LBB67_19-.LJTI67_0
	.long	.LBB67_19-.LJTI67_0
	.long	.LBB67_19-.LJTI67_0
	.long	.LBB67_19-.LJTI67_0
	.long	.LBB67_16-.LJTI67_0
	.long	.LBB67_19-.LJTI67_0
	.long	.LBB67_19-.LJTI67_0
	.long	.LBB67_17-.LJTI67_0
	.long	.LBB67_19-.LJTI67_0
	.long	.LBB67_19-.LJTI67_0
	.long	.LBB67_19-.LJTI67_0
	.long	.LBB67_18-.LJTI67_0

	.section	.rdata$000,"dr"
	.p2align	4, 0x0
.LCPI68_0:
	.zero	16,192
.LCPI68_1:
	.zero	16,191
.LCPI68_2:
	.zero	16,224
.LCPI68_3:
	.zero	16,15
.LCPI68_4:
	.zero	16,220
.LCPI68_5:
	.zero	16,252
.LCPI68_6:
	.zero	16,3
.LCPI68_7:
	.zero	16,63
.LCPI68_8:
	.zero	16,232
.LCPI68_9:
	.zero	16,239
.LCPI68_10:
	.zero	16,127
.LCPI68_11:
	.zero	16,223
	.section	.rdata$001,"dr"
	.p2align	2, 0x0
.LCPI68_12:
	.zero	4,192
.LCPI68_13:
	.zero	4,191
.LCPI68_14:
	.zero	4,15
	.section	.text$083,"xr"
	.p2align	4
L_68:
	pushq	%rbp
	pushq	%r15
	pushq	%r14
	pushq	%r13
	pushq	%r12
	pushq	%rbx
	subq	$56, %rsp
	movq	%r9, %rbx
	movq	%r8, %r13
	movq	%rcx, 8(%rsp)
	movq	%rdx, %r14
	movq	%rdi, %r15
	cmpq	$64, %rsi
	movl	$64, %r12d
	cmovbq	%rsi, %r12
	vpxor	%xmm0, %xmm0, %xmm0
	jae	.LBB68_3
	vmovdqu	%ymm0, 16(%rsp)
	leaq	16(%rsp), %rdi
	movq	%r15, %rsi
	movq	%r12, %rdx
	vzeroupper
	callq	L_1
	cmpb	$0, 16(%rsp)
	je	.LBB68_21
	movq	24(%rsp), %rax
	jmp	.LBB68_7
.LBB68_3:
	vmovdqu	%ymm0, 16(%rsp)
	leaq	16(%rsp), %rdi
	movl	$63, %ebp
	movl	$63, %edx
	movq	%r15, %rsi
	vzeroupper
	callq	L_1
	cmpb	$0, 16(%rsp)
	movq	24(%rsp), %rax
	cmovneq	%rax, %rbp
	leaq	4(%rbp), %rcx
	cmpq	$64, %rcx
	jb	.LBB68_7
	leaq	(%r15,%rbp), %rsi
	subq	%rbp, %r12
	vpxor	%xmm0, %xmm0, %xmm0
	vmovdqu	%ymm0, 16(%rsp)
	leaq	16(%rsp), %rdi
	movq	%r12, %rdx
	vzeroupper
	callq	L_1
	cmpb	$0, 16(%rsp)
	je	.LBB68_6
	movq	24(%rsp), %r12
.LBB68_6:
	addq	%rbp, %r12
	movq	%r12, %rax
.LBB68_7:
	cmpq	$7, %rax
	ja	.LBB68_20
	testq	%rax, %rax
	je	.LBB68_29
	xorl	%ebp, %ebp
	movq	%rax, %rcx
	jmp	.LBB68_10
.LBB68_20:
	movq	%rax, %r12
.LBB68_21:
	cmpq	$16, %r12
	ja	.LBB68_24
	vmovq	-8(%r15,%r12), %xmm0
	vmovq	(%r15), %xmm1
	vpunpcklqdq	%xmm0, %xmm1, %xmm0
	movq	%r12, %rax
	shlq	$4, %rax
	leaq	.Lstatic.1(%rip), %rcx
	vpshufb	-128(%rax,%rcx), %xmm0, %xmm0
	vpmovmskb	%xmm0, %eax
	testl	%eax, %eax
	je	.LBB68_33
	leaq	.Lstatic.2(%rip), %rax
	subq	%r12, %rax
	vpmaxub	16(%rax), %xmm0, %xmm1
	vpslldq	$1, %xmm1, %xmm0
	vpbroadcastd	.LCPI68_12(%rip), %xmm3
	vpblendvb	%xmm1, %xmm0, %xmm3, %xmm4
	vpslldq	$2, %xmm1, %xmm5
	vpbroadcastd	.LCPI68_13(%rip), %xmm2
	vpmaxub	.LCPI68_2(%rip), %xmm5, %xmm6
	vpsrlw	$2, %xmm4, %xmm7
	vpbroadcastd	.LCPI68_14(%rip), %xmm8
	vpand	%xmm7, %xmm8, %xmm7
	vpsllw	$4, %xmm6, %xmm6
	vpandn	%xmm6, %xmm8, %xmm6
	vpor	%xmm6, %xmm7, %xmm6
	vpmaxub	%xmm5, %xmm4, %xmm7
	vpminub	%xmm2, %xmm7, %xmm8
	vpcmpeqb	%xmm7, %xmm8, %xmm7
	vpand	.LCPI68_4(%rip), %xmm7, %xmm7
	vpor	%xmm7, %xmm6, %xmm6
	vpsllw	$2, %xmm0, %xmm7
	vpand	.LCPI68_5(%rip), %xmm7, %xmm7
	vpsrlw	$4, %xmm1, %xmm8
	vpand	.LCPI68_6(%rip), %xmm8, %xmm8
	vpminub	.LCPI68_7(%rip), %xmm7, %xmm9
	vpcmpeqb	%xmm7, %xmm9, %xmm9
	vpaddb	%xmm5, %xmm9, %xmm9
	vpaddb	.LCPI68_8(%rip), %xmm9, %xmm9
	vpor	%xmm7, %xmm8, %xmm7
	vpminub	.LCPI68_9(%rip), %xmm5, %xmm8
	vpcmpeqb	%xmm5, %xmm8, %xmm5
	vpblendvb	%xmm5, %xmm6, %xmm9, %xmm6
	vpand	.LCPI68_10(%rip), %xmm1, %xmm8
	vpaddb	%xmm3, %xmm7, %xmm7
	vpsllw	$6, %xmm4, %xmm4
	vpand	%xmm3, %xmm4, %xmm3
	vpaddb	%xmm3, %xmm8, %xmm3
	vpblendvb	%xmm5, %xmm3, %xmm7, %xmm3
	vpunpcklbw	%xmm6, %xmm3, %xmm4
	vpminub	%xmm2, %xmm1, %xmm2
	vpcmpeqb	%xmm2, %xmm1, %xmm1
	vpminub	.LCPI68_11(%rip), %xmm0, %xmm2
	vpcmpeqb	%xmm2, %xmm0, %xmm0
	vpand	%xmm0, %xmm1, %xmm0
	vpmovmskb	%xmm0, %eax
	movzbl	%al, %ecx
	xorl	%edx, %edx
	popcntl	%ecx, %edx
	shll	$4, %ecx
	leaq	.Lstatic.10(%rip), %rsi
	vpshufb	(%rcx,%rsi), %xmm4, %xmm0
	vpunpckhbw	%xmm6, %xmm3, %xmm1
	vmovdqu	%xmm0, (%r14)
	shrl	$8, %eax
	popcntl	%eax, %ebp
	shll	$4, %eax
	vpshufb	(%rax,%rsi), %xmm1, %xmm0
	vmovdqu	%xmm0, (%r14,%rdx,2)
	addl	%edx, %ebp
	addl	%ebp, %ebp
	jmp	.LBB68_34
.LBB68_18:
	addl	$67043328, %edx
	shrl	$10, %edx
	addl	$-10240, %edx
	movw	%dx, (%r8)
	orl	$56320, %edi
	movw	%di, 2(%r8)
	movl	$4, %edx
	addq	%rdx, %rbp
	testq	%rcx, %rcx
	je	.LBB68_19
	.p2align	4
.LBB68_10:
	movzbl	(%r15), %edx
	movl	$1, %edi
	testb	%dl, %dl
	jns	.LBB68_15
	movzbl	1(%r15), %esi
	andl	$63, %esi
	cmpb	$-33, %dl
	ja	.LBB68_13
	andl	$31, %edx
	shll	$6, %edx
	orl	%esi, %edx
	movl	$2, %edi
	jmp	.LBB68_15
.LBB68_13:
	movzbl	2(%r15), %edi
	andl	$63, %edi
	cmpb	$-17, %dl
	ja	.LBB68_17
	shll	$12, %edx
	movzwl	%dx, %edx
	shll	$6, %esi
	orl	%edx, %esi
	orl	%edi, %esi
	movl	$3, %edi
	movl	%esi, %edx
	.p2align	4
.LBB68_15:
	addq	%rdi, %r15
	subq	%rdi, %rcx
	leaq	(%r14,%rbp), %r8
.LBB68_16:
	movw	%dx, (%r8)
	movl	$2, %edx
	addq	%rdx, %rbp
	testq	%rcx, %rcx
	jne	.LBB68_10
	jmp	.LBB68_19
.LBB68_17:
	movzbl	3(%r15), %r8d
	andl	$63, %r8d
	andl	$7, %edx
	shll	$18, %edx
	shll	$12, %esi
	orl	%edx, %esi
	shll	$6, %edi
	orl	%r8d, %edi
	leal	(%rdi,%rsi), %edx
	addq	$4, %r15
	addq	$-4, %rcx
	leaq	(%r14,%rbp), %r8
	cmpl	$65535, %esi
	jbe	.LBB68_16
	jmp	.LBB68_18
.LBB68_24:
	leaq	16(,%r12,2), %rcx
	movq	%rcx, %rsi
	shrq	%rsi
	cmpq	%r12, %rsi
	cmovaeq	%r12, %rsi
	cmpq	$32, %rcx
	jb	.LBB68_26
	vmovdqu	(%r15), %xmm0
	vpmovmskb	%xmm0, %eax
	testl	%eax, %eax
	je	.LBB68_44
.LBB68_26:
	xorl	%ebp, %ebp
	xorl	%r8d, %r8d
.LBB68_27:
	movq	%r12, %rax
	subq	%r8, %rax
	cmpq	$191, %rax
	ja	.LBB68_30
	movq	%r15, %rdi
	movq	%r12, %rsi
	movq	%r14, %rdx
	movq	%rbp, %r9
	vzeroupper
	callq	L_60
	movq	%rdx, %rbp
	jmp	.LBB68_34
.LBB68_19:
	movq	%rax, %r12
	jmp	.LBB68_34
.LBB68_29:
	movq	8(%rsp), %rdi
	addq	%rbx, %rdi
	xorl	%ebp, %ebp
	xorl	%r12d, %r12d
	jmp	.LBB68_39
.LBB68_30:
	movq	%rbx, 48(%rsp)
	movq	%r15, %rdi
	movq	%r12, %rsi
	movq	%r14, %rdx
	movq	%rcx, %rbx
	movq	%rbp, %r9
	vzeroupper
	callq	L_61
	movq	%rdx, %rbp
	movq	%r12, %rcx
	subq	%rax, %rcx
	cmpq	$191, %rcx
	ja	.LBB68_32
	movq	%r15, %rdi
	movq	%r12, %rsi
	movq	%r14, %rdx
	movq	%rbx, %rcx
	movq	%rax, %r8
	movq	%rbp, %r9
	callq	L_60
	movq	%rdx, %rbp
.LBB68_32:
	movq	48(%rsp), %rbx
	jmp	.LBB68_34
.LBB68_33:
	leaq	(%r12,%r12), %rbp
	vpmovzxbw	%xmm0, %ymm0
	vmovdqu	%ymm0, (%r14)
.LBB68_34:
	movq	8(%rsp), %r15
	subq	%rbx, %r13
	cmpq	%r13, %rbp
	jbe	.LBB68_36
	movq	%r13, %rax
	andq	$-2, %rax
	orq	$1, %r13
	movzbl	(%r14,%r13), %ecx
	andb	$-4, %cl
	leaq	-2(%rax), %rbp
	cmpb	$-36, %cl
	cmovneq	%rax, %rbp
	movq	%r14, %rdi
	movq	%rbp, %rsi
	vzeroupper
	callq	L_19
	movq	%rax, %r12
.LBB68_36:
	leaq	(%r15,%rbx), %rdi
	movq	%rdi, %rax
	subq	%r14, %rax
	cmpq	%rbp, %rax
	jae	.LBB68_39
	cmpq	$8, %rbp
	jb	.LBB68_38
	leaq	(%r15,%rbx), %rax
	subq	%r14, %rax
	cmpq	$128, %rax
	jae	.LBB68_42
.LBB68_38:
	xorl	%eax, %eax
.LBB68_54:
	movq	%rbp, %rdx
	movq	%rax, %rcx
	andq	$7, %rdx
	je	.LBB68_57
	movq	%rax, %rcx
	.p2align	4
.LBB68_56:
	movzbl	(%r14,%rcx), %esi
	movb	%sil, (%rdi,%rcx)
	incq	%rcx
	decq	%rdx
	jne	.LBB68_56
.LBB68_57:
	subq	%rbp, %rax
	cmpq	$-8, %rax
	ja	.LBB68_60
	leaq	(%rbx,%r15), %rax
	addq	$7, %rax
	.p2align	4
.LBB68_59:
	movzbl	(%r14,%rcx), %edx
	movb	%dl, -7(%rax,%rcx)
	movzbl	1(%r14,%rcx), %edx
	movb	%dl, -6(%rax,%rcx)
	movzbl	2(%r14,%rcx), %edx
	movb	%dl, -5(%rax,%rcx)
	movzbl	3(%r14,%rcx), %edx
	movb	%dl, -4(%rax,%rcx)
	movzbl	4(%r14,%rcx), %edx
	movb	%dl, -3(%rax,%rcx)
	movzbl	5(%r14,%rcx), %edx
	movb	%dl, -2(%rax,%rcx)
	movzbl	6(%r14,%rcx), %edx
	movb	%dl, -1(%rax,%rcx)
	movzbl	7(%r14,%rcx), %edx
	movb	%dl, (%rax,%rcx)
	addq	$8, %rcx
	cmpq	%rcx, %rbp
	jne	.LBB68_59
	jmp	.LBB68_60
.LBB68_39:
	movq	%r14, %rsi
	movq	%rbp, %rdx
	vzeroupper
	callq	sysv_memmove
.LBB68_60:
	addq	%rbx, %rbp
	movq	%r12, %rax
	movq	%rbp, %rdx
	addq	$56, %rsp
	popq	%rbx
	popq	%r12
	popq	%r13
	popq	%r14
	popq	%r15
	popq	%rbp
	vzeroupper
	retq
.LBB68_42:
	cmpq	$128, %rbp
	jae	.LBB68_47
	xorl	%eax, %eax
	jmp	.LBB68_51
.LBB68_44:
	cmpq	$31, %rsi
	ja	.LBB68_61
	vpmovzxbw	%xmm0, %ymm0
	vmovdqu	%ymm0, (%r14)
	vmovdqu	-16(%rsi,%r15), %xmm0
	vpmovmskb	%xmm0, %eax
	movl	$16, %r8d
	testl	%eax, %eax
	je	.LBB68_62
	leaq	(%r8,%r8), %rbp
	cmpq	%r12, %r8
	jne	.LBB68_27
	jmp	.LBB68_34
.LBB68_47:
	movq	%rbp, %rax
	andq	$-128, %rax
	leaq	(%rbx,%r15), %rcx
	addq	$96, %rcx
	xorl	%edx, %edx
	.p2align	4
.LBB68_48:
	vmovdqu	(%r14,%rdx), %ymm0
	vmovdqu	32(%r14,%rdx), %ymm1
	vmovdqu	64(%r14,%rdx), %ymm2
	vmovdqu	96(%r14,%rdx), %ymm3
	vmovdqu	%ymm0, -96(%rcx,%rdx)
	vmovdqu	%ymm1, -64(%rcx,%rdx)
	vmovdqu	%ymm2, -32(%rcx,%rdx)
	vmovdqu	%ymm3, (%rcx,%rdx)
	subq	$-128, %rdx
	cmpq	%rdx, %rax
	jne	.LBB68_48
	cmpq	%rax, %rbp
	je	.LBB68_60
	testb	$120, %bpl
	je	.LBB68_54
.LBB68_51:
	movq	%rax, %rcx
	movq	%rbp, %rax
	andq	$-8, %rax
	.p2align	4
.LBB68_52:
	movq	(%r14,%rcx), %rdx
	movq	%rdx, (%rdi,%rcx)
	addq	$8, %rcx
	cmpq	%rcx, %rax
	jne	.LBB68_52
	cmpq	%rax, %rbp
	je	.LBB68_60
	jmp	.LBB68_54
.LBB68_61:
	movq	%r15, %rdi
	movq	%r14, %rdx
	movq	%rbx, %rbp
	movq	%rcx, %rbx
	callq	L_62
	movq	%rbx, %rcx
	movq	%rbp, %rbx
	movq	%rax, %r8
	leaq	(%r8,%r8), %rbp
	cmpq	%r12, %r8
	jne	.LBB68_27
	jmp	.LBB68_34
.LBB68_62:
	vpmovzxbw	%xmm0, %ymm0
	vmovdqu	%ymm0, -32(%r14,%rsi,2)
	movq	%rsi, %r8
	leaq	(%r8,%r8), %rbp
	cmpq	%r12, %r8
	jne	.LBB68_27
	jmp	.LBB68_34
.Lfunc_end68:

	.section	.text$084,"xr"
	.p2align	4
L_69:
	pushq	%rbp
	pushq	%r15
	pushq	%r14
	pushq	%r13
	pushq	%r12
	pushq	%rbx
	subq	$40, %rsp
	movq	%r8, %r13
	movq	%rsi, %r12
	movw	$-3, (%rcx)
	addq	%rdx, %rdi
	movq	%rdx, 24(%rsp)
	subq	%rdx, %r12
	addq	$2, %rcx
	addq	$-2, %r13
	movq	%rdi, (%rsp)
	movq	%r12, %rsi
	movq	%rcx, 16(%rsp)
	movq	%rcx, %rdx
	movq	%r13, %rcx
	callq	L_70
	movq	%rax, %r14
	movq	%rdx, %r15
	movq	%r12, 8(%rsp)
	subq	%rax, %r12
	cmpq	$64, %r12
	jb	.LBB69_13
	movq	%r13, 32(%rsp)
	.p2align	4
.LBB69_2:
	subq	%r15, %r13
	cmpq	$128, %r13
	jb	.LBB69_13
	movq	(%rsp), %rcx
	leaq	(%rcx,%r14), %rdi
	movq	16(%rsp), %rax
	leaq	(%rax,%r15), %rdx
	vmovdqu	(%rcx,%r14), %xmm0
	vpmovmskb	%xmm0, %eax
	testl	%eax, %eax
	je	.LBB69_5
	xorl	%ebx, %ebx
	jmp	.LBB69_6
	.p2align	4
.LBB69_5:
	movq	%r13, %rsi
	shrq	%rsi
	cmpq	%r12, %rsi
	cmovaeq	%r12, %rsi
	movq	%rdi, %rbp
	movq	%rdx, %rbx
	callq	L_62
	movq	%rbp, %rdi
	movq	%rbx, %rdx
	movq	%rax, %rbx
.LBB69_6:
	leaq	(%rbx,%rbx), %rbp
	movq	%r12, %rax
	subq	%rbx, %rax
	cmpq	$64, %rax
	jb	.LBB69_9
	movq	%r13, %rax
	subq	%rbp, %rax
	cmpq	$128, %rax
	jb	.LBB69_9
	movq	%r12, %rsi
	movq	%r13, %rcx
	movq	%rbx, %r8
	movq	%rbp, %r9
	callq	L_61
	movq	%rax, %rbx
	movq	%rdx, %rbp
.LBB69_9:
	addq	%r14, %rbx
	addq	%r15, %rbp
	movq	8(%rsp), %rsi
	subq	%rbx, %rsi
	cmpq	$4, %rsi
	movq	32(%rsp), %r13
	jb	.LBB69_10
	movq	%r13, %rcx
	subq	%rbp, %rcx
	cmpq	$4, %rcx
	jb	.LBB69_10
	movq	(%rsp), %rax
	leaq	(%rax,%rbx), %rdi
	movq	16(%rsp), %rax
	leaq	(%rax,%rbp), %rdx
	callq	L_70
	movq	%rax, %r14
	movq	%rdx, %r15
	addq	%rbx, %r14
	addq	%rbp, %r15
	movq	8(%rsp), %r12
	subq	%r14, %r12
	cmpq	$63, %r12
	ja	.LBB69_2
	jmp	.LBB69_13
.LBB69_10:
	movq	%rbp, %r15
	movq	%rbx, %r14
.LBB69_13:
	addq	24(%rsp), %r14
	addq	$2, %r15
	movq	%r14, %rax
	movq	%r15, %rdx
	addq	$40, %rsp
	popq	%rbx
	popq	%r12
	popq	%r13
	popq	%r14
	popq	%r15
	popq	%rbp
	retq
.Lfunc_end69:

	.section	.rdata$000,"dr"
	.p2align	4, 0x0
.LCPI70_0:
	.zero	16,127
	.section	.text$085,"xr"
	.p2align	4
L_70:
	pushq	%rbp
	pushq	%r15
	pushq	%r14
	pushq	%r12
	pushq	%rbx
	movq	%rdx, %r8
	xorl	%eax, %eax
	xorl	%edx, %edx
	xorl	%r9d, %r9d
	.p2align	4
.LBB70_4:
	movq	%rsi, %r10
	subq	%rax, %r10
	cmpq	$4, %r10
	jb	.LBB70_41
	movq	%rcx, %r11
	subq	%rdx, %r11
	cmpq	$4, %r11
	jb	.LBB70_41
	cmpq	$32, %r11
	jb	.LBB70_10
	cmpq	$15, %r10
	jbe	.LBB70_10
	vmovdqu	(%rdi,%rax), %xmm0
	vpmovmskb	%xmm0, %r10d
	orl	$65536, %r10d
	tzcntl	%r10d, %r10d
	cmpw	$4, %r10w
	jae	.LBB70_15
	vmovd	%xmm0, %r10d
	testb	%r10b, %r10b
	jns	.LBB70_1
.LBB70_11:
	cmpb	$-31, %r10b
	jae	.LBB70_17
	movzbl	1(%rdi,%rax), %r11d
	movl	%r10d, %ebx
	shrb	$4, %bl
	andb	$12, %bl
	movl	%r11d, %ebp
	shrb	$6, %bpl
	orb	%bl, %bpl
	cmpb	$14, %bpl
	jne	.LBB70_26
	leal	62(%r10), %ebp
	cmpb	$30, %bpl
	jae	.LBB70_23
.LBB70_14:
	movzbl	%r10b, %r10d
	shll	$6, %r10d
	movzbl	%r11b, %r11d
	leal	(%r10,%r11), %r14d
	addl	$-12416, %r14d
	movl	$2, %ebx
	jmp	.LBB70_3
	.p2align	4
.LBB70_10:
	movzbl	(%rdi,%rax), %r10d
	testb	%r10b, %r10b
	js	.LBB70_11
.LBB70_1:
	movzbl	%r10b, %r14d
	jmp	.LBB70_2
	.p2align	4
.LBB70_15:
	movzwl	%r10w, %ebx
	vpand	.LCPI70_0(%rip), %xmm0, %xmm0
	vpmovzxbw	%xmm0, %ymm0
	vmovdqu	%ymm0, (%r8,%rdx)
	movl	%ebx, %r11d
	addl	%r11d, %r11d
	movl	$2, %r10d
.LBB70_16:
	addq	%r11, %rdx
	addq	%r9, %r10
	addq	%rbx, %rax
	movq	%r10, %r9
	cmpq	$16, %r10
	jb	.LBB70_4
	jmp	.LBB70_41
.LBB70_17:
	movzbl	1(%rdi,%rax), %r11d
	cmpb	$-20, %r10b
	ja	.LBB70_21
	cmpb	$-65, %r11b
	jg	.LBB70_26
	movzbl	2(%rdi,%rax), %ebx
	cmpb	$-65, %bl
	jg	.LBB70_34
	movzbl	%r11b, %r11d
	movzbl	%r10b, %r10d
	shll	$12, %r10d
	shll	$6, %r11d
	addl	%r10d, %r11d
	leal	(%rbx,%r11), %r14d
	addl	$-925824, %r14d
	jmp	.LBB70_37
.LBB70_21:
	cmpb	$-65, %r11b
	jg	.LBB70_26
	leal	62(%r10), %ebp
.LBB70_23:
	movzbl	%r10b, %ebx
	movb	$-65, %r15b
	addl	$-224, %ebx
	cmpl	$20, %ebx
	ja	.LBB70_30
	leaq	.LJTI70_0(%rip), %r14
	movslq	(%r14,%rbx,4), %rbx
	addq	%r14, %rbx
	jmpq	*%rbx
.LBB70_25:
	movb	$-96, %r12b
	jmp	.LBB70_31
.LBB70_26:
	movl	$65533, %r14d
.LBB70_2:
	movl	$1, %ebx
.LBB70_3:
	movw	%r14w, (%r8,%rdx)
	addq	$2, %rdx
	incq	%r9
	xorl	%r10d, %r10d
	cmpl	$65533, %r14d
	cmovneq	%r9, %r10
	addq	%rbx, %rax
	movq	%r10, %r9
	cmpq	$16, %r10
	jb	.LBB70_4
	jmp	.LBB70_41
.LBB70_27:
	movb	$-112, %r12b
	jmp	.LBB70_31
.LBB70_28:
	movb	$-97, %r15b
	jmp	.LBB70_30
.LBB70_29:
	movb	$-113, %r15b
.LBB70_30:
	movb	$-128, %r12b
.LBB70_31:
	movl	$65533, %r14d
	movl	$1, %ebx
	cmpb	$50, %bpl
	ja	.LBB70_3
	cmpb	%r11b, %r12b
	setbe	%bpl
	cmpb	%r15b, %r11b
	setbe	%r15b
	andb	%bpl, %r15b
	cmpb	$1, %r15b
	jne	.LBB70_3
	cmpb	$-33, %r10b
	jbe	.LBB70_14
.LBB70_34:
	movzbl	2(%rdi,%rax), %r15d
	movl	$65533, %r14d
	movl	$2, %ebx
	cmpb	$-65, %r15b
	jg	.LBB70_3
	cmpb	$-17, %r10b
	ja	.LBB70_38
	movzbl	%r10b, %r10d
	shll	$12, %r10d
	movzbl	%r11b, %r11d
	shll	$6, %r11d
	addl	%r10d, %r11d
	leal	(%r15,%r11), %r14d
	addl	$-925824, %r14d
.LBB70_37:
	movl	$3, %ebx
	jmp	.LBB70_3
.LBB70_38:
	movzbl	3(%rdi,%rax), %r12d
	movl	$3, %ebx
	cmpb	$-65, %r12b
	jg	.LBB70_3
	movzbl	%r10b, %r10d
	shll	$18, %r10d
	movzbl	%r11b, %r11d
	shll	$12, %r11d
	addl	%r10d, %r11d
	shll	$6, %r15d
	addl	%r11d, %r15d
	leal	(%r12,%r15), %r14d
	addl	$-63447168, %r14d
	movl	$4, %ebx
	cmpl	$65536, %r14d
	jb	.LBB70_3
	leal	67043328(%r14), %r10d
	shrl	$10, %r10d
	addl	$-10240, %r10d
	movw	%r10w, (%r8,%rdx)
	andl	$1023, %r14d
	orl	$56320, %r14d
	movw	%r14w, 2(%r8,%rdx)
	movl	$1, %r10d
	movl	$4, %r11d
	jmp	.LBB70_16
.LBB70_41:
	popq	%rbx
	popq	%r12
	popq	%r14
	popq	%r15
	popq	%rbp
	vzeroupper
	retq
.Lfunc_end70:
	.section	.rdata$086,"dr"
	.p2align	2, 0x0
.LJTI70_0:
	.long	.LBB70_25-.LJTI70_0
	.long	.LBB70_30-.LJTI70_0
	.long	.LBB70_30-.LJTI70_0
	.long	.LBB70_30-.LJTI70_0
	.long	.LBB70_30-.LJTI70_0
	.long	.LBB70_30-.LJTI70_0
	.long	.LBB70_30-.LJTI70_0
	.long	.LBB70_30-.LJTI70_0
	.long	.LBB70_30-.LJTI70_0
	.long	.LBB70_30-.LJTI70_0
	.long	.LBB70_30-.LJTI70_0
	.long	.LBB70_30-.LJTI70_0
	.long	.LBB70_30-.LJTI70_0
	.long	.LBB70_28-.LJTI70_0
	.long	.LBB70_30-.LJTI70_0
	.long	.LBB70_30-.LJTI70_0
	.long	.LBB70_27-.LJTI70_0
	.long	.LBB70_30-.LJTI70_0
	.long	.LBB70_30-.LJTI70_0
	.long	.LBB70_30-.LJTI70_0
	.long	.LBB70_29-.LJTI70_0

	.section	.rdata$001,"dr"
	.p2align	2, 0x0
.LCPI71_0:
	.long	65535
.LCPI71_4:
	.long	65536
.LCPI71_9:
	.long	1114112
.LCPI71_10:
	.long	4294965248
.LCPI71_11:
	.long	55296
.LCPI71_12:
	.long	4294901760
.LCPI71_13:
	.long	67043328
.LCPI71_14:
	.long	3691042816
.LCPI71_15:
	.long	65537
.LCPI71_16:
	.long	1
.LCPI71_17:
	.short	10240
	.short	10240
	.section	.rdata$003,"dr"
	.p2align	5, 0x0
.LCPI71_1:
	.short	10240
	.short	10240
	.short	10240
	.short	10240
	.short	10240
	.short	10240
	.short	10240
	.short	10240
	.short	10240
	.short	10240
	.short	10240
	.short	10240
	.short	10240
	.short	10240
	.short	10240
	.short	10240
.LCPI71_2:
	.short	2047
	.short	2047
	.short	2047
	.short	2047
	.short	2047
	.short	2047
	.short	2047
	.short	2047
	.short	2047
	.short	2047
	.short	2047
	.short	2047
	.short	2047
	.short	2047
	.short	2047
	.short	2047
.LCPI71_3:
	.byte	1
	.byte	0
	.byte	3
	.byte	2
	.byte	5
	.byte	4
	.byte	7
	.byte	6
	.byte	9
	.byte	8
	.byte	11
	.byte	10
	.byte	13
	.byte	12
	.byte	15
	.byte	14
	.byte	1
	.byte	0
	.byte	3
	.byte	2
	.byte	5
	.byte	4
	.byte	7
	.byte	6
	.byte	9
	.byte	8
	.byte	11
	.byte	10
	.byte	13
	.byte	12
	.byte	15
	.byte	14
.LCPI71_8:
	.short	255
	.short	255
	.short	255
	.short	255
	.short	255
	.short	255
	.short	255
	.short	255
	.short	255
	.short	255
	.short	255
	.short	255
	.short	255
	.short	255
	.short	255
	.short	255
	.section	.rdata$000,"dr"
	.p2align	4, 0x0
.LCPI71_5:
	.byte	1
	.byte	0
	.byte	3
	.byte	2
	.byte	5
	.byte	4
	.byte	7
	.byte	6
	.byte	9
	.byte	8
	.byte	11
	.byte	10
	.byte	13
	.byte	12
	.byte	15
	.byte	14
.LCPI71_6:
	.byte	248
	.byte	248
	.byte	248
	.byte	248
	.byte	248
	.byte	248
	.byte	248
	.byte	248
	.zero	1
	.zero	1
	.zero	1
	.zero	1
	.zero	1
	.zero	1
	.zero	1
	.zero	1
.LCPI71_7:
	.byte	216
	.byte	216
	.byte	216
	.byte	216
	.byte	216
	.byte	216
	.byte	216
	.byte	216
	.zero	1
	.zero	1
	.zero	1
	.zero	1
	.zero	1
	.zero	1
	.zero	1
	.zero	1
	.section	.text$087,"xr"
	.p2align	4
L_71:
	pushq	%rbp
	pushq	%r15
	pushq	%r14
	pushq	%r13
	pushq	%r12
	pushq	%rbx
	subq	$2, %rsp
	testq	%rdx, %rdx
	je	.LBB71_1
	leaq	48(%rcx), %r9
	xorl	%r11d, %r11d
	xorl	%ebx, %ebx
	jmp	.LBB71_3
	.p2align	4
.LBB71_42:
	leal	67043328(%rbx), %eax
	shrl	$10, %eax
	addl	$-10240, %eax
	rolw	$8, %ax
	andl	$1023, %ebx
	orl	$56320, %ebx
	movbew	%bx, 2(%rcx,%r15)
	movl	$4, %r11d
	movl	%eax, %ebx
.LBB71_43:
	movw	%bx, (%rcx,%r15)
	addq	%r15, %r11
	incq	%r14
	movq	%r14, %rbx
	cmpq	%rdx, %r14
	jae	.LBB71_44
.LBB71_3:
	movq	%rdx, %r15
	subq	%rbx, %r15
	movq	%r8, %r14
	subq	%r11, %r14
	shrq	%r14
	cmpq	%r15, %r14
	cmovaeq	%r15, %r14
	cmpq	$32, %r14
	jb	.LBB71_4
	leaq	(,%rbx,4), %r15
	leaq	64(%rsi), %rax
	addq	%rax, %r15
	leaq	(%r9,%r11), %r13
	xorl	%r12d, %r12d
	movq	%r14, %rbp
	.p2align	4
.LBB71_6:
	vpbroadcastd	.LCPI71_0(%rip), %ymm0
	vpminud	-32(%r15,%r12,4), %ymm0, %ymm1
	vpminud	-64(%r15,%r12,4), %ymm0, %ymm2
	vpackusdw	%ymm1, %ymm2, %ymm1
	vpminud	32(%r15,%r12,4), %ymm0, %ymm2
	vpminud	(%r15,%r12,4), %ymm0, %ymm3
	vpermq	$216, %ymm1, %ymm0
	vpackusdw	%ymm2, %ymm3, %ymm1
	vpermq	$216, %ymm1, %ymm1
	vpbroadcastd	.LCPI71_17(%rip), %ymm2
	vpaddw	%ymm2, %ymm0, %ymm3
	vpaddw	%ymm2, %ymm1, %ymm2
	vpminuw	%ymm2, %ymm3, %ymm2
	vpmaxuw	%ymm1, %ymm0, %ymm3
	vpcmpeqd	%ymm4, %ymm4, %ymm4
	vpcmpeqw	%ymm4, %ymm3, %ymm3
	vpminuw	.LCPI71_2(%rip), %ymm2, %ymm4
	vpcmpeqw	%ymm4, %ymm2, %ymm2
	vpor	%ymm2, %ymm3, %ymm2
	vpmovmskb	%ymm2, %r10d
	testl	%r10d, %r10d
	jne	.LBB71_8
	vbroadcasti128	.LCPI71_5(%rip), %ymm2
	vpshufb	%ymm2, %ymm0, %ymm0
	vmovdqu	%ymm0, -48(%r13,%r12,2)
	vpshufb	%ymm2, %ymm1, %ymm0
	vmovdqu	%ymm0, -16(%r13,%r12,2)
	addq	$32, %r12
	addq	$-32, %rbp
	cmpq	$31, %rbp
	ja	.LBB71_6
	jmp	.LBB71_8
	.p2align	4
.LBB71_4:
	xorl	%r12d, %r12d
.LBB71_8:
	leaq	(%rsi,%rbx,4), %r15
	leaq	(%rcx,%r11), %r13
	.p2align	4
.LBB71_9:
	movq	%r14, %r10
	subq	%r12, %r10
	cmpq	$8, %r10
	jb	.LBB71_12
	vmovdqu	(%r15,%r12,4), %ymm0
	vpbroadcastd	.LCPI71_0(%rip), %ymm1
	vpminud	%ymm1, %ymm0, %ymm1
	vpbroadcastd	.LCPI71_4(%rip), %ymm2
	vextracti128	$1, %ymm1, %xmm3
	vpackusdw	%xmm3, %xmm1, %xmm3
	vpshufb	.LCPI71_5(%rip), %xmm3, %xmm3
	vmovdqu	%xmm3, (%r13,%r12,2)
	vpsrld	$8, %ymm1, %ymm1
	vextracti128	$1, %ymm1, %xmm3
	vpackusdw	%xmm3, %xmm1, %xmm1
	vpackuswb	%xmm1, %xmm1, %xmm1
	vpand	.LCPI71_6(%rip), %xmm1, %xmm1
	vpcmpeqb	.LCPI71_7(%rip), %xmm1, %xmm1
	vpmovzxbw	%xmm1, %xmm1
	vpmaxud	%ymm2, %ymm0, %ymm2
	vpcmpeqd	%ymm2, %ymm0, %ymm0
	vextracti128	$1, %ymm0, %xmm2
	vpackssdw	%xmm2, %xmm0, %xmm0
	vpor	%xmm1, %xmm0, %xmm0
	vpand	.LCPI71_8(%rip), %xmm0, %xmm0
	vpackuswb	%xmm0, %xmm0, %xmm0
	vpmovmskb	%xmm0, %r10d
	orl	$256, %r10d
	tzcntl	%r10d, %r10d
	addq	%r10, %r12
	cmpb	$7, %r10b
	ja	.LBB71_9
	movq	%r14, %r10
	subq	%r12, %r10
	cmpq	$7, %r10
	ja	.LBB71_22
.LBB71_12:
	cmpq	$7, %r14
	jbe	.LBB71_13
	vmovdqu	-32(%r15,%r14,4), %ymm0
	vpbroadcastd	.LCPI71_0(%rip), %ymm1
	vpminud	%ymm1, %ymm0, %ymm1
	vextracti128	$1, %ymm1, %xmm2
	vpackusdw	%xmm2, %xmm1, %xmm2
	vpshufb	.LCPI71_5(%rip), %xmm2, %xmm2
	vmovdqu	%xmm2, -16(%r13,%r14,2)
	vpsrld	$8, %ymm1, %ymm1
	vextracti128	$1, %ymm1, %xmm2
	vpackusdw	%xmm2, %xmm1, %xmm1
	vpackuswb	%xmm1, %xmm1, %xmm1
	vpand	.LCPI71_6(%rip), %xmm1, %xmm1
	vpbroadcastd	.LCPI71_4(%rip), %ymm2
	vpcmpeqb	.LCPI71_7(%rip), %xmm1, %xmm1
	vpmovzxbw	%xmm1, %xmm1
	vpmaxud	%ymm2, %ymm0, %ymm2
	vpcmpeqd	%ymm2, %ymm0, %ymm0
	vextracti128	$1, %ymm0, %xmm2
	vpackssdw	%xmm2, %xmm0, %xmm0
	vpor	%xmm1, %xmm0, %xmm0
	vpand	.LCPI71_8(%rip), %xmm0, %xmm0
	vpackuswb	%xmm0, %xmm0, %xmm0
	vpmovmskb	%xmm0, %r10d
	orl	$256, %r10d
	tzcntl	%r10d, %r10d
	leaq	(%r14,%r10), %r12
	addq	$-8, %r12
	jmp	.LBB71_22
	.p2align	4
.LBB71_13:
	cmpq	%r12, %r14
	jne	.LBB71_14
.LBB71_21:
	movq	%r14, %r12
.LBB71_22:
	leaq	(%r12,%rbx), %r14
	leaq	(%r11,%r12,2), %r15
	movq	%rdx, %r11
	subq	%r14, %r11
	jbe	.LBB71_32
	cmpl	$65536, (%rsi,%r14,4)
	jb	.LBB71_32
	movq	%r8, %rax
	subq	%r15, %rax
	cmpq	$32, %rax
	jb	.LBB71_32
	cmpq	$8, %r11
	jb	.LBB71_32
	leaq	-8(%rdx), %r11
	subq	%r12, %r11
	subq	%rbx, %r11
	xorl	%ebx, %ebx
	.p2align	4
.LBB71_27:
	cmpq	$4, %rbx
	je	.LBB71_32
	vmovdqu	(%rsi,%r14,4), %ymm0
	vpbroadcastd	.LCPI71_9(%rip), %ymm1
	vpmaxud	%ymm1, %ymm0, %ymm1
	vpcmpeqd	%ymm1, %ymm0, %ymm1
	vmovmskps	%ymm1, %eax
	testb	%al, %al
	jne	.LBB71_32
	vpbroadcastd	.LCPI71_10(%rip), %ymm1
	vpand	%ymm1, %ymm0, %ymm1
	vpbroadcastd	.LCPI71_11(%rip), %ymm2
	vpcmpeqd	%ymm2, %ymm1, %ymm1
	vtestps	%ymm1, %ymm1
	jne	.LBB71_32
	vpbroadcastd	.LCPI71_12(%rip), %ymm1
	vpaddd	%ymm1, %ymm0, %ymm1
	vpslld	$16, %ymm0, %ymm2
	vpbroadcastd	.LCPI71_13(%rip), %ymm3
	vpand	%ymm3, %ymm2, %ymm2
	vpsrld	$10, %ymm1, %ymm1
	vpaddd	%ymm2, %ymm1, %ymm1
	vpbroadcastd	.LCPI71_14(%rip), %ymm2
	vpaddd	%ymm2, %ymm1, %ymm1
	vpbroadcastd	.LCPI71_4(%rip), %ymm2
	vpmaxud	%ymm2, %ymm0, %ymm2
	vpcmpeqd	%ymm2, %ymm0, %ymm2
	vblendvps	%ymm2, %ymm1, %ymm0, %ymm0
	vpshufb	.LCPI71_3(%rip), %ymm0, %ymm0
	vbroadcastss	.LCPI71_15(%rip), %ymm1
	vbroadcastss	.LCPI71_16(%rip), %ymm3
	vblendvps	%ymm2, %ymm1, %ymm3, %ymm1
	vextracti128	$1, %ymm0, %xmm2
	vxorps	%xmm3, %xmm3, %xmm3
	vpcmpgtw	%ymm3, %ymm1, %ymm1
	vextracti128	$1, %ymm1, %xmm3
	vpacksswb	%xmm3, %xmm1, %xmm1
	vpmovmskb	%xmm1, %eax
	movzbl	%al, %r10d
	xorl	%r12d, %r12d
	popcntl	%r10d, %r12d
	shll	$4, %r10d
	leaq	.Lstatic.10(%rip), %r13
	vpshufb	(%r10,%r13), %xmm0, %xmm0
	leaq	(%rcx,%r15), %r10
	vmovdqu	%xmm0, (%rcx,%r15)
	shrl	$8, %eax
	xorl	%ebp, %ebp
	popcntl	%eax, %ebp
	shll	$4, %eax
	vpshufb	(%rax,%r13), %xmm2, %xmm0
	vmovdqu	%xmm0, (%r10,%r12,2)
	addq	%r12, %rbp
	movq	%rbx, %rax
	incq	%rax
	xorl	%ebx, %ebx
	cmpq	$8, %rbp
	cmoveq	%rax, %rbx
	leaq	(%r15,%rbp,2), %r15
	addq	$8, %r14
	movq	%r8, %rax
	subq	%r15, %rax
	cmpq	$32, %rax
	jb	.LBB71_32
	cmpq	$7, %r11
	leaq	-8(%r11), %r11
	ja	.LBB71_27
	.p2align	4
.LBB71_32:
	cmpq	%rdx, %r14
	je	.LBB71_33
	movl	(%rsi,%r14,4), %ebx
	cmpl	$55296, %ebx
	setae	%al
	leal	-57344(%rbx), %r10d
	cmpl	$1056768, %r10d
	setae	%r10b
	testb	%r10b, %al
	jne	.LBB71_35
	movq	%r8, %rax
	subq	%r15, %rax
	xorl	%r10d, %r10d
	cmpl	$65536, %ebx
	setae	%r10b
	leaq	2(,%r10,2), %r10
	cmpq	%r10, %rax
	jb	.LBB71_39
	cmpl	$65535, %ebx
	ja	.LBB71_42
	rolw	$8, %bx
	movl	$2, %r11d
	jmp	.LBB71_43
.LBB71_14:
	leaq	(%r11,%r12,2), %rax
	addq	%rcx, %rax
	jmp	.LBB71_15
	.p2align	4
.LBB71_19:
	rolw	$8, %bp
	movw	%bp, (%rax)
	incq	%r12
	addq	$2, %rax
	cmpq	%r12, %r14
	je	.LBB71_21
.LBB71_15:
	movl	(%r15,%r12,4), %ebp
	cmpl	$65535, %ebp
	ja	.LBB71_22
	movl	%ebp, %r10d
	andl	$63488, %r10d
	cmpl	$55296, %r10d
	je	.LBB71_22
	movbew	%bp, (%rsp)
	movq	%rsp, %r10
	movq	%rax, %r13
	subq	%r10, %r13
	cmpq	$1, %r13
	ja	.LBB71_19
	movzwl	(%rsp), %r10d
	movw	%r10w, (%rax)
	incq	%r12
	addq	$2, %rax
	cmpq	%r12, %r14
	jne	.LBB71_15
	jmp	.LBB71_21
.LBB71_1:
	xorl	%r14d, %r14d
	xorl	%r11d, %r11d
	jmp	.LBB71_44
.LBB71_33:
	movq	%rdx, %r14
	movq	%r15, %r11
.LBB71_44:
	movq	%r14, (%rdi)
	movq	%r11, 8(%rdi)
	movw	$0, 16(%rdi)
	jmp	.LBB71_37
.LBB71_35:
	movb	$1, %al
	movb	$1, %cl
	jmp	.LBB71_36
.LBB71_39:
	movb	$3, %al
	xorl	%ecx, %ecx
.LBB71_36:
	movq	%r14, (%rdi)
	movq	%r15, 8(%rdi)
	movb	%al, 16(%rdi)
	movb	%cl, 17(%rdi)
.LBB71_37:
	addq	$2, %rsp
	popq	%rbx
	popq	%r12
	popq	%r13
	popq	%r14
	popq	%r15
	popq	%rbp
	vzeroupper
	retq
.Lfunc_end71:

	.section	.rdata$001,"dr"
	.p2align	2, 0x0
.LCPI72_0:
	.long	65535
.LCPI72_3:
	.long	65536
.LCPI72_7:
	.long	1114112
.LCPI72_8:
	.long	4294965248
.LCPI72_9:
	.long	55296
.LCPI72_10:
	.long	4294901760
.LCPI72_11:
	.long	67043328
.LCPI72_12:
	.long	3691042816
.LCPI72_13:
	.long	65537
.LCPI72_14:
	.long	1
.LCPI72_15:
	.short	10240
	.short	10240
	.section	.rdata$003,"dr"
	.p2align	5, 0x0
.LCPI72_1:
	.short	10240
	.short	10240
	.short	10240
	.short	10240
	.short	10240
	.short	10240
	.short	10240
	.short	10240
	.short	10240
	.short	10240
	.short	10240
	.short	10240
	.short	10240
	.short	10240
	.short	10240
	.short	10240
.LCPI72_2:
	.short	2047
	.short	2047
	.short	2047
	.short	2047
	.short	2047
	.short	2047
	.short	2047
	.short	2047
	.short	2047
	.short	2047
	.short	2047
	.short	2047
	.short	2047
	.short	2047
	.short	2047
	.short	2047
.LCPI72_6:
	.short	255
	.short	255
	.short	255
	.short	255
	.short	255
	.short	255
	.short	255
	.short	255
	.short	255
	.short	255
	.short	255
	.short	255
	.short	255
	.short	255
	.short	255
	.short	255
	.section	.rdata$000,"dr"
	.p2align	4, 0x0
.LCPI72_4:
	.byte	248
	.byte	248
	.byte	248
	.byte	248
	.byte	248
	.byte	248
	.byte	248
	.byte	248
	.zero	1
	.zero	1
	.zero	1
	.zero	1
	.zero	1
	.zero	1
	.zero	1
	.zero	1
.LCPI72_5:
	.byte	216
	.byte	216
	.byte	216
	.byte	216
	.byte	216
	.byte	216
	.byte	216
	.byte	216
	.zero	1
	.zero	1
	.zero	1
	.zero	1
	.zero	1
	.zero	1
	.zero	1
	.zero	1
	.section	.text$088,"xr"
	.p2align	4
L_72:
	pushq	%rbp
	pushq	%r15
	pushq	%r14
	pushq	%r13
	pushq	%r12
	pushq	%rbx
	subq	$2, %rsp
	testq	%rdx, %rdx
	je	.LBB72_1
	leaq	48(%rcx), %r9
	xorl	%r11d, %r11d
	xorl	%r14d, %r14d
	jmp	.LBB72_3
	.p2align	4
.LBB72_42:
	leal	67043328(%r14), %eax
	shrl	$10, %eax
	addl	$-10240, %eax
	andl	$1023, %r14d
	orl	$56320, %r14d
	movw	%r14w, 2(%rcx,%r15)
	movl	$4, %r11d
	movl	%eax, %r14d
.LBB72_43:
	movw	%r14w, (%rcx,%r15)
	addq	%r15, %r11
	incq	%rbx
	movq	%rbx, %r14
	cmpq	%rdx, %rbx
	jae	.LBB72_44
.LBB72_3:
	movq	%rdx, %r15
	subq	%r14, %r15
	movq	%r8, %rbx
	subq	%r11, %rbx
	shrq	%rbx
	cmpq	%r15, %rbx
	cmovaeq	%r15, %rbx
	cmpq	$32, %rbx
	jb	.LBB72_4
	leaq	(,%r14,4), %r15
	leaq	64(%rsi), %rax
	addq	%rax, %r15
	leaq	(%r9,%r11), %r13
	xorl	%r12d, %r12d
	movq	%rbx, %rbp
	.p2align	4
.LBB72_6:
	vpbroadcastd	.LCPI72_0(%rip), %ymm0
	vpminud	-32(%r15,%r12,4), %ymm0, %ymm1
	vpminud	-64(%r15,%r12,4), %ymm0, %ymm2
	vpackusdw	%ymm1, %ymm2, %ymm1
	vpminud	32(%r15,%r12,4), %ymm0, %ymm2
	vpminud	(%r15,%r12,4), %ymm0, %ymm3
	vpermq	$216, %ymm1, %ymm0
	vpackusdw	%ymm2, %ymm3, %ymm1
	vpermq	$216, %ymm1, %ymm1
	vpbroadcastd	.LCPI72_15(%rip), %ymm2
	vpaddw	%ymm2, %ymm0, %ymm3
	vpaddw	%ymm2, %ymm1, %ymm2
	vpminuw	%ymm2, %ymm3, %ymm2
	vpmaxuw	%ymm1, %ymm0, %ymm3
	vpcmpeqd	%ymm4, %ymm4, %ymm4
	vpcmpeqw	%ymm4, %ymm3, %ymm3
	vpminuw	.LCPI72_2(%rip), %ymm2, %ymm4
	vpcmpeqw	%ymm4, %ymm2, %ymm2
	vpor	%ymm2, %ymm3, %ymm2
	vpmovmskb	%ymm2, %r10d
	testl	%r10d, %r10d
	jne	.LBB72_8
	vmovdqu	%ymm0, -48(%r13,%r12,2)
	vmovdqu	%ymm1, -16(%r13,%r12,2)
	addq	$32, %r12
	addq	$-32, %rbp
	cmpq	$31, %rbp
	ja	.LBB72_6
	jmp	.LBB72_8
	.p2align	4
.LBB72_4:
	xorl	%r12d, %r12d
.LBB72_8:
	leaq	(%rsi,%r14,4), %r15
	leaq	(%rcx,%r11), %r13
	.p2align	4
.LBB72_9:
	movq	%rbx, %r10
	subq	%r12, %r10
	cmpq	$8, %r10
	jb	.LBB72_12
	vmovdqu	(%r15,%r12,4), %ymm0
	vpbroadcastd	.LCPI72_0(%rip), %ymm1
	vpminud	%ymm1, %ymm0, %ymm1
	vpbroadcastd	.LCPI72_3(%rip), %ymm2
	vextracti128	$1, %ymm1, %xmm3
	vpackusdw	%xmm3, %xmm1, %xmm3
	vmovdqu	%xmm3, (%r13,%r12,2)
	vpsrld	$8, %ymm1, %ymm1
	vextracti128	$1, %ymm1, %xmm3
	vpackusdw	%xmm3, %xmm1, %xmm1
	vpackuswb	%xmm1, %xmm1, %xmm1
	vpand	.LCPI72_4(%rip), %xmm1, %xmm1
	vpcmpeqb	.LCPI72_5(%rip), %xmm1, %xmm1
	vpmovzxbw	%xmm1, %xmm1
	vpmaxud	%ymm2, %ymm0, %ymm2
	vpcmpeqd	%ymm2, %ymm0, %ymm0
	vextracti128	$1, %ymm0, %xmm2
	vpackssdw	%xmm2, %xmm0, %xmm0
	vpor	%xmm1, %xmm0, %xmm0
	vpand	.LCPI72_6(%rip), %xmm0, %xmm0
	vpackuswb	%xmm0, %xmm0, %xmm0
	vpmovmskb	%xmm0, %r10d
	orl	$256, %r10d
	tzcntl	%r10d, %r10d
	addq	%r10, %r12
	cmpb	$7, %r10b
	ja	.LBB72_9
	movq	%rbx, %r10
	subq	%r12, %r10
	cmpq	$7, %r10
	ja	.LBB72_22
.LBB72_12:
	cmpq	$7, %rbx
	jbe	.LBB72_13
	vmovdqu	-32(%r15,%rbx,4), %ymm0
	vpbroadcastd	.LCPI72_0(%rip), %ymm1
	vpminud	%ymm1, %ymm0, %ymm1
	vextracti128	$1, %ymm1, %xmm2
	vpackusdw	%xmm2, %xmm1, %xmm2
	vmovdqu	%xmm2, -16(%r13,%rbx,2)
	vpsrld	$8, %ymm1, %ymm1
	vextracti128	$1, %ymm1, %xmm2
	vpackusdw	%xmm2, %xmm1, %xmm1
	vpackuswb	%xmm1, %xmm1, %xmm1
	vpand	.LCPI72_4(%rip), %xmm1, %xmm1
	vpbroadcastd	.LCPI72_3(%rip), %ymm2
	vpcmpeqb	.LCPI72_5(%rip), %xmm1, %xmm1
	vpmovzxbw	%xmm1, %xmm1
	vpmaxud	%ymm2, %ymm0, %ymm2
	vpcmpeqd	%ymm2, %ymm0, %ymm0
	vextracti128	$1, %ymm0, %xmm2
	vpackssdw	%xmm2, %xmm0, %xmm0
	vpor	%xmm1, %xmm0, %xmm0
	vpand	.LCPI72_6(%rip), %xmm0, %xmm0
	vpackuswb	%xmm0, %xmm0, %xmm0
	vpmovmskb	%xmm0, %r10d
	orl	$256, %r10d
	tzcntl	%r10d, %r10d
	leaq	(%rbx,%r10), %r12
	addq	$-8, %r12
	jmp	.LBB72_22
	.p2align	4
.LBB72_13:
	cmpq	%r12, %rbx
	jne	.LBB72_14
.LBB72_21:
	movq	%rbx, %r12
.LBB72_22:
	leaq	(%r12,%r14), %rbx
	leaq	(%r11,%r12,2), %r15
	movq	%rdx, %r11
	subq	%rbx, %r11
	jbe	.LBB72_32
	cmpl	$65536, (%rsi,%rbx,4)
	jb	.LBB72_32
	movq	%r8, %rax
	subq	%r15, %rax
	cmpq	$32, %rax
	jb	.LBB72_32
	cmpq	$8, %r11
	jb	.LBB72_32
	leaq	-8(%rdx), %r11
	subq	%r12, %r11
	subq	%r14, %r11
	xorl	%r14d, %r14d
	.p2align	4
.LBB72_27:
	cmpq	$4, %r14
	je	.LBB72_32
	vmovdqu	(%rsi,%rbx,4), %ymm0
	vpbroadcastd	.LCPI72_7(%rip), %ymm1
	vpmaxud	%ymm1, %ymm0, %ymm1
	vpcmpeqd	%ymm1, %ymm0, %ymm1
	vmovmskps	%ymm1, %eax
	testb	%al, %al
	jne	.LBB72_32
	vpbroadcastd	.LCPI72_8(%rip), %ymm1
	vpand	%ymm1, %ymm0, %ymm1
	vpbroadcastd	.LCPI72_9(%rip), %ymm2
	vpcmpeqd	%ymm2, %ymm1, %ymm1
	vtestps	%ymm1, %ymm1
	jne	.LBB72_32
	vpbroadcastd	.LCPI72_10(%rip), %ymm1
	vpaddd	%ymm1, %ymm0, %ymm1
	vpslld	$16, %ymm0, %ymm2
	vpbroadcastd	.LCPI72_11(%rip), %ymm3
	vpand	%ymm3, %ymm2, %ymm2
	vpsrld	$10, %ymm1, %ymm1
	vpaddd	%ymm2, %ymm1, %ymm1
	vpbroadcastd	.LCPI72_12(%rip), %ymm2
	vpaddd	%ymm2, %ymm1, %ymm1
	vpbroadcastd	.LCPI72_3(%rip), %ymm2
	vpmaxud	%ymm2, %ymm0, %ymm2
	vpcmpeqd	%ymm2, %ymm0, %ymm2
	vblendvps	%ymm2, %ymm1, %ymm0, %ymm0
	vbroadcastss	.LCPI72_13(%rip), %ymm1
	vbroadcastss	.LCPI72_14(%rip), %ymm3
	vblendvps	%ymm2, %ymm1, %ymm3, %ymm1
	vextractf128	$1, %ymm0, %xmm2
	vxorps	%xmm3, %xmm3, %xmm3
	vpcmpgtw	%ymm3, %ymm1, %ymm1
	vextracti128	$1, %ymm1, %xmm3
	vpacksswb	%xmm3, %xmm1, %xmm1
	vpmovmskb	%xmm1, %eax
	movzbl	%al, %r10d
	xorl	%r12d, %r12d
	popcntl	%r10d, %r12d
	shll	$4, %r10d
	leaq	.Lstatic.10(%rip), %r13
	vpshufb	(%r10,%r13), %xmm0, %xmm0
	leaq	(%rcx,%r15), %r10
	vmovdqu	%xmm0, (%rcx,%r15)
	shrl	$8, %eax
	xorl	%ebp, %ebp
	popcntl	%eax, %ebp
	shll	$4, %eax
	vpshufb	(%rax,%r13), %xmm2, %xmm0
	vmovdqu	%xmm0, (%r10,%r12,2)
	addq	%r12, %rbp
	movq	%r14, %rax
	incq	%rax
	xorl	%r14d, %r14d
	cmpq	$8, %rbp
	cmoveq	%rax, %r14
	leaq	(%r15,%rbp,2), %r15
	addq	$8, %rbx
	movq	%r8, %rax
	subq	%r15, %rax
	cmpq	$32, %rax
	jb	.LBB72_32
	cmpq	$7, %r11
	leaq	-8(%r11), %r11
	ja	.LBB72_27
	.p2align	4
.LBB72_32:
	cmpq	%rdx, %rbx
	je	.LBB72_33
	movl	(%rsi,%rbx,4), %r14d
	cmpl	$55296, %r14d
	setae	%al
	leal	-57344(%r14), %r10d
	cmpl	$1056768, %r10d
	setae	%r10b
	testb	%r10b, %al
	jne	.LBB72_35
	movq	%r8, %rax
	subq	%r15, %rax
	xorl	%r10d, %r10d
	cmpl	$65536, %r14d
	setae	%r10b
	leaq	2(,%r10,2), %r10
	cmpq	%r10, %rax
	jb	.LBB72_39
	cmpl	$65535, %r14d
	ja	.LBB72_42
	movl	$2, %r11d
	jmp	.LBB72_43
.LBB72_14:
	leaq	(%r11,%r12,2), %rax
	addq	%rcx, %rax
	jmp	.LBB72_15
	.p2align	4
.LBB72_19:
	movw	%bp, (%rax)
	incq	%r12
	addq	$2, %rax
	cmpq	%r12, %rbx
	je	.LBB72_21
.LBB72_15:
	movl	(%r15,%r12,4), %ebp
	cmpl	$65535, %ebp
	ja	.LBB72_22
	movl	%ebp, %r10d
	andl	$63488, %r10d
	cmpl	$55296, %r10d
	je	.LBB72_22
	movw	%bp, (%rsp)
	movq	%rsp, %r10
	movq	%rax, %r13
	subq	%r10, %r13
	cmpq	$1, %r13
	ja	.LBB72_19
	movzwl	(%rsp), %r10d
	movw	%r10w, (%rax)
	incq	%r12
	addq	$2, %rax
	cmpq	%r12, %rbx
	jne	.LBB72_15
	jmp	.LBB72_21
.LBB72_1:
	xorl	%ebx, %ebx
	xorl	%r11d, %r11d
	jmp	.LBB72_44
.LBB72_33:
	movq	%rdx, %rbx
	movq	%r15, %r11
.LBB72_44:
	movq	%rbx, (%rdi)
	movq	%r11, 8(%rdi)
	movw	$0, 16(%rdi)
	jmp	.LBB72_37
.LBB72_35:
	movb	$1, %al
	movb	$1, %cl
	jmp	.LBB72_36
.LBB72_39:
	movb	$3, %al
	xorl	%ecx, %ecx
.LBB72_36:
	movq	%rbx, (%rdi)
	movq	%r15, 8(%rdi)
	movb	%al, 16(%rdi)
	movb	%cl, 17(%rdi)
.LBB72_37:
	addq	$2, %rsp
	popq	%rbx
	popq	%r12
	popq	%r13
	popq	%r14
	popq	%r15
	popq	%rbp
	vzeroupper
	retq
.Lfunc_end72:

	.section	.text$089,"xr"
	.p2align	4
L_73:
	pushq	%rbp
	pushq	%r15
	pushq	%r14
	pushq	%r13
	pushq	%r12
	pushq	%rbx
	subq	$88, %rsp
	movq	%r8, %r14
	movq	%rdx, %rbp
	movq	%rdi, 8(%rsp)
	xorl	%r13d, %r13d
	xorl	%ebx, %ebx
	xorl	%r12d, %r12d
	movq	%r8, 72(%rsp)
	movq	%rcx, 48(%rsp)
	movq	%rdx, 64(%rsp)
	movq	%rsi, 56(%rsp)
	.p2align	4
.LBB73_1:
	leaq	(%rsi,%r12), %rdi
	subq	%r12, %rbp
	leaq	(%rcx,%rbx), %rdx
	subq	%rbx, %r14
	vxorps	%xmm0, %xmm0, %xmm0
	vmovaps	%xmm0, 16(%rsp)
	movq	$0, 32(%rsp)
	movq	%rdi, %r15
	movq	%rbp, %rsi
	movq	%rdx, 80(%rsp)
	movq	%r14, %rcx
	callq	L_47
	cmpq	%rbp, %rax
	jne	.LBB73_3
	xorl	%eax, %eax
	xorl	%r11d, %r11d
	jmp	.LBB73_4
	.p2align	4
.LBB73_3:
	movq	%rdx, (%rsp)
	leaq	16(%rsp), %rdi
	movq	%r15, %rsi
	movq	%rbp, %rdx
	movq	80(%rsp), %rcx
	movq	%r14, %r8
	movq	%rax, %r9
	callq	L_54
	movq	16(%rsp), %rbp
	movq	24(%rsp), %rdx
	movzbl	32(%rsp), %eax
	movzbl	33(%rsp), %r11d
.LBB73_4:
	addq	%rbp, %r12
	addq	%rbx, %rdx
	testq	%rbp, %rbp
	sete	%cl
	andb	%cl, %r13b
	movq	64(%rsp), %rbp
	movq	%rbp, %rdi
	subq	%r12, %rdi
	cmpq	$2, %rdi
	movq	72(%rsp), %r14
	movq	56(%rsp), %rsi
	jb	.LBB73_7
	cmpb	$-19, (%rsi,%r12)
	jne	.LBB73_7
	movzbl	1(%rsi,%r12), %ecx
	movl	%ecx, %r9d
	andb	$-32, %r9b
	cmpb	$-96, %r9b
	jne	.LBB73_7
	cmpq	$2, %rdi
	je	.LBB73_9
	movzbl	2(%rsi,%r12), %eax
	cmpb	$-65, %al
	jg	.LBB73_11
	andl	$63, %ecx
	shll	$6, %ecx
	leal	53248(%rcx), %edi
	movl	%edi, %r11d
	andl	$56320, %r11d
	cmpl	$56320, %r11d
	sete	%r9b
	testb	%r9b, %r13b
	jne	.LBB73_13
	movq	%r14, %r9
	subq	%rdx, %r9
	cmpq	$2, %r9
	jb	.LBB73_15
	movswl	%di, %edi
	andl	$-8448, %edi
	andb	$63, %al
	orb	%al, %cl
	movzbl	%cl, %eax
	orl	%edi, %eax
	movq	48(%rsp), %rcx
	movbew	%ax, (%rcx,%rdx)
	addq	$2, %rdx
	addq	$3, %r12
	movzwl	%r11w, %eax
	cmpl	$55296, %eax
	sete	%r13b
	movq	%rdx, %rbx
	jmp	.LBB73_1
.LBB73_7:
	movq	8(%rsp), %rcx
	movq	%r12, (%rcx)
	movq	%rdx, 8(%rcx)
	movb	%al, 16(%rcx)
	movb	%r11b, 17(%rcx)
	movl	$0, 18(%rcx)
	movw	$0, 22(%rcx)
	movb	%r13b, 24(%rcx)
	movl	$0, 25(%rcx)
	movl	$0, 28(%rcx)
	jmp	.LBB73_16
.LBB73_9:
	movb	$2, %cl
	xorl	%eax, %eax
	jmp	.LBB73_14
.LBB73_11:
	movb	$1, %cl
	movb	$2, %al
	jmp	.LBB73_14
.LBB73_13:
	movb	$1, %r13b
	movb	$3, %al
	movb	$1, %cl
.LBB73_14:
	movq	8(%rsp), %rsi
	movq	%r12, (%rsi)
	movq	%rdx, 8(%rsi)
	movb	%cl, 16(%rsi)
	movb	%al, 17(%rsi)
	movl	$0, 18(%rsi)
	movw	$0, 22(%rsi)
	movb	%r13b, 24(%rsi)
	movl	$0, 25(%rsi)
	movl	$0, 28(%rsi)
	jmp	.LBB73_16
.LBB73_15:
	movq	8(%rsp), %rax
	movq	%r12, (%rax)
	movq	%rdx, 8(%rax)
	movb	$3, 16(%rax)
	movl	$0, 17(%rax)
	movl	$0, 20(%rax)
	movb	%r13b, 24(%rax)
	movl	$0, 25(%rax)
	movl	$0, 28(%rax)
.LBB73_16:
	addq	$88, %rsp
	popq	%rbx
	popq	%r12
	popq	%r13
	popq	%r14
	popq	%r15
	popq	%rbp
	retq
.Lfunc_end73:

	.section	.text$090,"xr"
	.p2align	4
L_74:
	pushq	%rbp
	pushq	%r15
	pushq	%r14
	pushq	%r13
	pushq	%r12
	pushq	%rbx
	subq	$88, %rsp
	movq	%r8, %r14
	movq	%rdx, %rbp
	movq	%rdi, 8(%rsp)
	xorl	%r13d, %r13d
	xorl	%ebx, %ebx
	xorl	%r12d, %r12d
	movq	%r8, 72(%rsp)
	movq	%rcx, 48(%rsp)
	movq	%rdx, 64(%rsp)
	movq	%rsi, 56(%rsp)
	.p2align	4
.LBB74_1:
	leaq	(%rsi,%r12), %rdi
	subq	%r12, %rbp
	leaq	(%rcx,%rbx), %rdx
	subq	%rbx, %r14
	vxorps	%xmm0, %xmm0, %xmm0
	vmovaps	%xmm0, 16(%rsp)
	movq	$0, 32(%rsp)
	movq	%rdi, %r15
	movq	%rbp, %rsi
	movq	%rdx, 80(%rsp)
	movq	%r14, %rcx
	callq	L_59
	cmpq	%rbp, %rax
	jne	.LBB74_3
	xorl	%eax, %eax
	xorl	%r11d, %r11d
	jmp	.LBB74_4
	.p2align	4
.LBB74_3:
	movq	%rdx, (%rsp)
	leaq	16(%rsp), %rdi
	movq	%r15, %rsi
	movq	%rbp, %rdx
	movq	80(%rsp), %rcx
	movq	%r14, %r8
	movq	%rax, %r9
	callq	L_66
	movq	16(%rsp), %rbp
	movq	24(%rsp), %rdx
	movzbl	32(%rsp), %eax
	movzbl	33(%rsp), %r11d
.LBB74_4:
	addq	%rbp, %r12
	addq	%rbx, %rdx
	testq	%rbp, %rbp
	sete	%cl
	andb	%cl, %r13b
	movq	64(%rsp), %rbp
	movq	%rbp, %rdi
	subq	%r12, %rdi
	cmpq	$2, %rdi
	movq	72(%rsp), %r14
	movq	56(%rsp), %rsi
	jb	.LBB74_7
	cmpb	$-19, (%rsi,%r12)
	jne	.LBB74_7
	movzbl	1(%rsi,%r12), %ecx
	movl	%ecx, %r9d
	andb	$-32, %r9b
	cmpb	$-96, %r9b
	jne	.LBB74_7
	cmpq	$2, %rdi
	je	.LBB74_9
	movzbl	2(%rsi,%r12), %eax
	cmpb	$-65, %al
	jg	.LBB74_11
	andl	$63, %ecx
	shll	$6, %ecx
	leal	53248(%rcx), %edi
	movl	%edi, %r11d
	andl	$56320, %r11d
	cmpl	$56320, %r11d
	sete	%r9b
	testb	%r9b, %r13b
	jne	.LBB74_13
	movq	%r14, %r9
	subq	%rdx, %r9
	cmpq	$2, %r9
	jb	.LBB74_15
	movswl	%di, %edi
	andl	$-8448, %edi
	andb	$63, %al
	orb	%al, %cl
	movzbl	%cl, %eax
	orl	%edi, %eax
	movq	48(%rsp), %rcx
	movw	%ax, (%rcx,%rdx)
	addq	$2, %rdx
	addq	$3, %r12
	movzwl	%r11w, %eax
	cmpl	$55296, %eax
	sete	%r13b
	movq	%rdx, %rbx
	jmp	.LBB74_1
.LBB74_7:
	movq	8(%rsp), %rcx
	movq	%r12, (%rcx)
	movq	%rdx, 8(%rcx)
	movb	%al, 16(%rcx)
	movb	%r11b, 17(%rcx)
	movl	$0, 18(%rcx)
	movw	$0, 22(%rcx)
	movb	%r13b, 24(%rcx)
	movl	$0, 25(%rcx)
	movl	$0, 28(%rcx)
	jmp	.LBB74_16
.LBB74_9:
	movb	$2, %cl
	xorl	%eax, %eax
	jmp	.LBB74_14
.LBB74_11:
	movb	$1, %cl
	movb	$2, %al
	jmp	.LBB74_14
.LBB74_13:
	movb	$1, %r13b
	movb	$3, %al
	movb	$1, %cl
.LBB74_14:
	movq	8(%rsp), %rsi
	movq	%r12, (%rsi)
	movq	%rdx, 8(%rsi)
	movb	%cl, 16(%rsi)
	movb	%al, 17(%rsi)
	movl	$0, 18(%rsi)
	movw	$0, 22(%rsi)
	movb	%r13b, 24(%rsi)
	movl	$0, 25(%rsi)
	movl	$0, 28(%rsi)
	jmp	.LBB74_16
.LBB74_15:
	movq	8(%rsp), %rax
	movq	%r12, (%rax)
	movq	%rdx, 8(%rax)
	movb	$3, 16(%rax)
	movl	$0, 17(%rax)
	movl	$0, 20(%rax)
	movb	%r13b, 24(%rax)
	movl	$0, 25(%rax)
	movl	$0, 28(%rax)
.LBB74_16:
	addq	$88, %rsp
	popq	%rbx
	popq	%r12
	popq	%r13
	popq	%r14
	popq	%r15
	popq	%rbp
	retq
.Lfunc_end74:

	.section	.rdata$003,"dr"
	.p2align	5, 0x0
.LCPI75_0:
	.byte	1
	.byte	0
	.byte	3
	.byte	2
	.byte	5
	.byte	4
	.byte	7
	.byte	6
	.byte	9
	.byte	8
	.byte	11
	.byte	10
	.byte	13
	.byte	12
	.byte	15
	.byte	14
	.byte	1
	.byte	0
	.byte	3
	.byte	2
	.byte	5
	.byte	4
	.byte	7
	.byte	6
	.byte	9
	.byte	8
	.byte	11
	.byte	10
	.byte	13
	.byte	12
	.byte	15
	.byte	14
.LCPI75_1:
	.short	63488
	.short	63488
	.short	63488
	.short	63488
	.short	63488
	.short	63488
	.short	63488
	.short	63488
	.short	63488
	.short	63488
	.short	63488
	.short	63488
	.short	63488
	.short	63488
	.short	63488
	.short	63488
.LCPI75_2:
	.short	55296
	.short	55296
	.short	55296
	.short	55296
	.short	55296
	.short	55296
	.short	55296
	.short	55296
	.short	55296
	.short	55296
	.short	55296
	.short	55296
	.short	55296
	.short	55296
	.short	55296
	.short	55296
	.section	.rdata$000,"dr"
	.p2align	4, 0x0
.LCPI75_3:
	.byte	1
	.byte	0
	.byte	3
	.byte	2
	.byte	5
	.byte	4
	.byte	7
	.byte	6
	.byte	9
	.byte	8
	.byte	11
	.byte	10
	.byte	13
	.byte	12
	.byte	15
	.byte	14
.LCPI75_4:
	.byte	1
	.byte	3
	.byte	5
	.byte	7
	.byte	9
	.byte	11
	.byte	13
	.byte	15
	.zero	1
	.zero	1
	.zero	1
	.zero	1
	.zero	1
	.zero	1
	.zero	1
	.zero	1
.LCPI75_5:
	.zero	16,248
.LCPI75_6:
	.zero	16,216
	.section	.rdata$001,"dr"
	.p2align	2, 0x0
.LCPI75_7:
	.long	603924480
.LCPI75_8:
	.long	67107840
.LCPI75_9:
	.long	65536
.LCPI75_10:
	.long	64512
.LCPI75_11:
	.long	1023
.LCPI75_12:
	.short	63488
	.short	63488
.LCPI75_13:
	.short	55296
	.short	55296
	.section	.text$091,"xr"
	.p2align	4
L_75:
	pushq	%rbp
	pushq	%r15
	pushq	%r14
	pushq	%r13
	pushq	%r12
	pushq	%rbx
	subq	$24, %rsp
	movq	%rdi, (%rsp)
	testq	%rdx, %rdx
	je	.LBB75_39
	movq	%r8, %r13
	movq	%rdx, %r15
	movq	%rsi, %rbx
	leaq	-32(%rdx), %r9
	leaq	-8(%r8), %r12
	xorl	%r14d, %r14d
	xorl	%ebp, %ebp
	movq	%rdx, 16(%rsp)
	movq	%r12, 8(%rsp)
	jmp	.LBB75_2
	.p2align	4
.LBB75_35:
	movzwl	%di, %eax
	movl	$2, %edx
	cmpq	%r13, %r14
	je	.LBB75_42
.LBB75_36:
	movl	%eax, (%rcx,%r14,4)
	incq	%r14
	addq	%rdx, %rbp
	cmpq	%r15, %rbp
	jae	.LBB75_40
.LBB75_2:
	movq	%r15, %rax
	subq	%rbp, %rax
	cmpq	$2, %rax
	jb	.LBB75_11
	movzbl	(%rbx,%rbp), %edx
	andb	$-8, %dl
	cmpb	$-40, %dl
	jne	.LBB75_11
	cmpq	$32, %rax
	jb	.LBB75_27
	movq	%r13, %rax
	subq	%r14, %rax
	cmpq	$8, %rax
	jb	.LBB75_27
	leaq	(%rbx,%rbp), %rax
	negq	%rbp
	leaq	(%rcx,%r14,4), %rdx
	negq	%r14
	xorl	%esi, %esi
	movq	%r14, %r10
	.p2align	4
.LBB75_7:
	vmovdqu	(%rax,%rsi), %ymm0
	vpshufb	.LCPI75_0(%rip), %ymm0, %ymm0
	vpbroadcastd	.LCPI75_7(%rip), %ymm1
	vpaddd	%ymm1, %ymm0, %ymm0
	vpslld	$10, %ymm0, %ymm1
	vpbroadcastd	.LCPI75_8(%rip), %ymm2
	vpand	%ymm2, %ymm1, %ymm1
	vpsrld	$16, %ymm0, %ymm2
	vpbroadcastd	.LCPI75_9(%rip), %ymm3
	vpaddd	%ymm3, %ymm2, %ymm3
	vpaddd	%ymm3, %ymm1, %ymm1
	vmovdqu	%ymm1, (%rdx,%rsi)
	vpbroadcastd	.LCPI75_10(%rip), %ymm1
	vpand	%ymm1, %ymm0, %ymm0
	vpor	%ymm2, %ymm0, %ymm0
	vpbroadcastd	.LCPI75_11(%rip), %ymm1
	vpcmpgtd	%ymm1, %ymm0, %ymm0
	vmovmskps	%ymm0, %edi
	orl	$256, %edi
	tzcntl	%edi, %edi
	cmpb	$7, %dil
	jbe	.LBB75_37
	leaq	(%r9,%rbp), %rdi
	addq	$-32, %rbp
	leaq	-8(%r10), %r14
	cmpq	$32, %rdi
	jb	.LBB75_10
	addq	%r12, %r10
	addq	$32, %rsi
	cmpq	$7, %r10
	movq	%r14, %r10
	ja	.LBB75_7
.LBB75_10:
	negq	%rbp
	negq	%r14
	movq	%r15, %rsi
	subq	%rbp, %rsi
	jne	.LBB75_28
	jmp	.LBB75_38
	.p2align	4
.LBB75_11:
	leaq	(%rbx,%rbp), %r10
	movq	%r13, %rdx
	subq	%r14, %rdx
	shrq	%rax
	cmpq	%rax, %rdx
	cmovbq	%rdx, %rax
	cmpq	$32, %rax
	jb	.LBB75_15
	leaq	(,%r14,4), %rsi
	leaq	112(%rcx), %rdx
	addq	%rdx, %rsi
	xorl	%edx, %edx
	movq	%rax, %rdi
	.p2align	4
.LBB75_13:
	vmovdqu	(%r10,%rdx,2), %ymm1
	vmovdqu	32(%r10,%rdx,2), %ymm0
	vbroadcasti128	.LCPI75_3(%rip), %ymm2
	vpshufb	%ymm2, %ymm0, %ymm0
	vpshufb	%ymm2, %ymm1, %ymm1
	vpbroadcastd	.LCPI75_12(%rip), %ymm2
	vpand	%ymm2, %ymm1, %ymm3
	vpand	%ymm2, %ymm0, %ymm2
	vpbroadcastd	.LCPI75_13(%rip), %ymm4
	vpcmpeqw	%ymm4, %ymm2, %ymm2
	vpcmpeqw	%ymm4, %ymm3, %ymm3
	vpacksswb	%ymm2, %ymm3, %ymm2
	vpmovmskb	%ymm2, %r11d
	testl	%r11d, %r11d
	jne	.LBB75_16
	vpmovzxwd	%xmm1, %ymm2
	vmovdqu	%ymm2, -112(%rsi,%rdx,4)
	vextracti128	$1, %ymm1, %xmm1
	vpmovzxwd	%xmm1, %ymm1
	vmovdqu	%ymm1, -80(%rsi,%rdx,4)
	vpmovzxwd	%xmm0, %ymm1
	vmovdqu	%ymm1, -48(%rsi,%rdx,4)
	vextracti128	$1, %ymm0, %xmm0
	vpmovzxwd	%xmm0, %ymm0
	vmovdqu	%ymm0, -16(%rsi,%rdx,4)
	addq	$32, %rdx
	addq	$-32, %rdi
	cmpq	$31, %rdi
	ja	.LBB75_13
	jmp	.LBB75_16
	.p2align	4
.LBB75_15:
	xorl	%edx, %edx
.LBB75_16:
	leaq	(%rcx,%r14,4), %rsi
	.p2align	4
.LBB75_17:
	movq	%rax, %rdi
	subq	%rdx, %rdi
	cmpq	$8, %rdi
	jb	.LBB75_20
	vmovdqu	(%r10,%rdx,2), %xmm0
	vpshufb	.LCPI75_3(%rip), %xmm0, %xmm0
	vpmovzxwd	%xmm0, %ymm1
	vmovdqu	%ymm1, (%rsi,%rdx,4)
	vpshufb	.LCPI75_4(%rip), %xmm0, %xmm0
	vpand	.LCPI75_5(%rip), %xmm0, %xmm0
	vpcmpeqb	.LCPI75_6(%rip), %xmm0, %xmm0
	vpmovmskb	%xmm0, %edi
	orl	$256, %edi
	tzcntl	%edi, %edi
	addq	%rdi, %rdx
	cmpb	$7, %dil
	ja	.LBB75_17
	movq	%rax, %rdi
	subq	%rdx, %rdi
	cmpq	$7, %rdi
	ja	.LBB75_26
.LBB75_20:
	cmpq	$7, %rax
	jbe	.LBB75_22
	vmovdqu	-16(%r10,%rax,2), %xmm0
	vpshufb	.LCPI75_3(%rip), %xmm0, %xmm0
	vpmovzxwd	%xmm0, %ymm1
	vmovdqu	%xmm1, -32(%rsi,%rax,4)
	vextracti128	$1, %ymm1, -16(%rsi,%rax,4)
	vpshufb	.LCPI75_4(%rip), %xmm0, %xmm0
	vpand	.LCPI75_5(%rip), %xmm0, %xmm0
	vpcmpeqb	.LCPI75_6(%rip), %xmm0, %xmm0
	vpmovmskb	%xmm0, %edx
	orl	$256, %edx
	tzcntl	%edx, %edx
	addq	%rax, %rdx
	addq	$-8, %rdx
	jmp	.LBB75_26
	.p2align	4
.LBB75_22:
	cmpq	%rdx, %rax
	je	.LBB75_25
	movbew	(%r10,%rdx,2), %di
	movl	%edi, %r11d
	andl	$63488, %r11d
	cmpl	$55296, %r11d
	je	.LBB75_26
	movzwl	%di, %edi
	movl	%edi, (%rsi,%rdx,4)
	incq	%rdx
	jmp	.LBB75_22
	.p2align	4
.LBB75_25:
	movq	%rax, %rdx
.LBB75_26:
	leaq	(%rbp,%rdx,2), %rbp
	addq	%rdx, %r14
.LBB75_27:
	movq	%r15, %rsi
	subq	%rbp, %rsi
	je	.LBB75_38
.LBB75_28:
	cmpq	$2, %rsi
	jb	.LBB75_41
	movbew	(%rbx,%rbp), %di
	movl	%edi, %eax
	andl	$63488, %eax
	cmpl	$55296, %eax
	jne	.LBB75_33
	movl	%edi, %edx
	notl	%edx
	movb	$1, %al
	testl	$56320, %edx
	je	.LBB75_44
	cmpq	$4, %rsi
	jb	.LBB75_41
	movzbl	2(%rbx,%rbp), %edx
	andb	$-4, %dl
	cmpb	$-36, %dl
	jne	.LBB75_44
.LBB75_33:
	movl	%edi, %eax
	andl	$64512, %eax
	cmpl	$55296, %eax
	jne	.LBB75_35
	movbew	2(%rbx,%rbp), %si
	movq	%r9, %r12
	movq	%rbx, %r15
	movq	%rcx, %rbx
	vzeroupper
	callq	L_5
	movq	%rbx, %rcx
	movq	%r15, %rbx
	movq	16(%rsp), %r15
	movq	%r12, %r9
	movq	8(%rsp), %r12
	movl	$4, %edx
	cmpq	%r13, %r14
	jne	.LBB75_36
	jmp	.LBB75_42
.LBB75_37:
	movzbl	%dil, %r14d
	leaq	(,%r14,4), %rax
	subq	%rbp, %rax
	subq	%r10, %r14
	movq	%rax, %rbp
	movq	%r15, %rsi
	subq	%rbp, %rsi
	jne	.LBB75_28
.LBB75_38:
	movq	%r15, %rbp
	jmp	.LBB75_40
.LBB75_39:
	xorl	%ebp, %ebp
	xorl	%r14d, %r14d
.LBB75_40:
	movq	(%rsp), %rax
	movq	%rbp, (%rax)
	movq	%r14, 8(%rax)
	movw	$0, 16(%rax)
	jmp	.LBB75_46
.LBB75_41:
	movb	$2, %al
	xorl	%ecx, %ecx
	jmp	.LBB75_45
.LBB75_44:
	movb	$2, %cl
	jmp	.LBB75_45
.LBB75_42:
	movb	$3, %al
	xorl	%ecx, %ecx
	movq	%r13, %r14
.LBB75_45:
	movq	(%rsp), %rdx
	movq	%rbp, (%rdx)
	movq	%r14, 8(%rdx)
	movb	%al, 16(%rdx)
	movb	%cl, 17(%rdx)
.LBB75_46:
	addq	$24, %rsp
	popq	%rbx
	popq	%r12
	popq	%r13
	popq	%r14
	popq	%r15
	popq	%rbp
	vzeroupper
	retq
.Lfunc_end75:

	.section	.rdata$003,"dr"
	.p2align	5, 0x0
.LCPI76_0:
	.short	63488
	.short	63488
	.short	63488
	.short	63488
	.short	63488
	.short	63488
	.short	63488
	.short	63488
	.short	63488
	.short	63488
	.short	63488
	.short	63488
	.short	63488
	.short	63488
	.short	63488
	.short	63488
.LCPI76_1:
	.short	55296
	.short	55296
	.short	55296
	.short	55296
	.short	55296
	.short	55296
	.short	55296
	.short	55296
	.short	55296
	.short	55296
	.short	55296
	.short	55296
	.short	55296
	.short	55296
	.short	55296
	.short	55296
	.section	.rdata$000,"dr"
	.p2align	4, 0x0
.LCPI76_2:
	.byte	1
	.byte	3
	.byte	5
	.byte	7
	.byte	9
	.byte	11
	.byte	13
	.byte	15
	.zero	1
	.zero	1
	.zero	1
	.zero	1
	.zero	1
	.zero	1
	.zero	1
	.zero	1
.LCPI76_3:
	.zero	16,248
.LCPI76_4:
	.zero	16,216
	.section	.rdata$001,"dr"
	.p2align	2, 0x0
.LCPI76_5:
	.long	603924480
.LCPI76_6:
	.long	67107840
.LCPI76_7:
	.long	65536
.LCPI76_8:
	.long	64512
.LCPI76_9:
	.long	1023
.LCPI76_10:
	.short	63488
	.short	63488
.LCPI76_11:
	.short	55296
	.short	55296
	.section	.text$092,"xr"
	.p2align	4
L_76:
	pushq	%rbp
	pushq	%r15
	pushq	%r14
	pushq	%r13
	pushq	%r12
	pushq	%rbx
	subq	$24, %rsp
	movq	%rdi, (%rsp)
	testq	%rdx, %rdx
	je	.LBB76_40
	movq	%rcx, %r10
	movq	%rdx, %rbx
	movq	%rsi, %r13
	leaq	-32(%rdx), %r9
	leaq	-8(%r8), %r12
	xorl	%r14d, %r14d
	xorl	%ebp, %ebp
	movq	%rdx, 16(%rsp)
	movq	%r12, 8(%rsp)
	jmp	.LBB76_2
	.p2align	4
.LBB76_36:
	movl	$2, %ecx
	cmpq	%r8, %r14
	je	.LBB76_43
.LBB76_37:
	movl	%eax, (%r10,%r14,4)
	incq	%r14
	addq	%rcx, %rbp
	cmpq	%rbx, %rbp
	jae	.LBB76_41
.LBB76_2:
	movq	%rbx, %rax
	subq	%rbp, %rax
	cmpq	$2, %rax
	jb	.LBB76_11
	movzbl	1(%r13,%rbp), %ecx
	andb	$-8, %cl
	cmpb	$-40, %cl
	jne	.LBB76_11
	cmpq	$32, %rax
	jb	.LBB76_28
	movq	%r8, %rax
	subq	%r14, %rax
	cmpq	$8, %rax
	jb	.LBB76_28
	movq	%r13, %rax
	addq	%rbp, %rax
	negq	%rbp
	leaq	(%r10,%r14,4), %rdx
	negq	%r14
	xorl	%esi, %esi
	movq	%r14, %rcx
	.p2align	4
.LBB76_7:
	vpbroadcastd	.LCPI76_5(%rip), %ymm0
	vpaddd	(%rax,%rsi), %ymm0, %ymm0
	vpslld	$10, %ymm0, %ymm1
	vpbroadcastd	.LCPI76_6(%rip), %ymm2
	vpand	%ymm2, %ymm1, %ymm1
	vpsrld	$16, %ymm0, %ymm2
	vpbroadcastd	.LCPI76_7(%rip), %ymm3
	vpaddd	%ymm3, %ymm2, %ymm3
	vpaddd	%ymm3, %ymm1, %ymm1
	vmovdqu	%ymm1, (%rdx,%rsi)
	vpbroadcastd	.LCPI76_8(%rip), %ymm1
	vpand	%ymm1, %ymm0, %ymm0
	vpor	%ymm2, %ymm0, %ymm0
	vpbroadcastd	.LCPI76_9(%rip), %ymm1
	vpcmpgtd	%ymm1, %ymm0, %ymm0
	vmovmskps	%ymm0, %edi
	orl	$256, %edi
	tzcntl	%edi, %edi
	cmpb	$7, %dil
	jbe	.LBB76_38
	leaq	(%r9,%rbp), %rdi
	addq	$-32, %rbp
	leaq	-8(%rcx), %r14
	cmpq	$32, %rdi
	jb	.LBB76_10
	addq	%r12, %rcx
	addq	$32, %rsi
	cmpq	$7, %rcx
	movq	%r14, %rcx
	ja	.LBB76_7
.LBB76_10:
	negq	%rbp
	negq	%r14
	movq	%rbx, %rdx
	subq	%rbp, %rdx
	jne	.LBB76_29
	jmp	.LBB76_39
	.p2align	4
.LBB76_11:
	movq	%r13, %rdx
	addq	%rbp, %rdx
	movq	%r8, %rcx
	subq	%r14, %rcx
	shrq	%rax
	cmpq	%rax, %rcx
	cmovbq	%rcx, %rax
	cmpq	$32, %rax
	jb	.LBB76_15
	leaq	(,%r14,4), %rsi
	leaq	112(%r10), %rcx
	addq	%rcx, %rsi
	xorl	%ecx, %ecx
	movq	%rax, %rdi
	.p2align	4
.LBB76_13:
	vmovdqu	(%rdx,%rcx,2), %ymm1
	vmovdqu	32(%rdx,%rcx,2), %ymm0
	vpbroadcastd	.LCPI76_10(%rip), %ymm2
	vpand	%ymm2, %ymm1, %ymm3
	vpand	%ymm2, %ymm0, %ymm2
	vpbroadcastd	.LCPI76_11(%rip), %ymm4
	vpcmpeqw	%ymm4, %ymm2, %ymm2
	vpcmpeqw	%ymm4, %ymm3, %ymm3
	vpacksswb	%ymm2, %ymm3, %ymm2
	vpmovmskb	%ymm2, %r11d
	testl	%r11d, %r11d
	jne	.LBB76_16
	vpmovzxwd	%xmm1, %ymm2
	vmovdqu	%ymm2, -112(%rsi,%rcx,4)
	vextracti128	$1, %ymm1, %xmm1
	vpmovzxwd	%xmm1, %ymm1
	vmovdqu	%ymm1, -80(%rsi,%rcx,4)
	vpmovzxwd	%xmm0, %ymm1
	vmovdqu	%ymm1, -48(%rsi,%rcx,4)
	vextracti128	$1, %ymm0, %xmm0
	vpmovzxwd	%xmm0, %ymm0
	vmovdqu	%ymm0, -16(%rsi,%rcx,4)
	addq	$32, %rcx
	addq	$-32, %rdi
	cmpq	$31, %rdi
	ja	.LBB76_13
	jmp	.LBB76_16
	.p2align	4
.LBB76_15:
	xorl	%ecx, %ecx
.LBB76_16:
	leaq	(%r10,%r14,4), %rsi
	.p2align	4
.LBB76_17:
	movq	%rax, %rdi
	subq	%rcx, %rdi
	cmpq	$8, %rdi
	jb	.LBB76_20
	vmovdqu	(%rdx,%rcx,2), %xmm0
	vpmovzxwd	%xmm0, %ymm1
	vmovdqu	%ymm1, (%rsi,%rcx,4)
	vpshufb	.LCPI76_2(%rip), %xmm0, %xmm0
	vpand	.LCPI76_3(%rip), %xmm0, %xmm0
	vpcmpeqb	.LCPI76_4(%rip), %xmm0, %xmm0
	vpmovmskb	%xmm0, %edi
	orl	$256, %edi
	tzcntl	%edi, %edi
	addq	%rdi, %rcx
	cmpb	$7, %dil
	ja	.LBB76_17
	movq	%rax, %rdi
	subq	%rcx, %rdi
	cmpq	$7, %rdi
	ja	.LBB76_27
.LBB76_20:
	cmpq	$7, %rax
	jbe	.LBB76_22
	vmovdqu	-16(%rdx,%rax,2), %xmm0
	vpmovzxwd	%xmm0, %ymm1
	vmovdqu	%xmm1, -32(%rsi,%rax,4)
	vextracti128	$1, %ymm1, -16(%rsi,%rax,4)
	vpshufb	.LCPI76_2(%rip), %xmm0, %xmm0
	vpand	.LCPI76_3(%rip), %xmm0, %xmm0
	vpcmpeqb	.LCPI76_4(%rip), %xmm0, %xmm0
	vpmovmskb	%xmm0, %ecx
	orl	$256, %ecx
	tzcntl	%ecx, %ecx
	addq	%rax, %rcx
	addq	$-8, %rcx
	jmp	.LBB76_27
	.p2align	4
.LBB76_22:
	cmpq	%rcx, %rax
	je	.LBB76_26
	leaq	1(%r13), %rdx
	addq	%rbp, %rdx
	.p2align	4
.LBB76_24:
	movzbl	(%rdx,%rcx,2), %edi
	movl	%edi, %r11d
	andl	$-8, %r11d
	cmpl	$216, %r11d
	je	.LBB76_27
	shll	$8, %edi
	movzbl	-1(%rdx,%rcx,2), %r11d
	orl	%edi, %r11d
	movl	%r11d, (%rsi,%rcx,4)
	incq	%rcx
	cmpq	%rcx, %rax
	jne	.LBB76_24
.LBB76_26:
	movq	%rax, %rcx
.LBB76_27:
	leaq	(%rbp,%rcx,2), %rbp
	addq	%rcx, %r14
.LBB76_28:
	movq	%rbx, %rdx
	subq	%rbp, %rdx
	je	.LBB76_39
.LBB76_29:
	cmpq	$2, %rdx
	jb	.LBB76_42
	movzbl	1(%r13,%rbp), %eax
	movzwl	%ax, %ecx
	andl	$-8, %eax
	cmpl	$216, %eax
	jne	.LBB76_34
	movl	%ecx, %esi
	notl	%esi
	movb	$1, %al
	testb	$-36, %sil
	je	.LBB76_45
	cmpq	$4, %rdx
	jb	.LBB76_42
	movzbl	3(%r13,%rbp), %edx
	andb	$-4, %dl
	cmpb	$-36, %dl
	jne	.LBB76_45
.LBB76_34:
	movzbl	(%r13,%rbp), %edx
	movl	%ecx, %eax
	shll	$8, %eax
	orl	%edx, %eax
	andl	$-4, %ecx
	cmpl	$216, %ecx
	jne	.LBB76_36
	movzwl	2(%r13,%rbp), %esi
	movl	%eax, %edi
	movq	%r9, %r12
	movq	%r10, %rbx
	movq	%r8, %r15
	vzeroupper
	callq	L_5
	movq	%r15, %r8
	movq	%rbx, %r10
	movq	16(%rsp), %rbx
	movq	%r12, %r9
	movq	8(%rsp), %r12
	movl	$4, %ecx
	cmpq	%r8, %r14
	jne	.LBB76_37
	jmp	.LBB76_43
.LBB76_38:
	movzbl	%dil, %r14d
	leaq	(,%r14,4), %rax
	subq	%rbp, %rax
	subq	%rcx, %r14
	movq	%rax, %rbp
	movq	%rbx, %rdx
	subq	%rbp, %rdx
	jne	.LBB76_29
.LBB76_39:
	movq	%rbx, %rbp
	jmp	.LBB76_41
.LBB76_40:
	xorl	%ebp, %ebp
	xorl	%r14d, %r14d
.LBB76_41:
	movq	(%rsp), %rax
	movq	%rbp, (%rax)
	movq	%r14, 8(%rax)
	movw	$0, 16(%rax)
	jmp	.LBB76_47
.LBB76_42:
	movb	$2, %al
	xorl	%ecx, %ecx
	jmp	.LBB76_46
.LBB76_45:
	movb	$2, %cl
	jmp	.LBB76_46
.LBB76_43:
	movb	$3, %al
	xorl	%ecx, %ecx
	movq	%r8, %r14
.LBB76_46:
	movq	(%rsp), %rdx
	movq	%rbp, (%rdx)
	movq	%r14, 8(%rdx)
	movb	%al, 16(%rdx)
	movb	%cl, 17(%rdx)
.LBB76_47:
	addq	$24, %rsp
	popq	%rbx
	popq	%r12
	popq	%r13
	popq	%r14
	popq	%r15
	popq	%rbp
	vzeroupper
	retq
.Lfunc_end76:

	.section	.rdata$000,"dr"
	.p2align	4, 0x0
.LCPI77_0:
	.byte	1
	.byte	0
	.byte	3
	.byte	2
	.byte	5
	.byte	4
	.byte	7
	.byte	6
	.byte	9
	.byte	8
	.byte	11
	.byte	10
	.byte	13
	.byte	12
	.byte	15
	.byte	14
.LCPI77_1:
	.short	128
	.short	128
	.short	128
	.short	128
	.short	128
	.short	128
	.short	128
	.short	128
	.section	.text$093,"xr"
	.p2align	4
L_77:
	pushq	%rbp
	pushq	%r15
	pushq	%r14
	pushq	%r13
	pushq	%r12
	pushq	%rbx
	subq	$104, %rsp
	movq	%rdx, %r14
	movq	%rdi, 80(%rsp)
	xorl	%r11d, %r11d
	xorl	%r15d, %r15d
	movq	%r8, 32(%rsp)
	movq	%rdx, 16(%rsp)
	movq	%rcx, 24(%rsp)
	movq	%rsi, 88(%rsp)
	jmp	.LBB77_1
	.p2align	4
.LBB77_40:
	addq	$2, %r15
	addq	%rax, %r11
.LBB77_1:
	leaq	(%rsi,%r15), %rdi
	movq	%r15, 96(%rsp)
	subq	%r15, %r14
	leaq	(%rcx,%r11), %r9
	vpxor	%xmm0, %xmm0, %xmm0
	vmovdqa	%xmm0, 48(%rsp)
	subq	%r11, %r8
	movq	$0, 64(%rsp)
	leaq	-16(%r14), %rax
	cmpq	$175, %rax
	ja	.LBB77_2
	movq	%r14, %rax
	shrq	%rax
	cmpq	%rax, %r8
	cmovbq	%r8, %rax
	cmpq	$8, %rax
	jb	.LBB77_2
	leaq	(%rax,%rax), %rcx
	xorl	%r13d, %r13d
	xorl	%ebp, %ebp
	.p2align	4
.LBB77_5:
	vmovdqu	(%rdi,%rbp,2), %xmm0
	vpshufb	.LCPI77_0(%rip), %xmm0, %xmm0
	vpmaxuw	.LCPI77_1(%rip), %xmm0, %xmm1
	vpcmpeqw	%xmm1, %xmm0, %xmm1
	vpmovmskb	%xmm1, %edx
	testl	%edx, %edx
	jne	.LBB77_10
	vpackuswb	%xmm0, %xmm0, %xmm0
	vmovq	%xmm0, (%r9,%rbp)
	addq	$8, %rbp
	leaq	(%rcx,%r13), %rdx
	addq	$-16, %rdx
	addq	$-16, %r13
	cmpq	$15, %rdx
	ja	.LBB77_5
	negq	%r13
	cmpq	%r13, %rcx
	jbe	.LBB77_11
	vmovdqu	-16(%rdi,%rcx), %xmm0
	vpshufb	.LCPI77_0(%rip), %xmm0, %xmm0
	vpmaxuw	.LCPI77_1(%rip), %xmm0, %xmm1
	vpcmpeqw	%xmm1, %xmm0, %xmm1
	vpmovmskb	%xmm1, %edx
	testl	%edx, %edx
	jne	.LBB77_11
	vpackuswb	%xmm0, %xmm0, %xmm0
	vmovq	%xmm0, -8(%r9,%rax)
	movq	%rax, %rbp
	movq	%rcx, %r13
	movq	%r14, %rax
	subq	%r13, %rax
	cmpq	$15, %rax
	ja	.LBB77_21
	jmp	.LBB77_12
	.p2align	4
.LBB77_2:
	xorl	%ebp, %ebp
	xorl	%r13d, %r13d
.LBB77_11:
	movq	%r14, %rax
	subq	%r13, %rax
	cmpq	$15, %rax
	jbe	.LBB77_12
.LBB77_21:
	leaq	-8(%r14), %rax
	cmpq	$183, %rax
	movq	%r11, 40(%rsp)
	ja	.LBB77_22
	movq	%r14, %rsi
	subq	%r13, %rsi
	cmpq	$8, %rsi
	jae	.LBB77_24
.LBB77_22:
	movq	%r9, %r12
	movq	%r8, %rbx
	movq	%rdi, %r15
	cmpq	%r14, %r13
	jne	.LBB77_28
	jmp	.LBB77_26
	.p2align	4
.LBB77_24:
	movq	%rdi, %r15
	addq	%r13, %rdi
	movq	%r9, %r12
	leaq	(%r9,%rbp), %rdx
	movq	%r8, %rbx
	movq	%r8, %rcx
	subq	%rbp, %rcx
	callq	L_28
	addq	%rax, %r13
	addq	%rdx, %rbp
	cmpq	%r14, %r13
	je	.LBB77_26
.LBB77_28:
	movq	%rbp, (%rsp)
	leaq	48(%rsp), %rdi
	movq	%r15, %rsi
	movq	%r14, %rdx
	movq	%r12, %rcx
	movq	%rbx, %r8
	movq	%r13, %r9
	callq	L_29
	movq	96(%rsp), %r15
	addq	48(%rsp), %r15
	movzbl	64(%rsp), %eax
	movq	40(%rsp), %r11
	addq	56(%rsp), %r11
	cmpb	$1, %al
	jne	.LBB77_29
	movq	88(%rsp), %rsi
	movbew	(%rsi,%r15), %di
	cmpw	$127, %di
	ja	.LBB77_34
	movq	32(%rsp), %r8
	cmpq	%r11, %r8
	movq	16(%rsp), %r14
	movq	24(%rsp), %rcx
	je	.LBB77_32
	movb	%dil, (%rcx,%r11)
	movl	$1, %eax
	jmp	.LBB77_40
	.p2align	4
.LBB77_34:
	movq	32(%rsp), %r8
	movq	%r8, %r10
	subq	%r11, %r10
	movl	%edi, %eax
	andb	$63, %al
	orb	$-128, %al
	movzwl	%di, %edi
	movl	%edi, %r9d
	shrl	$6, %r9d
	cmpl	$2047, %edi
	movq	16(%rsp), %r14
	movq	24(%rsp), %rcx
	ja	.LBB77_38
	cmpq	$2, %r10
	jb	.LBB77_36
	movzwl	%r9w, %edi
	movzbl	%al, %eax
	shll	$8, %eax
	orl	%edi, %eax
	orl	$192, %eax
	movw	%ax, (%rcx,%r11)
	movl	$2, %eax
	jmp	.LBB77_40
	.p2align	4
.LBB77_38:
	cmpq	$3, %r10
	jb	.LBB77_36
	shrl	$12, %edi
	orb	$-32, %dil
	andb	$63, %r9b
	orb	$-128, %r9b
	movb	%dil, (%rcx,%r11)
	movb	%r9b, 1(%rcx,%r11)
	movb	%al, 2(%rcx,%r11)
	movl	$3, %eax
	jmp	.LBB77_40
.LBB77_10:
	negq	%r13
	movq	%r14, %rax
	subq	%r13, %rax
	cmpq	$15, %rax
	ja	.LBB77_21
	.p2align	4
.LBB77_12:
	movq	%r8, %rcx
	subq	%rbp, %rcx
	movq	%rax, %rdx
	shrq	%rdx
	leaq	(%rdx,%rdx,2), %rdx
	cmpq	%rdx, %rcx
	jb	.LBB77_21
	cmpq	$2, %rax
	jae	.LBB77_14
	jmp	.LBB77_21
	.p2align	4
.LBB77_15:
	movb	%cl, (%r9,%rbp)
	incq	%rbp
.LBB77_20:
	addq	$2, %r13
	addq	$-2, %rax
	cmpq	$1, %rax
	jbe	.LBB77_21
.LBB77_14:
	movbew	(%rdi,%r13), %cx
	cmpw	$127, %cx
	jbe	.LBB77_15
	movzwl	%cx, %edx
	cmpl	$2047, %edx
	ja	.LBB77_18
	shrl	$6, %edx
	andl	$63, %ecx
	shll	$8, %ecx
	orl	%edx, %ecx
	orl	$32960, %ecx
	movw	%cx, (%r9,%rbp)
	addq	$2, %rbp
	jmp	.LBB77_20
	.p2align	4
.LBB77_18:
	movl	%ecx, %esi
	andl	$63488, %esi
	cmpl	$55296, %esi
	je	.LBB77_21
	movl	%ecx, %esi
	andb	$63, %sil
	orb	$-128, %sil
	shrl	$6, %ecx
	andb	$63, %cl
	orb	$-128, %cl
	shrl	$12, %edx
	orb	$-32, %dl
	movb	%dl, (%r9,%rbp)
	movb	%cl, 1(%r9,%rbp)
	movb	%sil, 2(%r9,%rbp)
	addq	$3, %rbp
	jmp	.LBB77_20
.LBB77_26:
	movq	40(%rsp), %r11
	addq	%rbp, %r11
	xorl	%eax, %eax
	xorl	%ecx, %ecx
	movq	16(%rsp), %r15
	jmp	.LBB77_27
.LBB77_29:
	movzbl	65(%rsp), %ecx
	jmp	.LBB77_27
.LBB77_36:
	movb	$3, %al
	xorl	%ecx, %ecx
	jmp	.LBB77_27
.LBB77_32:
	movb	$3, %al
	xorl	%ecx, %ecx
	movq	%r8, %r11
.LBB77_27:
	movq	80(%rsp), %rdx
	movq	%r15, (%rdx)
	movq	%r11, 8(%rdx)
	movb	%al, 16(%rdx)
	movb	%cl, 17(%rdx)
	addq	$104, %rsp
	popq	%rbx
	popq	%r12
	popq	%r13
	popq	%r14
	popq	%r15
	popq	%rbp
	retq
.Lfunc_end77:

	.section	.rdata$000,"dr"
	.p2align	4, 0x0
.LCPI78_0:
	.short	128
	.short	128
	.short	128
	.short	128
	.short	128
	.short	128
	.short	128
	.short	128
	.section	.text$094,"xr"
	.p2align	4
L_78:
	pushq	%rbp
	pushq	%r15
	pushq	%r14
	pushq	%r13
	pushq	%r12
	pushq	%rbx
	subq	$104, %rsp
	movq	%rdx, %r14
	movq	%rdi, 80(%rsp)
	leaq	1(%rsi), %rax
	movq	%rax, 88(%rsp)
	xorl	%r11d, %r11d
	xorl	%ebp, %ebp
	movq	%r8, 24(%rsp)
	movq	%rcx, 8(%rsp)
	movq	%rdx, 16(%rsp)
	movq	%rsi, 96(%rsp)
	jmp	.LBB78_1
	.p2align	4
.LBB78_41:
	addq	$2, %rbp
	addq	%rax, %r11
.LBB78_1:
	leaq	(%rsi,%rbp), %r9
	subq	%rbp, %r14
	leaq	(%rcx,%r11), %r10
	vpxor	%xmm0, %xmm0, %xmm0
	vmovdqa	%xmm0, 48(%rsp)
	subq	%r11, %r8
	movq	$0, 64(%rsp)
	leaq	-16(%r14), %rax
	cmpq	$175, %rax
	ja	.LBB78_2
	movq	%r14, %rax
	shrq	%rax
	cmpq	%rax, %r8
	cmovbq	%r8, %rax
	cmpq	$8, %rax
	jb	.LBB78_2
	leaq	(%rax,%rax), %rcx
	xorl	%r12d, %r12d
	xorl	%r15d, %r15d
	.p2align	4
.LBB78_5:
	vmovdqu	(%r9,%r15,2), %xmm0
	vpmaxuw	.LCPI78_0(%rip), %xmm0, %xmm1
	vpcmpeqw	%xmm1, %xmm0, %xmm1
	vpmovmskb	%xmm1, %edx
	testl	%edx, %edx
	jne	.LBB78_10
	vpackuswb	%xmm0, %xmm0, %xmm0
	vmovq	%xmm0, (%r10,%r15)
	addq	$8, %r15
	leaq	(%rcx,%r12), %rdx
	addq	$-16, %rdx
	addq	$-16, %r12
	cmpq	$15, %rdx
	ja	.LBB78_5
	negq	%r12
	cmpq	%r12, %rcx
	jbe	.LBB78_11
	vmovdqu	-16(%r9,%rcx), %xmm0
	vpmaxuw	.LCPI78_0(%rip), %xmm0, %xmm1
	vpcmpeqw	%xmm1, %xmm0, %xmm1
	vpmovmskb	%xmm1, %edx
	testl	%edx, %edx
	jne	.LBB78_11
	vpackuswb	%xmm0, %xmm0, %xmm0
	vmovq	%xmm0, -8(%r10,%rax)
	movq	%rax, %r15
	movq	%rcx, %r12
	jmp	.LBB78_11
	.p2align	4
.LBB78_2:
	xorl	%r15d, %r15d
	xorl	%r12d, %r12d
.LBB78_11:
	movq	%r14, %rax
	subq	%r12, %rax
	cmpq	$15, %rax
	movq	%r8, 40(%rsp)
	jbe	.LBB78_12
.LBB78_22:
	leaq	-8(%r14), %rax
	cmpq	$183, %rax
	movq	%r11, 32(%rsp)
	ja	.LBB78_23
	movq	%r14, %rsi
	subq	%r12, %rsi
	cmpq	$8, %rsi
	jae	.LBB78_25
.LBB78_23:
	movq	%r10, %r13
	movq	%r9, %rbx
	cmpq	%r14, %r12
	jne	.LBB78_29
	jmp	.LBB78_27
	.p2align	4
.LBB78_12:
	movq	%r8, %rcx
	subq	%r15, %rcx
	movq	%rax, %rdx
	shrq	%rdx
	leaq	(%rdx,%rdx,2), %rdx
	cmpq	%rdx, %rcx
	jb	.LBB78_22
	cmpq	$2, %rax
	jb	.LBB78_22
	movq	88(%rsp), %rcx
	addq	%rbp, %rcx
	jmp	.LBB78_15
	.p2align	4
.LBB78_16:
	movb	%dl, (%r10,%r15)
	incq	%r15
.LBB78_21:
	addq	$2, %r12
	addq	$-2, %rax
	cmpq	$1, %rax
	jbe	.LBB78_22
.LBB78_15:
	movzbl	-1(%rcx,%r12), %edx
	movzbl	(%rcx,%r12), %edi
	movl	%edi, %esi
	shll	$8, %esi
	orl	%edx, %esi
	cmpw	$127, %si
	jbe	.LBB78_16
	cmpb	$7, %dil
	ja	.LBB78_19
	movzwl	%dx, %edx
	andl	$63, %edx
	shll	$8, %edx
	movzwl	%si, %esi
	shrl	$6, %esi
	orl	%edx, %esi
	orl	$32960, %esi
	movw	%si, (%r10,%r15)
	addq	$2, %r15
	jmp	.LBB78_21
	.p2align	4
.LBB78_19:
	movzwl	%di, %r8d
	andl	$-8, %r8d
	cmpl	$216, %r8d
	je	.LBB78_22
	andb	$63, %dl
	orb	$-128, %dl
	shrl	$6, %esi
	andb	$63, %sil
	orb	$-128, %sil
	shrb	$4, %dil
	orb	$-32, %dil
	movb	%dil, (%r10,%r15)
	movb	%sil, 1(%r10,%r15)
	movb	%dl, 2(%r10,%r15)
	addq	$3, %r15
	jmp	.LBB78_21
	.p2align	4
.LBB78_25:
	movq	%r9, %rbx
	leaq	(%r9,%r12), %rdi
	movq	%r10, %r13
	leaq	(%r10,%r15), %rdx
	movq	40(%rsp), %rcx
	subq	%r15, %rcx
	callq	L_38
	addq	%rax, %r12
	addq	%rdx, %r15
	cmpq	%r14, %r12
	je	.LBB78_27
.LBB78_29:
	movq	%r15, (%rsp)
	leaq	48(%rsp), %rdi
	movq	%rbx, %rsi
	movq	%r14, %rdx
	movq	%r13, %rcx
	movq	40(%rsp), %r8
	movq	%r12, %r9
	callq	L_39
	addq	48(%rsp), %rbp
	movzbl	64(%rsp), %eax
	movq	32(%rsp), %r11
	addq	56(%rsp), %r11
	cmpb	$1, %al
	jne	.LBB78_30
	movq	96(%rsp), %rsi
	movzbl	(%rsi,%rbp), %eax
	movzbl	1(%rsi,%rbp), %ecx
	movl	%ecx, %edx
	shll	$8, %edx
	orl	%eax, %edx
	cmpw	$127, %dx
	ja	.LBB78_35
	movq	24(%rsp), %r8
	cmpq	%r11, %r8
	movq	16(%rsp), %r14
	je	.LBB78_33
	movq	8(%rsp), %rcx
	movb	%al, (%rcx,%r11)
	movl	$1, %eax
	jmp	.LBB78_41
	.p2align	4
.LBB78_35:
	movq	24(%rsp), %r8
	movq	%r8, %r9
	subq	%r11, %r9
	andl	$63, %eax
	orl	$128, %eax
	movzwl	%dx, %edi
	shrl	$6, %edi
	cmpb	$7, %cl
	movq	16(%rsp), %r14
	ja	.LBB78_39
	cmpq	$2, %r9
	jb	.LBB78_37
	movzwl	%ax, %eax
	shll	$8, %eax
	movzwl	%di, %ecx
	orl	%eax, %ecx
	orl	$192, %ecx
	movq	8(%rsp), %rax
	movw	%cx, (%rax,%r11)
	movq	%rax, %rcx
	movl	$2, %eax
	jmp	.LBB78_41
	.p2align	4
.LBB78_39:
	cmpq	$3, %r9
	jb	.LBB78_37
	shrb	$4, %cl
	orb	$-32, %cl
	andb	$63, %dil
	orb	$-128, %dil
	movq	8(%rsp), %r9
	movb	%cl, (%r9,%r11)
	movq	%r9, %rcx
	movb	%dil, 1(%r9,%r11)
	movb	%al, 2(%r9,%r11)
	movl	$3, %eax
	jmp	.LBB78_41
.LBB78_10:
	negq	%r12
	jmp	.LBB78_11
.LBB78_27:
	movq	32(%rsp), %r11
	addq	%r15, %r11
	xorl	%eax, %eax
	xorl	%ecx, %ecx
	movq	16(%rsp), %rbp
	jmp	.LBB78_28
.LBB78_30:
	movzbl	65(%rsp), %ecx
	jmp	.LBB78_28
.LBB78_37:
	movb	$3, %al
	xorl	%ecx, %ecx
	jmp	.LBB78_28
.LBB78_33:
	movb	$3, %al
	xorl	%ecx, %ecx
	movq	%r8, %r11
.LBB78_28:
	movq	80(%rsp), %rdx
	movq	%rbp, (%rdx)
	movq	%r11, 8(%rdx)
	movb	%al, 16(%rdx)
	movb	%cl, 17(%rdx)
	addq	$104, %rsp
	popq	%rbx
	popq	%r12
	popq	%r13
	popq	%r14
	popq	%r15
	popq	%rbp
	retq
.Lfunc_end78:

	.section	.rdata$003,"dr"
	.p2align	5, 0x0
.LCPI79_0:
	.short	255
	.short	255
	.short	255
	.short	255
	.short	255
	.short	255
	.short	255
	.short	255
	.short	255
	.short	255
	.short	255
	.short	255
	.short	255
	.short	255
	.short	255
	.short	255
	.section	.rdata$000,"dr"
	.p2align	4, 0x0
.LCPI79_1:
	.zero	16,248
.LCPI79_2:
	.zero	16,216
.LCPI79_3:
	.byte	0
	.byte	2
	.byte	4
	.byte	6
	.byte	8
	.byte	10
	.byte	12
	.byte	14
	.zero	1
	.zero	1
	.zero	1
	.zero	1
	.zero	1
	.zero	1
	.zero	1
	.zero	1
.LCPI79_4:
	.byte	0
	.byte	2
	.byte	4
	.byte	6
	.zero	1
	.zero	1
	.zero	1
	.zero	1
	.zero	1
	.zero	1
	.zero	1
	.zero	1
	.zero	1
	.zero	1
	.zero	1
	.zero	1
.LCPI79_5:
	.byte	248
	.byte	248
	.byte	248
	.byte	248
	.zero	1
	.zero	1
	.zero	1
	.zero	1
	.zero	1
	.zero	1
	.zero	1
	.zero	1
	.zero	1
	.zero	1
	.zero	1
	.zero	1
.LCPI79_6:
	.byte	216
	.byte	216
	.byte	216
	.byte	216
	.zero	1
	.zero	1
	.zero	1
	.zero	1
	.zero	1
	.zero	1
	.zero	1
	.zero	1
	.zero	1
	.zero	1
	.zero	1
	.zero	1
	.section	.text$095,"xr"
	.p2align	4
L_79:
	pushq	%r15
	pushq	%r14
	pushq	%r12
	pushq	%rbx
	pushq	%rax
	movq	%rdx, %r14
	movq	%rsi, %r15
	movq	%rdi, %rbx
	cmpq	$2, %rdx
	jne	.LBB79_3
	movzbl	(%r15), %eax
	andb	$-8, %al
	cmpb	$-40, %al
	je	.LBB79_24
	xorl	%ecx, %ecx
	movl	$2, %r12d
	xorl	%eax, %eax
	jmp	.LBB79_26
.LBB79_3:
	cmpq	$7, %r14
	ja	.LBB79_14
	xorl	%ecx, %ecx
	testq	%r14, %r14
	je	.LBB79_5
	cmpq	$6, %r14
	je	.LBB79_11
	cmpq	$4, %r14
	jne	.LBB79_24
	movzbl	(%r15), %eax
	andb	$-8, %al
	cmpb	$-40, %al
	je	.LBB79_24
	movzbl	2(%r15), %edx
	andb	$-8, %dl
	movl	$4, %r12d
	movl	$0, %eax
	cmpb	$-40, %dl
	jne	.LBB79_26
	jmp	.LBB79_24
.LBB79_14:
	cmpq	$65, %r14
	setae	%al
	movl	%r14d, %ecx
	orb	%al, %cl
	testb	$1, %cl
	jne	.LBB79_24
	cmpq	$15, %r14
	ja	.LBB79_19
	vmovq	(%r15), %xmm0
	vpshufb	.LCPI79_4(%rip), %xmm0, %xmm0
	vpand	.LCPI79_5(%rip), %xmm0, %xmm0
	vpcmpeqb	.LCPI79_6(%rip), %xmm0, %xmm0
	vpmovsxbd	%xmm0, %xmm0
	vtestps	%xmm0, %xmm0
	jne	.LBB79_24
	vmovq	-8(%r15,%r14), %xmm0
	vpshufb	.LCPI79_4(%rip), %xmm0, %xmm0
	vpand	.LCPI79_5(%rip), %xmm0, %xmm0
	vpcmpeqb	.LCPI79_6(%rip), %xmm0, %xmm0
	vpmovsxbd	%xmm0, %xmm0
	vtestps	%xmm0, %xmm0
	jne	.LBB79_24
	jmp	.LBB79_18
.LBB79_11:
	movzbl	(%r15), %eax
	andb	$-8, %al
	cmpb	$-40, %al
	je	.LBB79_24
	movzbl	2(%r15), %eax
	andb	$-8, %al
	cmpb	$-40, %al
	je	.LBB79_24
	movzbl	4(%r15), %edx
	andb	$-8, %dl
	movl	$6, %r12d
	movl	$0, %eax
	cmpb	$-40, %dl
	jne	.LBB79_26
	jmp	.LBB79_24
.LBB79_19:
	cmpq	$31, %r14
	ja	.LBB79_22
	vmovdqu	(%r15), %xmm0
	vpshufb	.LCPI79_3(%rip), %xmm0, %xmm0
	vpand	.LCPI79_1(%rip), %xmm0, %xmm0
	vpcmpeqb	.LCPI79_2(%rip), %xmm0, %xmm0
	vpmovmskb	%xmm0, %eax
	testb	%al, %al
	jne	.LBB79_24
	vmovdqu	-16(%r15,%r14), %xmm0
	vpshufb	.LCPI79_3(%rip), %xmm0, %xmm0
	vpand	.LCPI79_1(%rip), %xmm0, %xmm0
	vpcmpeqb	.LCPI79_2(%rip), %xmm0, %xmm0
	vpmovmskb	%xmm0, %eax
	testb	%al, %al
	jne	.LBB79_24
	jmp	.LBB79_18
.LBB79_22:
	vmovdqu	(%r15), %ymm0
	vpand	.LCPI79_0(%rip), %ymm0, %ymm0
	vextracti128	$1, %ymm0, %xmm1
	vpackuswb	%xmm1, %xmm0, %xmm0
	vpand	.LCPI79_1(%rip), %xmm0, %xmm0
	vpcmpeqb	.LCPI79_2(%rip), %xmm0, %xmm0
	vpmovmskb	%xmm0, %eax
	testl	%eax, %eax
	jne	.LBB79_24
	vmovdqu	-32(%r15,%r14), %ymm0
	vpand	.LCPI79_0(%rip), %ymm0, %ymm0
	vextracti128	$1, %ymm0, %xmm1
	vpackuswb	%xmm1, %xmm0, %xmm0
	vpand	.LCPI79_1(%rip), %xmm0, %xmm0
	vpcmpeqb	.LCPI79_2(%rip), %xmm0, %xmm0
	vpmovmskb	%xmm0, %eax
	testl	%eax, %eax
	je	.LBB79_18
.LBB79_24:
	movq	%r15, %rdi
	movq	%r14, %rsi
	vzeroupper
	callq	L_9
	movq	%r14, %rsi
	subq	%rax, %rsi
	jne	.LBB79_25
.LBB79_18:
	xorl	%ecx, %ecx
.LBB79_5:
	movq	%r14, %r12
	xorl	%eax, %eax
	jmp	.LBB79_26
.LBB79_25:
	movq	%rax, %r12
	addq	%rax, %r15
	movq	%r15, %rdi
	callq	L_10
	xorl	%esi, %esi
	xorl	%ecx, %ecx
	cmpb	$1, %al
	setne	%cl
	movzbl	%dl, %eax
	cmovnel	%esi, %eax
	incl	%ecx
	movzbl	%al, %eax
.LBB79_26:
	movq	%r12, (%rbx)
	movl	%ecx, 8(%rbx)
	movl	%eax, 12(%rbx)
	addq	$8, %rsp
	popq	%rbx
	popq	%r12
	popq	%r14
	popq	%r15
	vzeroupper
	retq
.Lfunc_end79:

	.section	.rdata$000,"dr"
	.p2align	4, 0x0
.LCPI80_0:
	.zero	16,248
.LCPI80_1:
	.zero	16,216
.LCPI80_2:
	.byte	1
	.byte	3
	.byte	5
	.byte	7
	.byte	9
	.byte	11
	.byte	13
	.byte	15
	.zero	1
	.zero	1
	.zero	1
	.zero	1
	.zero	1
	.zero	1
	.zero	1
	.zero	1
.LCPI80_3:
	.byte	1
	.byte	3
	.byte	5
	.byte	7
	.zero	1
	.zero	1
	.zero	1
	.zero	1
	.zero	1
	.zero	1
	.zero	1
	.zero	1
	.zero	1
	.zero	1
	.zero	1
	.zero	1
.LCPI80_4:
	.byte	248
	.byte	248
	.byte	248
	.byte	248
	.zero	1
	.zero	1
	.zero	1
	.zero	1
	.zero	1
	.zero	1
	.zero	1
	.zero	1
	.zero	1
	.zero	1
	.zero	1
	.zero	1
.LCPI80_5:
	.byte	216
	.byte	216
	.byte	216
	.byte	216
	.zero	1
	.zero	1
	.zero	1
	.zero	1
	.zero	1
	.zero	1
	.zero	1
	.zero	1
	.zero	1
	.zero	1
	.zero	1
	.zero	1
	.section	.text$096,"xr"
	.p2align	4
L_80:
	pushq	%r15
	pushq	%r14
	pushq	%r12
	pushq	%rbx
	pushq	%rax
	movq	%rdx, %r14
	movq	%rsi, %r15
	movq	%rdi, %rbx
	cmpq	$2, %rdx
	jne	.LBB80_3
	movzbl	1(%r15), %eax
	andb	$-8, %al
	cmpb	$-40, %al
	je	.LBB80_24
	xorl	%ecx, %ecx
	movl	$2, %r12d
	xorl	%eax, %eax
	jmp	.LBB80_26
.LBB80_3:
	cmpq	$7, %r14
	ja	.LBB80_14
	xorl	%ecx, %ecx
	testq	%r14, %r14
	je	.LBB80_5
	cmpq	$6, %r14
	je	.LBB80_11
	cmpq	$4, %r14
	jne	.LBB80_24
	movzbl	1(%r15), %eax
	andb	$-8, %al
	cmpb	$-40, %al
	je	.LBB80_24
	movzbl	3(%r15), %edx
	andb	$-8, %dl
	movl	$4, %r12d
	movl	$0, %eax
	cmpb	$-40, %dl
	jne	.LBB80_26
	jmp	.LBB80_24
.LBB80_14:
	cmpq	$65, %r14
	setae	%al
	movl	%r14d, %ecx
	orb	%al, %cl
	testb	$1, %cl
	jne	.LBB80_24
	cmpq	$15, %r14
	ja	.LBB80_19
	vmovq	(%r15), %xmm0
	vpshufb	.LCPI80_3(%rip), %xmm0, %xmm0
	vpand	.LCPI80_4(%rip), %xmm0, %xmm0
	vpcmpeqb	.LCPI80_5(%rip), %xmm0, %xmm0
	vpmovsxbd	%xmm0, %xmm0
	vtestps	%xmm0, %xmm0
	jne	.LBB80_24
	vmovq	-8(%r15,%r14), %xmm0
	vpshufb	.LCPI80_3(%rip), %xmm0, %xmm0
	vpand	.LCPI80_4(%rip), %xmm0, %xmm0
	vpcmpeqb	.LCPI80_5(%rip), %xmm0, %xmm0
	vpmovsxbd	%xmm0, %xmm0
	vtestps	%xmm0, %xmm0
	jne	.LBB80_24
	jmp	.LBB80_18
.LBB80_11:
	movzbl	1(%r15), %eax
	andb	$-8, %al
	cmpb	$-40, %al
	je	.LBB80_24
	movzbl	3(%r15), %eax
	andb	$-8, %al
	cmpb	$-40, %al
	je	.LBB80_24
	movzbl	5(%r15), %edx
	andb	$-8, %dl
	movl	$6, %r12d
	movl	$0, %eax
	cmpb	$-40, %dl
	jne	.LBB80_26
	jmp	.LBB80_24
.LBB80_19:
	cmpq	$31, %r14
	ja	.LBB80_22
	vmovdqu	(%r15), %xmm0
	vpshufb	.LCPI80_2(%rip), %xmm0, %xmm0
	vpand	.LCPI80_0(%rip), %xmm0, %xmm0
	vpcmpeqb	.LCPI80_1(%rip), %xmm0, %xmm0
	vpmovmskb	%xmm0, %eax
	testb	%al, %al
	jne	.LBB80_24
	vmovdqu	-16(%r15,%r14), %xmm0
	vpshufb	.LCPI80_2(%rip), %xmm0, %xmm0
	vpand	.LCPI80_0(%rip), %xmm0, %xmm0
	vpcmpeqb	.LCPI80_1(%rip), %xmm0, %xmm0
	vpmovmskb	%xmm0, %eax
	testb	%al, %al
	jne	.LBB80_24
	jmp	.LBB80_18
.LBB80_22:
	vmovdqu	(%r15), %ymm0
	vpsrlw	$8, %ymm0, %ymm0
	vextracti128	$1, %ymm0, %xmm1
	vpackuswb	%xmm1, %xmm0, %xmm0
	vpand	.LCPI80_0(%rip), %xmm0, %xmm0
	vpcmpeqb	.LCPI80_1(%rip), %xmm0, %xmm0
	vpmovmskb	%xmm0, %eax
	testl	%eax, %eax
	jne	.LBB80_24
	vmovdqu	-32(%r15,%r14), %ymm0
	vpsrlw	$8, %ymm0, %ymm0
	vextracti128	$1, %ymm0, %xmm1
	vpackuswb	%xmm1, %xmm0, %xmm0
	vpand	.LCPI80_0(%rip), %xmm0, %xmm0
	vpcmpeqb	.LCPI80_1(%rip), %xmm0, %xmm0
	vpmovmskb	%xmm0, %eax
	testl	%eax, %eax
	je	.LBB80_18
.LBB80_24:
	movq	%r15, %rdi
	movq	%r14, %rsi
	vzeroupper
	callq	L_12
	movq	%r14, %rsi
	subq	%rax, %rsi
	jne	.LBB80_25
.LBB80_18:
	xorl	%ecx, %ecx
.LBB80_5:
	movq	%r14, %r12
	xorl	%eax, %eax
	jmp	.LBB80_26
.LBB80_25:
	movq	%rax, %r12
	addq	%rax, %r15
	movq	%r15, %rdi
	callq	L_13
	xorl	%esi, %esi
	xorl	%ecx, %ecx
	cmpb	$1, %al
	setne	%cl
	movzbl	%dl, %eax
	cmovnel	%esi, %eax
	incl	%ecx
	movzbl	%al, %eax
.LBB80_26:
	movq	%r12, (%rbx)
	movl	%ecx, 8(%rbx)
	movl	%eax, 12(%rbx)
	addq	$8, %rsp
	popq	%rbx
	popq	%r12
	popq	%r14
	popq	%r15
	vzeroupper
	retq
.Lfunc_end80:

	.section	.rdata$001,"dr"
	.p2align	2, 0x0
.LCPI81_0:
	.long	65536
.LCPI81_2:
	.long	1114112
	.section	.rdata$007,"dr"
	.p2align	3, 0x0
.LCPI81_1:
	.quad	1
	.section	.text$097,"xr"
	.globl	dethrux_from_utf32_lossy_len_v3
	.p2align	4
dethrux_from_utf32_lossy_len_v3:
	pushq	%rbp
	pushq	%r14
	pushq	%rbx
	xorl	%edx, %edx
	testq	%rdi, %rdi
	sete	%dl
	shll	$12, %edx
	leaq	(%rdi,%rdx), %rcx
	cmpq	$16, %rsi
	jb	.LBB81_1
	leaq	-16(%rsi), %r9
	shrq	$4, %r9
	je	.LBB81_3
	incq	%r9
	movq	%r9, %r10
	andq	$-2, %r10
	leaq	(%rdx,%rdi), %r11
	addq	$64, %r11
	xorl	%r8d, %r8d
	xorl	%eax, %eax
	.p2align	4
.LBB81_22:
	vpbroadcastd	.LCPI81_0(%rip), %ymm0
	vmovdqu	-64(%r11,%r8,4), %ymm1
	vmovdqu	-32(%r11,%r8,4), %ymm2
	vmovdqu	(%r11,%r8,4), %ymm3
	vmovdqu	32(%r11,%r8,4), %ymm4
	vpmaxud	%ymm0, %ymm2, %ymm5
	vpcmpeqd	%ymm5, %ymm2, %ymm2
	vpmaxud	%ymm0, %ymm1, %ymm5
	vpcmpeqd	%ymm5, %ymm1, %ymm1
	vpackssdw	%ymm2, %ymm1, %ymm1
	vextracti128	$1, %ymm1, %xmm2
	vpacksswb	%xmm2, %xmm1, %xmm1
	vpshufd	$216, %xmm1, %xmm1
	vpmovmskb	%xmm1, %ebx
	popcntl	%ebx, %ebx
	addq	%rax, %rbx
	vpmaxud	%ymm0, %ymm4, %ymm1
	vpcmpeqd	%ymm1, %ymm4, %ymm1
	vpmaxud	%ymm0, %ymm3, %ymm0
	vpcmpeqd	%ymm0, %ymm3, %ymm0
	vpackssdw	%ymm1, %ymm0, %ymm0
	vextracti128	$1, %ymm0, %xmm1
	vpacksswb	%xmm1, %xmm0, %xmm0
	vpshufd	$216, %xmm0, %xmm0
	vpmovmskb	%xmm0, %eax
	popcntl	%eax, %eax
	addq	%rbx, %rax
	addq	$32, %r8
	addq	$-2, %r10
	jne	.LBB81_22
	testb	$1, %r9b
	je	.LBB81_6
	jmp	.LBB81_5
.LBB81_1:
	xorl	%eax, %eax
	xorl	%r8d, %r8d
.LBB81_6:
	movq	%rsi, %r9
	subq	%r8, %r9
	ja	.LBB81_7
	jmp	.LBB81_14
.LBB81_3:
	xorl	%r8d, %r8d
	xorl	%eax, %eax
.LBB81_5:
	movq	%rax, %r9
	vmovdqu	(%rcx,%r8,4), %ymm0
	vmovdqu	32(%rcx,%r8,4), %ymm1
	vpbroadcastd	.LCPI81_0(%rip), %ymm2
	vpmaxud	%ymm2, %ymm1, %ymm3
	vpcmpeqd	%ymm3, %ymm1, %ymm1
	vpmaxud	%ymm2, %ymm0, %ymm2
	vpcmpeqd	%ymm2, %ymm0, %ymm0
	vpackssdw	%ymm1, %ymm0, %ymm0
	vextracti128	$1, %ymm0, %xmm1
	vpacksswb	%xmm1, %xmm0, %xmm0
	vpshufd	$216, %xmm0, %xmm0
	vpmovmskb	%xmm0, %eax
	popcntl	%eax, %eax
	addq	%r9, %rax
	addq	$16, %r8
	movq	%rsi, %r9
	subq	%r8, %r9
	jbe	.LBB81_14
.LBB81_7:
	cmpq	$4, %r9
	jb	.LBB81_13
	cmpq	$16, %r9
	jae	.LBB81_16
	xorl	%r10d, %r10d
	jmp	.LBB81_10
.LBB81_16:
	movq	%r9, %r10
	andq	$-16, %r10
	vmovq	%rax, %xmm0
	leaq	(%rdx,%r8,4), %rax
	addq	%rdi, %rax
	addq	$48, %rax
	vpxor	%xmm1, %xmm1, %xmm1
	xorl	%r11d, %r11d
	vpxor	%xmm2, %xmm2, %xmm2
	vpxor	%xmm3, %xmm3, %xmm3
	.p2align	4
.LBB81_17:
	vmovdqu	-48(%rax,%r11,4), %xmm4
	vmovdqu	-32(%rax,%r11,4), %xmm5
	vmovdqu	-16(%rax,%r11,4), %xmm6
	vmovdqu	(%rax,%r11,4), %xmm7
	vpbroadcastd	.LCPI81_0(%rip), %xmm8
	vpmaxud	%xmm8, %xmm4, %xmm9
	vpcmpeqd	%xmm4, %xmm9, %xmm4
	vpmovzxdq	%xmm4, %ymm4
	vpbroadcastq	.LCPI81_1(%rip), %ymm9
	vpand	%ymm4, %ymm9, %ymm4
	vpaddq	%ymm4, %ymm0, %ymm0
	vpmaxud	%xmm8, %xmm5, %xmm4
	vpcmpeqd	%xmm4, %xmm5, %xmm4
	vpmovzxdq	%xmm4, %ymm4
	vpand	%ymm4, %ymm9, %ymm4
	vpaddq	%ymm4, %ymm1, %ymm1
	vpmaxud	%xmm8, %xmm6, %xmm4
	vpcmpeqd	%xmm4, %xmm6, %xmm4
	vpmovzxdq	%xmm4, %ymm4
	vpand	%ymm4, %ymm9, %ymm4
	vpaddq	%ymm4, %ymm2, %ymm2
	vpmaxud	%xmm8, %xmm7, %xmm4
	vpcmpeqd	%xmm4, %xmm7, %xmm4
	vpmovzxdq	%xmm4, %ymm4
	vpand	%ymm4, %ymm9, %ymm4
	vpaddq	%ymm4, %ymm3, %ymm3
	addq	$16, %r11
	cmpq	%r11, %r10
	jne	.LBB81_17
	vpaddq	%ymm0, %ymm1, %ymm0
	vpaddq	%ymm0, %ymm2, %ymm0
	vpaddq	%ymm0, %ymm3, %ymm0
	vextracti128	$1, %ymm0, %xmm1
	vpaddq	%xmm1, %xmm0, %xmm0
	vpshufd	$238, %xmm0, %xmm1
	vpaddq	%xmm1, %xmm0, %xmm0
	vmovq	%xmm0, %rax
	cmpq	%r10, %r9
	je	.LBB81_14
	testb	$12, %r9b
	je	.LBB81_20
.LBB81_10:
	movq	%r9, %r11
	andq	$-4, %r11
	vmovq	%rax, %xmm0
	leaq	(%rdx,%r8,4), %rax
	addq	%r11, %r8
	addq	%rdi, %rax
	.p2align	4
.LBB81_11:
	vmovdqu	(%rax,%r10,4), %xmm1
	vpbroadcastd	.LCPI81_0(%rip), %xmm2
	vpmaxud	%xmm2, %xmm1, %xmm2
	vpcmpeqd	%xmm2, %xmm1, %xmm1
	vpmovzxdq	%xmm1, %ymm1
	vpbroadcastq	.LCPI81_1(%rip), %ymm2
	vpand	%ymm2, %ymm1, %ymm1
	vpaddq	%ymm1, %ymm0, %ymm0
	addq	$4, %r10
	cmpq	%r10, %r11
	jne	.LBB81_11
	vextracti128	$1, %ymm0, %xmm1
	vpaddq	%xmm1, %xmm0, %xmm0
	vpshufd	$238, %xmm0, %xmm1
	vpaddq	%xmm1, %xmm0, %xmm0
	vmovq	%xmm0, %rax
	cmpq	%r11, %r9
	je	.LBB81_14
	.p2align	4
.LBB81_13:
	cmpl	$65536, (%rcx,%r8,4)
	sbbq	$-1, %rax
	incq	%r8
	cmpq	%r8, %rsi
	jne	.LBB81_13
.LBB81_14:
	cmpq	$16, %rsi
	jb	.LBB81_15
	leaq	-16(%rsi), %r10
	shrq	$4, %r10
	je	.LBB81_24
	incq	%r10
	movq	%r10, %r11
	andq	$-2, %r11
	leaq	(%rdx,%rdi), %rbx
	addq	$64, %rbx
	xorl	%r8d, %r8d
	xorl	%r9d, %r9d
	.p2align	4
.LBB81_42:
	vpbroadcastd	.LCPI81_2(%rip), %ymm0
	vmovdqu	-64(%rbx,%r8,4), %ymm1
	vmovdqu	-32(%rbx,%r8,4), %ymm2
	vmovdqu	(%rbx,%r8,4), %ymm3
	vmovdqu	32(%rbx,%r8,4), %ymm4
	vpmaxud	%ymm0, %ymm2, %ymm5
	vpcmpeqd	%ymm5, %ymm2, %ymm2
	vpmaxud	%ymm0, %ymm1, %ymm5
	vpcmpeqd	%ymm5, %ymm1, %ymm1
	vpackssdw	%ymm2, %ymm1, %ymm1
	vextracti128	$1, %ymm1, %xmm2
	vpacksswb	%xmm2, %xmm1, %xmm1
	vpshufd	$216, %xmm1, %xmm1
	vpmovmskb	%xmm1, %ebp
	xorl	%r14d, %r14d
	popcntl	%ebp, %r14d
	addq	%r9, %r14
	vpmaxud	%ymm0, %ymm4, %ymm1
	vpcmpeqd	%ymm1, %ymm4, %ymm1
	vpmaxud	%ymm0, %ymm3, %ymm0
	vpcmpeqd	%ymm0, %ymm3, %ymm0
	vpackssdw	%ymm1, %ymm0, %ymm0
	vextracti128	$1, %ymm0, %xmm1
	vpacksswb	%xmm1, %xmm0, %xmm0
	vpshufd	$216, %xmm0, %xmm0
	vpmovmskb	%xmm0, %r9d
	popcntl	%r9d, %r9d
	addq	%r14, %r9
	addq	$32, %r8
	addq	$-2, %r11
	jne	.LBB81_42
	testb	$1, %r10b
	je	.LBB81_27
	jmp	.LBB81_26
.LBB81_15:
	xorl	%r9d, %r9d
	xorl	%r8d, %r8d
.LBB81_27:
	movq	%rsi, %r10
	subq	%r8, %r10
	ja	.LBB81_28
	jmp	.LBB81_35
.LBB81_24:
	xorl	%r8d, %r8d
	xorl	%r9d, %r9d
.LBB81_26:
	movq	%r9, %r10
	vmovdqu	(%rcx,%r8,4), %ymm0
	vmovdqu	32(%rcx,%r8,4), %ymm1
	vpbroadcastd	.LCPI81_2(%rip), %ymm2
	vpmaxud	%ymm2, %ymm1, %ymm3
	vpcmpeqd	%ymm3, %ymm1, %ymm1
	vpmaxud	%ymm2, %ymm0, %ymm2
	vpcmpeqd	%ymm2, %ymm0, %ymm0
	vpackssdw	%ymm1, %ymm0, %ymm0
	vextracti128	$1, %ymm0, %xmm1
	vpacksswb	%xmm1, %xmm0, %xmm0
	vpshufd	$216, %xmm0, %xmm0
	vpmovmskb	%xmm0, %r9d
	popcntl	%r9d, %r9d
	addq	%r10, %r9
	addq	$16, %r8
	movq	%rsi, %r10
	subq	%r8, %r10
	jbe	.LBB81_35
.LBB81_28:
	cmpq	$4, %r10
	jb	.LBB81_34
	cmpq	$16, %r10
	jae	.LBB81_36
	xorl	%r11d, %r11d
	jmp	.LBB81_31
.LBB81_36:
	movq	%r10, %r11
	andq	$-16, %r11
	vmovq	%r9, %xmm0
	leaq	(%rdx,%r8,4), %r9
	addq	%rdi, %r9
	addq	$48, %r9
	vpxor	%xmm1, %xmm1, %xmm1
	xorl	%ebx, %ebx
	vpxor	%xmm2, %xmm2, %xmm2
	vpxor	%xmm3, %xmm3, %xmm3
	.p2align	4
.LBB81_37:
	vmovdqu	-48(%r9,%rbx,4), %xmm4
	vmovdqu	-32(%r9,%rbx,4), %xmm5
	vmovdqu	-16(%r9,%rbx,4), %xmm6
	vmovdqu	(%r9,%rbx,4), %xmm7
	vpbroadcastd	.LCPI81_2(%rip), %xmm8
	vpmaxud	%xmm8, %xmm4, %xmm9
	vpcmpeqd	%xmm4, %xmm9, %xmm4
	vpmovzxdq	%xmm4, %ymm4
	vpbroadcastq	.LCPI81_1(%rip), %ymm9
	vpand	%ymm4, %ymm9, %ymm4
	vpaddq	%ymm4, %ymm0, %ymm0
	vpmaxud	%xmm8, %xmm5, %xmm4
	vpcmpeqd	%xmm4, %xmm5, %xmm4
	vpmovzxdq	%xmm4, %ymm4
	vpand	%ymm4, %ymm9, %ymm4
	vpaddq	%ymm4, %ymm1, %ymm1
	vpmaxud	%xmm8, %xmm6, %xmm4
	vpcmpeqd	%xmm4, %xmm6, %xmm4
	vpmovzxdq	%xmm4, %ymm4
	vpand	%ymm4, %ymm9, %ymm4
	vpaddq	%ymm4, %ymm2, %ymm2
	vpmaxud	%xmm8, %xmm7, %xmm4
	vpcmpeqd	%xmm4, %xmm7, %xmm4
	vpmovzxdq	%xmm4, %ymm4
	vpand	%ymm4, %ymm9, %ymm4
	vpaddq	%ymm4, %ymm3, %ymm3
	addq	$16, %rbx
	cmpq	%rbx, %r11
	jne	.LBB81_37
	vpaddq	%ymm0, %ymm1, %ymm0
	vpaddq	%ymm0, %ymm2, %ymm0
	vpaddq	%ymm0, %ymm3, %ymm0
	vextracti128	$1, %ymm0, %xmm1
	vpaddq	%xmm1, %xmm0, %xmm0
	vpshufd	$238, %xmm0, %xmm1
	vpaddq	%xmm1, %xmm0, %xmm0
	vmovq	%xmm0, %r9
	cmpq	%r11, %r10
	je	.LBB81_35
	testb	$12, %r10b
	je	.LBB81_40
.LBB81_31:
	movq	%r10, %rbx
	andq	$-4, %rbx
	vmovq	%r9, %xmm0
	leaq	(%rdx,%r8,4), %rdx
	addq	%rbx, %r8
	addq	%rdx, %rdi
	.p2align	4
.LBB81_32:
	vmovdqu	(%rdi,%r11,4), %xmm1
	vpbroadcastd	.LCPI81_2(%rip), %xmm2
	vpmaxud	%xmm2, %xmm1, %xmm2
	vpcmpeqd	%xmm2, %xmm1, %xmm1
	vpmovzxdq	%xmm1, %ymm1
	vpbroadcastq	.LCPI81_1(%rip), %ymm2
	vpand	%ymm2, %ymm1, %ymm1
	vpaddq	%ymm1, %ymm0, %ymm0
	addq	$4, %r11
	cmpq	%r11, %rbx
	jne	.LBB81_32
	vextracti128	$1, %ymm0, %xmm1
	vpaddq	%xmm1, %xmm0, %xmm0
	vpshufd	$238, %xmm0, %xmm1
	vpaddq	%xmm1, %xmm0, %xmm0
	vmovq	%xmm0, %r9
	cmpq	%rbx, %r10
	je	.LBB81_35
	.p2align	4
.LBB81_34:
	cmpl	$1114112, (%rcx,%r8,4)
	sbbq	$-1, %r9
	incq	%r8
	cmpq	%r8, %rsi
	jne	.LBB81_34
.LBB81_35:
	addq	%rsi, %rax
	subq	%r9, %rax
	addq	%rax, %rax
	popq	%rbx
	popq	%r14
	popq	%rbp
	vzeroupper
	retq
.LBB81_20:
	addq	%r10, %r8
	jmp	.LBB81_13
.LBB81_40:
	addq	%r11, %r8
	jmp	.LBB81_34
.Lfunc_end81:

	.section	.rdata$003,"dr"
	.p2align	5, 0x0
.LCPI82_0:
	.zero	32,191
.LCPI82_1:
	.zero	32,240
	.section	.rdata$000,"dr"
	.p2align	4, 0x0
.LCPI82_2:
	.zero	16,191
.LCPI82_3:
	.zero	16,240
	.section	.rdata$001,"dr"
	.p2align	2, 0x0
.LCPI82_4:
	.zero	4,191
.LCPI82_5:
	.zero	4,240
	.section	.text$098,"xr"
	.globl	dethrux_from_utf8_len_v3
	.p2align	4
dethrux_from_utf8_len_v3:
	pushq	%r15
	pushq	%r14
	pushq	%r12
	pushq	%rbx
	subq	$40, %rsp
	movq	%rsi, %r15
	movq	%rdi, %r14
	xorl	%r12d, %r12d
	testq	%rdi, %rdi
	sete	%r12b
	shll	$12, %r12d
	leaq	(%rdi,%r12), %rbx
	vpxor	%xmm0, %xmm0, %xmm0
	vmovdqu	%ymm0, (%rsp)
	movq	%rbx, %rdi
	vzeroupper
	callq	L_0
	testb	%al, %al
	je	.LBB82_10
	cmpq	$15, %r15
	ja	.LBB82_20
	xorl	%eax, %eax
	testq	%r15, %r15
	jne	.LBB82_5
	jmp	.LBB82_66
.LBB82_3:
	andl	$31, %ecx
	shll	$6, %ecx
	orl	%edx, %ecx
	movl	$2, %edi
	.p2align	4
.LBB82_4:
	addq	%rdi, %rbx
	xorl	%edx, %edx
	cmpl	$65536, %ecx
	setae	%dl
	leaq	(%rax,%rdx,2), %rax
	addq	$2, %rax
	subq	%rdi, %r15
	je	.LBB82_66
.LBB82_5:
	movzbl	(%rbx), %ecx
	movl	$1, %edi
	testb	%cl, %cl
	jns	.LBB82_4
	movzbl	1(%rbx), %edx
	andl	$63, %edx
	cmpb	$-33, %cl
	jbe	.LBB82_3
	movzbl	2(%rbx), %esi
	andl	$63, %esi
	cmpb	$-17, %cl
	ja	.LBB82_9
	shll	$12, %ecx
	movzwl	%cx, %ecx
	shll	$6, %edx
	orl	%ecx, %edx
	orl	%esi, %edx
	movl	$3, %edi
	movl	%edx, %ecx
	jmp	.LBB82_4
.LBB82_9:
	movzbl	3(%rbx), %edi
	andl	$63, %edi
	andl	$7, %ecx
	shll	$18, %ecx
	shll	$12, %edx
	orl	%ecx, %edx
	shll	$6, %esi
	orl	%edx, %esi
	orl	%edi, %esi
	movl	$4, %edi
	movl	%esi, %ecx
	jmp	.LBB82_4
.LBB82_10:
	movq	%rsp, %rdi
	movq	%rbx, %rsi
	movq	%r15, %rdx
	callq	L_1
	cmpb	$0, (%rsp)
	je	.LBB82_25
	movq	8(%rsp), %rcx
	cmpq	$15, %rcx
	ja	.LBB82_34
	xorl	%eax, %eax
	testq	%rcx, %rcx
	jne	.LBB82_15
	jmp	.LBB82_66
.LBB82_13:
	andl	$31, %edx
	shll	$6, %edx
	orl	%esi, %edx
	movl	$2, %r8d
	.p2align	4
.LBB82_14:
	addq	%r8, %rbx
	xorl	%esi, %esi
	cmpl	$65536, %edx
	setae	%sil
	leaq	(%rax,%rsi,2), %rax
	addq	$2, %rax
	subq	%r8, %rcx
	je	.LBB82_66
.LBB82_15:
	movzbl	(%rbx), %edx
	movl	$1, %r8d
	testb	%dl, %dl
	jns	.LBB82_14
	movzbl	1(%rbx), %esi
	andl	$63, %esi
	cmpb	$-33, %dl
	jbe	.LBB82_13
	movzbl	2(%rbx), %edi
	andl	$63, %edi
	cmpb	$-17, %dl
	ja	.LBB82_19
	shll	$12, %edx
	movzwl	%dx, %edx
	shll	$6, %esi
	orl	%edx, %esi
	orl	%edi, %esi
	movl	$3, %r8d
	movl	%esi, %edx
	jmp	.LBB82_14
.LBB82_19:
	movzbl	3(%rbx), %r8d
	andl	$63, %r8d
	andl	$7, %edx
	shll	$18, %edx
	shll	$12, %esi
	orl	%edx, %esi
	shll	$6, %edi
	orl	%esi, %edi
	orl	%r8d, %edi
	movl	$4, %r8d
	movl	%edi, %edx
	jmp	.LBB82_14
.LBB82_20:
	cmpq	$64, %r15
	jb	.LBB82_39
	leaq	-64(%r15), %rdx
	shrq	$6, %rdx
	je	.LBB82_48
	incq	%rdx
	movq	%rdx, %rsi
	andq	$-2, %rsi
	leaq	(%r12,%r14), %rdi
	addq	$64, %rdi
	xorl	%eax, %eax
	xorl	%ecx, %ecx
	.p2align	4
.LBB82_23:
	vpbroadcastd	.LCPI82_4(%rip), %ymm3
	vpbroadcastd	.LCPI82_5(%rip), %ymm0
	vmovdqu	-64(%rdi,%rax), %ymm4
	vmovdqu	-32(%rdi,%rax), %ymm5
	vmovdqu	(%rdi,%rax), %ymm2
	vmovdqu	32(%rdi,%rax), %ymm1
	vpcmpgtb	%ymm3, %ymm4, %ymm6
	vpmovmskb	%ymm6, %r8d
	vpcmpgtb	%ymm3, %ymm5, %ymm6
	vpmovmskb	%ymm6, %r9d
	shlq	$32, %r9
	orq	%r8, %r9
	xorl	%r8d, %r8d
	popcntq	%r9, %r8
	addq	%rcx, %r8
	vpmaxub	%ymm0, %ymm4, %ymm6
	vpcmpeqb	%ymm6, %ymm4, %ymm4
	vpmovmskb	%ymm4, %ecx
	vpmaxub	%ymm0, %ymm5, %ymm4
	vpcmpeqb	%ymm4, %ymm5, %ymm4
	vpmovmskb	%ymm4, %r9d
	shlq	$32, %r9
	orq	%rcx, %r9
	popcntq	%r9, %r9
	addq	%r8, %r9
	vpcmpgtb	%ymm3, %ymm2, %ymm4
	vpmovmskb	%ymm4, %ecx
	vpcmpgtb	%ymm3, %ymm1, %ymm3
	vpmovmskb	%ymm3, %r8d
	shlq	$32, %r8
	orq	%rcx, %r8
	popcntq	%r8, %r8
	vpmaxub	%ymm0, %ymm2, %ymm3
	vpcmpeqb	%ymm3, %ymm2, %ymm2
	vpmovmskb	%ymm2, %ecx
	vpmaxub	%ymm0, %ymm1, %ymm0
	vpcmpeqb	%ymm0, %ymm1, %ymm0
	vpmovmskb	%ymm0, %r10d
	shlq	$32, %r10
	orq	%rcx, %r10
	xorl	%ecx, %ecx
	popcntq	%r10, %rcx
	addq	%r8, %rcx
	addq	%r9, %rcx
	subq	$-128, %rax
	addq	$-2, %rsi
	jne	.LBB82_23
	testb	$1, %dl
	je	.LBB82_40
	jmp	.LBB82_49
.LBB82_25:
	movq	8(%rsp), %rcx
	movq	16(%rsp), %rdx
	cmpq	$15, %rdx
	ja	.LBB82_41
	xorl	%eax, %eax
	testq	%rdx, %rdx
	jne	.LBB82_29
	jmp	.LBB82_66
.LBB82_27:
	andl	$31, %esi
	shll	$6, %esi
	orl	%edi, %esi
	movl	$2, %r9d
	.p2align	4
.LBB82_28:
	addq	%r9, %rcx
	xorl	%edi, %edi
	cmpl	$65536, %esi
	setae	%dil
	leaq	(%rax,%rdi,2), %rax
	addq	$2, %rax
	subq	%r9, %rdx
	je	.LBB82_66
.LBB82_29:
	movzbl	(%rcx), %esi
	movl	$1, %r9d
	testb	%sil, %sil
	jns	.LBB82_28
	movzbl	1(%rcx), %edi
	andl	$63, %edi
	cmpb	$-33, %sil
	jbe	.LBB82_27
	movzbl	2(%rcx), %r8d
	andl	$63, %r8d
	cmpb	$-17, %sil
	ja	.LBB82_33
	shll	$12, %esi
	movzwl	%si, %esi
	shll	$6, %edi
	orl	%esi, %edi
	orl	%r8d, %edi
	movl	$3, %r9d
	movl	%edi, %esi
	jmp	.LBB82_28
.LBB82_33:
	movzbl	3(%rcx), %r9d
	andl	$63, %r9d
	andl	$7, %esi
	shll	$18, %esi
	shll	$12, %edi
	orl	%esi, %edi
	shll	$6, %r8d
	orl	%edi, %r8d
	orl	%r9d, %r8d
	movl	$4, %r9d
	movl	%r8d, %esi
	jmp	.LBB82_28
.LBB82_34:
	cmpq	$64, %rcx
	jb	.LBB82_46
	leaq	-64(%rcx), %rsi
	shrq	$6, %rsi
	je	.LBB82_55
	incq	%rsi
	movq	%rsi, %rdi
	andq	$-2, %rdi
	leaq	(%r12,%r14), %r8
	addq	$64, %r8
	xorl	%eax, %eax
	xorl	%edx, %edx
	.p2align	4
.LBB82_37:
	vpbroadcastd	.LCPI82_4(%rip), %ymm3
	vpbroadcastd	.LCPI82_5(%rip), %ymm0
	vmovdqu	-64(%r8,%rax), %ymm4
	vmovdqu	-32(%r8,%rax), %ymm5
	vmovdqu	(%r8,%rax), %ymm2
	vmovdqu	32(%r8,%rax), %ymm1
	vpcmpgtb	%ymm3, %ymm4, %ymm6
	vpmovmskb	%ymm6, %r9d
	vpcmpgtb	%ymm3, %ymm5, %ymm6
	vpmovmskb	%ymm6, %r10d
	shlq	$32, %r10
	orq	%r9, %r10
	xorl	%r9d, %r9d
	popcntq	%r10, %r9
	addq	%rdx, %r9
	vpmaxub	%ymm0, %ymm4, %ymm6
	vpcmpeqb	%ymm6, %ymm4, %ymm4
	vpmovmskb	%ymm4, %edx
	vpmaxub	%ymm0, %ymm5, %ymm4
	vpcmpeqb	%ymm4, %ymm5, %ymm4
	vpmovmskb	%ymm4, %r10d
	shlq	$32, %r10
	orq	%rdx, %r10
	popcntq	%r10, %r10
	addq	%r9, %r10
	vpcmpgtb	%ymm3, %ymm2, %ymm4
	vpmovmskb	%ymm4, %edx
	vpcmpgtb	%ymm3, %ymm1, %ymm3
	vpmovmskb	%ymm3, %r9d
	shlq	$32, %r9
	orq	%rdx, %r9
	popcntq	%r9, %r9
	vpmaxub	%ymm0, %ymm2, %ymm3
	vpcmpeqb	%ymm3, %ymm2, %ymm2
	vpmovmskb	%ymm2, %edx
	vpmaxub	%ymm0, %ymm1, %ymm0
	vpcmpeqb	%ymm0, %ymm1, %ymm0
	vpmovmskb	%ymm0, %r11d
	shlq	$32, %r11
	orq	%rdx, %r11
	xorl	%edx, %edx
	popcntq	%r11, %rdx
	addq	%r9, %rdx
	addq	%r10, %rdx
	subq	$-128, %rax
	addq	$-2, %rdi
	jne	.LBB82_37
	testb	$1, %sil
	je	.LBB82_47
	jmp	.LBB82_56
.LBB82_39:
	xorl	%ecx, %ecx
	xorl	%eax, %eax
.LBB82_40:
	movq	%r15, %rdx
	subq	%rax, %rdx
	cmpq	$16, %rdx
	jae	.LBB82_50
	jmp	.LBB82_52
.LBB82_41:
	cmpq	$64, %rdx
	jb	.LBB82_53
	leaq	-64(%rdx), %rdi
	shrq	$6, %rdi
	je	.LBB82_60
	incq	%rdi
	movq	%rdi, %r8
	andq	$-2, %r8
	xorl	%eax, %eax
	xorl	%esi, %esi
	.p2align	4
.LBB82_44:
	vpbroadcastd	.LCPI82_4(%rip), %ymm3
	vpbroadcastd	.LCPI82_5(%rip), %ymm0
	vmovdqu	(%rcx,%rax), %ymm4
	vmovdqu	32(%rcx,%rax), %ymm5
	vmovdqu	64(%rcx,%rax), %ymm2
	vmovdqu	96(%rcx,%rax), %ymm1
	vpcmpgtb	%ymm3, %ymm4, %ymm6
	vpmovmskb	%ymm6, %r9d
	vpcmpgtb	%ymm3, %ymm5, %ymm6
	vpmovmskb	%ymm6, %r10d
	shlq	$32, %r10
	orq	%r9, %r10
	xorl	%r9d, %r9d
	popcntq	%r10, %r9
	addq	%rsi, %r9
	vpmaxub	%ymm0, %ymm4, %ymm6
	vpcmpeqb	%ymm6, %ymm4, %ymm4
	vpmovmskb	%ymm4, %esi
	vpmaxub	%ymm0, %ymm5, %ymm4
	vpcmpeqb	%ymm4, %ymm5, %ymm4
	vpmovmskb	%ymm4, %r10d
	shlq	$32, %r10
	orq	%rsi, %r10
	popcntq	%r10, %r10
	addq	%r9, %r10
	vpcmpgtb	%ymm3, %ymm2, %ymm4
	vpmovmskb	%ymm4, %esi
	vpcmpgtb	%ymm3, %ymm1, %ymm3
	vpmovmskb	%ymm3, %r9d
	shlq	$32, %r9
	orq	%rsi, %r9
	popcntq	%r9, %r9
	vpmaxub	%ymm0, %ymm2, %ymm3
	vpcmpeqb	%ymm3, %ymm2, %ymm2
	vpmovmskb	%ymm2, %esi
	vpmaxub	%ymm0, %ymm1, %ymm0
	vpcmpeqb	%ymm0, %ymm1, %ymm0
	vpmovmskb	%ymm0, %r11d
	shlq	$32, %r11
	orq	%rsi, %r11
	xorl	%esi, %esi
	popcntq	%r11, %rsi
	addq	%r9, %rsi
	addq	%r10, %rsi
	subq	$-128, %rax
	addq	$-2, %r8
	jne	.LBB82_44
	testb	$1, %dil
	je	.LBB82_54
	jmp	.LBB82_61
.LBB82_46:
	xorl	%edx, %edx
	xorl	%eax, %eax
.LBB82_47:
	movq	%rcx, %rsi
	subq	%rax, %rsi
	cmpq	$16, %rsi
	jae	.LBB82_57
	jmp	.LBB82_59
.LBB82_48:
	xorl	%eax, %eax
	xorl	%ecx, %ecx
.LBB82_49:
	vmovdqu	(%rbx,%rax), %ymm0
	vmovdqu	32(%rbx,%rax), %ymm1
	vpbroadcastd	.LCPI82_4(%rip), %ymm2
	vpbroadcastd	.LCPI82_5(%rip), %ymm3
	vpcmpgtb	%ymm2, %ymm0, %ymm4
	vpmovmskb	%ymm4, %edx
	vpcmpgtb	%ymm2, %ymm1, %ymm2
	vpmovmskb	%ymm2, %esi
	shlq	$32, %rsi
	orq	%rdx, %rsi
	xorl	%edx, %edx
	popcntq	%rsi, %rdx
	addq	%rcx, %rdx
	vpmaxub	%ymm3, %ymm0, %ymm2
	vpcmpeqb	%ymm2, %ymm0, %ymm0
	vpmovmskb	%ymm0, %ecx
	vpmaxub	%ymm3, %ymm1, %ymm0
	vpcmpeqb	%ymm0, %ymm1, %ymm0
	vpmovmskb	%ymm0, %esi
	shlq	$32, %rsi
	orq	%rcx, %rsi
	xorl	%ecx, %ecx
	popcntq	%rsi, %rcx
	addq	%rdx, %rcx
	addq	$64, %rax
	movq	%r15, %rdx
	subq	%rax, %rdx
	cmpq	$16, %rdx
	jb	.LBB82_52
.LBB82_50:
	addq	%rax, %r12
	addq	%r12, %r14
	.p2align	4
.LBB82_51:
	vmovdqu	(%r14), %xmm0
	vpcmpgtb	.LCPI82_2(%rip), %xmm0, %xmm1
	vpmovmskb	%xmm1, %eax
	popcntl	%eax, %eax
	vpmaxub	.LCPI82_3(%rip), %xmm0, %xmm1
	vpcmpeqb	%xmm1, %xmm0, %xmm0
	vpmovmskb	%xmm0, %esi
	popcntl	%esi, %esi
	addl	%eax, %esi
	addq	%rsi, %rcx
	addq	$-16, %rdx
	addq	$16, %r14
	cmpq	$15, %rdx
	ja	.LBB82_51
.LBB82_52:
	vmovdqu	-16(%rbx,%r15), %xmm0
	vpcmpgtb	.LCPI82_2(%rip), %xmm0, %xmm1
	vpmovmskb	%xmm1, %eax
	movb	$16, %sil
	subb	%dl, %sil
	shrxq	%rsi, %rax, %rax
	vpmaxub	.LCPI82_3(%rip), %xmm0, %xmm1
	xorl	%edx, %edx
	popcntl	%eax, %edx
	vpcmpeqb	%xmm1, %xmm0, %xmm0
	vpmovmskb	%xmm0, %eax
	shrxq	%rsi, %rax, %rax
	popcntl	%eax, %eax
	addq	%rdx, %rax
	addq	%rcx, %rax
	jmp	.LBB82_65
.LBB82_53:
	xorl	%esi, %esi
	xorl	%eax, %eax
.LBB82_54:
	movq	%rdx, %rdi
	subq	%rax, %rdi
	cmpq	$16, %rdi
	jae	.LBB82_62
	jmp	.LBB82_64
.LBB82_55:
	xorl	%eax, %eax
	xorl	%edx, %edx
.LBB82_56:
	vmovdqu	(%rbx,%rax), %ymm0
	vmovdqu	32(%rbx,%rax), %ymm1
	vpbroadcastd	.LCPI82_4(%rip), %ymm2
	vpbroadcastd	.LCPI82_5(%rip), %ymm3
	vpcmpgtb	%ymm2, %ymm0, %ymm4
	vpmovmskb	%ymm4, %esi
	vpcmpgtb	%ymm2, %ymm1, %ymm2
	vpmovmskb	%ymm2, %edi
	shlq	$32, %rdi
	orq	%rsi, %rdi
	xorl	%esi, %esi
	popcntq	%rdi, %rsi
	addq	%rdx, %rsi
	vpmaxub	%ymm3, %ymm0, %ymm2
	vpcmpeqb	%ymm2, %ymm0, %ymm0
	vpmovmskb	%ymm0, %edx
	vpmaxub	%ymm3, %ymm1, %ymm0
	vpcmpeqb	%ymm0, %ymm1, %ymm0
	vpmovmskb	%ymm0, %edi
	shlq	$32, %rdi
	orq	%rdx, %rdi
	xorl	%edx, %edx
	popcntq	%rdi, %rdx
	addq	%rsi, %rdx
	addq	$64, %rax
	movq	%rcx, %rsi
	subq	%rax, %rsi
	cmpq	$16, %rsi
	jb	.LBB82_59
.LBB82_57:
	addq	%rax, %r12
	addq	%r12, %r14
	.p2align	4
.LBB82_58:
	vmovdqu	(%r14), %xmm0
	vpcmpgtb	.LCPI82_2(%rip), %xmm0, %xmm1
	vpmovmskb	%xmm1, %eax
	popcntl	%eax, %eax
	vpmaxub	.LCPI82_3(%rip), %xmm0, %xmm1
	vpcmpeqb	%xmm1, %xmm0, %xmm0
	vpmovmskb	%xmm0, %edi
	popcntl	%edi, %edi
	addl	%eax, %edi
	addq	%rdi, %rdx
	addq	$-16, %rsi
	addq	$16, %r14
	cmpq	$15, %rsi
	ja	.LBB82_58
.LBB82_59:
	vmovdqu	-16(%rbx,%rcx), %xmm0
	vpcmpgtb	.LCPI82_2(%rip), %xmm0, %xmm1
	vpmovmskb	%xmm1, %eax
	movb	$16, %cl
	subb	%sil, %cl
	shrxq	%rcx, %rax, %rax
	vpmaxub	.LCPI82_3(%rip), %xmm0, %xmm1
	xorl	%esi, %esi
	popcntl	%eax, %esi
	vpcmpeqb	%xmm1, %xmm0, %xmm0
	vpmovmskb	%xmm0, %eax
	shrxq	%rcx, %rax, %rax
	popcntl	%eax, %eax
	addq	%rsi, %rax
	addq	%rdx, %rax
	jmp	.LBB82_65
.LBB82_60:
	xorl	%eax, %eax
	xorl	%esi, %esi
.LBB82_61:
	vmovdqu	(%rcx,%rax), %ymm0
	vmovdqu	32(%rcx,%rax), %ymm1
	vpbroadcastd	.LCPI82_4(%rip), %ymm2
	vpbroadcastd	.LCPI82_5(%rip), %ymm3
	vpcmpgtb	%ymm2, %ymm0, %ymm4
	vpmovmskb	%ymm4, %edi
	vpcmpgtb	%ymm2, %ymm1, %ymm2
	vpmovmskb	%ymm2, %r8d
	shlq	$32, %r8
	orq	%rdi, %r8
	xorl	%edi, %edi
	popcntq	%r8, %rdi
	addq	%rsi, %rdi
	vpmaxub	%ymm3, %ymm0, %ymm2
	vpcmpeqb	%ymm2, %ymm0, %ymm0
	vpmovmskb	%ymm0, %esi
	vpmaxub	%ymm3, %ymm1, %ymm0
	vpcmpeqb	%ymm0, %ymm1, %ymm0
	vpmovmskb	%ymm0, %r8d
	shlq	$32, %r8
	orq	%rsi, %r8
	xorl	%esi, %esi
	popcntq	%r8, %rsi
	addq	%rdi, %rsi
	addq	$64, %rax
	movq	%rdx, %rdi
	subq	%rax, %rdi
	cmpq	$16, %rdi
	jb	.LBB82_64
.LBB82_62:
	addq	%rcx, %rax
	.p2align	4
.LBB82_63:
	vmovdqu	(%rax), %xmm0
	vpcmpgtb	.LCPI82_2(%rip), %xmm0, %xmm1
	vpmovmskb	%xmm1, %r8d
	popcntl	%r8d, %r8d
	vpmaxub	.LCPI82_3(%rip), %xmm0, %xmm1
	vpcmpeqb	%xmm1, %xmm0, %xmm0
	vpmovmskb	%xmm0, %r9d
	popcntl	%r9d, %r9d
	addl	%r8d, %r9d
	addq	%r9, %rsi
	addq	$-16, %rdi
	addq	$16, %rax
	cmpq	$15, %rdi
	ja	.LBB82_63
.LBB82_64:
	vmovdqu	-16(%rcx,%rdx), %xmm0
	vpcmpgtb	.LCPI82_2(%rip), %xmm0, %xmm1
	vpmovmskb	%xmm1, %eax
	movb	$16, %cl
	subb	%dil, %cl
	shrxq	%rcx, %rax, %rax
	vpmaxub	.LCPI82_3(%rip), %xmm0, %xmm1
	xorl	%edx, %edx
	popcntl	%eax, %edx
	vpcmpeqb	%xmm1, %xmm0, %xmm0
	vpmovmskb	%xmm0, %eax
	shrxq	%rcx, %rax, %rax
	popcntl	%eax, %eax
	addq	%rdx, %rax
	addq	%rsi, %rax
.LBB82_65:
	addq	%rax, %rax
.LBB82_66:
	addq	$40, %rsp
	popq	%rbx
	popq	%r12
	popq	%r14
	popq	%r15
	vzeroupper
	retq
.Lfunc_end82:

	.section	.rdata$003,"dr"
	.p2align	5, 0x0
.LCPI83_0:
	.zero	32,191
.LCPI83_1:
	.zero	32,240
	.section	.rdata$000,"dr"
	.p2align	4, 0x0
.LCPI83_2:
	.zero	16,191
.LCPI83_3:
	.zero	16,240
	.section	.rdata$001,"dr"
	.p2align	2, 0x0
.LCPI83_4:
	.zero	4,191
.LCPI83_5:
	.zero	4,240
	.section	.text$099,"xr"
	.globl	dethrux_from_utf8_lossy_len_v3
	.p2align	4
dethrux_from_utf8_lossy_len_v3:
	pushq	%r15
	pushq	%r14
	pushq	%r12
	pushq	%rbx
	subq	$72, %rsp
	movq	%rsi, %rbx
	movq	%rdi, %r15
	xorl	%r12d, %r12d
	testq	%rdi, %rdi
	sete	%r12b
	shll	$12, %r12d
	leaq	(%rdi,%r12), %r14
	vpxor	%xmm0, %xmm0, %xmm0
	vmovdqu	%ymm0, 32(%rsp)
	movq	%r14, %rdi
	vzeroupper
	callq	L_0
	testb	%al, %al
	je	.LBB83_10
	cmpq	$15, %rbx
	ja	.LBB83_38
	xorl	%r15d, %r15d
	testq	%rbx, %rbx
	jne	.LBB83_5
	jmp	.LBB83_73
.LBB83_3:
	andl	$31, %eax
	shll	$6, %eax
	orl	%ecx, %eax
	movl	$2, %esi
	.p2align	4
.LBB83_4:
	addq	%rsi, %r14
	xorl	%ecx, %ecx
	cmpl	$65536, %eax
	setae	%cl
	leaq	(%r15,%rcx,2), %r15
	addq	$2, %r15
	subq	%rsi, %rbx
	je	.LBB83_73
.LBB83_5:
	movzbl	(%r14), %eax
	movl	$1, %esi
	testb	%al, %al
	jns	.LBB83_4
	movzbl	1(%r14), %ecx
	andl	$63, %ecx
	cmpb	$-33, %al
	jbe	.LBB83_3
	movzbl	2(%r14), %edx
	andl	$63, %edx
	cmpb	$-17, %al
	ja	.LBB83_9
	shll	$12, %eax
	movzwl	%ax, %eax
	shll	$6, %ecx
	orl	%eax, %ecx
	orl	%edx, %ecx
	movl	$3, %esi
	movl	%ecx, %eax
	jmp	.LBB83_4
.LBB83_9:
	movzbl	3(%r14), %esi
	andl	$63, %esi
	andl	$7, %eax
	shll	$18, %eax
	shll	$12, %ecx
	orl	%eax, %ecx
	shll	$6, %edx
	orl	%ecx, %edx
	orl	%esi, %edx
	movl	$4, %esi
	movl	%edx, %eax
	jmp	.LBB83_4
.LBB83_10:
	leaq	32(%rsp), %rdi
	movq	%r14, %rsi
	movq	%rbx, %rdx
	callq	L_1
	cmpb	$0, 32(%rsp)
	je	.LBB83_43
	testq	%rbx, %rbx
	je	.LBB83_54
	movabsq	$576460752303423486, %r12
	xorl	%r15d, %r15d
	jmp	.LBB83_15
	.p2align	4
.LBB83_13:
	vmovdqu	-16(%r14,%rax), %xmm0
	vpcmpgtb	.LCPI83_2(%rip), %xmm0, %xmm1
	vpmovmskb	%xmm1, %edx
	movb	$16, %r8b
	subb	%dil, %r8b
	shrxq	%r8, %rdx, %rdx
	vpmaxub	.LCPI83_3(%rip), %xmm0, %xmm1
	xorl	%edi, %edi
	popcntl	%edx, %edi
	vpcmpeqb	%xmm1, %xmm0, %xmm0
	vpmovmskb	%xmm0, %edx
	shrxq	%r8, %rdx, %rdx
	popcntl	%edx, %edx
	addq	%rdi, %rdx
	addq	%rsi, %rdx
	addq	%rdx, %rdx
.LBB83_14:
	addq	%rcx, %r14
	subq	%rcx, %rbx
	leaq	(%rdx,%r15), %rsi
	cmpq	%rax, %rcx
	leaq	2(%rdx,%r15), %r15
	cmoveq	%rsi, %r15
	testq	%rbx, %rbx
	je	.LBB83_73
.LBB83_15:
	vpxor	%xmm0, %xmm0, %xmm0
	vmovdqa	%xmm0, (%rsp)
	movq	$0, 16(%rsp)
	movq	%rsp, %rdi
	movq	%r14, %rsi
	movq	%rbx, %rdx
	vzeroupper
	callq	L_3
	cmpb	$0, (%rsp)
	movq	%rbx, %rcx
	movq	%rbx, %rax
	je	.LBB83_17
	movq	8(%rsp), %rax
	movzbl	17(%rsp), %ecx
	movq	%rbx, %rdx
	subq	%rax, %rdx
	cmpb	$1, 16(%rsp)
	cmovneq	%rdx, %rcx
	cmpq	%rcx, %rdx
	cmovaeq	%rcx, %rdx
	testq	%rcx, %rcx
	movl	$1, %ecx
	cmovneq	%rdx, %rcx
	addq	%rax, %rcx
.LBB83_17:
	cmpq	$15, %rax
	ja	.LBB83_27
	xorl	%edx, %edx
	testq	%rax, %rax
	je	.LBB83_14
	movq	%rax, %rsi
	movq	%r14, %rdi
	jmp	.LBB83_22
.LBB83_20:
	andl	$31, %r8d
	shll	$6, %r8d
	orl	%r9d, %r8d
	movl	$2, %r11d
	.p2align	4
.LBB83_21:
	addq	%r11, %rdi
	xorl	%r9d, %r9d
	cmpl	$65536, %r8d
	setae	%r9b
	leaq	(%rdx,%r9,2), %rdx
	addq	$2, %rdx
	subq	%r11, %rsi
	je	.LBB83_14
.LBB83_22:
	movzbl	(%rdi), %r8d
	movl	$1, %r11d
	testb	%r8b, %r8b
	jns	.LBB83_21
	movzbl	1(%rdi), %r9d
	andl	$63, %r9d
	cmpb	$-33, %r8b
	jbe	.LBB83_20
	movzbl	2(%rdi), %r10d
	andl	$63, %r10d
	cmpb	$-17, %r8b
	ja	.LBB83_26
	shll	$12, %r8d
	movzwl	%r8w, %r8d
	shll	$6, %r9d
	orl	%r8d, %r9d
	orl	%r10d, %r9d
	movl	$3, %r11d
	movl	%r9d, %r8d
	jmp	.LBB83_21
.LBB83_26:
	movzbl	3(%rdi), %r11d
	andl	$63, %r11d
	andl	$7, %r8d
	shll	$18, %r8d
	shll	$12, %r9d
	orl	%r8d, %r9d
	shll	$6, %r10d
	orl	%r9d, %r10d
	orl	%r11d, %r10d
	movl	$4, %r11d
	movl	%r10d, %r8d
	jmp	.LBB83_21
	.p2align	4
.LBB83_27:
	cmpq	$64, %rax
	jb	.LBB83_32
	leaq	-64(%rax), %rdi
	shrq	$6, %rdi
	je	.LBB83_34
	incq	%rdi
	movq	%rdi, %r8
	andq	%r12, %r8
	xorl	%edx, %edx
	xorl	%esi, %esi
	.p2align	4
.LBB83_30:
	vpbroadcastd	.LCPI83_4(%rip), %ymm3
	vpbroadcastd	.LCPI83_5(%rip), %ymm0
	vmovdqu	(%r14,%rdx), %ymm4
	vmovdqu	32(%r14,%rdx), %ymm5
	vmovdqu	64(%r14,%rdx), %ymm2
	vmovdqu	96(%r14,%rdx), %ymm1
	vpcmpgtb	%ymm3, %ymm4, %ymm6
	vpmovmskb	%ymm6, %r9d
	vpcmpgtb	%ymm3, %ymm5, %ymm6
	vpmovmskb	%ymm6, %r10d
	shlq	$32, %r10
	orq	%r9, %r10
	xorl	%r9d, %r9d
	popcntq	%r10, %r9
	addq	%rsi, %r9
	vpmaxub	%ymm0, %ymm4, %ymm6
	vpcmpeqb	%ymm6, %ymm4, %ymm4
	vpmovmskb	%ymm4, %esi
	vpmaxub	%ymm0, %ymm5, %ymm4
	vpcmpeqb	%ymm4, %ymm5, %ymm4
	vpmovmskb	%ymm4, %r10d
	shlq	$32, %r10
	orq	%rsi, %r10
	popcntq	%r10, %r10
	addq	%r9, %r10
	vpcmpgtb	%ymm3, %ymm2, %ymm4
	vpmovmskb	%ymm4, %esi
	vpcmpgtb	%ymm3, %ymm1, %ymm3
	vpmovmskb	%ymm3, %r9d
	shlq	$32, %r9
	orq	%rsi, %r9
	popcntq	%r9, %r9
	vpmaxub	%ymm0, %ymm2, %ymm3
	vpcmpeqb	%ymm3, %ymm2, %ymm2
	vpmovmskb	%ymm2, %esi
	vpmaxub	%ymm0, %ymm1, %ymm0
	vpcmpeqb	%ymm0, %ymm1, %ymm0
	vpmovmskb	%ymm0, %r11d
	shlq	$32, %r11
	orq	%rsi, %r11
	xorl	%esi, %esi
	popcntq	%r11, %rsi
	addq	%r9, %rsi
	addq	%r10, %rsi
	subq	$-128, %rdx
	addq	$-2, %r8
	jne	.LBB83_30
	testb	$1, %dil
	je	.LBB83_33
	jmp	.LBB83_35
	.p2align	4
.LBB83_32:
	xorl	%esi, %esi
	xorl	%edx, %edx
.LBB83_33:
	movq	%rax, %rdi
	subq	%rdx, %rdi
	cmpq	$16, %rdi
	jb	.LBB83_13
	jmp	.LBB83_36
.LBB83_34:
	xorl	%edx, %edx
	xorl	%esi, %esi
.LBB83_35:
	vmovdqu	(%r14,%rdx), %ymm0
	vmovdqu	32(%r14,%rdx), %ymm1
	vpbroadcastd	.LCPI83_4(%rip), %ymm2
	vpbroadcastd	.LCPI83_5(%rip), %ymm3
	vpcmpgtb	%ymm2, %ymm0, %ymm4
	vpmovmskb	%ymm4, %edi
	vpcmpgtb	%ymm2, %ymm1, %ymm2
	vpmovmskb	%ymm2, %r8d
	shlq	$32, %r8
	orq	%rdi, %r8
	xorl	%edi, %edi
	popcntq	%r8, %rdi
	addq	%rsi, %rdi
	vpmaxub	%ymm3, %ymm0, %ymm2
	vpcmpeqb	%ymm2, %ymm0, %ymm0
	vpmovmskb	%ymm0, %esi
	vpmaxub	%ymm3, %ymm1, %ymm0
	vpcmpeqb	%ymm0, %ymm1, %ymm0
	vpmovmskb	%ymm0, %r8d
	shlq	$32, %r8
	orq	%rsi, %r8
	xorl	%esi, %esi
	popcntq	%r8, %rsi
	addq	%rdi, %rsi
	addq	$64, %rdx
	movq	%rax, %rdi
	subq	%rdx, %rdi
	cmpq	$16, %rdi
	jb	.LBB83_13
.LBB83_36:
	addq	%r14, %rdx
	.p2align	4
.LBB83_37:
	vmovdqu	(%rdx), %xmm0
	vpcmpgtb	.LCPI83_2(%rip), %xmm0, %xmm1
	vpmovmskb	%xmm1, %r8d
	popcntl	%r8d, %r8d
	vpmaxub	.LCPI83_3(%rip), %xmm0, %xmm1
	vpcmpeqb	%xmm1, %xmm0, %xmm0
	vpmovmskb	%xmm0, %r9d
	popcntl	%r9d, %r9d
	addl	%r8d, %r9d
	addq	%r9, %rsi
	addq	$-16, %rdi
	addq	$16, %rdx
	cmpq	$15, %rdi
	ja	.LBB83_37
	jmp	.LBB83_13
.LBB83_38:
	cmpq	$64, %rbx
	jb	.LBB83_52
	leaq	-64(%rbx), %rdx
	shrq	$6, %rdx
	je	.LBB83_60
	incq	%rdx
	movq	%rdx, %rsi
	andq	$-2, %rsi
	leaq	(%r12,%r15), %rdi
	addq	$64, %rdi
	xorl	%ecx, %ecx
	xorl	%eax, %eax
	.p2align	4
.LBB83_41:
	vpbroadcastd	.LCPI83_4(%rip), %ymm3
	vpbroadcastd	.LCPI83_5(%rip), %ymm0
	vmovdqu	-64(%rdi,%rcx), %ymm4
	vmovdqu	-32(%rdi,%rcx), %ymm5
	vmovdqu	(%rdi,%rcx), %ymm2
	vmovdqu	32(%rdi,%rcx), %ymm1
	vpcmpgtb	%ymm3, %ymm4, %ymm6
	vpmovmskb	%ymm6, %r8d
	vpcmpgtb	%ymm3, %ymm5, %ymm6
	vpmovmskb	%ymm6, %r9d
	shlq	$32, %r9
	orq	%r8, %r9
	xorl	%r8d, %r8d
	popcntq	%r9, %r8
	addq	%rax, %r8
	vpmaxub	%ymm0, %ymm4, %ymm6
	vpcmpeqb	%ymm6, %ymm4, %ymm4
	vpmovmskb	%ymm4, %eax
	vpmaxub	%ymm0, %ymm5, %ymm4
	vpcmpeqb	%ymm4, %ymm5, %ymm4
	vpmovmskb	%ymm4, %r9d
	shlq	$32, %r9
	orq	%rax, %r9
	popcntq	%r9, %r9
	addq	%r8, %r9
	vpcmpgtb	%ymm3, %ymm2, %ymm4
	vpmovmskb	%ymm4, %eax
	vpcmpgtb	%ymm3, %ymm1, %ymm3
	vpmovmskb	%ymm3, %r8d
	shlq	$32, %r8
	orq	%rax, %r8
	popcntq	%r8, %r8
	vpmaxub	%ymm0, %ymm2, %ymm3
	vpcmpeqb	%ymm3, %ymm2, %ymm2
	vpmovmskb	%ymm2, %eax
	vpmaxub	%ymm0, %ymm1, %ymm0
	vpcmpeqb	%ymm0, %ymm1, %ymm0
	vpmovmskb	%ymm0, %r10d
	shlq	$32, %r10
	orq	%rax, %r10
	xorl	%eax, %eax
	popcntq	%r10, %rax
	addq	%r8, %rax
	addq	%r9, %rax
	subq	$-128, %rcx
	addq	$-2, %rsi
	jne	.LBB83_41
	testb	$1, %dl
	je	.LBB83_53
	jmp	.LBB83_61
.LBB83_43:
	movq	40(%rsp), %rax
	movq	48(%rsp), %rcx
	cmpq	$15, %rcx
	ja	.LBB83_55
	xorl	%r15d, %r15d
	testq	%rcx, %rcx
	jne	.LBB83_47
	jmp	.LBB83_73
.LBB83_45:
	andl	$31, %edx
	shll	$6, %edx
	orl	%esi, %edx
	movl	$2, %r8d
	.p2align	4
.LBB83_46:
	addq	%r8, %rax
	xorl	%esi, %esi
	cmpl	$65536, %edx
	setae	%sil
	leaq	(%r15,%rsi,2), %r15
	addq	$2, %r15
	subq	%r8, %rcx
	je	.LBB83_73
.LBB83_47:
	movzbl	(%rax), %edx
	movl	$1, %r8d
	testb	%dl, %dl
	jns	.LBB83_46
	movzbl	1(%rax), %esi
	andl	$63, %esi
	cmpb	$-33, %dl
	jbe	.LBB83_45
	movzbl	2(%rax), %edi
	andl	$63, %edi
	cmpb	$-17, %dl
	ja	.LBB83_51
	shll	$12, %edx
	movzwl	%dx, %edx
	shll	$6, %esi
	orl	%edx, %esi
	orl	%edi, %esi
	movl	$3, %r8d
	movl	%esi, %edx
	jmp	.LBB83_46
.LBB83_51:
	movzbl	3(%rax), %r8d
	andl	$63, %r8d
	andl	$7, %edx
	shll	$18, %edx
	shll	$12, %esi
	orl	%edx, %esi
	shll	$6, %edi
	orl	%esi, %edi
	orl	%r8d, %edi
	movl	$4, %r8d
	movl	%edi, %edx
	jmp	.LBB83_46
.LBB83_52:
	xorl	%eax, %eax
	xorl	%ecx, %ecx
.LBB83_53:
	movq	%rbx, %rdx
	subq	%rcx, %rdx
	cmpq	$16, %rdx
	jae	.LBB83_62
	jmp	.LBB83_64
.LBB83_54:
	xorl	%r15d, %r15d
	jmp	.LBB83_73
.LBB83_55:
	cmpq	$64, %rcx
	jb	.LBB83_65
	leaq	-64(%rcx), %rdi
	shrq	$6, %rdi
	je	.LBB83_67
	incq	%rdi
	movq	%rdi, %r8
	andq	$-2, %r8
	xorl	%edx, %edx
	xorl	%esi, %esi
	.p2align	4
.LBB83_58:
	vpbroadcastd	.LCPI83_4(%rip), %ymm3
	vpbroadcastd	.LCPI83_5(%rip), %ymm0
	vmovdqu	(%rax,%rdx), %ymm4
	vmovdqu	32(%rax,%rdx), %ymm5
	vmovdqu	64(%rax,%rdx), %ymm2
	vmovdqu	96(%rax,%rdx), %ymm1
	vpcmpgtb	%ymm3, %ymm4, %ymm6
	vpmovmskb	%ymm6, %r9d
	vpcmpgtb	%ymm3, %ymm5, %ymm6
	vpmovmskb	%ymm6, %r10d
	shlq	$32, %r10
	orq	%r9, %r10
	xorl	%r9d, %r9d
	popcntq	%r10, %r9
	addq	%rsi, %r9
	vpmaxub	%ymm0, %ymm4, %ymm6
	vpcmpeqb	%ymm6, %ymm4, %ymm4
	vpmovmskb	%ymm4, %esi
	vpmaxub	%ymm0, %ymm5, %ymm4
	vpcmpeqb	%ymm4, %ymm5, %ymm4
	vpmovmskb	%ymm4, %r10d
	shlq	$32, %r10
	orq	%rsi, %r10
	popcntq	%r10, %r10
	addq	%r9, %r10
	vpcmpgtb	%ymm3, %ymm2, %ymm4
	vpmovmskb	%ymm4, %esi
	vpcmpgtb	%ymm3, %ymm1, %ymm3
	vpmovmskb	%ymm3, %r9d
	shlq	$32, %r9
	orq	%rsi, %r9
	popcntq	%r9, %r9
	vpmaxub	%ymm0, %ymm2, %ymm3
	vpcmpeqb	%ymm3, %ymm2, %ymm2
	vpmovmskb	%ymm2, %esi
	vpmaxub	%ymm0, %ymm1, %ymm0
	vpcmpeqb	%ymm0, %ymm1, %ymm0
	vpmovmskb	%ymm0, %r11d
	shlq	$32, %r11
	orq	%rsi, %r11
	xorl	%esi, %esi
	popcntq	%r11, %rsi
	addq	%r9, %rsi
	addq	%r10, %rsi
	subq	$-128, %rdx
	addq	$-2, %r8
	jne	.LBB83_58
	testb	$1, %dil
	je	.LBB83_66
	jmp	.LBB83_68
.LBB83_60:
	xorl	%ecx, %ecx
	xorl	%eax, %eax
.LBB83_61:
	vmovdqu	(%r14,%rcx), %ymm0
	vmovdqu	32(%r14,%rcx), %ymm1
	vpbroadcastd	.LCPI83_4(%rip), %ymm2
	vpbroadcastd	.LCPI83_5(%rip), %ymm3
	vpcmpgtb	%ymm2, %ymm0, %ymm4
	vpmovmskb	%ymm4, %edx
	vpcmpgtb	%ymm2, %ymm1, %ymm2
	vpmovmskb	%ymm2, %esi
	shlq	$32, %rsi
	orq	%rdx, %rsi
	xorl	%edx, %edx
	popcntq	%rsi, %rdx
	addq	%rax, %rdx
	vpmaxub	%ymm3, %ymm0, %ymm2
	vpcmpeqb	%ymm2, %ymm0, %ymm0
	vpmovmskb	%ymm0, %eax
	vpmaxub	%ymm3, %ymm1, %ymm0
	vpcmpeqb	%ymm0, %ymm1, %ymm0
	vpmovmskb	%ymm0, %esi
	shlq	$32, %rsi
	orq	%rax, %rsi
	xorl	%eax, %eax
	popcntq	%rsi, %rax
	addq	%rdx, %rax
	addq	$64, %rcx
	movq	%rbx, %rdx
	subq	%rcx, %rdx
	cmpq	$16, %rdx
	jb	.LBB83_64
.LBB83_62:
	addq	%rcx, %r12
	addq	%r12, %r15
	.p2align	4
.LBB83_63:
	vmovdqu	(%r15), %xmm0
	vpcmpgtb	.LCPI83_2(%rip), %xmm0, %xmm1
	vpmovmskb	%xmm1, %ecx
	popcntl	%ecx, %ecx
	vpmaxub	.LCPI83_3(%rip), %xmm0, %xmm1
	vpcmpeqb	%xmm1, %xmm0, %xmm0
	vpmovmskb	%xmm0, %esi
	popcntl	%esi, %esi
	addl	%ecx, %esi
	addq	%rsi, %rax
	addq	$-16, %rdx
	addq	$16, %r15
	cmpq	$15, %rdx
	ja	.LBB83_63
.LBB83_64:
	vmovdqu	-16(%r14,%rbx), %xmm0
	vpcmpgtb	.LCPI83_2(%rip), %xmm0, %xmm1
	vpmovmskb	%xmm1, %ecx
	movb	$16, %sil
	subb	%dl, %sil
	shrxq	%rsi, %rcx, %rcx
	vpmaxub	.LCPI83_3(%rip), %xmm0, %xmm1
	popcntl	%ecx, %ecx
	vpcmpeqb	%xmm1, %xmm0, %xmm0
	vpmovmskb	%xmm0, %edx
	shrxq	%rsi, %rdx, %rdx
	xorl	%r15d, %r15d
	popcntl	%edx, %r15d
	addq	%rcx, %r15
	addq	%rax, %r15
	jmp	.LBB83_72
.LBB83_65:
	xorl	%esi, %esi
	xorl	%edx, %edx
.LBB83_66:
	movq	%rcx, %rdi
	subq	%rdx, %rdi
	cmpq	$16, %rdi
	jae	.LBB83_69
	jmp	.LBB83_71
.LBB83_67:
	xorl	%edx, %edx
	xorl	%esi, %esi
.LBB83_68:
	vmovdqu	(%rax,%rdx), %ymm0
	vmovdqu	32(%rax,%rdx), %ymm1
	vpbroadcastd	.LCPI83_4(%rip), %ymm2
	vpbroadcastd	.LCPI83_5(%rip), %ymm3
	vpcmpgtb	%ymm2, %ymm0, %ymm4
	vpmovmskb	%ymm4, %edi
	vpcmpgtb	%ymm2, %ymm1, %ymm2
	vpmovmskb	%ymm2, %r8d
	shlq	$32, %r8
	orq	%rdi, %r8
	xorl	%edi, %edi
	popcntq	%r8, %rdi
	addq	%rsi, %rdi
	vpmaxub	%ymm3, %ymm0, %ymm2
	vpcmpeqb	%ymm2, %ymm0, %ymm0
	vpmovmskb	%ymm0, %esi
	vpmaxub	%ymm3, %ymm1, %ymm0
	vpcmpeqb	%ymm0, %ymm1, %ymm0
	vpmovmskb	%ymm0, %r8d
	shlq	$32, %r8
	orq	%rsi, %r8
	xorl	%esi, %esi
	popcntq	%r8, %rsi
	addq	%rdi, %rsi
	addq	$64, %rdx
	movq	%rcx, %rdi
	subq	%rdx, %rdi
	cmpq	$16, %rdi
	jb	.LBB83_71
.LBB83_69:
	addq	%rax, %rdx
	.p2align	4
.LBB83_70:
	vmovdqu	(%rdx), %xmm0
	vpcmpgtb	.LCPI83_2(%rip), %xmm0, %xmm1
	vpmovmskb	%xmm1, %r8d
	popcntl	%r8d, %r8d
	vpmaxub	.LCPI83_3(%rip), %xmm0, %xmm1
	vpcmpeqb	%xmm1, %xmm0, %xmm0
	vpmovmskb	%xmm0, %r9d
	popcntl	%r9d, %r9d
	addl	%r8d, %r9d
	addq	%r9, %rsi
	addq	$-16, %rdi
	addq	$16, %rdx
	cmpq	$15, %rdi
	ja	.LBB83_70
.LBB83_71:
	vmovdqu	-16(%rax,%rcx), %xmm0
	vpcmpgtb	.LCPI83_2(%rip), %xmm0, %xmm1
	vpmovmskb	%xmm1, %eax
	movb	$16, %cl
	subb	%dil, %cl
	shrxq	%rcx, %rax, %rax
	vpmaxub	.LCPI83_3(%rip), %xmm0, %xmm1
	popcntl	%eax, %eax
	vpcmpeqb	%xmm1, %xmm0, %xmm0
	vpmovmskb	%xmm0, %edx
	shrxq	%rcx, %rdx, %rcx
	xorl	%r15d, %r15d
	popcntl	%ecx, %r15d
	addq	%rax, %r15
	addq	%rsi, %r15
.LBB83_72:
	addq	%r15, %r15
.LBB83_73:
	movq	%r15, %rax
	addq	$72, %rsp
	popq	%rbx
	popq	%r12
	popq	%r14
	popq	%r15
	vzeroupper
	retq
.Lfunc_end83:

	.section	.text$100,"xr"
	.globl	dethrux_from_utf8_replacements_v3
	.p2align	4
dethrux_from_utf8_replacements_v3:
	pushq	%r15
	pushq	%r14
	pushq	%rbx
	subq	$32, %rsp
	testq	%rsi, %rsi
	je	.LBB84_1
	movq	%rsi, %rbx
	xorl	%r14d, %r14d
	testq	%rdi, %rdi
	sete	%r14b
	shll	$12, %r14d
	addq	%rdi, %r14
	xorl	%r15d, %r15d
	jmp	.LBB84_3
	.p2align	4
.LBB84_5:
	movq	8(%rsp), %rax
	movzbl	17(%rsp), %ecx
	movq	%rbx, %rdx
	subq	%rax, %rdx
	cmpb	$1, 16(%rsp)
	cmovneq	%rdx, %rcx
	cmpq	%rcx, %rdx
	cmovaeq	%rcx, %rdx
	testq	%rcx, %rcx
	movl	$1, %esi
	cmovneq	%rdx, %rsi
	addq	%rsi, %rax
	xorl	%ecx, %ecx
	testq	%rsi, %rsi
	setne	%cl
	addq	%rcx, %r15
	addq	%rax, %r14
	subq	%rax, %rbx
	je	.LBB84_7
.LBB84_3:
	vxorps	%xmm0, %xmm0, %xmm0
	vmovaps	%xmm0, (%rsp)
	movq	$0, 16(%rsp)
	movq	%rsp, %rdi
	movq	%r14, %rsi
	movq	%rbx, %rdx
	callq	L_3
	cmpb	$0, (%rsp)
	jne	.LBB84_5
	xorl	%ecx, %ecx
	movq	%rbx, %rax
	addq	%rcx, %r15
	addq	%rax, %r14
	subq	%rax, %rbx
	jne	.LBB84_3
	jmp	.LBB84_7
.LBB84_1:
	xorl	%r15d, %r15d
.LBB84_7:
	movq	%r15, %rax
	addq	$32, %rsp
	popq	%rbx
	popq	%r14
	popq	%r15
	retq
.Lfunc_end84:

	.section	.rdata$003,"dr"
	.p2align	5, 0x0
.LCPI85_0:
	.zero	32,191
.LCPI85_1:
	.zero	32,240
	.section	.rdata$000,"dr"
	.p2align	4, 0x0
.LCPI85_2:
	.zero	16,191
.LCPI85_3:
	.zero	16,240
	.section	.rdata$001,"dr"
	.p2align	2, 0x0
.LCPI85_4:
	.zero	4,191
.LCPI85_5:
	.zero	4,240
	.section	.text$101,"xr"
	.globl	dethrux_from_wtf8_len_v3
	.p2align	4
dethrux_from_wtf8_len_v3:
	pushq	%rbp
	pushq	%r15
	pushq	%r14
	pushq	%r13
	pushq	%r12
	pushq	%rbx
	subq	$24, %rsp
	movq	%rsi, %rbx
	xorl	%r15d, %r15d
	testq	%rdi, %rdi
	sete	%r15b
	shll	$12, %r15d
	addq	%rdi, %r15
	xorl	%r13d, %r13d
	xorl	%ebp, %ebp
	xorl	%r12d, %r12d
	.p2align	4
.LBB85_1:
	leaq	(%r15,%r12), %r14
	movq	%rbx, %rdx
	subq	%r12, %rdx
	vpxor	%xmm0, %xmm0, %xmm0
	vmovdqa	%xmm0, (%rsp)
	movq	$0, 16(%rsp)
	movq	%rsp, %rdi
	movq	%r14, %rsi
	vzeroupper
	callq	L_3
	movq	8(%rsp), %rdx
	cmpb	$0, (%rsp)
	jne	.LBB85_2
	movq	16(%rsp), %rcx
	cmpq	$15, %rcx
	jbe	.LBB85_5
.LBB85_14:
	cmpq	$64, %rcx
	jb	.LBB85_15
	leaq	-64(%rcx), %rdi
	shrq	$6, %rdi
	je	.LBB85_17
	incq	%rdi
	movq	%rdi, %r8
	andq	$-2, %r8
	xorl	%eax, %eax
	xorl	%esi, %esi
	.p2align	4
.LBB85_32:
	vpbroadcastd	.LCPI85_4(%rip), %ymm3
	vpbroadcastd	.LCPI85_5(%rip), %ymm0
	vmovdqu	(%rdx,%rax), %ymm4
	vmovdqu	32(%rdx,%rax), %ymm5
	vmovdqu	64(%rdx,%rax), %ymm2
	vmovdqu	96(%rdx,%rax), %ymm1
	vpcmpgtb	%ymm3, %ymm4, %ymm6
	vpmovmskb	%ymm6, %r9d
	vpcmpgtb	%ymm3, %ymm5, %ymm6
	vpmovmskb	%ymm6, %r10d
	shlq	$32, %r10
	orq	%r9, %r10
	xorl	%r9d, %r9d
	popcntq	%r10, %r9
	addq	%rsi, %r9
	vpmaxub	%ymm0, %ymm4, %ymm6
	vpcmpeqb	%ymm6, %ymm4, %ymm4
	vpmovmskb	%ymm4, %esi
	vpmaxub	%ymm0, %ymm5, %ymm4
	vpcmpeqb	%ymm4, %ymm5, %ymm4
	vpmovmskb	%ymm4, %r10d
	shlq	$32, %r10
	orq	%rsi, %r10
	popcntq	%r10, %r10
	addq	%r9, %r10
	vpcmpgtb	%ymm3, %ymm2, %ymm4
	vpmovmskb	%ymm4, %esi
	vpcmpgtb	%ymm3, %ymm1, %ymm3
	vpmovmskb	%ymm3, %r9d
	shlq	$32, %r9
	orq	%rsi, %r9
	popcntq	%r9, %r9
	vpmaxub	%ymm0, %ymm2, %ymm3
	vpcmpeqb	%ymm3, %ymm2, %ymm2
	vpmovmskb	%ymm2, %esi
	vpmaxub	%ymm0, %ymm1, %ymm0
	vpcmpeqb	%ymm0, %ymm1, %ymm0
	vpmovmskb	%ymm0, %r11d
	shlq	$32, %r11
	orq	%rsi, %r11
	xorl	%esi, %esi
	popcntq	%r11, %rsi
	addq	%r9, %rsi
	addq	%r10, %rsi
	subq	$-128, %rax
	addq	$-2, %r8
	jne	.LBB85_32
	testb	$1, %dil
	je	.LBB85_20
	jmp	.LBB85_19
	.p2align	4
.LBB85_2:
	movq	%rdx, %rcx
	movq	%r14, %rdx
	cmpq	$15, %rcx
	ja	.LBB85_14
.LBB85_5:
	xorl	%eax, %eax
	testq	%rcx, %rcx
	je	.LBB85_24
	movq	%rcx, %rsi
	jmp	.LBB85_7
.LBB85_9:
	andl	$31, %edi
	shll	$6, %edi
	orl	%r8d, %edi
	movl	$2, %r10d
	.p2align	4
.LBB85_13:
	addq	%r10, %rdx
	xorl	%r8d, %r8d
	cmpl	$65536, %edi
	setae	%r8b
	leaq	(%rax,%r8,2), %rax
	addq	$2, %rax
	subq	%r10, %rsi
	je	.LBB85_24
.LBB85_7:
	movzbl	(%rdx), %edi
	movl	$1, %r10d
	testb	%dil, %dil
	jns	.LBB85_13
	movzbl	1(%rdx), %r8d
	andl	$63, %r8d
	cmpb	$-33, %dil
	jbe	.LBB85_9
	movzbl	2(%rdx), %r9d
	andl	$63, %r9d
	cmpb	$-17, %dil
	ja	.LBB85_12
	shll	$12, %edi
	movzwl	%di, %edi
	shll	$6, %r8d
	orl	%edi, %r8d
	orl	%r9d, %r8d
	movl	$3, %r10d
	movl	%r8d, %edi
	jmp	.LBB85_13
.LBB85_12:
	movzbl	3(%rdx), %r10d
	andl	$63, %r10d
	andl	$7, %edi
	shll	$18, %edi
	shll	$12, %r8d
	orl	%edi, %r8d
	shll	$6, %r9d
	orl	%r8d, %r9d
	orl	%r10d, %r9d
	movl	$4, %r10d
	movl	%r9d, %edi
	jmp	.LBB85_13
	.p2align	4
.LBB85_15:
	xorl	%esi, %esi
	xorl	%eax, %eax
.LBB85_20:
	movq	%rcx, %rdi
	subq	%rax, %rdi
	cmpq	$16, %rdi
	jae	.LBB85_21
	jmp	.LBB85_23
.LBB85_17:
	xorl	%eax, %eax
	xorl	%esi, %esi
.LBB85_19:
	vmovdqu	(%rdx,%rax), %ymm0
	vmovdqu	32(%rdx,%rax), %ymm1
	vpbroadcastd	.LCPI85_4(%rip), %ymm2
	vpbroadcastd	.LCPI85_5(%rip), %ymm3
	vpcmpgtb	%ymm2, %ymm0, %ymm4
	vpmovmskb	%ymm4, %edi
	vpcmpgtb	%ymm2, %ymm1, %ymm2
	vpmovmskb	%ymm2, %r8d
	shlq	$32, %r8
	orq	%rdi, %r8
	xorl	%edi, %edi
	popcntq	%r8, %rdi
	addq	%rsi, %rdi
	vpmaxub	%ymm3, %ymm0, %ymm2
	vpcmpeqb	%ymm2, %ymm0, %ymm0
	vpmovmskb	%ymm0, %esi
	vpmaxub	%ymm3, %ymm1, %ymm0
	vpcmpeqb	%ymm0, %ymm1, %ymm0
	vpmovmskb	%ymm0, %r8d
	shlq	$32, %r8
	orq	%rsi, %r8
	xorl	%esi, %esi
	popcntq	%r8, %rsi
	addq	%rdi, %rsi
	addq	$64, %rax
	movq	%rcx, %rdi
	subq	%rax, %rdi
	cmpq	$16, %rdi
	jb	.LBB85_23
.LBB85_21:
	addq	%rdx, %rax
	.p2align	4
.LBB85_22:
	vmovdqu	(%rax), %xmm0
	vpcmpgtb	.LCPI85_2(%rip), %xmm0, %xmm1
	vpmovmskb	%xmm1, %r8d
	popcntl	%r8d, %r8d
	vpmaxub	.LCPI85_3(%rip), %xmm0, %xmm1
	vpcmpeqb	%xmm1, %xmm0, %xmm0
	vpmovmskb	%xmm0, %r9d
	popcntl	%r9d, %r9d
	addl	%r8d, %r9d
	addq	%r9, %rsi
	addq	$-16, %rdi
	addq	$16, %rax
	cmpq	$15, %rdi
	ja	.LBB85_22
.LBB85_23:
	vmovdqu	-16(%rdx,%rcx), %xmm0
	vpcmpgtb	.LCPI85_2(%rip), %xmm0, %xmm1
	vpmovmskb	%xmm1, %eax
	movb	$16, %dl
	subb	%dil, %dl
	shrxq	%rdx, %rax, %rax
	vpmaxub	.LCPI85_3(%rip), %xmm0, %xmm1
	xorl	%edi, %edi
	popcntl	%eax, %edi
	vpcmpeqb	%xmm1, %xmm0, %xmm0
	vpmovmskb	%xmm0, %eax
	shrxq	%rdx, %rax, %rax
	popcntl	%eax, %eax
	addq	%rdi, %rax
	addq	%rsi, %rax
	addq	%rax, %rax
.LBB85_24:
	addq	%rbp, %rax
	addq	%rcx, %r12
	testq	%rcx, %rcx
	sete	%cl
	movq	%rbx, %rdx
	subq	%r12, %rdx
	cmpq	$2, %rdx
	jb	.LBB85_33
	cmpb	$-19, (%r15,%r12)
	jne	.LBB85_33
	cmpq	$2, %rdx
	je	.LBB85_33
	movzbl	1(%r15,%r12), %edx
	movl	%edx, %esi
	andb	$-32, %sil
	cmpb	$-96, %sil
	jne	.LBB85_33
	cmpb	$-65, 2(%r15,%r12)
	jg	.LBB85_33
	andb	%cl, %r13b
	andb	$48, %dl
	cmpb	$48, %dl
	sete	%cl
	testb	%cl, %r13b
	jne	.LBB85_33
	addq	$3, %r12
	addq	$2, %rax
	cmpb	$32, %dl
	sete	%r13b
	movq	%rax, %rbp
	jmp	.LBB85_1
.LBB85_33:
	addq	$24, %rsp
	popq	%rbx
	popq	%r12
	popq	%r13
	popq	%r14
	popq	%r15
	popq	%rbp
	vzeroupper
	retq
.Lfunc_end85:

	.section	.text$102,"xr"
	.globl	dethrux_nul_offset_v3
	.p2align	4
dethrux_nul_offset_v3:
	movq	%rsi, %rax
	xorl	%r8d, %r8d
	testq	%rdi, %rdi
	sete	%r8b
	shll	$12, %r8d
	leaq	(%rdi,%r8), %rdx
	movq	%rsi, %rcx
	andq	$-2, %rcx
	cmpq	$15, %rsi
	ja	.LBB86_5
	xorl	%edi, %edi
	testq	%rcx, %rcx
	je	.LBB86_4
	.p2align	4
.LBB86_2:
	cmpw	$0, (%rdx,%rdi)
	je	.LBB86_4
	addq	$2, %rdi
	cmpq	%rcx, %rdi
	jb	.LBB86_2
.LBB86_4:
	cmpq	%rcx, %rdi
	cmovneq	%rdi, %rax
	retq
.LBB86_5:
	xorl	%esi, %esi
	cmpq	$64, %rax
	jb	.LBB86_10
	movq	%rdx, %r9
	.p2align	4
.LBB86_7:
	vpxor	%xmm0, %xmm0, %xmm0
	vpcmpeqw	32(%r9), %ymm0, %ymm1
	vpcmpeqw	(%r9), %ymm0, %ymm0
	vpacksswb	%ymm1, %ymm0, %ymm0
	vpermq	$216, %ymm0, %ymm0
	vpmovmskb	%ymm0, %r10d
	tzcntl	%r10d, %r10d
	cmpl	$31, %r10d
	jbe	.LBB86_14
	leaq	(%rax,%rsi), %r10
	addq	$-64, %r10
	addq	$-64, %rsi
	addq	$64, %r9
	cmpq	$63, %r10
	ja	.LBB86_7
	negq	%rsi
.LBB86_10:
	movq	%rcx, %r9
	subq	%rsi, %r9
	cmpq	$17, %r9
	jb	.LBB86_17
	addq	%rsi, %r8
	negq	%rsi
	addq	%r8, %rdi
	.p2align	4
.LBB86_12:
	vpxor	%xmm0, %xmm0, %xmm0
	vpcmpeqw	(%rdi), %xmm0, %xmm0
	vpacksswb	%xmm0, %xmm0, %xmm0
	vpmovmskb	%xmm0, %r8d
	orl	$256, %r8d
	tzcntl	%r8d, %r8d
	cmpb	$7, %r8b
	jbe	.LBB86_13
	leaq	(%rcx,%rsi), %r8
	addq	$-16, %r8
	addq	$-16, %rsi
	addq	$16, %rdi
	cmpq	$16, %r8
	ja	.LBB86_12
.LBB86_17:
	vpxor	%xmm0, %xmm0, %xmm0
	vpcmpeqw	-16(%rdx,%rcx), %xmm0, %xmm0
	vpacksswb	%xmm0, %xmm0, %xmm0
	vpmovmskb	%xmm0, %edx
	orl	$256, %edx
	tzcntl	%edx, %edx
	movzbl	%dl, %edx
	leaq	(%rcx,%rdx,2), %rdi
	addq	$-16, %rdi
	cmpq	%rcx, %rdi
	cmovneq	%rdi, %rax
	vzeroupper
	retq
.LBB86_14:
	movl	%r10d, %edi
	jmp	.LBB86_15
.LBB86_13:
	movzbl	%r8b, %edi
.LBB86_15:
	addq	%rdi, %rdi
	subq	%rsi, %rdi
	cmpq	%rcx, %rdi
	cmovneq	%rdi, %rax
	vzeroupper
	retq
.Lfunc_end86:

	.section	.text$103,"xr"
	.globl	dethrux_shard_offset_v3
	.p2align	4
dethrux_shard_offset_v3:
	movq	%rdi, %rax
	cmpq	%rdx, %rsi
	jbe	.LBB87_5
	movq	%rdx, %rcx
	shrq	%rax
	movq	%rax, %rdx
	orq	%rsi, %rdx
	shrq	$32, %rdx
	je	.LBB87_2
	xorl	%edx, %edx
	divq	%rsi
	jmp	.LBB87_4
.LBB87_2:
	xorl	%edx, %edx
	divl	%esi
.LBB87_4:
	imulq	%rcx, %rax
	cmpq	%rcx, %rdx
	cmovbq	%rdx, %rcx
	addq	%rax, %rcx
	addq	%rcx, %rcx
	movq	%rcx, %rax
.LBB87_5:
	retq
.Lfunc_end87:

	.section	.rdata$003,"dr"
	.p2align	5, 0x0
.LCPI88_0:
	.byte	1
	.byte	0
	.byte	3
	.byte	2
	.byte	5
	.byte	4
	.byte	7
	.byte	6
	.byte	9
	.byte	8
	.byte	11
	.byte	10
	.byte	13
	.byte	12
	.byte	15
	.byte	14
	.byte	1
	.byte	0
	.byte	3
	.byte	2
	.byte	5
	.byte	4
	.byte	7
	.byte	6
	.byte	9
	.byte	8
	.byte	11
	.byte	10
	.byte	13
	.byte	12
	.byte	15
	.byte	14
	.section	.rdata$000,"dr"
	.p2align	4, 0x0
.LCPI88_1:
	.byte	1
	.byte	0
	.byte	3
	.byte	2
	.byte	5
	.byte	4
	.byte	7
	.byte	6
	.byte	9
	.byte	8
	.byte	11
	.byte	10
	.byte	13
	.byte	12
	.byte	15
	.byte	14
	.section	.text$104,"xr"
	.globl	dethrux_swap_byte_order_v3
	.p2align	4
dethrux_swap_byte_order_v3:
	xorl	%eax, %eax
	testq	%rdi, %rdi
	sete	%al
	shll	$12, %eax
	leaq	(%rdi,%rax), %rcx
	cmpq	$64, %rsi
	jb	.LBB88_1
	leaq	-64(%rsi), %rdx
	movq	%rdx, %r9
	shrq	$6, %r9
	incq	%r9
	movl	%r9d, %r8d
	andl	$3, %r8d
	cmpq	$192, %rdx
	jae	.LBB88_22
	xorl	%edx, %edx
	jmp	.LBB88_5
.LBB88_1:
	xorl	%edx, %edx
	jmp	.LBB88_6
.LBB88_22:
	andq	$-4, %r9
	leaq	(%rax,%rdi), %r10
	addq	$192, %r10
	xorl	%edx, %edx
	.p2align	4
.LBB88_23:
	vbroadcasti128	.LCPI88_1(%rip), %ymm0
	vmovdqu	-192(%r10,%rdx), %ymm1
	vmovdqu	-160(%r10,%rdx), %ymm2
	vmovdqu	-128(%r10,%rdx), %ymm3
	vmovdqu	-96(%r10,%rdx), %ymm4
	vpshufb	%ymm0, %ymm2, %ymm2
	vpshufb	%ymm0, %ymm1, %ymm1
	vmovdqu	%ymm1, -192(%r10,%rdx)
	vmovdqu	%ymm2, -160(%r10,%rdx)
	vpshufb	%ymm0, %ymm4, %ymm1
	vpshufb	%ymm0, %ymm3, %ymm2
	vmovdqu	%ymm2, -128(%r10,%rdx)
	vmovdqu	%ymm1, -96(%r10,%rdx)
	vmovdqu	-64(%r10,%rdx), %ymm1
	vmovdqu	-32(%r10,%rdx), %ymm2
	vpshufb	%ymm0, %ymm2, %ymm2
	vpshufb	%ymm0, %ymm1, %ymm1
	vmovdqu	%ymm1, -64(%r10,%rdx)
	vmovdqu	%ymm2, -32(%r10,%rdx)
	vmovdqu	(%r10,%rdx), %ymm1
	vmovdqu	32(%r10,%rdx), %ymm2
	vpshufb	%ymm0, %ymm2, %ymm2
	vpshufb	%ymm0, %ymm1, %ymm0
	vmovdqu	%ymm0, (%r10,%rdx)
	vmovdqu	%ymm2, 32(%r10,%rdx)
	addq	$256, %rdx
	addq	$-4, %r9
	jne	.LBB88_23
	testq	%r8, %r8
	je	.LBB88_6
	.p2align	4
.LBB88_5:
	vmovdqu	(%rcx,%rdx), %ymm0
	vmovdqu	32(%rcx,%rdx), %ymm1
	vbroadcasti128	.LCPI88_1(%rip), %ymm2
	vpshufb	%ymm2, %ymm1, %ymm1
	vpshufb	%ymm2, %ymm0, %ymm0
	vmovdqu	%ymm0, (%rcx,%rdx)
	vmovdqu	%ymm1, 32(%rcx,%rdx)
	addq	$64, %rdx
	decq	%r8
	jne	.LBB88_5
.LBB88_6:
	movq	%rsi, %r9
	subq	%rdx, %r9
	cmpq	$2, %r9
	jb	.LBB88_14
	addq	$-2, %r9
	cmpq	$14, %r9
	jb	.LBB88_20
	movq	%r9, %r8
	andq	$-2, %r8
	leaq	(%rdx,%rcx), %r10
	incq	%r10
	addq	%rdx, %rcx
	addq	%rcx, %r8
	incq	%r8
	cmpq	%r10, %r8
	jb	.LBB88_20
	movq	%r9, %r8
	shrq	%r8
	incq	%r8
	cmpq	$126, %r9
	jae	.LBB88_15
	xorl	%r9d, %r9d
	jmp	.LBB88_11
.LBB88_15:
	movq	%r8, %r9
	andq	$-64, %r9
	leaq	(%rax,%rdx), %r10
	addq	%rdi, %r10
	addq	$64, %r10
	xorl	%r11d, %r11d
	.p2align	4
.LBB88_16:
	vmovdqu	-64(%r10,%r11,2), %ymm0
	vmovdqu	-32(%r10,%r11,2), %ymm1
	vmovdqu	(%r10,%r11,2), %ymm2
	vmovdqu	32(%r10,%r11,2), %ymm3
	vbroadcasti128	.LCPI88_1(%rip), %ymm4
	vpshufb	%ymm4, %ymm1, %ymm1
	vpshufb	%ymm4, %ymm0, %ymm0
	vmovdqu	%ymm0, -64(%r10,%r11,2)
	vmovdqu	%ymm1, -32(%r10,%r11,2)
	vpshufb	%ymm4, %ymm3, %ymm0
	vpshufb	%ymm4, %ymm2, %ymm1
	vmovdqu	%ymm1, (%r10,%r11,2)
	vmovdqu	%ymm0, 32(%r10,%r11,2)
	addq	$64, %r11
	cmpq	%r11, %r9
	jne	.LBB88_16
	cmpq	%r9, %r8
	je	.LBB88_14
	testb	$56, %r8b
	je	.LBB88_19
.LBB88_11:
	movq	%r8, %r10
	andq	$-8, %r10
	leaq	(%rdx,%r10,2), %rdx
	.p2align	4
.LBB88_12:
	vmovdqu	(%rcx,%r9,2), %xmm0
	vpshufb	.LCPI88_1(%rip), %xmm0, %xmm0
	vmovdqu	%xmm0, (%rcx,%r9,2)
	addq	$8, %r9
	cmpq	%r9, %r10
	jne	.LBB88_12
	cmpq	%r10, %r8
	je	.LBB88_14
.LBB88_20:
	subq	%rdx, %rsi
	addq	%rdx, %rax
	addq	%rdi, %rax
	incq	%rax
	.p2align	4
.LBB88_21:
	movzwl	-1(%rax), %ecx
	movbew	%cx, -1(%rax)
	addq	$-2, %rsi
	addq	$2, %rax
	cmpq	$1, %rsi
	ja	.LBB88_21
.LBB88_14:
	vzeroupper
	retq
.LBB88_19:
	leaq	(%rdx,%r9,2), %rdx
	jmp	.LBB88_20
.Lfunc_end88:

	.section	.rdata$001,"dr"
	.p2align	2, 0x0
.LCPI89_0:
	.long	1114112
.LCPI89_1:
	.long	4294965248
.LCPI89_2:
	.long	55296
	.section	.text$105,"xr"
	.globl	dethrux_validate_utf32_v3
	.p2align	4
dethrux_validate_utf32_v3:
	movq	%rsi, %rax
	xorl	%ecx, %ecx
	testq	%rdi, %rdi
	sete	%cl
	shll	$12, %ecx
	addq	%rdi, %rcx
	cmpq	$16, %rsi
	jb	.LBB89_1
	xorl	%esi, %esi
	movq	%rax, %rdx
	.p2align	4
.LBB89_3:
	vmovdqu	(%rcx,%rsi,4), %ymm0
	vmovdqu	32(%rcx,%rsi,4), %ymm1
	vpbroadcastd	.LCPI89_0(%rip), %ymm2
	vpmaxud	%ymm2, %ymm1, %ymm3
	vpcmpeqd	%ymm3, %ymm1, %ymm3
	vpmaxud	%ymm2, %ymm0, %ymm2
	vpcmpeqd	%ymm2, %ymm0, %ymm2
	vpackssdw	%ymm3, %ymm2, %ymm2
	vpmovmskb	%ymm2, %edi
	testl	%edi, %edi
	jne	.LBB89_6
	vpbroadcastd	.LCPI89_1(%rip), %ymm2
	vpand	%ymm2, %ymm1, %ymm1
	vpand	%ymm2, %ymm0, %ymm0
	vpbroadcastd	.LCPI89_2(%rip), %ymm2
	vpcmpeqd	%ymm2, %ymm0, %ymm0
	vpcmpeqd	%ymm2, %ymm1, %ymm1
	vpackssdw	%ymm1, %ymm0, %ymm0
	vpmovmskb	%ymm0, %edi
	testl	%edi, %edi
	jne	.LBB89_6
	addq	$16, %rsi
	addq	$-16, %rdx
	cmpq	$15, %rdx
	ja	.LBB89_3
.LBB89_6:
	cmpq	%rax, %rsi
	jae	.LBB89_10
	.p2align	4
.LBB89_7:
	movl	(%rcx,%rsi,4), %edx
	cmpl	$55296, %edx
	setae	%dil
	addl	$-57344, %edx
	cmpl	$1056768, %edx
	setae	%dl
	testb	%dl, %dil
	jne	.LBB89_8
	incq	%rsi
	cmpq	%rsi, %rax
	jne	.LBB89_7
	jmp	.LBB89_10
.LBB89_1:
	xorl	%esi, %esi
	cmpq	%rax, %rsi
	jb	.LBB89_7
.LBB89_10:
	xorl	%edx, %edx
	vzeroupper
	retq
.LBB89_8:
	movabsq	$4294967297, %rdx
	movq	%rsi, %rax
	vzeroupper
	retq
.Lfunc_end89:

	.section	.text$106,"xr"
	.globl	dethrux_version_v3
	.p2align	4
dethrux_version_v3:
	movl	$2000, %eax
	retq
.Lfunc_end90:

	.section	.text$107,"xr"
	.globl	dethrux_compare_v3
	.p2align	4
dethrux_compare_v3:
	pushq	%rbp
	pushq	%r15
	pushq	%r14
	pushq	%r13
	pushq	%r12
	pushq	%rbx
	pushq	%rax
	movq	%r9, %rbx
	movq	%rdx, %r14
	xorl	%r9d, %r9d
	testq	%rsi, %rsi
	sete	%r9b
	shll	$12, %r9d
	addq	%rsi, %r9
	xorl	%r12d, %r12d
	testq	%r8, %r8
	sete	%r12b
	shll	$12, %r12d
	addq	%r8, %r12
	cmpl	$1, %edi
	jne	.LBB91_60
	cmpl	$1, %ecx
	jne	.LBB91_31
	.p2align	4
	testq	%r14, %r14
	je	.LBB91_6
.LBB91_3:
	cmpq	$1, %r14
	jne	.LBB91_8
	movl	$65533, %ebp
	movb	$2, %dl
.LBB91_5:
	xorl	%r15d, %r15d
	jmp	.LBB91_7
	.p2align	4
.LBB91_8:
	movbew	(%r9), %di
	movl	%edi, %eax
	andl	$63488, %eax
	cmpl	$55296, %eax
	jne	.LBB91_13
	movl	%edi, %eax
	notl	%eax
	movl	$2, %r13d
	movl	$65533, %ebp
	movb	$2, %dl
	testl	$56320, %eax
	jne	.LBB91_11
.LBB91_10:
	xorl	%r15d, %r15d
	movl	$65533, %eax
	cmpq	$1, %rbx
	jne	.LBB91_17
	jmp	.LBB91_27
.LBB91_11:
	cmpq	$4, %r14
	jb	.LBB91_5
	movzbl	2(%r9), %eax
	andb	$-4, %al
	cmpb	$-36, %al
	jne	.LBB91_10
.LBB91_13:
	movl	%edi, %eax
	andl	$64512, %eax
	cmpl	$55296, %eax
	jne	.LBB91_15
	movbew	2(%r9), %si
	movq	%r9, %r15
	callq	L_5
	movq	%r15, %r9
	movl	%eax, %ebp
	movl	$4, %r13d
	jmp	.LBB91_16
.LBB91_15:
	movzwl	%di, %ebp
	movl	$2, %r13d
.LBB91_16:
	movb	$2, %dl
	xorl	%r15d, %r15d
	movl	$65533, %eax
	cmpq	$1, %rbx
	jne	.LBB91_17
	jmp	.LBB91_27
	.p2align	4
.LBB91_6:
	xorl	%ebp, %ebp
	movb	$1, %dl
	movb	$1, %r15b
.LBB91_7:
	movq	%r14, %r13
	movl	$65533, %eax
	cmpq	$1, %rbx
	je	.LBB91_27
.LBB91_17:
	testq	%rbx, %rbx
	je	.LBB91_119
	movbew	(%r12), %di
	movl	%edi, %ecx
	andl	$63488, %ecx
	cmpl	$55296, %ecx
	jne	.LBB91_23
	movl	%edi, %ecx
	notl	%ecx
	movl	$2, %edx
	testl	$56320, %ecx
	je	.LBB91_28
	cmpq	$4, %rbx
	jae	.LBB91_22
	.p2align	4
.LBB91_27:
	movq	%rbx, %rdx
.LBB91_28:
	movl	$-1, %ecx
	testb	%r15b, %r15b
	jne	.LBB91_121
	cmpl	%eax, %ebp
	jne	.LBB91_125
	addq	%r13, %r9
	subq	%r13, %r14
	addq	%rdx, %r12
	subq	%rdx, %rbx
	testq	%r14, %r14
	jne	.LBB91_3
	jmp	.LBB91_6
.LBB91_22:
	movzbl	2(%r12), %ecx
	andb	$-4, %cl
	cmpb	$-36, %cl
	jne	.LBB91_28
	.p2align	4
.LBB91_23:
	movl	%edi, %eax
	andl	$64512, %eax
	cmpl	$55296, %eax
	jne	.LBB91_25
	movbew	2(%r12), %si
	movq	%r9, (%rsp)
	callq	L_5
	movq	(%rsp), %r9
	movl	$4, %edx
	jmp	.LBB91_28
.LBB91_25:
	movzwl	%di, %eax
	movl	$2, %edx
	jmp	.LBB91_28
	.p2align	4
.LBB91_31:
	testq	%r14, %r14
	je	.LBB91_35
	cmpq	$1, %r14
	jne	.LBB91_37
	movl	$65533, %ebp
	movb	$2, %dl
.LBB91_34:
	xorl	%r15d, %r15d
	jmp	.LBB91_36
	.p2align	4
.LBB91_35:
	xorl	%ebp, %ebp
	movb	$1, %dl
	movb	$1, %r15b
.LBB91_36:
	movq	%r14, %r13
	movl	$65533, %eax
	cmpq	$1, %rbx
	jne	.LBB91_46
	jmp	.LBB91_56
	.p2align	4
.LBB91_37:
	movbew	(%r9), %di
	movl	%edi, %eax
	andl	$63488, %eax
	cmpl	$55296, %eax
	jne	.LBB91_42
	movl	%edi, %eax
	notl	%eax
	movl	$2, %r13d
	movl	$65533, %ebp
	movb	$2, %dl
	testl	$56320, %eax
	jne	.LBB91_40
.LBB91_39:
	xorl	%r15d, %r15d
	movl	$65533, %eax
	cmpq	$1, %rbx
	jne	.LBB91_46
	jmp	.LBB91_56
.LBB91_40:
	cmpq	$4, %r14
	jb	.LBB91_34
	movzbl	2(%r9), %eax
	andb	$-4, %al
	cmpb	$-36, %al
	jne	.LBB91_39
.LBB91_42:
	movl	%edi, %eax
	andl	$64512, %eax
	cmpl	$55296, %eax
	jne	.LBB91_44
	movbew	2(%r9), %si
	movq	%r9, %r15
	callq	L_5
	movq	%r15, %r9
	movl	%eax, %ebp
	movl	$4, %r13d
	jmp	.LBB91_45
.LBB91_44:
	movzwl	%di, %ebp
	movl	$2, %r13d
.LBB91_45:
	movb	$2, %dl
	xorl	%r15d, %r15d
	movl	$65533, %eax
	cmpq	$1, %rbx
	je	.LBB91_56
	.p2align	4
.LBB91_46:
	testq	%rbx, %rbx
	je	.LBB91_119
	movzbl	1(%r12), %edx
	movzwl	%dx, %ecx
	andl	$-8, %edx
	cmpl	$216, %edx
	jne	.LBB91_52
	movl	%ecx, %esi
	notl	%esi
	movl	$2, %edx
	testb	$-36, %sil
	je	.LBB91_57
	cmpq	$4, %rbx
	jae	.LBB91_51
	.p2align	4
.LBB91_56:
	movq	%rbx, %rdx
.LBB91_57:
	movl	$-1, %ecx
	testb	%r15b, %r15b
	jne	.LBB91_121
	cmpl	%eax, %ebp
	jne	.LBB91_125
	addq	%r13, %r9
	subq	%r13, %r14
	addq	%rdx, %r12
	subq	%rdx, %rbx
	jmp	.LBB91_31
.LBB91_51:
	movzbl	3(%r12), %esi
	andb	$-4, %sil
	cmpb	$-36, %sil
	jne	.LBB91_57
	.p2align	4
.LBB91_52:
	movzbl	(%r12), %edx
	movl	%ecx, %eax
	shll	$8, %eax
	orl	%edx, %eax
	andl	$-4, %ecx
	cmpl	$216, %ecx
	jne	.LBB91_54
	movzwl	2(%r12), %esi
	movl	%eax, %edi
	movq	%r9, (%rsp)
	callq	L_5
	movq	(%rsp), %r9
	movl	$4, %edx
	jmp	.LBB91_57
.LBB91_54:
	movl	$2, %edx
	jmp	.LBB91_57
.LBB91_60:
	cmpl	$1, %ecx
	jne	.LBB91_90
	.p2align	4
	testq	%r14, %r14
	je	.LBB91_65
.LBB91_62:
	cmpq	$1, %r14
	jne	.LBB91_67
	movl	$65533, %ebp
	movb	$2, %dl
.LBB91_64:
	xorl	%r15d, %r15d
	jmp	.LBB91_66
	.p2align	4
.LBB91_67:
	movzbl	1(%r9), %ecx
	movzwl	%cx, %eax
	andl	$-8, %ecx
	cmpl	$216, %ecx
	jne	.LBB91_72
	movl	%eax, %ecx
	notl	%ecx
	movl	$2, %r13d
	movl	$65533, %ebp
	movb	$2, %dl
	testb	$-36, %cl
	jne	.LBB91_70
.LBB91_69:
	xorl	%r15d, %r15d
	movl	$65533, %eax
	cmpq	$1, %rbx
	jne	.LBB91_76
	jmp	.LBB91_86
.LBB91_70:
	cmpq	$4, %r14
	jb	.LBB91_64
	movzbl	3(%r9), %ecx
	andb	$-4, %cl
	cmpb	$-36, %cl
	jne	.LBB91_69
.LBB91_72:
	movzbl	(%r9), %ecx
	movl	%eax, %ebp
	shll	$8, %ebp
	orl	%ecx, %ebp
	andl	$-4, %eax
	cmpl	$216, %eax
	jne	.LBB91_74
	movzwl	2(%r9), %esi
	movl	%ebp, %edi
	movq	%r9, %r15
	callq	L_5
	movq	%r15, %r9
	movl	%eax, %ebp
	movl	$4, %r13d
	jmp	.LBB91_75
.LBB91_74:
	movl	$2, %r13d
.LBB91_75:
	movb	$2, %dl
	xorl	%r15d, %r15d
	movl	$65533, %eax
	cmpq	$1, %rbx
	jne	.LBB91_76
	jmp	.LBB91_86
	.p2align	4
.LBB91_65:
	xorl	%ebp, %ebp
	movb	$1, %dl
	movb	$1, %r15b
.LBB91_66:
	movq	%r14, %r13
	movl	$65533, %eax
	cmpq	$1, %rbx
	je	.LBB91_86
.LBB91_76:
	testq	%rbx, %rbx
	je	.LBB91_119
	movbew	(%r12), %di
	movl	%edi, %ecx
	andl	$63488, %ecx
	cmpl	$55296, %ecx
	jne	.LBB91_82
	movl	%edi, %ecx
	notl	%ecx
	movl	$2, %edx
	testl	$56320, %ecx
	je	.LBB91_87
	cmpq	$4, %rbx
	jae	.LBB91_81
	.p2align	4
.LBB91_86:
	movq	%rbx, %rdx
.LBB91_87:
	movl	$-1, %ecx
	testb	%r15b, %r15b
	jne	.LBB91_121
	cmpl	%eax, %ebp
	jne	.LBB91_125
	addq	%r13, %r9
	subq	%r13, %r14
	addq	%rdx, %r12
	subq	%rdx, %rbx
	testq	%r14, %r14
	jne	.LBB91_62
	jmp	.LBB91_65
.LBB91_81:
	movzbl	2(%r12), %ecx
	andb	$-4, %cl
	cmpb	$-36, %cl
	jne	.LBB91_87
	.p2align	4
.LBB91_82:
	movl	%edi, %eax
	andl	$64512, %eax
	cmpl	$55296, %eax
	jne	.LBB91_84
	movbew	2(%r12), %si
	movq	%r9, (%rsp)
	callq	L_5
	movq	(%rsp), %r9
	movl	$4, %edx
	jmp	.LBB91_87
.LBB91_84:
	movzwl	%di, %eax
	movl	$2, %edx
	jmp	.LBB91_87
	.p2align	4
.LBB91_90:
	testq	%r14, %r14
	je	.LBB91_94
	cmpq	$1, %r14
	jne	.LBB91_96
	movl	$65533, %ebp
	movb	$2, %dl
.LBB91_93:
	xorl	%r15d, %r15d
	jmp	.LBB91_95
	.p2align	4
.LBB91_94:
	xorl	%ebp, %ebp
	movb	$1, %dl
	movb	$1, %r15b
.LBB91_95:
	movq	%r14, %r13
	movl	$65533, %eax
	cmpq	$1, %rbx
	jne	.LBB91_105
	jmp	.LBB91_115
	.p2align	4
.LBB91_96:
	movzbl	1(%r9), %ecx
	movzwl	%cx, %eax
	andl	$-8, %ecx
	cmpl	$216, %ecx
	jne	.LBB91_101
	movl	%eax, %ecx
	notl	%ecx
	movl	$2, %r13d
	movl	$65533, %ebp
	movb	$2, %dl
	testb	$-36, %cl
	jne	.LBB91_99
.LBB91_98:
	xorl	%r15d, %r15d
	movl	$65533, %eax
	cmpq	$1, %rbx
	jne	.LBB91_105
	jmp	.LBB91_115
.LBB91_99:
	cmpq	$4, %r14
	jb	.LBB91_93
	movzbl	3(%r9), %ecx
	andb	$-4, %cl
	cmpb	$-36, %cl
	jne	.LBB91_98
.LBB91_101:
	movzbl	(%r9), %ecx
	movl	%eax, %ebp
	shll	$8, %ebp
	orl	%ecx, %ebp
	andl	$-4, %eax
	cmpl	$216, %eax
	jne	.LBB91_103
	movzwl	2(%r9), %esi
	movl	%ebp, %edi
	movq	%r9, %r15
	callq	L_5
	movq	%r15, %r9
	movl	%eax, %ebp
	movl	$4, %r13d
	jmp	.LBB91_104
.LBB91_103:
	movl	$2, %r13d
.LBB91_104:
	movb	$2, %dl
	xorl	%r15d, %r15d
	movl	$65533, %eax
	cmpq	$1, %rbx
	je	.LBB91_115
	.p2align	4
.LBB91_105:
	testq	%rbx, %rbx
	je	.LBB91_119
	movzbl	1(%r12), %edx
	movzwl	%dx, %ecx
	andl	$-8, %edx
	cmpl	$216, %edx
	jne	.LBB91_111
	movl	%ecx, %esi
	notl	%esi
	movl	$2, %edx
	testb	$-36, %sil
	je	.LBB91_116
	cmpq	$4, %rbx
	jae	.LBB91_110
	.p2align	4
.LBB91_115:
	movq	%rbx, %rdx
.LBB91_116:
	movl	$-1, %ecx
	testb	%r15b, %r15b
	jne	.LBB91_121
	cmpl	%eax, %ebp
	jne	.LBB91_125
	addq	%r13, %r9
	subq	%r13, %r14
	addq	%rdx, %r12
	subq	%rdx, %rbx
	jmp	.LBB91_90
.LBB91_110:
	movzbl	3(%r12), %esi
	andb	$-4, %sil
	cmpb	$-36, %sil
	jne	.LBB91_116
	.p2align	4
.LBB91_111:
	movzbl	(%r12), %edx
	movl	%ecx, %eax
	shll	$8, %eax
	orl	%edx, %eax
	andl	$-4, %ecx
	cmpl	$216, %ecx
	jne	.LBB91_113
	movzwl	2(%r12), %esi
	movl	%eax, %edi
	movq	%r9, (%rsp)
	callq	L_5
	movq	(%rsp), %r9
	movl	$4, %edx
	jmp	.LBB91_116
.LBB91_113:
	movl	$2, %edx
	jmp	.LBB91_116
.LBB91_125:
	jb	.LBB91_121
.LBB91_120:
	movl	$1, %ecx
.LBB91_121:
	movl	%ecx, %eax
	addq	$8, %rsp
	popq	%rbx
	popq	%r12
	popq	%r13
	popq	%r14
	popq	%r15
	popq	%rbp
	retq
.LBB91_119:
	xorl	%ecx, %ecx
	cmpb	$2, %dl
	jne	.LBB91_121
	jmp	.LBB91_120
.Lfunc_end91:

	.section	.rdata$003,"dr"
	.p2align	5, 0x0
.LCPI92_0:
	.zero	32,252
.LCPI92_1:
	.zero	32,220
	.section	.rdata$000,"dr"
	.p2align	4, 0x0
.LCPI92_2:
	.byte	0
	.byte	2
	.byte	4
	.byte	6
	.zero	1
	.zero	1
	.zero	1
	.zero	1
	.zero	1
	.zero	1
	.zero	1
	.zero	1
	.zero	1
	.zero	1
	.zero	1
	.zero	1
.LCPI92_3:
	.byte	252
	.byte	252
	.byte	252
	.byte	252
	.zero	1
	.zero	1
	.zero	1
	.zero	1
	.zero	1
	.zero	1
	.zero	1
	.zero	1
	.zero	1
	.zero	1
	.zero	1
	.zero	1
.LCPI92_4:
	.byte	220
	.byte	220
	.byte	220
	.byte	220
	.zero	1
	.zero	1
	.zero	1
	.zero	1
	.zero	1
	.zero	1
	.zero	1
	.zero	1
	.zero	1
	.zero	1
	.zero	1
	.zero	1
.LCPI92_9:
	.byte	0
	.byte	2
	.byte	4
	.byte	6
	.byte	0
	.byte	0
	.byte	0
	.byte	0
	.byte	0
	.byte	0
	.byte	0
	.byte	0
	.byte	0
	.byte	0
	.byte	0
	.byte	0
	.section	.rdata$007,"dr"
	.p2align	3, 0x0
.LCPI92_5:
	.quad	1
	.section	.rdata$013,"dr"
	.p2align	1, 0x0
.LCPI92_6:
	.byte	255
	.byte	0
	.section	.rdata$001,"dr"
	.p2align	2, 0x0
.LCPI92_7:
	.zero	4,252
.LCPI92_8:
	.zero	4,220
	.section	.text$108,"xr"
	.globl	dethrux_count_chars_v3
	.p2align	4
dethrux_count_chars_v3:
	pushq	%rbp
	pushq	%r14
	pushq	%rbx
	movq	%rdx, %rax
	xorl	%ecx, %ecx
	testq	%rsi, %rsi
	sete	%cl
	shll	$12, %ecx
	leaq	(%rsi,%rcx), %rdx
	cmpl	$1, %edi
	jne	.LBB92_23
	cmpq	$64, %rax
	jb	.LBB92_2
	leaq	-64(%rax), %rdi
	movq	%rdi, %r10
	shrq	$6, %r10
	incq	%r10
	movl	%r10d, %r9d
	andl	$3, %r9d
	cmpq	$192, %rdi
	jae	.LBB92_21
	xorl	%edi, %edi
	xorl	%r8d, %r8d
	jmp	.LBB92_6
.LBB92_23:
	cmpq	$64, %rax
	jb	.LBB92_24
	leaq	-64(%rax), %rdi
	movq	%rdi, %r10
	shrq	$6, %r10
	incq	%r10
	movl	%r10d, %r9d
	andl	$3, %r9d
	cmpq	$192, %rdi
	jae	.LBB92_44
	xorl	%edi, %edi
	xorl	%r8d, %r8d
	jmp	.LBB92_28
.LBB92_2:
	xorl	%r8d, %r8d
	xorl	%edi, %edi
	jmp	.LBB92_7
.LBB92_24:
	xorl	%r8d, %r8d
	xorl	%edi, %edi
	jmp	.LBB92_29
.LBB92_21:
	andq	$-4, %r10
	leaq	(%rcx,%rsi), %r11
	addq	$192, %r11
	xorl	%edi, %edi
	xorl	%r8d, %r8d
	.p2align	4
.LBB92_22:
	vpbroadcastw	.LCPI92_6(%rip), %ymm0
	vpand	-160(%r11,%rdi), %ymm0, %ymm1
	vpand	-192(%r11,%rdi), %ymm0, %ymm2
	vpackuswb	%ymm1, %ymm2, %ymm1
	vpermq	$216, %ymm1, %ymm2
	vpbroadcastd	.LCPI92_7(%rip), %ymm1
	vpand	%ymm1, %ymm2, %ymm3
	vpbroadcastd	.LCPI92_8(%rip), %ymm2
	vpcmpeqb	%ymm2, %ymm3, %ymm3
	vpmovmskb	%ymm3, %ebx
	popcntl	%ebx, %ebx
	vpand	-96(%r11,%rdi), %ymm0, %ymm3
	vpand	-128(%r11,%rdi), %ymm0, %ymm4
	addq	%r8, %rbx
	vpackuswb	%ymm3, %ymm4, %ymm3
	vpermq	$216, %ymm3, %ymm3
	vpand	%ymm1, %ymm3, %ymm3
	vpcmpeqb	%ymm2, %ymm3, %ymm3
	vpmovmskb	%ymm3, %r8d
	vpand	-32(%r11,%rdi), %ymm0, %ymm3
	popcntl	%r8d, %r8d
	vpand	-64(%r11,%rdi), %ymm0, %ymm4
	vpackuswb	%ymm3, %ymm4, %ymm3
	vpermq	$216, %ymm3, %ymm3
	vpand	%ymm1, %ymm3, %ymm3
	vpcmpeqb	%ymm2, %ymm3, %ymm3
	vpmovmskb	%ymm3, %ebp
	xorl	%r14d, %r14d
	popcntl	%ebp, %r14d
	addq	%r8, %r14
	vpand	32(%r11,%rdi), %ymm0, %ymm3
	addq	%rbx, %r14
	vpand	(%r11,%rdi), %ymm0, %ymm0
	vpackuswb	%ymm3, %ymm0, %ymm0
	vpermq	$216, %ymm0, %ymm0
	vpand	%ymm1, %ymm0, %ymm0
	vpcmpeqb	%ymm2, %ymm0, %ymm0
	vpmovmskb	%ymm0, %r8d
	popcntl	%r8d, %r8d
	addq	%r14, %r8
	addq	$256, %rdi
	addq	$-4, %r10
	jne	.LBB92_22
	testq	%r9, %r9
	je	.LBB92_7
	.p2align	4
.LBB92_6:
	vpbroadcastw	.LCPI92_6(%rip), %ymm0
	vpand	32(%rdx,%rdi), %ymm0, %ymm1
	vpand	(%rdx,%rdi), %ymm0, %ymm0
	vpackuswb	%ymm1, %ymm0, %ymm0
	vpermq	$216, %ymm0, %ymm0
	vpand	.LCPI92_0(%rip), %ymm0, %ymm0
	vpcmpeqb	.LCPI92_1(%rip), %ymm0, %ymm0
	vpmovmskb	%ymm0, %r10d
	popcntl	%r10d, %r10d
	addq	%r10, %r8
	addq	$64, %rdi
	decq	%r9
	jne	.LBB92_6
.LBB92_7:
	movq	%rax, %r10
	subq	%rdi, %r10
	cmpq	$2, %r10
	jb	.LBB92_43
	addq	$-2, %r10
	cmpq	$8, %r10
	jae	.LBB92_10
	movq	%rdi, %r11
	jmp	.LBB92_19
.LBB92_44:
	andq	$-4, %r10
	leaq	(%rcx,%rsi), %r11
	addq	$192, %r11
	xorl	%edi, %edi
	xorl	%r8d, %r8d
	.p2align	4
.LBB92_45:
	vmovdqu	-192(%r11,%rdi), %ymm0
	vmovdqu	-160(%r11,%rdi), %ymm1
	vmovdqu	-128(%r11,%rdi), %ymm2
	vmovdqu	-96(%r11,%rdi), %ymm3
	vpsrlw	$8, %ymm1, %ymm1
	vpsrlw	$8, %ymm0, %ymm0
	vpackuswb	%ymm1, %ymm0, %ymm0
	vpermq	$216, %ymm0, %ymm1
	vpbroadcastd	.LCPI92_7(%rip), %ymm0
	vpand	%ymm0, %ymm1, %ymm4
	vpbroadcastd	.LCPI92_8(%rip), %ymm1
	vpcmpeqb	%ymm1, %ymm4, %ymm4
	vpmovmskb	%ymm4, %ebx
	popcntl	%ebx, %ebx
	addq	%r8, %rbx
	vpsrlw	$8, %ymm3, %ymm3
	vpsrlw	$8, %ymm2, %ymm2
	vpackuswb	%ymm3, %ymm2, %ymm2
	vpermq	$216, %ymm2, %ymm2
	vpand	%ymm0, %ymm2, %ymm2
	vpcmpeqb	%ymm1, %ymm2, %ymm2
	vpmovmskb	%ymm2, %r8d
	popcntl	%r8d, %r8d
	vmovdqu	-64(%r11,%rdi), %ymm2
	vmovdqu	-32(%r11,%rdi), %ymm3
	vpsrlw	$8, %ymm3, %ymm3
	vpsrlw	$8, %ymm2, %ymm2
	vpackuswb	%ymm3, %ymm2, %ymm2
	vpermq	$216, %ymm2, %ymm2
	vpand	%ymm0, %ymm2, %ymm2
	vpcmpeqb	%ymm1, %ymm2, %ymm2
	vpmovmskb	%ymm2, %ebp
	xorl	%r14d, %r14d
	popcntl	%ebp, %r14d
	addq	%r8, %r14
	addq	%rbx, %r14
	vmovdqu	(%r11,%rdi), %ymm2
	vmovdqu	32(%r11,%rdi), %ymm3
	vpsrlw	$8, %ymm3, %ymm3
	vpsrlw	$8, %ymm2, %ymm2
	vpackuswb	%ymm3, %ymm2, %ymm2
	vpermq	$216, %ymm2, %ymm2
	vpand	%ymm0, %ymm2, %ymm0
	vpcmpeqb	%ymm1, %ymm0, %ymm0
	vpmovmskb	%ymm0, %r8d
	popcntl	%r8d, %r8d
	addq	%r14, %r8
	addq	$256, %rdi
	addq	$-4, %r10
	jne	.LBB92_45
	testq	%r9, %r9
	je	.LBB92_29
	.p2align	4
.LBB92_28:
	vmovdqu	(%rdx,%rdi), %ymm0
	vmovdqu	32(%rdx,%rdi), %ymm1
	vpsrlw	$8, %ymm1, %ymm1
	vpsrlw	$8, %ymm0, %ymm0
	vpackuswb	%ymm1, %ymm0, %ymm0
	vpermq	$216, %ymm0, %ymm0
	vpand	.LCPI92_0(%rip), %ymm0, %ymm0
	vpcmpeqb	.LCPI92_1(%rip), %ymm0, %ymm0
	vpmovmskb	%ymm0, %r10d
	popcntl	%r10d, %r10d
	addq	%r10, %r8
	addq	$64, %rdi
	decq	%r9
	jne	.LBB92_28
.LBB92_29:
	movq	%rax, %r9
	subq	%rdi, %r9
	cmpq	$2, %r9
	jb	.LBB92_43
	addq	$-2, %r9
	cmpq	$8, %r9
	jae	.LBB92_32
	movq	%rdi, %r10
	jmp	.LBB92_41
.LBB92_10:
	movq	%r10, %r9
	shrq	%r9
	incq	%r9
	cmpq	$32, %r10
	jae	.LBB92_15
	xorl	%r10d, %r10d
	jmp	.LBB92_12
.LBB92_32:
	movq	%r9, %rdx
	shrq	%rdx
	incq	%rdx
	cmpq	$32, %r9
	jae	.LBB92_37
	xorl	%r9d, %r9d
	jmp	.LBB92_34
.LBB92_15:
	movl	%r9d, %r10d
	andl	$15, %r10d
	movl	$16, %r11d
	cmovneq	%r10, %r11
	movq	%r9, %r10
	subq	%r11, %r10
	vmovq	%r8, %xmm0
	leaq	(%rcx,%rdi), %r8
	addq	%rsi, %r8
	addq	$24, %r8
	vpxor	%xmm1, %xmm1, %xmm1
	xorl	%ebx, %ebx
	vpxor	%xmm2, %xmm2, %xmm2
	vpxor	%xmm3, %xmm3, %xmm3
	.p2align	4
.LBB92_16:
	vmovq	-24(%r8,%rbx,2), %xmm4
	vmovd	.LCPI92_9(%rip), %xmm5
	vpshufb	%xmm5, %xmm4, %xmm4
	vmovq	-16(%r8,%rbx,2), %xmm6
	vpshufb	%xmm5, %xmm6, %xmm6
	vmovq	-8(%r8,%rbx,2), %xmm7
	vpshufb	%xmm5, %xmm7, %xmm7
	vmovq	(%r8,%rbx,2), %xmm8
	vpshufb	%xmm5, %xmm8, %xmm5
	vpbroadcastd	.LCPI92_7(%rip), %xmm8
	vpand	%xmm4, %xmm8, %xmm4
	vpand	%xmm6, %xmm8, %xmm6
	vpand	%xmm7, %xmm8, %xmm7
	vpand	%xmm5, %xmm8, %xmm5
	vpbroadcastd	.LCPI92_8(%rip), %xmm8
	vpcmpeqb	%xmm4, %xmm8, %xmm4
	vpmovzxbq	%xmm4, %ymm4
	vpbroadcastq	.LCPI92_5(%rip), %ymm9
	vpand	%ymm4, %ymm9, %ymm4
	vpaddq	%ymm4, %ymm0, %ymm0
	vpcmpeqb	%xmm6, %xmm8, %xmm4
	vpmovzxbq	%xmm4, %ymm4
	vpand	%ymm4, %ymm9, %ymm4
	vpaddq	%ymm4, %ymm1, %ymm1
	vpcmpeqb	%xmm7, %xmm8, %xmm4
	vpmovzxbq	%xmm4, %ymm4
	vpand	%ymm4, %ymm9, %ymm4
	vpaddq	%ymm4, %ymm2, %ymm2
	vpcmpeqb	%xmm5, %xmm8, %xmm4
	vpmovzxbq	%xmm4, %ymm4
	vpand	%ymm4, %ymm9, %ymm4
	vpaddq	%ymm4, %ymm3, %ymm3
	addq	$16, %rbx
	cmpq	%rbx, %r10
	jne	.LBB92_16
	vpaddq	%ymm0, %ymm1, %ymm0
	vpaddq	%ymm0, %ymm2, %ymm0
	vpaddq	%ymm0, %ymm3, %ymm0
	vextracti128	$1, %ymm0, %xmm1
	vpaddq	%xmm1, %xmm0, %xmm0
	vpshufd	$238, %xmm0, %xmm1
	vpaddq	%xmm1, %xmm0, %xmm0
	vmovq	%xmm0, %r8
	cmpl	$5, %r11d
	jb	.LBB92_18
.LBB92_12:
	movl	%r9d, %r11d
	andl	$3, %r11d
	movl	$4, %ebx
	cmovneq	%r11, %rbx
	subq	%rbx, %r9
	leaq	(%rdi,%r9,2), %r11
	vmovq	%r8, %xmm0
	addq	%rdi, %rdx
	.p2align	4
.LBB92_13:
	vmovq	(%rdx,%r10,2), %xmm1
	vpshufb	.LCPI92_2(%rip), %xmm1, %xmm1
	vpand	.LCPI92_3(%rip), %xmm1, %xmm1
	vpcmpeqb	.LCPI92_4(%rip), %xmm1, %xmm1
	vpmovzxbq	%xmm1, %ymm1
	vpbroadcastq	.LCPI92_5(%rip), %ymm2
	vpand	%ymm2, %ymm1, %ymm1
	vpaddq	%ymm1, %ymm0, %ymm0
	addq	$4, %r10
	cmpq	%r10, %r9
	jne	.LBB92_13
	vextracti128	$1, %ymm0, %xmm1
	vpaddq	%xmm1, %xmm0, %xmm0
	vpshufd	$238, %xmm0, %xmm1
	vpaddq	%xmm1, %xmm0, %xmm0
	vmovq	%xmm0, %r8
.LBB92_19:
	movq	%rax, %rdx
	subq	%r11, %rdx
	addq	%r11, %rcx
	addq	%rcx, %rsi
	.p2align	4
.LBB92_20:
	movzbl	(%rsi), %ecx
	andb	$-4, %cl
	xorl	%edi, %edi
	cmpb	$-36, %cl
	sete	%dil
	addq	%rdi, %r8
	addq	$-2, %rdx
	addq	$2, %rsi
	cmpq	$1, %rdx
	ja	.LBB92_20
	jmp	.LBB92_43
.LBB92_37:
	movl	%edx, %r9d
	andl	$15, %r9d
	movl	$16, %r10d
	cmovneq	%r9, %r10
	movq	%rdx, %r9
	subq	%r10, %r9
	vmovq	%r8, %xmm0
	leaq	(%rcx,%rdi), %r8
	addq	%rsi, %r8
	addq	$25, %r8
	vpxor	%xmm1, %xmm1, %xmm1
	xorl	%r11d, %r11d
	vpxor	%xmm2, %xmm2, %xmm2
	vpxor	%xmm3, %xmm3, %xmm3
	.p2align	4
.LBB92_38:
	vmovq	-24(%r8,%r11,2), %xmm4
	vmovd	.LCPI92_9(%rip), %xmm5
	vpshufb	%xmm5, %xmm4, %xmm4
	vmovq	-16(%r8,%r11,2), %xmm6
	vpshufb	%xmm5, %xmm6, %xmm6
	vmovq	-8(%r8,%r11,2), %xmm7
	vpshufb	%xmm5, %xmm7, %xmm7
	vmovq	(%r8,%r11,2), %xmm8
	vpshufb	%xmm5, %xmm8, %xmm5
	vpbroadcastd	.LCPI92_7(%rip), %xmm8
	vpand	%xmm4, %xmm8, %xmm4
	vpand	%xmm6, %xmm8, %xmm6
	vpand	%xmm7, %xmm8, %xmm7
	vpand	%xmm5, %xmm8, %xmm5
	vpbroadcastd	.LCPI92_8(%rip), %xmm8
	vpcmpeqb	%xmm4, %xmm8, %xmm4
	vpmovzxbq	%xmm4, %ymm4
	vpbroadcastq	.LCPI92_5(%rip), %ymm9
	vpand	%ymm4, %ymm9, %ymm4
	vpaddq	%ymm4, %ymm0, %ymm0
	vpcmpeqb	%xmm6, %xmm8, %xmm4
	vpmovzxbq	%xmm4, %ymm4
	vpand	%ymm4, %ymm9, %ymm4
	vpaddq	%ymm4, %ymm1, %ymm1
	vpcmpeqb	%xmm7, %xmm8, %xmm4
	vpmovzxbq	%xmm4, %ymm4
	vpand	%ymm4, %ymm9, %ymm4
	vpaddq	%ymm4, %ymm2, %ymm2
	vpcmpeqb	%xmm5, %xmm8, %xmm4
	vpmovzxbq	%xmm4, %ymm4
	vpand	%ymm4, %ymm9, %ymm4
	vpaddq	%ymm4, %ymm3, %ymm3
	addq	$16, %r11
	cmpq	%r11, %r9
	jne	.LBB92_38
	vpaddq	%ymm0, %ymm1, %ymm0
	vpaddq	%ymm0, %ymm2, %ymm0
	vpaddq	%ymm0, %ymm3, %ymm0
	vextracti128	$1, %ymm0, %xmm1
	vpaddq	%xmm1, %xmm0, %xmm0
	vpshufd	$238, %xmm0, %xmm1
	vpaddq	%xmm1, %xmm0, %xmm0
	vmovq	%xmm0, %r8
	cmpl	$5, %r10d
	jb	.LBB92_40
.LBB92_34:
	movl	%edx, %r10d
	andl	$3, %r10d
	movl	$4, %r11d
	cmovneq	%r10, %r11
	subq	%r11, %rdx
	leaq	(%rdi,%rdx,2), %r10
	vmovq	%r8, %xmm0
	addq	%rcx, %rdi
	addq	%rsi, %rdi
	incq	%rdi
	.p2align	4
.LBB92_35:
	vmovq	(%rdi,%r9,2), %xmm1
	vpshufb	.LCPI92_2(%rip), %xmm1, %xmm1
	vpand	.LCPI92_3(%rip), %xmm1, %xmm1
	vpcmpeqb	.LCPI92_4(%rip), %xmm1, %xmm1
	vpmovzxbq	%xmm1, %ymm1
	vpbroadcastq	.LCPI92_5(%rip), %ymm2
	vpand	%ymm2, %ymm1, %ymm1
	vpaddq	%ymm1, %ymm0, %ymm0
	addq	$4, %r9
	cmpq	%r9, %rdx
	jne	.LBB92_35
	vextracti128	$1, %ymm0, %xmm1
	vpaddq	%xmm1, %xmm0, %xmm0
	vpshufd	$238, %xmm0, %xmm1
	vpaddq	%xmm1, %xmm0, %xmm0
	vmovq	%xmm0, %r8
.LBB92_41:
	movq	%rax, %rdx
	subq	%r10, %rdx
	addq	%r10, %rcx
	addq	%rsi, %rcx
	incq	%rcx
	.p2align	4
.LBB92_42:
	movzbl	(%rcx), %esi
	andb	$-4, %sil
	xorl	%edi, %edi
	cmpb	$-36, %sil
	sete	%dil
	addq	%rdi, %r8
	addq	$-2, %rdx
	addq	$2, %rcx
	cmpq	$1, %rdx
	ja	.LBB92_42
.LBB92_43:
	shrq	%rax
	subq	%r8, %rax
	popq	%rbx
	popq	%r14
	popq	%rbp
	vzeroupper
	retq
.LBB92_18:
	leaq	(%rdi,%r10,2), %r11
	jmp	.LBB92_19
.LBB92_40:
	leaq	(%rdi,%r9,2), %r10
	jmp	.LBB92_41
.Lfunc_end92:

	.section	.text$109,"xr"
	.globl	dethrux_floor_char_boundary_v3
	.p2align	4
dethrux_floor_char_boundary_v3:
	xorl	%r8d, %r8d
	testq	%rsi, %rsi
	sete	%r8b
	shll	$12, %r8d
	addq	%rsi, %r8
	cmpl	$1, %edi
	jne	.LBB93_6
	cmpq	%rcx, %rdx
	jbe	.LBB93_15
	movq	%rcx, %rax
	andq	$-2, %rax
	cmpq	$2, %rcx
	jb	.LBB93_13
	movzbl	-2(%r8,%rax), %ecx
	andb	$-4, %cl
	cmpb	$-40, %cl
	jne	.LBB93_13
	leaq	2(%rax), %rcx
	cmpq	%rdx, %rcx
	ja	.LBB93_12
	movzbl	(%r8,%rax), %ecx
	jmp	.LBB93_11
.LBB93_6:
	cmpq	%rcx, %rdx
	jbe	.LBB93_15
	movq	%rcx, %rax
	andq	$-2, %rax
	cmpq	$2, %rcx
	jb	.LBB93_13
	movzbl	-1(%r8,%rax), %ecx
	andb	$-4, %cl
	cmpb	$-40, %cl
	jne	.LBB93_13
	leaq	2(%rax), %rcx
	cmpq	%rdx, %rcx
	ja	.LBB93_12
	movzbl	1(%r8,%rax), %ecx
.LBB93_11:
	andb	$-4, %cl
	cmpb	$-36, %cl
	jne	.LBB93_13
.LBB93_12:
	addq	$-2, %rax
.LBB93_13:
	retq
.LBB93_15:
	movq	%rdx, %rax
	retq
.Lfunc_end93:

	.section	.text$110,"xr"
	.globl	dethrux_floor_char_boundary_around_v3
	.p2align	4
dethrux_floor_char_boundary_around_v3:
	xorl	%r8d, %r8d
	testq	%rsi, %rsi
	sete	%r8b
	shll	$12, %r8d
	addq	%rsi, %r8
	movq	%rcx, %rax
	andq	$-2, %rax
	xorl	%esi, %esi
	subq	$2, %rax
	cmovaeq	%rax, %rsi
	subq	%rsi, %rcx
	cmpl	$1, %edi
	jne	.LBB94_6
	cmpq	%rcx, %rdx
	jbe	.LBB94_15
	movq	%rcx, %rax
	andq	$-2, %rax
	cmpq	$2, %rcx
	jb	.LBB94_13
	movzbl	-2(%r8,%rax), %ecx
	andb	$-4, %cl
	cmpb	$-40, %cl
	jne	.LBB94_13
	leaq	2(%rax), %rcx
	cmpq	%rdx, %rcx
	ja	.LBB94_12
	movzbl	(%r8,%rax), %ecx
	jmp	.LBB94_11
.LBB94_6:
	cmpq	%rcx, %rdx
	jbe	.LBB94_15
	movq	%rcx, %rax
	andq	$-2, %rax
	cmpq	$2, %rcx
	jb	.LBB94_13
	movzbl	-1(%r8,%rax), %ecx
	andb	$-4, %cl
	cmpb	$-40, %cl
	jne	.LBB94_13
	leaq	2(%rax), %rcx
	cmpq	%rdx, %rcx
	ja	.LBB94_12
	movzbl	1(%r8,%rax), %ecx
.LBB94_11:
	andb	$-4, %cl
	cmpb	$-36, %cl
	jne	.LBB94_13
.LBB94_12:
	addq	$-2, %rax
.LBB94_13:
	addq	%rsi, %rax
	retq
.LBB94_15:
	movq	%rdx, %rax
	addq	%rsi, %rax
	retq
.Lfunc_end94:

	.section	.rdata$003,"dr"
	.p2align	5, 0x0
.LCPI95_0:
	.byte	128
	.byte	1
	.byte	128
	.byte	1
	.byte	128
	.byte	1
	.byte	128
	.byte	1
	.byte	128
	.byte	1
	.byte	128
	.byte	1
	.byte	128
	.byte	1
	.byte	128
	.byte	1
	.byte	128
	.byte	1
	.byte	128
	.byte	1
	.byte	128
	.byte	1
	.byte	128
	.byte	1
	.byte	128
	.byte	1
	.byte	128
	.byte	1
	.byte	128
	.byte	1
	.byte	128
	.byte	1
.LCPI95_1:
	.byte	1
	.byte	128
	.byte	1
	.byte	128
	.byte	1
	.byte	128
	.byte	1
	.byte	128
	.byte	1
	.byte	128
	.byte	1
	.byte	128
	.byte	1
	.byte	128
	.byte	1
	.byte	128
	.byte	1
	.byte	128
	.byte	1
	.byte	128
	.byte	1
	.byte	128
	.byte	1
	.byte	128
	.byte	1
	.byte	128
	.byte	1
	.byte	128
	.byte	1
	.byte	128
	.byte	1
	.byte	128
	.section	.text$111,"xr"
	.globl	dethrux_is_ascii_v3
	.p2align	4
dethrux_is_ascii_v3:
	pushq	%rax
	movl	%edi, %ecx
	xorl	%edi, %edi
	testq	%rsi, %rsi
	sete	%dil
	shll	$12, %edi
	addq	%rsi, %rdi
	movl	%edx, %eax
	xorb	$1, %al
	cmpl	$1, %ecx
	jne	.LBB95_6
	testb	$1, %dl
	jne	.LBB95_12
	xorl	%eax, %eax
	cmpq	$64, %rdx
	jb	.LBB95_5
	.p2align	4
.LBB95_3:
	vmovdqu	32(%rdi,%rax), %ymm0
	vpmaxub	(%rdi,%rax), %ymm0, %ymm0
	vpmaxub	.LCPI95_1(%rip), %ymm0, %ymm1
	vpcmpeqb	%ymm1, %ymm0, %ymm0
	vpmovmskb	%ymm0, %ecx
	testl	%ecx, %ecx
	jne	.LBB95_14
	addq	$64, %rax
	addq	$-64, %rdx
	cmpq	$63, %rdx
	ja	.LBB95_3
.LBB95_5:
	addq	%rax, %rdi
	movq	%rdx, %rsi
	vzeroupper
	callq	L_6
	jmp	.LBB95_11
.LBB95_6:
	testb	$1, %dl
	jne	.LBB95_12
	xorl	%eax, %eax
	cmpq	$64, %rdx
	jb	.LBB95_10
	.p2align	4
.LBB95_8:
	vmovdqu	32(%rdi,%rax), %ymm0
	vpmaxub	(%rdi,%rax), %ymm0, %ymm0
	vpmaxub	.LCPI95_0(%rip), %ymm0, %ymm1
	vpcmpeqb	%ymm1, %ymm0, %ymm0
	vpmovmskb	%ymm0, %ecx
	testl	%ecx, %ecx
	jne	.LBB95_14
	addq	$64, %rax
	addq	$-64, %rdx
	cmpq	$63, %rdx
	ja	.LBB95_8
.LBB95_10:
	addq	%rax, %rdi
	movq	%rdx, %rsi
	vzeroupper
	callq	L_7
.LBB95_11:
.LBB95_12:
	andb	$1, %al
	popq	%rcx
	retq
.LBB95_14:
	xorl	%eax, %eax
	andb	$1, %al
	popq	%rcx
	vzeroupper
	retq
.Lfunc_end95:

	.section	.text$112,"xr"
	.globl	dethrux_is_char_boundary_v3
	.p2align	4
dethrux_is_char_boundary_v3:
	xorl	%r8d, %r8d
	testq	%rsi, %rsi
	sete	%r8b
	shll	$12, %r8d
	addq	%rsi, %r8
	cmpl	$1, %edi
	jne	.LBB96_7
	cmpq	%rcx, %rdx
	jbe	.LBB96_14
	testb	$1, %cl
	jne	.LBB96_15
	movb	$1, %al
	cmpq	$2, %rcx
	jb	.LBB96_20
	movzbl	-2(%r8,%rcx), %esi
	andb	$-4, %sil
	cmpb	$-40, %sil
	jne	.LBB96_20
	leaq	2(%rcx), %rax
	cmpq	%rdx, %rax
	ja	.LBB96_15
	movzbl	(%r8,%rcx), %eax
	jmp	.LBB96_19
.LBB96_7:
	cmpq	%rcx, %rdx
	jbe	.LBB96_14
	testb	$1, %cl
	jne	.LBB96_15
	movb	$1, %al
	cmpq	$2, %rcx
	jb	.LBB96_20
	movzbl	-1(%r8,%rcx), %esi
	andb	$-4, %sil
	cmpb	$-40, %sil
	jne	.LBB96_20
	leaq	2(%rcx), %rax
	cmpq	%rdx, %rax
	jbe	.LBB96_18
.LBB96_15:
	xorl	%eax, %eax
	retq
.LBB96_14:
	sete	%al
	retq
.LBB96_18:
	movzbl	1(%r8,%rcx), %eax
.LBB96_19:
	andb	$-4, %al
	cmpb	$-36, %al
	setne	%al
.LBB96_20:
	retq
.Lfunc_end96:

	.section	.text$113,"xr"
	.globl	dethrux_make_well_formed_v3
	.p2align	4
dethrux_make_well_formed_v3:
	pushq	%r15
	pushq	%r14
	pushq	%r13
	pushq	%r12
	pushq	%rbx
	movq	%rdx, %rbx
	xorl	%r15d, %r15d
	testq	%rsi, %rsi
	sete	%r15b
	shll	$12, %r15d
	addq	%rsi, %r15
	andq	$-2, %rbx
	xorl	%r14d, %r14d
	cmpl	$1, %edi
	jne	.LBB97_11
	testq	%rbx, %rbx
	je	.LBB97_21
	xorl	%r12d, %r12d
	jmp	.LBB97_3
	.p2align	4
.LBB97_9:
	movw	$-513, (%r15,%r12)
	incq	%r14
	movl	$2, %eax
	addq	%rax, %r12
	cmpq	%rbx, %r12
	jae	.LBB97_21
.LBB97_3:
	movq	%rbx, %rcx
	subq	%r12, %rcx
	cmpq	$2, %rcx
	jb	.LBB97_9
	movbew	(%r15,%r12), %ax
	movl	%eax, %edx
	andl	$63488, %edx
	movl	$2, %r13d
	cmpl	$55296, %edx
	jne	.LBB97_8
	cmpq	$4, %rcx
	jb	.LBB97_9
	andl	$56320, %eax
	movzwl	%ax, %eax
	cmpl	$56320, %eax
	je	.LBB97_9
	movzbl	2(%r15,%r12), %eax
	andb	$-4, %al
	movl	$4, %r13d
	cmpb	$-36, %al
	jne	.LBB97_9
	.p2align	4
.LBB97_8:
	leaq	(%r12,%r13), %rax
	leaq	(%r15,%rax), %rdi
	movq	%rbx, %rsi
	subq	%rax, %rsi
	callq	L_8
	addq	%r13, %rax
	addq	%rax, %r12
	cmpq	%rbx, %r12
	jb	.LBB97_3
	jmp	.LBB97_21
.LBB97_11:
	testq	%rbx, %rbx
	je	.LBB97_21
	xorl	%r12d, %r12d
	jmp	.LBB97_13
	.p2align	4
.LBB97_19:
	movw	$-3, (%r15,%r12)
	incq	%r14
	movl	$2, %eax
	addq	%rax, %r12
	cmpq	%rbx, %r12
	jae	.LBB97_21
.LBB97_13:
	movq	%rbx, %rax
	subq	%r12, %rax
	cmpq	$2, %rax
	jb	.LBB97_19
	movzbl	1(%r15,%r12), %ecx
	movl	%ecx, %edx
	andl	$-8, %edx
	movl	$2, %r13d
	cmpl	$216, %edx
	jne	.LBB97_18
	cmpq	$4, %rax
	jb	.LBB97_19
	movzwl	%cx, %eax
	andl	$-36, %eax
	movzwl	%ax, %eax
	cmpl	$220, %eax
	je	.LBB97_19
	movzbl	3(%r15,%r12), %eax
	andb	$-4, %al
	movl	$4, %r13d
	cmpb	$-36, %al
	jne	.LBB97_19
	.p2align	4
.LBB97_18:
	leaq	(%r12,%r13), %rax
	leaq	(%r15,%rax), %rdi
	movq	%rbx, %rsi
	subq	%rax, %rsi
	callq	L_11
	addq	%r13, %rax
	addq	%rax, %r12
	cmpq	%rbx, %r12
	jb	.LBB97_13
.LBB97_21:
	movq	%r14, %rax
	popq	%rbx
	popq	%r12
	popq	%r13
	popq	%r14
	popq	%r15
	retq
.Lfunc_end97:

	.section	.rdata$000,"dr"
	.p2align	4, 0x0
.LCPI98_0:
	.zero	16,248
.LCPI98_1:
	.zero	16,216
.LCPI98_2:
	.byte	1
	.byte	3
	.byte	5
	.byte	7
	.byte	9
	.byte	11
	.byte	13
	.byte	15
	.zero	1
	.zero	1
	.zero	1
	.zero	1
	.zero	1
	.zero	1
	.zero	1
	.zero	1
.LCPI98_3:
	.byte	1
	.byte	3
	.byte	5
	.byte	7
	.zero	1
	.zero	1
	.zero	1
	.zero	1
	.zero	1
	.zero	1
	.zero	1
	.zero	1
	.zero	1
	.zero	1
	.zero	1
	.zero	1
.LCPI98_4:
	.byte	248
	.byte	248
	.byte	248
	.byte	248
	.zero	1
	.zero	1
	.zero	1
	.zero	1
	.zero	1
	.zero	1
	.zero	1
	.zero	1
	.zero	1
	.zero	1
	.zero	1
	.zero	1
.LCPI98_5:
	.byte	216
	.byte	216
	.byte	216
	.byte	216
	.zero	1
	.zero	1
	.zero	1
	.zero	1
	.zero	1
	.zero	1
	.zero	1
	.zero	1
	.zero	1
	.zero	1
	.zero	1
	.zero	1
.LCPI98_8:
	.byte	0
	.byte	2
	.byte	4
	.byte	6
	.zero	1
	.zero	1
	.zero	1
	.zero	1
	.zero	1
	.zero	1
	.zero	1
	.zero	1
	.zero	1
	.zero	1
	.zero	1
	.zero	1
.LCPI98_9:
	.byte	252
	.byte	252
	.byte	252
	.byte	252
	.zero	1
	.zero	1
	.zero	1
	.zero	1
	.zero	1
	.zero	1
	.zero	1
	.zero	1
	.zero	1
	.zero	1
	.zero	1
	.zero	1
.LCPI98_10:
	.byte	220
	.byte	220
	.byte	220
	.byte	220
	.zero	1
	.zero	1
	.zero	1
	.zero	1
	.zero	1
	.zero	1
	.zero	1
	.zero	1
	.zero	1
	.zero	1
	.zero	1
	.zero	1
.LCPI98_13:
	.byte	0
	.byte	2
	.byte	4
	.byte	6
	.byte	8
	.byte	10
	.byte	12
	.byte	14
	.zero	1
	.zero	1
	.zero	1
	.zero	1
	.zero	1
	.zero	1
	.zero	1
	.zero	1
.LCPI98_17:
	.byte	0
	.byte	2
	.byte	4
	.byte	6
	.byte	0
	.byte	0
	.byte	0
	.byte	0
	.byte	0
	.byte	0
	.byte	0
	.byte	0
	.byte	0
	.byte	0
	.byte	0
	.byte	0
	.section	.rdata$003,"dr"
	.p2align	5, 0x0
.LCPI98_6:
	.zero	32,252
.LCPI98_7:
	.zero	32,220
.LCPI98_12:
	.short	255
	.short	255
	.short	255
	.short	255
	.short	255
	.short	255
	.short	255
	.short	255
	.short	255
	.short	255
	.short	255
	.short	255
	.short	255
	.short	255
	.short	255
	.short	255
	.section	.rdata$007,"dr"
	.p2align	3, 0x0
.LCPI98_11:
	.quad	1
	.section	.rdata$013,"dr"
	.p2align	1, 0x0
.LCPI98_14:
	.byte	255
	.byte	0
	.section	.rdata$001,"dr"
	.p2align	2, 0x0
.LCPI98_15:
	.zero	4,252
.LCPI98_16:
	.zero	4,220
	.section	.text$114,"xr"
	.globl	dethrux_to_utf32_lossy_len_v3
	.p2align	4
dethrux_to_utf32_lossy_len_v3:
	pushq	%rbp
	pushq	%r15
	pushq	%r14
	pushq	%r13
	pushq	%r12
	pushq	%rbx
	pushq	%rax
	movq	%rdx, %r14
	xorl	%r15d, %r15d
	testq	%rsi, %rsi
	sete	%r15b
	shll	$12, %r15d
	addq	%rsi, %r15
	xorl	%ebx, %ebx
	cmpl	$1, %edi
	jne	.LBB98_1
	.p2align	4
	cmpq	$2, %r14
	jne	.LBB98_7
.LBB98_5:
	movzbl	(%r15), %eax
.LBB98_6:
	andb	$-8, %al
	cmpb	$-40, %al
	jne	.LBB98_23
.LBB98_28:
	movq	%r15, %rdi
	movq	%r14, %rsi
	vzeroupper
	callq	L_9
	movq	%r14, %rsi
	subq	%rax, %rsi
	je	.LBB98_29
	movq	%rax, %r12
	leaq	(%r15,%rax), %r13
	movq	%r13, %rdi
	callq	L_10
	movl	%eax, %ebp
	cmpq	$64, %r12
	jae	.LBB98_52
	movq	%r15, %rdi
	movq	%r12, %rsi
	movl	%edx, %r15d
	callq	L_14
	movl	%r15d, %edx
	addq	%rax, %rbx
	incq	%rbx
	cmpb	$1, %bpl
	je	.LBB98_73
	jmp	.LBB98_25
	.p2align	4
.LBB98_7:
	cmpq	$7, %r14
	ja	.LBB98_16
	cmpq	$4, %r14
	je	.LBB98_11
	cmpq	$6, %r14
	je	.LBB98_13
	testq	%r14, %r14
	jne	.LBB98_28
	jmp	.LBB98_23
	.p2align	4
.LBB98_52:
	leaq	-64(%r12), %rax
	movq	%rax, %rsi
	shrq	$6, %rsi
	incq	%rsi
	movl	%esi, %r9d
	andl	$3, %r9d
	cmpq	$192, %rax
	jae	.LBB98_74
	xorl	%eax, %eax
	xorl	%ecx, %ecx
	jmp	.LBB98_56
	.p2align	4
.LBB98_16:
	cmpq	$65, %r14
	setae	%al
	movl	%r14d, %ecx
	orb	%al, %cl
	testb	$1, %cl
	jne	.LBB98_28
	cmpq	$15, %r14
	ja	.LBB98_20
	vmovq	(%r15), %xmm0
	vpshufb	.LCPI98_8(%rip), %xmm0, %xmm0
	vpand	.LCPI98_4(%rip), %xmm0, %xmm0
	vpcmpeqb	.LCPI98_5(%rip), %xmm0, %xmm0
	vpmovsxbd	%xmm0, %xmm0
	vtestps	%xmm0, %xmm0
	jne	.LBB98_28
	vmovq	-8(%r15,%r14), %xmm0
	vpshufb	.LCPI98_8(%rip), %xmm0, %xmm0
	vpand	.LCPI98_4(%rip), %xmm0, %xmm0
	vpcmpeqb	.LCPI98_5(%rip), %xmm0, %xmm0
	vpmovsxbd	%xmm0, %xmm0
	vtestps	%xmm0, %xmm0
	jne	.LBB98_28
	jmp	.LBB98_23
	.p2align	4
.LBB98_74:
	movabsq	$576460752303423484, %rax
	andq	%rax, %rsi
	xorl	%eax, %eax
	xorl	%ecx, %ecx
	.p2align	4
.LBB98_75:
	vpbroadcastw	.LCPI98_14(%rip), %ymm0
	vpand	32(%r15,%rax), %ymm0, %ymm1
	vpand	(%r15,%rax), %ymm0, %ymm2
	vpackuswb	%ymm1, %ymm2, %ymm1
	vpermq	$216, %ymm1, %ymm2
	vpbroadcastd	.LCPI98_15(%rip), %ymm1
	vpand	%ymm1, %ymm2, %ymm3
	vpbroadcastd	.LCPI98_16(%rip), %ymm2
	vpcmpeqb	%ymm2, %ymm3, %ymm3
	vpmovmskb	%ymm3, %edi
	popcntl	%edi, %edi
	vpand	96(%r15,%rax), %ymm0, %ymm3
	vpand	64(%r15,%rax), %ymm0, %ymm4
	addq	%rcx, %rdi
	vpackuswb	%ymm3, %ymm4, %ymm3
	vpermq	$216, %ymm3, %ymm3
	vpand	%ymm1, %ymm3, %ymm3
	vpcmpeqb	%ymm2, %ymm3, %ymm3
	vpmovmskb	%ymm3, %ecx
	vpand	160(%r15,%rax), %ymm0, %ymm3
	popcntl	%ecx, %ecx
	vpand	128(%r15,%rax), %ymm0, %ymm4
	vpackuswb	%ymm3, %ymm4, %ymm3
	vpermq	$216, %ymm3, %ymm3
	vpand	%ymm1, %ymm3, %ymm3
	vpcmpeqb	%ymm2, %ymm3, %ymm3
	vpmovmskb	%ymm3, %r8d
	popcntl	%r8d, %r8d
	addq	%rcx, %r8
	vpand	224(%r15,%rax), %ymm0, %ymm3
	addq	%rdi, %r8
	vpand	192(%r15,%rax), %ymm0, %ymm0
	vpackuswb	%ymm3, %ymm0, %ymm0
	vpermq	$216, %ymm0, %ymm0
	vpand	%ymm1, %ymm0, %ymm0
	vpcmpeqb	%ymm2, %ymm0, %ymm0
	vpmovmskb	%ymm0, %ecx
	popcntl	%ecx, %ecx
	addq	%r8, %rcx
	addq	$256, %rax
	addq	$-4, %rsi
	jne	.LBB98_75
	testq	%r9, %r9
	je	.LBB98_57
	.p2align	4
.LBB98_56:
	vpbroadcastw	.LCPI98_14(%rip), %ymm0
	vpand	32(%r15,%rax), %ymm0, %ymm1
	vpand	(%r15,%rax), %ymm0, %ymm0
	vpackuswb	%ymm1, %ymm0, %ymm0
	vpermq	$216, %ymm0, %ymm0
	vpand	.LCPI98_6(%rip), %ymm0, %ymm0
	vpcmpeqb	.LCPI98_7(%rip), %ymm0, %ymm0
	vpmovmskb	%ymm0, %esi
	popcntl	%esi, %esi
	addq	%rsi, %rcx
	addq	$64, %rax
	decq	%r9
	jne	.LBB98_56
.LBB98_57:
	movq	%r12, %rsi
	subq	%rax, %rsi
	cmpq	$2, %rsi
	jb	.LBB98_71
	movq	%r12, %rsi
	andq	$-64, %rsi
	leaq	-2(%r12), %r8
	xorl	%edi, %edi
	cmpq	%rsi, %r8
	setne	%dil
	movq	%r12, %r8
	subq	%rdi, %r8
	notq	%rsi
	addq	%r8, %rsi
	cmpq	$8, %rsi
	jae	.LBB98_60
	movq	%rax, %rdi
	jmp	.LBB98_69
.LBB98_60:
	movq	%rsi, %r9
	shrq	%r9
	incq	%r9
	cmpq	$32, %rsi
	jae	.LBB98_65
	xorl	%esi, %esi
	jmp	.LBB98_62
.LBB98_13:
	movzbl	(%r15), %eax
	andb	$-8, %al
	cmpb	$-40, %al
	je	.LBB98_28
	movzbl	2(%r15), %eax
	andb	$-8, %al
	cmpb	$-40, %al
	je	.LBB98_28
	movzbl	4(%r15), %eax
	jmp	.LBB98_6
.LBB98_11:
	movzbl	(%r15), %eax
	andb	$-8, %al
	cmpb	$-40, %al
	je	.LBB98_28
	movzbl	2(%r15), %eax
	jmp	.LBB98_6
.LBB98_20:
	cmpq	$31, %r14
	ja	.LBB98_26
	vmovdqu	(%r15), %xmm0
	vpshufb	.LCPI98_13(%rip), %xmm0, %xmm0
	vpand	.LCPI98_0(%rip), %xmm0, %xmm0
	vpcmpeqb	.LCPI98_1(%rip), %xmm0, %xmm0
	vpmovmskb	%xmm0, %eax
	testb	%al, %al
	jne	.LBB98_28
	vmovdqu	-16(%r15,%r14), %xmm0
	vpshufb	.LCPI98_13(%rip), %xmm0, %xmm0
	vpand	.LCPI98_0(%rip), %xmm0, %xmm0
	vpcmpeqb	.LCPI98_1(%rip), %xmm0, %xmm0
	vpmovmskb	%xmm0, %eax
	testb	%al, %al
	jne	.LBB98_28
	jmp	.LBB98_23
.LBB98_65:
	movl	%r9d, %esi
	andl	$15, %esi
	movl	$16, %edi
	cmovneq	%rsi, %rdi
	movq	%r9, %rsi
	subq	%rdi, %rsi
	vmovq	%rcx, %xmm0
	leaq	(%r15,%rax), %rcx
	addq	$24, %rcx
	vpxor	%xmm1, %xmm1, %xmm1
	xorl	%r8d, %r8d
	vpxor	%xmm2, %xmm2, %xmm2
	vpxor	%xmm3, %xmm3, %xmm3
	.p2align	4
.LBB98_66:
	vmovq	-24(%rcx,%r8,2), %xmm4
	vmovd	.LCPI98_17(%rip), %xmm5
	vpshufb	%xmm5, %xmm4, %xmm4
	vmovq	-16(%rcx,%r8,2), %xmm6
	vpshufb	%xmm5, %xmm6, %xmm6
	vmovq	-8(%rcx,%r8,2), %xmm7
	vpshufb	%xmm5, %xmm7, %xmm7
	vmovq	(%rcx,%r8,2), %xmm8
	vpshufb	%xmm5, %xmm8, %xmm5
	vpbroadcastd	.LCPI98_15(%rip), %xmm8
	vpand	%xmm4, %xmm8, %xmm4
	vpand	%xmm6, %xmm8, %xmm6
	vpand	%xmm7, %xmm8, %xmm7
	vpand	%xmm5, %xmm8, %xmm5
	vpbroadcastd	.LCPI98_16(%rip), %xmm8
	vpcmpeqb	%xmm4, %xmm8, %xmm4
	vpmovzxbq	%xmm4, %ymm4
	vpbroadcastq	.LCPI98_11(%rip), %ymm9
	vpand	%ymm4, %ymm9, %ymm4
	vpaddq	%ymm4, %ymm0, %ymm0
	vpcmpeqb	%xmm6, %xmm8, %xmm4
	vpmovzxbq	%xmm4, %ymm4
	vpand	%ymm4, %ymm9, %ymm4
	vpaddq	%ymm4, %ymm1, %ymm1
	vpcmpeqb	%xmm7, %xmm8, %xmm4
	vpmovzxbq	%xmm4, %ymm4
	vpand	%ymm4, %ymm9, %ymm4
	vpaddq	%ymm4, %ymm2, %ymm2
	vpcmpeqb	%xmm5, %xmm8, %xmm4
	vpmovzxbq	%xmm4, %ymm4
	vpand	%ymm4, %ymm9, %ymm4
	vpaddq	%ymm4, %ymm3, %ymm3
	addq	$16, %r8
	cmpq	%r8, %rsi
	jne	.LBB98_66
	vpaddq	%ymm0, %ymm1, %ymm0
	vpaddq	%ymm0, %ymm2, %ymm0
	vpaddq	%ymm0, %ymm3, %ymm0
	vextracti128	$1, %ymm0, %xmm1
	vpaddq	%xmm1, %xmm0, %xmm0
	vpshufd	$238, %xmm0, %xmm1
	vpaddq	%xmm1, %xmm0, %xmm0
	vmovq	%xmm0, %rcx
	cmpl	$5, %edi
	jb	.LBB98_68
.LBB98_62:
	movl	%r9d, %edi
	andl	$3, %edi
	movl	$4, %r8d
	cmovneq	%rdi, %r8
	subq	%r8, %r9
	leaq	(%rax,%r9,2), %rdi
	vmovq	%rcx, %xmm0
	addq	%r15, %rax
	.p2align	4
.LBB98_63:
	vmovq	(%rax,%rsi,2), %xmm1
	vpshufb	.LCPI98_8(%rip), %xmm1, %xmm1
	vpand	.LCPI98_9(%rip), %xmm1, %xmm1
	vpcmpeqb	.LCPI98_10(%rip), %xmm1, %xmm1
	vpmovzxbq	%xmm1, %ymm1
	vpbroadcastq	.LCPI98_11(%rip), %ymm2
	vpand	%ymm2, %ymm1, %ymm1
	vpaddq	%ymm1, %ymm0, %ymm0
	addq	$4, %rsi
	cmpq	%rsi, %r9
	jne	.LBB98_63
	vextracti128	$1, %ymm0, %xmm1
	vpaddq	%xmm1, %xmm0, %xmm0
	vpshufd	$238, %xmm0, %xmm1
	vpaddq	%xmm1, %xmm0, %xmm0
	vmovq	%xmm0, %rcx
.LBB98_69:
	movq	%r12, %rax
	subq	%rdi, %rax
	addq	%rdi, %r15
	.p2align	4
.LBB98_70:
	movzbl	(%r15), %edi
	andb	$-4, %dil
	xorl	%esi, %esi
	cmpb	$-36, %dil
	sete	%sil
	addq	%rsi, %rcx
	addq	$-2, %rax
	addq	$2, %r15
	cmpq	$1, %rax
	ja	.LBB98_70
.LBB98_71:
	movq	%r12, %rax
	shrq	%rax
	subq	%rcx, %rax
	addq	%rax, %rbx
	incq	%rbx
	cmpb	$1, %bpl
	jne	.LBB98_25
.LBB98_73:
	movzbl	%dl, %eax
	addq	%rax, %r13
	addq	%rax, %r12
	subq	%r12, %r14
	movq	%r13, %r15
	cmpq	$2, %r14
	je	.LBB98_5
	jmp	.LBB98_7
.LBB98_26:
	vmovdqu	(%r15), %ymm0
	vpand	.LCPI98_12(%rip), %ymm0, %ymm0
	vextracti128	$1, %ymm0, %xmm1
	vpackuswb	%xmm1, %xmm0, %xmm0
	vpand	.LCPI98_0(%rip), %xmm0, %xmm0
	vpcmpeqb	.LCPI98_1(%rip), %xmm0, %xmm0
	vpmovmskb	%xmm0, %eax
	testl	%eax, %eax
	jne	.LBB98_28
	vmovdqu	-32(%r15,%r14), %ymm0
	vpand	.LCPI98_12(%rip), %ymm0, %ymm0
	vextracti128	$1, %ymm0, %xmm1
	vpackuswb	%xmm1, %xmm0, %xmm0
	vpand	.LCPI98_0(%rip), %xmm0, %xmm0
	vpcmpeqb	.LCPI98_1(%rip), %xmm0, %xmm0
	vpmovmskb	%xmm0, %eax
	testl	%eax, %eax
	jne	.LBB98_28
	jmp	.LBB98_29
.LBB98_68:
	leaq	(%rax,%rsi,2), %rdi
	jmp	.LBB98_69
	.p2align	4
.LBB98_1:
	cmpq	$2, %r14
	jne	.LBB98_76
	movzbl	1(%r15), %eax
.LBB98_3:
	andb	$-8, %al
	cmpb	$-40, %al
	jne	.LBB98_92
.LBB98_95:
	movq	%r15, %rdi
	movq	%r14, %rsi
	vzeroupper
	callq	L_12
	movq	%r14, %rsi
	subq	%rax, %rsi
	je	.LBB98_96
	movq	%rax, %r12
	leaq	(%r15,%rax), %r13
	movq	%r13, %rdi
	callq	L_13
	movl	%eax, %ebp
	cmpq	$64, %r12
	jae	.LBB98_118
	movq	%r15, %rdi
	movq	%r12, %rsi
	movl	%edx, %r15d
	callq	L_15
	movl	%r15d, %edx
	addq	%rax, %rbx
	incq	%rbx
	cmpb	$1, %bpl
	je	.LBB98_139
	jmp	.LBB98_25
	.p2align	4
.LBB98_76:
	cmpq	$7, %r14
	ja	.LBB98_85
	cmpq	$4, %r14
	je	.LBB98_80
	cmpq	$6, %r14
	je	.LBB98_82
	testq	%r14, %r14
	jne	.LBB98_95
	jmp	.LBB98_92
	.p2align	4
.LBB98_118:
	leaq	-64(%r12), %rax
	movq	%rax, %rsi
	shrq	$6, %rsi
	incq	%rsi
	movl	%esi, %r9d
	andl	$3, %r9d
	cmpq	$192, %rax
	jae	.LBB98_140
	xorl	%eax, %eax
	xorl	%ecx, %ecx
	jmp	.LBB98_122
	.p2align	4
.LBB98_85:
	cmpq	$65, %r14
	setae	%al
	movl	%r14d, %ecx
	orb	%al, %cl
	testb	$1, %cl
	jne	.LBB98_95
	cmpq	$15, %r14
	ja	.LBB98_89
	vmovq	(%r15), %xmm0
	vpshufb	.LCPI98_3(%rip), %xmm0, %xmm0
	vpand	.LCPI98_4(%rip), %xmm0, %xmm0
	vpcmpeqb	.LCPI98_5(%rip), %xmm0, %xmm0
	vpmovsxbd	%xmm0, %xmm0
	vtestps	%xmm0, %xmm0
	jne	.LBB98_95
	vmovq	-8(%r15,%r14), %xmm0
	vpshufb	.LCPI98_3(%rip), %xmm0, %xmm0
	vpand	.LCPI98_4(%rip), %xmm0, %xmm0
	vpcmpeqb	.LCPI98_5(%rip), %xmm0, %xmm0
	vpmovsxbd	%xmm0, %xmm0
	vtestps	%xmm0, %xmm0
	jne	.LBB98_95
	jmp	.LBB98_92
	.p2align	4
.LBB98_140:
	movabsq	$576460752303423484, %rax
	andq	%rax, %rsi
	xorl	%eax, %eax
	xorl	%ecx, %ecx
	.p2align	4
.LBB98_141:
	vmovdqu	(%r15,%rax), %ymm0
	vmovdqu	32(%r15,%rax), %ymm1
	vmovdqu	64(%r15,%rax), %ymm2
	vmovdqu	96(%r15,%rax), %ymm3
	vpsrlw	$8, %ymm1, %ymm1
	vpsrlw	$8, %ymm0, %ymm0
	vpackuswb	%ymm1, %ymm0, %ymm0
	vpermq	$216, %ymm0, %ymm1
	vpbroadcastd	.LCPI98_15(%rip), %ymm0
	vpand	%ymm0, %ymm1, %ymm4
	vpbroadcastd	.LCPI98_16(%rip), %ymm1
	vpcmpeqb	%ymm1, %ymm4, %ymm4
	vpmovmskb	%ymm4, %edi
	popcntl	%edi, %edi
	addq	%rcx, %rdi
	vpsrlw	$8, %ymm3, %ymm3
	vpsrlw	$8, %ymm2, %ymm2
	vpackuswb	%ymm3, %ymm2, %ymm2
	vpermq	$216, %ymm2, %ymm2
	vpand	%ymm0, %ymm2, %ymm2
	vpcmpeqb	%ymm1, %ymm2, %ymm2
	vpmovmskb	%ymm2, %ecx
	popcntl	%ecx, %ecx
	vmovdqu	128(%r15,%rax), %ymm2
	vmovdqu	160(%r15,%rax), %ymm3
	vpsrlw	$8, %ymm3, %ymm3
	vpsrlw	$8, %ymm2, %ymm2
	vpackuswb	%ymm3, %ymm2, %ymm2
	vpermq	$216, %ymm2, %ymm2
	vpand	%ymm0, %ymm2, %ymm2
	vpcmpeqb	%ymm1, %ymm2, %ymm2
	vpmovmskb	%ymm2, %r8d
	popcntl	%r8d, %r8d
	addq	%rcx, %r8
	addq	%rdi, %r8
	vmovdqu	192(%r15,%rax), %ymm2
	vmovdqu	224(%r15,%rax), %ymm3
	vpsrlw	$8, %ymm3, %ymm3
	vpsrlw	$8, %ymm2, %ymm2
	vpackuswb	%ymm3, %ymm2, %ymm2
	vpermq	$216, %ymm2, %ymm2
	vpand	%ymm0, %ymm2, %ymm0
	vpcmpeqb	%ymm1, %ymm0, %ymm0
	vpmovmskb	%ymm0, %ecx
	popcntl	%ecx, %ecx
	addq	%r8, %rcx
	addq	$256, %rax
	addq	$-4, %rsi
	jne	.LBB98_141
	testq	%r9, %r9
	je	.LBB98_123
	.p2align	4
.LBB98_122:
	vmovdqu	(%r15,%rax), %ymm0
	vmovdqu	32(%r15,%rax), %ymm1
	vpsrlw	$8, %ymm1, %ymm1
	vpsrlw	$8, %ymm0, %ymm0
	vpackuswb	%ymm1, %ymm0, %ymm0
	vpermq	$216, %ymm0, %ymm0
	vpand	.LCPI98_6(%rip), %ymm0, %ymm0
	vpcmpeqb	.LCPI98_7(%rip), %ymm0, %ymm0
	vpmovmskb	%ymm0, %esi
	popcntl	%esi, %esi
	addq	%rsi, %rcx
	addq	$64, %rax
	decq	%r9
	jne	.LBB98_122
.LBB98_123:
	movq	%r12, %rsi
	subq	%rax, %rsi
	cmpq	$2, %rsi
	jb	.LBB98_137
	movq	%r12, %rsi
	andq	$-64, %rsi
	leaq	-2(%r12), %r8
	xorl	%edi, %edi
	cmpq	%rsi, %r8
	setne	%dil
	movq	%r12, %r8
	subq	%rdi, %r8
	notq	%rsi
	addq	%r8, %rsi
	cmpq	$8, %rsi
	jae	.LBB98_126
	movq	%rax, %rdi
	jmp	.LBB98_135
.LBB98_126:
	movq	%rsi, %r9
	shrq	%r9
	incq	%r9
	cmpq	$32, %rsi
	jae	.LBB98_131
	xorl	%esi, %esi
	jmp	.LBB98_128
.LBB98_82:
	movzbl	1(%r15), %eax
	andb	$-8, %al
	cmpb	$-40, %al
	je	.LBB98_95
	movzbl	3(%r15), %eax
	andb	$-8, %al
	cmpb	$-40, %al
	je	.LBB98_95
	movzbl	5(%r15), %eax
	jmp	.LBB98_3
.LBB98_80:
	movzbl	1(%r15), %eax
	andb	$-8, %al
	cmpb	$-40, %al
	je	.LBB98_95
	movzbl	3(%r15), %eax
	jmp	.LBB98_3
.LBB98_89:
	cmpq	$31, %r14
	ja	.LBB98_93
	vmovdqu	(%r15), %xmm0
	vpshufb	.LCPI98_2(%rip), %xmm0, %xmm0
	vpand	.LCPI98_0(%rip), %xmm0, %xmm0
	vpcmpeqb	.LCPI98_1(%rip), %xmm0, %xmm0
	vpmovmskb	%xmm0, %eax
	testb	%al, %al
	jne	.LBB98_95
	vmovdqu	-16(%r15,%r14), %xmm0
	vpshufb	.LCPI98_2(%rip), %xmm0, %xmm0
	vpand	.LCPI98_0(%rip), %xmm0, %xmm0
	vpcmpeqb	.LCPI98_1(%rip), %xmm0, %xmm0
	vpmovmskb	%xmm0, %eax
	testb	%al, %al
	jne	.LBB98_95
	jmp	.LBB98_92
.LBB98_131:
	movl	%r9d, %esi
	andl	$15, %esi
	movl	$16, %edi
	cmovneq	%rsi, %rdi
	movq	%r9, %rsi
	subq	%rdi, %rsi
	vmovq	%rcx, %xmm0
	leaq	(%r15,%rax), %rcx
	addq	$25, %rcx
	vpxor	%xmm1, %xmm1, %xmm1
	xorl	%r8d, %r8d
	vpxor	%xmm2, %xmm2, %xmm2
	vpxor	%xmm3, %xmm3, %xmm3
	.p2align	4
.LBB98_132:
	vmovq	-24(%rcx,%r8,2), %xmm4
	vmovd	.LCPI98_17(%rip), %xmm5
	vpshufb	%xmm5, %xmm4, %xmm4
	vmovq	-16(%rcx,%r8,2), %xmm6
	vpshufb	%xmm5, %xmm6, %xmm6
	vmovq	-8(%rcx,%r8,2), %xmm7
	vpshufb	%xmm5, %xmm7, %xmm7
	vmovq	(%rcx,%r8,2), %xmm8
	vpshufb	%xmm5, %xmm8, %xmm5
	vpbroadcastd	.LCPI98_15(%rip), %xmm8
	vpand	%xmm4, %xmm8, %xmm4
	vpand	%xmm6, %xmm8, %xmm6
	vpand	%xmm7, %xmm8, %xmm7
	vpand	%xmm5, %xmm8, %xmm5
	vpbroadcastd	.LCPI98_16(%rip), %xmm8
	vpcmpeqb	%xmm4, %xmm8, %xmm4
	vpmovzxbq	%xmm4, %ymm4
	vpbroadcastq	.LCPI98_11(%rip), %ymm9
	vpand	%ymm4, %ymm9, %ymm4
	vpaddq	%ymm4, %ymm0, %ymm0
	vpcmpeqb	%xmm6, %xmm8, %xmm4
	vpmovzxbq	%xmm4, %ymm4
	vpand	%ymm4, %ymm9, %ymm4
	vpaddq	%ymm4, %ymm1, %ymm1
	vpcmpeqb	%xmm7, %xmm8, %xmm4
	vpmovzxbq	%xmm4, %ymm4
	vpand	%ymm4, %ymm9, %ymm4
	vpaddq	%ymm4, %ymm2, %ymm2
	vpcmpeqb	%xmm5, %xmm8, %xmm4
	vpmovzxbq	%xmm4, %ymm4
	vpand	%ymm4, %ymm9, %ymm4
	vpaddq	%ymm4, %ymm3, %ymm3
	addq	$16, %r8
	cmpq	%r8, %rsi
	jne	.LBB98_132
	vpaddq	%ymm0, %ymm1, %ymm0
	vpaddq	%ymm0, %ymm2, %ymm0
	vpaddq	%ymm0, %ymm3, %ymm0
	vextracti128	$1, %ymm0, %xmm1
	vpaddq	%xmm1, %xmm0, %xmm0
	vpshufd	$238, %xmm0, %xmm1
	vpaddq	%xmm1, %xmm0, %xmm0
	vmovq	%xmm0, %rcx
	cmpl	$5, %edi
	jb	.LBB98_134
.LBB98_128:
	movl	%r9d, %edi
	andl	$3, %edi
	movl	$4, %r8d
	cmovneq	%rdi, %r8
	subq	%r8, %r9
	leaq	(%rax,%r9,2), %rdi
	vmovq	%rcx, %xmm0
	addq	%r15, %rax
	incq	%rax
	.p2align	4
.LBB98_129:
	vmovq	(%rax,%rsi,2), %xmm1
	vpshufb	.LCPI98_8(%rip), %xmm1, %xmm1
	vpand	.LCPI98_9(%rip), %xmm1, %xmm1
	vpcmpeqb	.LCPI98_10(%rip), %xmm1, %xmm1
	vpmovzxbq	%xmm1, %ymm1
	vpbroadcastq	.LCPI98_11(%rip), %ymm2
	vpand	%ymm2, %ymm1, %ymm1
	vpaddq	%ymm1, %ymm0, %ymm0
	addq	$4, %rsi
	cmpq	%rsi, %r9
	jne	.LBB98_129
	vextracti128	$1, %ymm0, %xmm1
	vpaddq	%xmm1, %xmm0, %xmm0
	vpshufd	$238, %xmm0, %xmm1
	vpaddq	%xmm1, %xmm0, %xmm0
	vmovq	%xmm0, %rcx
.LBB98_135:
	movq	%r12, %rax
	subq	%rdi, %rax
	leaq	(%r15,%rdi), %r8
	incq	%r8
	.p2align	4
.LBB98_136:
	movzbl	(%r8), %esi
	andb	$-4, %sil
	xorl	%edi, %edi
	cmpb	$-36, %sil
	sete	%dil
	addq	%rdi, %rcx
	addq	$-2, %rax
	addq	$2, %r8
	cmpq	$1, %rax
	ja	.LBB98_136
.LBB98_137:
	movq	%r12, %rax
	shrq	%rax
	subq	%rcx, %rax
	addq	%rax, %rbx
	incq	%rbx
	cmpb	$1, %bpl
	jne	.LBB98_25
.LBB98_139:
	movzbl	%dl, %eax
	addq	%rax, %r13
	addq	%rax, %r12
	subq	%r12, %r14
	movq	%r13, %r15
	jmp	.LBB98_1
.LBB98_93:
	vmovdqu	(%r15), %ymm0
	vpsrlw	$8, %ymm0, %ymm0
	vextracti128	$1, %ymm0, %xmm1
	vpackuswb	%xmm1, %xmm0, %xmm0
	vpand	.LCPI98_0(%rip), %xmm0, %xmm0
	vpcmpeqb	.LCPI98_1(%rip), %xmm0, %xmm0
	vpmovmskb	%xmm0, %eax
	testl	%eax, %eax
	jne	.LBB98_95
	vmovdqu	-32(%r15,%r14), %ymm0
	vpsrlw	$8, %ymm0, %ymm0
	vextracti128	$1, %ymm0, %xmm1
	vpackuswb	%xmm1, %xmm0, %xmm0
	vpand	.LCPI98_0(%rip), %xmm0, %xmm0
	vpcmpeqb	.LCPI98_1(%rip), %xmm0, %xmm0
	vpmovmskb	%xmm0, %eax
	testl	%eax, %eax
	jne	.LBB98_95
	jmp	.LBB98_96
.LBB98_134:
	leaq	(%rax,%rsi,2), %rdi
	jmp	.LBB98_135
.LBB98_29:
	cmpq	$64, %r14
	jae	.LBB98_30
.LBB98_23:
	movq	%r15, %rdi
	movq	%r14, %rsi
	vzeroupper
	callq	L_14
	jmp	.LBB98_24
.LBB98_96:
	cmpq	$64, %r14
	jae	.LBB98_97
.LBB98_92:
	movq	%r15, %rdi
	movq	%r14, %rsi
	vzeroupper
	callq	L_15
.LBB98_24:
	addq	%rax, %rbx
	jmp	.LBB98_25
.LBB98_30:
	leaq	-64(%r14), %rax
	movq	%rax, %rsi
	shrq	$6, %rsi
	incq	%rsi
	movl	%esi, %ecx
	andl	$3, %ecx
	cmpq	$192, %rax
	jae	.LBB98_49
	xorl	%eax, %eax
	xorl	%edx, %edx
	jmp	.LBB98_33
.LBB98_97:
	leaq	-64(%r14), %rax
	movq	%rax, %rsi
	shrq	$6, %rsi
	incq	%rsi
	movl	%esi, %ecx
	andl	$3, %ecx
	cmpq	$192, %rax
	jae	.LBB98_115
	xorl	%eax, %eax
	xorl	%edx, %edx
	jmp	.LBB98_100
.LBB98_49:
	movabsq	$576460752303423484, %rax
	andq	%rax, %rsi
	xorl	%eax, %eax
	xorl	%edx, %edx
	.p2align	4
.LBB98_50:
	vpbroadcastw	.LCPI98_14(%rip), %ymm0
	vpand	32(%r15,%rax), %ymm0, %ymm1
	vpand	(%r15,%rax), %ymm0, %ymm2
	vpackuswb	%ymm1, %ymm2, %ymm1
	vpermq	$216, %ymm1, %ymm2
	vpbroadcastd	.LCPI98_15(%rip), %ymm1
	vpand	%ymm1, %ymm2, %ymm3
	vpbroadcastd	.LCPI98_16(%rip), %ymm2
	vpcmpeqb	%ymm2, %ymm3, %ymm3
	vpmovmskb	%ymm3, %edi
	popcntl	%edi, %edi
	vpand	96(%r15,%rax), %ymm0, %ymm3
	vpand	64(%r15,%rax), %ymm0, %ymm4
	addq	%rdx, %rdi
	vpackuswb	%ymm3, %ymm4, %ymm3
	vpermq	$216, %ymm3, %ymm3
	vpand	%ymm1, %ymm3, %ymm3
	vpcmpeqb	%ymm2, %ymm3, %ymm3
	vpmovmskb	%ymm3, %edx
	vpand	160(%r15,%rax), %ymm0, %ymm3
	popcntl	%edx, %edx
	vpand	128(%r15,%rax), %ymm0, %ymm4
	vpackuswb	%ymm3, %ymm4, %ymm3
	vpermq	$216, %ymm3, %ymm3
	vpand	%ymm1, %ymm3, %ymm3
	vpcmpeqb	%ymm2, %ymm3, %ymm3
	vpmovmskb	%ymm3, %r8d
	popcntl	%r8d, %r8d
	addq	%rdx, %r8
	vpand	224(%r15,%rax), %ymm0, %ymm3
	addq	%rdi, %r8
	vpand	192(%r15,%rax), %ymm0, %ymm0
	vpackuswb	%ymm3, %ymm0, %ymm0
	vpermq	$216, %ymm0, %ymm0
	vpand	%ymm1, %ymm0, %ymm0
	vpcmpeqb	%ymm2, %ymm0, %ymm0
	vpmovmskb	%ymm0, %edx
	popcntl	%edx, %edx
	addq	%r8, %rdx
	addq	$256, %rax
	addq	$-4, %rsi
	jne	.LBB98_50
	testq	%rcx, %rcx
	je	.LBB98_34
	.p2align	4
.LBB98_33:
	vpbroadcastw	.LCPI98_14(%rip), %ymm0
	vpand	32(%r15,%rax), %ymm0, %ymm1
	vpand	(%r15,%rax), %ymm0, %ymm0
	vpackuswb	%ymm1, %ymm0, %ymm0
	vpermq	$216, %ymm0, %ymm0
	vpand	.LCPI98_6(%rip), %ymm0, %ymm0
	vpcmpeqb	.LCPI98_7(%rip), %ymm0, %ymm0
	vpmovmskb	%ymm0, %esi
	popcntl	%esi, %esi
	addq	%rsi, %rdx
	addq	$64, %rax
	decq	%rcx
	jne	.LBB98_33
.LBB98_34:
	movq	%r14, %rsi
	subq	%rax, %rsi
	movq	%r14, %rcx
	shrq	%rcx
	cmpq	$2, %rsi
	jb	.LBB98_48
	movq	%r14, %rdi
	andq	$-64, %rdi
	leaq	-2(%r14), %rsi
	xorl	%r8d, %r8d
	cmpq	%rdi, %rsi
	setne	%r8b
	movq	%r14, %rsi
	subq	%r8, %rsi
	notq	%rdi
	addq	%rsi, %rdi
	cmpq	$8, %rdi
	jae	.LBB98_37
	movq	%rax, %r8
	jmp	.LBB98_46
.LBB98_115:
	movabsq	$576460752303423484, %rax
	andq	%rax, %rsi
	xorl	%eax, %eax
	xorl	%edx, %edx
	.p2align	4
.LBB98_116:
	vmovdqu	(%r15,%rax), %ymm0
	vmovdqu	32(%r15,%rax), %ymm1
	vmovdqu	64(%r15,%rax), %ymm2
	vmovdqu	96(%r15,%rax), %ymm3
	vpsrlw	$8, %ymm1, %ymm1
	vpsrlw	$8, %ymm0, %ymm0
	vpackuswb	%ymm1, %ymm0, %ymm0
	vpermq	$216, %ymm0, %ymm1
	vpbroadcastd	.LCPI98_15(%rip), %ymm0
	vpand	%ymm0, %ymm1, %ymm4
	vpbroadcastd	.LCPI98_16(%rip), %ymm1
	vpcmpeqb	%ymm1, %ymm4, %ymm4
	vpmovmskb	%ymm4, %edi
	popcntl	%edi, %edi
	addq	%rdx, %rdi
	vpsrlw	$8, %ymm3, %ymm3
	vpsrlw	$8, %ymm2, %ymm2
	vpackuswb	%ymm3, %ymm2, %ymm2
	vpermq	$216, %ymm2, %ymm2
	vpand	%ymm0, %ymm2, %ymm2
	vpcmpeqb	%ymm1, %ymm2, %ymm2
	vpmovmskb	%ymm2, %edx
	popcntl	%edx, %edx
	vmovdqu	128(%r15,%rax), %ymm2
	vmovdqu	160(%r15,%rax), %ymm3
	vpsrlw	$8, %ymm3, %ymm3
	vpsrlw	$8, %ymm2, %ymm2
	vpackuswb	%ymm3, %ymm2, %ymm2
	vpermq	$216, %ymm2, %ymm2
	vpand	%ymm0, %ymm2, %ymm2
	vpcmpeqb	%ymm1, %ymm2, %ymm2
	vpmovmskb	%ymm2, %r8d
	popcntl	%r8d, %r8d
	addq	%rdx, %r8
	addq	%rdi, %r8
	vmovdqu	192(%r15,%rax), %ymm2
	vmovdqu	224(%r15,%rax), %ymm3
	vpsrlw	$8, %ymm3, %ymm3
	vpsrlw	$8, %ymm2, %ymm2
	vpackuswb	%ymm3, %ymm2, %ymm2
	vpermq	$216, %ymm2, %ymm2
	vpand	%ymm0, %ymm2, %ymm0
	vpcmpeqb	%ymm1, %ymm0, %ymm0
	vpmovmskb	%ymm0, %edx
	popcntl	%edx, %edx
	addq	%r8, %rdx
	addq	$256, %rax
	addq	$-4, %rsi
	jne	.LBB98_116
	testq	%rcx, %rcx
	je	.LBB98_101
	.p2align	4
.LBB98_100:
	vmovdqu	(%r15,%rax), %ymm0
	vmovdqu	32(%r15,%rax), %ymm1
	vpsrlw	$8, %ymm1, %ymm1
	vpsrlw	$8, %ymm0, %ymm0
	vpackuswb	%ymm1, %ymm0, %ymm0
	vpermq	$216, %ymm0, %ymm0
	vpand	.LCPI98_6(%rip), %ymm0, %ymm0
	vpcmpeqb	.LCPI98_7(%rip), %ymm0, %ymm0
	vpmovmskb	%ymm0, %esi
	popcntl	%esi, %esi
	addq	%rsi, %rdx
	addq	$64, %rax
	decq	%rcx
	jne	.LBB98_100
.LBB98_101:
	movq	%r14, %rsi
	subq	%rax, %rsi
	movq	%r14, %rcx
	shrq	%rcx
	cmpq	$2, %rsi
	jb	.LBB98_48
	movq	%r14, %rdi
	andq	$-64, %rdi
	leaq	-2(%r14), %rsi
	xorl	%r8d, %r8d
	cmpq	%rdi, %rsi
	setne	%r8b
	movq	%r14, %rsi
	subq	%r8, %rsi
	notq	%rdi
	addq	%rsi, %rdi
	cmpq	$8, %rdi
	jae	.LBB98_104
	movq	%rax, %r8
	jmp	.LBB98_113
.LBB98_37:
	movq	%rdi, %rsi
	shrq	%rsi
	incq	%rsi
	cmpq	$32, %rdi
	jae	.LBB98_42
	xorl	%edi, %edi
	jmp	.LBB98_39
.LBB98_104:
	movq	%rdi, %rsi
	shrq	%rsi
	incq	%rsi
	cmpq	$32, %rdi
	jae	.LBB98_109
	xorl	%edi, %edi
	jmp	.LBB98_106
.LBB98_42:
	movl	%esi, %edi
	andl	$15, %edi
	movl	$16, %r8d
	cmovneq	%rdi, %r8
	movq	%rsi, %rdi
	subq	%r8, %rdi
	vmovq	%rdx, %xmm0
	leaq	(%rax,%r15), %rdx
	addq	$24, %rdx
	vpxor	%xmm1, %xmm1, %xmm1
	xorl	%r9d, %r9d
	vpxor	%xmm2, %xmm2, %xmm2
	vpxor	%xmm3, %xmm3, %xmm3
	.p2align	4
.LBB98_43:
	vmovq	-24(%rdx,%r9,2), %xmm4
	vmovd	.LCPI98_17(%rip), %xmm5
	vpshufb	%xmm5, %xmm4, %xmm4
	vmovq	-16(%rdx,%r9,2), %xmm6
	vpshufb	%xmm5, %xmm6, %xmm6
	vmovq	-8(%rdx,%r9,2), %xmm7
	vpshufb	%xmm5, %xmm7, %xmm7
	vmovq	(%rdx,%r9,2), %xmm8
	vpshufb	%xmm5, %xmm8, %xmm5
	vpbroadcastd	.LCPI98_15(%rip), %xmm8
	vpand	%xmm4, %xmm8, %xmm4
	vpand	%xmm6, %xmm8, %xmm6
	vpand	%xmm7, %xmm8, %xmm7
	vpand	%xmm5, %xmm8, %xmm5
	vpbroadcastd	.LCPI98_16(%rip), %xmm8
	vpcmpeqb	%xmm4, %xmm8, %xmm4
	vpmovzxbq	%xmm4, %ymm4
	vpbroadcastq	.LCPI98_11(%rip), %ymm9
	vpand	%ymm4, %ymm9, %ymm4
	vpaddq	%ymm4, %ymm0, %ymm0
	vpcmpeqb	%xmm6, %xmm8, %xmm4
	vpmovzxbq	%xmm4, %ymm4
	vpand	%ymm4, %ymm9, %ymm4
	vpaddq	%ymm4, %ymm1, %ymm1
	vpcmpeqb	%xmm7, %xmm8, %xmm4
	vpmovzxbq	%xmm4, %ymm4
	vpand	%ymm4, %ymm9, %ymm4
	vpaddq	%ymm4, %ymm2, %ymm2
	vpcmpeqb	%xmm5, %xmm8, %xmm4
	vpmovzxbq	%xmm4, %ymm4
	vpand	%ymm4, %ymm9, %ymm4
	vpaddq	%ymm4, %ymm3, %ymm3
	addq	$16, %r9
	cmpq	%r9, %rdi
	jne	.LBB98_43
	vpaddq	%ymm0, %ymm1, %ymm0
	vpaddq	%ymm0, %ymm2, %ymm0
	vpaddq	%ymm0, %ymm3, %ymm0
	vextracti128	$1, %ymm0, %xmm1
	vpaddq	%xmm1, %xmm0, %xmm0
	vpshufd	$238, %xmm0, %xmm1
	vpaddq	%xmm1, %xmm0, %xmm0
	vmovq	%xmm0, %rdx
	cmpl	$5, %r8d
	jb	.LBB98_45
.LBB98_39:
	movl	%esi, %r8d
	andl	$3, %r8d
	movl	$4, %r9d
	cmovneq	%r8, %r9
	subq	%r9, %rsi
	leaq	(%rax,%rsi,2), %r8
	vmovq	%rdx, %xmm0
	addq	%r15, %rax
	.p2align	4
.LBB98_40:
	vmovq	(%rax,%rdi,2), %xmm1
	vpshufb	.LCPI98_8(%rip), %xmm1, %xmm1
	vpand	.LCPI98_9(%rip), %xmm1, %xmm1
	vpcmpeqb	.LCPI98_10(%rip), %xmm1, %xmm1
	vpmovzxbq	%xmm1, %ymm1
	vpbroadcastq	.LCPI98_11(%rip), %ymm2
	vpand	%ymm2, %ymm1, %ymm1
	vpaddq	%ymm1, %ymm0, %ymm0
	addq	$4, %rdi
	cmpq	%rdi, %rsi
	jne	.LBB98_40
	vextracti128	$1, %ymm0, %xmm1
	vpaddq	%xmm1, %xmm0, %xmm0
	vpshufd	$238, %xmm0, %xmm1
	vpaddq	%xmm1, %xmm0, %xmm0
	vmovq	%xmm0, %rdx
.LBB98_46:
	subq	%r8, %r14
	addq	%r8, %r15
	.p2align	4
.LBB98_47:
	movzbl	(%r15), %eax
	andb	$-4, %al
	xorl	%esi, %esi
	cmpb	$-36, %al
	sete	%sil
	addq	%rsi, %rdx
	addq	$-2, %r14
	addq	$2, %r15
	cmpq	$1, %r14
	ja	.LBB98_47
	jmp	.LBB98_48
.LBB98_109:
	movl	%esi, %edi
	andl	$15, %edi
	movl	$16, %r8d
	cmovneq	%rdi, %r8
	movq	%rsi, %rdi
	subq	%r8, %rdi
	vmovq	%rdx, %xmm0
	leaq	(%rax,%r15), %rdx
	addq	$25, %rdx
	vpxor	%xmm1, %xmm1, %xmm1
	xorl	%r9d, %r9d
	vpxor	%xmm2, %xmm2, %xmm2
	vpxor	%xmm3, %xmm3, %xmm3
	.p2align	4
.LBB98_110:
	vmovq	-24(%rdx,%r9,2), %xmm4
	vmovd	.LCPI98_17(%rip), %xmm5
	vpshufb	%xmm5, %xmm4, %xmm4
	vmovq	-16(%rdx,%r9,2), %xmm6
	vpshufb	%xmm5, %xmm6, %xmm6
	vmovq	-8(%rdx,%r9,2), %xmm7
	vpshufb	%xmm5, %xmm7, %xmm7
	vmovq	(%rdx,%r9,2), %xmm8
	vpshufb	%xmm5, %xmm8, %xmm5
	vpbroadcastd	.LCPI98_15(%rip), %xmm8
	vpand	%xmm4, %xmm8, %xmm4
	vpand	%xmm6, %xmm8, %xmm6
	vpand	%xmm7, %xmm8, %xmm7
	vpand	%xmm5, %xmm8, %xmm5
	vpbroadcastd	.LCPI98_16(%rip), %xmm8
	vpcmpeqb	%xmm4, %xmm8, %xmm4
	vpmovzxbq	%xmm4, %ymm4
	vpbroadcastq	.LCPI98_11(%rip), %ymm9
	vpand	%ymm4, %ymm9, %ymm4
	vpaddq	%ymm4, %ymm0, %ymm0
	vpcmpeqb	%xmm6, %xmm8, %xmm4
	vpmovzxbq	%xmm4, %ymm4
	vpand	%ymm4, %ymm9, %ymm4
	vpaddq	%ymm4, %ymm1, %ymm1
	vpcmpeqb	%xmm7, %xmm8, %xmm4
	vpmovzxbq	%xmm4, %ymm4
	vpand	%ymm4, %ymm9, %ymm4
	vpaddq	%ymm4, %ymm2, %ymm2
	vpcmpeqb	%xmm5, %xmm8, %xmm4
	vpmovzxbq	%xmm4, %ymm4
	vpand	%ymm4, %ymm9, %ymm4
	vpaddq	%ymm4, %ymm3, %ymm3
	addq	$16, %r9
	cmpq	%r9, %rdi
	jne	.LBB98_110
	vpaddq	%ymm0, %ymm1, %ymm0
	vpaddq	%ymm0, %ymm2, %ymm0
	vpaddq	%ymm0, %ymm3, %ymm0
	vextracti128	$1, %ymm0, %xmm1
	vpaddq	%xmm1, %xmm0, %xmm0
	vpshufd	$238, %xmm0, %xmm1
	vpaddq	%xmm1, %xmm0, %xmm0
	vmovq	%xmm0, %rdx
	cmpl	$5, %r8d
	jb	.LBB98_112
.LBB98_106:
	movl	%esi, %r8d
	andl	$3, %r8d
	movl	$4, %r9d
	cmovneq	%r8, %r9
	subq	%r9, %rsi
	leaq	(%rax,%rsi,2), %r8
	vmovq	%rdx, %xmm0
	addq	%r15, %rax
	incq	%rax
	.p2align	4
.LBB98_107:
	vmovq	(%rax,%rdi,2), %xmm1
	vpshufb	.LCPI98_8(%rip), %xmm1, %xmm1
	vpand	.LCPI98_9(%rip), %xmm1, %xmm1
	vpcmpeqb	.LCPI98_10(%rip), %xmm1, %xmm1
	vpmovzxbq	%xmm1, %ymm1
	vpbroadcastq	.LCPI98_11(%rip), %ymm2
	vpand	%ymm2, %ymm1, %ymm1
	vpaddq	%ymm1, %ymm0, %ymm0
	addq	$4, %rdi
	cmpq	%rdi, %rsi
	jne	.LBB98_107
	vextracti128	$1, %ymm0, %xmm1
	vpaddq	%xmm1, %xmm0, %xmm0
	vpshufd	$238, %xmm0, %xmm1
	vpaddq	%xmm1, %xmm0, %xmm0
	vmovq	%xmm0, %rdx
.LBB98_113:
	subq	%r8, %r14
	leaq	(%r8,%r15), %rax
	incq	%rax
	.p2align	4
.LBB98_114:
	movzbl	(%rax), %esi
	andb	$-4, %sil
	xorl	%edi, %edi
	cmpb	$-36, %sil
	sete	%dil
	addq	%rdi, %rdx
	addq	$-2, %r14
	addq	$2, %rax
	cmpq	$1, %r14
	ja	.LBB98_114
.LBB98_48:
	subq	%rdx, %rcx
	addq	%rcx, %rbx
.LBB98_25:
	movq	%rbx, %rax
	addq	$8, %rsp
	popq	%rbx
	popq	%r12
	popq	%r13
	popq	%r14
	popq	%r15
	popq	%rbp
	vzeroupper
	retq
.LBB98_45:
	leaq	(%rax,%rdi,2), %r8
	jmp	.LBB98_46
.LBB98_112:
	leaq	(%rax,%rdi,2), %r8
	jmp	.LBB98_113
.Lfunc_end98:

	.section	.text$115,"xr"
	.globl	dethrux_to_utf8_lossy_len_v3
	.p2align	4
dethrux_to_utf8_lossy_len_v3:
	movl	%edi, %eax
	xorl	%edi, %edi
	testq	%rsi, %rsi
	sete	%dil
	shll	$12, %edi
	addq	%rsi, %rdi
	movq	%rdx, %rsi
	cmpl	$1, %eax
	jne	L_18
	jmp	L_16
.Lfunc_end99:

	.section	.rdata$000,"dr"
	.p2align	4, 0x0
.LCPI100_0:
	.zero	16,248
.LCPI100_1:
	.zero	16,216
.LCPI100_2:
	.byte	1
	.byte	3
	.byte	5
	.byte	7
	.byte	9
	.byte	11
	.byte	13
	.byte	15
	.zero	1
	.zero	1
	.zero	1
	.zero	1
	.zero	1
	.zero	1
	.zero	1
	.zero	1
.LCPI100_3:
	.byte	1
	.byte	3
	.byte	5
	.byte	7
	.zero	1
	.zero	1
	.zero	1
	.zero	1
	.zero	1
	.zero	1
	.zero	1
	.zero	1
	.zero	1
	.zero	1
	.zero	1
	.zero	1
.LCPI100_4:
	.byte	248
	.byte	248
	.byte	248
	.byte	248
	.zero	1
	.zero	1
	.zero	1
	.zero	1
	.zero	1
	.zero	1
	.zero	1
	.zero	1
	.zero	1
	.zero	1
	.zero	1
	.zero	1
.LCPI100_5:
	.byte	216
	.byte	216
	.byte	216
	.byte	216
	.zero	1
	.zero	1
	.zero	1
	.zero	1
	.zero	1
	.zero	1
	.zero	1
	.zero	1
	.zero	1
	.zero	1
	.zero	1
	.zero	1
.LCPI100_7:
	.byte	0
	.byte	2
	.byte	4
	.byte	6
	.byte	8
	.byte	10
	.byte	12
	.byte	14
	.zero	1
	.zero	1
	.zero	1
	.zero	1
	.zero	1
	.zero	1
	.zero	1
	.zero	1
.LCPI100_8:
	.byte	0
	.byte	2
	.byte	4
	.byte	6
	.zero	1
	.zero	1
	.zero	1
	.zero	1
	.zero	1
	.zero	1
	.zero	1
	.zero	1
	.zero	1
	.zero	1
	.zero	1
	.zero	1
	.section	.rdata$003,"dr"
	.p2align	5, 0x0
.LCPI100_6:
	.short	255
	.short	255
	.short	255
	.short	255
	.short	255
	.short	255
	.short	255
	.short	255
	.short	255
	.short	255
	.short	255
	.short	255
	.short	255
	.short	255
	.short	255
	.short	255
	.section	.text$116,"xr"
	.globl	dethrux_to_utf8_replacements_v3
	.p2align	4
dethrux_to_utf8_replacements_v3:
	pushq	%r15
	pushq	%r14
	pushq	%r12
	pushq	%rbx
	pushq	%rax
	movq	%rdx, %r14
	xorl	%r15d, %r15d
	testq	%rsi, %rsi
	sete	%r15b
	shll	$12, %r15d
	addq	%rsi, %r15
	xorl	%ebx, %ebx
	cmpl	$1, %edi
	jne	.LBB100_1
	.p2align	4
	cmpq	$2, %r14
	jne	.LBB100_7
.LBB100_5:
	movzbl	(%r15), %eax
.LBB100_6:
	andb	$-8, %al
	cmpb	$-40, %al
	jne	.LBB100_50
.LBB100_25:
	movq	%r15, %rdi
	movq	%r14, %rsi
	vzeroupper
	callq	L_9
	movq	%r14, %rsi
	subq	%rax, %rsi
	je	.LBB100_50
	movq	%rax, %r12
	addq	%rax, %r15
	movq	%r15, %rdi
	callq	L_10
	cmpb	$1, %al
	jne	.LBB100_49
	movzbl	%dl, %eax
	addq	%rax, %r15
	addq	%rax, %r12
	subq	%r12, %r14
	incq	%rbx
	cmpq	$2, %r14
	je	.LBB100_5
.LBB100_7:
	cmpq	$7, %r14
	ja	.LBB100_16
	cmpq	$4, %r14
	je	.LBB100_11
	cmpq	$6, %r14
	je	.LBB100_13
	testq	%r14, %r14
	jne	.LBB100_25
	jmp	.LBB100_50
	.p2align	4
.LBB100_16:
	cmpq	$65, %r14
	setae	%al
	movl	%r14d, %ecx
	orb	%al, %cl
	testb	$1, %cl
	jne	.LBB100_25
	cmpq	$15, %r14
	ja	.LBB100_20
	vmovq	(%r15), %xmm0
	vpshufb	.LCPI100_8(%rip), %xmm0, %xmm0
	vpand	.LCPI100_4(%rip), %xmm0, %xmm0
	vpcmpeqb	.LCPI100_5(%rip), %xmm0, %xmm0
	vpmovsxbd	%xmm0, %xmm0
	vtestps	%xmm0, %xmm0
	jne	.LBB100_25
	vmovq	-8(%r15,%r14), %xmm0
	vpshufb	.LCPI100_8(%rip), %xmm0, %xmm0
	vpand	.LCPI100_4(%rip), %xmm0, %xmm0
	vpcmpeqb	.LCPI100_5(%rip), %xmm0, %xmm0
	vpmovsxbd	%xmm0, %xmm0
	vtestps	%xmm0, %xmm0
	jne	.LBB100_25
	jmp	.LBB100_50
.LBB100_13:
	movzbl	(%r15), %eax
	andb	$-8, %al
	cmpb	$-40, %al
	je	.LBB100_25
	movzbl	2(%r15), %eax
	andb	$-8, %al
	cmpb	$-40, %al
	je	.LBB100_25
	movzbl	4(%r15), %eax
	jmp	.LBB100_6
.LBB100_11:
	movzbl	(%r15), %eax
	andb	$-8, %al
	cmpb	$-40, %al
	je	.LBB100_25
	movzbl	2(%r15), %eax
	jmp	.LBB100_6
.LBB100_20:
	cmpq	$31, %r14
	ja	.LBB100_23
	vmovdqu	(%r15), %xmm0
	vpshufb	.LCPI100_7(%rip), %xmm0, %xmm0
	vpand	.LCPI100_0(%rip), %xmm0, %xmm0
	vpcmpeqb	.LCPI100_1(%rip), %xmm0, %xmm0
	vpmovmskb	%xmm0, %eax
	testb	%al, %al
	jne	.LBB100_25
	vmovdqu	-16(%r15,%r14), %xmm0
	vpshufb	.LCPI100_7(%rip), %xmm0, %xmm0
	vpand	.LCPI100_0(%rip), %xmm0, %xmm0
	vpcmpeqb	.LCPI100_1(%rip), %xmm0, %xmm0
	vpmovmskb	%xmm0, %eax
	testb	%al, %al
	jne	.LBB100_25
	jmp	.LBB100_50
.LBB100_23:
	vmovdqu	(%r15), %ymm0
	vpand	.LCPI100_6(%rip), %ymm0, %ymm0
	vextracti128	$1, %ymm0, %xmm1
	vpackuswb	%xmm1, %xmm0, %xmm0
	vpand	.LCPI100_0(%rip), %xmm0, %xmm0
	vpcmpeqb	.LCPI100_1(%rip), %xmm0, %xmm0
	vpmovmskb	%xmm0, %eax
	testl	%eax, %eax
	jne	.LBB100_25
	vmovdqu	-32(%r15,%r14), %ymm0
	vpand	.LCPI100_6(%rip), %ymm0, %ymm0
	vextracti128	$1, %ymm0, %xmm1
	vpackuswb	%xmm1, %xmm0, %xmm0
	vpand	.LCPI100_0(%rip), %xmm0, %xmm0
	vpcmpeqb	.LCPI100_1(%rip), %xmm0, %xmm0
	vpmovmskb	%xmm0, %eax
	testl	%eax, %eax
	jne	.LBB100_25
	jmp	.LBB100_50
	.p2align	4
.LBB100_1:
	cmpq	$2, %r14
	jne	.LBB100_28
	movzbl	1(%r15), %eax
.LBB100_3:
	andb	$-8, %al
	cmpb	$-40, %al
	jne	.LBB100_50
.LBB100_46:
	movq	%r15, %rdi
	movq	%r14, %rsi
	vzeroupper
	callq	L_12
	movq	%r14, %rsi
	subq	%rax, %rsi
	je	.LBB100_50
	movq	%rax, %r12
	addq	%rax, %r15
	movq	%r15, %rdi
	callq	L_13
	cmpb	$1, %al
	jne	.LBB100_49
	movzbl	%dl, %eax
	addq	%rax, %r15
	addq	%rax, %r12
	subq	%r12, %r14
	incq	%rbx
	jmp	.LBB100_1
	.p2align	4
.LBB100_28:
	cmpq	$7, %r14
	ja	.LBB100_37
	cmpq	$4, %r14
	je	.LBB100_32
	cmpq	$6, %r14
	je	.LBB100_34
	testq	%r14, %r14
	jne	.LBB100_46
	jmp	.LBB100_50
	.p2align	4
.LBB100_37:
	cmpq	$65, %r14
	setae	%al
	movl	%r14d, %ecx
	orb	%al, %cl
	testb	$1, %cl
	jne	.LBB100_46
	cmpq	$15, %r14
	ja	.LBB100_41
	vmovq	(%r15), %xmm0
	vpshufb	.LCPI100_3(%rip), %xmm0, %xmm0
	vpand	.LCPI100_4(%rip), %xmm0, %xmm0
	vpcmpeqb	.LCPI100_5(%rip), %xmm0, %xmm0
	vpmovsxbd	%xmm0, %xmm0
	vtestps	%xmm0, %xmm0
	jne	.LBB100_46
	vmovq	-8(%r15,%r14), %xmm0
	vpshufb	.LCPI100_3(%rip), %xmm0, %xmm0
	vpand	.LCPI100_4(%rip), %xmm0, %xmm0
	vpcmpeqb	.LCPI100_5(%rip), %xmm0, %xmm0
	vpmovsxbd	%xmm0, %xmm0
	vtestps	%xmm0, %xmm0
	jne	.LBB100_46
	jmp	.LBB100_50
.LBB100_34:
	movzbl	1(%r15), %eax
	andb	$-8, %al
	cmpb	$-40, %al
	je	.LBB100_46
	movzbl	3(%r15), %eax
	andb	$-8, %al
	cmpb	$-40, %al
	je	.LBB100_46
	movzbl	5(%r15), %eax
	jmp	.LBB100_3
.LBB100_32:
	movzbl	1(%r15), %eax
	andb	$-8, %al
	cmpb	$-40, %al
	je	.LBB100_46
	movzbl	3(%r15), %eax
	jmp	.LBB100_3
.LBB100_41:
	cmpq	$31, %r14
	ja	.LBB100_44
	vmovdqu	(%r15), %xmm0
	vpshufb	.LCPI100_2(%rip), %xmm0, %xmm0
	vpand	.LCPI100_0(%rip), %xmm0, %xmm0
	vpcmpeqb	.LCPI100_1(%rip), %xmm0, %xmm0
	vpmovmskb	%xmm0, %eax
	testb	%al, %al
	jne	.LBB100_46
	vmovdqu	-16(%r15,%r14), %xmm0
	vpshufb	.LCPI100_2(%rip), %xmm0, %xmm0
	vpand	.LCPI100_0(%rip), %xmm0, %xmm0
	vpcmpeqb	.LCPI100_1(%rip), %xmm0, %xmm0
	vpmovmskb	%xmm0, %eax
	testb	%al, %al
	jne	.LBB100_46
	jmp	.LBB100_50
.LBB100_44:
	vmovdqu	(%r15), %ymm0
	vpsrlw	$8, %ymm0, %ymm0
	vextracti128	$1, %ymm0, %xmm1
	vpackuswb	%xmm1, %xmm0, %xmm0
	vpand	.LCPI100_0(%rip), %xmm0, %xmm0
	vpcmpeqb	.LCPI100_1(%rip), %xmm0, %xmm0
	vpmovmskb	%xmm0, %eax
	testl	%eax, %eax
	jne	.LBB100_46
	vmovdqu	-32(%r15,%r14), %ymm0
	vpsrlw	$8, %ymm0, %ymm0
	vextracti128	$1, %ymm0, %xmm1
	vpackuswb	%xmm1, %xmm0, %xmm0
	vpand	.LCPI100_0(%rip), %xmm0, %xmm0
	vpcmpeqb	.LCPI100_1(%rip), %xmm0, %xmm0
	vpmovmskb	%xmm0, %eax
	testl	%eax, %eax
	jne	.LBB100_46
	jmp	.LBB100_50
.LBB100_49:
	incq	%rbx
.LBB100_50:
	movq	%rbx, %rax
	addq	$8, %rsp
	popq	%rbx
	popq	%r12
	popq	%r14
	popq	%r15
	vzeroupper
	retq
.Lfunc_end100:

	.section	.text$117,"xr"
	.globl	dethrux_to_wtf8_len_v3
	.p2align	4
dethrux_to_wtf8_len_v3:
	movl	%edi, %eax
	xorl	%edi, %edi
	testq	%rsi, %rsi
	sete	%dil
	shll	$12, %edi
	addq	%rsi, %rdi
	andq	$-2, %rdx
	movq	%rdx, %rsi
	cmpl	$1, %eax
	jne	L_18
	jmp	L_16
.Lfunc_end101:

	.section	.rdata$003,"dr"
	.p2align	5, 0x0
.LCPI102_0:
	.short	256
	.short	256
	.short	256
	.short	256
	.short	256
	.short	256
	.short	256
	.short	256
	.short	256
	.short	256
	.short	256
	.short	256
	.short	256
	.short	256
	.short	256
	.short	256
.LCPI102_4:
	.byte	1
	.byte	0
	.byte	3
	.byte	2
	.byte	5
	.byte	4
	.byte	7
	.byte	6
	.byte	9
	.byte	8
	.byte	11
	.byte	10
	.byte	13
	.byte	12
	.byte	15
	.byte	14
	.byte	1
	.byte	0
	.byte	3
	.byte	2
	.byte	5
	.byte	4
	.byte	7
	.byte	6
	.byte	9
	.byte	8
	.byte	11
	.byte	10
	.byte	13
	.byte	12
	.byte	15
	.byte	14
	.section	.rdata$013,"dr"
	.p2align	1, 0x0
.LCPI102_1:
	.byte	255
	.byte	0
	.section	.rdata$000,"dr"
	.p2align	4, 0x0
.LCPI102_2:
	.short	256
	.short	256
	.short	256
	.short	256
	.short	256
	.short	256
	.short	256
	.short	256
.LCPI102_3:
	.byte	0
	.byte	2
	.byte	4
	.byte	6
	.byte	8
	.byte	10
	.byte	12
	.byte	14
	.zero	1
	.zero	1
	.zero	1
	.zero	1
	.zero	1
	.zero	1
	.zero	1
	.zero	1
.LCPI102_5:
	.byte	1
	.byte	0
	.byte	3
	.byte	2
	.byte	5
	.byte	4
	.byte	7
	.byte	6
	.byte	9
	.byte	8
	.byte	11
	.byte	10
	.byte	13
	.byte	12
	.byte	15
	.byte	14
	.section	.rdata$001,"dr"
	.p2align	2, 0x0
.LCPI102_6:
	.short	256
	.short	256
	.section	.text$118,"xr"
	.globl	dethrux_to_latin1_v3
	.p2align	4
dethrux_to_latin1_v3:
	pushq	%rbx
	movq	%rdi, %rax
	xorl	%ebx, %ebx
	testq	%rdx, %rdx
	sete	%bl
	shll	$12, %ebx
	leaq	(%rdx,%rbx), %r10
	xorl	%r11d, %r11d
	testq	%r8, %r8
	sete	%r11b
	shll	$12, %r11d
	addq	%r8, %r11
	movq	%rcx, %rdi
	shrq	%rdi
	cmpq	%rdi, %r9
	cmovbq	%r9, %rdi
	cmpl	$1, %esi
	jne	.LBB102_11
	xorl	%edx, %edx
	cmpq	$32, %rdi
	jb	.LBB102_5
	movq	%rdi, %rsi
	.p2align	4
.LBB102_3:
	vmovdqu	(%r10,%rdx,2), %ymm0
	vmovdqu	32(%r10,%rdx,2), %ymm1
	vbroadcasti128	.LCPI102_5(%rip), %ymm2
	vpshufb	%ymm2, %ymm0, %ymm0
	vpshufb	%ymm2, %ymm1, %ymm1
	vpbroadcastd	.LCPI102_6(%rip), %ymm2
	vpmaxuw	%ymm2, %ymm1, %ymm3
	vpcmpeqw	%ymm3, %ymm1, %ymm3
	vpmaxuw	%ymm2, %ymm0, %ymm2
	vpcmpeqw	%ymm2, %ymm0, %ymm2
	vpacksswb	%ymm3, %ymm2, %ymm2
	vpmovmskb	%ymm2, %r8d
	testl	%r8d, %r8d
	jne	.LBB102_5
	vpbroadcastw	.LCPI102_1(%rip), %ymm2
	vpand	%ymm2, %ymm0, %ymm0
	vpand	%ymm2, %ymm1, %ymm1
	vpackuswb	%ymm1, %ymm0, %ymm0
	vpermq	$216, %ymm0, %ymm0
	vmovdqu	%ymm0, (%r11,%rdx)
	addq	$32, %rdx
	addq	$-32, %rsi
	cmpq	$31, %rsi
	ja	.LBB102_3
.LBB102_5:
	movq	%rdi, %rsi
	subq	%rdx, %rsi
	cmpq	$8, %rsi
	jb	.LBB102_10
	.p2align	4
.LBB102_6:
	vmovdqu	(%r10,%rdx,2), %xmm0
	vpshufb	.LCPI102_5(%rip), %xmm0, %xmm0
	vpmaxuw	.LCPI102_2(%rip), %xmm0, %xmm1
	vpcmpeqw	%xmm1, %xmm0, %xmm1
	vpmovmskb	%xmm1, %r8d
	testl	%r8d, %r8d
	jne	.LBB102_10
	vpshufb	.LCPI102_3(%rip), %xmm0, %xmm0
	vmovq	%xmm0, (%r11,%rdx)
	addq	$8, %rdx
	addq	$-8, %rsi
	cmpq	$7, %rsi
	ja	.LBB102_6
	jmp	.LBB102_10
	.p2align	4
.LBB102_8:
	movbew	(%r10,%rdx,2), %si
	movzwl	%si, %r8d
	cmpl	$255, %r8d
	ja	.LBB102_22
	movb	%sil, (%r11,%rdx)
	incq	%rdx
.LBB102_10:
	cmpq	%rdx, %rdi
	jne	.LBB102_8
	jmp	.LBB102_23
.LBB102_11:
	xorl	%esi, %esi
	cmpq	$32, %rdi
	jb	.LBB102_15
	movq	%rdi, %r8
	.p2align	4
.LBB102_13:
	vmovdqu	(%r10,%rsi,2), %ymm0
	vmovdqu	32(%r10,%rsi,2), %ymm1
	vpbroadcastd	.LCPI102_6(%rip), %ymm2
	vpmaxuw	%ymm2, %ymm1, %ymm3
	vpcmpeqw	%ymm3, %ymm1, %ymm3
	vpmaxuw	%ymm2, %ymm0, %ymm2
	vpcmpeqw	%ymm2, %ymm0, %ymm2
	vpacksswb	%ymm3, %ymm2, %ymm2
	vpmovmskb	%ymm2, %r9d
	testl	%r9d, %r9d
	jne	.LBB102_15
	vpbroadcastw	.LCPI102_1(%rip), %ymm2
	vpand	%ymm2, %ymm0, %ymm0
	vpand	%ymm2, %ymm1, %ymm1
	vpackuswb	%ymm1, %ymm0, %ymm0
	vpermq	$216, %ymm0, %ymm0
	vmovdqu	%ymm0, (%r11,%rsi)
	addq	$32, %rsi
	addq	$-32, %r8
	cmpq	$31, %r8
	ja	.LBB102_13
.LBB102_15:
	movq	%rdi, %r8
	subq	%rsi, %r8
	cmpq	$8, %r8
	jb	.LBB102_18
	.p2align	4
.LBB102_16:
	vmovdqu	(%r10,%rsi,2), %xmm0
	vpmaxuw	.LCPI102_2(%rip), %xmm0, %xmm1
	vpcmpeqw	%xmm1, %xmm0, %xmm1
	vpmovmskb	%xmm1, %r9d
	testl	%r9d, %r9d
	jne	.LBB102_18
	vpshufb	.LCPI102_3(%rip), %xmm0, %xmm0
	vmovq	%xmm0, (%r11,%rsi)
	addq	$8, %rsi
	addq	$-8, %r8
	cmpq	$7, %r8
	ja	.LBB102_16
.LBB102_18:
	cmpq	%rsi, %rdi
	je	.LBB102_29
	addq	%rbx, %rdx
	incq	%rdx
	.p2align	4
.LBB102_20:
	cmpb	$0, (%rdx,%rsi,2)
	jne	.LBB102_28
	movzbl	-1(%rdx,%rsi,2), %r8d
	movb	%r8b, (%r11,%rsi)
	incq	%rsi
	cmpq	%rsi, %rdi
	jne	.LBB102_20
	jmp	.LBB102_29
.LBB102_22:
	movq	%rdx, %rdi
.LBB102_23:
	leaq	(%rdi,%rdi), %rdx
	xorl	%esi, %esi
	movq	%rcx, %r9
	subq	%rdx, %r9
	je	.LBB102_30
	movl	$2, %ecx
	cmpq	$2, %r9
	jb	.LBB102_44
	movzwl	(%r10,%rdx), %r8d
	movl	%r8d, %r11d
	rolw	$8, %r11w
	movl	%r11d, %ecx
	andl	$63488, %ecx
	cmpl	$55296, %ecx
	jne	.LBB102_40
	notl	%r11d
	movl	$1, %ecx
	testl	$56320, %r11d
	je	.LBB102_27
	cmpq	$4, %r9
	jb	.LBB102_36
	movzbl	2(%r10,%rdx), %r9d
	andb	$-4, %r9b
	cmpb	$-36, %r9b
	jne	.LBB102_27
.LBB102_40:
	cmpb	$1, %r8b
	jmp	.LBB102_43
.LBB102_28:
	movq	%rsi, %rdi
.LBB102_29:
	leaq	(%rdi,%rdi), %rdx
	xorl	%esi, %esi
	movq	%rcx, %r9
	subq	%rdx, %r9
	jne	.LBB102_31
.LBB102_30:
	movq	%rcx, %rdx
	xorl	%ecx, %ecx
	jmp	.LBB102_44
.LBB102_31:
	movl	$2, %ecx
	cmpq	$2, %r9
	jb	.LBB102_44
	movzbl	1(%r10,%rdx), %r8d
	movl	%r8d, %ecx
	andl	$-8, %ecx
	cmpl	$216, %ecx
	jne	.LBB102_42
	movzwl	%r8w, %r11d
	notl	%r11d
	movl	$1, %ecx
	testb	$-36, %r11b
	jne	.LBB102_37
.LBB102_27:
	movl	$2, %esi
	jmp	.LBB102_44
.LBB102_37:
	cmpq	$4, %r9
	jae	.LBB102_41
.LBB102_36:
	movl	$2, %ecx
	jmp	.LBB102_44
.LBB102_41:
	movzbl	3(%r10,%rdx), %r9d
	andb	$-4, %r9b
	cmpb	$-36, %r9b
	jne	.LBB102_27
.LBB102_42:
	cmpb	$1, %r8b
.LBB102_43:
	movl	$4, %ecx
	sbbl	$0, %ecx
.LBB102_44:
	movq	%rdx, (%rax)
	movq	%rdi, 8(%rax)
	movl	%ecx, 16(%rax)
	movl	%esi, 20(%rax)
	popq	%rbx
	vzeroupper
	retq
.Lfunc_end102:

	.section	.text$119,"xr"
	.globl	dethrux_find_v3
	.p2align	4
dethrux_find_v3:
	pushq	%rbp
	pushq	%r15
	pushq	%r14
	pushq	%r13
	pushq	%r12
	pushq	%rbx
	subq	$264, %rsp
	movq	%r8, %r14
	movq	%rdx, %rbp
	movq	%rsi, %r15
	xorl	%ebx, %ebx
	testq	%rsi, %rsi
	sete	%bl
	shll	$12, %ebx
	leaq	(%rsi,%rbx), %rax
	movq	%rax, 32(%rsp)
	xorl	%esi, %esi
	testq	%rcx, %rcx
	sete	%sil
	shll	$12, %esi
	addq	%rcx, %rsi
	leaq	1(%r8), %rax
	movq	%rax, 88(%rsp)
	cmpl	$1, %edi
	movq	%r8, (%rsp)
	movq	%rsi, 40(%rsp)
	vxorps	%xmm0, %xmm0, %xmm0
	jne	.LBB103_45
	vmovups	%ymm0, 144(%rsp)
	vmovups	%ymm0, 128(%rsp)
	vmovups	%ymm0, 96(%rsp)
	leaq	96(%rsp), %rdi
	movq	%r14, %rdx
	vzeroupper
	callq	L_20
	vmovups	96(%rsp), %ymm0
	vmovups	128(%rsp), %ymm1
	vmovups	144(%rsp), %ymm2
	vmovups	%ymm2, 224(%rsp)
	vmovups	%ymm1, 208(%rsp)
	vmovups	%ymm0, 176(%rsp)
	movq	%rbp, %rax
	negq	%rax
	movq	%rax, 56(%rsp)
	addq	%r14, %rbx
	addq	%rbx, %r15
	movq	%r15, 64(%rsp)
	subq	%rbp, %r14
	movq	%r14, 48(%rsp)
	xorl	%r15d, %r15d
	xorl	%r14d, %r14d
	jmp	.LBB103_3
	.p2align	4
.LBB103_2:
	addq	$32, %r15
	movq	%r12, %r14
	cmpq	%rbp, %r15
	ja	.LBB103_89
.LBB103_3:
	leaq	176(%rsp), %rdi
	movq	32(%rsp), %rbx
	movq	%rbx, %rsi
	movq	%rbp, %rdx
	movq	%r15, %rcx
	vzeroupper
	callq	L_22
	xorl	%ecx, %ecx
	testb	$1, %al
	movl	$0, %r12d
	cmovneq	%rdx, %r12
	cmpb	$1, %al
	jne	.LBB103_91
	movq	%rdx, %r15
	movq	%rbp, %rsi
	subq	%rdx, %rsi
	jbe	.LBB103_10
	testb	$1, %r15b
	jne	.LBB103_19
	cmpq	$2, %r15
	jb	.LBB103_11
	movzbl	-2(%rbx,%r15), %eax
	andb	$-4, %al
	cmpb	$-40, %al
	jne	.LBB103_11
	leaq	2(%r15), %rax
	cmpq	%rbp, %rax
	ja	.LBB103_19
	movzbl	(%rbx,%r15), %eax
	andb	$-4, %al
	cmpb	$-36, %al
	jne	.LBB103_11
	jmp	.LBB103_19
	.p2align	4
.LBB103_10:
	jne	.LBB103_19
.LBB103_11:
	leaq	(%rbx,%r15), %rdi
	movq	40(%rsp), %rdx
	movq	(%rsp), %rcx
	callq	L_25
	testb	%al, %al
	je	.LBB103_19
	movq	(%rsp), %rax
	addq	%r15, %rax
	cmpq	%rax, %rbp
	jbe	.LBB103_18
	testb	$1, %al
	jne	.LBB103_19
	movb	$1, %cl
	cmpq	$2, %rax
	jb	.LBB103_92
	movzbl	-2(%rbx,%rax), %edx
	andb	$-4, %dl
	cmpb	$-40, %dl
	jne	.LBB103_92
	leaq	2(%rax), %rdx
	cmpq	%rbp, %rdx
	ja	.LBB103_19
	movzbl	(%rbx,%rax), %eax
	andb	$-4, %al
	cmpb	$-36, %al
	je	.LBB103_19
	jmp	.LBB103_92
.LBB103_18:
	je	.LBB103_94
	.p2align	4
.LBB103_19:
	movq	%r15, %rcx
	subq	%r14, %rcx
	xorl	%eax, %eax
	movq	%r15, %rdx
	subq	$2, %rdx
	cmovaeq	%rdx, %rax
	leaq	-1(,%rcx,2), %rcx
	cmpq	%rax, %rcx
	jae	.LBB103_26
	cmpq	%rbp, %rax
	jae	.LBB103_25
	cmpq	$2, %r15
	movl	$2, %edx
	cmovbq	%r15, %rdx
	addq	%r15, %rdx
	leaq	(%rbx,%r14,2), %rcx
	subq	%rdx, %rcx
	.p2align	4
.LBB103_22:
	movzbl	(%rbx,%rax), %edx
	cmpb	(%rcx), %dl
	jne	.LBB103_25
	incq	%rax
	incq	%rcx
	cmpq	%rax, %rbp
	jne	.LBB103_22
	movq	%rbp, %rax
.LBB103_25:
	leaq	1(%r12), %rcx
	xorl	%r15d, %r15d
	subq	88(%rsp), %rax
	cmovaeq	%rax, %r15
	cmpq	%rcx, %r15
	cmovbeq	%rcx, %r15
	cmpq	$-33, %r15
	ja	.LBB103_2
	jmp	.LBB103_27
	.p2align	4
.LBB103_26:
	incq	%r15
	cmpq	$-33, %r15
	ja	.LBB103_2
.LBB103_27:
	movq	32(%rsp), %rax
	addq	%r15, %rax
	movq	%rax, 8(%rsp)
	movq	56(%rsp), %rax
	leaq	(%rax,%r15), %rax
	movq	%rax, 80(%rsp)
	movq	64(%rsp), %rax
	addq	%r15, %rax
	movq	%rax, 16(%rsp)
	movq	(%rsp), %rax
	addq	%r15, %rax
	movq	%rax, 24(%rsp)
	movq	48(%rsp), %rax
	addq	%r15, %rax
	movq	%rax, 72(%rsp)
	movq	%rbp, %r14
	subq	%r15, %r14
	xorl	%ebx, %ebx
	jmp	.LBB103_30
	.p2align	4
.LBB103_28:
	movq	80(%rsp), %rax
	addq	%rbx, %rax
	je	.LBB103_36
.LBB103_29:
	incq	%rbx
	decq	%r14
	cmpq	$32, %rbx
	je	.LBB103_2
.LBB103_30:
	leaq	(%r15,%rbx), %r13
	cmpq	%r13, %rbp
	jbe	.LBB103_28
	testb	$1, %r13b
	jne	.LBB103_29
	cmpq	$2, %r13
	jb	.LBB103_36
	movq	8(%rsp), %rax
	movzbl	-2(%rax,%rbx), %eax
	andb	$-4, %al
	cmpb	$-40, %al
	jne	.LBB103_36
	leaq	(%r15,%rbx), %rax
	addq	$2, %rax
	cmpq	%rbp, %rax
	ja	.LBB103_29
	movq	8(%rsp), %rax
	movzbl	(%rax,%rbx), %eax
	andb	$-4, %al
	cmpb	$-36, %al
	je	.LBB103_29
	.p2align	4
.LBB103_36:
	movq	8(%rsp), %rax
	leaq	(%rax,%rbx), %rdi
	movq	%r14, %rsi
	movq	40(%rsp), %rdx
	movq	(%rsp), %rcx
	callq	L_25
	testb	%al, %al
	je	.LBB103_29
	movq	24(%rsp), %rax
	addq	%rbx, %rax
	cmpq	%rax, %rbp
	jbe	.LBB103_43
	testb	$1, %al
	jne	.LBB103_29
	cmpq	$2, %rax
	jb	.LBB103_44
	movq	16(%rsp), %rax
	movzbl	-2(%rax,%rbx), %eax
	andb	$-4, %al
	cmpb	$-40, %al
	jne	.LBB103_44
	movq	24(%rsp), %rax
	addq	%rbx, %rax
	addq	$2, %rax
	cmpq	%rbp, %rax
	ja	.LBB103_29
	movq	16(%rsp), %rax
	movzbl	(%rax,%rbx), %eax
	andb	$-4, %al
	cmpb	$-36, %al
	je	.LBB103_29
	jmp	.LBB103_44
.LBB103_43:
	movq	72(%rsp), %rax
	addq	%rbx, %rax
	jne	.LBB103_29
.LBB103_44:
	movb	$1, %cl
	movq	%r13, %r15
	jmp	.LBB103_92
.LBB103_45:
	vmovups	%ymm0, 144(%rsp)
	vmovups	%ymm0, 128(%rsp)
	vmovups	%ymm0, 96(%rsp)
	leaq	96(%rsp), %rdi
	movq	%r14, %rdx
	vzeroupper
	callq	L_20
	vmovups	96(%rsp), %ymm0
	vmovups	128(%rsp), %ymm1
	vmovups	144(%rsp), %ymm2
	vmovups	%ymm2, 224(%rsp)
	vmovups	%ymm1, 208(%rsp)
	vmovups	%ymm0, 176(%rsp)
	movq	%rbp, %rax
	negq	%rax
	movq	%rax, 64(%rsp)
	addq	%r14, %rbx
	leaq	(%r15,%rbx), %rax
	incq	%rax
	movq	%rax, 56(%rsp)
	subq	%rbp, %r14
	movq	%r14, 48(%rsp)
	xorl	%r15d, %r15d
	xorl	%r14d, %r14d
	jmp	.LBB103_47
	.p2align	4
.LBB103_46:
	addq	$32, %r15
	movq	%r13, %r14
	cmpq	%rbp, %r15
	ja	.LBB103_89
.LBB103_47:
	leaq	176(%rsp), %rdi
	movq	32(%rsp), %rbx
	movq	%rbx, %rsi
	movq	%rbp, %rdx
	movq	%r15, %rcx
	vzeroupper
	callq	L_22
	xorl	%ecx, %ecx
	testb	$1, %al
	movl	$0, %r13d
	cmovneq	%rdx, %r13
	cmpb	$1, %al
	jne	.LBB103_91
	movq	%rdx, %r15
	movq	%rbp, %rsi
	subq	%rdx, %rsi
	jbe	.LBB103_54
	testb	$1, %r15b
	jne	.LBB103_63
	cmpq	$2, %r15
	jb	.LBB103_55
	movzbl	-1(%rbx,%r15), %eax
	andb	$-4, %al
	cmpb	$-40, %al
	jne	.LBB103_55
	leaq	2(%r15), %rax
	cmpq	%rbp, %rax
	ja	.LBB103_63
	movzbl	1(%rbx,%r15), %eax
	andb	$-4, %al
	cmpb	$-36, %al
	jne	.LBB103_55
	jmp	.LBB103_63
	.p2align	4
.LBB103_54:
	jne	.LBB103_63
.LBB103_55:
	leaq	(%rbx,%r15), %rdi
	movq	40(%rsp), %rdx
	movq	(%rsp), %rcx
	callq	L_25
	testb	%al, %al
	je	.LBB103_63
	movq	(%rsp), %rax
	addq	%r15, %rax
	cmpq	%rax, %rbp
	jbe	.LBB103_62
	testb	$1, %al
	jne	.LBB103_63
	movb	$1, %cl
	cmpq	$2, %rax
	jb	.LBB103_92
	movzbl	-1(%rbx,%rax), %edx
	andb	$-4, %dl
	cmpb	$-40, %dl
	jne	.LBB103_92
	leaq	2(%rax), %rdx
	cmpq	%rbp, %rdx
	ja	.LBB103_63
	movzbl	1(%rbx,%rax), %eax
	andb	$-4, %al
	cmpb	$-36, %al
	je	.LBB103_63
	jmp	.LBB103_92
.LBB103_62:
	je	.LBB103_94
	.p2align	4
.LBB103_63:
	movq	%r15, %rcx
	subq	%r14, %rcx
	xorl	%eax, %eax
	movq	%r15, %rdx
	subq	$2, %rdx
	cmovaeq	%rdx, %rax
	leaq	-1(,%rcx,2), %rcx
	cmpq	%rax, %rcx
	jae	.LBB103_70
	cmpq	%rbp, %rax
	jae	.LBB103_69
	cmpq	$2, %r15
	movl	$2, %edx
	cmovbq	%r15, %rdx
	addq	%r15, %rdx
	leaq	(%rbx,%r14,2), %rcx
	subq	%rdx, %rcx
	.p2align	4
.LBB103_66:
	movzbl	(%rbx,%rax), %edx
	cmpb	(%rcx), %dl
	jne	.LBB103_69
	incq	%rax
	incq	%rcx
	cmpq	%rax, %rbp
	jne	.LBB103_66
	movq	%rbp, %rax
.LBB103_69:
	leaq	1(%r13), %rcx
	xorl	%r15d, %r15d
	subq	88(%rsp), %rax
	cmovaeq	%rax, %r15
	cmpq	%rcx, %r15
	cmovbeq	%rcx, %r15
	cmpq	$-33, %r15
	ja	.LBB103_46
	jmp	.LBB103_71
	.p2align	4
.LBB103_70:
	incq	%r15
	cmpq	$-33, %r15
	ja	.LBB103_46
.LBB103_71:
	movq	32(%rsp), %rax
	addq	%r15, %rax
	movq	%rax, 8(%rsp)
	movq	64(%rsp), %rax
	leaq	(%rax,%r15), %rax
	movq	%rax, 80(%rsp)
	movq	56(%rsp), %rax
	addq	%r15, %rax
	movq	%rax, 16(%rsp)
	movq	(%rsp), %rax
	addq	%r15, %rax
	movq	%rax, 24(%rsp)
	movq	48(%rsp), %rax
	addq	%r15, %rax
	movq	%rax, 72(%rsp)
	movq	%rbp, %r14
	subq	%r15, %r14
	xorl	%ebx, %ebx
	jmp	.LBB103_74
	.p2align	4
.LBB103_72:
	movq	80(%rsp), %rax
	addq	%rbx, %rax
	je	.LBB103_80
.LBB103_73:
	incq	%rbx
	decq	%r14
	cmpq	$32, %rbx
	je	.LBB103_46
.LBB103_74:
	leaq	(%r15,%rbx), %r12
	cmpq	%r12, %rbp
	jbe	.LBB103_72
	testb	$1, %r12b
	jne	.LBB103_73
	cmpq	$2, %r12
	jb	.LBB103_80
	movq	8(%rsp), %rax
	movzbl	-1(%rax,%rbx), %eax
	andb	$-4, %al
	cmpb	$-40, %al
	jne	.LBB103_80
	leaq	(%r15,%rbx), %rax
	addq	$2, %rax
	cmpq	%rbp, %rax
	ja	.LBB103_73
	movq	8(%rsp), %rax
	movzbl	1(%rax,%rbx), %eax
	andb	$-4, %al
	cmpb	$-36, %al
	je	.LBB103_73
	.p2align	4
.LBB103_80:
	movq	8(%rsp), %rax
	leaq	(%rax,%rbx), %rdi
	movq	%r14, %rsi
	movq	40(%rsp), %rdx
	movq	(%rsp), %rcx
	callq	L_25
	testb	%al, %al
	je	.LBB103_73
	movq	24(%rsp), %rax
	addq	%rbx, %rax
	cmpq	%rax, %rbp
	jbe	.LBB103_87
	testb	$1, %al
	jne	.LBB103_73
	cmpq	$2, %rax
	jb	.LBB103_88
	movq	16(%rsp), %rax
	movzbl	-2(%rax,%rbx), %eax
	andb	$-4, %al
	cmpb	$-40, %al
	jne	.LBB103_88
	movq	24(%rsp), %rax
	addq	%rbx, %rax
	addq	$2, %rax
	cmpq	%rbp, %rax
	ja	.LBB103_73
	movq	16(%rsp), %rax
	movzbl	(%rax,%rbx), %eax
	andb	$-4, %al
	cmpb	$-36, %al
	je	.LBB103_73
	jmp	.LBB103_88
.LBB103_87:
	movq	72(%rsp), %rax
	addq	%rbx, %rax
	jne	.LBB103_73
.LBB103_88:
	movb	$1, %cl
	movq	%r12, %r15
	jmp	.LBB103_92
.LBB103_91:
	xorl	%r15d, %r15d
	jmp	.LBB103_92
.LBB103_89:
	xorl	%r15d, %r15d
	xorl	%ecx, %ecx
.LBB103_92:
	testb	%cl, %cl
	movq	$-1, %rax
	cmovneq	%r15, %rax
	addq	$264, %rsp
	popq	%rbx
	popq	%r12
	popq	%r13
	popq	%r14
	popq	%r15
	popq	%rbp
	retq
.LBB103_94:
	movb	$1, %cl
	jmp	.LBB103_92
.Lfunc_end103:

	.section	.text$120,"xr"
	.globl	dethrux_rfind_v3
	.p2align	4
dethrux_rfind_v3:
	pushq	%rbp
	pushq	%r15
	pushq	%r14
	pushq	%r13
	pushq	%r12
	pushq	%rbx
	subq	$264, %rsp
	movq	%rsi, %r12
	xorl	%ebx, %ebx
	testq	%rsi, %rsi
	sete	%bl
	shll	$12, %ebx
	leaq	(%rsi,%rbx), %rax
	movq	%rax, (%rsp)
	xorl	%esi, %esi
	testq	%rcx, %rcx
	sete	%sil
	shll	$12, %esi
	addq	%rcx, %rsi
	movq	%rdx, 16(%rsp)
	leaq	1(%rdx), %r13
	cmpl	$1, %edi
	movq	%r8, 8(%rsp)
	movq	%rsi, 48(%rsp)
	vxorps	%xmm0, %xmm0, %xmm0
	jne	.LBB104_44
	vmovups	%ymm0, 144(%rsp)
	vmovups	%ymm0, 128(%rsp)
	vmovups	%ymm0, 96(%rsp)
	leaq	96(%rsp), %rdi
	movq	%r8, %rdx
	movq	%r8, %r14
	vzeroupper
	callq	L_26
	vmovups	128(%rsp), %ymm0
	vmovups	144(%rsp), %ymm1
	vmovups	%ymm1, 224(%rsp)
	vmovups	%ymm0, 208(%rsp)
	vmovups	96(%rsp), %ymm0
	vmovups	%ymm0, 176(%rsp)
	testq	%r13, %r13
	je	.LBB104_88
	leaq	-1(%r14), %rcx
	leaq	(%rbx,%r12), %rax
	incq	%rax
	movq	%rax, 24(%rsp)
	leaq	2(%r14), %rax
	movq	%rax, 56(%rsp)
	movq	16(%rsp), %r8
	movq	%r8, %rax
	notq	%rax
	movq	%rax, 88(%rsp)
	movq	(%rsp), %rax
	addq	%r14, %rax
	addq	$-3, %rax
	movq	%rax, 32(%rsp)
	movq	%rcx, 72(%rsp)
	subq	%r8, %rcx
	movq	%rcx, 40(%rsp)
	leaq	1(%r8), %rax
	movq	%rax, 64(%rsp)
	movq	%r8, %r12
	jmp	.LBB104_4
	.p2align	4
.LBB104_3:
	movq	80(%rsp), %r12
	cmpq	$33, %rbx
	jb	.LBB104_88
.LBB104_4:
	addq	72(%rsp), %r13
	cmpq	%r8, %r13
	cmovaeq	%r8, %r13
	leaq	176(%rsp), %rdi
	movq	(%rsp), %rsi
	movq	%r13, %rdx
	movq	%r8, %r14
	vzeroupper
	callq	L_27
	xorl	%ebp, %ebp
	testb	$1, %al
	movl	$0, %r15d
	cmovneq	%rdx, %r15
	cmpb	$1, %al
	jne	.LBB104_89
	movq	%rdx, %rbx
	movq	%r14, %rsi
	subq	%rdx, %rsi
	movq	%r14, %r8
	jbe	.LBB104_11
	testb	$1, %bl
	movq	8(%rsp), %rcx
	jne	.LBB104_20
	cmpq	$2, %rbx
	jb	.LBB104_12
	movq	(%rsp), %rax
	movzbl	-2(%rax,%rbx), %eax
	andb	$-4, %al
	cmpb	$-40, %al
	jne	.LBB104_12
	leaq	2(%rbx), %rax
	cmpq	%r8, %rax
	ja	.LBB104_20
	movq	(%rsp), %rax
	movzbl	(%rax,%rbx), %eax
	andb	$-4, %al
	cmpb	$-36, %al
	jne	.LBB104_12
	jmp	.LBB104_20
	.p2align	4
.LBB104_11:
	movq	8(%rsp), %rcx
	jne	.LBB104_20
.LBB104_12:
	movq	(%rsp), %rax
	leaq	(%rax,%rbx), %rdi
	movq	48(%rsp), %rdx
	callq	L_25
	movq	16(%rsp), %r8
	movq	8(%rsp), %rcx
	testb	%al, %al
	je	.LBB104_20
	leaq	(%rbx,%rcx), %rsi
	cmpq	%rsi, %r8
	jbe	.LBB104_19
	testb	$1, %sil
	jne	.LBB104_20
	movb	$1, %al
	cmpq	$2, %rsi
	jb	.LBB104_94
	movq	(%rsp), %rdx
	movzbl	-2(%rdx,%rsi), %edx
	andb	$-4, %dl
	cmpb	$-40, %dl
	jne	.LBB104_94
	leaq	2(%rsi), %rdx
	cmpq	%r8, %rdx
	ja	.LBB104_20
	movq	(%rsp), %rdx
	movzbl	(%rdx,%rsi), %edx
	andb	$-4, %dl
	cmpb	$-36, %dl
	je	.LBB104_20
	jmp	.LBB104_94
.LBB104_19:
	je	.LBB104_93
	.p2align	4
.LBB104_20:
	movq	%r12, %rax
	subq	%rbx, %rax
	addq	%rax, %rax
	je	.LBB104_26
	movq	%r8, %rdx
	subq	%rbx, %rdx
	subq	%rcx, %rdx
	xorl	%esi, %esi
	subq	$2, %rdx
	cmovaeq	%rdx, %rsi
	cmpq	%rax, %rsi
	jb	.LBB104_26
	movq	%rbx, %rdi
	negq	%rdi
	movq	24(%rsp), %rdx
	leaq	(%rdx,%r12,2), %rax
	subq	%rbx, %rax
	addq	%rdx, %rbx
	movq	56(%rsp), %r9
	.p2align	4
.LBB104_23:
	movq	%rdi, %rdx
	cmpq	%rdi, %r9
	je	.LBB104_25
	movzbl	(%rbx,%rcx), %esi
	leaq	1(%rdx), %rdi
	decq	%rbx
	cmpb	(%rax,%rcx), %sil
	leaq	-1(%rax), %rax
	je	.LBB104_23
.LBB104_25:
	movq	%rcx, %rbx
	subq	%rdx, %rbx
	addq	$4, %rbx
	cmpq	%r15, %rbx
	cmovaeq	%r15, %rbx
.LBB104_26:
	movq	%r15, 80(%rsp)
	xorl	%r13d, %r13d
	movq	%rbx, %rax
	subq	$32, %rax
	cmovaeq	%rax, %r13
	cmpq	%rbx, %r13
	jae	.LBB104_3
	leaq	1(%rbx), %r14
	movq	64(%rsp), %r12
	subq	%rbx, %r12
	jmp	.LBB104_30
.LBB104_28:
	addq	40(%rsp), %r15
	cmpq	$1, %r15
	je	.LBB104_87
	.p2align	4
.LBB104_29:
	incq	%r12
	cmpq	%rbp, %r13
	jae	.LBB104_3
.LBB104_30:
	movq	%r14, %r15
	decq	%r14
	leaq	-2(%r15), %rbp
	cmpq	%rbp, %r8
	jbe	.LBB104_36
	testb	$1, %bpl
	jne	.LBB104_29
	cmpq	$3, %r14
	jb	.LBB104_37
	movq	24(%rsp), %rax
	movzbl	-5(%rax,%r15), %eax
	andb	$-4, %al
	cmpb	$-40, %al
	jne	.LBB104_37
	cmpq	%r8, %r15
	ja	.LBB104_29
	movq	24(%rsp), %rax
	movzbl	-3(%rax,%r15), %eax
	andb	$-4, %al
	cmpb	$-36, %al
	je	.LBB104_29
	jmp	.LBB104_37
	.p2align	4
.LBB104_36:
	movq	88(%rsp), %rax
	addq	%r15, %rax
	cmpq	$1, %rax
	jne	.LBB104_29
.LBB104_37:
	movq	(%rsp), %rax
	leaq	(%rax,%r15), %rdi
	addq	$-2, %rdi
	movq	%r12, %rsi
	movq	48(%rsp), %rdx
	callq	L_25
	movq	16(%rsp), %r8
	movq	8(%rsp), %rcx
	testb	%al, %al
	je	.LBB104_29
	leaq	(%rcx,%r15), %rax
	addq	$-2, %rax
	cmpq	%rax, %r8
	jbe	.LBB104_28
	testb	$1, %al
	jne	.LBB104_29
	cmpq	$2, %rax
	jb	.LBB104_87
	movq	32(%rsp), %rax
	movzbl	-1(%rax,%r15), %eax
	andb	$-4, %al
	cmpb	$-40, %al
	jne	.LBB104_87
	leaq	(%rcx,%r15), %rax
	cmpq	%r8, %rax
	ja	.LBB104_29
	movq	32(%rsp), %rax
	movzbl	1(%rax,%r15), %eax
	andb	$-4, %al
	cmpb	$-36, %al
	je	.LBB104_29
	jmp	.LBB104_87
.LBB104_44:
	vmovups	%ymm0, 144(%rsp)
	vmovups	%ymm0, 128(%rsp)
	vmovups	%ymm0, 96(%rsp)
	leaq	96(%rsp), %rdi
	movq	%r8, %rdx
	movq	%r8, %r14
	vzeroupper
	callq	L_26
	vmovups	128(%rsp), %ymm0
	vmovups	144(%rsp), %ymm1
	vmovups	%ymm1, 224(%rsp)
	vmovups	%ymm0, 208(%rsp)
	vmovups	96(%rsp), %ymm0
	vmovups	%ymm0, 176(%rsp)
	testq	%r13, %r13
	je	.LBB104_88
	leaq	-1(%r14), %rax
	movq	%rax, 32(%rsp)
	leaq	(%rbx,%r12), %rax
	incq	%rax
	movq	%rax, 64(%rsp)
	leaq	2(%r14), %rax
	movq	%rax, 56(%rsp)
	movq	16(%rsp), %r8
	movq	%r8, %rax
	negq	%rax
	movq	%rax, 88(%rsp)
	movq	(%rsp), %rax
	addq	%r14, %rax
	addq	$-2, %rax
	movq	%rax, 40(%rsp)
	subq	%r8, %r14
	movq	%r14, 80(%rsp)
	leaq	1(%r8), %rax
	movq	%rax, 72(%rsp)
	movq	%r8, %r12
	jmp	.LBB104_47
	.p2align	4
.LBB104_46:
	movq	24(%rsp), %r12
	cmpq	$33, %rbx
	jb	.LBB104_88
.LBB104_47:
	addq	32(%rsp), %r13
	cmpq	%r8, %r13
	cmovaeq	%r8, %r13
	leaq	176(%rsp), %rdi
	movq	(%rsp), %rsi
	movq	%r13, %rdx
	movq	%r8, %r14
	vzeroupper
	callq	L_27
	xorl	%ebp, %ebp
	testb	$1, %al
	movl	$0, %r15d
	cmovneq	%rdx, %r15
	cmpb	$1, %al
	jne	.LBB104_89
	movq	%rdx, %rbx
	movq	%r14, %rsi
	subq	%rdx, %rsi
	movq	%r14, %r8
	jbe	.LBB104_54
	testb	$1, %bl
	movq	8(%rsp), %rcx
	jne	.LBB104_63
	cmpq	$2, %rbx
	jb	.LBB104_55
	movq	(%rsp), %rax
	movzbl	-1(%rax,%rbx), %eax
	andb	$-4, %al
	cmpb	$-40, %al
	jne	.LBB104_55
	leaq	2(%rbx), %rax
	cmpq	%r8, %rax
	ja	.LBB104_63
	movq	(%rsp), %rax
	movzbl	1(%rax,%rbx), %eax
	andb	$-4, %al
	cmpb	$-36, %al
	jne	.LBB104_55
	jmp	.LBB104_63
	.p2align	4
.LBB104_54:
	movq	8(%rsp), %rcx
	jne	.LBB104_63
.LBB104_55:
	movq	(%rsp), %rax
	leaq	(%rax,%rbx), %rdi
	movq	48(%rsp), %rdx
	callq	L_25
	movq	16(%rsp), %r8
	movq	8(%rsp), %rcx
	testb	%al, %al
	je	.LBB104_63
	leaq	(%rbx,%rcx), %rsi
	cmpq	%rsi, %r8
	jbe	.LBB104_62
	testb	$1, %sil
	jne	.LBB104_63
	movb	$1, %al
	cmpq	$2, %rsi
	jb	.LBB104_94
	movq	(%rsp), %rdx
	movzbl	-1(%rdx,%rsi), %edx
	andb	$-4, %dl
	cmpb	$-40, %dl
	jne	.LBB104_94
	leaq	2(%rsi), %rdx
	cmpq	%r8, %rdx
	ja	.LBB104_63
	movq	(%rsp), %rdx
	movzbl	1(%rdx,%rsi), %edx
	andb	$-4, %dl
	cmpb	$-36, %dl
	je	.LBB104_63
	jmp	.LBB104_94
.LBB104_62:
	je	.LBB104_93
	.p2align	4
.LBB104_63:
	movq	%r12, %rax
	subq	%rbx, %rax
	addq	%rax, %rax
	je	.LBB104_69
	movq	%r8, %rdx
	subq	%rbx, %rdx
	subq	%rcx, %rdx
	xorl	%esi, %esi
	subq	$2, %rdx
	cmovaeq	%rdx, %rsi
	cmpq	%rax, %rsi
	jb	.LBB104_69
	movq	%rbx, %rdi
	negq	%rdi
	movq	64(%rsp), %rdx
	leaq	(%rdx,%r12,2), %rax
	subq	%rbx, %rax
	addq	%rdx, %rbx
	movq	56(%rsp), %r9
	.p2align	4
.LBB104_66:
	movq	%rdi, %rdx
	cmpq	%rdi, %r9
	je	.LBB104_68
	movzbl	(%rbx,%rcx), %esi
	leaq	1(%rdx), %rdi
	decq	%rbx
	cmpb	(%rax,%rcx), %sil
	leaq	-1(%rax), %rax
	je	.LBB104_66
.LBB104_68:
	movq	%rcx, %rbx
	subq	%rdx, %rbx
	addq	$4, %rbx
	cmpq	%r15, %rbx
	cmovaeq	%r15, %rbx
.LBB104_69:
	movq	%r15, 24(%rsp)
	xorl	%r13d, %r13d
	movq	%rbx, %rax
	subq	$32, %rax
	cmovaeq	%rax, %r13
	cmpq	%rbx, %r13
	jae	.LBB104_46
	leaq	1(%rbx), %r15
	movq	72(%rsp), %r12
	subq	%rbx, %r12
	jmp	.LBB104_73
.LBB104_71:
	addq	80(%rsp), %r14
	cmpq	$2, %r14
	je	.LBB104_87
	.p2align	4
.LBB104_72:
	incq	%r12
	cmpq	%rbp, %r13
	jae	.LBB104_46
.LBB104_73:
	movq	%r15, %r14
	decq	%r15
	leaq	-2(%r14), %rbp
	cmpq	%rbp, %r8
	jbe	.LBB104_79
	testb	$1, %bpl
	jne	.LBB104_72
	cmpq	$3, %r15
	jb	.LBB104_80
	movq	(%rsp), %rax
	movzbl	-3(%rax,%r14), %eax
	andb	$-4, %al
	cmpb	$-40, %al
	jne	.LBB104_80
	cmpq	%r8, %r14
	ja	.LBB104_72
	movq	(%rsp), %rax
	movzbl	-1(%rax,%r14), %eax
	andb	$-4, %al
	cmpb	$-36, %al
	je	.LBB104_72
	jmp	.LBB104_80
	.p2align	4
.LBB104_79:
	movq	88(%rsp), %rax
	addq	%r14, %rax
	cmpq	$2, %rax
	jne	.LBB104_72
.LBB104_80:
	movq	(%rsp), %rax
	leaq	(%rax,%r14), %rdi
	addq	$-2, %rdi
	movq	%r12, %rsi
	movq	48(%rsp), %rdx
	callq	L_25
	movq	16(%rsp), %r8
	movq	8(%rsp), %rcx
	testb	%al, %al
	je	.LBB104_72
	leaq	(%rcx,%r14), %rax
	addq	$-2, %rax
	cmpq	%rax, %r8
	jbe	.LBB104_71
	testb	$1, %al
	jne	.LBB104_72
	cmpq	$2, %rax
	jb	.LBB104_87
	movq	40(%rsp), %rax
	movzbl	-1(%rax,%r14), %eax
	andb	$-4, %al
	cmpb	$-40, %al
	jne	.LBB104_87
	leaq	(%rcx,%r14), %rax
	cmpq	%r8, %rax
	ja	.LBB104_72
	movq	40(%rsp), %rax
	movzbl	1(%rax,%r14), %eax
	andb	$-4, %al
	cmpb	$-36, %al
	je	.LBB104_72
.LBB104_87:
	movb	$1, %al
	jmp	.LBB104_90
.LBB104_88:
	xorl	%ebp, %ebp
.LBB104_89:
	xorl	%eax, %eax
.LBB104_90:
	testb	%al, %al
	movq	$-1, %rax
	cmovneq	%rbp, %rax
	addq	$264, %rsp
	popq	%rbx
	popq	%r12
	popq	%r13
	popq	%r14
	popq	%r15
	popq	%rbp
	vzeroupper
	retq
.LBB104_93:
	movb	$1, %al
.LBB104_94:
	movq	%rbx, %rbp
	jmp	.LBB104_90
.Lfunc_end104:

	.section	.rdata$003,"dr"
	.p2align	5, 0x0
.LCPI105_0:
	.zero	32,248
.LCPI105_1:
	.zero	32,216
.LCPI105_2:
	.zero	32,252
.LCPI105_3:
	.zero	32,220
.LCPI105_10:
	.short	256
	.short	256
	.short	256
	.short	256
	.short	256
	.short	256
	.short	256
	.short	256
	.short	256
	.short	256
	.short	256
	.short	256
	.short	256
	.short	256
	.short	256
	.short	256
.LCPI105_11:
	.short	128
	.short	128
	.short	128
	.short	128
	.short	128
	.short	128
	.short	128
	.short	128
	.short	128
	.short	128
	.short	128
	.short	128
	.short	128
	.short	128
	.short	128
	.short	128
.LCPI105_12:
	.byte	1
	.byte	0
	.byte	3
	.byte	2
	.byte	5
	.byte	4
	.byte	7
	.byte	6
	.byte	9
	.byte	8
	.byte	11
	.byte	10
	.byte	13
	.byte	12
	.byte	15
	.byte	14
	.byte	1
	.byte	0
	.byte	3
	.byte	2
	.byte	5
	.byte	4
	.byte	7
	.byte	6
	.byte	9
	.byte	8
	.byte	11
	.byte	10
	.byte	13
	.byte	12
	.byte	15
	.byte	14
.LCPI105_13:
	.short	255
	.short	255
	.short	255
	.short	255
	.short	255
	.short	255
	.short	255
	.short	255
	.short	255
	.short	255
	.short	255
	.short	255
	.short	255
	.short	255
	.short	255
	.short	255
	.section	.rdata$000,"dr"
	.p2align	4, 0x0
.LCPI105_4:
	.zero	16,248
.LCPI105_5:
	.zero	16,216
.LCPI105_6:
	.byte	1
	.byte	3
	.byte	5
	.byte	7
	.byte	9
	.byte	11
	.byte	13
	.byte	15
	.zero	1
	.zero	1
	.zero	1
	.zero	1
	.zero	1
	.zero	1
	.zero	1
	.zero	1
.LCPI105_7:
	.byte	1
	.byte	3
	.byte	5
	.byte	7
	.zero	1
	.zero	1
	.zero	1
	.zero	1
	.zero	1
	.zero	1
	.zero	1
	.zero	1
	.zero	1
	.zero	1
	.zero	1
	.zero	1
.LCPI105_8:
	.byte	248
	.byte	248
	.byte	248
	.byte	248
	.zero	1
	.zero	1
	.zero	1
	.zero	1
	.zero	1
	.zero	1
	.zero	1
	.zero	1
	.zero	1
	.zero	1
	.zero	1
	.zero	1
.LCPI105_9:
	.byte	216
	.byte	216
	.byte	216
	.byte	216
	.zero	1
	.zero	1
	.zero	1
	.zero	1
	.zero	1
	.zero	1
	.zero	1
	.zero	1
	.zero	1
	.zero	1
	.zero	1
	.zero	1
.LCPI105_14:
	.byte	0
	.byte	2
	.byte	4
	.byte	6
	.byte	8
	.byte	10
	.byte	12
	.byte	14
	.zero	1
	.zero	1
	.zero	1
	.zero	1
	.zero	1
	.zero	1
	.zero	1
	.zero	1
.LCPI105_15:
	.byte	0
	.byte	2
	.byte	4
	.byte	6
	.zero	1
	.zero	1
	.zero	1
	.zero	1
	.zero	1
	.zero	1
	.zero	1
	.zero	1
	.zero	1
	.zero	1
	.zero	1
	.zero	1
.LCPI105_16:
	.byte	1
	.byte	0
	.byte	3
	.byte	2
	.byte	5
	.byte	4
	.byte	7
	.byte	6
	.byte	9
	.byte	8
	.byte	11
	.byte	10
	.byte	13
	.byte	12
	.byte	15
	.byte	14
	.section	.rdata$001,"dr"
	.p2align	2, 0x0
.LCPI105_17:
	.zero	4,252
.LCPI105_18:
	.zero	4,220
.LCPI105_19:
	.short	256
	.short	256
.LCPI105_20:
	.short	128
	.short	128
	.section	.text$121,"xr"
	.globl	dethrux_inspect_v3
	.p2align	4
dethrux_inspect_v3:
	pushq	%rbp
	movq	%rsp, %rbp
	pushq	%r15
	pushq	%r14
	pushq	%r13
	pushq	%r12
	pushq	%rbx
	andq	$-64, %rsp
	subq	$320, %rsp
	movq	%rcx, %r14
	movq	%rdi, 120(%rsp)
	xorl	%r13d, %r13d
	testq	%rdx, %rdx
	sete	%r13b
	shll	$12, %r13d
	movq	%rdx, 64(%rsp)
	leaq	(%rdx,%r13), %r15
	cmpl	$1, %esi
	jne	.LBB105_11
	testb	$1, %r14b
	jne	.LBB105_24
	vpxor	%xmm4, %xmm4, %xmm4
	xorl	%esi, %esi
	cmpq	$64, %r14
	jb	.LBB105_21
	movq	%r14, %rax
	vpxor	%xmm5, %xmm5, %xmm5
	.p2align	4
.LBB105_4:
	vmovdqu	(%r15,%rsi), %ymm0
	vmovdqu	32(%r15,%rsi), %ymm1
	vbroadcasti128	.LCPI105_16(%rip), %ymm2
	vpshufb	%ymm2, %ymm0, %ymm0
	vpshufb	%ymm2, %ymm1, %ymm1
	vpsrlw	$8, %ymm1, %ymm2
	vpsrlw	$8, %ymm0, %ymm3
	vpackuswb	%ymm2, %ymm3, %ymm2
	vpermq	$216, %ymm2, %ymm2
	vpand	.LCPI105_0(%rip), %ymm2, %ymm2
	vpcmpeqb	.LCPI105_1(%rip), %ymm2, %ymm2
	vpmovmskb	%ymm2, %ecx
	testl	%ecx, %ecx
	jne	.LBB105_6
	vpmaxuw	%ymm0, %ymm4, %ymm4
	vpmaxuw	%ymm1, %ymm5, %ymm5
	addq	$64, %rsi
	addq	$-64, %rax
	cmpq	$63, %rax
	ja	.LBB105_4
.LBB105_6:
	movq	%r14, %rdx
	subq	%rsi, %rdx
	cmpq	$64, %rdx
	jb	.LBB105_22
.LBB105_7:
	xorl	%eax, %eax
	xorl	%r12d, %r12d
	.p2align	4
.LBB105_8:
	vmovdqu	(%r15,%rsi), %ymm0
	vmovdqu	32(%r15,%rsi), %ymm1
	vbroadcasti128	.LCPI105_16(%rip), %ymm2
	vpshufb	%ymm2, %ymm0, %ymm0
	vpshufb	%ymm2, %ymm1, %ymm1
	vpsrlw	$8, %ymm1, %ymm2
	vpsrlw	$8, %ymm0, %ymm3
	vpackuswb	%ymm2, %ymm3, %ymm2
	vpermq	$216, %ymm2, %ymm2
	vpand	.LCPI105_2(%rip), %ymm2, %ymm2
	vpcmpeqb	.LCPI105_1(%rip), %ymm2, %ymm3
	vpmovmskb	%ymm3, %ebx
	vpcmpeqb	.LCPI105_3(%rip), %ymm2, %ymm2
	vpmovmskb	%ymm2, %ecx
	movzbl	%al, %eax
	andl	$1, %eax
	leal	(%rax,%rbx,2), %eax
	cmpl	%ecx, %eax
	jne	.LBB105_24
	shrl	$31, %ebx
	xorl	%eax, %eax
	popcntl	%ecx, %eax
	addq	%rax, %r12
	vpmaxuw	%ymm0, %ymm4, %ymm4
	vpmaxuw	%ymm1, %ymm5, %ymm5
	addq	$64, %rsi
	addq	$-64, %rdx
	movl	%ebx, %eax
	cmpq	$63, %rdx
	ja	.LBB105_8
	vmovdqa	%ymm5, 224(%rsp)
	vmovdqa	%ymm4, 32(%rsp)
	jmp	.LBB105_23
.LBB105_11:
	testb	$1, %r14b
	jne	.LBB105_38
	vpxor	%xmm4, %xmm4, %xmm4
	xorl	%esi, %esi
	cmpq	$64, %r14
	jb	.LBB105_34
	movq	%r14, %rax
	vpxor	%xmm5, %xmm5, %xmm5
	.p2align	4
.LBB105_14:
	vmovdqu	(%r15,%rsi), %ymm0
	vmovdqu	32(%r15,%rsi), %ymm1
	vpsrlw	$8, %ymm1, %ymm2
	vpsrlw	$8, %ymm0, %ymm3
	vpackuswb	%ymm2, %ymm3, %ymm2
	vpermq	$216, %ymm2, %ymm2
	vpand	.LCPI105_0(%rip), %ymm2, %ymm2
	vpcmpeqb	.LCPI105_1(%rip), %ymm2, %ymm2
	vpmovmskb	%ymm2, %ecx
	testl	%ecx, %ecx
	jne	.LBB105_16
	vpmaxuw	%ymm0, %ymm4, %ymm4
	vpmaxuw	%ymm1, %ymm5, %ymm5
	addq	$64, %rsi
	addq	$-64, %rax
	cmpq	$63, %rax
	ja	.LBB105_14
.LBB105_16:
	movq	%r14, %rdx
	subq	%rsi, %rdx
	cmpq	$64, %rdx
	jb	.LBB105_35
.LBB105_17:
	xorl	%eax, %eax
	xorl	%r12d, %r12d
	.p2align	4
.LBB105_18:
	vmovdqu	(%r15,%rsi), %ymm0
	vmovdqu	32(%r15,%rsi), %ymm1
	vpsrlw	$8, %ymm1, %ymm2
	vpsrlw	$8, %ymm0, %ymm3
	vpackuswb	%ymm2, %ymm3, %ymm2
	vpermq	$216, %ymm2, %ymm2
	vpand	.LCPI105_2(%rip), %ymm2, %ymm2
	vpcmpeqb	.LCPI105_1(%rip), %ymm2, %ymm3
	vpmovmskb	%ymm3, %ebx
	vpcmpeqb	.LCPI105_3(%rip), %ymm2, %ymm2
	vpmovmskb	%ymm2, %ecx
	movzbl	%al, %eax
	andl	$1, %eax
	leal	(%rax,%rbx,2), %eax
	cmpl	%ecx, %eax
	jne	.LBB105_38
	shrl	$31, %ebx
	xorl	%eax, %eax
	popcntl	%ecx, %eax
	addq	%rax, %r12
	vpmaxuw	%ymm0, %ymm4, %ymm4
	vpmaxuw	%ymm1, %ymm5, %ymm5
	addq	$64, %rsi
	addq	$-64, %rdx
	movl	%ebx, %eax
	cmpq	$63, %rdx
	ja	.LBB105_18
	vmovdqa	%ymm5, 224(%rsp)
	vmovdqa	%ymm4, 32(%rsp)
	jmp	.LBB105_36
.LBB105_21:
	vpxor	%xmm5, %xmm5, %xmm5
	movq	%r14, %rdx
	subq	%rsi, %rdx
	cmpq	$64, %rdx
	jae	.LBB105_7
.LBB105_22:
	vmovdqa	%ymm5, 224(%rsp)
	vmovdqa	%ymm4, 32(%rsp)
	xorl	%r12d, %r12d
	xorl	%ebx, %ebx
.LBB105_23:
	addq	%r15, %rsi
	vpxor	%xmm0, %xmm0, %xmm0
	vmovdqa	%ymm0, 160(%rsp)
	vmovdqa	%ymm0, 128(%rsp)
	leaq	128(%rsp), %rdi
	vzeroupper
	callq	sysv_memcpy
	vbroadcasti128	.LCPI105_16(%rip), %ymm1
	vmovdqa	128(%rsp), %ymm0
	vmovdqa	160(%rsp), %ymm2
	vpshufb	%ymm1, %ymm0, %ymm0
	vpshufb	%ymm1, %ymm2, %ymm2
	vpsrlw	$8, %ymm2, %ymm1
	vpsrlw	$8, %ymm0, %ymm3
	vpackuswb	%ymm1, %ymm3, %ymm1
	vpermq	$216, %ymm1, %ymm1
	vpand	.LCPI105_2(%rip), %ymm1, %ymm1
	vpcmpeqb	.LCPI105_1(%rip), %ymm1, %ymm3
	vpcmpeqb	.LCPI105_3(%rip), %ymm1, %ymm1
	vpmovmskb	%ymm3, %ecx
	vpmovmskb	%ymm1, %eax
	leal	(%rbx,%rcx,2), %ecx
	cmpl	%eax, %ecx
	vmovdqa	32(%rsp), %ymm1
	vmovdqa	224(%rsp), %ymm3
	je	.LBB105_37
.LBB105_24:
	cmpq	$2, %r14
	jne	.LBB105_27
	movzbl	(%r15), %eax
	andb	$-8, %al
	cmpb	$-40, %al
	je	.LBB105_76
	vpxor	%xmm0, %xmm0, %xmm0
	vmovdqa	%ymm0, 64(%rsp)
	movl	$2, %r14d
	xorl	%ebx, %ebx
	xorl	%r12d, %r12d
	xorl	%r13d, %r13d
	vmovdqa	%ymm0, 32(%rsp)
	xorl	%eax, %eax
	movl	$2, %edx
	jmp	.LBB105_102
.LBB105_27:
	cmpq	$7, %r14
	ja	.LBB105_48
	testq	%r14, %r14
	je	.LBB105_64
	cmpq	$6, %r14
	je	.LBB105_56
	cmpq	$4, %r14
	jne	.LBB105_76
	movzbl	(%r15), %eax
	andb	$-8, %al
	cmpb	$-40, %al
	je	.LBB105_76
	movzbl	2(%r15), %eax
	andb	$-8, %al
	cmpb	$-40, %al
	je	.LBB105_76
	xorl	%ebx, %ebx
	vpxor	%xmm0, %xmm0, %xmm0
	vmovdqa	%ymm0, 64(%rsp)
	movl	$4, %r14d
	xorl	%r12d, %r12d
	xorl	%r13d, %r13d
	vmovdqa	%ymm0, 32(%rsp)
	xorl	%eax, %eax
	movl	$4, %edx
	jmp	.LBB105_102
.LBB105_34:
	vpxor	%xmm5, %xmm5, %xmm5
	movq	%r14, %rdx
	subq	%rsi, %rdx
	cmpq	$64, %rdx
	jae	.LBB105_17
.LBB105_35:
	vmovdqa	%ymm5, 224(%rsp)
	vmovdqa	%ymm4, 32(%rsp)
	xorl	%r12d, %r12d
	xorl	%ebx, %ebx
.LBB105_36:
	addq	%r15, %rsi
	vpxor	%xmm0, %xmm0, %xmm0
	vmovdqa	%ymm0, 160(%rsp)
	vmovdqa	%ymm0, 128(%rsp)
	leaq	128(%rsp), %rdi
	vzeroupper
	callq	sysv_memcpy
	vmovdqa	128(%rsp), %ymm0
	vmovdqa	160(%rsp), %ymm2
	vpsrlw	$8, %ymm2, %ymm1
	vpsrlw	$8, %ymm0, %ymm3
	vpackuswb	%ymm1, %ymm3, %ymm1
	vpermq	$216, %ymm1, %ymm1
	vpand	.LCPI105_2(%rip), %ymm1, %ymm1
	vpcmpeqb	.LCPI105_1(%rip), %ymm1, %ymm3
	vpcmpeqb	.LCPI105_3(%rip), %ymm1, %ymm1
	vpmovmskb	%ymm3, %ecx
	vpmovmskb	%ymm1, %eax
	leal	(%rbx,%rcx,2), %ecx
	cmpl	%eax, %ecx
	vmovdqa	32(%rsp), %ymm1
	vmovdqa	224(%rsp), %ymm3
	jne	.LBB105_38
.LBB105_37:
	xorl	%ecx, %ecx
	popcntl	%eax, %ecx
	addq	%r12, %rcx
	vpmaxuw	%ymm0, %ymm1, %ymm1
	vpmaxuw	%ymm2, %ymm3, %ymm0
	xorl	%r12d, %r12d
	xorl	%ebx, %ebx
	movl	$3, %edi
	testq	%rcx, %rcx
	jne	.LBB105_111
	jmp	.LBB105_109
.LBB105_38:
	cmpq	$2, %r14
	jne	.LBB105_41
	movzbl	1(%r15), %eax
	andb	$-8, %al
	cmpb	$-40, %al
	je	.LBB105_88
	vpxor	%xmm0, %xmm0, %xmm0
	vmovdqa	%ymm0, 64(%rsp)
	movl	$2, %r14d
	xorl	%ebx, %ebx
	xorl	%r12d, %r12d
	xorl	%r13d, %r13d
	vmovdqa	%ymm0, 32(%rsp)
	xorl	%eax, %eax
	movl	$2, %edx
	jmp	.LBB105_107
.LBB105_41:
	cmpq	$7, %r14
	ja	.LBB105_52
	testq	%r14, %r14
	je	.LBB105_65
	cmpq	$6, %r14
	je	.LBB105_60
	cmpq	$4, %r14
	jne	.LBB105_88
	movzbl	1(%r15), %eax
	andb	$-8, %al
	cmpb	$-40, %al
	je	.LBB105_88
	movzbl	3(%r15), %eax
	andb	$-8, %al
	cmpb	$-40, %al
	je	.LBB105_88
	xorl	%ebx, %ebx
	vpxor	%xmm0, %xmm0, %xmm0
	vmovdqa	%ymm0, 64(%rsp)
	movl	$4, %r14d
	xorl	%r12d, %r12d
	xorl	%r13d, %r13d
	vmovdqa	%ymm0, 32(%rsp)
	xorl	%eax, %eax
	movl	$4, %edx
	jmp	.LBB105_107
.LBB105_48:
	cmpq	$65, %r14
	setae	%al
	orb	%r14b, %al
	testb	$1, %al
	jne	.LBB105_76
	cmpq	$15, %r14
	ja	.LBB105_66
	vmovq	(%r15), %xmm0
	vpshufb	.LCPI105_15(%rip), %xmm0, %xmm0
	vpand	.LCPI105_8(%rip), %xmm0, %xmm0
	vpcmpeqb	.LCPI105_9(%rip), %xmm0, %xmm0
	vpmovsxbd	%xmm0, %xmm0
	vtestps	%xmm0, %xmm0
	jne	.LBB105_76
	vmovq	-8(%r15,%r14), %xmm0
	vpshufb	.LCPI105_15(%rip), %xmm0, %xmm0
	vpand	.LCPI105_8(%rip), %xmm0, %xmm0
	vpcmpeqb	.LCPI105_9(%rip), %xmm0, %xmm0
	vpmovsxbd	%xmm0, %xmm0
	vtestps	%xmm0, %xmm0
	jne	.LBB105_76
	jmp	.LBB105_69
.LBB105_52:
	cmpq	$65, %r14
	setae	%al
	orb	%r14b, %al
	testb	$1, %al
	jne	.LBB105_88
	cmpq	$15, %r14
	ja	.LBB105_70
	vmovq	(%r15), %xmm0
	vpshufb	.LCPI105_7(%rip), %xmm0, %xmm0
	vpand	.LCPI105_8(%rip), %xmm0, %xmm0
	vpcmpeqb	.LCPI105_9(%rip), %xmm0, %xmm0
	vpmovsxbd	%xmm0, %xmm0
	vtestps	%xmm0, %xmm0
	jne	.LBB105_88
	vmovq	-8(%r15,%r14), %xmm0
	vpshufb	.LCPI105_7(%rip), %xmm0, %xmm0
	vpand	.LCPI105_8(%rip), %xmm0, %xmm0
	vpcmpeqb	.LCPI105_9(%rip), %xmm0, %xmm0
	vpmovsxbd	%xmm0, %xmm0
	vtestps	%xmm0, %xmm0
	jne	.LBB105_88
	jmp	.LBB105_73
.LBB105_56:
	movzbl	(%r15), %eax
	andb	$-8, %al
	cmpb	$-40, %al
	je	.LBB105_76
	movzbl	2(%r15), %eax
	andb	$-8, %al
	cmpb	$-40, %al
	je	.LBB105_76
	movzbl	4(%r15), %eax
	andb	$-8, %al
	cmpb	$-40, %al
	je	.LBB105_76
	xorl	%ebx, %ebx
	vpxor	%xmm0, %xmm0, %xmm0
	vmovdqa	%ymm0, 64(%rsp)
	movl	$6, %r14d
	xorl	%r12d, %r12d
	xorl	%r13d, %r13d
	vmovdqa	%ymm0, 32(%rsp)
	xorl	%eax, %eax
	movl	$6, %edx
	jmp	.LBB105_102
.LBB105_60:
	movzbl	1(%r15), %eax
	andb	$-8, %al
	cmpb	$-40, %al
	je	.LBB105_88
	movzbl	3(%r15), %eax
	andb	$-8, %al
	cmpb	$-40, %al
	je	.LBB105_88
	movzbl	5(%r15), %eax
	andb	$-8, %al
	cmpb	$-40, %al
	je	.LBB105_88
	xorl	%ebx, %ebx
	vpxor	%xmm0, %xmm0, %xmm0
	vmovdqa	%ymm0, 64(%rsp)
	movl	$6, %r14d
	xorl	%r12d, %r12d
	xorl	%r13d, %r13d
	vmovdqa	%ymm0, 32(%rsp)
	xorl	%eax, %eax
	movl	$6, %edx
	jmp	.LBB105_107
.LBB105_64:
	vpxor	%xmm0, %xmm0, %xmm0
	vmovdqa	%ymm0, 64(%rsp)
	xorl	%ebx, %ebx
	xorl	%r12d, %r12d
	movq	%r14, %r13
	vmovdqa	%ymm0, 32(%rsp)
	movq	%r14, %rax
	jmp	.LBB105_101
.LBB105_65:
	vpxor	%xmm0, %xmm0, %xmm0
	vmovdqa	%ymm0, 64(%rsp)
	xorl	%ebx, %ebx
	xorl	%r12d, %r12d
	movq	%r14, %r13
	vmovdqa	%ymm0, 32(%rsp)
	movq	%r14, %rax
	jmp	.LBB105_106
.LBB105_66:
	cmpq	$31, %r14
	ja	.LBB105_74
	vmovdqu	(%r15), %xmm0
	vpshufb	.LCPI105_14(%rip), %xmm0, %xmm0
	vpand	.LCPI105_4(%rip), %xmm0, %xmm0
	vpcmpeqb	.LCPI105_5(%rip), %xmm0, %xmm0
	vpmovmskb	%xmm0, %eax
	testb	%al, %al
	jne	.LBB105_76
	vmovdqu	-16(%r15,%r14), %xmm0
	vpshufb	.LCPI105_14(%rip), %xmm0, %xmm0
	vpand	.LCPI105_4(%rip), %xmm0, %xmm0
	vpcmpeqb	.LCPI105_5(%rip), %xmm0, %xmm0
	vpmovmskb	%xmm0, %eax
	testb	%al, %al
	jne	.LBB105_76
.LBB105_69:
	vpxor	%xmm0, %xmm0, %xmm0
	vmovdqa	%ymm0, 64(%rsp)
	xorl	%ebx, %ebx
	xorl	%r12d, %r12d
	jmp	.LBB105_100
.LBB105_70:
	cmpq	$31, %r14
	ja	.LBB105_86
	vmovdqu	(%r15), %xmm0
	vpshufb	.LCPI105_6(%rip), %xmm0, %xmm0
	vpand	.LCPI105_4(%rip), %xmm0, %xmm0
	vpcmpeqb	.LCPI105_5(%rip), %xmm0, %xmm0
	vpmovmskb	%xmm0, %eax
	testb	%al, %al
	jne	.LBB105_88
	vmovdqu	-16(%r15,%r14), %xmm0
	vpshufb	.LCPI105_6(%rip), %xmm0, %xmm0
	vpand	.LCPI105_4(%rip), %xmm0, %xmm0
	vpcmpeqb	.LCPI105_5(%rip), %xmm0, %xmm0
	vpmovmskb	%xmm0, %eax
	testb	%al, %al
	jne	.LBB105_88
.LBB105_73:
	vpxor	%xmm0, %xmm0, %xmm0
	vmovdqa	%ymm0, 64(%rsp)
	xorl	%ebx, %ebx
	xorl	%r12d, %r12d
	jmp	.LBB105_105
.LBB105_74:
	vmovdqu	(%r15), %ymm0
	vpand	.LCPI105_13(%rip), %ymm0, %ymm0
	vextracti128	$1, %ymm0, %xmm1
	vpackuswb	%xmm1, %xmm0, %xmm0
	vpand	.LCPI105_4(%rip), %xmm0, %xmm0
	vpcmpeqb	.LCPI105_5(%rip), %xmm0, %xmm0
	vpmovmskb	%xmm0, %eax
	testl	%eax, %eax
	jne	.LBB105_76
	vmovdqu	-32(%r15,%r14), %ymm0
	vpand	.LCPI105_13(%rip), %ymm0, %ymm0
	vextracti128	$1, %ymm0, %xmm1
	vpackuswb	%xmm1, %xmm0, %xmm0
	vpand	.LCPI105_4(%rip), %xmm0, %xmm0
	vpcmpeqb	.LCPI105_5(%rip), %xmm0, %xmm0
	vpmovmskb	%xmm0, %eax
	testl	%eax, %eax
	je	.LBB105_98
.LBB105_76:
	movq	%r15, %rdi
	movq	%r14, %rsi
	vzeroupper
	callq	L_9
	xorl	%r12d, %r12d
	movq	%r14, %rsi
	movl	$0, %ebx
	subq	%rax, %rsi
	je	.LBB105_78
	movq	%rax, %rdi
	addq	%r15, %rdi
	movq	%rax, %r14
	callq	L_10
	cmpb	$1, %al
	sete	%al
	movzbl	%dl, %ecx
	cmovel	%ecx, %r12d
	movl	%r12d, %ebx
	movb	$2, %cl
	subb	%al, %cl
	movl	%ecx, %r12d
.LBB105_78:
	cmpq	$64, %r14
	jb	.LBB105_99
.LBB105_79:
	leaq	-64(%r14), %rcx
	shrq	$6, %rcx
	je	.LBB105_83
	incq	%rcx
	movq	%rcx, %rdx
	andq	$-2, %rdx
	movq	64(%rsp), %rax
	leaq	(%rax,%r13), %rsi
	addq	$64, %rsi
	vpxor	%xmm8, %xmm8, %xmm8
	xorl	%eax, %eax
	vpxor	%xmm9, %xmm9, %xmm9
	xorl	%r13d, %r13d
	.p2align	4
.LBB105_81:
	vbroadcasti128	.LCPI105_16(%rip), %ymm0
	vmovdqu	-64(%rsi,%rax), %ymm1
	vmovdqu	-32(%rsi,%rax), %ymm2
	vmovdqu	(%rsi,%rax), %ymm3
	vmovdqu	32(%rsi,%rax), %ymm4
	vpshufb	%ymm0, %ymm1, %ymm1
	vpshufb	%ymm0, %ymm2, %ymm2
	vpsrlw	$8, %ymm2, %ymm5
	vpsrlw	$8, %ymm1, %ymm6
	vpackuswb	%ymm5, %ymm6, %ymm5
	vpermq	$216, %ymm5, %ymm5
	vpbroadcastd	.LCPI105_17(%rip), %ymm6
	vpand	%ymm6, %ymm5, %ymm5
	vpbroadcastd	.LCPI105_18(%rip), %ymm7
	vpcmpeqb	%ymm7, %ymm5, %ymm5
	vpmovmskb	%ymm5, %edi
	popcntl	%edi, %edi
	addq	%r13, %rdi
	vpmaxuw	%ymm1, %ymm8, %ymm1
	vpmaxuw	%ymm2, %ymm9, %ymm2
	vpshufb	%ymm0, %ymm3, %ymm3
	vpshufb	%ymm0, %ymm4, %ymm0
	vpsrlw	$8, %ymm0, %ymm4
	vpsrlw	$8, %ymm3, %ymm5
	vpackuswb	%ymm4, %ymm5, %ymm4
	vpermq	$216, %ymm4, %ymm4
	vpand	%ymm6, %ymm4, %ymm4
	vpcmpeqb	%ymm7, %ymm4, %ymm4
	vpmovmskb	%ymm4, %r8d
	xorl	%r13d, %r13d
	popcntl	%r8d, %r13d
	addq	%rdi, %r13
	vpmaxuw	%ymm0, %ymm2, %ymm9
	vpmaxuw	%ymm3, %ymm1, %ymm8
	subq	$-128, %rax
	addq	$-2, %rdx
	jne	.LBB105_81
	testb	$1, %cl
	jne	.LBB105_84
	jmp	.LBB105_85
.LBB105_83:
	vpxor	%xmm8, %xmm8, %xmm8
	xorl	%eax, %eax
	vpxor	%xmm9, %xmm9, %xmm9
	xorl	%r13d, %r13d
.LBB105_84:
	movq	%r13, %rcx
	vmovdqu	(%r15,%rax), %ymm0
	vmovdqu	32(%r15,%rax), %ymm1
	vbroadcasti128	.LCPI105_16(%rip), %ymm2
	vpshufb	%ymm2, %ymm0, %ymm0
	vpshufb	%ymm2, %ymm1, %ymm1
	vpsrlw	$8, %ymm1, %ymm2
	vpsrlw	$8, %ymm0, %ymm3
	vpackuswb	%ymm2, %ymm3, %ymm2
	vpermq	$216, %ymm2, %ymm2
	vpand	.LCPI105_2(%rip), %ymm2, %ymm2
	vpcmpeqb	.LCPI105_3(%rip), %ymm2, %ymm2
	vpmovmskb	%ymm2, %edx
	xorl	%r13d, %r13d
	popcntl	%edx, %r13d
	addq	%rcx, %r13
	vpmaxuw	%ymm1, %ymm9, %ymm9
	vpmaxuw	%ymm0, %ymm8, %ymm8
	addq	$64, %rax
.LBB105_85:
	vmovdqa	%ymm9, 32(%rsp)
	vmovdqa	%ymm8, 64(%rsp)
	movq	%r14, %rdx
	subq	%rax, %rdx
	jmp	.LBB105_102
.LBB105_86:
	vmovdqu	(%r15), %ymm0
	vpsrlw	$8, %ymm0, %ymm0
	vextracti128	$1, %ymm0, %xmm1
	vpackuswb	%xmm1, %xmm0, %xmm0
	vpand	.LCPI105_4(%rip), %xmm0, %xmm0
	vpcmpeqb	.LCPI105_5(%rip), %xmm0, %xmm0
	vpmovmskb	%xmm0, %eax
	testl	%eax, %eax
	jne	.LBB105_88
	vmovdqu	-32(%r15,%r14), %ymm0
	vpsrlw	$8, %ymm0, %ymm0
	vextracti128	$1, %ymm0, %xmm1
	vpackuswb	%xmm1, %xmm0, %xmm0
	vpand	.LCPI105_4(%rip), %xmm0, %xmm0
	vpcmpeqb	.LCPI105_5(%rip), %xmm0, %xmm0
	vpmovmskb	%xmm0, %eax
	testl	%eax, %eax
	je	.LBB105_103
.LBB105_88:
	movq	%r15, %rdi
	movq	%r14, %rsi
	vzeroupper
	callq	L_12
	xorl	%r12d, %r12d
	movq	%r14, %rsi
	movl	$0, %ebx
	subq	%rax, %rsi
	je	.LBB105_90
	movq	%rax, %rdi
	addq	%r15, %rdi
	movq	%rax, %r14
	callq	L_13
	cmpb	$1, %al
	sete	%al
	movzbl	%dl, %ecx
	cmovel	%ecx, %r12d
	movl	%r12d, %ebx
	movb	$2, %cl
	subb	%al, %cl
	movl	%ecx, %r12d
.LBB105_90:
	cmpq	$64, %r14
	jb	.LBB105_104
.LBB105_91:
	leaq	-64(%r14), %rcx
	shrq	$6, %rcx
	je	.LBB105_95
	incq	%rcx
	movq	%rcx, %rdx
	andq	$-2, %rdx
	movq	64(%rsp), %rax
	leaq	(%rax,%r13), %rsi
	addq	$64, %rsi
	vpxor	%xmm7, %xmm7, %xmm7
	xorl	%eax, %eax
	vpxor	%xmm8, %xmm8, %xmm8
	xorl	%r13d, %r13d
	.p2align	4
.LBB105_93:
	vmovdqu	-64(%rsi,%rax), %ymm0
	vmovdqu	-32(%rsi,%rax), %ymm1
	vmovdqu	(%rsi,%rax), %ymm2
	vmovdqu	32(%rsi,%rax), %ymm3
	vpsrlw	$8, %ymm1, %ymm4
	vpsrlw	$8, %ymm0, %ymm5
	vpackuswb	%ymm4, %ymm5, %ymm4
	vpermq	$216, %ymm4, %ymm4
	vpbroadcastd	.LCPI105_17(%rip), %ymm5
	vpand	%ymm5, %ymm4, %ymm4
	vpbroadcastd	.LCPI105_18(%rip), %ymm6
	vpcmpeqb	%ymm6, %ymm4, %ymm4
	vpmovmskb	%ymm4, %edi
	popcntl	%edi, %edi
	addq	%r13, %rdi
	vpmaxuw	%ymm0, %ymm7, %ymm0
	vpmaxuw	%ymm1, %ymm8, %ymm1
	vpsrlw	$8, %ymm3, %ymm4
	vpsrlw	$8, %ymm2, %ymm7
	vpackuswb	%ymm4, %ymm7, %ymm4
	vpermq	$216, %ymm4, %ymm4
	vpand	%ymm5, %ymm4, %ymm4
	vpcmpeqb	%ymm6, %ymm4, %ymm4
	vpmovmskb	%ymm4, %r8d
	xorl	%r13d, %r13d
	popcntl	%r8d, %r13d
	addq	%rdi, %r13
	vpmaxuw	%ymm3, %ymm1, %ymm8
	vpmaxuw	%ymm2, %ymm0, %ymm7
	subq	$-128, %rax
	addq	$-2, %rdx
	jne	.LBB105_93
	testb	$1, %cl
	jne	.LBB105_96
	jmp	.LBB105_97
.LBB105_95:
	vpxor	%xmm7, %xmm7, %xmm7
	xorl	%eax, %eax
	vpxor	%xmm8, %xmm8, %xmm8
	xorl	%r13d, %r13d
.LBB105_96:
	movq	%r13, %rcx
	vmovdqu	(%r15,%rax), %ymm0
	vmovdqu	32(%r15,%rax), %ymm1
	vpsrlw	$8, %ymm1, %ymm2
	vpsrlw	$8, %ymm0, %ymm3
	vpackuswb	%ymm2, %ymm3, %ymm2
	vpermq	$216, %ymm2, %ymm2
	vpand	.LCPI105_2(%rip), %ymm2, %ymm2
	vpcmpeqb	.LCPI105_3(%rip), %ymm2, %ymm2
	vpmovmskb	%ymm2, %edx
	xorl	%r13d, %r13d
	popcntl	%edx, %r13d
	addq	%rcx, %r13
	vpmaxuw	%ymm1, %ymm8, %ymm8
	vpmaxuw	%ymm0, %ymm7, %ymm7
	addq	$64, %rax
.LBB105_97:
	vmovdqa	%ymm8, 32(%rsp)
	vmovdqa	%ymm7, 64(%rsp)
	movq	%r14, %rdx
	subq	%rax, %rdx
	jmp	.LBB105_107
.LBB105_98:
	xorl	%r12d, %r12d
	xorl	%ebx, %ebx
	cmpq	$64, %r14
	jae	.LBB105_79
.LBB105_99:
	vpxor	%xmm0, %xmm0, %xmm0
	vmovdqa	%ymm0, 64(%rsp)
.LBB105_100:
	xorl	%r13d, %r13d
	vmovdqa	%ymm0, 32(%rsp)
	xorl	%eax, %eax
.LBB105_101:
	movq	%r14, %rdx
.LBB105_102:
	addq	%rax, %r15
	vpxor	%xmm0, %xmm0, %xmm0
	vmovdqa	%ymm0, 160(%rsp)
	vmovdqa	%ymm0, 128(%rsp)
	leaq	128(%rsp), %rdi
	movq	%r15, %rsi
	vzeroupper
	callq	sysv_memcpy
	vbroadcasti128	.LCPI105_16(%rip), %ymm0
	vmovdqa	128(%rsp), %ymm1
	vmovdqa	160(%rsp), %ymm2
	vpshufb	%ymm0, %ymm1, %ymm1
	vpshufb	%ymm0, %ymm2, %ymm0
	jmp	.LBB105_108
.LBB105_103:
	xorl	%r12d, %r12d
	xorl	%ebx, %ebx
	cmpq	$64, %r14
	jae	.LBB105_91
.LBB105_104:
	vpxor	%xmm0, %xmm0, %xmm0
	vmovdqa	%ymm0, 64(%rsp)
.LBB105_105:
	xorl	%r13d, %r13d
	vmovdqa	%ymm0, 32(%rsp)
	xorl	%eax, %eax
.LBB105_106:
	movq	%r14, %rdx
.LBB105_107:
	addq	%rax, %r15
	vpxor	%xmm0, %xmm0, %xmm0
	vmovdqa	%ymm0, 160(%rsp)
	vmovdqa	%ymm0, 128(%rsp)
	leaq	128(%rsp), %rdi
	movq	%r15, %rsi
	vzeroupper
	callq	sysv_memcpy
	vmovdqa	128(%rsp), %ymm1
	vmovdqa	160(%rsp), %ymm0
.LBB105_108:
	vpsrlw	$8, %ymm0, %ymm2
	vpsrlw	$8, %ymm1, %ymm3
	vpackuswb	%ymm2, %ymm3, %ymm2
	vpermq	$216, %ymm2, %ymm2
	vpand	.LCPI105_2(%rip), %ymm2, %ymm2
	vpcmpeqb	.LCPI105_3(%rip), %ymm2, %ymm2
	vpmovmskb	%ymm2, %eax
	xorl	%ecx, %ecx
	popcntl	%eax, %ecx
	addq	%r13, %rcx
	vpmaxuw	32(%rsp), %ymm0, %ymm0
	vpmaxuw	64(%rsp), %ymm1, %ymm1
	movl	$3, %edi
	testq	%rcx, %rcx
	jne	.LBB105_111
.LBB105_109:
	vpbroadcastd	.LCPI105_19(%rip), %ymm2
	vpmaxuw	%ymm2, %ymm1, %ymm3
	vpcmpeqw	%ymm3, %ymm1, %ymm3
	vpmaxuw	%ymm2, %ymm0, %ymm2
	vpcmpeqw	%ymm2, %ymm0, %ymm2
	vpacksswb	%ymm2, %ymm3, %ymm2
	vpmovmskb	%ymm2, %edx
	movl	$2, %edi
	testl	%edx, %edx
	jne	.LBB105_111
	vpbroadcastd	.LCPI105_20(%rip), %ymm2
	vpmaxuw	%ymm2, %ymm1, %ymm3
	vpcmpeqw	%ymm3, %ymm1, %ymm1
	vpmaxuw	%ymm2, %ymm0, %ymm2
	vpcmpeqw	%ymm2, %ymm0, %ymm0
	vpacksswb	%ymm0, %ymm1, %ymm0
	vpmovmskb	%ymm0, %edx
	xorl	%edi, %edi
	testl	%edx, %edx
	setne	%dil
.LBB105_111:
	movq	%r14, %rdx
	shrq	%rdx
	subq	%rcx, %rdx
	movzbl	%r12b, %ecx
	testb	%cl, %cl
	je	.LBB105_114
	cmpl	$2, %ecx
	movq	120(%rsp), %rax
	jne	.LBB105_115
	xorl	%esi, %esi
	movl	$2, %ecx
	jmp	.LBB105_116
.LBB105_114:
	movl	%ecx, %esi
	movq	120(%rsp), %rax
	jmp	.LBB105_116
.LBB105_115:
	movzbl	%bl, %esi
	movl	$1, %ecx
.LBB105_116:
	movq	%r14, (%rax)
	movq	%rdx, 8(%rax)
	movl	%edi, 16(%rax)
	movl	%ecx, 20(%rax)
	movl	%esi, 24(%rax)
	movl	$0, 28(%rax)
	leaq	-40(%rbp), %rsp
	popq	%rbx
	popq	%r12
	popq	%r13
	popq	%r14
	popq	%r15
	popq	%rbp
	vzeroupper
	retq
.Lfunc_end105:

	.section	.rdata$000,"dr"
	.p2align	4, 0x0
.LCPI106_0:
	.short	128
	.short	128
	.short	128
	.short	128
	.short	128
	.short	128
	.short	128
	.short	128
.LCPI106_1:
	.byte	1
	.byte	0
	.byte	3
	.byte	2
	.byte	5
	.byte	4
	.byte	7
	.byte	6
	.byte	9
	.byte	8
	.byte	11
	.byte	10
	.byte	13
	.byte	12
	.byte	15
	.byte	14
	.section	.text$122,"xr"
	.globl	dethrux_decoder_feed_v3
	.p2align	4
dethrux_decoder_feed_v3:
	pushq	%rbp
	pushq	%r15
	pushq	%r14
	pushq	%r13
	pushq	%r12
	pushq	%rbx
	subq	$200, %rsp
	movq	%r8, 136(%rsp)
	movq	%rdi, 184(%rsp)
	movq	256(%rsp), %rax
	movq	%rax, 152(%rsp)
	xorl	%ebx, %ebx
	testq	%rcx, %rcx
	sete	%bl
	shll	$12, %ebx
	movq	%rcx, 144(%rsp)
	leaq	(%rcx,%rbx), %rax
	movq	%rax, 192(%rsp)
	xorl	%eax, %eax
	testq	%r9, %r9
	sete	%al
	shll	$12, %eax
	addq	%r9, %rax
	movq	%rax, 112(%rsp)
	cmpl	$1, %edx
	movq	%rsi, 176(%rsp)
	jne	.LBB106_42
	movl	$0, 100(%rsp)
	movl	(%rsi), %eax
	movl	%eax, 44(%rsp)
	shrl	$24, %eax
	cmpb	$3, %al
	movl	$3, %r12d
	cmovbl	%eax, %r12d
	testl	%eax, %eax
	movq	%r12, 56(%rsp)
	je	.LBB106_88
	xorl	%edi, %edi
	xorl	%r15d, %r15d
	movq	%rbx, 160(%rsp)
.LBB106_3:
	leaq	(%rsp,%rdi), %rsi
	addq	$44, %rsi
	movq	%rdi, 72(%rsp)
	subq	%rdi, %r12
	movl	$4, %r14d
	subq	%r12, %r14
	movq	136(%rsp), %rax
	cmpq	%rax, %r14
	cmovaeq	%rax, %r14
	movl	$0, 16(%rsp)
	leaq	16(%rsp), %rdi
	movq	%r12, %rdx
	callq	sysv_memcpy
	leaq	(%rsp,%r12), %rdi
	addq	$16, %rdi
	movq	144(%rsp), %rax
	leaq	(%rax,%rbx), %rsi
	movq	%r14, %rdx
	callq	sysv_memcpy
	movq	%r14, 168(%rsp)
	addq	%r14, %r12
	movq	%r12, 104(%rsp)
	movl	16(%rsp), %eax
	movl	%eax, 68(%rsp)
	movq	112(%rsp), %rax
	addq	%r15, %rax
	movq	%rax, 88(%rsp)
	movq	256(%rsp), %rax
	movq	%r15, 80(%rsp)
	subq	%r15, %rax
	movq	%rax, 48(%rsp)
	xorl	%ebp, %ebp
	xorl	%r14d, %r14d
	jmp	.LBB106_6
	.p2align	4
.LBB106_4:
	movq	%r12, %rdi
	movq	%r13, %rsi
	movq	%rbx, %rdx
	movq	%r15, %rcx
	callq	L_37
.LBB106_5:
	addq	%rax, %r14
	addq	%rdx, %rbp
.LBB106_6:
	leaq	(%rsp,%r14), %rbx
	addq	$68, %rbx
	movq	104(%rsp), %rdx
	subq	%r14, %rdx
	movq	88(%rsp), %rax
	leaq	(%rax,%rbp), %r15
	movq	48(%rsp), %r12
	vpxor	%xmm0, %xmm0, %xmm0
	vmovdqa	%xmm0, 16(%rsp)
	subq	%rbp, %r12
	movq	$0, 32(%rsp)
	leaq	-16(%rdx), %rax
	cmpq	$175, %rax
	ja	.LBB106_14
	movq	%rdx, %rax
	shrq	%rax
	cmpq	%rax, %r12
	cmovbq	%r12, %rax
	cmpq	$8, %rax
	jb	.LBB106_14
	leaq	(%rax,%rax), %rcx
	xorl	%r9d, %r9d
	xorl	%r13d, %r13d
	.p2align	4
.LBB106_9:
	vmovdqu	(%rbx,%r13,2), %xmm0
	vpshufb	.LCPI106_1(%rip), %xmm0, %xmm0
	vpmaxuw	.LCPI106_0(%rip), %xmm0, %xmm1
	vpcmpeqw	%xmm1, %xmm0, %xmm1
	vpmovmskb	%xmm1, %esi
	testl	%esi, %esi
	jne	.LBB106_29
	vpackuswb	%xmm0, %xmm0, %xmm0
	vmovq	%xmm0, (%r15,%r13)
	addq	$8, %r13
	leaq	(%rcx,%r9), %rsi
	addq	$-16, %rsi
	addq	$-16, %r9
	cmpq	$15, %rsi
	ja	.LBB106_9
	negq	%r9
	cmpq	%r9, %rcx
	jbe	.LBB106_15
	vmovdqu	-16(%rbx,%rcx), %xmm0
	vpshufb	.LCPI106_1(%rip), %xmm0, %xmm0
	vpmaxuw	.LCPI106_0(%rip), %xmm0, %xmm1
	vpcmpeqw	%xmm1, %xmm0, %xmm1
	vpmovmskb	%xmm1, %esi
	testl	%esi, %esi
	jne	.LBB106_15
	vpackuswb	%xmm0, %xmm0, %xmm0
	vmovq	%xmm0, -8(%r15,%rax)
	movq	%rax, %r13
	movq	%rcx, %r9
	movq	%rdx, %rax
	subq	%r9, %rax
	cmpq	$15, %rax
	ja	.LBB106_16
	jmp	.LBB106_30
	.p2align	4
.LBB106_14:
	xorl	%r13d, %r13d
	xorl	%r9d, %r9d
.LBB106_15:
	movq	%rdx, %rax
	subq	%r9, %rax
	cmpq	$15, %rax
	jbe	.LBB106_30
.LBB106_16:
	leaq	-8(%rdx), %rax
	cmpq	$183, %rax
	ja	.LBB106_19
	movq	%rdx, %rsi
	subq	%r9, %rsi
	cmpq	$8, %rsi
	jb	.LBB106_19
	leaq	(%rbx,%r9), %rdi
	leaq	(%r15,%r13), %rax
	movq	%r12, %rcx
	subq	%r13, %rcx
	movq	%rdx, 128(%rsp)
	movq	%rax, %rdx
	movq	%r9, 120(%rsp)
	callq	L_28
	movq	120(%rsp), %r9
	movq	%rdx, %rcx
	movq	128(%rsp), %rdx
	addq	%rax, %r9
	addq	%rcx, %r13
.LBB106_19:
	cmpq	%rdx, %r9
	je	.LBB106_86
	movq	%r13, (%rsp)
	leaq	16(%rsp), %rdi
	movq	%rbx, %rsi
	movq	%r15, %rcx
	movq	%r12, %r8
	callq	L_29
	addq	16(%rsp), %r14
	movzbl	32(%rsp), %eax
	addq	24(%rsp), %rbp
	cmpb	$1, %al
	jne	.LBB106_39
	movq	88(%rsp), %rax
	leaq	(%rax,%rbp), %rbx
	movq	48(%rsp), %r15
	subq	%rbp, %r15
	cmpq	$512, %r15
	jb	.LBB106_24
	leaq	(%rsp,%r14), %r12
	addq	$68, %r12
	movq	104(%rsp), %r13
	subq	%r14, %r13
	cmpq	$128, %r13
	jb	.LBB106_4
	movq	%r12, %rdi
	movq	%r13, %rsi
	movq	%rbx, %rdx
	movq	%r15, %rcx
	callq	L_36
	cmpq	$127, %rax
	jbe	.LBB106_4
	jmp	.LBB106_5
	.p2align	4
.LBB106_24:
	cmpq	$3, %r15
	jb	.LBB106_169
	movzbl	33(%rsp), %eax
	leaq	.Lstatic.9(%rip), %rcx
	movq	%rbx, %rdx
	subq	%rcx, %rdx
	cmpq	$2, %rdx
	ja	.LBB106_27
	movw	$-16401, (%rbx)
	movb	$-67, 2(%rbx)
	jmp	.LBB106_28
	.p2align	4
.LBB106_27:
	movb	$-67, 2(%rbx)
	movw	$-16401, (%rbx)
.LBB106_28:
	movl	$3, %edx
	jmp	.LBB106_5
.LBB106_29:
	negq	%r9
	movq	%rdx, %rax
	subq	%r9, %rax
	cmpq	$15, %rax
	ja	.LBB106_16
	.p2align	4
.LBB106_30:
	cmpq	$2, %rax
	jb	.LBB106_16
	movq	%r12, %rcx
	subq	%r13, %rcx
	movq	%rax, %rsi
	shrq	%rsi
	leaq	(%rsi,%rsi,2), %rsi
	cmpq	%rsi, %rcx
	jae	.LBB106_34
	jmp	.LBB106_16
	.p2align	4
.LBB106_32:
	movb	%cl, (%r15,%r13)
	incq	%r13
.LBB106_33:
	addq	$2, %r9
	addq	$-2, %rax
	cmpq	$1, %rax
	jbe	.LBB106_16
.LBB106_34:
	movbew	(%rbx,%r9), %cx
	cmpw	$127, %cx
	jbe	.LBB106_32
	movzwl	%cx, %esi
	cmpl	$2047, %esi
	ja	.LBB106_37
	shrl	$6, %esi
	andl	$63, %ecx
	shll	$8, %ecx
	orl	%esi, %ecx
	orl	$32960, %ecx
	movw	%cx, (%r15,%r13)
	addq	$2, %r13
	jmp	.LBB106_33
	.p2align	4
.LBB106_37:
	movl	%ecx, %edi
	andl	$63488, %edi
	cmpl	$55296, %edi
	je	.LBB106_16
	movl	%ecx, %edi
	andb	$63, %dil
	orb	$-128, %dil
	shrl	$6, %ecx
	andb	$63, %cl
	orb	$-128, %cl
	shrl	$12, %esi
	orb	$-32, %sil
	movb	%sil, (%r15,%r13)
	movb	%cl, 1(%r15,%r13)
	movb	%dil, 2(%r15,%r13)
	addq	$3, %r13
	jmp	.LBB106_33
.LBB106_39:
	movq	72(%rsp), %rdi
	addq	%r14, %rdi
	movq	80(%rsp), %r15
	addq	%rbp, %r15
	testq	%r14, %r14
	je	.LBB106_190
	cmpb	$3, %al
	movq	56(%rsp), %r12
	je	.LBB106_170
	cmpq	%r12, %rdi
	movq	160(%rsp), %rbx
	jb	.LBB106_3
	jmp	.LBB106_89
.LBB106_42:
	movl	$0, 100(%rsp)
	movl	(%rsi), %eax
	movl	%eax, 44(%rsp)
	shrl	$24, %eax
	cmpb	$3, %al
	movl	$3, %ecx
	cmovbl	%eax, %ecx
	movq	%rcx, 72(%rsp)
	testl	%eax, %eax
	je	.LBB106_126
	xorl	%edi, %edi
	xorl	%r15d, %r15d
	movq	%rbx, 160(%rsp)
.LBB106_44:
	leaq	(%rsp,%rdi), %rsi
	addq	$44, %rsi
	movq	72(%rsp), %r12
	movq	%rdi, 56(%rsp)
	subq	%rdi, %r12
	movl	$4, %r14d
	subq	%r12, %r14
	movq	136(%rsp), %rax
	cmpq	%rax, %r14
	cmovaeq	%rax, %r14
	movl	$0, 16(%rsp)
	leaq	16(%rsp), %rdi
	movq	%r12, %rdx
	callq	sysv_memcpy
	leaq	(%rsp,%r12), %rdi
	addq	$16, %rdi
	movq	144(%rsp), %rax
	leaq	(%rax,%rbx), %rsi
	movq	%r14, %rdx
	callq	sysv_memcpy
	movq	%r14, 168(%rsp)
	addq	%r14, %r12
	movq	%r12, 120(%rsp)
	movl	16(%rsp), %eax
	movl	%eax, 68(%rsp)
	movq	112(%rsp), %rax
	addq	%r15, %rax
	movq	%rax, 88(%rsp)
	movq	256(%rsp), %rax
	movq	%r15, 80(%rsp)
	subq	%r15, %rax
	movq	%rax, 48(%rsp)
	xorl	%r15d, %r15d
	xorl	%r12d, %r12d
	jmp	.LBB106_47
	.p2align	4
.LBB106_45:
	movq	%rbp, %rdi
	movq	%r13, %rsi
	movq	%rbx, %rdx
	movq	%r14, %rcx
	callq	L_46
.LBB106_46:
	addq	%rax, %r12
	addq	%rdx, %r15
.LBB106_47:
	leaq	(%rsp,%r12), %r9
	addq	$68, %r9
	movq	120(%rsp), %r14
	subq	%r12, %r14
	movq	88(%rsp), %rax
	leaq	(%rax,%r15), %r11
	movq	48(%rsp), %r10
	vpxor	%xmm0, %xmm0, %xmm0
	vmovdqa	%xmm0, 16(%rsp)
	subq	%r15, %r10
	movq	$0, 32(%rsp)
	leaq	-16(%r14), %rax
	cmpq	$175, %rax
	ja	.LBB106_55
	movq	%r14, %rax
	shrq	%rax
	cmpq	%rax, %r10
	cmovbq	%r10, %rax
	cmpq	$8, %rax
	jb	.LBB106_55
	leaq	(%rax,%rax), %rcx
	xorl	%ebp, %ebp
	xorl	%r13d, %r13d
	.p2align	4
.LBB106_50:
	vmovdqu	(%r9,%r13,2), %xmm0
	vpmaxuw	.LCPI106_0(%rip), %xmm0, %xmm1
	vpcmpeqw	%xmm1, %xmm0, %xmm1
	vpmovmskb	%xmm1, %edx
	testl	%edx, %edx
	jne	.LBB106_70
	vpackuswb	%xmm0, %xmm0, %xmm0
	vmovq	%xmm0, (%r11,%r13)
	addq	$8, %r13
	leaq	(%rcx,%rbp), %rdx
	addq	$-16, %rdx
	addq	$-16, %rbp
	cmpq	$15, %rdx
	ja	.LBB106_50
	negq	%rbp
	cmpq	%rbp, %rcx
	jbe	.LBB106_56
	vmovdqu	-16(%r9,%rcx), %xmm0
	vpmaxuw	.LCPI106_0(%rip), %xmm0, %xmm1
	vpcmpeqw	%xmm1, %xmm0, %xmm1
	vpmovmskb	%xmm1, %edx
	testl	%edx, %edx
	jne	.LBB106_56
	vpackuswb	%xmm0, %xmm0, %xmm0
	vmovq	%xmm0, -8(%r11,%rax)
	movq	%rax, %r13
	movq	%rcx, %rbp
	movq	%r14, %rax
	subq	%rbp, %rax
	cmpq	$15, %rax
	ja	.LBB106_57
	jmp	.LBB106_71
	.p2align	4
.LBB106_55:
	xorl	%r13d, %r13d
	xorl	%ebp, %ebp
.LBB106_56:
	movq	%r14, %rax
	subq	%rbp, %rax
	cmpq	$15, %rax
	jbe	.LBB106_71
.LBB106_57:
	leaq	-8(%r14), %rax
	cmpq	$183, %rax
	movq	%r12, 128(%rsp)
	movq	%r15, 104(%rsp)
	ja	.LBB106_59
	movq	%r14, %rsi
	subq	%rbp, %rsi
	cmpq	$8, %rsi
	jae	.LBB106_60
.LBB106_59:
	movq	%r11, %r15
	movq	%r10, %rbx
	movq	%r9, %r12
	cmpq	%r14, %rbp
	jne	.LBB106_61
	jmp	.LBB106_84
	.p2align	4
.LBB106_60:
	movq	%r9, %r12
	leaq	(%r9,%rbp), %rdi
	movq	%r11, %r15
	leaq	(%r11,%r13), %rdx
	movq	%r10, %rbx
	movq	%r10, %rcx
	subq	%r13, %rcx
	callq	L_38
	addq	%rax, %rbp
	addq	%rdx, %r13
	cmpq	%r14, %rbp
	je	.LBB106_84
.LBB106_61:
	movq	%r13, (%rsp)
	leaq	16(%rsp), %rdi
	movq	%r12, %rsi
	movq	%r14, %rdx
	movq	%r15, %rcx
	movq	%rbx, %r8
	movq	%rbp, %r9
	callq	L_39
	movq	128(%rsp), %r12
	addq	16(%rsp), %r12
	movzbl	32(%rsp), %eax
	movq	104(%rsp), %r15
	addq	24(%rsp), %r15
	cmpb	$1, %al
	jne	.LBB106_81
	movq	88(%rsp), %rax
	leaq	(%rax,%r15), %rbx
	movq	48(%rsp), %r14
	subq	%r15, %r14
	cmpq	$512, %r14
	jb	.LBB106_65
	leaq	(%rsp,%r12), %rbp
	addq	$68, %rbp
	movq	120(%rsp), %r13
	subq	%r12, %r13
	cmpq	$128, %r13
	jb	.LBB106_45
	movq	%rbp, %rdi
	movq	%r13, %rsi
	movq	%rbx, %rdx
	movq	%r14, %rcx
	callq	L_45
	cmpq	$127, %rax
	jbe	.LBB106_45
	jmp	.LBB106_46
	.p2align	4
.LBB106_65:
	cmpq	$3, %r14
	jb	.LBB106_171
	movzbl	33(%rsp), %eax
	leaq	.Lstatic.9(%rip), %rcx
	movq	%rbx, %rdx
	subq	%rcx, %rdx
	cmpq	$2, %rdx
	ja	.LBB106_68
	movw	$-16401, (%rbx)
	movb	$-67, 2(%rbx)
	jmp	.LBB106_69
	.p2align	4
.LBB106_68:
	movb	$-67, 2(%rbx)
	movw	$-16401, (%rbx)
.LBB106_69:
	movl	$3, %edx
	jmp	.LBB106_46
.LBB106_70:
	negq	%rbp
	movq	%r14, %rax
	subq	%rbp, %rax
	cmpq	$15, %rax
	ja	.LBB106_57
	.p2align	4
.LBB106_71:
	cmpq	$2, %rax
	jb	.LBB106_57
	movq	%r10, %rcx
	subq	%r13, %rcx
	movq	%rax, %rdx
	shrq	%rdx
	leaq	(%rdx,%rdx,2), %rdx
	cmpq	%rdx, %rcx
	jb	.LBB106_57
	leaq	69(%rsp), %rcx
	addq	%r12, %rcx
	jmp	.LBB106_76
	.p2align	4
.LBB106_74:
	movb	%dl, (%r11,%r13)
	incq	%r13
.LBB106_75:
	addq	$2, %rbp
	addq	$-2, %rax
	cmpq	$1, %rax
	jbe	.LBB106_57
.LBB106_76:
	movzbl	-1(%rcx,%rbp), %edx
	movzbl	(%rcx,%rbp), %edi
	movl	%edi, %esi
	shll	$8, %esi
	orl	%edx, %esi
	cmpw	$127, %si
	jbe	.LBB106_74
	cmpb	$7, %dil
	ja	.LBB106_79
	movzwl	%dx, %edx
	andl	$63, %edx
	shll	$8, %edx
	movzwl	%si, %esi
	shrl	$6, %esi
	orl	%edx, %esi
	orl	$32960, %esi
	movw	%si, (%r11,%r13)
	addq	$2, %r13
	jmp	.LBB106_75
	.p2align	4
.LBB106_79:
	movzwl	%di, %r8d
	andl	$-8, %r8d
	cmpl	$216, %r8d
	je	.LBB106_57
	andb	$63, %dl
	orb	$-128, %dl
	shrl	$6, %esi
	andb	$63, %sil
	orb	$-128, %sil
	shrb	$4, %dil
	orb	$-32, %dil
	movb	%dil, (%r11,%r13)
	movb	%sil, 1(%r11,%r13)
	movb	%dl, 2(%r11,%r13)
	addq	$3, %r13
	jmp	.LBB106_75
.LBB106_81:
	movq	56(%rsp), %rdi
	addq	%r12, %rdi
	movq	80(%rsp), %rcx
	addq	%r15, %rcx
	movq	%rcx, %r15
	testq	%r12, %r12
	movq	160(%rsp), %rbx
	je	.LBB106_178
	cmpb	$3, %al
	je	.LBB106_172
	cmpq	72(%rsp), %rdi
	jb	.LBB106_44
	jmp	.LBB106_127
.LBB106_84:
	movq	72(%rsp), %rcx
	movq	168(%rsp), %r14
	addq	%rcx, %r14
	movq	80(%rsp), %rax
	addq	104(%rsp), %rax
	movq	%rax, %r15
	addq	%r13, %r15
	cmpq	$0, 120(%rsp)
	je	.LBB106_173
	movq	%r14, %rdi
	movq	160(%rsp), %rbx
	jmp	.LBB106_127
.LBB106_86:
	movq	56(%rsp), %r12
	movq	168(%rsp), %r14
	addq	%r12, %r14
	movq	80(%rsp), %r15
	addq	%rbp, %r15
	addq	%r13, %r15
	cmpq	$0, 104(%rsp)
	je	.LBB106_174
	movq	%r14, %rdi
	movq	160(%rsp), %rbx
	jmp	.LBB106_89
.LBB106_88:
	xorl	%r15d, %r15d
	xorl	%edi, %edi
.LBB106_89:
	movq	%rdi, %rax
	subq	%r12, %rax
	movq	144(%rsp), %rdx
	leaq	(%rdx,%rbx), %rcx
	addq	%rax, %rcx
	movq	%rcx, 88(%rsp)
	movq	136(%rsp), %rcx
	subq	%rax, %rcx
	addq	%r15, 112(%rsp)
	movq	%r15, 80(%rsp)
	subq	%r15, 152(%rsp)
	movq	%rdi, 72(%rsp)
	addq	%rdi, %rbx
	subq	%r12, %rbx
	addq	%rbx, %rdx
	movq	%rdx, 144(%rsp)
	xorl	%r13d, %r13d
	xorl	%r15d, %r15d
	movq	%rcx, 48(%rsp)
	jmp	.LBB106_92
	.p2align	4
.LBB106_90:
	movq	%rbp, %rdi
	movq	%r12, %rsi
	movq	%rbx, %rdx
	movq	%r14, %rcx
	callq	L_37
.LBB106_91:
	movq	48(%rsp), %rcx
	addq	%rax, %r15
	addq	%rdx, %r13
.LBB106_92:
	movq	88(%rsp), %rax
	leaq	(%rax,%r15), %r10
	movq	%rcx, %rdx
	subq	%r15, %rdx
	movq	112(%rsp), %rax
	leaq	(%rax,%r13), %rbp
	movq	152(%rsp), %r11
	vpxor	%xmm0, %xmm0, %xmm0
	vmovdqa	%xmm0, 16(%rsp)
	subq	%r13, %r11
	movq	$0, 32(%rsp)
	leaq	-16(%rdx), %rax
	cmpq	$175, %rax
	ja	.LBB106_100
	movq	%rdx, %rax
	shrq	%rax
	cmpq	%rax, %r11
	cmovbq	%r11, %rax
	cmpq	$8, %rax
	jb	.LBB106_100
	leaq	(%rax,%rax), %rcx
	xorl	%r9d, %r9d
	xorl	%ebx, %ebx
	.p2align	4
.LBB106_95:
	vmovdqu	(%r10,%rbx,2), %xmm0
	vpshufb	.LCPI106_1(%rip), %xmm0, %xmm0
	vpmaxuw	.LCPI106_0(%rip), %xmm0, %xmm1
	vpcmpeqw	%xmm1, %xmm0, %xmm1
	vpmovmskb	%xmm1, %esi
	testl	%esi, %esi
	jne	.LBB106_115
	vpackuswb	%xmm0, %xmm0, %xmm0
	vmovq	%xmm0, (%rbp,%rbx)
	addq	$8, %rbx
	leaq	(%rcx,%r9), %rsi
	addq	$-16, %rsi
	addq	$-16, %r9
	cmpq	$15, %rsi
	ja	.LBB106_95
	negq	%r9
	cmpq	%r9, %rcx
	jbe	.LBB106_101
	vmovdqu	-16(%r10,%rcx), %xmm0
	vpshufb	.LCPI106_1(%rip), %xmm0, %xmm0
	vpmaxuw	.LCPI106_0(%rip), %xmm0, %xmm1
	vpcmpeqw	%xmm1, %xmm0, %xmm1
	vpmovmskb	%xmm1, %esi
	testl	%esi, %esi
	jne	.LBB106_101
	vpackuswb	%xmm0, %xmm0, %xmm0
	vmovq	%xmm0, -8(%rbp,%rax)
	movq	%rax, %rbx
	movq	%rcx, %r9
	movq	%rdx, %rax
	subq	%r9, %rax
	cmpq	$15, %rax
	ja	.LBB106_102
	jmp	.LBB106_116
	.p2align	4
.LBB106_100:
	xorl	%ebx, %ebx
	xorl	%r9d, %r9d
.LBB106_101:
	movq	%rdx, %rax
	subq	%r9, %rax
	cmpq	$15, %rax
	jbe	.LBB106_116
.LBB106_102:
	leaq	-8(%rdx), %rax
	cmpq	$183, %rax
	ja	.LBB106_104
	movq	%rdx, %rsi
	subq	%r9, %rsi
	cmpq	$8, %rsi
	jae	.LBB106_105
.LBB106_104:
	movq	%r11, %r14
	movq	%r10, %r12
	cmpq	%rdx, %r9
	jne	.LBB106_106
	jmp	.LBB106_166
	.p2align	4
.LBB106_105:
	movq	%r10, %r12
	leaq	(%r10,%r9), %rdi
	leaq	(%rbx,%rbp), %rax
	movq	%r11, %r14
	movq	%r11, %rcx
	subq	%rbx, %rcx
	movq	%rdx, 104(%rsp)
	movq	%rax, %rdx
	movq	%r9, 128(%rsp)
	callq	L_28
	movq	128(%rsp), %r9
	movq	%rdx, %rcx
	movq	104(%rsp), %rdx
	addq	%rax, %r9
	addq	%rcx, %rbx
	cmpq	%rdx, %r9
	je	.LBB106_166
.LBB106_106:
	movq	%rbx, (%rsp)
	leaq	16(%rsp), %rdi
	movq	%r12, %rsi
	movq	%rbp, %rcx
	movq	%r14, %r8
	callq	L_29
	addq	16(%rsp), %r15
	movzbl	32(%rsp), %eax
	addq	24(%rsp), %r13
	cmpb	$1, %al
	jne	.LBB106_183
	movq	112(%rsp), %rax
	leaq	(%rax,%r13), %rbx
	movq	152(%rsp), %r14
	subq	%r13, %r14
	cmpq	$512, %r14
	jb	.LBB106_110
	movq	88(%rsp), %rax
	leaq	(%rax,%r15), %rbp
	movq	48(%rsp), %r12
	subq	%r15, %r12
	cmpq	$128, %r12
	jb	.LBB106_90
	movq	%rbp, %rdi
	movq	%r12, %rsi
	movq	%rbx, %rdx
	movq	%r14, %rcx
	callq	L_36
	cmpq	$127, %rax
	jbe	.LBB106_90
	jmp	.LBB106_91
	.p2align	4
.LBB106_110:
	cmpq	$3, %r14
	jb	.LBB106_182
	movzbl	33(%rsp), %eax
	leaq	.Lstatic.9(%rip), %rcx
	movq	%rbx, %rdx
	subq	%rcx, %rdx
	cmpq	$2, %rdx
	ja	.LBB106_113
	movw	$-16401, (%rbx)
	movb	$-67, 2(%rbx)
	jmp	.LBB106_114
	.p2align	4
.LBB106_113:
	movb	$-67, 2(%rbx)
	movw	$-16401, (%rbx)
.LBB106_114:
	movl	$3, %edx
	jmp	.LBB106_91
.LBB106_115:
	negq	%r9
	movq	%rdx, %rax
	subq	%r9, %rax
	cmpq	$15, %rax
	ja	.LBB106_102
	.p2align	4
.LBB106_116:
	cmpq	$2, %rax
	jb	.LBB106_102
	movq	%r11, %rcx
	subq	%rbx, %rcx
	movq	%rax, %rsi
	shrq	%rsi
	leaq	(%rsi,%rsi,2), %rsi
	cmpq	%rsi, %rcx
	jb	.LBB106_102
	leaq	(%r9,%r15), %rcx
	addq	144(%rsp), %rcx
	jmp	.LBB106_121
	.p2align	4
.LBB106_119:
	movb	%sil, (%rbp,%rbx)
	incq	%rbx
.LBB106_120:
	addq	$2, %r9
	addq	$-2, %rax
	addq	$2, %rcx
	cmpq	$1, %rax
	jbe	.LBB106_102
.LBB106_121:
	movbew	(%rcx), %si
	cmpw	$127, %si
	jbe	.LBB106_119
	movzwl	%si, %edi
	cmpl	$2047, %edi
	ja	.LBB106_124
	shrl	$6, %edi
	andl	$63, %esi
	shll	$8, %esi
	orl	%edi, %esi
	orl	$32960, %esi
	movw	%si, (%rbp,%rbx)
	addq	$2, %rbx
	jmp	.LBB106_120
	.p2align	4
.LBB106_124:
	movl	%esi, %r8d
	andl	$63488, %r8d
	cmpl	$55296, %r8d
	je	.LBB106_102
	movl	%esi, %r8d
	andb	$63, %r8b
	orb	$-128, %r8b
	shrl	$6, %esi
	andb	$63, %sil
	orb	$-128, %sil
	shrl	$12, %edi
	orb	$-32, %dil
	movb	%dil, (%rbp,%rbx)
	movb	%sil, 1(%rbp,%rbx)
	movb	%r8b, 2(%rbp,%rbx)
	addq	$3, %rbx
	jmp	.LBB106_120
.LBB106_126:
	xorl	%r15d, %r15d
	xorl	%edi, %edi
.LBB106_127:
	movq	%rdi, %rax
	movq	72(%rsp), %rsi
	subq	%rsi, %rax
	movq	144(%rsp), %rdx
	leaq	(%rdx,%rbx), %rcx
	addq	%rax, %rcx
	movq	%rcx, 88(%rsp)
	movq	136(%rsp), %rcx
	subq	%rax, %rcx
	addq	%r15, 112(%rsp)
	movq	%r15, 80(%rsp)
	subq	%r15, 152(%rsp)
	movq	%rdi, 56(%rsp)
	addq	%rdi, %rbx
	subq	%rsi, %rbx
	leaq	(%rbx,%rdx), %rax
	incq	%rax
	movq	%rax, 120(%rsp)
	xorl	%r15d, %r15d
	xorl	%ebp, %ebp
	movq	%rcx, 48(%rsp)
	jmp	.LBB106_130
	.p2align	4
.LBB106_128:
	movq	%r13, %rdi
	movq	%r12, %rsi
	movq	%rbx, %rdx
	movq	%r14, %rcx
	callq	L_46
.LBB106_129:
	movq	48(%rsp), %rcx
	addq	%rax, %rbp
	addq	%rdx, %r15
.LBB106_130:
	movq	88(%rsp), %rax
	leaq	(%rax,%rbp), %r11
	movq	%rcx, %rdx
	subq	%rbp, %rdx
	movq	112(%rsp), %rax
	leaq	(%rax,%r15), %r13
	movq	152(%rsp), %r14
	vpxor	%xmm0, %xmm0, %xmm0
	vmovdqa	%xmm0, 16(%rsp)
	subq	%r15, %r14
	movq	$0, 32(%rsp)
	leaq	-16(%rdx), %rax
	cmpq	$175, %rax
	ja	.LBB106_138
	movq	%rdx, %rax
	shrq	%rax
	cmpq	%rax, %r14
	cmovbq	%r14, %rax
	cmpq	$8, %rax
	jb	.LBB106_138
	leaq	(%rax,%rax), %rcx
	xorl	%r9d, %r9d
	xorl	%r12d, %r12d
	.p2align	4
.LBB106_133:
	vmovdqu	(%r11,%r12,2), %xmm0
	vpmaxuw	.LCPI106_0(%rip), %xmm0, %xmm1
	vpcmpeqw	%xmm1, %xmm0, %xmm1
	vpmovmskb	%xmm1, %esi
	testl	%esi, %esi
	jne	.LBB106_154
	vpackuswb	%xmm0, %xmm0, %xmm0
	vmovq	%xmm0, (%r13,%r12)
	addq	$8, %r12
	leaq	(%rcx,%r9), %rsi
	addq	$-16, %rsi
	addq	$-16, %r9
	cmpq	$15, %rsi
	ja	.LBB106_133
	negq	%r9
	cmpq	%r9, %rcx
	jbe	.LBB106_139
	vmovdqu	-16(%r11,%rcx), %xmm0
	vpmaxuw	.LCPI106_0(%rip), %xmm0, %xmm1
	vpcmpeqw	%xmm1, %xmm0, %xmm1
	vpmovmskb	%xmm1, %esi
	testl	%esi, %esi
	jne	.LBB106_139
	vpackuswb	%xmm0, %xmm0, %xmm0
	vmovq	%xmm0, -8(%r13,%rax)
	movq	%rax, %r12
	movq	%rcx, %r9
	movq	%rdx, %rax
	subq	%r9, %rax
	cmpq	$15, %rax
	ja	.LBB106_140
	jmp	.LBB106_155
	.p2align	4
.LBB106_138:
	xorl	%r12d, %r12d
	xorl	%r9d, %r9d
.LBB106_139:
	movq	%rdx, %rax
	subq	%r9, %rax
	cmpq	$15, %rax
	jbe	.LBB106_155
.LBB106_140:
	leaq	-8(%rdx), %rax
	cmpq	$183, %rax
	ja	.LBB106_143
	movq	%rdx, %rsi
	subq	%r9, %rsi
	cmpq	$8, %rsi
	jae	.LBB106_144
.LBB106_143:
	movq	%r11, %rbx
	cmpq	%rdx, %r9
	jne	.LBB106_145
	jmp	.LBB106_165
	.p2align	4
.LBB106_144:
	movq	%r11, %rbx
	leaq	(%r11,%r9), %rdi
	leaq	(%r12,%r13), %rax
	movq	%r14, %rcx
	subq	%r12, %rcx
	movq	%rdx, 104(%rsp)
	movq	%rax, %rdx
	movq	%r9, 128(%rsp)
	callq	L_38
	movq	128(%rsp), %r9
	movq	%rdx, %rcx
	movq	104(%rsp), %rdx
	addq	%rax, %r9
	addq	%rcx, %r12
	cmpq	%rdx, %r9
	je	.LBB106_165
.LBB106_145:
	movq	%r12, (%rsp)
	leaq	16(%rsp), %rdi
	movq	%rbx, %rsi
	movq	%r13, %rcx
	movq	%r14, %r8
	callq	L_39
	addq	16(%rsp), %rbp
	movzbl	32(%rsp), %eax
	addq	24(%rsp), %r15
	cmpb	$1, %al
	jne	.LBB106_176
	movq	112(%rsp), %rax
	leaq	(%rax,%r15), %rbx
	movq	152(%rsp), %r14
	subq	%r15, %r14
	cmpq	$512, %r14
	jb	.LBB106_149
	movq	88(%rsp), %rax
	leaq	(%rax,%rbp), %r13
	movq	48(%rsp), %r12
	subq	%rbp, %r12
	cmpq	$128, %r12
	jb	.LBB106_128
	movq	%r13, %rdi
	movq	%r12, %rsi
	movq	%rbx, %rdx
	movq	%r14, %rcx
	callq	L_45
	cmpq	$127, %rax
	jbe	.LBB106_128
	jmp	.LBB106_129
	.p2align	4
.LBB106_149:
	cmpq	$3, %r14
	jb	.LBB106_175
	movzbl	33(%rsp), %eax
	leaq	.Lstatic.9(%rip), %rcx
	movq	%rbx, %rdx
	subq	%rcx, %rdx
	cmpq	$2, %rdx
	ja	.LBB106_152
	movw	$-16401, (%rbx)
	movb	$-67, 2(%rbx)
	jmp	.LBB106_153
	.p2align	4
.LBB106_152:
	movb	$-67, 2(%rbx)
	movw	$-16401, (%rbx)
.LBB106_153:
	movl	$3, %edx
	jmp	.LBB106_129
.LBB106_154:
	negq	%r9
	movq	%rdx, %rax
	subq	%r9, %rax
	cmpq	$15, %rax
	ja	.LBB106_140
	.p2align	4
.LBB106_155:
	cmpq	$2, %rax
	jb	.LBB106_140
	movq	%r14, %rcx
	subq	%r12, %rcx
	movq	%rax, %rsi
	shrq	%rsi
	leaq	(%rsi,%rsi,2), %rsi
	cmpq	%rsi, %rcx
	jb	.LBB106_140
	leaq	(%r9,%rbp), %rcx
	addq	120(%rsp), %rcx
	jmp	.LBB106_160
	.p2align	4
.LBB106_158:
	movb	%sil, (%r13,%r12)
	incq	%r12
.LBB106_159:
	addq	$2, %r9
	addq	$-2, %rax
	addq	$2, %rcx
	cmpq	$1, %rax
	jbe	.LBB106_140
.LBB106_160:
	movzbl	-1(%rcx), %esi
	movzbl	(%rcx), %r8d
	movl	%r8d, %edi
	shll	$8, %edi
	orl	%esi, %edi
	cmpw	$127, %di
	jbe	.LBB106_158
	cmpb	$7, %r8b
	ja	.LBB106_163
	movzwl	%si, %esi
	andl	$63, %esi
	shll	$8, %esi
	movzwl	%di, %edi
	shrl	$6, %edi
	orl	%esi, %edi
	orl	$32960, %edi
	movw	%di, (%r13,%r12)
	addq	$2, %r12
	jmp	.LBB106_159
	.p2align	4
.LBB106_163:
	movzwl	%r8w, %r10d
	andl	$-8, %r10d
	cmpl	$216, %r10d
	je	.LBB106_140
	andb	$63, %sil
	orb	$-128, %sil
	shrl	$6, %edi
	andb	$63, %dil
	orb	$-128, %dil
	shrb	$4, %r8b
	orb	$-32, %r8b
	movb	%r8b, (%r13,%r12)
	movb	%dil, 1(%r13,%r12)
	movb	%sil, 2(%r13,%r12)
	addq	$3, %r12
	jmp	.LBB106_159
.LBB106_165:
	addq	%r12, %r15
	xorl	%eax, %eax
	movq	56(%rsp), %rdi
	movq	48(%rsp), %rbp
	jmp	.LBB106_177
.LBB106_166:
	addq	%rbx, %r13
	xorl	%eax, %eax
	movq	56(%rsp), %rdx
	movq	48(%rsp), %r15
	jmp	.LBB106_184
.LBB106_169:
	movq	72(%rsp), %rdi
	addq	%r14, %rdi
	movq	80(%rsp), %r15
	addq	%rbp, %r15
	movq	56(%rsp), %r12
.LBB106_170:
	cmpq	%rdi, %r12
	movq	%rdi, %rax
	cmovbq	%r12, %rax
	leaq	(%rsp,%rax), %rsi
	addq	$44, %rsi
	movq	%r12, %rbx
	subq	%rax, %rbx
	xorl	%r14d, %r14d
	subq	%r12, %rdi
	cmovaeq	%rdi, %r14
	jmp	.LBB106_186
.LBB106_171:
	movq	56(%rsp), %rdi
	addq	%r12, %rdi
	movq	80(%rsp), %rax
	addq	%r15, %rax
	movq	%rax, %r15
.LBB106_172:
	movq	72(%rsp), %rcx
	cmpq	%rdi, %rcx
	movq	%rdi, %rax
	cmovbq	%rcx, %rax
	leaq	(%rsp,%rax), %rsi
	addq	$44, %rsi
	movq	%rcx, %rbx
	subq	%rax, %rbx
	xorl	%r14d, %r14d
	subq	%rcx, %rdi
	cmovaeq	%rdi, %r14
	jmp	.LBB106_179
.LBB106_173:
	leaq	(%rsp,%rcx), %rsi
	addq	$44, %rsi
	xorl	%ebx, %ebx
	subq	%rcx, %r14
	cmovbq	%rbx, %r14
	jmp	.LBB106_180
.LBB106_174:
	leaq	(%rsp,%r12), %rsi
	addq	$44, %rsi
	xorl	%ebx, %ebx
	subq	%r12, %r14
	cmovbq	%rbx, %r14
	jmp	.LBB106_187
.LBB106_175:
	movb	$3, %al
.LBB106_176:
	movq	56(%rsp), %rdi
.LBB106_177:
	addq	%rbp, %rdi
	movq	80(%rsp), %rcx
	addq	%r15, %rcx
	movq	%rcx, %r15
.LBB106_178:
	movq	72(%rsp), %rdx
	cmpq	%rdi, %rdx
	movq	%rdi, %rcx
	cmovbq	%rdx, %rcx
	leaq	(%rsp,%rcx), %rsi
	addq	$44, %rsi
	movq	%rdx, %rbx
	subq	%rcx, %rbx
	xorl	%r14d, %r14d
	subq	%rdx, %rdi
	cmovaeq	%rdi, %r14
	cmpb	$3, %al
	jne	.LBB106_180
.LBB106_179:
	movb	$0, 18(%rsp)
	movw	$0, 16(%rsp)
	leaq	16(%rsp), %rdi
	movq	%rbx, %rdx
	callq	sysv_memcpy
	movzbl	18(%rsp), %eax
	shll	$16, %eax
	movzwl	16(%rsp), %ecx
	orl	%eax, %ecx
	shll	$24, %ebx
	orl	%ecx, %ebx
	movb	$3, %dl
	movq	%r14, %r12
	jmp	.LBB106_181
.LBB106_180:
	movq	136(%rsp), %r12
	movq	%r12, %rax
	subq	%r14, %rax
	movq	192(%rsp), %r13
	addq	%r14, %r13
	movl	$4, %r14d
	subq	%rbx, %r14
	cmpq	%rax, %r14
	cmovaeq	%rax, %r14
	movl	$0, 16(%rsp)
	leaq	16(%rsp), %rdi
	movq	%rbx, %rdx
	callq	sysv_memcpy
	leaq	(%rsp,%rbx), %rdi
	addq	$16, %rdi
	movq	%r13, %rsi
	movq	%r14, %rdx
	callq	sysv_memcpy
	addq	%rbx, %r14
	movl	16(%rsp), %eax
	movl	%eax, 100(%rsp)
	movb	$0, 18(%rsp)
	movw	$0, 16(%rsp)
	leaq	16(%rsp), %rdi
	leaq	100(%rsp), %rsi
	movq	%r14, %rdx
	callq	sysv_memcpy
	movzbl	18(%rsp), %eax
	shll	$16, %eax
	movzwl	16(%rsp), %ecx
	orl	%eax, %ecx
	shll	$24, %r14d
	orl	%ecx, %r14d
	xorl	%edx, %edx
	movl	%r14d, %ebx
.LBB106_181:
	movq	176(%rsp), %rax
	movl	%ebx, (%rax)
	jmp	.LBB106_188
.LBB106_182:
	movb	$3, %al
.LBB106_183:
	movq	56(%rsp), %rdx
.LBB106_184:
	movq	72(%rsp), %rdi
	addq	%r15, %rdi
	movq	80(%rsp), %r15
	addq	%r13, %r15
.LBB106_185:
	cmpq	%rdi, %rdx
	movq	%rdi, %rcx
	cmovbq	%rdx, %rcx
	leaq	(%rsp,%rcx), %rsi
	addq	$44, %rsi
	movq	%rdx, %rbx
	subq	%rcx, %rbx
	xorl	%r14d, %r14d
	subq	%rdx, %rdi
	cmovaeq	%rdi, %r14
	cmpb	$3, %al
	jne	.LBB106_187
.LBB106_186:
	movb	$0, 18(%rsp)
	movw	$0, 16(%rsp)
	leaq	16(%rsp), %rdi
	movq	%rbx, %rdx
	callq	sysv_memcpy
	movzbl	18(%rsp), %eax
	shll	$16, %eax
	movzwl	16(%rsp), %ecx
	orl	%eax, %ecx
	shll	$24, %ebx
	orl	%ecx, %ebx
	movb	$3, %dl
	movq	176(%rsp), %rax
	movl	%ebx, (%rax)
	jmp	.LBB106_189
.LBB106_187:
	movq	136(%rsp), %r12
	movq	%r12, %rax
	subq	%r14, %rax
	movq	192(%rsp), %r13
	addq	%r14, %r13
	movl	$4, %r14d
	subq	%rbx, %r14
	cmpq	%rax, %r14
	cmovaeq	%rax, %r14
	movl	$0, 16(%rsp)
	leaq	16(%rsp), %rdi
	movq	%rbx, %rdx
	callq	sysv_memcpy
	leaq	(%rsp,%rbx), %rdi
	addq	$16, %rdi
	movq	%r13, %rsi
	movq	%r14, %rdx
	callq	sysv_memcpy
	addq	%rbx, %r14
	movl	16(%rsp), %eax
	movl	%eax, 100(%rsp)
	movb	$0, 18(%rsp)
	movw	$0, 16(%rsp)
	leaq	16(%rsp), %rdi
	leaq	100(%rsp), %rsi
	movq	%r14, %rdx
	callq	sysv_memcpy
	movzbl	18(%rsp), %eax
	shll	$16, %eax
	movzwl	16(%rsp), %ecx
	orl	%eax, %ecx
	shll	$24, %r14d
	orl	%ecx, %r14d
	xorl	%edx, %edx
	movq	176(%rsp), %rax
	movl	%r14d, (%rax)
.LBB106_188:
	movq	%r12, %r14
.LBB106_189:
	movq	184(%rsp), %rax
	xorl	%ecx, %ecx
	testb	%dl, %dl
	setne	%cl
	leal	(%rcx,%rcx,2), %ecx
	movq	%r14, (%rax)
	movq	%r15, 8(%rax)
	movl	%ecx, 16(%rax)
	movl	$0, 20(%rax)
	addq	$200, %rsp
	popq	%rbx
	popq	%r12
	popq	%r13
	popq	%r14
	popq	%r15
	popq	%rbp
	retq
.LBB106_190:
	movq	56(%rsp), %rdx
	jmp	.LBB106_185
.Lfunc_end106:

	.section	.text$123,"xr"
	.globl	dethrux_decoder_finish_v3
	.p2align	4
dethrux_decoder_finish_v3:
	movq	%rdi, %rax
	xorl	%edi, %edi
	testq	%rcx, %rcx
	sete	%r9b
	xorl	%edx, %edx
	cmpb	$0, 3(%rsi)
	je	.LBB107_1
	cmpq	$3, %r8
	jae	.LBB107_4
	movl	$3, %edx
	xorl	%ecx, %ecx
	jmp	.LBB107_9
.LBB107_1:
	xorl	%ecx, %ecx
	jmp	.LBB107_8
.LBB107_4:
	movb	%r9b, %dil
	shll	$12, %edi
	addq	%rdi, %rcx
	leaq	.Lstatic.9(%rip), %rdi
	movq	%rcx, %r8
	subq	%rdi, %r8
	cmpq	$2, %r8
	ja	.LBB107_6
	movw	$-16401, (%rcx)
	movb	$-67, 2(%rcx)
	jmp	.LBB107_7
.LBB107_6:
	movb	$-67, 2(%rcx)
	movw	$-16401, (%rcx)
.LBB107_7:
	movl	$3, %ecx
.LBB107_8:
	movl	$0, (%rsi)
.LBB107_9:
	movq	$0, (%rax)
	movq	%rcx, 8(%rax)
	movl	%edx, 16(%rax)
	movl	$0, 20(%rax)
	retq
.Lfunc_end107:

	.section	.text$124,"xr"
	.globl	dethrux_encoder_feed_v3
	.p2align	4
dethrux_encoder_feed_v3:
	pushq	%rbp
	pushq	%r15
	pushq	%r14
	pushq	%r13
	pushq	%r12
	pushq	%rbx
	subq	$200, %rsp
	movq	256(%rsp), %rbp
	xorl	%eax, %eax
	testq	%rcx, %rcx
	sete	%al
	shll	$12, %eax
	addq	%rcx, %rax
	movq	%rax, 136(%rsp)
	xorl	%r14d, %r14d
	testq	%r9, %r9
	sete	%r14b
	shll	$12, %r14d
	addq	%r9, %r14
	cmpl	$1, %edx
	movq	%r8, 112(%rsp)
	movq	%r14, 88(%rsp)
	movq	%rdi, 176(%rsp)
	movq	%rsi, 168(%rsp)
	jne	.LBB108_42
	movl	$0, 84(%rsp)
	movl	(%rsi), %eax
	movl	%eax, 48(%rsp)
	shrl	$24, %eax
	cmpb	$3, %al
	movl	$3, %edx
	cmovbl	%eax, %edx
	movl	$0, 52(%rsp)
	testl	%eax, %eax
	movq	%rdx, 56(%rsp)
	je	.LBB108_2
	xorl	%edi, %edi
	xorl	%eax, %eax
.LBB108_4:
	leaq	(%rsp,%rdi), %rsi
	addq	$48, %rsi
	movq	%rdx, %rbx
	movq	%rdi, 64(%rsp)
	subq	%rdi, %rbx
	movl	$4, %r12d
	subq	%rbx, %r12
	cmpq	%r8, %r12
	cmovaeq	%r8, %r12
	movl	$0, 16(%rsp)
	leaq	16(%rsp), %rdi
	movq	%rbx, %rdx
	movq	%rax, %r15
	callq	sysv_memcpy
	leaq	(%rsp,%rbx), %rdi
	addq	$16, %rdi
	movq	136(%rsp), %rsi
	movq	%r12, %rdx
	callq	sysv_memcpy
	addq	%rbx, %r12
	movl	16(%rsp), %eax
	movl	%eax, 52(%rsp)
	leaq	(%r14,%r15), %rax
	movq	%r12, %r14
	movq	%rax, %r12
	movq	%r15, 120(%rsp)
	subq	%r15, %rbp
	vpxor	%xmm0, %xmm0, %xmm0
	vmovdqa	%xmm0, 16(%rsp)
	movq	$0, 32(%rsp)
	leaq	52(%rsp), %rbx
	movq	%rbx, %rdi
	movq	%r14, %rsi
	movq	%rax, %rdx
	movq	%rbp, %rcx
	callq	L_47
	cmpq	%r14, %rax
	jne	.LBB108_6
	xorl	%r13d, %r13d
	xorl	%ebp, %ebp
.LBB108_23:
	addq	%r14, %rbp
	movq	64(%rsp), %rdi
	addq	%rbp, %rdi
	addq	120(%rsp), %r13
	addq	%rdx, %r13
	testq	%rbp, %rbp
	movq	%r13, %r12
	je	.LBB108_40
	movq	112(%rsp), %r8
	movq	256(%rsp), %rbp
	movq	88(%rsp), %r14
	movq	56(%rsp), %rdx
	jmp	.LBB108_27
	.p2align	4
.LBB108_6:
	movq	%rbp, %r15
	xorl	%ebp, %ebp
	movq	%r15, 160(%rsp)
	movq	%r12, 144(%rsp)
	movq	%r14, 152(%rsp)
	xorl	%r13d, %r13d
	jmp	.LBB108_7
	.p2align	4
.LBB108_19:
	movq	%r15, %r12
	movq	%rbp, %rbx
.LBB108_22:
	movq	184(%rsp), %rbp
	addq	%rbx, %rbp
	movq	128(%rsp), %r13
	leaq	(%r12,%r13), %rax
	addq	%r12, %r13
	addq	$2, %r13
	leaq	(%rsp,%rbp), %rbx
	addq	$52, %rbx
	movq	152(%rsp), %r14
	subq	%rbp, %r14
	movq	144(%rsp), %rcx
	leaq	(%rcx,%rax), %r12
	addq	$2, %r12
	movq	160(%rsp), %r15
	subq	%r13, %r15
	vpxor	%xmm0, %xmm0, %xmm0
	vmovdqa	%xmm0, 16(%rsp)
	movq	$0, 32(%rsp)
	movq	%rbx, %rdi
	movq	%r14, %rsi
	movq	%r12, %rdx
	movq	%r15, %rcx
	callq	L_47
	cmpq	%r14, %rax
	je	.LBB108_23
.LBB108_7:
	movq	%rdx, (%rsp)
	leaq	16(%rsp), %rdi
	movq	%rbx, %rsi
	movq	%r14, %rdx
	movq	%r12, %rcx
	movq	%r15, %r8
	movq	%rax, %r9
	callq	L_54
	addq	16(%rsp), %rbp
	movzbl	32(%rsp), %eax
	addq	24(%rsp), %r13
	cmpb	$1, %al
	movq	%r13, %r12
	jne	.LBB108_25
	movq	160(%rsp), %r13
	subq	%r12, %r13
	cmpq	$2, %r13
	jb	.LBB108_37
	movzbl	33(%rsp), %eax
	movq	144(%rsp), %rcx
	movw	$-513, (%rcx,%r12)
	addq	%rax, %rbp
	leaq	(%rsp,%rbp), %rdi
	addq	$52, %rdi
	movq	152(%rsp), %r14
	movq	%rbp, 184(%rsp)
	subq	%rbp, %r14
	movq	%r12, 128(%rsp)
	leaq	(%rcx,%r12), %rdx
	addq	$2, %rdx
	addq	$-2, %r13
	movq	%rdi, 104(%rsp)
	movq	%r14, %rsi
	movq	%rdx, 96(%rsp)
	movq	%r13, %rcx
	callq	L_58
	movq	%rax, %rbx
	movq	%rdx, %r12
	movq	%r14, 72(%rsp)
	subq	%rax, %r14
	cmpq	$64, %r14
	jb	.LBB108_22
	movq	%r13, 192(%rsp)
	.p2align	4
.LBB108_11:
	subq	%r12, %r13
	cmpq	$128, %r13
	jb	.LBB108_22
	movq	104(%rsp), %rax
	leaq	(%rax,%rbx), %rdi
	movq	96(%rsp), %rcx
	leaq	(%rcx,%r12), %rdx
	vmovdqu	(%rax,%rbx), %xmm0
	vpmovmskb	%xmm0, %eax
	testl	%eax, %eax
	je	.LBB108_14
	xorl	%ebp, %ebp
	jmp	.LBB108_15
	.p2align	4
.LBB108_14:
	movq	%r13, %rsi
	shrq	%rsi
	cmpq	%r14, %rsi
	cmovaeq	%r14, %rsi
	movq	%rdi, %rbp
	movq	%rdx, %r15
	callq	L_50
	movq	%rbp, %rdi
	movq	%r15, %rdx
	movq	%rax, %rbp
.LBB108_15:
	leaq	(,%rbp,2), %r15
	movq	%r14, %rax
	subq	%rbp, %rax
	cmpq	$64, %rax
	jb	.LBB108_18
	movq	%r13, %rax
	subq	%r15, %rax
	cmpq	$128, %rax
	jb	.LBB108_18
	movq	%r14, %rsi
	movq	%r13, %rcx
	movq	%rbp, %r8
	movq	%r15, %r9
	callq	L_49
	movq	%rax, %rbp
	movq	%rdx, %r15
.LBB108_18:
	addq	%rbx, %rbp
	addq	%r12, %r15
	movq	72(%rsp), %rsi
	subq	%rbp, %rsi
	cmpq	$4, %rsi
	movq	192(%rsp), %r13
	jb	.LBB108_19
	movq	%r13, %rcx
	subq	%r15, %rcx
	cmpq	$4, %rcx
	jb	.LBB108_19
	movq	104(%rsp), %rax
	leaq	(%rax,%rbp), %rdi
	movq	96(%rsp), %rax
	leaq	(%rax,%r15), %rdx
	callq	L_58
	movq	%rax, %rbx
	movq	%rdx, %r12
	addq	%rbp, %rbx
	addq	%r15, %r12
	movq	72(%rsp), %r14
	subq	%rbx, %r14
	cmpq	$63, %r14
	ja	.LBB108_11
	jmp	.LBB108_22
.LBB108_25:
	movq	64(%rsp), %rdi
	addq	%rbp, %rdi
	addq	120(%rsp), %r12
	testq	%rbp, %rbp
	movq	112(%rsp), %r8
	movq	256(%rsp), %rbp
	movq	88(%rsp), %r14
	movq	56(%rsp), %rdx
	je	.LBB108_36
	cmpb	$3, %al
	je	.LBB108_38
.LBB108_27:
	movq	%r12, %rax
	cmpq	%rdx, %rdi
	jb	.LBB108_4
	jmp	.LBB108_28
.LBB108_42:
	movl	$0, 84(%rsp)
	movl	(%rsi), %eax
	movl	%eax, 48(%rsp)
	shrl	$24, %eax
	cmpb	$3, %al
	movl	$3, %edx
	cmovbl	%eax, %edx
	movl	$0, 52(%rsp)
	testl	%eax, %eax
	movq	%rdx, 56(%rsp)
	je	.LBB108_43
	xorl	%edi, %edi
	xorl	%eax, %eax
.LBB108_45:
	leaq	(%rsp,%rdi), %rsi
	addq	$48, %rsi
	movq	%rdx, %rbx
	movq	%rdi, 64(%rsp)
	subq	%rdi, %rbx
	movl	$4, %r13d
	subq	%rbx, %r13
	cmpq	%r8, %r13
	cmovaeq	%r8, %r13
	movl	$0, 16(%rsp)
	leaq	16(%rsp), %rdi
	movq	%rbx, %rdx
	movq	%rax, %r15
	callq	sysv_memcpy
	leaq	(%rsp,%rbx), %rdi
	addq	$16, %rdi
	movq	136(%rsp), %rsi
	movq	%r13, %rdx
	callq	sysv_memcpy
	addq	%rbx, %r13
	movl	16(%rsp), %eax
	movl	%eax, 52(%rsp)
	addq	%r15, %r14
	movq	%rbp, %r12
	movq	%r15, 120(%rsp)
	subq	%r15, %r12
	vpxor	%xmm0, %xmm0, %xmm0
	vmovdqa	%xmm0, 16(%rsp)
	movq	$0, 32(%rsp)
	leaq	52(%rsp), %rbx
	movq	%rbx, %rdi
	movq	%r13, %rsi
	movq	%r14, %rdx
	movq	%r12, %rcx
	callq	L_59
	movq	%r13, %rcx
	cmpq	%r13, %rax
	jne	.LBB108_47
	xorl	%r13d, %r13d
	xorl	%ebp, %ebp
	movq	%rcx, %r14
.LBB108_64:
	addq	%r14, %rbp
	movq	64(%rsp), %rdi
	addq	%rbp, %rdi
	addq	120(%rsp), %r13
	addq	%rdx, %r13
	testq	%rbp, %rbp
	movq	%r13, %r12
	je	.LBB108_81
	movq	112(%rsp), %r8
	movq	256(%rsp), %rbp
	movq	88(%rsp), %r14
	movq	56(%rsp), %rdx
	jmp	.LBB108_68
	.p2align	4
.LBB108_47:
	xorl	%ebp, %ebp
	movq	%r12, 160(%rsp)
	movq	%r12, %r15
	movq	%r14, 144(%rsp)
	movq	%r14, %r12
	movq	%rcx, 152(%rsp)
	movq	%rcx, %r14
	xorl	%r13d, %r13d
	jmp	.LBB108_48
	.p2align	4
.LBB108_60:
	movq	%r13, %r12
	movq	%r14, %rbx
.LBB108_63:
	movq	184(%rsp), %rbp
	addq	%rbx, %rbp
	movq	128(%rsp), %r13
	leaq	(%r12,%r13), %rax
	addq	%r12, %r13
	addq	$2, %r13
	leaq	(%rsp,%rbp), %rbx
	addq	$52, %rbx
	movq	152(%rsp), %r14
	subq	%rbp, %r14
	movq	144(%rsp), %rcx
	leaq	(%rcx,%rax), %r12
	addq	$2, %r12
	movq	160(%rsp), %r15
	subq	%r13, %r15
	vpxor	%xmm0, %xmm0, %xmm0
	vmovdqa	%xmm0, 16(%rsp)
	movq	$0, 32(%rsp)
	movq	%rbx, %rdi
	movq	%r14, %rsi
	movq	%r12, %rdx
	movq	%r15, %rcx
	callq	L_59
	cmpq	%r14, %rax
	je	.LBB108_64
.LBB108_48:
	movq	%rdx, (%rsp)
	leaq	16(%rsp), %rdi
	movq	%rbx, %rsi
	movq	%r14, %rdx
	movq	%r12, %rcx
	movq	%r15, %r8
	movq	%rax, %r9
	callq	L_66
	addq	16(%rsp), %rbp
	movzbl	32(%rsp), %eax
	addq	24(%rsp), %r13
	cmpb	$1, %al
	movq	%r13, %r12
	jne	.LBB108_66
	movq	160(%rsp), %r15
	subq	%r12, %r15
	cmpq	$2, %r15
	jb	.LBB108_78
	movzbl	33(%rsp), %eax
	movq	144(%rsp), %rcx
	movw	$-3, (%rcx,%r12)
	addq	%rax, %rbp
	leaq	(%rsp,%rbp), %rdi
	addq	$52, %rdi
	movq	152(%rsp), %r14
	movq	%rbp, 184(%rsp)
	subq	%rbp, %r14
	movq	%r12, 128(%rsp)
	leaq	(%rcx,%r12), %rdx
	addq	$2, %rdx
	addq	$-2, %r15
	movq	%rdi, 104(%rsp)
	movq	%r14, %rsi
	movq	%rdx, 96(%rsp)
	movq	%r15, %rcx
	callq	L_70
	movq	%rax, %rbx
	movq	%rdx, %r12
	movq	%r14, 72(%rsp)
	movq	%r14, %rbp
	subq	%rax, %rbp
	cmpq	$64, %rbp
	jb	.LBB108_63
	movq	%r15, 192(%rsp)
	.p2align	4
.LBB108_52:
	subq	%r12, %r15
	cmpq	$128, %r15
	jb	.LBB108_63
	movq	104(%rsp), %rax
	leaq	(%rax,%rbx), %rdi
	movq	96(%rsp), %rcx
	leaq	(%rcx,%r12), %rdx
	vmovdqu	(%rax,%rbx), %xmm0
	vpmovmskb	%xmm0, %eax
	testl	%eax, %eax
	je	.LBB108_55
	xorl	%r14d, %r14d
	jmp	.LBB108_56
	.p2align	4
.LBB108_55:
	movq	%r15, %rsi
	shrq	%rsi
	cmpq	%rbp, %rsi
	cmovaeq	%rbp, %rsi
	movq	%rdi, %r13
	movq	%rdx, %r14
	callq	L_62
	movq	%r13, %rdi
	movq	%r14, %rdx
	movq	%rax, %r14
.LBB108_56:
	leaq	(%r14,%r14), %r13
	movq	%rbp, %rax
	subq	%r14, %rax
	cmpq	$64, %rax
	jb	.LBB108_59
	movq	%r15, %rax
	subq	%r13, %rax
	cmpq	$128, %rax
	jb	.LBB108_59
	movq	%rbp, %rsi
	movq	%r15, %rcx
	movq	%r14, %r8
	movq	%r13, %r9
	callq	L_61
	movq	%rax, %r14
	movq	%rdx, %r13
.LBB108_59:
	addq	%rbx, %r14
	addq	%r12, %r13
	movq	72(%rsp), %rsi
	subq	%r14, %rsi
	cmpq	$4, %rsi
	movq	192(%rsp), %r15
	jb	.LBB108_60
	movq	%r15, %rcx
	subq	%r13, %rcx
	cmpq	$4, %rcx
	jb	.LBB108_60
	movq	104(%rsp), %rax
	leaq	(%rax,%r14), %rdi
	movq	96(%rsp), %rax
	leaq	(%rax,%r13), %rdx
	callq	L_70
	movq	%rax, %rbx
	movq	%rdx, %r12
	addq	%r14, %rbx
	addq	%r13, %r12
	movq	72(%rsp), %rbp
	subq	%rbx, %rbp
	cmpq	$63, %rbp
	ja	.LBB108_52
	jmp	.LBB108_63
.LBB108_66:
	movq	64(%rsp), %rdi
	addq	%rbp, %rdi
	addq	120(%rsp), %r12
	testq	%rbp, %rbp
	movq	112(%rsp), %r8
	movq	256(%rsp), %rbp
	movq	88(%rsp), %r14
	movq	56(%rsp), %rdx
	je	.LBB108_77
	cmpb	$3, %al
	je	.LBB108_79
.LBB108_68:
	movq	%r12, %rax
	cmpq	%rdx, %rdi
	jb	.LBB108_45
	jmp	.LBB108_69
.LBB108_37:
	movq	64(%rsp), %rdi
	addq	%rbp, %rdi
	addq	120(%rsp), %r12
	movq	56(%rsp), %rdx
.LBB108_38:
	cmpq	%rdi, %rdx
	movq	%rdi, %rax
	cmovbq	%rdx, %rax
	leaq	(%rsp,%rax), %rsi
	addq	$48, %rsi
	movq	%rdx, %rbx
	subq	%rax, %rbx
	xorl	%r14d, %r14d
	subq	%rdx, %rdi
	cmovaeq	%rdi, %r14
	jmp	.LBB108_39
.LBB108_78:
	movq	64(%rsp), %rdi
	addq	%rbp, %rdi
	addq	120(%rsp), %r12
	movq	56(%rsp), %rdx
.LBB108_79:
	cmpq	%rdi, %rdx
	movq	%rdi, %rax
	cmovbq	%rdx, %rax
	leaq	(%rsp,%rax), %rsi
	addq	$48, %rsi
	movq	%rdx, %rbx
	subq	%rax, %rbx
	xorl	%r14d, %r14d
	subq	%rdx, %rdi
	cmovaeq	%rdi, %r14
	jmp	.LBB108_80
.LBB108_2:
	xorl	%r12d, %r12d
	xorl	%edi, %edi
.LBB108_28:
	movq	%rdi, 64(%rsp)
	movq	%rdi, %rax
	subq	%rdx, %rax
	movq	136(%rsp), %rcx
	leaq	(%rcx,%rax), %rbx
	movq	%r8, %r15
	subq	%rax, %r15
	addq	%r12, %r14
	movq	%r12, 128(%rsp)
	subq	%r12, %rbp
	vpxor	%xmm0, %xmm0, %xmm0
	vmovdqa	%xmm0, 16(%rsp)
	movq	$0, 32(%rsp)
	movq	%rbx, %rdi
	movq	%r15, %rsi
	movq	%r14, %rdx
	movq	%rbp, %rcx
	callq	L_47
	cmpq	%r15, %rax
	jne	.LBB108_31
	xorl	%r12d, %r12d
	xorl	%r13d, %r13d
	jmp	.LBB108_30
.LBB108_43:
	xorl	%r12d, %r12d
	xorl	%edi, %edi
.LBB108_69:
	movq	%rdi, 64(%rsp)
	movq	%rdi, %rax
	subq	%rdx, %rax
	movq	136(%rsp), %rcx
	leaq	(%rcx,%rax), %rbx
	movq	%r8, %r15
	subq	%rax, %r15
	addq	%r12, %r14
	movq	%r12, 128(%rsp)
	subq	%r12, %rbp
	vpxor	%xmm0, %xmm0, %xmm0
	vmovdqa	%xmm0, 16(%rsp)
	movq	$0, 32(%rsp)
	movq	%rbx, %rdi
	movq	%r15, %rsi
	movq	%r14, %rdx
	movq	%rbp, %rcx
	callq	L_59
	cmpq	%r15, %rax
	jne	.LBB108_72
	xorl	%r12d, %r12d
	xorl	%r13d, %r13d
	jmp	.LBB108_71
.LBB108_31:
	movq	%r14, %rcx
	xorl	%r14d, %r14d
	movq	%rbp, 104(%rsp)
	movq	%rcx, 88(%rsp)
	movq	%r15, 72(%rsp)
	movq	%rbx, 96(%rsp)
	movq	%rbx, %rsi
	xorl	%ebx, %ebx
	.p2align	4
.LBB108_32:
	movq	%rdx, (%rsp)
	leaq	16(%rsp), %rdi
	movq	%r15, %rdx
	movq	%rbp, %r8
	movq	%rax, %r9
	callq	L_54
	addq	16(%rsp), %r14
	movzbl	32(%rsp), %eax
	addq	24(%rsp), %rbx
	cmpb	$1, %al
	jne	.LBB108_35
	movq	104(%rsp), %rbp
	movq	%rbp, %r8
	subq	%rbx, %r8
	cmpq	$2, %r8
	jb	.LBB108_34
	movzbl	33(%rsp), %edx
	movq	88(%rsp), %rax
	leaq	(%rax,%rbx), %rcx
	movq	72(%rsp), %rsi
	subq	%r14, %rsi
	movq	96(%rsp), %r15
	leaq	(%r15,%r14), %rdi
	callq	L_57
	movq	%rax, %r13
	movq	%rdx, %r12
	addq	%r14, %r13
	addq	%rbx, %r12
	leaq	(%r15,%r13), %r14
	movq	72(%rsp), %r15
	subq	%r13, %r15
	movq	88(%rsp), %rax
	leaq	(%rax,%r12), %rbx
	subq	%r12, %rbp
	vpxor	%xmm0, %xmm0, %xmm0
	vmovdqa	%xmm0, 16(%rsp)
	movq	$0, 32(%rsp)
	movq	%r14, %rdi
	movq	%r15, %rsi
	movq	%rbx, %rdx
	movq	%rbp, %rcx
	callq	L_47
	movq	%r14, %rsi
	movq	%rbx, %rcx
	movq	%r13, %r14
	movq	%r12, %rbx
	cmpq	%r15, %rax
	jne	.LBB108_32
.LBB108_30:
	addq	%rdx, %r12
	addq	%r15, %r13
	xorl	%eax, %eax
	movq	%r12, %rbx
	movq	%r13, %r14
	jmp	.LBB108_35
.LBB108_72:
	movq	%r14, %rcx
	xorl	%r14d, %r14d
	movq	%rbp, 104(%rsp)
	movq	%rcx, 88(%rsp)
	movq	%r15, 72(%rsp)
	movq	%rbx, 96(%rsp)
	movq	%rbx, %rsi
	xorl	%ebx, %ebx
	.p2align	4
.LBB108_73:
	movq	%rdx, (%rsp)
	leaq	16(%rsp), %rdi
	movq	%r15, %rdx
	movq	%rbp, %r8
	movq	%rax, %r9
	callq	L_66
	addq	16(%rsp), %r14
	movzbl	32(%rsp), %eax
	addq	24(%rsp), %rbx
	cmpb	$1, %al
	jne	.LBB108_76
	movq	104(%rsp), %rbp
	movq	%rbp, %r8
	subq	%rbx, %r8
	cmpq	$2, %r8
	jb	.LBB108_75
	movzbl	33(%rsp), %edx
	movq	88(%rsp), %rax
	leaq	(%rax,%rbx), %rcx
	movq	72(%rsp), %rsi
	subq	%r14, %rsi
	movq	96(%rsp), %r15
	leaq	(%r15,%r14), %rdi
	callq	L_69
	movq	%rax, %r13
	movq	%rdx, %r12
	addq	%r14, %r13
	addq	%rbx, %r12
	leaq	(%r15,%r13), %r14
	movq	72(%rsp), %r15
	subq	%r13, %r15
	movq	88(%rsp), %rax
	leaq	(%rax,%r12), %rbx
	subq	%r12, %rbp
	vpxor	%xmm0, %xmm0, %xmm0
	vmovdqa	%xmm0, 16(%rsp)
	movq	$0, 32(%rsp)
	movq	%r14, %rdi
	movq	%r15, %rsi
	movq	%rbx, %rdx
	movq	%rbp, %rcx
	callq	L_59
	movq	%r14, %rsi
	movq	%rbx, %rcx
	movq	%r13, %r14
	movq	%r12, %rbx
	cmpq	%r15, %rax
	jne	.LBB108_73
.LBB108_71:
	addq	%rdx, %r12
	addq	%r15, %r13
	xorl	%eax, %eax
	movq	%r12, %rbx
	movq	%r13, %r14
	jmp	.LBB108_76
.LBB108_34:
	movb	$3, %al
.LBB108_35:
	movq	64(%rsp), %rdi
	addq	%r14, %rdi
	movq	128(%rsp), %r12
	addq	%rbx, %r12
	movq	112(%rsp), %r8
	movq	56(%rsp), %rdx
.LBB108_36:
	cmpq	%rdi, %rdx
	movq	%rdi, %rcx
	cmovbq	%rdx, %rcx
	leaq	(%rsp,%rcx), %rsi
	addq	$48, %rsi
	movq	%rdx, %rbx
	subq	%rcx, %rbx
	xorl	%r14d, %r14d
	subq	%rdx, %rdi
	cmovaeq	%rdi, %r14
	cmpb	$3, %al
	jne	.LBB108_41
.LBB108_39:
	movb	$0, 18(%rsp)
	movw	$0, 16(%rsp)
	leaq	16(%rsp), %rdi
	movq	%rbx, %rdx
	callq	sysv_memcpy
	movzbl	18(%rsp), %eax
	shll	$16, %eax
	movzwl	16(%rsp), %ecx
	orl	%eax, %ecx
	shll	$24, %ebx
	orl	%ecx, %ebx
	movb	$3, %dl
	movq	168(%rsp), %rax
	movl	%ebx, (%rax)
	jmp	.LBB108_84
.LBB108_75:
	movb	$3, %al
.LBB108_76:
	movq	64(%rsp), %rdi
	addq	%r14, %rdi
	movq	128(%rsp), %r12
	addq	%rbx, %r12
	movq	112(%rsp), %r8
	movq	56(%rsp), %rdx
.LBB108_77:
	cmpq	%rdi, %rdx
	movq	%rdi, %rcx
	cmovbq	%rdx, %rcx
	leaq	(%rsp,%rcx), %rsi
	addq	$48, %rsi
	movq	%rdx, %rbx
	subq	%rcx, %rbx
	xorl	%r14d, %r14d
	subq	%rdx, %rdi
	cmovaeq	%rdi, %r14
	cmpb	$3, %al
	jne	.LBB108_82
.LBB108_80:
	movb	$0, 18(%rsp)
	movw	$0, 16(%rsp)
	leaq	16(%rsp), %rdi
	movq	%rbx, %rdx
	callq	sysv_memcpy
	movzbl	18(%rsp), %eax
	shll	$16, %eax
	movzwl	16(%rsp), %ecx
	orl	%eax, %ecx
	shll	$24, %ebx
	orl	%ecx, %ebx
	movb	$3, %dl
	movq	%r14, %rsi
	jmp	.LBB108_83
.LBB108_40:
	movq	56(%rsp), %rcx
	cmpq	%rdi, %rcx
	movq	%rdi, %rax
	cmovbq	%rcx, %rax
	leaq	(%rsp,%rax), %rsi
	addq	$48, %rsi
	movq	%rcx, %rbx
	subq	%rax, %rbx
	xorl	%r14d, %r14d
	subq	%rcx, %rdi
	cmovaeq	%rdi, %r14
	movq	112(%rsp), %r8
.LBB108_41:
	movq	%r8, %rax
	subq	%r14, %rax
	movq	136(%rsp), %r13
	addq	%r14, %r13
	movl	$4, %r14d
	subq	%rbx, %r14
	cmpq	%rax, %r14
	cmovaeq	%rax, %r14
	movl	$0, 16(%rsp)
	leaq	16(%rsp), %rdi
	movq	%rbx, %rdx
	movq	%r8, %r15
	callq	sysv_memcpy
	leaq	(%rsp,%rbx), %rdi
	addq	$16, %rdi
	movq	%r13, %rsi
	movq	%r14, %rdx
	callq	sysv_memcpy
	addq	%rbx, %r14
	movl	16(%rsp), %eax
	movl	%eax, 84(%rsp)
	movb	$0, 18(%rsp)
	movw	$0, 16(%rsp)
	leaq	16(%rsp), %rdi
	leaq	84(%rsp), %rsi
	movq	%r14, %rdx
	callq	sysv_memcpy
	movzbl	18(%rsp), %eax
	shll	$16, %eax
	movzwl	16(%rsp), %ecx
	orl	%eax, %ecx
	shll	$24, %r14d
	orl	%ecx, %r14d
	xorl	%edx, %edx
	movq	168(%rsp), %rax
	movl	%r14d, (%rax)
	movq	%r15, %r14
	jmp	.LBB108_84
.LBB108_81:
	movq	56(%rsp), %rcx
	cmpq	%rdi, %rcx
	movq	%rdi, %rax
	cmovbq	%rcx, %rax
	leaq	(%rsp,%rax), %rsi
	addq	$48, %rsi
	movq	%rcx, %rbx
	subq	%rax, %rbx
	xorl	%r14d, %r14d
	subq	%rcx, %rdi
	cmovaeq	%rdi, %r14
	movq	112(%rsp), %r8
.LBB108_82:
	movq	%r8, %rax
	subq	%r14, %rax
	movq	136(%rsp), %r13
	addq	%r14, %r13
	movl	$4, %r14d
	subq	%rbx, %r14
	cmpq	%rax, %r14
	cmovaeq	%rax, %r14
	movl	$0, 16(%rsp)
	leaq	16(%rsp), %rdi
	movq	%rbx, %rdx
	movq	%r8, %r15
	callq	sysv_memcpy
	leaq	(%rsp,%rbx), %rdi
	addq	$16, %rdi
	movq	%r13, %rsi
	movq	%r14, %rdx
	callq	sysv_memcpy
	addq	%rbx, %r14
	movl	16(%rsp), %eax
	movl	%eax, 84(%rsp)
	movb	$0, 18(%rsp)
	movw	$0, 16(%rsp)
	leaq	16(%rsp), %rdi
	leaq	84(%rsp), %rsi
	movq	%r14, %rdx
	callq	sysv_memcpy
	movq	%r15, %rsi
	movzbl	18(%rsp), %eax
	shll	$16, %eax
	movzwl	16(%rsp), %ecx
	orl	%eax, %ecx
	shll	$24, %r14d
	orl	%ecx, %r14d
	xorl	%edx, %edx
	movl	%r14d, %ebx
.LBB108_83:
	movq	168(%rsp), %rax
	movl	%ebx, (%rax)
	movq	%rsi, %r14
.LBB108_84:
	movq	176(%rsp), %rax
	xorl	%ecx, %ecx
	testb	%dl, %dl
	setne	%cl
	leal	(%rcx,%rcx,2), %ecx
	movq	%r14, (%rax)
	movq	%r12, 8(%rax)
	movl	%ecx, 16(%rax)
	movl	$0, 20(%rax)
	addq	$200, %rsp
	popq	%rbx
	popq	%r12
	popq	%r13
	popq	%r14
	popq	%r15
	popq	%rbp
	retq
.Lfunc_end108:

	.section	.text$125,"xr"
	.globl	dethrux_encoder_finish_v3
	.p2align	4
dethrux_encoder_finish_v3:
	movq	%rdi, %rax
	xorl	%edi, %edi
	testq	%rcx, %rcx
	sete	%dil
	shll	$12, %edi
	movzbl	3(%rsi), %r9d
	cmpl	$1, %edx
	jne	.LBB109_4
	xorl	%edx, %edx
	testb	%r9b, %r9b
	je	.LBB109_8
	cmpq	$2, %r8
	jb	.LBB109_6
	movw	$-513, (%rcx,%rdi)
	jmp	.LBB109_10
.LBB109_4:
	xorl	%edx, %edx
	testb	%r9b, %r9b
	je	.LBB109_8
	cmpq	$2, %r8
	jae	.LBB109_9
.LBB109_6:
	movl	$3, %edx
	xorl	%ecx, %ecx
	jmp	.LBB109_12
.LBB109_8:
	xorl	%ecx, %ecx
	jmp	.LBB109_11
.LBB109_9:
	movw	$-3, (%rcx,%rdi)
.LBB109_10:
	movl	$2, %ecx
.LBB109_11:
	movl	$0, (%rsi)
.LBB109_12:
	movq	$0, (%rax)
	movq	%rcx, 8(%rax)
	movl	%edx, 16(%rax)
	movl	$0, 20(%rax)
	retq
.Lfunc_end109:

	.section	.text$126,"xr"
	.globl	dethrux_from_latin1_v3
	.p2align	4
dethrux_from_latin1_v3:
	pushq	%rbp
	pushq	%r15
	pushq	%r14
	pushq	%r13
	pushq	%r12
	pushq	%rbx
	movq	%rdi, %rax
	xorl	%r11d, %r11d
	testq	%rdx, %rdx
	sete	%r11b
	shll	$12, %r11d
	leaq	(%rdx,%r11), %rbx
	xorl	%r10d, %r10d
	testq	%r8, %r8
	sete	%r10b
	shll	$12, %r10d
	leaq	(%r8,%r10), %r14
	shrq	%r9
	cmpq	%rcx, %r9
	movq	%rcx, %rdi
	cmovbq	%r9, %rdi
	cmpl	$1, %esi
	jne	.LBB110_18
	cmpq	$16, %rdi
	jb	.LBB110_10
	leaq	-16(%rdi), %r12
	movq	%r12, %r15
	shrq	$4, %r15
	incq	%r15
	movl	%r15d, %esi
	andl	$3, %esi
	cmpq	$48, %r12
	jae	.LBB110_4
	xorl	%edx, %edx
	jmp	.LBB110_7
.LBB110_18:
	cmpq	$16, %rdi
	jb	.LBB110_27
	leaq	-16(%rdi), %r12
	movq	%r12, %r15
	shrq	$4, %r15
	incq	%r15
	movl	%r15d, %esi
	andl	$3, %esi
	cmpq	$48, %r12
	jae	.LBB110_21
	xorl	%r12d, %r12d
	jmp	.LBB110_24
.LBB110_10:
	testq	%rdi, %rdi
	je	.LBB110_35
	movl	%edi, %esi
	andl	$7, %esi
	cmpq	$8, %rdi
	jae	.LBB110_13
	xorl	%ebx, %ebx
	jmp	.LBB110_16
.LBB110_27:
	testq	%rdi, %rdi
	je	.LBB110_35
	movl	%edi, %esi
	andl	$7, %esi
	cmpq	$8, %rdi
	jae	.LBB110_30
	xorl	%ebx, %ebx
	jmp	.LBB110_33
.LBB110_4:
	andq	$-4, %r15
	addq	%rdx, %r11
	addq	$48, %r11
	leaq	(%r10,%r8), %r12
	addq	$112, %r12
	xorl	%edx, %edx
	.p2align	4
.LBB110_5:
	vpmovzxbw	-48(%r11,%rdx), %ymm0
	vpsllw	$8, %ymm0, %ymm0
	vmovdqu	%ymm0, -112(%r12,%rdx,2)
	vpmovzxbw	-32(%r11,%rdx), %ymm0
	vpsllw	$8, %ymm0, %ymm0
	vmovdqu	%ymm0, -80(%r12,%rdx,2)
	vpmovzxbw	-16(%r11,%rdx), %ymm0
	vpsllw	$8, %ymm0, %ymm0
	vmovdqu	%ymm0, -48(%r12,%rdx,2)
	vpmovzxbw	(%r11,%rdx), %ymm0
	vpsllw	$8, %ymm0, %ymm0
	vmovdqu	%ymm0, -16(%r12,%rdx,2)
	addq	$64, %rdx
	addq	$-4, %r15
	jne	.LBB110_5
	testq	%rsi, %rsi
	je	.LBB110_9
.LBB110_7:
	leaq	(%r10,%rdx,2), %r10
	addq	%r10, %r8
	addq	$16, %r8
	addq	%rbx, %rdx
	shll	$4, %esi
	xorl	%r10d, %r10d
	.p2align	4
.LBB110_8:
	vpmovzxbw	(%rdx,%r10), %ymm0
	vpsllw	$8, %ymm0, %ymm0
	vmovdqu	%ymm0, -16(%r8,%r10,2)
	addq	$16, %r10
	cmpq	%r10, %rsi
	jne	.LBB110_8
.LBB110_9:
	vpmovzxbw	-16(%rbx,%rdi), %ymm0
	vpsllw	$8, %ymm0, %ymm0
	vmovdqu	%ymm0, -32(%r14,%rdi,2)
	jmp	.LBB110_35
.LBB110_21:
	andq	$-4, %r15
	leaq	(%r11,%rdx), %r13
	addq	$48, %r13
	leaq	(%r10,%r8), %rbp
	addq	$112, %rbp
	xorl	%r12d, %r12d
	.p2align	4
.LBB110_22:
	vpmovzxbw	-48(%r13,%r12), %ymm0
	vmovdqu	%ymm0, -112(%rbp,%r12,2)
	vpmovzxbw	-32(%r13,%r12), %ymm0
	vmovdqu	%ymm0, -80(%rbp,%r12,2)
	vpmovzxbw	-16(%r13,%r12), %ymm0
	vmovdqu	%ymm0, -48(%rbp,%r12,2)
	vpmovzxbw	(%r13,%r12), %ymm0
	vmovdqu	%ymm0, -16(%rbp,%r12,2)
	addq	$64, %r12
	addq	$-4, %r15
	jne	.LBB110_22
	testq	%rsi, %rsi
	je	.LBB110_26
.LBB110_24:
	leaq	(%r10,%r12,2), %r10
	addq	%r10, %r8
	addq	$16, %r8
	addq	%r12, %r11
	addq	%r11, %rdx
	shll	$4, %esi
	xorl	%r10d, %r10d
	.p2align	4
.LBB110_25:
	vpmovzxbw	(%rdx,%r10), %ymm0
	vmovdqu	%ymm0, -16(%r8,%r10,2)
	addq	$16, %r10
	cmpq	%r10, %rsi
	jne	.LBB110_25
.LBB110_26:
	vpmovzxbw	-16(%rbx,%rdi), %ymm0
	vmovdqu	%ymm0, -32(%r14,%rdi,2)
	jmp	.LBB110_35
.LBB110_13:
	movl	%edi, %r14d
	andl	$8, %r14d
	leaq	(%r11,%rdx), %r15
	addq	$7, %r15
	leaq	(%r10,%r8), %r12
	addq	$14, %r12
	xorl	%ebx, %ebx
	.p2align	4
.LBB110_14:
	movzbl	-7(%r15,%rbx), %ebp
	shll	$8, %ebp
	movw	%bp, -14(%r12,%rbx,2)
	movzbl	-6(%r15,%rbx), %ebp
	shll	$8, %ebp
	movw	%bp, -12(%r12,%rbx,2)
	movzbl	-5(%r15,%rbx), %ebp
	shll	$8, %ebp
	movw	%bp, -10(%r12,%rbx,2)
	movzbl	-4(%r15,%rbx), %ebp
	shll	$8, %ebp
	movw	%bp, -8(%r12,%rbx,2)
	movzbl	-3(%r15,%rbx), %ebp
	shll	$8, %ebp
	movw	%bp, -6(%r12,%rbx,2)
	movzbl	-2(%r15,%rbx), %ebp
	shll	$8, %ebp
	movw	%bp, -4(%r12,%rbx,2)
	movzbl	-1(%r15,%rbx), %ebp
	shll	$8, %ebp
	movw	%bp, -2(%r12,%rbx,2)
	movzbl	(%r15,%rbx), %ebp
	shll	$8, %ebp
	movw	%bp, (%r12,%rbx,2)
	addq	$8, %rbx
	cmpq	%rbx, %r14
	jne	.LBB110_14
	testq	%rsi, %rsi
	je	.LBB110_35
.LBB110_16:
	leaq	(%r10,%rbx,2), %r10
	addq	%r10, %r8
	addq	%rbx, %rdx
	addq	%r11, %rdx
	xorl	%r10d, %r10d
	.p2align	4
.LBB110_17:
	movzbl	(%rdx,%r10), %r11d
	shll	$8, %r11d
	movw	%r11w, (%r8,%r10,2)
	incq	%r10
	cmpq	%r10, %rsi
	jne	.LBB110_17
	jmp	.LBB110_35
.LBB110_30:
	movl	%edi, %r14d
	andl	$8, %r14d
	leaq	(%r11,%rdx), %r15
	addq	$7, %r15
	leaq	(%r10,%r8), %r12
	addq	$14, %r12
	xorl	%ebx, %ebx
	.p2align	4
.LBB110_31:
	movzbl	-7(%r15,%rbx), %ebp
	movw	%bp, -14(%r12,%rbx,2)
	movzbl	-6(%r15,%rbx), %ebp
	movw	%bp, -12(%r12,%rbx,2)
	movzbl	-5(%r15,%rbx), %ebp
	movw	%bp, -10(%r12,%rbx,2)
	movzbl	-4(%r15,%rbx), %ebp
	movw	%bp, -8(%r12,%rbx,2)
	movzbl	-3(%r15,%rbx), %ebp
	movw	%bp, -6(%r12,%rbx,2)
	movzbl	-2(%r15,%rbx), %ebp
	movw	%bp, -4(%r12,%rbx,2)
	movzbl	-1(%r15,%rbx), %ebp
	movw	%bp, -2(%r12,%rbx,2)
	movzbl	(%r15,%rbx), %ebp
	movw	%bp, (%r12,%rbx,2)
	addq	$8, %rbx
	cmpq	%rbx, %r14
	jne	.LBB110_31
	testq	%rsi, %rsi
	je	.LBB110_35
.LBB110_33:
	leaq	(%r10,%rbx,2), %r10
	addq	%r10, %r8
	addq	%rbx, %r11
	addq	%r11, %rdx
	xorl	%r10d, %r10d
	.p2align	4
.LBB110_34:
	movzbl	(%rdx,%r10), %r11d
	movw	%r11w, (%r8,%r10,2)
	incq	%r10
	cmpq	%r10, %rsi
	jne	.LBB110_34
.LBB110_35:
	leaq	(%rdi,%rdi), %rdx
	movl	$3, %esi
	cmpq	%r9, %rcx
	ja	.LBB110_37
	xorl	%esi, %esi
.LBB110_37:
	movq	%rdi, (%rax)
	movq	%rdx, 8(%rax)
	movl	%esi, 16(%rax)
	movl	$0, 20(%rax)
	popq	%rbx
	popq	%r12
	popq	%r13
	popq	%r14
	popq	%r15
	popq	%rbp
	vzeroupper
	retq
.Lfunc_end110:

	.section	.text$127,"xr"
	.globl	dethrux_from_utf32_v3
	.p2align	4
dethrux_from_utf32_v3:
	pushq	%rbx
	subq	$32, %rsp
	movl	%esi, %r10d
	movq	%rdi, %rbx
	xorl	%esi, %esi
	testq	%rdx, %rdx
	sete	%sil
	shll	$12, %esi
	addq	%rdx, %rsi
	xorl	%eax, %eax
	testq	%r8, %r8
	sete	%al
	shll	$12, %eax
	addq	%r8, %rax
	vxorps	%xmm0, %xmm0, %xmm0
	vmovaps	%xmm0, (%rsp)
	movq	$0, 16(%rsp)
	movq	%rsp, %rdi
	movq	%rcx, %rdx
	movq	%rax, %rcx
	movq	%r9, %r8
	cmpl	$1, %r10d
	jne	.LBB111_2
	callq	L_71
	vmovaps	(%rsp), %xmm0
	movzbl	16(%rsp), %eax
	leaq	.LJTI111_0(%rip), %rcx
	movslq	(%rcx,%rax,4), %rdx
	addq	%rcx, %rdx
	movl	%eax, %ecx
	jmpq	*%rdx
.LBB111_2:
	callq	L_72
	vmovaps	(%rsp), %xmm0
	movzbl	16(%rsp), %eax
	leaq	.LJTI111_0(%rip), %rcx
	movslq	(%rcx,%rax,4), %rdx
	addq	%rcx, %rdx
	movl	%eax, %ecx
	jmpq	*%rdx
.LBB111_3:
	movzbl	17(%rsp), %ecx
	movl	$1, %eax
	jmp	.LBB111_6
.LBB111_4:
	xorl	%ecx, %ecx
	movl	$2, %eax
	jmp	.LBB111_6
.LBB111_5:
	xorl	%ecx, %ecx
	movl	$3, %eax
.LBB111_6:
	vmovups	%xmm0, (%rbx)
	movl	%eax, 16(%rbx)
	movl	%ecx, 20(%rbx)
	movq	%rbx, %rax
	addq	$32, %rsp
	popq	%rbx
	retq
.Lfunc_end111:
	.section	.rdata$128,"dr"
	.p2align	2, 0x0
.LJTI111_0:
	.long	.LBB111_6-.LJTI111_0
	.long	.LBB111_3-.LJTI111_0
	.long	.LBB111_4-.LJTI111_0
	.long	.LBB111_5-.LJTI111_0

	.section	.rdata$000,"dr"
	.p2align	4, 0x0
.LCPI112_0:
	.quad	1
	.quad	2
	.section	.text$129,"xr"
	.globl	dethrux_from_utf32_lossy_v3
	.p2align	4
dethrux_from_utf32_lossy_v3:
	pushq	%r15
	pushq	%r14
	pushq	%r13
	pushq	%r12
	pushq	%rbx
	subq	$48, %rsp
	movq	%r9, %r14
	movq	%rcx, %r15
	movq	%rdi, %rbx
	xorl	%r12d, %r12d
	testq	%rdx, %rdx
	sete	%r12b
	shll	$12, %r12d
	addq	%rdx, %r12
	xorl	%r13d, %r13d
	testq	%r8, %r8
	sete	%r13b
	shll	$12, %r13d
	addq	%r8, %r13
	vxorps	%xmm0, %xmm0, %xmm0
	cmpl	$1, %esi
	jne	.LBB112_5
	vmovaps	%xmm0, (%rsp)
	movq	$0, 16(%rsp)
	movq	%rsp, %rdi
	movq	%r12, %rsi
	movq	%r15, %rdx
	movq	%r13, %rcx
	movq	%r14, %r8
	callq	L_71
	vmovdqa	(%rsp), %xmm0
	movzbl	16(%rsp), %eax
	cmpb	$1, %al
	jne	.LBB112_9
	.p2align	4
.LBB112_3:
	vpextrq	$1, %xmm0, %rax
	movq	%r14, %rcx
	subq	%rax, %rcx
	cmpq	$2, %rcx
	jb	.LBB112_8
	vpaddq	.LCPI112_0(%rip), %xmm0, %xmm0
	vmovdqa	%xmm0, 32(%rsp)
	movw	$-513, (%r13,%rax)
	vmovq	%xmm0, %rax
	leaq	(%r12,%rax,4), %rsi
	movq	%r15, %rdx
	subq	%rax, %rdx
	vpextrq	$1, %xmm0, %rax
	leaq	(%rax,%r13), %rcx
	movq	%r14, %r8
	subq	%rax, %r8
	movq	%rsp, %rdi
	callq	L_71
	vmovdqa	32(%rsp), %xmm0
	vpaddq	(%rsp), %xmm0, %xmm0
	movzbl	16(%rsp), %eax
	cmpb	$1, %al
	je	.LBB112_3
	jmp	.LBB112_9
.LBB112_5:
	vmovaps	%xmm0, (%rsp)
	movq	$0, 16(%rsp)
	movq	%rsp, %rdi
	movq	%r12, %rsi
	movq	%r15, %rdx
	movq	%r13, %rcx
	movq	%r14, %r8
	callq	L_72
	vmovdqa	(%rsp), %xmm0
	movzbl	16(%rsp), %eax
	cmpb	$1, %al
	jne	.LBB112_9
	.p2align	4
.LBB112_7:
	vpextrq	$1, %xmm0, %rax
	movq	%r14, %rcx
	subq	%rax, %rcx
	cmpq	$2, %rcx
	jb	.LBB112_8
	vpaddq	.LCPI112_0(%rip), %xmm0, %xmm0
	vmovdqa	%xmm0, 32(%rsp)
	movw	$-3, (%r13,%rax)
	vmovq	%xmm0, %rax
	leaq	(%r12,%rax,4), %rsi
	movq	%r15, %rdx
	subq	%rax, %rdx
	vpextrq	$1, %xmm0, %rax
	leaq	(%rax,%r13), %rcx
	movq	%r14, %r8
	subq	%rax, %r8
	movq	%rsp, %rdi
	callq	L_72
	vmovdqa	32(%rsp), %xmm0
	vpaddq	(%rsp), %xmm0, %xmm0
	movzbl	16(%rsp), %eax
	cmpb	$1, %al
	je	.LBB112_7
	jmp	.LBB112_9
.LBB112_8:
	movb	$3, %al
.LBB112_9:
	movzbl	%al, %eax
	leaq	.Lswitch.table.dethrux_from_utf32_lossy(%rip), %rcx
	movl	(%rcx,%rax,4), %eax
	vmovdqu	%xmm0, (%rbx)
	movl	%eax, 16(%rbx)
	movl	$0, 20(%rbx)
	movq	%rbx, %rax
	addq	$48, %rsp
	popq	%rbx
	popq	%r12
	popq	%r13
	popq	%r14
	popq	%r15
	retq
.Lfunc_end112:

	.section	.text$130,"xr"
	.globl	dethrux_from_utf8_v3
	.p2align	4
dethrux_from_utf8_v3:
	pushq	%r15
	pushq	%r14
	pushq	%r13
	pushq	%r12
	pushq	%rbx
	subq	$48, %rsp
	movq	%r9, %r15
	movq	%rcx, %r14
	movq	%rdi, %rbx
	xorl	%r12d, %r12d
	testq	%rdx, %rdx
	sete	%r12b
	shll	$12, %r12d
	addq	%rdx, %r12
	xorl	%r13d, %r13d
	testq	%r8, %r8
	sete	%r13b
	shll	$12, %r13d
	addq	%r8, %r13
	vxorps	%xmm0, %xmm0, %xmm0
	cmpl	$1, %esi
	jne	.LBB113_4
	vmovaps	%xmm0, 16(%rsp)
	movq	$0, 32(%rsp)
	movq	%r12, %rdi
	movq	%r14, %rsi
	movq	%r13, %rdx
	movq	%r15, %rcx
	callq	L_47
	cmpq	%r14, %rax
	je	.LBB113_2
	movq	%rdx, (%rsp)
	leaq	16(%rsp), %rdi
	movq	%r12, %rsi
	movq	%r14, %rdx
	movq	%r13, %rcx
	movq	%r15, %r8
	movq	%rax, %r9
	callq	L_54
	movq	16(%rsp), %r14
	movq	24(%rsp), %rdx
	movzbl	32(%rsp), %ecx
	movzbl	%cl, %eax
	leaq	.LJTI113_1(%rip), %rsi
	movslq	(%rsi,%rax,4), %rdi
	addq	%rsi, %rdi
	jmpq	*%rdi
.LBB113_4:
	vmovaps	%xmm0, 16(%rsp)
	movq	$0, 32(%rsp)
	movq	%r12, %rdi
	movq	%r14, %rsi
	movq	%r13, %rdx
	movq	%r15, %rcx
	callq	L_59
	cmpq	%r14, %rax
	jne	.LBB113_5
.LBB113_2:
	xorl	%eax, %eax
.LBB113_9:
	xorl	%ecx, %ecx
.LBB113_10:
	movzbl	%cl, %ecx
	movq	%r14, (%rbx)
	movq	%rdx, 8(%rbx)
	movl	%eax, 16(%rbx)
	movl	%ecx, 20(%rbx)
	movq	%rbx, %rax
	addq	$48, %rsp
	popq	%rbx
	popq	%r12
	popq	%r13
	popq	%r14
	popq	%r15
	retq
.LBB113_5:
	movq	%rdx, (%rsp)
	leaq	16(%rsp), %rdi
	movq	%r12, %rsi
	movq	%r14, %rdx
	movq	%r13, %rcx
	movq	%r15, %r8
	movq	%rax, %r9
	callq	L_66
	movq	16(%rsp), %r14
	movq	24(%rsp), %rdx
	movzbl	32(%rsp), %ecx
	movzbl	%cl, %eax
	leaq	.LJTI113_0(%rip), %rsi
	movslq	(%rsi,%rax,4), %rdi
	addq	%rsi, %rdi
	jmpq	*%rdi
.LBB113_6:
	movzbl	33(%rsp), %ecx
	movl	$1, %eax
	jmp	.LBB113_10
.LBB113_7:
	movl	$2, %eax
	jmp	.LBB113_9
.LBB113_8:
	movl	$3, %eax
	jmp	.LBB113_9
.Lfunc_end113:
	.section	.rdata$131,"dr"
	.p2align	2, 0x0
.LJTI113_0:
	.long	.LBB113_10-.LJTI113_0
	.long	.LBB113_6-.LJTI113_0
	.long	.LBB113_7-.LJTI113_0
	.long	.LBB113_8-.LJTI113_0
.LJTI113_1:
	.long	.LBB113_10-.LJTI113_1
	.long	.LBB113_6-.LJTI113_1
	.long	.LBB113_7-.LJTI113_1
	.long	.LBB113_8-.LJTI113_1

	.section	.text$132,"xr"
	.globl	dethrux_from_utf8_lossy_v3
	.p2align	4
dethrux_from_utf8_lossy_v3:
	pushq	%rbp
	pushq	%r15
	pushq	%r14
	pushq	%r13
	pushq	%r12
	pushq	%rbx
	subq	$72, %rsp
	movq	%r9, %r15
	movq	%rcx, %rbp
	xorl	%r12d, %r12d
	testq	%rdx, %rdx
	sete	%r12b
	shll	$12, %r12d
	addq	%rdx, %r12
	xorl	%r14d, %r14d
	testq	%r8, %r8
	sete	%r14b
	shll	$12, %r14d
	addq	%r8, %r14
	cmpl	$1, %esi
	movq	%rcx, 16(%rsp)
	movq	%r9, 56(%rsp)
	movq	%r14, 24(%rsp)
	movq	%r12, 64(%rsp)
	movq	%rdi, 8(%rsp)
	vxorps	%xmm0, %xmm0, %xmm0
	jne	.LBB114_6
	vmovaps	%xmm0, 32(%rsp)
	movq	$0, 48(%rsp)
	movq	%r12, %rdi
	movq	%rbp, %rsi
	movq	%r14, %rdx
	movq	%r15, %rcx
	callq	L_47
	cmpq	%rbp, %rax
	je	.LBB114_7
	xorl	%r13d, %r13d
	movq	%r14, %rcx
	movq	%r12, %rsi
	xorl	%r12d, %r12d
	.p2align	4
.LBB114_3:
	movq	%rdx, (%rsp)
	leaq	32(%rsp), %rdi
	movq	%rbp, %rdx
	movq	%r15, %r8
	movq	%rax, %r9
	callq	L_54
	addq	32(%rsp), %r13
	movzbl	48(%rsp), %edx
	addq	40(%rsp), %r12
	cmpl	$1, %edx
	jne	.LBB114_14
	movq	56(%rsp), %r15
	movq	%r15, %r8
	subq	%r12, %r8
	cmpq	$2, %r8
	jb	.LBB114_21
	movzbl	49(%rsp), %edx
	movq	24(%rsp), %rax
	leaq	(%rax,%r12), %rcx
	movq	16(%rsp), %rsi
	subq	%r13, %rsi
	movq	64(%rsp), %rbp
	movq	%rbp, %rdi
	addq	%r13, %rdi
	callq	L_57
	movq	%rax, %rbx
	movq	%rdx, %r14
	addq	%r13, %rbx
	addq	%r12, %r14
	leaq	(%rbx,%rbp), %r13
	movq	16(%rsp), %rbp
	subq	%rbx, %rbp
	movq	24(%rsp), %rax
	leaq	(%rax,%r14), %r12
	subq	%r14, %r15
	vxorps	%xmm0, %xmm0, %xmm0
	vmovaps	%xmm0, 32(%rsp)
	movq	$0, 48(%rsp)
	movq	%r13, %rdi
	movq	%rbp, %rsi
	movq	%r12, %rdx
	movq	%r15, %rcx
	callq	L_47
	movq	%r13, %rsi
	movq	%r12, %rcx
	movq	%rbx, %r13
	movq	%r14, %r12
	cmpq	%rbp, %rax
	jne	.LBB114_3
	jmp	.LBB114_8
.LBB114_6:
	vmovaps	%xmm0, 32(%rsp)
	movq	$0, 48(%rsp)
	movq	%r12, %rdi
	movq	%rbp, %rsi
	movq	%r14, %rdx
	movq	%r15, %rcx
	callq	L_59
	cmpq	%rbp, %rax
	jne	.LBB114_10
.LBB114_7:
	xorl	%r14d, %r14d
	xorl	%ebx, %ebx
.LBB114_8:
	addq	%rdx, %r14
	addq	%rbp, %rbx
	movq	%r14, %r12
	movq	%rbx, %r13
	movq	8(%rsp), %rax
	xorl	%ecx, %ecx
.LBB114_9:
	movq	%r13, (%rax)
	movq	%r12, 8(%rax)
	movl	%ecx, 16(%rax)
	movl	$0, 20(%rax)
	addq	$72, %rsp
	popq	%rbx
	popq	%r12
	popq	%r13
	popq	%r14
	popq	%r15
	popq	%rbp
	retq
.LBB114_10:
	xorl	%r13d, %r13d
	movq	%r14, %rcx
	movq	%r12, %rsi
	xorl	%r12d, %r12d
	.p2align	4
.LBB114_11:
	movq	%rdx, (%rsp)
	leaq	32(%rsp), %rdi
	movq	%rbp, %rdx
	movq	%r15, %r8
	movq	%rax, %r9
	callq	L_66
	addq	32(%rsp), %r13
	movzbl	48(%rsp), %edx
	addq	40(%rsp), %r12
	cmpl	$1, %edx
	jne	.LBB114_17
	movq	56(%rsp), %r15
	movq	%r15, %r8
	subq	%r12, %r8
	cmpq	$2, %r8
	jb	.LBB114_21
	movzbl	49(%rsp), %edx
	movq	24(%rsp), %rax
	leaq	(%rax,%r12), %rcx
	movq	16(%rsp), %rsi
	subq	%r13, %rsi
	movq	64(%rsp), %rbp
	movq	%rbp, %rdi
	addq	%r13, %rdi
	callq	L_69
	movq	%rax, %rbx
	movq	%rdx, %r14
	addq	%r13, %rbx
	addq	%r12, %r14
	leaq	(%rbx,%rbp), %r13
	movq	16(%rsp), %rbp
	subq	%rbx, %rbp
	movq	24(%rsp), %rax
	leaq	(%rax,%r14), %r12
	subq	%r14, %r15
	vxorps	%xmm0, %xmm0, %xmm0
	vmovaps	%xmm0, 32(%rsp)
	movq	$0, 48(%rsp)
	movq	%r13, %rdi
	movq	%rbp, %rsi
	movq	%r12, %rdx
	movq	%r15, %rcx
	callq	L_59
	movq	%r13, %rsi
	movq	%r12, %rcx
	movq	%rbx, %r13
	movq	%r14, %r12
	cmpq	%rbp, %rax
	jne	.LBB114_11
	jmp	.LBB114_8
.LBB114_14:
	cmpl	$2, %edx
	movq	56(%rsp), %rsi
	jne	.LBB114_20
	xorl	%ecx, %ecx
	movq	16(%rsp), %rdx
	cmpq	%r13, %rdx
	movq	8(%rsp), %rax
	je	.LBB114_16
	subq	%r12, %rsi
	cmpq	$2, %rsi
	jb	.LBB114_23
	movq	24(%rsp), %rdx
	movw	$-513, (%rdx,%r12)
	jmp	.LBB114_28
.LBB114_17:
	cmpl	$2, %edx
	movq	56(%rsp), %rsi
	jne	.LBB114_20
	xorl	%ecx, %ecx
	movq	16(%rsp), %rdx
	cmpq	%r13, %rdx
	movq	8(%rsp), %rax
	jne	.LBB114_24
.LBB114_16:
	movq	%rdx, %r13
	jmp	.LBB114_9
.LBB114_20:
	movq	8(%rsp), %rax
	xorl	%ecx, %ecx
	testb	%dl, %dl
	setne	%cl
	leal	(%rcx,%rcx,2), %ecx
	jmp	.LBB114_9
.LBB114_21:
	movl	$3, %ecx
	movq	8(%rsp), %rax
	jmp	.LBB114_9
.LBB114_24:
	subq	%r12, %rsi
	cmpq	$2, %rsi
	jae	.LBB114_27
.LBB114_23:
	movl	$3, %ecx
	jmp	.LBB114_9
.LBB114_27:
	movq	24(%rsp), %rdx
	movw	$-3, (%rdx,%r12)
.LBB114_28:
	addq	$2, %r12
	movq	16(%rsp), %r13
	jmp	.LBB114_9
.Lfunc_end114:

	.section	.text$133,"xr"
	.globl	dethrux_from_utf8_partial_v3
	.p2align	4
dethrux_from_utf8_partial_v3:
	pushq	%rbp
	pushq	%r15
	pushq	%r14
	pushq	%r13
	pushq	%r12
	pushq	%rbx
	subq	$72, %rsp
	movq	%r9, %r15
	movq	%rcx, %rbp
	xorl	%r14d, %r14d
	testq	%rdx, %rdx
	sete	%r14b
	shll	$12, %r14d
	addq	%rdx, %r14
	xorl	%r12d, %r12d
	testq	%r8, %r8
	sete	%r12b
	shll	$12, %r12d
	addq	%r8, %r12
	cmpl	$1, %esi
	movq	%rcx, 48(%rsp)
	movq	%r9, 64(%rsp)
	movq	%r14, 56(%rsp)
	movq	%r12, 40(%rsp)
	movq	%rdi, 8(%rsp)
	vxorps	%xmm0, %xmm0, %xmm0
	jne	.LBB115_9
	vmovaps	%xmm0, 16(%rsp)
	movq	$0, 32(%rsp)
	movq	%r14, %rdi
	movq	%rbp, %rsi
	movq	%r12, %rdx
	movq	%r15, %rcx
	callq	L_47
	cmpq	%rbp, %rax
	je	.LBB115_2
	xorl	%r13d, %r13d
	movq	%r12, %rcx
	movq	%r14, %rsi
	xorl	%r12d, %r12d
	.p2align	4
.LBB115_5:
	movq	%rdx, (%rsp)
	leaq	16(%rsp), %rdi
	movq	%rbp, %rdx
	movq	%r15, %r8
	movq	%rax, %r9
	callq	L_54
	addq	16(%rsp), %r13
	movzbl	32(%rsp), %ecx
	addq	24(%rsp), %r12
	cmpb	$1, %cl
	jne	.LBB115_12
	movq	64(%rsp), %r15
	movq	%r15, %r8
	subq	%r12, %r8
	cmpq	$2, %r8
	jb	.LBB115_7
	movzbl	33(%rsp), %edx
	movq	40(%rsp), %rax
	leaq	(%rax,%r12), %rcx
	movq	48(%rsp), %rsi
	subq	%r13, %rsi
	movq	56(%rsp), %rbp
	movq	%rbp, %rdi
	addq	%r13, %rdi
	callq	L_57
	movq	%rax, %rbx
	movq	%rdx, %r14
	addq	%r13, %rbx
	addq	%r12, %r14
	leaq	(%rbx,%rbp), %r13
	movq	48(%rsp), %rbp
	subq	%rbx, %rbp
	movq	40(%rsp), %rax
	leaq	(%rax,%r14), %r12
	subq	%r14, %r15
	vxorps	%xmm0, %xmm0, %xmm0
	vmovaps	%xmm0, 16(%rsp)
	movq	$0, 32(%rsp)
	movq	%r13, %rdi
	movq	%rbp, %rsi
	movq	%r12, %rdx
	movq	%r15, %rcx
	callq	L_47
	movq	%r13, %rsi
	movq	%r12, %rcx
	movq	%rbx, %r13
	movq	%r14, %r12
	cmpq	%rbp, %rax
	jne	.LBB115_5
	jmp	.LBB115_3
.LBB115_9:
	vmovaps	%xmm0, 16(%rsp)
	movq	$0, 32(%rsp)
	movq	%r14, %rdi
	movq	%rbp, %rsi
	movq	%r12, %rdx
	movq	%r15, %rcx
	callq	L_59
	cmpq	%rbp, %rax
	jne	.LBB115_10
.LBB115_2:
	xorl	%r14d, %r14d
	xorl	%ebx, %ebx
.LBB115_3:
	addq	%rdx, %r14
	addq	%rbp, %rbx
	movq	%r14, %r12
	movq	%rbx, %r13
	movq	8(%rsp), %rax
	xorl	%ecx, %ecx
	jmp	.LBB115_18
.LBB115_10:
	xorl	%r13d, %r13d
	movq	%r12, %rcx
	movq	%r14, %rsi
	xorl	%r12d, %r12d
	.p2align	4
.LBB115_11:
	movq	%rdx, (%rsp)
	leaq	16(%rsp), %rdi
	movq	%rbp, %rdx
	movq	%r15, %r8
	movq	%rax, %r9
	callq	L_66
	addq	16(%rsp), %r13
	movzbl	32(%rsp), %ecx
	addq	24(%rsp), %r12
	cmpb	$1, %cl
	jne	.LBB115_12
	movq	64(%rsp), %r15
	movq	%r15, %r8
	subq	%r12, %r8
	cmpq	$2, %r8
	jb	.LBB115_7
	movzbl	33(%rsp), %edx
	movq	40(%rsp), %rax
	leaq	(%rax,%r12), %rcx
	movq	48(%rsp), %rsi
	subq	%r13, %rsi
	movq	56(%rsp), %rbp
	movq	%rbp, %rdi
	addq	%r13, %rdi
	callq	L_69
	movq	%rax, %rbx
	movq	%rdx, %r14
	addq	%r13, %rbx
	addq	%r12, %r14
	leaq	(%rbx,%rbp), %r13
	movq	48(%rsp), %rbp
	subq	%rbx, %rbp
	movq	40(%rsp), %rax
	leaq	(%rax,%r14), %r12
	subq	%r14, %r15
	vxorps	%xmm0, %xmm0, %xmm0
	vmovaps	%xmm0, 16(%rsp)
	movq	$0, 32(%rsp)
	movq	%r13, %rdi
	movq	%rbp, %rsi
	movq	%r12, %rdx
	movq	%r15, %rcx
	callq	L_59
	movq	%r13, %rsi
	movq	%r12, %rcx
	movq	%rbx, %r13
	movq	%r14, %r12
	cmpq	%rbp, %rax
	jne	.LBB115_11
	jmp	.LBB115_3
.LBB115_12:
	movq	8(%rsp), %rax
	movzbl	%cl, %ecx
	testb	%cl, %cl
	je	.LBB115_18
	cmpl	$3, %ecx
	jne	.LBB115_14
	movl	$3, %ecx
	jmp	.LBB115_18
.LBB115_7:
	movl	$3, %ecx
	movq	8(%rsp), %rax
	jmp	.LBB115_18
.LBB115_14:
	movl	$2, %ecx
.LBB115_18:
	movq	%r13, (%rax)
	movq	%r12, 8(%rax)
	movl	%ecx, 16(%rax)
	movl	$0, 20(%rax)
	addq	$72, %rsp
	popq	%rbx
	popq	%r12
	popq	%r13
	popq	%r14
	popq	%r15
	popq	%rbp
	retq
.Lfunc_end115:

	.section	.text$134,"xr"
	.globl	dethrux_from_wtf8_v3
	.p2align	4
dethrux_from_wtf8_v3:
	pushq	%rbx
	subq	$32, %rsp
	movl	%esi, %r10d
	movq	%rdi, %rbx
	xorl	%esi, %esi
	testq	%rdx, %rdx
	sete	%sil
	shll	$12, %esi
	addq	%rdx, %rsi
	xorl	%eax, %eax
	testq	%r8, %r8
	sete	%al
	shll	$12, %eax
	addq	%r8, %rax
	vxorps	%xmm0, %xmm0, %xmm0
	cmpl	$1, %r10d
	jne	.LBB116_2
	vmovups	%ymm0, (%rsp)
	movq	%rsp, %rdi
	movq	%rcx, %rdx
	movq	%rax, %rcx
	movq	%r9, %r8
	vzeroupper
	callq	L_73
	vmovaps	(%rsp), %xmm0
	movzbl	17(%rsp), %ecx
	movzbl	16(%rsp), %eax
	leaq	.LJTI116_0(%rip), %rdx
	movslq	(%rdx,%rax,4), %rsi
	addq	%rdx, %rsi
	movl	%eax, %edx
	jmpq	*%rsi
.LBB116_2:
	vmovups	%ymm0, (%rsp)
	movq	%rsp, %rdi
	movq	%rcx, %rdx
	movq	%rax, %rcx
	movq	%r9, %r8
	vzeroupper
	callq	L_74
	vmovaps	(%rsp), %xmm0
	movzbl	17(%rsp), %ecx
	movzbl	16(%rsp), %eax
	leaq	.LJTI116_0(%rip), %rdx
	movslq	(%rdx,%rax,4), %rsi
	addq	%rdx, %rsi
	movl	%eax, %edx
	jmpq	*%rsi
.LBB116_3:
	movzbl	%cl, %edx
	movl	$1, %eax
	jmp	.LBB116_6
.LBB116_4:
	xorl	%edx, %edx
	movl	$2, %eax
	jmp	.LBB116_6
.LBB116_5:
	xorl	%edx, %edx
	movl	$3, %eax
.LBB116_6:
	vmovups	%xmm0, (%rbx)
	movl	%eax, 16(%rbx)
	movl	%edx, 20(%rbx)
	movq	%rbx, %rax
	addq	$32, %rsp
	popq	%rbx
	retq
.Lfunc_end116:
	.section	.rdata$135,"dr"
	.p2align	2, 0x0
.LJTI116_0:
	.long	.LBB116_6-.LJTI116_0
	.long	.LBB116_3-.LJTI116_0
	.long	.LBB116_4-.LJTI116_0
	.long	.LBB116_5-.LJTI116_0

	.section	.rdata$000,"dr"
	.p2align	4, 0x0
.LCPI117_0:
	.quad	-3
	.quad	-2
	.section	.text$136,"xr"
	.globl	dethrux_from_wtf8_partial_v3
	.p2align	4
dethrux_from_wtf8_partial_v3:
	pushq	%rbx
	subq	$32, %rsp
	movl	%esi, %r10d
	movq	%rdi, %rbx
	xorl	%esi, %esi
	testq	%rdx, %rdx
	sete	%sil
	shll	$12, %esi
	addq	%rdx, %rsi
	xorl	%eax, %eax
	testq	%r8, %r8
	sete	%al
	shll	$12, %eax
	addq	%r8, %rax
	vxorps	%xmm0, %xmm0, %xmm0
	cmpl	$1, %r10d
	jne	.LBB117_5
	vmovups	%ymm0, (%rsp)
	movq	%rsp, %rdi
	movq	%rcx, %rdx
	movq	%rax, %rcx
	movq	%r9, %r8
	vzeroupper
	callq	L_73
	vmovdqa	(%rsp), %xmm0
	movzbl	16(%rsp), %eax
	movzbl	17(%rsp), %ecx
	cmpb	$1, 24(%rsp)
	jne	.LBB117_4
	movl	%eax, %edx
	leaq	.LJTI117_1(%rip), %rsi
	movslq	(%rsi,%rdx,4), %rdx
	addq	%rsi, %rdx
	jmpq	*%rdx
.LBB117_3:
	vpaddq	.LCPI117_0(%rip), %xmm0, %xmm0
	movb	$2, %al
	xorl	%ecx, %ecx
	movzbl	%al, %eax
	leaq	.LJTI117_2(%rip), %rdx
	movslq	(%rdx,%rax,4), %rsi
	addq	%rdx, %rsi
	movl	%eax, %edx
	jmpq	*%rsi
.LBB117_5:
	vmovups	%ymm0, (%rsp)
	movq	%rsp, %rdi
	movq	%rcx, %rdx
	movq	%rax, %rcx
	movq	%r9, %r8
	vzeroupper
	callq	L_74
	vmovdqa	(%rsp), %xmm0
	movzbl	16(%rsp), %eax
	movzbl	17(%rsp), %ecx
	cmpb	$1, 24(%rsp)
	jne	.LBB117_8
	movl	%eax, %edx
	leaq	.LJTI117_0(%rip), %rsi
	movslq	(%rsi,%rdx,4), %rdx
	addq	%rsi, %rdx
	jmpq	*%rdx
.LBB117_7:
	vpaddq	.LCPI117_0(%rip), %xmm0, %xmm0
	movb	$2, %al
	xorl	%ecx, %ecx
	movzbl	%al, %eax
	leaq	.LJTI117_2(%rip), %rdx
	movslq	(%rdx,%rax,4), %rsi
	addq	%rdx, %rsi
	movl	%eax, %edx
	jmpq	*%rsi
.LBB117_4:
	leaq	.LJTI117_2(%rip), %rdx
	movslq	(%rdx,%rax,4), %rsi
	addq	%rdx, %rsi
	movl	%eax, %edx
	jmpq	*%rsi
.LBB117_8:
	leaq	.LJTI117_2(%rip), %rdx
	movslq	(%rdx,%rax,4), %rsi
	addq	%rdx, %rsi
	movl	%eax, %edx
	jmpq	*%rsi
.LBB117_9:
	movzbl	%cl, %edx
	movl	$1, %eax
	jmp	.LBB117_12
.LBB117_10:
	xorl	%edx, %edx
	movl	$2, %eax
	jmp	.LBB117_12
.LBB117_11:
	xorl	%edx, %edx
	movl	$3, %eax
.LBB117_12:
	vmovdqu	%xmm0, (%rbx)
	movl	%eax, 16(%rbx)
	movl	%edx, 20(%rbx)
	movq	%rbx, %rax
	addq	$32, %rsp
	popq	%rbx
	retq
.Lfunc_end117:
	.section	.rdata$137,"dr"
	.p2align	2, 0x0
.LJTI117_0:
	.long	.LBB117_7-.LJTI117_0
	.long	.LBB117_8-.LJTI117_0
	.long	.LBB117_7-.LJTI117_0
	.long	.LBB117_8-.LJTI117_0
.LJTI117_1:
	.long	.LBB117_3-.LJTI117_1
	.long	.LBB117_4-.LJTI117_1
	.long	.LBB117_3-.LJTI117_1
	.long	.LBB117_4-.LJTI117_1
.LJTI117_2:
	.long	.LBB117_12-.LJTI117_2
	.long	.LBB117_9-.LJTI117_2
	.long	.LBB117_10-.LJTI117_2
	.long	.LBB117_11-.LJTI117_2

	.section	.text$138,"xr"
	.globl	dethrux_to_utf32_v3
	.p2align	4
dethrux_to_utf32_v3:
	pushq	%rbx
	subq	$32, %rsp
	movl	%esi, %r10d
	movq	%rdi, %rbx
	xorl	%esi, %esi
	testq	%rdx, %rdx
	sete	%sil
	shll	$12, %esi
	addq	%rdx, %rsi
	xorl	%eax, %eax
	testq	%r8, %r8
	sete	%al
	shll	$12, %eax
	addq	%r8, %rax
	vxorps	%xmm0, %xmm0, %xmm0
	vmovaps	%xmm0, (%rsp)
	movq	$0, 16(%rsp)
	movq	%rsp, %rdi
	movq	%rcx, %rdx
	movq	%rax, %rcx
	movq	%r9, %r8
	cmpl	$1, %r10d
	jne	.LBB118_2
	callq	L_75
	vmovaps	(%rsp), %xmm0
	movzbl	16(%rsp), %eax
	leaq	.LJTI118_0(%rip), %rcx
	movslq	(%rcx,%rax,4), %rdx
	addq	%rcx, %rdx
	movl	%eax, %ecx
	jmpq	*%rdx
.LBB118_2:
	callq	L_76
	vmovaps	(%rsp), %xmm0
	movzbl	16(%rsp), %eax
	leaq	.LJTI118_0(%rip), %rcx
	movslq	(%rcx,%rax,4), %rdx
	addq	%rcx, %rdx
	movl	%eax, %ecx
	jmpq	*%rdx
.LBB118_3:
	movzbl	17(%rsp), %ecx
	movl	$1, %eax
	jmp	.LBB118_6
.LBB118_4:
	xorl	%ecx, %ecx
	movl	$2, %eax
	jmp	.LBB118_6
.LBB118_5:
	xorl	%ecx, %ecx
	movl	$3, %eax
.LBB118_6:
	vmovups	%xmm0, (%rbx)
	movl	%eax, 16(%rbx)
	movl	%ecx, 20(%rbx)
	movq	%rbx, %rax
	addq	$32, %rsp
	popq	%rbx
	retq
.Lfunc_end118:
	.section	.rdata$139,"dr"
	.p2align	2, 0x0
.LJTI118_0:
	.long	.LBB118_6-.LJTI118_0
	.long	.LBB118_3-.LJTI118_0
	.long	.LBB118_4-.LJTI118_0
	.long	.LBB118_5-.LJTI118_0

	.section	.text$140,"xr"
	.globl	dethrux_to_utf32_lossy_v3
	.p2align	4
dethrux_to_utf32_lossy_v3:
	pushq	%rbp
	pushq	%r15
	pushq	%r14
	pushq	%r13
	pushq	%r12
	pushq	%rbx
	subq	$40, %rsp
	movq	%r9, %rbx
	movq	%rcx, %r15
	movq	%rdi, 32(%rsp)
	xorl	%r13d, %r13d
	testq	%rdx, %rdx
	sete	%r13b
	shll	$12, %r13d
	addq	%rdx, %r13
	xorl	%r12d, %r12d
	testq	%r8, %r8
	sete	%r12b
	shll	$12, %r12d
	addq	%r8, %r12
	vxorps	%xmm0, %xmm0, %xmm0
	cmpl	$1, %esi
	jne	.LBB119_7
	vmovaps	%xmm0, (%rsp)
	movq	$0, 16(%rsp)
	movq	%rsp, %rdi
	movq	%r13, %rsi
	movq	%r15, %rdx
	movq	%r12, %rcx
	movq	%rbx, %r8
	callq	L_75
	movq	(%rsp), %rbp
	movq	8(%rsp), %r14
	movzbl	16(%rsp), %eax
	cmpb	$1, %al
	jne	.LBB119_4
	.p2align	4
.LBB119_2:
	cmpq	%rbx, %r14
	je	.LBB119_12
	movzbl	17(%rsp), %eax
	movl	$65533, (%r12,%r14,4)
	addq	%rax, %rbp
	movq	%r13, %rsi
	addq	%rbp, %rsi
	movq	%r15, %rdx
	subq	%rbp, %rdx
	leaq	(%r12,%r14,4), %rcx
	addq	$4, %rcx
	incq	%r14
	movq	%rbx, %r8
	subq	%r14, %r8
	movq	%rsp, %rdi
	callq	L_75
	addq	(%rsp), %rbp
	addq	8(%rsp), %r14
	movzbl	16(%rsp), %eax
	cmpb	$1, %al
	je	.LBB119_2
	jmp	.LBB119_4
.LBB119_7:
	vmovaps	%xmm0, (%rsp)
	movq	$0, 16(%rsp)
	movq	%rsp, %rdi
	movq	%r13, %rsi
	movq	%r15, %rdx
	movq	%r12, %rcx
	movq	%rbx, %r8
	callq	L_76
	movq	(%rsp), %rbp
	movq	8(%rsp), %r14
	movzbl	16(%rsp), %eax
	cmpb	$1, %al
	jne	.LBB119_4
	.p2align	4
.LBB119_8:
	cmpq	%rbx, %r14
	je	.LBB119_12
	movzbl	17(%rsp), %eax
	movl	$65533, (%r12,%r14,4)
	addq	%rax, %rbp
	movq	%r13, %rsi
	addq	%rbp, %rsi
	movq	%r15, %rdx
	subq	%rbp, %rdx
	leaq	(%r12,%r14,4), %rcx
	addq	$4, %rcx
	incq	%r14
	movq	%rbx, %r8
	subq	%r14, %r8
	movq	%rsp, %rdi
	callq	L_76
	addq	(%rsp), %rbp
	addq	8(%rsp), %r14
	movzbl	16(%rsp), %eax
	cmpb	$1, %al
	je	.LBB119_8
.LBB119_4:
	cmpb	$2, %al
	jne	.LBB119_10
	movl	$3, %ecx
	cmpq	%rbx, %r14
	je	.LBB119_13
	movl	$65533, (%r12,%r14,4)
	incq	%r14
	xorl	%ecx, %ecx
	movq	%r14, %rbx
	movq	%r15, %rbp
	jmp	.LBB119_13
.LBB119_10:
	xorl	%ecx, %ecx
	testb	%al, %al
	setne	%cl
	leal	(%rcx,%rcx,2), %ecx
	movq	%r14, %rbx
	jmp	.LBB119_13
.LBB119_12:
	movl	$3, %ecx
.LBB119_13:
	movq	32(%rsp), %rax
	movq	%rbp, (%rax)
	movq	%rbx, 8(%rax)
	movl	%ecx, 16(%rax)
	movl	$0, 20(%rax)
	addq	$40, %rsp
	popq	%rbx
	popq	%r12
	popq	%r13
	popq	%r14
	popq	%r15
	popq	%rbp
	retq
.Lfunc_end119:

	.section	.rdata$000,"dr"
	.p2align	4, 0x0
.LCPI120_0:
	.short	128
	.short	128
	.short	128
	.short	128
	.short	128
	.short	128
	.short	128
	.short	128
.LCPI120_1:
	.byte	1
	.byte	0
	.byte	3
	.byte	2
	.byte	5
	.byte	4
	.byte	7
	.byte	6
	.byte	9
	.byte	8
	.byte	11
	.byte	10
	.byte	13
	.byte	12
	.byte	15
	.byte	14
	.section	.text$141,"xr"
	.globl	dethrux_to_utf8_v3
	.p2align	4
dethrux_to_utf8_v3:
	pushq	%rbp
	pushq	%r15
	pushq	%r14
	pushq	%r13
	pushq	%r12
	pushq	%rbx
	subq	$56, %rsp
	movq	%rdi, %r14
	xorl	%eax, %eax
	testq	%rdx, %rdx
	sete	%al
	shll	$12, %eax
	leaq	(%rdx,%rax), %r12
	xorl	%r15d, %r15d
	testq	%r8, %r8
	sete	%r15b
	shll	$12, %r15d
	addq	%r8, %r15
	leaq	-16(%rcx), %rdi
	vpxor	%xmm0, %xmm0, %xmm0
	cmpl	$1, %esi
	jne	.LBB120_9
	vmovdqa	%xmm0, 16(%rsp)
	movq	$0, 32(%rsp)
	cmpq	$175, %rdi
	ja	.LBB120_17
	movq	%rcx, %rax
	shrq	%rax
	cmpq	%rax, %r9
	cmovbq	%r9, %rax
	cmpq	$8, %rax
	jb	.LBB120_17
	leaq	(%rax,%rax), %rdx
	xorl	%r13d, %r13d
	xorl	%ebp, %ebp
	.p2align	4
.LBB120_4:
	vmovdqu	(%r12,%rbp,2), %xmm0
	vpshufb	.LCPI120_1(%rip), %xmm0, %xmm0
	vpmaxuw	.LCPI120_0(%rip), %xmm0, %xmm1
	vpcmpeqw	%xmm1, %xmm0, %xmm1
	vpmovmskb	%xmm1, %esi
	testl	%esi, %esi
	jne	.LBB120_39
	vpackuswb	%xmm0, %xmm0, %xmm0
	vmovq	%xmm0, (%r15,%rbp)
	addq	$8, %rbp
	leaq	(%rdx,%r13), %rsi
	addq	$-16, %rsi
	addq	$-16, %r13
	cmpq	$15, %rsi
	ja	.LBB120_4
	negq	%r13
	cmpq	%r13, %rdx
	jbe	.LBB120_18
	vmovdqu	-16(%r12,%rdx), %xmm0
	vpshufb	.LCPI120_1(%rip), %xmm0, %xmm0
	vpmaxuw	.LCPI120_0(%rip), %xmm0, %xmm1
	vpcmpeqw	%xmm1, %xmm0, %xmm1
	vpmovmskb	%xmm1, %esi
	testl	%esi, %esi
	jne	.LBB120_18
	vpackuswb	%xmm0, %xmm0, %xmm0
	vmovq	%xmm0, -8(%r15,%rax)
	movq	%rax, %rbp
	movq	%rdx, %r13
	movq	%rcx, %rax
	subq	%r13, %rax
	cmpq	$15, %rax
	ja	.LBB120_19
	jmp	.LBB120_40
.LBB120_9:
	vmovdqa	%xmm0, 16(%rsp)
	movq	$0, 32(%rsp)
	cmpq	$175, %rdi
	ja	.LBB120_22
	movq	%rcx, %rsi
	shrq	%rsi
	cmpq	%rsi, %r9
	cmovbq	%r9, %rsi
	cmpq	$8, %rsi
	jb	.LBB120_22
	leaq	(%rsi,%rsi), %rdi
	xorl	%r13d, %r13d
	xorl	%ebp, %ebp
	.p2align	4
.LBB120_12:
	vmovdqu	(%r12,%rbp,2), %xmm0
	vpmaxuw	.LCPI120_0(%rip), %xmm0, %xmm1
	vpcmpeqw	%xmm1, %xmm0, %xmm1
	vpmovmskb	%xmm1, %r8d
	testl	%r8d, %r8d
	jne	.LBB120_49
	vpackuswb	%xmm0, %xmm0, %xmm0
	vmovq	%xmm0, (%r15,%rbp)
	addq	$8, %rbp
	leaq	(%rdi,%r13), %r8
	addq	$-16, %r8
	addq	$-16, %r13
	cmpq	$15, %r8
	ja	.LBB120_12
	negq	%r13
	cmpq	%r13, %rdi
	jbe	.LBB120_23
	vmovdqu	-16(%r12,%rdi), %xmm0
	vpmaxuw	.LCPI120_0(%rip), %xmm0, %xmm1
	vpcmpeqw	%xmm1, %xmm0, %xmm1
	vpmovmskb	%xmm1, %r8d
	testl	%r8d, %r8d
	jne	.LBB120_23
	vpackuswb	%xmm0, %xmm0, %xmm0
	vmovq	%xmm0, -8(%r15,%rsi)
	movq	%rsi, %rbp
	movq	%rdi, %r13
	movq	%rcx, %rsi
	subq	%r13, %rsi
	cmpq	$15, %rsi
	ja	.LBB120_24
	jmp	.LBB120_50
.LBB120_17:
	xorl	%ebp, %ebp
	xorl	%r13d, %r13d
.LBB120_18:
	movq	%rcx, %rax
	subq	%r13, %rax
	cmpq	$15, %rax
	jbe	.LBB120_40
.LBB120_19:
	leaq	-8(%rcx), %rax
	cmpq	$183, %rax
	ja	.LBB120_27
	movq	%rcx, %rsi
	subq	%r13, %rsi
	cmpq	$8, %rsi
	jae	.LBB120_29
.LBB120_27:
	movq	%r9, %rbx
	cmpq	%rcx, %r13
	jne	.LBB120_30
	jmp	.LBB120_32
.LBB120_22:
	xorl	%ebp, %ebp
	xorl	%r13d, %r13d
.LBB120_23:
	movq	%rcx, %rsi
	subq	%r13, %rsi
	cmpq	$15, %rsi
	jbe	.LBB120_50
.LBB120_24:
	leaq	-8(%rcx), %rax
	cmpq	$183, %rax
	ja	.LBB120_28
	movq	%rcx, %rsi
	subq	%r13, %rsi
	cmpq	$8, %rsi
	jae	.LBB120_31
.LBB120_28:
	movq	%r9, %rbx
	cmpq	%rcx, %r13
	je	.LBB120_32
	jmp	.LBB120_35
.LBB120_29:
	leaq	(%r12,%r13), %rdi
	leaq	(%r15,%rbp), %rdx
	movq	%r9, %rbx
	movq	%r9, %rax
	subq	%rbp, %rax
	movq	%r14, 48(%rsp)
	movq	%rcx, %r14
	movq	%rax, %rcx
	callq	L_28
	movq	%r14, %rcx
	movq	48(%rsp), %r14
	addq	%rax, %r13
	addq	%rdx, %rbp
	cmpq	%rcx, %r13
	je	.LBB120_32
.LBB120_30:
	movq	%rbp, (%rsp)
	leaq	16(%rsp), %rdi
	movq	%r12, %rsi
	movq	%rcx, %rdx
	movq	%r15, %rcx
	movq	%rbx, %r8
	movq	%r13, %r9
	callq	L_29
	movq	16(%rsp), %rcx
	movq	24(%rsp), %rbp
	movzbl	32(%rsp), %edx
	movzbl	%dl, %eax
	leaq	.LJTI120_1(%rip), %rsi
	movslq	(%rsi,%rax,4), %rdi
	addq	%rsi, %rdi
	jmpq	*%rdi
.LBB120_31:
	leaq	(%r12,%r13), %rdi
	leaq	(%r15,%rbp), %rdx
	movq	%r9, %rbx
	movq	%r9, %rax
	subq	%rbp, %rax
	movq	%r14, 48(%rsp)
	movq	%rcx, %r14
	movq	%rax, %rcx
	callq	L_38
	movq	%r14, %rcx
	movq	48(%rsp), %r14
	addq	%rax, %r13
	addq	%rdx, %rbp
	cmpq	%rcx, %r13
	jne	.LBB120_35
.LBB120_32:
	xorl	%eax, %eax
.LBB120_33:
	xorl	%edx, %edx
.LBB120_34:
	movzbl	%dl, %edx
	movq	%rcx, (%r14)
	movq	%rbp, 8(%r14)
	movl	%eax, 16(%r14)
	movl	%edx, 20(%r14)
	movq	%r14, %rax
	addq	$56, %rsp
	popq	%rbx
	popq	%r12
	popq	%r13
	popq	%r14
	popq	%r15
	popq	%rbp
	retq
.LBB120_35:
	movq	%rbp, (%rsp)
	leaq	16(%rsp), %rdi
	movq	%r12, %rsi
	movq	%rcx, %rdx
	movq	%r15, %rcx
	movq	%rbx, %r8
	movq	%r13, %r9
	callq	L_39
	movq	16(%rsp), %rcx
	movq	24(%rsp), %rbp
	movzbl	32(%rsp), %edx
	movzbl	%dl, %eax
	leaq	.LJTI120_0(%rip), %rsi
	movslq	(%rsi,%rax,4), %rdi
	addq	%rsi, %rdi
	jmpq	*%rdi
.LBB120_36:
	movzbl	33(%rsp), %edx
	movl	$1, %eax
	jmp	.LBB120_34
.LBB120_37:
	movl	$2, %eax
	jmp	.LBB120_33
.LBB120_38:
	movl	$3, %eax
	jmp	.LBB120_33
.LBB120_39:
	negq	%r13
	movq	%rcx, %rax
	subq	%r13, %rax
	cmpq	$15, %rax
	ja	.LBB120_19
.LBB120_40:
	cmpq	$2, %rax
	jb	.LBB120_19
	movq	%r9, %rdx
	subq	%rbp, %rdx
	movq	%rax, %rsi
	shrq	%rsi
	leaq	(%rsi,%rsi,2), %rsi
	cmpq	%rsi, %rdx
	jae	.LBB120_44
	jmp	.LBB120_19
	.p2align	4
.LBB120_42:
	movb	%dl, (%r15,%rbp)
	incq	%rbp
.LBB120_43:
	addq	$2, %r13
	addq	$-2, %rax
	cmpq	$1, %rax
	jbe	.LBB120_19
.LBB120_44:
	movbew	(%r12,%r13), %dx
	cmpw	$127, %dx
	jbe	.LBB120_42
	movzwl	%dx, %esi
	cmpl	$2047, %esi
	ja	.LBB120_47
	shrl	$6, %esi
	andl	$63, %edx
	shll	$8, %edx
	orl	%esi, %edx
	orl	$32960, %edx
	movw	%dx, (%r15,%rbp)
	addq	$2, %rbp
	jmp	.LBB120_43
	.p2align	4
.LBB120_47:
	movl	%edx, %edi
	andl	$63488, %edi
	cmpl	$55296, %edi
	je	.LBB120_19
	movl	%edx, %edi
	andb	$63, %dil
	orb	$-128, %dil
	shrl	$6, %edx
	andb	$63, %dl
	orb	$-128, %dl
	shrl	$12, %esi
	orb	$-32, %sil
	movb	%sil, (%r15,%rbp)
	movb	%dl, 1(%r15,%rbp)
	movb	%dil, 2(%r15,%rbp)
	addq	$3, %rbp
	jmp	.LBB120_43
.LBB120_49:
	negq	%r13
	movq	%rcx, %rsi
	subq	%r13, %rsi
	cmpq	$15, %rsi
	ja	.LBB120_24
.LBB120_50:
	cmpq	$2, %rsi
	jb	.LBB120_24
	movq	%r9, %rdi
	subq	%rbp, %rdi
	movq	%rsi, %r8
	shrq	%r8
	leaq	(%r8,%r8,2), %r8
	cmpq	%r8, %rdi
	jb	.LBB120_24
	addq	%rdx, %rax
	incq	%rax
	jmp	.LBB120_55
	.p2align	4
.LBB120_53:
	movb	%dl, (%r15,%rbp)
	incq	%rbp
.LBB120_54:
	addq	$2, %r13
	addq	$-2, %rsi
	cmpq	$1, %rsi
	jbe	.LBB120_24
.LBB120_55:
	movzbl	-1(%rax,%r13), %edx
	movzbl	(%rax,%r13), %r8d
	movl	%r8d, %edi
	shll	$8, %edi
	orl	%edx, %edi
	cmpw	$127, %di
	jbe	.LBB120_53
	cmpb	$7, %r8b
	ja	.LBB120_58
	movzwl	%dx, %edx
	andl	$63, %edx
	shll	$8, %edx
	movzwl	%di, %edi
	shrl	$6, %edi
	orl	%edx, %edi
	orl	$32960, %edi
	movw	%di, (%r15,%rbp)
	addq	$2, %rbp
	jmp	.LBB120_54
	.p2align	4
.LBB120_58:
	movzwl	%r8w, %r10d
	andl	$-8, %r10d
	cmpl	$216, %r10d
	je	.LBB120_24
	andb	$63, %dl
	orb	$-128, %dl
	shrl	$6, %edi
	andb	$63, %dil
	orb	$-128, %dil
	shrb	$4, %r8b
	orb	$-32, %r8b
	movb	%r8b, (%r15,%rbp)
	movb	%dil, 1(%r15,%rbp)
	movb	%dl, 2(%r15,%rbp)
	addq	$3, %rbp
	jmp	.LBB120_54
.Lfunc_end120:
	.section	.rdata$142,"dr"
	.p2align	2, 0x0
.LJTI120_0:
	.long	.LBB120_34-.LJTI120_0
	.long	.LBB120_36-.LJTI120_0
	.long	.LBB120_37-.LJTI120_0
	.long	.LBB120_38-.LJTI120_0
.LJTI120_1:
	.long	.LBB120_34-.LJTI120_1
	.long	.LBB120_36-.LJTI120_1
	.long	.LBB120_37-.LJTI120_1
	.long	.LBB120_38-.LJTI120_1

	.section	.rdata$000,"dr"
	.p2align	4, 0x0
.LCPI121_0:
	.short	128
	.short	128
	.short	128
	.short	128
	.short	128
	.short	128
	.short	128
	.short	128
.LCPI121_1:
	.byte	1
	.byte	0
	.byte	3
	.byte	2
	.byte	5
	.byte	4
	.byte	7
	.byte	6
	.byte	9
	.byte	8
	.byte	11
	.byte	10
	.byte	13
	.byte	12
	.byte	15
	.byte	14
	.section	.text$143,"xr"
	.globl	dethrux_to_utf8_lossy_v3
	.p2align	4
dethrux_to_utf8_lossy_v3:
	pushq	%rbp
	pushq	%r15
	pushq	%r14
	pushq	%r13
	pushq	%r12
	pushq	%rbx
	subq	$104, %rsp
	movq	%r9, 40(%rsp)
	movq	%rdi, 16(%rsp)
	xorl	%eax, %eax
	testq	%rdx, %rdx
	sete	%al
	shll	$12, %eax
	leaq	(%rdx,%rax), %rdi
	movq	%rdi, 56(%rsp)
	xorl	%edi, %edi
	testq	%r8, %r8
	sete	%dil
	shll	$12, %edi
	addq	%r8, %rdi
	cmpl	$1, %esi
	movq	%rcx, 24(%rsp)
	movq	%rdi, 32(%rsp)
	jne	.LBB121_46
	xorl	%r14d, %r14d
	xorl	%r15d, %r15d
	jmp	.LBB121_2
	.p2align	4
.LBB121_43:
	movb	$-67, 2(%rbx)
	movw	$-16401, (%rbx)
.LBB121_44:
	movl	$3, %edx
	movq	24(%rsp), %rcx
.LBB121_45:
	addq	%rax, %r15
	addq	%rdx, %r14
.LBB121_2:
	movq	56(%rsp), %rax
	leaq	(%rax,%r15), %r12
	movq	%rcx, %rdx
	subq	%r15, %rdx
	leaq	(%rdi,%r14), %r13
	movq	40(%rsp), %rbp
	vpxor	%xmm0, %xmm0, %xmm0
	vmovdqa	%xmm0, 64(%rsp)
	subq	%r14, %rbp
	movq	$0, 80(%rsp)
	leaq	-16(%rdx), %rax
	cmpq	$175, %rax
	ja	.LBB121_3
	movq	%rdx, %rax
	shrq	%rax
	cmpq	%rax, %rbp
	cmovbq	%rbp, %rax
	cmpq	$8, %rax
	jb	.LBB121_3
	leaq	(%rax,%rax), %rcx
	xorl	%r9d, %r9d
	xorl	%ebx, %ebx
	.p2align	4
.LBB121_6:
	vmovdqu	(%r12,%rbx,2), %xmm0
	vpshufb	.LCPI121_1(%rip), %xmm0, %xmm0
	vpmaxuw	.LCPI121_0(%rip), %xmm0, %xmm1
	vpcmpeqw	%xmm1, %xmm0, %xmm1
	vpmovmskb	%xmm1, %esi
	testl	%esi, %esi
	jne	.LBB121_11
	vpackuswb	%xmm0, %xmm0, %xmm0
	vmovq	%xmm0, (%r13,%rbx)
	addq	$8, %rbx
	leaq	(%rcx,%r9), %rsi
	addq	$-16, %rsi
	addq	$-16, %r9
	cmpq	$15, %rsi
	ja	.LBB121_6
	negq	%r9
	cmpq	%r9, %rcx
	jbe	.LBB121_12
	vmovdqu	-16(%r12,%rcx), %xmm0
	vpshufb	.LCPI121_1(%rip), %xmm0, %xmm0
	vpmaxuw	.LCPI121_0(%rip), %xmm0, %xmm1
	vpcmpeqw	%xmm1, %xmm0, %xmm1
	vpmovmskb	%xmm1, %esi
	testl	%esi, %esi
	jne	.LBB121_12
	vpackuswb	%xmm0, %xmm0, %xmm0
	vmovq	%xmm0, -8(%r13,%rax)
	movq	%rax, %rbx
	movq	%rcx, %r9
	movq	%rdx, %rax
	subq	%r9, %rax
	cmpq	$15, %rax
	ja	.LBB121_22
	jmp	.LBB121_13
	.p2align	4
.LBB121_3:
	xorl	%ebx, %ebx
	xorl	%r9d, %r9d
.LBB121_12:
	movq	%rdx, %rax
	subq	%r9, %rax
	cmpq	$15, %rax
	jbe	.LBB121_13
.LBB121_22:
	leaq	-8(%rdx), %rax
	cmpq	$183, %rax
	ja	.LBB121_25
	movq	%rdx, %rsi
	subq	%r9, %rsi
	cmpq	$8, %rsi
	jb	.LBB121_25
	leaq	(%r12,%r9), %rdi
	leaq	(%rbx,%r13), %rax
	movq	%rbp, %rcx
	subq	%rbx, %rcx
	movq	%rdx, 48(%rsp)
	movq	%rax, %rdx
	movq	%r9, 88(%rsp)
	callq	L_28
	movq	88(%rsp), %r9
	movq	%rdx, %rcx
	movq	48(%rsp), %rdx
	addq	%rax, %r9
	addq	%rcx, %rbx
.LBB121_25:
	cmpq	%rdx, %r9
	je	.LBB121_26
	movq	%rbx, (%rsp)
	leaq	64(%rsp), %rdi
	movq	%r12, %rsi
	movq	%r13, %rcx
	movq	%rbp, %r8
	callq	L_29
	addq	64(%rsp), %r15
	movzbl	80(%rsp), %eax
	addq	72(%rsp), %r14
	cmpl	$1, %eax
	jne	.LBB121_29
	movq	32(%rsp), %rdi
	leaq	(%rdi,%r14), %rbx
	movq	40(%rsp), %r12
	subq	%r14, %r12
	cmpq	$512, %r12
	jb	.LBB121_39
	movq	56(%rsp), %rax
	leaq	(%rax,%r15), %r13
	movq	24(%rsp), %rbp
	subq	%r15, %rbp
	cmpq	$128, %rbp
	jb	.LBB121_37
	movq	%r13, %rdi
	movq	%rbp, %rsi
	movq	%rbx, %rdx
	movq	%r12, %rcx
	callq	L_36
	cmpq	$127, %rax
	ja	.LBB121_38
.LBB121_37:
	movq	%r13, %rdi
	movq	%rbp, %rsi
	movq	%rbx, %rdx
	movq	%r12, %rcx
	callq	L_37
.LBB121_38:
	movq	24(%rsp), %rcx
	movq	32(%rsp), %rdi
	jmp	.LBB121_45
	.p2align	4
.LBB121_39:
	cmpq	$3, %r12
	jb	.LBB121_40
	movzbl	81(%rsp), %eax
	leaq	.Lstatic.9(%rip), %rcx
	movq	%rbx, %rdx
	subq	%rcx, %rdx
	cmpq	$2, %rdx
	ja	.LBB121_43
	movw	$-16401, (%rbx)
	movb	$-67, 2(%rbx)
	jmp	.LBB121_44
.LBB121_11:
	negq	%r9
	movq	%rdx, %rax
	subq	%r9, %rax
	cmpq	$15, %rax
	ja	.LBB121_22
	.p2align	4
.LBB121_13:
	cmpq	$2, %rax
	jb	.LBB121_22
	movq	%rbp, %rcx
	subq	%rbx, %rcx
	movq	%rax, %rsi
	shrq	%rsi
	leaq	(%rsi,%rsi,2), %rsi
	cmpq	%rsi, %rcx
	jae	.LBB121_15
	jmp	.LBB121_22
	.p2align	4
.LBB121_16:
	movb	%cl, (%r13,%rbx)
	incq	%rbx
.LBB121_21:
	addq	$2, %r9
	addq	$-2, %rax
	cmpq	$1, %rax
	jbe	.LBB121_22
.LBB121_15:
	movbew	(%r12,%r9), %cx
	cmpw	$127, %cx
	jbe	.LBB121_16
	movzwl	%cx, %esi
	cmpl	$2047, %esi
	ja	.LBB121_19
	shrl	$6, %esi
	andl	$63, %ecx
	shll	$8, %ecx
	orl	%esi, %ecx
	orl	$32960, %ecx
	movw	%cx, (%r13,%rbx)
	addq	$2, %rbx
	jmp	.LBB121_21
	.p2align	4
.LBB121_19:
	movl	%ecx, %edi
	andl	$63488, %edi
	cmpl	$55296, %edi
	je	.LBB121_22
	movl	%ecx, %edi
	andb	$63, %dil
	orb	$-128, %dil
	shrl	$6, %ecx
	andb	$63, %cl
	orb	$-128, %cl
	shrl	$12, %esi
	orb	$-32, %sil
	movb	%sil, (%r13,%rbx)
	movb	%cl, 1(%r13,%rbx)
	movb	%dil, 2(%r13,%rbx)
	addq	$3, %rbx
	jmp	.LBB121_21
.LBB121_46:
	addq	%rdx, %rax
	incq	%rax
	movq	%rax, 96(%rsp)
	xorl	%r14d, %r14d
	xorl	%r15d, %r15d
	jmp	.LBB121_47
	.p2align	4
.LBB121_86:
	movb	$-67, 2(%rbx)
	movw	$-16401, (%rbx)
.LBB121_87:
	movl	$3, %edx
	movq	24(%rsp), %rcx
.LBB121_88:
	addq	%rax, %r15
	addq	%rdx, %r14
.LBB121_47:
	movq	56(%rsp), %rax
	leaq	(%rax,%r15), %r10
	movq	%rcx, %rdx
	subq	%r15, %rdx
	leaq	(%rdi,%r14), %r13
	movq	40(%rsp), %r11
	vpxor	%xmm0, %xmm0, %xmm0
	vmovdqa	%xmm0, 64(%rsp)
	subq	%r14, %r11
	movq	$0, 80(%rsp)
	leaq	-16(%rdx), %rax
	cmpq	$175, %rax
	ja	.LBB121_48
	movq	%rdx, %rax
	shrq	%rax
	cmpq	%rax, %r11
	cmovbq	%r11, %rax
	cmpq	$8, %rax
	jb	.LBB121_48
	leaq	(%rax,%rax), %rcx
	xorl	%ebx, %ebx
	xorl	%r12d, %r12d
	.p2align	4
.LBB121_51:
	vmovdqu	(%r10,%r12,2), %xmm0
	vpmaxuw	.LCPI121_0(%rip), %xmm0, %xmm1
	vpcmpeqw	%xmm1, %xmm0, %xmm1
	vpmovmskb	%xmm1, %esi
	testl	%esi, %esi
	jne	.LBB121_56
	vpackuswb	%xmm0, %xmm0, %xmm0
	vmovq	%xmm0, (%r13,%r12)
	addq	$8, %r12
	leaq	(%rcx,%rbx), %rsi
	addq	$-16, %rsi
	addq	$-16, %rbx
	cmpq	$15, %rsi
	ja	.LBB121_51
	negq	%rbx
	cmpq	%rbx, %rcx
	jbe	.LBB121_57
	vmovdqu	-16(%r10,%rcx), %xmm0
	vpmaxuw	.LCPI121_0(%rip), %xmm0, %xmm1
	vpcmpeqw	%xmm1, %xmm0, %xmm1
	vpmovmskb	%xmm1, %esi
	testl	%esi, %esi
	jne	.LBB121_57
	vpackuswb	%xmm0, %xmm0, %xmm0
	vmovq	%xmm0, -8(%r13,%rax)
	movq	%rax, %r12
	movq	%rcx, %rbx
	movq	%rdx, %rax
	subq	%rbx, %rax
	cmpq	$15, %rax
	ja	.LBB121_68
	jmp	.LBB121_58
	.p2align	4
.LBB121_48:
	xorl	%r12d, %r12d
	xorl	%ebx, %ebx
.LBB121_57:
	movq	%rdx, %rax
	subq	%rbx, %rax
	cmpq	$15, %rax
	jbe	.LBB121_58
.LBB121_68:
	leaq	-8(%rdx), %rax
	cmpq	$183, %rax
	movq	%r14, 48(%rsp)
	ja	.LBB121_69
	movq	%rdx, %rsi
	subq	%rbx, %rsi
	cmpq	$8, %rsi
	jae	.LBB121_71
.LBB121_69:
	movq	%r11, %r14
	movq	%r10, %rbp
	cmpq	%rdx, %rbx
	jne	.LBB121_74
	jmp	.LBB121_73
	.p2align	4
.LBB121_71:
	movq	%r10, %rbp
	leaq	(%r10,%rbx), %rdi
	leaq	(%r12,%r13), %rax
	movq	%r11, %r14
	movq	%r11, %rcx
	subq	%r12, %rcx
	movq	%rdx, 88(%rsp)
	movq	%rax, %rdx
	callq	L_38
	movq	%rdx, %rcx
	movq	88(%rsp), %rdx
	addq	%rax, %rbx
	addq	%rcx, %r12
	cmpq	%rdx, %rbx
	je	.LBB121_73
.LBB121_74:
	movq	%r12, (%rsp)
	leaq	64(%rsp), %rdi
	movq	%rbp, %rsi
	movq	%r13, %rcx
	movq	%r14, %r8
	movq	%rbx, %r9
	callq	L_39
	addq	64(%rsp), %r15
	movzbl	80(%rsp), %eax
	movq	48(%rsp), %r14
	addq	72(%rsp), %r14
	cmpl	$1, %eax
	jne	.LBB121_29
	movq	32(%rsp), %rdi
	leaq	(%rdi,%r14), %rbx
	movq	40(%rsp), %r12
	subq	%r14, %r12
	cmpq	$512, %r12
	jb	.LBB121_83
	movq	56(%rsp), %rax
	leaq	(%rax,%r15), %r13
	movq	24(%rsp), %rbp
	subq	%r15, %rbp
	cmpq	$128, %rbp
	jb	.LBB121_78
	movq	%r13, %rdi
	movq	%rbp, %rsi
	movq	%rbx, %rdx
	movq	%r12, %rcx
	callq	L_45
	cmpq	$127, %rax
	ja	.LBB121_79
.LBB121_78:
	movq	%r13, %rdi
	movq	%rbp, %rsi
	movq	%rbx, %rdx
	movq	%r12, %rcx
	callq	L_46
.LBB121_79:
	movq	24(%rsp), %rcx
	movq	32(%rsp), %rdi
	jmp	.LBB121_88
	.p2align	4
.LBB121_83:
	cmpq	$3, %r12
	jb	.LBB121_40
	movzbl	81(%rsp), %eax
	leaq	.Lstatic.9(%rip), %rcx
	movq	%rbx, %rdx
	subq	%rcx, %rdx
	cmpq	$2, %rdx
	ja	.LBB121_86
	movw	$-16401, (%rbx)
	movb	$-67, 2(%rbx)
	jmp	.LBB121_87
.LBB121_56:
	negq	%rbx
	movq	%rdx, %rax
	subq	%rbx, %rax
	cmpq	$15, %rax
	ja	.LBB121_68
	.p2align	4
.LBB121_58:
	cmpq	$2, %rax
	jb	.LBB121_68
	movq	%r11, %rcx
	subq	%r12, %rcx
	movq	%rax, %rsi
	shrq	%rsi
	leaq	(%rsi,%rsi,2), %rsi
	cmpq	%rsi, %rcx
	jb	.LBB121_68
	movq	96(%rsp), %rcx
	addq	%r15, %rcx
	jmp	.LBB121_61
	.p2align	4
.LBB121_62:
	movb	%sil, (%r13,%r12)
	incq	%r12
.LBB121_67:
	addq	$2, %rbx
	addq	$-2, %rax
	cmpq	$1, %rax
	jbe	.LBB121_68
.LBB121_61:
	movzbl	-1(%rcx,%rbx), %esi
	movzbl	(%rcx,%rbx), %r8d
	movl	%r8d, %edi
	shll	$8, %edi
	orl	%esi, %edi
	cmpw	$127, %di
	jbe	.LBB121_62
	cmpb	$7, %r8b
	ja	.LBB121_65
	movzwl	%si, %esi
	andl	$63, %esi
	shll	$8, %esi
	movzwl	%di, %edi
	shrl	$6, %edi
	orl	%esi, %edi
	orl	$32960, %edi
	movw	%di, (%r13,%r12)
	addq	$2, %r12
	jmp	.LBB121_67
	.p2align	4
.LBB121_65:
	movzwl	%r8w, %r9d
	andl	$-8, %r9d
	cmpl	$216, %r9d
	je	.LBB121_68
	andb	$63, %sil
	orb	$-128, %sil
	shrl	$6, %edi
	andb	$63, %dil
	orb	$-128, %dil
	shrb	$4, %r8b
	orb	$-32, %r8b
	movb	%r8b, (%r13,%r12)
	movb	%dil, 1(%r13,%r12)
	movb	%sil, 2(%r13,%r12)
	addq	$3, %r12
	jmp	.LBB121_67
.LBB121_29:
	cmpl	$2, %eax
	movq	32(%rsp), %r8
	jne	.LBB121_80
	xorl	%esi, %esi
	movq	24(%rsp), %rdi
	cmpq	%r15, %rdi
	je	.LBB121_90
	movq	40(%rsp), %rax
	subq	%r14, %rax
	cmpq	$3, %rax
	jae	.LBB121_32
	movq	%r15, %rdi
	movl	$3, %esi
	jmp	.LBB121_90
.LBB121_80:
	xorl	%ecx, %ecx
	testb	%al, %al
	setne	%cl
	leal	(%rcx,%rcx,2), %esi
	movq	%r15, %rdi
	jmp	.LBB121_90
.LBB121_73:
	movq	48(%rsp), %r14
	addq	%r12, %r14
	jmp	.LBB121_27
.LBB121_26:
	addq	%rbx, %r14
.LBB121_27:
	xorl	%esi, %esi
	movq	16(%rsp), %rax
	movq	24(%rsp), %rdi
	jmp	.LBB121_91
.LBB121_40:
	movl	$3, %esi
	movq	%r15, %rdi
	jmp	.LBB121_90
.LBB121_32:
	addq	%r14, %r8
	addq	$3, %r14
	leaq	.Lstatic.9(%rip), %rcx
	movq	%r8, %rdx
	subq	%rcx, %rdx
	cmpq	$2, %rdx
	ja	.LBB121_89
	movw	$-16401, (%r8)
	movb	$-67, 2(%r8)
	jmp	.LBB121_90
.LBB121_89:
	movb	$-67, 2(%r8)
	movw	$-16401, (%r8)
.LBB121_90:
	movq	16(%rsp), %rax
.LBB121_91:
	movq	%rdi, (%rax)
	movq	%r14, 8(%rax)
	movl	%esi, 16(%rax)
	movl	$0, 20(%rax)
	addq	$104, %rsp
	popq	%rbx
	popq	%r12
	popq	%r13
	popq	%r14
	popq	%r15
	popq	%rbp
	retq
.Lfunc_end121:

	.section	.rdata$000,"dr"
	.p2align	4, 0x0
.LCPI122_0:
	.short	128
	.short	128
	.short	128
	.short	128
	.short	128
	.short	128
	.short	128
	.short	128
.LCPI122_1:
	.byte	1
	.byte	0
	.byte	3
	.byte	2
	.byte	5
	.byte	4
	.byte	7
	.byte	6
	.byte	9
	.byte	8
	.byte	11
	.byte	10
	.byte	13
	.byte	12
	.byte	15
	.byte	14
	.section	.text$144,"xr"
	.globl	dethrux_to_utf8_partial_v3
	.p2align	4
dethrux_to_utf8_partial_v3:
	pushq	%rbp
	pushq	%r15
	pushq	%r14
	pushq	%r13
	pushq	%r12
	pushq	%rbx
	subq	$104, %rsp
	movq	%r9, 40(%rsp)
	movq	%rcx, 8(%rsp)
	movq	%rdi, 16(%rsp)
	xorl	%eax, %eax
	testq	%rdx, %rdx
	sete	%al
	shll	$12, %eax
	leaq	(%rdx,%rax), %rcx
	movq	%rcx, 24(%rsp)
	xorl	%ecx, %ecx
	testq	%r8, %r8
	sete	%cl
	shll	$12, %ecx
	addq	%r8, %rcx
	movq	%rcx, 32(%rsp)
	cmpl	$1, %esi
	jne	.LBB122_40
	xorl	%r14d, %r14d
	xorl	%r15d, %r15d
	jmp	.LBB122_2
	.p2align	4
.LBB122_32:
	movq	%r13, %rdi
	movq	%rbp, %rsi
	movq	%rbx, %rdx
	movq	%r12, %rcx
	callq	L_37
.LBB122_39:
	addq	%rax, %r15
	addq	%rdx, %r14
.LBB122_2:
	movq	24(%rsp), %rax
	leaq	(%rax,%r15), %r12
	movq	8(%rsp), %rdx
	subq	%r15, %rdx
	movq	32(%rsp), %rax
	leaq	(%rax,%r14), %r13
	movq	40(%rsp), %rbp
	vpxor	%xmm0, %xmm0, %xmm0
	vmovdqa	%xmm0, 48(%rsp)
	subq	%r14, %rbp
	movq	$0, 64(%rsp)
	leaq	-16(%rdx), %rax
	cmpq	$175, %rax
	ja	.LBB122_3
	movq	%rdx, %rax
	shrq	%rax
	cmpq	%rax, %rbp
	cmovbq	%rbp, %rax
	cmpq	$8, %rax
	jb	.LBB122_3
	leaq	(%rax,%rax), %rcx
	xorl	%r9d, %r9d
	xorl	%ebx, %ebx
	.p2align	4
.LBB122_6:
	vmovdqu	(%r12,%rbx,2), %xmm0
	vpshufb	.LCPI122_1(%rip), %xmm0, %xmm0
	vpmaxuw	.LCPI122_0(%rip), %xmm0, %xmm1
	vpcmpeqw	%xmm1, %xmm0, %xmm1
	vpmovmskb	%xmm1, %esi
	testl	%esi, %esi
	jne	.LBB122_11
	vpackuswb	%xmm0, %xmm0, %xmm0
	vmovq	%xmm0, (%r13,%rbx)
	addq	$8, %rbx
	leaq	(%rcx,%r9), %rsi
	addq	$-16, %rsi
	addq	$-16, %r9
	cmpq	$15, %rsi
	ja	.LBB122_6
	negq	%r9
	cmpq	%r9, %rcx
	jbe	.LBB122_12
	vmovdqu	-16(%r12,%rcx), %xmm0
	vpshufb	.LCPI122_1(%rip), %xmm0, %xmm0
	vpmaxuw	.LCPI122_0(%rip), %xmm0, %xmm1
	vpcmpeqw	%xmm1, %xmm0, %xmm1
	vpmovmskb	%xmm1, %esi
	testl	%esi, %esi
	jne	.LBB122_12
	vpackuswb	%xmm0, %xmm0, %xmm0
	vmovq	%xmm0, -8(%r13,%rax)
	movq	%rax, %rbx
	movq	%rcx, %r9
	movq	%rdx, %rax
	subq	%r9, %rax
	cmpq	$15, %rax
	ja	.LBB122_22
	jmp	.LBB122_13
	.p2align	4
.LBB122_3:
	xorl	%ebx, %ebx
	xorl	%r9d, %r9d
.LBB122_12:
	movq	%rdx, %rax
	subq	%r9, %rax
	cmpq	$15, %rax
	jbe	.LBB122_13
.LBB122_22:
	leaq	-8(%rdx), %rax
	cmpq	$183, %rax
	ja	.LBB122_25
	movq	%rdx, %rsi
	subq	%r9, %rsi
	cmpq	$8, %rsi
	jb	.LBB122_25
	leaq	(%r12,%r9), %rdi
	leaq	(%rbx,%r13), %rax
	movq	%rbp, %rcx
	subq	%rbx, %rcx
	movq	%rdx, 88(%rsp)
	movq	%rax, %rdx
	movq	%r9, 80(%rsp)
	callq	L_28
	movq	80(%rsp), %r9
	movq	%rdx, %rcx
	movq	88(%rsp), %rdx
	addq	%rax, %r9
	addq	%rcx, %rbx
.LBB122_25:
	cmpq	%rdx, %r9
	je	.LBB122_26
	movq	%rbx, (%rsp)
	leaq	48(%rsp), %rdi
	movq	%r12, %rsi
	movq	%r13, %rcx
	movq	%rbp, %r8
	callq	L_29
	addq	48(%rsp), %r15
	movzbl	64(%rsp), %eax
	addq	56(%rsp), %r14
	cmpb	$1, %al
	jne	.LBB122_69
	movq	32(%rsp), %rax
	leaq	(%rax,%r14), %rbx
	movq	40(%rsp), %r12
	subq	%r14, %r12
	cmpq	$512, %r12
	jb	.LBB122_33
	movq	24(%rsp), %rax
	leaq	(%rax,%r15), %r13
	movq	8(%rsp), %rbp
	subq	%r15, %rbp
	cmpq	$128, %rbp
	jb	.LBB122_32
	movq	%r13, %rdi
	movq	%rbp, %rsi
	movq	%rbx, %rdx
	movq	%r12, %rcx
	callq	L_36
	cmpq	$127, %rax
	jbe	.LBB122_32
	jmp	.LBB122_39
	.p2align	4
.LBB122_33:
	cmpq	$3, %r12
	jb	.LBB122_34
	movzbl	65(%rsp), %eax
	leaq	.Lstatic.9(%rip), %rcx
	movq	%rbx, %rdx
	subq	%rcx, %rdx
	cmpq	$2, %rdx
	ja	.LBB122_37
	movw	$-16401, (%rbx)
	movb	$-67, 2(%rbx)
	jmp	.LBB122_38
	.p2align	4
.LBB122_37:
	movb	$-67, 2(%rbx)
	movw	$-16401, (%rbx)
.LBB122_38:
	movl	$3, %edx
	jmp	.LBB122_39
.LBB122_11:
	negq	%r9
	movq	%rdx, %rax
	subq	%r9, %rax
	cmpq	$15, %rax
	ja	.LBB122_22
	.p2align	4
.LBB122_13:
	cmpq	$2, %rax
	jb	.LBB122_22
	movq	%rbp, %rcx
	subq	%rbx, %rcx
	movq	%rax, %rsi
	shrq	%rsi
	leaq	(%rsi,%rsi,2), %rsi
	cmpq	%rsi, %rcx
	jae	.LBB122_15
	jmp	.LBB122_22
	.p2align	4
.LBB122_16:
	movb	%cl, (%r13,%rbx)
	incq	%rbx
.LBB122_21:
	addq	$2, %r9
	addq	$-2, %rax
	cmpq	$1, %rax
	jbe	.LBB122_22
.LBB122_15:
	movbew	(%r12,%r9), %cx
	cmpw	$127, %cx
	jbe	.LBB122_16
	movzwl	%cx, %esi
	cmpl	$2047, %esi
	ja	.LBB122_19
	shrl	$6, %esi
	andl	$63, %ecx
	shll	$8, %ecx
	orl	%esi, %ecx
	orl	$32960, %ecx
	movw	%cx, (%r13,%rbx)
	addq	$2, %rbx
	jmp	.LBB122_21
	.p2align	4
.LBB122_19:
	movl	%ecx, %edi
	andl	$63488, %edi
	cmpl	$55296, %edi
	je	.LBB122_22
	movl	%ecx, %edi
	andb	$63, %dil
	orb	$-128, %dil
	shrl	$6, %ecx
	andb	$63, %cl
	orb	$-128, %cl
	shrl	$12, %esi
	orb	$-32, %sil
	movb	%sil, (%r13,%rbx)
	movb	%cl, 1(%r13,%rbx)
	movb	%dil, 2(%r13,%rbx)
	addq	$3, %rbx
	jmp	.LBB122_21
.LBB122_40:
	addq	%rdx, %rax
	incq	%rax
	movq	%rax, 96(%rsp)
	xorl	%r14d, %r14d
	xorl	%r15d, %r15d
	jmp	.LBB122_41
	.p2align	4
.LBB122_75:
	movq	%r13, %rdi
	movq	%rbp, %rsi
	movq	%rbx, %rdx
	movq	%r12, %rcx
	callq	L_46
.LBB122_81:
	addq	%rax, %r15
	addq	%rdx, %r14
.LBB122_41:
	movq	24(%rsp), %rax
	leaq	(%rax,%r15), %r10
	movq	8(%rsp), %rdx
	subq	%r15, %rdx
	movq	32(%rsp), %rax
	leaq	(%rax,%r14), %r13
	movq	40(%rsp), %r11
	vpxor	%xmm0, %xmm0, %xmm0
	vmovdqa	%xmm0, 48(%rsp)
	subq	%r14, %r11
	movq	$0, 64(%rsp)
	leaq	-16(%rdx), %rax
	cmpq	$175, %rax
	ja	.LBB122_42
	movq	%rdx, %rax
	shrq	%rax
	cmpq	%rax, %r11
	cmovbq	%r11, %rax
	cmpq	$8, %rax
	jb	.LBB122_42
	leaq	(%rax,%rax), %rcx
	xorl	%ebx, %ebx
	xorl	%r12d, %r12d
	.p2align	4
.LBB122_45:
	vmovdqu	(%r10,%r12,2), %xmm0
	vpmaxuw	.LCPI122_0(%rip), %xmm0, %xmm1
	vpcmpeqw	%xmm1, %xmm0, %xmm1
	vpmovmskb	%xmm1, %esi
	testl	%esi, %esi
	jne	.LBB122_50
	vpackuswb	%xmm0, %xmm0, %xmm0
	vmovq	%xmm0, (%r13,%r12)
	addq	$8, %r12
	leaq	(%rcx,%rbx), %rsi
	addq	$-16, %rsi
	addq	$-16, %rbx
	cmpq	$15, %rsi
	ja	.LBB122_45
	negq	%rbx
	cmpq	%rbx, %rcx
	jbe	.LBB122_51
	vmovdqu	-16(%r10,%rcx), %xmm0
	vpmaxuw	.LCPI122_0(%rip), %xmm0, %xmm1
	vpcmpeqw	%xmm1, %xmm0, %xmm1
	vpmovmskb	%xmm1, %esi
	testl	%esi, %esi
	jne	.LBB122_51
	vpackuswb	%xmm0, %xmm0, %xmm0
	vmovq	%xmm0, -8(%r13,%rax)
	movq	%rax, %r12
	movq	%rcx, %rbx
	movq	%rdx, %rax
	subq	%rbx, %rax
	cmpq	$15, %rax
	ja	.LBB122_62
	jmp	.LBB122_52
	.p2align	4
.LBB122_42:
	xorl	%r12d, %r12d
	xorl	%ebx, %ebx
.LBB122_51:
	movq	%rdx, %rax
	subq	%rbx, %rax
	cmpq	$15, %rax
	jbe	.LBB122_52
.LBB122_62:
	leaq	-8(%rdx), %rax
	cmpq	$183, %rax
	movq	%r15, 88(%rsp)
	ja	.LBB122_63
	movq	%rdx, %rsi
	subq	%rbx, %rsi
	cmpq	$8, %rsi
	jae	.LBB122_65
.LBB122_63:
	movq	%r13, %r15
	movq	%r11, %r13
	movq	%r10, %rbp
	cmpq	%rdx, %rbx
	jne	.LBB122_68
	jmp	.LBB122_67
	.p2align	4
.LBB122_65:
	movq	%r10, %rbp
	leaq	(%r10,%rbx), %rdi
	movq	%r13, %r15
	leaq	(%r12,%r13), %rax
	movq	%r11, %r13
	movq	%r11, %rcx
	subq	%r12, %rcx
	movq	%rdx, 80(%rsp)
	movq	%rax, %rdx
	callq	L_38
	movq	%rdx, %rcx
	movq	80(%rsp), %rdx
	addq	%rax, %rbx
	addq	%rcx, %r12
	cmpq	%rdx, %rbx
	je	.LBB122_67
.LBB122_68:
	movq	%r12, (%rsp)
	leaq	48(%rsp), %rdi
	movq	%rbp, %rsi
	movq	%r15, %rcx
	movq	%r13, %r8
	movq	%rbx, %r9
	callq	L_39
	movq	88(%rsp), %r15
	addq	48(%rsp), %r15
	movzbl	64(%rsp), %eax
	addq	56(%rsp), %r14
	cmpb	$1, %al
	jne	.LBB122_69
	movq	32(%rsp), %rax
	leaq	(%rax,%r14), %rbx
	movq	40(%rsp), %r12
	subq	%r14, %r12
	cmpq	$512, %r12
	jb	.LBB122_76
	movq	24(%rsp), %rax
	leaq	(%rax,%r15), %r13
	movq	8(%rsp), %rbp
	subq	%r15, %rbp
	cmpq	$128, %rbp
	jb	.LBB122_75
	movq	%r13, %rdi
	movq	%rbp, %rsi
	movq	%rbx, %rdx
	movq	%r12, %rcx
	callq	L_45
	cmpq	$127, %rax
	jbe	.LBB122_75
	jmp	.LBB122_81
	.p2align	4
.LBB122_76:
	cmpq	$3, %r12
	jb	.LBB122_34
	movzbl	65(%rsp), %eax
	leaq	.Lstatic.9(%rip), %rcx
	movq	%rbx, %rdx
	subq	%rcx, %rdx
	cmpq	$2, %rdx
	ja	.LBB122_79
	movw	$-16401, (%rbx)
	movb	$-67, 2(%rbx)
	jmp	.LBB122_80
	.p2align	4
.LBB122_79:
	movb	$-67, 2(%rbx)
	movw	$-16401, (%rbx)
.LBB122_80:
	movl	$3, %edx
	jmp	.LBB122_81
.LBB122_50:
	negq	%rbx
	movq	%rdx, %rax
	subq	%rbx, %rax
	cmpq	$15, %rax
	ja	.LBB122_62
	.p2align	4
.LBB122_52:
	cmpq	$2, %rax
	jb	.LBB122_62
	movq	%r11, %rcx
	subq	%r12, %rcx
	movq	%rax, %rsi
	shrq	%rsi
	leaq	(%rsi,%rsi,2), %rsi
	cmpq	%rsi, %rcx
	jb	.LBB122_62
	movq	96(%rsp), %rcx
	addq	%r15, %rcx
	jmp	.LBB122_55
	.p2align	4
.LBB122_56:
	movb	%sil, (%r13,%r12)
	incq	%r12
.LBB122_61:
	addq	$2, %rbx
	addq	$-2, %rax
	cmpq	$1, %rax
	jbe	.LBB122_62
.LBB122_55:
	movzbl	-1(%rcx,%rbx), %esi
	movzbl	(%rcx,%rbx), %r8d
	movl	%r8d, %edi
	shll	$8, %edi
	orl	%esi, %edi
	cmpw	$127, %di
	jbe	.LBB122_56
	cmpb	$7, %r8b
	ja	.LBB122_59
	movzwl	%si, %esi
	andl	$63, %esi
	shll	$8, %esi
	movzwl	%di, %edi
	shrl	$6, %edi
	orl	%esi, %edi
	orl	$32960, %edi
	movw	%di, (%r13,%r12)
	addq	$2, %r12
	jmp	.LBB122_61
	.p2align	4
.LBB122_59:
	movzwl	%r8w, %r9d
	andl	$-8, %r9d
	cmpl	$216, %r9d
	je	.LBB122_62
	andb	$63, %sil
	orb	$-128, %sil
	shrl	$6, %edi
	andb	$63, %dil
	orb	$-128, %dil
	shrb	$4, %r8b
	orb	$-32, %r8b
	movb	%r8b, (%r13,%r12)
	movb	%dil, 1(%r13,%r12)
	movb	%sil, 2(%r13,%r12)
	addq	$3, %r12
	jmp	.LBB122_61
.LBB122_69:
	movq	%r15, 8(%rsp)
	movzbl	%al, %ecx
	testb	%cl, %cl
	movq	16(%rsp), %rax
	je	.LBB122_83
	cmpl	$3, %ecx
	jne	.LBB122_71
	movl	$3, %ecx
	jmp	.LBB122_83
.LBB122_67:
	addq	%r12, %r14
	jmp	.LBB122_27
.LBB122_26:
	addq	%rbx, %r14
.LBB122_27:
	xorl	%ecx, %ecx
	movq	16(%rsp), %rax
	jmp	.LBB122_83
.LBB122_34:
	movl	$3, %ecx
	movq	%r15, 8(%rsp)
	movq	16(%rsp), %rax
	jmp	.LBB122_83
.LBB122_71:
	movl	$2, %ecx
.LBB122_83:
	movq	8(%rsp), %rdx
	movq	%rdx, (%rax)
	movq	%r14, 8(%rax)
	movl	%ecx, 16(%rax)
	movl	$0, 20(%rax)
	addq	$104, %rsp
	popq	%rbx
	popq	%r12
	popq	%r13
	popq	%r14
	popq	%r15
	popq	%rbp
	retq
.Lfunc_end122:

	.section	.text$145,"xr"
	.globl	dethrux_to_wtf8_v3
	.p2align	4
dethrux_to_wtf8_v3:
	pushq	%r15
	pushq	%r14
	pushq	%r13
	pushq	%r12
	pushq	%rbx
	subq	$32, %rsp
	movq	%r9, %r14
	movq	%rcx, %r15
	movq	%rdi, %rbx
	xorl	%r13d, %r13d
	testq	%rdx, %rdx
	sete	%r13b
	shll	$12, %r13d
	addq	%rdx, %r13
	xorl	%r12d, %r12d
	testq	%r8, %r8
	sete	%r12b
	shll	$12, %r12d
	addq	%r8, %r12
	vxorps	%xmm0, %xmm0, %xmm0
	cmpl	$1, %esi
	jne	.LBB123_17
	vmovaps	%xmm0, (%rsp)
	movq	$0, 16(%rsp)
	movq	%rsp, %rdi
	movq	%r13, %rsi
	movq	%r15, %rdx
	movq	%r12, %rcx
	movq	%r14, %r8
	callq	L_77
	movzbl	16(%rsp), %edx
	movq	(%rsp), %rax
	cmpb	$2, %dl
	jne	.LBB123_2
	subq	%rax, %r15
	movq	8(%rsp), %rdx
	cmpq	$2, %r15
	jae	.LBB123_4
.LBB123_14:
	cmpq	$2, %r15
	setne	%sil
	addb	%sil, %sil
	andq	$-2, %r15
	addq	%r15, %rax
.LBB123_15:
	xorl	%ecx, %ecx
	movq	%rdx, %r14
.LBB123_16:
	movzbl	%sil, %edx
	leaq	.LJTI123_0(%rip), %rsi
	movslq	(%rsi,%rdx,4), %rdi
	addq	%rsi, %rdi
	movl	%edx, %esi
	jmpq	*%rdi
.LBB123_17:
	vmovaps	%xmm0, (%rsp)
	movq	$0, 16(%rsp)
	movq	%rsp, %rdi
	movq	%r13, %rsi
	movq	%r15, %rdx
	movq	%r12, %rcx
	movq	%r14, %r8
	callq	L_78
	movzbl	16(%rsp), %edx
	movq	(%rsp), %rax
	cmpb	$2, %dl
	jne	.LBB123_18
	subq	%rax, %r15
	movq	8(%rsp), %rdx
	cmpq	$2, %r15
	jae	.LBB123_20
.LBB123_30:
	cmpq	$2, %r15
	setne	%sil
	addb	%sil, %sil
	andq	$-2, %r15
	addq	%r15, %rax
.LBB123_31:
	xorl	%ecx, %ecx
	movq	%rdx, %r14
.LBB123_32:
	movzbl	%sil, %edx
	leaq	.LJTI123_0(%rip), %rsi
	movslq	(%rsi,%rdx,4), %rdi
	addq	%rsi, %rdi
	movl	%edx, %esi
	jmpq	*%rdi
.LBB123_2:
	movq	8(%rsp), %r14
	movzbl	17(%rsp), %ecx
	movzbl	%dl, %edx
	leaq	.LJTI123_0(%rip), %rsi
	movslq	(%rsi,%rdx,4), %rdi
	addq	%rsi, %rdi
	movl	%edx, %esi
	jmpq	*%rdi
.LBB123_18:
	movq	8(%rsp), %r14
	movzbl	17(%rsp), %ecx
	movzbl	%dl, %edx
	leaq	.LJTI123_0(%rip), %rsi
	movslq	(%rsi,%rdx,4), %rdi
	addq	%rsi, %rdi
	movl	%edx, %esi
	jmpq	*%rdi
.LBB123_33:
	movzbl	%cl, %esi
	movl	$1, %edx
	jmp	.LBB123_36
.LBB123_34:
	xorl	%esi, %esi
	movl	$2, %edx
	jmp	.LBB123_36
.LBB123_35:
	xorl	%esi, %esi
	movl	$3, %edx
.LBB123_36:
	movq	%rax, (%rbx)
	movq	%r14, 8(%rbx)
	movl	%edx, 16(%rbx)
	movl	%esi, 20(%rbx)
	movq	%rbx, %rax
	addq	$32, %rsp
	popq	%rbx
	popq	%r12
	popq	%r13
	popq	%r14
	popq	%r15
	retq
.LBB123_4:
	movbew	(%r13,%rax), %si
	cmpw	$127, %si
	ja	.LBB123_8
	cmpq	%rdx, %r14
	jne	.LBB123_7
	movb	$3, %sil
	xorl	%ecx, %ecx
	jmp	.LBB123_16
.LBB123_20:
	movzbl	(%r13,%rax), %ecx
	movzbl	1(%r13,%rax), %esi
	movl	%esi, %edi
	shll	$8, %edi
	orl	%ecx, %edi
	cmpw	$127, %di
	ja	.LBB123_24
	cmpq	%rdx, %r14
	jne	.LBB123_23
	movb	$3, %sil
	xorl	%ecx, %ecx
	jmp	.LBB123_32
.LBB123_8:
	movl	%esi, %ecx
	andb	$63, %cl
	orb	$-128, %cl
	movzwl	%si, %edi
	movl	%edi, %esi
	shrl	$6, %esi
	subq	%rdx, %r14
	cmpl	$2047, %edi
	ja	.LBB123_12
	cmpq	$2, %r14
	jb	.LBB123_10
	movzwl	%si, %esi
	movzbl	%cl, %ecx
	shll	$8, %ecx
	orl	%esi, %ecx
	orl	$192, %ecx
	movw	%cx, (%r12,%rdx)
	addq	$2, %rdx
	jmp	.LBB123_14
.LBB123_24:
	andl	$63, %ecx
	orl	$128, %ecx
	movzwl	%di, %edi
	shrl	$6, %edi
	subq	%rdx, %r14
	cmpb	$7, %sil
	ja	.LBB123_28
	cmpq	$2, %r14
	jb	.LBB123_26
	movzwl	%cx, %ecx
	shll	$8, %ecx
	movzwl	%di, %esi
	orl	%ecx, %esi
	orl	$192, %esi
	movw	%si, (%r12,%rdx)
	addq	$2, %rdx
	jmp	.LBB123_30
.LBB123_7:
	movb	%sil, (%r12,%rdx)
	incq	%rdx
	jmp	.LBB123_14
.LBB123_23:
	movb	%cl, (%r12,%rdx)
	incq	%rdx
	jmp	.LBB123_30
.LBB123_12:
	cmpq	$3, %r14
	jae	.LBB123_13
.LBB123_10:
	movb	$3, %sil
	jmp	.LBB123_15
.LBB123_28:
	cmpq	$3, %r14
	jae	.LBB123_29
.LBB123_26:
	movb	$3, %sil
	jmp	.LBB123_31
.LBB123_13:
	shrl	$12, %edi
	orb	$-32, %dil
	andb	$63, %sil
	orb	$-128, %sil
	movb	%dil, (%r12,%rdx)
	movb	%sil, 1(%r12,%rdx)
	movb	%cl, 2(%r12,%rdx)
	addq	$3, %rdx
	jmp	.LBB123_14
.LBB123_29:
	shrb	$4, %sil
	orb	$-32, %sil
	andb	$63, %dil
	orb	$-128, %dil
	movb	%sil, (%r12,%rdx)
	movb	%dil, 1(%r12,%rdx)
	movb	%cl, 2(%r12,%rdx)
	addq	$3, %rdx
	jmp	.LBB123_30
.Lfunc_end123:
	.section	.rdata$146,"dr"
	.p2align	2, 0x0
.LJTI123_0:
	.long	.LBB123_36-.LJTI123_0
	.long	.LBB123_33-.LJTI123_0
	.long	.LBB123_34-.LJTI123_0
	.long	.LBB123_35-.LJTI123_0

	.section	.text$147,"xr"
	.globl	dethrux_to_wtf8_partial_v3
	.p2align	4
dethrux_to_wtf8_partial_v3:
	pushq	%rbx
	subq	$32, %rsp
	movl	%esi, %r10d
	movq	%rdi, %rbx
	xorl	%esi, %esi
	testq	%rdx, %rdx
	sete	%sil
	shll	$12, %esi
	addq	%rdx, %rsi
	xorl	%eax, %eax
	testq	%r8, %r8
	sete	%al
	shll	$12, %eax
	addq	%r8, %rax
	vxorps	%xmm0, %xmm0, %xmm0
	vmovaps	%xmm0, (%rsp)
	movq	$0, 16(%rsp)
	movq	%rsp, %rdi
	movq	%rcx, %rdx
	movq	%rax, %rcx
	movq	%r9, %r8
	cmpl	$1, %r10d
	jne	.LBB124_2
	callq	L_77
	vmovaps	(%rsp), %xmm0
	movzbl	16(%rsp), %eax
	leaq	.LJTI124_0(%rip), %rcx
	movslq	(%rcx,%rax,4), %rdx
	addq	%rcx, %rdx
	movl	%eax, %ecx
	jmpq	*%rdx
.LBB124_2:
	callq	L_78
	vmovaps	(%rsp), %xmm0
	movzbl	16(%rsp), %eax
	leaq	.LJTI124_0(%rip), %rcx
	movslq	(%rcx,%rax,4), %rdx
	addq	%rcx, %rdx
	movl	%eax, %ecx
	jmpq	*%rdx
.LBB124_3:
	movzbl	17(%rsp), %ecx
	movl	$1, %eax
	jmp	.LBB124_6
.LBB124_4:
	xorl	%ecx, %ecx
	movl	$2, %eax
	jmp	.LBB124_6
.LBB124_5:
	xorl	%ecx, %ecx
	movl	$3, %eax
.LBB124_6:
	vmovups	%xmm0, (%rbx)
	movl	%eax, 16(%rbx)
	movl	%ecx, 20(%rbx)
	movq	%rbx, %rax
	addq	$32, %rsp
	popq	%rbx
	retq
.Lfunc_end124:
	.section	.rdata$148,"dr"
	.p2align	2, 0x0
.LJTI124_0:
	.long	.LBB124_6-.LJTI124_0
	.long	.LBB124_3-.LJTI124_0
	.long	.LBB124_4-.LJTI124_0
	.long	.LBB124_5-.LJTI124_0

	.section	.rdata$000,"dr"
	.p2align	4, 0x0
.LCPI125_0:
	.short	128
	.short	128
	.short	128
	.short	128
	.short	128
	.short	128
	.short	128
	.short	128
.LCPI125_1:
	.byte	1
	.byte	0
	.byte	3
	.byte	2
	.byte	5
	.byte	4
	.byte	7
	.byte	6
	.byte	9
	.byte	8
	.byte	11
	.byte	10
	.byte	13
	.byte	12
	.byte	15
	.byte	14
	.section	.text$149,"xr"
	.globl	dethrux_wtf8_decoder_feed_v3
	.p2align	4
dethrux_wtf8_decoder_feed_v3:
	pushq	%rbp
	pushq	%r15
	pushq	%r14
	pushq	%r13
	pushq	%r12
	pushq	%rbx
	subq	$200, %rsp
	movq	%r8, 152(%rsp)
	movq	%rdi, 192(%rsp)
	movq	256(%rsp), %r12
	xorl	%eax, %eax
	testq	%rcx, %rcx
	sete	%al
	shll	$12, %eax
	movq	%rcx, 136(%rsp)
	movq	%rax, 160(%rsp)
	addq	%rcx, %rax
	movq	%rax, 184(%rsp)
	xorl	%eax, %eax
	testq	%r9, %r9
	sete	%al
	shll	$12, %eax
	addq	%r9, %rax
	movq	%rax, 80(%rsp)
	cmpl	$1, %edx
	movq	%rsi, 176(%rsp)
	jne	.LBB125_44
	movl	$0, 100(%rsp)
	movl	(%rsi), %eax
	movl	%eax, 52(%rsp)
	shrl	$24, %eax
	cmpb	$3, %al
	movl	$3, %r15d
	cmovbl	%eax, %r15d
	testl	%eax, %eax
	movq	%r15, 88(%rsp)
	je	.LBB125_92
	xorl	%r8d, %r8d
	xorl	%ebx, %ebx
.LBB125_3:
	leaq	(%rsp,%r8), %rsi
	addq	$52, %rsi
	movq	%r8, 72(%rsp)
	subq	%r8, %r15
	movl	$4, %r14d
	subq	%r15, %r14
	movq	152(%rsp), %rax
	cmpq	%rax, %r14
	cmovaeq	%rax, %r14
	movl	$0, 16(%rsp)
	leaq	16(%rsp), %rdi
	movq	%r15, %rdx
	callq	sysv_memcpy
	leaq	(%rsp,%r15), %rdi
	addq	$16, %rdi
	movq	136(%rsp), %rax
	movq	160(%rsp), %rcx
	leaq	(%rax,%rcx), %rsi
	movq	%r14, %rdx
	callq	sysv_memcpy
	movq	%r14, 168(%rsp)
	addq	%r14, %r15
	movq	%r15, 112(%rsp)
	movl	16(%rsp), %eax
	movl	%eax, 68(%rsp)
	movq	80(%rsp), %rax
	leaq	(%rax,%rbx), %r8
	movq	%r12, %rdi
	movq	%rbx, 56(%rsp)
	subq	%rbx, %rdi
	xorl	%ebp, %ebp
	xorl	%r13d, %r13d
	movq	%rdi, 104(%rsp)
	movq	%r8, 128(%rsp)
	jmp	.LBB125_5
	.p2align	4
.LBB125_4:
	addq	$2, %r13
	addq	%rax, %rbp
.LBB125_5:
	leaq	(%rsp,%r13), %rbx
	addq	$68, %rbx
	movq	112(%rsp), %rdx
	subq	%r13, %rdx
	leaq	(%r8,%rbp), %r15
	movq	%rdi, %r12
	vpxor	%xmm0, %xmm0, %xmm0
	vmovdqa	%xmm0, 16(%rsp)
	subq	%rbp, %r12
	movq	$0, 32(%rsp)
	leaq	-16(%rdx), %rax
	cmpq	$175, %rax
	ja	.LBB125_13
	movq	%rdx, %rax
	shrq	%rax
	cmpq	%rax, %r12
	cmovbq	%r12, %rax
	cmpq	$8, %rax
	jb	.LBB125_13
	leaq	(%rax,%rax), %rcx
	xorl	%r9d, %r9d
	xorl	%r14d, %r14d
	.p2align	4
.LBB125_8:
	vmovdqu	(%rbx,%r14,2), %xmm0
	vpshufb	.LCPI125_1(%rip), %xmm0, %xmm0
	vpmaxuw	.LCPI125_0(%rip), %xmm0, %xmm1
	vpcmpeqw	%xmm1, %xmm0, %xmm1
	vpmovmskb	%xmm1, %esi
	testl	%esi, %esi
	jne	.LBB125_28
	vpackuswb	%xmm0, %xmm0, %xmm0
	vmovq	%xmm0, (%r15,%r14)
	addq	$8, %r14
	leaq	(%rcx,%r9), %rsi
	addq	$-16, %rsi
	addq	$-16, %r9
	cmpq	$15, %rsi
	ja	.LBB125_8
	negq	%r9
	cmpq	%r9, %rcx
	jbe	.LBB125_14
	vmovdqu	-16(%rbx,%rcx), %xmm0
	vpshufb	.LCPI125_1(%rip), %xmm0, %xmm0
	vpmaxuw	.LCPI125_0(%rip), %xmm0, %xmm1
	vpcmpeqw	%xmm1, %xmm0, %xmm1
	vpmovmskb	%xmm1, %esi
	testl	%esi, %esi
	jne	.LBB125_14
	vpackuswb	%xmm0, %xmm0, %xmm0
	vmovq	%xmm0, -8(%r15,%rax)
	movq	%rax, %r14
	movq	%rcx, %r9
	movq	%rdx, %rax
	subq	%r9, %rax
	cmpq	$15, %rax
	ja	.LBB125_15
	jmp	.LBB125_29
	.p2align	4
.LBB125_13:
	xorl	%r14d, %r14d
	xorl	%r9d, %r9d
.LBB125_14:
	movq	%rdx, %rax
	subq	%r9, %rax
	cmpq	$15, %rax
	jbe	.LBB125_29
.LBB125_15:
	leaq	-8(%rdx), %rax
	cmpq	$183, %rax
	ja	.LBB125_18
	movq	%rdx, %rsi
	subq	%r9, %rsi
	cmpq	$8, %rsi
	jb	.LBB125_18
	leaq	(%rbx,%r9), %rdi
	leaq	(%r15,%r14), %rax
	movq	%r12, %rcx
	subq	%r14, %rcx
	movq	%rdx, 144(%rsp)
	movq	%rax, %rdx
	movq	%r9, 120(%rsp)
	callq	L_28
	movq	120(%rsp), %r9
	movq	%rdx, %rcx
	movq	144(%rsp), %rdx
	addq	%rax, %r9
	addq	%rcx, %r14
.LBB125_18:
	cmpq	%rdx, %r9
	je	.LBB125_88
	movq	%r14, (%rsp)
	leaq	16(%rsp), %rdi
	movq	%rbx, %rsi
	movq	%r15, %rcx
	movq	%r12, %r8
	callq	L_29
	addq	16(%rsp), %r13
	movzbl	32(%rsp), %eax
	addq	24(%rsp), %rbp
	cmpb	$1, %al
	jne	.LBB125_38
	movbew	68(%rsp,%r13), %cx
	cmpw	$127, %cx
	ja	.LBB125_23
	movq	104(%rsp), %rdi
	cmpq	%rbp, %rdi
	movq	56(%rsp), %rbx
	movq	256(%rsp), %r12
	movq	128(%rsp), %r8
	je	.LBB125_40
	movb	%cl, (%r8,%rbp)
	movl	$1, %eax
	jmp	.LBB125_4
	.p2align	4
.LBB125_23:
	movq	104(%rsp), %rdi
	movq	%rdi, %rsi
	subq	%rbp, %rsi
	movl	%ecx, %eax
	andb	$63, %al
	orb	$-128, %al
	movzwl	%cx, %edx
	movl	%edx, %ecx
	shrl	$6, %ecx
	cmpl	$2047, %edx
	movq	56(%rsp), %rbx
	movq	256(%rsp), %r12
	movq	128(%rsp), %r8
	ja	.LBB125_26
	cmpq	$2, %rsi
	jb	.LBB125_39
	movzwl	%cx, %ecx
	movzbl	%al, %eax
	shll	$8, %eax
	orl	%ecx, %eax
	orl	$192, %eax
	movw	%ax, (%r8,%rbp)
	movl	$2, %eax
	jmp	.LBB125_4
	.p2align	4
.LBB125_26:
	cmpq	$3, %rsi
	jb	.LBB125_39
	shrl	$12, %edx
	orb	$-32, %dl
	andb	$63, %cl
	orb	$-128, %cl
	movb	%dl, (%r8,%rbp)
	movb	%cl, 1(%r8,%rbp)
	movb	%al, 2(%r8,%rbp)
	movl	$3, %eax
	jmp	.LBB125_4
.LBB125_28:
	negq	%r9
	movq	%rdx, %rax
	subq	%r9, %rax
	cmpq	$15, %rax
	ja	.LBB125_15
	.p2align	4
.LBB125_29:
	cmpq	$2, %rax
	jb	.LBB125_15
	movq	%r12, %rcx
	subq	%r14, %rcx
	movq	%rax, %rsi
	shrq	%rsi
	leaq	(%rsi,%rsi,2), %rsi
	cmpq	%rsi, %rcx
	jae	.LBB125_33
	jmp	.LBB125_15
	.p2align	4
.LBB125_31:
	movb	%cl, (%r15,%r14)
	incq	%r14
.LBB125_32:
	addq	$2, %r9
	addq	$-2, %rax
	cmpq	$1, %rax
	jbe	.LBB125_15
.LBB125_33:
	movbew	(%rbx,%r9), %cx
	cmpw	$127, %cx
	jbe	.LBB125_31
	movzwl	%cx, %esi
	cmpl	$2047, %esi
	ja	.LBB125_36
	shrl	$6, %esi
	andl	$63, %ecx
	shll	$8, %ecx
	orl	%esi, %ecx
	orl	$32960, %ecx
	movw	%cx, (%r15,%r14)
	addq	$2, %r14
	jmp	.LBB125_32
	.p2align	4
.LBB125_36:
	movl	%ecx, %edi
	andl	$63488, %edi
	cmpl	$55296, %edi
	je	.LBB125_15
	movl	%ecx, %edi
	andb	$63, %dil
	orb	$-128, %dil
	shrl	$6, %ecx
	andb	$63, %cl
	orb	$-128, %cl
	shrl	$12, %esi
	orb	$-32, %sil
	movb	%sil, (%r15,%r14)
	movb	%cl, 1(%r15,%r14)
	movb	%dil, 2(%r15,%r14)
	addq	$3, %r14
	jmp	.LBB125_32
	.p2align	4
.LBB125_38:
	movq	%rbp, %rdi
	movq	56(%rsp), %rbx
	movq	256(%rsp), %r12
	jmp	.LBB125_41
.LBB125_39:
	movb	$3, %al
	movq	%rbp, %rdi
	jmp	.LBB125_41
.LBB125_40:
	movb	$3, %al
.LBB125_41:
	addq	%r13, 72(%rsp)
	addq	%rdi, %rbx
	testq	%r13, %r13
	je	.LBB125_188
	cmpb	$3, %al
	movq	88(%rsp), %r15
	je	.LBB125_190
	movq	72(%rsp), %r8
	cmpq	%r15, %r8
	jb	.LBB125_3
	jmp	.LBB125_93
.LBB125_44:
	movl	$0, 100(%rsp)
	movl	(%rsi), %eax
	movl	%eax, 52(%rsp)
	shrl	$24, %eax
	cmpb	$3, %al
	movl	$3, %ecx
	cmovbl	%eax, %ecx
	movq	%rcx, 88(%rsp)
	testl	%eax, %eax
	je	.LBB125_129
	xorl	%eax, %eax
	xorl	%ebx, %ebx
	movq	88(%rsp), %rdi
.LBB125_46:
	leaq	(%rsp,%rax), %rsi
	addq	$52, %rsi
	movq	%rdi, %r15
	movq	%rax, 72(%rsp)
	subq	%rax, %r15
	movl	$4, %r14d
	subq	%r15, %r14
	movq	152(%rsp), %rax
	cmpq	%rax, %r14
	cmovaeq	%rax, %r14
	movl	$0, 16(%rsp)
	leaq	16(%rsp), %rdi
	movq	%r15, %rdx
	callq	sysv_memcpy
	leaq	(%rsp,%r15), %rdi
	addq	$16, %rdi
	movq	136(%rsp), %rax
	movq	160(%rsp), %rcx
	leaq	(%rax,%rcx), %rsi
	movq	%r14, %rdx
	callq	sysv_memcpy
	movq	%r14, 168(%rsp)
	addq	%r14, %r15
	movq	%r15, 128(%rsp)
	movl	16(%rsp), %eax
	movl	%eax, 68(%rsp)
	movq	80(%rsp), %rax
	leaq	(%rax,%rbx), %rcx
	movq	%r12, %rdi
	movq	%rbx, 56(%rsp)
	subq	%rbx, %rdi
	xorl	%r12d, %r12d
	xorl	%r11d, %r11d
	movq	%rdi, 144(%rsp)
	movq	%rcx, 120(%rsp)
	jmp	.LBB125_48
	.p2align	4
.LBB125_47:
	addq	$2, %r11
	addq	%rax, %r12
.LBB125_48:
	leaq	(%rsp,%r11), %r9
	addq	$68, %r9
	movq	128(%rsp), %r14
	subq	%r11, %r14
	leaq	(%rcx,%r12), %r10
	vpxor	%xmm0, %xmm0, %xmm0
	vmovdqa	%xmm0, 16(%rsp)
	subq	%r12, %rdi
	movq	$0, 32(%rsp)
	leaq	-16(%r14), %rax
	cmpq	$175, %rax
	ja	.LBB125_56
	movq	%r14, %rax
	shrq	%rax
	cmpq	%rax, %rdi
	cmovbq	%rdi, %rax
	cmpq	$8, %rax
	jb	.LBB125_56
	leaq	(%rax,%rax), %rcx
	xorl	%ebp, %ebp
	xorl	%r15d, %r15d
	.p2align	4
.LBB125_51:
	vmovdqu	(%r9,%r15,2), %xmm0
	vpmaxuw	.LCPI125_0(%rip), %xmm0, %xmm1
	vpcmpeqw	%xmm1, %xmm0, %xmm1
	vpmovmskb	%xmm1, %edx
	testl	%edx, %edx
	jne	.LBB125_81
	vpackuswb	%xmm0, %xmm0, %xmm0
	vmovq	%xmm0, (%r10,%r15)
	addq	$8, %r15
	leaq	(%rcx,%rbp), %rdx
	addq	$-16, %rdx
	addq	$-16, %rbp
	cmpq	$15, %rdx
	ja	.LBB125_51
	negq	%rbp
	cmpq	%rbp, %rcx
	jbe	.LBB125_57
	vmovdqu	-16(%r9,%rcx), %xmm0
	vpmaxuw	.LCPI125_0(%rip), %xmm0, %xmm1
	vpcmpeqw	%xmm1, %xmm0, %xmm1
	vpmovmskb	%xmm1, %edx
	testl	%edx, %edx
	jne	.LBB125_57
	vpackuswb	%xmm0, %xmm0, %xmm0
	vmovq	%xmm0, -8(%r10,%rax)
	movq	%rax, %r15
	movq	%rcx, %rbp
	jmp	.LBB125_57
	.p2align	4
.LBB125_56:
	xorl	%r15d, %r15d
	xorl	%ebp, %ebp
.LBB125_57:
	movq	%r14, %rax
	subq	%rbp, %rax
	cmpq	$15, %rax
	movq	%rdi, 112(%rsp)
	jbe	.LBB125_61
.LBB125_58:
	leaq	-8(%r14), %rax
	cmpq	$183, %rax
	movq	%r11, 104(%rsp)
	ja	.LBB125_60
	movq	%r14, %rsi
	subq	%rbp, %rsi
	cmpq	$8, %rsi
	jae	.LBB125_71
.LBB125_60:
	movq	%r10, %rbx
	movq	%r9, %r13
	cmpq	%r14, %rbp
	jne	.LBB125_72
	jmp	.LBB125_90
	.p2align	4
.LBB125_61:
	cmpq	$2, %rax
	jb	.LBB125_58
	movq	%rdi, %rcx
	subq	%r15, %rcx
	movq	%rax, %rdx
	shrq	%rdx
	leaq	(%rdx,%rdx,2), %rdx
	cmpq	%rdx, %rcx
	jb	.LBB125_58
	leaq	69(%rsp), %rcx
	addq	%r11, %rcx
	jmp	.LBB125_66
	.p2align	4
.LBB125_64:
	movb	%dl, (%r10,%r15)
	incq	%r15
.LBB125_65:
	addq	$2, %rbp
	addq	$-2, %rax
	cmpq	$1, %rax
	jbe	.LBB125_58
.LBB125_66:
	movzbl	-1(%rcx,%rbp), %edx
	movzbl	(%rcx,%rbp), %edi
	movl	%edi, %esi
	shll	$8, %esi
	orl	%edx, %esi
	cmpw	$127, %si
	jbe	.LBB125_64
	cmpb	$7, %dil
	ja	.LBB125_69
	movzwl	%dx, %edx
	andl	$63, %edx
	shll	$8, %edx
	movzwl	%si, %esi
	shrl	$6, %esi
	orl	%edx, %esi
	orl	$32960, %esi
	movw	%si, (%r10,%r15)
	addq	$2, %r15
	jmp	.LBB125_65
	.p2align	4
.LBB125_69:
	movzwl	%di, %r8d
	andl	$-8, %r8d
	cmpl	$216, %r8d
	je	.LBB125_58
	andb	$63, %dl
	orb	$-128, %dl
	shrl	$6, %esi
	andb	$63, %sil
	orb	$-128, %sil
	shrb	$4, %dil
	orb	$-32, %dil
	movb	%dil, (%r10,%r15)
	movb	%sil, 1(%r10,%r15)
	movb	%dl, 2(%r10,%r15)
	addq	$3, %r15
	jmp	.LBB125_65
	.p2align	4
.LBB125_71:
	movq	%r9, %r13
	leaq	(%r9,%rbp), %rdi
	movq	%r10, %rbx
	leaq	(%r10,%r15), %rdx
	movq	112(%rsp), %rcx
	subq	%r15, %rcx
	callq	L_38
	addq	%rax, %rbp
	addq	%rdx, %r15
	cmpq	%r14, %rbp
	je	.LBB125_90
.LBB125_72:
	movq	%r15, (%rsp)
	leaq	16(%rsp), %rdi
	movq	%r13, %rsi
	movq	%r14, %rdx
	movq	%rbx, %rcx
	movq	112(%rsp), %r8
	movq	%rbp, %r9
	callq	L_39
	movq	104(%rsp), %r11
	addq	16(%rsp), %r11
	movzbl	32(%rsp), %eax
	addq	24(%rsp), %r12
	cmpb	$1, %al
	jne	.LBB125_82
	movzbl	68(%rsp,%r11), %eax
	movzbl	69(%rsp,%r11), %ecx
	movl	%ecx, %edx
	shll	$8, %edx
	orl	%eax, %edx
	cmpw	$127, %dx
	ja	.LBB125_76
	movq	144(%rsp), %rdi
	cmpq	%r12, %rdi
	je	.LBB125_84
	movq	120(%rsp), %rcx
	movb	%al, (%rcx,%r12)
	movl	$1, %eax
	jmp	.LBB125_47
	.p2align	4
.LBB125_76:
	movq	144(%rsp), %rdi
	movq	%rdi, %rsi
	subq	%r12, %rsi
	andl	$63, %eax
	orl	$128, %eax
	movzwl	%dx, %edx
	shrl	$6, %edx
	cmpb	$7, %cl
	ja	.LBB125_79
	cmpq	$2, %rsi
	jb	.LBB125_83
	movzwl	%ax, %eax
	shll	$8, %eax
	movzwl	%dx, %ecx
	orl	%eax, %ecx
	orl	$192, %ecx
	movq	120(%rsp), %rax
	movw	%cx, (%rax,%r12)
	movq	%rax, %rcx
	movl	$2, %eax
	jmp	.LBB125_47
	.p2align	4
.LBB125_79:
	cmpq	$3, %rsi
	jb	.LBB125_83
	shrb	$4, %cl
	orb	$-32, %cl
	andb	$63, %dl
	orb	$-128, %dl
	movq	120(%rsp), %rsi
	movb	%cl, (%rsi,%r12)
	movq	%rsi, %rcx
	movb	%dl, 1(%rsi,%r12)
	movb	%al, 2(%rsi,%r12)
	movl	$3, %eax
	jmp	.LBB125_47
.LBB125_81:
	negq	%rbp
	jmp	.LBB125_57
	.p2align	4
.LBB125_82:
	movq	%r12, %rdi
	jmp	.LBB125_85
.LBB125_83:
	movb	$3, %al
	movq	%r12, %rdi
	jmp	.LBB125_85
.LBB125_84:
	movb	$3, %al
.LBB125_85:
	addq	%r11, 72(%rsp)
	addq	%rdi, 56(%rsp)
	testq	%r11, %r11
	movq	256(%rsp), %r12
	je	.LBB125_189
	cmpb	$3, %al
	movq	88(%rsp), %rdi
	je	.LBB125_191
	movq	72(%rsp), %rax
	cmpq	%rdi, %rax
	movq	56(%rsp), %rbx
	jb	.LBB125_46
	jmp	.LBB125_130
.LBB125_88:
	movq	88(%rsp), %r15
	movq	168(%rsp), %r13
	addq	%r15, %r13
	movq	56(%rsp), %rbx
	addq	%rbp, %rbx
	addq	%r14, %rbx
	cmpq	$0, 112(%rsp)
	je	.LBB125_171
	movq	%r13, %r8
	movq	256(%rsp), %r12
	jmp	.LBB125_93
.LBB125_90:
	movq	88(%rsp), %rdi
	movq	168(%rsp), %r14
	addq	%rdi, %r14
	movq	56(%rsp), %rbx
	addq	%r12, %rbx
	addq	%r15, %rbx
	cmpq	$0, 128(%rsp)
	je	.LBB125_172
	movq	%r14, %rax
	movq	256(%rsp), %r12
	jmp	.LBB125_130
.LBB125_92:
	xorl	%ebx, %ebx
	xorl	%r8d, %r8d
.LBB125_93:
	movq	%r8, %rsi
	subq	%r15, %rsi
	movq	136(%rsp), %rcx
	movq	160(%rsp), %rdx
	leaq	(%rcx,%rdx), %rax
	movq	%rsi, 112(%rsp)
	leaq	(%rax,%rsi), %r9
	addq	%rbx, 80(%rsp)
	movq	%rbx, 56(%rsp)
	subq	%rbx, %r12
	movq	%r8, 72(%rsp)
	addq	%r8, %rdx
	subq	%r15, %rdx
	addq	%rdx, %rcx
	movq	%rcx, 136(%rsp)
	xorl	%r13d, %r13d
	xorl	%ebx, %ebx
	movq	%r9, 128(%rsp)
	movq	%r12, 104(%rsp)
	jmp	.LBB125_97
	.p2align	4
.LBB125_94:
	cmpq	$3, %rsi
	jb	.LBB125_173
	shrl	$12, %edx
	orb	$-32, %dl
	andb	$63, %cl
	orb	$-128, %cl
	movq	80(%rsp), %rsi
	movb	%dl, (%rsi,%r13)
	movb	%cl, 1(%rsi,%r13)
	movb	%al, 2(%rsi,%r13)
	movl	$3, %eax
.LBB125_96:
	addq	$2, %rbx
	addq	%rax, %r13
.LBB125_97:
	leaq	(%r9,%rbx), %r10
	movq	112(%rsp), %rax
	addq	%rbx, %rax
	movq	152(%rsp), %rdx
	subq	%rax, %rdx
	movq	80(%rsp), %rax
	leaq	(%rax,%r13), %rbp
	movq	%r12, %r11
	vpxor	%xmm0, %xmm0, %xmm0
	vmovdqa	%xmm0, 16(%rsp)
	subq	%r13, %r11
	movq	$0, 32(%rsp)
	leaq	-16(%rdx), %rax
	cmpq	$175, %rax
	ja	.LBB125_105
	movq	%rdx, %rax
	shrq	%rax
	cmpq	%rax, %r11
	cmovbq	%r11, %rax
	cmpq	$8, %rax
	jb	.LBB125_105
	leaq	(%rax,%rax), %rcx
	xorl	%r9d, %r9d
	xorl	%r15d, %r15d
	.p2align	4
.LBB125_100:
	vmovdqu	(%r10,%r15,2), %xmm0
	vpshufb	.LCPI125_1(%rip), %xmm0, %xmm0
	vpmaxuw	.LCPI125_0(%rip), %xmm0, %xmm1
	vpcmpeqw	%xmm1, %xmm0, %xmm1
	vpmovmskb	%xmm1, %esi
	testl	%esi, %esi
	jne	.LBB125_118
	vpackuswb	%xmm0, %xmm0, %xmm0
	vmovq	%xmm0, (%rbp,%r15)
	addq	$8, %r15
	leaq	(%rcx,%r9), %rsi
	addq	$-16, %rsi
	addq	$-16, %r9
	cmpq	$15, %rsi
	ja	.LBB125_100
	negq	%r9
	cmpq	%r9, %rcx
	jbe	.LBB125_106
	vmovdqu	-16(%r10,%rcx), %xmm0
	vpshufb	.LCPI125_1(%rip), %xmm0, %xmm0
	vpmaxuw	.LCPI125_0(%rip), %xmm0, %xmm1
	vpcmpeqw	%xmm1, %xmm0, %xmm1
	vpmovmskb	%xmm1, %esi
	testl	%esi, %esi
	jne	.LBB125_106
	vpackuswb	%xmm0, %xmm0, %xmm0
	vmovq	%xmm0, -8(%rbp,%rax)
	movq	%rax, %r15
	movq	%rcx, %r9
	movq	%rdx, %rax
	subq	%r9, %rax
	cmpq	$15, %rax
	ja	.LBB125_107
	jmp	.LBB125_119
	.p2align	4
.LBB125_105:
	xorl	%r15d, %r15d
	xorl	%r9d, %r9d
.LBB125_106:
	movq	%rdx, %rax
	subq	%r9, %rax
	cmpq	$15, %rax
	jbe	.LBB125_119
.LBB125_107:
	leaq	-8(%rdx), %rax
	cmpq	$183, %rax
	ja	.LBB125_109
	movq	%rdx, %rsi
	subq	%r9, %rsi
	cmpq	$8, %rsi
	jae	.LBB125_110
.LBB125_109:
	movq	%r11, %r14
	movq	%r10, %r12
	cmpq	%rdx, %r9
	jne	.LBB125_111
	jmp	.LBB125_167
	.p2align	4
.LBB125_110:
	movq	%r10, %r12
	leaq	(%r10,%r9), %rdi
	leaq	(%r15,%rbp), %rax
	movq	%r11, %r14
	movq	%r11, %rcx
	subq	%r15, %rcx
	movq	%rdx, 144(%rsp)
	movq	%rax, %rdx
	movq	%r9, 120(%rsp)
	callq	L_28
	movq	120(%rsp), %r9
	movq	%rdx, %rcx
	movq	144(%rsp), %rdx
	addq	%rax, %r9
	addq	%rcx, %r15
	cmpq	%rdx, %r9
	je	.LBB125_167
.LBB125_111:
	movq	%r15, (%rsp)
	leaq	16(%rsp), %rdi
	movq	%r12, %rsi
	movq	%rbp, %rcx
	movq	%r14, %r8
	callq	L_29
	addq	16(%rsp), %rbx
	movzbl	32(%rsp), %eax
	addq	24(%rsp), %r13
	cmpb	$1, %al
	jne	.LBB125_169
	movq	128(%rsp), %r9
	movbew	(%r9,%rbx), %cx
	cmpw	$127, %cx
	ja	.LBB125_115
	movq	104(%rsp), %r12
	cmpq	%r13, %r12
	je	.LBB125_175
	movq	80(%rsp), %rax
	movb	%cl, (%rax,%r13)
	movl	$1, %eax
	jmp	.LBB125_96
	.p2align	4
.LBB125_115:
	movq	104(%rsp), %r12
	movq	%r12, %rsi
	subq	%r13, %rsi
	movl	%ecx, %eax
	andb	$63, %al
	orb	$-128, %al
	movzwl	%cx, %edx
	movl	%edx, %ecx
	shrl	$6, %ecx
	cmpl	$2047, %edx
	ja	.LBB125_94
	cmpq	$2, %rsi
	jb	.LBB125_173
	movzwl	%cx, %ecx
	movzbl	%al, %eax
	shll	$8, %eax
	orl	%ecx, %eax
	orl	$192, %eax
	movq	80(%rsp), %rcx
	movw	%ax, (%rcx,%r13)
	movl	$2, %eax
	jmp	.LBB125_96
.LBB125_118:
	negq	%r9
	movq	%rdx, %rax
	subq	%r9, %rax
	cmpq	$15, %rax
	ja	.LBB125_107
	.p2align	4
.LBB125_119:
	cmpq	$2, %rax
	jb	.LBB125_107
	movq	%r11, %rcx
	subq	%r15, %rcx
	movq	%rax, %rsi
	shrq	%rsi
	leaq	(%rsi,%rsi,2), %rsi
	cmpq	%rsi, %rcx
	jb	.LBB125_107
	leaq	(%r9,%rbx), %rcx
	addq	136(%rsp), %rcx
	jmp	.LBB125_124
	.p2align	4
.LBB125_122:
	movb	%sil, (%rbp,%r15)
	incq	%r15
.LBB125_123:
	addq	$2, %r9
	addq	$-2, %rax
	addq	$2, %rcx
	cmpq	$1, %rax
	jbe	.LBB125_107
.LBB125_124:
	movbew	(%rcx), %si
	cmpw	$127, %si
	jbe	.LBB125_122
	movzwl	%si, %edi
	cmpl	$2047, %edi
	ja	.LBB125_127
	shrl	$6, %edi
	andl	$63, %esi
	shll	$8, %esi
	orl	%edi, %esi
	orl	$32960, %esi
	movw	%si, (%rbp,%r15)
	addq	$2, %r15
	jmp	.LBB125_123
	.p2align	4
.LBB125_127:
	movl	%esi, %r8d
	andl	$63488, %r8d
	cmpl	$55296, %r8d
	je	.LBB125_107
	movl	%esi, %r8d
	andb	$63, %r8b
	orb	$-128, %r8b
	shrl	$6, %esi
	andb	$63, %sil
	orb	$-128, %sil
	shrl	$12, %edi
	orb	$-32, %dil
	movb	%dil, (%rbp,%r15)
	movb	%sil, 1(%rbp,%r15)
	movb	%r8b, 2(%rbp,%r15)
	addq	$3, %r15
	jmp	.LBB125_123
.LBB125_129:
	xorl	%ebx, %ebx
	xorl	%eax, %eax
	movq	88(%rsp), %rdi
.LBB125_130:
	movq	%rax, %r8
	subq	%rdi, %r8
	movq	136(%rsp), %rcx
	movq	160(%rsp), %rdx
	movq	%rax, %rsi
	leaq	(%rcx,%rdx), %rax
	movq	%r8, 128(%rsp)
	leaq	(%rax,%r8), %r14
	addq	%rbx, 80(%rsp)
	movq	%rbx, 56(%rsp)
	subq	%rbx, %r12
	movq	%rsi, 72(%rsp)
	addq	%rsi, %rdx
	subq	%rdi, %rdx
	leaq	(%rdx,%rcx), %rax
	incq	%rax
	movq	%rax, 136(%rsp)
	xorl	%r15d, %r15d
	xorl	%ebx, %ebx
	movq	%r12, 104(%rsp)
	movq	%r14, 120(%rsp)
	jmp	.LBB125_134
	.p2align	4
.LBB125_131:
	cmpq	$3, %rsi
	jb	.LBB125_174
	shrb	$4, %cl
	orb	$-32, %cl
	andb	$63, %dl
	orb	$-128, %dl
	movq	80(%rsp), %rsi
	movb	%cl, (%rsi,%r15)
	movb	%dl, 1(%rsi,%r15)
	movb	%al, 2(%rsi,%r15)
	movl	$3, %eax
.LBB125_133:
	addq	$2, %rbx
	addq	%rax, %r15
.LBB125_134:
	leaq	(%r14,%rbx), %r11
	movq	128(%rsp), %rax
	addq	%rbx, %rax
	movq	152(%rsp), %rdx
	subq	%rax, %rdx
	movq	80(%rsp), %rax
	leaq	(%rax,%r15), %r13
	movq	%r12, %rdi
	vpxor	%xmm0, %xmm0, %xmm0
	vmovdqa	%xmm0, 16(%rsp)
	subq	%r15, %rdi
	movq	$0, 32(%rsp)
	leaq	-16(%rdx), %rax
	cmpq	$175, %rax
	ja	.LBB125_142
	movq	%rdx, %rax
	shrq	%rax
	cmpq	%rax, %rdi
	cmovbq	%rdi, %rax
	cmpq	$8, %rax
	jb	.LBB125_142
	leaq	(%rax,%rax), %rcx
	xorl	%r9d, %r9d
	xorl	%r12d, %r12d
	.p2align	4
.LBB125_137:
	vmovdqu	(%r11,%r12,2), %xmm0
	vpmaxuw	.LCPI125_0(%rip), %xmm0, %xmm1
	vpcmpeqw	%xmm1, %xmm0, %xmm1
	vpmovmskb	%xmm1, %esi
	testl	%esi, %esi
	jne	.LBB125_166
	vpackuswb	%xmm0, %xmm0, %xmm0
	vmovq	%xmm0, (%r13,%r12)
	addq	$8, %r12
	leaq	(%rcx,%r9), %rsi
	addq	$-16, %rsi
	addq	$-16, %r9
	cmpq	$15, %rsi
	ja	.LBB125_137
	negq	%r9
	cmpq	%r9, %rcx
	jbe	.LBB125_143
	vmovdqu	-16(%r11,%rcx), %xmm0
	vpmaxuw	.LCPI125_0(%rip), %xmm0, %xmm1
	vpcmpeqw	%xmm1, %xmm0, %xmm1
	vpmovmskb	%xmm1, %esi
	testl	%esi, %esi
	jne	.LBB125_143
	vpackuswb	%xmm0, %xmm0, %xmm0
	vmovq	%xmm0, -8(%r13,%rax)
	movq	%rax, %r12
	movq	%rcx, %r9
	jmp	.LBB125_143
	.p2align	4
.LBB125_142:
	xorl	%r12d, %r12d
	xorl	%r9d, %r9d
.LBB125_143:
	movq	%rdx, %rax
	subq	%r9, %rax
	cmpq	$15, %rax
	movq	%rdi, 112(%rsp)
	jbe	.LBB125_147
.LBB125_144:
	leaq	-8(%rdx), %rax
	cmpq	$183, %rax
	ja	.LBB125_157
	movq	%rdx, %rsi
	subq	%r9, %rsi
	cmpq	$8, %rsi
	jae	.LBB125_158
.LBB125_157:
	movq	%r11, %rbp
	cmpq	%rdx, %r9
	jne	.LBB125_159
	jmp	.LBB125_168
	.p2align	4
.LBB125_147:
	cmpq	$2, %rax
	jb	.LBB125_144
	movq	%rdi, %rcx
	subq	%r12, %rcx
	movq	%rax, %rsi
	shrq	%rsi
	leaq	(%rsi,%rsi,2), %rsi
	cmpq	%rsi, %rcx
	jb	.LBB125_144
	leaq	(%r9,%rbx), %rcx
	addq	136(%rsp), %rcx
	jmp	.LBB125_152
	.p2align	4
.LBB125_150:
	movb	%sil, (%r13,%r12)
	incq	%r12
.LBB125_151:
	addq	$2, %r9
	addq	$-2, %rax
	addq	$2, %rcx
	cmpq	$1, %rax
	jbe	.LBB125_144
.LBB125_152:
	movzbl	-1(%rcx), %esi
	movzbl	(%rcx), %r8d
	movl	%r8d, %edi
	shll	$8, %edi
	orl	%esi, %edi
	cmpw	$127, %di
	jbe	.LBB125_150
	cmpb	$7, %r8b
	ja	.LBB125_155
	movzwl	%si, %esi
	andl	$63, %esi
	shll	$8, %esi
	movzwl	%di, %edi
	shrl	$6, %edi
	orl	%esi, %edi
	orl	$32960, %edi
	movw	%di, (%r13,%r12)
	addq	$2, %r12
	jmp	.LBB125_151
	.p2align	4
.LBB125_155:
	movzwl	%r8w, %r10d
	andl	$-8, %r10d
	cmpl	$216, %r10d
	je	.LBB125_144
	andb	$63, %sil
	orb	$-128, %sil
	shrl	$6, %edi
	andb	$63, %dil
	orb	$-128, %dil
	shrb	$4, %r8b
	orb	$-32, %r8b
	movb	%r8b, (%r13,%r12)
	movb	%dil, 1(%r13,%r12)
	movb	%sil, 2(%r13,%r12)
	addq	$3, %r12
	jmp	.LBB125_151
	.p2align	4
.LBB125_158:
	movq	%r11, %rbp
	leaq	(%r11,%r9), %rdi
	leaq	(%r12,%r13), %rax
	movq	112(%rsp), %rcx
	subq	%r12, %rcx
	movq	%rdx, 144(%rsp)
	movq	%rax, %rdx
	movq	%r9, %r14
	callq	L_38
	movq	%r14, %r9
	movq	120(%rsp), %r14
	movq	%rdx, %rcx
	movq	144(%rsp), %rdx
	addq	%rax, %r9
	addq	%rcx, %r12
	cmpq	%rdx, %r9
	je	.LBB125_168
.LBB125_159:
	movq	%r12, (%rsp)
	leaq	16(%rsp), %rdi
	movq	%rbp, %rsi
	movq	%r13, %rcx
	movq	112(%rsp), %r8
	callq	L_39
	addq	16(%rsp), %rbx
	movzbl	32(%rsp), %eax
	addq	24(%rsp), %r15
	cmpb	$1, %al
	jne	.LBB125_170
	movzbl	(%r14,%rbx), %eax
	movzbl	1(%r14,%rbx), %ecx
	movl	%ecx, %edx
	shll	$8, %edx
	orl	%eax, %edx
	cmpw	$127, %dx
	ja	.LBB125_163
	movq	104(%rsp), %r12
	cmpq	%r15, %r12
	je	.LBB125_180
	movq	80(%rsp), %rcx
	movb	%al, (%rcx,%r15)
	movl	$1, %eax
	jmp	.LBB125_133
	.p2align	4
.LBB125_163:
	movq	104(%rsp), %r12
	movq	%r12, %rsi
	subq	%r15, %rsi
	andl	$63, %eax
	orl	$128, %eax
	movzwl	%dx, %edx
	shrl	$6, %edx
	cmpb	$7, %cl
	ja	.LBB125_131
	cmpq	$2, %rsi
	jb	.LBB125_174
	movzwl	%ax, %eax
	shll	$8, %eax
	movzwl	%dx, %ecx
	orl	%eax, %ecx
	orl	$192, %ecx
	movq	80(%rsp), %rax
	movw	%cx, (%rax,%r15)
	movl	$2, %eax
	jmp	.LBB125_133
.LBB125_166:
	negq	%r9
	jmp	.LBB125_143
.LBB125_167:
	addq	%rdx, %rbx
	addq	%r13, %r15
	xorl	%eax, %eax
	movq	%r15, %r12
	jmp	.LBB125_176
.LBB125_168:
	addq	%rdx, %rbx
	addq	%r15, %r12
	xorl	%eax, %eax
	jmp	.LBB125_181
.LBB125_169:
	movq	%r13, %r12
	jmp	.LBB125_176
.LBB125_170:
	movq	%r15, %r12
	jmp	.LBB125_181
.LBB125_171:
	movq	%rbx, 56(%rsp)
	leaq	(%rsp,%r15), %rsi
	addq	$52, %rsi
	xorl	%ebx, %ebx
	subq	%r15, %r13
	cmovbq	%rbx, %r13
	jmp	.LBB125_179
.LBB125_172:
	movq	%rbx, 56(%rsp)
	leaq	(%rsp,%rdi), %rsi
	addq	$52, %rsi
	xorl	%ebx, %ebx
	subq	%rdi, %r14
	cmovbq	%rbx, %r14
	jmp	.LBB125_184
.LBB125_173:
	movb	$3, %al
	movq	%r13, %r12
	jmp	.LBB125_176
.LBB125_174:
	movb	$3, %al
	movq	%r15, %r12
	jmp	.LBB125_181
.LBB125_175:
	movb	$3, %al
.LBB125_176:
	movq	72(%rsp), %rdi
	addq	%rbx, %rdi
	addq	%r12, 56(%rsp)
	movq	88(%rsp), %rdx
.LBB125_177:
	cmpq	%rdi, %rdx
	movq	%rdi, %rcx
	cmovbq	%rdx, %rcx
	leaq	(%rsp,%rcx), %rsi
	addq	$52, %rsi
	movq	%rdx, %rbx
	subq	%rcx, %rbx
	xorl	%r13d, %r13d
	subq	%rdx, %rdi
	cmovaeq	%rdi, %r13
	cmpb	$3, %al
	jne	.LBB125_179
.LBB125_178:
	movb	$0, 18(%rsp)
	movw	$0, 16(%rsp)
	leaq	16(%rsp), %rdi
	movq	%rbx, %rdx
	callq	sysv_memcpy
	movzbl	18(%rsp), %eax
	shll	$16, %eax
	movzwl	16(%rsp), %ecx
	orl	%eax, %ecx
	shll	$24, %ebx
	orl	%ecx, %ebx
	movb	$3, %al
	movq	176(%rsp), %rcx
	movl	%ebx, (%rcx)
	jmp	.LBB125_187
.LBB125_179:
	movq	152(%rsp), %r15
	movq	%r15, %rax
	subq	%r13, %rax
	movq	184(%rsp), %r12
	addq	%r13, %r12
	movl	$4, %r14d
	subq	%rbx, %r14
	cmpq	%rax, %r14
	cmovaeq	%rax, %r14
	movl	$0, 16(%rsp)
	leaq	16(%rsp), %rdi
	movq	%rbx, %rdx
	callq	sysv_memcpy
	leaq	(%rsp,%rbx), %rdi
	addq	$16, %rdi
	movq	%r12, %rsi
	movq	%r14, %rdx
	callq	sysv_memcpy
	addq	%rbx, %r14
	movl	16(%rsp), %eax
	movl	%eax, 100(%rsp)
	movb	$0, 18(%rsp)
	movw	$0, 16(%rsp)
	leaq	16(%rsp), %rdi
	leaq	100(%rsp), %rsi
	movq	%r14, %rdx
	callq	sysv_memcpy
	movzbl	18(%rsp), %eax
	shll	$16, %eax
	movzwl	16(%rsp), %ecx
	orl	%eax, %ecx
	shll	$24, %r14d
	orl	%ecx, %r14d
	xorl	%eax, %eax
	movq	176(%rsp), %rcx
	movl	%r14d, (%rcx)
	jmp	.LBB125_186
.LBB125_180:
	movb	$3, %al
.LBB125_181:
	movq	72(%rsp), %rdi
	addq	%rbx, %rdi
	addq	%r12, 56(%rsp)
	movq	88(%rsp), %rdx
.LBB125_182:
	cmpq	%rdi, %rdx
	movq	%rdi, %rcx
	cmovbq	%rdx, %rcx
	leaq	(%rsp,%rcx), %rsi
	addq	$52, %rsi
	movq	%rdx, %rbx
	subq	%rcx, %rbx
	xorl	%r14d, %r14d
	subq	%rdx, %rdi
	cmovaeq	%rdi, %r14
	cmpb	$3, %al
	jne	.LBB125_184
.LBB125_183:
	movb	$0, 18(%rsp)
	movw	$0, 16(%rsp)
	leaq	16(%rsp), %rdi
	movq	%rbx, %rdx
	callq	sysv_memcpy
	movzbl	18(%rsp), %eax
	shll	$16, %eax
	movzwl	16(%rsp), %ecx
	orl	%eax, %ecx
	shll	$24, %ebx
	orl	%ecx, %ebx
	movb	$3, %al
	movq	%r14, %r15
	jmp	.LBB125_185
.LBB125_184:
	movq	152(%rsp), %r15
	movq	%r15, %rax
	subq	%r14, %rax
	movq	184(%rsp), %r12
	addq	%r14, %r12
	movl	$4, %r14d
	subq	%rbx, %r14
	cmpq	%rax, %r14
	cmovaeq	%rax, %r14
	movl	$0, 16(%rsp)
	leaq	16(%rsp), %rdi
	movq	%rbx, %rdx
	callq	sysv_memcpy
	leaq	(%rsp,%rbx), %rdi
	addq	$16, %rdi
	movq	%r12, %rsi
	movq	%r14, %rdx
	callq	sysv_memcpy
	addq	%rbx, %r14
	movl	16(%rsp), %eax
	movl	%eax, 100(%rsp)
	movb	$0, 18(%rsp)
	movw	$0, 16(%rsp)
	leaq	16(%rsp), %rdi
	leaq	100(%rsp), %rsi
	movq	%r14, %rdx
	callq	sysv_memcpy
	movzbl	18(%rsp), %eax
	shll	$16, %eax
	movzwl	16(%rsp), %ecx
	orl	%eax, %ecx
	shll	$24, %r14d
	orl	%ecx, %r14d
	xorl	%eax, %eax
	movl	%r14d, %ebx
.LBB125_185:
	movq	176(%rsp), %rcx
	movl	%ebx, (%rcx)
.LBB125_186:
	movq	%r15, %r13
.LBB125_187:
	xorl	%ecx, %ecx
	testb	%al, %al
	setne	%cl
	leal	(%rcx,%rcx,2), %ecx
	movq	192(%rsp), %rax
	movq	%r13, (%rax)
	movq	56(%rsp), %rdx
	movq	%rdx, 8(%rax)
	movl	%ecx, 16(%rax)
	movl	$0, 20(%rax)
	addq	$200, %rsp
	popq	%rbx
	popq	%r12
	popq	%r13
	popq	%r14
	popq	%r15
	popq	%rbp
	retq
.LBB125_188:
	movq	%rbx, 56(%rsp)
	movq	88(%rsp), %rdx
	movq	72(%rsp), %rdi
	jmp	.LBB125_177
.LBB125_189:
	movq	88(%rsp), %rdx
	movq	72(%rsp), %rdi
	jmp	.LBB125_182
.LBB125_190:
	movq	%rbx, 56(%rsp)
	movq	72(%rsp), %rcx
	cmpq	%rcx, %r15
	movq	%rcx, %rax
	cmovbq	%r15, %rax
	leaq	(%rsp,%rax), %rsi
	addq	$52, %rsi
	movq	%r15, %rbx
	subq	%rax, %rbx
	xorl	%r13d, %r13d
	subq	%r15, %rcx
	cmovaeq	%rcx, %r13
	jmp	.LBB125_178
.LBB125_191:
	movq	72(%rsp), %rdx
	cmpq	%rdx, %rdi
	movq	%rdx, %rax
	cmovbq	%rdi, %rax
	leaq	(%rsp,%rax), %rsi
	addq	$52, %rsi
	movq	%rdi, %rbx
	subq	%rax, %rbx
	xorl	%r14d, %r14d
	subq	%rdi, %rdx
	cmovaeq	%rdx, %r14
	jmp	.LBB125_183
.Lfunc_end125:

	.section	.text$150,"xr"
	.globl	dethrux_wtf8_decoder_finish_v3
	.p2align	4
dethrux_wtf8_decoder_finish_v3:
	movq	%rdi, %rax
	xorl	%r9d, %r9d
	testq	%rcx, %rcx
	sete	%r9b
	shll	$12, %r9d
	movzbl	3(%rsi), %r10d
	cmpb	$3, %r10b
	movl	$3, %edi
	cmovbl	%r10d, %edi
	cmpl	$1, %edx
	jne	.LBB126_3
	cmpb	$2, %r10b
	jb	.LBB126_2
	movbew	(%rsi), %r10w
	cmpw	$127, %r10w
	ja	.LBB126_11
	testq	%r8, %r8
	je	.LBB126_20
	movb	%r10b, (%rcx,%r9)
	movl	$1, %ecx
	jmp	.LBB126_23
.LBB126_3:
	cmpb	$2, %r10b
	jae	.LBB126_8
.LBB126_2:
	xorl	%ecx, %ecx
.LBB126_23:
	movl	$0, (%rsi)
	addb	%dil, %dil
	andb	$2, %dil
	movzbl	%dil, %edx
	jmp	.LBB126_24
.LBB126_8:
	movzbl	(%rsi), %edx
	movzbl	1(%rsi), %r10d
	movl	%r10d, %r11d
	shll	$8, %r11d
	orl	%edx, %r11d
	cmpw	$127, %r11w
	ja	.LBB126_14
	testq	%r8, %r8
	je	.LBB126_20
	movb	%dl, (%rcx,%r9)
	movl	$1, %ecx
	jmp	.LBB126_23
.LBB126_11:
	movl	%r10d, %edx
	andb	$63, %dl
	orb	$-128, %dl
	movzwl	%r10w, %r11d
	movl	%r11d, %r10d
	shrl	$6, %r10d
	cmpl	$2047, %r11d
	ja	.LBB126_17
	cmpq	$2, %r8
	jb	.LBB126_20
	movzwl	%r10w, %r8d
	movzbl	%dl, %edx
	shll	$8, %edx
	orl	%r8d, %edx
	orl	$192, %edx
	movw	%dx, (%rcx,%r9)
	movl	$2, %ecx
	jmp	.LBB126_23
.LBB126_14:
	andl	$63, %edx
	orl	$128, %edx
	movzwl	%r11w, %r11d
	shrl	$6, %r11d
	cmpb	$7, %r10b
	ja	.LBB126_19
	cmpq	$2, %r8
	jb	.LBB126_20
	movzwl	%dx, %edx
	shll	$8, %edx
	movzwl	%r11w, %r8d
	orl	%edx, %r8d
	orl	$192, %r8d
	movw	%r8w, (%rcx,%r9)
	movl	$2, %ecx
	jmp	.LBB126_23
.LBB126_17:
	cmpq	$3, %r8
	jb	.LBB126_20
	shrl	$12, %r11d
	orb	$-32, %r11b
	andb	$63, %r10b
	orb	$-128, %r10b
	movb	%r11b, (%rcx,%r9)
	movb	%r10b, 1(%rcx,%r9)
	movb	%dl, 2(%rcx,%r9)
	jmp	.LBB126_22
.LBB126_19:
	cmpq	$3, %r8
	jae	.LBB126_21
.LBB126_20:
	movl	$3, %edx
	xorl	%ecx, %ecx
.LBB126_24:
	movq	$0, (%rax)
	movq	%rcx, 8(%rax)
	movl	%edx, 16(%rax)
	movl	$0, 20(%rax)
	retq
.LBB126_21:
	shrb	$4, %r10b
	orb	$-32, %r10b
	andb	$63, %r11b
	orb	$-128, %r11b
	movb	%r10b, (%rcx,%r9)
	movb	%r11b, 1(%rcx,%r9)
	movb	%dl, 2(%rcx,%r9)
.LBB126_22:
	movl	$3, %ecx
	jmp	.LBB126_23
.Lfunc_end126:

	.section	.rdata$000,"dr"
	.p2align	4, 0x0
.LCPI127_0:
	.quad	-3
	.quad	-2
	.section	.text$151,"xr"
	.globl	dethrux_wtf8_encoder_feed_v3
	.p2align	4
dethrux_wtf8_encoder_feed_v3:
	pushq	%rbp
	pushq	%r15
	pushq	%r14
	pushq	%r13
	pushq	%r12
	pushq	%rbx
	subq	$120, %rsp
	movq	%rdi, 112(%rsp)
	movq	176(%rsp), %r13
	xorl	%r12d, %r12d
	testq	%rcx, %rcx
	sete	%r12b
	shll	$12, %r12d
	addq	%rcx, %r12
	xorl	%ebp, %ebp
	testq	%r9, %r9
	sete	%bpl
	shll	$12, %ebp
	addq	%r9, %rbp
	cmpl	$1, %edx
	movq	%rsi, 88(%rsp)
	movq	%r8, 80(%rsp)
	jne	.LBB127_13
	movq	$0, 64(%rsp)
	movl	$0, 72(%rsp)
	movl	$0, 40(%rsp)
	movw	$0, 44(%rsp)
	movl	(%rsi), %eax
	movl	3(%rsi), %ecx
	movl	%ecx, 35(%rsp)
	movl	%eax, 32(%rsp)
	movzbl	38(%rsp), %eax
	cmpb	$6, %al
	movl	$6, %ecx
	cmovbl	%eax, %ecx
	movzbl	%cl, %r15d
	movl	$12, %ebx
	subq	%r15, %rbx
	cmpq	%r8, %rbx
	cmovaeq	%r8, %rbx
	movl	$0, 8(%rsp)
	movq	$0, (%rsp)
	movq	%rsp, %rdi
	leaq	32(%rsp), %rsi
	movq	%r15, %rdx
	callq	sysv_memcpy
	leaq	(%rsp,%r15), %rdi
	movq	%r12, %rsi
	movq	%rbx, %rdx
	callq	sysv_memcpy
	addq	%r15, %rbx
	movq	(%rsp), %rax
	movl	8(%rsp), %ecx
	movq	%rax, 96(%rsp)
	movl	%ecx, 104(%rsp)
	vxorps	%xmm0, %xmm0, %xmm0
	vmovups	%ymm0, (%rsp)
	movq	%rsp, %rdi
	leaq	96(%rsp), %rsi
	movq	%rbx, %rdx
	movq	%rbp, %rcx
	movq	%r13, %r8
	vzeroupper
	callq	L_73
	vmovdqa	(%rsp), %xmm0
	movzbl	16(%rsp), %r14d
	movzbl	17(%rsp), %r8d
	cmpb	$1, 24(%rsp)
	jne	.LBB127_4
	movzbl	%r14b, %eax
	movl	%eax, %eax
	leaq	.LJTI127_4(%rip), %rcx
	movslq	(%rcx,%rax,4), %rax
	addq	%rcx, %rax
	jmpq	*%rax
.LBB127_3:
	vpaddq	.LCPI127_0(%rip), %xmm0, %xmm0
	movb	$2, %r14b
	xorl	%r8d, %r8d
.LBB127_4:
	cmpq	$12, %rbx
	jb	.LBB127_10
	movzbl	%r14b, %eax
	leaq	.LJTI127_5(%rip), %rcx
	movslq	(%rcx,%rax,4), %rax
	addq	%rcx, %rax
	jmpq	*%rax
.LBB127_6:
	vmovq	%xmm0, %rax
	subq	%r15, %rax
	leaq	(%r12,%rax), %rsi
	movq	80(%rsp), %rdx
	subq	%rax, %rdx
	vmovdqa	%xmm0, 48(%rsp)
	vpextrq	$1, %xmm0, %rax
	addq	%rax, %rbp
	subq	%rax, %r13
	vpxor	%xmm0, %xmm0, %xmm0
	vmovdqu	%ymm0, (%rsp)
	movq	%rsp, %rdi
	movq	%rbp, %rcx
	movq	%r13, %r8
	vzeroupper
	callq	L_73
	vmovdqa	(%rsp), %xmm0
	movzbl	16(%rsp), %eax
	movzbl	%al, %r14d
	movzbl	17(%rsp), %r8d
	cmpb	$1, 24(%rsp)
	jne	.LBB127_9
	movl	%r14d, %eax
	leaq	.LJTI127_6(%rip), %rcx
	movslq	(%rcx,%rax,4), %rax
	addq	%rcx, %rax
	jmpq	*%rax
.LBB127_8:
	vpaddq	.LCPI127_0(%rip), %xmm0, %xmm0
	movb	$2, %al
	xorl	%r8d, %r8d
	vmovdqa	48(%rsp), %xmm1
	vpaddq	%xmm1, %xmm0, %xmm1
	vmovdqa	%xmm1, 48(%rsp)
	vmovq	%xmm1, %rcx
	cmpq	%rcx, %r15
	movq	%rcx, %rdx
	cmovbq	%r15, %rdx
	leaq	(%rsp,%rdx), %rsi
	addq	$32, %rsi
	movq	%r15, %r13
	subq	%rdx, %r13
	xorl	%ebx, %ebx
	subq	%r15, %rcx
	cmovaeq	%rcx, %rbx
	movzbl	%al, %r14d
	leaq	.LJTI127_7(%rip), %rax
	movslq	(%rax,%r14,4), %rcx
	addq	%rax, %rcx
	jmpq	*%rcx
.LBB127_13:
	movq	$0, 64(%rsp)
	movl	$0, 72(%rsp)
	movl	$0, 40(%rsp)
	movw	$0, 44(%rsp)
	movl	(%rsi), %eax
	movl	3(%rsi), %ecx
	movl	%ecx, 35(%rsp)
	movl	%eax, 32(%rsp)
	movzbl	38(%rsp), %eax
	cmpb	$6, %al
	movl	$6, %ecx
	cmovbl	%eax, %ecx
	movzbl	%cl, %r15d
	movl	$12, %ebx
	subq	%r15, %rbx
	cmpq	%r8, %rbx
	cmovaeq	%r8, %rbx
	movl	$0, 8(%rsp)
	movq	$0, (%rsp)
	movq	%rsp, %rdi
	leaq	32(%rsp), %rsi
	movq	%r15, %rdx
	callq	sysv_memcpy
	leaq	(%rsp,%r15), %rdi
	movq	%r12, %rsi
	movq	%rbx, %rdx
	callq	sysv_memcpy
	addq	%r15, %rbx
	movq	(%rsp), %rax
	movl	8(%rsp), %ecx
	movq	%rax, 96(%rsp)
	movl	%ecx, 104(%rsp)
	vxorps	%xmm0, %xmm0, %xmm0
	vmovups	%ymm0, (%rsp)
	movq	%rsp, %rdi
	leaq	96(%rsp), %rsi
	movq	%rbx, %rdx
	movq	%rbp, %rcx
	movq	%r13, %r8
	vzeroupper
	callq	L_74
	vmovdqa	(%rsp), %xmm0
	movzbl	16(%rsp), %r14d
	movzbl	17(%rsp), %r8d
	cmpb	$1, 24(%rsp)
	jne	.LBB127_16
	movzbl	%r14b, %eax
	movl	%eax, %eax
	leaq	.LJTI127_0(%rip), %rcx
	movslq	(%rcx,%rax,4), %rax
	addq	%rcx, %rax
	jmpq	*%rax
.LBB127_15:
	vpaddq	.LCPI127_0(%rip), %xmm0, %xmm0
	movb	$2, %r14b
	xorl	%r8d, %r8d
.LBB127_16:
	cmpq	$12, %rbx
	jb	.LBB127_22
	movzbl	%r14b, %eax
	leaq	.LJTI127_1(%rip), %rcx
	movslq	(%rcx,%rax,4), %rax
	addq	%rcx, %rax
	jmpq	*%rax
.LBB127_18:
	vmovq	%xmm0, %rax
	subq	%r15, %rax
	leaq	(%r12,%rax), %rsi
	movq	80(%rsp), %rdx
	subq	%rax, %rdx
	vmovdqa	%xmm0, 48(%rsp)
	vpextrq	$1, %xmm0, %rax
	addq	%rax, %rbp
	subq	%rax, %r13
	vpxor	%xmm0, %xmm0, %xmm0
	vmovdqu	%ymm0, (%rsp)
	movq	%rsp, %rdi
	movq	%rbp, %rcx
	movq	%r13, %r8
	vzeroupper
	callq	L_74
	vmovdqa	(%rsp), %xmm0
	movzbl	16(%rsp), %eax
	movzbl	%al, %r14d
	movzbl	17(%rsp), %r8d
	cmpb	$1, 24(%rsp)
	jne	.LBB127_21
	movl	%r14d, %eax
	leaq	.LJTI127_2(%rip), %rcx
	movslq	(%rcx,%rax,4), %rax
	addq	%rcx, %rax
	jmpq	*%rax
.LBB127_20:
	vpaddq	.LCPI127_0(%rip), %xmm0, %xmm0
	movb	$2, %al
	xorl	%r8d, %r8d
	vmovdqa	48(%rsp), %xmm1
	vpaddq	%xmm1, %xmm0, %xmm1
	vmovdqa	%xmm1, 48(%rsp)
	vmovq	%xmm1, %rcx
	cmpq	%rcx, %r15
	movq	%rcx, %rdx
	cmovbq	%r15, %rdx
	leaq	(%rsp,%rdx), %rsi
	addq	$32, %rsi
	movq	%r15, %r13
	subq	%rdx, %r13
	xorl	%ebx, %ebx
	subq	%r15, %rcx
	cmovaeq	%rcx, %rbx
	movzbl	%al, %r14d
	leaq	.LJTI127_3(%rip), %rax
	movslq	(%rax,%r14,4), %rcx
	addq	%rax, %rcx
	jmpq	*%rcx
.LBB127_10:
	vmovdqa	%xmm0, 48(%rsp)
	vmovq	%xmm0, %rax
	cmpq	%rax, %r15
	movq	%rax, %rcx
	cmovbq	%r15, %rcx
	leaq	(%rsp,%rcx), %rsi
	addq	$32, %rsi
	movq	%r15, %r13
	subq	%rcx, %r13
	xorl	%ebx, %ebx
	subq	%r15, %rax
	cmovaeq	%rax, %rbx
	movzbl	%r14b, %eax
	leaq	.LJTI127_7(%rip), %rcx
	movslq	(%rcx,%rax,4), %rax
	addq	%rcx, %rax
	jmpq	*%rax
.LBB127_12:
	movq	80(%rsp), %r14
	movq	%r14, %rax
	subq	%rbx, %rax
	addq	%rbx, %r12
	movl	$12, %ebx
	subq	%r13, %rbx
	cmpq	%rax, %rbx
	cmovaeq	%rax, %rbx
	movl	$0, 8(%rsp)
	movq	$0, (%rsp)
	movq	%rsp, %rdi
	movq	%r13, %rdx
	callq	sysv_memcpy
	leaq	(%rsp,%r13), %rdi
	movq	%r12, %rsi
	movq	%rbx, %rdx
	callq	sysv_memcpy
	addq	%r13, %rbx
	movq	(%rsp), %rax
	movl	8(%rsp), %ecx
	movq	%rax, 64(%rsp)
	movl	%ecx, 72(%rsp)
	movw	$0, 4(%rsp)
	movl	$0, (%rsp)
	movq	%rsp, %rdi
	leaq	64(%rsp), %rsi
	movq	%rbx, %rdx
	callq	sysv_memcpy
	movzwl	4(%rsp), %eax
	movw	%ax, 44(%rsp)
	movl	(%rsp), %ecx
	movl	%ecx, 40(%rsp)
	movq	88(%rsp), %rdx
	movw	%ax, 4(%rdx)
	movl	%ecx, (%rdx)
	movb	%bl, 6(%rdx)
	xorl	%r8d, %r8d
	vmovdqa	48(%rsp), %xmm0
	vpextrq	$1, %xmm0, %rdi
	movzbl	%r8b, %ecx
	leaq	.LJTI127_8(%rip), %rdx
	movslq	(%rdx,%rcx,4), %rsi
	addq	%rdx, %rsi
	movq	%r14, %rbx
	movl	%ecx, %edx
	jmpq	*%rsi
.LBB127_22:
	vmovdqa	%xmm0, 48(%rsp)
	vmovq	%xmm0, %rax
	cmpq	%rax, %r15
	movq	%rax, %rcx
	cmovbq	%r15, %rcx
	leaq	(%rsp,%rcx), %rsi
	addq	$32, %rsi
	movq	%r15, %r13
	subq	%rcx, %r13
	xorl	%ebx, %ebx
	subq	%r15, %rax
	cmovaeq	%rax, %rbx
	movzbl	%r14b, %eax
	leaq	.LJTI127_3(%rip), %rcx
	movslq	(%rcx,%rax,4), %rax
	addq	%rcx, %rax
	jmpq	*%rax
.LBB127_24:
	movq	80(%rsp), %r14
	movq	%r14, %rax
	subq	%rbx, %rax
	addq	%rbx, %r12
	movl	$12, %ebx
	subq	%r13, %rbx
	cmpq	%rax, %rbx
	cmovaeq	%rax, %rbx
	movl	$0, 8(%rsp)
	movq	$0, (%rsp)
	movq	%rsp, %rdi
	movq	%r13, %rdx
	callq	sysv_memcpy
	leaq	(%rsp,%r13), %rdi
	movq	%r12, %rsi
	movq	%rbx, %rdx
	callq	sysv_memcpy
	addq	%r13, %rbx
	movq	(%rsp), %rax
	movl	8(%rsp), %ecx
	movq	%rax, 64(%rsp)
	movl	%ecx, 72(%rsp)
	movw	$0, 4(%rsp)
	movl	$0, (%rsp)
	movq	%rsp, %rdi
	leaq	64(%rsp), %rsi
	movq	%rbx, %rdx
	callq	sysv_memcpy
	movzwl	4(%rsp), %eax
	movw	%ax, 44(%rsp)
	movl	(%rsp), %ecx
	movl	%ecx, 40(%rsp)
	movq	88(%rsp), %rdx
	movw	%ax, 4(%rdx)
	movl	%ecx, (%rdx)
	movb	%bl, 6(%rdx)
	xorl	%ecx, %ecx
	vmovdqa	48(%rsp), %xmm0
	vpextrq	$1, %xmm0, %rdi
	movzbl	%cl, %r8d
	leaq	.LJTI127_8(%rip), %rcx
	movslq	(%rcx,%r8,4), %rsi
	addq	%rcx, %rsi
	movq	%r14, %rbx
	movl	%r8d, %ecx
	movl	%r8d, %edx
	jmpq	*%rsi
.LBB127_9:
	vmovdqa	48(%rsp), %xmm1
	vpaddq	%xmm1, %xmm0, %xmm1
	vmovdqa	%xmm1, 48(%rsp)
	vmovq	%xmm1, %rax
	cmpq	%rax, %r15
	movq	%rax, %rcx
	cmovbq	%r15, %rcx
	movq	%r15, %r13
	subq	%rcx, %r13
	xorl	%ebx, %ebx
	subq	%r15, %rax
	cmovaeq	%rax, %rbx
	leaq	(%rsp,%rcx), %rsi
	addq	$32, %rsi
	leaq	.LJTI127_7(%rip), %rax
	movslq	(%rax,%r14,4), %rcx
	addq	%rax, %rcx
	jmpq	*%rcx
.LBB127_11:
	movw	$0, 4(%rsp)
	movl	$0, (%rsp)
	movq	%rsp, %rdi
	movq	%r13, %rdx
	movq	%r8, %r15
	callq	sysv_memcpy
	movq	%r15, %r8
	movl	(%rsp), %eax
	movq	88(%rsp), %rcx
	movl	%eax, (%rcx)
	movzwl	4(%rsp), %eax
	movw	%ax, 4(%rcx)
	movb	%r13b, 6(%rcx)
	vmovdqa	48(%rsp), %xmm0
	vpextrq	$1, %xmm0, %rdi
	movzbl	%r14b, %ecx
	leaq	.LJTI127_8(%rip), %rdx
	movslq	(%rdx,%rcx,4), %rsi
	addq	%rdx, %rsi
	movl	%ecx, %edx
	jmpq	*%rsi
.LBB127_21:
	vmovdqa	48(%rsp), %xmm1
	vpaddq	%xmm1, %xmm0, %xmm1
	vmovdqa	%xmm1, 48(%rsp)
	vmovq	%xmm1, %rax
	cmpq	%rax, %r15
	movq	%rax, %rcx
	cmovbq	%r15, %rcx
	movq	%r15, %r13
	subq	%rcx, %r13
	xorl	%ebx, %ebx
	subq	%r15, %rax
	cmovaeq	%rax, %rbx
	leaq	(%rsp,%rcx), %rsi
	addq	$32, %rsi
	leaq	.LJTI127_3(%rip), %rax
	movslq	(%rax,%r14,4), %rcx
	addq	%rax, %rcx
	jmpq	*%rcx
.LBB127_23:
	movw	$0, 4(%rsp)
	movl	$0, (%rsp)
	movq	%rsp, %rdi
	movq	%r13, %rdx
	movq	%r8, %r15
	callq	sysv_memcpy
	movq	%r15, %r8
	movl	(%rsp), %eax
	movq	88(%rsp), %rcx
	movl	%eax, (%rcx)
	movzwl	4(%rsp), %eax
	movw	%ax, 4(%rcx)
	movb	%r13b, 6(%rcx)
	vmovdqa	48(%rsp), %xmm0
	vpextrq	$1, %xmm0, %rdi
	movzbl	%r14b, %ecx
	leaq	.LJTI127_8(%rip), %rdx
	movslq	(%rdx,%rcx,4), %rsi
	addq	%rdx, %rsi
	movl	%ecx, %edx
	jmpq	*%rsi
.LBB127_25:
	movzbl	%r8b, %edx
	movl	$1, %ecx
	jmp	.LBB127_28
.LBB127_26:
	xorl	%edx, %edx
	movl	$2, %ecx
	jmp	.LBB127_28
.LBB127_27:
	xorl	%edx, %edx
	movl	$3, %ecx
.LBB127_28:
	movq	112(%rsp), %rax
	movq	%rbx, (%rax)
	movq	%rdi, 8(%rax)
	movl	%ecx, 16(%rax)
	movl	%edx, 20(%rax)
	addq	$120, %rsp
	popq	%rbx
	popq	%r12
	popq	%r13
	popq	%r14
	popq	%r15
	popq	%rbp
	retq
.Lfunc_end127:
	.section	.rdata$152,"dr"
	.p2align	2, 0x0
.LJTI127_0:
	.long	.LBB127_15-.LJTI127_0
	.long	.LBB127_16-.LJTI127_0
	.long	.LBB127_15-.LJTI127_0
	.long	.LBB127_16-.LJTI127_0
.LJTI127_1:
	.long	.LBB127_18-.LJTI127_1
	.long	.LBB127_22-.LJTI127_1
	.long	.LBB127_18-.LJTI127_1
	.long	.LBB127_22-.LJTI127_1
.LJTI127_2:
	.long	.LBB127_20-.LJTI127_2
	.long	.LBB127_21-.LJTI127_2
	.long	.LBB127_20-.LJTI127_2
	.long	.LBB127_21-.LJTI127_2
.LJTI127_3:
	.long	.LBB127_24-.LJTI127_3
	.long	.LBB127_23-.LJTI127_3
	.long	.LBB127_24-.LJTI127_3
	.long	.LBB127_23-.LJTI127_3
.LJTI127_4:
	.long	.LBB127_3-.LJTI127_4
	.long	.LBB127_4-.LJTI127_4
	.long	.LBB127_3-.LJTI127_4
	.long	.LBB127_4-.LJTI127_4
.LJTI127_5:
	.long	.LBB127_6-.LJTI127_5
	.long	.LBB127_10-.LJTI127_5
	.long	.LBB127_6-.LJTI127_5
	.long	.LBB127_10-.LJTI127_5
.LJTI127_6:
	.long	.LBB127_8-.LJTI127_6
	.long	.LBB127_9-.LJTI127_6
	.long	.LBB127_8-.LJTI127_6
	.long	.LBB127_9-.LJTI127_6
.LJTI127_7:
	.long	.LBB127_12-.LJTI127_7
	.long	.LBB127_11-.LJTI127_7
	.long	.LBB127_12-.LJTI127_7
	.long	.LBB127_11-.LJTI127_7
.LJTI127_8:
	.long	.LBB127_28-.LJTI127_8
	.long	.LBB127_25-.LJTI127_8
	.long	.LBB127_26-.LJTI127_8
	.long	.LBB127_27-.LJTI127_8

	.section	.text$153,"xr"
	.globl	dethrux_wtf8_encoder_finish_v3
	.p2align	4
dethrux_wtf8_encoder_finish_v3:
	pushq	%rbp
	pushq	%r15
	pushq	%r14
	pushq	%r12
	pushq	%rbx
	subq	$64, %rsp
	movq	%rcx, %rax
	movq	%rsi, %r14
	movq	%rdi, %rbx
	xorl	%ecx, %ecx
	testq	%rax, %rax
	sete	%cl
	shll	$12, %ecx
	addq	%rax, %rcx
	cmpl	$1, %edx
	jne	.LBB128_4
	movl	(%r14), %eax
	movl	3(%r14), %edx
	movl	%edx, 11(%rsp)
	movl	%eax, 8(%rsp)
	movzbl	14(%rsp), %eax
	cmpb	$6, %al
	movl	$6, %edx
	cmovbl	%eax, %edx
	movzbl	%dl, %r15d
	vxorps	%xmm0, %xmm0, %xmm0
	vmovups	%ymm0, 16(%rsp)
	leaq	16(%rsp), %rdi
	leaq	8(%rsp), %rsi
	movq	%r15, %rdx
	vzeroupper
	callq	L_73
	vmovaps	16(%rsp), %xmm0
	movzbl	32(%rsp), %r12d
	movzbl	33(%rsp), %ebp
	cmpb	$3, %r12b
	jne	.LBB128_3
	movq	16(%rsp), %rax
	leaq	(%rsp,%rax), %rsi
	addq	$8, %rsi
	subq	%rax, %r15
	movw	$0, 20(%rsp)
	movl	$0, 16(%rsp)
	leaq	16(%rsp), %rdi
	movq	%r15, %rdx
	vmovaps	%xmm0, 48(%rsp)
	callq	sysv_memcpy
	vmovaps	48(%rsp), %xmm0
	movzwl	20(%rsp), %eax
	movw	%ax, 4(%r14)
	movl	16(%rsp), %eax
	movl	%eax, (%r14)
	movb	%r15b, 6(%r14)
	movzbl	%r12b, %eax
	leaq	.LJTI128_0(%rip), %rcx
	movslq	(%rcx,%rax,4), %rdx
	addq	%rcx, %rdx
	movl	%eax, %ecx
	jmpq	*%rdx
.LBB128_4:
	movl	(%r14), %eax
	movl	3(%r14), %edx
	movl	%edx, 11(%rsp)
	movl	%eax, 8(%rsp)
	movzbl	14(%rsp), %eax
	cmpb	$6, %al
	movl	$6, %edx
	cmovbl	%eax, %edx
	movzbl	%dl, %r15d
	vxorps	%xmm0, %xmm0, %xmm0
	vmovups	%ymm0, 16(%rsp)
	leaq	16(%rsp), %rdi
	leaq	8(%rsp), %rsi
	movq	%r15, %rdx
	vzeroupper
	callq	L_74
	vmovaps	16(%rsp), %xmm0
	movzbl	32(%rsp), %r12d
	movzbl	33(%rsp), %ebp
	cmpb	$3, %r12b
	jne	.LBB128_6
	movq	16(%rsp), %rax
	leaq	(%rsp,%rax), %rsi
	addq	$8, %rsi
	subq	%rax, %r15
	movw	$0, 20(%rsp)
	movl	$0, 16(%rsp)
	leaq	16(%rsp), %rdi
	movq	%r15, %rdx
	vmovaps	%xmm0, 48(%rsp)
	callq	sysv_memcpy
	vmovaps	48(%rsp), %xmm0
	movzwl	20(%rsp), %eax
	movw	%ax, 4(%r14)
	movl	16(%rsp), %eax
	movl	%eax, (%r14)
	movb	%r15b, 6(%r14)
	movzbl	%r12b, %eax
	leaq	.LJTI128_0(%rip), %rcx
	movslq	(%rcx,%rax,4), %rdx
	addq	%rcx, %rdx
	movl	%eax, %ecx
	jmpq	*%rdx
.LBB128_3:
	movw	$0, 20(%rsp)
	movl	$0, 16(%rsp)
	xorl	%eax, %eax
	movzwl	20(%rsp), %ecx
	movw	%cx, 4(%r14)
	movl	16(%rsp), %ecx
	movl	%ecx, (%r14)
	movb	%al, 6(%r14)
	movzbl	%r12b, %eax
	leaq	.LJTI128_0(%rip), %rcx
	movslq	(%rcx,%rax,4), %rdx
	addq	%rcx, %rdx
	movl	%eax, %ecx
	jmpq	*%rdx
.LBB128_6:
	movw	$0, 20(%rsp)
	movl	$0, 16(%rsp)
	xorl	%eax, %eax
	movzwl	20(%rsp), %ecx
	movw	%cx, 4(%r14)
	movl	16(%rsp), %ecx
	movl	%ecx, (%r14)
	movb	%al, 6(%r14)
	movzbl	%r12b, %eax
	leaq	.LJTI128_0(%rip), %rcx
	movslq	(%rcx,%rax,4), %rdx
	addq	%rcx, %rdx
	movl	%eax, %ecx
	jmpq	*%rdx
.LBB128_7:
	movzbl	%bpl, %ecx
	movl	$1, %eax
	jmp	.LBB128_10
.LBB128_8:
	xorl	%ecx, %ecx
	movl	$2, %eax
	jmp	.LBB128_10
.LBB128_9:
	xorl	%ecx, %ecx
	movl	$3, %eax
.LBB128_10:
	vmovups	%xmm0, (%rbx)
	movl	%eax, 16(%rbx)
	movl	%ecx, 20(%rbx)
	movq	%rbx, %rax
	addq	$64, %rsp
	popq	%rbx
	popq	%r12
	popq	%r14
	popq	%r15
	popq	%rbp
	retq
.Lfunc_end128:
	.section	.rdata$154,"dr"
	.p2align	2, 0x0
.LJTI128_0:
	.long	.LBB128_10-.LJTI128_0
	.long	.LBB128_7-.LJTI128_0
	.long	.LBB128_8-.LJTI128_0
	.long	.LBB128_9-.LJTI128_0

	.section	.rdata$000,"dr"
	.p2align	4, 0x0
.LCPI129_0:
	.zero	16,248
.LCPI129_1:
	.zero	16,216
.LCPI129_2:
	.byte	1
	.byte	3
	.byte	5
	.byte	7
	.byte	9
	.byte	11
	.byte	13
	.byte	15
	.zero	1
	.zero	1
	.zero	1
	.zero	1
	.zero	1
	.zero	1
	.zero	1
	.zero	1
.LCPI129_3:
	.byte	1
	.byte	3
	.byte	5
	.byte	7
	.zero	1
	.zero	1
	.zero	1
	.zero	1
	.zero	1
	.zero	1
	.zero	1
	.zero	1
	.zero	1
	.zero	1
	.zero	1
	.zero	1
.LCPI129_4:
	.byte	248
	.byte	248
	.byte	248
	.byte	248
	.zero	1
	.zero	1
	.zero	1
	.zero	1
	.zero	1
	.zero	1
	.zero	1
	.zero	1
	.zero	1
	.zero	1
	.zero	1
	.zero	1
.LCPI129_5:
	.byte	216
	.byte	216
	.byte	216
	.byte	216
	.zero	1
	.zero	1
	.zero	1
	.zero	1
	.zero	1
	.zero	1
	.zero	1
	.zero	1
	.zero	1
	.zero	1
	.zero	1
	.zero	1
.LCPI129_7:
	.byte	0
	.byte	2
	.byte	4
	.byte	6
	.byte	8
	.byte	10
	.byte	12
	.byte	14
	.zero	1
	.zero	1
	.zero	1
	.zero	1
	.zero	1
	.zero	1
	.zero	1
	.zero	1
.LCPI129_8:
	.byte	0
	.byte	2
	.byte	4
	.byte	6
	.zero	1
	.zero	1
	.zero	1
	.zero	1
	.zero	1
	.zero	1
	.zero	1
	.zero	1
	.zero	1
	.zero	1
	.zero	1
	.zero	1
	.section	.rdata$003,"dr"
	.p2align	5, 0x0
.LCPI129_6:
	.short	255
	.short	255
	.short	255
	.short	255
	.short	255
	.short	255
	.short	255
	.short	255
	.short	255
	.short	255
	.short	255
	.short	255
	.short	255
	.short	255
	.short	255
	.short	255
	.section	.text$155,"xr"
	.globl	dethrux_validate_v3
	.p2align	4
dethrux_validate_v3:
	subq	$24, %rsp
	movq	%rsi, %rax
	xorl	%esi, %esi
	testq	%rax, %rax
	sete	%sil
	shll	$12, %esi
	addq	%rax, %rsi
	vpxor	%xmm0, %xmm0, %xmm0
	cmpl	$1, %edi
	jne	.LBB129_23
	vmovdqa	%xmm0, (%rsp)
	cmpq	$2, %rdx
	jne	.LBB129_4
	movzbl	(%rsi), %eax
.LBB129_3:
	andb	$-8, %al
	cmpb	$-40, %al
	jne	.LBB129_46
	jmp	.LBB129_20
.LBB129_23:
	vmovdqa	%xmm0, (%rsp)
	cmpq	$2, %rdx
	jne	.LBB129_26
	movzbl	1(%rsi), %eax
.LBB129_25:
	andb	$-8, %al
	cmpb	$-40, %al
	jne	.LBB129_46
	jmp	.LBB129_44
.LBB129_4:
	cmpq	$7, %rdx
	ja	.LBB129_13
	testq	%rdx, %rdx
	je	.LBB129_46
	cmpq	$6, %rdx
	je	.LBB129_10
	cmpq	$4, %rdx
	jne	.LBB129_20
	movzbl	(%rsi), %eax
	andb	$-8, %al
	cmpb	$-40, %al
	je	.LBB129_20
	movzbl	2(%rsi), %eax
	jmp	.LBB129_3
.LBB129_26:
	cmpq	$7, %rdx
	ja	.LBB129_35
	testq	%rdx, %rdx
	je	.LBB129_46
	cmpq	$6, %rdx
	je	.LBB129_32
	cmpq	$4, %rdx
	jne	.LBB129_44
	movzbl	1(%rsi), %eax
	andb	$-8, %al
	cmpb	$-40, %al
	je	.LBB129_44
	movzbl	3(%rsi), %eax
	jmp	.LBB129_25
.LBB129_13:
	cmpq	$65, %rdx
	setae	%al
	movl	%edx, %ecx
	orb	%al, %cl
	testb	$1, %cl
	jne	.LBB129_20
	cmpq	$15, %rdx
	ja	.LBB129_17
	vmovq	(%rsi), %xmm0
	vpshufb	.LCPI129_8(%rip), %xmm0, %xmm0
	vpand	.LCPI129_4(%rip), %xmm0, %xmm0
	vpcmpeqb	.LCPI129_5(%rip), %xmm0, %xmm0
	vpmovsxbd	%xmm0, %xmm0
	vtestps	%xmm0, %xmm0
	jne	.LBB129_20
	vmovq	-8(%rsi,%rdx), %xmm0
	vpshufb	.LCPI129_8(%rip), %xmm0, %xmm0
	vpand	.LCPI129_4(%rip), %xmm0, %xmm0
	vpcmpeqb	.LCPI129_5(%rip), %xmm0, %xmm0
	vpmovsxbd	%xmm0, %xmm0
	vtestps	%xmm0, %xmm0
	jne	.LBB129_20
	jmp	.LBB129_46
.LBB129_35:
	cmpq	$65, %rdx
	setae	%al
	movl	%edx, %ecx
	orb	%al, %cl
	testb	$1, %cl
	jne	.LBB129_44
	cmpq	$15, %rdx
	ja	.LBB129_39
	vmovq	(%rsi), %xmm0
	vpshufb	.LCPI129_3(%rip), %xmm0, %xmm0
	vpand	.LCPI129_4(%rip), %xmm0, %xmm0
	vpcmpeqb	.LCPI129_5(%rip), %xmm0, %xmm0
	vpmovsxbd	%xmm0, %xmm0
	vtestps	%xmm0, %xmm0
	jne	.LBB129_44
	vmovq	-8(%rsi,%rdx), %xmm0
	vpshufb	.LCPI129_3(%rip), %xmm0, %xmm0
	vpand	.LCPI129_4(%rip), %xmm0, %xmm0
	vpcmpeqb	.LCPI129_5(%rip), %xmm0, %xmm0
	vpmovsxbd	%xmm0, %xmm0
	vtestps	%xmm0, %xmm0
	jne	.LBB129_44
	jmp	.LBB129_46
.LBB129_10:
	movzbl	(%rsi), %eax
	andb	$-8, %al
	cmpb	$-40, %al
	je	.LBB129_20
	movzbl	2(%rsi), %eax
	andb	$-8, %al
	cmpb	$-40, %al
	je	.LBB129_20
	movzbl	4(%rsi), %eax
	jmp	.LBB129_3
.LBB129_32:
	movzbl	1(%rsi), %eax
	andb	$-8, %al
	cmpb	$-40, %al
	je	.LBB129_44
	movzbl	3(%rsi), %eax
	andb	$-8, %al
	cmpb	$-40, %al
	je	.LBB129_44
	movzbl	5(%rsi), %eax
	jmp	.LBB129_25
.LBB129_17:
	cmpq	$31, %rdx
	ja	.LBB129_21
	vmovdqu	(%rsi), %xmm0
	vpshufb	.LCPI129_7(%rip), %xmm0, %xmm0
	vpand	.LCPI129_0(%rip), %xmm0, %xmm0
	vpcmpeqb	.LCPI129_1(%rip), %xmm0, %xmm0
	vpmovmskb	%xmm0, %eax
	testb	%al, %al
	jne	.LBB129_20
	vmovdqu	-16(%rsi,%rdx), %xmm0
	vpshufb	.LCPI129_7(%rip), %xmm0, %xmm0
	vpand	.LCPI129_0(%rip), %xmm0, %xmm0
	vpcmpeqb	.LCPI129_1(%rip), %xmm0, %xmm0
	vpmovmskb	%xmm0, %eax
	testb	%al, %al
	jne	.LBB129_20
	jmp	.LBB129_46
.LBB129_39:
	cmpq	$31, %rdx
	ja	.LBB129_42
	vmovdqu	(%rsi), %xmm0
	vpshufb	.LCPI129_2(%rip), %xmm0, %xmm0
	vpand	.LCPI129_0(%rip), %xmm0, %xmm0
	vpcmpeqb	.LCPI129_1(%rip), %xmm0, %xmm0
	vpmovmskb	%xmm0, %eax
	testb	%al, %al
	jne	.LBB129_44
	vmovdqu	-16(%rsi,%rdx), %xmm0
	vpshufb	.LCPI129_2(%rip), %xmm0, %xmm0
	vpand	.LCPI129_0(%rip), %xmm0, %xmm0
	vpcmpeqb	.LCPI129_1(%rip), %xmm0, %xmm0
	vpmovmskb	%xmm0, %eax
	testb	%al, %al
	jne	.LBB129_44
	jmp	.LBB129_46
.LBB129_21:
	vmovdqu	(%rsi), %ymm0
	vpand	.LCPI129_6(%rip), %ymm0, %ymm0
	vextracti128	$1, %ymm0, %xmm1
	vpackuswb	%xmm1, %xmm0, %xmm0
	vpand	.LCPI129_0(%rip), %xmm0, %xmm0
	vpcmpeqb	.LCPI129_1(%rip), %xmm0, %xmm0
	vpmovmskb	%xmm0, %eax
	testl	%eax, %eax
	jne	.LBB129_20
	vmovdqu	-32(%rsi,%rdx), %ymm0
	vpand	.LCPI129_6(%rip), %ymm0, %ymm0
	vextracti128	$1, %ymm0, %xmm1
	vpackuswb	%xmm1, %xmm0, %xmm0
	vpand	.LCPI129_0(%rip), %xmm0, %xmm0
	vpcmpeqb	.LCPI129_1(%rip), %xmm0, %xmm0
	vpmovmskb	%xmm0, %eax
	testl	%eax, %eax
	je	.LBB129_46
.LBB129_20:
	movq	%rsp, %rdi
	vzeroupper
	callq	L_79
	jmp	.LBB129_45
.LBB129_42:
	vmovdqu	(%rsi), %ymm0
	vpsrlw	$8, %ymm0, %ymm0
	vextracti128	$1, %ymm0, %xmm1
	vpackuswb	%xmm1, %xmm0, %xmm0
	vpand	.LCPI129_0(%rip), %xmm0, %xmm0
	vpcmpeqb	.LCPI129_1(%rip), %xmm0, %xmm0
	vpmovmskb	%xmm0, %eax
	testl	%eax, %eax
	jne	.LBB129_44
	vmovdqu	-32(%rsi,%rdx), %ymm0
	vpsrlw	$8, %ymm0, %ymm0
	vextracti128	$1, %ymm0, %xmm1
	vpackuswb	%xmm1, %xmm0, %xmm0
	vpand	.LCPI129_0(%rip), %xmm0, %xmm0
	vpcmpeqb	.LCPI129_1(%rip), %xmm0, %xmm0
	vpmovmskb	%xmm0, %eax
	testl	%eax, %eax
	je	.LBB129_46
.LBB129_44:
	movq	%rsp, %rdi
	vzeroupper
	callq	L_80
.LBB129_45:
	movq	(%rsp), %rdx
.LBB129_46:
	movq	8(%rsp), %rcx
	movq	%rdx, %rax
	movq	%rcx, %rdx
	addq	$24, %rsp
	vzeroupper
	retq
.Lfunc_end129:

	.section	.text$156,"xr"
	.globl	dethrux_detect_bom_v3
	.p2align	4
dethrux_detect_bom_v3:
	cmpq	$1, %rdx
	ja	.LBB130_2
	cmpl	$1, %edi
	sete	%cl
	movabsq	$8589934592, %rsi
	xorl	%eax, %eax
	movzbl	%cl, %edx
	orq	%rsi, %rdx
	retq
.LBB130_2:
	xorl	%ecx, %ecx
	testq	%rsi, %rsi
	sete	%cl
	shll	$12, %ecx
	movzbl	(%rsi,%rcx), %eax
	movzbl	1(%rsi,%rcx), %ecx
	cmpl	$255, %eax
	je	.LBB130_7
	cmpl	$254, %eax
	jne	.LBB130_5
	cmpb	$-1, %cl
	je	.LBB130_8
.LBB130_5:
	cmpl	$1, %edi
	sete	%cl
	xorl	%esi, %esi
	xorl	%eax, %eax
	movzbl	%cl, %edx
	orq	%rsi, %rdx
	retq
.LBB130_7:
	cmpb	$-2, %cl
	jne	.LBB130_5
.LBB130_8:
	cmpb	$-1, %al
	setne	%cl
	movl	$2, %eax
	movabsq	$4294967296, %rsi
	movzbl	%cl, %edx
	orq	%rsi, %rdx
	retq
.Lfunc_end130:

	.section	.rdata$157,"dr"
.Lstatic.1:
	.ascii	"\000\001\002\003\004\005\006\007\000\000\000\000\000\000\000\000\000\001\002\003\004\005\006\007\017\000\000\000\000\000\000\000\000\001\002\003\004\005\006\007\016\017\000\000\000\000\000\000\000\001\002\003\004\005\006\007\r\016\017\000\000\000\000\000\000\001\002\003\004\005\006\007\f\r\016\017\000\000\000\000\000\001\002\003\004\005\006\007\013\f\r\016\017\000\000\000\000\001\002\003\004\005\006\007\n\013\f\r\016\017\000\000\000\001\002\003\004\005\006\007\t\n\013\f\r\016\017\000\000\001\002\003\004\005\006\007\b\t\n\013\f\r\016\017"

	.section	.rdata$003,"dr"
.Lstatic.2:
	.ascii	"\000\000\000\000\000\000\000\000\000\000\000\000\000\000\000\000\377\377\377\377\377\377\377\377\377\377\377\377\377\377\377\377"

	.section	.rdata$158,"dr"
.Lstatic.3:
	.ascii	"743210/.-g\362BC\345,+*)('&%$#\"!8 \037\036\035\034\377\224\244\225\210\240\233\255\335\336\206z\350\312\327\340\320\334\314\273\267\263\261\250\262\310\342\303\232\270\256~x\277\235\302\252\275\242\241\226\301\216\211\253\260\271\247\272p\257\300\274\234\214\217{\205\200\223\212\222r\337\227\371\330\356\354\375\343\332\346\367\207\264\361\351\366\364\347\213\365\363\373\353\311\304\360\326\230\266\315\265\177\033\324\323\322\325\344\305\251\237\203\254iPb`aQ\317\221ts\220\202\231yk\204mn|oRlv\215q\201w}\245u\\jSHc]AO\246\355\243\307\276\341\321\313\306\331\333\316\352\370\236\357\377\377\377\377\377\377\377\377\377\377\377\377\377\377\377\377\377\377\377\377\377\377\377\377\377\377\377\377\377\377\377\377\377\377\377\377\377\377\377\377\377\377\377\377\377\377\377\377\377\377\377\377\377\377\377\377\377\377\377\377\377\377\377\377"

	.section	.rdata$159,"dr"
.Lstatic.6:
	.asciz	"\000\001\002\003\004\005\006\007\b\t\n\013\f\r\016\017\000\002\003\004\005\006\007\b\t\n\013\f\r\016\017\000\000\001\002\004\005\006\007\b\t\n\013\f\r\016\017\000\000\002\004\005\006\007\b\t\n\013\f\r\016\017\000\000\000\001\002\003\004\006\007\b\t\n\013\f\r\016\017\000\000\002\003\004\006\007\b\t\n\013\f\r\016\017\000\000\000\001\002\004\006\007\b\t\n\013\f\r\016\017\000\000\000\002\004\006\007\b\t\n\013\f\r\016\017\000\000\000\000\001\002\003\004\005\006\b\t\n\013\f\r\016\017\000\000\002\003\004\005\006\b\t\n\013\f\r\016\017\000\000\000\001\002\004\005\006\b\t\n\013\f\r\016\017\000\000\000\002\004\005\006\b\t\n\013\f\r\016\017\000\000\000\000\001\002\003\004\006\b\t\n\013\f\r\016\017\000\000\000\002\003\004\006\b\t\n\013\f\r\016\017\000\000\000\000\001\002\004\006\b\t\n\013\f\r\016\017\000\000\000\000\002\004\006\b\t\n\013\f\r\016\017\000\000\000\000\000\001\002\003\004\005\006\007\b\n\013\f\r\016\017\000\000\002\003\004\005\006\007\b\n\013\f\r\016\017\000\000\000\001\002\004\005\006\007\b\n\013\f\r\016\017\000\000\000\002\004\005\006\007\b\n\013\f\r\016\017\000\000\000\000\001\002\003\004\006\007\b\n\013\f\r\016\017\000\000\000\002\003\004\006\007\b\n\013\f\r\016\017\000\000\000\000\001\002\004\006\007\b\n\013\f\r\016\017\000\000\000\000\002\004\006\007\b\n\013\f\r\016\017\000\000\000\000\000\001\002\003\004\005\006\b\n\013\f\r\016\017\000\000\000\002\003\004\005\006\b\n\013\f\r\016\017\000\000\000\000\001\002\004\005\006\b\n\013\f\r\016\017\000\000\000\000\002\004\005\006\b\n\013\f\r\016\017\000\000\000\000\000\001\002\003\004\006\b\n\013\f\r\016\017\000\000\000\000\002\003\004\006\b\n\013\f\r\016\017\000\000\000\000\000\001\002\004\006\b\n\013\f\r\016\017\000\000\000\000\000\002\004\006\b\n\013\f\r\016\017\000\000\000\000\000\000\001\002\003\004\005\006\007\b\t\n\f\r\016\017\000\000\002\003\004\005\006\007\b\t\n\f\r\016\017\000\000\000\001\002\004\005\006\007\b\t\n\f\r\016\017\000\000\000\002\004\005\006\007\b\t\n\f\r\016\017\000\000\000\000\001\002\003\004\006\007\b\t\n\f\r\016\017\000\000\000\002\003\004\006\007\b\t\n\f\r\016\017\000\000\000\000\001\002\004\006\007\b\t\n\f\r\016\017\000\000\000\000\002\004\006\007\b\t\n\f\r\016\017\000\000\000\000\000\001\002\003\004\005\006\b\t\n\f\r\016\017\000\000\000\002\003\004\005\006\b\t\n\f\r\016\017\000\000\000\000\001\002\004\005\006\b\t\n\f\r\016\017\000\000\000\000\002\004\005\006\b\t\n\f\r\016\017\000\000\000\000\000\001\002\003\004\006\b\t\n\f\r\016\017\000\000\000\000\002\003\004\006\b\t\n\f\r\016\017\000\000\000\000\000\001\002\004\006\b\t\n\f\r\016\017\000\000\000\000\000\002\004\006\b\t\n\f\r\016\017\000\000\000\000\000\000\001\002\003\004\005\006\007\b\n\f\r\016\017\000\000\000\002\003\004\005\006\007\b\n\f\r\016\017\000\000\000\000\001\002\004\005\006\007\b\n\f\r\016\017\000\000\000\000\002\004\005\006\007\b\n\f\r\016\017\000\000\000\000\000\001\002\003\004\006\007\b\n\f\r\016\017\000\000\000\000\002\003\004\006\007\b\n\f\r\016\017\000\000\000\000\000\001\002\004\006\007\b\n\f\r\016\017\000\000\000\000\000\002\004\006\007\b\n\f\r\016\017\000\000\000\000\000\000\001\002\003\004\005\006\b\n\f\r\016\017\000\000\000\000\002\003\004\005\006\b\n\f\r\016\017\000\000\000\000\000\001\002\004\005\006\b\n\f\r\016\017\000\000\000\000\000\002\004\005\006\b\n\f\r\016\017\000\000\000\000\000\000\001\002\003\004\006\b\n\f\r\016\017\000\000\000\000\000\002\003\004\006\b\n\f\r\016\017\000\000\000\000\000\000\001\002\004\006\b\n\f\r\016\017\000\000\000\000\000\000\002\004\006\b\n\f\r\016\017\000\000\000\000\000\000\000\001\002\003\004\005\006\007\b\t\n\013\f\016\017\000\000\002\003\004\005\006\007\b\t\n\013\f\016\017\000\000\000\001\002\004\005\006\007\b\t\n\013\f\016\017\000\000\000\002\004\005\006\007\b\t\n\013\f\016\017\000\000\000\000\001\002\003\004\006\007\b\t\n\013\f\016\017\000\000\000\002\003\004\006\007\b\t\n\013\f\016\017\000\000\000\000\001\002\004\006\007\b\t\n\013\f\016\017\000\000\000\000\002\004\006\007\b\t\n\013\f\016\017\000\000\000\000\000\001\002\003\004\005\006\b\t\n\013\f\016\017\000\000\000\002\003\004\005\006\b\t\n\013\f\016\017\000\000\000\000\001\002\004\005\006\b\t\n\013\f\016\017\000\000\000\000\002\004\005\006\b\t\n\013\f\016\017\000\000\000\000\000\001\002\003\004\006\b\t\n\013\f\016\017\000\000\000\000\002\003\004\006\b\t\n\013\f\016\017\000\000\000\000\000\001\002\004\006\b\t\n\013\f\016\017\000\000\000\000\000\002\004\006\b\t\n\013\f\016\017\000\000\000\000\000\000\001\002\003\004\005\006\007\b\n\013\f\016\017\000\000\000\002\003\004\005\006\007\b\n\013\f\016\017\000\000\000\000\001\002\004\005\006\007\b\n\013\f\016\017\000\000\000\000\002\004\005\006\007\b\n\013\f\016\017\000\000\000\000\000\001\002\003\004\006\007\b\n\013\f\016\017\000\000\000\000\002\003\004\006\007\b\n\013\f\016\017\000\000\000\000\000\001\002\004\006\007\b\n\013\f\016\017\000\000\000\000\000\002\004\006\007\b\n\013\f\016\017\000\000\000\000\000\000\001\002\003\004\005\006\b\n\013\f\016\017\000\000\000\000\002\003\004\005\006\b\n\013\f\016\017\000\000\000\000\000\001\002\004\005\006\b\n\013\f\016\017\000\000\000\000\000\002\004\005\006\b\n\013\f\016\017\000\000\000\000\000\000\001\002\003\004\006\b\n\013\f\016\017\000\000\000\000\000\002\003\004\006\b\n\013\f\016\017\000\000\000\000\000\000\001\002\004\006\b\n\013\f\016\017\000\000\000\000\000\000\002\004\006\b\n\013\f\016\017\000\000\000\000\000\000\000\001\002\003\004\005\006\007\b\t\n\f\016\017\000\000\000\002\003\004\005\006\007\b\t\n\f\016\017\000\000\000\000\001\002\004\005\006\007\b\t\n\f\016\017\000\000\000\000\002\004\005\006\007\b\t\n\f\016\017\000\000\000\000\000\001\002\003\004\006\007\b\t\n\f\016\017\000\000\000\000\002\003\004\006\007\b\t\n\f\016\017\000\000\000\000\000\001\002\004\006\007\b\t\n\f\016\017\000\000\000\000\000\002\004\006\007\b\t\n\f\016\017\000\000\000\000\000\000\001\002\003\004\005\006\b\t\n\f\016\017\000\000\000\000\002\003\004\005\006\b\t\n\f\016\017\000\000\000\000\000\001\002\004\005\006\b\t\n\f\016\017\000\000\000\000\000\002\004\005\006\b\t\n\f\016\017\000\000\000\000\000\000\001\002\003\004\006\b\t\n\f\016\017\000\000\000\000\000\002\003\004\006\b\t\n\f\016\017\000\000\000\000\000\000\001\002\004\006\b\t\n\f\016\017\000\000\000\000\000\000\002\004\006\b\t\n\f\016\017\000\000\000\000\000\000\000\001\002\003\004\005\006\007\b\n\f\016\017\000\000\000\000\002\003\004\005\006\007\b\n\f\016\017\000\000\000\000\000\001\002\004\005\006\007\b\n\f\016\017\000\000\000\000\000\002\004\005\006\007\b\n\f\016\017\000\000\000\000\000\000\001\002\003\004\006\007\b\n\f\016\017\000\000\000\000\000\002\003\004\006\007\b\n\f\016\017\000\000\000\000\000\000\001\002\004\006\007\b\n\f\016\017\000\000\000\000\000\000\002\004\006\007\b\n\f\016\017\000\000\000\000\000\000\000\001\002\003\004\005\006\b\n\f\016\017\000\000\000\000\000\002\003\004\005\006\b\n\f\016\017\000\000\000\000\000\000\001\002\004\005\006\b\n\f\016\017\000\000\000\000\000\000\002\004\005\006\b\n\f\016\017\000\000\000\000\000\000\000\001\002\003\004\006\b\n\f\016\017\000\000\000\000\000\000\002\003\004\006\b\n\f\016\017\000\000\000\000\000\000\000\001\002\004\006\b\n\f\016\017\000\000\000\000\000\000\000\002\004\006\b\n\f\016\017\000\000\000\000\000\000\000\000\001\002\003\004\005\006\007\b\t\n\013\f\r\016\000\000\002\003\004\005\006\007\b\t\n\013\f\r\016\000\000\000\001\002\004\005\006\007\b\t\n\013\f\r\016\000\000\000\002\004\005\006\007\b\t\n\013\f\r\016\000\000\000\000\001\002\003\004\006\007\b\t\n\013\f\r\016\000\000\000\002\003\004\006\007\b\t\n\013\f\r\016\000\000\000\000\001\002\004\006\007\b\t\n\013\f\r\016\000\000\000\000\002\004\006\007\b\t\n\013\f\r\016\000\000\000\000\000\001\002\003\004\005\006\b\t\n\013\f\r\016\000\000\000\002\003\004\005\006\b\t\n\013\f\r\016\000\000\000\000\001\002\004\005\006\b\t\n\013\f\r\016\000\000\000\000\002\004\005\006\b\t\n\013\f\r\016\000\000\000\000\000\001\002\003\004\006\b\t\n\013\f\r\016\000\000\000\000\002\003\004\006\b\t\n\013\f\r\016\000\000\000\000\000\001\002\004\006\b\t\n\013\f\r\016\000\000\000\000\000\002\004\006\b\t\n\013\f\r\016\000\000\000\000\000\000\001\002\003\004\005\006\007\b\n\013\f\r\016\000\000\000\002\003\004\005\006\007\b\n\013\f\r\016\000\000\000\000\001\002\004\005\006\007\b\n\013\f\r\016\000\000\000\000\002\004\005\006\007\b\n\013\f\r\016\000\000\000\000\000\001\002\003\004\006\007\b\n\013\f\r\016\000\000\000\000\002\003\004\006\007\b\n\013\f\r\016\000\000\000\000\000\001\002\004\006\007\b\n\013\f\r\016\000\000\000\000\000\002\004\006\007\b\n\013\f\r\016\000\000\000\000\000\000\001\002\003\004\005\006\b\n\013\f\r\016\000\000\000\000\002\003\004\005\006\b\n\013\f\r\016\000\000\000\000\000\001\002\004\005\006\b\n\013\f\r\016\000\000\000\000\000\002\004\005\006\b\n\013\f\r\016\000\000\000\000\000\000\001\002\003\004\006\b\n\013\f\r\016\000\000\000\000\000\002\003\004\006\b\n\013\f\r\016\000\000\000\000\000\000\001\002\004\006\b\n\013\f\r\016\000\000\000\000\000\000\002\004\006\b\n\013\f\r\016\000\000\000\000\000\000\000\001\002\003\004\005\006\007\b\t\n\f\r\016\000\000\000\002\003\004\005\006\007\b\t\n\f\r\016\000\000\000\000\001\002\004\005\006\007\b\t\n\f\r\016\000\000\000\000\002\004\005\006\007\b\t\n\f\r\016\000\000\000\000\000\001\002\003\004\006\007\b\t\n\f\r\016\000\000\000\000\002\003\004\006\007\b\t\n\f\r\016\000\000\000\000\000\001\002\004\006\007\b\t\n\f\r\016\000\000\000\000\000\002\004\006\007\b\t\n\f\r\016\000\000\000\000\000\000\001\002\003\004\005\006\b\t\n\f\r\016\000\000\000\000\002\003\004\005\006\b\t\n\f\r\016\000\000\000\000\000\001\002\004\005\006\b\t\n\f\r\016\000\000\000\000\000\002\004\005\006\b\t\n\f\r\016\000\000\000\000\000\000\001\002\003\004\006\b\t\n\f\r\016\000\000\000\000\000\002\003\004\006\b\t\n\f\r\016\000\000\000\000\000\000\001\002\004\006\b\t\n\f\r\016\000\000\000\000\000\000\002\004\006\b\t\n\f\r\016\000\000\000\000\000\000\000\001\002\003\004\005\006\007\b\n\f\r\016\000\000\000\000\002\003\004\005\006\007\b\n\f\r\016\000\000\000\000\000\001\002\004\005\006\007\b\n\f\r\016\000\000\000\000\000\002\004\005\006\007\b\n\f\r\016\000\000\000\000\000\000\001\002\003\004\006\007\b\n\f\r\016\000\000\000\000\000\002\003\004\006\007\b\n\f\r\016\000\000\000\000\000\000\001\002\004\006\007\b\n\f\r\016\000\000\000\000\000\000\002\004\006\007\b\n\f\r\016\000\000\000\000\000\000\000\001\002\003\004\005\006\b\n\f\r\016\000\000\000\000\000\002\003\004\005\006\b\n\f\r\016\000\000\000\000\000\000\001\002\004\005\006\b\n\f\r\016\000\000\000\000\000\000\002\004\005\006\b\n\f\r\016\000\000\000\000\000\000\000\001\002\003\004\006\b\n\f\r\016\000\000\000\000\000\000\002\003\004\006\b\n\f\r\016\000\000\000\000\000\000\000\001\002\004\006\b\n\f\r\016\000\000\000\000\000\000\000\002\004\006\b\n\f\r\016\000\000\000\000\000\000\000\000\001\002\003\004\005\006\007\b\t\n\013\f\016\000\000\000\002\003\004\005\006\007\b\t\n\013\f\016\000\000\000\000\001\002\004\005\006\007\b\t\n\013\f\016\000\000\000\000\002\004\005\006\007\b\t\n\013\f\016\000\000\000\000\000\001\002\003\004\006\007\b\t\n\013\f\016\000\000\000\000\002\003\004\006\007\b\t\n\013\f\016\000\000\000\000\000\001\002\004\006\007\b\t\n\013\f\016\000\000\000\000\000\002\004\006\007\b\t\n\013\f\016\000\000\000\000\000\000\001\002\003\004\005\006\b\t\n\013\f\016\000\000\000\000\002\003\004\005\006\b\t\n\013\f\016\000\000\000\000\000\001\002\004\005\006\b\t\n\013\f\016\000\000\000\000\000\002\004\005\006\b\t\n\013\f\016\000\000\000\000\000\000\001\002\003\004\006\b\t\n\013\f\016\000\000\000\000\000\002\003\004\006\b\t\n\013\f\016\000\000\000\000\000\000\001\002\004\006\b\t\n\013\f\016\000\000\000\000\000\000\002\004\006\b\t\n\013\f\016\000\000\000\000\000\000\000\001\002\003\004\005\006\007\b\n\013\f\016\000\000\000\000\002\003\004\005\006\007\b\n\013\f\016\000\000\000\000\000\001\002\004\005\006\007\b\n\013\f\016\000\000\000\000\000\002\004\005\006\007\b\n\013\f\016\000\000\000\000\000\000\001\002\003\004\006\007\b\n\013\f\016\000\000\000\000\000\002\003\004\006\007\b\n\013\f\016\000\000\000\000\000\000\001\002\004\006\007\b\n\013\f\016\000\000\000\000\000\000\002\004\006\007\b\n\013\f\016\000\000\000\000\000\000\000\001\002\003\004\005\006\b\n\013\f\016\000\000\000\000\000\002\003\004\005\006\b\n\013\f\016\000\000\000\000\000\000\001\002\004\005\006\b\n\013\f\016\000\000\000\000\000\000\002\004\005\006\b\n\013\f\016\000\000\000\000\000\000\000\001\002\003\004\006\b\n\013\f\016\000\000\000\000\000\000\002\003\004\006\b\n\013\f\016\000\000\000\000\000\000\000\001\002\004\006\b\n\013\f\016\000\000\000\000\000\000\000\002\004\006\b\n\013\f\016\000\000\000\000\000\000\000\000\001\002\003\004\005\006\007\b\t\n\f\016\000\000\000\000\002\003\004\005\006\007\b\t\n\f\016\000\000\000\000\000\001\002\004\005\006\007\b\t\n\f\016\000\000\000\000\000\002\004\005\006\007\b\t\n\f\016\000\000\000\000\000\000\001\002\003\004\006\007\b\t\n\f\016\000\000\000\000\000\002\003\004\006\007\b\t\n\f\016\000\000\000\000\000\000\001\002\004\006\007\b\t\n\f\016\000\000\000\000\000\000\002\004\006\007\b\t\n\f\016\000\000\000\000\000\000\000\001\002\003\004\005\006\b\t\n\f\016\000\000\000\000\000\002\003\004\005\006\b\t\n\f\016\000\000\000\000\000\000\001\002\004\005\006\b\t\n\f\016\000\000\000\000\000\000\002\004\005\006\b\t\n\f\016\000\000\000\000\000\000\000\001\002\003\004\006\b\t\n\f\016\000\000\000\000\000\000\002\003\004\006\b\t\n\f\016\000\000\000\000\000\000\000\001\002\004\006\b\t\n\f\016\000\000\000\000\000\000\000\002\004\006\b\t\n\f\016\000\000\000\000\000\000\000\000\001\002\003\004\005\006\007\b\n\f\016\000\000\000\000\000\002\003\004\005\006\007\b\n\f\016\000\000\000\000\000\000\001\002\004\005\006\007\b\n\f\016\000\000\000\000\000\000\002\004\005\006\007\b\n\f\016\000\000\000\000\000\000\000\001\002\003\004\006\007\b\n\f\016\000\000\000\000\000\000\002\003\004\006\007\b\n\f\016\000\000\000\000\000\000\000\001\002\004\006\007\b\n\f\016\000\000\000\000\000\000\000\002\004\006\007\b\n\f\016\000\000\000\000\000\000\000\000\001\002\003\004\005\006\b\n\f\016\000\000\000\000\000\000\002\003\004\005\006\b\n\f\016\000\000\000\000\000\000\000\001\002\004\005\006\b\n\f\016\000\000\000\000\000\000\000\002\004\005\006\b\n\f\016\000\000\000\000\000\000\000\000\001\002\003\004\006\b\n\f\016\000\000\000\000\000\000\000\002\003\004\006\b\n\f\016\000\000\000\000\000\000\000\000\001\002\004\006\b\n\f\016\000\000\000\000\000\000\000\000\002\004\006\b\n\f\016\000\000\000\000\000\000\000"

	.section	.rdata$160,"dr"
.Lstatic.7:
	.asciz	"\000\002\003\004\006\007\b\n\013\f\016\017\000\000\000\000\000\001\004\006\007\b\n\013\f\016\017\000\000\000\000\000\002\003\004\006\007\b\n\013\f\016\017\000\000\000\000\000\001\004\006\007\b\n\013\f\016\017\000\000\000\000\000\000\000\002\003\004\005\b\n\013\f\016\017\000\000\000\000\000\000\001\004\005\b\n\013\f\016\017\000\000\000\000\000\000\002\003\004\005\b\n\013\f\016\017\000\000\000\000\000\000\001\004\005\b\n\013\f\016\017\000\000\000\000\000\000\000\000\002\003\006\007\b\n\013\f\016\017\000\000\000\000\000\000\001\006\007\b\n\013\f\016\017\000\000\000\000\000\000\002\003\006\007\b\n\013\f\016\017\000\000\000\000\000\000\001\006\007\b\n\013\f\016\017\000\000\000\000\000\000\000\000\002\003\005\b\n\013\f\016\017\000\000\000\000\000\000\000\001\005\b\n\013\f\016\017\000\000\000\000\000\000\000\002\003\005\b\n\013\f\016\017\000\000\000\000\000\000\000\001\005\b\n\013\f\016\017\000\000\000\000\000\000\000\000\000\002\003\004\006\007\b\t\f\016\017\000\000\000\000\000\000\001\004\006\007\b\t\f\016\017\000\000\000\000\000\000\002\003\004\006\007\b\t\f\016\017\000\000\000\000\000\000\001\004\006\007\b\t\f\016\017\000\000\000\000\000\000\000\000\002\003\004\005\b\t\f\016\017\000\000\000\000\000\000\000\001\004\005\b\t\f\016\017\000\000\000\000\000\000\000\002\003\004\005\b\t\f\016\017\000\000\000\000\000\000\000\001\004\005\b\t\f\016\017\000\000\000\000\000\000\000\000\000\002\003\006\007\b\t\f\016\017\000\000\000\000\000\000\000\001\006\007\b\t\f\016\017\000\000\000\000\000\000\000\002\003\006\007\b\t\f\016\017\000\000\000\000\000\000\000\001\006\007\b\t\f\016\017\000\000\000\000\000\000\000\000\000\002\003\005\b\t\f\016\017\000\000\000\000\000\000\000\000\001\005\b\t\f\016\017\000\000\000\000\000\000\000\000\002\003\005\b\t\f\016\017\000\000\000\000\000\000\000\000\001\005\b\t\f\016\017\000\000\000\000\000\000\000\000\000\000\002\003\004\006\007\n\013\f\016\017\000\000\000\000\000\000\001\004\006\007\n\013\f\016\017\000\000\000\000\000\000\002\003\004\006\007\n\013\f\016\017\000\000\000\000\000\000\001\004\006\007\n\013\f\016\017\000\000\000\000\000\000\000\000\002\003\004\005\n\013\f\016\017\000\000\000\000\000\000\000\001\004\005\n\013\f\016\017\000\000\000\000\000\000\000\002\003\004\005\n\013\f\016\017\000\000\000\000\000\000\000\001\004\005\n\013\f\016\017\000\000\000\000\000\000\000\000\000\002\003\006\007\n\013\f\016\017\000\000\000\000\000\000\000\001\006\007\n\013\f\016\017\000\000\000\000\000\000\000\002\003\006\007\n\013\f\016\017\000\000\000\000\000\000\000\001\006\007\n\013\f\016\017\000\000\000\000\000\000\000\000\000\002\003\005\n\013\f\016\017\000\000\000\000\000\000\000\000\001\005\n\013\f\016\017\000\000\000\000\000\000\000\000\002\003\005\n\013\f\016\017\000\000\000\000\000\000\000\000\001\005\n\013\f\016\017\000\000\000\000\000\000\000\000\000\000\002\003\004\006\007\t\f\016\017\000\000\000\000\000\000\000\001\004\006\007\t\f\016\017\000\000\000\000\000\000\000\002\003\004\006\007\t\f\016\017\000\000\000\000\000\000\000\001\004\006\007\t\f\016\017\000\000\000\000\000\000\000\000\000\002\003\004\005\t\f\016\017\000\000\000\000\000\000\000\000\001\004\005\t\f\016\017\000\000\000\000\000\000\000\000\002\003\004\005\t\f\016\017\000\000\000\000\000\000\000\000\001\004\005\t\f\016\017\000\000\000\000\000\000\000\000\000\000\002\003\006\007\t\f\016\017\000\000\000\000\000\000\000\000\001\006\007\t\f\016\017\000\000\000\000\000\000\000\000\002\003\006\007\t\f\016\017\000\000\000\000\000\000\000\000\001\006\007\t\f\016\017\000\000\000\000\000\000\000\000\000\000\002\003\005\t\f\016\017\000\000\000\000\000\000\000\000\000\001\005\t\f\016\017\000\000\000\000\000\000\000\000\000\002\003\005\t\f\016\017\000\000\000\000\000\000\000\000\000\001\005\t\f\016\017\000\000\000\000\000\000\000\000\000\000\000\002\003\004\006\007\b\n\013\f\r\000\000\000\000\000\000\001\004\006\007\b\n\013\f\r\000\000\000\000\000\000\002\003\004\006\007\b\n\013\f\r\000\000\000\000\000\000\001\004\006\007\b\n\013\f\r\000\000\000\000\000\000\000\000\002\003\004\005\b\n\013\f\r\000\000\000\000\000\000\000\001\004\005\b\n\013\f\r\000\000\000\000\000\000\000\002\003\004\005\b\n\013\f\r\000\000\000\000\000\000\000\001\004\005\b\n\013\f\r\000\000\000\000\000\000\000\000\000\002\003\006\007\b\n\013\f\r\000\000\000\000\000\000\000\001\006\007\b\n\013\f\r\000\000\000\000\000\000\000\002\003\006\007\b\n\013\f\r\000\000\000\000\000\000\000\001\006\007\b\n\013\f\r\000\000\000\000\000\000\000\000\000\002\003\005\b\n\013\f\r\000\000\000\000\000\000\000\000\001\005\b\n\013\f\r\000\000\000\000\000\000\000\000\002\003\005\b\n\013\f\r\000\000\000\000\000\000\000\000\001\005\b\n\013\f\r\000\000\000\000\000\000\000\000\000\000\002\003\004\006\007\b\t\f\r\000\000\000\000\000\000\000\001\004\006\007\b\t\f\r\000\000\000\000\000\000\000\002\003\004\006\007\b\t\f\r\000\000\000\000\000\000\000\001\004\006\007\b\t\f\r\000\000\000\000\000\000\000\000\000\002\003\004\005\b\t\f\r\000\000\000\000\000\000\000\000\001\004\005\b\t\f\r\000\000\000\000\000\000\000\000\002\003\004\005\b\t\f\r\000\000\000\000\000\000\000\000\001\004\005\b\t\f\r\000\000\000\000\000\000\000\000\000\000\002\003\006\007\b\t\f\r\000\000\000\000\000\000\000\000\001\006\007\b\t\f\r\000\000\000\000\000\000\000\000\002\003\006\007\b\t\f\r\000\000\000\000\000\000\000\000\001\006\007\b\t\f\r\000\000\000\000\000\000\000\000\000\000\002\003\005\b\t\f\r\000\000\000\000\000\000\000\000\000\001\005\b\t\f\r\000\000\000\000\000\000\000\000\000\002\003\005\b\t\f\r\000\000\000\000\000\000\000\000\000\001\005\b\t\f\r\000\000\000\000\000\000\000\000\000\000\000\002\003\004\006\007\n\013\f\r\000\000\000\000\000\000\000\001\004\006\007\n\013\f\r\000\000\000\000\000\000\000\002\003\004\006\007\n\013\f\r\000\000\000\000\000\000\000\001\004\006\007\n\013\f\r\000\000\000\000\000\000\000\000\000\002\003\004\005\n\013\f\r\000\000\000\000\000\000\000\000\001\004\005\n\013\f\r\000\000\000\000\000\000\000\000\002\003\004\005\n\013\f\r\000\000\000\000\000\000\000\000\001\004\005\n\013\f\r\000\000\000\000\000\000\000\000\000\000\002\003\006\007\n\013\f\r\000\000\000\000\000\000\000\000\001\006\007\n\013\f\r\000\000\000\000\000\000\000\000\002\003\006\007\n\013\f\r\000\000\000\000\000\000\000\000\001\006\007\n\013\f\r\000\000\000\000\000\000\000\000\000\000\002\003\005\n\013\f\r\000\000\000\000\000\000\000\000\000\001\005\n\013\f\r\000\000\000\000\000\000\000\000\000\002\003\005\n\013\f\r\000\000\000\000\000\000\000\000\000\001\005\n\013\f\r\000\000\000\000\000\000\000\000\000\000\000\002\003\004\006\007\t\f\r\000\000\000\000\000\000\000\000\001\004\006\007\t\f\r\000\000\000\000\000\000\000\000\002\003\004\006\007\t\f\r\000\000\000\000\000\000\000\000\001\004\006\007\t\f\r\000\000\000\000\000\000\000\000\000\000\002\003\004\005\t\f\r\000\000\000\000\000\000\000\000\000\001\004\005\t\f\r\000\000\000\000\000\000\000\000\000\002\003\004\005\t\f\r\000\000\000\000\000\000\000\000\000\001\004\005\t\f\r\000\000\000\000\000\000\000\000\000\000\000\002\003\006\007\t\f\r\000\000\000\000\000\000\000\000\000\001\006\007\t\f\r\000\000\000\000\000\000\000\000\000\002\003\006\007\t\f\r\000\000\000\000\000\000\000\000\000\001\006\007\t\f\r\000\000\000\000\000\000\000\000\000\000\000\002\003\005\t\f\r\000\000\000\000\000\000\000\000\000\000\001\005\t\f\r\000\000\000\000\000\000\000\000\000\000\002\003\005\t\f\r\000\000\000\000\000\000\000\000\000\000\001\005\t\f\r\000\000\000\000\000\000\000\000\000\000\000\000\002\003\004\006\007\b\n\013\016\017\000\000\000\000\000\000\001\004\006\007\b\n\013\016\017\000\000\000\000\000\000\002\003\004\006\007\b\n\013\016\017\000\000\000\000\000\000\001\004\006\007\b\n\013\016\017\000\000\000\000\000\000\000\000\002\003\004\005\b\n\013\016\017\000\000\000\000\000\000\000\001\004\005\b\n\013\016\017\000\000\000\000\000\000\000\002\003\004\005\b\n\013\016\017\000\000\000\000\000\000\000\001\004\005\b\n\013\016\017\000\000\000\000\000\000\000\000\000\002\003\006\007\b\n\013\016\017\000\000\000\000\000\000\000\001\006\007\b\n\013\016\017\000\000\000\000\000\000\000\002\003\006\007\b\n\013\016\017\000\000\000\000\000\000\000\001\006\007\b\n\013\016\017\000\000\000\000\000\000\000\000\000\002\003\005\b\n\013\016\017\000\000\000\000\000\000\000\000\001\005\b\n\013\016\017\000\000\000\000\000\000\000\000\002\003\005\b\n\013\016\017\000\000\000\000\000\000\000\000\001\005\b\n\013\016\017\000\000\000\000\000\000\000\000\000\000\002\003\004\006\007\b\t\016\017\000\000\000\000\000\000\000\001\004\006\007\b\t\016\017\000\000\000\000\000\000\000\002\003\004\006\007\b\t\016\017\000\000\000\000\000\000\000\001\004\006\007\b\t\016\017\000\000\000\000\000\000\000\000\000\002\003\004\005\b\t\016\017\000\000\000\000\000\000\000\000\001\004\005\b\t\016\017\000\000\000\000\000\000\000\000\002\003\004\005\b\t\016\017\000\000\000\000\000\000\000\000\001\004\005\b\t\016\017\000\000\000\000\000\000\000\000\000\000\002\003\006\007\b\t\016\017\000\000\000\000\000\000\000\000\001\006\007\b\t\016\017\000\000\000\000\000\000\000\000\002\003\006\007\b\t\016\017\000\000\000\000\000\000\000\000\001\006\007\b\t\016\017\000\000\000\000\000\000\000\000\000\000\002\003\005\b\t\016\017\000\000\000\000\000\000\000\000\000\001\005\b\t\016\017\000\000\000\000\000\000\000\000\000\002\003\005\b\t\016\017\000\000\000\000\000\000\000\000\000\001\005\b\t\016\017\000\000\000\000\000\000\000\000\000\000\000\002\003\004\006\007\n\013\016\017\000\000\000\000\000\000\000\001\004\006\007\n\013\016\017\000\000\000\000\000\000\000\002\003\004\006\007\n\013\016\017\000\000\000\000\000\000\000\001\004\006\007\n\013\016\017\000\000\000\000\000\000\000\000\000\002\003\004\005\n\013\016\017\000\000\000\000\000\000\000\000\001\004\005\n\013\016\017\000\000\000\000\000\000\000\000\002\003\004\005\n\013\016\017\000\000\000\000\000\000\000\000\001\004\005\n\013\016\017\000\000\000\000\000\000\000\000\000\000\002\003\006\007\n\013\016\017\000\000\000\000\000\000\000\000\001\006\007\n\013\016\017\000\000\000\000\000\000\000\000\002\003\006\007\n\013\016\017\000\000\000\000\000\000\000\000\001\006\007\n\013\016\017\000\000\000\000\000\000\000\000\000\000\002\003\005\n\013\016\017\000\000\000\000\000\000\000\000\000\001\005\n\013\016\017\000\000\000\000\000\000\000\000\000\002\003\005\n\013\016\017\000\000\000\000\000\000\000\000\000\001\005\n\013\016\017\000\000\000\000\000\000\000\000\000\000\000\002\003\004\006\007\t\016\017\000\000\000\000\000\000\000\000\001\004\006\007\t\016\017\000\000\000\000\000\000\000\000\002\003\004\006\007\t\016\017\000\000\000\000\000\000\000\000\001\004\006\007\t\016\017\000\000\000\000\000\000\000\000\000\000\002\003\004\005\t\016\017\000\000\000\000\000\000\000\000\000\001\004\005\t\016\017\000\000\000\000\000\000\000\000\000\002\003\004\005\t\016\017\000\000\000\000\000\000\000\000\000\001\004\005\t\016\017\000\000\000\000\000\000\000\000\000\000\000\002\003\006\007\t\016\017\000\000\000\000\000\000\000\000\000\001\006\007\t\016\017\000\000\000\000\000\000\000\000\000\002\003\006\007\t\016\017\000\000\000\000\000\000\000\000\000\001\006\007\t\016\017\000\000\000\000\000\000\000\000\000\000\000\002\003\005\t\016\017\000\000\000\000\000\000\000\000\000\000\001\005\t\016\017\000\000\000\000\000\000\000\000\000\000\002\003\005\t\016\017\000\000\000\000\000\000\000\000\000\000\001\005\t\016\017\000\000\000\000\000\000\000\000\000\000\000\000\002\003\004\006\007\b\n\013\r\000\000\000\000\000\000\000\001\004\006\007\b\n\013\r\000\000\000\000\000\000\000\002\003\004\006\007\b\n\013\r\000\000\000\000\000\000\000\001\004\006\007\b\n\013\r\000\000\000\000\000\000\000\000\000\002\003\004\005\b\n\013\r\000\000\000\000\000\000\000\000\001\004\005\b\n\013\r\000\000\000\000\000\000\000\000\002\003\004\005\b\n\013\r\000\000\000\000\000\000\000\000\001\004\005\b\n\013\r\000\000\000\000\000\000\000\000\000\000\002\003\006\007\b\n\013\r\000\000\000\000\000\000\000\000\001\006\007\b\n\013\r\000\000\000\000\000\000\000\000\002\003\006\007\b\n\013\r\000\000\000\000\000\000\000\000\001\006\007\b\n\013\r\000\000\000\000\000\000\000\000\000\000\002\003\005\b\n\013\r\000\000\000\000\000\000\000\000\000\001\005\b\n\013\r\000\000\000\000\000\000\000\000\000\002\003\005\b\n\013\r\000\000\000\000\000\000\000\000\000\001\005\b\n\013\r\000\000\000\000\000\000\000\000\000\000\000\002\003\004\006\007\b\t\r\000\000\000\000\000\000\000\000\001\004\006\007\b\t\r\000\000\000\000\000\000\000\000\002\003\004\006\007\b\t\r\000\000\000\000\000\000\000\000\001\004\006\007\b\t\r\000\000\000\000\000\000\000\000\000\000\002\003\004\005\b\t\r\000\000\000\000\000\000\000\000\000\001\004\005\b\t\r\000\000\000\000\000\000\000\000\000\002\003\004\005\b\t\r\000\000\000\000\000\000\000\000\000\001\004\005\b\t\r\000\000\000\000\000\000\000\000\000\000\000\002\003\006\007\b\t\r\000\000\000\000\000\000\000\000\000\001\006\007\b\t\r\000\000\000\000\000\000\000\000\000\002\003\006\007\b\t\r\000\000\000\000\000\000\000\000\000\001\006\007\b\t\r\000\000\000\000\000\000\000\000\000\000\000\002\003\005\b\t\r\000\000\000\000\000\000\000\000\000\000\001\005\b\t\r\000\000\000\000\000\000\000\000\000\000\002\003\005\b\t\r\000\000\000\000\000\000\000\000\000\000\001\005\b\t\r\000\000\000\000\000\000\000\000\000\000\000\000\002\003\004\006\007\n\013\r\000\000\000\000\000\000\000\000\001\004\006\007\n\013\r\000\000\000\000\000\000\000\000\002\003\004\006\007\n\013\r\000\000\000\000\000\000\000\000\001\004\006\007\n\013\r\000\000\000\000\000\000\000\000\000\000\002\003\004\005\n\013\r\000\000\000\000\000\000\000\000\000\001\004\005\n\013\r\000\000\000\000\000\000\000\000\000\002\003\004\005\n\013\r\000\000\000\000\000\000\000\000\000\001\004\005\n\013\r\000\000\000\000\000\000\000\000\000\000\000\002\003\006\007\n\013\r\000\000\000\000\000\000\000\000\000\001\006\007\n\013\r\000\000\000\000\000\000\000\000\000\002\003\006\007\n\013\r\000\000\000\000\000\000\000\000\000\001\006\007\n\013\r\000\000\000\000\000\000\000\000\000\000\000\002\003\005\n\013\r\000\000\000\000\000\000\000\000\000\000\001\005\n\013\r\000\000\000\000\000\000\000\000\000\000\002\003\005\n\013\r\000\000\000\000\000\000\000\000\000\000\001\005\n\013\r\000\000\000\000\000\000\000\000\000\000\000\000\002\003\004\006\007\t\r\000\000\000\000\000\000\000\000\000\001\004\006\007\t\r\000\000\000\000\000\000\000\000\000\002\003\004\006\007\t\r\000\000\000\000\000\000\000\000\000\001\004\006\007\t\r\000\000\000\000\000\000\000\000\000\000\000\002\003\004\005\t\r\000\000\000\000\000\000\000\000\000\000\001\004\005\t\r\000\000\000\000\000\000\000\000\000\000\002\003\004\005\t\r\000\000\000\000\000\000\000\000\000\000\001\004\005\t\r\000\000\000\000\000\000\000\000\000\000\000\000\002\003\006\007\t\r\000\000\000\000\000\000\000\000\000\000\001\006\007\t\r\000\000\000\000\000\000\000\000\000\000\002\003\006\007\t\r\000\000\000\000\000\000\000\000\000\000\001\006\007\t\r\000\000\000\000\000\000\000\000\000\000\000\000\002\003\005\t\r\000\000\000\000\000\000\000\000\000\000\000\001\005\t\r\000\000\000\000\000\000\000\000\000\000\000\002\003\005\t\r\000\000\000\000\000\000\000\000\000\000\000\001\005\t\r\000\000\000\000\000\000\000\000\000\000\000"

	.section	.rdata$161,"dr"
.Lstatic.8:
	.ascii	"\200\200\200\200\200\200\200\200\200\200\200\200\200\200\200\200\017\200\200\200\200\200\200\200\200\200\200\200\200\200\200\200\016\017\200\200\200\200\200\200\200\200\200\200\200\200\200\200\r\016\017\200\200\200\200\200\200\200\200\200\200\200\200\200\f\r\016\017\200\200\200\200\200\200\200\200\200\200\200\200\013\f\r\016\017\200\200\200\200\200\200\200\200\200\200\200\n\013\f\r\016\017\200\200\200\200\200\200\200\200\200\200\t\n\013\f\r\016\017\200\200\200\200\200\200\200\200\200\b\t\n\013\f\r\016\017\200\200\200\200\200\200\200\200\007\b\t\n\013\f\r\016\017\200\200\200\200\200\200\200\006\007\b\t\n\013\f\r\016\017\200\200\200\200\200\200\005\006\007\b\t\n\013\f\r\016\017\200\200\200\200\200\004\005\006\007\b\t\n\013\f\r\016\017\200\200\200\200\003\004\005\006\007\b\t\n\013\f\r\016\017\200\200\200\002\003\004\005\006\007\b\t\n\013\f\r\016\017\200\200\001\002\003\004\005\006\007\b\t\n\013\f\r\016\017\200\000\001\002\003\004\005\006\007\b\t\n\013\f\r\016\017"

	.section	.rdata$162,"dr"
.Lstatic.9:
	.ascii	"\357\277\275"

	.section	.rdata$163,"dr"
.Lstatic.10:
	.ascii	"\000\000\000\000\000\000\000\000\000\000\000\000\000\000\000\000\000\001\000\000\000\000\000\000\000\000\000\000\000\000\000\000\002\003\000\000\000\000\000\000\000\000\000\000\000\000\000\000\000\001\002\003\000\000\000\000\000\000\000\000\000\000\000\000\004\005\000\000\000\000\000\000\000\000\000\000\000\000\000\000\000\001\004\005\000\000\000\000\000\000\000\000\000\000\000\000\002\003\004\005\000\000\000\000\000\000\000\000\000\000\000\000\000\001\002\003\004\005\000\000\000\000\000\000\000\000\000\000\006\007\000\000\000\000\000\000\000\000\000\000\000\000\000\000\000\001\006\007\000\000\000\000\000\000\000\000\000\000\000\000\002\003\006\007\000\000\000\000\000\000\000\000\000\000\000\000\000\001\002\003\006\007\000\000\000\000\000\000\000\000\000\000\004\005\006\007\000\000\000\000\000\000\000\000\000\000\000\000\000\001\004\005\006\007\000\000\000\000\000\000\000\000\000\000\002\003\004\005\006\007\000\000\000\000\000\000\000\000\000\000\000\001\002\003\004\005\006\007\000\000\000\000\000\000\000\000\b\t\000\000\000\000\000\000\000\000\000\000\000\000\000\000\000\001\b\t\000\000\000\000\000\000\000\000\000\000\000\000\002\003\b\t\000\000\000\000\000\000\000\000\000\000\000\000\000\001\002\003\b\t\000\000\000\000\000\000\000\000\000\000\004\005\b\t\000\000\000\000\000\000\000\000\000\000\000\000\000\001\004\005\b\t\000\000\000\000\000\000\000\000\000\000\002\003\004\005\b\t\000\000\000\000\000\000\000\000\000\000\000\001\002\003\004\005\b\t\000\000\000\000\000\000\000\000\006\007\b\t\000\000\000\000\000\000\000\000\000\000\000\000\000\001\006\007\b\t\000\000\000\000\000\000\000\000\000\000\002\003\006\007\b\t\000\000\000\000\000\000\000\000\000\000\000\001\002\003\006\007\b\t\000\000\000\000\000\000\000\000\004\005\006\007\b\t\000\000\000\000\000\000\000\000\000\000\000\001\004\005\006\007\b\t\000\000\000\000\000\000\000\000\002\003\004\005\006\007\b\t\000\000\000\000\000\000\000\000\000\001\002\003\004\005\006\007\b\t\000\000\000\000\000\000\n\013\000\000\000\000\000\000\000\000\000\000\000\000\000\000\000\001\n\013\000\000\000\000\000\000\000\000\000\000\000\000\002\003\n\013\000\000\000\000\000\000\000\000\000\000\000\000\000\001\002\003\n\013\000\000\000\000\000\000\000\000\000\000\004\005\n\013\000\000\000\000\000\000\000\000\000\000\000\000\000\001\004\005\n\013\000\000\000\000\000\000\000\000\000\000\002\003\004\005\n\013\000\000\000\000\000\000\000\000\000\000\000\001\002\003\004\005\n\013\000\000\000\000\000\000\000\000\006\007\n\013\000\000\000\000\000\000\000\000\000\000\000\000\000\001\006\007\n\013\000\000\000\000\000\000\000\000\000\000\002\003\006\007\n\013\000\000\000\000\000\000\000\000\000\000\000\001\002\003\006\007\n\013\000\000\000\000\000\000\000\000\004\005\006\007\n\013\000\000\000\000\000\000\000\000\000\000\000\001\004\005\006\007\n\013\000\000\000\000\000\000\000\000\002\003\004\005\006\007\n\013\000\000\000\000\000\000\000\000\000\001\002\003\004\005\006\007\n\013\000\000\000\000\000\000\b\t\n\013\000\000\000\000\000\000\000\000\000\000\000\000\000\001\b\t\n\013\000\000\000\000\000\000\000\000\000\000\002\003\b\t\n\013\000\000\000\000\000\000\000\000\000\000\000\001\002\003\b\t\n\013\000\000\000\000\000\000\000\000\004\005\b\t\n\013\000\000\000\000\000\000\000\000\000\000\000\001\004\005\b\t\n\013\000\000\000\000\000\000\000\000\002\003\004\005\b\t\n\013\000\000\000\000\000\000\000\000\000\001\002\003\004\005\b\t\n\013\000\000\000\000\000\000\006\007\b\t\n\013\000\000\000\000\000\000\000\000\000\000\000\001\006\007\b\t\n\013\000\000\000\000\000\000\000\000\002\003\006\007\b\t\n\013\000\000\000\000\000\000\000\000\000\001\002\003\006\007\b\t\n\013\000\000\000\000\000\000\004\005\006\007\b\t\n\013\000\000\000\000\000\000\000\000\000\001\004\005\006\007\b\t\n\013\000\000\000\000\000\000\002\003\004\005\006\007\b\t\n\013\000\000\000\000\000\000\000\001\002\003\004\005\006\007\b\t\n\013\000\000\000\000\f\r\000\000\000\000\000\000\000\000\000\000\000\000\000\000\000\001\f\r\000\000\000\000\000\000\000\000\000\000\000\000\002\003\f\r\000\000\000\000\000\000\000\000\000\000\000\000\000\001\002\003\f\r\000\000\000\000\000\000\000\000\000\000\004\005\f\r\000\000\000\000\000\000\000\000\000\000\000\000\000\001\004\005\f\r\000\000\000\000\000\000\000\000\000\000\002\003\004\005\f\r\000\000\000\000\000\000\000\000\000\000\000\001\002\003\004\005\f\r\000\000\000\000\000\000\000\000\006\007\f\r\000\000\000\000\000\000\000\000\000\000\000\000\000\001\006\007\f\r\000\000\000\000\000\000\000\000\000\000\002\003\006\007\f\r\000\000\000\000\000\000\000\000\000\000\000\001\002\003\006\007\f\r\000\000\000\000\000\000\000\000\004\005\006\007\f\r\000\000\000\000\000\000\000\000\000\000\000\001\004\005\006\007\f\r\000\000\000\000\000\000\000\000\002\003\004\005\006\007\f\r\000\000\000\000\000\000\000\000\000\001\002\003\004\005\006\007\f\r\000\000\000\000\000\000\b\t\f\r\000\000\000\000\000\000\000\000\000\000\000\000\000\001\b\t\f\r\000\000\000\000\000\000\000\000\000\000\002\003\b\t\f\r\000\000\000\000\000\000\000\000\000\000\000\001\002\003\b\t\f\r\000\000\000\000\000\000\000\000\004\005\b\t\f\r\000\000\000\000\000\000\000\000\000\000\000\001\004\005\b\t\f\r\000\000\000\000\000\000\000\000\002\003\004\005\b\t\f\r\000\000\000\000\000\000\000\000\000\001\002\003\004\005\b\t\f\r\000\000\000\000\000\000\006\007\b\t\f\r\000\000\000\000\000\000\000\000\000\000\000\001\006\007\b\t\f\r\000\000\000\000\000\000\000\000\002\003\006\007\b\t\f\r\000\000\000\000\000\000\000\000\000\001\002\003\006\007\b\t\f\r\000\000\000\000\000\000\004\005\006\007\b\t\f\r\000\000\000\000\000\000\000\000\000\001\004\005\006\007\b\t\f\r\000\000\000\000\000\000\002\003\004\005\006\007\b\t\f\r\000\000\000\000\000\000\000\001\002\003\004\005\006\007\b\t\f\r\000\000\000\000\n\013\f\r\000\000\000\000\000\000\000\000\000\000\000\000\000\001\n\013\f\r\000\000\000\000\000\000\000\000\000\000\002\003\n\013\f\r\000\000\000\000\000\000\000\000\000\000\000\001\002\003\n\013\f\r\000\000\000\000\000\000\000\000\004\005\n\013\f\r\000\000\000\000\000\000\000\000\000\000\000\001\004\005\n\013\f\r\000\000\000\000\000\000\000\000\002\003\004\005\n\013\f\r\000\000\000\000\000\000\000\000\000\001\002\003\004\005\n\013\f\r\000\000\000\000\000\000\006\007\n\013\f\r\000\000\000\000\000\000\000\000\000\000\000\001\006\007\n\013\f\r\000\000\000\000\000\000\000\000\002\003\006\007\n\013\f\r\000\000\000\000\000\000\000\000\000\001\002\003\006\007\n\013\f\r\000\000\000\000\000\000\004\005\006\007\n\013\f\r\000\000\000\000\000\000\000\000\000\001\004\005\006\007\n\013\f\r\000\000\000\000\000\000\002\003\004\005\006\007\n\013\f\r\000\000\000\000\000\000\000\001\002\003\004\005\006\007\n\013\f\r\000\000\000\000\b\t\n\013\f\r\000\000\000\000\000\000\000\000\000\000\000\001\b\t\n\013\f\r\000\000\000\000\000\000\000\000\002\003\b\t\n\013\f\r\000\000\000\000\000\000\000\000\000\001\002\003\b\t\n\013\f\r\000\000\000\000\000\000\004\005\b\t\n\013\f\r\000\000\000\000\000\000\000\000\000\001\004\005\b\t\n\013\f\r\000\000\000\000\000\000\002\003\004\005\b\t\n\013\f\r\000\000\000\000\000\000\000\001\002\003\004\005\b\t\n\013\f\r\000\000\000\000\006\007\b\t\n\013\f\r\000\000\000\000\000\000\000\000\000\001\006\007\b\t\n\013\f\r\000\000\000\000\000\000\002\003\006\007\b\t\n\013\f\r\000\000\000\000\000\000\000\001\002\003\006\007\b\t\n\013\f\r\000\000\000\000\004\005\006\007\b\t\n\013\f\r\000\000\000\000\000\000\000\001\004\005\006\007\b\t\n\013\f\r\000\000\000\000\002\003\004\005\006\007\b\t\n\013\f\r\000\000\000\000\000\001\002\003\004\005\006\007\b\t\n\013\f\r\000\000\016\017\000\000\000\000\000\000\000\000\000\000\000\000\000\000\000\001\016\017\000\000\000\000\000\000\000\000\000\000\000\000\002\003\016\017\000\000\000\000\000\000\000\000\000\000\000\000\000\001\002\003\016\017\000\000\000\000\000\000\000\000\000\000\004\005\016\017\000\000\000\000\000\000\000\000\000\000\000\000\000\001\004\005\016\017\000\000\000\000\000\000\000\000\000\000\002\003\004\005\016\017\000\000\000\000\000\000\000\000\000\000\000\001\002\003\004\005\016\017\000\000\000\000\000\000\000\000\006\007\016\017\000\000\000\000\000\000\000\000\000\000\000\000\000\001\006\007\016\017\000\000\000\000\000\000\000\000\000\000\002\003\006\007\016\017\000\000\000\000\000\000\000\000\000\000\000\001\002\003\006\007\016\017\000\000\000\000\000\000\000\000\004\005\006\007\016\017\000\000\000\000\000\000\000\000\000\000\000\001\004\005\006\007\016\017\000\000\000\000\000\000\000\000\002\003\004\005\006\007\016\017\000\000\000\000\000\000\000\000\000\001\002\003\004\005\006\007\016\017\000\000\000\000\000\000\b\t\016\017\000\000\000\000\000\000\000\000\000\000\000\000\000\001\b\t\016\017\000\000\000\000\000\000\000\000\000\000\002\003\b\t\016\017\000\000\000\000\000\000\000\000\000\000\000\001\002\003\b\t\016\017\000\000\000\000\000\000\000\000\004\005\b\t\016\017\000\000\000\000\000\000\000\000\000\000\000\001\004\005\b\t\016\017\000\000\000\000\000\000\000\000\002\003\004\005\b\t\016\017\000\000\000\000\000\000\000\000\000\001\002\003\004\005\b\t\016\017\000\000\000\000\000\000\006\007\b\t\016\017\000\000\000\000\000\000\000\000\000\000\000\001\006\007\b\t\016\017\000\000\000\000\000\000\000\000\002\003\006\007\b\t\016\017\000\000\000\000\000\000\000\000\000\001\002\003\006\007\b\t\016\017\000\000\000\000\000\000\004\005\006\007\b\t\016\017\000\000\000\000\000\000\000\000\000\001\004\005\006\007\b\t\016\017\000\000\000\000\000\000\002\003\004\005\006\007\b\t\016\017\000\000\000\000\000\000\000\001\002\003\004\005\006\007\b\t\016\017\000\000\000\000\n\013\016\017\000\000\000\000\000\000\000\000\000\000\000\000\000\001\n\013\016\017\000\000\000\000\000\000\000\000\000\000\002\003\n\013\016\017\000\000\000\000\000\000\000\000\000\000\000\001\002\003\n\013\016\017\000\000\000\000\000\000\000\000\004\005\n\013\016\017\000\000\000\000\000\000\000\000\000\000\000\001\004\005\n\013\016\017\000\000\000\000\000\000\000\000\002\003\004\005\n\013\016\017\000\000\000\000\000\000\000\000\000\001\002\003\004\005\n\013\016\017\000\000\000\000\000\000\006\007\n\013\016\017\000\000\000\000\000\000\000\000\000\000\000\001\006\007\n\013\016\017\000\000\000\000\000\000\000\000\002\003\006\007\n\013\016\017\000\000\000\000\000\000\000\000\000\001\002\003\006\007\n\013\016\017\000\000\000\000\000\000\004\005\006\007\n\013\016\017\000\000\000\000\000\000\000\000\000\001\004\005\006\007\n\013\016\017\000\000\000\000\000\000\002\003\004\005\006\007\n\013\016\017\000\000\000\000\000\000\000\001\002\003\004\005\006\007\n\013\016\017\000\000\000\000\b\t\n\013\016\017\000\000\000\000\000\000\000\000\000\000\000\001\b\t\n\013\016\017\000\000\000\000\000\000\000\000\002\003\b\t\n\013\016\017\000\000\000\000\000\000\000\000\000\001\002\003\b\t\n\013\016\017\000\000\000\000\000\000\004\005\b\t\n\013\016\017\000\000\000\000\000\000\000\000\000\001\004\005\b\t\n\013\016\017\000\000\000\000\000\000\002\003\004\005\b\t\n\013\016\017\000\000\000\000\000\000\000\001\002\003\004\005\b\t\n\013\016\017\000\000\000\000\006\007\b\t\n\013\016\017\000\000\000\000\000\000\000\000\000\001\006\007\b\t\n\013\016\017\000\000\000\000\000\000\002\003\006\007\b\t\n\013\016\017\000\000\000\000\000\000\000\001\002\003\006\007\b\t\n\013\016\017\000\000\000\000\004\005\006\007\b\t\n\013\016\017\000\000\000\000\000\000\000\001\004\005\006\007\b\t\n\013\016\017\000\000\000\000\002\003\004\005\006\007\b\t\n\013\016\017\000\000\000\000\000\001\002\003\004\005\006\007\b\t\n\013\016\017\000\000\f\r\016\017\000\000\000\000\000\000\000\000\000\000\000\000\000\001\f\r\016\017\000\000\000\000\000\000\000\000\000\000\002\003\f\r\016\017\000\000\000\000\000\000\000\000\000\000\000\001\002\003\f\r\016\017\000\000\000\000\000\000\000\000\004\005\f\r\016\017\000\000\000\000\000\000\000\000\000\000\000\001\004\005\f\r\016\017\000\000\000\000\000\000\000\000\002\003\004\005\f\r\016\017\000\000\000\000\000\000\000\000\000\001\002\003\004\005\f\r\016\017\000\000\000\000\000\000\006\007\f\r\016\017\000\000\000\000\000\000\000\000\000\000\000\001\006\007\f\r\016\017\000\000\000\000\000\000\000\000\002\003\006\007\f\r\016\017\000\000\000\000\000\000\000\000\000\001\002\003\006\007\f\r\016\017\000\000\000\000\000\000\004\005\006\007\f\r\016\017\000\000\000\000\000\000\000\000\000\001\004\005\006\007\f\r\016\017\000\000\000\000\000\000\002\003\004\005\006\007\f\r\016\017\000\000\000\000\000\000\000\001\002\003\004\005\006\007\f\r\016\017\000\000\000\000\b\t\f\r\016\017\000\000\000\000\000\000\000\000\000\000\000\001\b\t\f\r\016\017\000\000\000\000\000\000\000\000\002\003\b\t\f\r\016\017\000\000\000\000\000\000\000\000\000\001\002\003\b\t\f\r\016\017\000\000\000\000\000\000\004\005\b\t\f\r\016\017\000\000\000\000\000\000\000\000\000\001\004\005\b\t\f\r\016\017\000\000\000\000\000\000\002\003\004\005\b\t\f\r\016\017\000\000\000\000\000\000\000\001\002\003\004\005\b\t\f\r\016\017\000\000\000\000\006\007\b\t\f\r\016\017\000\000\000\000\000\000\000\000\000\001\006\007\b\t\f\r\016\017\000\000\000\000\000\000\002\003\006\007\b\t\f\r\016\017\000\000\000\000\000\000\000\001\002\003\006\007\b\t\f\r\016\017\000\000\000\000\004\005\006\007\b\t\f\r\016\017\000\000\000\000\000\000\000\001\004\005\006\007\b\t\f\r\016\017\000\000\000\000\002\003\004\005\006\007\b\t\f\r\016\017\000\000\000\000\000\001\002\003\004\005\006\007\b\t\f\r\016\017\000\000\n\013\f\r\016\017\000\000\000\000\000\000\000\000\000\000\000\001\n\013\f\r\016\017\000\000\000\000\000\000\000\000\002\003\n\013\f\r\016\017\000\000\000\000\000\000\000\000\000\001\002\003\n\013\f\r\016\017\000\000\000\000\000\000\004\005\n\013\f\r\016\017\000\000\000\000\000\000\000\000\000\001\004\005\n\013\f\r\016\017\000\000\000\000\000\000\002\003\004\005\n\013\f\r\016\017\000\000\000\000\000\000\000\001\002\003\004\005\n\013\f\r\016\017\000\000\000\000\006\007\n\013\f\r\016\017\000\000\000\000\000\000\000\000\000\001\006\007\n\013\f\r\016\017\000\000\000\000\000\000\002\003\006\007\n\013\f\r\016\017\000\000\000\000\000\000\000\001\002\003\006\007\n\013\f\r\016\017\000\000\000\000\004\005\006\007\n\013\f\r\016\017\000\000\000\000\000\000\000\001\004\005\006\007\n\013\f\r\016\017\000\000\000\000\002\003\004\005\006\007\n\013\f\r\016\017\000\000\000\000\000\001\002\003\004\005\006\007\n\013\f\r\016\017\000\000\b\t\n\013\f\r\016\017\000\000\000\000\000\000\000\000\000\001\b\t\n\013\f\r\016\017\000\000\000\000\000\000\002\003\b\t\n\013\f\r\016\017\000\000\000\000\000\000\000\001\002\003\b\t\n\013\f\r\016\017\000\000\000\000\004\005\b\t\n\013\f\r\016\017\000\000\000\000\000\000\000\001\004\005\b\t\n\013\f\r\016\017\000\000\000\000\002\003\004\005\b\t\n\013\f\r\016\017\000\000\000\000\000\001\002\003\004\005\b\t\n\013\f\r\016\017\000\000\006\007\b\t\n\013\f\r\016\017\000\000\000\000\000\000\000\001\006\007\b\t\n\013\f\r\016\017\000\000\000\000\002\003\006\007\b\t\n\013\f\r\016\017\000\000\000\000\000\001\002\003\006\007\b\t\n\013\f\r\016\017\000\000\004\005\006\007\b\t\n\013\f\r\016\017\000\000\000\000\000\001\004\005\006\007\b\t\n\013\f\r\016\017\000\000\002\003\004\005\006\007\b\t\n\013\f\r\016\017\000\000\000\001\002\003\004\005\006\007\b\t\n\013\f\r\016\017"

	.section	.rdata$000,"dr"
	.p2align	2, 0x0
.Lswitch.table.dethrux_from_utf32_lossy:
	.long	0
	.zero	4
	.long	2
	.long	3

