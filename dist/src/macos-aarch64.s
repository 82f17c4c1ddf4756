/* SPDX-License-Identifier: MIT OR Apache-2.0
 * Dethrux 0.2.0 for C, as assembly for macOS on ARM64. packaging/assembly
 * wrote it from the code that rt proved in logic dac8208d650f15bf: do not edit it. */
	.text
	.section	__TEXT,__literal16,16byte_literals
	.p2align	4, 0x0
lCPI0_0:
	.byte	1
	.byte	2
	.byte	4
	.byte	8
	.byte	16
	.byte	32
	.byte	64
	.byte	128
	.byte	1
	.byte	2
	.byte	4
	.byte	8
	.byte	16
	.byte	32
	.byte	64
	.byte	128
lCPI0_2:
	.byte	0
	.byte	1
	.byte	2
	.byte	3
	.byte	4
	.byte	5
	.byte	6
	.byte	7
	.byte	8
	.byte	9
	.byte	10
	.byte	11
	.byte	12
	.byte	13
	.byte	14
	.byte	15
	.section	__TEXT,__literal8,8byte_literals
	.p2align	3, 0x0
lCPI0_1:
	.zero	1
	.zero	1
	.zero	1
	.zero	1
	.zero	1
	.zero	1
	.byte	224
	.byte	192
	.section	__TEXT,__text,regular,pure_instructions
	.p2align	2
"_utf16_transcode::sizes::is_text_within_block":
	.cfi_startproc
	sub	x8, x1, #8
	cmp	x8, #55
	b.hi	LBB0_6
	cmp	x1, #17
	b.hs	LBB0_7
	add	x8, x0, x1
	ldr	d0, [x0]
	ldur	d2, [x8, #-8]
	adrp	x8, lstatic.1@PAGE
	add	x8, x8, lstatic.1@PAGEOFF
	add	x8, x8, x1, lsl #4
	mov	v0.d[1], v2.d[0]
	ldur	q1, [x8, #-128]
	adrp	x8, lCPI0_0@PAGE
	tbl	v1.16b, { v0.16b }, v1.16b
	ldr	q0, [x8, lCPI0_0@PAGEOFF]
	cmlt	v3.16b, v1.16b, #0
	and	v3.16b, v3.16b, v0.16b
	addp	v3.16b, v3.16b, v3.16b
	addp	v3.16b, v3.16b, v3.16b
	addp	v3.16b, v3.16b, v3.16b
	umov	w8, v3.h[0]
	cbz	w8, LBB0_28
	umov	w8, v2.b[5]
	mov	w0, wzr
	cmp	w8, #239
	b.hi	LBB0_27
	adrp	x8, lCPI0_1@PAGE
	ldr	d3, [x8, lCPI0_1@PAGEOFF]
	cmhi	v2.8b, v3.8b, v2.8b
	dup	v3.8b, v2.b[7]
	and	v2.8b, v3.8b, v2.8b
	umov	w8, v2.b[6]
	tbz	w8, #0, LBB0_27
	adrp	x8, lstatic.2@PAGE
	add	x8, x8, lstatic.2@PAGEOFF
	movi	v3.2d, #0000000000000000
	sub	x8, x8, x1
	movi	v5.16b, #191
	movi	v6.16b, #223
	ldr	q2, [x8, #16]
	movi	v7.16b, #239
	movi	v16.16b, #144
	movi	v17.16b, #240
	movi	v18.16b, #224
	movi	v19.16b, #160
	umax	v1.16b, v1.16b, v2.16b
	movi	v20.16b, #237
	adrp	x8, lCPI0_2@PAGE
	movi	v21.16b, #192
	movi	v22.16b, #254
	ext	v2.16b, v3.16b, v1.16b, #15
	ext	v4.16b, v3.16b, v2.16b, #15
	uqsub	v5.16b, v2.16b, v5.16b
	cmeq	v17.16b, v2.16b, v17.16b
	cmeq	v18.16b, v2.16b, v18.16b
	ext	v3.16b, v3.16b, v4.16b, #15
	uqsub	v4.16b, v4.16b, v6.16b
	movi	v6.16b, #244
	uqsub	v3.16b, v3.16b, v7.16b
	cmhi	v7.16b, v16.16b, v1.16b
	umax	v4.16b, v5.16b, v4.16b
	cmhs	v5.16b, v1.16b, v16.16b
	cmeq	v16.16b, v2.16b, v6.16b
	cmeq	v2.16b, v2.16b, v20.16b
	cmhi	v6.16b, v1.16b, v6.16b
	and	v7.16b, v17.16b, v7.16b
	and	v17.16b, v1.16b, v22.16b
	orr	v3.16b, v4.16b, v3.16b
	and	v4.16b, v16.16b, v5.16b
	cmhs	v5.16b, v1.16b, v19.16b
	cmhi	v16.16b, v19.16b, v1.16b
	cmgt	v1.16b, v21.16b, v1.16b
	cmeq	v3.16b, v3.16b, #0
	and	v2.16b, v2.16b, v5.16b
	orr	v4.16b, v7.16b, v4.16b
	and	v16.16b, v18.16b, v16.16b
	cmeq	v5.16b, v17.16b, v21.16b
	eor	v1.16b, v3.16b, v1.16b
	orr	v3.16b, v6.16b, v4.16b
	ldr	q4, [x8, lCPI0_2@PAGEOFF]
	orr	v2.16b, v16.16b, v2.16b
	orn	v1.16b, v5.16b, v1.16b
	orr	v2.16b, v2.16b, v3.16b
	dup	v3.16b, w1
	orr	v1.16b, v2.16b, v1.16b
	cmhi	v2.16b, v3.16b, v4.16b
	and	v1.16b, v2.16b, v1.16b
	shl	v1.16b, v1.16b, #7
	cmlt	v1.16b, v1.16b, #0
	and	v0.16b, v1.16b, v0.16b
	b	LBB0_26
LBB0_6:
	mov	w0, wzr
	ret
LBB0_7:
	movi	v1.2d, #0000000000000000
	ldr	q2, [x0]
	adrp	x8, lCPI0_0@PAGE
	ext	v3.16b, v1.16b, v2.16b, #15
	ext	v5.16b, v1.16b, v3.16b, #15
	ext	v4.16b, v1.16b, v5.16b, #15
	orr	v0.16b, v4.16b, v2.16b
	cmlt	v6.16b, v0.16b, #0
	ldr	q0, [x8, lCPI0_0@PAGEOFF]
	and	v6.16b, v6.16b, v0.16b
	addp	v6.16b, v6.16b, v6.16b
	addp	v6.16b, v6.16b, v6.16b
	addp	v6.16b, v6.16b, v6.16b
	umov	w8, v6.h[0]
	cbz	w8, LBB0_9
	movi	v1.16b, #191
	movi	v6.16b, #223
	movi	v7.16b, #239
	movi	v16.16b, #160
	movi	v17.16b, #144
	movi	v18.16b, #224
	movi	v19.16b, #244
	uqsub	v1.16b, v3.16b, v1.16b
	uqsub	v5.16b, v5.16b, v6.16b
	movi	v6.16b, #237
	uqsub	v4.16b, v4.16b, v7.16b
	movi	v7.16b, #240
	cmhi	v16.16b, v16.16b, v2.16b
	umax	v1.16b, v1.16b, v5.16b
	cmhi	v5.16b, v17.16b, v2.16b
	bit	v6.16b, v18.16b, v16.16b
	movi	v16.16b, #192
	bsl	v5.16b, v7.16b, v19.16b
	movi	v7.16b, #254
	orr	v1.16b, v1.16b, v4.16b
	cmeq	v6.16b, v3.16b, v6.16b
	cmgt	v4.16b, v16.16b, v2.16b
	cmeq	v1.16b, v1.16b, #0
	and	v7.16b, v2.16b, v7.16b
	cmeq	v3.16b, v3.16b, v5.16b
	eor	v1.16b, v1.16b, v4.16b
	cmhi	v4.16b, v2.16b, v19.16b
	orr	v3.16b, v3.16b, v6.16b
	cmeq	v5.16b, v7.16b, v16.16b
	orn	v1.16b, v5.16b, v1.16b
	orr	v3.16b, v3.16b, v4.16b
	orr	v1.16b, v3.16b, v1.16b
LBB0_9:
	and	x8, x1, #0x30
	cmp	x8, #16
	b.ne	LBB0_12
LBB0_10:
	sub	x8, x1, #16
	add	x10, x0, x8
	cmp	x8, #3
	ldr	q3, [x10]
	b.lo	LBB0_19
	ldur	q2, [x10, #-1]
	ldur	q4, [x10, #-3]
	ldur	q5, [x10, #-2]
	umov	w8, v2.b[15]
	umov	w9, v2.b[14]
	b	LBB0_20
LBB0_12:
	sub	x8, x1, #16
	add	x9, x0, #16
	mov	x10, #-16
	b	LBB0_14
LBB0_13:
	sub	x8, x8, #16
	sub	x10, x10, #16
	add	x9, x9, #16
	cmp	x8, #15
	b.ls	LBB0_10
LBB0_14:
	ldr	q3, [x9]
	cbz	x10, LBB0_16
	ldur	q5, [x9, #-3]
	ldur	q6, [x9, #-2]
	ldur	q4, [x9, #-1]
	b	LBB0_17
LBB0_16:
	movi	v5.2d, #0000000000000000
	ext	v4.16b, v5.16b, v3.16b, #15
	ext	v6.16b, v5.16b, v4.16b, #15
	ext	v5.16b, v5.16b, v6.16b, #15
LBB0_17:
	orr	v7.16b, v5.16b, v3.16b
	cmlt	v7.16b, v7.16b, #0
	and	v7.16b, v7.16b, v0.16b
	addp	v7.16b, v7.16b, v7.16b
	addp	v7.16b, v7.16b, v7.16b
	addp	v7.16b, v7.16b, v7.16b
	umov	w11, v7.h[0]
	cbz	w11, LBB0_13
	movi	v7.16b, #191
	movi	v16.16b, #223
	movi	v17.16b, #239
	movi	v18.16b, #160
	movi	v19.16b, #144
	movi	v20.16b, #224
	movi	v21.16b, #244
	uqsub	v7.16b, v4.16b, v7.16b
	uqsub	v6.16b, v6.16b, v16.16b
	movi	v16.16b, #237
	uqsub	v5.16b, v5.16b, v17.16b
	movi	v17.16b, #240
	cmhi	v18.16b, v18.16b, v3.16b
	umax	v6.16b, v7.16b, v6.16b
	cmhi	v7.16b, v19.16b, v3.16b
	bit	v16.16b, v20.16b, v18.16b
	movi	v18.16b, #192
	bsl	v7.16b, v17.16b, v21.16b
	movi	v17.16b, #254
	orr	v5.16b, v6.16b, v5.16b
	cmeq	v16.16b, v4.16b, v16.16b
	cmgt	v6.16b, v18.16b, v3.16b
	cmeq	v5.16b, v5.16b, #0
	and	v17.16b, v3.16b, v17.16b
	cmeq	v4.16b, v4.16b, v7.16b
	cmhi	v3.16b, v3.16b, v21.16b
	eor	v5.16b, v5.16b, v6.16b
	orr	v4.16b, v4.16b, v16.16b
	cmeq	v6.16b, v17.16b, v18.16b
	orn	v5.16b, v6.16b, v5.16b
	orr	v3.16b, v4.16b, v3.16b
	orr	v3.16b, v3.16b, v5.16b
	umax	v1.16b, v1.16b, v3.16b
	b	LBB0_13
LBB0_19:
	add	x9, x0, x1
	umov	w10, v2.b[0]
	cmp	x8, #2
	sub	x9, x9, #17
	ld1r	{ v2.16b }, [x9]
	umov	w9, v3.b[13]
	csel	w8, w10, wzr, eq
	ext	v2.16b, v2.16b, v3.16b, #15
	dup	v4.16b, w8
	umov	w8, v3.b[14]
	ext	v5.16b, v4.16b, v2.16b, #15
	movi	v4.2d, #0000000000000000
	ext	v4.16b, v4.16b, v5.16b, #15
LBB0_20:
	orr	v6.16b, v4.16b, v3.16b
	cmlt	v6.16b, v6.16b, #0
	and	v6.16b, v6.16b, v0.16b
	addp	v6.16b, v6.16b, v6.16b
	addp	v6.16b, v6.16b, v6.16b
	addp	v6.16b, v6.16b, v6.16b
	umov	w10, v6.h[0]
	cbz	w10, LBB0_22
	movi	v6.16b, #191
	movi	v7.16b, #223
	movi	v16.16b, #239
	movi	v17.16b, #160
	movi	v18.16b, #144
	movi	v19.16b, #224
	movi	v20.16b, #244
	uqsub	v6.16b, v2.16b, v6.16b
	uqsub	v5.16b, v5.16b, v7.16b
	movi	v7.16b, #237
	uqsub	v4.16b, v4.16b, v16.16b
	movi	v16.16b, #240
	cmhi	v17.16b, v17.16b, v3.16b
	umax	v5.16b, v6.16b, v5.16b
	cmhi	v6.16b, v18.16b, v3.16b
	bit	v7.16b, v19.16b, v17.16b
	movi	v17.16b, #192
	bsl	v6.16b, v16.16b, v20.16b
	movi	v16.16b, #254
	orr	v4.16b, v5.16b, v4.16b
	cmeq	v7.16b, v2.16b, v7.16b
	cmgt	v5.16b, v17.16b, v3.16b
	cmeq	v4.16b, v4.16b, #0
	and	v16.16b, v3.16b, v16.16b
	cmeq	v2.16b, v2.16b, v6.16b
	eor	v4.16b, v4.16b, v5.16b
	cmhi	v5.16b, v3.16b, v20.16b
	orr	v2.16b, v2.16b, v7.16b
	cmeq	v6.16b, v16.16b, v17.16b
	orn	v4.16b, v6.16b, v4.16b
	orr	v2.16b, v2.16b, v5.16b
	orr	v2.16b, v2.16b, v4.16b
	umax	v1.16b, v1.16b, v2.16b
LBB0_22:
	and	w9, w9, #0xff
	mov	w0, wzr
	cmp	w9, #239
	b.hi	LBB0_27
	umov	w9, v3.b[15]
	and	w9, w9, #0xff
	cmp	w9, #191
	b.hi	LBB0_27
	and	w8, w8, #0xff
	cmp	w8, #223
	b.hi	LBB0_27
	cmeq	v1.16b, v1.16b, #0
	bic	v0.16b, v0.16b, v1.16b
LBB0_26:
	addp	v0.16b, v0.16b, v0.16b
	addp	v0.16b, v0.16b, v0.16b
	addp	v0.16b, v0.16b, v0.16b
	umov	w8, v0.h[0]
	tst	w8, #0xffff
	cset	w0, eq
LBB0_27:
	ret
LBB0_28:
	mov	w0, #1
	ret
Lfunc_end0:
	.cfi_endproc

	.section	__TEXT,__literal16,16byte_literals
	.p2align	4, 0x0
lCPI1_0:
	.byte	1
	.byte	2
	.byte	4
	.byte	8
	.byte	16
	.byte	32
	.byte	64
	.byte	128
	.byte	1
	.byte	2
	.byte	4
	.byte	8
	.byte	16
	.byte	32
	.byte	64
	.byte	128
lCPI1_1:
	.byte	2
	.byte	2
	.byte	2
	.byte	2
	.byte	2
	.byte	2
	.byte	2
	.byte	2
	.byte	128
	.byte	128
	.byte	128
	.byte	128
	.byte	33
	.byte	1
	.byte	21
	.byte	73
lCPI1_2:
	.byte	231
	.byte	163
	.byte	131
	.byte	131
	.byte	139
	.byte	203
	.byte	203
	.byte	203
	.byte	203
	.byte	203
	.byte	203
	.byte	203
	.byte	203
	.byte	219
	.byte	203
	.byte	203
lCPI1_3:
	.byte	1
	.byte	1
	.byte	1
	.byte	1
	.byte	1
	.byte	1
	.byte	1
	.byte	1
	.byte	230
	.byte	174
	.byte	186
	.byte	186
	.byte	1
	.byte	1
	.byte	1
	.byte	1
lCPI1_4:
	.byte	255
	.byte	255
	.byte	255
	.byte	255
	.byte	255
	.byte	255
	.byte	255
	.byte	255
	.byte	255
	.byte	255
	.byte	255
	.byte	255
	.byte	255
	.byte	239
	.byte	223
	.byte	191
	.section	__TEXT,__text,regular,pure_instructions
	.p2align	2
"_simdutf8::compat::from_utf8":
	.cfi_startproc
	sub	sp, sp, #400
	.cfi_def_cfa_offset 400
	stp	d15, d14, [sp, #240]
	stp	d13, d12, [sp, #256]
	stp	d11, d10, [sp, #272]
	stp	d9, d8, [sp, #288]
	stp	x29, x30, [sp, #304]
	stp	x28, x27, [sp, #320]
	stp	x26, x25, [sp, #336]
	stp	x24, x23, [sp, #352]
	stp	x22, x21, [sp, #368]
	stp	x20, x19, [sp, #384]
	add	x29, sp, #304
	.cfi_def_cfa w29, 96
	.cfi_offset w19, -8
	.cfi_offset w20, -16
	.cfi_offset w21, -24
	.cfi_offset w22, -32
	.cfi_offset w23, -40
	.cfi_offset w24, -48
	.cfi_offset w25, -56
	.cfi_offset w26, -64
	.cfi_offset w27, -72
	.cfi_offset w28, -80
	.cfi_offset w30, -88
	.cfi_offset w29, -96
	.cfi_offset b8, -104
	.cfi_offset b9, -112
	.cfi_offset b10, -120
	.cfi_offset b11, -128
	.cfi_offset b12, -136
	.cfi_offset b13, -144
	.cfi_offset b14, -152
	.cfi_offset b15, -160
	mov	x20, x2
	mov	x21, x1
	mov	x19, x0
	cmp	x2, #63
	adrp	x22, lCPI1_0@PAGE
	adrp	x23, lCPI1_1@PAGE
	adrp	x24, lCPI1_2@PAGE
	adrp	x25, lCPI1_3@PAGE
	adrp	x26, lCPI1_4@PAGE
	b.ls	LBB1_14
	and	x8, x20, #0xffffffffffffffc0
	mov	x2, x20
	mov	x1, x21
LBB1_2:
	ldp	q0, q1, [x1]
	ldr	q10, [x22, lCPI1_0@PAGEOFF]
	ldp	q2, q3, [x1, #32]
	cmlt	v0.16b, v0.16b, #0
	cmlt	v1.16b, v1.16b, #0
	cmlt	v3.16b, v3.16b, #0
	cmlt	v2.16b, v2.16b, #0
	and	v0.16b, v0.16b, v10.16b
	and	v1.16b, v1.16b, v10.16b
	and	v2.16b, v2.16b, v10.16b
	and	v3.16b, v3.16b, v10.16b
	addp	v0.16b, v0.16b, v1.16b
	addp	v1.16b, v2.16b, v3.16b
	addp	v0.16b, v0.16b, v1.16b
	addp	v0.16b, v0.16b, v0.16b
	fmov	x9, d0
	cbnz	x9, LBB1_5
	sub	x2, x2, #64
	add	x1, x1, #64
	cmp	x2, #63
	b.hi	LBB1_2
	movi	v0.2d, #0000000000000000
	mov	x3, xzr
	add	x1, x21, x8
	stp	q0, q0, [sp]
	stp	q0, q0, [sp, #32]
	stp	q0, q0, [sp, #64]
	stp	q0, q0, [sp, #96]
	stp	q0, q10, [sp, #128]
	b	LBB1_11
LBB1_5:
	movi	v3.2d, #0000000000000000
	movi	v18.2d, #0000000000000000
	mov	x8, x2
	movi	v22.2d, #0000000000000000
	movi	v19.2d, #0000000000000000
	mov	x9, x1
	movi	v21.2d, #0000000000000000
	movi	v11.2d, #0000000000000000
	movi	v12.2d, #0000000000000000
	movi	v13.2d, #0000000000000000
	movi	v14.2d, #0000000000000000
	b	LBB1_8
LBB1_6:
	ext	v4.16b, v3.16b, v0.16b, #15
	ext	v5.16b, v0.16b, v1.16b, #15
	ldr	q17, [x23, lCPI1_1@PAGEOFF]
	ext	v6.16b, v1.16b, v2.16b, #15
	ext	v7.16b, v2.16b, v15.16b, #15
	ldr	q24, [x24, lCPI1_2@PAGEOFF]
	movi	v16.16b, #15
	movi	v26.16b, #112
	ldr	q9, [x25, lCPI1_3@PAGEOFF]
	ext	v27.16b, v1.16b, v2.16b, #14
	ext	v28.16b, v2.16b, v15.16b, #13
	ext	v31.16b, v1.16b, v2.16b, #13
	ushr	v19.16b, v5.16b, #4
	ushr	v20.16b, v4.16b, #4
	ushr	v30.16b, v1.16b, #4
	ushr	v18.16b, v6.16b, #4
	ushr	v21.16b, v7.16b, #4
	ushr	v29.16b, v2.16b, #4
	and	v23.16b, v4.16b, v16.16b
	and	v25.16b, v7.16b, v16.16b
	and	v22.16b, v5.16b, v16.16b
	and	v16.16b, v6.16b, v16.16b
	tbl	v6.16b, { v17.16b }, v20.16b
	tbl	v7.16b, { v17.16b }, v19.16b
	tbl	v4.16b, { v17.16b }, v18.16b
	tbl	v5.16b, { v17.16b }, v21.16b
	ext	v21.16b, v0.16b, v1.16b, #14
	tbl	v18.16b, { v24.16b }, v23.16b
	tbl	v17.16b, { v24.16b }, v25.16b
	movi	v23.16b, #96
	ext	v25.16b, v0.16b, v1.16b, #13
	tbl	v19.16b, { v24.16b }, v22.16b
	tbl	v16.16b, { v24.16b }, v16.16b
	ext	v22.16b, v3.16b, v0.16b, #14
	ext	v24.16b, v2.16b, v15.16b, #14
	ext	v3.16b, v3.16b, v0.16b, #13
	ushr	v20.16b, v15.16b, #4
	ushr	v8.16b, v0.16b, #4
	tbl	v30.16b, { v9.16b }, v30.16b
	uqsub	v21.16b, v21.16b, v23.16b
	tbl	v29.16b, { v9.16b }, v29.16b
	and	v6.16b, v18.16b, v6.16b
	uqsub	v25.16b, v25.16b, v26.16b
	and	v7.16b, v19.16b, v7.16b
	and	v4.16b, v16.16b, v4.16b
	uqsub	v22.16b, v22.16b, v23.16b
	uqsub	v24.16b, v24.16b, v23.16b
	uqsub	v23.16b, v27.16b, v23.16b
	uqsub	v3.16b, v3.16b, v26.16b
	uqsub	v27.16b, v28.16b, v26.16b
	uqsub	v26.16b, v31.16b, v26.16b
	movi	v31.16b, #128
	tbl	v28.16b, { v9.16b }, v8.16b
	tbl	v20.16b, { v9.16b }, v20.16b
	orr	v18.16b, v21.16b, v25.16b
	ldr	q21, [x26, lCPI1_4@PAGEOFF]
	and	v5.16b, v17.16b, v5.16b
	movi	v19.2d, #0xffffffffffffffff
	and	v7.16b, v7.16b, v30.16b
	and	v4.16b, v4.16b, v29.16b
	orr	v3.16b, v22.16b, v3.16b
	orr	v16.16b, v23.16b, v26.16b
	orr	v17.16b, v24.16b, v27.16b
	and	v18.16b, v18.16b, v31.16b
	and	v6.16b, v6.16b, v28.16b
	and	v5.16b, v5.16b, v20.16b
	uqsub	v21.16b, v15.16b, v21.16b
	and	v20.16b, v3.16b, v31.16b
	and	v17.16b, v17.16b, v31.16b
	and	v16.16b, v16.16b, v31.16b
	eor	v3.16b, v7.16b, v18.16b
	uqsub	v18.16b, v0.16b, v19.16b
	uqsub	v22.16b, v1.16b, v19.16b
	uqsub	v19.16b, v2.16b, v19.16b
	eor	v0.16b, v4.16b, v16.16b
	eor	v1.16b, v5.16b, v17.16b
	eor	v2.16b, v6.16b, v20.16b
LBB1_7:
	orr	v11.16b, v2.16b, v11.16b
	orr	v12.16b, v3.16b, v12.16b
	sub	x8, x8, #64
	orr	v13.16b, v0.16b, v13.16b
	orr	v14.16b, v1.16b, v14.16b
	cmp	x8, #63
	mov	v3.16b, v15.16b
	add	x9, x9, #64
	b.ls	LBB1_10
LBB1_8:
	ldp	q0, q1, [x9]
	ldp	q2, q15, [x9, #32]
	cmlt	v4.16b, v0.16b, #0
	cmlt	v7.16b, v1.16b, #0
	cmlt	v5.16b, v15.16b, #0
	cmlt	v6.16b, v2.16b, #0
	and	v4.16b, v4.16b, v10.16b
	and	v7.16b, v7.16b, v10.16b
	and	v6.16b, v6.16b, v10.16b
	and	v5.16b, v5.16b, v10.16b
	addp	v4.16b, v4.16b, v7.16b
	addp	v5.16b, v6.16b, v5.16b
	addp	v4.16b, v4.16b, v5.16b
	addp	v4.16b, v4.16b, v4.16b
	fmov	x10, d4
	cbnz	x10, LBB1_6
	mov	v2.16b, v18.16b
	mov	v3.16b, v22.16b
	mov	v0.16b, v19.16b
	mov	v1.16b, v21.16b
	movi	v18.2d, #0000000000000000
	movi	v22.2d, #0000000000000000
	movi	v19.2d, #0000000000000000
	movi	v21.2d, #0000000000000000
	b	LBB1_7
LBB1_10:
	and	x3, x2, #0xffffffffffffffc0
	stp	q21, q19, [sp, #16]
	stp	q22, q18, [sp, #48]
	str	q15, [sp]
	stp	q14, q13, [sp, #80]
	stp	q12, q11, [sp, #112]
	str	q10, [sp, #144]
LBB1_11:
	sub	x0, x29, #144
	bl	"_simdutf8::last_block"
	ldp	q3, q1, [x29, #-144]
	ldr	q31, [sp, #144]
	ldp	q2, q0, [x29, #-112]
	cmlt	v4.16b, v3.16b, #0
	cmlt	v7.16b, v1.16b, #0
	cmlt	v5.16b, v0.16b, #0
	cmlt	v6.16b, v2.16b, #0
	and	v4.16b, v4.16b, v31.16b
	and	v7.16b, v7.16b, v31.16b
	and	v6.16b, v6.16b, v31.16b
	and	v5.16b, v5.16b, v31.16b
	addp	v4.16b, v4.16b, v7.16b
	addp	v5.16b, v6.16b, v5.16b
	ldp	q7, q6, [sp, #16]
	addp	v4.16b, v4.16b, v5.16b
	addp	v4.16b, v4.16b, v4.16b
	fmov	x8, d4
	ldp	q5, q4, [sp, #48]
	cbz	x8, LBB1_13
	ldr	q30, [sp]
	ext	v5.16b, v3.16b, v1.16b, #15
	ext	v6.16b, v1.16b, v2.16b, #15
	ext	v7.16b, v2.16b, v0.16b, #15
	movi	v16.16b, #15
	ldr	q17, [x23, lCPI1_1@PAGEOFF]
	ext	v4.16b, v30.16b, v3.16b, #15
	ldr	q18, [x24, lCPI1_2@PAGEOFF]
	ushr	v27.16b, v3.16b, #4
	ext	v28.16b, v3.16b, v1.16b, #14
	ext	v29.16b, v1.16b, v2.16b, #13
	ushr	v26.16b, v0.16b, #4
	ushr	v19.16b, v5.16b, #4
	ushr	v22.16b, v6.16b, #4
	ushr	v21.16b, v7.16b, #4
	and	v24.16b, v7.16b, v16.16b
	and	v25.16b, v6.16b, v16.16b
	ushr	v20.16b, v4.16b, #4
	and	v23.16b, v4.16b, v16.16b
	and	v16.16b, v5.16b, v16.16b
	tbl	v5.16b, { v17.16b }, v19.16b
	tbl	v6.16b, { v17.16b }, v22.16b
	movi	v22.16b, #96
	tbl	v19.16b, { v17.16b }, v21.16b
	ext	v21.16b, v2.16b, v0.16b, #14
	tbl	v4.16b, { v17.16b }, v20.16b
	tbl	v7.16b, { v18.16b }, v23.16b
	tbl	v16.16b, { v18.16b }, v16.16b
	tbl	v17.16b, { v18.16b }, v25.16b
	tbl	v18.16b, { v18.16b }, v24.16b
	ext	v24.16b, v2.16b, v0.16b, #13
	movi	v25.16b, #112
	ext	v20.16b, v1.16b, v2.16b, #14
	ext	v23.16b, v30.16b, v3.16b, #14
	uqsub	v21.16b, v21.16b, v22.16b
	ushr	v2.16b, v2.16b, #4
	and	v4.16b, v7.16b, v4.16b
	and	v5.16b, v16.16b, v5.16b
	and	v18.16b, v18.16b, v19.16b
	ext	v19.16b, v3.16b, v1.16b, #13
	ext	v3.16b, v30.16b, v3.16b, #13
	ldr	q30, [x25, lCPI1_3@PAGEOFF]
	uqsub	v24.16b, v24.16b, v25.16b
	uqsub	v23.16b, v23.16b, v22.16b
	uqsub	v20.16b, v20.16b, v22.16b
	uqsub	v22.16b, v28.16b, v22.16b
	ushr	v1.16b, v1.16b, #4
	tbl	v26.16b, { v30.16b }, v26.16b
	uqsub	v28.16b, v29.16b, v25.16b
	tbl	v27.16b, { v30.16b }, v27.16b
	uqsub	v19.16b, v19.16b, v25.16b
	uqsub	v3.16b, v3.16b, v25.16b
	movi	v25.16b, #128
	orr	v21.16b, v21.16b, v24.16b
	tbl	v1.16b, { v30.16b }, v1.16b
	tbl	v2.16b, { v30.16b }, v2.16b
	and	v6.16b, v17.16b, v6.16b
	and	v7.16b, v18.16b, v26.16b
	orr	v17.16b, v20.16b, v28.16b
	and	v4.16b, v4.16b, v27.16b
	orr	v16.16b, v22.16b, v19.16b
	ldr	q19, [x26, lCPI1_4@PAGEOFF]
	orr	v3.16b, v23.16b, v3.16b
	and	v18.16b, v21.16b, v25.16b
	and	v1.16b, v5.16b, v1.16b
	and	v2.16b, v6.16b, v2.16b
	uqsub	v0.16b, v0.16b, v19.16b
	and	v6.16b, v17.16b, v25.16b
	and	v5.16b, v16.16b, v25.16b
	and	v3.16b, v3.16b, v25.16b
	eor	v7.16b, v7.16b, v18.16b
	eor	v6.16b, v2.16b, v6.16b
	eor	v5.16b, v1.16b, v5.16b
	eor	v4.16b, v4.16b, v3.16b
	orr	v7.16b, v7.16b, v0.16b
LBB1_13:
	ldp	q1, q0, [sp, #112]
	ldp	q3, q2, [sp, #80]
	orr	v0.16b, v4.16b, v0.16b
	orr	v1.16b, v5.16b, v1.16b
	orr	v2.16b, v6.16b, v2.16b
	orr	v3.16b, v7.16b, v3.16b
	cmeq	v0.16b, v0.16b, #0
	cmeq	v1.16b, v1.16b, #0
	cmeq	v3.16b, v3.16b, #0
	cmeq	v2.16b, v2.16b, #0
	bic	v0.16b, v31.16b, v0.16b
	bic	v1.16b, v31.16b, v1.16b
	bic	v2.16b, v31.16b, v2.16b
	bic	v3.16b, v31.16b, v3.16b
	addp	v0.16b, v0.16b, v1.16b
	addp	v1.16b, v2.16b, v3.16b
	addp	v0.16b, v0.16b, v1.16b
	addp	v0.16b, v0.16b, v0.16b
	fmov	x8, d0
	cbz	x8, LBB1_36
LBB1_14:
	mov	x28, xzr
	b	LBB1_16
LBB1_15:
	ldp	q2, q1, [sp, #128]
	ldp	q4, q3, [sp, #96]
	orr	v1.16b, v5.16b, v1.16b
	orr	v2.16b, v6.16b, v2.16b
	orr	v3.16b, v7.16b, v3.16b
	orr	v4.16b, v16.16b, v4.16b
	cmeq	v1.16b, v1.16b, #0
	cmeq	v2.16b, v2.16b, #0
	cmeq	v4.16b, v4.16b, #0
	cmeq	v3.16b, v3.16b, #0
	bic	v1.16b, v0.16b, v1.16b
	bic	v2.16b, v0.16b, v2.16b
	bic	v3.16b, v0.16b, v3.16b
	bic	v0.16b, v0.16b, v4.16b
	addp	v1.16b, v1.16b, v2.16b
	addp	v0.16b, v3.16b, v0.16b
	addp	v0.16b, v1.16b, v0.16b
	addp	v0.16b, v0.16b, v0.16b
	fmov	x8, d0
	cbnz	x8, LBB1_34
LBB1_16:
	sub	x8, x20, x28
	mov	x27, x28
	cmp	x8, #1025
	b.lo	LBB1_34
	add	x8, x27, #1024
	mov	x10, xzr
	ldrsb	w9, [x21, x8]
	cmn	w9, #64
	cset	w9, lt
	csetm	x11, lt
	sub	x8, x8, x9
	ldrsb	w9, [x21, x8]
	cmn	w9, #64
	cset	w9, lt
	csetm	x12, lt
	sub	x8, x8, x9
	ldrsb	w9, [x21, x8]
	cmn	w9, #64
	cset	w9, lt
	csetm	x13, lt
	sub	x28, x8, x9
	add	x9, x21, x27
	sub	x8, x28, x27
	cmp	x8, #64
	b.lo	LBB1_22
	add	x11, x11, x12
	add	x1, x21, x27
	add	x11, x11, x13
	add	x11, x11, #960
LBB1_19:
	ldp	q1, q2, [x1]
	ldr	q0, [x22, lCPI1_0@PAGEOFF]
	ldp	q3, q4, [x1, #32]
	cmlt	v1.16b, v1.16b, #0
	cmlt	v2.16b, v2.16b, #0
	cmlt	v4.16b, v4.16b, #0
	cmlt	v3.16b, v3.16b, #0
	and	v1.16b, v1.16b, v0.16b
	and	v2.16b, v2.16b, v0.16b
	and	v3.16b, v3.16b, v0.16b
	and	v4.16b, v4.16b, v0.16b
	addp	v1.16b, v1.16b, v2.16b
	addp	v2.16b, v3.16b, v4.16b
	addp	v1.16b, v1.16b, v2.16b
	addp	v1.16b, v1.16b, v1.16b
	fmov	x12, d1
	cbnz	x12, LBB1_26
	sub	x12, x11, #64
	add	x10, x10, #64
	cmp	x11, #63
	add	x1, x1, #64
	sub	x8, x8, #64
	mov	x11, x12
	b.hi	LBB1_19
	add	x8, x12, #64
LBB1_22:
	movi	v0.2d, #0000000000000000
	mov	x3, xzr
	add	x1, x9, x10
	mov	x2, x8
LBB1_23:
	stp	q0, q0, [sp, #32]
	stp	q0, q0, [sp, #64]
	stp	q0, q0, [sp, #96]
	stp	q0, q0, [sp, #128]
	str	q0, [sp, #16]
LBB1_24:
	sub	x0, x29, #144
	bl	"_simdutf8::last_block"
	ldp	q4, q2, [x29, #-144]
	ldr	q0, [x22, lCPI1_0@PAGEOFF]
	ldp	q3, q1, [x29, #-112]
	cmlt	v5.16b, v4.16b, #0
	cmlt	v16.16b, v2.16b, #0
	cmlt	v6.16b, v1.16b, #0
	cmlt	v7.16b, v3.16b, #0
	and	v5.16b, v5.16b, v0.16b
	and	v16.16b, v16.16b, v0.16b
	and	v7.16b, v7.16b, v0.16b
	and	v6.16b, v6.16b, v0.16b
	addp	v5.16b, v5.16b, v16.16b
	addp	v6.16b, v7.16b, v6.16b
	ldp	q16, q7, [sp, #32]
	addp	v5.16b, v5.16b, v6.16b
	addp	v5.16b, v5.16b, v5.16b
	fmov	x8, d5
	ldp	q6, q5, [sp, #64]
	cbz	x8, LBB1_15
	ldr	q31, [sp, #16]
	ext	v6.16b, v4.16b, v2.16b, #15
	ext	v7.16b, v2.16b, v3.16b, #15
	ext	v16.16b, v3.16b, v1.16b, #15
	movi	v17.16b, #15
	ldr	q18, [x23, lCPI1_1@PAGEOFF]
	ext	v5.16b, v31.16b, v4.16b, #15
	ldr	q19, [x24, lCPI1_2@PAGEOFF]
	ushr	v28.16b, v4.16b, #4
	ext	v29.16b, v4.16b, v2.16b, #14
	ext	v30.16b, v2.16b, v3.16b, #13
	ushr	v27.16b, v1.16b, #4
	ushr	v20.16b, v6.16b, #4
	ushr	v23.16b, v7.16b, #4
	ushr	v22.16b, v16.16b, #4
	and	v25.16b, v16.16b, v17.16b
	and	v26.16b, v7.16b, v17.16b
	ushr	v21.16b, v5.16b, #4
	and	v24.16b, v5.16b, v17.16b
	and	v17.16b, v6.16b, v17.16b
	tbl	v6.16b, { v18.16b }, v20.16b
	tbl	v7.16b, { v18.16b }, v23.16b
	movi	v23.16b, #96
	tbl	v20.16b, { v18.16b }, v22.16b
	ext	v22.16b, v3.16b, v1.16b, #14
	tbl	v5.16b, { v18.16b }, v21.16b
	tbl	v16.16b, { v19.16b }, v24.16b
	tbl	v17.16b, { v19.16b }, v17.16b
	tbl	v18.16b, { v19.16b }, v26.16b
	tbl	v19.16b, { v19.16b }, v25.16b
	ext	v25.16b, v3.16b, v1.16b, #13
	movi	v26.16b, #112
	ext	v21.16b, v2.16b, v3.16b, #14
	ext	v24.16b, v31.16b, v4.16b, #14
	uqsub	v22.16b, v22.16b, v23.16b
	ushr	v3.16b, v3.16b, #4
	and	v5.16b, v16.16b, v5.16b
	and	v6.16b, v17.16b, v6.16b
	and	v19.16b, v19.16b, v20.16b
	ext	v20.16b, v4.16b, v2.16b, #13
	ext	v4.16b, v31.16b, v4.16b, #13
	ldr	q31, [x25, lCPI1_3@PAGEOFF]
	uqsub	v25.16b, v25.16b, v26.16b
	uqsub	v24.16b, v24.16b, v23.16b
	uqsub	v21.16b, v21.16b, v23.16b
	uqsub	v23.16b, v29.16b, v23.16b
	ushr	v2.16b, v2.16b, #4
	tbl	v27.16b, { v31.16b }, v27.16b
	uqsub	v29.16b, v30.16b, v26.16b
	tbl	v28.16b, { v31.16b }, v28.16b
	uqsub	v20.16b, v20.16b, v26.16b
	uqsub	v4.16b, v4.16b, v26.16b
	movi	v26.16b, #128
	orr	v22.16b, v22.16b, v25.16b
	tbl	v2.16b, { v31.16b }, v2.16b
	tbl	v3.16b, { v31.16b }, v3.16b
	and	v7.16b, v18.16b, v7.16b
	and	v16.16b, v19.16b, v27.16b
	orr	v18.16b, v21.16b, v29.16b
	and	v5.16b, v5.16b, v28.16b
	orr	v17.16b, v23.16b, v20.16b
	ldr	q20, [x26, lCPI1_4@PAGEOFF]
	orr	v4.16b, v24.16b, v4.16b
	and	v19.16b, v22.16b, v26.16b
	and	v2.16b, v6.16b, v2.16b
	and	v3.16b, v7.16b, v3.16b
	uqsub	v1.16b, v1.16b, v20.16b
	and	v7.16b, v18.16b, v26.16b
	and	v6.16b, v17.16b, v26.16b
	and	v4.16b, v4.16b, v26.16b
	eor	v16.16b, v16.16b, v19.16b
	eor	v7.16b, v3.16b, v7.16b
	eor	v6.16b, v2.16b, v6.16b
	eor	v5.16b, v5.16b, v4.16b
	orr	v16.16b, v16.16b, v1.16b
	b	LBB1_15
LBB1_26:
	add	x2, x11, #64
	cmp	x2, #64
	b.lo	LBB1_32
	movi	v4.2d, #0000000000000000
	movi	v16.2d, #0000000000000000
	mov	x9, xzr
	movi	v5.2d, #0000000000000000
	movi	v6.2d, #0000000000000000
	movi	v7.2d, #0000000000000000
	movi	v11.2d, #0000000000000000
	movi	v12.2d, #0000000000000000
	movi	v13.2d, #0000000000000000
	movi	v14.2d, #0000000000000000
	b	LBB1_30
LBB1_28:
	ext	v5.16b, v4.16b, v1.16b, #15
	ext	v6.16b, v1.16b, v2.16b, #15
	ldr	q18, [x23, lCPI1_1@PAGEOFF]
	ext	v7.16b, v2.16b, v3.16b, #15
	ext	v16.16b, v3.16b, v15.16b, #15
	ldr	q25, [x24, lCPI1_2@PAGEOFF]
	movi	v17.16b, #15
	movi	v27.16b, #112
	ldr	q10, [x25, lCPI1_3@PAGEOFF]
	ext	v28.16b, v2.16b, v3.16b, #14
	ext	v29.16b, v3.16b, v15.16b, #13
	ext	v8.16b, v2.16b, v3.16b, #13
	ushr	v20.16b, v6.16b, #4
	ushr	v21.16b, v5.16b, #4
	ushr	v30.16b, v3.16b, #4
	ushr	v19.16b, v7.16b, #4
	ushr	v22.16b, v16.16b, #4
	ushr	v31.16b, v2.16b, #4
	and	v23.16b, v6.16b, v17.16b
	and	v24.16b, v5.16b, v17.16b
	and	v26.16b, v16.16b, v17.16b
	and	v17.16b, v7.16b, v17.16b
	tbl	v7.16b, { v18.16b }, v21.16b
	tbl	v16.16b, { v18.16b }, v20.16b
	tbl	v5.16b, { v18.16b }, v19.16b
	tbl	v6.16b, { v18.16b }, v22.16b
	ext	v22.16b, v1.16b, v2.16b, #14
	tbl	v19.16b, { v25.16b }, v24.16b
	tbl	v20.16b, { v25.16b }, v23.16b
	tbl	v18.16b, { v25.16b }, v26.16b
	tbl	v17.16b, { v25.16b }, v17.16b
	ext	v23.16b, v4.16b, v1.16b, #14
	movi	v24.16b, #96
	ext	v25.16b, v3.16b, v15.16b, #14
	ext	v26.16b, v1.16b, v2.16b, #13
	ext	v4.16b, v4.16b, v1.16b, #13
	ushr	v21.16b, v15.16b, #4
	ushr	v9.16b, v1.16b, #4
	tbl	v31.16b, { v10.16b }, v31.16b
	tbl	v30.16b, { v10.16b }, v30.16b
	and	v7.16b, v19.16b, v7.16b
	and	v16.16b, v20.16b, v16.16b
	uqsub	v23.16b, v23.16b, v24.16b
	uqsub	v22.16b, v22.16b, v24.16b
	and	v5.16b, v17.16b, v5.16b
	uqsub	v25.16b, v25.16b, v24.16b
	uqsub	v26.16b, v26.16b, v27.16b
	uqsub	v24.16b, v28.16b, v24.16b
	uqsub	v4.16b, v4.16b, v27.16b
	uqsub	v28.16b, v29.16b, v27.16b
	uqsub	v27.16b, v8.16b, v27.16b
	tbl	v29.16b, { v10.16b }, v9.16b
	tbl	v21.16b, { v10.16b }, v21.16b
	movi	v8.16b, #128
	and	v6.16b, v18.16b, v6.16b
	movi	v20.2d, #0xffffffffffffffff
	orr	v19.16b, v22.16b, v26.16b
	orr	v4.16b, v23.16b, v4.16b
	orr	v17.16b, v24.16b, v27.16b
	orr	v18.16b, v25.16b, v28.16b
	and	v22.16b, v7.16b, v29.16b
	and	v7.16b, v16.16b, v31.16b
	and	v21.16b, v6.16b, v21.16b
	and	v16.16b, v19.16b, v8.16b
	and	v19.16b, v5.16b, v30.16b
	uqsub	v1.16b, v1.16b, v20.16b
	and	v4.16b, v4.16b, v8.16b
	and	v18.16b, v18.16b, v8.16b
	and	v6.16b, v17.16b, v8.16b
	ldr	q17, [x26, lCPI1_4@PAGEOFF]
	uqsub	v2.16b, v2.16b, v20.16b
	uqsub	v3.16b, v3.16b, v20.16b
	eor	v5.16b, v7.16b, v16.16b
	uqsub	v17.16b, v15.16b, v17.16b
	eor	v6.16b, v19.16b, v6.16b
	eor	v7.16b, v21.16b, v18.16b
	eor	v16.16b, v22.16b, v4.16b
LBB1_29:
	orr	v11.16b, v16.16b, v11.16b
	orr	v12.16b, v5.16b, v12.16b
	sub	x8, x8, #64
	orr	v13.16b, v6.16b, v13.16b
	orr	v14.16b, v7.16b, v14.16b
	add	x9, x9, #64
	mov	v4.16b, v15.16b
	mov	v16.16b, v1.16b
	cmp	x8, #63
	mov	v5.16b, v2.16b
	mov	v6.16b, v3.16b
	mov	v7.16b, v17.16b
	b.ls	LBB1_33
LBB1_30:
	add	x10, x1, x9
	ldp	q1, q2, [x10]
	ldp	q3, q15, [x10, #32]
	cmlt	v17.16b, v1.16b, #0
	cmlt	v20.16b, v2.16b, #0
	cmlt	v18.16b, v15.16b, #0
	cmlt	v19.16b, v3.16b, #0
	and	v17.16b, v17.16b, v0.16b
	and	v20.16b, v20.16b, v0.16b
	and	v19.16b, v19.16b, v0.16b
	and	v18.16b, v18.16b, v0.16b
	addp	v17.16b, v17.16b, v20.16b
	addp	v18.16b, v19.16b, v18.16b
	addp	v17.16b, v17.16b, v18.16b
	addp	v17.16b, v17.16b, v17.16b
	fmov	x10, d17
	cbnz	x10, LBB1_28
	movi	v1.2d, #0000000000000000
	movi	v2.2d, #0000000000000000
	movi	v3.2d, #0000000000000000
	movi	v17.2d, #0000000000000000
	b	LBB1_29
LBB1_32:
	movi	v0.2d, #0000000000000000
	mov	x3, xzr
	b	LBB1_23
LBB1_33:
	and	x3, x2, #0xffffffffffffffc0
	stp	q17, q3, [sp, #32]
	stp	q2, q1, [sp, #64]
	str	q15, [sp, #16]
	stp	q14, q13, [sp, #96]
	stp	q12, q11, [sp, #128]
	b	LBB1_24
LBB1_34:
	sub	x0, x29, #144
	add	x1, x21, x27
	sub	x2, x20, x27
	stp	xzr, xzr, [x29, #-144]
	stur	xzr, [x29, #-128]
	bl	"_core::str::utf8::from_utf8"
	ldurb	w8, [x29, #-144]
	cbz	x8, LBB1_36
	ldurb	w9, [x29, #-128]
	ldurb	w10, [x29, #-127]
	ldur	x11, [x29, #-136]
	cmp	w9, #1
	add	x21, x11, x27
	csel	w9, w10, wzr, eq
	cset	w20, eq
	and	x9, x9, #0xff
	b	LBB1_37
LBB1_36:
	mov	x9, xzr
LBB1_37:
	stp	x8, x21, [x19]
	stp	x20, x9, [x19, #16]
	.cfi_def_cfa wsp, 400
	ldp	x20, x19, [sp, #384]
	ldp	x22, x21, [sp, #368]
	ldp	x24, x23, [sp, #352]
	ldp	x26, x25, [sp, #336]
	ldp	x28, x27, [sp, #320]
	ldp	x29, x30, [sp, #304]
	ldp	d9, d8, [sp, #288]
	ldp	d11, d10, [sp, #272]
	ldp	d13, d12, [sp, #256]
	ldp	d15, d14, [sp, #240]
	add	sp, sp, #400
	.cfi_def_cfa_offset 0
	.cfi_restore w19
	.cfi_restore w20
	.cfi_restore w21
	.cfi_restore w22
	.cfi_restore w23
	.cfi_restore w24
	.cfi_restore w25
	.cfi_restore w26
	.cfi_restore w27
	.cfi_restore w28
	.cfi_restore w30
	.cfi_restore w29
	.cfi_restore b8
	.cfi_restore b9
	.cfi_restore b10
	.cfi_restore b11
	.cfi_restore b12
	.cfi_restore b13
	.cfi_restore b14
	.cfi_restore b15
	ret
Lfunc_end1:
	.cfi_endproc

	.section	__TEXT,__text,regular,pure_instructions
	.p2align	2
"_simdutf8::last_block":
	.cfi_startproc
	stp	x29, x30, [sp, #-32]!
	.cfi_def_cfa_offset 32
	str	x19, [sp, #16]
	mov	x29, sp
	.cfi_def_cfa w29, 32
	.cfi_offset w19, -16
	.cfi_offset w30, -24
	.cfi_offset w29, -32
	sub	x9, sp, #96
	and	sp, x9, #0xffffffffffffffc0
	movi	v0.2d, #0000000000000000
	mov	x19, x0
	sub	x2, x2, x3
	mov	x0, sp
	add	x1, x1, x3
	stp	q0, q0, [sp]
	stp	q0, q0, [sp, #32]
	bl	_memcpy
	ldp	q1, q0, [sp, #32]
	stp	q1, q0, [x19, #32]
	ldp	q2, q0, [sp]
	stp	q2, q0, [x19]
	mov	sp, x29
	.cfi_def_cfa wsp, 32
	ldr	x19, [sp, #16]
	ldp	x29, x30, [sp], #32
	.cfi_def_cfa_offset 0
	.cfi_restore w19
	.cfi_restore w30
	.cfi_restore w29
	ret
Lfunc_end2:
	.cfi_endproc

	.section	__TEXT,__text,regular,pure_instructions
	.p2align	2
"_core::str::utf8::from_utf8":
	.cfi_startproc
	sub	sp, sp, #64
	.cfi_def_cfa_offset 64
	stp	x29, x30, [sp, #16]
	stp	x22, x21, [sp, #32]
	stp	x20, x19, [sp, #48]
	add	x29, sp, #16
	.cfi_def_cfa w29, 48
	.cfi_offset w19, -8
	.cfi_offset w20, -16
	.cfi_offset w21, -24
	.cfi_offset w22, -32
	.cfi_offset w30, -40
	.cfi_offset w29, -48
	.cfi_remember_state
	mov	x20, x2
	mov	x21, x1
	mov	x19, x0
	cbz	x2, LBB3_51
	mov	x9, xzr
	sub	x22, x20, #8
	b	LBB3_6
LBB3_2:
	and	w11, w11, #0xff
	tbnz	w11, #7, LBB3_23
LBB3_3:
	mov	w12, #1
LBB3_4:
	add	x8, x12, x9
LBB3_5:
	cmp	x8, x20
	mov	x9, x8
	b.hs	LBB3_51
LBB3_6:
	add	x8, x21, x9
	sub	x10, x20, x9
	ldrsb	w11, [x8]
	cmp	x10, #2
	b.lo	LBB3_2
	tbnz	w11, #31, LBB3_2
	ldrsb	w11, [x8, #1]
	tbnz	w11, #31, LBB3_3
	cmp	x10, #7
	stp	x21, x20, [sp]
	b.hi	LBB3_28
	ldrsb	w8, [x21, x9]
	tbnz	w8, #31, LBB3_43
	add	x8, x9, #1
	cmp	x8, x20
	b.eq	LBB3_51
	ldrsb	w10, [x21, x8]
	tbnz	w10, #31, LBB3_5
	add	x8, x9, #2
	cmp	x8, x20
	b.eq	LBB3_51
	ldrsb	w10, [x21, x8]
	tbnz	w10, #31, LBB3_5
	add	x8, x9, #3
	cmp	x8, x20
	b.eq	LBB3_51
	ldrsb	w10, [x21, x8]
	tbnz	w10, #31, LBB3_5
	add	x8, x9, #4
	cmp	x8, x20
	b.eq	LBB3_51
	ldrsb	w10, [x21, x8]
	tbnz	w10, #31, LBB3_5
	add	x8, x9, #5
	cmp	x8, x20
	b.eq	LBB3_51
	ldrsb	w10, [x21, x8]
	tbnz	w10, #31, LBB3_5
	add	x8, x9, #6
	cmp	x8, x20
	b.eq	LBB3_51
	ldrsb	w9, [x21, x8]
	tbnz	w9, #31, LBB3_5
	b	LBB3_51
LBB3_23:
	cmp	w11, #194
	b.lo	LBB3_59
	cmp	w11, #223
	b.hi	LBB3_36
	cmp	x10, #2
	b.lo	LBB3_58
	ldrsb	w12, [x8, #1]
	cmn	w12, #65
	b.gt	LBB3_55
	mov	w12, #2
	b	LBB3_4
LBB3_28:
	ldr	x8, [x8]
	mov	w10, #8
	ands	x8, x8, #0x8080808080808080
	rbit	x8, x8
	clz	x8, x8
	lsr	x8, x8, #3
	csel	x8, x10, x8, eq
	add	x8, x8, x9
	add	x9, x9, #8
	cmp	x8, x9
	b.lo	LBB3_5
	sub	x9, x20, x8
	cmp	x9, #32
	b.lo	LBB3_32
LBB3_30:
	add	x9, x21, x8
	ldp	q1, q0, [x9]
	orr	v0.16b, v1.16b, v0.16b
	ext	v1.16b, v0.16b, v0.16b, #8
	orr	v0.8b, v0.8b, v1.8b
	fmov	x9, d0
	tst	x9, #0x8080808080808080
	b.ne	LBB3_32
	mov	x0, sp
	add	x1, x8, #32
	mov	x2, x20
	bl	"_core::slice::words::skip_far::<#52f9edcae2f82f51>"
	sub	x9, x20, x0
	mov	x8, x0
	cmp	x9, #31
	b.hi	LBB3_30
LBB3_32:
	sub	x9, x20, x8
LBB3_33:
	cmp	x9, #9
	b.lo	LBB3_50
	ldr	x10, [x21, x8]
	mov	w11, #8
	sub	x9, x9, #8
	ands	x10, x10, #0x8080808080808080
	rbit	x10, x10
	clz	x10, x10
	lsr	x10, x10, #3
	csel	x10, x11, x10, eq
	add	x11, x10, x8
	add	x8, x8, #8
	cmp	x11, x8
	b.hs	LBB3_33
	add	x8, x10, x8
	sub	x8, x8, #8
	b	LBB3_5
LBB3_36:
	cmp	w11, #239
	b.hi	LBB3_44
	cmp	x10, #3
	b.lo	LBB3_53
	ldrsb	w12, [x8, #1]
	cmn	w12, #65
	b.gt	LBB3_55
	ldrsb	w13, [x8, #2]
	cmn	w13, #65
	b.gt	LBB3_55
	and	w13, w12, #0xff
	mov	w14, #-14464
	add	w13, w13, w11, lsl #6
	add	w13, w13, w14
	cmp	w13, #32
	b.lo	LBB3_55
	cmp	w13, #896
	mov	w12, #3
	csel	x14, xzr, x12, lo
	cmp	w13, #864
	b.lo	LBB3_4
	mov	x12, x14
	b	LBB3_49
LBB3_43:
	mov	x8, x9
	b	LBB3_5
LBB3_44:
	cmp	x10, #4
	b.lo	LBB3_52
	ldrsb	w12, [x8, #1]
	cmn	w12, #65
	b.gt	LBB3_52
	ldrsb	w13, [x8, #2]
	cmn	w13, #65
	b.gt	LBB3_52
	ldrsb	w13, [x8, #3]
	cmn	w13, #65
	b.gt	LBB3_52
	and	w12, w12, #0xff
	mov	w13, #-15488
	add	w12, w12, w11, lsl #6
	add	w13, w12, w13
	mov	w12, #4
	cmp	w13, #272
	csel	x12, x12, xzr, lo
	cmp	w13, #16
	b.lo	LBB3_52
LBB3_49:
	cbnz	x12, LBB3_4
	b	LBB3_52
LBB3_50:
	ldr	x8, [x21, x22]
	mov	w9, #8
	ands	x8, x8, #0x8080808080808080
	rbit	x8, x8
	clz	x8, x8
	lsr	x8, x8, #3
	csel	x8, x9, x8, eq
	add	x8, x8, x22
	b	LBB3_5
LBB3_51:
	stp	xzr, x21, [x19]
	str	x20, [x19, #16]
	.cfi_def_cfa wsp, 64
	ldp	x20, x19, [sp, #48]
	ldp	x22, x21, [sp, #32]
	ldp	x29, x30, [sp, #16]
	add	sp, sp, #64
	.cfi_def_cfa_offset 0
	.cfi_restore w19
	.cfi_restore w20
	.cfi_restore w21
	.cfi_restore w22
	.cfi_restore w30
	.cfi_restore w29
	ret
LBB3_52:
	.cfi_restore_state
	.cfi_remember_state
	cmp	w11, #244
	b.hi	LBB3_59
LBB3_53:
	cmp	x10, #2
	b.lo	LBB3_58
	ldrb	w12, [x8, #1]
LBB3_55:
	cmp	w11, #240
	mov	w13, #-128
	mov	w14, #-112
	mov	w15, #-96
	csel	w13, w14, w13, eq
	cmp	w11, #224
	mov	w14, #-65
	csel	w13, w15, w13, eq
	mov	w15, #-113
	cmp	w11, #244
	and	w16, w13, #0xf0
	csel	w13, w15, w14, eq
	cmp	w11, #237
	mov	w11, #-97
	csel	w13, w11, w13, eq
	cmp	w16, w12, uxtb
	mov	w11, #257
	b.hi	LBB3_60
	and	w12, w12, #0xff
	cmp	w12, w13, uxtb
	b.hi	LBB3_60
	cmp	x10, #2
	b.ne	LBB3_61
LBB3_58:
	mov	x11, xzr
	b	LBB3_60
LBB3_59:
	mov	w11, #257
LBB3_60:
	mov	w8, #1
	str	x11, [x19, #16]
	stp	x8, x9, [x19]
	.cfi_def_cfa wsp, 64
	ldp	x20, x19, [sp, #48]
	ldp	x22, x21, [sp, #32]
	ldp	x29, x30, [sp, #16]
	add	sp, sp, #64
	.cfi_def_cfa_offset 0
	.cfi_restore w19
	.cfi_restore w20
	.cfi_restore w21
	.cfi_restore w22
	.cfi_restore w30
	.cfi_restore w29
	ret
LBB3_61:
	.cfi_restore_state
	ldrsb	w8, [x8, #2]
	cmn	w8, #65
	b.gt	LBB3_63
	cmp	x10, #3
	mov	w8, #769
	csel	x11, x8, xzr, hi
	b	LBB3_60
LBB3_63:
	mov	w11, #513
	b	LBB3_60
Lfunc_end3:
	.cfi_endproc

	.section	__TEXT,__text,regular,pure_instructions
	.p2align	2
"_core::slice::words::skip_far::<#52f9edcae2f82f51>":
	.cfi_startproc
	sub	x8, x2, x1
	cmp	x8, #64
	b.lo	LBB4_4
	ldr	x9, [x0]
LBB4_2:
	add	x10, x9, x1
	ldp	q0, q1, [x10, #32]
	ldp	q2, q3, [x10]
	orr	v1.16b, v3.16b, v1.16b
	orr	v0.16b, v2.16b, v0.16b
	orr	v0.16b, v0.16b, v1.16b
	ext	v1.16b, v0.16b, v0.16b, #8
	orr	v0.8b, v0.8b, v1.8b
	fmov	x10, d0
	tst	x10, #0x8080808080808080
	b.ne	LBB4_4
	sub	x8, x8, #64
	add	x1, x1, #64
	cmp	x8, #63
	b.hi	LBB4_2
LBB4_4:
	mov	x0, x1
	ret
Lfunc_end4:
	.cfi_endproc

	.section	__TEXT,__literal16,16byte_literals
	.p2align	4, 0x0
lCPI5_0:
	.byte	1
	.byte	2
	.byte	4
	.byte	8
	.byte	16
	.byte	32
	.byte	64
	.byte	128
	.byte	1
	.byte	2
	.byte	4
	.byte	8
	.byte	16
	.byte	32
	.byte	64
	.byte	128
	.section	__TEXT,__text,regular,pure_instructions
	.p2align	2
"_utf16_units::size::utf16_len":
	.cfi_startproc
	cmp	x1, #16
	b.hs	LBB5_11
	mov	x8, xzr
	cbnz	x1, LBB5_5
LBB5_2:
	mov	x0, x8
	ret
LBB5_3:
	mov	w10, #1
LBB5_4:
	cmp	w9, #16, lsl #12
	mov	w9, #4
	mov	w11, #2
	csel	x9, x11, x9, lo
	sub	x1, x1, x10
	add	x0, x0, x10
	add	x8, x9, x8
	cbz	x1, LBB5_2
LBB5_5:
	ldrsb	w10, [x0]
	and	w9, w10, #0xff
	tbz	w10, #31, LBB5_3
	ldrb	w10, [x0, #1]
	cmp	w9, #223
	and	w11, w10, #0x3f
	b.hi	LBB5_8
	bfi	w11, w9, #6, #5
	mov	w10, #2
	mov	w9, w11
	b	LBB5_4
LBB5_8:
	ldrb	w10, [x0, #2]
	cmp	w9, #239
	and	w10, w10, #0x3f
	b.hi	LBB5_10
	ubfiz	w9, w9, #12, #4
	orr	w9, w9, w11, lsl #6
	orr	w9, w9, w10
	mov	w10, #3
	b	LBB5_4
LBB5_10:
	ubfiz	w9, w9, #18, #3
	orr	w9, w9, w11, lsl #12
	ldrb	w11, [x0, #3]
	orr	w9, w9, w10, lsl #6
	mov	w10, #4
	bfxil	w9, w11, #0, #6
	b	LBB5_4
LBB5_11:
	cmp	x1, #64
	adrp	x9, lCPI5_0@PAGE
	mov	x8, xzr
	b.lo	LBB5_15
	mov	x10, x0
	mov	x11, x1
LBB5_13:
	movi	v0.16b, #191
	movi	v1.16b, #239
	ldr	q6, [x9, lCPI5_0@PAGEOFF]
	ldp	q2, q3, [x10]
	sub	x11, x11, #64
	ldp	q4, q5, [x10, #32]
	cmp	x11, #63
	add	x10, x10, #64
	cmgt	v7.16b, v3.16b, v0.16b
	cmgt	v16.16b, v2.16b, v0.16b
	cmhi	v2.16b, v2.16b, v1.16b
	cmgt	v17.16b, v5.16b, v0.16b
	cmgt	v0.16b, v4.16b, v0.16b
	cmhi	v5.16b, v5.16b, v1.16b
	cmhi	v4.16b, v4.16b, v1.16b
	cmhi	v1.16b, v3.16b, v1.16b
	and	v3.16b, v16.16b, v6.16b
	and	v7.16b, v7.16b, v6.16b
	and	v2.16b, v2.16b, v6.16b
	and	v0.16b, v0.16b, v6.16b
	and	v16.16b, v17.16b, v6.16b
	and	v5.16b, v5.16b, v6.16b
	and	v1.16b, v1.16b, v6.16b
	and	v4.16b, v4.16b, v6.16b
	addp	v3.16b, v3.16b, v7.16b
	addp	v0.16b, v0.16b, v16.16b
	addp	v1.16b, v2.16b, v1.16b
	addp	v2.16b, v4.16b, v5.16b
	addp	v0.16b, v3.16b, v0.16b
	addp	v1.16b, v1.16b, v2.16b
	addp	v0.16b, v0.16b, v0.16b
	addp	v1.16b, v1.16b, v1.16b
	cnt	v0.8b, v0.8b
	cnt	v1.8b, v1.8b
	addv	b0, v0.8b
	addv	b1, v1.8b
	fmov	x12, d0
	fmov	x13, d1
	add	x8, x12, x8
	add	x8, x8, x13
	b.hi	LBB5_13
	and	x11, x1, #0xffffffffffffffc0
	sub	x10, x1, x11
	cmp	x10, #16
	b.hs	LBB5_16
	b	LBB5_18
LBB5_15:
	mov	x11, xzr
	sub	x10, x1, xzr
	cmp	x10, #16
	b.lo	LBB5_18
LBB5_16:
	add	x11, x0, x11
LBB5_17:
	movi	v0.16b, #239
	ldr	q1, [x11], #16
	movi	v2.16b, #191
	ldr	q3, [x9, lCPI5_0@PAGEOFF]
	sub	x10, x10, #16
	cmp	x10, #15
	cmhi	v0.16b, v1.16b, v0.16b
	cmgt	v1.16b, v1.16b, v2.16b
	and	v0.16b, v0.16b, v3.16b
	and	v1.16b, v1.16b, v3.16b
	addp	v0.16b, v0.16b, v0.16b
	addp	v1.16b, v1.16b, v1.16b
	addp	v0.16b, v0.16b, v0.16b
	addp	v1.16b, v1.16b, v1.16b
	addp	v0.16b, v0.16b, v0.16b
	addp	v1.16b, v1.16b, v1.16b
	mov	h0, v0.h[0]
	mov	v0.h[2], v1.h[0]
	movi	d1, #0x00ffff0000ffff
	and	v0.8b, v0.8b, v1.8b
	cnt	v0.8b, v0.8b
	uaddlp	v0.4h, v0.8b
	uaddlp	v1.2s, v0.4h
	dup	v1.2s, v1.s[1]
	uadalp	v1.2s, v0.4h
	fmov	w12, s1
	add	x8, x8, x12
	b.hi	LBB5_17
LBB5_18:
	movi	v0.16b, #191
	movi	v1.16b, #239
	add	x11, x0, x1
	ldur	q2, [x11, #-16]
	mov	w12, #16
	sub	x10, x12, x10
	cmgt	v0.16b, v2.16b, v0.16b
	cmhi	v1.16b, v2.16b, v1.16b
	ldr	q2, [x9, lCPI5_0@PAGEOFF]
	and	v0.16b, v0.16b, v2.16b
	and	v1.16b, v1.16b, v2.16b
	addp	v0.16b, v0.16b, v0.16b
	addp	v1.16b, v1.16b, v1.16b
	addp	v0.16b, v0.16b, v0.16b
	addp	v1.16b, v1.16b, v1.16b
	addp	v0.16b, v0.16b, v0.16b
	addp	v1.16b, v1.16b, v1.16b
	umov	w9, v0.h[0]
	umov	w11, v1.h[0]
	lsr	x9, x9, x10
	lsr	x10, x11, x10
	fmov	d0, x9
	fmov	d1, x10
	cnt	v0.8b, v0.8b
	cnt	v1.8b, v1.8b
	addv	b0, v0.8b
	addv	b1, v1.8b
	fmov	w9, s0
	fmov	w10, s1
	add	x9, x9, x10
	add	x8, x9, x8
	lsl	x8, x8, #1
	mov	x0, x8
	ret
Lfunc_end5:
	.cfi_endproc

	.section	__TEXT,__text,regular,pure_instructions
	.p2align	2
"_utf16_units::unit::decode_surrogates":
	.cfi_startproc
	mov	w8, #10240
	mov	w9, #9216
	add	w8, w0, w8
	add	w9, w1, w9
	and	w8, w8, #0xffff
	lsl	w8, w8, #10
	add	w8, w8, w9, uxth
	add	w0, w8, #16, lsl #12
	ret
Lfunc_end6:
	.cfi_endproc

	.section	__TEXT,__text,regular,pure_instructions
	.p2align	2
"_utf16_units::text::has_few_ascii_units::<#8b18edd9dd9aa8df>":
	.cfi_startproc
	cmp	x1, #2
	b.hs	LBB7_2
	mov	w0, #1
	ret
LBB7_2:
	add	x8, x0, #1
LBB7_3:
	ldurh	w9, [x8, #-1]
	rev	w9, w9
	lsr	w9, w9, #16
	cmp	w9, #128
	cset	w0, lo
	b.hs	LBB7_5
	sub	x1, x1, #2
	add	x8, x8, #2
	cmp	x1, #2
	b.hs	LBB7_3
LBB7_5:
	ret
Lfunc_end7:
	.cfi_endproc

	.section	__TEXT,__text,regular,pure_instructions
	.p2align	2
"_utf16_units::text::has_few_ascii_units::<#418c2b53cf60437c>":
	.cfi_startproc
	cmp	x1, #2
	b.hs	LBB8_2
	mov	w0, #1
	ret
LBB8_2:
	add	x8, x0, #1
LBB8_3:
	ldurh	w9, [x8, #-1]
	cmp	w9, #128
	cset	w0, lo
	b.hs	LBB8_5
	sub	x1, x1, #2
	add	x8, x8, #2
	cmp	x1, #2
	b.hs	LBB8_3
LBB8_5:
	ret
Lfunc_end8:
	.cfi_endproc

	.section	__TEXT,__literal16,16byte_literals
	.p2align	4, 0x0
lCPI9_0:
	.byte	1
	.byte	2
	.byte	4
	.byte	8
	.byte	16
	.byte	32
	.byte	64
	.byte	128
	.byte	1
	.byte	2
	.byte	4
	.byte	8
	.byte	16
	.byte	32
	.byte	64
	.byte	128
	.section	__TEXT,__text,regular,pure_instructions
	.p2align	2
"_utf16_transcode::decode::valid_up_to::<#8b18edd9dd9aa8df>":
	.cfi_startproc
	cmp	x1, #2
	b.ne	LBB9_3
	ldrb	w8, [x0]
	and	w8, w8, #0xf8
	cmp	w8, #216
	b.ne	LBB9_10
LBB9_2:
	b	"_utf16_units::validate::valid_len::<#8b18edd9dd9aa8df>"
LBB9_3:
	cmp	x1, #7
	b.hi	LBB9_11
	cbz	x1, LBB9_26
	cmp	x1, #6
	b.eq	LBB9_16
	cmp	x1, #4
	b.ne	LBB9_2
	ldrb	w8, [x0]
	and	w8, w8, #0xf8
	cmp	w8, #216
	b.eq	LBB9_2
	ldrb	w8, [x0, #2]
	and	w8, w8, #0xf8
	cmp	w8, #216
	b.eq	LBB9_2
	mov	w1, #4
	mov	x0, x1
	ret
LBB9_10:
	mov	w1, #2
	mov	x0, x1
	ret
LBB9_11:
	cmp	x1, #64
	b.hi	LBB9_2
	tbnz	w1, #0, LBB9_2
	cmp	x1, #15
	b.hi	LBB9_20
	movi	v0.4h, #248
	ldr	d2, [x0]
	movi	v1.4h, #216
	and	v2.8b, v2.8b, v0.8b
	cmeq	v2.4h, v2.4h, v1.4h
	umaxv	h2, v2.4h
	fmov	w8, s2
	tbnz	w8, #0, LBB9_2
	add	x8, x0, x1
	ldur	d2, [x8, #-8]
	and	v0.8b, v2.8b, v0.8b
	cmeq	v0.4h, v0.4h, v1.4h
	umaxv	h0, v0.4h
	b	LBB9_23
LBB9_16:
	ldrb	w8, [x0]
	and	w8, w8, #0xf8
	cmp	w8, #216
	b.eq	LBB9_2
	ldrb	w8, [x0, #2]
	and	w8, w8, #0xf8
	cmp	w8, #216
	b.eq	LBB9_2
	ldrb	w8, [x0, #4]
	and	w8, w8, #0xf8
	cmp	w8, #216
	b.eq	LBB9_2
	mov	w1, #6
	mov	x0, x1
	ret
LBB9_20:
	cmp	x1, #31
	b.hi	LBB9_24
	ldr	q0, [x0]
	movi	v1.8b, #216
	xtn	v2.8b, v0.8h
	movi	v0.8b, #248
	and	v2.8b, v2.8b, v0.8b
	cmeq	v2.8b, v2.8b, v1.8b
	umaxv	b2, v2.8b
	fmov	w8, s2
	tbnz	w8, #0, LBB9_2
	add	x8, x0, x1
	ldur	q2, [x8, #-16]
	xtn	v2.8b, v2.8h
	and	v0.8b, v2.8b, v0.8b
	cmeq	v0.8b, v0.8b, v1.8b
	umaxv	b0, v0.8b
LBB9_23:
	fmov	w8, s0
	tbnz	w8, #0, LBB9_2
	b	LBB9_26
LBB9_24:
	ldp	q1, q0, [x0]
	adrp	x8, lCPI9_0@PAGE
	uzp1	v2.16b, v1.16b, v0.16b
	movi	v0.16b, #248
	movi	v1.16b, #216
	and	v2.16b, v2.16b, v0.16b
	cmeq	v3.16b, v2.16b, v1.16b
	ldr	q2, [x8, lCPI9_0@PAGEOFF]
	and	v3.16b, v3.16b, v2.16b
	addp	v3.16b, v3.16b, v3.16b
	addp	v3.16b, v3.16b, v3.16b
	addp	v3.16b, v3.16b, v3.16b
	umov	w8, v3.h[0]
	cbnz	w8, LBB9_2
	add	x8, x0, x1
	ldp	q4, q3, [x8, #-32]
	uzp1	v3.16b, v4.16b, v3.16b
	and	v0.16b, v3.16b, v0.16b
	cmeq	v0.16b, v0.16b, v1.16b
	and	v0.16b, v0.16b, v2.16b
	addp	v0.16b, v0.16b, v0.16b
	addp	v0.16b, v0.16b, v0.16b
	addp	v0.16b, v0.16b, v0.16b
	umov	w8, v0.h[0]
	cbnz	w8, LBB9_2
LBB9_26:
	mov	x0, x1
	ret
Lfunc_end9:
	.cfi_endproc

	.section	__TEXT,__literal16,16byte_literals
	.p2align	4, 0x0
lCPI10_0:
	.byte	1
	.byte	2
	.byte	4
	.byte	8
	.byte	16
	.byte	32
	.byte	64
	.byte	128
	.byte	1
	.byte	2
	.byte	4
	.byte	8
	.byte	16
	.byte	32
	.byte	64
	.byte	128
	.section	__TEXT,__text,regular,pure_instructions
	.p2align	2
"_utf16_units::validate::valid_len::<#8b18edd9dd9aa8df>":
	.cfi_startproc
	cmp	x1, #32
	b.hs	LBB10_9
	mov	x8, xzr
	cbnz	x1, LBB10_3
	b	LBB10_46
LBB10_2:
	mov	w9, #2
	add	x8, x9, x8
	cmp	x8, x1
	b.hs	LBB10_46
LBB10_3:
	sub	x10, x1, x8
	cmp	x10, #2
	b.lo	LBB10_46
	add	x9, x0, x8
	ldrb	w11, [x9]
	and	w12, w11, #0xf8
	cmp	w12, #216
	b.ne	LBB10_2
	cmp	x10, #4
	b.lo	LBB10_46
	mov	w10, #220
	and	w10, w11, w10
	cmp	w10, #220
	b.eq	LBB10_46
	ldrb	w9, [x9, #2]
	and	w9, w9, #0xfc
	cmp	w9, #220
	b.ne	LBB10_46
	mov	w9, #4
	add	x8, x9, x8
	cmp	x8, x1
	b.lo	LBB10_3
	b	LBB10_46
LBB10_9:
	cmp	x1, #64
	adrp	x9, lCPI10_0@PAGE
	mov	x10, xzr
	b.lo	LBB10_19
	and	x8, x1, #0xffffffffffffff80
	mov	x11, x1
	b	LBB10_13
LBB10_11:
	sub	x10, x10, #64
LBB10_12:
	sub	x11, x1, x10
	cmp	x11, #63
	b.ls	LBB10_29
LBB10_13:
	add	x12, x0, x10
	ldp	q1, q0, [x12]
	ldp	q3, q2, [x12, #32]
	uzp1	v0.16b, v1.16b, v0.16b
	movi	v1.16b, #248
	uzp1	v2.16b, v3.16b, v2.16b
	movi	v3.16b, #216
	and	v0.16b, v0.16b, v1.16b
	and	v1.16b, v2.16b, v1.16b
	cmeq	v2.16b, v0.16b, v3.16b
	ldr	q0, [x9, lCPI10_0@PAGEOFF]
	cmeq	v1.16b, v1.16b, v3.16b
	and	v2.16b, v2.16b, v0.16b
	and	v1.16b, v1.16b, v0.16b
	addp	v1.16b, v2.16b, v1.16b
	addp	v1.16b, v1.16b, v1.16b
	addp	v1.16b, v1.16b, v1.16b
	fmov	w12, s1
	cbnz	w12, LBB10_20
	add	x10, x10, #64
	cmp	x10, #256
	b.ne	LBB10_12
	cmp	x8, #256
	b.eq	LBB10_12
	mov	w10, #320
	sub	x11, x1, #256
LBB10_17:
	add	x12, x0, x10
	ldp	q2, q1, [x12, #-64]
	ldp	q4, q3, [x12, #-32]
	ldp	q6, q5, [x12]
	ldp	q16, q7, [x12, #32]
	uzp1	v1.16b, v2.16b, v1.16b
	movi	v2.16b, #248
	uzp1	v3.16b, v4.16b, v3.16b
	uzp1	v5.16b, v6.16b, v5.16b
	movi	v6.16b, #216
	uzp1	v4.16b, v16.16b, v7.16b
	and	v1.16b, v1.16b, v2.16b
	and	v3.16b, v3.16b, v2.16b
	and	v5.16b, v5.16b, v2.16b
	and	v2.16b, v4.16b, v2.16b
	cmeq	v1.16b, v1.16b, v6.16b
	cmeq	v3.16b, v3.16b, v6.16b
	cmeq	v4.16b, v5.16b, v6.16b
	cmeq	v2.16b, v2.16b, v6.16b
	and	v1.16b, v1.16b, v0.16b
	and	v3.16b, v3.16b, v0.16b
	and	v4.16b, v4.16b, v0.16b
	and	v2.16b, v2.16b, v0.16b
	addp	v1.16b, v1.16b, v3.16b
	addp	v2.16b, v4.16b, v2.16b
	addp	v1.16b, v1.16b, v1.16b
	addp	v2.16b, v2.16b, v2.16b
	addp	v1.16b, v1.16b, v1.16b
	addp	v2.16b, v2.16b, v2.16b
	orr	v1.16b, v2.16b, v1.16b
	fmov	w12, s1
	cbnz	w12, LBB10_11
	sub	x11, x11, #128
	add	x10, x10, #128
	cmp	x11, #127
	b.hi	LBB10_17
	b	LBB10_11
LBB10_19:
	mov	w8, wzr
	b	LBB10_30
LBB10_20:
	cmp	x11, #64
	b.ne	LBB10_45
LBB10_21:
	mov	w8, wzr
	b	LBB10_23
LBB10_22:
	lsr	w8, w12, #31
	cmp	x11, #63
	b.ls	LBB10_51
LBB10_23:
	add	x11, x0, x10
	ldp	q2, q1, [x11]
	ldp	q4, q3, [x11, #32]
	uzp1	v1.16b, v2.16b, v1.16b
	movi	v2.16b, #252
	uzp1	v3.16b, v4.16b, v3.16b
	movi	v4.16b, #216
	and	v1.16b, v1.16b, v2.16b
	and	v2.16b, v3.16b, v2.16b
	movi	v3.16b, #220
	cmeq	v5.16b, v2.16b, v4.16b
	cmeq	v4.16b, v1.16b, v4.16b
	cmeq	v2.16b, v2.16b, v3.16b
	cmeq	v1.16b, v1.16b, v3.16b
	and	v3.16b, v4.16b, v0.16b
	and	v4.16b, v5.16b, v0.16b
	and	v1.16b, v1.16b, v0.16b
	and	v2.16b, v2.16b, v0.16b
	addp	v3.16b, v3.16b, v4.16b
	addp	v1.16b, v1.16b, v2.16b
	addp	v2.16b, v3.16b, v3.16b
	addp	v1.16b, v1.16b, v1.16b
	addp	v2.16b, v2.16b, v2.16b
	addp	v1.16b, v1.16b, v1.16b
	fmov	w12, s2
	fmov	w13, s1
	lsl	w11, w12, #1
	bfxil	x11, x8, #0, #1
	cmp	x11, x13
	b.ne	LBB10_51
	add	x10, x10, #64
	sub	x11, x1, x10
	cmp	x11, #64
	b.lo	LBB10_22
	and	x8, x10, #0xff
	cbnz	x8, LBB10_22
	cbnz	w12, LBB10_22
LBB10_27:
	add	x8, x0, x10
	ldp	q2, q1, [x8]
	ldp	q4, q3, [x8, #32]
	uzp1	v1.16b, v2.16b, v1.16b
	movi	v2.16b, #248
	uzp1	v3.16b, v4.16b, v3.16b
	movi	v4.16b, #216
	and	v1.16b, v1.16b, v2.16b
	and	v2.16b, v3.16b, v2.16b
	cmeq	v1.16b, v1.16b, v4.16b
	cmeq	v2.16b, v2.16b, v4.16b
	and	v1.16b, v1.16b, v0.16b
	and	v2.16b, v2.16b, v0.16b
	addp	v1.16b, v1.16b, v2.16b
	addp	v1.16b, v1.16b, v1.16b
	addp	v1.16b, v1.16b, v1.16b
	fmov	w8, s1
	cbnz	w8, LBB10_22
	sub	x11, x11, #64
	add	x10, x10, #64
	cmp	x11, #63
	b.hi	LBB10_27
LBB10_29:
	mov	w8, wzr
	cmp	x11, #32
	b.lo	LBB10_31
LBB10_30:
	add	x11, x0, x10
	movi	v2.16b, #216
	ldr	q3, [x9, lCPI10_0@PAGEOFF]
	ldp	q1, q0, [x11]
	mov	w14, w8
	and	x14, x14, #0x1
	uzp1	v0.16b, v1.16b, v0.16b
	movi	v1.16b, #252
	and	v0.16b, v0.16b, v1.16b
	movi	v1.16b, #220
	cmeq	v2.16b, v0.16b, v2.16b
	cmeq	v0.16b, v0.16b, v1.16b
	and	v1.16b, v2.16b, v3.16b
	and	v0.16b, v0.16b, v3.16b
	addp	v1.16b, v1.16b, v1.16b
	addp	v0.16b, v0.16b, v0.16b
	addp	v1.16b, v1.16b, v1.16b
	addp	v0.16b, v0.16b, v0.16b
	addp	v1.16b, v1.16b, v1.16b
	addp	v0.16b, v0.16b, v0.16b
	umov	w11, v1.h[0]
	smov	w12, v1.h[0]
	umov	w13, v0.h[0]
	bfi	x14, x11, #1, #15
	cmp	w12, #0
	add	x11, x10, #32
	cset	w12, mi
	cmp	x14, w13, uxth
	csel	x10, x11, x10, eq
	csel	w8, w12, w8, eq
LBB10_31:
	sub	x11, x10, #2
	tst	w8, #0x1
	csel	x8, x11, x10, ne
	sub	x10, x1, x8
	cmp	x10, #32
	b.hi	LBB10_35
	sub	x10, x8, x1
	tbnz	w10, #0, LBB10_36
	add	x11, x0, x1
	movi	v2.16b, #220
	movi	v3.16b, #216
	ldp	q1, q0, [x11, #-32]
	add	x10, x10, #32
	lsr	x10, x10, #1
	uzp1	v0.16b, v1.16b, v0.16b
	movi	v1.16b, #252
	and	v0.16b, v0.16b, v1.16b
	cmeq	v1.16b, v0.16b, v2.16b
	cmeq	v0.16b, v0.16b, v3.16b
	ldr	q2, [x9, lCPI10_0@PAGEOFF]
	and	v1.16b, v1.16b, v2.16b
	and	v0.16b, v0.16b, v2.16b
	addp	v1.16b, v1.16b, v1.16b
	addp	v0.16b, v0.16b, v0.16b
	addp	v1.16b, v1.16b, v1.16b
	addp	v0.16b, v0.16b, v0.16b
	addp	v1.16b, v1.16b, v1.16b
	addp	v0.16b, v0.16b, v0.16b
	umov	w9, v1.h[0]
	umov	w11, v0.h[0]
	lsr	x9, x9, x10
	lsr	x10, x11, x10
	cmp	x9, x10, lsl #1
	b.ne	LBB10_36
	mov	x0, x1
	ret
LBB10_35:
	cmp	x10, #64
	b.hs	LBB10_37
LBB10_36:
	add	x8, xzr, x8
	cmp	x8, x1
	b.lo	LBB10_39
	b	LBB10_46
LBB10_37:
	add	x10, x0, x8
	ldp	q1, q0, [x10]
	ldp	q3, q2, [x10, #32]
	uzp1	v0.16b, v1.16b, v0.16b
	movi	v1.16b, #248
	uzp1	v2.16b, v3.16b, v2.16b
	movi	v3.16b, #216
	and	v0.16b, v0.16b, v1.16b
	and	v1.16b, v2.16b, v1.16b
	ldr	q2, [x9, lCPI10_0@PAGEOFF]
	cmeq	v0.16b, v0.16b, v3.16b
	cmeq	v1.16b, v1.16b, v3.16b
	and	v0.16b, v0.16b, v2.16b
	and	v1.16b, v1.16b, v2.16b
	addp	v0.16b, v0.16b, v1.16b
	addp	v0.16b, v0.16b, v0.16b
	addp	v0.16b, v0.16b, v0.16b
	fmov	w9, s0
	rbit	w9, w9
	clz	w9, w9
	lsl	w9, w9, #1
	add	x8, x9, x8
	cmp	x8, x1
	b.lo	LBB10_39
	b	LBB10_46
LBB10_38:
	mov	w9, #2
	add	x8, x9, x8
	cmp	x8, x1
	b.hs	LBB10_46
LBB10_39:
	sub	x10, x1, x8
	cmp	x10, #2
	b.lo	LBB10_46
	add	x9, x0, x8
	ldrb	w11, [x9]
	and	w12, w11, #0xf8
	cmp	w12, #216
	b.ne	LBB10_38
	cmp	x10, #4
	b.lo	LBB10_46
	mov	w10, #220
	and	w10, w11, w10
	cmp	w10, #220
	b.eq	LBB10_46
	ldrb	w9, [x9, #2]
	and	w9, w9, #0xfc
	cmp	w9, #220
	b.ne	LBB10_46
	mov	w9, #4
	add	x8, x9, x8
	cmp	x8, x1
	b.lo	LBB10_39
	b	LBB10_46
LBB10_45:
	rbit	w8, w12
	clz	w8, w8
	lsl	w8, w8, #1
	add	x8, x10, x8
	sub	x12, x1, x8
	cmp	x12, #2
	b.hs	LBB10_47
LBB10_46:
	mov	x0, x8
	ret
LBB10_47:
	add	x11, x0, x8
	ldrb	w13, [x11]
	and	w14, w13, #0xf8
	cmp	w14, #216
	b.ne	LBB10_21
	cmp	x12, #4
	b.lo	LBB10_46
	mov	w12, #220
	and	w12, w13, w12
	cmp	w12, #220
	b.eq	LBB10_46
	ldrb	w11, [x11, #2]
	and	w11, w11, #0xfc
	cmp	w11, #220
	b.eq	LBB10_21
	b	LBB10_46
LBB10_51:
	sub	x11, x1, x10
	cmp	x11, #32
	b.hs	LBB10_30
	b	LBB10_31
Lfunc_end10:
	.cfi_endproc

	.section	__TEXT,__text,regular,pure_instructions
	.p2align	2
"_utf16_units::validate::error_len::<#8b18edd9dd9aa8df>":
	.cfi_startproc
	cmp	x1, #2
	b.lo	LBB11_5
	ldrb	w8, [x0]
	and	w9, w8, #0xf8
	cmp	w9, #216
	b.ne	LBB11_5
	mov	w9, #220
	bics	wzr, w9, w8
	b.ne	LBB11_4
	mov	w1, #2
	mov	w0, #1
	ret
LBB11_4:
	cmp	x1, #4
	b.hs	LBB11_6
LBB11_5:
	mov	w0, wzr
	mov	w1, wzr
	ret
LBB11_6:
	ldrb	w8, [x0, #2]
	and	w8, w8, #0xfc
	cmp	w8, #220
	mov	w8, #2
	cset	w0, ne
	csel	w1, w8, wzr, ne
	ret
Lfunc_end11:
	.cfi_endproc

	.section	__TEXT,__literal16,16byte_literals
	.p2align	4, 0x0
lCPI12_0:
	.byte	1
	.byte	2
	.byte	4
	.byte	8
	.byte	16
	.byte	32
	.byte	64
	.byte	128
	.byte	1
	.byte	2
	.byte	4
	.byte	8
	.byte	16
	.byte	32
	.byte	64
	.byte	128
	.section	__TEXT,__text,regular,pure_instructions
	.p2align	2
"_utf16_transcode::decode::valid_up_to::<#418c2b53cf60437c>":
	.cfi_startproc
	cmp	x1, #2
	b.ne	LBB12_3
	ldrb	w8, [x0, #1]
	and	w8, w8, #0xf8
	cmp	w8, #216
	b.ne	LBB12_10
LBB12_2:
	b	"_utf16_units::validate::valid_len::<#418c2b53cf60437c>"
LBB12_3:
	cmp	x1, #7
	b.hi	LBB12_11
	cbz	x1, LBB12_26
	cmp	x1, #6
	b.eq	LBB12_16
	cmp	x1, #4
	b.ne	LBB12_2
	ldrb	w8, [x0, #1]
	and	w8, w8, #0xf8
	cmp	w8, #216
	b.eq	LBB12_2
	ldrb	w8, [x0, #3]
	and	w8, w8, #0xf8
	cmp	w8, #216
	b.eq	LBB12_2
	mov	w1, #4
	mov	x0, x1
	ret
LBB12_10:
	mov	w1, #2
	mov	x0, x1
	ret
LBB12_11:
	cmp	x1, #64
	b.hi	LBB12_2
	tbnz	w1, #0, LBB12_2
	cmp	x1, #15
	b.hi	LBB12_20
	ldr	d0, [x0]
	ushr	v1.4h, v0.4h, #8
	movi	v0.4h, #216
	bic	v1.4h, #7
	cmeq	v1.4h, v1.4h, v0.4h
	umaxv	h1, v1.4h
	fmov	w8, s1
	tbnz	w8, #0, LBB12_2
	add	x8, x0, x1
	ldur	d1, [x8, #-8]
	ushr	v1.4h, v1.4h, #8
	bic	v1.4h, #7
	cmeq	v0.4h, v1.4h, v0.4h
	umaxv	h0, v0.4h
	b	LBB12_23
LBB12_16:
	ldrb	w8, [x0, #1]
	and	w8, w8, #0xf8
	cmp	w8, #216
	b.eq	LBB12_2
	ldrb	w8, [x0, #3]
	and	w8, w8, #0xf8
	cmp	w8, #216
	b.eq	LBB12_2
	ldrb	w8, [x0, #5]
	and	w8, w8, #0xf8
	cmp	w8, #216
	b.eq	LBB12_2
	mov	w1, #6
	mov	x0, x1
	ret
LBB12_20:
	cmp	x1, #31
	b.hi	LBB12_24
	ldr	q1, [x0]
	movi	v0.8b, #248
	shrn	v2.8b, v1.8h, #8
	movi	v1.8b, #216
	and	v2.8b, v2.8b, v0.8b
	cmeq	v2.8b, v2.8b, v1.8b
	umaxv	b2, v2.8b
	fmov	w8, s2
	tbnz	w8, #0, LBB12_2
	add	x8, x0, x1
	ldur	q2, [x8, #-16]
	shrn	v2.8b, v2.8h, #8
	and	v0.8b, v2.8b, v0.8b
	cmeq	v0.8b, v0.8b, v1.8b
	umaxv	b0, v0.8b
LBB12_23:
	fmov	w8, s0
	tbnz	w8, #0, LBB12_2
	b	LBB12_26
LBB12_24:
	ldp	q1, q0, [x0]
	adrp	x8, lCPI12_0@PAGE
	uzp2	v2.16b, v1.16b, v0.16b
	movi	v0.16b, #248
	movi	v1.16b, #216
	and	v2.16b, v2.16b, v0.16b
	cmeq	v3.16b, v2.16b, v1.16b
	ldr	q2, [x8, lCPI12_0@PAGEOFF]
	and	v3.16b, v3.16b, v2.16b
	addp	v3.16b, v3.16b, v3.16b
	addp	v3.16b, v3.16b, v3.16b
	addp	v3.16b, v3.16b, v3.16b
	umov	w8, v3.h[0]
	cbnz	w8, LBB12_2
	add	x8, x0, x1
	ldp	q4, q3, [x8, #-32]
	uzp2	v3.16b, v4.16b, v3.16b
	and	v0.16b, v3.16b, v0.16b
	cmeq	v0.16b, v0.16b, v1.16b
	and	v0.16b, v0.16b, v2.16b
	addp	v0.16b, v0.16b, v0.16b
	addp	v0.16b, v0.16b, v0.16b
	addp	v0.16b, v0.16b, v0.16b
	umov	w8, v0.h[0]
	cbnz	w8, LBB12_2
LBB12_26:
	mov	x0, x1
	ret
Lfunc_end12:
	.cfi_endproc

	.section	__TEXT,__literal16,16byte_literals
	.p2align	4, 0x0
lCPI13_0:
	.byte	1
	.byte	2
	.byte	4
	.byte	8
	.byte	16
	.byte	32
	.byte	64
	.byte	128
	.byte	1
	.byte	2
	.byte	4
	.byte	8
	.byte	16
	.byte	32
	.byte	64
	.byte	128
	.section	__TEXT,__text,regular,pure_instructions
	.p2align	2
"_utf16_units::validate::valid_len::<#418c2b53cf60437c>":
	.cfi_startproc
	cmp	x1, #32
	b.hs	LBB13_9
	mov	x8, xzr
	cbnz	x1, LBB13_3
	b	LBB13_46
LBB13_2:
	mov	w9, #2
	add	x8, x9, x8
	cmp	x8, x1
	b.hs	LBB13_46
LBB13_3:
	sub	x10, x1, x8
	cmp	x10, #2
	b.lo	LBB13_46
	add	x9, x0, x8
	ldrb	w11, [x9, #1]
	and	w12, w11, #0xf8
	cmp	w12, #216
	b.ne	LBB13_2
	cmp	x10, #4
	b.lo	LBB13_46
	mov	w10, #220
	and	w10, w11, w10
	cmp	w10, #220
	b.eq	LBB13_46
	ldrb	w9, [x9, #3]
	and	w9, w9, #0xfc
	cmp	w9, #220
	b.ne	LBB13_46
	mov	w9, #4
	add	x8, x9, x8
	cmp	x8, x1
	b.lo	LBB13_3
	b	LBB13_46
LBB13_9:
	cmp	x1, #64
	adrp	x9, lCPI13_0@PAGE
	mov	x10, xzr
	b.lo	LBB13_19
	and	x8, x1, #0xffffffffffffff80
	mov	x11, x1
	b	LBB13_13
LBB13_11:
	sub	x10, x10, #64
LBB13_12:
	sub	x11, x1, x10
	cmp	x11, #63
	b.ls	LBB13_29
LBB13_13:
	add	x12, x0, x10
	ldp	q1, q0, [x12]
	ldp	q3, q2, [x12, #32]
	uzp2	v0.16b, v1.16b, v0.16b
	movi	v1.16b, #248
	uzp2	v2.16b, v3.16b, v2.16b
	movi	v3.16b, #216
	and	v0.16b, v0.16b, v1.16b
	and	v1.16b, v2.16b, v1.16b
	cmeq	v2.16b, v0.16b, v3.16b
	ldr	q0, [x9, lCPI13_0@PAGEOFF]
	cmeq	v1.16b, v1.16b, v3.16b
	and	v2.16b, v2.16b, v0.16b
	and	v1.16b, v1.16b, v0.16b
	addp	v1.16b, v2.16b, v1.16b
	addp	v1.16b, v1.16b, v1.16b
	addp	v1.16b, v1.16b, v1.16b
	fmov	w12, s1
	cbnz	w12, LBB13_20
	add	x10, x10, #64
	cmp	x10, #256
	b.ne	LBB13_12
	cmp	x8, #256
	b.eq	LBB13_12
	mov	w10, #320
	sub	x11, x1, #256
LBB13_17:
	add	x12, x0, x10
	ldp	q2, q1, [x12, #-64]
	ldp	q4, q3, [x12, #-32]
	ldp	q6, q5, [x12]
	ldp	q16, q7, [x12, #32]
	uzp2	v1.16b, v2.16b, v1.16b
	movi	v2.16b, #248
	uzp2	v3.16b, v4.16b, v3.16b
	uzp2	v5.16b, v6.16b, v5.16b
	movi	v6.16b, #216
	uzp2	v4.16b, v16.16b, v7.16b
	and	v1.16b, v1.16b, v2.16b
	and	v3.16b, v3.16b, v2.16b
	and	v5.16b, v5.16b, v2.16b
	and	v2.16b, v4.16b, v2.16b
	cmeq	v1.16b, v1.16b, v6.16b
	cmeq	v3.16b, v3.16b, v6.16b
	cmeq	v4.16b, v5.16b, v6.16b
	cmeq	v2.16b, v2.16b, v6.16b
	and	v1.16b, v1.16b, v0.16b
	and	v3.16b, v3.16b, v0.16b
	and	v4.16b, v4.16b, v0.16b
	and	v2.16b, v2.16b, v0.16b
	addp	v1.16b, v1.16b, v3.16b
	addp	v2.16b, v4.16b, v2.16b
	addp	v1.16b, v1.16b, v1.16b
	addp	v2.16b, v2.16b, v2.16b
	addp	v1.16b, v1.16b, v1.16b
	addp	v2.16b, v2.16b, v2.16b
	orr	v1.16b, v2.16b, v1.16b
	fmov	w12, s1
	cbnz	w12, LBB13_11
	sub	x11, x11, #128
	add	x10, x10, #128
	cmp	x11, #127
	b.hi	LBB13_17
	b	LBB13_11
LBB13_19:
	mov	w8, wzr
	b	LBB13_30
LBB13_20:
	cmp	x11, #64
	b.ne	LBB13_45
LBB13_21:
	mov	w8, wzr
	b	LBB13_23
LBB13_22:
	lsr	w8, w12, #31
	cmp	x11, #63
	b.ls	LBB13_51
LBB13_23:
	add	x11, x0, x10
	ldp	q2, q1, [x11]
	ldp	q4, q3, [x11, #32]
	uzp2	v1.16b, v2.16b, v1.16b
	movi	v2.16b, #252
	uzp2	v3.16b, v4.16b, v3.16b
	movi	v4.16b, #216
	and	v1.16b, v1.16b, v2.16b
	and	v2.16b, v3.16b, v2.16b
	movi	v3.16b, #220
	cmeq	v5.16b, v2.16b, v4.16b
	cmeq	v4.16b, v1.16b, v4.16b
	cmeq	v2.16b, v2.16b, v3.16b
	cmeq	v1.16b, v1.16b, v3.16b
	and	v3.16b, v4.16b, v0.16b
	and	v4.16b, v5.16b, v0.16b
	and	v1.16b, v1.16b, v0.16b
	and	v2.16b, v2.16b, v0.16b
	addp	v3.16b, v3.16b, v4.16b
	addp	v1.16b, v1.16b, v2.16b
	addp	v2.16b, v3.16b, v3.16b
	addp	v1.16b, v1.16b, v1.16b
	addp	v2.16b, v2.16b, v2.16b
	addp	v1.16b, v1.16b, v1.16b
	fmov	w12, s2
	fmov	w13, s1
	lsl	w11, w12, #1
	bfxil	x11, x8, #0, #1
	cmp	x11, x13
	b.ne	LBB13_51
	add	x10, x10, #64
	sub	x11, x1, x10
	cmp	x11, #64
	b.lo	LBB13_22
	and	x8, x10, #0xff
	cbnz	x8, LBB13_22
	cbnz	w12, LBB13_22
LBB13_27:
	add	x8, x0, x10
	ldp	q2, q1, [x8]
	ldp	q4, q3, [x8, #32]
	uzp2	v1.16b, v2.16b, v1.16b
	movi	v2.16b, #248
	uzp2	v3.16b, v4.16b, v3.16b
	movi	v4.16b, #216
	and	v1.16b, v1.16b, v2.16b
	and	v2.16b, v3.16b, v2.16b
	cmeq	v1.16b, v1.16b, v4.16b
	cmeq	v2.16b, v2.16b, v4.16b
	and	v1.16b, v1.16b, v0.16b
	and	v2.16b, v2.16b, v0.16b
	addp	v1.16b, v1.16b, v2.16b
	addp	v1.16b, v1.16b, v1.16b
	addp	v1.16b, v1.16b, v1.16b
	fmov	w8, s1
	cbnz	w8, LBB13_22
	sub	x11, x11, #64
	add	x10, x10, #64
	cmp	x11, #63
	b.hi	LBB13_27
LBB13_29:
	mov	w8, wzr
	cmp	x11, #32
	b.lo	LBB13_31
LBB13_30:
	add	x11, x0, x10
	movi	v2.16b, #216
	ldr	q3, [x9, lCPI13_0@PAGEOFF]
	ldp	q1, q0, [x11]
	mov	w14, w8
	and	x14, x14, #0x1
	uzp2	v0.16b, v1.16b, v0.16b
	movi	v1.16b, #252
	and	v0.16b, v0.16b, v1.16b
	movi	v1.16b, #220
	cmeq	v2.16b, v0.16b, v2.16b
	cmeq	v0.16b, v0.16b, v1.16b
	and	v1.16b, v2.16b, v3.16b
	and	v0.16b, v0.16b, v3.16b
	addp	v1.16b, v1.16b, v1.16b
	addp	v0.16b, v0.16b, v0.16b
	addp	v1.16b, v1.16b, v1.16b
	addp	v0.16b, v0.16b, v0.16b
	addp	v1.16b, v1.16b, v1.16b
	addp	v0.16b, v0.16b, v0.16b
	umov	w11, v1.h[0]
	smov	w12, v1.h[0]
	umov	w13, v0.h[0]
	bfi	x14, x11, #1, #15
	cmp	w12, #0
	add	x11, x10, #32
	cset	w12, mi
	cmp	x14, w13, uxth
	csel	x10, x11, x10, eq
	csel	w8, w12, w8, eq
LBB13_31:
	sub	x11, x10, #2
	tst	w8, #0x1
	csel	x8, x11, x10, ne
	sub	x10, x1, x8
	cmp	x10, #32
	b.hi	LBB13_35
	sub	x10, x8, x1
	tbnz	w10, #0, LBB13_36
	add	x11, x0, x1
	movi	v2.16b, #220
	movi	v3.16b, #216
	ldp	q1, q0, [x11, #-32]
	add	x10, x10, #32
	lsr	x10, x10, #1
	uzp2	v0.16b, v1.16b, v0.16b
	movi	v1.16b, #252
	and	v0.16b, v0.16b, v1.16b
	cmeq	v1.16b, v0.16b, v2.16b
	cmeq	v0.16b, v0.16b, v3.16b
	ldr	q2, [x9, lCPI13_0@PAGEOFF]
	and	v1.16b, v1.16b, v2.16b
	and	v0.16b, v0.16b, v2.16b
	addp	v1.16b, v1.16b, v1.16b
	addp	v0.16b, v0.16b, v0.16b
	addp	v1.16b, v1.16b, v1.16b
	addp	v0.16b, v0.16b, v0.16b
	addp	v1.16b, v1.16b, v1.16b
	addp	v0.16b, v0.16b, v0.16b
	umov	w9, v1.h[0]
	umov	w11, v0.h[0]
	lsr	x9, x9, x10
	lsr	x10, x11, x10
	cmp	x9, x10, lsl #1
	b.ne	LBB13_36
	mov	x0, x1
	ret
LBB13_35:
	cmp	x10, #64
	b.hs	LBB13_37
LBB13_36:
	add	x8, xzr, x8
	cmp	x8, x1
	b.lo	LBB13_39
	b	LBB13_46
LBB13_37:
	add	x10, x0, x8
	ldp	q1, q0, [x10]
	ldp	q3, q2, [x10, #32]
	uzp2	v0.16b, v1.16b, v0.16b
	movi	v1.16b, #248
	uzp2	v2.16b, v3.16b, v2.16b
	movi	v3.16b, #216
	and	v0.16b, v0.16b, v1.16b
	and	v1.16b, v2.16b, v1.16b
	ldr	q2, [x9, lCPI13_0@PAGEOFF]
	cmeq	v0.16b, v0.16b, v3.16b
	cmeq	v1.16b, v1.16b, v3.16b
	and	v0.16b, v0.16b, v2.16b
	and	v1.16b, v1.16b, v2.16b
	addp	v0.16b, v0.16b, v1.16b
	addp	v0.16b, v0.16b, v0.16b
	addp	v0.16b, v0.16b, v0.16b
	fmov	w9, s0
	rbit	w9, w9
	clz	w9, w9
	lsl	w9, w9, #1
	add	x8, x9, x8
	cmp	x8, x1
	b.lo	LBB13_39
	b	LBB13_46
LBB13_38:
	mov	w9, #2
	add	x8, x9, x8
	cmp	x8, x1
	b.hs	LBB13_46
LBB13_39:
	sub	x10, x1, x8
	cmp	x10, #2
	b.lo	LBB13_46
	add	x9, x0, x8
	ldrb	w11, [x9, #1]
	and	w12, w11, #0xf8
	cmp	w12, #216
	b.ne	LBB13_38
	cmp	x10, #4
	b.lo	LBB13_46
	mov	w10, #220
	and	w10, w11, w10
	cmp	w10, #220
	b.eq	LBB13_46
	ldrb	w9, [x9, #3]
	and	w9, w9, #0xfc
	cmp	w9, #220
	b.ne	LBB13_46
	mov	w9, #4
	add	x8, x9, x8
	cmp	x8, x1
	b.lo	LBB13_39
	b	LBB13_46
LBB13_45:
	rbit	w8, w12
	clz	w8, w8
	lsl	w8, w8, #1
	add	x8, x10, x8
	sub	x12, x1, x8
	cmp	x12, #2
	b.hs	LBB13_47
LBB13_46:
	mov	x0, x8
	ret
LBB13_47:
	add	x11, x0, x8
	ldrb	w13, [x11, #1]
	and	w14, w13, #0xf8
	cmp	w14, #216
	b.ne	LBB13_21
	cmp	x12, #4
	b.lo	LBB13_46
	mov	w12, #220
	and	w12, w13, w12
	cmp	w12, #220
	b.eq	LBB13_46
	ldrb	w11, [x11, #3]
	and	w11, w11, #0xfc
	cmp	w11, #220
	b.eq	LBB13_21
	b	LBB13_46
LBB13_51:
	sub	x11, x1, x10
	cmp	x11, #32
	b.hs	LBB13_30
	b	LBB13_31
Lfunc_end13:
	.cfi_endproc

	.section	__TEXT,__text,regular,pure_instructions
	.p2align	2
"_utf16_units::validate::error_len::<#418c2b53cf60437c>":
	.cfi_startproc
	cmp	x1, #2
	b.lo	LBB14_5
	ldrb	w8, [x0, #1]
	and	w9, w8, #0xf8
	cmp	w9, #216
	b.ne	LBB14_5
	mov	w9, #220
	bics	wzr, w9, w8
	b.ne	LBB14_4
	mov	w1, #2
	mov	w0, #1
	ret
LBB14_4:
	cmp	x1, #4
	b.hs	LBB14_6
LBB14_5:
	mov	w0, wzr
	mov	w1, wzr
	ret
LBB14_6:
	ldrb	w8, [x0, #3]
	and	w8, w8, #0xfc
	cmp	w8, #220
	mov	w8, #2
	cset	w0, ne
	csel	w1, w8, wzr, ne
	ret
Lfunc_end14:
	.cfi_endproc

	.section	__TEXT,__text,regular,pure_instructions
	.p2align	2
"_utf16_units::text::count_few::<#8b18edd9dd9aa8df>":
	.cfi_startproc
	mov	x8, xzr
	cbz	x1, LBB15_2
LBB15_1:
	ldrb	w9, [x0]
	mov	w10, #4
	add	x8, x8, #1
	and	w9, w9, #0xfc
	cmp	w9, #216
	mov	w9, #2
	csel	x9, x10, x9, eq
	subs	x1, x1, x9
	add	x0, x0, x9
	b.ne	LBB15_1
LBB15_2:
	mov	x0, x8
	ret
Lfunc_end15:
	.cfi_endproc

	.section	__TEXT,__text,regular,pure_instructions
	.p2align	2
"_utf16_units::text::count_few::<#418c2b53cf60437c>":
	.cfi_startproc
	mov	x8, xzr
	cbz	x1, LBB16_2
LBB16_1:
	ldrb	w9, [x0, #1]
	mov	w10, #4
	add	x8, x8, #1
	and	w9, w9, #0xfc
	cmp	w9, #216
	mov	w9, #2
	csel	x9, x10, x9, eq
	subs	x1, x1, x9
	add	x0, x0, x9
	b.ne	LBB16_1
LBB16_2:
	mov	x0, x8
	ret
Lfunc_end16:
	.cfi_endproc

	.section	__TEXT,__literal16,16byte_literals
	.p2align	4, 0x0
lCPI17_0:
	.byte	1
	.byte	2
	.byte	4
	.byte	8
	.byte	16
	.byte	32
	.byte	64
	.byte	128
	.byte	1
	.byte	2
	.byte	4
	.byte	8
	.byte	16
	.byte	32
	.byte	64
	.byte	128
	.section	__TEXT,__text,regular,pure_instructions
	.p2align	2
"_utf16_transcode::sizes::to_utf8_lossy_len::<#8b18edd9dd9aa8df>":
	.cfi_startproc
	stp	x29, x30, [sp, #-80]!
	.cfi_def_cfa_offset 80
	str	x25, [sp, #16]
	stp	x24, x23, [sp, #32]
	stp	x22, x21, [sp, #48]
	stp	x20, x19, [sp, #64]
	mov	x29, sp
	.cfi_def_cfa w29, 80
	.cfi_offset w19, -8
	.cfi_offset w20, -16
	.cfi_offset w21, -24
	.cfi_offset w22, -32
	.cfi_offset w23, -40
	.cfi_offset w24, -48
	.cfi_offset w25, -64
	.cfi_offset w30, -72
	.cfi_offset w29, -80
	mov	x20, x1
	mov	x21, x0
	mov	x19, xzr
	cmp	x1, #2
	b.ne	LBB17_6
LBB17_1:
	ldrb	w8, [x21]
LBB17_2:
	and	w8, w8, #0xf8
	cmp	w8, #216
	b.ne	LBB17_25
LBB17_3:
	mov	x0, x21
	mov	x1, x20
	bl	"_utf16_units::validate::valid_len::<#8b18edd9dd9aa8df>"
	subs	x1, x20, x0
	b.eq	LBB17_25
	mov	x22, x0
	add	x24, x21, x0
	add	x0, x21, x0
	bl	"_utf16_units::validate::error_len::<#8b18edd9dd9aa8df>"
	mov	w23, w1
	and	w25, w0, #0xff
	mov	x0, x21
	mov	x1, x22
	bl	"_utf16_to_utf8::lens::utf8_len::<#8b18edd9dd9aa8df>"
	add	x8, x19, x0
	cmp	w25, #1
	add	x19, x8, #3
	b.ne	LBB17_26
	and	x8, x23, #0xff
	sub	x9, x20, x22
	add	x21, x24, x8
	sub	x20, x9, x8
	cmp	x20, #2
	b.eq	LBB17_1
LBB17_6:
	cmp	x20, #7
	b.hi	LBB17_10
	cmp	x20, #4
	b.eq	LBB17_18
	cmp	x20, #6
	b.eq	LBB17_15
	cbnz	x20, LBB17_3
	b	LBB17_25
LBB17_10:
	cmp	x20, #64
	b.hi	LBB17_3
	tbnz	w20, #0, LBB17_3
	cmp	x20, #15
	b.hi	LBB17_20
	movi	v0.4h, #248
	ldr	d2, [x21]
	movi	v1.4h, #216
	and	v2.8b, v2.8b, v0.8b
	cmeq	v2.4h, v2.4h, v1.4h
	umaxv	h2, v2.4h
	fmov	w8, s2
	tbnz	w8, #0, LBB17_3
	add	x8, x21, x20
	ldur	d2, [x8, #-8]
	and	v0.8b, v2.8b, v0.8b
	cmeq	v0.4h, v0.4h, v1.4h
	umaxv	h0, v0.4h
	fmov	w8, s0
	tbnz	w8, #0, LBB17_3
	b	LBB17_25
LBB17_15:
	ldrb	w8, [x21]
	and	w8, w8, #0xf8
	cmp	w8, #216
	b.eq	LBB17_3
	ldrb	w8, [x21, #2]
	and	w8, w8, #0xf8
	cmp	w8, #216
	b.eq	LBB17_3
	ldrb	w8, [x21, #4]
	b	LBB17_2
LBB17_18:
	ldrb	w8, [x21]
	and	w8, w8, #0xf8
	cmp	w8, #216
	b.eq	LBB17_3
	ldrb	w8, [x21, #2]
	b	LBB17_2
LBB17_20:
	cmp	x20, #31
	b.hi	LBB17_23
	ldr	q0, [x21]
	movi	v1.8b, #216
	xtn	v2.8b, v0.8h
	movi	v0.8b, #248
	and	v2.8b, v2.8b, v0.8b
	cmeq	v2.8b, v2.8b, v1.8b
	umaxv	b2, v2.8b
	fmov	w8, s2
	tbnz	w8, #0, LBB17_3
	add	x8, x21, x20
	ldur	q2, [x8, #-16]
	xtn	v2.8b, v2.8h
	and	v0.8b, v2.8b, v0.8b
	cmeq	v0.8b, v0.8b, v1.8b
	umaxv	b0, v0.8b
	fmov	w8, s0
	tbnz	w8, #0, LBB17_3
	b	LBB17_25
LBB17_23:
	ldp	q1, q0, [x21]
	adrp	x8, lCPI17_0@PAGE
	uzp1	v2.16b, v1.16b, v0.16b
	movi	v0.16b, #248
	movi	v1.16b, #216
	and	v2.16b, v2.16b, v0.16b
	cmeq	v3.16b, v2.16b, v1.16b
	ldr	q2, [x8, lCPI17_0@PAGEOFF]
	and	v3.16b, v3.16b, v2.16b
	addp	v3.16b, v3.16b, v3.16b
	addp	v3.16b, v3.16b, v3.16b
	addp	v3.16b, v3.16b, v3.16b
	umov	w8, v3.h[0]
	cbnz	w8, LBB17_3
	add	x8, x21, x20
	ldp	q4, q3, [x8, #-32]
	uzp1	v3.16b, v4.16b, v3.16b
	and	v0.16b, v3.16b, v0.16b
	cmeq	v0.16b, v0.16b, v1.16b
	and	v0.16b, v0.16b, v2.16b
	addp	v0.16b, v0.16b, v0.16b
	addp	v0.16b, v0.16b, v0.16b
	addp	v0.16b, v0.16b, v0.16b
	umov	w8, v0.h[0]
	cbnz	w8, LBB17_3
LBB17_25:
	mov	x0, x21
	mov	x1, x20
	bl	"_utf16_to_utf8::lens::utf8_len::<#8b18edd9dd9aa8df>"
	add	x19, x0, x19
LBB17_26:
	mov	x0, x19
	.cfi_def_cfa wsp, 80
	ldp	x20, x19, [sp, #64]
	ldr	x25, [sp, #16]
	ldp	x22, x21, [sp, #48]
	ldp	x24, x23, [sp, #32]
	ldp	x29, x30, [sp], #80
	.cfi_def_cfa_offset 0
	.cfi_restore w19
	.cfi_restore w20
	.cfi_restore w21
	.cfi_restore w22
	.cfi_restore w23
	.cfi_restore w24
	.cfi_restore w25
	.cfi_restore w30
	.cfi_restore w29
	ret
Lfunc_end17:
	.cfi_endproc

	.section	__TEXT,__literal16,16byte_literals
	.p2align	4, 0x0
lCPI18_0:
	.byte	1
	.byte	2
	.byte	4
	.byte	8
	.byte	16
	.byte	32
	.byte	64
	.byte	128
	.byte	1
	.byte	2
	.byte	4
	.byte	8
	.byte	16
	.byte	32
	.byte	64
	.byte	128
	.section	__TEXT,__text,regular,pure_instructions
	.p2align	2
"_utf16_to_utf8::lens::utf8_len::<#8b18edd9dd9aa8df>":
	.cfi_startproc
	stp	x29, x30, [sp, #-48]!
	.cfi_def_cfa_offset 48
	str	x21, [sp, #16]
	stp	x20, x19, [sp, #32]
	mov	x29, sp
	.cfi_def_cfa w29, 48
	.cfi_offset w19, -8
	.cfi_offset w20, -16
	.cfi_offset w21, -32
	.cfi_offset w30, -40
	.cfi_offset w29, -48
	sub	x9, sp, #80
	and	sp, x9, #0xffffffffffffffc0
	mov	x19, x1
	mov	x8, x0
	cmp	x1, #64
	adrp	x21, lCPI18_0@PAGE
	mov	x20, xzr
	b.lo	LBB18_6
	mov	x9, x8
	mov	x2, x19
	b	LBB18_3
LBB18_2:
	uzp2	v4.16b, v0.16b, v1.16b
	movi	v5.16b, #248
	uzp2	v6.16b, v2.16b, v3.16b
	movi	v7.16b, #216
	and	v4.16b, v4.16b, v5.16b
	and	v5.16b, v6.16b, v5.16b
	ldr	q6, [x21, lCPI18_0@PAGEOFF]
	cmeq	v16.16b, v4.16b, #0
	cmeq	v17.16b, v5.16b, #0
	cmeq	v5.16b, v5.16b, v7.16b
	cmeq	v4.16b, v4.16b, v7.16b
	and	v7.16b, v16.16b, v6.16b
	and	v16.16b, v17.16b, v6.16b
	and	v5.16b, v5.16b, v6.16b
	and	v4.16b, v4.16b, v6.16b
	movi	v17.8h, #128
	addp	v7.16b, v7.16b, v16.16b
	addp	v4.16b, v4.16b, v5.16b
	cmhi	v2.8h, v17.8h, v2.8h
	cmhi	v3.8h, v17.8h, v3.8h
	cmhi	v0.8h, v17.8h, v0.8h
	cmhi	v1.8h, v17.8h, v1.8h
	addp	v5.16b, v7.16b, v7.16b
	addp	v4.16b, v4.16b, v4.16b
	uzp1	v2.16b, v2.16b, v3.16b
	uzp1	v0.16b, v0.16b, v1.16b
	addp	v5.16b, v5.16b, v5.16b
	addp	v4.16b, v4.16b, v4.16b
	and	v2.16b, v2.16b, v6.16b
	zip1	v1.2s, v4.2s, v5.2s
	and	v0.16b, v0.16b, v6.16b
	addp	v0.16b, v0.16b, v2.16b
	cnt	v1.8b, v1.8b
	addp	v0.16b, v0.16b, v0.16b
	uaddlp	v1.4h, v1.8b
	addp	v0.16b, v0.16b, v0.16b
	uaddlp	v2.2s, v1.4h
	fmov	w10, s0
	dup	v2.2s, v2.s[1]
	fmov	s0, w10
	uadalp	v2.2s, v1.4h
	cnt	v0.8b, v0.8b
	addv	b0, v0.8b
	fmov	w10, s2
	fmov	w11, s0
	add	w10, w10, w11
	mov	w11, #96
	sub	x10, x11, x10
	sub	x2, x2, #64
	add	x20, x10, x20
	add	x9, x9, #64
	cmp	x2, #63
	b.ls	LBB18_5
LBB18_3:
	ldp	q0, q1, [x9, #32]
	ldp	q3, q4, [x9]
	rev16	v2.16b, v0.16b
	rev16	v0.16b, v3.16b
	rev16	v3.16b, v1.16b
	rev16	v1.16b, v4.16b
	orr	v4.16b, v1.16b, v3.16b
	orr	v5.16b, v0.16b, v2.16b
	bic	v4.8h, #127
	bic	v5.8h, #127
	orr	v4.16b, v5.16b, v4.16b
	ext	v5.16b, v4.16b, v4.16b, #8
	orr	v4.8b, v4.8b, v5.8b
	fmov	x10, d4
	lsr	x11, x10, #32
	orr	w10, w10, w11
	orr	w10, w10, w10, lsr #16
	tst	w10, #0xffff
	b.ne	LBB18_2
	mov	w10, #32
	sub	x2, x2, #64
	add	x20, x10, x20
	add	x9, x9, #64
	cmp	x2, #63
	b.hi	LBB18_3
LBB18_5:
	and	x9, x19, #0xffffffffffffffc0
	b	LBB18_7
LBB18_6:
	mov	x9, xzr
	mov	x2, x19
LBB18_7:
	movi	v0.2d, #0000000000000000
	mov	x0, sp
	add	x1, x8, x9
	stp	q0, q0, [sp]
	stp	q0, q0, [sp, #32]
	bl	_memcpy
	ldp	q0, q1, [sp, #32]
	ldp	q3, q4, [sp]
	rev16	v2.16b, v0.16b
	rev16	v0.16b, v3.16b
	rev16	v3.16b, v1.16b
	rev16	v1.16b, v4.16b
	orr	v4.16b, v1.16b, v3.16b
	orr	v5.16b, v0.16b, v2.16b
	bic	v4.8h, #127
	bic	v5.8h, #127
	orr	v4.16b, v5.16b, v4.16b
	ext	v5.16b, v4.16b, v4.16b, #8
	orr	v4.8b, v4.8b, v5.8b
	fmov	x8, d4
	lsr	x9, x8, #32
	orr	w8, w8, w9
	orr	w8, w8, w8, lsr #16
	tst	w8, #0xffff
	b.eq	LBB18_9
	uzp2	v4.16b, v0.16b, v1.16b
	movi	v5.16b, #248
	uzp2	v6.16b, v2.16b, v3.16b
	movi	v7.16b, #216
	and	v4.16b, v4.16b, v5.16b
	and	v5.16b, v6.16b, v5.16b
	ldr	q6, [x21, lCPI18_0@PAGEOFF]
	cmeq	v16.16b, v4.16b, #0
	cmeq	v17.16b, v5.16b, #0
	cmeq	v5.16b, v5.16b, v7.16b
	cmeq	v4.16b, v4.16b, v7.16b
	and	v7.16b, v16.16b, v6.16b
	and	v16.16b, v17.16b, v6.16b
	and	v5.16b, v5.16b, v6.16b
	and	v4.16b, v4.16b, v6.16b
	movi	v17.8h, #128
	addp	v7.16b, v7.16b, v16.16b
	addp	v4.16b, v4.16b, v5.16b
	cmhi	v2.8h, v17.8h, v2.8h
	cmhi	v3.8h, v17.8h, v3.8h
	cmhi	v0.8h, v17.8h, v0.8h
	cmhi	v1.8h, v17.8h, v1.8h
	addp	v5.16b, v7.16b, v7.16b
	addp	v4.16b, v4.16b, v4.16b
	uzp1	v2.16b, v2.16b, v3.16b
	uzp1	v0.16b, v0.16b, v1.16b
	addp	v5.16b, v5.16b, v5.16b
	addp	v4.16b, v4.16b, v4.16b
	and	v2.16b, v2.16b, v6.16b
	zip1	v1.2s, v4.2s, v5.2s
	and	v0.16b, v0.16b, v6.16b
	addp	v0.16b, v0.16b, v2.16b
	cnt	v1.8b, v1.8b
	addp	v0.16b, v0.16b, v0.16b
	uaddlp	v1.4h, v1.8b
	addp	v0.16b, v0.16b, v0.16b
	uaddlp	v2.2s, v1.4h
	fmov	w8, s0
	dup	v2.2s, v2.s[1]
	fmov	s0, w8
	uadalp	v2.2s, v1.4h
	cnt	v0.8b, v0.8b
	addv	b0, v0.8b
	fmov	w8, s2
	fmov	w9, s0
	add	w8, w8, w9
	mov	w9, #96
	sub	x8, x9, x8
	b	LBB18_10
LBB18_9:
	mov	w8, #32
LBB18_10:
	lsr	x9, x19, #1
	add	x8, x20, x8
	orr	x9, x9, #0xffffffffffffffe0
	add	x0, x8, x9
	mov	sp, x29
	.cfi_def_cfa wsp, 48
	ldp	x20, x19, [sp, #32]
	ldr	x21, [sp, #16]
	ldp	x29, x30, [sp], #48
	.cfi_def_cfa_offset 0
	.cfi_restore w19
	.cfi_restore w20
	.cfi_restore w21
	.cfi_restore w30
	.cfi_restore w29
	ret
Lfunc_end18:
	.cfi_endproc

	.section	__TEXT,__literal16,16byte_literals
	.p2align	4, 0x0
lCPI19_0:
	.byte	1
	.byte	2
	.byte	4
	.byte	8
	.byte	16
	.byte	32
	.byte	64
	.byte	128
	.byte	1
	.byte	2
	.byte	4
	.byte	8
	.byte	16
	.byte	32
	.byte	64
	.byte	128
	.section	__TEXT,__text,regular,pure_instructions
	.p2align	2
"_utf16_transcode::sizes::to_utf8_lossy_len::<#418c2b53cf60437c>":
	.cfi_startproc
	stp	x29, x30, [sp, #-80]!
	.cfi_def_cfa_offset 80
	str	x25, [sp, #16]
	stp	x24, x23, [sp, #32]
	stp	x22, x21, [sp, #48]
	stp	x20, x19, [sp, #64]
	mov	x29, sp
	.cfi_def_cfa w29, 80
	.cfi_offset w19, -8
	.cfi_offset w20, -16
	.cfi_offset w21, -24
	.cfi_offset w22, -32
	.cfi_offset w23, -40
	.cfi_offset w24, -48
	.cfi_offset w25, -64
	.cfi_offset w30, -72
	.cfi_offset w29, -80
	mov	x20, x1
	mov	x21, x0
	mov	x19, xzr
	cmp	x1, #2
	b.ne	LBB19_6
LBB19_1:
	ldrb	w8, [x21, #1]
LBB19_2:
	and	w8, w8, #0xf8
	cmp	w8, #216
	b.ne	LBB19_25
LBB19_3:
	mov	x0, x21
	mov	x1, x20
	bl	"_utf16_units::validate::valid_len::<#418c2b53cf60437c>"
	subs	x1, x20, x0
	b.eq	LBB19_25
	mov	x22, x0
	add	x24, x21, x0
	add	x0, x21, x0
	bl	"_utf16_units::validate::error_len::<#418c2b53cf60437c>"
	mov	w23, w1
	and	w25, w0, #0xff
	mov	x0, x21
	mov	x1, x22
	bl	"_utf16_to_utf8::lens::utf8_len::<#418c2b53cf60437c>"
	add	x8, x19, x0
	cmp	w25, #1
	add	x19, x8, #3
	b.ne	LBB19_26
	and	x8, x23, #0xff
	sub	x9, x20, x22
	add	x21, x24, x8
	sub	x20, x9, x8
	cmp	x20, #2
	b.eq	LBB19_1
LBB19_6:
	cmp	x20, #7
	b.hi	LBB19_10
	cmp	x20, #4
	b.eq	LBB19_18
	cmp	x20, #6
	b.eq	LBB19_15
	cbnz	x20, LBB19_3
	b	LBB19_25
LBB19_10:
	cmp	x20, #64
	b.hi	LBB19_3
	tbnz	w20, #0, LBB19_3
	cmp	x20, #15
	b.hi	LBB19_20
	ldr	d0, [x21]
	ushr	v1.4h, v0.4h, #8
	movi	v0.4h, #216
	bic	v1.4h, #7
	cmeq	v1.4h, v1.4h, v0.4h
	umaxv	h1, v1.4h
	fmov	w8, s1
	tbnz	w8, #0, LBB19_3
	add	x8, x21, x20
	ldur	d1, [x8, #-8]
	ushr	v1.4h, v1.4h, #8
	bic	v1.4h, #7
	cmeq	v0.4h, v1.4h, v0.4h
	umaxv	h0, v0.4h
	fmov	w8, s0
	tbnz	w8, #0, LBB19_3
	b	LBB19_25
LBB19_15:
	ldrb	w8, [x21, #1]
	and	w8, w8, #0xf8
	cmp	w8, #216
	b.eq	LBB19_3
	ldrb	w8, [x21, #3]
	and	w8, w8, #0xf8
	cmp	w8, #216
	b.eq	LBB19_3
	ldrb	w8, [x21, #5]
	b	LBB19_2
LBB19_18:
	ldrb	w8, [x21, #1]
	and	w8, w8, #0xf8
	cmp	w8, #216
	b.eq	LBB19_3
	ldrb	w8, [x21, #3]
	b	LBB19_2
LBB19_20:
	cmp	x20, #31
	b.hi	LBB19_23
	ldr	q1, [x21]
	movi	v0.8b, #248
	shrn	v2.8b, v1.8h, #8
	movi	v1.8b, #216
	and	v2.8b, v2.8b, v0.8b
	cmeq	v2.8b, v2.8b, v1.8b
	umaxv	b2, v2.8b
	fmov	w8, s2
	tbnz	w8, #0, LBB19_3
	add	x8, x21, x20
	ldur	q2, [x8, #-16]
	shrn	v2.8b, v2.8h, #8
	and	v0.8b, v2.8b, v0.8b
	cmeq	v0.8b, v0.8b, v1.8b
	umaxv	b0, v0.8b
	fmov	w8, s0
	tbnz	w8, #0, LBB19_3
	b	LBB19_25
LBB19_23:
	ldp	q1, q0, [x21]
	adrp	x8, lCPI19_0@PAGE
	uzp2	v2.16b, v1.16b, v0.16b
	movi	v0.16b, #248
	movi	v1.16b, #216
	and	v2.16b, v2.16b, v0.16b
	cmeq	v3.16b, v2.16b, v1.16b
	ldr	q2, [x8, lCPI19_0@PAGEOFF]
	and	v3.16b, v3.16b, v2.16b
	addp	v3.16b, v3.16b, v3.16b
	addp	v3.16b, v3.16b, v3.16b
	addp	v3.16b, v3.16b, v3.16b
	umov	w8, v3.h[0]
	cbnz	w8, LBB19_3
	add	x8, x21, x20
	ldp	q4, q3, [x8, #-32]
	uzp2	v3.16b, v4.16b, v3.16b
	and	v0.16b, v3.16b, v0.16b
	cmeq	v0.16b, v0.16b, v1.16b
	and	v0.16b, v0.16b, v2.16b
	addp	v0.16b, v0.16b, v0.16b
	addp	v0.16b, v0.16b, v0.16b
	addp	v0.16b, v0.16b, v0.16b
	umov	w8, v0.h[0]
	cbnz	w8, LBB19_3
LBB19_25:
	mov	x0, x21
	mov	x1, x20
	bl	"_utf16_to_utf8::lens::utf8_len::<#418c2b53cf60437c>"
	add	x19, x0, x19
LBB19_26:
	mov	x0, x19
	.cfi_def_cfa wsp, 80
	ldp	x20, x19, [sp, #64]
	ldr	x25, [sp, #16]
	ldp	x22, x21, [sp, #48]
	ldp	x24, x23, [sp, #32]
	ldp	x29, x30, [sp], #80
	.cfi_def_cfa_offset 0
	.cfi_restore w19
	.cfi_restore w20
	.cfi_restore w21
	.cfi_restore w22
	.cfi_restore w23
	.cfi_restore w24
	.cfi_restore w25
	.cfi_restore w30
	.cfi_restore w29
	ret
Lfunc_end19:
	.cfi_endproc

	.section	__TEXT,__literal16,16byte_literals
	.p2align	4, 0x0
lCPI20_0:
	.byte	1
	.byte	2
	.byte	4
	.byte	8
	.byte	16
	.byte	32
	.byte	64
	.byte	128
	.byte	1
	.byte	2
	.byte	4
	.byte	8
	.byte	16
	.byte	32
	.byte	64
	.byte	128
	.section	__TEXT,__text,regular,pure_instructions
	.p2align	2
"_utf16_to_utf8::lens::utf8_len::<#418c2b53cf60437c>":
	.cfi_startproc
	stp	x29, x30, [sp, #-48]!
	.cfi_def_cfa_offset 48
	str	x21, [sp, #16]
	stp	x20, x19, [sp, #32]
	mov	x29, sp
	.cfi_def_cfa w29, 48
	.cfi_offset w19, -8
	.cfi_offset w20, -16
	.cfi_offset w21, -32
	.cfi_offset w30, -40
	.cfi_offset w29, -48
	sub	x9, sp, #80
	and	sp, x9, #0xffffffffffffffc0
	mov	x19, x1
	mov	x8, x0
	cmp	x1, #64
	adrp	x21, lCPI20_0@PAGE
	mov	x20, xzr
	b.lo	LBB20_6
	mov	x9, x8
	mov	x2, x19
	b	LBB20_3
LBB20_2:
	uzp2	v4.16b, v0.16b, v1.16b
	movi	v5.16b, #248
	uzp2	v6.16b, v2.16b, v3.16b
	movi	v7.16b, #216
	and	v4.16b, v4.16b, v5.16b
	and	v5.16b, v6.16b, v5.16b
	ldr	q6, [x21, lCPI20_0@PAGEOFF]
	cmeq	v16.16b, v4.16b, #0
	cmeq	v17.16b, v5.16b, #0
	cmeq	v5.16b, v5.16b, v7.16b
	cmeq	v4.16b, v4.16b, v7.16b
	and	v7.16b, v16.16b, v6.16b
	and	v16.16b, v17.16b, v6.16b
	and	v5.16b, v5.16b, v6.16b
	and	v4.16b, v4.16b, v6.16b
	movi	v17.8h, #128
	addp	v7.16b, v7.16b, v16.16b
	addp	v4.16b, v4.16b, v5.16b
	cmhi	v2.8h, v17.8h, v2.8h
	cmhi	v3.8h, v17.8h, v3.8h
	cmhi	v0.8h, v17.8h, v0.8h
	cmhi	v1.8h, v17.8h, v1.8h
	addp	v5.16b, v7.16b, v7.16b
	addp	v4.16b, v4.16b, v4.16b
	uzp1	v2.16b, v2.16b, v3.16b
	uzp1	v0.16b, v0.16b, v1.16b
	addp	v5.16b, v5.16b, v5.16b
	addp	v4.16b, v4.16b, v4.16b
	and	v2.16b, v2.16b, v6.16b
	zip1	v1.2s, v4.2s, v5.2s
	and	v0.16b, v0.16b, v6.16b
	addp	v0.16b, v0.16b, v2.16b
	cnt	v1.8b, v1.8b
	addp	v0.16b, v0.16b, v0.16b
	uaddlp	v1.4h, v1.8b
	addp	v0.16b, v0.16b, v0.16b
	uaddlp	v2.2s, v1.4h
	fmov	w10, s0
	dup	v2.2s, v2.s[1]
	fmov	s0, w10
	uadalp	v2.2s, v1.4h
	cnt	v0.8b, v0.8b
	addv	b0, v0.8b
	fmov	w10, s2
	fmov	w11, s0
	add	w10, w10, w11
	mov	w11, #96
	sub	x10, x11, x10
	sub	x2, x2, #64
	add	x20, x10, x20
	add	x9, x9, #64
	cmp	x2, #63
	b.ls	LBB20_5
LBB20_3:
	ldp	q2, q3, [x9, #32]
	ldp	q0, q1, [x9]
	orr	v4.16b, v1.16b, v3.16b
	orr	v5.16b, v0.16b, v2.16b
	bic	v4.8h, #127
	bic	v5.8h, #127
	orr	v4.16b, v5.16b, v4.16b
	ext	v5.16b, v4.16b, v4.16b, #8
	orr	v4.8b, v4.8b, v5.8b
	fmov	x10, d4
	lsr	x11, x10, #32
	orr	w10, w10, w11
	orr	w10, w10, w10, lsr #16
	tst	w10, #0xffff
	b.ne	LBB20_2
	mov	w10, #32
	sub	x2, x2, #64
	add	x20, x10, x20
	add	x9, x9, #64
	cmp	x2, #63
	b.hi	LBB20_3
LBB20_5:
	and	x9, x19, #0xffffffffffffffc0
	b	LBB20_7
LBB20_6:
	mov	x9, xzr
	mov	x2, x19
LBB20_7:
	movi	v0.2d, #0000000000000000
	mov	x0, sp
	add	x1, x8, x9
	stp	q0, q0, [sp]
	stp	q0, q0, [sp, #32]
	bl	_memcpy
	ldp	q3, q1, [sp, #32]
	ldp	q2, q0, [sp]
	orr	v4.16b, v0.16b, v1.16b
	orr	v5.16b, v2.16b, v3.16b
	bic	v4.8h, #127
	bic	v5.8h, #127
	orr	v4.16b, v5.16b, v4.16b
	ext	v5.16b, v4.16b, v4.16b, #8
	orr	v4.8b, v4.8b, v5.8b
	fmov	x8, d4
	lsr	x9, x8, #32
	orr	w8, w8, w9
	orr	w8, w8, w8, lsr #16
	tst	w8, #0xffff
	b.eq	LBB20_9
	uzp2	v4.16b, v2.16b, v0.16b
	movi	v5.16b, #248
	uzp2	v6.16b, v3.16b, v1.16b
	movi	v7.16b, #216
	and	v4.16b, v4.16b, v5.16b
	and	v5.16b, v6.16b, v5.16b
	ldr	q6, [x21, lCPI20_0@PAGEOFF]
	cmeq	v16.16b, v4.16b, #0
	cmeq	v17.16b, v5.16b, #0
	cmeq	v5.16b, v5.16b, v7.16b
	cmeq	v4.16b, v4.16b, v7.16b
	and	v7.16b, v16.16b, v6.16b
	and	v16.16b, v17.16b, v6.16b
	and	v5.16b, v5.16b, v6.16b
	and	v4.16b, v4.16b, v6.16b
	movi	v17.8h, #128
	addp	v7.16b, v7.16b, v16.16b
	addp	v4.16b, v4.16b, v5.16b
	cmhi	v3.8h, v17.8h, v3.8h
	cmhi	v1.8h, v17.8h, v1.8h
	cmhi	v2.8h, v17.8h, v2.8h
	cmhi	v0.8h, v17.8h, v0.8h
	addp	v5.16b, v7.16b, v7.16b
	addp	v4.16b, v4.16b, v4.16b
	uzp1	v1.16b, v3.16b, v1.16b
	uzp1	v0.16b, v2.16b, v0.16b
	addp	v5.16b, v5.16b, v5.16b
	addp	v4.16b, v4.16b, v4.16b
	and	v1.16b, v1.16b, v6.16b
	zip1	v2.2s, v4.2s, v5.2s
	and	v0.16b, v0.16b, v6.16b
	addp	v0.16b, v0.16b, v1.16b
	cnt	v2.8b, v2.8b
	addp	v0.16b, v0.16b, v0.16b
	uaddlp	v1.4h, v2.8b
	addp	v0.16b, v0.16b, v0.16b
	uaddlp	v2.2s, v1.4h
	fmov	w8, s0
	dup	v2.2s, v2.s[1]
	fmov	s0, w8
	uadalp	v2.2s, v1.4h
	cnt	v0.8b, v0.8b
	addv	b0, v0.8b
	fmov	w8, s2
	fmov	w9, s0
	add	w8, w8, w9
	mov	w9, #96
	sub	x8, x9, x8
	b	LBB20_10
LBB20_9:
	mov	w8, #32
LBB20_10:
	lsr	x9, x19, #1
	add	x8, x20, x8
	orr	x9, x9, #0xffffffffffffffe0
	add	x0, x8, x9
	mov	sp, x29
	.cfi_def_cfa wsp, 48
	ldp	x20, x19, [sp, #32]
	ldr	x21, [sp, #16]
	ldp	x29, x30, [sp], #48
	.cfi_def_cfa_offset 0
	.cfi_restore w19
	.cfi_restore w20
	.cfi_restore w21
	.cfi_restore w30
	.cfi_restore w29
	ret
Lfunc_end20:
	.cfi_endproc

	.section	__TEXT,__text,regular,pure_instructions
	.p2align	2
"_memchr::memmem::Finder::new":
	.cfi_startproc
	sub	sp, sp, #128
	.cfi_def_cfa_offset 128
	stp	x29, x30, [sp, #64]
	str	x23, [sp, #80]
	stp	x22, x21, [sp, #96]
	stp	x20, x19, [sp, #112]
	add	x29, sp, #64
	.cfi_def_cfa w29, 64
	.cfi_offset w19, -8
	.cfi_offset w20, -16
	.cfi_offset w21, -24
	.cfi_offset w22, -32
	.cfi_offset w23, -48
	.cfi_offset w30, -56
	.cfi_offset w29, -64
	movi	v0.2d, #0000000000000000
	stp	q0, q0, [sp]
	cbz	x2, LBB21_3
	cmp	x2, #1
	b.ne	LBB21_4
	ldrb	w10, [x1]
	mov	w9, wzr
	mov	x8, xzr
	mov	x11, xzr
	mov	w21, wzr
	mov	w22, wzr
	mov	w12, #1
	b	LBB21_23
LBB21_3:
	mov	w12, wzr
	mov	w10, wzr
	mov	w9, wzr
	mov	w21, wzr
	mov	w22, wzr
	dup	v0.2d, x2
	mov	x8, x2
	mov	x11, x2
	b	LBB21_23
LBB21_4:
	ldrb	w9, [x1]
	ldrb	w11, [x1, #1]
	adrp	x8, lstatic.3@PAGE
	add	x8, x8, lstatic.3@PAGEOFF
	ldrb	w10, [x8, x11]
	ldrb	w12, [x8, x9]
	cmp	w10, w12
	b.hs	LBB21_6
	mov	w22, wzr
	mov	w21, #1
	mov	x10, x9
	mov	x9, x11
	cmp	x2, #2
	b.ne	LBB21_7
	b	LBB21_14
LBB21_6:
	mov	w21, wzr
	mov	w22, #1
	mov	x10, x11
	cmp	x2, #2
	b.eq	LBB21_14
LBB21_7:
	cmp	x2, #255
	mov	w11, #255
	mov	w12, #2
	csel	x11, x2, x11, lo
	b	LBB21_9
LBB21_8:
	mov	w22, w21
	mov	x10, x9
	mov	w21, w12
	add	x12, x12, #1
	mov	x9, x13
	cmp	x11, x12
	b.eq	LBB21_14
LBB21_9:
	ldrb	w13, [x1, x12]
	ldrb	w15, [x8, x9]
	ldrb	w14, [x8, x13]
	cmp	w14, w15
	b.lo	LBB21_8
	cmp	x13, x9
	b.eq	LBB21_13
	ldrb	w15, [x8, x10]
	cmp	w14, w15
	b.hs	LBB21_13
	mov	w22, w12
	mov	x10, x13
LBB21_13:
	add	x12, x12, #1
	cmp	x11, x12
	b.ne	LBB21_9
LBB21_14:
	and	x8, x21, #0xff
	and	x9, x22, #0xff
	ldrb	w10, [x1, x8]
	ldrb	w9, [x1, x9]
	cmp	w9, w10
	b.ne	LBB21_18
	cmp	x2, #255
	mov	w11, #255
	mov	x9, xzr
	csel	x11, x2, x11, lo
LBB21_16:
	ldrb	w12, [x1, x9]
	cmp	w12, w10
	b.ne	LBB21_20
	add	x9, x9, #1
	cmp	x11, x9
	b.ne	LBB21_16
LBB21_18:
	mov	x23, x0
	cmp	x2, #33
	b.hs	LBB21_21
LBB21_19:
	movi	v0.2d, #0000000000000000
	add	x0, sp, #32
	mov	x19, x1
	mov	x20, x2
	stp	q0, q0, [sp, #32]
	bl	_memcpy
	ldp	x8, x11, [sp, #48]
	mov	x2, x20
	ldr	q0, [sp, #32]
	mov	x1, x19
	mov	w12, #2
	mov	w10, w21
	mov	w9, w22
	mov	w21, w2
	mov	w22, wzr
	b	LBB21_22
LBB21_20:
	and	w10, w21, #0xff
	cmp	w10, w9, uxtb
	and	x10, x9, #0xff
	ccmp	x2, x10, #0, ne
	ccmp	x2, x8, #0, hi
	csel	w22, w9, w22, hi
	mov	x23, x0
	cmp	x2, #33
	b.lo	LBB21_19
LBB21_21:
	mov	x0, sp
	mov	w3, wzr
	mov	x19, x1
	mov	x20, x2
	bl	"_memchr::arch::all::twoway::TwoWay::new"
	ldrb	w8, [sp, #16]
	ldr	x11, [sp, #24]
	mov	x1, x19
	ldr	q0, [sp]
	mov	x2, x20
	mov	w10, wzr
	mov	w9, wzr
	mov	w12, #4
LBB21_22:
	mov	x0, x23
LBB21_23:
	bfi	w10, w9, #8, #24
	stp	xzr, x1, [x0]
	stp	x2, xzr, [x0, #16]
	strb	w12, [x0, #32]
	sturh	w10, [x0, #33]
	stur	wzr, [x0, #35]
	strb	wzr, [x0, #39]
	stur	q0, [x0, #40]
	stp	x8, x11, [x0, #56]
	strb	w21, [x0, #72]
	strb	w22, [x0, #73]
	strh	wzr, [x0, #78]
	stur	wzr, [x0, #74]
	.cfi_def_cfa wsp, 128
	ldp	x20, x19, [sp, #112]
	ldr	x23, [sp, #80]
	ldp	x22, x21, [sp, #96]
	ldp	x29, x30, [sp, #64]
	add	sp, sp, #128
	.cfi_def_cfa_offset 0
	.cfi_restore w19
	.cfi_restore w20
	.cfi_restore w21
	.cfi_restore w22
	.cfi_restore w23
	.cfi_restore w30
	.cfi_restore w29
	ret
Lfunc_end21:
	.cfi_endproc

	.section	__TEXT,__text,regular,pure_instructions
	.p2align	2
"_memchr::arch::all::twoway::TwoWay::new":
	.cfi_startproc
	sub	sp, sp, #80
	.cfi_def_cfa_offset 80
	stp	d15, d14, [sp, #16]
	stp	d13, d12, [sp, #32]
	stp	d11, d10, [sp, #48]
	stp	d9, d8, [sp, #64]
	.cfi_offset b8, -8
	.cfi_offset b9, -16
	.cfi_offset b10, -24
	.cfi_offset b11, -32
	.cfi_offset b12, -40
	.cfi_offset b13, -48
	.cfi_offset b14, -56
	.cfi_offset b15, -64
	.cfi_remember_state
	movi	v1.2d, #0000000000000000
	movi	v2.2d, #0000000000000000
	and	x11, x2, #0x1c
	movi	v6.2d, #0000000000000000
	movi	v26.2d, #0000000000000000
	and	x10, x2, #0xffffffffffffffe0
	movi	v17.2d, #0000000000000000
	movi	v4.2d, #0000000000000000
	and	x9, x2, #0xffffffffffffffe0
	movi	v5.2d, #0000000000000000
	movi	v3.2d, #0000000000000000
	add	x8, x1, #16
	movi	v21.2d, #0000000000000000
	movi	v16.2d, #0000000000000000
	and	x12, x2, #0xffffffffffffffe0
	movi	v7.2d, #0000000000000000
	movi	v22.2d, #0000000000000000
	movi	v19.2d, #0000000000000000
	movi	v20.2d, #0000000000000000
	movi	v18.2d, #0000000000000000
	movi	v23.2d, #0000000000000000
LBB22_1:
	movi	v24.16b, #63
	str	q26, [sp]
	mov	w13, #1
	ldp	q25, q26, [x8, #-16]
	dup	v28.2d, x13
	subs	x12, x12, #32
	add	x8, x8, #32
	and	v25.16b, v25.16b, v24.16b
	and	v24.16b, v26.16b, v24.16b
	ushll2	v26.8h, v25.16b, #0
	ushll	v25.8h, v25.8b, #0
	ushll2	v27.8h, v24.16b, #0
	ushll	v24.8h, v24.8b, #0
	ushll2	v29.4s, v26.8h, #0
	ushll	v26.4s, v26.4h, #0
	ushll2	v30.4s, v25.8h, #0
	ushll	v25.4s, v25.4h, #0
	ushll2	v31.4s, v27.8h, #0
	ushll	v27.4s, v27.4h, #0
	ushll2	v8.4s, v24.8h, #0
	ushll	v24.4s, v24.4h, #0
	ushll2	v10.2d, v26.4s, #0
	ushll	v26.2d, v26.2s, #0
	ushll2	v9.2d, v29.4s, #0
	ushll	v29.2d, v29.2s, #0
	ushll2	v11.2d, v30.4s, #0
	ushll	v30.2d, v30.2s, #0
	ushll2	v12.2d, v25.4s, #0
	ushll	v25.2d, v25.2s, #0
	ushll2	v13.2d, v31.4s, #0
	ushll	v31.2d, v31.2s, #0
	ushll2	v14.2d, v27.4s, #0
	ushll2	v15.2d, v8.4s, #0
	ushll	v27.2d, v27.2s, #0
	ushll	v8.2d, v8.2s, #0
	ushll2	v0.2d, v24.4s, #0
	ushll	v24.2d, v24.2s, #0
	ushl	v26.2d, v28.2d, v26.2d
	ushl	v25.2d, v28.2d, v25.2d
	ushl	v12.2d, v28.2d, v12.2d
	ushl	v30.2d, v28.2d, v30.2d
	ushl	v11.2d, v28.2d, v11.2d
	ushl	v10.2d, v28.2d, v10.2d
	ushl	v29.2d, v28.2d, v29.2d
	ushl	v9.2d, v28.2d, v9.2d
	ushl	v24.2d, v28.2d, v24.2d
	ushl	v0.2d, v28.2d, v0.2d
	ushl	v8.2d, v28.2d, v8.2d
	ushl	v27.2d, v28.2d, v27.2d
	ushl	v15.2d, v28.2d, v15.2d
	ushl	v14.2d, v28.2d, v14.2d
	ushl	v31.2d, v28.2d, v31.2d
	ushl	v28.2d, v28.2d, v13.2d
	orr	v4.16b, v26.16b, v4.16b
	ldr	q26, [sp]
	orr	v21.16b, v9.16b, v21.16b
	orr	v3.16b, v29.16b, v3.16b
	orr	v5.16b, v10.16b, v5.16b
	orr	v17.16b, v11.16b, v17.16b
	orr	v6.16b, v12.16b, v6.16b
	orr	v26.16b, v30.16b, v26.16b
	orr	v2.16b, v25.16b, v2.16b
	orr	v23.16b, v28.16b, v23.16b
	orr	v18.16b, v31.16b, v18.16b
	orr	v20.16b, v14.16b, v20.16b
	orr	v22.16b, v15.16b, v22.16b
	orr	v19.16b, v27.16b, v19.16b
	orr	v7.16b, v8.16b, v7.16b
	orr	v1.16b, v0.16b, v1.16b
	orr	v16.16b, v24.16b, v16.16b
	b.ne	LBB22_1
	orr	v0.16b, v22.16b, v17.16b
	orr	v17.16b, v23.16b, v21.16b
	cmp	x2, x10
	orr	v1.16b, v1.16b, v6.16b
	orr	v2.16b, v16.16b, v2.16b
	orr	v4.16b, v19.16b, v4.16b
	orr	v5.16b, v20.16b, v5.16b
	orr	v6.16b, v7.16b, v26.16b
	orr	v3.16b, v18.16b, v3.16b
	orr	v0.16b, v0.16b, v17.16b
	orr	v2.16b, v2.16b, v4.16b
	orr	v3.16b, v6.16b, v3.16b
	orr	v1.16b, v1.16b, v5.16b
	orr	v2.16b, v2.16b, v3.16b
	orr	v0.16b, v1.16b, v0.16b
	orr	v0.16b, v2.16b, v0.16b
	ext	v1.16b, v0.16b, v0.16b, #8
	orr	v0.8b, v0.8b, v1.8b
	fmov	x8, d0
	b.eq	LBB22_9
	cbz	x11, LBB22_7
	movi	v0.2d, #0000000000000000
	movi	v1.2d, #0000000000000000
	and	x9, x2, #0xfffffffffffffffc
	mov	v0.d[0], x8
	sub	x8, x9, x10
	add	x10, x1, x10
LBB22_5:
	ldr	s2, [x10], #4
	movi	v3.2d, #0x000000000000ff
	mov	w11, #1
	subs	x8, x8, #4
	ushll	v2.8h, v2.8b, #0
	bic	v2.4h, #192
	ushll	v2.4s, v2.4h, #0
	ushll2	v4.2d, v2.4s, #0
	ushll	v2.2d, v2.2s, #0
	and	v4.16b, v4.16b, v3.16b
	and	v2.16b, v2.16b, v3.16b
	dup	v3.2d, x11
	ushl	v2.2d, v3.2d, v2.2d
	ushl	v3.2d, v3.2d, v4.2d
	orr	v1.16b, v3.16b, v1.16b
	orr	v0.16b, v2.16b, v0.16b
	b.ne	LBB22_5
	orr	v0.16b, v0.16b, v1.16b
	cmp	x2, x9
	ext	v1.16b, v0.16b, v0.16b, #8
	orr	v0.8b, v0.8b, v1.8b
	fmov	x8, d0
	b.eq	LBB22_9
LBB22_7:
	sub	x10, x2, x9
	add	x9, x1, x9
LBB22_8:
	ldrb	w11, [x9], #1
	mov	w12, #1
	subs	x10, x10, #1
	lsl	x11, x12, x11
	orr	x8, x11, x8
	b.ne	LBB22_8
LBB22_9:
	add	x11, x1, x2
	mov	x9, xzr
	mov	x12, xzr
	mov	w10, #1
	tbz	w3, #0, LBB22_14
	mov	w15, #1
	mov	w13, #1
	b	LBB22_12
LBB22_11:
	mov	x12, xzr
	add	x14, x13, #1
	mov	w10, #1
	mov	x9, x13
	add	x15, x14, xzr
	mov	x13, x14
	cmp	x15, x2
	b.hs	LBB22_16
LBB22_12:
	add	x14, x12, x9
	mvn	x15, x15
	mvn	x14, x14
	ldrb	w15, [x11, x15]
	ldrb	w14, [x11, x14]
	cmp	w15, w14
	b.lo	LBB22_11
	add	x12, x12, #1
	cmp	x12, x10
	add	x16, x12, x13
	csel	x4, x10, xzr, eq
	sub	x17, x16, x9
	csel	x12, xzr, x12, eq
	add	x13, x4, x13
	cmp	w14, w15
	csel	x12, xzr, x12, lo
	csel	x14, x16, x13, lo
	csel	x10, x17, x10, lo
	add	x15, x14, x12
	mov	x13, x14
	cmp	x15, x2
	b.lo	LBB22_12
	b	LBB22_16
LBB22_14:
	mov	w14, #1
	mov	w13, #1
LBB22_15:
	add	x15, x1, x9
	add	x16, x12, #1
	ldrb	w14, [x1, x14]
	ldrb	w12, [x15, x12]
	cmp	x16, x10
	add	x15, x16, x13
	csel	x17, x10, xzr, eq
	csel	x16, xzr, x16, eq
	sub	x4, x15, x9
	cmp	w12, w14
	add	x17, x17, x13
	csel	x16, xzr, x16, lo
	csel	x15, x15, x17, lo
	csel	x10, x4, x10, lo
	cmp	w14, w12
	csel	x12, xzr, x16, lo
	csinc	x15, x15, x13, hs
	csel	x9, x13, x9, lo
	add	x14, x15, x12
	csinc	x10, x10, xzr, hs
	mov	x13, x15
	cmp	x14, x2
	b.lo	LBB22_15
LBB22_16:
	mov	x13, xzr
	mov	x12, xzr
	mov	w14, #1
	tbz	w3, #0, LBB22_21
	mov	w17, #1
	mov	w15, #1
	b	LBB22_19
LBB22_18:
	mov	x12, xzr
	add	x16, x15, #1
	mov	w14, #1
	mov	x13, x15
	add	x17, x16, xzr
	mov	x15, x16
	cmp	x17, x2
	b.hs	LBB22_23
LBB22_19:
	add	x16, x12, x13
	mvn	x17, x17
	mvn	x16, x16
	ldrb	w17, [x11, x17]
	ldrb	w16, [x11, x16]
	cmp	w16, w17
	b.lo	LBB22_18
	add	x12, x12, #1
	cmp	x12, x14
	add	x4, x12, x15
	csel	x6, x14, xzr, eq
	sub	x5, x4, x13
	csel	x12, xzr, x12, eq
	add	x15, x6, x15
	cmp	w17, w16
	csel	x12, xzr, x12, lo
	csel	x16, x4, x15, lo
	csel	x14, x5, x14, lo
	add	x17, x16, x12
	mov	x15, x16
	cmp	x17, x2
	b.lo	LBB22_19
	b	LBB22_23
LBB22_21:
	mov	w16, #1
	mov	w15, #1
LBB22_22:
	add	x17, x1, x13
	add	x4, x12, #1
	ldrb	w16, [x1, x16]
	ldrb	w12, [x17, x12]
	cmp	x4, x14
	add	x17, x4, x15
	csel	x5, x14, xzr, eq
	csel	x4, xzr, x4, eq
	sub	x6, x17, x13
	cmp	w16, w12
	add	x5, x5, x15
	csel	x4, xzr, x4, lo
	csel	x17, x17, x5, lo
	csel	x14, x6, x14, lo
	cmp	w12, w16
	csel	x12, xzr, x4, lo
	csinc	x17, x17, x15, hs
	csel	x13, x15, x13, lo
	add	x16, x17, x12
	csinc	x14, x14, xzr, hs
	mov	x15, x17
	cmp	x16, x2
	b.lo	LBB22_22
LBB22_23:
	cmp	x13, x9
	b.hs	LBB22_30
	sub	x12, x2, x9
	cmp	x12, x9
	csel	x12, x12, x9, hi
	cmp	x2, x9, lsl #1
	b.ls	LBB22_41
	cbz	w3, LBB22_37
	mvn	x13, x10
	ldurb	w14, [x11, #-1]
	ldrb	w11, [x11, x13]
	cmp	w14, w11
	b.ne	LBB22_41
	add	x11, x2, x1
	neg	x13, x10
	sub	x14, x9, #1
	sub	x11, x11, #2
LBB22_28:
	cbz	x14, LBB22_50
	ldrb	w15, [x11]
	ldrb	w16, [x11, x13]
	sub	x11, x11, #1
	sub	x14, x14, #1
	cmp	w15, w16
	b.eq	LBB22_28
	b	LBB22_41
LBB22_30:
	sub	x9, x2, x13
	cmp	x9, x13
	csel	x12, x9, x13, hi
	cmp	x2, x13, lsl #1
	b.ls	LBB22_47
	cbz	x13, LBB22_42
	cbz	w3, LBB22_43
	mvn	x9, x14
	ldurb	w10, [x11, #-1]
	ldrb	w9, [x11, x9]
	cmp	w10, w9
	b.ne	LBB22_47
	add	x9, x2, x1
	neg	x10, x14
	sub	x15, x13, #1
	sub	x9, x9, #2
LBB22_35:
	cbz	x15, LBB22_51
	ldrb	w11, [x9]
	ldrb	w16, [x9, x10]
	sub	x9, x9, #1
	sub	x15, x15, #1
	cmp	w11, w16
	mov	w11, #1
	b.eq	LBB22_35
	b	LBB22_48
LBB22_37:
	ldrb	w11, [x1]
	ldrb	w13, [x1, x10]
	cmp	w11, w13
	b.ne	LBB22_41
	add	x11, x1, #1
	sub	x13, x9, #1
LBB22_39:
	cbz	x13, LBB22_50
	ldrb	w14, [x11]
	ldrb	w15, [x11, x10]
	add	x11, x11, #1
	sub	x13, x13, #1
	cmp	w14, w15
	b.eq	LBB22_39
LBB22_41:
	mov	w11, #1
	b	LBB22_49
LBB22_42:
	mov	x9, xzr
	mov	x11, xzr
	mov	x12, x14
	b	LBB22_49
LBB22_43:
	ldrb	w9, [x1]
	ldrb	w10, [x1, x14]
	cmp	w9, w10
	b.ne	LBB22_47
	add	x9, x1, #1
	sub	x10, x13, #1
LBB22_45:
	cbz	x10, LBB22_51
	ldrb	w11, [x9]
	ldrb	w15, [x9, x14]
	add	x9, x9, #1
	sub	x10, x10, #1
	cmp	w11, w15
	mov	w11, #1
	b.eq	LBB22_45
	b	LBB22_48
LBB22_47:
	mov	w11, #1
LBB22_48:
	mov	x9, x13
LBB22_49:
	ldp	d9, d8, [sp, #64]
	stp	x8, x9, [x0]
	ldp	d11, d10, [sp, #48]
	stp	x11, x12, [x0, #16]
	ldp	d13, d12, [sp, #32]
	ldp	d15, d14, [sp, #16]
	add	sp, sp, #80
	.cfi_def_cfa_offset 0
	.cfi_restore b8
	.cfi_restore b9
	.cfi_restore b10
	.cfi_restore b11
	.cfi_restore b12
	.cfi_restore b13
	.cfi_restore b14
	.cfi_restore b15
	ret
LBB22_50:
	.cfi_restore_state
	mov	x11, xzr
	mov	x12, x10
	b	LBB22_49
LBB22_51:
	mov	x11, xzr
	mov	x9, x13
	mov	x12, x14
	b	LBB22_49
Lfunc_end22:
	.cfi_endproc

	.section	__TEXT,__literal16,16byte_literals
	.p2align	4, 0x0
lCPI23_0:
	.byte	1
	.byte	2
	.byte	4
	.byte	8
	.byte	16
	.byte	32
	.byte	64
	.byte	128
	.byte	1
	.byte	2
	.byte	4
	.byte	8
	.byte	16
	.byte	32
	.byte	64
	.byte	128
	.section	__TEXT,__text,regular,pure_instructions
	.p2align	2
"_utf16_bytes::bytes::find_bytes":
	.cfi_startproc
	sub	sp, sp, #288
	.cfi_def_cfa_offset 288
	stp	x29, x30, [sp, #192]
	stp	x28, x27, [sp, #208]
	stp	x26, x25, [sp, #224]
	stp	x24, x23, [sp, #240]
	stp	x22, x21, [sp, #256]
	stp	x20, x19, [sp, #272]
	add	x29, sp, #192
	.cfi_def_cfa w29, 96
	.cfi_offset w19, -8
	.cfi_offset w20, -16
	.cfi_offset w21, -24
	.cfi_offset w22, -32
	.cfi_offset w23, -40
	.cfi_offset w24, -48
	.cfi_offset w25, -56
	.cfi_offset w26, -64
	.cfi_offset w27, -72
	.cfi_offset w28, -80
	.cfi_offset w30, -88
	.cfi_offset w29, -96
	.cfi_remember_state
	ldr	x19, [x0, #16]
	sub	x21, x2, x3
	subs	x11, x21, x19
	b.hs	LBB23_2
LBB23_1:
	mov	w0, wzr
	mov	x1, xzr
	b	LBB23_105
LBB23_2:
	ldrb	w24, [x0, #32]
	add	x23, x1, x3
	adrp	x14, lCPI23_0@PAGE
	cmp	w24, #1
	b.le	LBB23_8
	ldr	x20, [x0, #8]
	cmp	w24, #2
	stur	x19, [x29, #-24]
	b.eq	LBB23_14
	cmp	w24, #3
	b.ne	LBB23_34
	cbz	x19, LBB23_103
	ldp	x8, x9, [x0, #40]
	add	x11, x11, #1
	ldrb	w12, [x0, #56]
	ldr	x10, [x0, #64]
	cbz	w12, LBB23_196
	add	x12, x9, x3
	mov	x15, xzr
	add	x13, x20, x9
	add	x12, x1, x12
	sub	x14, x20, #1
	b	LBB23_108
LBB23_8:
	cbz	w24, LBB23_104
	ldrb	w8, [x0, #33]
	cmp	x21, #32
	b.hs	LBB23_158
	cbz	x21, LBB23_1
	mov	x24, xzr
LBB23_12:
	ldrb	w9, [x23, x24]
	cmp	w9, w8
	b.eq	LBB23_104
	add	x24, x24, #1
	mov	w0, wzr
	mov	x1, xzr
	cmp	x21, x24
	b.ne	LBB23_12
	b	LBB23_105
LBB23_14:
	ldur	q27, [x0, #56]
	add	x27, x11, #1
	ldur	q28, [x0, #40]
	ldr	x28, [x0, #72]
	subs	x13, x27, #32
	b.hs	LBB23_118
	cbz	x27, LBB23_1
	mov	x8, #-1
	mov	x22, x14
	mov	x24, xzr
	lsl	x8, x8, x28
	stp	q28, q27, [x29, #-64]
	mvn	x19, x8
	b	LBB23_19
LBB23_17:
	add	x8, x23, x24
	ldr	q2, [x22, lCPI23_0@PAGEOFF]
	ldp	q0, q1, [x8]
	cmeq	v1.16b, v1.16b, v27.16b
	cmeq	v0.16b, v0.16b, v28.16b
	bic	v0.16b, v2.16b, v0.16b
	bic	v1.16b, v2.16b, v1.16b
	addp	v0.16b, v0.16b, v1.16b
	addp	v0.16b, v0.16b, v0.16b
	addp	v0.16b, v0.16b, v0.16b
	fmov	w8, s0
	tst	x8, x19
	b.eq	LBB23_104
LBB23_18:
	add	x24, x24, #1
	mov	w0, wzr
	mov	x1, xzr
	cmp	x27, x24
	sub	x21, x21, #1
	b.eq	LBB23_105
LBB23_19:
	cmp	x28, #32
	b.hi	LBB23_21
	cmp	x21, #32
	b.hs	LBB23_17
LBB23_21:
	ldur	x1, [x29, #-24]
	cmp	x1, x21
	b.hi	LBB23_18
	cmp	x1, #4
	b.hs	LBB23_30
	cbz	x1, LBB23_104
	ldrb	w8, [x23, x24]
	ldrb	w9, [x20]
	cmp	w8, w9
	b.ne	LBB23_32
	cmp	x1, #1
	b.eq	LBB23_104
	add	x8, x23, x24
	ldrb	w9, [x20, #1]
	ldrb	w8, [x8, #1]
	cmp	w8, w9
	b.ne	LBB23_33
	cmp	x1, #2
	b.eq	LBB23_104
	add	x8, x23, x24
	ldrb	w9, [x20, #2]
	ldrb	w8, [x8, #2]
	cmp	w8, w9
	b.eq	LBB23_104
	mov	w8, #2
	cmp	x8, x1
	b.lo	LBB23_18
	b	LBB23_104
LBB23_30:
	ldr	w8, [x23, x24]
	ldr	w9, [x20]
	cmp	w8, w9
	b.ne	LBB23_18
	add	x0, x23, x24
	mov	x2, x20
	mov	x25, x20
	mov	x20, x3
	bl	"_core::cmp::slices::groups_equal::<i8,31'core::cmp::numbers::U8PartialEq{}>"
	ldp	q28, q27, [x29, #-64]
	mov	x3, x20
	mov	x20, x25
	tbz	w0, #0, LBB23_18
	b	LBB23_104
LBB23_32:
	cmp	xzr, x1
	b.lo	LBB23_18
	b	LBB23_104
LBB23_33:
	mov	w8, #1
	cmp	x8, x1
	b.lo	LBB23_18
	b	LBB23_104
LBB23_34:
	cbz	x19, LBB23_103
	ldrb	w8, [x0, #72]
	ldrb	w9, [x0, #73]
	add	x11, x11, #1
	ldr	x15, [x0, #64]
	ldrb	w4, [x0, #56]
	add	x17, x23, x11
	ldrb	w10, [x20, x8]
	add	x12, x20, x9
	add	x16, x23, x9
	ld1r	{ v1.16b }, [x12]
	ldp	x12, x13, [x0, #40]
	dup	v0.16b, w10
	stur	x15, [x29, #-48]
	add	x15, x23, x8
	sub	x17, x17, #32
	cbz	w4, LBB23_210
	sub	x0, x2, x19
	add	x6, x3, x8
	add	x7, x3, x9
	sub	x5, x0, x3
	add	x0, x6, x1
	add	x6, x13, x3
	add	x0, x0, #32
	mov	w4, wzr
	mov	x24, xzr
	stur	x0, [x29, #-64]
	add	x0, x19, x3
	add	x26, x1, x7
	sub	x2, x0, x2
	add	x27, x1, x6
	add	x28, x20, x13
	sub	x20, x20, #1
	mov	w30, #1
	mov	w19, #1
LBB23_37:
	cbz	w19, LBB23_41
	cmp	w19, #51
	b.lo	LBB23_51
	lsl	w0, w19, #3
	mov	w1, #536870912
	cmp	w19, w1
	sub	w0, w0, #8
	csinv	w0, w0, wzr, ls
	cmp	w0, w4
	b.ls	LBB23_51
	mov	w30, wzr
LBB23_41:
	cmp	x24, x11
	mov	w19, wzr
	b.hs	LBB23_1
	ldur	x6, [x29, #-24]
	add	x0, x24, x6
	add	x1, x23, x0
	ldurb	w1, [x1, #-1]
	lsr	x1, x12, x1
	tbz	w1, #0, LBB23_101
LBB23_43:
	cmp	x6, x13
	sub	x0, x27, #1
	mov	x1, x13
	b.ls	LBB23_48
	ldur	x22, [x29, #-24]
	mov	x7, x23
	mvn	x0, x24
	add	x1, x27, x24
	mov	x6, x28
	sub	x22, x22, x13
LBB23_45:
	ldrb	w23, [x6], #1
	ldrb	w25, [x1], #1
	cmp	w23, w25
	b.ne	LBB23_102
	subs	x22, x22, #1
	sub	x0, x0, #1
	b.ne	LBB23_45
	sub	x0, x27, #1
	mov	x1, x13
	mov	x23, x7
LBB23_48:
	cbz	x1, LBB23_104
	ldrb	w6, [x20, x1]
	ldrb	w22, [x0, x24]
	sub	x1, x1, #1
	sub	x0, x0, #1
	cmp	w6, w22
	b.eq	LBB23_48
	ldur	x0, [x29, #-48]
	add	x24, x24, x0
	ldur	x1, [x29, #-24]
	mov	w0, wzr
	add	x1, x24, x1
	cmp	x1, x21
	mov	x1, xzr
	b.ls	LBB23_37
	b	LBB23_105
LBB23_51:
	cmp	x11, #32
	b.hs	LBB23_56
	cmp	x24, x11
	b.hs	LBB23_1
	mov	x6, x24
LBB23_54:
	ldrb	w0, [x15, x6]
	cmp	w0, w10
	b.eq	LBB23_97
	add	x6, x6, #1
	mov	w0, wzr
	add	x1, x2, x6
	cmp	x1, #1
	mov	x1, xzr
	b.ne	LBB23_54
	b	LBB23_105
LBB23_56:
	cmp	x24, x11
	mov	x22, x24
	b.hs	LBB23_1
LBB23_57:
	sub	x19, x11, x22
	cmp	x19, #191
	b.ls	LBB23_60
	add	x0, x23, x22
	add	x1, x0, x8
	add	x6, x0, x9
	add	x0, x0, #32
	ldp	q3, q2, [x1]
	add	x1, x0, x8
	add	x0, x0, x9
	ldp	q5, q4, [x6]
	ldp	q7, q6, [x1]
	add	x1, x22, #64
	ldp	q17, q16, [x0]
	cmeq	v3.16b, v3.16b, v0.16b
	cmeq	v2.16b, v2.16b, v0.16b
	cmeq	v5.16b, v5.16b, v1.16b
	cmeq	v4.16b, v4.16b, v1.16b
	cmeq	v7.16b, v7.16b, v0.16b
	cmeq	v6.16b, v6.16b, v0.16b
	cmeq	v17.16b, v17.16b, v1.16b
	cmeq	v16.16b, v16.16b, v1.16b
	and	v4.16b, v2.16b, v4.16b
	and	v3.16b, v3.16b, v5.16b
	ldr	q2, [x14, lCPI23_0@PAGEOFF]
	and	v5.16b, v6.16b, v16.16b
	and	v6.16b, v7.16b, v17.16b
	and	v3.16b, v3.16b, v2.16b
	and	v4.16b, v4.16b, v2.16b
	and	v6.16b, v6.16b, v2.16b
	and	v5.16b, v5.16b, v2.16b
	addp	v3.16b, v3.16b, v4.16b
	addp	v4.16b, v6.16b, v5.16b
	addp	v3.16b, v3.16b, v4.16b
	addp	v3.16b, v3.16b, v3.16b
	fmov	x19, d3
	cbz	x19, LBB23_66
	mov	x7, x23
	add	x23, x22, #64
	mov	x1, x22
	b	LBB23_89
LBB23_60:
	cmp	x19, #64
	mov	x7, x14
	b.lo	LBB23_65
	ldur	x6, [x29, #-64]
	neg	x0, x22
	add	x1, x26, x22
	add	x6, x6, x22
LBB23_62:
	ldp	q3, q2, [x6, #-32]
	ldp	q4, q5, [x1]
	ldp	q6, q7, [x6], #64
	ldp	q16, q17, [x1, #32]
	cmeq	v2.16b, v2.16b, v0.16b
	cmeq	v3.16b, v3.16b, v0.16b
	cmeq	v5.16b, v5.16b, v1.16b
	cmeq	v4.16b, v4.16b, v1.16b
	cmeq	v7.16b, v7.16b, v0.16b
	cmeq	v6.16b, v6.16b, v0.16b
	cmeq	v17.16b, v17.16b, v1.16b
	cmeq	v16.16b, v16.16b, v1.16b
	and	v3.16b, v3.16b, v4.16b
	and	v2.16b, v2.16b, v5.16b
	and	v4.16b, v6.16b, v16.16b
	and	v5.16b, v7.16b, v17.16b
	orr	v5.16b, v2.16b, v5.16b
	orr	v3.16b, v3.16b, v4.16b
	ldr	q2, [x7, lCPI23_0@PAGEOFF]
	and	v3.16b, v3.16b, v2.16b
	and	v4.16b, v5.16b, v2.16b
	addp	v3.16b, v3.16b, v4.16b
	addp	v3.16b, v3.16b, v3.16b
	addp	v3.16b, v3.16b, v3.16b
	fmov	w19, s3
	cbnz	w19, LBB23_76
	sub	x0, x0, #64
	add	x1, x1, #64
	add	x19, x5, x0
	add	x19, x19, #1
	cmp	x19, #63
	b.hi	LBB23_62
	neg	x1, x0
	b	LBB23_82
LBB23_65:
	mov	x1, x22
	b	LBB23_82
LBB23_66:
	sub	x19, x11, x1
	cmp	x19, #128
	b.lo	LBB23_71
	add	x0, x22, #192
LBB23_68:
	add	x6, x16, x0
	add	x1, x15, x0
	ldp	q18, q17, [x6, #-96]
	ldp	q4, q3, [x1, #-128]
	ldp	q6, q5, [x6, #-128]
	ldp	q16, q7, [x1, #-96]
	cmeq	v21.16b, v18.16b, v1.16b
	ldp	q20, q19, [x1, #-64]
	cmeq	v22.16b, v17.16b, v1.16b
	ldp	q25, q17, [x1, #-32]
	cmeq	v4.16b, v4.16b, v0.16b
	ldp	q26, q18, [x6, #-32]
	cmeq	v3.16b, v3.16b, v0.16b
	ldp	q24, q23, [x6, #-64]
	cmeq	v6.16b, v6.16b, v1.16b
	cmeq	v5.16b, v5.16b, v1.16b
	cmeq	v16.16b, v16.16b, v0.16b
	cmeq	v7.16b, v7.16b, v0.16b
	cmeq	v20.16b, v20.16b, v0.16b
	cmeq	v19.16b, v19.16b, v0.16b
	cmeq	v27.16b, v17.16b, v0.16b
	cmeq	v23.16b, v23.16b, v1.16b
	cmeq	v28.16b, v18.16b, v1.16b
	cmeq	v24.16b, v24.16b, v1.16b
	cmeq	v25.16b, v25.16b, v0.16b
	cmeq	v26.16b, v26.16b, v1.16b
	and	v18.16b, v3.16b, v5.16b
	and	v17.16b, v4.16b, v6.16b
	and	v7.16b, v7.16b, v22.16b
	and	v16.16b, v16.16b, v21.16b
	and	v5.16b, v19.16b, v23.16b
	and	v3.16b, v27.16b, v28.16b
	and	v6.16b, v20.16b, v24.16b
	and	v4.16b, v25.16b, v26.16b
	orr	v21.16b, v18.16b, v7.16b
	orr	v22.16b, v17.16b, v16.16b
	orr	v19.16b, v5.16b, v3.16b
	orr	v20.16b, v6.16b, v4.16b
	orr	v19.16b, v21.16b, v19.16b
	orr	v20.16b, v22.16b, v20.16b
	and	v19.16b, v19.16b, v2.16b
	and	v20.16b, v20.16b, v2.16b
	addp	v19.16b, v20.16b, v19.16b
	addp	v19.16b, v19.16b, v19.16b
	addp	v19.16b, v19.16b, v19.16b
	fmov	w1, s19
	cbnz	w1, LBB23_92
	sub	x19, x19, #128
	add	x0, x0, #128
	cmp	x19, #127
	b.hi	LBB23_68
	sub	x1, x0, #128
LBB23_71:
	cmp	x19, #32
	b.lo	LBB23_75
	add	x0, x5, #1
	sub	x0, x0, x1
LBB23_73:
	add	x6, x15, x1
	add	x19, x16, x1
	ldp	q3, q4, [x6]
	ldp	q6, q5, [x19]
	cmeq	v3.16b, v3.16b, v0.16b
	cmeq	v4.16b, v4.16b, v0.16b
	cmeq	v6.16b, v6.16b, v1.16b
	cmeq	v5.16b, v5.16b, v1.16b
	and	v4.16b, v4.16b, v5.16b
	and	v3.16b, v3.16b, v6.16b
	and	v3.16b, v3.16b, v2.16b
	and	v4.16b, v4.16b, v2.16b
	addp	v3.16b, v3.16b, v4.16b
	addp	v3.16b, v3.16b, v3.16b
	addp	v3.16b, v3.16b, v3.16b
	fmov	w19, s3
	cbnz	w19, LBB23_88
	sub	x0, x0, #32
	add	x1, x1, #32
	cmp	x0, #31
	b.hi	LBB23_73
LBB23_75:
	add	x0, x17, x8
	add	x6, x17, x9
	mov	x7, x23
	ldp	q3, q4, [x0]
	ldp	q6, q5, [x6]
	cmeq	v3.16b, v3.16b, v0.16b
	cmeq	v4.16b, v4.16b, v0.16b
	cmeq	v6.16b, v6.16b, v1.16b
	cmeq	v5.16b, v5.16b, v1.16b
	and	v4.16b, v4.16b, v5.16b
	and	v3.16b, v3.16b, v6.16b
	and	v3.16b, v3.16b, v2.16b
	and	v2.16b, v4.16b, v2.16b
	addp	v2.16b, v3.16b, v2.16b
	b	LBB23_87
LBB23_76:
	add	x1, x5, x0
	add	x19, x1, #1
	neg	x1, x0
	cmp	x19, #64
	b.lo	LBB23_82
LBB23_77:
	add	x0, x23, x1
	add	x6, x0, x8
	add	x19, x0, x9
	add	x0, x0, #32
	ldp	q4, q3, [x6]
	add	x6, x0, x8
	add	x0, x0, x9
	ldp	q6, q5, [x19]
	ldp	q16, q7, [x6]
	ldp	q18, q17, [x0]
	cmeq	v4.16b, v4.16b, v0.16b
	cmeq	v3.16b, v3.16b, v0.16b
	cmeq	v6.16b, v6.16b, v1.16b
	cmeq	v5.16b, v5.16b, v1.16b
	cmeq	v16.16b, v16.16b, v0.16b
	cmeq	v7.16b, v7.16b, v0.16b
	cmeq	v18.16b, v18.16b, v1.16b
	cmeq	v17.16b, v17.16b, v1.16b
	and	v4.16b, v4.16b, v6.16b
	and	v3.16b, v3.16b, v5.16b
	and	v5.16b, v7.16b, v17.16b
	and	v6.16b, v16.16b, v18.16b
	and	v4.16b, v4.16b, v2.16b
	and	v3.16b, v3.16b, v2.16b
	and	v6.16b, v6.16b, v2.16b
	and	v5.16b, v5.16b, v2.16b
	addp	v3.16b, v4.16b, v3.16b
	addp	v4.16b, v6.16b, v5.16b
	addp	v3.16b, v3.16b, v4.16b
	addp	v3.16b, v3.16b, v3.16b
	fmov	x19, d3
	cbnz	x19, LBB23_95
	sub	x0, x5, #63
	sub	x19, x0, x1
	add	x1, x1, #64
LBB23_79:
	subs	x0, x19, #64
	b.lo	LBB23_82
	add	x6, x15, x1
	add	x19, x16, x1
	add	x1, x1, #64
	ldp	q3, q4, [x6]
	ldp	q5, q6, [x19]
	ldp	q7, q16, [x6, #32]
	ldp	q17, q18, [x19, #32]
	cmeq	v4.16b, v4.16b, v0.16b
	cmeq	v3.16b, v3.16b, v0.16b
	cmeq	v6.16b, v6.16b, v1.16b
	cmeq	v5.16b, v5.16b, v1.16b
	cmeq	v16.16b, v16.16b, v0.16b
	cmeq	v7.16b, v7.16b, v0.16b
	mov	x19, x0
	cmeq	v18.16b, v18.16b, v1.16b
	cmeq	v17.16b, v17.16b, v1.16b
	and	v3.16b, v3.16b, v5.16b
	and	v4.16b, v4.16b, v6.16b
	and	v5.16b, v7.16b, v17.16b
	and	v6.16b, v16.16b, v18.16b
	orr	v4.16b, v4.16b, v6.16b
	orr	v3.16b, v3.16b, v5.16b
	and	v3.16b, v3.16b, v2.16b
	and	v4.16b, v4.16b, v2.16b
	addp	v3.16b, v3.16b, v4.16b
	addp	v3.16b, v3.16b, v3.16b
	addp	v3.16b, v3.16b, v3.16b
	fmov	w6, s3
	cbz	w6, LBB23_79
	sub	x1, x1, #64
	b	LBB23_77
LBB23_82:
	cmp	x19, #32
	b.lo	LBB23_86
	add	x0, x5, #1
	sub	x0, x0, x1
LBB23_84:
	add	x6, x15, x1
	add	x19, x16, x1
	ldp	q2, q3, [x6]
	ldp	q5, q4, [x19]
	cmeq	v2.16b, v2.16b, v0.16b
	cmeq	v3.16b, v3.16b, v0.16b
	cmeq	v5.16b, v5.16b, v1.16b
	cmeq	v4.16b, v4.16b, v1.16b
	and	v3.16b, v3.16b, v4.16b
	and	v2.16b, v2.16b, v5.16b
	ldr	q4, [x7, lCPI23_0@PAGEOFF]
	and	v2.16b, v2.16b, v4.16b
	and	v3.16b, v3.16b, v4.16b
	addp	v2.16b, v2.16b, v3.16b
	addp	v2.16b, v2.16b, v2.16b
	addp	v2.16b, v2.16b, v2.16b
	fmov	w19, s2
	cbnz	w19, LBB23_88
	sub	x0, x0, #32
	add	x1, x1, #32
	cmp	x0, #31
	b.hi	LBB23_84
LBB23_86:
	add	x0, x17, x8
	add	x6, x17, x9
	mov	x19, x7
	ldp	q2, q3, [x0]
	mov	x7, x23
	ldp	q5, q4, [x6]
	cmeq	v2.16b, v2.16b, v0.16b
	cmeq	v3.16b, v3.16b, v0.16b
	cmeq	v5.16b, v5.16b, v1.16b
	cmeq	v4.16b, v4.16b, v1.16b
	and	v3.16b, v3.16b, v4.16b
	and	v2.16b, v2.16b, v5.16b
	ldr	q4, [x19, lCPI23_0@PAGEOFF]
	and	v2.16b, v2.16b, v4.16b
	and	v3.16b, v3.16b, v4.16b
	addp	v2.16b, v2.16b, v3.16b
LBB23_87:
	addp	v2.16b, v2.16b, v2.16b
	sub	x6, x1, x11
	add	x6, x6, #32
	addp	v2.16b, v2.16b, v2.16b
	fmov	w0, s2
	lsr	x19, x0, x6
	mov	x0, x11
	mov	x23, x0
	cbnz	x19, LBB23_89
	b	LBB23_91
LBB23_88:
	mov	x7, x23
	add	x23, x1, #32
LBB23_89:
	rbit	x0, x19
	clz	x0, x0
	add	x6, x0, x1
	ldrb	w22, [x15, x6]
	cmp	w22, w10
	b.eq	LBB23_96
	mov	w6, #1
	lsl	x0, x6, x0
	bics	x19, x19, x0
	b.ne	LBB23_89
LBB23_91:
	mov	w0, wzr
	mov	x1, xzr
	cmp	x23, x11
	mov	x22, x23
	mov	x23, x7
	b.lo	LBB23_57
	b	LBB23_105
LBB23_92:
	umov	w19, v18.b[0]
	umov	w6, v17.b[0]
	stur	x26, [x29, #-80]
	umov	w25, v7.b[0]
	umov	w22, v16.b[0]
	mov	x7, x23
	umov	w26, v18.b[1]
	umov	w23, v17.b[1]
	umov	w1, v7.b[1]
	fmov	s19, w19
	umov	w19, v16.b[1]
	fmov	s20, w6
	fmov	s21, w25
	fmov	s22, w22
	umov	w6, v17.b[2]
	umov	w22, v18.b[3]
	mov	v19.b[1], w26
	umov	w26, v18.b[2]
	mov	v20.b[1], w23
	mov	v21.b[1], w1
	sub	x23, x0, #64
	umov	w1, v7.b[2]
	mov	v22.b[1], w19
	umov	w19, v16.b[2]
	mov	v19.b[2], w26
	mov	v20.b[2], w6
	umov	w6, v17.b[3]
	mov	v21.b[2], w1
	umov	w1, v7.b[3]
	mov	v22.b[2], w19
	umov	w19, v16.b[3]
	mov	v19.b[3], w22
	umov	w22, v18.b[4]
	mov	v20.b[3], w6
	umov	w6, v17.b[4]
	mov	v21.b[3], w1
	umov	w1, v7.b[4]
	mov	v22.b[3], w19
	umov	w19, v16.b[4]
	mov	v19.b[4], w22
	umov	w22, v18.b[5]
	mov	v20.b[4], w6
	umov	w6, v17.b[5]
	mov	v21.b[4], w1
	umov	w1, v7.b[5]
	mov	v22.b[4], w19
	umov	w19, v16.b[5]
	mov	v19.b[5], w22
	umov	w22, v18.b[6]
	mov	v20.b[5], w6
	umov	w6, v17.b[6]
	mov	v21.b[5], w1
	umov	w1, v7.b[6]
	mov	v22.b[5], w19
	umov	w19, v16.b[6]
	mov	v19.b[6], w22
	umov	w22, v18.b[7]
	mov	v20.b[6], w6
	umov	w6, v17.b[7]
	mov	v21.b[6], w1
	umov	w1, v7.b[7]
	mov	v22.b[6], w19
	umov	w19, v16.b[7]
	mov	v19.b[7], w22
	umov	w22, v18.b[8]
	mov	v20.b[7], w6
	umov	w6, v17.b[8]
	mov	v21.b[7], w1
	umov	w1, v7.b[8]
	mov	v22.b[7], w19
	umov	w19, v16.b[8]
	mov	v19.b[8], w22
	umov	w22, v18.b[9]
	mov	v20.b[8], w6
	umov	w6, v17.b[9]
	mov	v21.b[8], w1
	umov	w1, v7.b[9]
	mov	v22.b[8], w19
	umov	w19, v16.b[9]
	mov	v19.b[9], w22
	umov	w22, v18.b[10]
	mov	v20.b[9], w6
	umov	w6, v17.b[10]
	mov	v21.b[9], w1
	umov	w1, v7.b[10]
	mov	v22.b[9], w19
	umov	w19, v16.b[10]
	mov	v19.b[10], w22
	umov	w22, v18.b[11]
	mov	v20.b[10], w6
	umov	w6, v17.b[11]
	mov	v21.b[10], w1
	umov	w1, v7.b[11]
	mov	v22.b[10], w19
	umov	w19, v16.b[11]
	mov	v19.b[11], w22
	umov	w22, v18.b[12]
	mov	v20.b[11], w6
	umov	w6, v17.b[12]
	mov	v21.b[11], w1
	umov	w1, v7.b[12]
	mov	v22.b[11], w19
	umov	w19, v16.b[12]
	mov	v19.b[12], w22
	umov	w22, v18.b[13]
	mov	v20.b[12], w6
	umov	w6, v17.b[13]
	mov	v21.b[12], w1
	umov	w1, v7.b[13]
	mov	v22.b[12], w19
	umov	w19, v16.b[13]
	mov	v19.b[13], w22
	umov	w22, v18.b[14]
	mov	v20.b[13], w6
	umov	w6, v17.b[14]
	mov	v21.b[13], w1
	umov	w1, v7.b[14]
	mov	v22.b[13], w19
	umov	w19, v16.b[14]
	mov	v19.b[14], w22
	umov	w22, v18.b[15]
	mov	v20.b[14], w6
	umov	w6, v17.b[15]
	mov	v21.b[14], w1
	umov	w1, v7.b[15]
	mov	v22.b[14], w19
	umov	w19, v16.b[15]
	mov	v19.b[15], w22
	mov	v20.b[15], w6
	mov	v21.b[15], w1
	mov	v22.b[15], w19
	shl	v16.16b, v19.16b, #7
	shl	v7.16b, v20.16b, #7
	shl	v17.16b, v21.16b, #7
	shl	v18.16b, v22.16b, #7
	cmlt	v16.16b, v16.16b, #0
	cmlt	v7.16b, v7.16b, #0
	cmlt	v17.16b, v17.16b, #0
	cmlt	v18.16b, v18.16b, #0
	and	v16.16b, v16.16b, v2.16b
	and	v7.16b, v7.16b, v2.16b
	and	v17.16b, v17.16b, v2.16b
	and	v18.16b, v18.16b, v2.16b
	addp	v7.16b, v7.16b, v16.16b
	addp	v16.16b, v18.16b, v17.16b
	addp	v7.16b, v7.16b, v16.16b
	addp	v7.16b, v7.16b, v7.16b
	fmov	x19, d7
	cbz	x19, LBB23_94
	ldur	x26, [x29, #-80]
	sub	x1, x0, #128
	b	LBB23_89
LBB23_94:
	umov	w22, v3.b[1]
	umov	w19, v5.b[0]
	umov	w6, v6.b[0]
	umov	w25, v3.b[0]
	umov	w26, v5.b[1]
	umov	w1, v6.b[1]
	str	w22, [sp, #96]
	umov	w22, v4.b[0]
	fmov	s7, w19
	umov	w19, v4.b[1]
	fmov	s16, w6
	fmov	s17, w25
	ldr	w6, [sp, #96]
	mov	v7.b[1], w26
	umov	w26, v5.b[2]
	fmov	s18, w22
	mov	v16.b[1], w1
	umov	w1, v6.b[2]
	mov	v17.b[1], w6
	umov	w6, v3.b[2]
	umov	w22, v5.b[3]
	mov	v18.b[1], w19
	umov	w19, v4.b[2]
	mov	v7.b[2], w26
	mov	v16.b[2], w1
	umov	w1, v6.b[3]
	ldur	x26, [x29, #-80]
	mov	v17.b[2], w6
	umov	w6, v3.b[3]
	mov	v18.b[2], w19
	umov	w19, v4.b[3]
	mov	v7.b[3], w22
	umov	w22, v5.b[4]
	mov	v16.b[3], w1
	umov	w1, v6.b[4]
	mov	v17.b[3], w6
	umov	w6, v3.b[4]
	mov	v18.b[3], w19
	umov	w19, v4.b[4]
	mov	v7.b[4], w22
	umov	w22, v5.b[5]
	mov	v16.b[4], w1
	umov	w1, v6.b[5]
	mov	v17.b[4], w6
	umov	w6, v3.b[5]
	mov	v18.b[4], w19
	umov	w19, v4.b[5]
	mov	v7.b[5], w22
	umov	w22, v5.b[6]
	mov	v16.b[5], w1
	umov	w1, v6.b[6]
	mov	v17.b[5], w6
	umov	w6, v3.b[6]
	mov	v18.b[5], w19
	umov	w19, v4.b[6]
	mov	v7.b[6], w22
	umov	w22, v5.b[7]
	mov	v16.b[6], w1
	umov	w1, v6.b[7]
	mov	v17.b[6], w6
	umov	w6, v3.b[7]
	mov	v18.b[6], w19
	umov	w19, v4.b[7]
	mov	v7.b[7], w22
	umov	w22, v5.b[8]
	mov	v16.b[7], w1
	umov	w1, v6.b[8]
	mov	v17.b[7], w6
	umov	w6, v3.b[8]
	mov	v18.b[7], w19
	umov	w19, v4.b[8]
	mov	v7.b[8], w22
	umov	w22, v5.b[9]
	mov	v16.b[8], w1
	umov	w1, v6.b[9]
	mov	v17.b[8], w6
	umov	w6, v3.b[9]
	mov	v18.b[8], w19
	umov	w19, v4.b[9]
	mov	v7.b[9], w22
	umov	w22, v5.b[10]
	mov	v16.b[9], w1
	umov	w1, v6.b[10]
	mov	v17.b[9], w6
	umov	w6, v3.b[10]
	mov	v18.b[9], w19
	umov	w19, v4.b[10]
	mov	v7.b[10], w22
	umov	w22, v5.b[11]
	mov	v16.b[10], w1
	umov	w1, v6.b[11]
	mov	v17.b[10], w6
	umov	w6, v3.b[11]
	mov	v18.b[10], w19
	umov	w19, v4.b[11]
	mov	v7.b[11], w22
	umov	w22, v5.b[12]
	mov	v16.b[11], w1
	umov	w1, v6.b[12]
	mov	v17.b[11], w6
	umov	w6, v3.b[12]
	mov	v18.b[11], w19
	umov	w19, v4.b[12]
	mov	v7.b[12], w22
	umov	w22, v5.b[13]
	mov	v16.b[12], w1
	umov	w1, v6.b[13]
	mov	v17.b[12], w6
	umov	w6, v3.b[13]
	mov	v18.b[12], w19
	umov	w19, v4.b[13]
	mov	v7.b[13], w22
	umov	w22, v5.b[14]
	mov	v16.b[13], w1
	umov	w1, v6.b[14]
	mov	v17.b[13], w6
	umov	w6, v3.b[14]
	mov	v18.b[13], w19
	umov	w19, v4.b[14]
	mov	v7.b[14], w22
	umov	w22, v5.b[15]
	mov	v16.b[14], w1
	umov	w1, v6.b[15]
	mov	v17.b[14], w6
	umov	w6, v3.b[15]
	mov	v18.b[14], w19
	umov	w19, v4.b[15]
	mov	v7.b[15], w22
	mov	v16.b[15], w1
	mov	v17.b[15], w6
	mov	v18.b[15], w19
	shl	v4.16b, v7.16b, #7
	shl	v3.16b, v16.16b, #7
	shl	v5.16b, v17.16b, #7
	shl	v6.16b, v18.16b, #7
	cmlt	v4.16b, v4.16b, #0
	cmlt	v3.16b, v3.16b, #0
	cmlt	v5.16b, v5.16b, #0
	cmlt	v6.16b, v6.16b, #0
	and	v4.16b, v4.16b, v2.16b
	and	v3.16b, v3.16b, v2.16b
	and	v6.16b, v6.16b, v2.16b
	and	v2.16b, v5.16b, v2.16b
	addp	v3.16b, v3.16b, v4.16b
	addp	v2.16b, v6.16b, v2.16b
	addp	v2.16b, v3.16b, v2.16b
	addp	v2.16b, v2.16b, v2.16b
	fmov	x19, d2
	mov	x1, x23
	mov	x23, x0
	cbnz	x19, LBB23_89
	b	LBB23_91
LBB23_95:
	mov	x7, x23
	add	x23, x1, #64
	b	LBB23_89
LBB23_96:
	mov	x23, x7
LBB23_97:
	sub	x0, x6, x24
	adds	w19, w30, #1
	lsr	x1, x0, #32
	csinv	w19, w19, wzr, lo
	cbz	x1, LBB23_99
	mov	w4, #-1
	b	LBB23_100
LBB23_99:
	adds	w0, w0, w4
	csinv	w4, w0, wzr, lo
LBB23_100:
	mov	x24, x6
	mov	w30, w19
	ldur	x6, [x29, #-24]
	add	x0, x24, x6
	add	x1, x23, x0
	ldurb	w1, [x1, #-1]
	lsr	x1, x12, x1
	tbnz	w1, #0, LBB23_43
LBB23_101:
	mov	x24, x0
	ldur	x1, [x29, #-24]
	mov	w0, wzr
	add	x1, x24, x1
	cmp	x1, x21
	mov	x1, xzr
	b.ls	LBB23_37
	b	LBB23_105
LBB23_102:
	neg	x24, x0
	mov	x23, x7
	ldur	x1, [x29, #-24]
	mov	w0, wzr
	add	x1, x24, x1
	cmp	x1, x21
	mov	x1, xzr
	b.ls	LBB23_37
	b	LBB23_105
LBB23_103:
	mov	x24, xzr
LBB23_104:
	add	x1, x24, x3
	mov	w0, #1
LBB23_105:
	.cfi_def_cfa wsp, 288
	ldp	x20, x19, [sp, #272]
	ldp	x22, x21, [sp, #256]
	ldp	x24, x23, [sp, #240]
	ldp	x26, x25, [sp, #224]
	ldp	x28, x27, [sp, #208]
	ldp	x29, x30, [sp, #192]
	add	sp, sp, #288
	.cfi_def_cfa_offset 0
	.cfi_restore w19
	.cfi_restore w20
	.cfi_restore w21
	.cfi_restore w22
	.cfi_restore w23
	.cfi_restore w24
	.cfi_restore w25
	.cfi_restore w26
	.cfi_restore w27
	.cfi_restore w28
	.cfi_restore w30
	.cfi_restore w29
	ret
LBB23_106:
	.cfi_restore_state
	mov	x15, x16
LBB23_107:
	add	x16, x15, x4
	mov	w0, wzr
	mov	x1, xzr
	cmp	x16, x21
	b.hi	LBB23_105
LBB23_108:
	cmp	x15, x11
	csel	x24, x15, xzr, lo
	b.hs	LBB23_1
	ldur	x4, [x29, #-24]
	add	x16, x15, x4
	add	x17, x23, x16
	ldurb	w17, [x17, #-1]
	lsr	x17, x8, x17
	tbz	w17, #0, LBB23_106
	cmp	x4, x9
	sub	x16, x12, #1
	mov	x17, x9
	b.ls	LBB23_115
	add	x16, x12, x15
	mov	x17, x13
	sub	x0, x4, x9
	add	x15, x24, #1
LBB23_112:
	ldrb	w1, [x17], #1
	ldrb	w2, [x16], #1
	cmp	w1, w2
	b.ne	LBB23_107
	subs	x0, x0, #1
	add	x15, x15, #1
	b.ne	LBB23_112
	sub	x16, x12, #1
	mov	x17, x9
LBB23_115:
	cbz	x17, LBB23_104
	ldrb	w15, [x14, x17]
	ldrb	w0, [x16, x24]
	sub	x17, x17, #1
	sub	x16, x16, #1
	cmp	w15, w0
	b.eq	LBB23_115
	add	x15, x24, x10
	b	LBB23_107
LBB23_118:
	ldrb	w8, [x0, #34]
	ldrb	w9, [x0, #33]
	sub	x14, x19, #1
	mov	x10, #-1
	mov	x22, xzr
	stur	x23, [x29, #-16]
	add	x11, x20, x8
	lsl	x10, x10, x28
	add	x12, x20, x9
	ld1r	{ v30.16b }, [x11]
	sub	x11, x19, #1
	add	x16, x23, x8
	str	x11, [sp, #8]
	add	x11, x23, x14
	ld1r	{ v29.16b }, [x12]
	str	x11, [sp, #24]
	add	x11, x1, x3
	add	x12, x3, x1
	add	x8, x11, x8
	mvn	x14, x10
	sub	x10, x2, x19
	str	x8, [sp, #48]
	add	x8, x12, x9
	sub	x17, x10, x3
	add	x8, x8, #32
	add	x15, x23, x9
	stp	q28, q27, [x29, #-64]
	str	x8, [sp, #40]
	sub	x8, x17, #63
	str	x8, [sp, #16]
	add	x8, x17, #1
	str	x8, [sp, #32]
	stp	x15, x13, [sp, #72]
	str	x16, [sp, #64]
	stur	q29, [x29, #-80]
	str	q30, [sp, #96]
	str	x17, [sp, #56]
LBB23_119:
	sub	x11, x27, x22
	cmp	x11, #64
	b.lo	LBB23_124
	ldp	x10, x9, [sp, #40]
	neg	x8, x22
	ldur	x1, [x29, #-24]
	adrp	x12, lCPI23_0@PAGE
	add	x9, x9, x22
	add	x10, x10, x22
LBB23_121:
	ldp	q16, q5, [x10, #-32]
	ldp	q17, q7, [x9]
	ldp	q4, q6, [x10], #64
	ldp	q3, q18, [x9, #32]
	cmeq	v0.16b, v5.16b, v29.16b
	cmeq	v1.16b, v16.16b, v29.16b
	cmeq	v2.16b, v7.16b, v30.16b
	cmeq	v19.16b, v17.16b, v30.16b
	cmeq	v20.16b, v6.16b, v29.16b
	cmeq	v21.16b, v4.16b, v29.16b
	cmeq	v22.16b, v18.16b, v30.16b
	cmeq	v23.16b, v3.16b, v30.16b
	and	v1.16b, v1.16b, v19.16b
	and	v0.16b, v0.16b, v2.16b
	and	v2.16b, v21.16b, v23.16b
	and	v19.16b, v20.16b, v22.16b
	orr	v19.16b, v0.16b, v19.16b
	orr	v1.16b, v1.16b, v2.16b
	ldr	q0, [x12, lCPI23_0@PAGEOFF]
	and	v1.16b, v1.16b, v0.16b
	and	v2.16b, v19.16b, v0.16b
	addp	v1.16b, v1.16b, v2.16b
	addp	v1.16b, v1.16b, v1.16b
	addp	v1.16b, v1.16b, v1.16b
	fmov	w11, s1
	cbnz	w11, LBB23_125
	sub	x8, x8, #64
	add	x9, x9, #64
	add	x11, x17, x8
	add	x11, x11, #1
	cmp	x11, #63
	b.hi	LBB23_121
	neg	x22, x8
	b	LBB23_132
LBB23_124:
	ldur	x1, [x29, #-24]
	adrp	x12, lCPI23_0@PAGE
	b	LBB23_132
LBB23_125:
	add	x9, x17, x8
	neg	x22, x8
	add	x11, x9, #1
	cmp	x11, #64
	b.lo	LBB23_132
	ldr	x9, [sp, #8]
	mov	x8, x20
	ld1r	{ v1.16b }, [x8], x9
	ld1r	{ v2.16b }, [x8]
LBB23_127:
	add	x8, x23, x22
	cmeq	v16.16b, v16.16b, v29.16b
	cmeq	v17.16b, v17.16b, v30.16b
	ldp	q19, q20, [x8]
	ldr	x10, [sp, #24]
	cmeq	v5.16b, v5.16b, v29.16b
	cmeq	v7.16b, v7.16b, v30.16b
	cmeq	v6.16b, v6.16b, v29.16b
	add	x8, x10, x22
	and	v16.16b, v17.16b, v16.16b
	cmeq	v4.16b, v4.16b, v29.16b
	cmeq	v17.16b, v20.16b, v1.16b
	ldp	q20, q21, [x8]
	add	x8, x22, #32
	cmeq	v18.16b, v18.16b, v30.16b
	cmeq	v3.16b, v3.16b, v30.16b
	add	x9, x23, x8
	add	x8, x10, x8
	cmeq	v19.16b, v19.16b, v1.16b
	ldp	q22, q23, [x9]
	cmeq	v21.16b, v21.16b, v2.16b
	ldp	q24, q25, [x8]
	cmeq	v20.16b, v20.16b, v2.16b
	and	v5.16b, v7.16b, v5.16b
	and	v3.16b, v3.16b, v4.16b
	and	v4.16b, v18.16b, v6.16b
	cmeq	v23.16b, v23.16b, v1.16b
	cmeq	v22.16b, v22.16b, v1.16b
	and	v7.16b, v17.16b, v21.16b
	cmeq	v25.16b, v25.16b, v2.16b
	cmeq	v24.16b, v24.16b, v2.16b
	and	v6.16b, v19.16b, v20.16b
	and	v16.16b, v16.16b, v0.16b
	and	v5.16b, v5.16b, v0.16b
	and	v3.16b, v3.16b, v0.16b
	and	v4.16b, v4.16b, v0.16b
	and	v17.16b, v22.16b, v24.16b
	and	v18.16b, v23.16b, v25.16b
	and	v6.16b, v16.16b, v6.16b
	and	v5.16b, v5.16b, v7.16b
	and	v3.16b, v3.16b, v17.16b
	and	v4.16b, v4.16b, v18.16b
	addp	v5.16b, v6.16b, v5.16b
	addp	v3.16b, v3.16b, v4.16b
	addp	v3.16b, v5.16b, v3.16b
	addp	v3.16b, v3.16b, v3.16b
	fmov	x19, d3
	cbnz	x19, LBB23_157
	ldr	x8, [sp, #16]
	sub	x11, x8, x22
	add	x22, x22, #64
LBB23_129:
	subs	x8, x11, #64
	b.lo	LBB23_132
	add	x9, x15, x22
	add	x10, x16, x22
	add	x22, x22, #64
	ldp	q16, q5, [x9]
	mov	x11, x8
	ldp	q17, q7, [x10]
	ldp	q4, q6, [x9, #32]
	ldp	q3, q18, [x10, #32]
	cmeq	v19.16b, v5.16b, v29.16b
	cmeq	v20.16b, v16.16b, v29.16b
	cmeq	v21.16b, v7.16b, v30.16b
	cmeq	v22.16b, v17.16b, v30.16b
	cmeq	v23.16b, v6.16b, v29.16b
	cmeq	v24.16b, v4.16b, v29.16b
	cmeq	v25.16b, v18.16b, v30.16b
	cmeq	v26.16b, v3.16b, v30.16b
	and	v20.16b, v20.16b, v22.16b
	and	v19.16b, v19.16b, v21.16b
	and	v21.16b, v24.16b, v26.16b
	and	v22.16b, v23.16b, v25.16b
	orr	v19.16b, v19.16b, v22.16b
	orr	v20.16b, v20.16b, v21.16b
	and	v20.16b, v20.16b, v0.16b
	and	v19.16b, v19.16b, v0.16b
	addp	v19.16b, v20.16b, v19.16b
	addp	v19.16b, v19.16b, v19.16b
	addp	v19.16b, v19.16b, v19.16b
	fmov	w9, s19
	cbz	w9, LBB23_129
	sub	x22, x22, #64
	b	LBB23_127
LBB23_132:
	cmp	x11, #32
	b.lo	LBB23_136
	ldr	x8, [sp, #32]
	sub	x8, x8, x22
LBB23_134:
	add	x9, x15, x22
	add	x10, x16, x22
	ldp	q0, q1, [x9]
	ldp	q3, q2, [x10]
	cmeq	v0.16b, v0.16b, v29.16b
	cmeq	v1.16b, v1.16b, v29.16b
	cmeq	v3.16b, v3.16b, v30.16b
	cmeq	v2.16b, v2.16b, v30.16b
	and	v1.16b, v1.16b, v2.16b
	and	v0.16b, v0.16b, v3.16b
	ldr	q2, [x12, lCPI23_0@PAGEOFF]
	and	v0.16b, v0.16b, v2.16b
	and	v1.16b, v1.16b, v2.16b
	addp	v0.16b, v0.16b, v1.16b
	addp	v0.16b, v0.16b, v0.16b
	addp	v0.16b, v0.16b, v0.16b
	fmov	w19, s0
	cbnz	w19, LBB23_137
	sub	x8, x8, #32
	add	x22, x22, #32
	cmp	x8, #31
	b.hi	LBB23_134
LBB23_136:
	add	x8, x15, x13
	add	x9, x16, x13
	ldp	q0, q1, [x8]
	ldp	q3, q2, [x9]
	sub	x9, x22, x27
	add	x9, x9, #32
	cmeq	v0.16b, v0.16b, v29.16b
	cmeq	v1.16b, v1.16b, v29.16b
	cmeq	v3.16b, v3.16b, v30.16b
	cmeq	v2.16b, v2.16b, v30.16b
	and	v1.16b, v1.16b, v2.16b
	and	v0.16b, v0.16b, v3.16b
	ldr	q2, [x12, lCPI23_0@PAGEOFF]
	and	v0.16b, v0.16b, v2.16b
	and	v1.16b, v1.16b, v2.16b
	addp	v0.16b, v0.16b, v1.16b
	addp	v0.16b, v0.16b, v0.16b
	addp	v0.16b, v0.16b, v0.16b
	fmov	w8, s0
	lsr	x19, x8, x9
	mov	x8, x27
	cbnz	x19, LBB23_138
	b	LBB23_1
LBB23_137:
	add	x8, x22, #32
LBB23_138:
	str	x8, [sp, #88]
	b	LBB23_141
LBB23_139:
	ldur	x8, [x29, #-16]
	ldr	q2, [x12, lCPI23_0@PAGEOFF]
	add	x8, x8, x24
	ldp	q0, q1, [x8]
	cmeq	v1.16b, v1.16b, v27.16b
	cmeq	v0.16b, v0.16b, v28.16b
	bic	v0.16b, v2.16b, v0.16b
	bic	v1.16b, v2.16b, v1.16b
	addp	v0.16b, v0.16b, v1.16b
	addp	v0.16b, v0.16b, v0.16b
	addp	v0.16b, v0.16b, v0.16b
	fmov	w8, s0
	tst	x8, x14
	b.eq	LBB23_104
LBB23_140:
	mov	w8, #1
	lsl	x8, x8, x23
	bics	x19, x19, x8
	b.eq	LBB23_156
LBB23_141:
	rbit	x8, x19
	cmp	x28, #32
	clz	x23, x8
	add	x24, x23, x22
	sub	x8, x21, x24
	b.hi	LBB23_143
	cmp	x8, #32
	b.hs	LBB23_139
LBB23_143:
	cmp	x1, x8
	b.hi	LBB23_140
	ldur	x8, [x29, #-16]
	cmp	x1, #4
	add	x8, x8, x24
	b.hs	LBB23_152
	cbz	x1, LBB23_104
	ldrb	w9, [x8]
	ldrb	w10, [x20]
	cmp	w9, w10
	b.ne	LBB23_154
	cmp	x1, #1
	b.eq	LBB23_104
	ldrb	w9, [x8, #1]
	ldrb	w10, [x20, #1]
	cmp	w9, w10
	b.ne	LBB23_155
	cmp	x1, #2
	b.eq	LBB23_104
	ldrb	w8, [x8, #2]
	ldrb	w9, [x20, #2]
	cmp	w8, w9
	b.eq	LBB23_104
	mov	w8, #2
	cmp	x8, x1
	b.lo	LBB23_140
	b	LBB23_104
LBB23_152:
	ldr	w8, [x8]
	ldr	w9, [x20]
	cmp	w8, w9
	b.ne	LBB23_140
	ldur	x8, [x29, #-16]
	mov	x2, x20
	mov	x25, x27
	mov	x27, x20
	mov	x20, x3
	mov	x26, x14
	add	x0, x8, x24
	bl	"_core::cmp::slices::groups_equal::<i8,31'core::cmp::numbers::U8PartialEq{}>"
	ldp	q29, q28, [x29, #-80]
	mov	x14, x26
	ldr	q30, [sp, #96]
	ldur	q27, [x29, #-48]
	adrp	x12, lCPI23_0@PAGE
	ldur	x1, [x29, #-24]
	mov	x3, x20
	mov	x20, x27
	mov	x27, x25
	tbz	w0, #0, LBB23_140
	b	LBB23_104
LBB23_154:
	cmp	xzr, x1
	b.lo	LBB23_140
	b	LBB23_104
LBB23_155:
	mov	w8, #1
	cmp	x8, x1
	b.lo	LBB23_140
	b	LBB23_104
LBB23_156:
	ldp	x13, x22, [sp, #80]
	mov	w0, wzr
	ldp	x16, x15, [sp, #64]
	mov	x1, xzr
	ldur	x23, [x29, #-16]
	ldr	x17, [sp, #56]
	cmp	x22, x27
	b.lo	LBB23_119
	b	LBB23_105
LBB23_157:
	add	x8, x22, #64
	b	LBB23_138
LBB23_158:
	add	x12, x3, x1
	mov	x4, x14
	mov	x13, xzr
	dup	v0.16b, w8
	add	x9, x1, x2
	sub	x10, x21, #64
	add	x11, x12, #96
	add	x12, x12, #160
LBB23_159:
	sub	x14, x21, x13
	cmp	x14, #191
	b.ls	LBB23_166
	add	x14, x23, x13
	ldr	q1, [x4, lCPI23_0@PAGEOFF]
	ldp	q2, q3, [x14]
	ldp	q4, q5, [x14, #32]
	add	x14, x13, #64
	cmeq	v2.16b, v2.16b, v0.16b
	cmeq	v3.16b, v3.16b, v0.16b
	cmeq	v5.16b, v5.16b, v0.16b
	cmeq	v4.16b, v4.16b, v0.16b
	and	v2.16b, v2.16b, v1.16b
	and	v3.16b, v3.16b, v1.16b
	and	v4.16b, v4.16b, v1.16b
	and	v5.16b, v5.16b, v1.16b
	addp	v2.16b, v2.16b, v3.16b
	addp	v3.16b, v4.16b, v5.16b
	addp	v2.16b, v2.16b, v3.16b
	addp	v2.16b, v2.16b, v2.16b
	fmov	x16, d2
	cbnz	x16, LBB23_189
	sub	x16, x21, x14
	cmp	x16, #128
	b.lo	LBB23_175
	add	x15, x13, #192
	add	x13, x12, x13
LBB23_163:
	ldp	q2, q3, [x13, #-96]
	ldp	q4, q5, [x13, #-64]
	ldp	q19, q17, [x13, #-32]
	ldp	q20, q18, [x13], #128
	cmeq	v6.16b, v2.16b, v0.16b
	cmeq	v7.16b, v3.16b, v0.16b
	cmeq	v16.16b, v5.16b, v0.16b
	cmeq	v2.16b, v17.16b, v0.16b
	cmeq	v17.16b, v4.16b, v0.16b
	cmeq	v5.16b, v19.16b, v0.16b
	cmeq	v3.16b, v18.16b, v0.16b
	cmeq	v4.16b, v20.16b, v0.16b
	orr	v20.16b, v7.16b, v16.16b
	orr	v21.16b, v6.16b, v17.16b
	orr	v18.16b, v2.16b, v3.16b
	orr	v19.16b, v5.16b, v4.16b
	orr	v18.16b, v20.16b, v18.16b
	orr	v19.16b, v21.16b, v19.16b
	and	v19.16b, v19.16b, v1.16b
	and	v18.16b, v18.16b, v1.16b
	addp	v18.16b, v19.16b, v18.16b
	addp	v18.16b, v18.16b, v18.16b
	addp	v18.16b, v18.16b, v18.16b
	fmov	w14, s18
	cbnz	w14, LBB23_192
	sub	x16, x16, #128
	add	x15, x15, #128
	cmp	x16, #127
	b.hi	LBB23_163
	sub	x13, x15, #128
	b	LBB23_176
LBB23_166:
	cmp	x14, #64
	mov	x0, x4
	b.lo	LBB23_182
LBB23_167:
	add	x15, x23, x13
	ldp	q2, q3, [x15]
	ldp	q5, q4, [x15, #32]
	cmeq	v1.16b, v2.16b, v0.16b
	cmeq	v6.16b, v3.16b, v0.16b
	cmeq	v7.16b, v5.16b, v0.16b
	cmeq	v16.16b, v4.16b, v0.16b
	orr	v6.16b, v6.16b, v16.16b
	orr	v7.16b, v1.16b, v7.16b
	ldr	q1, [x0, lCPI23_0@PAGEOFF]
	and	v7.16b, v7.16b, v1.16b
	and	v6.16b, v6.16b, v1.16b
	addp	v6.16b, v7.16b, v6.16b
	addp	v6.16b, v6.16b, v6.16b
	addp	v6.16b, v6.16b, v6.16b
	fmov	w15, s6
	cbnz	w15, LBB23_169
	sub	x14, x14, #64
	add	x13, x13, #64
	cmp	x14, #63
	b.hi	LBB23_167
	b	LBB23_182
LBB23_169:
	cmp	x14, #64
	b.lo	LBB23_182
LBB23_170:
	cmeq	v2.16b, v2.16b, v0.16b
	cmeq	v3.16b, v3.16b, v0.16b
	cmeq	v4.16b, v4.16b, v0.16b
	cmeq	v5.16b, v5.16b, v0.16b
	and	v2.16b, v2.16b, v1.16b
	and	v3.16b, v3.16b, v1.16b
	and	v4.16b, v4.16b, v1.16b
	and	v5.16b, v5.16b, v1.16b
	addp	v2.16b, v2.16b, v3.16b
	addp	v3.16b, v5.16b, v4.16b
	addp	v2.16b, v2.16b, v3.16b
	addp	v2.16b, v2.16b, v2.16b
	fmov	x16, d2
	cbnz	x16, LBB23_195
	sub	x14, x10, x13
	neg	x15, x13
	add	x13, x11, x13
LBB23_172:
	subs	x16, x14, #64
	b.lo	LBB23_181
	ldp	q2, q3, [x13, #-32]
	sub	x15, x15, #64
	ldp	q5, q4, [x13], #64
	mov	x14, x16
	cmeq	v6.16b, v2.16b, v0.16b
	cmeq	v7.16b, v3.16b, v0.16b
	cmeq	v16.16b, v5.16b, v0.16b
	cmeq	v17.16b, v4.16b, v0.16b
	orr	v7.16b, v7.16b, v17.16b
	orr	v6.16b, v6.16b, v16.16b
	and	v6.16b, v6.16b, v1.16b
	and	v7.16b, v7.16b, v1.16b
	addp	v6.16b, v6.16b, v7.16b
	addp	v6.16b, v6.16b, v6.16b
	addp	v6.16b, v6.16b, v6.16b
	fmov	w17, s6
	cbz	w17, LBB23_172
	neg	x13, x15
	b	LBB23_170
LBB23_175:
	mov	x13, x14
LBB23_176:
	cmp	x16, #32
	b.lo	LBB23_180
	sub	x14, x21, x13
LBB23_178:
	add	x15, x23, x13
	ldp	q2, q3, [x15]
	cmeq	v3.16b, v3.16b, v0.16b
	cmeq	v2.16b, v2.16b, v0.16b
	and	v2.16b, v2.16b, v1.16b
	and	v3.16b, v3.16b, v1.16b
	addp	v2.16b, v2.16b, v3.16b
	addp	v2.16b, v2.16b, v2.16b
	addp	v2.16b, v2.16b, v2.16b
	fmov	w16, s2
	cbnz	w16, LBB23_188
	sub	x14, x14, #32
	add	x13, x13, #32
	cmp	x14, #31
	b.hi	LBB23_178
LBB23_180:
	ldp	q2, q3, [x9, #-32]
	cmeq	v3.16b, v3.16b, v0.16b
	cmeq	v2.16b, v2.16b, v0.16b
	and	v2.16b, v2.16b, v1.16b
	and	v1.16b, v3.16b, v1.16b
	addp	v1.16b, v2.16b, v1.16b
	b	LBB23_187
LBB23_181:
	mov	w13, #64
	sub	x13, x13, x15
LBB23_182:
	cmp	x14, #32
	b.lo	LBB23_186
	sub	x14, x21, x13
LBB23_184:
	add	x15, x23, x13
	ldr	q3, [x0, lCPI23_0@PAGEOFF]
	ldp	q1, q2, [x15]
	cmeq	v2.16b, v2.16b, v0.16b
	cmeq	v1.16b, v1.16b, v0.16b
	and	v1.16b, v1.16b, v3.16b
	and	v2.16b, v2.16b, v3.16b
	addp	v1.16b, v1.16b, v2.16b
	addp	v1.16b, v1.16b, v1.16b
	addp	v1.16b, v1.16b, v1.16b
	fmov	w16, s1
	cbnz	w16, LBB23_188
	sub	x14, x14, #32
	add	x13, x13, #32
	cmp	x14, #31
	b.hi	LBB23_184
LBB23_186:
	ldp	q1, q2, [x9, #-32]
	ldr	q3, [x0, lCPI23_0@PAGEOFF]
	cmeq	v2.16b, v2.16b, v0.16b
	cmeq	v1.16b, v1.16b, v0.16b
	and	v1.16b, v1.16b, v3.16b
	and	v2.16b, v2.16b, v3.16b
	addp	v1.16b, v1.16b, v2.16b
LBB23_187:
	addp	v1.16b, v1.16b, v1.16b
	sub	x15, x13, x21
	add	x15, x15, #32
	addp	v1.16b, v1.16b, v1.16b
	fmov	w14, s1
	lsr	x16, x14, x15
	mov	x15, x21
	mov	x14, x15
	cbnz	x16, LBB23_189
	b	LBB23_191
LBB23_188:
	add	x14, x13, #32
LBB23_189:
	rbit	x15, x16
	clz	x15, x15
	add	x24, x15, x13
	ldrb	w17, [x23, x24]
	cmp	w17, w8
	b.eq	LBB23_104
	mov	w17, #1
	lsl	x15, x17, x15
	bics	x16, x16, x15
	b.ne	LBB23_189
LBB23_191:
	mov	w0, wzr
	mov	x1, xzr
	cmp	x14, x21
	mov	x13, x14
	b.lo	LBB23_159
	b	LBB23_105
LBB23_192:
	and	v6.16b, v6.16b, v1.16b
	and	v7.16b, v7.16b, v1.16b
	sub	x14, x15, #64
	and	v17.16b, v17.16b, v1.16b
	and	v16.16b, v16.16b, v1.16b
	addp	v6.16b, v6.16b, v7.16b
	addp	v7.16b, v17.16b, v16.16b
	addp	v6.16b, v6.16b, v7.16b
	addp	v6.16b, v6.16b, v6.16b
	fmov	x16, d6
	cbz	x16, LBB23_194
	sub	x13, x15, #128
	b	LBB23_189
LBB23_194:
	and	v5.16b, v5.16b, v1.16b
	and	v2.16b, v2.16b, v1.16b
	and	v4.16b, v4.16b, v1.16b
	and	v1.16b, v3.16b, v1.16b
	addp	v2.16b, v5.16b, v2.16b
	addp	v1.16b, v4.16b, v1.16b
	addp	v1.16b, v2.16b, v1.16b
	addp	v1.16b, v1.16b, v1.16b
	fmov	x16, d1
	mov	x13, x14
	mov	x14, x15
	cbnz	x16, LBB23_189
	b	LBB23_191
LBB23_195:
	add	x14, x13, #64
	b	LBB23_189
LBB23_196:
	add	x13, x9, x3
	mov	w12, #1
	mov	x17, xzr
	add	x15, x13, x1
	mov	x14, xzr
	sub	x12, x12, x9
	add	x13, x1, x3
	sub	x15, x15, #1
	sub	x16, x20, #1
	b	LBB23_199
LBB23_197:
	mov	x14, xzr
	mov	x17, x0
LBB23_198:
	add	x1, x17, x6
	mov	w0, wzr
	cmp	x1, x21
	mov	x1, xzr
	b.hi	LBB23_105
LBB23_199:
	cmp	x17, x11
	csel	x24, x17, xzr, lo
	b.hs	LBB23_1
	ldur	x6, [x29, #-24]
	add	x0, x17, x6
	add	x1, x23, x0
	ldurb	w1, [x1, #-1]
	lsr	x1, x8, x1
	tbz	w1, #0, LBB23_197
	cmp	x14, x9
	mov	x1, x15
	mov	x2, x9
	csel	x4, x14, x9, hi
	subs	x0, x6, x4
	b.ls	LBB23_206
	add	x1, x12, x24
	add	x17, x17, x4
	add	x2, x20, x4
	add	x5, x1, x4
	add	x1, x13, x17
	mov	x17, x5
LBB23_203:
	ldrb	w4, [x2], #1
	ldrb	w5, [x1], #1
	cmp	w4, w5
	b.ne	LBB23_209
	subs	x0, x0, #1
	add	x17, x17, #1
	b.ne	LBB23_203
	mov	x1, x15
	mov	x2, x9
LBB23_206:
	cmp	x14, x2
	b.hs	LBB23_104
	ldrb	w17, [x16, x2]
	ldrb	w0, [x1, x24]
	sub	x2, x2, #1
	sub	x1, x1, #1
	cmp	w17, w0
	b.eq	LBB23_206
	add	x17, x24, x10
	sub	x14, x6, x10
	b	LBB23_198
LBB23_209:
	mov	x14, xzr
	b	LBB23_198
LBB23_210:
	add	x0, x3, x8
	add	x6, x3, x9
	sub	x5, x2, x19
	add	x0, x0, x1
	add	x6, x1, x6
	sub	x5, x5, x3
	add	x0, x0, #32
	mov	x26, xzr
	mov	x7, xzr
	stp	x0, x6, [sp, #88]
	add	x0, x19, x3
	mov	w6, #1
	sub	x2, x0, x2
	add	x0, x13, x3
	sub	x19, x6, x13
	stur	x19, [x29, #-64]
	add	x19, x1, x3
	add	x0, x0, x1
	add	x27, x5, #1
	stur	x19, [x29, #-80]
	sub	x30, x0, #1
	sub	x25, x20, #1
	mov	w19, #1
LBB23_211:
	mov	x28, x20
	cbz	w19, LBB23_220
	ldur	x20, [x29, #-24]
	cmp	w19, #51
	b.lo	LBB23_215
	lsl	w0, w19, #3
	mov	w1, #536870912
	cmp	w19, w1
	sub	w0, w0, #8
	csinv	w0, w0, wzr, ls
	cmp	w0, w4
	b.ls	LBB23_215
	mov	w6, wzr
	b	LBB23_221
LBB23_215:
	cmp	x11, #32
	b.hs	LBB23_222
	cmp	x26, x11
	b.hs	LBB23_1
	mov	x24, x26
LBB23_218:
	ldrb	w0, [x15, x24]
	cmp	w0, w10
	b.eq	LBB23_262
	add	x24, x24, #1
	mov	w0, wzr
	add	x1, x2, x24
	cmp	x1, #1
	mov	x1, xzr
	b.ne	LBB23_218
	b	LBB23_105
LBB23_220:
	ldur	x20, [x29, #-24]
LBB23_221:
	mov	w19, wzr
	cmp	x26, x11
	mov	x24, x26
	b.lo	LBB23_266
	b	LBB23_1
LBB23_222:
	cmp	x26, x11
	mov	x22, x26
	b.hs	LBB23_1
LBB23_223:
	sub	x20, x11, x22
	cmp	x20, #191
	b.ls	LBB23_226
	add	x0, x23, x22
	add	x1, x0, x8
	add	x19, x0, x9
	add	x0, x0, #32
	ldp	q3, q2, [x1]
	add	x1, x0, x8
	add	x0, x0, x9
	ldp	q5, q4, [x19]
	ldp	q7, q6, [x1]
	add	x1, x22, #64
	ldp	q17, q16, [x0]
	cmeq	v3.16b, v3.16b, v0.16b
	cmeq	v2.16b, v2.16b, v0.16b
	cmeq	v5.16b, v5.16b, v1.16b
	cmeq	v4.16b, v4.16b, v1.16b
	cmeq	v7.16b, v7.16b, v0.16b
	cmeq	v6.16b, v6.16b, v0.16b
	cmeq	v17.16b, v17.16b, v1.16b
	cmeq	v16.16b, v16.16b, v1.16b
	and	v4.16b, v2.16b, v4.16b
	and	v3.16b, v3.16b, v5.16b
	ldr	q2, [x14, lCPI23_0@PAGEOFF]
	and	v5.16b, v6.16b, v16.16b
	and	v6.16b, v7.16b, v17.16b
	and	v3.16b, v3.16b, v2.16b
	and	v4.16b, v4.16b, v2.16b
	and	v6.16b, v6.16b, v2.16b
	and	v5.16b, v5.16b, v2.16b
	addp	v3.16b, v3.16b, v4.16b
	addp	v4.16b, v6.16b, v5.16b
	addp	v3.16b, v3.16b, v4.16b
	addp	v3.16b, v3.16b, v3.16b
	fmov	x19, d3
	cbz	x19, LBB23_232
	add	x20, x22, #64
	mov	x1, x22
	b	LBB23_255
LBB23_226:
	cmp	x20, #64
	b.lo	LBB23_231
	ldp	x19, x1, [sp, #88]
	neg	x0, x22
	add	x1, x1, x22
	add	x19, x19, x22
LBB23_228:
	ldp	q3, q2, [x19, #-32]
	ldp	q4, q5, [x1]
	ldp	q6, q7, [x19], #64
	ldp	q16, q17, [x1, #32]
	cmeq	v2.16b, v2.16b, v0.16b
	cmeq	v3.16b, v3.16b, v0.16b
	cmeq	v5.16b, v5.16b, v1.16b
	cmeq	v4.16b, v4.16b, v1.16b
	cmeq	v7.16b, v7.16b, v0.16b
	cmeq	v6.16b, v6.16b, v0.16b
	cmeq	v17.16b, v17.16b, v1.16b
	cmeq	v16.16b, v16.16b, v1.16b
	and	v3.16b, v3.16b, v4.16b
	and	v2.16b, v2.16b, v5.16b
	and	v4.16b, v6.16b, v16.16b
	and	v5.16b, v7.16b, v17.16b
	orr	v5.16b, v2.16b, v5.16b
	orr	v3.16b, v3.16b, v4.16b
	ldr	q2, [x14, lCPI23_0@PAGEOFF]
	and	v3.16b, v3.16b, v2.16b
	and	v4.16b, v5.16b, v2.16b
	addp	v3.16b, v3.16b, v4.16b
	addp	v3.16b, v3.16b, v3.16b
	addp	v3.16b, v3.16b, v3.16b
	fmov	w20, s3
	cbnz	w20, LBB23_242
	sub	x0, x0, #64
	add	x1, x1, #64
	add	x20, x5, x0
	add	x20, x20, #1
	cmp	x20, #63
	b.hi	LBB23_228
	neg	x1, x0
	b	LBB23_248
LBB23_231:
	mov	x1, x22
	b	LBB23_248
LBB23_232:
	sub	x19, x11, x1
	cmp	x19, #128
	b.lo	LBB23_237
	add	x0, x22, #192
LBB23_234:
	add	x20, x16, x0
	add	x1, x15, x0
	ldp	q18, q17, [x20, #-96]
	ldp	q4, q3, [x1, #-128]
	ldp	q6, q5, [x20, #-128]
	ldp	q16, q7, [x1, #-96]
	cmeq	v21.16b, v18.16b, v1.16b
	ldp	q20, q19, [x1, #-64]
	cmeq	v22.16b, v17.16b, v1.16b
	ldp	q25, q17, [x1, #-32]
	cmeq	v4.16b, v4.16b, v0.16b
	ldp	q26, q18, [x20, #-32]
	cmeq	v3.16b, v3.16b, v0.16b
	ldp	q24, q23, [x20, #-64]
	cmeq	v6.16b, v6.16b, v1.16b
	cmeq	v5.16b, v5.16b, v1.16b
	cmeq	v16.16b, v16.16b, v0.16b
	cmeq	v7.16b, v7.16b, v0.16b
	cmeq	v20.16b, v20.16b, v0.16b
	cmeq	v19.16b, v19.16b, v0.16b
	cmeq	v27.16b, v17.16b, v0.16b
	cmeq	v23.16b, v23.16b, v1.16b
	cmeq	v28.16b, v18.16b, v1.16b
	cmeq	v24.16b, v24.16b, v1.16b
	cmeq	v25.16b, v25.16b, v0.16b
	cmeq	v26.16b, v26.16b, v1.16b
	and	v18.16b, v3.16b, v5.16b
	and	v17.16b, v4.16b, v6.16b
	and	v7.16b, v7.16b, v22.16b
	and	v16.16b, v16.16b, v21.16b
	and	v5.16b, v19.16b, v23.16b
	and	v3.16b, v27.16b, v28.16b
	and	v6.16b, v20.16b, v24.16b
	and	v4.16b, v25.16b, v26.16b
	orr	v21.16b, v18.16b, v7.16b
	orr	v22.16b, v17.16b, v16.16b
	orr	v19.16b, v5.16b, v3.16b
	orr	v20.16b, v6.16b, v4.16b
	orr	v19.16b, v21.16b, v19.16b
	orr	v20.16b, v22.16b, v20.16b
	and	v19.16b, v19.16b, v2.16b
	and	v20.16b, v20.16b, v2.16b
	addp	v19.16b, v20.16b, v19.16b
	addp	v19.16b, v19.16b, v19.16b
	addp	v19.16b, v19.16b, v19.16b
	fmov	w1, s19
	cbnz	w1, LBB23_258
	sub	x19, x19, #128
	add	x0, x0, #128
	cmp	x19, #127
	b.hi	LBB23_234
	sub	x1, x0, #128
LBB23_237:
	cmp	x19, #32
	b.lo	LBB23_241
	sub	x0, x27, x1
LBB23_239:
	add	x19, x15, x1
	add	x20, x16, x1
	ldp	q3, q4, [x19]
	ldp	q6, q5, [x20]
	cmeq	v3.16b, v3.16b, v0.16b
	cmeq	v4.16b, v4.16b, v0.16b
	cmeq	v6.16b, v6.16b, v1.16b
	cmeq	v5.16b, v5.16b, v1.16b
	and	v4.16b, v4.16b, v5.16b
	and	v3.16b, v3.16b, v6.16b
	and	v3.16b, v3.16b, v2.16b
	and	v4.16b, v4.16b, v2.16b
	addp	v3.16b, v3.16b, v4.16b
	addp	v3.16b, v3.16b, v3.16b
	addp	v3.16b, v3.16b, v3.16b
	fmov	w19, s3
	cbnz	w19, LBB23_254
	sub	x0, x0, #32
	add	x1, x1, #32
	cmp	x0, #31
	b.hi	LBB23_239
LBB23_241:
	add	x0, x17, x8
	add	x19, x17, x9
	ldp	q3, q4, [x0]
	ldp	q6, q5, [x19]
	cmeq	v3.16b, v3.16b, v0.16b
	cmeq	v4.16b, v4.16b, v0.16b
	cmeq	v6.16b, v6.16b, v1.16b
	cmeq	v5.16b, v5.16b, v1.16b
	and	v4.16b, v4.16b, v5.16b
	and	v3.16b, v3.16b, v6.16b
	and	v3.16b, v3.16b, v2.16b
	and	v2.16b, v4.16b, v2.16b
	addp	v2.16b, v3.16b, v2.16b
	b	LBB23_253
LBB23_242:
	add	x1, x5, x0
	add	x20, x1, #1
	neg	x1, x0
	cmp	x20, #64
	b.lo	LBB23_248
LBB23_243:
	add	x0, x23, x1
	add	x19, x0, x8
	add	x20, x0, x9
	add	x0, x0, #32
	ldp	q4, q3, [x19]
	add	x19, x0, x8
	add	x0, x0, x9
	ldp	q6, q5, [x20]
	ldp	q16, q7, [x19]
	ldp	q18, q17, [x0]
	cmeq	v4.16b, v4.16b, v0.16b
	cmeq	v3.16b, v3.16b, v0.16b
	cmeq	v6.16b, v6.16b, v1.16b
	cmeq	v5.16b, v5.16b, v1.16b
	cmeq	v16.16b, v16.16b, v0.16b
	cmeq	v7.16b, v7.16b, v0.16b
	cmeq	v18.16b, v18.16b, v1.16b
	cmeq	v17.16b, v17.16b, v1.16b
	and	v4.16b, v4.16b, v6.16b
	and	v3.16b, v3.16b, v5.16b
	and	v5.16b, v7.16b, v17.16b
	and	v6.16b, v16.16b, v18.16b
	and	v4.16b, v4.16b, v2.16b
	and	v3.16b, v3.16b, v2.16b
	and	v6.16b, v6.16b, v2.16b
	and	v5.16b, v5.16b, v2.16b
	addp	v3.16b, v4.16b, v3.16b
	addp	v4.16b, v6.16b, v5.16b
	addp	v3.16b, v3.16b, v4.16b
	addp	v3.16b, v3.16b, v3.16b
	fmov	x19, d3
	cbnz	x19, LBB23_261
	sub	x0, x5, #63
	sub	x20, x0, x1
	add	x1, x1, #64
LBB23_245:
	subs	x0, x20, #64
	b.lo	LBB23_248
	add	x19, x15, x1
	add	x20, x16, x1
	add	x1, x1, #64
	ldp	q3, q4, [x19]
	ldp	q5, q6, [x20]
	ldp	q7, q16, [x19, #32]
	ldp	q17, q18, [x20, #32]
	cmeq	v4.16b, v4.16b, v0.16b
	cmeq	v3.16b, v3.16b, v0.16b
	cmeq	v6.16b, v6.16b, v1.16b
	cmeq	v5.16b, v5.16b, v1.16b
	cmeq	v16.16b, v16.16b, v0.16b
	cmeq	v7.16b, v7.16b, v0.16b
	mov	x20, x0
	cmeq	v18.16b, v18.16b, v1.16b
	cmeq	v17.16b, v17.16b, v1.16b
	and	v3.16b, v3.16b, v5.16b
	and	v4.16b, v4.16b, v6.16b
	and	v5.16b, v7.16b, v17.16b
	and	v6.16b, v16.16b, v18.16b
	orr	v4.16b, v4.16b, v6.16b
	orr	v3.16b, v3.16b, v5.16b
	and	v3.16b, v3.16b, v2.16b
	and	v4.16b, v4.16b, v2.16b
	addp	v3.16b, v3.16b, v4.16b
	addp	v3.16b, v3.16b, v3.16b
	addp	v3.16b, v3.16b, v3.16b
	fmov	w19, s3
	cbz	w19, LBB23_245
	sub	x1, x1, #64
	b	LBB23_243
LBB23_248:
	cmp	x20, #32
	b.lo	LBB23_252
	sub	x0, x27, x1
LBB23_250:
	add	x19, x15, x1
	add	x20, x16, x1
	ldp	q2, q3, [x19]
	ldp	q5, q4, [x20]
	cmeq	v2.16b, v2.16b, v0.16b
	cmeq	v3.16b, v3.16b, v0.16b
	cmeq	v5.16b, v5.16b, v1.16b
	cmeq	v4.16b, v4.16b, v1.16b
	and	v3.16b, v3.16b, v4.16b
	and	v2.16b, v2.16b, v5.16b
	ldr	q4, [x14, lCPI23_0@PAGEOFF]
	and	v2.16b, v2.16b, v4.16b
	and	v3.16b, v3.16b, v4.16b
	addp	v2.16b, v2.16b, v3.16b
	addp	v2.16b, v2.16b, v2.16b
	addp	v2.16b, v2.16b, v2.16b
	fmov	w19, s2
	cbnz	w19, LBB23_254
	sub	x0, x0, #32
	add	x1, x1, #32
	cmp	x0, #31
	b.hi	LBB23_250
LBB23_252:
	add	x0, x17, x8
	add	x19, x17, x9
	ldp	q2, q3, [x0]
	ldp	q5, q4, [x19]
	cmeq	v2.16b, v2.16b, v0.16b
	cmeq	v3.16b, v3.16b, v0.16b
	cmeq	v5.16b, v5.16b, v1.16b
	cmeq	v4.16b, v4.16b, v1.16b
	and	v3.16b, v3.16b, v4.16b
	and	v2.16b, v2.16b, v5.16b
	ldr	q4, [x14, lCPI23_0@PAGEOFF]
	and	v2.16b, v2.16b, v4.16b
	and	v3.16b, v3.16b, v4.16b
	addp	v2.16b, v2.16b, v3.16b
LBB23_253:
	addp	v2.16b, v2.16b, v2.16b
	sub	x19, x1, x11
	add	x19, x19, #32
	addp	v2.16b, v2.16b, v2.16b
	fmov	w0, s2
	lsr	x19, x0, x19
	mov	x0, x11
	mov	x20, x0
	cbnz	x19, LBB23_255
	b	LBB23_257
LBB23_254:
	add	x20, x1, #32
LBB23_255:
	rbit	x0, x19
	clz	x0, x0
	add	x24, x0, x1
	ldrb	w22, [x15, x24]
	cmp	w22, w10
	b.eq	LBB23_262
	mov	w22, #1
	lsl	x0, x22, x0
	bics	x19, x19, x0
	b.ne	LBB23_255
LBB23_257:
	mov	w0, wzr
	mov	x1, xzr
	cmp	x20, x11
	mov	x22, x20
	b.lo	LBB23_223
	b	LBB23_105
LBB23_258:
	umov	w20, v7.b[1]
	umov	w19, v18.b[0]
	stur	x23, [x29, #-16]
	umov	w1, v17.b[0]
	umov	w23, v7.b[0]
	umov	w24, v18.b[1]
	umov	w22, v17.b[1]
	str	w20, [sp, #80]
	umov	w20, v16.b[0]
	fmov	s19, w19
	umov	w19, v16.b[1]
	fmov	s20, w1
	fmov	s21, w23
	umov	w1, v17.b[2]
	mov	v19.b[1], w24
	umov	w24, v18.b[2]
	fmov	s22, w20
	ldr	w20, [sp, #80]
	mov	v20.b[1], w22
	umov	w22, v18.b[3]
	mov	v21.b[1], w20
	umov	w20, v7.b[2]
	mov	v22.b[1], w19
	umov	w19, v16.b[2]
	mov	v19.b[2], w24
	mov	v20.b[2], w1
	umov	w1, v17.b[3]
	mov	v21.b[2], w20
	umov	w20, v7.b[3]
	mov	v22.b[2], w19
	umov	w19, v16.b[3]
	mov	v19.b[3], w22
	umov	w22, v18.b[4]
	mov	v20.b[3], w1
	umov	w1, v17.b[4]
	mov	v21.b[3], w20
	umov	w20, v7.b[4]
	mov	v22.b[3], w19
	umov	w19, v16.b[4]
	mov	v19.b[4], w22
	umov	w22, v18.b[5]
	mov	v20.b[4], w1
	umov	w1, v17.b[5]
	mov	v21.b[4], w20
	umov	w20, v7.b[5]
	mov	v22.b[4], w19
	umov	w19, v16.b[5]
	mov	v19.b[5], w22
	umov	w22, v18.b[6]
	mov	v20.b[5], w1
	umov	w1, v17.b[6]
	mov	v21.b[5], w20
	umov	w20, v7.b[6]
	mov	v22.b[5], w19
	umov	w19, v16.b[6]
	mov	v19.b[6], w22
	umov	w22, v18.b[7]
	mov	v20.b[6], w1
	umov	w1, v17.b[7]
	mov	v21.b[6], w20
	umov	w20, v7.b[7]
	mov	v22.b[6], w19
	umov	w19, v16.b[7]
	mov	v19.b[7], w22
	umov	w22, v18.b[8]
	mov	v20.b[7], w1
	umov	w1, v17.b[8]
	mov	v21.b[7], w20
	umov	w20, v7.b[8]
	mov	v22.b[7], w19
	umov	w19, v16.b[8]
	mov	v19.b[8], w22
	umov	w22, v18.b[9]
	mov	v20.b[8], w1
	umov	w1, v17.b[9]
	mov	v21.b[8], w20
	umov	w20, v7.b[9]
	mov	v22.b[8], w19
	umov	w19, v16.b[9]
	mov	v19.b[9], w22
	umov	w22, v18.b[10]
	mov	v20.b[9], w1
	umov	w1, v17.b[10]
	mov	v21.b[9], w20
	umov	w20, v7.b[10]
	mov	v22.b[9], w19
	umov	w19, v16.b[10]
	mov	v19.b[10], w22
	umov	w22, v18.b[11]
	mov	v20.b[10], w1
	umov	w1, v17.b[11]
	mov	v21.b[10], w20
	umov	w20, v7.b[11]
	mov	v22.b[10], w19
	umov	w19, v16.b[11]
	mov	v19.b[11], w22
	umov	w22, v18.b[12]
	mov	v20.b[11], w1
	umov	w1, v17.b[12]
	mov	v21.b[11], w20
	umov	w20, v7.b[12]
	mov	v22.b[11], w19
	umov	w19, v16.b[12]
	mov	v19.b[12], w22
	umov	w22, v18.b[13]
	mov	v20.b[12], w1
	umov	w1, v17.b[13]
	mov	v21.b[12], w20
	umov	w20, v7.b[13]
	mov	v22.b[12], w19
	umov	w19, v16.b[13]
	mov	v19.b[13], w22
	umov	w22, v18.b[14]
	mov	v20.b[13], w1
	umov	w1, v17.b[14]
	mov	v21.b[13], w20
	umov	w20, v7.b[14]
	mov	v22.b[13], w19
	umov	w19, v16.b[14]
	mov	v19.b[14], w22
	umov	w22, v18.b[15]
	mov	v20.b[14], w1
	umov	w1, v17.b[15]
	mov	v21.b[14], w20
	umov	w20, v7.b[15]
	mov	v22.b[14], w19
	umov	w19, v16.b[15]
	mov	v19.b[15], w22
	mov	v20.b[15], w1
	mov	v21.b[15], w20
	sub	x20, x0, #64
	mov	v22.b[15], w19
	shl	v16.16b, v19.16b, #7
	shl	v7.16b, v20.16b, #7
	shl	v17.16b, v21.16b, #7
	shl	v18.16b, v22.16b, #7
	cmlt	v16.16b, v16.16b, #0
	cmlt	v7.16b, v7.16b, #0
	cmlt	v17.16b, v17.16b, #0
	cmlt	v18.16b, v18.16b, #0
	and	v16.16b, v16.16b, v2.16b
	and	v7.16b, v7.16b, v2.16b
	and	v17.16b, v17.16b, v2.16b
	and	v18.16b, v18.16b, v2.16b
	addp	v7.16b, v7.16b, v16.16b
	addp	v16.16b, v18.16b, v17.16b
	addp	v7.16b, v7.16b, v16.16b
	addp	v7.16b, v7.16b, v7.16b
	fmov	x19, d7
	cbz	x19, LBB23_260
	ldur	x23, [x29, #-16]
	sub	x1, x0, #128
	b	LBB23_255
LBB23_260:
	umov	w23, v6.b[1]
	umov	w1, v5.b[0]
	umov	w19, v6.b[0]
	umov	w24, v3.b[0]
	umov	w22, v5.b[1]
	str	w23, [sp, #64]
	umov	w23, v3.b[1]
	fmov	s7, w1
	fmov	s16, w19
	fmov	s17, w24
	ldr	w19, [sp, #64]
	umov	w1, v5.b[2]
	mov	v7.b[1], w22
	str	w23, [sp, #80]
	umov	w23, v4.b[0]
	mov	v16.b[1], w19
	ldr	w22, [sp, #80]
	umov	w19, v6.b[2]
	mov	v17.b[1], w22
	umov	w22, v3.b[2]
	mov	v7.b[2], w1
	str	w23, [sp, #72]
	umov	w23, v4.b[1]
	umov	w1, v5.b[3]
	ldr	s18, [sp, #72]
	mov	v16.b[2], w19
	umov	w19, v6.b[3]
	mov	v17.b[2], w22
	umov	w22, v3.b[3]
	mov	v18.b[1], w23
	umov	w23, v4.b[2]
	mov	v7.b[3], w1
	umov	w1, v5.b[4]
	mov	v16.b[3], w19
	umov	w19, v6.b[4]
	mov	v17.b[3], w22
	umov	w22, v3.b[4]
	mov	v18.b[2], w23
	umov	w23, v4.b[3]
	mov	v7.b[4], w1
	umov	w1, v5.b[5]
	mov	v16.b[4], w19
	umov	w19, v6.b[5]
	mov	v17.b[4], w22
	umov	w22, v3.b[5]
	mov	v18.b[3], w23
	umov	w23, v4.b[4]
	mov	v7.b[5], w1
	umov	w1, v5.b[6]
	mov	v16.b[5], w19
	umov	w19, v6.b[6]
	mov	v17.b[5], w22
	umov	w22, v3.b[6]
	mov	v18.b[4], w23
	umov	w23, v4.b[5]
	mov	v7.b[6], w1
	umov	w1, v5.b[7]
	mov	v16.b[6], w19
	umov	w19, v6.b[7]
	mov	v17.b[6], w22
	umov	w22, v3.b[7]
	mov	v18.b[5], w23
	umov	w23, v4.b[6]
	mov	v7.b[7], w1
	umov	w1, v5.b[8]
	mov	v16.b[7], w19
	umov	w19, v6.b[8]
	mov	v17.b[7], w22
	umov	w22, v3.b[8]
	mov	v18.b[6], w23
	umov	w23, v4.b[7]
	mov	v7.b[8], w1
	umov	w1, v5.b[9]
	mov	v16.b[8], w19
	umov	w19, v6.b[9]
	mov	v17.b[8], w22
	umov	w22, v3.b[9]
	mov	v18.b[7], w23
	umov	w23, v4.b[8]
	mov	v7.b[9], w1
	umov	w1, v5.b[10]
	mov	v16.b[9], w19
	umov	w19, v6.b[10]
	mov	v17.b[9], w22
	umov	w22, v3.b[10]
	mov	v18.b[8], w23
	umov	w23, v4.b[9]
	mov	v7.b[10], w1
	umov	w1, v5.b[11]
	mov	v16.b[10], w19
	umov	w19, v6.b[11]
	mov	v17.b[10], w22
	umov	w22, v3.b[11]
	mov	v18.b[9], w23
	umov	w23, v4.b[10]
	mov	v7.b[11], w1
	umov	w1, v5.b[12]
	mov	v16.b[11], w19
	umov	w19, v6.b[12]
	mov	v17.b[11], w22
	umov	w22, v3.b[12]
	mov	v18.b[10], w23
	umov	w23, v4.b[11]
	mov	v7.b[12], w1
	umov	w1, v5.b[13]
	mov	v16.b[12], w19
	umov	w19, v6.b[13]
	mov	v17.b[12], w22
	umov	w22, v3.b[13]
	mov	v18.b[11], w23
	umov	w23, v4.b[12]
	mov	v7.b[13], w1
	umov	w1, v5.b[14]
	mov	v16.b[13], w19
	umov	w19, v6.b[14]
	mov	v17.b[13], w22
	umov	w22, v3.b[14]
	mov	v18.b[12], w23
	umov	w23, v4.b[13]
	mov	v7.b[14], w1
	umov	w1, v5.b[15]
	mov	v16.b[14], w19
	umov	w19, v6.b[15]
	mov	v17.b[14], w22
	umov	w22, v3.b[15]
	mov	v18.b[13], w23
	umov	w23, v4.b[14]
	mov	v7.b[15], w1
	mov	v16.b[15], w19
	mov	v17.b[15], w22
	mov	v18.b[14], w23
	umov	w23, v4.b[15]
	shl	v4.16b, v7.16b, #7
	shl	v3.16b, v16.16b, #7
	shl	v5.16b, v17.16b, #7
	mov	v18.b[15], w23
	cmlt	v4.16b, v4.16b, #0
	ldur	x23, [x29, #-16]
	cmlt	v3.16b, v3.16b, #0
	cmlt	v5.16b, v5.16b, #0
	and	v4.16b, v4.16b, v2.16b
	shl	v6.16b, v18.16b, #7
	and	v3.16b, v3.16b, v2.16b
	cmlt	v6.16b, v6.16b, #0
	addp	v3.16b, v3.16b, v4.16b
	and	v6.16b, v6.16b, v2.16b
	and	v2.16b, v5.16b, v2.16b
	addp	v2.16b, v6.16b, v2.16b
	addp	v2.16b, v3.16b, v2.16b
	addp	v2.16b, v2.16b, v2.16b
	fmov	x19, d2
	mov	x1, x20
	mov	x20, x0
	cbnz	x19, LBB23_255
	b	LBB23_257
LBB23_261:
	add	x20, x1, #64
	b	LBB23_255
LBB23_262:
	sub	x0, x24, x26
	adds	w6, w6, #1
	ldur	x20, [x29, #-24]
	lsr	x1, x0, #32
	csinv	w19, w6, wzr, lo
	cbz	x1, LBB23_264
	mov	w4, #-1
	b	LBB23_265
LBB23_264:
	adds	w0, w0, w4
	csinv	w4, w0, wzr, lo
LBB23_265:
	mov	w6, w19
LBB23_266:
	cmp	x24, x26
	add	x26, x24, x20
	add	x0, x23, x26
	ldurb	w0, [x0, #-1]
	lsr	x1, x12, x0
	csel	x0, x7, xzr, eq
	tbz	w1, #0, LBB23_275
	cmp	x0, x13
	mov	x7, x30
	csel	x22, x0, x13, hi
	subs	x1, x20, x22
	mov	x20, x13
	b.ls	LBB23_272
	ldur	x20, [x29, #-64]
	add	x7, x24, x22
	mov	x27, x21
	mov	x21, x23
	add	x26, x7, x20
	ldur	x20, [x29, #-80]
	add	x7, x20, x7
	add	x20, x28, x22
LBB23_269:
	ldrb	w22, [x20], #1
	ldrb	w23, [x7], #1
	cmp	w22, w23
	b.ne	LBB23_276
	subs	x1, x1, #1
	add	x26, x26, #1
	b.ne	LBB23_269
	mov	x7, x30
	mov	x20, x13
	mov	x23, x21
	mov	x21, x27
	add	x27, x5, #1
LBB23_272:
	cmp	x0, x20
	b.hs	LBB23_104
	ldrb	w1, [x25, x20]
	ldrb	w22, [x7, x24]
	sub	x20, x20, #1
	sub	x7, x7, #1
	cmp	w1, w22
	b.eq	LBB23_272
	ldur	x0, [x29, #-48]
	ldur	x20, [x29, #-24]
	add	x26, x24, x0
	sub	x7, x20, x0
	b	LBB23_277
LBB23_275:
	mov	x7, xzr
	b	LBB23_277
LBB23_276:
	ldur	x20, [x29, #-24]
	mov	x7, xzr
	mov	x23, x21
	mov	x21, x27
	add	x27, x5, #1
LBB23_277:
	add	x1, x26, x20
	mov	w0, wzr
	mov	x20, x28
	cmp	x1, x21
	mov	x1, xzr
	b.ls	LBB23_211
	b	LBB23_105
Lfunc_end23:
	.cfi_endproc

	.section	__TEXT,__text,regular,pure_instructions
	.p2align	2
"_core::slice::scan::any_in_quarters::<#953750c03e87c3e2>":
	.cfi_startproc
	sub	x8, x2, #8
	mov	w9, #8
	ldr	d0, [x0]
	cmp	x8, #8
	ldr	d1, [x1]
	mov	w10, #16
	csel	x9, x8, x9, lo
	cmp	x8, #16
	ldr	d5, [x1, x8]
	ldr	d2, [x0, x9]
	ldr	d3, [x1, x9]
	csel	x9, x8, x10, lo
	ldr	d4, [x0, x9]
	mov	v0.d[1], v2.d[0]
	mov	v1.d[1], v3.d[0]
	ldr	d2, [x1, x9]
	ldr	d3, [x0, x8]
	mov	v2.d[1], v5.d[0]
	mov	v4.d[1], v3.d[0]
	cmeq	v0.16b, v0.16b, v1.16b
	cmeq	v1.16b, v4.16b, v2.16b
	mvn	v0.16b, v0.16b
	orn	v0.16b, v0.16b, v1.16b
	umaxv	b0, v0.16b
	fmov	w8, s0
	and	w0, w8, #0x1
	ret
Lfunc_end24:
	.cfi_endproc

	.section	__TEXT,__literal16,16byte_literals
	.p2align	4, 0x0
lCPI25_0:
	.byte	1
	.byte	2
	.byte	4
	.byte	8
	.byte	16
	.byte	32
	.byte	64
	.byte	128
	.byte	1
	.byte	2
	.byte	4
	.byte	8
	.byte	16
	.byte	32
	.byte	64
	.byte	128
	.section	__TEXT,__text,regular,pure_instructions
	.p2align	2
"_core::cmp::slices::groups_equal::<i8,31'core::cmp::numbers::U8PartialEq{}>":
	.cfi_startproc
	stp	x29, x30, [sp, #-16]!
	.cfi_def_cfa_offset 16
	mov	x29, sp
	.cfi_def_cfa w29, 16
	.cfi_offset w30, -8
	.cfi_offset w29, -16
	.cfi_remember_state
	cmp	x1, #8
	b.hi	LBB25_2
	sub	x8, x1, #4
	ldr	s0, [x0]
	ldr	s1, [x2]
	add	x9, x0, x8
	add	x8, x2, x8
	ld1	{ v0.s }[1], [x9]
	ld1	{ v1.s }[1], [x8]
	fmov	x8, d0
	fmov	x9, d1
	cmp	x8, x9
	cset	w0, ne
	eor	w0, w0, #0x1
	.cfi_def_cfa wsp, 16
	ldp	x29, x30, [sp], #16
	.cfi_def_cfa_offset 0
	.cfi_restore w30
	.cfi_restore w29
	ret
LBB25_2:
	.cfi_restore_state
	.cfi_remember_state
	subs	x8, x1, #32
	b.hi	LBB25_4
	mov	x8, x1
	mov	x1, x2
	mov	x2, x8
	bl	"_core::slice::scan::any_in_quarters::<#953750c03e87c3e2>"
	eor	w0, w0, #0x1
	.cfi_def_cfa wsp, 16
	ldp	x29, x30, [sp], #16
	.cfi_def_cfa_offset 0
	.cfi_restore w30
	.cfi_restore w29
	ret
LBB25_4:
	.cfi_restore_state
	.cfi_remember_state
	cmp	x1, #65
	b.hs	LBB25_6
	ldp	q1, q0, [x0]
	add	x9, x2, x8
	ldp	q3, q2, [x2]
	add	x8, x0, x8
	ldp	q4, q5, [x9]
	cmeq	v1.16b, v1.16b, v3.16b
	cmeq	v0.16b, v0.16b, v2.16b
	ldp	q2, q3, [x8]
	mvn	v1.16b, v1.16b
	mvn	v0.16b, v0.16b
	cmeq	v2.16b, v2.16b, v4.16b
	cmeq	v3.16b, v3.16b, v5.16b
	orn	v0.16b, v0.16b, v3.16b
	orn	v1.16b, v1.16b, v2.16b
	orr	v0.16b, v1.16b, v0.16b
	umaxv	b0, v0.16b
	fmov	w8, s0
	and	w0, w8, #0x1
	eor	w0, w0, #0x1
	.cfi_def_cfa wsp, 16
	ldp	x29, x30, [sp], #16
	.cfi_def_cfa_offset 0
	.cfi_restore w30
	.cfi_restore w29
	ret
LBB25_6:
	.cfi_restore_state
	.cfi_remember_state
	and	x9, x1, #0xffffffffffffffc0
	add	x10, x0, #32
	add	x12, x2, #32
	mov	w11, #32
	mov	x13, x1
LBB25_7:
	ldp	q0, q3, [x12, #-32]
	ldp	q1, q2, [x10, #-32]
	ldp	q4, q5, [x12], #64
	cmeq	v0.16b, v1.16b, v0.16b
	cmeq	v1.16b, v2.16b, v3.16b
	ldp	q2, q3, [x10], #64
	mvn	v0.16b, v0.16b
	mvn	v1.16b, v1.16b
	cmeq	v2.16b, v2.16b, v4.16b
	cmeq	v3.16b, v3.16b, v5.16b
	orn	v0.16b, v0.16b, v2.16b
	orn	v1.16b, v1.16b, v3.16b
	orr	v0.16b, v1.16b, v0.16b
	umaxv	b0, v0.16b
	fmov	w14, s0
	tbnz	w14, #0, LBB25_10
	sub	x13, x13, #64
	add	x11, x11, #64
	cmp	x13, #64
	b.hs	LBB25_7
	sub	x10, x1, x9
	cmp	x10, #32
	b.hs	LBB25_11
	b	LBB25_16
LBB25_10:
	sub	x9, x11, #32
	sub	x10, x1, x9
	cmp	x10, #32
	b.lo	LBB25_16
LBB25_11:
	add	x11, x0, x9
	add	x9, x2, x9
LBB25_12:
	ldp	q0, q1, [x11], #32
	ldp	q2, q3, [x9], #32
	adrp	x12, lCPI25_0@PAGE
	cmeq	v1.16b, v1.16b, v3.16b
	cmeq	v0.16b, v0.16b, v2.16b
	ldr	q2, [x12, lCPI25_0@PAGEOFF]
	bic	v1.16b, v2.16b, v1.16b
	bic	v0.16b, v2.16b, v0.16b
	ext	v2.16b, v1.16b, v1.16b, #8
	ext	v3.16b, v0.16b, v0.16b, #8
	zip1	v1.16b, v1.16b, v2.16b
	zip1	v0.16b, v0.16b, v3.16b
	addv	h1, v1.8h
	addv	h0, v0.8h
	fmov	w12, s1
	fmov	w13, s0
	orr	w12, w13, w12
	tst	w12, #0xffff
	b.ne	LBB25_14
	sub	x10, x10, #32
	cmp	x10, #32
	b.hs	LBB25_12
	b	LBB25_16
LBB25_14:
	cmp	x10, #31
	b.ls	LBB25_16
	mov	w0, #1
	eor	w0, w0, #0x1
	.cfi_def_cfa wsp, 16
	ldp	x29, x30, [sp], #16
	.cfi_def_cfa_offset 0
	.cfi_restore w30
	.cfi_restore w29
	ret
LBB25_16:
	.cfi_restore_state
	add	x9, x0, x8
	add	x8, x2, x8
	ldp	q0, q3, [x8]
	ldp	q1, q2, [x9]
	cmeq	v0.16b, v1.16b, v0.16b
	cmeq	v1.16b, v2.16b, v3.16b
	mvn	v0.16b, v0.16b
	orn	v0.16b, v0.16b, v1.16b
	umaxv	b0, v0.16b
	fmov	w8, s0
	and	w0, w8, #0x1
	eor	w0, w0, #0x1
	.cfi_def_cfa wsp, 16
	ldp	x29, x30, [sp], #16
	.cfi_def_cfa_offset 0
	.cfi_restore w30
	.cfi_restore w29
	ret
Lfunc_end25:
	.cfi_endproc

	.section	__TEXT,__literal16,16byte_literals
	.p2align	4, 0x0
lCPI26_0:
	.byte	1
	.byte	2
	.byte	4
	.byte	8
	.byte	16
	.byte	32
	.byte	64
	.byte	128
	.byte	1
	.byte	2
	.byte	4
	.byte	8
	.byte	16
	.byte	32
	.byte	64
	.byte	128
	.section	__TEXT,__text,regular,pure_instructions
	.p2align	2
"_core::slice::reads::slice+T::starts_with::<i8,31'core::cmp::numbers::U8PartialEq{}>":
	.cfi_startproc
	cmp	x1, x3
	b.hs	LBB26_2
	mov	w0, wzr
	ret
LBB26_2:
	stp	x29, x30, [sp, #-16]!
	.cfi_def_cfa_offset 16
	mov	x29, sp
	.cfi_def_cfa w29, 16
	.cfi_offset w30, -8
	.cfi_offset w29, -16
	.cfi_remember_state
	mov	x1, x0
	cmp	x3, #3
	b.hi	LBB26_5
	cbz	x3, LBB26_9
	lsr	x8, x3, #1
	ldrb	w9, [x2]
	ldrb	w10, [x1]
	sub	x11, x3, #1
	ldrb	w12, [x2, x8]
	ldrb	w8, [x1, x8]
	cmp	w9, w10
	ldrb	w9, [x2, x11]
	ldrb	w10, [x1, x11]
	ccmp	w12, w8, #0, eq
	ccmp	w9, w10, #0, eq
	cset	w0, ne
	eor	w0, w0, #0x1
	.cfi_def_cfa wsp, 16
	ldp	x29, x30, [sp], #16
	.cfi_def_cfa_offset 0
	.cfi_restore w30
	.cfi_restore w29
	ret
LBB26_5:
	.cfi_restore_state
	.cfi_remember_state
	cmp	x3, #8
	b.hi	LBB26_7
	sub	x8, x3, #4
	ldr	s0, [x2]
	ldr	s1, [x1]
	add	x9, x2, x8
	add	x8, x1, x8
	ld1	{ v0.s }[1], [x9]
	ld1	{ v1.s }[1], [x8]
	fmov	x8, d0
	fmov	x9, d1
	cmp	x8, x9
	cset	w0, ne
	eor	w0, w0, #0x1
	.cfi_def_cfa wsp, 16
	ldp	x29, x30, [sp], #16
	.cfi_def_cfa_offset 0
	.cfi_restore w30
	.cfi_restore w29
	ret
LBB26_7:
	.cfi_restore_state
	.cfi_remember_state
	subs	x8, x3, #32
	b.hi	LBB26_10
	mov	x0, x2
	mov	x2, x3
	bl	"_core::slice::scan::any_in_quarters::<#953750c03e87c3e2>"
	eor	w0, w0, #0x1
	.cfi_def_cfa wsp, 16
	ldp	x29, x30, [sp], #16
	.cfi_def_cfa_offset 0
	.cfi_restore w30
	.cfi_restore w29
	ret
LBB26_9:
	.cfi_restore_state
	.cfi_remember_state
	eor	w0, wzr, #0x1
	.cfi_def_cfa wsp, 16
	ldp	x29, x30, [sp], #16
	.cfi_def_cfa_offset 0
	.cfi_restore w30
	.cfi_restore w29
	ret
LBB26_10:
	.cfi_restore_state
	.cfi_remember_state
	cmp	x3, #65
	b.hs	LBB26_12
	ldp	q1, q0, [x2]
	add	x9, x1, x8
	ldp	q3, q2, [x1]
	add	x8, x2, x8
	ldp	q4, q5, [x9]
	cmeq	v1.16b, v1.16b, v3.16b
	cmeq	v0.16b, v0.16b, v2.16b
	ldp	q2, q3, [x8]
	mvn	v1.16b, v1.16b
	mvn	v0.16b, v0.16b
	cmeq	v2.16b, v2.16b, v4.16b
	cmeq	v3.16b, v3.16b, v5.16b
	orn	v0.16b, v0.16b, v3.16b
	orn	v1.16b, v1.16b, v2.16b
	orr	v0.16b, v1.16b, v0.16b
	umaxv	b0, v0.16b
	fmov	w8, s0
	and	w0, w8, #0x1
	eor	w0, w0, #0x1
	.cfi_def_cfa wsp, 16
	ldp	x29, x30, [sp], #16
	.cfi_def_cfa_offset 0
	.cfi_restore w30
	.cfi_restore w29
	ret
LBB26_12:
	.cfi_restore_state
	.cfi_remember_state
	and	x9, x3, #0xffffffffffffffc0
	add	x10, x2, #32
	add	x12, x1, #32
	mov	w11, #32
	mov	x13, x3
LBB26_13:
	ldp	q0, q3, [x12, #-32]
	ldp	q1, q2, [x10, #-32]
	ldp	q4, q5, [x12], #64
	cmeq	v0.16b, v1.16b, v0.16b
	cmeq	v1.16b, v2.16b, v3.16b
	ldp	q2, q3, [x10], #64
	mvn	v0.16b, v0.16b
	mvn	v1.16b, v1.16b
	cmeq	v2.16b, v2.16b, v4.16b
	cmeq	v3.16b, v3.16b, v5.16b
	orn	v0.16b, v0.16b, v2.16b
	orn	v1.16b, v1.16b, v3.16b
	orr	v0.16b, v1.16b, v0.16b
	umaxv	b0, v0.16b
	fmov	w14, s0
	tbnz	w14, #0, LBB26_15
	sub	x13, x13, #64
	add	x11, x11, #64
	cmp	x13, #64
	b.hs	LBB26_13
	b	LBB26_16
LBB26_15:
	sub	x9, x11, #32
LBB26_16:
	sub	x10, x3, x9
	cmp	x10, #32
	b.lo	LBB26_22
	add	x11, x1, x9
	add	x9, x2, x9
LBB26_18:
	ldp	q0, q1, [x9], #32
	ldp	q2, q3, [x11], #32
	adrp	x12, lCPI26_0@PAGE
	cmeq	v1.16b, v1.16b, v3.16b
	cmeq	v0.16b, v0.16b, v2.16b
	ldr	q2, [x12, lCPI26_0@PAGEOFF]
	bic	v1.16b, v2.16b, v1.16b
	bic	v0.16b, v2.16b, v0.16b
	ext	v2.16b, v1.16b, v1.16b, #8
	ext	v3.16b, v0.16b, v0.16b, #8
	zip1	v1.16b, v1.16b, v2.16b
	zip1	v0.16b, v0.16b, v3.16b
	addv	h1, v1.8h
	addv	h0, v0.8h
	fmov	w12, s1
	fmov	w13, s0
	orr	w12, w13, w12
	tst	w12, #0xffff
	b.ne	LBB26_20
	sub	x10, x10, #32
	cmp	x10, #32
	b.hs	LBB26_18
	b	LBB26_22
LBB26_20:
	cmp	x10, #31
	b.ls	LBB26_22
	mov	w0, #1
	eor	w0, w0, #0x1
	.cfi_def_cfa wsp, 16
	ldp	x29, x30, [sp], #16
	.cfi_def_cfa_offset 0
	.cfi_restore w30
	.cfi_restore w29
	ret
LBB26_22:
	.cfi_restore_state
	add	x9, x2, x8
	add	x8, x1, x8
	ldp	q0, q3, [x8]
	ldp	q1, q2, [x9]
	cmeq	v0.16b, v1.16b, v0.16b
	cmeq	v1.16b, v2.16b, v3.16b
	mvn	v0.16b, v0.16b
	orn	v0.16b, v0.16b, v1.16b
	umaxv	b0, v0.16b
	fmov	w8, s0
	and	w0, w8, #0x1
	eor	w0, w0, #0x1
	.cfi_def_cfa wsp, 16
	ldp	x29, x30, [sp], #16
	.cfi_def_cfa_offset 0
	.cfi_restore w30
	.cfi_restore w29
	ret
Lfunc_end26:
	.cfi_endproc

	.section	__TEXT,__text,regular,pure_instructions
	.p2align	2
"_memchr::memmem::FinderRev::new":
	.cfi_startproc
	sub	sp, sp, #128
	.cfi_def_cfa_offset 128
	stp	x29, x30, [sp, #64]
	str	x23, [sp, #80]
	stp	x22, x21, [sp, #96]
	stp	x20, x19, [sp, #112]
	add	x29, sp, #64
	.cfi_def_cfa w29, 64
	.cfi_offset w19, -8
	.cfi_offset w20, -16
	.cfi_offset w21, -24
	.cfi_offset w22, -32
	.cfi_offset w23, -48
	.cfi_offset w30, -56
	.cfi_offset w29, -64
	movi	v0.2d, #0000000000000000
	stp	q0, q0, [sp]
	cbz	x2, LBB27_3
	cmp	x2, #1
	b.ne	LBB27_4
	ldrb	w21, [x1]
	mov	w22, wzr
	mov	x8, xzr
	mov	x9, xzr
	mov	x10, xzr
	mov	w11, #1
	b	LBB27_23
LBB27_3:
	mov	w11, wzr
	mov	w21, wzr
	mov	w22, wzr
	dup	v0.2d, x2
	mov	x8, x2
	mov	x9, x2
	mov	x10, x2
	b	LBB27_23
LBB27_4:
	ldrb	w9, [x1]
	ldrb	w11, [x1, #1]
	adrp	x8, lstatic.3@PAGE
	add	x8, x8, lstatic.3@PAGEOFF
	ldrb	w10, [x8, x11]
	ldrb	w12, [x8, x9]
	cmp	w10, w12
	b.hs	LBB27_6
	mov	w22, wzr
	mov	w21, #1
	mov	x10, x9
	mov	x9, x11
	cmp	x2, #2
	b.ne	LBB27_7
	b	LBB27_14
LBB27_6:
	mov	w21, wzr
	mov	w22, #1
	mov	x10, x11
	cmp	x2, #2
	b.eq	LBB27_14
LBB27_7:
	cmp	x2, #255
	mov	w11, #255
	mov	w12, #2
	csel	x11, x2, x11, lo
	b	LBB27_9
LBB27_8:
	mov	w22, w21
	mov	x10, x9
	mov	w21, w12
	add	x12, x12, #1
	mov	x9, x13
	cmp	x11, x12
	b.eq	LBB27_14
LBB27_9:
	ldrb	w13, [x1, x12]
	ldrb	w15, [x8, x9]
	ldrb	w14, [x8, x13]
	cmp	w14, w15
	b.lo	LBB27_8
	cmp	x13, x9
	b.eq	LBB27_13
	ldrb	w15, [x8, x10]
	cmp	w14, w15
	b.hs	LBB27_13
	mov	w22, w12
	mov	x10, x13
LBB27_13:
	add	x12, x12, #1
	cmp	x11, x12
	b.ne	LBB27_9
LBB27_14:
	and	x8, x21, #0xff
	and	x9, x22, #0xff
	ldrb	w10, [x1, x8]
	ldrb	w9, [x1, x9]
	cmp	w9, w10
	b.ne	LBB27_18
	cmp	x2, #255
	mov	w11, #255
	mov	x9, xzr
	csel	x11, x2, x11, lo
LBB27_16:
	ldrb	w12, [x1, x9]
	cmp	w12, w10
	b.ne	LBB27_20
	add	x9, x9, #1
	cmp	x11, x9
	b.ne	LBB27_16
LBB27_18:
	mov	x23, x0
	cmp	x2, #33
	b.hs	LBB27_21
LBB27_19:
	movi	v0.2d, #0000000000000000
	add	x0, sp, #32
	mov	x19, x1
	mov	x20, x2
	stp	q0, q0, [sp, #32]
	bl	_memcpy
	ldp	x8, x9, [sp, #48]
	mov	x1, x19
	ldr	q0, [sp, #32]
	mov	x2, x20
	mov	w11, #2
	mov	x10, x20
	b	LBB27_22
LBB27_20:
	and	w10, w21, #0xff
	cmp	w10, w9, uxtb
	and	x10, x9, #0xff
	ccmp	x2, x10, #0, ne
	ccmp	x2, x8, #0, hi
	csel	w22, w9, w22, hi
	mov	x23, x0
	cmp	x2, #33
	b.lo	LBB27_19
LBB27_21:
	mov	x0, sp
	mov	w3, #1
	mov	x19, x1
	mov	x20, x2
	bl	"_memchr::arch::all::twoway::TwoWay::new"
	ldr	q0, [sp]
	ldrb	w8, [sp, #16]
	mov	x1, x19
	ldr	x9, [sp, #24]
	mov	x2, x20
	mov	w21, wzr
	mov	w22, wzr
	mov	x10, xzr
	mov	w11, #3
LBB27_22:
	mov	x0, x23
LBB27_23:
	bfi	w21, w22, #8, #24
	stp	xzr, x1, [x0]
	stp	x2, xzr, [x0, #16]
	strb	w11, [x0, #32]
	sturh	w21, [x0, #33]
	stur	wzr, [x0, #35]
	strb	wzr, [x0, #39]
	stur	q0, [x0, #40]
	stp	x8, x9, [x0, #56]
	str	x10, [x0, #72]
	.cfi_def_cfa wsp, 128
	ldp	x20, x19, [sp, #112]
	ldr	x23, [sp, #80]
	ldp	x22, x21, [sp, #96]
	ldp	x29, x30, [sp, #64]
	add	sp, sp, #128
	.cfi_def_cfa_offset 0
	.cfi_restore w19
	.cfi_restore w20
	.cfi_restore w21
	.cfi_restore w22
	.cfi_restore w23
	.cfi_restore w30
	.cfi_restore w29
	ret
Lfunc_end27:
	.cfi_endproc

	.section	__TEXT,__literal16,16byte_literals
	.p2align	4, 0x0
lCPI28_0:
	.byte	1
	.byte	2
	.byte	4
	.byte	8
	.byte	16
	.byte	32
	.byte	64
	.byte	128
	.byte	1
	.byte	2
	.byte	4
	.byte	8
	.byte	16
	.byte	32
	.byte	64
	.byte	128
	.section	__TEXT,__text,regular,pure_instructions
	.p2align	2
"_utf16_bytes::bytes::rfind_bytes":
	.cfi_startproc
	sub	sp, sp, #240
	.cfi_def_cfa_offset 240
	stp	x29, x30, [sp, #144]
	stp	x28, x27, [sp, #160]
	stp	x26, x25, [sp, #176]
	stp	x24, x23, [sp, #192]
	stp	x22, x21, [sp, #208]
	stp	x20, x19, [sp, #224]
	add	x29, sp, #144
	.cfi_def_cfa w29, 96
	.cfi_offset w19, -8
	.cfi_offset w20, -16
	.cfi_offset w21, -24
	.cfi_offset w22, -32
	.cfi_offset w23, -40
	.cfi_offset w24, -48
	.cfi_offset w25, -56
	.cfi_offset w26, -64
	.cfi_offset w27, -72
	.cfi_offset w28, -80
	.cfi_offset w30, -88
	.cfi_offset w29, -96
	.cfi_remember_state
	ldr	x19, [x0, #16]
	subs	x11, x2, x19
	b.hs	LBB28_2
LBB28_1:
	mov	x21, xzr
	mov	w0, wzr
	b	LBB28_95
LBB28_2:
	ldrb	w8, [x0, #32]
	adrp	x20, lCPI28_0@PAGE
	cmp	w8, #1
	b.gt	LBB28_16
	cbz	w8, LBB28_49
	ldrb	w8, [x0, #33]
	cmp	x2, #32
	b.lo	LBB28_13
	dup	v0.16b, w8
	sub	x9, x1, #64
LBB28_6:
	sub	x10, x2, #32
	add	x11, x1, x10
	ldp	q1, q2, [x11]
	cmeq	v2.16b, v2.16b, v0.16b
	cmeq	v3.16b, v1.16b, v0.16b
	ldr	q1, [x20, lCPI28_0@PAGEOFF]
	and	v3.16b, v3.16b, v1.16b
	and	v2.16b, v2.16b, v1.16b
	addp	v2.16b, v3.16b, v2.16b
	addp	v2.16b, v2.16b, v2.16b
	addp	v2.16b, v2.16b, v2.16b
	fmov	w11, s2
	cbz	w11, LBB28_9
LBB28_7:
	clz	x12, x11
	eor	x12, x12, #0x3f
	add	x21, x12, x10
	ldrb	w13, [x1, x21]
	cmp	w13, w8
	b.eq	LBB28_94
	mov	w13, #1
	lsl	x12, x13, x12
	bics	x11, x11, x12
	b.ne	LBB28_7
LBB28_9:
	add	x11, x9, x2
LBB28_10:
	mov	x2, x10
	subs	x10, x10, #128
	b.lo	LBB28_12
	ldp	q3, q2, [x11, #-96]
	ldp	q4, q5, [x11, #-64]
	ldp	q6, q7, [x11, #-32]
	ldp	q16, q17, [x11], #-128
	cmeq	v2.16b, v2.16b, v0.16b
	cmeq	v3.16b, v3.16b, v0.16b
	cmeq	v5.16b, v5.16b, v0.16b
	cmeq	v4.16b, v4.16b, v0.16b
	cmeq	v7.16b, v7.16b, v0.16b
	cmeq	v6.16b, v6.16b, v0.16b
	cmeq	v17.16b, v17.16b, v0.16b
	cmeq	v16.16b, v16.16b, v0.16b
	orr	v2.16b, v2.16b, v5.16b
	orr	v3.16b, v3.16b, v4.16b
	orr	v4.16b, v6.16b, v16.16b
	orr	v5.16b, v7.16b, v17.16b
	orr	v2.16b, v2.16b, v5.16b
	orr	v3.16b, v3.16b, v4.16b
	and	v3.16b, v3.16b, v1.16b
	and	v2.16b, v2.16b, v1.16b
	addp	v2.16b, v3.16b, v2.16b
	addp	v2.16b, v2.16b, v2.16b
	addp	v2.16b, v2.16b, v2.16b
	fmov	w12, s2
	cbz	w12, LBB28_10
LBB28_12:
	cmp	x2, #31
	b.hi	LBB28_6
LBB28_13:
	sub	x9, x1, #1
LBB28_14:
	cbz	x2, LBB28_1
	ldrb	w10, [x9, x2]
	sub	x21, x2, #1
	mov	x2, x21
	cmp	w10, w8
	b.ne	LBB28_14
	b	LBB28_94
LBB28_16:
	ldr	x3, [x0, #8]
	cmp	w8, #2
	b.ne	LBB28_46
	ldur	q24, [x0, #56]
	add	x27, x11, #1
	ldur	q25, [x0, #40]
	ldr	x23, [x0, #72]
	cmp	x27, #32
	b.lo	LBB28_50
	ldrb	w8, [x0, #33]
	ldrb	w9, [x0, #34]
	mov	x10, #-1
	lsl	x10, x10, x23
	sub	x25, x19, #1
	stp	q25, q24, [x29, #-32]
	add	x11, x3, x8
	add	x12, x3, x9
	add	x13, x1, x8
	ld1r	{ v26.16b }, [x11]
	ld1r	{ v27.16b }, [x12]
	add	x15, x1, x9
	add	x9, x9, x1
	add	x8, x8, x1
	add	x16, x1, x25
	mvn	x17, x10
	sub	x14, x9, #64
	sub	x28, x8, #160
	stur	x19, [x29, #-64]
	stp	x1, x23, [sp, #64]
	stp	q27, q26, [sp, #32]
	stp	x16, x2, [sp, #16]
	stp	x15, x14, [sp]
	b	LBB28_20
LBB28_19:
	cmp	x27, #31
	b.ls	LBB28_50
LBB28_20:
	sub	x24, x27, #32
	ldr	q28, [x20, lCPI28_0@PAGEOFF]
	add	x8, x13, x24
	add	x9, x15, x24
	ldp	q0, q1, [x8]
	ldp	q3, q2, [x9]
	cmeq	v0.16b, v0.16b, v26.16b
	cmeq	v1.16b, v1.16b, v26.16b
	cmeq	v3.16b, v3.16b, v27.16b
	cmeq	v2.16b, v2.16b, v27.16b
	and	v1.16b, v1.16b, v2.16b
	and	v0.16b, v0.16b, v3.16b
	and	v2.16b, v0.16b, v28.16b
	and	v3.16b, v1.16b, v28.16b
	addp	v2.16b, v2.16b, v3.16b
	addp	v2.16b, v2.16b, v2.16b
	addp	v2.16b, v2.16b, v2.16b
	fmov	w8, s2
	cbz	w8, LBB28_43
	umov	w8, v0.b[0]
	umov	w9, v1.b[0]
	ldrb	w5, [x3]
	umov	w10, v0.b[1]
	umov	w11, v1.b[1]
	dup	v6.16b, w5
	fmov	s2, w8
	fmov	s3, w9
	umov	w8, v0.b[2]
	umov	w9, v1.b[2]
	mov	v2.b[1], w10
	mov	v3.b[1], w11
	umov	w10, v0.b[3]
	umov	w11, v0.b[14]
	mov	v2.b[2], w8
	umov	w8, v1.b[3]
	mov	v3.b[2], w9
	umov	w9, v0.b[4]
	mov	v2.b[3], w10
	umov	w10, v1.b[4]
	mov	v3.b[3], w8
	umov	w8, v0.b[5]
	mov	v2.b[4], w9
	umov	w9, v1.b[5]
	mov	v3.b[4], w10
	umov	w10, v0.b[6]
	mov	v2.b[5], w8
	umov	w8, v1.b[6]
	mov	v3.b[5], w9
	umov	w9, v0.b[7]
	mov	v2.b[6], w10
	umov	w10, v1.b[7]
	mov	v3.b[6], w8
	umov	w8, v0.b[8]
	mov	v2.b[7], w9
	umov	w9, v1.b[8]
	mov	v3.b[7], w10
	umov	w10, v0.b[9]
	mov	v2.b[8], w8
	umov	w8, v1.b[9]
	mov	v3.b[8], w9
	umov	w9, v0.b[10]
	mov	v2.b[9], w10
	umov	w10, v1.b[10]
	mov	v3.b[9], w8
	umov	w8, v0.b[11]
	mov	v2.b[10], w9
	umov	w9, v1.b[11]
	mov	v3.b[10], w10
	umov	w10, v0.b[12]
	mov	v2.b[11], w8
	umov	w8, v1.b[12]
	mov	v3.b[11], w9
	umov	w9, v0.b[13]
	mov	v2.b[12], w10
	umov	w10, v1.b[13]
	mov	v3.b[12], w8
	umov	w8, v1.b[14]
	mov	v2.b[13], w9
	mov	v3.b[13], w10
	add	x9, x1, x24
	add	x10, x16, x24
	ldp	q5, q4, [x9]
	add	x9, x3, x25
	ldp	q16, q7, [x10]
	ld1r	{ v17.16b }, [x9]
	umov	w9, v1.b[15]
	mov	v2.b[14], w11
	mov	v3.b[14], w8
	umov	w8, v0.b[15]
	cmeq	v0.16b, v5.16b, v6.16b
	cmeq	v1.16b, v4.16b, v6.16b
	cmeq	v4.16b, v16.16b, v17.16b
	cmeq	v5.16b, v7.16b, v17.16b
	mov	v2.b[15], w8
	mov	v3.b[15], w9
	and	v1.16b, v1.16b, v5.16b
	and	v0.16b, v0.16b, v4.16b
	and	v0.16b, v2.16b, v0.16b
	and	v1.16b, v3.16b, v1.16b
	shl	v1.16b, v1.16b, #7
	shl	v0.16b, v0.16b, #7
	cmlt	v1.16b, v1.16b, #0
	cmlt	v0.16b, v0.16b, #0
	and	v0.16b, v0.16b, v28.16b
	and	v1.16b, v1.16b, v28.16b
	addp	v0.16b, v0.16b, v1.16b
	addp	v0.16b, v0.16b, v0.16b
	addp	v0.16b, v0.16b, v0.16b
	fmov	w26, s0
	cbz	w26, LBB28_43
	stur	q28, [x29, #-48]
	stur	w5, [x29, #-52]
	b	LBB28_25
LBB28_23:
	add	x8, x1, x21
	ldp	q0, q1, [x8]
	cmeq	v1.16b, v1.16b, v24.16b
	cmeq	v0.16b, v0.16b, v25.16b
	bic	v0.16b, v28.16b, v0.16b
	bic	v1.16b, v28.16b, v1.16b
	addp	v0.16b, v0.16b, v1.16b
	addp	v0.16b, v0.16b, v0.16b
	addp	v0.16b, v0.16b, v0.16b
	fmov	w8, s0
	tst	x8, x17
	b.eq	LBB28_94
LBB28_24:
	mov	w8, #1
	lsl	x8, x8, x22
	bics	x26, x26, x8
	b.eq	LBB28_43
LBB28_25:
	clz	x8, x26
	cmp	x23, #32
	eor	x22, x8, #0x3f
	add	x21, x22, x24
	sub	x8, x2, x21
	b.hi	LBB28_27
	cmp	x8, #32
	b.hs	LBB28_23
LBB28_27:
	cmp	x19, x8
	b.hi	LBB28_24
	cmp	x19, #4
	add	x8, x1, x21
	b.hs	LBB28_36
	cbz	x19, LBB28_94
	ldrb	w9, [x8]
	ldrb	w10, [x3]
	cmp	w9, w10
	b.ne	LBB28_41
	cmp	x19, #1
	b.eq	LBB28_94
	ldrb	w9, [x8, #1]
	ldrb	w10, [x3, #1]
	cmp	w9, w10
	b.ne	LBB28_42
	cmp	x19, #2
	b.eq	LBB28_94
	ldrb	w8, [x8, #2]
	ldrb	w9, [x3, #2]
	cmp	w8, w9
	b.eq	LBB28_94
	mov	w8, #2
	cmp	x8, x19
	b.lo	LBB28_24
	b	LBB28_94
LBB28_36:
	ldrb	w9, [x8]
	cmp	w9, w5
	b.ne	LBB28_24
	ldrb	w9, [x8, #1]
	ldrb	w10, [x3, #1]
	cmp	w9, w10
	b.ne	LBB28_24
	ldrb	w9, [x8, #2]
	ldrb	w10, [x3, #2]
	cmp	w9, w10
	b.ne	LBB28_24
	ldrb	w8, [x8, #3]
	ldrb	w9, [x3, #3]
	cmp	w8, w9
	b.ne	LBB28_24
	add	x0, x1, x21
	mov	x1, x19
	mov	x2, x3
	mov	x23, x3
	mov	x19, x13
	mov	x20, x17
	bl	"_core::cmp::slices::groups_equal::<i8,31'core::cmp::numbers::U8PartialEq{}>"
	ldp	q28, q25, [x29, #-48]
	mov	x3, x23
	ldp	x14, x16, [sp, #8]
	mov	x13, x19
	ldp	q27, q26, [sp, #32]
	mov	x17, x20
	ldp	x1, x23, [sp, #64]
	adrp	x20, lCPI28_0@PAGE
	ldur	w5, [x29, #-52]
	ldr	x15, [sp]
	ldur	q24, [x29, #-16]
	ldur	x19, [x29, #-64]
	ldr	x2, [sp, #24]
	tbz	w0, #0, LBB28_24
	b	LBB28_94
LBB28_41:
	cmp	xzr, x19
	b.lo	LBB28_24
	b	LBB28_94
LBB28_42:
	mov	w8, #1
	cmp	x8, x19
	b.lo	LBB28_24
	b	LBB28_94
LBB28_43:
	add	x8, x14, x27
	add	x9, x28, x27
LBB28_44:
	mov	x27, x24
	subs	x24, x24, #128
	b.lo	LBB28_19
	ldp	q1, q0, [x9]
	ldp	q3, q2, [x8, #-96]
	ldp	q5, q4, [x9, #32]
	ldp	q7, q6, [x8, #-64]
	cmeq	v1.16b, v1.16b, v26.16b
	ldp	q17, q16, [x9, #64]
	cmeq	v0.16b, v0.16b, v26.16b
	ldp	q19, q18, [x8, #-32]
	cmeq	v3.16b, v3.16b, v27.16b
	ldp	q21, q20, [x9, #96]
	cmeq	v2.16b, v2.16b, v27.16b
	ldp	q23, q22, [x8], #-128
	cmeq	v5.16b, v5.16b, v26.16b
	cmeq	v4.16b, v4.16b, v26.16b
	cmeq	v7.16b, v7.16b, v27.16b
	cmeq	v6.16b, v6.16b, v27.16b
	cmeq	v17.16b, v17.16b, v26.16b
	cmeq	v16.16b, v16.16b, v26.16b
	cmeq	v19.16b, v19.16b, v27.16b
	cmeq	v18.16b, v18.16b, v27.16b
	cmeq	v21.16b, v21.16b, v26.16b
	cmeq	v20.16b, v20.16b, v26.16b
	cmeq	v23.16b, v23.16b, v27.16b
	cmeq	v22.16b, v22.16b, v27.16b
	and	v0.16b, v0.16b, v2.16b
	and	v1.16b, v1.16b, v3.16b
	and	v2.16b, v4.16b, v6.16b
	and	v3.16b, v5.16b, v7.16b
	and	v4.16b, v16.16b, v18.16b
	and	v5.16b, v17.16b, v19.16b
	and	v6.16b, v20.16b, v22.16b
	and	v7.16b, v21.16b, v23.16b
	sub	x9, x9, #128
	orr	v0.16b, v0.16b, v2.16b
	orr	v1.16b, v1.16b, v3.16b
	orr	v2.16b, v5.16b, v7.16b
	orr	v3.16b, v4.16b, v6.16b
	orr	v0.16b, v0.16b, v3.16b
	orr	v1.16b, v1.16b, v2.16b
	and	v1.16b, v1.16b, v28.16b
	and	v0.16b, v0.16b, v28.16b
	addp	v0.16b, v1.16b, v0.16b
	addp	v0.16b, v0.16b, v0.16b
	addp	v0.16b, v0.16b, v0.16b
	fmov	w10, s0
	cbz	w10, LBB28_44
	b	LBB28_19
LBB28_46:
	cbz	x19, LBB28_49
	ldp	x8, x9, [x0, #40]
	add	x11, x11, #1
	ldrb	w13, [x0, #56]
	ldr	x10, [x0, #64]
	add	x12, x1, x2
	cbz	w13, LBB28_81
	mov	x17, xzr
	add	x14, x3, x19
	sub	x15, x12, #1
	sub	x16, x3, #1
	b	LBB28_72
LBB28_49:
	mov	w0, #1
	mov	x21, x2
	b	LBB28_95
LBB28_50:
	cbz	x27, LBB28_1
	mov	x8, #-1
	sub	x9, x2, x27
	mov	x25, xzr
	lsl	x8, x8, x23
	add	x28, x9, #1
	mov	x24, x27
	stp	q25, q24, [x29, #-32]
	mvn	x26, x8
	b	LBB28_54
LBB28_52:
	add	x8, x1, x27
	ldr	q2, [x20, lCPI28_0@PAGEOFF]
	ldur	q0, [x8, #-1]
	ldur	q1, [x8, #15]
	cmeq	v1.16b, v1.16b, v24.16b
	cmeq	v0.16b, v0.16b, v25.16b
	bic	v0.16b, v2.16b, v0.16b
	bic	v1.16b, v2.16b, v1.16b
	addp	v0.16b, v0.16b, v1.16b
	addp	v0.16b, v0.16b, v0.16b
	addp	v0.16b, v0.16b, v0.16b
	fmov	w8, s0
	tst	x8, x26
	b.eq	LBB28_96
LBB28_53:
	sub	x25, x25, #1
	mov	x21, xzr
	mov	w0, wzr
	cmn	x27, x25
	add	x28, x28, #1
	sub	x1, x1, #1
	b.eq	LBB28_95
LBB28_54:
	cmp	x23, #32
	sub	x24, x24, #1
	b.hi	LBB28_56
	cmp	x28, #32
	b.hs	LBB28_52
LBB28_56:
	cmp	x19, x28
	b.hi	LBB28_53
	add	x8, x1, x27
	cmp	x19, #4
	sub	x0, x8, #1
	b.hs	LBB28_65
	cbz	x19, LBB28_96
	ldrb	w8, [x0]
	ldrb	w9, [x3]
	cmp	w8, w9
	b.ne	LBB28_67
	cmp	x19, #1
	b.eq	LBB28_96
	ldrb	w8, [x1, x27]
	ldrb	w9, [x3, #1]
	cmp	w8, w9
	b.ne	LBB28_68
	cmp	x19, #2
	b.eq	LBB28_96
	add	x8, x1, x27
	ldrb	w9, [x3, #2]
	ldrb	w8, [x8, #1]
	cmp	w8, w9
	b.eq	LBB28_96
	mov	w8, #2
	cmp	x8, x19
	b.lo	LBB28_53
	b	LBB28_69
LBB28_65:
	ldr	w8, [x0]
	ldr	w9, [x3]
	cmp	w8, w9
	b.ne	LBB28_53
	mov	x21, x1
	mov	x1, x19
	mov	x2, x3
	mov	x22, x3
	bl	"_core::cmp::slices::groups_equal::<i8,31'core::cmp::numbers::U8PartialEq{}>"
	ldp	q25, q24, [x29, #-32]
	mov	x3, x22
	mov	x1, x21
	tbz	w0, #0, LBB28_53
	b	LBB28_96
LBB28_67:
	cmp	xzr, x19
	b.lo	LBB28_53
	b	LBB28_69
LBB28_68:
	mov	w8, #1
	cmp	x8, x19
	b.lo	LBB28_53
LBB28_69:
	add	x8, x27, x25
	sub	x21, x8, #1
	b	LBB28_94
LBB28_70:
	add	x17, x13, x10
LBB28_71:
	add	x13, x17, x19
	mov	x21, xzr
	mov	w0, wzr
	cmp	x13, x2
	b.hi	LBB28_95
LBB28_72:
	cmp	x17, x11
	csel	x13, x17, xzr, lo
	b.hs	LBB28_1
	add	x17, x17, x19
	sub	x0, x12, x17
	ldrb	w0, [x0]
	lsr	x0, x8, x0
	tbz	w0, #0, LBB28_71
	cmp	x19, x9
	b.ls	LBB28_78
	sub	x0, x15, x9
	add	x17, x13, #1
	sub	x1, x19, x9
	sub	x0, x0, x13
LBB28_76:
	ldrb	w3, [x16, x1]
	ldrb	w4, [x0], #-1
	cmp	w3, w4
	b.ne	LBB28_71
	subs	x1, x1, #1
	add	x17, x17, #1
	b.ne	LBB28_76
LBB28_78:
	sub	x17, x12, x13
	neg	x0, x9
LBB28_79:
	cbz	x0, LBB28_93
	ldrb	w1, [x14, x0]
	ldrb	w3, [x17, x0]
	add	x0, x0, #1
	cmp	w1, w3
	b.eq	LBB28_79
	b	LBB28_70
LBB28_81:
	mov	w13, #1
	add	x15, x2, x1
	sub	x0, x19, x9
	sub	x14, x13, x9
	sub	x13, x2, x9
	mov	x4, xzr
	mov	x16, xzr
	sub	x15, x15, #1
	sub	x17, x3, #1
	add	x1, x1, x13
	add	x3, x3, x0
LBB28_82:
	cmp	x4, x11
	csel	x13, x4, xzr, lo
	b.hs	LBB28_1
	add	x4, x4, x19
	sub	x0, x12, x4
	ldrb	w0, [x0]
	lsr	x0, x8, x0
	tbz	w0, #0, LBB28_92
	cmp	x16, x9
	csel	x4, x16, x9, hi
	subs	x0, x19, x4
	b.ls	LBB28_88
	add	x5, x13, x4
	add	x4, x5, x14
	sub	x5, x15, x5
LBB28_86:
	ldrb	w6, [x17, x0]
	ldrb	w7, [x5], #-1
	cmp	w6, w7
	b.ne	LBB28_92
	subs	x0, x0, #1
	add	x4, x4, #1
	b.ne	LBB28_86
LBB28_88:
	sub	x0, x1, x13
	mov	x4, x3
	mov	x5, x9
LBB28_89:
	cmp	x16, x5
	b.hs	LBB28_93
	ldrb	w6, [x4], #1
	sub	x5, x5, #1
	ldrb	w7, [x0], #1
	cmp	w6, w7
	b.eq	LBB28_89
	add	x4, x13, x10
	sub	x16, x19, x10
	add	x13, x4, x19
	mov	x21, xzr
	mov	w0, wzr
	cmp	x13, x2
	b.ls	LBB28_82
	b	LBB28_95
LBB28_92:
	mov	x16, xzr
	add	x13, x4, x19
	mov	x21, xzr
	mov	w0, wzr
	cmp	x13, x2
	b.ls	LBB28_82
	b	LBB28_95
LBB28_93:
	add	x8, x19, x13
	sub	x21, x2, x8
LBB28_94:
	mov	w0, #1
LBB28_95:
	mov	x1, x21
	.cfi_def_cfa wsp, 240
	ldp	x20, x19, [sp, #224]
	ldp	x22, x21, [sp, #208]
	ldp	x24, x23, [sp, #192]
	ldp	x26, x25, [sp, #176]
	ldp	x28, x27, [sp, #160]
	ldp	x29, x30, [sp, #144]
	add	sp, sp, #240
	.cfi_def_cfa_offset 0
	.cfi_restore w19
	.cfi_restore w20
	.cfi_restore w21
	.cfi_restore w22
	.cfi_restore w23
	.cfi_restore w24
	.cfi_restore w25
	.cfi_restore w26
	.cfi_restore w27
	.cfi_restore w28
	.cfi_restore w30
	.cfi_restore w29
	ret
LBB28_96:
	.cfi_restore_state
	mov	w0, #1
	mov	x21, x24
	b	LBB28_95
Lfunc_end28:
	.cfi_endproc

	.section	__TEXT,__literal16,16byte_literals
	.p2align	4, 0x0
lCPI29_0:
	.byte	1
	.byte	2
	.byte	4
	.byte	8
	.byte	16
	.byte	32
	.byte	64
	.byte	128
	.byte	1
	.byte	2
	.byte	4
	.byte	8
	.byte	16
	.byte	32
	.byte	64
	.byte	128
lCPI29_1:
	.byte	0
	.byte	1
	.byte	16
	.byte	2
	.byte	3
	.byte	18
	.byte	4
	.byte	5
	.byte	20
	.byte	6
	.byte	7
	.byte	22
	.byte	8
	.byte	9
	.byte	24
	.byte	10
lCPI29_3:
	.hword	1
	.hword	2
	.hword	4
	.hword	8
	.hword	16
	.hword	32
	.hword	64
	.hword	128
	.section	__TEXT,__literal8,8byte_literals
	.p2align	3, 0x0
lCPI29_2:
	.byte	3
	.byte	10
	.byte	4
	.byte	5
	.byte	12
	.byte	6
	.byte	7
	.byte	14
lCPI29_4:
	.byte	1
	.byte	2
	.byte	4
	.byte	8
	.byte	16
	.byte	32
	.byte	64
	.byte	128
	.section	__TEXT,__text,regular,pure_instructions
	.p2align	2
"_utf16_to_utf8::vectors::write_vectors::<#8b18edd9dd9aa8df>":
	.cfi_startproc
	lsr	x9, x1, #1
	movi	v0.2d, #0000000000000000
	mov	x8, x1
	mov	x13, xzr
	adrp	x14, lCPI29_4@PAGE
	adrp	x12, lCPI29_3@PAGE
	add	x10, x9, x9, lsl #1
	adrp	x11, lstatic.6@PAGE
	add	x11, x11, lstatic.6@PAGEOFF
	add	x10, x10, #128
	cmp	x10, x3
	csel	x15, x10, x3, lo
	cmp	x1, #16
	b.lo	LBB29_19
	cmp	x15, #32
	mov	x10, x13
	mov	x17, x13
	mov	x16, x8
	b.lo	LBB29_20
	movi	v1.2d, #0000000000000000
	mov	x17, xzr
	mov	x10, xzr
	mov	x13, xzr
	mov	x16, x8
LBB29_3:
	ldr	q0, [x0, x13]
	rev16	v0.16b, v0.16b
	tbnz	w17, #0, LBB29_6
	mvni	v2.8h, #248, lsl #8
	cmhi	v2.8h, v0.8h, v2.8h
	umaxv	h2, v2.8h
	fmov	w1, s2
	tbz	w1, #0, LBB29_13
	movi	v2.8h, #248, lsl #8
	movi	v3.8h, #216, lsl #8
	and	v2.16b, v0.16b, v2.16b
	cmeq	v2.8h, v2.8h, v3.8h
	umaxv	h2, v2.8h
	fmov	w1, s2
	tbz	w1, #0, LBB29_15
LBB29_6:
	movi	v2.8b, #252
	shrn	v3.8b, v0.8h, #8
	ldr	d5, [x14, lCPI29_4@PAGEOFF]
	movi	v4.8b, #216
	and	v2.8b, v3.8b, v2.8b
	movi	v3.8b, #220
	cmeq	v4.8b, v2.8b, v4.8b
	cmeq	v2.8b, v2.8b, v3.8b
	and	v3.8b, v4.8b, v5.8b
	and	v2.8b, v2.8b, v5.8b
	addv	b3, v3.8b
	addv	b2, v2.8b
	fmov	w1, s3
	fmov	w4, s2
	ubfiz	x3, x1, #1, #7
	orr	x3, x3, x17
	cmp	x3, w4, uxtb
	b.ne	LBB29_31
	movi	v2.8h, #40, lsl #8
	mvni	v3.8h, #248, lsl #8
	ext	v1.16b, v1.16b, v0.16b, #14
	add	v2.8h, v0.8h, v2.8h
	shl	v1.8h, v1.8h, #10
	umin	v2.8h, v0.8h, v2.8h
	cmhi	v2.8h, v2.8h, v3.8h
	umaxv	h2, v2.8h
	fmov	w17, s2
	tbz	w17, #0, LBB29_9
	mvni	v2.8h, #120, lsl #8
	movi	v3.8h, #248, lsl #8
	mov	w17, #752
	movi	v4.8h, #36, lsl #8
	movi	v5.8h, #128, lsl #8
	adrp	x4, lstatic.7@PAGE
	add	x4, x4, lstatic.7@PAGEOFF
	movi	v6.8h, #216, lsl #8
	movi	v7.8h, #68, lsl #8
	uqsub	v2.8h, v2.8h, v0.8h
	movi	v16.2d, #0xff00ff00ff00ff
	mov	v17.16b, v0.16b
	and	v3.16b, v0.16b, v3.16b
	bic	v1.8h, #240, lsl #8
	add	v4.8h, v0.8h, v4.8h
	bic	v17.8h, #240, lsl #8
	add	v7.8h, v0.8h, v7.8h
	and	v2.16b, v2.16b, v5.16b
	cmeq	v3.8h, v3.8h, v6.8h
	dup	v6.8h, w17
	ushr	v4.8h, v4.8h, #2
	adrp	x17, lCPI29_0@PAGE
	uqsub	v16.8h, v16.8h, v0.8h
	add	v1.8h, v7.8h, v1.8h
	bif	v5.16b, v2.16b, v3.16b
	usra	v17.8h, v2.8h, #3
	uqsub	v4.8h, v4.8h, v6.8h
	orr	v17.8h, #32, lsl #8
	orr	v2.16b, v5.16b, v16.16b
	umax	v1.8h, v4.8h, v1.8h
	ldr	q4, [x17, lCPI29_0@PAGEOFF]
	cmlt	v2.16b, v2.16b, #0
	bif	v1.16b, v17.16b, v3.16b
	and	v2.16b, v2.16b, v4.16b
	shl	v4.8h, v0.8h, #8
	shl	v3.8h, v1.8h, #8
	addp	v2.16b, v2.16b, v2.16b
	usra	v4.8h, v0.8h, #12
	bic	v3.8h, #192, lsl #8
	addp	v2.16b, v2.16b, v2.16b
	orr	v4.8h, #224
	usra	v3.8h, v1.8h, #6
	addp	v1.16b, v2.16b, v2.16b
	orr	v3.8h, #128, lsl #8
	umov	w17, v1.h[0]
	zip1	v1.8h, v4.8h, v3.8h
	zip2	v3.8h, v4.8h, v3.8h
	and	x3, x17, #0xff
	ubfx	x17, x17, #8, #8
	ldr	q2, [x4, x3, lsl #4]
	fmov	d5, x17
	tbl	v1.16b, { v1.16b }, v2.16b
	fmov	d2, x3
	cnt	v4.8b, v5.8b
	cnt	v2.8b, v2.8b
	str	q1, [x2, x10]
	ldr	q1, [x4, x17, lsl #4]
	fmov	w3, s4
	tbl	v1.16b, { v3.16b }, v1.16b
	fmov	w17, s2
	sub	x10, x10, x17
	add	x17, x2, x10
	sub	x10, x10, x3
	add	x10, x10, #24
	stur	q1, [x17, #12]
	b	LBB29_10
LBB29_9:
	movi	v2.8h, #36, lsl #8
	movi	v3.8h, #68, lsl #8
	mov	w17, #752
	dup	v4.8h, w17
	bic	v1.8h, #240, lsl #8
	add	v2.8h, v0.8h, v2.8h
	add	v3.8h, v0.8h, v3.8h
	ushr	v2.8h, v2.8h, #2
	add	v1.8h, v3.8h, v1.8h
	uqsub	v2.8h, v2.8h, v4.8h
	movi	v4.8h, #48, lsl #8
	add	v3.8h, v0.8h, v4.8h
	umax	v1.8h, v2.8h, v1.8h
	cmlt	v2.8h, v0.8h, #0
	ldr	q4, [x12, lCPI29_3@PAGEOFF]
	bif	v1.16b, v3.16b, v2.16b
	movi	v2.8h, #128
	shl	v3.8h, v1.8h, #8
	cmhi	v2.8h, v2.8h, v0.8h
	bic	v3.8h, #192, lsl #8
	usra	v3.8h, v1.8h, #6
	and	v1.16b, v2.16b, v4.16b
	addv	h1, v1.8h
	orr	v3.8h, #128, lsl #8
	fmov	w17, s1
	mov	v1.16b, v2.16b
	saddlv	s2, v2.8h
	bsl	v1.16b, v0.16b, v3.16b
	and	x17, x17, #0xff
	ldr	q3, [x11, x17, lsl #4]
	fmov	w17, s2
	tbl	v1.16b, { v1.16b }, v3.16b
	neg	w17, w17
	sub	x17, x10, x17
	str	q1, [x2, x10]
	add	x10, x17, #16
LBB29_10:
	ubfx	w17, w1, #7, #1
LBB29_11:
	sub	x16, x16, #16
	add	x13, x13, #16
	cmp	x16, #16
	b.lo	LBB29_20
	mov	v1.16b, v0.16b
	sub	x1, x15, x10
	cmp	x1, #31
	b.hi	LBB29_3
	b	LBB29_20
LBB29_13:
	movi	v1.8h, #127
	cmhi	v1.8h, v0.8h, v1.8h
	umaxv	h1, v1.8h
	fmov	w17, s1
	tbz	w17, #0, LBB29_17
	movi	v1.8h, #128
	shl	v2.8h, v0.8h, #8
	ldr	q3, [x12, lCPI29_3@PAGEOFF]
	mov	w1, #32960
	mov	x17, xzr
	dup	v4.8h, w1
	bic	v2.8h, #192, lsl #8
	cmhi	v1.8h, v1.8h, v0.8h
	usra	v2.8h, v0.8h, #6
	and	v3.16b, v1.16b, v3.16b
	add	v2.8h, v2.8h, v4.8h
	addv	h3, v3.8h
	bit	v2.16b, v0.16b, v1.16b
	saddlv	s1, v1.8h
	fmov	w1, s3
	and	x1, x1, #0xff
	ldr	q3, [x11, x1, lsl #4]
	fmov	w1, s1
	tbl	v2.16b, { v2.16b }, v3.16b
	neg	w1, w1
	sub	x1, x10, x1
	str	q2, [x2, x10]
	add	x10, x1, #16
	b	LBB29_11
LBB29_15:
	movi	v1.8h, #8, lsl #8
	cmhi	v1.8h, v1.8h, v0.8h
	umaxv	h1, v1.8h
	fmov	w17, s1
	tbz	w17, #0, LBB29_18
	mvni	v1.8h, #120, lsl #8
	movi	v2.2d, #0xff00ff00ff00ff
	adrp	x1, lCPI29_0@PAGE
	movi	v3.8h, #128, lsl #8
	shl	v5.8h, v0.8h, #8
	adrp	x4, lstatic.7@PAGE
	add	x4, x4, lstatic.7@PAGEOFF
	movi	v4.8h, #63
	ushr	v6.8h, v0.8h, #6
	uqsub	v1.8h, v1.8h, v0.8h
	mov	x17, xzr
	uqsub	v2.8h, v2.8h, v0.8h
	and	v4.16b, v6.16b, v4.16b
	and	v1.16b, v1.16b, v3.16b
	ldr	q3, [x1, lCPI29_0@PAGEOFF]
	orr	v2.16b, v1.16b, v2.16b
	cmlt	v2.16b, v2.16b, #0
	and	v2.16b, v2.16b, v3.16b
	mov	v3.16b, v5.16b
	usra	v5.8h, v0.8h, #12
	bic	v3.8h, #192, lsl #8
	addp	v2.16b, v2.16b, v2.16b
	orr	v5.8h, #224
	orr	v3.16b, v3.16b, v4.16b
	addp	v2.16b, v2.16b, v2.16b
	movi	v4.16b, #128
	usra	v3.8h, v1.8h, #9
	addp	v1.16b, v2.16b, v2.16b
	umov	w1, v1.h[0]
	orr	v2.16b, v3.16b, v4.16b
	zip1	v1.8h, v5.8h, v2.8h
	zip2	v2.8h, v5.8h, v2.8h
	and	x3, x1, #0xff
	ubfx	x1, x1, #8, #8
	fmov	d4, x3
	ldr	q3, [x4, x3, lsl #4]
	tbl	v1.16b, { v1.16b }, v3.16b
	cnt	v3.8b, v4.8b
	fmov	d4, x1
	str	q1, [x2, x10]
	cnt	v4.8b, v4.8b
	ldr	q1, [x4, x1, lsl #4]
	fmov	w1, s3
	tbl	v1.16b, { v2.16b }, v1.16b
	fmov	w3, s4
	sub	x10, x10, x1
	add	x1, x2, x10
	stur	q1, [x1, #12]
	sub	x10, x10, x3
	add	x10, x10, #24
	b	LBB29_11
LBB29_17:
	sqxtun	v1.8b, v0.8h
	mov	x17, xzr
	str	d1, [x2, x10]
	add	x10, x10, #8
	b	LBB29_11
LBB29_18:
	movi	v1.8h, #63, lsl #8
	shl	v2.8h, v0.8h, #2
	mov	w1, #32992
	movi	v3.8h, #63
	mov	x17, xzr
	and	v1.16b, v2.16b, v1.16b
	dup	v2.8h, w1
	adrp	x1, lCPI29_1@PAGE
	usra	v1.8h, v0.8h, #12
	orr	v1.16b, v1.16b, v2.16b
	and	v2.16b, v0.16b, v3.16b
	ldr	q3, [x1, lCPI29_1@PAGEOFF]
	adrp	x1, lCPI29_2@PAGE
	ldr	d4, [x1, lCPI29_2@PAGEOFF]
	add	x1, x2, x10
	add	x10, x10, #24
	orr	v2.8h, #128
	tbl	v3.16b, { v1.16b, v2.16b }, v3.16b
	mov	v2.d[0], v1.d[1]
	tbl	v1.8b, { v2.16b }, v4.8b
	str	q3, [x1]
	str	d1, [x1, #16]
	b	LBB29_11
LBB29_19:
	mov	x10, x13
	mov	x17, x13
	mov	x16, x8
LBB29_20:
	cmp	x8, x13
	b.eq	LBB29_32
LBB29_21:
	and	x1, x16, #0xfffffffffffffff1
	cbnz	x1, LBB29_32
	sub	x15, x15, x10
	cmp	x15, #32
	b.lo	LBB29_32
	cmp	x8, #15
	b.hi	LBB29_25
	ldr	d1, [x0]
	sub	x15, x8, #8
	adrp	x16, lstatic.8@PAGE
	add	x16, x16, lstatic.8@PAGEOFF
	ldr	d2, [x0, x15]
	mov	v3.16b, v1.16b
	mov	v3.d[1], v2.d[0]
	ldr	q2, [x16, x15, lsl #4]
	tbl	v2.16b, { v3.16b }, v2.16b
	mov	v1.d[1], v2.d[0]
	b	LBB29_26
LBB29_25:
	add	x15, x0, x8
	ldur	q1, [x15, #-16]
	adrp	x15, lstatic.8@PAGE
	add	x15, x15, lstatic.8@PAGEOFF
	ldr	q2, [x15, x16, lsl #4]
	tbl	v1.16b, { v1.16b }, v2.16b
LBB29_26:
	rev16	v1.16b, v1.16b
	movi	v2.8b, #252
	ldr	d5, [x14, lCPI29_4@PAGEOFF]
	movi	v4.8b, #216
	shrn	v3.8b, v1.8h, #8
	and	v2.8b, v3.8b, v2.8b
	movi	v3.8b, #220
	cmeq	v4.8b, v2.8b, v4.8b
	cmeq	v2.8b, v2.8b, v3.8b
	and	v3.8b, v4.8b, v5.8b
	and	v2.8b, v2.8b, v5.8b
	addv	b3, v3.8b
	addv	b2, v2.8b
	fmov	w14, s3
	fmov	w15, s2
	ubfiz	x14, x14, #1, #7
	orr	x14, x14, x17
	cmp	x14, w15, uxtb
	b.ne	LBB29_32
	mvni	v2.8h, #248, lsl #8
	cmhi	v2.8h, v1.8h, v2.8h
	umaxv	h2, v2.8h
	fmov	w13, s2
	tbz	w13, #0, LBB29_33
	movi	v2.8h, #248, lsl #8
	movi	v3.8h, #216, lsl #8
	and	v2.16b, v1.16b, v2.16b
	cmeq	v3.8h, v2.8h, v3.8h
	umaxv	h3, v3.8h
	fmov	w13, s3
	tbz	w13, #0, LBB29_35
	movi	v3.8h, #40, lsl #8
	mvni	v4.8h, #248, lsl #8
	ext	v0.16b, v0.16b, v1.16b, #14
	add	v3.8h, v1.8h, v3.8h
	umin	v3.8h, v1.8h, v3.8h
	cmhi	v3.8h, v3.8h, v4.8h
	umaxv	h3, v3.8h
	fmov	w13, s3
	tbz	w13, #0, LBB29_38
	mvni	v3.8h, #120, lsl #8
	movi	v4.8h, #36, lsl #8
	mov	w11, #752
	movi	v5.8h, #216, lsl #8
	movi	v6.8h, #128, lsl #8
	adrp	x13, lstatic.7@PAGE
	add	x13, x13, lstatic.7@PAGEOFF
	movi	v7.8h, #68, lsl #8
	movi	v16.2d, #0xff00ff00ff00ff
	uqsub	v3.8h, v3.8h, v1.8h
	shl	v0.8h, v0.8h, #10
	dup	v17.8h, w11
	add	v4.8h, v1.8h, v4.8h
	adrp	x11, lCPI29_0@PAGE
	cmeq	v2.8h, v2.8h, v5.8h
	mov	v5.16b, v1.16b
	bic	v0.8h, #240, lsl #8
	add	v7.8h, v1.8h, v7.8h
	uqsub	v16.8h, v16.8h, v1.8h
	and	v3.16b, v3.16b, v6.16b
	ushr	v4.8h, v4.8h, #2
	bic	v5.8h, #240, lsl #8
	add	v0.8h, v7.8h, v0.8h
	bif	v6.16b, v3.16b, v2.16b
	uqsub	v4.8h, v4.8h, v17.8h
	usra	v5.8h, v3.8h, #3
	orr	v3.16b, v6.16b, v16.16b
	orr	v5.8h, #32, lsl #8
	umax	v0.8h, v4.8h, v0.8h
	ldr	q4, [x11, lCPI29_0@PAGEOFF]
	cmlt	v3.16b, v3.16b, #0
	bif	v0.16b, v5.16b, v2.16b
	and	v2.16b, v3.16b, v4.16b
	shl	v4.8h, v1.8h, #8
	shl	v3.8h, v0.8h, #8
	addp	v2.16b, v2.16b, v2.16b
	usra	v4.8h, v1.8h, #12
	bic	v3.8h, #192, lsl #8
	addp	v2.16b, v2.16b, v2.16b
	orr	v4.8h, #224
	usra	v3.8h, v0.8h, #6
	addp	v0.16b, v2.16b, v2.16b
	orr	v3.8h, #128, lsl #8
	umov	w11, v0.h[0]
	zip1	v0.8h, v4.8h, v3.8h
	zip2	v3.8h, v4.8h, v3.8h
	and	x12, x11, #0xff
	ubfx	x11, x11, #8, #8
	ldr	q1, [x13, x12, lsl #4]
	fmov	d2, x11
	tbl	v0.16b, { v0.16b }, v1.16b
	fmov	d1, x12
	cnt	v2.8b, v2.8b
	cnt	v1.8b, v1.8b
	str	q0, [x2, x10]
	ldr	q0, [x13, x11, lsl #4]
	tbl	v0.16b, { v3.16b }, v0.16b
	fmov	w12, s2
	fmov	w11, s1
	b	LBB29_37
LBB29_31:
	mov	v0.16b, v1.16b
	cmp	x8, x13
	b.ne	LBB29_21
LBB29_32:
	sub	x8, x13, #2
	sub	x9, x10, #2
	tst	w17, #0x1
	csel	x1, x9, x10, ne
	csel	x0, x8, x13, ne
	ret
LBB29_33:
	movi	v0.8h, #127
	cmhi	v0.8h, v1.8h, v0.8h
	umaxv	h0, v0.8h
	fmov	w13, s0
	tbz	w13, #0, LBB29_39
	movi	v0.8h, #128
	shl	v2.8h, v1.8h, #8
	ldr	q3, [x12, lCPI29_3@PAGEOFF]
	mov	w12, #32960
	dup	v4.8h, w12
	bic	v2.8h, #192, lsl #8
	cmhi	v0.8h, v0.8h, v1.8h
	usra	v2.8h, v1.8h, #6
	and	v3.16b, v0.16b, v3.16b
	add	v2.8h, v2.8h, v4.8h
	addv	h3, v3.8h
	bif	v1.16b, v2.16b, v0.16b
	saddlv	s0, v0.8h
	fmov	w12, s3
	and	x12, x12, #0xff
	ldr	q2, [x11, x12, lsl #4]
	fmov	w11, s0
	tbl	v1.16b, { v1.16b }, v2.16b
	neg	w11, w11
	sub	x11, x10, x11
	str	q1, [x2, x10]
	add	x10, x11, #16
	orr	x9, x9, #0xfffffffffffffff8
	mov	x0, x8
	add	x1, x10, x9
	ret
LBB29_35:
	movi	v0.8h, #8, lsl #8
	cmhi	v0.8h, v0.8h, v1.8h
	umaxv	h0, v0.8h
	fmov	w11, s0
	tbz	w11, #0, LBB29_40
	mvni	v0.8h, #120, lsl #8
	movi	v2.2d, #0xff00ff00ff00ff
	adrp	x11, lCPI29_0@PAGE
	movi	v3.8h, #128, lsl #8
	shl	v5.8h, v1.8h, #8
	adrp	x13, lstatic.7@PAGE
	add	x13, x13, lstatic.7@PAGEOFF
	movi	v4.8h, #63
	ushr	v6.8h, v1.8h, #6
	uqsub	v0.8h, v0.8h, v1.8h
	uqsub	v2.8h, v2.8h, v1.8h
	and	v4.16b, v6.16b, v4.16b
	and	v0.16b, v0.16b, v3.16b
	ldr	q3, [x11, lCPI29_0@PAGEOFF]
	orr	v2.16b, v0.16b, v2.16b
	cmlt	v2.16b, v2.16b, #0
	and	v2.16b, v2.16b, v3.16b
	mov	v3.16b, v5.16b
	usra	v5.8h, v1.8h, #12
	bic	v3.8h, #192, lsl #8
	addp	v2.16b, v2.16b, v2.16b
	orr	v5.8h, #224
	orr	v3.16b, v3.16b, v4.16b
	addp	v2.16b, v2.16b, v2.16b
	movi	v4.16b, #128
	usra	v3.8h, v0.8h, #9
	addp	v0.16b, v2.16b, v2.16b
	orr	v1.16b, v3.16b, v4.16b
	umov	w11, v0.h[0]
	zip1	v0.8h, v5.8h, v1.8h
	zip2	v1.8h, v5.8h, v1.8h
	and	x12, x11, #0xff
	ubfx	x11, x11, #8, #8
	ldr	q2, [x13, x12, lsl #4]
	fmov	d3, x11
	tbl	v0.16b, { v0.16b }, v2.16b
	fmov	d2, x12
	cnt	v3.8b, v3.8b
	cnt	v2.8b, v2.8b
	str	q0, [x2, x10]
	ldr	q0, [x13, x11, lsl #4]
	tbl	v0.16b, { v1.16b }, v0.16b
	fmov	w12, s3
	fmov	w11, s2
LBB29_37:
	sub	x10, x10, x11
	add	x11, x2, x10
	sub	x10, x10, x12
	stur	q0, [x11, #12]
	add	x10, x10, #24
	orr	x9, x9, #0xfffffffffffffff8
	mov	x0, x8
	add	x1, x10, x9
	ret
LBB29_38:
	movi	v2.8h, #36, lsl #8
	movi	v3.8h, #68, lsl #8
	mov	w13, #752
	shl	v0.8h, v0.8h, #10
	dup	v4.8h, w13
	add	v2.8h, v1.8h, v2.8h
	bic	v0.8h, #240, lsl #8
	add	v3.8h, v1.8h, v3.8h
	ushr	v2.8h, v2.8h, #2
	add	v0.8h, v3.8h, v0.8h
	uqsub	v2.8h, v2.8h, v4.8h
	movi	v4.8h, #48, lsl #8
	add	v3.8h, v1.8h, v4.8h
	umax	v0.8h, v2.8h, v0.8h
	cmlt	v2.8h, v1.8h, #0
	ldr	q4, [x12, lCPI29_3@PAGEOFF]
	bif	v0.16b, v3.16b, v2.16b
	movi	v2.8h, #128
	shl	v3.8h, v0.8h, #8
	cmhi	v2.8h, v2.8h, v1.8h
	bic	v3.8h, #192, lsl #8
	usra	v3.8h, v0.8h, #6
	and	v0.16b, v2.16b, v4.16b
	addv	h0, v0.8h
	orr	v3.8h, #128, lsl #8
	fmov	w12, s0
	mov	v0.16b, v2.16b
	bsl	v0.16b, v1.16b, v3.16b
	saddlv	s1, v2.8h
	and	x12, x12, #0xff
	ldr	q2, [x11, x12, lsl #4]
	fmov	w11, s1
	tbl	v0.16b, { v0.16b }, v2.16b
	neg	w11, w11
	str	q0, [x2, x10]
	sub	x11, x10, x11
	add	x10, x11, #16
	orr	x9, x9, #0xfffffffffffffff8
	mov	x0, x8
	add	x1, x10, x9
	ret
LBB29_39:
	sqxtun	v0.8b, v1.8h
	str	d0, [x2, x10]
	add	x10, x10, #8
	orr	x9, x9, #0xfffffffffffffff8
	mov	x0, x8
	add	x1, x10, x9
	ret
LBB29_40:
	movi	v0.8h, #63, lsl #8
	shl	v2.8h, v1.8h, #2
	mov	w11, #32992
	movi	v3.8h, #63
	and	v0.16b, v2.16b, v0.16b
	dup	v2.8h, w11
	adrp	x11, lCPI29_1@PAGE
	usra	v0.8h, v1.8h, #12
	orr	v4.16b, v0.16b, v2.16b
	ldr	q0, [x11, lCPI29_1@PAGEOFF]
	adrp	x11, lCPI29_2@PAGE
	and	v5.16b, v1.16b, v3.16b
	ldr	d1, [x11, lCPI29_2@PAGEOFF]
	add	x11, x2, x10
	orr	v5.8h, #128
	tbl	v0.16b, { v4.16b, v5.16b }, v0.16b
	mov	v5.d[0], v4.d[1]
	tbl	v1.8b, { v5.16b }, v1.8b
	str	q0, [x11]
	str	d1, [x11, #16]
	add	x10, x10, #24
	orr	x9, x9, #0xfffffffffffffff8
	mov	x0, x8
	add	x1, x10, x9
	ret
Lfunc_end29:
	.cfi_endproc

	.section	__TEXT,__text,regular,pure_instructions
	.p2align	2
"_utf16_transcode::transcoding::transcode_many::<#b8dc3d53e12e85b3>":
	.cfi_startproc
	sub	sp, sp, #464
	.cfi_def_cfa_offset 464
	stp	x29, x30, [sp, #368]
	stp	x28, x27, [sp, #384]
	stp	x26, x25, [sp, #400]
	stp	x24, x23, [sp, #416]
	stp	x22, x21, [sp, #432]
	stp	x20, x19, [sp, #448]
	add	x29, sp, #368
	.cfi_def_cfa w29, 96
	.cfi_offset w19, -8
	.cfi_offset w20, -16
	.cfi_offset w21, -24
	.cfi_offset w22, -32
	.cfi_offset w23, -40
	.cfi_offset w24, -48
	.cfi_offset w25, -56
	.cfi_offset w26, -64
	.cfi_offset w27, -72
	.cfi_offset w28, -80
	.cfi_offset w30, -88
	.cfi_offset w29, -96
	sub	x8, x2, x5
	mov	x20, x6
	mov	x25, x5
	cmp	x8, #2
	b.hs	LBB30_2
LBB30_1:
	mov	w8, wzr
	mov	w9, #2
	b	LBB30_5
LBB30_2:
	add	x9, x1, x25
	mov	x28, x4
	mov	x21, x2
	ldrb	w10, [x9]
	mov	x23, x3
	mov	x24, x1
	and	w11, w10, #0xf8
	cmp	w11, #216
	b.ne	LBB30_8
	mov	w11, #220
	bics	wzr, w11, w10
	b.ne	LBB30_6
LBB30_4:
	mov	w8, #2
	mov	w9, #1
LBB30_5:
	stp	x25, x20, [x0]
	strb	w9, [x0, #16]
	strb	w8, [x0, #17]
	b	LBB30_92
LBB30_6:
	cmp	x8, #4
	b.lo	LBB30_1
	ldrb	w8, [x9, #2]
	and	w8, w8, #0xfc
	cmp	w8, #220
	b.ne	LBB30_4
LBB30_8:
	cmp	x21, x25
	str	x0, [sp, #24]
	b.ls	LBB30_88
	neg	x8, x28
	str	x8, [sp, #16]
	b	LBB30_12
LBB30_10:
	strb	w0, [x23, x20]
	add	x20, x20, #1
LBB30_11:
	add	x25, x8, x22
	cmp	x25, x21
	b.hs	LBB30_88
LBB30_12:
	sub	x26, x21, x25
	add	x27, x24, x25
	cmp	x26, #66
	b.lo	LBB30_18
	lsr	x8, x26, #1
	movi	v0.2d, #0000000000000000
	sub	x22, x28, x20
	add	x0, sp, #32
	add	x1, x24, x25
	sub	x2, x21, x25
	add	x8, x8, x8, lsl #1
	add	x3, x23, x20
	mov	x19, x28
	str	xzr, [sp, #64]
	add	x28, x23, x20
	add	x8, x8, #128
	stp	q0, q0, [sp, #32]
	cmp	x8, x22
	csel	x4, x8, x22, lo
	bl	"_utf16_to_utf8::runs::write_paired::<#8b18edd9dd9aa8df>"
	ldp	x9, x10, [sp, #32]
	ldrb	w8, [sp, #64]
	tst	w8, #0x1
	sub	x11, x9, #2
	sub	x8, x10, #2
	csel	x11, x11, x9, ne
	csel	x8, x8, x10, ne
	sub	x9, x26, x11
	sub	x10, x22, x8
	lsr	x9, x9, #1
	cmp	x10, x9
	csel	x10, x10, x9, lo
	lsl	x12, x10, #1
	cmp	x10, #8
	b.lo	LBB30_19
	mov	x13, x12
	mov	x22, x11
	mov	x9, x8
LBB30_15:
	ldr	q0, [x27, x22]
	movi	v1.8h, #127
	rev16	v0.16b, v0.16b
	cmhi	v1.8h, v0.8h, v1.8h
	umaxv	h1, v1.8h
	fmov	w14, s1
	tbnz	w14, #0, LBB30_23
	sqxtun	v0.8b, v0.8h
	sub	x13, x13, #16
	add	x22, x22, #16
	cmp	x13, #15
	str	d0, [x28, x9]
	add	x9, x9, #8
	b.hi	LBB30_15
	add	x11, x12, x11
	cmp	x11, #16
	b.hs	LBB30_20
	b	LBB30_23
LBB30_18:
	mov	x22, xzr
	subs	x1, x26, xzr
	b.ne	LBB30_24
	b	LBB30_27
LBB30_19:
	mov	x9, x8
	mov	x22, x11
	add	x11, x12, x11
	cmp	x11, #16
	b.lo	LBB30_23
LBB30_20:
	cmp	x11, x22
	b.ls	LBB30_23
	add	x12, x27, x11
	movi	v1.8h, #127
	ldur	q0, [x12, #-16]
	rev16	v0.16b, v0.16b
	cmhi	v1.8h, v0.8h, v1.8h
	umaxv	h1, v1.8h
	fmov	w12, s1
	tbnz	w12, #0, LBB30_23
	sqxtun	v0.8b, v0.8h
	add	x9, x10, x8
	mov	x22, x11
	add	x8, x28, x9
	stur	d0, [x8, #-8]
LBB30_23:
	add	x20, x9, x20
	mov	x28, x19
	subs	x1, x26, x22
	b.eq	LBB30_27
LBB30_24:
	cmp	x1, #7
	add	x0, x27, x22
	b.hi	LBB30_40
LBB30_25:
	mov	x2, x23
	mov	x3, x28
	mov	x4, x20
	bl	"_utf16_transcode::transcoding::write_chars::<#b8dc3d53e12e85b3>"
	mov	x27, x0
	mov	x20, x1
LBB30_26:
	add	x26, x27, x22
LBB30_27:
	add	x22, x26, x25
	subs	x10, x21, x22
	b.eq	LBB30_87
	cmp	x10, #2
	b.lo	LBB30_86
	add	x8, x24, x22
	ldrb	w9, [x8]
	and	w11, w9, #0xf8
	cmp	w11, #216
	b.ne	LBB30_33
	mov	w11, #220
	bics	wzr, w11, w9
	b.eq	LBB30_89
	cmp	x10, #4
	b.lo	LBB30_86
	ldrb	w10, [x8, #2]
	and	w10, w10, #0xfc
	cmp	w10, #220
	b.ne	LBB30_89
LBB30_33:
	ldrb	w10, [x8, #1]
	ubfx	w11, w9, #2, #6
	orr	w9, w9, w10, lsl #8
	cmp	w11, #54
	rev16	w0, w9
	b.ne	LBB30_35
	ldrh	w8, [x8, #2]
	rev16	w1, w8
	bl	"_utf16_units::unit::decode_surrogates"
	mov	w8, #4
	b	LBB30_36
LBB30_35:
	and	w0, w0, #0xffff
	mov	w8, #2
LBB30_36:
	cmp	w0, #16, lsl #12
	mov	w9, #3
	mov	w11, #2
	cinc	x10, x9, hs
	cmp	w0, #2048
	csel	x10, x11, x10, lo
	cmp	w0, #128
	sub	x11, x28, x20
	csinc	x10, x10, xzr, hs
	cmp	x11, x10
	b.lo	LBB30_90
	cmp	w0, #127
	b.ls	LBB30_10
	mov	w9, #-128
	cmp	w0, #2047
	bfxil	w9, w0, #0, #6
	b.hi	LBB30_48
	lsr	w10, w0, #6
	add	x11, x20, #2
	orr	w10, w10, #0xc0
	bfi	w10, w9, #8, #24
	strh	w10, [x23, x20]
	mov	x20, x11
	b	LBB30_11
LBB30_40:
	cmp	x1, #128
	mov	w8, #128
	sub	x26, x28, x20
	csel	x8, x1, x8, lo
	subs	x9, x26, #128
	mov	x10, #-6148914691236517206
	csel	x9, xzr, x9, lo
	movk	x10, #43691
	umulh	x9, x9, x10
	and	x9, x9, #0xfffffffffffffffe
	cmp	x8, x9
	b.ls	LBB30_50
	cmp	x26, #23
	b.ls	LBB30_25
	movi	v0.2d, #0000000000000000
	cmp	x1, #65
	str	wzr, [sp, #304]
	stp	q0, q0, [sp, #48]
	stp	q0, q0, [sp, #80]
	stp	q0, q0, [sp, #112]
	stp	q0, q0, [sp, #144]
	stp	q0, q0, [sp, #176]
	stp	q0, q0, [sp, #208]
	stp	q0, q0, [sp, #240]
	stp	q0, q0, [sp, #272]
	str	q0, [sp, #32]
	b.hi	LBB30_53
	cmp	x1, #64
	mov	w8, #64
	mov	x19, x24
	csel	x1, x1, x8, lo
	mov	x24, x23
	mov	x23, x28
	mov	x28, x0
	bl	"_utf16_transcode::decode::valid_up_to::<#8b18edd9dd9aa8df>"
	mov	x27, x0
	add	x2, sp, #32
	mov	x0, x28
	mov	x1, x27
	bl	"_utf16_to_utf8::write::write_utf8::<#8b18edd9dd9aa8df>"
	cmp	x0, x26
	b.ls	LBB30_63
	mov	x28, x23
	mov	x23, x24
	mov	x24, x19
LBB30_45:
	add	x8, sp, #32
	ldrsb	w8, [x8, x26]
	cmn	w8, #65
	b.gt	LBB30_47
	subs	x26, x26, #1
	b.ne	LBB30_45
LBB30_47:
	add	x0, sp, #32
	mov	x1, x26
	bl	"_utf16_units::size::utf16_len"
	mov	x27, x0
	b	LBB30_64
LBB30_48:
	lsr	w10, w0, #16
	cbnz	w10, LBB30_52
	lsr	w10, w0, #12
	mov	w11, #128
	add	x12, x23, x20
	bfxil	w11, w0, #6, #6
	add	x20, x20, #3
	strb	w9, [x12, #2]
	orr	w10, w10, #0xe0
	strb	w10, [x12]
	strb	w11, [x12, #1]
	b	LBB30_11
LBB30_50:
	mov	x1, x8
	mov	x26, x0
	bl	"_utf16_transcode::decode::valid_up_to::<#8b18edd9dd9aa8df>"
	mov	x27, x0
	cbz	x0, LBB30_26
	add	x2, x23, x20
	mov	x0, x26
	mov	x1, x27
	bl	"_utf16_to_utf8::write::write_utf8::<#8b18edd9dd9aa8df>"
	add	x20, x0, x20
	b	LBB30_26
LBB30_52:
	lsl	w10, w0, #10
	mov	w11, #32768
	movk	w11, #128, lsl #16
	and	w10, w10, #0x3f0000
	orr	w9, w10, w9, lsl #24
	lsr	w10, w0, #18
	bfxil	w9, w0, #4, #14
	add	w10, w10, #240
	bfxil	w9, w10, #0, #8
	add	x10, x20, #4
	orr	w9, w9, w11
	str	w9, [x23, x20]
	mov	x20, x10
	b	LBB30_11
LBB30_53:
	ldrb	w8, [x0]
	and	w9, w8, #0xf8
	cmp	w9, #216
	b.ne	LBB30_56
	mov	w9, #220
	bics	wzr, w9, w8
	b.eq	LBB30_25
	ldrb	w9, [x0, #2]
	and	w9, w9, #0xfc
	cmp	w9, #220
	b.ne	LBB30_25
LBB30_56:
	and	w8, w8, #0xfc
	mov	w9, #4
	cmp	w8, #216
	mov	w8, #2
	csel	x8, x9, x8, eq
	add	x8, x0, x8
	ldrb	w9, [x8]
	and	w10, w9, #0xf8
	cmp	w10, #216
	b.ne	LBB30_59
	mov	w10, #220
	bics	wzr, w10, w9
	b.eq	LBB30_25
	ldrb	w8, [x8, #2]
	and	w8, w8, #0xfc
	cmp	w8, #220
	b.ne	LBB30_25
LBB30_59:
	cmp	x26, #65
	mov	w8, #130
	mov	w9, #66
	csel	x8, x9, x8, lo
	mov	w9, #148
	add	x3, sp, #32
	cmp	x8, x1
	stur	xzr, [x29, #-16]
	csel	x27, x8, x1, lo
	mov	x1, x0
	sub	x0, x29, #48
	lsr	x8, x27, #1
	mov	x2, x27
	stp	q0, q0, [x29, #-48]
	stp	x28, x1, [sp]
	add	x8, x8, x8, lsl #1
	cmp	x8, #148
	csel	x8, x8, x9, lo
	add	x4, x8, #128
	bl	"_utf16_to_utf8::runs::write_paired::<#8b18edd9dd9aa8df>"
	ldp	x9, x11, [x29, #-48]
	ldurb	w8, [x29, #-16]
	tst	w8, #0x1
	sub	x10, x9, #2
	sub	x8, x11, #2
	csel	x10, x10, x9, ne
	csel	x8, x8, x11, ne
	mov	w11, #276
	sub	x9, x27, x10
	sub	x11, x11, x8
	lsr	x9, x9, #1
	cmp	x11, x9
	csel	x9, x11, x9, lo
	lsl	x11, x9, #1
	cmp	x9, #8
	b.lo	LBB30_65
	ldr	x12, [sp, #8]
	mov	x13, x11
	mov	x27, x10
	mov	x28, x8
LBB30_61:
	ldr	q0, [x12, x27]
	movi	v1.8h, #127
	rev16	v0.16b, v0.16b
	cmhi	v1.8h, v0.8h, v1.8h
	umaxv	h1, v1.8h
	fmov	w14, s1
	tbnz	w14, #0, LBB30_70
	sqxtun	v0.8b, v0.8h
	sub	x13, x13, #16
	add	x14, sp, #32
	cmp	x13, #15
	add	x27, x27, #16
	str	d0, [x14, x28]
	add	x28, x28, #8
	b.hi	LBB30_61
	b	LBB30_66
LBB30_63:
	mov	x26, x0
	mov	x28, x23
	mov	x23, x24
	mov	x24, x19
LBB30_64:
	add	x0, x23, x20
	add	x1, sp, #32
	mov	x2, x26
	bl	_memcpy
	add	x20, x26, x20
	b	LBB30_26
LBB30_65:
	ldr	x12, [sp, #8]
	mov	x28, x8
	mov	x27, x10
LBB30_66:
	add	x10, x11, x10
	cmp	x10, #16
	b.lo	LBB30_70
	cmp	x10, x27
	b.ls	LBB30_70
	add	x11, x12, x10
	movi	v1.8h, #127
	ldur	q0, [x11, #-16]
	rev16	v0.16b, v0.16b
	cmhi	v1.8h, v0.8h, v1.8h
	umaxv	h1, v1.8h
	fmov	w11, s1
	tbnz	w11, #0, LBB30_70
	sqxtun	v0.8b, v0.8h
	add	x28, x9, x8
	add	x8, sp, #32
	add	x8, x8, x28
	mov	x27, x10
	stur	d0, [x8, #-8]
LBB30_70:
	cmp	x28, x26
	b.ls	LBB30_74
LBB30_71:
	add	x8, sp, #32
	ldrsb	w8, [x8, x26]
	cmn	w8, #65
	b.gt	LBB30_73
	subs	x26, x26, #1
	b.ne	LBB30_71
LBB30_73:
	add	x0, sp, #32
	mov	x1, x26
	bl	"_utf16_units::size::utf16_len"
	mov	x27, x0
	mov	x28, x26
LBB30_74:
	add	x0, x23, x20
	add	x1, sp, #32
	mov	x2, x28
	add	x19, x28, x20
	bl	_memcpy
	cbz	x27, LBB30_76
	ldr	x28, [sp]
	mov	x20, x19
	b	LBB30_26
LBB30_76:
	ldr	x26, [sp, #8]
	mov	w1, #64
	mov	x0, x26
	bl	"_utf16_transcode::decode::valid_up_to::<#8b18edd9dd9aa8df>"
	mov	x27, x0
	add	x2, sp, #32
	mov	x0, x26
	mov	x1, x27
	bl	"_utf16_to_utf8::write::write_utf8::<#8b18edd9dd9aa8df>"
	ldr	x8, [sp]
	sub	x26, x8, x19
	cmp	x0, x26
	b.ls	LBB30_82
	cbz	x26, LBB30_83
	ldr	x8, [sp, #16]
	add	x8, x8, x28
	ldr	x28, [sp]
	add	x8, x8, x20
LBB30_79:
	add	x9, sp, #32
	ldrsb	w9, [x9, x26]
	cmn	w9, #65
	b.gt	LBB30_84
	adds	x8, x8, #1
	sub	x26, x26, #1
	b.lo	LBB30_79
	mov	x26, xzr
	b	LBB30_84
LBB30_82:
	ldr	x28, [sp]
	mov	x26, x0
	b	LBB30_85
LBB30_83:
	ldr	x28, [sp]
LBB30_84:
	add	x0, sp, #32
	mov	x1, x26
	bl	"_utf16_units::size::utf16_len"
	mov	x27, x0
LBB30_85:
	add	x0, x23, x19
	add	x1, sp, #32
	mov	x2, x26
	bl	_memcpy
	add	x20, x26, x19
	b	LBB30_26
LBB30_86:
	mov	w8, wzr
	mov	w9, #2
	b	LBB30_91
LBB30_87:
	mov	x25, x21
LBB30_88:
	ldr	x8, [sp, #24]
	stp	x25, x20, [x8]
	strh	wzr, [x8, #16]
	b	LBB30_92
LBB30_89:
	mov	w8, #2
	mov	w9, #1
	b	LBB30_91
LBB30_90:
	mov	w8, wzr
LBB30_91:
	ldr	x10, [sp, #24]
	stp	x22, x20, [x10]
	strb	w9, [x10, #16]
	strb	w8, [x10, #17]
LBB30_92:
	.cfi_def_cfa wsp, 464
	ldp	x20, x19, [sp, #448]
	ldp	x22, x21, [sp, #432]
	ldp	x24, x23, [sp, #416]
	ldp	x26, x25, [sp, #400]
	ldp	x28, x27, [sp, #384]
	ldp	x29, x30, [sp, #368]
	add	sp, sp, #464
	.cfi_def_cfa_offset 0
	.cfi_restore w19
	.cfi_restore w20
	.cfi_restore w21
	.cfi_restore w22
	.cfi_restore w23
	.cfi_restore w24
	.cfi_restore w25
	.cfi_restore w26
	.cfi_restore w27
	.cfi_restore w28
	.cfi_restore w30
	.cfi_restore w29
	ret
Lfunc_end30:
	.cfi_endproc

	.section	__TEXT,__literal16,16byte_literals
	.p2align	4, 0x0
lCPI31_0:
	.byte	1
	.byte	2
	.byte	4
	.byte	8
	.byte	16
	.byte	32
	.byte	64
	.byte	128
	.byte	1
	.byte	2
	.byte	4
	.byte	8
	.byte	16
	.byte	32
	.byte	64
	.byte	128
lCPI31_1:
	.byte	0
	.byte	1
	.byte	16
	.byte	2
	.byte	3
	.byte	18
	.byte	4
	.byte	5
	.byte	20
	.byte	6
	.byte	7
	.byte	22
	.byte	8
	.byte	9
	.byte	24
	.byte	10
	.section	__TEXT,__literal8,8byte_literals
	.p2align	3, 0x0
lCPI31_2:
	.byte	3
	.byte	10
	.byte	4
	.byte	5
	.byte	12
	.byte	6
	.byte	7
	.byte	14
	.section	__TEXT,__text,regular,pure_instructions
	.p2align	2
"_utf16_to_utf8::runs::write_paired::<#8b18edd9dd9aa8df>":
	.cfi_startproc
	sub	sp, sp, #160
	.cfi_def_cfa_offset 160
	stp	x29, x30, [sp, #64]
	str	x27, [sp, #80]
	stp	x26, x25, [sp, #96]
	stp	x24, x23, [sp, #112]
	stp	x22, x21, [sp, #128]
	stp	x20, x19, [sp, #144]
	add	x29, sp, #64
	.cfi_def_cfa w29, 96
	.cfi_offset w19, -8
	.cfi_offset w20, -16
	.cfi_offset w21, -24
	.cfi_offset w22, -32
	.cfi_offset w23, -40
	.cfi_offset w24, -48
	.cfi_offset w25, -56
	.cfi_offset w26, -64
	.cfi_offset w27, -80
	.cfi_offset w30, -88
	.cfi_offset w29, -96
	.cfi_remember_state
	subs	x23, x2, #64
	mov	x19, x0
	b.lo	LBB31_46
	subs	x24, x4, #128
	b.lo	LBB31_46
	movi	v0.2d, #0000000000000000
	mov	x20, x3
	mov	x21, x1
	mov	w26, wzr
	mov	x1, xzr
	mov	x22, xzr
	b	LBB31_5
LBB31_3:
	mov	v0.16b, v22.16b
	mov	v1.16b, v22.16b
	mov	x0, x20
	mov	v2.16b, v28.16b
	mov	v3.16b, v27.16b
	mov	w2, #5
	stur	q25, [x29, #-16]
	stp	q27, q26, [sp, #16]
	str	q28, [sp]
	bl	"_utf16_to_utf8::blocks::write_group"
	ldp	q0, q1, [sp]
	mov	x1, x0
	ldr	q2, [sp, #32]
	ldur	q3, [x29, #-16]
	mov	x0, x20
	mov	w2, #5
	bl	"_utf16_to_utf8::blocks::write_group"
	ldur	q0, [x29, #-16]
	mov	x1, x0
	lsr	w26, w27, #31
	add	x22, x22, #64
LBB31_4:
	cmp	x22, x23
	b.hi	LBB31_48
LBB31_5:
	adrp	x27, lCPI31_0@PAGE
	adrp	x25, lstatic.6@PAGE
	add	x25, x25, lstatic.6@PAGEOFF
	tbnz	w26, #0, LBB31_34
	cmp	x24, x1
	b.lo	LBB31_34
LBB31_7:
	add	x8, x21, x22
	ldp	q1, q2, [x8, #32]
	ldp	q3, q4, [x8]
	rev16	v20.16b, v1.16b
	rev16	v22.16b, v2.16b
	rev16	v23.16b, v3.16b
	rev16	v21.16b, v4.16b
	orr	v1.16b, v21.16b, v22.16b
	orr	v2.16b, v23.16b, v20.16b
	bic	v1.8h, #127
	bic	v2.8h, #127
	orr	v1.16b, v2.16b, v1.16b
	ext	v2.16b, v1.16b, v1.16b, #8
	orr	v1.8b, v1.8b, v2.8b
	fmov	x8, d1
	lsr	x9, x8, #32
	orr	w8, w8, w9
	orr	w8, w8, w8, lsr #16
	tst	w8, #0xffff
	b.ne	LBB31_14
	sqxtun	v0.8b, v23.8h
	sqxtun	v1.8b, v20.8h
	add	x22, x22, #64
	add	x8, x20, x1
	cmp	x22, x23
	add	x1, x1, #32
	sqxtun2	v0.16b, v21.8h
	sqxtun2	v1.16b, v22.8h
	stp	q0, q1, [x8]
	b.hi	LBB31_35
	mov	v0.16b, v22.16b
	cmp	x24, x1
	b.hs	LBB31_7
	b	LBB31_35
LBB31_10:
	add	x8, x21, x22
	ldp	q1, q2, [x8, #32]
	ldp	q3, q4, [x8]
	rev16	v20.16b, v1.16b
	rev16	v22.16b, v2.16b
	rev16	v23.16b, v3.16b
	rev16	v21.16b, v4.16b
	orr	v1.16b, v21.16b, v22.16b
	orr	v2.16b, v23.16b, v20.16b
	bic	v1.8h, #127
	bic	v2.8h, #127
	orr	v1.16b, v2.16b, v1.16b
	ext	v2.16b, v1.16b, v1.16b, #8
	orr	v1.8b, v1.8b, v2.8b
	fmov	x8, d1
	lsr	x9, x8, #32
	orr	w8, w8, w9
	orr	w8, w8, w8, lsr #16
	tst	w8, #0xffff
	b.ne	LBB31_14
	sqxtun	v0.8b, v23.8h
	sqxtun	v1.8b, v20.8h
	add	x22, x22, #64
	add	x8, x20, x1
	cmp	x22, x23
	add	x1, x1, #32
	sqxtun2	v0.16b, v21.8h
	sqxtun2	v1.16b, v22.8h
	stp	q0, q1, [x8]
	b.hi	LBB31_35
	mov	v0.16b, v22.16b
	cmp	x24, x1
	b.hs	LBB31_10
	b	LBB31_35
LBB31_13:
	mov	v0.16b, v7.16b
	cmp	x22, x23
	b.ls	LBB31_33
	b	LBB31_34
LBB31_14:
	orr	v1.16b, v23.16b, v20.16b
	orr	v2.16b, v21.16b, v22.16b
	movi	v3.8h, #248, lsl #8
	orr	v1.16b, v1.16b, v2.16b
	and	v1.16b, v1.16b, v3.16b
	ext	v2.16b, v1.16b, v1.16b, #8
	orr	v1.8b, v1.8b, v2.8b
	fmov	x8, d1
	lsr	x9, x8, #32
	orr	w8, w8, w9
	orr	w8, w8, w8, lsr #16
	tst	w8, #0xffff
	b.eq	LBB31_24
	movi	v4.8h, #40, lsl #8
	add	v1.8h, v21.8h, v4.8h
	add	v2.8h, v20.8h, v4.8h
	add	v3.8h, v23.8h, v4.8h
	add	v4.8h, v22.8h, v4.8h
	umin	v5.8h, v21.8h, v1.8h
	umin	v7.8h, v23.8h, v3.8h
	umin	v16.8h, v20.8h, v2.8h
	umin	v6.8h, v22.8h, v4.8h
	umin	v7.8h, v7.8h, v16.8h
	umin	v6.8h, v5.8h, v6.8h
	movi	v5.8h, #8, lsl #8
	umin	v6.8h, v7.8h, v6.8h
	cmhi	v6.8h, v5.8h, v6.8h
	umaxv	h6, v6.8h
	fmov	w8, s6
	tbz	w8, #0, LBB31_25
	umin	v2.8h, v3.8h, v2.8h
	umin	v1.8h, v1.8h, v4.8h
	umin	v1.8h, v2.8h, v1.8h
	cmhi	v1.8h, v5.8h, v1.8h
	umaxv	h1, v1.8h
	fmov	w8, s1
	tbnz	w8, #0, LBB31_34
	mov	v1.16b, v0.16b
	mov	v2.16b, v23.16b
	mov	x0, x20
	mov	v3.16b, v21.16b
	mov	w2, #4
	stur	q22, [x29, #-16]
	stp	q21, q20, [sp, #16]
	str	q23, [sp]
	bl	"_utf16_to_utf8::blocks::write_group"
	ldp	q0, q1, [sp]
	mov	x1, x0
	ldr	q2, [sp, #32]
	ldur	q3, [x29, #-16]
	mov	x0, x20
	mov	w2, #4
	bl	"_utf16_to_utf8::blocks::write_group"
	add	x22, x22, #64
	mov	x1, x0
	cmp	x22, x23
	b.hi	LBB31_30
	cmp	x24, x1
	b.lo	LBB31_30
	ldur	q7, [x29, #-16]
LBB31_20:
	add	x8, x21, x22
	ldp	q0, q2, [x8, #32]
	ldp	q3, q4, [x8]
	rev16	v1.16b, v0.16b
	rev16	v0.16b, v2.16b
	rev16	v19.16b, v3.16b
	rev16	v5.16b, v4.16b
	movi	v4.8h, #248, lsl #8
	orr	v2.16b, v5.16b, v0.16b
	orr	v3.16b, v19.16b, v1.16b
	orr	v2.16b, v3.16b, v2.16b
	and	v2.16b, v2.16b, v4.16b
	ext	v3.16b, v2.16b, v2.16b, #8
	orr	v2.8b, v2.8b, v3.8b
	fmov	x8, d2
	lsr	x9, x8, #32
	orr	w8, w8, w9
	orr	w8, w8, w8, lsr #16
	tst	w8, #0xffff
	b.eq	LBB31_13
	movi	v2.8h, #40, lsl #8
	add	v3.8h, v5.8h, v2.8h
	add	v4.8h, v0.8h, v2.8h
	add	v6.8h, v19.8h, v2.8h
	add	v2.8h, v1.8h, v2.8h
	umin	v3.8h, v3.8h, v4.8h
	movi	v4.8h, #8, lsl #8
	umin	v2.8h, v6.8h, v2.8h
	umin	v2.8h, v2.8h, v3.8h
	cmhi	v2.8h, v4.8h, v2.8h
	umaxv	h2, v2.8h
	fmov	w8, s2
	tbnz	w8, #0, LBB31_13
	mvni	v6.8h, #120, lsl #8
	movi	v7.2d, #0xff00ff00ff00ff
	ldr	q4, [x27, lCPI31_0@PAGEOFF]
	movi	v16.8h, #128, lsl #8
	shl	v21.8h, v19.8h, #8
	adrp	x8, lstatic.7@PAGE
	add	x8, x8, lstatic.7@PAGEOFF
	ushr	v22.8h, v19.8h, #6
	ushr	v24.8h, v5.8h, #6
	uqsub	v2.8h, v6.8h, v19.8h
	uqsub	v18.8h, v6.8h, v5.8h
	add	x22, x22, #64
	uqsub	v3.8h, v7.8h, v19.8h
	uqsub	v23.8h, v7.8h, v5.8h
	cmp	x22, x23
	mov	v17.16b, v21.16b
	bic	v21.8h, #192, lsl #8
	uqsub	v26.8h, v7.8h, v1.8h
	uqsub	v7.8h, v7.8h, v0.8h
	and	v20.16b, v2.16b, v16.16b
	and	v18.16b, v18.16b, v16.16b
	usra	v17.8h, v19.8h, #12
	orr	v2.16b, v20.16b, v3.16b
	movi	v3.8h, #63
	orr	v17.8h, #224
	cmlt	v2.16b, v2.16b, #0
	and	v22.16b, v22.16b, v3.16b
	and	v2.16b, v2.16b, v4.16b
	orr	v21.16b, v21.16b, v22.16b
	orr	v22.16b, v18.16b, v23.16b
	addp	v2.16b, v2.16b, v2.16b
	usra	v21.8h, v20.8h, #9
	cmlt	v19.16b, v22.16b, #0
	addp	v23.16b, v2.16b, v2.16b
	movi	v2.16b, #128
	addp	v22.16b, v23.16b, v23.16b
	shl	v23.8h, v5.8h, #8
	orr	v20.16b, v21.16b, v2.16b
	and	v21.16b, v19.16b, v4.16b
	umov	w9, v22.h[0]
	and	v22.16b, v24.16b, v3.16b
	uqsub	v24.8h, v6.8h, v1.8h
	mov	v19.16b, v23.16b
	bic	v23.8h, #192, lsl #8
	addp	v21.16b, v21.16b, v21.16b
	zip1	v25.8h, v17.8h, v20.8h
	uqsub	v6.8h, v6.8h, v0.8h
	and	x10, x9, #0xff
	orr	v22.16b, v23.16b, v22.16b
	addp	v21.16b, v21.16b, v21.16b
	fmov	d27, x10
	ldr	q23, [x8, x10, lsl #4]
	and	v24.16b, v24.16b, v16.16b
	usra	v19.8h, v5.8h, #12
	zip2	v5.8h, v17.8h, v20.8h
	ubfx	x9, x9, #8, #8
	tbl	v23.16b, { v25.16b }, v23.16b
	usra	v22.8h, v18.8h, #9
	addp	v17.16b, v21.16b, v21.16b
	cnt	v25.8b, v27.8b
	orr	v18.16b, v24.16b, v26.16b
	orr	v19.8h, #224
	str	q23, [x20, x1]
	umov	w11, v17.h[0]
	orr	v21.16b, v22.16b, v2.16b
	ldr	q20, [x8, x9, lsl #4]
	cmlt	v17.16b, v18.16b, #0
	fmov	d18, x9
	fmov	w10, s25
	shl	v22.8h, v1.8h, #8
	ushr	v23.8h, v1.8h, #6
	tbl	v5.16b, { v5.16b }, v20.16b
	zip1	v20.8h, v19.8h, v21.8h
	zip2	v19.8h, v19.8h, v21.8h
	cnt	v18.8b, v18.8b
	and	v17.16b, v17.16b, v4.16b
	sub	x9, x1, x10
	and	x10, x11, #0xff
	add	x9, x9, #12
	str	q5, [x20, x9]
	addp	v17.16b, v17.16b, v17.16b
	and	v5.16b, v6.16b, v16.16b
	ldr	q25, [x8, x10, lsl #4]
	fmov	w12, s18
	mov	v6.16b, v22.16b
	and	v18.16b, v23.16b, v3.16b
	bic	v22.8h, #192, lsl #8
	tbl	v16.16b, { v20.16b }, v25.16b
	fmov	d20, x10
	addp	v17.16b, v17.16b, v17.16b
	sub	x9, x9, x12
	orr	v7.16b, v5.16b, v7.16b
	ubfx	x10, x11, #8, #8
	orr	v18.16b, v22.16b, v18.16b
	add	x9, x9, #12
	usra	v6.8h, v1.8h, #12
	cnt	v20.8b, v20.8b
	str	q16, [x20, x9]
	addp	v1.16b, v17.16b, v17.16b
	ldr	q16, [x8, x10, lsl #4]
	fmov	d21, x10
	cmlt	v7.16b, v7.16b, #0
	usra	v18.8h, v24.8h, #9
	orr	v6.8h, #224
	tbl	v16.16b, { v19.16b }, v16.16b
	shl	v19.8h, v0.8h, #8
	umov	w11, v1.h[0]
	fmov	w10, s20
	ushr	v20.8h, v0.8h, #6
	cnt	v17.8b, v21.8b
	orr	v18.16b, v18.16b, v2.16b
	and	v1.16b, v7.16b, v4.16b
	mov	v4.16b, v19.16b
	bic	v19.8h, #192, lsl #8
	sub	x9, x9, x10
	and	v3.16b, v20.16b, v3.16b
	and	x12, x11, #0xff
	add	x10, x20, x9
	zip1	v7.8h, v6.8h, v18.8h
	addp	v1.16b, v1.16b, v1.16b
	stur	q16, [x10, #12]
	fmov	w10, s17
	fmov	d17, x12
	orr	v3.16b, v19.16b, v3.16b
	ldr	q16, [x8, x12, lsl #4]
	usra	v4.8h, v0.8h, #12
	addp	v1.16b, v1.16b, v1.16b
	tbl	v7.16b, { v7.16b }, v16.16b
	cnt	v16.8b, v17.8b
	sub	x9, x9, x10
	usra	v3.8h, v5.8h, #9
	add	x9, x9, #24
	zip2	v5.8h, v6.8h, v18.8h
	ubfx	x10, x11, #8, #8
	addp	v1.16b, v1.16b, v1.16b
	orr	v4.8h, #224
	str	q7, [x20, x9]
	fmov	w11, s16
	ldr	q6, [x8, x10, lsl #4]
	orr	v2.16b, v3.16b, v2.16b
	fmov	d3, x10
	umov	w10, v1.h[0]
	tbl	v1.16b, { v5.16b }, v6.16b
	sub	x9, x9, x11
	zip1	v5.8h, v4.8h, v2.8h
	zip2	v2.8h, v4.8h, v2.8h
	cnt	v3.8b, v3.8b
	add	x9, x9, #12
	str	q1, [x20, x9]
	and	x11, x10, #0xff
	ubfx	x10, x10, #8, #8
	ldr	q1, [x8, x11, lsl #4]
	fmov	w12, s3
	fmov	d3, x11
	tbl	v1.16b, { v5.16b }, v1.16b
	fmov	d5, x10
	cnt	v3.8b, v3.8b
	sub	x9, x9, x12
	cnt	v4.8b, v5.8b
	add	x9, x9, #12
	str	q1, [x20, x9]
	ldr	q1, [x8, x10, lsl #4]
	fmov	w8, s3
	fmov	w10, s4
	tbl	v1.16b, { v2.16b }, v1.16b
	sub	x8, x9, x8
	add	x9, x20, x8
	sub	x8, x8, x10
	add	x1, x8, #24
	stur	q1, [x9, #12]
	b.hi	LBB31_32
	mov	v7.16b, v0.16b
	cmp	x24, x1
	b.hs	LBB31_20
	b	LBB31_32
LBB31_24:
	movi	v1.8h, #128
	ldr	q4, [x27, lCPI31_0@PAGEOFF]
	shl	v5.8h, v23.8h, #8
	mov	w8, #32960
	shl	v16.8h, v21.8h, #8
	add	x22, x22, #64
	dup	v7.8h, w8
	bic	v5.8h, #192, lsl #8
	cmhi	v2.8h, v1.8h, v23.8h
	cmhi	v0.8h, v1.8h, v21.8h
	cmhi	v6.8h, v1.8h, v20.8h
	cmhi	v1.8h, v1.8h, v22.8h
	bic	v16.8h, #192, lsl #8
	usra	v5.8h, v23.8h, #6
	uzp1	v3.16b, v2.16b, v0.16b
	uzp1	v17.16b, v6.16b, v1.16b
	usra	v16.8h, v21.8h, #6
	and	v3.16b, v3.16b, v4.16b
	add	v16.8h, v16.8h, v7.8h
	addp	v3.16b, v3.16b, v3.16b
	bsl	v0.16b, v21.16b, v16.16b
	shl	v16.8h, v22.8h, #8
	addp	v3.16b, v3.16b, v3.16b
	bic	v16.8h, #192, lsl #8
	addp	v3.16b, v3.16b, v3.16b
	usra	v16.8h, v22.8h, #6
	umov	w8, v3.h[0]
	add	v3.8h, v5.8h, v7.8h
	shl	v5.8h, v20.8h, #8
	bsl	v2.16b, v23.16b, v3.16b
	and	v3.16b, v17.16b, v4.16b
	bic	v5.8h, #192, lsl #8
	and	x9, x8, #0xff
	ubfx	x8, x8, #8, #8
	ldr	q4, [x25, x9, lsl #4]
	addp	v3.16b, v3.16b, v3.16b
	usra	v5.8h, v20.8h, #6
	tbl	v2.16b, { v2.16b }, v4.16b
	fmov	d4, x9
	addp	v3.16b, v3.16b, v3.16b
	str	q2, [x20, x1]
	cnt	v2.8b, v4.8b
	ldr	q4, [x25, x8, lsl #4]
	addp	v3.16b, v3.16b, v3.16b
	tbl	v0.16b, { v0.16b }, v4.16b
	add	v4.8h, v5.8h, v7.8h
	fmov	w9, s2
	fmov	d2, x8
	umov	w8, v3.h[0]
	mov	v3.16b, v6.16b
	cnt	v2.8b, v2.8b
	sub	x9, x1, x9
	add	x10, x20, x9
	bsl	v3.16b, v20.16b, v4.16b
	str	q0, [x10, #16]
	and	x10, x8, #0xff
	ubfx	x8, x8, #8, #8
	ldr	q0, [x25, x10, lsl #4]
	fmov	d4, x10
	fmov	w11, s2
	add	v2.8h, v16.8h, v7.8h
	tbl	v0.16b, { v3.16b }, v0.16b
	cnt	v3.8b, v4.8b
	bsl	v1.16b, v22.16b, v2.16b
	fmov	d2, x8
	sub	x9, x9, x11
	add	x9, x9, #32
	str	q0, [x20, x9]
	cnt	v0.8b, v2.8b
	ldr	q2, [x25, x8, lsl #4]
	fmov	w8, s3
	tbl	v1.16b, { v1.16b }, v2.16b
	sub	x8, x9, x8
	fmov	w10, s0
	add	x9, x20, x8
	mov	v0.16b, v22.16b
	str	q1, [x9, #16]
	sub	x8, x8, x10
	add	x1, x8, #32
	cmp	x22, x23
	b.ls	LBB31_33
	b	LBB31_34
LBB31_25:
	movi	v0.8h, #63, lsl #8
	shl	v1.8h, v23.8h, #2
	mov	w8, #32992
	shl	v2.8h, v21.8h, #2
	shl	v3.8h, v20.8h, #2
	add	x22, x22, #64
	shl	v4.8h, v22.8h, #2
	movi	v5.8h, #63
	cmp	x22, x23
	dup	v6.8h, w8
	adrp	x8, lCPI31_1@PAGE
	and	v1.16b, v1.16b, v0.16b
	and	v2.16b, v2.16b, v0.16b
	and	v3.16b, v3.16b, v0.16b
	and	v0.16b, v4.16b, v0.16b
	usra	v1.8h, v23.8h, #12
	usra	v2.8h, v21.8h, #12
	usra	v3.8h, v20.8h, #12
	usra	v0.8h, v22.8h, #12
	orr	v16.16b, v1.16b, v6.16b
	orr	v18.16b, v2.16b, v6.16b
	orr	v3.16b, v3.16b, v6.16b
	orr	v6.16b, v0.16b, v6.16b
	and	v17.16b, v23.16b, v5.16b
	and	v19.16b, v21.16b, v5.16b
	and	v4.16b, v20.16b, v5.16b
	and	v7.16b, v22.16b, v5.16b
	ldr	q1, [x8, lCPI31_1@PAGEOFF]
	adrp	x8, lCPI31_2@PAGE
	orr	v17.8h, #128
	orr	v19.8h, #128
	ldr	d2, [x8, lCPI31_2@PAGEOFF]
	orr	v4.8h, #128
	orr	v7.8h, #128
	add	x8, x20, x1
	add	x1, x1, #96
	tbl	v0.16b, { v16.16b, v17.16b }, v1.16b
	mov	v17.d[0], v16.d[1]
	tbl	v5.16b, { v18.16b, v19.16b }, v1.16b
	mov	v19.d[0], v18.d[1]
	tbl	v20.16b, { v3.16b, v4.16b }, v1.16b
	mov	v4.d[0], v3.d[1]
	tbl	v21.16b, { v6.16b, v7.16b }, v1.16b
	mov	v7.d[0], v6.d[1]
	str	q0, [x8]
	tbl	v0.8b, { v17.16b }, v2.8b
	stur	q5, [x8, #24]
	tbl	v5.8b, { v19.16b }, v2.8b
	tbl	v3.8b, { v4.16b }, v2.8b
	tbl	v4.8b, { v7.16b }, v2.8b
	str	q20, [x8, #48]
	stur	q21, [x8, #72]
	str	d0, [x8, #16]
	str	d5, [x8, #40]
	str	d3, [x8, #64]
	str	d4, [x8, #88]
	b.hi	LBB31_31
	cmp	x24, x1
	b.lo	LBB31_31
LBB31_27:
	add	x8, x21, x22
	movi	v7.8h, #40, lsl #8
	ldp	q0, q4, [x8, #32]
	ldp	q5, q6, [x8]
	rev16	v3.16b, v0.16b
	rev16	v0.16b, v4.16b
	rev16	v5.16b, v5.16b
	rev16	v4.16b, v6.16b
	add	v6.8h, v3.8h, v7.8h
	add	v17.8h, v0.8h, v7.8h
	add	v16.8h, v4.8h, v7.8h
	add	v7.8h, v5.8h, v7.8h
	umin	v6.8h, v3.8h, v6.8h
	umin	v17.8h, v0.8h, v17.8h
	umin	v7.8h, v5.8h, v7.8h
	umin	v16.8h, v4.8h, v16.8h
	umin	v16.8h, v16.8h, v17.8h
	umin	v6.8h, v7.8h, v6.8h
	movi	v7.8h, #8, lsl #8
	umin	v6.8h, v6.8h, v16.8h
	cmhi	v6.8h, v7.8h, v6.8h
	umaxv	h6, v6.8h
	fmov	w8, s6
	tbnz	w8, #0, LBB31_31
	movi	v6.8h, #63, lsl #8
	shl	v7.8h, v5.8h, #2
	mov	w8, #32992
	shl	v16.8h, v4.8h, #2
	shl	v17.8h, v3.8h, #2
	add	x22, x22, #64
	shl	v18.8h, v0.8h, #2
	movi	v19.8h, #63
	cmp	x22, x23
	dup	v20.8h, w8
	add	x8, x20, x1
	add	x1, x1, #96
	and	v7.16b, v7.16b, v6.16b
	and	v16.16b, v16.16b, v6.16b
	and	v17.16b, v17.16b, v6.16b
	and	v6.16b, v18.16b, v6.16b
	usra	v7.8h, v5.8h, #12
	usra	v16.8h, v4.8h, #12
	usra	v17.8h, v3.8h, #12
	usra	v6.8h, v0.8h, #12
	orr	v21.16b, v7.16b, v20.16b
	orr	v23.16b, v16.16b, v20.16b
	orr	v16.16b, v17.16b, v20.16b
	and	v22.16b, v5.16b, v19.16b
	and	v24.16b, v4.16b, v19.16b
	orr	v4.16b, v6.16b, v20.16b
	and	v17.16b, v3.16b, v19.16b
	and	v5.16b, v0.16b, v19.16b
	orr	v22.8h, #128
	orr	v24.8h, #128
	orr	v17.8h, #128
	orr	v5.8h, #128
	tbl	v3.16b, { v21.16b, v22.16b }, v1.16b
	mov	v22.d[0], v21.d[1]
	tbl	v6.16b, { v23.16b, v24.16b }, v1.16b
	mov	v24.d[0], v23.d[1]
	tbl	v7.16b, { v16.16b, v17.16b }, v1.16b
	mov	v17.d[0], v16.d[1]
	tbl	v18.16b, { v4.16b, v5.16b }, v1.16b
	mov	v5.d[0], v4.d[1]
	str	q3, [x8]
	tbl	v3.8b, { v22.16b }, v2.8b
	stur	q6, [x8, #24]
	tbl	v6.8b, { v24.16b }, v2.8b
	str	q7, [x8, #48]
	tbl	v7.8b, { v17.16b }, v2.8b
	tbl	v4.8b, { v5.16b }, v2.8b
	stur	q18, [x8, #72]
	str	d3, [x8, #16]
	str	d6, [x8, #40]
	str	d7, [x8, #64]
	str	d4, [x8, #88]
	b.hi	LBB31_32
	mov	v22.16b, v0.16b
	cmp	x24, x1
	b.hs	LBB31_27
	b	LBB31_32
LBB31_30:
	ldur	q0, [x29, #-16]
	cmp	x22, x23
	b.ls	LBB31_33
	b	LBB31_34
LBB31_31:
	mov	v0.16b, v22.16b
LBB31_32:
	cmp	x22, x23
	b.hi	LBB31_34
LBB31_33:
	cmp	x24, x1
	b.hs	LBB31_10
LBB31_34:
	mov	v22.16b, v0.16b
LBB31_35:
	cmp	x23, x22
	b.lo	LBB31_47
	cmp	x24, x1
	b.lo	LBB31_47
	add	x8, x21, x22
	mov	w10, w26
	ldp	q1, q0, [x8]
	ldp	q3, q2, [x8, #32]
	rev16	v27.16b, v0.16b
	rev16	v28.16b, v1.16b
	rev16	v25.16b, v2.16b
	rev16	v26.16b, v3.16b
	movi	v2.16b, #252
	movi	v3.16b, #216
	uzp2	v1.16b, v28.16b, v27.16b
	uzp2	v0.16b, v26.16b, v25.16b
	and	v4.16b, v1.16b, v2.16b
	ldr	q1, [x27, lCPI31_0@PAGEOFF]
	and	v0.16b, v0.16b, v2.16b
	movi	v2.16b, #220
	cmeq	v5.16b, v0.16b, v3.16b
	cmeq	v3.16b, v4.16b, v3.16b
	cmeq	v0.16b, v0.16b, v2.16b
	cmeq	v2.16b, v4.16b, v2.16b
	and	v3.16b, v3.16b, v1.16b
	and	v4.16b, v5.16b, v1.16b
	and	v2.16b, v2.16b, v1.16b
	and	v0.16b, v0.16b, v1.16b
	addp	v3.16b, v3.16b, v4.16b
	addp	v0.16b, v2.16b, v0.16b
	addp	v2.16b, v3.16b, v3.16b
	addp	v0.16b, v0.16b, v0.16b
	addp	v2.16b, v2.16b, v2.16b
	addp	v0.16b, v0.16b, v0.16b
	fmov	w27, s2
	fmov	w9, s0
	lsl	w8, w27, #1
	bfxil	x8, x10, #0, #1
	cmp	x8, x9
	b.ne	LBB31_47
	movi	v0.8h, #40, lsl #8
	orr	v5.16b, v28.16b, v26.16b
	orr	v6.16b, v27.16b, v25.16b
	add	v2.8h, v27.8h, v0.8h
	add	v3.8h, v26.8h, v0.8h
	add	v4.8h, v28.8h, v0.8h
	add	v0.8h, v25.8h, v0.8h
	umin	v2.8h, v27.8h, v2.8h
	umin	v4.8h, v28.8h, v4.8h
	umin	v3.8h, v26.8h, v3.8h
	umin	v0.8h, v25.8h, v0.8h
	orr	v3.16b, v4.16b, v3.16b
	orr	v4.16b, v5.16b, v6.16b
	orr	v0.16b, v2.16b, v0.16b
	movi	v2.8h, #248, lsl #8
	orr	v0.16b, v3.16b, v0.16b
	and	v3.16b, v4.16b, v2.16b
	and	v0.16b, v0.16b, v2.16b
	ext	v2.16b, v3.16b, v3.16b, #8
	ext	v4.16b, v0.16b, v0.16b, #8
	orr	v2.8b, v3.8b, v2.8b
	orr	v0.8b, v0.8b, v4.8b
	fmov	x8, d2
	fmov	x10, d0
	lsr	x9, x8, #32
	lsr	x11, x10, #32
	orr	w8, w8, w9
	orr	w8, w8, w8, lsr #16
	orr	w9, w10, w11
	orr	w9, w9, w9, lsr #16
	and	w8, w8, #0xffff
	cmp	w8, #0
	and	w8, w9, #0xffff
	ccmp	w8, #0, #0, ne
	b.ne	LBB31_3
	movi	v0.8h, #36, lsl #8
	ext	v3.16b, v22.16b, v28.16b, #14
	mov	w8, #752
	movi	v2.8h, #68, lsl #8
	movi	v7.8h, #128
	add	x22, x22, #64
	ext	v17.16b, v28.16b, v27.16b, #14
	dup	v5.8h, w8
	lsr	w26, w27, #31
	cmp	x22, x23
	add	v4.8h, v28.8h, v0.8h
	shl	v16.8h, v3.8h, #10
	add	v20.8h, v27.8h, v0.8h
	add	v19.8h, v28.8h, v2.8h
	cmhi	v6.8h, v7.8h, v28.8h
	cmhi	v3.8h, v7.8h, v27.8h
	shl	v17.8h, v17.8h, #10
	add	v23.8h, v27.8h, v2.8h
	cmhi	v24.8h, v7.8h, v26.8h
	ushr	v18.8h, v4.8h, #2
	bic	v16.8h, #240, lsl #8
	ushr	v20.8h, v20.8h, #2
	uzp1	v22.16b, v6.16b, v3.16b
	movi	v4.8h, #48, lsl #8
	cmhi	v7.8h, v7.8h, v25.8h
	bic	v17.8h, #240, lsl #8
	uqsub	v18.8h, v18.8h, v5.8h
	add	v16.8h, v19.8h, v16.8h
	cmlt	v19.8h, v28.8h, #0
	add	v17.8h, v23.8h, v17.8h
	add	v21.8h, v28.8h, v4.8h
	add	v23.8h, v26.8h, v0.8h
	add	v0.8h, v25.8h, v0.8h
	umax	v16.8h, v18.8h, v16.8h
	uqsub	v18.8h, v20.8h, v5.8h
	and	v20.16b, v22.16b, v1.16b
	add	v22.8h, v27.8h, v4.8h
	ushr	v0.8h, v0.8h, #2
	bif	v16.16b, v21.16b, v19.16b
	ext	v19.16b, v27.16b, v26.16b, #14
	cmlt	v21.8h, v27.8h, #0
	umax	v17.8h, v18.8h, v17.8h
	addp	v18.16b, v20.16b, v20.16b
	uqsub	v0.8h, v0.8h, v5.8h
	addp	v18.16b, v18.16b, v18.16b
	ushr	v20.8h, v16.8h, #6
	shl	v16.8h, v16.8h, #8
	shl	v19.8h, v19.8h, #10
	bif	v17.16b, v22.16b, v21.16b
	ext	v21.16b, v26.16b, v25.16b, #14
	ushr	v22.8h, v23.8h, #2
	add	v23.8h, v26.8h, v2.8h
	add	v2.8h, v25.8h, v2.8h
	addp	v18.16b, v18.16b, v18.16b
	orr	v20.8h, #128, lsl #8
	bic	v16.8h, #192, lsl #8
	bic	v19.8h, #240, lsl #8
	uqsub	v22.8h, v22.8h, v5.8h
	shl	v21.8h, v21.8h, #10
	umov	w8, v18.h[0]
	uzp1	v18.16b, v24.16b, v7.16b
	add	v16.8h, v20.8h, v16.8h
	add	v19.8h, v23.8h, v19.8h
	ushr	v20.8h, v17.8h, #6
	shl	v17.8h, v17.8h, #8
	bic	v21.8h, #240, lsl #8
	bsl	v6.16b, v28.16b, v16.16b
	add	v16.8h, v26.8h, v4.8h
	add	v4.8h, v25.8h, v4.8h
	and	x9, x8, #0xff
	ubfx	x8, x8, #8, #8
	and	v5.16b, v18.16b, v1.16b
	ldr	q18, [x25, x9, lsl #4]
	umax	v19.8h, v22.8h, v19.8h
	cmlt	v22.8h, v26.8h, #0
	orr	v20.8h, #128, lsl #8
	bic	v17.8h, #192, lsl #8
	add	v2.8h, v2.8h, v21.8h
	addp	v5.16b, v5.16b, v5.16b
	tbl	v6.16b, { v6.16b }, v18.16b
	bit	v16.16b, v19.16b, v22.16b
	fmov	d19, x9
	add	v17.8h, v20.8h, v17.8h
	umax	v0.8h, v0.8h, v2.8h
	cmlt	v2.8h, v25.8h, #0
	str	q6, [x20, x1]
	addp	v5.16b, v5.16b, v5.16b
	cnt	v18.8b, v19.8b
	bsl	v3.16b, v27.16b, v17.16b
	ushr	v19.8h, v16.8h, #6
	shl	v16.8h, v16.8h, #8
	bif	v0.16b, v4.16b, v2.16b
	ldr	q2, [x25, x8, lsl #4]
	addp	v4.16b, v5.16b, v5.16b
	fmov	d5, x8
	fmov	w9, s18
	orr	v19.8h, #128, lsl #8
	bic	v16.8h, #192, lsl #8
	tbl	v2.16b, { v3.16b }, v2.16b
	umov	w8, v4.h[0]
	cnt	v4.8b, v5.8b
	ushr	v3.8h, v0.8h, #6
	shl	v0.8h, v0.8h, #8
	sub	x9, x1, x9
	add	v6.8h, v19.8h, v16.8h
	mov	v5.16b, v24.16b
	add	x10, x20, x9
	str	q2, [x10, #16]
	and	x10, x8, #0xff
	ubfx	x8, x8, #8, #8
	orr	v3.8h, #128, lsl #8
	bic	v0.8h, #192, lsl #8
	ldr	q2, [x25, x10, lsl #4]
	fmov	w11, s4
	fmov	d4, x10
	bsl	v5.16b, v26.16b, v6.16b
	add	v0.8h, v3.8h, v0.8h
	cnt	v3.8b, v4.8b
	fmov	d4, x8
	sub	x9, x9, x11
	tbl	v2.16b, { v5.16b }, v2.16b
	add	x9, x9, #32
	bit	v0.16b, v25.16b, v7.16b
	cnt	v4.8b, v4.8b
	str	q2, [x20, x9]
	ldr	q2, [x25, x8, lsl #4]
	fmov	w8, s3
	fmov	w10, s4
	tbl	v0.16b, { v0.16b }, v2.16b
	sub	x8, x9, x8
	add	x9, x20, x8
	sub	x8, x8, x10
	add	x1, x8, #32
	str	q0, [x9, #16]
	b.hi	LBB31_45
	cmp	x24, x1
	b.lo	LBB31_45
LBB31_41:
	add	x8, x21, x22
	movi	v6.8h, #40, lsl #8
	ldp	q4, q0, [x8]
	ldp	q2, q5, [x8, #32]
	rev16	v3.16b, v0.16b
	rev16	v4.16b, v4.16b
	rev16	v2.16b, v2.16b
	rev16	v0.16b, v5.16b
	add	v5.8h, v3.8h, v6.8h
	add	v16.8h, v4.8h, v6.8h
	add	v7.8h, v2.8h, v6.8h
	add	v6.8h, v0.8h, v6.8h
	orr	v17.16b, v3.16b, v0.16b
	orr	v18.16b, v4.16b, v2.16b
	umin	v5.8h, v3.8h, v5.8h
	umin	v16.8h, v4.8h, v16.8h
	umin	v6.8h, v0.8h, v6.8h
	umin	v7.8h, v2.8h, v7.8h
	orr	v7.16b, v16.16b, v7.16b
	orr	v5.16b, v5.16b, v6.16b
	movi	v6.8h, #248, lsl #8
	orr	v16.16b, v18.16b, v17.16b
	orr	v5.16b, v7.16b, v5.16b
	and	v7.16b, v16.16b, v6.16b
	and	v5.16b, v5.16b, v6.16b
	ext	v6.16b, v7.16b, v7.16b, #8
	ext	v16.16b, v5.16b, v5.16b, #8
	orr	v6.8b, v7.8b, v6.8b
	orr	v5.8b, v5.8b, v16.8b
	fmov	x8, d6
	fmov	x10, d5
	lsr	x9, x8, #32
	lsr	x11, x10, #32
	orr	w8, w8, w9
	orr	w8, w8, w8, lsr #16
	orr	w9, w10, w11
	orr	w9, w9, w9, lsr #16
	and	w8, w8, #0xffff
	cmp	w8, #0
	and	w8, w9, #0xffff
	ccmp	w8, #0, #0, ne
	b.ne	LBB31_45
	uzp2	v5.16b, v2.16b, v0.16b
	uzp2	v6.16b, v4.16b, v3.16b
	movi	v7.16b, #252
	movi	v16.16b, #216
	and	v6.16b, v6.16b, v7.16b
	and	v5.16b, v5.16b, v7.16b
	movi	v7.16b, #220
	cmeq	v17.16b, v5.16b, v16.16b
	cmeq	v16.16b, v6.16b, v16.16b
	cmeq	v5.16b, v5.16b, v7.16b
	cmeq	v6.16b, v6.16b, v7.16b
	and	v7.16b, v16.16b, v1.16b
	and	v16.16b, v17.16b, v1.16b
	and	v6.16b, v6.16b, v1.16b
	and	v5.16b, v5.16b, v1.16b
	addp	v7.16b, v7.16b, v16.16b
	addp	v5.16b, v6.16b, v5.16b
	addp	v6.16b, v7.16b, v7.16b
	addp	v5.16b, v5.16b, v5.16b
	addp	v6.16b, v6.16b, v6.16b
	addp	v5.16b, v5.16b, v5.16b
	fmov	w8, s6
	fmov	w10, s5
	lsl	w9, w8, #1
	bfxil	x9, x26, #0, #1
	cmp	x9, x10
	b.ne	LBB31_45
	movi	v5.8h, #36, lsl #8
	ext	v7.16b, v25.16b, v4.16b, #14
	mov	w9, #752
	movi	v6.8h, #68, lsl #8
	movi	v19.8h, #128
	lsr	w26, w8, #31
	ext	v21.16b, v4.16b, v3.16b, #14
	dup	v17.8h, w9
	add	x22, x22, #64
	cmp	x22, x23
	add	v16.8h, v4.8h, v5.8h
	shl	v20.8h, v7.8h, #10
	add	v24.8h, v3.8h, v5.8h
	add	v23.8h, v4.8h, v6.8h
	cmhi	v18.8h, v19.8h, v4.8h
	cmhi	v7.8h, v19.8h, v3.8h
	shl	v21.8h, v21.8h, #10
	add	v27.8h, v3.8h, v6.8h
	cmhi	v28.8h, v19.8h, v2.8h
	ushr	v22.8h, v16.8h, #2
	bic	v20.8h, #240, lsl #8
	movi	v16.8h, #48, lsl #8
	ushr	v24.8h, v24.8h, #2
	uzp1	v26.16b, v18.16b, v7.16b
	cmhi	v19.8h, v19.8h, v0.8h
	bic	v21.8h, #240, lsl #8
	uqsub	v22.8h, v22.8h, v17.8h
	add	v20.8h, v23.8h, v20.8h
	cmlt	v23.8h, v4.8h, #0
	add	v25.8h, v4.8h, v16.8h
	add	v21.8h, v27.8h, v21.8h
	add	v27.8h, v2.8h, v5.8h
	add	v5.8h, v0.8h, v5.8h
	umax	v20.8h, v22.8h, v20.8h
	uqsub	v22.8h, v24.8h, v17.8h
	and	v24.16b, v26.16b, v1.16b
	add	v26.8h, v3.8h, v16.8h
	ushr	v5.8h, v5.8h, #2
	bif	v20.16b, v25.16b, v23.16b
	cmlt	v25.8h, v3.8h, #0
	ext	v23.16b, v3.16b, v2.16b, #14
	umax	v21.8h, v22.8h, v21.8h
	addp	v22.16b, v24.16b, v24.16b
	uqsub	v5.8h, v5.8h, v17.8h
	ushr	v24.8h, v20.8h, #6
	shl	v20.8h, v20.8h, #8
	bif	v21.16b, v26.16b, v25.16b
	addp	v22.16b, v22.16b, v22.16b
	ext	v25.16b, v2.16b, v0.16b, #14
	shl	v23.8h, v23.8h, #10
	ushr	v26.8h, v27.8h, #2
	add	v27.8h, v2.8h, v6.8h
	add	v6.8h, v0.8h, v6.8h
	orr	v24.8h, #128, lsl #8
	bic	v20.8h, #192, lsl #8
	addp	v22.16b, v22.16b, v22.16b
	bic	v23.8h, #240, lsl #8
	shl	v25.8h, v25.8h, #10
	uqsub	v26.8h, v26.8h, v17.8h
	add	v20.8h, v24.8h, v20.8h
	ushr	v24.8h, v21.8h, #6
	shl	v21.8h, v21.8h, #8
	umov	w9, v22.h[0]
	uzp1	v22.16b, v28.16b, v19.16b
	add	v23.8h, v27.8h, v23.8h
	bic	v25.8h, #240, lsl #8
	bif	v4.16b, v20.16b, v18.16b
	add	v18.8h, v2.8h, v16.8h
	orr	v24.8h, #128, lsl #8
	umax	v20.8h, v26.8h, v23.8h
	cmlt	v23.8h, v2.8h, #0
	bic	v21.8h, #192, lsl #8
	and	x10, x9, #0xff
	ubfx	x9, x9, #8, #8
	add	v6.8h, v6.8h, v25.8h
	and	v17.16b, v22.16b, v1.16b
	ldr	q22, [x25, x10, lsl #4]
	add	v16.8h, v0.8h, v16.8h
	bit	v18.16b, v20.16b, v23.16b
	add	v20.8h, v24.8h, v21.8h
	fmov	d21, x10
	tbl	v4.16b, { v4.16b }, v22.16b
	umax	v5.8h, v5.8h, v6.8h
	cmlt	v6.8h, v0.8h, #0
	addp	v17.16b, v17.16b, v17.16b
	cnt	v21.8b, v21.8b
	bif	v3.16b, v20.16b, v7.16b
	fmov	d7, x9
	str	q4, [x20, x1]
	mov	v4.16b, v6.16b
	ushr	v22.8h, v18.8h, #6
	addp	v17.16b, v17.16b, v17.16b
	shl	v18.8h, v18.8h, #8
	bsl	v4.16b, v5.16b, v16.16b
	ldr	q5, [x25, x9, lsl #4]
	orr	v22.8h, #128, lsl #8
	addp	v6.16b, v17.16b, v17.16b
	bic	v18.8h, #192, lsl #8
	fmov	w10, s21
	tbl	v3.16b, { v3.16b }, v5.16b
	ushr	v5.8h, v4.8h, #6
	sub	x10, x1, x10
	shl	v4.8h, v4.8h, #8
	umov	w9, v6.h[0]
	add	x11, x20, x10
	add	v16.8h, v22.8h, v18.8h
	cnt	v6.8b, v7.8b
	str	q3, [x11, #16]
	orr	v5.8h, #128, lsl #8
	bic	v4.8h, #192, lsl #8
	bif	v2.16b, v16.16b, v28.16b
	and	x11, x9, #0xff
	ubfx	x9, x9, #8, #8
	add	v4.8h, v5.8h, v4.8h
	fmov	d5, x11
	ldr	q3, [x25, x11, lsl #4]
	fmov	w12, s6
	tbl	v2.16b, { v2.16b }, v3.16b
	cnt	v3.8b, v5.8b
	fmov	d5, x9
	bit	v4.16b, v0.16b, v19.16b
	sub	x10, x10, x12
	add	x10, x10, #32
	cnt	v5.8b, v5.8b
	str	q2, [x20, x10]
	ldr	q2, [x25, x9, lsl #4]
	fmov	w9, s3
	tbl	v2.16b, { v4.16b }, v2.16b
	fmov	w11, s5
	sub	x8, x10, x9
	add	x9, x20, x8
	sub	x8, x8, x11
	str	q2, [x9, #16]
	add	x1, x8, #32
	b.hi	LBB31_4
	mov	v25.16b, v0.16b
	cmp	x24, x1
	b.hs	LBB31_41
	b	LBB31_4
LBB31_45:
	mov	v0.16b, v25.16b
	b	LBB31_4
LBB31_46:
	movi	v0.2d, #0000000000000000
	str	xzr, [x19, #32]
	stp	q0, q0, [x19]
	.cfi_def_cfa wsp, 160
	b	LBB31_49
LBB31_47:
	.cfi_restore_state
	mov	v0.16b, v22.16b
LBB31_48:
	and	w8, w26, #0x1
	stp	x22, x1, [x19]
	str	q0, [x19, #16]
	strb	w8, [x19, #32]
	stur	wzr, [x19, #33]
	str	wzr, [x19, #36]
	.cfi_def_cfa wsp, 160
LBB31_49:
	ldp	x20, x19, [sp, #144]
	ldr	x27, [sp, #80]
	ldp	x22, x21, [sp, #128]
	ldp	x24, x23, [sp, #112]
	ldp	x26, x25, [sp, #96]
	ldp	x29, x30, [sp, #64]
	add	sp, sp, #160
	.cfi_def_cfa_offset 0
	.cfi_restore w19
	.cfi_restore w20
	.cfi_restore w21
	.cfi_restore w22
	.cfi_restore w23
	.cfi_restore w24
	.cfi_restore w25
	.cfi_restore w26
	.cfi_restore w27
	.cfi_restore w30
	.cfi_restore w29
	ret
Lfunc_end31:
	.cfi_endproc

	.section	__TEXT,__literal16,16byte_literals
	.p2align	4, 0x0
lCPI32_0:
	.byte	1
	.byte	2
	.byte	4
	.byte	8
	.byte	16
	.byte	32
	.byte	64
	.byte	128
	.byte	1
	.byte	2
	.byte	4
	.byte	8
	.byte	16
	.byte	32
	.byte	64
	.byte	128
lCPI32_1:
	.byte	0
	.byte	1
	.byte	16
	.byte	2
	.byte	3
	.byte	18
	.byte	4
	.byte	5
	.byte	20
	.byte	6
	.byte	7
	.byte	22
	.byte	8
	.byte	9
	.byte	24
	.byte	10
	.section	__TEXT,__literal8,8byte_literals
	.p2align	3, 0x0
lCPI32_2:
	.byte	3
	.byte	10
	.byte	4
	.byte	5
	.byte	12
	.byte	6
	.byte	7
	.byte	14
	.section	__TEXT,__text,regular,pure_instructions
	.p2align	2
"_utf16_to_utf8::blocks::write_group":
	.cfi_startproc
	and	w8, w2, #0xff
	cmp	w8, #2
	b.gt	LBB32_4
	cbz	w8, LBB32_7
	cmp	w8, #1
	b.ne	LBB32_9
	movi	v0.8h, #128
	adrp	x8, lCPI32_0@PAGE
	shl	v6.8h, v3.8h, #8
	ldr	q5, [x8, lCPI32_0@PAGEOFF]
	mov	w8, #32960
	adrp	x10, lstatic.6@PAGE
	add	x10, x10, lstatic.6@PAGEOFF
	dup	v7.8h, w8
	bic	v6.8h, #192, lsl #8
	cmhi	v1.8h, v0.8h, v2.8h
	cmhi	v0.8h, v0.8h, v3.8h
	usra	v6.8h, v3.8h, #6
	uzp1	v4.16b, v1.16b, v0.16b
	and	v4.16b, v4.16b, v5.16b
	shl	v5.8h, v2.8h, #8
	addp	v4.16b, v4.16b, v4.16b
	bic	v5.8h, #192, lsl #8
	addp	v4.16b, v4.16b, v4.16b
	usra	v5.8h, v2.8h, #6
	addp	v4.16b, v4.16b, v4.16b
	umov	w8, v4.h[0]
	add	v4.8h, v5.8h, v7.8h
	bsl	v1.16b, v2.16b, v4.16b
	add	v4.8h, v6.8h, v7.8h
	and	x9, x8, #0xff
	ubfx	x8, x8, #8, #8
	ldr	q2, [x10, x9, lsl #4]
	fmov	d5, x8
	bsl	v0.16b, v3.16b, v4.16b
	tbl	v1.16b, { v1.16b }, v2.16b
	fmov	d2, x9
	cnt	v3.8b, v5.8b
	b	LBB32_10
LBB32_4:
	cmp	w8, #3
	b.eq	LBB32_8
	mvni	v0.8h, #120, lsl #8
	cmp	w8, #4
	b.ne	LBB32_11
	movi	v1.2d, #0xff00ff00ff00ff
	uqsub	v4.8h, v0.8h, v2.8h
	adrp	x8, lCPI32_0@PAGE
	movi	v5.8h, #128, lsl #8
	ldr	q7, [x8, lCPI32_0@PAGEOFF]
	uqsub	v0.8h, v0.8h, v3.8h
	movi	v16.8h, #63
	shl	v17.8h, v2.8h, #8
	adrp	x10, lstatic.7@PAGE
	add	x10, x10, lstatic.7@PAGEOFF
	ushr	v18.8h, v2.8h, #6
	movi	v19.16b, #128
	uqsub	v6.8h, v1.8h, v2.8h
	uqsub	v1.8h, v1.8h, v3.8h
	and	v4.16b, v4.16b, v5.16b
	and	v0.16b, v0.16b, v5.16b
	and	v18.16b, v18.16b, v16.16b
	orr	v6.16b, v4.16b, v6.16b
	orr	v1.16b, v0.16b, v1.16b
	usra	v18.8h, v4.8h, #9
	cmlt	v6.16b, v6.16b, #0
	cmlt	v1.16b, v1.16b, #0
	and	v6.16b, v6.16b, v7.16b
	and	v1.16b, v1.16b, v7.16b
	addp	v5.16b, v6.16b, v6.16b
	mov	v6.16b, v17.16b
	bic	v17.8h, #192, lsl #8
	addp	v1.16b, v1.16b, v1.16b
	addp	v5.16b, v5.16b, v5.16b
	usra	v6.8h, v2.8h, #12
	orr	v2.16b, v17.16b, v19.16b
	addp	v1.16b, v1.16b, v1.16b
	addp	v4.16b, v5.16b, v5.16b
	orr	v6.8h, #224
	orr	v2.16b, v18.16b, v2.16b
	shl	v5.8h, v3.8h, #8
	addp	v1.16b, v1.16b, v1.16b
	umov	w8, v4.h[0]
	ushr	v4.8h, v3.8h, #6
	zip1	v17.8h, v6.8h, v2.8h
	mov	v7.16b, v5.16b
	bic	v5.8h, #192, lsl #8
	zip2	v2.8h, v6.8h, v2.8h
	and	v4.16b, v4.16b, v16.16b
	and	x9, x8, #0xff
	ubfx	x8, x8, #8, #8
	usra	v7.8h, v3.8h, #12
	ldr	q16, [x10, x9, lsl #4]
	fmov	d18, x9
	usra	v4.8h, v0.8h, #9
	orr	v0.16b, v5.16b, v19.16b
	tbl	v16.16b, { v17.16b }, v16.16b
	orr	v7.8h, #224
	cnt	v17.8b, v18.8b
	orr	v0.16b, v4.16b, v0.16b
	fmov	d4, x8
	str	q16, [x0, x1]
	ldr	q3, [x10, x8, lsl #4]
	umov	w8, v1.h[0]
	fmov	w9, s17
	tbl	v1.16b, { v2.16b }, v3.16b
	cnt	v2.8b, v4.8b
	zip1	v3.8h, v7.8h, v0.8h
	zip2	v0.8h, v7.8h, v0.8h
	sub	x9, x1, x9
	and	x11, x8, #0xff
	ubfx	x8, x8, #8, #8
	add	x9, x9, #12
	fmov	w12, s2
	str	q1, [x0, x9]
	fmov	d2, x11
	ldr	q1, [x10, x11, lsl #4]
	sub	x9, x9, x12
	tbl	v1.16b, { v3.16b }, v1.16b
	cnt	v2.8b, v2.8b
	fmov	d3, x8
	b	LBB32_12
LBB32_7:
	sqxtun	v0.8b, v2.8h
	sqxtun2	v0.16b, v3.8h
	str	q0, [x0, x1]
	add	x0, x1, #16
	ret
LBB32_8:
	movi	v0.8h, #63, lsl #8
	shl	v1.8h, v2.8h, #2
	mov	w8, #32992
	shl	v4.8h, v3.8h, #2
	dup	v5.8h, w8
	adrp	x8, lCPI32_1@PAGE
	and	v1.16b, v1.16b, v0.16b
	and	v0.16b, v4.16b, v0.16b
	movi	v4.8h, #63
	usra	v1.8h, v2.8h, #12
	usra	v0.8h, v3.8h, #12
	orr	v6.16b, v1.16b, v5.16b
	orr	v0.16b, v0.16b, v5.16b
	and	v7.16b, v2.16b, v4.16b
	and	v1.16b, v3.16b, v4.16b
	ldr	q2, [x8, lCPI32_1@PAGEOFF]
	adrp	x8, lCPI32_2@PAGE
	ldr	d4, [x8, lCPI32_2@PAGEOFF]
	add	x8, x0, x1
	add	x0, x1, #48
	orr	v7.8h, #128
	orr	v1.8h, #128
	tbl	v3.16b, { v6.16b, v7.16b }, v2.16b
	mov	v7.d[0], v6.d[1]
	tbl	v2.16b, { v0.16b, v1.16b }, v2.16b
	mov	v1.d[0], v0.d[1]
	tbl	v5.8b, { v7.16b }, v4.8b
	str	q3, [x8]
	tbl	v0.8b, { v1.16b }, v4.8b
	stur	q2, [x8, #24]
	str	d5, [x8, #16]
	str	d0, [x8, #40]
	ret
LBB32_9:
	movi	v0.8h, #36, lsl #8
	ext	v1.16b, v1.16b, v2.16b, #14
	mov	w8, #752
	movi	v5.8h, #68, lsl #8
	movi	v6.8h, #128
	adrp	x10, lstatic.6@PAGE
	add	x10, x10, lstatic.6@PAGEOFF
	dup	v16.8h, w8
	ext	v7.16b, v2.16b, v3.16b, #14
	movi	v19.8h, #48, lsl #8
	adrp	x8, lCPI32_0@PAGE
	add	v4.8h, v2.8h, v0.8h
	shl	v1.8h, v1.8h, #10
	add	v0.8h, v3.8h, v0.8h
	add	v17.8h, v2.8h, v5.8h
	cmhi	v18.8h, v6.8h, v2.8h
	ldr	q20, [x8, lCPI32_0@PAGEOFF]
	cmhi	v6.8h, v6.8h, v3.8h
	shl	v7.8h, v7.8h, #10
	add	v5.8h, v3.8h, v5.8h
	ushr	v4.8h, v4.8h, #2
	bic	v1.8h, #240, lsl #8
	ushr	v0.8h, v0.8h, #2
	add	v21.8h, v2.8h, v19.8h
	bic	v7.8h, #240, lsl #8
	uqsub	v4.8h, v4.8h, v16.8h
	add	v1.8h, v17.8h, v1.8h
	uzp1	v17.16b, v18.16b, v6.16b
	uqsub	v0.8h, v0.8h, v16.8h
	add	v5.8h, v5.8h, v7.8h
	add	v7.8h, v3.8h, v19.8h
	umax	v1.8h, v4.8h, v1.8h
	cmlt	v4.8h, v2.8h, #0
	and	v16.16b, v17.16b, v20.16b
	umax	v0.8h, v0.8h, v5.8h
	cmlt	v5.8h, v3.8h, #0
	bif	v1.16b, v21.16b, v4.16b
	addp	v4.16b, v16.16b, v16.16b
	bif	v0.16b, v7.16b, v5.16b
	addp	v4.16b, v4.16b, v4.16b
	ushr	v16.8h, v1.8h, #6
	shl	v1.8h, v1.8h, #8
	ushr	v5.8h, v0.8h, #6
	shl	v0.8h, v0.8h, #8
	addp	v4.16b, v4.16b, v4.16b
	orr	v16.8h, #128, lsl #8
	bic	v1.8h, #192, lsl #8
	orr	v5.8h, #128, lsl #8
	bic	v0.8h, #192, lsl #8
	umov	w8, v4.h[0]
	add	v1.8h, v16.8h, v1.8h
	add	v0.8h, v5.8h, v0.8h
	bit	v1.16b, v2.16b, v18.16b
	and	x9, x8, #0xff
	ubfx	x8, x8, #8, #8
	ldr	q2, [x10, x9, lsl #4]
	bit	v0.16b, v3.16b, v6.16b
	fmov	d4, x8
	tbl	v1.16b, { v1.16b }, v2.16b
	fmov	d2, x9
	cnt	v3.8b, v4.8b
LBB32_10:
	cnt	v2.8b, v2.8b
	str	q1, [x0, x1]
	fmov	w9, s3
	ldr	q1, [x10, x8, lsl #4]
	fmov	w8, s2
	tbl	v0.16b, { v0.16b }, v1.16b
	sub	x8, x1, x8
	add	x10, x0, x8
	sub	x8, x8, x9
	add	x0, x8, #32
	str	q0, [x10, #16]
	ret
LBB32_11:
	movi	v5.8h, #248, lsl #8
	movi	v16.8h, #216, lsl #8
	mov	w8, #752
	movi	v6.8h, #36, lsl #8
	uqsub	v7.8h, v0.8h, v2.8h
	adrp	x10, lstatic.7@PAGE
	add	x10, x10, lstatic.7@PAGEOFF
	movi	v4.8h, #128, lsl #8
	ext	v1.16b, v1.16b, v2.16b, #14
	movi	v19.2d, #0xff00ff00ff00ff
	movi	v20.8h, #68, lsl #8
	mov	v21.16b, v2.16b
	and	v17.16b, v2.16b, v5.16b
	dup	v22.8h, w8
	adrp	x8, lCPI32_0@PAGE
	add	v18.8h, v2.8h, v6.8h
	uqsub	v0.8h, v0.8h, v3.8h
	and	v5.16b, v3.16b, v5.16b
	and	v7.16b, v7.16b, v4.16b
	shl	v1.8h, v1.8h, #10
	bic	v21.8h, #240, lsl #8
	cmeq	v17.8h, v17.8h, v16.8h
	uqsub	v23.8h, v19.8h, v2.8h
	add	v25.8h, v2.8h, v20.8h
	ushr	v18.8h, v18.8h, #2
	cmeq	v5.8h, v5.8h, v16.8h
	mov	v16.16b, v3.16b
	bic	v1.8h, #240, lsl #8
	usra	v21.8h, v7.8h, #3
	and	v0.16b, v0.16b, v4.16b
	mov	v24.16b, v17.16b
	add	v6.8h, v3.8h, v6.8h
	uqsub	v19.8h, v19.8h, v3.8h
	bic	v16.8h, #240, lsl #8
	add	v1.8h, v25.8h, v1.8h
	orr	v21.8h, #32, lsl #8
	bsl	v24.16b, v4.16b, v7.16b
	uqsub	v7.8h, v18.8h, v22.8h
	bif	v4.16b, v0.16b, v5.16b
	ushr	v6.8h, v6.8h, #2
	usra	v16.8h, v0.8h, #3
	orr	v18.16b, v24.16b, v23.16b
	ext	v23.16b, v2.16b, v3.16b, #14
	umax	v1.8h, v7.8h, v1.8h
	orr	v4.16b, v4.16b, v19.16b
	uqsub	v6.8h, v6.8h, v22.8h
	orr	v16.8h, #32, lsl #8
	cmlt	v7.16b, v18.16b, #0
	bif	v1.16b, v21.16b, v17.16b
	add	v17.8h, v3.8h, v20.8h
	shl	v18.8h, v23.8h, #10
	ldr	q23, [x8, lCPI32_0@PAGEOFF]
	shl	v20.8h, v2.8h, #8
	cmlt	v4.16b, v4.16b, #0
	and	v7.16b, v7.16b, v23.16b
	bic	v18.8h, #240, lsl #8
	usra	v20.8h, v2.8h, #12
	addp	v7.16b, v7.16b, v7.16b
	add	v0.8h, v17.8h, v18.8h
	ushr	v17.8h, v1.8h, #6
	shl	v1.8h, v1.8h, #8
	orr	v20.8h, #224
	addp	v7.16b, v7.16b, v7.16b
	orr	v17.8h, #128, lsl #8
	bic	v1.8h, #192, lsl #8
	umax	v0.8h, v6.8h, v0.8h
	addp	v2.16b, v7.16b, v7.16b
	add	v1.8h, v17.8h, v1.8h
	bif	v0.16b, v16.16b, v5.16b
	umov	w8, v2.h[0]
	and	v2.16b, v4.16b, v23.16b
	shl	v4.8h, v3.8h, #8
	zip1	v5.8h, v20.8h, v1.8h
	zip2	v1.8h, v20.8h, v1.8h
	ushr	v6.8h, v0.8h, #6
	shl	v0.8h, v0.8h, #8
	addp	v2.16b, v2.16b, v2.16b
	usra	v4.8h, v3.8h, #12
	and	x9, x8, #0xff
	ubfx	x8, x8, #8, #8
	ldr	q7, [x10, x9, lsl #4]
	fmov	d16, x9
	orr	v6.8h, #128, lsl #8
	addp	v2.16b, v2.16b, v2.16b
	bic	v0.8h, #192, lsl #8
	orr	v4.8h, #224
	tbl	v5.16b, { v5.16b }, v7.16b
	cnt	v7.8b, v16.8b
	addp	v2.16b, v2.16b, v2.16b
	add	v0.8h, v6.8h, v0.8h
	str	q5, [x0, x1]
	fmov	d5, x8
	ldr	q3, [x10, x8, lsl #4]
	fmov	w9, s7
	umov	w8, v2.h[0]
	cnt	v2.8b, v5.8b
	tbl	v1.16b, { v1.16b }, v3.16b
	zip1	v3.8h, v4.8h, v0.8h
	zip2	v0.8h, v4.8h, v0.8h
	sub	x9, x1, x9
	add	x9, x9, #12
	and	x11, x8, #0xff
	ubfx	x8, x8, #8, #8
	str	q1, [x0, x9]
	fmov	w12, s2
	fmov	d2, x11
	ldr	q1, [x10, x11, lsl #4]
	tbl	v1.16b, { v3.16b }, v1.16b
	cnt	v2.8b, v2.8b
	fmov	d3, x8
	sub	x9, x9, x12
LBB32_12:
	add	x9, x9, #12
	cnt	v3.8b, v3.8b
	str	q1, [x0, x9]
	ldr	q1, [x10, x8, lsl #4]
	fmov	w8, s2
	tbl	v0.16b, { v0.16b }, v1.16b
	fmov	w10, s3
	sub	x8, x9, x8
	add	x9, x0, x8
	sub	x8, x8, x10
	stur	q0, [x9, #12]
	add	x0, x8, #24
	ret
Lfunc_end32:
	.cfi_endproc

	.section	__TEXT,__text,regular,pure_instructions
	.p2align	2
"_utf16_transcode::transcoding::write_chars::<#b8dc3d53e12e85b3>":
	.cfi_startproc
	stp	x29, x30, [sp, #-80]!
	.cfi_def_cfa_offset 80
	str	x25, [sp, #16]
	stp	x24, x23, [sp, #32]
	stp	x22, x21, [sp, #48]
	stp	x20, x19, [sp, #64]
	mov	x29, sp
	.cfi_def_cfa w29, 80
	.cfi_offset w19, -8
	.cfi_offset w20, -16
	.cfi_offset w21, -24
	.cfi_offset w22, -32
	.cfi_offset w23, -40
	.cfi_offset w24, -48
	.cfi_offset w25, -64
	.cfi_offset w30, -72
	.cfi_offset w29, -80
	.cfi_remember_state
	sub	x8, x1, #16
	mov	x19, x3
	mov	x20, x2
	mov	x21, x1
	mov	x22, x0
	cmp	x8, #175
	add	x8, x2, x4
	sub	x9, x3, x4
	b.hi	LBB33_8
	lsr	x10, x21, #1
	cmp	x9, x10
	csel	x10, x9, x10, lo
	cmp	x10, #8
	b.lo	LBB33_8
	lsl	x11, x10, #1
	mov	x23, xzr
	mov	x24, xzr
	mov	x12, x11
LBB33_3:
	ldr	q0, [x22, x23]
	movi	v1.8h, #127
	rev16	v0.16b, v0.16b
	cmhi	v1.8h, v0.8h, v1.8h
	umaxv	h1, v1.8h
	fmov	w13, s1
	tbnz	w13, #0, LBB33_9
	sqxtun	v0.8b, v0.8h
	sub	x12, x12, #16
	add	x23, x23, #16
	cmp	x12, #15
	str	d0, [x8, x24]
	add	x24, x24, #8
	b.hi	LBB33_3
	cmp	x11, x23
	b.ls	LBB33_9
	add	x12, x22, x11
	movi	v1.8h, #127
	ldur	q0, [x12, #-16]
	rev16	v0.16b, v0.16b
	cmhi	v1.8h, v0.8h, v1.8h
	umaxv	h1, v1.8h
	fmov	w12, s1
	tbnz	w12, #0, LBB33_9
	sqxtun	v0.8b, v0.8h
	add	x12, x8, x10
	mov	x24, x10
	mov	x23, x11
	stur	d0, [x12, #-8]
	b	LBB33_9
LBB33_8:
	mov	x24, xzr
	mov	x23, xzr
LBB33_9:
	sub	x10, x21, x23
	cmp	x10, #15
	b.ls	LBB33_32
LBB33_10:
	sub	x10, x21, #8
	cmp	x10, #183
	b.hi	LBB33_13
	sub	x10, x21, x23
	cmp	x10, #8
	b.lo	LBB33_13
	sub	x3, x9, x24
	add	x0, x22, x23
	sub	x1, x21, x23
	add	x2, x8, x24
	mov	x25, x4
	bl	"_utf16_to_utf8::vectors::write_vectors::<#8b18edd9dd9aa8df>"
	mov	x4, x25
	add	x23, x0, x23
	add	x24, x1, x24
LBB33_13:
	cmp	x23, x21
	add	x24, x24, x4
	b.lo	LBB33_17
LBB33_14:
	mov	x0, x23
	mov	x1, x24
	.cfi_def_cfa wsp, 80
	ldp	x20, x19, [sp, #64]
	ldr	x25, [sp, #16]
	ldp	x22, x21, [sp, #48]
	ldp	x24, x23, [sp, #32]
	ldp	x29, x30, [sp], #80
	.cfi_def_cfa_offset 0
	.cfi_restore w19
	.cfi_restore w20
	.cfi_restore w21
	.cfi_restore w22
	.cfi_restore w23
	.cfi_restore w24
	.cfi_restore w25
	.cfi_restore w30
	.cfi_restore w29
	ret
LBB33_15:
	.cfi_restore_state
	strb	w0, [x20, x24]
	add	x24, x24, #1
LBB33_16:
	add	x23, x8, x23
	cmp	x23, x21
	b.hs	LBB33_14
LBB33_17:
	sub	x10, x21, x23
	cmp	x10, #2
	b.lo	LBB33_14
	add	x8, x22, x23
	ldrb	w9, [x8]
	and	w11, w9, #0xf8
	cmp	w11, #216
	b.ne	LBB33_22
	cmp	x10, #4
	b.lo	LBB33_14
	mov	w10, #220
	and	w10, w9, w10
	cmp	w10, #220
	b.eq	LBB33_14
	ldrb	w10, [x8, #2]
	and	w10, w10, #0xfc
	cmp	w10, #220
	b.ne	LBB33_14
LBB33_22:
	ldrb	w10, [x8, #1]
	ubfx	w11, w9, #2, #6
	orr	w9, w9, w10, lsl #8
	cmp	w11, #54
	rev16	w0, w9
	b.ne	LBB33_24
	ldrh	w8, [x8, #2]
	rev16	w1, w8
	bl	"_utf16_units::unit::decode_surrogates"
	mov	w8, #4
	b	LBB33_25
LBB33_24:
	and	w0, w0, #0xffff
	mov	w8, #2
LBB33_25:
	cmp	w0, #16, lsl #12
	mov	w9, #3
	mov	w10, #2
	cinc	x9, x9, hs
	cmp	w0, #2048
	csel	x9, x10, x9, lo
	cmp	w0, #128
	sub	x10, x19, x24
	csinc	x9, x9, xzr, hs
	cmp	x10, x9
	b.lo	LBB33_14
	cmp	w0, #127
	b.ls	LBB33_15
	mov	w9, #-128
	cmp	w0, #2047
	bfxil	w9, w0, #0, #6
	b.hi	LBB33_29
	lsr	w10, w0, #6
	add	x11, x24, #2
	orr	w10, w10, #0xc0
	bfi	w10, w9, #8, #24
	strh	w10, [x20, x24]
	mov	x24, x11
	b	LBB33_16
LBB33_29:
	lsr	w10, w0, #16
	cbnz	w10, LBB33_31
	lsr	w10, w0, #12
	mov	w11, #128
	add	x12, x20, x24
	bfxil	w11, w0, #6, #6
	add	x24, x24, #3
	strb	w9, [x12, #2]
	orr	w10, w10, #0xe0
	strb	w10, [x12]
	strb	w11, [x12, #1]
	b	LBB33_16
LBB33_31:
	lsl	w10, w0, #10
	mov	w11, #32768
	movk	w11, #128, lsl #16
	and	w10, w10, #0x3f0000
	orr	w9, w10, w9, lsl #24
	lsr	w10, w0, #18
	bfxil	w9, w0, #4, #14
	add	w10, w10, #240
	bfxil	w9, w10, #0, #8
	add	x10, x24, #4
	orr	w9, w9, w11
	str	w9, [x20, x24]
	mov	x24, x10
	b	LBB33_16
LBB33_32:
	lsr	x11, x10, #1
	sub	x12, x9, x24
	add	x11, x11, x11, lsl #1
	cmp	x12, x11
	b.lo	LBB33_10
	cmp	x10, #2
	b.hs	LBB33_36
	b	LBB33_10
LBB33_34:
	strb	w11, [x8, x24]
	add	x24, x24, #1
LBB33_35:
	sub	x10, x10, #2
	add	x23, x23, #2
	cmp	x10, #1
	b.ls	LBB33_10
LBB33_36:
	ldrh	w11, [x22, x23]
	rev	w12, w11
	rev16	w11, w11
	lsr	w12, w12, #16
	cmp	w12, #127
	b.ls	LBB33_34
	and	w12, w11, #0xffff
	cmp	w12, #2047
	b.hi	LBB33_39
	lsr	w12, w11, #6
	orr	w12, w12, #0xc0
	and	w12, w12, #0xff
	bfi	w12, w11, #8, #6
	add	x11, x24, #2
	orr	w12, w12, #0x8000
	strh	w12, [x8, x24]
	mov	x24, x11
	b	LBB33_35
LBB33_39:
	ubfx	w12, w11, #11, #5
	cmp	w12, #27
	b.eq	LBB33_10
	mov	w12, #224
	mov	w13, #128
	mov	w14, #128
	bfxil	w12, w11, #12, #4
	bfxil	w13, w11, #6, #6
	bfxil	w14, w11, #0, #6
	add	x15, x8, x24
	add	x24, x24, #3
	strb	w12, [x15]
	strb	w13, [x15, #1]
	strb	w14, [x15, #2]
	b	LBB33_35
Lfunc_end33:
	.cfi_endproc

	.section	__TEXT,__text,regular,pure_instructions
	.p2align	2
"_utf16_to_utf8::write::write_utf8::<#8b18edd9dd9aa8df>":
	.cfi_startproc
	sub	sp, sp, #96
	.cfi_def_cfa_offset 96
	stp	x29, x30, [sp, #48]
	stp	x22, x21, [sp, #64]
	stp	x20, x19, [sp, #80]
	add	x29, sp, #48
	.cfi_def_cfa w29, 48
	.cfi_offset w19, -8
	.cfi_offset w20, -16
	.cfi_offset w21, -24
	.cfi_offset w22, -32
	.cfi_offset w30, -40
	.cfi_offset w29, -48
	.cfi_remember_state
	lsr	x8, x1, #1
	mov	x19, x2
	mov	x20, x0
	cmp	x1, #191
	add	x8, x8, x8, lsl #1
	add	x21, x8, #128
	b.ls	LBB34_3
	movi	v0.2d, #0000000000000000
	mov	x22, x1
	mov	x0, sp
	mov	x1, x20
	mov	x2, x22
	mov	x3, x19
	mov	x4, x21
	str	xzr, [sp, #32]
	stp	q0, q0, [sp]
	bl	"_utf16_to_utf8::runs::write_paired::<#8b18edd9dd9aa8df>"
	ldp	x9, x10, [sp]
	ldrb	w8, [sp, #32]
	tst	w8, #0x1
	sub	x11, x9, #2
	csel	x8, x11, x9, ne
	sub	x9, x10, #2
	sub	x1, x22, x8
	csel	x22, x9, x10, ne
	cmp	x1, #7
	b.hi	LBB34_5
	add	x0, x20, x8
	add	x2, x19, x22
	bl	"_utf16_to_utf8::chars::write_chars::<#8b18edd9dd9aa8df>"
	add	x0, x0, x22
	.cfi_def_cfa wsp, 96
	ldp	x20, x19, [sp, #80]
	ldp	x22, x21, [sp, #64]
	ldp	x29, x30, [sp, #48]
	add	sp, sp, #96
	.cfi_def_cfa_offset 0
	.cfi_restore w19
	.cfi_restore w20
	.cfi_restore w21
	.cfi_restore w22
	.cfi_restore w30
	.cfi_restore w29
	ret
LBB34_3:
	.cfi_restore_state
	.cfi_remember_state
	mov	x0, x20
	mov	x2, x19
	cmp	x1, #7
	b.ls	LBB34_6
	mov	x3, x21
	bl	"_utf16_to_utf8::vectors::write_vectors::<#8b18edd9dd9aa8df>"
	mov	x0, x1
	.cfi_def_cfa wsp, 96
	ldp	x20, x19, [sp, #80]
	ldp	x22, x21, [sp, #64]
	ldp	x29, x30, [sp, #48]
	add	sp, sp, #96
	.cfi_def_cfa_offset 0
	.cfi_restore w19
	.cfi_restore w20
	.cfi_restore w21
	.cfi_restore w22
	.cfi_restore w30
	.cfi_restore w29
	ret
LBB34_5:
	.cfi_restore_state
	.cfi_remember_state
	sub	x3, x21, x22
	add	x0, x20, x8
	add	x2, x19, x22
	bl	"_utf16_to_utf8::vectors::write_vectors::<#8b18edd9dd9aa8df>"
	add	x0, x1, x22
	.cfi_def_cfa wsp, 96
	ldp	x20, x19, [sp, #80]
	ldp	x22, x21, [sp, #64]
	ldp	x29, x30, [sp, #48]
	add	sp, sp, #96
	.cfi_def_cfa_offset 0
	.cfi_restore w19
	.cfi_restore w20
	.cfi_restore w21
	.cfi_restore w22
	.cfi_restore w30
	.cfi_restore w29
	ret
LBB34_6:
	.cfi_restore_state
	.cfi_def_cfa wsp, 96
	ldp	x20, x19, [sp, #80]
	ldp	x22, x21, [sp, #64]
	ldp	x29, x30, [sp, #48]
	add	sp, sp, #96
	.cfi_def_cfa_offset 0
	.cfi_restore w19
	.cfi_restore w20
	.cfi_restore w21
	.cfi_restore w22
	.cfi_restore w30
	.cfi_restore w29
	b	"_utf16_to_utf8::chars::write_chars::<#8b18edd9dd9aa8df>"
Lfunc_end34:
	.cfi_endproc

	.section	__TEXT,__text,regular,pure_instructions
	.p2align	2
"_utf16_to_utf8::chars::write_chars::<#8b18edd9dd9aa8df>":
	.cfi_startproc
	stp	x29, x30, [sp, #-48]!
	.cfi_def_cfa_offset 48
	stp	x22, x21, [sp, #16]
	stp	x20, x19, [sp, #32]
	mov	x29, sp
	.cfi_def_cfa w29, 48
	.cfi_offset w19, -8
	.cfi_offset w20, -16
	.cfi_offset w21, -24
	.cfi_offset w22, -32
	.cfi_offset w30, -40
	.cfi_offset w29, -48
	cbz	x1, LBB35_12
	mov	x19, x2
	mov	x20, x1
	mov	x21, x0
	mov	x22, xzr
	b	LBB35_4
LBB35_2:
	strb	w0, [x19, x22]
	add	x22, x22, #1
LBB35_3:
	subs	x20, x20, x8
	add	x21, x21, x8
	b.eq	LBB35_13
LBB35_4:
	ldrh	w8, [x21]
	ubfx	w9, w8, #2, #6
	rev16	w0, w8
	cmp	w9, #54
	b.ne	LBB35_6
	ldrh	w8, [x21, #2]
	rev16	w1, w8
	bl	"_utf16_units::unit::decode_surrogates"
	mov	w8, #4
	cmp	w0, #127
	b.ls	LBB35_2
	b	LBB35_7
LBB35_6:
	and	w0, w0, #0xffff
	mov	w8, #2
	cmp	w0, #127
	b.ls	LBB35_2
LBB35_7:
	mov	w9, #-128
	cmp	w0, #2047
	bfxil	w9, w0, #0, #6
	b.hi	LBB35_9
	lsr	w10, w0, #6
	add	x11, x22, #2
	orr	w10, w10, #0xc0
	bfi	w10, w9, #8, #24
	strh	w10, [x19, x22]
	mov	x22, x11
	b	LBB35_3
LBB35_9:
	lsr	w10, w0, #16
	cbnz	w10, LBB35_11
	lsr	w10, w0, #12
	mov	w11, #128
	add	x12, x19, x22
	bfxil	w11, w0, #6, #6
	add	x22, x22, #3
	strb	w9, [x12, #2]
	orr	w10, w10, #0xe0
	strb	w10, [x12]
	strb	w11, [x12, #1]
	b	LBB35_3
LBB35_11:
	lsl	w10, w0, #10
	mov	w11, #32768
	movk	w11, #128, lsl #16
	and	w10, w10, #0x3f0000
	orr	w9, w10, w9, lsl #24
	lsr	w10, w0, #18
	bfxil	w9, w0, #4, #14
	add	w10, w10, #240
	bfxil	w9, w10, #0, #8
	add	x10, x22, #4
	orr	w9, w9, w11
	str	w9, [x19, x22]
	mov	x22, x10
	b	LBB35_3
LBB35_12:
	mov	x22, xzr
LBB35_13:
	mov	x0, x22
	.cfi_def_cfa wsp, 48
	ldp	x20, x19, [sp, #32]
	ldp	x22, x21, [sp, #16]
	ldp	x29, x30, [sp], #48
	.cfi_def_cfa_offset 0
	.cfi_restore w19
	.cfi_restore w20
	.cfi_restore w21
	.cfi_restore w22
	.cfi_restore w30
	.cfi_restore w29
	ret
Lfunc_end35:
	.cfi_endproc

	.section	__TEXT,__literal16,16byte_literals
	.p2align	4, 0x0
lCPI36_0:
	.byte	1
	.byte	2
	.byte	4
	.byte	8
	.byte	16
	.byte	32
	.byte	64
	.byte	128
	.byte	1
	.byte	2
	.byte	4
	.byte	8
	.byte	16
	.byte	32
	.byte	64
	.byte	128
	.section	__TEXT,__text,regular,pure_instructions
	.p2align	2
"_utf16_transcode::ascii::write_lossy_ascii_blocks::<#8b18edd9dd9aa8df>":
	.cfi_startproc
	mov	x8, x1
	mov	x9, x0
	mov	x0, xzr
	mov	x1, xzr
	sub	x10, x8, #66
	sub	x11, x3, #35
LBB36_1:
	add	x12, x9, x0
	adrp	x13, lCPI36_0@PAGE
	ldp	q0, q2, [x12, #32]
	ldr	q4, [x13, lCPI36_0@PAGEOFF]
	ldp	q1, q3, [x12]
	add	x13, x2, x1
	rev16	v0.16b, v0.16b
	rev16	v2.16b, v2.16b
	rev16	v1.16b, v1.16b
	rev16	v3.16b, v3.16b
	uqxtn	v0.8b, v0.8h
	uqxtn	v1.8b, v1.8h
	uqxtn2	v0.16b, v2.8h
	uqxtn2	v1.16b, v3.8h
	cmlt	v2.16b, v0.16b, #0
	cmlt	v3.16b, v1.16b, #0
	stp	q1, q0, [x13]
	and	v2.16b, v2.16b, v4.16b
	and	v3.16b, v3.16b, v4.16b
	addp	v2.16b, v3.16b, v2.16b
	addp	v2.16b, v2.16b, v2.16b
	addp	v2.16b, v2.16b, v2.16b
	fmov	w14, s2
	cbz	w14, LBB36_9
	rbit	w14, w14
	sub	x16, x8, x0
	clz	w14, w14
	lsl	x15, x14, #1
	sub	x16, x16, x15
	cmp	x16, #2
	b.lo	LBB36_12
	add	x12, x12, x15
	ldrb	w17, [x12]
	and	w3, w17, #0xf8
	cmp	w3, #216
	b.ne	LBB36_12
	mov	w3, #220
	bics	wzr, w3, w17
	b.eq	LBB36_7
	cmp	x16, #4
	b.lo	LBB36_12
	ldrb	w12, [x12, #2]
	and	w12, w12, #0xfc
	cmp	w12, #220
	b.eq	LBB36_12
LBB36_7:
	add	x16, x13, x14
	adrp	x12, lstatic.9@PAGE
	add	x12, x12, lstatic.9@PAGEOFF
	sub	x12, x16, x12
	add	x13, x15, #2
	cmp	x12, #2
	add	x12, x14, #3
	b.hi	LBB36_10
	mov	w14, #49135
	mov	w15, #189
	strh	w14, [x16]
	strb	w15, [x16, #2]
	add	x0, x13, x0
	add	x1, x12, x1
	cmp	x0, x10
	b.ls	LBB36_11
	b	LBB36_12
LBB36_9:
	mov	w13, #64
	mov	w12, #32
	add	x0, x13, x0
	add	x1, x12, x1
	cmp	x0, x10
	b.ls	LBB36_11
	b	LBB36_12
LBB36_10:
	mov	w14, #189
	mov	w15, #49135
	strb	w14, [x16, #2]
	strh	w15, [x16]
	add	x0, x13, x0
	add	x1, x12, x1
	cmp	x0, x10
	b.hi	LBB36_12
LBB36_11:
	cmp	x1, x11
	b.ls	LBB36_1
LBB36_12:
	ret
Lfunc_end36:
	.cfi_endproc

	.section	__TEXT,__text,regular,pure_instructions
	.p2align	2
"_utf16_transcode::decode_lossy::write_copied::<#8b18edd9dd9aa8df>":
	.cfi_startproc
	stp	x29, x30, [sp, #-64]!
	.cfi_def_cfa_offset 64
	stp	x28, x23, [sp, #16]
	stp	x22, x21, [sp, #32]
	stp	x20, x19, [sp, #48]
	mov	x29, sp
	.cfi_def_cfa w29, 64
	.cfi_offset w19, -8
	.cfi_offset w20, -16
	.cfi_offset w21, -24
	.cfi_offset w22, -32
	.cfi_offset w23, -40
	.cfi_offset w28, -48
	.cfi_offset w30, -56
	.cfi_offset w29, -64
	sub	sp, sp, #1024
	mov	x9, #-6148914691236517206
	sub	x8, x3, #128
	mov	x19, x2
	movk	x9, #43691
	mov	x21, x0
	mov	x0, sp
	umulh	x8, x8, x9
	mov	w9, #1024
	mov	w2, #1024
	and	x8, x8, #0xfffffffffffffffe
	cmp	x8, x1
	csel	x8, x8, x1, lo
	mov	w1, wzr
	cmp	x8, #1024
	csel	x8, x8, x9, lo
	and	x22, x8, #0x7fe
	bl	_memset
	cbz	x22, LBB37_2
	sub	x20, x22, #2
	ldrb	w8, [x21, x20]
	and	w8, w8, #0xfc
	cmp	w8, #216
	b.eq	LBB37_3
LBB37_2:
	mov	x20, x22
LBB37_3:
	mov	x0, sp
	mov	x1, x21
	mov	x2, x20
	bl	_memcpy
	ands	x21, x20, #0xfffffffffffffffe
	b.eq	LBB37_14
	mov	x22, xzr
	b	LBB37_6
LBB37_5:
	mov	w9, #65023
	strh	w9, [x8]
	mov	w8, #2
	add	x22, x8, x22
	cmp	x22, x21
	b.hs	LBB37_14
LBB37_6:
	sub	x9, x21, x22
	mov	x8, sp
	cmp	x9, #2
	add	x8, x8, x22
	b.lo	LBB37_5
	ldrb	w10, [x8]
	and	w11, w10, #0xf8
	cmp	w11, #216
	b.ne	LBB37_12
	cmp	x9, #4
	b.lo	LBB37_5
	mov	w9, #220
	and	w9, w10, w9
	cmp	w9, #220
	b.eq	LBB37_5
	ldrb	w9, [x8, #2]
	and	w9, w9, #0xfc
	cmp	w9, #220
	b.ne	LBB37_5
	mov	w23, #4
	b	LBB37_13
LBB37_12:
	mov	w23, #2
LBB37_13:
	add	x8, x23, x22
	mov	x9, sp
	sub	x1, x21, x8
	add	x0, x9, x8
	bl	"_utf16_transcode::decode::valid_up_to::<#8b18edd9dd9aa8df>"
	add	x8, x0, x23
	add	x22, x8, x22
	cmp	x22, x21
	b.lo	LBB37_6
LBB37_14:
	mov	x0, sp
	mov	x1, x20
	mov	x2, x19
	bl	"_utf16_to_utf8::write::write_utf8::<#8b18edd9dd9aa8df>"
	mov	x1, x0
	mov	x0, x20
	add	sp, sp, #1024
	.cfi_def_cfa wsp, 64
	ldp	x20, x19, [sp, #48]
	ldp	x22, x21, [sp, #32]
	ldp	x28, x23, [sp, #16]
	ldp	x29, x30, [sp], #64
	.cfi_def_cfa_offset 0
	.cfi_restore w19
	.cfi_restore w20
	.cfi_restore w21
	.cfi_restore w22
	.cfi_restore w23
	.cfi_restore w28
	.cfi_restore w30
	.cfi_restore w29
	ret
Lfunc_end37:
	.cfi_endproc

	.section	__TEXT,__literal16,16byte_literals
	.p2align	4, 0x0
lCPI38_0:
	.byte	1
	.byte	2
	.byte	4
	.byte	8
	.byte	16
	.byte	32
	.byte	64
	.byte	128
	.byte	1
	.byte	2
	.byte	4
	.byte	8
	.byte	16
	.byte	32
	.byte	64
	.byte	128
lCPI38_1:
	.byte	0
	.byte	1
	.byte	16
	.byte	2
	.byte	3
	.byte	18
	.byte	4
	.byte	5
	.byte	20
	.byte	6
	.byte	7
	.byte	22
	.byte	8
	.byte	9
	.byte	24
	.byte	10
lCPI38_3:
	.hword	1
	.hword	2
	.hword	4
	.hword	8
	.hword	16
	.hword	32
	.hword	64
	.hword	128
	.section	__TEXT,__literal8,8byte_literals
	.p2align	3, 0x0
lCPI38_2:
	.byte	3
	.byte	10
	.byte	4
	.byte	5
	.byte	12
	.byte	6
	.byte	7
	.byte	14
lCPI38_4:
	.byte	1
	.byte	2
	.byte	4
	.byte	8
	.byte	16
	.byte	32
	.byte	64
	.byte	128
	.section	__TEXT,__text,regular,pure_instructions
	.p2align	2
"_utf16_to_utf8::vectors::write_vectors::<#418c2b53cf60437c>":
	.cfi_startproc
	lsr	x9, x1, #1
	movi	v0.2d, #0000000000000000
	mov	x8, x1
	mov	x13, xzr
	adrp	x14, lCPI38_4@PAGE
	adrp	x12, lCPI38_3@PAGE
	add	x10, x9, x9, lsl #1
	adrp	x11, lstatic.6@PAGE
	add	x11, x11, lstatic.6@PAGEOFF
	add	x10, x10, #128
	cmp	x10, x3
	csel	x15, x10, x3, lo
	cmp	x1, #16
	b.lo	LBB38_19
	cmp	x15, #32
	mov	x10, x13
	mov	x17, x13
	mov	x16, x8
	b.lo	LBB38_20
	movi	v1.2d, #0000000000000000
	mov	x17, xzr
	mov	x10, xzr
	mov	x13, xzr
	mov	x16, x8
LBB38_3:
	ldr	q0, [x0, x13]
	tbnz	w17, #0, LBB38_6
	mvni	v2.8h, #248, lsl #8
	cmhi	v2.8h, v0.8h, v2.8h
	umaxv	h2, v2.8h
	fmov	w1, s2
	tbz	w1, #0, LBB38_13
	movi	v2.8h, #248, lsl #8
	movi	v3.8h, #216, lsl #8
	and	v2.16b, v0.16b, v2.16b
	cmeq	v2.8h, v2.8h, v3.8h
	umaxv	h2, v2.8h
	fmov	w1, s2
	tbz	w1, #0, LBB38_15
LBB38_6:
	movi	v2.8b, #252
	shrn	v3.8b, v0.8h, #8
	ldr	d5, [x14, lCPI38_4@PAGEOFF]
	movi	v4.8b, #216
	and	v2.8b, v3.8b, v2.8b
	movi	v3.8b, #220
	cmeq	v4.8b, v2.8b, v4.8b
	cmeq	v2.8b, v2.8b, v3.8b
	and	v3.8b, v4.8b, v5.8b
	and	v2.8b, v2.8b, v5.8b
	addv	b3, v3.8b
	addv	b2, v2.8b
	fmov	w1, s3
	fmov	w4, s2
	ubfiz	x3, x1, #1, #7
	orr	x3, x3, x17
	cmp	x3, w4, uxtb
	b.ne	LBB38_31
	movi	v2.8h, #40, lsl #8
	mvni	v3.8h, #248, lsl #8
	ext	v1.16b, v1.16b, v0.16b, #14
	add	v2.8h, v0.8h, v2.8h
	shl	v1.8h, v1.8h, #10
	umin	v2.8h, v0.8h, v2.8h
	cmhi	v2.8h, v2.8h, v3.8h
	umaxv	h2, v2.8h
	fmov	w17, s2
	tbz	w17, #0, LBB38_9
	mvni	v2.8h, #120, lsl #8
	movi	v3.8h, #248, lsl #8
	mov	w17, #752
	movi	v4.8h, #36, lsl #8
	movi	v5.8h, #128, lsl #8
	adrp	x4, lstatic.7@PAGE
	add	x4, x4, lstatic.7@PAGEOFF
	movi	v6.8h, #216, lsl #8
	movi	v7.8h, #68, lsl #8
	uqsub	v2.8h, v2.8h, v0.8h
	movi	v16.2d, #0xff00ff00ff00ff
	mov	v17.16b, v0.16b
	and	v3.16b, v0.16b, v3.16b
	bic	v1.8h, #240, lsl #8
	add	v4.8h, v0.8h, v4.8h
	bic	v17.8h, #240, lsl #8
	add	v7.8h, v0.8h, v7.8h
	and	v2.16b, v2.16b, v5.16b
	cmeq	v3.8h, v3.8h, v6.8h
	dup	v6.8h, w17
	ushr	v4.8h, v4.8h, #2
	adrp	x17, lCPI38_0@PAGE
	uqsub	v16.8h, v16.8h, v0.8h
	add	v1.8h, v7.8h, v1.8h
	bif	v5.16b, v2.16b, v3.16b
	usra	v17.8h, v2.8h, #3
	uqsub	v4.8h, v4.8h, v6.8h
	orr	v17.8h, #32, lsl #8
	orr	v2.16b, v5.16b, v16.16b
	umax	v1.8h, v4.8h, v1.8h
	ldr	q4, [x17, lCPI38_0@PAGEOFF]
	cmlt	v2.16b, v2.16b, #0
	bif	v1.16b, v17.16b, v3.16b
	and	v2.16b, v2.16b, v4.16b
	shl	v4.8h, v0.8h, #8
	shl	v3.8h, v1.8h, #8
	addp	v2.16b, v2.16b, v2.16b
	usra	v4.8h, v0.8h, #12
	bic	v3.8h, #192, lsl #8
	addp	v2.16b, v2.16b, v2.16b
	orr	v4.8h, #224
	usra	v3.8h, v1.8h, #6
	addp	v1.16b, v2.16b, v2.16b
	orr	v3.8h, #128, lsl #8
	umov	w17, v1.h[0]
	zip1	v1.8h, v4.8h, v3.8h
	zip2	v3.8h, v4.8h, v3.8h
	and	x3, x17, #0xff
	ubfx	x17, x17, #8, #8
	ldr	q2, [x4, x3, lsl #4]
	fmov	d5, x17
	tbl	v1.16b, { v1.16b }, v2.16b
	fmov	d2, x3
	cnt	v4.8b, v5.8b
	cnt	v2.8b, v2.8b
	str	q1, [x2, x10]
	ldr	q1, [x4, x17, lsl #4]
	fmov	w3, s4
	tbl	v1.16b, { v3.16b }, v1.16b
	fmov	w17, s2
	sub	x10, x10, x17
	add	x17, x2, x10
	sub	x10, x10, x3
	add	x10, x10, #24
	stur	q1, [x17, #12]
	b	LBB38_10
LBB38_9:
	movi	v2.8h, #36, lsl #8
	movi	v3.8h, #68, lsl #8
	mov	w17, #752
	dup	v4.8h, w17
	bic	v1.8h, #240, lsl #8
	add	v2.8h, v0.8h, v2.8h
	add	v3.8h, v0.8h, v3.8h
	ushr	v2.8h, v2.8h, #2
	add	v1.8h, v3.8h, v1.8h
	uqsub	v2.8h, v2.8h, v4.8h
	movi	v4.8h, #48, lsl #8
	add	v3.8h, v0.8h, v4.8h
	umax	v1.8h, v2.8h, v1.8h
	cmlt	v2.8h, v0.8h, #0
	ldr	q4, [x12, lCPI38_3@PAGEOFF]
	bif	v1.16b, v3.16b, v2.16b
	movi	v2.8h, #128
	shl	v3.8h, v1.8h, #8
	cmhi	v2.8h, v2.8h, v0.8h
	bic	v3.8h, #192, lsl #8
	usra	v3.8h, v1.8h, #6
	and	v1.16b, v2.16b, v4.16b
	addv	h1, v1.8h
	orr	v3.8h, #128, lsl #8
	fmov	w17, s1
	mov	v1.16b, v2.16b
	saddlv	s2, v2.8h
	bsl	v1.16b, v0.16b, v3.16b
	and	x17, x17, #0xff
	ldr	q3, [x11, x17, lsl #4]
	fmov	w17, s2
	tbl	v1.16b, { v1.16b }, v3.16b
	neg	w17, w17
	sub	x17, x10, x17
	str	q1, [x2, x10]
	add	x10, x17, #16
LBB38_10:
	ubfx	w17, w1, #7, #1
LBB38_11:
	sub	x16, x16, #16
	add	x13, x13, #16
	cmp	x16, #16
	b.lo	LBB38_20
	mov	v1.16b, v0.16b
	sub	x1, x15, x10
	cmp	x1, #31
	b.hi	LBB38_3
	b	LBB38_20
LBB38_13:
	movi	v1.8h, #127
	cmhi	v1.8h, v0.8h, v1.8h
	umaxv	h1, v1.8h
	fmov	w17, s1
	tbz	w17, #0, LBB38_17
	movi	v1.8h, #128
	shl	v2.8h, v0.8h, #8
	ldr	q3, [x12, lCPI38_3@PAGEOFF]
	mov	w1, #32960
	mov	x17, xzr
	dup	v4.8h, w1
	bic	v2.8h, #192, lsl #8
	cmhi	v1.8h, v1.8h, v0.8h
	usra	v2.8h, v0.8h, #6
	and	v3.16b, v1.16b, v3.16b
	add	v2.8h, v2.8h, v4.8h
	addv	h3, v3.8h
	bit	v2.16b, v0.16b, v1.16b
	saddlv	s1, v1.8h
	fmov	w1, s3
	and	x1, x1, #0xff
	ldr	q3, [x11, x1, lsl #4]
	fmov	w1, s1
	tbl	v2.16b, { v2.16b }, v3.16b
	neg	w1, w1
	sub	x1, x10, x1
	str	q2, [x2, x10]
	add	x10, x1, #16
	b	LBB38_11
LBB38_15:
	movi	v1.8h, #8, lsl #8
	cmhi	v1.8h, v1.8h, v0.8h
	umaxv	h1, v1.8h
	fmov	w17, s1
	tbz	w17, #0, LBB38_18
	mvni	v1.8h, #120, lsl #8
	movi	v2.2d, #0xff00ff00ff00ff
	adrp	x1, lCPI38_0@PAGE
	movi	v3.8h, #128, lsl #8
	shl	v5.8h, v0.8h, #8
	adrp	x4, lstatic.7@PAGE
	add	x4, x4, lstatic.7@PAGEOFF
	movi	v4.8h, #63
	ushr	v6.8h, v0.8h, #6
	uqsub	v1.8h, v1.8h, v0.8h
	mov	x17, xzr
	uqsub	v2.8h, v2.8h, v0.8h
	and	v4.16b, v6.16b, v4.16b
	and	v1.16b, v1.16b, v3.16b
	ldr	q3, [x1, lCPI38_0@PAGEOFF]
	orr	v2.16b, v1.16b, v2.16b
	cmlt	v2.16b, v2.16b, #0
	and	v2.16b, v2.16b, v3.16b
	mov	v3.16b, v5.16b
	usra	v5.8h, v0.8h, #12
	bic	v3.8h, #192, lsl #8
	addp	v2.16b, v2.16b, v2.16b
	orr	v5.8h, #224
	orr	v3.16b, v3.16b, v4.16b
	addp	v2.16b, v2.16b, v2.16b
	movi	v4.16b, #128
	usra	v3.8h, v1.8h, #9
	addp	v1.16b, v2.16b, v2.16b
	umov	w1, v1.h[0]
	orr	v2.16b, v3.16b, v4.16b
	zip1	v1.8h, v5.8h, v2.8h
	zip2	v2.8h, v5.8h, v2.8h
	and	x3, x1, #0xff
	ubfx	x1, x1, #8, #8
	fmov	d4, x3
	ldr	q3, [x4, x3, lsl #4]
	tbl	v1.16b, { v1.16b }, v3.16b
	cnt	v3.8b, v4.8b
	fmov	d4, x1
	str	q1, [x2, x10]
	cnt	v4.8b, v4.8b
	ldr	q1, [x4, x1, lsl #4]
	fmov	w1, s3
	tbl	v1.16b, { v2.16b }, v1.16b
	fmov	w3, s4
	sub	x10, x10, x1
	add	x1, x2, x10
	stur	q1, [x1, #12]
	sub	x10, x10, x3
	add	x10, x10, #24
	b	LBB38_11
LBB38_17:
	sqxtun	v1.8b, v0.8h
	mov	x17, xzr
	str	d1, [x2, x10]
	add	x10, x10, #8
	b	LBB38_11
LBB38_18:
	movi	v1.8h, #63, lsl #8
	shl	v2.8h, v0.8h, #2
	mov	w1, #32992
	movi	v3.8h, #63
	mov	x17, xzr
	and	v1.16b, v2.16b, v1.16b
	dup	v2.8h, w1
	adrp	x1, lCPI38_1@PAGE
	usra	v1.8h, v0.8h, #12
	orr	v1.16b, v1.16b, v2.16b
	and	v2.16b, v0.16b, v3.16b
	ldr	q3, [x1, lCPI38_1@PAGEOFF]
	adrp	x1, lCPI38_2@PAGE
	ldr	d4, [x1, lCPI38_2@PAGEOFF]
	add	x1, x2, x10
	add	x10, x10, #24
	orr	v2.8h, #128
	tbl	v3.16b, { v1.16b, v2.16b }, v3.16b
	mov	v2.d[0], v1.d[1]
	tbl	v1.8b, { v2.16b }, v4.8b
	str	q3, [x1]
	str	d1, [x1, #16]
	b	LBB38_11
LBB38_19:
	mov	x10, x13
	mov	x17, x13
	mov	x16, x8
LBB38_20:
	cmp	x8, x13
	b.eq	LBB38_32
LBB38_21:
	and	x1, x16, #0xfffffffffffffff1
	cbnz	x1, LBB38_32
	sub	x15, x15, x10
	cmp	x15, #32
	b.lo	LBB38_32
	cmp	x8, #15
	b.hi	LBB38_25
	ldr	d1, [x0]
	sub	x15, x8, #8
	adrp	x16, lstatic.8@PAGE
	add	x16, x16, lstatic.8@PAGEOFF
	ldr	d2, [x0, x15]
	mov	v3.16b, v1.16b
	mov	v3.d[1], v2.d[0]
	ldr	q2, [x16, x15, lsl #4]
	tbl	v2.16b, { v3.16b }, v2.16b
	mov	v1.d[1], v2.d[0]
	b	LBB38_26
LBB38_25:
	add	x15, x0, x8
	ldur	q1, [x15, #-16]
	adrp	x15, lstatic.8@PAGE
	add	x15, x15, lstatic.8@PAGEOFF
	ldr	q2, [x15, x16, lsl #4]
	tbl	v1.16b, { v1.16b }, v2.16b
LBB38_26:
	movi	v2.8b, #252
	shrn	v3.8b, v1.8h, #8
	ldr	d5, [x14, lCPI38_4@PAGEOFF]
	movi	v4.8b, #216
	and	v2.8b, v3.8b, v2.8b
	movi	v3.8b, #220
	cmeq	v4.8b, v2.8b, v4.8b
	cmeq	v2.8b, v2.8b, v3.8b
	and	v3.8b, v4.8b, v5.8b
	and	v2.8b, v2.8b, v5.8b
	addv	b3, v3.8b
	addv	b2, v2.8b
	fmov	w14, s3
	fmov	w15, s2
	ubfiz	x14, x14, #1, #7
	orr	x14, x14, x17
	cmp	x14, w15, uxtb
	b.ne	LBB38_32
	mvni	v2.8h, #248, lsl #8
	cmhi	v2.8h, v1.8h, v2.8h
	umaxv	h2, v2.8h
	fmov	w13, s2
	tbz	w13, #0, LBB38_33
	movi	v2.8h, #248, lsl #8
	movi	v3.8h, #216, lsl #8
	and	v2.16b, v1.16b, v2.16b
	cmeq	v3.8h, v2.8h, v3.8h
	umaxv	h3, v3.8h
	fmov	w13, s3
	tbz	w13, #0, LBB38_35
	movi	v3.8h, #40, lsl #8
	mvni	v4.8h, #248, lsl #8
	ext	v0.16b, v0.16b, v1.16b, #14
	add	v3.8h, v1.8h, v3.8h
	umin	v3.8h, v1.8h, v3.8h
	cmhi	v3.8h, v3.8h, v4.8h
	umaxv	h3, v3.8h
	fmov	w13, s3
	tbz	w13, #0, LBB38_38
	mvni	v3.8h, #120, lsl #8
	movi	v4.8h, #36, lsl #8
	mov	w11, #752
	movi	v5.8h, #216, lsl #8
	movi	v6.8h, #128, lsl #8
	adrp	x13, lstatic.7@PAGE
	add	x13, x13, lstatic.7@PAGEOFF
	movi	v7.8h, #68, lsl #8
	movi	v16.2d, #0xff00ff00ff00ff
	uqsub	v3.8h, v3.8h, v1.8h
	shl	v0.8h, v0.8h, #10
	dup	v17.8h, w11
	add	v4.8h, v1.8h, v4.8h
	adrp	x11, lCPI38_0@PAGE
	cmeq	v2.8h, v2.8h, v5.8h
	mov	v5.16b, v1.16b
	bic	v0.8h, #240, lsl #8
	add	v7.8h, v1.8h, v7.8h
	uqsub	v16.8h, v16.8h, v1.8h
	and	v3.16b, v3.16b, v6.16b
	ushr	v4.8h, v4.8h, #2
	bic	v5.8h, #240, lsl #8
	add	v0.8h, v7.8h, v0.8h
	bif	v6.16b, v3.16b, v2.16b
	uqsub	v4.8h, v4.8h, v17.8h
	usra	v5.8h, v3.8h, #3
	orr	v3.16b, v6.16b, v16.16b
	orr	v5.8h, #32, lsl #8
	umax	v0.8h, v4.8h, v0.8h
	ldr	q4, [x11, lCPI38_0@PAGEOFF]
	cmlt	v3.16b, v3.16b, #0
	bif	v0.16b, v5.16b, v2.16b
	and	v2.16b, v3.16b, v4.16b
	shl	v4.8h, v1.8h, #8
	shl	v3.8h, v0.8h, #8
	addp	v2.16b, v2.16b, v2.16b
	usra	v4.8h, v1.8h, #12
	bic	v3.8h, #192, lsl #8
	addp	v2.16b, v2.16b, v2.16b
	orr	v4.8h, #224
	usra	v3.8h, v0.8h, #6
	addp	v0.16b, v2.16b, v2.16b
	orr	v3.8h, #128, lsl #8
	umov	w11, v0.h[0]
	zip1	v0.8h, v4.8h, v3.8h
	zip2	v3.8h, v4.8h, v3.8h
	and	x12, x11, #0xff
	ubfx	x11, x11, #8, #8
	ldr	q1, [x13, x12, lsl #4]
	fmov	d2, x11
	tbl	v0.16b, { v0.16b }, v1.16b
	fmov	d1, x12
	cnt	v2.8b, v2.8b
	cnt	v1.8b, v1.8b
	str	q0, [x2, x10]
	ldr	q0, [x13, x11, lsl #4]
	tbl	v0.16b, { v3.16b }, v0.16b
	fmov	w12, s2
	fmov	w11, s1
	b	LBB38_37
LBB38_31:
	mov	v0.16b, v1.16b
	cmp	x8, x13
	b.ne	LBB38_21
LBB38_32:
	sub	x8, x13, #2
	sub	x9, x10, #2
	tst	w17, #0x1
	csel	x1, x9, x10, ne
	csel	x0, x8, x13, ne
	ret
LBB38_33:
	movi	v0.8h, #127
	cmhi	v0.8h, v1.8h, v0.8h
	umaxv	h0, v0.8h
	fmov	w13, s0
	tbz	w13, #0, LBB38_39
	movi	v0.8h, #128
	shl	v2.8h, v1.8h, #8
	ldr	q3, [x12, lCPI38_3@PAGEOFF]
	mov	w12, #32960
	dup	v4.8h, w12
	bic	v2.8h, #192, lsl #8
	cmhi	v0.8h, v0.8h, v1.8h
	usra	v2.8h, v1.8h, #6
	and	v3.16b, v0.16b, v3.16b
	add	v2.8h, v2.8h, v4.8h
	addv	h3, v3.8h
	bif	v1.16b, v2.16b, v0.16b
	saddlv	s0, v0.8h
	fmov	w12, s3
	and	x12, x12, #0xff
	ldr	q2, [x11, x12, lsl #4]
	fmov	w11, s0
	tbl	v1.16b, { v1.16b }, v2.16b
	neg	w11, w11
	sub	x11, x10, x11
	str	q1, [x2, x10]
	add	x10, x11, #16
	orr	x9, x9, #0xfffffffffffffff8
	mov	x0, x8
	add	x1, x10, x9
	ret
LBB38_35:
	movi	v0.8h, #8, lsl #8
	cmhi	v0.8h, v0.8h, v1.8h
	umaxv	h0, v0.8h
	fmov	w11, s0
	tbz	w11, #0, LBB38_40
	mvni	v0.8h, #120, lsl #8
	movi	v2.2d, #0xff00ff00ff00ff
	adrp	x11, lCPI38_0@PAGE
	movi	v3.8h, #128, lsl #8
	shl	v5.8h, v1.8h, #8
	adrp	x13, lstatic.7@PAGE
	add	x13, x13, lstatic.7@PAGEOFF
	movi	v4.8h, #63
	ushr	v6.8h, v1.8h, #6
	uqsub	v0.8h, v0.8h, v1.8h
	uqsub	v2.8h, v2.8h, v1.8h
	and	v4.16b, v6.16b, v4.16b
	and	v0.16b, v0.16b, v3.16b
	ldr	q3, [x11, lCPI38_0@PAGEOFF]
	orr	v2.16b, v0.16b, v2.16b
	cmlt	v2.16b, v2.16b, #0
	and	v2.16b, v2.16b, v3.16b
	mov	v3.16b, v5.16b
	usra	v5.8h, v1.8h, #12
	bic	v3.8h, #192, lsl #8
	addp	v2.16b, v2.16b, v2.16b
	orr	v5.8h, #224
	orr	v3.16b, v3.16b, v4.16b
	addp	v2.16b, v2.16b, v2.16b
	movi	v4.16b, #128
	usra	v3.8h, v0.8h, #9
	addp	v0.16b, v2.16b, v2.16b
	orr	v1.16b, v3.16b, v4.16b
	umov	w11, v0.h[0]
	zip1	v0.8h, v5.8h, v1.8h
	zip2	v1.8h, v5.8h, v1.8h
	and	x12, x11, #0xff
	ubfx	x11, x11, #8, #8
	ldr	q2, [x13, x12, lsl #4]
	fmov	d3, x11
	tbl	v0.16b, { v0.16b }, v2.16b
	fmov	d2, x12
	cnt	v3.8b, v3.8b
	cnt	v2.8b, v2.8b
	str	q0, [x2, x10]
	ldr	q0, [x13, x11, lsl #4]
	tbl	v0.16b, { v1.16b }, v0.16b
	fmov	w12, s3
	fmov	w11, s2
LBB38_37:
	sub	x10, x10, x11
	add	x11, x2, x10
	sub	x10, x10, x12
	stur	q0, [x11, #12]
	add	x10, x10, #24
	orr	x9, x9, #0xfffffffffffffff8
	mov	x0, x8
	add	x1, x10, x9
	ret
LBB38_38:
	movi	v2.8h, #36, lsl #8
	movi	v3.8h, #68, lsl #8
	mov	w13, #752
	shl	v0.8h, v0.8h, #10
	dup	v4.8h, w13
	add	v2.8h, v1.8h, v2.8h
	bic	v0.8h, #240, lsl #8
	add	v3.8h, v1.8h, v3.8h
	ushr	v2.8h, v2.8h, #2
	add	v0.8h, v3.8h, v0.8h
	uqsub	v2.8h, v2.8h, v4.8h
	movi	v4.8h, #48, lsl #8
	add	v3.8h, v1.8h, v4.8h
	umax	v0.8h, v2.8h, v0.8h
	cmlt	v2.8h, v1.8h, #0
	ldr	q4, [x12, lCPI38_3@PAGEOFF]
	bif	v0.16b, v3.16b, v2.16b
	movi	v2.8h, #128
	shl	v3.8h, v0.8h, #8
	cmhi	v2.8h, v2.8h, v1.8h
	bic	v3.8h, #192, lsl #8
	usra	v3.8h, v0.8h, #6
	and	v0.16b, v2.16b, v4.16b
	addv	h0, v0.8h
	orr	v3.8h, #128, lsl #8
	fmov	w12, s0
	mov	v0.16b, v2.16b
	bsl	v0.16b, v1.16b, v3.16b
	saddlv	s1, v2.8h
	and	x12, x12, #0xff
	ldr	q2, [x11, x12, lsl #4]
	fmov	w11, s1
	tbl	v0.16b, { v0.16b }, v2.16b
	neg	w11, w11
	str	q0, [x2, x10]
	sub	x11, x10, x11
	add	x10, x11, #16
	orr	x9, x9, #0xfffffffffffffff8
	mov	x0, x8
	add	x1, x10, x9
	ret
LBB38_39:
	sqxtun	v0.8b, v1.8h
	str	d0, [x2, x10]
	add	x10, x10, #8
	orr	x9, x9, #0xfffffffffffffff8
	mov	x0, x8
	add	x1, x10, x9
	ret
LBB38_40:
	movi	v0.8h, #63, lsl #8
	shl	v2.8h, v1.8h, #2
	mov	w11, #32992
	movi	v3.8h, #63
	and	v0.16b, v2.16b, v0.16b
	dup	v2.8h, w11
	adrp	x11, lCPI38_1@PAGE
	usra	v0.8h, v1.8h, #12
	orr	v4.16b, v0.16b, v2.16b
	ldr	q0, [x11, lCPI38_1@PAGEOFF]
	adrp	x11, lCPI38_2@PAGE
	and	v5.16b, v1.16b, v3.16b
	ldr	d1, [x11, lCPI38_2@PAGEOFF]
	add	x11, x2, x10
	orr	v5.8h, #128
	tbl	v0.16b, { v4.16b, v5.16b }, v0.16b
	mov	v5.d[0], v4.d[1]
	tbl	v1.8b, { v5.16b }, v1.8b
	str	q0, [x11]
	str	d1, [x11, #16]
	add	x10, x10, #24
	orr	x9, x9, #0xfffffffffffffff8
	mov	x0, x8
	add	x1, x10, x9
	ret
Lfunc_end38:
	.cfi_endproc

	.section	__TEXT,__text,regular,pure_instructions
	.p2align	2
"_utf16_transcode::transcoding::transcode_many::<#556930da7d070edc>":
	.cfi_startproc
	sub	sp, sp, #464
	.cfi_def_cfa_offset 464
	stp	x29, x30, [sp, #368]
	stp	x28, x27, [sp, #384]
	stp	x26, x25, [sp, #400]
	stp	x24, x23, [sp, #416]
	stp	x22, x21, [sp, #432]
	stp	x20, x19, [sp, #448]
	add	x29, sp, #368
	.cfi_def_cfa w29, 96
	.cfi_offset w19, -8
	.cfi_offset w20, -16
	.cfi_offset w21, -24
	.cfi_offset w22, -32
	.cfi_offset w23, -40
	.cfi_offset w24, -48
	.cfi_offset w25, -56
	.cfi_offset w26, -64
	.cfi_offset w27, -72
	.cfi_offset w28, -80
	.cfi_offset w30, -88
	.cfi_offset w29, -96
	sub	x8, x2, x5
	mov	x20, x6
	mov	x25, x5
	cmp	x8, #2
	b.hs	LBB39_2
LBB39_1:
	mov	w8, wzr
	mov	w9, #2
	b	LBB39_5
LBB39_2:
	add	x9, x1, x25
	mov	x28, x4
	mov	x21, x2
	ldrb	w10, [x9, #1]
	mov	x23, x3
	mov	x24, x1
	and	w11, w10, #0xf8
	cmp	w11, #216
	b.ne	LBB39_8
	mov	w11, #220
	bics	wzr, w11, w10
	b.ne	LBB39_6
LBB39_4:
	mov	w8, #2
	mov	w9, #1
LBB39_5:
	stp	x25, x20, [x0]
	strb	w9, [x0, #16]
	strb	w8, [x0, #17]
	b	LBB39_92
LBB39_6:
	cmp	x8, #4
	b.lo	LBB39_1
	ldrb	w8, [x9, #3]
	and	w8, w8, #0xfc
	cmp	w8, #220
	b.ne	LBB39_4
LBB39_8:
	cmp	x21, x25
	str	x0, [sp, #24]
	b.ls	LBB39_88
	neg	x8, x28
	str	x8, [sp, #16]
	b	LBB39_12
LBB39_10:
	strb	w0, [x23, x20]
	add	x20, x20, #1
LBB39_11:
	add	x25, x8, x22
	cmp	x25, x21
	b.hs	LBB39_88
LBB39_12:
	sub	x26, x21, x25
	add	x27, x24, x25
	cmp	x26, #66
	b.lo	LBB39_18
	lsr	x8, x26, #1
	movi	v0.2d, #0000000000000000
	sub	x22, x28, x20
	add	x0, sp, #32
	add	x1, x24, x25
	sub	x2, x21, x25
	add	x8, x8, x8, lsl #1
	add	x3, x23, x20
	mov	x19, x28
	str	xzr, [sp, #64]
	add	x28, x23, x20
	add	x8, x8, #128
	stp	q0, q0, [sp, #32]
	cmp	x8, x22
	csel	x4, x8, x22, lo
	bl	"_utf16_to_utf8::runs::write_paired::<#418c2b53cf60437c>"
	ldp	x9, x10, [sp, #32]
	ldrb	w8, [sp, #64]
	tst	w8, #0x1
	sub	x11, x9, #2
	sub	x8, x10, #2
	csel	x11, x11, x9, ne
	csel	x8, x8, x10, ne
	sub	x9, x26, x11
	sub	x10, x22, x8
	lsr	x9, x9, #1
	cmp	x10, x9
	csel	x10, x10, x9, lo
	lsl	x12, x10, #1
	cmp	x10, #8
	b.lo	LBB39_19
	mov	x13, x12
	mov	x22, x11
	mov	x9, x8
LBB39_15:
	movi	v1.8h, #127
	ldr	q0, [x27, x22]
	cmhi	v1.8h, v0.8h, v1.8h
	umaxv	h1, v1.8h
	fmov	w14, s1
	tbnz	w14, #0, LBB39_23
	sqxtun	v0.8b, v0.8h
	sub	x13, x13, #16
	add	x22, x22, #16
	cmp	x13, #15
	str	d0, [x28, x9]
	add	x9, x9, #8
	b.hi	LBB39_15
	add	x11, x12, x11
	cmp	x11, #16
	b.hs	LBB39_20
	b	LBB39_23
LBB39_18:
	mov	x22, xzr
	subs	x1, x26, xzr
	b.ne	LBB39_24
	b	LBB39_27
LBB39_19:
	mov	x9, x8
	mov	x22, x11
	add	x11, x12, x11
	cmp	x11, #16
	b.lo	LBB39_23
LBB39_20:
	cmp	x11, x22
	b.ls	LBB39_23
	movi	v1.8h, #127
	add	x12, x27, x11
	ldur	q0, [x12, #-16]
	cmhi	v1.8h, v0.8h, v1.8h
	umaxv	h1, v1.8h
	fmov	w12, s1
	tbnz	w12, #0, LBB39_23
	sqxtun	v0.8b, v0.8h
	add	x9, x10, x8
	mov	x22, x11
	add	x8, x28, x9
	stur	d0, [x8, #-8]
LBB39_23:
	add	x20, x9, x20
	mov	x28, x19
	subs	x1, x26, x22
	b.eq	LBB39_27
LBB39_24:
	cmp	x1, #7
	add	x0, x27, x22
	b.hi	LBB39_40
LBB39_25:
	mov	x2, x23
	mov	x3, x28
	mov	x4, x20
	bl	"_utf16_transcode::transcoding::write_chars::<#556930da7d070edc>"
	mov	x27, x0
	mov	x20, x1
LBB39_26:
	add	x26, x27, x22
LBB39_27:
	add	x22, x26, x25
	subs	x10, x21, x22
	b.eq	LBB39_87
	cmp	x10, #2
	b.lo	LBB39_86
	add	x8, x24, x22
	ldrb	w9, [x8, #1]
	and	w11, w9, #0xf8
	cmp	w11, #216
	b.ne	LBB39_33
	mov	w11, #220
	bics	wzr, w11, w9
	b.eq	LBB39_89
	cmp	x10, #4
	b.lo	LBB39_86
	ldrb	w10, [x8, #3]
	and	w10, w10, #0xfc
	cmp	w10, #220
	b.ne	LBB39_89
LBB39_33:
	ldrb	w10, [x8]
	and	w11, w9, #0xfc
	cmp	w11, #216
	orr	w0, w10, w9, lsl #8
	b.ne	LBB39_35
	ldrh	w1, [x8, #2]
	bl	"_utf16_units::unit::decode_surrogates"
	mov	w8, #4
	b	LBB39_36
LBB39_35:
	mov	w8, #2
LBB39_36:
	cmp	w0, #16, lsl #12
	mov	w9, #3
	mov	w11, #2
	cinc	x10, x9, hs
	cmp	w0, #2048
	csel	x10, x11, x10, lo
	cmp	w0, #128
	sub	x11, x28, x20
	csinc	x10, x10, xzr, hs
	cmp	x11, x10
	b.lo	LBB39_90
	cmp	w0, #127
	b.ls	LBB39_10
	mov	w9, #-128
	cmp	w0, #2047
	bfxil	w9, w0, #0, #6
	b.hi	LBB39_48
	lsr	w10, w0, #6
	add	x11, x20, #2
	orr	w10, w10, #0xc0
	bfi	w10, w9, #8, #24
	strh	w10, [x23, x20]
	mov	x20, x11
	b	LBB39_11
LBB39_40:
	cmp	x1, #128
	mov	w8, #128
	sub	x26, x28, x20
	csel	x8, x1, x8, lo
	subs	x9, x26, #128
	mov	x10, #-6148914691236517206
	csel	x9, xzr, x9, lo
	movk	x10, #43691
	umulh	x9, x9, x10
	and	x9, x9, #0xfffffffffffffffe
	cmp	x8, x9
	b.ls	LBB39_50
	cmp	x26, #23
	b.ls	LBB39_25
	movi	v0.2d, #0000000000000000
	cmp	x1, #65
	str	wzr, [sp, #304]
	stp	q0, q0, [sp, #48]
	stp	q0, q0, [sp, #80]
	stp	q0, q0, [sp, #112]
	stp	q0, q0, [sp, #144]
	stp	q0, q0, [sp, #176]
	stp	q0, q0, [sp, #208]
	stp	q0, q0, [sp, #240]
	stp	q0, q0, [sp, #272]
	str	q0, [sp, #32]
	b.hi	LBB39_53
	cmp	x1, #64
	mov	w8, #64
	mov	x19, x24
	csel	x1, x1, x8, lo
	mov	x24, x23
	mov	x23, x28
	mov	x28, x0
	bl	"_utf16_transcode::decode::valid_up_to::<#418c2b53cf60437c>"
	mov	x27, x0
	add	x2, sp, #32
	mov	x0, x28
	mov	x1, x27
	bl	"_utf16_to_utf8::write::write_utf8::<#418c2b53cf60437c>"
	cmp	x0, x26
	b.ls	LBB39_63
	mov	x28, x23
	mov	x23, x24
	mov	x24, x19
LBB39_45:
	add	x8, sp, #32
	ldrsb	w8, [x8, x26]
	cmn	w8, #65
	b.gt	LBB39_47
	subs	x26, x26, #1
	b.ne	LBB39_45
LBB39_47:
	add	x0, sp, #32
	mov	x1, x26
	bl	"_utf16_units::size::utf16_len"
	mov	x27, x0
	b	LBB39_64
LBB39_48:
	lsr	w10, w0, #16
	cbnz	w10, LBB39_52
	lsr	w10, w0, #12
	mov	w11, #128
	add	x12, x23, x20
	bfxil	w11, w0, #6, #6
	add	x20, x20, #3
	strb	w9, [x12, #2]
	orr	w10, w10, #0xe0
	strb	w10, [x12]
	strb	w11, [x12, #1]
	b	LBB39_11
LBB39_50:
	mov	x1, x8
	mov	x26, x0
	bl	"_utf16_transcode::decode::valid_up_to::<#418c2b53cf60437c>"
	mov	x27, x0
	cbz	x0, LBB39_26
	add	x2, x23, x20
	mov	x0, x26
	mov	x1, x27
	bl	"_utf16_to_utf8::write::write_utf8::<#418c2b53cf60437c>"
	add	x20, x0, x20
	b	LBB39_26
LBB39_52:
	lsl	w10, w0, #10
	mov	w11, #32768
	movk	w11, #128, lsl #16
	and	w10, w10, #0x3f0000
	orr	w9, w10, w9, lsl #24
	lsr	w10, w0, #18
	bfxil	w9, w0, #4, #14
	add	w10, w10, #240
	bfxil	w9, w10, #0, #8
	add	x10, x20, #4
	orr	w9, w9, w11
	str	w9, [x23, x20]
	mov	x20, x10
	b	LBB39_11
LBB39_53:
	ldrb	w8, [x0, #1]
	and	w9, w8, #0xf8
	cmp	w9, #216
	b.ne	LBB39_56
	mov	w9, #220
	bics	wzr, w9, w8
	b.eq	LBB39_25
	ldrb	w9, [x0, #3]
	and	w9, w9, #0xfc
	cmp	w9, #220
	b.ne	LBB39_25
LBB39_56:
	and	w8, w8, #0xfc
	mov	w9, #4
	cmp	w8, #216
	mov	w8, #2
	csel	x8, x9, x8, eq
	add	x8, x0, x8
	ldrb	w9, [x8, #1]
	and	w10, w9, #0xf8
	cmp	w10, #216
	b.ne	LBB39_59
	mov	w10, #220
	bics	wzr, w10, w9
	b.eq	LBB39_25
	ldrb	w8, [x8, #3]
	and	w8, w8, #0xfc
	cmp	w8, #220
	b.ne	LBB39_25
LBB39_59:
	cmp	x26, #65
	mov	w8, #130
	mov	w9, #66
	csel	x8, x9, x8, lo
	mov	w9, #148
	add	x3, sp, #32
	cmp	x8, x1
	stur	xzr, [x29, #-16]
	csel	x27, x8, x1, lo
	mov	x1, x0
	sub	x0, x29, #48
	lsr	x8, x27, #1
	mov	x2, x27
	stp	q0, q0, [x29, #-48]
	stp	x28, x1, [sp]
	add	x8, x8, x8, lsl #1
	cmp	x8, #148
	csel	x8, x8, x9, lo
	add	x4, x8, #128
	bl	"_utf16_to_utf8::runs::write_paired::<#418c2b53cf60437c>"
	ldp	x9, x11, [x29, #-48]
	ldurb	w8, [x29, #-16]
	tst	w8, #0x1
	sub	x10, x9, #2
	sub	x8, x11, #2
	csel	x10, x10, x9, ne
	csel	x8, x8, x11, ne
	mov	w11, #276
	sub	x9, x27, x10
	sub	x11, x11, x8
	lsr	x9, x9, #1
	cmp	x11, x9
	csel	x9, x11, x9, lo
	lsl	x11, x9, #1
	cmp	x9, #8
	b.lo	LBB39_65
	ldr	x12, [sp, #8]
	mov	x13, x11
	mov	x27, x10
	mov	x28, x8
LBB39_61:
	movi	v1.8h, #127
	ldr	q0, [x12, x27]
	cmhi	v1.8h, v0.8h, v1.8h
	umaxv	h1, v1.8h
	fmov	w14, s1
	tbnz	w14, #0, LBB39_70
	sqxtun	v0.8b, v0.8h
	sub	x13, x13, #16
	add	x14, sp, #32
	cmp	x13, #15
	add	x27, x27, #16
	str	d0, [x14, x28]
	add	x28, x28, #8
	b.hi	LBB39_61
	b	LBB39_66
LBB39_63:
	mov	x26, x0
	mov	x28, x23
	mov	x23, x24
	mov	x24, x19
LBB39_64:
	add	x0, x23, x20
	add	x1, sp, #32
	mov	x2, x26
	bl	_memcpy
	add	x20, x26, x20
	b	LBB39_26
LBB39_65:
	ldr	x12, [sp, #8]
	mov	x28, x8
	mov	x27, x10
LBB39_66:
	add	x10, x11, x10
	cmp	x10, #16
	b.lo	LBB39_70
	cmp	x10, x27
	b.ls	LBB39_70
	movi	v1.8h, #127
	add	x11, x12, x10
	ldur	q0, [x11, #-16]
	cmhi	v1.8h, v0.8h, v1.8h
	umaxv	h1, v1.8h
	fmov	w11, s1
	tbnz	w11, #0, LBB39_70
	sqxtun	v0.8b, v0.8h
	add	x28, x9, x8
	add	x8, sp, #32
	add	x8, x8, x28
	mov	x27, x10
	stur	d0, [x8, #-8]
LBB39_70:
	cmp	x28, x26
	b.ls	LBB39_74
LBB39_71:
	add	x8, sp, #32
	ldrsb	w8, [x8, x26]
	cmn	w8, #65
	b.gt	LBB39_73
	subs	x26, x26, #1
	b.ne	LBB39_71
LBB39_73:
	add	x0, sp, #32
	mov	x1, x26
	bl	"_utf16_units::size::utf16_len"
	mov	x27, x0
	mov	x28, x26
LBB39_74:
	add	x0, x23, x20
	add	x1, sp, #32
	mov	x2, x28
	add	x19, x28, x20
	bl	_memcpy
	cbz	x27, LBB39_76
	ldr	x28, [sp]
	mov	x20, x19
	b	LBB39_26
LBB39_76:
	ldr	x26, [sp, #8]
	mov	w1, #64
	mov	x0, x26
	bl	"_utf16_transcode::decode::valid_up_to::<#418c2b53cf60437c>"
	mov	x27, x0
	add	x2, sp, #32
	mov	x0, x26
	mov	x1, x27
	bl	"_utf16_to_utf8::write::write_utf8::<#418c2b53cf60437c>"
	ldr	x8, [sp]
	sub	x26, x8, x19
	cmp	x0, x26
	b.ls	LBB39_82
	cbz	x26, LBB39_83
	ldr	x8, [sp, #16]
	add	x8, x8, x28
	ldr	x28, [sp]
	add	x8, x8, x20
LBB39_79:
	add	x9, sp, #32
	ldrsb	w9, [x9, x26]
	cmn	w9, #65
	b.gt	LBB39_84
	adds	x8, x8, #1
	sub	x26, x26, #1
	b.lo	LBB39_79
	mov	x26, xzr
	b	LBB39_84
LBB39_82:
	ldr	x28, [sp]
	mov	x26, x0
	b	LBB39_85
LBB39_83:
	ldr	x28, [sp]
LBB39_84:
	add	x0, sp, #32
	mov	x1, x26
	bl	"_utf16_units::size::utf16_len"
	mov	x27, x0
LBB39_85:
	add	x0, x23, x19
	add	x1, sp, #32
	mov	x2, x26
	bl	_memcpy
	add	x20, x26, x19
	b	LBB39_26
LBB39_86:
	mov	w8, wzr
	mov	w9, #2
	b	LBB39_91
LBB39_87:
	mov	x25, x21
LBB39_88:
	ldr	x8, [sp, #24]
	stp	x25, x20, [x8]
	strh	wzr, [x8, #16]
	b	LBB39_92
LBB39_89:
	mov	w8, #2
	mov	w9, #1
	b	LBB39_91
LBB39_90:
	mov	w8, wzr
LBB39_91:
	ldr	x10, [sp, #24]
	stp	x22, x20, [x10]
	strb	w9, [x10, #16]
	strb	w8, [x10, #17]
LBB39_92:
	.cfi_def_cfa wsp, 464
	ldp	x20, x19, [sp, #448]
	ldp	x22, x21, [sp, #432]
	ldp	x24, x23, [sp, #416]
	ldp	x26, x25, [sp, #400]
	ldp	x28, x27, [sp, #384]
	ldp	x29, x30, [sp, #368]
	add	sp, sp, #464
	.cfi_def_cfa_offset 0
	.cfi_restore w19
	.cfi_restore w20
	.cfi_restore w21
	.cfi_restore w22
	.cfi_restore w23
	.cfi_restore w24
	.cfi_restore w25
	.cfi_restore w26
	.cfi_restore w27
	.cfi_restore w28
	.cfi_restore w30
	.cfi_restore w29
	ret
Lfunc_end39:
	.cfi_endproc

	.section	__TEXT,__literal16,16byte_literals
	.p2align	4, 0x0
lCPI40_0:
	.byte	1
	.byte	2
	.byte	4
	.byte	8
	.byte	16
	.byte	32
	.byte	64
	.byte	128
	.byte	1
	.byte	2
	.byte	4
	.byte	8
	.byte	16
	.byte	32
	.byte	64
	.byte	128
lCPI40_1:
	.byte	0
	.byte	1
	.byte	16
	.byte	2
	.byte	3
	.byte	18
	.byte	4
	.byte	5
	.byte	20
	.byte	6
	.byte	7
	.byte	22
	.byte	8
	.byte	9
	.byte	24
	.byte	10
	.section	__TEXT,__literal8,8byte_literals
	.p2align	3, 0x0
lCPI40_2:
	.byte	3
	.byte	10
	.byte	4
	.byte	5
	.byte	12
	.byte	6
	.byte	7
	.byte	14
	.section	__TEXT,__text,regular,pure_instructions
	.p2align	2
"_utf16_to_utf8::runs::write_paired::<#418c2b53cf60437c>":
	.cfi_startproc
	sub	sp, sp, #160
	.cfi_def_cfa_offset 160
	stp	x29, x30, [sp, #64]
	stp	x28, x27, [sp, #80]
	stp	x26, x25, [sp, #96]
	stp	x24, x23, [sp, #112]
	stp	x22, x21, [sp, #128]
	stp	x20, x19, [sp, #144]
	add	x29, sp, #64
	.cfi_def_cfa w29, 96
	.cfi_offset w19, -8
	.cfi_offset w20, -16
	.cfi_offset w21, -24
	.cfi_offset w22, -32
	.cfi_offset w23, -40
	.cfi_offset w24, -48
	.cfi_offset w25, -56
	.cfi_offset w26, -64
	.cfi_offset w27, -72
	.cfi_offset w28, -80
	.cfi_offset w30, -88
	.cfi_offset w29, -96
	.cfi_remember_state
	subs	x22, x2, #64
	mov	x19, x0
	b.lo	LBB40_54
	subs	x23, x4, #128
	b.lo	LBB40_54
	movi	v0.2d, #0000000000000000
	mov	x21, x1
	mov	x20, x3
	mov	w27, wzr
	mov	x1, xzr
	mov	x25, xzr
	add	x24, x21, #64
	b	LBB40_5
LBB40_3:
	mov	v1.16b, v0.16b
	mov	v2.16b, v28.16b
	mov	x0, x20
	mov	v3.16b, v27.16b
	mov	w2, #5
	stur	q25, [x29, #-16]
	stp	q27, q26, [sp, #16]
	str	q28, [sp]
	bl	"_utf16_to_utf8::blocks::write_group"
	ldp	q0, q1, [sp]
	mov	x1, x0
	ldr	q2, [sp, #32]
	ldur	q3, [x29, #-16]
	mov	x0, x20
	mov	w2, #5
	bl	"_utf16_to_utf8::blocks::write_group"
	ldur	q0, [x29, #-16]
	mov	x1, x0
	lsr	w27, w28, #31
	add	x25, x25, #64
LBB40_4:
	cmp	x25, x22
	b.hi	LBB40_53
LBB40_5:
	adrp	x28, lCPI40_0@PAGE
	adrp	x26, lstatic.6@PAGE
	add	x26, x26, lstatic.6@PAGEOFF
	tbnz	w27, #0, LBB40_40
	cmp	x23, x1
	b.lo	LBB40_40
	add	x8, x21, x25
	ldp	q20, q22, [x8, #32]
	ldp	q23, q21, [x8]
	orr	v1.16b, v21.16b, v22.16b
	orr	v2.16b, v23.16b, v20.16b
	bic	v1.8h, #127
	bic	v2.8h, #127
	orr	v1.16b, v2.16b, v1.16b
	ext	v2.16b, v1.16b, v1.16b, #8
	orr	v1.8b, v1.8b, v2.8b
	fmov	x8, d1
	lsr	x9, x8, #32
	orr	w8, w8, w9
	orr	w8, w8, w8, lsr #16
	tst	w8, #0xffff
	b.ne	LBB40_11
LBB40_8:
	sqxtun	v1.8b, v23.8h
	sqxtun	v2.8b, v20.8h
	add	x8, x25, #64
	mov	v0.16b, v22.16b
	add	x9, x20, x1
	cmp	x8, x22
	add	x1, x1, #32
	sqxtun2	v1.16b, v21.8h
	sqxtun2	v2.16b, v22.8h
	stp	q1, q2, [x9]
	b.hi	LBB40_52
	cmp	x23, x1
	b.lo	LBB40_52
	add	x8, x24, x25
	add	x25, x25, #64
	ldp	q20, q22, [x8, #32]
	ldp	q23, q21, [x8]
	orr	v1.16b, v21.16b, v22.16b
	orr	v2.16b, v23.16b, v20.16b
	bic	v1.8h, #127
	bic	v2.8h, #127
	orr	v1.16b, v2.16b, v1.16b
	ext	v2.16b, v1.16b, v1.16b, #8
	orr	v1.8b, v1.8b, v2.8b
	fmov	x8, d1
	lsr	x9, x8, #32
	orr	w8, w8, w9
	orr	w8, w8, w8, lsr #16
	tst	w8, #0xffff
	b.eq	LBB40_8
LBB40_11:
	orr	v1.16b, v23.16b, v20.16b
	orr	v2.16b, v21.16b, v22.16b
	movi	v3.8h, #248, lsl #8
	orr	v1.16b, v1.16b, v2.16b
	and	v1.16b, v1.16b, v3.16b
	ext	v2.16b, v1.16b, v1.16b, #8
	orr	v1.8b, v1.8b, v2.8b
	fmov	x8, d1
	lsr	x9, x8, #32
	orr	w8, w8, w9
	orr	w8, w8, w8, lsr #16
	tst	w8, #0xffff
	b.eq	LBB40_22
	movi	v4.8h, #40, lsl #8
	add	v1.8h, v21.8h, v4.8h
	add	v2.8h, v20.8h, v4.8h
	add	v3.8h, v23.8h, v4.8h
	add	v4.8h, v22.8h, v4.8h
	umin	v5.8h, v21.8h, v1.8h
	umin	v7.8h, v23.8h, v3.8h
	umin	v16.8h, v20.8h, v2.8h
	umin	v6.8h, v22.8h, v4.8h
	umin	v7.8h, v7.8h, v16.8h
	umin	v6.8h, v5.8h, v6.8h
	movi	v5.8h, #8, lsl #8
	umin	v6.8h, v7.8h, v6.8h
	cmhi	v6.8h, v5.8h, v6.8h
	umaxv	h6, v6.8h
	fmov	w8, s6
	tbz	w8, #0, LBB40_23
	umin	v2.8h, v3.8h, v2.8h
	umin	v1.8h, v1.8h, v4.8h
	umin	v1.8h, v2.8h, v1.8h
	cmhi	v1.8h, v5.8h, v1.8h
	umaxv	h1, v1.8h
	fmov	w8, s1
	tbnz	w8, #0, LBB40_40
	mov	v1.16b, v0.16b
	mov	v2.16b, v23.16b
	mov	x0, x20
	mov	v3.16b, v21.16b
	mov	w2, #4
	stur	q22, [x29, #-16]
	stp	q21, q20, [sp, #16]
	str	q23, [sp]
	bl	"_utf16_to_utf8::blocks::write_group"
	ldp	q0, q1, [sp]
	mov	x1, x0
	ldr	q2, [sp, #32]
	ldur	q3, [x29, #-16]
	mov	x0, x20
	mov	w2, #4
	bl	"_utf16_to_utf8::blocks::write_group"
	add	x8, x25, #64
	mov	x1, x0
	cmp	x8, x22
	b.hi	LBB40_28
	cmp	x23, x1
	b.lo	LBB40_28
	add	x9, x21, x8
	movi	v5.8h, #248, lsl #8
	ldp	q2, q1, [x9, #32]
	ldp	q17, q3, [x9]
	orr	v0.16b, v3.16b, v1.16b
	orr	v4.16b, v17.16b, v2.16b
	orr	v0.16b, v4.16b, v0.16b
	and	v0.16b, v0.16b, v5.16b
	ext	v4.16b, v0.16b, v0.16b, #8
	orr	v0.8b, v0.8b, v4.8b
	fmov	x9, d0
	ldur	q0, [x29, #-16]
	lsr	x10, x9, #32
	orr	w9, w9, w10
	orr	w9, w9, w9, lsr #16
	tst	w9, #0xffff
	b.eq	LBB40_29
	add	x8, x25, #128
LBB40_18:
	movi	v4.8h, #40, lsl #8
	mov	x25, x8
	add	v5.8h, v3.8h, v4.8h
	add	v6.8h, v1.8h, v4.8h
	add	v7.8h, v17.8h, v4.8h
	add	v4.8h, v2.8h, v4.8h
	umin	v5.8h, v5.8h, v6.8h
	movi	v6.8h, #8, lsl #8
	umin	v4.8h, v7.8h, v4.8h
	umin	v4.8h, v4.8h, v5.8h
	cmhi	v4.8h, v6.8h, v4.8h
	umaxv	h4, v4.8h
	fmov	w9, s4
	tbnz	w9, #0, LBB40_38
	mvni	v6.8h, #120, lsl #8
	movi	v7.2d, #0xff00ff00ff00ff
	ldr	q5, [x28, lCPI40_0@PAGEOFF]
	movi	v16.8h, #128, lsl #8
	shl	v21.8h, v17.8h, #8
	adrp	x8, lstatic.7@PAGE
	add	x8, x8, lstatic.7@PAGEOFF
	ushr	v22.8h, v17.8h, #6
	ushr	v24.8h, v3.8h, #6
	uqsub	v0.8h, v6.8h, v17.8h
	uqsub	v19.8h, v6.8h, v3.8h
	cmp	x25, x22
	uqsub	v4.8h, v7.8h, v17.8h
	uqsub	v23.8h, v7.8h, v3.8h
	mov	v18.16b, v21.16b
	bic	v21.8h, #192, lsl #8
	uqsub	v26.8h, v7.8h, v2.8h
	uqsub	v7.8h, v7.8h, v1.8h
	and	v20.16b, v0.16b, v16.16b
	and	v19.16b, v19.16b, v16.16b
	usra	v18.8h, v17.8h, #12
	orr	v0.16b, v20.16b, v4.16b
	movi	v4.8h, #63
	orr	v18.8h, #224
	cmlt	v0.16b, v0.16b, #0
	and	v22.16b, v22.16b, v4.16b
	and	v0.16b, v0.16b, v5.16b
	orr	v21.16b, v21.16b, v22.16b
	orr	v22.16b, v19.16b, v23.16b
	addp	v0.16b, v0.16b, v0.16b
	cmlt	v17.16b, v22.16b, #0
	usra	v21.8h, v20.8h, #9
	addp	v23.16b, v0.16b, v0.16b
	movi	v0.16b, #128
	addp	v22.16b, v23.16b, v23.16b
	shl	v23.8h, v3.8h, #8
	orr	v20.16b, v21.16b, v0.16b
	and	v21.16b, v17.16b, v5.16b
	umov	w9, v22.h[0]
	mov	v17.16b, v23.16b
	bic	v23.8h, #192, lsl #8
	and	v22.16b, v24.16b, v4.16b
	uqsub	v24.8h, v6.8h, v2.8h
	zip1	v25.8h, v18.8h, v20.8h
	addp	v21.16b, v21.16b, v21.16b
	uqsub	v6.8h, v6.8h, v1.8h
	usra	v17.8h, v3.8h, #12
	zip2	v3.8h, v18.8h, v20.8h
	and	x10, x9, #0xff
	orr	v22.16b, v23.16b, v22.16b
	ubfx	x9, x9, #8, #8
	fmov	d27, x10
	ldr	q23, [x8, x10, lsl #4]
	addp	v21.16b, v21.16b, v21.16b
	and	v24.16b, v24.16b, v16.16b
	orr	v17.8h, #224
	tbl	v23.16b, { v25.16b }, v23.16b
	usra	v22.8h, v19.8h, #9
	cnt	v25.8b, v27.8b
	addp	v18.16b, v21.16b, v21.16b
	orr	v19.16b, v24.16b, v26.16b
	str	q23, [x20, x1]
	orr	v21.16b, v22.16b, v0.16b
	shl	v22.8h, v2.8h, #8
	ldr	q20, [x8, x9, lsl #4]
	umov	w11, v18.h[0]
	ushr	v23.8h, v2.8h, #6
	fmov	w10, s25
	cmlt	v18.16b, v19.16b, #0
	fmov	d19, x9
	tbl	v3.16b, { v3.16b }, v20.16b
	zip1	v20.8h, v17.8h, v21.8h
	zip2	v17.8h, v17.8h, v21.8h
	sub	x9, x1, x10
	cnt	v19.8b, v19.8b
	and	v18.16b, v18.16b, v5.16b
	add	x9, x9, #12
	and	x10, x11, #0xff
	str	q3, [x20, x9]
	and	v3.16b, v6.16b, v16.16b
	mov	v6.16b, v22.16b
	ldr	q25, [x8, x10, lsl #4]
	addp	v18.16b, v18.16b, v18.16b
	bic	v22.8h, #192, lsl #8
	fmov	w12, s19
	and	v19.16b, v23.16b, v4.16b
	tbl	v16.16b, { v20.16b }, v25.16b
	fmov	d20, x10
	orr	v7.16b, v3.16b, v7.16b
	addp	v18.16b, v18.16b, v18.16b
	ubfx	x10, x11, #8, #8
	usra	v6.8h, v2.8h, #12
	orr	v19.16b, v22.16b, v19.16b
	sub	x9, x9, x12
	cnt	v20.8b, v20.8b
	add	x9, x9, #12
	fmov	d21, x10
	addp	v2.16b, v18.16b, v18.16b
	str	q16, [x20, x9]
	cmlt	v7.16b, v7.16b, #0
	usra	v19.8h, v24.8h, #9
	ldr	q16, [x8, x10, lsl #4]
	shl	v18.8h, v1.8h, #8
	orr	v6.8h, #224
	fmov	w10, s20
	ushr	v20.8h, v1.8h, #6
	umov	w11, v2.h[0]
	tbl	v16.16b, { v17.16b }, v16.16b
	cnt	v17.8b, v21.8b
	orr	v19.16b, v19.16b, v0.16b
	and	v2.16b, v7.16b, v5.16b
	mov	v5.16b, v18.16b
	bic	v18.8h, #192, lsl #8
	and	v4.16b, v20.16b, v4.16b
	sub	x9, x9, x10
	add	x10, x20, x9
	zip1	v7.8h, v6.8h, v19.8h
	and	x12, x11, #0xff
	addp	v2.16b, v2.16b, v2.16b
	stur	q16, [x10, #12]
	fmov	w10, s17
	orr	v4.16b, v18.16b, v4.16b
	fmov	d17, x12
	ldr	q16, [x8, x12, lsl #4]
	usra	v5.8h, v1.8h, #12
	addp	v2.16b, v2.16b, v2.16b
	tbl	v7.16b, { v7.16b }, v16.16b
	sub	x9, x9, x10
	cnt	v16.8b, v17.8b
	usra	v4.8h, v3.8h, #9
	ubfx	x10, x11, #8, #8
	add	x9, x9, #24
	zip2	v3.8h, v6.8h, v19.8h
	orr	v5.8h, #224
	addp	v2.16b, v2.16b, v2.16b
	str	q7, [x20, x9]
	orr	v0.16b, v4.16b, v0.16b
	fmov	d4, x10
	ldr	q6, [x8, x10, lsl #4]
	fmov	w11, s16
	umov	w10, v2.h[0]
	tbl	v2.16b, { v3.16b }, v6.16b
	cnt	v3.8b, v4.8b
	zip1	v4.8h, v5.8h, v0.8h
	zip2	v0.8h, v5.8h, v0.8h
	sub	x9, x9, x11
	add	x9, x9, #12
	str	q2, [x20, x9]
	and	x11, x10, #0xff
	ubfx	x10, x10, #8, #8
	fmov	w12, s3
	ldr	q2, [x8, x11, lsl #4]
	fmov	d3, x11
	tbl	v2.16b, { v4.16b }, v2.16b
	fmov	d4, x10
	sub	x9, x9, x12
	cnt	v3.8b, v3.8b
	add	x9, x9, #12
	str	q2, [x20, x9]
	cnt	v4.8b, v4.8b
	ldr	q2, [x8, x10, lsl #4]
	fmov	w8, s3
	tbl	v0.16b, { v0.16b }, v2.16b
	fmov	w10, s4
	sub	x8, x9, x8
	add	x9, x20, x8
	stur	q0, [x9, #12]
	mov	v0.16b, v1.16b
	sub	x8, x8, x10
	add	x1, x8, #24
	b.hi	LBB40_32
	cmp	x23, x1
	b.lo	LBB40_32
	add	x8, x21, x25
	movi	v6.8h, #248, lsl #8
	ldp	q2, q1, [x8, #32]
	ldp	q17, q3, [x8]
	orr	v4.16b, v3.16b, v1.16b
	orr	v5.16b, v17.16b, v2.16b
	orr	v4.16b, v5.16b, v4.16b
	and	v4.16b, v4.16b, v6.16b
	ext	v5.16b, v4.16b, v4.16b, #8
	orr	v4.8b, v4.8b, v5.8b
	fmov	x8, d4
	lsr	x9, x8, #32
	orr	w8, w8, w9
	orr	w8, w8, w8, lsr #16
	tst	w8, #0xffff
	add	x8, x25, #64
	b.ne	LBB40_18
	b	LBB40_32
LBB40_22:
	movi	v1.8h, #128
	ldr	q4, [x28, lCPI40_0@PAGEOFF]
	shl	v5.8h, v23.8h, #8
	mov	w8, #32960
	shl	v16.8h, v21.8h, #8
	add	x25, x25, #64
	dup	v7.8h, w8
	bic	v5.8h, #192, lsl #8
	cmhi	v2.8h, v1.8h, v23.8h
	cmhi	v0.8h, v1.8h, v21.8h
	cmhi	v6.8h, v1.8h, v20.8h
	cmhi	v1.8h, v1.8h, v22.8h
	bic	v16.8h, #192, lsl #8
	usra	v5.8h, v23.8h, #6
	uzp1	v3.16b, v2.16b, v0.16b
	uzp1	v17.16b, v6.16b, v1.16b
	usra	v16.8h, v21.8h, #6
	and	v3.16b, v3.16b, v4.16b
	add	v16.8h, v16.8h, v7.8h
	addp	v3.16b, v3.16b, v3.16b
	bsl	v0.16b, v21.16b, v16.16b
	shl	v16.8h, v22.8h, #8
	addp	v3.16b, v3.16b, v3.16b
	bic	v16.8h, #192, lsl #8
	addp	v3.16b, v3.16b, v3.16b
	usra	v16.8h, v22.8h, #6
	umov	w8, v3.h[0]
	add	v3.8h, v5.8h, v7.8h
	shl	v5.8h, v20.8h, #8
	bsl	v2.16b, v23.16b, v3.16b
	and	v3.16b, v17.16b, v4.16b
	bic	v5.8h, #192, lsl #8
	and	x9, x8, #0xff
	ubfx	x8, x8, #8, #8
	ldr	q4, [x26, x9, lsl #4]
	addp	v3.16b, v3.16b, v3.16b
	usra	v5.8h, v20.8h, #6
	tbl	v2.16b, { v2.16b }, v4.16b
	fmov	d4, x9
	addp	v3.16b, v3.16b, v3.16b
	str	q2, [x20, x1]
	cnt	v2.8b, v4.8b
	ldr	q4, [x26, x8, lsl #4]
	addp	v3.16b, v3.16b, v3.16b
	tbl	v0.16b, { v0.16b }, v4.16b
	add	v4.8h, v5.8h, v7.8h
	fmov	w9, s2
	fmov	d2, x8
	umov	w8, v3.h[0]
	mov	v3.16b, v6.16b
	cnt	v2.8b, v2.8b
	sub	x9, x1, x9
	add	x10, x20, x9
	bsl	v3.16b, v20.16b, v4.16b
	str	q0, [x10, #16]
	and	x10, x8, #0xff
	ubfx	x8, x8, #8, #8
	ldr	q0, [x26, x10, lsl #4]
	fmov	d4, x10
	fmov	w11, s2
	add	v2.8h, v16.8h, v7.8h
	tbl	v0.16b, { v3.16b }, v0.16b
	cnt	v3.8b, v4.8b
	bsl	v1.16b, v22.16b, v2.16b
	fmov	d2, x8
	sub	x9, x9, x11
	add	x9, x9, #32
	str	q0, [x20, x9]
	cnt	v0.8b, v2.8b
	ldr	q2, [x26, x8, lsl #4]
	fmov	w8, s3
	tbl	v1.16b, { v1.16b }, v2.16b
	sub	x8, x9, x8
	fmov	w10, s0
	add	x9, x20, x8
	mov	v0.16b, v22.16b
	str	q1, [x9, #16]
	sub	x8, x8, x10
	add	x1, x8, #32
	cmp	x25, x22
	b.ls	LBB40_33
	b	LBB40_40
LBB40_23:
	movi	v0.8h, #63, lsl #8
	shl	v1.8h, v23.8h, #2
	mov	w8, #32992
	shl	v2.8h, v21.8h, #2
	shl	v3.8h, v20.8h, #2
	add	x25, x25, #64
	shl	v4.8h, v22.8h, #2
	movi	v5.8h, #63
	cmp	x25, x22
	dup	v6.8h, w8
	adrp	x8, lCPI40_1@PAGE
	and	v1.16b, v1.16b, v0.16b
	and	v2.16b, v2.16b, v0.16b
	and	v3.16b, v3.16b, v0.16b
	and	v0.16b, v4.16b, v0.16b
	usra	v1.8h, v23.8h, #12
	usra	v2.8h, v21.8h, #12
	usra	v3.8h, v20.8h, #12
	usra	v0.8h, v22.8h, #12
	orr	v16.16b, v1.16b, v6.16b
	orr	v18.16b, v2.16b, v6.16b
	orr	v3.16b, v3.16b, v6.16b
	orr	v6.16b, v0.16b, v6.16b
	and	v17.16b, v23.16b, v5.16b
	and	v19.16b, v21.16b, v5.16b
	and	v4.16b, v20.16b, v5.16b
	and	v7.16b, v22.16b, v5.16b
	ldr	q1, [x8, lCPI40_1@PAGEOFF]
	adrp	x8, lCPI40_2@PAGE
	orr	v17.8h, #128
	orr	v19.8h, #128
	ldr	d2, [x8, lCPI40_2@PAGEOFF]
	orr	v4.8h, #128
	orr	v7.8h, #128
	add	x8, x20, x1
	add	x1, x1, #96
	tbl	v0.16b, { v16.16b, v17.16b }, v1.16b
	mov	v17.d[0], v16.d[1]
	tbl	v5.16b, { v18.16b, v19.16b }, v1.16b
	mov	v19.d[0], v18.d[1]
	tbl	v20.16b, { v3.16b, v4.16b }, v1.16b
	mov	v4.d[0], v3.d[1]
	tbl	v21.16b, { v6.16b, v7.16b }, v1.16b
	mov	v7.d[0], v6.d[1]
	str	q0, [x8]
	tbl	v0.8b, { v17.16b }, v2.8b
	stur	q5, [x8, #24]
	tbl	v5.8b, { v19.16b }, v2.8b
	tbl	v3.8b, { v4.16b }, v2.8b
	tbl	v4.8b, { v7.16b }, v2.8b
	str	q20, [x8, #48]
	stur	q21, [x8, #72]
	str	d0, [x8, #16]
	str	d5, [x8, #40]
	str	d3, [x8, #64]
	str	d4, [x8, #88]
	b.hi	LBB40_31
	cmp	x23, x1
	b.lo	LBB40_30
LBB40_25:
	movi	v6.8h, #40, lsl #8
	add	x8, x21, x25
	ldp	q3, q0, [x8, #32]
	ldp	q5, q4, [x8]
	add	v7.8h, v3.8h, v6.8h
	add	v17.8h, v0.8h, v6.8h
	add	v16.8h, v4.8h, v6.8h
	add	v6.8h, v5.8h, v6.8h
	umin	v7.8h, v3.8h, v7.8h
	umin	v17.8h, v0.8h, v17.8h
	umin	v6.8h, v5.8h, v6.8h
	umin	v16.8h, v4.8h, v16.8h
	umin	v16.8h, v16.8h, v17.8h
	umin	v6.8h, v6.8h, v7.8h
	movi	v7.8h, #8, lsl #8
	umin	v6.8h, v6.8h, v16.8h
	cmhi	v6.8h, v7.8h, v6.8h
	umaxv	h6, v6.8h
	fmov	w8, s6
	tbnz	w8, #0, LBB40_30
	movi	v6.8h, #63, lsl #8
	shl	v7.8h, v5.8h, #2
	mov	w8, #32992
	shl	v16.8h, v4.8h, #2
	shl	v17.8h, v3.8h, #2
	add	x25, x25, #64
	shl	v18.8h, v0.8h, #2
	movi	v19.8h, #63
	cmp	x25, x22
	dup	v20.8h, w8
	add	x8, x20, x1
	add	x1, x1, #96
	and	v7.16b, v7.16b, v6.16b
	and	v16.16b, v16.16b, v6.16b
	and	v17.16b, v17.16b, v6.16b
	and	v6.16b, v18.16b, v6.16b
	usra	v7.8h, v5.8h, #12
	usra	v16.8h, v4.8h, #12
	usra	v17.8h, v3.8h, #12
	usra	v6.8h, v0.8h, #12
	orr	v21.16b, v7.16b, v20.16b
	orr	v23.16b, v16.16b, v20.16b
	orr	v16.16b, v17.16b, v20.16b
	and	v22.16b, v5.16b, v19.16b
	and	v24.16b, v4.16b, v19.16b
	orr	v4.16b, v6.16b, v20.16b
	and	v17.16b, v3.16b, v19.16b
	and	v5.16b, v0.16b, v19.16b
	orr	v22.8h, #128
	orr	v24.8h, #128
	orr	v17.8h, #128
	orr	v5.8h, #128
	tbl	v3.16b, { v21.16b, v22.16b }, v1.16b
	mov	v22.d[0], v21.d[1]
	tbl	v6.16b, { v23.16b, v24.16b }, v1.16b
	mov	v24.d[0], v23.d[1]
	tbl	v7.16b, { v16.16b, v17.16b }, v1.16b
	mov	v17.d[0], v16.d[1]
	tbl	v18.16b, { v4.16b, v5.16b }, v1.16b
	mov	v5.d[0], v4.d[1]
	str	q3, [x8]
	tbl	v3.8b, { v22.16b }, v2.8b
	stur	q6, [x8, #24]
	tbl	v6.8b, { v24.16b }, v2.8b
	str	q7, [x8, #48]
	tbl	v7.8b, { v17.16b }, v2.8b
	tbl	v4.8b, { v5.16b }, v2.8b
	stur	q18, [x8, #72]
	str	d3, [x8, #16]
	str	d6, [x8, #40]
	str	d7, [x8, #64]
	str	d4, [x8, #88]
	b.hi	LBB40_32
	mov	v22.16b, v0.16b
	cmp	x23, x1
	b.hs	LBB40_25
	b	LBB40_32
LBB40_28:
	ldur	q0, [x29, #-16]
LBB40_29:
	mov	x25, x8
	cmp	x8, x22
	b.ls	LBB40_33
	b	LBB40_40
LBB40_30:
	mov	v0.16b, v22.16b
	cmp	x25, x22
	b.ls	LBB40_33
	b	LBB40_40
LBB40_31:
	mov	v0.16b, v22.16b
LBB40_32:
	cmp	x25, x22
	b.hi	LBB40_40
LBB40_33:
	cmp	x23, x1
	b.lo	LBB40_40
	add	x8, x21, x25
	ldp	q20, q22, [x8, #32]
	ldp	q23, q21, [x8]
	orr	v1.16b, v21.16b, v22.16b
	orr	v2.16b, v23.16b, v20.16b
	bic	v1.8h, #127
	bic	v2.8h, #127
	orr	v1.16b, v2.16b, v1.16b
	ext	v2.16b, v1.16b, v1.16b, #8
	orr	v1.8b, v1.8b, v2.8b
	fmov	x8, d1
	lsr	x9, x8, #32
	orr	w8, w8, w9
	orr	w8, w8, w8, lsr #16
	tst	w8, #0xffff
	b.ne	LBB40_11
LBB40_35:
	sqxtun	v1.8b, v23.8h
	sqxtun	v2.8b, v20.8h
	add	x9, x20, x1
	mov	v0.16b, v22.16b
	add	x8, x25, #64
	cmp	x8, x22
	sqxtun2	v1.16b, v21.8h
	sqxtun2	v2.16b, v22.8h
	stp	q1, q2, [x9]
	add	x9, x1, #32
	b.hi	LBB40_39
	cmp	x23, x9
	b.lo	LBB40_39
	add	x8, x24, x25
	add	x25, x25, #64
	add	x1, x1, #32
	ldp	q20, q22, [x8, #32]
	ldp	q23, q21, [x8]
	orr	v1.16b, v21.16b, v22.16b
	orr	v2.16b, v23.16b, v20.16b
	bic	v1.8h, #127
	bic	v2.8h, #127
	orr	v1.16b, v2.16b, v1.16b
	ext	v2.16b, v1.16b, v1.16b, #8
	orr	v1.8b, v1.8b, v2.8b
	fmov	x8, d1
	lsr	x9, x8, #32
	orr	w8, w8, w9
	orr	w8, w8, w8, lsr #16
	tst	w8, #0xffff
	b.eq	LBB40_35
	b	LBB40_11
LBB40_38:
	sub	x25, x25, #64
	cmp	x25, x22
	b.ls	LBB40_33
	b	LBB40_40
LBB40_39:
	mov	x25, x8
	mov	x1, x9
LBB40_40:
	cmp	x22, x25
	b.lo	LBB40_53
LBB40_41:
	cmp	x23, x1
	b.lo	LBB40_53
	add	x8, x21, x25
	movi	v3.16b, #252
	movi	v4.16b, #216
	ldp	q28, q27, [x8]
	movi	v5.16b, #220
	ldp	q26, q25, [x8, #32]
	mov	w10, w27
	uzp2	v2.16b, v28.16b, v27.16b
	uzp2	v1.16b, v26.16b, v25.16b
	and	v2.16b, v2.16b, v3.16b
	and	v3.16b, v1.16b, v3.16b
	ldr	q1, [x28, lCPI40_0@PAGEOFF]
	cmeq	v6.16b, v3.16b, v4.16b
	cmeq	v4.16b, v2.16b, v4.16b
	cmeq	v3.16b, v3.16b, v5.16b
	cmeq	v2.16b, v2.16b, v5.16b
	and	v4.16b, v4.16b, v1.16b
	and	v5.16b, v6.16b, v1.16b
	and	v3.16b, v3.16b, v1.16b
	and	v2.16b, v2.16b, v1.16b
	addp	v4.16b, v4.16b, v5.16b
	addp	v2.16b, v2.16b, v3.16b
	addp	v3.16b, v4.16b, v4.16b
	addp	v2.16b, v2.16b, v2.16b
	addp	v3.16b, v3.16b, v3.16b
	addp	v2.16b, v2.16b, v2.16b
	fmov	w28, s3
	fmov	w9, s2
	lsl	w8, w28, #1
	bfxil	x8, x10, #0, #1
	cmp	x8, x9
	b.ne	LBB40_53
	orr	v3.16b, v28.16b, v26.16b
	orr	v4.16b, v27.16b, v25.16b
	movi	v2.8h, #248, lsl #8
	orr	v3.16b, v3.16b, v4.16b
	and	v3.16b, v3.16b, v2.16b
	ext	v4.16b, v3.16b, v3.16b, #8
	orr	v3.8b, v3.8b, v4.8b
	fmov	x8, d3
	lsr	x9, x8, #32
	orr	w8, w8, w9
	orr	w8, w8, w8, lsr #16
	tst	w8, #0xffff
	b.eq	LBB40_3
	movi	v3.8h, #40, lsl #8
	add	v4.8h, v27.8h, v3.8h
	add	v5.8h, v26.8h, v3.8h
	add	v6.8h, v28.8h, v3.8h
	add	v3.8h, v25.8h, v3.8h
	umin	v4.8h, v27.8h, v4.8h
	umin	v6.8h, v28.8h, v6.8h
	umin	v5.8h, v26.8h, v5.8h
	umin	v3.8h, v25.8h, v3.8h
	orr	v5.16b, v6.16b, v5.16b
	orr	v3.16b, v4.16b, v3.16b
	orr	v3.16b, v5.16b, v3.16b
	and	v2.16b, v3.16b, v2.16b
	ext	v3.16b, v2.16b, v2.16b, #8
	orr	v2.8b, v2.8b, v3.8b
	fmov	x8, d2
	lsr	x9, x8, #32
	orr	w8, w8, w9
	orr	w8, w8, w8, lsr #16
	tst	w8, #0xffff
	b.ne	LBB40_3
	movi	v2.8h, #36, lsl #8
	ext	v3.16b, v0.16b, v28.16b, #14
	mov	w8, #752
	movi	v0.8h, #68, lsl #8
	movi	v7.8h, #128
	add	x25, x25, #64
	ext	v17.16b, v28.16b, v27.16b, #14
	dup	v5.8h, w8
	lsr	w27, w28, #31
	cmp	x25, x22
	add	v4.8h, v28.8h, v2.8h
	shl	v16.8h, v3.8h, #10
	add	v20.8h, v27.8h, v2.8h
	add	v19.8h, v28.8h, v0.8h
	cmhi	v6.8h, v7.8h, v28.8h
	cmhi	v3.8h, v7.8h, v27.8h
	shl	v17.8h, v17.8h, #10
	add	v23.8h, v27.8h, v0.8h
	cmhi	v24.8h, v7.8h, v26.8h
	ushr	v18.8h, v4.8h, #2
	bic	v16.8h, #240, lsl #8
	ushr	v20.8h, v20.8h, #2
	uzp1	v22.16b, v6.16b, v3.16b
	movi	v4.8h, #48, lsl #8
	cmhi	v7.8h, v7.8h, v25.8h
	bic	v17.8h, #240, lsl #8
	uqsub	v18.8h, v18.8h, v5.8h
	add	v16.8h, v19.8h, v16.8h
	cmlt	v19.8h, v28.8h, #0
	add	v17.8h, v23.8h, v17.8h
	add	v21.8h, v28.8h, v4.8h
	add	v23.8h, v26.8h, v2.8h
	add	v2.8h, v25.8h, v2.8h
	umax	v16.8h, v18.8h, v16.8h
	uqsub	v18.8h, v20.8h, v5.8h
	and	v20.16b, v22.16b, v1.16b
	add	v22.8h, v27.8h, v4.8h
	ushr	v2.8h, v2.8h, #2
	bif	v16.16b, v21.16b, v19.16b
	ext	v19.16b, v27.16b, v26.16b, #14
	cmlt	v21.8h, v27.8h, #0
	umax	v17.8h, v18.8h, v17.8h
	addp	v18.16b, v20.16b, v20.16b
	uqsub	v2.8h, v2.8h, v5.8h
	addp	v18.16b, v18.16b, v18.16b
	ushr	v20.8h, v16.8h, #6
	shl	v16.8h, v16.8h, #8
	shl	v19.8h, v19.8h, #10
	bif	v17.16b, v22.16b, v21.16b
	ext	v21.16b, v26.16b, v25.16b, #14
	ushr	v22.8h, v23.8h, #2
	add	v23.8h, v26.8h, v0.8h
	add	v0.8h, v25.8h, v0.8h
	addp	v18.16b, v18.16b, v18.16b
	orr	v20.8h, #128, lsl #8
	bic	v16.8h, #192, lsl #8
	bic	v19.8h, #240, lsl #8
	uqsub	v22.8h, v22.8h, v5.8h
	shl	v21.8h, v21.8h, #10
	umov	w8, v18.h[0]
	uzp1	v18.16b, v24.16b, v7.16b
	add	v16.8h, v20.8h, v16.8h
	add	v19.8h, v23.8h, v19.8h
	ushr	v20.8h, v17.8h, #6
	shl	v17.8h, v17.8h, #8
	bic	v21.8h, #240, lsl #8
	bsl	v6.16b, v28.16b, v16.16b
	add	v16.8h, v26.8h, v4.8h
	add	v4.8h, v25.8h, v4.8h
	and	x9, x8, #0xff
	ubfx	x8, x8, #8, #8
	and	v5.16b, v18.16b, v1.16b
	ldr	q18, [x26, x9, lsl #4]
	umax	v19.8h, v22.8h, v19.8h
	cmlt	v22.8h, v26.8h, #0
	orr	v20.8h, #128, lsl #8
	bic	v17.8h, #192, lsl #8
	add	v0.8h, v0.8h, v21.8h
	addp	v5.16b, v5.16b, v5.16b
	tbl	v6.16b, { v6.16b }, v18.16b
	bit	v16.16b, v19.16b, v22.16b
	fmov	d19, x9
	add	v17.8h, v20.8h, v17.8h
	umax	v0.8h, v2.8h, v0.8h
	cmlt	v2.8h, v25.8h, #0
	str	q6, [x20, x1]
	addp	v5.16b, v5.16b, v5.16b
	cnt	v18.8b, v19.8b
	bsl	v3.16b, v27.16b, v17.16b
	ushr	v19.8h, v16.8h, #6
	shl	v16.8h, v16.8h, #8
	bif	v0.16b, v4.16b, v2.16b
	ldr	q2, [x26, x8, lsl #4]
	addp	v4.16b, v5.16b, v5.16b
	fmov	d5, x8
	fmov	w9, s18
	orr	v19.8h, #128, lsl #8
	bic	v16.8h, #192, lsl #8
	tbl	v2.16b, { v3.16b }, v2.16b
	umov	w8, v4.h[0]
	cnt	v4.8b, v5.8b
	ushr	v3.8h, v0.8h, #6
	shl	v0.8h, v0.8h, #8
	sub	x9, x1, x9
	add	v6.8h, v19.8h, v16.8h
	mov	v5.16b, v24.16b
	add	x10, x20, x9
	str	q2, [x10, #16]
	and	x10, x8, #0xff
	ubfx	x8, x8, #8, #8
	orr	v3.8h, #128, lsl #8
	bic	v0.8h, #192, lsl #8
	ldr	q2, [x26, x10, lsl #4]
	fmov	w11, s4
	fmov	d4, x10
	bsl	v5.16b, v26.16b, v6.16b
	add	v0.8h, v3.8h, v0.8h
	cnt	v3.8b, v4.8b
	fmov	d4, x8
	sub	x9, x9, x11
	tbl	v2.16b, { v5.16b }, v2.16b
	add	x9, x9, #32
	bit	v0.16b, v25.16b, v7.16b
	cnt	v4.8b, v4.8b
	str	q2, [x20, x9]
	ldr	q2, [x26, x8, lsl #4]
	fmov	w8, s3
	fmov	w10, s4
	tbl	v0.16b, { v0.16b }, v2.16b
	sub	x8, x9, x8
	add	x9, x20, x8
	sub	x8, x8, x10
	add	x1, x8, #32
	str	q0, [x9, #16]
	b.hi	LBB40_51
	cmp	x23, x1
	b.lo	LBB40_51
LBB40_47:
	movi	v5.8h, #40, lsl #8
	add	x8, x21, x25
	ldp	q4, q3, [x8]
	ldp	q2, q0, [x8, #32]
	add	v6.8h, v3.8h, v5.8h
	add	v16.8h, v4.8h, v5.8h
	add	v7.8h, v2.8h, v5.8h
	add	v5.8h, v0.8h, v5.8h
	orr	v17.16b, v3.16b, v0.16b
	orr	v18.16b, v4.16b, v2.16b
	umin	v6.8h, v3.8h, v6.8h
	umin	v16.8h, v4.8h, v16.8h
	umin	v5.8h, v0.8h, v5.8h
	umin	v7.8h, v2.8h, v7.8h
	orr	v7.16b, v16.16b, v7.16b
	orr	v5.16b, v6.16b, v5.16b
	movi	v6.8h, #248, lsl #8
	orr	v16.16b, v18.16b, v17.16b
	orr	v5.16b, v7.16b, v5.16b
	and	v7.16b, v16.16b, v6.16b
	and	v5.16b, v5.16b, v6.16b
	ext	v6.16b, v7.16b, v7.16b, #8
	ext	v16.16b, v5.16b, v5.16b, #8
	orr	v6.8b, v7.8b, v6.8b
	orr	v5.8b, v5.8b, v16.8b
	fmov	x8, d6
	fmov	x10, d5
	lsr	x9, x8, #32
	lsr	x11, x10, #32
	orr	w8, w8, w9
	orr	w8, w8, w8, lsr #16
	orr	w9, w10, w11
	orr	w9, w9, w9, lsr #16
	and	w8, w8, #0xffff
	cmp	w8, #0
	and	w8, w9, #0xffff
	ccmp	w8, #0, #0, ne
	b.ne	LBB40_51
	uzp2	v5.16b, v2.16b, v0.16b
	uzp2	v6.16b, v4.16b, v3.16b
	movi	v7.16b, #252
	movi	v16.16b, #216
	and	v6.16b, v6.16b, v7.16b
	and	v5.16b, v5.16b, v7.16b
	movi	v7.16b, #220
	cmeq	v17.16b, v5.16b, v16.16b
	cmeq	v16.16b, v6.16b, v16.16b
	cmeq	v5.16b, v5.16b, v7.16b
	cmeq	v6.16b, v6.16b, v7.16b
	and	v7.16b, v16.16b, v1.16b
	and	v16.16b, v17.16b, v1.16b
	and	v6.16b, v6.16b, v1.16b
	and	v5.16b, v5.16b, v1.16b
	addp	v7.16b, v7.16b, v16.16b
	addp	v5.16b, v6.16b, v5.16b
	addp	v6.16b, v7.16b, v7.16b
	addp	v5.16b, v5.16b, v5.16b
	addp	v6.16b, v6.16b, v6.16b
	addp	v5.16b, v5.16b, v5.16b
	fmov	w8, s6
	fmov	w10, s5
	lsl	w9, w8, #1
	bfxil	x9, x27, #0, #1
	cmp	x9, x10
	b.ne	LBB40_51
	movi	v5.8h, #36, lsl #8
	ext	v7.16b, v25.16b, v4.16b, #14
	mov	w9, #752
	movi	v6.8h, #68, lsl #8
	movi	v19.8h, #128
	lsr	w27, w8, #31
	ext	v21.16b, v4.16b, v3.16b, #14
	dup	v17.8h, w9
	add	x25, x25, #64
	cmp	x25, x22
	add	v16.8h, v4.8h, v5.8h
	shl	v20.8h, v7.8h, #10
	add	v24.8h, v3.8h, v5.8h
	add	v23.8h, v4.8h, v6.8h
	cmhi	v18.8h, v19.8h, v4.8h
	cmhi	v7.8h, v19.8h, v3.8h
	shl	v21.8h, v21.8h, #10
	add	v27.8h, v3.8h, v6.8h
	cmhi	v28.8h, v19.8h, v2.8h
	ushr	v22.8h, v16.8h, #2
	bic	v20.8h, #240, lsl #8
	movi	v16.8h, #48, lsl #8
	ushr	v24.8h, v24.8h, #2
	uzp1	v26.16b, v18.16b, v7.16b
	cmhi	v19.8h, v19.8h, v0.8h
	bic	v21.8h, #240, lsl #8
	uqsub	v22.8h, v22.8h, v17.8h
	add	v20.8h, v23.8h, v20.8h
	cmlt	v23.8h, v4.8h, #0
	add	v25.8h, v4.8h, v16.8h
	add	v21.8h, v27.8h, v21.8h
	add	v27.8h, v2.8h, v5.8h
	add	v5.8h, v0.8h, v5.8h
	umax	v20.8h, v22.8h, v20.8h
	uqsub	v22.8h, v24.8h, v17.8h
	and	v24.16b, v26.16b, v1.16b
	add	v26.8h, v3.8h, v16.8h
	ushr	v5.8h, v5.8h, #2
	bif	v20.16b, v25.16b, v23.16b
	cmlt	v25.8h, v3.8h, #0
	ext	v23.16b, v3.16b, v2.16b, #14
	umax	v21.8h, v22.8h, v21.8h
	addp	v22.16b, v24.16b, v24.16b
	uqsub	v5.8h, v5.8h, v17.8h
	ushr	v24.8h, v20.8h, #6
	shl	v20.8h, v20.8h, #8
	bif	v21.16b, v26.16b, v25.16b
	addp	v22.16b, v22.16b, v22.16b
	ext	v25.16b, v2.16b, v0.16b, #14
	shl	v23.8h, v23.8h, #10
	ushr	v26.8h, v27.8h, #2
	add	v27.8h, v2.8h, v6.8h
	add	v6.8h, v0.8h, v6.8h
	orr	v24.8h, #128, lsl #8
	bic	v20.8h, #192, lsl #8
	addp	v22.16b, v22.16b, v22.16b
	bic	v23.8h, #240, lsl #8
	shl	v25.8h, v25.8h, #10
	uqsub	v26.8h, v26.8h, v17.8h
	add	v20.8h, v24.8h, v20.8h
	ushr	v24.8h, v21.8h, #6
	shl	v21.8h, v21.8h, #8
	umov	w9, v22.h[0]
	uzp1	v22.16b, v28.16b, v19.16b
	add	v23.8h, v27.8h, v23.8h
	bic	v25.8h, #240, lsl #8
	bif	v4.16b, v20.16b, v18.16b
	add	v18.8h, v2.8h, v16.8h
	orr	v24.8h, #128, lsl #8
	umax	v20.8h, v26.8h, v23.8h
	cmlt	v23.8h, v2.8h, #0
	bic	v21.8h, #192, lsl #8
	and	x10, x9, #0xff
	ubfx	x9, x9, #8, #8
	add	v6.8h, v6.8h, v25.8h
	and	v17.16b, v22.16b, v1.16b
	ldr	q22, [x26, x10, lsl #4]
	add	v16.8h, v0.8h, v16.8h
	bit	v18.16b, v20.16b, v23.16b
	add	v20.8h, v24.8h, v21.8h
	fmov	d21, x10
	tbl	v4.16b, { v4.16b }, v22.16b
	umax	v5.8h, v5.8h, v6.8h
	cmlt	v6.8h, v0.8h, #0
	addp	v17.16b, v17.16b, v17.16b
	cnt	v21.8b, v21.8b
	bif	v3.16b, v20.16b, v7.16b
	fmov	d7, x9
	str	q4, [x20, x1]
	mov	v4.16b, v6.16b
	ushr	v22.8h, v18.8h, #6
	addp	v17.16b, v17.16b, v17.16b
	shl	v18.8h, v18.8h, #8
	bsl	v4.16b, v5.16b, v16.16b
	ldr	q5, [x26, x9, lsl #4]
	orr	v22.8h, #128, lsl #8
	addp	v6.16b, v17.16b, v17.16b
	bic	v18.8h, #192, lsl #8
	fmov	w10, s21
	tbl	v3.16b, { v3.16b }, v5.16b
	ushr	v5.8h, v4.8h, #6
	sub	x10, x1, x10
	shl	v4.8h, v4.8h, #8
	umov	w9, v6.h[0]
	add	x11, x20, x10
	add	v16.8h, v22.8h, v18.8h
	cnt	v6.8b, v7.8b
	str	q3, [x11, #16]
	orr	v5.8h, #128, lsl #8
	bic	v4.8h, #192, lsl #8
	bif	v2.16b, v16.16b, v28.16b
	and	x11, x9, #0xff
	ubfx	x9, x9, #8, #8
	add	v4.8h, v5.8h, v4.8h
	fmov	d5, x11
	ldr	q3, [x26, x11, lsl #4]
	fmov	w12, s6
	tbl	v2.16b, { v2.16b }, v3.16b
	cnt	v3.8b, v5.8b
	fmov	d5, x9
	bit	v4.16b, v0.16b, v19.16b
	sub	x10, x10, x12
	add	x10, x10, #32
	cnt	v5.8b, v5.8b
	str	q2, [x20, x10]
	ldr	q2, [x26, x9, lsl #4]
	fmov	w9, s3
	tbl	v2.16b, { v4.16b }, v2.16b
	fmov	w11, s5
	sub	x8, x10, x9
	add	x9, x20, x8
	sub	x8, x8, x11
	str	q2, [x9, #16]
	add	x1, x8, #32
	b.hi	LBB40_4
	mov	v25.16b, v0.16b
	cmp	x23, x1
	b.hs	LBB40_47
	b	LBB40_4
LBB40_51:
	mov	v0.16b, v25.16b
	b	LBB40_4
LBB40_52:
	mov	x25, x8
	cmp	x22, x8
	b.hs	LBB40_41
LBB40_53:
	and	w8, w27, #0x1
	stp	x25, x1, [x19]
	str	q0, [x19, #16]
	strb	w8, [x19, #32]
	stur	wzr, [x19, #33]
	str	wzr, [x19, #36]
	.cfi_def_cfa wsp, 160
	b	LBB40_55
LBB40_54:
	.cfi_restore_state
	movi	v0.2d, #0000000000000000
	str	xzr, [x19, #32]
	stp	q0, q0, [x19]
	.cfi_def_cfa wsp, 160
LBB40_55:
	ldp	x20, x19, [sp, #144]
	ldp	x22, x21, [sp, #128]
	ldp	x24, x23, [sp, #112]
	ldp	x26, x25, [sp, #96]
	ldp	x28, x27, [sp, #80]
	ldp	x29, x30, [sp, #64]
	add	sp, sp, #160
	.cfi_def_cfa_offset 0
	.cfi_restore w19
	.cfi_restore w20
	.cfi_restore w21
	.cfi_restore w22
	.cfi_restore w23
	.cfi_restore w24
	.cfi_restore w25
	.cfi_restore w26
	.cfi_restore w27
	.cfi_restore w28
	.cfi_restore w30
	.cfi_restore w29
	ret
Lfunc_end40:
	.cfi_endproc

	.section	__TEXT,__text,regular,pure_instructions
	.p2align	2
"_utf16_transcode::transcoding::write_chars::<#556930da7d070edc>":
	.cfi_startproc
	stp	x29, x30, [sp, #-80]!
	.cfi_def_cfa_offset 80
	str	x25, [sp, #16]
	stp	x24, x23, [sp, #32]
	stp	x22, x21, [sp, #48]
	stp	x20, x19, [sp, #64]
	mov	x29, sp
	.cfi_def_cfa w29, 80
	.cfi_offset w19, -8
	.cfi_offset w20, -16
	.cfi_offset w21, -24
	.cfi_offset w22, -32
	.cfi_offset w23, -40
	.cfi_offset w24, -48
	.cfi_offset w25, -64
	.cfi_offset w30, -72
	.cfi_offset w29, -80
	.cfi_remember_state
	sub	x8, x1, #16
	mov	x19, x3
	mov	x20, x2
	mov	x21, x1
	mov	x22, x0
	cmp	x8, #175
	add	x8, x2, x4
	sub	x9, x3, x4
	b.hi	LBB41_8
	lsr	x10, x21, #1
	cmp	x9, x10
	csel	x10, x9, x10, lo
	cmp	x10, #8
	b.lo	LBB41_8
	lsl	x11, x10, #1
	mov	x23, xzr
	mov	x24, xzr
	mov	x12, x11
LBB41_3:
	movi	v1.8h, #127
	ldr	q0, [x22, x23]
	cmhi	v1.8h, v0.8h, v1.8h
	umaxv	h1, v1.8h
	fmov	w13, s1
	tbnz	w13, #0, LBB41_9
	sqxtun	v0.8b, v0.8h
	sub	x12, x12, #16
	add	x23, x23, #16
	cmp	x12, #15
	str	d0, [x8, x24]
	add	x24, x24, #8
	b.hi	LBB41_3
	cmp	x11, x23
	b.ls	LBB41_9
	movi	v1.8h, #127
	add	x12, x22, x11
	ldur	q0, [x12, #-16]
	cmhi	v1.8h, v0.8h, v1.8h
	umaxv	h1, v1.8h
	fmov	w12, s1
	tbnz	w12, #0, LBB41_9
	sqxtun	v0.8b, v0.8h
	add	x12, x8, x10
	mov	x24, x10
	mov	x23, x11
	stur	d0, [x12, #-8]
	b	LBB41_9
LBB41_8:
	mov	x24, xzr
	mov	x23, xzr
LBB41_9:
	sub	x10, x21, x23
	cmp	x10, #15
	b.ls	LBB41_32
LBB41_10:
	sub	x10, x21, #8
	cmp	x10, #183
	b.hi	LBB41_13
	sub	x10, x21, x23
	cmp	x10, #8
	b.lo	LBB41_13
	sub	x3, x9, x24
	add	x0, x22, x23
	sub	x1, x21, x23
	add	x2, x8, x24
	mov	x25, x4
	bl	"_utf16_to_utf8::vectors::write_vectors::<#418c2b53cf60437c>"
	mov	x4, x25
	add	x23, x0, x23
	add	x24, x1, x24
LBB41_13:
	cmp	x23, x21
	add	x24, x24, x4
	b.lo	LBB41_17
LBB41_14:
	mov	x0, x23
	mov	x1, x24
	.cfi_def_cfa wsp, 80
	ldp	x20, x19, [sp, #64]
	ldr	x25, [sp, #16]
	ldp	x22, x21, [sp, #48]
	ldp	x24, x23, [sp, #32]
	ldp	x29, x30, [sp], #80
	.cfi_def_cfa_offset 0
	.cfi_restore w19
	.cfi_restore w20
	.cfi_restore w21
	.cfi_restore w22
	.cfi_restore w23
	.cfi_restore w24
	.cfi_restore w25
	.cfi_restore w30
	.cfi_restore w29
	ret
LBB41_15:
	.cfi_restore_state
	strb	w0, [x20, x24]
	add	x24, x24, #1
LBB41_16:
	add	x23, x8, x23
	cmp	x23, x21
	b.hs	LBB41_14
LBB41_17:
	sub	x10, x21, x23
	cmp	x10, #2
	b.lo	LBB41_14
	add	x8, x22, x23
	ldrb	w9, [x8, #1]
	and	w11, w9, #0xf8
	cmp	w11, #216
	b.ne	LBB41_22
	cmp	x10, #4
	b.lo	LBB41_14
	mov	w10, #220
	and	w10, w9, w10
	cmp	w10, #220
	b.eq	LBB41_14
	ldrb	w10, [x8, #3]
	and	w10, w10, #0xfc
	cmp	w10, #220
	b.ne	LBB41_14
LBB41_22:
	ldrb	w10, [x8]
	and	w11, w9, #0xfc
	cmp	w11, #216
	orr	w0, w10, w9, lsl #8
	b.ne	LBB41_24
	ldrh	w1, [x8, #2]
	bl	"_utf16_units::unit::decode_surrogates"
	mov	w8, #4
	b	LBB41_25
LBB41_24:
	mov	w8, #2
LBB41_25:
	cmp	w0, #16, lsl #12
	mov	w9, #3
	mov	w10, #2
	cinc	x9, x9, hs
	cmp	w0, #2048
	csel	x9, x10, x9, lo
	cmp	w0, #128
	sub	x10, x19, x24
	csinc	x9, x9, xzr, hs
	cmp	x10, x9
	b.lo	LBB41_14
	cmp	w0, #127
	b.ls	LBB41_15
	mov	w9, #-128
	cmp	w0, #2047
	bfxil	w9, w0, #0, #6
	b.hi	LBB41_29
	lsr	w10, w0, #6
	add	x11, x24, #2
	orr	w10, w10, #0xc0
	bfi	w10, w9, #8, #24
	strh	w10, [x20, x24]
	mov	x24, x11
	b	LBB41_16
LBB41_29:
	lsr	w10, w0, #16
	cbnz	w10, LBB41_31
	lsr	w10, w0, #12
	mov	w11, #128
	add	x12, x20, x24
	bfxil	w11, w0, #6, #6
	add	x24, x24, #3
	strb	w9, [x12, #2]
	orr	w10, w10, #0xe0
	strb	w10, [x12]
	strb	w11, [x12, #1]
	b	LBB41_16
LBB41_31:
	lsl	w10, w0, #10
	mov	w11, #32768
	movk	w11, #128, lsl #16
	and	w10, w10, #0x3f0000
	orr	w9, w10, w9, lsl #24
	lsr	w10, w0, #18
	bfxil	w9, w0, #4, #14
	add	w10, w10, #240
	bfxil	w9, w10, #0, #8
	add	x10, x24, #4
	orr	w9, w9, w11
	str	w9, [x20, x24]
	mov	x24, x10
	b	LBB41_16
LBB41_32:
	lsr	x11, x10, #1
	sub	x12, x9, x24
	add	x11, x11, x11, lsl #1
	cmp	x12, x11
	b.lo	LBB41_10
	cmp	x10, #2
	b.hs	LBB41_36
	b	LBB41_10
LBB41_34:
	strb	w11, [x8, x24]
	add	x24, x24, #1
LBB41_35:
	sub	x10, x10, #2
	add	x23, x23, #2
	cmp	x10, #1
	b.ls	LBB41_10
LBB41_36:
	add	x12, x22, x23
	ldrb	w11, [x12]
	ldrb	w13, [x12, #1]
	orr	w12, w11, w13, lsl #8
	cmp	w12, #127
	b.ls	LBB41_34
	cmp	w13, #7
	b.hi	LBB41_39
	lsr	w12, w12, #6
	orr	w12, w12, #0xc0
	and	w12, w12, #0xff
	bfi	w12, w11, #8, #6
	add	x11, x24, #2
	orr	w12, w12, #0x8000
	strh	w12, [x8, x24]
	mov	x24, x11
	b	LBB41_35
LBB41_39:
	and	w14, w13, #0xf8
	cmp	w14, #216
	b.eq	LBB41_10
	lsr	w13, w13, #4
	mov	w14, #128
	mov	w15, #128
	bfxil	w14, w12, #6, #6
	bfxil	w15, w11, #0, #6
	add	x16, x8, x24
	orr	w12, w13, #0xe0
	add	x24, x24, #3
	strb	w12, [x16]
	strb	w14, [x16, #1]
	strb	w15, [x16, #2]
	b	LBB41_35
Lfunc_end41:
	.cfi_endproc

	.section	__TEXT,__text,regular,pure_instructions
	.p2align	2
"_utf16_to_utf8::write::write_utf8::<#418c2b53cf60437c>":
	.cfi_startproc
	sub	sp, sp, #96
	.cfi_def_cfa_offset 96
	stp	x29, x30, [sp, #48]
	stp	x22, x21, [sp, #64]
	stp	x20, x19, [sp, #80]
	add	x29, sp, #48
	.cfi_def_cfa w29, 48
	.cfi_offset w19, -8
	.cfi_offset w20, -16
	.cfi_offset w21, -24
	.cfi_offset w22, -32
	.cfi_offset w30, -40
	.cfi_offset w29, -48
	.cfi_remember_state
	lsr	x8, x1, #1
	mov	x19, x2
	mov	x20, x0
	cmp	x1, #191
	add	x8, x8, x8, lsl #1
	add	x21, x8, #128
	b.ls	LBB42_3
	movi	v0.2d, #0000000000000000
	mov	x22, x1
	mov	x0, sp
	mov	x1, x20
	mov	x2, x22
	mov	x3, x19
	mov	x4, x21
	str	xzr, [sp, #32]
	stp	q0, q0, [sp]
	bl	"_utf16_to_utf8::runs::write_paired::<#418c2b53cf60437c>"
	ldp	x9, x10, [sp]
	ldrb	w8, [sp, #32]
	tst	w8, #0x1
	sub	x11, x9, #2
	csel	x8, x11, x9, ne
	sub	x9, x10, #2
	sub	x1, x22, x8
	csel	x22, x9, x10, ne
	cmp	x1, #7
	b.hi	LBB42_5
	add	x0, x20, x8
	add	x2, x19, x22
	bl	"_utf16_to_utf8::chars::write_chars::<#418c2b53cf60437c>"
	add	x0, x0, x22
	.cfi_def_cfa wsp, 96
	ldp	x20, x19, [sp, #80]
	ldp	x22, x21, [sp, #64]
	ldp	x29, x30, [sp, #48]
	add	sp, sp, #96
	.cfi_def_cfa_offset 0
	.cfi_restore w19
	.cfi_restore w20
	.cfi_restore w21
	.cfi_restore w22
	.cfi_restore w30
	.cfi_restore w29
	ret
LBB42_3:
	.cfi_restore_state
	.cfi_remember_state
	mov	x0, x20
	mov	x2, x19
	cmp	x1, #7
	b.ls	LBB42_6
	mov	x3, x21
	bl	"_utf16_to_utf8::vectors::write_vectors::<#418c2b53cf60437c>"
	mov	x0, x1
	.cfi_def_cfa wsp, 96
	ldp	x20, x19, [sp, #80]
	ldp	x22, x21, [sp, #64]
	ldp	x29, x30, [sp, #48]
	add	sp, sp, #96
	.cfi_def_cfa_offset 0
	.cfi_restore w19
	.cfi_restore w20
	.cfi_restore w21
	.cfi_restore w22
	.cfi_restore w30
	.cfi_restore w29
	ret
LBB42_5:
	.cfi_restore_state
	.cfi_remember_state
	sub	x3, x21, x22
	add	x0, x20, x8
	add	x2, x19, x22
	bl	"_utf16_to_utf8::vectors::write_vectors::<#418c2b53cf60437c>"
	add	x0, x1, x22
	.cfi_def_cfa wsp, 96
	ldp	x20, x19, [sp, #80]
	ldp	x22, x21, [sp, #64]
	ldp	x29, x30, [sp, #48]
	add	sp, sp, #96
	.cfi_def_cfa_offset 0
	.cfi_restore w19
	.cfi_restore w20
	.cfi_restore w21
	.cfi_restore w22
	.cfi_restore w30
	.cfi_restore w29
	ret
LBB42_6:
	.cfi_restore_state
	.cfi_def_cfa wsp, 96
	ldp	x20, x19, [sp, #80]
	ldp	x22, x21, [sp, #64]
	ldp	x29, x30, [sp, #48]
	add	sp, sp, #96
	.cfi_def_cfa_offset 0
	.cfi_restore w19
	.cfi_restore w20
	.cfi_restore w21
	.cfi_restore w22
	.cfi_restore w30
	.cfi_restore w29
	b	"_utf16_to_utf8::chars::write_chars::<#418c2b53cf60437c>"
Lfunc_end42:
	.cfi_endproc

	.section	__TEXT,__text,regular,pure_instructions
	.p2align	2
"_utf16_to_utf8::chars::write_chars::<#418c2b53cf60437c>":
	.cfi_startproc
	stp	x29, x30, [sp, #-48]!
	.cfi_def_cfa_offset 48
	stp	x22, x21, [sp, #16]
	stp	x20, x19, [sp, #32]
	mov	x29, sp
	.cfi_def_cfa w29, 48
	.cfi_offset w19, -8
	.cfi_offset w20, -16
	.cfi_offset w21, -24
	.cfi_offset w22, -32
	.cfi_offset w30, -40
	.cfi_offset w29, -48
	cbz	x1, LBB43_12
	mov	x19, x2
	mov	x20, x1
	mov	x21, x0
	mov	x22, xzr
	b	LBB43_4
LBB43_2:
	strb	w0, [x19, x22]
	add	x22, x22, #1
LBB43_3:
	subs	x20, x20, x8
	add	x21, x21, x8
	b.eq	LBB43_13
LBB43_4:
	ldrb	w8, [x21, #1]
	ldrb	w9, [x21]
	and	w10, w8, #0xfc
	orr	w0, w9, w8, lsl #8
	cmp	w10, #216
	b.ne	LBB43_6
	ldrh	w1, [x21, #2]
	bl	"_utf16_units::unit::decode_surrogates"
	mov	w8, #4
	cmp	w0, #127
	b.ls	LBB43_2
	b	LBB43_7
LBB43_6:
	mov	w8, #2
	cmp	w0, #127
	b.ls	LBB43_2
LBB43_7:
	mov	w9, #-128
	cmp	w0, #2047
	bfxil	w9, w0, #0, #6
	b.hi	LBB43_9
	lsr	w10, w0, #6
	add	x11, x22, #2
	orr	w10, w10, #0xc0
	bfi	w10, w9, #8, #24
	strh	w10, [x19, x22]
	mov	x22, x11
	b	LBB43_3
LBB43_9:
	lsr	w10, w0, #16
	cbnz	w10, LBB43_11
	lsr	w10, w0, #12
	mov	w11, #128
	add	x12, x19, x22
	bfxil	w11, w0, #6, #6
	add	x22, x22, #3
	strb	w9, [x12, #2]
	orr	w10, w10, #0xe0
	strb	w10, [x12]
	strb	w11, [x12, #1]
	b	LBB43_3
LBB43_11:
	lsl	w10, w0, #10
	mov	w11, #32768
	movk	w11, #128, lsl #16
	and	w10, w10, #0x3f0000
	orr	w9, w10, w9, lsl #24
	lsr	w10, w0, #18
	bfxil	w9, w0, #4, #14
	add	w10, w10, #240
	bfxil	w9, w10, #0, #8
	add	x10, x22, #4
	orr	w9, w9, w11
	str	w9, [x19, x22]
	mov	x22, x10
	b	LBB43_3
LBB43_12:
	mov	x22, xzr
LBB43_13:
	mov	x0, x22
	.cfi_def_cfa wsp, 48
	ldp	x20, x19, [sp, #32]
	ldp	x22, x21, [sp, #16]
	ldp	x29, x30, [sp], #48
	.cfi_def_cfa_offset 0
	.cfi_restore w19
	.cfi_restore w20
	.cfi_restore w21
	.cfi_restore w22
	.cfi_restore w30
	.cfi_restore w29
	ret
Lfunc_end43:
	.cfi_endproc

	.section	__TEXT,__literal16,16byte_literals
	.p2align	4, 0x0
lCPI44_0:
	.byte	1
	.byte	2
	.byte	4
	.byte	8
	.byte	16
	.byte	32
	.byte	64
	.byte	128
	.byte	1
	.byte	2
	.byte	4
	.byte	8
	.byte	16
	.byte	32
	.byte	64
	.byte	128
	.section	__TEXT,__text,regular,pure_instructions
	.p2align	2
"_utf16_transcode::ascii::write_lossy_ascii_blocks::<#418c2b53cf60437c>":
	.cfi_startproc
	mov	x8, x1
	mov	x9, x0
	mov	x0, xzr
	mov	x1, xzr
	sub	x10, x8, #66
	sub	x11, x3, #35
LBB44_1:
	add	x12, x9, x0
	adrp	x13, lCPI44_0@PAGE
	ldp	q0, q2, [x12, #32]
	ldr	q4, [x13, lCPI44_0@PAGEOFF]
	ldp	q1, q3, [x12]
	add	x13, x2, x1
	uqxtn	v0.8b, v0.8h
	uqxtn	v1.8b, v1.8h
	uqxtn2	v0.16b, v2.8h
	uqxtn2	v1.16b, v3.8h
	cmlt	v2.16b, v0.16b, #0
	cmlt	v3.16b, v1.16b, #0
	stp	q1, q0, [x13]
	and	v2.16b, v2.16b, v4.16b
	and	v3.16b, v3.16b, v4.16b
	addp	v2.16b, v3.16b, v2.16b
	addp	v2.16b, v2.16b, v2.16b
	addp	v2.16b, v2.16b, v2.16b
	fmov	w14, s2
	cbz	w14, LBB44_9
	rbit	w14, w14
	sub	x16, x8, x0
	clz	w14, w14
	lsl	x15, x14, #1
	sub	x16, x16, x15
	cmp	x16, #2
	b.lo	LBB44_12
	add	x12, x12, x15
	ldrb	w17, [x12, #1]
	and	w3, w17, #0xf8
	cmp	w3, #216
	b.ne	LBB44_12
	mov	w3, #220
	bics	wzr, w3, w17
	b.eq	LBB44_7
	cmp	x16, #4
	b.lo	LBB44_12
	ldrb	w12, [x12, #3]
	and	w12, w12, #0xfc
	cmp	w12, #220
	b.eq	LBB44_12
LBB44_7:
	add	x16, x13, x14
	adrp	x12, lstatic.9@PAGE
	add	x12, x12, lstatic.9@PAGEOFF
	sub	x12, x16, x12
	add	x13, x15, #2
	cmp	x12, #2
	add	x12, x14, #3
	b.hi	LBB44_10
	mov	w14, #49135
	mov	w15, #189
	strh	w14, [x16]
	strb	w15, [x16, #2]
	add	x0, x13, x0
	add	x1, x12, x1
	cmp	x0, x10
	b.ls	LBB44_11
	b	LBB44_12
LBB44_9:
	mov	w13, #64
	mov	w12, #32
	add	x0, x13, x0
	add	x1, x12, x1
	cmp	x0, x10
	b.ls	LBB44_11
	b	LBB44_12
LBB44_10:
	mov	w14, #189
	mov	w15, #49135
	strb	w14, [x16, #2]
	strh	w15, [x16]
	add	x0, x13, x0
	add	x1, x12, x1
	cmp	x0, x10
	b.hi	LBB44_12
LBB44_11:
	cmp	x1, x11
	b.ls	LBB44_1
LBB44_12:
	ret
Lfunc_end44:
	.cfi_endproc

	.section	__TEXT,__text,regular,pure_instructions
	.p2align	2
"_utf16_transcode::decode_lossy::write_copied::<#418c2b53cf60437c>":
	.cfi_startproc
	stp	x29, x30, [sp, #-64]!
	.cfi_def_cfa_offset 64
	stp	x28, x23, [sp, #16]
	stp	x22, x21, [sp, #32]
	stp	x20, x19, [sp, #48]
	mov	x29, sp
	.cfi_def_cfa w29, 64
	.cfi_offset w19, -8
	.cfi_offset w20, -16
	.cfi_offset w21, -24
	.cfi_offset w22, -32
	.cfi_offset w23, -40
	.cfi_offset w28, -48
	.cfi_offset w30, -56
	.cfi_offset w29, -64
	sub	sp, sp, #1024
	mov	x9, #-6148914691236517206
	sub	x8, x3, #128
	mov	x19, x2
	movk	x9, #43691
	mov	x21, x0
	mov	x0, sp
	umulh	x8, x8, x9
	mov	w9, #1024
	mov	w2, #1024
	and	x8, x8, #0xfffffffffffffffe
	cmp	x8, x1
	csel	x8, x8, x1, lo
	mov	w1, wzr
	cmp	x8, #1024
	csel	x8, x8, x9, lo
	and	x20, x8, #0x7fe
	bl	_memset
	cbz	x20, LBB45_3
	add	x8, x21, x20
	ldurb	w8, [x8, #-1]
	and	w8, w8, #0xfc
	cmp	w8, #216
	b.ne	LBB45_3
	sub	x20, x20, #2
LBB45_3:
	mov	x0, sp
	mov	x1, x21
	mov	x2, x20
	bl	_memcpy
	ands	x21, x20, #0xfffffffffffffffe
	b.eq	LBB45_14
	mov	x22, xzr
	b	LBB45_6
LBB45_5:
	mov	w9, #65533
	strh	w9, [x8]
	mov	w8, #2
	add	x22, x8, x22
	cmp	x22, x21
	b.hs	LBB45_14
LBB45_6:
	sub	x9, x21, x22
	mov	x8, sp
	cmp	x9, #2
	add	x8, x8, x22
	b.lo	LBB45_5
	ldrb	w10, [x8, #1]
	and	w11, w10, #0xf8
	cmp	w11, #216
	b.ne	LBB45_12
	cmp	x9, #4
	b.lo	LBB45_5
	mov	w9, #220
	and	w9, w10, w9
	cmp	w9, #220
	b.eq	LBB45_5
	ldrb	w9, [x8, #3]
	and	w9, w9, #0xfc
	cmp	w9, #220
	b.ne	LBB45_5
	mov	w23, #4
	b	LBB45_13
LBB45_12:
	mov	w23, #2
LBB45_13:
	add	x8, x23, x22
	mov	x9, sp
	sub	x1, x21, x8
	add	x0, x9, x8
	bl	"_utf16_transcode::decode::valid_up_to::<#418c2b53cf60437c>"
	add	x8, x0, x23
	add	x22, x8, x22
	cmp	x22, x21
	b.lo	LBB45_6
LBB45_14:
	mov	x0, sp
	mov	x1, x20
	mov	x2, x19
	bl	"_utf16_to_utf8::write::write_utf8::<#418c2b53cf60437c>"
	mov	x1, x0
	mov	x0, x20
	add	sp, sp, #1024
	.cfi_def_cfa wsp, 64
	ldp	x20, x19, [sp, #48]
	ldp	x22, x21, [sp, #32]
	ldp	x28, x23, [sp, #16]
	ldp	x29, x30, [sp], #64
	.cfi_def_cfa_offset 0
	.cfi_restore w19
	.cfi_restore w20
	.cfi_restore w21
	.cfi_restore w22
	.cfi_restore w23
	.cfi_restore w28
	.cfi_restore w30
	.cfi_restore w29
	ret
Lfunc_end45:
	.cfi_endproc

	.section	__TEXT,__literal16,16byte_literals
	.p2align	4, 0x0
lCPI46_0:
	.byte	1
	.byte	2
	.byte	4
	.byte	8
	.byte	16
	.byte	32
	.byte	64
	.byte	128
	.byte	1
	.byte	2
	.byte	4
	.byte	8
	.byte	16
	.byte	32
	.byte	64
	.byte	128
lCPI46_2:
	.byte	0
	.byte	1
	.byte	2
	.byte	3
	.byte	4
	.byte	5
	.byte	6
	.byte	7
	.byte	8
	.byte	9
	.byte	10
	.byte	11
	.byte	12
	.byte	13
	.byte	14
	.byte	15
	.section	__TEXT,__literal8,8byte_literals
	.p2align	3, 0x0
lCPI46_1:
	.zero	1
	.zero	1
	.zero	1
	.zero	1
	.zero	1
	.zero	1
	.byte	224
	.byte	192
	.section	__TEXT,__text,regular,pure_instructions
	.p2align	2
"_utf16_transcode::encode::FromUtf8Direction::begin::<#8b18edd9dd9aa8df>":
	.cfi_startproc
	cmp	x1, #7
	b.hi	LBB46_5
	lsr	x8, x3, #1
	cmp	x8, x1
	csel	x4, x8, x1, lo
	cbz	x4, LBB46_14
	ldrsb	w8, [x0]
	tbnz	w8, #31, LBB46_20
	lsl	w8, w8, #8
	cmp	x4, #1
	strh	w8, [x2]
	b.ne	LBB46_21
	mov	w5, #2
	b	LBB46_96
LBB46_5:
	cmp	x1, #16
	b.hi	LBB46_8
	cmp	x3, #32
	b.hs	LBB46_15
LBB46_7:
	mov	x5, xzr
	mov	x4, xzr
	cmp	x1, #31
	b.ls	LBB46_34
	b	LBB46_136
LBB46_8:
	stp	x29, x30, [sp, #-48]!
	.cfi_def_cfa_offset 48
	stp	x22, x21, [sp, #16]
	stp	x20, x19, [sp, #32]
	mov	x29, sp
	.cfi_def_cfa w29, 48
	.cfi_offset w19, -8
	.cfi_offset w20, -16
	.cfi_offset w21, -24
	.cfi_offset w22, -32
	.cfi_offset w30, -40
	.cfi_offset w29, -48
	.cfi_remember_state
	lsr	x8, x3, #1
	cmp	x8, x1
	csel	x4, x8, x1, lo
	cmp	x3, #32
	b.lo	LBB46_10
	ldr	q1, [x0]
	adrp	x8, lCPI46_0@PAGE
	ldr	q0, [x8, lCPI46_0@PAGEOFF]
	cmlt	v2.16b, v1.16b, #0
	and	v2.16b, v2.16b, v0.16b
	addp	v2.16b, v2.16b, v2.16b
	addp	v2.16b, v2.16b, v2.16b
	addp	v2.16b, v2.16b, v2.16b
	umov	w8, v2.h[0]
	cbz	w8, LBB46_26
LBB46_10:
	mov	x4, xzr
LBB46_11:
	lsl	x5, x4, #1
	subs	x8, x1, x4
	b.eq	LBB46_32
	mov	x20, x0
	mov	x19, x1
	mov	x21, x2
	mov	x22, x3
	cmp	x8, #191
	b.hi	LBB46_24
	bl	"_utf16_from_utf8::rest::write_rest::<#8b18edd9dd9aa8df>"
	mov	x2, x21
	mov	x3, x22
	mov	x4, x0
	mov	x0, x20
	mov	x5, x1
	mov	x1, x19
	b	LBB46_32
LBB46_14:
	.cfi_def_cfa wsp, 0
	.cfi_same_value w19
	.cfi_same_value w20
	.cfi_same_value w21
	.cfi_same_value w22
	.cfi_same_value w30
	.cfi_same_value w29
	mov	x5, xzr
	b	LBB46_96
LBB46_15:
	add	x8, x0, x1
	ldr	d0, [x0]
	ldur	d2, [x8, #-8]
	adrp	x8, lstatic.1@PAGE
	add	x8, x8, lstatic.1@PAGEOFF
	add	x8, x8, x1, lsl #4
	mov	v0.d[1], v2.d[0]
	ldur	q1, [x8, #-128]
	adrp	x8, lCPI46_0@PAGE
	tbl	v1.16b, { v0.16b }, v1.16b
	ldr	q0, [x8, lCPI46_0@PAGEOFF]
	cmlt	v3.16b, v1.16b, #0
	and	v3.16b, v3.16b, v0.16b
	addp	v3.16b, v3.16b, v3.16b
	addp	v3.16b, v3.16b, v3.16b
	addp	v3.16b, v3.16b, v3.16b
	umov	w8, v3.h[0]
	cbz	w8, LBB46_29
	adrp	x8, lCPI46_1@PAGE
	mov	x5, xzr
	ldr	d3, [x8, lCPI46_1@PAGEOFF]
	cmhi	v3.8b, v3.8b, v2.8b
	dup	v4.8b, v3.b[7]
	and	v3.8b, v4.8b, v3.8b
	umov	w8, v3.b[6]
	tbz	w8, #0, LBB46_78
	umov	w8, v2.b[5]
	mov	x4, x5
	and	w8, w8, #0xff
	cmp	w8, #239
	b.hi	LBB46_33
	adrp	x8, lstatic.2@PAGE
	add	x8, x8, lstatic.2@PAGEOFF
	movi	v4.2d, #0000000000000000
	sub	x8, x8, x1
	movi	v5.16b, #191
	movi	v6.16b, #223
	ldr	q2, [x8, #16]
	movi	v7.16b, #239
	movi	v17.16b, #144
	movi	v21.16b, #244
	movi	v22.16b, #160
	movi	v16.16b, #224
	umax	v2.16b, v1.16b, v2.16b
	movi	v23.16b, #237
	adrp	x8, lCPI46_2@PAGE
	movi	v26.16b, #254
	ext	v3.16b, v4.16b, v2.16b, #15
	cmhi	v24.16b, v17.16b, v2.16b
	cmhs	v17.16b, v2.16b, v17.16b
	cmhi	v27.16b, v22.16b, v2.16b
	ext	v1.16b, v4.16b, v3.16b, #15
	uqsub	v19.16b, v3.16b, v5.16b
	cmeq	v28.16b, v3.16b, v16.16b
	ext	v18.16b, v4.16b, v1.16b, #15
	movi	v4.16b, #240
	uqsub	v20.16b, v1.16b, v6.16b
	uqsub	v18.16b, v18.16b, v7.16b
	cmeq	v25.16b, v3.16b, v4.16b
	umax	v19.16b, v19.16b, v20.16b
	cmeq	v20.16b, v3.16b, v21.16b
	movi	v7.16b, #192
	and	v24.16b, v25.16b, v24.16b
	and	v25.16b, v2.16b, v26.16b
	orr	v18.16b, v19.16b, v18.16b
	and	v17.16b, v20.16b, v17.16b
	cmhs	v19.16b, v2.16b, v22.16b
	cmeq	v20.16b, v3.16b, v23.16b
	and	v22.16b, v28.16b, v27.16b
	cmgt	v23.16b, v7.16b, v2.16b
	cmeq	v18.16b, v18.16b, #0
	orr	v17.16b, v24.16b, v17.16b
	and	v19.16b, v20.16b, v19.16b
	cmhi	v20.16b, v2.16b, v21.16b
	cmeq	v21.16b, v25.16b, v7.16b
	eor	v18.16b, v18.16b, v23.16b
	orr	v19.16b, v22.16b, v19.16b
	orr	v17.16b, v20.16b, v17.16b
	ldr	q20, [x8, lCPI46_2@PAGEOFF]
	orn	v18.16b, v21.16b, v18.16b
	orr	v17.16b, v19.16b, v17.16b
	dup	v19.16b, w1
	orr	v17.16b, v17.16b, v18.16b
	cmhi	v18.16b, v19.16b, v20.16b
	and	v17.16b, v18.16b, v17.16b
	shl	v17.16b, v17.16b, #7
	cmlt	v17.16b, v17.16b, #0
	and	v17.16b, v17.16b, v0.16b
	addp	v17.16b, v17.16b, v17.16b
	addp	v17.16b, v17.16b, v17.16b
	addp	v17.16b, v17.16b, v17.16b
	umov	w8, v17.h[0]
	cbnz	w8, LBB46_7
	cmge	v17.16b, v2.16b, #0
	cmhi	v6.16b, v3.16b, v6.16b
	adrp	x10, lstatic.10@PAGE
	add	x10, x10, lstatic.10@PAGEOFF
	cmhi	v5.16b, v2.16b, v5.16b
	movi	v18.16b, #64
	shl	v19.16b, v3.16b, #2
	movi	v21.16b, #232
	mov	x4, x1
	bsl	v17.16b, v7.16b, v3.16b
	movi	v22.16b, #231
	movi	v23.16b, #220
	orr	v5.16b, v5.16b, v6.16b
	umax	v6.16b, v1.16b, v16.16b
	cmhi	v18.16b, v18.16b, v19.16b
	movi	v19.16b, #127
	umax	v16.16b, v17.16b, v1.16b
	bic	v0.16b, v0.16b, v5.16b
	ushr	v20.16b, v17.16b, #2
	bsl	v18.16b, v22.16b, v21.16b
	cmhi	v5.16b, v7.16b, v16.16b
	ushr	v16.16b, v2.16b, #4
	addp	v0.16b, v0.16b, v0.16b
	sli	v20.16b, v6.16b, #4
	and	v2.16b, v2.16b, v19.16b
	add	v6.16b, v18.16b, v1.16b
	cmhi	v1.16b, v4.16b, v1.16b
	sli	v16.16b, v3.16b, #2
	and	v5.16b, v5.16b, v23.16b
	shl	v3.16b, v17.16b, #6
	addp	v0.16b, v0.16b, v0.16b
	orr	v5.16b, v20.16b, v5.16b
	add	v2.16b, v3.16b, v2.16b
	mov	v3.16b, v1.16b
	add	v7.16b, v16.16b, v7.16b
	addp	v0.16b, v0.16b, v0.16b
	bsl	v3.16b, v5.16b, v6.16b
	bsl	v1.16b, v2.16b, v7.16b
	umov	w8, v0.h[0]
	zip1	v0.16b, v3.16b, v1.16b
	and	x9, x8, #0xff
	ubfx	x8, x8, #8, #8
	ldr	q2, [x10, x9, lsl #4]
	zip2	v1.16b, v3.16b, v1.16b
	fmov	d4, x8
	tbl	v0.16b, { v0.16b }, v2.16b
	fmov	d2, x9
	cnt	v4.8b, v4.8b
	cnt	v2.8b, v2.8b
	str	q0, [x2]
	ldr	q0, [x10, x8, lsl #4]
	fmov	w9, s4
	fmov	w8, s2
	tbl	v0.16b, { v1.16b }, v0.16b
	ubfiz	x10, x8, #1, #32
	add	x8, x8, x9
	lsl	x5, x8, #1
	str	q0, [x2, x10]
	cmp	x1, #31
	b.ls	LBB46_34
	b	LBB46_136
LBB46_20:
	mov	x5, xzr
	mov	x4, xzr
	b	LBB46_96
LBB46_21:
	ldrsb	w8, [x0, #1]
	tbnz	w8, #31, LBB46_30
	lsl	w8, w8, #8
	cmp	x4, #2
	strh	w8, [x2, #2]
	b.ne	LBB46_74
	mov	w5, #4
	b	LBB46_96
LBB46_24:
	.cfi_restore_state
	.cfi_remember_state
	bl	"_utf16_from_utf8::blocks::write_mixed_blocks::<#8b18edd9dd9aa8df>"
	sub	x9, x19, x0
	mov	x4, x0
	mov	x8, x19
	cmp	x9, #191
	mov	x5, x1
	b.ls	LBB46_31
	mov	x3, x22
	mov	x2, x21
	mov	x1, x8
	mov	x0, x20
	b	LBB46_32
LBB46_26:
	cmp	x4, #31
	b.hi	LBB46_77
	shll	v2.8h, v1.8b, #8
	shll2	v1.8h, v1.16b, #8
	sub	x8, x4, #16
	stp	q2, q1, [x2]
	ldr	q1, [x0, x8]
	cmlt	v2.16b, v1.16b, #0
	and	v0.16b, v2.16b, v0.16b
	addp	v0.16b, v0.16b, v0.16b
	addp	v0.16b, v0.16b, v0.16b
	addp	v0.16b, v0.16b, v0.16b
	umov	w9, v0.h[0]
	cbz	w9, LBB46_83
	mov	w4, #16
	b	LBB46_11
LBB46_29:
	.cfi_def_cfa wsp, 0
	.cfi_same_value w19
	.cfi_same_value w20
	.cfi_same_value w21
	.cfi_same_value w22
	.cfi_same_value w30
	.cfi_same_value w29
	shll	v0.8h, v1.8b, #8
	shll2	v1.8h, v1.16b, #8
	lsl	x5, x1, #1
	mov	x4, x1
	stp	q0, q1, [x2]
	cmp	x1, #31
	b.ls	LBB46_34
	b	LBB46_136
LBB46_30:
	mov	w4, #1
	mov	w5, #2
	b	LBB46_96
LBB46_31:
	.cfi_restore_state
	.cfi_remember_state
	mov	x0, x20
	mov	x1, x8
	mov	x2, x21
	mov	x3, x22
	mov	x19, x20
	mov	x20, x8
	bl	"_utf16_from_utf8::rest::write_rest::<#8b18edd9dd9aa8df>"
	mov	x2, x21
	mov	x3, x22
	mov	x4, x0
	mov	x0, x19
	mov	x5, x1
	mov	x1, x20
LBB46_32:
	.cfi_def_cfa wsp, 48
	ldp	x20, x19, [sp, #32]
	ldp	x22, x21, [sp, #16]
	ldp	x29, x30, [sp], #48
	.cfi_def_cfa_offset 0
	.cfi_restore w19
	.cfi_restore w20
	.cfi_restore w21
	.cfi_restore w22
	.cfi_restore w30
	.cfi_restore w29
LBB46_33:
	cmp	x1, #31
	b.hi	LBB46_136
LBB46_34:
	cmp	x4, x1
	b.hs	LBB46_136
	mov	w8, #57216
	movk	w8, #65521, lsl #16
	b	LBB46_37
LBB46_36:
	mov	w12, #67043328
	mov	w13, #56320
	mov	w14, #-10240
	add	w12, w9, w12
	bfxil	w13, w9, #0, #10
	add	w9, w14, w12, lsr #10
	rev16	w12, w13
	rev16	w9, w9
	strh	w12, [x11, #2]
	mov	w12, #4
	add	x4, x10, x4
	add	x5, x12, x5
	strh	w9, [x11]
	cmp	x4, x1
	b.hs	LBB46_136
LBB46_37:
	add	x10, x0, x4
	ldrsb	w11, [x10]
	and	w9, w11, #0xff
	tbnz	w11, #31, LBB46_42
	mov	w10, #1
LBB46_39:
	cmp	w9, #16, lsl #12
	mov	w11, #4
	mov	w12, #2
	sub	x13, x3, x5
	csel	x11, x12, x11, lo
	cmp	x13, x11
	b.lo	LBB46_136
	lsr	w12, w9, #16
	add	x11, x2, x5
	cbnz	w12, LBB46_36
	rev16	w9, w9
	mov	w12, #2
	add	x4, x10, x4
	add	x5, x12, x5
	strh	w9, [x11]
	cmp	x4, x1
	b.lo	LBB46_37
	b	LBB46_136
LBB46_42:
	sub	x11, x1, x4
	cmp	x11, #3
	b.lo	LBB46_47
	add	w12, w9, #31
	and	w12, w12, #0xff
	cmp	w12, #11
	b.hi	LBB46_48
	ldrsb	w12, [x10, #1]
	cmn	w12, #65
	b.gt	LBB46_48
	ldrsb	w13, [x10, #2]
	cmn	w13, #65
	b.gt	LBB46_48
	add	w9, w8, w9, lsl #12
	and	w10, w12, #0xff
	add	w9, w9, w10, lsl #6
	and	w10, w13, #0xff
	add	w9, w9, w10
	mov	w10, #3
	b	LBB46_39
LBB46_47:
	cmp	x11, #2
	b.ne	LBB46_136
LBB46_48:
	lsr	w13, w9, #4
	ldrb	w12, [x10, #1]
	and	w13, w13, #0xc
	orr	w13, w13, w12, lsr #6
	cmp	w13, #14
	b.ne	LBB46_136
	add	w13, w9, #31
	and	w13, w13, #0xff
	cmp	w13, #12
	b.hs	LBB46_54
LBB46_50:
	cmp	x11, #2
	b.eq	LBB46_136
	ldrsb	w13, [x10, #2]
	cmn	w13, #65
	b.gt	LBB46_136
	cmp	w9, #239
	and	w13, w13, #0xff
	b.hi	LBB46_59
	add	w9, w8, w9, lsl #12
	mov	w10, #3
	add	w9, w9, w12, lsl #6
	add	w9, w9, w13
	b	LBB46_39
LBB46_54:
	add	w13, w9, #62
	and	w14, w13, #0xff
	cmp	w14, #30
	b.lo	LBB46_73
	cmp	w9, #239
	b.gt	LBB46_62
	cmp	w9, #224
	b.eq	LBB46_67
	cmp	w9, #237
	b.ne	LBB46_65
	mov	w14, #159
	b	LBB46_66
LBB46_59:
	cmp	x11, #4
	b.lo	LBB46_136
	ldrsb	w10, [x10, #3]
	cmn	w10, #65
	b.gt	LBB46_136
	lsl	w9, w9, #18
	mov	w11, #57216
	and	w10, w10, #0xff
	movk	w11, #64567, lsl #16
	add	w9, w9, w12, lsl #12
	add	w10, w10, w11
	add	w9, w9, w13, lsl #6
	add	w9, w9, w10
	mov	w10, #4
	b	LBB46_39
LBB46_62:
	cmp	w9, #240
	b.eq	LBB46_68
	cmp	w9, #244
	b.ne	LBB46_65
	mov	w14, #143
	b	LBB46_66
LBB46_65:
	mov	w14, #191
LBB46_66:
	mov	w15, #128
	b	LBB46_69
LBB46_67:
	mov	w14, #191
	mov	w15, #160
	b	LBB46_69
LBB46_68:
	mov	w14, #191
	mov	w15, #144
LBB46_69:
	and	w13, w13, #0xff
	cmp	w13, #50
	b.hi	LBB46_136
	cmp	w15, w12
	b.hi	LBB46_136
	cmp	w12, w14
	b.hi	LBB46_136
	cmp	w9, #223
	b.hi	LBB46_50
LBB46_73:
	add	w9, w12, w9, lsl #6
	mov	w10, #-12416
	add	w9, w9, w10
	mov	w10, #2
	b	LBB46_39
LBB46_74:
	ldrsb	w8, [x0, #2]
	tbnz	w8, #31, LBB46_79
	lsl	w8, w8, #8
	cmp	x4, #3
	strh	w8, [x2, #4]
	b.ne	LBB46_80
	mov	w5, #6
	b	LBB46_96
LBB46_77:
	.cfi_restore_state
	.cfi_remember_state
	mov	x21, x1
	mov	x1, x4
	mov	x19, x0
	mov	x20, x2
	mov	x22, x3
	bl	"_utf16_from_utf8::ascii::write_front::<#8b18edd9dd9aa8df>"
	mov	x1, x21
	mov	x2, x20
	mov	x3, x22
	mov	x4, x0
	mov	x0, x19
	b	LBB46_11
LBB46_78:
	.cfi_def_cfa wsp, 0
	.cfi_same_value w19
	.cfi_same_value w20
	.cfi_same_value w21
	.cfi_same_value w22
	.cfi_same_value w30
	.cfi_same_value w29
	mov	x4, x5
	cmp	x1, #31
	b.ls	LBB46_34
	b	LBB46_136
LBB46_79:
	mov	w4, #2
	mov	w5, #4
	b	LBB46_96
LBB46_80:
	ldrsb	w8, [x0, #3]
	tbnz	w8, #31, LBB46_84
	lsl	w8, w8, #8
	cmp	x4, #4
	strh	w8, [x2, #6]
	b.ne	LBB46_85
	mov	w5, #8
	b	LBB46_96
LBB46_83:
	.cfi_restore_state
	shll	v0.8h, v1.8b, #8
	shll2	v1.8h, v1.16b, #8
	add	x8, x2, x8, lsl #1
	stp	q0, q1, [x8]
	b	LBB46_11
LBB46_84:
	.cfi_def_cfa wsp, 0
	.cfi_same_value w19
	.cfi_same_value w20
	.cfi_same_value w21
	.cfi_same_value w22
	.cfi_same_value w30
	.cfi_same_value w29
	mov	w4, #3
	mov	w5, #6
	b	LBB46_96
LBB46_85:
	ldrsb	w8, [x0, #4]
	tbnz	w8, #31, LBB46_88
	lsl	w8, w8, #8
	cmp	x4, #5
	strh	w8, [x2, #8]
	b.ne	LBB46_89
	mov	w5, #10
	b	LBB46_96
LBB46_88:
	mov	w4, #4
	mov	w5, #8
	b	LBB46_96
LBB46_89:
	ldrsb	w8, [x0, #5]
	tbnz	w8, #31, LBB46_93
	lsl	w8, w8, #8
	cmp	x4, #6
	strh	w8, [x2, #10]
	b.eq	LBB46_95
	ldrsb	w8, [x0, #6]
	tbnz	w8, #31, LBB46_94
	lsl	w8, w8, #8
	mov	w5, #14
	strh	w8, [x2, #12]
	b	LBB46_96
LBB46_93:
	mov	w4, #5
	mov	w5, #10
	b	LBB46_96
LBB46_94:
	mov	w4, #6
LBB46_95:
	mov	w5, #12
LBB46_96:
	cmp	x4, x1
	b.hs	LBB46_136
	mov	w8, #57216
	movk	w8, #65521, lsl #16
	b	LBB46_99
LBB46_98:
	mov	w12, #67043328
	mov	w13, #56320
	mov	w14, #-10240
	add	w12, w9, w12
	bfxil	w13, w9, #0, #10
	add	w9, w14, w12, lsr #10
	rev16	w12, w13
	rev16	w9, w9
	strh	w12, [x11, #2]
	mov	w12, #4
	add	x4, x10, x4
	add	x5, x12, x5
	strh	w9, [x11]
	cmp	x4, x1
	b.hs	LBB46_136
LBB46_99:
	add	x10, x0, x4
	ldrsb	w11, [x10]
	and	w9, w11, #0xff
	tbnz	w11, #31, LBB46_104
	mov	w10, #1
LBB46_101:
	cmp	w9, #16, lsl #12
	mov	w11, #4
	mov	w12, #2
	sub	x13, x3, x5
	csel	x11, x12, x11, lo
	cmp	x13, x11
	b.lo	LBB46_136
	lsr	w12, w9, #16
	add	x11, x2, x5
	cbnz	w12, LBB46_98
	rev16	w9, w9
	mov	w12, #2
	add	x4, x10, x4
	add	x5, x12, x5
	strh	w9, [x11]
	cmp	x4, x1
	b.lo	LBB46_99
	b	LBB46_136
LBB46_104:
	sub	x11, x1, x4
	cmp	x11, #3
	b.lo	LBB46_109
	add	w12, w9, #31
	and	w12, w12, #0xff
	cmp	w12, #11
	b.hi	LBB46_110
	ldrsb	w12, [x10, #1]
	cmn	w12, #65
	b.gt	LBB46_110
	ldrsb	w13, [x10, #2]
	cmn	w13, #65
	b.gt	LBB46_110
	add	w9, w8, w9, lsl #12
	and	w10, w12, #0xff
	add	w9, w9, w10, lsl #6
	and	w10, w13, #0xff
	add	w9, w9, w10
	mov	w10, #3
	b	LBB46_101
LBB46_109:
	cmp	x11, #2
	b.ne	LBB46_136
LBB46_110:
	lsr	w13, w9, #4
	ldrb	w12, [x10, #1]
	and	w13, w13, #0xc
	orr	w13, w13, w12, lsr #6
	cmp	w13, #14
	b.ne	LBB46_136
	add	w13, w9, #31
	and	w13, w13, #0xff
	cmp	w13, #12
	b.hs	LBB46_116
LBB46_112:
	cmp	x11, #2
	b.eq	LBB46_136
	ldrsb	w13, [x10, #2]
	cmn	w13, #65
	b.gt	LBB46_136
	cmp	w9, #239
	and	w13, w13, #0xff
	b.hi	LBB46_121
	add	w9, w8, w9, lsl #12
	mov	w10, #3
	add	w9, w9, w12, lsl #6
	add	w9, w9, w13
	b	LBB46_101
LBB46_116:
	add	w13, w9, #62
	and	w14, w13, #0xff
	cmp	w14, #30
	b.lo	LBB46_135
	cmp	w9, #239
	b.gt	LBB46_124
	cmp	w9, #224
	b.eq	LBB46_129
	cmp	w9, #237
	b.ne	LBB46_127
	mov	w14, #159
	b	LBB46_128
LBB46_121:
	cmp	x11, #4
	b.lo	LBB46_136
	ldrsb	w10, [x10, #3]
	cmn	w10, #65
	b.gt	LBB46_136
	lsl	w9, w9, #18
	mov	w11, #57216
	and	w10, w10, #0xff
	movk	w11, #64567, lsl #16
	add	w9, w9, w12, lsl #12
	add	w10, w10, w11
	add	w9, w9, w13, lsl #6
	add	w9, w9, w10
	mov	w10, #4
	b	LBB46_101
LBB46_124:
	cmp	w9, #240
	b.eq	LBB46_130
	cmp	w9, #244
	b.ne	LBB46_127
	mov	w14, #143
	b	LBB46_128
LBB46_127:
	mov	w14, #191
LBB46_128:
	mov	w15, #128
	b	LBB46_131
LBB46_129:
	mov	w14, #191
	mov	w15, #160
	b	LBB46_131
LBB46_130:
	mov	w14, #191
	mov	w15, #144
LBB46_131:
	and	w13, w13, #0xff
	cmp	w13, #50
	b.hi	LBB46_136
	cmp	w15, w12
	b.hi	LBB46_136
	cmp	w12, w14
	b.hi	LBB46_136
	cmp	w9, #223
	b.hi	LBB46_112
LBB46_135:
	add	w9, w12, w9, lsl #6
	mov	w10, #-12416
	add	w9, w9, w10
	mov	w10, #2
	b	LBB46_101
LBB46_136:
	mov	x0, x4
	mov	x1, x5
	ret
Lfunc_end46:
	.cfi_endproc

	.section	__TEXT,__literal16,16byte_literals
	.p2align	4, 0x0
lCPI47_0:
	.byte	1
	.byte	2
	.byte	4
	.byte	8
	.byte	16
	.byte	32
	.byte	64
	.byte	128
	.byte	1
	.byte	2
	.byte	4
	.byte	8
	.byte	16
	.byte	32
	.byte	64
	.byte	128
	.section	__TEXT,__text,regular,pure_instructions
	.p2align	2
"_utf16_from_utf8::ascii::write_front::<#8b18edd9dd9aa8df>":
	.cfi_startproc
	mov	x8, x0
	cmp	x1, #64
	adrp	x9, lCPI47_0@PAGE
	mov	x0, xzr
	b.lo	LBB47_4
	add	x10, x2, #64
	mov	x11, x1
LBB47_2:
	add	x12, x8, x0
	ldp	q3, q2, [x12]
	ldp	q1, q0, [x12, #32]
	orr	v4.16b, v3.16b, v2.16b
	orr	v5.16b, v1.16b, v0.16b
	orr	v4.16b, v4.16b, v5.16b
	ldr	q5, [x9, lCPI47_0@PAGEOFF]
	cmlt	v4.16b, v4.16b, #0
	and	v4.16b, v4.16b, v5.16b
	addp	v4.16b, v4.16b, v4.16b
	addp	v4.16b, v4.16b, v4.16b
	addp	v4.16b, v4.16b, v4.16b
	umov	w12, v4.h[0]
	cbnz	w12, LBB47_4
	shll	v4.8h, v3.8b, #8
	shll2	v3.8h, v3.16b, #8
	sub	x11, x11, #64
	shll	v5.8h, v2.8b, #8
	shll2	v2.8h, v2.16b, #8
	cmp	x11, #63
	add	x0, x0, #64
	stp	q4, q3, [x10, #-64]
	shll	v3.8h, v1.8b, #8
	shll2	v1.8h, v1.16b, #8
	shll	v4.8h, v0.8b, #8
	shll2	v0.8h, v0.16b, #8
	stp	q5, q2, [x10, #-32]
	stp	q3, q1, [x10]
	stp	q4, q0, [x10, #32]
	add	x10, x10, #128
	b.hi	LBB47_2
LBB47_4:
	sub	x10, x1, x0
	cmp	x10, #16
	b.lo	LBB47_8
	add	x11, x2, x0, lsl #1
	add	x11, x11, #16
LBB47_6:
	ldr	q0, [x8, x0]
	ldr	q2, [x9, lCPI47_0@PAGEOFF]
	cmlt	v1.16b, v0.16b, #0
	and	v1.16b, v1.16b, v2.16b
	addp	v1.16b, v1.16b, v1.16b
	addp	v1.16b, v1.16b, v1.16b
	addp	v1.16b, v1.16b, v1.16b
	umov	w12, v1.h[0]
	cbnz	w12, LBB47_9
	shll	v1.8h, v0.8b, #8
	shll2	v0.8h, v0.16b, #8
	sub	x10, x10, #16
	cmp	x10, #15
	add	x0, x0, #16
	stp	q1, q0, [x11, #-16]
	add	x11, x11, #32
	b.hi	LBB47_6
LBB47_8:
	sub	x10, x1, #16
	ldr	q2, [x9, lCPI47_0@PAGEOFF]
	ldr	q0, [x8, x10]
	cmlt	v1.16b, v0.16b, #0
	and	v1.16b, v1.16b, v2.16b
	addp	v1.16b, v1.16b, v1.16b
	addp	v1.16b, v1.16b, v1.16b
	addp	v1.16b, v1.16b, v1.16b
	umov	w8, v1.h[0]
	cbz	w8, LBB47_10
LBB47_9:
	ret
LBB47_10:
	shll	v1.8h, v0.8b, #8
	shll2	v0.8h, v0.16b, #8
	add	x8, x2, x10, lsl #1
	mov	x0, x1
	stp	q1, q0, [x8]
	ret
Lfunc_end47:
	.cfi_endproc

	.section	__TEXT,__literal16,16byte_literals
	.p2align	4, 0x0
lCPI48_0:
	.byte	1
	.byte	2
	.byte	4
	.byte	8
	.byte	16
	.byte	32
	.byte	64
	.byte	128
	.byte	1
	.byte	2
	.byte	4
	.byte	8
	.byte	16
	.byte	32
	.byte	64
	.byte	128
lCPI48_1:
	.byte	255
	.byte	0
	.byte	255
	.byte	255
	.byte	0
	.byte	255
	.byte	255
	.byte	0
	.byte	255
	.byte	255
	.byte	0
	.byte	255
	.byte	255
	.byte	0
	.byte	255
	.byte	255
lCPI48_2:
	.byte	255
	.byte	255
	.byte	0
	.byte	255
	.byte	255
	.byte	0
	.byte	255
	.byte	255
	.byte	0
	.byte	255
	.byte	255
	.byte	0
	.byte	255
	.byte	255
	.byte	0
	.byte	255
lCPI48_3:
	.byte	0
	.byte	3
	.byte	6
	.byte	9
	.byte	12
	.byte	15
	.byte	18
	.byte	21
	.byte	24
	.byte	27
	.byte	30
	.byte	17
	.byte	20
	.byte	23
	.byte	26
	.byte	29
lCPI48_4:
	.byte	1
	.byte	4
	.byte	7
	.byte	10
	.byte	13
	.byte	16
	.byte	19
	.byte	22
	.byte	25
	.byte	28
	.byte	31
	.byte	18
	.byte	21
	.byte	24
	.byte	27
	.byte	30
lCPI48_5:
	.byte	2
	.byte	5
	.byte	8
	.byte	11
	.byte	14
	.byte	17
	.byte	20
	.byte	23
	.byte	26
	.byte	29
	.byte	16
	.byte	19
	.byte	22
	.byte	25
	.byte	28
	.byte	31
	.section	__TEXT,__text,regular,pure_instructions
	.p2align	2
"_utf16_from_utf8::blocks::write_mixed_blocks::<#8b18edd9dd9aa8df>":
	.cfi_startproc
	stp	d15, d14, [sp, #-144]!
	.cfi_def_cfa_offset 144
	stp	d13, d12, [sp, #16]
	stp	d11, d10, [sp, #32]
	stp	d9, d8, [sp, #48]
	stp	x29, x30, [sp, #64]
	stp	x26, x25, [sp, #80]
	stp	x24, x23, [sp, #96]
	stp	x22, x21, [sp, #112]
	stp	x20, x19, [sp, #128]
	add	x29, sp, #64
	.cfi_def_cfa w29, 80
	.cfi_offset w19, -8
	.cfi_offset w20, -16
	.cfi_offset w21, -24
	.cfi_offset w22, -32
	.cfi_offset w23, -40
	.cfi_offset w24, -48
	.cfi_offset w25, -56
	.cfi_offset w26, -64
	.cfi_offset w30, -72
	.cfi_offset w29, -80
	.cfi_offset b8, -88
	.cfi_offset b9, -96
	.cfi_offset b10, -104
	.cfi_offset b11, -112
	.cfi_offset b12, -120
	.cfi_offset b13, -128
	.cfi_offset b14, -136
	.cfi_offset b15, -144
	mov	x19, x5
	mov	x21, x3
	mov	x22, x1
	mov	x23, x2
	mov	x24, x0
	sub	x25, x3, #32
	sub	x26, x1, #48
	b	LBB48_3
LBB48_1:
	lsr	x8, x10, #1
	add	x0, x24, x20
	add	x2, x23, x19
	cmp	x8, x9
	csel	x1, x8, x9, lo
	bl	"_utf16_from_utf8::ascii::write_front::<#8b18edd9dd9aa8df>"
	add	x19, x19, x0, lsl #1
	add	x4, x0, x20
LBB48_2:
	cmp	x4, x20
	b.eq	LBB48_30
LBB48_3:
	sub	x9, x22, x4
	mov	x20, x4
	cmp	x9, #64
	b.lo	LBB48_30
	sub	x10, x21, x19
	cmp	x10, #128
	b.lo	LBB48_30
	add	x8, x24, x20
	adrp	x11, lCPI48_0@PAGE
	ldp	q4, q6, [x8]
	ldp	q5, q3, [x8, #32]
	umax	v0.16b, v4.16b, v6.16b
	umax	v1.16b, v5.16b, v3.16b
	umax	v1.16b, v0.16b, v1.16b
	ldr	q0, [x11, lCPI48_0@PAGEOFF]
	cmlt	v2.16b, v1.16b, #0
	and	v2.16b, v2.16b, v0.16b
	addp	v2.16b, v2.16b, v2.16b
	addp	v2.16b, v2.16b, v2.16b
	addp	v2.16b, v2.16b, v2.16b
	umov	w11, v2.h[0]
	cbz	w11, LBB48_1
	movi	v2.16b, #224
	cmhs	v2.16b, v1.16b, v2.16b
	and	v2.16b, v2.16b, v0.16b
	addp	v2.16b, v2.16b, v2.16b
	addp	v2.16b, v2.16b, v2.16b
	addp	v2.16b, v2.16b, v2.16b
	umov	w9, v2.h[0]
	cbz	w9, LBB48_13
	umov	w8, v4.b[0]
	and	w8, w8, #0xf0
	cmp	w8, #224
	b.ne	LBB48_15
	add	x8, x24, x20
	sub	x10, x25, x19
	sub	x9, x26, x20
	mov	x4, x20
LBB48_9:
	adrp	x11, lCPI48_1@PAGE
	ldp	q4, q2, [x8, #16]
	ldr	q3, [x11, lCPI48_1@PAGEOFF]
	adrp	x11, lCPI48_2@PAGE
	ldr	q6, [x8], #48
	mov	v7.16b, v3.16b
	ldr	q3, [x11, lCPI48_2@PAGEOFF]
	adrp	x11, lCPI48_3@PAGE
	ldr	q5, [x11, lCPI48_3@PAGEOFF]
	adrp	x11, lCPI48_4@PAGE
	mov	v18.16b, v3.16b
	ldr	q16, [x11, lCPI48_4@PAGEOFF]
	adrp	x11, lCPI48_5@PAGE
	bsl	v7.16b, v2.16b, v4.16b
	bsl	v18.16b, v4.16b, v2.16b
	bsl	v3.16b, v2.16b, v4.16b
	mov	v17.16b, v6.16b
	mov	v2.16b, v6.16b
	tbl	v5.16b, { v2.16b, v3.16b }, v5.16b
	tbl	v2.16b, { v17.16b, v18.16b }, v16.16b
	movi	v16.16b, #240
	movi	v17.16b, #192
	ldr	q3, [x11, lCPI48_5@PAGEOFF]
	tbl	v4.16b, { v6.16b, v7.16b }, v3.16b
	movi	v6.16b, #32
	movi	v7.16b, #128
	and	v16.16b, v5.16b, v16.16b
	and	v18.16b, v2.16b, v17.16b
	add	v6.16b, v16.16b, v6.16b
	and	v17.16b, v4.16b, v17.16b
	eor	v16.16b, v18.16b, v7.16b
	eor	v7.16b, v17.16b, v7.16b
	umax	v6.16b, v6.16b, v16.16b
	orr	v6.16b, v6.16b, v7.16b
	cmeq	v6.16b, v6.16b, #0
	bic	v6.16b, v0.16b, v6.16b
	addp	v6.16b, v6.16b, v6.16b
	addp	v6.16b, v6.16b, v6.16b
	addp	v6.16b, v6.16b, v6.16b
	umov	w11, v6.h[0]
	cbnz	w11, LBB48_16
	ushr	v3.16b, v2.16b, #2
	movi	v6.16b, #7
	movi	v7.16b, #216
	sli	v3.16b, v5.16b, #4
	movi	v5.16b, #248
	and	v5.16b, v3.16b, v5.16b
	cmhi	v6.16b, v3.16b, v6.16b
	cmeq	v5.16b, v5.16b, v7.16b
	and	v5.16b, v5.16b, v6.16b
	orn	v5.16b, v5.16b, v6.16b
	and	v5.16b, v5.16b, v0.16b
	addp	v5.16b, v5.16b, v5.16b
	addp	v5.16b, v5.16b, v5.16b
	addp	v5.16b, v5.16b, v5.16b
	umov	w11, v5.h[0]
	cbnz	w11, LBB48_16
	sli	v4.16b, v2.16b, #6
	add	x11, x23, x19
	subs	x9, x9, #48
	add	x19, x19, #32
	add	x4, x4, #48
	zip2	v2.16b, v3.16b, v4.16b
	st2	{ v3.8b, v4.8b }, [x11], #16
	str	q2, [x11]
	b.lo	LBB48_16
	cmp	x10, #31
	sub	x10, x10, #32
	b.hi	LBB48_9
	b	LBB48_16
LBB48_13:
	movi	v2.16b, #191
	movi	v7.16b, #254
	ldur	q16, [x8, #15]
	movi	v17.2d, #0000000000000000
	ldur	q18, [x8, #31]
	movi	v1.16b, #192
	cmhi	v16.16b, v16.16b, v2.16b
	cmgt	v19.16b, v6.16b, v2.16b
	and	v6.16b, v6.16b, v7.16b
	cmhi	v18.16b, v18.16b, v2.16b
	cmgt	v20.16b, v5.16b, v2.16b
	and	v21.16b, v5.16b, v7.16b
	ext	v5.16b, v17.16b, v4.16b, #15
	eor	v16.16b, v19.16b, v16.16b
	ldur	q19, [x8, #47]
	cmeq	v6.16b, v6.16b, v1.16b
	eor	v17.16b, v20.16b, v18.16b
	cmeq	v18.16b, v21.16b, v1.16b
	cmgt	v20.16b, v3.16b, v2.16b
	cmhi	v19.16b, v19.16b, v2.16b
	and	v3.16b, v3.16b, v7.16b
	and	v7.16b, v4.16b, v7.16b
	bic	v6.16b, v16.16b, v6.16b
	cmgt	v16.16b, v1.16b, v4.16b
	bic	v17.16b, v17.16b, v18.16b
	cmhi	v18.16b, v1.16b, v5.16b
	eor	v19.16b, v20.16b, v19.16b
	cmeq	v3.16b, v3.16b, v1.16b
	cmeq	v7.16b, v7.16b, v1.16b
	eor	v16.16b, v16.16b, v18.16b
	and	v6.16b, v6.16b, v17.16b
	bic	v3.16b, v19.16b, v3.16b
	bic	v7.16b, v16.16b, v7.16b
	and	v3.16b, v6.16b, v3.16b
	and	v3.16b, v7.16b, v3.16b
	bic	v3.16b, v0.16b, v3.16b
	addp	v3.16b, v3.16b, v3.16b
	addp	v3.16b, v3.16b, v3.16b
	addp	v3.16b, v3.16b, v3.16b
	umov	w9, v3.h[0]
	cbnz	w9, LBB48_30
	cmhs	v3.16b, v2.16b, v4.16b
	uqsub	v5.16b, v5.16b, v1.16b
	adrp	x9, lstatic.10@PAGE
	add	x9, x9, lstatic.10@PAGEOFF
	and	v3.16b, v3.16b, v0.16b
	shl	v7.16b, v5.16b, #6
	ushr	v5.16b, v5.16b, #2
	addp	v6.16b, v3.16b, v3.16b
	movi	v3.16b, #127
	addp	v6.16b, v6.16b, v6.16b
	and	v4.16b, v4.16b, v3.16b
	addp	v6.16b, v6.16b, v6.16b
	add	v4.16b, v7.16b, v4.16b
	umov	w11, v6.h[0]
	zip1	v6.16b, v5.16b, v4.16b
	zip2	v4.16b, v5.16b, v4.16b
	and	x10, x11, #0xff
	ubfx	x11, x11, #8, #8
	ldr	q7, [x9, x10, lsl #4]
	tbl	v6.16b, { v6.16b }, v7.16b
	fmov	d7, x10
	add	x10, x23, x19
	cnt	v7.8b, v7.8b
	str	q6, [x10]
	ldr	q5, [x9, x11, lsl #4]
	fmov	w12, s7
	tbl	v4.16b, { v4.16b }, v5.16b
	ubfiz	x13, x12, #1, #32
	str	q4, [x10, x13]
	ldr	q4, [x8, #16]
	ldur	q6, [x8, #15]
	cmhs	v5.16b, v2.16b, v4.16b
	uqsub	v6.16b, v6.16b, v1.16b
	and	v4.16b, v4.16b, v3.16b
	and	v5.16b, v5.16b, v0.16b
	shl	v7.16b, v6.16b, #6
	ushr	v6.16b, v6.16b, #2
	addp	v5.16b, v5.16b, v5.16b
	add	v4.16b, v4.16b, v7.16b
	fmov	d7, x11
	addp	v5.16b, v5.16b, v5.16b
	addp	v5.16b, v5.16b, v5.16b
	umov	w11, v5.h[0]
	cnt	v5.8b, v7.8b
	zip1	v7.16b, v6.16b, v4.16b
	zip2	v4.16b, v6.16b, v4.16b
	and	x13, x11, #0xff
	fmov	w14, s5
	ubfx	x11, x11, #8, #8
	ldr	q5, [x9, x13, lsl #4]
	tbl	v5.16b, { v7.16b }, v5.16b
	fmov	d7, x13
	add	x12, x12, x14
	add	x13, x10, x12, lsl #1
	cnt	v7.8b, v7.8b
	str	q5, [x13]
	ldr	q5, [x9, x11, lsl #4]
	fmov	w14, s7
	tbl	v4.16b, { v4.16b }, v5.16b
	ubfiz	x15, x14, #1, #32
	str	q4, [x13, x15]
	ldr	q4, [x8, #32]
	ldur	q6, [x8, #31]
	cmhs	v5.16b, v2.16b, v4.16b
	uqsub	v6.16b, v6.16b, v1.16b
	and	v4.16b, v4.16b, v3.16b
	and	v5.16b, v5.16b, v0.16b
	shl	v7.16b, v6.16b, #6
	ushr	v6.16b, v6.16b, #2
	addp	v5.16b, v5.16b, v5.16b
	add	v4.16b, v4.16b, v7.16b
	fmov	d7, x11
	addp	v5.16b, v5.16b, v5.16b
	cnt	v7.8b, v7.8b
	addp	v5.16b, v5.16b, v5.16b
	fmov	w13, s7
	umov	w11, v5.h[0]
	zip1	v5.16b, v6.16b, v4.16b
	zip2	v4.16b, v6.16b, v4.16b
	add	x13, x13, x14
	add	x12, x13, x12
	and	x15, x11, #0xff
	add	x13, x10, x12, lsl #1
	ubfx	x11, x11, #8, #8
	ldr	q7, [x9, x15, lsl #4]
	tbl	v5.16b, { v5.16b }, v7.16b
	fmov	d7, x15
	cnt	v7.8b, v7.8b
	str	q5, [x13]
	ldr	q5, [x9, x11, lsl #4]
	fmov	w14, s7
	tbl	v4.16b, { v4.16b }, v5.16b
	ubfiz	x15, x14, #1, #32
	str	q4, [x13, x15]
	ldr	q4, [x8, #48]
	cmhs	v2.16b, v2.16b, v4.16b
	and	v0.16b, v2.16b, v0.16b
	ldur	q2, [x8, #47]
	uqsub	v1.16b, v2.16b, v1.16b
	and	v2.16b, v4.16b, v3.16b
	fmov	d4, x11
	addp	v0.16b, v0.16b, v0.16b
	cnt	v4.8b, v4.8b
	addp	v0.16b, v0.16b, v0.16b
	shl	v3.16b, v1.16b, #6
	ushr	v1.16b, v1.16b, #2
	addp	v0.16b, v0.16b, v0.16b
	add	v2.16b, v2.16b, v3.16b
	fmov	w13, s4
	umov	w11, v0.h[0]
	zip1	v0.16b, v1.16b, v2.16b
	add	x13, x13, x14
	add	x12, x13, x12
	zip2	v1.16b, v1.16b, v2.16b
	add	x10, x10, x12, lsl #1
	and	x15, x11, #0xff
	ubfx	x11, x11, #8, #8
	ldr	q3, [x9, x15, lsl #4]
	tbl	v0.16b, { v0.16b }, v3.16b
	fmov	d3, x15
	cnt	v3.8b, v3.8b
	str	q0, [x10]
	fmov	d0, x11
	ldr	q2, [x9, x11, lsl #4]
	fmov	w9, s3
	cnt	v0.8b, v0.8b
	tbl	v1.16b, { v1.16b }, v2.16b
	ubfiz	x11, x9, #1, #32
	fmov	w13, s0
	str	q1, [x10, x11]
	ldrb	w8, [x8, #63]
	add	x9, x13, x9
	cmp	w8, #191
	mov	w8, #63
	add	x9, x9, x12
	cinc	x8, x8, ls
	add	x19, x19, x9, lsl #1
	add	x4, x8, x20
	b	LBB48_2
LBB48_15:
	mov	x4, x20
LBB48_16:
	cmp	x20, x4
	b.lo	LBB48_2
	movi	v16.16b, #240
	movi	v3.2d, #0000000000000000
	add	x8, x24, x4
	ldr	q6, [x8]
	cmhs	v1.16b, v1.16b, v16.16b
	ext	v7.16b, v3.16b, v6.16b, #15
	and	v1.16b, v1.16b, v0.16b
	ext	v5.16b, v3.16b, v7.16b, #15
	addp	v1.16b, v1.16b, v1.16b
	addp	v1.16b, v1.16b, v1.16b
	addp	v1.16b, v1.16b, v1.16b
	umov	w9, v1.h[0]
	cbz	w9, LBB48_21
	movi	v22.16b, #144
	movi	v17.16b, #160
	ldur	q4, [x8, #14]
	movi	v2.16b, #223
	movi	v1.16b, #191
	ldur	q23, [x8, #15]
	movi	v21.16b, #244
	movi	v20.16b, #239
	ldur	q24, [x8, #13]
	movi	v19.16b, #237
	ext	v29.16b, v3.16b, v5.16b, #15
	ldur	q31, [x8, #30]
	cmhi	v18.16b, v22.16b, v6.16b
	cmhi	v27.16b, v17.16b, v6.16b
	ldur	q9, [x8, #29]
	uqsub	v26.16b, v4.16b, v2.16b
	movi	v4.16b, #224
	uqsub	v25.16b, v23.16b, v1.16b
	uqsub	v30.16b, v24.16b, v20.16b
	ldr	q24, [x8, #16]
	movi	v3.16b, #192
	mov	v28.16b, v18.16b
	mov	v8.16b, v27.16b
	uqsub	v27.16b, v29.16b, v20.16b
	cmhi	v29.16b, v17.16b, v24.16b
	cmhi	v10.16b, v22.16b, v24.16b
	uqsub	v11.16b, v7.16b, v1.16b
	umax	v25.16b, v25.16b, v26.16b
	ldur	q26, [x8, #31]
	uqsub	v12.16b, v5.16b, v2.16b
	bsl	v28.16b, v16.16b, v21.16b
	bsl	v8.16b, v4.16b, v19.16b
	cmgt	v13.16b, v3.16b, v24.16b
	uqsub	v14.16b, v26.16b, v1.16b
	mov	v1.16b, v29.16b
	bsl	v10.16b, v16.16b, v21.16b
	orr	v30.16b, v25.16b, v30.16b
	ldr	q25, [x8, #32]
	movi	v18.16b, #254
	uqsub	v9.16b, v9.16b, v20.16b
	cmeq	v28.16b, v7.16b, v28.16b
	cmeq	v8.16b, v7.16b, v8.16b
	bsl	v1.16b, v4.16b, v19.16b
	cmeq	v15.16b, v30.16b, #0
	umax	v30.16b, v11.16b, v12.16b
	uqsub	v11.16b, v31.16b, v2.16b
	cmeq	v10.16b, v23.16b, v10.16b
	movi	v31.16b, #245
	mvn	v28.16b, v28.16b
	eor	v12.16b, v13.16b, v15.16b
	movi	v15.16b, #191
	cmhi	v13.16b, v17.16b, v25.16b
	cmeq	v1.16b, v23.16b, v1.16b
	umax	v23.16b, v14.16b, v11.16b
	ldur	q14, [x8, #46]
	bic	v29.16b, v28.16b, v8.16b
	ldr	q28, [x8, #48]
	cmhi	v8.16b, v22.16b, v25.16b
	mvn	v10.16b, v10.16b
	and	v11.16b, v24.16b, v18.16b
	bsl	v13.16b, v4.16b, v19.16b
	cmhi	v22.16b, v22.16b, v28.16b
	orr	v23.16b, v23.16b, v9.16b
	uqsub	v14.16b, v14.16b, v2.16b
	bsl	v8.16b, v16.16b, v21.16b
	cmhi	v17.16b, v17.16b, v28.16b
	cmhi	v24.16b, v31.16b, v24.16b
	bic	v1.16b, v10.16b, v1.16b
	cmeq	v10.16b, v11.16b, v3.16b
	ldur	q11, [x8, #45]
	bif	v16.16b, v21.16b, v22.16b
	ldur	q21, [x8, #47]
	cmhi	v22.16b, v31.16b, v6.16b
	uqsub	v20.16b, v11.16b, v20.16b
	cmeq	v23.16b, v23.16b, #0
	and	v11.16b, v25.16b, v18.16b
	uqsub	v9.16b, v21.16b, v15.16b
	cmeq	v8.16b, v26.16b, v8.16b
	cmeq	v26.16b, v26.16b, v13.16b
	cmgt	v13.16b, v3.16b, v25.16b
	orr	v27.16b, v30.16b, v27.16b
	bsl	v17.16b, v4.16b, v19.16b
	and	v22.16b, v29.16b, v22.16b
	bic	v29.16b, v12.16b, v10.16b
	and	v1.16b, v1.16b, v24.16b
	mvn	v8.16b, v8.16b
	cmhi	v25.16b, v31.16b, v25.16b
	cmeq	v16.16b, v21.16b, v16.16b
	umax	v30.16b, v9.16b, v14.16b
	eor	v23.16b, v13.16b, v23.16b
	cmgt	v19.16b, v3.16b, v6.16b
	cmeq	v27.16b, v27.16b, #0
	and	v1.16b, v29.16b, v1.16b
	and	v29.16b, v6.16b, v18.16b
	bic	v24.16b, v8.16b, v26.16b
	cmeq	v26.16b, v11.16b, v3.16b
	cmeq	v17.16b, v21.16b, v17.16b
	orr	v20.16b, v30.16b, v20.16b
	mvn	v16.16b, v16.16b
	and	v18.16b, v28.16b, v18.16b
	eor	v19.16b, v19.16b, v27.16b
	cmeq	v21.16b, v29.16b, v3.16b
	and	v1.16b, v22.16b, v1.16b
	bic	v23.16b, v23.16b, v26.16b
	and	v24.16b, v24.16b, v25.16b
	cmgt	v25.16b, v3.16b, v28.16b
	cmeq	v20.16b, v20.16b, #0
	bic	v16.16b, v16.16b, v17.16b
	cmeq	v17.16b, v18.16b, v3.16b
	bic	v18.16b, v19.16b, v21.16b
	and	v22.16b, v23.16b, v24.16b
	cmhi	v23.16b, v31.16b, v28.16b
	eor	v20.16b, v25.16b, v20.16b
	and	v1.16b, v1.16b, v22.16b
	and	v16.16b, v16.16b, v23.16b
	bic	v17.16b, v20.16b, v17.16b
	and	v1.16b, v1.16b, v18.16b
	and	v16.16b, v17.16b, v16.16b
	and	v1.16b, v1.16b, v16.16b
	shl	v1.16b, v1.16b, #7
	cmge	v1.16b, v1.16b, #0
	and	v1.16b, v1.16b, v0.16b
	addp	v1.16b, v1.16b, v1.16b
	addp	v1.16b, v1.16b, v1.16b
	addp	v1.16b, v1.16b, v1.16b
	umov	w9, v1.h[0]
	cbnz	w9, LBB48_2
	cmge	v1.16b, v6.16b, #0
	cmhi	v16.16b, v7.16b, v2.16b
	adrp	x9, lstatic.10@PAGE
	add	x9, x9, lstatic.10@PAGEOFF
	cmhi	v17.16b, v6.16b, v15.16b
	movi	v18.16b, #64
	shl	v23.16b, v7.16b, #2
	ushr	v24.16b, v6.16b, #4
	movi	v20.16b, #232
	bsl	v1.16b, v3.16b, v7.16b
	movi	v21.16b, #231
	umax	v22.16b, v5.16b, v4.16b
	orr	v17.16b, v17.16b, v16.16b
	movi	v16.16b, #220
	movi	v19.16b, #127
	cmhi	v23.16b, v18.16b, v23.16b
	sli	v24.16b, v7.16b, #2
	umax	v25.16b, v1.16b, v5.16b
	bic	v26.16b, v0.16b, v17.16b
	ushr	v27.16b, v1.16b, #2
	movi	v17.16b, #240
	bsl	v23.16b, v21.16b, v20.16b
	and	v6.16b, v6.16b, v19.16b
	shl	v1.16b, v1.16b, #6
	add	v24.16b, v24.16b, v3.16b
	cmhi	v25.16b, v3.16b, v25.16b
	addp	v7.16b, v26.16b, v26.16b
	sli	v27.16b, v22.16b, #4
	add	v1.16b, v1.16b, v6.16b
	and	v22.16b, v25.16b, v16.16b
	addp	v7.16b, v7.16b, v7.16b
	cmhi	v25.16b, v17.16b, v5.16b
	add	v5.16b, v23.16b, v5.16b
	orr	v6.16b, v27.16b, v22.16b
	addp	v7.16b, v7.16b, v7.16b
	bif	v1.16b, v24.16b, v25.16b
	bit	v5.16b, v6.16b, v25.16b
	umov	w11, v7.h[0]
	zip1	v6.16b, v5.16b, v1.16b
	and	x10, x11, #0xff
	ubfx	x12, x11, #8, #8
	ldr	q7, [x9, x10, lsl #4]
	fmov	d22, x10
	add	x10, x23, x19
	zip2	v1.16b, v5.16b, v1.16b
	tbl	v6.16b, { v6.16b }, v7.16b
	cnt	v7.8b, v22.8b
	str	q6, [x10]
	fmov	w11, s7
	ldr	q5, [x9, x12, lsl #4]
	tbl	v1.16b, { v1.16b }, v5.16b
	ubfiz	x13, x11, #1, #32
	str	q1, [x10, x13]
	ldr	q1, [x8, #16]
	ldur	q6, [x8, #15]
	ldur	q23, [x8, #14]
	cmge	v5.16b, v1.16b, #0
	cmhi	v7.16b, v6.16b, v2.16b
	cmhi	v22.16b, v1.16b, v15.16b
	shl	v24.16b, v6.16b, #2
	umax	v25.16b, v23.16b, v4.16b
	ushr	v27.16b, v1.16b, #4
	and	v1.16b, v1.16b, v19.16b
	bsl	v5.16b, v3.16b, v6.16b
	orr	v7.16b, v7.16b, v22.16b
	cmhi	v24.16b, v18.16b, v24.16b
	sli	v27.16b, v6.16b, #2
	bic	v7.16b, v0.16b, v7.16b
	umax	v22.16b, v5.16b, v23.16b
	ushr	v26.16b, v5.16b, #2
	bsl	v24.16b, v21.16b, v20.16b
	shl	v5.16b, v5.16b, #6
	addp	v7.16b, v7.16b, v7.16b
	cmhi	v22.16b, v3.16b, v22.16b
	sli	v26.16b, v25.16b, #4
	add	v1.16b, v5.16b, v1.16b
	addp	v7.16b, v7.16b, v7.16b
	and	v6.16b, v22.16b, v16.16b
	add	v22.16b, v24.16b, v23.16b
	add	v24.16b, v27.16b, v3.16b
	cmhi	v23.16b, v17.16b, v23.16b
	addp	v5.16b, v7.16b, v7.16b
	fmov	d7, x12
	orr	v6.16b, v26.16b, v6.16b
	bif	v1.16b, v24.16b, v23.16b
	umov	w12, v5.h[0]
	cnt	v5.8b, v7.8b
	bif	v6.16b, v22.16b, v23.16b
	and	x13, x12, #0xff
	fmov	w14, s5
	zip1	v7.16b, v6.16b, v1.16b
	ldr	q5, [x9, x13, lsl #4]
	zip2	v1.16b, v6.16b, v1.16b
	add	x11, x11, x14
	add	x14, x10, x11, lsl #1
	tbl	v5.16b, { v7.16b }, v5.16b
	fmov	d7, x13
	ubfx	x13, x12, #8, #8
	cnt	v7.8b, v7.8b
	str	q5, [x14]
	ldr	q5, [x9, x13, lsl #4]
	fmov	w12, s7
	tbl	v1.16b, { v1.16b }, v5.16b
	ubfiz	x15, x12, #1, #32
	str	q1, [x14, x15]
	ldr	q1, [x8, #32]
	ldur	q6, [x8, #31]
	ldur	q23, [x8, #30]
	cmge	v5.16b, v1.16b, #0
	cmhi	v7.16b, v6.16b, v2.16b
	cmhi	v22.16b, v1.16b, v15.16b
	shl	v24.16b, v6.16b, #2
	umax	v25.16b, v23.16b, v4.16b
	ushr	v27.16b, v1.16b, #4
	and	v1.16b, v1.16b, v19.16b
	bsl	v5.16b, v3.16b, v6.16b
	orr	v7.16b, v7.16b, v22.16b
	cmhi	v24.16b, v18.16b, v24.16b
	sli	v27.16b, v6.16b, #2
	bic	v7.16b, v0.16b, v7.16b
	umax	v22.16b, v5.16b, v23.16b
	ushr	v26.16b, v5.16b, #2
	bsl	v24.16b, v21.16b, v20.16b
	shl	v5.16b, v5.16b, #6
	addp	v7.16b, v7.16b, v7.16b
	cmhi	v22.16b, v3.16b, v22.16b
	sli	v26.16b, v25.16b, #4
	add	v1.16b, v5.16b, v1.16b
	addp	v7.16b, v7.16b, v7.16b
	and	v6.16b, v22.16b, v16.16b
	add	v22.16b, v24.16b, v23.16b
	add	v24.16b, v27.16b, v3.16b
	cmhi	v23.16b, v17.16b, v23.16b
	addp	v5.16b, v7.16b, v7.16b
	fmov	d7, x13
	orr	v6.16b, v26.16b, v6.16b
	bif	v1.16b, v24.16b, v23.16b
	umov	w13, v5.h[0]
	cnt	v7.8b, v7.8b
	bif	v6.16b, v22.16b, v23.16b
	and	x15, x13, #0xff
	fmov	w14, s7
	ubfx	x13, x13, #8, #8
	zip1	v5.16b, v6.16b, v1.16b
	ldr	q7, [x9, x15, lsl #4]
	zip2	v1.16b, v6.16b, v1.16b
	add	x12, x12, x14
	add	x11, x11, x12
	tbl	v5.16b, { v5.16b }, v7.16b
	fmov	d7, x15
	add	x14, x10, x11, lsl #1
	cnt	v7.8b, v7.8b
	str	q5, [x14]
	ldr	q5, [x9, x13, lsl #4]
	fmov	w12, s7
	tbl	v1.16b, { v1.16b }, v5.16b
	ubfiz	x15, x12, #1, #32
	str	q1, [x14, x15]
	ldr	q1, [x8, #48]
	ldur	q6, [x8, #47]
	ldur	q22, [x8, #46]
	cmge	v5.16b, v1.16b, #0
	cmhi	v2.16b, v6.16b, v2.16b
	cmhi	v7.16b, v1.16b, v15.16b
	shl	v23.16b, v6.16b, #2
	umax	v4.16b, v22.16b, v4.16b
	bsl	v5.16b, v3.16b, v6.16b
	orr	v2.16b, v2.16b, v7.16b
	cmhi	v18.16b, v18.16b, v23.16b
	bic	v0.16b, v0.16b, v2.16b
	umax	v7.16b, v5.16b, v22.16b
	ushr	v24.16b, v5.16b, #2
	shl	v5.16b, v5.16b, #6
	addp	v0.16b, v0.16b, v0.16b
	cmhi	v2.16b, v3.16b, v7.16b
	ushr	v7.16b, v1.16b, #4
	sli	v24.16b, v4.16b, #4
	mov	v4.16b, v18.16b
	and	v1.16b, v1.16b, v19.16b
	addp	v0.16b, v0.16b, v0.16b
	sli	v7.16b, v6.16b, #2
	and	v2.16b, v2.16b, v16.16b
	cmhi	v6.16b, v17.16b, v22.16b
	bsl	v4.16b, v21.16b, v20.16b
	add	v1.16b, v5.16b, v1.16b
	fmov	d5, x13
	addp	v0.16b, v0.16b, v0.16b
	orr	v2.16b, v24.16b, v2.16b
	add	v3.16b, v7.16b, v3.16b
	add	v4.16b, v4.16b, v22.16b
	umov	w13, v0.h[0]
	bif	v1.16b, v3.16b, v6.16b
	cnt	v3.8b, v5.8b
	bif	v2.16b, v4.16b, v6.16b
	and	x15, x13, #0xff
	fmov	w14, s3
	ldr	q3, [x9, x15, lsl #4]
	zip1	v0.16b, v2.16b, v1.16b
	zip2	v1.16b, v2.16b, v1.16b
	add	x12, x12, x14
	add	x11, x11, x12
	ubfx	x12, x13, #8, #8
	tbl	v0.16b, { v0.16b }, v3.16b
	fmov	d3, x15
	add	x10, x10, x11, lsl #1
	fmov	d2, x12
	cnt	v3.8b, v3.8b
	str	q0, [x10]
	cnt	v0.8b, v2.8b
	ldr	q2, [x9, x12, lsl #4]
	fmov	w9, s3
	tbl	v1.16b, { v1.16b }, v2.16b
	fmov	w13, s0
	ubfiz	x12, x9, #1, #32
	add	x9, x9, x13
	str	q1, [x10, x12]
	add	x9, x11, x9
	ldrb	w10, [x8, #61]
	add	x19, x19, x9, lsl #1
	cmp	w10, #239
	b.ls	LBB48_24
	sub	x19, x19, #2
	mov	w8, #61
	b	LBB48_29
LBB48_21:
	movi	v17.16b, #160
	movi	v1.16b, #191
	ldur	q19, [x8, #14]
	movi	v2.16b, #223
	ldp	q21, q27, [x8, #16]
	movi	v16.16b, #254
	ldur	q20, [x8, #15]
	movi	v18.16b, #237
	movi	v3.16b, #224
	movi	v4.16b, #192
	ldur	q24, [x8, #30]
	cmhi	v23.16b, v17.16b, v21.16b
	uqsub	v22.16b, v20.16b, v1.16b
	ldur	q26, [x8, #31]
	uqsub	v19.16b, v19.16b, v2.16b
	ldur	q28, [x8, #46]
	ldur	q29, [x8, #47]
	and	v25.16b, v21.16b, v16.16b
	ldr	q30, [x8, #48]
	uqsub	v31.16b, v7.16b, v1.16b
	bsl	v23.16b, v3.16b, v18.16b
	cmhi	v9.16b, v17.16b, v6.16b
	cmhi	v10.16b, v17.16b, v27.16b
	cmhi	v17.16b, v17.16b, v30.16b
	uqsub	v24.16b, v24.16b, v2.16b
	uqsub	v12.16b, v29.16b, v1.16b
	cmeq	v25.16b, v25.16b, v4.16b
	orr	v19.16b, v22.16b, v19.16b
	uqsub	v22.16b, v5.16b, v2.16b
	uqsub	v28.16b, v28.16b, v2.16b
	and	v8.16b, v6.16b, v16.16b
	cmgt	v21.16b, v4.16b, v21.16b
	cmeq	v20.16b, v20.16b, v23.16b
	uqsub	v23.16b, v26.16b, v1.16b
	and	v11.16b, v27.16b, v16.16b
	mvn	v25.16b, v25.16b
	cmeq	v19.16b, v19.16b, #0
	and	v16.16b, v30.16b, v16.16b
	bsl	v10.16b, v3.16b, v18.16b
	bsl	v9.16b, v3.16b, v18.16b
	bsl	v17.16b, v3.16b, v18.16b
	orr	v18.16b, v22.16b, v31.16b
	cmgt	v27.16b, v4.16b, v27.16b
	eor	v19.16b, v21.16b, v19.16b
	cmeq	v21.16b, v8.16b, v4.16b
	bic	v20.16b, v25.16b, v20.16b
	orr	v22.16b, v23.16b, v24.16b
	cmeq	v23.16b, v11.16b, v4.16b
	orr	v25.16b, v12.16b, v28.16b
	cmeq	v16.16b, v16.16b, v4.16b
	cmeq	v24.16b, v26.16b, v10.16b
	cmeq	v17.16b, v29.16b, v17.16b
	mvn	v21.16b, v21.16b
	cmeq	v26.16b, v7.16b, v9.16b
	cmgt	v28.16b, v4.16b, v30.16b
	cmeq	v22.16b, v22.16b, #0
	mvn	v23.16b, v23.16b
	cmeq	v25.16b, v25.16b, #0
	mvn	v16.16b, v16.16b
	and	v19.16b, v19.16b, v20.16b
	cmeq	v18.16b, v18.16b, #0
	bic	v21.16b, v21.16b, v26.16b
	eor	v20.16b, v27.16b, v22.16b
	cmgt	v22.16b, v4.16b, v6.16b
	bic	v23.16b, v23.16b, v24.16b
	eor	v24.16b, v28.16b, v25.16b
	bic	v16.16b, v16.16b, v17.16b
	eor	v17.16b, v22.16b, v18.16b
	and	v18.16b, v21.16b, v19.16b
	and	v19.16b, v20.16b, v23.16b
	and	v16.16b, v24.16b, v16.16b
	and	v18.16b, v18.16b, v19.16b
	and	v16.16b, v17.16b, v16.16b
	and	v16.16b, v18.16b, v16.16b
	bic	v16.16b, v0.16b, v16.16b
	addp	v16.16b, v16.16b, v16.16b
	addp	v16.16b, v16.16b, v16.16b
	addp	v16.16b, v16.16b, v16.16b
	umov	w9, v16.h[0]
	cbnz	w9, LBB48_2
	cmhi	v16.16b, v7.16b, v2.16b
	cmhi	v17.16b, v6.16b, v1.16b
	adrp	x9, lstatic.10@PAGE
	add	x9, x9, lstatic.10@PAGEOFF
	umax	v5.16b, v5.16b, v3.16b
	orr	v16.16b, v17.16b, v16.16b
	cmge	v17.16b, v6.16b, #0
	bic	v16.16b, v0.16b, v16.16b
	bsl	v17.16b, v4.16b, v7.16b
	movi	v7.16b, #127
	addp	v16.16b, v16.16b, v16.16b
	ushr	v18.16b, v17.16b, #2
	and	v6.16b, v6.16b, v7.16b
	shl	v17.16b, v17.16b, #6
	addp	v16.16b, v16.16b, v16.16b
	sli	v18.16b, v5.16b, #4
	add	v5.16b, v17.16b, v6.16b
	addp	v16.16b, v16.16b, v16.16b
	zip1	v6.16b, v18.16b, v5.16b
	zip2	v5.16b, v18.16b, v5.16b
	umov	w11, v16.h[0]
	and	x10, x11, #0xff
	ubfx	x11, x11, #8, #8
	ldr	q16, [x9, x10, lsl #4]
	tbl	v6.16b, { v6.16b }, v16.16b
	fmov	d16, x10
	add	x10, x23, x19
	cnt	v16.8b, v16.8b
	str	q6, [x10]
	ldr	q6, [x9, x11, lsl #4]
	fmov	w12, s16
	tbl	v5.16b, { v5.16b }, v6.16b
	ubfiz	x13, x12, #1, #32
	str	q5, [x10, x13]
	ldur	q5, [x8, #15]
	ldr	q6, [x8, #16]
	cmhi	v16.16b, v5.16b, v2.16b
	cmhi	v17.16b, v6.16b, v1.16b
	orr	v16.16b, v16.16b, v17.16b
	cmge	v17.16b, v6.16b, #0
	and	v6.16b, v6.16b, v7.16b
	bic	v16.16b, v0.16b, v16.16b
	bit	v5.16b, v4.16b, v17.16b
	ldur	q17, [x8, #14]
	umax	v17.16b, v17.16b, v3.16b
	addp	v16.16b, v16.16b, v16.16b
	ushr	v18.16b, v5.16b, #2
	shl	v5.16b, v5.16b, #6
	addp	v16.16b, v16.16b, v16.16b
	sli	v18.16b, v17.16b, #4
	fmov	d17, x11
	add	v5.16b, v5.16b, v6.16b
	addp	v16.16b, v16.16b, v16.16b
	cnt	v6.8b, v17.8b
	umov	w13, v16.h[0]
	zip1	v16.16b, v18.16b, v5.16b
	zip2	v5.16b, v18.16b, v5.16b
	fmov	w14, s6
	and	x11, x13, #0xff
	ubfx	x13, x13, #8, #8
	ldr	q6, [x9, x11, lsl #4]
	tbl	v6.16b, { v16.16b }, v6.16b
	fmov	d16, x11
	add	x11, x12, x14
	add	x12, x10, x11, lsl #1
	cnt	v16.8b, v16.8b
	str	q6, [x12]
	ldr	q6, [x9, x13, lsl #4]
	fmov	w14, s16
	tbl	v5.16b, { v5.16b }, v6.16b
	ubfiz	x15, x14, #1, #32
	str	q5, [x12, x15]
	ldur	q5, [x8, #31]
	ldr	q6, [x8, #32]
	cmhi	v16.16b, v5.16b, v2.16b
	cmhi	v17.16b, v6.16b, v1.16b
	orr	v16.16b, v16.16b, v17.16b
	cmge	v17.16b, v6.16b, #0
	and	v6.16b, v6.16b, v7.16b
	bic	v16.16b, v0.16b, v16.16b
	bit	v5.16b, v4.16b, v17.16b
	ldur	q17, [x8, #30]
	umax	v17.16b, v17.16b, v3.16b
	addp	v16.16b, v16.16b, v16.16b
	ushr	v18.16b, v5.16b, #2
	shl	v5.16b, v5.16b, #6
	addp	v16.16b, v16.16b, v16.16b
	sli	v18.16b, v17.16b, #4
	fmov	d17, x13
	add	v5.16b, v5.16b, v6.16b
	addp	v16.16b, v16.16b, v16.16b
	cnt	v17.8b, v17.8b
	zip1	v6.16b, v18.16b, v5.16b
	zip2	v5.16b, v18.16b, v5.16b
	umov	w12, v16.h[0]
	fmov	w13, s17
	and	x15, x12, #0xff
	ubfx	x12, x12, #8, #8
	ldr	q16, [x9, x15, lsl #4]
	add	x13, x14, x13
	add	x11, x11, x13
	tbl	v6.16b, { v6.16b }, v16.16b
	fmov	d16, x15
	add	x13, x10, x11, lsl #1
	cnt	v16.8b, v16.8b
	str	q6, [x13]
	ldr	q6, [x9, x12, lsl #4]
	fmov	w14, s16
	tbl	v5.16b, { v5.16b }, v6.16b
	ubfiz	x15, x14, #1, #32
	str	q5, [x13, x15]
	ldur	q5, [x8, #47]
	ldr	q6, [x8, #48]
	cmhi	v2.16b, v5.16b, v2.16b
	cmhi	v1.16b, v6.16b, v1.16b
	orr	v1.16b, v2.16b, v1.16b
	ldur	q2, [x8, #46]
	umax	v2.16b, v2.16b, v3.16b
	bic	v0.16b, v0.16b, v1.16b
	cmge	v1.16b, v6.16b, #0
	addp	v0.16b, v0.16b, v0.16b
	bsl	v1.16b, v4.16b, v5.16b
	and	v4.16b, v6.16b, v7.16b
	fmov	d5, x12
	addp	v0.16b, v0.16b, v0.16b
	ushr	v3.16b, v1.16b, #2
	shl	v1.16b, v1.16b, #6
	addp	v0.16b, v0.16b, v0.16b
	sli	v3.16b, v2.16b, #4
	cnt	v2.8b, v5.8b
	add	v1.16b, v1.16b, v4.16b
	umov	w12, v0.h[0]
	zip1	v0.16b, v3.16b, v1.16b
	fmov	w13, s2
	zip2	v1.16b, v3.16b, v1.16b
	and	x15, x12, #0xff
	ubfx	x12, x12, #8, #8
	fmov	d4, x15
	ldr	q2, [x9, x15, lsl #4]
	add	x13, x14, x13
	add	x11, x11, x13
	tbl	v0.16b, { v0.16b }, v2.16b
	add	x13, x10, x11, lsl #1
	cnt	v2.8b, v4.8b
	str	q0, [x13]
	fmov	w10, s2
	ldr	q0, [x9, x12, lsl #4]
	tbl	v0.16b, { v1.16b }, v0.16b
	mov	w9, w10
	ubfiz	x9, x9, #1, #32
	str	q0, [x13, x9]
	ldrb	w9, [x8, #62]
	cmp	w9, #223
	b.ls	LBB48_26
	mov	w8, #62
	b	LBB48_27
LBB48_24:
	ldrb	w9, [x8, #62]
	cmp	w9, #223
	b.ls	LBB48_28
	mov	w8, #62
	b	LBB48_29
LBB48_26:
	ldrb	w8, [x8, #63]
	cmp	w8, #191
	mov	w8, #63
	cinc	x8, x8, ls
LBB48_27:
	fmov	d0, x12
	cnt	v0.8b, v0.8b
	fmov	w9, s0
	add	x9, x10, x9
	add	x9, x11, x9
	add	x19, x19, x9, lsl #1
	b	LBB48_29
LBB48_28:
	ldrb	w8, [x8, #63]
	cmp	w8, #191
	mov	w8, #63
	cinc	x8, x8, ls
LBB48_29:
	add	x4, x8, x4
	b	LBB48_2
LBB48_30:
	mov	x0, x20
	mov	x1, x19
	.cfi_def_cfa wsp, 144
	ldp	x20, x19, [sp, #128]
	ldp	x22, x21, [sp, #112]
	ldp	x24, x23, [sp, #96]
	ldp	x26, x25, [sp, #80]
	ldp	x29, x30, [sp, #64]
	ldp	d9, d8, [sp, #48]
	ldp	d11, d10, [sp, #32]
	ldp	d13, d12, [sp, #16]
	ldp	d15, d14, [sp], #144
	.cfi_def_cfa_offset 0
	.cfi_restore w19
	.cfi_restore w20
	.cfi_restore w21
	.cfi_restore w22
	.cfi_restore w23
	.cfi_restore w24
	.cfi_restore w25
	.cfi_restore w26
	.cfi_restore w30
	.cfi_restore w29
	.cfi_restore b8
	.cfi_restore b9
	.cfi_restore b10
	.cfi_restore b11
	.cfi_restore b12
	.cfi_restore b13
	.cfi_restore b14
	.cfi_restore b15
	ret
Lfunc_end48:
	.cfi_endproc

	.section	__TEXT,__literal16,16byte_literals
	.p2align	4, 0x0
lCPI49_0:
	.byte	255
	.byte	0
	.byte	255
	.byte	255
	.byte	0
	.byte	255
	.byte	255
	.byte	0
	.byte	255
	.byte	255
	.byte	0
	.byte	255
	.byte	255
	.byte	0
	.byte	255
	.byte	255
lCPI49_1:
	.byte	255
	.byte	255
	.byte	0
	.byte	255
	.byte	255
	.byte	0
	.byte	255
	.byte	255
	.byte	0
	.byte	255
	.byte	255
	.byte	0
	.byte	255
	.byte	255
	.byte	0
	.byte	255
lCPI49_2:
	.byte	0
	.byte	3
	.byte	6
	.byte	9
	.byte	12
	.byte	15
	.byte	18
	.byte	21
	.byte	24
	.byte	27
	.byte	30
	.byte	17
	.byte	20
	.byte	23
	.byte	26
	.byte	29
lCPI49_3:
	.byte	1
	.byte	4
	.byte	7
	.byte	10
	.byte	13
	.byte	16
	.byte	19
	.byte	22
	.byte	25
	.byte	28
	.byte	31
	.byte	18
	.byte	21
	.byte	24
	.byte	27
	.byte	30
lCPI49_4:
	.byte	2
	.byte	5
	.byte	8
	.byte	11
	.byte	14
	.byte	17
	.byte	20
	.byte	23
	.byte	26
	.byte	29
	.byte	16
	.byte	19
	.byte	22
	.byte	25
	.byte	28
	.byte	31
lCPI49_5:
	.byte	1
	.byte	2
	.byte	4
	.byte	8
	.byte	16
	.byte	32
	.byte	64
	.byte	128
	.byte	1
	.byte	2
	.byte	4
	.byte	8
	.byte	16
	.byte	32
	.byte	64
	.byte	128
	.section	__TEXT,__text,regular,pure_instructions
	.p2align	2
"_utf16_from_utf8::rest::write_rest::<#8b18edd9dd9aa8df>":
	.cfi_startproc
	stp	x29, x30, [sp, #-48]!
	.cfi_def_cfa_offset 48
	str	x21, [sp, #16]
	stp	x20, x19, [sp, #32]
	mov	x29, sp
	.cfi_def_cfa w29, 48
	.cfi_offset w19, -8
	.cfi_offset w20, -16
	.cfi_offset w21, -32
	.cfi_offset w30, -40
	.cfi_offset w29, -48
	mov	x19, x5
	mov	x20, x4
	subs	x9, x1, x4
	adrp	x8, lCPI49_5@PAGE
	b.eq	LBB49_9
	ldrb	w10, [x0, x20]
	and	w10, w10, #0xf0
	cmp	w10, #224
	b.ne	LBB49_9
	subs	x9, x9, #48
	b.lo	LBB49_9
	sub	x10, x3, x19
	subs	x10, x10, #32
	b.lo	LBB49_9
	add	x11, x0, #16
LBB49_5:
	adrp	x13, lCPI49_0@PAGE
	add	x12, x11, x20
	movi	v7.16b, #192
	ldr	q0, [x13, lCPI49_0@PAGEOFF]
	ldp	q2, q1, [x12]
	ldur	q4, [x12, #-16]
	adrp	x12, lCPI49_1@PAGE
	mov	v5.16b, v0.16b
	ldr	q0, [x12, lCPI49_1@PAGEOFF]
	adrp	x12, lCPI49_2@PAGE
	ldr	q3, [x12, lCPI49_2@PAGEOFF]
	adrp	x12, lCPI49_3@PAGE
	mov	v17.16b, v0.16b
	ldr	q6, [x12, lCPI49_3@PAGEOFF]
	adrp	x12, lCPI49_4@PAGE
	bsl	v5.16b, v1.16b, v2.16b
	bsl	v17.16b, v2.16b, v1.16b
	bif	v1.16b, v2.16b, v0.16b
	mov	v16.16b, v4.16b
	mov	v0.16b, v4.16b
	tbl	v3.16b, { v0.16b, v1.16b }, v3.16b
	tbl	v0.16b, { v16.16b, v17.16b }, v6.16b
	movi	v6.16b, #240
	ldr	q1, [x12, lCPI49_4@PAGEOFF]
	tbl	v2.16b, { v4.16b, v5.16b }, v1.16b
	movi	v4.16b, #32
	movi	v5.16b, #128
	and	v6.16b, v3.16b, v6.16b
	and	v16.16b, v0.16b, v7.16b
	add	v4.16b, v6.16b, v4.16b
	eor	v6.16b, v16.16b, v5.16b
	and	v7.16b, v2.16b, v7.16b
	eor	v5.16b, v7.16b, v5.16b
	umax	v4.16b, v4.16b, v6.16b
	orr	v4.16b, v4.16b, v5.16b
	cmeq	v5.16b, v4.16b, #0
	ldr	q4, [x8, lCPI49_5@PAGEOFF]
	bic	v5.16b, v4.16b, v5.16b
	addp	v5.16b, v5.16b, v5.16b
	addp	v5.16b, v5.16b, v5.16b
	addp	v5.16b, v5.16b, v5.16b
	umov	w12, v5.h[0]
	cbnz	w12, LBB49_9
	ushr	v1.16b, v0.16b, #2
	movi	v5.16b, #7
	movi	v6.16b, #216
	sli	v1.16b, v3.16b, #4
	movi	v3.16b, #248
	and	v3.16b, v1.16b, v3.16b
	cmhi	v5.16b, v1.16b, v5.16b
	cmeq	v3.16b, v3.16b, v6.16b
	and	v3.16b, v3.16b, v5.16b
	orn	v3.16b, v3.16b, v5.16b
	and	v3.16b, v3.16b, v4.16b
	addp	v3.16b, v3.16b, v3.16b
	addp	v3.16b, v3.16b, v3.16b
	addp	v3.16b, v3.16b, v3.16b
	umov	w12, v3.h[0]
	cbnz	w12, LBB49_9
	sli	v2.16b, v0.16b, #6
	add	x12, x2, x19
	subs	x9, x9, #48
	add	x19, x19, #32
	add	x20, x20, #48
	zip2	v0.16b, v1.16b, v2.16b
	st2	{ v1.8b, v2.8b }, [x12], #16
	str	q0, [x12]
	b.lo	LBB49_9
	cmp	x10, #31
	sub	x10, x10, #32
	b.hi	LBB49_5
LBB49_9:
	sub	x21, x1, #1
	ldrb	w9, [x0, x21]
	cmp	w9, #191
	b.hi	LBB49_12
	sub	x21, x1, #2
	ldrb	w9, [x0, x21]
	cmp	w9, #223
	b.hi	LBB49_12
	sub	x9, x1, #3
	ldrb	w10, [x0, x9]
	cmp	w10, #239
	csel	x21, x9, x1, hi
LBB49_12:
	cmp	x21, #17
	b.lo	LBB49_24
	subs	x9, x21, x20
	b.ls	LBB49_24
	sub	x10, x3, x19
	subs	x10, x10, #16
	csel	x10, xzr, x10, lo
	cmp	x9, x10, lsr #1
	b.hi	LBB49_24
	subs	x9, x20, #18
	add	x11, x0, x21
	csel	x10, xzr, x9, lo
	ldur	q0, [x11, #-16]
	sub	x9, x21, x10
	cmp	x9, #17
	b.lo	LBB49_18
	add	x10, x0, x10
LBB49_17:
	ldr	q1, [x10], #16
	sub	x9, x9, #16
	cmp	x9, #16
	umax	v0.16b, v0.16b, v1.16b
	b.hi	LBB49_17
LBB49_18:
	movi	v1.16b, #224
	cmhs	v2.16b, v0.16b, v1.16b
	ldr	q1, [x8, lCPI49_5@PAGEOFF]
	and	v2.16b, v2.16b, v1.16b
	addp	v2.16b, v2.16b, v2.16b
	addp	v2.16b, v2.16b, v2.16b
	addp	v2.16b, v2.16b, v2.16b
	umov	w8, v2.h[0]
	cbz	w8, LBB49_21
	movi	v2.16b, #240
	add	x3, x2, x19
	mov	x1, x21
	mov	x2, x20
	cmhs	v0.16b, v0.16b, v2.16b
	and	v0.16b, v0.16b, v1.16b
	addp	v0.16b, v0.16b, v0.16b
	addp	v0.16b, v0.16b, v0.16b
	addp	v0.16b, v0.16b, v0.16b
	umov	w8, v0.h[0]
	cbz	w8, LBB49_22
	bl	"_utf16_from_utf8::rest::write_rest_of::<#333b1ec0269cc57c>"
	b	LBB49_23
LBB49_21:
	add	x3, x2, x19
	mov	x1, x21
	mov	x2, x20
	bl	"_utf16_from_utf8::rest::write_rest_of::<#00efe7c0aa38a8e6>"
	b	LBB49_23
LBB49_22:
	bl	"_utf16_from_utf8::rest::write_rest_of::<#639a12b236a9ca5f>"
LBB49_23:
	and	w8, w0, #0xff
	add	x9, x1, x19
	cmp	w8, #1
	csel	x20, x21, x20, eq
	csel	x19, x9, x19, eq
LBB49_24:
	mov	x0, x20
	mov	x1, x19
	.cfi_def_cfa wsp, 48
	ldp	x20, x19, [sp, #32]
	ldr	x21, [sp, #16]
	ldp	x29, x30, [sp], #48
	.cfi_def_cfa_offset 0
	.cfi_restore w19
	.cfi_restore w20
	.cfi_restore w21
	.cfi_restore w30
	.cfi_restore w29
	ret
Lfunc_end49:
	.cfi_endproc

	.section	__TEXT,__literal16,16byte_literals
	.p2align	4, 0x0
lCPI50_0:
	.byte	1
	.byte	2
	.byte	4
	.byte	8
	.byte	16
	.byte	32
	.byte	64
	.byte	128
	.byte	1
	.byte	2
	.byte	4
	.byte	8
	.byte	16
	.byte	32
	.byte	64
	.byte	128
	.section	__TEXT,__text,regular,pure_instructions
	.p2align	2
"_utf16_from_utf8::rest::write_rest_of::<#00efe7c0aa38a8e6>":
	.cfi_startproc
	movi	v0.2d, #0000000000000000
	sub	x11, x1, x2
	adrp	x9, lCPI50_0@PAGE
	cmp	x11, #16
	adrp	x10, lstatic.10@PAGE
	add	x10, x10, lstatic.10@PAGEOFF
	mov	x8, xzr
	b.hs	LBB50_6
LBB50_1:
	cmp	x2, x1
	b.eq	LBB50_13
	sub	x11, x1, #16
	add	x12, x0, x11
	cmp	x11, #3
	ldr	q1, [x12]
	b.lo	LBB50_11
	ldur	q2, [x12, #-1]
	b	LBB50_12
LBB50_4:
	add	x12, x0, x2
	ldur	q2, [x12, #-1]
LBB50_5:
	movi	v3.16b, #191
	ldr	q5, [x9, lCPI50_0@PAGEOFF]
	movi	v7.16b, #127
	sub	x11, x11, #16
	add	x2, x2, #16
	cmp	x11, #15
	cmhs	v4.16b, v3.16b, v1.16b
	and	v7.16b, v1.16b, v7.16b
	and	v4.16b, v4.16b, v5.16b
	movi	v5.16b, #192
	addp	v4.16b, v4.16b, v4.16b
	uqsub	v6.16b, v2.16b, v5.16b
	cmhi	v2.16b, v2.16b, v3.16b
	cmgt	v17.16b, v5.16b, v1.16b
	addp	v4.16b, v4.16b, v4.16b
	eor	v2.16b, v17.16b, v2.16b
	shl	v16.16b, v6.16b, #6
	ushr	v6.16b, v6.16b, #2
	addp	v4.16b, v4.16b, v4.16b
	add	v7.16b, v16.16b, v7.16b
	umov	w12, v4.h[0]
	movi	v4.16b, #254
	zip1	v16.16b, v6.16b, v7.16b
	and	x13, x12, #0xff
	ubfx	x12, x12, #8, #8
	and	v1.16b, v1.16b, v4.16b
	ldr	q3, [x10, x13, lsl #4]
	fmov	d4, x13
	add	x13, x3, x8
	tbl	v3.16b, { v16.16b }, v3.16b
	fmov	d16, x12
	cmeq	v1.16b, v1.16b, v5.16b
	cnt	v4.8b, v4.8b
	zip2	v5.16b, v6.16b, v7.16b
	cnt	v16.8b, v16.8b
	orr	v1.16b, v1.16b, v2.16b
	str	q3, [x13]
	fmov	w14, s4
	ldr	q3, [x10, x12, lsl #4]
	umax	v0.16b, v0.16b, v1.16b
	fmov	w12, s16
	tbl	v2.16b, { v5.16b }, v3.16b
	ubfiz	x15, x14, #1, #32
	add	x12, x14, x12
	str	q2, [x13, x15]
	add	x8, x8, x12, lsl #1
	b.ls	LBB50_1
LBB50_6:
	ldr	q1, [x0, x2]
	cmp	x2, #3
	b.hs	LBB50_4
	cbz	x2, LBB50_9
	add	x12, x0, x2
	sub	x12, x12, #1
	ld1r	{ v2.16b }, [x12]
	b	LBB50_10
LBB50_9:
	movi	v2.2d, #0000000000000000
LBB50_10:
	ext	v2.16b, v2.16b, v1.16b, #15
	b	LBB50_5
LBB50_11:
	add	x12, x0, x1
	sub	x12, x12, #17
	ld1r	{ v2.16b }, [x12]
	ext	v2.16b, v2.16b, v1.16b, #15
LBB50_12:
	movi	v3.16b, #191
	ldr	q5, [x9, lCPI50_0@PAGEOFF]
	movi	v7.16b, #127
	sub	x11, x2, x11
	cmhs	v4.16b, v3.16b, v1.16b
	and	v4.16b, v4.16b, v5.16b
	movi	v5.16b, #192
	addp	v4.16b, v4.16b, v4.16b
	uqsub	v6.16b, v2.16b, v5.16b
	cmhi	v2.16b, v2.16b, v3.16b
	cmgt	v16.16b, v5.16b, v1.16b
	addp	v4.16b, v4.16b, v4.16b
	eor	v2.16b, v16.16b, v2.16b
	addp	v4.16b, v4.16b, v4.16b
	umov	w12, v4.h[0]
	and	v4.16b, v1.16b, v7.16b
	shl	v7.16b, v6.16b, #6
	ushr	v6.16b, v6.16b, #2
	add	v4.16b, v7.16b, v4.16b
	movi	v7.16b, #254
	lsr	x12, x12, x11
	lsl	x11, x12, x11
	zip1	v17.16b, v6.16b, v4.16b
	zip2	v4.16b, v6.16b, v4.16b
	and	v1.16b, v1.16b, v7.16b
	ubfx	x12, x11, #8, #32
	and	x13, x11, #0xff
	lsr	x11, x11, #8
	ldr	q7, [x10, x13, lsl #4]
	fmov	d3, x12
	cmeq	v1.16b, v1.16b, v5.16b
	add	x12, x3, x8
	tbl	v7.16b, { v17.16b }, v7.16b
	fmov	d17, x13
	cnt	v3.8b, v3.8b
	orr	v1.16b, v1.16b, v2.16b
	cnt	v5.8b, v17.8b
	str	q7, [x12]
	ldr	q2, [x10, x11, lsl #4]
	umax	v0.16b, v0.16b, v1.16b
	addv	b3, v3.8b
	fmov	w13, s5
	tbl	v2.16b, { v4.16b }, v2.16b
	fmov	w10, s3
	ubfiz	x11, x13, #1, #32
	add	x10, x13, x10
	str	q2, [x12, x11]
	add	x8, x8, x10, lsl #1
LBB50_13:
	cmeq	v0.16b, v0.16b, #0
	ldr	q1, [x9, lCPI50_0@PAGEOFF]
	bic	v0.16b, v1.16b, v0.16b
	addp	v0.16b, v0.16b, v0.16b
	addp	v0.16b, v0.16b, v0.16b
	addp	v0.16b, v0.16b, v0.16b
	umov	w9, v0.h[0]
	cbz	w9, LBB50_15
	mov	x1, xzr
	mov	w0, wzr
	ret
LBB50_15:
	sub	x9, x1, #1
	ldrb	w10, [x0, x9]
	cmp	w10, #191
	b.hi	LBB50_18
	sub	x9, x1, #2
	ldrb	w10, [x0, x9]
	cmp	w10, #223
	b.hi	LBB50_18
	sub	x9, x1, #3
	ldrb	w10, [x0, x9]
	cmp	w10, #239
	csel	x9, x9, x1, hi
LBB50_18:
	cmp	x9, x1
	cset	w0, hs
	csel	x1, x8, xzr, hs
	ret
Lfunc_end50:
	.cfi_endproc

	.section	__TEXT,__literal16,16byte_literals
	.p2align	4, 0x0
lCPI51_0:
	.byte	1
	.byte	2
	.byte	4
	.byte	8
	.byte	16
	.byte	32
	.byte	64
	.byte	128
	.byte	1
	.byte	2
	.byte	4
	.byte	8
	.byte	16
	.byte	32
	.byte	64
	.byte	128
	.section	__TEXT,__text,regular,pure_instructions
	.p2align	2
"_utf16_from_utf8::rest::write_rest_of::<#639a12b236a9ca5f>":
	.cfi_startproc
	movi	v0.2d, #0000000000000000
	sub	x11, x1, x2
	adrp	x9, lCPI51_0@PAGE
	cmp	x11, #16
	adrp	x10, lstatic.10@PAGE
	add	x10, x10, lstatic.10@PAGEOFF
	mov	x8, xzr
	b.hs	LBB51_6
LBB51_1:
	cmp	x2, x1
	b.eq	LBB51_18
	sub	x11, x1, #16
	add	x12, x0, x11
	cmp	x11, #3
	ldr	q1, [x12]
	b.lo	LBB51_13
	ldur	q3, [x12, #-2]
	ldur	q2, [x12, #-1]
	b	LBB51_17
LBB51_4:
	add	x12, x0, x2
	ldur	q3, [x12, #-2]
	ldur	q1, [x12, #-1]
LBB51_5:
	movi	v4.16b, #223
	movi	v5.16b, #191
	sub	x11, x11, #16
	movi	v16.16b, #192
	movi	v17.16b, #224
	cmp	x11, #15
	movi	v18.16b, #127
	movi	v19.16b, #160
	add	x2, x2, #16
	cmhi	v6.16b, v1.16b, v4.16b
	cmhi	v7.16b, v2.16b, v5.16b
	uqsub	v5.16b, v1.16b, v5.16b
	umax	v20.16b, v3.16b, v17.16b
	uqsub	v3.16b, v3.16b, v4.16b
	movi	v4.16b, #237
	and	v18.16b, v2.16b, v18.16b
	cmhi	v19.16b, v19.16b, v2.16b
	orr	v6.16b, v7.16b, v6.16b
	ldr	q7, [x9, lCPI51_0@PAGEOFF]
	bit	v4.16b, v17.16b, v19.16b
	orr	v3.16b, v3.16b, v5.16b
	bic	v6.16b, v7.16b, v6.16b
	cmge	v7.16b, v2.16b, #0
	cmeq	v3.16b, v3.16b, #0
	addp	v6.16b, v6.16b, v6.16b
	bsl	v7.16b, v16.16b, v1.16b
	cmeq	v1.16b, v1.16b, v4.16b
	addp	v6.16b, v6.16b, v6.16b
	ushr	v21.16b, v7.16b, #2
	shl	v7.16b, v7.16b, #6
	addp	v6.16b, v6.16b, v6.16b
	sli	v21.16b, v20.16b, #4
	movi	v20.16b, #254
	add	v7.16b, v7.16b, v18.16b
	umov	w12, v6.h[0]
	and	v5.16b, v2.16b, v20.16b
	zip1	v6.16b, v21.16b, v7.16b
	cmgt	v2.16b, v16.16b, v2.16b
	and	x13, x12, #0xff
	ubfx	x12, x12, #8, #8
	ldr	q17, [x10, x13, lsl #4]
	cmeq	v5.16b, v5.16b, v16.16b
	fmov	d4, x13
	fmov	d16, x12
	eor	v2.16b, v3.16b, v2.16b
	add	x13, x3, x8
	tbl	v6.16b, { v6.16b }, v17.16b
	zip2	v3.16b, v21.16b, v7.16b
	cnt	v4.8b, v4.8b
	orr	v1.16b, v5.16b, v1.16b
	cnt	v16.8b, v16.8b
	str	q6, [x13]
	orn	v1.16b, v1.16b, v2.16b
	fmov	w14, s4
	ldr	q4, [x10, x12, lsl #4]
	fmov	w12, s16
	tbl	v2.16b, { v3.16b }, v4.16b
	umax	v0.16b, v0.16b, v1.16b
	ubfiz	x15, x14, #1, #32
	add	x12, x14, x12
	add	x8, x8, x12, lsl #1
	str	q2, [x13, x15]
	b.ls	LBB51_1
LBB51_6:
	ldr	q2, [x0, x2]
	cmp	x2, #3
	b.hs	LBB51_4
	cbz	x2, LBB51_10
	add	x12, x0, x2
	cmp	x2, #2
	sub	x12, x12, #1
	ld1r	{ v1.16b }, [x12]
	ext	v1.16b, v1.16b, v2.16b, #15
	b.ne	LBB51_11
	ldrb	w12, [x0]
	b	LBB51_12
LBB51_10:
	movi	v1.2d, #0000000000000000
	mov	w12, wzr
	ext	v1.16b, v1.16b, v2.16b, #15
	b	LBB51_12
LBB51_11:
	mov	w12, wzr
LBB51_12:
	dup	v3.16b, w12
	ext	v3.16b, v3.16b, v1.16b, #15
	b	LBB51_5
LBB51_13:
	add	x12, x0, x1
	cmp	x11, #2
	sub	x12, x12, #17
	ld1r	{ v2.16b }, [x12]
	ext	v2.16b, v2.16b, v1.16b, #15
	b.ne	LBB51_15
	ldrb	w12, [x0]
	b	LBB51_16
LBB51_15:
	mov	w12, wzr
LBB51_16:
	dup	v3.16b, w12
	ext	v3.16b, v3.16b, v2.16b, #15
LBB51_17:
	movi	v4.16b, #223
	movi	v5.16b, #191
	sub	x11, x2, x11
	cmge	v16.16b, v1.16b, #0
	movi	v17.16b, #224
	movi	v18.16b, #127
	movi	v21.16b, #237
	cmhi	v6.16b, v2.16b, v4.16b
	cmhi	v7.16b, v1.16b, v5.16b
	uqsub	v5.16b, v2.16b, v5.16b
	umax	v19.16b, v3.16b, v17.16b
	uqsub	v3.16b, v3.16b, v4.16b
	and	v18.16b, v1.16b, v18.16b
	movi	v4.16b, #254
	orr	v6.16b, v7.16b, v6.16b
	ldr	q7, [x9, lCPI51_0@PAGEOFF]
	orr	v3.16b, v3.16b, v5.16b
	bic	v6.16b, v7.16b, v6.16b
	movi	v7.16b, #192
	and	v4.16b, v1.16b, v4.16b
	cmeq	v3.16b, v3.16b, #0
	addp	v6.16b, v6.16b, v6.16b
	bsl	v16.16b, v7.16b, v2.16b
	cmeq	v4.16b, v4.16b, v7.16b
	addp	v6.16b, v6.16b, v6.16b
	ushr	v20.16b, v16.16b, #2
	shl	v16.16b, v16.16b, #6
	addp	v6.16b, v6.16b, v6.16b
	sli	v20.16b, v19.16b, #4
	add	v16.16b, v16.16b, v18.16b
	umov	w12, v6.h[0]
	movi	v6.16b, #160
	cmhi	v6.16b, v6.16b, v1.16b
	lsr	x12, x12, x11
	cmgt	v1.16b, v7.16b, v1.16b
	lsl	x11, x12, x11
	mov	v5.16b, v6.16b
	zip1	v6.16b, v20.16b, v16.16b
	eor	v1.16b, v3.16b, v1.16b
	ubfx	x12, x11, #8, #32
	and	x13, x11, #0xff
	lsr	x11, x11, #8
	bsl	v5.16b, v17.16b, v21.16b
	fmov	d7, x12
	add	x12, x3, x8
	cnt	v7.8b, v7.8b
	cmeq	v2.16b, v2.16b, v5.16b
	ldr	q5, [x10, x13, lsl #4]
	tbl	v5.16b, { v6.16b }, v5.16b
	fmov	d6, x13
	orr	v2.16b, v4.16b, v2.16b
	addv	b4, v7.8b
	cnt	v3.8b, v6.8b
	zip2	v6.16b, v20.16b, v16.16b
	str	q5, [x12]
	orn	v1.16b, v2.16b, v1.16b
	ldr	q2, [x10, x11, lsl #4]
	fmov	w10, s4
	fmov	w13, s3
	tbl	v2.16b, { v6.16b }, v2.16b
	umax	v0.16b, v0.16b, v1.16b
	add	x10, x13, x10
	ubfiz	x11, x13, #1, #32
	add	x8, x8, x10, lsl #1
	str	q2, [x12, x11]
LBB51_18:
	cmeq	v0.16b, v0.16b, #0
	ldr	q1, [x9, lCPI51_0@PAGEOFF]
	bic	v0.16b, v1.16b, v0.16b
	addp	v0.16b, v0.16b, v0.16b
	addp	v0.16b, v0.16b, v0.16b
	addp	v0.16b, v0.16b, v0.16b
	umov	w9, v0.h[0]
	cbz	w9, LBB51_20
	mov	x1, xzr
	mov	w0, wzr
	ret
LBB51_20:
	sub	x9, x1, #1
	ldrb	w10, [x0, x9]
	cmp	w10, #191
	b.hi	LBB51_23
	sub	x9, x1, #2
	ldrb	w10, [x0, x9]
	cmp	w10, #223
	b.hi	LBB51_23
	sub	x9, x1, #3
	ldrb	w10, [x0, x9]
	cmp	w10, #239
	csel	x9, x9, x1, hi
LBB51_23:
	cmp	x9, x1
	cset	w0, hs
	csel	x1, x8, xzr, hs
	ret
Lfunc_end51:
	.cfi_endproc

	.section	__TEXT,__literal16,16byte_literals
	.p2align	4, 0x0
lCPI52_0:
	.byte	1
	.byte	2
	.byte	4
	.byte	8
	.byte	16
	.byte	32
	.byte	64
	.byte	128
	.byte	1
	.byte	2
	.byte	4
	.byte	8
	.byte	16
	.byte	32
	.byte	64
	.byte	128
	.section	__TEXT,__text,regular,pure_instructions
	.p2align	2
"_utf16_from_utf8::rest::write_rest_of::<#333b1ec0269cc57c>":
	.cfi_startproc
	movi	v0.2d, #0000000000000000
	sub	x11, x1, x2
	adrp	x9, lCPI52_0@PAGE
	cmp	x11, #16
	adrp	x10, lstatic.10@PAGE
	add	x10, x10, lstatic.10@PAGEOFF
	mov	x8, xzr
	b.hs	LBB52_6
LBB52_1:
	cmp	x2, x1
	b.eq	LBB52_24
	sub	x11, x1, #16
	add	x12, x0, x11
	cmp	x11, #3
	ldr	q1, [x12]
	b.lo	LBB52_16
	ldur	q5, [x12, #-3]
	ldur	q2, [x12, #-2]
	ldur	q3, [x12, #-1]
	b	LBB52_20
LBB52_4:
	movi	v7.16b, #223
	movi	v16.16b, #191
	movi	v18.16b, #239
	movi	v22.16b, #160
	movi	v23.16b, #144
	movi	v6.16b, #192
	cmge	v17.16b, v1.16b, #0
	movi	v21.16b, #224
	movi	v26.16b, #240
	movi	v27.16b, #237
	movi	v25.16b, #64
	shl	v24.16b, v2.16b, #2
	uqsub	v19.16b, v2.16b, v16.16b
	uqsub	v20.16b, v3.16b, v7.16b
	uqsub	v5.16b, v5.16b, v18.16b
	cmhi	v7.16b, v2.16b, v7.16b
	cmhi	v16.16b, v1.16b, v16.16b
	bsl	v17.16b, v6.16b, v2.16b
	movi	v28.16b, #231
	cmhi	v24.16b, v25.16b, v24.16b
	ushr	v25.16b, v1.16b, #4
	umax	v18.16b, v19.16b, v20.16b
	cmhi	v20.16b, v22.16b, v1.16b
	cmhi	v22.16b, v23.16b, v1.16b
	movi	v19.16b, #244
	orr	v7.16b, v16.16b, v7.16b
	movi	v23.16b, #232
	sli	v25.16b, v2.16b, #2
	orr	v5.16b, v18.16b, v5.16b
	mov	v16.16b, v20.16b
	mov	v18.16b, v22.16b
	movi	v20.16b, #254
	umax	v22.16b, v17.16b, v3.16b
	bic	v4.16b, v4.16b, v7.16b
	cmgt	v7.16b, v6.16b, v1.16b
	bit	v23.16b, v28.16b, v24.16b
	movi	v24.16b, #127
	bsl	v16.16b, v21.16b, v27.16b
	bsl	v18.16b, v26.16b, v19.16b
	cmeq	v5.16b, v5.16b, #0
	umax	v21.16b, v3.16b, v21.16b
	ushr	v27.16b, v17.16b, #2
	addp	v4.16b, v4.16b, v4.16b
	and	v20.16b, v1.16b, v20.16b
	shl	v17.16b, v17.16b, #6
	eor	v5.16b, v5.16b, v7.16b
	cmhi	v7.16b, v6.16b, v22.16b
	cmeq	v16.16b, v2.16b, v16.16b
	cmeq	v18.16b, v2.16b, v18.16b
	movi	v2.16b, #220
	sli	v27.16b, v21.16b, #4
	addp	v4.16b, v4.16b, v4.16b
	orr	v16.16b, v18.16b, v16.16b
	cmhi	v18.16b, v1.16b, v19.16b
	cmeq	v19.16b, v20.16b, v6.16b
	and	v1.16b, v1.16b, v24.16b
	and	v2.16b, v7.16b, v2.16b
	add	v6.16b, v25.16b, v6.16b
	addp	v4.16b, v4.16b, v4.16b
	orn	v5.16b, v19.16b, v5.16b
	orr	v7.16b, v16.16b, v18.16b
	cmhi	v16.16b, v26.16b, v3.16b
	add	v1.16b, v17.16b, v1.16b
	orr	v2.16b, v27.16b, v2.16b
	add	v3.16b, v23.16b, v3.16b
	umov	w12, v4.h[0]
	orr	v5.16b, v7.16b, v5.16b
	bif	v1.16b, v6.16b, v16.16b
	bif	v2.16b, v3.16b, v16.16b
	umax	v0.16b, v0.16b, v5.16b
LBB52_5:
	zip1	v3.16b, v2.16b, v1.16b
	and	x13, x12, #0xff
	lsr	x12, x12, #8
	ldr	q4, [x10, x13, lsl #4]
	zip2	v1.16b, v2.16b, v1.16b
	sub	x11, x11, #16
	fmov	d5, x12
	cmp	x11, #15
	add	x2, x2, #16
	tbl	v3.16b, { v3.16b }, v4.16b
	fmov	d4, x13
	add	x13, x3, x8
	cnt	v5.8b, v5.8b
	cnt	v4.8b, v4.8b
	str	q3, [x13]
	ldr	q2, [x10, x12, lsl #4]
	fmov	w14, s5
	fmov	w12, s4
	tbl	v1.16b, { v1.16b }, v2.16b
	ubfiz	x15, x12, #1, #32
	add	x12, x12, x14
	add	x8, x8, x12, lsl #1
	str	q1, [x13, x15]
	b.ls	LBB52_1
LBB52_6:
	ldr	q1, [x0, x2]
	cmp	x2, #3
	b.lo	LBB52_8
	add	x12, x0, x2
	ldur	q5, [x12, #-3]
	ldur	q3, [x12, #-2]
	ldur	q2, [x12, #-1]
	b	LBB52_14
LBB52_8:
	cbz	x2, LBB52_11
	add	x12, x0, x2
	cmp	x2, #2
	sub	x12, x12, #1
	ld1r	{ v2.16b }, [x12]
	ext	v2.16b, v2.16b, v1.16b, #15
	b.ne	LBB52_12
	ldrb	w12, [x0]
	b	LBB52_13
LBB52_11:
	movi	v2.2d, #0000000000000000
	mov	w12, wzr
	ext	v2.16b, v2.16b, v1.16b, #15
	b	LBB52_13
LBB52_12:
	mov	w12, wzr
LBB52_13:
	dup	v3.16b, w12
	movi	v4.2d, #0000000000000000
	ext	v3.16b, v3.16b, v2.16b, #15
	ext	v5.16b, v4.16b, v3.16b, #15
LBB52_14:
	orr	v4.16b, v5.16b, v1.16b
	cmlt	v6.16b, v4.16b, #0
	ldr	q4, [x9, lCPI52_0@PAGEOFF]
	and	v6.16b, v6.16b, v4.16b
	addp	v6.16b, v6.16b, v6.16b
	addp	v6.16b, v6.16b, v6.16b
	addp	v6.16b, v6.16b, v6.16b
	umov	w12, v6.h[0]
	cbnz	w12, LBB52_4
	movi	v2.2d, #0000000000000000
	mov	w12, #65535
	b	LBB52_5
LBB52_16:
	add	x12, x0, x1
	cmp	x11, #2
	sub	x12, x12, #17
	ld1r	{ v2.16b }, [x12]
	ext	v3.16b, v2.16b, v1.16b, #15
	b.ne	LBB52_18
	ldrb	w12, [x0]
	b	LBB52_19
LBB52_18:
	mov	w12, wzr
LBB52_19:
	dup	v2.16b, w12
	movi	v4.2d, #0000000000000000
	ext	v2.16b, v2.16b, v3.16b, #15
	ext	v5.16b, v4.16b, v2.16b, #15
LBB52_20:
	orr	v4.16b, v5.16b, v1.16b
	cmlt	v6.16b, v4.16b, #0
	ldr	q4, [x9, lCPI52_0@PAGEOFF]
	and	v6.16b, v6.16b, v4.16b
	addp	v6.16b, v6.16b, v6.16b
	addp	v6.16b, v6.16b, v6.16b
	addp	v6.16b, v6.16b, v6.16b
	umov	w12, v6.h[0]
	cbz	w12, LBB52_22
	movi	v7.16b, #223
	movi	v16.16b, #191
	movi	v18.16b, #239
	movi	v22.16b, #160
	movi	v23.16b, #144
	movi	v6.16b, #192
	cmge	v17.16b, v1.16b, #0
	movi	v21.16b, #224
	movi	v26.16b, #240
	movi	v27.16b, #237
	movi	v25.16b, #64
	shl	v24.16b, v3.16b, #2
	uqsub	v19.16b, v3.16b, v16.16b
	uqsub	v20.16b, v2.16b, v7.16b
	uqsub	v5.16b, v5.16b, v18.16b
	cmhi	v7.16b, v3.16b, v7.16b
	cmhi	v16.16b, v1.16b, v16.16b
	bsl	v17.16b, v6.16b, v3.16b
	movi	v28.16b, #231
	cmhi	v24.16b, v25.16b, v24.16b
	ushr	v25.16b, v1.16b, #4
	umax	v18.16b, v19.16b, v20.16b
	cmhi	v20.16b, v22.16b, v1.16b
	cmhi	v22.16b, v23.16b, v1.16b
	movi	v19.16b, #244
	orr	v7.16b, v16.16b, v7.16b
	movi	v23.16b, #232
	sli	v25.16b, v3.16b, #2
	orr	v5.16b, v18.16b, v5.16b
	mov	v16.16b, v20.16b
	mov	v18.16b, v22.16b
	movi	v20.16b, #254
	umax	v22.16b, v17.16b, v2.16b
	bic	v4.16b, v4.16b, v7.16b
	cmgt	v7.16b, v6.16b, v1.16b
	bit	v23.16b, v28.16b, v24.16b
	movi	v24.16b, #127
	bsl	v16.16b, v21.16b, v27.16b
	bsl	v18.16b, v26.16b, v19.16b
	cmeq	v5.16b, v5.16b, #0
	umax	v21.16b, v2.16b, v21.16b
	ushr	v27.16b, v17.16b, #2
	addp	v4.16b, v4.16b, v4.16b
	and	v20.16b, v1.16b, v20.16b
	shl	v17.16b, v17.16b, #6
	eor	v5.16b, v5.16b, v7.16b
	cmhi	v7.16b, v6.16b, v22.16b
	cmeq	v16.16b, v3.16b, v16.16b
	cmeq	v18.16b, v3.16b, v18.16b
	movi	v3.16b, #220
	sli	v27.16b, v21.16b, #4
	addp	v4.16b, v4.16b, v4.16b
	orr	v16.16b, v18.16b, v16.16b
	cmhi	v18.16b, v1.16b, v19.16b
	cmeq	v19.16b, v20.16b, v6.16b
	and	v1.16b, v1.16b, v24.16b
	and	v3.16b, v7.16b, v3.16b
	add	v6.16b, v25.16b, v6.16b
	addp	v4.16b, v4.16b, v4.16b
	orn	v5.16b, v19.16b, v5.16b
	orr	v7.16b, v16.16b, v18.16b
	cmhi	v16.16b, v26.16b, v2.16b
	add	v1.16b, v17.16b, v1.16b
	orr	v3.16b, v27.16b, v3.16b
	add	v2.16b, v23.16b, v2.16b
	umov	w12, v4.h[0]
	orr	v5.16b, v7.16b, v5.16b
	bif	v1.16b, v6.16b, v16.16b
	bit	v2.16b, v3.16b, v16.16b
	umax	v0.16b, v0.16b, v5.16b
	b	LBB52_23
LBB52_22:
	movi	v2.2d, #0000000000000000
	mov	w12, #65535
LBB52_23:
	sub	x11, x2, x11
	zip1	v3.16b, v2.16b, v1.16b
	zip2	v1.16b, v2.16b, v1.16b
	lsr	x12, x12, x11
	lsl	x11, x12, x11
	ubfx	x12, x11, #8, #32
	and	x13, x11, #0xff
	lsr	x11, x11, #8
	ldr	q5, [x10, x13, lsl #4]
	fmov	d4, x12
	add	x12, x3, x8
	tbl	v3.16b, { v3.16b }, v5.16b
	fmov	d5, x13
	cnt	v4.8b, v4.8b
	cnt	v5.8b, v5.8b
	str	q3, [x12]
	ldr	q2, [x10, x11, lsl #4]
	addv	b4, v4.8b
	fmov	w13, s5
	tbl	v1.16b, { v1.16b }, v2.16b
	fmov	w10, s4
	ubfiz	x11, x13, #1, #32
	add	x10, x13, x10
	str	q1, [x12, x11]
	add	x8, x8, x10, lsl #1
LBB52_24:
	cmeq	v0.16b, v0.16b, #0
	ldr	q1, [x9, lCPI52_0@PAGEOFF]
	bic	v0.16b, v1.16b, v0.16b
	addp	v0.16b, v0.16b, v0.16b
	addp	v0.16b, v0.16b, v0.16b
	addp	v0.16b, v0.16b, v0.16b
	umov	w9, v0.h[0]
	cbz	w9, LBB52_26
	mov	x1, xzr
	mov	w0, wzr
	ret
LBB52_26:
	sub	x9, x1, #1
	ldrb	w10, [x0, x9]
	cmp	w10, #191
	b.hi	LBB52_29
	sub	x9, x1, #2
	ldrb	w10, [x0, x9]
	cmp	w10, #223
	b.hi	LBB52_29
	sub	x9, x1, #3
	ldrb	w10, [x0, x9]
	cmp	w10, #239
	csel	x9, x9, x1, hi
LBB52_29:
	cmp	x9, x1
	cset	w0, hs
	csel	x1, x8, xzr, hs
	ret
Lfunc_end52:
	.cfi_endproc

	.section	__TEXT,__literal16,16byte_literals
	.p2align	4, 0x0
lCPI53_0:
	.byte	1
	.byte	2
	.byte	4
	.byte	8
	.byte	16
	.byte	32
	.byte	64
	.byte	128
	.byte	1
	.byte	2
	.byte	4
	.byte	8
	.byte	16
	.byte	32
	.byte	64
	.byte	128
	.section	__TEXT,__text,regular,pure_instructions
	.p2align	2
"_utf16_transcode::transcoding::transcode_many::<#824f73f0383279b7>":
	.cfi_startproc
	sub	sp, sp, #416
	.cfi_def_cfa_offset 416
	stp	x29, x30, [sp, #320]
	stp	x28, x27, [sp, #336]
	stp	x26, x25, [sp, #352]
	stp	x24, x23, [sp, #368]
	stp	x22, x21, [sp, #384]
	stp	x20, x19, [sp, #400]
	add	x29, sp, #320
	.cfi_def_cfa w29, 96
	.cfi_offset w19, -8
	.cfi_offset w20, -16
	.cfi_offset w21, -24
	.cfi_offset w22, -32
	.cfi_offset w23, -40
	.cfi_offset w24, -48
	.cfi_offset w25, -56
	.cfi_offset w26, -64
	.cfi_offset w27, -72
	.cfi_offset w28, -80
	.cfi_offset w30, -88
	.cfi_offset w29, -96
	.cfi_remember_state
	add	x8, x1, x5
	mov	x20, x6
	mov	x25, x5
	ldrsb	w10, [x8]
	mov	x21, x4
	mov	x22, x1
	mov	x28, x3
	mov	x23, x2
	str	x0, [sp, #16]
	tbnz	w10, #31, LBB53_158
LBB53_1:
	cmp	x23, x25
	str	x28, [sp, #24]
	b.hi	LBB53_4
LBB53_2:
	ldr	x8, [sp, #16]
	stp	x25, x20, [x8]
	strh	wzr, [x8, #16]
	b	LBB53_194
LBB53_3:
	mov	w12, #67043328
	mov	w13, #56320
	mov	w14, #-10240
	add	w12, w9, w12
	bfxil	w13, w9, #0, #10
	add	w9, w14, w12, lsr #10
	rev16	w12, w13
	rev16	w9, w9
	strh	w12, [x11, #2]
	mov	w12, #4
	add	x25, x10, x8
	add	x20, x12, x20
	strh	w9, [x11]
	cmp	x25, x23
	b.hs	LBB53_2
LBB53_4:
	sub	x24, x23, x25
	add	x27, x22, x25
	cmp	x24, #16
	b.lo	LBB53_6
	add	x0, x22, x25
	sub	x1, x23, x25
	add	x2, x28, x20
	sub	x3, x21, x20
	bl	"_utf16_transcode::encode::FromUtf8Direction::write_front::<#8b18edd9dd9aa8df>"
	mov	x26, x0
	add	x20, x1, x20
	subs	x19, x24, x0
	b.ne	LBB53_7
	b	LBB53_12
LBB53_6:
	mov	x26, xzr
	subs	x19, x24, xzr
	b.eq	LBB53_12
LBB53_7:
	cmp	x19, #7
	add	x27, x27, x26
	b.hi	LBB53_23
	mov	x0, x27
	mov	x1, x19
	mov	x2, x28
LBB53_9:
	mov	x3, x21
	mov	x4, x20
	bl	"_utf16_transcode::transcoding::write_chars::<#824f73f0383279b7>"
LBB53_10:
	mov	x28, x0
	mov	x20, x1
LBB53_11:
	add	x24, x28, x26
	ldr	x28, [sp, #24]
LBB53_12:
	add	x8, x24, x25
	subs	x11, x23, x8
	b.eq	LBB53_170
	add	x10, x22, x8
	ldrsb	w12, [x10]
	and	w9, w12, #0xff
	tbnz	w12, #31, LBB53_18
	mov	w10, #1
LBB53_15:
	cmp	w9, #16, lsl #12
	mov	w11, #4
	mov	w12, #2
	sub	x13, x21, x20
	csel	x11, x12, x11, lo
	cmp	x13, x11
	b.lo	LBB53_171
	lsr	w12, w9, #16
	add	x11, x28, x20
	cbnz	w12, LBB53_3
	rev16	w9, w9
	mov	w12, #2
	add	x25, x10, x8
	add	x20, x12, x20
	strh	w9, [x11]
	cmp	x25, x23
	b.lo	LBB53_4
	b	LBB53_2
LBB53_18:
	cmp	x11, #3
	b.lo	LBB53_26
	add	w12, w9, #31
	and	w12, w12, #0xff
	cmp	w12, #11
	b.hi	LBB53_27
	ldrsb	w12, [x10, #1]
	cmn	w12, #65
	b.gt	LBB53_27
	ldrsb	w13, [x10, #2]
	cmn	w13, #65
	b.gt	LBB53_27
	lsl	w9, w9, #12
	and	w10, w12, #0xff
	and	w11, w13, #0xff
	add	w9, w9, w10, lsl #6
	mov	w10, #57216
	movk	w10, #65521, lsl #16
	add	w10, w11, w10
	b	LBB53_33
LBB53_23:
	cmp	x19, #128
	mov	w8, #128
	sub	x14, x21, x20
	csel	x28, x19, x8, lo
	subs	x8, x14, #16
	csel	x8, xzr, x8, lo
	cmp	x28, x8, lsr #1
	b.ls	LBB53_39
	cmp	x14, #23
	b.hi	LBB53_45
	ldr	x2, [sp, #24]
	mov	x0, x27
	mov	x1, x19
	b	LBB53_9
LBB53_26:
	cmp	x11, #2
	b.ne	LBB53_190
LBB53_27:
	lsr	w13, w9, #4
	ldrb	w12, [x10, #1]
	and	w13, w13, #0xc
	orr	w13, w13, w12, lsr #6
	cmp	w13, #14
	b.ne	LBB53_182
	add	w13, w9, #31
	and	w13, w13, #0xff
	cmp	w13, #12
	b.hs	LBB53_34
LBB53_29:
	cmp	x11, #2
	b.eq	LBB53_183
	ldrsb	w13, [x10, #2]
	cmn	w13, #65
	b.gt	LBB53_186
	cmp	w9, #239
	and	w13, w13, #0xff
	b.hi	LBB53_42
	lsl	w9, w9, #12
	mov	w10, #57216
	movk	w10, #65521, lsl #16
	add	w9, w9, w12, lsl #6
	add	w10, w13, w10
LBB53_33:
	add	w9, w9, w10
	mov	w10, #3
	b	LBB53_15
LBB53_34:
	add	w13, w9, #62
	and	w14, w13, #0xff
	cmp	w14, #30
	b.lo	LBB53_94
	cmp	w9, #239
	b.gt	LBB53_63
	cmp	w9, #224
	b.eq	LBB53_88
	cmp	w9, #237
	b.ne	LBB53_86
	mov	w14, #159
	b	LBB53_87
LBB53_39:
	movi	v0.2d, #0000000000000000
	cmp	x19, #63
	b.hi	LBB53_48
	add	x0, sp, #32
	mov	x1, x27
	mov	x2, x28
	stp	q0, q0, [sp, #32]
	bl	"_simdutf8::compat::from_utf8"
	ldrb	w8, [sp, #32]
	cbz	w8, LBB53_76
	ldr	x8, [sp, #40]
	b	LBB53_50
LBB53_42:
	cmp	x11, #4
	b.lo	LBB53_183
	ldrsb	w10, [x10, #3]
	cmn	w10, #65
	b.gt	LBB53_191
	lsl	w9, w9, #18
	mov	w11, #57216
	and	w10, w10, #0xff
	movk	w11, #64567, lsl #16
	add	w9, w9, w12, lsl #12
	add	w10, w10, w11
	add	w9, w9, w13, lsl #6
	add	w9, w9, w10
	mov	w10, #4
	b	LBB53_15
LBB53_45:
	movi	v0.2d, #0000000000000000
	ldr	x3, [sp, #24]
	cmp	x19, #15
	str	wzr, [sp, #304]
	stp	q0, q0, [sp, #48]
	stp	q0, q0, [sp, #80]
	stp	q0, q0, [sp, #112]
	stp	q0, q0, [sp, #144]
	stp	q0, q0, [sp, #176]
	stp	q0, q0, [sp, #208]
	stp	q0, q0, [sp, #240]
	stp	q0, q0, [sp, #272]
	str	q0, [sp, #32]
	b.hi	LBB53_71
	add	x2, sp, #32
	mov	x0, x27
	mov	x1, x19
	mov	x4, x21
	mov	x5, x20
LBB53_47:
	bl	"_utf16_transcode::transcoding::write_buffered_text::<#824f73f0383279b7>"
	b	LBB53_10
LBB53_48:
	add	x0, sp, #32
	mov	x1, x27
	mov	w2, #63
	stp	q0, q0, [sp, #32]
	mov	w19, #63
	bl	"_simdutf8::compat::from_utf8"
	ldrb	w9, [sp, #32]
	ldr	x8, [sp, #40]
	cmp	w9, #0
	csel	x24, x19, x8, eq
	add	x9, x24, #4
	cmp	x9, #64
	b.lo	LBB53_50
	movi	v0.2d, #0000000000000000
	sub	x19, x28, x24
	add	x0, sp, #32
	add	x1, x27, x24
	mov	x2, x19
	stp	q0, q0, [sp, #32]
	bl	"_simdutf8::compat::from_utf8"
	ldrb	w8, [sp, #32]
	ldr	x9, [sp, #40]
	cmp	w8, #0
	csel	x8, x19, x9, eq
	add	x8, x8, x24
LBB53_50:
	cbz	x8, LBB53_66
	ldr	x9, [sp, #24]
	cmp	x8, #7
	add	x19, x9, x20
	b.hi	LBB53_67
	mov	x5, xzr
	mov	x9, x8
	b	LBB53_54
LBB53_53:
	mov	w13, #67043328
	mov	w14, #-10240
	add	w10, w10, w13
	mov	w13, #56320
	add	w10, w14, w10, lsr #10
	orr	w12, w12, w13
	rev16	w12, w12
	rev	w10, w10
	strh	w12, [x11, #2]
	lsr	w10, w10, #16
	strh	w10, [x11]
	mov	w10, #4
	add	x5, x10, x5
	cbz	x9, LBB53_70
LBB53_54:
	ldrsb	w11, [x27]
	and	w10, w11, #0xff
	tbnz	w11, #31, LBB53_56
	mov	w12, #1
	b	LBB53_60
LBB53_56:
	ldrb	w11, [x27, #1]
	cmp	w10, #223
	and	w11, w11, #0x3f
	b.hi	LBB53_58
	bfi	w11, w10, #6, #5
	mov	w12, #2
	mov	w10, w11
	b	LBB53_60
LBB53_58:
	ldrb	w12, [x27, #2]
	cmp	w10, #239
	and	w12, w12, #0x3f
	b.hi	LBB53_62
	ubfiz	w10, w10, #12, #4
	orr	w10, w10, w11, lsl #6
	orr	w10, w10, w12
	mov	w12, #3
LBB53_60:
	add	x27, x27, x12
	sub	x9, x9, x12
	add	x11, x19, x5
LBB53_61:
	rev	w10, w10
	lsr	w10, w10, #16
	strh	w10, [x11]
	mov	w10, #2
	add	x5, x10, x5
	cbnz	x9, LBB53_54
	b	LBB53_70
LBB53_62:
	ldrb	w13, [x27, #3]
	ubfiz	w10, w10, #18, #3
	add	x27, x27, #4
	sub	x9, x9, #4
	and	w13, w13, #0x3f
	orr	w10, w10, w11, lsl #12
	add	x11, x19, x5
	orr	w12, w13, w12, lsl #6
	lsr	w13, w10, #16
	orr	w10, w12, w10
	cbz	w13, LBB53_61
	b	LBB53_53
LBB53_63:
	cmp	w9, #240
	b.eq	LBB53_89
	cmp	w9, #244
	b.ne	LBB53_86
	mov	w14, #143
	b	LBB53_87
LBB53_66:
	mov	x28, xzr
	b	LBB53_11
LBB53_67:
	mov	x28, x8
	lsl	x5, x8, #1
	cmp	x8, #16
	b.hi	LBB53_77
LBB53_68:
	add	x8, x27, x28
	ldr	d0, [x27]
	ldur	d1, [x8, #-8]
	adrp	x8, lstatic.1@PAGE
	add	x8, x8, lstatic.1@PAGEOFF
	add	x8, x8, x28, lsl #4
	mov	v0.d[1], v1.d[0]
	ldur	q1, [x8, #-128]
	adrp	x8, lCPI53_0@PAGE
	tbl	v1.16b, { v0.16b }, v1.16b
	ldr	q0, [x8, lCPI53_0@PAGEOFF]
	ldr	x8, [sp, #24]
	add	x8, x8, x20
	cmlt	v2.16b, v1.16b, #0
	and	v2.16b, v2.16b, v0.16b
	addp	v2.16b, v2.16b, v2.16b
	addp	v2.16b, v2.16b, v2.16b
	addp	v2.16b, v2.16b, v2.16b
	umov	w9, v2.h[0]
	cbz	w9, LBB53_98
	adrp	x9, lstatic.2@PAGE
	add	x9, x9, lstatic.2@PAGEOFF
	movi	v3.2d, #0000000000000000
	sub	x9, x9, x28
	movi	v6.16b, #223
	movi	v7.16b, #191
	ldr	q2, [x9, #16]
	movi	v16.16b, #224
	movi	v17.16b, #64
	movi	v20.16b, #232
	movi	v21.16b, #231
	movi	v22.16b, #220
	umax	v2.16b, v1.16b, v2.16b
	movi	v1.16b, #192
	adrp	x11, lstatic.10@PAGE
	add	x11, x11, lstatic.10@PAGEOFF
	ext	v4.16b, v3.16b, v2.16b, #15
	cmge	v5.16b, v2.16b, #0
	cmhi	v7.16b, v2.16b, v7.16b
	ext	v3.16b, v3.16b, v4.16b, #15
	bsl	v5.16b, v1.16b, v4.16b
	cmhi	v6.16b, v4.16b, v6.16b
	shl	v18.16b, v4.16b, #2
	orr	v6.16b, v7.16b, v6.16b
	umax	v7.16b, v3.16b, v16.16b
	umax	v16.16b, v5.16b, v3.16b
	cmhi	v17.16b, v17.16b, v18.16b
	ushr	v19.16b, v5.16b, #2
	movi	v18.16b, #127
	shl	v5.16b, v5.16b, #6
	bic	v0.16b, v0.16b, v6.16b
	cmhi	v6.16b, v1.16b, v16.16b
	ushr	v16.16b, v2.16b, #4
	bsl	v17.16b, v21.16b, v20.16b
	sli	v19.16b, v7.16b, #4
	addp	v0.16b, v0.16b, v0.16b
	and	v2.16b, v2.16b, v18.16b
	sli	v16.16b, v4.16b, #2
	movi	v4.16b, #240
	and	v6.16b, v6.16b, v22.16b
	add	v7.16b, v17.16b, v3.16b
	addp	v0.16b, v0.16b, v0.16b
	add	v2.16b, v5.16b, v2.16b
	orr	v6.16b, v19.16b, v6.16b
	cmhi	v3.16b, v4.16b, v3.16b
	add	v1.16b, v16.16b, v1.16b
	addp	v0.16b, v0.16b, v0.16b
	mov	v4.16b, v3.16b
	bit	v1.16b, v2.16b, v3.16b
	umov	w9, v0.h[0]
	bsl	v4.16b, v6.16b, v7.16b
	and	x10, x9, #0xff
	ubfx	x9, x9, #8, #8
	ldr	q2, [x11, x10, lsl #4]
	zip1	v0.16b, v4.16b, v1.16b
	fmov	d3, x9
	zip2	v1.16b, v4.16b, v1.16b
	cnt	v3.8b, v3.8b
	tbl	v0.16b, { v0.16b }, v2.16b
	fmov	d2, x10
	cnt	v2.8b, v2.8b
	fmov	w10, s3
	str	q0, [x19]
	ldr	q0, [x11, x9, lsl #4]
	fmov	w9, s2
	tbl	v0.16b, { v1.16b }, v0.16b
	ubfiz	x11, x9, #1, #32
	add	x9, x9, x10
	lsl	x5, x9, #1
	str	q0, [x8, x11]
	add	x20, x5, x20
	b	LBB53_11
LBB53_70:
	mov	x28, x8
	add	x20, x5, x20
	b	LBB53_11
LBB53_71:
	ldrsb	w8, [x27]
	tbnz	w8, #31, LBB53_95
	mov	w8, #1
LBB53_73:
	add	x8, x27, x8
	ldrsb	w9, [x8]
	tbnz	w9, #31, LBB53_99
LBB53_74:
	cmp	x14, #65
	mov	w8, #130
	mov	w9, #66
	csel	x8, x9, x8, lo
	add	x2, sp, #32
	mov	x0, x27
	cmp	x8, x19
	mov	w3, #276
	csel	x1, x8, x19, lo
	bl	"_utf16_transcode::encode::FromUtf8Direction::write_front::<#8b18edd9dd9aa8df>"
	sub	x8, x21, x20
	cmp	x1, x8
	b.ls	LBB53_102
	and	x8, x8, #0xfffffffffffffffe
	add	x9, sp, #32
	add	x0, sp, #32
	ldrb	w9, [x9, x8]
	sub	x10, x8, #2
	and	w9, w9, #0xfc
	cmp	w9, #220
	csel	x24, x10, x8, eq
	mov	x1, x24
	bl	"_utf16_to_utf8::lens::utf8_len::<#8b18edd9dd9aa8df>"
	b	LBB53_103
LBB53_76:
	ldr	x8, [sp, #24]
	add	x19, x8, x20
	lsl	x5, x28, #1
	cmp	x28, #16
	b.ls	LBB53_68
LBB53_77:
	add	x24, x5, #16
	lsr	x8, x24, #1
	cmp	x8, x28
	csel	x4, x8, x28, lo
	cmp	x24, #32
	b.lo	LBB53_79
	ldr	q1, [x27]
	adrp	x8, lCPI53_0@PAGE
	ldr	q0, [x8, lCPI53_0@PAGEOFF]
	cmlt	v2.16b, v1.16b, #0
	and	v2.16b, v2.16b, v0.16b
	addp	v2.16b, v2.16b, v2.16b
	addp	v2.16b, v2.16b, v2.16b
	addp	v2.16b, v2.16b, v2.16b
	umov	w8, v2.h[0]
	cbz	w8, LBB53_110
LBB53_79:
	mov	x4, xzr
LBB53_80:
	lsl	x5, x4, #1
	subs	x8, x28, x4
	b.eq	LBB53_85
	cmp	x8, #191
	b.ls	LBB53_84
	mov	x0, x27
	mov	x1, x28
	mov	x2, x19
	mov	x3, x24
	bl	"_utf16_from_utf8::blocks::write_mixed_blocks::<#8b18edd9dd9aa8df>"
	sub	x8, x28, x0
	mov	x5, x1
	cmp	x8, #191
	b.hi	LBB53_85
	mov	x4, x0
LBB53_84:
	mov	x0, x27
	mov	x1, x28
	mov	x2, x19
	mov	x3, x24
	bl	"_utf16_from_utf8::rest::write_rest::<#8b18edd9dd9aa8df>"
	mov	x5, x1
LBB53_85:
	add	x20, x5, x20
	b	LBB53_11
LBB53_86:
	mov	w14, #191
LBB53_87:
	mov	w15, #128
	b	LBB53_90
LBB53_88:
	mov	w14, #191
	mov	w15, #160
	b	LBB53_90
LBB53_89:
	mov	w14, #191
	mov	w15, #144
LBB53_90:
	and	w13, w13, #0xff
	cmp	w13, #50
	mov	w13, #1
	b.hi	LBB53_204
	cmp	w15, w12
	b.hi	LBB53_204
	cmp	w12, w14
	mov	w14, #1
	b.hi	LBB53_193
	cmp	w9, #223
	b.hi	LBB53_29
LBB53_94:
	add	w9, w12, w9, lsl #6
	mov	w10, #-12416
	add	w9, w9, w10
	mov	w10, #2
	b	LBB53_15
LBB53_95:
	and	w8, w8, #0xff
	cmp	w8, #225
	b.hs	LBB53_106
	lsr	w10, w8, #4
	ldrb	w9, [x27, #1]
	and	w10, w10, #0xc
	orr	w10, w10, w9, lsr #6
	cmp	w10, #14
	b.ne	LBB53_157
	add	w10, w8, #62
	and	w11, w10, #0xff
	cmp	w11, #30
	b.hs	LBB53_121
	b	LBB53_138
LBB53_98:
	shll	v0.8h, v1.8b, #8
	shll2	v1.8h, v1.16b, #8
	add	x20, x5, x20
	str	q0, [x19]
	str	q1, [x8, #16]
	b	LBB53_11
LBB53_99:
	and	w9, w9, #0xff
	add	w10, w9, #31
	and	w11, w10, #0xff
	ldrb	w10, [x8, #1]
	cmp	w11, #11
	b.hi	LBB53_113
	sxtb	w9, w10
	cmn	w9, #65
	b.gt	LBB53_157
	ldrsb	w8, [x8, #2]
	cmn	w8, #64
	b.lt	LBB53_74
	b	LBB53_157
LBB53_102:
	mov	x24, x1
LBB53_103:
	add	x8, x24, x20
	mov	x28, x0
	add	x1, sp, #32
	str	x8, [sp, #8]
	ldr	x8, [sp, #24]
	mov	x2, x24
	add	x0, x8, x20
	mov	x20, x8
	bl	_memcpy
	cbz	x28, LBB53_105
	ldr	x20, [sp, #8]
	b	LBB53_11
LBB53_105:
	ldr	x5, [sp, #8]
	add	x2, sp, #32
	mov	x0, x27
	mov	x1, x19
	mov	x3, x20
	mov	x4, x21
	b	LBB53_47
LBB53_106:
	ldrsb	w9, [x27, #1]
	cmp	w8, #236
	b.hi	LBB53_119
	cmn	w9, #65
	b.gt	LBB53_157
	ldrsb	w8, [x27, #2]
	cmn	w8, #64
	b.ge	LBB53_157
LBB53_109:
	mov	w8, #3
	b	LBB53_73
LBB53_110:
	cmp	x4, #31
	b.hi	LBB53_125
	shll	v2.8h, v1.8b, #8
	shll2	v1.8h, v1.16b, #8
	ldr	x8, [sp, #24]
	sub	x9, x4, #16
	add	x8, x8, x20
	stp	q2, q1, [x8]
	ldr	q1, [x27, x9]
	cmlt	v2.16b, v1.16b, #0
	and	v0.16b, v2.16b, v0.16b
	addp	v0.16b, v0.16b, v0.16b
	addp	v0.16b, v0.16b, v0.16b
	addp	v0.16b, v0.16b, v0.16b
	umov	w10, v0.h[0]
	cbz	w10, LBB53_129
	mov	w4, #16
	b	LBB53_80
LBB53_113:
	lsr	w11, w9, #4
	and	w11, w11, #0xc
	orr	w11, w11, w10, lsr #6
	cmp	w11, #14
	b.ne	LBB53_157
	add	w11, w9, #62
	and	w12, w11, #0xff
	cmp	w12, #30
	b.lo	LBB53_74
	cmp	w9, #239
	b.gt	LBB53_143
	cmp	w9, #224
	b.eq	LBB53_148
	cmp	w9, #237
	b.ne	LBB53_146
	mov	w12, #159
	b	LBB53_147
LBB53_119:
	cmn	w9, #65
	b.gt	LBB53_157
	add	w10, w8, #62
LBB53_121:
	cmp	w8, #239
	b.gt	LBB53_126
	cmp	w8, #224
	b.eq	LBB53_132
	cmp	w8, #237
	b.ne	LBB53_130
	mov	w11, #159
	b	LBB53_131
LBB53_125:
	mov	x0, x27
	mov	x1, x4
	mov	x2, x19
	bl	"_utf16_from_utf8::ascii::write_front::<#8b18edd9dd9aa8df>"
	mov	x4, x0
	b	LBB53_80
LBB53_126:
	cmp	w8, #240
	b.eq	LBB53_133
	cmp	w8, #244
	b.ne	LBB53_130
	mov	w11, #143
	b	LBB53_131
LBB53_129:
	shll	v0.8h, v1.8b, #8
	shll2	v1.8h, v1.16b, #8
	add	x8, x8, x9, lsl #1
	stp	q0, q1, [x8]
	b	LBB53_80
LBB53_130:
	mov	w11, #191
LBB53_131:
	mov	w12, #128
	b	LBB53_134
LBB53_132:
	mov	w11, #191
	mov	w12, #160
	b	LBB53_134
LBB53_133:
	mov	w11, #191
	mov	w12, #144
LBB53_134:
	and	w10, w10, #0xff
	cmp	w10, #50
	b.hi	LBB53_157
	cmp	w12, w9, uxtb
	b.hi	LBB53_157
	cmp	w11, w9, uxtb
	b.lo	LBB53_157
	cmp	w8, #224
	b.hs	LBB53_139
LBB53_138:
	mov	w8, #2
	b	LBB53_73
LBB53_139:
	ldrsb	w9, [x27, #2]
	cmn	w9, #65
	b.gt	LBB53_157
	cmp	w8, #240
	b.lo	LBB53_109
	ldrsb	w8, [x27, #3]
	cmn	w8, #65
	b.gt	LBB53_157
	mov	w8, #4
	b	LBB53_73
LBB53_143:
	cmp	w9, #240
	b.eq	LBB53_149
	cmp	w9, #244
	b.ne	LBB53_146
	mov	w12, #143
	b	LBB53_147
LBB53_146:
	mov	w12, #191
LBB53_147:
	mov	w13, #128
	b	LBB53_150
LBB53_148:
	mov	w12, #191
	mov	w13, #160
	b	LBB53_150
LBB53_149:
	mov	w12, #191
	mov	w13, #144
LBB53_150:
	and	w11, w11, #0xff
	cmp	w11, #50
	b.hi	LBB53_157
	cmp	w13, w10
	b.hi	LBB53_157
	cmp	w10, w12
	b.hi	LBB53_157
	cmp	w9, #224
	b.lo	LBB53_74
	ldrsb	w10, [x8, #2]
	cmn	w10, #65
	b.gt	LBB53_157
	cmp	w9, #240
	b.lo	LBB53_74
	ldrsb	w8, [x8, #3]
	cmn	w8, #64
	b.lt	LBB53_74
LBB53_157:
	mov	x0, x27
	mov	x1, x19
	mov	x2, x3
	b	LBB53_9
LBB53_158:
	sub	x9, x23, x25
	and	w10, w10, #0xff
	cmp	x9, #3
	b.lo	LBB53_162
	add	w11, w10, #31
	and	w11, w11, #0xff
	cmp	w11, #11
	b.hi	LBB53_163
	ldrsb	w11, [x8, #1]
	cmn	w11, #65
	b.gt	LBB53_163
	ldrsb	w11, [x8, #2]
	cmn	w11, #64
	b.lt	LBB53_1
	b	LBB53_163
LBB53_162:
	cmp	x9, #2
	b.ne	LBB53_168
LBB53_163:
	lsr	w12, w10, #4
	ldrb	w11, [x8, #1]
	and	w12, w12, #0xc
	orr	w12, w12, w11, lsr #6
	cmp	w12, #14
	b.ne	LBB53_167
	add	w12, w10, #31
	and	w12, w12, #0xff
	cmp	w12, #12
	b.hs	LBB53_172
LBB53_165:
	cmp	x9, #2
	b.ne	LBB53_177
LBB53_166:
	mov	w11, wzr
	mov	w12, #2
	b	LBB53_169
LBB53_167:
	mov	w12, #1
	mov	w11, #1
	b	LBB53_169
LBB53_168:
	add	w8, w10, #11
	and	w8, w8, #0xff
	cmp	w8, #205
	mov	w8, #1
	cset	w11, lo
	cinc	w12, w8, hs
LBB53_169:
	ldr	x8, [sp, #16]
	stp	x25, x20, [x8]
	strb	w12, [x8, #16]
	strb	w11, [x8, #17]
	b	LBB53_194
LBB53_170:
	mov	x25, x23
	b	LBB53_2
LBB53_171:
	mov	w14, wzr
	mov	w13, #3
	b	LBB53_193
LBB53_172:
	add	w12, w10, #62
	and	w13, w12, #0xff
	cmp	w13, #30
	b.lo	LBB53_1
	cmp	w10, #239
	b.gt	LBB53_187
	cmp	w10, #224
	b.eq	LBB53_197
	cmp	w10, #237
	b.ne	LBB53_195
	mov	w13, #159
	b	LBB53_196
LBB53_177:
	ldrsb	w11, [x8, #2]
	cmn	w11, #65
	b.gt	LBB53_184
	cmp	w10, #240
	b.lo	LBB53_1
	cmp	x9, #4
	b.lo	LBB53_166
	ldrsb	w8, [x8, #3]
	cmn	w8, #65
	b.le	LBB53_1
	mov	w11, #3
	b	LBB53_185
LBB53_182:
	mov	w13, #1
	mov	w14, #1
	b	LBB53_193
LBB53_183:
	mov	w14, wzr
	mov	w13, #2
	b	LBB53_193
LBB53_184:
	mov	w11, #2
LBB53_185:
	mov	w12, #1
	b	LBB53_169
LBB53_186:
	mov	w14, #2
	b	LBB53_192
LBB53_187:
	cmp	w10, #240
	b.eq	LBB53_198
	cmp	w10, #244
	b.ne	LBB53_195
	mov	w13, #143
	b	LBB53_196
LBB53_190:
	add	w9, w9, #11
	and	w9, w9, #0xff
	cmp	w9, #205
	mov	w9, #1
	cset	w14, lo
	cinc	w13, w9, hs
	b	LBB53_193
LBB53_191:
	mov	w14, #3
LBB53_192:
	mov	w13, #1
LBB53_193:
	ldr	x9, [sp, #16]
	stp	x8, x20, [x9]
	strb	w13, [x9, #16]
	strb	w14, [x9, #17]
LBB53_194:
	.cfi_def_cfa wsp, 416
	ldp	x20, x19, [sp, #400]
	ldp	x22, x21, [sp, #384]
	ldp	x24, x23, [sp, #368]
	ldp	x26, x25, [sp, #352]
	ldp	x28, x27, [sp, #336]
	ldp	x29, x30, [sp, #320]
	add	sp, sp, #416
	.cfi_def_cfa_offset 0
	.cfi_restore w19
	.cfi_restore w20
	.cfi_restore w21
	.cfi_restore w22
	.cfi_restore w23
	.cfi_restore w24
	.cfi_restore w25
	.cfi_restore w26
	.cfi_restore w27
	.cfi_restore w28
	.cfi_restore w30
	.cfi_restore w29
	ret
LBB53_195:
	.cfi_restore_state
	mov	w13, #191
LBB53_196:
	mov	w14, #128
	b	LBB53_199
LBB53_197:
	mov	w13, #191
	mov	w14, #160
	b	LBB53_199
LBB53_198:
	mov	w13, #191
	mov	w14, #144
LBB53_199:
	and	w12, w12, #0xff
	cmp	w12, #50
	mov	w12, #1
	b.hi	LBB53_203
	cmp	w14, w11
	b.hi	LBB53_203
	cmp	w11, w13
	mov	w11, #1
	b.hi	LBB53_169
	cmp	w10, #224
	b.lo	LBB53_1
	b	LBB53_165
LBB53_203:
	mov	w11, #1
	b	LBB53_169
LBB53_204:
	mov	w14, #1
	b	LBB53_193
Lfunc_end53:
	.cfi_endproc

	.section	__TEXT,__literal16,16byte_literals
	.p2align	4, 0x0
lCPI54_0:
	.byte	1
	.byte	2
	.byte	4
	.byte	8
	.byte	16
	.byte	32
	.byte	64
	.byte	128
	.byte	1
	.byte	2
	.byte	4
	.byte	8
	.byte	16
	.byte	32
	.byte	64
	.byte	128
lCPI54_2:
	.byte	0
	.byte	1
	.byte	2
	.byte	3
	.byte	4
	.byte	5
	.byte	6
	.byte	7
	.byte	8
	.byte	9
	.byte	10
	.byte	11
	.byte	12
	.byte	13
	.byte	14
	.byte	15
	.section	__TEXT,__literal8,8byte_literals
	.p2align	3, 0x0
lCPI54_1:
	.zero	1
	.zero	1
	.zero	1
	.zero	1
	.zero	1
	.zero	1
	.byte	224
	.byte	192
	.section	__TEXT,__text,regular,pure_instructions
	.p2align	2
"_utf16_transcode::encode::FromUtf8Direction::write_front::<#8b18edd9dd9aa8df>":
	.cfi_startproc
	stp	x29, x30, [sp, #-48]!
	.cfi_def_cfa_offset 48
	stp	x22, x21, [sp, #16]
	stp	x20, x19, [sp, #32]
	mov	x29, sp
	.cfi_def_cfa w29, 48
	.cfi_offset w19, -8
	.cfi_offset w20, -16
	.cfi_offset w21, -24
	.cfi_offset w22, -32
	.cfi_offset w30, -40
	.cfi_offset w29, -48
	.cfi_remember_state
	cmp	x1, #16
	b.hi	LBB54_8
	cmp	x1, #8
	mov	x5, xzr
	b.lo	LBB54_13
	cmp	x3, #32
	mov	x4, x5
	b.lo	LBB54_21
	add	x8, x0, x1
	ldr	d0, [x0]
	ldur	d2, [x8, #-8]
	adrp	x8, lstatic.1@PAGE
	add	x8, x8, lstatic.1@PAGEOFF
	add	x8, x8, x1, lsl #4
	mov	v0.d[1], v2.d[0]
	ldur	q1, [x8, #-128]
	adrp	x8, lCPI54_0@PAGE
	tbl	v1.16b, { v0.16b }, v1.16b
	ldr	q0, [x8, lCPI54_0@PAGEOFF]
	cmlt	v3.16b, v1.16b, #0
	and	v3.16b, v3.16b, v0.16b
	addp	v3.16b, v3.16b, v3.16b
	addp	v3.16b, v3.16b, v3.16b
	addp	v3.16b, v3.16b, v3.16b
	umov	w8, v3.h[0]
	cbz	w8, LBB54_19
	adrp	x8, lCPI54_1@PAGE
	mov	x5, xzr
	ldr	d3, [x8, lCPI54_1@PAGEOFF]
	cmhi	v3.8b, v3.8b, v2.8b
	dup	v4.8b, v3.b[7]
	and	v3.8b, v4.8b, v3.8b
	umov	w8, v3.b[6]
	tbz	w8, #0, LBB54_13
	umov	w8, v2.b[5]
	mov	x4, x5
	and	w8, w8, #0xff
	cmp	w8, #239
	b.hi	LBB54_21
	adrp	x8, lstatic.2@PAGE
	add	x8, x8, lstatic.2@PAGEOFF
	movi	v4.2d, #0000000000000000
	sub	x8, x8, x1
	movi	v5.16b, #191
	movi	v6.16b, #223
	ldr	q2, [x8, #16]
	movi	v7.16b, #239
	movi	v17.16b, #144
	movi	v21.16b, #244
	movi	v22.16b, #160
	movi	v16.16b, #224
	umax	v2.16b, v1.16b, v2.16b
	movi	v23.16b, #237
	adrp	x8, lCPI54_2@PAGE
	movi	v26.16b, #254
	ext	v3.16b, v4.16b, v2.16b, #15
	cmhi	v24.16b, v17.16b, v2.16b
	cmhs	v17.16b, v2.16b, v17.16b
	cmhi	v27.16b, v22.16b, v2.16b
	ext	v1.16b, v4.16b, v3.16b, #15
	uqsub	v19.16b, v3.16b, v5.16b
	cmeq	v28.16b, v3.16b, v16.16b
	ext	v18.16b, v4.16b, v1.16b, #15
	movi	v4.16b, #240
	uqsub	v20.16b, v1.16b, v6.16b
	uqsub	v18.16b, v18.16b, v7.16b
	cmeq	v25.16b, v3.16b, v4.16b
	umax	v19.16b, v19.16b, v20.16b
	cmeq	v20.16b, v3.16b, v21.16b
	movi	v7.16b, #192
	and	v24.16b, v25.16b, v24.16b
	and	v25.16b, v2.16b, v26.16b
	orr	v18.16b, v19.16b, v18.16b
	and	v17.16b, v20.16b, v17.16b
	cmhs	v19.16b, v2.16b, v22.16b
	cmeq	v20.16b, v3.16b, v23.16b
	and	v22.16b, v28.16b, v27.16b
	cmgt	v23.16b, v7.16b, v2.16b
	cmeq	v18.16b, v18.16b, #0
	orr	v17.16b, v24.16b, v17.16b
	and	v19.16b, v20.16b, v19.16b
	cmhi	v20.16b, v2.16b, v21.16b
	cmeq	v21.16b, v25.16b, v7.16b
	eor	v18.16b, v18.16b, v23.16b
	orr	v19.16b, v22.16b, v19.16b
	orr	v17.16b, v20.16b, v17.16b
	ldr	q20, [x8, lCPI54_2@PAGEOFF]
	orn	v18.16b, v21.16b, v18.16b
	orr	v17.16b, v19.16b, v17.16b
	dup	v19.16b, w1
	orr	v17.16b, v17.16b, v18.16b
	cmhi	v18.16b, v19.16b, v20.16b
	and	v17.16b, v18.16b, v17.16b
	shl	v17.16b, v17.16b, #7
	cmlt	v17.16b, v17.16b, #0
	and	v17.16b, v17.16b, v0.16b
	addp	v17.16b, v17.16b, v17.16b
	addp	v17.16b, v17.16b, v17.16b
	addp	v17.16b, v17.16b, v17.16b
	umov	w8, v17.h[0]
	cbz	w8, LBB54_22
	mov	x5, xzr
	mov	x4, xzr
	mov	x0, x4
	mov	x1, x5
	.cfi_def_cfa wsp, 48
	ldp	x20, x19, [sp, #32]
	ldp	x22, x21, [sp, #16]
	ldp	x29, x30, [sp], #48
	.cfi_def_cfa_offset 0
	.cfi_restore w19
	.cfi_restore w20
	.cfi_restore w21
	.cfi_restore w22
	.cfi_restore w30
	.cfi_restore w29
	ret
LBB54_8:
	.cfi_restore_state
	.cfi_remember_state
	lsr	x8, x3, #1
	cmp	x8, x1
	csel	x4, x8, x1, lo
	cmp	x3, #32
	b.lo	LBB54_10
	ldr	q1, [x0]
	adrp	x8, lCPI54_0@PAGE
	ldr	q0, [x8, lCPI54_0@PAGEOFF]
	cmlt	v2.16b, v1.16b, #0
	and	v2.16b, v2.16b, v0.16b
	addp	v2.16b, v2.16b, v2.16b
	addp	v2.16b, v2.16b, v2.16b
	addp	v2.16b, v2.16b, v2.16b
	umov	w8, v2.h[0]
	cbz	w8, LBB54_16
LBB54_10:
	mov	x4, xzr
	lsl	x5, xzr, #1
	subs	x8, x1, xzr
	b.eq	LBB54_21
LBB54_11:
	cmp	x8, #191
	b.hi	LBB54_14
	.cfi_def_cfa wsp, 48
	ldp	x20, x19, [sp, #32]
	ldp	x22, x21, [sp, #16]
	ldp	x29, x30, [sp], #48
	.cfi_def_cfa_offset 0
	.cfi_restore w19
	.cfi_restore w20
	.cfi_restore w21
	.cfi_restore w22
	.cfi_restore w30
	.cfi_restore w29
	b	"_utf16_from_utf8::rest::write_rest::<#8b18edd9dd9aa8df>"
LBB54_13:
	.cfi_restore_state
	.cfi_remember_state
	mov	x4, x5
	mov	x0, x4
	mov	x1, x5
	.cfi_def_cfa wsp, 48
	ldp	x20, x19, [sp, #32]
	ldp	x22, x21, [sp, #16]
	ldp	x29, x30, [sp], #48
	.cfi_def_cfa_offset 0
	.cfi_restore w19
	.cfi_restore w20
	.cfi_restore w21
	.cfi_restore w22
	.cfi_restore w30
	.cfi_restore w29
	ret
LBB54_14:
	.cfi_restore_state
	.cfi_remember_state
	mov	x21, x0
	mov	x22, x1
	mov	x19, x2
	mov	x20, x3
	bl	"_utf16_from_utf8::blocks::write_mixed_blocks::<#8b18edd9dd9aa8df>"
	sub	x9, x22, x0
	mov	x4, x0
	mov	x5, x1
	cmp	x9, #191
	b.hi	LBB54_21
	mov	x0, x21
	mov	x1, x22
	mov	x2, x19
	mov	x3, x20
	.cfi_def_cfa wsp, 48
	ldp	x20, x19, [sp, #32]
	ldp	x22, x21, [sp, #16]
	ldp	x29, x30, [sp], #48
	.cfi_def_cfa_offset 0
	.cfi_restore w19
	.cfi_restore w20
	.cfi_restore w21
	.cfi_restore w22
	.cfi_restore w30
	.cfi_restore w29
	b	"_utf16_from_utf8::rest::write_rest::<#8b18edd9dd9aa8df>"
LBB54_16:
	.cfi_restore_state
	.cfi_remember_state
	cmp	x4, #31
	b.hi	LBB54_20
	shll	v2.8h, v1.8b, #8
	shll2	v1.8h, v1.16b, #8
	sub	x8, x4, #16
	stp	q2, q1, [x2]
	ldr	q1, [x0, x8]
	cmlt	v2.16b, v1.16b, #0
	and	v0.16b, v2.16b, v0.16b
	addp	v0.16b, v0.16b, v0.16b
	addp	v0.16b, v0.16b, v0.16b
	addp	v0.16b, v0.16b, v0.16b
	umov	w9, v0.h[0]
	cbz	w9, LBB54_23
	mov	w4, #16
	lsl	x5, x4, #1
	subs	x8, x1, x4
	b.eq	LBB54_21
	b	LBB54_11
LBB54_19:
	shll	v0.8h, v1.8b, #8
	shll2	v1.8h, v1.16b, #8
	lsl	x5, x1, #1
	mov	x4, x1
	stp	q0, q1, [x2]
	mov	x0, x4
	mov	x1, x5
	.cfi_def_cfa wsp, 48
	ldp	x20, x19, [sp, #32]
	ldp	x22, x21, [sp, #16]
	ldp	x29, x30, [sp], #48
	.cfi_def_cfa_offset 0
	.cfi_restore w19
	.cfi_restore w20
	.cfi_restore w21
	.cfi_restore w22
	.cfi_restore w30
	.cfi_restore w29
	ret
LBB54_20:
	.cfi_restore_state
	.cfi_remember_state
	mov	x21, x1
	mov	x1, x4
	mov	x19, x0
	mov	x20, x2
	mov	x22, x3
	bl	"_utf16_from_utf8::ascii::write_front::<#8b18edd9dd9aa8df>"
	mov	x3, x22
	mov	x2, x20
	mov	x1, x21
	mov	x4, x0
	mov	x0, x19
	lsl	x5, x4, #1
	subs	x8, x21, x4
	b.ne	LBB54_11
LBB54_21:
	mov	x0, x4
	mov	x1, x5
	.cfi_def_cfa wsp, 48
	ldp	x20, x19, [sp, #32]
	ldp	x22, x21, [sp, #16]
	ldp	x29, x30, [sp], #48
	.cfi_def_cfa_offset 0
	.cfi_restore w19
	.cfi_restore w20
	.cfi_restore w21
	.cfi_restore w22
	.cfi_restore w30
	.cfi_restore w29
	ret
LBB54_22:
	.cfi_restore_state
	.cfi_remember_state
	cmge	v17.16b, v2.16b, #0
	cmhi	v6.16b, v3.16b, v6.16b
	adrp	x10, lstatic.10@PAGE
	add	x10, x10, lstatic.10@PAGEOFF
	cmhi	v5.16b, v2.16b, v5.16b
	movi	v18.16b, #64
	shl	v19.16b, v3.16b, #2
	movi	v21.16b, #232
	mov	x4, x1
	bsl	v17.16b, v7.16b, v3.16b
	movi	v22.16b, #231
	movi	v23.16b, #220
	orr	v5.16b, v5.16b, v6.16b
	umax	v6.16b, v1.16b, v16.16b
	cmhi	v18.16b, v18.16b, v19.16b
	movi	v19.16b, #127
	umax	v16.16b, v17.16b, v1.16b
	bic	v0.16b, v0.16b, v5.16b
	ushr	v20.16b, v17.16b, #2
	bsl	v18.16b, v22.16b, v21.16b
	cmhi	v5.16b, v7.16b, v16.16b
	ushr	v16.16b, v2.16b, #4
	addp	v0.16b, v0.16b, v0.16b
	sli	v20.16b, v6.16b, #4
	and	v2.16b, v2.16b, v19.16b
	add	v6.16b, v18.16b, v1.16b
	cmhi	v1.16b, v4.16b, v1.16b
	sli	v16.16b, v3.16b, #2
	and	v5.16b, v5.16b, v23.16b
	shl	v3.16b, v17.16b, #6
	addp	v0.16b, v0.16b, v0.16b
	orr	v5.16b, v20.16b, v5.16b
	add	v2.16b, v3.16b, v2.16b
	mov	v3.16b, v1.16b
	add	v7.16b, v16.16b, v7.16b
	addp	v0.16b, v0.16b, v0.16b
	bsl	v3.16b, v5.16b, v6.16b
	bsl	v1.16b, v2.16b, v7.16b
	umov	w8, v0.h[0]
	zip1	v0.16b, v3.16b, v1.16b
	and	x9, x8, #0xff
	ubfx	x8, x8, #8, #8
	ldr	q2, [x10, x9, lsl #4]
	zip2	v1.16b, v3.16b, v1.16b
	fmov	d4, x8
	tbl	v0.16b, { v0.16b }, v2.16b
	fmov	d2, x9
	cnt	v4.8b, v4.8b
	cnt	v2.8b, v2.8b
	str	q0, [x2]
	ldr	q0, [x10, x8, lsl #4]
	fmov	w9, s4
	fmov	w8, s2
	tbl	v0.16b, { v1.16b }, v0.16b
	ubfiz	x10, x8, #1, #32
	add	x8, x8, x9
	lsl	x5, x8, #1
	str	q0, [x2, x10]
	mov	x0, x4
	mov	x1, x5
	.cfi_def_cfa wsp, 48
	ldp	x20, x19, [sp, #32]
	ldp	x22, x21, [sp, #16]
	ldp	x29, x30, [sp], #48
	.cfi_def_cfa_offset 0
	.cfi_restore w19
	.cfi_restore w20
	.cfi_restore w21
	.cfi_restore w22
	.cfi_restore w30
	.cfi_restore w29
	ret
LBB54_23:
	.cfi_restore_state
	shll	v0.8h, v1.8b, #8
	shll2	v1.8h, v1.16b, #8
	add	x8, x2, x8, lsl #1
	stp	q0, q1, [x8]
	lsl	x5, x4, #1
	subs	x8, x1, x4
	b.eq	LBB54_21
	b	LBB54_11
Lfunc_end54:
	.cfi_endproc

	.section	__TEXT,__text,regular,pure_instructions
	.p2align	2
"_utf16_transcode::transcoding::write_chars::<#824f73f0383279b7>":
	.cfi_startproc
	stp	x29, x30, [sp, #-64]!
	.cfi_def_cfa_offset 64
	str	x23, [sp, #16]
	stp	x22, x21, [sp, #32]
	stp	x20, x19, [sp, #48]
	mov	x29, sp
	.cfi_def_cfa w29, 64
	.cfi_offset w19, -8
	.cfi_offset w20, -16
	.cfi_offset w21, -24
	.cfi_offset w22, -32
	.cfi_offset w23, -48
	.cfi_offset w30, -56
	.cfi_offset w29, -64
	mov	x19, x3
	mov	x20, x2
	add	x2, x2, x4
	sub	x3, x3, x4
	mov	x23, x4
	mov	x21, x1
	mov	x22, x0
	bl	"_utf16_transcode::encode::FromUtf8Direction::begin::<#8b18edd9dd9aa8df>"
	cmp	x0, x21
	add	x1, x1, x23
	b.hs	LBB55_40
	mov	w8, #57216
	movk	w8, #65521, lsl #16
	b	LBB55_3
LBB55_2:
	mov	w12, #67043328
	mov	w13, #56320
	mov	w14, #-10240
	add	w12, w9, w12
	bfxil	w13, w9, #0, #10
	add	w9, w14, w12, lsr #10
	rev16	w12, w13
	rev16	w9, w9
	strh	w12, [x11, #2]
	mov	w12, #4
	add	x0, x10, x0
	add	x1, x12, x1
	strh	w9, [x11]
	cmp	x0, x21
	b.hs	LBB55_40
LBB55_3:
	add	x10, x22, x0
	ldrsb	w11, [x10]
	and	w9, w11, #0xff
	tbnz	w11, #31, LBB55_8
	mov	w10, #1
LBB55_5:
	cmp	w9, #16, lsl #12
	mov	w11, #4
	mov	w12, #2
	sub	x13, x19, x1
	csel	x11, x12, x11, lo
	cmp	x13, x11
	b.lo	LBB55_40
	lsr	w12, w9, #16
	add	x11, x20, x1
	cbnz	w12, LBB55_2
	rev16	w9, w9
	mov	w12, #2
	add	x0, x10, x0
	add	x1, x12, x1
	strh	w9, [x11]
	cmp	x0, x21
	b.lo	LBB55_3
	b	LBB55_40
LBB55_8:
	sub	x11, x21, x0
	cmp	x11, #3
	b.lo	LBB55_13
	add	w12, w9, #31
	and	w12, w12, #0xff
	cmp	w12, #11
	b.hi	LBB55_14
	ldrsb	w12, [x10, #1]
	cmn	w12, #65
	b.gt	LBB55_14
	ldrsb	w13, [x10, #2]
	cmn	w13, #65
	b.gt	LBB55_14
	add	w9, w8, w9, lsl #12
	and	w10, w12, #0xff
	add	w9, w9, w10, lsl #6
	and	w10, w13, #0xff
	add	w9, w9, w10
	mov	w10, #3
	b	LBB55_5
LBB55_13:
	cmp	x11, #2
	b.ne	LBB55_40
LBB55_14:
	lsr	w13, w9, #4
	ldrb	w12, [x10, #1]
	and	w13, w13, #0xc
	orr	w13, w13, w12, lsr #6
	cmp	w13, #14
	b.ne	LBB55_40
	add	w13, w9, #31
	and	w13, w13, #0xff
	cmp	w13, #12
	b.hs	LBB55_20
LBB55_16:
	cmp	x11, #2
	b.eq	LBB55_40
	ldrsb	w13, [x10, #2]
	cmn	w13, #65
	b.gt	LBB55_40
	cmp	w9, #239
	and	w13, w13, #0xff
	b.hi	LBB55_25
	add	w9, w8, w9, lsl #12
	mov	w10, #3
	add	w9, w9, w12, lsl #6
	add	w9, w9, w13
	b	LBB55_5
LBB55_20:
	add	w13, w9, #62
	and	w14, w13, #0xff
	cmp	w14, #30
	b.lo	LBB55_39
	cmp	w9, #239
	b.gt	LBB55_28
	cmp	w9, #224
	b.eq	LBB55_33
	cmp	w9, #237
	b.ne	LBB55_31
	mov	w14, #159
	b	LBB55_32
LBB55_25:
	cmp	x11, #4
	b.lo	LBB55_40
	ldrsb	w10, [x10, #3]
	cmn	w10, #65
	b.gt	LBB55_40
	lsl	w9, w9, #18
	mov	w11, #57216
	and	w10, w10, #0xff
	movk	w11, #64567, lsl #16
	add	w9, w9, w12, lsl #12
	add	w10, w10, w11
	add	w9, w9, w13, lsl #6
	add	w9, w9, w10
	mov	w10, #4
	b	LBB55_5
LBB55_28:
	cmp	w9, #240
	b.eq	LBB55_34
	cmp	w9, #244
	b.ne	LBB55_31
	mov	w14, #143
	b	LBB55_32
LBB55_31:
	mov	w14, #191
LBB55_32:
	mov	w15, #128
	b	LBB55_35
LBB55_33:
	mov	w14, #191
	mov	w15, #160
	b	LBB55_35
LBB55_34:
	mov	w14, #191
	mov	w15, #144
LBB55_35:
	and	w13, w13, #0xff
	cmp	w13, #50
	b.hi	LBB55_40
	cmp	w15, w12
	b.hi	LBB55_40
	cmp	w12, w14
	b.hi	LBB55_40
	cmp	w9, #223
	b.hi	LBB55_16
LBB55_39:
	add	w9, w12, w9, lsl #6
	mov	w10, #-12416
	add	w9, w9, w10
	mov	w10, #2
	b	LBB55_5
LBB55_40:
	.cfi_def_cfa wsp, 64
	ldp	x20, x19, [sp, #48]
	ldr	x23, [sp, #16]
	ldp	x22, x21, [sp, #32]
	ldp	x29, x30, [sp], #64
	.cfi_def_cfa_offset 0
	.cfi_restore w19
	.cfi_restore w20
	.cfi_restore w21
	.cfi_restore w22
	.cfi_restore w23
	.cfi_restore w30
	.cfi_restore w29
	ret
Lfunc_end55:
	.cfi_endproc

	.section	__TEXT,__literal16,16byte_literals
	.p2align	4, 0x0
lCPI56_0:
	.byte	1
	.byte	2
	.byte	4
	.byte	8
	.byte	16
	.byte	32
	.byte	64
	.byte	128
	.byte	1
	.byte	2
	.byte	4
	.byte	8
	.byte	16
	.byte	32
	.byte	64
	.byte	128
	.section	__TEXT,__text,regular,pure_instructions
	.p2align	2
"_utf16_transcode::transcoding::write_buffered_text::<#824f73f0383279b7>":
	.cfi_startproc
	sub	sp, sp, #112
	.cfi_def_cfa_offset 112
	stp	x29, x30, [sp, #32]
	stp	x26, x25, [sp, #48]
	stp	x24, x23, [sp, #64]
	stp	x22, x21, [sp, #80]
	stp	x20, x19, [sp, #96]
	add	x29, sp, #32
	.cfi_def_cfa w29, 80
	.cfi_offset w19, -8
	.cfi_offset w20, -16
	.cfi_offset w21, -24
	.cfi_offset w22, -32
	.cfi_offset w23, -40
	.cfi_offset w24, -48
	.cfi_offset w25, -56
	.cfi_offset w26, -64
	.cfi_offset w30, -72
	.cfi_offset w29, -80
	.cfi_remember_state
	movi	v0.2d, #0000000000000000
	mov	w8, #64
	cmp	x1, #64
	mov	x19, x5
	mov	x23, x4
	mov	x22, x3
	mov	x20, x2
	csel	x24, x1, x8, lo
	cmp	x1, #63
	mov	x25, x0
	b.hi	LBB56_3
	mov	x0, sp
	mov	x1, x25
	mov	x2, x24
	stp	q0, q0, [sp]
	bl	"_simdutf8::compat::from_utf8"
	ldrb	w8, [sp]
	mov	x21, x24
	cbz	w8, LBB56_8
	ldr	x21, [sp, #8]
	b	LBB56_5
LBB56_3:
	mov	x0, sp
	mov	x1, x25
	mov	w2, #63
	stp	q0, q0, [sp]
	mov	w26, #63
	bl	"_simdutf8::compat::from_utf8"
	ldrb	w8, [sp]
	ldr	x21, [sp, #8]
	cmp	w8, #0
	csel	x26, x26, x21, eq
	add	x8, x26, #4
	cmp	x8, #64
	b.lo	LBB56_5
	movi	v0.2d, #0000000000000000
	sub	x21, x24, x26
	mov	x0, sp
	add	x1, x25, x26
	mov	x2, x21
	stp	q0, q0, [sp]
	bl	"_simdutf8::compat::from_utf8"
	ldrb	w8, [sp]
	ldr	x9, [sp, #8]
	cmp	w8, #0
	csel	x8, x21, x9, eq
	add	x21, x8, x26
LBB56_5:
	cmp	x21, #7
	b.hi	LBB56_8
	mov	x24, xzr
	cbz	x21, LBB56_28
	mov	x8, x21
	b	LBB56_12
LBB56_8:
	lsl	x24, x21, #1
	cmp	x21, #16
	b.hi	LBB56_21
	add	x8, x25, x21
	ldr	d0, [x25]
	ldur	d1, [x8, #-8]
	adrp	x8, lstatic.1@PAGE
	add	x8, x8, lstatic.1@PAGEOFF
	add	x8, x8, x21, lsl #4
	mov	v0.d[1], v1.d[0]
	ldur	q1, [x8, #-128]
	adrp	x8, lCPI56_0@PAGE
	tbl	v1.16b, { v0.16b }, v1.16b
	ldr	q0, [x8, lCPI56_0@PAGEOFF]
	cmlt	v2.16b, v1.16b, #0
	and	v2.16b, v2.16b, v0.16b
	addp	v2.16b, v2.16b, v2.16b
	addp	v2.16b, v2.16b, v2.16b
	addp	v2.16b, v2.16b, v2.16b
	umov	w8, v2.h[0]
	cbz	w8, LBB56_29
	adrp	x8, lstatic.2@PAGE
	add	x8, x8, lstatic.2@PAGEOFF
	movi	v3.2d, #0000000000000000
	sub	x8, x8, x21
	movi	v6.16b, #223
	movi	v7.16b, #191
	ldr	q2, [x8, #16]
	movi	v16.16b, #224
	movi	v17.16b, #64
	movi	v20.16b, #232
	movi	v21.16b, #231
	movi	v22.16b, #220
	umax	v2.16b, v1.16b, v2.16b
	movi	v1.16b, #192
	adrp	x10, lstatic.10@PAGE
	add	x10, x10, lstatic.10@PAGEOFF
	ext	v4.16b, v3.16b, v2.16b, #15
	cmge	v5.16b, v2.16b, #0
	cmhi	v7.16b, v2.16b, v7.16b
	ext	v3.16b, v3.16b, v4.16b, #15
	bsl	v5.16b, v1.16b, v4.16b
	cmhi	v6.16b, v4.16b, v6.16b
	shl	v18.16b, v4.16b, #2
	orr	v6.16b, v7.16b, v6.16b
	umax	v7.16b, v3.16b, v16.16b
	umax	v16.16b, v5.16b, v3.16b
	cmhi	v17.16b, v17.16b, v18.16b
	ushr	v19.16b, v5.16b, #2
	movi	v18.16b, #127
	shl	v5.16b, v5.16b, #6
	bic	v0.16b, v0.16b, v6.16b
	cmhi	v6.16b, v1.16b, v16.16b
	ushr	v16.16b, v2.16b, #4
	bsl	v17.16b, v21.16b, v20.16b
	sli	v19.16b, v7.16b, #4
	addp	v0.16b, v0.16b, v0.16b
	and	v2.16b, v2.16b, v18.16b
	sli	v16.16b, v4.16b, #2
	movi	v4.16b, #240
	and	v6.16b, v6.16b, v22.16b
	add	v7.16b, v17.16b, v3.16b
	addp	v0.16b, v0.16b, v0.16b
	add	v2.16b, v5.16b, v2.16b
	orr	v6.16b, v19.16b, v6.16b
	cmhi	v3.16b, v4.16b, v3.16b
	add	v1.16b, v16.16b, v1.16b
	addp	v0.16b, v0.16b, v0.16b
	mov	v4.16b, v3.16b
	bit	v1.16b, v2.16b, v3.16b
	umov	w8, v0.h[0]
	bsl	v4.16b, v6.16b, v7.16b
	and	x9, x8, #0xff
	ubfx	x8, x8, #8, #8
	ldr	q2, [x10, x9, lsl #4]
	zip1	v0.16b, v4.16b, v1.16b
	fmov	d3, x8
	zip2	v1.16b, v4.16b, v1.16b
	cnt	v3.8b, v3.8b
	tbl	v0.16b, { v0.16b }, v2.16b
	fmov	d2, x9
	cnt	v2.8b, v2.8b
	fmov	w9, s3
	str	q0, [x20]
	ldr	q0, [x10, x8, lsl #4]
	fmov	w8, s2
	tbl	v0.16b, { v1.16b }, v0.16b
	ubfiz	x10, x8, #1, #32
	add	x8, x8, x9
	lsl	x24, x8, #1
	str	q0, [x20, x10]
	b	LBB56_30
LBB56_11:
	mov	w12, #67043328
	mov	w13, #-10240
	add	w9, w9, w12
	mov	w12, #56320
	add	w9, w13, w9, lsr #10
	orr	w11, w11, w12
	rev16	w11, w11
	rev	w9, w9
	strh	w11, [x10, #2]
	lsr	w9, w9, #16
	strh	w9, [x10]
	mov	w9, #4
	add	x24, x9, x24
	cbz	x8, LBB56_30
LBB56_12:
	ldrsb	w10, [x25]
	and	w9, w10, #0xff
	tbnz	w10, #31, LBB56_14
	mov	w11, #1
	b	LBB56_18
LBB56_14:
	ldrb	w10, [x25, #1]
	cmp	w9, #223
	and	w10, w10, #0x3f
	b.hi	LBB56_16
	bfi	w10, w9, #6, #5
	mov	w11, #2
	mov	w9, w10
	b	LBB56_18
LBB56_16:
	ldrb	w11, [x25, #2]
	cmp	w9, #239
	and	w11, w11, #0x3f
	b.hi	LBB56_20
	ubfiz	w9, w9, #12, #4
	orr	w9, w9, w10, lsl #6
	orr	w9, w9, w11
	mov	w11, #3
LBB56_18:
	add	x25, x25, x11
	sub	x8, x8, x11
	add	x10, x20, x24
LBB56_19:
	rev	w9, w9
	lsr	w9, w9, #16
	strh	w9, [x10]
	mov	w9, #2
	add	x24, x9, x24
	cbnz	x8, LBB56_12
	b	LBB56_30
LBB56_20:
	ldrb	w12, [x25, #3]
	ubfiz	w9, w9, #18, #3
	add	x25, x25, #4
	sub	x8, x8, #4
	and	w12, w12, #0x3f
	orr	w9, w9, w10, lsl #12
	add	x10, x20, x24
	orr	w11, w12, w11, lsl #6
	lsr	w12, w9, #16
	orr	w9, w11, w9
	cbz	w12, LBB56_19
	b	LBB56_11
LBB56_21:
	add	x26, x24, #16
	lsr	x8, x26, #1
	cmp	x8, x21
	csel	x4, x8, x21, lo
	cmp	x26, #32
	b.lo	LBB56_23
	ldr	q1, [x25]
	adrp	x8, lCPI56_0@PAGE
	ldr	q0, [x8, lCPI56_0@PAGEOFF]
	cmlt	v2.16b, v1.16b, #0
	and	v2.16b, v2.16b, v0.16b
	addp	v2.16b, v2.16b, v2.16b
	addp	v2.16b, v2.16b, v2.16b
	addp	v2.16b, v2.16b, v2.16b
	umov	w8, v2.h[0]
	cbz	w8, LBB56_39
LBB56_23:
	mov	x24, xzr
	mov	x4, xzr
LBB56_24:
	sub	x8, x21, x4
	cmp	x8, #191
	b.ls	LBB56_27
	mov	x0, x25
	mov	x1, x21
	mov	x2, x20
	mov	x3, x26
	mov	x5, x24
	bl	"_utf16_from_utf8::blocks::write_mixed_blocks::<#8b18edd9dd9aa8df>"
	sub	x8, x21, x0
	mov	x24, x1
	cmp	x8, #191
	b.hi	LBB56_30
	mov	x4, x0
LBB56_27:
	mov	x0, x25
	mov	x1, x21
	mov	x2, x20
	mov	x3, x26
	mov	x5, x24
	bl	"_utf16_from_utf8::rest::write_rest::<#8b18edd9dd9aa8df>"
	mov	x24, x1
	b	LBB56_30
LBB56_28:
	add	x0, x22, x19
	b	LBB56_36
LBB56_29:
	shll	v0.8h, v1.8b, #8
	shll2	v1.8h, v1.16b, #8
	stp	q0, q1, [x20]
LBB56_30:
	sub	x8, x23, x19
	cmp	x24, x8
	b.ls	LBB56_32
	and	x8, x8, #0xfffffffffffffffe
	mov	x0, x20
	ldrb	w9, [x20, x8]
	sub	x10, x8, #2
	and	w9, w9, #0xfc
	cmp	w9, #220
	csel	x24, x10, x8, eq
	mov	x1, x24
	bl	"_utf16_to_utf8::lens::utf8_len::<#8b18edd9dd9aa8df>"
	mov	x21, x0
LBB56_32:
	add	x0, x22, x19
	sub	x8, x0, x20
	cmp	x8, x24
	b.hs	LBB56_36
	cmp	x24, #8
	b.lo	LBB56_35
	add	x8, x19, x22
	sub	x8, x8, x20
	cmp	x8, #32
	b.hs	LBB56_37
LBB56_35:
	mov	x8, xzr
	b	LBB56_52
LBB56_36:
	mov	x1, x20
	mov	x2, x24
	bl	_memmove
	b	LBB56_50
LBB56_37:
	cmp	x24, #32
	b.hs	LBB56_42
	mov	x8, xzr
	b	LBB56_46
LBB56_39:
	cmp	x4, #31
	b.hi	LBB56_48
	shll	v2.8h, v1.8b, #8
	shll2	v1.8h, v1.16b, #8
	sub	x8, x4, #16
	stp	q2, q1, [x20]
	ldr	q1, [x25, x8]
	cmlt	v2.16b, v1.16b, #0
	and	v0.16b, v2.16b, v0.16b
	addp	v0.16b, v0.16b, v0.16b
	addp	v0.16b, v0.16b, v0.16b
	addp	v0.16b, v0.16b, v0.16b
	umov	w9, v0.h[0]
	cbz	w9, LBB56_49
	mov	w4, #16
	lsl	x24, x4, #1
	cmp	x4, x21
	b.ne	LBB56_24
	b	LBB56_30
LBB56_42:
	add	x11, x19, x22
	and	x9, x24, #0x18
	and	x8, x24, #0xffffffffffffffe0
	add	x10, x20, #16
	add	x11, x11, #16
	and	x12, x24, #0xffffffffffffffe0
LBB56_43:
	ldp	q0, q1, [x10, #-16]
	subs	x12, x12, #32
	add	x10, x10, #32
	stp	q0, q1, [x11, #-16]
	add	x11, x11, #32
	b.ne	LBB56_43
	cmp	x24, x8
	b.eq	LBB56_50
	cbz	x9, LBB56_52
LBB56_46:
	mov	x10, x8
	and	x8, x24, #0xfffffffffffffff8
	add	x11, x10, x19
	sub	x9, x10, x8
	add	x10, x20, x10
	add	x11, x22, x11
LBB56_47:
	ldr	d0, [x10], #8
	adds	x9, x9, #8
	str	d0, [x11], #8
	b.ne	LBB56_47
	b	LBB56_51
LBB56_48:
	mov	x0, x25
	mov	x1, x4
	mov	x2, x20
	bl	"_utf16_from_utf8::ascii::write_front::<#8b18edd9dd9aa8df>"
	mov	x4, x0
	lsl	x24, x0, #1
	cmp	x0, x21
	b.ne	LBB56_24
	b	LBB56_30
LBB56_49:
	shll	v0.8h, v1.8b, #8
	shll2	v1.8h, v1.16b, #8
	add	x8, x20, x8, lsl #1
	stp	q0, q1, [x8]
	lsl	x24, x4, #1
	cmp	x4, x21
	b.ne	LBB56_24
	b	LBB56_30
LBB56_50:
	add	x1, x24, x19
	mov	x0, x21
	.cfi_def_cfa wsp, 112
	ldp	x20, x19, [sp, #96]
	ldp	x22, x21, [sp, #80]
	ldp	x24, x23, [sp, #64]
	ldp	x26, x25, [sp, #48]
	ldp	x29, x30, [sp, #32]
	add	sp, sp, #112
	.cfi_def_cfa_offset 0
	.cfi_restore w19
	.cfi_restore w20
	.cfi_restore w21
	.cfi_restore w22
	.cfi_restore w23
	.cfi_restore w24
	.cfi_restore w25
	.cfi_restore w26
	.cfi_restore w30
	.cfi_restore w29
	ret
LBB56_51:
	.cfi_restore_state
	cmp	x24, x8
	b.eq	LBB56_50
LBB56_52:
	ldrb	w9, [x20, x8]
	strb	w9, [x0, x8]
	add	x8, x8, #1
	b	LBB56_51
Lfunc_end56:
	.cfi_endproc

	.section	__TEXT,__literal16,16byte_literals
	.p2align	4, 0x0
lCPI57_0:
	.byte	1
	.byte	2
	.byte	4
	.byte	8
	.byte	16
	.byte	32
	.byte	64
	.byte	128
	.byte	1
	.byte	2
	.byte	4
	.byte	8
	.byte	16
	.byte	32
	.byte	64
	.byte	128
	.section	__TEXT,__text,regular,pure_instructions
	.p2align	2
"_utf16_transcode::encode_lossy::write_replacement_and_more::<#8b18edd9dd9aa8df>":
	.cfi_startproc
	stp	x29, x30, [sp, #-96]!
	.cfi_def_cfa_offset 96
	str	x27, [sp, #16]
	stp	x26, x25, [sp, #32]
	stp	x24, x23, [sp, #48]
	stp	x22, x21, [sp, #64]
	stp	x20, x19, [sp, #80]
	mov	x29, sp
	.cfi_def_cfa w29, 96
	.cfi_offset w19, -8
	.cfi_offset w20, -16
	.cfi_offset w21, -24
	.cfi_offset w22, -32
	.cfi_offset w23, -40
	.cfi_offset w24, -48
	.cfi_offset w25, -56
	.cfi_offset w26, -64
	.cfi_offset w27, -80
	.cfi_offset w30, -88
	.cfi_offset w29, -96
	mov	x21, x3
	mov	w8, #65023
	add	x23, x0, x2
	sub	x24, x1, x2
	sub	x25, x4, #2
	mov	x19, x2
	strh	w8, [x21], #2
	mov	x0, x23
	mov	x1, x24
	mov	x2, x21
	mov	x3, x25
	bl	"_utf16_transcode::items::write_items::<#8b18edd9dd9aa8df>"
	sub	x26, x24, x0
	mov	x20, x0
	mov	x22, x1
	cmp	x26, #64
	b.lo	LBB57_10
LBB57_1:
	sub	x27, x25, x22
	cmp	x27, #128
	b.lo	LBB57_10
	ldr	q0, [x23, x20]
	adrp	x8, lCPI57_0@PAGE
	ldr	q1, [x8, lCPI57_0@PAGEOFF]
	cmlt	v0.16b, v0.16b, #0
	and	v0.16b, v0.16b, v1.16b
	addp	v0.16b, v0.16b, v0.16b
	addp	v0.16b, v0.16b, v0.16b
	addp	v0.16b, v0.16b, v0.16b
	umov	w8, v0.h[0]
	cbz	w8, LBB57_4
	mov	x4, xzr
	sub	x8, x26, xzr
	lsl	x5, xzr, #1
	cmp	x8, #64
	b.hs	LBB57_5
	b	LBB57_7
LBB57_4:
	lsr	x8, x27, #1
	add	x0, x23, x20
	add	x2, x21, x22
	cmp	x8, x26
	csel	x1, x8, x26, lo
	bl	"_utf16_from_utf8::ascii::write_front::<#8b18edd9dd9aa8df>"
	mov	x4, x0
	sub	x8, x26, x0
	lsl	x5, x0, #1
	cmp	x8, #64
	b.lo	LBB57_7
LBB57_5:
	sub	x8, x27, x5
	cmp	x8, #128
	b.lo	LBB57_7
	add	x0, x23, x20
	add	x2, x21, x22
	sub	x3, x25, x22
	mov	x1, x26
	bl	"_utf16_from_utf8::blocks::write_mixed_blocks::<#8b18edd9dd9aa8df>"
	mov	x4, x0
	mov	x5, x1
LBB57_7:
	add	x20, x4, x20
	add	x22, x5, x22
	sub	x8, x24, x20
	cmp	x8, #4
	b.lo	LBB57_10
	sub	x8, x25, x22
	cmp	x8, #4
	b.lo	LBB57_10
	add	x0, x23, x20
	sub	x1, x24, x20
	add	x2, x21, x22
	sub	x3, x25, x22
	bl	"_utf16_transcode::items::write_items::<#8b18edd9dd9aa8df>"
	add	x20, x0, x20
	add	x22, x1, x22
	sub	x26, x24, x20
	cmp	x26, #63
	b.hi	LBB57_1
LBB57_10:
	add	x0, x20, x19
	add	x1, x22, #2
	.cfi_def_cfa wsp, 96
	ldp	x20, x19, [sp, #80]
	ldr	x27, [sp, #16]
	ldp	x22, x21, [sp, #64]
	ldp	x24, x23, [sp, #48]
	ldp	x26, x25, [sp, #32]
	ldp	x29, x30, [sp], #96
	.cfi_def_cfa_offset 0
	.cfi_restore w19
	.cfi_restore w20
	.cfi_restore w21
	.cfi_restore w22
	.cfi_restore w23
	.cfi_restore w24
	.cfi_restore w25
	.cfi_restore w26
	.cfi_restore w27
	.cfi_restore w30
	.cfi_restore w29
	ret
Lfunc_end57:
	.cfi_endproc

	.section	__TEXT,__literal16,16byte_literals
	.p2align	4, 0x0
lCPI58_0:
	.byte	1
	.byte	2
	.byte	4
	.byte	8
	.byte	16
	.byte	32
	.byte	64
	.byte	128
	.byte	1
	.byte	2
	.byte	4
	.byte	8
	.byte	16
	.byte	32
	.byte	64
	.byte	128
	.section	__TEXT,__text,regular,pure_instructions
	.p2align	2
"_utf16_transcode::items::write_items::<#8b18edd9dd9aa8df>":
	.cfi_startproc
	mov	x8, x1
	mov	x9, x0
	mov	x0, xzr
	mov	x1, xzr
	mov	x10, xzr
	b	LBB58_2
LBB58_1:
	movi	v1.16b, #127
	ubfiz	x12, x15, #1, #32
	and	v0.16b, v0.16b, v1.16b
	shll	v1.8h, v0.8b, #8
	shll2	v0.8h, v0.16b, #8
	stp	q1, q0, [x11]
	mov	w11, #2
	add	x1, x12, x1
	add	x10, x11, x10
	cmp	x10, #16
	add	x0, x15, x0
	b.hs	LBB58_47
LBB58_2:
	sub	x13, x8, x0
	cmp	x13, #4
	b.lo	LBB58_47
	sub	x11, x3, x1
	cmp	x11, #4
	b.lo	LBB58_47
	cmp	x11, #32
	add	x12, x9, x0
	add	x11, x2, x1
	b.lo	LBB58_12
	cmp	x13, #15
	b.ls	LBB58_12
	ldr	q0, [x12]
	adrp	x13, lCPI58_0@PAGE
	ldr	q2, [x13, lCPI58_0@PAGEOFF]
	cmlt	v1.16b, v0.16b, #0
	and	v1.16b, v1.16b, v2.16b
	addp	v1.16b, v1.16b, v1.16b
	addp	v1.16b, v1.16b, v1.16b
	addp	v1.16b, v1.16b, v1.16b
	umov	w13, v1.h[0]
	orr	w13, w13, #0x10000
	rbit	w13, w13
	clz	w15, w13
	cmp	w15, #4
	b.hs	LBB58_1
	umov	w13, v0.b[0]
	tbz	w13, #7, LBB58_13
LBB58_8:
	and	w16, w13, #0xff
	cmp	w16, #225
	b.hs	LBB58_14
	lsr	w15, w13, #4
	ldrb	w14, [x12, #1]
	and	w15, w15, #0xc
	orr	w15, w15, w14, lsr #6
	cmp	w15, #14
	b.ne	LBB58_27
	add	w15, w13, #62
	and	w16, w15, #0xff
	cmp	w16, #30
	b.hs	LBB58_20
LBB58_11:
	and	w12, w13, #0xff
	mov	w13, #-12416
	lsl	w12, w12, #6
	add	w12, w12, w14, uxtb
	add	w16, w12, w13
	b	LBB58_41
LBB58_12:
	ldrb	w13, [x12]
	tbnz	w13, #7, LBB58_8
LBB58_13:
	and	w16, w13, #0xff
	b	LBB58_28
LBB58_14:
	ldrb	w15, [x12, #1]
	cmp	w16, #236
	sxtb	w14, w15
	b.hi	LBB58_18
	cmn	w14, #65
	b.gt	LBB58_27
	ldrsb	w16, [x12, #2]
	cmn	w16, #65
	b.gt	LBB58_34
	and	w12, w13, #0xff
	mov	w14, #57216
	and	w13, w16, #0xff
	lsl	w12, w12, #12
	movk	w14, #65521, lsl #16
	add	w13, w13, w14
	add	w12, w12, w15, lsl #6
	b	LBB58_37
LBB58_18:
	cmn	w14, #65
	b.gt	LBB58_27
	add	w15, w13, #62
LBB58_20:
	and	w16, w13, #0xff
	cmp	w16, #239
	b.gt	LBB58_24
	cmp	w16, #224
	b.eq	LBB58_38
	cmp	w16, #237
	b.ne	LBB58_30
	mov	w17, #159
	mov	w16, #128
	and	w15, w15, #0xff
	cmp	w15, #50
	b.hi	LBB58_27
	b	LBB58_31
LBB58_24:
	cmp	w16, #240
	b.eq	LBB58_39
	cmp	w16, #244
	b.ne	LBB58_30
	mov	w17, #143
	mov	w16, #128
	and	w15, w15, #0xff
	cmp	w15, #50
	b.ls	LBB58_31
LBB58_27:
	mov	w16, #65533
LBB58_28:
	mov	w15, #1
LBB58_29:
	rev	w12, w16
	mov	w13, #65533
	add	x1, x1, #2
	lsr	w12, w12, #16
	cmp	w16, w13
	csinc	x10, xzr, x10, eq
	strh	w12, [x11]
	cmp	x10, #16
	add	x0, x15, x0
	b.lo	LBB58_2
	b	LBB58_47
LBB58_30:
	mov	w17, #191
	mov	w16, #128
	and	w15, w15, #0xff
	cmp	w15, #50
	b.hi	LBB58_27
LBB58_31:
	cmp	w16, w14, uxtb
	mov	w16, #65533
	mov	w15, #1
	b.hi	LBB58_29
	cmp	w17, w14, uxtb
	b.lo	LBB58_29
	and	w15, w13, #0xff
	cmp	w15, #223
	b.ls	LBB58_11
LBB58_34:
	ldrsb	w15, [x12, #2]
	cmn	w15, #65
	b.gt	LBB58_40
	and	w16, w13, #0xff
	and	w15, w15, #0xff
	cmp	w16, #239
	b.hi	LBB58_42
	lsl	w12, w16, #12
	and	w13, w14, #0xff
	add	w12, w12, w13, lsl #6
	mov	w13, #57216
	movk	w13, #65521, lsl #16
	add	w13, w15, w13
LBB58_37:
	add	w16, w12, w13
	mov	w15, #3
	b	LBB58_29
LBB58_38:
	mov	w17, #191
	mov	w16, #160
	and	w15, w15, #0xff
	cmp	w15, #50
	b.ls	LBB58_31
	b	LBB58_27
LBB58_39:
	mov	w17, #191
	mov	w16, #144
	and	w15, w15, #0xff
	cmp	w15, #50
	b.hi	LBB58_27
	b	LBB58_31
LBB58_40:
	mov	w16, #65533
LBB58_41:
	mov	w15, #2
	b	LBB58_29
LBB58_42:
	ldrsb	w12, [x12, #3]
	cmn	w12, #65
	b.gt	LBB58_45
	and	w13, w13, #0xff
	and	w14, w14, #0xff
	and	w12, w12, #0xff
	lsl	w13, w13, #18
	add	w13, w13, w14, lsl #12
	mov	w14, #57216
	movk	w14, #64567, lsl #16
	add	w13, w13, w15, lsl #6
	add	w12, w12, w14
	add	w16, w13, w12
	cmp	w16, #16, lsl #12
	b.hs	LBB58_46
	mov	w15, #4
	b	LBB58_29
LBB58_45:
	mov	w16, #65533
	mov	w15, #3
	b	LBB58_29
LBB58_46:
	mov	w12, #67043328
	mov	w13, #-10240
	mov	w14, #56320
	add	w12, w16, w12
	bfxil	w14, w16, #0, #10
	mov	w15, #4
	add	w12, w13, w12, lsr #10
	rev16	w13, w14
	rev	w12, w12
	strh	w13, [x11, #2]
	lsr	w12, w12, #16
	strh	w12, [x11]
	mov	w11, #1
	mov	w12, #4
	add	x1, x12, x1
	add	x10, x11, x10
	cmp	x10, #16
	add	x0, x15, x0
	b.lo	LBB58_2
LBB58_47:
	ret
Lfunc_end58:
	.cfi_endproc

	.section	__TEXT,__literal16,16byte_literals
	.p2align	4, 0x0
lCPI59_0:
	.byte	1
	.byte	2
	.byte	4
	.byte	8
	.byte	16
	.byte	32
	.byte	64
	.byte	128
	.byte	1
	.byte	2
	.byte	4
	.byte	8
	.byte	16
	.byte	32
	.byte	64
	.byte	128
lCPI59_2:
	.byte	0
	.byte	1
	.byte	2
	.byte	3
	.byte	4
	.byte	5
	.byte	6
	.byte	7
	.byte	8
	.byte	9
	.byte	10
	.byte	11
	.byte	12
	.byte	13
	.byte	14
	.byte	15
	.section	__TEXT,__literal8,8byte_literals
	.p2align	3, 0x0
lCPI59_1:
	.zero	1
	.zero	1
	.zero	1
	.zero	1
	.zero	1
	.zero	1
	.byte	224
	.byte	192
	.section	__TEXT,__text,regular,pure_instructions
	.p2align	2
"_utf16_transcode::encode::FromUtf8Direction::begin::<#418c2b53cf60437c>":
	.cfi_startproc
	cmp	x1, #7
	b.hi	LBB59_5
	lsr	x8, x3, #1
	cmp	x8, x1
	csel	x4, x8, x1, lo
	cbz	x4, LBB59_14
	ldrsb	w8, [x0]
	tbnz	w8, #31, LBB59_20
	cmp	x4, #1
	strh	w8, [x2]
	b.ne	LBB59_21
	mov	w5, #2
	b	LBB59_96
LBB59_5:
	cmp	x1, #16
	b.hi	LBB59_8
	cmp	x3, #32
	b.hs	LBB59_15
LBB59_7:
	mov	x5, xzr
	mov	x4, xzr
	cmp	x1, #31
	b.ls	LBB59_34
	b	LBB59_136
LBB59_8:
	stp	x29, x30, [sp, #-48]!
	.cfi_def_cfa_offset 48
	stp	x22, x21, [sp, #16]
	stp	x20, x19, [sp, #32]
	mov	x29, sp
	.cfi_def_cfa w29, 48
	.cfi_offset w19, -8
	.cfi_offset w20, -16
	.cfi_offset w21, -24
	.cfi_offset w22, -32
	.cfi_offset w30, -40
	.cfi_offset w29, -48
	.cfi_remember_state
	lsr	x8, x3, #1
	cmp	x8, x1
	csel	x4, x8, x1, lo
	cmp	x3, #32
	b.lo	LBB59_10
	ldr	q1, [x0]
	adrp	x8, lCPI59_0@PAGE
	ldr	q0, [x8, lCPI59_0@PAGEOFF]
	cmlt	v2.16b, v1.16b, #0
	and	v2.16b, v2.16b, v0.16b
	addp	v2.16b, v2.16b, v2.16b
	addp	v2.16b, v2.16b, v2.16b
	addp	v2.16b, v2.16b, v2.16b
	umov	w8, v2.h[0]
	cbz	w8, LBB59_26
LBB59_10:
	mov	x4, xzr
LBB59_11:
	lsl	x5, x4, #1
	subs	x8, x1, x4
	b.eq	LBB59_32
	mov	x20, x0
	mov	x19, x1
	mov	x21, x2
	mov	x22, x3
	cmp	x8, #191
	b.hi	LBB59_24
	bl	"_utf16_from_utf8::rest::write_rest::<#418c2b53cf60437c>"
	mov	x2, x21
	mov	x3, x22
	mov	x4, x0
	mov	x0, x20
	mov	x5, x1
	mov	x1, x19
	b	LBB59_32
LBB59_14:
	.cfi_def_cfa wsp, 0
	.cfi_same_value w19
	.cfi_same_value w20
	.cfi_same_value w21
	.cfi_same_value w22
	.cfi_same_value w30
	.cfi_same_value w29
	mov	x5, xzr
	b	LBB59_96
LBB59_15:
	add	x8, x0, x1
	ldr	d0, [x0]
	ldur	d2, [x8, #-8]
	adrp	x8, lstatic.1@PAGE
	add	x8, x8, lstatic.1@PAGEOFF
	add	x8, x8, x1, lsl #4
	mov	v0.d[1], v2.d[0]
	ldur	q1, [x8, #-128]
	adrp	x8, lCPI59_0@PAGE
	tbl	v1.16b, { v0.16b }, v1.16b
	ldr	q0, [x8, lCPI59_0@PAGEOFF]
	cmlt	v3.16b, v1.16b, #0
	and	v3.16b, v3.16b, v0.16b
	addp	v3.16b, v3.16b, v3.16b
	addp	v3.16b, v3.16b, v3.16b
	addp	v3.16b, v3.16b, v3.16b
	umov	w8, v3.h[0]
	cbz	w8, LBB59_29
	adrp	x8, lCPI59_1@PAGE
	mov	x5, xzr
	ldr	d3, [x8, lCPI59_1@PAGEOFF]
	cmhi	v3.8b, v3.8b, v2.8b
	dup	v4.8b, v3.b[7]
	and	v3.8b, v4.8b, v3.8b
	umov	w8, v3.b[6]
	tbz	w8, #0, LBB59_78
	umov	w8, v2.b[5]
	mov	x4, x5
	and	w8, w8, #0xff
	cmp	w8, #239
	b.hi	LBB59_33
	adrp	x8, lstatic.2@PAGE
	add	x8, x8, lstatic.2@PAGEOFF
	movi	v4.2d, #0000000000000000
	sub	x8, x8, x1
	movi	v5.16b, #191
	movi	v6.16b, #223
	ldr	q2, [x8, #16]
	movi	v7.16b, #239
	movi	v17.16b, #144
	movi	v21.16b, #244
	movi	v22.16b, #160
	movi	v16.16b, #224
	umax	v2.16b, v1.16b, v2.16b
	movi	v23.16b, #237
	adrp	x8, lCPI59_2@PAGE
	movi	v26.16b, #254
	ext	v3.16b, v4.16b, v2.16b, #15
	cmhi	v24.16b, v17.16b, v2.16b
	cmhs	v17.16b, v2.16b, v17.16b
	cmhi	v27.16b, v22.16b, v2.16b
	ext	v1.16b, v4.16b, v3.16b, #15
	uqsub	v19.16b, v3.16b, v5.16b
	cmeq	v28.16b, v3.16b, v16.16b
	ext	v18.16b, v4.16b, v1.16b, #15
	movi	v4.16b, #240
	uqsub	v20.16b, v1.16b, v6.16b
	uqsub	v18.16b, v18.16b, v7.16b
	cmeq	v25.16b, v3.16b, v4.16b
	umax	v19.16b, v19.16b, v20.16b
	cmeq	v20.16b, v3.16b, v21.16b
	movi	v7.16b, #192
	and	v24.16b, v25.16b, v24.16b
	and	v25.16b, v2.16b, v26.16b
	orr	v18.16b, v19.16b, v18.16b
	and	v17.16b, v20.16b, v17.16b
	cmhs	v19.16b, v2.16b, v22.16b
	cmeq	v20.16b, v3.16b, v23.16b
	and	v22.16b, v28.16b, v27.16b
	cmgt	v23.16b, v7.16b, v2.16b
	cmeq	v18.16b, v18.16b, #0
	orr	v17.16b, v24.16b, v17.16b
	and	v19.16b, v20.16b, v19.16b
	cmhi	v20.16b, v2.16b, v21.16b
	cmeq	v21.16b, v25.16b, v7.16b
	eor	v18.16b, v18.16b, v23.16b
	orr	v19.16b, v22.16b, v19.16b
	orr	v17.16b, v20.16b, v17.16b
	ldr	q20, [x8, lCPI59_2@PAGEOFF]
	orn	v18.16b, v21.16b, v18.16b
	orr	v17.16b, v19.16b, v17.16b
	dup	v19.16b, w1
	orr	v17.16b, v17.16b, v18.16b
	cmhi	v18.16b, v19.16b, v20.16b
	and	v17.16b, v18.16b, v17.16b
	shl	v17.16b, v17.16b, #7
	cmlt	v17.16b, v17.16b, #0
	and	v17.16b, v17.16b, v0.16b
	addp	v17.16b, v17.16b, v17.16b
	addp	v17.16b, v17.16b, v17.16b
	addp	v17.16b, v17.16b, v17.16b
	umov	w8, v17.h[0]
	cbnz	w8, LBB59_7
	cmge	v17.16b, v2.16b, #0
	cmhi	v6.16b, v3.16b, v6.16b
	adrp	x10, lstatic.10@PAGE
	add	x10, x10, lstatic.10@PAGEOFF
	cmhi	v5.16b, v2.16b, v5.16b
	movi	v18.16b, #64
	shl	v19.16b, v3.16b, #2
	movi	v21.16b, #232
	mov	x4, x1
	bsl	v17.16b, v7.16b, v3.16b
	movi	v22.16b, #231
	movi	v23.16b, #220
	orr	v5.16b, v5.16b, v6.16b
	umax	v6.16b, v1.16b, v16.16b
	cmhi	v18.16b, v18.16b, v19.16b
	movi	v19.16b, #127
	umax	v16.16b, v17.16b, v1.16b
	bic	v0.16b, v0.16b, v5.16b
	ushr	v20.16b, v17.16b, #2
	bsl	v18.16b, v22.16b, v21.16b
	cmhi	v5.16b, v7.16b, v16.16b
	ushr	v16.16b, v2.16b, #4
	addp	v0.16b, v0.16b, v0.16b
	sli	v20.16b, v6.16b, #4
	and	v2.16b, v2.16b, v19.16b
	add	v6.16b, v18.16b, v1.16b
	cmhi	v1.16b, v4.16b, v1.16b
	sli	v16.16b, v3.16b, #2
	and	v5.16b, v5.16b, v23.16b
	shl	v3.16b, v17.16b, #6
	addp	v0.16b, v0.16b, v0.16b
	orr	v5.16b, v20.16b, v5.16b
	add	v2.16b, v3.16b, v2.16b
	mov	v3.16b, v1.16b
	add	v7.16b, v16.16b, v7.16b
	addp	v0.16b, v0.16b, v0.16b
	bsl	v3.16b, v5.16b, v6.16b
	bsl	v1.16b, v2.16b, v7.16b
	umov	w8, v0.h[0]
	zip1	v0.16b, v1.16b, v3.16b
	and	x9, x8, #0xff
	ubfx	x8, x8, #8, #8
	ldr	q2, [x10, x9, lsl #4]
	zip2	v1.16b, v1.16b, v3.16b
	fmov	d4, x8
	tbl	v0.16b, { v0.16b }, v2.16b
	fmov	d2, x9
	cnt	v4.8b, v4.8b
	cnt	v2.8b, v2.8b
	str	q0, [x2]
	ldr	q0, [x10, x8, lsl #4]
	fmov	w9, s4
	fmov	w8, s2
	tbl	v0.16b, { v1.16b }, v0.16b
	ubfiz	x10, x8, #1, #32
	add	x8, x8, x9
	lsl	x5, x8, #1
	str	q0, [x2, x10]
	cmp	x1, #31
	b.ls	LBB59_34
	b	LBB59_136
LBB59_20:
	mov	x5, xzr
	mov	x4, xzr
	b	LBB59_96
LBB59_21:
	ldrsb	w8, [x0, #1]
	tbnz	w8, #31, LBB59_30
	cmp	x4, #2
	strh	w8, [x2, #2]
	b.ne	LBB59_74
	mov	w5, #4
	b	LBB59_96
LBB59_24:
	.cfi_restore_state
	.cfi_remember_state
	bl	"_utf16_from_utf8::blocks::write_mixed_blocks::<#418c2b53cf60437c>"
	sub	x9, x19, x0
	mov	x4, x0
	mov	x8, x19
	cmp	x9, #191
	mov	x5, x1
	b.ls	LBB59_31
	mov	x3, x22
	mov	x2, x21
	mov	x1, x8
	mov	x0, x20
	b	LBB59_32
LBB59_26:
	cmp	x4, #31
	b.hi	LBB59_77
	ushll	v2.8h, v1.8b, #0
	ushll2	v1.8h, v1.16b, #0
	sub	x8, x4, #16
	stp	q2, q1, [x2]
	ldr	q1, [x0, x8]
	cmlt	v2.16b, v1.16b, #0
	and	v0.16b, v2.16b, v0.16b
	addp	v0.16b, v0.16b, v0.16b
	addp	v0.16b, v0.16b, v0.16b
	addp	v0.16b, v0.16b, v0.16b
	umov	w9, v0.h[0]
	cbz	w9, LBB59_83
	mov	w4, #16
	b	LBB59_11
LBB59_29:
	.cfi_def_cfa wsp, 0
	.cfi_same_value w19
	.cfi_same_value w20
	.cfi_same_value w21
	.cfi_same_value w22
	.cfi_same_value w30
	.cfi_same_value w29
	ushll	v0.8h, v1.8b, #0
	ushll2	v1.8h, v1.16b, #0
	lsl	x5, x1, #1
	mov	x4, x1
	stp	q0, q1, [x2]
	cmp	x1, #31
	b.ls	LBB59_34
	b	LBB59_136
LBB59_30:
	mov	w4, #1
	mov	w5, #2
	b	LBB59_96
LBB59_31:
	.cfi_restore_state
	.cfi_remember_state
	mov	x0, x20
	mov	x1, x8
	mov	x2, x21
	mov	x3, x22
	mov	x19, x20
	mov	x20, x8
	bl	"_utf16_from_utf8::rest::write_rest::<#418c2b53cf60437c>"
	mov	x2, x21
	mov	x3, x22
	mov	x4, x0
	mov	x0, x19
	mov	x5, x1
	mov	x1, x20
LBB59_32:
	.cfi_def_cfa wsp, 48
	ldp	x20, x19, [sp, #32]
	ldp	x22, x21, [sp, #16]
	ldp	x29, x30, [sp], #48
	.cfi_def_cfa_offset 0
	.cfi_restore w19
	.cfi_restore w20
	.cfi_restore w21
	.cfi_restore w22
	.cfi_restore w30
	.cfi_restore w29
LBB59_33:
	cmp	x1, #31
	b.hi	LBB59_136
LBB59_34:
	cmp	x4, x1
	b.hs	LBB59_136
	mov	w8, #57216
	movk	w8, #65521, lsl #16
	b	LBB59_37
LBB59_36:
	mov	w12, #67043328
	mov	w13, #-10240
	mov	w14, #56320
	add	w12, w9, w12
	bfxil	w14, w9, #0, #10
	add	w9, w13, w12, lsr #10
	mov	w12, #4
	strh	w14, [x11, #2]
	add	x4, x10, x4
	add	x5, x12, x5
	strh	w9, [x11]
	cmp	x4, x1
	b.hs	LBB59_136
LBB59_37:
	add	x10, x0, x4
	ldrsb	w11, [x10]
	and	w9, w11, #0xff
	tbnz	w11, #31, LBB59_42
	mov	w10, #1
LBB59_39:
	cmp	w9, #16, lsl #12
	mov	w11, #4
	mov	w12, #2
	sub	x13, x3, x5
	csel	x11, x12, x11, lo
	cmp	x13, x11
	b.lo	LBB59_136
	lsr	w12, w9, #16
	add	x11, x2, x5
	cbnz	w12, LBB59_36
	mov	w12, #2
	add	x4, x10, x4
	add	x5, x12, x5
	strh	w9, [x11]
	cmp	x4, x1
	b.lo	LBB59_37
	b	LBB59_136
LBB59_42:
	sub	x11, x1, x4
	cmp	x11, #3
	b.lo	LBB59_47
	add	w12, w9, #31
	and	w12, w12, #0xff
	cmp	w12, #11
	b.hi	LBB59_48
	ldrsb	w12, [x10, #1]
	cmn	w12, #65
	b.gt	LBB59_48
	ldrsb	w13, [x10, #2]
	cmn	w13, #65
	b.gt	LBB59_48
	add	w9, w8, w9, lsl #12
	and	w10, w12, #0xff
	add	w9, w9, w10, lsl #6
	and	w10, w13, #0xff
	add	w9, w9, w10
	mov	w10, #3
	b	LBB59_39
LBB59_47:
	cmp	x11, #2
	b.ne	LBB59_136
LBB59_48:
	lsr	w13, w9, #4
	ldrb	w12, [x10, #1]
	and	w13, w13, #0xc
	orr	w13, w13, w12, lsr #6
	cmp	w13, #14
	b.ne	LBB59_136
	add	w13, w9, #31
	and	w13, w13, #0xff
	cmp	w13, #12
	b.hs	LBB59_54
LBB59_50:
	cmp	x11, #2
	b.eq	LBB59_136
	ldrsb	w13, [x10, #2]
	cmn	w13, #65
	b.gt	LBB59_136
	cmp	w9, #239
	and	w13, w13, #0xff
	b.hi	LBB59_59
	add	w9, w8, w9, lsl #12
	mov	w10, #3
	add	w9, w9, w12, lsl #6
	add	w9, w9, w13
	b	LBB59_39
LBB59_54:
	add	w13, w9, #62
	and	w14, w13, #0xff
	cmp	w14, #30
	b.lo	LBB59_73
	cmp	w9, #239
	b.gt	LBB59_62
	cmp	w9, #224
	b.eq	LBB59_67
	cmp	w9, #237
	b.ne	LBB59_65
	mov	w14, #159
	b	LBB59_66
LBB59_59:
	cmp	x11, #4
	b.lo	LBB59_136
	ldrsb	w10, [x10, #3]
	cmn	w10, #65
	b.gt	LBB59_136
	lsl	w9, w9, #18
	mov	w11, #57216
	and	w10, w10, #0xff
	movk	w11, #64567, lsl #16
	add	w9, w9, w12, lsl #12
	add	w10, w10, w11
	add	w9, w9, w13, lsl #6
	add	w9, w9, w10
	mov	w10, #4
	b	LBB59_39
LBB59_62:
	cmp	w9, #240
	b.eq	LBB59_68
	cmp	w9, #244
	b.ne	LBB59_65
	mov	w14, #143
	b	LBB59_66
LBB59_65:
	mov	w14, #191
LBB59_66:
	mov	w15, #128
	b	LBB59_69
LBB59_67:
	mov	w14, #191
	mov	w15, #160
	b	LBB59_69
LBB59_68:
	mov	w14, #191
	mov	w15, #144
LBB59_69:
	and	w13, w13, #0xff
	cmp	w13, #50
	b.hi	LBB59_136
	cmp	w15, w12
	b.hi	LBB59_136
	cmp	w12, w14
	b.hi	LBB59_136
	cmp	w9, #223
	b.hi	LBB59_50
LBB59_73:
	add	w9, w12, w9, lsl #6
	mov	w10, #-12416
	add	w9, w9, w10
	mov	w10, #2
	b	LBB59_39
LBB59_74:
	ldrsb	w8, [x0, #2]
	tbnz	w8, #31, LBB59_79
	cmp	x4, #3
	strh	w8, [x2, #4]
	b.ne	LBB59_80
	mov	w5, #6
	b	LBB59_96
LBB59_77:
	.cfi_restore_state
	.cfi_remember_state
	mov	x21, x1
	mov	x1, x4
	mov	x19, x0
	mov	x20, x2
	mov	x22, x3
	bl	"_utf16_from_utf8::ascii::write_front::<#418c2b53cf60437c>"
	mov	x1, x21
	mov	x2, x20
	mov	x3, x22
	mov	x4, x0
	mov	x0, x19
	b	LBB59_11
LBB59_78:
	.cfi_def_cfa wsp, 0
	.cfi_same_value w19
	.cfi_same_value w20
	.cfi_same_value w21
	.cfi_same_value w22
	.cfi_same_value w30
	.cfi_same_value w29
	mov	x4, x5
	cmp	x1, #31
	b.ls	LBB59_34
	b	LBB59_136
LBB59_79:
	mov	w4, #2
	mov	w5, #4
	b	LBB59_96
LBB59_80:
	ldrsb	w8, [x0, #3]
	tbnz	w8, #31, LBB59_84
	cmp	x4, #4
	strh	w8, [x2, #6]
	b.ne	LBB59_85
	mov	w5, #8
	b	LBB59_96
LBB59_83:
	.cfi_restore_state
	ushll	v0.8h, v1.8b, #0
	ushll2	v1.8h, v1.16b, #0
	add	x8, x2, x8, lsl #1
	stp	q0, q1, [x8]
	b	LBB59_11
LBB59_84:
	.cfi_def_cfa wsp, 0
	.cfi_same_value w19
	.cfi_same_value w20
	.cfi_same_value w21
	.cfi_same_value w22
	.cfi_same_value w30
	.cfi_same_value w29
	mov	w4, #3
	mov	w5, #6
	b	LBB59_96
LBB59_85:
	ldrsb	w8, [x0, #4]
	tbnz	w8, #31, LBB59_88
	cmp	x4, #5
	strh	w8, [x2, #8]
	b.ne	LBB59_89
	mov	w5, #10
	b	LBB59_96
LBB59_88:
	mov	w4, #4
	mov	w5, #8
	b	LBB59_96
LBB59_89:
	ldrsb	w8, [x0, #5]
	tbnz	w8, #31, LBB59_93
	cmp	x4, #6
	strh	w8, [x2, #10]
	b.eq	LBB59_95
	ldrsb	w8, [x0, #6]
	tbnz	w8, #31, LBB59_94
	mov	w5, #14
	strh	w8, [x2, #12]
	b	LBB59_96
LBB59_93:
	mov	w4, #5
	mov	w5, #10
	b	LBB59_96
LBB59_94:
	mov	w4, #6
LBB59_95:
	mov	w5, #12
LBB59_96:
	cmp	x4, x1
	b.hs	LBB59_136
	mov	w8, #57216
	movk	w8, #65521, lsl #16
	b	LBB59_99
LBB59_98:
	mov	w12, #67043328
	mov	w13, #-10240
	mov	w14, #56320
	add	w12, w9, w12
	bfxil	w14, w9, #0, #10
	add	w9, w13, w12, lsr #10
	mov	w12, #4
	strh	w14, [x11, #2]
	add	x4, x10, x4
	add	x5, x12, x5
	strh	w9, [x11]
	cmp	x4, x1
	b.hs	LBB59_136
LBB59_99:
	add	x10, x0, x4
	ldrsb	w11, [x10]
	and	w9, w11, #0xff
	tbnz	w11, #31, LBB59_104
	mov	w10, #1
LBB59_101:
	cmp	w9, #16, lsl #12
	mov	w11, #4
	mov	w12, #2
	sub	x13, x3, x5
	csel	x11, x12, x11, lo
	cmp	x13, x11
	b.lo	LBB59_136
	lsr	w12, w9, #16
	add	x11, x2, x5
	cbnz	w12, LBB59_98
	mov	w12, #2
	add	x4, x10, x4
	add	x5, x12, x5
	strh	w9, [x11]
	cmp	x4, x1
	b.lo	LBB59_99
	b	LBB59_136
LBB59_104:
	sub	x11, x1, x4
	cmp	x11, #3
	b.lo	LBB59_109
	add	w12, w9, #31
	and	w12, w12, #0xff
	cmp	w12, #11
	b.hi	LBB59_110
	ldrsb	w12, [x10, #1]
	cmn	w12, #65
	b.gt	LBB59_110
	ldrsb	w13, [x10, #2]
	cmn	w13, #65
	b.gt	LBB59_110
	add	w9, w8, w9, lsl #12
	and	w10, w12, #0xff
	add	w9, w9, w10, lsl #6
	and	w10, w13, #0xff
	add	w9, w9, w10
	mov	w10, #3
	b	LBB59_101
LBB59_109:
	cmp	x11, #2
	b.ne	LBB59_136
LBB59_110:
	lsr	w13, w9, #4
	ldrb	w12, [x10, #1]
	and	w13, w13, #0xc
	orr	w13, w13, w12, lsr #6
	cmp	w13, #14
	b.ne	LBB59_136
	add	w13, w9, #31
	and	w13, w13, #0xff
	cmp	w13, #12
	b.hs	LBB59_116
LBB59_112:
	cmp	x11, #2
	b.eq	LBB59_136
	ldrsb	w13, [x10, #2]
	cmn	w13, #65
	b.gt	LBB59_136
	cmp	w9, #239
	and	w13, w13, #0xff
	b.hi	LBB59_121
	add	w9, w8, w9, lsl #12
	mov	w10, #3
	add	w9, w9, w12, lsl #6
	add	w9, w9, w13
	b	LBB59_101
LBB59_116:
	add	w13, w9, #62
	and	w14, w13, #0xff
	cmp	w14, #30
	b.lo	LBB59_135
	cmp	w9, #239
	b.gt	LBB59_124
	cmp	w9, #224
	b.eq	LBB59_129
	cmp	w9, #237
	b.ne	LBB59_127
	mov	w14, #159
	b	LBB59_128
LBB59_121:
	cmp	x11, #4
	b.lo	LBB59_136
	ldrsb	w10, [x10, #3]
	cmn	w10, #65
	b.gt	LBB59_136
	lsl	w9, w9, #18
	mov	w11, #57216
	and	w10, w10, #0xff
	movk	w11, #64567, lsl #16
	add	w9, w9, w12, lsl #12
	add	w10, w10, w11
	add	w9, w9, w13, lsl #6
	add	w9, w9, w10
	mov	w10, #4
	b	LBB59_101
LBB59_124:
	cmp	w9, #240
	b.eq	LBB59_130
	cmp	w9, #244
	b.ne	LBB59_127
	mov	w14, #143
	b	LBB59_128
LBB59_127:
	mov	w14, #191
LBB59_128:
	mov	w15, #128
	b	LBB59_131
LBB59_129:
	mov	w14, #191
	mov	w15, #160
	b	LBB59_131
LBB59_130:
	mov	w14, #191
	mov	w15, #144
LBB59_131:
	and	w13, w13, #0xff
	cmp	w13, #50
	b.hi	LBB59_136
	cmp	w15, w12
	b.hi	LBB59_136
	cmp	w12, w14
	b.hi	LBB59_136
	cmp	w9, #223
	b.hi	LBB59_112
LBB59_135:
	add	w9, w12, w9, lsl #6
	mov	w10, #-12416
	add	w9, w9, w10
	mov	w10, #2
	b	LBB59_101
LBB59_136:
	mov	x0, x4
	mov	x1, x5
	ret
Lfunc_end59:
	.cfi_endproc

	.section	__TEXT,__literal16,16byte_literals
	.p2align	4, 0x0
lCPI60_0:
	.byte	1
	.byte	2
	.byte	4
	.byte	8
	.byte	16
	.byte	32
	.byte	64
	.byte	128
	.byte	1
	.byte	2
	.byte	4
	.byte	8
	.byte	16
	.byte	32
	.byte	64
	.byte	128
	.section	__TEXT,__text,regular,pure_instructions
	.p2align	2
"_utf16_from_utf8::ascii::write_front::<#418c2b53cf60437c>":
	.cfi_startproc
	mov	x8, x0
	cmp	x1, #64
	adrp	x9, lCPI60_0@PAGE
	mov	x0, xzr
	b.lo	LBB60_4
	add	x10, x2, #64
	mov	x11, x1
LBB60_2:
	add	x12, x8, x0
	ldp	q3, q2, [x12]
	ldp	q1, q0, [x12, #32]
	orr	v4.16b, v3.16b, v2.16b
	orr	v5.16b, v1.16b, v0.16b
	orr	v4.16b, v4.16b, v5.16b
	ldr	q5, [x9, lCPI60_0@PAGEOFF]
	cmlt	v4.16b, v4.16b, #0
	and	v4.16b, v4.16b, v5.16b
	addp	v4.16b, v4.16b, v4.16b
	addp	v4.16b, v4.16b, v4.16b
	addp	v4.16b, v4.16b, v4.16b
	umov	w12, v4.h[0]
	cbnz	w12, LBB60_4
	ushll	v4.8h, v3.8b, #0
	ushll2	v3.8h, v3.16b, #0
	sub	x11, x11, #64
	ushll	v5.8h, v2.8b, #0
	ushll2	v2.8h, v2.16b, #0
	cmp	x11, #63
	add	x0, x0, #64
	stp	q4, q3, [x10, #-64]
	ushll	v3.8h, v1.8b, #0
	ushll2	v1.8h, v1.16b, #0
	ushll	v4.8h, v0.8b, #0
	ushll2	v0.8h, v0.16b, #0
	stp	q5, q2, [x10, #-32]
	stp	q3, q1, [x10]
	stp	q4, q0, [x10, #32]
	add	x10, x10, #128
	b.hi	LBB60_2
LBB60_4:
	sub	x10, x1, x0
	cmp	x10, #16
	b.lo	LBB60_8
	add	x11, x2, x0, lsl #1
	add	x11, x11, #16
LBB60_6:
	ldr	q0, [x8, x0]
	ldr	q2, [x9, lCPI60_0@PAGEOFF]
	cmlt	v1.16b, v0.16b, #0
	and	v1.16b, v1.16b, v2.16b
	addp	v1.16b, v1.16b, v1.16b
	addp	v1.16b, v1.16b, v1.16b
	addp	v1.16b, v1.16b, v1.16b
	umov	w12, v1.h[0]
	cbnz	w12, LBB60_9
	ushll	v1.8h, v0.8b, #0
	ushll2	v0.8h, v0.16b, #0
	sub	x10, x10, #16
	cmp	x10, #15
	add	x0, x0, #16
	stp	q1, q0, [x11, #-16]
	add	x11, x11, #32
	b.hi	LBB60_6
LBB60_8:
	sub	x10, x1, #16
	ldr	q2, [x9, lCPI60_0@PAGEOFF]
	ldr	q0, [x8, x10]
	cmlt	v1.16b, v0.16b, #0
	and	v1.16b, v1.16b, v2.16b
	addp	v1.16b, v1.16b, v1.16b
	addp	v1.16b, v1.16b, v1.16b
	addp	v1.16b, v1.16b, v1.16b
	umov	w8, v1.h[0]
	cbz	w8, LBB60_10
LBB60_9:
	ret
LBB60_10:
	ushll	v1.8h, v0.8b, #0
	ushll2	v0.8h, v0.16b, #0
	add	x8, x2, x10, lsl #1
	mov	x0, x1
	stp	q1, q0, [x8]
	ret
Lfunc_end60:
	.cfi_endproc

	.section	__TEXT,__literal16,16byte_literals
	.p2align	4, 0x0
lCPI61_0:
	.byte	1
	.byte	2
	.byte	4
	.byte	8
	.byte	16
	.byte	32
	.byte	64
	.byte	128
	.byte	1
	.byte	2
	.byte	4
	.byte	8
	.byte	16
	.byte	32
	.byte	64
	.byte	128
lCPI61_1:
	.byte	255
	.byte	0
	.byte	255
	.byte	255
	.byte	0
	.byte	255
	.byte	255
	.byte	0
	.byte	255
	.byte	255
	.byte	0
	.byte	255
	.byte	255
	.byte	0
	.byte	255
	.byte	255
lCPI61_2:
	.byte	255
	.byte	255
	.byte	0
	.byte	255
	.byte	255
	.byte	0
	.byte	255
	.byte	255
	.byte	0
	.byte	255
	.byte	255
	.byte	0
	.byte	255
	.byte	255
	.byte	0
	.byte	255
lCPI61_3:
	.byte	0
	.byte	3
	.byte	6
	.byte	9
	.byte	12
	.byte	15
	.byte	18
	.byte	21
	.byte	24
	.byte	27
	.byte	30
	.byte	17
	.byte	20
	.byte	23
	.byte	26
	.byte	29
lCPI61_4:
	.byte	1
	.byte	4
	.byte	7
	.byte	10
	.byte	13
	.byte	16
	.byte	19
	.byte	22
	.byte	25
	.byte	28
	.byte	31
	.byte	18
	.byte	21
	.byte	24
	.byte	27
	.byte	30
lCPI61_5:
	.byte	2
	.byte	5
	.byte	8
	.byte	11
	.byte	14
	.byte	17
	.byte	20
	.byte	23
	.byte	26
	.byte	29
	.byte	16
	.byte	19
	.byte	22
	.byte	25
	.byte	28
	.byte	31
	.section	__TEXT,__text,regular,pure_instructions
	.p2align	2
"_utf16_from_utf8::blocks::write_mixed_blocks::<#418c2b53cf60437c>":
	.cfi_startproc
	stp	d15, d14, [sp, #-160]!
	.cfi_def_cfa_offset 160
	stp	d13, d12, [sp, #16]
	stp	d11, d10, [sp, #32]
	stp	d9, d8, [sp, #48]
	stp	x29, x30, [sp, #64]
	str	x27, [sp, #80]
	stp	x26, x25, [sp, #96]
	stp	x24, x23, [sp, #112]
	stp	x22, x21, [sp, #128]
	stp	x20, x19, [sp, #144]
	add	x29, sp, #64
	.cfi_def_cfa w29, 96
	.cfi_offset w19, -8
	.cfi_offset w20, -16
	.cfi_offset w21, -24
	.cfi_offset w22, -32
	.cfi_offset w23, -40
	.cfi_offset w24, -48
	.cfi_offset w25, -56
	.cfi_offset w26, -64
	.cfi_offset w27, -80
	.cfi_offset w30, -88
	.cfi_offset w29, -96
	.cfi_offset b8, -104
	.cfi_offset b9, -112
	.cfi_offset b10, -120
	.cfi_offset b11, -128
	.cfi_offset b12, -136
	.cfi_offset b13, -144
	.cfi_offset b14, -152
	.cfi_offset b15, -160
	mov	x19, x5
	mov	x20, x3
	mov	x21, x1
	mov	x23, x0
	mov	x24, x2
	sub	x25, x1, #48
	sub	x26, x3, #32
	add	x27, x0, #16
	b	LBB61_3
LBB61_1:
	lsr	x8, x10, #1
	add	x0, x23, x22
	add	x2, x24, x19
	cmp	x8, x9
	csel	x1, x8, x9, lo
	bl	"_utf16_from_utf8::ascii::write_front::<#418c2b53cf60437c>"
	add	x19, x19, x0, lsl #1
	add	x4, x0, x22
LBB61_2:
	cmp	x4, x22
	b.eq	LBB61_30
LBB61_3:
	sub	x9, x21, x4
	mov	x22, x4
	cmp	x9, #64
	b.lo	LBB61_30
	sub	x10, x20, x19
	cmp	x10, #128
	b.lo	LBB61_30
	add	x8, x23, x22
	adrp	x11, lCPI61_0@PAGE
	ldp	q4, q6, [x8]
	ldp	q5, q3, [x8, #32]
	umax	v0.16b, v4.16b, v6.16b
	umax	v1.16b, v5.16b, v3.16b
	umax	v1.16b, v0.16b, v1.16b
	ldr	q0, [x11, lCPI61_0@PAGEOFF]
	cmlt	v2.16b, v1.16b, #0
	and	v2.16b, v2.16b, v0.16b
	addp	v2.16b, v2.16b, v2.16b
	addp	v2.16b, v2.16b, v2.16b
	addp	v2.16b, v2.16b, v2.16b
	umov	w11, v2.h[0]
	cbz	w11, LBB61_1
	movi	v2.16b, #224
	cmhs	v2.16b, v1.16b, v2.16b
	and	v2.16b, v2.16b, v0.16b
	addp	v2.16b, v2.16b, v2.16b
	addp	v2.16b, v2.16b, v2.16b
	addp	v2.16b, v2.16b, v2.16b
	umov	w9, v2.h[0]
	cbz	w9, LBB61_13
	umov	w8, v4.b[0]
	and	w8, w8, #0xf0
	cmp	w8, #224
	b.ne	LBB61_15
	sub	x8, x25, x22
	sub	x9, x26, x19
	mov	x4, x22
LBB61_9:
	adrp	x11, lCPI61_1@PAGE
	add	x10, x27, x4
	ldr	q2, [x11, lCPI61_1@PAGEOFF]
	ldp	q4, q3, [x10]
	ldur	q6, [x10, #-16]
	adrp	x10, lCPI61_2@PAGE
	mov	v7.16b, v2.16b
	ldr	q2, [x10, lCPI61_2@PAGEOFF]
	adrp	x10, lCPI61_3@PAGE
	ldr	q5, [x10, lCPI61_3@PAGEOFF]
	adrp	x10, lCPI61_4@PAGE
	mov	v18.16b, v2.16b
	ldr	q16, [x10, lCPI61_4@PAGEOFF]
	adrp	x10, lCPI61_5@PAGE
	bsl	v7.16b, v3.16b, v4.16b
	bsl	v18.16b, v4.16b, v3.16b
	bif	v3.16b, v4.16b, v2.16b
	mov	v17.16b, v6.16b
	mov	v2.16b, v6.16b
	tbl	v5.16b, { v2.16b, v3.16b }, v5.16b
	tbl	v2.16b, { v17.16b, v18.16b }, v16.16b
	movi	v16.16b, #240
	movi	v17.16b, #192
	ldr	q3, [x10, lCPI61_5@PAGEOFF]
	tbl	v3.16b, { v6.16b, v7.16b }, v3.16b
	movi	v6.16b, #32
	movi	v7.16b, #128
	and	v16.16b, v5.16b, v16.16b
	and	v18.16b, v2.16b, v17.16b
	add	v6.16b, v16.16b, v6.16b
	and	v17.16b, v3.16b, v17.16b
	eor	v16.16b, v18.16b, v7.16b
	eor	v7.16b, v17.16b, v7.16b
	umax	v6.16b, v6.16b, v16.16b
	orr	v6.16b, v6.16b, v7.16b
	cmeq	v6.16b, v6.16b, #0
	bic	v6.16b, v0.16b, v6.16b
	addp	v6.16b, v6.16b, v6.16b
	addp	v6.16b, v6.16b, v6.16b
	addp	v6.16b, v6.16b, v6.16b
	umov	w10, v6.h[0]
	cbnz	w10, LBB61_16
	ushr	v4.16b, v2.16b, #2
	movi	v6.16b, #7
	movi	v7.16b, #216
	sli	v4.16b, v5.16b, #4
	movi	v5.16b, #248
	and	v5.16b, v4.16b, v5.16b
	cmhi	v6.16b, v4.16b, v6.16b
	cmeq	v5.16b, v5.16b, v7.16b
	and	v5.16b, v5.16b, v6.16b
	orn	v5.16b, v5.16b, v6.16b
	and	v5.16b, v5.16b, v0.16b
	addp	v5.16b, v5.16b, v5.16b
	addp	v5.16b, v5.16b, v5.16b
	addp	v5.16b, v5.16b, v5.16b
	umov	w10, v5.h[0]
	cbnz	w10, LBB61_16
	sli	v3.16b, v2.16b, #6
	add	x10, x24, x19
	subs	x8, x8, #48
	add	x19, x19, #32
	add	x4, x4, #48
	zip2	v2.16b, v3.16b, v4.16b
	st2	{ v3.8b, v4.8b }, [x10], #16
	str	q2, [x10]
	b.lo	LBB61_16
	cmp	x9, #31
	sub	x9, x9, #32
	b.hi	LBB61_9
	b	LBB61_16
LBB61_13:
	movi	v2.16b, #191
	movi	v7.16b, #254
	ldur	q16, [x8, #15]
	movi	v17.2d, #0000000000000000
	ldur	q18, [x8, #31]
	movi	v1.16b, #192
	cmhi	v16.16b, v16.16b, v2.16b
	cmgt	v19.16b, v6.16b, v2.16b
	and	v6.16b, v6.16b, v7.16b
	cmhi	v18.16b, v18.16b, v2.16b
	cmgt	v20.16b, v5.16b, v2.16b
	and	v21.16b, v5.16b, v7.16b
	ext	v5.16b, v17.16b, v4.16b, #15
	eor	v16.16b, v19.16b, v16.16b
	ldur	q19, [x8, #47]
	cmeq	v6.16b, v6.16b, v1.16b
	eor	v17.16b, v20.16b, v18.16b
	cmeq	v18.16b, v21.16b, v1.16b
	cmgt	v20.16b, v3.16b, v2.16b
	cmhi	v19.16b, v19.16b, v2.16b
	and	v3.16b, v3.16b, v7.16b
	and	v7.16b, v4.16b, v7.16b
	bic	v6.16b, v16.16b, v6.16b
	cmgt	v16.16b, v1.16b, v4.16b
	bic	v17.16b, v17.16b, v18.16b
	cmhi	v18.16b, v1.16b, v5.16b
	eor	v19.16b, v20.16b, v19.16b
	cmeq	v3.16b, v3.16b, v1.16b
	cmeq	v7.16b, v7.16b, v1.16b
	eor	v16.16b, v16.16b, v18.16b
	and	v6.16b, v6.16b, v17.16b
	bic	v3.16b, v19.16b, v3.16b
	bic	v7.16b, v16.16b, v7.16b
	and	v3.16b, v6.16b, v3.16b
	and	v3.16b, v7.16b, v3.16b
	bic	v3.16b, v0.16b, v3.16b
	addp	v3.16b, v3.16b, v3.16b
	addp	v3.16b, v3.16b, v3.16b
	addp	v3.16b, v3.16b, v3.16b
	umov	w9, v3.h[0]
	cbnz	w9, LBB61_30
	cmhs	v3.16b, v2.16b, v4.16b
	uqsub	v5.16b, v5.16b, v1.16b
	adrp	x9, lstatic.10@PAGE
	add	x9, x9, lstatic.10@PAGEOFF
	and	v3.16b, v3.16b, v0.16b
	shl	v7.16b, v5.16b, #6
	ushr	v5.16b, v5.16b, #2
	addp	v6.16b, v3.16b, v3.16b
	movi	v3.16b, #127
	addp	v6.16b, v6.16b, v6.16b
	and	v4.16b, v4.16b, v3.16b
	addp	v6.16b, v6.16b, v6.16b
	add	v4.16b, v7.16b, v4.16b
	umov	w11, v6.h[0]
	zip1	v6.16b, v4.16b, v5.16b
	zip2	v4.16b, v4.16b, v5.16b
	and	x10, x11, #0xff
	ubfx	x11, x11, #8, #8
	ldr	q7, [x9, x10, lsl #4]
	tbl	v6.16b, { v6.16b }, v7.16b
	fmov	d7, x10
	add	x10, x24, x19
	cnt	v7.8b, v7.8b
	str	q6, [x10]
	ldr	q5, [x9, x11, lsl #4]
	fmov	w12, s7
	tbl	v4.16b, { v4.16b }, v5.16b
	ubfiz	x13, x12, #1, #32
	str	q4, [x10, x13]
	ldr	q4, [x8, #16]
	ldur	q6, [x8, #15]
	cmhs	v5.16b, v2.16b, v4.16b
	uqsub	v6.16b, v6.16b, v1.16b
	and	v4.16b, v4.16b, v3.16b
	and	v5.16b, v5.16b, v0.16b
	shl	v7.16b, v6.16b, #6
	ushr	v6.16b, v6.16b, #2
	addp	v5.16b, v5.16b, v5.16b
	add	v4.16b, v4.16b, v7.16b
	fmov	d7, x11
	addp	v5.16b, v5.16b, v5.16b
	addp	v5.16b, v5.16b, v5.16b
	umov	w11, v5.h[0]
	cnt	v5.8b, v7.8b
	zip1	v7.16b, v4.16b, v6.16b
	zip2	v4.16b, v4.16b, v6.16b
	and	x13, x11, #0xff
	fmov	w14, s5
	ubfx	x11, x11, #8, #8
	ldr	q5, [x9, x13, lsl #4]
	tbl	v5.16b, { v7.16b }, v5.16b
	fmov	d7, x13
	add	x12, x12, x14
	add	x13, x10, x12, lsl #1
	cnt	v7.8b, v7.8b
	str	q5, [x13]
	ldr	q5, [x9, x11, lsl #4]
	fmov	w14, s7
	tbl	v4.16b, { v4.16b }, v5.16b
	ubfiz	x15, x14, #1, #32
	str	q4, [x13, x15]
	ldr	q4, [x8, #32]
	ldur	q6, [x8, #31]
	cmhs	v5.16b, v2.16b, v4.16b
	uqsub	v6.16b, v6.16b, v1.16b
	and	v4.16b, v4.16b, v3.16b
	and	v5.16b, v5.16b, v0.16b
	shl	v7.16b, v6.16b, #6
	ushr	v6.16b, v6.16b, #2
	addp	v5.16b, v5.16b, v5.16b
	add	v4.16b, v4.16b, v7.16b
	fmov	d7, x11
	addp	v5.16b, v5.16b, v5.16b
	cnt	v7.8b, v7.8b
	addp	v5.16b, v5.16b, v5.16b
	fmov	w13, s7
	umov	w11, v5.h[0]
	zip1	v5.16b, v4.16b, v6.16b
	zip2	v4.16b, v4.16b, v6.16b
	add	x13, x13, x14
	add	x12, x13, x12
	and	x15, x11, #0xff
	add	x13, x10, x12, lsl #1
	ubfx	x11, x11, #8, #8
	ldr	q7, [x9, x15, lsl #4]
	tbl	v5.16b, { v5.16b }, v7.16b
	fmov	d7, x15
	cnt	v7.8b, v7.8b
	str	q5, [x13]
	ldr	q5, [x9, x11, lsl #4]
	fmov	w14, s7
	tbl	v4.16b, { v4.16b }, v5.16b
	ubfiz	x15, x14, #1, #32
	str	q4, [x13, x15]
	ldr	q4, [x8, #48]
	cmhs	v2.16b, v2.16b, v4.16b
	and	v0.16b, v2.16b, v0.16b
	ldur	q2, [x8, #47]
	uqsub	v1.16b, v2.16b, v1.16b
	and	v2.16b, v4.16b, v3.16b
	fmov	d4, x11
	addp	v0.16b, v0.16b, v0.16b
	cnt	v4.8b, v4.8b
	addp	v0.16b, v0.16b, v0.16b
	shl	v3.16b, v1.16b, #6
	ushr	v1.16b, v1.16b, #2
	addp	v0.16b, v0.16b, v0.16b
	add	v2.16b, v2.16b, v3.16b
	fmov	w13, s4
	umov	w11, v0.h[0]
	zip1	v0.16b, v2.16b, v1.16b
	add	x13, x13, x14
	add	x12, x13, x12
	zip2	v1.16b, v2.16b, v1.16b
	add	x10, x10, x12, lsl #1
	and	x15, x11, #0xff
	ubfx	x11, x11, #8, #8
	ldr	q3, [x9, x15, lsl #4]
	tbl	v0.16b, { v0.16b }, v3.16b
	fmov	d3, x15
	cnt	v3.8b, v3.8b
	str	q0, [x10]
	fmov	d0, x11
	ldr	q2, [x9, x11, lsl #4]
	fmov	w9, s3
	cnt	v0.8b, v0.8b
	tbl	v1.16b, { v1.16b }, v2.16b
	ubfiz	x11, x9, #1, #32
	fmov	w13, s0
	str	q1, [x10, x11]
	ldrb	w8, [x8, #63]
	add	x9, x13, x9
	cmp	w8, #191
	mov	w8, #63
	add	x9, x9, x12
	cinc	x8, x8, ls
	add	x19, x19, x9, lsl #1
	add	x4, x8, x22
	b	LBB61_2
LBB61_15:
	mov	x4, x22
LBB61_16:
	cmp	x22, x4
	b.lo	LBB61_2
	movi	v16.16b, #240
	movi	v3.2d, #0000000000000000
	add	x8, x23, x4
	ldr	q6, [x8]
	cmhs	v1.16b, v1.16b, v16.16b
	ext	v7.16b, v3.16b, v6.16b, #15
	and	v1.16b, v1.16b, v0.16b
	ext	v5.16b, v3.16b, v7.16b, #15
	addp	v1.16b, v1.16b, v1.16b
	addp	v1.16b, v1.16b, v1.16b
	addp	v1.16b, v1.16b, v1.16b
	umov	w9, v1.h[0]
	cbz	w9, LBB61_21
	movi	v22.16b, #144
	movi	v17.16b, #160
	ldur	q4, [x8, #14]
	movi	v2.16b, #223
	movi	v1.16b, #191
	ldur	q23, [x8, #15]
	movi	v21.16b, #244
	movi	v20.16b, #239
	ldur	q24, [x8, #13]
	movi	v19.16b, #237
	ext	v29.16b, v3.16b, v5.16b, #15
	ldur	q31, [x8, #30]
	cmhi	v18.16b, v22.16b, v6.16b
	cmhi	v27.16b, v17.16b, v6.16b
	ldur	q9, [x8, #29]
	uqsub	v26.16b, v4.16b, v2.16b
	movi	v4.16b, #224
	uqsub	v25.16b, v23.16b, v1.16b
	uqsub	v30.16b, v24.16b, v20.16b
	ldr	q24, [x8, #16]
	movi	v3.16b, #192
	mov	v28.16b, v18.16b
	mov	v8.16b, v27.16b
	uqsub	v27.16b, v29.16b, v20.16b
	cmhi	v29.16b, v17.16b, v24.16b
	cmhi	v10.16b, v22.16b, v24.16b
	uqsub	v11.16b, v7.16b, v1.16b
	umax	v25.16b, v25.16b, v26.16b
	ldur	q26, [x8, #31]
	uqsub	v12.16b, v5.16b, v2.16b
	bsl	v28.16b, v16.16b, v21.16b
	bsl	v8.16b, v4.16b, v19.16b
	cmgt	v13.16b, v3.16b, v24.16b
	uqsub	v14.16b, v26.16b, v1.16b
	mov	v1.16b, v29.16b
	bsl	v10.16b, v16.16b, v21.16b
	orr	v30.16b, v25.16b, v30.16b
	ldr	q25, [x8, #32]
	movi	v18.16b, #254
	uqsub	v9.16b, v9.16b, v20.16b
	cmeq	v28.16b, v7.16b, v28.16b
	cmeq	v8.16b, v7.16b, v8.16b
	bsl	v1.16b, v4.16b, v19.16b
	cmeq	v15.16b, v30.16b, #0
	umax	v30.16b, v11.16b, v12.16b
	uqsub	v11.16b, v31.16b, v2.16b
	cmeq	v10.16b, v23.16b, v10.16b
	movi	v31.16b, #245
	mvn	v28.16b, v28.16b
	eor	v12.16b, v13.16b, v15.16b
	movi	v15.16b, #191
	cmhi	v13.16b, v17.16b, v25.16b
	cmeq	v1.16b, v23.16b, v1.16b
	umax	v23.16b, v14.16b, v11.16b
	ldur	q14, [x8, #46]
	bic	v29.16b, v28.16b, v8.16b
	ldr	q28, [x8, #48]
	cmhi	v8.16b, v22.16b, v25.16b
	mvn	v10.16b, v10.16b
	and	v11.16b, v24.16b, v18.16b
	bsl	v13.16b, v4.16b, v19.16b
	cmhi	v22.16b, v22.16b, v28.16b
	orr	v23.16b, v23.16b, v9.16b
	uqsub	v14.16b, v14.16b, v2.16b
	bsl	v8.16b, v16.16b, v21.16b
	cmhi	v17.16b, v17.16b, v28.16b
	cmhi	v24.16b, v31.16b, v24.16b
	bic	v1.16b, v10.16b, v1.16b
	cmeq	v10.16b, v11.16b, v3.16b
	ldur	q11, [x8, #45]
	bif	v16.16b, v21.16b, v22.16b
	ldur	q21, [x8, #47]
	cmhi	v22.16b, v31.16b, v6.16b
	uqsub	v20.16b, v11.16b, v20.16b
	cmeq	v23.16b, v23.16b, #0
	and	v11.16b, v25.16b, v18.16b
	uqsub	v9.16b, v21.16b, v15.16b
	cmeq	v8.16b, v26.16b, v8.16b
	cmeq	v26.16b, v26.16b, v13.16b
	cmgt	v13.16b, v3.16b, v25.16b
	orr	v27.16b, v30.16b, v27.16b
	bsl	v17.16b, v4.16b, v19.16b
	and	v22.16b, v29.16b, v22.16b
	bic	v29.16b, v12.16b, v10.16b
	and	v1.16b, v1.16b, v24.16b
	mvn	v8.16b, v8.16b
	cmhi	v25.16b, v31.16b, v25.16b
	cmeq	v16.16b, v21.16b, v16.16b
	umax	v30.16b, v9.16b, v14.16b
	eor	v23.16b, v13.16b, v23.16b
	cmgt	v19.16b, v3.16b, v6.16b
	cmeq	v27.16b, v27.16b, #0
	and	v1.16b, v29.16b, v1.16b
	and	v29.16b, v6.16b, v18.16b
	bic	v24.16b, v8.16b, v26.16b
	cmeq	v26.16b, v11.16b, v3.16b
	cmeq	v17.16b, v21.16b, v17.16b
	orr	v20.16b, v30.16b, v20.16b
	mvn	v16.16b, v16.16b
	and	v18.16b, v28.16b, v18.16b
	eor	v19.16b, v19.16b, v27.16b
	cmeq	v21.16b, v29.16b, v3.16b
	and	v1.16b, v22.16b, v1.16b
	bic	v23.16b, v23.16b, v26.16b
	and	v24.16b, v24.16b, v25.16b
	cmgt	v25.16b, v3.16b, v28.16b
	cmeq	v20.16b, v20.16b, #0
	bic	v16.16b, v16.16b, v17.16b
	cmeq	v17.16b, v18.16b, v3.16b
	bic	v18.16b, v19.16b, v21.16b
	and	v22.16b, v23.16b, v24.16b
	cmhi	v23.16b, v31.16b, v28.16b
	eor	v20.16b, v25.16b, v20.16b
	and	v1.16b, v1.16b, v22.16b
	and	v16.16b, v16.16b, v23.16b
	bic	v17.16b, v20.16b, v17.16b
	and	v1.16b, v1.16b, v18.16b
	and	v16.16b, v17.16b, v16.16b
	and	v1.16b, v1.16b, v16.16b
	shl	v1.16b, v1.16b, #7
	cmge	v1.16b, v1.16b, #0
	and	v1.16b, v1.16b, v0.16b
	addp	v1.16b, v1.16b, v1.16b
	addp	v1.16b, v1.16b, v1.16b
	addp	v1.16b, v1.16b, v1.16b
	umov	w9, v1.h[0]
	cbnz	w9, LBB61_2
	cmge	v1.16b, v6.16b, #0
	cmhi	v16.16b, v7.16b, v2.16b
	adrp	x9, lstatic.10@PAGE
	add	x9, x9, lstatic.10@PAGEOFF
	cmhi	v17.16b, v6.16b, v15.16b
	movi	v18.16b, #64
	shl	v23.16b, v7.16b, #2
	ushr	v24.16b, v6.16b, #4
	movi	v20.16b, #232
	bsl	v1.16b, v3.16b, v7.16b
	movi	v21.16b, #231
	umax	v22.16b, v5.16b, v4.16b
	orr	v17.16b, v17.16b, v16.16b
	movi	v16.16b, #220
	movi	v19.16b, #127
	cmhi	v23.16b, v18.16b, v23.16b
	sli	v24.16b, v7.16b, #2
	umax	v25.16b, v1.16b, v5.16b
	bic	v26.16b, v0.16b, v17.16b
	ushr	v27.16b, v1.16b, #2
	movi	v17.16b, #240
	bsl	v23.16b, v21.16b, v20.16b
	and	v6.16b, v6.16b, v19.16b
	shl	v1.16b, v1.16b, #6
	add	v24.16b, v24.16b, v3.16b
	cmhi	v25.16b, v3.16b, v25.16b
	addp	v7.16b, v26.16b, v26.16b
	sli	v27.16b, v22.16b, #4
	add	v1.16b, v1.16b, v6.16b
	and	v22.16b, v25.16b, v16.16b
	addp	v7.16b, v7.16b, v7.16b
	cmhi	v25.16b, v17.16b, v5.16b
	add	v5.16b, v23.16b, v5.16b
	orr	v6.16b, v27.16b, v22.16b
	addp	v7.16b, v7.16b, v7.16b
	bif	v1.16b, v24.16b, v25.16b
	bit	v5.16b, v6.16b, v25.16b
	umov	w11, v7.h[0]
	zip1	v6.16b, v1.16b, v5.16b
	and	x10, x11, #0xff
	ubfx	x12, x11, #8, #8
	ldr	q7, [x9, x10, lsl #4]
	fmov	d22, x10
	add	x10, x24, x19
	zip2	v1.16b, v1.16b, v5.16b
	tbl	v6.16b, { v6.16b }, v7.16b
	cnt	v7.8b, v22.8b
	str	q6, [x10]
	fmov	w11, s7
	ldr	q5, [x9, x12, lsl #4]
	tbl	v1.16b, { v1.16b }, v5.16b
	ubfiz	x13, x11, #1, #32
	str	q1, [x10, x13]
	ldr	q1, [x8, #16]
	ldur	q6, [x8, #15]
	ldur	q23, [x8, #14]
	cmge	v5.16b, v1.16b, #0
	cmhi	v7.16b, v6.16b, v2.16b
	cmhi	v22.16b, v1.16b, v15.16b
	shl	v24.16b, v6.16b, #2
	umax	v25.16b, v23.16b, v4.16b
	ushr	v27.16b, v1.16b, #4
	and	v1.16b, v1.16b, v19.16b
	bsl	v5.16b, v3.16b, v6.16b
	orr	v7.16b, v7.16b, v22.16b
	cmhi	v24.16b, v18.16b, v24.16b
	sli	v27.16b, v6.16b, #2
	bic	v7.16b, v0.16b, v7.16b
	umax	v22.16b, v5.16b, v23.16b
	ushr	v26.16b, v5.16b, #2
	bsl	v24.16b, v21.16b, v20.16b
	shl	v5.16b, v5.16b, #6
	addp	v7.16b, v7.16b, v7.16b
	cmhi	v22.16b, v3.16b, v22.16b
	sli	v26.16b, v25.16b, #4
	add	v1.16b, v5.16b, v1.16b
	addp	v7.16b, v7.16b, v7.16b
	and	v6.16b, v22.16b, v16.16b
	add	v22.16b, v24.16b, v23.16b
	add	v24.16b, v27.16b, v3.16b
	cmhi	v23.16b, v17.16b, v23.16b
	addp	v5.16b, v7.16b, v7.16b
	fmov	d7, x12
	orr	v6.16b, v26.16b, v6.16b
	bif	v1.16b, v24.16b, v23.16b
	umov	w12, v5.h[0]
	cnt	v5.8b, v7.8b
	bif	v6.16b, v22.16b, v23.16b
	and	x13, x12, #0xff
	fmov	w14, s5
	zip1	v7.16b, v1.16b, v6.16b
	ldr	q5, [x9, x13, lsl #4]
	zip2	v1.16b, v1.16b, v6.16b
	add	x11, x11, x14
	add	x14, x10, x11, lsl #1
	tbl	v5.16b, { v7.16b }, v5.16b
	fmov	d7, x13
	ubfx	x13, x12, #8, #8
	cnt	v7.8b, v7.8b
	str	q5, [x14]
	ldr	q5, [x9, x13, lsl #4]
	fmov	w12, s7
	tbl	v1.16b, { v1.16b }, v5.16b
	ubfiz	x15, x12, #1, #32
	str	q1, [x14, x15]
	ldr	q1, [x8, #32]
	ldur	q6, [x8, #31]
	ldur	q23, [x8, #30]
	cmge	v5.16b, v1.16b, #0
	cmhi	v7.16b, v6.16b, v2.16b
	cmhi	v22.16b, v1.16b, v15.16b
	shl	v24.16b, v6.16b, #2
	umax	v25.16b, v23.16b, v4.16b
	ushr	v27.16b, v1.16b, #4
	and	v1.16b, v1.16b, v19.16b
	bsl	v5.16b, v3.16b, v6.16b
	orr	v7.16b, v7.16b, v22.16b
	cmhi	v24.16b, v18.16b, v24.16b
	sli	v27.16b, v6.16b, #2
	bic	v7.16b, v0.16b, v7.16b
	umax	v22.16b, v5.16b, v23.16b
	ushr	v26.16b, v5.16b, #2
	bsl	v24.16b, v21.16b, v20.16b
	shl	v5.16b, v5.16b, #6
	addp	v7.16b, v7.16b, v7.16b
	cmhi	v22.16b, v3.16b, v22.16b
	sli	v26.16b, v25.16b, #4
	add	v1.16b, v5.16b, v1.16b
	addp	v7.16b, v7.16b, v7.16b
	and	v6.16b, v22.16b, v16.16b
	add	v22.16b, v24.16b, v23.16b
	add	v24.16b, v27.16b, v3.16b
	cmhi	v23.16b, v17.16b, v23.16b
	addp	v5.16b, v7.16b, v7.16b
	fmov	d7, x13
	orr	v6.16b, v26.16b, v6.16b
	bif	v1.16b, v24.16b, v23.16b
	umov	w13, v5.h[0]
	cnt	v7.8b, v7.8b
	bif	v6.16b, v22.16b, v23.16b
	and	x15, x13, #0xff
	fmov	w14, s7
	ubfx	x13, x13, #8, #8
	zip1	v5.16b, v1.16b, v6.16b
	ldr	q7, [x9, x15, lsl #4]
	zip2	v1.16b, v1.16b, v6.16b
	add	x12, x12, x14
	add	x11, x11, x12
	tbl	v5.16b, { v5.16b }, v7.16b
	fmov	d7, x15
	add	x14, x10, x11, lsl #1
	cnt	v7.8b, v7.8b
	str	q5, [x14]
	ldr	q5, [x9, x13, lsl #4]
	fmov	w12, s7
	tbl	v1.16b, { v1.16b }, v5.16b
	ubfiz	x15, x12, #1, #32
	str	q1, [x14, x15]
	ldr	q1, [x8, #48]
	ldur	q6, [x8, #47]
	ldur	q22, [x8, #46]
	cmge	v5.16b, v1.16b, #0
	cmhi	v2.16b, v6.16b, v2.16b
	cmhi	v7.16b, v1.16b, v15.16b
	shl	v23.16b, v6.16b, #2
	umax	v4.16b, v22.16b, v4.16b
	bsl	v5.16b, v3.16b, v6.16b
	orr	v2.16b, v2.16b, v7.16b
	cmhi	v18.16b, v18.16b, v23.16b
	bic	v0.16b, v0.16b, v2.16b
	umax	v7.16b, v5.16b, v22.16b
	ushr	v24.16b, v5.16b, #2
	shl	v5.16b, v5.16b, #6
	addp	v0.16b, v0.16b, v0.16b
	cmhi	v2.16b, v3.16b, v7.16b
	ushr	v7.16b, v1.16b, #4
	sli	v24.16b, v4.16b, #4
	mov	v4.16b, v18.16b
	and	v1.16b, v1.16b, v19.16b
	addp	v0.16b, v0.16b, v0.16b
	sli	v7.16b, v6.16b, #2
	and	v2.16b, v2.16b, v16.16b
	cmhi	v6.16b, v17.16b, v22.16b
	bsl	v4.16b, v21.16b, v20.16b
	add	v1.16b, v5.16b, v1.16b
	fmov	d5, x13
	addp	v0.16b, v0.16b, v0.16b
	orr	v2.16b, v24.16b, v2.16b
	add	v3.16b, v7.16b, v3.16b
	add	v4.16b, v4.16b, v22.16b
	umov	w13, v0.h[0]
	bif	v1.16b, v3.16b, v6.16b
	cnt	v3.8b, v5.8b
	bif	v2.16b, v4.16b, v6.16b
	and	x15, x13, #0xff
	fmov	w14, s3
	ldr	q3, [x9, x15, lsl #4]
	zip1	v0.16b, v1.16b, v2.16b
	zip2	v1.16b, v1.16b, v2.16b
	add	x12, x12, x14
	add	x11, x11, x12
	ubfx	x12, x13, #8, #8
	tbl	v0.16b, { v0.16b }, v3.16b
	fmov	d3, x15
	add	x10, x10, x11, lsl #1
	fmov	d2, x12
	cnt	v3.8b, v3.8b
	str	q0, [x10]
	cnt	v0.8b, v2.8b
	ldr	q2, [x9, x12, lsl #4]
	fmov	w9, s3
	tbl	v1.16b, { v1.16b }, v2.16b
	fmov	w13, s0
	ubfiz	x12, x9, #1, #32
	add	x9, x9, x13
	str	q1, [x10, x12]
	add	x9, x11, x9
	ldrb	w10, [x8, #61]
	add	x19, x19, x9, lsl #1
	cmp	w10, #239
	b.ls	LBB61_24
	sub	x19, x19, #2
	mov	w8, #61
	b	LBB61_29
LBB61_21:
	movi	v17.16b, #160
	movi	v1.16b, #191
	ldur	q19, [x8, #14]
	movi	v2.16b, #223
	ldp	q21, q27, [x8, #16]
	movi	v16.16b, #254
	ldur	q20, [x8, #15]
	movi	v18.16b, #237
	movi	v3.16b, #224
	movi	v4.16b, #192
	ldur	q24, [x8, #30]
	cmhi	v23.16b, v17.16b, v21.16b
	uqsub	v22.16b, v20.16b, v1.16b
	ldur	q26, [x8, #31]
	uqsub	v19.16b, v19.16b, v2.16b
	ldur	q28, [x8, #46]
	ldur	q29, [x8, #47]
	and	v25.16b, v21.16b, v16.16b
	ldr	q30, [x8, #48]
	uqsub	v31.16b, v7.16b, v1.16b
	bsl	v23.16b, v3.16b, v18.16b
	cmhi	v9.16b, v17.16b, v6.16b
	cmhi	v10.16b, v17.16b, v27.16b
	cmhi	v17.16b, v17.16b, v30.16b
	uqsub	v24.16b, v24.16b, v2.16b
	uqsub	v12.16b, v29.16b, v1.16b
	cmeq	v25.16b, v25.16b, v4.16b
	orr	v19.16b, v22.16b, v19.16b
	uqsub	v22.16b, v5.16b, v2.16b
	uqsub	v28.16b, v28.16b, v2.16b
	and	v8.16b, v6.16b, v16.16b
	cmgt	v21.16b, v4.16b, v21.16b
	cmeq	v20.16b, v20.16b, v23.16b
	uqsub	v23.16b, v26.16b, v1.16b
	and	v11.16b, v27.16b, v16.16b
	mvn	v25.16b, v25.16b
	cmeq	v19.16b, v19.16b, #0
	and	v16.16b, v30.16b, v16.16b
	bsl	v10.16b, v3.16b, v18.16b
	bsl	v9.16b, v3.16b, v18.16b
	bsl	v17.16b, v3.16b, v18.16b
	orr	v18.16b, v22.16b, v31.16b
	cmgt	v27.16b, v4.16b, v27.16b
	eor	v19.16b, v21.16b, v19.16b
	cmeq	v21.16b, v8.16b, v4.16b
	bic	v20.16b, v25.16b, v20.16b
	orr	v22.16b, v23.16b, v24.16b
	cmeq	v23.16b, v11.16b, v4.16b
	orr	v25.16b, v12.16b, v28.16b
	cmeq	v16.16b, v16.16b, v4.16b
	cmeq	v24.16b, v26.16b, v10.16b
	cmeq	v17.16b, v29.16b, v17.16b
	mvn	v21.16b, v21.16b
	cmeq	v26.16b, v7.16b, v9.16b
	cmgt	v28.16b, v4.16b, v30.16b
	cmeq	v22.16b, v22.16b, #0
	mvn	v23.16b, v23.16b
	cmeq	v25.16b, v25.16b, #0
	mvn	v16.16b, v16.16b
	and	v19.16b, v19.16b, v20.16b
	cmeq	v18.16b, v18.16b, #0
	bic	v21.16b, v21.16b, v26.16b
	eor	v20.16b, v27.16b, v22.16b
	cmgt	v22.16b, v4.16b, v6.16b
	bic	v23.16b, v23.16b, v24.16b
	eor	v24.16b, v28.16b, v25.16b
	bic	v16.16b, v16.16b, v17.16b
	eor	v17.16b, v22.16b, v18.16b
	and	v18.16b, v21.16b, v19.16b
	and	v19.16b, v20.16b, v23.16b
	and	v16.16b, v24.16b, v16.16b
	and	v18.16b, v18.16b, v19.16b
	and	v16.16b, v17.16b, v16.16b
	and	v16.16b, v18.16b, v16.16b
	bic	v16.16b, v0.16b, v16.16b
	addp	v16.16b, v16.16b, v16.16b
	addp	v16.16b, v16.16b, v16.16b
	addp	v16.16b, v16.16b, v16.16b
	umov	w9, v16.h[0]
	cbnz	w9, LBB61_2
	cmhi	v16.16b, v7.16b, v2.16b
	cmhi	v17.16b, v6.16b, v1.16b
	adrp	x9, lstatic.10@PAGE
	add	x9, x9, lstatic.10@PAGEOFF
	umax	v5.16b, v5.16b, v3.16b
	orr	v16.16b, v17.16b, v16.16b
	cmge	v17.16b, v6.16b, #0
	bic	v16.16b, v0.16b, v16.16b
	bsl	v17.16b, v4.16b, v7.16b
	movi	v7.16b, #127
	addp	v16.16b, v16.16b, v16.16b
	ushr	v18.16b, v17.16b, #2
	and	v6.16b, v6.16b, v7.16b
	shl	v17.16b, v17.16b, #6
	addp	v16.16b, v16.16b, v16.16b
	sli	v18.16b, v5.16b, #4
	add	v5.16b, v17.16b, v6.16b
	addp	v16.16b, v16.16b, v16.16b
	zip1	v6.16b, v5.16b, v18.16b
	zip2	v5.16b, v5.16b, v18.16b
	umov	w11, v16.h[0]
	and	x10, x11, #0xff
	ubfx	x11, x11, #8, #8
	ldr	q16, [x9, x10, lsl #4]
	tbl	v6.16b, { v6.16b }, v16.16b
	fmov	d16, x10
	add	x10, x24, x19
	cnt	v16.8b, v16.8b
	str	q6, [x10]
	ldr	q6, [x9, x11, lsl #4]
	fmov	w12, s16
	tbl	v5.16b, { v5.16b }, v6.16b
	ubfiz	x13, x12, #1, #32
	str	q5, [x10, x13]
	ldur	q5, [x8, #15]
	ldr	q6, [x8, #16]
	cmhi	v16.16b, v5.16b, v2.16b
	cmhi	v17.16b, v6.16b, v1.16b
	orr	v16.16b, v16.16b, v17.16b
	cmge	v17.16b, v6.16b, #0
	and	v6.16b, v6.16b, v7.16b
	bic	v16.16b, v0.16b, v16.16b
	bit	v5.16b, v4.16b, v17.16b
	ldur	q17, [x8, #14]
	umax	v17.16b, v17.16b, v3.16b
	addp	v16.16b, v16.16b, v16.16b
	ushr	v18.16b, v5.16b, #2
	shl	v5.16b, v5.16b, #6
	addp	v16.16b, v16.16b, v16.16b
	sli	v18.16b, v17.16b, #4
	fmov	d17, x11
	add	v5.16b, v5.16b, v6.16b
	addp	v16.16b, v16.16b, v16.16b
	cnt	v6.8b, v17.8b
	umov	w13, v16.h[0]
	zip1	v16.16b, v5.16b, v18.16b
	zip2	v5.16b, v5.16b, v18.16b
	fmov	w14, s6
	and	x11, x13, #0xff
	ubfx	x13, x13, #8, #8
	ldr	q6, [x9, x11, lsl #4]
	tbl	v6.16b, { v16.16b }, v6.16b
	fmov	d16, x11
	add	x11, x12, x14
	add	x12, x10, x11, lsl #1
	cnt	v16.8b, v16.8b
	str	q6, [x12]
	ldr	q6, [x9, x13, lsl #4]
	fmov	w14, s16
	tbl	v5.16b, { v5.16b }, v6.16b
	ubfiz	x15, x14, #1, #32
	str	q5, [x12, x15]
	ldur	q5, [x8, #31]
	ldr	q6, [x8, #32]
	cmhi	v16.16b, v5.16b, v2.16b
	cmhi	v17.16b, v6.16b, v1.16b
	orr	v16.16b, v16.16b, v17.16b
	cmge	v17.16b, v6.16b, #0
	and	v6.16b, v6.16b, v7.16b
	bic	v16.16b, v0.16b, v16.16b
	bit	v5.16b, v4.16b, v17.16b
	ldur	q17, [x8, #30]
	umax	v17.16b, v17.16b, v3.16b
	addp	v16.16b, v16.16b, v16.16b
	ushr	v18.16b, v5.16b, #2
	shl	v5.16b, v5.16b, #6
	addp	v16.16b, v16.16b, v16.16b
	sli	v18.16b, v17.16b, #4
	fmov	d17, x13
	add	v5.16b, v5.16b, v6.16b
	addp	v16.16b, v16.16b, v16.16b
	cnt	v17.8b, v17.8b
	zip1	v6.16b, v5.16b, v18.16b
	zip2	v5.16b, v5.16b, v18.16b
	umov	w12, v16.h[0]
	fmov	w13, s17
	and	x15, x12, #0xff
	ubfx	x12, x12, #8, #8
	ldr	q16, [x9, x15, lsl #4]
	add	x13, x14, x13
	add	x11, x11, x13
	tbl	v6.16b, { v6.16b }, v16.16b
	fmov	d16, x15
	add	x13, x10, x11, lsl #1
	cnt	v16.8b, v16.8b
	str	q6, [x13]
	ldr	q6, [x9, x12, lsl #4]
	fmov	w14, s16
	tbl	v5.16b, { v5.16b }, v6.16b
	ubfiz	x15, x14, #1, #32
	str	q5, [x13, x15]
	ldur	q5, [x8, #47]
	ldr	q6, [x8, #48]
	cmhi	v2.16b, v5.16b, v2.16b
	cmhi	v1.16b, v6.16b, v1.16b
	orr	v1.16b, v2.16b, v1.16b
	ldur	q2, [x8, #46]
	umax	v2.16b, v2.16b, v3.16b
	bic	v0.16b, v0.16b, v1.16b
	cmge	v1.16b, v6.16b, #0
	addp	v0.16b, v0.16b, v0.16b
	bsl	v1.16b, v4.16b, v5.16b
	and	v4.16b, v6.16b, v7.16b
	fmov	d5, x12
	addp	v0.16b, v0.16b, v0.16b
	ushr	v3.16b, v1.16b, #2
	shl	v1.16b, v1.16b, #6
	addp	v0.16b, v0.16b, v0.16b
	sli	v3.16b, v2.16b, #4
	cnt	v2.8b, v5.8b
	add	v1.16b, v1.16b, v4.16b
	umov	w12, v0.h[0]
	zip1	v0.16b, v1.16b, v3.16b
	fmov	w13, s2
	zip2	v1.16b, v1.16b, v3.16b
	and	x15, x12, #0xff
	ubfx	x12, x12, #8, #8
	fmov	d4, x15
	ldr	q2, [x9, x15, lsl #4]
	add	x13, x14, x13
	add	x11, x11, x13
	tbl	v0.16b, { v0.16b }, v2.16b
	add	x13, x10, x11, lsl #1
	cnt	v2.8b, v4.8b
	str	q0, [x13]
	fmov	w10, s2
	ldr	q0, [x9, x12, lsl #4]
	tbl	v0.16b, { v1.16b }, v0.16b
	mov	w9, w10
	ubfiz	x9, x9, #1, #32
	str	q0, [x13, x9]
	ldrb	w9, [x8, #62]
	cmp	w9, #223
	b.ls	LBB61_26
	mov	w8, #62
	b	LBB61_27
LBB61_24:
	ldrb	w9, [x8, #62]
	cmp	w9, #223
	b.ls	LBB61_28
	mov	w8, #62
	b	LBB61_29
LBB61_26:
	ldrb	w8, [x8, #63]
	cmp	w8, #191
	mov	w8, #63
	cinc	x8, x8, ls
LBB61_27:
	fmov	d0, x12
	cnt	v0.8b, v0.8b
	fmov	w9, s0
	add	x9, x10, x9
	add	x9, x11, x9
	add	x19, x19, x9, lsl #1
	b	LBB61_29
LBB61_28:
	ldrb	w8, [x8, #63]
	cmp	w8, #191
	mov	w8, #63
	cinc	x8, x8, ls
LBB61_29:
	add	x4, x8, x4
	b	LBB61_2
LBB61_30:
	mov	x0, x22
	mov	x1, x19
	.cfi_def_cfa wsp, 160
	ldp	x20, x19, [sp, #144]
	ldr	x27, [sp, #80]
	ldp	x22, x21, [sp, #128]
	ldp	x24, x23, [sp, #112]
	ldp	x26, x25, [sp, #96]
	ldp	x29, x30, [sp, #64]
	ldp	d9, d8, [sp, #48]
	ldp	d11, d10, [sp, #32]
	ldp	d13, d12, [sp, #16]
	ldp	d15, d14, [sp], #160
	.cfi_def_cfa_offset 0
	.cfi_restore w19
	.cfi_restore w20
	.cfi_restore w21
	.cfi_restore w22
	.cfi_restore w23
	.cfi_restore w24
	.cfi_restore w25
	.cfi_restore w26
	.cfi_restore w27
	.cfi_restore w30
	.cfi_restore w29
	.cfi_restore b8
	.cfi_restore b9
	.cfi_restore b10
	.cfi_restore b11
	.cfi_restore b12
	.cfi_restore b13
	.cfi_restore b14
	.cfi_restore b15
	ret
Lfunc_end61:
	.cfi_endproc

	.section	__TEXT,__literal16,16byte_literals
	.p2align	4, 0x0
lCPI62_0:
	.byte	255
	.byte	0
	.byte	255
	.byte	255
	.byte	0
	.byte	255
	.byte	255
	.byte	0
	.byte	255
	.byte	255
	.byte	0
	.byte	255
	.byte	255
	.byte	0
	.byte	255
	.byte	255
lCPI62_1:
	.byte	255
	.byte	255
	.byte	0
	.byte	255
	.byte	255
	.byte	0
	.byte	255
	.byte	255
	.byte	0
	.byte	255
	.byte	255
	.byte	0
	.byte	255
	.byte	255
	.byte	0
	.byte	255
lCPI62_2:
	.byte	0
	.byte	3
	.byte	6
	.byte	9
	.byte	12
	.byte	15
	.byte	18
	.byte	21
	.byte	24
	.byte	27
	.byte	30
	.byte	17
	.byte	20
	.byte	23
	.byte	26
	.byte	29
lCPI62_3:
	.byte	1
	.byte	4
	.byte	7
	.byte	10
	.byte	13
	.byte	16
	.byte	19
	.byte	22
	.byte	25
	.byte	28
	.byte	31
	.byte	18
	.byte	21
	.byte	24
	.byte	27
	.byte	30
lCPI62_4:
	.byte	2
	.byte	5
	.byte	8
	.byte	11
	.byte	14
	.byte	17
	.byte	20
	.byte	23
	.byte	26
	.byte	29
	.byte	16
	.byte	19
	.byte	22
	.byte	25
	.byte	28
	.byte	31
lCPI62_5:
	.byte	1
	.byte	2
	.byte	4
	.byte	8
	.byte	16
	.byte	32
	.byte	64
	.byte	128
	.byte	1
	.byte	2
	.byte	4
	.byte	8
	.byte	16
	.byte	32
	.byte	64
	.byte	128
	.section	__TEXT,__text,regular,pure_instructions
	.p2align	2
"_utf16_from_utf8::rest::write_rest::<#418c2b53cf60437c>":
	.cfi_startproc
	stp	x29, x30, [sp, #-48]!
	.cfi_def_cfa_offset 48
	str	x21, [sp, #16]
	stp	x20, x19, [sp, #32]
	mov	x29, sp
	.cfi_def_cfa w29, 48
	.cfi_offset w19, -8
	.cfi_offset w20, -16
	.cfi_offset w21, -32
	.cfi_offset w30, -40
	.cfi_offset w29, -48
	mov	x19, x5
	mov	x20, x4
	subs	x9, x1, x4
	adrp	x8, lCPI62_5@PAGE
	b.eq	LBB62_9
	ldrb	w10, [x0, x20]
	and	w10, w10, #0xf0
	cmp	w10, #224
	b.ne	LBB62_9
	subs	x9, x9, #48
	b.lo	LBB62_9
	sub	x10, x3, x19
	subs	x10, x10, #32
	b.lo	LBB62_9
	add	x11, x0, #16
LBB62_5:
	adrp	x13, lCPI62_0@PAGE
	add	x12, x11, x20
	movi	v7.16b, #192
	ldr	q0, [x13, lCPI62_0@PAGEOFF]
	ldp	q2, q1, [x12]
	ldur	q4, [x12, #-16]
	adrp	x12, lCPI62_1@PAGE
	mov	v5.16b, v0.16b
	ldr	q0, [x12, lCPI62_1@PAGEOFF]
	adrp	x12, lCPI62_2@PAGE
	ldr	q3, [x12, lCPI62_2@PAGEOFF]
	adrp	x12, lCPI62_3@PAGE
	mov	v17.16b, v0.16b
	ldr	q6, [x12, lCPI62_3@PAGEOFF]
	adrp	x12, lCPI62_4@PAGE
	bsl	v5.16b, v1.16b, v2.16b
	bsl	v17.16b, v2.16b, v1.16b
	bif	v1.16b, v2.16b, v0.16b
	mov	v16.16b, v4.16b
	mov	v0.16b, v4.16b
	tbl	v3.16b, { v0.16b, v1.16b }, v3.16b
	tbl	v0.16b, { v16.16b, v17.16b }, v6.16b
	movi	v6.16b, #240
	ldr	q1, [x12, lCPI62_4@PAGEOFF]
	tbl	v1.16b, { v4.16b, v5.16b }, v1.16b
	movi	v4.16b, #32
	movi	v5.16b, #128
	and	v6.16b, v3.16b, v6.16b
	and	v16.16b, v0.16b, v7.16b
	add	v4.16b, v6.16b, v4.16b
	eor	v6.16b, v16.16b, v5.16b
	and	v7.16b, v1.16b, v7.16b
	eor	v5.16b, v7.16b, v5.16b
	umax	v4.16b, v4.16b, v6.16b
	orr	v4.16b, v4.16b, v5.16b
	cmeq	v5.16b, v4.16b, #0
	ldr	q4, [x8, lCPI62_5@PAGEOFF]
	bic	v5.16b, v4.16b, v5.16b
	addp	v5.16b, v5.16b, v5.16b
	addp	v5.16b, v5.16b, v5.16b
	addp	v5.16b, v5.16b, v5.16b
	umov	w12, v5.h[0]
	cbnz	w12, LBB62_9
	ushr	v2.16b, v0.16b, #2
	movi	v5.16b, #7
	movi	v6.16b, #216
	sli	v2.16b, v3.16b, #4
	movi	v3.16b, #248
	and	v3.16b, v2.16b, v3.16b
	cmhi	v5.16b, v2.16b, v5.16b
	cmeq	v3.16b, v3.16b, v6.16b
	and	v3.16b, v3.16b, v5.16b
	orn	v3.16b, v3.16b, v5.16b
	and	v3.16b, v3.16b, v4.16b
	addp	v3.16b, v3.16b, v3.16b
	addp	v3.16b, v3.16b, v3.16b
	addp	v3.16b, v3.16b, v3.16b
	umov	w12, v3.h[0]
	cbnz	w12, LBB62_9
	sli	v1.16b, v0.16b, #6
	add	x12, x2, x19
	subs	x9, x9, #48
	add	x19, x19, #32
	add	x20, x20, #48
	zip2	v0.16b, v1.16b, v2.16b
	st2	{ v1.8b, v2.8b }, [x12], #16
	str	q0, [x12]
	b.lo	LBB62_9
	cmp	x10, #31
	sub	x10, x10, #32
	b.hi	LBB62_5
LBB62_9:
	sub	x21, x1, #1
	ldrb	w9, [x0, x21]
	cmp	w9, #191
	b.hi	LBB62_12
	sub	x21, x1, #2
	ldrb	w9, [x0, x21]
	cmp	w9, #223
	b.hi	LBB62_12
	sub	x9, x1, #3
	ldrb	w10, [x0, x9]
	cmp	w10, #239
	csel	x21, x9, x1, hi
LBB62_12:
	cmp	x21, #17
	b.lo	LBB62_24
	subs	x9, x21, x20
	b.ls	LBB62_24
	sub	x10, x3, x19
	subs	x10, x10, #16
	csel	x10, xzr, x10, lo
	cmp	x9, x10, lsr #1
	b.hi	LBB62_24
	subs	x9, x20, #18
	add	x11, x0, x21
	csel	x10, xzr, x9, lo
	ldur	q0, [x11, #-16]
	sub	x9, x21, x10
	cmp	x9, #17
	b.lo	LBB62_18
	add	x10, x0, x10
LBB62_17:
	ldr	q1, [x10], #16
	sub	x9, x9, #16
	cmp	x9, #16
	umax	v0.16b, v0.16b, v1.16b
	b.hi	LBB62_17
LBB62_18:
	movi	v1.16b, #224
	cmhs	v2.16b, v0.16b, v1.16b
	ldr	q1, [x8, lCPI62_5@PAGEOFF]
	and	v2.16b, v2.16b, v1.16b
	addp	v2.16b, v2.16b, v2.16b
	addp	v2.16b, v2.16b, v2.16b
	addp	v2.16b, v2.16b, v2.16b
	umov	w8, v2.h[0]
	cbz	w8, LBB62_21
	movi	v2.16b, #240
	add	x3, x2, x19
	mov	x1, x21
	mov	x2, x20
	cmhs	v0.16b, v0.16b, v2.16b
	and	v0.16b, v0.16b, v1.16b
	addp	v0.16b, v0.16b, v0.16b
	addp	v0.16b, v0.16b, v0.16b
	addp	v0.16b, v0.16b, v0.16b
	umov	w8, v0.h[0]
	cbz	w8, LBB62_22
	bl	"_utf16_from_utf8::rest::write_rest_of::<#c16de31c8ac190b9>"
	b	LBB62_23
LBB62_21:
	add	x3, x2, x19
	mov	x1, x21
	mov	x2, x20
	bl	"_utf16_from_utf8::rest::write_rest_of::<#0fe1328e7259d677>"
	b	LBB62_23
LBB62_22:
	bl	"_utf16_from_utf8::rest::write_rest_of::<#f189504864b36784>"
LBB62_23:
	and	w8, w0, #0xff
	add	x9, x1, x19
	cmp	w8, #1
	csel	x20, x21, x20, eq
	csel	x19, x9, x19, eq
LBB62_24:
	mov	x0, x20
	mov	x1, x19
	.cfi_def_cfa wsp, 48
	ldp	x20, x19, [sp, #32]
	ldr	x21, [sp, #16]
	ldp	x29, x30, [sp], #48
	.cfi_def_cfa_offset 0
	.cfi_restore w19
	.cfi_restore w20
	.cfi_restore w21
	.cfi_restore w30
	.cfi_restore w29
	ret
Lfunc_end62:
	.cfi_endproc

	.section	__TEXT,__literal16,16byte_literals
	.p2align	4, 0x0
lCPI63_0:
	.byte	1
	.byte	2
	.byte	4
	.byte	8
	.byte	16
	.byte	32
	.byte	64
	.byte	128
	.byte	1
	.byte	2
	.byte	4
	.byte	8
	.byte	16
	.byte	32
	.byte	64
	.byte	128
	.section	__TEXT,__text,regular,pure_instructions
	.p2align	2
"_utf16_from_utf8::rest::write_rest_of::<#0fe1328e7259d677>":
	.cfi_startproc
	movi	v0.2d, #0000000000000000
	sub	x11, x1, x2
	adrp	x9, lCPI63_0@PAGE
	cmp	x11, #16
	adrp	x10, lstatic.10@PAGE
	add	x10, x10, lstatic.10@PAGEOFF
	mov	x8, xzr
	b.hs	LBB63_6
LBB63_1:
	cmp	x2, x1
	b.eq	LBB63_13
	sub	x11, x1, #16
	add	x12, x0, x11
	cmp	x11, #3
	ldr	q1, [x12]
	b.lo	LBB63_11
	ldur	q2, [x12, #-1]
	b	LBB63_12
LBB63_4:
	add	x12, x0, x2
	ldur	q2, [x12, #-1]
LBB63_5:
	movi	v3.16b, #191
	ldr	q5, [x9, lCPI63_0@PAGEOFF]
	movi	v7.16b, #127
	sub	x11, x11, #16
	add	x2, x2, #16
	cmp	x11, #15
	cmhs	v4.16b, v3.16b, v1.16b
	and	v7.16b, v1.16b, v7.16b
	and	v4.16b, v4.16b, v5.16b
	movi	v5.16b, #192
	addp	v4.16b, v4.16b, v4.16b
	uqsub	v6.16b, v2.16b, v5.16b
	cmhi	v2.16b, v2.16b, v3.16b
	cmgt	v17.16b, v5.16b, v1.16b
	addp	v4.16b, v4.16b, v4.16b
	eor	v2.16b, v17.16b, v2.16b
	shl	v16.16b, v6.16b, #6
	ushr	v6.16b, v6.16b, #2
	addp	v4.16b, v4.16b, v4.16b
	add	v7.16b, v16.16b, v7.16b
	umov	w12, v4.h[0]
	movi	v4.16b, #254
	zip1	v16.16b, v7.16b, v6.16b
	and	x13, x12, #0xff
	ubfx	x12, x12, #8, #8
	and	v1.16b, v1.16b, v4.16b
	ldr	q3, [x10, x13, lsl #4]
	fmov	d4, x13
	add	x13, x3, x8
	tbl	v3.16b, { v16.16b }, v3.16b
	fmov	d16, x12
	cmeq	v1.16b, v1.16b, v5.16b
	cnt	v4.8b, v4.8b
	zip2	v5.16b, v7.16b, v6.16b
	cnt	v16.8b, v16.8b
	orr	v1.16b, v1.16b, v2.16b
	str	q3, [x13]
	fmov	w14, s4
	ldr	q3, [x10, x12, lsl #4]
	umax	v0.16b, v0.16b, v1.16b
	fmov	w12, s16
	tbl	v2.16b, { v5.16b }, v3.16b
	ubfiz	x15, x14, #1, #32
	add	x12, x14, x12
	str	q2, [x13, x15]
	add	x8, x8, x12, lsl #1
	b.ls	LBB63_1
LBB63_6:
	ldr	q1, [x0, x2]
	cmp	x2, #3
	b.hs	LBB63_4
	cbz	x2, LBB63_9
	add	x12, x0, x2
	sub	x12, x12, #1
	ld1r	{ v2.16b }, [x12]
	b	LBB63_10
LBB63_9:
	movi	v2.2d, #0000000000000000
LBB63_10:
	ext	v2.16b, v2.16b, v1.16b, #15
	b	LBB63_5
LBB63_11:
	add	x12, x0, x1
	sub	x12, x12, #17
	ld1r	{ v2.16b }, [x12]
	ext	v2.16b, v2.16b, v1.16b, #15
LBB63_12:
	movi	v3.16b, #191
	ldr	q5, [x9, lCPI63_0@PAGEOFF]
	movi	v7.16b, #127
	sub	x11, x2, x11
	cmhs	v4.16b, v3.16b, v1.16b
	and	v4.16b, v4.16b, v5.16b
	movi	v5.16b, #192
	addp	v4.16b, v4.16b, v4.16b
	uqsub	v6.16b, v2.16b, v5.16b
	cmhi	v2.16b, v2.16b, v3.16b
	cmgt	v16.16b, v5.16b, v1.16b
	addp	v4.16b, v4.16b, v4.16b
	eor	v2.16b, v16.16b, v2.16b
	addp	v4.16b, v4.16b, v4.16b
	umov	w12, v4.h[0]
	and	v4.16b, v1.16b, v7.16b
	shl	v7.16b, v6.16b, #6
	ushr	v6.16b, v6.16b, #2
	add	v4.16b, v7.16b, v4.16b
	movi	v7.16b, #254
	lsr	x12, x12, x11
	lsl	x11, x12, x11
	zip1	v17.16b, v4.16b, v6.16b
	zip2	v4.16b, v4.16b, v6.16b
	and	v1.16b, v1.16b, v7.16b
	ubfx	x12, x11, #8, #32
	and	x13, x11, #0xff
	lsr	x11, x11, #8
	ldr	q7, [x10, x13, lsl #4]
	fmov	d3, x12
	cmeq	v1.16b, v1.16b, v5.16b
	add	x12, x3, x8
	tbl	v7.16b, { v17.16b }, v7.16b
	fmov	d17, x13
	cnt	v3.8b, v3.8b
	orr	v1.16b, v1.16b, v2.16b
	cnt	v5.8b, v17.8b
	str	q7, [x12]
	ldr	q2, [x10, x11, lsl #4]
	umax	v0.16b, v0.16b, v1.16b
	addv	b3, v3.8b
	fmov	w13, s5
	tbl	v2.16b, { v4.16b }, v2.16b
	fmov	w10, s3
	ubfiz	x11, x13, #1, #32
	add	x10, x13, x10
	str	q2, [x12, x11]
	add	x8, x8, x10, lsl #1
LBB63_13:
	cmeq	v0.16b, v0.16b, #0
	ldr	q1, [x9, lCPI63_0@PAGEOFF]
	bic	v0.16b, v1.16b, v0.16b
	addp	v0.16b, v0.16b, v0.16b
	addp	v0.16b, v0.16b, v0.16b
	addp	v0.16b, v0.16b, v0.16b
	umov	w9, v0.h[0]
	cbz	w9, LBB63_15
	mov	x1, xzr
	mov	w0, wzr
	ret
LBB63_15:
	sub	x9, x1, #1
	ldrb	w10, [x0, x9]
	cmp	w10, #191
	b.hi	LBB63_18
	sub	x9, x1, #2
	ldrb	w10, [x0, x9]
	cmp	w10, #223
	b.hi	LBB63_18
	sub	x9, x1, #3
	ldrb	w10, [x0, x9]
	cmp	w10, #239
	csel	x9, x9, x1, hi
LBB63_18:
	cmp	x9, x1
	cset	w0, hs
	csel	x1, x8, xzr, hs
	ret
Lfunc_end63:
	.cfi_endproc

	.section	__TEXT,__literal16,16byte_literals
	.p2align	4, 0x0
lCPI64_0:
	.byte	1
	.byte	2
	.byte	4
	.byte	8
	.byte	16
	.byte	32
	.byte	64
	.byte	128
	.byte	1
	.byte	2
	.byte	4
	.byte	8
	.byte	16
	.byte	32
	.byte	64
	.byte	128
	.section	__TEXT,__text,regular,pure_instructions
	.p2align	2
"_utf16_from_utf8::rest::write_rest_of::<#f189504864b36784>":
	.cfi_startproc
	movi	v0.2d, #0000000000000000
	sub	x11, x1, x2
	adrp	x9, lCPI64_0@PAGE
	cmp	x11, #16
	adrp	x10, lstatic.10@PAGE
	add	x10, x10, lstatic.10@PAGEOFF
	mov	x8, xzr
	b.hs	LBB64_6
LBB64_1:
	cmp	x2, x1
	b.eq	LBB64_18
	sub	x11, x1, #16
	add	x12, x0, x11
	cmp	x11, #3
	ldr	q1, [x12]
	b.lo	LBB64_13
	ldur	q3, [x12, #-2]
	ldur	q2, [x12, #-1]
	b	LBB64_17
LBB64_4:
	add	x12, x0, x2
	ldur	q3, [x12, #-2]
	ldur	q1, [x12, #-1]
LBB64_5:
	movi	v4.16b, #223
	movi	v5.16b, #191
	sub	x11, x11, #16
	movi	v16.16b, #192
	movi	v17.16b, #224
	cmp	x11, #15
	movi	v18.16b, #127
	movi	v19.16b, #160
	add	x2, x2, #16
	cmhi	v6.16b, v1.16b, v4.16b
	cmhi	v7.16b, v2.16b, v5.16b
	uqsub	v5.16b, v1.16b, v5.16b
	umax	v20.16b, v3.16b, v17.16b
	uqsub	v3.16b, v3.16b, v4.16b
	movi	v4.16b, #237
	and	v18.16b, v2.16b, v18.16b
	cmhi	v19.16b, v19.16b, v2.16b
	orr	v6.16b, v7.16b, v6.16b
	ldr	q7, [x9, lCPI64_0@PAGEOFF]
	bit	v4.16b, v17.16b, v19.16b
	orr	v3.16b, v3.16b, v5.16b
	bic	v6.16b, v7.16b, v6.16b
	cmge	v7.16b, v2.16b, #0
	cmeq	v3.16b, v3.16b, #0
	addp	v6.16b, v6.16b, v6.16b
	bsl	v7.16b, v16.16b, v1.16b
	cmeq	v1.16b, v1.16b, v4.16b
	addp	v6.16b, v6.16b, v6.16b
	ushr	v21.16b, v7.16b, #2
	shl	v7.16b, v7.16b, #6
	addp	v6.16b, v6.16b, v6.16b
	sli	v21.16b, v20.16b, #4
	movi	v20.16b, #254
	add	v7.16b, v7.16b, v18.16b
	umov	w12, v6.h[0]
	and	v5.16b, v2.16b, v20.16b
	zip1	v6.16b, v7.16b, v21.16b
	cmgt	v2.16b, v16.16b, v2.16b
	and	x13, x12, #0xff
	ubfx	x12, x12, #8, #8
	ldr	q17, [x10, x13, lsl #4]
	cmeq	v5.16b, v5.16b, v16.16b
	fmov	d4, x13
	fmov	d16, x12
	eor	v2.16b, v3.16b, v2.16b
	add	x13, x3, x8
	tbl	v6.16b, { v6.16b }, v17.16b
	zip2	v3.16b, v7.16b, v21.16b
	cnt	v4.8b, v4.8b
	orr	v1.16b, v5.16b, v1.16b
	cnt	v16.8b, v16.8b
	str	q6, [x13]
	orn	v1.16b, v1.16b, v2.16b
	fmov	w14, s4
	ldr	q4, [x10, x12, lsl #4]
	fmov	w12, s16
	tbl	v2.16b, { v3.16b }, v4.16b
	umax	v0.16b, v0.16b, v1.16b
	ubfiz	x15, x14, #1, #32
	add	x12, x14, x12
	add	x8, x8, x12, lsl #1
	str	q2, [x13, x15]
	b.ls	LBB64_1
LBB64_6:
	ldr	q2, [x0, x2]
	cmp	x2, #3
	b.hs	LBB64_4
	cbz	x2, LBB64_10
	add	x12, x0, x2
	cmp	x2, #2
	sub	x12, x12, #1
	ld1r	{ v1.16b }, [x12]
	ext	v1.16b, v1.16b, v2.16b, #15
	b.ne	LBB64_11
	ldrb	w12, [x0]
	b	LBB64_12
LBB64_10:
	movi	v1.2d, #0000000000000000
	mov	w12, wzr
	ext	v1.16b, v1.16b, v2.16b, #15
	b	LBB64_12
LBB64_11:
	mov	w12, wzr
LBB64_12:
	dup	v3.16b, w12
	ext	v3.16b, v3.16b, v1.16b, #15
	b	LBB64_5
LBB64_13:
	add	x12, x0, x1
	cmp	x11, #2
	sub	x12, x12, #17
	ld1r	{ v2.16b }, [x12]
	ext	v2.16b, v2.16b, v1.16b, #15
	b.ne	LBB64_15
	ldrb	w12, [x0]
	b	LBB64_16
LBB64_15:
	mov	w12, wzr
LBB64_16:
	dup	v3.16b, w12
	ext	v3.16b, v3.16b, v2.16b, #15
LBB64_17:
	movi	v4.16b, #223
	movi	v5.16b, #191
	sub	x11, x2, x11
	cmge	v16.16b, v1.16b, #0
	movi	v17.16b, #224
	movi	v18.16b, #127
	movi	v21.16b, #237
	cmhi	v6.16b, v2.16b, v4.16b
	cmhi	v7.16b, v1.16b, v5.16b
	uqsub	v5.16b, v2.16b, v5.16b
	umax	v19.16b, v3.16b, v17.16b
	uqsub	v3.16b, v3.16b, v4.16b
	and	v18.16b, v1.16b, v18.16b
	movi	v4.16b, #254
	orr	v6.16b, v7.16b, v6.16b
	ldr	q7, [x9, lCPI64_0@PAGEOFF]
	orr	v3.16b, v3.16b, v5.16b
	bic	v6.16b, v7.16b, v6.16b
	movi	v7.16b, #192
	and	v4.16b, v1.16b, v4.16b
	cmeq	v3.16b, v3.16b, #0
	addp	v6.16b, v6.16b, v6.16b
	bsl	v16.16b, v7.16b, v2.16b
	cmeq	v4.16b, v4.16b, v7.16b
	addp	v6.16b, v6.16b, v6.16b
	ushr	v20.16b, v16.16b, #2
	shl	v16.16b, v16.16b, #6
	addp	v6.16b, v6.16b, v6.16b
	sli	v20.16b, v19.16b, #4
	add	v16.16b, v16.16b, v18.16b
	umov	w12, v6.h[0]
	movi	v6.16b, #160
	cmhi	v6.16b, v6.16b, v1.16b
	lsr	x12, x12, x11
	cmgt	v1.16b, v7.16b, v1.16b
	lsl	x11, x12, x11
	mov	v5.16b, v6.16b
	zip1	v6.16b, v16.16b, v20.16b
	eor	v1.16b, v3.16b, v1.16b
	ubfx	x12, x11, #8, #32
	and	x13, x11, #0xff
	lsr	x11, x11, #8
	bsl	v5.16b, v17.16b, v21.16b
	fmov	d7, x12
	add	x12, x3, x8
	cnt	v7.8b, v7.8b
	cmeq	v2.16b, v2.16b, v5.16b
	ldr	q5, [x10, x13, lsl #4]
	tbl	v5.16b, { v6.16b }, v5.16b
	fmov	d6, x13
	orr	v2.16b, v4.16b, v2.16b
	addv	b4, v7.8b
	cnt	v3.8b, v6.8b
	zip2	v6.16b, v16.16b, v20.16b
	str	q5, [x12]
	orn	v1.16b, v2.16b, v1.16b
	ldr	q2, [x10, x11, lsl #4]
	fmov	w10, s4
	fmov	w13, s3
	tbl	v2.16b, { v6.16b }, v2.16b
	umax	v0.16b, v0.16b, v1.16b
	add	x10, x13, x10
	ubfiz	x11, x13, #1, #32
	add	x8, x8, x10, lsl #1
	str	q2, [x12, x11]
LBB64_18:
	cmeq	v0.16b, v0.16b, #0
	ldr	q1, [x9, lCPI64_0@PAGEOFF]
	bic	v0.16b, v1.16b, v0.16b
	addp	v0.16b, v0.16b, v0.16b
	addp	v0.16b, v0.16b, v0.16b
	addp	v0.16b, v0.16b, v0.16b
	umov	w9, v0.h[0]
	cbz	w9, LBB64_20
	mov	x1, xzr
	mov	w0, wzr
	ret
LBB64_20:
	sub	x9, x1, #1
	ldrb	w10, [x0, x9]
	cmp	w10, #191
	b.hi	LBB64_23
	sub	x9, x1, #2
	ldrb	w10, [x0, x9]
	cmp	w10, #223
	b.hi	LBB64_23
	sub	x9, x1, #3
	ldrb	w10, [x0, x9]
	cmp	w10, #239
	csel	x9, x9, x1, hi
LBB64_23:
	cmp	x9, x1
	cset	w0, hs
	csel	x1, x8, xzr, hs
	ret
Lfunc_end64:
	.cfi_endproc

	.section	__TEXT,__literal16,16byte_literals
	.p2align	4, 0x0
lCPI65_0:
	.byte	1
	.byte	2
	.byte	4
	.byte	8
	.byte	16
	.byte	32
	.byte	64
	.byte	128
	.byte	1
	.byte	2
	.byte	4
	.byte	8
	.byte	16
	.byte	32
	.byte	64
	.byte	128
	.section	__TEXT,__text,regular,pure_instructions
	.p2align	2
"_utf16_from_utf8::rest::write_rest_of::<#c16de31c8ac190b9>":
	.cfi_startproc
	movi	v0.2d, #0000000000000000
	sub	x11, x1, x2
	adrp	x9, lCPI65_0@PAGE
	cmp	x11, #16
	adrp	x10, lstatic.10@PAGE
	add	x10, x10, lstatic.10@PAGEOFF
	mov	x8, xzr
	b.hs	LBB65_6
LBB65_1:
	cmp	x2, x1
	b.eq	LBB65_24
	sub	x11, x1, #16
	add	x12, x0, x11
	cmp	x11, #3
	ldr	q1, [x12]
	b.lo	LBB65_16
	ldur	q5, [x12, #-3]
	ldur	q2, [x12, #-2]
	ldur	q3, [x12, #-1]
	b	LBB65_20
LBB65_4:
	movi	v7.16b, #223
	movi	v16.16b, #191
	movi	v18.16b, #239
	movi	v22.16b, #160
	movi	v23.16b, #144
	movi	v6.16b, #192
	cmge	v17.16b, v1.16b, #0
	movi	v21.16b, #224
	movi	v26.16b, #240
	movi	v27.16b, #237
	movi	v25.16b, #64
	shl	v24.16b, v2.16b, #2
	uqsub	v19.16b, v2.16b, v16.16b
	uqsub	v20.16b, v3.16b, v7.16b
	uqsub	v5.16b, v5.16b, v18.16b
	cmhi	v7.16b, v2.16b, v7.16b
	cmhi	v16.16b, v1.16b, v16.16b
	bsl	v17.16b, v6.16b, v2.16b
	movi	v28.16b, #231
	cmhi	v24.16b, v25.16b, v24.16b
	ushr	v25.16b, v1.16b, #4
	umax	v18.16b, v19.16b, v20.16b
	cmhi	v20.16b, v22.16b, v1.16b
	cmhi	v22.16b, v23.16b, v1.16b
	movi	v19.16b, #244
	orr	v7.16b, v16.16b, v7.16b
	movi	v23.16b, #232
	sli	v25.16b, v2.16b, #2
	orr	v5.16b, v18.16b, v5.16b
	mov	v16.16b, v20.16b
	mov	v18.16b, v22.16b
	movi	v20.16b, #254
	umax	v22.16b, v17.16b, v3.16b
	bic	v4.16b, v4.16b, v7.16b
	cmgt	v7.16b, v6.16b, v1.16b
	bit	v23.16b, v28.16b, v24.16b
	movi	v24.16b, #127
	bsl	v16.16b, v21.16b, v27.16b
	bsl	v18.16b, v26.16b, v19.16b
	cmeq	v5.16b, v5.16b, #0
	umax	v21.16b, v3.16b, v21.16b
	ushr	v27.16b, v17.16b, #2
	addp	v4.16b, v4.16b, v4.16b
	and	v20.16b, v1.16b, v20.16b
	shl	v17.16b, v17.16b, #6
	eor	v5.16b, v5.16b, v7.16b
	cmhi	v7.16b, v6.16b, v22.16b
	cmeq	v16.16b, v2.16b, v16.16b
	cmeq	v18.16b, v2.16b, v18.16b
	movi	v2.16b, #220
	sli	v27.16b, v21.16b, #4
	addp	v4.16b, v4.16b, v4.16b
	orr	v16.16b, v18.16b, v16.16b
	cmhi	v18.16b, v1.16b, v19.16b
	cmeq	v19.16b, v20.16b, v6.16b
	and	v1.16b, v1.16b, v24.16b
	and	v2.16b, v7.16b, v2.16b
	add	v6.16b, v25.16b, v6.16b
	addp	v4.16b, v4.16b, v4.16b
	orn	v5.16b, v19.16b, v5.16b
	orr	v7.16b, v16.16b, v18.16b
	cmhi	v16.16b, v26.16b, v3.16b
	add	v1.16b, v17.16b, v1.16b
	orr	v2.16b, v27.16b, v2.16b
	add	v3.16b, v23.16b, v3.16b
	umov	w12, v4.h[0]
	orr	v5.16b, v7.16b, v5.16b
	bif	v1.16b, v6.16b, v16.16b
	bif	v2.16b, v3.16b, v16.16b
	umax	v0.16b, v0.16b, v5.16b
LBB65_5:
	zip1	v3.16b, v1.16b, v2.16b
	and	x13, x12, #0xff
	lsr	x12, x12, #8
	ldr	q4, [x10, x13, lsl #4]
	zip2	v1.16b, v1.16b, v2.16b
	sub	x11, x11, #16
	fmov	d5, x12
	cmp	x11, #15
	add	x2, x2, #16
	tbl	v3.16b, { v3.16b }, v4.16b
	fmov	d4, x13
	add	x13, x3, x8
	cnt	v5.8b, v5.8b
	cnt	v4.8b, v4.8b
	str	q3, [x13]
	ldr	q2, [x10, x12, lsl #4]
	fmov	w14, s5
	fmov	w12, s4
	tbl	v1.16b, { v1.16b }, v2.16b
	ubfiz	x15, x12, #1, #32
	add	x12, x12, x14
	add	x8, x8, x12, lsl #1
	str	q1, [x13, x15]
	b.ls	LBB65_1
LBB65_6:
	ldr	q1, [x0, x2]
	cmp	x2, #3
	b.lo	LBB65_8
	add	x12, x0, x2
	ldur	q5, [x12, #-3]
	ldur	q3, [x12, #-2]
	ldur	q2, [x12, #-1]
	b	LBB65_14
LBB65_8:
	cbz	x2, LBB65_11
	add	x12, x0, x2
	cmp	x2, #2
	sub	x12, x12, #1
	ld1r	{ v2.16b }, [x12]
	ext	v2.16b, v2.16b, v1.16b, #15
	b.ne	LBB65_12
	ldrb	w12, [x0]
	b	LBB65_13
LBB65_11:
	movi	v2.2d, #0000000000000000
	mov	w12, wzr
	ext	v2.16b, v2.16b, v1.16b, #15
	b	LBB65_13
LBB65_12:
	mov	w12, wzr
LBB65_13:
	dup	v3.16b, w12
	movi	v4.2d, #0000000000000000
	ext	v3.16b, v3.16b, v2.16b, #15
	ext	v5.16b, v4.16b, v3.16b, #15
LBB65_14:
	orr	v4.16b, v5.16b, v1.16b
	cmlt	v6.16b, v4.16b, #0
	ldr	q4, [x9, lCPI65_0@PAGEOFF]
	and	v6.16b, v6.16b, v4.16b
	addp	v6.16b, v6.16b, v6.16b
	addp	v6.16b, v6.16b, v6.16b
	addp	v6.16b, v6.16b, v6.16b
	umov	w12, v6.h[0]
	cbnz	w12, LBB65_4
	movi	v2.2d, #0000000000000000
	mov	w12, #65535
	b	LBB65_5
LBB65_16:
	add	x12, x0, x1
	cmp	x11, #2
	sub	x12, x12, #17
	ld1r	{ v2.16b }, [x12]
	ext	v3.16b, v2.16b, v1.16b, #15
	b.ne	LBB65_18
	ldrb	w12, [x0]
	b	LBB65_19
LBB65_18:
	mov	w12, wzr
LBB65_19:
	dup	v2.16b, w12
	movi	v4.2d, #0000000000000000
	ext	v2.16b, v2.16b, v3.16b, #15
	ext	v5.16b, v4.16b, v2.16b, #15
LBB65_20:
	orr	v4.16b, v5.16b, v1.16b
	cmlt	v6.16b, v4.16b, #0
	ldr	q4, [x9, lCPI65_0@PAGEOFF]
	and	v6.16b, v6.16b, v4.16b
	addp	v6.16b, v6.16b, v6.16b
	addp	v6.16b, v6.16b, v6.16b
	addp	v6.16b, v6.16b, v6.16b
	umov	w12, v6.h[0]
	cbz	w12, LBB65_22
	movi	v7.16b, #223
	movi	v16.16b, #191
	movi	v18.16b, #239
	movi	v22.16b, #160
	movi	v23.16b, #144
	movi	v6.16b, #192
	cmge	v17.16b, v1.16b, #0
	movi	v21.16b, #224
	movi	v26.16b, #240
	movi	v27.16b, #237
	movi	v25.16b, #64
	shl	v24.16b, v3.16b, #2
	uqsub	v19.16b, v3.16b, v16.16b
	uqsub	v20.16b, v2.16b, v7.16b
	uqsub	v5.16b, v5.16b, v18.16b
	cmhi	v7.16b, v3.16b, v7.16b
	cmhi	v16.16b, v1.16b, v16.16b
	bsl	v17.16b, v6.16b, v3.16b
	movi	v28.16b, #231
	cmhi	v24.16b, v25.16b, v24.16b
	ushr	v25.16b, v1.16b, #4
	umax	v18.16b, v19.16b, v20.16b
	cmhi	v20.16b, v22.16b, v1.16b
	cmhi	v22.16b, v23.16b, v1.16b
	movi	v19.16b, #244
	orr	v7.16b, v16.16b, v7.16b
	movi	v23.16b, #232
	sli	v25.16b, v3.16b, #2
	orr	v5.16b, v18.16b, v5.16b
	mov	v16.16b, v20.16b
	mov	v18.16b, v22.16b
	movi	v20.16b, #254
	umax	v22.16b, v17.16b, v2.16b
	bic	v4.16b, v4.16b, v7.16b
	cmgt	v7.16b, v6.16b, v1.16b
	bit	v23.16b, v28.16b, v24.16b
	movi	v24.16b, #127
	bsl	v16.16b, v21.16b, v27.16b
	bsl	v18.16b, v26.16b, v19.16b
	cmeq	v5.16b, v5.16b, #0
	umax	v21.16b, v2.16b, v21.16b
	ushr	v27.16b, v17.16b, #2
	addp	v4.16b, v4.16b, v4.16b
	and	v20.16b, v1.16b, v20.16b
	shl	v17.16b, v17.16b, #6
	eor	v5.16b, v5.16b, v7.16b
	cmhi	v7.16b, v6.16b, v22.16b
	cmeq	v16.16b, v3.16b, v16.16b
	cmeq	v18.16b, v3.16b, v18.16b
	movi	v3.16b, #220
	sli	v27.16b, v21.16b, #4
	addp	v4.16b, v4.16b, v4.16b
	orr	v16.16b, v18.16b, v16.16b
	cmhi	v18.16b, v1.16b, v19.16b
	cmeq	v19.16b, v20.16b, v6.16b
	and	v1.16b, v1.16b, v24.16b
	and	v3.16b, v7.16b, v3.16b
	add	v6.16b, v25.16b, v6.16b
	addp	v4.16b, v4.16b, v4.16b
	orn	v5.16b, v19.16b, v5.16b
	orr	v7.16b, v16.16b, v18.16b
	cmhi	v16.16b, v26.16b, v2.16b
	add	v1.16b, v17.16b, v1.16b
	orr	v3.16b, v27.16b, v3.16b
	add	v2.16b, v23.16b, v2.16b
	umov	w12, v4.h[0]
	orr	v5.16b, v7.16b, v5.16b
	bif	v1.16b, v6.16b, v16.16b
	bit	v2.16b, v3.16b, v16.16b
	umax	v0.16b, v0.16b, v5.16b
	b	LBB65_23
LBB65_22:
	movi	v2.2d, #0000000000000000
	mov	w12, #65535
LBB65_23:
	sub	x11, x2, x11
	zip1	v3.16b, v1.16b, v2.16b
	zip2	v1.16b, v1.16b, v2.16b
	lsr	x12, x12, x11
	lsl	x11, x12, x11
	ubfx	x12, x11, #8, #32
	and	x13, x11, #0xff
	lsr	x11, x11, #8
	ldr	q5, [x10, x13, lsl #4]
	fmov	d4, x12
	add	x12, x3, x8
	tbl	v3.16b, { v3.16b }, v5.16b
	fmov	d5, x13
	cnt	v4.8b, v4.8b
	cnt	v5.8b, v5.8b
	str	q3, [x12]
	ldr	q2, [x10, x11, lsl #4]
	addv	b4, v4.8b
	fmov	w13, s5
	tbl	v1.16b, { v1.16b }, v2.16b
	fmov	w10, s4
	ubfiz	x11, x13, #1, #32
	add	x10, x13, x10
	str	q1, [x12, x11]
	add	x8, x8, x10, lsl #1
LBB65_24:
	cmeq	v0.16b, v0.16b, #0
	ldr	q1, [x9, lCPI65_0@PAGEOFF]
	bic	v0.16b, v1.16b, v0.16b
	addp	v0.16b, v0.16b, v0.16b
	addp	v0.16b, v0.16b, v0.16b
	addp	v0.16b, v0.16b, v0.16b
	umov	w9, v0.h[0]
	cbz	w9, LBB65_26
	mov	x1, xzr
	mov	w0, wzr
	ret
LBB65_26:
	sub	x9, x1, #1
	ldrb	w10, [x0, x9]
	cmp	w10, #191
	b.hi	LBB65_29
	sub	x9, x1, #2
	ldrb	w10, [x0, x9]
	cmp	w10, #223
	b.hi	LBB65_29
	sub	x9, x1, #3
	ldrb	w10, [x0, x9]
	cmp	w10, #239
	csel	x9, x9, x1, hi
LBB65_29:
	cmp	x9, x1
	cset	w0, hs
	csel	x1, x8, xzr, hs
	ret
Lfunc_end65:
	.cfi_endproc

	.section	__TEXT,__literal16,16byte_literals
	.p2align	4, 0x0
lCPI66_0:
	.byte	1
	.byte	2
	.byte	4
	.byte	8
	.byte	16
	.byte	32
	.byte	64
	.byte	128
	.byte	1
	.byte	2
	.byte	4
	.byte	8
	.byte	16
	.byte	32
	.byte	64
	.byte	128
	.section	__TEXT,__text,regular,pure_instructions
	.p2align	2
"_utf16_transcode::transcoding::transcode_many::<#58ba01604e1c9b81>":
	.cfi_startproc
	sub	sp, sp, #416
	.cfi_def_cfa_offset 416
	stp	x29, x30, [sp, #320]
	stp	x28, x27, [sp, #336]
	stp	x26, x25, [sp, #352]
	stp	x24, x23, [sp, #368]
	stp	x22, x21, [sp, #384]
	stp	x20, x19, [sp, #400]
	add	x29, sp, #320
	.cfi_def_cfa w29, 96
	.cfi_offset w19, -8
	.cfi_offset w20, -16
	.cfi_offset w21, -24
	.cfi_offset w22, -32
	.cfi_offset w23, -40
	.cfi_offset w24, -48
	.cfi_offset w25, -56
	.cfi_offset w26, -64
	.cfi_offset w27, -72
	.cfi_offset w28, -80
	.cfi_offset w30, -88
	.cfi_offset w29, -96
	.cfi_remember_state
	add	x8, x1, x5
	mov	x20, x6
	mov	x25, x5
	ldrsb	w10, [x8]
	mov	x21, x4
	mov	x22, x1
	mov	x28, x3
	mov	x23, x2
	str	x0, [sp, #16]
	tbnz	w10, #31, LBB66_158
LBB66_1:
	cmp	x23, x25
	str	x28, [sp, #24]
	b.hi	LBB66_4
LBB66_2:
	ldr	x8, [sp, #16]
	stp	x25, x20, [x8]
	strh	wzr, [x8, #16]
	b	LBB66_194
LBB66_3:
	mov	w12, #67043328
	mov	w13, #-10240
	mov	w14, #56320
	add	w12, w9, w12
	bfxil	w14, w9, #0, #10
	add	w9, w13, w12, lsr #10
	mov	w12, #4
	strh	w14, [x11, #2]
	add	x25, x10, x8
	add	x20, x12, x20
	strh	w9, [x11]
	cmp	x25, x23
	b.hs	LBB66_2
LBB66_4:
	sub	x24, x23, x25
	add	x27, x22, x25
	cmp	x24, #16
	b.lo	LBB66_6
	add	x0, x22, x25
	sub	x1, x23, x25
	add	x2, x28, x20
	sub	x3, x21, x20
	bl	"_utf16_transcode::encode::FromUtf8Direction::write_front::<#418c2b53cf60437c>"
	mov	x26, x0
	add	x20, x1, x20
	subs	x19, x24, x0
	b.ne	LBB66_7
	b	LBB66_12
LBB66_6:
	mov	x26, xzr
	subs	x19, x24, xzr
	b.eq	LBB66_12
LBB66_7:
	cmp	x19, #7
	add	x27, x27, x26
	b.hi	LBB66_23
	mov	x0, x27
	mov	x1, x19
	mov	x2, x28
LBB66_9:
	mov	x3, x21
	mov	x4, x20
	bl	"_utf16_transcode::transcoding::write_chars::<#58ba01604e1c9b81>"
LBB66_10:
	mov	x28, x0
	mov	x20, x1
LBB66_11:
	add	x24, x28, x26
	ldr	x28, [sp, #24]
LBB66_12:
	add	x8, x24, x25
	subs	x11, x23, x8
	b.eq	LBB66_170
	add	x10, x22, x8
	ldrsb	w12, [x10]
	and	w9, w12, #0xff
	tbnz	w12, #31, LBB66_18
	mov	w10, #1
LBB66_15:
	cmp	w9, #16, lsl #12
	mov	w11, #4
	mov	w12, #2
	sub	x13, x21, x20
	csel	x11, x12, x11, lo
	cmp	x13, x11
	b.lo	LBB66_171
	lsr	w12, w9, #16
	add	x11, x28, x20
	cbnz	w12, LBB66_3
	mov	w12, #2
	add	x25, x10, x8
	add	x20, x12, x20
	strh	w9, [x11]
	cmp	x25, x23
	b.lo	LBB66_4
	b	LBB66_2
LBB66_18:
	cmp	x11, #3
	b.lo	LBB66_26
	add	w12, w9, #31
	and	w12, w12, #0xff
	cmp	w12, #11
	b.hi	LBB66_27
	ldrsb	w12, [x10, #1]
	cmn	w12, #65
	b.gt	LBB66_27
	ldrsb	w13, [x10, #2]
	cmn	w13, #65
	b.gt	LBB66_27
	lsl	w9, w9, #12
	and	w10, w12, #0xff
	and	w11, w13, #0xff
	add	w9, w9, w10, lsl #6
	mov	w10, #57216
	movk	w10, #65521, lsl #16
	add	w10, w11, w10
	b	LBB66_33
LBB66_23:
	cmp	x19, #128
	mov	w8, #128
	sub	x14, x21, x20
	csel	x28, x19, x8, lo
	subs	x8, x14, #16
	csel	x8, xzr, x8, lo
	cmp	x28, x8, lsr #1
	b.ls	LBB66_39
	cmp	x14, #23
	b.hi	LBB66_45
	ldr	x2, [sp, #24]
	mov	x0, x27
	mov	x1, x19
	b	LBB66_9
LBB66_26:
	cmp	x11, #2
	b.ne	LBB66_190
LBB66_27:
	lsr	w13, w9, #4
	ldrb	w12, [x10, #1]
	and	w13, w13, #0xc
	orr	w13, w13, w12, lsr #6
	cmp	w13, #14
	b.ne	LBB66_182
	add	w13, w9, #31
	and	w13, w13, #0xff
	cmp	w13, #12
	b.hs	LBB66_34
LBB66_29:
	cmp	x11, #2
	b.eq	LBB66_183
	ldrsb	w13, [x10, #2]
	cmn	w13, #65
	b.gt	LBB66_186
	cmp	w9, #239
	and	w13, w13, #0xff
	b.hi	LBB66_42
	lsl	w9, w9, #12
	mov	w10, #57216
	movk	w10, #65521, lsl #16
	add	w9, w9, w12, lsl #6
	add	w10, w13, w10
LBB66_33:
	add	w9, w9, w10
	mov	w10, #3
	b	LBB66_15
LBB66_34:
	add	w13, w9, #62
	and	w14, w13, #0xff
	cmp	w14, #30
	b.lo	LBB66_94
	cmp	w9, #239
	b.gt	LBB66_63
	cmp	w9, #224
	b.eq	LBB66_88
	cmp	w9, #237
	b.ne	LBB66_86
	mov	w14, #159
	b	LBB66_87
LBB66_39:
	movi	v0.2d, #0000000000000000
	cmp	x19, #63
	b.hi	LBB66_48
	add	x0, sp, #32
	mov	x1, x27
	mov	x2, x28
	stp	q0, q0, [sp, #32]
	bl	"_simdutf8::compat::from_utf8"
	ldrb	w8, [sp, #32]
	cbz	w8, LBB66_76
	ldr	x8, [sp, #40]
	b	LBB66_50
LBB66_42:
	cmp	x11, #4
	b.lo	LBB66_183
	ldrsb	w10, [x10, #3]
	cmn	w10, #65
	b.gt	LBB66_191
	lsl	w9, w9, #18
	mov	w11, #57216
	and	w10, w10, #0xff
	movk	w11, #64567, lsl #16
	add	w9, w9, w12, lsl #12
	add	w10, w10, w11
	add	w9, w9, w13, lsl #6
	add	w9, w9, w10
	mov	w10, #4
	b	LBB66_15
LBB66_45:
	movi	v0.2d, #0000000000000000
	ldr	x3, [sp, #24]
	cmp	x19, #15
	str	wzr, [sp, #304]
	stp	q0, q0, [sp, #48]
	stp	q0, q0, [sp, #80]
	stp	q0, q0, [sp, #112]
	stp	q0, q0, [sp, #144]
	stp	q0, q0, [sp, #176]
	stp	q0, q0, [sp, #208]
	stp	q0, q0, [sp, #240]
	stp	q0, q0, [sp, #272]
	str	q0, [sp, #32]
	b.hi	LBB66_71
	add	x2, sp, #32
	mov	x0, x27
	mov	x1, x19
	mov	x4, x21
	mov	x5, x20
LBB66_47:
	bl	"_utf16_transcode::transcoding::write_buffered_text::<#58ba01604e1c9b81>"
	b	LBB66_10
LBB66_48:
	add	x0, sp, #32
	mov	x1, x27
	mov	w2, #63
	stp	q0, q0, [sp, #32]
	mov	w19, #63
	bl	"_simdutf8::compat::from_utf8"
	ldrb	w9, [sp, #32]
	ldr	x8, [sp, #40]
	cmp	w9, #0
	csel	x24, x19, x8, eq
	add	x9, x24, #4
	cmp	x9, #64
	b.lo	LBB66_50
	movi	v0.2d, #0000000000000000
	sub	x19, x28, x24
	add	x0, sp, #32
	add	x1, x27, x24
	mov	x2, x19
	stp	q0, q0, [sp, #32]
	bl	"_simdutf8::compat::from_utf8"
	ldrb	w8, [sp, #32]
	ldr	x9, [sp, #40]
	cmp	w8, #0
	csel	x8, x19, x9, eq
	add	x8, x8, x24
LBB66_50:
	cbz	x8, LBB66_66
	ldr	x9, [sp, #24]
	cmp	x8, #7
	add	x19, x9, x20
	b.hi	LBB66_67
	mov	x5, xzr
	mov	x9, x8
	b	LBB66_54
LBB66_53:
	mov	w13, #67043328
	mov	w14, #-10240
	add	w10, w10, w13
	mov	w13, #56320
	add	w10, w14, w10, lsr #10
	orr	w12, w12, w13
	strh	w12, [x11, #2]
	strh	w10, [x11]
	mov	w10, #4
	add	x5, x10, x5
	cbz	x9, LBB66_70
LBB66_54:
	ldrsb	w11, [x27]
	and	w10, w11, #0xff
	tbnz	w11, #31, LBB66_56
	mov	w12, #1
	b	LBB66_60
LBB66_56:
	ldrb	w11, [x27, #1]
	cmp	w10, #223
	and	w11, w11, #0x3f
	b.hi	LBB66_58
	bfi	w11, w10, #6, #5
	mov	w12, #2
	mov	w10, w11
	b	LBB66_60
LBB66_58:
	ldrb	w12, [x27, #2]
	cmp	w10, #239
	and	w12, w12, #0x3f
	b.hi	LBB66_62
	ubfiz	w10, w10, #12, #4
	orr	w10, w10, w11, lsl #6
	orr	w10, w10, w12
	mov	w12, #3
LBB66_60:
	add	x27, x27, x12
	sub	x9, x9, x12
	add	x11, x19, x5
LBB66_61:
	strh	w10, [x11]
	mov	w10, #2
	add	x5, x10, x5
	cbnz	x9, LBB66_54
	b	LBB66_70
LBB66_62:
	ldrb	w13, [x27, #3]
	ubfiz	w10, w10, #18, #3
	add	x27, x27, #4
	sub	x9, x9, #4
	and	w13, w13, #0x3f
	orr	w10, w10, w11, lsl #12
	add	x11, x19, x5
	orr	w12, w13, w12, lsl #6
	lsr	w13, w10, #16
	orr	w10, w12, w10
	cbz	w13, LBB66_61
	b	LBB66_53
LBB66_63:
	cmp	w9, #240
	b.eq	LBB66_89
	cmp	w9, #244
	b.ne	LBB66_86
	mov	w14, #143
	b	LBB66_87
LBB66_66:
	mov	x28, xzr
	b	LBB66_11
LBB66_67:
	mov	x28, x8
	lsl	x5, x8, #1
	cmp	x8, #16
	b.hi	LBB66_77
LBB66_68:
	add	x8, x27, x28
	ldr	d0, [x27]
	ldur	d1, [x8, #-8]
	adrp	x8, lstatic.1@PAGE
	add	x8, x8, lstatic.1@PAGEOFF
	add	x8, x8, x28, lsl #4
	mov	v0.d[1], v1.d[0]
	ldur	q1, [x8, #-128]
	adrp	x8, lCPI66_0@PAGE
	tbl	v1.16b, { v0.16b }, v1.16b
	ldr	q0, [x8, lCPI66_0@PAGEOFF]
	ldr	x8, [sp, #24]
	add	x8, x8, x20
	cmlt	v2.16b, v1.16b, #0
	and	v2.16b, v2.16b, v0.16b
	addp	v2.16b, v2.16b, v2.16b
	addp	v2.16b, v2.16b, v2.16b
	addp	v2.16b, v2.16b, v2.16b
	umov	w9, v2.h[0]
	cbz	w9, LBB66_98
	adrp	x9, lstatic.2@PAGE
	add	x9, x9, lstatic.2@PAGEOFF
	movi	v3.2d, #0000000000000000
	sub	x9, x9, x28
	movi	v6.16b, #223
	movi	v7.16b, #191
	ldr	q2, [x9, #16]
	movi	v16.16b, #224
	movi	v17.16b, #64
	movi	v20.16b, #232
	movi	v21.16b, #231
	movi	v22.16b, #220
	umax	v2.16b, v1.16b, v2.16b
	movi	v1.16b, #192
	adrp	x11, lstatic.10@PAGE
	add	x11, x11, lstatic.10@PAGEOFF
	ext	v4.16b, v3.16b, v2.16b, #15
	cmge	v5.16b, v2.16b, #0
	cmhi	v7.16b, v2.16b, v7.16b
	ext	v3.16b, v3.16b, v4.16b, #15
	bsl	v5.16b, v1.16b, v4.16b
	cmhi	v6.16b, v4.16b, v6.16b
	shl	v18.16b, v4.16b, #2
	orr	v6.16b, v7.16b, v6.16b
	umax	v7.16b, v3.16b, v16.16b
	umax	v16.16b, v5.16b, v3.16b
	cmhi	v17.16b, v17.16b, v18.16b
	ushr	v19.16b, v5.16b, #2
	movi	v18.16b, #127
	shl	v5.16b, v5.16b, #6
	bic	v0.16b, v0.16b, v6.16b
	cmhi	v6.16b, v1.16b, v16.16b
	ushr	v16.16b, v2.16b, #4
	bsl	v17.16b, v21.16b, v20.16b
	sli	v19.16b, v7.16b, #4
	addp	v0.16b, v0.16b, v0.16b
	and	v2.16b, v2.16b, v18.16b
	sli	v16.16b, v4.16b, #2
	movi	v4.16b, #240
	and	v6.16b, v6.16b, v22.16b
	add	v7.16b, v17.16b, v3.16b
	addp	v0.16b, v0.16b, v0.16b
	add	v2.16b, v5.16b, v2.16b
	orr	v6.16b, v19.16b, v6.16b
	cmhi	v3.16b, v4.16b, v3.16b
	add	v1.16b, v16.16b, v1.16b
	addp	v0.16b, v0.16b, v0.16b
	mov	v4.16b, v3.16b
	bit	v1.16b, v2.16b, v3.16b
	umov	w9, v0.h[0]
	bsl	v4.16b, v6.16b, v7.16b
	and	x10, x9, #0xff
	ubfx	x9, x9, #8, #8
	ldr	q2, [x11, x10, lsl #4]
	zip1	v0.16b, v1.16b, v4.16b
	fmov	d3, x9
	zip2	v1.16b, v1.16b, v4.16b
	cnt	v3.8b, v3.8b
	tbl	v0.16b, { v0.16b }, v2.16b
	fmov	d2, x10
	cnt	v2.8b, v2.8b
	fmov	w10, s3
	str	q0, [x19]
	ldr	q0, [x11, x9, lsl #4]
	fmov	w9, s2
	tbl	v0.16b, { v1.16b }, v0.16b
	ubfiz	x11, x9, #1, #32
	add	x9, x9, x10
	lsl	x5, x9, #1
	str	q0, [x8, x11]
	add	x20, x5, x20
	b	LBB66_11
LBB66_70:
	mov	x28, x8
	add	x20, x5, x20
	b	LBB66_11
LBB66_71:
	ldrsb	w8, [x27]
	tbnz	w8, #31, LBB66_95
	mov	w8, #1
LBB66_73:
	add	x8, x27, x8
	ldrsb	w9, [x8]
	tbnz	w9, #31, LBB66_99
LBB66_74:
	cmp	x14, #65
	mov	w8, #130
	mov	w9, #66
	csel	x8, x9, x8, lo
	add	x2, sp, #32
	mov	x0, x27
	cmp	x8, x19
	mov	w3, #276
	csel	x1, x8, x19, lo
	bl	"_utf16_transcode::encode::FromUtf8Direction::write_front::<#418c2b53cf60437c>"
	sub	x9, x21, x20
	cmp	x1, x9
	b.ls	LBB66_102
	orr	x8, x9, #0x1
	add	x10, sp, #32
	and	x9, x9, #0xfffffffffffffffe
	ldrb	w8, [x10, x8]
	sub	x10, x9, #2
	add	x0, sp, #32
	and	w8, w8, #0xfc
	cmp	w8, #220
	csel	x24, x10, x9, eq
	mov	x1, x24
	bl	"_utf16_to_utf8::lens::utf8_len::<#418c2b53cf60437c>"
	b	LBB66_103
LBB66_76:
	ldr	x8, [sp, #24]
	add	x19, x8, x20
	lsl	x5, x28, #1
	cmp	x28, #16
	b.ls	LBB66_68
LBB66_77:
	add	x24, x5, #16
	lsr	x8, x24, #1
	cmp	x8, x28
	csel	x4, x8, x28, lo
	cmp	x24, #32
	b.lo	LBB66_79
	ldr	q1, [x27]
	adrp	x8, lCPI66_0@PAGE
	ldr	q0, [x8, lCPI66_0@PAGEOFF]
	cmlt	v2.16b, v1.16b, #0
	and	v2.16b, v2.16b, v0.16b
	addp	v2.16b, v2.16b, v2.16b
	addp	v2.16b, v2.16b, v2.16b
	addp	v2.16b, v2.16b, v2.16b
	umov	w8, v2.h[0]
	cbz	w8, LBB66_110
LBB66_79:
	mov	x4, xzr
LBB66_80:
	lsl	x5, x4, #1
	subs	x8, x28, x4
	b.eq	LBB66_85
	cmp	x8, #191
	b.ls	LBB66_84
	mov	x0, x27
	mov	x1, x28
	mov	x2, x19
	mov	x3, x24
	bl	"_utf16_from_utf8::blocks::write_mixed_blocks::<#418c2b53cf60437c>"
	sub	x8, x28, x0
	mov	x5, x1
	cmp	x8, #191
	b.hi	LBB66_85
	mov	x4, x0
LBB66_84:
	mov	x0, x27
	mov	x1, x28
	mov	x2, x19
	mov	x3, x24
	bl	"_utf16_from_utf8::rest::write_rest::<#418c2b53cf60437c>"
	mov	x5, x1
LBB66_85:
	add	x20, x5, x20
	b	LBB66_11
LBB66_86:
	mov	w14, #191
LBB66_87:
	mov	w15, #128
	b	LBB66_90
LBB66_88:
	mov	w14, #191
	mov	w15, #160
	b	LBB66_90
LBB66_89:
	mov	w14, #191
	mov	w15, #144
LBB66_90:
	and	w13, w13, #0xff
	cmp	w13, #50
	mov	w13, #1
	b.hi	LBB66_204
	cmp	w15, w12
	b.hi	LBB66_204
	cmp	w12, w14
	mov	w14, #1
	b.hi	LBB66_193
	cmp	w9, #223
	b.hi	LBB66_29
LBB66_94:
	add	w9, w12, w9, lsl #6
	mov	w10, #-12416
	add	w9, w9, w10
	mov	w10, #2
	b	LBB66_15
LBB66_95:
	and	w8, w8, #0xff
	cmp	w8, #225
	b.hs	LBB66_106
	lsr	w10, w8, #4
	ldrb	w9, [x27, #1]
	and	w10, w10, #0xc
	orr	w10, w10, w9, lsr #6
	cmp	w10, #14
	b.ne	LBB66_157
	add	w10, w8, #62
	and	w11, w10, #0xff
	cmp	w11, #30
	b.hs	LBB66_121
	b	LBB66_138
LBB66_98:
	ushll	v0.8h, v1.8b, #0
	ushll2	v1.8h, v1.16b, #0
	add	x20, x5, x20
	str	q0, [x19]
	str	q1, [x8, #16]
	b	LBB66_11
LBB66_99:
	and	w9, w9, #0xff
	add	w10, w9, #31
	and	w11, w10, #0xff
	ldrb	w10, [x8, #1]
	cmp	w11, #11
	b.hi	LBB66_113
	sxtb	w9, w10
	cmn	w9, #65
	b.gt	LBB66_157
	ldrsb	w8, [x8, #2]
	cmn	w8, #64
	b.lt	LBB66_74
	b	LBB66_157
LBB66_102:
	mov	x24, x1
LBB66_103:
	add	x8, x24, x20
	mov	x28, x0
	add	x1, sp, #32
	str	x8, [sp, #8]
	ldr	x8, [sp, #24]
	mov	x2, x24
	add	x0, x8, x20
	mov	x20, x8
	bl	_memcpy
	cbz	x28, LBB66_105
	ldr	x20, [sp, #8]
	b	LBB66_11
LBB66_105:
	ldr	x5, [sp, #8]
	add	x2, sp, #32
	mov	x0, x27
	mov	x1, x19
	mov	x3, x20
	mov	x4, x21
	b	LBB66_47
LBB66_106:
	ldrsb	w9, [x27, #1]
	cmp	w8, #236
	b.hi	LBB66_119
	cmn	w9, #65
	b.gt	LBB66_157
	ldrsb	w8, [x27, #2]
	cmn	w8, #64
	b.ge	LBB66_157
LBB66_109:
	mov	w8, #3
	b	LBB66_73
LBB66_110:
	cmp	x4, #31
	b.hi	LBB66_125
	ushll	v2.8h, v1.8b, #0
	ushll2	v1.8h, v1.16b, #0
	ldr	x8, [sp, #24]
	sub	x9, x4, #16
	add	x8, x8, x20
	stp	q2, q1, [x8]
	ldr	q1, [x27, x9]
	cmlt	v2.16b, v1.16b, #0
	and	v0.16b, v2.16b, v0.16b
	addp	v0.16b, v0.16b, v0.16b
	addp	v0.16b, v0.16b, v0.16b
	addp	v0.16b, v0.16b, v0.16b
	umov	w10, v0.h[0]
	cbz	w10, LBB66_129
	mov	w4, #16
	b	LBB66_80
LBB66_113:
	lsr	w11, w9, #4
	and	w11, w11, #0xc
	orr	w11, w11, w10, lsr #6
	cmp	w11, #14
	b.ne	LBB66_157
	add	w11, w9, #62
	and	w12, w11, #0xff
	cmp	w12, #30
	b.lo	LBB66_74
	cmp	w9, #239
	b.gt	LBB66_143
	cmp	w9, #224
	b.eq	LBB66_148
	cmp	w9, #237
	b.ne	LBB66_146
	mov	w12, #159
	b	LBB66_147
LBB66_119:
	cmn	w9, #65
	b.gt	LBB66_157
	add	w10, w8, #62
LBB66_121:
	cmp	w8, #239
	b.gt	LBB66_126
	cmp	w8, #224
	b.eq	LBB66_132
	cmp	w8, #237
	b.ne	LBB66_130
	mov	w11, #159
	b	LBB66_131
LBB66_125:
	mov	x0, x27
	mov	x1, x4
	mov	x2, x19
	bl	"_utf16_from_utf8::ascii::write_front::<#418c2b53cf60437c>"
	mov	x4, x0
	b	LBB66_80
LBB66_126:
	cmp	w8, #240
	b.eq	LBB66_133
	cmp	w8, #244
	b.ne	LBB66_130
	mov	w11, #143
	b	LBB66_131
LBB66_129:
	ushll	v0.8h, v1.8b, #0
	ushll2	v1.8h, v1.16b, #0
	add	x8, x8, x9, lsl #1
	stp	q0, q1, [x8]
	b	LBB66_80
LBB66_130:
	mov	w11, #191
LBB66_131:
	mov	w12, #128
	b	LBB66_134
LBB66_132:
	mov	w11, #191
	mov	w12, #160
	b	LBB66_134
LBB66_133:
	mov	w11, #191
	mov	w12, #144
LBB66_134:
	and	w10, w10, #0xff
	cmp	w10, #50
	b.hi	LBB66_157
	cmp	w12, w9, uxtb
	b.hi	LBB66_157
	cmp	w11, w9, uxtb
	b.lo	LBB66_157
	cmp	w8, #224
	b.hs	LBB66_139
LBB66_138:
	mov	w8, #2
	b	LBB66_73
LBB66_139:
	ldrsb	w9, [x27, #2]
	cmn	w9, #65
	b.gt	LBB66_157
	cmp	w8, #240
	b.lo	LBB66_109
	ldrsb	w8, [x27, #3]
	cmn	w8, #65
	b.gt	LBB66_157
	mov	w8, #4
	b	LBB66_73
LBB66_143:
	cmp	w9, #240
	b.eq	LBB66_149
	cmp	w9, #244
	b.ne	LBB66_146
	mov	w12, #143
	b	LBB66_147
LBB66_146:
	mov	w12, #191
LBB66_147:
	mov	w13, #128
	b	LBB66_150
LBB66_148:
	mov	w12, #191
	mov	w13, #160
	b	LBB66_150
LBB66_149:
	mov	w12, #191
	mov	w13, #144
LBB66_150:
	and	w11, w11, #0xff
	cmp	w11, #50
	b.hi	LBB66_157
	cmp	w13, w10
	b.hi	LBB66_157
	cmp	w10, w12
	b.hi	LBB66_157
	cmp	w9, #224
	b.lo	LBB66_74
	ldrsb	w10, [x8, #2]
	cmn	w10, #65
	b.gt	LBB66_157
	cmp	w9, #240
	b.lo	LBB66_74
	ldrsb	w8, [x8, #3]
	cmn	w8, #64
	b.lt	LBB66_74
LBB66_157:
	mov	x0, x27
	mov	x1, x19
	mov	x2, x3
	b	LBB66_9
LBB66_158:
	sub	x9, x23, x25
	and	w10, w10, #0xff
	cmp	x9, #3
	b.lo	LBB66_162
	add	w11, w10, #31
	and	w11, w11, #0xff
	cmp	w11, #11
	b.hi	LBB66_163
	ldrsb	w11, [x8, #1]
	cmn	w11, #65
	b.gt	LBB66_163
	ldrsb	w11, [x8, #2]
	cmn	w11, #64
	b.lt	LBB66_1
	b	LBB66_163
LBB66_162:
	cmp	x9, #2
	b.ne	LBB66_168
LBB66_163:
	lsr	w12, w10, #4
	ldrb	w11, [x8, #1]
	and	w12, w12, #0xc
	orr	w12, w12, w11, lsr #6
	cmp	w12, #14
	b.ne	LBB66_167
	add	w12, w10, #31
	and	w12, w12, #0xff
	cmp	w12, #12
	b.hs	LBB66_172
LBB66_165:
	cmp	x9, #2
	b.ne	LBB66_177
LBB66_166:
	mov	w11, wzr
	mov	w12, #2
	b	LBB66_169
LBB66_167:
	mov	w12, #1
	mov	w11, #1
	b	LBB66_169
LBB66_168:
	add	w8, w10, #11
	and	w8, w8, #0xff
	cmp	w8, #205
	mov	w8, #1
	cset	w11, lo
	cinc	w12, w8, hs
LBB66_169:
	ldr	x8, [sp, #16]
	stp	x25, x20, [x8]
	strb	w12, [x8, #16]
	strb	w11, [x8, #17]
	b	LBB66_194
LBB66_170:
	mov	x25, x23
	b	LBB66_2
LBB66_171:
	mov	w14, wzr
	mov	w13, #3
	b	LBB66_193
LBB66_172:
	add	w12, w10, #62
	and	w13, w12, #0xff
	cmp	w13, #30
	b.lo	LBB66_1
	cmp	w10, #239
	b.gt	LBB66_187
	cmp	w10, #224
	b.eq	LBB66_197
	cmp	w10, #237
	b.ne	LBB66_195
	mov	w13, #159
	b	LBB66_196
LBB66_177:
	ldrsb	w11, [x8, #2]
	cmn	w11, #65
	b.gt	LBB66_184
	cmp	w10, #240
	b.lo	LBB66_1
	cmp	x9, #4
	b.lo	LBB66_166
	ldrsb	w8, [x8, #3]
	cmn	w8, #65
	b.le	LBB66_1
	mov	w11, #3
	b	LBB66_185
LBB66_182:
	mov	w13, #1
	mov	w14, #1
	b	LBB66_193
LBB66_183:
	mov	w14, wzr
	mov	w13, #2
	b	LBB66_193
LBB66_184:
	mov	w11, #2
LBB66_185:
	mov	w12, #1
	b	LBB66_169
LBB66_186:
	mov	w14, #2
	b	LBB66_192
LBB66_187:
	cmp	w10, #240
	b.eq	LBB66_198
	cmp	w10, #244
	b.ne	LBB66_195
	mov	w13, #143
	b	LBB66_196
LBB66_190:
	add	w9, w9, #11
	and	w9, w9, #0xff
	cmp	w9, #205
	mov	w9, #1
	cset	w14, lo
	cinc	w13, w9, hs
	b	LBB66_193
LBB66_191:
	mov	w14, #3
LBB66_192:
	mov	w13, #1
LBB66_193:
	ldr	x9, [sp, #16]
	stp	x8, x20, [x9]
	strb	w13, [x9, #16]
	strb	w14, [x9, #17]
LBB66_194:
	.cfi_def_cfa wsp, 416
	ldp	x20, x19, [sp, #400]
	ldp	x22, x21, [sp, #384]
	ldp	x24, x23, [sp, #368]
	ldp	x26, x25, [sp, #352]
	ldp	x28, x27, [sp, #336]
	ldp	x29, x30, [sp, #320]
	add	sp, sp, #416
	.cfi_def_cfa_offset 0
	.cfi_restore w19
	.cfi_restore w20
	.cfi_restore w21
	.cfi_restore w22
	.cfi_restore w23
	.cfi_restore w24
	.cfi_restore w25
	.cfi_restore w26
	.cfi_restore w27
	.cfi_restore w28
	.cfi_restore w30
	.cfi_restore w29
	ret
LBB66_195:
	.cfi_restore_state
	mov	w13, #191
LBB66_196:
	mov	w14, #128
	b	LBB66_199
LBB66_197:
	mov	w13, #191
	mov	w14, #160
	b	LBB66_199
LBB66_198:
	mov	w13, #191
	mov	w14, #144
LBB66_199:
	and	w12, w12, #0xff
	cmp	w12, #50
	mov	w12, #1
	b.hi	LBB66_203
	cmp	w14, w11
	b.hi	LBB66_203
	cmp	w11, w13
	mov	w11, #1
	b.hi	LBB66_169
	cmp	w10, #224
	b.lo	LBB66_1
	b	LBB66_165
LBB66_203:
	mov	w11, #1
	b	LBB66_169
LBB66_204:
	mov	w14, #1
	b	LBB66_193
Lfunc_end66:
	.cfi_endproc

	.section	__TEXT,__literal16,16byte_literals
	.p2align	4, 0x0
lCPI67_0:
	.byte	1
	.byte	2
	.byte	4
	.byte	8
	.byte	16
	.byte	32
	.byte	64
	.byte	128
	.byte	1
	.byte	2
	.byte	4
	.byte	8
	.byte	16
	.byte	32
	.byte	64
	.byte	128
lCPI67_2:
	.byte	0
	.byte	1
	.byte	2
	.byte	3
	.byte	4
	.byte	5
	.byte	6
	.byte	7
	.byte	8
	.byte	9
	.byte	10
	.byte	11
	.byte	12
	.byte	13
	.byte	14
	.byte	15
	.section	__TEXT,__literal8,8byte_literals
	.p2align	3, 0x0
lCPI67_1:
	.zero	1
	.zero	1
	.zero	1
	.zero	1
	.zero	1
	.zero	1
	.byte	224
	.byte	192
	.section	__TEXT,__text,regular,pure_instructions
	.p2align	2
"_utf16_transcode::encode::FromUtf8Direction::write_front::<#418c2b53cf60437c>":
	.cfi_startproc
	stp	x29, x30, [sp, #-48]!
	.cfi_def_cfa_offset 48
	stp	x22, x21, [sp, #16]
	stp	x20, x19, [sp, #32]
	mov	x29, sp
	.cfi_def_cfa w29, 48
	.cfi_offset w19, -8
	.cfi_offset w20, -16
	.cfi_offset w21, -24
	.cfi_offset w22, -32
	.cfi_offset w30, -40
	.cfi_offset w29, -48
	.cfi_remember_state
	cmp	x1, #16
	b.hi	LBB67_8
	cmp	x1, #8
	mov	x5, xzr
	b.lo	LBB67_13
	cmp	x3, #32
	mov	x4, x5
	b.lo	LBB67_21
	add	x8, x0, x1
	ldr	d0, [x0]
	ldur	d2, [x8, #-8]
	adrp	x8, lstatic.1@PAGE
	add	x8, x8, lstatic.1@PAGEOFF
	add	x8, x8, x1, lsl #4
	mov	v0.d[1], v2.d[0]
	ldur	q1, [x8, #-128]
	adrp	x8, lCPI67_0@PAGE
	tbl	v1.16b, { v0.16b }, v1.16b
	ldr	q0, [x8, lCPI67_0@PAGEOFF]
	cmlt	v3.16b, v1.16b, #0
	and	v3.16b, v3.16b, v0.16b
	addp	v3.16b, v3.16b, v3.16b
	addp	v3.16b, v3.16b, v3.16b
	addp	v3.16b, v3.16b, v3.16b
	umov	w8, v3.h[0]
	cbz	w8, LBB67_19
	adrp	x8, lCPI67_1@PAGE
	mov	x5, xzr
	ldr	d3, [x8, lCPI67_1@PAGEOFF]
	cmhi	v3.8b, v3.8b, v2.8b
	dup	v4.8b, v3.b[7]
	and	v3.8b, v4.8b, v3.8b
	umov	w8, v3.b[6]
	tbz	w8, #0, LBB67_13
	umov	w8, v2.b[5]
	mov	x4, x5
	and	w8, w8, #0xff
	cmp	w8, #239
	b.hi	LBB67_21
	adrp	x8, lstatic.2@PAGE
	add	x8, x8, lstatic.2@PAGEOFF
	movi	v4.2d, #0000000000000000
	sub	x8, x8, x1
	movi	v5.16b, #191
	movi	v6.16b, #223
	ldr	q2, [x8, #16]
	movi	v7.16b, #239
	movi	v17.16b, #144
	movi	v21.16b, #244
	movi	v22.16b, #160
	movi	v16.16b, #224
	umax	v2.16b, v1.16b, v2.16b
	movi	v23.16b, #237
	adrp	x8, lCPI67_2@PAGE
	movi	v26.16b, #254
	ext	v3.16b, v4.16b, v2.16b, #15
	cmhi	v24.16b, v17.16b, v2.16b
	cmhs	v17.16b, v2.16b, v17.16b
	cmhi	v27.16b, v22.16b, v2.16b
	ext	v1.16b, v4.16b, v3.16b, #15
	uqsub	v19.16b, v3.16b, v5.16b
	cmeq	v28.16b, v3.16b, v16.16b
	ext	v18.16b, v4.16b, v1.16b, #15
	movi	v4.16b, #240
	uqsub	v20.16b, v1.16b, v6.16b
	uqsub	v18.16b, v18.16b, v7.16b
	cmeq	v25.16b, v3.16b, v4.16b
	umax	v19.16b, v19.16b, v20.16b
	cmeq	v20.16b, v3.16b, v21.16b
	movi	v7.16b, #192
	and	v24.16b, v25.16b, v24.16b
	and	v25.16b, v2.16b, v26.16b
	orr	v18.16b, v19.16b, v18.16b
	and	v17.16b, v20.16b, v17.16b
	cmhs	v19.16b, v2.16b, v22.16b
	cmeq	v20.16b, v3.16b, v23.16b
	and	v22.16b, v28.16b, v27.16b
	cmgt	v23.16b, v7.16b, v2.16b
	cmeq	v18.16b, v18.16b, #0
	orr	v17.16b, v24.16b, v17.16b
	and	v19.16b, v20.16b, v19.16b
	cmhi	v20.16b, v2.16b, v21.16b
	cmeq	v21.16b, v25.16b, v7.16b
	eor	v18.16b, v18.16b, v23.16b
	orr	v19.16b, v22.16b, v19.16b
	orr	v17.16b, v20.16b, v17.16b
	ldr	q20, [x8, lCPI67_2@PAGEOFF]
	orn	v18.16b, v21.16b, v18.16b
	orr	v17.16b, v19.16b, v17.16b
	dup	v19.16b, w1
	orr	v17.16b, v17.16b, v18.16b
	cmhi	v18.16b, v19.16b, v20.16b
	and	v17.16b, v18.16b, v17.16b
	shl	v17.16b, v17.16b, #7
	cmlt	v17.16b, v17.16b, #0
	and	v17.16b, v17.16b, v0.16b
	addp	v17.16b, v17.16b, v17.16b
	addp	v17.16b, v17.16b, v17.16b
	addp	v17.16b, v17.16b, v17.16b
	umov	w8, v17.h[0]
	cbz	w8, LBB67_22
	mov	x5, xzr
	mov	x4, xzr
	mov	x0, x4
	mov	x1, x5
	.cfi_def_cfa wsp, 48
	ldp	x20, x19, [sp, #32]
	ldp	x22, x21, [sp, #16]
	ldp	x29, x30, [sp], #48
	.cfi_def_cfa_offset 0
	.cfi_restore w19
	.cfi_restore w20
	.cfi_restore w21
	.cfi_restore w22
	.cfi_restore w30
	.cfi_restore w29
	ret
LBB67_8:
	.cfi_restore_state
	.cfi_remember_state
	lsr	x8, x3, #1
	cmp	x8, x1
	csel	x4, x8, x1, lo
	cmp	x3, #32
	b.lo	LBB67_10
	ldr	q1, [x0]
	adrp	x8, lCPI67_0@PAGE
	ldr	q0, [x8, lCPI67_0@PAGEOFF]
	cmlt	v2.16b, v1.16b, #0
	and	v2.16b, v2.16b, v0.16b
	addp	v2.16b, v2.16b, v2.16b
	addp	v2.16b, v2.16b, v2.16b
	addp	v2.16b, v2.16b, v2.16b
	umov	w8, v2.h[0]
	cbz	w8, LBB67_16
LBB67_10:
	mov	x4, xzr
	lsl	x5, xzr, #1
	subs	x8, x1, xzr
	b.eq	LBB67_21
LBB67_11:
	cmp	x8, #191
	b.hi	LBB67_14
	.cfi_def_cfa wsp, 48
	ldp	x20, x19, [sp, #32]
	ldp	x22, x21, [sp, #16]
	ldp	x29, x30, [sp], #48
	.cfi_def_cfa_offset 0
	.cfi_restore w19
	.cfi_restore w20
	.cfi_restore w21
	.cfi_restore w22
	.cfi_restore w30
	.cfi_restore w29
	b	"_utf16_from_utf8::rest::write_rest::<#418c2b53cf60437c>"
LBB67_13:
	.cfi_restore_state
	.cfi_remember_state
	mov	x4, x5
	mov	x0, x4
	mov	x1, x5
	.cfi_def_cfa wsp, 48
	ldp	x20, x19, [sp, #32]
	ldp	x22, x21, [sp, #16]
	ldp	x29, x30, [sp], #48
	.cfi_def_cfa_offset 0
	.cfi_restore w19
	.cfi_restore w20
	.cfi_restore w21
	.cfi_restore w22
	.cfi_restore w30
	.cfi_restore w29
	ret
LBB67_14:
	.cfi_restore_state
	.cfi_remember_state
	mov	x21, x0
	mov	x22, x1
	mov	x19, x2
	mov	x20, x3
	bl	"_utf16_from_utf8::blocks::write_mixed_blocks::<#418c2b53cf60437c>"
	sub	x9, x22, x0
	mov	x4, x0
	mov	x5, x1
	cmp	x9, #191
	b.hi	LBB67_21
	mov	x0, x21
	mov	x1, x22
	mov	x2, x19
	mov	x3, x20
	.cfi_def_cfa wsp, 48
	ldp	x20, x19, [sp, #32]
	ldp	x22, x21, [sp, #16]
	ldp	x29, x30, [sp], #48
	.cfi_def_cfa_offset 0
	.cfi_restore w19
	.cfi_restore w20
	.cfi_restore w21
	.cfi_restore w22
	.cfi_restore w30
	.cfi_restore w29
	b	"_utf16_from_utf8::rest::write_rest::<#418c2b53cf60437c>"
LBB67_16:
	.cfi_restore_state
	.cfi_remember_state
	cmp	x4, #31
	b.hi	LBB67_20
	ushll	v2.8h, v1.8b, #0
	ushll2	v1.8h, v1.16b, #0
	sub	x8, x4, #16
	stp	q2, q1, [x2]
	ldr	q1, [x0, x8]
	cmlt	v2.16b, v1.16b, #0
	and	v0.16b, v2.16b, v0.16b
	addp	v0.16b, v0.16b, v0.16b
	addp	v0.16b, v0.16b, v0.16b
	addp	v0.16b, v0.16b, v0.16b
	umov	w9, v0.h[0]
	cbz	w9, LBB67_23
	mov	w4, #16
	lsl	x5, x4, #1
	subs	x8, x1, x4
	b.eq	LBB67_21
	b	LBB67_11
LBB67_19:
	ushll	v0.8h, v1.8b, #0
	ushll2	v1.8h, v1.16b, #0
	lsl	x5, x1, #1
	mov	x4, x1
	stp	q0, q1, [x2]
	mov	x0, x4
	mov	x1, x5
	.cfi_def_cfa wsp, 48
	ldp	x20, x19, [sp, #32]
	ldp	x22, x21, [sp, #16]
	ldp	x29, x30, [sp], #48
	.cfi_def_cfa_offset 0
	.cfi_restore w19
	.cfi_restore w20
	.cfi_restore w21
	.cfi_restore w22
	.cfi_restore w30
	.cfi_restore w29
	ret
LBB67_20:
	.cfi_restore_state
	.cfi_remember_state
	mov	x21, x1
	mov	x1, x4
	mov	x19, x0
	mov	x20, x2
	mov	x22, x3
	bl	"_utf16_from_utf8::ascii::write_front::<#418c2b53cf60437c>"
	mov	x3, x22
	mov	x2, x20
	mov	x1, x21
	mov	x4, x0
	mov	x0, x19
	lsl	x5, x4, #1
	subs	x8, x21, x4
	b.ne	LBB67_11
LBB67_21:
	mov	x0, x4
	mov	x1, x5
	.cfi_def_cfa wsp, 48
	ldp	x20, x19, [sp, #32]
	ldp	x22, x21, [sp, #16]
	ldp	x29, x30, [sp], #48
	.cfi_def_cfa_offset 0
	.cfi_restore w19
	.cfi_restore w20
	.cfi_restore w21
	.cfi_restore w22
	.cfi_restore w30
	.cfi_restore w29
	ret
LBB67_22:
	.cfi_restore_state
	.cfi_remember_state
	cmge	v17.16b, v2.16b, #0
	cmhi	v6.16b, v3.16b, v6.16b
	adrp	x10, lstatic.10@PAGE
	add	x10, x10, lstatic.10@PAGEOFF
	cmhi	v5.16b, v2.16b, v5.16b
	movi	v18.16b, #64
	shl	v19.16b, v3.16b, #2
	movi	v21.16b, #232
	mov	x4, x1
	bsl	v17.16b, v7.16b, v3.16b
	movi	v22.16b, #231
	movi	v23.16b, #220
	orr	v5.16b, v5.16b, v6.16b
	umax	v6.16b, v1.16b, v16.16b
	cmhi	v18.16b, v18.16b, v19.16b
	movi	v19.16b, #127
	umax	v16.16b, v17.16b, v1.16b
	bic	v0.16b, v0.16b, v5.16b
	ushr	v20.16b, v17.16b, #2
	bsl	v18.16b, v22.16b, v21.16b
	cmhi	v5.16b, v7.16b, v16.16b
	ushr	v16.16b, v2.16b, #4
	addp	v0.16b, v0.16b, v0.16b
	sli	v20.16b, v6.16b, #4
	and	v2.16b, v2.16b, v19.16b
	add	v6.16b, v18.16b, v1.16b
	cmhi	v1.16b, v4.16b, v1.16b
	sli	v16.16b, v3.16b, #2
	and	v5.16b, v5.16b, v23.16b
	shl	v3.16b, v17.16b, #6
	addp	v0.16b, v0.16b, v0.16b
	orr	v5.16b, v20.16b, v5.16b
	add	v2.16b, v3.16b, v2.16b
	mov	v3.16b, v1.16b
	add	v7.16b, v16.16b, v7.16b
	addp	v0.16b, v0.16b, v0.16b
	bsl	v3.16b, v5.16b, v6.16b
	bsl	v1.16b, v2.16b, v7.16b
	umov	w8, v0.h[0]
	zip1	v0.16b, v1.16b, v3.16b
	and	x9, x8, #0xff
	ubfx	x8, x8, #8, #8
	ldr	q2, [x10, x9, lsl #4]
	zip2	v1.16b, v1.16b, v3.16b
	fmov	d4, x8
	tbl	v0.16b, { v0.16b }, v2.16b
	fmov	d2, x9
	cnt	v4.8b, v4.8b
	cnt	v2.8b, v2.8b
	str	q0, [x2]
	ldr	q0, [x10, x8, lsl #4]
	fmov	w9, s4
	fmov	w8, s2
	tbl	v0.16b, { v1.16b }, v0.16b
	ubfiz	x10, x8, #1, #32
	add	x8, x8, x9
	lsl	x5, x8, #1
	str	q0, [x2, x10]
	mov	x0, x4
	mov	x1, x5
	.cfi_def_cfa wsp, 48
	ldp	x20, x19, [sp, #32]
	ldp	x22, x21, [sp, #16]
	ldp	x29, x30, [sp], #48
	.cfi_def_cfa_offset 0
	.cfi_restore w19
	.cfi_restore w20
	.cfi_restore w21
	.cfi_restore w22
	.cfi_restore w30
	.cfi_restore w29
	ret
LBB67_23:
	.cfi_restore_state
	ushll	v0.8h, v1.8b, #0
	ushll2	v1.8h, v1.16b, #0
	add	x8, x2, x8, lsl #1
	stp	q0, q1, [x8]
	lsl	x5, x4, #1
	subs	x8, x1, x4
	b.eq	LBB67_21
	b	LBB67_11
Lfunc_end67:
	.cfi_endproc

	.section	__TEXT,__text,regular,pure_instructions
	.p2align	2
"_utf16_transcode::transcoding::write_chars::<#58ba01604e1c9b81>":
	.cfi_startproc
	stp	x29, x30, [sp, #-64]!
	.cfi_def_cfa_offset 64
	str	x23, [sp, #16]
	stp	x22, x21, [sp, #32]
	stp	x20, x19, [sp, #48]
	mov	x29, sp
	.cfi_def_cfa w29, 64
	.cfi_offset w19, -8
	.cfi_offset w20, -16
	.cfi_offset w21, -24
	.cfi_offset w22, -32
	.cfi_offset w23, -48
	.cfi_offset w30, -56
	.cfi_offset w29, -64
	mov	x19, x3
	mov	x20, x2
	add	x2, x2, x4
	sub	x3, x3, x4
	mov	x23, x4
	mov	x21, x1
	mov	x22, x0
	bl	"_utf16_transcode::encode::FromUtf8Direction::begin::<#418c2b53cf60437c>"
	cmp	x0, x21
	add	x1, x1, x23
	b.hs	LBB68_40
	mov	w8, #57216
	movk	w8, #65521, lsl #16
	b	LBB68_3
LBB68_2:
	mov	w12, #67043328
	mov	w13, #-10240
	mov	w14, #56320
	add	w12, w9, w12
	bfxil	w14, w9, #0, #10
	add	w9, w13, w12, lsr #10
	mov	w12, #4
	strh	w14, [x11, #2]
	add	x0, x10, x0
	add	x1, x12, x1
	strh	w9, [x11]
	cmp	x0, x21
	b.hs	LBB68_40
LBB68_3:
	add	x10, x22, x0
	ldrsb	w11, [x10]
	and	w9, w11, #0xff
	tbnz	w11, #31, LBB68_8
	mov	w10, #1
LBB68_5:
	cmp	w9, #16, lsl #12
	mov	w11, #4
	mov	w12, #2
	sub	x13, x19, x1
	csel	x11, x12, x11, lo
	cmp	x13, x11
	b.lo	LBB68_40
	lsr	w12, w9, #16
	add	x11, x20, x1
	cbnz	w12, LBB68_2
	mov	w12, #2
	add	x0, x10, x0
	add	x1, x12, x1
	strh	w9, [x11]
	cmp	x0, x21
	b.lo	LBB68_3
	b	LBB68_40
LBB68_8:
	sub	x11, x21, x0
	cmp	x11, #3
	b.lo	LBB68_13
	add	w12, w9, #31
	and	w12, w12, #0xff
	cmp	w12, #11
	b.hi	LBB68_14
	ldrsb	w12, [x10, #1]
	cmn	w12, #65
	b.gt	LBB68_14
	ldrsb	w13, [x10, #2]
	cmn	w13, #65
	b.gt	LBB68_14
	add	w9, w8, w9, lsl #12
	and	w10, w12, #0xff
	add	w9, w9, w10, lsl #6
	and	w10, w13, #0xff
	add	w9, w9, w10
	mov	w10, #3
	b	LBB68_5
LBB68_13:
	cmp	x11, #2
	b.ne	LBB68_40
LBB68_14:
	lsr	w13, w9, #4
	ldrb	w12, [x10, #1]
	and	w13, w13, #0xc
	orr	w13, w13, w12, lsr #6
	cmp	w13, #14
	b.ne	LBB68_40
	add	w13, w9, #31
	and	w13, w13, #0xff
	cmp	w13, #12
	b.hs	LBB68_20
LBB68_16:
	cmp	x11, #2
	b.eq	LBB68_40
	ldrsb	w13, [x10, #2]
	cmn	w13, #65
	b.gt	LBB68_40
	cmp	w9, #239
	and	w13, w13, #0xff
	b.hi	LBB68_25
	add	w9, w8, w9, lsl #12
	mov	w10, #3
	add	w9, w9, w12, lsl #6
	add	w9, w9, w13
	b	LBB68_5
LBB68_20:
	add	w13, w9, #62
	and	w14, w13, #0xff
	cmp	w14, #30
	b.lo	LBB68_39
	cmp	w9, #239
	b.gt	LBB68_28
	cmp	w9, #224
	b.eq	LBB68_33
	cmp	w9, #237
	b.ne	LBB68_31
	mov	w14, #159
	b	LBB68_32
LBB68_25:
	cmp	x11, #4
	b.lo	LBB68_40
	ldrsb	w10, [x10, #3]
	cmn	w10, #65
	b.gt	LBB68_40
	lsl	w9, w9, #18
	mov	w11, #57216
	and	w10, w10, #0xff
	movk	w11, #64567, lsl #16
	add	w9, w9, w12, lsl #12
	add	w10, w10, w11
	add	w9, w9, w13, lsl #6
	add	w9, w9, w10
	mov	w10, #4
	b	LBB68_5
LBB68_28:
	cmp	w9, #240
	b.eq	LBB68_34
	cmp	w9, #244
	b.ne	LBB68_31
	mov	w14, #143
	b	LBB68_32
LBB68_31:
	mov	w14, #191
LBB68_32:
	mov	w15, #128
	b	LBB68_35
LBB68_33:
	mov	w14, #191
	mov	w15, #160
	b	LBB68_35
LBB68_34:
	mov	w14, #191
	mov	w15, #144
LBB68_35:
	and	w13, w13, #0xff
	cmp	w13, #50
	b.hi	LBB68_40
	cmp	w15, w12
	b.hi	LBB68_40
	cmp	w12, w14
	b.hi	LBB68_40
	cmp	w9, #223
	b.hi	LBB68_16
LBB68_39:
	add	w9, w12, w9, lsl #6
	mov	w10, #-12416
	add	w9, w9, w10
	mov	w10, #2
	b	LBB68_5
LBB68_40:
	.cfi_def_cfa wsp, 64
	ldp	x20, x19, [sp, #48]
	ldr	x23, [sp, #16]
	ldp	x22, x21, [sp, #32]
	ldp	x29, x30, [sp], #64
	.cfi_def_cfa_offset 0
	.cfi_restore w19
	.cfi_restore w20
	.cfi_restore w21
	.cfi_restore w22
	.cfi_restore w23
	.cfi_restore w30
	.cfi_restore w29
	ret
Lfunc_end68:
	.cfi_endproc

	.section	__TEXT,__literal16,16byte_literals
	.p2align	4, 0x0
lCPI69_0:
	.byte	1
	.byte	2
	.byte	4
	.byte	8
	.byte	16
	.byte	32
	.byte	64
	.byte	128
	.byte	1
	.byte	2
	.byte	4
	.byte	8
	.byte	16
	.byte	32
	.byte	64
	.byte	128
	.section	__TEXT,__text,regular,pure_instructions
	.p2align	2
"_utf16_transcode::transcoding::write_buffered_text::<#58ba01604e1c9b81>":
	.cfi_startproc
	sub	sp, sp, #112
	.cfi_def_cfa_offset 112
	stp	x29, x30, [sp, #32]
	stp	x26, x25, [sp, #48]
	stp	x24, x23, [sp, #64]
	stp	x22, x21, [sp, #80]
	stp	x20, x19, [sp, #96]
	add	x29, sp, #32
	.cfi_def_cfa w29, 80
	.cfi_offset w19, -8
	.cfi_offset w20, -16
	.cfi_offset w21, -24
	.cfi_offset w22, -32
	.cfi_offset w23, -40
	.cfi_offset w24, -48
	.cfi_offset w25, -56
	.cfi_offset w26, -64
	.cfi_offset w30, -72
	.cfi_offset w29, -80
	.cfi_remember_state
	movi	v0.2d, #0000000000000000
	mov	w8, #64
	cmp	x1, #64
	mov	x19, x5
	mov	x23, x4
	mov	x22, x3
	mov	x20, x2
	csel	x24, x1, x8, lo
	cmp	x1, #63
	mov	x25, x0
	b.hi	LBB69_3
	mov	x0, sp
	mov	x1, x25
	mov	x2, x24
	stp	q0, q0, [sp]
	bl	"_simdutf8::compat::from_utf8"
	ldrb	w8, [sp]
	mov	x21, x24
	cbz	w8, LBB69_8
	ldr	x21, [sp, #8]
	b	LBB69_5
LBB69_3:
	mov	x0, sp
	mov	x1, x25
	mov	w2, #63
	stp	q0, q0, [sp]
	mov	w26, #63
	bl	"_simdutf8::compat::from_utf8"
	ldrb	w8, [sp]
	ldr	x21, [sp, #8]
	cmp	w8, #0
	csel	x26, x26, x21, eq
	add	x8, x26, #4
	cmp	x8, #64
	b.lo	LBB69_5
	movi	v0.2d, #0000000000000000
	sub	x21, x24, x26
	mov	x0, sp
	add	x1, x25, x26
	mov	x2, x21
	stp	q0, q0, [sp]
	bl	"_simdutf8::compat::from_utf8"
	ldrb	w8, [sp]
	ldr	x9, [sp, #8]
	cmp	w8, #0
	csel	x8, x21, x9, eq
	add	x21, x8, x26
LBB69_5:
	cmp	x21, #7
	b.hi	LBB69_8
	mov	x24, xzr
	cbz	x21, LBB69_28
	mov	x8, x21
	b	LBB69_12
LBB69_8:
	lsl	x24, x21, #1
	cmp	x21, #16
	b.hi	LBB69_21
	add	x8, x25, x21
	ldr	d0, [x25]
	ldur	d1, [x8, #-8]
	adrp	x8, lstatic.1@PAGE
	add	x8, x8, lstatic.1@PAGEOFF
	add	x8, x8, x21, lsl #4
	mov	v0.d[1], v1.d[0]
	ldur	q1, [x8, #-128]
	adrp	x8, lCPI69_0@PAGE
	tbl	v1.16b, { v0.16b }, v1.16b
	ldr	q0, [x8, lCPI69_0@PAGEOFF]
	cmlt	v2.16b, v1.16b, #0
	and	v2.16b, v2.16b, v0.16b
	addp	v2.16b, v2.16b, v2.16b
	addp	v2.16b, v2.16b, v2.16b
	addp	v2.16b, v2.16b, v2.16b
	umov	w8, v2.h[0]
	cbz	w8, LBB69_29
	adrp	x8, lstatic.2@PAGE
	add	x8, x8, lstatic.2@PAGEOFF
	movi	v3.2d, #0000000000000000
	sub	x8, x8, x21
	movi	v6.16b, #223
	movi	v7.16b, #191
	ldr	q2, [x8, #16]
	movi	v16.16b, #224
	movi	v17.16b, #64
	movi	v20.16b, #232
	movi	v21.16b, #231
	movi	v22.16b, #220
	umax	v2.16b, v1.16b, v2.16b
	movi	v1.16b, #192
	adrp	x10, lstatic.10@PAGE
	add	x10, x10, lstatic.10@PAGEOFF
	ext	v4.16b, v3.16b, v2.16b, #15
	cmge	v5.16b, v2.16b, #0
	cmhi	v7.16b, v2.16b, v7.16b
	ext	v3.16b, v3.16b, v4.16b, #15
	bsl	v5.16b, v1.16b, v4.16b
	cmhi	v6.16b, v4.16b, v6.16b
	shl	v18.16b, v4.16b, #2
	orr	v6.16b, v7.16b, v6.16b
	umax	v7.16b, v3.16b, v16.16b
	umax	v16.16b, v5.16b, v3.16b
	cmhi	v17.16b, v17.16b, v18.16b
	ushr	v19.16b, v5.16b, #2
	movi	v18.16b, #127
	shl	v5.16b, v5.16b, #6
	bic	v0.16b, v0.16b, v6.16b
	cmhi	v6.16b, v1.16b, v16.16b
	ushr	v16.16b, v2.16b, #4
	bsl	v17.16b, v21.16b, v20.16b
	sli	v19.16b, v7.16b, #4
	addp	v0.16b, v0.16b, v0.16b
	and	v2.16b, v2.16b, v18.16b
	sli	v16.16b, v4.16b, #2
	movi	v4.16b, #240
	and	v6.16b, v6.16b, v22.16b
	add	v7.16b, v17.16b, v3.16b
	addp	v0.16b, v0.16b, v0.16b
	add	v2.16b, v5.16b, v2.16b
	orr	v6.16b, v19.16b, v6.16b
	cmhi	v3.16b, v4.16b, v3.16b
	add	v1.16b, v16.16b, v1.16b
	addp	v0.16b, v0.16b, v0.16b
	mov	v4.16b, v3.16b
	bit	v1.16b, v2.16b, v3.16b
	umov	w8, v0.h[0]
	bsl	v4.16b, v6.16b, v7.16b
	and	x9, x8, #0xff
	ubfx	x8, x8, #8, #8
	ldr	q2, [x10, x9, lsl #4]
	zip1	v0.16b, v1.16b, v4.16b
	fmov	d3, x8
	zip2	v1.16b, v1.16b, v4.16b
	cnt	v3.8b, v3.8b
	tbl	v0.16b, { v0.16b }, v2.16b
	fmov	d2, x9
	cnt	v2.8b, v2.8b
	fmov	w9, s3
	str	q0, [x20]
	ldr	q0, [x10, x8, lsl #4]
	fmov	w8, s2
	tbl	v0.16b, { v1.16b }, v0.16b
	ubfiz	x10, x8, #1, #32
	add	x8, x8, x9
	lsl	x24, x8, #1
	str	q0, [x20, x10]
	b	LBB69_30
LBB69_11:
	mov	w12, #67043328
	mov	w13, #-10240
	add	w9, w9, w12
	mov	w12, #56320
	add	w9, w13, w9, lsr #10
	orr	w11, w11, w12
	strh	w11, [x10, #2]
	strh	w9, [x10]
	mov	w9, #4
	add	x24, x9, x24
	cbz	x8, LBB69_30
LBB69_12:
	ldrsb	w10, [x25]
	and	w9, w10, #0xff
	tbnz	w10, #31, LBB69_14
	mov	w11, #1
	b	LBB69_18
LBB69_14:
	ldrb	w10, [x25, #1]
	cmp	w9, #223
	and	w10, w10, #0x3f
	b.hi	LBB69_16
	bfi	w10, w9, #6, #5
	mov	w11, #2
	mov	w9, w10
	b	LBB69_18
LBB69_16:
	ldrb	w11, [x25, #2]
	cmp	w9, #239
	and	w11, w11, #0x3f
	b.hi	LBB69_20
	ubfiz	w9, w9, #12, #4
	orr	w9, w9, w10, lsl #6
	orr	w9, w9, w11
	mov	w11, #3
LBB69_18:
	add	x25, x25, x11
	sub	x8, x8, x11
	add	x10, x20, x24
LBB69_19:
	strh	w9, [x10]
	mov	w9, #2
	add	x24, x9, x24
	cbnz	x8, LBB69_12
	b	LBB69_30
LBB69_20:
	ldrb	w12, [x25, #3]
	ubfiz	w9, w9, #18, #3
	add	x25, x25, #4
	sub	x8, x8, #4
	and	w12, w12, #0x3f
	orr	w9, w9, w10, lsl #12
	add	x10, x20, x24
	orr	w11, w12, w11, lsl #6
	lsr	w12, w9, #16
	orr	w9, w11, w9
	cbz	w12, LBB69_19
	b	LBB69_11
LBB69_21:
	add	x26, x24, #16
	lsr	x8, x26, #1
	cmp	x8, x21
	csel	x4, x8, x21, lo
	cmp	x26, #32
	b.lo	LBB69_23
	ldr	q1, [x25]
	adrp	x8, lCPI69_0@PAGE
	ldr	q0, [x8, lCPI69_0@PAGEOFF]
	cmlt	v2.16b, v1.16b, #0
	and	v2.16b, v2.16b, v0.16b
	addp	v2.16b, v2.16b, v2.16b
	addp	v2.16b, v2.16b, v2.16b
	addp	v2.16b, v2.16b, v2.16b
	umov	w8, v2.h[0]
	cbz	w8, LBB69_39
LBB69_23:
	mov	x24, xzr
	mov	x4, xzr
LBB69_24:
	sub	x8, x21, x4
	cmp	x8, #191
	b.ls	LBB69_27
	mov	x0, x25
	mov	x1, x21
	mov	x2, x20
	mov	x3, x26
	mov	x5, x24
	bl	"_utf16_from_utf8::blocks::write_mixed_blocks::<#418c2b53cf60437c>"
	sub	x8, x21, x0
	mov	x24, x1
	cmp	x8, #191
	b.hi	LBB69_30
	mov	x4, x0
LBB69_27:
	mov	x0, x25
	mov	x1, x21
	mov	x2, x20
	mov	x3, x26
	mov	x5, x24
	bl	"_utf16_from_utf8::rest::write_rest::<#418c2b53cf60437c>"
	mov	x24, x1
	b	LBB69_30
LBB69_28:
	add	x0, x22, x19
	b	LBB69_36
LBB69_29:
	ushll	v0.8h, v1.8b, #0
	ushll2	v1.8h, v1.16b, #0
	stp	q0, q1, [x20]
LBB69_30:
	sub	x8, x23, x19
	cmp	x24, x8
	b.ls	LBB69_32
	orr	x9, x8, #0x1
	and	x8, x8, #0xfffffffffffffffe
	mov	x0, x20
	ldrb	w9, [x20, x9]
	sub	x10, x8, #2
	and	w9, w9, #0xfc
	cmp	w9, #220
	csel	x24, x10, x8, eq
	mov	x1, x24
	bl	"_utf16_to_utf8::lens::utf8_len::<#418c2b53cf60437c>"
	mov	x21, x0
LBB69_32:
	add	x0, x22, x19
	sub	x8, x0, x20
	cmp	x8, x24
	b.hs	LBB69_36
	cmp	x24, #8
	b.lo	LBB69_35
	add	x8, x19, x22
	sub	x8, x8, x20
	cmp	x8, #32
	b.hs	LBB69_37
LBB69_35:
	mov	x8, xzr
	b	LBB69_52
LBB69_36:
	mov	x1, x20
	mov	x2, x24
	bl	_memmove
	b	LBB69_50
LBB69_37:
	cmp	x24, #32
	b.hs	LBB69_42
	mov	x8, xzr
	b	LBB69_46
LBB69_39:
	cmp	x4, #31
	b.hi	LBB69_48
	ushll	v2.8h, v1.8b, #0
	ushll2	v1.8h, v1.16b, #0
	sub	x8, x4, #16
	stp	q2, q1, [x20]
	ldr	q1, [x25, x8]
	cmlt	v2.16b, v1.16b, #0
	and	v0.16b, v2.16b, v0.16b
	addp	v0.16b, v0.16b, v0.16b
	addp	v0.16b, v0.16b, v0.16b
	addp	v0.16b, v0.16b, v0.16b
	umov	w9, v0.h[0]
	cbz	w9, LBB69_49
	mov	w4, #16
	lsl	x24, x4, #1
	cmp	x4, x21
	b.ne	LBB69_24
	b	LBB69_30
LBB69_42:
	add	x11, x19, x22
	and	x9, x24, #0x18
	and	x8, x24, #0xffffffffffffffe0
	add	x10, x20, #16
	add	x11, x11, #16
	and	x12, x24, #0xffffffffffffffe0
LBB69_43:
	ldp	q0, q1, [x10, #-16]
	subs	x12, x12, #32
	add	x10, x10, #32
	stp	q0, q1, [x11, #-16]
	add	x11, x11, #32
	b.ne	LBB69_43
	cmp	x24, x8
	b.eq	LBB69_50
	cbz	x9, LBB69_52
LBB69_46:
	mov	x10, x8
	and	x8, x24, #0xfffffffffffffff8
	add	x11, x10, x19
	sub	x9, x10, x8
	add	x10, x20, x10
	add	x11, x22, x11
LBB69_47:
	ldr	d0, [x10], #8
	adds	x9, x9, #8
	str	d0, [x11], #8
	b.ne	LBB69_47
	b	LBB69_51
LBB69_48:
	mov	x0, x25
	mov	x1, x4
	mov	x2, x20
	bl	"_utf16_from_utf8::ascii::write_front::<#418c2b53cf60437c>"
	mov	x4, x0
	lsl	x24, x0, #1
	cmp	x0, x21
	b.ne	LBB69_24
	b	LBB69_30
LBB69_49:
	ushll	v0.8h, v1.8b, #0
	ushll2	v1.8h, v1.16b, #0
	add	x8, x20, x8, lsl #1
	stp	q0, q1, [x8]
	lsl	x24, x4, #1
	cmp	x4, x21
	b.ne	LBB69_24
	b	LBB69_30
LBB69_50:
	add	x1, x24, x19
	mov	x0, x21
	.cfi_def_cfa wsp, 112
	ldp	x20, x19, [sp, #96]
	ldp	x22, x21, [sp, #80]
	ldp	x24, x23, [sp, #64]
	ldp	x26, x25, [sp, #48]
	ldp	x29, x30, [sp, #32]
	add	sp, sp, #112
	.cfi_def_cfa_offset 0
	.cfi_restore w19
	.cfi_restore w20
	.cfi_restore w21
	.cfi_restore w22
	.cfi_restore w23
	.cfi_restore w24
	.cfi_restore w25
	.cfi_restore w26
	.cfi_restore w30
	.cfi_restore w29
	ret
LBB69_51:
	.cfi_restore_state
	cmp	x24, x8
	b.eq	LBB69_50
LBB69_52:
	ldrb	w9, [x20, x8]
	strb	w9, [x0, x8]
	add	x8, x8, #1
	b	LBB69_51
Lfunc_end69:
	.cfi_endproc

	.section	__TEXT,__literal16,16byte_literals
	.p2align	4, 0x0
lCPI70_0:
	.byte	1
	.byte	2
	.byte	4
	.byte	8
	.byte	16
	.byte	32
	.byte	64
	.byte	128
	.byte	1
	.byte	2
	.byte	4
	.byte	8
	.byte	16
	.byte	32
	.byte	64
	.byte	128
	.section	__TEXT,__text,regular,pure_instructions
	.p2align	2
"_utf16_transcode::encode_lossy::write_replacement_and_more::<#418c2b53cf60437c>":
	.cfi_startproc
	stp	x29, x30, [sp, #-96]!
	.cfi_def_cfa_offset 96
	str	x27, [sp, #16]
	stp	x26, x25, [sp, #32]
	stp	x24, x23, [sp, #48]
	stp	x22, x21, [sp, #64]
	stp	x20, x19, [sp, #80]
	mov	x29, sp
	.cfi_def_cfa w29, 96
	.cfi_offset w19, -8
	.cfi_offset w20, -16
	.cfi_offset w21, -24
	.cfi_offset w22, -32
	.cfi_offset w23, -40
	.cfi_offset w24, -48
	.cfi_offset w25, -56
	.cfi_offset w26, -64
	.cfi_offset w27, -80
	.cfi_offset w30, -88
	.cfi_offset w29, -96
	mov	x21, x3
	mov	w8, #65533
	add	x23, x0, x2
	sub	x24, x1, x2
	sub	x25, x4, #2
	mov	x19, x2
	strh	w8, [x21], #2
	mov	x0, x23
	mov	x1, x24
	mov	x2, x21
	mov	x3, x25
	bl	"_utf16_transcode::items::write_items::<#418c2b53cf60437c>"
	sub	x26, x24, x0
	mov	x20, x0
	mov	x22, x1
	cmp	x26, #64
	b.lo	LBB70_10
LBB70_1:
	sub	x27, x25, x22
	cmp	x27, #128
	b.lo	LBB70_10
	ldr	q0, [x23, x20]
	adrp	x8, lCPI70_0@PAGE
	ldr	q1, [x8, lCPI70_0@PAGEOFF]
	cmlt	v0.16b, v0.16b, #0
	and	v0.16b, v0.16b, v1.16b
	addp	v0.16b, v0.16b, v0.16b
	addp	v0.16b, v0.16b, v0.16b
	addp	v0.16b, v0.16b, v0.16b
	umov	w8, v0.h[0]
	cbz	w8, LBB70_4
	mov	x4, xzr
	sub	x8, x26, xzr
	lsl	x5, xzr, #1
	cmp	x8, #64
	b.hs	LBB70_5
	b	LBB70_7
LBB70_4:
	lsr	x8, x27, #1
	add	x0, x23, x20
	add	x2, x21, x22
	cmp	x8, x26
	csel	x1, x8, x26, lo
	bl	"_utf16_from_utf8::ascii::write_front::<#418c2b53cf60437c>"
	mov	x4, x0
	sub	x8, x26, x0
	lsl	x5, x0, #1
	cmp	x8, #64
	b.lo	LBB70_7
LBB70_5:
	sub	x8, x27, x5
	cmp	x8, #128
	b.lo	LBB70_7
	add	x0, x23, x20
	add	x2, x21, x22
	sub	x3, x25, x22
	mov	x1, x26
	bl	"_utf16_from_utf8::blocks::write_mixed_blocks::<#418c2b53cf60437c>"
	mov	x4, x0
	mov	x5, x1
LBB70_7:
	add	x20, x4, x20
	add	x22, x5, x22
	sub	x8, x24, x20
	cmp	x8, #4
	b.lo	LBB70_10
	sub	x8, x25, x22
	cmp	x8, #4
	b.lo	LBB70_10
	add	x0, x23, x20
	sub	x1, x24, x20
	add	x2, x21, x22
	sub	x3, x25, x22
	bl	"_utf16_transcode::items::write_items::<#418c2b53cf60437c>"
	add	x20, x0, x20
	add	x22, x1, x22
	sub	x26, x24, x20
	cmp	x26, #63
	b.hi	LBB70_1
LBB70_10:
	add	x0, x20, x19
	add	x1, x22, #2
	.cfi_def_cfa wsp, 96
	ldp	x20, x19, [sp, #80]
	ldr	x27, [sp, #16]
	ldp	x22, x21, [sp, #64]
	ldp	x24, x23, [sp, #48]
	ldp	x26, x25, [sp, #32]
	ldp	x29, x30, [sp], #96
	.cfi_def_cfa_offset 0
	.cfi_restore w19
	.cfi_restore w20
	.cfi_restore w21
	.cfi_restore w22
	.cfi_restore w23
	.cfi_restore w24
	.cfi_restore w25
	.cfi_restore w26
	.cfi_restore w27
	.cfi_restore w30
	.cfi_restore w29
	ret
Lfunc_end70:
	.cfi_endproc

	.section	__TEXT,__literal16,16byte_literals
	.p2align	4, 0x0
lCPI71_0:
	.byte	1
	.byte	2
	.byte	4
	.byte	8
	.byte	16
	.byte	32
	.byte	64
	.byte	128
	.byte	1
	.byte	2
	.byte	4
	.byte	8
	.byte	16
	.byte	32
	.byte	64
	.byte	128
	.section	__TEXT,__text,regular,pure_instructions
	.p2align	2
"_utf16_transcode::items::write_items::<#418c2b53cf60437c>":
	.cfi_startproc
	mov	x8, x1
	mov	x9, x0
	mov	x0, xzr
	mov	x1, xzr
	mov	x10, xzr
	b	LBB71_4
LBB71_1:
	and	w12, w13, #0xff
	mov	w14, #1
LBB71_2:
	strh	w12, [x11]
	add	x1, x1, #2
	add	x10, x10, #1
LBB71_3:
	cmp	x10, #16
	add	x0, x14, x0
	b.hs	LBB71_49
LBB71_4:
	sub	x13, x8, x0
	cmp	x13, #4
	b.lo	LBB71_49
	sub	x11, x3, x1
	cmp	x11, #4
	b.lo	LBB71_49
	cmp	x11, #32
	add	x12, x9, x0
	add	x11, x2, x1
	b.lo	LBB71_10
	cmp	x13, #15
	b.ls	LBB71_10
	ldr	q0, [x12]
	adrp	x13, lCPI71_0@PAGE
	ldr	q2, [x13, lCPI71_0@PAGEOFF]
	cmlt	v1.16b, v0.16b, #0
	and	v1.16b, v1.16b, v2.16b
	addp	v1.16b, v1.16b, v1.16b
	addp	v1.16b, v1.16b, v1.16b
	addp	v1.16b, v1.16b, v1.16b
	umov	w13, v1.h[0]
	orr	w13, w13, #0x10000
	rbit	w13, w13
	clz	w14, w13
	cmp	w14, #4
	b.hs	LBB71_15
	umov	w13, v0.b[0]
	tbz	w13, #7, LBB71_1
	b	LBB71_11
LBB71_10:
	ldrb	w13, [x12]
	tbz	w13, #7, LBB71_1
LBB71_11:
	and	w16, w13, #0xff
	cmp	w16, #225
	b.hs	LBB71_17
	lsr	w14, w13, #4
	ldrb	w15, [x12, #1]
	and	w14, w14, #0xc
	orr	w14, w14, w15, lsr #6
	cmp	w14, #14
	b.ne	LBB71_33
	add	w14, w13, #62
	and	w16, w14, #0xff
	cmp	w16, #30
	b.hs	LBB71_23
LBB71_14:
	and	w12, w13, #0xff
	mov	w13, #-12416
	mov	w14, #2
	lsl	w12, w12, #6
	add	w12, w12, w15, uxtb
	add	w12, w12, w13
	b	LBB71_2
LBB71_15:
	movi	v1.16b, #127
	ubfiz	x12, x14, #1, #32
	and	v0.16b, v0.16b, v1.16b
	ushll	v1.8h, v0.8b, #0
	ushll2	v0.8h, v0.16b, #0
	stp	q1, q0, [x11]
	mov	w11, #2
LBB71_16:
	add	x1, x12, x1
	add	x10, x11, x10
	b	LBB71_3
LBB71_17:
	ldrb	w14, [x12, #1]
	cmp	w16, #236
	sxtb	w15, w14
	b.hi	LBB71_21
	cmn	w15, #65
	b.gt	LBB71_33
	ldrsb	w16, [x12, #2]
	cmn	w16, #65
	b.gt	LBB71_39
	lsl	w12, w13, #12
	and	w13, w16, #0xff
	add	w12, w12, w14, lsl #6
	mov	w14, #-8320
	add	w13, w13, w14
	mov	w14, #3
	add	w12, w12, w13
	b	LBB71_2
LBB71_21:
	cmn	w15, #65
	b.gt	LBB71_33
	add	w14, w13, #62
LBB71_23:
	and	w16, w13, #0xff
	cmp	w16, #239
	b.gt	LBB71_27
	cmp	w16, #224
	b.eq	LBB71_32
	cmp	w16, #237
	b.ne	LBB71_30
	mov	w16, #159
	b	LBB71_31
LBB71_27:
	cmp	w16, #240
	b.eq	LBB71_35
	cmp	w16, #244
	b.ne	LBB71_30
	mov	w16, #143
	b	LBB71_31
LBB71_30:
	mov	w16, #191
LBB71_31:
	mov	w17, #128
	and	w14, w14, #0xff
	cmp	w14, #50
	b.hi	LBB71_33
	b	LBB71_36
LBB71_32:
	mov	w16, #191
	mov	w17, #160
	and	w14, w14, #0xff
	cmp	w14, #50
	b.ls	LBB71_36
LBB71_33:
	mov	w14, #1
LBB71_34:
	mov	w12, #65533
	mov	x10, xzr
	add	x1, x1, #2
	strh	w12, [x11]
	b	LBB71_3
LBB71_35:
	mov	w16, #191
	mov	w17, #144
	and	w14, w14, #0xff
	cmp	w14, #50
	b.hi	LBB71_33
LBB71_36:
	cmp	w17, w15, uxtb
	mov	w14, #1
	b.hi	LBB71_34
	cmp	w16, w15, uxtb
	b.lo	LBB71_34
	and	w14, w13, #0xff
	cmp	w14, #223
	b.ls	LBB71_14
LBB71_39:
	ldrsb	w14, [x12, #2]
	cmn	w14, #65
	b.gt	LBB71_43
	and	w16, w13, #0xff
	and	w14, w14, #0xff
	cmp	w16, #239
	b.hi	LBB71_44
	lsl	w12, w16, #12
	and	w13, w15, #0xff
	add	w12, w12, w13, lsl #6
	mov	w13, #57216
	movk	w13, #65521, lsl #16
	add	w13, w14, w13
	mov	w14, #3
	add	w12, w12, w13
LBB71_42:
	mov	w13, #65533
	strh	w12, [x11]
	add	x1, x1, #2
	cmp	w12, w13
	csinc	x10, xzr, x10, eq
	b	LBB71_3
LBB71_43:
	mov	w14, #2
	b	LBB71_34
LBB71_44:
	ldrsb	w12, [x12, #3]
	cmn	w12, #65
	b.gt	LBB71_47
	and	w13, w13, #0xff
	and	w15, w15, #0xff
	and	w12, w12, #0xff
	lsl	w13, w13, #18
	add	w13, w13, w15, lsl #12
	add	w13, w13, w14, lsl #6
	mov	w14, #57216
	movk	w14, #64567, lsl #16
	add	w12, w12, w14
	add	w12, w13, w12
	cmp	w12, #16, lsl #12
	b.hs	LBB71_48
	mov	w14, #4
	b	LBB71_42
LBB71_47:
	mov	w14, #3
	b	LBB71_34
LBB71_48:
	mov	w13, #67043328
	mov	w14, #56320
	mov	w15, #-10240
	add	w13, w12, w13
	bfxil	w14, w12, #0, #10
	add	w12, w15, w13, lsr #10
	strh	w14, [x11, #2]
	mov	w14, #4
	strh	w12, [x11]
	mov	w11, #1
	mov	w12, #4
	b	LBB71_16
LBB71_49:
	ret
Lfunc_end71:
	.cfi_endproc

	.section	__TEXT,__literal16,16byte_literals
	.p2align	4, 0x0
lCPI72_0:
	.byte	1
	.byte	2
	.byte	4
	.byte	8
	.byte	16
	.byte	32
	.byte	64
	.byte	128
	.byte	1
	.byte	2
	.byte	4
	.byte	8
	.byte	16
	.byte	32
	.byte	64
	.byte	128
lCPI72_2:
	.hword	1
	.hword	2
	.hword	4
	.hword	8
	.hword	16
	.hword	32
	.hword	64
	.hword	128
	.section	__TEXT,__literal8,8byte_literals
	.p2align	3, 0x0
lCPI72_1:
	.byte	1
	.byte	2
	.byte	4
	.byte	8
	.byte	16
	.byte	32
	.byte	64
	.byte	128
	.section	__TEXT,__text,regular,pure_instructions
	.p2align	2
"_utf16_fixed::encode::from_utf32::<#8b18edd9dd9aa8df>":
	.cfi_startproc
	str	x19, [sp, #-16]!
	.cfi_def_cfa_offset 16
	.cfi_offset w19, -16
	.cfi_remember_state
	cbz	x2, LBB72_36
	mov	x8, xzr
	mov	x13, xzr
	add	x9, x1, #64
	add	x10, x3, #32
	sub	x11, x2, #8
	b	LBB72_3
LBB72_2:
	mov	w13, #67043328
	mov	w16, #56320
	mov	w17, #-10240
	add	w13, w12, w13
	bfxil	w16, w12, #0, #10
	add	w12, w17, w13, lsr #10
	rev16	w13, w16
	mov	w16, #4
	rev16	w12, w12
	strh	w13, [x15, #2]
	add	x13, x14, #1
	add	x8, x16, x8
	strh	w12, [x15]
	cmp	x13, x2
	b.hs	LBB72_37
LBB72_3:
	sub	x12, x4, x8
	sub	x14, x2, x13
	lsl	x16, x13, #2
	lsr	x12, x12, #1
	mov	x15, xzr
	cmp	x12, x14
	csel	x14, x12, x14, lo
	adrp	x12, lCPI72_0@PAGE
	cmp	x14, #32
	b.lo	LBB72_8
	add	x17, x9, x16
	add	x5, x10, x8
	mov	x6, x14
LBB72_5:
	ldp	q5, q0, [x17, #-48]
	ldur	q2, [x17, #-64]
	ldp	q3, q6, [x17]
	ldp	q4, q7, [x17, #32]
	uqxtn	v2.4h, v2.4s
	uqxtn	v1.4h, v0.4s
	uqxtn	v3.4h, v3.4s
	uqxtn	v0.4h, v4.4s
	ldur	q4, [x17, #-16]
	uqxtn2	v2.8h, v5.4s
	uqxtn2	v1.8h, v4.4s
	movi	v4.2d, #0xffffffffffffffff
	uqxtn2	v3.8h, v6.4s
	uqxtn2	v0.8h, v7.4s
	umax	v5.8h, v2.8h, v3.8h
	umax	v6.8h, v1.8h, v0.8h
	cmeq	v6.8h, v6.8h, v4.8h
	cmeq	v4.8h, v5.8h, v4.8h
	uzp1	v5.16b, v4.16b, v6.16b
	ldr	q4, [x12, lCPI72_0@PAGEOFF]
	and	v5.16b, v5.16b, v4.16b
	addp	v5.16b, v5.16b, v5.16b
	addp	v5.16b, v5.16b, v5.16b
	addp	v5.16b, v5.16b, v5.16b
	umov	w7, v5.h[0]
	cbnz	w7, LBB72_8
	movi	v5.8h, #40, lsl #8
	movi	v17.8h, #8, lsl #8
	add	v6.8h, v2.8h, v5.8h
	add	v7.8h, v1.8h, v5.8h
	add	v16.8h, v3.8h, v5.8h
	add	v5.8h, v0.8h, v5.8h
	umin	v6.8h, v6.8h, v16.8h
	umin	v5.8h, v7.8h, v5.8h
	cmhi	v6.8h, v17.8h, v6.8h
	cmhi	v5.8h, v17.8h, v5.8h
	uzp1	v5.16b, v6.16b, v5.16b
	and	v4.16b, v5.16b, v4.16b
	addp	v4.16b, v4.16b, v4.16b
	addp	v4.16b, v4.16b, v4.16b
	addp	v4.16b, v4.16b, v4.16b
	umov	w7, v4.h[0]
	cbnz	w7, LBB72_8
	rev16	v2.16b, v2.16b
	rev16	v1.16b, v1.16b
	sub	x6, x6, #32
	rev16	v3.16b, v3.16b
	rev16	v0.16b, v0.16b
	cmp	x6, #31
	add	x15, x15, #32
	add	x17, x17, #128
	stp	q2, q1, [x5, #-32]
	stp	q3, q0, [x5], #64
	b.hi	LBB72_5
LBB72_8:
	add	x16, x1, x16
	add	x17, x3, x8
LBB72_9:
	sub	x5, x14, x15
	cmp	x5, #8
	b.lo	LBB72_12
	add	x5, x16, x15, lsl #2
	movi	v4.2d, #0x00ffff0000ffff
	lsl	x6, x15, #1
	ldp	q1, q0, [x5]
	adrp	x5, lCPI72_1@PAGE
	uqxtn	v2.4h, v1.4s
	uqxtn	v3.4h, v0.4s
	cmhi	v1.4s, v1.4s, v4.4s
	cmhi	v4.4s, v0.4s, v4.4s
	ushr	v3.4h, v3.4h, #8
	ushr	v5.4h, v2.4h, #8
	uzp1	v1.8h, v1.8h, v4.8h
	movi	v4.8b, #216
	uqxtn2	v2.8h, v0.4s
	uzp1	v3.8b, v5.8b, v3.8b
	movi	v5.8b, #248
	xtn	v1.8b, v1.8h
	rev16	v0.16b, v2.16b
	and	v3.8b, v3.8b, v5.8b
	str	q0, [x17, x6]
	cmeq	v3.8b, v3.8b, v4.8b
	orr	v1.8b, v1.8b, v3.8b
	ldr	d3, [x5, lCPI72_1@PAGEOFF]
	and	v1.8b, v1.8b, v3.8b
	addv	b1, v1.8b
	fmov	w5, s1
	orr	w5, w5, #0x100
	rbit	w5, w5
	clz	w5, w5
	cmp	w5, #7
	add	x15, x15, x5
	b.hi	LBB72_9
	sub	x5, x14, x15
	cmp	x5, #7
	b.hi	LBB72_16
LBB72_12:
	cmp	x14, #7
	b.ls	LBB72_14
	sub	x14, x14, #8
	movi	v4.2d, #0x00ffff0000ffff
	add	x15, x16, x14, lsl #2
	lsl	x16, x14, #1
	ldp	q1, q0, [x15]
	adrp	x15, lCPI72_1@PAGE
	uqxtn	v2.4h, v1.4s
	uqxtn	v3.4h, v0.4s
	cmhi	v1.4s, v1.4s, v4.4s
	cmhi	v4.4s, v0.4s, v4.4s
	ushr	v3.4h, v3.4h, #8
	ushr	v5.4h, v2.4h, #8
	uzp1	v1.8h, v1.8h, v4.8h
	movi	v4.8b, #216
	uqxtn2	v2.8h, v0.4s
	uzp1	v3.8b, v5.8b, v3.8b
	movi	v5.8b, #248
	xtn	v1.8b, v1.8h
	rev16	v0.16b, v2.16b
	and	v3.8b, v3.8b, v5.8b
	str	q0, [x17, x16]
	cmeq	v3.8b, v3.8b, v4.8b
	orr	v1.8b, v1.8b, v3.8b
	ldr	d3, [x15, lCPI72_1@PAGEOFF]
	and	v1.8b, v1.8b, v3.8b
	addv	b1, v1.8b
	fmov	w15, s1
	orr	w15, w15, #0x100
	rbit	w15, w15
	clz	w15, w15
	add	x15, x14, x15
	b	LBB72_16
LBB72_14:
	cmp	x14, x15
	b.ne	LBB72_31
LBB72_15:
	mov	x15, x14
LBB72_16:
	add	x14, x15, x13
	add	x8, x8, x15, lsl #1
	subs	x16, x2, x14
	b.ls	LBB72_25
	ldr	w17, [x1, x14, lsl #2]
	cmp	w17, #16, lsl #12
	b.lo	LBB72_25
	sub	x17, x4, x8
	cmp	x17, #32
	b.lo	LBB72_25
	cmp	x16, #8
	b.lo	LBB72_25
	add	x17, x1, x14, lsl #2
	sub	x15, x11, x15
	mov	x16, xzr
	sub	x13, x15, x13
LBB72_21:
	cmp	x16, #4
	b.eq	LBB72_25
	movi	v2.4s, #16, msl #16
	adrp	x15, lCPI72_2@PAGE
	ldp	q1, q0, [x17], #32
	cmhi	v3.4s, v0.4s, v2.4s
	cmhi	v2.4s, v1.4s, v2.4s
	uzp1	v2.8h, v2.8h, v3.8h
	ldr	q3, [x15, lCPI72_2@PAGEOFF]
	and	v2.16b, v2.16b, v3.16b
	addv	h2, v2.8h
	fmov	w15, s2
	and	w15, w15, #0xff
	cbnz	w15, LBB72_25
	mvni	v2.4s, #7, msl #8
	movi	v3.4s, #216, lsl #8
	and	v4.16b, v0.16b, v2.16b
	and	v2.16b, v1.16b, v2.16b
	cmeq	v2.4s, v2.4s, v3.4s
	cmeq	v3.4s, v4.4s, v3.4s
	uzp1	v2.8h, v2.8h, v3.8h
	umaxv	h2, v2.8h
	fmov	w15, s2
	tbnz	w15, #0, LBB72_25
	movi	v2.2d, #0x00ffff0000ffff
	movi	v3.8h, #1
	mov	w15, #55296
	movk	w15, #56320, lsl #16
	shl	v16.4s, v0.4s, #16
	adrp	x6, lstatic.10@PAGE
	add	x6, x6, lstatic.10@PAGEOFF
	add	x19, x3, x8
	add	x14, x14, #8
	cmhi	v4.4s, v0.4s, v2.4s
	cmhi	v2.4s, v1.4s, v2.4s
	bic	v16.4s, #252, lsl #24
	and	v5.16b, v4.16b, v3.16b
	mvn	v6.16b, v4.16b
	and	v3.16b, v2.16b, v3.16b
	mvn	v7.16b, v2.16b
	sub	v5.4s, v5.4s, v6.4s
	movi	v6.2d, #0xffff0000ffff0000
	sub	v3.4s, v3.4s, v7.4s
	shl	v7.4s, v1.4s, #16
	cmeq	v5.8h, v5.8h, #0
	cmeq	v3.8h, v3.8h, #0
	bic	v7.4s, #252, lsl #24
	uzp1	v3.16b, v3.16b, v5.16b
	ldr	q5, [x12, lCPI72_0@PAGEOFF]
	bic	v3.16b, v5.16b, v3.16b
	add	v5.4s, v1.4s, v6.4s
	add	v6.4s, v0.4s, v6.4s
	addp	v3.16b, v3.16b, v3.16b
	usra	v7.4s, v5.4s, #10
	dup	v5.4s, w15
	usra	v16.4s, v6.4s, #10
	addp	v3.16b, v3.16b, v3.16b
	add	v7.4s, v7.4s, v5.4s
	addp	v3.16b, v3.16b, v3.16b
	bit	v1.16b, v7.16b, v2.16b
	add	v2.4s, v16.4s, v5.4s
	umov	w15, v3.h[0]
	bit	v0.16b, v2.16b, v4.16b
	rev16	v1.16b, v1.16b
	ubfx	x5, x15, #8, #8
	and	x15, x15, #0xff
	rev16	v0.16b, v0.16b
	fmov	d3, x15
	ldr	q6, [x6, x15, lsl #4]
	fmov	d5, x5
	tbl	v1.16b, { v1.16b }, v6.16b
	cnt	v3.8b, v3.8b
	cnt	v5.8b, v5.8b
	str	q1, [x19]
	fmov	w15, s3
	ldr	q1, [x6, x5, lsl #4]
	fmov	w7, s5
	tbl	v0.16b, { v0.16b }, v1.16b
	add	x5, x15, x7
	ubfiz	x15, x15, #1, #32
	add	x8, x8, x5, lsl #1
	cmp	x5, #8
	csinc	x16, xzr, x16, ne
	str	q0, [x19, x15]
	sub	x5, x4, x8
	cmp	x5, #32
	ccmp	x13, #7, #0, hs
	sub	x13, x13, #8
	b.hi	LBB72_21
LBB72_25:
	cmp	x14, x2
	b.eq	LBB72_38
	ldr	w12, [x1, x14, lsl #2]
	lsr	w13, w12, #11
	cmp	w13, #27
	b.lo	LBB72_28
	sub	w13, w12, #14, lsl #12
	lsr	w13, w13, #13
	cmp	w13, #128
	b.hi	LBB72_39
LBB72_28:
	cmp	w12, #16, lsl #12
	mov	w13, #4
	mov	w15, #2
	sub	x16, x4, x8
	csel	x13, x15, x13, lo
	cmp	x16, x13
	b.lo	LBB72_40
	lsr	w13, w12, #16
	add	x15, x3, x8
	cbnz	w13, LBB72_2
	rev16	w12, w12
	mov	w16, #2
	add	x13, x14, #1
	add	x8, x16, x8
	strh	w12, [x15]
	cmp	x13, x2
	b.lo	LBB72_3
	b	LBB72_37
LBB72_31:
	add	x17, x8, x15, lsl #1
	add	x17, x3, x17
	b	LBB72_33
LBB72_32:
	ldrh	w5, [sp, #12]
	add	x15, x15, #1
	strh	w5, [x17], #2
	cmp	x14, x15
	b.eq	LBB72_15
LBB72_33:
	ldr	w5, [x16, x15, lsl #2]
	lsr	w6, w5, #16
	and	w7, w5, #0xf800
	cmp	w6, #0
	mov	w6, #55296
	ccmp	w7, w6, #4, eq
	b.eq	LBB72_16
	rev	w6, w5
	add	x7, sp, #12
	lsr	w6, w6, #16
	sub	x7, x17, x7
	cmp	x7, #1
	strh	w6, [sp, #12]
	b.ls	LBB72_32
	rev16	w5, w5
	add	x15, x15, #1
	strh	w5, [x17], #2
	cmp	x14, x15
	b.ne	LBB72_33
	b	LBB72_15
LBB72_36:
	mov	x13, xzr
	mov	x8, xzr
LBB72_37:
	stp	x13, x8, [x0]
	strh	wzr, [x0, #16]
	ldr	x19, [sp], #16
	.cfi_def_cfa_offset 0
	.cfi_restore w19
	ret
LBB72_38:
	.cfi_restore_state
	.cfi_remember_state
	stp	x2, x8, [x0]
	strh	wzr, [x0, #16]
	ldr	x19, [sp], #16
	.cfi_def_cfa_offset 0
	.cfi_restore w19
	ret
LBB72_39:
	.cfi_restore_state
	.cfi_remember_state
	mov	w10, #1
	mov	w9, #1
	stp	x14, x8, [x0]
	strb	w10, [x0, #16]
	strb	w9, [x0, #17]
	ldr	x19, [sp], #16
	.cfi_def_cfa_offset 0
	.cfi_restore w19
	ret
LBB72_40:
	.cfi_restore_state
	mov	w10, #3
	stp	x14, x8, [x0]
	strb	w10, [x0, #16]
	strb	wzr, [x0, #17]
	ldr	x19, [sp], #16
	.cfi_def_cfa_offset 0
	.cfi_restore w19
	ret
Lfunc_end72:
	.cfi_endproc

	.section	__TEXT,__literal16,16byte_literals
	.p2align	4, 0x0
lCPI73_0:
	.byte	1
	.byte	2
	.byte	4
	.byte	8
	.byte	16
	.byte	32
	.byte	64
	.byte	128
	.byte	1
	.byte	2
	.byte	4
	.byte	8
	.byte	16
	.byte	32
	.byte	64
	.byte	128
lCPI73_2:
	.hword	1
	.hword	2
	.hword	4
	.hword	8
	.hword	16
	.hword	32
	.hword	64
	.hword	128
	.section	__TEXT,__literal8,8byte_literals
	.p2align	3, 0x0
lCPI73_1:
	.byte	1
	.byte	2
	.byte	4
	.byte	8
	.byte	16
	.byte	32
	.byte	64
	.byte	128
	.section	__TEXT,__text,regular,pure_instructions
	.p2align	2
"_utf16_fixed::encode::from_utf32::<#418c2b53cf60437c>":
	.cfi_startproc
	str	x19, [sp, #-16]!
	.cfi_def_cfa_offset 16
	.cfi_offset w19, -16
	.cfi_remember_state
	cbz	x2, LBB73_36
	mov	x8, xzr
	mov	x13, xzr
	add	x9, x1, #64
	add	x10, x3, #32
	sub	x11, x2, #8
	b	LBB73_3
LBB73_2:
	mov	w13, #67043328
	mov	w16, #-10240
	mov	w17, #56320
	add	w13, w12, w13
	bfxil	w17, w12, #0, #10
	add	w12, w16, w13, lsr #10
	mov	w16, #4
	strh	w17, [x15, #2]
	add	x13, x14, #1
	add	x8, x16, x8
	strh	w12, [x15]
	cmp	x13, x2
	b.hs	LBB73_37
LBB73_3:
	sub	x12, x4, x8
	sub	x14, x2, x13
	lsl	x16, x13, #2
	lsr	x12, x12, #1
	mov	x15, xzr
	cmp	x12, x14
	csel	x14, x12, x14, lo
	adrp	x12, lCPI73_0@PAGE
	cmp	x14, #32
	b.lo	LBB73_8
	add	x17, x9, x16
	add	x5, x10, x8
	mov	x6, x14
LBB73_5:
	ldp	q4, q6, [x17]
	ldur	q0, [x17, #-32]
	ldp	q5, q7, [x17, #32]
	ldur	q2, [x17, #-64]
	uqxtn	v1.4h, v0.4s
	uqxtn	v3.4h, v2.4s
	uqxtn	v2.4h, v4.4s
	ldur	q4, [x17, #-16]
	uqxtn	v0.4h, v5.4s
	ldur	q5, [x17, #-48]
	uqxtn2	v1.8h, v4.4s
	movi	v4.2d, #0xffffffffffffffff
	uqxtn2	v3.8h, v5.4s
	uqxtn2	v2.8h, v6.4s
	uqxtn2	v0.8h, v7.4s
	umax	v5.8h, v3.8h, v2.8h
	umax	v6.8h, v1.8h, v0.8h
	cmeq	v6.8h, v6.8h, v4.8h
	cmeq	v4.8h, v5.8h, v4.8h
	uzp1	v5.16b, v4.16b, v6.16b
	ldr	q4, [x12, lCPI73_0@PAGEOFF]
	and	v5.16b, v5.16b, v4.16b
	addp	v5.16b, v5.16b, v5.16b
	addp	v5.16b, v5.16b, v5.16b
	addp	v5.16b, v5.16b, v5.16b
	umov	w7, v5.h[0]
	cbnz	w7, LBB73_8
	movi	v5.8h, #40, lsl #8
	movi	v17.8h, #8, lsl #8
	add	v6.8h, v3.8h, v5.8h
	add	v7.8h, v1.8h, v5.8h
	add	v16.8h, v2.8h, v5.8h
	add	v5.8h, v0.8h, v5.8h
	umin	v6.8h, v6.8h, v16.8h
	umin	v5.8h, v7.8h, v5.8h
	cmhi	v6.8h, v17.8h, v6.8h
	cmhi	v5.8h, v17.8h, v5.8h
	uzp1	v5.16b, v6.16b, v5.16b
	and	v4.16b, v5.16b, v4.16b
	addp	v4.16b, v4.16b, v4.16b
	addp	v4.16b, v4.16b, v4.16b
	addp	v4.16b, v4.16b, v4.16b
	umov	w7, v4.h[0]
	cbnz	w7, LBB73_8
	sub	x6, x6, #32
	add	x15, x15, #32
	add	x17, x17, #128
	cmp	x6, #31
	stp	q3, q1, [x5, #-32]
	stp	q2, q0, [x5], #64
	b.hi	LBB73_5
LBB73_8:
	add	x16, x1, x16
	add	x17, x3, x8
LBB73_9:
	sub	x5, x14, x15
	cmp	x5, #8
	b.lo	LBB73_12
	add	x5, x16, x15, lsl #2
	movi	v4.2d, #0x00ffff0000ffff
	lsl	x6, x15, #1
	ldp	q1, q0, [x5]
	adrp	x5, lCPI73_1@PAGE
	uqxtn	v2.4h, v1.4s
	uqxtn	v3.4h, v0.4s
	cmhi	v1.4s, v1.4s, v4.4s
	cmhi	v4.4s, v0.4s, v4.4s
	ushr	v3.4h, v3.4h, #8
	ushr	v5.4h, v2.4h, #8
	uzp1	v1.8h, v1.8h, v4.8h
	movi	v4.8b, #216
	uqxtn2	v2.8h, v0.4s
	uzp1	v3.8b, v5.8b, v3.8b
	movi	v5.8b, #248
	xtn	v1.8b, v1.8h
	str	q2, [x17, x6]
	and	v3.8b, v3.8b, v5.8b
	cmeq	v3.8b, v3.8b, v4.8b
	orr	v1.8b, v1.8b, v3.8b
	ldr	d3, [x5, lCPI73_1@PAGEOFF]
	and	v1.8b, v1.8b, v3.8b
	addv	b1, v1.8b
	fmov	w5, s1
	orr	w5, w5, #0x100
	rbit	w5, w5
	clz	w5, w5
	cmp	w5, #7
	add	x15, x15, x5
	b.hi	LBB73_9
	sub	x5, x14, x15
	cmp	x5, #7
	b.hi	LBB73_16
LBB73_12:
	cmp	x14, #7
	b.ls	LBB73_14
	sub	x14, x14, #8
	movi	v4.2d, #0x00ffff0000ffff
	add	x15, x16, x14, lsl #2
	lsl	x16, x14, #1
	ldp	q1, q0, [x15]
	adrp	x15, lCPI73_1@PAGE
	uqxtn	v2.4h, v1.4s
	uqxtn	v3.4h, v0.4s
	cmhi	v1.4s, v1.4s, v4.4s
	cmhi	v4.4s, v0.4s, v4.4s
	ushr	v3.4h, v3.4h, #8
	ushr	v5.4h, v2.4h, #8
	uzp1	v1.8h, v1.8h, v4.8h
	movi	v4.8b, #216
	uqxtn2	v2.8h, v0.4s
	uzp1	v3.8b, v5.8b, v3.8b
	movi	v5.8b, #248
	xtn	v1.8b, v1.8h
	str	q2, [x17, x16]
	and	v3.8b, v3.8b, v5.8b
	cmeq	v3.8b, v3.8b, v4.8b
	orr	v1.8b, v1.8b, v3.8b
	ldr	d3, [x15, lCPI73_1@PAGEOFF]
	and	v1.8b, v1.8b, v3.8b
	addv	b1, v1.8b
	fmov	w15, s1
	orr	w15, w15, #0x100
	rbit	w15, w15
	clz	w15, w15
	add	x15, x14, x15
	b	LBB73_16
LBB73_14:
	cmp	x14, x15
	b.ne	LBB73_31
LBB73_15:
	mov	x15, x14
LBB73_16:
	add	x14, x15, x13
	add	x8, x8, x15, lsl #1
	subs	x16, x2, x14
	b.ls	LBB73_25
	ldr	w17, [x1, x14, lsl #2]
	cmp	w17, #16, lsl #12
	b.lo	LBB73_25
	sub	x17, x4, x8
	cmp	x17, #32
	b.lo	LBB73_25
	cmp	x16, #8
	b.lo	LBB73_25
	add	x17, x1, x14, lsl #2
	sub	x15, x11, x15
	mov	x16, xzr
	sub	x13, x15, x13
LBB73_21:
	cmp	x16, #4
	b.eq	LBB73_25
	movi	v2.4s, #16, msl #16
	adrp	x15, lCPI73_2@PAGE
	ldp	q1, q0, [x17], #32
	cmhi	v3.4s, v0.4s, v2.4s
	cmhi	v2.4s, v1.4s, v2.4s
	uzp1	v2.8h, v2.8h, v3.8h
	ldr	q3, [x15, lCPI73_2@PAGEOFF]
	and	v2.16b, v2.16b, v3.16b
	addv	h2, v2.8h
	fmov	w15, s2
	and	w15, w15, #0xff
	cbnz	w15, LBB73_25
	mvni	v2.4s, #7, msl #8
	movi	v3.4s, #216, lsl #8
	and	v4.16b, v0.16b, v2.16b
	and	v2.16b, v1.16b, v2.16b
	cmeq	v2.4s, v2.4s, v3.4s
	cmeq	v3.4s, v4.4s, v3.4s
	uzp1	v2.8h, v2.8h, v3.8h
	umaxv	h2, v2.8h
	fmov	w15, s2
	tbnz	w15, #0, LBB73_25
	movi	v2.2d, #0x00ffff0000ffff
	movi	v3.8h, #1
	mov	w15, #55296
	movk	w15, #56320, lsl #16
	adrp	x6, lstatic.10@PAGE
	add	x6, x6, lstatic.10@PAGEOFF
	add	x19, x3, x8
	add	x14, x14, #8
	cmhi	v4.4s, v0.4s, v2.4s
	cmhi	v2.4s, v1.4s, v2.4s
	and	v5.16b, v4.16b, v3.16b
	mvn	v6.16b, v4.16b
	and	v3.16b, v2.16b, v3.16b
	mvn	v7.16b, v2.16b
	sub	v5.4s, v5.4s, v6.4s
	shl	v6.4s, v1.4s, #16
	sub	v3.4s, v3.4s, v7.4s
	cmeq	v5.8h, v5.8h, #0
	bic	v6.4s, #252, lsl #24
	cmeq	v3.8h, v3.8h, #0
	uzp1	v3.16b, v3.16b, v5.16b
	ldr	q5, [x12, lCPI73_0@PAGEOFF]
	bic	v3.16b, v5.16b, v3.16b
	movi	v5.2d, #0xffff0000ffff0000
	addp	v3.16b, v3.16b, v3.16b
	add	v7.4s, v1.4s, v5.4s
	add	v5.4s, v0.4s, v5.4s
	addp	v3.16b, v3.16b, v3.16b
	usra	v6.4s, v7.4s, #10
	dup	v7.4s, w15
	addp	v3.16b, v3.16b, v3.16b
	add	v6.4s, v6.4s, v7.4s
	umov	w15, v3.h[0]
	shl	v3.4s, v0.4s, #16
	bit	v1.16b, v6.16b, v2.16b
	bic	v3.4s, #252, lsl #24
	ubfx	x5, x15, #8, #8
	and	x15, x15, #0xff
	fmov	d2, x15
	ldr	q6, [x6, x15, lsl #4]
	usra	v3.4s, v5.4s, #10
	fmov	d5, x5
	tbl	v1.16b, { v1.16b }, v6.16b
	cnt	v2.8b, v2.8b
	cnt	v5.8b, v5.8b
	add	v3.4s, v3.4s, v7.4s
	str	q1, [x19]
	fmov	w15, s2
	bit	v0.16b, v3.16b, v4.16b
	ldr	q1, [x6, x5, lsl #4]
	fmov	w7, s5
	add	x5, x15, x7
	tbl	v0.16b, { v0.16b }, v1.16b
	ubfiz	x15, x15, #1, #32
	add	x8, x8, x5, lsl #1
	cmp	x5, #8
	csinc	x16, xzr, x16, ne
	sub	x5, x4, x8
	str	q0, [x19, x15]
	cmp	x5, #32
	ccmp	x13, #7, #0, hs
	sub	x13, x13, #8
	b.hi	LBB73_21
LBB73_25:
	cmp	x14, x2
	b.eq	LBB73_38
	ldr	w12, [x1, x14, lsl #2]
	lsr	w13, w12, #11
	cmp	w13, #27
	b.lo	LBB73_28
	sub	w13, w12, #14, lsl #12
	lsr	w13, w13, #13
	cmp	w13, #128
	b.hi	LBB73_39
LBB73_28:
	cmp	w12, #16, lsl #12
	mov	w13, #4
	mov	w15, #2
	sub	x16, x4, x8
	csel	x13, x15, x13, lo
	cmp	x16, x13
	b.lo	LBB73_40
	lsr	w13, w12, #16
	add	x15, x3, x8
	cbnz	w13, LBB73_2
	mov	w16, #2
	add	x13, x14, #1
	add	x8, x16, x8
	strh	w12, [x15]
	cmp	x13, x2
	b.lo	LBB73_3
	b	LBB73_37
LBB73_31:
	add	x17, x8, x15, lsl #1
	add	x17, x3, x17
	b	LBB73_33
LBB73_32:
	add	x15, x15, #1
	strh	w5, [x17], #2
	cmp	x14, x15
	b.eq	LBB73_15
LBB73_33:
	ldr	w5, [x16, x15, lsl #2]
	lsr	w6, w5, #16
	and	w7, w5, #0xf800
	cmp	w6, #0
	mov	w6, #55296
	ccmp	w7, w6, #4, eq
	b.eq	LBB73_16
	add	x6, sp, #12
	strh	w5, [sp, #12]
	sub	x6, x17, x6
	cmp	x6, #1
	b.hi	LBB73_32
	ldrh	w5, [sp, #12]
	b	LBB73_32
LBB73_36:
	mov	x13, xzr
	mov	x8, xzr
LBB73_37:
	stp	x13, x8, [x0]
	strh	wzr, [x0, #16]
	ldr	x19, [sp], #16
	.cfi_def_cfa_offset 0
	.cfi_restore w19
	ret
LBB73_38:
	.cfi_restore_state
	.cfi_remember_state
	stp	x2, x8, [x0]
	strh	wzr, [x0, #16]
	ldr	x19, [sp], #16
	.cfi_def_cfa_offset 0
	.cfi_restore w19
	ret
LBB73_39:
	.cfi_restore_state
	.cfi_remember_state
	mov	w10, #1
	mov	w9, #1
	stp	x14, x8, [x0]
	strb	w10, [x0, #16]
	strb	w9, [x0, #17]
	ldr	x19, [sp], #16
	.cfi_def_cfa_offset 0
	.cfi_restore w19
	ret
LBB73_40:
	.cfi_restore_state
	mov	w10, #3
	stp	x14, x8, [x0]
	strb	w10, [x0, #16]
	strb	wzr, [x0, #17]
	ldr	x19, [sp], #16
	.cfi_def_cfa_offset 0
	.cfi_restore w19
	ret
Lfunc_end73:
	.cfi_endproc

	.section	__TEXT,__text,regular,pure_instructions
	.p2align	2
"_utf16_wtf8::encode::transcode_wtf8::<#8b18edd9dd9aa8df>":
	.cfi_startproc
	sub	sp, sp, #128
	.cfi_def_cfa_offset 128
	stp	x29, x30, [sp, #32]
	str	x27, [sp, #48]
	stp	x26, x25, [sp, #64]
	stp	x24, x23, [sp, #80]
	stp	x22, x21, [sp, #96]
	stp	x20, x19, [sp, #112]
	add	x29, sp, #32
	.cfi_def_cfa w29, 96
	.cfi_offset w19, -8
	.cfi_offset w20, -16
	.cfi_offset w21, -24
	.cfi_offset w22, -32
	.cfi_offset w23, -40
	.cfi_offset w24, -48
	.cfi_offset w25, -56
	.cfi_offset w26, -64
	.cfi_offset w27, -80
	.cfi_offset w30, -88
	.cfi_offset w29, -96
	.cfi_remember_state
	mov	x20, x4
	mov	x21, x3
	mov	x22, x2
	mov	x23, x1
	mov	x19, x0
	mov	w25, wzr
	mov	x24, xzr
	mov	x26, xzr
LBB74_1:
	add	x0, x23, x26
	sub	x1, x22, x26
	add	x2, x21, x24
	sub	x3, x20, x24
	stp	xzr, xzr, [sp, #8]
	sub	x27, x22, x26
	str	xzr, [sp, #24]
	bl	"_utf16_transcode::encode::FromUtf8Direction::begin::<#8b18edd9dd9aa8df>"
	cmp	x0, x27
	mov	x6, x1
	b.ne	LBB74_3
	mov	w11, wzr
	mov	w12, wzr
	b	LBB74_4
LBB74_3:
	mov	x5, x0
	add	x0, sp, #8
	add	x1, x23, x26
	sub	x2, x22, x26
	add	x3, x21, x24
	sub	x4, x20, x24
	bl	"_utf16_transcode::transcoding::transcode_many::<#824f73f0383279b7>"
	ldp	x27, x6, [sp, #8]
	ldrb	w11, [sp, #24]
	ldrb	w12, [sp, #25]
LBB74_4:
	add	x8, x27, x26
	cmp	x27, #0
	add	x9, x6, x24
	sub	x14, x22, x8
	cset	w10, eq
	cmp	x14, #2
	and	w10, w25, w10
	b.lo	LBB74_12
	add	x15, x23, x8
	ldrb	w13, [x15]
	cmp	w13, #237
	b.ne	LBB74_12
	ldrb	w13, [x15, #1]
	and	w16, w13, #0xe0
	cmp	w16, #160
	b.ne	LBB74_12
	cmp	x14, #2
	b.eq	LBB74_13
	ldrsb	w12, [x15, #2]
	cmn	w12, #65
	b.gt	LBB74_14
	mov	w14, #-12288
	mov	w15, #-9216
	bfi	w14, w13, #6, #6
	and	w11, w14, #0xfffffc3f
	cmp	w11, w15
	csel	w15, wzr, w10, ne
	tbnz	w15, #0, LBB74_15
	sub	x15, x20, x9
	cmp	x15, #2
	b.lo	LBB74_19
	ubfiz	w10, w13, #6, #6
	mov	w13, #57088
	and	w12, w12, #0x3f
	and	w13, w14, w13
	add	x24, x9, #2
	add	x26, x8, #3
	orr	w10, w12, w10
	bfxil	w13, w10, #0, #8
	mov	w10, #55296
	cmp	w10, w11, uxth
	rev16	w10, w13
	strh	w10, [x21, x9]
	cset	w25, eq
	b	LBB74_1
LBB74_12:
	stp	x8, x9, [x19]
	strb	w11, [x19, #16]
	strb	w12, [x19, #17]
	b	LBB74_17
LBB74_13:
	mov	w11, wzr
	mov	w12, #2
	b	LBB74_16
LBB74_14:
	mov	w12, #1
	mov	w11, #2
	b	LBB74_16
LBB74_15:
	mov	w10, #1
	mov	w11, #3
	mov	w12, #1
LBB74_16:
	stp	x8, x9, [x19]
	strb	w12, [x19, #16]
	strb	w11, [x19, #17]
LBB74_17:
	stur	wzr, [x19, #18]
	strh	wzr, [x19, #22]
LBB74_18:
	strb	w10, [x19, #24]
	stur	wzr, [x19, #25]
	str	wzr, [x19, #28]
	.cfi_def_cfa wsp, 128
	ldp	x20, x19, [sp, #112]
	ldr	x27, [sp, #48]
	ldp	x22, x21, [sp, #96]
	ldp	x24, x23, [sp, #80]
	ldp	x26, x25, [sp, #64]
	ldp	x29, x30, [sp, #32]
	add	sp, sp, #128
	.cfi_def_cfa_offset 0
	.cfi_restore w19
	.cfi_restore w20
	.cfi_restore w21
	.cfi_restore w22
	.cfi_restore w23
	.cfi_restore w24
	.cfi_restore w25
	.cfi_restore w26
	.cfi_restore w27
	.cfi_restore w30
	.cfi_restore w29
	ret
LBB74_19:
	.cfi_restore_state
	stp	x8, x9, [x19]
	mov	w8, #3
	strb	w8, [x19, #16]
	stur	wzr, [x19, #17]
	str	wzr, [x19, #20]
	b	LBB74_18
Lfunc_end74:
	.cfi_endproc

	.section	__TEXT,__text,regular,pure_instructions
	.p2align	2
"_utf16_wtf8::encode::transcode_wtf8::<#418c2b53cf60437c>":
	.cfi_startproc
	sub	sp, sp, #128
	.cfi_def_cfa_offset 128
	stp	x29, x30, [sp, #32]
	str	x27, [sp, #48]
	stp	x26, x25, [sp, #64]
	stp	x24, x23, [sp, #80]
	stp	x22, x21, [sp, #96]
	stp	x20, x19, [sp, #112]
	add	x29, sp, #32
	.cfi_def_cfa w29, 96
	.cfi_offset w19, -8
	.cfi_offset w20, -16
	.cfi_offset w21, -24
	.cfi_offset w22, -32
	.cfi_offset w23, -40
	.cfi_offset w24, -48
	.cfi_offset w25, -56
	.cfi_offset w26, -64
	.cfi_offset w27, -80
	.cfi_offset w30, -88
	.cfi_offset w29, -96
	.cfi_remember_state
	mov	x20, x4
	mov	x21, x3
	mov	x22, x2
	mov	x23, x1
	mov	x19, x0
	mov	w25, wzr
	mov	x24, xzr
	mov	x26, xzr
LBB75_1:
	add	x0, x23, x26
	sub	x1, x22, x26
	add	x2, x21, x24
	sub	x3, x20, x24
	stp	xzr, xzr, [sp, #8]
	sub	x27, x22, x26
	str	xzr, [sp, #24]
	bl	"_utf16_transcode::encode::FromUtf8Direction::begin::<#418c2b53cf60437c>"
	cmp	x0, x27
	mov	x6, x1
	b.ne	LBB75_3
	mov	w11, wzr
	mov	w12, wzr
	b	LBB75_4
LBB75_3:
	mov	x5, x0
	add	x0, sp, #8
	add	x1, x23, x26
	sub	x2, x22, x26
	add	x3, x21, x24
	sub	x4, x20, x24
	bl	"_utf16_transcode::transcoding::transcode_many::<#58ba01604e1c9b81>"
	ldp	x27, x6, [sp, #8]
	ldrb	w11, [sp, #24]
	ldrb	w12, [sp, #25]
LBB75_4:
	add	x8, x27, x26
	cmp	x27, #0
	add	x9, x6, x24
	sub	x14, x22, x8
	cset	w10, eq
	cmp	x14, #2
	and	w10, w25, w10
	b.lo	LBB75_12
	add	x15, x23, x8
	ldrb	w13, [x15]
	cmp	w13, #237
	b.ne	LBB75_12
	ldrb	w13, [x15, #1]
	and	w16, w13, #0xe0
	cmp	w16, #160
	b.ne	LBB75_12
	cmp	x14, #2
	b.eq	LBB75_13
	ldrsb	w12, [x15, #2]
	cmn	w12, #65
	b.gt	LBB75_14
	mov	w14, #-12288
	mov	w15, #-9216
	bfi	w14, w13, #6, #6
	and	w11, w14, #0xfffffc3f
	cmp	w11, w15
	csel	w15, wzr, w10, ne
	tbnz	w15, #0, LBB75_15
	sub	x15, x20, x9
	cmp	x15, #2
	b.lo	LBB75_19
	ubfiz	w10, w13, #6, #6
	mov	w13, #57088
	and	w12, w12, #0x3f
	and	w13, w14, w13
	add	x24, x9, #2
	add	x26, x8, #3
	orr	w10, w12, w10
	mov	w12, #55296
	bfxil	w13, w10, #0, #8
	cmp	w12, w11, uxth
	strh	w13, [x21, x9]
	cset	w25, eq
	b	LBB75_1
LBB75_12:
	stp	x8, x9, [x19]
	strb	w11, [x19, #16]
	strb	w12, [x19, #17]
	b	LBB75_17
LBB75_13:
	mov	w11, wzr
	mov	w12, #2
	b	LBB75_16
LBB75_14:
	mov	w12, #1
	mov	w11, #2
	b	LBB75_16
LBB75_15:
	mov	w10, #1
	mov	w11, #3
	mov	w12, #1
LBB75_16:
	stp	x8, x9, [x19]
	strb	w12, [x19, #16]
	strb	w11, [x19, #17]
LBB75_17:
	stur	wzr, [x19, #18]
	strh	wzr, [x19, #22]
LBB75_18:
	strb	w10, [x19, #24]
	stur	wzr, [x19, #25]
	str	wzr, [x19, #28]
	.cfi_def_cfa wsp, 128
	ldp	x20, x19, [sp, #112]
	ldr	x27, [sp, #48]
	ldp	x22, x21, [sp, #96]
	ldp	x24, x23, [sp, #80]
	ldp	x26, x25, [sp, #64]
	ldp	x29, x30, [sp, #32]
	add	sp, sp, #128
	.cfi_def_cfa_offset 0
	.cfi_restore w19
	.cfi_restore w20
	.cfi_restore w21
	.cfi_restore w22
	.cfi_restore w23
	.cfi_restore w24
	.cfi_restore w25
	.cfi_restore w26
	.cfi_restore w27
	.cfi_restore w30
	.cfi_restore w29
	ret
LBB75_19:
	.cfi_restore_state
	stp	x8, x9, [x19]
	mov	w8, #3
	strb	w8, [x19, #16]
	stur	wzr, [x19, #17]
	str	wzr, [x19, #20]
	b	LBB75_18
Lfunc_end75:
	.cfi_endproc

	.section	__TEXT,__literal16,16byte_literals
	.p2align	4, 0x0
lCPI76_0:
	.byte	1
	.byte	2
	.byte	4
	.byte	8
	.byte	16
	.byte	32
	.byte	64
	.byte	128
	.byte	1
	.byte	2
	.byte	4
	.byte	8
	.byte	16
	.byte	32
	.byte	64
	.byte	128
lCPI76_2:
	.hword	1
	.hword	2
	.hword	4
	.hword	8
	.hword	16
	.hword	32
	.hword	64
	.hword	128
	.section	__TEXT,__literal8,8byte_literals
	.p2align	3, 0x0
lCPI76_1:
	.byte	1
	.byte	2
	.byte	4
	.byte	8
	.byte	16
	.byte	32
	.byte	64
	.byte	128
	.section	__TEXT,__text,regular,pure_instructions
	.p2align	2
"_utf16_fixed::decode::to_utf32::<#8b18edd9dd9aa8df>":
	.cfi_startproc
	sub	sp, sp, #112
	.cfi_def_cfa_offset 112
	stp	x29, x30, [sp, #16]
	stp	x28, x27, [sp, #32]
	stp	x26, x25, [sp, #48]
	stp	x24, x23, [sp, #64]
	stp	x22, x21, [sp, #80]
	stp	x20, x19, [sp, #96]
	add	x29, sp, #16
	.cfi_def_cfa w29, 96
	.cfi_offset w19, -8
	.cfi_offset w20, -16
	.cfi_offset w21, -24
	.cfi_offset w22, -32
	.cfi_offset w23, -40
	.cfi_offset w24, -48
	.cfi_offset w25, -56
	.cfi_offset w26, -64
	.cfi_offset w27, -72
	.cfi_offset w28, -80
	.cfi_offset w30, -88
	.cfi_offset w29, -96
	mov	x19, x0
	cbz	x2, LBB76_39
	mov	x27, x4
	mov	x22, x3
	mov	x21, x2
	mov	x23, x1
	mov	x20, xzr
	mov	x24, xzr
	add	x25, x3, #64
	add	x26, x1, #1
	sub	x28, x4, #8
LBB76_2:
	sub	x8, x21, x24
	cmp	x8, #2
	b.lo	LBB76_11
	ldrb	w9, [x23, x24]
	and	w9, w9, #0xf8
	cmp	w9, #216
	b.ne	LBB76_11
	cmp	x8, #32
	b.lo	LBB76_27
	sub	x8, x27, x20
	cmp	x8, #8
	b.lo	LBB76_27
	add	x8, x22, x20, lsl #2
	sub	x9, x21, #32
	neg	x10, x20
	sub	x9, x9, x24
LBB76_7:
	add	x11, x23, x24
	movi	v3.4s, #252, lsl #8
	movi	v6.4s, #3, msl #8
	ldp	q1, q0, [x11]
	mov	w11, #10240
	movk	w11, #9215, lsl #16
	mov	w12, #256
	dup	v2.4s, w11
	adrp	x11, lCPI76_2@PAGE
	rev16	v0.16b, v0.16b
	rev16	v1.16b, v1.16b
	add	v0.4s, v0.4s, v2.4s
	add	v1.4s, v1.4s, v2.4s
	ushr	v2.4s, v0.4s, #16
	ushr	v4.4s, v1.4s, #16
	and	v5.16b, v0.16b, v3.16b
	and	v3.16b, v1.16b, v3.16b
	orr	v2.16b, v5.16b, v2.16b
	movi	v5.4s, #1, lsl #16
	orr	v3.16b, v3.16b, v4.16b
	shl	v4.4s, v0.4s, #10
	cmhi	v2.4s, v2.4s, v6.4s
	cmhi	v3.4s, v3.4s, v6.4s
	bic	v4.4s, #252, lsl #24
	uzp1	v2.8h, v3.8h, v2.8h
	ldr	q3, [x11, lCPI76_2@PAGEOFF]
	usra	v4.4s, v0.4s, #16
	add	v0.4s, v4.4s, v5.4s
	and	v2.16b, v2.16b, v3.16b
	shl	v3.4s, v1.4s, #10
	addv	h2, v2.8h
	bic	v3.4s, #252, lsl #24
	fmov	w11, s2
	usra	v3.4s, v1.4s, #16
	bfxil	w12, w11, #0, #8
	add	v1.4s, v3.4s, v5.4s
	rbit	w11, w12
	stp	q1, q0, [x8], #32
	clz	w11, w11
	cmp	w11, #7
	b.ls	LBB76_37
	subs	x9, x9, #32
	add	x24, x24, #32
	sub	x11, x10, #8
	b.lo	LBB76_10
	add	x10, x28, x10
	cmp	x10, #7
	mov	x10, x11
	b.hi	LBB76_7
LBB76_10:
	neg	x20, x11
	subs	x10, x21, x24
	b.ne	LBB76_28
	b	LBB76_38
LBB76_11:
	lsr	x8, x8, #1
	sub	x9, x27, x20
	lsl	x11, x20, #2
	add	x10, x23, x24
	cmp	x9, x8
	csel	x8, x9, x8, lo
	mov	x9, xzr
	cmp	x8, #32
	b.lo	LBB76_15
	add	x12, x25, x11
	add	x13, x23, x24
	mov	x14, x8
LBB76_13:
	ldp	q1, q0, [x13, #32]
	movi	v4.8h, #248, lsl #8
	ldp	q3, q2, [x13], #64
	movi	v5.8h, #216, lsl #8
	adrp	x15, lCPI76_0@PAGE
	rev16	v0.16b, v0.16b
	rev16	v1.16b, v1.16b
	rev16	v2.16b, v2.16b
	rev16	v3.16b, v3.16b
	and	v6.16b, v0.16b, v4.16b
	and	v7.16b, v3.16b, v4.16b
	and	v16.16b, v2.16b, v4.16b
	and	v4.16b, v1.16b, v4.16b
	cmeq	v6.8h, v6.8h, v5.8h
	cmeq	v4.8h, v4.8h, v5.8h
	cmeq	v16.8h, v16.8h, v5.8h
	cmeq	v5.8h, v7.8h, v5.8h
	uzp1	v4.16b, v4.16b, v6.16b
	uzp1	v5.16b, v5.16b, v16.16b
	ldr	q6, [x15, lCPI76_0@PAGEOFF]
	and	v5.16b, v5.16b, v6.16b
	and	v4.16b, v4.16b, v6.16b
	addp	v4.16b, v5.16b, v4.16b
	addp	v4.16b, v4.16b, v4.16b
	addp	v4.16b, v4.16b, v4.16b
	fmov	w15, s4
	cbnz	w15, LBB76_15
	ushll	v4.4s, v3.4h, #0
	ushll2	v3.4s, v3.8h, #0
	sub	x14, x14, #32
	ushll	v5.4s, v2.4h, #0
	ushll2	v2.4s, v2.8h, #0
	add	x9, x9, #32
	cmp	x14, #31
	stp	q4, q3, [x12, #-64]
	ushll	v3.4s, v1.4h, #0
	ushll2	v1.4s, v1.8h, #0
	ushll	v4.4s, v0.4h, #0
	ushll2	v0.4s, v0.8h, #0
	stp	q5, q2, [x12, #-32]
	stp	q3, q1, [x12]
	stp	q4, q0, [x12, #32]
	add	x12, x12, #128
	b.hi	LBB76_13
LBB76_15:
	add	x11, x22, x11
LBB76_16:
	sub	x12, x8, x9
	cmp	x12, #8
	b.lo	LBB76_19
	lsl	x12, x9, #1
	movi	v1.8b, #248
	movi	v3.8b, #216
	add	x13, x11, x9, lsl #2
	ldr	q0, [x10, x12]
	adrp	x12, lCPI76_1@PAGE
	rev16	v0.16b, v0.16b
	shrn	v2.8b, v0.8h, #8
	and	v1.8b, v2.8b, v1.8b
	ldr	d2, [x12, lCPI76_1@PAGEOFF]
	cmeq	v1.8b, v1.8b, v3.8b
	and	v1.8b, v1.8b, v2.8b
	addv	b1, v1.8b
	fmov	w12, s1
	ushll	v1.4s, v0.4h, #0
	ushll2	v0.4s, v0.8h, #0
	orr	w12, w12, #0x100
	stp	q1, q0, [x13]
	rbit	w12, w12
	clz	w12, w12
	cmp	w12, #7
	add	x9, x9, x12
	b.hi	LBB76_16
	sub	x12, x8, x9
	cmp	x12, #7
	b.hi	LBB76_26
LBB76_19:
	cmp	x8, #7
	b.ls	LBB76_21
	sub	x9, x8, #8
	movi	v1.8b, #248
	movi	v3.8b, #216
	lsl	x12, x9, #1
	add	x8, x11, x8, lsl #2
	ldr	q0, [x10, x12]
	adrp	x10, lCPI76_1@PAGE
	lsl	x12, x9, #2
	rev16	v0.16b, v0.16b
	shrn	v2.8b, v0.8h, #8
	and	v1.8b, v2.8b, v1.8b
	ldr	d2, [x10, lCPI76_1@PAGEOFF]
	cmeq	v1.8b, v1.8b, v3.8b
	and	v1.8b, v1.8b, v2.8b
	addv	b1, v1.8b
	fmov	w10, s1
	ushll	v1.4s, v0.4h, #0
	ushll2	v0.4s, v0.8h, #0
	str	q1, [x11, x12]
	orr	w10, w10, #0x100
	stur	q0, [x8, #-16]
	rbit	w10, w10
	clz	w10, w10
	add	x9, x9, x10
	b	LBB76_26
LBB76_21:
	cmp	x8, x9
	b.eq	LBB76_25
	add	x10, x24, x9, lsl #1
	add	x10, x26, x10
LBB76_23:
	ldurh	w12, [x10, #-1]
	ubfx	w13, w12, #3, #5
	cmp	w13, #27
	b.eq	LBB76_26
	rev16	w12, w12
	add	x10, x10, #2
	and	w12, w12, #0xffff
	str	w12, [x11, x9, lsl #2]
	add	x9, x9, #1
	cmp	x8, x9
	b.ne	LBB76_23
LBB76_25:
	mov	x9, x8
LBB76_26:
	add	x24, x24, x9, lsl #1
	add	x20, x9, x20
LBB76_27:
	subs	x10, x21, x24
	b.eq	LBB76_38
LBB76_28:
	cmp	x10, #2
	b.lo	LBB76_41
	add	x8, x23, x24
	ldrb	w9, [x8]
	and	w11, w9, #0xf8
	cmp	w11, #216
	b.ne	LBB76_33
	mov	w11, #220
	bics	wzr, w11, w9
	b.eq	LBB76_42
	cmp	x10, #4
	b.lo	LBB76_41
	ldrb	w10, [x8, #2]
	and	w10, w10, #0xfc
	cmp	w10, #220
	b.ne	LBB76_42
LBB76_33:
	ldrb	w10, [x8, #1]
	ubfx	w11, w9, #2, #6
	orr	w9, w9, w10, lsl #8
	cmp	w11, #54
	rev16	w0, w9
	b.ne	LBB76_35
	ldrh	w8, [x8, #2]
	rev16	w1, w8
	bl	"_utf16_units::unit::decode_surrogates"
	mov	w8, #4
	cmp	x20, x27
	b.ne	LBB76_36
	b	LBB76_43
LBB76_35:
	and	w0, w0, #0xffff
	mov	w8, #2
	cmp	x20, x27
	b.eq	LBB76_43
LBB76_36:
	add	x24, x8, x24
	str	w0, [x22, x20, lsl #2]
	add	x20, x20, #1
	cmp	x24, x21
	b.lo	LBB76_2
	b	LBB76_40
LBB76_37:
	add	x24, x24, w11, uxtw #2
	sub	x20, x11, x10
	subs	x10, x21, x24
	b.ne	LBB76_28
LBB76_38:
	mov	x24, x21
	b	LBB76_40
LBB76_39:
	mov	x24, xzr
	mov	x20, xzr
LBB76_40:
	stp	x24, x20, [x19]
	strh	wzr, [x19, #16]
	b	LBB76_45
LBB76_41:
	mov	w8, wzr
	mov	w9, #2
	b	LBB76_44
LBB76_42:
	mov	w8, #2
	mov	w9, #1
	b	LBB76_44
LBB76_43:
	mov	w8, wzr
	mov	w9, #3
	mov	x20, x27
LBB76_44:
	stp	x24, x20, [x19]
	strb	w9, [x19, #16]
	strb	w8, [x19, #17]
LBB76_45:
	.cfi_def_cfa wsp, 112
	ldp	x20, x19, [sp, #96]
	ldp	x22, x21, [sp, #80]
	ldp	x24, x23, [sp, #64]
	ldp	x26, x25, [sp, #48]
	ldp	x28, x27, [sp, #32]
	ldp	x29, x30, [sp, #16]
	add	sp, sp, #112
	.cfi_def_cfa_offset 0
	.cfi_restore w19
	.cfi_restore w20
	.cfi_restore w21
	.cfi_restore w22
	.cfi_restore w23
	.cfi_restore w24
	.cfi_restore w25
	.cfi_restore w26
	.cfi_restore w27
	.cfi_restore w28
	.cfi_restore w30
	.cfi_restore w29
	ret
Lfunc_end76:
	.cfi_endproc

	.section	__TEXT,__literal16,16byte_literals
	.p2align	4, 0x0
lCPI77_0:
	.byte	1
	.byte	2
	.byte	4
	.byte	8
	.byte	16
	.byte	32
	.byte	64
	.byte	128
	.byte	1
	.byte	2
	.byte	4
	.byte	8
	.byte	16
	.byte	32
	.byte	64
	.byte	128
lCPI77_2:
	.hword	1
	.hword	2
	.hword	4
	.hword	8
	.hword	16
	.hword	32
	.hword	64
	.hword	128
	.section	__TEXT,__literal8,8byte_literals
	.p2align	3, 0x0
lCPI77_1:
	.byte	1
	.byte	2
	.byte	4
	.byte	8
	.byte	16
	.byte	32
	.byte	64
	.byte	128
	.section	__TEXT,__text,regular,pure_instructions
	.p2align	2
"_utf16_fixed::decode::to_utf32::<#418c2b53cf60437c>":
	.cfi_startproc
	sub	sp, sp, #112
	.cfi_def_cfa_offset 112
	stp	x29, x30, [sp, #16]
	stp	x28, x27, [sp, #32]
	stp	x26, x25, [sp, #48]
	stp	x24, x23, [sp, #64]
	stp	x22, x21, [sp, #80]
	stp	x20, x19, [sp, #96]
	add	x29, sp, #16
	.cfi_def_cfa w29, 96
	.cfi_offset w19, -8
	.cfi_offset w20, -16
	.cfi_offset w21, -24
	.cfi_offset w22, -32
	.cfi_offset w23, -40
	.cfi_offset w24, -48
	.cfi_offset w25, -56
	.cfi_offset w26, -64
	.cfi_offset w27, -72
	.cfi_offset w28, -80
	.cfi_offset w30, -88
	.cfi_offset w29, -96
	mov	x19, x0
	cbz	x2, LBB77_39
	mov	x27, x4
	mov	x22, x3
	mov	x21, x2
	mov	x23, x1
	mov	x20, xzr
	mov	x24, xzr
	add	x25, x3, #64
	add	x26, x1, #1
	sub	x28, x4, #8
LBB77_2:
	sub	x8, x21, x24
	cmp	x8, #2
	b.lo	LBB77_11
	add	x9, x23, x24
	ldrb	w9, [x9, #1]
	and	w9, w9, #0xf8
	cmp	w9, #216
	b.ne	LBB77_11
	cmp	x8, #32
	b.lo	LBB77_27
	sub	x8, x27, x20
	cmp	x8, #8
	b.lo	LBB77_27
	add	x8, x22, x20, lsl #2
	sub	x9, x21, #32
	neg	x10, x20
	sub	x9, x9, x24
LBB77_7:
	mov	w11, #10240
	add	x12, x23, x24
	movi	v3.4s, #252, lsl #8
	movk	w11, #9215, lsl #16
	ldp	q2, q1, [x12]
	dup	v0.4s, w11
	movi	v6.4s, #3, msl #8
	adrp	x11, lCPI77_2@PAGE
	mov	w12, #256
	add	v1.4s, v1.4s, v0.4s
	add	v0.4s, v2.4s, v0.4s
	ushr	v2.4s, v1.4s, #16
	ushr	v4.4s, v0.4s, #16
	and	v5.16b, v1.16b, v3.16b
	and	v3.16b, v0.16b, v3.16b
	orr	v2.16b, v5.16b, v2.16b
	movi	v5.4s, #1, lsl #16
	orr	v3.16b, v3.16b, v4.16b
	shl	v4.4s, v1.4s, #10
	cmhi	v2.4s, v2.4s, v6.4s
	cmhi	v3.4s, v3.4s, v6.4s
	bic	v4.4s, #252, lsl #24
	uzp1	v2.8h, v3.8h, v2.8h
	ldr	q3, [x11, lCPI77_2@PAGEOFF]
	usra	v4.4s, v1.4s, #16
	and	v2.16b, v2.16b, v3.16b
	shl	v3.4s, v0.4s, #10
	addv	h2, v2.8h
	bic	v3.4s, #252, lsl #24
	fmov	w11, s2
	usra	v3.4s, v0.4s, #16
	add	v0.4s, v4.4s, v5.4s
	bfxil	w12, w11, #0, #8
	add	v1.4s, v3.4s, v5.4s
	rbit	w11, w12
	stp	q1, q0, [x8], #32
	clz	w11, w11
	cmp	w11, #7
	b.ls	LBB77_37
	subs	x9, x9, #32
	add	x24, x24, #32
	sub	x11, x10, #8
	b.lo	LBB77_10
	add	x10, x28, x10
	cmp	x10, #7
	mov	x10, x11
	b.hi	LBB77_7
LBB77_10:
	neg	x20, x11
	subs	x10, x21, x24
	b.ne	LBB77_28
	b	LBB77_38
LBB77_11:
	lsr	x8, x8, #1
	sub	x9, x27, x20
	lsl	x11, x20, #2
	add	x10, x23, x24
	cmp	x9, x8
	csel	x8, x9, x8, lo
	mov	x9, xzr
	cmp	x8, #32
	b.lo	LBB77_15
	add	x12, x25, x11
	add	x13, x23, x24
	mov	x14, x8
LBB77_13:
	movi	v4.8h, #248, lsl #8
	ldp	q1, q0, [x13, #32]
	ldp	q3, q2, [x13], #64
	movi	v5.8h, #216, lsl #8
	adrp	x15, lCPI77_0@PAGE
	and	v6.16b, v0.16b, v4.16b
	and	v7.16b, v3.16b, v4.16b
	and	v16.16b, v2.16b, v4.16b
	and	v4.16b, v1.16b, v4.16b
	cmeq	v6.8h, v6.8h, v5.8h
	cmeq	v16.8h, v16.8h, v5.8h
	cmeq	v4.8h, v4.8h, v5.8h
	cmeq	v5.8h, v7.8h, v5.8h
	uzp1	v4.16b, v4.16b, v6.16b
	uzp1	v5.16b, v5.16b, v16.16b
	ldr	q6, [x15, lCPI77_0@PAGEOFF]
	and	v5.16b, v5.16b, v6.16b
	and	v4.16b, v4.16b, v6.16b
	addp	v4.16b, v5.16b, v4.16b
	addp	v4.16b, v4.16b, v4.16b
	addp	v4.16b, v4.16b, v4.16b
	fmov	w15, s4
	cbnz	w15, LBB77_15
	ushll	v4.4s, v3.4h, #0
	ushll2	v3.4s, v3.8h, #0
	sub	x14, x14, #32
	ushll	v5.4s, v2.4h, #0
	ushll2	v2.4s, v2.8h, #0
	add	x9, x9, #32
	cmp	x14, #31
	stp	q4, q3, [x12, #-64]
	ushll	v3.4s, v1.4h, #0
	ushll2	v1.4s, v1.8h, #0
	ushll	v4.4s, v0.4h, #0
	ushll2	v0.4s, v0.8h, #0
	stp	q5, q2, [x12, #-32]
	stp	q3, q1, [x12]
	stp	q4, q0, [x12, #32]
	add	x12, x12, #128
	b.hi	LBB77_13
LBB77_15:
	add	x11, x22, x11
LBB77_16:
	sub	x12, x8, x9
	cmp	x12, #8
	b.lo	LBB77_19
	lsl	x12, x9, #1
	movi	v1.8b, #248
	movi	v3.8b, #216
	add	x13, x11, x9, lsl #2
	ldr	q0, [x10, x12]
	adrp	x12, lCPI77_1@PAGE
	shrn	v2.8b, v0.8h, #8
	and	v1.8b, v2.8b, v1.8b
	ldr	d2, [x12, lCPI77_1@PAGEOFF]
	cmeq	v1.8b, v1.8b, v3.8b
	and	v1.8b, v1.8b, v2.8b
	addv	b1, v1.8b
	fmov	w12, s1
	ushll	v1.4s, v0.4h, #0
	ushll2	v0.4s, v0.8h, #0
	orr	w12, w12, #0x100
	stp	q1, q0, [x13]
	rbit	w12, w12
	clz	w12, w12
	cmp	w12, #7
	add	x9, x9, x12
	b.hi	LBB77_16
	sub	x12, x8, x9
	cmp	x12, #7
	b.hi	LBB77_26
LBB77_19:
	cmp	x8, #7
	b.ls	LBB77_21
	sub	x9, x8, #8
	movi	v1.8b, #248
	movi	v3.8b, #216
	lsl	x12, x9, #1
	add	x8, x11, x8, lsl #2
	ldr	q0, [x10, x12]
	adrp	x10, lCPI77_1@PAGE
	lsl	x12, x9, #2
	shrn	v2.8b, v0.8h, #8
	and	v1.8b, v2.8b, v1.8b
	ldr	d2, [x10, lCPI77_1@PAGEOFF]
	cmeq	v1.8b, v1.8b, v3.8b
	and	v1.8b, v1.8b, v2.8b
	addv	b1, v1.8b
	fmov	w10, s1
	ushll	v1.4s, v0.4h, #0
	ushll2	v0.4s, v0.8h, #0
	str	q1, [x11, x12]
	orr	w10, w10, #0x100
	stur	q0, [x8, #-16]
	rbit	w10, w10
	clz	w10, w10
	add	x9, x9, x10
	b	LBB77_26
LBB77_21:
	cmp	x8, x9
	b.eq	LBB77_25
	add	x10, x24, x9, lsl #1
	add	x12, x26, x10
	mov	x10, x12
LBB77_23:
	ldrb	w13, [x10], #2
	and	w14, w13, #0xf8
	cmp	w14, #216
	b.eq	LBB77_26
	ldurb	w12, [x12, #-1]
	orr	w12, w12, w13, lsl #8
	str	w12, [x11, x9, lsl #2]
	add	x9, x9, #1
	mov	x12, x10
	cmp	x8, x9
	b.ne	LBB77_23
LBB77_25:
	mov	x9, x8
LBB77_26:
	add	x24, x24, x9, lsl #1
	add	x20, x9, x20
LBB77_27:
	subs	x10, x21, x24
	b.eq	LBB77_38
LBB77_28:
	cmp	x10, #2
	b.lo	LBB77_41
	add	x8, x23, x24
	ldrb	w9, [x8, #1]
	and	w11, w9, #0xf8
	cmp	w11, #216
	b.ne	LBB77_33
	mov	w11, #220
	bics	wzr, w11, w9
	b.eq	LBB77_42
	cmp	x10, #4
	b.lo	LBB77_41
	ldrb	w10, [x8, #3]
	and	w10, w10, #0xfc
	cmp	w10, #220
	b.ne	LBB77_42
LBB77_33:
	ldrb	w10, [x8]
	and	w11, w9, #0xfc
	cmp	w11, #216
	orr	w0, w10, w9, lsl #8
	b.ne	LBB77_35
	ldrh	w1, [x8, #2]
	bl	"_utf16_units::unit::decode_surrogates"
	mov	w8, #4
	cmp	x20, x27
	b.ne	LBB77_36
	b	LBB77_43
LBB77_35:
	mov	w8, #2
	cmp	x20, x27
	b.eq	LBB77_43
LBB77_36:
	add	x24, x8, x24
	str	w0, [x22, x20, lsl #2]
	add	x20, x20, #1
	cmp	x24, x21
	b.lo	LBB77_2
	b	LBB77_40
LBB77_37:
	add	x24, x24, w11, uxtw #2
	sub	x20, x11, x10
	subs	x10, x21, x24
	b.ne	LBB77_28
LBB77_38:
	mov	x24, x21
	b	LBB77_40
LBB77_39:
	mov	x24, xzr
	mov	x20, xzr
LBB77_40:
	stp	x24, x20, [x19]
	strh	wzr, [x19, #16]
	b	LBB77_45
LBB77_41:
	mov	w8, wzr
	mov	w9, #2
	b	LBB77_44
LBB77_42:
	mov	w8, #2
	mov	w9, #1
	b	LBB77_44
LBB77_43:
	mov	w8, wzr
	mov	w9, #3
	mov	x20, x27
LBB77_44:
	stp	x24, x20, [x19]
	strb	w9, [x19, #16]
	strb	w8, [x19, #17]
LBB77_45:
	.cfi_def_cfa wsp, 112
	ldp	x20, x19, [sp, #96]
	ldp	x22, x21, [sp, #80]
	ldp	x24, x23, [sp, #64]
	ldp	x26, x25, [sp, #48]
	ldp	x28, x27, [sp, #32]
	ldp	x29, x30, [sp, #16]
	add	sp, sp, #112
	.cfi_def_cfa_offset 0
	.cfi_restore w19
	.cfi_restore w20
	.cfi_restore w21
	.cfi_restore w22
	.cfi_restore w23
	.cfi_restore w24
	.cfi_restore w25
	.cfi_restore w26
	.cfi_restore w27
	.cfi_restore w28
	.cfi_restore w30
	.cfi_restore w29
	ret
Lfunc_end77:
	.cfi_endproc

	.section	__TEXT,__text,regular,pure_instructions
	.p2align	2
"_utf16_wtf8::decode::to_wtf8_partial::<#8b18edd9dd9aa8df>":
	.cfi_startproc
	sub	sp, sp, #128
	.cfi_def_cfa_offset 128
	stp	x29, x30, [sp, #32]
	stp	x28, x27, [sp, #48]
	stp	x26, x25, [sp, #64]
	stp	x24, x23, [sp, #80]
	stp	x22, x21, [sp, #96]
	stp	x20, x19, [sp, #112]
	add	x29, sp, #32
	.cfi_def_cfa w29, 96
	.cfi_offset w19, -8
	.cfi_offset w20, -16
	.cfi_offset w21, -24
	.cfi_offset w22, -32
	.cfi_offset w23, -40
	.cfi_offset w24, -48
	.cfi_offset w25, -56
	.cfi_offset w26, -64
	.cfi_offset w27, -72
	.cfi_offset w28, -80
	.cfi_offset w30, -88
	.cfi_offset w29, -96
	mov	x21, x4
	mov	x22, x3
	mov	x20, x2
	mov	x23, x1
	mov	x19, x0
	mov	x25, xzr
	mov	x24, xzr
	b	LBB78_2
LBB78_1:
	add	x25, x9, #2
	add	x24, x10, x8
LBB78_2:
	sub	x26, x20, x25
	add	x8, x23, x25
	sub	x10, x21, x24
	sub	x9, x26, #16
	stp	xzr, xzr, [sp, #8]
	cmp	x9, #175
	add	x9, x22, x24
	str	xzr, [sp, #24]
	b.hi	LBB78_10
	lsr	x11, x26, #1
	cmp	x10, x11
	csel	x11, x10, x11, lo
	cmp	x11, #8
	b.lo	LBB78_10
	lsl	x12, x11, #1
	mov	x5, xzr
	mov	x6, xzr
	mov	x13, x12
LBB78_5:
	ldr	q0, [x8, x5]
	movi	v1.8h, #127
	rev16	v0.16b, v0.16b
	cmhi	v1.8h, v0.8h, v1.8h
	umaxv	h1, v1.8h
	fmov	w14, s1
	tbnz	w14, #0, LBB78_11
	sqxtun	v0.8b, v0.8h
	sub	x13, x13, #16
	add	x5, x5, #16
	cmp	x13, #15
	str	d0, [x9, x6]
	add	x6, x6, #8
	b.hi	LBB78_5
	cmp	x12, x5
	b.ls	LBB78_11
	add	x13, x8, x12
	movi	v1.8h, #127
	ldur	q0, [x13, #-16]
	rev16	v0.16b, v0.16b
	cmhi	v1.8h, v0.8h, v1.8h
	umaxv	h1, v1.8h
	fmov	w13, s1
	tbnz	w13, #0, LBB78_11
	sqxtun	v0.8b, v0.8h
	add	x13, x9, x11
	mov	x6, x11
	mov	x5, x12
	stur	d0, [x13, #-8]
	b	LBB78_11
LBB78_10:
	mov	x6, xzr
	mov	x5, xzr
LBB78_11:
	sub	x11, x26, x5
	cmp	x11, #15
	b.ls	LBB78_20
LBB78_12:
	sub	x11, x26, #8
	cmp	x11, #183
	b.hi	LBB78_15
	sub	x11, x26, x5
	cmp	x11, #8
	b.lo	LBB78_15
	add	x0, x8, x5
	sub	x1, x26, x5
	add	x2, x9, x6
	sub	x3, x10, x6
	mov	x27, x6
	mov	x28, x5
	bl	"_utf16_to_utf8::vectors::write_vectors::<#8b18edd9dd9aa8df>"
	add	x5, x0, x28
	add	x6, x1, x27
LBB78_15:
	cmp	x5, x26
	b.eq	LBB78_34
	add	x0, sp, #8
	add	x1, x23, x25
	sub	x2, x20, x25
	add	x3, x22, x24
	sub	x4, x21, x24
	bl	"_utf16_transcode::transcoding::transcode_many::<#b8dc3d53e12e85b3>"
	ldp	x8, x11, [sp, #8]
	ldrb	w10, [sp, #24]
	cmp	w10, #1
	add	x9, x8, x25
	add	x8, x11, x24
	b.ne	LBB78_35
	ldrh	w11, [x23, x9]
	rev	w13, w11
	rev16	w11, w11
	lsr	w10, w13, #16
	cmp	w10, #127
	add	x10, x22, x8
	b.hi	LBB78_29
	cmp	x21, x8
	b.eq	LBB78_37
	strb	w11, [x10]
	mov	w10, #1
	b	LBB78_1
LBB78_20:
	lsr	x12, x11, #1
	sub	x13, x10, x6
	add	x12, x12, x12, lsl #1
	cmp	x13, x12
	b.lo	LBB78_12
	cmp	x11, #2
	b.hs	LBB78_24
	b	LBB78_12
LBB78_22:
	strb	w12, [x9, x6]
	add	x6, x6, #1
LBB78_23:
	sub	x11, x11, #2
	add	x5, x5, #2
	cmp	x11, #1
	b.ls	LBB78_12
LBB78_24:
	ldrh	w12, [x8, x5]
	rev	w13, w12
	rev16	w12, w12
	lsr	w13, w13, #16
	cmp	w13, #127
	b.ls	LBB78_22
	and	w13, w12, #0xffff
	cmp	w13, #2047
	b.hi	LBB78_27
	lsr	w13, w12, #6
	orr	w13, w13, #0xc0
	and	w13, w13, #0xff
	bfi	w13, w12, #8, #6
	add	x12, x6, #2
	orr	w13, w13, #0x8000
	strh	w13, [x9, x6]
	mov	x6, x12
	b	LBB78_23
LBB78_27:
	ubfx	w13, w12, #11, #5
	cmp	w13, #27
	b.eq	LBB78_12
	mov	w13, #224
	mov	w14, #128
	mov	w15, #128
	bfxil	w13, w12, #12, #4
	bfxil	w14, w12, #6, #6
	bfxil	w15, w12, #0, #6
	add	x16, x9, x6
	add	x6, x6, #3
	strb	w13, [x16]
	strb	w14, [x16, #1]
	strb	w15, [x16, #2]
	b	LBB78_23
LBB78_29:
	mov	w12, #-128
	and	w14, w11, #0xffff
	bfxil	w12, w13, #16, #6
	cmp	w14, #2047
	sub	x13, x21, x8
	b.hi	LBB78_32
	cmp	x13, #2
	b.lo	LBB78_36
	lsr	w11, w11, #6
	orr	w11, w11, #0xc0
	bfi	w11, w12, #8, #24
	strh	w11, [x10]
	mov	w10, #2
	b	LBB78_1
LBB78_32:
	cmp	x13, #3
	b.lo	LBB78_36
	mov	w13, #224
	mov	w14, #128
	strb	w12, [x10, #2]
	bfxil	w13, w11, #12, #4
	bfxil	w14, w11, #6, #6
	strb	w13, [x10]
	strb	w14, [x10, #1]
	mov	w10, #3
	b	LBB78_1
LBB78_34:
	mov	w10, wzr
	mov	w11, wzr
	add	x8, x6, x24
	b	LBB78_39
LBB78_35:
	ldrb	w11, [sp, #25]
	b	LBB78_38
LBB78_36:
	mov	w11, wzr
	mov	w10, #3
	b	LBB78_38
LBB78_37:
	mov	w11, wzr
	mov	w10, #3
	mov	x8, x21
LBB78_38:
	mov	x20, x9
LBB78_39:
	stp	x20, x8, [x19]
	strb	w10, [x19, #16]
	strb	w11, [x19, #17]
	.cfi_def_cfa wsp, 128
	ldp	x20, x19, [sp, #112]
	ldp	x22, x21, [sp, #96]
	ldp	x24, x23, [sp, #80]
	ldp	x26, x25, [sp, #64]
	ldp	x28, x27, [sp, #48]
	ldp	x29, x30, [sp, #32]
	add	sp, sp, #128
	.cfi_def_cfa_offset 0
	.cfi_restore w19
	.cfi_restore w20
	.cfi_restore w21
	.cfi_restore w22
	.cfi_restore w23
	.cfi_restore w24
	.cfi_restore w25
	.cfi_restore w26
	.cfi_restore w27
	.cfi_restore w28
	.cfi_restore w30
	.cfi_restore w29
	ret
Lfunc_end78:
	.cfi_endproc

	.section	__TEXT,__text,regular,pure_instructions
	.p2align	2
"_utf16_wtf8::decode::to_wtf8_partial::<#418c2b53cf60437c>":
	.cfi_startproc
	sub	sp, sp, #128
	.cfi_def_cfa_offset 128
	stp	x29, x30, [sp, #32]
	stp	x28, x27, [sp, #48]
	stp	x26, x25, [sp, #64]
	stp	x24, x23, [sp, #80]
	stp	x22, x21, [sp, #96]
	stp	x20, x19, [sp, #112]
	add	x29, sp, #32
	.cfi_def_cfa w29, 96
	.cfi_offset w19, -8
	.cfi_offset w20, -16
	.cfi_offset w21, -24
	.cfi_offset w22, -32
	.cfi_offset w23, -40
	.cfi_offset w24, -48
	.cfi_offset w25, -56
	.cfi_offset w26, -64
	.cfi_offset w27, -72
	.cfi_offset w28, -80
	.cfi_offset w30, -88
	.cfi_offset w29, -96
	mov	x21, x4
	mov	x22, x3
	mov	x20, x2
	mov	x23, x1
	mov	x19, x0
	mov	x25, xzr
	mov	x24, xzr
	b	LBB79_2
LBB79_1:
	add	x25, x9, #2
	add	x24, x10, x8
LBB79_2:
	sub	x26, x20, x25
	add	x8, x23, x25
	sub	x10, x21, x24
	sub	x9, x26, #16
	stp	xzr, xzr, [sp, #8]
	cmp	x9, #175
	add	x9, x22, x24
	str	xzr, [sp, #24]
	b.hi	LBB79_10
	lsr	x11, x26, #1
	cmp	x10, x11
	csel	x11, x10, x11, lo
	cmp	x11, #8
	b.lo	LBB79_10
	lsl	x12, x11, #1
	mov	x5, xzr
	mov	x6, xzr
	mov	x13, x12
LBB79_5:
	movi	v1.8h, #127
	ldr	q0, [x8, x5]
	cmhi	v1.8h, v0.8h, v1.8h
	umaxv	h1, v1.8h
	fmov	w14, s1
	tbnz	w14, #0, LBB79_11
	sqxtun	v0.8b, v0.8h
	sub	x13, x13, #16
	add	x5, x5, #16
	cmp	x13, #15
	str	d0, [x9, x6]
	add	x6, x6, #8
	b.hi	LBB79_5
	cmp	x12, x5
	b.ls	LBB79_11
	movi	v1.8h, #127
	add	x13, x8, x12
	ldur	q0, [x13, #-16]
	cmhi	v1.8h, v0.8h, v1.8h
	umaxv	h1, v1.8h
	fmov	w13, s1
	tbnz	w13, #0, LBB79_11
	sqxtun	v0.8b, v0.8h
	add	x13, x9, x11
	mov	x6, x11
	mov	x5, x12
	stur	d0, [x13, #-8]
	b	LBB79_11
LBB79_10:
	mov	x6, xzr
	mov	x5, xzr
LBB79_11:
	sub	x11, x26, x5
	cmp	x11, #15
	b.ls	LBB79_20
LBB79_12:
	sub	x11, x26, #8
	cmp	x11, #183
	b.hi	LBB79_15
	sub	x11, x26, x5
	cmp	x11, #8
	b.lo	LBB79_15
	add	x0, x8, x5
	sub	x1, x26, x5
	add	x2, x9, x6
	sub	x3, x10, x6
	mov	x27, x6
	mov	x28, x5
	bl	"_utf16_to_utf8::vectors::write_vectors::<#418c2b53cf60437c>"
	add	x5, x0, x28
	add	x6, x1, x27
LBB79_15:
	cmp	x5, x26
	b.eq	LBB79_34
	add	x0, sp, #8
	add	x1, x23, x25
	sub	x2, x20, x25
	add	x3, x22, x24
	sub	x4, x21, x24
	bl	"_utf16_transcode::transcoding::transcode_many::<#556930da7d070edc>"
	ldp	x8, x11, [sp, #8]
	ldrb	w10, [sp, #24]
	cmp	w10, #1
	add	x9, x8, x25
	add	x8, x11, x24
	b.ne	LBB79_35
	add	x10, x23, x9
	ldrb	w14, [x10]
	ldrb	w13, [x10, #1]
	add	x10, x22, x8
	orr	w11, w14, w13, lsl #8
	cmp	w11, #127
	b.hi	LBB79_29
	cmp	x21, x8
	b.eq	LBB79_37
	strb	w14, [x10]
	mov	w10, #1
	b	LBB79_1
LBB79_20:
	lsr	x12, x11, #1
	sub	x13, x10, x6
	add	x12, x12, x12, lsl #1
	cmp	x13, x12
	b.lo	LBB79_12
	cmp	x11, #2
	b.hs	LBB79_24
	b	LBB79_12
LBB79_22:
	strb	w12, [x9, x6]
	add	x6, x6, #1
LBB79_23:
	sub	x11, x11, #2
	add	x5, x5, #2
	cmp	x11, #1
	b.ls	LBB79_12
LBB79_24:
	add	x13, x8, x5
	ldrb	w12, [x13]
	ldrb	w14, [x13, #1]
	orr	w13, w12, w14, lsl #8
	cmp	w13, #127
	b.ls	LBB79_22
	cmp	w14, #7
	b.hi	LBB79_27
	lsr	w13, w13, #6
	orr	w13, w13, #0xc0
	and	w13, w13, #0xff
	bfi	w13, w12, #8, #6
	add	x12, x6, #2
	orr	w13, w13, #0x8000
	strh	w13, [x9, x6]
	mov	x6, x12
	b	LBB79_23
LBB79_27:
	and	w15, w14, #0xf8
	cmp	w15, #216
	b.eq	LBB79_12
	lsr	w14, w14, #4
	mov	w15, #128
	mov	w16, #128
	bfxil	w15, w13, #6, #6
	bfxil	w16, w12, #0, #6
	add	x17, x9, x6
	orr	w13, w14, #0xe0
	add	x6, x6, #3
	strb	w13, [x17]
	strb	w15, [x17, #1]
	strb	w16, [x17, #2]
	b	LBB79_23
LBB79_29:
	mov	w12, #-128
	cmp	w13, #7
	bfxil	w12, w14, #0, #6
	sub	x14, x21, x8
	b.hi	LBB79_32
	cmp	x14, #2
	b.lo	LBB79_36
	lsr	w11, w11, #6
	orr	w11, w11, #0xc0
	bfi	w11, w12, #8, #24
	strh	w11, [x10]
	mov	w10, #2
	b	LBB79_1
LBB79_32:
	cmp	x14, #3
	b.lo	LBB79_36
	lsr	w13, w13, #4
	mov	w14, #128
	strb	w12, [x10, #2]
	bfxil	w14, w11, #6, #6
	orr	w11, w13, #0xe0
	strb	w11, [x10]
	strb	w14, [x10, #1]
	mov	w10, #3
	b	LBB79_1
LBB79_34:
	mov	w10, wzr
	mov	w11, wzr
	add	x8, x6, x24
	b	LBB79_39
LBB79_35:
	ldrb	w11, [sp, #25]
	b	LBB79_38
LBB79_36:
	mov	w11, wzr
	mov	w10, #3
	b	LBB79_38
LBB79_37:
	mov	w11, wzr
	mov	w10, #3
	mov	x8, x21
LBB79_38:
	mov	x20, x9
LBB79_39:
	stp	x20, x8, [x19]
	strb	w10, [x19, #16]
	strb	w11, [x19, #17]
	.cfi_def_cfa wsp, 128
	ldp	x20, x19, [sp, #112]
	ldp	x22, x21, [sp, #96]
	ldp	x24, x23, [sp, #80]
	ldp	x26, x25, [sp, #64]
	ldp	x28, x27, [sp, #48]
	ldp	x29, x30, [sp, #32]
	add	sp, sp, #128
	.cfi_def_cfa_offset 0
	.cfi_restore w19
	.cfi_restore w20
	.cfi_restore w21
	.cfi_restore w22
	.cfi_restore w23
	.cfi_restore w24
	.cfi_restore w25
	.cfi_restore w26
	.cfi_restore w27
	.cfi_restore w28
	.cfi_restore w30
	.cfi_restore w29
	ret
Lfunc_end79:
	.cfi_endproc

	.section	__TEXT,__literal16,16byte_literals
	.p2align	4, 0x0
lCPI80_0:
	.byte	1
	.byte	2
	.byte	4
	.byte	8
	.byte	16
	.byte	32
	.byte	64
	.byte	128
	.byte	1
	.byte	2
	.byte	4
	.byte	8
	.byte	16
	.byte	32
	.byte	64
	.byte	128
	.section	__TEXT,__text,regular,pure_instructions
	.p2align	2
"_dethrux::validate::validity_of_many::<#8b18edd9dd9aa8df>":
	.cfi_startproc
	stp	x29, x30, [sp, #-48]!
	.cfi_def_cfa_offset 48
	str	x21, [sp, #16]
	stp	x20, x19, [sp, #32]
	mov	x29, sp
	.cfi_def_cfa w29, 48
	.cfi_offset w19, -8
	.cfi_offset w20, -16
	.cfi_offset w21, -32
	.cfi_offset w30, -40
	.cfi_offset w29, -48
	.cfi_remember_state
	mov	x20, x2
	mov	x21, x1
	cmp	x2, #2
	mov	x19, x0
	b.ne	LBB80_5
	ldrb	w8, [x21]
	and	w8, w8, #0xf8
	cmp	w8, #216
	b.ne	LBB80_13
LBB80_2:
	mov	x0, x21
	mov	x1, x20
	bl	"_utf16_units::validate::valid_len::<#8b18edd9dd9aa8df>"
	subs	x1, x20, x0
	b.ne	LBB80_12
LBB80_3:
	mov	w8, wzr
LBB80_4:
	str	x20, [x19]
	stp	w8, wzr, [x19, #8]
	.cfi_def_cfa wsp, 48
	ldp	x20, x19, [sp, #32]
	ldr	x21, [sp, #16]
	ldp	x29, x30, [sp], #48
	.cfi_def_cfa_offset 0
	.cfi_restore w19
	.cfi_restore w20
	.cfi_restore w21
	.cfi_restore w30
	.cfi_restore w29
	ret
LBB80_5:
	.cfi_restore_state
	.cfi_remember_state
	cmp	x20, #7
	b.hi	LBB80_14
	cbz	x20, LBB80_3
	cmp	x20, #6
	b.eq	LBB80_19
	cmp	x20, #4
	b.ne	LBB80_2
	ldrb	w8, [x21]
	and	w8, w8, #0xf8
	cmp	w8, #216
	b.eq	LBB80_2
	ldrb	w8, [x21, #2]
	and	w8, w8, #0xf8
	cmp	w8, #216
	b.eq	LBB80_2
	mov	w20, #4
	str	x20, [x19]
	stp	wzr, wzr, [x19, #8]
	.cfi_def_cfa wsp, 48
	ldp	x20, x19, [sp, #32]
	ldr	x21, [sp, #16]
	ldp	x29, x30, [sp], #48
	.cfi_def_cfa_offset 0
	.cfi_restore w19
	.cfi_restore w20
	.cfi_restore w21
	.cfi_restore w30
	.cfi_restore w29
	ret
LBB80_12:
	.cfi_restore_state
	.cfi_remember_state
	mov	x20, x0
	add	x0, x21, x0
	bl	"_utf16_units::validate::error_len::<#8b18edd9dd9aa8df>"
	and	w9, w0, #0xff
	mov	w8, #1
	cmp	w9, #1
	csel	w9, w1, wzr, eq
	cinc	w8, w8, ne
	and	w9, w9, #0xff
	str	x20, [x19]
	stp	w8, w9, [x19, #8]
	.cfi_def_cfa wsp, 48
	ldp	x20, x19, [sp, #32]
	ldr	x21, [sp, #16]
	ldp	x29, x30, [sp], #48
	.cfi_def_cfa_offset 0
	.cfi_restore w19
	.cfi_restore w20
	.cfi_restore w21
	.cfi_restore w30
	.cfi_restore w29
	ret
LBB80_13:
	.cfi_restore_state
	.cfi_remember_state
	mov	w20, #2
	str	x20, [x19]
	stp	wzr, wzr, [x19, #8]
	.cfi_def_cfa wsp, 48
	ldp	x20, x19, [sp, #32]
	ldr	x21, [sp, #16]
	ldp	x29, x30, [sp], #48
	.cfi_def_cfa_offset 0
	.cfi_restore w19
	.cfi_restore w20
	.cfi_restore w21
	.cfi_restore w30
	.cfi_restore w29
	ret
LBB80_14:
	.cfi_restore_state
	.cfi_remember_state
	cmp	x20, #64
	b.hi	LBB80_2
	tbnz	w20, #0, LBB80_2
	cmp	x20, #15
	b.hi	LBB80_23
	movi	v0.4h, #248
	ldr	d2, [x21]
	movi	v1.4h, #216
	and	v2.8b, v2.8b, v0.8b
	cmeq	v2.4h, v2.4h, v1.4h
	umaxv	h2, v2.4h
	fmov	w8, s2
	tbnz	w8, #0, LBB80_2
	add	x8, x21, x20
	ldur	d2, [x8, #-8]
	and	v0.8b, v2.8b, v0.8b
	cmeq	v0.4h, v0.4h, v1.4h
	umaxv	h0, v0.4h
	fmov	w8, s0
	tbnz	w8, #0, LBB80_2
	b	LBB80_3
LBB80_19:
	ldrb	w8, [x21]
	and	w8, w8, #0xf8
	cmp	w8, #216
	b.eq	LBB80_2
	ldrb	w8, [x21, #2]
	and	w8, w8, #0xf8
	cmp	w8, #216
	b.eq	LBB80_2
	ldrb	w8, [x21, #4]
	and	w8, w8, #0xf8
	cmp	w8, #216
	b.eq	LBB80_2
	mov	w20, #6
	str	x20, [x19]
	stp	wzr, wzr, [x19, #8]
	.cfi_def_cfa wsp, 48
	ldp	x20, x19, [sp, #32]
	ldr	x21, [sp, #16]
	ldp	x29, x30, [sp], #48
	.cfi_def_cfa_offset 0
	.cfi_restore w19
	.cfi_restore w20
	.cfi_restore w21
	.cfi_restore w30
	.cfi_restore w29
	ret
LBB80_23:
	.cfi_restore_state
	cmp	x20, #31
	b.hi	LBB80_26
	ldr	q0, [x21]
	movi	v1.8b, #216
	xtn	v2.8b, v0.8h
	movi	v0.8b, #248
	and	v2.8b, v2.8b, v0.8b
	cmeq	v2.8b, v2.8b, v1.8b
	umaxv	b2, v2.8b
	fmov	w8, s2
	tbnz	w8, #0, LBB80_2
	add	x8, x21, x20
	ldur	q2, [x8, #-16]
	xtn	v2.8b, v2.8h
	and	v0.8b, v2.8b, v0.8b
	cmeq	v0.8b, v0.8b, v1.8b
	umaxv	b0, v0.8b
	fmov	w8, s0
	tbnz	w8, #0, LBB80_2
	b	LBB80_3
LBB80_26:
	ldp	q1, q0, [x21]
	adrp	x8, lCPI80_0@PAGE
	uzp1	v2.16b, v1.16b, v0.16b
	movi	v0.16b, #248
	movi	v1.16b, #216
	and	v2.16b, v2.16b, v0.16b
	cmeq	v3.16b, v2.16b, v1.16b
	ldr	q2, [x8, lCPI80_0@PAGEOFF]
	and	v3.16b, v3.16b, v2.16b
	addp	v3.16b, v3.16b, v3.16b
	addp	v3.16b, v3.16b, v3.16b
	addp	v3.16b, v3.16b, v3.16b
	umov	w8, v3.h[0]
	cbnz	w8, LBB80_2
	add	x8, x21, x20
	ldp	q4, q3, [x8, #-32]
	uzp1	v3.16b, v4.16b, v3.16b
	and	v0.16b, v3.16b, v0.16b
	cmeq	v0.16b, v0.16b, v1.16b
	and	v0.16b, v0.16b, v2.16b
	addp	v0.16b, v0.16b, v0.16b
	addp	v0.16b, v0.16b, v0.16b
	addp	v0.16b, v0.16b, v0.16b
	umov	w8, v0.h[0]
	cbnz	w8, LBB80_2
	b	LBB80_4
Lfunc_end80:
	.cfi_endproc

	.section	__TEXT,__literal16,16byte_literals
	.p2align	4, 0x0
lCPI81_0:
	.byte	1
	.byte	2
	.byte	4
	.byte	8
	.byte	16
	.byte	32
	.byte	64
	.byte	128
	.byte	1
	.byte	2
	.byte	4
	.byte	8
	.byte	16
	.byte	32
	.byte	64
	.byte	128
	.section	__TEXT,__text,regular,pure_instructions
	.p2align	2
"_dethrux::validate::validity_of_many::<#418c2b53cf60437c>":
	.cfi_startproc
	stp	x29, x30, [sp, #-48]!
	.cfi_def_cfa_offset 48
	str	x21, [sp, #16]
	stp	x20, x19, [sp, #32]
	mov	x29, sp
	.cfi_def_cfa w29, 48
	.cfi_offset w19, -8
	.cfi_offset w20, -16
	.cfi_offset w21, -32
	.cfi_offset w30, -40
	.cfi_offset w29, -48
	.cfi_remember_state
	mov	x20, x2
	mov	x21, x1
	cmp	x2, #2
	mov	x19, x0
	b.ne	LBB81_5
	ldrb	w8, [x21, #1]
	and	w8, w8, #0xf8
	cmp	w8, #216
	b.ne	LBB81_13
LBB81_2:
	mov	x0, x21
	mov	x1, x20
	bl	"_utf16_units::validate::valid_len::<#418c2b53cf60437c>"
	subs	x1, x20, x0
	b.ne	LBB81_12
LBB81_3:
	mov	w8, wzr
LBB81_4:
	str	x20, [x19]
	stp	w8, wzr, [x19, #8]
	.cfi_def_cfa wsp, 48
	ldp	x20, x19, [sp, #32]
	ldr	x21, [sp, #16]
	ldp	x29, x30, [sp], #48
	.cfi_def_cfa_offset 0
	.cfi_restore w19
	.cfi_restore w20
	.cfi_restore w21
	.cfi_restore w30
	.cfi_restore w29
	ret
LBB81_5:
	.cfi_restore_state
	.cfi_remember_state
	cmp	x20, #7
	b.hi	LBB81_14
	cbz	x20, LBB81_3
	cmp	x20, #6
	b.eq	LBB81_19
	cmp	x20, #4
	b.ne	LBB81_2
	ldrb	w8, [x21, #1]
	and	w8, w8, #0xf8
	cmp	w8, #216
	b.eq	LBB81_2
	ldrb	w8, [x21, #3]
	and	w8, w8, #0xf8
	cmp	w8, #216
	b.eq	LBB81_2
	mov	w20, #4
	str	x20, [x19]
	stp	wzr, wzr, [x19, #8]
	.cfi_def_cfa wsp, 48
	ldp	x20, x19, [sp, #32]
	ldr	x21, [sp, #16]
	ldp	x29, x30, [sp], #48
	.cfi_def_cfa_offset 0
	.cfi_restore w19
	.cfi_restore w20
	.cfi_restore w21
	.cfi_restore w30
	.cfi_restore w29
	ret
LBB81_12:
	.cfi_restore_state
	.cfi_remember_state
	mov	x20, x0
	add	x0, x21, x0
	bl	"_utf16_units::validate::error_len::<#418c2b53cf60437c>"
	and	w9, w0, #0xff
	mov	w8, #1
	cmp	w9, #1
	csel	w9, w1, wzr, eq
	cinc	w8, w8, ne
	and	w9, w9, #0xff
	str	x20, [x19]
	stp	w8, w9, [x19, #8]
	.cfi_def_cfa wsp, 48
	ldp	x20, x19, [sp, #32]
	ldr	x21, [sp, #16]
	ldp	x29, x30, [sp], #48
	.cfi_def_cfa_offset 0
	.cfi_restore w19
	.cfi_restore w20
	.cfi_restore w21
	.cfi_restore w30
	.cfi_restore w29
	ret
LBB81_13:
	.cfi_restore_state
	.cfi_remember_state
	mov	w20, #2
	str	x20, [x19]
	stp	wzr, wzr, [x19, #8]
	.cfi_def_cfa wsp, 48
	ldp	x20, x19, [sp, #32]
	ldr	x21, [sp, #16]
	ldp	x29, x30, [sp], #48
	.cfi_def_cfa_offset 0
	.cfi_restore w19
	.cfi_restore w20
	.cfi_restore w21
	.cfi_restore w30
	.cfi_restore w29
	ret
LBB81_14:
	.cfi_restore_state
	.cfi_remember_state
	cmp	x20, #64
	b.hi	LBB81_2
	tbnz	w20, #0, LBB81_2
	cmp	x20, #15
	b.hi	LBB81_23
	ldr	d0, [x21]
	ushr	v1.4h, v0.4h, #8
	movi	v0.4h, #216
	bic	v1.4h, #7
	cmeq	v1.4h, v1.4h, v0.4h
	umaxv	h1, v1.4h
	fmov	w8, s1
	tbnz	w8, #0, LBB81_2
	add	x8, x21, x20
	ldur	d1, [x8, #-8]
	ushr	v1.4h, v1.4h, #8
	bic	v1.4h, #7
	cmeq	v0.4h, v1.4h, v0.4h
	umaxv	h0, v0.4h
	fmov	w8, s0
	tbnz	w8, #0, LBB81_2
	b	LBB81_3
LBB81_19:
	ldrb	w8, [x21, #1]
	and	w8, w8, #0xf8
	cmp	w8, #216
	b.eq	LBB81_2
	ldrb	w8, [x21, #3]
	and	w8, w8, #0xf8
	cmp	w8, #216
	b.eq	LBB81_2
	ldrb	w8, [x21, #5]
	and	w8, w8, #0xf8
	cmp	w8, #216
	b.eq	LBB81_2
	mov	w20, #6
	str	x20, [x19]
	stp	wzr, wzr, [x19, #8]
	.cfi_def_cfa wsp, 48
	ldp	x20, x19, [sp, #32]
	ldr	x21, [sp, #16]
	ldp	x29, x30, [sp], #48
	.cfi_def_cfa_offset 0
	.cfi_restore w19
	.cfi_restore w20
	.cfi_restore w21
	.cfi_restore w30
	.cfi_restore w29
	ret
LBB81_23:
	.cfi_restore_state
	cmp	x20, #31
	b.hi	LBB81_26
	ldr	q1, [x21]
	movi	v0.8b, #248
	shrn	v2.8b, v1.8h, #8
	movi	v1.8b, #216
	and	v2.8b, v2.8b, v0.8b
	cmeq	v2.8b, v2.8b, v1.8b
	umaxv	b2, v2.8b
	fmov	w8, s2
	tbnz	w8, #0, LBB81_2
	add	x8, x21, x20
	ldur	q2, [x8, #-16]
	shrn	v2.8b, v2.8h, #8
	and	v0.8b, v2.8b, v0.8b
	cmeq	v0.8b, v0.8b, v1.8b
	umaxv	b0, v0.8b
	fmov	w8, s0
	tbnz	w8, #0, LBB81_2
	b	LBB81_3
LBB81_26:
	ldp	q1, q0, [x21]
	adrp	x8, lCPI81_0@PAGE
	uzp2	v2.16b, v1.16b, v0.16b
	movi	v0.16b, #248
	movi	v1.16b, #216
	and	v2.16b, v2.16b, v0.16b
	cmeq	v3.16b, v2.16b, v1.16b
	ldr	q2, [x8, lCPI81_0@PAGEOFF]
	and	v3.16b, v3.16b, v2.16b
	addp	v3.16b, v3.16b, v3.16b
	addp	v3.16b, v3.16b, v3.16b
	addp	v3.16b, v3.16b, v3.16b
	umov	w8, v3.h[0]
	cbnz	w8, LBB81_2
	add	x8, x21, x20
	ldp	q4, q3, [x8, #-32]
	uzp2	v3.16b, v4.16b, v3.16b
	and	v0.16b, v3.16b, v0.16b
	cmeq	v0.16b, v0.16b, v1.16b
	and	v0.16b, v0.16b, v2.16b
	addp	v0.16b, v0.16b, v0.16b
	addp	v0.16b, v0.16b, v0.16b
	addp	v0.16b, v0.16b, v0.16b
	umov	w8, v0.h[0]
	cbnz	w8, LBB81_2
	b	LBB81_4
Lfunc_end81:
	.cfi_endproc

	.section	__TEXT,__literal16,16byte_literals
	.p2align	4, 0x0
lCPI82_0:
	.byte	1
	.byte	2
	.byte	4
	.byte	8
	.byte	16
	.byte	32
	.byte	64
	.byte	128
	.byte	1
	.byte	2
	.byte	4
	.byte	8
	.byte	16
	.byte	32
	.byte	64
	.byte	128
	.section	__TEXT,__text,regular,pure_instructions
	.globl	_dethrux_from_utf32_lossy_len_aarch64
	.private_extern	_dethrux_from_utf32_lossy_len_aarch64
	.p2align	2
_dethrux_from_utf32_lossy_len_aarch64:
	.cfi_startproc
	hint	#34
	cmp	x0, #0
	mov	w8, #4096
	mov	x9, xzr
	csel	x8, x8, xzr, eq
	mov	x12, xzr
	cmp	x1, #16
	add	x10, x0, x8
	adrp	x11, lCPI82_0@PAGE
	b.lo	LBB82_4
	mov	x9, xzr
	add	x12, x0, x8
	mov	x13, x1
LBB82_2:
	movi	v0.2d, #0x00ffff0000ffff
	ldp	q2, q1, [x12, #32]
	ldp	q3, q4, [x12], #64
	sub	x13, x13, #16
	cmp	x13, #15
	cmhi	v1.4s, v1.4s, v0.4s
	cmhi	v2.4s, v2.4s, v0.4s
	cmhi	v4.4s, v4.4s, v0.4s
	cmhi	v0.4s, v3.4s, v0.4s
	uzp1	v1.8h, v2.8h, v1.8h
	uzp1	v0.8h, v0.8h, v4.8h
	uzp1	v0.16b, v0.16b, v1.16b
	ldr	q1, [x11, lCPI82_0@PAGEOFF]
	and	v0.16b, v0.16b, v1.16b
	addp	v0.16b, v0.16b, v0.16b
	addp	v0.16b, v0.16b, v0.16b
	addp	v0.16b, v0.16b, v0.16b
	umov	w14, v0.h[0]
	fmov	s0, w14
	cnt	v0.8b, v0.8b
	addv	b0, v0.8b
	fmov	w14, s0
	add	x9, x9, x14
	b.hi	LBB82_2
	and	x12, x1, #0xfffffffffffffff0
LBB82_4:
	subs	x14, x1, x12
	b.ls	LBB82_11
	cmp	x14, #8
	b.lo	LBB82_9
	movi	v0.2d, #0000000000000000
	movi	v1.2d, #0000000000000000
	and	x13, x1, #0x7
	movi	v2.2d, #0000000000000000
	movi	v3.2d, #0000000000000000
	sub	x14, x14, x13
	add	x15, x12, x13
	mov	v0.d[0], x9
	add	x9, x8, x12, lsl #2
	add	x12, x12, x14
	add	x16, x9, x0
	sub	x9, x15, x1
	add	x14, x16, #16
LBB82_7:
	movi	v4.2d, #0x00ffff0000ffff
	ldp	q5, q6, [x14, #-16]
	mov	w15, #1
	adds	x9, x9, #8
	add	x14, x14, #32
	cmhi	v5.4s, v5.4s, v4.4s
	cmhi	v4.4s, v6.4s, v4.4s
	dup	v6.2d, x15
	ushll2	v7.2d, v5.4s, #0
	ushll	v5.2d, v5.2s, #0
	ushll	v16.2d, v4.2s, #0
	ushll2	v4.2d, v4.4s, #0
	and	v7.16b, v7.16b, v6.16b
	and	v5.16b, v5.16b, v6.16b
	and	v16.16b, v16.16b, v6.16b
	and	v4.16b, v4.16b, v6.16b
	add	v2.2d, v2.2d, v7.2d
	add	v0.2d, v0.2d, v5.2d
	add	v1.2d, v1.2d, v16.2d
	add	v3.2d, v3.2d, v4.2d
	b.ne	LBB82_7
	add	v0.2d, v1.2d, v0.2d
	add	v1.2d, v3.2d, v2.2d
	add	v0.2d, v0.2d, v1.2d
	addp	d0, v0.2d
	fmov	x9, d0
	cbz	x13, LBB82_11
LBB82_9:
	add	x13, x8, x12, lsl #2
	sub	x12, x1, x12
	add	x13, x0, x13
LBB82_10:
	ldrh	w14, [x13, #2]
	add	x13, x13, #4
	cmp	w14, #0
	cinc	x9, x9, ne
	subs	x12, x12, #1
	b.ne	LBB82_10
LBB82_11:
	cmp	x1, #16
	b.lo	LBB82_15
	mov	x12, xzr
	mov	x13, x1
LBB82_13:
	movi	v0.4s, #16, msl #16
	ldp	q2, q1, [x10, #32]
	ldp	q3, q4, [x10], #64
	sub	x13, x13, #16
	cmp	x13, #15
	cmhi	v1.4s, v1.4s, v0.4s
	cmhi	v2.4s, v2.4s, v0.4s
	cmhi	v4.4s, v4.4s, v0.4s
	cmhi	v0.4s, v3.4s, v0.4s
	uzp1	v1.8h, v2.8h, v1.8h
	uzp1	v0.8h, v0.8h, v4.8h
	uzp1	v0.16b, v0.16b, v1.16b
	ldr	q1, [x11, lCPI82_0@PAGEOFF]
	and	v0.16b, v0.16b, v1.16b
	addp	v0.16b, v0.16b, v0.16b
	addp	v0.16b, v0.16b, v0.16b
	addp	v0.16b, v0.16b, v0.16b
	umov	w14, v0.h[0]
	fmov	s0, w14
	cnt	v0.8b, v0.8b
	addv	b0, v0.8b
	fmov	w14, s0
	add	x12, x12, x14
	b.hi	LBB82_13
	and	x10, x1, #0xfffffffffffffff0
	subs	x13, x1, x10
	b.hi	LBB82_16
	b	LBB82_22
LBB82_15:
	mov	x12, xzr
	mov	x10, xzr
	subs	x13, x1, xzr
	b.ls	LBB82_22
LBB82_16:
	cmp	x13, #8
	b.lo	LBB82_20
	movi	v0.2d, #0000000000000000
	movi	v1.2d, #0000000000000000
	and	x11, x1, #0x7
	movi	v2.2d, #0000000000000000
	movi	v3.2d, #0000000000000000
	sub	x13, x13, x11
	add	x14, x10, x11
	mov	v0.d[0], x12
	add	x12, x8, x10, lsl #2
	add	x10, x10, x13
	add	x15, x12, x0
	sub	x12, x14, x1
	add	x13, x15, #16
LBB82_18:
	movi	v4.4s, #16, msl #16
	ldp	q5, q6, [x13, #-16]
	mov	w14, #1
	adds	x12, x12, #8
	add	x13, x13, #32
	cmhi	v5.4s, v5.4s, v4.4s
	cmhi	v4.4s, v6.4s, v4.4s
	dup	v6.2d, x14
	ushll2	v7.2d, v5.4s, #0
	ushll	v5.2d, v5.2s, #0
	ushll	v16.2d, v4.2s, #0
	ushll2	v4.2d, v4.4s, #0
	and	v7.16b, v7.16b, v6.16b
	and	v5.16b, v5.16b, v6.16b
	and	v16.16b, v16.16b, v6.16b
	and	v4.16b, v4.16b, v6.16b
	add	v2.2d, v2.2d, v7.2d
	add	v0.2d, v0.2d, v5.2d
	add	v1.2d, v1.2d, v16.2d
	add	v3.2d, v3.2d, v4.2d
	b.ne	LBB82_18
	add	v0.2d, v1.2d, v0.2d
	add	v1.2d, v3.2d, v2.2d
	add	v0.2d, v0.2d, v1.2d
	addp	d0, v0.2d
	fmov	x12, d0
	cbz	x11, LBB82_22
LBB82_20:
	add	x11, x8, x10, lsl #2
	sub	x8, x1, x10
	add	x10, x0, x11
LBB82_21:
	ldrh	w11, [x10, #2]
	add	x10, x10, #4
	cmp	w11, #16
	cinc	x12, x12, hi
	subs	x8, x8, #1
	b.ne	LBB82_21
LBB82_22:
	add	x8, x9, x1
	sub	x8, x8, x12
	lsl	x0, x8, #1
	ret
Lfunc_end82:
	.cfi_endproc

	.section	__TEXT,__text,regular,pure_instructions
	.globl	_dethrux_from_utf8_len_aarch64
	.private_extern	_dethrux_from_utf8_len_aarch64
	.p2align	2
_dethrux_from_utf8_len_aarch64:
	.cfi_startproc
	hint	#34
	sub	sp, sp, #80
	.cfi_def_cfa_offset 80
	stp	x29, x30, [sp, #32]
	str	x21, [sp, #48]
	stp	x20, x19, [sp, #64]
	add	x29, sp, #32
	.cfi_def_cfa w29, 48
	.cfi_offset w19, -8
	.cfi_offset w20, -16
	.cfi_offset w21, -32
	.cfi_offset w30, -40
	.cfi_offset w29, -48
	.cfi_remember_state
	movi	v0.2d, #0000000000000000
	mov	w8, #4096
	cmp	x0, #0
	csel	x21, x8, xzr, eq
	mov	x19, x0
	mov	x20, x1
	add	x0, x0, x21
	stp	q0, q0, [sp]
	bl	"_utf16_transcode::sizes::is_text_within_block"
	cbz	w0, LBB83_2
	add	x0, x19, x21
	mov	x1, x20
	.cfi_def_cfa wsp, 80
	ldp	x20, x19, [sp, #64]
	ldr	x21, [sp, #48]
	ldp	x29, x30, [sp, #32]
	add	sp, sp, #80
	.cfi_def_cfa_offset 0
	.cfi_restore w19
	.cfi_restore w20
	.cfi_restore w21
	.cfi_restore w30
	.cfi_restore w29
	b	"_utf16_units::size::utf16_len"
LBB83_2:
	.cfi_restore_state
	.cfi_remember_state
	mov	x0, sp
	add	x1, x19, x21
	mov	x2, x20
	bl	"_simdutf8::compat::from_utf8"
	ldrb	w8, [sp]
	cbz	w8, LBB83_4
	ldr	x1, [sp, #8]
	add	x0, x19, x21
	.cfi_def_cfa wsp, 80
	ldp	x20, x19, [sp, #64]
	ldr	x21, [sp, #48]
	ldp	x29, x30, [sp, #32]
	add	sp, sp, #80
	.cfi_def_cfa_offset 0
	.cfi_restore w19
	.cfi_restore w20
	.cfi_restore w21
	.cfi_restore w30
	.cfi_restore w29
	b	"_utf16_units::size::utf16_len"
LBB83_4:
	.cfi_restore_state
	ldp	x0, x1, [sp, #8]
	.cfi_def_cfa wsp, 80
	ldp	x20, x19, [sp, #64]
	ldr	x21, [sp, #48]
	ldp	x29, x30, [sp, #32]
	add	sp, sp, #80
	.cfi_def_cfa_offset 0
	.cfi_restore w19
	.cfi_restore w20
	.cfi_restore w21
	.cfi_restore w30
	.cfi_restore w29
	b	"_utf16_units::size::utf16_len"
Lfunc_end83:
	.cfi_endproc

	.section	__TEXT,__text,regular,pure_instructions
	.globl	_dethrux_from_utf8_lossy_len_aarch64
	.private_extern	_dethrux_from_utf8_lossy_len_aarch64
	.p2align	2
_dethrux_from_utf8_lossy_len_aarch64:
	.cfi_startproc
	hint	#34
	sub	sp, sp, #128
	.cfi_def_cfa_offset 128
	stp	x29, x30, [sp, #64]
	stp	x24, x23, [sp, #80]
	stp	x22, x21, [sp, #96]
	stp	x20, x19, [sp, #112]
	add	x29, sp, #64
	.cfi_def_cfa w29, 64
	.cfi_offset w19, -8
	.cfi_offset w20, -16
	.cfi_offset w21, -24
	.cfi_offset w22, -32
	.cfi_offset w23, -40
	.cfi_offset w24, -48
	.cfi_offset w30, -56
	.cfi_offset w29, -64
	.cfi_remember_state
	movi	v0.2d, #0000000000000000
	mov	w8, #4096
	cmp	x0, #0
	csel	x8, x8, xzr, eq
	mov	x19, x1
	add	x20, x0, x8
	mov	x0, x20
	stp	q0, q0, [sp]
	bl	"_utf16_transcode::sizes::is_text_within_block"
	cbz	w0, LBB84_2
	mov	x0, x20
	mov	x1, x19
	.cfi_def_cfa wsp, 128
	ldp	x20, x19, [sp, #112]
	ldp	x22, x21, [sp, #96]
	ldp	x24, x23, [sp, #80]
	ldp	x29, x30, [sp, #64]
	add	sp, sp, #128
	.cfi_def_cfa_offset 0
	.cfi_restore w19
	.cfi_restore w20
	.cfi_restore w21
	.cfi_restore w22
	.cfi_restore w23
	.cfi_restore w24
	.cfi_restore w30
	.cfi_restore w29
	b	"_utf16_units::size::utf16_len"
LBB84_2:
	.cfi_restore_state
	.cfi_remember_state
	mov	x0, sp
	mov	x1, x20
	mov	x2, x19
	bl	"_simdutf8::compat::from_utf8"
	ldrb	w8, [sp]
	cbz	w8, LBB84_8
	mov	x21, xzr
	cbnz	x19, LBB84_6
LBB84_4:
	mov	x0, x21
	.cfi_def_cfa wsp, 128
	ldp	x20, x19, [sp, #112]
	ldp	x22, x21, [sp, #96]
	ldp	x24, x23, [sp, #80]
	ldp	x29, x30, [sp, #64]
	add	sp, sp, #128
	.cfi_def_cfa_offset 0
	.cfi_restore w19
	.cfi_restore w20
	.cfi_restore w21
	.cfi_restore w22
	.cfi_restore w23
	.cfi_restore w24
	.cfi_restore w30
	.cfi_restore w29
	ret
LBB84_5:
	.cfi_restore_state
	mov	x0, x20
	mov	x1, x22
	add	x24, x20, x23
	sub	x19, x19, x23
	bl	"_utf16_units::size::utf16_len"
	add	x8, x0, x21
	cmp	x23, x22
	mov	x20, x24
	add	x9, x8, #2
	csel	x21, x8, x9, eq
	cbz	x19, LBB84_4
LBB84_6:
	sub	x0, x29, #24
	mov	x1, x20
	mov	x2, x19
	stp	xzr, xzr, [x29, #-24]
	stur	xzr, [x29, #-8]
	bl	"_core::str::utf8::from_utf8"
	ldurb	w8, [x29, #-24]
	mov	x23, x19
	mov	x22, x19
	cbz	w8, LBB84_5
	ldur	x22, [x29, #-16]
	ldurb	w8, [x29, #-8]
	ldurb	w9, [x29, #-7]
	sub	x10, x19, x22
	cmp	w8, #1
	csel	x8, x9, x10, eq
	cmp	x10, x8
	csel	x9, x10, x8, lo
	cmp	x8, #0
	csinc	x8, x9, xzr, ne
	add	x23, x8, x22
	b	LBB84_5
LBB84_8:
	ldp	x0, x1, [sp, #8]
	.cfi_def_cfa wsp, 128
	ldp	x20, x19, [sp, #112]
	ldp	x22, x21, [sp, #96]
	ldp	x24, x23, [sp, #80]
	ldp	x29, x30, [sp, #64]
	add	sp, sp, #128
	.cfi_def_cfa_offset 0
	.cfi_restore w19
	.cfi_restore w20
	.cfi_restore w21
	.cfi_restore w22
	.cfi_restore w23
	.cfi_restore w24
	.cfi_restore w30
	.cfi_restore w29
	b	"_utf16_units::size::utf16_len"
Lfunc_end84:
	.cfi_endproc

	.section	__TEXT,__text,regular,pure_instructions
	.globl	_dethrux_from_utf8_replacements_aarch64
	.private_extern	_dethrux_from_utf8_replacements_aarch64
	.p2align	2
_dethrux_from_utf8_replacements_aarch64:
	.cfi_startproc
	hint	#34
	sub	sp, sp, #80
	.cfi_def_cfa_offset 80
	stp	x29, x30, [sp, #32]
	str	x21, [sp, #48]
	stp	x20, x19, [sp, #64]
	add	x29, sp, #32
	.cfi_def_cfa w29, 48
	.cfi_offset w19, -8
	.cfi_offset w20, -16
	.cfi_offset w21, -32
	.cfi_offset w30, -40
	.cfi_offset w29, -48
	.cfi_remember_state
	cbz	x1, LBB85_6
	cmp	x0, #0
	mov	w8, #4096
	mov	x19, x1
	csel	x8, x8, xzr, eq
	mov	x20, xzr
	add	x21, x0, x8
	b	LBB85_3
LBB85_2:
	ldr	x8, [sp, #16]
	ldrb	w9, [sp, #24]
	ldrb	w10, [sp, #25]
	sub	x11, x19, x8
	cmp	w9, #1
	csel	x9, x10, x11, eq
	cmp	x11, x9
	csel	x10, x11, x9, lo
	cmp	x9, #0
	csinc	x9, x10, xzr, ne
	cmp	x9, #0
	add	x9, x9, x8
	cset	w8, ne
	subs	x19, x19, x9
	add	x21, x21, x9
	add	x20, x8, x20
	b.eq	LBB85_5
LBB85_3:
	add	x0, sp, #8
	mov	x1, x21
	mov	x2, x19
	stp	xzr, xzr, [sp, #8]
	str	xzr, [sp, #24]
	bl	"_core::str::utf8::from_utf8"
	ldrb	w8, [sp, #8]
	cbnz	w8, LBB85_2
	mov	x9, x19
	subs	x19, x19, x19
	add	x21, x21, x9
	add	x20, xzr, x20
	b.ne	LBB85_3
LBB85_5:
	mov	x0, x20
	.cfi_def_cfa wsp, 80
	ldp	x20, x19, [sp, #64]
	ldr	x21, [sp, #48]
	ldp	x29, x30, [sp, #32]
	add	sp, sp, #80
	.cfi_def_cfa_offset 0
	.cfi_restore w19
	.cfi_restore w20
	.cfi_restore w21
	.cfi_restore w30
	.cfi_restore w29
	ret
LBB85_6:
	.cfi_restore_state
	mov	x20, xzr
	mov	x0, x20
	.cfi_def_cfa wsp, 80
	ldp	x20, x19, [sp, #64]
	ldr	x21, [sp, #48]
	ldp	x29, x30, [sp, #32]
	add	sp, sp, #80
	.cfi_def_cfa_offset 0
	.cfi_restore w19
	.cfi_restore w20
	.cfi_restore w21
	.cfi_restore w30
	.cfi_restore w29
	ret
Lfunc_end85:
	.cfi_endproc

	.section	__TEXT,__text,regular,pure_instructions
	.globl	_dethrux_from_wtf8_len_aarch64
	.private_extern	_dethrux_from_wtf8_len_aarch64
	.p2align	2
_dethrux_from_wtf8_len_aarch64:
	.cfi_startproc
	hint	#34
	sub	sp, sp, #112
	.cfi_def_cfa_offset 112
	stp	x29, x30, [sp, #32]
	str	x25, [sp, #48]
	stp	x24, x23, [sp, #64]
	stp	x22, x21, [sp, #80]
	stp	x20, x19, [sp, #96]
	add	x29, sp, #32
	.cfi_def_cfa w29, 80
	.cfi_offset w19, -8
	.cfi_offset w20, -16
	.cfi_offset w21, -24
	.cfi_offset w22, -32
	.cfi_offset w23, -40
	.cfi_offset w24, -48
	.cfi_offset w25, -64
	.cfi_offset w30, -72
	.cfi_offset w29, -80
	cmp	x0, #0
	mov	w8, #4096
	mov	x19, x1
	csel	x8, x8, xzr, eq
	mov	w22, wzr
	mov	x23, xzr
	mov	x24, xzr
	add	x21, x0, x8
LBB86_1:
	add	x0, sp, #8
	add	x1, x21, x24
	sub	x2, x19, x24
	stp	xzr, xzr, [sp, #8]
	add	x25, x21, x24
	str	xzr, [sp, #24]
	bl	"_core::str::utf8::from_utf8"
	ldrb	w8, [sp, #8]
	ldp	x9, x10, [sp, #16]
	cmp	w8, #0
	csel	x20, x10, x9, eq
	csel	x0, x9, x25, eq
	mov	x1, x20
	add	x24, x20, x24
	bl	"_utf16_units::size::utf16_len"
	cmp	x20, #0
	sub	x10, x19, x24
	add	x0, x0, x23
	cset	w8, eq
	cmp	x10, #2
	b.lo	LBB86_8
	add	x9, x21, x24
	ldrb	w11, [x9]
	cmp	w11, #237
	b.ne	LBB86_8
	cmp	x10, #2
	b.eq	LBB86_8
	ldrb	w10, [x9, #1]
	and	w11, w10, #0xe0
	cmp	w11, #160
	b.ne	LBB86_8
	ldrsb	w9, [x9, #2]
	cmn	w9, #65
	b.gt	LBB86_8
	and	w9, w10, #0x30
	and	w8, w22, w8
	cmp	w9, #48
	csel	w8, wzr, w8, ne
	tbnz	w8, #0, LBB86_8
	cmp	w9, #32
	add	x24, x24, #3
	add	x23, x0, #2
	cset	w22, eq
	b	LBB86_1
LBB86_8:
	.cfi_def_cfa wsp, 112
	ldp	x20, x19, [sp, #96]
	ldr	x25, [sp, #48]
	ldp	x22, x21, [sp, #80]
	ldp	x24, x23, [sp, #64]
	ldp	x29, x30, [sp, #32]
	add	sp, sp, #112
	.cfi_def_cfa_offset 0
	.cfi_restore w19
	.cfi_restore w20
	.cfi_restore w21
	.cfi_restore w22
	.cfi_restore w23
	.cfi_restore w24
	.cfi_restore w25
	.cfi_restore w30
	.cfi_restore w29
	ret
Lfunc_end86:
	.cfi_endproc

	.section	__TEXT,__literal16,16byte_literals
	.p2align	4, 0x0
lCPI87_0:
	.byte	1
	.byte	2
	.byte	4
	.byte	8
	.byte	16
	.byte	32
	.byte	64
	.byte	128
	.byte	1
	.byte	2
	.byte	4
	.byte	8
	.byte	16
	.byte	32
	.byte	64
	.byte	128
lCPI87_1:
	.hword	1
	.hword	2
	.hword	4
	.hword	8
	.hword	16
	.hword	32
	.hword	64
	.hword	128
	.section	__TEXT,__text,regular,pure_instructions
	.globl	_dethrux_nul_offset_aarch64
	.private_extern	_dethrux_nul_offset_aarch64
	.p2align	2
_dethrux_nul_offset_aarch64:
	.cfi_startproc
	hint	#34
	mov	w8, #4096
	cmp	x0, #0
	csel	x8, x8, xzr, eq
	cmp	x1, #15
	add	x9, x0, x8
	and	x8, x1, #0xfffffffffffffffe
	b.hi	LBB87_7
	mov	x10, xzr
	cbz	x8, LBB87_6
	sub	x11, x8, #1
	and	x11, x11, #0xfffffffffffffffe
	add	x11, x11, #2
LBB87_3:
	add	x12, x9, x10
	ldrb	w13, [x12]
	ldrb	w12, [x12, #1]
	orr	w12, w12, w13
	cbz	w12, LBB87_6
	add	x10, x10, #2
	cmp	x10, x8
	b.lo	LBB87_3
	mov	x10, x11
LBB87_6:
	cmp	x10, x8
	csel	x0, x1, x10, eq
	ret
LBB87_7:
	cmp	x1, #64
	b.lo	LBB87_14
	mov	x11, xzr
	and	x10, x1, #0xffffffffffffffc0
	mov	x12, x1
LBB87_9:
	add	x13, x9, x11
	ldp	q1, q0, [x13, #32]
	ldp	q2, q3, [x13]
	adrp	x13, lCPI87_0@PAGE
	cmeq	v0.8h, v0.8h, #0
	cmeq	v1.8h, v1.8h, #0
	cmeq	v3.8h, v3.8h, #0
	cmeq	v2.8h, v2.8h, #0
	uzp1	v0.16b, v1.16b, v0.16b
	uzp1	v1.16b, v2.16b, v3.16b
	ldr	q2, [x13, lCPI87_0@PAGEOFF]
	and	v0.16b, v0.16b, v2.16b
	and	v1.16b, v1.16b, v2.16b
	addp	v0.16b, v1.16b, v0.16b
	addp	v0.16b, v0.16b, v0.16b
	addp	v0.16b, v0.16b, v0.16b
	fmov	w13, s0
	rbit	w13, w13
	clz	w13, w13
	cmp	w13, #31
	b.ls	LBB87_16
	sub	x12, x12, #64
	add	x11, x11, #64
	cmp	x12, #63
	b.hi	LBB87_9
	sub	x12, x8, x10
	adrp	x11, lCPI87_1@PAGE
	cmp	x12, #17
	b.lo	LBB87_15
LBB87_12:
	ldr	q0, [x9, x10]
	ldr	q1, [x11, lCPI87_1@PAGEOFF]
	cmeq	v0.8h, v0.8h, #0
	and	v0.16b, v0.16b, v1.16b
	addv	h0, v0.8h
	fmov	w13, s0
	orr	w13, w13, #0x100
	rbit	w13, w13
	clz	w13, w13
	cmp	w13, #7
	b.ls	LBB87_17
	sub	x12, x12, #16
	add	x10, x10, #16
	cmp	x12, #16
	b.hi	LBB87_12
	b	LBB87_15
LBB87_14:
	mov	x10, xzr
	sub	x12, x8, xzr
	adrp	x11, lCPI87_1@PAGE
	cmp	x12, #17
	b.hs	LBB87_12
LBB87_15:
	sub	x10, x8, #16
	ldr	q1, [x11, lCPI87_1@PAGEOFF]
	ldr	q0, [x9, x10]
	cmeq	v0.8h, v0.8h, #0
	and	v0.16b, v0.16b, v1.16b
	addv	h0, v0.8h
	fmov	w9, s0
	orr	w9, w9, #0x100
	rbit	w9, w9
	clz	w9, w9
	lsl	w9, w9, #1
	add	x10, x10, x9
	cmp	x10, x8
	csel	x0, x1, x10, eq
	ret
LBB87_16:
	lsl	w9, w13, #1
	add	x10, x9, x11
	cmp	x10, x8
	csel	x0, x1, x10, eq
	ret
LBB87_17:
	lsl	w9, w13, #1
	add	x10, x9, x10
	cmp	x10, x8
	csel	x0, x1, x10, eq
	ret
Lfunc_end87:
	.cfi_endproc

	.section	__TEXT,__text,regular,pure_instructions
	.globl	_dethrux_shard_offset_aarch64
	.private_extern	_dethrux_shard_offset_aarch64
	.p2align	2
_dethrux_shard_offset_aarch64:
	.cfi_startproc
	hint	#34
	cmp	x1, x2
	b.ls	LBB88_2
	lsr	x8, x0, #1
	udiv	x9, x8, x1
	msub	x8, x9, x1, x8
	cmp	x8, x2
	csel	x8, x8, x2, lo
	madd	x8, x9, x2, x8
	lsl	x0, x8, #1
LBB88_2:
	ret
Lfunc_end88:
	.cfi_endproc

	.section	__TEXT,__text,regular,pure_instructions
	.globl	_dethrux_swap_byte_order_aarch64
	.private_extern	_dethrux_swap_byte_order_aarch64
	.p2align	2
_dethrux_swap_byte_order_aarch64:
	.cfi_startproc
	hint	#34
	mov	w8, #4096
	cmp	x0, #0
	mov	x9, xzr
	csel	x8, x8, xzr, eq
	cmp	x1, #64
	b.lo	LBB89_3
	mov	x9, xzr
	add	x10, x0, x8
	mov	x11, x1
LBB89_2:
	add	x12, x10, x9
	sub	x11, x11, #64
	add	x9, x9, #64
	ldp	q0, q1, [x12, #32]
	cmp	x11, #63
	ldp	q2, q3, [x12]
	rev16	v0.16b, v0.16b
	rev16	v1.16b, v1.16b
	rev16	v2.16b, v2.16b
	rev16	v3.16b, v3.16b
	stp	q0, q1, [x12, #32]
	stp	q2, q3, [x12]
	b.hi	LBB89_2
LBB89_3:
	sub	x10, x1, x9
	subs	x10, x10, #2
	b.lo	LBB89_17
	cmp	x10, #14
	b.lo	LBB89_15
	add	x11, x0, x8
	and	x12, x10, #0xfffffffffffffffe
	add	x11, x11, x9
	add	x11, x11, #1
	add	x12, x11, x12
	cmp	x12, x11
	b.lo	LBB89_15
	lsr	x11, x10, #1
	cmp	x10, #62
	add	x10, x11, #1
	b.hs	LBB89_8
	mov	x11, xzr
	b	LBB89_12
LBB89_8:
	add	x11, x8, x9
	and	x12, x10, #0x18
	and	x14, x10, #0xffffffffffffffe0
	add	x13, x11, x0
	and	x11, x10, #0xffffffffffffffe0
	add	x13, x13, #32
LBB89_9:
	ldp	q0, q1, [x13, #-32]
	subs	x14, x14, #32
	ldp	q2, q3, [x13]
	rev16	v0.16b, v0.16b
	rev16	v1.16b, v1.16b
	rev16	v2.16b, v2.16b
	rev16	v3.16b, v3.16b
	stp	q0, q1, [x13, #-32]
	stp	q2, q3, [x13], #64
	b.ne	LBB89_9
	cmp	x10, x11
	b.eq	LBB89_17
	cbz	x12, LBB89_18
LBB89_12:
	add	x13, x8, x9
	and	x12, x10, #0xfffffffffffffff8
	add	x13, x13, x11, lsl #1
	add	x9, x9, x12, lsl #1
	sub	x11, x11, x12
	add	x13, x0, x13
LBB89_13:
	ldr	q0, [x13]
	adds	x11, x11, #8
	rev16	v0.16b, v0.16b
	str	q0, [x13], #16
	b.ne	LBB89_13
	cmp	x10, x12
	b.eq	LBB89_17
LBB89_15:
	add	x8, x8, x9
	add	x10, x8, x0
	sub	x8, x1, x9
	add	x9, x10, #1
LBB89_16:
	ldrb	w10, [x9]
	ldurb	w11, [x9, #-1]
	sub	x8, x8, #2
	cmp	x8, #1
	sturb	w10, [x9, #-1]
	strb	w11, [x9], #2
	b.hi	LBB89_16
LBB89_17:
	ret
LBB89_18:
	add	x9, x9, x11, lsl #1
	b	LBB89_15
Lfunc_end89:
	.cfi_endproc

	.section	__TEXT,__literal16,16byte_literals
	.p2align	4, 0x0
lCPI90_0:
	.byte	1
	.byte	2
	.byte	4
	.byte	8
	.byte	16
	.byte	32
	.byte	64
	.byte	128
	.byte	1
	.byte	2
	.byte	4
	.byte	8
	.byte	16
	.byte	32
	.byte	64
	.byte	128
	.section	__TEXT,__text,regular,pure_instructions
	.globl	_dethrux_validate_utf32_aarch64
	.private_extern	_dethrux_validate_utf32_aarch64
	.p2align	2
_dethrux_validate_utf32_aarch64:
	.cfi_startproc
	hint	#34
	cmp	x0, #0
	mov	w10, #4096
	mov	x8, x1
	csel	x10, x10, xzr, eq
	mov	x9, xzr
	cmp	x1, #16
	add	x10, x0, x10
	b.lo	LBB90_6
	mov	x9, xzr
	mov	x11, x10
	mov	x12, x8
LBB90_2:
	movi	v3.4s, #16, msl #16
	ldp	q0, q1, [x11, #32]
	ldp	q4, q2, [x11], #64
	adrp	x13, lCPI90_0@PAGE
	cmhi	v5.4s, v1.4s, v3.4s
	cmhi	v6.4s, v0.4s, v3.4s
	cmhi	v7.4s, v2.4s, v3.4s
	cmhi	v3.4s, v4.4s, v3.4s
	uzp1	v5.8h, v6.8h, v5.8h
	uzp1	v3.8h, v3.8h, v7.8h
	uzp1	v5.16b, v3.16b, v5.16b
	ldr	q3, [x13, lCPI90_0@PAGEOFF]
	and	v5.16b, v5.16b, v3.16b
	addp	v5.16b, v5.16b, v5.16b
	addp	v5.16b, v5.16b, v5.16b
	addp	v5.16b, v5.16b, v5.16b
	umov	w13, v5.h[0]
	cbnz	w13, LBB90_6
	mvni	v5.4s, #7, msl #8
	movi	v6.4s, #216, lsl #8
	and	v4.16b, v4.16b, v5.16b
	and	v1.16b, v1.16b, v5.16b
	and	v0.16b, v0.16b, v5.16b
	and	v2.16b, v2.16b, v5.16b
	cmeq	v4.4s, v4.4s, v6.4s
	cmeq	v0.4s, v0.4s, v6.4s
	cmeq	v1.4s, v1.4s, v6.4s
	cmeq	v2.4s, v2.4s, v6.4s
	uzp1	v0.8h, v0.8h, v1.8h
	uzp1	v2.8h, v4.8h, v2.8h
	uzp1	v0.16b, v2.16b, v0.16b
	and	v0.16b, v0.16b, v3.16b
	addp	v0.16b, v0.16b, v0.16b
	addp	v0.16b, v0.16b, v0.16b
	addp	v0.16b, v0.16b, v0.16b
	umov	w13, v0.h[0]
	cbnz	w13, LBB90_6
	sub	x12, x12, #16
	add	x9, x9, #16
	cmp	x12, #15
	b.hi	LBB90_2
	and	x9, x8, #0xfffffffffffffff0
LBB90_6:
	cmp	x9, x8
	b.lo	LBB90_9
LBB90_7:
	mov	x1, xzr
	mov	x0, x8
	ret
LBB90_8:
	add	x9, x9, #1
	cmp	x8, x9
	b.eq	LBB90_7
LBB90_9:
	ldr	w11, [x10, x9, lsl #2]
	lsr	w12, w11, #11
	cmp	w12, #27
	b.lo	LBB90_8
	sub	w11, w11, #14, lsl #12
	lsr	w11, w11, #13
	cmp	w11, #128
	b.ls	LBB90_8
	mov	x1, #4294967297
	mov	x0, x9
	ret
Lfunc_end90:
	.cfi_endproc

	.section	__TEXT,__text,regular,pure_instructions
	.globl	_dethrux_version_aarch64
	.private_extern	_dethrux_version_aarch64
	.p2align	2
_dethrux_version_aarch64:
	.cfi_startproc
	hint	#34
	mov	w0, #2000
	ret
Lfunc_end91:
	.cfi_endproc

	.section	__TEXT,__text,regular,pure_instructions
	.globl	_dethrux_compare_aarch64
	.private_extern	_dethrux_compare_aarch64
	.p2align	2
_dethrux_compare_aarch64:
	.cfi_startproc
	hint	#34
	stp	x29, x30, [sp, #-80]!
	.cfi_def_cfa_offset 80
	str	x25, [sp, #16]
	stp	x24, x23, [sp, #32]
	stp	x22, x21, [sp, #48]
	stp	x20, x19, [sp, #64]
	mov	x29, sp
	.cfi_def_cfa w29, 80
	.cfi_offset w19, -8
	.cfi_offset w20, -16
	.cfi_offset w21, -24
	.cfi_offset w22, -32
	.cfi_offset w23, -40
	.cfi_offset w24, -48
	.cfi_offset w25, -64
	.cfi_offset w30, -72
	.cfi_offset w29, -80
	.cfi_remember_state
	cmp	x1, #0
	mov	w8, #4096
	mov	x19, x5
	csel	x9, x8, xzr, eq
	cmp	x4, #0
	mov	x20, x2
	csel	x8, x8, xzr, eq
	cmp	w0, #1
	add	x22, x1, x9
	add	x23, x4, x8
	b.ne	LBB92_56
	cmp	w3, #1
	b.ne	LBB92_29
	cbz	x20, LBB92_14
LBB92_3:
	cmp	x20, #1
	b.ne	LBB92_5
LBB92_4:
	mov	w24, wzr
	mov	w21, #65533
	mov	w8, #2
	b	LBB92_15
LBB92_5:
	ldrb	w8, [x22]
	and	w9, w8, #0xf8
	cmp	w9, #216
	b.ne	LBB92_10
	mov	w9, #220
	bics	wzr, w9, w8
	b.ne	LBB92_8
	mov	w24, wzr
	mov	w21, #65533
	mov	w8, #2
	mov	w25, #2
	cmp	x19, #1
	b.ne	LBB92_16
	b	LBB92_21
LBB92_8:
	cmp	x20, #4
	b.lo	LBB92_4
	ldrb	w9, [x22, #2]
	and	w9, w9, #0xfc
	cmp	w9, #220
	b.ne	LBB92_13
LBB92_10:
	ldrb	w9, [x22, #1]
	ubfx	w10, w8, #2, #6
	orr	w8, w8, w9, lsl #8
	cmp	w10, #54
	rev16	w0, w8
	b.ne	LBB92_12
	ldrh	w8, [x22, #2]
	rev16	w1, w8
	bl	"_utf16_units::unit::decode_surrogates"
	mov	w21, w0
	mov	w24, wzr
	mov	w8, #2
	mov	w25, #4
	cmp	x19, #1
	b.ne	LBB92_16
	b	LBB92_21
LBB92_12:
	mov	w25, #2
	mov	w24, wzr
	and	w21, w0, #0xffff
	mov	w8, w25
	cmp	x19, #1
	b.ne	LBB92_16
	b	LBB92_21
LBB92_13:
	mov	w25, #2
	mov	w24, wzr
	mov	w21, #65533
	mov	w8, w25
	cmp	x19, #1
	b.ne	LBB92_16
	b	LBB92_21
LBB92_14:
	mov	w21, wzr
	mov	w8, #1
	mov	w24, #1
LBB92_15:
	mov	x25, x20
	cmp	x19, #1
	b.eq	LBB92_21
LBB92_16:
	cbz	x19, LBB92_114
	ldrb	w8, [x23]
	and	w9, w8, #0xf8
	cmp	w9, #216
	b.ne	LBB92_26
	mov	w9, #220
	bics	wzr, w9, w8
	b.ne	LBB92_20
LBB92_19:
	mov	w0, #65533
	mov	w8, #2
	b	LBB92_22
LBB92_20:
	cmp	x19, #4
	b.hs	LBB92_25
LBB92_21:
	mov	w0, #65533
	mov	x8, x19
LBB92_22:
	tbnz	w24, #0, LBB92_112
	cmp	w21, w0
	b.ne	LBB92_111
	add	x22, x22, x25
	sub	x20, x20, x25
	add	x23, x23, x8
	sub	x19, x19, x8
	cbnz	x20, LBB92_3
	b	LBB92_14
LBB92_25:
	ldrb	w9, [x23, #2]
	and	w9, w9, #0xfc
	cmp	w9, #220
	b.ne	LBB92_19
LBB92_26:
	ldrb	w9, [x23, #1]
	ubfx	w10, w8, #2, #6
	orr	w8, w8, w9, lsl #8
	cmp	w10, #54
	rev16	w0, w8
	b.ne	LBB92_28
	ldrh	w8, [x23, #2]
	rev16	w1, w8
	bl	"_utf16_units::unit::decode_surrogates"
	mov	w8, #4
	b	LBB92_22
LBB92_28:
	and	w0, w0, #0xffff
	mov	w8, #2
	b	LBB92_22
LBB92_29:
	cbz	x20, LBB92_32
	cmp	x20, #1
	b.ne	LBB92_39
LBB92_31:
	mov	w24, wzr
	mov	w21, #65533
	mov	w8, #2
	b	LBB92_33
LBB92_32:
	mov	w21, wzr
	mov	w8, #1
	mov	w24, #1
LBB92_33:
	mov	x25, x20
LBB92_34:
	cmp	x19, #1
	b.eq	LBB92_43
	cbz	x19, LBB92_114
	ldrb	w8, [x23, #1]
	and	w9, w8, #0xf8
	cmp	w9, #216
	b.ne	LBB92_53
	mov	w9, #220
	bics	wzr, w9, w8
	b.ne	LBB92_42
LBB92_38:
	mov	w0, #65533
	mov	w8, #2
	b	LBB92_44
LBB92_39:
	ldrb	w8, [x22]
	and	w9, w8, #0xf8
	cmp	w9, #216
	b.ne	LBB92_49
	mov	w9, #220
	bics	wzr, w9, w8
	b.ne	LBB92_47
LBB92_41:
	mov	w25, #2
	mov	w24, wzr
	mov	w21, #65533
	mov	w8, w25
	b	LBB92_34
LBB92_42:
	cmp	x19, #4
	b.hs	LBB92_52
LBB92_43:
	mov	w0, #65533
	mov	x8, x19
LBB92_44:
	tbnz	w24, #0, LBB92_112
	cmp	w21, w0
	b.ne	LBB92_111
	add	x22, x22, x25
	sub	x20, x20, x25
	add	x23, x23, x8
	sub	x19, x19, x8
	b	LBB92_29
LBB92_47:
	cmp	x20, #4
	b.lo	LBB92_31
	ldrb	w9, [x22, #2]
	and	w9, w9, #0xfc
	cmp	w9, #220
	b.ne	LBB92_41
LBB92_49:
	ldrb	w9, [x22, #1]
	ubfx	w10, w8, #2, #6
	orr	w8, w8, w9, lsl #8
	cmp	w10, #54
	rev16	w0, w8
	b.ne	LBB92_51
	ldrh	w8, [x22, #2]
	rev16	w1, w8
	bl	"_utf16_units::unit::decode_surrogates"
	mov	w21, w0
	mov	w24, wzr
	mov	w8, #2
	mov	w25, #4
	b	LBB92_34
LBB92_51:
	mov	w25, #2
	mov	w24, wzr
	and	w21, w0, #0xffff
	mov	w8, w25
	b	LBB92_34
LBB92_52:
	ldrb	w9, [x23, #3]
	and	w9, w9, #0xfc
	cmp	w9, #220
	b.ne	LBB92_38
LBB92_53:
	ldrb	w9, [x23]
	and	w10, w8, #0xfc
	cmp	w10, #216
	orr	w0, w9, w8, lsl #8
	b.ne	LBB92_55
	ldrh	w1, [x23, #2]
	bl	"_utf16_units::unit::decode_surrogates"
	mov	w8, #4
	b	LBB92_44
LBB92_55:
	mov	w8, #2
	b	LBB92_44
LBB92_56:
	cmp	w3, #1
	b.ne	LBB92_83
	cbz	x20, LBB92_68
LBB92_58:
	cmp	x20, #1
	b.ne	LBB92_60
LBB92_59:
	mov	w24, wzr
	mov	w21, #65533
	mov	w8, #2
	b	LBB92_69
LBB92_60:
	ldrb	w8, [x22, #1]
	and	w9, w8, #0xf8
	cmp	w9, #216
	b.ne	LBB92_65
	mov	w9, #220
	bics	wzr, w9, w8
	b.ne	LBB92_63
LBB92_62:
	mov	w25, #2
	mov	w24, wzr
	mov	w21, #65533
	mov	w8, w25
	cmp	x19, #1
	b.ne	LBB92_70
	b	LBB92_75
LBB92_63:
	cmp	x20, #4
	b.lo	LBB92_59
	ldrb	w9, [x22, #3]
	and	w9, w9, #0xfc
	cmp	w9, #220
	b.ne	LBB92_62
LBB92_65:
	ldrb	w9, [x22]
	and	w10, w8, #0xfc
	cmp	w10, #216
	orr	w21, w9, w8, lsl #8
	b.ne	LBB92_67
	ldrh	w1, [x22, #2]
	mov	w0, w21
	bl	"_utf16_units::unit::decode_surrogates"
	mov	w21, w0
	mov	w24, wzr
	mov	w8, #2
	mov	w25, #4
	cmp	x19, #1
	b.ne	LBB92_70
	b	LBB92_75
LBB92_67:
	mov	w25, #2
	mov	w24, wzr
	mov	w8, w25
	cmp	x19, #1
	b.ne	LBB92_70
	b	LBB92_75
LBB92_68:
	mov	w21, wzr
	mov	w8, #1
	mov	w24, #1
LBB92_69:
	mov	x25, x20
	cmp	x19, #1
	b.eq	LBB92_75
LBB92_70:
	cbz	x19, LBB92_114
	ldrb	w8, [x23]
	and	w9, w8, #0xf8
	cmp	w9, #216
	b.ne	LBB92_80
	mov	w9, #220
	bics	wzr, w9, w8
	b.ne	LBB92_74
LBB92_73:
	mov	w0, #65533
	mov	w8, #2
	b	LBB92_76
LBB92_74:
	cmp	x19, #4
	b.hs	LBB92_79
LBB92_75:
	mov	w0, #65533
	mov	x8, x19
LBB92_76:
	tbnz	w24, #0, LBB92_112
	cmp	w21, w0
	b.ne	LBB92_111
	add	x22, x22, x25
	sub	x20, x20, x25
	add	x23, x23, x8
	sub	x19, x19, x8
	cbnz	x20, LBB92_58
	b	LBB92_68
LBB92_79:
	ldrb	w9, [x23, #2]
	and	w9, w9, #0xfc
	cmp	w9, #220
	b.ne	LBB92_73
LBB92_80:
	ldrb	w9, [x23, #1]
	ubfx	w10, w8, #2, #6
	orr	w8, w8, w9, lsl #8
	cmp	w10, #54
	rev16	w0, w8
	b.ne	LBB92_82
	ldrh	w8, [x23, #2]
	rev16	w1, w8
	bl	"_utf16_units::unit::decode_surrogates"
	mov	w8, #4
	b	LBB92_76
LBB92_82:
	and	w0, w0, #0xffff
	mov	w8, #2
	b	LBB92_76
LBB92_83:
	cbz	x20, LBB92_86
	cmp	x20, #1
	b.ne	LBB92_93
LBB92_85:
	mov	w24, wzr
	mov	w21, #65533
	mov	w8, #2
	b	LBB92_87
LBB92_86:
	mov	w21, wzr
	mov	w8, #1
	mov	w24, #1
LBB92_87:
	mov	x25, x20
LBB92_88:
	cmp	x19, #1
	b.eq	LBB92_97
	cbz	x19, LBB92_113
	ldrb	w8, [x23, #1]
	and	w9, w8, #0xf8
	cmp	w9, #216
	b.ne	LBB92_107
	mov	w9, #220
	bics	wzr, w9, w8
	b.ne	LBB92_96
LBB92_92:
	mov	w0, #65533
	mov	w8, #2
	b	LBB92_98
LBB92_93:
	ldrb	w8, [x22, #1]
	and	w9, w8, #0xf8
	cmp	w9, #216
	b.ne	LBB92_103
	mov	w9, #220
	bics	wzr, w9, w8
	b.ne	LBB92_101
	mov	w24, wzr
	mov	w21, #65533
	mov	w8, #2
	mov	w25, #2
	b	LBB92_88
LBB92_96:
	cmp	x19, #4
	b.hs	LBB92_106
LBB92_97:
	mov	w0, #65533
	mov	x8, x19
LBB92_98:
	tbnz	w24, #0, LBB92_112
	cmp	w21, w0
	b.ne	LBB92_111
	add	x22, x22, x25
	sub	x20, x20, x25
	add	x23, x23, x8
	sub	x19, x19, x8
	b	LBB92_83
LBB92_101:
	cmp	x20, #4
	b.lo	LBB92_85
	ldrb	w9, [x22, #3]
	and	w9, w9, #0xfc
	cmp	w9, #220
	b.ne	LBB92_110
LBB92_103:
	ldrb	w9, [x22]
	and	w10, w8, #0xfc
	cmp	w10, #216
	orr	w21, w9, w8, lsl #8
	b.ne	LBB92_105
	ldrh	w1, [x22, #2]
	mov	w0, w21
	bl	"_utf16_units::unit::decode_surrogates"
	mov	w21, w0
	mov	w24, wzr
	mov	w8, #2
	mov	w25, #4
	b	LBB92_88
LBB92_105:
	mov	w25, #2
	mov	w24, wzr
	mov	w8, w25
	b	LBB92_88
LBB92_106:
	ldrb	w9, [x23, #3]
	and	w9, w9, #0xfc
	cmp	w9, #220
	b.ne	LBB92_92
LBB92_107:
	ldrb	w9, [x23]
	and	w10, w8, #0xfc
	cmp	w10, #216
	orr	w0, w9, w8, lsl #8
	b.ne	LBB92_109
	ldrh	w1, [x23, #2]
	bl	"_utf16_units::unit::decode_surrogates"
	mov	w8, #4
	b	LBB92_98
LBB92_109:
	mov	w8, #2
	b	LBB92_98
LBB92_110:
	mov	w25, #2
	mov	w24, wzr
	mov	w21, #65533
	mov	w8, w25
	b	LBB92_88
LBB92_111:
	b.hs	LBB92_115
LBB92_112:
	mov	w0, #-1
	.cfi_def_cfa wsp, 80
	ldp	x20, x19, [sp, #64]
	ldr	x25, [sp, #16]
	ldp	x22, x21, [sp, #48]
	ldp	x24, x23, [sp, #32]
	ldp	x29, x30, [sp], #80
	.cfi_def_cfa_offset 0
	.cfi_restore w19
	.cfi_restore w20
	.cfi_restore w21
	.cfi_restore w22
	.cfi_restore w23
	.cfi_restore w24
	.cfi_restore w25
	.cfi_restore w30
	.cfi_restore w29
	ret
LBB92_113:
	.cfi_restore_state
	.cfi_remember_state
LBB92_114:
	cmp	w8, #2
	b.ne	LBB92_116
LBB92_115:
	mov	w0, #1
	.cfi_def_cfa wsp, 80
	ldp	x20, x19, [sp, #64]
	ldr	x25, [sp, #16]
	ldp	x22, x21, [sp, #48]
	ldp	x24, x23, [sp, #32]
	ldp	x29, x30, [sp], #80
	.cfi_def_cfa_offset 0
	.cfi_restore w19
	.cfi_restore w20
	.cfi_restore w21
	.cfi_restore w22
	.cfi_restore w23
	.cfi_restore w24
	.cfi_restore w25
	.cfi_restore w30
	.cfi_restore w29
	ret
LBB92_116:
	.cfi_restore_state
	mov	w0, wzr
	.cfi_def_cfa wsp, 80
	ldp	x20, x19, [sp, #64]
	ldr	x25, [sp, #16]
	ldp	x22, x21, [sp, #48]
	ldp	x24, x23, [sp, #32]
	ldp	x29, x30, [sp], #80
	.cfi_def_cfa_offset 0
	.cfi_restore w19
	.cfi_restore w20
	.cfi_restore w21
	.cfi_restore w22
	.cfi_restore w23
	.cfi_restore w24
	.cfi_restore w25
	.cfi_restore w30
	.cfi_restore w29
	ret
Lfunc_end92:
	.cfi_endproc

	.section	__TEXT,__literal16,16byte_literals
	.p2align	4, 0x0
lCPI93_0:
	.byte	1
	.byte	2
	.byte	4
	.byte	8
	.byte	16
	.byte	32
	.byte	64
	.byte	128
	.byte	1
	.byte	2
	.byte	4
	.byte	8
	.byte	16
	.byte	32
	.byte	64
	.byte	128
	.section	__TEXT,__text,regular,pure_instructions
	.globl	_dethrux_count_chars_aarch64
	.private_extern	_dethrux_count_chars_aarch64
	.p2align	2
_dethrux_count_chars_aarch64:
	.cfi_startproc
	hint	#34
	sub	sp, sp, #80
	.cfi_def_cfa_offset 80
	stp	d15, d14, [sp, #16]
	stp	d13, d12, [sp, #32]
	stp	d11, d10, [sp, #48]
	stp	d9, d8, [sp, #64]
	.cfi_offset b8, -8
	.cfi_offset b9, -16
	.cfi_offset b10, -24
	.cfi_offset b11, -32
	.cfi_offset b12, -40
	.cfi_offset b13, -48
	.cfi_offset b14, -56
	.cfi_offset b15, -64
	.cfi_remember_state
	cmp	x1, #0
	mov	w8, #4096
	csel	x8, x8, xzr, eq
	cmp	w0, #1
	add	x9, x1, x8
	b.ne	LBB93_5
	cmp	x2, #64
	b.lo	LBB93_9
	mov	x13, xzr
	mov	x10, x2
LBB93_3:
	ldp	q1, q0, [x9]
	adrp	x11, lCPI93_0@PAGE
	ldp	q3, q2, [x9, #32]
	sub	x10, x10, #64
	cmp	x10, #63
	add	x9, x9, #64
	uzp1	v0.16b, v1.16b, v0.16b
	movi	v1.16b, #252
	uzp1	v2.16b, v3.16b, v2.16b
	movi	v3.16b, #220
	and	v0.16b, v0.16b, v1.16b
	and	v1.16b, v2.16b, v1.16b
	ldr	q2, [x11, lCPI93_0@PAGEOFF]
	cmeq	v0.16b, v0.16b, v3.16b
	cmeq	v1.16b, v1.16b, v3.16b
	and	v0.16b, v0.16b, v2.16b
	and	v1.16b, v1.16b, v2.16b
	addp	v0.16b, v0.16b, v1.16b
	addp	v0.16b, v0.16b, v0.16b
	addp	v0.16b, v0.16b, v0.16b
	fmov	w11, s0
	fmov	s0, w11
	cnt	v0.8b, v0.8b
	addv	b0, v0.8b
	fmov	w11, s0
	add	x13, x13, x11
	b.hi	LBB93_3
	and	x9, x2, #0xffffffffffffffc0
	sub	x10, x2, x9
	subs	x11, x10, #2
	b.hs	LBB93_10
	b	LBB93_33
LBB93_5:
	cmp	x2, #64
	b.lo	LBB93_13
	mov	x13, xzr
	mov	x10, x2
LBB93_7:
	ldp	q1, q0, [x9]
	adrp	x11, lCPI93_0@PAGE
	ldp	q3, q2, [x9, #32]
	sub	x10, x10, #64
	cmp	x10, #63
	add	x9, x9, #64
	uzp2	v0.16b, v1.16b, v0.16b
	movi	v1.16b, #252
	uzp2	v2.16b, v3.16b, v2.16b
	movi	v3.16b, #220
	and	v0.16b, v0.16b, v1.16b
	and	v1.16b, v2.16b, v1.16b
	ldr	q2, [x11, lCPI93_0@PAGEOFF]
	cmeq	v0.16b, v0.16b, v3.16b
	cmeq	v1.16b, v1.16b, v3.16b
	and	v0.16b, v0.16b, v2.16b
	and	v1.16b, v1.16b, v2.16b
	addp	v0.16b, v0.16b, v1.16b
	addp	v0.16b, v0.16b, v0.16b
	addp	v0.16b, v0.16b, v0.16b
	fmov	w11, s0
	fmov	s0, w11
	cnt	v0.8b, v0.8b
	addv	b0, v0.8b
	fmov	w11, s0
	add	x13, x13, x11
	b.hi	LBB93_7
	and	x9, x2, #0xffffffffffffffc0
	sub	x10, x2, x9
	subs	x11, x10, #2
	b.hs	LBB93_14
	b	LBB93_33
LBB93_9:
	mov	x13, xzr
	mov	x9, xzr
	sub	x10, x2, xzr
	subs	x11, x10, #2
	b.lo	LBB93_33
LBB93_10:
	cmp	x11, #16
	b.lo	LBB93_23
	lsr	x10, x11, #1
	cmp	x11, #64
	add	x11, x10, #1
	b.hs	LBB93_17
	mov	x12, xzr
	b	LBB93_20
LBB93_13:
	mov	x13, xzr
	mov	x9, xzr
	sub	x10, x2, xzr
	subs	x11, x10, #2
	b.lo	LBB93_33
LBB93_14:
	cmp	x11, #16
	b.lo	LBB93_31
	lsr	x10, x11, #1
	cmp	x11, #64
	add	x11, x10, #1
	b.hs	LBB93_25
	mov	x12, xzr
	b	LBB93_28
LBB93_17:
	movi	v1.2d, #0000000000000000
	movi	v25.2d, #0000000000000000
	ands	x12, x11, #0x1f
	movi	v5.2d, #0000000000000000
	movi	v16.2d, #0000000000000000
	add	x14, x8, x9
	movi	v3.2d, #0000000000000000
	movi	v4.2d, #0000000000000000
	add	x14, x14, x1
	movi	v2.2d, #0000000000000000
	movi	v18.2d, #0000000000000000
	add	x14, x14, #32
	movi	v6.2d, #0000000000000000
	mov	v1.d[0], x13
	mov	w13, #32
	movi	v21.2d, #0000000000000000
	movi	v7.2d, #0000000000000000
	csel	x13, x13, x12, eq
	movi	v22.2d, #0000000000000000
	movi	v19.2d, #0000000000000000
	sub	x12, x11, x13
	movi	v20.2d, #0000000000000000
	movi	v17.2d, #0000000000000000
	sub	x15, x11, x13
	movi	v23.2d, #0000000000000000
LBB93_18:
	ldur	q24, [x14, #-32]
	str	q25, [sp]
	sub	x16, x14, #8
	ldr	q25, [x14]
	ldur	d28, [x14, #-16]
	add	x17, x14, #24
	mov	v26.16b, v24.16b
	ldr	d29, [x14, #16]
	subs	x15, x15, #32
	mov	v27.16b, v25.16b
	ld1	{ v28.s }[2], [x16]
	sub	x16, x14, #4
	ld1	{ v29.s }[2], [x17]
	add	x17, x14, #28
	mov	v26.b[1], v24.b[2]
	mov	v27.b[1], v25.b[2]
	ld1	{ v28.h }[6], [x16]
	ldursb	w16, [x14, #-2]
	ld1	{ v29.h }[6], [x17]
	ldrsb	w17, [x14, #30]
	add	x14, x14, #64
	mov	v26.b[2], v24.b[4]
	mov	v27.b[2], v25.b[4]
	mov	v26.b[3], v24.b[6]
	mov	v27.b[3], v25.b[6]
	mov	v26.b[4], v24.b[8]
	mov	v27.b[4], v25.b[8]
	mov	v26.b[5], v24.b[10]
	mov	v27.b[5], v25.b[10]
	mov	v26.b[6], v24.b[12]
	mov	v27.b[6], v25.b[12]
	mov	v26.b[7], v24.b[14]
	movi	v24.16b, #252
	mov	v27.b[7], v25.b[14]
	movi	v25.16b, #220
	mov	v26.b[8], v28.b[0]
	mov	v27.b[8], v29.b[0]
	mov	v26.b[9], v28.b[2]
	mov	v27.b[9], v29.b[2]
	mov	v26.b[10], v28.b[4]
	mov	v27.b[10], v29.b[4]
	mov	v26.b[11], v28.b[6]
	mov	v27.b[11], v29.b[6]
	mov	v26.b[12], v28.b[8]
	mov	v27.b[12], v29.b[8]
	mov	v26.b[13], v28.b[10]
	mov	v27.b[13], v29.b[10]
	mov	v26.b[14], v28.b[12]
	mov	v27.b[14], v29.b[12]
	mov	v26.b[15], w16
	mov	w16, #1
	mov	v27.b[15], w17
	dup	v28.2d, x16
	and	v26.16b, v26.16b, v24.16b
	and	v24.16b, v27.16b, v24.16b
	cmeq	v26.16b, v26.16b, v25.16b
	cmeq	v24.16b, v24.16b, v25.16b
	ushll	v25.8h, v26.8b, #0
	ushll2	v26.8h, v26.16b, #0
	ushll	v27.8h, v24.8b, #0
	ushll2	v24.8h, v24.16b, #0
	ushll	v29.4s, v25.4h, #0
	ushll2	v25.4s, v25.8h, #0
	ushll	v30.4s, v26.4h, #0
	ushll2	v26.4s, v26.8h, #0
	ushll	v31.4s, v27.4h, #0
	ushll2	v27.4s, v27.8h, #0
	ushll	v8.4s, v24.4h, #0
	ushll2	v24.4s, v24.8h, #0
	ushll	v10.2d, v25.2s, #0
	ushll2	v25.2d, v25.4s, #0
	ushll	v9.2d, v29.2s, #0
	ushll2	v29.2d, v29.4s, #0
	ushll	v11.2d, v30.2s, #0
	ushll2	v30.2d, v30.4s, #0
	ushll	v12.2d, v26.2s, #0
	ushll2	v26.2d, v26.4s, #0
	ushll	v13.2d, v31.2s, #0
	ushll2	v31.2d, v31.4s, #0
	ushll	v14.2d, v27.2s, #0
	ushll	v15.2d, v8.2s, #0
	ushll2	v27.2d, v27.4s, #0
	ushll2	v8.2d, v8.4s, #0
	ushll	v0.2d, v24.2s, #0
	ushll2	v24.2d, v24.4s, #0
	and	v25.16b, v25.16b, v28.16b
	and	v9.16b, v9.16b, v28.16b
	and	v29.16b, v29.16b, v28.16b
	and	v10.16b, v10.16b, v28.16b
	and	v11.16b, v11.16b, v28.16b
	and	v30.16b, v30.16b, v28.16b
	and	v12.16b, v12.16b, v28.16b
	and	v26.16b, v26.16b, v28.16b
	and	v13.16b, v13.16b, v28.16b
	and	v31.16b, v31.16b, v28.16b
	and	v14.16b, v14.16b, v28.16b
	and	v15.16b, v15.16b, v28.16b
	and	v27.16b, v27.16b, v28.16b
	and	v8.16b, v8.16b, v28.16b
	and	v0.16b, v0.16b, v28.16b
	and	v24.16b, v24.16b, v28.16b
	add	v16.2d, v16.2d, v25.2d
	ldr	q25, [sp]
	add	v18.2d, v18.2d, v26.2d
	add	v2.2d, v2.2d, v12.2d
	add	v4.2d, v4.2d, v30.2d
	add	v3.2d, v3.2d, v11.2d
	add	v5.2d, v5.2d, v29.2d
	add	v25.2d, v25.2d, v10.2d
	add	v1.2d, v1.2d, v9.2d
	add	v23.2d, v23.2d, v24.2d
	add	v17.2d, v17.2d, v0.2d
	add	v20.2d, v20.2d, v8.2d
	add	v22.2d, v22.2d, v27.2d
	add	v19.2d, v19.2d, v15.2d
	add	v7.2d, v7.2d, v14.2d
	add	v21.2d, v21.2d, v31.2d
	add	v6.2d, v6.2d, v13.2d
	b.ne	LBB93_18
	add	v0.2d, v22.2d, v16.2d
	add	v16.2d, v23.2d, v18.2d
	cmp	x13, #9
	add	v5.2d, v21.2d, v5.2d
	add	v1.2d, v6.2d, v1.2d
	add	v3.2d, v19.2d, v3.2d
	add	v4.2d, v20.2d, v4.2d
	add	v6.2d, v7.2d, v25.2d
	add	v2.2d, v17.2d, v2.2d
	add	v0.2d, v0.2d, v16.2d
	add	v1.2d, v1.2d, v3.2d
	add	v2.2d, v6.2d, v2.2d
	add	v3.2d, v5.2d, v4.2d
	add	v1.2d, v1.2d, v2.2d
	add	v0.2d, v3.2d, v0.2d
	add	v0.2d, v1.2d, v0.2d
	addp	d0, v0.2d
	fmov	x13, d0
	b.lo	LBB93_34
LBB93_20:
	movi	v0.2d, #0000000000000000
	ands	x14, x11, #0x7
	mov	w15, #8
	movi	v1.2d, #0000000000000000
	csel	x14, x15, x14, eq
	movi	v2.2d, #0000000000000000
	movi	v3.2d, #0000000000000000
	sub	x11, x11, x14
	mvn	x10, x10
	mov	v0.d[0], x13
	add	x13, x8, x9
	add	x9, x9, x11, lsl #1
	add	x13, x13, x12, lsl #1
	add	x11, x10, x12
	add	x11, x11, x14
	add	x10, x1, x13
LBB93_21:
	ld2	{ v4.8b, v5.8b }, [x10], #16
	movi	v6.8b, #252
	movi	v7.8b, #220
	mov	w12, #1
	adds	x11, x11, #8
	and	v4.8b, v4.8b, v6.8b
	dup	v6.2d, x12
	cmeq	v4.8b, v4.8b, v7.8b
	ushll	v4.8h, v4.8b, #0
	ushll2	v5.4s, v4.8h, #0
	ushll	v4.4s, v4.4h, #0
	ushll2	v7.2d, v5.4s, #0
	ushll	v16.2d, v4.2s, #0
	ushll2	v4.2d, v4.4s, #0
	ushll	v5.2d, v5.2s, #0
	and	v7.16b, v7.16b, v6.16b
	and	v16.16b, v16.16b, v6.16b
	and	v4.16b, v4.16b, v6.16b
	and	v5.16b, v5.16b, v6.16b
	add	v3.2d, v3.2d, v7.2d
	add	v2.2d, v2.2d, v4.2d
	add	v0.2d, v0.2d, v16.2d
	add	v1.2d, v1.2d, v5.2d
	b.ne	LBB93_21
	add	v0.2d, v0.2d, v1.2d
	add	v1.2d, v2.2d, v3.2d
	add	v0.2d, v0.2d, v1.2d
	addp	d0, v0.2d
	fmov	x13, d0
LBB93_23:
	add	x10, x1, x9
	sub	x9, x2, x9
	add	x8, x10, x8
LBB93_24:
	ldrb	w10, [x8], #2
	sub	x9, x9, #2
	and	w10, w10, #0xfc
	cmp	w10, #220
	cinc	x13, x13, eq
	cmp	x9, #1
	b.hi	LBB93_24
	b	LBB93_33
LBB93_25:
	movi	v1.2d, #0000000000000000
	movi	v25.2d, #0000000000000000
	ands	x12, x11, #0x1f
	movi	v5.2d, #0000000000000000
	movi	v16.2d, #0000000000000000
	add	x14, x8, x9
	movi	v3.2d, #0000000000000000
	movi	v4.2d, #0000000000000000
	add	x14, x14, x1
	movi	v2.2d, #0000000000000000
	movi	v18.2d, #0000000000000000
	add	x14, x14, #33
	movi	v6.2d, #0000000000000000
	mov	v1.d[0], x13
	mov	w13, #32
	movi	v21.2d, #0000000000000000
	movi	v7.2d, #0000000000000000
	csel	x13, x13, x12, eq
	movi	v22.2d, #0000000000000000
	movi	v19.2d, #0000000000000000
	sub	x12, x11, x13
	movi	v20.2d, #0000000000000000
	movi	v17.2d, #0000000000000000
	sub	x15, x11, x13
	movi	v23.2d, #0000000000000000
LBB93_26:
	ldur	q24, [x14, #-32]
	str	q25, [sp]
	sub	x16, x14, #8
	ldr	q25, [x14]
	ldur	d28, [x14, #-16]
	add	x17, x14, #24
	mov	v26.16b, v24.16b
	ldr	d29, [x14, #16]
	subs	x15, x15, #32
	mov	v27.16b, v25.16b
	ld1	{ v28.s }[2], [x16]
	sub	x16, x14, #4
	ld1	{ v29.s }[2], [x17]
	add	x17, x14, #28
	mov	v26.b[1], v24.b[2]
	mov	v27.b[1], v25.b[2]
	ld1	{ v28.h }[6], [x16]
	ldursb	w16, [x14, #-2]
	ld1	{ v29.h }[6], [x17]
	ldrsb	w17, [x14, #30]
	add	x14, x14, #64
	mov	v26.b[2], v24.b[4]
	mov	v27.b[2], v25.b[4]
	mov	v26.b[3], v24.b[6]
	mov	v27.b[3], v25.b[6]
	mov	v26.b[4], v24.b[8]
	mov	v27.b[4], v25.b[8]
	mov	v26.b[5], v24.b[10]
	mov	v27.b[5], v25.b[10]
	mov	v26.b[6], v24.b[12]
	mov	v27.b[6], v25.b[12]
	mov	v26.b[7], v24.b[14]
	movi	v24.16b, #252
	mov	v27.b[7], v25.b[14]
	movi	v25.16b, #220
	mov	v26.b[8], v28.b[0]
	mov	v27.b[8], v29.b[0]
	mov	v26.b[9], v28.b[2]
	mov	v27.b[9], v29.b[2]
	mov	v26.b[10], v28.b[4]
	mov	v27.b[10], v29.b[4]
	mov	v26.b[11], v28.b[6]
	mov	v27.b[11], v29.b[6]
	mov	v26.b[12], v28.b[8]
	mov	v27.b[12], v29.b[8]
	mov	v26.b[13], v28.b[10]
	mov	v27.b[13], v29.b[10]
	mov	v26.b[14], v28.b[12]
	mov	v27.b[14], v29.b[12]
	mov	v26.b[15], w16
	mov	w16, #1
	mov	v27.b[15], w17
	dup	v28.2d, x16
	and	v26.16b, v26.16b, v24.16b
	and	v24.16b, v27.16b, v24.16b
	cmeq	v26.16b, v26.16b, v25.16b
	cmeq	v24.16b, v24.16b, v25.16b
	ushll	v25.8h, v26.8b, #0
	ushll2	v26.8h, v26.16b, #0
	ushll	v27.8h, v24.8b, #0
	ushll2	v24.8h, v24.16b, #0
	ushll	v29.4s, v25.4h, #0
	ushll2	v25.4s, v25.8h, #0
	ushll	v30.4s, v26.4h, #0
	ushll2	v26.4s, v26.8h, #0
	ushll	v31.4s, v27.4h, #0
	ushll2	v27.4s, v27.8h, #0
	ushll	v8.4s, v24.4h, #0
	ushll2	v24.4s, v24.8h, #0
	ushll	v10.2d, v25.2s, #0
	ushll2	v25.2d, v25.4s, #0
	ushll	v9.2d, v29.2s, #0
	ushll2	v29.2d, v29.4s, #0
	ushll	v11.2d, v30.2s, #0
	ushll2	v30.2d, v30.4s, #0
	ushll	v12.2d, v26.2s, #0
	ushll2	v26.2d, v26.4s, #0
	ushll	v13.2d, v31.2s, #0
	ushll2	v31.2d, v31.4s, #0
	ushll	v14.2d, v27.2s, #0
	ushll	v15.2d, v8.2s, #0
	ushll2	v27.2d, v27.4s, #0
	ushll2	v8.2d, v8.4s, #0
	ushll	v0.2d, v24.2s, #0
	ushll2	v24.2d, v24.4s, #0
	and	v25.16b, v25.16b, v28.16b
	and	v9.16b, v9.16b, v28.16b
	and	v29.16b, v29.16b, v28.16b
	and	v10.16b, v10.16b, v28.16b
	and	v11.16b, v11.16b, v28.16b
	and	v30.16b, v30.16b, v28.16b
	and	v12.16b, v12.16b, v28.16b
	and	v26.16b, v26.16b, v28.16b
	and	v13.16b, v13.16b, v28.16b
	and	v31.16b, v31.16b, v28.16b
	and	v14.16b, v14.16b, v28.16b
	and	v15.16b, v15.16b, v28.16b
	and	v27.16b, v27.16b, v28.16b
	and	v8.16b, v8.16b, v28.16b
	and	v0.16b, v0.16b, v28.16b
	and	v24.16b, v24.16b, v28.16b
	add	v16.2d, v16.2d, v25.2d
	ldr	q25, [sp]
	add	v18.2d, v18.2d, v26.2d
	add	v2.2d, v2.2d, v12.2d
	add	v4.2d, v4.2d, v30.2d
	add	v3.2d, v3.2d, v11.2d
	add	v5.2d, v5.2d, v29.2d
	add	v25.2d, v25.2d, v10.2d
	add	v1.2d, v1.2d, v9.2d
	add	v23.2d, v23.2d, v24.2d
	add	v17.2d, v17.2d, v0.2d
	add	v20.2d, v20.2d, v8.2d
	add	v22.2d, v22.2d, v27.2d
	add	v19.2d, v19.2d, v15.2d
	add	v7.2d, v7.2d, v14.2d
	add	v21.2d, v21.2d, v31.2d
	add	v6.2d, v6.2d, v13.2d
	b.ne	LBB93_26
	add	v0.2d, v22.2d, v16.2d
	add	v16.2d, v23.2d, v18.2d
	cmp	x13, #9
	add	v5.2d, v21.2d, v5.2d
	add	v1.2d, v6.2d, v1.2d
	add	v3.2d, v19.2d, v3.2d
	add	v4.2d, v20.2d, v4.2d
	add	v6.2d, v7.2d, v25.2d
	add	v2.2d, v17.2d, v2.2d
	add	v0.2d, v0.2d, v16.2d
	add	v1.2d, v1.2d, v3.2d
	add	v2.2d, v6.2d, v2.2d
	add	v3.2d, v5.2d, v4.2d
	add	v1.2d, v1.2d, v2.2d
	add	v0.2d, v3.2d, v0.2d
	add	v0.2d, v1.2d, v0.2d
	addp	d0, v0.2d
	fmov	x13, d0
	b.lo	LBB93_35
LBB93_28:
	movi	v0.2d, #0000000000000000
	ands	x14, x11, #0x7
	mov	w15, #8
	csel	x14, x15, x14, eq
	add	x15, x8, x9
	movi	v1.2d, #0000000000000000
	movi	v2.2d, #0000000000000000
	movi	v3.2d, #0000000000000000
	sub	x11, x11, x14
	mvn	x10, x10
	add	x9, x9, x11, lsl #1
	mov	v0.d[0], x13
	add	x13, x15, x12, lsl #1
	add	x12, x10, x12
	add	x11, x13, x1
	add	x10, x11, #1
	add	x11, x12, x14
LBB93_29:
	ld2	{ v4.8b, v5.8b }, [x10], #16
	movi	v6.8b, #252
	movi	v7.8b, #220
	mov	w12, #1
	adds	x11, x11, #8
	and	v4.8b, v4.8b, v6.8b
	dup	v6.2d, x12
	cmeq	v4.8b, v4.8b, v7.8b
	ushll	v4.8h, v4.8b, #0
	ushll2	v5.4s, v4.8h, #0
	ushll	v4.4s, v4.4h, #0
	ushll2	v7.2d, v5.4s, #0
	ushll	v16.2d, v4.2s, #0
	ushll2	v4.2d, v4.4s, #0
	ushll	v5.2d, v5.2s, #0
	and	v7.16b, v7.16b, v6.16b
	and	v16.16b, v16.16b, v6.16b
	and	v4.16b, v4.16b, v6.16b
	and	v5.16b, v5.16b, v6.16b
	add	v3.2d, v3.2d, v7.2d
	add	v2.2d, v2.2d, v4.2d
	add	v0.2d, v0.2d, v16.2d
	add	v1.2d, v1.2d, v5.2d
	b.ne	LBB93_29
	add	v0.2d, v0.2d, v1.2d
	add	v1.2d, v2.2d, v3.2d
	add	v0.2d, v0.2d, v1.2d
	addp	d0, v0.2d
	fmov	x13, d0
LBB93_31:
	add	x10, x9, x1
	add	x10, x8, x10
	sub	x8, x2, x9
	add	x9, x10, #1
LBB93_32:
	ldrb	w10, [x9], #2
	sub	x8, x8, #2
	and	w10, w10, #0xfc
	cmp	w10, #220
	cinc	x13, x13, eq
	cmp	x8, #1
	b.hi	LBB93_32
LBB93_33:
	lsr	x8, x2, #1
	ldp	d9, d8, [sp, #64]
	ldp	d11, d10, [sp, #48]
	ldp	d13, d12, [sp, #32]
	sub	x0, x8, x13
	ldp	d15, d14, [sp, #16]
	add	sp, sp, #80
	.cfi_def_cfa_offset 0
	.cfi_restore b8
	.cfi_restore b9
	.cfi_restore b10
	.cfi_restore b11
	.cfi_restore b12
	.cfi_restore b13
	.cfi_restore b14
	.cfi_restore b15
	ret
LBB93_34:
	.cfi_restore_state
	add	x9, x9, x12, lsl #1
	b	LBB93_23
LBB93_35:
	add	x9, x9, x12, lsl #1
	b	LBB93_31
Lfunc_end93:
	.cfi_endproc

	.section	__TEXT,__text,regular,pure_instructions
	.globl	_dethrux_floor_char_boundary_aarch64
	.private_extern	_dethrux_floor_char_boundary_aarch64
	.p2align	2
_dethrux_floor_char_boundary_aarch64:
	.cfi_startproc
	hint	#34
	cmp	x1, #0
	mov	w8, #4096
	csel	x8, x8, xzr, eq
	cmp	w0, #1
	add	x8, x1, x8
	b.ne	LBB94_6
	cmp	x2, x3
	b.ls	LBB94_14
	cmp	x3, #2
	and	x0, x3, #0xfffffffffffffffe
	b.lo	LBB94_13
	add	x8, x8, x0
	ldurb	w9, [x8, #-2]
	and	w9, w9, #0xfc
	cmp	w9, #216
	b.ne	LBB94_13
	add	x9, x0, #2
	cmp	x9, x2
	b.hi	LBB94_12
	ldrb	w8, [x8]
	b	LBB94_11
LBB94_6:
	cmp	x2, x3
	b.ls	LBB94_14
	cmp	x3, #2
	and	x0, x3, #0xfffffffffffffffe
	b.lo	LBB94_13
	add	x8, x8, x0
	ldurb	w9, [x8, #-1]
	and	w9, w9, #0xfc
	cmp	w9, #216
	b.ne	LBB94_13
	add	x9, x0, #2
	cmp	x9, x2
	b.hi	LBB94_12
	ldrb	w8, [x8, #1]
LBB94_11:
	and	w8, w8, #0xfc
	cmp	w8, #220
	b.ne	LBB94_13
LBB94_12:
	sub	x0, x0, #2
LBB94_13:
	ret
LBB94_14:
	mov	x0, x2
	ret
Lfunc_end94:
	.cfi_endproc

	.section	__TEXT,__text,regular,pure_instructions
	.globl	_dethrux_floor_char_boundary_around_aarch64
	.private_extern	_dethrux_floor_char_boundary_around_aarch64
	.p2align	2
_dethrux_floor_char_boundary_around_aarch64:
	.cfi_startproc
	hint	#34
	cmp	x1, #0
	mov	w8, #4096
	and	x9, x3, #0xfffffffffffffffe
	csel	x10, x8, xzr, eq
	subs	x8, x9, #2
	csel	x8, xzr, x8, lo
	cmp	w0, #1
	add	x10, x1, x10
	sub	x9, x3, x8
	b.ne	LBB95_6
	cmp	x2, x9
	b.ls	LBB95_14
	cmp	x9, #2
	and	x9, x9, #0xfffffffffffffffe
	b.lo	LBB95_13
	add	x10, x10, x9
	ldurb	w11, [x10, #-2]
	and	w11, w11, #0xfc
	cmp	w11, #216
	b.ne	LBB95_13
	add	x11, x9, #2
	cmp	x11, x2
	b.hi	LBB95_12
	ldrb	w10, [x10]
	b	LBB95_11
LBB95_6:
	cmp	x2, x9
	b.ls	LBB95_14
	cmp	x9, #2
	and	x9, x9, #0xfffffffffffffffe
	b.lo	LBB95_13
	add	x10, x10, x9
	ldurb	w11, [x10, #-1]
	and	w11, w11, #0xfc
	cmp	w11, #216
	b.ne	LBB95_13
	add	x11, x9, #2
	cmp	x11, x2
	b.hi	LBB95_12
	ldrb	w10, [x10, #1]
LBB95_11:
	and	w10, w10, #0xfc
	cmp	w10, #220
	b.ne	LBB95_13
LBB95_12:
	sub	x9, x9, #2
LBB95_13:
	add	x0, x9, x8
	ret
LBB95_14:
	add	x0, x2, x8
	ret
Lfunc_end95:
	.cfi_endproc

	.section	__TEXT,__literal16,16byte_literals
	.p2align	4, 0x0
lCPI96_0:
	.byte	1
	.byte	2
	.byte	4
	.byte	8
	.byte	16
	.byte	32
	.byte	64
	.byte	128
	.byte	1
	.byte	2
	.byte	4
	.byte	8
	.byte	16
	.byte	32
	.byte	64
	.byte	128
	.section	__TEXT,__text,regular,pure_instructions
	.globl	_dethrux_is_ascii_aarch64
	.private_extern	_dethrux_is_ascii_aarch64
	.p2align	2
_dethrux_is_ascii_aarch64:
	.cfi_startproc
	hint	#34
	stp	x29, x30, [sp, #-16]!
	.cfi_def_cfa_offset 16
	mov	x29, sp
	.cfi_def_cfa w29, 16
	.cfi_offset w30, -8
	.cfi_offset w29, -16
	.cfi_remember_state
	cmp	x1, #0
	mov	w8, #4096
	csel	x8, x8, xzr, eq
	cmp	w0, #1
	eor	w0, w2, #0x1
	add	x8, x1, x8
	b.ne	LBB96_6
	tbnz	w2, #0, LBB96_15
	cmp	x2, #64
	b.lo	LBB96_13
	and	x9, x2, #0xffffffffffffffc0
	mov	x10, x8
LBB96_4:
	movi	v0.8h, #127, lsl #8
	ldp	q1, q4, [x10]
	ldp	q3, q2, [x10, #32]
	adrp	x11, lCPI96_0@PAGE
	cmhi	v2.16b, v2.16b, v0.16b
	cmhi	v1.16b, v1.16b, v0.16b
	cmhi	v3.16b, v3.16b, v0.16b
	cmhi	v0.16b, v4.16b, v0.16b
	ldr	q4, [x11, lCPI96_0@PAGEOFF]
	and	v1.16b, v1.16b, v4.16b
	and	v3.16b, v3.16b, v4.16b
	and	v2.16b, v2.16b, v4.16b
	and	v0.16b, v0.16b, v4.16b
	addp	v0.16b, v1.16b, v0.16b
	addp	v1.16b, v3.16b, v2.16b
	addp	v0.16b, v0.16b, v1.16b
	addp	v0.16b, v0.16b, v0.16b
	fmov	x11, d0
	cbnz	x11, LBB96_12
	sub	x2, x2, #64
	add	x10, x10, #64
	cmp	x2, #63
	b.hi	LBB96_4
	b	LBB96_14
LBB96_6:
	tbnz	w2, #0, LBB96_15
	cmp	x2, #64
	b.lo	LBB96_16
	and	x9, x2, #0xffffffffffffffc0
	mov	x10, x8
LBB96_9:
	movi	v0.8h, #127
	ldp	q1, q4, [x10]
	ldp	q3, q2, [x10, #32]
	adrp	x11, lCPI96_0@PAGE
	cmhi	v2.16b, v2.16b, v0.16b
	cmhi	v1.16b, v1.16b, v0.16b
	cmhi	v3.16b, v3.16b, v0.16b
	cmhi	v0.16b, v4.16b, v0.16b
	ldr	q4, [x11, lCPI96_0@PAGEOFF]
	and	v1.16b, v1.16b, v4.16b
	and	v3.16b, v3.16b, v4.16b
	and	v2.16b, v2.16b, v4.16b
	and	v0.16b, v0.16b, v4.16b
	addp	v0.16b, v1.16b, v0.16b
	addp	v1.16b, v3.16b, v2.16b
	addp	v0.16b, v0.16b, v1.16b
	addp	v0.16b, v0.16b, v0.16b
	fmov	x11, d0
	cbnz	x11, LBB96_12
	sub	x2, x2, #64
	add	x10, x10, #64
	cmp	x2, #63
	b.hi	LBB96_9
	add	x0, x8, x9
	mov	x1, x2
	bl	"_utf16_units::text::has_few_ascii_units::<#418c2b53cf60437c>"
	and	w0, w0, #0x1
	.cfi_def_cfa wsp, 16
	ldp	x29, x30, [sp], #16
	.cfi_def_cfa_offset 0
	.cfi_restore w30
	.cfi_restore w29
	ret
LBB96_12:
	.cfi_restore_state
	.cfi_remember_state
	and	w0, wzr, #0x1
	.cfi_def_cfa wsp, 16
	ldp	x29, x30, [sp], #16
	.cfi_def_cfa_offset 0
	.cfi_restore w30
	.cfi_restore w29
	ret
LBB96_13:
	.cfi_restore_state
	.cfi_remember_state
	mov	x9, xzr
LBB96_14:
	add	x0, x8, x9
	mov	x1, x2
	bl	"_utf16_units::text::has_few_ascii_units::<#8b18edd9dd9aa8df>"
LBB96_15:
	and	w0, w0, #0x1
	.cfi_def_cfa wsp, 16
	ldp	x29, x30, [sp], #16
	.cfi_def_cfa_offset 0
	.cfi_restore w30
	.cfi_restore w29
	ret
LBB96_16:
	.cfi_restore_state
	add	x0, x8, xzr
	mov	x1, x2
	bl	"_utf16_units::text::has_few_ascii_units::<#418c2b53cf60437c>"
	and	w0, w0, #0x1
	.cfi_def_cfa wsp, 16
	ldp	x29, x30, [sp], #16
	.cfi_def_cfa_offset 0
	.cfi_restore w30
	.cfi_restore w29
	ret
Lfunc_end96:
	.cfi_endproc

	.section	__TEXT,__text,regular,pure_instructions
	.globl	_dethrux_is_char_boundary_aarch64
	.private_extern	_dethrux_is_char_boundary_aarch64
	.p2align	2
_dethrux_is_char_boundary_aarch64:
	.cfi_startproc
	hint	#34
	cmp	x1, #0
	mov	w8, #4096
	csel	x8, x8, xzr, eq
	cmp	w0, #1
	add	x8, x1, x8
	b.ne	LBB97_7
	cmp	x2, x3
	b.ls	LBB97_13
	tbnz	w3, #0, LBB97_12
	cmp	x3, #2
	b.lo	LBB97_14
	add	x8, x8, x3
	ldurb	w9, [x8, #-2]
	and	w9, w9, #0xfc
	cmp	w9, #216
	b.ne	LBB97_14
	add	x9, x3, #2
	cmp	x9, x2
	b.hi	LBB97_12
	ldrb	w8, [x8]
	and	w8, w8, #0xfc
	cmp	w8, #220
	cset	w0, ne
	ret
LBB97_7:
	cmp	x2, x3
	b.ls	LBB97_13
	tbnz	w3, #0, LBB97_12
	cmp	x3, #2
	b.lo	LBB97_14
	add	x8, x8, x3
	ldurb	w9, [x8, #-1]
	and	w9, w9, #0xfc
	cmp	w9, #216
	b.ne	LBB97_14
	add	x9, x3, #2
	cmp	x9, x2
	b.ls	LBB97_15
LBB97_12:
	mov	w0, wzr
	ret
LBB97_13:
	cmp	x3, x2
	cset	w0, eq
	ret
LBB97_14:
	mov	w0, #1
	ret
LBB97_15:
	ldrb	w8, [x8, #1]
	and	w8, w8, #0xfc
	cmp	w8, #220
	cset	w0, ne
	ret
Lfunc_end97:
	.cfi_endproc

	.section	__TEXT,__text,regular,pure_instructions
	.globl	_dethrux_make_well_formed_aarch64
	.private_extern	_dethrux_make_well_formed_aarch64
	.p2align	2
_dethrux_make_well_formed_aarch64:
	.cfi_startproc
	hint	#34
	stp	x29, x30, [sp, #-64]!
	.cfi_def_cfa_offset 64
	str	x23, [sp, #16]
	stp	x22, x21, [sp, #32]
	stp	x20, x19, [sp, #48]
	mov	x29, sp
	.cfi_def_cfa w29, 64
	.cfi_offset w19, -8
	.cfi_offset w20, -16
	.cfi_offset w21, -24
	.cfi_offset w22, -32
	.cfi_offset w23, -48
	.cfi_offset w30, -56
	.cfi_offset w29, -64
	.cfi_remember_state
	cmp	x1, #0
	mov	w8, #4096
	and	x21, x2, #0xfffffffffffffffe
	csel	x8, x8, xzr, eq
	cmp	w0, #1
	add	x20, x1, x8
	b.ne	LBB98_12
	cbz	x21, LBB98_24
	mov	x22, xzr
	mov	x19, xzr
	b	LBB98_4
LBB98_3:
	mov	w9, #65023
	add	x19, x19, #1
	strh	w9, [x8]
	mov	w8, #2
	add	x22, x8, x22
	cmp	x22, x21
	b.hs	LBB98_23
LBB98_4:
	sub	x9, x21, x22
	add	x8, x20, x22
	cmp	x9, #2
	b.lo	LBB98_3
	ldrb	w10, [x8]
	and	w11, w10, #0xf8
	cmp	w11, #216
	b.ne	LBB98_10
	cmp	x9, #4
	b.lo	LBB98_3
	mov	w9, #220
	and	w9, w10, w9
	cmp	w9, #220
	b.eq	LBB98_3
	ldrb	w9, [x8, #2]
	and	w9, w9, #0xfc
	cmp	w9, #220
	b.ne	LBB98_3
	mov	w23, #4
	b	LBB98_11
LBB98_10:
	mov	w23, #2
LBB98_11:
	add	x8, x23, x22
	sub	x1, x21, x8
	add	x0, x20, x8
	bl	"_utf16_transcode::decode::valid_up_to::<#8b18edd9dd9aa8df>"
	add	x8, x0, x23
	add	x22, x8, x22
	cmp	x22, x21
	b.lo	LBB98_4
	b	LBB98_23
LBB98_12:
	cbz	x21, LBB98_24
	mov	x22, xzr
	mov	x19, xzr
	b	LBB98_15
LBB98_14:
	mov	w9, #65533
	add	x19, x19, #1
	strh	w9, [x8]
	mov	w8, #2
	add	x22, x8, x22
	cmp	x22, x21
	b.hs	LBB98_23
LBB98_15:
	sub	x9, x21, x22
	add	x8, x20, x22
	cmp	x9, #2
	b.lo	LBB98_14
	ldrb	w10, [x8, #1]
	and	w11, w10, #0xf8
	cmp	w11, #216
	b.ne	LBB98_21
	cmp	x9, #4
	b.lo	LBB98_14
	mov	w9, #220
	and	w9, w10, w9
	cmp	w9, #220
	b.eq	LBB98_14
	ldrb	w9, [x8, #3]
	and	w9, w9, #0xfc
	cmp	w9, #220
	b.ne	LBB98_14
	mov	w23, #4
	b	LBB98_22
LBB98_21:
	mov	w23, #2
LBB98_22:
	add	x8, x23, x22
	sub	x1, x21, x8
	add	x0, x20, x8
	bl	"_utf16_transcode::decode::valid_up_to::<#418c2b53cf60437c>"
	add	x8, x0, x23
	add	x22, x8, x22
	cmp	x22, x21
	b.lo	LBB98_15
LBB98_23:
	mov	x0, x19
	.cfi_def_cfa wsp, 64
	ldp	x20, x19, [sp, #48]
	ldr	x23, [sp, #16]
	ldp	x22, x21, [sp, #32]
	ldp	x29, x30, [sp], #64
	.cfi_def_cfa_offset 0
	.cfi_restore w19
	.cfi_restore w20
	.cfi_restore w21
	.cfi_restore w22
	.cfi_restore w23
	.cfi_restore w30
	.cfi_restore w29
	ret
LBB98_24:
	.cfi_restore_state
	mov	x19, xzr
	mov	x0, x19
	.cfi_def_cfa wsp, 64
	ldp	x20, x19, [sp, #48]
	ldr	x23, [sp, #16]
	ldp	x22, x21, [sp, #32]
	ldp	x29, x30, [sp], #64
	.cfi_def_cfa_offset 0
	.cfi_restore w19
	.cfi_restore w20
	.cfi_restore w21
	.cfi_restore w22
	.cfi_restore w23
	.cfi_restore w30
	.cfi_restore w29
	ret
Lfunc_end98:
	.cfi_endproc

	.section	__TEXT,__literal16,16byte_literals
	.p2align	4, 0x0
lCPI99_0:
	.byte	1
	.byte	2
	.byte	4
	.byte	8
	.byte	16
	.byte	32
	.byte	64
	.byte	128
	.byte	1
	.byte	2
	.byte	4
	.byte	8
	.byte	16
	.byte	32
	.byte	64
	.byte	128
	.section	__TEXT,__text,regular,pure_instructions
	.globl	_dethrux_to_utf32_lossy_len_aarch64
	.private_extern	_dethrux_to_utf32_lossy_len_aarch64
	.p2align	2
_dethrux_to_utf32_lossy_len_aarch64:
	.cfi_startproc
	hint	#34
	sub	sp, sp, #160
	.cfi_def_cfa_offset 160
	stp	d15, d14, [sp, #16]
	stp	d13, d12, [sp, #32]
	stp	d11, d10, [sp, #48]
	stp	d9, d8, [sp, #64]
	stp	x29, x30, [sp, #80]
	stp	x26, x25, [sp, #96]
	stp	x24, x23, [sp, #112]
	stp	x22, x21, [sp, #128]
	stp	x20, x19, [sp, #144]
	add	x29, sp, #80
	.cfi_def_cfa w29, 80
	.cfi_offset w19, -8
	.cfi_offset w20, -16
	.cfi_offset w21, -24
	.cfi_offset w22, -32
	.cfi_offset w23, -40
	.cfi_offset w24, -48
	.cfi_offset w25, -56
	.cfi_offset w26, -64
	.cfi_offset w30, -72
	.cfi_offset w29, -80
	.cfi_offset b8, -88
	.cfi_offset b9, -96
	.cfi_offset b10, -104
	.cfi_offset b11, -112
	.cfi_offset b12, -120
	.cfi_offset b13, -128
	.cfi_offset b14, -136
	.cfi_offset b15, -144
	.cfi_remember_state
	cmp	x1, #0
	mov	w8, #4096
	mov	x20, x2
	csel	x8, x8, xzr, eq
	cmp	w0, #1
	adrp	x25, lCPI99_0@PAGE
	add	x21, x1, x8
	mov	x19, xzr
	b.ne	LBB99_44
	subs	x23, x20, #2
	b.ne	LBB99_7
LBB99_2:
	ldrb	w8, [x21]
LBB99_3:
	and	w8, w8, #0xf8
	cmp	w8, #216
	b.ne	LBB99_88
LBB99_4:
	mov	x0, x21
	mov	x1, x20
	bl	"_utf16_units::validate::valid_len::<#8b18edd9dd9aa8df>"
	subs	x1, x20, x0
	b.eq	LBB99_87
	mov	x22, x0
	add	x26, x21, x0
	add	x0, x21, x0
	bl	"_utf16_units::validate::error_len::<#8b18edd9dd9aa8df>"
	mov	w24, w0
	cmp	x22, #64
	mov	w23, w1
	b.hs	LBB99_11
	mov	x0, x21
	mov	x1, x22
	bl	"_utf16_units::text::count_few::<#8b18edd9dd9aa8df>"
	and	w8, w24, #0xff
	add	x9, x19, x0
	cmp	w8, #1
	add	x19, x9, #1
	b.eq	LBB99_37
	b	LBB99_123
LBB99_7:
	cmp	x20, #7
	b.hi	LBB99_16
	cmp	x20, #4
	b.eq	LBB99_26
	cmp	x20, #6
	b.eq	LBB99_23
	cbnz	x20, LBB99_4
	b	LBB99_88
LBB99_11:
	mov	x12, xzr
	mov	x8, x21
	mov	x9, x22
LBB99_12:
	ldp	q1, q0, [x8]
	sub	x9, x9, #64
	ldp	q3, q2, [x8, #32]
	cmp	x9, #63
	add	x8, x8, #64
	uzp1	v0.16b, v1.16b, v0.16b
	movi	v1.16b, #252
	uzp1	v2.16b, v3.16b, v2.16b
	movi	v3.16b, #220
	and	v0.16b, v0.16b, v1.16b
	and	v1.16b, v2.16b, v1.16b
	ldr	q2, [x25, lCPI99_0@PAGEOFF]
	cmeq	v0.16b, v0.16b, v3.16b
	cmeq	v1.16b, v1.16b, v3.16b
	and	v0.16b, v0.16b, v2.16b
	and	v1.16b, v1.16b, v2.16b
	addp	v0.16b, v0.16b, v1.16b
	addp	v0.16b, v0.16b, v0.16b
	addp	v0.16b, v0.16b, v0.16b
	fmov	w10, s0
	fmov	s0, w10
	cnt	v0.8b, v0.8b
	addv	b0, v0.8b
	fmov	w10, s0
	add	x12, x12, x10
	b.hi	LBB99_12
	tst	x22, #0x3e
	b.eq	LBB99_36
	and	x8, x22, #0xffffffffffffffc0
	sub	x9, x22, #2
	cmp	x9, x8
	cset	w9, ne
	mvn	x9, x9
	add	x9, x9, x22
	sub	x10, x9, x8
	cmp	x10, #16
	b.hs	LBB99_21
	and	x8, x22, #0xffffffffffffffc0
	b	LBB99_34
LBB99_16:
	cmp	x20, #64
	b.hi	LBB99_4
	tbnz	w20, #0, LBB99_4
	cmp	x20, #15
	b.hi	LBB99_38
	movi	v0.4h, #248
	ldr	d2, [x21]
	movi	v1.4h, #216
	and	v2.8b, v2.8b, v0.8b
	cmeq	v2.4h, v2.4h, v1.4h
	umaxv	h2, v2.4h
	fmov	w8, s2
	tbnz	w8, #0, LBB99_4
	add	x8, x21, x20
	ldur	d2, [x8, #-8]
	and	v0.8b, v2.8b, v0.8b
	cmeq	v0.4h, v0.4h, v1.4h
	umaxv	h0, v0.4h
	fmov	w8, s0
	tbnz	w8, #0, LBB99_4
	b	LBB99_88
LBB99_21:
	lsr	x9, x10, #1
	cmp	x10, #64
	add	x10, x9, #1
	b.hs	LBB99_28
	mov	x11, xzr
	b	LBB99_31
LBB99_23:
	ldrb	w8, [x21]
	and	w8, w8, #0xf8
	cmp	w8, #216
	b.eq	LBB99_4
	ldrb	w8, [x21, #2]
	and	w8, w8, #0xf8
	cmp	w8, #216
	b.eq	LBB99_4
	ldrb	w8, [x21, #4]
	b	LBB99_3
LBB99_26:
	ldrb	w8, [x21]
	and	w8, w8, #0xf8
	cmp	w8, #216
	b.eq	LBB99_4
	ldrb	w8, [x21, #2]
	b	LBB99_3
LBB99_28:
	movi	v1.2d, #0000000000000000
	movi	v25.2d, #0000000000000000
	ands	x11, x10, #0x1f
	movi	v5.2d, #0000000000000000
	movi	v16.2d, #0000000000000000
	add	x13, x21, x8
	movi	v3.2d, #0000000000000000
	movi	v4.2d, #0000000000000000
	add	x13, x13, #32
	movi	v2.2d, #0000000000000000
	movi	v18.2d, #0000000000000000
	movi	v6.2d, #0000000000000000
	mov	v1.d[0], x12
	mov	w12, #32
	movi	v21.2d, #0000000000000000
	movi	v7.2d, #0000000000000000
	csel	x12, x12, x11, eq
	movi	v22.2d, #0000000000000000
	movi	v19.2d, #0000000000000000
	sub	x11, x10, x12
	sub	x14, x10, x12
	movi	v20.2d, #0000000000000000
	movi	v17.2d, #0000000000000000
	movi	v23.2d, #0000000000000000
LBB99_29:
	ldur	q24, [x13, #-32]
	str	q25, [sp]
	sub	x15, x13, #8
	ldr	q25, [x13]
	ldur	d28, [x13, #-16]
	add	x16, x13, #24
	mov	v26.16b, v24.16b
	ldr	d29, [x13, #16]
	subs	x14, x14, #32
	mov	v27.16b, v25.16b
	ld1	{ v28.s }[2], [x15]
	sub	x15, x13, #4
	ld1	{ v29.s }[2], [x16]
	add	x16, x13, #28
	mov	v26.b[1], v24.b[2]
	mov	v27.b[1], v25.b[2]
	ld1	{ v28.h }[6], [x15]
	ldursb	w15, [x13, #-2]
	ld1	{ v29.h }[6], [x16]
	ldrsb	w16, [x13, #30]
	add	x13, x13, #64
	mov	v26.b[2], v24.b[4]
	mov	v27.b[2], v25.b[4]
	mov	v26.b[3], v24.b[6]
	mov	v27.b[3], v25.b[6]
	mov	v26.b[4], v24.b[8]
	mov	v27.b[4], v25.b[8]
	mov	v26.b[5], v24.b[10]
	mov	v27.b[5], v25.b[10]
	mov	v26.b[6], v24.b[12]
	mov	v27.b[6], v25.b[12]
	mov	v26.b[7], v24.b[14]
	movi	v24.16b, #252
	mov	v27.b[7], v25.b[14]
	movi	v25.16b, #220
	mov	v26.b[8], v28.b[0]
	mov	v27.b[8], v29.b[0]
	mov	v26.b[9], v28.b[2]
	mov	v27.b[9], v29.b[2]
	mov	v26.b[10], v28.b[4]
	mov	v27.b[10], v29.b[4]
	mov	v26.b[11], v28.b[6]
	mov	v27.b[11], v29.b[6]
	mov	v26.b[12], v28.b[8]
	mov	v27.b[12], v29.b[8]
	mov	v26.b[13], v28.b[10]
	mov	v27.b[13], v29.b[10]
	mov	v26.b[14], v28.b[12]
	mov	v27.b[14], v29.b[12]
	mov	v26.b[15], w15
	mov	w15, #1
	mov	v27.b[15], w16
	dup	v28.2d, x15
	and	v26.16b, v26.16b, v24.16b
	and	v24.16b, v27.16b, v24.16b
	cmeq	v26.16b, v26.16b, v25.16b
	cmeq	v24.16b, v24.16b, v25.16b
	ushll	v25.8h, v26.8b, #0
	ushll2	v26.8h, v26.16b, #0
	ushll	v27.8h, v24.8b, #0
	ushll2	v24.8h, v24.16b, #0
	ushll	v29.4s, v25.4h, #0
	ushll2	v25.4s, v25.8h, #0
	ushll	v30.4s, v26.4h, #0
	ushll2	v26.4s, v26.8h, #0
	ushll	v31.4s, v27.4h, #0
	ushll2	v27.4s, v27.8h, #0
	ushll	v8.4s, v24.4h, #0
	ushll2	v24.4s, v24.8h, #0
	ushll	v10.2d, v25.2s, #0
	ushll2	v25.2d, v25.4s, #0
	ushll	v9.2d, v29.2s, #0
	ushll2	v29.2d, v29.4s, #0
	ushll	v11.2d, v30.2s, #0
	ushll2	v30.2d, v30.4s, #0
	ushll	v12.2d, v26.2s, #0
	ushll2	v26.2d, v26.4s, #0
	ushll	v13.2d, v31.2s, #0
	ushll2	v31.2d, v31.4s, #0
	ushll	v14.2d, v27.2s, #0
	ushll	v15.2d, v8.2s, #0
	ushll2	v27.2d, v27.4s, #0
	ushll2	v8.2d, v8.4s, #0
	ushll	v0.2d, v24.2s, #0
	ushll2	v24.2d, v24.4s, #0
	and	v25.16b, v25.16b, v28.16b
	and	v9.16b, v9.16b, v28.16b
	and	v29.16b, v29.16b, v28.16b
	and	v10.16b, v10.16b, v28.16b
	and	v11.16b, v11.16b, v28.16b
	and	v30.16b, v30.16b, v28.16b
	and	v12.16b, v12.16b, v28.16b
	and	v26.16b, v26.16b, v28.16b
	and	v13.16b, v13.16b, v28.16b
	and	v31.16b, v31.16b, v28.16b
	and	v14.16b, v14.16b, v28.16b
	and	v15.16b, v15.16b, v28.16b
	and	v27.16b, v27.16b, v28.16b
	and	v8.16b, v8.16b, v28.16b
	and	v0.16b, v0.16b, v28.16b
	and	v24.16b, v24.16b, v28.16b
	add	v16.2d, v16.2d, v25.2d
	ldr	q25, [sp]
	add	v18.2d, v18.2d, v26.2d
	add	v2.2d, v2.2d, v12.2d
	add	v4.2d, v4.2d, v30.2d
	add	v3.2d, v3.2d, v11.2d
	add	v5.2d, v5.2d, v29.2d
	add	v25.2d, v25.2d, v10.2d
	add	v1.2d, v1.2d, v9.2d
	add	v23.2d, v23.2d, v24.2d
	add	v17.2d, v17.2d, v0.2d
	add	v20.2d, v20.2d, v8.2d
	add	v22.2d, v22.2d, v27.2d
	add	v19.2d, v19.2d, v15.2d
	add	v7.2d, v7.2d, v14.2d
	add	v21.2d, v21.2d, v31.2d
	add	v6.2d, v6.2d, v13.2d
	b.ne	LBB99_29
	add	v0.2d, v22.2d, v16.2d
	add	v16.2d, v23.2d, v18.2d
	cmp	x12, #9
	add	v5.2d, v21.2d, v5.2d
	add	v1.2d, v6.2d, v1.2d
	add	v3.2d, v19.2d, v3.2d
	add	v4.2d, v20.2d, v4.2d
	add	v6.2d, v7.2d, v25.2d
	add	v2.2d, v17.2d, v2.2d
	add	v0.2d, v0.2d, v16.2d
	add	v1.2d, v1.2d, v3.2d
	add	v2.2d, v6.2d, v2.2d
	add	v3.2d, v5.2d, v4.2d
	add	v1.2d, v1.2d, v2.2d
	add	v0.2d, v3.2d, v0.2d
	add	v0.2d, v1.2d, v0.2d
	addp	d0, v0.2d
	fmov	x12, d0
	b.lo	LBB99_43
LBB99_31:
	movi	v0.2d, #0000000000000000
	ands	x13, x10, #0x7
	mov	w14, #8
	csel	x13, x14, x13, eq
	movi	v1.2d, #0000000000000000
	movi	v2.2d, #0000000000000000
	movi	v3.2d, #0000000000000000
	sub	x10, x10, x13
	mvn	x9, x9
	mov	v0.d[0], x12
	add	x12, x8, x11, lsl #1
	add	x8, x8, x10, lsl #1
	add	x10, x9, x11
	add	x9, x21, x12
	add	x10, x10, x13
LBB99_32:
	ld2	{ v4.8b, v5.8b }, [x9], #16
	movi	v6.8b, #252
	movi	v7.8b, #220
	mov	w11, #1
	adds	x10, x10, #8
	and	v4.8b, v4.8b, v6.8b
	dup	v6.2d, x11
	cmeq	v4.8b, v4.8b, v7.8b
	ushll	v4.8h, v4.8b, #0
	ushll2	v5.4s, v4.8h, #0
	ushll	v4.4s, v4.4h, #0
	ushll2	v7.2d, v5.4s, #0
	ushll	v16.2d, v4.2s, #0
	ushll2	v4.2d, v4.4s, #0
	ushll	v5.2d, v5.2s, #0
	and	v7.16b, v7.16b, v6.16b
	and	v16.16b, v16.16b, v6.16b
	and	v4.16b, v4.16b, v6.16b
	and	v5.16b, v5.16b, v6.16b
	add	v3.2d, v3.2d, v7.2d
	add	v2.2d, v2.2d, v4.2d
	add	v0.2d, v0.2d, v16.2d
	add	v1.2d, v1.2d, v5.2d
	b.ne	LBB99_32
	add	v0.2d, v0.2d, v1.2d
	add	v1.2d, v2.2d, v3.2d
	add	v0.2d, v0.2d, v1.2d
	addp	d0, v0.2d
	fmov	x12, d0
LBB99_34:
	sub	x9, x22, x8
	add	x8, x21, x8
LBB99_35:
	ldrb	w10, [x8], #2
	sub	x9, x9, #2
	and	w10, w10, #0xfc
	cmp	w10, #220
	cinc	x12, x12, eq
	cmp	x9, #1
	b.hi	LBB99_35
LBB99_36:
	lsr	x8, x22, #1
	sub	x0, x8, x12
	and	w8, w24, #0xff
	add	x9, x19, x0
	cmp	w8, #1
	add	x19, x9, #1
	b.ne	LBB99_123
LBB99_37:
	and	x8, x23, #0xff
	sub	x9, x20, x22
	add	x21, x26, x8
	sub	x20, x9, x8
	subs	x23, x20, #2
	b.eq	LBB99_2
	b	LBB99_7
LBB99_38:
	cmp	x20, #31
	b.hi	LBB99_41
	ldr	q0, [x21]
	movi	v1.8b, #216
	xtn	v2.8b, v0.8h
	movi	v0.8b, #248
	and	v2.8b, v2.8b, v0.8b
	cmeq	v2.8b, v2.8b, v1.8b
	umaxv	b2, v2.8b
	fmov	w8, s2
	tbnz	w8, #0, LBB99_4
	add	x8, x21, x20
	ldur	q2, [x8, #-16]
	xtn	v2.8b, v2.8h
	and	v0.8b, v2.8b, v0.8b
	cmeq	v0.8b, v0.8b, v1.8b
	umaxv	b0, v0.8b
	fmov	w8, s0
	tbnz	w8, #0, LBB99_4
	b	LBB99_88
LBB99_41:
	ldp	q1, q0, [x21]
	uzp1	v2.16b, v1.16b, v0.16b
	movi	v0.16b, #248
	movi	v1.16b, #216
	and	v2.16b, v2.16b, v0.16b
	cmeq	v3.16b, v2.16b, v1.16b
	ldr	q2, [x25, lCPI99_0@PAGEOFF]
	and	v3.16b, v3.16b, v2.16b
	addp	v3.16b, v3.16b, v3.16b
	addp	v3.16b, v3.16b, v3.16b
	addp	v3.16b, v3.16b, v3.16b
	umov	w8, v3.h[0]
	cbnz	w8, LBB99_4
	add	x8, x21, x20
	ldp	q4, q3, [x8, #-32]
	uzp1	v3.16b, v4.16b, v3.16b
	and	v0.16b, v3.16b, v0.16b
	cmeq	v0.16b, v0.16b, v1.16b
	and	v0.16b, v0.16b, v2.16b
	addp	v0.16b, v0.16b, v0.16b
	addp	v0.16b, v0.16b, v0.16b
	addp	v0.16b, v0.16b, v0.16b
	umov	w8, v0.h[0]
	cbnz	w8, LBB99_4
	b	LBB99_87
LBB99_43:
	add	x8, x8, x11, lsl #1
	b	LBB99_34
LBB99_44:
	subs	x23, x20, #2
	b.ne	LBB99_50
	ldrb	w8, [x21, #1]
LBB99_46:
	and	w8, w8, #0xf8
	cmp	w8, #216
	b.ne	LBB99_90
LBB99_47:
	mov	x0, x21
	mov	x1, x20
	bl	"_utf16_units::validate::valid_len::<#418c2b53cf60437c>"
	subs	x1, x20, x0
	b.eq	LBB99_89
	mov	x22, x0
	add	x26, x21, x0
	add	x0, x21, x0
	bl	"_utf16_units::validate::error_len::<#418c2b53cf60437c>"
	mov	w24, w0
	cmp	x22, #64
	mov	w23, w1
	b.hs	LBB99_54
	mov	x0, x21
	mov	x1, x22
	bl	"_utf16_units::text::count_few::<#418c2b53cf60437c>"
	and	w8, w24, #0xff
	add	x9, x19, x0
	cmp	w8, #1
	add	x19, x9, #1
	b.eq	LBB99_80
	b	LBB99_123
LBB99_50:
	cmp	x20, #7
	b.hi	LBB99_59
	cmp	x20, #4
	b.eq	LBB99_69
	cmp	x20, #6
	b.eq	LBB99_66
	cbnz	x20, LBB99_47
	b	LBB99_90
LBB99_54:
	mov	x12, xzr
	mov	x8, x21
	mov	x9, x22
LBB99_55:
	ldp	q1, q0, [x8]
	sub	x9, x9, #64
	ldp	q3, q2, [x8, #32]
	cmp	x9, #63
	add	x8, x8, #64
	uzp2	v0.16b, v1.16b, v0.16b
	movi	v1.16b, #252
	uzp2	v2.16b, v3.16b, v2.16b
	movi	v3.16b, #220
	and	v0.16b, v0.16b, v1.16b
	and	v1.16b, v2.16b, v1.16b
	ldr	q2, [x25, lCPI99_0@PAGEOFF]
	cmeq	v0.16b, v0.16b, v3.16b
	cmeq	v1.16b, v1.16b, v3.16b
	and	v0.16b, v0.16b, v2.16b
	and	v1.16b, v1.16b, v2.16b
	addp	v0.16b, v0.16b, v1.16b
	addp	v0.16b, v0.16b, v0.16b
	addp	v0.16b, v0.16b, v0.16b
	fmov	w10, s0
	fmov	s0, w10
	cnt	v0.8b, v0.8b
	addv	b0, v0.8b
	fmov	w10, s0
	add	x12, x12, x10
	b.hi	LBB99_55
	tst	x22, #0x3e
	b.eq	LBB99_79
	and	x8, x22, #0xffffffffffffffc0
	sub	x9, x22, #2
	cmp	x9, x8
	cset	w9, ne
	mvn	x9, x9
	add	x9, x9, x22
	sub	x10, x9, x8
	cmp	x10, #16
	b.hs	LBB99_64
	and	x8, x22, #0xffffffffffffffc0
	b	LBB99_77
LBB99_59:
	cmp	x20, #64
	b.hi	LBB99_47
	tbnz	w20, #0, LBB99_47
	cmp	x20, #15
	b.hi	LBB99_81
	ldr	d0, [x21]
	ushr	v1.4h, v0.4h, #8
	movi	v0.4h, #216
	bic	v1.4h, #7
	cmeq	v1.4h, v1.4h, v0.4h
	umaxv	h1, v1.4h
	fmov	w8, s1
	tbnz	w8, #0, LBB99_47
	add	x8, x21, x20
	ldur	d1, [x8, #-8]
	ushr	v1.4h, v1.4h, #8
	bic	v1.4h, #7
	cmeq	v0.4h, v1.4h, v0.4h
	umaxv	h0, v0.4h
	fmov	w8, s0
	tbnz	w8, #0, LBB99_47
	b	LBB99_90
LBB99_64:
	lsr	x9, x10, #1
	cmp	x10, #64
	add	x10, x9, #1
	b.hs	LBB99_71
	mov	x11, xzr
	b	LBB99_74
LBB99_66:
	ldrb	w8, [x21, #1]
	and	w8, w8, #0xf8
	cmp	w8, #216
	b.eq	LBB99_47
	ldrb	w8, [x21, #3]
	and	w8, w8, #0xf8
	cmp	w8, #216
	b.eq	LBB99_47
	ldrb	w8, [x21, #5]
	b	LBB99_46
LBB99_69:
	ldrb	w8, [x21, #1]
	and	w8, w8, #0xf8
	cmp	w8, #216
	b.eq	LBB99_47
	ldrb	w8, [x21, #3]
	b	LBB99_46
LBB99_71:
	movi	v1.2d, #0000000000000000
	movi	v25.2d, #0000000000000000
	ands	x11, x10, #0x1f
	movi	v5.2d, #0000000000000000
	movi	v16.2d, #0000000000000000
	add	x13, x21, x8
	movi	v3.2d, #0000000000000000
	movi	v4.2d, #0000000000000000
	add	x13, x13, #33
	movi	v2.2d, #0000000000000000
	movi	v18.2d, #0000000000000000
	movi	v6.2d, #0000000000000000
	mov	v1.d[0], x12
	mov	w12, #32
	movi	v21.2d, #0000000000000000
	movi	v7.2d, #0000000000000000
	csel	x12, x12, x11, eq
	movi	v22.2d, #0000000000000000
	movi	v19.2d, #0000000000000000
	sub	x11, x10, x12
	sub	x14, x10, x12
	movi	v20.2d, #0000000000000000
	movi	v17.2d, #0000000000000000
	movi	v23.2d, #0000000000000000
LBB99_72:
	ldur	q24, [x13, #-32]
	str	q25, [sp]
	sub	x15, x13, #8
	ldr	q25, [x13]
	ldur	d28, [x13, #-16]
	add	x16, x13, #24
	mov	v26.16b, v24.16b
	ldr	d29, [x13, #16]
	subs	x14, x14, #32
	mov	v27.16b, v25.16b
	ld1	{ v28.s }[2], [x15]
	sub	x15, x13, #4
	ld1	{ v29.s }[2], [x16]
	add	x16, x13, #28
	mov	v26.b[1], v24.b[2]
	mov	v27.b[1], v25.b[2]
	ld1	{ v28.h }[6], [x15]
	ldursb	w15, [x13, #-2]
	ld1	{ v29.h }[6], [x16]
	ldrsb	w16, [x13, #30]
	add	x13, x13, #64
	mov	v26.b[2], v24.b[4]
	mov	v27.b[2], v25.b[4]
	mov	v26.b[3], v24.b[6]
	mov	v27.b[3], v25.b[6]
	mov	v26.b[4], v24.b[8]
	mov	v27.b[4], v25.b[8]
	mov	v26.b[5], v24.b[10]
	mov	v27.b[5], v25.b[10]
	mov	v26.b[6], v24.b[12]
	mov	v27.b[6], v25.b[12]
	mov	v26.b[7], v24.b[14]
	movi	v24.16b, #252
	mov	v27.b[7], v25.b[14]
	movi	v25.16b, #220
	mov	v26.b[8], v28.b[0]
	mov	v27.b[8], v29.b[0]
	mov	v26.b[9], v28.b[2]
	mov	v27.b[9], v29.b[2]
	mov	v26.b[10], v28.b[4]
	mov	v27.b[10], v29.b[4]
	mov	v26.b[11], v28.b[6]
	mov	v27.b[11], v29.b[6]
	mov	v26.b[12], v28.b[8]
	mov	v27.b[12], v29.b[8]
	mov	v26.b[13], v28.b[10]
	mov	v27.b[13], v29.b[10]
	mov	v26.b[14], v28.b[12]
	mov	v27.b[14], v29.b[12]
	mov	v26.b[15], w15
	mov	w15, #1
	mov	v27.b[15], w16
	dup	v28.2d, x15
	and	v26.16b, v26.16b, v24.16b
	and	v24.16b, v27.16b, v24.16b
	cmeq	v26.16b, v26.16b, v25.16b
	cmeq	v24.16b, v24.16b, v25.16b
	ushll	v25.8h, v26.8b, #0
	ushll2	v26.8h, v26.16b, #0
	ushll	v27.8h, v24.8b, #0
	ushll2	v24.8h, v24.16b, #0
	ushll	v29.4s, v25.4h, #0
	ushll2	v25.4s, v25.8h, #0
	ushll	v30.4s, v26.4h, #0
	ushll2	v26.4s, v26.8h, #0
	ushll	v31.4s, v27.4h, #0
	ushll2	v27.4s, v27.8h, #0
	ushll	v8.4s, v24.4h, #0
	ushll2	v24.4s, v24.8h, #0
	ushll	v10.2d, v25.2s, #0
	ushll2	v25.2d, v25.4s, #0
	ushll	v9.2d, v29.2s, #0
	ushll2	v29.2d, v29.4s, #0
	ushll	v11.2d, v30.2s, #0
	ushll2	v30.2d, v30.4s, #0
	ushll	v12.2d, v26.2s, #0
	ushll2	v26.2d, v26.4s, #0
	ushll	v13.2d, v31.2s, #0
	ushll2	v31.2d, v31.4s, #0
	ushll	v14.2d, v27.2s, #0
	ushll	v15.2d, v8.2s, #0
	ushll2	v27.2d, v27.4s, #0
	ushll2	v8.2d, v8.4s, #0
	ushll	v0.2d, v24.2s, #0
	ushll2	v24.2d, v24.4s, #0
	and	v25.16b, v25.16b, v28.16b
	and	v9.16b, v9.16b, v28.16b
	and	v29.16b, v29.16b, v28.16b
	and	v10.16b, v10.16b, v28.16b
	and	v11.16b, v11.16b, v28.16b
	and	v30.16b, v30.16b, v28.16b
	and	v12.16b, v12.16b, v28.16b
	and	v26.16b, v26.16b, v28.16b
	and	v13.16b, v13.16b, v28.16b
	and	v31.16b, v31.16b, v28.16b
	and	v14.16b, v14.16b, v28.16b
	and	v15.16b, v15.16b, v28.16b
	and	v27.16b, v27.16b, v28.16b
	and	v8.16b, v8.16b, v28.16b
	and	v0.16b, v0.16b, v28.16b
	and	v24.16b, v24.16b, v28.16b
	add	v16.2d, v16.2d, v25.2d
	ldr	q25, [sp]
	add	v18.2d, v18.2d, v26.2d
	add	v2.2d, v2.2d, v12.2d
	add	v4.2d, v4.2d, v30.2d
	add	v3.2d, v3.2d, v11.2d
	add	v5.2d, v5.2d, v29.2d
	add	v25.2d, v25.2d, v10.2d
	add	v1.2d, v1.2d, v9.2d
	add	v23.2d, v23.2d, v24.2d
	add	v17.2d, v17.2d, v0.2d
	add	v20.2d, v20.2d, v8.2d
	add	v22.2d, v22.2d, v27.2d
	add	v19.2d, v19.2d, v15.2d
	add	v7.2d, v7.2d, v14.2d
	add	v21.2d, v21.2d, v31.2d
	add	v6.2d, v6.2d, v13.2d
	b.ne	LBB99_72
	add	v0.2d, v22.2d, v16.2d
	add	v16.2d, v23.2d, v18.2d
	cmp	x12, #9
	add	v5.2d, v21.2d, v5.2d
	add	v1.2d, v6.2d, v1.2d
	add	v3.2d, v19.2d, v3.2d
	add	v4.2d, v20.2d, v4.2d
	add	v6.2d, v7.2d, v25.2d
	add	v2.2d, v17.2d, v2.2d
	add	v0.2d, v0.2d, v16.2d
	add	v1.2d, v1.2d, v3.2d
	add	v2.2d, v6.2d, v2.2d
	add	v3.2d, v5.2d, v4.2d
	add	v1.2d, v1.2d, v2.2d
	add	v0.2d, v3.2d, v0.2d
	add	v0.2d, v1.2d, v0.2d
	addp	d0, v0.2d
	fmov	x12, d0
	b.lo	LBB99_86
LBB99_74:
	movi	v0.2d, #0000000000000000
	ands	x13, x10, #0x7
	mov	w14, #8
	movi	v1.2d, #0000000000000000
	csel	x13, x14, x13, eq
	movi	v2.2d, #0000000000000000
	movi	v3.2d, #0000000000000000
	sub	x10, x10, x13
	mvn	x9, x9
	mov	v0.d[0], x12
	add	x12, x8, x11, lsl #1
	add	x8, x8, x10, lsl #1
	add	x11, x9, x11
	add	x10, x21, x12
	add	x9, x10, #1
	add	x10, x11, x13
LBB99_75:
	ld2	{ v4.8b, v5.8b }, [x9], #16
	movi	v6.8b, #252
	movi	v7.8b, #220
	mov	w11, #1
	adds	x10, x10, #8
	and	v4.8b, v4.8b, v6.8b
	dup	v6.2d, x11
	cmeq	v4.8b, v4.8b, v7.8b
	ushll	v4.8h, v4.8b, #0
	ushll2	v5.4s, v4.8h, #0
	ushll	v4.4s, v4.4h, #0
	ushll2	v7.2d, v5.4s, #0
	ushll	v16.2d, v4.2s, #0
	ushll2	v4.2d, v4.4s, #0
	ushll	v5.2d, v5.2s, #0
	and	v7.16b, v7.16b, v6.16b
	and	v16.16b, v16.16b, v6.16b
	and	v4.16b, v4.16b, v6.16b
	and	v5.16b, v5.16b, v6.16b
	add	v3.2d, v3.2d, v7.2d
	add	v2.2d, v2.2d, v4.2d
	add	v0.2d, v0.2d, v16.2d
	add	v1.2d, v1.2d, v5.2d
	b.ne	LBB99_75
	add	v0.2d, v0.2d, v1.2d
	add	v1.2d, v2.2d, v3.2d
	add	v0.2d, v0.2d, v1.2d
	addp	d0, v0.2d
	fmov	x12, d0
LBB99_77:
	add	x9, x21, x8
	sub	x8, x22, x8
	add	x9, x9, #1
LBB99_78:
	ldrb	w10, [x9], #2
	sub	x8, x8, #2
	and	w10, w10, #0xfc
	cmp	w10, #220
	cinc	x12, x12, eq
	cmp	x8, #1
	b.hi	LBB99_78
LBB99_79:
	lsr	x8, x22, #1
	sub	x0, x8, x12
	and	w8, w24, #0xff
	add	x9, x19, x0
	cmp	w8, #1
	add	x19, x9, #1
	b.ne	LBB99_123
LBB99_80:
	and	x8, x23, #0xff
	sub	x9, x20, x22
	add	x21, x26, x8
	sub	x20, x9, x8
	b	LBB99_44
LBB99_81:
	cmp	x20, #31
	b.hi	LBB99_84
	ldr	q1, [x21]
	movi	v0.8b, #248
	shrn	v2.8b, v1.8h, #8
	movi	v1.8b, #216
	and	v2.8b, v2.8b, v0.8b
	cmeq	v2.8b, v2.8b, v1.8b
	umaxv	b2, v2.8b
	fmov	w8, s2
	tbnz	w8, #0, LBB99_47
	add	x8, x21, x20
	ldur	q2, [x8, #-16]
	shrn	v2.8b, v2.8h, #8
	and	v0.8b, v2.8b, v0.8b
	cmeq	v0.8b, v0.8b, v1.8b
	umaxv	b0, v0.8b
	fmov	w8, s0
	tbnz	w8, #0, LBB99_47
	b	LBB99_90
LBB99_84:
	ldp	q1, q0, [x21]
	uzp2	v2.16b, v1.16b, v0.16b
	movi	v0.16b, #248
	movi	v1.16b, #216
	and	v2.16b, v2.16b, v0.16b
	cmeq	v3.16b, v2.16b, v1.16b
	ldr	q2, [x25, lCPI99_0@PAGEOFF]
	and	v3.16b, v3.16b, v2.16b
	addp	v3.16b, v3.16b, v3.16b
	addp	v3.16b, v3.16b, v3.16b
	addp	v3.16b, v3.16b, v3.16b
	umov	w8, v3.h[0]
	cbnz	w8, LBB99_47
	add	x8, x21, x20
	ldp	q4, q3, [x8, #-32]
	uzp2	v3.16b, v4.16b, v3.16b
	and	v0.16b, v3.16b, v0.16b
	cmeq	v0.16b, v0.16b, v1.16b
	and	v0.16b, v0.16b, v2.16b
	addp	v0.16b, v0.16b, v0.16b
	addp	v0.16b, v0.16b, v0.16b
	addp	v0.16b, v0.16b, v0.16b
	umov	w8, v0.h[0]
	cbnz	w8, LBB99_47
	b	LBB99_89
LBB99_86:
	add	x8, x8, x11, lsl #1
	b	LBB99_77
LBB99_87:
	cmp	x20, #64
	b.hs	LBB99_91
LBB99_88:
	mov	x0, x21
	mov	x1, x20
	bl	"_utf16_units::text::count_few::<#8b18edd9dd9aa8df>"
	b	LBB99_122
LBB99_89:
	cmp	x20, #64
	b.hs	LBB99_96
LBB99_90:
	mov	x0, x21
	mov	x1, x20
	bl	"_utf16_units::text::count_few::<#418c2b53cf60437c>"
	b	LBB99_122
LBB99_91:
	mov	x13, xzr
	mov	x8, x21
	mov	x9, x20
LBB99_92:
	ldp	q1, q0, [x8]
	sub	x9, x9, #64
	ldp	q3, q2, [x8, #32]
	cmp	x9, #63
	add	x8, x8, #64
	uzp1	v0.16b, v1.16b, v0.16b
	movi	v1.16b, #252
	uzp1	v2.16b, v3.16b, v2.16b
	movi	v3.16b, #220
	and	v0.16b, v0.16b, v1.16b
	and	v1.16b, v2.16b, v1.16b
	ldr	q2, [x25, lCPI99_0@PAGEOFF]
	cmeq	v0.16b, v0.16b, v3.16b
	cmeq	v1.16b, v1.16b, v3.16b
	and	v0.16b, v0.16b, v2.16b
	and	v1.16b, v1.16b, v2.16b
	addp	v0.16b, v0.16b, v1.16b
	addp	v0.16b, v0.16b, v0.16b
	addp	v0.16b, v0.16b, v0.16b
	fmov	w10, s0
	fmov	s0, w10
	cnt	v0.8b, v0.8b
	addv	b0, v0.8b
	fmov	w10, s0
	add	x13, x13, x10
	b.hi	LBB99_92
	lsr	x8, x20, #1
	tst	x20, #0x3e
	b.eq	LBB99_121
	and	x9, x20, #0xffffffffffffffc0
	cmp	x23, x9
	cset	w10, ne
	mvn	x10, x10
	add	x10, x10, x20
	sub	x11, x10, x9
	cmp	x11, #16
	b.hs	LBB99_101
	and	x10, x20, #0xffffffffffffffc0
	b	LBB99_111
LBB99_96:
	mov	x13, xzr
	mov	x8, x21
	mov	x9, x20
LBB99_97:
	ldp	q1, q0, [x8]
	sub	x9, x9, #64
	ldp	q3, q2, [x8, #32]
	cmp	x9, #63
	add	x8, x8, #64
	uzp2	v0.16b, v1.16b, v0.16b
	movi	v1.16b, #252
	uzp2	v2.16b, v3.16b, v2.16b
	movi	v3.16b, #220
	and	v0.16b, v0.16b, v1.16b
	and	v1.16b, v2.16b, v1.16b
	ldr	q2, [x25, lCPI99_0@PAGEOFF]
	cmeq	v0.16b, v0.16b, v3.16b
	cmeq	v1.16b, v1.16b, v3.16b
	and	v0.16b, v0.16b, v2.16b
	and	v1.16b, v1.16b, v2.16b
	addp	v0.16b, v0.16b, v1.16b
	addp	v0.16b, v0.16b, v0.16b
	addp	v0.16b, v0.16b, v0.16b
	fmov	w10, s0
	fmov	s0, w10
	cnt	v0.8b, v0.8b
	addv	b0, v0.8b
	fmov	w10, s0
	add	x13, x13, x10
	b.hi	LBB99_97
	lsr	x8, x20, #1
	tst	x20, #0x3e
	b.eq	LBB99_121
	and	x9, x20, #0xffffffffffffffc0
	cmp	x23, x9
	cset	w10, ne
	mvn	x10, x10
	add	x10, x10, x20
	sub	x11, x10, x9
	cmp	x11, #16
	b.hs	LBB99_103
	and	x10, x20, #0xffffffffffffffc0
	b	LBB99_119
LBB99_101:
	lsr	x10, x11, #1
	cmp	x11, #64
	add	x11, x10, #1
	b.hs	LBB99_105
	mov	x12, xzr
	b	LBB99_108
LBB99_103:
	lsr	x10, x11, #1
	cmp	x11, #64
	add	x11, x10, #1
	b.hs	LBB99_113
	mov	x12, xzr
	b	LBB99_116
LBB99_105:
	movi	v1.2d, #0000000000000000
	movi	v25.2d, #0000000000000000
	ands	x12, x11, #0x1f
	movi	v5.2d, #0000000000000000
	movi	v16.2d, #0000000000000000
	add	x14, x21, x9
	movi	v3.2d, #0000000000000000
	movi	v4.2d, #0000000000000000
	add	x14, x14, #32
	movi	v2.2d, #0000000000000000
	movi	v18.2d, #0000000000000000
	movi	v6.2d, #0000000000000000
	mov	v1.d[0], x13
	mov	w13, #32
	movi	v21.2d, #0000000000000000
	movi	v7.2d, #0000000000000000
	csel	x13, x13, x12, eq
	movi	v22.2d, #0000000000000000
	movi	v19.2d, #0000000000000000
	sub	x12, x11, x13
	sub	x15, x11, x13
	movi	v20.2d, #0000000000000000
	movi	v17.2d, #0000000000000000
	movi	v23.2d, #0000000000000000
LBB99_106:
	ldur	q24, [x14, #-32]
	str	q25, [sp]
	sub	x16, x14, #8
	ldr	q25, [x14]
	ldur	d28, [x14, #-16]
	add	x17, x14, #24
	mov	v26.16b, v24.16b
	ldr	d29, [x14, #16]
	subs	x15, x15, #32
	mov	v27.16b, v25.16b
	ld1	{ v28.s }[2], [x16]
	sub	x16, x14, #4
	ld1	{ v29.s }[2], [x17]
	add	x17, x14, #28
	mov	v26.b[1], v24.b[2]
	mov	v27.b[1], v25.b[2]
	ld1	{ v28.h }[6], [x16]
	ldursb	w16, [x14, #-2]
	ld1	{ v29.h }[6], [x17]
	ldrsb	w17, [x14, #30]
	add	x14, x14, #64
	mov	v26.b[2], v24.b[4]
	mov	v27.b[2], v25.b[4]
	mov	v26.b[3], v24.b[6]
	mov	v27.b[3], v25.b[6]
	mov	v26.b[4], v24.b[8]
	mov	v27.b[4], v25.b[8]
	mov	v26.b[5], v24.b[10]
	mov	v27.b[5], v25.b[10]
	mov	v26.b[6], v24.b[12]
	mov	v27.b[6], v25.b[12]
	mov	v26.b[7], v24.b[14]
	movi	v24.16b, #252
	mov	v27.b[7], v25.b[14]
	movi	v25.16b, #220
	mov	v26.b[8], v28.b[0]
	mov	v27.b[8], v29.b[0]
	mov	v26.b[9], v28.b[2]
	mov	v27.b[9], v29.b[2]
	mov	v26.b[10], v28.b[4]
	mov	v27.b[10], v29.b[4]
	mov	v26.b[11], v28.b[6]
	mov	v27.b[11], v29.b[6]
	mov	v26.b[12], v28.b[8]
	mov	v27.b[12], v29.b[8]
	mov	v26.b[13], v28.b[10]
	mov	v27.b[13], v29.b[10]
	mov	v26.b[14], v28.b[12]
	mov	v27.b[14], v29.b[12]
	mov	v26.b[15], w16
	mov	w16, #1
	mov	v27.b[15], w17
	dup	v28.2d, x16
	and	v26.16b, v26.16b, v24.16b
	and	v24.16b, v27.16b, v24.16b
	cmeq	v26.16b, v26.16b, v25.16b
	cmeq	v24.16b, v24.16b, v25.16b
	ushll	v25.8h, v26.8b, #0
	ushll2	v26.8h, v26.16b, #0
	ushll	v27.8h, v24.8b, #0
	ushll2	v24.8h, v24.16b, #0
	ushll	v29.4s, v25.4h, #0
	ushll2	v25.4s, v25.8h, #0
	ushll	v30.4s, v26.4h, #0
	ushll2	v26.4s, v26.8h, #0
	ushll	v31.4s, v27.4h, #0
	ushll2	v27.4s, v27.8h, #0
	ushll	v8.4s, v24.4h, #0
	ushll2	v24.4s, v24.8h, #0
	ushll	v10.2d, v25.2s, #0
	ushll2	v25.2d, v25.4s, #0
	ushll	v9.2d, v29.2s, #0
	ushll2	v29.2d, v29.4s, #0
	ushll	v11.2d, v30.2s, #0
	ushll2	v30.2d, v30.4s, #0
	ushll	v12.2d, v26.2s, #0
	ushll2	v26.2d, v26.4s, #0
	ushll	v13.2d, v31.2s, #0
	ushll2	v31.2d, v31.4s, #0
	ushll	v14.2d, v27.2s, #0
	ushll	v15.2d, v8.2s, #0
	ushll2	v27.2d, v27.4s, #0
	ushll2	v8.2d, v8.4s, #0
	ushll	v0.2d, v24.2s, #0
	ushll2	v24.2d, v24.4s, #0
	and	v25.16b, v25.16b, v28.16b
	and	v9.16b, v9.16b, v28.16b
	and	v29.16b, v29.16b, v28.16b
	and	v10.16b, v10.16b, v28.16b
	and	v11.16b, v11.16b, v28.16b
	and	v30.16b, v30.16b, v28.16b
	and	v12.16b, v12.16b, v28.16b
	and	v26.16b, v26.16b, v28.16b
	and	v13.16b, v13.16b, v28.16b
	and	v31.16b, v31.16b, v28.16b
	and	v14.16b, v14.16b, v28.16b
	and	v15.16b, v15.16b, v28.16b
	and	v27.16b, v27.16b, v28.16b
	and	v8.16b, v8.16b, v28.16b
	and	v0.16b, v0.16b, v28.16b
	and	v24.16b, v24.16b, v28.16b
	add	v16.2d, v16.2d, v25.2d
	ldr	q25, [sp]
	add	v18.2d, v18.2d, v26.2d
	add	v2.2d, v2.2d, v12.2d
	add	v4.2d, v4.2d, v30.2d
	add	v3.2d, v3.2d, v11.2d
	add	v5.2d, v5.2d, v29.2d
	add	v25.2d, v25.2d, v10.2d
	add	v1.2d, v1.2d, v9.2d
	add	v23.2d, v23.2d, v24.2d
	add	v17.2d, v17.2d, v0.2d
	add	v20.2d, v20.2d, v8.2d
	add	v22.2d, v22.2d, v27.2d
	add	v19.2d, v19.2d, v15.2d
	add	v7.2d, v7.2d, v14.2d
	add	v21.2d, v21.2d, v31.2d
	add	v6.2d, v6.2d, v13.2d
	b.ne	LBB99_106
	add	v0.2d, v22.2d, v16.2d
	add	v16.2d, v23.2d, v18.2d
	cmp	x13, #9
	add	v5.2d, v21.2d, v5.2d
	add	v1.2d, v6.2d, v1.2d
	add	v3.2d, v19.2d, v3.2d
	add	v4.2d, v20.2d, v4.2d
	add	v6.2d, v7.2d, v25.2d
	add	v2.2d, v17.2d, v2.2d
	add	v0.2d, v0.2d, v16.2d
	add	v1.2d, v1.2d, v3.2d
	add	v2.2d, v6.2d, v2.2d
	add	v3.2d, v5.2d, v4.2d
	add	v1.2d, v1.2d, v2.2d
	add	v0.2d, v3.2d, v0.2d
	add	v0.2d, v1.2d, v0.2d
	addp	d0, v0.2d
	fmov	x13, d0
	b.lo	LBB99_124
LBB99_108:
	movi	v0.2d, #0000000000000000
	ands	x14, x11, #0x7
	mov	w15, #8
	csel	x14, x15, x14, eq
	movi	v1.2d, #0000000000000000
	movi	v2.2d, #0000000000000000
	movi	v3.2d, #0000000000000000
	sub	x11, x11, x14
	mvn	x15, x10
	add	x10, x9, x11, lsl #1
	add	x11, x15, x12
	mov	v0.d[0], x13
	add	x13, x21, x12, lsl #1
	add	x11, x11, x14
	add	x9, x13, x9
LBB99_109:
	ld2	{ v4.8b, v5.8b }, [x9], #16
	movi	v6.8b, #252
	movi	v7.8b, #220
	mov	w12, #1
	adds	x11, x11, #8
	and	v4.8b, v4.8b, v6.8b
	dup	v6.2d, x12
	cmeq	v4.8b, v4.8b, v7.8b
	ushll	v4.8h, v4.8b, #0
	ushll2	v5.4s, v4.8h, #0
	ushll	v4.4s, v4.4h, #0
	ushll2	v7.2d, v5.4s, #0
	ushll	v16.2d, v4.2s, #0
	ushll2	v4.2d, v4.4s, #0
	ushll	v5.2d, v5.2s, #0
	and	v7.16b, v7.16b, v6.16b
	and	v16.16b, v16.16b, v6.16b
	and	v4.16b, v4.16b, v6.16b
	and	v5.16b, v5.16b, v6.16b
	add	v3.2d, v3.2d, v7.2d
	add	v2.2d, v2.2d, v4.2d
	add	v0.2d, v0.2d, v16.2d
	add	v1.2d, v1.2d, v5.2d
	b.ne	LBB99_109
	add	v0.2d, v0.2d, v1.2d
	add	v1.2d, v2.2d, v3.2d
	add	v0.2d, v0.2d, v1.2d
	addp	d0, v0.2d
	fmov	x13, d0
LBB99_111:
	sub	x9, x20, x10
	add	x10, x21, x10
LBB99_112:
	ldrb	w11, [x10], #2
	sub	x9, x9, #2
	and	w11, w11, #0xfc
	cmp	w11, #220
	cinc	x13, x13, eq
	cmp	x9, #1
	b.hi	LBB99_112
	b	LBB99_121
LBB99_113:
	movi	v1.2d, #0000000000000000
	movi	v25.2d, #0000000000000000
	ands	x12, x11, #0x1f
	movi	v5.2d, #0000000000000000
	movi	v16.2d, #0000000000000000
	add	x14, x21, x9
	movi	v3.2d, #0000000000000000
	movi	v4.2d, #0000000000000000
	add	x14, x14, #33
	movi	v2.2d, #0000000000000000
	movi	v18.2d, #0000000000000000
	movi	v6.2d, #0000000000000000
	mov	v1.d[0], x13
	mov	w13, #32
	movi	v21.2d, #0000000000000000
	movi	v7.2d, #0000000000000000
	csel	x13, x13, x12, eq
	movi	v22.2d, #0000000000000000
	movi	v19.2d, #0000000000000000
	sub	x12, x11, x13
	sub	x15, x11, x13
	movi	v20.2d, #0000000000000000
	movi	v17.2d, #0000000000000000
	movi	v23.2d, #0000000000000000
LBB99_114:
	ldur	q24, [x14, #-32]
	str	q25, [sp]
	sub	x16, x14, #8
	ldr	q25, [x14]
	ldur	d28, [x14, #-16]
	add	x17, x14, #24
	mov	v26.16b, v24.16b
	ldr	d29, [x14, #16]
	subs	x15, x15, #32
	mov	v27.16b, v25.16b
	ld1	{ v28.s }[2], [x16]
	sub	x16, x14, #4
	ld1	{ v29.s }[2], [x17]
	add	x17, x14, #28
	mov	v26.b[1], v24.b[2]
	mov	v27.b[1], v25.b[2]
	ld1	{ v28.h }[6], [x16]
	ldursb	w16, [x14, #-2]
	ld1	{ v29.h }[6], [x17]
	ldrsb	w17, [x14, #30]
	add	x14, x14, #64
	mov	v26.b[2], v24.b[4]
	mov	v27.b[2], v25.b[4]
	mov	v26.b[3], v24.b[6]
	mov	v27.b[3], v25.b[6]
	mov	v26.b[4], v24.b[8]
	mov	v27.b[4], v25.b[8]
	mov	v26.b[5], v24.b[10]
	mov	v27.b[5], v25.b[10]
	mov	v26.b[6], v24.b[12]
	mov	v27.b[6], v25.b[12]
	mov	v26.b[7], v24.b[14]
	movi	v24.16b, #252
	mov	v27.b[7], v25.b[14]
	movi	v25.16b, #220
	mov	v26.b[8], v28.b[0]
	mov	v27.b[8], v29.b[0]
	mov	v26.b[9], v28.b[2]
	mov	v27.b[9], v29.b[2]
	mov	v26.b[10], v28.b[4]
	mov	v27.b[10], v29.b[4]
	mov	v26.b[11], v28.b[6]
	mov	v27.b[11], v29.b[6]
	mov	v26.b[12], v28.b[8]
	mov	v27.b[12], v29.b[8]
	mov	v26.b[13], v28.b[10]
	mov	v27.b[13], v29.b[10]
	mov	v26.b[14], v28.b[12]
	mov	v27.b[14], v29.b[12]
	mov	v26.b[15], w16
	mov	w16, #1
	mov	v27.b[15], w17
	dup	v28.2d, x16
	and	v26.16b, v26.16b, v24.16b
	and	v24.16b, v27.16b, v24.16b
	cmeq	v26.16b, v26.16b, v25.16b
	cmeq	v24.16b, v24.16b, v25.16b
	ushll	v25.8h, v26.8b, #0
	ushll2	v26.8h, v26.16b, #0
	ushll	v27.8h, v24.8b, #0
	ushll2	v24.8h, v24.16b, #0
	ushll	v29.4s, v25.4h, #0
	ushll2	v25.4s, v25.8h, #0
	ushll	v30.4s, v26.4h, #0
	ushll2	v26.4s, v26.8h, #0
	ushll	v31.4s, v27.4h, #0
	ushll2	v27.4s, v27.8h, #0
	ushll	v8.4s, v24.4h, #0
	ushll2	v24.4s, v24.8h, #0
	ushll	v10.2d, v25.2s, #0
	ushll2	v25.2d, v25.4s, #0
	ushll	v9.2d, v29.2s, #0
	ushll2	v29.2d, v29.4s, #0
	ushll	v11.2d, v30.2s, #0
	ushll2	v30.2d, v30.4s, #0
	ushll	v12.2d, v26.2s, #0
	ushll2	v26.2d, v26.4s, #0
	ushll	v13.2d, v31.2s, #0
	ushll2	v31.2d, v31.4s, #0
	ushll	v14.2d, v27.2s, #0
	ushll	v15.2d, v8.2s, #0
	ushll2	v27.2d, v27.4s, #0
	ushll2	v8.2d, v8.4s, #0
	ushll	v0.2d, v24.2s, #0
	ushll2	v24.2d, v24.4s, #0
	and	v25.16b, v25.16b, v28.16b
	and	v9.16b, v9.16b, v28.16b
	and	v29.16b, v29.16b, v28.16b
	and	v10.16b, v10.16b, v28.16b
	and	v11.16b, v11.16b, v28.16b
	and	v30.16b, v30.16b, v28.16b
	and	v12.16b, v12.16b, v28.16b
	and	v26.16b, v26.16b, v28.16b
	and	v13.16b, v13.16b, v28.16b
	and	v31.16b, v31.16b, v28.16b
	and	v14.16b, v14.16b, v28.16b
	and	v15.16b, v15.16b, v28.16b
	and	v27.16b, v27.16b, v28.16b
	and	v8.16b, v8.16b, v28.16b
	and	v0.16b, v0.16b, v28.16b
	and	v24.16b, v24.16b, v28.16b
	add	v16.2d, v16.2d, v25.2d
	ldr	q25, [sp]
	add	v18.2d, v18.2d, v26.2d
	add	v2.2d, v2.2d, v12.2d
	add	v4.2d, v4.2d, v30.2d
	add	v3.2d, v3.2d, v11.2d
	add	v5.2d, v5.2d, v29.2d
	add	v25.2d, v25.2d, v10.2d
	add	v1.2d, v1.2d, v9.2d
	add	v23.2d, v23.2d, v24.2d
	add	v17.2d, v17.2d, v0.2d
	add	v20.2d, v20.2d, v8.2d
	add	v22.2d, v22.2d, v27.2d
	add	v19.2d, v19.2d, v15.2d
	add	v7.2d, v7.2d, v14.2d
	add	v21.2d, v21.2d, v31.2d
	add	v6.2d, v6.2d, v13.2d
	b.ne	LBB99_114
	add	v0.2d, v22.2d, v16.2d
	add	v16.2d, v23.2d, v18.2d
	cmp	x13, #9
	add	v5.2d, v21.2d, v5.2d
	add	v1.2d, v6.2d, v1.2d
	add	v3.2d, v19.2d, v3.2d
	add	v4.2d, v20.2d, v4.2d
	add	v6.2d, v7.2d, v25.2d
	add	v2.2d, v17.2d, v2.2d
	add	v0.2d, v0.2d, v16.2d
	add	v1.2d, v1.2d, v3.2d
	add	v2.2d, v6.2d, v2.2d
	add	v3.2d, v5.2d, v4.2d
	add	v1.2d, v1.2d, v2.2d
	add	v0.2d, v3.2d, v0.2d
	add	v0.2d, v1.2d, v0.2d
	addp	d0, v0.2d
	fmov	x13, d0
	b.lo	LBB99_125
LBB99_116:
	movi	v0.2d, #0000000000000000
	ands	x14, x11, #0x7
	mov	w15, #8
	movi	v1.2d, #0000000000000000
	csel	x14, x15, x14, eq
	movi	v2.2d, #0000000000000000
	movi	v3.2d, #0000000000000000
	sub	x11, x11, x14
	mvn	x15, x10
	add	x10, x9, x11, lsl #1
	add	x11, x15, x12
	mov	v0.d[0], x13
	add	x13, x21, x12, lsl #1
	add	x11, x11, x14
	add	x9, x13, x9
	add	x9, x9, #1
LBB99_117:
	ld2	{ v4.8b, v5.8b }, [x9], #16
	movi	v6.8b, #252
	movi	v7.8b, #220
	mov	w12, #1
	adds	x11, x11, #8
	and	v4.8b, v4.8b, v6.8b
	dup	v6.2d, x12
	cmeq	v4.8b, v4.8b, v7.8b
	ushll	v4.8h, v4.8b, #0
	ushll2	v5.4s, v4.8h, #0
	ushll	v4.4s, v4.4h, #0
	ushll2	v7.2d, v5.4s, #0
	ushll	v16.2d, v4.2s, #0
	ushll2	v4.2d, v4.4s, #0
	ushll	v5.2d, v5.2s, #0
	and	v7.16b, v7.16b, v6.16b
	and	v16.16b, v16.16b, v6.16b
	and	v4.16b, v4.16b, v6.16b
	and	v5.16b, v5.16b, v6.16b
	add	v3.2d, v3.2d, v7.2d
	add	v2.2d, v2.2d, v4.2d
	add	v0.2d, v0.2d, v16.2d
	add	v1.2d, v1.2d, v5.2d
	b.ne	LBB99_117
	add	v0.2d, v0.2d, v1.2d
	add	v1.2d, v2.2d, v3.2d
	add	v0.2d, v0.2d, v1.2d
	addp	d0, v0.2d
	fmov	x13, d0
LBB99_119:
	add	x11, x10, x21
	sub	x9, x20, x10
	add	x10, x11, #1
LBB99_120:
	ldrb	w11, [x10], #2
	sub	x9, x9, #2
	and	w11, w11, #0xfc
	cmp	w11, #220
	cinc	x13, x13, eq
	cmp	x9, #1
	b.hi	LBB99_120
LBB99_121:
	sub	x0, x8, x13
LBB99_122:
	add	x19, x0, x19
LBB99_123:
	mov	x0, x19
	.cfi_def_cfa wsp, 160
	ldp	x20, x19, [sp, #144]
	ldp	x22, x21, [sp, #128]
	ldp	x24, x23, [sp, #112]
	ldp	x26, x25, [sp, #96]
	ldp	x29, x30, [sp, #80]
	ldp	d9, d8, [sp, #64]
	ldp	d11, d10, [sp, #48]
	ldp	d13, d12, [sp, #32]
	ldp	d15, d14, [sp, #16]
	add	sp, sp, #160
	.cfi_def_cfa_offset 0
	.cfi_restore w19
	.cfi_restore w20
	.cfi_restore w21
	.cfi_restore w22
	.cfi_restore w23
	.cfi_restore w24
	.cfi_restore w25
	.cfi_restore w26
	.cfi_restore w30
	.cfi_restore w29
	.cfi_restore b8
	.cfi_restore b9
	.cfi_restore b10
	.cfi_restore b11
	.cfi_restore b12
	.cfi_restore b13
	.cfi_restore b14
	.cfi_restore b15
	ret
LBB99_124:
	.cfi_restore_state
	add	x10, x9, x12, lsl #1
	b	LBB99_111
LBB99_125:
	add	x10, x9, x12, lsl #1
	b	LBB99_119
Lfunc_end99:
	.cfi_endproc

	.section	__TEXT,__text,regular,pure_instructions
	.globl	_dethrux_to_utf8_lossy_len_aarch64
	.private_extern	_dethrux_to_utf8_lossy_len_aarch64
	.p2align	2
_dethrux_to_utf8_lossy_len_aarch64:
	.cfi_startproc
	hint	#34
	mov	w8, #4096
	cmp	x1, #0
	csel	x8, x8, xzr, eq
	cmp	w0, #1
	b.ne	LBB100_2
	add	x0, x1, x8
	mov	x1, x2
	b	"_utf16_transcode::sizes::to_utf8_lossy_len::<#8b18edd9dd9aa8df>"
LBB100_2:
	add	x0, x1, x8
	mov	x1, x2
	b	"_utf16_transcode::sizes::to_utf8_lossy_len::<#418c2b53cf60437c>"
Lfunc_end100:
	.cfi_endproc

	.section	__TEXT,__literal16,16byte_literals
	.p2align	4, 0x0
lCPI101_0:
	.byte	1
	.byte	2
	.byte	4
	.byte	8
	.byte	16
	.byte	32
	.byte	64
	.byte	128
	.byte	1
	.byte	2
	.byte	4
	.byte	8
	.byte	16
	.byte	32
	.byte	64
	.byte	128
	.section	__TEXT,__text,regular,pure_instructions
	.globl	_dethrux_to_utf8_replacements_aarch64
	.private_extern	_dethrux_to_utf8_replacements_aarch64
	.p2align	2
_dethrux_to_utf8_replacements_aarch64:
	.cfi_startproc
	hint	#34
	stp	x29, x30, [sp, #-48]!
	.cfi_def_cfa_offset 48
	stp	x22, x21, [sp, #16]
	stp	x20, x19, [sp, #32]
	mov	x29, sp
	.cfi_def_cfa w29, 48
	.cfi_offset w19, -8
	.cfi_offset w20, -16
	.cfi_offset w21, -24
	.cfi_offset w22, -32
	.cfi_offset w30, -40
	.cfi_offset w29, -48
	cmp	x1, #0
	mov	w8, #4096
	mov	x20, x2
	csel	x8, x8, xzr, eq
	cmp	w0, #1
	mov	x19, xzr
	add	x21, x1, x8
	b.ne	LBB101_26
	cmp	x20, #2
	b.ne	LBB101_7
LBB101_2:
	ldrb	w8, [x21]
LBB101_3:
	and	w8, w8, #0xf8
	cmp	w8, #216
	b.ne	LBB101_52
LBB101_4:
	mov	x0, x21
	mov	x1, x20
	bl	"_utf16_units::validate::valid_len::<#8b18edd9dd9aa8df>"
	subs	x1, x20, x0
	b.eq	LBB101_52
	add	x21, x21, x0
	mov	x22, x0
	mov	x0, x21
	bl	"_utf16_units::validate::error_len::<#8b18edd9dd9aa8df>"
	and	w8, w0, #0xff
	cmp	w8, #1
	b.ne	LBB101_51
	and	x8, x1, #0xff
	sub	x9, x20, x22
	add	x19, x19, #1
	add	x21, x21, x8
	sub	x20, x9, x8
	cmp	x20, #2
	b.eq	LBB101_2
LBB101_7:
	cmp	x20, #7
	b.hi	LBB101_11
	cmp	x20, #4
	b.eq	LBB101_19
	cmp	x20, #6
	b.eq	LBB101_16
	cbnz	x20, LBB101_4
	b	LBB101_52
LBB101_11:
	cmp	x20, #64
	b.hi	LBB101_4
	tbnz	w20, #0, LBB101_4
	cmp	x20, #15
	b.hi	LBB101_21
	movi	v0.4h, #248
	ldr	d2, [x21]
	movi	v1.4h, #216
	and	v2.8b, v2.8b, v0.8b
	cmeq	v2.4h, v2.4h, v1.4h
	umaxv	h2, v2.4h
	fmov	w8, s2
	tbnz	w8, #0, LBB101_4
	add	x8, x21, x20
	ldur	d2, [x8, #-8]
	and	v0.8b, v2.8b, v0.8b
	cmeq	v0.4h, v0.4h, v1.4h
	umaxv	h0, v0.4h
	fmov	w8, s0
	tbnz	w8, #0, LBB101_4
	b	LBB101_52
LBB101_16:
	ldrb	w8, [x21]
	and	w8, w8, #0xf8
	cmp	w8, #216
	b.eq	LBB101_4
	ldrb	w8, [x21, #2]
	and	w8, w8, #0xf8
	cmp	w8, #216
	b.eq	LBB101_4
	ldrb	w8, [x21, #4]
	b	LBB101_3
LBB101_19:
	ldrb	w8, [x21]
	and	w8, w8, #0xf8
	cmp	w8, #216
	b.eq	LBB101_4
	ldrb	w8, [x21, #2]
	b	LBB101_3
LBB101_21:
	cmp	x20, #31
	b.hi	LBB101_24
	ldr	q0, [x21]
	movi	v1.8b, #216
	xtn	v2.8b, v0.8h
	movi	v0.8b, #248
	and	v2.8b, v2.8b, v0.8b
	cmeq	v2.8b, v2.8b, v1.8b
	umaxv	b2, v2.8b
	fmov	w8, s2
	tbnz	w8, #0, LBB101_4
	add	x8, x21, x20
	ldur	q2, [x8, #-16]
	xtn	v2.8b, v2.8h
	and	v0.8b, v2.8b, v0.8b
	cmeq	v0.8b, v0.8b, v1.8b
	umaxv	b0, v0.8b
	fmov	w8, s0
	tbnz	w8, #0, LBB101_4
	b	LBB101_52
LBB101_24:
	ldp	q1, q0, [x21]
	adrp	x8, lCPI101_0@PAGE
	uzp1	v2.16b, v1.16b, v0.16b
	movi	v0.16b, #248
	movi	v1.16b, #216
	and	v2.16b, v2.16b, v0.16b
	cmeq	v3.16b, v2.16b, v1.16b
	ldr	q2, [x8, lCPI101_0@PAGEOFF]
	and	v3.16b, v3.16b, v2.16b
	addp	v3.16b, v3.16b, v3.16b
	addp	v3.16b, v3.16b, v3.16b
	addp	v3.16b, v3.16b, v3.16b
	umov	w8, v3.h[0]
	cbnz	w8, LBB101_4
	add	x8, x21, x20
	ldp	q4, q3, [x8, #-32]
	uzp1	v3.16b, v4.16b, v3.16b
	and	v0.16b, v3.16b, v0.16b
	cmeq	v0.16b, v0.16b, v1.16b
	and	v0.16b, v0.16b, v2.16b
	addp	v0.16b, v0.16b, v0.16b
	addp	v0.16b, v0.16b, v0.16b
	addp	v0.16b, v0.16b, v0.16b
	umov	w8, v0.h[0]
	cbnz	w8, LBB101_4
	b	LBB101_52
LBB101_26:
	cmp	x20, #2
	b.ne	LBB101_32
	ldrb	w8, [x21, #1]
LBB101_28:
	and	w8, w8, #0xf8
	cmp	w8, #216
	b.ne	LBB101_52
LBB101_29:
	mov	x0, x21
	mov	x1, x20
	bl	"_utf16_units::validate::valid_len::<#418c2b53cf60437c>"
	subs	x1, x20, x0
	b.eq	LBB101_52
	add	x21, x21, x0
	mov	x22, x0
	mov	x0, x21
	bl	"_utf16_units::validate::error_len::<#418c2b53cf60437c>"
	and	w8, w0, #0xff
	cmp	w8, #1
	b.ne	LBB101_51
	and	x8, x1, #0xff
	sub	x9, x20, x22
	add	x19, x19, #1
	add	x21, x21, x8
	sub	x20, x9, x8
	b	LBB101_26
LBB101_32:
	cmp	x20, #7
	b.hi	LBB101_36
	cmp	x20, #4
	b.eq	LBB101_44
	cmp	x20, #6
	b.eq	LBB101_41
	cbnz	x20, LBB101_29
	b	LBB101_52
LBB101_36:
	cmp	x20, #64
	b.hi	LBB101_29
	tbnz	w20, #0, LBB101_29
	cmp	x20, #15
	b.hi	LBB101_46
	ldr	d0, [x21]
	ushr	v1.4h, v0.4h, #8
	movi	v0.4h, #216
	bic	v1.4h, #7
	cmeq	v1.4h, v1.4h, v0.4h
	umaxv	h1, v1.4h
	fmov	w8, s1
	tbnz	w8, #0, LBB101_29
	add	x8, x21, x20
	ldur	d1, [x8, #-8]
	ushr	v1.4h, v1.4h, #8
	bic	v1.4h, #7
	cmeq	v0.4h, v1.4h, v0.4h
	umaxv	h0, v0.4h
	fmov	w8, s0
	tbnz	w8, #0, LBB101_29
	b	LBB101_52
LBB101_41:
	ldrb	w8, [x21, #1]
	and	w8, w8, #0xf8
	cmp	w8, #216
	b.eq	LBB101_29
	ldrb	w8, [x21, #3]
	and	w8, w8, #0xf8
	cmp	w8, #216
	b.eq	LBB101_29
	ldrb	w8, [x21, #5]
	b	LBB101_28
LBB101_44:
	ldrb	w8, [x21, #1]
	and	w8, w8, #0xf8
	cmp	w8, #216
	b.eq	LBB101_29
	ldrb	w8, [x21, #3]
	b	LBB101_28
LBB101_46:
	cmp	x20, #31
	b.hi	LBB101_49
	ldr	q1, [x21]
	movi	v0.8b, #248
	shrn	v2.8b, v1.8h, #8
	movi	v1.8b, #216
	and	v2.8b, v2.8b, v0.8b
	cmeq	v2.8b, v2.8b, v1.8b
	umaxv	b2, v2.8b
	fmov	w8, s2
	tbnz	w8, #0, LBB101_29
	add	x8, x21, x20
	ldur	q2, [x8, #-16]
	shrn	v2.8b, v2.8h, #8
	and	v0.8b, v2.8b, v0.8b
	cmeq	v0.8b, v0.8b, v1.8b
	umaxv	b0, v0.8b
	fmov	w8, s0
	tbnz	w8, #0, LBB101_29
	b	LBB101_52
LBB101_49:
	ldp	q1, q0, [x21]
	adrp	x8, lCPI101_0@PAGE
	uzp2	v2.16b, v1.16b, v0.16b
	movi	v0.16b, #248
	movi	v1.16b, #216
	and	v2.16b, v2.16b, v0.16b
	cmeq	v3.16b, v2.16b, v1.16b
	ldr	q2, [x8, lCPI101_0@PAGEOFF]
	and	v3.16b, v3.16b, v2.16b
	addp	v3.16b, v3.16b, v3.16b
	addp	v3.16b, v3.16b, v3.16b
	addp	v3.16b, v3.16b, v3.16b
	umov	w8, v3.h[0]
	cbnz	w8, LBB101_29
	add	x8, x21, x20
	ldp	q4, q3, [x8, #-32]
	uzp2	v3.16b, v4.16b, v3.16b
	and	v0.16b, v3.16b, v0.16b
	cmeq	v0.16b, v0.16b, v1.16b
	and	v0.16b, v0.16b, v2.16b
	addp	v0.16b, v0.16b, v0.16b
	addp	v0.16b, v0.16b, v0.16b
	addp	v0.16b, v0.16b, v0.16b
	umov	w8, v0.h[0]
	cbnz	w8, LBB101_29
	b	LBB101_52
LBB101_51:
	add	x19, x19, #1
LBB101_52:
	mov	x0, x19
	.cfi_def_cfa wsp, 48
	ldp	x20, x19, [sp, #32]
	ldp	x22, x21, [sp, #16]
	ldp	x29, x30, [sp], #48
	.cfi_def_cfa_offset 0
	.cfi_restore w19
	.cfi_restore w20
	.cfi_restore w21
	.cfi_restore w22
	.cfi_restore w30
	.cfi_restore w29
	ret
Lfunc_end101:
	.cfi_endproc

	.section	__TEXT,__text,regular,pure_instructions
	.globl	_dethrux_to_wtf8_len_aarch64
	.private_extern	_dethrux_to_wtf8_len_aarch64
	.p2align	2
_dethrux_to_wtf8_len_aarch64:
	.cfi_startproc
	hint	#34
	mov	w8, #4096
	cmp	x1, #0
	csel	x8, x8, xzr, eq
	cmp	w0, #1
	b.ne	LBB102_2
	add	x0, x1, x8
	and	x1, x2, #0xfffffffffffffffe
	b	"_utf16_transcode::sizes::to_utf8_lossy_len::<#8b18edd9dd9aa8df>"
LBB102_2:
	add	x0, x1, x8
	and	x1, x2, #0xfffffffffffffffe
	b	"_utf16_transcode::sizes::to_utf8_lossy_len::<#418c2b53cf60437c>"
Lfunc_end102:
	.cfi_endproc

	.section	__TEXT,__literal16,16byte_literals
	.p2align	4, 0x0
lCPI103_0:
	.byte	1
	.byte	2
	.byte	4
	.byte	8
	.byte	16
	.byte	32
	.byte	64
	.byte	128
	.byte	1
	.byte	2
	.byte	4
	.byte	8
	.byte	16
	.byte	32
	.byte	64
	.byte	128
	.section	__TEXT,__text,regular,pure_instructions
	.globl	_dethrux_to_latin1_aarch64
	.private_extern	_dethrux_to_latin1_aarch64
	.p2align	2
_dethrux_to_latin1_aarch64:
	.cfi_startproc
	hint	#34
	cmp	x1, #0
	mov	w9, #4096
	lsr	x10, x2, #1
	csel	x12, x9, xzr, eq
	cmp	x3, #0
	csel	x11, x9, xzr, eq
	cmp	x4, x10
	csel	x9, x4, x10, lo
	cmp	w0, #1
	add	x10, x1, x12
	add	x11, x3, x11
	b.ne	LBB103_5
	cmp	x9, #32
	b.lo	LBB103_9
	mov	x13, xzr
	add	x14, x1, x12
	mov	x15, x9
LBB103_3:
	ldp	q3, q0, [x14, #32]
	movi	v4.2d, #0xff00ff00ff00ff
	ldp	q1, q2, [x14], #64
	adrp	x16, lCPI103_0@PAGE
	rev16	v0.16b, v0.16b
	rev16	v3.16b, v3.16b
	rev16	v1.16b, v1.16b
	rev16	v2.16b, v2.16b
	cmhi	v5.8h, v0.8h, v4.8h
	cmhi	v6.8h, v3.8h, v4.8h
	cmhi	v7.8h, v2.8h, v4.8h
	cmhi	v4.8h, v1.8h, v4.8h
	uzp1	v5.16b, v6.16b, v5.16b
	ldr	q6, [x16, lCPI103_0@PAGEOFF]
	uzp1	v4.16b, v4.16b, v7.16b
	and	v5.16b, v5.16b, v6.16b
	and	v4.16b, v4.16b, v6.16b
	addp	v4.16b, v4.16b, v5.16b
	addp	v4.16b, v4.16b, v4.16b
	addp	v4.16b, v4.16b, v4.16b
	fmov	w16, s4
	cbnz	w16, LBB103_10
	uzp1	v1.16b, v1.16b, v2.16b
	uzp1	v0.16b, v3.16b, v0.16b
	sub	x15, x15, #32
	add	x16, x11, x13
	cmp	x15, #31
	add	x13, x13, #32
	stp	q1, q0, [x16]
	b.hi	LBB103_3
	b	LBB103_10
LBB103_5:
	cmp	x9, #32
	b.lo	LBB103_19
	mov	x13, xzr
	add	x14, x1, x12
	mov	x15, x9
LBB103_7:
	movi	v4.2d, #0xff00ff00ff00ff
	ldp	q1, q0, [x14, #32]
	ldp	q2, q3, [x14], #64
	adrp	x16, lCPI103_0@PAGE
	cmhi	v5.8h, v0.8h, v4.8h
	cmhi	v6.8h, v1.8h, v4.8h
	cmhi	v7.8h, v3.8h, v4.8h
	cmhi	v4.8h, v2.8h, v4.8h
	uzp1	v5.16b, v6.16b, v5.16b
	ldr	q6, [x16, lCPI103_0@PAGEOFF]
	uzp1	v4.16b, v4.16b, v7.16b
	and	v5.16b, v5.16b, v6.16b
	and	v4.16b, v4.16b, v6.16b
	addp	v4.16b, v4.16b, v5.16b
	addp	v4.16b, v4.16b, v4.16b
	addp	v4.16b, v4.16b, v4.16b
	fmov	w16, s4
	cbnz	w16, LBB103_20
	uzp1	v2.16b, v2.16b, v3.16b
	uzp1	v0.16b, v1.16b, v0.16b
	sub	x15, x15, #32
	add	x16, x11, x13
	cmp	x15, #31
	add	x13, x13, #32
	stp	q2, q0, [x16]
	b.hi	LBB103_7
	b	LBB103_20
LBB103_9:
	mov	x13, xzr
LBB103_10:
	sub	x14, x9, x13
	cmp	x14, #8
	b.lo	LBB103_14
	add	x15, x12, x13, lsl #1
	add	x15, x1, x15
LBB103_12:
	ldr	q0, [x15], #16
	movi	v1.2d, #0xff00ff00ff00ff
	rev16	v0.16b, v0.16b
	cmhi	v1.8h, v0.8h, v1.8h
	umaxv	h1, v1.8h
	fmov	w16, s1
	tbnz	w16, #0, LBB103_14
	xtn	v0.8b, v0.8h
	sub	x14, x14, #8
	cmp	x14, #7
	str	d0, [x11, x13]
	add	x13, x13, #8
	b.hi	LBB103_12
LBB103_14:
	cmp	x9, x13
	b.eq	LBB103_18
	add	x12, x12, x13, lsl #1
	add	x12, x12, x1
	add	x12, x12, #1
LBB103_16:
	ldurh	w14, [x12, #-1]
	rev	w15, w14
	lsr	w15, w15, #16
	cmp	w15, #255
	b.hi	LBB103_29
	rev16	w14, w14
	strb	w14, [x11, x13]
	add	x13, x13, #1
	cmp	x9, x13
	add	x12, x12, #2
	b.ne	LBB103_16
LBB103_18:
	lsl	x11, x9, #1
	subs	x12, x2, x11
	b.ne	LBB103_30
	b	LBB103_36
LBB103_19:
	mov	x13, xzr
LBB103_20:
	sub	x14, x9, x13
	cmp	x14, #8
	b.lo	LBB103_24
	add	x15, x12, x13, lsl #1
	add	x15, x1, x15
LBB103_22:
	movi	v1.2d, #0xff00ff00ff00ff
	ldr	q0, [x15], #16
	cmhi	v1.8h, v0.8h, v1.8h
	umaxv	h1, v1.8h
	fmov	w16, s1
	tbnz	w16, #0, LBB103_24
	xtn	v0.8b, v0.8h
	sub	x14, x14, #8
	cmp	x14, #7
	str	d0, [x11, x13]
	add	x13, x13, #8
	b.hi	LBB103_22
LBB103_24:
	cmp	x9, x13
	b.eq	LBB103_28
	add	x12, x12, x13, lsl #1
	add	x12, x12, x1
	add	x12, x12, #1
LBB103_26:
	ldrb	w14, [x12]
	cbnz	w14, LBB103_35
	ldurb	w14, [x12, #-1]
	add	x12, x12, #2
	strb	w14, [x11, x13]
	add	x13, x13, #1
	cmp	x9, x13
	b.ne	LBB103_26
LBB103_28:
	lsl	x11, x9, #1
	subs	x12, x2, x11
	b.eq	LBB103_36
	b	LBB103_37
LBB103_29:
	mov	x9, x13
	lsl	x11, x13, #1
	subs	x12, x2, x11
	b.eq	LBB103_36
LBB103_30:
	cmp	x12, #2
	b.lo	LBB103_38
	add	x10, x10, x11
	ldrb	w13, [x10]
	and	w14, w13, #0xf8
	cmp	w14, #216
	b.ne	LBB103_44
	mov	w14, #220
	bics	wzr, w14, w13
	b.eq	LBB103_45
	cmp	x12, #4
	b.lo	LBB103_38
	ldrb	w10, [x10, #2]
	b	LBB103_43
LBB103_35:
	mov	x9, x13
	lsl	x11, x13, #1
	subs	x12, x2, x11
	b.ne	LBB103_37
LBB103_36:
	stp	x2, x9, [x8]
	stp	w12, wzr, [x8, #16]
	ret
LBB103_37:
	cmp	x12, #2
	b.hs	LBB103_39
LBB103_38:
	mov	w12, #2
	stp	x11, x9, [x8]
	stp	w12, wzr, [x8, #16]
	ret
LBB103_39:
	add	x10, x10, x11
	ldrb	w13, [x10, #1]
	and	w14, w13, #0xf8
	cmp	w14, #216
	b.ne	LBB103_44
	mov	w14, #220
	bics	wzr, w14, w13
	b.eq	LBB103_45
	cmp	x12, #4
	b.lo	LBB103_38
	ldrb	w10, [x10, #3]
LBB103_43:
	and	w10, w10, #0xfc
	cmp	w10, #220
	b.ne	LBB103_45
LBB103_44:
	cmp	w13, #0
	mov	w12, #3
	cinc	w12, w12, ne
	stp	x11, x9, [x8]
	stp	w12, wzr, [x8, #16]
	ret
LBB103_45:
	mov	w10, #2
	mov	w12, #1
	stp	x11, x9, [x8]
	stp	w12, w10, [x8, #16]
	ret
Lfunc_end103:
	.cfi_endproc

	.section	__TEXT,__text,regular,pure_instructions
	.globl	_dethrux_find_aarch64
	.private_extern	_dethrux_find_aarch64
	.p2align	2
_dethrux_find_aarch64:
	.cfi_startproc
	hint	#34
	sub	sp, sp, #304
	.cfi_def_cfa_offset 304
	stp	x29, x30, [sp, #208]
	stp	x28, x27, [sp, #224]
	stp	x26, x25, [sp, #240]
	stp	x24, x23, [sp, #256]
	stp	x22, x21, [sp, #272]
	stp	x20, x19, [sp, #288]
	add	x29, sp, #208
	.cfi_def_cfa w29, 96
	.cfi_offset w19, -8
	.cfi_offset w20, -16
	.cfi_offset w21, -24
	.cfi_offset w22, -32
	.cfi_offset w23, -40
	.cfi_offset w24, -48
	.cfi_offset w25, -56
	.cfi_offset w26, -64
	.cfi_offset w27, -72
	.cfi_offset w28, -80
	.cfi_offset w30, -88
	.cfi_offset w29, -96
	movi	v0.2d, #0000000000000000
	mov	w8, #4096
	cmp	x1, #0
	csel	x24, x8, xzr, eq
	cmp	x3, #0
	mov	x19, x4
	mov	x20, x3
	mov	x21, x2
	mov	x23, x1
	csel	x8, x8, xzr, eq
	cmp	w0, #1
	add	x22, x1, x24
	str	x8, [sp, #24]
	b.ne	LBB104_44
	add	x0, sp, #32
	add	x1, x20, x8
	mov	x2, x19
	stp	q0, q0, [sp, #48]
	stp	q0, q0, [sp, #80]
	str	q0, [sp, #32]
	bl	"_memchr::memmem::Finder::new"
	ldp	q0, q1, [sp, #48]
	add	x8, x24, x19
	ldr	q3, [sp, #32]
	add	x8, x8, x23
	mov	x3, xzr
	mov	x25, xzr
	sub	x8, x8, #2
	stp	q0, q1, [x29, #-80]
	ldp	q2, q0, [sp, #80]
	stur	q3, [x29, #-96]
	str	x8, [sp]
	stp	q2, q0, [x29, #-48]
	b	LBB104_3
LBB104_2:
	add	x3, x25, #32
	mov	x25, x26
	cmp	x3, x21
	b.hi	LBB104_89
LBB104_3:
	sub	x0, x29, #96
	mov	x1, x22
	mov	x2, x21
	bl	"_utf16_bytes::bytes::find_bytes"
	tst	w0, #0x1
	csel	x26, x1, xzr, ne
	tbz	w0, #0, LBB104_89
	mov	x23, x1
	subs	x1, x21, x1
	b.ls	LBB104_10
	tbnz	w23, #0, LBB104_19
	cmp	x23, #2
	b.lo	LBB104_11
	add	x8, x22, x23
	ldurb	w9, [x8, #-2]
	and	w9, w9, #0xfc
	cmp	w9, #216
	b.ne	LBB104_11
	add	x9, x23, #2
	cmp	x9, x21
	b.hi	LBB104_19
	ldrb	w8, [x8]
	and	w8, w8, #0xfc
	cmp	w8, #220
	b.ne	LBB104_11
	b	LBB104_19
LBB104_10:
	b.ne	LBB104_19
LBB104_11:
	ldr	x8, [sp, #24]
	add	x0, x22, x23
	mov	x3, x19
	add	x2, x20, x8
	bl	"_core::slice::reads::slice+T::starts_with::<i8,31'core::cmp::numbers::U8PartialEq{}>"
	cbz	w0, LBB104_19
	add	x8, x23, x19
	cmp	x21, x8
	b.ls	LBB104_18
	tbnz	w8, #0, LBB104_19
	cmp	x8, #2
	b.lo	LBB104_88
	add	x9, x22, x8
	ldurb	w10, [x9, #-2]
	and	w10, w10, #0xfc
	cmp	w10, #216
	b.ne	LBB104_88
	add	x8, x8, #2
	cmp	x8, x21
	b.hi	LBB104_19
	ldrb	w8, [x9]
	and	w8, w8, #0xfc
	cmp	w8, #220
	b.eq	LBB104_19
	b	LBB104_88
LBB104_18:
	cmp	x8, x21
	b.eq	LBB104_88
LBB104_19:
	sub	x8, x23, x25
	lsl	x9, x8, #1
	subs	x8, x23, #2
	csel	x8, xzr, x8, lo
	sub	x9, x9, #1
	cmp	x9, x8
	b.hs	LBB104_26
	cmp	x8, x21
	b.hs	LBB104_25
	lsl	x9, x25, #1
	cmp	x23, #2
	mov	w10, #2
	csel	x10, x23, x10, lo
	sub	x9, x9, x23
	sub	x9, x9, x10
LBB104_22:
	ldrb	w10, [x22, x8]
	ldrb	w11, [x22, x9]
	cmp	w10, w11
	b.ne	LBB104_25
	add	x8, x8, #1
	add	x9, x9, #1
	cmp	x21, x8
	b.ne	LBB104_22
	mov	x8, x21
LBB104_25:
	add	x9, x19, #1
	subs	x8, x8, x9
	add	x9, x26, #1
	csel	x8, xzr, x8, lo
	cmp	x8, x9
	csinc	x25, x8, x26, hi
	cmn	x25, #33
	b.hi	LBB104_2
	b	LBB104_27
LBB104_26:
	add	x25, x23, #1
	cmn	x25, #33
	b.hi	LBB104_2
LBB104_27:
	neg	x8, x21
	mov	x28, xzr
	add	x27, x22, x25
	add	x24, x8, x25
	ldr	x8, [sp]
	sub	x23, x21, x25
	add	x8, x8, x25
	str	x8, [sp, #8]
	sub	x8, x19, x21
	add	x8, x8, x25
	str	x8, [sp, #16]
	b	LBB104_30
LBB104_28:
	add	x8, x24, x28
	cbz	x8, LBB104_36
LBB104_29:
	add	x28, x28, #1
	sub	x23, x23, #1
	cmp	x28, #32
	b.eq	LBB104_2
LBB104_30:
	add	x8, x25, x28
	cmp	x21, x8
	b.ls	LBB104_28
	tbnz	w8, #0, LBB104_29
	cmp	x8, #2
	b.lo	LBB104_36
	add	x8, x27, x28
	ldurb	w8, [x8, #-2]
	and	w8, w8, #0xfc
	cmp	w8, #216
	b.ne	LBB104_36
	add	x8, x25, x28
	add	x8, x8, #2
	cmp	x8, x21
	b.hi	LBB104_29
	ldrb	w8, [x27, x28]
	and	w8, w8, #0xfc
	cmp	w8, #220
	b.eq	LBB104_29
LBB104_36:
	ldr	x8, [sp, #24]
	add	x0, x27, x28
	mov	x1, x23
	mov	x3, x19
	add	x2, x20, x8
	bl	"_core::slice::reads::slice+T::starts_with::<i8,31'core::cmp::numbers::U8PartialEq{}>"
	cbz	w0, LBB104_29
	add	x8, x19, x25
	add	x8, x8, x28
	cmp	x21, x8
	b.ls	LBB104_43
	tbnz	w8, #0, LBB104_29
	cmp	x8, #2
	b.lo	LBB104_87
	ldr	x8, [sp, #8]
	add	x8, x8, x28
	ldrb	w9, [x8]
	and	w9, w9, #0xfc
	cmp	w9, #216
	b.ne	LBB104_87
	add	x9, x19, x25
	add	x9, x9, x28
	add	x9, x9, #2
	cmp	x9, x21
	b.hi	LBB104_29
	ldrb	w8, [x8, #2]
	and	w8, w8, #0xfc
	cmp	w8, #220
	b.eq	LBB104_29
	b	LBB104_87
LBB104_43:
	ldr	x8, [sp, #16]
	add	x8, x8, x28
	cbnz	x8, LBB104_29
	b	LBB104_87
LBB104_44:
	add	x0, sp, #32
	add	x1, x20, x8
	mov	x2, x19
	stp	q0, q0, [sp, #48]
	stp	q0, q0, [sp, #80]
	str	q0, [sp, #32]
	bl	"_memchr::memmem::Finder::new"
	ldp	q0, q1, [sp, #48]
	add	x8, x24, x19
	ldr	q3, [sp, #32]
	add	x8, x8, x23
	mov	x3, xzr
	mov	x25, xzr
	sub	x8, x8, #1
	stp	q0, q1, [x29, #-80]
	ldp	q2, q0, [sp, #80]
	stur	q3, [x29, #-96]
	str	x8, [sp]
	stp	q2, q0, [x29, #-48]
	b	LBB104_46
LBB104_45:
	add	x3, x25, #32
	mov	x25, x26
	cmp	x3, x21
	b.hi	LBB104_89
LBB104_46:
	sub	x0, x29, #96
	mov	x1, x22
	mov	x2, x21
	bl	"_utf16_bytes::bytes::find_bytes"
	tst	w0, #0x1
	csel	x26, x1, xzr, ne
	tbz	w0, #0, LBB104_89
	mov	x23, x1
	subs	x1, x21, x1
	b.ls	LBB104_53
	tbnz	w23, #0, LBB104_62
	cmp	x23, #2
	b.lo	LBB104_54
	add	x8, x22, x23
	ldurb	w9, [x8, #-1]
	and	w9, w9, #0xfc
	cmp	w9, #216
	b.ne	LBB104_54
	add	x9, x23, #2
	cmp	x9, x21
	b.hi	LBB104_62
	ldrb	w8, [x8, #1]
	and	w8, w8, #0xfc
	cmp	w8, #220
	b.ne	LBB104_54
	b	LBB104_62
LBB104_53:
	b.ne	LBB104_62
LBB104_54:
	ldr	x8, [sp, #24]
	add	x0, x22, x23
	mov	x3, x19
	add	x2, x20, x8
	bl	"_core::slice::reads::slice+T::starts_with::<i8,31'core::cmp::numbers::U8PartialEq{}>"
	cbz	w0, LBB104_62
	add	x8, x23, x19
	cmp	x21, x8
	b.ls	LBB104_61
	tbnz	w8, #0, LBB104_62
	cmp	x8, #2
	b.lo	LBB104_88
	add	x9, x22, x8
	ldurb	w10, [x9, #-1]
	and	w10, w10, #0xfc
	cmp	w10, #216
	b.ne	LBB104_88
	add	x8, x8, #2
	cmp	x8, x21
	b.hi	LBB104_62
	ldrb	w8, [x9, #1]
	and	w8, w8, #0xfc
	cmp	w8, #220
	b.eq	LBB104_62
	b	LBB104_88
LBB104_61:
	cmp	x8, x21
	b.eq	LBB104_88
LBB104_62:
	sub	x8, x23, x25
	lsl	x9, x8, #1
	subs	x8, x23, #2
	csel	x8, xzr, x8, lo
	sub	x9, x9, #1
	cmp	x9, x8
	b.hs	LBB104_69
	cmp	x8, x21
	b.hs	LBB104_68
	lsl	x9, x25, #1
	cmp	x23, #2
	mov	w10, #2
	csel	x10, x23, x10, lo
	sub	x9, x9, x23
	sub	x9, x9, x10
LBB104_65:
	ldrb	w10, [x22, x8]
	ldrb	w11, [x22, x9]
	cmp	w10, w11
	b.ne	LBB104_68
	add	x8, x8, #1
	add	x9, x9, #1
	cmp	x21, x8
	b.ne	LBB104_65
	mov	x8, x21
LBB104_68:
	add	x9, x19, #1
	subs	x8, x8, x9
	add	x9, x26, #1
	csel	x8, xzr, x8, lo
	cmp	x8, x9
	csinc	x25, x8, x26, hi
	cmn	x25, #33
	b.hi	LBB104_45
	b	LBB104_70
LBB104_69:
	add	x25, x23, #1
	cmn	x25, #33
	b.hi	LBB104_45
LBB104_70:
	neg	x8, x21
	mov	x28, xzr
	add	x27, x22, x25
	add	x24, x8, x25
	ldr	x8, [sp]
	sub	x23, x21, x25
	add	x8, x8, x25
	str	x8, [sp, #8]
	sub	x8, x19, x21
	add	x8, x8, x25
	str	x8, [sp, #16]
	b	LBB104_73
LBB104_71:
	add	x8, x24, x28
	cbz	x8, LBB104_79
LBB104_72:
	add	x28, x28, #1
	sub	x23, x23, #1
	cmp	x28, #32
	b.eq	LBB104_45
LBB104_73:
	add	x8, x25, x28
	cmp	x21, x8
	b.ls	LBB104_71
	tbnz	w8, #0, LBB104_72
	cmp	x8, #2
	b.lo	LBB104_79
	add	x8, x27, x28
	ldurb	w8, [x8, #-1]
	and	w8, w8, #0xfc
	cmp	w8, #216
	b.ne	LBB104_79
	add	x8, x25, x28
	add	x8, x8, #2
	cmp	x8, x21
	b.hi	LBB104_72
	add	x8, x27, x28
	ldrb	w8, [x8, #1]
	and	w8, w8, #0xfc
	cmp	w8, #220
	b.eq	LBB104_72
LBB104_79:
	ldr	x8, [sp, #24]
	add	x0, x27, x28
	mov	x1, x23
	mov	x3, x19
	add	x2, x20, x8
	bl	"_core::slice::reads::slice+T::starts_with::<i8,31'core::cmp::numbers::U8PartialEq{}>"
	cbz	w0, LBB104_72
	add	x8, x19, x25
	add	x8, x8, x28
	cmp	x21, x8
	b.ls	LBB104_86
	tbnz	w8, #0, LBB104_72
	cmp	x8, #2
	b.lo	LBB104_87
	ldr	x8, [sp, #8]
	ldrb	w8, [x8, x28]
	and	w8, w8, #0xfc
	cmp	w8, #216
	b.ne	LBB104_87
	add	x8, x19, x25
	add	x8, x8, x28
	add	x8, x8, #2
	cmp	x8, x21
	b.hi	LBB104_72
	ldr	x8, [sp, #8]
	add	x8, x8, x28
	ldrb	w8, [x8, #2]
	and	w8, w8, #0xfc
	cmp	w8, #220
	b.eq	LBB104_72
	b	LBB104_87
LBB104_86:
	ldr	x8, [sp, #16]
	add	x8, x8, x28
	cbnz	x8, LBB104_72
LBB104_87:
	add	x23, x25, x28
LBB104_88:
	mov	w8, #1
	b	LBB104_90
LBB104_89:
	mov	x23, xzr
	mov	w8, wzr
LBB104_90:
	cmp	w8, #0
	csinv	x0, x23, xzr, ne
	.cfi_def_cfa wsp, 304
	ldp	x20, x19, [sp, #288]
	ldp	x22, x21, [sp, #272]
	ldp	x24, x23, [sp, #256]
	ldp	x26, x25, [sp, #240]
	ldp	x28, x27, [sp, #224]
	ldp	x29, x30, [sp, #208]
	add	sp, sp, #304
	.cfi_def_cfa_offset 0
	.cfi_restore w19
	.cfi_restore w20
	.cfi_restore w21
	.cfi_restore w22
	.cfi_restore w23
	.cfi_restore w24
	.cfi_restore w25
	.cfi_restore w26
	.cfi_restore w27
	.cfi_restore w28
	.cfi_restore w30
	.cfi_restore w29
	ret
Lfunc_end104:
	.cfi_endproc

	.section	__TEXT,__text,regular,pure_instructions
	.globl	_dethrux_rfind_aarch64
	.private_extern	_dethrux_rfind_aarch64
	.p2align	2
_dethrux_rfind_aarch64:
	.cfi_startproc
	hint	#34
	sub	sp, sp, #320
	.cfi_def_cfa_offset 320
	stp	x29, x30, [sp, #224]
	stp	x28, x27, [sp, #240]
	stp	x26, x25, [sp, #256]
	stp	x24, x23, [sp, #272]
	stp	x22, x21, [sp, #288]
	stp	x20, x19, [sp, #304]
	add	x29, sp, #224
	.cfi_def_cfa w29, 96
	.cfi_offset w19, -8
	.cfi_offset w20, -16
	.cfi_offset w21, -24
	.cfi_offset w22, -32
	.cfi_offset w23, -40
	.cfi_offset w24, -48
	.cfi_offset w25, -56
	.cfi_offset w26, -64
	.cfi_offset w27, -72
	.cfi_offset w28, -80
	.cfi_offset w30, -88
	.cfi_offset w29, -96
	.cfi_remember_state
	movi	v0.2d, #0000000000000000
	mov	w8, #4096
	cmp	x1, #0
	csel	x24, x8, xzr, eq
	cmp	x3, #0
	mov	x19, x4
	mov	x20, x3
	mov	x21, x2
	mov	x23, x1
	csel	x25, x8, xzr, eq
	cmp	w0, #1
	add	x22, x1, x24
	add	x26, x2, #1
	b.ne	LBB105_45
	add	x0, sp, #48
	add	x1, x20, x25
	mov	x2, x19
	stp	q0, q0, [sp, #64]
	stp	q0, q0, [sp, #96]
	str	q0, [sp, #48]
	bl	"_memchr::memmem::FinderRev::new"
	ldp	q0, q1, [sp, #80]
	ldr	q2, [sp, #112]
	stur	q2, [x29, #-32]
	stp	q0, q1, [x29, #-64]
	ldp	q1, q0, [sp, #48]
	stp	q1, q0, [x29, #-96]
	cbz	x26, LBB105_89
	add	x8, x24, x23
	sub	x9, x19, #1
	mov	x24, x21
	add	x10, x8, #1
	add	x8, x8, x19
	str	x25, [sp, #40]
	stp	x10, x8, [sp, #8]
	sub	x8, x9, x21
	str	x8, [sp, #24]
	b	LBB105_4
LBB105_3:
	ldr	x24, [sp, #32]
	cmp	x28, #33
	b.lo	LBB105_89
LBB105_4:
	sub	x8, x19, #1
	sub	x0, x29, #96
	mov	x1, x22
	add	x8, x8, x26
	cmp	x8, x21
	csel	x2, x8, x21, lo
	bl	"_utf16_bytes::bytes::rfind_bytes"
	tst	w0, #0x1
	csel	x23, x1, xzr, ne
	tbz	w0, #0, LBB105_89
	mov	x28, x1
	subs	x1, x21, x1
	b.ls	LBB105_11
	tbnz	w28, #0, LBB105_20
	cmp	x28, #2
	b.lo	LBB105_12
	add	x8, x22, x28
	ldurb	w9, [x8, #-2]
	and	w9, w9, #0xfc
	cmp	w9, #216
	b.ne	LBB105_12
	add	x9, x28, #2
	cmp	x9, x21
	b.hi	LBB105_20
	ldrb	w8, [x8]
	and	w8, w8, #0xfc
	cmp	w8, #220
	b.ne	LBB105_12
	b	LBB105_20
LBB105_11:
	b.ne	LBB105_20
LBB105_12:
	ldr	x8, [sp, #40]
	add	x0, x22, x28
	mov	x3, x19
	add	x2, x20, x8
	bl	"_core::slice::reads::slice+T::starts_with::<i8,31'core::cmp::numbers::U8PartialEq{}>"
	cbz	w0, LBB105_20
	add	x8, x28, x19
	cmp	x21, x8
	b.ls	LBB105_19
	tbnz	w8, #0, LBB105_20
	cmp	x8, #2
	b.lo	LBB105_91
	add	x9, x22, x8
	ldurb	w10, [x9, #-2]
	and	w10, w10, #0xfc
	cmp	w10, #216
	b.ne	LBB105_91
	add	x8, x8, #2
	cmp	x8, x21
	b.hi	LBB105_20
	ldrb	w8, [x9]
	and	w8, w8, #0xfc
	cmp	w8, #220
	b.eq	LBB105_20
	b	LBB105_91
LBB105_19:
	cmp	x8, x21
	b.eq	LBB105_91
LBB105_20:
	sub	x8, x24, x28
	lsl	x8, x8, #1
	cbz	x8, LBB105_26
	add	x9, x28, x19
	sub	x9, x21, x9
	subs	x9, x9, #2
	csel	x9, xzr, x9, lo
	cmp	x9, x8
	b.lo	LBB105_26
	ldr	x9, [sp, #8]
	neg	x11, x28
	add	x13, x19, #2
	sub	x8, x9, x28
	add	x9, x9, x28
	add	x8, x8, x24, lsl #1
LBB105_23:
	mov	x10, x11
	cmp	x13, x11
	b.eq	LBB105_25
	ldrb	w11, [x9, x19]
	ldrb	w12, [x8, x19]
	sub	x8, x8, #1
	sub	x9, x9, #1
	cmp	w11, w12
	add	x11, x10, #1
	b.eq	LBB105_23
LBB105_25:
	sub	x8, x19, x10
	add	x8, x8, #4
	cmp	x8, x23
	csel	x28, x8, x23, lo
LBB105_26:
	subs	x8, x28, #32
	str	x23, [sp, #32]
	csel	x26, xzr, x8, lo
	cmp	x26, x28
	b.hs	LBB105_3
	add	x8, x21, #1
	add	x25, x28, #1
	sub	x24, x8, x28
	b	LBB105_30
LBB105_28:
	ldr	x8, [sp, #24]
	add	x8, x8, x25
	cmp	x8, #1
	b.eq	LBB105_44
LBB105_29:
	cmp	x26, x27
	add	x24, x24, #1
	mov	x25, x23
	b.hs	LBB105_3
LBB105_30:
	sub	x27, x25, #2
	sub	x23, x25, #1
	cmp	x21, x27
	b.ls	LBB105_36
	tbnz	w27, #0, LBB105_29
	cmp	x23, #3
	b.lo	LBB105_37
	add	x8, x22, x25
	ldurb	w9, [x8, #-4]
	and	w9, w9, #0xfc
	cmp	w9, #216
	b.ne	LBB105_37
	cmp	x25, x21
	b.hi	LBB105_29
	ldurb	w8, [x8, #-2]
	and	w8, w8, #0xfc
	cmp	w8, #220
	b.eq	LBB105_29
	b	LBB105_37
LBB105_36:
	mvn	x8, x21
	add	x8, x8, x25
	cmp	x8, #1
	b.ne	LBB105_29
LBB105_37:
	add	x8, x22, x25
	mov	x1, x24
	mov	x3, x19
	sub	x0, x8, #2
	ldr	x8, [sp, #40]
	add	x2, x20, x8
	bl	"_core::slice::reads::slice+T::starts_with::<i8,31'core::cmp::numbers::U8PartialEq{}>"
	cbz	w0, LBB105_29
	add	x8, x19, x25
	sub	x8, x8, #2
	cmp	x21, x8
	b.ls	LBB105_28
	tbnz	w8, #0, LBB105_29
	cmp	x8, #2
	b.lo	LBB105_44
	ldr	x8, [sp, #16]
	add	x8, x8, x25
	ldurb	w9, [x8, #-4]
	and	w9, w9, #0xfc
	cmp	w9, #216
	b.ne	LBB105_44
	add	x9, x19, x25
	cmp	x9, x21
	b.hi	LBB105_29
	ldurb	w8, [x8, #-2]
	and	w8, w8, #0xfc
	cmp	w8, #220
	b.eq	LBB105_29
LBB105_44:
	mov	w8, #1
	mov	x28, x27
	b	LBB105_90
LBB105_45:
	add	x0, sp, #48
	add	x1, x20, x25
	mov	x2, x19
	stp	q0, q0, [sp, #64]
	stp	q0, q0, [sp, #96]
	str	q0, [sp, #48]
	bl	"_memchr::memmem::FinderRev::new"
	ldp	q0, q1, [sp, #80]
	ldr	q2, [sp, #112]
	stur	q2, [x29, #-32]
	stp	q0, q1, [x29, #-64]
	ldp	q1, q0, [sp, #48]
	stp	q1, q0, [x29, #-96]
	cbz	x26, LBB105_89
	add	x8, x24, x23
	mov	x24, x21
	str	x25, [sp, #40]
	add	x9, x8, #1
	add	x8, x8, x19
	stp	x9, x8, [sp, #16]
	b	LBB105_48
LBB105_47:
	ldr	x24, [sp, #32]
	cmp	x28, #33
	b.lo	LBB105_89
LBB105_48:
	sub	x8, x19, #1
	sub	x0, x29, #96
	mov	x1, x22
	add	x8, x8, x26
	cmp	x8, x21
	csel	x2, x8, x21, lo
	bl	"_utf16_bytes::bytes::rfind_bytes"
	tst	w0, #0x1
	csel	x23, x1, xzr, ne
	tbz	w0, #0, LBB105_89
	mov	x28, x1
	subs	x1, x21, x1
	b.ls	LBB105_55
	tbnz	w28, #0, LBB105_64
	cmp	x28, #2
	b.lo	LBB105_56
	add	x8, x22, x28
	ldurb	w9, [x8, #-1]
	and	w9, w9, #0xfc
	cmp	w9, #216
	b.ne	LBB105_56
	add	x9, x28, #2
	cmp	x9, x21
	b.hi	LBB105_64
	ldrb	w8, [x8, #1]
	and	w8, w8, #0xfc
	cmp	w8, #220
	b.ne	LBB105_56
	b	LBB105_64
LBB105_55:
	b.ne	LBB105_64
LBB105_56:
	ldr	x8, [sp, #40]
	add	x0, x22, x28
	mov	x3, x19
	add	x2, x20, x8
	bl	"_core::slice::reads::slice+T::starts_with::<i8,31'core::cmp::numbers::U8PartialEq{}>"
	cbz	w0, LBB105_64
	add	x8, x28, x19
	cmp	x21, x8
	b.ls	LBB105_63
	tbnz	w8, #0, LBB105_64
	cmp	x8, #2
	b.lo	LBB105_91
	add	x9, x22, x8
	ldurb	w10, [x9, #-1]
	and	w10, w10, #0xfc
	cmp	w10, #216
	b.ne	LBB105_91
	add	x8, x8, #2
	cmp	x8, x21
	b.hi	LBB105_64
	ldrb	w8, [x9, #1]
	and	w8, w8, #0xfc
	cmp	w8, #220
	b.eq	LBB105_64
	b	LBB105_91
LBB105_63:
	cmp	x8, x21
	b.eq	LBB105_91
LBB105_64:
	sub	x8, x24, x28
	lsl	x8, x8, #1
	cbz	x8, LBB105_70
	add	x9, x28, x19
	sub	x9, x21, x9
	subs	x9, x9, #2
	csel	x9, xzr, x9, lo
	cmp	x9, x8
	b.lo	LBB105_70
	ldr	x9, [sp, #16]
	neg	x11, x28
	add	x13, x19, #2
	sub	x8, x9, x28
	add	x9, x9, x28
	add	x8, x8, x24, lsl #1
LBB105_67:
	mov	x10, x11
	cmp	x13, x11
	b.eq	LBB105_69
	ldrb	w11, [x9, x19]
	ldrb	w12, [x8, x19]
	sub	x8, x8, #1
	sub	x9, x9, #1
	cmp	w11, w12
	add	x11, x10, #1
	b.eq	LBB105_67
LBB105_69:
	sub	x8, x19, x10
	add	x8, x8, #4
	cmp	x8, x23
	csel	x28, x8, x23, lo
LBB105_70:
	subs	x8, x28, #32
	str	x23, [sp, #32]
	csel	x26, xzr, x8, lo
	cmp	x26, x28
	b.hs	LBB105_47
	add	x8, x21, #1
	add	x27, x28, #1
	sub	x24, x8, x28
	b	LBB105_74
LBB105_72:
	sub	x8, x19, x21
	add	x8, x8, x27
	cmp	x8, #2
	b.eq	LBB105_88
LBB105_73:
	cmp	x26, x23
	add	x24, x24, #1
	mov	x27, x25
	b.hs	LBB105_47
LBB105_74:
	sub	x23, x27, #2
	sub	x25, x27, #1
	cmp	x21, x23
	b.ls	LBB105_80
	tbnz	w23, #0, LBB105_73
	cmp	x25, #3
	b.lo	LBB105_81
	add	x8, x22, x27
	ldurb	w8, [x8, #-3]
	and	w8, w8, #0xfc
	cmp	w8, #216
	b.ne	LBB105_81
	cmp	x27, x21
	b.hi	LBB105_73
	add	x8, x22, x27
	ldurb	w8, [x8, #-1]
	and	w8, w8, #0xfc
	cmp	w8, #220
	b.eq	LBB105_73
	b	LBB105_81
LBB105_80:
	neg	x8, x21
	add	x8, x8, x27
	cmp	x8, #2
	b.ne	LBB105_73
LBB105_81:
	add	x8, x22, x27
	mov	x1, x24
	mov	x3, x19
	sub	x0, x8, #2
	ldr	x8, [sp, #40]
	add	x2, x20, x8
	bl	"_core::slice::reads::slice+T::starts_with::<i8,31'core::cmp::numbers::U8PartialEq{}>"
	cbz	w0, LBB105_73
	add	x8, x19, x27
	sub	x8, x8, #2
	cmp	x21, x8
	b.ls	LBB105_72
	tbnz	w8, #0, LBB105_73
	cmp	x8, #2
	b.lo	LBB105_88
	ldr	x8, [sp, #24]
	add	x8, x8, x27
	ldurb	w8, [x8, #-3]
	and	w8, w8, #0xfc
	cmp	w8, #216
	b.ne	LBB105_88
	add	x8, x19, x27
	cmp	x8, x21
	b.hi	LBB105_73
	ldr	x8, [sp, #24]
	add	x8, x8, x27
	ldurb	w8, [x8, #-1]
	and	w8, w8, #0xfc
	cmp	w8, #220
	b.eq	LBB105_73
LBB105_88:
	mov	w8, #1
	mov	x28, x23
	b	LBB105_90
LBB105_89:
	mov	x28, xzr
	mov	w8, wzr
LBB105_90:
	cmp	w8, #0
	csinv	x0, x28, xzr, ne
	.cfi_def_cfa wsp, 320
	ldp	x20, x19, [sp, #304]
	ldp	x22, x21, [sp, #288]
	ldp	x24, x23, [sp, #272]
	ldp	x26, x25, [sp, #256]
	ldp	x28, x27, [sp, #240]
	ldp	x29, x30, [sp, #224]
	add	sp, sp, #320
	.cfi_def_cfa_offset 0
	.cfi_restore w19
	.cfi_restore w20
	.cfi_restore w21
	.cfi_restore w22
	.cfi_restore w23
	.cfi_restore w24
	.cfi_restore w25
	.cfi_restore w26
	.cfi_restore w27
	.cfi_restore w28
	.cfi_restore w30
	.cfi_restore w29
	ret
LBB105_91:
	.cfi_restore_state
	mov	w8, #1
	b	LBB105_90
Lfunc_end105:
	.cfi_endproc

	.section	__TEXT,__literal16,16byte_literals
	.p2align	4, 0x0
lCPI106_0:
	.byte	1
	.byte	2
	.byte	4
	.byte	8
	.byte	16
	.byte	32
	.byte	64
	.byte	128
	.byte	1
	.byte	2
	.byte	4
	.byte	8
	.byte	16
	.byte	32
	.byte	64
	.byte	128
	.section	__TEXT,__text,regular,pure_instructions
	.globl	_dethrux_inspect_aarch64
	.private_extern	_dethrux_inspect_aarch64
	.p2align	2
_dethrux_inspect_aarch64:
	.cfi_startproc
	hint	#34
	stp	x29, x30, [sp, #-80]!
	.cfi_def_cfa_offset 80
	str	x25, [sp, #16]
	stp	x24, x23, [sp, #32]
	stp	x22, x21, [sp, #48]
	stp	x20, x19, [sp, #64]
	mov	x29, sp
	.cfi_def_cfa w29, 80
	.cfi_offset w19, -8
	.cfi_offset w20, -16
	.cfi_offset w21, -24
	.cfi_offset w22, -32
	.cfi_offset w23, -40
	.cfi_offset w24, -48
	.cfi_offset w25, -64
	.cfi_offset w30, -72
	.cfi_offset w29, -80
	.cfi_remember_state
	sub	x9, sp, #176
	and	sp, x9, #0xffffffffffffffc0
	mov	x19, x8
	cmp	x1, #0
	mov	w8, #4096
	csel	x8, x8, xzr, eq
	mov	x20, x2
	cmp	w0, #1
	add	x21, x1, x8
	adrp	x22, lCPI106_0@PAGE
	b.ne	LBB106_12
	tbnz	w20, #0, LBB106_29
	cmp	x20, #64
	b.lo	LBB106_23
	movi	v18.2d, #0000000000000000
	movi	v19.2d, #0000000000000000
	mov	x8, xzr
	movi	v20.2d, #0000000000000000
	movi	v21.2d, #0000000000000000
	mov	x9, x20
LBB106_4:
	add	x10, x21, x8
	movi	v6.16b, #248
	movi	v7.16b, #216
	ldp	q1, q0, [x10]
	ldp	q5, q4, [x10, #32]
	rev16	v2.16b, v0.16b
	rev16	v3.16b, v1.16b
	rev16	v0.16b, v4.16b
	rev16	v1.16b, v5.16b
	uzp2	v5.16b, v3.16b, v2.16b
	uzp2	v4.16b, v1.16b, v0.16b
	and	v5.16b, v5.16b, v6.16b
	and	v4.16b, v4.16b, v6.16b
	ldr	q6, [x22, lCPI106_0@PAGEOFF]
	cmeq	v5.16b, v5.16b, v7.16b
	cmeq	v4.16b, v4.16b, v7.16b
	and	v5.16b, v5.16b, v6.16b
	and	v4.16b, v4.16b, v6.16b
	addp	v4.16b, v5.16b, v4.16b
	addp	v4.16b, v4.16b, v4.16b
	addp	v4.16b, v4.16b, v4.16b
	fmov	w10, s4
	cbnz	w10, LBB106_7
	umax	v18.8h, v18.8h, v3.8h
	umax	v19.8h, v19.8h, v2.8h
	sub	x9, x9, #64
	umax	v20.8h, v20.8h, v1.8h
	umax	v21.8h, v21.8h, v0.8h
	cmp	x9, #63
	add	x8, x8, #64
	b.hi	LBB106_4
	and	x8, x20, #0xffffffffffffffc0
LBB106_7:
	sub	x2, x20, x8
	cmp	x2, #64
	b.lo	LBB106_24
LBB106_8:
	mov	w23, wzr
	mov	x25, xzr
LBB106_9:
	add	x9, x21, x8
	movi	v6.16b, #252
	movi	v7.16b, #216
	ldp	q1, q0, [x9]
	ldr	q17, [x22, lCPI106_0@PAGEOFF]
	ldp	q4, q3, [x9, #32]
	rev16	v0.16b, v0.16b
	rev16	v2.16b, v1.16b
	rev16	v1.16b, v3.16b
	rev16	v3.16b, v4.16b
	uzp2	v5.16b, v2.16b, v0.16b
	uzp2	v4.16b, v3.16b, v1.16b
	and	v5.16b, v5.16b, v6.16b
	and	v4.16b, v4.16b, v6.16b
	movi	v6.16b, #220
	cmeq	v16.16b, v4.16b, v7.16b
	cmeq	v7.16b, v5.16b, v7.16b
	cmeq	v4.16b, v4.16b, v6.16b
	cmeq	v5.16b, v5.16b, v6.16b
	and	v6.16b, v7.16b, v17.16b
	and	v7.16b, v16.16b, v17.16b
	and	v5.16b, v5.16b, v17.16b
	and	v4.16b, v4.16b, v17.16b
	addp	v6.16b, v6.16b, v7.16b
	addp	v4.16b, v5.16b, v4.16b
	addp	v5.16b, v6.16b, v6.16b
	addp	v4.16b, v4.16b, v4.16b
	addp	v5.16b, v5.16b, v5.16b
	addp	v4.16b, v4.16b, v4.16b
	fmov	w9, s5
	fmov	w10, s4
	lsl	w11, w9, #1
	bfxil	x11, x23, #0, #1
	cmp	x11, x10
	b.ne	LBB106_29
	fmov	d4, x10
	umax	v18.8h, v18.8h, v2.8h
	sub	x2, x2, #64
	umax	v19.8h, v19.8h, v0.8h
	umax	v20.8h, v20.8h, v3.8h
	lsr	w23, w9, #31
	umax	v21.8h, v21.8h, v1.8h
	cmp	x2, #63
	add	x8, x8, #64
	cnt	v4.8b, v4.8b
	addv	b4, v4.8b
	fmov	w10, s4
	add	x25, x10, x25
	b.hi	LBB106_9
	stp	q21, q20, [sp]
	b	LBB106_25
LBB106_12:
	tbnz	w20, #0, LBB106_46
	cmp	x20, #64
	b.lo	LBB106_40
	movi	v18.2d, #0000000000000000
	movi	v19.2d, #0000000000000000
	mov	x8, xzr
	movi	v20.2d, #0000000000000000
	movi	v21.2d, #0000000000000000
	mov	x9, x20
LBB106_15:
	add	x10, x21, x8
	movi	v6.16b, #248
	movi	v7.16b, #216
	ldp	q3, q2, [x10]
	ldp	q1, q0, [x10, #32]
	uzp2	v5.16b, v3.16b, v2.16b
	uzp2	v4.16b, v1.16b, v0.16b
	and	v5.16b, v5.16b, v6.16b
	and	v4.16b, v4.16b, v6.16b
	ldr	q6, [x22, lCPI106_0@PAGEOFF]
	cmeq	v5.16b, v5.16b, v7.16b
	cmeq	v4.16b, v4.16b, v7.16b
	and	v5.16b, v5.16b, v6.16b
	and	v4.16b, v4.16b, v6.16b
	addp	v4.16b, v5.16b, v4.16b
	addp	v4.16b, v4.16b, v4.16b
	addp	v4.16b, v4.16b, v4.16b
	fmov	w10, s4
	cbnz	w10, LBB106_18
	umax	v18.8h, v18.8h, v3.8h
	umax	v19.8h, v19.8h, v2.8h
	sub	x9, x9, #64
	umax	v20.8h, v20.8h, v1.8h
	umax	v21.8h, v21.8h, v0.8h
	cmp	x9, #63
	add	x8, x8, #64
	b.hi	LBB106_15
	and	x8, x20, #0xffffffffffffffc0
LBB106_18:
	sub	x2, x20, x8
	cmp	x2, #64
	b.lo	LBB106_41
LBB106_19:
	mov	w23, wzr
	mov	x25, xzr
LBB106_20:
	add	x9, x21, x8
	movi	v6.16b, #252
	movi	v7.16b, #216
	ldp	q2, q0, [x9]
	ldr	q17, [x22, lCPI106_0@PAGEOFF]
	ldp	q3, q1, [x9, #32]
	uzp2	v5.16b, v2.16b, v0.16b
	uzp2	v4.16b, v3.16b, v1.16b
	and	v5.16b, v5.16b, v6.16b
	and	v4.16b, v4.16b, v6.16b
	movi	v6.16b, #220
	cmeq	v16.16b, v4.16b, v7.16b
	cmeq	v7.16b, v5.16b, v7.16b
	cmeq	v4.16b, v4.16b, v6.16b
	cmeq	v5.16b, v5.16b, v6.16b
	and	v6.16b, v7.16b, v17.16b
	and	v7.16b, v16.16b, v17.16b
	and	v5.16b, v5.16b, v17.16b
	and	v4.16b, v4.16b, v17.16b
	addp	v6.16b, v6.16b, v7.16b
	addp	v4.16b, v5.16b, v4.16b
	addp	v5.16b, v6.16b, v6.16b
	addp	v4.16b, v4.16b, v4.16b
	addp	v5.16b, v5.16b, v5.16b
	addp	v4.16b, v4.16b, v4.16b
	fmov	w9, s5
	fmov	w10, s4
	lsl	w11, w9, #1
	bfxil	x11, x23, #0, #1
	cmp	x11, x10
	b.ne	LBB106_46
	fmov	d4, x10
	umax	v18.8h, v18.8h, v2.8h
	sub	x2, x2, #64
	umax	v19.8h, v19.8h, v0.8h
	umax	v20.8h, v20.8h, v3.8h
	lsr	w23, w9, #31
	umax	v21.8h, v21.8h, v1.8h
	cmp	x2, #63
	add	x8, x8, #64
	cnt	v4.8b, v4.8b
	addv	b4, v4.8b
	fmov	w10, s4
	add	x25, x10, x25
	b.hi	LBB106_20
	stp	q21, q20, [sp]
	b	LBB106_42
LBB106_23:
	movi	v18.2d, #0000000000000000
	movi	v19.2d, #0000000000000000
	mov	x8, xzr
	movi	v20.2d, #0000000000000000
	movi	v21.2d, #0000000000000000
	sub	x2, x20, xzr
	cmp	x2, #64
	b.hs	LBB106_8
LBB106_24:
	stp	q21, q20, [sp]
	mov	x25, xzr
	mov	x23, xzr
LBB106_25:
	stp	q19, q18, [sp, #32]
	movi	v0.2d, #0000000000000000
	add	x0, sp, #64
	add	x1, x21, x8
	stp	q0, q0, [sp, #64]
	stp	q0, q0, [sp, #96]
	bl	_memcpy
	ldp	q1, q0, [sp, #64]
	movi	v6.16b, #252
	ldp	q4, q3, [sp, #96]
	movi	v7.16b, #216
	rev16	v0.16b, v0.16b
	rev16	v2.16b, v1.16b
	rev16	v1.16b, v3.16b
	rev16	v3.16b, v4.16b
	uzp2	v5.16b, v2.16b, v0.16b
	uzp2	v4.16b, v3.16b, v1.16b
	and	v5.16b, v5.16b, v6.16b
	and	v4.16b, v4.16b, v6.16b
	movi	v6.16b, #220
	cmeq	v16.16b, v4.16b, v7.16b
	cmeq	v7.16b, v5.16b, v7.16b
	cmeq	v4.16b, v4.16b, v6.16b
	cmeq	v5.16b, v5.16b, v6.16b
	ldr	q6, [x22, lCPI106_0@PAGEOFF]
	and	v7.16b, v7.16b, v6.16b
	and	v16.16b, v16.16b, v6.16b
	and	v5.16b, v5.16b, v6.16b
	and	v4.16b, v4.16b, v6.16b
	addp	v6.16b, v7.16b, v16.16b
	ldp	q16, q7, [sp]
	addp	v4.16b, v5.16b, v4.16b
	addp	v5.16b, v6.16b, v6.16b
	addp	v4.16b, v4.16b, v4.16b
	addp	v5.16b, v5.16b, v5.16b
	addp	v4.16b, v4.16b, v4.16b
	fmov	w9, s5
	ldp	q6, q5, [sp, #32]
	fmov	w8, s4
	lsl	w9, w9, #1
	orr	x9, x9, x23
	cmp	x9, x8
	b.ne	LBB106_29
	fmov	d4, x8
	mov	w23, wzr
	mov	w24, wzr
	umax	v2.8h, v5.8h, v2.8h
	umax	v0.8h, v6.8h, v0.8h
	umax	v3.8h, v7.8h, v3.8h
	umax	v1.8h, v16.8h, v1.8h
	cnt	v4.8b, v4.8b
	addv	b4, v4.8b
	fmov	w8, s4
	add	x9, x8, x25
	cbnz	x9, LBB106_98
LBB106_27:
	movi	v4.2d, #0xff00ff00ff00ff
	cmhi	v5.8h, v3.8h, v4.8h
	cmhi	v6.8h, v1.8h, v4.8h
	cmhi	v7.8h, v2.8h, v4.8h
	cmhi	v4.8h, v0.8h, v4.8h
	uzp1	v5.16b, v5.16b, v6.16b
	uzp1	v6.16b, v7.16b, v4.16b
	ldr	q4, [x22, lCPI106_0@PAGEOFF]
	and	v5.16b, v5.16b, v4.16b
	and	v6.16b, v6.16b, v4.16b
	addp	v5.16b, v6.16b, v5.16b
	addp	v5.16b, v5.16b, v5.16b
	addp	v5.16b, v5.16b, v5.16b
	fmov	w8, s5
	cbnz	w8, LBB106_45
	movi	v5.8h, #127
	cmhi	v3.8h, v3.8h, v5.8h
	cmhi	v1.8h, v1.8h, v5.8h
	cmhi	v2.8h, v2.8h, v5.8h
	cmhi	v0.8h, v0.8h, v5.8h
	uzp1	v1.16b, v3.16b, v1.16b
	uzp1	v0.16b, v2.16b, v0.16b
	and	v1.16b, v1.16b, v4.16b
	and	v0.16b, v0.16b, v4.16b
	addp	v0.16b, v0.16b, v1.16b
	b	LBB106_78
LBB106_29:
	cmp	x20, #2
	b.ne	LBB106_33
	ldrb	w8, [x21]
	and	w8, w8, #0xf8
	cmp	w8, #216
	b.ne	LBB106_65
LBB106_31:
	mov	x0, x21
	mov	x1, x20
	bl	"_utf16_units::validate::valid_len::<#8b18edd9dd9aa8df>"
	subs	x1, x20, x0
	b.ne	LBB106_57
LBB106_32:
	mov	w23, wzr
	mov	w24, wzr
	cmp	x20, #64
	b.hs	LBB106_58
	b	LBB106_94
LBB106_33:
	cmp	x20, #7
	b.hi	LBB106_66
	cbz	x20, LBB106_87
	cmp	x20, #6
	b.eq	LBB106_79
	cmp	x20, #4
	b.ne	LBB106_31
	ldrb	w8, [x21]
	and	w8, w8, #0xf8
	cmp	w8, #216
	b.eq	LBB106_31
	ldrb	w8, [x21, #2]
	and	w8, w8, #0xf8
	cmp	w8, #216
	b.eq	LBB106_31
	movi	v0.2d, #0000000000000000
	mov	w24, wzr
	mov	w23, wzr
	mov	x25, xzr
	mov	x8, xzr
	mov	w20, #4
	mov	w2, #4
	b	LBB106_96
LBB106_40:
	movi	v18.2d, #0000000000000000
	movi	v19.2d, #0000000000000000
	mov	x8, xzr
	movi	v20.2d, #0000000000000000
	movi	v21.2d, #0000000000000000
	sub	x2, x20, xzr
	cmp	x2, #64
	b.hs	LBB106_19
LBB106_41:
	stp	q21, q20, [sp]
	mov	x25, xzr
	mov	x23, xzr
LBB106_42:
	stp	q19, q18, [sp, #32]
	movi	v0.2d, #0000000000000000
	add	x0, sp, #64
	add	x1, x21, x8
	stp	q0, q0, [sp, #64]
	stp	q0, q0, [sp, #96]
	bl	_memcpy
	ldp	q1, q0, [sp, #96]
	movi	v6.16b, #252
	ldp	q3, q2, [sp, #64]
	movi	v7.16b, #216
	uzp2	v4.16b, v1.16b, v0.16b
	uzp2	v5.16b, v3.16b, v2.16b
	and	v4.16b, v4.16b, v6.16b
	and	v5.16b, v5.16b, v6.16b
	movi	v6.16b, #220
	cmeq	v16.16b, v4.16b, v7.16b
	cmeq	v7.16b, v5.16b, v7.16b
	cmeq	v4.16b, v4.16b, v6.16b
	cmeq	v5.16b, v5.16b, v6.16b
	ldr	q6, [x22, lCPI106_0@PAGEOFF]
	and	v7.16b, v7.16b, v6.16b
	and	v16.16b, v16.16b, v6.16b
	and	v5.16b, v5.16b, v6.16b
	and	v4.16b, v4.16b, v6.16b
	addp	v6.16b, v7.16b, v16.16b
	ldp	q16, q7, [sp]
	addp	v4.16b, v5.16b, v4.16b
	addp	v5.16b, v6.16b, v6.16b
	addp	v4.16b, v4.16b, v4.16b
	addp	v5.16b, v5.16b, v5.16b
	addp	v4.16b, v4.16b, v4.16b
	fmov	w9, s5
	ldp	q6, q5, [sp, #32]
	fmov	w8, s4
	lsl	w9, w9, #1
	orr	x9, x9, x23
	cmp	x9, x8
	b.ne	LBB106_46
	fmov	d4, x8
	mov	w23, wzr
	mov	w24, wzr
	umax	v3.8h, v5.8h, v3.8h
	umax	v2.8h, v6.8h, v2.8h
	umax	v1.8h, v7.8h, v1.8h
	umax	v0.8h, v16.8h, v0.8h
	cnt	v4.8b, v4.8b
	addv	b4, v4.8b
	fmov	w8, s4
	add	x9, x8, x25
	cbnz	x9, LBB106_111
LBB106_44:
	movi	v4.2d, #0xff00ff00ff00ff
	cmhi	v5.8h, v1.8h, v4.8h
	cmhi	v6.8h, v0.8h, v4.8h
	cmhi	v7.8h, v3.8h, v4.8h
	cmhi	v4.8h, v2.8h, v4.8h
	uzp1	v5.16b, v5.16b, v6.16b
	uzp1	v6.16b, v7.16b, v4.16b
	ldr	q4, [x22, lCPI106_0@PAGEOFF]
	and	v5.16b, v5.16b, v4.16b
	and	v6.16b, v6.16b, v4.16b
	addp	v5.16b, v6.16b, v5.16b
	addp	v5.16b, v5.16b, v5.16b
	addp	v5.16b, v5.16b, v5.16b
	fmov	w8, s5
	cbz	w8, LBB106_77
LBB106_45:
	mov	w8, #2
	lsr	x10, x20, #1
	sub	x9, x10, x9
	cbnz	w23, LBB106_99
	b	LBB106_112
LBB106_46:
	cmp	x20, #2
	b.ne	LBB106_50
	ldrb	w8, [x21, #1]
	and	w8, w8, #0xf8
	cmp	w8, #216
	b.ne	LBB106_71
LBB106_48:
	mov	x0, x21
	mov	x1, x20
	bl	"_utf16_units::validate::valid_len::<#418c2b53cf60437c>"
	subs	x1, x20, x0
	b.ne	LBB106_61
LBB106_49:
	mov	w23, wzr
	mov	w24, wzr
	cmp	x20, #64
	b.hs	LBB106_62
	b	LBB106_107
LBB106_50:
	cmp	x20, #7
	b.hi	LBB106_72
	cbz	x20, LBB106_88
	cmp	x20, #6
	b.eq	LBB106_83
	cmp	x20, #4
	b.ne	LBB106_48
	ldrb	w8, [x21, #1]
	and	w8, w8, #0xf8
	cmp	w8, #216
	b.eq	LBB106_48
	ldrb	w8, [x21, #3]
	and	w8, w8, #0xf8
	cmp	w8, #216
	b.eq	LBB106_48
	movi	v0.2d, #0000000000000000
	mov	w24, wzr
	mov	w23, wzr
	mov	x25, xzr
	mov	x8, xzr
	mov	w20, #4
	mov	w2, #4
	b	LBB106_109
LBB106_57:
	mov	x20, x0
	add	x0, x21, x0
	bl	"_utf16_units::validate::error_len::<#8b18edd9dd9aa8df>"
	and	w9, w0, #0xff
	mov	w8, #1
	cmp	w9, #1
	cinc	w23, w8, ne
	csel	w24, w1, wzr, eq
	cmp	x20, #64
	b.lo	LBB106_94
LBB106_58:
	movi	v16.2d, #0000000000000000
	movi	v17.2d, #0000000000000000
	mov	x25, xzr
	movi	v18.2d, #0000000000000000
	movi	v19.2d, #0000000000000000
	mov	x8, x21
	mov	x2, x20
LBB106_59:
	ldp	q1, q0, [x8]
	movi	v6.16b, #252
	ldp	q3, q2, [x8, #32]
	movi	v7.16b, #220
	sub	x2, x2, #64
	add	x8, x8, #64
	rev16	v0.16b, v0.16b
	rev16	v1.16b, v1.16b
	cmp	x2, #63
	rev16	v2.16b, v2.16b
	rev16	v3.16b, v3.16b
	uzp2	v5.16b, v1.16b, v0.16b
	umax	v17.8h, v17.8h, v0.8h
	umax	v16.8h, v16.8h, v1.8h
	uzp2	v4.16b, v3.16b, v2.16b
	umax	v18.8h, v18.8h, v3.8h
	umax	v19.8h, v19.8h, v2.8h
	and	v5.16b, v5.16b, v6.16b
	and	v4.16b, v4.16b, v6.16b
	ldr	q6, [x22, lCPI106_0@PAGEOFF]
	cmeq	v5.16b, v5.16b, v7.16b
	cmeq	v4.16b, v4.16b, v7.16b
	and	v5.16b, v5.16b, v6.16b
	and	v4.16b, v4.16b, v6.16b
	addp	v4.16b, v5.16b, v4.16b
	addp	v4.16b, v4.16b, v4.16b
	addp	v4.16b, v4.16b, v4.16b
	fmov	w9, s4
	fmov	s4, w9
	cnt	v4.8b, v4.8b
	addv	b4, v4.8b
	fmov	w9, s4
	add	x25, x25, x9
	b.hi	LBB106_59
	and	x8, x20, #0xffffffffffffffc0
	stp	q19, q18, [sp]
	stp	q17, q16, [sp, #32]
	b	LBB106_97
LBB106_61:
	mov	x20, x0
	add	x0, x21, x0
	bl	"_utf16_units::validate::error_len::<#418c2b53cf60437c>"
	and	w9, w0, #0xff
	mov	w8, #1
	cmp	w9, #1
	cinc	w23, w8, ne
	csel	w24, w1, wzr, eq
	cmp	x20, #64
	b.lo	LBB106_107
LBB106_62:
	movi	v16.2d, #0000000000000000
	movi	v17.2d, #0000000000000000
	mov	x25, xzr
	movi	v18.2d, #0000000000000000
	movi	v19.2d, #0000000000000000
	mov	x8, x21
	mov	x2, x20
LBB106_63:
	ldp	q1, q0, [x8]
	movi	v6.16b, #252
	ldp	q3, q2, [x8, #32]
	movi	v7.16b, #220
	sub	x2, x2, #64
	add	x8, x8, #64
	uzp2	v5.16b, v1.16b, v0.16b
	umax	v17.8h, v17.8h, v0.8h
	umax	v16.8h, v16.8h, v1.8h
	uzp2	v4.16b, v3.16b, v2.16b
	umax	v18.8h, v18.8h, v3.8h
	umax	v19.8h, v19.8h, v2.8h
	cmp	x2, #63
	and	v5.16b, v5.16b, v6.16b
	and	v4.16b, v4.16b, v6.16b
	ldr	q6, [x22, lCPI106_0@PAGEOFF]
	cmeq	v5.16b, v5.16b, v7.16b
	cmeq	v4.16b, v4.16b, v7.16b
	and	v5.16b, v5.16b, v6.16b
	and	v4.16b, v4.16b, v6.16b
	addp	v4.16b, v5.16b, v4.16b
	addp	v4.16b, v4.16b, v4.16b
	addp	v4.16b, v4.16b, v4.16b
	fmov	w9, s4
	fmov	s4, w9
	cnt	v4.8b, v4.8b
	addv	b4, v4.8b
	fmov	w9, s4
	add	x25, x25, x9
	b.hi	LBB106_63
	and	x8, x20, #0xffffffffffffffc0
	stp	q19, q18, [sp]
	stp	q17, q16, [sp, #32]
	b	LBB106_110
LBB106_65:
	movi	v0.2d, #0000000000000000
	mov	w24, wzr
	mov	w23, wzr
	mov	x25, xzr
	mov	x8, xzr
	mov	w20, #2
	mov	w2, #2
	b	LBB106_96
LBB106_66:
	cmp	x20, #64
	b.hi	LBB106_31
	tbnz	w20, #0, LBB106_31
	cmp	x20, #15
	b.hi	LBB106_89
	movi	v0.4h, #248
	ldr	d2, [x21]
	movi	v1.4h, #216
	and	v2.8b, v2.8b, v0.8b
	cmeq	v2.4h, v2.4h, v1.4h
	umaxv	h2, v2.4h
	fmov	w8, s2
	tbnz	w8, #0, LBB106_31
	add	x8, x21, x20
	ldur	d2, [x8, #-8]
	and	v0.8b, v2.8b, v0.8b
	cmeq	v0.4h, v0.4h, v1.4h
	umaxv	h0, v0.4h
	b	LBB106_92
LBB106_71:
	movi	v0.2d, #0000000000000000
	mov	w24, wzr
	mov	w23, wzr
	mov	x25, xzr
	mov	x8, xzr
	mov	w20, #2
	mov	w2, #2
	b	LBB106_109
LBB106_72:
	cmp	x20, #64
	b.hi	LBB106_48
	tbnz	w20, #0, LBB106_48
	cmp	x20, #15
	b.hi	LBB106_102
	ldr	d0, [x21]
	ushr	v1.4h, v0.4h, #8
	movi	v0.4h, #216
	bic	v1.4h, #7
	cmeq	v1.4h, v1.4h, v0.4h
	umaxv	h1, v1.4h
	fmov	w8, s1
	tbnz	w8, #0, LBB106_48
	add	x8, x21, x20
	ldur	d1, [x8, #-8]
	ushr	v1.4h, v1.4h, #8
	bic	v1.4h, #7
	cmeq	v0.4h, v1.4h, v0.4h
	umaxv	h0, v0.4h
	b	LBB106_105
LBB106_77:
	movi	v5.8h, #127
	cmhi	v1.8h, v1.8h, v5.8h
	cmhi	v0.8h, v0.8h, v5.8h
	cmhi	v3.8h, v3.8h, v5.8h
	cmhi	v2.8h, v2.8h, v5.8h
	uzp1	v0.16b, v1.16b, v0.16b
	uzp1	v1.16b, v3.16b, v2.16b
	and	v0.16b, v0.16b, v4.16b
	and	v1.16b, v1.16b, v4.16b
	addp	v0.16b, v1.16b, v0.16b
LBB106_78:
	addp	v0.16b, v0.16b, v0.16b
	addp	v0.16b, v0.16b, v0.16b
	fmov	w8, s0
	cmp	w8, #0
	cset	w8, ne
	lsr	x10, x20, #1
	sub	x9, x10, x9
	cbnz	w23, LBB106_99
	b	LBB106_112
LBB106_79:
	ldrb	w8, [x21]
	and	w8, w8, #0xf8
	cmp	w8, #216
	b.eq	LBB106_31
	ldrb	w8, [x21, #2]
	and	w8, w8, #0xf8
	cmp	w8, #216
	b.eq	LBB106_31
	ldrb	w8, [x21, #4]
	and	w8, w8, #0xf8
	cmp	w8, #216
	b.eq	LBB106_31
	movi	v0.2d, #0000000000000000
	mov	w24, wzr
	mov	w23, wzr
	mov	x25, xzr
	mov	x8, xzr
	mov	w20, #6
	mov	w2, #6
	b	LBB106_96
LBB106_83:
	ldrb	w8, [x21, #1]
	and	w8, w8, #0xf8
	cmp	w8, #216
	b.eq	LBB106_48
	ldrb	w8, [x21, #3]
	and	w8, w8, #0xf8
	cmp	w8, #216
	b.eq	LBB106_48
	ldrb	w8, [x21, #5]
	and	w8, w8, #0xf8
	cmp	w8, #216
	b.eq	LBB106_48
	movi	v0.2d, #0000000000000000
	mov	w24, wzr
	mov	w23, wzr
	mov	x25, xzr
	mov	x8, xzr
	mov	w20, #6
	mov	w2, #6
	b	LBB106_109
LBB106_87:
	movi	v0.2d, #0000000000000000
	mov	w24, wzr
	mov	w23, wzr
	mov	x25, x20
	mov	x8, x20
	b	LBB106_95
LBB106_88:
	movi	v0.2d, #0000000000000000
	mov	w24, wzr
	mov	w23, wzr
	mov	x25, x20
	mov	x8, x20
	b	LBB106_108
LBB106_89:
	cmp	x20, #31
	b.hi	LBB106_114
	ldr	q0, [x21]
	movi	v1.8b, #216
	xtn	v2.8b, v0.8h
	movi	v0.8b, #248
	and	v2.8b, v2.8b, v0.8b
	cmeq	v2.8b, v2.8b, v1.8b
	umaxv	b2, v2.8b
	fmov	w8, s2
	tbnz	w8, #0, LBB106_31
	add	x8, x21, x20
	ldur	q2, [x8, #-16]
	xtn	v2.8b, v2.8h
	and	v0.8b, v2.8b, v0.8b
	cmeq	v0.8b, v0.8b, v1.8b
	umaxv	b0, v0.8b
LBB106_92:
	fmov	w8, s0
	tbnz	w8, #0, LBB106_31
	mov	w24, wzr
	mov	w23, wzr
LBB106_94:
	movi	v0.2d, #0000000000000000
	mov	x25, xzr
	mov	x8, xzr
LBB106_95:
	mov	x2, x20
LBB106_96:
	stp	q0, q0, [sp]
	stp	q0, q0, [sp, #32]
LBB106_97:
	movi	v0.2d, #0000000000000000
	add	x0, sp, #64
	add	x1, x21, x8
	stp	q0, q0, [sp, #64]
	stp	q0, q0, [sp, #96]
	bl	_memcpy
	ldp	q1, q0, [sp, #64]
	movi	v6.16b, #252
	ldp	q3, q2, [sp, #96]
	movi	v7.16b, #220
	rev16	v0.16b, v0.16b
	rev16	v4.16b, v1.16b
	rev16	v1.16b, v2.16b
	rev16	v2.16b, v3.16b
	uzp2	v5.16b, v4.16b, v0.16b
	uzp2	v3.16b, v2.16b, v1.16b
	and	v5.16b, v5.16b, v6.16b
	and	v3.16b, v3.16b, v6.16b
	ldr	q6, [x22, lCPI106_0@PAGEOFF]
	cmeq	v5.16b, v5.16b, v7.16b
	cmeq	v3.16b, v3.16b, v7.16b
	and	v5.16b, v5.16b, v6.16b
	and	v3.16b, v3.16b, v6.16b
	addp	v3.16b, v5.16b, v3.16b
	addp	v3.16b, v3.16b, v3.16b
	addp	v3.16b, v3.16b, v3.16b
	fmov	w8, s3
	fmov	s3, w8
	cnt	v3.8b, v3.8b
	addv	b3, v3.8b
	fmov	w8, s3
	ldr	q3, [sp]
	umax	v1.8h, v3.8h, v1.8h
	ldr	q3, [sp, #16]
	add	x9, x25, x8
	umax	v3.8h, v3.8h, v2.8h
	ldr	q2, [sp, #32]
	umax	v0.8h, v2.8h, v0.8h
	ldr	q2, [sp, #48]
	umax	v2.8h, v2.8h, v4.8h
	cbz	x9, LBB106_27
LBB106_98:
	mov	w8, #3
	lsr	x10, x20, #1
	sub	x9, x10, x9
	cbz	w23, LBB106_112
LBB106_99:
	cmp	w23, #2
	b.ne	LBB106_101
	mov	w10, wzr
	b	LBB106_113
LBB106_101:
	and	w10, w24, #0xff
	mov	w23, #1
	b	LBB106_113
LBB106_102:
	cmp	x20, #31
	b.hi	LBB106_116
	ldr	q1, [x21]
	movi	v0.8b, #248
	shrn	v2.8b, v1.8h, #8
	movi	v1.8b, #216
	and	v2.8b, v2.8b, v0.8b
	cmeq	v2.8b, v2.8b, v1.8b
	umaxv	b2, v2.8b
	fmov	w8, s2
	tbnz	w8, #0, LBB106_48
	add	x8, x21, x20
	ldur	q2, [x8, #-16]
	shrn	v2.8b, v2.8h, #8
	and	v0.8b, v2.8b, v0.8b
	cmeq	v0.8b, v0.8b, v1.8b
	umaxv	b0, v0.8b
LBB106_105:
	fmov	w8, s0
	tbnz	w8, #0, LBB106_48
	mov	w24, wzr
	mov	w23, wzr
LBB106_107:
	movi	v0.2d, #0000000000000000
	mov	x25, xzr
	mov	x8, xzr
LBB106_108:
	mov	x2, x20
LBB106_109:
	stp	q0, q0, [sp]
	stp	q0, q0, [sp, #32]
LBB106_110:
	movi	v0.2d, #0000000000000000
	add	x0, sp, #64
	add	x1, x21, x8
	stp	q0, q0, [sp, #64]
	stp	q0, q0, [sp, #96]
	bl	_memcpy
	ldp	q3, q2, [sp, #64]
	movi	v6.16b, #252
	ldp	q1, q0, [sp, #96]
	movi	v7.16b, #220
	uzp2	v5.16b, v3.16b, v2.16b
	uzp2	v4.16b, v1.16b, v0.16b
	and	v5.16b, v5.16b, v6.16b
	and	v4.16b, v4.16b, v6.16b
	ldr	q6, [x22, lCPI106_0@PAGEOFF]
	cmeq	v5.16b, v5.16b, v7.16b
	cmeq	v4.16b, v4.16b, v7.16b
	and	v5.16b, v5.16b, v6.16b
	and	v4.16b, v4.16b, v6.16b
	addp	v4.16b, v5.16b, v4.16b
	addp	v4.16b, v4.16b, v4.16b
	addp	v4.16b, v4.16b, v4.16b
	fmov	w8, s4
	fmov	s4, w8
	cnt	v4.8b, v4.8b
	addv	b4, v4.8b
	fmov	w8, s4
	ldr	q4, [sp]
	umax	v0.8h, v4.8h, v0.8h
	ldr	q4, [sp, #16]
	add	x9, x25, x8
	umax	v1.8h, v4.8h, v1.8h
	ldr	q4, [sp, #32]
	umax	v2.8h, v4.8h, v2.8h
	ldr	q4, [sp, #48]
	umax	v3.8h, v4.8h, v3.8h
	cbz	x9, LBB106_44
LBB106_111:
	mov	w8, #3
	lsr	x10, x20, #1
	sub	x9, x10, x9
	cbnz	w23, LBB106_99
LBB106_112:
	mov	w10, w23
LBB106_113:
	stp	x20, x9, [x19]
	stp	w8, w23, [x19, #16]
	stp	w10, wzr, [x19, #24]
	mov	sp, x29
	.cfi_def_cfa wsp, 80
	ldp	x20, x19, [sp, #64]
	ldr	x25, [sp, #16]
	ldp	x22, x21, [sp, #48]
	ldp	x24, x23, [sp, #32]
	ldp	x29, x30, [sp], #80
	.cfi_def_cfa_offset 0
	.cfi_restore w19
	.cfi_restore w20
	.cfi_restore w21
	.cfi_restore w22
	.cfi_restore w23
	.cfi_restore w24
	.cfi_restore w25
	.cfi_restore w30
	.cfi_restore w29
	ret
LBB106_114:
	.cfi_restore_state
	ldp	q1, q0, [x21]
	uzp1	v2.16b, v1.16b, v0.16b
	movi	v0.16b, #248
	movi	v1.16b, #216
	and	v2.16b, v2.16b, v0.16b
	cmeq	v3.16b, v2.16b, v1.16b
	ldr	q2, [x22, lCPI106_0@PAGEOFF]
	and	v3.16b, v3.16b, v2.16b
	addp	v3.16b, v3.16b, v3.16b
	addp	v3.16b, v3.16b, v3.16b
	addp	v3.16b, v3.16b, v3.16b
	umov	w8, v3.h[0]
	cbnz	w8, LBB106_31
	add	x8, x21, x20
	ldp	q4, q3, [x8, #-32]
	uzp1	v3.16b, v4.16b, v3.16b
	and	v0.16b, v3.16b, v0.16b
	cmeq	v0.16b, v0.16b, v1.16b
	and	v0.16b, v0.16b, v2.16b
	addp	v0.16b, v0.16b, v0.16b
	addp	v0.16b, v0.16b, v0.16b
	addp	v0.16b, v0.16b, v0.16b
	umov	w8, v0.h[0]
	cbnz	w8, LBB106_31
	b	LBB106_32
LBB106_116:
	ldp	q1, q0, [x21]
	uzp2	v2.16b, v1.16b, v0.16b
	movi	v0.16b, #248
	movi	v1.16b, #216
	and	v2.16b, v2.16b, v0.16b
	cmeq	v3.16b, v2.16b, v1.16b
	ldr	q2, [x22, lCPI106_0@PAGEOFF]
	and	v3.16b, v3.16b, v2.16b
	addp	v3.16b, v3.16b, v3.16b
	addp	v3.16b, v3.16b, v3.16b
	addp	v3.16b, v3.16b, v3.16b
	umov	w8, v3.h[0]
	cbnz	w8, LBB106_48
	add	x8, x21, x20
	ldp	q4, q3, [x8, #-32]
	uzp2	v3.16b, v4.16b, v3.16b
	and	v0.16b, v3.16b, v0.16b
	cmeq	v0.16b, v0.16b, v1.16b
	and	v0.16b, v0.16b, v2.16b
	addp	v0.16b, v0.16b, v0.16b
	addp	v0.16b, v0.16b, v0.16b
	addp	v0.16b, v0.16b, v0.16b
	umov	w8, v0.h[0]
	cbnz	w8, LBB106_48
	b	LBB106_49
Lfunc_end106:
	.cfi_endproc

	.section	__TEXT,__text,regular,pure_instructions
	.globl	_dethrux_decoder_feed_aarch64
	.private_extern	_dethrux_decoder_feed_aarch64
	.p2align	2
_dethrux_decoder_feed_aarch64:
	.cfi_startproc
	hint	#34
	sub	sp, sp, #224
	.cfi_def_cfa_offset 224
	stp	x29, x30, [sp, #128]
	stp	x28, x27, [sp, #144]
	stp	x26, x25, [sp, #160]
	stp	x24, x23, [sp, #176]
	stp	x22, x21, [sp, #192]
	stp	x20, x19, [sp, #208]
	add	x29, sp, #128
	.cfi_def_cfa w29, 96
	.cfi_offset w19, -8
	.cfi_offset w20, -16
	.cfi_offset w21, -24
	.cfi_offset w22, -32
	.cfi_offset w23, -40
	.cfi_offset w24, -48
	.cfi_offset w25, -56
	.cfi_offset w26, -64
	.cfi_offset w27, -72
	.cfi_offset w28, -80
	.cfi_offset w30, -88
	.cfi_offset w29, -96
	.cfi_remember_state
	cmp	x2, #0
	mov	w9, #4096
	mov	x25, x5
	csel	x22, x9, xzr, eq
	cmp	x4, #0
	adrp	x26, lstatic.9@PAGE
	add	x26, x26, lstatic.9@PAGEOFF
	csel	x9, x9, xzr, eq
	add	x10, x2, x22
	cmp	w1, #1
	add	x9, x4, x9
	stur	x2, [x29, #-56]
	stp	x10, x3, [sp, #48]
	str	x9, [sp, #64]
	stp	x0, x8, [sp, #32]
	b.ne	LBB107_41
	ldr	w8, [x0]
	mov	w10, #3
	lsr	w9, w8, #24
	stp	wzr, w8, [x29, #-36]
	cmp	w9, #3
	csel	w8, w9, w10, lo
	str	x8, [sp, #24]
	cbz	w9, LBB107_87
	mov	x21, xzr
	mov	x24, xzr
	stp	x22, x25, [sp, #8]
LBB107_3:
	sub	x19, x8, x21
	mov	x10, x8
	mov	w8, #4
	sub	x8, x8, x19
	sub	x9, x29, #32
	sub	x0, x29, #24
	cmp	x8, x3
	add	x1, x9, x21
	sub	x2, x10, x21
	csel	x23, x8, x3, lo
	stur	wzr, [x29, #-24]
	sub	x20, x29, #24
	bl	_memcpy
	ldur	x8, [x29, #-56]
	add	x0, x20, x19
	mov	x2, x23
	add	x1, x8, x22
	bl	_memcpy
	ldur	w8, [x29, #-24]
	mov	x9, x24
	mov	x24, xzr
	mov	x20, xzr
	add	x22, x23, x19
	sub	x28, x25, x9
	stur	w8, [x29, #-28]
	ldr	x8, [sp, #64]
	str	x23, [sp]
	add	x27, x8, x9
	stur	x9, [x29, #-48]
	b	LBB107_6
LBB107_4:
	add	x0, x20, x24
	sub	x1, x22, x24
	add	x2, x27, x19
	sub	x3, x28, x19
	bl	"_utf16_transcode::decode_lossy::write_copied::<#8b18edd9dd9aa8df>"
LBB107_5:
	add	x24, x0, x24
	add	x20, x1, x19
LBB107_6:
	sub	x19, x22, x24
	sub	x8, x29, #28
	stp	xzr, xzr, [x29, #-24]
	sub	x9, x19, #16
	add	x25, x8, x24
	sub	x8, x28, x20
	cmp	x9, #175
	add	x9, x27, x20
	stur	xzr, [x29, #-8]
	b.hi	LBB107_14
	lsr	x10, x19, #1
	cmp	x8, x10
	csel	x10, x8, x10, lo
	cmp	x10, #8
	b.lo	LBB107_14
	lsl	x11, x10, #1
	mov	x5, xzr
	mov	x6, xzr
	mov	x12, x11
LBB107_9:
	ldr	q0, [x25, x5]
	movi	v1.8h, #127
	rev16	v0.16b, v0.16b
	cmhi	v1.8h, v0.8h, v1.8h
	umaxv	h1, v1.8h
	fmov	w13, s1
	tbnz	w13, #0, LBB107_15
	sqxtun	v0.8b, v0.8h
	sub	x12, x12, #16
	add	x5, x5, #16
	cmp	x12, #15
	str	d0, [x9, x6]
	add	x6, x6, #8
	b.hi	LBB107_9
	cmp	x11, x5
	b.ls	LBB107_15
	add	x12, x25, x11
	movi	v1.8h, #127
	ldur	q0, [x12, #-16]
	rev16	v0.16b, v0.16b
	cmhi	v1.8h, v0.8h, v1.8h
	umaxv	h1, v1.8h
	fmov	w12, s1
	tbnz	w12, #0, LBB107_15
	sqxtun	v0.8b, v0.8h
	add	x12, x9, x10
	mov	x6, x10
	mov	x5, x11
	stur	d0, [x12, #-8]
	b	LBB107_15
LBB107_14:
	mov	x6, xzr
	mov	x5, xzr
LBB107_15:
	sub	x10, x19, x5
	cmp	x10, #15
	b.ls	LBB107_24
LBB107_16:
	sub	x10, x19, #8
	cmp	x10, #183
	b.hi	LBB107_19
	sub	x10, x19, x5
	cmp	x10, #8
	b.lo	LBB107_19
	add	x0, x25, x5
	sub	x1, x19, x5
	add	x2, x9, x6
	sub	x3, x8, x6
	mov	x23, x6
	mov	x26, x5
	bl	"_utf16_to_utf8::vectors::write_vectors::<#8b18edd9dd9aa8df>"
	mov	x5, x26
	adrp	x26, lstatic.9@PAGE
	add	x26, x26, lstatic.9@PAGEOFF
	add	x5, x0, x5
	add	x6, x1, x23
LBB107_19:
	cmp	x5, x19
	b.eq	LBB107_81
	sub	x0, x29, #24
	sub	x2, x22, x24
	add	x3, x27, x20
	sub	x4, x28, x20
	mov	x1, x25
	bl	"_utf16_transcode::transcoding::transcode_many::<#b8dc3d53e12e85b3>"
	ldp	x9, x10, [x29, #-24]
	ldurb	w8, [x29, #-8]
	cmp	w8, #1
	add	x24, x9, x24
	add	x19, x10, x20
	b.ne	LBB107_38
	sub	x9, x28, x19
	add	x8, x27, x19
	cmp	x9, #512
	b.lo	LBB107_33
	sub	x8, x22, x24
	sub	x20, x29, #28
	cmp	x8, #128
	b.lo	LBB107_4
	add	x0, x20, x24
	sub	x1, x22, x24
	add	x2, x27, x19
	sub	x3, x28, x19
	bl	"_utf16_transcode::ascii::write_lossy_ascii_blocks::<#8b18edd9dd9aa8df>"
	cmp	x0, #127
	b.ls	LBB107_4
	b	LBB107_5
LBB107_24:
	cmp	x10, #2
	b.lo	LBB107_16
	lsr	x11, x10, #1
	sub	x12, x8, x6
	add	x11, x11, x11, lsl #1
	cmp	x12, x11
	b.hs	LBB107_28
	b	LBB107_16
LBB107_26:
	strb	w11, [x9, x6]
	add	x6, x6, #1
LBB107_27:
	sub	x10, x10, #2
	add	x5, x5, #2
	cmp	x10, #1
	b.ls	LBB107_16
LBB107_28:
	ldrh	w11, [x25, x5]
	rev	w12, w11
	rev16	w11, w11
	lsr	w12, w12, #16
	cmp	w12, #127
	b.ls	LBB107_26
	and	w12, w11, #0xffff
	cmp	w12, #2047
	b.hi	LBB107_31
	lsr	w12, w11, #6
	orr	w12, w12, #0xc0
	and	w12, w12, #0xff
	bfi	w12, w11, #8, #6
	add	x11, x6, #2
	orr	w12, w12, #0x8000
	strh	w12, [x9, x6]
	mov	x6, x11
	b	LBB107_27
LBB107_31:
	ubfx	w12, w11, #11, #5
	cmp	w12, #27
	b.eq	LBB107_16
	mov	w12, #224
	mov	w13, #128
	mov	w14, #128
	bfxil	w12, w11, #12, #4
	bfxil	w13, w11, #6, #6
	bfxil	w14, w11, #0, #6
	add	x15, x9, x6
	add	x6, x6, #3
	strb	w12, [x15]
	strb	w13, [x15, #1]
	strb	w14, [x15, #2]
	b	LBB107_27
LBB107_33:
	cmp	x9, #3
	b.lo	LBB107_85
	sub	x9, x8, x26
	ldurb	w0, [x29, #-7]
	cmp	x9, #2
	b.hi	LBB107_36
	mov	w9, #49135
	mov	w10, #189
	strh	w9, [x8]
	strb	w10, [x8, #2]
	b	LBB107_37
LBB107_36:
	mov	w9, #189
	mov	w10, #49135
	strb	w9, [x8, #2]
	strh	w10, [x8]
LBB107_37:
	mov	w1, #3
	b	LBB107_5
LBB107_38:
	ldur	x9, [x29, #-48]
	ldr	x3, [sp, #56]
	add	x21, x24, x21
	ldr	x25, [sp, #16]
	add	x9, x19, x9
	stur	x9, [x29, #-48]
	cbz	x24, LBB107_178
	cmp	w8, #3
	b.eq	LBB107_86
	ldr	x8, [sp, #24]
	ldur	x24, [x29, #-48]
	ldr	x22, [sp, #8]
	cmp	x21, x8
	b.lo	LBB107_3
	b	LBB107_88
LBB107_41:
	ldr	w8, [x0]
	mov	w10, #3
	lsr	w9, w8, #24
	stp	wzr, w8, [x29, #-36]
	cmp	w9, #3
	csel	w8, w9, w10, lo
	str	x8, [sp, #24]
	cbz	w9, LBB107_124
	mov	x21, xzr
	mov	x24, xzr
	stp	x22, x25, [sp, #8]
LBB107_43:
	sub	x19, x8, x21
	mov	x10, x8
	mov	w8, #4
	sub	x8, x8, x19
	sub	x9, x29, #32
	sub	x0, x29, #24
	cmp	x8, x3
	add	x1, x9, x21
	sub	x2, x10, x21
	csel	x23, x8, x3, lo
	stur	wzr, [x29, #-24]
	sub	x20, x29, #24
	bl	_memcpy
	ldur	x8, [x29, #-56]
	add	x0, x20, x19
	mov	x2, x23
	add	x1, x8, x22
	bl	_memcpy
	ldur	w8, [x29, #-24]
	mov	x9, x24
	mov	x24, xzr
	mov	x20, xzr
	add	x22, x23, x19
	sub	x28, x25, x9
	stur	w8, [x29, #-28]
	ldr	x8, [sp, #64]
	str	x23, [sp]
	add	x27, x8, x9
	stur	x9, [x29, #-48]
	b	LBB107_46
LBB107_44:
	add	x0, x20, x24
	sub	x1, x22, x24
	add	x2, x27, x19
	sub	x3, x28, x19
	bl	"_utf16_transcode::decode_lossy::write_copied::<#418c2b53cf60437c>"
LBB107_45:
	add	x24, x0, x24
	add	x20, x1, x19
LBB107_46:
	sub	x19, x22, x24
	sub	x8, x29, #28
	stp	xzr, xzr, [x29, #-24]
	sub	x9, x19, #16
	add	x25, x8, x24
	sub	x8, x28, x20
	cmp	x9, #175
	add	x9, x27, x20
	stur	xzr, [x29, #-8]
	b.hi	LBB107_54
	lsr	x10, x19, #1
	cmp	x8, x10
	csel	x10, x8, x10, lo
	cmp	x10, #8
	b.lo	LBB107_54
	lsl	x11, x10, #1
	mov	x5, xzr
	mov	x6, xzr
	mov	x12, x11
LBB107_49:
	movi	v1.8h, #127
	ldr	q0, [x25, x5]
	cmhi	v1.8h, v0.8h, v1.8h
	umaxv	h1, v1.8h
	fmov	w13, s1
	tbnz	w13, #0, LBB107_55
	sqxtun	v0.8b, v0.8h
	sub	x12, x12, #16
	add	x5, x5, #16
	cmp	x12, #15
	str	d0, [x9, x6]
	add	x6, x6, #8
	b.hi	LBB107_49
	cmp	x11, x5
	b.ls	LBB107_55
	movi	v1.8h, #127
	add	x12, x25, x11
	ldur	q0, [x12, #-16]
	cmhi	v1.8h, v0.8h, v1.8h
	umaxv	h1, v1.8h
	fmov	w12, s1
	tbnz	w12, #0, LBB107_55
	sqxtun	v0.8b, v0.8h
	add	x12, x9, x10
	mov	x6, x10
	mov	x5, x11
	stur	d0, [x12, #-8]
	b	LBB107_55
LBB107_54:
	mov	x6, xzr
	mov	x5, xzr
LBB107_55:
	sub	x10, x19, x5
	cmp	x10, #15
	b.ls	LBB107_64
LBB107_56:
	sub	x10, x19, #8
	cmp	x10, #183
	b.hi	LBB107_59
	sub	x10, x19, x5
	cmp	x10, #8
	b.lo	LBB107_59
	add	x0, x25, x5
	sub	x1, x19, x5
	add	x2, x9, x6
	sub	x3, x8, x6
	mov	x23, x6
	mov	x26, x5
	bl	"_utf16_to_utf8::vectors::write_vectors::<#418c2b53cf60437c>"
	mov	x5, x26
	adrp	x26, lstatic.9@PAGE
	add	x26, x26, lstatic.9@PAGEOFF
	add	x5, x0, x5
	add	x6, x1, x23
LBB107_59:
	cmp	x5, x19
	b.eq	LBB107_83
	sub	x0, x29, #24
	sub	x2, x22, x24
	add	x3, x27, x20
	sub	x4, x28, x20
	mov	x1, x25
	bl	"_utf16_transcode::transcoding::transcode_many::<#556930da7d070edc>"
	ldp	x9, x10, [x29, #-24]
	ldurb	w8, [x29, #-8]
	cmp	w8, #1
	add	x24, x9, x24
	add	x19, x10, x20
	b.ne	LBB107_78
	sub	x9, x28, x19
	add	x8, x27, x19
	cmp	x9, #512
	b.lo	LBB107_73
	sub	x8, x22, x24
	sub	x20, x29, #28
	cmp	x8, #128
	b.lo	LBB107_44
	add	x0, x20, x24
	sub	x1, x22, x24
	add	x2, x27, x19
	sub	x3, x28, x19
	bl	"_utf16_transcode::ascii::write_lossy_ascii_blocks::<#418c2b53cf60437c>"
	cmp	x0, #127
	b.ls	LBB107_44
	b	LBB107_45
LBB107_64:
	cmp	x10, #2
	b.lo	LBB107_56
	lsr	x11, x10, #1
	sub	x12, x8, x6
	add	x11, x11, x11, lsl #1
	cmp	x12, x11
	b.hs	LBB107_68
	b	LBB107_56
LBB107_66:
	strb	w11, [x9, x6]
	add	x6, x6, #1
LBB107_67:
	sub	x10, x10, #2
	add	x5, x5, #2
	cmp	x10, #1
	b.ls	LBB107_56
LBB107_68:
	add	x12, x25, x5
	ldrb	w11, [x12]
	ldrb	w13, [x12, #1]
	orr	w12, w11, w13, lsl #8
	cmp	w12, #127
	b.ls	LBB107_66
	cmp	w13, #7
	b.hi	LBB107_71
	lsr	w12, w12, #6
	orr	w12, w12, #0xc0
	and	w12, w12, #0xff
	bfi	w12, w11, #8, #6
	add	x11, x6, #2
	orr	w12, w12, #0x8000
	strh	w12, [x9, x6]
	mov	x6, x11
	b	LBB107_67
LBB107_71:
	and	w14, w13, #0xf8
	cmp	w14, #216
	b.eq	LBB107_56
	lsr	w13, w13, #4
	mov	w14, #128
	mov	w15, #128
	bfxil	w14, w12, #6, #6
	bfxil	w15, w11, #0, #6
	add	x16, x9, x6
	orr	w12, w13, #0xe0
	add	x6, x6, #3
	strb	w12, [x16]
	strb	w14, [x16, #1]
	strb	w15, [x16, #2]
	b	LBB107_67
LBB107_73:
	cmp	x9, #3
	b.lo	LBB107_85
	sub	x9, x8, x26
	ldurb	w0, [x29, #-7]
	cmp	x9, #2
	b.hi	LBB107_76
	mov	w9, #49135
	mov	w10, #189
	strh	w9, [x8]
	strb	w10, [x8, #2]
	b	LBB107_77
LBB107_76:
	mov	w9, #189
	mov	w10, #49135
	strb	w9, [x8, #2]
	strh	w10, [x8]
LBB107_77:
	mov	w1, #3
	b	LBB107_45
LBB107_78:
	ldur	x9, [x29, #-48]
	ldr	x3, [sp, #56]
	add	x21, x24, x21
	ldr	x25, [sp, #16]
	add	x9, x19, x9
	stur	x9, [x29, #-48]
	cbz	x24, LBB107_179
	cmp	w8, #3
	b.eq	LBB107_86
	ldr	x8, [sp, #24]
	ldur	x24, [x29, #-48]
	ldr	x22, [sp, #8]
	cmp	x21, x8
	b.lo	LBB107_43
	b	LBB107_125
LBB107_81:
	ldur	x8, [x29, #-48]
	ldr	x10, [sp, #24]
	ldr	x9, [sp]
	add	x8, x20, x8
	add	x21, x9, x10
	add	x24, x8, x6
	cbz	x22, LBB107_163
	ldp	x22, x25, [sp, #8]
	mov	x8, x10
	ldr	x3, [sp, #56]
	b	LBB107_88
LBB107_83:
	ldur	x8, [x29, #-48]
	ldr	x10, [sp, #24]
	ldr	x9, [sp]
	add	x8, x20, x8
	add	x21, x9, x10
	add	x24, x8, x6
	cbz	x22, LBB107_164
	ldp	x22, x25, [sp, #8]
	mov	x8, x10
	ldr	x3, [sp, #56]
	b	LBB107_125
LBB107_85:
	ldur	x8, [x29, #-48]
	add	x21, x24, x21
	add	x8, x19, x8
	stur	x8, [x29, #-48]
LBB107_86:
	ldr	x8, [sp, #24]
	sub	x9, x29, #32
	ldr	x24, [sp, #40]
	cmp	x8, x21
	mov	x11, x8
	csel	x8, x8, x21, lo
	subs	x10, x21, x11
	add	x1, x9, x8
	sub	x22, x11, x8
	csel	x19, xzr, x10, lo
	b	LBB107_174
LBB107_87:
	mov	x24, xzr
	mov	x21, xzr
LBB107_88:
	mov	x10, x8
	add	x8, x22, x21
	mov	x28, xzr
	sub	x9, x21, x10
	sub	x8, x8, x10
	ldr	x10, [sp, #48]
	sub	x20, x3, x9
	mov	x27, xzr
	stur	x24, [x29, #-48]
	add	x22, x10, x9
	ldur	x9, [x29, #-56]
	add	x8, x8, x9
	ldr	x9, [sp, #64]
	add	x8, x8, #1
	add	x23, x9, x24
	sub	x24, x25, x24
	stur	x8, [x29, #-56]
	b	LBB107_91
LBB107_89:
	add	x0, x22, x25
	sub	x1, x20, x25
	add	x2, x23, x19
	sub	x3, x24, x19
	bl	"_utf16_transcode::decode_lossy::write_copied::<#8b18edd9dd9aa8df>"
LBB107_90:
	add	x28, x0, x25
	add	x27, x1, x19
LBB107_91:
	sub	x25, x20, x28
	add	x8, x22, x28
	sub	x10, x24, x27
	sub	x9, x25, #16
	stp	xzr, xzr, [x29, #-24]
	cmp	x9, #175
	add	x9, x23, x27
	stur	xzr, [x29, #-8]
	b.hi	LBB107_99
	lsr	x11, x25, #1
	cmp	x10, x11
	csel	x11, x10, x11, lo
	cmp	x11, #8
	b.lo	LBB107_99
	lsl	x12, x11, #1
	mov	x5, xzr
	mov	x6, xzr
	mov	x13, x12
LBB107_94:
	ldr	q0, [x8, x5]
	movi	v1.8h, #127
	rev16	v0.16b, v0.16b
	cmhi	v1.8h, v0.8h, v1.8h
	umaxv	h1, v1.8h
	fmov	w14, s1
	tbnz	w14, #0, LBB107_100
	sqxtun	v0.8b, v0.8h
	sub	x13, x13, #16
	add	x5, x5, #16
	cmp	x13, #15
	str	d0, [x9, x6]
	add	x6, x6, #8
	b.hi	LBB107_94
	cmp	x12, x5
	b.ls	LBB107_100
	add	x13, x8, x12
	movi	v1.8h, #127
	ldur	q0, [x13, #-16]
	rev16	v0.16b, v0.16b
	cmhi	v1.8h, v0.8h, v1.8h
	umaxv	h1, v1.8h
	fmov	w13, s1
	tbnz	w13, #0, LBB107_100
	sqxtun	v0.8b, v0.8h
	add	x13, x9, x11
	mov	x6, x11
	mov	x5, x12
	stur	d0, [x13, #-8]
	b	LBB107_100
LBB107_99:
	mov	x6, xzr
	mov	x5, xzr
LBB107_100:
	sub	x11, x25, x5
	cmp	x11, #15
	b.ls	LBB107_109
LBB107_101:
	sub	x11, x25, #8
	cmp	x11, #183
	b.hi	LBB107_104
	sub	x11, x25, x5
	cmp	x11, #8
	b.lo	LBB107_104
	add	x0, x8, x5
	sub	x1, x25, x5
	add	x2, x9, x6
	sub	x3, x10, x6
	mov	x19, x6
	mov	x26, x5
	bl	"_utf16_to_utf8::vectors::write_vectors::<#8b18edd9dd9aa8df>"
	mov	x5, x26
	adrp	x26, lstatic.9@PAGE
	add	x26, x26, lstatic.9@PAGEOFF
	add	x5, x0, x5
	add	x6, x1, x19
LBB107_104:
	cmp	x5, x25
	b.eq	LBB107_161
	sub	x0, x29, #24
	add	x1, x22, x28
	sub	x2, x20, x28
	add	x3, x23, x27
	sub	x4, x24, x27
	bl	"_utf16_transcode::transcoding::transcode_many::<#b8dc3d53e12e85b3>"
	ldp	x9, x10, [x29, #-24]
	ldurb	w8, [x29, #-8]
	cmp	w8, #1
	add	x25, x9, x28
	add	x19, x10, x27
	b.ne	LBB107_166
	sub	x9, x24, x19
	add	x8, x23, x19
	cmp	x9, #512
	b.lo	LBB107_119
	sub	x8, x20, x25
	cmp	x8, #128
	b.lo	LBB107_89
	add	x0, x22, x25
	sub	x1, x20, x25
	add	x2, x23, x19
	sub	x3, x24, x19
	bl	"_utf16_transcode::ascii::write_lossy_ascii_blocks::<#8b18edd9dd9aa8df>"
	cmp	x0, #127
	b.ls	LBB107_89
	b	LBB107_90
LBB107_109:
	cmp	x11, #2
	b.lo	LBB107_101
	lsr	x12, x11, #1
	sub	x13, x10, x6
	add	x12, x12, x12, lsl #1
	cmp	x13, x12
	b.lo	LBB107_101
	ldur	x13, [x29, #-56]
	add	x12, x5, x28
	add	x12, x13, x12
	b	LBB107_114
LBB107_112:
	strb	w13, [x9, x6]
	add	x6, x6, #1
LBB107_113:
	sub	x11, x11, #2
	add	x12, x12, #2
	add	x5, x5, #2
	cmp	x11, #1
	b.ls	LBB107_101
LBB107_114:
	ldurh	w13, [x12, #-1]
	rev	w14, w13
	rev16	w13, w13
	lsr	w14, w14, #16
	cmp	w14, #127
	b.ls	LBB107_112
	and	w14, w13, #0xffff
	cmp	w14, #2047
	b.hi	LBB107_117
	lsr	w14, w13, #6
	orr	w14, w14, #0xc0
	and	w14, w14, #0xff
	bfi	w14, w13, #8, #6
	add	x13, x6, #2
	orr	w14, w14, #0x8000
	strh	w14, [x9, x6]
	mov	x6, x13
	b	LBB107_113
LBB107_117:
	ubfx	w14, w13, #11, #5
	cmp	w14, #27
	b.eq	LBB107_101
	mov	w14, #224
	mov	w15, #128
	mov	w16, #128
	bfxil	w14, w13, #12, #4
	bfxil	w15, w13, #6, #6
	bfxil	w16, w13, #0, #6
	add	x17, x9, x6
	add	x6, x6, #3
	strb	w14, [x17]
	strb	w15, [x17, #1]
	strb	w16, [x17, #2]
	b	LBB107_113
LBB107_119:
	cmp	x9, #3
	b.lo	LBB107_165
	sub	x9, x8, x26
	ldurb	w0, [x29, #-7]
	cmp	x9, #2
	b.hi	LBB107_122
	mov	w9, #49135
	mov	w10, #189
	strh	w9, [x8]
	strb	w10, [x8, #2]
	b	LBB107_123
LBB107_122:
	mov	w9, #189
	mov	w10, #49135
	strb	w9, [x8, #2]
	strh	w10, [x8]
LBB107_123:
	mov	w1, #3
	b	LBB107_90
LBB107_124:
	mov	x24, xzr
	mov	x21, xzr
LBB107_125:
	mov	x10, x8
	add	x8, x22, x21
	mov	x28, xzr
	sub	x9, x21, x10
	sub	x8, x8, x10
	ldr	x10, [sp, #48]
	sub	x20, x3, x9
	mov	x27, xzr
	stur	x24, [x29, #-48]
	add	x22, x10, x9
	ldur	x9, [x29, #-56]
	add	x8, x8, x9
	ldr	x9, [sp, #64]
	add	x8, x8, #1
	add	x23, x9, x24
	sub	x24, x25, x24
	stur	x8, [x29, #-56]
	b	LBB107_128
LBB107_126:
	add	x0, x22, x25
	sub	x1, x20, x25
	add	x2, x23, x19
	sub	x3, x24, x19
	bl	"_utf16_transcode::decode_lossy::write_copied::<#418c2b53cf60437c>"
LBB107_127:
	add	x28, x0, x25
	add	x27, x1, x19
LBB107_128:
	sub	x25, x20, x28
	add	x8, x22, x28
	sub	x10, x24, x27
	sub	x9, x25, #16
	stp	xzr, xzr, [x29, #-24]
	cmp	x9, #175
	add	x9, x23, x27
	stur	xzr, [x29, #-8]
	b.hi	LBB107_136
	lsr	x11, x25, #1
	cmp	x10, x11
	csel	x11, x10, x11, lo
	cmp	x11, #8
	b.lo	LBB107_136
	lsl	x12, x11, #1
	mov	x5, xzr
	mov	x6, xzr
	mov	x13, x12
LBB107_131:
	movi	v1.8h, #127
	ldr	q0, [x8, x5]
	cmhi	v1.8h, v0.8h, v1.8h
	umaxv	h1, v1.8h
	fmov	w14, s1
	tbnz	w14, #0, LBB107_137
	sqxtun	v0.8b, v0.8h
	sub	x13, x13, #16
	add	x5, x5, #16
	cmp	x13, #15
	str	d0, [x9, x6]
	add	x6, x6, #8
	b.hi	LBB107_131
	cmp	x12, x5
	b.ls	LBB107_137
	movi	v1.8h, #127
	add	x13, x8, x12
	ldur	q0, [x13, #-16]
	cmhi	v1.8h, v0.8h, v1.8h
	umaxv	h1, v1.8h
	fmov	w13, s1
	tbnz	w13, #0, LBB107_137
	sqxtun	v0.8b, v0.8h
	add	x13, x9, x11
	mov	x6, x11
	mov	x5, x12
	stur	d0, [x13, #-8]
	b	LBB107_137
LBB107_136:
	mov	x6, xzr
	mov	x5, xzr
LBB107_137:
	sub	x11, x25, x5
	cmp	x11, #15
	b.ls	LBB107_146
LBB107_138:
	sub	x11, x25, #8
	cmp	x11, #183
	b.hi	LBB107_141
	sub	x11, x25, x5
	cmp	x11, #8
	b.lo	LBB107_141
	add	x0, x8, x5
	sub	x1, x25, x5
	add	x2, x9, x6
	sub	x3, x10, x6
	mov	x19, x6
	mov	x26, x5
	bl	"_utf16_to_utf8::vectors::write_vectors::<#418c2b53cf60437c>"
	mov	x5, x26
	adrp	x26, lstatic.9@PAGE
	add	x26, x26, lstatic.9@PAGEOFF
	add	x5, x0, x5
	add	x6, x1, x19
LBB107_141:
	cmp	x5, x25
	b.eq	LBB107_162
	sub	x0, x29, #24
	add	x1, x22, x28
	sub	x2, x20, x28
	add	x3, x23, x27
	sub	x4, x24, x27
	bl	"_utf16_transcode::transcoding::transcode_many::<#556930da7d070edc>"
	ldp	x9, x10, [x29, #-24]
	ldurb	w8, [x29, #-8]
	cmp	w8, #1
	add	x25, x9, x28
	add	x19, x10, x27
	b.ne	LBB107_171
	sub	x9, x24, x19
	add	x8, x23, x19
	cmp	x9, #512
	b.lo	LBB107_156
	sub	x8, x20, x25
	cmp	x8, #128
	b.lo	LBB107_126
	add	x0, x22, x25
	sub	x1, x20, x25
	add	x2, x23, x19
	sub	x3, x24, x19
	bl	"_utf16_transcode::ascii::write_lossy_ascii_blocks::<#418c2b53cf60437c>"
	cmp	x0, #127
	b.ls	LBB107_126
	b	LBB107_127
LBB107_146:
	cmp	x11, #2
	b.lo	LBB107_138
	lsr	x12, x11, #1
	sub	x13, x10, x6
	add	x12, x12, x12, lsl #1
	cmp	x13, x12
	b.lo	LBB107_138
	ldur	x13, [x29, #-56]
	add	x12, x5, x28
	add	x12, x13, x12
	b	LBB107_151
LBB107_149:
	strb	w13, [x9, x6]
	add	x6, x6, #1
LBB107_150:
	sub	x11, x11, #2
	add	x12, x12, #2
	add	x5, x5, #2
	cmp	x11, #1
	b.ls	LBB107_138
LBB107_151:
	ldurb	w13, [x12, #-1]
	ldrb	w15, [x12]
	orr	w14, w13, w15, lsl #8
	cmp	w14, #127
	b.ls	LBB107_149
	cmp	w15, #7
	b.hi	LBB107_154
	lsr	w14, w14, #6
	orr	w14, w14, #0xc0
	and	w14, w14, #0xff
	bfi	w14, w13, #8, #6
	add	x13, x6, #2
	orr	w14, w14, #0x8000
	strh	w14, [x9, x6]
	mov	x6, x13
	b	LBB107_150
LBB107_154:
	and	w16, w15, #0xf8
	cmp	w16, #216
	b.eq	LBB107_138
	lsr	w15, w15, #4
	mov	w16, #128
	mov	w17, #128
	bfxil	w16, w14, #6, #6
	bfxil	w17, w13, #0, #6
	add	x0, x9, x6
	orr	w14, w15, #0xe0
	add	x6, x6, #3
	strb	w14, [x0]
	strb	w16, [x0, #1]
	strb	w17, [x0, #2]
	b	LBB107_150
LBB107_156:
	cmp	x9, #3
	b.lo	LBB107_170
	sub	x9, x8, x26
	ldurb	w0, [x29, #-7]
	cmp	x9, #2
	b.hi	LBB107_159
	mov	w9, #49135
	mov	w10, #189
	strh	w9, [x8]
	strb	w10, [x8, #2]
	b	LBB107_160
LBB107_159:
	mov	w9, #189
	mov	w10, #49135
	strb	w9, [x8, #2]
	strh	w10, [x8]
LBB107_160:
	mov	w1, #3
	b	LBB107_127
LBB107_161:
	mov	w8, wzr
	add	x19, x6, x27
	b	LBB107_167
LBB107_162:
	mov	w8, wzr
	add	x19, x6, x27
	b	LBB107_172
LBB107_163:
	stur	x24, [x29, #-48]
	sub	x8, x29, #32
	subs	x9, x21, x10
	ldr	x24, [sp, #40]
	ldr	x3, [sp, #56]
	add	x1, x8, x10
	csel	x19, xzr, x9, lo
	b	LBB107_169
LBB107_164:
	stur	x24, [x29, #-48]
	sub	x8, x29, #32
	subs	x9, x21, x10
	ldr	x24, [sp, #40]
	ldr	x3, [sp, #56]
	add	x1, x8, x10
	csel	x19, xzr, x9, lo
	b	LBB107_175
LBB107_165:
	mov	w8, #3
LBB107_166:
	mov	x20, x25
LBB107_167:
	ldur	x9, [x29, #-48]
	ldr	x24, [sp, #40]
	add	x21, x20, x21
	ldr	x3, [sp, #56]
	add	x9, x19, x9
	stur	x9, [x29, #-48]
LBB107_168:
	ldr	x12, [sp, #24]
	sub	x11, x29, #32
	cmp	x12, x21
	csel	x9, x12, x21, lo
	subs	x10, x21, x12
	csel	x19, xzr, x10, lo
	cmp	w8, #3
	add	x1, x11, x9
	sub	x22, x12, x9
	b.eq	LBB107_174
LBB107_169:
	mov	w8, #4
	sub	x9, x3, x19
	sub	x0, x29, #24
	sub	x8, x8, x22
	mov	x2, x22
	stur	wzr, [x29, #-24]
	cmp	x8, x9
	sub	x20, x29, #24
	mov	x21, x3
	csel	x23, x8, x9, lo
	bl	_memcpy
	ldr	x8, [sp, #48]
	add	x0, x20, x22
	mov	x2, x23
	add	x1, x8, x19
	bl	_memcpy
	ldur	w8, [x29, #-24]
	add	x22, x23, x22
	sub	x0, x29, #24
	sub	x1, x29, #36
	mov	x2, x22
	sturb	wzr, [x29, #-22]
	stur	w8, [x29, #-36]
	sturh	wzr, [x29, #-24]
	bl	_memcpy
	ldurb	w9, [x29, #-22]
	ldurh	w10, [x29, #-24]
	mov	w8, wzr
	mov	x19, x21
	orr	w9, w10, w9, lsl #16
	ldr	x10, [sp, #32]
	orr	w9, w9, w22, lsl #24
	b	LBB107_177
LBB107_170:
	mov	w8, #3
LBB107_171:
	mov	x20, x25
LBB107_172:
	ldur	x9, [x29, #-48]
	ldr	x24, [sp, #40]
	add	x21, x20, x21
	ldr	x3, [sp, #56]
	add	x9, x19, x9
	stur	x9, [x29, #-48]
LBB107_173:
	ldr	x12, [sp, #24]
	sub	x11, x29, #32
	cmp	x12, x21
	csel	x9, x12, x21, lo
	subs	x10, x21, x12
	csel	x19, xzr, x10, lo
	cmp	w8, #3
	add	x1, x11, x9
	sub	x22, x12, x9
	b.ne	LBB107_175
LBB107_174:
	sub	x0, x29, #24
	mov	x2, x22
	sturb	wzr, [x29, #-22]
	sturh	wzr, [x29, #-24]
	bl	_memcpy
	ldurb	w8, [x29, #-22]
	ldurh	w9, [x29, #-24]
	orr	w8, w9, w8, lsl #16
	orr	w9, w8, w22, lsl #24
	mov	w8, #3
	b	LBB107_176
LBB107_175:
	mov	w8, #4
	sub	x9, x3, x19
	sub	x0, x29, #24
	sub	x8, x8, x22
	mov	x2, x22
	stur	wzr, [x29, #-24]
	cmp	x8, x9
	sub	x20, x29, #24
	mov	x21, x3
	csel	x23, x8, x9, lo
	bl	_memcpy
	ldr	x8, [sp, #48]
	add	x0, x20, x22
	mov	x2, x23
	add	x1, x8, x19
	bl	_memcpy
	ldur	w8, [x29, #-24]
	add	x22, x23, x22
	sub	x0, x29, #24
	sub	x1, x29, #36
	mov	x2, x22
	sturb	wzr, [x29, #-22]
	stur	w8, [x29, #-36]
	sturh	wzr, [x29, #-24]
	bl	_memcpy
	ldurb	w8, [x29, #-22]
	ldurh	w9, [x29, #-24]
	mov	x19, x21
	orr	w8, w9, w8, lsl #16
	orr	w9, w8, w22, lsl #24
	mov	w8, wzr
LBB107_176:
	ldr	x10, [sp, #32]
LBB107_177:
	str	w9, [x10]
	cmp	w8, #0
	mov	w8, #3
	ldur	x9, [x29, #-48]
	csel	w8, wzr, w8, eq
	stp	x19, x9, [x24]
	stp	w8, wzr, [x24, #16]
	.cfi_def_cfa wsp, 224
	ldp	x20, x19, [sp, #208]
	ldp	x22, x21, [sp, #192]
	ldp	x24, x23, [sp, #176]
	ldp	x26, x25, [sp, #160]
	ldp	x28, x27, [sp, #144]
	ldp	x29, x30, [sp, #128]
	add	sp, sp, #224
	.cfi_def_cfa_offset 0
	.cfi_restore w19
	.cfi_restore w20
	.cfi_restore w21
	.cfi_restore w22
	.cfi_restore w23
	.cfi_restore w24
	.cfi_restore w25
	.cfi_restore w26
	.cfi_restore w27
	.cfi_restore w28
	.cfi_restore w30
	.cfi_restore w29
	ret
LBB107_178:
	.cfi_restore_state
	ldr	x24, [sp, #40]
	b	LBB107_168
LBB107_179:
	ldr	x24, [sp, #40]
	b	LBB107_173
Lfunc_end107:
	.cfi_endproc

	.section	__TEXT,__text,regular,pure_instructions
	.globl	_dethrux_decoder_finish_aarch64
	.private_extern	_dethrux_decoder_finish_aarch64
	.p2align	2
_dethrux_decoder_finish_aarch64:
	.cfi_startproc
	hint	#34
	ldrb	w10, [x0, #3]
	cmp	x2, #0
	mov	w9, #4096
	csel	x9, x9, xzr, eq
	cbz	w10, LBB108_3
	cmp	x3, #3
	b.hs	LBB108_4
	mov	w10, #3
	stp	xzr, xzr, [x8]
	stp	w10, wzr, [x8, #16]
	ret
LBB108_3:
	str	wzr, [x0]
	stp	xzr, xzr, [x8]
	stp	wzr, wzr, [x8, #16]
	ret
LBB108_4:
	add	x9, x2, x9
	adrp	x10, lstatic.9@PAGE
	add	x10, x10, lstatic.9@PAGEOFF
	sub	x10, x9, x10
	cmp	x10, #2
	b.hi	LBB108_6
	mov	w10, #49135
	mov	w11, #189
	strh	w10, [x9]
	strb	w11, [x9, #2]
	mov	w9, #3
	str	wzr, [x0]
	stp	xzr, x9, [x8]
	stp	wzr, wzr, [x8, #16]
	ret
LBB108_6:
	mov	w10, #189
	mov	w11, #49135
	strb	w10, [x9, #2]
	strh	w11, [x9]
	mov	w9, #3
	str	wzr, [x0]
	stp	xzr, x9, [x8]
	stp	wzr, wzr, [x8, #16]
	ret
Lfunc_end108:
	.cfi_endproc

	.section	__TEXT,__literal16,16byte_literals
	.p2align	4, 0x0
lCPI109_0:
	.byte	1
	.byte	2
	.byte	4
	.byte	8
	.byte	16
	.byte	32
	.byte	64
	.byte	128
	.byte	1
	.byte	2
	.byte	4
	.byte	8
	.byte	16
	.byte	32
	.byte	64
	.byte	128
	.section	__TEXT,__text,regular,pure_instructions
	.globl	_dethrux_encoder_feed_aarch64
	.private_extern	_dethrux_encoder_feed_aarch64
	.p2align	2
_dethrux_encoder_feed_aarch64:
	.cfi_startproc
	hint	#34
	sub	sp, sp, #240
	.cfi_def_cfa_offset 240
	stp	x29, x30, [sp, #144]
	stp	x28, x27, [sp, #160]
	stp	x26, x25, [sp, #176]
	stp	x24, x23, [sp, #192]
	stp	x22, x21, [sp, #208]
	stp	x20, x19, [sp, #224]
	add	x29, sp, #144
	.cfi_def_cfa w29, 96
	.cfi_offset w19, -8
	.cfi_offset w20, -16
	.cfi_offset w21, -24
	.cfi_offset w22, -32
	.cfi_offset w23, -40
	.cfi_offset w24, -48
	.cfi_offset w25, -56
	.cfi_offset w26, -64
	.cfi_offset w27, -72
	.cfi_offset w28, -80
	.cfi_offset w30, -88
	.cfi_offset w29, -96
	.cfi_remember_state
	cmp	x2, #0
	mov	w10, #4096
	mov	x22, x5
	csel	x9, x10, xzr, eq
	cmp	x4, #0
	stp	x0, x8, [sp, #8]
	csel	x10, x10, xzr, eq
	cmp	w1, #1
	add	x9, x2, x9
	add	x27, x4, x10
	stp	x3, x9, [sp, #56]
	stp	x27, x5, [sp, #40]
	b.ne	LBB109_24
	ldr	w10, [x0]
	stur	wzr, [x29, #-28]
	lsr	w9, w10, #24
	stp	wzr, w10, [x29, #-36]
	mov	w10, #3
	cmp	w9, #3
	csel	w12, w9, w10, lo
	str	x12, [sp, #24]
	cbz	w9, LBB109_52
	mov	x10, xzr
	mov	x23, xzr
LBB109_3:
	sub	x20, x12, x10
	mov	w8, #4
	sub	x9, x29, #32
	sub	x8, x8, x20
	sub	x0, x29, #24
	add	x1, x9, x10
	cmp	x8, x3
	sub	x2, x12, x10
	stur	wzr, [x29, #-24]
	csel	x19, x8, x3, lo
	str	x10, [sp, #32]
	sub	x21, x29, #24
	bl	_memcpy
	ldr	x1, [sp, #64]
	add	x0, x21, x20
	mov	x2, x19
	bl	_memcpy
	ldur	w8, [x29, #-24]
	add	x24, x19, x20
	sub	x0, x29, #28
	add	x2, x27, x23
	sub	x3, x22, x23
	mov	x1, x24
	stur	w8, [x29, #-28]
	sub	x8, x22, x23
	add	x28, x27, x23
	stp	xzr, xzr, [x29, #-24]
	stur	x8, [x29, #-48]
	stur	xzr, [x29, #-8]
	bl	"_utf16_transcode::encode::FromUtf8Direction::begin::<#8b18edd9dd9aa8df>"
	mov	x6, x1
	cmp	x0, x24
	str	x23, [sp, #72]
	b.ne	LBB109_7
	mov	x19, xzr
	mov	x21, xzr
	mov	x20, x24
LBB109_5:
	ldr	x9, [sp, #72]
	ldr	x10, [sp, #32]
	adds	x8, x20, x19
	add	x9, x21, x9
	add	x10, x8, x10
	add	x23, x9, x6
	b.eq	LBB109_74
	ldp	x22, x3, [sp, #48]
	ldr	x27, [sp, #40]
	ldr	x12, [sp, #24]
	b	LBB109_23
LBB109_7:
	mov	x5, x0
	mov	x21, xzr
	mov	x19, xzr
	sub	x25, x29, #28
	sub	x26, x22, x23
	add	x27, x27, x23
	mov	x20, x24
	stp	x28, x24, [x29, #-64]
	b	LBB109_9
LBB109_8:
	add	x8, x21, x27
	add	x19, x25, x22
	stp	xzr, xzr, [x29, #-24]
	add	x21, x8, #2
	sub	x8, x29, #28
	stur	xzr, [x29, #-8]
	ldp	x28, x24, [x29, #-64]
	add	x25, x8, x19
	ldur	x8, [x29, #-48]
	mov	x0, x25
	sub	x20, x24, x19
	add	x27, x28, x21
	sub	x26, x8, x21
	mov	x1, x20
	mov	x2, x27
	mov	x3, x26
	bl	"_utf16_transcode::encode::FromUtf8Direction::begin::<#8b18edd9dd9aa8df>"
	mov	x5, x0
	cmp	x0, x20
	mov	x6, x1
	b.eq	LBB109_5
LBB109_9:
	sub	x0, x29, #24
	mov	x1, x25
	mov	x2, x20
	mov	x3, x27
	mov	x4, x26
	bl	"_utf16_transcode::transcoding::transcode_many::<#824f73f0383279b7>"
	ldp	x9, x10, [x29, #-24]
	ldurb	w8, [x29, #-8]
	cmp	w8, #1
	add	x9, x9, x19
	add	x21, x10, x21
	b.ne	LBB109_21
	ldur	x8, [x29, #-48]
	sub	x8, x8, x21
	subs	x26, x8, #2
	b.lo	LBB109_47
	ldurb	w8, [x29, #-7]
	add	x28, x28, x21
	mov	w10, #65023
	strh	w10, [x28], #2
	mov	x2, x28
	add	x22, x9, x8
	sub	x8, x29, #28
	mov	x3, x26
	add	x0, x22, x8
	sub	x1, x24, x22
	add	x23, x22, x8
	sub	x19, x24, x22
	bl	"_utf16_transcode::items::write_items::<#8b18edd9dd9aa8df>"
	sub	x20, x19, x0
	mov	x25, x0
	mov	x27, x1
	cmp	x20, #64
	b.lo	LBB109_8
LBB109_12:
	sub	x24, x26, x27
	cmp	x24, #128
	b.lo	LBB109_8
	ldr	q0, [x23, x25]
	adrp	x8, lCPI109_0@PAGE
	ldr	q1, [x8, lCPI109_0@PAGEOFF]
	cmlt	v0.16b, v0.16b, #0
	and	v0.16b, v0.16b, v1.16b
	addp	v0.16b, v0.16b, v0.16b
	addp	v0.16b, v0.16b, v0.16b
	addp	v0.16b, v0.16b, v0.16b
	umov	w8, v0.h[0]
	cbz	w8, LBB109_15
	mov	x4, xzr
	sub	x8, x20, xzr
	lsl	x5, xzr, #1
	cmp	x8, #64
	b.hs	LBB109_16
	b	LBB109_18
LBB109_15:
	lsr	x8, x24, #1
	add	x0, x23, x25
	add	x2, x28, x27
	cmp	x8, x20
	csel	x1, x8, x20, lo
	bl	"_utf16_from_utf8::ascii::write_front::<#8b18edd9dd9aa8df>"
	mov	x4, x0
	sub	x8, x20, x0
	lsl	x5, x0, #1
	cmp	x8, #64
	b.lo	LBB109_18
LBB109_16:
	sub	x8, x24, x5
	cmp	x8, #128
	b.lo	LBB109_18
	add	x0, x23, x25
	add	x2, x28, x27
	sub	x3, x26, x27
	mov	x1, x20
	bl	"_utf16_from_utf8::blocks::write_mixed_blocks::<#8b18edd9dd9aa8df>"
	mov	x4, x0
	mov	x5, x1
LBB109_18:
	add	x25, x4, x25
	add	x27, x5, x27
	sub	x8, x19, x25
	cmp	x8, #4
	b.lo	LBB109_8
	sub	x8, x26, x27
	cmp	x8, #4
	b.lo	LBB109_8
	add	x0, x23, x25
	sub	x1, x19, x25
	add	x2, x28, x27
	sub	x3, x26, x27
	bl	"_utf16_transcode::items::write_items::<#8b18edd9dd9aa8df>"
	add	x25, x0, x25
	add	x27, x1, x27
	sub	x20, x19, x25
	cmp	x20, #63
	b.hi	LBB109_12
	b	LBB109_8
LBB109_21:
	ldp	x10, x27, [sp, #32]
	ldr	x23, [sp, #72]
	ldp	x22, x3, [sp, #48]
	ldr	x12, [sp, #24]
	add	x23, x21, x23
	add	x10, x9, x10
	cbz	x9, LBB109_70
	cmp	w8, #3
	b.eq	LBB109_48
LBB109_23:
	cmp	x10, x12
	b.lo	LBB109_3
	b	LBB109_53
LBB109_24:
	ldr	w10, [x0]
	stur	wzr, [x29, #-28]
	lsr	w9, w10, #24
	stp	wzr, w10, [x29, #-36]
	mov	w10, #3
	cmp	w9, #3
	csel	w12, w9, w10, lo
	str	x12, [sp, #24]
	cbz	w9, LBB109_55
	mov	x10, xzr
	mov	x23, xzr
LBB109_26:
	sub	x20, x12, x10
	mov	w8, #4
	sub	x9, x29, #32
	sub	x8, x8, x20
	sub	x0, x29, #24
	add	x1, x9, x10
	cmp	x8, x3
	sub	x2, x12, x10
	stur	wzr, [x29, #-24]
	csel	x19, x8, x3, lo
	str	x10, [sp, #32]
	sub	x21, x29, #24
	bl	_memcpy
	ldr	x1, [sp, #64]
	add	x0, x21, x20
	mov	x2, x19
	bl	_memcpy
	ldur	w8, [x29, #-24]
	add	x24, x19, x20
	sub	x0, x29, #28
	add	x2, x27, x23
	sub	x3, x22, x23
	mov	x1, x24
	stur	w8, [x29, #-28]
	sub	x8, x22, x23
	add	x28, x27, x23
	stp	xzr, xzr, [x29, #-24]
	stur	x8, [x29, #-48]
	stur	xzr, [x29, #-8]
	bl	"_utf16_transcode::encode::FromUtf8Direction::begin::<#418c2b53cf60437c>"
	mov	x6, x1
	cmp	x0, x24
	str	x23, [sp, #72]
	b.ne	LBB109_30
	mov	x19, xzr
	mov	x21, xzr
	mov	x20, x24
LBB109_28:
	ldr	x9, [sp, #72]
	ldr	x10, [sp, #32]
	adds	x8, x20, x19
	add	x9, x21, x9
	add	x10, x8, x10
	add	x23, x9, x6
	b.eq	LBB109_76
	ldp	x22, x3, [sp, #48]
	ldr	x27, [sp, #40]
	ldr	x12, [sp, #24]
	b	LBB109_46
LBB109_30:
	mov	x5, x0
	mov	x21, xzr
	mov	x19, xzr
	sub	x25, x29, #28
	sub	x26, x22, x23
	add	x27, x27, x23
	mov	x20, x24
	stp	x28, x24, [x29, #-64]
	b	LBB109_32
LBB109_31:
	add	x8, x21, x27
	add	x19, x25, x22
	stp	xzr, xzr, [x29, #-24]
	add	x21, x8, #2
	sub	x8, x29, #28
	stur	xzr, [x29, #-8]
	ldp	x28, x24, [x29, #-64]
	add	x25, x8, x19
	ldur	x8, [x29, #-48]
	mov	x0, x25
	sub	x20, x24, x19
	add	x27, x28, x21
	sub	x26, x8, x21
	mov	x1, x20
	mov	x2, x27
	mov	x3, x26
	bl	"_utf16_transcode::encode::FromUtf8Direction::begin::<#418c2b53cf60437c>"
	mov	x5, x0
	cmp	x0, x20
	mov	x6, x1
	b.eq	LBB109_28
LBB109_32:
	sub	x0, x29, #24
	mov	x1, x25
	mov	x2, x20
	mov	x3, x27
	mov	x4, x26
	bl	"_utf16_transcode::transcoding::transcode_many::<#58ba01604e1c9b81>"
	ldp	x9, x10, [x29, #-24]
	ldurb	w8, [x29, #-8]
	cmp	w8, #1
	add	x9, x9, x19
	add	x21, x10, x21
	b.ne	LBB109_44
	ldur	x8, [x29, #-48]
	sub	x8, x8, x21
	subs	x26, x8, #2
	b.lo	LBB109_47
	ldurb	w8, [x29, #-7]
	add	x28, x28, x21
	mov	w10, #65533
	strh	w10, [x28], #2
	mov	x2, x28
	add	x22, x9, x8
	sub	x8, x29, #28
	mov	x3, x26
	add	x0, x22, x8
	sub	x1, x24, x22
	add	x23, x22, x8
	sub	x19, x24, x22
	bl	"_utf16_transcode::items::write_items::<#418c2b53cf60437c>"
	sub	x20, x19, x0
	mov	x25, x0
	mov	x27, x1
	cmp	x20, #64
	b.lo	LBB109_31
LBB109_35:
	sub	x24, x26, x27
	cmp	x24, #128
	b.lo	LBB109_31
	ldr	q0, [x23, x25]
	adrp	x8, lCPI109_0@PAGE
	ldr	q1, [x8, lCPI109_0@PAGEOFF]
	cmlt	v0.16b, v0.16b, #0
	and	v0.16b, v0.16b, v1.16b
	addp	v0.16b, v0.16b, v0.16b
	addp	v0.16b, v0.16b, v0.16b
	addp	v0.16b, v0.16b, v0.16b
	umov	w8, v0.h[0]
	cbz	w8, LBB109_38
	mov	x4, xzr
	sub	x8, x20, xzr
	lsl	x5, xzr, #1
	cmp	x8, #64
	b.hs	LBB109_39
	b	LBB109_41
LBB109_38:
	lsr	x8, x24, #1
	add	x0, x23, x25
	add	x2, x28, x27
	cmp	x8, x20
	csel	x1, x8, x20, lo
	bl	"_utf16_from_utf8::ascii::write_front::<#418c2b53cf60437c>"
	mov	x4, x0
	sub	x8, x20, x0
	lsl	x5, x0, #1
	cmp	x8, #64
	b.lo	LBB109_41
LBB109_39:
	sub	x8, x24, x5
	cmp	x8, #128
	b.lo	LBB109_41
	add	x0, x23, x25
	add	x2, x28, x27
	sub	x3, x26, x27
	mov	x1, x20
	bl	"_utf16_from_utf8::blocks::write_mixed_blocks::<#418c2b53cf60437c>"
	mov	x4, x0
	mov	x5, x1
LBB109_41:
	add	x25, x4, x25
	add	x27, x5, x27
	sub	x8, x19, x25
	cmp	x8, #4
	b.lo	LBB109_31
	sub	x8, x26, x27
	cmp	x8, #4
	b.lo	LBB109_31
	add	x0, x23, x25
	sub	x1, x19, x25
	add	x2, x28, x27
	sub	x3, x26, x27
	bl	"_utf16_transcode::items::write_items::<#418c2b53cf60437c>"
	add	x25, x0, x25
	add	x27, x1, x27
	sub	x20, x19, x25
	cmp	x20, #63
	b.hi	LBB109_35
	b	LBB109_31
LBB109_44:
	ldp	x10, x27, [sp, #32]
	ldr	x23, [sp, #72]
	ldp	x22, x3, [sp, #48]
	ldr	x12, [sp, #24]
	add	x23, x21, x23
	add	x10, x9, x10
	cbz	x9, LBB109_73
	cmp	w8, #3
	b.eq	LBB109_48
LBB109_46:
	cmp	x10, x12
	b.lo	LBB109_26
	b	LBB109_56
LBB109_47:
	ldp	x12, x10, [sp, #24]
	ldr	x23, [sp, #72]
	add	x23, x21, x23
	add	x10, x9, x10
LBB109_48:
	cmp	x12, x10
	sub	x9, x29, #32
	csel	x8, x12, x10, lo
	subs	x10, x10, x12
	add	x1, x9, x8
	sub	x20, x12, x8
	csel	x21, xzr, x10, lo
LBB109_49:
	sub	x0, x29, #24
	mov	x2, x20
	sturb	wzr, [x29, #-22]
	sturh	wzr, [x29, #-24]
	bl	_memcpy
	ldurb	w8, [x29, #-22]
	ldurh	w9, [x29, #-24]
	orr	w8, w9, w8, lsl #16
	orr	w9, w8, w20, lsl #24
	mov	w8, #3
LBB109_50:
	ldr	x10, [sp, #8]
LBB109_51:
	str	w9, [x10]
	ldr	x9, [sp, #16]
	cmp	w8, #0
	mov	w8, #3
	csel	w8, wzr, w8, eq
	stp	x21, x23, [x9]
	stp	w8, wzr, [x9, #16]
	.cfi_def_cfa wsp, 240
	ldp	x20, x19, [sp, #224]
	ldp	x22, x21, [sp, #208]
	ldp	x24, x23, [sp, #192]
	ldp	x26, x25, [sp, #176]
	ldp	x28, x27, [sp, #160]
	ldp	x29, x30, [sp, #144]
	add	sp, sp, #240
	.cfi_def_cfa_offset 0
	.cfi_restore w19
	.cfi_restore w20
	.cfi_restore w21
	.cfi_restore w22
	.cfi_restore w23
	.cfi_restore w24
	.cfi_restore w25
	.cfi_restore w26
	.cfi_restore w27
	.cfi_restore w28
	.cfi_restore w30
	.cfi_restore w29
	ret
LBB109_52:
	.cfi_restore_state
	mov	x23, xzr
	mov	x10, xzr
LBB109_53:
	ldr	x9, [sp, #64]
	sub	x8, x10, x12
	add	x26, x27, x23
	sub	x24, x3, x8
	str	x23, [sp, #72]
	sub	x23, x22, x23
	add	x19, x9, x8
	mov	x1, x24
	mov	x2, x26
	mov	x0, x19
	mov	x3, x23
	str	x10, [sp, #32]
	stp	xzr, xzr, [x29, #-24]
	stur	xzr, [x29, #-8]
	bl	"_utf16_transcode::encode::FromUtf8Direction::begin::<#8b18edd9dd9aa8df>"
	mov	x6, x1
	cmp	x0, x24
	b.ne	LBB109_58
	mov	x21, xzr
	mov	x22, xzr
	mov	x20, x24
	b	LBB109_62
LBB109_55:
	mov	x23, xzr
	mov	x10, xzr
LBB109_56:
	ldr	x9, [sp, #64]
	sub	x8, x10, x12
	add	x26, x27, x23
	sub	x24, x3, x8
	str	x23, [sp, #72]
	sub	x23, x22, x23
	add	x25, x9, x8
	mov	x1, x24
	mov	x2, x26
	mov	x0, x25
	mov	x3, x23
	str	x10, [sp, #32]
	stp	xzr, xzr, [x29, #-24]
	stur	xzr, [x29, #-8]
	bl	"_utf16_transcode::encode::FromUtf8Direction::begin::<#418c2b53cf60437c>"
	mov	x6, x1
	cmp	x0, x24
	b.ne	LBB109_63
	mov	x21, xzr
	mov	x22, xzr
	mov	x20, x24
	b	LBB109_67
LBB109_58:
	mov	x5, x0
	mov	x22, xzr
	mov	x21, xzr
	mov	x27, x23
	mov	x28, x26
	mov	x20, x24
	mov	x25, x19
LBB109_59:
	sub	x0, x29, #24
	mov	x1, x25
	mov	x2, x20
	mov	x3, x28
	mov	x4, x27
	bl	"_utf16_transcode::transcoding::transcode_many::<#824f73f0383279b7>"
	ldp	x9, x10, [x29, #-24]
	ldurb	w8, [x29, #-8]
	cmp	w8, #1
	add	x21, x9, x21
	add	x20, x10, x22
	b.ne	LBB109_69
	sub	x8, x23, x20
	cmp	x8, #2
	b.lo	LBB109_68
	ldurb	w2, [x29, #-7]
	add	x0, x19, x21
	sub	x1, x24, x21
	add	x3, x26, x20
	sub	x4, x23, x20
	bl	"_utf16_transcode::encode_lossy::write_replacement_and_more::<#8b18edd9dd9aa8df>"
	add	x21, x0, x21
	add	x22, x1, x20
	stp	xzr, xzr, [x29, #-24]
	add	x25, x19, x21
	sub	x20, x24, x21
	add	x28, x26, x22
	sub	x27, x23, x22
	mov	x0, x25
	mov	x1, x20
	mov	x2, x28
	mov	x3, x27
	stur	xzr, [x29, #-8]
	bl	"_utf16_transcode::encode::FromUtf8Direction::begin::<#8b18edd9dd9aa8df>"
	mov	x5, x0
	cmp	x0, x20
	mov	x6, x1
	b.ne	LBB109_59
LBB109_62:
	mov	w8, wzr
	add	x21, x20, x21
	add	x20, x6, x22
	b	LBB109_69
LBB109_63:
	mov	x5, x0
	mov	x22, xzr
	mov	x21, xzr
	mov	x27, x23
	mov	x28, x26
	mov	x20, x24
	mov	x19, x25
LBB109_64:
	sub	x0, x29, #24
	mov	x1, x19
	mov	x2, x20
	mov	x3, x28
	mov	x4, x27
	bl	"_utf16_transcode::transcoding::transcode_many::<#58ba01604e1c9b81>"
	ldp	x9, x10, [x29, #-24]
	ldurb	w8, [x29, #-8]
	cmp	w8, #1
	add	x20, x9, x21
	add	x19, x10, x22
	b.ne	LBB109_72
	sub	x8, x23, x19
	cmp	x8, #2
	b.lo	LBB109_71
	ldurb	w2, [x29, #-7]
	add	x0, x25, x20
	sub	x1, x24, x20
	add	x3, x26, x19
	sub	x4, x23, x19
	bl	"_utf16_transcode::encode_lossy::write_replacement_and_more::<#418c2b53cf60437c>"
	add	x21, x0, x20
	add	x22, x1, x19
	stp	xzr, xzr, [x29, #-24]
	add	x19, x25, x21
	sub	x20, x24, x21
	add	x28, x26, x22
	sub	x27, x23, x22
	mov	x0, x19
	mov	x1, x20
	mov	x2, x28
	mov	x3, x27
	stur	xzr, [x29, #-8]
	bl	"_utf16_transcode::encode::FromUtf8Direction::begin::<#418c2b53cf60437c>"
	mov	x5, x0
	cmp	x0, x20
	mov	x6, x1
	b.ne	LBB109_64
LBB109_67:
	mov	w8, wzr
	add	x20, x20, x21
	add	x19, x6, x22
	b	LBB109_72
LBB109_68:
	mov	w8, #3
LBB109_69:
	ldp	x12, x10, [sp, #24]
	ldr	x23, [sp, #72]
	ldr	x3, [sp, #56]
	add	x23, x20, x23
	add	x10, x21, x10
LBB109_70:
	cmp	x12, x10
	sub	x11, x29, #32
	csel	x9, x12, x10, lo
	subs	x10, x10, x12
	csel	x21, xzr, x10, lo
	cmp	w8, #3
	add	x1, x11, x9
	sub	x20, x12, x9
	b.eq	LBB109_49
	b	LBB109_75
LBB109_71:
	mov	w8, #3
LBB109_72:
	ldp	x12, x10, [sp, #24]
	ldr	x23, [sp, #72]
	ldr	x3, [sp, #56]
	add	x23, x19, x23
	add	x10, x20, x10
LBB109_73:
	cmp	x12, x10
	sub	x11, x29, #32
	csel	x9, x12, x10, lo
	subs	x10, x10, x12
	csel	x21, xzr, x10, lo
	cmp	w8, #3
	add	x1, x11, x9
	sub	x20, x12, x9
	b.eq	LBB109_49
	b	LBB109_77
LBB109_74:
	ldr	x11, [sp, #24]
	sub	x9, x29, #32
	ldr	x3, [sp, #56]
	cmp	x11, x10
	csel	x8, x11, x10, lo
	subs	x10, x10, x11
	add	x1, x9, x8
	sub	x20, x11, x8
	csel	x21, xzr, x10, lo
LBB109_75:
	mov	w8, #4
	sub	x9, x3, x21
	sub	x0, x29, #24
	sub	x8, x8, x20
	mov	x2, x20
	stur	wzr, [x29, #-24]
	cmp	x8, x9
	sub	x22, x29, #24
	mov	x24, x3
	csel	x19, x8, x9, lo
	bl	_memcpy
	ldr	x8, [sp, #64]
	add	x0, x22, x20
	mov	x2, x19
	add	x1, x8, x21
	bl	_memcpy
	ldur	w8, [x29, #-24]
	add	x19, x19, x20
	sub	x0, x29, #24
	sub	x1, x29, #36
	mov	x2, x19
	sturb	wzr, [x29, #-22]
	stur	w8, [x29, #-36]
	sturh	wzr, [x29, #-24]
	bl	_memcpy
	ldurb	w9, [x29, #-22]
	ldurh	w10, [x29, #-24]
	mov	w8, wzr
	mov	x21, x24
	orr	w9, w10, w9, lsl #16
	ldr	x10, [sp, #8]
	orr	w9, w9, w19, lsl #24
	b	LBB109_51
LBB109_76:
	ldr	x11, [sp, #24]
	sub	x9, x29, #32
	ldr	x3, [sp, #56]
	cmp	x11, x10
	csel	x8, x11, x10, lo
	subs	x10, x10, x11
	add	x1, x9, x8
	sub	x20, x11, x8
	csel	x21, xzr, x10, lo
LBB109_77:
	mov	w8, #4
	sub	x9, x3, x21
	sub	x0, x29, #24
	sub	x8, x8, x20
	mov	x2, x20
	stur	wzr, [x29, #-24]
	cmp	x8, x9
	sub	x22, x29, #24
	mov	x24, x3
	csel	x19, x8, x9, lo
	bl	_memcpy
	ldr	x8, [sp, #64]
	add	x0, x22, x20
	mov	x2, x19
	add	x1, x8, x21
	bl	_memcpy
	ldur	w8, [x29, #-24]
	add	x19, x19, x20
	sub	x0, x29, #24
	sub	x1, x29, #36
	mov	x2, x19
	sturb	wzr, [x29, #-22]
	stur	w8, [x29, #-36]
	sturh	wzr, [x29, #-24]
	bl	_memcpy
	ldurb	w8, [x29, #-22]
	ldurh	w9, [x29, #-24]
	mov	x21, x24
	orr	w8, w9, w8, lsl #16
	orr	w9, w8, w19, lsl #24
	mov	w8, wzr
	b	LBB109_50
Lfunc_end109:
	.cfi_endproc

	.section	__TEXT,__text,regular,pure_instructions
	.globl	_dethrux_encoder_finish_aarch64
	.private_extern	_dethrux_encoder_finish_aarch64
	.p2align	2
_dethrux_encoder_finish_aarch64:
	.cfi_startproc
	hint	#34
	cmp	x2, #0
	mov	w9, #4096
	ldrb	w10, [x0, #3]
	csel	x9, x9, xzr, eq
	cmp	w1, #1
	b.ne	LBB110_4
	cbz	w10, LBB110_7
	cmp	x3, #2
	b.lo	LBB110_6
	mov	w10, #65023
	b	LBB110_9
LBB110_4:
	cbz	w10, LBB110_7
	cmp	x3, #2
	b.hs	LBB110_8
LBB110_6:
	mov	w10, #3
	stp	xzr, xzr, [x8]
	stp	w10, wzr, [x8, #16]
	ret
LBB110_7:
	str	wzr, [x0]
	stp	xzr, xzr, [x8]
	stp	wzr, wzr, [x8, #16]
	ret
LBB110_8:
	mov	w10, #65533
LBB110_9:
	strh	w10, [x2, x9]
	mov	w9, #2
	str	wzr, [x0]
	stp	xzr, x9, [x8]
	stp	wzr, wzr, [x8, #16]
	ret
Lfunc_end110:
	.cfi_endproc

	.section	__TEXT,__text,regular,pure_instructions
	.globl	_dethrux_from_latin1_aarch64
	.private_extern	_dethrux_from_latin1_aarch64
	.p2align	2
_dethrux_from_latin1_aarch64:
	.cfi_startproc
	hint	#34
	cmp	x1, #0
	mov	w9, #4096
	lsr	x10, x4, #1
	csel	x11, x9, xzr, eq
	cmp	x3, #0
	csel	x14, x9, xzr, eq
	cmp	x10, x2
	add	x12, x1, x11
	csel	x9, x10, x2, lo
	cmp	w0, #1
	add	x11, x3, x14
	b.ne	LBB111_5
	subs	x13, x9, #16
	b.lo	LBB111_9
	add	x14, x14, x3
	mov	x15, x12
	mov	x16, x9
	add	x14, x14, #16
LBB111_3:
	ldr	q0, [x15], #16
	sub	x16, x16, #16
	cmp	x16, #15
	shll	v1.8h, v0.8b, #8
	shll2	v0.8h, v0.16b, #8
	stp	q1, q0, [x14, #-16]
	add	x14, x14, #32
	b.hi	LBB111_3
	ldr	q0, [x12, x13]
	add	x11, x11, x13, lsl #1
	shll	v1.8h, v0.8b, #8
	shll2	v0.8h, v0.16b, #8
	stp	q1, q0, [x11]
	b	LBB111_11
LBB111_5:
	subs	x13, x9, #16
	b.lo	LBB111_13
	add	x14, x14, x3
	mov	x15, x12
	mov	x16, x9
	add	x14, x14, #16
LBB111_7:
	ldr	q0, [x15], #16
	sub	x16, x16, #16
	cmp	x16, #15
	ushll	v1.8h, v0.8b, #0
	ushll2	v0.8h, v0.16b, #0
	stp	q1, q0, [x14, #-16]
	add	x14, x14, #32
	b.hi	LBB111_7
	ldr	q0, [x12, x13]
	add	x11, x11, x13, lsl #1
	ushll	v1.8h, v0.8b, #0
	ushll2	v0.8h, v0.16b, #0
	stp	q1, q0, [x11]
	b	LBB111_15
LBB111_9:
	mov	x13, x9
	cbz	x9, LBB111_11
LBB111_10:
	ldrb	w14, [x12], #1
	subs	x13, x13, #1
	lsl	w14, w14, #8
	strh	w14, [x11], #2
	b.ne	LBB111_10
LBB111_11:
	lsl	x11, x9, #1
	cmp	x2, x10
	b.ls	LBB111_17
	mov	w10, #3
	stp	x9, x11, [x8]
	stp	w10, wzr, [x8, #16]
	ret
LBB111_13:
	mov	x13, x9
	cbz	x9, LBB111_15
LBB111_14:
	ldrb	w14, [x12], #1
	subs	x13, x13, #1
	strh	w14, [x11], #2
	b.ne	LBB111_14
LBB111_15:
	lsl	x11, x9, #1
	cmp	x2, x10
	b.ls	LBB111_17
	mov	w10, #3
	stp	x9, x11, [x8]
	stp	w10, wzr, [x8, #16]
	ret
LBB111_17:
	stp	x9, x11, [x8]
	stp	wzr, wzr, [x8, #16]
	ret
Lfunc_end111:
	.cfi_endproc

	.section	__TEXT,__text,regular,pure_instructions
	.globl	_dethrux_from_utf32_aarch64
	.private_extern	_dethrux_from_utf32_aarch64
	.p2align	2
_dethrux_from_utf32_aarch64:
	.cfi_startproc
	hint	#34
	sub	sp, sp, #64
	.cfi_def_cfa_offset 64
	stp	x29, x30, [sp, #32]
	str	x19, [sp, #48]
	add	x29, sp, #32
	.cfi_def_cfa w29, 32
	.cfi_offset w19, -16
	.cfi_offset w30, -24
	.cfi_offset w29, -32
	.cfi_remember_state
	cmp	x1, #0
	mov	w9, #4096
	mov	x19, x8
	csel	x8, x9, xzr, eq
	cmp	x3, #0
	stp	xzr, xzr, [sp]
	csel	x9, x9, xzr, eq
	cmp	w0, #1
	mov	x0, sp
	add	x1, x1, x8
	add	x3, x3, x9
	str	xzr, [sp, #16]
	b.ne	LBB112_5
	bl	"_utf16_fixed::encode::from_utf32::<#8b18edd9dd9aa8df>"
	ldrb	w8, [sp, #16]
	ldr	q0, [sp]
	cmp	w8, #1
	b.le	LBB112_6
LBB112_2:
	cmp	w8, #2
	b.ne	LBB112_8
	mov	w9, wzr
LBB112_4:
	str	q0, [x19]
	stp	w8, w9, [x19, #16]
	.cfi_def_cfa wsp, 64
	ldp	x29, x30, [sp, #32]
	ldr	x19, [sp, #48]
	add	sp, sp, #64
	.cfi_def_cfa_offset 0
	.cfi_restore w19
	.cfi_restore w30
	.cfi_restore w29
	ret
LBB112_5:
	.cfi_restore_state
	.cfi_remember_state
	bl	"_utf16_fixed::encode::from_utf32::<#418c2b53cf60437c>"
	ldrb	w8, [sp, #16]
	ldr	q0, [sp]
	cmp	w8, #1
	b.gt	LBB112_2
LBB112_6:
	mov	w9, w8
	cbz	w8, LBB112_4
	ldrb	w9, [sp, #17]
	mov	w8, #1
	str	q0, [x19]
	stp	w8, w9, [x19, #16]
	.cfi_def_cfa wsp, 64
	ldp	x29, x30, [sp, #32]
	ldr	x19, [sp, #48]
	add	sp, sp, #64
	.cfi_def_cfa_offset 0
	.cfi_restore w19
	.cfi_restore w30
	.cfi_restore w29
	ret
LBB112_8:
	.cfi_restore_state
	mov	w8, #3
	str	q0, [x19]
	stp	w8, wzr, [x19, #16]
	.cfi_def_cfa wsp, 64
	ldp	x29, x30, [sp, #32]
	ldr	x19, [sp, #48]
	add	sp, sp, #64
	.cfi_def_cfa_offset 0
	.cfi_restore w19
	.cfi_restore w30
	.cfi_restore w29
	ret
Lfunc_end112:
	.cfi_endproc

	.section	__TEXT,__text,regular,pure_instructions
	.globl	_dethrux_from_utf32_lossy_aarch64
	.private_extern	_dethrux_from_utf32_lossy_aarch64
	.p2align	2
_dethrux_from_utf32_lossy_aarch64:
	.cfi_startproc
	hint	#34
	sub	sp, sp, #112
	.cfi_def_cfa_offset 112
	stp	x29, x30, [sp, #32]
	str	x25, [sp, #48]
	stp	x24, x23, [sp, #64]
	stp	x22, x21, [sp, #80]
	stp	x20, x19, [sp, #96]
	add	x29, sp, #32
	.cfi_def_cfa w29, 80
	.cfi_offset w19, -8
	.cfi_offset w20, -16
	.cfi_offset w21, -24
	.cfi_offset w22, -32
	.cfi_offset w23, -40
	.cfi_offset w24, -48
	.cfi_offset w25, -64
	.cfi_offset w30, -72
	.cfi_offset w29, -80
	mov	x19, x8
	cmp	x1, #0
	mov	w8, #4096
	csel	x9, x8, xzr, eq
	cmp	x3, #0
	mov	x20, x4
	csel	x8, x8, xzr, eq
	mov	x21, x2
	cmp	w0, #1
	add	x22, x1, x9
	add	x23, x3, x8
	b.ne	LBB113_4
	add	x0, sp, #8
	mov	x1, x22
	mov	x2, x21
	mov	x3, x23
	mov	x4, x20
	stp	xzr, xzr, [sp, #8]
	str	xzr, [sp, #24]
	bl	"_utf16_fixed::encode::from_utf32::<#8b18edd9dd9aa8df>"
	ldrb	w10, [sp, #24]
	ldp	x9, x8, [sp, #8]
	cmp	w10, #1
	b.ne	LBB113_8
LBB113_2:
	sub	x10, x20, x8
	cmp	x10, #2
	b.lo	LBB113_7
	add	x24, x9, #1
	add	x25, x8, #2
	add	x0, sp, #8
	add	x1, x22, x24, lsl #2
	sub	x2, x21, x24
	add	x3, x23, x25
	sub	x4, x20, x25
	mov	w9, #65023
	strh	w9, [x23, x8]
	bl	"_utf16_fixed::encode::from_utf32::<#8b18edd9dd9aa8df>"
	ldp	x8, x11, [sp, #8]
	ldrb	w10, [sp, #24]
	cmp	w10, #1
	add	x9, x8, x24
	add	x8, x11, x25
	b.eq	LBB113_2
	b	LBB113_8
LBB113_4:
	add	x0, sp, #8
	mov	x1, x22
	mov	x2, x21
	mov	x3, x23
	mov	x4, x20
	stp	xzr, xzr, [sp, #8]
	str	xzr, [sp, #24]
	bl	"_utf16_fixed::encode::from_utf32::<#418c2b53cf60437c>"
	ldrb	w10, [sp, #24]
	ldp	x9, x8, [sp, #8]
	cmp	w10, #1
	b.ne	LBB113_8
LBB113_5:
	sub	x10, x20, x8
	cmp	x10, #2
	b.lo	LBB113_7
	add	x24, x9, #1
	add	x25, x8, #2
	add	x0, sp, #8
	add	x1, x22, x24, lsl #2
	sub	x2, x21, x24
	add	x3, x23, x25
	sub	x4, x20, x25
	mov	w9, #65533
	strh	w9, [x23, x8]
	bl	"_utf16_fixed::encode::from_utf32::<#418c2b53cf60437c>"
	ldp	x8, x11, [sp, #8]
	ldrb	w10, [sp, #24]
	cmp	w10, #1
	add	x9, x8, x24
	add	x8, x11, x25
	b.eq	LBB113_5
	b	LBB113_8
LBB113_7:
	mov	w10, #3
LBB113_8:
	adrp	x11, lswitch.table.dethrux_from_utf32_lossy@PAGE
	add	x11, x11, lswitch.table.dethrux_from_utf32_lossy@PAGEOFF
	stp	x9, x8, [x19]
	ldr	w10, [x11, w10, uxtw #2]
	stp	w10, wzr, [x19, #16]
	.cfi_def_cfa wsp, 112
	ldp	x20, x19, [sp, #96]
	ldr	x25, [sp, #48]
	ldp	x22, x21, [sp, #80]
	ldp	x24, x23, [sp, #64]
	ldp	x29, x30, [sp, #32]
	add	sp, sp, #112
	.cfi_def_cfa_offset 0
	.cfi_restore w19
	.cfi_restore w20
	.cfi_restore w21
	.cfi_restore w22
	.cfi_restore w23
	.cfi_restore w24
	.cfi_restore w25
	.cfi_restore w30
	.cfi_restore w29
	ret
Lfunc_end113:
	.cfi_endproc

	.section	__TEXT,__text,regular,pure_instructions
	.globl	_dethrux_from_utf8_aarch64
	.private_extern	_dethrux_from_utf8_aarch64
	.p2align	2
_dethrux_from_utf8_aarch64:
	.cfi_startproc
	hint	#34
	sub	sp, sp, #112
	.cfi_def_cfa_offset 112
	stp	x29, x30, [sp, #32]
	str	x25, [sp, #48]
	stp	x24, x23, [sp, #64]
	stp	x22, x21, [sp, #80]
	stp	x20, x19, [sp, #96]
	add	x29, sp, #32
	.cfi_def_cfa w29, 80
	.cfi_offset w19, -8
	.cfi_offset w20, -16
	.cfi_offset w21, -24
	.cfi_offset w22, -32
	.cfi_offset w23, -40
	.cfi_offset w24, -48
	.cfi_offset w25, -64
	.cfi_offset w30, -72
	.cfi_offset w29, -80
	.cfi_remember_state
	mov	w9, #4096
	cmp	x1, #0
	mov	x21, x4
	csel	x25, x9, xzr, eq
	cmp	x3, #0
	mov	x22, x3
	mov	x20, x2
	mov	x23, x1
	csel	x24, x9, xzr, eq
	cmp	w0, #1
	mov	x19, x8
	b.ne	LBB114_5
	add	x0, x23, x25
	add	x2, x22, x24
	mov	x1, x20
	mov	x3, x21
	stp	xzr, xzr, [sp, #8]
	str	xzr, [sp, #24]
	bl	"_utf16_transcode::encode::FromUtf8Direction::begin::<#8b18edd9dd9aa8df>"
	cmp	x0, x20
	mov	x6, x1
	b.eq	LBB114_6
	mov	x5, x0
	add	x0, sp, #8
	add	x1, x23, x25
	add	x3, x22, x24
	mov	x2, x20
	mov	x4, x21
	bl	"_utf16_transcode::transcoding::transcode_many::<#824f73f0383279b7>"
	ldrb	w8, [sp, #24]
	ldp	x20, x6, [sp, #8]
	cmp	w8, #1
	b.gt	LBB114_12
	cbnz	w8, LBB114_11
LBB114_4:
	mov	w9, w8
	b	LBB114_8
LBB114_5:
	add	x0, x23, x25
	add	x2, x22, x24
	mov	x1, x20
	mov	x3, x21
	stp	xzr, xzr, [sp, #8]
	str	xzr, [sp, #24]
	bl	"_utf16_transcode::encode::FromUtf8Direction::begin::<#418c2b53cf60437c>"
	cmp	x0, x20
	mov	x6, x1
	b.ne	LBB114_9
LBB114_6:
	mov	w8, wzr
LBB114_7:
	mov	w9, wzr
LBB114_8:
	stp	x20, x6, [x19]
	stp	w8, w9, [x19, #16]
	.cfi_def_cfa wsp, 112
	ldp	x20, x19, [sp, #96]
	ldr	x25, [sp, #48]
	ldp	x22, x21, [sp, #80]
	ldp	x24, x23, [sp, #64]
	ldp	x29, x30, [sp, #32]
	add	sp, sp, #112
	.cfi_def_cfa_offset 0
	.cfi_restore w19
	.cfi_restore w20
	.cfi_restore w21
	.cfi_restore w22
	.cfi_restore w23
	.cfi_restore w24
	.cfi_restore w25
	.cfi_restore w30
	.cfi_restore w29
	ret
LBB114_9:
	.cfi_restore_state
	mov	x5, x0
	add	x0, sp, #8
	add	x1, x23, x25
	add	x3, x22, x24
	mov	x2, x20
	mov	x4, x21
	bl	"_utf16_transcode::transcoding::transcode_many::<#58ba01604e1c9b81>"
	ldrb	w8, [sp, #24]
	ldp	x20, x6, [sp, #8]
	cmp	w8, #1
	b.gt	LBB114_12
	cbz	w8, LBB114_4
LBB114_11:
	ldrb	w9, [sp, #25]
	mov	w8, #1
	b	LBB114_8
LBB114_12:
	cmp	w8, #2
	b.eq	LBB114_7
	mov	w9, wzr
	mov	w8, #3
	b	LBB114_8
Lfunc_end114:
	.cfi_endproc

	.section	__TEXT,__text,regular,pure_instructions
	.globl	_dethrux_from_utf8_lossy_aarch64
	.private_extern	_dethrux_from_utf8_lossy_aarch64
	.p2align	2
_dethrux_from_utf8_lossy_aarch64:
	.cfi_startproc
	hint	#34
	sub	sp, sp, #128
	.cfi_def_cfa_offset 128
	stp	x29, x30, [sp, #32]
	stp	x28, x27, [sp, #48]
	stp	x26, x25, [sp, #64]
	stp	x24, x23, [sp, #80]
	stp	x22, x21, [sp, #96]
	stp	x20, x19, [sp, #112]
	add	x29, sp, #32
	.cfi_def_cfa w29, 96
	.cfi_offset w19, -8
	.cfi_offset w20, -16
	.cfi_offset w21, -24
	.cfi_offset w22, -32
	.cfi_offset w23, -40
	.cfi_offset w24, -48
	.cfi_offset w25, -56
	.cfi_offset w26, -64
	.cfi_offset w27, -72
	.cfi_offset w28, -80
	.cfi_offset w30, -88
	.cfi_offset w29, -96
	.cfi_remember_state
	str	x8, [sp]
	cmp	x1, #0
	mov	w8, #4096
	csel	x9, x8, xzr, eq
	cmp	x3, #0
	mov	x21, x4
	csel	x8, x8, xzr, eq
	mov	x20, x2
	cmp	w0, #1
	add	x23, x1, x9
	add	x22, x3, x8
	b.ne	LBB115_6
	mov	x0, x23
	mov	x1, x20
	mov	x2, x22
	mov	x3, x21
	stp	xzr, xzr, [sp, #8]
	str	xzr, [sp, #24]
	bl	"_utf16_transcode::encode::FromUtf8Direction::begin::<#8b18edd9dd9aa8df>"
	mov	x6, x1
	cmp	x0, x20
	b.eq	LBB115_7
	mov	x5, x0
	mov	x19, xzr
	mov	x28, xzr
	mov	x25, x21
	mov	x26, x22
	mov	x24, x20
	mov	x27, x23
LBB115_3:
	add	x0, sp, #8
	mov	x1, x27
	mov	x2, x24
	mov	x3, x26
	mov	x4, x25
	bl	"_utf16_transcode::transcoding::transcode_many::<#824f73f0383279b7>"
	ldp	x9, x10, [sp, #8]
	ldrb	w8, [sp, #24]
	cmp	w8, #1
	add	x25, x9, x28
	add	x24, x10, x19
	b.ne	LBB115_13
	sub	x8, x21, x24
	cmp	x8, #2
	b.lo	LBB115_22
	ldrb	w2, [sp, #25]
	add	x0, x23, x25
	sub	x1, x20, x25
	add	x3, x22, x24
	sub	x4, x21, x24
	bl	"_utf16_transcode::encode_lossy::write_replacement_and_more::<#8b18edd9dd9aa8df>"
	add	x28, x0, x25
	add	x19, x1, x24
	stp	xzr, xzr, [sp, #8]
	add	x27, x23, x28
	sub	x24, x20, x28
	add	x26, x22, x19
	sub	x25, x21, x19
	mov	x0, x27
	mov	x1, x24
	mov	x2, x26
	mov	x3, x25
	str	xzr, [sp, #24]
	bl	"_utf16_transcode::encode::FromUtf8Direction::begin::<#8b18edd9dd9aa8df>"
	mov	x5, x0
	cmp	x0, x24
	mov	x6, x1
	b.ne	LBB115_3
	b	LBB115_8
LBB115_6:
	mov	x0, x23
	mov	x1, x20
	mov	x2, x22
	mov	x3, x21
	stp	xzr, xzr, [sp, #8]
	str	xzr, [sp, #24]
	bl	"_utf16_transcode::encode::FromUtf8Direction::begin::<#418c2b53cf60437c>"
	mov	x6, x1
	cmp	x0, x20
	b.ne	LBB115_9
LBB115_7:
	mov	x28, xzr
	mov	x19, xzr
	mov	x24, x20
LBB115_8:
	mov	w8, wzr
	add	x25, x24, x28
	add	x24, x6, x19
	b	LBB115_23
LBB115_9:
	mov	x5, x0
	mov	x19, xzr
	mov	x28, xzr
	mov	x25, x21
	mov	x26, x22
	mov	x24, x20
	mov	x27, x23
LBB115_10:
	add	x0, sp, #8
	mov	x1, x27
	mov	x2, x24
	mov	x3, x26
	mov	x4, x25
	bl	"_utf16_transcode::transcoding::transcode_many::<#58ba01604e1c9b81>"
	ldp	x9, x10, [sp, #8]
	ldrb	w8, [sp, #24]
	cmp	w8, #1
	add	x25, x9, x28
	add	x24, x10, x19
	b.ne	LBB115_17
	sub	x8, x21, x24
	cmp	x8, #2
	b.lo	LBB115_22
	ldrb	w2, [sp, #25]
	add	x0, x23, x25
	sub	x1, x20, x25
	add	x3, x22, x24
	sub	x4, x21, x24
	bl	"_utf16_transcode::encode_lossy::write_replacement_and_more::<#418c2b53cf60437c>"
	add	x28, x0, x25
	add	x19, x1, x24
	stp	xzr, xzr, [sp, #8]
	add	x27, x23, x28
	sub	x24, x20, x28
	add	x26, x22, x19
	sub	x25, x21, x19
	mov	x0, x27
	mov	x1, x24
	mov	x2, x26
	mov	x3, x25
	str	xzr, [sp, #24]
	bl	"_utf16_transcode::encode::FromUtf8Direction::begin::<#418c2b53cf60437c>"
	mov	x5, x0
	cmp	x0, x24
	mov	x6, x1
	b.ne	LBB115_10
	b	LBB115_8
LBB115_13:
	cmp	w8, #2
	b.ne	LBB115_20
	cmp	x20, x25
	b.eq	LBB115_19
	sub	x8, x21, x24
	cmp	x8, #2
	b.lo	LBB115_22
	mov	w8, wzr
	add	x9, x24, #2
	mov	w10, #65023
	b	LBB115_25
LBB115_17:
	cmp	w8, #2
	b.ne	LBB115_20
	cmp	x20, x25
	b.ne	LBB115_21
LBB115_19:
	mov	w8, wzr
	mov	x25, x20
	b	LBB115_23
LBB115_20:
	cmp	w8, #0
	mov	w8, #3
	csel	w8, wzr, w8, eq
	b	LBB115_23
LBB115_21:
	sub	x8, x21, x24
	cmp	x8, #2
	b.hs	LBB115_24
LBB115_22:
	mov	w8, #3
LBB115_23:
	ldr	x9, [sp]
	stp	x25, x24, [x9]
	stp	w8, wzr, [x9, #16]
	.cfi_def_cfa wsp, 128
	ldp	x20, x19, [sp, #112]
	ldp	x22, x21, [sp, #96]
	ldp	x24, x23, [sp, #80]
	ldp	x26, x25, [sp, #64]
	ldp	x28, x27, [sp, #48]
	ldp	x29, x30, [sp, #32]
	add	sp, sp, #128
	.cfi_def_cfa_offset 0
	.cfi_restore w19
	.cfi_restore w20
	.cfi_restore w21
	.cfi_restore w22
	.cfi_restore w23
	.cfi_restore w24
	.cfi_restore w25
	.cfi_restore w26
	.cfi_restore w27
	.cfi_restore w28
	.cfi_restore w30
	.cfi_restore w29
	ret
LBB115_24:
	.cfi_restore_state
	mov	w8, wzr
	add	x9, x24, #2
	mov	w10, #65533
LBB115_25:
	strh	w10, [x22, x24]
	mov	x24, x9
	mov	x25, x20
	b	LBB115_23
Lfunc_end115:
	.cfi_endproc

	.section	__TEXT,__text,regular,pure_instructions
	.globl	_dethrux_from_utf8_partial_aarch64
	.private_extern	_dethrux_from_utf8_partial_aarch64
	.p2align	2
_dethrux_from_utf8_partial_aarch64:
	.cfi_startproc
	hint	#34
	sub	sp, sp, #128
	.cfi_def_cfa_offset 128
	stp	x29, x30, [sp, #32]
	stp	x28, x27, [sp, #48]
	stp	x26, x25, [sp, #64]
	stp	x24, x23, [sp, #80]
	stp	x22, x21, [sp, #96]
	stp	x20, x19, [sp, #112]
	add	x29, sp, #32
	.cfi_def_cfa w29, 96
	.cfi_offset w19, -8
	.cfi_offset w20, -16
	.cfi_offset w21, -24
	.cfi_offset w22, -32
	.cfi_offset w23, -40
	.cfi_offset w24, -48
	.cfi_offset w25, -56
	.cfi_offset w26, -64
	.cfi_offset w27, -72
	.cfi_offset w28, -80
	.cfi_offset w30, -88
	.cfi_offset w29, -96
	cmp	x1, #0
	mov	w10, #4096
	mov	x21, x4
	csel	x9, x10, xzr, eq
	cmp	x3, #0
	mov	x20, x2
	csel	x10, x10, xzr, eq
	cmp	w0, #1
	add	x22, x1, x9
	add	x23, x3, x10
	str	x8, [sp]
	b.ne	LBB116_6
	mov	x0, x22
	mov	x1, x20
	mov	x2, x23
	mov	x3, x21
	stp	xzr, xzr, [sp, #8]
	str	xzr, [sp, #24]
	bl	"_utf16_transcode::encode::FromUtf8Direction::begin::<#8b18edd9dd9aa8df>"
	mov	x6, x1
	cmp	x0, x20
	b.eq	LBB116_7
	mov	x5, x0
	mov	x19, xzr
	mov	x28, xzr
	mov	x25, x21
	mov	x26, x23
	mov	x24, x20
	mov	x27, x22
LBB116_3:
	add	x0, sp, #8
	mov	x1, x27
	mov	x2, x24
	mov	x3, x26
	mov	x4, x25
	bl	"_utf16_transcode::transcoding::transcode_many::<#824f73f0383279b7>"
	ldp	x9, x10, [sp, #8]
	ldrb	w8, [sp, #24]
	cmp	w8, #1
	add	x24, x9, x28
	add	x25, x10, x19
	b.ne	LBB116_13
	sub	x8, x21, x25
	cmp	x8, #2
	b.lo	LBB116_16
	ldrb	w2, [sp, #25]
	add	x0, x22, x24
	sub	x1, x20, x24
	add	x3, x23, x25
	sub	x4, x21, x25
	bl	"_utf16_transcode::encode_lossy::write_replacement_and_more::<#8b18edd9dd9aa8df>"
	add	x28, x0, x24
	add	x19, x1, x25
	stp	xzr, xzr, [sp, #8]
	add	x27, x22, x28
	sub	x24, x20, x28
	add	x26, x23, x19
	sub	x25, x21, x19
	mov	x0, x27
	mov	x1, x24
	mov	x2, x26
	mov	x3, x25
	str	xzr, [sp, #24]
	bl	"_utf16_transcode::encode::FromUtf8Direction::begin::<#8b18edd9dd9aa8df>"
	mov	x5, x0
	cmp	x0, x24
	mov	x6, x1
	b.ne	LBB116_3
	b	LBB116_8
LBB116_6:
	mov	x0, x22
	mov	x1, x20
	mov	x2, x23
	mov	x3, x21
	stp	xzr, xzr, [sp, #8]
	str	xzr, [sp, #24]
	bl	"_utf16_transcode::encode::FromUtf8Direction::begin::<#418c2b53cf60437c>"
	mov	x6, x1
	cmp	x0, x20
	b.ne	LBB116_9
LBB116_7:
	mov	x28, xzr
	mov	x19, xzr
	mov	x24, x20
LBB116_8:
	ldr	x9, [sp]
	mov	w8, wzr
	add	x24, x24, x28
	add	x25, x6, x19
	b	LBB116_17
LBB116_9:
	mov	x5, x0
	mov	x19, xzr
	mov	x28, xzr
	mov	x25, x21
	mov	x26, x23
	mov	x24, x20
	mov	x27, x22
LBB116_10:
	add	x0, sp, #8
	mov	x1, x27
	mov	x2, x24
	mov	x3, x26
	mov	x4, x25
	bl	"_utf16_transcode::transcoding::transcode_many::<#58ba01604e1c9b81>"
	ldp	x9, x10, [sp, #8]
	ldrb	w8, [sp, #24]
	cmp	w8, #1
	add	x24, x9, x28
	add	x25, x10, x19
	b.ne	LBB116_13
	sub	x8, x21, x25
	cmp	x8, #2
	b.lo	LBB116_16
	ldrb	w2, [sp, #25]
	add	x0, x22, x24
	sub	x1, x20, x24
	add	x3, x23, x25
	sub	x4, x21, x25
	bl	"_utf16_transcode::encode_lossy::write_replacement_and_more::<#418c2b53cf60437c>"
	add	x28, x0, x24
	add	x19, x1, x25
	stp	xzr, xzr, [sp, #8]
	add	x27, x22, x28
	sub	x24, x20, x28
	add	x26, x23, x19
	sub	x25, x21, x19
	mov	x0, x27
	mov	x1, x24
	mov	x2, x26
	mov	x3, x25
	str	xzr, [sp, #24]
	bl	"_utf16_transcode::encode::FromUtf8Direction::begin::<#418c2b53cf60437c>"
	mov	x5, x0
	cmp	x0, x24
	mov	x6, x1
	b.ne	LBB116_10
	b	LBB116_8
LBB116_13:
	ldr	x9, [sp]
	cbz	w8, LBB116_17
	cmp	w8, #3
	b.eq	LBB116_17
	mov	w8, #2
	b	LBB116_17
LBB116_16:
	ldr	x9, [sp]
	mov	w8, #3
LBB116_17:
	stp	x24, x25, [x9]
	stp	w8, wzr, [x9, #16]
	.cfi_def_cfa wsp, 128
	ldp	x20, x19, [sp, #112]
	ldp	x22, x21, [sp, #96]
	ldp	x24, x23, [sp, #80]
	ldp	x26, x25, [sp, #64]
	ldp	x28, x27, [sp, #48]
	ldp	x29, x30, [sp, #32]
	add	sp, sp, #128
	.cfi_def_cfa_offset 0
	.cfi_restore w19
	.cfi_restore w20
	.cfi_restore w21
	.cfi_restore w22
	.cfi_restore w23
	.cfi_restore w24
	.cfi_restore w25
	.cfi_restore w26
	.cfi_restore w27
	.cfi_restore w28
	.cfi_restore w30
	.cfi_restore w29
	ret
Lfunc_end116:
	.cfi_endproc

	.section	__TEXT,__text,regular,pure_instructions
	.globl	_dethrux_from_wtf8_aarch64
	.private_extern	_dethrux_from_wtf8_aarch64
	.p2align	2
_dethrux_from_wtf8_aarch64:
	.cfi_startproc
	hint	#34
	sub	sp, sp, #64
	.cfi_def_cfa_offset 64
	stp	x29, x30, [sp, #32]
	str	x19, [sp, #48]
	add	x29, sp, #32
	.cfi_def_cfa w29, 32
	.cfi_offset w19, -16
	.cfi_offset w30, -24
	.cfi_offset w29, -32
	.cfi_remember_state
	movi	v0.2d, #0000000000000000
	mov	w9, #4096
	cmp	x1, #0
	csel	x10, x9, xzr, eq
	cmp	x3, #0
	mov	x19, x8
	csel	x9, x9, xzr, eq
	cmp	w0, #1
	b.ne	LBB117_5
	mov	x0, sp
	add	x1, x1, x10
	add	x3, x3, x9
	stp	q0, q0, [sp]
	bl	"_utf16_wtf8::encode::transcode_wtf8::<#8b18edd9dd9aa8df>"
	ldrb	w8, [sp, #16]
	ldr	q0, [sp]
	ldrb	w9, [sp, #17]
	cmp	w8, #1
	b.le	LBB117_6
LBB117_2:
	cmp	w8, #2
	b.ne	LBB117_8
	mov	w10, wzr
LBB117_4:
	str	q0, [x19]
	stp	w8, w10, [x19, #16]
	.cfi_def_cfa wsp, 64
	ldp	x29, x30, [sp, #32]
	ldr	x19, [sp, #48]
	add	sp, sp, #64
	.cfi_def_cfa_offset 0
	.cfi_restore w19
	.cfi_restore w30
	.cfi_restore w29
	ret
LBB117_5:
	.cfi_restore_state
	.cfi_remember_state
	mov	x0, sp
	add	x1, x1, x10
	add	x3, x3, x9
	stp	q0, q0, [sp]
	bl	"_utf16_wtf8::encode::transcode_wtf8::<#418c2b53cf60437c>"
	ldrb	w8, [sp, #16]
	ldr	q0, [sp]
	ldrb	w9, [sp, #17]
	cmp	w8, #1
	b.gt	LBB117_2
LBB117_6:
	mov	w10, w8
	cbz	w8, LBB117_4
	mov	w8, #1
	str	q0, [x19]
	stp	w8, w9, [x19, #16]
	.cfi_def_cfa wsp, 64
	ldp	x29, x30, [sp, #32]
	ldr	x19, [sp, #48]
	add	sp, sp, #64
	.cfi_def_cfa_offset 0
	.cfi_restore w19
	.cfi_restore w30
	.cfi_restore w29
	ret
LBB117_8:
	.cfi_restore_state
	mov	w8, #3
	str	q0, [x19]
	stp	w8, wzr, [x19, #16]
	.cfi_def_cfa wsp, 64
	ldp	x29, x30, [sp, #32]
	ldr	x19, [sp, #48]
	add	sp, sp, #64
	.cfi_def_cfa_offset 0
	.cfi_restore w19
	.cfi_restore w30
	.cfi_restore w29
	ret
Lfunc_end117:
	.cfi_endproc

	.section	__TEXT,__literal16,16byte_literals
	.p2align	4, 0x0
lCPI118_0:
	.xword	-3
	.xword	-2
	.section	__TEXT,__text,regular,pure_instructions
	.globl	_dethrux_from_wtf8_partial_aarch64
	.private_extern	_dethrux_from_wtf8_partial_aarch64
	.p2align	2
_dethrux_from_wtf8_partial_aarch64:
	.cfi_startproc
	hint	#34
	sub	sp, sp, #64
	.cfi_def_cfa_offset 64
	stp	x29, x30, [sp, #32]
	str	x19, [sp, #48]
	add	x29, sp, #32
	.cfi_def_cfa w29, 32
	.cfi_offset w19, -16
	.cfi_offset w30, -24
	.cfi_offset w29, -32
	.cfi_remember_state
	movi	v0.2d, #0000000000000000
	mov	w9, #4096
	cmp	x1, #0
	csel	x10, x9, xzr, eq
	cmp	x3, #0
	mov	x19, x8
	csel	x9, x9, xzr, eq
	cmp	w0, #1
	b.ne	LBB118_4
	mov	x0, sp
	add	x1, x1, x10
	add	x3, x3, x9
	stp	q0, q0, [sp]
	bl	"_utf16_wtf8::encode::transcode_wtf8::<#8b18edd9dd9aa8df>"
	ldrb	w10, [sp, #24]
	ldr	q0, [sp]
	ldrb	w8, [sp, #16]
	ldrb	w9, [sp, #17]
	cmp	w10, #1
	b.ne	LBB118_8
	cmp	w8, #1
	b.gt	LBB118_6
LBB118_3:
	cbz	w8, LBB118_7
	b	LBB118_8
LBB118_4:
	mov	x0, sp
	add	x1, x1, x10
	add	x3, x3, x9
	stp	q0, q0, [sp]
	bl	"_utf16_wtf8::encode::transcode_wtf8::<#418c2b53cf60437c>"
	ldrb	w10, [sp, #24]
	ldr	q0, [sp]
	ldrb	w8, [sp, #16]
	ldrb	w9, [sp, #17]
	cmp	w10, #1
	b.ne	LBB118_8
	cmp	w8, #1
	b.le	LBB118_3
LBB118_6:
	cmp	w8, #3
	b.eq	LBB118_8
LBB118_7:
	adrp	x8, lCPI118_0@PAGE
	mov	w9, wzr
	ldr	q1, [x8, lCPI118_0@PAGEOFF]
	mov	w8, #2
	add	v0.2d, v0.2d, v1.2d
LBB118_8:
	cmp	w8, #1
	b.gt	LBB118_12
	mov	w10, w8
	cbz	w8, LBB118_11
	mov	w8, #1
	mov	w10, w9
LBB118_11:
	str	q0, [x19]
	stp	w8, w10, [x19, #16]
	.cfi_def_cfa wsp, 64
	ldp	x29, x30, [sp, #32]
	ldr	x19, [sp, #48]
	add	sp, sp, #64
	.cfi_def_cfa_offset 0
	.cfi_restore w19
	.cfi_restore w30
	.cfi_restore w29
	ret
LBB118_12:
	.cfi_restore_state
	.cfi_remember_state
	cmp	w8, #2
	b.ne	LBB118_14
	str	q0, [x19]
	stp	w8, wzr, [x19, #16]
	.cfi_def_cfa wsp, 64
	ldp	x29, x30, [sp, #32]
	ldr	x19, [sp, #48]
	add	sp, sp, #64
	.cfi_def_cfa_offset 0
	.cfi_restore w19
	.cfi_restore w30
	.cfi_restore w29
	ret
LBB118_14:
	.cfi_restore_state
	mov	w8, #3
	str	q0, [x19]
	stp	w8, wzr, [x19, #16]
	.cfi_def_cfa wsp, 64
	ldp	x29, x30, [sp, #32]
	ldr	x19, [sp, #48]
	add	sp, sp, #64
	.cfi_def_cfa_offset 0
	.cfi_restore w19
	.cfi_restore w30
	.cfi_restore w29
	ret
Lfunc_end118:
	.cfi_endproc

	.section	__TEXT,__text,regular,pure_instructions
	.globl	_dethrux_to_utf32_aarch64
	.private_extern	_dethrux_to_utf32_aarch64
	.p2align	2
_dethrux_to_utf32_aarch64:
	.cfi_startproc
	hint	#34
	sub	sp, sp, #64
	.cfi_def_cfa_offset 64
	stp	x29, x30, [sp, #32]
	str	x19, [sp, #48]
	add	x29, sp, #32
	.cfi_def_cfa w29, 32
	.cfi_offset w19, -16
	.cfi_offset w30, -24
	.cfi_offset w29, -32
	.cfi_remember_state
	cmp	x1, #0
	mov	w9, #4096
	mov	x19, x8
	csel	x8, x9, xzr, eq
	cmp	x3, #0
	stp	xzr, xzr, [sp]
	csel	x9, x9, xzr, eq
	cmp	w0, #1
	mov	x0, sp
	add	x1, x1, x8
	add	x3, x3, x9
	str	xzr, [sp, #16]
	b.ne	LBB119_5
	bl	"_utf16_fixed::decode::to_utf32::<#8b18edd9dd9aa8df>"
	ldrb	w8, [sp, #16]
	ldr	q0, [sp]
	cmp	w8, #1
	b.le	LBB119_6
LBB119_2:
	cmp	w8, #2
	b.ne	LBB119_8
	mov	w9, wzr
LBB119_4:
	str	q0, [x19]
	stp	w8, w9, [x19, #16]
	.cfi_def_cfa wsp, 64
	ldp	x29, x30, [sp, #32]
	ldr	x19, [sp, #48]
	add	sp, sp, #64
	.cfi_def_cfa_offset 0
	.cfi_restore w19
	.cfi_restore w30
	.cfi_restore w29
	ret
LBB119_5:
	.cfi_restore_state
	.cfi_remember_state
	bl	"_utf16_fixed::decode::to_utf32::<#418c2b53cf60437c>"
	ldrb	w8, [sp, #16]
	ldr	q0, [sp]
	cmp	w8, #1
	b.gt	LBB119_2
LBB119_6:
	mov	w9, w8
	cbz	w8, LBB119_4
	ldrb	w9, [sp, #17]
	mov	w8, #1
	str	q0, [x19]
	stp	w8, w9, [x19, #16]
	.cfi_def_cfa wsp, 64
	ldp	x29, x30, [sp, #32]
	ldr	x19, [sp, #48]
	add	sp, sp, #64
	.cfi_def_cfa_offset 0
	.cfi_restore w19
	.cfi_restore w30
	.cfi_restore w29
	ret
LBB119_8:
	.cfi_restore_state
	mov	w8, #3
	str	q0, [x19]
	stp	w8, wzr, [x19, #16]
	.cfi_def_cfa wsp, 64
	ldp	x29, x30, [sp, #32]
	ldr	x19, [sp, #48]
	add	sp, sp, #64
	.cfi_def_cfa_offset 0
	.cfi_restore w19
	.cfi_restore w30
	.cfi_restore w29
	ret
Lfunc_end119:
	.cfi_endproc

	.section	__TEXT,__text,regular,pure_instructions
	.globl	_dethrux_to_utf32_lossy_aarch64
	.private_extern	_dethrux_to_utf32_lossy_aarch64
	.p2align	2
_dethrux_to_utf32_lossy_aarch64:
	.cfi_startproc
	hint	#34
	sub	sp, sp, #112
	.cfi_def_cfa_offset 112
	stp	x29, x30, [sp, #32]
	str	x25, [sp, #48]
	stp	x24, x23, [sp, #64]
	stp	x22, x21, [sp, #80]
	stp	x20, x19, [sp, #96]
	add	x29, sp, #32
	.cfi_def_cfa w29, 80
	.cfi_offset w19, -8
	.cfi_offset w20, -16
	.cfi_offset w21, -24
	.cfi_offset w22, -32
	.cfi_offset w23, -40
	.cfi_offset w24, -48
	.cfi_offset w25, -64
	.cfi_offset w30, -72
	.cfi_offset w29, -80
	mov	x19, x8
	cmp	x1, #0
	mov	w8, #4096
	csel	x9, x8, xzr, eq
	cmp	x3, #0
	mov	x20, x4
	csel	x8, x8, xzr, eq
	mov	x21, x2
	cmp	w0, #1
	add	x23, x1, x9
	add	x22, x3, x8
	b.ne	LBB120_6
	add	x0, sp, #8
	mov	x1, x23
	mov	x2, x21
	mov	x3, x22
	mov	x4, x20
	stp	xzr, xzr, [sp, #8]
	str	xzr, [sp, #24]
	bl	"_utf16_fixed::decode::to_utf32::<#8b18edd9dd9aa8df>"
	ldrb	w10, [sp, #24]
	ldp	x8, x9, [sp, #8]
	cmp	w10, #1
	b.ne	LBB120_4
LBB120_2:
	cmp	x9, x20
	b.eq	LBB120_11
	ldrb	w10, [sp, #25]
	add	x24, x9, #1
	add	x0, sp, #8
	add	x3, x22, x24, lsl #2
	sub	x4, x20, x24
	mov	w11, #65533
	add	x25, x8, x10
	str	w11, [x22, x9, lsl #2]
	add	x1, x23, x25
	sub	x2, x21, x25
	bl	"_utf16_fixed::decode::to_utf32::<#8b18edd9dd9aa8df>"
	ldp	x8, x9, [sp, #8]
	ldrb	w10, [sp, #24]
	cmp	w10, #1
	add	x8, x8, x25
	add	x9, x9, x24
	b.eq	LBB120_2
LBB120_4:
	cmp	w10, #2
	b.ne	LBB120_12
	cmp	x9, x20
	b.ne	LBB120_13
	b	LBB120_11
LBB120_6:
	add	x0, sp, #8
	mov	x1, x23
	mov	x2, x21
	mov	x3, x22
	mov	x4, x20
	stp	xzr, xzr, [sp, #8]
	str	xzr, [sp, #24]
	bl	"_utf16_fixed::decode::to_utf32::<#418c2b53cf60437c>"
	ldrb	w10, [sp, #24]
	ldp	x8, x9, [sp, #8]
	cmp	w10, #1
	b.ne	LBB120_9
LBB120_7:
	cmp	x9, x20
	b.eq	LBB120_11
	ldrb	w10, [sp, #25]
	add	x24, x9, #1
	add	x0, sp, #8
	add	x3, x22, x24, lsl #2
	sub	x4, x20, x24
	mov	w11, #65533
	add	x25, x8, x10
	str	w11, [x22, x9, lsl #2]
	add	x1, x23, x25
	sub	x2, x21, x25
	bl	"_utf16_fixed::decode::to_utf32::<#418c2b53cf60437c>"
	ldp	x8, x9, [sp, #8]
	ldrb	w10, [sp, #24]
	cmp	w10, #1
	add	x8, x8, x25
	add	x9, x9, x24
	b.eq	LBB120_7
LBB120_9:
	cmp	w10, #2
	b.ne	LBB120_12
	cmp	x9, x20
	b.ne	LBB120_13
LBB120_11:
	mov	w10, #3
	b	LBB120_14
LBB120_12:
	cmp	w10, #0
	mov	w10, #3
	mov	x20, x9
	csel	w10, wzr, w10, eq
	b	LBB120_14
LBB120_13:
	mov	w8, #65533
	mov	w10, wzr
	str	w8, [x22, x9, lsl #2]
	add	x20, x9, #1
	mov	x8, x21
LBB120_14:
	stp	x8, x20, [x19]
	stp	w10, wzr, [x19, #16]
	.cfi_def_cfa wsp, 112
	ldp	x20, x19, [sp, #96]
	ldr	x25, [sp, #48]
	ldp	x22, x21, [sp, #80]
	ldp	x24, x23, [sp, #64]
	ldp	x29, x30, [sp, #32]
	add	sp, sp, #112
	.cfi_def_cfa_offset 0
	.cfi_restore w19
	.cfi_restore w20
	.cfi_restore w21
	.cfi_restore w22
	.cfi_restore w23
	.cfi_restore w24
	.cfi_restore w25
	.cfi_restore w30
	.cfi_restore w29
	ret
Lfunc_end120:
	.cfi_endproc

	.section	__TEXT,__text,regular,pure_instructions
	.globl	_dethrux_to_utf8_aarch64
	.private_extern	_dethrux_to_utf8_aarch64
	.p2align	2
_dethrux_to_utf8_aarch64:
	.cfi_startproc
	hint	#34
	sub	sp, sp, #112
	.cfi_def_cfa_offset 112
	stp	x29, x30, [sp, #32]
	str	x25, [sp, #48]
	stp	x24, x23, [sp, #64]
	stp	x22, x21, [sp, #80]
	stp	x20, x19, [sp, #96]
	add	x29, sp, #32
	.cfi_def_cfa w29, 80
	.cfi_offset w19, -8
	.cfi_offset w20, -16
	.cfi_offset w21, -24
	.cfi_offset w22, -32
	.cfi_offset w23, -40
	.cfi_offset w24, -48
	.cfi_offset w25, -64
	.cfi_offset w30, -72
	.cfi_offset w29, -80
	.cfi_remember_state
	mov	x19, x8
	cmp	x1, #0
	mov	w8, #4096
	csel	x9, x8, xzr, eq
	cmp	x3, #0
	mov	x21, x4
	csel	x8, x8, xzr, eq
	cmp	w0, #1
	add	x23, x1, x9
	add	x22, x3, x8
	sub	x8, x2, #16
	b.ne	LBB121_9
	cmp	x8, #175
	stp	xzr, xzr, [sp, #8]
	str	xzr, [sp, #24]
	b.hi	LBB121_17
	lsr	x8, x2, #1
	cmp	x21, x8
	csel	x8, x21, x8, lo
	cmp	x8, #8
	b.lo	LBB121_17
	lsl	x9, x8, #1
	mov	x24, xzr
	mov	x20, xzr
	mov	x10, x9
LBB121_4:
	ldr	q0, [x23, x24]
	movi	v1.8h, #127
	rev16	v0.16b, v0.16b
	cmhi	v1.8h, v0.8h, v1.8h
	umaxv	h1, v1.8h
	fmov	w11, s1
	tbnz	w11, #0, LBB121_18
	sqxtun	v0.8b, v0.8h
	sub	x10, x10, #16
	add	x24, x24, #16
	cmp	x10, #15
	str	d0, [x22, x20]
	add	x20, x20, #8
	b.hi	LBB121_4
	cmp	x9, x24
	b.ls	LBB121_18
	add	x10, x23, x9
	movi	v1.8h, #127
	ldur	q0, [x10, #-16]
	rev16	v0.16b, v0.16b
	cmhi	v1.8h, v0.8h, v1.8h
	umaxv	h1, v1.8h
	fmov	w10, s1
	tbnz	w10, #0, LBB121_18
	sqxtun	v0.8b, v0.8h
	add	x10, x22, x8
	mov	x20, x8
	mov	x24, x9
	stur	d0, [x10, #-8]
	b	LBB121_18
LBB121_9:
	cmp	x8, #175
	stp	xzr, xzr, [sp, #8]
	str	xzr, [sp, #24]
	b.hi	LBB121_26
	lsr	x8, x2, #1
	cmp	x21, x8
	csel	x8, x21, x8, lo
	cmp	x8, #8
	b.lo	LBB121_26
	lsl	x9, x8, #1
	mov	x24, xzr
	mov	x20, xzr
	mov	x10, x9
LBB121_12:
	movi	v1.8h, #127
	ldr	q0, [x23, x24]
	cmhi	v1.8h, v0.8h, v1.8h
	umaxv	h1, v1.8h
	fmov	w11, s1
	tbnz	w11, #0, LBB121_27
	sqxtun	v0.8b, v0.8h
	sub	x10, x10, #16
	add	x24, x24, #16
	cmp	x10, #15
	str	d0, [x22, x20]
	add	x20, x20, #8
	b.hi	LBB121_12
	cmp	x9, x24
	b.ls	LBB121_27
	movi	v1.8h, #127
	add	x10, x23, x9
	ldur	q0, [x10, #-16]
	cmhi	v1.8h, v0.8h, v1.8h
	umaxv	h1, v1.8h
	fmov	w10, s1
	tbnz	w10, #0, LBB121_27
	sqxtun	v0.8b, v0.8h
	add	x10, x22, x8
	mov	x20, x8
	mov	x24, x9
	stur	d0, [x10, #-8]
	b	LBB121_27
LBB121_17:
	mov	x20, xzr
	mov	x24, xzr
LBB121_18:
	sub	x8, x2, x24
	cmp	x8, #15
	b.ls	LBB121_35
LBB121_19:
	sub	x8, x2, #8
	cmp	x8, #183
	b.hi	LBB121_22
	sub	x8, x2, x24
	cmp	x8, #8
	b.lo	LBB121_22
	add	x0, x23, x24
	sub	x1, x2, x24
	mov	x25, x2
	add	x2, x22, x20
	sub	x3, x21, x20
	bl	"_utf16_to_utf8::vectors::write_vectors::<#8b18edd9dd9aa8df>"
	mov	x2, x25
	add	x24, x0, x24
	add	x20, x1, x20
LBB121_22:
	cmp	x24, x2
	b.eq	LBB121_32
	add	x0, sp, #8
	mov	x1, x23
	mov	x3, x22
	mov	x4, x21
	mov	x5, x24
	mov	x6, x20
	bl	"_utf16_transcode::transcoding::transcode_many::<#b8dc3d53e12e85b3>"
	ldrb	w8, [sp, #24]
	ldp	x2, x20, [sp, #8]
	cmp	w8, #1
	b.gt	LBB121_56
	cbnz	w8, LBB121_55
LBB121_25:
	mov	w9, w8
	b	LBB121_34
LBB121_26:
	mov	x20, xzr
	mov	x24, xzr
LBB121_27:
	sub	x8, x2, x24
	cmp	x8, #15
	b.ls	LBB121_44
LBB121_28:
	sub	x8, x2, #8
	cmp	x8, #183
	b.hi	LBB121_31
	sub	x8, x2, x24
	cmp	x8, #8
	b.lo	LBB121_31
	add	x0, x23, x24
	sub	x1, x2, x24
	mov	x25, x2
	add	x2, x22, x20
	sub	x3, x21, x20
	bl	"_utf16_to_utf8::vectors::write_vectors::<#418c2b53cf60437c>"
	mov	x2, x25
	add	x24, x0, x24
	add	x20, x1, x20
LBB121_31:
	cmp	x24, x2
	b.ne	LBB121_53
LBB121_32:
	mov	w8, wzr
LBB121_33:
	mov	w9, wzr
LBB121_34:
	stp	x2, x20, [x19]
	stp	w8, w9, [x19, #16]
	.cfi_def_cfa wsp, 112
	ldp	x20, x19, [sp, #96]
	ldr	x25, [sp, #48]
	ldp	x22, x21, [sp, #80]
	ldp	x24, x23, [sp, #64]
	ldp	x29, x30, [sp, #32]
	add	sp, sp, #112
	.cfi_def_cfa_offset 0
	.cfi_restore w19
	.cfi_restore w20
	.cfi_restore w21
	.cfi_restore w22
	.cfi_restore w23
	.cfi_restore w24
	.cfi_restore w25
	.cfi_restore w30
	.cfi_restore w29
	ret
LBB121_35:
	.cfi_restore_state
	cmp	x8, #2
	b.lo	LBB121_19
	lsr	x9, x8, #1
	sub	x10, x21, x20
	add	x9, x9, x9, lsl #1
	cmp	x10, x9
	b.hs	LBB121_39
	b	LBB121_19
LBB121_37:
	strb	w9, [x22, x20]
	add	x20, x20, #1
LBB121_38:
	sub	x8, x8, #2
	add	x24, x24, #2
	cmp	x8, #1
	b.ls	LBB121_19
LBB121_39:
	ldrh	w9, [x23, x24]
	rev	w10, w9
	rev16	w9, w9
	lsr	w10, w10, #16
	cmp	w10, #127
	b.ls	LBB121_37
	and	w10, w9, #0xffff
	cmp	w10, #2047
	b.hi	LBB121_42
	lsr	w10, w9, #6
	orr	w10, w10, #0xc0
	and	w10, w10, #0xff
	bfi	w10, w9, #8, #6
	add	x9, x20, #2
	orr	w10, w10, #0x8000
	strh	w10, [x22, x20]
	mov	x20, x9
	b	LBB121_38
LBB121_42:
	ubfx	w10, w9, #11, #5
	cmp	w10, #27
	b.eq	LBB121_19
	mov	w10, #224
	mov	w11, #128
	mov	w12, #128
	bfxil	w10, w9, #12, #4
	bfxil	w11, w9, #6, #6
	bfxil	w12, w9, #0, #6
	add	x13, x22, x20
	add	x20, x20, #3
	strb	w10, [x13]
	strb	w11, [x13, #1]
	strb	w12, [x13, #2]
	b	LBB121_38
LBB121_44:
	cmp	x8, #2
	b.lo	LBB121_28
	lsr	x9, x8, #1
	sub	x10, x21, x20
	add	x9, x9, x9, lsl #1
	cmp	x10, x9
	b.hs	LBB121_48
	b	LBB121_28
LBB121_46:
	strb	w9, [x22, x20]
	add	x20, x20, #1
LBB121_47:
	sub	x8, x8, #2
	add	x24, x24, #2
	cmp	x8, #1
	b.ls	LBB121_28
LBB121_48:
	add	x10, x23, x24
	ldrb	w9, [x10]
	ldrb	w11, [x10, #1]
	orr	w10, w9, w11, lsl #8
	cmp	w10, #127
	b.ls	LBB121_46
	cmp	w11, #7
	b.hi	LBB121_51
	lsr	w10, w10, #6
	orr	w10, w10, #0xc0
	and	w10, w10, #0xff
	bfi	w10, w9, #8, #6
	add	x9, x20, #2
	orr	w10, w10, #0x8000
	strh	w10, [x22, x20]
	mov	x20, x9
	b	LBB121_47
LBB121_51:
	and	w12, w11, #0xf8
	cmp	w12, #216
	b.eq	LBB121_28
	lsr	w11, w11, #4
	mov	w12, #128
	mov	w13, #128
	bfxil	w12, w10, #6, #6
	bfxil	w13, w9, #0, #6
	add	x14, x22, x20
	orr	w10, w11, #0xe0
	add	x20, x20, #3
	strb	w10, [x14]
	strb	w12, [x14, #1]
	strb	w13, [x14, #2]
	b	LBB121_47
LBB121_53:
	add	x0, sp, #8
	mov	x1, x23
	mov	x3, x22
	mov	x4, x21
	mov	x5, x24
	mov	x6, x20
	bl	"_utf16_transcode::transcoding::transcode_many::<#556930da7d070edc>"
	ldrb	w8, [sp, #24]
	ldp	x2, x20, [sp, #8]
	cmp	w8, #1
	b.gt	LBB121_56
	cbz	w8, LBB121_25
LBB121_55:
	ldrb	w9, [sp, #25]
	mov	w8, #1
	b	LBB121_34
LBB121_56:
	cmp	w8, #2
	b.eq	LBB121_33
	mov	w9, wzr
	mov	w8, #3
	b	LBB121_34
Lfunc_end121:
	.cfi_endproc

	.section	__TEXT,__text,regular,pure_instructions
	.globl	_dethrux_to_utf8_lossy_aarch64
	.private_extern	_dethrux_to_utf8_lossy_aarch64
	.p2align	2
_dethrux_to_utf8_lossy_aarch64:
	.cfi_startproc
	hint	#34
	sub	sp, sp, #128
	.cfi_def_cfa_offset 128
	stp	x29, x30, [sp, #32]
	stp	x28, x27, [sp, #48]
	stp	x26, x25, [sp, #64]
	stp	x24, x23, [sp, #80]
	stp	x22, x21, [sp, #96]
	stp	x20, x19, [sp, #112]
	add	x29, sp, #32
	.cfi_def_cfa w29, 96
	.cfi_offset w19, -8
	.cfi_offset w20, -16
	.cfi_offset w21, -24
	.cfi_offset w22, -32
	.cfi_offset w23, -40
	.cfi_offset w24, -48
	.cfi_offset w25, -56
	.cfi_offset w26, -64
	.cfi_offset w27, -72
	.cfi_offset w28, -80
	.cfi_offset w30, -88
	.cfi_offset w29, -96
	.cfi_remember_state
	mov	x19, x8
	cmp	x1, #0
	mov	w8, #4096
	csel	x9, x8, xzr, eq
	cmp	x3, #0
	mov	x21, x4
	csel	x8, x8, xzr, eq
	mov	x20, x2
	add	x24, x1, x9
	cmp	w0, #1
	add	x23, x3, x8
	adrp	x22, lstatic.9@PAGE
	add	x22, x22, lstatic.9@PAGEOFF
	mov	x26, xzr
	mov	x25, xzr
	b.ne	LBB122_37
	b	LBB122_3
LBB122_1:
	add	x0, x24, x26
	sub	x1, x20, x26
	add	x2, x23, x25
	sub	x3, x21, x25
	bl	"_utf16_transcode::decode_lossy::write_copied::<#8b18edd9dd9aa8df>"
LBB122_2:
	add	x26, x0, x26
	add	x25, x1, x25
LBB122_3:
	sub	x27, x20, x26
	add	x8, x24, x26
	sub	x10, x21, x25
	sub	x9, x27, #16
	stp	xzr, xzr, [sp, #8]
	cmp	x9, #175
	add	x9, x23, x25
	str	xzr, [sp, #24]
	b.hi	LBB122_11
	lsr	x11, x27, #1
	cmp	x10, x11
	csel	x11, x10, x11, lo
	cmp	x11, #8
	b.lo	LBB122_11
	lsl	x12, x11, #1
	mov	x5, xzr
	mov	x6, xzr
	mov	x13, x12
LBB122_6:
	ldr	q0, [x8, x5]
	movi	v1.8h, #127
	rev16	v0.16b, v0.16b
	cmhi	v1.8h, v0.8h, v1.8h
	umaxv	h1, v1.8h
	fmov	w14, s1
	tbnz	w14, #0, LBB122_12
	sqxtun	v0.8b, v0.8h
	sub	x13, x13, #16
	add	x5, x5, #16
	cmp	x13, #15
	str	d0, [x9, x6]
	add	x6, x6, #8
	b.hi	LBB122_6
	cmp	x12, x5
	b.ls	LBB122_12
	add	x13, x8, x12
	movi	v1.8h, #127
	ldur	q0, [x13, #-16]
	rev16	v0.16b, v0.16b
	cmhi	v1.8h, v0.8h, v1.8h
	umaxv	h1, v1.8h
	fmov	w13, s1
	tbnz	w13, #0, LBB122_12
	sqxtun	v0.8b, v0.8h
	add	x13, x9, x11
	mov	x6, x11
	mov	x5, x12
	stur	d0, [x13, #-8]
	b	LBB122_12
LBB122_11:
	mov	x6, xzr
	mov	x5, xzr
LBB122_12:
	sub	x11, x27, x5
	cmp	x11, #15
	b.ls	LBB122_21
LBB122_13:
	sub	x11, x27, #8
	cmp	x11, #183
	b.hi	LBB122_16
	sub	x11, x27, x5
	cmp	x11, #8
	b.lo	LBB122_16
	add	x0, x8, x5
	sub	x1, x27, x5
	add	x2, x9, x6
	sub	x3, x10, x6
	mov	x28, x6
	mov	x22, x5
	bl	"_utf16_to_utf8::vectors::write_vectors::<#8b18edd9dd9aa8df>"
	mov	x5, x22
	adrp	x22, lstatic.9@PAGE
	add	x22, x22, lstatic.9@PAGEOFF
	add	x5, x0, x5
	add	x6, x1, x28
LBB122_16:
	cmp	x5, x27
	b.eq	LBB122_69
	add	x0, sp, #8
	add	x1, x24, x26
	sub	x2, x20, x26
	add	x3, x23, x25
	sub	x4, x21, x25
	bl	"_utf16_transcode::transcoding::transcode_many::<#b8dc3d53e12e85b3>"
	ldp	x9, x10, [sp, #8]
	ldrb	w8, [sp, #24]
	cmp	w8, #1
	add	x26, x9, x26
	add	x25, x10, x25
	b.ne	LBB122_70
	sub	x9, x21, x25
	add	x8, x23, x25
	cmp	x9, #512
	b.lo	LBB122_30
	sub	x8, x20, x26
	cmp	x8, #128
	b.lo	LBB122_1
	add	x0, x24, x26
	sub	x1, x20, x26
	add	x2, x23, x25
	sub	x3, x21, x25
	bl	"_utf16_transcode::ascii::write_lossy_ascii_blocks::<#8b18edd9dd9aa8df>"
	cmp	x0, #127
	b.ls	LBB122_1
	b	LBB122_2
LBB122_21:
	cmp	x11, #2
	b.lo	LBB122_13
	lsr	x12, x11, #1
	sub	x13, x10, x6
	add	x12, x12, x12, lsl #1
	cmp	x13, x12
	b.hs	LBB122_25
	b	LBB122_13
LBB122_23:
	strb	w12, [x9, x6]
	add	x6, x6, #1
LBB122_24:
	sub	x11, x11, #2
	add	x5, x5, #2
	cmp	x11, #1
	b.ls	LBB122_13
LBB122_25:
	ldrh	w12, [x8, x5]
	rev	w13, w12
	rev16	w12, w12
	lsr	w13, w13, #16
	cmp	w13, #127
	b.ls	LBB122_23
	and	w13, w12, #0xffff
	cmp	w13, #2047
	b.hi	LBB122_28
	lsr	w13, w12, #6
	orr	w13, w13, #0xc0
	and	w13, w13, #0xff
	bfi	w13, w12, #8, #6
	add	x12, x6, #2
	orr	w13, w13, #0x8000
	strh	w13, [x9, x6]
	mov	x6, x12
	b	LBB122_24
LBB122_28:
	ubfx	w13, w12, #11, #5
	cmp	w13, #27
	b.eq	LBB122_13
	mov	w13, #224
	mov	w14, #128
	mov	w15, #128
	bfxil	w13, w12, #12, #4
	bfxil	w14, w12, #6, #6
	bfxil	w15, w12, #0, #6
	add	x16, x9, x6
	add	x6, x6, #3
	strb	w13, [x16]
	strb	w14, [x16, #1]
	strb	w15, [x16, #2]
	b	LBB122_24
LBB122_30:
	cmp	x9, #3
	b.lo	LBB122_76
	sub	x9, x8, x22
	ldrb	w0, [sp, #25]
	cmp	x9, #2
	b.hi	LBB122_33
	mov	w9, #49135
	mov	w10, #189
	strh	w9, [x8]
	strb	w10, [x8, #2]
	b	LBB122_34
LBB122_33:
	mov	w9, #189
	mov	w10, #49135
	strb	w9, [x8, #2]
	strh	w10, [x8]
LBB122_34:
	mov	w1, #3
	b	LBB122_2
LBB122_35:
	add	x0, x24, x26
	sub	x1, x20, x26
	add	x2, x23, x25
	sub	x3, x21, x25
	bl	"_utf16_transcode::decode_lossy::write_copied::<#418c2b53cf60437c>"
LBB122_36:
	add	x26, x0, x26
	add	x25, x1, x25
LBB122_37:
	sub	x27, x20, x26
	add	x8, x24, x26
	sub	x10, x21, x25
	sub	x9, x27, #16
	stp	xzr, xzr, [sp, #8]
	cmp	x9, #175
	add	x9, x23, x25
	str	xzr, [sp, #24]
	b.hi	LBB122_45
	lsr	x11, x27, #1
	cmp	x10, x11
	csel	x11, x10, x11, lo
	cmp	x11, #8
	b.lo	LBB122_45
	lsl	x12, x11, #1
	mov	x5, xzr
	mov	x6, xzr
	mov	x13, x12
LBB122_40:
	movi	v1.8h, #127
	ldr	q0, [x8, x5]
	cmhi	v1.8h, v0.8h, v1.8h
	umaxv	h1, v1.8h
	fmov	w14, s1
	tbnz	w14, #0, LBB122_46
	sqxtun	v0.8b, v0.8h
	sub	x13, x13, #16
	add	x5, x5, #16
	cmp	x13, #15
	str	d0, [x9, x6]
	add	x6, x6, #8
	b.hi	LBB122_40
	cmp	x12, x5
	b.ls	LBB122_46
	movi	v1.8h, #127
	add	x13, x8, x12
	ldur	q0, [x13, #-16]
	cmhi	v1.8h, v0.8h, v1.8h
	umaxv	h1, v1.8h
	fmov	w13, s1
	tbnz	w13, #0, LBB122_46
	sqxtun	v0.8b, v0.8h
	add	x13, x9, x11
	mov	x6, x11
	mov	x5, x12
	stur	d0, [x13, #-8]
	b	LBB122_46
LBB122_45:
	mov	x6, xzr
	mov	x5, xzr
LBB122_46:
	sub	x11, x27, x5
	cmp	x11, #15
	b.ls	LBB122_55
LBB122_47:
	sub	x11, x27, #8
	cmp	x11, #183
	b.hi	LBB122_50
	sub	x11, x27, x5
	cmp	x11, #8
	b.lo	LBB122_50
	add	x0, x8, x5
	sub	x1, x27, x5
	add	x2, x9, x6
	sub	x3, x10, x6
	mov	x28, x6
	mov	x22, x5
	bl	"_utf16_to_utf8::vectors::write_vectors::<#418c2b53cf60437c>"
	mov	x5, x22
	adrp	x22, lstatic.9@PAGE
	add	x22, x22, lstatic.9@PAGEOFF
	add	x5, x0, x5
	add	x6, x1, x28
LBB122_50:
	cmp	x5, x27
	b.eq	LBB122_69
	add	x0, sp, #8
	add	x1, x24, x26
	sub	x2, x20, x26
	add	x3, x23, x25
	sub	x4, x21, x25
	bl	"_utf16_transcode::transcoding::transcode_many::<#556930da7d070edc>"
	ldp	x9, x10, [sp, #8]
	ldrb	w8, [sp, #24]
	cmp	w8, #1
	add	x26, x9, x26
	add	x25, x10, x25
	b.ne	LBB122_73
	sub	x9, x21, x25
	add	x8, x23, x25
	cmp	x9, #512
	b.lo	LBB122_64
	sub	x8, x20, x26
	cmp	x8, #128
	b.lo	LBB122_35
	add	x0, x24, x26
	sub	x1, x20, x26
	add	x2, x23, x25
	sub	x3, x21, x25
	bl	"_utf16_transcode::ascii::write_lossy_ascii_blocks::<#418c2b53cf60437c>"
	cmp	x0, #127
	b.ls	LBB122_35
	b	LBB122_36
LBB122_55:
	cmp	x11, #2
	b.lo	LBB122_47
	lsr	x12, x11, #1
	sub	x13, x10, x6
	add	x12, x12, x12, lsl #1
	cmp	x13, x12
	b.hs	LBB122_59
	b	LBB122_47
LBB122_57:
	strb	w12, [x9, x6]
	add	x6, x6, #1
LBB122_58:
	sub	x11, x11, #2
	add	x5, x5, #2
	cmp	x11, #1
	b.ls	LBB122_47
LBB122_59:
	add	x13, x8, x5
	ldrb	w12, [x13]
	ldrb	w14, [x13, #1]
	orr	w13, w12, w14, lsl #8
	cmp	w13, #127
	b.ls	LBB122_57
	cmp	w14, #7
	b.hi	LBB122_62
	lsr	w13, w13, #6
	orr	w13, w13, #0xc0
	and	w13, w13, #0xff
	bfi	w13, w12, #8, #6
	add	x12, x6, #2
	orr	w13, w13, #0x8000
	strh	w13, [x9, x6]
	mov	x6, x12
	b	LBB122_58
LBB122_62:
	and	w15, w14, #0xf8
	cmp	w15, #216
	b.eq	LBB122_47
	lsr	w14, w14, #4
	mov	w15, #128
	mov	w16, #128
	bfxil	w15, w13, #6, #6
	bfxil	w16, w12, #0, #6
	add	x17, x9, x6
	orr	w13, w14, #0xe0
	add	x6, x6, #3
	strb	w13, [x17]
	strb	w15, [x17, #1]
	strb	w16, [x17, #2]
	b	LBB122_58
LBB122_64:
	cmp	x9, #3
	b.lo	LBB122_76
	sub	x9, x8, x22
	ldrb	w0, [sp, #25]
	cmp	x9, #2
	b.hi	LBB122_67
	mov	w9, #49135
	mov	w10, #189
	strh	w9, [x8]
	strb	w10, [x8, #2]
	b	LBB122_68
LBB122_67:
	mov	w9, #189
	mov	w10, #49135
	strb	w9, [x8, #2]
	strh	w10, [x8]
LBB122_68:
	mov	w1, #3
	b	LBB122_36
LBB122_69:
	mov	w8, wzr
	add	x25, x6, x25
	b	LBB122_79
LBB122_70:
	cmp	w8, #2
	b.ne	LBB122_77
	cmp	x20, x26
	b.ne	LBB122_75
LBB122_72:
	mov	w8, wzr
	b	LBB122_79
LBB122_73:
	cmp	w8, #2
	b.ne	LBB122_77
	cmp	x20, x26
	b.eq	LBB122_72
LBB122_75:
	sub	x8, x21, x25
	cmp	x8, #3
	b.hs	LBB122_80
LBB122_76:
	mov	w8, #3
	b	LBB122_78
LBB122_77:
	cmp	w8, #0
	mov	w8, #3
	csel	w8, wzr, w8, eq
LBB122_78:
	mov	x20, x26
LBB122_79:
	stp	x20, x25, [x19]
	stp	w8, wzr, [x19, #16]
	.cfi_def_cfa wsp, 128
	ldp	x20, x19, [sp, #112]
	ldp	x22, x21, [sp, #96]
	ldp	x24, x23, [sp, #80]
	ldp	x26, x25, [sp, #64]
	ldp	x28, x27, [sp, #48]
	ldp	x29, x30, [sp, #32]
	add	sp, sp, #128
	.cfi_def_cfa_offset 0
	.cfi_restore w19
	.cfi_restore w20
	.cfi_restore w21
	.cfi_restore w22
	.cfi_restore w23
	.cfi_restore w24
	.cfi_restore w25
	.cfi_restore w26
	.cfi_restore w27
	.cfi_restore w28
	.cfi_restore w30
	.cfi_restore w29
	ret
LBB122_80:
	.cfi_restore_state
	add	x9, x23, x25
	add	x25, x25, #3
	sub	x8, x9, x22
	cmp	x8, #2
	mov	w8, wzr
	b.hi	LBB122_82
	mov	w10, #49135
	mov	w11, #189
	strh	w10, [x9]
	strb	w11, [x9, #2]
	b	LBB122_79
LBB122_82:
	mov	w10, #189
	mov	w11, #49135
	strb	w10, [x9, #2]
	strh	w11, [x9]
	b	LBB122_79
Lfunc_end122:
	.cfi_endproc

	.section	__TEXT,__text,regular,pure_instructions
	.globl	_dethrux_to_utf8_partial_aarch64
	.private_extern	_dethrux_to_utf8_partial_aarch64
	.p2align	2
_dethrux_to_utf8_partial_aarch64:
	.cfi_startproc
	hint	#34
	sub	sp, sp, #128
	.cfi_def_cfa_offset 128
	stp	x29, x30, [sp, #32]
	stp	x28, x27, [sp, #48]
	stp	x26, x25, [sp, #64]
	stp	x24, x23, [sp, #80]
	stp	x22, x21, [sp, #96]
	stp	x20, x19, [sp, #112]
	add	x29, sp, #32
	.cfi_def_cfa w29, 96
	.cfi_offset w19, -8
	.cfi_offset w20, -16
	.cfi_offset w21, -24
	.cfi_offset w22, -32
	.cfi_offset w23, -40
	.cfi_offset w24, -48
	.cfi_offset w25, -56
	.cfi_offset w26, -64
	.cfi_offset w27, -72
	.cfi_offset w28, -80
	.cfi_offset w30, -88
	.cfi_offset w29, -96
	mov	x19, x8
	cmp	x1, #0
	mov	w8, #4096
	csel	x9, x8, xzr, eq
	cmp	x3, #0
	mov	x21, x4
	csel	x8, x8, xzr, eq
	mov	x20, x2
	add	x22, x1, x9
	cmp	w0, #1
	add	x23, x3, x8
	adrp	x24, lstatic.9@PAGE
	add	x24, x24, lstatic.9@PAGEOFF
	mov	x26, xzr
	mov	x25, xzr
	b.ne	LBB123_37
	b	LBB123_3
LBB123_1:
	add	x0, x22, x26
	sub	x1, x20, x26
	add	x2, x23, x25
	sub	x3, x21, x25
	bl	"_utf16_transcode::decode_lossy::write_copied::<#8b18edd9dd9aa8df>"
LBB123_2:
	add	x26, x0, x26
	add	x25, x1, x25
LBB123_3:
	sub	x27, x20, x26
	add	x8, x22, x26
	sub	x10, x21, x25
	sub	x9, x27, #16
	stp	xzr, xzr, [sp, #8]
	cmp	x9, #175
	add	x9, x23, x25
	str	xzr, [sp, #24]
	b.hi	LBB123_11
	lsr	x11, x27, #1
	cmp	x10, x11
	csel	x11, x10, x11, lo
	cmp	x11, #8
	b.lo	LBB123_11
	lsl	x12, x11, #1
	mov	x5, xzr
	mov	x6, xzr
	mov	x13, x12
LBB123_6:
	ldr	q0, [x8, x5]
	movi	v1.8h, #127
	rev16	v0.16b, v0.16b
	cmhi	v1.8h, v0.8h, v1.8h
	umaxv	h1, v1.8h
	fmov	w14, s1
	tbnz	w14, #0, LBB123_12
	sqxtun	v0.8b, v0.8h
	sub	x13, x13, #16
	add	x5, x5, #16
	cmp	x13, #15
	str	d0, [x9, x6]
	add	x6, x6, #8
	b.hi	LBB123_6
	cmp	x12, x5
	b.ls	LBB123_12
	add	x13, x8, x12
	movi	v1.8h, #127
	ldur	q0, [x13, #-16]
	rev16	v0.16b, v0.16b
	cmhi	v1.8h, v0.8h, v1.8h
	umaxv	h1, v1.8h
	fmov	w13, s1
	tbnz	w13, #0, LBB123_12
	sqxtun	v0.8b, v0.8h
	add	x13, x9, x11
	mov	x6, x11
	mov	x5, x12
	stur	d0, [x13, #-8]
	b	LBB123_12
LBB123_11:
	mov	x6, xzr
	mov	x5, xzr
LBB123_12:
	sub	x11, x27, x5
	cmp	x11, #15
	b.ls	LBB123_21
LBB123_13:
	sub	x11, x27, #8
	cmp	x11, #183
	b.hi	LBB123_16
	sub	x11, x27, x5
	cmp	x11, #8
	b.lo	LBB123_16
	add	x0, x8, x5
	sub	x1, x27, x5
	add	x2, x9, x6
	sub	x3, x10, x6
	mov	x28, x6
	mov	x24, x5
	bl	"_utf16_to_utf8::vectors::write_vectors::<#8b18edd9dd9aa8df>"
	mov	x5, x24
	adrp	x24, lstatic.9@PAGE
	add	x24, x24, lstatic.9@PAGEOFF
	add	x5, x0, x5
	add	x6, x1, x28
LBB123_16:
	cmp	x5, x27
	b.eq	LBB123_69
	add	x0, sp, #8
	add	x1, x22, x26
	sub	x2, x20, x26
	add	x3, x23, x25
	sub	x4, x21, x25
	bl	"_utf16_transcode::transcoding::transcode_many::<#b8dc3d53e12e85b3>"
	ldp	x9, x10, [sp, #8]
	ldrb	w8, [sp, #24]
	cmp	w8, #1
	add	x26, x9, x26
	add	x25, x10, x25
	b.ne	LBB123_70
	sub	x9, x21, x25
	add	x8, x23, x25
	cmp	x9, #512
	b.lo	LBB123_30
	sub	x8, x20, x26
	cmp	x8, #128
	b.lo	LBB123_1
	add	x0, x22, x26
	sub	x1, x20, x26
	add	x2, x23, x25
	sub	x3, x21, x25
	bl	"_utf16_transcode::ascii::write_lossy_ascii_blocks::<#8b18edd9dd9aa8df>"
	cmp	x0, #127
	b.ls	LBB123_1
	b	LBB123_2
LBB123_21:
	cmp	x11, #2
	b.lo	LBB123_13
	lsr	x12, x11, #1
	sub	x13, x10, x6
	add	x12, x12, x12, lsl #1
	cmp	x13, x12
	b.hs	LBB123_25
	b	LBB123_13
LBB123_23:
	strb	w12, [x9, x6]
	add	x6, x6, #1
LBB123_24:
	sub	x11, x11, #2
	add	x5, x5, #2
	cmp	x11, #1
	b.ls	LBB123_13
LBB123_25:
	ldrh	w12, [x8, x5]
	rev	w13, w12
	rev16	w12, w12
	lsr	w13, w13, #16
	cmp	w13, #127
	b.ls	LBB123_23
	and	w13, w12, #0xffff
	cmp	w13, #2047
	b.hi	LBB123_28
	lsr	w13, w12, #6
	orr	w13, w13, #0xc0
	and	w13, w13, #0xff
	bfi	w13, w12, #8, #6
	add	x12, x6, #2
	orr	w13, w13, #0x8000
	strh	w13, [x9, x6]
	mov	x6, x12
	b	LBB123_24
LBB123_28:
	ubfx	w13, w12, #11, #5
	cmp	w13, #27
	b.eq	LBB123_13
	mov	w13, #224
	mov	w14, #128
	mov	w15, #128
	bfxil	w13, w12, #12, #4
	bfxil	w14, w12, #6, #6
	bfxil	w15, w12, #0, #6
	add	x16, x9, x6
	add	x6, x6, #3
	strb	w13, [x16]
	strb	w14, [x16, #1]
	strb	w15, [x16, #2]
	b	LBB123_24
LBB123_30:
	cmp	x9, #3
	b.lo	LBB123_73
	sub	x9, x8, x24
	ldrb	w0, [sp, #25]
	cmp	x9, #2
	b.hi	LBB123_33
	mov	w9, #49135
	mov	w10, #189
	strh	w9, [x8]
	strb	w10, [x8, #2]
	b	LBB123_34
LBB123_33:
	mov	w9, #189
	mov	w10, #49135
	strb	w9, [x8, #2]
	strh	w10, [x8]
LBB123_34:
	mov	w1, #3
	b	LBB123_2
LBB123_35:
	add	x0, x22, x26
	sub	x1, x20, x26
	add	x2, x23, x25
	sub	x3, x21, x25
	bl	"_utf16_transcode::decode_lossy::write_copied::<#418c2b53cf60437c>"
LBB123_36:
	add	x26, x0, x26
	add	x25, x1, x25
LBB123_37:
	sub	x27, x20, x26
	add	x8, x22, x26
	sub	x10, x21, x25
	sub	x9, x27, #16
	stp	xzr, xzr, [sp, #8]
	cmp	x9, #175
	add	x9, x23, x25
	str	xzr, [sp, #24]
	b.hi	LBB123_45
	lsr	x11, x27, #1
	cmp	x10, x11
	csel	x11, x10, x11, lo
	cmp	x11, #8
	b.lo	LBB123_45
	lsl	x12, x11, #1
	mov	x5, xzr
	mov	x6, xzr
	mov	x13, x12
LBB123_40:
	movi	v1.8h, #127
	ldr	q0, [x8, x5]
	cmhi	v1.8h, v0.8h, v1.8h
	umaxv	h1, v1.8h
	fmov	w14, s1
	tbnz	w14, #0, LBB123_46
	sqxtun	v0.8b, v0.8h
	sub	x13, x13, #16
	add	x5, x5, #16
	cmp	x13, #15
	str	d0, [x9, x6]
	add	x6, x6, #8
	b.hi	LBB123_40
	cmp	x12, x5
	b.ls	LBB123_46
	movi	v1.8h, #127
	add	x13, x8, x12
	ldur	q0, [x13, #-16]
	cmhi	v1.8h, v0.8h, v1.8h
	umaxv	h1, v1.8h
	fmov	w13, s1
	tbnz	w13, #0, LBB123_46
	sqxtun	v0.8b, v0.8h
	add	x13, x9, x11
	mov	x6, x11
	mov	x5, x12
	stur	d0, [x13, #-8]
	b	LBB123_46
LBB123_45:
	mov	x6, xzr
	mov	x5, xzr
LBB123_46:
	sub	x11, x27, x5
	cmp	x11, #15
	b.ls	LBB123_55
LBB123_47:
	sub	x11, x27, #8
	cmp	x11, #183
	b.hi	LBB123_50
	sub	x11, x27, x5
	cmp	x11, #8
	b.lo	LBB123_50
	add	x0, x8, x5
	sub	x1, x27, x5
	add	x2, x9, x6
	sub	x3, x10, x6
	mov	x28, x6
	mov	x24, x5
	bl	"_utf16_to_utf8::vectors::write_vectors::<#418c2b53cf60437c>"
	mov	x5, x24
	adrp	x24, lstatic.9@PAGE
	add	x24, x24, lstatic.9@PAGEOFF
	add	x5, x0, x5
	add	x6, x1, x28
LBB123_50:
	cmp	x5, x27
	b.eq	LBB123_69
	add	x0, sp, #8
	add	x1, x22, x26
	sub	x2, x20, x26
	add	x3, x23, x25
	sub	x4, x21, x25
	bl	"_utf16_transcode::transcoding::transcode_many::<#556930da7d070edc>"
	ldp	x9, x10, [sp, #8]
	ldrb	w8, [sp, #24]
	cmp	w8, #1
	add	x26, x9, x26
	add	x25, x10, x25
	b.ne	LBB123_70
	sub	x9, x21, x25
	add	x8, x23, x25
	cmp	x9, #512
	b.lo	LBB123_64
	sub	x8, x20, x26
	cmp	x8, #128
	b.lo	LBB123_35
	add	x0, x22, x26
	sub	x1, x20, x26
	add	x2, x23, x25
	sub	x3, x21, x25
	bl	"_utf16_transcode::ascii::write_lossy_ascii_blocks::<#418c2b53cf60437c>"
	cmp	x0, #127
	b.ls	LBB123_35
	b	LBB123_36
LBB123_55:
	cmp	x11, #2
	b.lo	LBB123_47
	lsr	x12, x11, #1
	sub	x13, x10, x6
	add	x12, x12, x12, lsl #1
	cmp	x13, x12
	b.hs	LBB123_59
	b	LBB123_47
LBB123_57:
	strb	w12, [x9, x6]
	add	x6, x6, #1
LBB123_58:
	sub	x11, x11, #2
	add	x5, x5, #2
	cmp	x11, #1
	b.ls	LBB123_47
LBB123_59:
	add	x13, x8, x5
	ldrb	w12, [x13]
	ldrb	w14, [x13, #1]
	orr	w13, w12, w14, lsl #8
	cmp	w13, #127
	b.ls	LBB123_57
	cmp	w14, #7
	b.hi	LBB123_62
	lsr	w13, w13, #6
	orr	w13, w13, #0xc0
	and	w13, w13, #0xff
	bfi	w13, w12, #8, #6
	add	x12, x6, #2
	orr	w13, w13, #0x8000
	strh	w13, [x9, x6]
	mov	x6, x12
	b	LBB123_58
LBB123_62:
	and	w15, w14, #0xf8
	cmp	w15, #216
	b.eq	LBB123_47
	lsr	w14, w14, #4
	mov	w15, #128
	mov	w16, #128
	bfxil	w15, w13, #6, #6
	bfxil	w16, w12, #0, #6
	add	x17, x9, x6
	orr	w13, w14, #0xe0
	add	x6, x6, #3
	strb	w13, [x17]
	strb	w15, [x17, #1]
	strb	w16, [x17, #2]
	b	LBB123_58
LBB123_64:
	cmp	x9, #3
	b.lo	LBB123_73
	sub	x9, x8, x24
	ldrb	w0, [sp, #25]
	cmp	x9, #2
	b.hi	LBB123_67
	mov	w9, #49135
	mov	w10, #189
	strh	w9, [x8]
	strb	w10, [x8, #2]
	b	LBB123_68
LBB123_67:
	mov	w9, #189
	mov	w10, #49135
	strb	w9, [x8, #2]
	strh	w10, [x8]
LBB123_68:
	mov	w1, #3
	b	LBB123_36
LBB123_69:
	mov	w8, wzr
	add	x25, x6, x25
	b	LBB123_75
LBB123_70:
	cbz	w8, LBB123_74
	cmp	w8, #3
	b.eq	LBB123_74
	mov	w8, #2
	b	LBB123_74
LBB123_73:
	mov	w8, #3
LBB123_74:
	mov	x20, x26
LBB123_75:
	stp	x20, x25, [x19]
	stp	w8, wzr, [x19, #16]
	.cfi_def_cfa wsp, 128
	ldp	x20, x19, [sp, #112]
	ldp	x22, x21, [sp, #96]
	ldp	x24, x23, [sp, #80]
	ldp	x26, x25, [sp, #64]
	ldp	x28, x27, [sp, #48]
	ldp	x29, x30, [sp, #32]
	add	sp, sp, #128
	.cfi_def_cfa_offset 0
	.cfi_restore w19
	.cfi_restore w20
	.cfi_restore w21
	.cfi_restore w22
	.cfi_restore w23
	.cfi_restore w24
	.cfi_restore w25
	.cfi_restore w26
	.cfi_restore w27
	.cfi_restore w28
	.cfi_restore w30
	.cfi_restore w29
	ret
Lfunc_end123:
	.cfi_endproc

	.section	__TEXT,__text,regular,pure_instructions
	.globl	_dethrux_to_wtf8_aarch64
	.private_extern	_dethrux_to_wtf8_aarch64
	.p2align	2
_dethrux_to_wtf8_aarch64:
	.cfi_startproc
	hint	#34
	sub	sp, sp, #96
	.cfi_def_cfa_offset 96
	stp	x29, x30, [sp, #32]
	str	x23, [sp, #48]
	stp	x22, x21, [sp, #64]
	stp	x20, x19, [sp, #80]
	add	x29, sp, #32
	.cfi_def_cfa w29, 64
	.cfi_offset w19, -8
	.cfi_offset w20, -16
	.cfi_offset w21, -24
	.cfi_offset w22, -32
	.cfi_offset w23, -48
	.cfi_offset w30, -56
	.cfi_offset w29, -64
	.cfi_remember_state
	mov	x19, x8
	cmp	x1, #0
	mov	w8, #4096
	csel	x9, x8, xzr, eq
	cmp	x3, #0
	mov	x20, x4
	csel	x8, x8, xzr, eq
	mov	x22, x2
	cmp	w0, #1
	add	x23, x1, x9
	add	x21, x3, x8
	b.ne	LBB124_6
	add	x0, sp, #8
	mov	x1, x23
	mov	x2, x22
	mov	x3, x21
	mov	x4, x20
	stp	xzr, xzr, [sp, #8]
	str	xzr, [sp, #24]
	bl	"_utf16_wtf8::decode::to_wtf8_partial::<#8b18edd9dd9aa8df>"
	ldrb	w9, [sp, #24]
	ldr	x8, [sp, #8]
	cmp	w9, #2
	b.ne	LBB124_10
	sub	x9, x22, x8
	ldr	x11, [sp, #16]
	cmp	x9, #2
	b.lo	LBB124_8
	ldrh	w10, [x23, x8]
	rev	w13, w10
	rev16	w10, w10
	lsr	w12, w13, #16
	cmp	w12, #127
	b.hi	LBB124_20
	cmp	x20, x11
	b.eq	LBB124_15
	add	x12, x11, #1
	strb	w10, [x21, x11]
	mov	x11, x12
	b	LBB124_8
LBB124_6:
	add	x0, sp, #8
	mov	x1, x23
	mov	x2, x22
	mov	x3, x21
	mov	x4, x20
	stp	xzr, xzr, [sp, #8]
	str	xzr, [sp, #24]
	bl	"_utf16_wtf8::decode::to_wtf8_partial::<#418c2b53cf60437c>"
	ldrb	w9, [sp, #24]
	ldr	x8, [sp, #8]
	cmp	w9, #2
	b.ne	LBB124_10
	sub	x9, x22, x8
	ldr	x11, [sp, #16]
	cmp	x9, #2
	b.hs	LBB124_13
LBB124_8:
	cmp	x9, #2
	mov	w12, #2
	and	x13, x9, #0xfffffffffffffffe
	mov	w10, wzr
	csel	w9, wzr, w12, eq
	add	x8, x13, x8
LBB124_9:
	mov	x20, x11
	cmp	w9, #1
	b.le	LBB124_11
	b	LBB124_16
LBB124_10:
	ldr	x20, [sp, #16]
	ldrb	w10, [sp, #25]
	cmp	w9, #1
	b.gt	LBB124_16
LBB124_11:
	mov	w11, w9
	cbz	w9, LBB124_19
	mov	w9, #1
	mov	w11, w10
	b	LBB124_19
LBB124_13:
	add	x10, x23, x8
	ldrb	w14, [x10]
	ldrb	w13, [x10, #1]
	orr	w12, w14, w13, lsl #8
	cmp	w12, #127
	b.hi	LBB124_23
	cmp	x20, x11
	b.ne	LBB124_26
LBB124_15:
	mov	w10, wzr
	mov	w9, #3
	cmp	w9, #1
	b.le	LBB124_11
LBB124_16:
	cmp	w9, #2
	b.ne	LBB124_18
	mov	w11, wzr
	b	LBB124_19
LBB124_18:
	mov	w11, wzr
	mov	w9, #3
LBB124_19:
	stp	x8, x20, [x19]
	stp	w9, w11, [x19, #16]
	.cfi_def_cfa wsp, 96
	ldp	x20, x19, [sp, #80]
	ldr	x23, [sp, #48]
	ldp	x22, x21, [sp, #64]
	ldp	x29, x30, [sp, #32]
	add	sp, sp, #96
	.cfi_def_cfa_offset 0
	.cfi_restore w19
	.cfi_restore w20
	.cfi_restore w21
	.cfi_restore w22
	.cfi_restore w23
	.cfi_restore w30
	.cfi_restore w29
	ret
LBB124_20:
	.cfi_restore_state
	mov	w12, #-128
	and	w14, w10, #0xffff
	bfxil	w12, w13, #16, #6
	cmp	w14, #2047
	sub	x13, x20, x11
	b.hi	LBB124_27
	cmp	x13, #2
	b.lo	LBB124_30
	lsr	w10, w10, #6
	add	x13, x11, #2
	orr	w10, w10, #0xc0
	bfi	w10, w12, #8, #24
	strh	w10, [x21, x11]
	mov	x11, x13
	b	LBB124_8
LBB124_23:
	mov	w10, #-128
	cmp	w13, #7
	bfxil	w10, w14, #0, #6
	sub	x14, x20, x11
	b.hi	LBB124_29
	cmp	x14, #2
	b.lo	LBB124_30
	lsr	w12, w12, #6
	add	x13, x11, #2
	orr	w12, w12, #0xc0
	bfi	w12, w10, #8, #24
	strh	w12, [x21, x11]
	mov	x11, x13
	b	LBB124_8
LBB124_26:
	add	x10, x11, #1
	strb	w14, [x21, x11]
	mov	x11, x10
	b	LBB124_8
LBB124_27:
	cmp	x13, #3
	b.lo	LBB124_30
	mov	w13, #224
	mov	w14, #128
	add	x15, x21, x11
	bfxil	w13, w10, #12, #4
	bfxil	w14, w10, #6, #6
	add	x11, x11, #3
	strb	w12, [x15, #2]
	strb	w13, [x15]
	strb	w14, [x15, #1]
	b	LBB124_8
LBB124_29:
	cmp	x14, #3
	b.hs	LBB124_31
LBB124_30:
	mov	w10, wzr
	mov	w9, #3
	b	LBB124_9
LBB124_31:
	lsr	w13, w13, #4
	mov	w14, #128
	add	x15, x21, x11
	bfxil	w14, w12, #6, #6
	add	x11, x11, #3
	strb	w10, [x15, #2]
	orr	w12, w13, #0xe0
	strb	w12, [x15]
	strb	w14, [x15, #1]
	b	LBB124_8
Lfunc_end124:
	.cfi_endproc

	.section	__TEXT,__text,regular,pure_instructions
	.globl	_dethrux_to_wtf8_partial_aarch64
	.private_extern	_dethrux_to_wtf8_partial_aarch64
	.p2align	2
_dethrux_to_wtf8_partial_aarch64:
	.cfi_startproc
	hint	#34
	sub	sp, sp, #64
	.cfi_def_cfa_offset 64
	stp	x29, x30, [sp, #32]
	str	x19, [sp, #48]
	add	x29, sp, #32
	.cfi_def_cfa w29, 32
	.cfi_offset w19, -16
	.cfi_offset w30, -24
	.cfi_offset w29, -32
	.cfi_remember_state
	cmp	x1, #0
	mov	w9, #4096
	mov	x19, x8
	csel	x8, x9, xzr, eq
	cmp	x3, #0
	stp	xzr, xzr, [sp]
	csel	x9, x9, xzr, eq
	cmp	w0, #1
	mov	x0, sp
	add	x1, x1, x8
	add	x3, x3, x9
	str	xzr, [sp, #16]
	b.ne	LBB125_5
	bl	"_utf16_wtf8::decode::to_wtf8_partial::<#8b18edd9dd9aa8df>"
	ldrb	w8, [sp, #16]
	ldr	q0, [sp]
	cmp	w8, #1
	b.le	LBB125_6
LBB125_2:
	cmp	w8, #2
	b.ne	LBB125_8
	mov	w9, wzr
LBB125_4:
	str	q0, [x19]
	stp	w8, w9, [x19, #16]
	.cfi_def_cfa wsp, 64
	ldp	x29, x30, [sp, #32]
	ldr	x19, [sp, #48]
	add	sp, sp, #64
	.cfi_def_cfa_offset 0
	.cfi_restore w19
	.cfi_restore w30
	.cfi_restore w29
	ret
LBB125_5:
	.cfi_restore_state
	.cfi_remember_state
	bl	"_utf16_wtf8::decode::to_wtf8_partial::<#418c2b53cf60437c>"
	ldrb	w8, [sp, #16]
	ldr	q0, [sp]
	cmp	w8, #1
	b.gt	LBB125_2
LBB125_6:
	mov	w9, w8
	cbz	w8, LBB125_4
	ldrb	w9, [sp, #17]
	mov	w8, #1
	str	q0, [x19]
	stp	w8, w9, [x19, #16]
	.cfi_def_cfa wsp, 64
	ldp	x29, x30, [sp, #32]
	ldr	x19, [sp, #48]
	add	sp, sp, #64
	.cfi_def_cfa_offset 0
	.cfi_restore w19
	.cfi_restore w30
	.cfi_restore w29
	ret
LBB125_8:
	.cfi_restore_state
	mov	w8, #3
	str	q0, [x19]
	stp	w8, wzr, [x19, #16]
	.cfi_def_cfa wsp, 64
	ldp	x29, x30, [sp, #32]
	ldr	x19, [sp, #48]
	add	sp, sp, #64
	.cfi_def_cfa_offset 0
	.cfi_restore w19
	.cfi_restore w30
	.cfi_restore w29
	ret
Lfunc_end125:
	.cfi_endproc

	.section	__TEXT,__text,regular,pure_instructions
	.globl	_dethrux_wtf8_decoder_feed_aarch64
	.private_extern	_dethrux_wtf8_decoder_feed_aarch64
	.p2align	2
_dethrux_wtf8_decoder_feed_aarch64:
	.cfi_startproc
	hint	#34
	sub	sp, sp, #224
	.cfi_def_cfa_offset 224
	stp	x29, x30, [sp, #128]
	stp	x28, x27, [sp, #144]
	stp	x26, x25, [sp, #160]
	stp	x24, x23, [sp, #176]
	stp	x22, x21, [sp, #192]
	stp	x20, x19, [sp, #208]
	add	x29, sp, #128
	.cfi_def_cfa w29, 96
	.cfi_offset w19, -8
	.cfi_offset w20, -16
	.cfi_offset w21, -24
	.cfi_offset w22, -32
	.cfi_offset w23, -40
	.cfi_offset w24, -48
	.cfi_offset w25, -56
	.cfi_offset w26, -64
	.cfi_offset w27, -72
	.cfi_offset w28, -80
	.cfi_offset w30, -88
	.cfi_offset w29, -96
	.cfi_remember_state
	cmp	x2, #0
	mov	w9, #4096
	mov	x25, x3
	csel	x10, x9, xzr, eq
	cmp	x4, #0
	mov	x22, x2
	csel	x9, x9, xzr, eq
	cmp	w1, #1
	str	x10, [sp, #48]
	add	x10, x2, x10
	add	x9, x4, x9
	stur	x3, [x29, #-48]
	str	x10, [sp, #40]
	stp	x9, x5, [sp, #56]
	stp	x0, x8, [sp, #24]
	b.ne	LBB126_43
	ldr	w11, [x0]
	mov	w10, #3
	lsr	w9, w11, #24
	stp	wzr, w11, [x29, #-36]
	cmp	w9, #3
	csel	w10, w9, w10, lo
	str	x10, [sp, #8]
	cbz	w9, LBB126_89
	mov	x19, xzr
	mov	x24, xzr
	str	x22, [sp, #16]
LBB126_3:
	sub	x21, x10, x19
	mov	w8, #4
	sub	x9, x29, #32
	sub	x8, x8, x21
	sub	x0, x29, #24
	add	x1, x9, x19
	cmp	x8, x25
	sub	x2, x10, x19
	stur	wzr, [x29, #-24]
	csel	x25, x8, x25, lo
	sub	x20, x29, #24
	bl	_memcpy
	ldr	x8, [sp, #48]
	add	x0, x20, x21
	mov	x2, x25
	add	x1, x22, x8
	bl	_memcpy
	ldur	w8, [x29, #-24]
	mov	x20, xzr
	mov	x23, xzr
	add	x28, x25, x21
	str	x25, [sp]
	stur	w8, [x29, #-28]
	ldr	x8, [sp, #56]
	stur	x24, [x29, #-56]
	add	x22, x8, x24
	ldr	x8, [sp, #64]
	sub	x27, x8, x24
	b	LBB126_5
LBB126_4:
	add	x20, x9, #2
	add	x23, x8, x10
LBB126_5:
	sub	x24, x28, x20
	sub	x8, x29, #28
	stp	xzr, xzr, [x29, #-24]
	sub	x9, x24, #16
	add	x25, x8, x20
	sub	x8, x27, x23
	cmp	x9, #175
	add	x9, x22, x23
	stur	xzr, [x29, #-8]
	b.hi	LBB126_13
	lsr	x10, x24, #1
	cmp	x8, x10
	csel	x10, x8, x10, lo
	cmp	x10, #8
	b.lo	LBB126_13
	lsl	x11, x10, #1
	mov	x5, xzr
	mov	x6, xzr
	mov	x12, x11
LBB126_8:
	ldr	q0, [x25, x5]
	movi	v1.8h, #127
	rev16	v0.16b, v0.16b
	cmhi	v1.8h, v0.8h, v1.8h
	umaxv	h1, v1.8h
	fmov	w13, s1
	tbnz	w13, #0, LBB126_14
	sqxtun	v0.8b, v0.8h
	sub	x12, x12, #16
	add	x5, x5, #16
	cmp	x12, #15
	str	d0, [x9, x6]
	add	x6, x6, #8
	b.hi	LBB126_8
	cmp	x11, x5
	b.ls	LBB126_14
	add	x12, x25, x11
	movi	v1.8h, #127
	ldur	q0, [x12, #-16]
	rev16	v0.16b, v0.16b
	cmhi	v1.8h, v0.8h, v1.8h
	umaxv	h1, v1.8h
	fmov	w12, s1
	tbnz	w12, #0, LBB126_14
	sqxtun	v0.8b, v0.8h
	add	x12, x9, x10
	mov	x6, x10
	mov	x5, x11
	stur	d0, [x12, #-8]
	b	LBB126_14
LBB126_13:
	mov	x6, xzr
	mov	x5, xzr
LBB126_14:
	sub	x10, x24, x5
	cmp	x10, #15
	b.ls	LBB126_23
LBB126_15:
	sub	x10, x24, #8
	cmp	x10, #183
	b.hi	LBB126_18
	sub	x10, x24, x5
	cmp	x10, #8
	b.lo	LBB126_18
	add	x0, x25, x5
	sub	x1, x24, x5
	add	x2, x9, x6
	sub	x3, x8, x6
	mov	x21, x6
	mov	x26, x5
	bl	"_utf16_to_utf8::vectors::write_vectors::<#8b18edd9dd9aa8df>"
	add	x5, x0, x26
	add	x6, x1, x21
LBB126_18:
	cmp	x5, x24
	b.eq	LBB126_85
	sub	x0, x29, #24
	sub	x2, x28, x20
	add	x3, x22, x23
	sub	x4, x27, x23
	mov	x1, x25
	bl	"_utf16_transcode::transcoding::transcode_many::<#b8dc3d53e12e85b3>"
	ldp	x9, x10, [x29, #-24]
	ldurb	w8, [x29, #-8]
	cmp	w8, #1
	add	x9, x9, x20
	add	x10, x10, x23
	b.ne	LBB126_39
	sub	x8, x29, #28
	ldrh	w11, [x8, x9]
	rev	w13, w11
	rev16	w11, w11
	lsr	w8, w13, #16
	cmp	w8, #127
	add	x8, x22, x10
	b.hi	LBB126_32
	cmp	x27, x10
	b.eq	LBB126_37
	strb	w11, [x8]
	mov	w8, #1
	b	LBB126_4
LBB126_23:
	cmp	x10, #2
	b.lo	LBB126_15
	lsr	x11, x10, #1
	sub	x12, x8, x6
	add	x11, x11, x11, lsl #1
	cmp	x12, x11
	b.hs	LBB126_27
	b	LBB126_15
LBB126_25:
	strb	w11, [x9, x6]
	add	x6, x6, #1
LBB126_26:
	sub	x10, x10, #2
	add	x5, x5, #2
	cmp	x10, #1
	b.ls	LBB126_15
LBB126_27:
	ldrh	w11, [x25, x5]
	rev	w12, w11
	rev16	w11, w11
	lsr	w12, w12, #16
	cmp	w12, #127
	b.ls	LBB126_25
	and	w12, w11, #0xffff
	cmp	w12, #2047
	b.hi	LBB126_30
	lsr	w12, w11, #6
	orr	w12, w12, #0xc0
	and	w12, w12, #0xff
	bfi	w12, w11, #8, #6
	add	x11, x6, #2
	orr	w12, w12, #0x8000
	strh	w12, [x9, x6]
	mov	x6, x11
	b	LBB126_26
LBB126_30:
	ubfx	w12, w11, #11, #5
	cmp	w12, #27
	b.eq	LBB126_15
	mov	w12, #224
	mov	w13, #128
	mov	w14, #128
	bfxil	w12, w11, #12, #4
	bfxil	w13, w11, #6, #6
	bfxil	w14, w11, #0, #6
	add	x15, x9, x6
	add	x6, x6, #3
	strb	w12, [x15]
	strb	w13, [x15, #1]
	strb	w14, [x15, #2]
	b	LBB126_26
LBB126_32:
	mov	w12, #-128
	and	w14, w11, #0xffff
	bfxil	w12, w13, #16, #6
	cmp	w14, #2047
	sub	x13, x27, x10
	b.hi	LBB126_35
	cmp	x13, #2
	b.lo	LBB126_38
	lsr	w11, w11, #6
	orr	w11, w11, #0xc0
	bfi	w11, w12, #8, #24
	strh	w11, [x8]
	mov	w8, #2
	b	LBB126_4
LBB126_35:
	cmp	x13, #3
	b.lo	LBB126_38
	mov	w13, #224
	mov	w14, #128
	strb	w12, [x8, #2]
	bfxil	w13, w11, #12, #4
	bfxil	w14, w11, #6, #6
	strb	w13, [x8]
	strb	w14, [x8, #1]
	mov	w8, #3
	b	LBB126_4
LBB126_37:
	ldur	x24, [x29, #-56]
	ldr	x10, [sp, #64]
	mov	w8, #3
	sub	x10, x10, x24
	b	LBB126_40
LBB126_38:
	mov	w8, #3
LBB126_39:
	ldur	x24, [x29, #-56]
LBB126_40:
	ldur	x25, [x29, #-48]
	ldr	x22, [sp, #16]
	add	x19, x9, x19
	add	x24, x10, x24
	cbz	x9, LBB126_169
	ldr	x10, [sp, #8]
	cmp	w8, #3
	b.eq	LBB126_179
	cmp	x19, x10
	b.lo	LBB126_3
	b	LBB126_90
LBB126_43:
	ldr	w11, [x0]
	mov	w10, #3
	lsr	w9, w11, #24
	stp	wzr, w11, [x29, #-36]
	cmp	w9, #3
	csel	w10, w9, w10, lo
	str	x10, [sp, #8]
	cbz	w9, LBB126_125
	mov	x19, xzr
	mov	x24, xzr
	str	x22, [sp, #16]
LBB126_45:
	sub	x21, x10, x19
	mov	w8, #4
	sub	x9, x29, #32
	sub	x8, x8, x21
	sub	x0, x29, #24
	add	x1, x9, x19
	cmp	x8, x25
	sub	x2, x10, x19
	stur	wzr, [x29, #-24]
	csel	x25, x8, x25, lo
	sub	x20, x29, #24
	bl	_memcpy
	ldr	x8, [sp, #48]
	add	x0, x20, x21
	mov	x2, x25
	add	x1, x22, x8
	bl	_memcpy
	ldur	w8, [x29, #-24]
	mov	x20, xzr
	mov	x23, xzr
	add	x28, x25, x21
	str	x25, [sp]
	stur	w8, [x29, #-28]
	ldr	x8, [sp, #56]
	stur	x24, [x29, #-56]
	add	x22, x8, x24
	ldr	x8, [sp, #64]
	sub	x27, x8, x24
	b	LBB126_47
LBB126_46:
	add	x20, x9, #2
	add	x23, x8, x10
LBB126_47:
	sub	x24, x28, x20
	sub	x8, x29, #28
	stp	xzr, xzr, [x29, #-24]
	sub	x9, x24, #16
	add	x25, x8, x20
	sub	x8, x27, x23
	cmp	x9, #175
	add	x9, x22, x23
	stur	xzr, [x29, #-8]
	b.hi	LBB126_55
	lsr	x10, x24, #1
	cmp	x8, x10
	csel	x10, x8, x10, lo
	cmp	x10, #8
	b.lo	LBB126_55
	lsl	x11, x10, #1
	mov	x5, xzr
	mov	x6, xzr
	mov	x12, x11
LBB126_50:
	movi	v1.8h, #127
	ldr	q0, [x25, x5]
	cmhi	v1.8h, v0.8h, v1.8h
	umaxv	h1, v1.8h
	fmov	w13, s1
	tbnz	w13, #0, LBB126_56
	sqxtun	v0.8b, v0.8h
	sub	x12, x12, #16
	add	x5, x5, #16
	cmp	x12, #15
	str	d0, [x9, x6]
	add	x6, x6, #8
	b.hi	LBB126_50
	cmp	x11, x5
	b.ls	LBB126_56
	movi	v1.8h, #127
	add	x12, x25, x11
	ldur	q0, [x12, #-16]
	cmhi	v1.8h, v0.8h, v1.8h
	umaxv	h1, v1.8h
	fmov	w12, s1
	tbnz	w12, #0, LBB126_56
	sqxtun	v0.8b, v0.8h
	add	x12, x9, x10
	mov	x6, x10
	mov	x5, x11
	stur	d0, [x12, #-8]
	b	LBB126_56
LBB126_55:
	mov	x6, xzr
	mov	x5, xzr
LBB126_56:
	sub	x10, x24, x5
	cmp	x10, #15
	b.ls	LBB126_65
LBB126_57:
	sub	x10, x24, #8
	cmp	x10, #183
	b.hi	LBB126_60
	sub	x10, x24, x5
	cmp	x10, #8
	b.lo	LBB126_60
	add	x0, x25, x5
	sub	x1, x24, x5
	add	x2, x9, x6
	sub	x3, x8, x6
	mov	x21, x6
	mov	x26, x5
	bl	"_utf16_to_utf8::vectors::write_vectors::<#418c2b53cf60437c>"
	add	x5, x0, x26
	add	x6, x1, x21
LBB126_60:
	cmp	x5, x24
	b.eq	LBB126_87
	sub	x0, x29, #24
	sub	x2, x28, x20
	add	x3, x22, x23
	sub	x4, x27, x23
	mov	x1, x25
	bl	"_utf16_transcode::transcoding::transcode_many::<#556930da7d070edc>"
	ldp	x9, x10, [x29, #-24]
	ldurb	w8, [x29, #-8]
	cmp	w8, #1
	add	x9, x9, x20
	add	x10, x10, x23
	b.ne	LBB126_81
	sub	x8, x29, #28
	add	x8, x8, x9
	ldrb	w14, [x8]
	ldrb	w13, [x8, #1]
	add	x8, x22, x10
	orr	w11, w14, w13, lsl #8
	cmp	w11, #127
	b.hi	LBB126_74
	cmp	x27, x10
	b.eq	LBB126_79
	strb	w14, [x8]
	mov	w8, #1
	b	LBB126_46
LBB126_65:
	cmp	x10, #2
	b.lo	LBB126_57
	lsr	x11, x10, #1
	sub	x12, x8, x6
	add	x11, x11, x11, lsl #1
	cmp	x12, x11
	b.hs	LBB126_69
	b	LBB126_57
LBB126_67:
	strb	w11, [x9, x6]
	add	x6, x6, #1
LBB126_68:
	sub	x10, x10, #2
	add	x5, x5, #2
	cmp	x10, #1
	b.ls	LBB126_57
LBB126_69:
	add	x12, x25, x5
	ldrb	w11, [x12]
	ldrb	w13, [x12, #1]
	orr	w12, w11, w13, lsl #8
	cmp	w12, #127
	b.ls	LBB126_67
	cmp	w13, #7
	b.hi	LBB126_72
	lsr	w12, w12, #6
	orr	w12, w12, #0xc0
	and	w12, w12, #0xff
	bfi	w12, w11, #8, #6
	add	x11, x6, #2
	orr	w12, w12, #0x8000
	strh	w12, [x9, x6]
	mov	x6, x11
	b	LBB126_68
LBB126_72:
	and	w14, w13, #0xf8
	cmp	w14, #216
	b.eq	LBB126_57
	lsr	w13, w13, #4
	mov	w14, #128
	mov	w15, #128
	bfxil	w14, w12, #6, #6
	bfxil	w15, w11, #0, #6
	add	x16, x9, x6
	orr	w12, w13, #0xe0
	add	x6, x6, #3
	strb	w12, [x16]
	strb	w14, [x16, #1]
	strb	w15, [x16, #2]
	b	LBB126_68
LBB126_74:
	mov	w12, #-128
	cmp	w13, #7
	bfxil	w12, w14, #0, #6
	sub	x14, x27, x10
	b.hi	LBB126_77
	cmp	x14, #2
	b.lo	LBB126_80
	lsr	w11, w11, #6
	orr	w11, w11, #0xc0
	bfi	w11, w12, #8, #24
	strh	w11, [x8]
	mov	w8, #2
	b	LBB126_46
LBB126_77:
	cmp	x14, #3
	b.lo	LBB126_80
	lsr	w13, w13, #4
	mov	w14, #128
	strb	w12, [x8, #2]
	bfxil	w14, w11, #6, #6
	orr	w11, w13, #0xe0
	strb	w11, [x8]
	strb	w14, [x8, #1]
	mov	w8, #3
	b	LBB126_46
LBB126_79:
	ldur	x24, [x29, #-56]
	ldr	x10, [sp, #64]
	mov	w8, #3
	sub	x10, x10, x24
	b	LBB126_82
LBB126_80:
	mov	w8, #3
LBB126_81:
	ldur	x24, [x29, #-56]
LBB126_82:
	ldur	x25, [x29, #-48]
	ldr	x22, [sp, #16]
	add	x19, x9, x19
	add	x24, x10, x24
	cbz	x9, LBB126_174
	ldr	x10, [sp, #8]
	cmp	w8, #3
	b.eq	LBB126_180
	cmp	x19, x10
	b.lo	LBB126_45
	b	LBB126_126
LBB126_85:
	ldur	x8, [x29, #-56]
	ldp	x9, x10, [sp]
	add	x8, x23, x8
	add	x19, x9, x10
	add	x24, x8, x6
	cbz	x28, LBB126_163
	ldr	x22, [sp, #16]
	b	LBB126_90
LBB126_87:
	ldur	x8, [x29, #-56]
	ldp	x9, x10, [sp]
	add	x8, x23, x8
	add	x19, x9, x10
	add	x24, x8, x6
	cbz	x28, LBB126_164
	ldr	x22, [sp, #16]
	b	LBB126_126
LBB126_89:
	mov	x24, xzr
	mov	x19, xzr
LBB126_90:
	ldp	x9, x8, [sp, #40]
	sub	x26, x19, x10
	mov	x28, xzr
	mov	x27, xzr
	stur	x24, [x29, #-56]
	add	x25, x9, x26
	ldr	x9, [sp, #56]
	add	x8, x8, x19
	sub	x8, x8, x10
	add	x23, x9, x24
	ldr	x9, [sp, #64]
	add	x8, x8, x22
	add	x8, x8, #1
	sub	x22, x9, x24
	str	x8, [sp, #64]
	b	LBB126_94
LBB126_91:
	cmp	x13, #3
	b.lo	LBB126_165
	mov	w13, #224
	mov	w14, #128
	strb	w12, [x8, #2]
	bfxil	w13, w11, #12, #4
	bfxil	w14, w11, #6, #6
	strb	w13, [x8]
	strb	w14, [x8, #1]
	mov	w8, #3
LBB126_93:
	add	x28, x9, #2
	add	x27, x8, x10
LBB126_94:
	ldur	x9, [x29, #-48]
	add	x8, x26, x28
	sub	x10, x22, x27
	stp	xzr, xzr, [x29, #-24]
	sub	x2, x9, x8
	add	x8, x25, x28
	stur	xzr, [x29, #-8]
	sub	x9, x2, #16
	cmp	x9, #175
	add	x9, x23, x27
	b.hi	LBB126_102
	lsr	x11, x2, #1
	cmp	x10, x11
	csel	x11, x10, x11, lo
	cmp	x11, #8
	b.lo	LBB126_102
	lsl	x12, x11, #1
	mov	x5, xzr
	mov	x6, xzr
	mov	x13, x12
LBB126_97:
	ldr	q0, [x8, x5]
	movi	v1.8h, #127
	rev16	v0.16b, v0.16b
	cmhi	v1.8h, v0.8h, v1.8h
	umaxv	h1, v1.8h
	fmov	w14, s1
	tbnz	w14, #0, LBB126_103
	sqxtun	v0.8b, v0.8h
	sub	x13, x13, #16
	add	x5, x5, #16
	cmp	x13, #15
	str	d0, [x9, x6]
	add	x6, x6, #8
	b.hi	LBB126_97
	cmp	x12, x5
	b.ls	LBB126_103
	add	x13, x8, x12
	movi	v1.8h, #127
	ldur	q0, [x13, #-16]
	rev16	v0.16b, v0.16b
	cmhi	v1.8h, v0.8h, v1.8h
	umaxv	h1, v1.8h
	fmov	w13, s1
	tbnz	w13, #0, LBB126_103
	sqxtun	v0.8b, v0.8h
	add	x13, x9, x11
	mov	x6, x11
	mov	x5, x12
	stur	d0, [x13, #-8]
	b	LBB126_103
LBB126_102:
	mov	x6, xzr
	mov	x5, xzr
LBB126_103:
	sub	x11, x2, x5
	cmp	x11, #15
	b.ls	LBB126_112
LBB126_104:
	sub	x11, x2, #8
	cmp	x11, #183
	b.hi	LBB126_107
	sub	x11, x2, x5
	cmp	x11, #8
	b.lo	LBB126_107
	add	x0, x8, x5
	sub	x1, x2, x5
	mov	x20, x2
	add	x2, x9, x6
	sub	x3, x10, x6
	mov	x21, x6
	mov	x24, x5
	bl	"_utf16_to_utf8::vectors::write_vectors::<#8b18edd9dd9aa8df>"
	mov	x2, x20
	add	x5, x0, x24
	add	x6, x1, x21
LBB126_107:
	cmp	x5, x2
	b.eq	LBB126_161
	sub	x0, x29, #24
	add	x1, x25, x28
	add	x3, x23, x27
	sub	x4, x22, x27
	bl	"_utf16_transcode::transcoding::transcode_many::<#b8dc3d53e12e85b3>"
	ldp	x9, x10, [x29, #-24]
	ldurb	w8, [x29, #-8]
	cmp	w8, #1
	add	x9, x9, x28
	add	x10, x10, x27
	b.ne	LBB126_168
	ldrh	w11, [x25, x9]
	rev	w13, w11
	rev16	w11, w11
	lsr	w8, w13, #16
	cmp	w8, #127
	add	x8, x23, x10
	b.hi	LBB126_122
	cmp	x22, x10
	b.eq	LBB126_167
	strb	w11, [x8]
	mov	w8, #1
	b	LBB126_93
LBB126_112:
	cmp	x11, #2
	b.lo	LBB126_104
	lsr	x12, x11, #1
	sub	x13, x10, x6
	add	x12, x12, x12, lsl #1
	cmp	x13, x12
	b.lo	LBB126_104
	ldr	x13, [sp, #64]
	add	x12, x5, x28
	add	x12, x13, x12
	b	LBB126_117
LBB126_115:
	strb	w13, [x9, x6]
	add	x6, x6, #1
LBB126_116:
	sub	x11, x11, #2
	add	x12, x12, #2
	add	x5, x5, #2
	cmp	x11, #1
	b.ls	LBB126_104
LBB126_117:
	ldurh	w13, [x12, #-1]
	rev	w14, w13
	rev16	w13, w13
	lsr	w14, w14, #16
	cmp	w14, #127
	b.ls	LBB126_115
	and	w14, w13, #0xffff
	cmp	w14, #2047
	b.hi	LBB126_120
	lsr	w14, w13, #6
	orr	w14, w14, #0xc0
	and	w14, w14, #0xff
	bfi	w14, w13, #8, #6
	add	x13, x6, #2
	orr	w14, w14, #0x8000
	strh	w14, [x9, x6]
	mov	x6, x13
	b	LBB126_116
LBB126_120:
	ubfx	w14, w13, #11, #5
	cmp	w14, #27
	b.eq	LBB126_104
	mov	w14, #224
	mov	w15, #128
	mov	w16, #128
	bfxil	w14, w13, #12, #4
	bfxil	w15, w13, #6, #6
	bfxil	w16, w13, #0, #6
	add	x17, x9, x6
	add	x6, x6, #3
	strb	w14, [x17]
	strb	w15, [x17, #1]
	strb	w16, [x17, #2]
	b	LBB126_116
LBB126_122:
	mov	w12, #-128
	and	w14, w11, #0xffff
	bfxil	w12, w13, #16, #6
	cmp	w14, #2047
	sub	x13, x22, x10
	b.hi	LBB126_91
	cmp	x13, #2
	b.lo	LBB126_165
	lsr	w11, w11, #6
	orr	w11, w11, #0xc0
	bfi	w11, w12, #8, #24
	strh	w11, [x8]
	mov	w8, #2
	b	LBB126_93
LBB126_125:
	mov	x24, xzr
	mov	x19, xzr
LBB126_126:
	ldp	x9, x8, [sp, #40]
	sub	x26, x19, x10
	mov	x28, xzr
	mov	x27, xzr
	stur	x24, [x29, #-56]
	add	x25, x9, x26
	ldr	x9, [sp, #56]
	add	x8, x8, x19
	sub	x8, x8, x10
	add	x23, x9, x24
	ldr	x9, [sp, #64]
	add	x8, x8, x22
	add	x8, x8, #1
	sub	x22, x9, x24
	str	x8, [sp, #64]
	b	LBB126_130
LBB126_127:
	cmp	x14, #3
	b.lo	LBB126_166
	lsr	w13, w13, #4
	mov	w14, #128
	strb	w12, [x8, #2]
	bfxil	w14, w11, #6, #6
	orr	w11, w13, #0xe0
	strb	w11, [x8]
	strb	w14, [x8, #1]
	mov	w8, #3
LBB126_129:
	add	x28, x9, #2
	add	x27, x8, x10
LBB126_130:
	ldur	x9, [x29, #-48]
	add	x8, x26, x28
	sub	x10, x22, x27
	stp	xzr, xzr, [x29, #-24]
	sub	x2, x9, x8
	add	x8, x25, x28
	stur	xzr, [x29, #-8]
	sub	x9, x2, #16
	cmp	x9, #175
	add	x9, x23, x27
	b.hi	LBB126_138
	lsr	x11, x2, #1
	cmp	x10, x11
	csel	x11, x10, x11, lo
	cmp	x11, #8
	b.lo	LBB126_138
	lsl	x12, x11, #1
	mov	x5, xzr
	mov	x6, xzr
	mov	x13, x12
LBB126_133:
	movi	v1.8h, #127
	ldr	q0, [x8, x5]
	cmhi	v1.8h, v0.8h, v1.8h
	umaxv	h1, v1.8h
	fmov	w14, s1
	tbnz	w14, #0, LBB126_139
	sqxtun	v0.8b, v0.8h
	sub	x13, x13, #16
	add	x5, x5, #16
	cmp	x13, #15
	str	d0, [x9, x6]
	add	x6, x6, #8
	b.hi	LBB126_133
	cmp	x12, x5
	b.ls	LBB126_139
	movi	v1.8h, #127
	add	x13, x8, x12
	ldur	q0, [x13, #-16]
	cmhi	v1.8h, v0.8h, v1.8h
	umaxv	h1, v1.8h
	fmov	w13, s1
	tbnz	w13, #0, LBB126_139
	sqxtun	v0.8b, v0.8h
	add	x13, x9, x11
	mov	x6, x11
	mov	x5, x12
	stur	d0, [x13, #-8]
	b	LBB126_139
LBB126_138:
	mov	x6, xzr
	mov	x5, xzr
LBB126_139:
	sub	x11, x2, x5
	cmp	x11, #15
	b.ls	LBB126_148
LBB126_140:
	sub	x11, x2, #8
	cmp	x11, #183
	b.hi	LBB126_143
	sub	x11, x2, x5
	cmp	x11, #8
	b.lo	LBB126_143
	add	x0, x8, x5
	sub	x1, x2, x5
	mov	x20, x2
	add	x2, x9, x6
	sub	x3, x10, x6
	mov	x21, x6
	mov	x24, x5
	bl	"_utf16_to_utf8::vectors::write_vectors::<#418c2b53cf60437c>"
	mov	x2, x20
	add	x5, x0, x24
	add	x6, x1, x21
LBB126_143:
	cmp	x5, x2
	b.eq	LBB126_162
	sub	x0, x29, #24
	add	x1, x25, x28
	add	x3, x23, x27
	sub	x4, x22, x27
	bl	"_utf16_transcode::transcoding::transcode_many::<#556930da7d070edc>"
	ldp	x9, x10, [x29, #-24]
	ldurb	w8, [x29, #-8]
	cmp	w8, #1
	add	x9, x9, x28
	add	x10, x10, x27
	b.ne	LBB126_173
	add	x8, x25, x9
	ldrb	w14, [x8]
	ldrb	w13, [x8, #1]
	add	x8, x23, x10
	orr	w11, w14, w13, lsl #8
	cmp	w11, #127
	b.hi	LBB126_158
	cmp	x22, x10
	b.eq	LBB126_172
	strb	w14, [x8]
	mov	w8, #1
	b	LBB126_129
LBB126_148:
	cmp	x11, #2
	b.lo	LBB126_140
	lsr	x12, x11, #1
	sub	x13, x10, x6
	add	x12, x12, x12, lsl #1
	cmp	x13, x12
	b.lo	LBB126_140
	ldr	x13, [sp, #64]
	add	x12, x5, x28
	add	x12, x13, x12
	b	LBB126_153
LBB126_151:
	strb	w13, [x9, x6]
	add	x6, x6, #1
LBB126_152:
	sub	x11, x11, #2
	add	x12, x12, #2
	add	x5, x5, #2
	cmp	x11, #1
	b.ls	LBB126_140
LBB126_153:
	ldurb	w13, [x12, #-1]
	ldrb	w15, [x12]
	orr	w14, w13, w15, lsl #8
	cmp	w14, #127
	b.ls	LBB126_151
	cmp	w15, #7
	b.hi	LBB126_156
	lsr	w14, w14, #6
	orr	w14, w14, #0xc0
	and	w14, w14, #0xff
	bfi	w14, w13, #8, #6
	add	x13, x6, #2
	orr	w14, w14, #0x8000
	strh	w14, [x9, x6]
	mov	x6, x13
	b	LBB126_152
LBB126_156:
	and	w16, w15, #0xf8
	cmp	w16, #216
	b.eq	LBB126_140
	lsr	w15, w15, #4
	mov	w16, #128
	mov	w17, #128
	bfxil	w16, w14, #6, #6
	bfxil	w17, w13, #0, #6
	add	x0, x9, x6
	orr	w14, w15, #0xe0
	add	x6, x6, #3
	strb	w14, [x0]
	strb	w16, [x0, #1]
	strb	w17, [x0, #2]
	b	LBB126_152
LBB126_158:
	mov	w12, #-128
	cmp	w13, #7
	bfxil	w12, w14, #0, #6
	sub	x14, x22, x10
	b.hi	LBB126_127
	cmp	x14, #2
	b.lo	LBB126_166
	lsr	w11, w11, #6
	orr	w11, w11, #0xc0
	bfi	w11, w12, #8, #24
	strh	w11, [x8]
	mov	w8, #2
	b	LBB126_129
LBB126_161:
	mov	w8, wzr
	add	x9, x2, x28
	add	x10, x6, x27
	b	LBB126_168
LBB126_162:
	mov	w8, wzr
	add	x9, x2, x28
	add	x10, x6, x27
	b	LBB126_173
LBB126_163:
	sub	x8, x29, #32
	subs	x9, x19, x10
	ldur	x25, [x29, #-48]
	mov	x22, xzr
	add	x1, x8, x10
	csel	x19, xzr, x9, lo
	b	LBB126_171
LBB126_164:
	sub	x8, x29, #32
	subs	x9, x19, x10
	ldur	x25, [x29, #-48]
	mov	x22, xzr
	add	x1, x8, x10
	csel	x19, xzr, x9, lo
	b	LBB126_176
LBB126_165:
	mov	w8, #3
	b	LBB126_168
LBB126_166:
	mov	w8, #3
	b	LBB126_173
LBB126_167:
	mov	w8, #3
	mov	x10, x22
LBB126_168:
	ldp	x24, x25, [x29, #-56]
	add	x19, x9, x19
	add	x24, x10, x24
LBB126_169:
	ldr	x10, [sp, #8]
	sub	x11, x29, #32
	cmp	x10, x19
	mov	x12, x10
	csel	x9, x10, x19, lo
	subs	x10, x19, x10
	csel	x19, xzr, x10, lo
	cmp	w8, #3
	add	x1, x11, x9
	sub	x22, x12, x9
	b.ne	LBB126_171
LBB126_170:
	sub	x0, x29, #24
	mov	x2, x22
	sturb	wzr, [x29, #-22]
	sturh	wzr, [x29, #-24]
	bl	_memcpy
	ldurb	w8, [x29, #-22]
	ldurh	w9, [x29, #-24]
	ldr	x10, [sp, #24]
	orr	w8, w9, w8, lsl #16
	orr	w9, w8, w22, lsl #24
	mov	w8, #3
	b	LBB126_178
LBB126_171:
	mov	w8, #4
	sub	x9, x25, x19
	sub	x0, x29, #24
	sub	x8, x8, x22
	mov	x2, x22
	stur	wzr, [x29, #-24]
	cmp	x8, x9
	sub	x20, x29, #24
	csel	x23, x8, x9, lo
	bl	_memcpy
	ldr	x8, [sp, #40]
	add	x0, x20, x22
	mov	x2, x23
	add	x1, x8, x19
	bl	_memcpy
	ldur	w8, [x29, #-24]
	add	x22, x23, x22
	sub	x0, x29, #24
	sub	x1, x29, #36
	mov	x2, x22
	sturb	wzr, [x29, #-22]
	stur	w8, [x29, #-36]
	sturh	wzr, [x29, #-24]
	bl	_memcpy
	ldurb	w9, [x29, #-22]
	ldurh	w10, [x29, #-24]
	mov	w8, wzr
	orr	w9, w10, w9, lsl #16
	orr	w9, w9, w22, lsl #24
	b	LBB126_177
LBB126_172:
	mov	w8, #3
	mov	x10, x22
LBB126_173:
	ldp	x24, x25, [x29, #-56]
	add	x19, x9, x19
	add	x24, x10, x24
LBB126_174:
	ldr	x10, [sp, #8]
	sub	x11, x29, #32
	cmp	x10, x19
	mov	x12, x10
	csel	x9, x10, x19, lo
	subs	x10, x19, x10
	csel	x19, xzr, x10, lo
	cmp	w8, #3
	add	x1, x11, x9
	sub	x22, x12, x9
	b.ne	LBB126_176
LBB126_175:
	sub	x0, x29, #24
	mov	x2, x22
	sturb	wzr, [x29, #-22]
	sturh	wzr, [x29, #-24]
	bl	_memcpy
	ldurb	w8, [x29, #-22]
	ldurh	w9, [x29, #-24]
	mov	x25, x19
	orr	w8, w9, w8, lsl #16
	orr	w9, w8, w22, lsl #24
	mov	w8, #3
	b	LBB126_177
LBB126_176:
	mov	w8, #4
	sub	x9, x25, x19
	sub	x0, x29, #24
	sub	x8, x8, x22
	mov	x2, x22
	stur	wzr, [x29, #-24]
	cmp	x8, x9
	sub	x20, x29, #24
	csel	x23, x8, x9, lo
	bl	_memcpy
	ldr	x8, [sp, #40]
	add	x0, x20, x22
	mov	x2, x23
	add	x1, x8, x19
	bl	_memcpy
	ldur	w8, [x29, #-24]
	add	x22, x23, x22
	sub	x0, x29, #24
	sub	x1, x29, #36
	mov	x2, x22
	sturb	wzr, [x29, #-22]
	stur	w8, [x29, #-36]
	sturh	wzr, [x29, #-24]
	bl	_memcpy
	ldurb	w8, [x29, #-22]
	ldurh	w9, [x29, #-24]
	orr	w8, w9, w8, lsl #16
	orr	w9, w8, w22, lsl #24
	mov	w8, wzr
LBB126_177:
	ldr	x10, [sp, #24]
	mov	x19, x25
LBB126_178:
	str	w9, [x10]
	ldr	x9, [sp, #32]
	cmp	w8, #0
	mov	w8, #3
	csel	w8, wzr, w8, eq
	stp	x19, x24, [x9]
	stp	w8, wzr, [x9, #16]
	.cfi_def_cfa wsp, 224
	ldp	x20, x19, [sp, #208]
	ldp	x22, x21, [sp, #192]
	ldp	x24, x23, [sp, #176]
	ldp	x26, x25, [sp, #160]
	ldp	x28, x27, [sp, #144]
	ldp	x29, x30, [sp, #128]
	add	sp, sp, #224
	.cfi_def_cfa_offset 0
	.cfi_restore w19
	.cfi_restore w20
	.cfi_restore w21
	.cfi_restore w22
	.cfi_restore w23
	.cfi_restore w24
	.cfi_restore w25
	.cfi_restore w26
	.cfi_restore w27
	.cfi_restore w28
	.cfi_restore w30
	.cfi_restore w29
	ret
LBB126_179:
	.cfi_restore_state
	cmp	x10, x19
	sub	x9, x29, #32
	mov	x11, x10
	csel	x8, x10, x19, lo
	subs	x10, x19, x10
	add	x1, x9, x8
	sub	x22, x11, x8
	csel	x19, xzr, x10, lo
	b	LBB126_170
LBB126_180:
	cmp	x10, x19
	sub	x9, x29, #32
	mov	x11, x10
	csel	x8, x10, x19, lo
	subs	x10, x19, x10
	add	x1, x9, x8
	sub	x22, x11, x8
	csel	x19, xzr, x10, lo
	b	LBB126_175
Lfunc_end126:
	.cfi_endproc

	.section	__TEXT,__text,regular,pure_instructions
	.globl	_dethrux_wtf8_decoder_finish_aarch64
	.private_extern	_dethrux_wtf8_decoder_finish_aarch64
	.p2align	2
_dethrux_wtf8_decoder_finish_aarch64:
	.cfi_startproc
	hint	#34
	ldrb	w11, [x0, #3]
	cmp	x2, #0
	mov	w9, #4096
	csel	x10, x9, xzr, eq
	mov	w9, #3
	cmp	w11, #3
	add	x10, x2, x10
	csel	w9, w11, w9, lo
	cmp	w1, #1
	b.ne	LBB127_3
	cmp	w11, #2
	b.hs	LBB127_5
	ubfiz	w9, w9, #1, #1
	str	wzr, [x0]
	stp	xzr, xzr, [x8]
	stp	w9, wzr, [x8, #16]
	ret
LBB127_3:
	cmp	w11, #2
	b.hs	LBB127_8
	ubfiz	w9, w9, #1, #1
	str	wzr, [x0]
	stp	xzr, xzr, [x8]
	stp	w9, wzr, [x8, #16]
	ret
LBB127_5:
	ldrh	w11, [x0]
	rev	w13, w11
	rev16	w11, w11
	lsr	w12, w13, #16
	cmp	w12, #127
	b.hi	LBB127_11
	cbz	x3, LBB127_20
	strb	w11, [x10]
	mov	w10, #1
	ubfiz	w9, w9, #1, #1
	str	wzr, [x0]
	stp	xzr, x10, [x8]
	stp	w9, wzr, [x8, #16]
	ret
LBB127_8:
	ldrb	w14, [x0]
	ldrb	w13, [x0, #1]
	orr	w12, w14, w13, lsl #8
	cmp	w12, #127
	b.hi	LBB127_14
	cbz	x3, LBB127_20
	strb	w14, [x10]
	mov	w10, #1
	ubfiz	w9, w9, #1, #1
	str	wzr, [x0]
	stp	xzr, x10, [x8]
	stp	w9, wzr, [x8, #16]
	ret
LBB127_11:
	mov	w12, #-128
	and	w14, w11, #0xffff
	bfxil	w12, w13, #16, #6
	cmp	w14, #2047
	b.hi	LBB127_17
	cmp	x3, #2
	b.lo	LBB127_20
	lsr	w11, w11, #6
	orr	w11, w11, #0xc0
	bfi	w11, w12, #8, #24
	strh	w11, [x10]
	mov	w10, #2
	ubfiz	w9, w9, #1, #1
	str	wzr, [x0]
	stp	xzr, x10, [x8]
	stp	w9, wzr, [x8, #16]
	ret
LBB127_14:
	mov	w11, #-128
	cmp	w13, #7
	bfxil	w11, w14, #0, #6
	b.hi	LBB127_19
	cmp	x3, #2
	b.lo	LBB127_20
	lsr	w12, w12, #6
	orr	w12, w12, #0xc0
	bfi	w12, w11, #8, #24
	strh	w12, [x10]
	mov	w10, #2
	ubfiz	w9, w9, #1, #1
	str	wzr, [x0]
	stp	xzr, x10, [x8]
	stp	w9, wzr, [x8, #16]
	ret
LBB127_17:
	cmp	x3, #3
	b.lo	LBB127_20
	mov	w13, #224
	mov	w14, #128
	strb	w12, [x10, #2]
	bfxil	w13, w11, #12, #4
	bfxil	w14, w11, #6, #6
	strb	w13, [x10]
	b	LBB127_22
LBB127_19:
	cmp	x3, #3
	b.hs	LBB127_21
LBB127_20:
	mov	w9, #3
	stp	xzr, xzr, [x8]
	stp	w9, wzr, [x8, #16]
	ret
LBB127_21:
	lsr	w13, w13, #4
	mov	w14, #128
	strb	w11, [x10, #2]
	bfxil	w14, w12, #6, #6
	orr	w12, w13, #0xe0
	strb	w12, [x10]
LBB127_22:
	strb	w14, [x10, #1]
	mov	w10, #3
	ubfiz	w9, w9, #1, #1
	str	wzr, [x0]
	stp	xzr, x10, [x8]
	stp	w9, wzr, [x8, #16]
	ret
Lfunc_end127:
	.cfi_endproc

	.section	__TEXT,__text,regular,pure_instructions
	.globl	_dethrux_wtf8_encoder_feed_aarch64
	.private_extern	_dethrux_wtf8_encoder_feed_aarch64
	.p2align	2
_dethrux_wtf8_encoder_feed_aarch64:
	.cfi_startproc
	hint	#34
	sub	sp, sp, #192
	.cfi_def_cfa_offset 192
	stp	x29, x30, [sp, #96]
	stp	x28, x27, [sp, #112]
	stp	x26, x25, [sp, #128]
	stp	x24, x23, [sp, #144]
	stp	x22, x21, [sp, #160]
	stp	x20, x19, [sp, #176]
	add	x29, sp, #96
	.cfi_def_cfa w29, 96
	.cfi_offset w19, -8
	.cfi_offset w20, -16
	.cfi_offset w21, -24
	.cfi_offset w22, -32
	.cfi_offset w23, -40
	.cfi_offset w24, -48
	.cfi_offset w25, -56
	.cfi_offset w26, -64
	.cfi_offset w27, -72
	.cfi_offset w28, -80
	.cfi_offset w30, -88
	.cfi_offset w29, -96
	.cfi_remember_state
	mov	x19, x8
	cmp	x2, #0
	mov	w8, #4096
	csel	x9, x8, xzr, eq
	cmp	x4, #0
	mov	x23, x5
	csel	x8, x8, xzr, eq
	mov	x21, x3
	mov	x20, x0
	cmp	w1, #1
	add	x27, x2, x9
	add	x24, x4, x8
	str	x27, [sp, #8]
	b.ne	LBB128_8
	ldur	w8, [x20, #3]
	sub	x0, x29, #32
	add	x1, sp, #40
	str	xzr, [sp, #24]
	sub	x22, x29, #32
	stur	w8, [sp, #43]
	ldr	w8, [x20]
	ldrb	w9, [sp, #46]
	str	wzr, [sp, #32]
	str	w8, [sp, #40]
	mov	w8, #6
	cmp	w9, #6
	str	wzr, [sp, #16]
	csel	w25, w9, w8, lo
	mov	w8, #12
	strh	wzr, [sp, #20]
	sub	x8, x8, x25
	mov	x2, x25
	stur	wzr, [x29, #-24]
	cmp	x8, x21
	stur	xzr, [x29, #-32]
	csel	x26, x8, x21, lo
	bl	_memcpy
	orr	x0, x22, x25
	mov	x1, x27
	mov	x2, x26
	bl	_memcpy
	movi	v0.2d, #0000000000000000
	ldur	x8, [x29, #-32]
	ldur	w9, [x29, #-24]
	add	x26, x26, x25
	sub	x0, x29, #32
	add	x1, sp, #48
	mov	x2, x26
	mov	x3, x24
	mov	x4, x23
	str	x8, [sp, #48]
	str	w9, [sp, #56]
	stp	q0, q0, [x29, #-32]
	bl	"_utf16_wtf8::encode::transcode_wtf8::<#8b18edd9dd9aa8df>"
	ldurb	w8, [x29, #-8]
	ldp	x22, x27, [x29, #-32]
	ldurb	w28, [x29, #-16]
	ldurb	w11, [x29, #-15]
	cmp	w8, #1
	b.ne	LBB128_5
	cmp	w28, #1
	b.gt	LBB128_15
	cbnz	w28, LBB128_5
LBB128_4:
	mov	w11, wzr
	sub	x22, x22, #3
	sub	x27, x27, #2
	mov	w28, #2
LBB128_5:
	cmp	x26, #12
	b.lo	LBB128_22
	cmp	w28, #1
	b.gt	LBB128_16
	cbz	w28, LBB128_17
	b	LBB128_22
LBB128_8:
	ldur	w8, [x20, #3]
	sub	x0, x29, #32
	add	x1, sp, #40
	str	xzr, [sp, #24]
	sub	x22, x29, #32
	stur	w8, [sp, #43]
	ldr	w8, [x20]
	ldrb	w9, [sp, #46]
	str	wzr, [sp, #32]
	str	w8, [sp, #40]
	mov	w8, #6
	cmp	w9, #6
	str	wzr, [sp, #16]
	csel	w25, w9, w8, lo
	mov	w8, #12
	strh	wzr, [sp, #20]
	sub	x8, x8, x25
	mov	x2, x25
	stur	wzr, [x29, #-24]
	cmp	x8, x21
	stur	xzr, [x29, #-32]
	csel	x26, x8, x21, lo
	bl	_memcpy
	orr	x0, x22, x25
	mov	x1, x27
	mov	x2, x26
	bl	_memcpy
	movi	v0.2d, #0000000000000000
	ldur	x8, [x29, #-32]
	ldur	w9, [x29, #-24]
	add	x26, x26, x25
	sub	x0, x29, #32
	add	x1, sp, #48
	mov	x2, x26
	mov	x3, x24
	mov	x4, x23
	str	x8, [sp, #48]
	str	w9, [sp, #56]
	stp	q0, q0, [x29, #-32]
	bl	"_utf16_wtf8::encode::transcode_wtf8::<#418c2b53cf60437c>"
	ldurb	w8, [x29, #-8]
	ldp	x22, x27, [x29, #-32]
	ldurb	w28, [x29, #-16]
	ldurb	w11, [x29, #-15]
	cmp	w8, #1
	b.ne	LBB128_12
	cmp	w28, #1
	b.gt	LBB128_30
	cbnz	w28, LBB128_12
LBB128_11:
	mov	w11, wzr
	sub	x22, x22, #3
	sub	x27, x27, #2
	mov	w28, #2
LBB128_12:
	cmp	x26, #12
	b.lo	LBB128_37
	cmp	w28, #1
	b.gt	LBB128_31
	cbz	w28, LBB128_32
	b	LBB128_37
LBB128_15:
	cmp	w28, #3
	b.ne	LBB128_4
	b	LBB128_5
LBB128_16:
	cmp	w28, #3
	b.eq	LBB128_22
LBB128_17:
	movi	v0.2d, #0000000000000000
	ldr	x9, [sp, #8]
	sub	x8, x22, x25
	sub	x2, x21, x8
	sub	x4, x23, x27
	sub	x0, x29, #32
	add	x1, x9, x8
	add	x3, x24, x27
	stp	q0, q0, [x29, #-32]
	bl	"_utf16_wtf8::encode::transcode_wtf8::<#8b18edd9dd9aa8df>"
	ldurb	w10, [x29, #-8]
	ldp	x9, x8, [x29, #-32]
	ldurb	w28, [x29, #-16]
	ldurb	w11, [x29, #-15]
	cmp	w10, #1
	b.ne	LBB128_21
	cmp	w28, #1
	b.gt	LBB128_45
	cbnz	w28, LBB128_21
LBB128_20:
	mov	w11, wzr
	sub	x9, x9, #3
	sub	x8, x8, #2
	mov	w28, #2
LBB128_21:
	add	x22, x9, x22
	add	x27, x8, x27
LBB128_22:
	cmp	x25, x22
	csel	x8, x25, x22, lo
	subs	x9, x22, x25
	csel	x26, xzr, x9, lo
	cmp	w28, #1
	add	x9, sp, #40
	sub	x23, x25, x8
	b.gt	LBB128_25
	cbz	w28, LBB128_26
LBB128_24:
	sub	x0, x29, #32
	add	x1, x9, x8
	mov	x2, x23
	sturh	wzr, [x29, #-28]
	mov	w21, w11
	stur	wzr, [x29, #-32]
	bl	_memcpy
	ldur	w8, [x29, #-32]
	ldurh	w9, [x29, #-28]
	mov	w10, w21
	strb	w23, [x20, #6]
	str	w8, [x20]
	strh	w9, [x20, #4]
	cmp	w28, #1
	b.gt	LBB128_27
	b	LBB128_42
LBB128_25:
	cmp	w28, #2
	b.ne	LBB128_24
LBB128_26:
	mov	w10, #12
	sub	x11, x21, x26
	sub	x0, x29, #32
	sub	x10, x10, x23
	add	x1, x9, x8
	mov	x2, x23
	cmp	x10, x11
	stur	wzr, [x29, #-24]
	sub	x22, x29, #32
	csel	x24, x10, x11, lo
	stur	xzr, [x29, #-32]
	bl	_memcpy
	ldr	x8, [sp, #8]
	add	x0, x22, x23
	mov	x2, x24
	add	x1, x8, x26
	bl	_memcpy
	ldur	x8, [x29, #-32]
	ldur	w9, [x29, #-24]
	add	x22, x24, x23
	sub	x0, x29, #32
	add	x1, sp, #24
	mov	x2, x22
	sturh	wzr, [x29, #-28]
	str	x8, [sp, #24]
	str	w9, [sp, #32]
	stur	wzr, [x29, #-32]
	bl	_memcpy
	ldurh	w8, [x29, #-28]
	ldur	w9, [x29, #-32]
	mov	w28, wzr
	mov	w10, wzr
	mov	x26, x21
	strb	w22, [x20, #6]
	strh	w8, [sp, #20]
	str	w9, [sp, #16]
	str	w9, [x20]
	strh	w8, [x20, #4]
	cmp	w28, #1
	b.le	LBB128_42
LBB128_27:
	cmp	w28, #2
	b.ne	LBB128_29
	mov	w8, wzr
	b	LBB128_44
LBB128_29:
	mov	w8, wzr
	mov	w28, #3
	b	LBB128_44
LBB128_30:
	cmp	w28, #3
	b.ne	LBB128_11
	b	LBB128_12
LBB128_31:
	cmp	w28, #3
	b.eq	LBB128_37
LBB128_32:
	movi	v0.2d, #0000000000000000
	ldr	x9, [sp, #8]
	sub	x8, x22, x25
	sub	x2, x21, x8
	sub	x4, x23, x27
	sub	x0, x29, #32
	add	x1, x9, x8
	add	x3, x24, x27
	stp	q0, q0, [x29, #-32]
	bl	"_utf16_wtf8::encode::transcode_wtf8::<#418c2b53cf60437c>"
	ldurb	w10, [x29, #-8]
	ldp	x9, x8, [x29, #-32]
	ldurb	w28, [x29, #-16]
	ldurb	w11, [x29, #-15]
	cmp	w10, #1
	b.ne	LBB128_36
	cmp	w28, #1
	b.gt	LBB128_46
	cbnz	w28, LBB128_36
LBB128_35:
	mov	w11, wzr
	sub	x9, x9, #3
	sub	x8, x8, #2
	mov	w28, #2
LBB128_36:
	add	x22, x9, x22
	add	x27, x8, x27
LBB128_37:
	cmp	x25, x22
	csel	x8, x25, x22, lo
	subs	x9, x22, x25
	csel	x22, xzr, x9, lo
	cmp	w28, #1
	add	x9, sp, #40
	sub	x23, x25, x8
	b.gt	LBB128_40
	cbz	w28, LBB128_41
LBB128_39:
	sub	x0, x29, #32
	add	x1, x9, x8
	mov	x2, x23
	sturh	wzr, [x29, #-28]
	mov	w21, w11
	stur	wzr, [x29, #-32]
	bl	_memcpy
	ldur	w8, [x29, #-32]
	ldurh	w9, [x29, #-28]
	mov	w10, w21
	mov	x21, x22
	strb	w23, [x20, #6]
	str	w8, [x20]
	strh	w9, [x20, #4]
	mov	x26, x21
	cmp	w28, #1
	b.gt	LBB128_27
	b	LBB128_42
LBB128_40:
	cmp	w28, #2
	b.ne	LBB128_39
LBB128_41:
	mov	w10, #12
	sub	x11, x21, x22
	sub	x0, x29, #32
	sub	x10, x10, x23
	add	x1, x9, x8
	mov	x2, x23
	cmp	x10, x11
	stur	wzr, [x29, #-24]
	sub	x25, x29, #32
	csel	x24, x10, x11, lo
	stur	xzr, [x29, #-32]
	bl	_memcpy
	ldr	x8, [sp, #8]
	add	x0, x25, x23
	mov	x2, x24
	add	x1, x8, x22
	bl	_memcpy
	ldur	x8, [x29, #-32]
	ldur	w9, [x29, #-24]
	add	x22, x24, x23
	sub	x0, x29, #32
	add	x1, sp, #24
	mov	x2, x22
	sturh	wzr, [x29, #-28]
	str	x8, [sp, #24]
	str	w9, [sp, #32]
	stur	wzr, [x29, #-32]
	bl	_memcpy
	ldurh	w8, [x29, #-28]
	ldur	w9, [x29, #-32]
	mov	w28, wzr
	mov	w10, wzr
	strb	w22, [x20, #6]
	strh	w8, [sp, #20]
	str	w9, [sp, #16]
	str	w9, [x20]
	strh	w8, [x20, #4]
	mov	x26, x21
	cmp	w28, #1
	b.gt	LBB128_27
LBB128_42:
	mov	w8, w28
	cbz	w28, LBB128_44
	mov	w28, #1
	mov	w8, w10
LBB128_44:
	stp	x26, x27, [x19]
	stp	w28, w8, [x19, #16]
	.cfi_def_cfa wsp, 192
	ldp	x20, x19, [sp, #176]
	ldp	x22, x21, [sp, #160]
	ldp	x24, x23, [sp, #144]
	ldp	x26, x25, [sp, #128]
	ldp	x28, x27, [sp, #112]
	ldp	x29, x30, [sp, #96]
	add	sp, sp, #192
	.cfi_def_cfa_offset 0
	.cfi_restore w19
	.cfi_restore w20
	.cfi_restore w21
	.cfi_restore w22
	.cfi_restore w23
	.cfi_restore w24
	.cfi_restore w25
	.cfi_restore w26
	.cfi_restore w27
	.cfi_restore w28
	.cfi_restore w30
	.cfi_restore w29
	ret
LBB128_45:
	.cfi_restore_state
	cmp	w28, #3
	b.ne	LBB128_20
	b	LBB128_21
LBB128_46:
	cmp	w28, #3
	b.ne	LBB128_35
	b	LBB128_36
Lfunc_end128:
	.cfi_endproc

	.section	__TEXT,__text,regular,pure_instructions
	.globl	_dethrux_wtf8_encoder_finish_aarch64
	.private_extern	_dethrux_wtf8_encoder_finish_aarch64
	.p2align	2
_dethrux_wtf8_encoder_finish_aarch64:
	.cfi_startproc
	hint	#34
	sub	sp, sp, #128
	.cfi_def_cfa_offset 128
	stp	x29, x30, [sp, #64]
	stp	x24, x23, [sp, #80]
	stp	x22, x21, [sp, #96]
	stp	x20, x19, [sp, #112]
	add	x29, sp, #64
	.cfi_def_cfa w29, 64
	.cfi_offset w19, -8
	.cfi_offset w20, -16
	.cfi_offset w21, -24
	.cfi_offset w22, -32
	.cfi_offset w23, -40
	.cfi_offset w24, -48
	.cfi_offset w30, -56
	.cfi_offset w29, -64
	cmp	x2, #0
	mov	w9, #4096
	mov	x4, x3
	mov	x20, x0
	csel	x9, x9, xzr, eq
	cmp	w1, #1
	mov	x19, x8
	b.ne	LBB129_3
	ldur	w8, [x20, #3]
	movi	v0.2d, #0000000000000000
	add	x0, sp, #32
	add	x1, sp, #24
	add	x3, x2, x9
	add	x24, sp, #24
	stur	w8, [sp, #27]
	ldr	w8, [x20]
	ldrb	w10, [sp, #30]
	str	w8, [sp, #24]
	mov	w8, #6
	cmp	w10, #6
	stp	q0, q0, [sp, #32]
	csel	w21, w10, w8, lo
	mov	x2, x21
	bl	"_utf16_wtf8::encode::transcode_wtf8::<#8b18edd9dd9aa8df>"
	ldrb	w22, [sp, #48]
	ldr	q0, [sp, #32]
	ldrb	w23, [sp, #49]
	cmp	w22, #3
	b.eq	LBB129_4
LBB129_2:
	mov	w21, wzr
	strh	wzr, [sp, #36]
	str	wzr, [sp, #32]
	b	LBB129_5
LBB129_3:
	ldur	w8, [x20, #3]
	movi	v0.2d, #0000000000000000
	add	x0, sp, #32
	add	x1, sp, #24
	add	x3, x2, x9
	add	x24, sp, #24
	stur	w8, [sp, #27]
	ldr	w8, [x20]
	ldrb	w10, [sp, #30]
	str	w8, [sp, #24]
	mov	w8, #6
	cmp	w10, #6
	stp	q0, q0, [sp, #32]
	csel	w21, w10, w8, lo
	mov	x2, x21
	bl	"_utf16_wtf8::encode::transcode_wtf8::<#418c2b53cf60437c>"
	ldrb	w22, [sp, #48]
	ldr	q0, [sp, #32]
	ldrb	w23, [sp, #49]
	cmp	w22, #3
	b.ne	LBB129_2
LBB129_4:
	ldr	x8, [sp, #32]
	add	x0, sp, #32
	strh	wzr, [sp, #36]
	str	wzr, [sp, #32]
	sub	x21, x21, x8
	add	x1, x24, x8
	str	q0, [sp]
	mov	x2, x21
	bl	_memcpy
	ldr	q0, [sp]
LBB129_5:
	ldr	w8, [sp, #32]
	ldrh	w9, [sp, #36]
	cmp	w22, #1
	strb	w21, [x20, #6]
	str	w8, [x20]
	strh	w9, [x20, #4]
	b.gt	LBB129_8
	mov	w8, w22
	cbz	w22, LBB129_11
	mov	w22, #1
	mov	w8, w23
	b	LBB129_11
LBB129_8:
	cmp	w22, #2
	b.ne	LBB129_10
	mov	w8, wzr
	b	LBB129_11
LBB129_10:
	mov	w8, wzr
	mov	w22, #3
LBB129_11:
	str	q0, [x19]
	stp	w22, w8, [x19, #16]
	.cfi_def_cfa wsp, 128
	ldp	x20, x19, [sp, #112]
	ldp	x22, x21, [sp, #96]
	ldp	x24, x23, [sp, #80]
	ldp	x29, x30, [sp, #64]
	add	sp, sp, #128
	.cfi_def_cfa_offset 0
	.cfi_restore w19
	.cfi_restore w20
	.cfi_restore w21
	.cfi_restore w22
	.cfi_restore w23
	.cfi_restore w24
	.cfi_restore w30
	.cfi_restore w29
	ret
Lfunc_end129:
	.cfi_endproc

	.section	__TEXT,__literal16,16byte_literals
	.p2align	4, 0x0
lCPI130_0:
	.byte	1
	.byte	2
	.byte	4
	.byte	8
	.byte	16
	.byte	32
	.byte	64
	.byte	128
	.byte	1
	.byte	2
	.byte	4
	.byte	8
	.byte	16
	.byte	32
	.byte	64
	.byte	128
	.section	__TEXT,__text,regular,pure_instructions
	.globl	_dethrux_validate_aarch64
	.private_extern	_dethrux_validate_aarch64
	.p2align	2
_dethrux_validate_aarch64:
	.cfi_startproc
	hint	#34
	sub	sp, sp, #32
	.cfi_def_cfa_offset 32
	stp	x29, x30, [sp, #16]
	add	x29, sp, #16
	.cfi_def_cfa w29, 16
	.cfi_offset w30, -8
	.cfi_offset w29, -16
	.cfi_remember_state
	cmp	x1, #0
	mov	w8, #4096
	csel	x8, x8, xzr, eq
	cmp	w0, #1
	add	x1, x1, x8
	b.ne	LBB130_5
	cmp	x2, #2
	stp	xzr, xzr, [sp]
	b.ne	LBB130_11
	ldrb	w8, [x1]
LBB130_3:
	and	w8, w8, #0xf8
	cmp	w8, #216
	b.ne	LBB130_10
LBB130_4:
	mov	x0, sp
	bl	"_dethrux::validate::validity_of_many::<#8b18edd9dd9aa8df>"
	b	LBB130_9
LBB130_5:
	cmp	x2, #2
	stp	xzr, xzr, [sp]
	b.ne	LBB130_17
	ldrb	w8, [x1, #1]
LBB130_7:
	and	w8, w8, #0xf8
	cmp	w8, #216
	b.ne	LBB130_10
LBB130_8:
	mov	x0, sp
	bl	"_dethrux::validate::validity_of_many::<#418c2b53cf60437c>"
LBB130_9:
	ldr	x2, [sp]
LBB130_10:
	ldr	x1, [sp, #8]
	mov	x0, x2
	.cfi_def_cfa wsp, 32
	ldp	x29, x30, [sp, #16]
	add	sp, sp, #32
	.cfi_def_cfa_offset 0
	.cfi_restore w30
	.cfi_restore w29
	ret
LBB130_11:
	.cfi_restore_state
	cmp	x2, #7
	b.hi	LBB130_23
	cbz	x2, LBB130_10
	cmp	x2, #6
	b.eq	LBB130_33
	cmp	x2, #4
	b.ne	LBB130_4
	ldrb	w8, [x1]
	and	w8, w8, #0xf8
	cmp	w8, #216
	b.eq	LBB130_4
	ldrb	w8, [x1, #2]
	b	LBB130_3
LBB130_17:
	cmp	x2, #7
	b.hi	LBB130_28
	cbz	x2, LBB130_10
	cmp	x2, #6
	b.eq	LBB130_36
	cmp	x2, #4
	b.ne	LBB130_8
	ldrb	w8, [x1, #1]
	and	w8, w8, #0xf8
	cmp	w8, #216
	b.eq	LBB130_8
	ldrb	w8, [x1, #3]
	b	LBB130_7
LBB130_23:
	cmp	x2, #64
	b.hi	LBB130_4
	tbnz	w2, #0, LBB130_4
	cmp	x2, #15
	b.hi	LBB130_39
	movi	v0.4h, #248
	ldr	d2, [x1]
	movi	v1.4h, #216
	and	v2.8b, v2.8b, v0.8b
	cmeq	v2.4h, v2.4h, v1.4h
	umaxv	h2, v2.4h
	fmov	w8, s2
	tbnz	w8, #0, LBB130_4
	add	x8, x1, x2
	ldur	d2, [x8, #-8]
	and	v0.8b, v2.8b, v0.8b
	cmeq	v0.4h, v0.4h, v1.4h
	umaxv	h0, v0.4h
	b	LBB130_42
LBB130_28:
	cmp	x2, #64
	b.hi	LBB130_8
	tbnz	w2, #0, LBB130_8
	cmp	x2, #15
	b.hi	LBB130_43
	ldr	d0, [x1]
	ushr	v1.4h, v0.4h, #8
	movi	v0.4h, #216
	bic	v1.4h, #7
	cmeq	v1.4h, v1.4h, v0.4h
	umaxv	h1, v1.4h
	fmov	w8, s1
	tbnz	w8, #0, LBB130_8
	add	x8, x1, x2
	ldur	d1, [x8, #-8]
	ushr	v1.4h, v1.4h, #8
	bic	v1.4h, #7
	cmeq	v0.4h, v1.4h, v0.4h
	umaxv	h0, v0.4h
	b	LBB130_46
LBB130_33:
	ldrb	w8, [x1]
	and	w8, w8, #0xf8
	cmp	w8, #216
	b.eq	LBB130_4
	ldrb	w8, [x1, #2]
	and	w8, w8, #0xf8
	cmp	w8, #216
	b.eq	LBB130_4
	ldrb	w8, [x1, #4]
	b	LBB130_3
LBB130_36:
	ldrb	w8, [x1, #1]
	and	w8, w8, #0xf8
	cmp	w8, #216
	b.eq	LBB130_8
	ldrb	w8, [x1, #3]
	and	w8, w8, #0xf8
	cmp	w8, #216
	b.eq	LBB130_8
	ldrb	w8, [x1, #5]
	b	LBB130_7
LBB130_39:
	cmp	x2, #31
	b.hi	LBB130_47
	ldr	q0, [x1]
	movi	v1.8b, #216
	xtn	v2.8b, v0.8h
	movi	v0.8b, #248
	and	v2.8b, v2.8b, v0.8b
	cmeq	v2.8b, v2.8b, v1.8b
	umaxv	b2, v2.8b
	fmov	w8, s2
	tbnz	w8, #0, LBB130_4
	add	x8, x1, x2
	ldur	q2, [x8, #-16]
	xtn	v2.8b, v2.8h
	and	v0.8b, v2.8b, v0.8b
	cmeq	v0.8b, v0.8b, v1.8b
	umaxv	b0, v0.8b
LBB130_42:
	fmov	w8, s0
	tbnz	w8, #0, LBB130_4
	b	LBB130_10
LBB130_43:
	cmp	x2, #31
	b.hi	LBB130_49
	ldr	q1, [x1]
	movi	v0.8b, #248
	shrn	v2.8b, v1.8h, #8
	movi	v1.8b, #216
	and	v2.8b, v2.8b, v0.8b
	cmeq	v2.8b, v2.8b, v1.8b
	umaxv	b2, v2.8b
	fmov	w8, s2
	tbnz	w8, #0, LBB130_8
	add	x8, x1, x2
	ldur	q2, [x8, #-16]
	shrn	v2.8b, v2.8h, #8
	and	v0.8b, v2.8b, v0.8b
	cmeq	v0.8b, v0.8b, v1.8b
	umaxv	b0, v0.8b
LBB130_46:
	fmov	w8, s0
	tbnz	w8, #0, LBB130_8
	b	LBB130_10
LBB130_47:
	ldp	q1, q0, [x1]
	adrp	x8, lCPI130_0@PAGE
	uzp1	v2.16b, v1.16b, v0.16b
	movi	v0.16b, #248
	movi	v1.16b, #216
	and	v2.16b, v2.16b, v0.16b
	cmeq	v3.16b, v2.16b, v1.16b
	ldr	q2, [x8, lCPI130_0@PAGEOFF]
	and	v3.16b, v3.16b, v2.16b
	addp	v3.16b, v3.16b, v3.16b
	addp	v3.16b, v3.16b, v3.16b
	addp	v3.16b, v3.16b, v3.16b
	umov	w8, v3.h[0]
	cbnz	w8, LBB130_4
	add	x8, x1, x2
	ldp	q4, q3, [x8, #-32]
	uzp1	v3.16b, v4.16b, v3.16b
	and	v0.16b, v3.16b, v0.16b
	cmeq	v0.16b, v0.16b, v1.16b
	and	v0.16b, v0.16b, v2.16b
	addp	v0.16b, v0.16b, v0.16b
	addp	v0.16b, v0.16b, v0.16b
	addp	v0.16b, v0.16b, v0.16b
	umov	w8, v0.h[0]
	cbnz	w8, LBB130_4
	b	LBB130_10
LBB130_49:
	ldp	q1, q0, [x1]
	adrp	x8, lCPI130_0@PAGE
	uzp2	v2.16b, v1.16b, v0.16b
	movi	v0.16b, #248
	movi	v1.16b, #216
	and	v2.16b, v2.16b, v0.16b
	cmeq	v3.16b, v2.16b, v1.16b
	ldr	q2, [x8, lCPI130_0@PAGEOFF]
	and	v3.16b, v3.16b, v2.16b
	addp	v3.16b, v3.16b, v3.16b
	addp	v3.16b, v3.16b, v3.16b
	addp	v3.16b, v3.16b, v3.16b
	umov	w8, v3.h[0]
	cbnz	w8, LBB130_8
	add	x8, x1, x2
	ldp	q4, q3, [x8, #-32]
	uzp2	v3.16b, v4.16b, v3.16b
	and	v0.16b, v3.16b, v0.16b
	cmeq	v0.16b, v0.16b, v1.16b
	and	v0.16b, v0.16b, v2.16b
	addp	v0.16b, v0.16b, v0.16b
	addp	v0.16b, v0.16b, v0.16b
	addp	v0.16b, v0.16b, v0.16b
	umov	w8, v0.h[0]
	cbnz	w8, LBB130_8
	b	LBB130_10
Lfunc_end130:
	.cfi_endproc

	.section	__TEXT,__text,regular,pure_instructions
	.globl	_dethrux_detect_bom_aarch64
	.private_extern	_dethrux_detect_bom_aarch64
	.p2align	2
_dethrux_detect_bom_aarch64:
	.cfi_startproc
	hint	#34
	cmp	x2, #1
	mov	w8, w0
	b.hi	LBB131_2
	cmp	w8, #1
	mov	x0, xzr
	mov	x9, #8589934592
	cset	w8, eq
	mov	w8, w8
	orr	x1, x9, x8
	ret
LBB131_2:
	cmp	x1, #0
	mov	w9, #4096
	csel	x9, x9, xzr, eq
	add	x9, x1, x9
	ldrb	w10, [x9]
	ldrb	w9, [x9, #1]
	cmp	w10, #255
	b.eq	LBB131_6
	cmp	w10, #254
	b.ne	LBB131_8
	cmp	w9, #255
	b.ne	LBB131_8
	mov	w8, #1
	mov	x9, #4294967296
	mov	w0, #2
	mov	w8, w8
	orr	x1, x9, x8
	ret
LBB131_6:
	cmp	w9, #254
	b.ne	LBB131_8
	mov	x9, #4294967296
	mov	w0, #2
	mov	w8, wzr
	orr	x1, x9, x8
	ret
LBB131_8:
	cmp	w8, #1
	mov	x0, xzr
	cset	w8, eq
	mov	w8, w8
	mov	x1, x8
	ret
Lfunc_end131:
	.cfi_endproc

	.section	__TEXT,__const
lstatic.1:
	.ascii	"\000\001\002\003\004\005\006\007\000\000\000\000\000\000\000\000\000\001\002\003\004\005\006\007\017\000\000\000\000\000\000\000\000\001\002\003\004\005\006\007\016\017\000\000\000\000\000\000\000\001\002\003\004\005\006\007\r\016\017\000\000\000\000\000\000\001\002\003\004\005\006\007\f\r\016\017\000\000\000\000\000\001\002\003\004\005\006\007\013\f\r\016\017\000\000\000\000\001\002\003\004\005\006\007\n\013\f\r\016\017\000\000\000\001\002\003\004\005\006\007\t\n\013\f\r\016\017\000\000\001\002\003\004\005\006\007\b\t\n\013\f\r\016\017"

	.section	__TEXT,__const
lstatic.2:
	.ascii	"\000\000\000\000\000\000\000\000\000\000\000\000\000\000\000\000\377\377\377\377\377\377\377\377\377\377\377\377\377\377\377\377"

	.section	__TEXT,__const
lstatic.3:
	.ascii	"743210/.-g\362BC\345,+*)('&%$#\"!8 \037\036\035\034\377\224\244\225\210\240\233\255\335\336\206z\350\312\327\340\320\334\314\273\267\263\261\250\262\310\342\303\232\270\256~x\277\235\302\252\275\242\241\226\301\216\211\253\260\271\247\272p\257\300\274\234\214\217{\205\200\223\212\222r\337\227\371\330\356\354\375\343\332\346\367\207\264\361\351\366\364\347\213\365\363\373\353\311\304\360\326\230\266\315\265\177\033\324\323\322\325\344\305\251\237\203\254iPb`aQ\317\221ts\220\202\231yk\204mn|oRlv\215q\201w}\245u\\jSHc]AO\246\355\243\307\276\341\321\313\306\331\333\316\352\370\236\357\377\377\377\377\377\377\377\377\377\377\377\377\377\377\377\377\377\377\377\377\377\377\377\377\377\377\377\377\377\377\377\377\377\377\377\377\377\377\377\377\377\377\377\377\377\377\377\377\377\377\377\377\377\377\377\377\377\377\377\377\377\377\377\377"

	.section	__TEXT,__const
lstatic.6:
	.asciz	"\000\001\002\003\004\005\006\007\b\t\n\013\f\r\016\017\000\002\003\004\005\006\007\b\t\n\013\f\r\016\017\000\000\001\002\004\005\006\007\b\t\n\013\f\r\016\017\000\000\002\004\005\006\007\b\t\n\013\f\r\016\017\000\000\000\001\002\003\004\006\007\b\t\n\013\f\r\016\017\000\000\002\003\004\006\007\b\t\n\013\f\r\016\017\000\000\000\001\002\004\006\007\b\t\n\013\f\r\016\017\000\000\000\002\004\006\007\b\t\n\013\f\r\016\017\000\000\000\000\001\002\003\004\005\006\b\t\n\013\f\r\016\017\000\000\002\003\004\005\006\b\t\n\013\f\r\016\017\000\000\000\001\002\004\005\006\b\t\n\013\f\r\016\017\000\000\000\002\004\005\006\b\t\n\013\f\r\016\017\000\000\000\000\001\002\003\004\006\b\t\n\013\f\r\016\017\000\000\000\002\003\004\006\b\t\n\013\f\r\016\017\000\000\000\000\001\002\004\006\b\t\n\013\f\r\016\017\000\000\000\000\002\004\006\b\t\n\013\f\r\016\017\000\000\000\000\000\001\002\003\004\005\006\007\b\n\013\f\r\016\017\000\000\002\003\004\005\006\007\b\n\013\f\r\016\017\000\000\000\001\002\004\005\006\007\b\n\013\f\r\016\017\000\000\000\002\004\005\006\007\b\n\013\f\r\016\017\000\000\000\000\001\002\003\004\006\007\b\n\013\f\r\016\017\000\000\000\002\003\004\006\007\b\n\013\f\r\016\017\000\000\000\000\001\002\004\006\007\b\n\013\f\r\016\017\000\000\000\000\002\004\006\007\b\n\013\f\r\016\017\000\000\000\000\000\001\002\003\004\005\006\b\n\013\f\r\016\017\000\000\000\002\003\004\005\006\b\n\013\f\r\016\017\000\000\000\000\001\002\004\005\006\b\n\013\f\r\016\017\000\000\000\000\002\004\005\006\b\n\013\f\r\016\017\000\000\000\000\000\001\002\003\004\006\b\n\013\f\r\016\017\000\000\000\000\002\003\004\006\b\n\013\f\r\016\017\000\000\000\000\000\001\002\004\006\b\n\013\f\r\016\017\000\000\000\000\000\002\004\006\b\n\013\f\r\016\017\000\000\000\000\000\000\001\002\003\004\005\006\007\b\t\n\f\r\016\017\000\000\002\003\004\005\006\007\b\t\n\f\r\016\017\000\000\000\001\002\004\005\006\007\b\t\n\f\r\016\017\000\000\000\002\004\005\006\007\b\t\n\f\r\016\017\000\000\000\000\001\002\003\004\006\007\b\t\n\f\r\016\017\000\000\000\002\003\004\006\007\b\t\n\f\r\016\017\000\000\000\000\001\002\004\006\007\b\t\n\f\r\016\017\000\000\000\000\002\004\006\007\b\t\n\f\r\016\017\000\000\000\000\000\001\002\003\004\005\006\b\t\n\f\r\016\017\000\000\000\002\003\004\005\006\b\t\n\f\r\016\017\000\000\000\000\001\002\004\005\006\b\t\n\f\r\016\017\000\000\000\000\002\004\005\006\b\t\n\f\r\016\017\000\000\000\000\000\001\002\003\004\006\b\t\n\f\r\016\017\000\000\000\000\002\003\004\006\b\t\n\f\r\016\017\000\000\000\000\000\001\002\004\006\b\t\n\f\r\016\017\000\000\000\000\000\002\004\006\b\t\n\f\r\016\017\000\000\000\000\000\000\001\002\003\004\005\006\007\b\n\f\r\016\017\000\000\000\002\003\004\005\006\007\b\n\f\r\016\017\000\000\000\000\001\002\004\005\006\007\b\n\f\r\016\017\000\000\000\000\002\004\005\006\007\b\n\f\r\016\017\000\000\000\000\000\001\002\003\004\006\007\b\n\f\r\016\017\000\000\000\000\002\003\004\006\007\b\n\f\r\016\017\000\000\000\000\000\001\002\004\006\007\b\n\f\r\016\017\000\000\000\000\000\002\004\006\007\b\n\f\r\016\017\000\000\000\000\000\000\001\002\003\004\005\006\b\n\f\r\016\017\000\000\000\000\002\003\004\005\006\b\n\f\r\016\017\000\000\000\000\000\001\002\004\005\006\b\n\f\r\016\017\000\000\000\000\000\002\004\005\006\b\n\f\r\016\017\000\000\000\000\000\000\001\002\003\004\006\b\n\f\r\016\017\000\000\000\000\000\002\003\004\006\b\n\f\r\016\017\000\000\000\000\000\000\001\002\004\006\b\n\f\r\016\017\000\000\000\000\000\000\002\004\006\b\n\f\r\016\017\000\000\000\000\000\000\000\001\002\003\004\005\006\007\b\t\n\013\f\016\017\000\000\002\003\004\005\006\007\b\t\n\013\f\016\017\000\000\000\001\002\004\005\006\007\b\t\n\013\f\016\017\000\000\000\002\004\005\006\007\b\t\n\013\f\016\017\000\000\000\000\001\002\003\004\006\007\b\t\n\013\f\016\017\000\000\000\002\003\004\006\007\b\t\n\013\f\016\017\000\000\000\000\001\002\004\006\007\b\t\n\013\f\016\017\000\000\000\000\002\004\006\007\b\t\n\013\f\016\017\000\000\000\000\000\001\002\003\004\005\006\b\t\n\013\f\016\017\000\000\000\002\003\004\005\006\b\t\n\013\f\016\017\000\000\000\000\001\002\004\005\006\b\t\n\013\f\016\017\000\000\000\000\002\004\005\006\b\t\n\013\f\016\017\000\000\000\000\000\001\002\003\004\006\b\t\n\013\f\016\017\000\000\000\000\002\003\004\006\b\t\n\013\f\016\017\000\000\000\000\000\001\002\004\006\b\t\n\013\f\016\017\000\000\000\000\000\002\004\006\b\t\n\013\f\016\017\000\000\000\000\000\000\001\002\003\004\005\006\007\b\n\013\f\016\017\000\000\000\002\003\004\005\006\007\b\n\013\f\016\017\000\000\000\000\001\002\004\005\006\007\b\n\013\f\016\017\000\000\000\000\002\004\005\006\007\b\n\013\f\016\017\000\000\000\000\000\001\002\003\004\006\007\b\n\013\f\016\017\000\000\000\000\002\003\004\006\007\b\n\013\f\016\017\000\000\000\000\000\001\002\004\006\007\b\n\013\f\016\017\000\000\000\000\000\002\004\006\007\b\n\013\f\016\017\000\000\000\000\000\000\001\002\003\004\005\006\b\n\013\f\016\017\000\000\000\000\002\003\004\005\006\b\n\013\f\016\017\000\000\000\000\000\001\002\004\005\006\b\n\013\f\016\017\000\000\000\000\000\002\004\005\006\b\n\013\f\016\017\000\000\000\000\000\000\001\002\003\004\006\b\n\013\f\016\017\000\000\000\000\000\002\003\004\006\b\n\013\f\016\017\000\000\000\000\000\000\001\002\004\006\b\n\013\f\016\017\000\000\000\000\000\000\002\004\006\b\n\013\f\016\017\000\000\000\000\000\000\000\001\002\003\004\005\006\007\b\t\n\f\016\017\000\000\000\002\003\004\005\006\007\b\t\n\f\016\017\000\000\000\000\001\002\004\005\006\007\b\t\n\f\016\017\000\000\000\000\002\004\005\006\007\b\t\n\f\016\017\000\000\000\000\000\001\002\003\004\006\007\b\t\n\f\016\017\000\000\000\000\002\003\004\006\007\b\t\n\f\016\017\000\000\000\000\000\001\002\004\006\007\b\t\n\f\016\017\000\000\000\000\000\002\004\006\007\b\t\n\f\016\017\000\000\000\000\000\000\001\002\003\004\005\006\b\t\n\f\016\017\000\000\000\000\002\003\004\005\006\b\t\n\f\016\017\000\000\000\000\000\001\002\004\005\006\b\t\n\f\016\017\000\000\000\000\000\002\004\005\006\b\t\n\f\016\017\000\000\000\000\000\000\001\002\003\004\006\b\t\n\f\016\017\000\000\000\000\000\002\003\004\006\b\t\n\f\016\017\000\000\000\000\000\000\001\002\004\006\b\t\n\f\016\017\000\000\000\000\000\000\002\004\006\b\t\n\f\016\017\000\000\000\000\000\000\000\001\002\003\004\005\006\007\b\n\f\016\017\000\000\000\000\002\003\004\005\006\007\b\n\f\016\017\000\000\000\000\000\001\002\004\005\006\007\b\n\f\016\017\000\000\000\000\000\002\004\005\006\007\b\n\f\016\017\000\000\000\000\000\000\001\002\003\004\006\007\b\n\f\016\017\000\000\000\000\000\002\003\004\006\007\b\n\f\016\017\000\000\000\000\000\000\001\002\004\006\007\b\n\f\016\017\000\000\000\000\000\000\002\004\006\007\b\n\f\016\017\000\000\000\000\000\000\000\001\002\003\004\005\006\b\n\f\016\017\000\000\000\000\000\002\003\004\005\006\b\n\f\016\017\000\000\000\000\000\000\001\002\004\005\006\b\n\f\016\017\000\000\000\000\000\000\002\004\005\006\b\n\f\016\017\000\000\000\000\000\000\000\001\002\003\004\006\b\n\f\016\017\000\000\000\000\000\000\002\003\004\006\b\n\f\016\017\000\000\000\000\000\000\000\001\002\004\006\b\n\f\016\017\000\000\000\000\000\000\000\002\004\006\b\n\f\016\017\000\000\000\000\000\000\000\000\001\002\003\004\005\006\007\b\t\n\013\f\r\016\000\000\002\003\004\005\006\007\b\t\n\013\f\r\016\000\000\000\001\002\004\005\006\007\b\t\n\013\f\r\016\000\000\000\002\004\005\006\007\b\t\n\013\f\r\016\000\000\000\000\001\002\003\004\006\007\b\t\n\013\f\r\016\000\000\000\002\003\004\006\007\b\t\n\013\f\r\016\000\000\000\000\001\002\004\006\007\b\t\n\013\f\r\016\000\000\000\000\002\004\006\007\b\t\n\013\f\r\016\000\000\000\000\000\001\002\003\004\005\006\b\t\n\013\f\r\016\000\000\000\002\003\004\005\006\b\t\n\013\f\r\016\000\000\000\000\001\002\004\005\006\b\t\n\013\f\r\016\000\000\000\000\002\004\005\006\b\t\n\013\f\r\016\000\000\000\000\000\001\002\003\004\006\b\t\n\013\f\r\016\000\000\000\000\002\003\004\006\b\t\n\013\f\r\016\000\000\000\000\000\001\002\004\006\b\t\n\013\f\r\016\000\000\000\000\000\002\004\006\b\t\n\013\f\r\016\000\000\000\000\000\000\001\002\003\004\005\006\007\b\n\013\f\r\016\000\000\000\002\003\004\005\006\007\b\n\013\f\r\016\000\000\000\000\001\002\004\005\006\007\b\n\013\f\r\016\000\000\000\000\002\004\005\006\007\b\n\013\f\r\016\000\000\000\000\000\001\002\003\004\006\007\b\n\013\f\r\016\000\000\000\000\002\003\004\006\007\b\n\013\f\r\016\000\000\000\000\000\001\002\004\006\007\b\n\013\f\r\016\000\000\000\000\000\002\004\006\007\b\n\013\f\r\016\000\000\000\000\000\000\001\002\003\004\005\006\b\n\013\f\r\016\000\000\000\000\002\003\004\005\006\b\n\013\f\r\016\000\000\000\000\000\001\002\004\005\006\b\n\013\f\r\016\000\000\000\000\000\002\004\005\006\b\n\013\f\r\016\000\000\000\000\000\000\001\002\003\004\006\b\n\013\f\r\016\000\000\000\000\000\002\003\004\006\b\n\013\f\r\016\000\000\000\000\000\000\001\002\004\006\b\n\013\f\r\016\000\000\000\000\000\000\002\004\006\b\n\013\f\r\016\000\000\000\000\000\000\000\001\002\003\004\005\006\007\b\t\n\f\r\016\000\000\000\002\003\004\005\006\007\b\t\n\f\r\016\000\000\000\000\001\002\004\005\006\007\b\t\n\f\r\016\000\000\000\000\002\004\005\006\007\b\t\n\f\r\016\000\000\000\000\000\001\002\003\004\006\007\b\t\n\f\r\016\000\000\000\000\002\003\004\006\007\b\t\n\f\r\016\000\000\000\000\000\001\002\004\006\007\b\t\n\f\r\016\000\000\000\000\000\002\004\006\007\b\t\n\f\r\016\000\000\000\000\000\000\001\002\003\004\005\006\b\t\n\f\r\016\000\000\000\000\002\003\004\005\006\b\t\n\f\r\016\000\000\000\000\000\001\002\004\005\006\b\t\n\f\r\016\000\000\000\000\000\002\004\005\006\b\t\n\f\r\016\000\000\000\000\000\000\001\002\003\004\006\b\t\n\f\r\016\000\000\000\000\000\002\003\004\006\b\t\n\f\r\016\000\000\000\000\000\000\001\002\004\006\b\t\n\f\r\016\000\000\000\000\000\000\002\004\006\b\t\n\f\r\016\000\000\000\000\000\000\000\001\002\003\004\005\006\007\b\n\f\r\016\000\000\000\000\002\003\004\005\006\007\b\n\f\r\016\000\000\000\000\000\001\002\004\005\006\007\b\n\f\r\016\000\000\000\000\000\002\004\005\006\007\b\n\f\r\016\000\000\000\000\000\000\001\002\003\004\006\007\b\n\f\r\016\000\000\000\000\000\002\003\004\006\007\b\n\f\r\016\000\000\000\000\000\000\001\002\004\006\007\b\n\f\r\016\000\000\000\000\000\000\002\004\006\007\b\n\f\r\016\000\000\000\000\000\000\000\001\002\003\004\005\006\b\n\f\r\016\000\000\000\000\000\002\003\004\005\006\b\n\f\r\016\000\000\000\000\000\000\001\002\004\005\006\b\n\f\r\016\000\000\000\000\000\000\002\004\005\006\b\n\f\r\016\000\000\000\000\000\000\000\001\002\003\004\006\b\n\f\r\016\000\000\000\000\000\000\002\003\004\006\b\n\f\r\016\000\000\000\000\000\000\000\001\002\004\006\b\n\f\r\016\000\000\000\000\000\000\000\002\004\006\b\n\f\r\016\000\000\000\000\000\000\000\000\001\002\003\004\005\006\007\b\t\n\013\f\016\000\000\000\002\003\004\005\006\007\b\t\n\013\f\016\000\000\000\000\001\002\004\005\006\007\b\t\n\013\f\016\000\000\000\000\002\004\005\006\007\b\t\n\013\f\016\000\000\000\000\000\001\002\003\004\006\007\b\t\n\013\f\016\000\000\000\000\002\003\004\006\007\b\t\n\013\f\016\000\000\000\000\000\001\002\004\006\007\b\t\n\013\f\016\000\000\000\000\000\002\004\006\007\b\t\n\013\f\016\000\000\000\000\000\000\001\002\003\004\005\006\b\t\n\013\f\016\000\000\000\000\002\003\004\005\006\b\t\n\013\f\016\000\000\000\000\000\001\002\004\005\006\b\t\n\013\f\016\000\000\000\000\000\002\004\005\006\b\t\n\013\f\016\000\000\000\000\000\000\001\002\003\004\006\b\t\n\013\f\016\000\000\000\000\000\002\003\004\006\b\t\n\013\f\016\000\000\000\000\000\000\001\002\004\006\b\t\n\013\f\016\000\000\000\000\000\000\002\004\006\b\t\n\013\f\016\000\000\000\000\000\000\000\001\002\003\004\005\006\007\b\n\013\f\016\000\000\000\000\002\003\004\005\006\007\b\n\013\f\016\000\000\000\000\000\001\002\004\005\006\007\b\n\013\f\016\000\000\000\000\000\002\004\005\006\007\b\n\013\f\016\000\000\000\000\000\000\001\002\003\004\006\007\b\n\013\f\016\000\000\000\000\000\002\003\004\006\007\b\n\013\f\016\000\000\000\000\000\000\001\002\004\006\007\b\n\013\f\016\000\000\000\000\000\000\002\004\006\007\b\n\013\f\016\000\000\000\000\000\000\000\001\002\003\004\005\006\b\n\013\f\016\000\000\000\000\000\002\003\004\005\006\b\n\013\f\016\000\000\000\000\000\000\001\002\004\005\006\b\n\013\f\016\000\000\000\000\000\000\002\004\005\006\b\n\013\f\016\000\000\000\000\000\000\000\001\002\003\004\006\b\n\013\f\016\000\000\000\000\000\000\002\003\004\006\b\n\013\f\016\000\000\000\000\000\000\000\001\002\004\006\b\n\013\f\016\000\000\000\000\000\000\000\002\004\006\b\n\013\f\016\000\000\000\000\000\000\000\000\001\002\003\004\005\006\007\b\t\n\f\016\000\000\000\000\002\003\004\005\006\007\b\t\n\f\016\000\000\000\000\000\001\002\004\005\006\007\b\t\n\f\016\000\000\000\000\000\002\004\005\006\007\b\t\n\f\016\000\000\000\000\000\000\001\002\003\004\006\007\b\t\n\f\016\000\000\000\000\000\002\003\004\006\007\b\t\n\f\016\000\000\000\000\000\000\001\002\004\006\007\b\t\n\f\016\000\000\000\000\000\000\002\004\006\007\b\t\n\f\016\000\000\000\000\000\000\000\001\002\003\004\005\006\b\t\n\f\016\000\000\000\000\000\002\003\004\005\006\b\t\n\f\016\000\000\000\000\000\000\001\002\004\005\006\b\t\n\f\016\000\000\000\000\000\000\002\004\005\006\b\t\n\f\016\000\000\000\000\000\000\000\001\002\003\004\006\b\t\n\f\016\000\000\000\000\000\000\002\003\004\006\b\t\n\f\016\000\000\000\000\000\000\000\001\002\004\006\b\t\n\f\016\000\000\000\000\000\000\000\002\004\006\b\t\n\f\016\000\000\000\000\000\000\000\000\001\002\003\004\005\006\007\b\n\f\016\000\000\000\000\000\002\003\004\005\006\007\b\n\f\016\000\000\000\000\000\000\001\002\004\005\006\007\b\n\f\016\000\000\000\000\000\000\002\004\005\006\007\b\n\f\016\000\000\000\000\000\000\000\001\002\003\004\006\007\b\n\f\016\000\000\000\000\000\000\002\003\004\006\007\b\n\f\016\000\000\000\000\000\000\000\001\002\004\006\007\b\n\f\016\000\000\000\000\000\000\000\002\004\006\007\b\n\f\016\000\000\000\000\000\000\000\000\001\002\003\004\005\006\b\n\f\016\000\000\000\000\000\000\002\003\004\005\006\b\n\f\016\000\000\000\000\000\000\000\001\002\004\005\006\b\n\f\016\000\000\000\000\000\000\000\002\004\005\006\b\n\f\016\000\000\000\000\000\000\000\000\001\002\003\004\006\b\n\f\016\000\000\000\000\000\000\000\002\003\004\006\b\n\f\016\000\000\000\000\000\000\000\000\001\002\004\006\b\n\f\016\000\000\000\000\000\000\000\000\002\004\006\b\n\f\016\000\000\000\000\000\000\000"

	.section	__TEXT,__const
lstatic.7:
	.asciz	"\000\002\003\004\006\007\b\n\013\f\016\017\000\000\000\000\000\001\004\006\007\b\n\013\f\016\017\000\000\000\000\000\002\003\004\006\007\b\n\013\f\016\017\000\000\000\000\000\001\004\006\007\b\n\013\f\016\017\000\000\000\000\000\000\000\002\003\004\005\b\n\013\f\016\017\000\000\000\000\000\000\001\004\005\b\n\013\f\016\017\000\000\000\000\000\000\002\003\004\005\b\n\013\f\016\017\000\000\000\000\000\000\001\004\005\b\n\013\f\016\017\000\000\000\000\000\000\000\000\002\003\006\007\b\n\013\f\016\017\000\000\000\000\000\000\001\006\007\b\n\013\f\016\017\000\000\000\000\000\000\002\003\006\007\b\n\013\f\016\017\000\000\000\000\000\000\001\006\007\b\n\013\f\016\017\000\000\000\000\000\000\000\000\002\003\005\b\n\013\f\016\017\000\000\000\000\000\000\000\001\005\b\n\013\f\016\017\000\000\000\000\000\000\000\002\003\005\b\n\013\f\016\017\000\000\000\000\000\000\000\001\005\b\n\013\f\016\017\000\000\000\000\000\000\000\000\000\002\003\004\006\007\b\t\f\016\017\000\000\000\000\000\000\001\004\006\007\b\t\f\016\017\000\000\000\000\000\000\002\003\004\006\007\b\t\f\016\017\000\000\000\000\000\000\001\004\006\007\b\t\f\016\017\000\000\000\000\000\000\000\000\002\003\004\005\b\t\f\016\017\000\000\000\000\000\000\000\001\004\005\b\t\f\016\017\000\000\000\000\000\000\000\002\003\004\005\b\t\f\016\017\000\000\000\000\000\000\000\001\004\005\b\t\f\016\017\000\000\000\000\000\000\000\000\000\002\003\006\007\b\t\f\016\017\000\000\000\000\000\000\000\001\006\007\b\t\f\016\017\000\000\000\000\000\000\000\002\003\006\007\b\t\f\016\017\000\000\000\000\000\000\000\001\006\007\b\t\f\016\017\000\000\000\000\000\000\000\000\000\002\003\005\b\t\f\016\017\000\000\000\000\000\000\000\000\001\005\b\t\f\016\017\000\000\000\000\000\000\000\000\002\003\005\b\t\f\016\017\000\000\000\000\000\000\000\000\001\005\b\t\f\016\017\000\000\000\000\000\000\000\000\000\000\002\003\004\006\007\n\013\f\016\017\000\000\000\000\000\000\001\004\006\007\n\013\f\016\017\000\000\000\000\000\000\002\003\004\006\007\n\013\f\016\017\000\000\000\000\000\000\001\004\006\007\n\013\f\016\017\000\000\000\000\000\000\000\000\002\003\004\005\n\013\f\016\017\000\000\000\000\000\000\000\001\004\005\n\013\f\016\017\000\000\000\000\000\000\000\002\003\004\005\n\013\f\016\017\000\000\000\000\000\000\000\001\004\005\n\013\f\016\017\000\000\000\000\000\000\000\000\000\002\003\006\007\n\013\f\016\017\000\000\000\000\000\000\000\001\006\007\n\013\f\016\017\000\000\000\000\000\000\000\002\003\006\007\n\013\f\016\017\000\000\000\000\000\000\000\001\006\007\n\013\f\016\017\000\000\000\000\000\000\000\000\000\002\003\005\n\013\f\016\017\000\000\000\000\000\000\000\000\001\005\n\013\f\016\017\000\000\000\000\000\000\000\000\002\003\005\n\013\f\016\017\000\000\000\000\000\000\000\000\001\005\n\013\f\016\017\000\000\000\000\000\000\000\000\000\000\002\003\004\006\007\t\f\016\017\000\000\000\000\000\000\000\001\004\006\007\t\f\016\017\000\000\000\000\000\000\000\002\003\004\006\007\t\f\016\017\000\000\000\000\000\000\000\001\004\006\007\t\f\016\017\000\000\000\000\000\000\000\000\000\002\003\004\005\t\f\016\017\000\000\000\000\000\000\000\000\001\004\005\t\f\016\017\000\000\000\000\000\000\000\000\002\003\004\005\t\f\016\017\000\000\000\000\000\000\000\000\001\004\005\t\f\016\017\000\000\000\000\000\000\000\000\000\000\002\003\006\007\t\f\016\017\000\000\000\000\000\000\000\000\001\006\007\t\f\016\017\000\000\000\000\000\000\000\000\002\003\006\007\t\f\016\017\000\000\000\000\000\000\000\000\001\006\007\t\f\016\017\000\000\000\000\000\000\000\000\000\000\002\003\005\t\f\016\017\000\000\000\000\000\000\000\000\000\001\005\t\f\016\017\000\000\000\000\000\000\000\000\000\002\003\005\t\f\016\017\000\000\000\000\000\000\000\000\000\001\005\t\f\016\017\000\000\000\000\000\000\000\000\000\000\000\002\003\004\006\007\b\n\013\f\r\000\000\000\000\000\000\001\004\006\007\b\n\013\f\r\000\000\000\000\000\000\002\003\004\006\007\b\n\013\f\r\000\000\000\000\000\000\001\004\006\007\b\n\013\f\r\000\000\000\000\000\000\000\000\002\003\004\005\b\n\013\f\r\000\000\000\000\000\000\000\001\004\005\b\n\013\f\r\000\000\000\000\000\000\000\002\003\004\005\b\n\013\f\r\000\000\000\000\000\000\000\001\004\005\b\n\013\f\r\000\000\000\000\000\000\000\000\000\002\003\006\007\b\n\013\f\r\000\000\000\000\000\000\000\001\006\007\b\n\013\f\r\000\000\000\000\000\000\000\002\003\006\007\b\n\013\f\r\000\000\000\000\000\000\000\001\006\007\b\n\013\f\r\000\000\000\000\000\000\000\000\000\002\003\005\b\n\013\f\r\000\000\000\000\000\000\000\000\001\005\b\n\013\f\r\000\000\000\000\000\000\000\000\002\003\005\b\n\013\f\r\000\000\000\000\000\000\000\000\001\005\b\n\013\f\r\000\000\000\000\000\000\000\000\000\000\002\003\004\006\007\b\t\f\r\000\000\000\000\000\000\000\001\004\006\007\b\t\f\r\000\000\000\000\000\000\000\002\003\004\006\007\b\t\f\r\000\000\000\000\000\000\000\001\004\006\007\b\t\f\r\000\000\000\000\000\000\000\000\000\002\003\004\005\b\t\f\r\000\000\000\000\000\000\000\000\001\004\005\b\t\f\r\000\000\000\000\000\000\000\000\002\003\004\005\b\t\f\r\000\000\000\000\000\000\000\000\001\004\005\b\t\f\r\000\000\000\000\000\000\000\000\000\000\002\003\006\007\b\t\f\r\000\000\000\000\000\000\000\000\001\006\007\b\t\f\r\000\000\000\000\000\000\000\000\002\003\006\007\b\t\f\r\000\000\000\000\000\000\000\000\001\006\007\b\t\f\r\000\000\000\000\000\000\000\000\000\000\002\003\005\b\t\f\r\000\000\000\000\000\000\000\000\000\001\005\b\t\f\r\000\000\000\000\000\000\000\000\000\002\003\005\b\t\f\r\000\000\000\000\000\000\000\000\000\001\005\b\t\f\r\000\000\000\000\000\000\000\000\000\000\000\002\003\004\006\007\n\013\f\r\000\000\000\000\000\000\000\001\004\006\007\n\013\f\r\000\000\000\000\000\000\000\002\003\004\006\007\n\013\f\r\000\000\000\000\000\000\000\001\004\006\007\n\013\f\r\000\000\000\000\000\000\000\000\000\002\003\004\005\n\013\f\r\000\000\000\000\000\000\000\000\001\004\005\n\013\f\r\000\000\000\000\000\000\000\000\002\003\004\005\n\013\f\r\000\000\000\000\000\000\000\000\001\004\005\n\013\f\r\000\000\000\000\000\000\000\000\000\000\002\003\006\007\n\013\f\r\000\000\000\000\000\000\000\000\001\006\007\n\013\f\r\000\000\000\000\000\000\000\000\002\003\006\007\n\013\f\r\000\000\000\000\000\000\000\000\001\006\007\n\013\f\r\000\000\000\000\000\000\000\000\000\000\002\003\005\n\013\f\r\000\000\000\000\000\000\000\000\000\001\005\n\013\f\r\000\000\000\000\000\000\000\000\000\002\003\005\n\013\f\r\000\000\000\000\000\000\000\000\000\001\005\n\013\f\r\000\000\000\000\000\000\000\000\000\000\000\002\003\004\006\007\t\f\r\000\000\000\000\000\000\000\000\001\004\006\007\t\f\r\000\000\000\000\000\000\000\000\002\003\004\006\007\t\f\r\000\000\000\000\000\000\000\000\001\004\006\007\t\f\r\000\000\000\000\000\000\000\000\000\000\002\003\004\005\t\f\r\000\000\000\000\000\000\000\000\000\001\004\005\t\f\r\000\000\000\000\000\000\000\000\000\002\003\004\005\t\f\r\000\000\000\000\000\000\000\000\000\001\004\005\t\f\r\000\000\000\000\000\000\000\000\000\000\000\002\003\006\007\t\f\r\000\000\000\000\000\000\000\000\000\001\006\007\t\f\r\000\000\000\000\000\000\000\000\000\002\003\006\007\t\f\r\000\000\000\000\000\000\000\000\000\001\006\007\t\f\r\000\000\000\000\000\000\000\000\000\000\000\002\003\005\t\f\r\000\000\000\000\000\000\000\000\000\000\001\005\t\f\r\000\000\000\000\000\000\000\000\000\000\002\003\005\t\f\r\000\000\000\000\000\000\000\000\000\000\001\005\t\f\r\000\000\000\000\000\000\000\000\000\000\000\000\002\003\004\006\007\b\n\013\016\017\000\000\000\000\000\000\001\004\006\007\b\n\013\016\017\000\000\000\000\000\000\002\003\004\006\007\b\n\013\016\017\000\000\000\000\000\000\001\004\006\007\b\n\013\016\017\000\000\000\000\000\000\000\000\002\003\004\005\b\n\013\016\017\000\000\000\000\000\000\000\001\004\005\b\n\013\016\017\000\000\000\000\000\000\000\002\003\004\005\b\n\013\016\017\000\000\000\000\000\000\000\001\004\005\b\n\013\016\017\000\000\000\000\000\000\000\000\000\002\003\006\007\b\n\013\016\017\000\000\000\000\000\000\000\001\006\007\b\n\013\016\017\000\000\000\000\000\000\000\002\003\006\007\b\n\013\016\017\000\000\000\000\000\000\000\001\006\007\b\n\013\016\017\000\000\000\000\000\000\000\000\000\002\003\005\b\n\013\016\017\000\000\000\000\000\000\000\000\001\005\b\n\013\016\017\000\000\000\000\000\000\000\000\002\003\005\b\n\013\016\017\000\000\000\000\000\000\000\000\001\005\b\n\013\016\017\000\000\000\000\000\000\000\000\000\000\002\003\004\006\007\b\t\016\017\000\000\000\000\000\000\000\001\004\006\007\b\t\016\017\000\000\000\000\000\000\000\002\003\004\006\007\b\t\016\017\000\000\000\000\000\000\000\001\004\006\007\b\t\016\017\000\000\000\000\000\000\000\000\000\002\003\004\005\b\t\016\017\000\000\000\000\000\000\000\000\001\004\005\b\t\016\017\000\000\000\000\000\000\000\000\002\003\004\005\b\t\016\017\000\000\000\000\000\000\000\000\001\004\005\b\t\016\017\000\000\000\000\000\000\000\000\000\000\002\003\006\007\b\t\016\017\000\000\000\000\000\000\000\000\001\006\007\b\t\016\017\000\000\000\000\000\000\000\000\002\003\006\007\b\t\016\017\000\000\000\000\000\000\000\000\001\006\007\b\t\016\017\000\000\000\000\000\000\000\000\000\000\002\003\005\b\t\016\017\000\000\000\000\000\000\000\000\000\001\005\b\t\016\017\000\000\000\000\000\000\000\000\000\002\003\005\b\t\016\017\000\000\000\000\000\000\000\000\000\001\005\b\t\016\017\000\000\000\000\000\000\000\000\000\000\000\002\003\004\006\007\n\013\016\017\000\000\000\000\000\000\000\001\004\006\007\n\013\016\017\000\000\000\000\000\000\000\002\003\004\006\007\n\013\016\017\000\000\000\000\000\000\000\001\004\006\007\n\013\016\017\000\000\000\000\000\000\000\000\000\002\003\004\005\n\013\016\017\000\000\000\000\000\000\000\000\001\004\005\n\013\016\017\000\000\000\000\000\000\000\000\002\003\004\005\n\013\016\017\000\000\000\000\000\000\000\000\001\004\005\n\013\016\017\000\000\000\000\000\000\000\000\000\000\002\003\006\007\n\013\016\017\000\000\000\000\000\000\000\000\001\006\007\n\013\016\017\000\000\000\000\000\000\000\000\002\003\006\007\n\013\016\017\000\000\000\000\000\000\000\000\001\006\007\n\013\016\017\000\000\000\000\000\000\000\000\000\000\002\003\005\n\013\016\017\000\000\000\000\000\000\000\000\000\001\005\n\013\016\017\000\000\000\000\000\000\000\000\000\002\003\005\n\013\016\017\000\000\000\000\000\000\000\000\000\001\005\n\013\016\017\000\000\000\000\000\000\000\000\000\000\000\002\003\004\006\007\t\016\017\000\000\000\000\000\000\000\000\001\004\006\007\t\016\017\000\000\000\000\000\000\000\000\002\003\004\006\007\t\016\017\000\000\000\000\000\000\000\000\001\004\006\007\t\016\017\000\000\000\000\000\000\000\000\000\000\002\003\004\005\t\016\017\000\000\000\000\000\000\000\000\000\001\004\005\t\016\017\000\000\000\000\000\000\000\000\000\002\003\004\005\t\016\017\000\000\000\000\000\000\000\000\000\001\004\005\t\016\017\000\000\000\000\000\000\000\000\000\000\000\002\003\006\007\t\016\017\000\000\000\000\000\000\000\000\000\001\006\007\t\016\017\000\000\000\000\000\000\000\000\000\002\003\006\007\t\016\017\000\000\000\000\000\000\000\000\000\001\006\007\t\016\017\000\000\000\000\000\000\000\000\000\000\000\002\003\005\t\016\017\000\000\000\000\000\000\000\000\000\000\001\005\t\016\017\000\000\000\000\000\000\000\000\000\000\002\003\005\t\016\017\000\000\000\000\000\000\000\000\000\000\001\005\t\016\017\000\000\000\000\000\000\000\000\000\000\000\000\002\003\004\006\007\b\n\013\r\000\000\000\000\000\000\000\001\004\006\007\b\n\013\r\000\000\000\000\000\000\000\002\003\004\006\007\b\n\013\r\000\000\000\000\000\000\000\001\004\006\007\b\n\013\r\000\000\000\000\000\000\000\000\000\002\003\004\005\b\n\013\r\000\000\000\000\000\000\000\000\001\004\005\b\n\013\r\000\000\000\000\000\000\000\000\002\003\004\005\b\n\013\r\000\000\000\000\000\000\000\000\001\004\005\b\n\013\r\000\000\000\000\000\000\000\000\000\000\002\003\006\007\b\n\013\r\000\000\000\000\000\000\000\000\001\006\007\b\n\013\r\000\000\000\000\000\000\000\000\002\003\006\007\b\n\013\r\000\000\000\000\000\000\000\000\001\006\007\b\n\013\r\000\000\000\000\000\000\000\000\000\000\002\003\005\b\n\013\r\000\000\000\000\000\000\000\000\000\001\005\b\n\013\r\000\000\000\000\000\000\000\000\000\002\003\005\b\n\013\r\000\000\000\000\000\000\000\000\000\001\005\b\n\013\r\000\000\000\000\000\000\000\000\000\000\000\002\003\004\006\007\b\t\r\000\000\000\000\000\000\000\000\001\004\006\007\b\t\r\000\000\000\000\000\000\000\000\002\003\004\006\007\b\t\r\000\000\000\000\000\000\000\000\001\004\006\007\b\t\r\000\000\000\000\000\000\000\000\000\000\002\003\004\005\b\t\r\000\000\000\000\000\000\000\000\000\001\004\005\b\t\r\000\000\000\000\000\000\000\000\000\002\003\004\005\b\t\r\000\000\000\000\000\000\000\000\000\001\004\005\b\t\r\000\000\000\000\000\000\000\000\000\000\000\002\003\006\007\b\t\r\000\000\000\000\000\000\000\000\000\001\006\007\b\t\r\000\000\000\000\000\000\000\000\000\002\003\006\007\b\t\r\000\000\000\000\000\000\000\000\000\001\006\007\b\t\r\000\000\000\000\000\000\000\000\000\000\000\002\003\005\b\t\r\000\000\000\000\000\000\000\000\000\000\001\005\b\t\r\000\000\000\000\000\000\000\000\000\000\002\003\005\b\t\r\000\000\000\000\000\000\000\000\000\000\001\005\b\t\r\000\000\000\000\000\000\000\000\000\000\000\000\002\003\004\006\007\n\013\r\000\000\000\000\000\000\000\000\001\004\006\007\n\013\r\000\000\000\000\000\000\000\000\002\003\004\006\007\n\013\r\000\000\000\000\000\000\000\000\001\004\006\007\n\013\r\000\000\000\000\000\000\000\000\000\000\002\003\004\005\n\013\r\000\000\000\000\000\000\000\000\000\001\004\005\n\013\r\000\000\000\000\000\000\000\000\000\002\003\004\005\n\013\r\000\000\000\000\000\000\000\000\000\001\004\005\n\013\r\000\000\000\000\000\000\000\000\000\000\000\002\003\006\007\n\013\r\000\000\000\000\000\000\000\000\000\001\006\007\n\013\r\000\000\000\000\000\000\000\000\000\002\003\006\007\n\013\r\000\000\000\000\000\000\000\000\000\001\006\007\n\013\r\000\000\000\000\000\000\000\000\000\000\000\002\003\005\n\013\r\000\000\000\000\000\000\000\000\000\000\001\005\n\013\r\000\000\000\000\000\000\000\000\000\000\002\003\005\n\013\r\000\000\000\000\000\000\000\000\000\000\001\005\n\013\r\000\000\000\000\000\000\000\000\000\000\000\000\002\003\004\006\007\t\r\000\000\000\000\000\000\000\000\000\001\004\006\007\t\r\000\000\000\000\000\000\000\000\000\002\003\004\006\007\t\r\000\000\000\000\000\000\000\000\000\001\004\006\007\t\r\000\000\000\000\000\000\000\000\000\000\000\002\003\004\005\t\r\000\000\000\000\000\000\000\000\000\000\001\004\005\t\r\000\000\000\000\000\000\000\000\000\000\002\003\004\005\t\r\000\000\000\000\000\000\000\000\000\000\001\004\005\t\r\000\000\000\000\000\000\000\000\000\000\000\000\002\003\006\007\t\r\000\000\000\000\000\000\000\000\000\000\001\006\007\t\r\000\000\000\000\000\000\000\000\000\000\002\003\006\007\t\r\000\000\000\000\000\000\000\000\000\000\001\006\007\t\r\000\000\000\000\000\000\000\000\000\000\000\000\002\003\005\t\r\000\000\000\000\000\000\000\000\000\000\000\001\005\t\r\000\000\000\000\000\000\000\000\000\000\000\002\003\005\t\r\000\000\000\000\000\000\000\000\000\000\000\001\005\t\r\000\000\000\000\000\000\000\000\000\000\000"

	.section	__TEXT,__const
lstatic.8:
	.ascii	"\200\200\200\200\200\200\200\200\200\200\200\200\200\200\200\200\017\200\200\200\200\200\200\200\200\200\200\200\200\200\200\200\016\017\200\200\200\200\200\200\200\200\200\200\200\200\200\200\r\016\017\200\200\200\200\200\200\200\200\200\200\200\200\200\f\r\016\017\200\200\200\200\200\200\200\200\200\200\200\200\013\f\r\016\017\200\200\200\200\200\200\200\200\200\200\200\n\013\f\r\016\017\200\200\200\200\200\200\200\200\200\200\t\n\013\f\r\016\017\200\200\200\200\200\200\200\200\200\b\t\n\013\f\r\016\017\200\200\200\200\200\200\200\200\007\b\t\n\013\f\r\016\017\200\200\200\200\200\200\200\006\007\b\t\n\013\f\r\016\017\200\200\200\200\200\200\005\006\007\b\t\n\013\f\r\016\017\200\200\200\200\200\004\005\006\007\b\t\n\013\f\r\016\017\200\200\200\200\003\004\005\006\007\b\t\n\013\f\r\016\017\200\200\200\002\003\004\005\006\007\b\t\n\013\f\r\016\017\200\200\001\002\003\004\005\006\007\b\t\n\013\f\r\016\017\200\000\001\002\003\004\005\006\007\b\t\n\013\f\r\016\017"

	.section	__TEXT,__const
lstatic.9:
	.ascii	"\357\277\275"

	.section	__TEXT,__const
lstatic.10:
	.ascii	"\000\000\000\000\000\000\000\000\000\000\000\000\000\000\000\000\000\001\000\000\000\000\000\000\000\000\000\000\000\000\000\000\002\003\000\000\000\000\000\000\000\000\000\000\000\000\000\000\000\001\002\003\000\000\000\000\000\000\000\000\000\000\000\000\004\005\000\000\000\000\000\000\000\000\000\000\000\000\000\000\000\001\004\005\000\000\000\000\000\000\000\000\000\000\000\000\002\003\004\005\000\000\000\000\000\000\000\000\000\000\000\000\000\001\002\003\004\005\000\000\000\000\000\000\000\000\000\000\006\007\000\000\000\000\000\000\000\000\000\000\000\000\000\000\000\001\006\007\000\000\000\000\000\000\000\000\000\000\000\000\002\003\006\007\000\000\000\000\000\000\000\000\000\000\000\000\000\001\002\003\006\007\000\000\000\000\000\000\000\000\000\000\004\005\006\007\000\000\000\000\000\000\000\000\000\000\000\000\000\001\004\005\006\007\000\000\000\000\000\000\000\000\000\000\002\003\004\005\006\007\000\000\000\000\000\000\000\000\000\000\000\001\002\003\004\005\006\007\000\000\000\000\000\000\000\000\b\t\000\000\000\000\000\000\000\000\000\000\000\000\000\000\000\001\b\t\000\000\000\000\000\000\000\000\000\000\000\000\002\003\b\t\000\000\000\000\000\000\000\000\000\000\000\000\000\001\002\003\b\t\000\000\000\000\000\000\000\000\000\000\004\005\b\t\000\000\000\000\000\000\000\000\000\000\000\000\000\001\004\005\b\t\000\000\000\000\000\000\000\000\000\000\002\003\004\005\b\t\000\000\000\000\000\000\000\000\000\000\000\001\002\003\004\005\b\t\000\000\000\000\000\000\000\000\006\007\b\t\000\000\000\000\000\000\000\000\000\000\000\000\000\001\006\007\b\t\000\000\000\000\000\000\000\000\000\000\002\003\006\007\b\t\000\000\000\000\000\000\000\000\000\000\000\001\002\003\006\007\b\t\000\000\000\000\000\000\000\000\004\005\006\007\b\t\000\000\000\000\000\000\000\000\000\000\000\001\004\005\006\007\b\t\000\000\000\000\000\000\000\000\002\003\004\005\006\007\b\t\000\000\000\000\000\000\000\000\000\001\002\003\004\005\006\007\b\t\000\000\000\000\000\000\n\013\000\000\000\000\000\000\000\000\000\000\000\000\000\000\000\001\n\013\000\000\000\000\000\000\000\000\000\000\000\000\002\003\n\013\000\000\000\000\000\000\000\000\000\000\000\000\000\001\002\003\n\013\000\000\000\000\000\000\000\000\000\000\004\005\n\013\000\000\000\000\000\000\000\000\000\000\000\000\000\001\004\005\n\013\000\000\000\000\000\000\000\000\000\000\002\003\004\005\n\013\000\000\000\000\000\000\000\000\000\000\000\001\002\003\004\005\n\013\000\000\000\000\000\000\000\000\006\007\n\013\000\000\000\000\000\000\000\000\000\000\000\000\000\001\006\007\n\013\000\000\000\000\000\000\000\000\000\000\002\003\006\007\n\013\000\000\000\000\000\000\000\000\000\000\000\001\002\003\006\007\n\013\000\000\000\000\000\000\000\000\004\005\006\007\n\013\000\000\000\000\000\000\000\000\000\000\000\001\004\005\006\007\n\013\000\000\000\000\000\000\000\000\002\003\004\005\006\007\n\013\000\000\000\000\000\000\000\000\000\001\002\003\004\005\006\007\n\013\000\000\000\000\000\000\b\t\n\013\000\000\000\000\000\000\000\000\000\000\000\000\000\001\b\t\n\013\000\000\000\000\000\000\000\000\000\000\002\003\b\t\n\013\000\000\000\000\000\000\000\000\000\000\000\001\002\003\b\t\n\013\000\000\000\000\000\000\000\000\004\005\b\t\n\013\000\000\000\000\000\000\000\000\000\000\000\001\004\005\b\t\n\013\000\000\000\000\000\000\000\000\002\003\004\005\b\t\n\013\000\000\000\000\000\000\000\000\000\001\002\003\004\005\b\t\n\013\000\000\000\000\000\000\006\007\b\t\n\013\000\000\000\000\000\000\000\000\000\000\000\001\006\007\b\t\n\013\000\000\000\000\000\000\000\000\002\003\006\007\b\t\n\013\000\000\000\000\000\000\000\000\000\001\002\003\006\007\b\t\n\013\000\000\000\000\000\000\004\005\006\007\b\t\n\013\000\000\000\000\000\000\000\000\000\001\004\005\006\007\b\t\n\013\000\000\000\000\000\000\002\003\004\005\006\007\b\t\n\013\000\000\000\000\000\000\000\001\002\003\004\005\006\007\b\t\n\013\000\000\000\000\f\r\000\000\000\000\000\000\000\000\000\000\000\000\000\000\000\001\f\r\000\000\000\000\000\000\000\000\000\000\000\000\002\003\f\r\000\000\000\000\000\000\000\000\000\000\000\000\000\001\002\003\f\r\000\000\000\000\000\000\000\000\000\000\004\005\f\r\000\000\000\000\000\000\000\000\000\000\000\000\000\001\004\005\f\r\000\000\000\000\000\000\000\000\000\000\002\003\004\005\f\r\000\000\000\000\000\000\000\000\000\000\000\001\002\003\004\005\f\r\000\000\000\000\000\000\000\000\006\007\f\r\000\000\000\000\000\000\000\000\000\000\000\000\000\001\006\007\f\r\000\000\000\000\000\000\000\000\000\000\002\003\006\007\f\r\000\000\000\000\000\000\000\000\000\000\000\001\002\003\006\007\f\r\000\000\000\000\000\000\000\000\004\005\006\007\f\r\000\000\000\000\000\000\000\000\000\000\000\001\004\005\006\007\f\r\000\000\000\000\000\000\000\000\002\003\004\005\006\007\f\r\000\000\000\000\000\000\000\000\000\001\002\003\004\005\006\007\f\r\000\000\000\000\000\000\b\t\f\r\000\000\000\000\000\000\000\000\000\000\000\000\000\001\b\t\f\r\000\000\000\000\000\000\000\000\000\000\002\003\b\t\f\r\000\000\000\000\000\000\000\000\000\000\000\001\002\003\b\t\f\r\000\000\000\000\000\000\000\000\004\005\b\t\f\r\000\000\000\000\000\000\000\000\000\000\000\001\004\005\b\t\f\r\000\000\000\000\000\000\000\000\002\003\004\005\b\t\f\r\000\000\000\000\000\000\000\000\000\001\002\003\004\005\b\t\f\r\000\000\000\000\000\000\006\007\b\t\f\r\000\000\000\000\000\000\000\000\000\000\000\001\006\007\b\t\f\r\000\000\000\000\000\000\000\000\002\003\006\007\b\t\f\r\000\000\000\000\000\000\000\000\000\001\002\003\006\007\b\t\f\r\000\000\000\000\000\000\004\005\006\007\b\t\f\r\000\000\000\000\000\000\000\000\000\001\004\005\006\007\b\t\f\r\000\000\000\000\000\000\002\003\004\005\006\007\b\t\f\r\000\000\000\000\000\000\000\001\002\003\004\005\006\007\b\t\f\r\000\000\000\000\n\013\f\r\000\000\000\000\000\000\000\000\000\000\000\000\000\001\n\013\f\r\000\000\000\000\000\000\000\000\000\000\002\003\n\013\f\r\000\000\000\000\000\000\000\000\000\000\000\001\002\003\n\013\f\r\000\000\000\000\000\000\000\000\004\005\n\013\f\r\000\000\000\000\000\000\000\000\000\000\000\001\004\005\n\013\f\r\000\000\000\000\000\000\000\000\002\003\004\005\n\013\f\r\000\000\000\000\000\000\000\000\000\001\002\003\004\005\n\013\f\r\000\000\000\000\000\000\006\007\n\013\f\r\000\000\000\000\000\000\000\000\000\000\000\001\006\007\n\013\f\r\000\000\000\000\000\000\000\000\002\003\006\007\n\013\f\r\000\000\000\000\000\000\000\000\000\001\002\003\006\007\n\013\f\r\000\000\000\000\000\000\004\005\006\007\n\013\f\r\000\000\000\000\000\000\000\000\000\001\004\005\006\007\n\013\f\r\000\000\000\000\000\000\002\003\004\005\006\007\n\013\f\r\000\000\000\000\000\000\000\001\002\003\004\005\006\007\n\013\f\r\000\000\000\000\b\t\n\013\f\r\000\000\000\000\000\000\000\000\000\000\000\001\b\t\n\013\f\r\000\000\000\000\000\000\000\000\002\003\b\t\n\013\f\r\000\000\000\000\000\000\000\000\000\001\002\003\b\t\n\013\f\r\000\000\000\000\000\000\004\005\b\t\n\013\f\r\000\000\000\000\000\000\000\000\000\001\004\005\b\t\n\013\f\r\000\000\000\000\000\000\002\003\004\005\b\t\n\013\f\r\000\000\000\000\000\000\000\001\002\003\004\005\b\t\n\013\f\r\000\000\000\000\006\007\b\t\n\013\f\r\000\000\000\000\000\000\000\000\000\001\006\007\b\t\n\013\f\r\000\000\000\000\000\000\002\003\006\007\b\t\n\013\f\r\000\000\000\000\000\000\000\001\002\003\006\007\b\t\n\013\f\r\000\000\000\000\004\005\006\007\b\t\n\013\f\r\000\000\000\000\000\000\000\001\004\005\006\007\b\t\n\013\f\r\000\000\000\000\002\003\004\005\006\007\b\t\n\013\f\r\000\000\000\000\000\001\002\003\004\005\006\007\b\t\n\013\f\r\000\000\016\017\000\000\000\000\000\000\000\000\000\000\000\000\000\000\000\001\016\017\000\000\000\000\000\000\000\000\000\000\000\000\002\003\016\017\000\000\000\000\000\000\000\000\000\000\000\000\000\001\002\003\016\017\000\000\000\000\000\000\000\000\000\000\004\005\016\017\000\000\000\000\000\000\000\000\000\000\000\000\000\001\004\005\016\017\000\000\000\000\000\000\000\000\000\000\002\003\004\005\016\017\000\000\000\000\000\000\000\000\000\000\000\001\002\003\004\005\016\017\000\000\000\000\000\000\000\000\006\007\016\017\000\000\000\000\000\000\000\000\000\000\000\000\000\001\006\007\016\017\000\000\000\000\000\000\000\000\000\000\002\003\006\007\016\017\000\000\000\000\000\000\000\000\000\000\000\001\002\003\006\007\016\017\000\000\000\000\000\000\000\000\004\005\006\007\016\017\000\000\000\000\000\000\000\000\000\000\000\001\004\005\006\007\016\017\000\000\000\000\000\000\000\000\002\003\004\005\006\007\016\017\000\000\000\000\000\000\000\000\000\001\002\003\004\005\006\007\016\017\000\000\000\000\000\000\b\t\016\017\000\000\000\000\000\000\000\000\000\000\000\000\000\001\b\t\016\017\000\000\000\000\000\000\000\000\000\000\002\003\b\t\016\017\000\000\000\000\000\000\000\000\000\000\000\001\002\003\b\t\016\017\000\000\000\000\000\000\000\000\004\005\b\t\016\017\000\000\000\000\000\000\000\000\000\000\000\001\004\005\b\t\016\017\000\000\000\000\000\000\000\000\002\003\004\005\b\t\016\017\000\000\000\000\000\000\000\000\000\001\002\003\004\005\b\t\016\017\000\000\000\000\000\000\006\007\b\t\016\017\000\000\000\000\000\000\000\000\000\000\000\001\006\007\b\t\016\017\000\000\000\000\000\000\000\000\002\003\006\007\b\t\016\017\000\000\000\000\000\000\000\000\000\001\002\003\006\007\b\t\016\017\000\000\000\000\000\000\004\005\006\007\b\t\016\017\000\000\000\000\000\000\000\000\000\001\004\005\006\007\b\t\016\017\000\000\000\000\000\000\002\003\004\005\006\007\b\t\016\017\000\000\000\000\000\000\000\001\002\003\004\005\006\007\b\t\016\017\000\000\000\000\n\013\016\017\000\000\000\000\000\000\000\000\000\000\000\000\000\001\n\013\016\017\000\000\000\000\000\000\000\000\000\000\002\003\n\013\016\017\000\000\000\000\000\000\000\000\000\000\000\001\002\003\n\013\016\017\000\000\000\000\000\000\000\000\004\005\n\013\016\017\000\000\000\000\000\000\000\000\000\000\000\001\004\005\n\013\016\017\000\000\000\000\000\000\000\000\002\003\004\005\n\013\016\017\000\000\000\000\000\000\000\000\000\001\002\003\004\005\n\013\016\017\000\000\000\000\000\000\006\007\n\013\016\017\000\000\000\000\000\000\000\000\000\000\000\001\006\007\n\013\016\017\000\000\000\000\000\000\000\000\002\003\006\007\n\013\016\017\000\000\000\000\000\000\000\000\000\001\002\003\006\007\n\013\016\017\000\000\000\000\000\000\004\005\006\007\n\013\016\017\000\000\000\000\000\000\000\000\000\001\004\005\006\007\n\013\016\017\000\000\000\000\000\000\002\003\004\005\006\007\n\013\016\017\000\000\000\000\000\000\000\001\002\003\004\005\006\007\n\013\016\017\000\000\000\000\b\t\n\013\016\017\000\000\000\000\000\000\000\000\000\000\000\001\b\t\n\013\016\017\000\000\000\000\000\000\000\000\002\003\b\t\n\013\016\017\000\000\000\000\000\000\000\000\000\001\002\003\b\t\n\013\016\017\000\000\000\000\000\000\004\005\b\t\n\013\016\017\000\000\000\000\000\000\000\000\000\001\004\005\b\t\n\013\016\017\000\000\000\000\000\000\002\003\004\005\b\t\n\013\016\017\000\000\000\000\000\000\000\001\002\003\004\005\b\t\n\013\016\017\000\000\000\000\006\007\b\t\n\013\016\017\000\000\000\000\000\000\000\000\000\001\006\007\b\t\n\013\016\017\000\000\000\000\000\000\002\003\006\007\b\t\n\013\016\017\000\000\000\000\000\000\000\001\002\003\006\007\b\t\n\013\016\017\000\000\000\000\004\005\006\007\b\t\n\013\016\017\000\000\000\000\000\000\000\001\004\005\006\007\b\t\n\013\016\017\000\000\000\000\002\003\004\005\006\007\b\t\n\013\016\017\000\000\000\000\000\001\002\003\004\005\006\007\b\t\n\013\016\017\000\000\f\r\016\017\000\000\000\000\000\000\000\000\000\000\000\000\000\001\f\r\016\017\000\000\000\000\000\000\000\000\000\000\002\003\f\r\016\017\000\000\000\000\000\000\000\000\000\000\000\001\002\003\f\r\016\017\000\000\000\000\000\000\000\000\004\005\f\r\016\017\000\000\000\000\000\000\000\000\000\000\000\001\004\005\f\r\016\017\000\000\000\000\000\000\000\000\002\003\004\005\f\r\016\017\000\000\000\000\000\000\000\000\000\001\002\003\004\005\f\r\016\017\000\000\000\000\000\000\006\007\f\r\016\017\000\000\000\000\000\000\000\000\000\000\000\001\006\007\f\r\016\017\000\000\000\000\000\000\000\000\002\003\006\007\f\r\016\017\000\000\000\000\000\000\000\000\000\001\002\003\006\007\f\r\016\017\000\000\000\000\000\000\004\005\006\007\f\r\016\017\000\000\000\000\000\000\000\000\000\001\004\005\006\007\f\r\016\017\000\000\000\000\000\000\002\003\004\005\006\007\f\r\016\017\000\000\000\000\000\000\000\001\002\003\004\005\006\007\f\r\016\017\000\000\000\000\b\t\f\r\016\017\000\000\000\000\000\000\000\000\000\000\000\001\b\t\f\r\016\017\000\000\000\000\000\000\000\000\002\003\b\t\f\r\016\017\000\000\000\000\000\000\000\000\000\001\002\003\b\t\f\r\016\017\000\000\000\000\000\000\004\005\b\t\f\r\016\017\000\000\000\000\000\000\000\000\000\001\004\005\b\t\f\r\016\017\000\000\000\000\000\000\002\003\004\005\b\t\f\r\016\017\000\000\000\000\000\000\000\001\002\003\004\005\b\t\f\r\016\017\000\000\000\000\006\007\b\t\f\r\016\017\000\000\000\000\000\000\000\000\000\001\006\007\b\t\f\r\016\017\000\000\000\000\000\000\002\003\006\007\b\t\f\r\016\017\000\000\000\000\000\000\000\001\002\003\006\007\b\t\f\r\016\017\000\000\000\000\004\005\006\007\b\t\f\r\016\017\000\000\000\000\000\000\000\001\004\005\006\007\b\t\f\r\016\017\000\000\000\000\002\003\004\005\006\007\b\t\f\r\016\017\000\000\000\000\000\001\002\003\004\005\006\007\b\t\f\r\016\017\000\000\n\013\f\r\016\017\000\000\000\000\000\000\000\000\000\000\000\001\n\013\f\r\016\017\000\000\000\000\000\000\000\000\002\003\n\013\f\r\016\017\000\000\000\000\000\000\000\000\000\001\002\003\n\013\f\r\016\017\000\000\000\000\000\000\004\005\n\013\f\r\016\017\000\000\000\000\000\000\000\000\000\001\004\005\n\013\f\r\016\017\000\000\000\000\000\000\002\003\004\005\n\013\f\r\016\017\000\000\000\000\000\000\000\001\002\003\004\005\n\013\f\r\016\017\000\000\000\000\006\007\n\013\f\r\016\017\000\000\000\000\000\000\000\000\000\001\006\007\n\013\f\r\016\017\000\000\000\000\000\000\002\003\006\007\n\013\f\r\016\017\000\000\000\000\000\000\000\001\002\003\006\007\n\013\f\r\016\017\000\000\000\000\004\005\006\007\n\013\f\r\016\017\000\000\000\000\000\000\000\001\004\005\006\007\n\013\f\r\016\017\000\000\000\000\002\003\004\005\006\007\n\013\f\r\016\017\000\000\000\000\000\001\002\003\004\005\006\007\n\013\f\r\016\017\000\000\b\t\n\013\f\r\016\017\000\000\000\000\000\000\000\000\000\001\b\t\n\013\f\r\016\017\000\000\000\000\000\000\002\003\b\t\n\013\f\r\016\017\000\000\000\000\000\000\000\001\002\003\b\t\n\013\f\r\016\017\000\000\000\000\004\005\b\t\n\013\f\r\016\017\000\000\000\000\000\000\000\001\004\005\b\t\n\013\f\r\016\017\000\000\000\000\002\003\004\005\b\t\n\013\f\r\016\017\000\000\000\000\000\001\002\003\004\005\b\t\n\013\f\r\016\017\000\000\006\007\b\t\n\013\f\r\016\017\000\000\000\000\000\000\000\001\006\007\b\t\n\013\f\r\016\017\000\000\000\000\002\003\006\007\b\t\n\013\f\r\016\017\000\000\000\000\000\001\002\003\006\007\b\t\n\013\f\r\016\017\000\000\004\005\006\007\b\t\n\013\f\r\016\017\000\000\000\000\000\001\004\005\006\007\b\t\n\013\f\r\016\017\000\000\002\003\004\005\006\007\b\t\n\013\f\r\016\017\000\000\000\001\002\003\004\005\006\007\b\t\n\013\f\r\016\017"

	.section	__TEXT,__literal16,16byte_literals
	.p2align	2, 0x0
lswitch.table.dethrux_from_utf32_lossy:
	.word	0
	.zero	4
	.word	2
	.word	3


	.subsections_via_symbols
