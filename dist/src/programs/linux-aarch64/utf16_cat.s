/* SPDX-License-Identifier: MIT OR Apache-2.0
 * utf16_cat 0.2.0, as assembly for Linux on ARM64. packaging/assembly
 * wrote it from the code that rt proved in logic dac8208d650f15bf: do not edit it. */
	.section	.note.gnu.property,"a",@note
	.p2align	3, 0x0
	.word	4
	.word	16
	.word	5
	.asciz	"GNU"
	.word	3221225472
	.word	4
	.word	1
	.word	0
.Lsec_end0:
	.text
	.section	".text.unlikely.std_alloc::vec::Vec::grow_amortized::<#9514263aca3ecb2c>","ax",@progbits
	.p2align	2
	.type	"std_alloc::vec::Vec::grow_amortized::<#9514263aca3ecb2c>",@function
"std_alloc::vec::Vec::grow_amortized::<#9514263aca3ecb2c>":
	.cfi_startproc
	ldr	x8, [x0, #8]
	cmn	x8, x1
	b.lo	.LBB0_2
	mov	w0, wzr
	ret
.LBB0_2:
	stp	x29, x30, [sp, #-32]!
	.cfi_def_cfa_offset 32
	stp	x20, x19, [sp, #16]
	mov	x29, sp
	.cfi_def_cfa w29, 32
	.cfi_offset w19, -8
	.cfi_offset w20, -16
	.cfi_offset w30, -24
	.cfi_offset w29, -32
	.cfi_remember_state
	ldr	x10, [x0, #16]
	add	x9, x8, x1
	mov	w11, #8
	cmp	x9, #8
	lsl	x12, x10, #1
	csel	x11, x9, x11, hi
	lsr	x13, x10, #62
	cmp	x11, x12
	csel	x9, x11, x12, hi
	cmp	x13, #0
	csel	x19, x9, x11, eq
	tbnz	x19, #63, .LBB0_7
	cbz	x10, .LBB0_6
	mov	x20, x0
	ldr	x0, [x0]
	mov	x1, x8
	mov	x2, x19
	mov	w3, #1
	bl	rattle_realloc
	tbz	w0, #0, .LBB0_7
.LBB0_5:
	mov	w0, #1
	str	x1, [x20]
	str	x19, [x20, #16]
	.cfi_def_cfa wsp, 32
	ldp	x20, x19, [sp, #16]
	ldp	x29, x30, [sp], #32
	.cfi_def_cfa_offset 0
	.cfi_restore w19
	.cfi_restore w20
	.cfi_restore w30
	.cfi_restore w29
	ret
.LBB0_6:
	.cfi_restore_state
	mov	x20, x0
	mov	x0, x9
	mov	w1, #1
	bl	rattle_alloc
	tbnz	w0, #0, .LBB0_5
.LBB0_7:
	mov	w0, wzr
	.cfi_def_cfa wsp, 32
	ldp	x20, x19, [sp, #16]
	ldp	x29, x30, [sp], #32
	.cfi_def_cfa_offset 0
	.cfi_restore w19
	.cfi_restore w20
	.cfi_restore w30
	.cfi_restore w29
	ret
.Lfunc_end0:
	.size	"std_alloc::vec::Vec::grow_amortized::<#9514263aca3ecb2c>", .Lfunc_end0-"std_alloc::vec::Vec::grow_amortized::<#9514263aca3ecb2c>"
	.cfi_endproc

	.section	".text.core::str::utf8::from_utf8","ax",@progbits
	.p2align	2
	.type	"core::str::utf8::from_utf8",@function
"core::str::utf8::from_utf8":
	.cfi_startproc
	sub	sp, sp, #64
	.cfi_def_cfa_offset 64
	stp	x29, x30, [sp, #16]
	stp	x22, x21, [sp, #32]
	stp	x20, x19, [sp, #48]
	add	x29, sp, #16
	.cfi_def_cfa w29, 48
	.cfi_offset w19, -8
	.cfi_offset w20, -16
	.cfi_offset w21, -24
	.cfi_offset w22, -32
	.cfi_offset w30, -40
	.cfi_offset w29, -48
	.cfi_remember_state
	mov	x20, x2
	mov	x21, x1
	mov	x19, x0
	cbz	x2, .LBB1_51
	mov	x9, xzr
	sub	x22, x20, #8
	b	.LBB1_6
.LBB1_2:
	and	w11, w11, #0xff
	tbnz	w11, #7, .LBB1_23
.LBB1_3:
	mov	w12, #1
.LBB1_4:
	add	x8, x12, x9
.LBB1_5:
	cmp	x8, x20
	mov	x9, x8
	b.hs	.LBB1_51
.LBB1_6:
	add	x8, x21, x9
	sub	x10, x20, x9
	ldrsb	w11, [x8]
	cmp	x10, #2
	b.lo	.LBB1_2
	tbnz	w11, #31, .LBB1_2
	ldrsb	w11, [x8, #1]
	tbnz	w11, #31, .LBB1_3
	cmp	x10, #7
	stp	x21, x20, [sp]
	b.hi	.LBB1_28
	ldrsb	w8, [x21, x9]
	tbnz	w8, #31, .LBB1_43
	add	x8, x9, #1
	cmp	x8, x20
	b.eq	.LBB1_51
	ldrsb	w10, [x21, x8]
	tbnz	w10, #31, .LBB1_5
	add	x8, x9, #2
	cmp	x8, x20
	b.eq	.LBB1_51
	ldrsb	w10, [x21, x8]
	tbnz	w10, #31, .LBB1_5
	add	x8, x9, #3
	cmp	x8, x20
	b.eq	.LBB1_51
	ldrsb	w10, [x21, x8]
	tbnz	w10, #31, .LBB1_5
	add	x8, x9, #4
	cmp	x8, x20
	b.eq	.LBB1_51
	ldrsb	w10, [x21, x8]
	tbnz	w10, #31, .LBB1_5
	add	x8, x9, #5
	cmp	x8, x20
	b.eq	.LBB1_51
	ldrsb	w10, [x21, x8]
	tbnz	w10, #31, .LBB1_5
	add	x8, x9, #6
	cmp	x8, x20
	b.eq	.LBB1_51
	ldrsb	w9, [x21, x8]
	tbnz	w9, #31, .LBB1_5
	b	.LBB1_51
.LBB1_23:
	cmp	w11, #194
	b.lo	.LBB1_59
	cmp	w11, #223
	b.hi	.LBB1_36
	cmp	x10, #2
	b.lo	.LBB1_58
	ldrsb	w12, [x8, #1]
	cmn	w12, #65
	b.gt	.LBB1_55
	mov	w12, #2
	b	.LBB1_4
.LBB1_28:
	ldr	x8, [x8]
	mov	w10, #8
	ands	x8, x8, #0x8080808080808080
	rbit	x8, x8
	clz	x8, x8
	lsr	x8, x8, #3
	csel	x8, x10, x8, eq
	add	x8, x8, x9
	add	x9, x9, #8
	cmp	x8, x9
	b.lo	.LBB1_5
	sub	x9, x20, x8
	cmp	x9, #32
	b.lo	.LBB1_32
.LBB1_30:
	add	x9, x21, x8
	ldp	q1, q0, [x9]
	orr	v0.16b, v1.16b, v0.16b
	ext	v1.16b, v0.16b, v0.16b, #8
	orr	v0.8b, v0.8b, v1.8b
	fmov	x9, d0
	tst	x9, #0x8080808080808080
	b.ne	.LBB1_32
	mov	x0, sp
	add	x1, x8, #32
	mov	x2, x20
	bl	"core::slice::words::skip_far::<#52f9edcae2f82f51>"
	sub	x9, x20, x0
	mov	x8, x0
	cmp	x9, #31
	b.hi	.LBB1_30
.LBB1_32:
	sub	x9, x20, x8
.LBB1_33:
	cmp	x9, #9
	b.lo	.LBB1_50
	ldr	x10, [x21, x8]
	mov	w11, #8
	sub	x9, x9, #8
	ands	x10, x10, #0x8080808080808080
	rbit	x10, x10
	clz	x10, x10
	lsr	x10, x10, #3
	csel	x10, x11, x10, eq
	add	x11, x10, x8
	add	x8, x8, #8
	cmp	x11, x8
	b.hs	.LBB1_33
	add	x8, x10, x8
	sub	x8, x8, #8
	b	.LBB1_5
.LBB1_36:
	cmp	w11, #239
	b.hi	.LBB1_44
	cmp	x10, #3
	b.lo	.LBB1_53
	ldrsb	w12, [x8, #1]
	cmn	w12, #65
	b.gt	.LBB1_55
	ldrsb	w13, [x8, #2]
	cmn	w13, #65
	b.gt	.LBB1_55
	and	w13, w12, #0xff
	mov	w14, #-14464
	add	w13, w13, w11, lsl #6
	add	w13, w13, w14
	cmp	w13, #32
	b.lo	.LBB1_55
	cmp	w13, #896
	mov	w12, #3
	csel	x14, xzr, x12, lo
	cmp	w13, #864
	b.lo	.LBB1_4
	mov	x12, x14
	b	.LBB1_49
.LBB1_43:
	mov	x8, x9
	b	.LBB1_5
.LBB1_44:
	cmp	x10, #4
	b.lo	.LBB1_52
	ldrsb	w12, [x8, #1]
	cmn	w12, #65
	b.gt	.LBB1_52
	ldrsb	w13, [x8, #2]
	cmn	w13, #65
	b.gt	.LBB1_52
	ldrsb	w13, [x8, #3]
	cmn	w13, #65
	b.gt	.LBB1_52
	and	w12, w12, #0xff
	mov	w13, #-15488
	add	w12, w12, w11, lsl #6
	add	w13, w12, w13
	mov	w12, #4
	cmp	w13, #272
	csel	x12, x12, xzr, lo
	cmp	w13, #16
	b.lo	.LBB1_52
.LBB1_49:
	cbnz	x12, .LBB1_4
	b	.LBB1_52
.LBB1_50:
	ldr	x8, [x21, x22]
	mov	w9, #8
	ands	x8, x8, #0x8080808080808080
	rbit	x8, x8
	clz	x8, x8
	lsr	x8, x8, #3
	csel	x8, x9, x8, eq
	add	x8, x8, x22
	b	.LBB1_5
.LBB1_51:
	stp	xzr, x21, [x19]
	str	x20, [x19, #16]
	.cfi_def_cfa wsp, 64
	ldp	x20, x19, [sp, #48]
	ldp	x22, x21, [sp, #32]
	ldp	x29, x30, [sp, #16]
	add	sp, sp, #64
	.cfi_def_cfa_offset 0
	.cfi_restore w19
	.cfi_restore w20
	.cfi_restore w21
	.cfi_restore w22
	.cfi_restore w30
	.cfi_restore w29
	ret
.LBB1_52:
	.cfi_restore_state
	.cfi_remember_state
	cmp	w11, #244
	b.hi	.LBB1_59
.LBB1_53:
	cmp	x10, #2
	b.lo	.LBB1_58
	ldrb	w12, [x8, #1]
.LBB1_55:
	cmp	w11, #240
	mov	w13, #-128
	mov	w14, #-112
	mov	w15, #-96
	csel	w13, w14, w13, eq
	cmp	w11, #224
	mov	w14, #-65
	csel	w13, w15, w13, eq
	mov	w15, #-113
	cmp	w11, #244
	and	w16, w13, #0xf0
	csel	w13, w15, w14, eq
	cmp	w11, #237
	mov	w11, #-97
	csel	w13, w11, w13, eq
	cmp	w16, w12, uxtb
	mov	w11, #257
	b.hi	.LBB1_60
	and	w12, w12, #0xff
	cmp	w12, w13, uxtb
	b.hi	.LBB1_60
	cmp	x10, #2
	b.ne	.LBB1_61
.LBB1_58:
	mov	x11, xzr
	b	.LBB1_60
.LBB1_59:
	mov	w11, #257
.LBB1_60:
	mov	w8, #1
	str	x11, [x19, #16]
	stp	x8, x9, [x19]
	.cfi_def_cfa wsp, 64
	ldp	x20, x19, [sp, #48]
	ldp	x22, x21, [sp, #32]
	ldp	x29, x30, [sp, #16]
	add	sp, sp, #64
	.cfi_def_cfa_offset 0
	.cfi_restore w19
	.cfi_restore w20
	.cfi_restore w21
	.cfi_restore w22
	.cfi_restore w30
	.cfi_restore w29
	ret
.LBB1_61:
	.cfi_restore_state
	ldrsb	w8, [x8, #2]
	cmn	w8, #65
	b.gt	.LBB1_63
	cmp	x10, #3
	mov	w8, #769
	csel	x11, x8, xzr, hi
	b	.LBB1_60
.LBB1_63:
	mov	w11, #513
	b	.LBB1_60
.Lfunc_end1:
	.size	"core::str::utf8::from_utf8", .Lfunc_end1-"core::str::utf8::from_utf8"
	.cfi_endproc

	.section	".text.core::slice::words::skip_far::<#52f9edcae2f82f51>","ax",@progbits
	.p2align	2
	.type	"core::slice::words::skip_far::<#52f9edcae2f82f51>",@function
"core::slice::words::skip_far::<#52f9edcae2f82f51>":
	.cfi_startproc
	sub	x8, x2, x1
	cmp	x8, #64
	b.lo	.LBB2_4
	ldr	x9, [x0]
.LBB2_2:
	add	x10, x9, x1
	ldp	q0, q1, [x10, #32]
	ldp	q2, q3, [x10]
	orr	v1.16b, v3.16b, v1.16b
	orr	v0.16b, v2.16b, v0.16b
	orr	v0.16b, v0.16b, v1.16b
	ext	v1.16b, v0.16b, v0.16b, #8
	orr	v0.8b, v0.8b, v1.8b
	fmov	x10, d0
	tst	x10, #0x8080808080808080
	b.ne	.LBB2_4
	sub	x8, x8, #64
	add	x1, x1, #64
	cmp	x8, #63
	b.hi	.LBB2_2
.LBB2_4:
	mov	x0, x1
	ret
.Lfunc_end2:
	.size	"core::slice::words::skip_far::<#52f9edcae2f82f51>", .Lfunc_end2-"core::slice::words::skip_far::<#52f9edcae2f82f51>"
	.cfi_endproc

	.section	".text.unlikely.std_alloc::vec::Vec::grow_amortized::<#968d335fc558f578>","ax",@progbits
	.p2align	2
	.type	"std_alloc::vec::Vec::grow_amortized::<#968d335fc558f578>",@function
"std_alloc::vec::Vec::grow_amortized::<#968d335fc558f578>":
	.cfi_startproc
	ldr	x8, [x0, #8]
	cmn	x8, #1
	b.eq	.LBB3_5
	stp	x29, x30, [sp, #-32]!
	.cfi_def_cfa_offset 32
	stp	x20, x19, [sp, #16]
	mov	x29, sp
	.cfi_def_cfa w29, 32
	.cfi_offset w19, -8
	.cfi_offset w20, -16
	.cfi_offset w30, -24
	.cfi_offset w29, -32
	.cfi_remember_state
	ldr	x9, [x0, #16]
	cmp	x8, #3
	mov	w10, #3
	csel	x11, x8, x10, hi
	lsl	x10, x9, #1
	add	x12, x11, #1
	lsr	x13, x9, #62
	cmp	x12, x10
	csinc	x10, x10, x11, ls
	cmp	x13, #0
	csinc	x19, x10, x11, eq
	mov	x11, #6148914691236517205
	movk	x11, #1365, lsl #48
	cmp	x19, x11
	b.hi	.LBB3_7
	cbz	x9, .LBB3_6
	add	x8, x8, x8, lsl #1
	add	x9, x19, x19, lsl #1
	mov	x20, x0
	ldr	x0, [x0]
	mov	w3, #8
	lsl	x1, x8, #3
	lsl	x2, x9, #3
	bl	rattle_realloc
	tbz	w0, #0, .LBB3_7
.LBB3_4:
	mov	w0, #1
	str	x1, [x20]
	str	x19, [x20, #16]
	.cfi_def_cfa wsp, 32
	ldp	x20, x19, [sp, #16]
	ldp	x29, x30, [sp], #32
	.cfi_def_cfa_offset 0
	.cfi_restore w19
	.cfi_restore w20
	.cfi_restore w30
	.cfi_restore w29
	ret
.LBB3_5:
	mov	w0, wzr
	ret
.LBB3_6:
	.cfi_restore_state
	add	x8, x10, x10, lsl #1
	mov	x20, x0
	mov	w1, #8
	lsl	x0, x8, #3
	bl	rattle_alloc
	tbnz	w0, #0, .LBB3_4
.LBB3_7:
	mov	w0, wzr
	.cfi_def_cfa wsp, 32
	ldp	x20, x19, [sp, #16]
	ldp	x29, x30, [sp], #32
	.cfi_def_cfa_offset 0
	.cfi_restore w19
	.cfi_restore w20
	.cfi_restore w30
	.cfi_restore w29
	ret
.Lfunc_end3:
	.size	"std_alloc::vec::Vec::grow_amortized::<#968d335fc558f578>", .Lfunc_end3-"std_alloc::vec::Vec::grow_amortized::<#968d335fc558f578>"
	.cfi_endproc

	.section	".text.std_io::io::error::last_error","ax",@progbits
	.p2align	2
	.type	"std_io::io::error::last_error",@function
"std_io::io::error::last_error":
	.cfi_startproc
	stp	x29, x30, [sp, #-32]!
	.cfi_def_cfa_offset 32
	str	x19, [sp, #16]
	mov	x29, sp
	.cfi_def_cfa w29, 32
	.cfi_offset w19, -16
	.cfi_offset w30, -24
	.cfi_offset w29, -32
	.cfi_remember_state
	mov	x19, x0
	bl	rattle_errno
	tbnz	w0, #31, .LBB4_4
	sub	w8, w0, #1
	cmp	w8, #121
	b.hi	.LBB4_4
	adrp	x9, .LJTI4_0
	add	x9, x9, :lo12:.LJTI4_0
	adr	x10, .LBB4_3
	ldrb	w11, [x9, x8]
	add	x10, x10, x11, lsl #2
	mov	w8, #1
	br	x10
.LBB4_3:
	hint	#36
	mov	w8, #36
	b	.LBB4_5
.LBB4_4:
	hint	#36
	mov	w8, #41
.LBB4_5:
	hint	#36
	movi	v0.2d, #0000000000000000
	strb	wzr, [x19]
	strb	w8, [x19, #1]
	strh	wzr, [x19, #2]
	str	w0, [x19, #4]
	stur	q0, [x19, #8]
	stur	q0, [x19, #24]
	stur	q0, [x19, #40]
	stur	q0, [x19, #56]
	stur	q0, [x19, #72]
	.cfi_def_cfa wsp, 32
	ldr	x19, [sp, #16]
	ldp	x29, x30, [sp], #32
	.cfi_def_cfa_offset 0
	.cfi_restore w19
	.cfi_restore w30
	.cfi_restore w29
	ret
.LBB4_6:
	.cfi_restore_state
	hint	#36
	mov	w8, #4
	b	.LBB4_5
.LBB4_7:
	hint	#36
	mov	w8, #7
	b	.LBB4_5
.LBB4_8:
	hint	#36
	mov	w8, #26
	b	.LBB4_5
.LBB4_9:
	hint	#36
	mov	w8, #39
	b	.LBB4_5
.LBB4_10:
	hint	#36
	mov	w8, #9
	b	.LBB4_5
.LBB4_11:
	hint	#36
	mov	w8, #8
	b	.LBB4_5
.LBB4_12:
	hint	#36
	mov	w8, #30
	b	.LBB4_5
.LBB4_13:
	hint	#36
	mov	w8, #25
	b	.LBB4_5
.LBB4_14:
	hint	#36
	mov	w8, #32
	b	.LBB4_5
.LBB4_15:
	hint	#36
	mov	w8, #33
	b	.LBB4_5
.LBB4_16:
	hint	#36
	mov	w8, #22
	b	.LBB4_5
.LBB4_17:
	hint	#36
	mov	w8, #31
	b	.LBB4_5
.LBB4_18:
	hint	#36
	mov	w8, #29
	b	.LBB4_5
.LBB4_19:
	hint	#36
	mov	w8, #18
	b	.LBB4_5
.LBB4_20:
	hint	#36
	mov	w8, #10
	b	.LBB4_5
.LBB4_21:
	hint	#36
	mov	w8, #28
	b	.LBB4_5
.LBB4_22:
	hint	#36
	mov	w8, #14
	b	.LBB4_5
.LBB4_23:
	hint	#36
	mov	w8, #12
	b	.LBB4_5
.LBB4_24:
	hint	#36
	mov	w8, #5
	b	.LBB4_5
.LBB4_25:
	hint	#36
	mov	w8, #3
	b	.LBB4_5
.LBB4_26:
	hint	#36
	mov	w8, wzr
	b	.LBB4_5
.LBB4_27:
	hint	#36
	mov	w8, #13
	b	.LBB4_5
.LBB4_28:
	hint	#36
	mov	w8, #38
	b	.LBB4_5
.LBB4_29:
	hint	#36
	mov	w8, #11
	b	.LBB4_5
.LBB4_30:
	hint	#36
	mov	w8, #35
	b	.LBB4_5
.LBB4_31:
	hint	#36
	mov	w8, #34
	b	.LBB4_5
.LBB4_32:
	hint	#36
	mov	w8, #20
	b	.LBB4_5
.LBB4_33:
	hint	#36
	mov	w8, #15
	b	.LBB4_5
.LBB4_34:
	hint	#36
	mov	w8, #19
	b	.LBB4_5
.LBB4_35:
	hint	#36
	mov	w8, #16
	b	.LBB4_5
.LBB4_36:
	hint	#36
	mov	w8, #6
	b	.LBB4_5
.LBB4_37:
	hint	#36
	mov	w8, #27
	b	.LBB4_5
.LBB4_38:
	hint	#36
	mov	w8, #24
	b	.LBB4_5
.LBB4_39:
	hint	#36
	mov	w8, #2
	b	.LBB4_5
.LBB4_40:
	hint	#36
	mov	w8, #17
	b	.LBB4_5
.Lfunc_end4:
	.size	"std_io::io::error::last_error", .Lfunc_end4-"std_io::io::error::last_error"
	.cfi_endproc
	.section	".rodata.std_io::io::error::last_error","a",@progbits
.LJTI4_0:
	.byte	(.LBB4_5-.LBB4_3)>>2
	.byte	(.LBB4_26-.LBB4_3)>>2
	.byte	(.LBB4_4-.LBB4_3)>>2
	.byte	(.LBB4_30-.LBB4_3)>>2
	.byte	(.LBB4_4-.LBB4_3)>>2
	.byte	(.LBB4_4-.LBB4_3)>>2
	.byte	(.LBB4_31-.LBB4_3)>>2
	.byte	(.LBB4_4-.LBB4_3)>>2
	.byte	(.LBB4_4-.LBB4_3)>>2
	.byte	(.LBB4_4-.LBB4_3)>>2
	.byte	(.LBB4_27-.LBB4_3)>>2
	.byte	(.LBB4_28-.LBB4_3)>>2
	.byte	(.LBB4_5-.LBB4_3)>>2
	.byte	(.LBB4_4-.LBB4_3)>>2
	.byte	(.LBB4_4-.LBB4_3)>>2
	.byte	(.LBB4_21-.LBB4_3)>>2
	.byte	(.LBB4_23-.LBB4_3)>>2
	.byte	(.LBB4_17-.LBB4_3)>>2
	.byte	(.LBB4_4-.LBB4_3)>>2
	.byte	(.LBB4_22-.LBB4_3)>>2
	.byte	(.LBB4_33-.LBB4_3)>>2
	.byte	(.LBB4_32-.LBB4_3)>>2
	.byte	(.LBB4_4-.LBB4_3)>>2
	.byte	(.LBB4_4-.LBB4_3)>>2
	.byte	(.LBB4_4-.LBB4_3)>>2
	.byte	(.LBB4_18-.LBB4_3)>>2
	.byte	(.LBB4_37-.LBB4_3)>>2
	.byte	(.LBB4_38-.LBB4_3)>>2
	.byte	(.LBB4_13-.LBB4_3)>>2
	.byte	(.LBB4_40-.LBB4_3)>>2
	.byte	(.LBB4_14-.LBB4_3)>>2
	.byte	(.LBB4_29-.LBB4_3)>>2
	.byte	(.LBB4_4-.LBB4_3)>>2
	.byte	(.LBB4_4-.LBB4_3)>>2
	.byte	(.LBB4_12-.LBB4_3)>>2
	.byte	(.LBB4_15-.LBB4_3)>>2
	.byte	(.LBB4_4-.LBB4_3)>>2
	.byte	(.LBB4_3-.LBB4_3)>>2
	.byte	(.LBB4_35-.LBB4_3)>>2
	.byte	(.LBB4_19-.LBB4_3)>>2
	.byte	(.LBB4_4-.LBB4_3)>>2
	.byte	(.LBB4_4-.LBB4_3)>>2
	.byte	(.LBB4_4-.LBB4_3)>>2
	.byte	(.LBB4_4-.LBB4_3)>>2
	.byte	(.LBB4_4-.LBB4_3)>>2
	.byte	(.LBB4_4-.LBB4_3)>>2
	.byte	(.LBB4_4-.LBB4_3)>>2
	.byte	(.LBB4_4-.LBB4_3)>>2
	.byte	(.LBB4_4-.LBB4_3)>>2
	.byte	(.LBB4_4-.LBB4_3)>>2
	.byte	(.LBB4_4-.LBB4_3)>>2
	.byte	(.LBB4_4-.LBB4_3)>>2
	.byte	(.LBB4_4-.LBB4_3)>>2
	.byte	(.LBB4_4-.LBB4_3)>>2
	.byte	(.LBB4_4-.LBB4_3)>>2
	.byte	(.LBB4_4-.LBB4_3)>>2
	.byte	(.LBB4_4-.LBB4_3)>>2
	.byte	(.LBB4_4-.LBB4_3)>>2
	.byte	(.LBB4_4-.LBB4_3)>>2
	.byte	(.LBB4_4-.LBB4_3)>>2
	.byte	(.LBB4_4-.LBB4_3)>>2
	.byte	(.LBB4_4-.LBB4_3)>>2
	.byte	(.LBB4_4-.LBB4_3)>>2
	.byte	(.LBB4_4-.LBB4_3)>>2
	.byte	(.LBB4_4-.LBB4_3)>>2
	.byte	(.LBB4_4-.LBB4_3)>>2
	.byte	(.LBB4_4-.LBB4_3)>>2
	.byte	(.LBB4_4-.LBB4_3)>>2
	.byte	(.LBB4_4-.LBB4_3)>>2
	.byte	(.LBB4_4-.LBB4_3)>>2
	.byte	(.LBB4_4-.LBB4_3)>>2
	.byte	(.LBB4_4-.LBB4_3)>>2
	.byte	(.LBB4_4-.LBB4_3)>>2
	.byte	(.LBB4_4-.LBB4_3)>>2
	.byte	(.LBB4_4-.LBB4_3)>>2
	.byte	(.LBB4_4-.LBB4_3)>>2
	.byte	(.LBB4_4-.LBB4_3)>>2
	.byte	(.LBB4_4-.LBB4_3)>>2
	.byte	(.LBB4_4-.LBB4_3)>>2
	.byte	(.LBB4_4-.LBB4_3)>>2
	.byte	(.LBB4_4-.LBB4_3)>>2
	.byte	(.LBB4_4-.LBB4_3)>>2
	.byte	(.LBB4_4-.LBB4_3)>>2
	.byte	(.LBB4_4-.LBB4_3)>>2
	.byte	(.LBB4_4-.LBB4_3)>>2
	.byte	(.LBB4_4-.LBB4_3)>>2
	.byte	(.LBB4_4-.LBB4_3)>>2
	.byte	(.LBB4_4-.LBB4_3)>>2
	.byte	(.LBB4_4-.LBB4_3)>>2
	.byte	(.LBB4_4-.LBB4_3)>>2
	.byte	(.LBB4_4-.LBB4_3)>>2
	.byte	(.LBB4_4-.LBB4_3)>>2
	.byte	(.LBB4_4-.LBB4_3)>>2
	.byte	(.LBB4_4-.LBB4_3)>>2
	.byte	(.LBB4_3-.LBB4_3)>>2
	.byte	(.LBB4_4-.LBB4_3)>>2
	.byte	(.LBB4_4-.LBB4_3)>>2
	.byte	(.LBB4_11-.LBB4_3)>>2
	.byte	(.LBB4_10-.LBB4_3)>>2
	.byte	(.LBB4_20-.LBB4_3)>>2
	.byte	(.LBB4_24-.LBB4_3)>>2
	.byte	(.LBB4_4-.LBB4_3)>>2
	.byte	(.LBB4_36-.LBB4_3)>>2
	.byte	(.LBB4_25-.LBB4_3)>>2
	.byte	(.LBB4_4-.LBB4_3)>>2
	.byte	(.LBB4_4-.LBB4_3)>>2
	.byte	(.LBB4_7-.LBB4_3)>>2
	.byte	(.LBB4_4-.LBB4_3)>>2
	.byte	(.LBB4_4-.LBB4_3)>>2
	.byte	(.LBB4_16-.LBB4_3)>>2
	.byte	(.LBB4_39-.LBB4_3)>>2
	.byte	(.LBB4_4-.LBB4_3)>>2
	.byte	(.LBB4_6-.LBB4_3)>>2
	.byte	(.LBB4_4-.LBB4_3)>>2
	.byte	(.LBB4_9-.LBB4_3)>>2
	.byte	(.LBB4_34-.LBB4_3)>>2
	.byte	(.LBB4_4-.LBB4_3)>>2
	.byte	(.LBB4_4-.LBB4_3)>>2
	.byte	(.LBB4_4-.LBB4_3)>>2
	.byte	(.LBB4_4-.LBB4_3)>>2
	.byte	(.LBB4_4-.LBB4_3)>>2
	.byte	(.LBB4_8-.LBB4_3)>>2

	.section	".text.utf16_streams::lossy::LossyTranscoder::feed_to::<#8b18edd9dd9aa8df>","ax",@progbits
	.p2align	2
	.type	"utf16_streams::lossy::LossyTranscoder::feed_to::<#8b18edd9dd9aa8df>",@function
"utf16_streams::lossy::LossyTranscoder::feed_to::<#8b18edd9dd9aa8df>":
	.cfi_startproc
	sub	sp, sp, #208
	.cfi_def_cfa_offset 208
	stp	x29, x30, [sp, #112]
	stp	x28, x27, [sp, #128]
	stp	x26, x25, [sp, #144]
	stp	x24, x23, [sp, #160]
	stp	x22, x21, [sp, #176]
	stp	x20, x19, [sp, #192]
	add	x29, sp, #112
	.cfi_def_cfa w29, 96
	.cfi_offset w19, -8
	.cfi_offset w20, -16
	.cfi_offset w21, -24
	.cfi_offset w22, -32
	.cfi_offset w23, -40
	.cfi_offset w24, -48
	.cfi_offset w25, -56
	.cfi_offset w26, -64
	.cfi_offset w27, -72
	.cfi_offset w28, -80
	.cfi_offset w30, -88
	.cfi_offset w29, -96
	.cfi_remember_state
	ldr	w8, [x0]
	mov	w10, #3
	mov	x22, xzr
	mov	x13, xzr
	stp	x3, x4, [sp, #16]
	lsr	w9, w8, #24
	stp	x2, x1, [sp, #40]
	str	x0, [sp, #8]
	cmp	w9, #3
	stp	wzr, w8, [x29, #-36]
	csel	w12, w9, w10, lo
	str	x12, [sp, #32]
	b	.LBB5_3
.LBB5_1:
	mov	w8, wzr
	add	x23, x6, x23
	ldr	x13, [sp, #56]
	ldur	x22, [x29, #-48]
	ldr	x12, [sp, #32]
	add	x13, x19, x13
	add	x22, x23, x22
	cbz	x19, .LBB5_83
.LBB5_2:
	cmp	w8, #3
	b.eq	.LBB5_83
.LBB5_3:
	subs	x8, x13, x12
	adrp	x28, .Lstatic.6
	add	x28, x28, :lo12:.Lstatic.6
	stur	x22, [x29, #-48]
	str	x13, [sp, #56]
	b.hs	.LBB5_43
	sub	x19, x12, x13
	mov	w8, #4
	ldr	x10, [sp, #40]
	sub	x8, x8, x19
	sub	x9, x29, #32
	sub	x0, x29, #24
	cmp	x8, x10
	add	x1, x9, x13
	sub	x2, x12, x13
	csel	x25, x8, x10, lo
	stur	wzr, [x29, #-24]
	sub	x20, x29, #24
	bl	memcpy
	ldr	x1, [sp, #48]
	add	x0, x20, x19
	mov	x2, x25
	bl	memcpy
	ldur	w8, [x29, #-24]
	mov	x24, xzr
	mov	x23, xzr
	add	x19, x25, x19
	stur	w8, [x29, #-28]
	ldr	x8, [sp, #16]
	add	x21, x8, x22
	ldr	x8, [sp, #24]
	sub	x22, x8, x22
	b	.LBB5_7
.LBB5_5:
	add	x0, x25, x24
	sub	x1, x19, x24
	add	x2, x21, x23
	sub	x3, x22, x23
	bl	"utf16_transcode::decode_lossy::write_copied::<#8b18edd9dd9aa8df>"
.LBB5_6:
	add	x24, x0, x24
	add	x23, x1, x23
.LBB5_7:
	sub	x27, x19, x24
	sub	x8, x29, #28
	stp	xzr, xzr, [x29, #-24]
	sub	x9, x27, #16
	add	x25, x8, x24
	add	x8, x21, x23
	cmp	x9, #175
	sub	x9, x22, x23
	stur	xzr, [x29, #-8]
	b.hi	.LBB5_15
	lsr	x10, x27, #1
	cmp	x9, x10
	csel	x10, x9, x10, lo
	cmp	x10, #8
	b.lo	.LBB5_15
	lsl	x11, x10, #1
	mov	x5, xzr
	mov	x6, xzr
	mov	x12, x11
.LBB5_10:
	ldr	q0, [x25, x5]
	movi	v1.8h, #127
	rev16	v0.16b, v0.16b
	cmhi	v1.8h, v0.8h, v1.8h
	umaxv	h1, v1.8h
	fmov	w13, s1
	tbnz	w13, #0, .LBB5_16
	sqxtun	v0.8b, v0.8h
	sub	x12, x12, #16
	add	x5, x5, #16
	cmp	x12, #15
	str	d0, [x8, x6]
	add	x6, x6, #8
	b.hi	.LBB5_10
	cmp	x11, x5
	b.ls	.LBB5_16
	add	x12, x25, x11
	movi	v1.8h, #127
	ldur	q0, [x12, #-16]
	rev16	v0.16b, v0.16b
	cmhi	v1.8h, v0.8h, v1.8h
	umaxv	h1, v1.8h
	fmov	w12, s1
	tbnz	w12, #0, .LBB5_16
	sqxtun	v0.8b, v0.8h
	add	x12, x8, x10
	mov	x6, x10
	mov	x5, x11
	stur	d0, [x12, #-8]
	b	.LBB5_16
.LBB5_15:
	mov	x6, xzr
	mov	x5, xzr
.LBB5_16:
	sub	x10, x27, x5
	cmp	x10, #15
	b.ls	.LBB5_25
.LBB5_17:
	sub	x10, x27, #8
	cmp	x10, #183
	b.hi	.LBB5_20
	sub	x10, x27, x5
	cmp	x10, #8
	b.lo	.LBB5_20
	add	x0, x25, x5
	sub	x1, x27, x5
	add	x2, x8, x6
	sub	x3, x9, x6
	mov	x26, x28
	mov	x28, x6
	mov	x20, x5
	bl	"utf16_to_utf8::vectors::write_vectors::<#8b18edd9dd9aa8df>"
	mov	x6, x28
	mov	x28, x26
	add	x5, x0, x20
	add	x6, x1, x6
.LBB5_20:
	cmp	x5, x27
	b.eq	.LBB5_1
	sub	x0, x29, #24
	sub	x2, x19, x24
	add	x3, x21, x23
	sub	x4, x22, x23
	mov	x1, x25
	bl	"utf16_transcode::transcoding::transcode_many::<#b8dc3d53e12e85b3>"
	ldp	x9, x10, [x29, #-24]
	ldurb	w8, [x29, #-8]
	cmp	w8, #1
	add	x24, x9, x24
	add	x23, x10, x23
	b.ne	.LBB5_39
	sub	x9, x22, x23
	add	x8, x21, x23
	cmp	x9, #512
	b.lo	.LBB5_34
	sub	x8, x19, x24
	sub	x25, x29, #28
	cmp	x8, #128
	b.lo	.LBB5_5
	add	x0, x25, x24
	sub	x1, x19, x24
	add	x2, x21, x23
	sub	x3, x22, x23
	bl	"utf16_transcode::ascii::write_lossy_ascii_blocks::<#8b18edd9dd9aa8df>"
	cmp	x0, #127
	b.ls	.LBB5_5
	b	.LBB5_6
.LBB5_25:
	cmp	x10, #2
	b.lo	.LBB5_17
	lsr	x11, x10, #1
	sub	x12, x9, x6
	add	x11, x11, x11, lsl #1
	cmp	x12, x11
	b.hs	.LBB5_29
	b	.LBB5_17
.LBB5_27:
	strb	w11, [x8, x6]
	add	x6, x6, #1
.LBB5_28:
	sub	x10, x10, #2
	add	x5, x5, #2
	cmp	x10, #1
	b.ls	.LBB5_17
.LBB5_29:
	ldrh	w11, [x25, x5]
	rev	w12, w11
	rev16	w11, w11
	lsr	w12, w12, #16
	cmp	w12, #127
	b.ls	.LBB5_27
	and	w12, w11, #0xffff
	cmp	w12, #2047
	b.hi	.LBB5_32
	lsr	w12, w11, #6
	orr	w12, w12, #0xc0
	and	w12, w12, #0xff
	bfi	w12, w11, #8, #6
	add	x11, x6, #2
	orr	w12, w12, #0x8000
	strh	w12, [x8, x6]
	mov	x6, x11
	b	.LBB5_28
.LBB5_32:
	ubfx	w12, w11, #11, #5
	cmp	w12, #27
	b.eq	.LBB5_17
	mov	w12, #224
	mov	w13, #128
	mov	w14, #128
	bfxil	w12, w11, #12, #4
	bfxil	w13, w11, #6, #6
	bfxil	w14, w11, #0, #6
	add	x15, x8, x6
	add	x6, x6, #3
	strb	w12, [x15]
	strb	w13, [x15, #1]
	strb	w14, [x15, #2]
	b	.LBB5_28
.LBB5_34:
	cmp	x9, #2
	b.ls	.LBB5_40
	sub	x9, x8, x28
	ldurb	w0, [x29, #-7]
	cmp	x9, #2
	b.hi	.LBB5_37
	mov	w9, #49135
	mov	w10, #189
	strh	w9, [x8]
	strb	w10, [x8, #2]
	b	.LBB5_38
.LBB5_37:
	mov	w9, #189
	mov	w10, #49135
	strb	w9, [x8, #2]
	strh	w10, [x8]
.LBB5_38:
	mov	w1, #3
	b	.LBB5_6
.LBB5_39:
	ldr	x13, [sp, #56]
	ldur	x22, [x29, #-48]
	ldr	x12, [sp, #32]
	add	x13, x24, x13
	add	x22, x23, x22
	cbnz	x24, .LBB5_2
	b	.LBB5_83
.LBB5_40:
	ldr	x8, [sp, #56]
	ldr	x10, [sp, #32]
	sub	x9, x29, #32
	ldur	x22, [x29, #-48]
	add	x8, x24, x8
	cmp	x10, x8
	add	x22, x23, x22
	csel	x8, x10, x8, lo
	add	x1, x9, x8
	sub	x23, x10, x8
.LBB5_41:
	sub	x0, x29, #24
	mov	x2, x23
	sturb	wzr, [x29, #-22]
	sturh	wzr, [x29, #-24]
	bl	memcpy
	ldurb	w8, [x29, #-22]
	ldurh	w9, [x29, #-24]
	orr	w8, w9, w8, lsl #16
	orr	w8, w8, w23, lsl #24
.LBB5_42:
	ldr	x9, [sp, #8]
	mov	x0, x22
	str	w8, [x9]
	.cfi_def_cfa wsp, 208
	ldp	x20, x19, [sp, #192]
	ldp	x22, x21, [sp, #176]
	ldp	x24, x23, [sp, #160]
	ldp	x26, x25, [sp, #144]
	ldp	x28, x27, [sp, #128]
	ldp	x29, x30, [sp, #112]
	add	sp, sp, #208
	.cfi_def_cfa_offset 0
	.cfi_restore w19
	.cfi_restore w20
	.cfi_restore w21
	.cfi_restore w22
	.cfi_restore w23
	.cfi_restore w24
	.cfi_restore w25
	.cfi_restore w26
	.cfi_restore w27
	.cfi_restore w28
	.cfi_restore w30
	.cfi_restore w29
	ret
.LBB5_43:
	.cfi_restore_state
	ldr	x11, [sp, #48]
	mov	x10, x22
	mov	x22, xzr
	mov	x21, xzr
	sub	x9, x11, x12
	add	x26, x11, x8
	ldr	x11, [sp, #40]
	add	x9, x9, x13
	sub	x25, x11, x8
	ldr	x8, [sp, #16]
	add	x24, x8, x10
	ldr	x8, [sp, #24]
	sub	x23, x8, x10
	add	x8, x9, #1
	stp	x8, x9, [sp, #16]
	b	.LBB5_46
.LBB5_44:
	add	x0, x26, x22
	sub	x1, x25, x22
	add	x2, x24, x19
	sub	x3, x23, x19
	bl	"utf16_transcode::decode_lossy::write_copied::<#8b18edd9dd9aa8df>"
.LBB5_45:
	add	x22, x0, x22
	add	x21, x1, x19
.LBB5_46:
	sub	x19, x25, x22
	add	x8, x26, x22
	sub	x10, x23, x21
	sub	x9, x19, #16
	stp	xzr, xzr, [x29, #-24]
	cmp	x9, #175
	add	x9, x24, x21
	stur	xzr, [x29, #-8]
	b.hi	.LBB5_54
	lsr	x11, x19, #1
	cmp	x10, x11
	csel	x11, x10, x11, lo
	cmp	x11, #8
	b.lo	.LBB5_54
	lsl	x12, x11, #1
	ldr	x13, [sp, #24]
	mov	x5, xzr
	mov	x6, xzr
	add	x14, x24, x21
	add	x13, x13, x22
	mov	x15, x12
.LBB5_49:
	ldr	q0, [x13, x5]
	movi	v1.8h, #127
	rev16	v0.16b, v0.16b
	cmhi	v1.8h, v0.8h, v1.8h
	umaxv	h1, v1.8h
	fmov	w16, s1
	tbnz	w16, #0, .LBB5_55
	sqxtun	v0.8b, v0.8h
	sub	x15, x15, #16
	add	x5, x5, #16
	cmp	x15, #15
	str	d0, [x14, x6]
	add	x6, x6, #8
	b.hi	.LBB5_49
	cmp	x12, x5
	b.ls	.LBB5_55
	add	x13, x8, x12
	movi	v1.8h, #127
	ldur	q0, [x13, #-16]
	rev16	v0.16b, v0.16b
	cmhi	v1.8h, v0.8h, v1.8h
	umaxv	h1, v1.8h
	fmov	w13, s1
	tbnz	w13, #0, .LBB5_55
	sqxtun	v0.8b, v0.8h
	add	x13, x9, x11
	mov	x6, x11
	mov	x5, x12
	stur	d0, [x13, #-8]
	b	.LBB5_55
.LBB5_54:
	mov	x6, xzr
	mov	x5, xzr
.LBB5_55:
	sub	x11, x19, x5
	cmp	x11, #15
	b.ls	.LBB5_64
.LBB5_56:
	sub	x11, x19, #8
	cmp	x11, #183
	b.hi	.LBB5_59
	sub	x11, x19, x5
	cmp	x11, #8
	b.lo	.LBB5_59
	add	x0, x8, x5
	sub	x1, x19, x5
	add	x2, x9, x6
	sub	x3, x10, x6
	mov	x27, x6
	mov	x20, x28
	mov	x28, x5
	bl	"utf16_to_utf8::vectors::write_vectors::<#8b18edd9dd9aa8df>"
	mov	x5, x28
	mov	x28, x20
	add	x6, x1, x27
	add	x5, x0, x5
.LBB5_59:
	cmp	x5, x19
	b.eq	.LBB5_79
	sub	x0, x29, #24
	add	x1, x26, x22
	sub	x2, x25, x22
	add	x3, x24, x21
	sub	x4, x23, x21
	bl	"utf16_transcode::transcoding::transcode_many::<#b8dc3d53e12e85b3>"
	ldp	x9, x10, [x29, #-24]
	ldurb	w8, [x29, #-8]
	cmp	w8, #1
	add	x22, x9, x22
	add	x19, x10, x21
	b.ne	.LBB5_81
	sub	x9, x23, x19
	add	x8, x24, x19
	cmp	x9, #512
	b.lo	.LBB5_74
	sub	x8, x25, x22
	cmp	x8, #128
	b.lo	.LBB5_44
	add	x0, x26, x22
	sub	x1, x25, x22
	add	x2, x24, x19
	sub	x3, x23, x19
	bl	"utf16_transcode::ascii::write_lossy_ascii_blocks::<#8b18edd9dd9aa8df>"
	cmp	x0, #127
	b.ls	.LBB5_44
	b	.LBB5_45
.LBB5_64:
	cmp	x11, #2
	b.lo	.LBB5_56
	lsr	x12, x11, #1
	sub	x13, x10, x6
	add	x12, x12, x12, lsl #1
	cmp	x13, x12
	b.lo	.LBB5_56
	ldr	x13, [sp, #16]
	add	x12, x5, x22
	add	x12, x13, x12
	b	.LBB5_69
.LBB5_67:
	strb	w13, [x9, x6]
	add	x6, x6, #1
.LBB5_68:
	sub	x11, x11, #2
	add	x12, x12, #2
	add	x5, x5, #2
	cmp	x11, #1
	b.ls	.LBB5_56
.LBB5_69:
	ldurh	w13, [x12, #-1]
	rev	w14, w13
	rev16	w13, w13
	lsr	w14, w14, #16
	cmp	w14, #127
	b.ls	.LBB5_67
	and	w14, w13, #0xffff
	cmp	w14, #2047
	b.hi	.LBB5_72
	lsr	w14, w13, #6
	orr	w14, w14, #0xc0
	and	w14, w14, #0xff
	bfi	w14, w13, #8, #6
	add	x13, x6, #2
	orr	w14, w14, #0x8000
	strh	w14, [x9, x6]
	mov	x6, x13
	b	.LBB5_68
.LBB5_72:
	ubfx	w14, w13, #11, #5
	cmp	w14, #27
	b.eq	.LBB5_56
	mov	w14, #224
	mov	w15, #128
	mov	w16, #128
	bfxil	w14, w13, #12, #4
	bfxil	w15, w13, #6, #6
	bfxil	w16, w13, #0, #6
	add	x17, x9, x6
	add	x6, x6, #3
	strb	w14, [x17]
	strb	w15, [x17, #1]
	strb	w16, [x17, #2]
	b	.LBB5_68
.LBB5_74:
	cmp	x9, #3
	b.lo	.LBB5_80
	sub	x9, x8, x28
	ldurb	w0, [x29, #-7]
	cmp	x9, #2
	b.hi	.LBB5_77
	mov	w9, #49135
	mov	w10, #189
	strh	w9, [x8]
	strb	w10, [x8, #2]
	b	.LBB5_78
.LBB5_77:
	mov	w9, #189
	mov	w10, #49135
	strb	w9, [x8, #2]
	strh	w10, [x8]
.LBB5_78:
	mov	w1, #3
	b	.LBB5_45
.LBB5_79:
	mov	w8, wzr
	add	x19, x6, x21
	b	.LBB5_82
.LBB5_80:
	mov	w8, #3
.LBB5_81:
	mov	x25, x22
.LBB5_82:
	ldr	x13, [sp, #56]
	ldur	x22, [x29, #-48]
	ldr	x12, [sp, #32]
	add	x13, x25, x13
	add	x22, x19, x22
.LBB5_83:
	cmp	x12, x13
	sub	x10, x29, #32
	csel	x9, x12, x13, lo
	cmp	w8, #3
	add	x1, x10, x9
	sub	x23, x12, x9
	b.eq	.LBB5_41
	subs	x8, x13, x12
	ldr	x9, [sp, #40]
	sub	x0, x29, #24
	csel	x19, xzr, x8, lo
	mov	w8, #4
	mov	x2, x23
	sub	x9, x9, x19
	sub	x8, x8, x23
	mov	x24, x22
	cmp	x8, x9
	stur	wzr, [x29, #-24]
	sub	x20, x29, #24
	csel	x22, x8, x9, lo
	bl	memcpy
	ldr	x8, [sp, #48]
	add	x0, x20, x23
	mov	x2, x22
	add	x1, x8, x19
	bl	memcpy
	ldur	w8, [x29, #-24]
	add	x21, x22, x23
	sub	x0, x29, #24
	sub	x1, x29, #36
	mov	x2, x21
	sturb	wzr, [x29, #-22]
	stur	w8, [x29, #-36]
	mov	x22, x24
	sturh	wzr, [x29, #-24]
	bl	memcpy
	ldurb	w8, [x29, #-22]
	ldurh	w9, [x29, #-24]
	orr	w8, w9, w8, lsl #16
	orr	w8, w8, w21, lsl #24
	b	.LBB5_42
.Lfunc_end5:
	.size	"utf16_streams::lossy::LossyTranscoder::feed_to::<#8b18edd9dd9aa8df>", .Lfunc_end5-"utf16_streams::lossy::LossyTranscoder::feed_to::<#8b18edd9dd9aa8df>"
	.cfi_endproc

	.section	.rodata.cst16,"aM",@progbits,16
	.p2align	4, 0x0
.LCPI6_0:
	.byte	1
	.byte	2
	.byte	4
	.byte	8
	.byte	16
	.byte	32
	.byte	64
	.byte	128
	.byte	1
	.byte	2
	.byte	4
	.byte	8
	.byte	16
	.byte	32
	.byte	64
	.byte	128
.LCPI6_1:
	.byte	0
	.byte	1
	.byte	16
	.byte	2
	.byte	3
	.byte	18
	.byte	4
	.byte	5
	.byte	20
	.byte	6
	.byte	7
	.byte	22
	.byte	8
	.byte	9
	.byte	24
	.byte	10
.LCPI6_3:
	.hword	1
	.hword	2
	.hword	4
	.hword	8
	.hword	16
	.hword	32
	.hword	64
	.hword	128
	.section	.rodata.cst8,"aM",@progbits,8
	.p2align	3, 0x0
.LCPI6_2:
	.byte	3
	.byte	10
	.byte	4
	.byte	5
	.byte	12
	.byte	6
	.byte	7
	.byte	14
.LCPI6_4:
	.byte	1
	.byte	2
	.byte	4
	.byte	8
	.byte	16
	.byte	32
	.byte	64
	.byte	128
	.section	".text.utf16_to_utf8::vectors::write_vectors::<#8b18edd9dd9aa8df>","ax",@progbits
	.p2align	2
	.type	"utf16_to_utf8::vectors::write_vectors::<#8b18edd9dd9aa8df>",@function
"utf16_to_utf8::vectors::write_vectors::<#8b18edd9dd9aa8df>":
	.cfi_startproc
	lsr	x9, x1, #1
	movi	v0.2d, #0000000000000000
	mov	x8, x1
	mov	x13, xzr
	adrp	x14, .LCPI6_4
	adrp	x12, .LCPI6_3
	add	x10, x9, x9, lsl #1
	adrp	x11, .Lstatic.8
	add	x11, x11, :lo12:.Lstatic.8
	add	x10, x10, #128
	cmp	x10, x3
	csel	x15, x10, x3, lo
	cmp	x1, #16
	b.lo	.LBB6_19
	cmp	x15, #32
	mov	x10, x13
	mov	x17, x13
	mov	x16, x8
	b.lo	.LBB6_20
	movi	v1.2d, #0000000000000000
	mov	x17, xzr
	mov	x10, xzr
	mov	x13, xzr
	mov	x16, x8
.LBB6_3:
	ldr	q0, [x0, x13]
	rev16	v0.16b, v0.16b
	tbnz	w17, #0, .LBB6_6
	mvni	v2.8h, #248, lsl #8
	cmhi	v2.8h, v0.8h, v2.8h
	umaxv	h2, v2.8h
	fmov	w18, s2
	tbz	w18, #0, .LBB6_13
	movi	v2.8h, #248, lsl #8
	movi	v3.8h, #216, lsl #8
	and	v2.16b, v0.16b, v2.16b
	cmeq	v2.8h, v2.8h, v3.8h
	umaxv	h2, v2.8h
	fmov	w18, s2
	tbz	w18, #0, .LBB6_15
.LBB6_6:
	movi	v2.8b, #252
	shrn	v3.8b, v0.8h, #8
	ldr	d5, [x14, :lo12:.LCPI6_4]
	movi	v4.8b, #216
	and	v2.8b, v3.8b, v2.8b
	movi	v3.8b, #220
	cmeq	v4.8b, v2.8b, v4.8b
	cmeq	v2.8b, v2.8b, v3.8b
	and	v3.8b, v4.8b, v5.8b
	and	v2.8b, v2.8b, v5.8b
	addv	b3, v3.8b
	addv	b2, v2.8b
	fmov	w18, s3
	fmov	w3, s2
	ubfiz	x1, x18, #1, #7
	orr	x1, x1, x17
	cmp	x1, w3, uxtb
	b.ne	.LBB6_31
	movi	v2.8h, #40, lsl #8
	mvni	v3.8h, #248, lsl #8
	ext	v1.16b, v1.16b, v0.16b, #14
	add	v2.8h, v0.8h, v2.8h
	shl	v1.8h, v1.8h, #10
	umin	v2.8h, v0.8h, v2.8h
	cmhi	v2.8h, v2.8h, v3.8h
	umaxv	h2, v2.8h
	fmov	w17, s2
	tbz	w17, #0, .LBB6_9
	mvni	v2.8h, #120, lsl #8
	movi	v3.8h, #248, lsl #8
	mov	w17, #752
	movi	v4.8h, #36, lsl #8
	movi	v5.8h, #128, lsl #8
	adrp	x3, .Lstatic.9
	add	x3, x3, :lo12:.Lstatic.9
	movi	v6.8h, #216, lsl #8
	movi	v7.8h, #68, lsl #8
	uqsub	v2.8h, v2.8h, v0.8h
	movi	v16.2d, #0xff00ff00ff00ff
	mov	v17.16b, v0.16b
	and	v3.16b, v0.16b, v3.16b
	bic	v1.8h, #240, lsl #8
	add	v4.8h, v0.8h, v4.8h
	bic	v17.8h, #240, lsl #8
	add	v7.8h, v0.8h, v7.8h
	and	v2.16b, v2.16b, v5.16b
	cmeq	v3.8h, v3.8h, v6.8h
	dup	v6.8h, w17
	ushr	v4.8h, v4.8h, #2
	adrp	x17, .LCPI6_0
	uqsub	v16.8h, v16.8h, v0.8h
	add	v1.8h, v7.8h, v1.8h
	bif	v5.16b, v2.16b, v3.16b
	usra	v17.8h, v2.8h, #3
	uqsub	v4.8h, v4.8h, v6.8h
	orr	v17.8h, #32, lsl #8
	orr	v2.16b, v5.16b, v16.16b
	umax	v1.8h, v4.8h, v1.8h
	ldr	q4, [x17, :lo12:.LCPI6_0]
	cmlt	v2.16b, v2.16b, #0
	bif	v1.16b, v17.16b, v3.16b
	and	v2.16b, v2.16b, v4.16b
	shl	v4.8h, v0.8h, #8
	shl	v3.8h, v1.8h, #8
	addp	v2.16b, v2.16b, v2.16b
	usra	v4.8h, v0.8h, #12
	bic	v3.8h, #192, lsl #8
	addp	v2.16b, v2.16b, v2.16b
	orr	v4.8h, #224
	usra	v3.8h, v1.8h, #6
	addp	v1.16b, v2.16b, v2.16b
	orr	v3.8h, #128, lsl #8
	umov	w17, v1.h[0]
	zip1	v1.8h, v4.8h, v3.8h
	zip2	v3.8h, v4.8h, v3.8h
	and	x1, x17, #0xff
	ubfx	x17, x17, #8, #8
	ldr	q2, [x3, x1, lsl #4]
	fmov	d5, x17
	tbl	v1.16b, { v1.16b }, v2.16b
	fmov	d2, x1
	cnt	v4.8b, v5.8b
	cnt	v2.8b, v2.8b
	str	q1, [x2, x10]
	ldr	q1, [x3, x17, lsl #4]
	fmov	w1, s4
	tbl	v1.16b, { v3.16b }, v1.16b
	fmov	w17, s2
	sub	x10, x10, x17
	add	x17, x2, x10
	sub	x10, x10, x1
	add	x10, x10, #24
	stur	q1, [x17, #12]
	b	.LBB6_10
.LBB6_9:
	movi	v2.8h, #36, lsl #8
	movi	v3.8h, #68, lsl #8
	mov	w17, #752
	dup	v4.8h, w17
	bic	v1.8h, #240, lsl #8
	add	v2.8h, v0.8h, v2.8h
	add	v3.8h, v0.8h, v3.8h
	ushr	v2.8h, v2.8h, #2
	add	v1.8h, v3.8h, v1.8h
	uqsub	v2.8h, v2.8h, v4.8h
	movi	v4.8h, #48, lsl #8
	add	v3.8h, v0.8h, v4.8h
	umax	v1.8h, v2.8h, v1.8h
	cmlt	v2.8h, v0.8h, #0
	ldr	q4, [x12, :lo12:.LCPI6_3]
	bif	v1.16b, v3.16b, v2.16b
	movi	v2.8h, #128
	shl	v3.8h, v1.8h, #8
	cmhi	v2.8h, v2.8h, v0.8h
	bic	v3.8h, #192, lsl #8
	usra	v3.8h, v1.8h, #6
	and	v1.16b, v2.16b, v4.16b
	addv	h1, v1.8h
	orr	v3.8h, #128, lsl #8
	fmov	w17, s1
	mov	v1.16b, v2.16b
	saddlv	s2, v2.8h
	bsl	v1.16b, v0.16b, v3.16b
	and	x17, x17, #0xff
	ldr	q3, [x11, x17, lsl #4]
	fmov	w17, s2
	tbl	v1.16b, { v1.16b }, v3.16b
	neg	w17, w17
	sub	x17, x10, x17
	str	q1, [x2, x10]
	add	x10, x17, #16
.LBB6_10:
	ubfx	w17, w18, #7, #1
.LBB6_11:
	sub	x16, x16, #16
	add	x13, x13, #16
	cmp	x16, #16
	b.lo	.LBB6_20
	mov	v1.16b, v0.16b
	sub	x18, x15, x10
	cmp	x18, #31
	b.hi	.LBB6_3
	b	.LBB6_20
.LBB6_13:
	movi	v1.8h, #127
	cmhi	v1.8h, v0.8h, v1.8h
	umaxv	h1, v1.8h
	fmov	w17, s1
	tbz	w17, #0, .LBB6_17
	movi	v1.8h, #128
	shl	v2.8h, v0.8h, #8
	ldr	q3, [x12, :lo12:.LCPI6_3]
	mov	w18, #32960
	mov	x17, xzr
	dup	v4.8h, w18
	bic	v2.8h, #192, lsl #8
	cmhi	v1.8h, v1.8h, v0.8h
	usra	v2.8h, v0.8h, #6
	and	v3.16b, v1.16b, v3.16b
	add	v2.8h, v2.8h, v4.8h
	addv	h3, v3.8h
	bit	v2.16b, v0.16b, v1.16b
	saddlv	s1, v1.8h
	fmov	w18, s3
	and	x18, x18, #0xff
	ldr	q3, [x11, x18, lsl #4]
	fmov	w18, s1
	tbl	v2.16b, { v2.16b }, v3.16b
	neg	w18, w18
	sub	x18, x10, x18
	str	q2, [x2, x10]
	add	x10, x18, #16
	b	.LBB6_11
.LBB6_15:
	movi	v1.8h, #8, lsl #8
	cmhi	v1.8h, v1.8h, v0.8h
	umaxv	h1, v1.8h
	fmov	w17, s1
	tbz	w17, #0, .LBB6_18
	mvni	v1.8h, #120, lsl #8
	movi	v2.2d, #0xff00ff00ff00ff
	adrp	x18, .LCPI6_0
	movi	v3.8h, #128, lsl #8
	shl	v5.8h, v0.8h, #8
	adrp	x3, .Lstatic.9
	add	x3, x3, :lo12:.Lstatic.9
	movi	v4.8h, #63
	ushr	v6.8h, v0.8h, #6
	uqsub	v1.8h, v1.8h, v0.8h
	mov	x17, xzr
	uqsub	v2.8h, v2.8h, v0.8h
	and	v4.16b, v6.16b, v4.16b
	and	v1.16b, v1.16b, v3.16b
	ldr	q3, [x18, :lo12:.LCPI6_0]
	orr	v2.16b, v1.16b, v2.16b
	cmlt	v2.16b, v2.16b, #0
	and	v2.16b, v2.16b, v3.16b
	mov	v3.16b, v5.16b
	usra	v5.8h, v0.8h, #12
	bic	v3.8h, #192, lsl #8
	addp	v2.16b, v2.16b, v2.16b
	orr	v5.8h, #224
	orr	v3.16b, v3.16b, v4.16b
	addp	v2.16b, v2.16b, v2.16b
	movi	v4.16b, #128
	usra	v3.8h, v1.8h, #9
	addp	v1.16b, v2.16b, v2.16b
	umov	w18, v1.h[0]
	orr	v2.16b, v3.16b, v4.16b
	zip1	v1.8h, v5.8h, v2.8h
	zip2	v2.8h, v5.8h, v2.8h
	and	x1, x18, #0xff
	ubfx	x18, x18, #8, #8
	fmov	d4, x1
	ldr	q3, [x3, x1, lsl #4]
	tbl	v1.16b, { v1.16b }, v3.16b
	cnt	v3.8b, v4.8b
	fmov	d4, x18
	str	q1, [x2, x10]
	cnt	v4.8b, v4.8b
	ldr	q1, [x3, x18, lsl #4]
	fmov	w18, s3
	tbl	v1.16b, { v2.16b }, v1.16b
	fmov	w1, s4
	sub	x10, x10, x18
	add	x18, x2, x10
	stur	q1, [x18, #12]
	sub	x10, x10, x1
	add	x10, x10, #24
	b	.LBB6_11
.LBB6_17:
	sqxtun	v1.8b, v0.8h
	mov	x17, xzr
	str	d1, [x2, x10]
	add	x10, x10, #8
	b	.LBB6_11
.LBB6_18:
	movi	v1.8h, #63, lsl #8
	shl	v2.8h, v0.8h, #2
	mov	w18, #32992
	movi	v3.8h, #63
	mov	x17, xzr
	and	v1.16b, v2.16b, v1.16b
	dup	v2.8h, w18
	adrp	x18, .LCPI6_1
	usra	v1.8h, v0.8h, #12
	orr	v1.16b, v1.16b, v2.16b
	and	v2.16b, v0.16b, v3.16b
	ldr	q3, [x18, :lo12:.LCPI6_1]
	adrp	x18, .LCPI6_2
	ldr	d4, [x18, :lo12:.LCPI6_2]
	add	x18, x2, x10
	add	x10, x10, #24
	orr	v2.8h, #128
	tbl	v3.16b, { v1.16b, v2.16b }, v3.16b
	mov	v2.d[0], v1.d[1]
	tbl	v1.8b, { v2.16b }, v4.8b
	str	q3, [x18]
	str	d1, [x18, #16]
	b	.LBB6_11
.LBB6_19:
	mov	x10, x13
	mov	x17, x13
	mov	x16, x8
.LBB6_20:
	cmp	x8, x13
	b.eq	.LBB6_32
.LBB6_21:
	and	x18, x16, #0xfffffffffffffff1
	cbnz	x18, .LBB6_32
	sub	x15, x15, x10
	cmp	x15, #32
	b.lo	.LBB6_32
	cmp	x8, #15
	b.hi	.LBB6_25
	ldr	d1, [x0]
	sub	x15, x8, #8
	adrp	x16, .Lstatic.10
	add	x16, x16, :lo12:.Lstatic.10
	ldr	d2, [x0, x15]
	mov	v3.16b, v1.16b
	mov	v3.d[1], v2.d[0]
	ldr	q2, [x16, x15, lsl #4]
	tbl	v2.16b, { v3.16b }, v2.16b
	mov	v1.d[1], v2.d[0]
	b	.LBB6_26
.LBB6_25:
	add	x15, x0, x8
	ldur	q1, [x15, #-16]
	adrp	x15, .Lstatic.10
	add	x15, x15, :lo12:.Lstatic.10
	ldr	q2, [x15, x16, lsl #4]
	tbl	v1.16b, { v1.16b }, v2.16b
.LBB6_26:
	rev16	v1.16b, v1.16b
	movi	v2.8b, #252
	ldr	d5, [x14, :lo12:.LCPI6_4]
	movi	v4.8b, #216
	shrn	v3.8b, v1.8h, #8
	and	v2.8b, v3.8b, v2.8b
	movi	v3.8b, #220
	cmeq	v4.8b, v2.8b, v4.8b
	cmeq	v2.8b, v2.8b, v3.8b
	and	v3.8b, v4.8b, v5.8b
	and	v2.8b, v2.8b, v5.8b
	addv	b3, v3.8b
	addv	b2, v2.8b
	fmov	w14, s3
	fmov	w15, s2
	ubfiz	x14, x14, #1, #7
	orr	x14, x14, x17
	cmp	x14, w15, uxtb
	b.ne	.LBB6_32
	mvni	v2.8h, #248, lsl #8
	cmhi	v2.8h, v1.8h, v2.8h
	umaxv	h2, v2.8h
	fmov	w13, s2
	tbz	w13, #0, .LBB6_33
	movi	v2.8h, #248, lsl #8
	movi	v3.8h, #216, lsl #8
	and	v2.16b, v1.16b, v2.16b
	cmeq	v3.8h, v2.8h, v3.8h
	umaxv	h3, v3.8h
	fmov	w13, s3
	tbz	w13, #0, .LBB6_35
	movi	v3.8h, #40, lsl #8
	mvni	v4.8h, #248, lsl #8
	ext	v0.16b, v0.16b, v1.16b, #14
	add	v3.8h, v1.8h, v3.8h
	umin	v3.8h, v1.8h, v3.8h
	cmhi	v3.8h, v3.8h, v4.8h
	umaxv	h3, v3.8h
	fmov	w13, s3
	tbz	w13, #0, .LBB6_38
	mvni	v3.8h, #120, lsl #8
	movi	v4.8h, #36, lsl #8
	mov	w11, #752
	movi	v5.8h, #216, lsl #8
	movi	v6.8h, #128, lsl #8
	adrp	x13, .Lstatic.9
	add	x13, x13, :lo12:.Lstatic.9
	movi	v7.8h, #68, lsl #8
	movi	v16.2d, #0xff00ff00ff00ff
	uqsub	v3.8h, v3.8h, v1.8h
	shl	v0.8h, v0.8h, #10
	dup	v17.8h, w11
	add	v4.8h, v1.8h, v4.8h
	adrp	x11, .LCPI6_0
	cmeq	v2.8h, v2.8h, v5.8h
	mov	v5.16b, v1.16b
	bic	v0.8h, #240, lsl #8
	add	v7.8h, v1.8h, v7.8h
	uqsub	v16.8h, v16.8h, v1.8h
	and	v3.16b, v3.16b, v6.16b
	ushr	v4.8h, v4.8h, #2
	bic	v5.8h, #240, lsl #8
	add	v0.8h, v7.8h, v0.8h
	bif	v6.16b, v3.16b, v2.16b
	uqsub	v4.8h, v4.8h, v17.8h
	usra	v5.8h, v3.8h, #3
	orr	v3.16b, v6.16b, v16.16b
	orr	v5.8h, #32, lsl #8
	umax	v0.8h, v4.8h, v0.8h
	ldr	q4, [x11, :lo12:.LCPI6_0]
	cmlt	v3.16b, v3.16b, #0
	bif	v0.16b, v5.16b, v2.16b
	and	v2.16b, v3.16b, v4.16b
	shl	v4.8h, v1.8h, #8
	shl	v3.8h, v0.8h, #8
	addp	v2.16b, v2.16b, v2.16b
	usra	v4.8h, v1.8h, #12
	bic	v3.8h, #192, lsl #8
	addp	v2.16b, v2.16b, v2.16b
	orr	v4.8h, #224
	usra	v3.8h, v0.8h, #6
	addp	v0.16b, v2.16b, v2.16b
	orr	v3.8h, #128, lsl #8
	umov	w11, v0.h[0]
	zip1	v0.8h, v4.8h, v3.8h
	zip2	v3.8h, v4.8h, v3.8h
	and	x12, x11, #0xff
	ubfx	x11, x11, #8, #8
	ldr	q1, [x13, x12, lsl #4]
	fmov	d2, x11
	tbl	v0.16b, { v0.16b }, v1.16b
	fmov	d1, x12
	cnt	v2.8b, v2.8b
	cnt	v1.8b, v1.8b
	str	q0, [x2, x10]
	ldr	q0, [x13, x11, lsl #4]
	tbl	v0.16b, { v3.16b }, v0.16b
	fmov	w12, s2
	fmov	w11, s1
	b	.LBB6_37
.LBB6_31:
	mov	v0.16b, v1.16b
	cmp	x8, x13
	b.ne	.LBB6_21
.LBB6_32:
	sub	x8, x13, #2
	sub	x9, x10, #2
	tst	w17, #0x1
	csel	x1, x9, x10, ne
	csel	x0, x8, x13, ne
	ret
.LBB6_33:
	movi	v0.8h, #127
	cmhi	v0.8h, v1.8h, v0.8h
	umaxv	h0, v0.8h
	fmov	w13, s0
	tbz	w13, #0, .LBB6_39
	movi	v0.8h, #128
	shl	v2.8h, v1.8h, #8
	ldr	q3, [x12, :lo12:.LCPI6_3]
	mov	w12, #32960
	dup	v4.8h, w12
	bic	v2.8h, #192, lsl #8
	cmhi	v0.8h, v0.8h, v1.8h
	usra	v2.8h, v1.8h, #6
	and	v3.16b, v0.16b, v3.16b
	add	v2.8h, v2.8h, v4.8h
	addv	h3, v3.8h
	bif	v1.16b, v2.16b, v0.16b
	saddlv	s0, v0.8h
	fmov	w12, s3
	and	x12, x12, #0xff
	ldr	q2, [x11, x12, lsl #4]
	fmov	w11, s0
	tbl	v1.16b, { v1.16b }, v2.16b
	neg	w11, w11
	sub	x11, x10, x11
	str	q1, [x2, x10]
	add	x10, x11, #16
	orr	x9, x9, #0xfffffffffffffff8
	mov	x0, x8
	add	x1, x10, x9
	ret
.LBB6_35:
	movi	v0.8h, #8, lsl #8
	cmhi	v0.8h, v0.8h, v1.8h
	umaxv	h0, v0.8h
	fmov	w11, s0
	tbz	w11, #0, .LBB6_40
	mvni	v0.8h, #120, lsl #8
	movi	v2.2d, #0xff00ff00ff00ff
	adrp	x11, .LCPI6_0
	movi	v3.8h, #128, lsl #8
	shl	v5.8h, v1.8h, #8
	adrp	x13, .Lstatic.9
	add	x13, x13, :lo12:.Lstatic.9
	movi	v4.8h, #63
	ushr	v6.8h, v1.8h, #6
	uqsub	v0.8h, v0.8h, v1.8h
	uqsub	v2.8h, v2.8h, v1.8h
	and	v4.16b, v6.16b, v4.16b
	and	v0.16b, v0.16b, v3.16b
	ldr	q3, [x11, :lo12:.LCPI6_0]
	orr	v2.16b, v0.16b, v2.16b
	cmlt	v2.16b, v2.16b, #0
	and	v2.16b, v2.16b, v3.16b
	mov	v3.16b, v5.16b
	usra	v5.8h, v1.8h, #12
	bic	v3.8h, #192, lsl #8
	addp	v2.16b, v2.16b, v2.16b
	orr	v5.8h, #224
	orr	v3.16b, v3.16b, v4.16b
	addp	v2.16b, v2.16b, v2.16b
	movi	v4.16b, #128
	usra	v3.8h, v0.8h, #9
	addp	v0.16b, v2.16b, v2.16b
	orr	v1.16b, v3.16b, v4.16b
	umov	w11, v0.h[0]
	zip1	v0.8h, v5.8h, v1.8h
	zip2	v1.8h, v5.8h, v1.8h
	and	x12, x11, #0xff
	ubfx	x11, x11, #8, #8
	ldr	q2, [x13, x12, lsl #4]
	fmov	d3, x11
	tbl	v0.16b, { v0.16b }, v2.16b
	fmov	d2, x12
	cnt	v3.8b, v3.8b
	cnt	v2.8b, v2.8b
	str	q0, [x2, x10]
	ldr	q0, [x13, x11, lsl #4]
	tbl	v0.16b, { v1.16b }, v0.16b
	fmov	w12, s3
	fmov	w11, s2
.LBB6_37:
	sub	x10, x10, x11
	add	x11, x2, x10
	sub	x10, x10, x12
	stur	q0, [x11, #12]
	add	x10, x10, #24
	orr	x9, x9, #0xfffffffffffffff8
	mov	x0, x8
	add	x1, x10, x9
	ret
.LBB6_38:
	movi	v2.8h, #36, lsl #8
	movi	v3.8h, #68, lsl #8
	mov	w13, #752
	shl	v0.8h, v0.8h, #10
	dup	v4.8h, w13
	add	v2.8h, v1.8h, v2.8h
	bic	v0.8h, #240, lsl #8
	add	v3.8h, v1.8h, v3.8h
	ushr	v2.8h, v2.8h, #2
	add	v0.8h, v3.8h, v0.8h
	uqsub	v2.8h, v2.8h, v4.8h
	movi	v4.8h, #48, lsl #8
	add	v3.8h, v1.8h, v4.8h
	umax	v0.8h, v2.8h, v0.8h
	cmlt	v2.8h, v1.8h, #0
	ldr	q4, [x12, :lo12:.LCPI6_3]
	bif	v0.16b, v3.16b, v2.16b
	movi	v2.8h, #128
	shl	v3.8h, v0.8h, #8
	cmhi	v2.8h, v2.8h, v1.8h
	bic	v3.8h, #192, lsl #8
	usra	v3.8h, v0.8h, #6
	and	v0.16b, v2.16b, v4.16b
	addv	h0, v0.8h
	orr	v3.8h, #128, lsl #8
	fmov	w12, s0
	mov	v0.16b, v2.16b
	bsl	v0.16b, v1.16b, v3.16b
	saddlv	s1, v2.8h
	and	x12, x12, #0xff
	ldr	q2, [x11, x12, lsl #4]
	fmov	w11, s1
	tbl	v0.16b, { v0.16b }, v2.16b
	neg	w11, w11
	str	q0, [x2, x10]
	sub	x11, x10, x11
	add	x10, x11, #16
	orr	x9, x9, #0xfffffffffffffff8
	mov	x0, x8
	add	x1, x10, x9
	ret
.LBB6_39:
	sqxtun	v0.8b, v1.8h
	str	d0, [x2, x10]
	add	x10, x10, #8
	orr	x9, x9, #0xfffffffffffffff8
	mov	x0, x8
	add	x1, x10, x9
	ret
.LBB6_40:
	movi	v0.8h, #63, lsl #8
	shl	v2.8h, v1.8h, #2
	mov	w11, #32992
	movi	v3.8h, #63
	and	v0.16b, v2.16b, v0.16b
	dup	v2.8h, w11
	adrp	x11, .LCPI6_1
	usra	v0.8h, v1.8h, #12
	orr	v4.16b, v0.16b, v2.16b
	ldr	q0, [x11, :lo12:.LCPI6_1]
	adrp	x11, .LCPI6_2
	and	v5.16b, v1.16b, v3.16b
	ldr	d1, [x11, :lo12:.LCPI6_2]
	add	x11, x2, x10
	orr	v5.8h, #128
	tbl	v0.16b, { v4.16b, v5.16b }, v0.16b
	mov	v5.d[0], v4.d[1]
	tbl	v1.8b, { v5.16b }, v1.8b
	str	q0, [x11]
	str	d1, [x11, #16]
	add	x10, x10, #24
	orr	x9, x9, #0xfffffffffffffff8
	mov	x0, x8
	add	x1, x10, x9
	ret
.Lfunc_end6:
	.size	"utf16_to_utf8::vectors::write_vectors::<#8b18edd9dd9aa8df>", .Lfunc_end6-"utf16_to_utf8::vectors::write_vectors::<#8b18edd9dd9aa8df>"
	.cfi_endproc

	.section	".text.utf16_transcode::transcoding::transcode_many::<#b8dc3d53e12e85b3>","ax",@progbits
	.p2align	2
	.type	"utf16_transcode::transcoding::transcode_many::<#b8dc3d53e12e85b3>",@function
"utf16_transcode::transcoding::transcode_many::<#b8dc3d53e12e85b3>":
	.cfi_startproc
	sub	sp, sp, #464
	.cfi_def_cfa_offset 464
	stp	x29, x30, [sp, #368]
	stp	x28, x27, [sp, #384]
	stp	x26, x25, [sp, #400]
	stp	x24, x23, [sp, #416]
	stp	x22, x21, [sp, #432]
	stp	x20, x19, [sp, #448]
	add	x29, sp, #368
	.cfi_def_cfa w29, 96
	.cfi_offset w19, -8
	.cfi_offset w20, -16
	.cfi_offset w21, -24
	.cfi_offset w22, -32
	.cfi_offset w23, -40
	.cfi_offset w24, -48
	.cfi_offset w25, -56
	.cfi_offset w26, -64
	.cfi_offset w27, -72
	.cfi_offset w28, -80
	.cfi_offset w30, -88
	.cfi_offset w29, -96
	sub	x8, x2, x5
	mov	x20, x6
	mov	x25, x5
	cmp	x8, #2
	b.hs	.LBB7_2
.LBB7_1:
	mov	w8, wzr
	mov	w9, #2
	b	.LBB7_5
.LBB7_2:
	add	x9, x1, x25
	mov	x28, x4
	mov	x21, x2
	ldrb	w10, [x9]
	mov	x23, x3
	mov	x24, x1
	and	w11, w10, #0xf8
	cmp	w11, #216
	b.ne	.LBB7_8
	mov	w11, #220
	bics	wzr, w11, w10
	b.ne	.LBB7_6
.LBB7_4:
	mov	w8, #2
	mov	w9, #1
.LBB7_5:
	stp	x25, x20, [x0]
	strb	w9, [x0, #16]
	strb	w8, [x0, #17]
	b	.LBB7_92
.LBB7_6:
	cmp	x8, #4
	b.lo	.LBB7_1
	ldrb	w8, [x9, #2]
	and	w8, w8, #0xfc
	cmp	w8, #220
	b.ne	.LBB7_4
.LBB7_8:
	cmp	x21, x25
	str	x0, [sp, #24]
	b.ls	.LBB7_88
	neg	x8, x28
	str	x8, [sp, #16]
	b	.LBB7_12
.LBB7_10:
	strb	w0, [x23, x20]
	add	x20, x20, #1
.LBB7_11:
	add	x25, x8, x22
	cmp	x25, x21
	b.hs	.LBB7_88
.LBB7_12:
	sub	x26, x21, x25
	add	x27, x24, x25
	cmp	x26, #66
	b.lo	.LBB7_18
	lsr	x8, x26, #1
	movi	v0.2d, #0000000000000000
	sub	x22, x28, x20
	add	x0, sp, #32
	add	x1, x24, x25
	sub	x2, x21, x25
	add	x8, x8, x8, lsl #1
	add	x3, x23, x20
	mov	x19, x28
	str	xzr, [sp, #64]
	add	x28, x23, x20
	add	x8, x8, #128
	stp	q0, q0, [sp, #32]
	cmp	x8, x22
	csel	x4, x8, x22, lo
	bl	"utf16_to_utf8::runs::write_paired::<#8b18edd9dd9aa8df>"
	ldp	x9, x10, [sp, #32]
	ldrb	w8, [sp, #64]
	tst	w8, #0x1
	sub	x11, x9, #2
	sub	x8, x10, #2
	csel	x11, x11, x9, ne
	csel	x8, x8, x10, ne
	sub	x9, x26, x11
	sub	x10, x22, x8
	lsr	x9, x9, #1
	cmp	x10, x9
	csel	x10, x10, x9, lo
	lsl	x12, x10, #1
	cmp	x10, #8
	b.lo	.LBB7_19
	mov	x13, x12
	mov	x22, x11
	mov	x9, x8
.LBB7_15:
	ldr	q0, [x27, x22]
	movi	v1.8h, #127
	rev16	v0.16b, v0.16b
	cmhi	v1.8h, v0.8h, v1.8h
	umaxv	h1, v1.8h
	fmov	w14, s1
	tbnz	w14, #0, .LBB7_23
	sqxtun	v0.8b, v0.8h
	sub	x13, x13, #16
	add	x22, x22, #16
	cmp	x13, #15
	str	d0, [x28, x9]
	add	x9, x9, #8
	b.hi	.LBB7_15
	add	x11, x12, x11
	cmp	x11, #16
	b.hs	.LBB7_20
	b	.LBB7_23
.LBB7_18:
	mov	x22, xzr
	subs	x1, x26, xzr
	b.ne	.LBB7_24
	b	.LBB7_27
.LBB7_19:
	mov	x9, x8
	mov	x22, x11
	add	x11, x12, x11
	cmp	x11, #16
	b.lo	.LBB7_23
.LBB7_20:
	cmp	x11, x22
	b.ls	.LBB7_23
	add	x12, x27, x11
	movi	v1.8h, #127
	ldur	q0, [x12, #-16]
	rev16	v0.16b, v0.16b
	cmhi	v1.8h, v0.8h, v1.8h
	umaxv	h1, v1.8h
	fmov	w12, s1
	tbnz	w12, #0, .LBB7_23
	sqxtun	v0.8b, v0.8h
	add	x9, x10, x8
	mov	x22, x11
	add	x8, x28, x9
	stur	d0, [x8, #-8]
.LBB7_23:
	add	x20, x9, x20
	mov	x28, x19
	subs	x1, x26, x22
	b.eq	.LBB7_27
.LBB7_24:
	cmp	x1, #7
	add	x0, x27, x22
	b.hi	.LBB7_40
.LBB7_25:
	mov	x2, x23
	mov	x3, x28
	mov	x4, x20
	bl	"utf16_transcode::transcoding::write_chars::<#b8dc3d53e12e85b3>"
	mov	x27, x0
	mov	x20, x1
.LBB7_26:
	add	x26, x27, x22
.LBB7_27:
	add	x22, x26, x25
	subs	x10, x21, x22
	b.eq	.LBB7_87
	cmp	x10, #2
	b.lo	.LBB7_86
	add	x8, x24, x22
	ldrb	w9, [x8]
	and	w11, w9, #0xf8
	cmp	w11, #216
	b.ne	.LBB7_33
	mov	w11, #220
	bics	wzr, w11, w9
	b.eq	.LBB7_89
	cmp	x10, #4
	b.lo	.LBB7_86
	ldrb	w10, [x8, #2]
	and	w10, w10, #0xfc
	cmp	w10, #220
	b.ne	.LBB7_89
.LBB7_33:
	ldrb	w10, [x8, #1]
	ubfx	w11, w9, #2, #6
	orr	w9, w9, w10, lsl #8
	cmp	w11, #54
	rev16	w0, w9
	b.ne	.LBB7_35
	ldrh	w8, [x8, #2]
	rev16	w1, w8
	bl	"utf16_units::unit::decode_surrogates"
	mov	w8, #4
	b	.LBB7_36
.LBB7_35:
	and	w0, w0, #0xffff
	mov	w8, #2
.LBB7_36:
	cmp	w0, #16, lsl #12
	mov	w9, #3
	mov	w11, #2
	cinc	x10, x9, hs
	cmp	w0, #2048
	csel	x10, x11, x10, lo
	cmp	w0, #128
	sub	x11, x28, x20
	csinc	x10, x10, xzr, hs
	cmp	x11, x10
	b.lo	.LBB7_90
	cmp	w0, #127
	b.ls	.LBB7_10
	mov	w9, #-128
	cmp	w0, #2047
	bfxil	w9, w0, #0, #6
	b.hi	.LBB7_48
	lsr	w10, w0, #6
	add	x11, x20, #2
	orr	w10, w10, #0xc0
	bfi	w10, w9, #8, #24
	strh	w10, [x23, x20]
	mov	x20, x11
	b	.LBB7_11
.LBB7_40:
	cmp	x1, #128
	mov	w8, #128
	sub	x26, x28, x20
	csel	x8, x1, x8, lo
	subs	x9, x26, #128
	mov	x10, #-6148914691236517206
	csel	x9, xzr, x9, lo
	movk	x10, #43691
	umulh	x9, x9, x10
	and	x9, x9, #0xfffffffffffffffe
	cmp	x8, x9
	b.ls	.LBB7_50
	cmp	x26, #23
	b.ls	.LBB7_25
	movi	v0.2d, #0000000000000000
	cmp	x1, #65
	str	wzr, [sp, #304]
	stp	q0, q0, [sp, #48]
	stp	q0, q0, [sp, #80]
	stp	q0, q0, [sp, #112]
	stp	q0, q0, [sp, #144]
	stp	q0, q0, [sp, #176]
	stp	q0, q0, [sp, #208]
	stp	q0, q0, [sp, #240]
	stp	q0, q0, [sp, #272]
	str	q0, [sp, #32]
	b.hi	.LBB7_53
	cmp	x1, #64
	mov	w8, #64
	mov	x19, x24
	csel	x1, x1, x8, lo
	mov	x24, x23
	mov	x23, x28
	mov	x28, x0
	bl	"utf16_transcode::decode::valid_up_to::<#8b18edd9dd9aa8df>"
	mov	x27, x0
	add	x2, sp, #32
	mov	x0, x28
	mov	x1, x27
	bl	"utf16_to_utf8::write::write_utf8::<#8b18edd9dd9aa8df>"
	cmp	x0, x26
	b.ls	.LBB7_63
	mov	x28, x23
	mov	x23, x24
	mov	x24, x19
.LBB7_45:
	add	x8, sp, #32
	ldrsb	w8, [x8, x26]
	cmn	w8, #65
	b.gt	.LBB7_47
	subs	x26, x26, #1
	b.ne	.LBB7_45
.LBB7_47:
	add	x0, sp, #32
	mov	x1, x26
	bl	"utf16_units::size::utf16_len"
	mov	x27, x0
	b	.LBB7_64
.LBB7_48:
	lsr	w10, w0, #16
	cbnz	w10, .LBB7_52
	lsr	w10, w0, #12
	mov	w11, #128
	add	x12, x23, x20
	bfxil	w11, w0, #6, #6
	add	x20, x20, #3
	strb	w9, [x12, #2]
	orr	w10, w10, #0xe0
	strb	w10, [x12]
	strb	w11, [x12, #1]
	b	.LBB7_11
.LBB7_50:
	mov	x1, x8
	mov	x26, x0
	bl	"utf16_transcode::decode::valid_up_to::<#8b18edd9dd9aa8df>"
	mov	x27, x0
	cbz	x0, .LBB7_26
	add	x2, x23, x20
	mov	x0, x26
	mov	x1, x27
	bl	"utf16_to_utf8::write::write_utf8::<#8b18edd9dd9aa8df>"
	add	x20, x0, x20
	b	.LBB7_26
.LBB7_52:
	lsl	w10, w0, #10
	mov	w11, #32768
	movk	w11, #128, lsl #16
	and	w10, w10, #0x3f0000
	orr	w9, w10, w9, lsl #24
	lsr	w10, w0, #18
	bfxil	w9, w0, #4, #14
	add	w10, w10, #240
	bfxil	w9, w10, #0, #8
	add	x10, x20, #4
	orr	w9, w9, w11
	str	w9, [x23, x20]
	mov	x20, x10
	b	.LBB7_11
.LBB7_53:
	ldrb	w8, [x0]
	and	w9, w8, #0xf8
	cmp	w9, #216
	b.ne	.LBB7_56
	mov	w9, #220
	bics	wzr, w9, w8
	b.eq	.LBB7_25
	ldrb	w9, [x0, #2]
	and	w9, w9, #0xfc
	cmp	w9, #220
	b.ne	.LBB7_25
.LBB7_56:
	and	w8, w8, #0xfc
	mov	w9, #4
	cmp	w8, #216
	mov	w8, #2
	csel	x8, x9, x8, eq
	add	x8, x0, x8
	ldrb	w9, [x8]
	and	w10, w9, #0xf8
	cmp	w10, #216
	b.ne	.LBB7_59
	mov	w10, #220
	bics	wzr, w10, w9
	b.eq	.LBB7_25
	ldrb	w8, [x8, #2]
	and	w8, w8, #0xfc
	cmp	w8, #220
	b.ne	.LBB7_25
.LBB7_59:
	cmp	x26, #65
	mov	w8, #130
	mov	w9, #66
	csel	x8, x9, x8, lo
	mov	w9, #148
	add	x3, sp, #32
	cmp	x8, x1
	stur	xzr, [x29, #-16]
	csel	x27, x8, x1, lo
	mov	x1, x0
	sub	x0, x29, #48
	lsr	x8, x27, #1
	mov	x2, x27
	stp	q0, q0, [x29, #-48]
	stp	x28, x1, [sp]
	add	x8, x8, x8, lsl #1
	cmp	x8, #148
	csel	x8, x8, x9, lo
	add	x4, x8, #128
	bl	"utf16_to_utf8::runs::write_paired::<#8b18edd9dd9aa8df>"
	ldp	x9, x11, [x29, #-48]
	ldurb	w8, [x29, #-16]
	tst	w8, #0x1
	sub	x10, x9, #2
	sub	x8, x11, #2
	csel	x10, x10, x9, ne
	csel	x8, x8, x11, ne
	mov	w11, #276
	sub	x9, x27, x10
	sub	x11, x11, x8
	lsr	x9, x9, #1
	cmp	x11, x9
	csel	x9, x11, x9, lo
	lsl	x11, x9, #1
	cmp	x9, #8
	b.lo	.LBB7_65
	ldr	x12, [sp, #8]
	mov	x13, x11
	mov	x27, x10
	mov	x28, x8
.LBB7_61:
	ldr	q0, [x12, x27]
	movi	v1.8h, #127
	rev16	v0.16b, v0.16b
	cmhi	v1.8h, v0.8h, v1.8h
	umaxv	h1, v1.8h
	fmov	w14, s1
	tbnz	w14, #0, .LBB7_70
	sqxtun	v0.8b, v0.8h
	sub	x13, x13, #16
	add	x14, sp, #32
	cmp	x13, #15
	add	x27, x27, #16
	str	d0, [x14, x28]
	add	x28, x28, #8
	b.hi	.LBB7_61
	b	.LBB7_66
.LBB7_63:
	mov	x26, x0
	mov	x28, x23
	mov	x23, x24
	mov	x24, x19
.LBB7_64:
	add	x0, x23, x20
	add	x1, sp, #32
	mov	x2, x26
	bl	memcpy
	add	x20, x26, x20
	b	.LBB7_26
.LBB7_65:
	ldr	x12, [sp, #8]
	mov	x28, x8
	mov	x27, x10
.LBB7_66:
	add	x10, x11, x10
	cmp	x10, #16
	b.lo	.LBB7_70
	cmp	x10, x27
	b.ls	.LBB7_70
	add	x11, x12, x10
	movi	v1.8h, #127
	ldur	q0, [x11, #-16]
	rev16	v0.16b, v0.16b
	cmhi	v1.8h, v0.8h, v1.8h
	umaxv	h1, v1.8h
	fmov	w11, s1
	tbnz	w11, #0, .LBB7_70
	sqxtun	v0.8b, v0.8h
	add	x28, x9, x8
	add	x8, sp, #32
	add	x8, x8, x28
	mov	x27, x10
	stur	d0, [x8, #-8]
.LBB7_70:
	cmp	x28, x26
	b.ls	.LBB7_74
.LBB7_71:
	add	x8, sp, #32
	ldrsb	w8, [x8, x26]
	cmn	w8, #65
	b.gt	.LBB7_73
	subs	x26, x26, #1
	b.ne	.LBB7_71
.LBB7_73:
	add	x0, sp, #32
	mov	x1, x26
	bl	"utf16_units::size::utf16_len"
	mov	x27, x0
	mov	x28, x26
.LBB7_74:
	add	x0, x23, x20
	add	x1, sp, #32
	mov	x2, x28
	add	x19, x28, x20
	bl	memcpy
	cbz	x27, .LBB7_76
	ldr	x28, [sp]
	mov	x20, x19
	b	.LBB7_26
.LBB7_76:
	ldr	x26, [sp, #8]
	mov	w1, #64
	mov	x0, x26
	bl	"utf16_transcode::decode::valid_up_to::<#8b18edd9dd9aa8df>"
	mov	x27, x0
	add	x2, sp, #32
	mov	x0, x26
	mov	x1, x27
	bl	"utf16_to_utf8::write::write_utf8::<#8b18edd9dd9aa8df>"
	ldr	x8, [sp]
	sub	x26, x8, x19
	cmp	x0, x26
	b.ls	.LBB7_82
	cbz	x26, .LBB7_83
	ldr	x8, [sp, #16]
	add	x8, x8, x28
	ldr	x28, [sp]
	add	x8, x8, x20
.LBB7_79:
	add	x9, sp, #32
	ldrsb	w9, [x9, x26]
	cmn	w9, #65
	b.gt	.LBB7_84
	adds	x8, x8, #1
	sub	x26, x26, #1
	b.lo	.LBB7_79
	mov	x26, xzr
	b	.LBB7_84
.LBB7_82:
	ldr	x28, [sp]
	mov	x26, x0
	b	.LBB7_85
.LBB7_83:
	ldr	x28, [sp]
.LBB7_84:
	add	x0, sp, #32
	mov	x1, x26
	bl	"utf16_units::size::utf16_len"
	mov	x27, x0
.LBB7_85:
	add	x0, x23, x19
	add	x1, sp, #32
	mov	x2, x26
	bl	memcpy
	add	x20, x26, x19
	b	.LBB7_26
.LBB7_86:
	mov	w8, wzr
	mov	w9, #2
	b	.LBB7_91
.LBB7_87:
	mov	x25, x21
.LBB7_88:
	ldr	x8, [sp, #24]
	stp	x25, x20, [x8]
	strh	wzr, [x8, #16]
	b	.LBB7_92
.LBB7_89:
	mov	w8, #2
	mov	w9, #1
	b	.LBB7_91
.LBB7_90:
	mov	w8, wzr
.LBB7_91:
	ldr	x10, [sp, #24]
	stp	x22, x20, [x10]
	strb	w9, [x10, #16]
	strb	w8, [x10, #17]
.LBB7_92:
	.cfi_def_cfa wsp, 464
	ldp	x20, x19, [sp, #448]
	ldp	x22, x21, [sp, #432]
	ldp	x24, x23, [sp, #416]
	ldp	x26, x25, [sp, #400]
	ldp	x28, x27, [sp, #384]
	ldp	x29, x30, [sp, #368]
	add	sp, sp, #464
	.cfi_def_cfa_offset 0
	.cfi_restore w19
	.cfi_restore w20
	.cfi_restore w21
	.cfi_restore w22
	.cfi_restore w23
	.cfi_restore w24
	.cfi_restore w25
	.cfi_restore w26
	.cfi_restore w27
	.cfi_restore w28
	.cfi_restore w30
	.cfi_restore w29
	ret
.Lfunc_end7:
	.size	"utf16_transcode::transcoding::transcode_many::<#b8dc3d53e12e85b3>", .Lfunc_end7-"utf16_transcode::transcoding::transcode_many::<#b8dc3d53e12e85b3>"
	.cfi_endproc

	.section	".text.utf16_units::unit::decode_surrogates","ax",@progbits
	.p2align	2
	.type	"utf16_units::unit::decode_surrogates",@function
"utf16_units::unit::decode_surrogates":
	.cfi_startproc
	mov	w8, #10240
	mov	w9, #9216
	add	w8, w0, w8
	add	w9, w1, w9
	and	w8, w8, #0xffff
	lsl	w8, w8, #10
	add	w8, w8, w9, uxth
	add	w0, w8, #16, lsl #12
	ret
.Lfunc_end8:
	.size	"utf16_units::unit::decode_surrogates", .Lfunc_end8-"utf16_units::unit::decode_surrogates"
	.cfi_endproc

	.section	.rodata.cst16,"aM",@progbits,16
	.p2align	4, 0x0
.LCPI9_0:
	.byte	1
	.byte	2
	.byte	4
	.byte	8
	.byte	16
	.byte	32
	.byte	64
	.byte	128
	.byte	1
	.byte	2
	.byte	4
	.byte	8
	.byte	16
	.byte	32
	.byte	64
	.byte	128
.LCPI9_1:
	.byte	0
	.byte	1
	.byte	16
	.byte	2
	.byte	3
	.byte	18
	.byte	4
	.byte	5
	.byte	20
	.byte	6
	.byte	7
	.byte	22
	.byte	8
	.byte	9
	.byte	24
	.byte	10
	.section	.rodata.cst8,"aM",@progbits,8
	.p2align	3, 0x0
.LCPI9_2:
	.byte	3
	.byte	10
	.byte	4
	.byte	5
	.byte	12
	.byte	6
	.byte	7
	.byte	14
	.section	".text.utf16_to_utf8::runs::write_paired::<#8b18edd9dd9aa8df>","ax",@progbits
	.p2align	2
	.type	"utf16_to_utf8::runs::write_paired::<#8b18edd9dd9aa8df>",@function
"utf16_to_utf8::runs::write_paired::<#8b18edd9dd9aa8df>":
	.cfi_startproc
	sub	sp, sp, #160
	.cfi_def_cfa_offset 160
	stp	x29, x30, [sp, #64]
	str	x27, [sp, #80]
	stp	x26, x25, [sp, #96]
	stp	x24, x23, [sp, #112]
	stp	x22, x21, [sp, #128]
	stp	x20, x19, [sp, #144]
	add	x29, sp, #64
	.cfi_def_cfa w29, 96
	.cfi_offset w19, -8
	.cfi_offset w20, -16
	.cfi_offset w21, -24
	.cfi_offset w22, -32
	.cfi_offset w23, -40
	.cfi_offset w24, -48
	.cfi_offset w25, -56
	.cfi_offset w26, -64
	.cfi_offset w27, -80
	.cfi_offset w30, -88
	.cfi_offset w29, -96
	.cfi_remember_state
	subs	x23, x2, #64
	mov	x19, x0
	b.lo	.LBB9_46
	subs	x24, x4, #128
	b.lo	.LBB9_46
	movi	v0.2d, #0000000000000000
	mov	x20, x3
	mov	x21, x1
	mov	w26, wzr
	mov	x1, xzr
	mov	x22, xzr
	b	.LBB9_5
.LBB9_3:
	mov	v0.16b, v22.16b
	mov	v1.16b, v22.16b
	mov	x0, x20
	mov	v2.16b, v28.16b
	mov	v3.16b, v27.16b
	mov	w2, #5
	stur	q25, [x29, #-16]
	stp	q27, q26, [sp, #16]
	str	q28, [sp]
	bl	"utf16_to_utf8::blocks::write_group"
	ldp	q0, q1, [sp]
	mov	x1, x0
	ldr	q2, [sp, #32]
	ldur	q3, [x29, #-16]
	mov	x0, x20
	mov	w2, #5
	bl	"utf16_to_utf8::blocks::write_group"
	ldur	q0, [x29, #-16]
	mov	x1, x0
	lsr	w26, w27, #31
	add	x22, x22, #64
.LBB9_4:
	cmp	x22, x23
	b.hi	.LBB9_48
.LBB9_5:
	adrp	x27, .LCPI9_0
	adrp	x25, .Lstatic.8
	add	x25, x25, :lo12:.Lstatic.8
	tbnz	w26, #0, .LBB9_34
	cmp	x24, x1
	b.lo	.LBB9_34
.LBB9_7:
	add	x8, x21, x22
	ldp	q1, q2, [x8, #32]
	ldp	q3, q4, [x8]
	rev16	v20.16b, v1.16b
	rev16	v22.16b, v2.16b
	rev16	v23.16b, v3.16b
	rev16	v21.16b, v4.16b
	orr	v1.16b, v21.16b, v22.16b
	orr	v2.16b, v23.16b, v20.16b
	bic	v1.8h, #127
	bic	v2.8h, #127
	orr	v1.16b, v2.16b, v1.16b
	ext	v2.16b, v1.16b, v1.16b, #8
	orr	v1.8b, v1.8b, v2.8b
	fmov	x8, d1
	lsr	x9, x8, #32
	orr	w8, w8, w9
	orr	w8, w8, w8, lsr #16
	tst	w8, #0xffff
	b.ne	.LBB9_14
	sqxtun	v0.8b, v23.8h
	sqxtun	v1.8b, v20.8h
	add	x22, x22, #64
	add	x8, x20, x1
	cmp	x22, x23
	add	x1, x1, #32
	sqxtun2	v0.16b, v21.8h
	sqxtun2	v1.16b, v22.8h
	stp	q0, q1, [x8]
	b.hi	.LBB9_35
	mov	v0.16b, v22.16b
	cmp	x24, x1
	b.hs	.LBB9_7
	b	.LBB9_35
.LBB9_10:
	add	x8, x21, x22
	ldp	q1, q2, [x8, #32]
	ldp	q3, q4, [x8]
	rev16	v20.16b, v1.16b
	rev16	v22.16b, v2.16b
	rev16	v23.16b, v3.16b
	rev16	v21.16b, v4.16b
	orr	v1.16b, v21.16b, v22.16b
	orr	v2.16b, v23.16b, v20.16b
	bic	v1.8h, #127
	bic	v2.8h, #127
	orr	v1.16b, v2.16b, v1.16b
	ext	v2.16b, v1.16b, v1.16b, #8
	orr	v1.8b, v1.8b, v2.8b
	fmov	x8, d1
	lsr	x9, x8, #32
	orr	w8, w8, w9
	orr	w8, w8, w8, lsr #16
	tst	w8, #0xffff
	b.ne	.LBB9_14
	sqxtun	v0.8b, v23.8h
	sqxtun	v1.8b, v20.8h
	add	x22, x22, #64
	add	x8, x20, x1
	cmp	x22, x23
	add	x1, x1, #32
	sqxtun2	v0.16b, v21.8h
	sqxtun2	v1.16b, v22.8h
	stp	q0, q1, [x8]
	b.hi	.LBB9_35
	mov	v0.16b, v22.16b
	cmp	x24, x1
	b.hs	.LBB9_10
	b	.LBB9_35
.LBB9_13:
	mov	v0.16b, v7.16b
	cmp	x22, x23
	b.ls	.LBB9_33
	b	.LBB9_34
.LBB9_14:
	orr	v1.16b, v23.16b, v20.16b
	orr	v2.16b, v21.16b, v22.16b
	movi	v3.8h, #248, lsl #8
	orr	v1.16b, v1.16b, v2.16b
	and	v1.16b, v1.16b, v3.16b
	ext	v2.16b, v1.16b, v1.16b, #8
	orr	v1.8b, v1.8b, v2.8b
	fmov	x8, d1
	lsr	x9, x8, #32
	orr	w8, w8, w9
	orr	w8, w8, w8, lsr #16
	tst	w8, #0xffff
	b.eq	.LBB9_24
	movi	v4.8h, #40, lsl #8
	add	v1.8h, v21.8h, v4.8h
	add	v2.8h, v20.8h, v4.8h
	add	v3.8h, v23.8h, v4.8h
	add	v4.8h, v22.8h, v4.8h
	umin	v5.8h, v21.8h, v1.8h
	umin	v7.8h, v23.8h, v3.8h
	umin	v16.8h, v20.8h, v2.8h
	umin	v6.8h, v22.8h, v4.8h
	umin	v7.8h, v7.8h, v16.8h
	umin	v6.8h, v5.8h, v6.8h
	movi	v5.8h, #8, lsl #8
	umin	v6.8h, v7.8h, v6.8h
	cmhi	v6.8h, v5.8h, v6.8h
	umaxv	h6, v6.8h
	fmov	w8, s6
	tbz	w8, #0, .LBB9_25
	umin	v2.8h, v3.8h, v2.8h
	umin	v1.8h, v1.8h, v4.8h
	umin	v1.8h, v2.8h, v1.8h
	cmhi	v1.8h, v5.8h, v1.8h
	umaxv	h1, v1.8h
	fmov	w8, s1
	tbnz	w8, #0, .LBB9_34
	mov	v1.16b, v0.16b
	mov	v2.16b, v23.16b
	mov	x0, x20
	mov	v3.16b, v21.16b
	mov	w2, #4
	stur	q22, [x29, #-16]
	stp	q21, q20, [sp, #16]
	str	q23, [sp]
	bl	"utf16_to_utf8::blocks::write_group"
	ldp	q0, q1, [sp]
	mov	x1, x0
	ldr	q2, [sp, #32]
	ldur	q3, [x29, #-16]
	mov	x0, x20
	mov	w2, #4
	bl	"utf16_to_utf8::blocks::write_group"
	add	x22, x22, #64
	mov	x1, x0
	cmp	x22, x23
	b.hi	.LBB9_30
	cmp	x24, x1
	b.lo	.LBB9_30
	ldur	q7, [x29, #-16]
.LBB9_20:
	add	x8, x21, x22
	ldp	q0, q2, [x8, #32]
	ldp	q3, q4, [x8]
	rev16	v1.16b, v0.16b
	rev16	v0.16b, v2.16b
	rev16	v19.16b, v3.16b
	rev16	v5.16b, v4.16b
	movi	v4.8h, #248, lsl #8
	orr	v2.16b, v5.16b, v0.16b
	orr	v3.16b, v19.16b, v1.16b
	orr	v2.16b, v3.16b, v2.16b
	and	v2.16b, v2.16b, v4.16b
	ext	v3.16b, v2.16b, v2.16b, #8
	orr	v2.8b, v2.8b, v3.8b
	fmov	x8, d2
	lsr	x9, x8, #32
	orr	w8, w8, w9
	orr	w8, w8, w8, lsr #16
	tst	w8, #0xffff
	b.eq	.LBB9_13
	movi	v2.8h, #40, lsl #8
	add	v3.8h, v5.8h, v2.8h
	add	v4.8h, v0.8h, v2.8h
	add	v6.8h, v19.8h, v2.8h
	add	v2.8h, v1.8h, v2.8h
	umin	v3.8h, v3.8h, v4.8h
	movi	v4.8h, #8, lsl #8
	umin	v2.8h, v6.8h, v2.8h
	umin	v2.8h, v2.8h, v3.8h
	cmhi	v2.8h, v4.8h, v2.8h
	umaxv	h2, v2.8h
	fmov	w8, s2
	tbnz	w8, #0, .LBB9_13
	mvni	v6.8h, #120, lsl #8
	movi	v7.2d, #0xff00ff00ff00ff
	ldr	q4, [x27, :lo12:.LCPI9_0]
	movi	v16.8h, #128, lsl #8
	shl	v21.8h, v19.8h, #8
	adrp	x8, .Lstatic.9
	add	x8, x8, :lo12:.Lstatic.9
	ushr	v22.8h, v19.8h, #6
	ushr	v24.8h, v5.8h, #6
	uqsub	v2.8h, v6.8h, v19.8h
	uqsub	v18.8h, v6.8h, v5.8h
	add	x22, x22, #64
	uqsub	v3.8h, v7.8h, v19.8h
	uqsub	v23.8h, v7.8h, v5.8h
	cmp	x22, x23
	mov	v17.16b, v21.16b
	bic	v21.8h, #192, lsl #8
	uqsub	v26.8h, v7.8h, v1.8h
	uqsub	v7.8h, v7.8h, v0.8h
	and	v20.16b, v2.16b, v16.16b
	and	v18.16b, v18.16b, v16.16b
	usra	v17.8h, v19.8h, #12
	orr	v2.16b, v20.16b, v3.16b
	movi	v3.8h, #63
	orr	v17.8h, #224
	cmlt	v2.16b, v2.16b, #0
	and	v22.16b, v22.16b, v3.16b
	and	v2.16b, v2.16b, v4.16b
	orr	v21.16b, v21.16b, v22.16b
	orr	v22.16b, v18.16b, v23.16b
	addp	v2.16b, v2.16b, v2.16b
	usra	v21.8h, v20.8h, #9
	cmlt	v19.16b, v22.16b, #0
	addp	v23.16b, v2.16b, v2.16b
	movi	v2.16b, #128
	addp	v22.16b, v23.16b, v23.16b
	shl	v23.8h, v5.8h, #8
	orr	v20.16b, v21.16b, v2.16b
	and	v21.16b, v19.16b, v4.16b
	umov	w9, v22.h[0]
	and	v22.16b, v24.16b, v3.16b
	uqsub	v24.8h, v6.8h, v1.8h
	mov	v19.16b, v23.16b
	bic	v23.8h, #192, lsl #8
	addp	v21.16b, v21.16b, v21.16b
	zip1	v25.8h, v17.8h, v20.8h
	uqsub	v6.8h, v6.8h, v0.8h
	and	x10, x9, #0xff
	orr	v22.16b, v23.16b, v22.16b
	addp	v21.16b, v21.16b, v21.16b
	fmov	d27, x10
	ldr	q23, [x8, x10, lsl #4]
	and	v24.16b, v24.16b, v16.16b
	usra	v19.8h, v5.8h, #12
	zip2	v5.8h, v17.8h, v20.8h
	ubfx	x9, x9, #8, #8
	tbl	v23.16b, { v25.16b }, v23.16b
	usra	v22.8h, v18.8h, #9
	addp	v17.16b, v21.16b, v21.16b
	cnt	v25.8b, v27.8b
	orr	v18.16b, v24.16b, v26.16b
	orr	v19.8h, #224
	str	q23, [x20, x1]
	umov	w11, v17.h[0]
	orr	v21.16b, v22.16b, v2.16b
	ldr	q20, [x8, x9, lsl #4]
	cmlt	v17.16b, v18.16b, #0
	fmov	d18, x9
	fmov	w10, s25
	shl	v22.8h, v1.8h, #8
	ushr	v23.8h, v1.8h, #6
	tbl	v5.16b, { v5.16b }, v20.16b
	zip1	v20.8h, v19.8h, v21.8h
	zip2	v19.8h, v19.8h, v21.8h
	cnt	v18.8b, v18.8b
	and	v17.16b, v17.16b, v4.16b
	sub	x9, x1, x10
	and	x10, x11, #0xff
	add	x9, x9, #12
	str	q5, [x20, x9]
	addp	v17.16b, v17.16b, v17.16b
	and	v5.16b, v6.16b, v16.16b
	ldr	q25, [x8, x10, lsl #4]
	fmov	w12, s18
	mov	v6.16b, v22.16b
	and	v18.16b, v23.16b, v3.16b
	bic	v22.8h, #192, lsl #8
	tbl	v16.16b, { v20.16b }, v25.16b
	fmov	d20, x10
	addp	v17.16b, v17.16b, v17.16b
	sub	x9, x9, x12
	orr	v7.16b, v5.16b, v7.16b
	ubfx	x10, x11, #8, #8
	orr	v18.16b, v22.16b, v18.16b
	add	x9, x9, #12
	usra	v6.8h, v1.8h, #12
	cnt	v20.8b, v20.8b
	str	q16, [x20, x9]
	addp	v1.16b, v17.16b, v17.16b
	ldr	q16, [x8, x10, lsl #4]
	fmov	d21, x10
	cmlt	v7.16b, v7.16b, #0
	usra	v18.8h, v24.8h, #9
	orr	v6.8h, #224
	tbl	v16.16b, { v19.16b }, v16.16b
	shl	v19.8h, v0.8h, #8
	umov	w11, v1.h[0]
	fmov	w10, s20
	ushr	v20.8h, v0.8h, #6
	cnt	v17.8b, v21.8b
	orr	v18.16b, v18.16b, v2.16b
	and	v1.16b, v7.16b, v4.16b
	mov	v4.16b, v19.16b
	bic	v19.8h, #192, lsl #8
	sub	x9, x9, x10
	and	v3.16b, v20.16b, v3.16b
	and	x12, x11, #0xff
	add	x10, x20, x9
	zip1	v7.8h, v6.8h, v18.8h
	addp	v1.16b, v1.16b, v1.16b
	stur	q16, [x10, #12]
	fmov	w10, s17
	fmov	d17, x12
	orr	v3.16b, v19.16b, v3.16b
	ldr	q16, [x8, x12, lsl #4]
	usra	v4.8h, v0.8h, #12
	addp	v1.16b, v1.16b, v1.16b
	tbl	v7.16b, { v7.16b }, v16.16b
	cnt	v16.8b, v17.8b
	sub	x9, x9, x10
	usra	v3.8h, v5.8h, #9
	add	x9, x9, #24
	zip2	v5.8h, v6.8h, v18.8h
	ubfx	x10, x11, #8, #8
	addp	v1.16b, v1.16b, v1.16b
	orr	v4.8h, #224
	str	q7, [x20, x9]
	fmov	w11, s16
	ldr	q6, [x8, x10, lsl #4]
	orr	v2.16b, v3.16b, v2.16b
	fmov	d3, x10
	umov	w10, v1.h[0]
	tbl	v1.16b, { v5.16b }, v6.16b
	sub	x9, x9, x11
	zip1	v5.8h, v4.8h, v2.8h
	zip2	v2.8h, v4.8h, v2.8h
	cnt	v3.8b, v3.8b
	add	x9, x9, #12
	str	q1, [x20, x9]
	and	x11, x10, #0xff
	ubfx	x10, x10, #8, #8
	ldr	q1, [x8, x11, lsl #4]
	fmov	w12, s3
	fmov	d3, x11
	tbl	v1.16b, { v5.16b }, v1.16b
	fmov	d5, x10
	cnt	v3.8b, v3.8b
	sub	x9, x9, x12
	cnt	v4.8b, v5.8b
	add	x9, x9, #12
	str	q1, [x20, x9]
	ldr	q1, [x8, x10, lsl #4]
	fmov	w8, s3
	fmov	w10, s4
	tbl	v1.16b, { v2.16b }, v1.16b
	sub	x8, x9, x8
	add	x9, x20, x8
	sub	x8, x8, x10
	add	x1, x8, #24
	stur	q1, [x9, #12]
	b.hi	.LBB9_32
	mov	v7.16b, v0.16b
	cmp	x24, x1
	b.hs	.LBB9_20
	b	.LBB9_32
.LBB9_24:
	movi	v1.8h, #128
	ldr	q4, [x27, :lo12:.LCPI9_0]
	shl	v5.8h, v23.8h, #8
	mov	w8, #32960
	shl	v16.8h, v21.8h, #8
	add	x22, x22, #64
	dup	v7.8h, w8
	bic	v5.8h, #192, lsl #8
	cmhi	v2.8h, v1.8h, v23.8h
	cmhi	v0.8h, v1.8h, v21.8h
	cmhi	v6.8h, v1.8h, v20.8h
	cmhi	v1.8h, v1.8h, v22.8h
	bic	v16.8h, #192, lsl #8
	usra	v5.8h, v23.8h, #6
	uzp1	v3.16b, v2.16b, v0.16b
	uzp1	v17.16b, v6.16b, v1.16b
	usra	v16.8h, v21.8h, #6
	and	v3.16b, v3.16b, v4.16b
	add	v16.8h, v16.8h, v7.8h
	addp	v3.16b, v3.16b, v3.16b
	bsl	v0.16b, v21.16b, v16.16b
	shl	v16.8h, v22.8h, #8
	addp	v3.16b, v3.16b, v3.16b
	bic	v16.8h, #192, lsl #8
	addp	v3.16b, v3.16b, v3.16b
	usra	v16.8h, v22.8h, #6
	umov	w8, v3.h[0]
	add	v3.8h, v5.8h, v7.8h
	shl	v5.8h, v20.8h, #8
	bsl	v2.16b, v23.16b, v3.16b
	and	v3.16b, v17.16b, v4.16b
	bic	v5.8h, #192, lsl #8
	and	x9, x8, #0xff
	ubfx	x8, x8, #8, #8
	ldr	q4, [x25, x9, lsl #4]
	addp	v3.16b, v3.16b, v3.16b
	usra	v5.8h, v20.8h, #6
	tbl	v2.16b, { v2.16b }, v4.16b
	fmov	d4, x9
	addp	v3.16b, v3.16b, v3.16b
	str	q2, [x20, x1]
	cnt	v2.8b, v4.8b
	ldr	q4, [x25, x8, lsl #4]
	addp	v3.16b, v3.16b, v3.16b
	tbl	v0.16b, { v0.16b }, v4.16b
	add	v4.8h, v5.8h, v7.8h
	fmov	w9, s2
	fmov	d2, x8
	umov	w8, v3.h[0]
	mov	v3.16b, v6.16b
	cnt	v2.8b, v2.8b
	sub	x9, x1, x9
	add	x10, x20, x9
	bsl	v3.16b, v20.16b, v4.16b
	str	q0, [x10, #16]
	and	x10, x8, #0xff
	ubfx	x8, x8, #8, #8
	ldr	q0, [x25, x10, lsl #4]
	fmov	d4, x10
	fmov	w11, s2
	add	v2.8h, v16.8h, v7.8h
	tbl	v0.16b, { v3.16b }, v0.16b
	cnt	v3.8b, v4.8b
	bsl	v1.16b, v22.16b, v2.16b
	fmov	d2, x8
	sub	x9, x9, x11
	add	x9, x9, #32
	str	q0, [x20, x9]
	cnt	v0.8b, v2.8b
	ldr	q2, [x25, x8, lsl #4]
	fmov	w8, s3
	tbl	v1.16b, { v1.16b }, v2.16b
	sub	x8, x9, x8
	fmov	w10, s0
	add	x9, x20, x8
	mov	v0.16b, v22.16b
	str	q1, [x9, #16]
	sub	x8, x8, x10
	add	x1, x8, #32
	cmp	x22, x23
	b.ls	.LBB9_33
	b	.LBB9_34
.LBB9_25:
	movi	v0.8h, #63, lsl #8
	shl	v1.8h, v23.8h, #2
	mov	w8, #32992
	shl	v2.8h, v21.8h, #2
	shl	v3.8h, v20.8h, #2
	add	x22, x22, #64
	shl	v4.8h, v22.8h, #2
	movi	v5.8h, #63
	cmp	x22, x23
	dup	v6.8h, w8
	adrp	x8, .LCPI9_1
	and	v1.16b, v1.16b, v0.16b
	and	v2.16b, v2.16b, v0.16b
	and	v3.16b, v3.16b, v0.16b
	and	v0.16b, v4.16b, v0.16b
	usra	v1.8h, v23.8h, #12
	usra	v2.8h, v21.8h, #12
	usra	v3.8h, v20.8h, #12
	usra	v0.8h, v22.8h, #12
	orr	v16.16b, v1.16b, v6.16b
	orr	v18.16b, v2.16b, v6.16b
	orr	v3.16b, v3.16b, v6.16b
	orr	v6.16b, v0.16b, v6.16b
	and	v17.16b, v23.16b, v5.16b
	and	v19.16b, v21.16b, v5.16b
	and	v4.16b, v20.16b, v5.16b
	and	v7.16b, v22.16b, v5.16b
	ldr	q1, [x8, :lo12:.LCPI9_1]
	adrp	x8, .LCPI9_2
	orr	v17.8h, #128
	orr	v19.8h, #128
	ldr	d2, [x8, :lo12:.LCPI9_2]
	orr	v4.8h, #128
	orr	v7.8h, #128
	add	x8, x20, x1
	add	x1, x1, #96
	tbl	v0.16b, { v16.16b, v17.16b }, v1.16b
	mov	v17.d[0], v16.d[1]
	tbl	v5.16b, { v18.16b, v19.16b }, v1.16b
	mov	v19.d[0], v18.d[1]
	tbl	v20.16b, { v3.16b, v4.16b }, v1.16b
	mov	v4.d[0], v3.d[1]
	tbl	v21.16b, { v6.16b, v7.16b }, v1.16b
	mov	v7.d[0], v6.d[1]
	str	q0, [x8]
	tbl	v0.8b, { v17.16b }, v2.8b
	stur	q5, [x8, #24]
	tbl	v5.8b, { v19.16b }, v2.8b
	tbl	v3.8b, { v4.16b }, v2.8b
	tbl	v4.8b, { v7.16b }, v2.8b
	str	q20, [x8, #48]
	stur	q21, [x8, #72]
	str	d0, [x8, #16]
	str	d5, [x8, #40]
	str	d3, [x8, #64]
	str	d4, [x8, #88]
	b.hi	.LBB9_31
	cmp	x24, x1
	b.lo	.LBB9_31
.LBB9_27:
	add	x8, x21, x22
	movi	v7.8h, #40, lsl #8
	ldp	q0, q4, [x8, #32]
	ldp	q5, q6, [x8]
	rev16	v3.16b, v0.16b
	rev16	v0.16b, v4.16b
	rev16	v5.16b, v5.16b
	rev16	v4.16b, v6.16b
	add	v6.8h, v3.8h, v7.8h
	add	v17.8h, v0.8h, v7.8h
	add	v16.8h, v4.8h, v7.8h
	add	v7.8h, v5.8h, v7.8h
	umin	v6.8h, v3.8h, v6.8h
	umin	v17.8h, v0.8h, v17.8h
	umin	v7.8h, v5.8h, v7.8h
	umin	v16.8h, v4.8h, v16.8h
	umin	v16.8h, v16.8h, v17.8h
	umin	v6.8h, v7.8h, v6.8h
	movi	v7.8h, #8, lsl #8
	umin	v6.8h, v6.8h, v16.8h
	cmhi	v6.8h, v7.8h, v6.8h
	umaxv	h6, v6.8h
	fmov	w8, s6
	tbnz	w8, #0, .LBB9_31
	movi	v6.8h, #63, lsl #8
	shl	v7.8h, v5.8h, #2
	mov	w8, #32992
	shl	v16.8h, v4.8h, #2
	shl	v17.8h, v3.8h, #2
	add	x22, x22, #64
	shl	v18.8h, v0.8h, #2
	movi	v19.8h, #63
	cmp	x22, x23
	dup	v20.8h, w8
	add	x8, x20, x1
	add	x1, x1, #96
	and	v7.16b, v7.16b, v6.16b
	and	v16.16b, v16.16b, v6.16b
	and	v17.16b, v17.16b, v6.16b
	and	v6.16b, v18.16b, v6.16b
	usra	v7.8h, v5.8h, #12
	usra	v16.8h, v4.8h, #12
	usra	v17.8h, v3.8h, #12
	usra	v6.8h, v0.8h, #12
	orr	v21.16b, v7.16b, v20.16b
	orr	v23.16b, v16.16b, v20.16b
	orr	v16.16b, v17.16b, v20.16b
	and	v22.16b, v5.16b, v19.16b
	and	v24.16b, v4.16b, v19.16b
	orr	v4.16b, v6.16b, v20.16b
	and	v17.16b, v3.16b, v19.16b
	and	v5.16b, v0.16b, v19.16b
	orr	v22.8h, #128
	orr	v24.8h, #128
	orr	v17.8h, #128
	orr	v5.8h, #128
	tbl	v3.16b, { v21.16b, v22.16b }, v1.16b
	mov	v22.d[0], v21.d[1]
	tbl	v6.16b, { v23.16b, v24.16b }, v1.16b
	mov	v24.d[0], v23.d[1]
	tbl	v7.16b, { v16.16b, v17.16b }, v1.16b
	mov	v17.d[0], v16.d[1]
	tbl	v18.16b, { v4.16b, v5.16b }, v1.16b
	mov	v5.d[0], v4.d[1]
	str	q3, [x8]
	tbl	v3.8b, { v22.16b }, v2.8b
	stur	q6, [x8, #24]
	tbl	v6.8b, { v24.16b }, v2.8b
	str	q7, [x8, #48]
	tbl	v7.8b, { v17.16b }, v2.8b
	tbl	v4.8b, { v5.16b }, v2.8b
	stur	q18, [x8, #72]
	str	d3, [x8, #16]
	str	d6, [x8, #40]
	str	d7, [x8, #64]
	str	d4, [x8, #88]
	b.hi	.LBB9_32
	mov	v22.16b, v0.16b
	cmp	x24, x1
	b.hs	.LBB9_27
	b	.LBB9_32
.LBB9_30:
	ldur	q0, [x29, #-16]
	cmp	x22, x23
	b.ls	.LBB9_33
	b	.LBB9_34
.LBB9_31:
	mov	v0.16b, v22.16b
.LBB9_32:
	cmp	x22, x23
	b.hi	.LBB9_34
.LBB9_33:
	cmp	x24, x1
	b.hs	.LBB9_10
.LBB9_34:
	mov	v22.16b, v0.16b
.LBB9_35:
	cmp	x23, x22
	b.lo	.LBB9_47
	cmp	x24, x1
	b.lo	.LBB9_47
	add	x8, x21, x22
	mov	w10, w26
	ldp	q1, q0, [x8]
	ldp	q3, q2, [x8, #32]
	rev16	v27.16b, v0.16b
	rev16	v28.16b, v1.16b
	rev16	v25.16b, v2.16b
	rev16	v26.16b, v3.16b
	movi	v2.16b, #252
	movi	v3.16b, #216
	uzp2	v1.16b, v28.16b, v27.16b
	uzp2	v0.16b, v26.16b, v25.16b
	and	v4.16b, v1.16b, v2.16b
	ldr	q1, [x27, :lo12:.LCPI9_0]
	and	v0.16b, v0.16b, v2.16b
	movi	v2.16b, #220
	cmeq	v5.16b, v0.16b, v3.16b
	cmeq	v3.16b, v4.16b, v3.16b
	cmeq	v0.16b, v0.16b, v2.16b
	cmeq	v2.16b, v4.16b, v2.16b
	and	v3.16b, v3.16b, v1.16b
	and	v4.16b, v5.16b, v1.16b
	and	v2.16b, v2.16b, v1.16b
	and	v0.16b, v0.16b, v1.16b
	addp	v3.16b, v3.16b, v4.16b
	addp	v0.16b, v2.16b, v0.16b
	addp	v2.16b, v3.16b, v3.16b
	addp	v0.16b, v0.16b, v0.16b
	addp	v2.16b, v2.16b, v2.16b
	addp	v0.16b, v0.16b, v0.16b
	fmov	w27, s2
	fmov	w9, s0
	lsl	w8, w27, #1
	bfxil	x8, x10, #0, #1
	cmp	x8, x9
	b.ne	.LBB9_47
	movi	v0.8h, #40, lsl #8
	orr	v5.16b, v28.16b, v26.16b
	orr	v6.16b, v27.16b, v25.16b
	add	v2.8h, v27.8h, v0.8h
	add	v3.8h, v26.8h, v0.8h
	add	v4.8h, v28.8h, v0.8h
	add	v0.8h, v25.8h, v0.8h
	umin	v2.8h, v27.8h, v2.8h
	umin	v4.8h, v28.8h, v4.8h
	umin	v3.8h, v26.8h, v3.8h
	umin	v0.8h, v25.8h, v0.8h
	orr	v3.16b, v4.16b, v3.16b
	orr	v4.16b, v5.16b, v6.16b
	orr	v0.16b, v2.16b, v0.16b
	movi	v2.8h, #248, lsl #8
	orr	v0.16b, v3.16b, v0.16b
	and	v3.16b, v4.16b, v2.16b
	and	v0.16b, v0.16b, v2.16b
	ext	v2.16b, v3.16b, v3.16b, #8
	ext	v4.16b, v0.16b, v0.16b, #8
	orr	v2.8b, v3.8b, v2.8b
	orr	v0.8b, v0.8b, v4.8b
	fmov	x8, d2
	fmov	x10, d0
	lsr	x9, x8, #32
	lsr	x11, x10, #32
	orr	w8, w8, w9
	orr	w8, w8, w8, lsr #16
	orr	w9, w10, w11
	orr	w9, w9, w9, lsr #16
	and	w8, w8, #0xffff
	cmp	w8, #0
	and	w8, w9, #0xffff
	ccmp	w8, #0, #0, ne
	b.ne	.LBB9_3
	movi	v0.8h, #36, lsl #8
	ext	v3.16b, v22.16b, v28.16b, #14
	mov	w8, #752
	movi	v2.8h, #68, lsl #8
	movi	v7.8h, #128
	add	x22, x22, #64
	ext	v17.16b, v28.16b, v27.16b, #14
	dup	v5.8h, w8
	lsr	w26, w27, #31
	cmp	x22, x23
	add	v4.8h, v28.8h, v0.8h
	shl	v16.8h, v3.8h, #10
	add	v20.8h, v27.8h, v0.8h
	add	v19.8h, v28.8h, v2.8h
	cmhi	v6.8h, v7.8h, v28.8h
	cmhi	v3.8h, v7.8h, v27.8h
	shl	v17.8h, v17.8h, #10
	add	v23.8h, v27.8h, v2.8h
	cmhi	v24.8h, v7.8h, v26.8h
	ushr	v18.8h, v4.8h, #2
	bic	v16.8h, #240, lsl #8
	ushr	v20.8h, v20.8h, #2
	uzp1	v22.16b, v6.16b, v3.16b
	movi	v4.8h, #48, lsl #8
	cmhi	v7.8h, v7.8h, v25.8h
	bic	v17.8h, #240, lsl #8
	uqsub	v18.8h, v18.8h, v5.8h
	add	v16.8h, v19.8h, v16.8h
	cmlt	v19.8h, v28.8h, #0
	add	v17.8h, v23.8h, v17.8h
	add	v21.8h, v28.8h, v4.8h
	add	v23.8h, v26.8h, v0.8h
	add	v0.8h, v25.8h, v0.8h
	umax	v16.8h, v18.8h, v16.8h
	uqsub	v18.8h, v20.8h, v5.8h
	and	v20.16b, v22.16b, v1.16b
	add	v22.8h, v27.8h, v4.8h
	ushr	v0.8h, v0.8h, #2
	bif	v16.16b, v21.16b, v19.16b
	ext	v19.16b, v27.16b, v26.16b, #14
	cmlt	v21.8h, v27.8h, #0
	umax	v17.8h, v18.8h, v17.8h
	addp	v18.16b, v20.16b, v20.16b
	uqsub	v0.8h, v0.8h, v5.8h
	addp	v18.16b, v18.16b, v18.16b
	ushr	v20.8h, v16.8h, #6
	shl	v16.8h, v16.8h, #8
	shl	v19.8h, v19.8h, #10
	bif	v17.16b, v22.16b, v21.16b
	ext	v21.16b, v26.16b, v25.16b, #14
	ushr	v22.8h, v23.8h, #2
	add	v23.8h, v26.8h, v2.8h
	add	v2.8h, v25.8h, v2.8h
	addp	v18.16b, v18.16b, v18.16b
	orr	v20.8h, #128, lsl #8
	bic	v16.8h, #192, lsl #8
	bic	v19.8h, #240, lsl #8
	uqsub	v22.8h, v22.8h, v5.8h
	shl	v21.8h, v21.8h, #10
	umov	w8, v18.h[0]
	uzp1	v18.16b, v24.16b, v7.16b
	add	v16.8h, v20.8h, v16.8h
	add	v19.8h, v23.8h, v19.8h
	ushr	v20.8h, v17.8h, #6
	shl	v17.8h, v17.8h, #8
	bic	v21.8h, #240, lsl #8
	bsl	v6.16b, v28.16b, v16.16b
	add	v16.8h, v26.8h, v4.8h
	add	v4.8h, v25.8h, v4.8h
	and	x9, x8, #0xff
	ubfx	x8, x8, #8, #8
	and	v5.16b, v18.16b, v1.16b
	ldr	q18, [x25, x9, lsl #4]
	umax	v19.8h, v22.8h, v19.8h
	cmlt	v22.8h, v26.8h, #0
	orr	v20.8h, #128, lsl #8
	bic	v17.8h, #192, lsl #8
	add	v2.8h, v2.8h, v21.8h
	addp	v5.16b, v5.16b, v5.16b
	tbl	v6.16b, { v6.16b }, v18.16b
	bit	v16.16b, v19.16b, v22.16b
	fmov	d19, x9
	add	v17.8h, v20.8h, v17.8h
	umax	v0.8h, v0.8h, v2.8h
	cmlt	v2.8h, v25.8h, #0
	str	q6, [x20, x1]
	addp	v5.16b, v5.16b, v5.16b
	cnt	v18.8b, v19.8b
	bsl	v3.16b, v27.16b, v17.16b
	ushr	v19.8h, v16.8h, #6
	shl	v16.8h, v16.8h, #8
	bif	v0.16b, v4.16b, v2.16b
	ldr	q2, [x25, x8, lsl #4]
	addp	v4.16b, v5.16b, v5.16b
	fmov	d5, x8
	fmov	w9, s18
	orr	v19.8h, #128, lsl #8
	bic	v16.8h, #192, lsl #8
	tbl	v2.16b, { v3.16b }, v2.16b
	umov	w8, v4.h[0]
	cnt	v4.8b, v5.8b
	ushr	v3.8h, v0.8h, #6
	shl	v0.8h, v0.8h, #8
	sub	x9, x1, x9
	add	v6.8h, v19.8h, v16.8h
	mov	v5.16b, v24.16b
	add	x10, x20, x9
	str	q2, [x10, #16]
	and	x10, x8, #0xff
	ubfx	x8, x8, #8, #8
	orr	v3.8h, #128, lsl #8
	bic	v0.8h, #192, lsl #8
	ldr	q2, [x25, x10, lsl #4]
	fmov	w11, s4
	fmov	d4, x10
	bsl	v5.16b, v26.16b, v6.16b
	add	v0.8h, v3.8h, v0.8h
	cnt	v3.8b, v4.8b
	fmov	d4, x8
	sub	x9, x9, x11
	tbl	v2.16b, { v5.16b }, v2.16b
	add	x9, x9, #32
	bit	v0.16b, v25.16b, v7.16b
	cnt	v4.8b, v4.8b
	str	q2, [x20, x9]
	ldr	q2, [x25, x8, lsl #4]
	fmov	w8, s3
	fmov	w10, s4
	tbl	v0.16b, { v0.16b }, v2.16b
	sub	x8, x9, x8
	add	x9, x20, x8
	sub	x8, x8, x10
	add	x1, x8, #32
	str	q0, [x9, #16]
	b.hi	.LBB9_45
	cmp	x24, x1
	b.lo	.LBB9_45
.LBB9_41:
	add	x8, x21, x22
	movi	v6.8h, #40, lsl #8
	ldp	q4, q0, [x8]
	ldp	q2, q5, [x8, #32]
	rev16	v3.16b, v0.16b
	rev16	v4.16b, v4.16b
	rev16	v2.16b, v2.16b
	rev16	v0.16b, v5.16b
	add	v5.8h, v3.8h, v6.8h
	add	v16.8h, v4.8h, v6.8h
	add	v7.8h, v2.8h, v6.8h
	add	v6.8h, v0.8h, v6.8h
	orr	v17.16b, v3.16b, v0.16b
	orr	v18.16b, v4.16b, v2.16b
	umin	v5.8h, v3.8h, v5.8h
	umin	v16.8h, v4.8h, v16.8h
	umin	v6.8h, v0.8h, v6.8h
	umin	v7.8h, v2.8h, v7.8h
	orr	v7.16b, v16.16b, v7.16b
	orr	v5.16b, v5.16b, v6.16b
	movi	v6.8h, #248, lsl #8
	orr	v16.16b, v18.16b, v17.16b
	orr	v5.16b, v7.16b, v5.16b
	and	v7.16b, v16.16b, v6.16b
	and	v5.16b, v5.16b, v6.16b
	ext	v6.16b, v7.16b, v7.16b, #8
	ext	v16.16b, v5.16b, v5.16b, #8
	orr	v6.8b, v7.8b, v6.8b
	orr	v5.8b, v5.8b, v16.8b
	fmov	x8, d6
	fmov	x10, d5
	lsr	x9, x8, #32
	lsr	x11, x10, #32
	orr	w8, w8, w9
	orr	w8, w8, w8, lsr #16
	orr	w9, w10, w11
	orr	w9, w9, w9, lsr #16
	and	w8, w8, #0xffff
	cmp	w8, #0
	and	w8, w9, #0xffff
	ccmp	w8, #0, #0, ne
	b.ne	.LBB9_45
	uzp2	v5.16b, v2.16b, v0.16b
	uzp2	v6.16b, v4.16b, v3.16b
	movi	v7.16b, #252
	movi	v16.16b, #216
	and	v6.16b, v6.16b, v7.16b
	and	v5.16b, v5.16b, v7.16b
	movi	v7.16b, #220
	cmeq	v17.16b, v5.16b, v16.16b
	cmeq	v16.16b, v6.16b, v16.16b
	cmeq	v5.16b, v5.16b, v7.16b
	cmeq	v6.16b, v6.16b, v7.16b
	and	v7.16b, v16.16b, v1.16b
	and	v16.16b, v17.16b, v1.16b
	and	v6.16b, v6.16b, v1.16b
	and	v5.16b, v5.16b, v1.16b
	addp	v7.16b, v7.16b, v16.16b
	addp	v5.16b, v6.16b, v5.16b
	addp	v6.16b, v7.16b, v7.16b
	addp	v5.16b, v5.16b, v5.16b
	addp	v6.16b, v6.16b, v6.16b
	addp	v5.16b, v5.16b, v5.16b
	fmov	w8, s6
	fmov	w10, s5
	lsl	w9, w8, #1
	bfxil	x9, x26, #0, #1
	cmp	x9, x10
	b.ne	.LBB9_45
	movi	v5.8h, #36, lsl #8
	ext	v7.16b, v25.16b, v4.16b, #14
	mov	w9, #752
	movi	v6.8h, #68, lsl #8
	movi	v19.8h, #128
	lsr	w26, w8, #31
	ext	v21.16b, v4.16b, v3.16b, #14
	dup	v17.8h, w9
	add	x22, x22, #64
	cmp	x22, x23
	add	v16.8h, v4.8h, v5.8h
	shl	v20.8h, v7.8h, #10
	add	v24.8h, v3.8h, v5.8h
	add	v23.8h, v4.8h, v6.8h
	cmhi	v18.8h, v19.8h, v4.8h
	cmhi	v7.8h, v19.8h, v3.8h
	shl	v21.8h, v21.8h, #10
	add	v27.8h, v3.8h, v6.8h
	cmhi	v28.8h, v19.8h, v2.8h
	ushr	v22.8h, v16.8h, #2
	bic	v20.8h, #240, lsl #8
	movi	v16.8h, #48, lsl #8
	ushr	v24.8h, v24.8h, #2
	uzp1	v26.16b, v18.16b, v7.16b
	cmhi	v19.8h, v19.8h, v0.8h
	bic	v21.8h, #240, lsl #8
	uqsub	v22.8h, v22.8h, v17.8h
	add	v20.8h, v23.8h, v20.8h
	cmlt	v23.8h, v4.8h, #0
	add	v25.8h, v4.8h, v16.8h
	add	v21.8h, v27.8h, v21.8h
	add	v27.8h, v2.8h, v5.8h
	add	v5.8h, v0.8h, v5.8h
	umax	v20.8h, v22.8h, v20.8h
	uqsub	v22.8h, v24.8h, v17.8h
	and	v24.16b, v26.16b, v1.16b
	add	v26.8h, v3.8h, v16.8h
	ushr	v5.8h, v5.8h, #2
	bif	v20.16b, v25.16b, v23.16b
	cmlt	v25.8h, v3.8h, #0
	ext	v23.16b, v3.16b, v2.16b, #14
	umax	v21.8h, v22.8h, v21.8h
	addp	v22.16b, v24.16b, v24.16b
	uqsub	v5.8h, v5.8h, v17.8h
	ushr	v24.8h, v20.8h, #6
	shl	v20.8h, v20.8h, #8
	bif	v21.16b, v26.16b, v25.16b
	addp	v22.16b, v22.16b, v22.16b
	ext	v25.16b, v2.16b, v0.16b, #14
	shl	v23.8h, v23.8h, #10
	ushr	v26.8h, v27.8h, #2
	add	v27.8h, v2.8h, v6.8h
	add	v6.8h, v0.8h, v6.8h
	orr	v24.8h, #128, lsl #8
	bic	v20.8h, #192, lsl #8
	addp	v22.16b, v22.16b, v22.16b
	bic	v23.8h, #240, lsl #8
	shl	v25.8h, v25.8h, #10
	uqsub	v26.8h, v26.8h, v17.8h
	add	v20.8h, v24.8h, v20.8h
	ushr	v24.8h, v21.8h, #6
	shl	v21.8h, v21.8h, #8
	umov	w9, v22.h[0]
	uzp1	v22.16b, v28.16b, v19.16b
	add	v23.8h, v27.8h, v23.8h
	bic	v25.8h, #240, lsl #8
	bif	v4.16b, v20.16b, v18.16b
	add	v18.8h, v2.8h, v16.8h
	orr	v24.8h, #128, lsl #8
	umax	v20.8h, v26.8h, v23.8h
	cmlt	v23.8h, v2.8h, #0
	bic	v21.8h, #192, lsl #8
	and	x10, x9, #0xff
	ubfx	x9, x9, #8, #8
	add	v6.8h, v6.8h, v25.8h
	and	v17.16b, v22.16b, v1.16b
	ldr	q22, [x25, x10, lsl #4]
	add	v16.8h, v0.8h, v16.8h
	bit	v18.16b, v20.16b, v23.16b
	add	v20.8h, v24.8h, v21.8h
	fmov	d21, x10
	tbl	v4.16b, { v4.16b }, v22.16b
	umax	v5.8h, v5.8h, v6.8h
	cmlt	v6.8h, v0.8h, #0
	addp	v17.16b, v17.16b, v17.16b
	cnt	v21.8b, v21.8b
	bif	v3.16b, v20.16b, v7.16b
	fmov	d7, x9
	str	q4, [x20, x1]
	mov	v4.16b, v6.16b
	ushr	v22.8h, v18.8h, #6
	addp	v17.16b, v17.16b, v17.16b
	shl	v18.8h, v18.8h, #8
	bsl	v4.16b, v5.16b, v16.16b
	ldr	q5, [x25, x9, lsl #4]
	orr	v22.8h, #128, lsl #8
	addp	v6.16b, v17.16b, v17.16b
	bic	v18.8h, #192, lsl #8
	fmov	w10, s21
	tbl	v3.16b, { v3.16b }, v5.16b
	ushr	v5.8h, v4.8h, #6
	sub	x10, x1, x10
	shl	v4.8h, v4.8h, #8
	umov	w9, v6.h[0]
	add	x11, x20, x10
	add	v16.8h, v22.8h, v18.8h
	cnt	v6.8b, v7.8b
	str	q3, [x11, #16]
	orr	v5.8h, #128, lsl #8
	bic	v4.8h, #192, lsl #8
	bif	v2.16b, v16.16b, v28.16b
	and	x11, x9, #0xff
	ubfx	x9, x9, #8, #8
	add	v4.8h, v5.8h, v4.8h
	fmov	d5, x11
	ldr	q3, [x25, x11, lsl #4]
	fmov	w12, s6
	tbl	v2.16b, { v2.16b }, v3.16b
	cnt	v3.8b, v5.8b
	fmov	d5, x9
	bit	v4.16b, v0.16b, v19.16b
	sub	x10, x10, x12
	add	x10, x10, #32
	cnt	v5.8b, v5.8b
	str	q2, [x20, x10]
	ldr	q2, [x25, x9, lsl #4]
	fmov	w9, s3
	tbl	v2.16b, { v4.16b }, v2.16b
	fmov	w11, s5
	sub	x8, x10, x9
	add	x9, x20, x8
	sub	x8, x8, x11
	str	q2, [x9, #16]
	add	x1, x8, #32
	b.hi	.LBB9_4
	mov	v25.16b, v0.16b
	cmp	x24, x1
	b.hs	.LBB9_41
	b	.LBB9_4
.LBB9_45:
	mov	v0.16b, v25.16b
	b	.LBB9_4
.LBB9_46:
	movi	v0.2d, #0000000000000000
	str	xzr, [x19, #32]
	stp	q0, q0, [x19]
	.cfi_def_cfa wsp, 160
	b	.LBB9_49
.LBB9_47:
	.cfi_restore_state
	mov	v0.16b, v22.16b
.LBB9_48:
	and	w8, w26, #0x1
	stp	x22, x1, [x19]
	str	q0, [x19, #16]
	strb	w8, [x19, #32]
	stur	wzr, [x19, #33]
	str	wzr, [x19, #36]
	.cfi_def_cfa wsp, 160
.LBB9_49:
	ldp	x20, x19, [sp, #144]
	ldr	x27, [sp, #80]
	ldp	x22, x21, [sp, #128]
	ldp	x24, x23, [sp, #112]
	ldp	x26, x25, [sp, #96]
	ldp	x29, x30, [sp, #64]
	add	sp, sp, #160
	.cfi_def_cfa_offset 0
	.cfi_restore w19
	.cfi_restore w20
	.cfi_restore w21
	.cfi_restore w22
	.cfi_restore w23
	.cfi_restore w24
	.cfi_restore w25
	.cfi_restore w26
	.cfi_restore w27
	.cfi_restore w30
	.cfi_restore w29
	ret
.Lfunc_end9:
	.size	"utf16_to_utf8::runs::write_paired::<#8b18edd9dd9aa8df>", .Lfunc_end9-"utf16_to_utf8::runs::write_paired::<#8b18edd9dd9aa8df>"
	.cfi_endproc

	.section	.rodata.cst16,"aM",@progbits,16
	.p2align	4, 0x0
.LCPI10_0:
	.byte	1
	.byte	2
	.byte	4
	.byte	8
	.byte	16
	.byte	32
	.byte	64
	.byte	128
	.byte	1
	.byte	2
	.byte	4
	.byte	8
	.byte	16
	.byte	32
	.byte	64
	.byte	128
.LCPI10_1:
	.byte	0
	.byte	1
	.byte	16
	.byte	2
	.byte	3
	.byte	18
	.byte	4
	.byte	5
	.byte	20
	.byte	6
	.byte	7
	.byte	22
	.byte	8
	.byte	9
	.byte	24
	.byte	10
	.section	.rodata.cst8,"aM",@progbits,8
	.p2align	3, 0x0
.LCPI10_2:
	.byte	3
	.byte	10
	.byte	4
	.byte	5
	.byte	12
	.byte	6
	.byte	7
	.byte	14
	.section	".text.utf16_to_utf8::blocks::write_group","ax",@progbits
	.p2align	2
	.type	"utf16_to_utf8::blocks::write_group",@function
"utf16_to_utf8::blocks::write_group":
	.cfi_startproc
	and	w8, w2, #0xff
	cmp	w8, #2
	b.gt	.LBB10_4
	cbz	w8, .LBB10_7
	cmp	w8, #1
	b.ne	.LBB10_9
	movi	v0.8h, #128
	adrp	x8, .LCPI10_0
	shl	v6.8h, v3.8h, #8
	ldr	q5, [x8, :lo12:.LCPI10_0]
	mov	w8, #32960
	adrp	x10, .Lstatic.8
	add	x10, x10, :lo12:.Lstatic.8
	dup	v7.8h, w8
	bic	v6.8h, #192, lsl #8
	cmhi	v1.8h, v0.8h, v2.8h
	cmhi	v0.8h, v0.8h, v3.8h
	usra	v6.8h, v3.8h, #6
	uzp1	v4.16b, v1.16b, v0.16b
	and	v4.16b, v4.16b, v5.16b
	shl	v5.8h, v2.8h, #8
	addp	v4.16b, v4.16b, v4.16b
	bic	v5.8h, #192, lsl #8
	addp	v4.16b, v4.16b, v4.16b
	usra	v5.8h, v2.8h, #6
	addp	v4.16b, v4.16b, v4.16b
	umov	w8, v4.h[0]
	add	v4.8h, v5.8h, v7.8h
	bsl	v1.16b, v2.16b, v4.16b
	add	v4.8h, v6.8h, v7.8h
	and	x9, x8, #0xff
	ubfx	x8, x8, #8, #8
	ldr	q2, [x10, x9, lsl #4]
	fmov	d5, x8
	bsl	v0.16b, v3.16b, v4.16b
	tbl	v1.16b, { v1.16b }, v2.16b
	fmov	d2, x9
	cnt	v3.8b, v5.8b
	b	.LBB10_10
.LBB10_4:
	cmp	w8, #3
	b.eq	.LBB10_8
	mvni	v0.8h, #120, lsl #8
	cmp	w8, #4
	b.ne	.LBB10_11
	movi	v1.2d, #0xff00ff00ff00ff
	uqsub	v4.8h, v0.8h, v2.8h
	adrp	x8, .LCPI10_0
	movi	v5.8h, #128, lsl #8
	ldr	q7, [x8, :lo12:.LCPI10_0]
	uqsub	v0.8h, v0.8h, v3.8h
	movi	v16.8h, #63
	shl	v17.8h, v2.8h, #8
	adrp	x10, .Lstatic.9
	add	x10, x10, :lo12:.Lstatic.9
	ushr	v18.8h, v2.8h, #6
	movi	v19.16b, #128
	uqsub	v6.8h, v1.8h, v2.8h
	uqsub	v1.8h, v1.8h, v3.8h
	and	v4.16b, v4.16b, v5.16b
	and	v0.16b, v0.16b, v5.16b
	and	v18.16b, v18.16b, v16.16b
	orr	v6.16b, v4.16b, v6.16b
	orr	v1.16b, v0.16b, v1.16b
	usra	v18.8h, v4.8h, #9
	cmlt	v6.16b, v6.16b, #0
	cmlt	v1.16b, v1.16b, #0
	and	v6.16b, v6.16b, v7.16b
	and	v1.16b, v1.16b, v7.16b
	addp	v5.16b, v6.16b, v6.16b
	mov	v6.16b, v17.16b
	bic	v17.8h, #192, lsl #8
	addp	v1.16b, v1.16b, v1.16b
	addp	v5.16b, v5.16b, v5.16b
	usra	v6.8h, v2.8h, #12
	orr	v2.16b, v17.16b, v19.16b
	addp	v1.16b, v1.16b, v1.16b
	addp	v4.16b, v5.16b, v5.16b
	orr	v6.8h, #224
	orr	v2.16b, v18.16b, v2.16b
	shl	v5.8h, v3.8h, #8
	addp	v1.16b, v1.16b, v1.16b
	umov	w8, v4.h[0]
	ushr	v4.8h, v3.8h, #6
	zip1	v17.8h, v6.8h, v2.8h
	mov	v7.16b, v5.16b
	bic	v5.8h, #192, lsl #8
	zip2	v2.8h, v6.8h, v2.8h
	and	v4.16b, v4.16b, v16.16b
	and	x9, x8, #0xff
	ubfx	x8, x8, #8, #8
	usra	v7.8h, v3.8h, #12
	ldr	q16, [x10, x9, lsl #4]
	fmov	d18, x9
	usra	v4.8h, v0.8h, #9
	orr	v0.16b, v5.16b, v19.16b
	tbl	v16.16b, { v17.16b }, v16.16b
	orr	v7.8h, #224
	cnt	v17.8b, v18.8b
	orr	v0.16b, v4.16b, v0.16b
	fmov	d4, x8
	str	q16, [x0, x1]
	ldr	q3, [x10, x8, lsl #4]
	umov	w8, v1.h[0]
	fmov	w9, s17
	tbl	v1.16b, { v2.16b }, v3.16b
	cnt	v2.8b, v4.8b
	zip1	v3.8h, v7.8h, v0.8h
	zip2	v0.8h, v7.8h, v0.8h
	sub	x9, x1, x9
	and	x11, x8, #0xff
	ubfx	x8, x8, #8, #8
	add	x9, x9, #12
	fmov	w12, s2
	str	q1, [x0, x9]
	fmov	d2, x11
	ldr	q1, [x10, x11, lsl #4]
	sub	x9, x9, x12
	tbl	v1.16b, { v3.16b }, v1.16b
	cnt	v2.8b, v2.8b
	fmov	d3, x8
	b	.LBB10_12
.LBB10_7:
	sqxtun	v0.8b, v2.8h
	sqxtun2	v0.16b, v3.8h
	str	q0, [x0, x1]
	add	x0, x1, #16
	ret
.LBB10_8:
	movi	v0.8h, #63, lsl #8
	shl	v1.8h, v2.8h, #2
	mov	w8, #32992
	shl	v4.8h, v3.8h, #2
	dup	v5.8h, w8
	adrp	x8, .LCPI10_1
	and	v1.16b, v1.16b, v0.16b
	and	v0.16b, v4.16b, v0.16b
	movi	v4.8h, #63
	usra	v1.8h, v2.8h, #12
	usra	v0.8h, v3.8h, #12
	orr	v6.16b, v1.16b, v5.16b
	orr	v0.16b, v0.16b, v5.16b
	and	v7.16b, v2.16b, v4.16b
	and	v1.16b, v3.16b, v4.16b
	ldr	q2, [x8, :lo12:.LCPI10_1]
	adrp	x8, .LCPI10_2
	ldr	d4, [x8, :lo12:.LCPI10_2]
	add	x8, x0, x1
	add	x0, x1, #48
	orr	v7.8h, #128
	orr	v1.8h, #128
	tbl	v3.16b, { v6.16b, v7.16b }, v2.16b
	mov	v7.d[0], v6.d[1]
	tbl	v2.16b, { v0.16b, v1.16b }, v2.16b
	mov	v1.d[0], v0.d[1]
	tbl	v5.8b, { v7.16b }, v4.8b
	str	q3, [x8]
	tbl	v0.8b, { v1.16b }, v4.8b
	stur	q2, [x8, #24]
	str	d5, [x8, #16]
	str	d0, [x8, #40]
	ret
.LBB10_9:
	movi	v0.8h, #36, lsl #8
	ext	v1.16b, v1.16b, v2.16b, #14
	mov	w8, #752
	movi	v5.8h, #68, lsl #8
	movi	v6.8h, #128
	adrp	x10, .Lstatic.8
	add	x10, x10, :lo12:.Lstatic.8
	dup	v16.8h, w8
	ext	v7.16b, v2.16b, v3.16b, #14
	movi	v19.8h, #48, lsl #8
	adrp	x8, .LCPI10_0
	add	v4.8h, v2.8h, v0.8h
	shl	v1.8h, v1.8h, #10
	add	v0.8h, v3.8h, v0.8h
	add	v17.8h, v2.8h, v5.8h
	cmhi	v18.8h, v6.8h, v2.8h
	ldr	q20, [x8, :lo12:.LCPI10_0]
	cmhi	v6.8h, v6.8h, v3.8h
	shl	v7.8h, v7.8h, #10
	add	v5.8h, v3.8h, v5.8h
	ushr	v4.8h, v4.8h, #2
	bic	v1.8h, #240, lsl #8
	ushr	v0.8h, v0.8h, #2
	add	v21.8h, v2.8h, v19.8h
	bic	v7.8h, #240, lsl #8
	uqsub	v4.8h, v4.8h, v16.8h
	add	v1.8h, v17.8h, v1.8h
	uzp1	v17.16b, v18.16b, v6.16b
	uqsub	v0.8h, v0.8h, v16.8h
	add	v5.8h, v5.8h, v7.8h
	add	v7.8h, v3.8h, v19.8h
	umax	v1.8h, v4.8h, v1.8h
	cmlt	v4.8h, v2.8h, #0
	and	v16.16b, v17.16b, v20.16b
	umax	v0.8h, v0.8h, v5.8h
	cmlt	v5.8h, v3.8h, #0
	bif	v1.16b, v21.16b, v4.16b
	addp	v4.16b, v16.16b, v16.16b
	bif	v0.16b, v7.16b, v5.16b
	addp	v4.16b, v4.16b, v4.16b
	ushr	v16.8h, v1.8h, #6
	shl	v1.8h, v1.8h, #8
	ushr	v5.8h, v0.8h, #6
	shl	v0.8h, v0.8h, #8
	addp	v4.16b, v4.16b, v4.16b
	orr	v16.8h, #128, lsl #8
	bic	v1.8h, #192, lsl #8
	orr	v5.8h, #128, lsl #8
	bic	v0.8h, #192, lsl #8
	umov	w8, v4.h[0]
	add	v1.8h, v16.8h, v1.8h
	add	v0.8h, v5.8h, v0.8h
	bit	v1.16b, v2.16b, v18.16b
	and	x9, x8, #0xff
	ubfx	x8, x8, #8, #8
	ldr	q2, [x10, x9, lsl #4]
	bit	v0.16b, v3.16b, v6.16b
	fmov	d4, x8
	tbl	v1.16b, { v1.16b }, v2.16b
	fmov	d2, x9
	cnt	v3.8b, v4.8b
.LBB10_10:
	cnt	v2.8b, v2.8b
	str	q1, [x0, x1]
	fmov	w9, s3
	ldr	q1, [x10, x8, lsl #4]
	fmov	w8, s2
	tbl	v0.16b, { v0.16b }, v1.16b
	sub	x8, x1, x8
	add	x10, x0, x8
	sub	x8, x8, x9
	add	x0, x8, #32
	str	q0, [x10, #16]
	ret
.LBB10_11:
	movi	v5.8h, #248, lsl #8
	movi	v16.8h, #216, lsl #8
	mov	w8, #752
	movi	v6.8h, #36, lsl #8
	uqsub	v7.8h, v0.8h, v2.8h
	adrp	x10, .Lstatic.9
	add	x10, x10, :lo12:.Lstatic.9
	movi	v4.8h, #128, lsl #8
	ext	v1.16b, v1.16b, v2.16b, #14
	movi	v19.2d, #0xff00ff00ff00ff
	movi	v20.8h, #68, lsl #8
	mov	v21.16b, v2.16b
	and	v17.16b, v2.16b, v5.16b
	dup	v22.8h, w8
	adrp	x8, .LCPI10_0
	add	v18.8h, v2.8h, v6.8h
	uqsub	v0.8h, v0.8h, v3.8h
	and	v5.16b, v3.16b, v5.16b
	and	v7.16b, v7.16b, v4.16b
	shl	v1.8h, v1.8h, #10
	bic	v21.8h, #240, lsl #8
	cmeq	v17.8h, v17.8h, v16.8h
	uqsub	v23.8h, v19.8h, v2.8h
	add	v25.8h, v2.8h, v20.8h
	ushr	v18.8h, v18.8h, #2
	cmeq	v5.8h, v5.8h, v16.8h
	mov	v16.16b, v3.16b
	bic	v1.8h, #240, lsl #8
	usra	v21.8h, v7.8h, #3
	and	v0.16b, v0.16b, v4.16b
	mov	v24.16b, v17.16b
	add	v6.8h, v3.8h, v6.8h
	uqsub	v19.8h, v19.8h, v3.8h
	bic	v16.8h, #240, lsl #8
	add	v1.8h, v25.8h, v1.8h
	orr	v21.8h, #32, lsl #8
	bsl	v24.16b, v4.16b, v7.16b
	uqsub	v7.8h, v18.8h, v22.8h
	bif	v4.16b, v0.16b, v5.16b
	ushr	v6.8h, v6.8h, #2
	usra	v16.8h, v0.8h, #3
	orr	v18.16b, v24.16b, v23.16b
	ext	v23.16b, v2.16b, v3.16b, #14
	umax	v1.8h, v7.8h, v1.8h
	orr	v4.16b, v4.16b, v19.16b
	uqsub	v6.8h, v6.8h, v22.8h
	orr	v16.8h, #32, lsl #8
	cmlt	v7.16b, v18.16b, #0
	bif	v1.16b, v21.16b, v17.16b
	add	v17.8h, v3.8h, v20.8h
	shl	v18.8h, v23.8h, #10
	ldr	q23, [x8, :lo12:.LCPI10_0]
	shl	v20.8h, v2.8h, #8
	cmlt	v4.16b, v4.16b, #0
	and	v7.16b, v7.16b, v23.16b
	bic	v18.8h, #240, lsl #8
	usra	v20.8h, v2.8h, #12
	addp	v7.16b, v7.16b, v7.16b
	add	v0.8h, v17.8h, v18.8h
	ushr	v17.8h, v1.8h, #6
	shl	v1.8h, v1.8h, #8
	orr	v20.8h, #224
	addp	v7.16b, v7.16b, v7.16b
	orr	v17.8h, #128, lsl #8
	bic	v1.8h, #192, lsl #8
	umax	v0.8h, v6.8h, v0.8h
	addp	v2.16b, v7.16b, v7.16b
	add	v1.8h, v17.8h, v1.8h
	bif	v0.16b, v16.16b, v5.16b
	umov	w8, v2.h[0]
	and	v2.16b, v4.16b, v23.16b
	shl	v4.8h, v3.8h, #8
	zip1	v5.8h, v20.8h, v1.8h
	zip2	v1.8h, v20.8h, v1.8h
	ushr	v6.8h, v0.8h, #6
	shl	v0.8h, v0.8h, #8
	addp	v2.16b, v2.16b, v2.16b
	usra	v4.8h, v3.8h, #12
	and	x9, x8, #0xff
	ubfx	x8, x8, #8, #8
	ldr	q7, [x10, x9, lsl #4]
	fmov	d16, x9
	orr	v6.8h, #128, lsl #8
	addp	v2.16b, v2.16b, v2.16b
	bic	v0.8h, #192, lsl #8
	orr	v4.8h, #224
	tbl	v5.16b, { v5.16b }, v7.16b
	cnt	v7.8b, v16.8b
	addp	v2.16b, v2.16b, v2.16b
	add	v0.8h, v6.8h, v0.8h
	str	q5, [x0, x1]
	fmov	d5, x8
	ldr	q3, [x10, x8, lsl #4]
	fmov	w9, s7
	umov	w8, v2.h[0]
	cnt	v2.8b, v5.8b
	tbl	v1.16b, { v1.16b }, v3.16b
	zip1	v3.8h, v4.8h, v0.8h
	zip2	v0.8h, v4.8h, v0.8h
	sub	x9, x1, x9
	add	x9, x9, #12
	and	x11, x8, #0xff
	ubfx	x8, x8, #8, #8
	str	q1, [x0, x9]
	fmov	w12, s2
	fmov	d2, x11
	ldr	q1, [x10, x11, lsl #4]
	tbl	v1.16b, { v3.16b }, v1.16b
	cnt	v2.8b, v2.8b
	fmov	d3, x8
	sub	x9, x9, x12
.LBB10_12:
	add	x9, x9, #12
	cnt	v3.8b, v3.8b
	str	q1, [x0, x9]
	ldr	q1, [x10, x8, lsl #4]
	fmov	w8, s2
	tbl	v0.16b, { v0.16b }, v1.16b
	fmov	w10, s3
	sub	x8, x9, x8
	add	x9, x0, x8
	sub	x8, x8, x10
	stur	q0, [x9, #12]
	add	x0, x8, #24
	ret
.Lfunc_end10:
	.size	"utf16_to_utf8::blocks::write_group", .Lfunc_end10-"utf16_to_utf8::blocks::write_group"
	.cfi_endproc

	.section	".text.utf16_transcode::transcoding::write_chars::<#b8dc3d53e12e85b3>","ax",@progbits
	.p2align	2
	.type	"utf16_transcode::transcoding::write_chars::<#b8dc3d53e12e85b3>",@function
"utf16_transcode::transcoding::write_chars::<#b8dc3d53e12e85b3>":
	.cfi_startproc
	stp	x29, x30, [sp, #-80]!
	.cfi_def_cfa_offset 80
	str	x25, [sp, #16]
	stp	x24, x23, [sp, #32]
	stp	x22, x21, [sp, #48]
	stp	x20, x19, [sp, #64]
	mov	x29, sp
	.cfi_def_cfa w29, 80
	.cfi_offset w19, -8
	.cfi_offset w20, -16
	.cfi_offset w21, -24
	.cfi_offset w22, -32
	.cfi_offset w23, -40
	.cfi_offset w24, -48
	.cfi_offset w25, -64
	.cfi_offset w30, -72
	.cfi_offset w29, -80
	.cfi_remember_state
	sub	x8, x1, #16
	mov	x19, x3
	mov	x20, x2
	mov	x21, x1
	mov	x22, x0
	cmp	x8, #175
	add	x8, x2, x4
	sub	x9, x3, x4
	b.hi	.LBB11_8
	lsr	x10, x21, #1
	cmp	x9, x10
	csel	x10, x9, x10, lo
	cmp	x10, #8
	b.lo	.LBB11_8
	lsl	x11, x10, #1
	mov	x23, xzr
	mov	x24, xzr
	mov	x12, x11
.LBB11_3:
	ldr	q0, [x22, x23]
	movi	v1.8h, #127
	rev16	v0.16b, v0.16b
	cmhi	v1.8h, v0.8h, v1.8h
	umaxv	h1, v1.8h
	fmov	w13, s1
	tbnz	w13, #0, .LBB11_9
	sqxtun	v0.8b, v0.8h
	sub	x12, x12, #16
	add	x23, x23, #16
	cmp	x12, #15
	str	d0, [x8, x24]
	add	x24, x24, #8
	b.hi	.LBB11_3
	cmp	x11, x23
	b.ls	.LBB11_9
	add	x12, x22, x11
	movi	v1.8h, #127
	ldur	q0, [x12, #-16]
	rev16	v0.16b, v0.16b
	cmhi	v1.8h, v0.8h, v1.8h
	umaxv	h1, v1.8h
	fmov	w12, s1
	tbnz	w12, #0, .LBB11_9
	sqxtun	v0.8b, v0.8h
	add	x12, x8, x10
	mov	x24, x10
	mov	x23, x11
	stur	d0, [x12, #-8]
	b	.LBB11_9
.LBB11_8:
	mov	x24, xzr
	mov	x23, xzr
.LBB11_9:
	sub	x10, x21, x23
	cmp	x10, #15
	b.ls	.LBB11_32
.LBB11_10:
	sub	x10, x21, #8
	cmp	x10, #183
	b.hi	.LBB11_13
	sub	x10, x21, x23
	cmp	x10, #8
	b.lo	.LBB11_13
	sub	x3, x9, x24
	add	x0, x22, x23
	sub	x1, x21, x23
	add	x2, x8, x24
	mov	x25, x4
	bl	"utf16_to_utf8::vectors::write_vectors::<#8b18edd9dd9aa8df>"
	mov	x4, x25
	add	x23, x0, x23
	add	x24, x1, x24
.LBB11_13:
	cmp	x23, x21
	add	x24, x24, x4
	b.lo	.LBB11_17
.LBB11_14:
	mov	x0, x23
	mov	x1, x24
	.cfi_def_cfa wsp, 80
	ldp	x20, x19, [sp, #64]
	ldr	x25, [sp, #16]
	ldp	x22, x21, [sp, #48]
	ldp	x24, x23, [sp, #32]
	ldp	x29, x30, [sp], #80
	.cfi_def_cfa_offset 0
	.cfi_restore w19
	.cfi_restore w20
	.cfi_restore w21
	.cfi_restore w22
	.cfi_restore w23
	.cfi_restore w24
	.cfi_restore w25
	.cfi_restore w30
	.cfi_restore w29
	ret
.LBB11_15:
	.cfi_restore_state
	strb	w0, [x20, x24]
	add	x24, x24, #1
.LBB11_16:
	add	x23, x8, x23
	cmp	x23, x21
	b.hs	.LBB11_14
.LBB11_17:
	sub	x10, x21, x23
	cmp	x10, #2
	b.lo	.LBB11_14
	add	x8, x22, x23
	ldrb	w9, [x8]
	and	w11, w9, #0xf8
	cmp	w11, #216
	b.ne	.LBB11_22
	cmp	x10, #4
	b.lo	.LBB11_14
	mov	w10, #220
	and	w10, w9, w10
	cmp	w10, #220
	b.eq	.LBB11_14
	ldrb	w10, [x8, #2]
	and	w10, w10, #0xfc
	cmp	w10, #220
	b.ne	.LBB11_14
.LBB11_22:
	ldrb	w10, [x8, #1]
	ubfx	w11, w9, #2, #6
	orr	w9, w9, w10, lsl #8
	cmp	w11, #54
	rev16	w0, w9
	b.ne	.LBB11_24
	ldrh	w8, [x8, #2]
	rev16	w1, w8
	bl	"utf16_units::unit::decode_surrogates"
	mov	w8, #4
	b	.LBB11_25
.LBB11_24:
	and	w0, w0, #0xffff
	mov	w8, #2
.LBB11_25:
	cmp	w0, #16, lsl #12
	mov	w9, #3
	mov	w10, #2
	cinc	x9, x9, hs
	cmp	w0, #2048
	csel	x9, x10, x9, lo
	cmp	w0, #128
	sub	x10, x19, x24
	csinc	x9, x9, xzr, hs
	cmp	x10, x9
	b.lo	.LBB11_14
	cmp	w0, #127
	b.ls	.LBB11_15
	mov	w9, #-128
	cmp	w0, #2047
	bfxil	w9, w0, #0, #6
	b.hi	.LBB11_29
	lsr	w10, w0, #6
	add	x11, x24, #2
	orr	w10, w10, #0xc0
	bfi	w10, w9, #8, #24
	strh	w10, [x20, x24]
	mov	x24, x11
	b	.LBB11_16
.LBB11_29:
	lsr	w10, w0, #16
	cbnz	w10, .LBB11_31
	lsr	w10, w0, #12
	mov	w11, #128
	add	x12, x20, x24
	bfxil	w11, w0, #6, #6
	add	x24, x24, #3
	strb	w9, [x12, #2]
	orr	w10, w10, #0xe0
	strb	w10, [x12]
	strb	w11, [x12, #1]
	b	.LBB11_16
.LBB11_31:
	lsl	w10, w0, #10
	mov	w11, #32768
	movk	w11, #128, lsl #16
	and	w10, w10, #0x3f0000
	orr	w9, w10, w9, lsl #24
	lsr	w10, w0, #18
	bfxil	w9, w0, #4, #14
	add	w10, w10, #240
	bfxil	w9, w10, #0, #8
	add	x10, x24, #4
	orr	w9, w9, w11
	str	w9, [x20, x24]
	mov	x24, x10
	b	.LBB11_16
.LBB11_32:
	lsr	x11, x10, #1
	sub	x12, x9, x24
	add	x11, x11, x11, lsl #1
	cmp	x12, x11
	b.lo	.LBB11_10
	cmp	x10, #2
	b.hs	.LBB11_36
	b	.LBB11_10
.LBB11_34:
	strb	w11, [x8, x24]
	add	x24, x24, #1
.LBB11_35:
	sub	x10, x10, #2
	add	x23, x23, #2
	cmp	x10, #1
	b.ls	.LBB11_10
.LBB11_36:
	ldrh	w11, [x22, x23]
	rev	w12, w11
	rev16	w11, w11
	lsr	w12, w12, #16
	cmp	w12, #127
	b.ls	.LBB11_34
	and	w12, w11, #0xffff
	cmp	w12, #2047
	b.hi	.LBB11_39
	lsr	w12, w11, #6
	orr	w12, w12, #0xc0
	and	w12, w12, #0xff
	bfi	w12, w11, #8, #6
	add	x11, x24, #2
	orr	w12, w12, #0x8000
	strh	w12, [x8, x24]
	mov	x24, x11
	b	.LBB11_35
.LBB11_39:
	ubfx	w12, w11, #11, #5
	cmp	w12, #27
	b.eq	.LBB11_10
	mov	w12, #224
	mov	w13, #128
	mov	w14, #128
	bfxil	w12, w11, #12, #4
	bfxil	w13, w11, #6, #6
	bfxil	w14, w11, #0, #6
	add	x15, x8, x24
	add	x24, x24, #3
	strb	w12, [x15]
	strb	w13, [x15, #1]
	strb	w14, [x15, #2]
	b	.LBB11_35
.Lfunc_end11:
	.size	"utf16_transcode::transcoding::write_chars::<#b8dc3d53e12e85b3>", .Lfunc_end11-"utf16_transcode::transcoding::write_chars::<#b8dc3d53e12e85b3>"
	.cfi_endproc

	.section	.rodata.cst16,"aM",@progbits,16
	.p2align	4, 0x0
.LCPI12_0:
	.byte	1
	.byte	2
	.byte	4
	.byte	8
	.byte	16
	.byte	32
	.byte	64
	.byte	128
	.byte	1
	.byte	2
	.byte	4
	.byte	8
	.byte	16
	.byte	32
	.byte	64
	.byte	128
	.section	".text.utf16_transcode::decode::valid_up_to::<#8b18edd9dd9aa8df>","ax",@progbits
	.p2align	2
	.type	"utf16_transcode::decode::valid_up_to::<#8b18edd9dd9aa8df>",@function
"utf16_transcode::decode::valid_up_to::<#8b18edd9dd9aa8df>":
	.cfi_startproc
	cmp	x1, #2
	b.ne	.LBB12_3
	ldrb	w8, [x0]
	and	w8, w8, #0xf8
	cmp	w8, #216
	b.ne	.LBB12_10
.LBB12_2:
	b	"utf16_units::validate::valid_len::<#8b18edd9dd9aa8df>"
.LBB12_3:
	cmp	x1, #7
	b.hi	.LBB12_11
	cbz	x1, .LBB12_26
	cmp	x1, #6
	b.eq	.LBB12_16
	cmp	x1, #4
	b.ne	.LBB12_2
	ldrb	w8, [x0]
	and	w8, w8, #0xf8
	cmp	w8, #216
	b.eq	.LBB12_2
	ldrb	w8, [x0, #2]
	and	w8, w8, #0xf8
	cmp	w8, #216
	b.eq	.LBB12_2
	mov	w1, #4
	mov	x0, x1
	ret
.LBB12_10:
	mov	w1, #2
	mov	x0, x1
	ret
.LBB12_11:
	cmp	x1, #64
	b.hi	.LBB12_2
	tbnz	w1, #0, .LBB12_2
	cmp	x1, #15
	b.hi	.LBB12_20
	movi	v0.4h, #248
	ldr	d2, [x0]
	movi	v1.4h, #216
	and	v2.8b, v2.8b, v0.8b
	cmeq	v2.4h, v2.4h, v1.4h
	umaxv	h2, v2.4h
	fmov	w8, s2
	tbnz	w8, #0, .LBB12_2
	add	x8, x0, x1
	ldur	d2, [x8, #-8]
	and	v0.8b, v2.8b, v0.8b
	cmeq	v0.4h, v0.4h, v1.4h
	umaxv	h0, v0.4h
	b	.LBB12_23
.LBB12_16:
	ldrb	w8, [x0]
	and	w8, w8, #0xf8
	cmp	w8, #216
	b.eq	.LBB12_2
	ldrb	w8, [x0, #2]
	and	w8, w8, #0xf8
	cmp	w8, #216
	b.eq	.LBB12_2
	ldrb	w8, [x0, #4]
	and	w8, w8, #0xf8
	cmp	w8, #216
	b.eq	.LBB12_2
	mov	w1, #6
	mov	x0, x1
	ret
.LBB12_20:
	cmp	x1, #31
	b.hi	.LBB12_24
	ldr	q0, [x0]
	movi	v1.8b, #216
	xtn	v2.8b, v0.8h
	movi	v0.8b, #248
	and	v2.8b, v2.8b, v0.8b
	cmeq	v2.8b, v2.8b, v1.8b
	umaxv	b2, v2.8b
	fmov	w8, s2
	tbnz	w8, #0, .LBB12_2
	add	x8, x0, x1
	ldur	q2, [x8, #-16]
	xtn	v2.8b, v2.8h
	and	v0.8b, v2.8b, v0.8b
	cmeq	v0.8b, v0.8b, v1.8b
	umaxv	b0, v0.8b
.LBB12_23:
	fmov	w8, s0
	tbnz	w8, #0, .LBB12_2
	b	.LBB12_26
.LBB12_24:
	ldp	q1, q0, [x0]
	adrp	x8, .LCPI12_0
	uzp1	v2.16b, v1.16b, v0.16b
	movi	v0.16b, #248
	movi	v1.16b, #216
	and	v2.16b, v2.16b, v0.16b
	cmeq	v3.16b, v2.16b, v1.16b
	ldr	q2, [x8, :lo12:.LCPI12_0]
	and	v3.16b, v3.16b, v2.16b
	addp	v3.16b, v3.16b, v3.16b
	addp	v3.16b, v3.16b, v3.16b
	addp	v3.16b, v3.16b, v3.16b
	umov	w8, v3.h[0]
	cbnz	w8, .LBB12_2
	add	x8, x0, x1
	ldp	q4, q3, [x8, #-32]
	uzp1	v3.16b, v4.16b, v3.16b
	and	v0.16b, v3.16b, v0.16b
	cmeq	v0.16b, v0.16b, v1.16b
	and	v0.16b, v0.16b, v2.16b
	addp	v0.16b, v0.16b, v0.16b
	addp	v0.16b, v0.16b, v0.16b
	addp	v0.16b, v0.16b, v0.16b
	umov	w8, v0.h[0]
	cbnz	w8, .LBB12_2
.LBB12_26:
	mov	x0, x1
	ret
.Lfunc_end12:
	.size	"utf16_transcode::decode::valid_up_to::<#8b18edd9dd9aa8df>", .Lfunc_end12-"utf16_transcode::decode::valid_up_to::<#8b18edd9dd9aa8df>"
	.cfi_endproc

	.section	.rodata.cst16,"aM",@progbits,16
	.p2align	4, 0x0
.LCPI13_0:
	.byte	1
	.byte	2
	.byte	4
	.byte	8
	.byte	16
	.byte	32
	.byte	64
	.byte	128
	.byte	1
	.byte	2
	.byte	4
	.byte	8
	.byte	16
	.byte	32
	.byte	64
	.byte	128
	.section	".text.utf16_units::validate::valid_len::<#8b18edd9dd9aa8df>","ax",@progbits
	.p2align	2
	.type	"utf16_units::validate::valid_len::<#8b18edd9dd9aa8df>",@function
"utf16_units::validate::valid_len::<#8b18edd9dd9aa8df>":
	.cfi_startproc
	cmp	x1, #32
	b.hs	.LBB13_9
	mov	x8, xzr
	cbnz	x1, .LBB13_3
	b	.LBB13_46
.LBB13_2:
	mov	w9, #2
	add	x8, x9, x8
	cmp	x8, x1
	b.hs	.LBB13_46
.LBB13_3:
	sub	x10, x1, x8
	cmp	x10, #2
	b.lo	.LBB13_46
	add	x9, x0, x8
	ldrb	w11, [x9]
	and	w12, w11, #0xf8
	cmp	w12, #216
	b.ne	.LBB13_2
	cmp	x10, #4
	b.lo	.LBB13_46
	mov	w10, #220
	and	w10, w11, w10
	cmp	w10, #220
	b.eq	.LBB13_46
	ldrb	w9, [x9, #2]
	and	w9, w9, #0xfc
	cmp	w9, #220
	b.ne	.LBB13_46
	mov	w9, #4
	add	x8, x9, x8
	cmp	x8, x1
	b.lo	.LBB13_3
	b	.LBB13_46
.LBB13_9:
	cmp	x1, #64
	adrp	x9, .LCPI13_0
	mov	x10, xzr
	b.lo	.LBB13_19
	and	x8, x1, #0xffffffffffffff80
	mov	x11, x1
	b	.LBB13_13
.LBB13_11:
	sub	x10, x10, #64
.LBB13_12:
	sub	x11, x1, x10
	cmp	x11, #63
	b.ls	.LBB13_29
.LBB13_13:
	add	x12, x0, x10
	ldp	q1, q0, [x12]
	ldp	q3, q2, [x12, #32]
	uzp1	v0.16b, v1.16b, v0.16b
	movi	v1.16b, #248
	uzp1	v2.16b, v3.16b, v2.16b
	movi	v3.16b, #216
	and	v0.16b, v0.16b, v1.16b
	and	v1.16b, v2.16b, v1.16b
	cmeq	v2.16b, v0.16b, v3.16b
	ldr	q0, [x9, :lo12:.LCPI13_0]
	cmeq	v1.16b, v1.16b, v3.16b
	and	v2.16b, v2.16b, v0.16b
	and	v1.16b, v1.16b, v0.16b
	addp	v1.16b, v2.16b, v1.16b
	addp	v1.16b, v1.16b, v1.16b
	addp	v1.16b, v1.16b, v1.16b
	fmov	w12, s1
	cbnz	w12, .LBB13_20
	add	x10, x10, #64
	cmp	x10, #256
	b.ne	.LBB13_12
	cmp	x8, #256
	b.eq	.LBB13_12
	mov	w10, #320
	sub	x11, x1, #256
.LBB13_17:
	add	x12, x0, x10
	ldp	q2, q1, [x12, #-64]
	ldp	q4, q3, [x12, #-32]
	ldp	q6, q5, [x12]
	ldp	q16, q7, [x12, #32]
	uzp1	v1.16b, v2.16b, v1.16b
	movi	v2.16b, #248
	uzp1	v3.16b, v4.16b, v3.16b
	uzp1	v5.16b, v6.16b, v5.16b
	movi	v6.16b, #216
	uzp1	v4.16b, v16.16b, v7.16b
	and	v1.16b, v1.16b, v2.16b
	and	v3.16b, v3.16b, v2.16b
	and	v5.16b, v5.16b, v2.16b
	and	v2.16b, v4.16b, v2.16b
	cmeq	v1.16b, v1.16b, v6.16b
	cmeq	v3.16b, v3.16b, v6.16b
	cmeq	v4.16b, v5.16b, v6.16b
	cmeq	v2.16b, v2.16b, v6.16b
	and	v1.16b, v1.16b, v0.16b
	and	v3.16b, v3.16b, v0.16b
	and	v4.16b, v4.16b, v0.16b
	and	v2.16b, v2.16b, v0.16b
	addp	v1.16b, v1.16b, v3.16b
	addp	v2.16b, v4.16b, v2.16b
	addp	v1.16b, v1.16b, v1.16b
	addp	v2.16b, v2.16b, v2.16b
	addp	v1.16b, v1.16b, v1.16b
	addp	v2.16b, v2.16b, v2.16b
	orr	v1.16b, v2.16b, v1.16b
	fmov	w12, s1
	cbnz	w12, .LBB13_11
	sub	x11, x11, #128
	add	x10, x10, #128
	cmp	x11, #127
	b.hi	.LBB13_17
	b	.LBB13_11
.LBB13_19:
	mov	w8, wzr
	b	.LBB13_30
.LBB13_20:
	cmp	x11, #64
	b.ne	.LBB13_45
.LBB13_21:
	mov	w8, wzr
	b	.LBB13_23
.LBB13_22:
	lsr	w8, w12, #31
	cmp	x11, #63
	b.ls	.LBB13_51
.LBB13_23:
	add	x11, x0, x10
	ldp	q2, q1, [x11]
	ldp	q4, q3, [x11, #32]
	uzp1	v1.16b, v2.16b, v1.16b
	movi	v2.16b, #252
	uzp1	v3.16b, v4.16b, v3.16b
	movi	v4.16b, #216
	and	v1.16b, v1.16b, v2.16b
	and	v2.16b, v3.16b, v2.16b
	movi	v3.16b, #220
	cmeq	v5.16b, v2.16b, v4.16b
	cmeq	v4.16b, v1.16b, v4.16b
	cmeq	v2.16b, v2.16b, v3.16b
	cmeq	v1.16b, v1.16b, v3.16b
	and	v3.16b, v4.16b, v0.16b
	and	v4.16b, v5.16b, v0.16b
	and	v1.16b, v1.16b, v0.16b
	and	v2.16b, v2.16b, v0.16b
	addp	v3.16b, v3.16b, v4.16b
	addp	v1.16b, v1.16b, v2.16b
	addp	v2.16b, v3.16b, v3.16b
	addp	v1.16b, v1.16b, v1.16b
	addp	v2.16b, v2.16b, v2.16b
	addp	v1.16b, v1.16b, v1.16b
	fmov	w12, s2
	fmov	w13, s1
	lsl	w11, w12, #1
	bfxil	x11, x8, #0, #1
	cmp	x11, x13
	b.ne	.LBB13_51
	add	x10, x10, #64
	sub	x11, x1, x10
	cmp	x11, #64
	b.lo	.LBB13_22
	and	x8, x10, #0xff
	cbnz	x8, .LBB13_22
	cbnz	w12, .LBB13_22
.LBB13_27:
	add	x8, x0, x10
	ldp	q2, q1, [x8]
	ldp	q4, q3, [x8, #32]
	uzp1	v1.16b, v2.16b, v1.16b
	movi	v2.16b, #248
	uzp1	v3.16b, v4.16b, v3.16b
	movi	v4.16b, #216
	and	v1.16b, v1.16b, v2.16b
	and	v2.16b, v3.16b, v2.16b
	cmeq	v1.16b, v1.16b, v4.16b
	cmeq	v2.16b, v2.16b, v4.16b
	and	v1.16b, v1.16b, v0.16b
	and	v2.16b, v2.16b, v0.16b
	addp	v1.16b, v1.16b, v2.16b
	addp	v1.16b, v1.16b, v1.16b
	addp	v1.16b, v1.16b, v1.16b
	fmov	w8, s1
	cbnz	w8, .LBB13_22
	sub	x11, x11, #64
	add	x10, x10, #64
	cmp	x11, #63
	b.hi	.LBB13_27
.LBB13_29:
	mov	w8, wzr
	cmp	x11, #32
	b.lo	.LBB13_31
.LBB13_30:
	add	x11, x0, x10
	movi	v2.16b, #216
	ldr	q3, [x9, :lo12:.LCPI13_0]
	ldp	q1, q0, [x11]
	mov	w14, w8
	and	x14, x14, #0x1
	uzp1	v0.16b, v1.16b, v0.16b
	movi	v1.16b, #252
	and	v0.16b, v0.16b, v1.16b
	movi	v1.16b, #220
	cmeq	v2.16b, v0.16b, v2.16b
	cmeq	v0.16b, v0.16b, v1.16b
	and	v1.16b, v2.16b, v3.16b
	and	v0.16b, v0.16b, v3.16b
	addp	v1.16b, v1.16b, v1.16b
	addp	v0.16b, v0.16b, v0.16b
	addp	v1.16b, v1.16b, v1.16b
	addp	v0.16b, v0.16b, v0.16b
	addp	v1.16b, v1.16b, v1.16b
	addp	v0.16b, v0.16b, v0.16b
	umov	w11, v1.h[0]
	smov	w12, v1.h[0]
	umov	w13, v0.h[0]
	bfi	x14, x11, #1, #15
	cmp	w12, #0
	add	x11, x10, #32
	cset	w12, mi
	cmp	x14, w13, uxth
	csel	x10, x11, x10, eq
	csel	w8, w12, w8, eq
.LBB13_31:
	sub	x11, x10, #2
	tst	w8, #0x1
	csel	x8, x11, x10, ne
	sub	x10, x1, x8
	cmp	x10, #32
	b.hi	.LBB13_35
	sub	x10, x8, x1
	tbnz	w10, #0, .LBB13_36
	add	x11, x0, x1
	movi	v2.16b, #220
	movi	v3.16b, #216
	ldp	q1, q0, [x11, #-32]
	add	x10, x10, #32
	lsr	x10, x10, #1
	uzp1	v0.16b, v1.16b, v0.16b
	movi	v1.16b, #252
	and	v0.16b, v0.16b, v1.16b
	cmeq	v1.16b, v0.16b, v2.16b
	cmeq	v0.16b, v0.16b, v3.16b
	ldr	q2, [x9, :lo12:.LCPI13_0]
	and	v1.16b, v1.16b, v2.16b
	and	v0.16b, v0.16b, v2.16b
	addp	v1.16b, v1.16b, v1.16b
	addp	v0.16b, v0.16b, v0.16b
	addp	v1.16b, v1.16b, v1.16b
	addp	v0.16b, v0.16b, v0.16b
	addp	v1.16b, v1.16b, v1.16b
	addp	v0.16b, v0.16b, v0.16b
	umov	w9, v1.h[0]
	umov	w11, v0.h[0]
	lsr	x9, x9, x10
	lsr	x10, x11, x10
	cmp	x9, x10, lsl #1
	b.ne	.LBB13_36
	mov	x0, x1
	ret
.LBB13_35:
	cmp	x10, #64
	b.hs	.LBB13_37
.LBB13_36:
	add	x8, xzr, x8
	cmp	x8, x1
	b.lo	.LBB13_39
	b	.LBB13_46
.LBB13_37:
	add	x10, x0, x8
	ldp	q1, q0, [x10]
	ldp	q3, q2, [x10, #32]
	uzp1	v0.16b, v1.16b, v0.16b
	movi	v1.16b, #248
	uzp1	v2.16b, v3.16b, v2.16b
	movi	v3.16b, #216
	and	v0.16b, v0.16b, v1.16b
	and	v1.16b, v2.16b, v1.16b
	ldr	q2, [x9, :lo12:.LCPI13_0]
	cmeq	v0.16b, v0.16b, v3.16b
	cmeq	v1.16b, v1.16b, v3.16b
	and	v0.16b, v0.16b, v2.16b
	and	v1.16b, v1.16b, v2.16b
	addp	v0.16b, v0.16b, v1.16b
	addp	v0.16b, v0.16b, v0.16b
	addp	v0.16b, v0.16b, v0.16b
	fmov	w9, s0
	rbit	w9, w9
	clz	w9, w9
	lsl	w9, w9, #1
	add	x8, x9, x8
	cmp	x8, x1
	b.lo	.LBB13_39
	b	.LBB13_46
.LBB13_38:
	mov	w9, #2
	add	x8, x9, x8
	cmp	x8, x1
	b.hs	.LBB13_46
.LBB13_39:
	sub	x10, x1, x8
	cmp	x10, #2
	b.lo	.LBB13_46
	add	x9, x0, x8
	ldrb	w11, [x9]
	and	w12, w11, #0xf8
	cmp	w12, #216
	b.ne	.LBB13_38
	cmp	x10, #4
	b.lo	.LBB13_46
	mov	w10, #220
	and	w10, w11, w10
	cmp	w10, #220
	b.eq	.LBB13_46
	ldrb	w9, [x9, #2]
	and	w9, w9, #0xfc
	cmp	w9, #220
	b.ne	.LBB13_46
	mov	w9, #4
	add	x8, x9, x8
	cmp	x8, x1
	b.lo	.LBB13_39
	b	.LBB13_46
.LBB13_45:
	rbit	w8, w12
	clz	w8, w8
	lsl	w8, w8, #1
	add	x8, x10, x8
	sub	x12, x1, x8
	cmp	x12, #2
	b.hs	.LBB13_47
.LBB13_46:
	mov	x0, x8
	ret
.LBB13_47:
	add	x11, x0, x8
	ldrb	w13, [x11]
	and	w14, w13, #0xf8
	cmp	w14, #216
	b.ne	.LBB13_21
	cmp	x12, #4
	b.lo	.LBB13_46
	mov	w12, #220
	and	w12, w13, w12
	cmp	w12, #220
	b.eq	.LBB13_46
	ldrb	w11, [x11, #2]
	and	w11, w11, #0xfc
	cmp	w11, #220
	b.eq	.LBB13_21
	b	.LBB13_46
.LBB13_51:
	sub	x11, x1, x10
	cmp	x11, #32
	b.hs	.LBB13_30
	b	.LBB13_31
.Lfunc_end13:
	.size	"utf16_units::validate::valid_len::<#8b18edd9dd9aa8df>", .Lfunc_end13-"utf16_units::validate::valid_len::<#8b18edd9dd9aa8df>"
	.cfi_endproc

	.section	".text.utf16_to_utf8::write::write_utf8::<#8b18edd9dd9aa8df>","ax",@progbits
	.p2align	2
	.type	"utf16_to_utf8::write::write_utf8::<#8b18edd9dd9aa8df>",@function
"utf16_to_utf8::write::write_utf8::<#8b18edd9dd9aa8df>":
	.cfi_startproc
	sub	sp, sp, #96
	.cfi_def_cfa_offset 96
	stp	x29, x30, [sp, #48]
	stp	x22, x21, [sp, #64]
	stp	x20, x19, [sp, #80]
	add	x29, sp, #48
	.cfi_def_cfa w29, 48
	.cfi_offset w19, -8
	.cfi_offset w20, -16
	.cfi_offset w21, -24
	.cfi_offset w22, -32
	.cfi_offset w30, -40
	.cfi_offset w29, -48
	.cfi_remember_state
	lsr	x8, x1, #1
	mov	x19, x2
	mov	x20, x0
	cmp	x1, #191
	add	x8, x8, x8, lsl #1
	add	x21, x8, #128
	b.ls	.LBB14_3
	movi	v0.2d, #0000000000000000
	mov	x22, x1
	mov	x0, sp
	mov	x1, x20
	mov	x2, x22
	mov	x3, x19
	mov	x4, x21
	str	xzr, [sp, #32]
	stp	q0, q0, [sp]
	bl	"utf16_to_utf8::runs::write_paired::<#8b18edd9dd9aa8df>"
	ldp	x9, x10, [sp]
	ldrb	w8, [sp, #32]
	tst	w8, #0x1
	sub	x11, x9, #2
	csel	x8, x11, x9, ne
	sub	x9, x10, #2
	sub	x1, x22, x8
	csel	x22, x9, x10, ne
	cmp	x1, #7
	b.hi	.LBB14_5
	add	x0, x20, x8
	add	x2, x19, x22
	bl	"utf16_to_utf8::chars::write_chars::<#8b18edd9dd9aa8df>"
	add	x0, x0, x22
	.cfi_def_cfa wsp, 96
	ldp	x20, x19, [sp, #80]
	ldp	x22, x21, [sp, #64]
	ldp	x29, x30, [sp, #48]
	add	sp, sp, #96
	.cfi_def_cfa_offset 0
	.cfi_restore w19
	.cfi_restore w20
	.cfi_restore w21
	.cfi_restore w22
	.cfi_restore w30
	.cfi_restore w29
	ret
.LBB14_3:
	.cfi_restore_state
	.cfi_remember_state
	mov	x0, x20
	mov	x2, x19
	cmp	x1, #7
	b.ls	.LBB14_6
	mov	x3, x21
	bl	"utf16_to_utf8::vectors::write_vectors::<#8b18edd9dd9aa8df>"
	mov	x0, x1
	.cfi_def_cfa wsp, 96
	ldp	x20, x19, [sp, #80]
	ldp	x22, x21, [sp, #64]
	ldp	x29, x30, [sp, #48]
	add	sp, sp, #96
	.cfi_def_cfa_offset 0
	.cfi_restore w19
	.cfi_restore w20
	.cfi_restore w21
	.cfi_restore w22
	.cfi_restore w30
	.cfi_restore w29
	ret
.LBB14_5:
	.cfi_restore_state
	.cfi_remember_state
	sub	x3, x21, x22
	add	x0, x20, x8
	add	x2, x19, x22
	bl	"utf16_to_utf8::vectors::write_vectors::<#8b18edd9dd9aa8df>"
	add	x0, x1, x22
	.cfi_def_cfa wsp, 96
	ldp	x20, x19, [sp, #80]
	ldp	x22, x21, [sp, #64]
	ldp	x29, x30, [sp, #48]
	add	sp, sp, #96
	.cfi_def_cfa_offset 0
	.cfi_restore w19
	.cfi_restore w20
	.cfi_restore w21
	.cfi_restore w22
	.cfi_restore w30
	.cfi_restore w29
	ret
.LBB14_6:
	.cfi_restore_state
	.cfi_def_cfa wsp, 96
	ldp	x20, x19, [sp, #80]
	ldp	x22, x21, [sp, #64]
	ldp	x29, x30, [sp, #48]
	add	sp, sp, #96
	.cfi_def_cfa_offset 0
	.cfi_restore w19
	.cfi_restore w20
	.cfi_restore w21
	.cfi_restore w22
	.cfi_restore w30
	.cfi_restore w29
	b	"utf16_to_utf8::chars::write_chars::<#8b18edd9dd9aa8df>"
.Lfunc_end14:
	.size	"utf16_to_utf8::write::write_utf8::<#8b18edd9dd9aa8df>", .Lfunc_end14-"utf16_to_utf8::write::write_utf8::<#8b18edd9dd9aa8df>"
	.cfi_endproc

	.section	".text.utf16_to_utf8::chars::write_chars::<#8b18edd9dd9aa8df>","ax",@progbits
	.p2align	2
	.type	"utf16_to_utf8::chars::write_chars::<#8b18edd9dd9aa8df>",@function
"utf16_to_utf8::chars::write_chars::<#8b18edd9dd9aa8df>":
	.cfi_startproc
	stp	x29, x30, [sp, #-48]!
	.cfi_def_cfa_offset 48
	stp	x22, x21, [sp, #16]
	stp	x20, x19, [sp, #32]
	mov	x29, sp
	.cfi_def_cfa w29, 48
	.cfi_offset w19, -8
	.cfi_offset w20, -16
	.cfi_offset w21, -24
	.cfi_offset w22, -32
	.cfi_offset w30, -40
	.cfi_offset w29, -48
	cbz	x1, .LBB15_12
	mov	x19, x2
	mov	x20, x1
	mov	x21, x0
	mov	x22, xzr
	b	.LBB15_4
.LBB15_2:
	strb	w0, [x19, x22]
	add	x22, x22, #1
.LBB15_3:
	subs	x20, x20, x8
	add	x21, x21, x8
	b.eq	.LBB15_13
.LBB15_4:
	ldrh	w8, [x21]
	ubfx	w9, w8, #2, #6
	rev16	w0, w8
	cmp	w9, #54
	b.ne	.LBB15_6
	ldrh	w8, [x21, #2]
	rev16	w1, w8
	bl	"utf16_units::unit::decode_surrogates"
	mov	w8, #4
	cmp	w0, #127
	b.ls	.LBB15_2
	b	.LBB15_7
.LBB15_6:
	and	w0, w0, #0xffff
	mov	w8, #2
	cmp	w0, #127
	b.ls	.LBB15_2
.LBB15_7:
	mov	w9, #-128
	cmp	w0, #2047
	bfxil	w9, w0, #0, #6
	b.hi	.LBB15_9
	lsr	w10, w0, #6
	add	x11, x22, #2
	orr	w10, w10, #0xc0
	bfi	w10, w9, #8, #24
	strh	w10, [x19, x22]
	mov	x22, x11
	b	.LBB15_3
.LBB15_9:
	lsr	w10, w0, #16
	cbnz	w10, .LBB15_11
	lsr	w10, w0, #12
	mov	w11, #128
	add	x12, x19, x22
	bfxil	w11, w0, #6, #6
	add	x22, x22, #3
	strb	w9, [x12, #2]
	orr	w10, w10, #0xe0
	strb	w10, [x12]
	strb	w11, [x12, #1]
	b	.LBB15_3
.LBB15_11:
	lsl	w10, w0, #10
	mov	w11, #32768
	movk	w11, #128, lsl #16
	and	w10, w10, #0x3f0000
	orr	w9, w10, w9, lsl #24
	lsr	w10, w0, #18
	bfxil	w9, w0, #4, #14
	add	w10, w10, #240
	bfxil	w9, w10, #0, #8
	add	x10, x22, #4
	orr	w9, w9, w11
	str	w9, [x19, x22]
	mov	x22, x10
	b	.LBB15_3
.LBB15_12:
	mov	x22, xzr
.LBB15_13:
	mov	x0, x22
	.cfi_def_cfa wsp, 48
	ldp	x20, x19, [sp, #32]
	ldp	x22, x21, [sp, #16]
	ldp	x29, x30, [sp], #48
	.cfi_def_cfa_offset 0
	.cfi_restore w19
	.cfi_restore w20
	.cfi_restore w21
	.cfi_restore w22
	.cfi_restore w30
	.cfi_restore w29
	ret
.Lfunc_end15:
	.size	"utf16_to_utf8::chars::write_chars::<#8b18edd9dd9aa8df>", .Lfunc_end15-"utf16_to_utf8::chars::write_chars::<#8b18edd9dd9aa8df>"
	.cfi_endproc

	.section	.rodata.cst16,"aM",@progbits,16
	.p2align	4, 0x0
.LCPI16_0:
	.byte	1
	.byte	2
	.byte	4
	.byte	8
	.byte	16
	.byte	32
	.byte	64
	.byte	128
	.byte	1
	.byte	2
	.byte	4
	.byte	8
	.byte	16
	.byte	32
	.byte	64
	.byte	128
	.section	".text.utf16_units::size::utf16_len","ax",@progbits
	.p2align	2
	.type	"utf16_units::size::utf16_len",@function
"utf16_units::size::utf16_len":
	.cfi_startproc
	cmp	x1, #16
	b.hs	.LBB16_11
	mov	x8, xzr
	cbnz	x1, .LBB16_5
.LBB16_2:
	mov	x0, x8
	ret
.LBB16_3:
	mov	w10, #1
.LBB16_4:
	cmp	w9, #16, lsl #12
	mov	w9, #4
	mov	w11, #2
	csel	x9, x11, x9, lo
	sub	x1, x1, x10
	add	x0, x0, x10
	add	x8, x9, x8
	cbz	x1, .LBB16_2
.LBB16_5:
	ldrsb	w10, [x0]
	and	w9, w10, #0xff
	tbz	w10, #31, .LBB16_3
	ldrb	w10, [x0, #1]
	cmp	w9, #223
	and	w11, w10, #0x3f
	b.hi	.LBB16_8
	bfi	w11, w9, #6, #5
	mov	w10, #2
	mov	w9, w11
	b	.LBB16_4
.LBB16_8:
	ldrb	w10, [x0, #2]
	cmp	w9, #239
	and	w10, w10, #0x3f
	b.hi	.LBB16_10
	ubfiz	w9, w9, #12, #4
	orr	w9, w9, w11, lsl #6
	orr	w9, w9, w10
	mov	w10, #3
	b	.LBB16_4
.LBB16_10:
	ubfiz	w9, w9, #18, #3
	orr	w9, w9, w11, lsl #12
	ldrb	w11, [x0, #3]
	orr	w9, w9, w10, lsl #6
	mov	w10, #4
	bfxil	w9, w11, #0, #6
	b	.LBB16_4
.LBB16_11:
	cmp	x1, #64
	adrp	x9, .LCPI16_0
	mov	x8, xzr
	b.lo	.LBB16_15
	mov	x10, x0
	mov	x11, x1
.LBB16_13:
	movi	v0.16b, #191
	movi	v1.16b, #239
	ldr	q6, [x9, :lo12:.LCPI16_0]
	ldp	q2, q3, [x10]
	sub	x11, x11, #64
	ldp	q4, q5, [x10, #32]
	cmp	x11, #63
	add	x10, x10, #64
	cmgt	v7.16b, v3.16b, v0.16b
	cmgt	v16.16b, v2.16b, v0.16b
	cmhi	v2.16b, v2.16b, v1.16b
	cmgt	v17.16b, v5.16b, v0.16b
	cmgt	v0.16b, v4.16b, v0.16b
	cmhi	v5.16b, v5.16b, v1.16b
	cmhi	v4.16b, v4.16b, v1.16b
	cmhi	v1.16b, v3.16b, v1.16b
	and	v3.16b, v16.16b, v6.16b
	and	v7.16b, v7.16b, v6.16b
	and	v2.16b, v2.16b, v6.16b
	and	v0.16b, v0.16b, v6.16b
	and	v16.16b, v17.16b, v6.16b
	and	v5.16b, v5.16b, v6.16b
	and	v1.16b, v1.16b, v6.16b
	and	v4.16b, v4.16b, v6.16b
	addp	v3.16b, v3.16b, v7.16b
	addp	v0.16b, v0.16b, v16.16b
	addp	v1.16b, v2.16b, v1.16b
	addp	v2.16b, v4.16b, v5.16b
	addp	v0.16b, v3.16b, v0.16b
	addp	v1.16b, v1.16b, v2.16b
	addp	v0.16b, v0.16b, v0.16b
	addp	v1.16b, v1.16b, v1.16b
	cnt	v0.8b, v0.8b
	cnt	v1.8b, v1.8b
	addv	b0, v0.8b
	addv	b1, v1.8b
	fmov	x12, d0
	fmov	x13, d1
	add	x8, x12, x8
	add	x8, x8, x13
	b.hi	.LBB16_13
	and	x11, x1, #0xffffffffffffffc0
	sub	x10, x1, x11
	cmp	x10, #16
	b.hs	.LBB16_16
	b	.LBB16_18
.LBB16_15:
	mov	x11, xzr
	sub	x10, x1, xzr
	cmp	x10, #16
	b.lo	.LBB16_18
.LBB16_16:
	add	x11, x0, x11
.LBB16_17:
	movi	v0.16b, #239
	ldr	q1, [x11], #16
	movi	v2.16b, #191
	ldr	q3, [x9, :lo12:.LCPI16_0]
	sub	x10, x10, #16
	cmp	x10, #15
	cmhi	v0.16b, v1.16b, v0.16b
	cmgt	v1.16b, v1.16b, v2.16b
	and	v0.16b, v0.16b, v3.16b
	and	v1.16b, v1.16b, v3.16b
	addp	v0.16b, v0.16b, v0.16b
	addp	v1.16b, v1.16b, v1.16b
	addp	v0.16b, v0.16b, v0.16b
	addp	v1.16b, v1.16b, v1.16b
	addp	v0.16b, v0.16b, v0.16b
	addp	v1.16b, v1.16b, v1.16b
	mov	h0, v0.h[0]
	mov	v0.h[2], v1.h[0]
	movi	d1, #0x00ffff0000ffff
	and	v0.8b, v0.8b, v1.8b
	cnt	v0.8b, v0.8b
	uaddlp	v0.4h, v0.8b
	uaddlp	v1.2s, v0.4h
	dup	v1.2s, v1.s[1]
	uadalp	v1.2s, v0.4h
	fmov	w12, s1
	add	x8, x8, x12
	b.hi	.LBB16_17
.LBB16_18:
	movi	v0.16b, #191
	movi	v1.16b, #239
	add	x11, x0, x1
	ldur	q2, [x11, #-16]
	mov	w12, #16
	sub	x10, x12, x10
	cmgt	v0.16b, v2.16b, v0.16b
	cmhi	v1.16b, v2.16b, v1.16b
	ldr	q2, [x9, :lo12:.LCPI16_0]
	and	v0.16b, v0.16b, v2.16b
	and	v1.16b, v1.16b, v2.16b
	addp	v0.16b, v0.16b, v0.16b
	addp	v1.16b, v1.16b, v1.16b
	addp	v0.16b, v0.16b, v0.16b
	addp	v1.16b, v1.16b, v1.16b
	addp	v0.16b, v0.16b, v0.16b
	addp	v1.16b, v1.16b, v1.16b
	umov	w9, v0.h[0]
	umov	w11, v1.h[0]
	lsr	x9, x9, x10
	lsr	x10, x11, x10
	fmov	d0, x9
	fmov	d1, x10
	cnt	v0.8b, v0.8b
	cnt	v1.8b, v1.8b
	addv	b0, v0.8b
	addv	b1, v1.8b
	fmov	w9, s0
	fmov	w10, s1
	add	x9, x9, x10
	add	x8, x9, x8
	lsl	x8, x8, #1
	mov	x0, x8
	ret
.Lfunc_end16:
	.size	"utf16_units::size::utf16_len", .Lfunc_end16-"utf16_units::size::utf16_len"
	.cfi_endproc

	.section	.rodata.cst16,"aM",@progbits,16
	.p2align	4, 0x0
.LCPI17_0:
	.byte	1
	.byte	2
	.byte	4
	.byte	8
	.byte	16
	.byte	32
	.byte	64
	.byte	128
	.byte	1
	.byte	2
	.byte	4
	.byte	8
	.byte	16
	.byte	32
	.byte	64
	.byte	128
	.section	".text.utf16_transcode::ascii::write_lossy_ascii_blocks::<#8b18edd9dd9aa8df>","ax",@progbits
	.p2align	2
	.type	"utf16_transcode::ascii::write_lossy_ascii_blocks::<#8b18edd9dd9aa8df>",@function
"utf16_transcode::ascii::write_lossy_ascii_blocks::<#8b18edd9dd9aa8df>":
	.cfi_startproc
	mov	x8, x1
	mov	x9, x0
	mov	x0, xzr
	mov	x1, xzr
	sub	x10, x8, #66
	sub	x11, x3, #35
.LBB17_1:
	add	x12, x9, x0
	adrp	x13, .LCPI17_0
	ldp	q0, q2, [x12, #32]
	ldr	q4, [x13, :lo12:.LCPI17_0]
	ldp	q1, q3, [x12]
	add	x13, x2, x1
	rev16	v0.16b, v0.16b
	rev16	v2.16b, v2.16b
	rev16	v1.16b, v1.16b
	rev16	v3.16b, v3.16b
	uqxtn	v0.8b, v0.8h
	uqxtn	v1.8b, v1.8h
	uqxtn2	v0.16b, v2.8h
	uqxtn2	v1.16b, v3.8h
	cmlt	v2.16b, v0.16b, #0
	cmlt	v3.16b, v1.16b, #0
	stp	q1, q0, [x13]
	and	v2.16b, v2.16b, v4.16b
	and	v3.16b, v3.16b, v4.16b
	addp	v2.16b, v3.16b, v2.16b
	addp	v2.16b, v2.16b, v2.16b
	addp	v2.16b, v2.16b, v2.16b
	fmov	w14, s2
	cbz	w14, .LBB17_9
	rbit	w14, w14
	sub	x16, x8, x0
	clz	w14, w14
	lsl	x15, x14, #1
	sub	x16, x16, x15
	cmp	x16, #2
	b.lo	.LBB17_12
	add	x12, x12, x15
	ldrb	w17, [x12]
	and	w18, w17, #0xf8
	cmp	w18, #216
	b.ne	.LBB17_12
	mov	w18, #220
	bics	wzr, w18, w17
	b.eq	.LBB17_7
	cmp	x16, #4
	b.lo	.LBB17_12
	ldrb	w12, [x12, #2]
	and	w12, w12, #0xfc
	cmp	w12, #220
	b.eq	.LBB17_12
.LBB17_7:
	add	x16, x13, x14
	adrp	x12, .Lstatic.6
	add	x12, x12, :lo12:.Lstatic.6
	sub	x12, x16, x12
	add	x13, x15, #2
	cmp	x12, #2
	add	x12, x14, #3
	b.hi	.LBB17_10
	mov	w14, #49135
	mov	w15, #189
	strh	w14, [x16]
	strb	w15, [x16, #2]
	add	x0, x13, x0
	add	x1, x12, x1
	cmp	x0, x10
	b.ls	.LBB17_11
	b	.LBB17_12
.LBB17_9:
	mov	w13, #64
	mov	w12, #32
	add	x0, x13, x0
	add	x1, x12, x1
	cmp	x0, x10
	b.ls	.LBB17_11
	b	.LBB17_12
.LBB17_10:
	mov	w14, #189
	mov	w15, #49135
	strb	w14, [x16, #2]
	strh	w15, [x16]
	add	x0, x13, x0
	add	x1, x12, x1
	cmp	x0, x10
	b.hi	.LBB17_12
.LBB17_11:
	cmp	x1, x11
	b.ls	.LBB17_1
.LBB17_12:
	ret
.Lfunc_end17:
	.size	"utf16_transcode::ascii::write_lossy_ascii_blocks::<#8b18edd9dd9aa8df>", .Lfunc_end17-"utf16_transcode::ascii::write_lossy_ascii_blocks::<#8b18edd9dd9aa8df>"
	.cfi_endproc

	.section	".text.utf16_transcode::decode_lossy::write_copied::<#8b18edd9dd9aa8df>","ax",@progbits
	.p2align	2
	.type	"utf16_transcode::decode_lossy::write_copied::<#8b18edd9dd9aa8df>",@function
"utf16_transcode::decode_lossy::write_copied::<#8b18edd9dd9aa8df>":
	.cfi_startproc
	stp	x29, x30, [sp, #-64]!
	.cfi_def_cfa_offset 64
	stp	x28, x23, [sp, #16]
	stp	x22, x21, [sp, #32]
	stp	x20, x19, [sp, #48]
	mov	x29, sp
	.cfi_def_cfa w29, 64
	.cfi_offset w19, -8
	.cfi_offset w20, -16
	.cfi_offset w21, -24
	.cfi_offset w22, -32
	.cfi_offset w23, -40
	.cfi_offset w28, -48
	.cfi_offset w30, -56
	.cfi_offset w29, -64
	sub	sp, sp, #1024
	mov	x9, #-6148914691236517206
	sub	x8, x3, #128
	mov	x19, x2
	movk	x9, #43691
	mov	x21, x0
	mov	x0, sp
	umulh	x8, x8, x9
	mov	w9, #1024
	mov	w2, #1024
	and	x8, x8, #0xfffffffffffffffe
	cmp	x8, x1
	csel	x8, x8, x1, lo
	mov	w1, wzr
	cmp	x8, #1024
	csel	x8, x8, x9, lo
	and	x22, x8, #0x7fe
	bl	memset
	cbz	x22, .LBB18_2
	sub	x20, x22, #2
	ldrb	w8, [x21, x20]
	and	w8, w8, #0xfc
	cmp	w8, #216
	b.eq	.LBB18_3
.LBB18_2:
	mov	x20, x22
.LBB18_3:
	mov	x0, sp
	mov	x1, x21
	mov	x2, x20
	bl	memcpy
	ands	x21, x20, #0xfffffffffffffffe
	b.eq	.LBB18_14
	mov	x22, xzr
	b	.LBB18_6
.LBB18_5:
	mov	w9, #65023
	strh	w9, [x8]
	mov	w8, #2
	add	x22, x8, x22
	cmp	x22, x21
	b.hs	.LBB18_14
.LBB18_6:
	sub	x9, x21, x22
	mov	x8, sp
	cmp	x9, #2
	add	x8, x8, x22
	b.lo	.LBB18_5
	ldrb	w10, [x8]
	and	w11, w10, #0xf8
	cmp	w11, #216
	b.ne	.LBB18_12
	cmp	x9, #4
	b.lo	.LBB18_5
	mov	w9, #220
	and	w9, w10, w9
	cmp	w9, #220
	b.eq	.LBB18_5
	ldrb	w9, [x8, #2]
	and	w9, w9, #0xfc
	cmp	w9, #220
	b.ne	.LBB18_5
	mov	w23, #4
	b	.LBB18_13
.LBB18_12:
	mov	w23, #2
.LBB18_13:
	add	x8, x23, x22
	mov	x9, sp
	sub	x1, x21, x8
	add	x0, x9, x8
	bl	"utf16_transcode::decode::valid_up_to::<#8b18edd9dd9aa8df>"
	add	x8, x0, x23
	add	x22, x8, x22
	cmp	x22, x21
	b.lo	.LBB18_6
.LBB18_14:
	mov	x0, sp
	mov	x1, x20
	mov	x2, x19
	bl	"utf16_to_utf8::write::write_utf8::<#8b18edd9dd9aa8df>"
	mov	x1, x0
	mov	x0, x20
	add	sp, sp, #1024
	.cfi_def_cfa wsp, 64
	ldp	x20, x19, [sp, #48]
	ldp	x22, x21, [sp, #32]
	ldp	x28, x23, [sp, #16]
	ldp	x29, x30, [sp], #64
	.cfi_def_cfa_offset 0
	.cfi_restore w19
	.cfi_restore w20
	.cfi_restore w21
	.cfi_restore w22
	.cfi_restore w23
	.cfi_restore w28
	.cfi_restore w30
	.cfi_restore w29
	ret
.Lfunc_end18:
	.size	"utf16_transcode::decode_lossy::write_copied::<#8b18edd9dd9aa8df>", .Lfunc_end18-"utf16_transcode::decode_lossy::write_copied::<#8b18edd9dd9aa8df>"
	.cfi_endproc

	.section	".text.utf16_streams::lossy::LossyTranscoder::feed_to::<#418c2b53cf60437c>","ax",@progbits
	.p2align	2
	.type	"utf16_streams::lossy::LossyTranscoder::feed_to::<#418c2b53cf60437c>",@function
"utf16_streams::lossy::LossyTranscoder::feed_to::<#418c2b53cf60437c>":
	.cfi_startproc
	sub	sp, sp, #208
	.cfi_def_cfa_offset 208
	stp	x29, x30, [sp, #112]
	stp	x28, x27, [sp, #128]
	stp	x26, x25, [sp, #144]
	stp	x24, x23, [sp, #160]
	stp	x22, x21, [sp, #176]
	stp	x20, x19, [sp, #192]
	add	x29, sp, #112
	.cfi_def_cfa w29, 96
	.cfi_offset w19, -8
	.cfi_offset w20, -16
	.cfi_offset w21, -24
	.cfi_offset w22, -32
	.cfi_offset w23, -40
	.cfi_offset w24, -48
	.cfi_offset w25, -56
	.cfi_offset w26, -64
	.cfi_offset w27, -72
	.cfi_offset w28, -80
	.cfi_offset w30, -88
	.cfi_offset w29, -96
	.cfi_remember_state
	ldr	w8, [x0]
	mov	w10, #3
	mov	x22, xzr
	mov	x13, xzr
	stp	x3, x4, [sp, #16]
	lsr	w9, w8, #24
	stp	x2, x1, [sp, #40]
	str	x0, [sp, #8]
	cmp	w9, #3
	stp	wzr, w8, [x29, #-36]
	csel	w12, w9, w10, lo
	str	x12, [sp, #32]
	b	.LBB19_3
.LBB19_1:
	mov	w8, wzr
	add	x23, x6, x23
	ldr	x13, [sp, #56]
	ldur	x22, [x29, #-48]
	ldr	x12, [sp, #32]
	add	x13, x19, x13
	add	x22, x23, x22
	cbz	x19, .LBB19_83
.LBB19_2:
	cmp	w8, #3
	b.eq	.LBB19_83
.LBB19_3:
	subs	x8, x13, x12
	adrp	x28, .Lstatic.6
	add	x28, x28, :lo12:.Lstatic.6
	stur	x22, [x29, #-48]
	str	x13, [sp, #56]
	b.hs	.LBB19_43
	sub	x19, x12, x13
	mov	w8, #4
	ldr	x10, [sp, #40]
	sub	x8, x8, x19
	sub	x9, x29, #32
	sub	x0, x29, #24
	cmp	x8, x10
	add	x1, x9, x13
	sub	x2, x12, x13
	csel	x25, x8, x10, lo
	stur	wzr, [x29, #-24]
	sub	x20, x29, #24
	bl	memcpy
	ldr	x1, [sp, #48]
	add	x0, x20, x19
	mov	x2, x25
	bl	memcpy
	ldur	w8, [x29, #-24]
	mov	x24, xzr
	mov	x23, xzr
	add	x19, x25, x19
	stur	w8, [x29, #-28]
	ldr	x8, [sp, #16]
	add	x21, x8, x22
	ldr	x8, [sp, #24]
	sub	x22, x8, x22
	b	.LBB19_7
.LBB19_5:
	add	x0, x25, x24
	sub	x1, x19, x24
	add	x2, x21, x23
	sub	x3, x22, x23
	bl	"utf16_transcode::decode_lossy::write_copied::<#418c2b53cf60437c>"
.LBB19_6:
	add	x24, x0, x24
	add	x23, x1, x23
.LBB19_7:
	sub	x27, x19, x24
	sub	x8, x29, #28
	stp	xzr, xzr, [x29, #-24]
	sub	x9, x27, #16
	add	x25, x8, x24
	add	x8, x21, x23
	cmp	x9, #175
	sub	x9, x22, x23
	stur	xzr, [x29, #-8]
	b.hi	.LBB19_15
	lsr	x10, x27, #1
	cmp	x9, x10
	csel	x10, x9, x10, lo
	cmp	x10, #8
	b.lo	.LBB19_15
	lsl	x11, x10, #1
	mov	x5, xzr
	mov	x6, xzr
	mov	x12, x11
.LBB19_10:
	movi	v1.8h, #127
	ldr	q0, [x25, x5]
	cmhi	v1.8h, v0.8h, v1.8h
	umaxv	h1, v1.8h
	fmov	w13, s1
	tbnz	w13, #0, .LBB19_16
	sqxtun	v0.8b, v0.8h
	sub	x12, x12, #16
	add	x5, x5, #16
	cmp	x12, #15
	str	d0, [x8, x6]
	add	x6, x6, #8
	b.hi	.LBB19_10
	cmp	x11, x5
	b.ls	.LBB19_16
	movi	v1.8h, #127
	add	x12, x25, x11
	ldur	q0, [x12, #-16]
	cmhi	v1.8h, v0.8h, v1.8h
	umaxv	h1, v1.8h
	fmov	w12, s1
	tbnz	w12, #0, .LBB19_16
	sqxtun	v0.8b, v0.8h
	add	x12, x8, x10
	mov	x6, x10
	mov	x5, x11
	stur	d0, [x12, #-8]
	b	.LBB19_16
.LBB19_15:
	mov	x6, xzr
	mov	x5, xzr
.LBB19_16:
	sub	x10, x27, x5
	cmp	x10, #15
	b.ls	.LBB19_25
.LBB19_17:
	sub	x10, x27, #8
	cmp	x10, #183
	b.hi	.LBB19_20
	sub	x10, x27, x5
	cmp	x10, #8
	b.lo	.LBB19_20
	add	x0, x25, x5
	sub	x1, x27, x5
	add	x2, x8, x6
	sub	x3, x9, x6
	mov	x26, x28
	mov	x28, x6
	mov	x20, x5
	bl	"utf16_to_utf8::vectors::write_vectors::<#418c2b53cf60437c>"
	mov	x6, x28
	mov	x28, x26
	add	x5, x0, x20
	add	x6, x1, x6
.LBB19_20:
	cmp	x5, x27
	b.eq	.LBB19_1
	sub	x0, x29, #24
	sub	x2, x19, x24
	add	x3, x21, x23
	sub	x4, x22, x23
	mov	x1, x25
	bl	"utf16_transcode::transcoding::transcode_many::<#556930da7d070edc>"
	ldp	x9, x10, [x29, #-24]
	ldurb	w8, [x29, #-8]
	cmp	w8, #1
	add	x24, x9, x24
	add	x23, x10, x23
	b.ne	.LBB19_39
	sub	x9, x22, x23
	add	x8, x21, x23
	cmp	x9, #512
	b.lo	.LBB19_34
	sub	x8, x19, x24
	sub	x25, x29, #28
	cmp	x8, #128
	b.lo	.LBB19_5
	add	x0, x25, x24
	sub	x1, x19, x24
	add	x2, x21, x23
	sub	x3, x22, x23
	bl	"utf16_transcode::ascii::write_lossy_ascii_blocks::<#418c2b53cf60437c>"
	cmp	x0, #127
	b.ls	.LBB19_5
	b	.LBB19_6
.LBB19_25:
	cmp	x10, #2
	b.lo	.LBB19_17
	lsr	x11, x10, #1
	sub	x12, x9, x6
	add	x11, x11, x11, lsl #1
	cmp	x12, x11
	b.hs	.LBB19_29
	b	.LBB19_17
.LBB19_27:
	strb	w11, [x8, x6]
	add	x6, x6, #1
.LBB19_28:
	sub	x10, x10, #2
	add	x5, x5, #2
	cmp	x10, #1
	b.ls	.LBB19_17
.LBB19_29:
	add	x12, x25, x5
	ldrb	w11, [x12]
	ldrb	w13, [x12, #1]
	orr	w12, w11, w13, lsl #8
	cmp	w12, #127
	b.ls	.LBB19_27
	cmp	w13, #7
	b.hi	.LBB19_32
	lsr	w12, w12, #6
	orr	w12, w12, #0xc0
	and	w12, w12, #0xff
	bfi	w12, w11, #8, #6
	add	x11, x6, #2
	orr	w12, w12, #0x8000
	strh	w12, [x8, x6]
	mov	x6, x11
	b	.LBB19_28
.LBB19_32:
	and	w14, w13, #0xf8
	cmp	w14, #216
	b.eq	.LBB19_17
	lsr	w13, w13, #4
	mov	w14, #128
	mov	w15, #128
	bfxil	w14, w12, #6, #6
	bfxil	w15, w11, #0, #6
	add	x16, x8, x6
	orr	w12, w13, #0xe0
	add	x6, x6, #3
	strb	w12, [x16]
	strb	w14, [x16, #1]
	strb	w15, [x16, #2]
	b	.LBB19_28
.LBB19_34:
	cmp	x9, #2
	b.ls	.LBB19_40
	sub	x9, x8, x28
	ldurb	w0, [x29, #-7]
	cmp	x9, #2
	b.hi	.LBB19_37
	mov	w9, #49135
	mov	w10, #189
	strh	w9, [x8]
	strb	w10, [x8, #2]
	b	.LBB19_38
.LBB19_37:
	mov	w9, #189
	mov	w10, #49135
	strb	w9, [x8, #2]
	strh	w10, [x8]
.LBB19_38:
	mov	w1, #3
	b	.LBB19_6
.LBB19_39:
	ldr	x13, [sp, #56]
	ldur	x22, [x29, #-48]
	ldr	x12, [sp, #32]
	add	x13, x24, x13
	add	x22, x23, x22
	cbnz	x24, .LBB19_2
	b	.LBB19_83
.LBB19_40:
	ldr	x8, [sp, #56]
	ldr	x10, [sp, #32]
	sub	x9, x29, #32
	ldur	x22, [x29, #-48]
	add	x8, x24, x8
	cmp	x10, x8
	add	x22, x23, x22
	csel	x8, x10, x8, lo
	add	x1, x9, x8
	sub	x23, x10, x8
.LBB19_41:
	sub	x0, x29, #24
	mov	x2, x23
	sturb	wzr, [x29, #-22]
	sturh	wzr, [x29, #-24]
	bl	memcpy
	ldurb	w8, [x29, #-22]
	ldurh	w9, [x29, #-24]
	orr	w8, w9, w8, lsl #16
	orr	w8, w8, w23, lsl #24
.LBB19_42:
	ldr	x9, [sp, #8]
	mov	x0, x22
	str	w8, [x9]
	.cfi_def_cfa wsp, 208
	ldp	x20, x19, [sp, #192]
	ldp	x22, x21, [sp, #176]
	ldp	x24, x23, [sp, #160]
	ldp	x26, x25, [sp, #144]
	ldp	x28, x27, [sp, #128]
	ldp	x29, x30, [sp, #112]
	add	sp, sp, #208
	.cfi_def_cfa_offset 0
	.cfi_restore w19
	.cfi_restore w20
	.cfi_restore w21
	.cfi_restore w22
	.cfi_restore w23
	.cfi_restore w24
	.cfi_restore w25
	.cfi_restore w26
	.cfi_restore w27
	.cfi_restore w28
	.cfi_restore w30
	.cfi_restore w29
	ret
.LBB19_43:
	.cfi_restore_state
	ldr	x11, [sp, #48]
	mov	x10, x22
	mov	x22, xzr
	mov	x21, xzr
	sub	x9, x11, x12
	add	x26, x11, x8
	ldr	x11, [sp, #40]
	add	x9, x9, x13
	sub	x25, x11, x8
	ldr	x8, [sp, #16]
	add	x24, x8, x10
	ldr	x8, [sp, #24]
	sub	x23, x8, x10
	add	x8, x9, #1
	stp	x8, x9, [sp, #16]
	b	.LBB19_46
.LBB19_44:
	add	x0, x26, x22
	sub	x1, x25, x22
	add	x2, x24, x19
	sub	x3, x23, x19
	bl	"utf16_transcode::decode_lossy::write_copied::<#418c2b53cf60437c>"
.LBB19_45:
	add	x22, x0, x22
	add	x21, x1, x19
.LBB19_46:
	sub	x19, x25, x22
	add	x8, x26, x22
	sub	x10, x23, x21
	sub	x9, x19, #16
	stp	xzr, xzr, [x29, #-24]
	cmp	x9, #175
	add	x9, x24, x21
	stur	xzr, [x29, #-8]
	b.hi	.LBB19_54
	lsr	x11, x19, #1
	cmp	x10, x11
	csel	x11, x10, x11, lo
	cmp	x11, #8
	b.lo	.LBB19_54
	lsl	x12, x11, #1
	ldr	x13, [sp, #24]
	mov	x5, xzr
	mov	x6, xzr
	add	x14, x24, x21
	add	x13, x13, x22
	mov	x15, x12
.LBB19_49:
	movi	v1.8h, #127
	ldr	q0, [x13, x5]
	cmhi	v1.8h, v0.8h, v1.8h
	umaxv	h1, v1.8h
	fmov	w16, s1
	tbnz	w16, #0, .LBB19_55
	sqxtun	v0.8b, v0.8h
	sub	x15, x15, #16
	add	x5, x5, #16
	cmp	x15, #15
	str	d0, [x14, x6]
	add	x6, x6, #8
	b.hi	.LBB19_49
	cmp	x12, x5
	b.ls	.LBB19_55
	movi	v1.8h, #127
	add	x13, x8, x12
	ldur	q0, [x13, #-16]
	cmhi	v1.8h, v0.8h, v1.8h
	umaxv	h1, v1.8h
	fmov	w13, s1
	tbnz	w13, #0, .LBB19_55
	sqxtun	v0.8b, v0.8h
	add	x13, x9, x11
	mov	x6, x11
	mov	x5, x12
	stur	d0, [x13, #-8]
	b	.LBB19_55
.LBB19_54:
	mov	x6, xzr
	mov	x5, xzr
.LBB19_55:
	sub	x11, x19, x5
	cmp	x11, #15
	b.ls	.LBB19_64
.LBB19_56:
	sub	x11, x19, #8
	cmp	x11, #183
	b.hi	.LBB19_59
	sub	x11, x19, x5
	cmp	x11, #8
	b.lo	.LBB19_59
	add	x0, x8, x5
	sub	x1, x19, x5
	add	x2, x9, x6
	sub	x3, x10, x6
	mov	x27, x6
	mov	x20, x28
	mov	x28, x5
	bl	"utf16_to_utf8::vectors::write_vectors::<#418c2b53cf60437c>"
	mov	x5, x28
	mov	x28, x20
	add	x6, x1, x27
	add	x5, x0, x5
.LBB19_59:
	cmp	x5, x19
	b.eq	.LBB19_79
	sub	x0, x29, #24
	add	x1, x26, x22
	sub	x2, x25, x22
	add	x3, x24, x21
	sub	x4, x23, x21
	bl	"utf16_transcode::transcoding::transcode_many::<#556930da7d070edc>"
	ldp	x9, x10, [x29, #-24]
	ldurb	w8, [x29, #-8]
	cmp	w8, #1
	add	x22, x9, x22
	add	x19, x10, x21
	b.ne	.LBB19_81
	sub	x9, x23, x19
	add	x8, x24, x19
	cmp	x9, #512
	b.lo	.LBB19_74
	sub	x8, x25, x22
	cmp	x8, #128
	b.lo	.LBB19_44
	add	x0, x26, x22
	sub	x1, x25, x22
	add	x2, x24, x19
	sub	x3, x23, x19
	bl	"utf16_transcode::ascii::write_lossy_ascii_blocks::<#418c2b53cf60437c>"
	cmp	x0, #127
	b.ls	.LBB19_44
	b	.LBB19_45
.LBB19_64:
	cmp	x11, #2
	b.lo	.LBB19_56
	lsr	x12, x11, #1
	sub	x13, x10, x6
	add	x12, x12, x12, lsl #1
	cmp	x13, x12
	b.lo	.LBB19_56
	ldr	x13, [sp, #16]
	add	x12, x5, x22
	add	x12, x13, x12
	b	.LBB19_69
.LBB19_67:
	strb	w13, [x9, x6]
	add	x6, x6, #1
.LBB19_68:
	sub	x11, x11, #2
	add	x12, x12, #2
	add	x5, x5, #2
	cmp	x11, #1
	b.ls	.LBB19_56
.LBB19_69:
	ldurb	w13, [x12, #-1]
	ldrb	w15, [x12]
	orr	w14, w13, w15, lsl #8
	cmp	w14, #127
	b.ls	.LBB19_67
	cmp	w15, #7
	b.hi	.LBB19_72
	lsr	w14, w14, #6
	orr	w14, w14, #0xc0
	and	w14, w14, #0xff
	bfi	w14, w13, #8, #6
	add	x13, x6, #2
	orr	w14, w14, #0x8000
	strh	w14, [x9, x6]
	mov	x6, x13
	b	.LBB19_68
.LBB19_72:
	and	w16, w15, #0xf8
	cmp	w16, #216
	b.eq	.LBB19_56
	lsr	w15, w15, #4
	mov	w16, #128
	mov	w17, #128
	bfxil	w16, w14, #6, #6
	bfxil	w17, w13, #0, #6
	add	x18, x9, x6
	orr	w14, w15, #0xe0
	add	x6, x6, #3
	strb	w14, [x18]
	strb	w16, [x18, #1]
	strb	w17, [x18, #2]
	b	.LBB19_68
.LBB19_74:
	cmp	x9, #3
	b.lo	.LBB19_80
	sub	x9, x8, x28
	ldurb	w0, [x29, #-7]
	cmp	x9, #2
	b.hi	.LBB19_77
	mov	w9, #49135
	mov	w10, #189
	strh	w9, [x8]
	strb	w10, [x8, #2]
	b	.LBB19_78
.LBB19_77:
	mov	w9, #189
	mov	w10, #49135
	strb	w9, [x8, #2]
	strh	w10, [x8]
.LBB19_78:
	mov	w1, #3
	b	.LBB19_45
.LBB19_79:
	mov	w8, wzr
	add	x19, x6, x21
	b	.LBB19_82
.LBB19_80:
	mov	w8, #3
.LBB19_81:
	mov	x25, x22
.LBB19_82:
	ldr	x13, [sp, #56]
	ldur	x22, [x29, #-48]
	ldr	x12, [sp, #32]
	add	x13, x25, x13
	add	x22, x19, x22
.LBB19_83:
	cmp	x12, x13
	sub	x10, x29, #32
	csel	x9, x12, x13, lo
	cmp	w8, #3
	add	x1, x10, x9
	sub	x23, x12, x9
	b.eq	.LBB19_41
	subs	x8, x13, x12
	ldr	x9, [sp, #40]
	sub	x0, x29, #24
	csel	x19, xzr, x8, lo
	mov	w8, #4
	mov	x2, x23
	sub	x9, x9, x19
	sub	x8, x8, x23
	mov	x24, x22
	cmp	x8, x9
	stur	wzr, [x29, #-24]
	sub	x20, x29, #24
	csel	x22, x8, x9, lo
	bl	memcpy
	ldr	x8, [sp, #48]
	add	x0, x20, x23
	mov	x2, x22
	add	x1, x8, x19
	bl	memcpy
	ldur	w8, [x29, #-24]
	add	x21, x22, x23
	sub	x0, x29, #24
	sub	x1, x29, #36
	mov	x2, x21
	sturb	wzr, [x29, #-22]
	stur	w8, [x29, #-36]
	mov	x22, x24
	sturh	wzr, [x29, #-24]
	bl	memcpy
	ldurb	w8, [x29, #-22]
	ldurh	w9, [x29, #-24]
	orr	w8, w9, w8, lsl #16
	orr	w8, w8, w21, lsl #24
	b	.LBB19_42
.Lfunc_end19:
	.size	"utf16_streams::lossy::LossyTranscoder::feed_to::<#418c2b53cf60437c>", .Lfunc_end19-"utf16_streams::lossy::LossyTranscoder::feed_to::<#418c2b53cf60437c>"
	.cfi_endproc

	.section	.rodata.cst16,"aM",@progbits,16
	.p2align	4, 0x0
.LCPI20_0:
	.byte	1
	.byte	2
	.byte	4
	.byte	8
	.byte	16
	.byte	32
	.byte	64
	.byte	128
	.byte	1
	.byte	2
	.byte	4
	.byte	8
	.byte	16
	.byte	32
	.byte	64
	.byte	128
.LCPI20_1:
	.byte	0
	.byte	1
	.byte	16
	.byte	2
	.byte	3
	.byte	18
	.byte	4
	.byte	5
	.byte	20
	.byte	6
	.byte	7
	.byte	22
	.byte	8
	.byte	9
	.byte	24
	.byte	10
.LCPI20_3:
	.hword	1
	.hword	2
	.hword	4
	.hword	8
	.hword	16
	.hword	32
	.hword	64
	.hword	128
	.section	.rodata.cst8,"aM",@progbits,8
	.p2align	3, 0x0
.LCPI20_2:
	.byte	3
	.byte	10
	.byte	4
	.byte	5
	.byte	12
	.byte	6
	.byte	7
	.byte	14
.LCPI20_4:
	.byte	1
	.byte	2
	.byte	4
	.byte	8
	.byte	16
	.byte	32
	.byte	64
	.byte	128
	.section	".text.utf16_to_utf8::vectors::write_vectors::<#418c2b53cf60437c>","ax",@progbits
	.p2align	2
	.type	"utf16_to_utf8::vectors::write_vectors::<#418c2b53cf60437c>",@function
"utf16_to_utf8::vectors::write_vectors::<#418c2b53cf60437c>":
	.cfi_startproc
	lsr	x9, x1, #1
	movi	v0.2d, #0000000000000000
	mov	x8, x1
	mov	x13, xzr
	adrp	x14, .LCPI20_4
	adrp	x12, .LCPI20_3
	add	x10, x9, x9, lsl #1
	adrp	x11, .Lstatic.8
	add	x11, x11, :lo12:.Lstatic.8
	add	x10, x10, #128
	cmp	x10, x3
	csel	x15, x10, x3, lo
	cmp	x1, #16
	b.lo	.LBB20_19
	cmp	x15, #32
	mov	x10, x13
	mov	x17, x13
	mov	x16, x8
	b.lo	.LBB20_20
	movi	v1.2d, #0000000000000000
	mov	x17, xzr
	mov	x10, xzr
	mov	x13, xzr
	mov	x16, x8
.LBB20_3:
	ldr	q0, [x0, x13]
	tbnz	w17, #0, .LBB20_6
	mvni	v2.8h, #248, lsl #8
	cmhi	v2.8h, v0.8h, v2.8h
	umaxv	h2, v2.8h
	fmov	w18, s2
	tbz	w18, #0, .LBB20_13
	movi	v2.8h, #248, lsl #8
	movi	v3.8h, #216, lsl #8
	and	v2.16b, v0.16b, v2.16b
	cmeq	v2.8h, v2.8h, v3.8h
	umaxv	h2, v2.8h
	fmov	w18, s2
	tbz	w18, #0, .LBB20_15
.LBB20_6:
	movi	v2.8b, #252
	shrn	v3.8b, v0.8h, #8
	ldr	d5, [x14, :lo12:.LCPI20_4]
	movi	v4.8b, #216
	and	v2.8b, v3.8b, v2.8b
	movi	v3.8b, #220
	cmeq	v4.8b, v2.8b, v4.8b
	cmeq	v2.8b, v2.8b, v3.8b
	and	v3.8b, v4.8b, v5.8b
	and	v2.8b, v2.8b, v5.8b
	addv	b3, v3.8b
	addv	b2, v2.8b
	fmov	w18, s3
	fmov	w3, s2
	ubfiz	x1, x18, #1, #7
	orr	x1, x1, x17
	cmp	x1, w3, uxtb
	b.ne	.LBB20_31
	movi	v2.8h, #40, lsl #8
	mvni	v3.8h, #248, lsl #8
	ext	v1.16b, v1.16b, v0.16b, #14
	add	v2.8h, v0.8h, v2.8h
	shl	v1.8h, v1.8h, #10
	umin	v2.8h, v0.8h, v2.8h
	cmhi	v2.8h, v2.8h, v3.8h
	umaxv	h2, v2.8h
	fmov	w17, s2
	tbz	w17, #0, .LBB20_9
	mvni	v2.8h, #120, lsl #8
	movi	v3.8h, #248, lsl #8
	mov	w17, #752
	movi	v4.8h, #36, lsl #8
	movi	v5.8h, #128, lsl #8
	adrp	x3, .Lstatic.9
	add	x3, x3, :lo12:.Lstatic.9
	movi	v6.8h, #216, lsl #8
	movi	v7.8h, #68, lsl #8
	uqsub	v2.8h, v2.8h, v0.8h
	movi	v16.2d, #0xff00ff00ff00ff
	mov	v17.16b, v0.16b
	and	v3.16b, v0.16b, v3.16b
	bic	v1.8h, #240, lsl #8
	add	v4.8h, v0.8h, v4.8h
	bic	v17.8h, #240, lsl #8
	add	v7.8h, v0.8h, v7.8h
	and	v2.16b, v2.16b, v5.16b
	cmeq	v3.8h, v3.8h, v6.8h
	dup	v6.8h, w17
	ushr	v4.8h, v4.8h, #2
	adrp	x17, .LCPI20_0
	uqsub	v16.8h, v16.8h, v0.8h
	add	v1.8h, v7.8h, v1.8h
	bif	v5.16b, v2.16b, v3.16b
	usra	v17.8h, v2.8h, #3
	uqsub	v4.8h, v4.8h, v6.8h
	orr	v17.8h, #32, lsl #8
	orr	v2.16b, v5.16b, v16.16b
	umax	v1.8h, v4.8h, v1.8h
	ldr	q4, [x17, :lo12:.LCPI20_0]
	cmlt	v2.16b, v2.16b, #0
	bif	v1.16b, v17.16b, v3.16b
	and	v2.16b, v2.16b, v4.16b
	shl	v4.8h, v0.8h, #8
	shl	v3.8h, v1.8h, #8
	addp	v2.16b, v2.16b, v2.16b
	usra	v4.8h, v0.8h, #12
	bic	v3.8h, #192, lsl #8
	addp	v2.16b, v2.16b, v2.16b
	orr	v4.8h, #224
	usra	v3.8h, v1.8h, #6
	addp	v1.16b, v2.16b, v2.16b
	orr	v3.8h, #128, lsl #8
	umov	w17, v1.h[0]
	zip1	v1.8h, v4.8h, v3.8h
	zip2	v3.8h, v4.8h, v3.8h
	and	x1, x17, #0xff
	ubfx	x17, x17, #8, #8
	ldr	q2, [x3, x1, lsl #4]
	fmov	d5, x17
	tbl	v1.16b, { v1.16b }, v2.16b
	fmov	d2, x1
	cnt	v4.8b, v5.8b
	cnt	v2.8b, v2.8b
	str	q1, [x2, x10]
	ldr	q1, [x3, x17, lsl #4]
	fmov	w1, s4
	tbl	v1.16b, { v3.16b }, v1.16b
	fmov	w17, s2
	sub	x10, x10, x17
	add	x17, x2, x10
	sub	x10, x10, x1
	add	x10, x10, #24
	stur	q1, [x17, #12]
	b	.LBB20_10
.LBB20_9:
	movi	v2.8h, #36, lsl #8
	movi	v3.8h, #68, lsl #8
	mov	w17, #752
	dup	v4.8h, w17
	bic	v1.8h, #240, lsl #8
	add	v2.8h, v0.8h, v2.8h
	add	v3.8h, v0.8h, v3.8h
	ushr	v2.8h, v2.8h, #2
	add	v1.8h, v3.8h, v1.8h
	uqsub	v2.8h, v2.8h, v4.8h
	movi	v4.8h, #48, lsl #8
	add	v3.8h, v0.8h, v4.8h
	umax	v1.8h, v2.8h, v1.8h
	cmlt	v2.8h, v0.8h, #0
	ldr	q4, [x12, :lo12:.LCPI20_3]
	bif	v1.16b, v3.16b, v2.16b
	movi	v2.8h, #128
	shl	v3.8h, v1.8h, #8
	cmhi	v2.8h, v2.8h, v0.8h
	bic	v3.8h, #192, lsl #8
	usra	v3.8h, v1.8h, #6
	and	v1.16b, v2.16b, v4.16b
	addv	h1, v1.8h
	orr	v3.8h, #128, lsl #8
	fmov	w17, s1
	mov	v1.16b, v2.16b
	saddlv	s2, v2.8h
	bsl	v1.16b, v0.16b, v3.16b
	and	x17, x17, #0xff
	ldr	q3, [x11, x17, lsl #4]
	fmov	w17, s2
	tbl	v1.16b, { v1.16b }, v3.16b
	neg	w17, w17
	sub	x17, x10, x17
	str	q1, [x2, x10]
	add	x10, x17, #16
.LBB20_10:
	ubfx	w17, w18, #7, #1
.LBB20_11:
	sub	x16, x16, #16
	add	x13, x13, #16
	cmp	x16, #16
	b.lo	.LBB20_20
	mov	v1.16b, v0.16b
	sub	x18, x15, x10
	cmp	x18, #31
	b.hi	.LBB20_3
	b	.LBB20_20
.LBB20_13:
	movi	v1.8h, #127
	cmhi	v1.8h, v0.8h, v1.8h
	umaxv	h1, v1.8h
	fmov	w17, s1
	tbz	w17, #0, .LBB20_17
	movi	v1.8h, #128
	shl	v2.8h, v0.8h, #8
	ldr	q3, [x12, :lo12:.LCPI20_3]
	mov	w18, #32960
	mov	x17, xzr
	dup	v4.8h, w18
	bic	v2.8h, #192, lsl #8
	cmhi	v1.8h, v1.8h, v0.8h
	usra	v2.8h, v0.8h, #6
	and	v3.16b, v1.16b, v3.16b
	add	v2.8h, v2.8h, v4.8h
	addv	h3, v3.8h
	bit	v2.16b, v0.16b, v1.16b
	saddlv	s1, v1.8h
	fmov	w18, s3
	and	x18, x18, #0xff
	ldr	q3, [x11, x18, lsl #4]
	fmov	w18, s1
	tbl	v2.16b, { v2.16b }, v3.16b
	neg	w18, w18
	sub	x18, x10, x18
	str	q2, [x2, x10]
	add	x10, x18, #16
	b	.LBB20_11
.LBB20_15:
	movi	v1.8h, #8, lsl #8
	cmhi	v1.8h, v1.8h, v0.8h
	umaxv	h1, v1.8h
	fmov	w17, s1
	tbz	w17, #0, .LBB20_18
	mvni	v1.8h, #120, lsl #8
	movi	v2.2d, #0xff00ff00ff00ff
	adrp	x18, .LCPI20_0
	movi	v3.8h, #128, lsl #8
	shl	v5.8h, v0.8h, #8
	adrp	x3, .Lstatic.9
	add	x3, x3, :lo12:.Lstatic.9
	movi	v4.8h, #63
	ushr	v6.8h, v0.8h, #6
	uqsub	v1.8h, v1.8h, v0.8h
	mov	x17, xzr
	uqsub	v2.8h, v2.8h, v0.8h
	and	v4.16b, v6.16b, v4.16b
	and	v1.16b, v1.16b, v3.16b
	ldr	q3, [x18, :lo12:.LCPI20_0]
	orr	v2.16b, v1.16b, v2.16b
	cmlt	v2.16b, v2.16b, #0
	and	v2.16b, v2.16b, v3.16b
	mov	v3.16b, v5.16b
	usra	v5.8h, v0.8h, #12
	bic	v3.8h, #192, lsl #8
	addp	v2.16b, v2.16b, v2.16b
	orr	v5.8h, #224
	orr	v3.16b, v3.16b, v4.16b
	addp	v2.16b, v2.16b, v2.16b
	movi	v4.16b, #128
	usra	v3.8h, v1.8h, #9
	addp	v1.16b, v2.16b, v2.16b
	umov	w18, v1.h[0]
	orr	v2.16b, v3.16b, v4.16b
	zip1	v1.8h, v5.8h, v2.8h
	zip2	v2.8h, v5.8h, v2.8h
	and	x1, x18, #0xff
	ubfx	x18, x18, #8, #8
	fmov	d4, x1
	ldr	q3, [x3, x1, lsl #4]
	tbl	v1.16b, { v1.16b }, v3.16b
	cnt	v3.8b, v4.8b
	fmov	d4, x18
	str	q1, [x2, x10]
	cnt	v4.8b, v4.8b
	ldr	q1, [x3, x18, lsl #4]
	fmov	w18, s3
	tbl	v1.16b, { v2.16b }, v1.16b
	fmov	w1, s4
	sub	x10, x10, x18
	add	x18, x2, x10
	stur	q1, [x18, #12]
	sub	x10, x10, x1
	add	x10, x10, #24
	b	.LBB20_11
.LBB20_17:
	sqxtun	v1.8b, v0.8h
	mov	x17, xzr
	str	d1, [x2, x10]
	add	x10, x10, #8
	b	.LBB20_11
.LBB20_18:
	movi	v1.8h, #63, lsl #8
	shl	v2.8h, v0.8h, #2
	mov	w18, #32992
	movi	v3.8h, #63
	mov	x17, xzr
	and	v1.16b, v2.16b, v1.16b
	dup	v2.8h, w18
	adrp	x18, .LCPI20_1
	usra	v1.8h, v0.8h, #12
	orr	v1.16b, v1.16b, v2.16b
	and	v2.16b, v0.16b, v3.16b
	ldr	q3, [x18, :lo12:.LCPI20_1]
	adrp	x18, .LCPI20_2
	ldr	d4, [x18, :lo12:.LCPI20_2]
	add	x18, x2, x10
	add	x10, x10, #24
	orr	v2.8h, #128
	tbl	v3.16b, { v1.16b, v2.16b }, v3.16b
	mov	v2.d[0], v1.d[1]
	tbl	v1.8b, { v2.16b }, v4.8b
	str	q3, [x18]
	str	d1, [x18, #16]
	b	.LBB20_11
.LBB20_19:
	mov	x10, x13
	mov	x17, x13
	mov	x16, x8
.LBB20_20:
	cmp	x8, x13
	b.eq	.LBB20_32
.LBB20_21:
	and	x18, x16, #0xfffffffffffffff1
	cbnz	x18, .LBB20_32
	sub	x15, x15, x10
	cmp	x15, #32
	b.lo	.LBB20_32
	cmp	x8, #15
	b.hi	.LBB20_25
	ldr	d1, [x0]
	sub	x15, x8, #8
	adrp	x16, .Lstatic.10
	add	x16, x16, :lo12:.Lstatic.10
	ldr	d2, [x0, x15]
	mov	v3.16b, v1.16b
	mov	v3.d[1], v2.d[0]
	ldr	q2, [x16, x15, lsl #4]
	tbl	v2.16b, { v3.16b }, v2.16b
	mov	v1.d[1], v2.d[0]
	b	.LBB20_26
.LBB20_25:
	add	x15, x0, x8
	ldur	q1, [x15, #-16]
	adrp	x15, .Lstatic.10
	add	x15, x15, :lo12:.Lstatic.10
	ldr	q2, [x15, x16, lsl #4]
	tbl	v1.16b, { v1.16b }, v2.16b
.LBB20_26:
	movi	v2.8b, #252
	shrn	v3.8b, v1.8h, #8
	ldr	d5, [x14, :lo12:.LCPI20_4]
	movi	v4.8b, #216
	and	v2.8b, v3.8b, v2.8b
	movi	v3.8b, #220
	cmeq	v4.8b, v2.8b, v4.8b
	cmeq	v2.8b, v2.8b, v3.8b
	and	v3.8b, v4.8b, v5.8b
	and	v2.8b, v2.8b, v5.8b
	addv	b3, v3.8b
	addv	b2, v2.8b
	fmov	w14, s3
	fmov	w15, s2
	ubfiz	x14, x14, #1, #7
	orr	x14, x14, x17
	cmp	x14, w15, uxtb
	b.ne	.LBB20_32
	mvni	v2.8h, #248, lsl #8
	cmhi	v2.8h, v1.8h, v2.8h
	umaxv	h2, v2.8h
	fmov	w13, s2
	tbz	w13, #0, .LBB20_33
	movi	v2.8h, #248, lsl #8
	movi	v3.8h, #216, lsl #8
	and	v2.16b, v1.16b, v2.16b
	cmeq	v3.8h, v2.8h, v3.8h
	umaxv	h3, v3.8h
	fmov	w13, s3
	tbz	w13, #0, .LBB20_35
	movi	v3.8h, #40, lsl #8
	mvni	v4.8h, #248, lsl #8
	ext	v0.16b, v0.16b, v1.16b, #14
	add	v3.8h, v1.8h, v3.8h
	umin	v3.8h, v1.8h, v3.8h
	cmhi	v3.8h, v3.8h, v4.8h
	umaxv	h3, v3.8h
	fmov	w13, s3
	tbz	w13, #0, .LBB20_38
	mvni	v3.8h, #120, lsl #8
	movi	v4.8h, #36, lsl #8
	mov	w11, #752
	movi	v5.8h, #216, lsl #8
	movi	v6.8h, #128, lsl #8
	adrp	x13, .Lstatic.9
	add	x13, x13, :lo12:.Lstatic.9
	movi	v7.8h, #68, lsl #8
	movi	v16.2d, #0xff00ff00ff00ff
	uqsub	v3.8h, v3.8h, v1.8h
	shl	v0.8h, v0.8h, #10
	dup	v17.8h, w11
	add	v4.8h, v1.8h, v4.8h
	adrp	x11, .LCPI20_0
	cmeq	v2.8h, v2.8h, v5.8h
	mov	v5.16b, v1.16b
	bic	v0.8h, #240, lsl #8
	add	v7.8h, v1.8h, v7.8h
	uqsub	v16.8h, v16.8h, v1.8h
	and	v3.16b, v3.16b, v6.16b
	ushr	v4.8h, v4.8h, #2
	bic	v5.8h, #240, lsl #8
	add	v0.8h, v7.8h, v0.8h
	bif	v6.16b, v3.16b, v2.16b
	uqsub	v4.8h, v4.8h, v17.8h
	usra	v5.8h, v3.8h, #3
	orr	v3.16b, v6.16b, v16.16b
	orr	v5.8h, #32, lsl #8
	umax	v0.8h, v4.8h, v0.8h
	ldr	q4, [x11, :lo12:.LCPI20_0]
	cmlt	v3.16b, v3.16b, #0
	bif	v0.16b, v5.16b, v2.16b
	and	v2.16b, v3.16b, v4.16b
	shl	v4.8h, v1.8h, #8
	shl	v3.8h, v0.8h, #8
	addp	v2.16b, v2.16b, v2.16b
	usra	v4.8h, v1.8h, #12
	bic	v3.8h, #192, lsl #8
	addp	v2.16b, v2.16b, v2.16b
	orr	v4.8h, #224
	usra	v3.8h, v0.8h, #6
	addp	v0.16b, v2.16b, v2.16b
	orr	v3.8h, #128, lsl #8
	umov	w11, v0.h[0]
	zip1	v0.8h, v4.8h, v3.8h
	zip2	v3.8h, v4.8h, v3.8h
	and	x12, x11, #0xff
	ubfx	x11, x11, #8, #8
	ldr	q1, [x13, x12, lsl #4]
	fmov	d2, x11
	tbl	v0.16b, { v0.16b }, v1.16b
	fmov	d1, x12
	cnt	v2.8b, v2.8b
	cnt	v1.8b, v1.8b
	str	q0, [x2, x10]
	ldr	q0, [x13, x11, lsl #4]
	tbl	v0.16b, { v3.16b }, v0.16b
	fmov	w12, s2
	fmov	w11, s1
	b	.LBB20_37
.LBB20_31:
	mov	v0.16b, v1.16b
	cmp	x8, x13
	b.ne	.LBB20_21
.LBB20_32:
	sub	x8, x13, #2
	sub	x9, x10, #2
	tst	w17, #0x1
	csel	x1, x9, x10, ne
	csel	x0, x8, x13, ne
	ret
.LBB20_33:
	movi	v0.8h, #127
	cmhi	v0.8h, v1.8h, v0.8h
	umaxv	h0, v0.8h
	fmov	w13, s0
	tbz	w13, #0, .LBB20_39
	movi	v0.8h, #128
	shl	v2.8h, v1.8h, #8
	ldr	q3, [x12, :lo12:.LCPI20_3]
	mov	w12, #32960
	dup	v4.8h, w12
	bic	v2.8h, #192, lsl #8
	cmhi	v0.8h, v0.8h, v1.8h
	usra	v2.8h, v1.8h, #6
	and	v3.16b, v0.16b, v3.16b
	add	v2.8h, v2.8h, v4.8h
	addv	h3, v3.8h
	bif	v1.16b, v2.16b, v0.16b
	saddlv	s0, v0.8h
	fmov	w12, s3
	and	x12, x12, #0xff
	ldr	q2, [x11, x12, lsl #4]
	fmov	w11, s0
	tbl	v1.16b, { v1.16b }, v2.16b
	neg	w11, w11
	sub	x11, x10, x11
	str	q1, [x2, x10]
	add	x10, x11, #16
	orr	x9, x9, #0xfffffffffffffff8
	mov	x0, x8
	add	x1, x10, x9
	ret
.LBB20_35:
	movi	v0.8h, #8, lsl #8
	cmhi	v0.8h, v0.8h, v1.8h
	umaxv	h0, v0.8h
	fmov	w11, s0
	tbz	w11, #0, .LBB20_40
	mvni	v0.8h, #120, lsl #8
	movi	v2.2d, #0xff00ff00ff00ff
	adrp	x11, .LCPI20_0
	movi	v3.8h, #128, lsl #8
	shl	v5.8h, v1.8h, #8
	adrp	x13, .Lstatic.9
	add	x13, x13, :lo12:.Lstatic.9
	movi	v4.8h, #63
	ushr	v6.8h, v1.8h, #6
	uqsub	v0.8h, v0.8h, v1.8h
	uqsub	v2.8h, v2.8h, v1.8h
	and	v4.16b, v6.16b, v4.16b
	and	v0.16b, v0.16b, v3.16b
	ldr	q3, [x11, :lo12:.LCPI20_0]
	orr	v2.16b, v0.16b, v2.16b
	cmlt	v2.16b, v2.16b, #0
	and	v2.16b, v2.16b, v3.16b
	mov	v3.16b, v5.16b
	usra	v5.8h, v1.8h, #12
	bic	v3.8h, #192, lsl #8
	addp	v2.16b, v2.16b, v2.16b
	orr	v5.8h, #224
	orr	v3.16b, v3.16b, v4.16b
	addp	v2.16b, v2.16b, v2.16b
	movi	v4.16b, #128
	usra	v3.8h, v0.8h, #9
	addp	v0.16b, v2.16b, v2.16b
	orr	v1.16b, v3.16b, v4.16b
	umov	w11, v0.h[0]
	zip1	v0.8h, v5.8h, v1.8h
	zip2	v1.8h, v5.8h, v1.8h
	and	x12, x11, #0xff
	ubfx	x11, x11, #8, #8
	ldr	q2, [x13, x12, lsl #4]
	fmov	d3, x11
	tbl	v0.16b, { v0.16b }, v2.16b
	fmov	d2, x12
	cnt	v3.8b, v3.8b
	cnt	v2.8b, v2.8b
	str	q0, [x2, x10]
	ldr	q0, [x13, x11, lsl #4]
	tbl	v0.16b, { v1.16b }, v0.16b
	fmov	w12, s3
	fmov	w11, s2
.LBB20_37:
	sub	x10, x10, x11
	add	x11, x2, x10
	sub	x10, x10, x12
	stur	q0, [x11, #12]
	add	x10, x10, #24
	orr	x9, x9, #0xfffffffffffffff8
	mov	x0, x8
	add	x1, x10, x9
	ret
.LBB20_38:
	movi	v2.8h, #36, lsl #8
	movi	v3.8h, #68, lsl #8
	mov	w13, #752
	shl	v0.8h, v0.8h, #10
	dup	v4.8h, w13
	add	v2.8h, v1.8h, v2.8h
	bic	v0.8h, #240, lsl #8
	add	v3.8h, v1.8h, v3.8h
	ushr	v2.8h, v2.8h, #2
	add	v0.8h, v3.8h, v0.8h
	uqsub	v2.8h, v2.8h, v4.8h
	movi	v4.8h, #48, lsl #8
	add	v3.8h, v1.8h, v4.8h
	umax	v0.8h, v2.8h, v0.8h
	cmlt	v2.8h, v1.8h, #0
	ldr	q4, [x12, :lo12:.LCPI20_3]
	bif	v0.16b, v3.16b, v2.16b
	movi	v2.8h, #128
	shl	v3.8h, v0.8h, #8
	cmhi	v2.8h, v2.8h, v1.8h
	bic	v3.8h, #192, lsl #8
	usra	v3.8h, v0.8h, #6
	and	v0.16b, v2.16b, v4.16b
	addv	h0, v0.8h
	orr	v3.8h, #128, lsl #8
	fmov	w12, s0
	mov	v0.16b, v2.16b
	bsl	v0.16b, v1.16b, v3.16b
	saddlv	s1, v2.8h
	and	x12, x12, #0xff
	ldr	q2, [x11, x12, lsl #4]
	fmov	w11, s1
	tbl	v0.16b, { v0.16b }, v2.16b
	neg	w11, w11
	str	q0, [x2, x10]
	sub	x11, x10, x11
	add	x10, x11, #16
	orr	x9, x9, #0xfffffffffffffff8
	mov	x0, x8
	add	x1, x10, x9
	ret
.LBB20_39:
	sqxtun	v0.8b, v1.8h
	str	d0, [x2, x10]
	add	x10, x10, #8
	orr	x9, x9, #0xfffffffffffffff8
	mov	x0, x8
	add	x1, x10, x9
	ret
.LBB20_40:
	movi	v0.8h, #63, lsl #8
	shl	v2.8h, v1.8h, #2
	mov	w11, #32992
	movi	v3.8h, #63
	and	v0.16b, v2.16b, v0.16b
	dup	v2.8h, w11
	adrp	x11, .LCPI20_1
	usra	v0.8h, v1.8h, #12
	orr	v4.16b, v0.16b, v2.16b
	ldr	q0, [x11, :lo12:.LCPI20_1]
	adrp	x11, .LCPI20_2
	and	v5.16b, v1.16b, v3.16b
	ldr	d1, [x11, :lo12:.LCPI20_2]
	add	x11, x2, x10
	orr	v5.8h, #128
	tbl	v0.16b, { v4.16b, v5.16b }, v0.16b
	mov	v5.d[0], v4.d[1]
	tbl	v1.8b, { v5.16b }, v1.8b
	str	q0, [x11]
	str	d1, [x11, #16]
	add	x10, x10, #24
	orr	x9, x9, #0xfffffffffffffff8
	mov	x0, x8
	add	x1, x10, x9
	ret
.Lfunc_end20:
	.size	"utf16_to_utf8::vectors::write_vectors::<#418c2b53cf60437c>", .Lfunc_end20-"utf16_to_utf8::vectors::write_vectors::<#418c2b53cf60437c>"
	.cfi_endproc

	.section	".text.utf16_transcode::transcoding::transcode_many::<#556930da7d070edc>","ax",@progbits
	.p2align	2
	.type	"utf16_transcode::transcoding::transcode_many::<#556930da7d070edc>",@function
"utf16_transcode::transcoding::transcode_many::<#556930da7d070edc>":
	.cfi_startproc
	sub	sp, sp, #464
	.cfi_def_cfa_offset 464
	stp	x29, x30, [sp, #368]
	stp	x28, x27, [sp, #384]
	stp	x26, x25, [sp, #400]
	stp	x24, x23, [sp, #416]
	stp	x22, x21, [sp, #432]
	stp	x20, x19, [sp, #448]
	add	x29, sp, #368
	.cfi_def_cfa w29, 96
	.cfi_offset w19, -8
	.cfi_offset w20, -16
	.cfi_offset w21, -24
	.cfi_offset w22, -32
	.cfi_offset w23, -40
	.cfi_offset w24, -48
	.cfi_offset w25, -56
	.cfi_offset w26, -64
	.cfi_offset w27, -72
	.cfi_offset w28, -80
	.cfi_offset w30, -88
	.cfi_offset w29, -96
	sub	x8, x2, x5
	mov	x20, x6
	mov	x25, x5
	cmp	x8, #2
	b.hs	.LBB21_2
.LBB21_1:
	mov	w8, wzr
	mov	w9, #2
	b	.LBB21_5
.LBB21_2:
	add	x9, x1, x25
	mov	x28, x4
	mov	x21, x2
	ldrb	w10, [x9, #1]
	mov	x23, x3
	mov	x24, x1
	and	w11, w10, #0xf8
	cmp	w11, #216
	b.ne	.LBB21_8
	mov	w11, #220
	bics	wzr, w11, w10
	b.ne	.LBB21_6
.LBB21_4:
	mov	w8, #2
	mov	w9, #1
.LBB21_5:
	stp	x25, x20, [x0]
	strb	w9, [x0, #16]
	strb	w8, [x0, #17]
	b	.LBB21_92
.LBB21_6:
	cmp	x8, #4
	b.lo	.LBB21_1
	ldrb	w8, [x9, #3]
	and	w8, w8, #0xfc
	cmp	w8, #220
	b.ne	.LBB21_4
.LBB21_8:
	cmp	x21, x25
	str	x0, [sp, #24]
	b.ls	.LBB21_88
	neg	x8, x28
	str	x8, [sp, #16]
	b	.LBB21_12
.LBB21_10:
	strb	w0, [x23, x20]
	add	x20, x20, #1
.LBB21_11:
	add	x25, x8, x22
	cmp	x25, x21
	b.hs	.LBB21_88
.LBB21_12:
	sub	x26, x21, x25
	add	x27, x24, x25
	cmp	x26, #66
	b.lo	.LBB21_18
	lsr	x8, x26, #1
	movi	v0.2d, #0000000000000000
	sub	x22, x28, x20
	add	x0, sp, #32
	add	x1, x24, x25
	sub	x2, x21, x25
	add	x8, x8, x8, lsl #1
	add	x3, x23, x20
	mov	x19, x28
	str	xzr, [sp, #64]
	add	x28, x23, x20
	add	x8, x8, #128
	stp	q0, q0, [sp, #32]
	cmp	x8, x22
	csel	x4, x8, x22, lo
	bl	"utf16_to_utf8::runs::write_paired::<#418c2b53cf60437c>"
	ldp	x9, x10, [sp, #32]
	ldrb	w8, [sp, #64]
	tst	w8, #0x1
	sub	x11, x9, #2
	sub	x8, x10, #2
	csel	x11, x11, x9, ne
	csel	x8, x8, x10, ne
	sub	x9, x26, x11
	sub	x10, x22, x8
	lsr	x9, x9, #1
	cmp	x10, x9
	csel	x10, x10, x9, lo
	lsl	x12, x10, #1
	cmp	x10, #8
	b.lo	.LBB21_19
	mov	x13, x12
	mov	x22, x11
	mov	x9, x8
.LBB21_15:
	movi	v1.8h, #127
	ldr	q0, [x27, x22]
	cmhi	v1.8h, v0.8h, v1.8h
	umaxv	h1, v1.8h
	fmov	w14, s1
	tbnz	w14, #0, .LBB21_23
	sqxtun	v0.8b, v0.8h
	sub	x13, x13, #16
	add	x22, x22, #16
	cmp	x13, #15
	str	d0, [x28, x9]
	add	x9, x9, #8
	b.hi	.LBB21_15
	add	x11, x12, x11
	cmp	x11, #16
	b.hs	.LBB21_20
	b	.LBB21_23
.LBB21_18:
	mov	x22, xzr
	subs	x1, x26, xzr
	b.ne	.LBB21_24
	b	.LBB21_27
.LBB21_19:
	mov	x9, x8
	mov	x22, x11
	add	x11, x12, x11
	cmp	x11, #16
	b.lo	.LBB21_23
.LBB21_20:
	cmp	x11, x22
	b.ls	.LBB21_23
	movi	v1.8h, #127
	add	x12, x27, x11
	ldur	q0, [x12, #-16]
	cmhi	v1.8h, v0.8h, v1.8h
	umaxv	h1, v1.8h
	fmov	w12, s1
	tbnz	w12, #0, .LBB21_23
	sqxtun	v0.8b, v0.8h
	add	x9, x10, x8
	mov	x22, x11
	add	x8, x28, x9
	stur	d0, [x8, #-8]
.LBB21_23:
	add	x20, x9, x20
	mov	x28, x19
	subs	x1, x26, x22
	b.eq	.LBB21_27
.LBB21_24:
	cmp	x1, #7
	add	x0, x27, x22
	b.hi	.LBB21_40
.LBB21_25:
	mov	x2, x23
	mov	x3, x28
	mov	x4, x20
	bl	"utf16_transcode::transcoding::write_chars::<#556930da7d070edc>"
	mov	x27, x0
	mov	x20, x1
.LBB21_26:
	add	x26, x27, x22
.LBB21_27:
	add	x22, x26, x25
	subs	x10, x21, x22
	b.eq	.LBB21_87
	cmp	x10, #2
	b.lo	.LBB21_86
	add	x8, x24, x22
	ldrb	w9, [x8, #1]
	and	w11, w9, #0xf8
	cmp	w11, #216
	b.ne	.LBB21_33
	mov	w11, #220
	bics	wzr, w11, w9
	b.eq	.LBB21_89
	cmp	x10, #4
	b.lo	.LBB21_86
	ldrb	w10, [x8, #3]
	and	w10, w10, #0xfc
	cmp	w10, #220
	b.ne	.LBB21_89
.LBB21_33:
	ldrb	w10, [x8]
	and	w11, w9, #0xfc
	cmp	w11, #216
	orr	w0, w10, w9, lsl #8
	b.ne	.LBB21_35
	ldrh	w1, [x8, #2]
	bl	"utf16_units::unit::decode_surrogates"
	mov	w8, #4
	b	.LBB21_36
.LBB21_35:
	mov	w8, #2
.LBB21_36:
	cmp	w0, #16, lsl #12
	mov	w9, #3
	mov	w11, #2
	cinc	x10, x9, hs
	cmp	w0, #2048
	csel	x10, x11, x10, lo
	cmp	w0, #128
	sub	x11, x28, x20
	csinc	x10, x10, xzr, hs
	cmp	x11, x10
	b.lo	.LBB21_90
	cmp	w0, #127
	b.ls	.LBB21_10
	mov	w9, #-128
	cmp	w0, #2047
	bfxil	w9, w0, #0, #6
	b.hi	.LBB21_48
	lsr	w10, w0, #6
	add	x11, x20, #2
	orr	w10, w10, #0xc0
	bfi	w10, w9, #8, #24
	strh	w10, [x23, x20]
	mov	x20, x11
	b	.LBB21_11
.LBB21_40:
	cmp	x1, #128
	mov	w8, #128
	sub	x26, x28, x20
	csel	x8, x1, x8, lo
	subs	x9, x26, #128
	mov	x10, #-6148914691236517206
	csel	x9, xzr, x9, lo
	movk	x10, #43691
	umulh	x9, x9, x10
	and	x9, x9, #0xfffffffffffffffe
	cmp	x8, x9
	b.ls	.LBB21_50
	cmp	x26, #23
	b.ls	.LBB21_25
	movi	v0.2d, #0000000000000000
	cmp	x1, #65
	str	wzr, [sp, #304]
	stp	q0, q0, [sp, #48]
	stp	q0, q0, [sp, #80]
	stp	q0, q0, [sp, #112]
	stp	q0, q0, [sp, #144]
	stp	q0, q0, [sp, #176]
	stp	q0, q0, [sp, #208]
	stp	q0, q0, [sp, #240]
	stp	q0, q0, [sp, #272]
	str	q0, [sp, #32]
	b.hi	.LBB21_53
	cmp	x1, #64
	mov	w8, #64
	mov	x19, x24
	csel	x1, x1, x8, lo
	mov	x24, x23
	mov	x23, x28
	mov	x28, x0
	bl	"utf16_transcode::decode::valid_up_to::<#418c2b53cf60437c>"
	mov	x27, x0
	add	x2, sp, #32
	mov	x0, x28
	mov	x1, x27
	bl	"utf16_to_utf8::write::write_utf8::<#418c2b53cf60437c>"
	cmp	x0, x26
	b.ls	.LBB21_63
	mov	x28, x23
	mov	x23, x24
	mov	x24, x19
.LBB21_45:
	add	x8, sp, #32
	ldrsb	w8, [x8, x26]
	cmn	w8, #65
	b.gt	.LBB21_47
	subs	x26, x26, #1
	b.ne	.LBB21_45
.LBB21_47:
	add	x0, sp, #32
	mov	x1, x26
	bl	"utf16_units::size::utf16_len"
	mov	x27, x0
	b	.LBB21_64
.LBB21_48:
	lsr	w10, w0, #16
	cbnz	w10, .LBB21_52
	lsr	w10, w0, #12
	mov	w11, #128
	add	x12, x23, x20
	bfxil	w11, w0, #6, #6
	add	x20, x20, #3
	strb	w9, [x12, #2]
	orr	w10, w10, #0xe0
	strb	w10, [x12]
	strb	w11, [x12, #1]
	b	.LBB21_11
.LBB21_50:
	mov	x1, x8
	mov	x26, x0
	bl	"utf16_transcode::decode::valid_up_to::<#418c2b53cf60437c>"
	mov	x27, x0
	cbz	x0, .LBB21_26
	add	x2, x23, x20
	mov	x0, x26
	mov	x1, x27
	bl	"utf16_to_utf8::write::write_utf8::<#418c2b53cf60437c>"
	add	x20, x0, x20
	b	.LBB21_26
.LBB21_52:
	lsl	w10, w0, #10
	mov	w11, #32768
	movk	w11, #128, lsl #16
	and	w10, w10, #0x3f0000
	orr	w9, w10, w9, lsl #24
	lsr	w10, w0, #18
	bfxil	w9, w0, #4, #14
	add	w10, w10, #240
	bfxil	w9, w10, #0, #8
	add	x10, x20, #4
	orr	w9, w9, w11
	str	w9, [x23, x20]
	mov	x20, x10
	b	.LBB21_11
.LBB21_53:
	ldrb	w8, [x0, #1]
	and	w9, w8, #0xf8
	cmp	w9, #216
	b.ne	.LBB21_56
	mov	w9, #220
	bics	wzr, w9, w8
	b.eq	.LBB21_25
	ldrb	w9, [x0, #3]
	and	w9, w9, #0xfc
	cmp	w9, #220
	b.ne	.LBB21_25
.LBB21_56:
	and	w8, w8, #0xfc
	mov	w9, #4
	cmp	w8, #216
	mov	w8, #2
	csel	x8, x9, x8, eq
	add	x8, x0, x8
	ldrb	w9, [x8, #1]
	and	w10, w9, #0xf8
	cmp	w10, #216
	b.ne	.LBB21_59
	mov	w10, #220
	bics	wzr, w10, w9
	b.eq	.LBB21_25
	ldrb	w8, [x8, #3]
	and	w8, w8, #0xfc
	cmp	w8, #220
	b.ne	.LBB21_25
.LBB21_59:
	cmp	x26, #65
	mov	w8, #130
	mov	w9, #66
	csel	x8, x9, x8, lo
	mov	w9, #148
	add	x3, sp, #32
	cmp	x8, x1
	stur	xzr, [x29, #-16]
	csel	x27, x8, x1, lo
	mov	x1, x0
	sub	x0, x29, #48
	lsr	x8, x27, #1
	mov	x2, x27
	stp	q0, q0, [x29, #-48]
	stp	x28, x1, [sp]
	add	x8, x8, x8, lsl #1
	cmp	x8, #148
	csel	x8, x8, x9, lo
	add	x4, x8, #128
	bl	"utf16_to_utf8::runs::write_paired::<#418c2b53cf60437c>"
	ldp	x9, x11, [x29, #-48]
	ldurb	w8, [x29, #-16]
	tst	w8, #0x1
	sub	x10, x9, #2
	sub	x8, x11, #2
	csel	x10, x10, x9, ne
	csel	x8, x8, x11, ne
	mov	w11, #276
	sub	x9, x27, x10
	sub	x11, x11, x8
	lsr	x9, x9, #1
	cmp	x11, x9
	csel	x9, x11, x9, lo
	lsl	x11, x9, #1
	cmp	x9, #8
	b.lo	.LBB21_65
	ldr	x12, [sp, #8]
	mov	x13, x11
	mov	x27, x10
	mov	x28, x8
.LBB21_61:
	movi	v1.8h, #127
	ldr	q0, [x12, x27]
	cmhi	v1.8h, v0.8h, v1.8h
	umaxv	h1, v1.8h
	fmov	w14, s1
	tbnz	w14, #0, .LBB21_70
	sqxtun	v0.8b, v0.8h
	sub	x13, x13, #16
	add	x14, sp, #32
	cmp	x13, #15
	add	x27, x27, #16
	str	d0, [x14, x28]
	add	x28, x28, #8
	b.hi	.LBB21_61
	b	.LBB21_66
.LBB21_63:
	mov	x26, x0
	mov	x28, x23
	mov	x23, x24
	mov	x24, x19
.LBB21_64:
	add	x0, x23, x20
	add	x1, sp, #32
	mov	x2, x26
	bl	memcpy
	add	x20, x26, x20
	b	.LBB21_26
.LBB21_65:
	ldr	x12, [sp, #8]
	mov	x28, x8
	mov	x27, x10
.LBB21_66:
	add	x10, x11, x10
	cmp	x10, #16
	b.lo	.LBB21_70
	cmp	x10, x27
	b.ls	.LBB21_70
	movi	v1.8h, #127
	add	x11, x12, x10
	ldur	q0, [x11, #-16]
	cmhi	v1.8h, v0.8h, v1.8h
	umaxv	h1, v1.8h
	fmov	w11, s1
	tbnz	w11, #0, .LBB21_70
	sqxtun	v0.8b, v0.8h
	add	x28, x9, x8
	add	x8, sp, #32
	add	x8, x8, x28
	mov	x27, x10
	stur	d0, [x8, #-8]
.LBB21_70:
	cmp	x28, x26
	b.ls	.LBB21_74
.LBB21_71:
	add	x8, sp, #32
	ldrsb	w8, [x8, x26]
	cmn	w8, #65
	b.gt	.LBB21_73
	subs	x26, x26, #1
	b.ne	.LBB21_71
.LBB21_73:
	add	x0, sp, #32
	mov	x1, x26
	bl	"utf16_units::size::utf16_len"
	mov	x27, x0
	mov	x28, x26
.LBB21_74:
	add	x0, x23, x20
	add	x1, sp, #32
	mov	x2, x28
	add	x19, x28, x20
	bl	memcpy
	cbz	x27, .LBB21_76
	ldr	x28, [sp]
	mov	x20, x19
	b	.LBB21_26
.LBB21_76:
	ldr	x26, [sp, #8]
	mov	w1, #64
	mov	x0, x26
	bl	"utf16_transcode::decode::valid_up_to::<#418c2b53cf60437c>"
	mov	x27, x0
	add	x2, sp, #32
	mov	x0, x26
	mov	x1, x27
	bl	"utf16_to_utf8::write::write_utf8::<#418c2b53cf60437c>"
	ldr	x8, [sp]
	sub	x26, x8, x19
	cmp	x0, x26
	b.ls	.LBB21_82
	cbz	x26, .LBB21_83
	ldr	x8, [sp, #16]
	add	x8, x8, x28
	ldr	x28, [sp]
	add	x8, x8, x20
.LBB21_79:
	add	x9, sp, #32
	ldrsb	w9, [x9, x26]
	cmn	w9, #65
	b.gt	.LBB21_84
	adds	x8, x8, #1
	sub	x26, x26, #1
	b.lo	.LBB21_79
	mov	x26, xzr
	b	.LBB21_84
.LBB21_82:
	ldr	x28, [sp]
	mov	x26, x0
	b	.LBB21_85
.LBB21_83:
	ldr	x28, [sp]
.LBB21_84:
	add	x0, sp, #32
	mov	x1, x26
	bl	"utf16_units::size::utf16_len"
	mov	x27, x0
.LBB21_85:
	add	x0, x23, x19
	add	x1, sp, #32
	mov	x2, x26
	bl	memcpy
	add	x20, x26, x19
	b	.LBB21_26
.LBB21_86:
	mov	w8, wzr
	mov	w9, #2
	b	.LBB21_91
.LBB21_87:
	mov	x25, x21
.LBB21_88:
	ldr	x8, [sp, #24]
	stp	x25, x20, [x8]
	strh	wzr, [x8, #16]
	b	.LBB21_92
.LBB21_89:
	mov	w8, #2
	mov	w9, #1
	b	.LBB21_91
.LBB21_90:
	mov	w8, wzr
.LBB21_91:
	ldr	x10, [sp, #24]
	stp	x22, x20, [x10]
	strb	w9, [x10, #16]
	strb	w8, [x10, #17]
.LBB21_92:
	.cfi_def_cfa wsp, 464
	ldp	x20, x19, [sp, #448]
	ldp	x22, x21, [sp, #432]
	ldp	x24, x23, [sp, #416]
	ldp	x26, x25, [sp, #400]
	ldp	x28, x27, [sp, #384]
	ldp	x29, x30, [sp, #368]
	add	sp, sp, #464
	.cfi_def_cfa_offset 0
	.cfi_restore w19
	.cfi_restore w20
	.cfi_restore w21
	.cfi_restore w22
	.cfi_restore w23
	.cfi_restore w24
	.cfi_restore w25
	.cfi_restore w26
	.cfi_restore w27
	.cfi_restore w28
	.cfi_restore w30
	.cfi_restore w29
	ret
.Lfunc_end21:
	.size	"utf16_transcode::transcoding::transcode_many::<#556930da7d070edc>", .Lfunc_end21-"utf16_transcode::transcoding::transcode_many::<#556930da7d070edc>"
	.cfi_endproc

	.section	.rodata.cst16,"aM",@progbits,16
	.p2align	4, 0x0
.LCPI22_0:
	.byte	1
	.byte	2
	.byte	4
	.byte	8
	.byte	16
	.byte	32
	.byte	64
	.byte	128
	.byte	1
	.byte	2
	.byte	4
	.byte	8
	.byte	16
	.byte	32
	.byte	64
	.byte	128
.LCPI22_1:
	.byte	0
	.byte	1
	.byte	16
	.byte	2
	.byte	3
	.byte	18
	.byte	4
	.byte	5
	.byte	20
	.byte	6
	.byte	7
	.byte	22
	.byte	8
	.byte	9
	.byte	24
	.byte	10
	.section	.rodata.cst8,"aM",@progbits,8
	.p2align	3, 0x0
.LCPI22_2:
	.byte	3
	.byte	10
	.byte	4
	.byte	5
	.byte	12
	.byte	6
	.byte	7
	.byte	14
	.section	".text.utf16_to_utf8::runs::write_paired::<#418c2b53cf60437c>","ax",@progbits
	.p2align	2
	.type	"utf16_to_utf8::runs::write_paired::<#418c2b53cf60437c>",@function
"utf16_to_utf8::runs::write_paired::<#418c2b53cf60437c>":
	.cfi_startproc
	sub	sp, sp, #160
	.cfi_def_cfa_offset 160
	stp	x29, x30, [sp, #64]
	stp	x28, x27, [sp, #80]
	stp	x26, x25, [sp, #96]
	stp	x24, x23, [sp, #112]
	stp	x22, x21, [sp, #128]
	stp	x20, x19, [sp, #144]
	add	x29, sp, #64
	.cfi_def_cfa w29, 96
	.cfi_offset w19, -8
	.cfi_offset w20, -16
	.cfi_offset w21, -24
	.cfi_offset w22, -32
	.cfi_offset w23, -40
	.cfi_offset w24, -48
	.cfi_offset w25, -56
	.cfi_offset w26, -64
	.cfi_offset w27, -72
	.cfi_offset w28, -80
	.cfi_offset w30, -88
	.cfi_offset w29, -96
	.cfi_remember_state
	subs	x22, x2, #64
	mov	x19, x0
	b.lo	.LBB22_54
	subs	x23, x4, #128
	b.lo	.LBB22_54
	movi	v0.2d, #0000000000000000
	mov	x21, x1
	mov	x20, x3
	mov	w27, wzr
	mov	x1, xzr
	mov	x25, xzr
	add	x24, x21, #64
	b	.LBB22_5
.LBB22_3:
	mov	v1.16b, v0.16b
	mov	v2.16b, v28.16b
	mov	x0, x20
	mov	v3.16b, v27.16b
	mov	w2, #5
	stur	q25, [x29, #-16]
	stp	q27, q26, [sp, #16]
	str	q28, [sp]
	bl	"utf16_to_utf8::blocks::write_group"
	ldp	q0, q1, [sp]
	mov	x1, x0
	ldr	q2, [sp, #32]
	ldur	q3, [x29, #-16]
	mov	x0, x20
	mov	w2, #5
	bl	"utf16_to_utf8::blocks::write_group"
	ldur	q0, [x29, #-16]
	mov	x1, x0
	lsr	w27, w28, #31
	add	x25, x25, #64
.LBB22_4:
	cmp	x25, x22
	b.hi	.LBB22_53
.LBB22_5:
	adrp	x28, .LCPI22_0
	adrp	x26, .Lstatic.8
	add	x26, x26, :lo12:.Lstatic.8
	tbnz	w27, #0, .LBB22_40
	cmp	x23, x1
	b.lo	.LBB22_40
	add	x8, x21, x25
	ldp	q20, q22, [x8, #32]
	ldp	q23, q21, [x8]
	orr	v1.16b, v21.16b, v22.16b
	orr	v2.16b, v23.16b, v20.16b
	bic	v1.8h, #127
	bic	v2.8h, #127
	orr	v1.16b, v2.16b, v1.16b
	ext	v2.16b, v1.16b, v1.16b, #8
	orr	v1.8b, v1.8b, v2.8b
	fmov	x8, d1
	lsr	x9, x8, #32
	orr	w8, w8, w9
	orr	w8, w8, w8, lsr #16
	tst	w8, #0xffff
	b.ne	.LBB22_11
.LBB22_8:
	sqxtun	v1.8b, v23.8h
	sqxtun	v2.8b, v20.8h
	add	x8, x25, #64
	mov	v0.16b, v22.16b
	add	x9, x20, x1
	cmp	x8, x22
	add	x1, x1, #32
	sqxtun2	v1.16b, v21.8h
	sqxtun2	v2.16b, v22.8h
	stp	q1, q2, [x9]
	b.hi	.LBB22_52
	cmp	x23, x1
	b.lo	.LBB22_52
	add	x8, x24, x25
	add	x25, x25, #64
	ldp	q20, q22, [x8, #32]
	ldp	q23, q21, [x8]
	orr	v1.16b, v21.16b, v22.16b
	orr	v2.16b, v23.16b, v20.16b
	bic	v1.8h, #127
	bic	v2.8h, #127
	orr	v1.16b, v2.16b, v1.16b
	ext	v2.16b, v1.16b, v1.16b, #8
	orr	v1.8b, v1.8b, v2.8b
	fmov	x8, d1
	lsr	x9, x8, #32
	orr	w8, w8, w9
	orr	w8, w8, w8, lsr #16
	tst	w8, #0xffff
	b.eq	.LBB22_8
.LBB22_11:
	orr	v1.16b, v23.16b, v20.16b
	orr	v2.16b, v21.16b, v22.16b
	movi	v3.8h, #248, lsl #8
	orr	v1.16b, v1.16b, v2.16b
	and	v1.16b, v1.16b, v3.16b
	ext	v2.16b, v1.16b, v1.16b, #8
	orr	v1.8b, v1.8b, v2.8b
	fmov	x8, d1
	lsr	x9, x8, #32
	orr	w8, w8, w9
	orr	w8, w8, w8, lsr #16
	tst	w8, #0xffff
	b.eq	.LBB22_22
	movi	v4.8h, #40, lsl #8
	add	v1.8h, v21.8h, v4.8h
	add	v2.8h, v20.8h, v4.8h
	add	v3.8h, v23.8h, v4.8h
	add	v4.8h, v22.8h, v4.8h
	umin	v5.8h, v21.8h, v1.8h
	umin	v7.8h, v23.8h, v3.8h
	umin	v16.8h, v20.8h, v2.8h
	umin	v6.8h, v22.8h, v4.8h
	umin	v7.8h, v7.8h, v16.8h
	umin	v6.8h, v5.8h, v6.8h
	movi	v5.8h, #8, lsl #8
	umin	v6.8h, v7.8h, v6.8h
	cmhi	v6.8h, v5.8h, v6.8h
	umaxv	h6, v6.8h
	fmov	w8, s6
	tbz	w8, #0, .LBB22_23
	umin	v2.8h, v3.8h, v2.8h
	umin	v1.8h, v1.8h, v4.8h
	umin	v1.8h, v2.8h, v1.8h
	cmhi	v1.8h, v5.8h, v1.8h
	umaxv	h1, v1.8h
	fmov	w8, s1
	tbnz	w8, #0, .LBB22_40
	mov	v1.16b, v0.16b
	mov	v2.16b, v23.16b
	mov	x0, x20
	mov	v3.16b, v21.16b
	mov	w2, #4
	stur	q22, [x29, #-16]
	stp	q21, q20, [sp, #16]
	str	q23, [sp]
	bl	"utf16_to_utf8::blocks::write_group"
	ldp	q0, q1, [sp]
	mov	x1, x0
	ldr	q2, [sp, #32]
	ldur	q3, [x29, #-16]
	mov	x0, x20
	mov	w2, #4
	bl	"utf16_to_utf8::blocks::write_group"
	add	x8, x25, #64
	mov	x1, x0
	cmp	x8, x22
	b.hi	.LBB22_28
	cmp	x23, x1
	b.lo	.LBB22_28
	add	x9, x21, x8
	movi	v5.8h, #248, lsl #8
	ldp	q2, q1, [x9, #32]
	ldp	q17, q3, [x9]
	orr	v0.16b, v3.16b, v1.16b
	orr	v4.16b, v17.16b, v2.16b
	orr	v0.16b, v4.16b, v0.16b
	and	v0.16b, v0.16b, v5.16b
	ext	v4.16b, v0.16b, v0.16b, #8
	orr	v0.8b, v0.8b, v4.8b
	fmov	x9, d0
	ldur	q0, [x29, #-16]
	lsr	x10, x9, #32
	orr	w9, w9, w10
	orr	w9, w9, w9, lsr #16
	tst	w9, #0xffff
	b.eq	.LBB22_29
	add	x8, x25, #128
.LBB22_18:
	movi	v4.8h, #40, lsl #8
	mov	x25, x8
	add	v5.8h, v3.8h, v4.8h
	add	v6.8h, v1.8h, v4.8h
	add	v7.8h, v17.8h, v4.8h
	add	v4.8h, v2.8h, v4.8h
	umin	v5.8h, v5.8h, v6.8h
	movi	v6.8h, #8, lsl #8
	umin	v4.8h, v7.8h, v4.8h
	umin	v4.8h, v4.8h, v5.8h
	cmhi	v4.8h, v6.8h, v4.8h
	umaxv	h4, v4.8h
	fmov	w9, s4
	tbnz	w9, #0, .LBB22_38
	mvni	v6.8h, #120, lsl #8
	movi	v7.2d, #0xff00ff00ff00ff
	ldr	q5, [x28, :lo12:.LCPI22_0]
	movi	v16.8h, #128, lsl #8
	shl	v21.8h, v17.8h, #8
	adrp	x8, .Lstatic.9
	add	x8, x8, :lo12:.Lstatic.9
	ushr	v22.8h, v17.8h, #6
	ushr	v24.8h, v3.8h, #6
	uqsub	v0.8h, v6.8h, v17.8h
	uqsub	v19.8h, v6.8h, v3.8h
	cmp	x25, x22
	uqsub	v4.8h, v7.8h, v17.8h
	uqsub	v23.8h, v7.8h, v3.8h
	mov	v18.16b, v21.16b
	bic	v21.8h, #192, lsl #8
	uqsub	v26.8h, v7.8h, v2.8h
	uqsub	v7.8h, v7.8h, v1.8h
	and	v20.16b, v0.16b, v16.16b
	and	v19.16b, v19.16b, v16.16b
	usra	v18.8h, v17.8h, #12
	orr	v0.16b, v20.16b, v4.16b
	movi	v4.8h, #63
	orr	v18.8h, #224
	cmlt	v0.16b, v0.16b, #0
	and	v22.16b, v22.16b, v4.16b
	and	v0.16b, v0.16b, v5.16b
	orr	v21.16b, v21.16b, v22.16b
	orr	v22.16b, v19.16b, v23.16b
	addp	v0.16b, v0.16b, v0.16b
	cmlt	v17.16b, v22.16b, #0
	usra	v21.8h, v20.8h, #9
	addp	v23.16b, v0.16b, v0.16b
	movi	v0.16b, #128
	addp	v22.16b, v23.16b, v23.16b
	shl	v23.8h, v3.8h, #8
	orr	v20.16b, v21.16b, v0.16b
	and	v21.16b, v17.16b, v5.16b
	umov	w9, v22.h[0]
	mov	v17.16b, v23.16b
	bic	v23.8h, #192, lsl #8
	and	v22.16b, v24.16b, v4.16b
	uqsub	v24.8h, v6.8h, v2.8h
	zip1	v25.8h, v18.8h, v20.8h
	addp	v21.16b, v21.16b, v21.16b
	uqsub	v6.8h, v6.8h, v1.8h
	usra	v17.8h, v3.8h, #12
	zip2	v3.8h, v18.8h, v20.8h
	and	x10, x9, #0xff
	orr	v22.16b, v23.16b, v22.16b
	ubfx	x9, x9, #8, #8
	fmov	d27, x10
	ldr	q23, [x8, x10, lsl #4]
	addp	v21.16b, v21.16b, v21.16b
	and	v24.16b, v24.16b, v16.16b
	orr	v17.8h, #224
	tbl	v23.16b, { v25.16b }, v23.16b
	usra	v22.8h, v19.8h, #9
	cnt	v25.8b, v27.8b
	addp	v18.16b, v21.16b, v21.16b
	orr	v19.16b, v24.16b, v26.16b
	str	q23, [x20, x1]
	orr	v21.16b, v22.16b, v0.16b
	shl	v22.8h, v2.8h, #8
	ldr	q20, [x8, x9, lsl #4]
	umov	w11, v18.h[0]
	ushr	v23.8h, v2.8h, #6
	fmov	w10, s25
	cmlt	v18.16b, v19.16b, #0
	fmov	d19, x9
	tbl	v3.16b, { v3.16b }, v20.16b
	zip1	v20.8h, v17.8h, v21.8h
	zip2	v17.8h, v17.8h, v21.8h
	sub	x9, x1, x10
	cnt	v19.8b, v19.8b
	and	v18.16b, v18.16b, v5.16b
	add	x9, x9, #12
	and	x10, x11, #0xff
	str	q3, [x20, x9]
	and	v3.16b, v6.16b, v16.16b
	mov	v6.16b, v22.16b
	ldr	q25, [x8, x10, lsl #4]
	addp	v18.16b, v18.16b, v18.16b
	bic	v22.8h, #192, lsl #8
	fmov	w12, s19
	and	v19.16b, v23.16b, v4.16b
	tbl	v16.16b, { v20.16b }, v25.16b
	fmov	d20, x10
	orr	v7.16b, v3.16b, v7.16b
	addp	v18.16b, v18.16b, v18.16b
	ubfx	x10, x11, #8, #8
	usra	v6.8h, v2.8h, #12
	orr	v19.16b, v22.16b, v19.16b
	sub	x9, x9, x12
	cnt	v20.8b, v20.8b
	add	x9, x9, #12
	fmov	d21, x10
	addp	v2.16b, v18.16b, v18.16b
	str	q16, [x20, x9]
	cmlt	v7.16b, v7.16b, #0
	usra	v19.8h, v24.8h, #9
	ldr	q16, [x8, x10, lsl #4]
	shl	v18.8h, v1.8h, #8
	orr	v6.8h, #224
	fmov	w10, s20
	ushr	v20.8h, v1.8h, #6
	umov	w11, v2.h[0]
	tbl	v16.16b, { v17.16b }, v16.16b
	cnt	v17.8b, v21.8b
	orr	v19.16b, v19.16b, v0.16b
	and	v2.16b, v7.16b, v5.16b
	mov	v5.16b, v18.16b
	bic	v18.8h, #192, lsl #8
	and	v4.16b, v20.16b, v4.16b
	sub	x9, x9, x10
	add	x10, x20, x9
	zip1	v7.8h, v6.8h, v19.8h
	and	x12, x11, #0xff
	addp	v2.16b, v2.16b, v2.16b
	stur	q16, [x10, #12]
	fmov	w10, s17
	orr	v4.16b, v18.16b, v4.16b
	fmov	d17, x12
	ldr	q16, [x8, x12, lsl #4]
	usra	v5.8h, v1.8h, #12
	addp	v2.16b, v2.16b, v2.16b
	tbl	v7.16b, { v7.16b }, v16.16b
	sub	x9, x9, x10
	cnt	v16.8b, v17.8b
	usra	v4.8h, v3.8h, #9
	ubfx	x10, x11, #8, #8
	add	x9, x9, #24
	zip2	v3.8h, v6.8h, v19.8h
	orr	v5.8h, #224
	addp	v2.16b, v2.16b, v2.16b
	str	q7, [x20, x9]
	orr	v0.16b, v4.16b, v0.16b
	fmov	d4, x10
	ldr	q6, [x8, x10, lsl #4]
	fmov	w11, s16
	umov	w10, v2.h[0]
	tbl	v2.16b, { v3.16b }, v6.16b
	cnt	v3.8b, v4.8b
	zip1	v4.8h, v5.8h, v0.8h
	zip2	v0.8h, v5.8h, v0.8h
	sub	x9, x9, x11
	add	x9, x9, #12
	str	q2, [x20, x9]
	and	x11, x10, #0xff
	ubfx	x10, x10, #8, #8
	fmov	w12, s3
	ldr	q2, [x8, x11, lsl #4]
	fmov	d3, x11
	tbl	v2.16b, { v4.16b }, v2.16b
	fmov	d4, x10
	sub	x9, x9, x12
	cnt	v3.8b, v3.8b
	add	x9, x9, #12
	str	q2, [x20, x9]
	cnt	v4.8b, v4.8b
	ldr	q2, [x8, x10, lsl #4]
	fmov	w8, s3
	tbl	v0.16b, { v0.16b }, v2.16b
	fmov	w10, s4
	sub	x8, x9, x8
	add	x9, x20, x8
	stur	q0, [x9, #12]
	mov	v0.16b, v1.16b
	sub	x8, x8, x10
	add	x1, x8, #24
	b.hi	.LBB22_32
	cmp	x23, x1
	b.lo	.LBB22_32
	add	x8, x21, x25
	movi	v6.8h, #248, lsl #8
	ldp	q2, q1, [x8, #32]
	ldp	q17, q3, [x8]
	orr	v4.16b, v3.16b, v1.16b
	orr	v5.16b, v17.16b, v2.16b
	orr	v4.16b, v5.16b, v4.16b
	and	v4.16b, v4.16b, v6.16b
	ext	v5.16b, v4.16b, v4.16b, #8
	orr	v4.8b, v4.8b, v5.8b
	fmov	x8, d4
	lsr	x9, x8, #32
	orr	w8, w8, w9
	orr	w8, w8, w8, lsr #16
	tst	w8, #0xffff
	add	x8, x25, #64
	b.ne	.LBB22_18
	b	.LBB22_32
.LBB22_22:
	movi	v1.8h, #128
	ldr	q4, [x28, :lo12:.LCPI22_0]
	shl	v5.8h, v23.8h, #8
	mov	w8, #32960
	shl	v16.8h, v21.8h, #8
	add	x25, x25, #64
	dup	v7.8h, w8
	bic	v5.8h, #192, lsl #8
	cmhi	v2.8h, v1.8h, v23.8h
	cmhi	v0.8h, v1.8h, v21.8h
	cmhi	v6.8h, v1.8h, v20.8h
	cmhi	v1.8h, v1.8h, v22.8h
	bic	v16.8h, #192, lsl #8
	usra	v5.8h, v23.8h, #6
	uzp1	v3.16b, v2.16b, v0.16b
	uzp1	v17.16b, v6.16b, v1.16b
	usra	v16.8h, v21.8h, #6
	and	v3.16b, v3.16b, v4.16b
	add	v16.8h, v16.8h, v7.8h
	addp	v3.16b, v3.16b, v3.16b
	bsl	v0.16b, v21.16b, v16.16b
	shl	v16.8h, v22.8h, #8
	addp	v3.16b, v3.16b, v3.16b
	bic	v16.8h, #192, lsl #8
	addp	v3.16b, v3.16b, v3.16b
	usra	v16.8h, v22.8h, #6
	umov	w8, v3.h[0]
	add	v3.8h, v5.8h, v7.8h
	shl	v5.8h, v20.8h, #8
	bsl	v2.16b, v23.16b, v3.16b
	and	v3.16b, v17.16b, v4.16b
	bic	v5.8h, #192, lsl #8
	and	x9, x8, #0xff
	ubfx	x8, x8, #8, #8
	ldr	q4, [x26, x9, lsl #4]
	addp	v3.16b, v3.16b, v3.16b
	usra	v5.8h, v20.8h, #6
	tbl	v2.16b, { v2.16b }, v4.16b
	fmov	d4, x9
	addp	v3.16b, v3.16b, v3.16b
	str	q2, [x20, x1]
	cnt	v2.8b, v4.8b
	ldr	q4, [x26, x8, lsl #4]
	addp	v3.16b, v3.16b, v3.16b
	tbl	v0.16b, { v0.16b }, v4.16b
	add	v4.8h, v5.8h, v7.8h
	fmov	w9, s2
	fmov	d2, x8
	umov	w8, v3.h[0]
	mov	v3.16b, v6.16b
	cnt	v2.8b, v2.8b
	sub	x9, x1, x9
	add	x10, x20, x9
	bsl	v3.16b, v20.16b, v4.16b
	str	q0, [x10, #16]
	and	x10, x8, #0xff
	ubfx	x8, x8, #8, #8
	ldr	q0, [x26, x10, lsl #4]
	fmov	d4, x10
	fmov	w11, s2
	add	v2.8h, v16.8h, v7.8h
	tbl	v0.16b, { v3.16b }, v0.16b
	cnt	v3.8b, v4.8b
	bsl	v1.16b, v22.16b, v2.16b
	fmov	d2, x8
	sub	x9, x9, x11
	add	x9, x9, #32
	str	q0, [x20, x9]
	cnt	v0.8b, v2.8b
	ldr	q2, [x26, x8, lsl #4]
	fmov	w8, s3
	tbl	v1.16b, { v1.16b }, v2.16b
	sub	x8, x9, x8
	fmov	w10, s0
	add	x9, x20, x8
	mov	v0.16b, v22.16b
	str	q1, [x9, #16]
	sub	x8, x8, x10
	add	x1, x8, #32
	cmp	x25, x22
	b.ls	.LBB22_33
	b	.LBB22_40
.LBB22_23:
	movi	v0.8h, #63, lsl #8
	shl	v1.8h, v23.8h, #2
	mov	w8, #32992
	shl	v2.8h, v21.8h, #2
	shl	v3.8h, v20.8h, #2
	add	x25, x25, #64
	shl	v4.8h, v22.8h, #2
	movi	v5.8h, #63
	cmp	x25, x22
	dup	v6.8h, w8
	adrp	x8, .LCPI22_1
	and	v1.16b, v1.16b, v0.16b
	and	v2.16b, v2.16b, v0.16b
	and	v3.16b, v3.16b, v0.16b
	and	v0.16b, v4.16b, v0.16b
	usra	v1.8h, v23.8h, #12
	usra	v2.8h, v21.8h, #12
	usra	v3.8h, v20.8h, #12
	usra	v0.8h, v22.8h, #12
	orr	v16.16b, v1.16b, v6.16b
	orr	v18.16b, v2.16b, v6.16b
	orr	v3.16b, v3.16b, v6.16b
	orr	v6.16b, v0.16b, v6.16b
	and	v17.16b, v23.16b, v5.16b
	and	v19.16b, v21.16b, v5.16b
	and	v4.16b, v20.16b, v5.16b
	and	v7.16b, v22.16b, v5.16b
	ldr	q1, [x8, :lo12:.LCPI22_1]
	adrp	x8, .LCPI22_2
	orr	v17.8h, #128
	orr	v19.8h, #128
	ldr	d2, [x8, :lo12:.LCPI22_2]
	orr	v4.8h, #128
	orr	v7.8h, #128
	add	x8, x20, x1
	add	x1, x1, #96
	tbl	v0.16b, { v16.16b, v17.16b }, v1.16b
	mov	v17.d[0], v16.d[1]
	tbl	v5.16b, { v18.16b, v19.16b }, v1.16b
	mov	v19.d[0], v18.d[1]
	tbl	v20.16b, { v3.16b, v4.16b }, v1.16b
	mov	v4.d[0], v3.d[1]
	tbl	v21.16b, { v6.16b, v7.16b }, v1.16b
	mov	v7.d[0], v6.d[1]
	str	q0, [x8]
	tbl	v0.8b, { v17.16b }, v2.8b
	stur	q5, [x8, #24]
	tbl	v5.8b, { v19.16b }, v2.8b
	tbl	v3.8b, { v4.16b }, v2.8b
	tbl	v4.8b, { v7.16b }, v2.8b
	str	q20, [x8, #48]
	stur	q21, [x8, #72]
	str	d0, [x8, #16]
	str	d5, [x8, #40]
	str	d3, [x8, #64]
	str	d4, [x8, #88]
	b.hi	.LBB22_31
	cmp	x23, x1
	b.lo	.LBB22_30
.LBB22_25:
	movi	v6.8h, #40, lsl #8
	add	x8, x21, x25
	ldp	q3, q0, [x8, #32]
	ldp	q5, q4, [x8]
	add	v7.8h, v3.8h, v6.8h
	add	v17.8h, v0.8h, v6.8h
	add	v16.8h, v4.8h, v6.8h
	add	v6.8h, v5.8h, v6.8h
	umin	v7.8h, v3.8h, v7.8h
	umin	v17.8h, v0.8h, v17.8h
	umin	v6.8h, v5.8h, v6.8h
	umin	v16.8h, v4.8h, v16.8h
	umin	v16.8h, v16.8h, v17.8h
	umin	v6.8h, v6.8h, v7.8h
	movi	v7.8h, #8, lsl #8
	umin	v6.8h, v6.8h, v16.8h
	cmhi	v6.8h, v7.8h, v6.8h
	umaxv	h6, v6.8h
	fmov	w8, s6
	tbnz	w8, #0, .LBB22_30
	movi	v6.8h, #63, lsl #8
	shl	v7.8h, v5.8h, #2
	mov	w8, #32992
	shl	v16.8h, v4.8h, #2
	shl	v17.8h, v3.8h, #2
	add	x25, x25, #64
	shl	v18.8h, v0.8h, #2
	movi	v19.8h, #63
	cmp	x25, x22
	dup	v20.8h, w8
	add	x8, x20, x1
	add	x1, x1, #96
	and	v7.16b, v7.16b, v6.16b
	and	v16.16b, v16.16b, v6.16b
	and	v17.16b, v17.16b, v6.16b
	and	v6.16b, v18.16b, v6.16b
	usra	v7.8h, v5.8h, #12
	usra	v16.8h, v4.8h, #12
	usra	v17.8h, v3.8h, #12
	usra	v6.8h, v0.8h, #12
	orr	v21.16b, v7.16b, v20.16b
	orr	v23.16b, v16.16b, v20.16b
	orr	v16.16b, v17.16b, v20.16b
	and	v22.16b, v5.16b, v19.16b
	and	v24.16b, v4.16b, v19.16b
	orr	v4.16b, v6.16b, v20.16b
	and	v17.16b, v3.16b, v19.16b
	and	v5.16b, v0.16b, v19.16b
	orr	v22.8h, #128
	orr	v24.8h, #128
	orr	v17.8h, #128
	orr	v5.8h, #128
	tbl	v3.16b, { v21.16b, v22.16b }, v1.16b
	mov	v22.d[0], v21.d[1]
	tbl	v6.16b, { v23.16b, v24.16b }, v1.16b
	mov	v24.d[0], v23.d[1]
	tbl	v7.16b, { v16.16b, v17.16b }, v1.16b
	mov	v17.d[0], v16.d[1]
	tbl	v18.16b, { v4.16b, v5.16b }, v1.16b
	mov	v5.d[0], v4.d[1]
	str	q3, [x8]
	tbl	v3.8b, { v22.16b }, v2.8b
	stur	q6, [x8, #24]
	tbl	v6.8b, { v24.16b }, v2.8b
	str	q7, [x8, #48]
	tbl	v7.8b, { v17.16b }, v2.8b
	tbl	v4.8b, { v5.16b }, v2.8b
	stur	q18, [x8, #72]
	str	d3, [x8, #16]
	str	d6, [x8, #40]
	str	d7, [x8, #64]
	str	d4, [x8, #88]
	b.hi	.LBB22_32
	mov	v22.16b, v0.16b
	cmp	x23, x1
	b.hs	.LBB22_25
	b	.LBB22_32
.LBB22_28:
	ldur	q0, [x29, #-16]
.LBB22_29:
	mov	x25, x8
	cmp	x8, x22
	b.ls	.LBB22_33
	b	.LBB22_40
.LBB22_30:
	mov	v0.16b, v22.16b
	cmp	x25, x22
	b.ls	.LBB22_33
	b	.LBB22_40
.LBB22_31:
	mov	v0.16b, v22.16b
.LBB22_32:
	cmp	x25, x22
	b.hi	.LBB22_40
.LBB22_33:
	cmp	x23, x1
	b.lo	.LBB22_40
	add	x8, x21, x25
	ldp	q20, q22, [x8, #32]
	ldp	q23, q21, [x8]
	orr	v1.16b, v21.16b, v22.16b
	orr	v2.16b, v23.16b, v20.16b
	bic	v1.8h, #127
	bic	v2.8h, #127
	orr	v1.16b, v2.16b, v1.16b
	ext	v2.16b, v1.16b, v1.16b, #8
	orr	v1.8b, v1.8b, v2.8b
	fmov	x8, d1
	lsr	x9, x8, #32
	orr	w8, w8, w9
	orr	w8, w8, w8, lsr #16
	tst	w8, #0xffff
	b.ne	.LBB22_11
.LBB22_35:
	sqxtun	v1.8b, v23.8h
	sqxtun	v2.8b, v20.8h
	add	x9, x20, x1
	mov	v0.16b, v22.16b
	add	x8, x25, #64
	cmp	x8, x22
	sqxtun2	v1.16b, v21.8h
	sqxtun2	v2.16b, v22.8h
	stp	q1, q2, [x9]
	add	x9, x1, #32
	b.hi	.LBB22_39
	cmp	x23, x9
	b.lo	.LBB22_39
	add	x8, x24, x25
	add	x25, x25, #64
	add	x1, x1, #32
	ldp	q20, q22, [x8, #32]
	ldp	q23, q21, [x8]
	orr	v1.16b, v21.16b, v22.16b
	orr	v2.16b, v23.16b, v20.16b
	bic	v1.8h, #127
	bic	v2.8h, #127
	orr	v1.16b, v2.16b, v1.16b
	ext	v2.16b, v1.16b, v1.16b, #8
	orr	v1.8b, v1.8b, v2.8b
	fmov	x8, d1
	lsr	x9, x8, #32
	orr	w8, w8, w9
	orr	w8, w8, w8, lsr #16
	tst	w8, #0xffff
	b.eq	.LBB22_35
	b	.LBB22_11
.LBB22_38:
	sub	x25, x25, #64
	cmp	x25, x22
	b.ls	.LBB22_33
	b	.LBB22_40
.LBB22_39:
	mov	x25, x8
	mov	x1, x9
.LBB22_40:
	cmp	x22, x25
	b.lo	.LBB22_53
.LBB22_41:
	cmp	x23, x1
	b.lo	.LBB22_53
	add	x8, x21, x25
	movi	v3.16b, #252
	movi	v4.16b, #216
	ldp	q28, q27, [x8]
	movi	v5.16b, #220
	ldp	q26, q25, [x8, #32]
	mov	w10, w27
	uzp2	v2.16b, v28.16b, v27.16b
	uzp2	v1.16b, v26.16b, v25.16b
	and	v2.16b, v2.16b, v3.16b
	and	v3.16b, v1.16b, v3.16b
	ldr	q1, [x28, :lo12:.LCPI22_0]
	cmeq	v6.16b, v3.16b, v4.16b
	cmeq	v4.16b, v2.16b, v4.16b
	cmeq	v3.16b, v3.16b, v5.16b
	cmeq	v2.16b, v2.16b, v5.16b
	and	v4.16b, v4.16b, v1.16b
	and	v5.16b, v6.16b, v1.16b
	and	v3.16b, v3.16b, v1.16b
	and	v2.16b, v2.16b, v1.16b
	addp	v4.16b, v4.16b, v5.16b
	addp	v2.16b, v2.16b, v3.16b
	addp	v3.16b, v4.16b, v4.16b
	addp	v2.16b, v2.16b, v2.16b
	addp	v3.16b, v3.16b, v3.16b
	addp	v2.16b, v2.16b, v2.16b
	fmov	w28, s3
	fmov	w9, s2
	lsl	w8, w28, #1
	bfxil	x8, x10, #0, #1
	cmp	x8, x9
	b.ne	.LBB22_53
	orr	v3.16b, v28.16b, v26.16b
	orr	v4.16b, v27.16b, v25.16b
	movi	v2.8h, #248, lsl #8
	orr	v3.16b, v3.16b, v4.16b
	and	v3.16b, v3.16b, v2.16b
	ext	v4.16b, v3.16b, v3.16b, #8
	orr	v3.8b, v3.8b, v4.8b
	fmov	x8, d3
	lsr	x9, x8, #32
	orr	w8, w8, w9
	orr	w8, w8, w8, lsr #16
	tst	w8, #0xffff
	b.eq	.LBB22_3
	movi	v3.8h, #40, lsl #8
	add	v4.8h, v27.8h, v3.8h
	add	v5.8h, v26.8h, v3.8h
	add	v6.8h, v28.8h, v3.8h
	add	v3.8h, v25.8h, v3.8h
	umin	v4.8h, v27.8h, v4.8h
	umin	v6.8h, v28.8h, v6.8h
	umin	v5.8h, v26.8h, v5.8h
	umin	v3.8h, v25.8h, v3.8h
	orr	v5.16b, v6.16b, v5.16b
	orr	v3.16b, v4.16b, v3.16b
	orr	v3.16b, v5.16b, v3.16b
	and	v2.16b, v3.16b, v2.16b
	ext	v3.16b, v2.16b, v2.16b, #8
	orr	v2.8b, v2.8b, v3.8b
	fmov	x8, d2
	lsr	x9, x8, #32
	orr	w8, w8, w9
	orr	w8, w8, w8, lsr #16
	tst	w8, #0xffff
	b.ne	.LBB22_3
	movi	v2.8h, #36, lsl #8
	ext	v3.16b, v0.16b, v28.16b, #14
	mov	w8, #752
	movi	v0.8h, #68, lsl #8
	movi	v7.8h, #128
	add	x25, x25, #64
	ext	v17.16b, v28.16b, v27.16b, #14
	dup	v5.8h, w8
	lsr	w27, w28, #31
	cmp	x25, x22
	add	v4.8h, v28.8h, v2.8h
	shl	v16.8h, v3.8h, #10
	add	v20.8h, v27.8h, v2.8h
	add	v19.8h, v28.8h, v0.8h
	cmhi	v6.8h, v7.8h, v28.8h
	cmhi	v3.8h, v7.8h, v27.8h
	shl	v17.8h, v17.8h, #10
	add	v23.8h, v27.8h, v0.8h
	cmhi	v24.8h, v7.8h, v26.8h
	ushr	v18.8h, v4.8h, #2
	bic	v16.8h, #240, lsl #8
	ushr	v20.8h, v20.8h, #2
	uzp1	v22.16b, v6.16b, v3.16b
	movi	v4.8h, #48, lsl #8
	cmhi	v7.8h, v7.8h, v25.8h
	bic	v17.8h, #240, lsl #8
	uqsub	v18.8h, v18.8h, v5.8h
	add	v16.8h, v19.8h, v16.8h
	cmlt	v19.8h, v28.8h, #0
	add	v17.8h, v23.8h, v17.8h
	add	v21.8h, v28.8h, v4.8h
	add	v23.8h, v26.8h, v2.8h
	add	v2.8h, v25.8h, v2.8h
	umax	v16.8h, v18.8h, v16.8h
	uqsub	v18.8h, v20.8h, v5.8h
	and	v20.16b, v22.16b, v1.16b
	add	v22.8h, v27.8h, v4.8h
	ushr	v2.8h, v2.8h, #2
	bif	v16.16b, v21.16b, v19.16b
	ext	v19.16b, v27.16b, v26.16b, #14
	cmlt	v21.8h, v27.8h, #0
	umax	v17.8h, v18.8h, v17.8h
	addp	v18.16b, v20.16b, v20.16b
	uqsub	v2.8h, v2.8h, v5.8h
	addp	v18.16b, v18.16b, v18.16b
	ushr	v20.8h, v16.8h, #6
	shl	v16.8h, v16.8h, #8
	shl	v19.8h, v19.8h, #10
	bif	v17.16b, v22.16b, v21.16b
	ext	v21.16b, v26.16b, v25.16b, #14
	ushr	v22.8h, v23.8h, #2
	add	v23.8h, v26.8h, v0.8h
	add	v0.8h, v25.8h, v0.8h
	addp	v18.16b, v18.16b, v18.16b
	orr	v20.8h, #128, lsl #8
	bic	v16.8h, #192, lsl #8
	bic	v19.8h, #240, lsl #8
	uqsub	v22.8h, v22.8h, v5.8h
	shl	v21.8h, v21.8h, #10
	umov	w8, v18.h[0]
	uzp1	v18.16b, v24.16b, v7.16b
	add	v16.8h, v20.8h, v16.8h
	add	v19.8h, v23.8h, v19.8h
	ushr	v20.8h, v17.8h, #6
	shl	v17.8h, v17.8h, #8
	bic	v21.8h, #240, lsl #8
	bsl	v6.16b, v28.16b, v16.16b
	add	v16.8h, v26.8h, v4.8h
	add	v4.8h, v25.8h, v4.8h
	and	x9, x8, #0xff
	ubfx	x8, x8, #8, #8
	and	v5.16b, v18.16b, v1.16b
	ldr	q18, [x26, x9, lsl #4]
	umax	v19.8h, v22.8h, v19.8h
	cmlt	v22.8h, v26.8h, #0
	orr	v20.8h, #128, lsl #8
	bic	v17.8h, #192, lsl #8
	add	v0.8h, v0.8h, v21.8h
	addp	v5.16b, v5.16b, v5.16b
	tbl	v6.16b, { v6.16b }, v18.16b
	bit	v16.16b, v19.16b, v22.16b
	fmov	d19, x9
	add	v17.8h, v20.8h, v17.8h
	umax	v0.8h, v2.8h, v0.8h
	cmlt	v2.8h, v25.8h, #0
	str	q6, [x20, x1]
	addp	v5.16b, v5.16b, v5.16b
	cnt	v18.8b, v19.8b
	bsl	v3.16b, v27.16b, v17.16b
	ushr	v19.8h, v16.8h, #6
	shl	v16.8h, v16.8h, #8
	bif	v0.16b, v4.16b, v2.16b
	ldr	q2, [x26, x8, lsl #4]
	addp	v4.16b, v5.16b, v5.16b
	fmov	d5, x8
	fmov	w9, s18
	orr	v19.8h, #128, lsl #8
	bic	v16.8h, #192, lsl #8
	tbl	v2.16b, { v3.16b }, v2.16b
	umov	w8, v4.h[0]
	cnt	v4.8b, v5.8b
	ushr	v3.8h, v0.8h, #6
	shl	v0.8h, v0.8h, #8
	sub	x9, x1, x9
	add	v6.8h, v19.8h, v16.8h
	mov	v5.16b, v24.16b
	add	x10, x20, x9
	str	q2, [x10, #16]
	and	x10, x8, #0xff
	ubfx	x8, x8, #8, #8
	orr	v3.8h, #128, lsl #8
	bic	v0.8h, #192, lsl #8
	ldr	q2, [x26, x10, lsl #4]
	fmov	w11, s4
	fmov	d4, x10
	bsl	v5.16b, v26.16b, v6.16b
	add	v0.8h, v3.8h, v0.8h
	cnt	v3.8b, v4.8b
	fmov	d4, x8
	sub	x9, x9, x11
	tbl	v2.16b, { v5.16b }, v2.16b
	add	x9, x9, #32
	bit	v0.16b, v25.16b, v7.16b
	cnt	v4.8b, v4.8b
	str	q2, [x20, x9]
	ldr	q2, [x26, x8, lsl #4]
	fmov	w8, s3
	fmov	w10, s4
	tbl	v0.16b, { v0.16b }, v2.16b
	sub	x8, x9, x8
	add	x9, x20, x8
	sub	x8, x8, x10
	add	x1, x8, #32
	str	q0, [x9, #16]
	b.hi	.LBB22_51
	cmp	x23, x1
	b.lo	.LBB22_51
.LBB22_47:
	movi	v5.8h, #40, lsl #8
	add	x8, x21, x25
	ldp	q4, q3, [x8]
	ldp	q2, q0, [x8, #32]
	add	v6.8h, v3.8h, v5.8h
	add	v16.8h, v4.8h, v5.8h
	add	v7.8h, v2.8h, v5.8h
	add	v5.8h, v0.8h, v5.8h
	orr	v17.16b, v3.16b, v0.16b
	orr	v18.16b, v4.16b, v2.16b
	umin	v6.8h, v3.8h, v6.8h
	umin	v16.8h, v4.8h, v16.8h
	umin	v5.8h, v0.8h, v5.8h
	umin	v7.8h, v2.8h, v7.8h
	orr	v7.16b, v16.16b, v7.16b
	orr	v5.16b, v6.16b, v5.16b
	movi	v6.8h, #248, lsl #8
	orr	v16.16b, v18.16b, v17.16b
	orr	v5.16b, v7.16b, v5.16b
	and	v7.16b, v16.16b, v6.16b
	and	v5.16b, v5.16b, v6.16b
	ext	v6.16b, v7.16b, v7.16b, #8
	ext	v16.16b, v5.16b, v5.16b, #8
	orr	v6.8b, v7.8b, v6.8b
	orr	v5.8b, v5.8b, v16.8b
	fmov	x8, d6
	fmov	x10, d5
	lsr	x9, x8, #32
	lsr	x11, x10, #32
	orr	w8, w8, w9
	orr	w8, w8, w8, lsr #16
	orr	w9, w10, w11
	orr	w9, w9, w9, lsr #16
	and	w8, w8, #0xffff
	cmp	w8, #0
	and	w8, w9, #0xffff
	ccmp	w8, #0, #0, ne
	b.ne	.LBB22_51
	uzp2	v5.16b, v2.16b, v0.16b
	uzp2	v6.16b, v4.16b, v3.16b
	movi	v7.16b, #252
	movi	v16.16b, #216
	and	v6.16b, v6.16b, v7.16b
	and	v5.16b, v5.16b, v7.16b
	movi	v7.16b, #220
	cmeq	v17.16b, v5.16b, v16.16b
	cmeq	v16.16b, v6.16b, v16.16b
	cmeq	v5.16b, v5.16b, v7.16b
	cmeq	v6.16b, v6.16b, v7.16b
	and	v7.16b, v16.16b, v1.16b
	and	v16.16b, v17.16b, v1.16b
	and	v6.16b, v6.16b, v1.16b
	and	v5.16b, v5.16b, v1.16b
	addp	v7.16b, v7.16b, v16.16b
	addp	v5.16b, v6.16b, v5.16b
	addp	v6.16b, v7.16b, v7.16b
	addp	v5.16b, v5.16b, v5.16b
	addp	v6.16b, v6.16b, v6.16b
	addp	v5.16b, v5.16b, v5.16b
	fmov	w8, s6
	fmov	w10, s5
	lsl	w9, w8, #1
	bfxil	x9, x27, #0, #1
	cmp	x9, x10
	b.ne	.LBB22_51
	movi	v5.8h, #36, lsl #8
	ext	v7.16b, v25.16b, v4.16b, #14
	mov	w9, #752
	movi	v6.8h, #68, lsl #8
	movi	v19.8h, #128
	lsr	w27, w8, #31
	ext	v21.16b, v4.16b, v3.16b, #14
	dup	v17.8h, w9
	add	x25, x25, #64
	cmp	x25, x22
	add	v16.8h, v4.8h, v5.8h
	shl	v20.8h, v7.8h, #10
	add	v24.8h, v3.8h, v5.8h
	add	v23.8h, v4.8h, v6.8h
	cmhi	v18.8h, v19.8h, v4.8h
	cmhi	v7.8h, v19.8h, v3.8h
	shl	v21.8h, v21.8h, #10
	add	v27.8h, v3.8h, v6.8h
	cmhi	v28.8h, v19.8h, v2.8h
	ushr	v22.8h, v16.8h, #2
	bic	v20.8h, #240, lsl #8
	movi	v16.8h, #48, lsl #8
	ushr	v24.8h, v24.8h, #2
	uzp1	v26.16b, v18.16b, v7.16b
	cmhi	v19.8h, v19.8h, v0.8h
	bic	v21.8h, #240, lsl #8
	uqsub	v22.8h, v22.8h, v17.8h
	add	v20.8h, v23.8h, v20.8h
	cmlt	v23.8h, v4.8h, #0
	add	v25.8h, v4.8h, v16.8h
	add	v21.8h, v27.8h, v21.8h
	add	v27.8h, v2.8h, v5.8h
	add	v5.8h, v0.8h, v5.8h
	umax	v20.8h, v22.8h, v20.8h
	uqsub	v22.8h, v24.8h, v17.8h
	and	v24.16b, v26.16b, v1.16b
	add	v26.8h, v3.8h, v16.8h
	ushr	v5.8h, v5.8h, #2
	bif	v20.16b, v25.16b, v23.16b
	cmlt	v25.8h, v3.8h, #0
	ext	v23.16b, v3.16b, v2.16b, #14
	umax	v21.8h, v22.8h, v21.8h
	addp	v22.16b, v24.16b, v24.16b
	uqsub	v5.8h, v5.8h, v17.8h
	ushr	v24.8h, v20.8h, #6
	shl	v20.8h, v20.8h, #8
	bif	v21.16b, v26.16b, v25.16b
	addp	v22.16b, v22.16b, v22.16b
	ext	v25.16b, v2.16b, v0.16b, #14
	shl	v23.8h, v23.8h, #10
	ushr	v26.8h, v27.8h, #2
	add	v27.8h, v2.8h, v6.8h
	add	v6.8h, v0.8h, v6.8h
	orr	v24.8h, #128, lsl #8
	bic	v20.8h, #192, lsl #8
	addp	v22.16b, v22.16b, v22.16b
	bic	v23.8h, #240, lsl #8
	shl	v25.8h, v25.8h, #10
	uqsub	v26.8h, v26.8h, v17.8h
	add	v20.8h, v24.8h, v20.8h
	ushr	v24.8h, v21.8h, #6
	shl	v21.8h, v21.8h, #8
	umov	w9, v22.h[0]
	uzp1	v22.16b, v28.16b, v19.16b
	add	v23.8h, v27.8h, v23.8h
	bic	v25.8h, #240, lsl #8
	bif	v4.16b, v20.16b, v18.16b
	add	v18.8h, v2.8h, v16.8h
	orr	v24.8h, #128, lsl #8
	umax	v20.8h, v26.8h, v23.8h
	cmlt	v23.8h, v2.8h, #0
	bic	v21.8h, #192, lsl #8
	and	x10, x9, #0xff
	ubfx	x9, x9, #8, #8
	add	v6.8h, v6.8h, v25.8h
	and	v17.16b, v22.16b, v1.16b
	ldr	q22, [x26, x10, lsl #4]
	add	v16.8h, v0.8h, v16.8h
	bit	v18.16b, v20.16b, v23.16b
	add	v20.8h, v24.8h, v21.8h
	fmov	d21, x10
	tbl	v4.16b, { v4.16b }, v22.16b
	umax	v5.8h, v5.8h, v6.8h
	cmlt	v6.8h, v0.8h, #0
	addp	v17.16b, v17.16b, v17.16b
	cnt	v21.8b, v21.8b
	bif	v3.16b, v20.16b, v7.16b
	fmov	d7, x9
	str	q4, [x20, x1]
	mov	v4.16b, v6.16b
	ushr	v22.8h, v18.8h, #6
	addp	v17.16b, v17.16b, v17.16b
	shl	v18.8h, v18.8h, #8
	bsl	v4.16b, v5.16b, v16.16b
	ldr	q5, [x26, x9, lsl #4]
	orr	v22.8h, #128, lsl #8
	addp	v6.16b, v17.16b, v17.16b
	bic	v18.8h, #192, lsl #8
	fmov	w10, s21
	tbl	v3.16b, { v3.16b }, v5.16b
	ushr	v5.8h, v4.8h, #6
	sub	x10, x1, x10
	shl	v4.8h, v4.8h, #8
	umov	w9, v6.h[0]
	add	x11, x20, x10
	add	v16.8h, v22.8h, v18.8h
	cnt	v6.8b, v7.8b
	str	q3, [x11, #16]
	orr	v5.8h, #128, lsl #8
	bic	v4.8h, #192, lsl #8
	bif	v2.16b, v16.16b, v28.16b
	and	x11, x9, #0xff
	ubfx	x9, x9, #8, #8
	add	v4.8h, v5.8h, v4.8h
	fmov	d5, x11
	ldr	q3, [x26, x11, lsl #4]
	fmov	w12, s6
	tbl	v2.16b, { v2.16b }, v3.16b
	cnt	v3.8b, v5.8b
	fmov	d5, x9
	bit	v4.16b, v0.16b, v19.16b
	sub	x10, x10, x12
	add	x10, x10, #32
	cnt	v5.8b, v5.8b
	str	q2, [x20, x10]
	ldr	q2, [x26, x9, lsl #4]
	fmov	w9, s3
	tbl	v2.16b, { v4.16b }, v2.16b
	fmov	w11, s5
	sub	x8, x10, x9
	add	x9, x20, x8
	sub	x8, x8, x11
	str	q2, [x9, #16]
	add	x1, x8, #32
	b.hi	.LBB22_4
	mov	v25.16b, v0.16b
	cmp	x23, x1
	b.hs	.LBB22_47
	b	.LBB22_4
.LBB22_51:
	mov	v0.16b, v25.16b
	b	.LBB22_4
.LBB22_52:
	mov	x25, x8
	cmp	x22, x8
	b.hs	.LBB22_41
.LBB22_53:
	and	w8, w27, #0x1
	stp	x25, x1, [x19]
	str	q0, [x19, #16]
	strb	w8, [x19, #32]
	stur	wzr, [x19, #33]
	str	wzr, [x19, #36]
	.cfi_def_cfa wsp, 160
	b	.LBB22_55
.LBB22_54:
	.cfi_restore_state
	movi	v0.2d, #0000000000000000
	str	xzr, [x19, #32]
	stp	q0, q0, [x19]
	.cfi_def_cfa wsp, 160
.LBB22_55:
	ldp	x20, x19, [sp, #144]
	ldp	x22, x21, [sp, #128]
	ldp	x24, x23, [sp, #112]
	ldp	x26, x25, [sp, #96]
	ldp	x28, x27, [sp, #80]
	ldp	x29, x30, [sp, #64]
	add	sp, sp, #160
	.cfi_def_cfa_offset 0
	.cfi_restore w19
	.cfi_restore w20
	.cfi_restore w21
	.cfi_restore w22
	.cfi_restore w23
	.cfi_restore w24
	.cfi_restore w25
	.cfi_restore w26
	.cfi_restore w27
	.cfi_restore w28
	.cfi_restore w30
	.cfi_restore w29
	ret
.Lfunc_end22:
	.size	"utf16_to_utf8::runs::write_paired::<#418c2b53cf60437c>", .Lfunc_end22-"utf16_to_utf8::runs::write_paired::<#418c2b53cf60437c>"
	.cfi_endproc

	.section	".text.utf16_transcode::transcoding::write_chars::<#556930da7d070edc>","ax",@progbits
	.p2align	2
	.type	"utf16_transcode::transcoding::write_chars::<#556930da7d070edc>",@function
"utf16_transcode::transcoding::write_chars::<#556930da7d070edc>":
	.cfi_startproc
	stp	x29, x30, [sp, #-80]!
	.cfi_def_cfa_offset 80
	str	x25, [sp, #16]
	stp	x24, x23, [sp, #32]
	stp	x22, x21, [sp, #48]
	stp	x20, x19, [sp, #64]
	mov	x29, sp
	.cfi_def_cfa w29, 80
	.cfi_offset w19, -8
	.cfi_offset w20, -16
	.cfi_offset w21, -24
	.cfi_offset w22, -32
	.cfi_offset w23, -40
	.cfi_offset w24, -48
	.cfi_offset w25, -64
	.cfi_offset w30, -72
	.cfi_offset w29, -80
	.cfi_remember_state
	sub	x8, x1, #16
	mov	x19, x3
	mov	x20, x2
	mov	x21, x1
	mov	x22, x0
	cmp	x8, #175
	add	x8, x2, x4
	sub	x9, x3, x4
	b.hi	.LBB23_8
	lsr	x10, x21, #1
	cmp	x9, x10
	csel	x10, x9, x10, lo
	cmp	x10, #8
	b.lo	.LBB23_8
	lsl	x11, x10, #1
	mov	x23, xzr
	mov	x24, xzr
	mov	x12, x11
.LBB23_3:
	movi	v1.8h, #127
	ldr	q0, [x22, x23]
	cmhi	v1.8h, v0.8h, v1.8h
	umaxv	h1, v1.8h
	fmov	w13, s1
	tbnz	w13, #0, .LBB23_9
	sqxtun	v0.8b, v0.8h
	sub	x12, x12, #16
	add	x23, x23, #16
	cmp	x12, #15
	str	d0, [x8, x24]
	add	x24, x24, #8
	b.hi	.LBB23_3
	cmp	x11, x23
	b.ls	.LBB23_9
	movi	v1.8h, #127
	add	x12, x22, x11
	ldur	q0, [x12, #-16]
	cmhi	v1.8h, v0.8h, v1.8h
	umaxv	h1, v1.8h
	fmov	w12, s1
	tbnz	w12, #0, .LBB23_9
	sqxtun	v0.8b, v0.8h
	add	x12, x8, x10
	mov	x24, x10
	mov	x23, x11
	stur	d0, [x12, #-8]
	b	.LBB23_9
.LBB23_8:
	mov	x24, xzr
	mov	x23, xzr
.LBB23_9:
	sub	x10, x21, x23
	cmp	x10, #15
	b.ls	.LBB23_32
.LBB23_10:
	sub	x10, x21, #8
	cmp	x10, #183
	b.hi	.LBB23_13
	sub	x10, x21, x23
	cmp	x10, #8
	b.lo	.LBB23_13
	sub	x3, x9, x24
	add	x0, x22, x23
	sub	x1, x21, x23
	add	x2, x8, x24
	mov	x25, x4
	bl	"utf16_to_utf8::vectors::write_vectors::<#418c2b53cf60437c>"
	mov	x4, x25
	add	x23, x0, x23
	add	x24, x1, x24
.LBB23_13:
	cmp	x23, x21
	add	x24, x24, x4
	b.lo	.LBB23_17
.LBB23_14:
	mov	x0, x23
	mov	x1, x24
	.cfi_def_cfa wsp, 80
	ldp	x20, x19, [sp, #64]
	ldr	x25, [sp, #16]
	ldp	x22, x21, [sp, #48]
	ldp	x24, x23, [sp, #32]
	ldp	x29, x30, [sp], #80
	.cfi_def_cfa_offset 0
	.cfi_restore w19
	.cfi_restore w20
	.cfi_restore w21
	.cfi_restore w22
	.cfi_restore w23
	.cfi_restore w24
	.cfi_restore w25
	.cfi_restore w30
	.cfi_restore w29
	ret
.LBB23_15:
	.cfi_restore_state
	strb	w0, [x20, x24]
	add	x24, x24, #1
.LBB23_16:
	add	x23, x8, x23
	cmp	x23, x21
	b.hs	.LBB23_14
.LBB23_17:
	sub	x10, x21, x23
	cmp	x10, #2
	b.lo	.LBB23_14
	add	x8, x22, x23
	ldrb	w9, [x8, #1]
	and	w11, w9, #0xf8
	cmp	w11, #216
	b.ne	.LBB23_22
	cmp	x10, #4
	b.lo	.LBB23_14
	mov	w10, #220
	and	w10, w9, w10
	cmp	w10, #220
	b.eq	.LBB23_14
	ldrb	w10, [x8, #3]
	and	w10, w10, #0xfc
	cmp	w10, #220
	b.ne	.LBB23_14
.LBB23_22:
	ldrb	w10, [x8]
	and	w11, w9, #0xfc
	cmp	w11, #216
	orr	w0, w10, w9, lsl #8
	b.ne	.LBB23_24
	ldrh	w1, [x8, #2]
	bl	"utf16_units::unit::decode_surrogates"
	mov	w8, #4
	b	.LBB23_25
.LBB23_24:
	mov	w8, #2
.LBB23_25:
	cmp	w0, #16, lsl #12
	mov	w9, #3
	mov	w10, #2
	cinc	x9, x9, hs
	cmp	w0, #2048
	csel	x9, x10, x9, lo
	cmp	w0, #128
	sub	x10, x19, x24
	csinc	x9, x9, xzr, hs
	cmp	x10, x9
	b.lo	.LBB23_14
	cmp	w0, #127
	b.ls	.LBB23_15
	mov	w9, #-128
	cmp	w0, #2047
	bfxil	w9, w0, #0, #6
	b.hi	.LBB23_29
	lsr	w10, w0, #6
	add	x11, x24, #2
	orr	w10, w10, #0xc0
	bfi	w10, w9, #8, #24
	strh	w10, [x20, x24]
	mov	x24, x11
	b	.LBB23_16
.LBB23_29:
	lsr	w10, w0, #16
	cbnz	w10, .LBB23_31
	lsr	w10, w0, #12
	mov	w11, #128
	add	x12, x20, x24
	bfxil	w11, w0, #6, #6
	add	x24, x24, #3
	strb	w9, [x12, #2]
	orr	w10, w10, #0xe0
	strb	w10, [x12]
	strb	w11, [x12, #1]
	b	.LBB23_16
.LBB23_31:
	lsl	w10, w0, #10
	mov	w11, #32768
	movk	w11, #128, lsl #16
	and	w10, w10, #0x3f0000
	orr	w9, w10, w9, lsl #24
	lsr	w10, w0, #18
	bfxil	w9, w0, #4, #14
	add	w10, w10, #240
	bfxil	w9, w10, #0, #8
	add	x10, x24, #4
	orr	w9, w9, w11
	str	w9, [x20, x24]
	mov	x24, x10
	b	.LBB23_16
.LBB23_32:
	lsr	x11, x10, #1
	sub	x12, x9, x24
	add	x11, x11, x11, lsl #1
	cmp	x12, x11
	b.lo	.LBB23_10
	cmp	x10, #2
	b.hs	.LBB23_36
	b	.LBB23_10
.LBB23_34:
	strb	w11, [x8, x24]
	add	x24, x24, #1
.LBB23_35:
	sub	x10, x10, #2
	add	x23, x23, #2
	cmp	x10, #1
	b.ls	.LBB23_10
.LBB23_36:
	add	x12, x22, x23
	ldrb	w11, [x12]
	ldrb	w13, [x12, #1]
	orr	w12, w11, w13, lsl #8
	cmp	w12, #127
	b.ls	.LBB23_34
	cmp	w13, #7
	b.hi	.LBB23_39
	lsr	w12, w12, #6
	orr	w12, w12, #0xc0
	and	w12, w12, #0xff
	bfi	w12, w11, #8, #6
	add	x11, x24, #2
	orr	w12, w12, #0x8000
	strh	w12, [x8, x24]
	mov	x24, x11
	b	.LBB23_35
.LBB23_39:
	and	w14, w13, #0xf8
	cmp	w14, #216
	b.eq	.LBB23_10
	lsr	w13, w13, #4
	mov	w14, #128
	mov	w15, #128
	bfxil	w14, w12, #6, #6
	bfxil	w15, w11, #0, #6
	add	x16, x8, x24
	orr	w12, w13, #0xe0
	add	x24, x24, #3
	strb	w12, [x16]
	strb	w14, [x16, #1]
	strb	w15, [x16, #2]
	b	.LBB23_35
.Lfunc_end23:
	.size	"utf16_transcode::transcoding::write_chars::<#556930da7d070edc>", .Lfunc_end23-"utf16_transcode::transcoding::write_chars::<#556930da7d070edc>"
	.cfi_endproc

	.section	.rodata.cst16,"aM",@progbits,16
	.p2align	4, 0x0
.LCPI24_0:
	.byte	1
	.byte	2
	.byte	4
	.byte	8
	.byte	16
	.byte	32
	.byte	64
	.byte	128
	.byte	1
	.byte	2
	.byte	4
	.byte	8
	.byte	16
	.byte	32
	.byte	64
	.byte	128
	.section	".text.utf16_transcode::decode::valid_up_to::<#418c2b53cf60437c>","ax",@progbits
	.p2align	2
	.type	"utf16_transcode::decode::valid_up_to::<#418c2b53cf60437c>",@function
"utf16_transcode::decode::valid_up_to::<#418c2b53cf60437c>":
	.cfi_startproc
	cmp	x1, #2
	b.ne	.LBB24_3
	ldrb	w8, [x0, #1]
	and	w8, w8, #0xf8
	cmp	w8, #216
	b.ne	.LBB24_10
.LBB24_2:
	b	"utf16_units::validate::valid_len::<#418c2b53cf60437c>"
.LBB24_3:
	cmp	x1, #7
	b.hi	.LBB24_11
	cbz	x1, .LBB24_26
	cmp	x1, #6
	b.eq	.LBB24_16
	cmp	x1, #4
	b.ne	.LBB24_2
	ldrb	w8, [x0, #1]
	and	w8, w8, #0xf8
	cmp	w8, #216
	b.eq	.LBB24_2
	ldrb	w8, [x0, #3]
	and	w8, w8, #0xf8
	cmp	w8, #216
	b.eq	.LBB24_2
	mov	w1, #4
	mov	x0, x1
	ret
.LBB24_10:
	mov	w1, #2
	mov	x0, x1
	ret
.LBB24_11:
	cmp	x1, #64
	b.hi	.LBB24_2
	tbnz	w1, #0, .LBB24_2
	cmp	x1, #15
	b.hi	.LBB24_20
	ldr	d0, [x0]
	ushr	v1.4h, v0.4h, #8
	movi	v0.4h, #216
	bic	v1.4h, #7
	cmeq	v1.4h, v1.4h, v0.4h
	umaxv	h1, v1.4h
	fmov	w8, s1
	tbnz	w8, #0, .LBB24_2
	add	x8, x0, x1
	ldur	d1, [x8, #-8]
	ushr	v1.4h, v1.4h, #8
	bic	v1.4h, #7
	cmeq	v0.4h, v1.4h, v0.4h
	umaxv	h0, v0.4h
	b	.LBB24_23
.LBB24_16:
	ldrb	w8, [x0, #1]
	and	w8, w8, #0xf8
	cmp	w8, #216
	b.eq	.LBB24_2
	ldrb	w8, [x0, #3]
	and	w8, w8, #0xf8
	cmp	w8, #216
	b.eq	.LBB24_2
	ldrb	w8, [x0, #5]
	and	w8, w8, #0xf8
	cmp	w8, #216
	b.eq	.LBB24_2
	mov	w1, #6
	mov	x0, x1
	ret
.LBB24_20:
	cmp	x1, #31
	b.hi	.LBB24_24
	ldr	q1, [x0]
	movi	v0.8b, #248
	shrn	v2.8b, v1.8h, #8
	movi	v1.8b, #216
	and	v2.8b, v2.8b, v0.8b
	cmeq	v2.8b, v2.8b, v1.8b
	umaxv	b2, v2.8b
	fmov	w8, s2
	tbnz	w8, #0, .LBB24_2
	add	x8, x0, x1
	ldur	q2, [x8, #-16]
	shrn	v2.8b, v2.8h, #8
	and	v0.8b, v2.8b, v0.8b
	cmeq	v0.8b, v0.8b, v1.8b
	umaxv	b0, v0.8b
.LBB24_23:
	fmov	w8, s0
	tbnz	w8, #0, .LBB24_2
	b	.LBB24_26
.LBB24_24:
	ldp	q1, q0, [x0]
	adrp	x8, .LCPI24_0
	uzp2	v2.16b, v1.16b, v0.16b
	movi	v0.16b, #248
	movi	v1.16b, #216
	and	v2.16b, v2.16b, v0.16b
	cmeq	v3.16b, v2.16b, v1.16b
	ldr	q2, [x8, :lo12:.LCPI24_0]
	and	v3.16b, v3.16b, v2.16b
	addp	v3.16b, v3.16b, v3.16b
	addp	v3.16b, v3.16b, v3.16b
	addp	v3.16b, v3.16b, v3.16b
	umov	w8, v3.h[0]
	cbnz	w8, .LBB24_2
	add	x8, x0, x1
	ldp	q4, q3, [x8, #-32]
	uzp2	v3.16b, v4.16b, v3.16b
	and	v0.16b, v3.16b, v0.16b
	cmeq	v0.16b, v0.16b, v1.16b
	and	v0.16b, v0.16b, v2.16b
	addp	v0.16b, v0.16b, v0.16b
	addp	v0.16b, v0.16b, v0.16b
	addp	v0.16b, v0.16b, v0.16b
	umov	w8, v0.h[0]
	cbnz	w8, .LBB24_2
.LBB24_26:
	mov	x0, x1
	ret
.Lfunc_end24:
	.size	"utf16_transcode::decode::valid_up_to::<#418c2b53cf60437c>", .Lfunc_end24-"utf16_transcode::decode::valid_up_to::<#418c2b53cf60437c>"
	.cfi_endproc

	.section	.rodata.cst16,"aM",@progbits,16
	.p2align	4, 0x0
.LCPI25_0:
	.byte	1
	.byte	2
	.byte	4
	.byte	8
	.byte	16
	.byte	32
	.byte	64
	.byte	128
	.byte	1
	.byte	2
	.byte	4
	.byte	8
	.byte	16
	.byte	32
	.byte	64
	.byte	128
	.section	".text.utf16_units::validate::valid_len::<#418c2b53cf60437c>","ax",@progbits
	.p2align	2
	.type	"utf16_units::validate::valid_len::<#418c2b53cf60437c>",@function
"utf16_units::validate::valid_len::<#418c2b53cf60437c>":
	.cfi_startproc
	cmp	x1, #32
	b.hs	.LBB25_9
	mov	x8, xzr
	cbnz	x1, .LBB25_3
	b	.LBB25_46
.LBB25_2:
	mov	w9, #2
	add	x8, x9, x8
	cmp	x8, x1
	b.hs	.LBB25_46
.LBB25_3:
	sub	x10, x1, x8
	cmp	x10, #2
	b.lo	.LBB25_46
	add	x9, x0, x8
	ldrb	w11, [x9, #1]
	and	w12, w11, #0xf8
	cmp	w12, #216
	b.ne	.LBB25_2
	cmp	x10, #4
	b.lo	.LBB25_46
	mov	w10, #220
	and	w10, w11, w10
	cmp	w10, #220
	b.eq	.LBB25_46
	ldrb	w9, [x9, #3]
	and	w9, w9, #0xfc
	cmp	w9, #220
	b.ne	.LBB25_46
	mov	w9, #4
	add	x8, x9, x8
	cmp	x8, x1
	b.lo	.LBB25_3
	b	.LBB25_46
.LBB25_9:
	cmp	x1, #64
	adrp	x9, .LCPI25_0
	mov	x10, xzr
	b.lo	.LBB25_19
	and	x8, x1, #0xffffffffffffff80
	mov	x11, x1
	b	.LBB25_13
.LBB25_11:
	sub	x10, x10, #64
.LBB25_12:
	sub	x11, x1, x10
	cmp	x11, #63
	b.ls	.LBB25_29
.LBB25_13:
	add	x12, x0, x10
	ldp	q1, q0, [x12]
	ldp	q3, q2, [x12, #32]
	uzp2	v0.16b, v1.16b, v0.16b
	movi	v1.16b, #248
	uzp2	v2.16b, v3.16b, v2.16b
	movi	v3.16b, #216
	and	v0.16b, v0.16b, v1.16b
	and	v1.16b, v2.16b, v1.16b
	cmeq	v2.16b, v0.16b, v3.16b
	ldr	q0, [x9, :lo12:.LCPI25_0]
	cmeq	v1.16b, v1.16b, v3.16b
	and	v2.16b, v2.16b, v0.16b
	and	v1.16b, v1.16b, v0.16b
	addp	v1.16b, v2.16b, v1.16b
	addp	v1.16b, v1.16b, v1.16b
	addp	v1.16b, v1.16b, v1.16b
	fmov	w12, s1
	cbnz	w12, .LBB25_20
	add	x10, x10, #64
	cmp	x10, #256
	b.ne	.LBB25_12
	cmp	x8, #256
	b.eq	.LBB25_12
	mov	w10, #320
	sub	x11, x1, #256
.LBB25_17:
	add	x12, x0, x10
	ldp	q2, q1, [x12, #-64]
	ldp	q4, q3, [x12, #-32]
	ldp	q6, q5, [x12]
	ldp	q16, q7, [x12, #32]
	uzp2	v1.16b, v2.16b, v1.16b
	movi	v2.16b, #248
	uzp2	v3.16b, v4.16b, v3.16b
	uzp2	v5.16b, v6.16b, v5.16b
	movi	v6.16b, #216
	uzp2	v4.16b, v16.16b, v7.16b
	and	v1.16b, v1.16b, v2.16b
	and	v3.16b, v3.16b, v2.16b
	and	v5.16b, v5.16b, v2.16b
	and	v2.16b, v4.16b, v2.16b
	cmeq	v1.16b, v1.16b, v6.16b
	cmeq	v3.16b, v3.16b, v6.16b
	cmeq	v4.16b, v5.16b, v6.16b
	cmeq	v2.16b, v2.16b, v6.16b
	and	v1.16b, v1.16b, v0.16b
	and	v3.16b, v3.16b, v0.16b
	and	v4.16b, v4.16b, v0.16b
	and	v2.16b, v2.16b, v0.16b
	addp	v1.16b, v1.16b, v3.16b
	addp	v2.16b, v4.16b, v2.16b
	addp	v1.16b, v1.16b, v1.16b
	addp	v2.16b, v2.16b, v2.16b
	addp	v1.16b, v1.16b, v1.16b
	addp	v2.16b, v2.16b, v2.16b
	orr	v1.16b, v2.16b, v1.16b
	fmov	w12, s1
	cbnz	w12, .LBB25_11
	sub	x11, x11, #128
	add	x10, x10, #128
	cmp	x11, #127
	b.hi	.LBB25_17
	b	.LBB25_11
.LBB25_19:
	mov	w8, wzr
	b	.LBB25_30
.LBB25_20:
	cmp	x11, #64
	b.ne	.LBB25_45
.LBB25_21:
	mov	w8, wzr
	b	.LBB25_23
.LBB25_22:
	lsr	w8, w12, #31
	cmp	x11, #63
	b.ls	.LBB25_51
.LBB25_23:
	add	x11, x0, x10
	ldp	q2, q1, [x11]
	ldp	q4, q3, [x11, #32]
	uzp2	v1.16b, v2.16b, v1.16b
	movi	v2.16b, #252
	uzp2	v3.16b, v4.16b, v3.16b
	movi	v4.16b, #216
	and	v1.16b, v1.16b, v2.16b
	and	v2.16b, v3.16b, v2.16b
	movi	v3.16b, #220
	cmeq	v5.16b, v2.16b, v4.16b
	cmeq	v4.16b, v1.16b, v4.16b
	cmeq	v2.16b, v2.16b, v3.16b
	cmeq	v1.16b, v1.16b, v3.16b
	and	v3.16b, v4.16b, v0.16b
	and	v4.16b, v5.16b, v0.16b
	and	v1.16b, v1.16b, v0.16b
	and	v2.16b, v2.16b, v0.16b
	addp	v3.16b, v3.16b, v4.16b
	addp	v1.16b, v1.16b, v2.16b
	addp	v2.16b, v3.16b, v3.16b
	addp	v1.16b, v1.16b, v1.16b
	addp	v2.16b, v2.16b, v2.16b
	addp	v1.16b, v1.16b, v1.16b
	fmov	w12, s2
	fmov	w13, s1
	lsl	w11, w12, #1
	bfxil	x11, x8, #0, #1
	cmp	x11, x13
	b.ne	.LBB25_51
	add	x10, x10, #64
	sub	x11, x1, x10
	cmp	x11, #64
	b.lo	.LBB25_22
	and	x8, x10, #0xff
	cbnz	x8, .LBB25_22
	cbnz	w12, .LBB25_22
.LBB25_27:
	add	x8, x0, x10
	ldp	q2, q1, [x8]
	ldp	q4, q3, [x8, #32]
	uzp2	v1.16b, v2.16b, v1.16b
	movi	v2.16b, #248
	uzp2	v3.16b, v4.16b, v3.16b
	movi	v4.16b, #216
	and	v1.16b, v1.16b, v2.16b
	and	v2.16b, v3.16b, v2.16b
	cmeq	v1.16b, v1.16b, v4.16b
	cmeq	v2.16b, v2.16b, v4.16b
	and	v1.16b, v1.16b, v0.16b
	and	v2.16b, v2.16b, v0.16b
	addp	v1.16b, v1.16b, v2.16b
	addp	v1.16b, v1.16b, v1.16b
	addp	v1.16b, v1.16b, v1.16b
	fmov	w8, s1
	cbnz	w8, .LBB25_22
	sub	x11, x11, #64
	add	x10, x10, #64
	cmp	x11, #63
	b.hi	.LBB25_27
.LBB25_29:
	mov	w8, wzr
	cmp	x11, #32
	b.lo	.LBB25_31
.LBB25_30:
	add	x11, x0, x10
	movi	v2.16b, #216
	ldr	q3, [x9, :lo12:.LCPI25_0]
	ldp	q1, q0, [x11]
	mov	w14, w8
	and	x14, x14, #0x1
	uzp2	v0.16b, v1.16b, v0.16b
	movi	v1.16b, #252
	and	v0.16b, v0.16b, v1.16b
	movi	v1.16b, #220
	cmeq	v2.16b, v0.16b, v2.16b
	cmeq	v0.16b, v0.16b, v1.16b
	and	v1.16b, v2.16b, v3.16b
	and	v0.16b, v0.16b, v3.16b
	addp	v1.16b, v1.16b, v1.16b
	addp	v0.16b, v0.16b, v0.16b
	addp	v1.16b, v1.16b, v1.16b
	addp	v0.16b, v0.16b, v0.16b
	addp	v1.16b, v1.16b, v1.16b
	addp	v0.16b, v0.16b, v0.16b
	umov	w11, v1.h[0]
	smov	w12, v1.h[0]
	umov	w13, v0.h[0]
	bfi	x14, x11, #1, #15
	cmp	w12, #0
	add	x11, x10, #32
	cset	w12, mi
	cmp	x14, w13, uxth
	csel	x10, x11, x10, eq
	csel	w8, w12, w8, eq
.LBB25_31:
	sub	x11, x10, #2
	tst	w8, #0x1
	csel	x8, x11, x10, ne
	sub	x10, x1, x8
	cmp	x10, #32
	b.hi	.LBB25_35
	sub	x10, x8, x1
	tbnz	w10, #0, .LBB25_36
	add	x11, x0, x1
	movi	v2.16b, #220
	movi	v3.16b, #216
	ldp	q1, q0, [x11, #-32]
	add	x10, x10, #32
	lsr	x10, x10, #1
	uzp2	v0.16b, v1.16b, v0.16b
	movi	v1.16b, #252
	and	v0.16b, v0.16b, v1.16b
	cmeq	v1.16b, v0.16b, v2.16b
	cmeq	v0.16b, v0.16b, v3.16b
	ldr	q2, [x9, :lo12:.LCPI25_0]
	and	v1.16b, v1.16b, v2.16b
	and	v0.16b, v0.16b, v2.16b
	addp	v1.16b, v1.16b, v1.16b
	addp	v0.16b, v0.16b, v0.16b
	addp	v1.16b, v1.16b, v1.16b
	addp	v0.16b, v0.16b, v0.16b
	addp	v1.16b, v1.16b, v1.16b
	addp	v0.16b, v0.16b, v0.16b
	umov	w9, v1.h[0]
	umov	w11, v0.h[0]
	lsr	x9, x9, x10
	lsr	x10, x11, x10
	cmp	x9, x10, lsl #1
	b.ne	.LBB25_36
	mov	x0, x1
	ret
.LBB25_35:
	cmp	x10, #64
	b.hs	.LBB25_37
.LBB25_36:
	add	x8, xzr, x8
	cmp	x8, x1
	b.lo	.LBB25_39
	b	.LBB25_46
.LBB25_37:
	add	x10, x0, x8
	ldp	q1, q0, [x10]
	ldp	q3, q2, [x10, #32]
	uzp2	v0.16b, v1.16b, v0.16b
	movi	v1.16b, #248
	uzp2	v2.16b, v3.16b, v2.16b
	movi	v3.16b, #216
	and	v0.16b, v0.16b, v1.16b
	and	v1.16b, v2.16b, v1.16b
	ldr	q2, [x9, :lo12:.LCPI25_0]
	cmeq	v0.16b, v0.16b, v3.16b
	cmeq	v1.16b, v1.16b, v3.16b
	and	v0.16b, v0.16b, v2.16b
	and	v1.16b, v1.16b, v2.16b
	addp	v0.16b, v0.16b, v1.16b
	addp	v0.16b, v0.16b, v0.16b
	addp	v0.16b, v0.16b, v0.16b
	fmov	w9, s0
	rbit	w9, w9
	clz	w9, w9
	lsl	w9, w9, #1
	add	x8, x9, x8
	cmp	x8, x1
	b.lo	.LBB25_39
	b	.LBB25_46
.LBB25_38:
	mov	w9, #2
	add	x8, x9, x8
	cmp	x8, x1
	b.hs	.LBB25_46
.LBB25_39:
	sub	x10, x1, x8
	cmp	x10, #2
	b.lo	.LBB25_46
	add	x9, x0, x8
	ldrb	w11, [x9, #1]
	and	w12, w11, #0xf8
	cmp	w12, #216
	b.ne	.LBB25_38
	cmp	x10, #4
	b.lo	.LBB25_46
	mov	w10, #220
	and	w10, w11, w10
	cmp	w10, #220
	b.eq	.LBB25_46
	ldrb	w9, [x9, #3]
	and	w9, w9, #0xfc
	cmp	w9, #220
	b.ne	.LBB25_46
	mov	w9, #4
	add	x8, x9, x8
	cmp	x8, x1
	b.lo	.LBB25_39
	b	.LBB25_46
.LBB25_45:
	rbit	w8, w12
	clz	w8, w8
	lsl	w8, w8, #1
	add	x8, x10, x8
	sub	x12, x1, x8
	cmp	x12, #2
	b.hs	.LBB25_47
.LBB25_46:
	mov	x0, x8
	ret
.LBB25_47:
	add	x11, x0, x8
	ldrb	w13, [x11, #1]
	and	w14, w13, #0xf8
	cmp	w14, #216
	b.ne	.LBB25_21
	cmp	x12, #4
	b.lo	.LBB25_46
	mov	w12, #220
	and	w12, w13, w12
	cmp	w12, #220
	b.eq	.LBB25_46
	ldrb	w11, [x11, #3]
	and	w11, w11, #0xfc
	cmp	w11, #220
	b.eq	.LBB25_21
	b	.LBB25_46
.LBB25_51:
	sub	x11, x1, x10
	cmp	x11, #32
	b.hs	.LBB25_30
	b	.LBB25_31
.Lfunc_end25:
	.size	"utf16_units::validate::valid_len::<#418c2b53cf60437c>", .Lfunc_end25-"utf16_units::validate::valid_len::<#418c2b53cf60437c>"
	.cfi_endproc

	.section	".text.utf16_to_utf8::write::write_utf8::<#418c2b53cf60437c>","ax",@progbits
	.p2align	2
	.type	"utf16_to_utf8::write::write_utf8::<#418c2b53cf60437c>",@function
"utf16_to_utf8::write::write_utf8::<#418c2b53cf60437c>":
	.cfi_startproc
	sub	sp, sp, #96
	.cfi_def_cfa_offset 96
	stp	x29, x30, [sp, #48]
	stp	x22, x21, [sp, #64]
	stp	x20, x19, [sp, #80]
	add	x29, sp, #48
	.cfi_def_cfa w29, 48
	.cfi_offset w19, -8
	.cfi_offset w20, -16
	.cfi_offset w21, -24
	.cfi_offset w22, -32
	.cfi_offset w30, -40
	.cfi_offset w29, -48
	.cfi_remember_state
	lsr	x8, x1, #1
	mov	x19, x2
	mov	x20, x0
	cmp	x1, #191
	add	x8, x8, x8, lsl #1
	add	x21, x8, #128
	b.ls	.LBB26_3
	movi	v0.2d, #0000000000000000
	mov	x22, x1
	mov	x0, sp
	mov	x1, x20
	mov	x2, x22
	mov	x3, x19
	mov	x4, x21
	str	xzr, [sp, #32]
	stp	q0, q0, [sp]
	bl	"utf16_to_utf8::runs::write_paired::<#418c2b53cf60437c>"
	ldp	x9, x10, [sp]
	ldrb	w8, [sp, #32]
	tst	w8, #0x1
	sub	x11, x9, #2
	csel	x8, x11, x9, ne
	sub	x9, x10, #2
	sub	x1, x22, x8
	csel	x22, x9, x10, ne
	cmp	x1, #7
	b.hi	.LBB26_5
	add	x0, x20, x8
	add	x2, x19, x22
	bl	"utf16_to_utf8::chars::write_chars::<#418c2b53cf60437c>"
	add	x0, x0, x22
	.cfi_def_cfa wsp, 96
	ldp	x20, x19, [sp, #80]
	ldp	x22, x21, [sp, #64]
	ldp	x29, x30, [sp, #48]
	add	sp, sp, #96
	.cfi_def_cfa_offset 0
	.cfi_restore w19
	.cfi_restore w20
	.cfi_restore w21
	.cfi_restore w22
	.cfi_restore w30
	.cfi_restore w29
	ret
.LBB26_3:
	.cfi_restore_state
	.cfi_remember_state
	mov	x0, x20
	mov	x2, x19
	cmp	x1, #7
	b.ls	.LBB26_6
	mov	x3, x21
	bl	"utf16_to_utf8::vectors::write_vectors::<#418c2b53cf60437c>"
	mov	x0, x1
	.cfi_def_cfa wsp, 96
	ldp	x20, x19, [sp, #80]
	ldp	x22, x21, [sp, #64]
	ldp	x29, x30, [sp, #48]
	add	sp, sp, #96
	.cfi_def_cfa_offset 0
	.cfi_restore w19
	.cfi_restore w20
	.cfi_restore w21
	.cfi_restore w22
	.cfi_restore w30
	.cfi_restore w29
	ret
.LBB26_5:
	.cfi_restore_state
	.cfi_remember_state
	sub	x3, x21, x22
	add	x0, x20, x8
	add	x2, x19, x22
	bl	"utf16_to_utf8::vectors::write_vectors::<#418c2b53cf60437c>"
	add	x0, x1, x22
	.cfi_def_cfa wsp, 96
	ldp	x20, x19, [sp, #80]
	ldp	x22, x21, [sp, #64]
	ldp	x29, x30, [sp, #48]
	add	sp, sp, #96
	.cfi_def_cfa_offset 0
	.cfi_restore w19
	.cfi_restore w20
	.cfi_restore w21
	.cfi_restore w22
	.cfi_restore w30
	.cfi_restore w29
	ret
.LBB26_6:
	.cfi_restore_state
	.cfi_def_cfa wsp, 96
	ldp	x20, x19, [sp, #80]
	ldp	x22, x21, [sp, #64]
	ldp	x29, x30, [sp, #48]
	add	sp, sp, #96
	.cfi_def_cfa_offset 0
	.cfi_restore w19
	.cfi_restore w20
	.cfi_restore w21
	.cfi_restore w22
	.cfi_restore w30
	.cfi_restore w29
	b	"utf16_to_utf8::chars::write_chars::<#418c2b53cf60437c>"
.Lfunc_end26:
	.size	"utf16_to_utf8::write::write_utf8::<#418c2b53cf60437c>", .Lfunc_end26-"utf16_to_utf8::write::write_utf8::<#418c2b53cf60437c>"
	.cfi_endproc

	.section	".text.utf16_to_utf8::chars::write_chars::<#418c2b53cf60437c>","ax",@progbits
	.p2align	2
	.type	"utf16_to_utf8::chars::write_chars::<#418c2b53cf60437c>",@function
"utf16_to_utf8::chars::write_chars::<#418c2b53cf60437c>":
	.cfi_startproc
	stp	x29, x30, [sp, #-48]!
	.cfi_def_cfa_offset 48
	stp	x22, x21, [sp, #16]
	stp	x20, x19, [sp, #32]
	mov	x29, sp
	.cfi_def_cfa w29, 48
	.cfi_offset w19, -8
	.cfi_offset w20, -16
	.cfi_offset w21, -24
	.cfi_offset w22, -32
	.cfi_offset w30, -40
	.cfi_offset w29, -48
	cbz	x1, .LBB27_12
	mov	x19, x2
	mov	x20, x1
	mov	x21, x0
	mov	x22, xzr
	b	.LBB27_4
.LBB27_2:
	strb	w0, [x19, x22]
	add	x22, x22, #1
.LBB27_3:
	subs	x20, x20, x8
	add	x21, x21, x8
	b.eq	.LBB27_13
.LBB27_4:
	ldrb	w8, [x21, #1]
	ldrb	w9, [x21]
	and	w10, w8, #0xfc
	orr	w0, w9, w8, lsl #8
	cmp	w10, #216
	b.ne	.LBB27_6
	ldrh	w1, [x21, #2]
	bl	"utf16_units::unit::decode_surrogates"
	mov	w8, #4
	cmp	w0, #127
	b.ls	.LBB27_2
	b	.LBB27_7
.LBB27_6:
	mov	w8, #2
	cmp	w0, #127
	b.ls	.LBB27_2
.LBB27_7:
	mov	w9, #-128
	cmp	w0, #2047
	bfxil	w9, w0, #0, #6
	b.hi	.LBB27_9
	lsr	w10, w0, #6
	add	x11, x22, #2
	orr	w10, w10, #0xc0
	bfi	w10, w9, #8, #24
	strh	w10, [x19, x22]
	mov	x22, x11
	b	.LBB27_3
.LBB27_9:
	lsr	w10, w0, #16
	cbnz	w10, .LBB27_11
	lsr	w10, w0, #12
	mov	w11, #128
	add	x12, x19, x22
	bfxil	w11, w0, #6, #6
	add	x22, x22, #3
	strb	w9, [x12, #2]
	orr	w10, w10, #0xe0
	strb	w10, [x12]
	strb	w11, [x12, #1]
	b	.LBB27_3
.LBB27_11:
	lsl	w10, w0, #10
	mov	w11, #32768
	movk	w11, #128, lsl #16
	and	w10, w10, #0x3f0000
	orr	w9, w10, w9, lsl #24
	lsr	w10, w0, #18
	bfxil	w9, w0, #4, #14
	add	w10, w10, #240
	bfxil	w9, w10, #0, #8
	add	x10, x22, #4
	orr	w9, w9, w11
	str	w9, [x19, x22]
	mov	x22, x10
	b	.LBB27_3
.LBB27_12:
	mov	x22, xzr
.LBB27_13:
	mov	x0, x22
	.cfi_def_cfa wsp, 48
	ldp	x20, x19, [sp, #32]
	ldp	x22, x21, [sp, #16]
	ldp	x29, x30, [sp], #48
	.cfi_def_cfa_offset 0
	.cfi_restore w19
	.cfi_restore w20
	.cfi_restore w21
	.cfi_restore w22
	.cfi_restore w30
	.cfi_restore w29
	ret
.Lfunc_end27:
	.size	"utf16_to_utf8::chars::write_chars::<#418c2b53cf60437c>", .Lfunc_end27-"utf16_to_utf8::chars::write_chars::<#418c2b53cf60437c>"
	.cfi_endproc

	.section	.rodata.cst16,"aM",@progbits,16
	.p2align	4, 0x0
.LCPI28_0:
	.byte	1
	.byte	2
	.byte	4
	.byte	8
	.byte	16
	.byte	32
	.byte	64
	.byte	128
	.byte	1
	.byte	2
	.byte	4
	.byte	8
	.byte	16
	.byte	32
	.byte	64
	.byte	128
	.section	".text.utf16_transcode::ascii::write_lossy_ascii_blocks::<#418c2b53cf60437c>","ax",@progbits
	.p2align	2
	.type	"utf16_transcode::ascii::write_lossy_ascii_blocks::<#418c2b53cf60437c>",@function
"utf16_transcode::ascii::write_lossy_ascii_blocks::<#418c2b53cf60437c>":
	.cfi_startproc
	mov	x8, x1
	mov	x9, x0
	mov	x0, xzr
	mov	x1, xzr
	sub	x10, x8, #66
	sub	x11, x3, #35
.LBB28_1:
	add	x12, x9, x0
	adrp	x13, .LCPI28_0
	ldp	q0, q2, [x12, #32]
	ldr	q4, [x13, :lo12:.LCPI28_0]
	ldp	q1, q3, [x12]
	add	x13, x2, x1
	uqxtn	v0.8b, v0.8h
	uqxtn	v1.8b, v1.8h
	uqxtn2	v0.16b, v2.8h
	uqxtn2	v1.16b, v3.8h
	cmlt	v2.16b, v0.16b, #0
	cmlt	v3.16b, v1.16b, #0
	stp	q1, q0, [x13]
	and	v2.16b, v2.16b, v4.16b
	and	v3.16b, v3.16b, v4.16b
	addp	v2.16b, v3.16b, v2.16b
	addp	v2.16b, v2.16b, v2.16b
	addp	v2.16b, v2.16b, v2.16b
	fmov	w14, s2
	cbz	w14, .LBB28_9
	rbit	w14, w14
	sub	x16, x8, x0
	clz	w14, w14
	lsl	x15, x14, #1
	sub	x16, x16, x15
	cmp	x16, #2
	b.lo	.LBB28_12
	add	x12, x12, x15
	ldrb	w17, [x12, #1]
	and	w18, w17, #0xf8
	cmp	w18, #216
	b.ne	.LBB28_12
	mov	w18, #220
	bics	wzr, w18, w17
	b.eq	.LBB28_7
	cmp	x16, #4
	b.lo	.LBB28_12
	ldrb	w12, [x12, #3]
	and	w12, w12, #0xfc
	cmp	w12, #220
	b.eq	.LBB28_12
.LBB28_7:
	add	x16, x13, x14
	adrp	x12, .Lstatic.6
	add	x12, x12, :lo12:.Lstatic.6
	sub	x12, x16, x12
	add	x13, x15, #2
	cmp	x12, #2
	add	x12, x14, #3
	b.hi	.LBB28_10
	mov	w14, #49135
	mov	w15, #189
	strh	w14, [x16]
	strb	w15, [x16, #2]
	add	x0, x13, x0
	add	x1, x12, x1
	cmp	x0, x10
	b.ls	.LBB28_11
	b	.LBB28_12
.LBB28_9:
	mov	w13, #64
	mov	w12, #32
	add	x0, x13, x0
	add	x1, x12, x1
	cmp	x0, x10
	b.ls	.LBB28_11
	b	.LBB28_12
.LBB28_10:
	mov	w14, #189
	mov	w15, #49135
	strb	w14, [x16, #2]
	strh	w15, [x16]
	add	x0, x13, x0
	add	x1, x12, x1
	cmp	x0, x10
	b.hi	.LBB28_12
.LBB28_11:
	cmp	x1, x11
	b.ls	.LBB28_1
.LBB28_12:
	ret
.Lfunc_end28:
	.size	"utf16_transcode::ascii::write_lossy_ascii_blocks::<#418c2b53cf60437c>", .Lfunc_end28-"utf16_transcode::ascii::write_lossy_ascii_blocks::<#418c2b53cf60437c>"
	.cfi_endproc

	.section	".text.utf16_transcode::decode_lossy::write_copied::<#418c2b53cf60437c>","ax",@progbits
	.p2align	2
	.type	"utf16_transcode::decode_lossy::write_copied::<#418c2b53cf60437c>",@function
"utf16_transcode::decode_lossy::write_copied::<#418c2b53cf60437c>":
	.cfi_startproc
	stp	x29, x30, [sp, #-64]!
	.cfi_def_cfa_offset 64
	stp	x28, x23, [sp, #16]
	stp	x22, x21, [sp, #32]
	stp	x20, x19, [sp, #48]
	mov	x29, sp
	.cfi_def_cfa w29, 64
	.cfi_offset w19, -8
	.cfi_offset w20, -16
	.cfi_offset w21, -24
	.cfi_offset w22, -32
	.cfi_offset w23, -40
	.cfi_offset w28, -48
	.cfi_offset w30, -56
	.cfi_offset w29, -64
	sub	sp, sp, #1024
	mov	x9, #-6148914691236517206
	sub	x8, x3, #128
	mov	x19, x2
	movk	x9, #43691
	mov	x21, x0
	mov	x0, sp
	umulh	x8, x8, x9
	mov	w9, #1024
	mov	w2, #1024
	and	x8, x8, #0xfffffffffffffffe
	cmp	x8, x1
	csel	x8, x8, x1, lo
	mov	w1, wzr
	cmp	x8, #1024
	csel	x8, x8, x9, lo
	and	x20, x8, #0x7fe
	bl	memset
	cbz	x20, .LBB29_3
	add	x8, x21, x20
	ldurb	w8, [x8, #-1]
	and	w8, w8, #0xfc
	cmp	w8, #216
	b.ne	.LBB29_3
	sub	x20, x20, #2
.LBB29_3:
	mov	x0, sp
	mov	x1, x21
	mov	x2, x20
	bl	memcpy
	ands	x21, x20, #0xfffffffffffffffe
	b.eq	.LBB29_14
	mov	x22, xzr
	b	.LBB29_6
.LBB29_5:
	mov	w9, #65533
	strh	w9, [x8]
	mov	w8, #2
	add	x22, x8, x22
	cmp	x22, x21
	b.hs	.LBB29_14
.LBB29_6:
	sub	x9, x21, x22
	mov	x8, sp
	cmp	x9, #2
	add	x8, x8, x22
	b.lo	.LBB29_5
	ldrb	w10, [x8, #1]
	and	w11, w10, #0xf8
	cmp	w11, #216
	b.ne	.LBB29_12
	cmp	x9, #4
	b.lo	.LBB29_5
	mov	w9, #220
	and	w9, w10, w9
	cmp	w9, #220
	b.eq	.LBB29_5
	ldrb	w9, [x8, #3]
	and	w9, w9, #0xfc
	cmp	w9, #220
	b.ne	.LBB29_5
	mov	w23, #4
	b	.LBB29_13
.LBB29_12:
	mov	w23, #2
.LBB29_13:
	add	x8, x23, x22
	mov	x9, sp
	sub	x1, x21, x8
	add	x0, x9, x8
	bl	"utf16_transcode::decode::valid_up_to::<#418c2b53cf60437c>"
	add	x8, x0, x23
	add	x22, x8, x22
	cmp	x22, x21
	b.lo	.LBB29_6
.LBB29_14:
	mov	x0, sp
	mov	x1, x20
	mov	x2, x19
	bl	"utf16_to_utf8::write::write_utf8::<#418c2b53cf60437c>"
	mov	x1, x0
	mov	x0, x20
	add	sp, sp, #1024
	.cfi_def_cfa wsp, 64
	ldp	x20, x19, [sp, #48]
	ldp	x22, x21, [sp, #32]
	ldp	x28, x23, [sp, #16]
	ldp	x29, x30, [sp], #64
	.cfi_def_cfa_offset 0
	.cfi_restore w19
	.cfi_restore w20
	.cfi_restore w21
	.cfi_restore w22
	.cfi_restore w23
	.cfi_restore w28
	.cfi_restore w30
	.cfi_restore w29
	ret
.Lfunc_end29:
	.size	"utf16_transcode::decode_lossy::write_copied::<#418c2b53cf60437c>", .Lfunc_end29-"utf16_transcode::decode_lossy::write_copied::<#418c2b53cf60437c>"
	.cfi_endproc

	.section	.text.main,"ax",@progbits
	.globl	proved_main_aarch64
	.hidden	proved_main_aarch64
	.p2align	2
	.type	proved_main_aarch64,@function
proved_main_aarch64:
	.cfi_startproc
	hint	#34
	stp	x29, x30, [sp, #-96]!
	.cfi_def_cfa_offset 96
	stp	x28, x27, [sp, #16]
	stp	x26, x25, [sp, #32]
	stp	x24, x23, [sp, #48]
	stp	x22, x21, [sp, #64]
	stp	x20, x19, [sp, #80]
	mov	x29, sp
	.cfi_def_cfa w29, 96
	.cfi_offset w19, -8
	.cfi_offset w20, -16
	.cfi_offset w21, -24
	.cfi_offset w22, -32
	.cfi_offset w23, -40
	.cfi_offset w24, -48
	.cfi_offset w25, -56
	.cfi_offset w26, -64
	.cfi_offset w27, -72
	.cfi_offset w28, -80
	.cfi_offset w30, -88
	.cfi_offset w29, -96
	.cfi_remember_state
	sub	sp, sp, #3072
	str	xzr, [sp]
	sub	sp, sp, #1216
	mov	w0, #13
	mov	w1, #1
	str	xzr, [sp]
	sub	x25, x29, #128
	bl	__sysv_signal
	mov	x26, xzr
	mov	x20, xzr
	sub	x19, x29, #16
	add	x27, sp, #64
	stp	xzr, xzr, [x29, #-96]
	stur	x19, [x29, #-104]
.LBB30_1:
	mov	w28, #64
	mov	w22, #256
	b	.LBB30_3
.LBB30_2:
	adds	x8, x22, x22
	csinv	x22, x8, xzr, lo
	subs	w28, w28, #1
	b.eq	.LBB30_101
.LBB30_3:
	sub	x21, x29, #16
	stp	xzr, xzr, [x27, #8]
	str	x21, [sp, #64]
	cbnz	x22, .LBB30_8
	mov	x23, xzr
.LBB30_5:
	mov	x0, x20
	mov	x1, x21
	mov	x2, x23
	bl	rattle_arg
	mov	w8, #36
	cmn	x0, #1
	mov	w9, #22
	csel	w8, w9, w8, eq
	mov	x24, x0
	csel	w0, wzr, w8, gt
	bl	rattle_set_errno
	bl	rattle_errno
	cmp	w0, #36
	b.ne	.LBB30_11
	ldr	x8, [sp, #80]
	cbz	x8, .LBB30_2
	mov	x0, x21
	bl	rattle_dealloc
	b	.LBB30_2
.LBB30_8:
	add	x0, sp, #64
	mov	x1, x22
	bl	"std_alloc::vec::Vec::grow_amortized::<#9514263aca3ecb2c>"
	cbz	w0, .LBB30_99
	ldp	x21, x8, [sp, #64]
	add	x23, x8, x22
	cmp	x8, x23
	b.hs	.LBB30_5
	add	x0, x21, x8
	mov	w1, wzr
	mov	x2, x22
	bl	memset
	b	.LBB30_5
.LBB30_11:
	cbnz	w0, .LBB30_17
	cmp	x24, x23
	add	x0, sp, #64
	mov	x1, x21
	csel	x8, x24, x23, lo
	cmp	x24, #0
	ldr	x23, [sp, #80]
	csel	x22, x8, xzr, gt
	stp	xzr, xzr, [sp, #64]
	mov	x2, x22
	str	xzr, [sp, #80]
	bl	"core::str::utf8::from_utf8"
	ldrb	w8, [sp, #64]
	cmp	w8, #1
	b.eq	.LBB30_180
	ldur	x8, [x29, #-88]
	cmp	x8, x26
	b.eq	.LBB30_15
.LBB30_14:
	mov	w8, #24
	add	x20, x20, #1
	madd	x8, x26, x8, x19
	add	x26, x26, #1
	cmn	x20, #1
	stp	x21, x22, [x8]
	str	x23, [x8, #16]
	stur	x26, [x29, #-96]
	b.ne	.LBB30_1
	b	.LBB30_19
.LBB30_15:
	sub	x0, x29, #104
	bl	"std_alloc::vec::Vec::grow_amortized::<#968d335fc558f578>"
	cbz	w0, .LBB30_206
	ldp	x19, x26, [x29, #-104]
	b	.LBB30_14
.LBB30_17:
	ldr	x8, [sp, #80]
	cbz	x8, .LBB30_19
	mov	x0, x21
	bl	rattle_dealloc
.LBB30_19:
	ldur	x20, [x29, #-104]
	ldur	x22, [x29, #-88]
	cbz	x26, .LBB30_22
	ldr	x21, [x20]
	ldr	x27, [x20, #16]
	cmp	x26, #1
	b.ne	.LBB30_23
	mov	w26, wzr
	mov	x19, xzr
	mov	x24, xzr
	mov	x23, xzr
	cbnz	x27, .LBB30_25
	b	.LBB30_26
.LBB30_22:
	mov	x19, xzr
	mov	x24, xzr
	mov	x23, xzr
	b	.LBB30_26
.LBB30_23:
	ldr	x19, [x20, #24]
	ldr	x23, [x20, #40]
	cmp	x26, #2
	b.ne	.LBB30_34
	ldr	x24, [x20, #32]
	mov	w26, #1
	cbz	x27, .LBB30_26
.LBB30_25:
	mov	x0, x21
	bl	rattle_dealloc
.LBB30_26:
	cbz	x22, .LBB30_28
	mov	x0, x20
	bl	rattle_dealloc
.LBB30_28:
	cbz	w26, .LBB30_111
	cmp	x24, #4
	b.eq	.LBB30_43
	cmp	x24, #2
	b.ne	.LBB30_90
	ldrb	w8, [x19, #1]
	ldrb	w9, [x19]
	lsl	x10, x8, #8
	orr	x9, x10, x9, lsl #16
	orr	x8, x9, x8
	sub	x9, x8, #1734, lsl #12
	cmp	x9, #1381
	b.eq	.LBB30_130
	mov	w9, #25957
	movk	w9, #98, lsl #16
	cmp	x8, x9
	b.ne	.LBB30_90
	mov	w21, wzr
	mov	w20, #1
	cbnz	x23, .LBB30_45
	b	.LBB30_46
.LBB30_34:
	ldr	x8, [x20, #64]
	cbz	x8, .LBB30_36
	ldr	x0, [x20, #48]
	bl	rattle_dealloc
.LBB30_36:
	cbz	x23, .LBB30_38
	mov	x0, x19
	bl	rattle_dealloc
.LBB30_38:
	cbz	x27, .LBB30_40
	mov	x0, x21
	bl	rattle_dealloc
.LBB30_40:
	subs	x19, x26, #3
	b.ne	.LBB30_95
.LBB30_41:
	cbz	x22, .LBB30_111
	mov	x0, x20
	b	.LBB30_92
.LBB30_43:
	ldr	w8, [x19]
	mov	x9, #30049
	movk	x9, #28532, lsl #16
	orr	x8, x8, x8, lsl #32
	orr	x9, x9, x9, lsl #32
	cmp	x8, x9
	b.ne	.LBB30_90
	mov	w20, wzr
	mov	w21, #1
	cbz	x23, .LBB30_46
.LBB30_45:
	mov	x0, x19
	bl	rattle_dealloc
.LBB30_46:
	cbz	w21, .LBB30_93
	add	x0, sp, #64
	mov	w1, wzr
	mov	w2, #4096
	strb	wzr, [sp, #8]
	add	x19, sp, #64
	stur	wzr, [sp, #9]
	bl	memset
	sub	x8, x29, #16
	mov	x27, xzr
	mov	x28, xzr
	mov	x21, xzr
	mov	x23, xzr
	stp	x8, xzr, [sp, #16]
	orr	x24, x19, #0x1
	orr	x8, x19, #0x2
	stp	xzr, xzr, [sp, #48]
	stp	xzr, xzr, [sp, #32]
	str	x8, [sp]
.LBB30_48:
	add	x1, sp, #64
	mov	w0, wzr
	mov	w2, #4096
	bl	read
	tbnz	x0, #63, .LBB30_190
	cmp	x0, #1, lsl #12
	mov	w8, #4096
	csel	x2, x0, x8, lo
	cbz	x0, .LBB30_194
	cmp	x0, #8
	b.hs	.LBB30_52
	add	x19, sp, #40
	mov	w4, #24
	b	.LBB30_64
.LBB30_52:
	cbnz	x21, .LBB30_58
	sub	x8, x28, #1
	mov	x9, #-8704
	cmp	x8, x9
	b.hs	.LBB30_55
	mov	x21, xzr
	b	.LBB30_58
.LBB30_55:
	mov	x8, #-8705
	cmp	x28, x8
	b.hi	.LBB30_244
	mov	w8, #8704
	mov	x20, x0
	mov	w1, #1
	add	x19, x28, x8
	mov	x22, x2
	mov	x0, x19
	bl	rattle_alloc
	tbz	w0, #0, .LBB30_244
	mov	w27, #8704
	mov	w21, #8704
	mov	x2, x22
	mov	x0, x20
	str	x1, [sp, #16]
	str	x19, [sp, #32]
.LBB30_58:
	lsl	x8, x2, #1
	add	x8, x8, #512
	subs	x20, x8, x28
	b.ls	.LBB30_63
	sub	x8, x21, x28
	cmp	x20, x8
	b.hi	.LBB30_88
	add	x4, x28, x20
	ldr	x19, [sp, #16]
	cmp	x28, x4
	b.hs	.LBB30_62
.LBB30_61:
	mov	x22, x0
	add	x0, x19, x28
	mov	w1, wzr
	mov	x26, x2
	mov	x2, x20
	mov	x20, x4
	bl	memset
	mov	x4, x20
	mov	x0, x22
	mov	x2, x26
.LBB30_62:
	mov	x27, x21
	mov	x28, x4
	stp	x4, x21, [sp, #24]
	b	.LBB30_64
.LBB30_63:
	ldr	x19, [sp, #16]
	mov	x4, x28
.LBB30_64:
	ldrb	w8, [sp, #8]
	strb	wzr, [x25, #28]
	stur	wzr, [x29, #-104]
	cmp	w8, #2
	b.eq	.LBB30_67
	cmp	w8, #1
	b.ne	.LBB30_68
	add	x8, sp, #8
	add	x1, sp, #64
	mov	x3, x19
	orr	x0, x8, #0x1
	bl	"utf16_streams::lossy::LossyTranscoder::feed_to::<#8b18edd9dd9aa8df>"
	mov	x20, x0
	cbnz	x0, .LBB30_83
	b	.LBB30_87
.LBB30_67:
	add	x8, sp, #8
	add	x1, sp, #64
	mov	x3, x19
	orr	x0, x8, #0x1
	bl	"utf16_streams::lossy::LossyTranscoder::feed_to::<#418c2b53cf60437c>"
	mov	x20, x0
	cbnz	x0, .LBB30_83
	b	.LBB30_87
.LBB30_68:
	ldrb	w10, [sp, #9]
	ldrb	w9, [sp, #10]
	cbz	w10, .LBB30_70
	sub	x8, x2, #1
	add	x12, sp, #64
	mov	x1, x24
	mov	w11, w9
	b	.LBB30_73
.LBB30_70:
	cmp	x0, #1
	b.ne	.LBB30_72
	ldrb	w8, [sp, #64]
	mov	w9, #1
	mov	x20, xzr
	orr	w8, w9, w8, lsl #8
	stur	w8, [x25, #25]
	b	.LBB30_82
.LBB30_72:
	ldrb	w11, [sp, #64]
	ldr	x1, [sp]
	sub	x8, x2, #2
	mov	x12, x24
.LBB30_73:
	ldrb	w12, [x12]
	cmp	w11, #255
	b.eq	.LBB30_77
	cmp	w11, #254
	b.ne	.LBB30_79
	cmp	w12, #255
	b.ne	.LBB30_79
	mov	w9, wzr
	mov	x2, x8
	b	.LBB30_80
.LBB30_77:
	cmp	w12, #254
	b.ne	.LBB30_79
	mov	w9, #2
	mov	x2, x8
	mov	x3, x19
	strb	w9, [x25, #24]
	sub	x9, x29, #104
	orr	x0, x9, #0x1
	bl	"utf16_streams::lossy::LossyTranscoder::feed_to::<#418c2b53cf60437c>"
	b	.LBB30_81
.LBB30_79:
	cmp	w10, #1
	mov	w8, #16777216
	add	x1, sp, #64
	csel	w9, w9, wzr, eq
	csel	w8, w8, wzr, eq
	orr	w9, w8, w9
.LBB30_80:
	mov	w8, #1
	mov	x3, x19
	stur	w9, [x25, #25]
	strb	w8, [x25, #24]
	sub	x8, x29, #104
	orr	x0, x8, #0x1
	bl	"utf16_streams::lossy::LossyTranscoder::feed_to::<#8b18edd9dd9aa8df>"
.LBB30_81:
	mov	x20, x0
.LBB30_82:
	ldrb	w8, [x25, #24]
	ldur	w9, [x25, #25]
	strb	w8, [sp, #8]
	stur	w9, [sp, #9]
	cbz	x20, .LBB30_87
.LBB30_83:
	mov	x22, xzr
.LBB30_84:
	add	x1, x19, x22
	sub	x2, x20, x22
	mov	w0, #1
	sub	x26, x20, x22
	bl	write
	tbnz	x0, #63, .LBB30_224
	cmp	x0, x26
	csel	x8, x0, x26, lo
	cbz	x8, .LBB30_225
	add	x22, x8, x22
	cmp	x22, x20
	b.lo	.LBB30_84
.LBB30_87:
	add	x23, x23, #1
	cmn	x23, #1
	b.ne	.LBB30_48
	b	.LBB30_196
.LBB30_88:
	mov	x19, x0
	add	x0, sp, #16
	mov	x1, x20
	mov	x22, x2
	bl	"std_alloc::vec::Vec::grow_amortized::<#9514263aca3ecb2c>"
	ldr	x21, [sp, #32]
	cbz	w0, .LBB30_242
	ldr	x28, [sp, #24]
	mov	x2, x22
	mov	x0, x19
	add	x4, x28, x20
	ldr	x19, [sp, #16]
	cmp	x28, x4
	b.lo	.LBB30_61
	b	.LBB30_62
.LBB30_90:
	cbz	x23, .LBB30_111
	mov	x0, x19
.LBB30_92:
	bl	rattle_dealloc
	b	.LBB30_111
.LBB30_93:
	cbz	w20, .LBB30_155
	add	x0, sp, #64
	mov	w1, wzr
	mov	w2, #4096
	str	wzr, [sp, #8]
	bl	memset
	mov	x21, xzr
	mov	x23, xzr
	mov	x24, xzr
	mov	x22, xzr
	sub	x8, x29, #16
	stp	xzr, xzr, [sp, #48]
	stp	xzr, xzr, [sp, #32]
	stp	x8, xzr, [sp, #16]
	b	.LBB30_132
.LBB30_95:
	add	x21, x20, #88
	b	.LBB30_97
.LBB30_96:
	subs	x19, x19, #1
	add	x21, x21, #24
	b.eq	.LBB30_41
.LBB30_97:
	ldr	x8, [x21]
	cbz	x8, .LBB30_96
	ldur	x0, [x21, #-16]
	bl	rattle_dealloc
	b	.LBB30_96
.LBB30_99:
	ldr	x8, [sp, #80]
	cbz	x8, .LBB30_101
	ldr	x0, [sp, #64]
	bl	rattle_dealloc
.LBB30_101:
	ldur	x20, [x29, #-88]
	cbz	x26, .LBB30_106
	add	x21, x19, #16
	b	.LBB30_104
.LBB30_103:
	subs	x26, x26, #1
	add	x21, x21, #24
	b.eq	.LBB30_106
.LBB30_104:
	ldr	x8, [x21]
	cbz	x8, .LBB30_103
	ldur	x0, [x21, #-16]
	bl	rattle_dealloc
	b	.LBB30_103
.LBB30_106:
	cbz	x20, .LBB30_108
.LBB30_107:
	mov	x0, x19
	bl	rattle_dealloc
.LBB30_108:
	sub	x8, x29, #104
.LBB30_109:
	mov	w9, #21
	mov	w10, #38
	strb	w9, [sp, #64]
	strb	w10, [x25, #24]
	ldrb	w8, [x8]
	cmp	w8, #38
	b.ne	.LBB30_111
.LBB30_110:
	mov	w20, wzr
	adrp	x21, .Lstatic.28
	add	x21, x21, :lo12:.Lstatic.28
	mov	w22, #16
	b	.LBB30_116
.LBB30_111:
	mov	x19, xzr
.LBB30_112:
	adrp	x8, .Lstatic.25
	add	x8, x8, :lo12:.Lstatic.25
	eor	x2, x19, #0x7
	add	x1, x8, x19
	mov	w0, #2
	eor	x20, x19, #0x7
	bl	write
	tbnz	x0, #63, .LBB30_127
	cmp	x0, x20
	csel	x8, x0, x20, lo
	cbz	x8, .LBB30_128
	add	x19, x8, x19
	cmp	x19, #6
	b.ls	.LBB30_112
	adrp	x21, .Lstatic.30
	add	x21, x21, :lo12:.Lstatic.30
	mov	w20, #1
	mov	w22, #12
.LBB30_116:
	mov	x23, xzr
.LBB30_117:
	mov	w8, #9
	adrp	x9, .Lstatic.32
	add	x9, x9, :lo12:.Lstatic.32
	sub	x19, x8, x23
	add	x1, x9, x23
	mov	w0, #2
	mov	x2, x19
	bl	write
	tbnz	x0, #63, .LBB30_125
	cmp	x0, x19
	csel	x8, x0, x19, lo
	cbz	x8, .LBB30_124
	add	x23, x8, x23
	cmp	x23, #9
	b.lo	.LBB30_117
	mov	x19, xzr
.LBB30_121:
	add	x1, x21, x19
	sub	x2, x22, x19
	mov	w0, #2
	sub	x23, x22, x19
	bl	write
	tbnz	x0, #63, .LBB30_125
	cmp	x0, x23
	csel	x8, x0, x23, lo
	cbz	x8, .LBB30_124
	add	x19, x8, x19
	cmp	x19, x22
	b.lo	.LBB30_121
.LBB30_124:
	tbnz	w20, #0, .LBB30_128
	b	.LBB30_126
.LBB30_125:
	add	x0, sp, #64
	bl	"std_io::io::error::last_error"
	tbnz	w20, #0, .LBB30_128
.LBB30_126:
	mov	w0, #1
	b	.LBB30_129
.LBB30_127:
	add	x0, sp, #64
	bl	"std_io::io::error::last_error"
.LBB30_128:
	mov	w0, #2
.LBB30_129:
	add	sp, sp, #1, lsl #12
	add	sp, sp, #192
	.cfi_def_cfa wsp, 96
	ldp	x20, x19, [sp, #80]
	ldp	x22, x21, [sp, #64]
	ldp	x24, x23, [sp, #48]
	ldp	x26, x25, [sp, #32]
	ldp	x28, x27, [sp, #16]
	ldp	x29, x30, [sp], #96
	.cfi_def_cfa_offset 0
	.cfi_restore w19
	.cfi_restore w20
	.cfi_restore w21
	.cfi_restore w22
	.cfi_restore w23
	.cfi_restore w24
	.cfi_restore w25
	.cfi_restore w26
	.cfi_restore w27
	.cfi_restore w28
	.cfi_restore w30
	.cfi_restore w29
	ret
.LBB30_130:
	.cfi_restore_state
	mov	w21, wzr
	mov	w20, wzr
	cbnz	x23, .LBB30_45
	b	.LBB30_46
.LBB30_131:
	add	x22, x22, #1
	cmn	x22, #1
	b.eq	.LBB30_197
.LBB30_132:
	add	x1, sp, #64
	mov	w0, wzr
	mov	w2, #4096
	bl	read
	tbnz	x0, #63, .LBB30_192
	cmp	x0, #1, lsl #12
	mov	w8, #4096
	csel	x2, x0, x8, lo
	cbz	x0, .LBB30_200
	cmp	x0, #8
	b.hs	.LBB30_136
	add	x19, sp, #40
	mov	w4, #24
	b	.LBB30_148
.LBB30_136:
	cbnz	x24, .LBB30_142
	sub	x8, x23, #1
	mov	x9, #-8704
	cmp	x8, x9
	b.hs	.LBB30_139
	mov	x24, xzr
	b	.LBB30_142
.LBB30_139:
	mov	x8, #-8705
	cmp	x23, x8
	b.hi	.LBB30_244
	mov	w8, #8704
	mov	w1, #1
	mov	x20, x2
	add	x19, x23, x8
	mov	x0, x19
	bl	rattle_alloc
	tbz	w0, #0, .LBB30_244
	mov	w21, #8704
	mov	w24, #8704
	mov	x2, x20
	str	x1, [sp, #16]
	str	x19, [sp, #32]
.LBB30_142:
	lsl	x8, x2, #1
	add	x8, x8, #512
	subs	x20, x8, x23
	b.ls	.LBB30_147
	sub	x8, x24, x23
	cmp	x20, x8
	b.hi	.LBB30_153
	add	x4, x23, x20
	ldr	x19, [sp, #16]
	cmp	x23, x4
	b.hs	.LBB30_146
.LBB30_145:
	add	x0, x19, x23
	mov	w1, wzr
	mov	x21, x2
	mov	x2, x20
	mov	x20, x4
	bl	memset
	mov	x4, x20
	mov	x2, x21
.LBB30_146:
	mov	x21, x24
	mov	x23, x4
	stp	x4, x24, [sp, #24]
	b	.LBB30_148
.LBB30_147:
	ldr	x19, [sp, #16]
	mov	x4, x23
.LBB30_148:
	add	x0, sp, #8
	add	x1, sp, #64
	mov	x3, x19
	bl	"utf16_streams::lossy::LossyTranscoder::feed_to::<#8b18edd9dd9aa8df>"
	cbz	x0, .LBB30_131
	mov	x20, x0
	mov	x26, xzr
.LBB30_150:
	add	x1, x19, x26
	sub	x2, x20, x26
	mov	w0, #1
	sub	x27, x20, x26
	bl	write
	tbnz	x0, #63, .LBB30_240
	cmp	x0, x27
	csel	x8, x0, x27, lo
	cbz	x8, .LBB30_241
	add	x26, x8, x26
	cmp	x26, x20
	b.lo	.LBB30_150
	b	.LBB30_131
.LBB30_153:
	add	x0, sp, #16
	mov	x1, x20
	mov	x19, x2
	bl	"std_alloc::vec::Vec::grow_amortized::<#9514263aca3ecb2c>"
	ldr	x24, [sp, #32]
	cbz	w0, .LBB30_249
	ldr	x23, [sp, #24]
	mov	x2, x19
	add	x4, x23, x20
	ldr	x19, [sp, #16]
	cmp	x23, x4
	b.lo	.LBB30_145
	b	.LBB30_146
.LBB30_155:
	add	x0, sp, #64
	mov	w1, wzr
	mov	w2, #4096
	str	wzr, [sp, #8]
	bl	memset
	mov	x21, xzr
	mov	x23, xzr
	mov	x24, xzr
	mov	x22, xzr
	sub	x8, x29, #16
	stp	xzr, xzr, [sp, #48]
	stp	xzr, xzr, [sp, #32]
	stp	x8, xzr, [sp, #16]
	b	.LBB30_157
.LBB30_156:
	add	x22, x22, #1
	cmn	x22, #1
	b.eq	.LBB30_197
.LBB30_157:
	add	x1, sp, #64
	mov	w0, wzr
	mov	w2, #4096
	bl	read
	tbnz	x0, #63, .LBB30_192
	cmp	x0, #1, lsl #12
	mov	w8, #4096
	csel	x2, x0, x8, lo
	cbz	x0, .LBB30_203
	cmp	x0, #8
	b.hs	.LBB30_161
	add	x19, sp, #40
	mov	w4, #24
	b	.LBB30_173
.LBB30_161:
	cbnz	x24, .LBB30_167
	sub	x8, x23, #1
	mov	x9, #-8704
	cmp	x8, x9
	b.hs	.LBB30_164
	mov	x24, xzr
	b	.LBB30_167
.LBB30_164:
	mov	x8, #-8705
	cmp	x23, x8
	b.hi	.LBB30_244
	mov	w8, #8704
	mov	w1, #1
	mov	x20, x2
	add	x19, x23, x8
	mov	x0, x19
	bl	rattle_alloc
	tbz	w0, #0, .LBB30_244
	mov	w21, #8704
	mov	w24, #8704
	mov	x2, x20
	str	x1, [sp, #16]
	str	x19, [sp, #32]
.LBB30_167:
	lsl	x8, x2, #1
	add	x8, x8, #512
	subs	x20, x8, x23
	b.ls	.LBB30_172
	sub	x8, x24, x23
	cmp	x20, x8
	b.hi	.LBB30_178
	add	x4, x23, x20
	ldr	x19, [sp, #16]
	cmp	x23, x4
	b.hs	.LBB30_171
.LBB30_170:
	add	x0, x19, x23
	mov	w1, wzr
	mov	x21, x2
	mov	x2, x20
	mov	x20, x4
	bl	memset
	mov	x4, x20
	mov	x2, x21
.LBB30_171:
	mov	x21, x24
	mov	x23, x4
	stp	x4, x24, [sp, #24]
	b	.LBB30_173
.LBB30_172:
	ldr	x19, [sp, #16]
	mov	x4, x23
.LBB30_173:
	add	x0, sp, #8
	add	x1, sp, #64
	mov	x3, x19
	bl	"utf16_streams::lossy::LossyTranscoder::feed_to::<#418c2b53cf60437c>"
	cbz	x0, .LBB30_156
	mov	x20, x0
	mov	x26, xzr
.LBB30_175:
	add	x1, x19, x26
	sub	x2, x20, x26
	mov	w0, #1
	sub	x27, x20, x26
	bl	write
	tbnz	x0, #63, .LBB30_240
	cmp	x0, x27
	csel	x8, x0, x27, lo
	cbz	x8, .LBB30_241
	add	x26, x8, x26
	cmp	x26, x20
	b.lo	.LBB30_175
	b	.LBB30_156
.LBB30_178:
	add	x0, sp, #16
	mov	x1, x20
	mov	x19, x2
	bl	"std_alloc::vec::Vec::grow_amortized::<#9514263aca3ecb2c>"
	ldr	x24, [sp, #32]
	cbz	w0, .LBB30_249
	ldr	x23, [sp, #24]
	mov	x2, x19
	add	x4, x23, x20
	ldr	x19, [sp, #16]
	cmp	x23, x4
	b.lo	.LBB30_170
	b	.LBB30_171
.LBB30_180:
	cbz	x23, .LBB30_182
	mov	x0, x21
	bl	rattle_dealloc
.LBB30_182:
	ldur	x19, [x29, #-104]
	ldur	x20, [x29, #-88]
	cbz	x26, .LBB30_187
	add	x21, x19, #16
	b	.LBB30_185
.LBB30_184:
	subs	x26, x26, #1
	add	x21, x21, #24
	b.eq	.LBB30_187
.LBB30_185:
	ldr	x8, [x21]
	cbz	x8, .LBB30_184
	ldur	x0, [x21, #-16]
	bl	rattle_dealloc
	b	.LBB30_184
.LBB30_187:
	cbz	x20, .LBB30_189
	mov	x0, x19
	bl	rattle_dealloc
.LBB30_189:
	add	x8, sp, #64
	b	.LBB30_109
.LBB30_190:
	sub	x0, x29, #104
	bl	"std_io::io::error::last_error"
	cbnz	x27, .LBB30_193
.LBB30_191:
	mov	w0, #2
	cmp	w0, #2
	b.gt	.LBB30_245
	b	.LBB30_228
.LBB30_192:
	sub	x0, x29, #104
	bl	"std_io::io::error::last_error"
	cbz	x21, .LBB30_191
.LBB30_193:
	ldr	x0, [sp, #16]
	bl	rattle_dealloc
	mov	w0, #2
	cmp	w0, #2
	b.gt	.LBB30_245
	b	.LBB30_228
.LBB30_194:
	ldrb	w9, [sp, #8]
	ldur	w8, [sp, #9]
	stp	xzr, xzr, [x29, #-128]
	stur	xzr, [x29, #-112]
	cbz	w9, .LBB30_214
	lsr	w8, w8, #24
	cmp	w9, #1
	cbnz	w8, .LBB30_215
	b	.LBB30_221
.LBB30_196:
	cbnz	x27, .LBB30_198
	b	.LBB30_199
.LBB30_197:
	cbz	x21, .LBB30_199
.LBB30_198:
	ldr	x0, [sp, #16]
	bl	rattle_dealloc
.LBB30_199:
	mov	w0, #5
	cmp	w0, #2
	b.gt	.LBB30_245
	b	.LBB30_228
.LBB30_200:
	ldrb	w8, [sp, #11]
	stp	xzr, xzr, [x29, #-128]
	stur	xzr, [x29, #-112]
	cbz	w8, .LBB30_239
	sub	x8, x29, #128
	adrp	x9, .Lstatic.6
	add	x9, x9, :lo12:.Lstatic.6
	sub	x8, x8, x9
	cmp	x8, #2
	b.hi	.LBB30_231
	mov	w8, #49135
	mov	w9, #189
	mov	x19, xzr
	sturh	w8, [x29, #-128]
	strb	w9, [x25, #2]
	b	.LBB30_232
.LBB30_203:
	ldrb	w8, [sp, #11]
	stp	xzr, xzr, [x29, #-128]
	stur	xzr, [x29, #-112]
	cbz	w8, .LBB30_239
	sub	x8, x29, #128
	adrp	x9, .Lstatic.6
	add	x9, x9, :lo12:.Lstatic.6
	sub	x8, x8, x9
	cmp	x8, #2
	b.hi	.LBB30_235
	mov	w8, #49135
	mov	w9, #189
	mov	x19, xzr
	sturh	w8, [x29, #-128]
	strb	w9, [x25, #2]
	b	.LBB30_236
.LBB30_206:
	cbz	x23, .LBB30_208
	mov	x0, x21
	bl	rattle_dealloc
.LBB30_208:
	ldp	x19, x20, [x29, #-104]
	ldur	x21, [x29, #-88]
	cbz	x20, .LBB30_213
	add	x22, x19, #16
	b	.LBB30_211
.LBB30_210:
	subs	x20, x20, #1
	add	x22, x22, #24
	b.eq	.LBB30_213
.LBB30_211:
	ldr	x8, [x22]
	cbz	x8, .LBB30_210
	ldur	x0, [x22, #-16]
	bl	rattle_dealloc
	b	.LBB30_210
.LBB30_213:
	cbnz	x21, .LBB30_107
	b	.LBB30_108
.LBB30_214:
	and	w8, w8, #0xff
	cmp	w8, #1
	b.ne	.LBB30_221
.LBB30_215:
	sub	x8, x29, #128
	adrp	x9, .Lstatic.6
	add	x9, x9, :lo12:.Lstatic.6
	sub	x8, x8, x9
	cmp	x8, #2
	b.hi	.LBB30_217
	mov	w8, #49135
	mov	w9, #189
	mov	x19, xzr
	sturh	w8, [x29, #-128]
	strb	w9, [x25, #2]
	b	.LBB30_218
.LBB30_217:
	mov	w8, #189
	mov	w9, #49135
	mov	x19, xzr
	strb	w8, [x25, #2]
	sturh	w9, [x29, #-128]
.LBB30_218:
	sub	x8, x29, #128
	eor	x2, x19, #0x3
	mov	w0, #1
	add	x1, x8, x19
	eor	x20, x19, #0x3
	bl	write
	tbnz	x0, #63, .LBB30_224
	cmp	x0, x20
	csel	x8, x0, x20, lo
	cbz	x8, .LBB30_225
	add	x19, x8, x19
	cmp	x19, #2
	b.ls	.LBB30_218
.LBB30_221:
	cbz	x27, .LBB30_223
.LBB30_222:
	ldr	x0, [sp, #16]
	bl	rattle_dealloc
.LBB30_223:
	mov	w0, wzr
	cmp	w0, #2
	b.gt	.LBB30_245
	b	.LBB30_228
.LBB30_224:
	sub	x0, x29, #104
	bl	"std_io::io::error::last_error"
.LBB30_225:
	cbz	x27, .LBB30_227
.LBB30_226:
	ldr	x0, [sp, #16]
	bl	rattle_dealloc
.LBB30_227:
	mov	w0, #3
	cmp	w0, #2
	b.gt	.LBB30_245
.LBB30_228:
	cbz	w0, .LBB30_129
	cmp	w0, #1
	b.eq	.LBB30_126
	mov	w20, wzr
	adrp	x21, .Lstatic.26
	add	x21, x21, :lo12:.Lstatic.26
	mov	w22, #14
	b	.LBB30_116
.LBB30_231:
	mov	w8, #189
	mov	w9, #49135
	mov	x19, xzr
	strb	w8, [x25, #2]
	sturh	w9, [x29, #-128]
.LBB30_232:
	sub	x8, x29, #128
	eor	x2, x19, #0x3
	mov	w0, #1
	add	x1, x8, x19
	eor	x20, x19, #0x3
	bl	write
	tbnz	x0, #63, .LBB30_240
	cmp	x0, x20
	csel	x8, x0, x20, lo
	cbz	x8, .LBB30_241
	add	x19, x8, x19
	cmp	x19, #2
	b.ls	.LBB30_232
	b	.LBB30_239
.LBB30_235:
	mov	w8, #189
	mov	w9, #49135
	mov	x19, xzr
	strb	w8, [x25, #2]
	sturh	w9, [x29, #-128]
.LBB30_236:
	sub	x8, x29, #128
	eor	x2, x19, #0x3
	mov	w0, #1
	add	x1, x8, x19
	eor	x20, x19, #0x3
	bl	write
	tbnz	x0, #63, .LBB30_240
	cmp	x0, x20
	csel	x8, x0, x20, lo
	cbz	x8, .LBB30_241
	add	x19, x8, x19
	cmp	x19, #2
	b.ls	.LBB30_236
.LBB30_239:
	cbnz	x21, .LBB30_222
	b	.LBB30_223
.LBB30_240:
	sub	x0, x29, #104
	bl	"std_io::io::error::last_error"
.LBB30_241:
	cbnz	x21, .LBB30_226
	b	.LBB30_227
.LBB30_242:
	cbz	x21, .LBB30_244
.LBB30_243:
	ldr	x0, [sp, #16]
	bl	rattle_dealloc
.LBB30_244:
	mov	w0, #4
	cmp	w0, #2
	b.le	.LBB30_228
.LBB30_245:
	cmp	w0, #3
	b.eq	.LBB30_248
	cmp	w0, #5
	b.ne	.LBB30_110
	mov	w20, wzr
	adrp	x21, .Lstatic.29
	add	x21, x21, :lo12:.Lstatic.29
	mov	w22, #17
	b	.LBB30_116
.LBB30_248:
	mov	w20, wzr
	adrp	x21, .Lstatic.27
	add	x21, x21, :lo12:.Lstatic.27
	mov	w22, #15
	b	.LBB30_116
.LBB30_249:
	cbnz	x24, .LBB30_243
	b	.LBB30_244
.Lfunc_end30:
	.size	proved_main_aarch64, .Lfunc_end30-proved_main_aarch64
	.cfi_endproc

	.type	.Lstatic.6,@object
	.section	.rodata..Lstatic.6,"a",@progbits
.Lstatic.6:
	.ascii	"\357\277\275"
	.size	.Lstatic.6, 3

	.type	.Lstatic.8,@object
	.section	.rodata..Lstatic.8,"a",@progbits
.Lstatic.8:
	.asciz	"\000\001\002\003\004\005\006\007\b\t\n\013\f\r\016\017\000\002\003\004\005\006\007\b\t\n\013\f\r\016\017\000\000\001\002\004\005\006\007\b\t\n\013\f\r\016\017\000\000\002\004\005\006\007\b\t\n\013\f\r\016\017\000\000\000\001\002\003\004\006\007\b\t\n\013\f\r\016\017\000\000\002\003\004\006\007\b\t\n\013\f\r\016\017\000\000\000\001\002\004\006\007\b\t\n\013\f\r\016\017\000\000\000\002\004\006\007\b\t\n\013\f\r\016\017\000\000\000\000\001\002\003\004\005\006\b\t\n\013\f\r\016\017\000\000\002\003\004\005\006\b\t\n\013\f\r\016\017\000\000\000\001\002\004\005\006\b\t\n\013\f\r\016\017\000\000\000\002\004\005\006\b\t\n\013\f\r\016\017\000\000\000\000\001\002\003\004\006\b\t\n\013\f\r\016\017\000\000\000\002\003\004\006\b\t\n\013\f\r\016\017\000\000\000\000\001\002\004\006\b\t\n\013\f\r\016\017\000\000\000\000\002\004\006\b\t\n\013\f\r\016\017\000\000\000\000\000\001\002\003\004\005\006\007\b\n\013\f\r\016\017\000\000\002\003\004\005\006\007\b\n\013\f\r\016\017\000\000\000\001\002\004\005\006\007\b\n\013\f\r\016\017\000\000\000\002\004\005\006\007\b\n\013\f\r\016\017\000\000\000\000\001\002\003\004\006\007\b\n\013\f\r\016\017\000\000\000\002\003\004\006\007\b\n\013\f\r\016\017\000\000\000\000\001\002\004\006\007\b\n\013\f\r\016\017\000\000\000\000\002\004\006\007\b\n\013\f\r\016\017\000\000\000\000\000\001\002\003\004\005\006\b\n\013\f\r\016\017\000\000\000\002\003\004\005\006\b\n\013\f\r\016\017\000\000\000\000\001\002\004\005\006\b\n\013\f\r\016\017\000\000\000\000\002\004\005\006\b\n\013\f\r\016\017\000\000\000\000\000\001\002\003\004\006\b\n\013\f\r\016\017\000\000\000\000\002\003\004\006\b\n\013\f\r\016\017\000\000\000\000\000\001\002\004\006\b\n\013\f\r\016\017\000\000\000\000\000\002\004\006\b\n\013\f\r\016\017\000\000\000\000\000\000\001\002\003\004\005\006\007\b\t\n\f\r\016\017\000\000\002\003\004\005\006\007\b\t\n\f\r\016\017\000\000\000\001\002\004\005\006\007\b\t\n\f\r\016\017\000\000\000\002\004\005\006\007\b\t\n\f\r\016\017\000\000\000\000\001\002\003\004\006\007\b\t\n\f\r\016\017\000\000\000\002\003\004\006\007\b\t\n\f\r\016\017\000\000\000\000\001\002\004\006\007\b\t\n\f\r\016\017\000\000\000\000\002\004\006\007\b\t\n\f\r\016\017\000\000\000\000\000\001\002\003\004\005\006\b\t\n\f\r\016\017\000\000\000\002\003\004\005\006\b\t\n\f\r\016\017\000\000\000\000\001\002\004\005\006\b\t\n\f\r\016\017\000\000\000\000\002\004\005\006\b\t\n\f\r\016\017\000\000\000\000\000\001\002\003\004\006\b\t\n\f\r\016\017\000\000\000\000\002\003\004\006\b\t\n\f\r\016\017\000\000\000\000\000\001\002\004\006\b\t\n\f\r\016\017\000\000\000\000\000\002\004\006\b\t\n\f\r\016\017\000\000\000\000\000\000\001\002\003\004\005\006\007\b\n\f\r\016\017\000\000\000\002\003\004\005\006\007\b\n\f\r\016\017\000\000\000\000\001\002\004\005\006\007\b\n\f\r\016\017\000\000\000\000\002\004\005\006\007\b\n\f\r\016\017\000\000\000\000\000\001\002\003\004\006\007\b\n\f\r\016\017\000\000\000\000\002\003\004\006\007\b\n\f\r\016\017\000\000\000\000\000\001\002\004\006\007\b\n\f\r\016\017\000\000\000\000\000\002\004\006\007\b\n\f\r\016\017\000\000\000\000\000\000\001\002\003\004\005\006\b\n\f\r\016\017\000\000\000\000\002\003\004\005\006\b\n\f\r\016\017\000\000\000\000\000\001\002\004\005\006\b\n\f\r\016\017\000\000\000\000\000\002\004\005\006\b\n\f\r\016\017\000\000\000\000\000\000\001\002\003\004\006\b\n\f\r\016\017\000\000\000\000\000\002\003\004\006\b\n\f\r\016\017\000\000\000\000\000\000\001\002\004\006\b\n\f\r\016\017\000\000\000\000\000\000\002\004\006\b\n\f\r\016\017\000\000\000\000\000\000\000\001\002\003\004\005\006\007\b\t\n\013\f\016\017\000\000\002\003\004\005\006\007\b\t\n\013\f\016\017\000\000\000\001\002\004\005\006\007\b\t\n\013\f\016\017\000\000\000\002\004\005\006\007\b\t\n\013\f\016\017\000\000\000\000\001\002\003\004\006\007\b\t\n\013\f\016\017\000\000\000\002\003\004\006\007\b\t\n\013\f\016\017\000\000\000\000\001\002\004\006\007\b\t\n\013\f\016\017\000\000\000\000\002\004\006\007\b\t\n\013\f\016\017\000\000\000\000\000\001\002\003\004\005\006\b\t\n\013\f\016\017\000\000\000\002\003\004\005\006\b\t\n\013\f\016\017\000\000\000\000\001\002\004\005\006\b\t\n\013\f\016\017\000\000\000\000\002\004\005\006\b\t\n\013\f\016\017\000\000\000\000\000\001\002\003\004\006\b\t\n\013\f\016\017\000\000\000\000\002\003\004\006\b\t\n\013\f\016\017\000\000\000\000\000\001\002\004\006\b\t\n\013\f\016\017\000\000\000\000\000\002\004\006\b\t\n\013\f\016\017\000\000\000\000\000\000\001\002\003\004\005\006\007\b\n\013\f\016\017\000\000\000\002\003\004\005\006\007\b\n\013\f\016\017\000\000\000\000\001\002\004\005\006\007\b\n\013\f\016\017\000\000\000\000\002\004\005\006\007\b\n\013\f\016\017\000\000\000\000\000\001\002\003\004\006\007\b\n\013\f\016\017\000\000\000\000\002\003\004\006\007\b\n\013\f\016\017\000\000\000\000\000\001\002\004\006\007\b\n\013\f\016\017\000\000\000\000\000\002\004\006\007\b\n\013\f\016\017\000\000\000\000\000\000\001\002\003\004\005\006\b\n\013\f\016\017\000\000\000\000\002\003\004\005\006\b\n\013\f\016\017\000\000\000\000\000\001\002\004\005\006\b\n\013\f\016\017\000\000\000\000\000\002\004\005\006\b\n\013\f\016\017\000\000\000\000\000\000\001\002\003\004\006\b\n\013\f\016\017\000\000\000\000\000\002\003\004\006\b\n\013\f\016\017\000\000\000\000\000\000\001\002\004\006\b\n\013\f\016\017\000\000\000\000\000\000\002\004\006\b\n\013\f\016\017\000\000\000\000\000\000\000\001\002\003\004\005\006\007\b\t\n\f\016\017\000\000\000\002\003\004\005\006\007\b\t\n\f\016\017\000\000\000\000\001\002\004\005\006\007\b\t\n\f\016\017\000\000\000\000\002\004\005\006\007\b\t\n\f\016\017\000\000\000\000\000\001\002\003\004\006\007\b\t\n\f\016\017\000\000\000\000\002\003\004\006\007\b\t\n\f\016\017\000\000\000\000\000\001\002\004\006\007\b\t\n\f\016\017\000\000\000\000\000\002\004\006\007\b\t\n\f\016\017\000\000\000\000\000\000\001\002\003\004\005\006\b\t\n\f\016\017\000\000\000\000\002\003\004\005\006\b\t\n\f\016\017\000\000\000\000\000\001\002\004\005\006\b\t\n\f\016\017\000\000\000\000\000\002\004\005\006\b\t\n\f\016\017\000\000\000\000\000\000\001\002\003\004\006\b\t\n\f\016\017\000\000\000\000\000\002\003\004\006\b\t\n\f\016\017\000\000\000\000\000\000\001\002\004\006\b\t\n\f\016\017\000\000\000\000\000\000\002\004\006\b\t\n\f\016\017\000\000\000\000\000\000\000\001\002\003\004\005\006\007\b\n\f\016\017\000\000\000\000\002\003\004\005\006\007\b\n\f\016\017\000\000\000\000\000\001\002\004\005\006\007\b\n\f\016\017\000\000\000\000\000\002\004\005\006\007\b\n\f\016\017\000\000\000\000\000\000\001\002\003\004\006\007\b\n\f\016\017\000\000\000\000\000\002\003\004\006\007\b\n\f\016\017\000\000\000\000\000\000\001\002\004\006\007\b\n\f\016\017\000\000\000\000\000\000\002\004\006\007\b\n\f\016\017\000\000\000\000\000\000\000\001\002\003\004\005\006\b\n\f\016\017\000\000\000\000\000\002\003\004\005\006\b\n\f\016\017\000\000\000\000\000\000\001\002\004\005\006\b\n\f\016\017\000\000\000\000\000\000\002\004\005\006\b\n\f\016\017\000\000\000\000\000\000\000\001\002\003\004\006\b\n\f\016\017\000\000\000\000\000\000\002\003\004\006\b\n\f\016\017\000\000\000\000\000\000\000\001\002\004\006\b\n\f\016\017\000\000\000\000\000\000\000\002\004\006\b\n\f\016\017\000\000\000\000\000\000\000\000\001\002\003\004\005\006\007\b\t\n\013\f\r\016\000\000\002\003\004\005\006\007\b\t\n\013\f\r\016\000\000\000\001\002\004\005\006\007\b\t\n\013\f\r\016\000\000\000\002\004\005\006\007\b\t\n\013\f\r\016\000\000\000\000\001\002\003\004\006\007\b\t\n\013\f\r\016\000\000\000\002\003\004\006\007\b\t\n\013\f\r\016\000\000\000\000\001\002\004\006\007\b\t\n\013\f\r\016\000\000\000\000\002\004\006\007\b\t\n\013\f\r\016\000\000\000\000\000\001\002\003\004\005\006\b\t\n\013\f\r\016\000\000\000\002\003\004\005\006\b\t\n\013\f\r\016\000\000\000\000\001\002\004\005\006\b\t\n\013\f\r\016\000\000\000\000\002\004\005\006\b\t\n\013\f\r\016\000\000\000\000\000\001\002\003\004\006\b\t\n\013\f\r\016\000\000\000\000\002\003\004\006\b\t\n\013\f\r\016\000\000\000\000\000\001\002\004\006\b\t\n\013\f\r\016\000\000\000\000\000\002\004\006\b\t\n\013\f\r\016\000\000\000\000\000\000\001\002\003\004\005\006\007\b\n\013\f\r\016\000\000\000\002\003\004\005\006\007\b\n\013\f\r\016\000\000\000\000\001\002\004\005\006\007\b\n\013\f\r\016\000\000\000\000\002\004\005\006\007\b\n\013\f\r\016\000\000\000\000\000\001\002\003\004\006\007\b\n\013\f\r\016\000\000\000\000\002\003\004\006\007\b\n\013\f\r\016\000\000\000\000\000\001\002\004\006\007\b\n\013\f\r\016\000\000\000\000\000\002\004\006\007\b\n\013\f\r\016\000\000\000\000\000\000\001\002\003\004\005\006\b\n\013\f\r\016\000\000\000\000\002\003\004\005\006\b\n\013\f\r\016\000\000\000\000\000\001\002\004\005\006\b\n\013\f\r\016\000\000\000\000\000\002\004\005\006\b\n\013\f\r\016\000\000\000\000\000\000\001\002\003\004\006\b\n\013\f\r\016\000\000\000\000\000\002\003\004\006\b\n\013\f\r\016\000\000\000\000\000\000\001\002\004\006\b\n\013\f\r\016\000\000\000\000\000\000\002\004\006\b\n\013\f\r\016\000\000\000\000\000\000\000\001\002\003\004\005\006\007\b\t\n\f\r\016\000\000\000\002\003\004\005\006\007\b\t\n\f\r\016\000\000\000\000\001\002\004\005\006\007\b\t\n\f\r\016\000\000\000\000\002\004\005\006\007\b\t\n\f\r\016\000\000\000\000\000\001\002\003\004\006\007\b\t\n\f\r\016\000\000\000\000\002\003\004\006\007\b\t\n\f\r\016\000\000\000\000\000\001\002\004\006\007\b\t\n\f\r\016\000\000\000\000\000\002\004\006\007\b\t\n\f\r\016\000\000\000\000\000\000\001\002\003\004\005\006\b\t\n\f\r\016\000\000\000\000\002\003\004\005\006\b\t\n\f\r\016\000\000\000\000\000\001\002\004\005\006\b\t\n\f\r\016\000\000\000\000\000\002\004\005\006\b\t\n\f\r\016\000\000\000\000\000\000\001\002\003\004\006\b\t\n\f\r\016\000\000\000\000\000\002\003\004\006\b\t\n\f\r\016\000\000\000\000\000\000\001\002\004\006\b\t\n\f\r\016\000\000\000\000\000\000\002\004\006\b\t\n\f\r\016\000\000\000\000\000\000\000\001\002\003\004\005\006\007\b\n\f\r\016\000\000\000\000\002\003\004\005\006\007\b\n\f\r\016\000\000\000\000\000\001\002\004\005\006\007\b\n\f\r\016\000\000\000\000\000\002\004\005\006\007\b\n\f\r\016\000\000\000\000\000\000\001\002\003\004\006\007\b\n\f\r\016\000\000\000\000\000\002\003\004\006\007\b\n\f\r\016\000\000\000\000\000\000\001\002\004\006\007\b\n\f\r\016\000\000\000\000\000\000\002\004\006\007\b\n\f\r\016\000\000\000\000\000\000\000\001\002\003\004\005\006\b\n\f\r\016\000\000\000\000\000\002\003\004\005\006\b\n\f\r\016\000\000\000\000\000\000\001\002\004\005\006\b\n\f\r\016\000\000\000\000\000\000\002\004\005\006\b\n\f\r\016\000\000\000\000\000\000\000\001\002\003\004\006\b\n\f\r\016\000\000\000\000\000\000\002\003\004\006\b\n\f\r\016\000\000\000\000\000\000\000\001\002\004\006\b\n\f\r\016\000\000\000\000\000\000\000\002\004\006\b\n\f\r\016\000\000\000\000\000\000\000\000\001\002\003\004\005\006\007\b\t\n\013\f\016\000\000\000\002\003\004\005\006\007\b\t\n\013\f\016\000\000\000\000\001\002\004\005\006\007\b\t\n\013\f\016\000\000\000\000\002\004\005\006\007\b\t\n\013\f\016\000\000\000\000\000\001\002\003\004\006\007\b\t\n\013\f\016\000\000\000\000\002\003\004\006\007\b\t\n\013\f\016\000\000\000\000\000\001\002\004\006\007\b\t\n\013\f\016\000\000\000\000\000\002\004\006\007\b\t\n\013\f\016\000\000\000\000\000\000\001\002\003\004\005\006\b\t\n\013\f\016\000\000\000\000\002\003\004\005\006\b\t\n\013\f\016\000\000\000\000\000\001\002\004\005\006\b\t\n\013\f\016\000\000\000\000\000\002\004\005\006\b\t\n\013\f\016\000\000\000\000\000\000\001\002\003\004\006\b\t\n\013\f\016\000\000\000\000\000\002\003\004\006\b\t\n\013\f\016\000\000\000\000\000\000\001\002\004\006\b\t\n\013\f\016\000\000\000\000\000\000\002\004\006\b\t\n\013\f\016\000\000\000\000\000\000\000\001\002\003\004\005\006\007\b\n\013\f\016\000\000\000\000\002\003\004\005\006\007\b\n\013\f\016\000\000\000\000\000\001\002\004\005\006\007\b\n\013\f\016\000\000\000\000\000\002\004\005\006\007\b\n\013\f\016\000\000\000\000\000\000\001\002\003\004\006\007\b\n\013\f\016\000\000\000\000\000\002\003\004\006\007\b\n\013\f\016\000\000\000\000\000\000\001\002\004\006\007\b\n\013\f\016\000\000\000\000\000\000\002\004\006\007\b\n\013\f\016\000\000\000\000\000\000\000\001\002\003\004\005\006\b\n\013\f\016\000\000\000\000\000\002\003\004\005\006\b\n\013\f\016\000\000\000\000\000\000\001\002\004\005\006\b\n\013\f\016\000\000\000\000\000\000\002\004\005\006\b\n\013\f\016\000\000\000\000\000\000\000\001\002\003\004\006\b\n\013\f\016\000\000\000\000\000\000\002\003\004\006\b\n\013\f\016\000\000\000\000\000\000\000\001\002\004\006\b\n\013\f\016\000\000\000\000\000\000\000\002\004\006\b\n\013\f\016\000\000\000\000\000\000\000\000\001\002\003\004\005\006\007\b\t\n\f\016\000\000\000\000\002\003\004\005\006\007\b\t\n\f\016\000\000\000\000\000\001\002\004\005\006\007\b\t\n\f\016\000\000\000\000\000\002\004\005\006\007\b\t\n\f\016\000\000\000\000\000\000\001\002\003\004\006\007\b\t\n\f\016\000\000\000\000\000\002\003\004\006\007\b\t\n\f\016\000\000\000\000\000\000\001\002\004\006\007\b\t\n\f\016\000\000\000\000\000\000\002\004\006\007\b\t\n\f\016\000\000\000\000\000\000\000\001\002\003\004\005\006\b\t\n\f\016\000\000\000\000\000\002\003\004\005\006\b\t\n\f\016\000\000\000\000\000\000\001\002\004\005\006\b\t\n\f\016\000\000\000\000\000\000\002\004\005\006\b\t\n\f\016\000\000\000\000\000\000\000\001\002\003\004\006\b\t\n\f\016\000\000\000\000\000\000\002\003\004\006\b\t\n\f\016\000\000\000\000\000\000\000\001\002\004\006\b\t\n\f\016\000\000\000\000\000\000\000\002\004\006\b\t\n\f\016\000\000\000\000\000\000\000\000\001\002\003\004\005\006\007\b\n\f\016\000\000\000\000\000\002\003\004\005\006\007\b\n\f\016\000\000\000\000\000\000\001\002\004\005\006\007\b\n\f\016\000\000\000\000\000\000\002\004\005\006\007\b\n\f\016\000\000\000\000\000\000\000\001\002\003\004\006\007\b\n\f\016\000\000\000\000\000\000\002\003\004\006\007\b\n\f\016\000\000\000\000\000\000\000\001\002\004\006\007\b\n\f\016\000\000\000\000\000\000\000\002\004\006\007\b\n\f\016\000\000\000\000\000\000\000\000\001\002\003\004\005\006\b\n\f\016\000\000\000\000\000\000\002\003\004\005\006\b\n\f\016\000\000\000\000\000\000\000\001\002\004\005\006\b\n\f\016\000\000\000\000\000\000\000\002\004\005\006\b\n\f\016\000\000\000\000\000\000\000\000\001\002\003\004\006\b\n\f\016\000\000\000\000\000\000\000\002\003\004\006\b\n\f\016\000\000\000\000\000\000\000\000\001\002\004\006\b\n\f\016\000\000\000\000\000\000\000\000\002\004\006\b\n\f\016\000\000\000\000\000\000\000"
	.size	.Lstatic.8, 4096

	.type	.Lstatic.9,@object
	.section	.rodata..Lstatic.9,"a",@progbits
.Lstatic.9:
	.asciz	"\000\002\003\004\006\007\b\n\013\f\016\017\000\000\000\000\000\001\004\006\007\b\n\013\f\016\017\000\000\000\000\000\002\003\004\006\007\b\n\013\f\016\017\000\000\000\000\000\001\004\006\007\b\n\013\f\016\017\000\000\000\000\000\000\000\002\003\004\005\b\n\013\f\016\017\000\000\000\000\000\000\001\004\005\b\n\013\f\016\017\000\000\000\000\000\000\002\003\004\005\b\n\013\f\016\017\000\000\000\000\000\000\001\004\005\b\n\013\f\016\017\000\000\000\000\000\000\000\000\002\003\006\007\b\n\013\f\016\017\000\000\000\000\000\000\001\006\007\b\n\013\f\016\017\000\000\000\000\000\000\002\003\006\007\b\n\013\f\016\017\000\000\000\000\000\000\001\006\007\b\n\013\f\016\017\000\000\000\000\000\000\000\000\002\003\005\b\n\013\f\016\017\000\000\000\000\000\000\000\001\005\b\n\013\f\016\017\000\000\000\000\000\000\000\002\003\005\b\n\013\f\016\017\000\000\000\000\000\000\000\001\005\b\n\013\f\016\017\000\000\000\000\000\000\000\000\000\002\003\004\006\007\b\t\f\016\017\000\000\000\000\000\000\001\004\006\007\b\t\f\016\017\000\000\000\000\000\000\002\003\004\006\007\b\t\f\016\017\000\000\000\000\000\000\001\004\006\007\b\t\f\016\017\000\000\000\000\000\000\000\000\002\003\004\005\b\t\f\016\017\000\000\000\000\000\000\000\001\004\005\b\t\f\016\017\000\000\000\000\000\000\000\002\003\004\005\b\t\f\016\017\000\000\000\000\000\000\000\001\004\005\b\t\f\016\017\000\000\000\000\000\000\000\000\000\002\003\006\007\b\t\f\016\017\000\000\000\000\000\000\000\001\006\007\b\t\f\016\017\000\000\000\000\000\000\000\002\003\006\007\b\t\f\016\017\000\000\000\000\000\000\000\001\006\007\b\t\f\016\017\000\000\000\000\000\000\000\000\000\002\003\005\b\t\f\016\017\000\000\000\000\000\000\000\000\001\005\b\t\f\016\017\000\000\000\000\000\000\000\000\002\003\005\b\t\f\016\017\000\000\000\000\000\000\000\000\001\005\b\t\f\016\017\000\000\000\000\000\000\000\000\000\000\002\003\004\006\007\n\013\f\016\017\000\000\000\000\000\000\001\004\006\007\n\013\f\016\017\000\000\000\000\000\000\002\003\004\006\007\n\013\f\016\017\000\000\000\000\000\000\001\004\006\007\n\013\f\016\017\000\000\000\000\000\000\000\000\002\003\004\005\n\013\f\016\017\000\000\000\000\000\000\000\001\004\005\n\013\f\016\017\000\000\000\000\000\000\000\002\003\004\005\n\013\f\016\017\000\000\000\000\000\000\000\001\004\005\n\013\f\016\017\000\000\000\000\000\000\000\000\000\002\003\006\007\n\013\f\016\017\000\000\000\000\000\000\000\001\006\007\n\013\f\016\017\000\000\000\000\000\000\000\002\003\006\007\n\013\f\016\017\000\000\000\000\000\000\000\001\006\007\n\013\f\016\017\000\000\000\000\000\000\000\000\000\002\003\005\n\013\f\016\017\000\000\000\000\000\000\000\000\001\005\n\013\f\016\017\000\000\000\000\000\000\000\000\002\003\005\n\013\f\016\017\000\000\000\000\000\000\000\000\001\005\n\013\f\016\017\000\000\000\000\000\000\000\000\000\000\002\003\004\006\007\t\f\016\017\000\000\000\000\000\000\000\001\004\006\007\t\f\016\017\000\000\000\000\000\000\000\002\003\004\006\007\t\f\016\017\000\000\000\000\000\000\000\001\004\006\007\t\f\016\017\000\000\000\000\000\000\000\000\000\002\003\004\005\t\f\016\017\000\000\000\000\000\000\000\000\001\004\005\t\f\016\017\000\000\000\000\000\000\000\000\002\003\004\005\t\f\016\017\000\000\000\000\000\000\000\000\001\004\005\t\f\016\017\000\000\000\000\000\000\000\000\000\000\002\003\006\007\t\f\016\017\000\000\000\000\000\000\000\000\001\006\007\t\f\016\017\000\000\000\000\000\000\000\000\002\003\006\007\t\f\016\017\000\000\000\000\000\000\000\000\001\006\007\t\f\016\017\000\000\000\000\000\000\000\000\000\000\002\003\005\t\f\016\017\000\000\000\000\000\000\000\000\000\001\005\t\f\016\017\000\000\000\000\000\000\000\000\000\002\003\005\t\f\016\017\000\000\000\000\000\000\000\000\000\001\005\t\f\016\017\000\000\000\000\000\000\000\000\000\000\000\002\003\004\006\007\b\n\013\f\r\000\000\000\000\000\000\001\004\006\007\b\n\013\f\r\000\000\000\000\000\000\002\003\004\006\007\b\n\013\f\r\000\000\000\000\000\000\001\004\006\007\b\n\013\f\r\000\000\000\000\000\000\000\000\002\003\004\005\b\n\013\f\r\000\000\000\000\000\000\000\001\004\005\b\n\013\f\r\000\000\000\000\000\000\000\002\003\004\005\b\n\013\f\r\000\000\000\000\000\000\000\001\004\005\b\n\013\f\r\000\000\000\000\000\000\000\000\000\002\003\006\007\b\n\013\f\r\000\000\000\000\000\000\000\001\006\007\b\n\013\f\r\000\000\000\000\000\000\000\002\003\006\007\b\n\013\f\r\000\000\000\000\000\000\000\001\006\007\b\n\013\f\r\000\000\000\000\000\000\000\000\000\002\003\005\b\n\013\f\r\000\000\000\000\000\000\000\000\001\005\b\n\013\f\r\000\000\000\000\000\000\000\000\002\003\005\b\n\013\f\r\000\000\000\000\000\000\000\000\001\005\b\n\013\f\r\000\000\000\000\000\000\000\000\000\000\002\003\004\006\007\b\t\f\r\000\000\000\000\000\000\000\001\004\006\007\b\t\f\r\000\000\000\000\000\000\000\002\003\004\006\007\b\t\f\r\000\000\000\000\000\000\000\001\004\006\007\b\t\f\r\000\000\000\000\000\000\000\000\000\002\003\004\005\b\t\f\r\000\000\000\000\000\000\000\000\001\004\005\b\t\f\r\000\000\000\000\000\000\000\000\002\003\004\005\b\t\f\r\000\000\000\000\000\000\000\000\001\004\005\b\t\f\r\000\000\000\000\000\000\000\000\000\000\002\003\006\007\b\t\f\r\000\000\000\000\000\000\000\000\001\006\007\b\t\f\r\000\000\000\000\000\000\000\000\002\003\006\007\b\t\f\r\000\000\000\000\000\000\000\000\001\006\007\b\t\f\r\000\000\000\000\000\000\000\000\000\000\002\003\005\b\t\f\r\000\000\000\000\000\000\000\000\000\001\005\b\t\f\r\000\000\000\000\000\000\000\000\000\002\003\005\b\t\f\r\000\000\000\000\000\000\000\000\000\001\005\b\t\f\r\000\000\000\000\000\000\000\000\000\000\000\002\003\004\006\007\n\013\f\r\000\000\000\000\000\000\000\001\004\006\007\n\013\f\r\000\000\000\000\000\000\000\002\003\004\006\007\n\013\f\r\000\000\000\000\000\000\000\001\004\006\007\n\013\f\r\000\000\000\000\000\000\000\000\000\002\003\004\005\n\013\f\r\000\000\000\000\000\000\000\000\001\004\005\n\013\f\r\000\000\000\000\000\000\000\000\002\003\004\005\n\013\f\r\000\000\000\000\000\000\000\000\001\004\005\n\013\f\r\000\000\000\000\000\000\000\000\000\000\002\003\006\007\n\013\f\r\000\000\000\000\000\000\000\000\001\006\007\n\013\f\r\000\000\000\000\000\000\000\000\002\003\006\007\n\013\f\r\000\000\000\000\000\000\000\000\001\006\007\n\013\f\r\000\000\000\000\000\000\000\000\000\000\002\003\005\n\013\f\r\000\000\000\000\000\000\000\000\000\001\005\n\013\f\r\000\000\000\000\000\000\000\000\000\002\003\005\n\013\f\r\000\000\000\000\000\000\000\000\000\001\005\n\013\f\r\000\000\000\000\000\000\000\000\000\000\000\002\003\004\006\007\t\f\r\000\000\000\000\000\000\000\000\001\004\006\007\t\f\r\000\000\000\000\000\000\000\000\002\003\004\006\007\t\f\r\000\000\000\000\000\000\000\000\001\004\006\007\t\f\r\000\000\000\000\000\000\000\000\000\000\002\003\004\005\t\f\r\000\000\000\000\000\000\000\000\000\001\004\005\t\f\r\000\000\000\000\000\000\000\000\000\002\003\004\005\t\f\r\000\000\000\000\000\000\000\000\000\001\004\005\t\f\r\000\000\000\000\000\000\000\000\000\000\000\002\003\006\007\t\f\r\000\000\000\000\000\000\000\000\000\001\006\007\t\f\r\000\000\000\000\000\000\000\000\000\002\003\006\007\t\f\r\000\000\000\000\000\000\000\000\000\001\006\007\t\f\r\000\000\000\000\000\000\000\000\000\000\000\002\003\005\t\f\r\000\000\000\000\000\000\000\000\000\000\001\005\t\f\r\000\000\000\000\000\000\000\000\000\000\002\003\005\t\f\r\000\000\000\000\000\000\000\000\000\000\001\005\t\f\r\000\000\000\000\000\000\000\000\000\000\000\000\002\003\004\006\007\b\n\013\016\017\000\000\000\000\000\000\001\004\006\007\b\n\013\016\017\000\000\000\000\000\000\002\003\004\006\007\b\n\013\016\017\000\000\000\000\000\000\001\004\006\007\b\n\013\016\017\000\000\000\000\000\000\000\000\002\003\004\005\b\n\013\016\017\000\000\000\000\000\000\000\001\004\005\b\n\013\016\017\000\000\000\000\000\000\000\002\003\004\005\b\n\013\016\017\000\000\000\000\000\000\000\001\004\005\b\n\013\016\017\000\000\000\000\000\000\000\000\000\002\003\006\007\b\n\013\016\017\000\000\000\000\000\000\000\001\006\007\b\n\013\016\017\000\000\000\000\000\000\000\002\003\006\007\b\n\013\016\017\000\000\000\000\000\000\000\001\006\007\b\n\013\016\017\000\000\000\000\000\000\000\000\000\002\003\005\b\n\013\016\017\000\000\000\000\000\000\000\000\001\005\b\n\013\016\017\000\000\000\000\000\000\000\000\002\003\005\b\n\013\016\017\000\000\000\000\000\000\000\000\001\005\b\n\013\016\017\000\000\000\000\000\000\000\000\000\000\002\003\004\006\007\b\t\016\017\000\000\000\000\000\000\000\001\004\006\007\b\t\016\017\000\000\000\000\000\000\000\002\003\004\006\007\b\t\016\017\000\000\000\000\000\000\000\001\004\006\007\b\t\016\017\000\000\000\000\000\000\000\000\000\002\003\004\005\b\t\016\017\000\000\000\000\000\000\000\000\001\004\005\b\t\016\017\000\000\000\000\000\000\000\000\002\003\004\005\b\t\016\017\000\000\000\000\000\000\000\000\001\004\005\b\t\016\017\000\000\000\000\000\000\000\000\000\000\002\003\006\007\b\t\016\017\000\000\000\000\000\000\000\000\001\006\007\b\t\016\017\000\000\000\000\000\000\000\000\002\003\006\007\b\t\016\017\000\000\000\000\000\000\000\000\001\006\007\b\t\016\017\000\000\000\000\000\000\000\000\000\000\002\003\005\b\t\016\017\000\000\000\000\000\000\000\000\000\001\005\b\t\016\017\000\000\000\000\000\000\000\000\000\002\003\005\b\t\016\017\000\000\000\000\000\000\000\000\000\001\005\b\t\016\017\000\000\000\000\000\000\000\000\000\000\000\002\003\004\006\007\n\013\016\017\000\000\000\000\000\000\000\001\004\006\007\n\013\016\017\000\000\000\000\000\000\000\002\003\004\006\007\n\013\016\017\000\000\000\000\000\000\000\001\004\006\007\n\013\016\017\000\000\000\000\000\000\000\000\000\002\003\004\005\n\013\016\017\000\000\000\000\000\000\000\000\001\004\005\n\013\016\017\000\000\000\000\000\000\000\000\002\003\004\005\n\013\016\017\000\000\000\000\000\000\000\000\001\004\005\n\013\016\017\000\000\000\000\000\000\000\000\000\000\002\003\006\007\n\013\016\017\000\000\000\000\000\000\000\000\001\006\007\n\013\016\017\000\000\000\000\000\000\000\000\002\003\006\007\n\013\016\017\000\000\000\000\000\000\000\000\001\006\007\n\013\016\017\000\000\000\000\000\000\000\000\000\000\002\003\005\n\013\016\017\000\000\000\000\000\000\000\000\000\001\005\n\013\016\017\000\000\000\000\000\000\000\000\000\002\003\005\n\013\016\017\000\000\000\000\000\000\000\000\000\001\005\n\013\016\017\000\000\000\000\000\000\000\000\000\000\000\002\003\004\006\007\t\016\017\000\000\000\000\000\000\000\000\001\004\006\007\t\016\017\000\000\000\000\000\000\000\000\002\003\004\006\007\t\016\017\000\000\000\000\000\000\000\000\001\004\006\007\t\016\017\000\000\000\000\000\000\000\000\000\000\002\003\004\005\t\016\017\000\000\000\000\000\000\000\000\000\001\004\005\t\016\017\000\000\000\000\000\000\000\000\000\002\003\004\005\t\016\017\000\000\000\000\000\000\000\000\000\001\004\005\t\016\017\000\000\000\000\000\000\000\000\000\000\000\002\003\006\007\t\016\017\000\000\000\000\000\000\000\000\000\001\006\007\t\016\017\000\000\000\000\000\000\000\000\000\002\003\006\007\t\016\017\000\000\000\000\000\000\000\000\000\001\006\007\t\016\017\000\000\000\000\000\000\000\000\000\000\000\002\003\005\t\016\017\000\000\000\000\000\000\000\000\000\000\001\005\t\016\017\000\000\000\000\000\000\000\000\000\000\002\003\005\t\016\017\000\000\000\000\000\000\000\000\000\000\001\005\t\016\017\000\000\000\000\000\000\000\000\000\000\000\000\002\003\004\006\007\b\n\013\r\000\000\000\000\000\000\000\001\004\006\007\b\n\013\r\000\000\000\000\000\000\000\002\003\004\006\007\b\n\013\r\000\000\000\000\000\000\000\001\004\006\007\b\n\013\r\000\000\000\000\000\000\000\000\000\002\003\004\005\b\n\013\r\000\000\000\000\000\000\000\000\001\004\005\b\n\013\r\000\000\000\000\000\000\000\000\002\003\004\005\b\n\013\r\000\000\000\000\000\000\000\000\001\004\005\b\n\013\r\000\000\000\000\000\000\000\000\000\000\002\003\006\007\b\n\013\r\000\000\000\000\000\000\000\000\001\006\007\b\n\013\r\000\000\000\000\000\000\000\000\002\003\006\007\b\n\013\r\000\000\000\000\000\000\000\000\001\006\007\b\n\013\r\000\000\000\000\000\000\000\000\000\000\002\003\005\b\n\013\r\000\000\000\000\000\000\000\000\000\001\005\b\n\013\r\000\000\000\000\000\000\000\000\000\002\003\005\b\n\013\r\000\000\000\000\000\000\000\000\000\001\005\b\n\013\r\000\000\000\000\000\000\000\000\000\000\000\002\003\004\006\007\b\t\r\000\000\000\000\000\000\000\000\001\004\006\007\b\t\r\000\000\000\000\000\000\000\000\002\003\004\006\007\b\t\r\000\000\000\000\000\000\000\000\001\004\006\007\b\t\r\000\000\000\000\000\000\000\000\000\000\002\003\004\005\b\t\r\000\000\000\000\000\000\000\000\000\001\004\005\b\t\r\000\000\000\000\000\000\000\000\000\002\003\004\005\b\t\r\000\000\000\000\000\000\000\000\000\001\004\005\b\t\r\000\000\000\000\000\000\000\000\000\000\000\002\003\006\007\b\t\r\000\000\000\000\000\000\000\000\000\001\006\007\b\t\r\000\000\000\000\000\000\000\000\000\002\003\006\007\b\t\r\000\000\000\000\000\000\000\000\000\001\006\007\b\t\r\000\000\000\000\000\000\000\000\000\000\000\002\003\005\b\t\r\000\000\000\000\000\000\000\000\000\000\001\005\b\t\r\000\000\000\000\000\000\000\000\000\000\002\003\005\b\t\r\000\000\000\000\000\000\000\000\000\000\001\005\b\t\r\000\000\000\000\000\000\000\000\000\000\000\000\002\003\004\006\007\n\013\r\000\000\000\000\000\000\000\000\001\004\006\007\n\013\r\000\000\000\000\000\000\000\000\002\003\004\006\007\n\013\r\000\000\000\000\000\000\000\000\001\004\006\007\n\013\r\000\000\000\000\000\000\000\000\000\000\002\003\004\005\n\013\r\000\000\000\000\000\000\000\000\000\001\004\005\n\013\r\000\000\000\000\000\000\000\000\000\002\003\004\005\n\013\r\000\000\000\000\000\000\000\000\000\001\004\005\n\013\r\000\000\000\000\000\000\000\000\000\000\000\002\003\006\007\n\013\r\000\000\000\000\000\000\000\000\000\001\006\007\n\013\r\000\000\000\000\000\000\000\000\000\002\003\006\007\n\013\r\000\000\000\000\000\000\000\000\000\001\006\007\n\013\r\000\000\000\000\000\000\000\000\000\000\000\002\003\005\n\013\r\000\000\000\000\000\000\000\000\000\000\001\005\n\013\r\000\000\000\000\000\000\000\000\000\000\002\003\005\n\013\r\000\000\000\000\000\000\000\000\000\000\001\005\n\013\r\000\000\000\000\000\000\000\000\000\000\000\000\002\003\004\006\007\t\r\000\000\000\000\000\000\000\000\000\001\004\006\007\t\r\000\000\000\000\000\000\000\000\000\002\003\004\006\007\t\r\000\000\000\000\000\000\000\000\000\001\004\006\007\t\r\000\000\000\000\000\000\000\000\000\000\000\002\003\004\005\t\r\000\000\000\000\000\000\000\000\000\000\001\004\005\t\r\000\000\000\000\000\000\000\000\000\000\002\003\004\005\t\r\000\000\000\000\000\000\000\000\000\000\001\004\005\t\r\000\000\000\000\000\000\000\000\000\000\000\000\002\003\006\007\t\r\000\000\000\000\000\000\000\000\000\000\001\006\007\t\r\000\000\000\000\000\000\000\000\000\000\002\003\006\007\t\r\000\000\000\000\000\000\000\000\000\000\001\006\007\t\r\000\000\000\000\000\000\000\000\000\000\000\000\002\003\005\t\r\000\000\000\000\000\000\000\000\000\000\000\001\005\t\r\000\000\000\000\000\000\000\000\000\000\000\002\003\005\t\r\000\000\000\000\000\000\000\000\000\000\000\001\005\t\r\000\000\000\000\000\000\000\000\000\000\000"
	.size	.Lstatic.9, 4096

	.type	.Lstatic.10,@object
	.section	.rodata..Lstatic.10,"a",@progbits
.Lstatic.10:
	.ascii	"\200\200\200\200\200\200\200\200\200\200\200\200\200\200\200\200\017\200\200\200\200\200\200\200\200\200\200\200\200\200\200\200\016\017\200\200\200\200\200\200\200\200\200\200\200\200\200\200\r\016\017\200\200\200\200\200\200\200\200\200\200\200\200\200\f\r\016\017\200\200\200\200\200\200\200\200\200\200\200\200\013\f\r\016\017\200\200\200\200\200\200\200\200\200\200\200\n\013\f\r\016\017\200\200\200\200\200\200\200\200\200\200\t\n\013\f\r\016\017\200\200\200\200\200\200\200\200\200\b\t\n\013\f\r\016\017\200\200\200\200\200\200\200\200\007\b\t\n\013\f\r\016\017\200\200\200\200\200\200\200\006\007\b\t\n\013\f\r\016\017\200\200\200\200\200\200\005\006\007\b\t\n\013\f\r\016\017\200\200\200\200\200\004\005\006\007\b\t\n\013\f\r\016\017\200\200\200\200\003\004\005\006\007\b\t\n\013\f\r\016\017\200\200\200\002\003\004\005\006\007\b\t\n\013\f\r\016\017\200\200\001\002\003\004\005\006\007\b\t\n\013\f\r\016\017\200\000\001\002\003\004\005\006\007\b\t\n\013\f\r\016\017"
	.size	.Lstatic.10, 272

	.type	.Lstatic.25,@object
	.section	.rodata..Lstatic.25,"a",@progbits
.Lstatic.25:
	.ascii	"usage: "
	.size	.Lstatic.25, 7

	.type	.Lstatic.26,@object
	.section	.rodata..Lstatic.26,"a",@progbits
.Lstatic.26:
	.ascii	": read failed\n"
	.size	.Lstatic.26, 14

	.type	.Lstatic.27,@object
	.section	.rodata..Lstatic.27,"a",@progbits
.Lstatic.27:
	.ascii	": write failed\n"
	.size	.Lstatic.27, 15

	.type	.Lstatic.28,@object
	.section	.rodata.cst16,"aM",@progbits,16
.Lstatic.28:
	.ascii	": out of memory\n"
	.size	.Lstatic.28, 16

	.type	.Lstatic.29,@object
	.section	.rodata..Lstatic.29,"a",@progbits
.Lstatic.29:
	.ascii	": input too long\n"
	.size	.Lstatic.29, 17

	.type	.Lstatic.30,@object
	.section	.rodata..Lstatic.30,"a",@progbits
.Lstatic.30:
	.ascii	" le|be|auto\n"
	.size	.Lstatic.30, 12

	.type	.Lstatic.32,@object
	.section	.rodata..Lstatic.32,"a",@progbits
.Lstatic.32:
	.ascii	"utf16_cat"
	.size	.Lstatic.32, 9

	.ident	"rattle logic=dac8208d650f15bf3e2dc313a14fa4c783a3acf887bdfab66e1714b038d9e11b"
	.section	".note.GNU-stack","",@progbits
