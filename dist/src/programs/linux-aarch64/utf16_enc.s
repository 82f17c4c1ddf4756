/* SPDX-License-Identifier: MIT OR Apache-2.0
 * utf16_enc 0.2.0, as assembly for Linux on ARM64. packaging/assembly
 * wrote it from the code that rt proved in logic dac8208d650f15bf: do not edit it. */
	.section	.note.gnu.property,"a",@note
	.p2align	3, 0x0
	.word	4
	.word	16
	.word	5
	.asciz	"GNU"
	.word	3221225472
	.word	4
	.word	1
	.word	0
.Lsec_end0:
	.text
	.section	".text.unlikely.std_alloc::vec::Vec::grow_amortized::<#673fbaf82d7b1088>","ax",@progbits
	.p2align	2
	.type	"std_alloc::vec::Vec::grow_amortized::<#673fbaf82d7b1088>",@function
"std_alloc::vec::Vec::grow_amortized::<#673fbaf82d7b1088>":
	.cfi_startproc
	ldr	x8, [x0, #8]
	cmn	x8, x1
	b.lo	.LBB0_2
	mov	w0, wzr
	ret
.LBB0_2:
	stp	x29, x30, [sp, #-32]!
	.cfi_def_cfa_offset 32
	stp	x20, x19, [sp, #16]
	mov	x29, sp
	.cfi_def_cfa w29, 32
	.cfi_offset w19, -8
	.cfi_offset w20, -16
	.cfi_offset w30, -24
	.cfi_offset w29, -32
	.cfi_remember_state
	ldr	x10, [x0, #16]
	add	x9, x8, x1
	mov	w11, #8
	cmp	x9, #8
	lsl	x12, x10, #1
	csel	x11, x9, x11, hi
	lsr	x13, x10, #62
	cmp	x11, x12
	csel	x9, x11, x12, hi
	cmp	x13, #0
	csel	x19, x9, x11, eq
	tbnz	x19, #63, .LBB0_7
	cbz	x10, .LBB0_6
	mov	x20, x0
	ldr	x0, [x0]
	mov	x1, x8
	mov	x2, x19
	mov	w3, #1
	bl	rattle_realloc
	tbz	w0, #0, .LBB0_7
.LBB0_5:
	mov	w0, #1
	str	x1, [x20]
	str	x19, [x20, #16]
	.cfi_def_cfa wsp, 32
	ldp	x20, x19, [sp, #16]
	ldp	x29, x30, [sp], #32
	.cfi_def_cfa_offset 0
	.cfi_restore w19
	.cfi_restore w20
	.cfi_restore w30
	.cfi_restore w29
	ret
.LBB0_6:
	.cfi_restore_state
	mov	x20, x0
	mov	x0, x9
	mov	w1, #1
	bl	rattle_alloc
	tbnz	w0, #0, .LBB0_5
.LBB0_7:
	mov	w0, wzr
	.cfi_def_cfa wsp, 32
	ldp	x20, x19, [sp, #16]
	ldp	x29, x30, [sp], #32
	.cfi_def_cfa_offset 0
	.cfi_restore w19
	.cfi_restore w20
	.cfi_restore w30
	.cfi_restore w29
	ret
.Lfunc_end0:
	.size	"std_alloc::vec::Vec::grow_amortized::<#673fbaf82d7b1088>", .Lfunc_end0-"std_alloc::vec::Vec::grow_amortized::<#673fbaf82d7b1088>"
	.cfi_endproc

	.section	".text.core::str::utf8::from_utf8","ax",@progbits
	.p2align	2
	.type	"core::str::utf8::from_utf8",@function
"core::str::utf8::from_utf8":
	.cfi_startproc
	sub	sp, sp, #64
	.cfi_def_cfa_offset 64
	stp	x29, x30, [sp, #16]
	stp	x22, x21, [sp, #32]
	stp	x20, x19, [sp, #48]
	add	x29, sp, #16
	.cfi_def_cfa w29, 48
	.cfi_offset w19, -8
	.cfi_offset w20, -16
	.cfi_offset w21, -24
	.cfi_offset w22, -32
	.cfi_offset w30, -40
	.cfi_offset w29, -48
	.cfi_remember_state
	mov	x20, x2
	mov	x21, x1
	mov	x19, x0
	cbz	x2, .LBB1_51
	mov	x9, xzr
	sub	x22, x20, #8
	b	.LBB1_6
.LBB1_2:
	and	w11, w11, #0xff
	tbnz	w11, #7, .LBB1_23
.LBB1_3:
	mov	w12, #1
.LBB1_4:
	add	x8, x12, x9
.LBB1_5:
	cmp	x8, x20
	mov	x9, x8
	b.hs	.LBB1_51
.LBB1_6:
	add	x8, x21, x9
	sub	x10, x20, x9
	ldrsb	w11, [x8]
	cmp	x10, #2
	b.lo	.LBB1_2
	tbnz	w11, #31, .LBB1_2
	ldrsb	w11, [x8, #1]
	tbnz	w11, #31, .LBB1_3
	cmp	x10, #7
	stp	x21, x20, [sp]
	b.hi	.LBB1_28
	ldrsb	w8, [x21, x9]
	tbnz	w8, #31, .LBB1_43
	add	x8, x9, #1
	cmp	x8, x20
	b.eq	.LBB1_51
	ldrsb	w10, [x21, x8]
	tbnz	w10, #31, .LBB1_5
	add	x8, x9, #2
	cmp	x8, x20
	b.eq	.LBB1_51
	ldrsb	w10, [x21, x8]
	tbnz	w10, #31, .LBB1_5
	add	x8, x9, #3
	cmp	x8, x20
	b.eq	.LBB1_51
	ldrsb	w10, [x21, x8]
	tbnz	w10, #31, .LBB1_5
	add	x8, x9, #4
	cmp	x8, x20
	b.eq	.LBB1_51
	ldrsb	w10, [x21, x8]
	tbnz	w10, #31, .LBB1_5
	add	x8, x9, #5
	cmp	x8, x20
	b.eq	.LBB1_51
	ldrsb	w10, [x21, x8]
	tbnz	w10, #31, .LBB1_5
	add	x8, x9, #6
	cmp	x8, x20
	b.eq	.LBB1_51
	ldrsb	w9, [x21, x8]
	tbnz	w9, #31, .LBB1_5
	b	.LBB1_51
.LBB1_23:
	cmp	w11, #194
	b.lo	.LBB1_59
	cmp	w11, #223
	b.hi	.LBB1_36
	cmp	x10, #2
	b.lo	.LBB1_58
	ldrsb	w12, [x8, #1]
	cmn	w12, #65
	b.gt	.LBB1_55
	mov	w12, #2
	b	.LBB1_4
.LBB1_28:
	ldr	x8, [x8]
	mov	w10, #8
	ands	x8, x8, #0x8080808080808080
	rbit	x8, x8
	clz	x8, x8
	lsr	x8, x8, #3
	csel	x8, x10, x8, eq
	add	x8, x8, x9
	add	x9, x9, #8
	cmp	x8, x9
	b.lo	.LBB1_5
	sub	x9, x20, x8
	cmp	x9, #32
	b.lo	.LBB1_32
.LBB1_30:
	add	x9, x21, x8
	ldp	q1, q0, [x9]
	orr	v0.16b, v1.16b, v0.16b
	ext	v1.16b, v0.16b, v0.16b, #8
	orr	v0.8b, v0.8b, v1.8b
	fmov	x9, d0
	tst	x9, #0x8080808080808080
	b.ne	.LBB1_32
	mov	x0, sp
	add	x1, x8, #32
	mov	x2, x20
	bl	"core::slice::words::skip_far::<#52f9edcae2f82f51>"
	sub	x9, x20, x0
	mov	x8, x0
	cmp	x9, #31
	b.hi	.LBB1_30
.LBB1_32:
	sub	x9, x20, x8
.LBB1_33:
	cmp	x9, #9
	b.lo	.LBB1_50
	ldr	x10, [x21, x8]
	mov	w11, #8
	sub	x9, x9, #8
	ands	x10, x10, #0x8080808080808080
	rbit	x10, x10
	clz	x10, x10
	lsr	x10, x10, #3
	csel	x10, x11, x10, eq
	add	x11, x10, x8
	add	x8, x8, #8
	cmp	x11, x8
	b.hs	.LBB1_33
	add	x8, x10, x8
	sub	x8, x8, #8
	b	.LBB1_5
.LBB1_36:
	cmp	w11, #239
	b.hi	.LBB1_44
	cmp	x10, #3
	b.lo	.LBB1_53
	ldrsb	w12, [x8, #1]
	cmn	w12, #65
	b.gt	.LBB1_55
	ldrsb	w13, [x8, #2]
	cmn	w13, #65
	b.gt	.LBB1_55
	and	w13, w12, #0xff
	mov	w14, #-14464
	add	w13, w13, w11, lsl #6
	add	w13, w13, w14
	cmp	w13, #32
	b.lo	.LBB1_55
	cmp	w13, #896
	mov	w12, #3
	csel	x14, xzr, x12, lo
	cmp	w13, #864
	b.lo	.LBB1_4
	mov	x12, x14
	b	.LBB1_49
.LBB1_43:
	mov	x8, x9
	b	.LBB1_5
.LBB1_44:
	cmp	x10, #4
	b.lo	.LBB1_52
	ldrsb	w12, [x8, #1]
	cmn	w12, #65
	b.gt	.LBB1_52
	ldrsb	w13, [x8, #2]
	cmn	w13, #65
	b.gt	.LBB1_52
	ldrsb	w13, [x8, #3]
	cmn	w13, #65
	b.gt	.LBB1_52
	and	w12, w12, #0xff
	mov	w13, #-15488
	add	w12, w12, w11, lsl #6
	add	w13, w12, w13
	mov	w12, #4
	cmp	w13, #272
	csel	x12, x12, xzr, lo
	cmp	w13, #16
	b.lo	.LBB1_52
.LBB1_49:
	cbnz	x12, .LBB1_4
	b	.LBB1_52
.LBB1_50:
	ldr	x8, [x21, x22]
	mov	w9, #8
	ands	x8, x8, #0x8080808080808080
	rbit	x8, x8
	clz	x8, x8
	lsr	x8, x8, #3
	csel	x8, x9, x8, eq
	add	x8, x8, x22
	b	.LBB1_5
.LBB1_51:
	stp	xzr, x21, [x19]
	str	x20, [x19, #16]
	.cfi_def_cfa wsp, 64
	ldp	x20, x19, [sp, #48]
	ldp	x22, x21, [sp, #32]
	ldp	x29, x30, [sp, #16]
	add	sp, sp, #64
	.cfi_def_cfa_offset 0
	.cfi_restore w19
	.cfi_restore w20
	.cfi_restore w21
	.cfi_restore w22
	.cfi_restore w30
	.cfi_restore w29
	ret
.LBB1_52:
	.cfi_restore_state
	.cfi_remember_state
	cmp	w11, #244
	b.hi	.LBB1_59
.LBB1_53:
	cmp	x10, #2
	b.lo	.LBB1_58
	ldrb	w12, [x8, #1]
.LBB1_55:
	cmp	w11, #240
	mov	w13, #-128
	mov	w14, #-112
	mov	w15, #-96
	csel	w13, w14, w13, eq
	cmp	w11, #224
	mov	w14, #-65
	csel	w13, w15, w13, eq
	mov	w15, #-113
	cmp	w11, #244
	and	w16, w13, #0xf0
	csel	w13, w15, w14, eq
	cmp	w11, #237
	mov	w11, #-97
	csel	w13, w11, w13, eq
	cmp	w16, w12, uxtb
	mov	w11, #257
	b.hi	.LBB1_60
	and	w12, w12, #0xff
	cmp	w12, w13, uxtb
	b.hi	.LBB1_60
	cmp	x10, #2
	b.ne	.LBB1_61
.LBB1_58:
	mov	x11, xzr
	b	.LBB1_60
.LBB1_59:
	mov	w11, #257
.LBB1_60:
	mov	w8, #1
	str	x11, [x19, #16]
	stp	x8, x9, [x19]
	.cfi_def_cfa wsp, 64
	ldp	x20, x19, [sp, #48]
	ldp	x22, x21, [sp, #32]
	ldp	x29, x30, [sp, #16]
	add	sp, sp, #64
	.cfi_def_cfa_offset 0
	.cfi_restore w19
	.cfi_restore w20
	.cfi_restore w21
	.cfi_restore w22
	.cfi_restore w30
	.cfi_restore w29
	ret
.LBB1_61:
	.cfi_restore_state
	ldrsb	w8, [x8, #2]
	cmn	w8, #65
	b.gt	.LBB1_63
	cmp	x10, #3
	mov	w8, #769
	csel	x11, x8, xzr, hi
	b	.LBB1_60
.LBB1_63:
	mov	w11, #513
	b	.LBB1_60
.Lfunc_end1:
	.size	"core::str::utf8::from_utf8", .Lfunc_end1-"core::str::utf8::from_utf8"
	.cfi_endproc

	.section	".text.core::slice::words::skip_far::<#52f9edcae2f82f51>","ax",@progbits
	.p2align	2
	.type	"core::slice::words::skip_far::<#52f9edcae2f82f51>",@function
"core::slice::words::skip_far::<#52f9edcae2f82f51>":
	.cfi_startproc
	sub	x8, x2, x1
	cmp	x8, #64
	b.lo	.LBB2_4
	ldr	x9, [x0]
.LBB2_2:
	add	x10, x9, x1
	ldp	q0, q1, [x10, #32]
	ldp	q2, q3, [x10]
	orr	v1.16b, v3.16b, v1.16b
	orr	v0.16b, v2.16b, v0.16b
	orr	v0.16b, v0.16b, v1.16b
	ext	v1.16b, v0.16b, v0.16b, #8
	orr	v0.8b, v0.8b, v1.8b
	fmov	x10, d0
	tst	x10, #0x8080808080808080
	b.ne	.LBB2_4
	sub	x8, x8, #64
	add	x1, x1, #64
	cmp	x8, #63
	b.hi	.LBB2_2
.LBB2_4:
	mov	x0, x1
	ret
.Lfunc_end2:
	.size	"core::slice::words::skip_far::<#52f9edcae2f82f51>", .Lfunc_end2-"core::slice::words::skip_far::<#52f9edcae2f82f51>"
	.cfi_endproc

	.section	".text.unlikely.std_alloc::vec::Vec::grow_amortized::<#9a72e5f6858642ac>","ax",@progbits
	.p2align	2
	.type	"std_alloc::vec::Vec::grow_amortized::<#9a72e5f6858642ac>",@function
"std_alloc::vec::Vec::grow_amortized::<#9a72e5f6858642ac>":
	.cfi_startproc
	ldr	x8, [x0, #8]
	cmn	x8, #1
	b.eq	.LBB3_5
	stp	x29, x30, [sp, #-32]!
	.cfi_def_cfa_offset 32
	stp	x20, x19, [sp, #16]
	mov	x29, sp
	.cfi_def_cfa w29, 32
	.cfi_offset w19, -8
	.cfi_offset w20, -16
	.cfi_offset w30, -24
	.cfi_offset w29, -32
	.cfi_remember_state
	ldr	x9, [x0, #16]
	cmp	x8, #3
	mov	w10, #3
	csel	x11, x8, x10, hi
	lsl	x10, x9, #1
	add	x12, x11, #1
	lsr	x13, x9, #62
	cmp	x12, x10
	csinc	x10, x10, x11, ls
	cmp	x13, #0
	csinc	x19, x10, x11, eq
	mov	x11, #6148914691236517205
	movk	x11, #1365, lsl #48
	cmp	x19, x11
	b.hi	.LBB3_7
	cbz	x9, .LBB3_6
	add	x8, x8, x8, lsl #1
	add	x9, x19, x19, lsl #1
	mov	x20, x0
	ldr	x0, [x0]
	mov	w3, #8
	lsl	x1, x8, #3
	lsl	x2, x9, #3
	bl	rattle_realloc
	tbz	w0, #0, .LBB3_7
.LBB3_4:
	mov	w0, #1
	str	x1, [x20]
	str	x19, [x20, #16]
	.cfi_def_cfa wsp, 32
	ldp	x20, x19, [sp, #16]
	ldp	x29, x30, [sp], #32
	.cfi_def_cfa_offset 0
	.cfi_restore w19
	.cfi_restore w20
	.cfi_restore w30
	.cfi_restore w29
	ret
.LBB3_5:
	mov	w0, wzr
	ret
.LBB3_6:
	.cfi_restore_state
	add	x8, x10, x10, lsl #1
	mov	x20, x0
	mov	w1, #8
	lsl	x0, x8, #3
	bl	rattle_alloc
	tbnz	w0, #0, .LBB3_4
.LBB3_7:
	mov	w0, wzr
	.cfi_def_cfa wsp, 32
	ldp	x20, x19, [sp, #16]
	ldp	x29, x30, [sp], #32
	.cfi_def_cfa_offset 0
	.cfi_restore w19
	.cfi_restore w20
	.cfi_restore w30
	.cfi_restore w29
	ret
.Lfunc_end3:
	.size	"std_alloc::vec::Vec::grow_amortized::<#9a72e5f6858642ac>", .Lfunc_end3-"std_alloc::vec::Vec::grow_amortized::<#9a72e5f6858642ac>"
	.cfi_endproc

	.section	".text.std_io::io::error::last_error","ax",@progbits
	.p2align	2
	.type	"std_io::io::error::last_error",@function
"std_io::io::error::last_error":
	.cfi_startproc
	stp	x29, x30, [sp, #-32]!
	.cfi_def_cfa_offset 32
	str	x19, [sp, #16]
	mov	x29, sp
	.cfi_def_cfa w29, 32
	.cfi_offset w19, -16
	.cfi_offset w30, -24
	.cfi_offset w29, -32
	.cfi_remember_state
	mov	x19, x0
	bl	rattle_errno
	tbnz	w0, #31, .LBB4_4
	sub	w8, w0, #1
	cmp	w8, #121
	b.hi	.LBB4_4
	adrp	x9, .LJTI4_0
	add	x9, x9, :lo12:.LJTI4_0
	adr	x10, .LBB4_3
	ldrb	w11, [x9, x8]
	add	x10, x10, x11, lsl #2
	mov	w8, #1
	br	x10
.LBB4_3:
	hint	#36
	mov	w8, #36
	b	.LBB4_5
.LBB4_4:
	hint	#36
	mov	w8, #41
.LBB4_5:
	hint	#36
	movi	v0.2d, #0000000000000000
	strb	wzr, [x19]
	strb	w8, [x19, #1]
	strh	wzr, [x19, #2]
	str	w0, [x19, #4]
	stur	q0, [x19, #8]
	stur	q0, [x19, #24]
	stur	q0, [x19, #40]
	stur	q0, [x19, #56]
	stur	q0, [x19, #72]
	.cfi_def_cfa wsp, 32
	ldr	x19, [sp, #16]
	ldp	x29, x30, [sp], #32
	.cfi_def_cfa_offset 0
	.cfi_restore w19
	.cfi_restore w30
	.cfi_restore w29
	ret
.LBB4_6:
	.cfi_restore_state
	hint	#36
	mov	w8, #4
	b	.LBB4_5
.LBB4_7:
	hint	#36
	mov	w8, #7
	b	.LBB4_5
.LBB4_8:
	hint	#36
	mov	w8, #26
	b	.LBB4_5
.LBB4_9:
	hint	#36
	mov	w8, #39
	b	.LBB4_5
.LBB4_10:
	hint	#36
	mov	w8, #9
	b	.LBB4_5
.LBB4_11:
	hint	#36
	mov	w8, #8
	b	.LBB4_5
.LBB4_12:
	hint	#36
	mov	w8, #30
	b	.LBB4_5
.LBB4_13:
	hint	#36
	mov	w8, #25
	b	.LBB4_5
.LBB4_14:
	hint	#36
	mov	w8, #32
	b	.LBB4_5
.LBB4_15:
	hint	#36
	mov	w8, #33
	b	.LBB4_5
.LBB4_16:
	hint	#36
	mov	w8, #22
	b	.LBB4_5
.LBB4_17:
	hint	#36
	mov	w8, #31
	b	.LBB4_5
.LBB4_18:
	hint	#36
	mov	w8, #29
	b	.LBB4_5
.LBB4_19:
	hint	#36
	mov	w8, #18
	b	.LBB4_5
.LBB4_20:
	hint	#36
	mov	w8, #10
	b	.LBB4_5
.LBB4_21:
	hint	#36
	mov	w8, #28
	b	.LBB4_5
.LBB4_22:
	hint	#36
	mov	w8, #14
	b	.LBB4_5
.LBB4_23:
	hint	#36
	mov	w8, #12
	b	.LBB4_5
.LBB4_24:
	hint	#36
	mov	w8, #5
	b	.LBB4_5
.LBB4_25:
	hint	#36
	mov	w8, #3
	b	.LBB4_5
.LBB4_26:
	hint	#36
	mov	w8, wzr
	b	.LBB4_5
.LBB4_27:
	hint	#36
	mov	w8, #13
	b	.LBB4_5
.LBB4_28:
	hint	#36
	mov	w8, #38
	b	.LBB4_5
.LBB4_29:
	hint	#36
	mov	w8, #11
	b	.LBB4_5
.LBB4_30:
	hint	#36
	mov	w8, #35
	b	.LBB4_5
.LBB4_31:
	hint	#36
	mov	w8, #34
	b	.LBB4_5
.LBB4_32:
	hint	#36
	mov	w8, #20
	b	.LBB4_5
.LBB4_33:
	hint	#36
	mov	w8, #15
	b	.LBB4_5
.LBB4_34:
	hint	#36
	mov	w8, #19
	b	.LBB4_5
.LBB4_35:
	hint	#36
	mov	w8, #16
	b	.LBB4_5
.LBB4_36:
	hint	#36
	mov	w8, #6
	b	.LBB4_5
.LBB4_37:
	hint	#36
	mov	w8, #27
	b	.LBB4_5
.LBB4_38:
	hint	#36
	mov	w8, #24
	b	.LBB4_5
.LBB4_39:
	hint	#36
	mov	w8, #2
	b	.LBB4_5
.LBB4_40:
	hint	#36
	mov	w8, #17
	b	.LBB4_5
.Lfunc_end4:
	.size	"std_io::io::error::last_error", .Lfunc_end4-"std_io::io::error::last_error"
	.cfi_endproc
	.section	".rodata.std_io::io::error::last_error","a",@progbits
.LJTI4_0:
	.byte	(.LBB4_5-.LBB4_3)>>2
	.byte	(.LBB4_26-.LBB4_3)>>2
	.byte	(.LBB4_4-.LBB4_3)>>2
	.byte	(.LBB4_30-.LBB4_3)>>2
	.byte	(.LBB4_4-.LBB4_3)>>2
	.byte	(.LBB4_4-.LBB4_3)>>2
	.byte	(.LBB4_31-.LBB4_3)>>2
	.byte	(.LBB4_4-.LBB4_3)>>2
	.byte	(.LBB4_4-.LBB4_3)>>2
	.byte	(.LBB4_4-.LBB4_3)>>2
	.byte	(.LBB4_27-.LBB4_3)>>2
	.byte	(.LBB4_28-.LBB4_3)>>2
	.byte	(.LBB4_5-.LBB4_3)>>2
	.byte	(.LBB4_4-.LBB4_3)>>2
	.byte	(.LBB4_4-.LBB4_3)>>2
	.byte	(.LBB4_21-.LBB4_3)>>2
	.byte	(.LBB4_23-.LBB4_3)>>2
	.byte	(.LBB4_17-.LBB4_3)>>2
	.byte	(.LBB4_4-.LBB4_3)>>2
	.byte	(.LBB4_22-.LBB4_3)>>2
	.byte	(.LBB4_33-.LBB4_3)>>2
	.byte	(.LBB4_32-.LBB4_3)>>2
	.byte	(.LBB4_4-.LBB4_3)>>2
	.byte	(.LBB4_4-.LBB4_3)>>2
	.byte	(.LBB4_4-.LBB4_3)>>2
	.byte	(.LBB4_18-.LBB4_3)>>2
	.byte	(.LBB4_37-.LBB4_3)>>2
	.byte	(.LBB4_38-.LBB4_3)>>2
	.byte	(.LBB4_13-.LBB4_3)>>2
	.byte	(.LBB4_40-.LBB4_3)>>2
	.byte	(.LBB4_14-.LBB4_3)>>2
	.byte	(.LBB4_29-.LBB4_3)>>2
	.byte	(.LBB4_4-.LBB4_3)>>2
	.byte	(.LBB4_4-.LBB4_3)>>2
	.byte	(.LBB4_12-.LBB4_3)>>2
	.byte	(.LBB4_15-.LBB4_3)>>2
	.byte	(.LBB4_4-.LBB4_3)>>2
	.byte	(.LBB4_3-.LBB4_3)>>2
	.byte	(.LBB4_35-.LBB4_3)>>2
	.byte	(.LBB4_19-.LBB4_3)>>2
	.byte	(.LBB4_4-.LBB4_3)>>2
	.byte	(.LBB4_4-.LBB4_3)>>2
	.byte	(.LBB4_4-.LBB4_3)>>2
	.byte	(.LBB4_4-.LBB4_3)>>2
	.byte	(.LBB4_4-.LBB4_3)>>2
	.byte	(.LBB4_4-.LBB4_3)>>2
	.byte	(.LBB4_4-.LBB4_3)>>2
	.byte	(.LBB4_4-.LBB4_3)>>2
	.byte	(.LBB4_4-.LBB4_3)>>2
	.byte	(.LBB4_4-.LBB4_3)>>2
	.byte	(.LBB4_4-.LBB4_3)>>2
	.byte	(.LBB4_4-.LBB4_3)>>2
	.byte	(.LBB4_4-.LBB4_3)>>2
	.byte	(.LBB4_4-.LBB4_3)>>2
	.byte	(.LBB4_4-.LBB4_3)>>2
	.byte	(.LBB4_4-.LBB4_3)>>2
	.byte	(.LBB4_4-.LBB4_3)>>2
	.byte	(.LBB4_4-.LBB4_3)>>2
	.byte	(.LBB4_4-.LBB4_3)>>2
	.byte	(.LBB4_4-.LBB4_3)>>2
	.byte	(.LBB4_4-.LBB4_3)>>2
	.byte	(.LBB4_4-.LBB4_3)>>2
	.byte	(.LBB4_4-.LBB4_3)>>2
	.byte	(.LBB4_4-.LBB4_3)>>2
	.byte	(.LBB4_4-.LBB4_3)>>2
	.byte	(.LBB4_4-.LBB4_3)>>2
	.byte	(.LBB4_4-.LBB4_3)>>2
	.byte	(.LBB4_4-.LBB4_3)>>2
	.byte	(.LBB4_4-.LBB4_3)>>2
	.byte	(.LBB4_4-.LBB4_3)>>2
	.byte	(.LBB4_4-.LBB4_3)>>2
	.byte	(.LBB4_4-.LBB4_3)>>2
	.byte	(.LBB4_4-.LBB4_3)>>2
	.byte	(.LBB4_4-.LBB4_3)>>2
	.byte	(.LBB4_4-.LBB4_3)>>2
	.byte	(.LBB4_4-.LBB4_3)>>2
	.byte	(.LBB4_4-.LBB4_3)>>2
	.byte	(.LBB4_4-.LBB4_3)>>2
	.byte	(.LBB4_4-.LBB4_3)>>2
	.byte	(.LBB4_4-.LBB4_3)>>2
	.byte	(.LBB4_4-.LBB4_3)>>2
	.byte	(.LBB4_4-.LBB4_3)>>2
	.byte	(.LBB4_4-.LBB4_3)>>2
	.byte	(.LBB4_4-.LBB4_3)>>2
	.byte	(.LBB4_4-.LBB4_3)>>2
	.byte	(.LBB4_4-.LBB4_3)>>2
	.byte	(.LBB4_4-.LBB4_3)>>2
	.byte	(.LBB4_4-.LBB4_3)>>2
	.byte	(.LBB4_4-.LBB4_3)>>2
	.byte	(.LBB4_4-.LBB4_3)>>2
	.byte	(.LBB4_4-.LBB4_3)>>2
	.byte	(.LBB4_4-.LBB4_3)>>2
	.byte	(.LBB4_4-.LBB4_3)>>2
	.byte	(.LBB4_4-.LBB4_3)>>2
	.byte	(.LBB4_3-.LBB4_3)>>2
	.byte	(.LBB4_4-.LBB4_3)>>2
	.byte	(.LBB4_4-.LBB4_3)>>2
	.byte	(.LBB4_11-.LBB4_3)>>2
	.byte	(.LBB4_10-.LBB4_3)>>2
	.byte	(.LBB4_20-.LBB4_3)>>2
	.byte	(.LBB4_24-.LBB4_3)>>2
	.byte	(.LBB4_4-.LBB4_3)>>2
	.byte	(.LBB4_36-.LBB4_3)>>2
	.byte	(.LBB4_25-.LBB4_3)>>2
	.byte	(.LBB4_4-.LBB4_3)>>2
	.byte	(.LBB4_4-.LBB4_3)>>2
	.byte	(.LBB4_7-.LBB4_3)>>2
	.byte	(.LBB4_4-.LBB4_3)>>2
	.byte	(.LBB4_4-.LBB4_3)>>2
	.byte	(.LBB4_16-.LBB4_3)>>2
	.byte	(.LBB4_39-.LBB4_3)>>2
	.byte	(.LBB4_4-.LBB4_3)>>2
	.byte	(.LBB4_6-.LBB4_3)>>2
	.byte	(.LBB4_4-.LBB4_3)>>2
	.byte	(.LBB4_9-.LBB4_3)>>2
	.byte	(.LBB4_34-.LBB4_3)>>2
	.byte	(.LBB4_4-.LBB4_3)>>2
	.byte	(.LBB4_4-.LBB4_3)>>2
	.byte	(.LBB4_4-.LBB4_3)>>2
	.byte	(.LBB4_4-.LBB4_3)>>2
	.byte	(.LBB4_4-.LBB4_3)>>2
	.byte	(.LBB4_8-.LBB4_3)>>2

	.section	.rodata.cst16,"aM",@progbits,16
	.p2align	4, 0x0
.LCPI5_0:
	.byte	1
	.byte	2
	.byte	4
	.byte	8
	.byte	16
	.byte	32
	.byte	64
	.byte	128
	.byte	1
	.byte	2
	.byte	4
	.byte	8
	.byte	16
	.byte	32
	.byte	64
	.byte	128
	.section	".text.utf16_streams::filters::filter_by::<#49f94d9d01043660>","ax",@progbits
	.p2align	2
	.type	"utf16_streams::filters::filter_by::<#49f94d9d01043660>",@function
"utf16_streams::filters::filter_by::<#49f94d9d01043660>":
	.cfi_startproc
	stp	x29, x30, [sp, #-96]!
	.cfi_def_cfa_offset 96
	stp	x28, x27, [sp, #16]
	stp	x26, x25, [sp, #32]
	stp	x24, x23, [sp, #48]
	stp	x22, x21, [sp, #64]
	stp	x20, x19, [sp, #80]
	mov	x29, sp
	.cfi_def_cfa w29, 96
	.cfi_offset w19, -8
	.cfi_offset w20, -16
	.cfi_offset w21, -24
	.cfi_offset w22, -32
	.cfi_offset w23, -40
	.cfi_offset w24, -48
	.cfi_offset w25, -56
	.cfi_offset w26, -64
	.cfi_offset w27, -72
	.cfi_offset w28, -80
	.cfi_offset w30, -88
	.cfi_offset w29, -96
	.cfi_remember_state
	sub	sp, sp, #3072
	str	xzr, [sp]
	sub	sp, sp, #1312
	str	xzr, [sp]
	sub	x23, x29, #104
	ldrb	w8, [x0, #4]
	stp	x1, x2, [sp]
	ldr	w20, [x0]
	add	x0, sp, #152
	mov	w1, wzr
	mov	w2, #4096
	str	w8, [sp, #20]
	bl	memset
	mov	x9, xzr
	sub	x8, x29, #9
	stp	xzr, xzr, [sp, #136]
	stp	xzr, xzr, [sp, #120]
	stp	x8, xzr, [sp, #104]
.LBB5_1:
	add	x1, sp, #152
	mov	w0, wzr
	mov	w2, #4096
	str	x9, [sp, #24]
	bl	read
	tbnz	x0, #63, .LBB5_79
	cmp	x0, #1, lsl #12
	mov	w8, #4096
	csel	x8, x0, x8, lo
	str	x8, [sp, #56]
	cbz	x0, .LBB5_82
	cmp	x0, #8
	b.hs	.LBB5_5
	add	x25, sp, #128
	mov	w22, #24
	b	.LBB5_14
.LBB5_5:
	ldp	x22, x21, [sp, #112]
	cbz	x21, .LBB5_11
	ldr	x8, [sp, #56]
	lsl	x8, x8, #1
	add	x8, x8, #512
	subs	x2, x8, x22
	b.ls	.LBB5_13
.LBB5_7:
	sub	x8, x21, x22
	cmp	x2, x8
	b.hi	.LBB5_77
	add	x19, x22, x2
	ldr	x25, [sp, #104]
	cmp	x22, x19
	b.hs	.LBB5_10
.LBB5_9:
	add	x0, x25, x22
	mov	w1, wzr
	bl	memset
.LBB5_10:
	mov	x22, x19
	stp	x19, x21, [sp, #112]
	b	.LBB5_14
.LBB5_11:
	sub	x8, x22, #1
	mov	x9, #-8704
	cmp	x8, x9
	b.hs	.LBB5_55
	mov	x21, xzr
	ldr	x8, [sp, #56]
	lsl	x8, x8, #1
	add	x8, x8, #512
	subs	x2, x8, x22
	b.hi	.LBB5_7
.LBB5_13:
	ldr	x25, [sp, #104]
.LBB5_14:
	lsr	w8, w20, #24
	mov	w9, #3
	mov	x24, xzr
	mov	x11, xzr
	stp	wzr, w20, [x29, #-112]
	cmp	w8, #3
	stur	wzr, [x29, #-136]
	csel	w12, w8, w9, lo
	str	x22, [sp, #32]
	stp	x12, x25, [sp, #40]
.LBB5_15:
	subs	x8, x11, x12
	stp	x11, x24, [sp, #64]
	b.hs	.LBB5_52
	sub	x20, x12, x11
	mov	w8, #4
	ldr	x10, [sp, #56]
	sub	x8, x8, x20
	sub	x9, x29, #108
	sub	x0, x29, #104
	cmp	x8, x10
	add	x1, x9, x11
	sub	x2, x12, x11
	csel	x19, x8, x10, lo
	stur	wzr, [x29, #-104]
	sub	x21, x29, #104
	bl	memcpy
	add	x0, x21, x20
	add	x1, sp, #152
	mov	x2, x19
	bl	memcpy
	ldur	w8, [x29, #-104]
	add	x27, x19, x20
	sub	x0, x29, #136
	add	x2, x25, x24
	sub	x3, x22, x24
	mov	x1, x27
	stp	xzr, xzr, [x29, #-104]
	add	x26, x25, x24
	sub	x28, x22, x24
	stur	w8, [x29, #-136]
	stur	xzr, [x29, #-88]
	bl	"utf16_transcode::encode::FromUtf8Direction::begin::<#8b18edd9dd9aa8df>"
	mov	x6, x1
	cmp	x0, x27
	b.ne	.LBB5_21
	mov	x21, xzr
	mov	x22, xzr
	mov	x19, x27
.LBB5_18:
	mov	w8, wzr
	add	x9, x19, x21
	add	x19, x6, x22
.LBB5_19:
	ldp	x11, x24, [sp, #64]
	ldr	x22, [sp, #32]
	ldp	x12, x25, [sp, #40]
	add	x11, x9, x11
	add	x24, x19, x24
	cbz	x9, .LBB5_75
	cmp	w8, #3
	b.ne	.LBB5_15
	b	.LBB5_75
.LBB5_21:
	mov	x9, x22
	mov	x8, x24
	mov	x5, x0
	mov	x22, xzr
	mov	x21, xzr
	sub	x20, x29, #136
	sub	x24, x9, x24
	add	x25, x25, x8
	mov	x19, x27
	stp	x26, x27, [sp, #88]
	str	x28, [sp, #80]
	b	.LBB5_24
.LBB5_22:
	sub	x23, x29, #104
.LBB5_23:
	ldp	x26, x27, [sp, #88]
	add	x8, x19, x25
	ldr	x28, [sp, #80]
	add	x21, x24, x22
	add	x22, x8, #2
	sub	x8, x29, #136
	stp	xzr, xzr, [x29, #-104]
	add	x20, x8, x21
	sub	x19, x27, x21
	add	x25, x26, x22
	sub	x24, x28, x22
	mov	x0, x20
	mov	x1, x19
	mov	x2, x25
	mov	x3, x24
	stur	xzr, [x29, #-88]
	bl	"utf16_transcode::encode::FromUtf8Direction::begin::<#8b18edd9dd9aa8df>"
	mov	x5, x0
	cmp	x0, x19
	mov	x6, x1
	b.eq	.LBB5_18
.LBB5_24:
	sub	x0, x29, #104
	mov	x1, x20
	mov	x2, x19
	mov	x3, x25
	mov	x4, x24
	bl	"utf16_transcode::transcoding::transcode_many::<#824f73f0383279b7>"
	ldp	x9, x10, [x29, #-104]
	ldrb	w8, [x23, #16]
	cmp	w8, #1
	add	x9, x9, x21
	add	x19, x10, x22
	b.ne	.LBB5_19
	sub	x8, x28, x19
	cmp	x8, #1
	b.ls	.LBB5_36
	ldrb	w10, [x23, #17]
	add	x26, x26, x19
	mov	w11, #65023
	sub	x20, x8, #2
	strh	w11, [x26], #2
	add	x22, x9, x10
	sub	x9, x29, #136
	mov	x2, x26
	add	x0, x22, x9
	sub	x1, x27, x22
	mov	x3, x20
	add	x21, x22, x9
	sub	x28, x27, x22
	bl	"utf16_transcode::items::write_items::<#8b18edd9dd9aa8df>"
	sub	x27, x28, x0
	mov	x24, x0
	mov	x25, x1
	cmp	x27, #64
	b.lo	.LBB5_23
.LBB5_27:
	sub	x23, x20, x25
	cmp	x23, #128
	b.lo	.LBB5_22
	ldr	q0, [x21, x24]
	adrp	x8, .LCPI5_0
	ldr	q1, [x8, :lo12:.LCPI5_0]
	cmlt	v0.16b, v0.16b, #0
	and	v0.16b, v0.16b, v1.16b
	addp	v0.16b, v0.16b, v0.16b
	addp	v0.16b, v0.16b, v0.16b
	addp	v0.16b, v0.16b, v0.16b
	umov	w8, v0.h[0]
	cbz	w8, .LBB5_30
	mov	x4, xzr
	sub	x8, x27, xzr
	lsl	x5, xzr, #1
	cmp	x8, #64
	b.hs	.LBB5_31
	b	.LBB5_33
.LBB5_30:
	lsr	x8, x23, #1
	add	x0, x21, x24
	add	x2, x26, x25
	cmp	x8, x27
	csel	x1, x8, x27, lo
	bl	"utf16_from_utf8::ascii::write_front::<#8b18edd9dd9aa8df>"
	mov	x4, x0
	sub	x8, x27, x0
	lsl	x5, x0, #1
	cmp	x8, #64
	b.lo	.LBB5_33
.LBB5_31:
	sub	x8, x23, x5
	cmp	x8, #128
	b.lo	.LBB5_33
	add	x0, x21, x24
	add	x2, x26, x25
	sub	x3, x20, x25
	mov	x1, x27
	bl	"utf16_from_utf8::blocks::write_mixed_blocks::<#8b18edd9dd9aa8df>"
	mov	x4, x0
	mov	x5, x1
.LBB5_33:
	add	x24, x4, x24
	add	x25, x5, x25
	sub	x8, x28, x24
	cmp	x8, #4
	b.lo	.LBB5_22
	sub	x8, x20, x25
	cmp	x8, #4
	b.lo	.LBB5_22
	add	x0, x21, x24
	sub	x1, x28, x24
	add	x2, x26, x25
	sub	x3, x20, x25
	bl	"utf16_transcode::items::write_items::<#8b18edd9dd9aa8df>"
	add	x24, x0, x24
	add	x25, x1, x25
	sub	x27, x28, x24
	cmp	x27, #63
	b.hi	.LBB5_27
	b	.LBB5_22
.LBB5_36:
	ldp	x8, x24, [sp, #64]
	ldp	x10, x25, [sp, #40]
	add	x8, x9, x8
	sub	x9, x29, #108
	add	x24, x19, x24
	cmp	x10, x8
	csel	x8, x10, x8, lo
	add	x1, x9, x8
	sub	x19, x10, x8
.LBB5_37:
	strb	wzr, [x23, #2]
	sub	x0, x29, #104
.LBB5_38:
	sturh	wzr, [x29, #-104]
	mov	x2, x19
	bl	memcpy
	ldrb	w8, [x23, #2]
	ldurh	w9, [x29, #-104]
	orr	w8, w9, w8, lsl #16
	ldr	x9, [sp, #24]
	orr	w20, w8, w19, lsl #24
	ldr	w8, [sp, #20]
	tbz	w8, #0, .LBB5_42
	cbz	x24, .LBB5_49
	cmp	x24, #1
	b.ne	.LBB5_50
.LBB5_41:
	add	x0, x25, #2
	mov	x1, x25
	mov	x2, x24
	bl	memmove
	ldr	x9, [sp, #24]
	mov	w8, #65534
	add	x24, x24, #2
	strh	w8, [x25]
.LBB5_42:
	cbz	x24, .LBB5_48
.LBB5_43:
	mov	x19, xzr
.LBB5_44:
	add	x1, x25, x19
	sub	x2, x24, x19
	mov	w0, #1
	sub	x21, x24, x19
	bl	write
	tbnz	x0, #63, .LBB5_98
	cmp	x0, x21
	csel	x8, x0, x21, lo
	cbz	x8, .LBB5_99
	add	x19, x8, x19
	cmp	x19, x24
	b.lo	.LBB5_44
	ldr	x9, [sp, #24]
	str	wzr, [sp, #20]
	add	x9, x9, #1
	cmn	x9, #1
	b.ne	.LBB5_1
	b	.LBB5_85
.LBB5_48:
	str	wzr, [sp, #20]
	add	x9, x9, #1
	cmn	x9, #1
	b.ne	.LBB5_1
	b	.LBB5_85
.LBB5_49:
	mov	w8, #1
	str	w8, [sp, #20]
	add	x9, x9, #1
	cmn	x9, #1
	b.ne	.LBB5_1
	b	.LBB5_85
.LBB5_50:
	ldrb	w8, [x25]
	cmp	w8, #254
	b.ne	.LBB5_41
	ldrb	w8, [x25, #1]
	cmp	w8, #255
	b.eq	.LBB5_43
	b	.LBB5_41
.LBB5_52:
	ldr	x10, [sp, #56]
	add	x9, sp, #152
	sub	x20, x22, x24
	add	x27, x9, x8
	add	x2, x25, x24
	mov	x3, x20
	sub	x28, x10, x8
	add	x8, x25, x24
	mov	x0, x27
	mov	x1, x28
	stp	xzr, xzr, [x29, #-104]
	str	x8, [sp, #96]
	stur	xzr, [x29, #-88]
	bl	"utf16_transcode::encode::FromUtf8Direction::begin::<#8b18edd9dd9aa8df>"
	mov	x6, x1
	cmp	x0, x28
	b.ne	.LBB5_58
	mov	x21, xzr
	mov	x22, xzr
	mov	x19, x28
.LBB5_54:
	mov	w8, wzr
	add	x9, x19, x21
	add	x22, x6, x22
	b	.LBB5_74
.LBB5_55:
	mov	x8, #-8705
	cmp	x22, x8
	b.hi	.LBB5_107
	mov	w8, #8704
	mov	w1, #1
	add	x19, x22, x8
	mov	x0, x19
	bl	rattle_alloc
	tbz	w0, #0, .LBB5_104
	mov	w21, #8704
	str	x1, [sp, #104]
	str	x19, [sp, #120]
	ldr	x8, [sp, #56]
	lsl	x8, x8, #1
	add	x8, x8, #512
	subs	x2, x8, x22
	b.hi	.LBB5_7
	b	.LBB5_13
.LBB5_58:
	mov	x5, x0
	mov	x22, xzr
	mov	x21, xzr
	add	x26, x25, x24
	mov	x19, x28
	stp	x27, x20, [sp, #80]
	str	x28, [sp, #32]
	b	.LBB5_61
.LBB5_59:
	sub	x23, x29, #104
.LBB5_60:
	add	x8, x22, x28
	add	x21, x26, x25
	ldr	x28, [sp, #32]
	add	x22, x8, #2
	ldr	x8, [sp, #80]
	stp	xzr, xzr, [x29, #-104]
	sub	x19, x28, x21
	stur	xzr, [x29, #-88]
	add	x27, x8, x21
	ldr	x8, [sp, #96]
	mov	x1, x19
	mov	x0, x27
	add	x26, x8, x22
	ldr	x8, [sp, #88]
	mov	x2, x26
	sub	x20, x8, x22
	mov	x3, x20
	bl	"utf16_transcode::encode::FromUtf8Direction::begin::<#8b18edd9dd9aa8df>"
	ldr	x25, [sp, #48]
	ldr	x24, [sp, #72]
	mov	x5, x0
	cmp	x0, x19
	mov	x6, x1
	b.eq	.LBB5_54
.LBB5_61:
	sub	x0, x29, #104
	mov	x1, x27
	mov	x2, x19
	mov	x3, x26
	mov	x4, x20
	bl	"utf16_transcode::transcoding::transcode_many::<#824f73f0383279b7>"
	ldp	x9, x10, [x29, #-104]
	ldrb	w8, [x23, #16]
	cmp	w8, #1
	add	x9, x9, x21
	add	x22, x10, x22
	b.ne	.LBB5_74
	ldr	x8, [sp, #88]
	sub	x8, x8, x22
	subs	x27, x8, #2
	b.lo	.LBB5_73
	ldrb	w8, [x23, #17]
	ldr	x10, [sp, #96]
	mov	x3, x27
	add	x25, x9, x8
	ldr	x8, [sp, #80]
	add	x20, x10, x22
	mov	w10, #65023
	sub	x1, x28, x25
	sub	x24, x28, x25
	strh	w10, [x20], #2
	add	x0, x25, x8
	mov	x2, x20
	add	x21, x25, x8
	bl	"utf16_transcode::items::write_items::<#8b18edd9dd9aa8df>"
	sub	x19, x24, x0
	mov	x26, x0
	mov	x28, x1
	cmp	x19, #64
	b.lo	.LBB5_60
.LBB5_64:
	sub	x23, x27, x28
	cmp	x23, #128
	b.lo	.LBB5_59
	ldr	q0, [x21, x26]
	adrp	x8, .LCPI5_0
	ldr	q1, [x8, :lo12:.LCPI5_0]
	cmlt	v0.16b, v0.16b, #0
	and	v0.16b, v0.16b, v1.16b
	addp	v0.16b, v0.16b, v0.16b
	addp	v0.16b, v0.16b, v0.16b
	addp	v0.16b, v0.16b, v0.16b
	umov	w8, v0.h[0]
	cbz	w8, .LBB5_67
	mov	x4, xzr
	sub	x8, x19, xzr
	lsl	x5, xzr, #1
	cmp	x8, #64
	b.hs	.LBB5_68
	b	.LBB5_70
.LBB5_67:
	lsr	x8, x23, #1
	add	x0, x21, x26
	add	x2, x20, x28
	cmp	x8, x19
	csel	x1, x8, x19, lo
	bl	"utf16_from_utf8::ascii::write_front::<#8b18edd9dd9aa8df>"
	mov	x4, x0
	sub	x8, x19, x0
	lsl	x5, x0, #1
	cmp	x8, #64
	b.lo	.LBB5_70
.LBB5_68:
	sub	x8, x23, x5
	cmp	x8, #128
	b.lo	.LBB5_70
	add	x0, x21, x26
	add	x2, x20, x28
	sub	x3, x27, x28
	mov	x1, x19
	bl	"utf16_from_utf8::blocks::write_mixed_blocks::<#8b18edd9dd9aa8df>"
	mov	x4, x0
	mov	x5, x1
.LBB5_70:
	add	x26, x4, x26
	add	x28, x5, x28
	sub	x8, x24, x26
	cmp	x8, #4
	b.lo	.LBB5_59
	sub	x8, x27, x28
	cmp	x8, #4
	b.lo	.LBB5_59
	add	x0, x21, x26
	sub	x1, x24, x26
	add	x2, x20, x28
	sub	x3, x27, x28
	bl	"utf16_transcode::items::write_items::<#8b18edd9dd9aa8df>"
	add	x26, x0, x26
	add	x28, x1, x28
	sub	x19, x24, x26
	cmp	x19, #63
	b.hi	.LBB5_64
	b	.LBB5_59
.LBB5_73:
	mov	w8, #3
.LBB5_74:
	ldr	x11, [sp, #64]
	ldr	x12, [sp, #40]
	add	x24, x22, x24
	add	x11, x9, x11
.LBB5_75:
	cmp	x12, x11
	sub	x10, x29, #108
	csel	x9, x12, x11, lo
	cmp	w8, #3
	add	x1, x10, x9
	sub	x19, x12, x9
	b.eq	.LBB5_37
	subs	x8, x11, x12
	ldr	x9, [sp, #56]
	sub	x0, x29, #104
	csel	x21, xzr, x8, lo
	mov	w8, #4
	mov	x2, x19
	sub	x9, x9, x21
	sub	x8, x8, x19
	add	x22, sp, #152
	cmp	x8, x9
	stur	wzr, [x29, #-104]
	sub	x23, x29, #104
	csel	x20, x8, x9, lo
	bl	memcpy
	add	x0, x23, x19
	add	x1, x22, x21
	mov	x2, x20
	bl	memcpy
	ldur	w8, [x29, #-104]
	add	x19, x20, x19
	sub	x0, x29, #104
	sub	x1, x29, #112
	strb	wzr, [x23, #2]
	stur	w8, [x29, #-112]
	b	.LBB5_38
.LBB5_77:
	add	x0, sp, #104
	mov	x1, x2
	mov	x19, x2
	bl	"std_alloc::vec::Vec::grow_amortized::<#673fbaf82d7b1088>"
	ldr	x21, [sp, #120]
	cbz	w0, .LBB5_105
	ldp	x25, x22, [sp, #104]
	mov	x2, x19
	add	x19, x22, x19
	cmp	x22, x19
	b.lo	.LBB5_9
	b	.LBB5_10
.LBB5_79:
	sub	x0, x29, #104
	bl	"std_io::io::error::last_error"
	ldr	x10, [sp]
	ldr	x9, [sp, #120]
	ldr	x8, [x10]
	adds	x8, x8, #1
	csinv	x8, x8, xzr, lo
	str	x8, [x10]
	cbz	x9, .LBB5_81
	ldr	x0, [sp, #104]
	bl	rattle_dealloc
.LBB5_81:
	mov	w1, wzr
	b	.LBB5_102
.LBB5_82:
	lsr	w8, w20, #24
	stp	xzr, xzr, [x29, #-136]
	stur	xzr, [x29, #-120]
	cbnz	w8, .LBB5_88
	ldr	w8, [sp, #20]
	tbz	w8, #0, .LBB5_95
	mov	w19, #2
	b	.LBB5_90
.LBB5_85:
	ldr	x8, [sp, #120]
	cbz	x8, .LBB5_87
	ldr	x0, [sp, #104]
	bl	rattle_dealloc
.LBB5_87:
	mov	w0, #1
	mov	w1, #3
	b	.LBB5_103
.LBB5_88:
	ldr	w9, [sp, #20]
	mov	w8, #65023
	sturh	w8, [x29, #-136]
	tbz	w9, #0, .LBB5_91
	mov	w19, #4
	sturh	w8, [x29, #-134]
.LBB5_90:
	mov	w8, #65534
	mov	x20, xzr
	sturh	w8, [x29, #-136]
	b	.LBB5_92
.LBB5_91:
	mov	w19, #2
	mov	x20, xzr
.LBB5_92:
	sub	x8, x29, #136
	sub	x2, x19, x20
	mov	w0, #1
	add	x1, x8, x20
	sub	x21, x19, x20
	bl	write
	tbnz	x0, #63, .LBB5_98
	cmp	x0, x21
	csel	x8, x0, x21, lo
	cbz	x8, .LBB5_99
	add	x20, x8, x20
	cmp	x20, x19
	b.lo	.LBB5_92
.LBB5_95:
	ldr	x8, [sp, #120]
	cbz	x8, .LBB5_97
	ldr	x0, [sp, #104]
	bl	rattle_dealloc
.LBB5_97:
	mov	w1, wzr
	mov	w0, wzr
	b	.LBB5_103
.LBB5_98:
	sub	x0, x29, #104
	bl	"std_io::io::error::last_error"
.LBB5_99:
	ldr	x10, [sp, #8]
	ldr	x9, [sp, #120]
	ldr	x8, [x10]
	adds	x8, x8, #1
	csinv	x8, x8, xzr, lo
	str	x8, [x10]
	cbz	x9, .LBB5_101
	ldr	x0, [sp, #104]
	bl	rattle_dealloc
.LBB5_101:
	mov	w1, #1
.LBB5_102:
	mov	w0, #1
.LBB5_103:
	add	sp, sp, #1, lsl #12
	add	sp, sp, #288
	.cfi_def_cfa wsp, 96
	ldp	x20, x19, [sp, #80]
	ldp	x22, x21, [sp, #64]
	ldp	x24, x23, [sp, #48]
	ldp	x26, x25, [sp, #32]
	ldp	x28, x27, [sp, #16]
	ldp	x29, x30, [sp], #96
	.cfi_def_cfa_offset 0
	.cfi_restore w19
	.cfi_restore w20
	.cfi_restore w21
	.cfi_restore w22
	.cfi_restore w23
	.cfi_restore w24
	.cfi_restore w25
	.cfi_restore w26
	.cfi_restore w27
	.cfi_restore w28
	.cfi_restore w30
	.cfi_restore w29
	ret
.LBB5_104:
	.cfi_restore_state
	mov	w1, #2
	b	.LBB5_102
.LBB5_105:
	cbz	x21, .LBB5_107
	ldr	x0, [sp, #104]
	bl	rattle_dealloc
.LBB5_107:
	mov	w0, #1
	mov	w1, #2
	b	.LBB5_103
.Lfunc_end5:
	.size	"utf16_streams::filters::filter_by::<#49f94d9d01043660>", .Lfunc_end5-"utf16_streams::filters::filter_by::<#49f94d9d01043660>"
	.cfi_endproc

	.section	.rodata.cst16,"aM",@progbits,16
	.p2align	4, 0x0
.LCPI6_0:
	.byte	1
	.byte	2
	.byte	4
	.byte	8
	.byte	16
	.byte	32
	.byte	64
	.byte	128
	.byte	1
	.byte	2
	.byte	4
	.byte	8
	.byte	16
	.byte	32
	.byte	64
	.byte	128
.LCPI6_2:
	.byte	0
	.byte	1
	.byte	2
	.byte	3
	.byte	4
	.byte	5
	.byte	6
	.byte	7
	.byte	8
	.byte	9
	.byte	10
	.byte	11
	.byte	12
	.byte	13
	.byte	14
	.byte	15
	.section	.rodata.cst8,"aM",@progbits,8
	.p2align	3, 0x0
.LCPI6_1:
	.zero	1
	.zero	1
	.zero	1
	.zero	1
	.zero	1
	.zero	1
	.byte	224
	.byte	192
	.section	".text.utf16_transcode::encode::FromUtf8Direction::begin::<#8b18edd9dd9aa8df>","ax",@progbits
	.p2align	2
	.type	"utf16_transcode::encode::FromUtf8Direction::begin::<#8b18edd9dd9aa8df>",@function
"utf16_transcode::encode::FromUtf8Direction::begin::<#8b18edd9dd9aa8df>":
	.cfi_startproc
	cmp	x1, #7
	b.hi	.LBB6_5
	lsr	x8, x3, #1
	cmp	x8, x1
	csel	x4, x8, x1, lo
	cbz	x4, .LBB6_14
	ldrsb	w8, [x0]
	tbnz	w8, #31, .LBB6_20
	lsl	w8, w8, #8
	cmp	x4, #1
	strh	w8, [x2]
	b.ne	.LBB6_21
	mov	w5, #2
	b	.LBB6_96
.LBB6_5:
	cmp	x1, #16
	b.hi	.LBB6_8
	cmp	x3, #32
	b.hs	.LBB6_15
.LBB6_7:
	mov	x5, xzr
	mov	x4, xzr
	cmp	x1, #31
	b.ls	.LBB6_34
	b	.LBB6_136
.LBB6_8:
	stp	x29, x30, [sp, #-48]!
	.cfi_def_cfa_offset 48
	stp	x22, x21, [sp, #16]
	stp	x20, x19, [sp, #32]
	mov	x29, sp
	.cfi_def_cfa w29, 48
	.cfi_offset w19, -8
	.cfi_offset w20, -16
	.cfi_offset w21, -24
	.cfi_offset w22, -32
	.cfi_offset w30, -40
	.cfi_offset w29, -48
	.cfi_remember_state
	lsr	x8, x3, #1
	cmp	x8, x1
	csel	x4, x8, x1, lo
	cmp	x3, #32
	b.lo	.LBB6_10
	ldr	q1, [x0]
	adrp	x8, .LCPI6_0
	ldr	q0, [x8, :lo12:.LCPI6_0]
	cmlt	v2.16b, v1.16b, #0
	and	v2.16b, v2.16b, v0.16b
	addp	v2.16b, v2.16b, v2.16b
	addp	v2.16b, v2.16b, v2.16b
	addp	v2.16b, v2.16b, v2.16b
	umov	w8, v2.h[0]
	cbz	w8, .LBB6_26
.LBB6_10:
	mov	x4, xzr
.LBB6_11:
	lsl	x5, x4, #1
	subs	x8, x1, x4
	b.eq	.LBB6_32
	mov	x20, x0
	mov	x19, x1
	mov	x21, x2
	mov	x22, x3
	cmp	x8, #191
	b.hi	.LBB6_24
	bl	"utf16_from_utf8::rest::write_rest::<#8b18edd9dd9aa8df>"
	mov	x2, x21
	mov	x3, x22
	mov	x4, x0
	mov	x0, x20
	mov	x5, x1
	mov	x1, x19
	b	.LBB6_32
.LBB6_14:
	.cfi_def_cfa wsp, 0
	.cfi_same_value w19
	.cfi_same_value w20
	.cfi_same_value w21
	.cfi_same_value w22
	.cfi_same_value w30
	.cfi_same_value w29
	mov	x5, xzr
	b	.LBB6_96
.LBB6_15:
	add	x8, x0, x1
	ldr	d0, [x0]
	ldur	d2, [x8, #-8]
	adrp	x8, .Lstatic.11
	add	x8, x8, :lo12:.Lstatic.11
	add	x8, x8, x1, lsl #4
	mov	v0.d[1], v2.d[0]
	ldur	q1, [x8, #-128]
	adrp	x8, .LCPI6_0
	tbl	v1.16b, { v0.16b }, v1.16b
	ldr	q0, [x8, :lo12:.LCPI6_0]
	cmlt	v3.16b, v1.16b, #0
	and	v3.16b, v3.16b, v0.16b
	addp	v3.16b, v3.16b, v3.16b
	addp	v3.16b, v3.16b, v3.16b
	addp	v3.16b, v3.16b, v3.16b
	umov	w8, v3.h[0]
	cbz	w8, .LBB6_29
	adrp	x8, .LCPI6_1
	mov	x5, xzr
	ldr	d3, [x8, :lo12:.LCPI6_1]
	cmhi	v3.8b, v3.8b, v2.8b
	dup	v4.8b, v3.b[7]
	and	v3.8b, v4.8b, v3.8b
	umov	w8, v3.b[6]
	tbz	w8, #0, .LBB6_78
	umov	w8, v2.b[5]
	mov	x4, x5
	and	w8, w8, #0xff
	cmp	w8, #239
	b.hi	.LBB6_33
	adrp	x8, .Lstatic.12
	add	x8, x8, :lo12:.Lstatic.12
	movi	v4.2d, #0000000000000000
	sub	x8, x8, x1
	movi	v5.16b, #191
	movi	v6.16b, #223
	ldr	q2, [x8, #16]
	movi	v7.16b, #239
	movi	v17.16b, #144
	movi	v21.16b, #244
	movi	v22.16b, #160
	movi	v16.16b, #224
	umax	v2.16b, v1.16b, v2.16b
	movi	v23.16b, #237
	adrp	x8, .LCPI6_2
	movi	v26.16b, #254
	ext	v3.16b, v4.16b, v2.16b, #15
	cmhi	v24.16b, v17.16b, v2.16b
	cmhs	v17.16b, v2.16b, v17.16b
	cmhi	v27.16b, v22.16b, v2.16b
	ext	v1.16b, v4.16b, v3.16b, #15
	uqsub	v19.16b, v3.16b, v5.16b
	cmeq	v28.16b, v3.16b, v16.16b
	ext	v18.16b, v4.16b, v1.16b, #15
	movi	v4.16b, #240
	uqsub	v20.16b, v1.16b, v6.16b
	uqsub	v18.16b, v18.16b, v7.16b
	cmeq	v25.16b, v3.16b, v4.16b
	umax	v19.16b, v19.16b, v20.16b
	cmeq	v20.16b, v3.16b, v21.16b
	movi	v7.16b, #192
	and	v24.16b, v25.16b, v24.16b
	and	v25.16b, v2.16b, v26.16b
	orr	v18.16b, v19.16b, v18.16b
	and	v17.16b, v20.16b, v17.16b
	cmhs	v19.16b, v2.16b, v22.16b
	cmeq	v20.16b, v3.16b, v23.16b
	and	v22.16b, v28.16b, v27.16b
	cmgt	v23.16b, v7.16b, v2.16b
	cmeq	v18.16b, v18.16b, #0
	orr	v17.16b, v24.16b, v17.16b
	and	v19.16b, v20.16b, v19.16b
	cmhi	v20.16b, v2.16b, v21.16b
	cmeq	v21.16b, v25.16b, v7.16b
	eor	v18.16b, v18.16b, v23.16b
	orr	v19.16b, v22.16b, v19.16b
	orr	v17.16b, v20.16b, v17.16b
	ldr	q20, [x8, :lo12:.LCPI6_2]
	orn	v18.16b, v21.16b, v18.16b
	orr	v17.16b, v19.16b, v17.16b
	dup	v19.16b, w1
	orr	v17.16b, v17.16b, v18.16b
	cmhi	v18.16b, v19.16b, v20.16b
	and	v17.16b, v18.16b, v17.16b
	shl	v17.16b, v17.16b, #7
	cmlt	v17.16b, v17.16b, #0
	and	v17.16b, v17.16b, v0.16b
	addp	v17.16b, v17.16b, v17.16b
	addp	v17.16b, v17.16b, v17.16b
	addp	v17.16b, v17.16b, v17.16b
	umov	w8, v17.h[0]
	cbnz	w8, .LBB6_7
	cmge	v17.16b, v2.16b, #0
	cmhi	v6.16b, v3.16b, v6.16b
	adrp	x10, .Lstatic.13
	add	x10, x10, :lo12:.Lstatic.13
	cmhi	v5.16b, v2.16b, v5.16b
	movi	v18.16b, #64
	shl	v19.16b, v3.16b, #2
	movi	v21.16b, #232
	mov	x4, x1
	bsl	v17.16b, v7.16b, v3.16b
	movi	v22.16b, #231
	movi	v23.16b, #220
	orr	v5.16b, v5.16b, v6.16b
	umax	v6.16b, v1.16b, v16.16b
	cmhi	v18.16b, v18.16b, v19.16b
	movi	v19.16b, #127
	umax	v16.16b, v17.16b, v1.16b
	bic	v0.16b, v0.16b, v5.16b
	ushr	v20.16b, v17.16b, #2
	bsl	v18.16b, v22.16b, v21.16b
	cmhi	v5.16b, v7.16b, v16.16b
	ushr	v16.16b, v2.16b, #4
	addp	v0.16b, v0.16b, v0.16b
	sli	v20.16b, v6.16b, #4
	and	v2.16b, v2.16b, v19.16b
	add	v6.16b, v18.16b, v1.16b
	cmhi	v1.16b, v4.16b, v1.16b
	sli	v16.16b, v3.16b, #2
	and	v5.16b, v5.16b, v23.16b
	shl	v3.16b, v17.16b, #6
	addp	v0.16b, v0.16b, v0.16b
	orr	v5.16b, v20.16b, v5.16b
	add	v2.16b, v3.16b, v2.16b
	mov	v3.16b, v1.16b
	add	v7.16b, v16.16b, v7.16b
	addp	v0.16b, v0.16b, v0.16b
	bsl	v3.16b, v5.16b, v6.16b
	bsl	v1.16b, v2.16b, v7.16b
	umov	w8, v0.h[0]
	zip1	v0.16b, v3.16b, v1.16b
	and	x9, x8, #0xff
	ubfx	x8, x8, #8, #8
	ldr	q2, [x10, x9, lsl #4]
	zip2	v1.16b, v3.16b, v1.16b
	fmov	d4, x8
	tbl	v0.16b, { v0.16b }, v2.16b
	fmov	d2, x9
	cnt	v4.8b, v4.8b
	cnt	v2.8b, v2.8b
	str	q0, [x2]
	ldr	q0, [x10, x8, lsl #4]
	fmov	w9, s4
	fmov	w8, s2
	tbl	v0.16b, { v1.16b }, v0.16b
	ubfiz	x10, x8, #1, #32
	add	x8, x8, x9
	lsl	x5, x8, #1
	str	q0, [x2, x10]
	cmp	x1, #31
	b.ls	.LBB6_34
	b	.LBB6_136
.LBB6_20:
	mov	x5, xzr
	mov	x4, xzr
	b	.LBB6_96
.LBB6_21:
	ldrsb	w8, [x0, #1]
	tbnz	w8, #31, .LBB6_30
	lsl	w8, w8, #8
	cmp	x4, #2
	strh	w8, [x2, #2]
	b.ne	.LBB6_74
	mov	w5, #4
	b	.LBB6_96
.LBB6_24:
	.cfi_restore_state
	.cfi_remember_state
	bl	"utf16_from_utf8::blocks::write_mixed_blocks::<#8b18edd9dd9aa8df>"
	sub	x9, x19, x0
	mov	x4, x0
	mov	x8, x19
	cmp	x9, #191
	mov	x5, x1
	b.ls	.LBB6_31
	mov	x3, x22
	mov	x2, x21
	mov	x1, x8
	mov	x0, x20
	b	.LBB6_32
.LBB6_26:
	cmp	x4, #31
	b.hi	.LBB6_77
	shll	v2.8h, v1.8b, #8
	shll2	v1.8h, v1.16b, #8
	sub	x8, x4, #16
	stp	q2, q1, [x2]
	ldr	q1, [x0, x8]
	cmlt	v2.16b, v1.16b, #0
	and	v0.16b, v2.16b, v0.16b
	addp	v0.16b, v0.16b, v0.16b
	addp	v0.16b, v0.16b, v0.16b
	addp	v0.16b, v0.16b, v0.16b
	umov	w9, v0.h[0]
	cbz	w9, .LBB6_83
	mov	w4, #16
	b	.LBB6_11
.LBB6_29:
	.cfi_def_cfa wsp, 0
	.cfi_same_value w19
	.cfi_same_value w20
	.cfi_same_value w21
	.cfi_same_value w22
	.cfi_same_value w30
	.cfi_same_value w29
	shll	v0.8h, v1.8b, #8
	shll2	v1.8h, v1.16b, #8
	lsl	x5, x1, #1
	mov	x4, x1
	stp	q0, q1, [x2]
	cmp	x1, #31
	b.ls	.LBB6_34
	b	.LBB6_136
.LBB6_30:
	mov	w4, #1
	mov	w5, #2
	b	.LBB6_96
.LBB6_31:
	.cfi_restore_state
	.cfi_remember_state
	mov	x0, x20
	mov	x1, x8
	mov	x2, x21
	mov	x3, x22
	mov	x19, x20
	mov	x20, x8
	bl	"utf16_from_utf8::rest::write_rest::<#8b18edd9dd9aa8df>"
	mov	x2, x21
	mov	x3, x22
	mov	x4, x0
	mov	x0, x19
	mov	x5, x1
	mov	x1, x20
.LBB6_32:
	.cfi_def_cfa wsp, 48
	ldp	x20, x19, [sp, #32]
	ldp	x22, x21, [sp, #16]
	ldp	x29, x30, [sp], #48
	.cfi_def_cfa_offset 0
	.cfi_restore w19
	.cfi_restore w20
	.cfi_restore w21
	.cfi_restore w22
	.cfi_restore w30
	.cfi_restore w29
.LBB6_33:
	cmp	x1, #31
	b.hi	.LBB6_136
.LBB6_34:
	cmp	x4, x1
	b.hs	.LBB6_136
	mov	w8, #57216
	movk	w8, #65521, lsl #16
	b	.LBB6_37
.LBB6_36:
	mov	w12, #67043328
	mov	w13, #56320
	mov	w14, #-10240
	add	w12, w9, w12
	bfxil	w13, w9, #0, #10
	add	w9, w14, w12, lsr #10
	rev16	w12, w13
	rev16	w9, w9
	strh	w12, [x11, #2]
	mov	w12, #4
	add	x4, x10, x4
	add	x5, x12, x5
	strh	w9, [x11]
	cmp	x4, x1
	b.hs	.LBB6_136
.LBB6_37:
	add	x10, x0, x4
	ldrsb	w11, [x10]
	and	w9, w11, #0xff
	tbnz	w11, #31, .LBB6_42
	mov	w10, #1
.LBB6_39:
	cmp	w9, #16, lsl #12
	mov	w11, #4
	mov	w12, #2
	sub	x13, x3, x5
	csel	x11, x12, x11, lo
	cmp	x13, x11
	b.lo	.LBB6_136
	lsr	w12, w9, #16
	add	x11, x2, x5
	cbnz	w12, .LBB6_36
	rev16	w9, w9
	mov	w12, #2
	add	x4, x10, x4
	add	x5, x12, x5
	strh	w9, [x11]
	cmp	x4, x1
	b.lo	.LBB6_37
	b	.LBB6_136
.LBB6_42:
	sub	x11, x1, x4
	cmp	x11, #3
	b.lo	.LBB6_47
	add	w12, w9, #31
	and	w12, w12, #0xff
	cmp	w12, #11
	b.hi	.LBB6_48
	ldrsb	w12, [x10, #1]
	cmn	w12, #65
	b.gt	.LBB6_48
	ldrsb	w13, [x10, #2]
	cmn	w13, #65
	b.gt	.LBB6_48
	add	w9, w8, w9, lsl #12
	and	w10, w12, #0xff
	add	w9, w9, w10, lsl #6
	and	w10, w13, #0xff
	add	w9, w9, w10
	mov	w10, #3
	b	.LBB6_39
.LBB6_47:
	cmp	x11, #2
	b.ne	.LBB6_136
.LBB6_48:
	lsr	w13, w9, #4
	ldrb	w12, [x10, #1]
	and	w13, w13, #0xc
	orr	w13, w13, w12, lsr #6
	cmp	w13, #14
	b.ne	.LBB6_136
	add	w13, w9, #31
	and	w13, w13, #0xff
	cmp	w13, #12
	b.hs	.LBB6_54
.LBB6_50:
	cmp	x11, #2
	b.eq	.LBB6_136
	ldrsb	w13, [x10, #2]
	cmn	w13, #65
	b.gt	.LBB6_136
	cmp	w9, #239
	and	w13, w13, #0xff
	b.hi	.LBB6_59
	add	w9, w8, w9, lsl #12
	mov	w10, #3
	add	w9, w9, w12, lsl #6
	add	w9, w9, w13
	b	.LBB6_39
.LBB6_54:
	add	w13, w9, #62
	and	w14, w13, #0xff
	cmp	w14, #30
	b.lo	.LBB6_73
	cmp	w9, #239
	b.gt	.LBB6_62
	cmp	w9, #224
	b.eq	.LBB6_67
	cmp	w9, #237
	b.ne	.LBB6_65
	mov	w14, #159
	b	.LBB6_66
.LBB6_59:
	cmp	x11, #4
	b.lo	.LBB6_136
	ldrsb	w10, [x10, #3]
	cmn	w10, #65
	b.gt	.LBB6_136
	lsl	w9, w9, #18
	mov	w11, #57216
	and	w10, w10, #0xff
	movk	w11, #64567, lsl #16
	add	w9, w9, w12, lsl #12
	add	w10, w10, w11
	add	w9, w9, w13, lsl #6
	add	w9, w9, w10
	mov	w10, #4
	b	.LBB6_39
.LBB6_62:
	cmp	w9, #240
	b.eq	.LBB6_68
	cmp	w9, #244
	b.ne	.LBB6_65
	mov	w14, #143
	b	.LBB6_66
.LBB6_65:
	mov	w14, #191
.LBB6_66:
	mov	w15, #128
	b	.LBB6_69
.LBB6_67:
	mov	w14, #191
	mov	w15, #160
	b	.LBB6_69
.LBB6_68:
	mov	w14, #191
	mov	w15, #144
.LBB6_69:
	and	w13, w13, #0xff
	cmp	w13, #50
	b.hi	.LBB6_136
	cmp	w15, w12
	b.hi	.LBB6_136
	cmp	w12, w14
	b.hi	.LBB6_136
	cmp	w9, #223
	b.hi	.LBB6_50
.LBB6_73:
	add	w9, w12, w9, lsl #6
	mov	w10, #-12416
	add	w9, w9, w10
	mov	w10, #2
	b	.LBB6_39
.LBB6_74:
	ldrsb	w8, [x0, #2]
	tbnz	w8, #31, .LBB6_79
	lsl	w8, w8, #8
	cmp	x4, #3
	strh	w8, [x2, #4]
	b.ne	.LBB6_80
	mov	w5, #6
	b	.LBB6_96
.LBB6_77:
	.cfi_restore_state
	.cfi_remember_state
	mov	x21, x1
	mov	x1, x4
	mov	x19, x0
	mov	x20, x2
	mov	x22, x3
	bl	"utf16_from_utf8::ascii::write_front::<#8b18edd9dd9aa8df>"
	mov	x1, x21
	mov	x2, x20
	mov	x3, x22
	mov	x4, x0
	mov	x0, x19
	b	.LBB6_11
.LBB6_78:
	.cfi_def_cfa wsp, 0
	.cfi_same_value w19
	.cfi_same_value w20
	.cfi_same_value w21
	.cfi_same_value w22
	.cfi_same_value w30
	.cfi_same_value w29
	mov	x4, x5
	cmp	x1, #31
	b.ls	.LBB6_34
	b	.LBB6_136
.LBB6_79:
	mov	w4, #2
	mov	w5, #4
	b	.LBB6_96
.LBB6_80:
	ldrsb	w8, [x0, #3]
	tbnz	w8, #31, .LBB6_84
	lsl	w8, w8, #8
	cmp	x4, #4
	strh	w8, [x2, #6]
	b.ne	.LBB6_85
	mov	w5, #8
	b	.LBB6_96
.LBB6_83:
	.cfi_restore_state
	shll	v0.8h, v1.8b, #8
	shll2	v1.8h, v1.16b, #8
	add	x8, x2, x8, lsl #1
	stp	q0, q1, [x8]
	b	.LBB6_11
.LBB6_84:
	.cfi_def_cfa wsp, 0
	.cfi_same_value w19
	.cfi_same_value w20
	.cfi_same_value w21
	.cfi_same_value w22
	.cfi_same_value w30
	.cfi_same_value w29
	mov	w4, #3
	mov	w5, #6
	b	.LBB6_96
.LBB6_85:
	ldrsb	w8, [x0, #4]
	tbnz	w8, #31, .LBB6_88
	lsl	w8, w8, #8
	cmp	x4, #5
	strh	w8, [x2, #8]
	b.ne	.LBB6_89
	mov	w5, #10
	b	.LBB6_96
.LBB6_88:
	mov	w4, #4
	mov	w5, #8
	b	.LBB6_96
.LBB6_89:
	ldrsb	w8, [x0, #5]
	tbnz	w8, #31, .LBB6_93
	lsl	w8, w8, #8
	cmp	x4, #6
	strh	w8, [x2, #10]
	b.eq	.LBB6_95
	ldrsb	w8, [x0, #6]
	tbnz	w8, #31, .LBB6_94
	lsl	w8, w8, #8
	mov	w5, #14
	strh	w8, [x2, #12]
	b	.LBB6_96
.LBB6_93:
	mov	w4, #5
	mov	w5, #10
	b	.LBB6_96
.LBB6_94:
	mov	w4, #6
.LBB6_95:
	mov	w5, #12
.LBB6_96:
	cmp	x4, x1
	b.hs	.LBB6_136
	mov	w8, #57216
	movk	w8, #65521, lsl #16
	b	.LBB6_99
.LBB6_98:
	mov	w12, #67043328
	mov	w13, #56320
	mov	w14, #-10240
	add	w12, w9, w12
	bfxil	w13, w9, #0, #10
	add	w9, w14, w12, lsr #10
	rev16	w12, w13
	rev16	w9, w9
	strh	w12, [x11, #2]
	mov	w12, #4
	add	x4, x10, x4
	add	x5, x12, x5
	strh	w9, [x11]
	cmp	x4, x1
	b.hs	.LBB6_136
.LBB6_99:
	add	x10, x0, x4
	ldrsb	w11, [x10]
	and	w9, w11, #0xff
	tbnz	w11, #31, .LBB6_104
	mov	w10, #1
.LBB6_101:
	cmp	w9, #16, lsl #12
	mov	w11, #4
	mov	w12, #2
	sub	x13, x3, x5
	csel	x11, x12, x11, lo
	cmp	x13, x11
	b.lo	.LBB6_136
	lsr	w12, w9, #16
	add	x11, x2, x5
	cbnz	w12, .LBB6_98
	rev16	w9, w9
	mov	w12, #2
	add	x4, x10, x4
	add	x5, x12, x5
	strh	w9, [x11]
	cmp	x4, x1
	b.lo	.LBB6_99
	b	.LBB6_136
.LBB6_104:
	sub	x11, x1, x4
	cmp	x11, #3
	b.lo	.LBB6_109
	add	w12, w9, #31
	and	w12, w12, #0xff
	cmp	w12, #11
	b.hi	.LBB6_110
	ldrsb	w12, [x10, #1]
	cmn	w12, #65
	b.gt	.LBB6_110
	ldrsb	w13, [x10, #2]
	cmn	w13, #65
	b.gt	.LBB6_110
	add	w9, w8, w9, lsl #12
	and	w10, w12, #0xff
	add	w9, w9, w10, lsl #6
	and	w10, w13, #0xff
	add	w9, w9, w10
	mov	w10, #3
	b	.LBB6_101
.LBB6_109:
	cmp	x11, #2
	b.ne	.LBB6_136
.LBB6_110:
	lsr	w13, w9, #4
	ldrb	w12, [x10, #1]
	and	w13, w13, #0xc
	orr	w13, w13, w12, lsr #6
	cmp	w13, #14
	b.ne	.LBB6_136
	add	w13, w9, #31
	and	w13, w13, #0xff
	cmp	w13, #12
	b.hs	.LBB6_116
.LBB6_112:
	cmp	x11, #2
	b.eq	.LBB6_136
	ldrsb	w13, [x10, #2]
	cmn	w13, #65
	b.gt	.LBB6_136
	cmp	w9, #239
	and	w13, w13, #0xff
	b.hi	.LBB6_121
	add	w9, w8, w9, lsl #12
	mov	w10, #3
	add	w9, w9, w12, lsl #6
	add	w9, w9, w13
	b	.LBB6_101
.LBB6_116:
	add	w13, w9, #62
	and	w14, w13, #0xff
	cmp	w14, #30
	b.lo	.LBB6_135
	cmp	w9, #239
	b.gt	.LBB6_124
	cmp	w9, #224
	b.eq	.LBB6_129
	cmp	w9, #237
	b.ne	.LBB6_127
	mov	w14, #159
	b	.LBB6_128
.LBB6_121:
	cmp	x11, #4
	b.lo	.LBB6_136
	ldrsb	w10, [x10, #3]
	cmn	w10, #65
	b.gt	.LBB6_136
	lsl	w9, w9, #18
	mov	w11, #57216
	and	w10, w10, #0xff
	movk	w11, #64567, lsl #16
	add	w9, w9, w12, lsl #12
	add	w10, w10, w11
	add	w9, w9, w13, lsl #6
	add	w9, w9, w10
	mov	w10, #4
	b	.LBB6_101
.LBB6_124:
	cmp	w9, #240
	b.eq	.LBB6_130
	cmp	w9, #244
	b.ne	.LBB6_127
	mov	w14, #143
	b	.LBB6_128
.LBB6_127:
	mov	w14, #191
.LBB6_128:
	mov	w15, #128
	b	.LBB6_131
.LBB6_129:
	mov	w14, #191
	mov	w15, #160
	b	.LBB6_131
.LBB6_130:
	mov	w14, #191
	mov	w15, #144
.LBB6_131:
	and	w13, w13, #0xff
	cmp	w13, #50
	b.hi	.LBB6_136
	cmp	w15, w12
	b.hi	.LBB6_136
	cmp	w12, w14
	b.hi	.LBB6_136
	cmp	w9, #223
	b.hi	.LBB6_112
.LBB6_135:
	add	w9, w12, w9, lsl #6
	mov	w10, #-12416
	add	w9, w9, w10
	mov	w10, #2
	b	.LBB6_101
.LBB6_136:
	mov	x0, x4
	mov	x1, x5
	ret
.Lfunc_end6:
	.size	"utf16_transcode::encode::FromUtf8Direction::begin::<#8b18edd9dd9aa8df>", .Lfunc_end6-"utf16_transcode::encode::FromUtf8Direction::begin::<#8b18edd9dd9aa8df>"
	.cfi_endproc

	.section	.rodata.cst16,"aM",@progbits,16
	.p2align	4, 0x0
.LCPI7_0:
	.byte	1
	.byte	2
	.byte	4
	.byte	8
	.byte	16
	.byte	32
	.byte	64
	.byte	128
	.byte	1
	.byte	2
	.byte	4
	.byte	8
	.byte	16
	.byte	32
	.byte	64
	.byte	128
	.section	".text.utf16_from_utf8::ascii::write_front::<#8b18edd9dd9aa8df>","ax",@progbits
	.p2align	2
	.type	"utf16_from_utf8::ascii::write_front::<#8b18edd9dd9aa8df>",@function
"utf16_from_utf8::ascii::write_front::<#8b18edd9dd9aa8df>":
	.cfi_startproc
	mov	x8, x0
	cmp	x1, #64
	adrp	x9, .LCPI7_0
	mov	x0, xzr
	b.lo	.LBB7_4
	add	x10, x2, #64
	mov	x11, x1
.LBB7_2:
	add	x12, x8, x0
	ldp	q3, q2, [x12]
	ldp	q1, q0, [x12, #32]
	orr	v4.16b, v3.16b, v2.16b
	orr	v5.16b, v1.16b, v0.16b
	orr	v4.16b, v4.16b, v5.16b
	ldr	q5, [x9, :lo12:.LCPI7_0]
	cmlt	v4.16b, v4.16b, #0
	and	v4.16b, v4.16b, v5.16b
	addp	v4.16b, v4.16b, v4.16b
	addp	v4.16b, v4.16b, v4.16b
	addp	v4.16b, v4.16b, v4.16b
	umov	w12, v4.h[0]
	cbnz	w12, .LBB7_4
	shll	v4.8h, v3.8b, #8
	shll2	v3.8h, v3.16b, #8
	sub	x11, x11, #64
	shll	v5.8h, v2.8b, #8
	shll2	v2.8h, v2.16b, #8
	cmp	x11, #63
	add	x0, x0, #64
	stp	q4, q3, [x10, #-64]
	shll	v3.8h, v1.8b, #8
	shll2	v1.8h, v1.16b, #8
	shll	v4.8h, v0.8b, #8
	shll2	v0.8h, v0.16b, #8
	stp	q5, q2, [x10, #-32]
	stp	q3, q1, [x10]
	stp	q4, q0, [x10, #32]
	add	x10, x10, #128
	b.hi	.LBB7_2
.LBB7_4:
	sub	x10, x1, x0
	cmp	x10, #16
	b.lo	.LBB7_8
	add	x11, x2, x0, lsl #1
	add	x11, x11, #16
.LBB7_6:
	ldr	q0, [x8, x0]
	ldr	q2, [x9, :lo12:.LCPI7_0]
	cmlt	v1.16b, v0.16b, #0
	and	v1.16b, v1.16b, v2.16b
	addp	v1.16b, v1.16b, v1.16b
	addp	v1.16b, v1.16b, v1.16b
	addp	v1.16b, v1.16b, v1.16b
	umov	w12, v1.h[0]
	cbnz	w12, .LBB7_9
	shll	v1.8h, v0.8b, #8
	shll2	v0.8h, v0.16b, #8
	sub	x10, x10, #16
	cmp	x10, #15
	add	x0, x0, #16
	stp	q1, q0, [x11, #-16]
	add	x11, x11, #32
	b.hi	.LBB7_6
.LBB7_8:
	sub	x10, x1, #16
	ldr	q2, [x9, :lo12:.LCPI7_0]
	ldr	q0, [x8, x10]
	cmlt	v1.16b, v0.16b, #0
	and	v1.16b, v1.16b, v2.16b
	addp	v1.16b, v1.16b, v1.16b
	addp	v1.16b, v1.16b, v1.16b
	addp	v1.16b, v1.16b, v1.16b
	umov	w8, v1.h[0]
	cbz	w8, .LBB7_10
.LBB7_9:
	ret
.LBB7_10:
	shll	v1.8h, v0.8b, #8
	shll2	v0.8h, v0.16b, #8
	add	x8, x2, x10, lsl #1
	mov	x0, x1
	stp	q1, q0, [x8]
	ret
.Lfunc_end7:
	.size	"utf16_from_utf8::ascii::write_front::<#8b18edd9dd9aa8df>", .Lfunc_end7-"utf16_from_utf8::ascii::write_front::<#8b18edd9dd9aa8df>"
	.cfi_endproc

	.section	.rodata.cst16,"aM",@progbits,16
	.p2align	4, 0x0
.LCPI8_0:
	.byte	1
	.byte	2
	.byte	4
	.byte	8
	.byte	16
	.byte	32
	.byte	64
	.byte	128
	.byte	1
	.byte	2
	.byte	4
	.byte	8
	.byte	16
	.byte	32
	.byte	64
	.byte	128
.LCPI8_1:
	.byte	255
	.byte	0
	.byte	255
	.byte	255
	.byte	0
	.byte	255
	.byte	255
	.byte	0
	.byte	255
	.byte	255
	.byte	0
	.byte	255
	.byte	255
	.byte	0
	.byte	255
	.byte	255
.LCPI8_2:
	.byte	255
	.byte	255
	.byte	0
	.byte	255
	.byte	255
	.byte	0
	.byte	255
	.byte	255
	.byte	0
	.byte	255
	.byte	255
	.byte	0
	.byte	255
	.byte	255
	.byte	0
	.byte	255
.LCPI8_3:
	.byte	0
	.byte	3
	.byte	6
	.byte	9
	.byte	12
	.byte	15
	.byte	18
	.byte	21
	.byte	24
	.byte	27
	.byte	30
	.byte	17
	.byte	20
	.byte	23
	.byte	26
	.byte	29
.LCPI8_4:
	.byte	1
	.byte	4
	.byte	7
	.byte	10
	.byte	13
	.byte	16
	.byte	19
	.byte	22
	.byte	25
	.byte	28
	.byte	31
	.byte	18
	.byte	21
	.byte	24
	.byte	27
	.byte	30
.LCPI8_5:
	.byte	2
	.byte	5
	.byte	8
	.byte	11
	.byte	14
	.byte	17
	.byte	20
	.byte	23
	.byte	26
	.byte	29
	.byte	16
	.byte	19
	.byte	22
	.byte	25
	.byte	28
	.byte	31
	.section	".text.utf16_from_utf8::blocks::write_mixed_blocks::<#8b18edd9dd9aa8df>","ax",@progbits
	.p2align	2
	.type	"utf16_from_utf8::blocks::write_mixed_blocks::<#8b18edd9dd9aa8df>",@function
"utf16_from_utf8::blocks::write_mixed_blocks::<#8b18edd9dd9aa8df>":
	.cfi_startproc
	stp	d15, d14, [sp, #-144]!
	.cfi_def_cfa_offset 144
	stp	d13, d12, [sp, #16]
	stp	d11, d10, [sp, #32]
	stp	d9, d8, [sp, #48]
	stp	x29, x30, [sp, #64]
	stp	x26, x25, [sp, #80]
	stp	x24, x23, [sp, #96]
	stp	x22, x21, [sp, #112]
	stp	x20, x19, [sp, #128]
	add	x29, sp, #64
	.cfi_def_cfa w29, 80
	.cfi_offset w19, -8
	.cfi_offset w20, -16
	.cfi_offset w21, -24
	.cfi_offset w22, -32
	.cfi_offset w23, -40
	.cfi_offset w24, -48
	.cfi_offset w25, -56
	.cfi_offset w26, -64
	.cfi_offset w30, -72
	.cfi_offset w29, -80
	.cfi_offset b8, -88
	.cfi_offset b9, -96
	.cfi_offset b10, -104
	.cfi_offset b11, -112
	.cfi_offset b12, -120
	.cfi_offset b13, -128
	.cfi_offset b14, -136
	.cfi_offset b15, -144
	mov	x19, x5
	mov	x21, x3
	mov	x22, x1
	mov	x23, x2
	mov	x24, x0
	sub	x25, x3, #32
	sub	x26, x1, #48
	b	.LBB8_3
.LBB8_1:
	lsr	x8, x10, #1
	add	x0, x24, x20
	add	x2, x23, x19
	cmp	x8, x9
	csel	x1, x8, x9, lo
	bl	"utf16_from_utf8::ascii::write_front::<#8b18edd9dd9aa8df>"
	add	x19, x19, x0, lsl #1
	add	x4, x0, x20
.LBB8_2:
	cmp	x4, x20
	b.eq	.LBB8_30
.LBB8_3:
	sub	x9, x22, x4
	mov	x20, x4
	cmp	x9, #64
	b.lo	.LBB8_30
	sub	x10, x21, x19
	cmp	x10, #128
	b.lo	.LBB8_30
	add	x8, x24, x20
	adrp	x11, .LCPI8_0
	ldp	q4, q6, [x8]
	ldp	q5, q3, [x8, #32]
	umax	v0.16b, v4.16b, v6.16b
	umax	v1.16b, v5.16b, v3.16b
	umax	v1.16b, v0.16b, v1.16b
	ldr	q0, [x11, :lo12:.LCPI8_0]
	cmlt	v2.16b, v1.16b, #0
	and	v2.16b, v2.16b, v0.16b
	addp	v2.16b, v2.16b, v2.16b
	addp	v2.16b, v2.16b, v2.16b
	addp	v2.16b, v2.16b, v2.16b
	umov	w11, v2.h[0]
	cbz	w11, .LBB8_1
	movi	v2.16b, #224
	cmhs	v2.16b, v1.16b, v2.16b
	and	v2.16b, v2.16b, v0.16b
	addp	v2.16b, v2.16b, v2.16b
	addp	v2.16b, v2.16b, v2.16b
	addp	v2.16b, v2.16b, v2.16b
	umov	w9, v2.h[0]
	cbz	w9, .LBB8_13
	umov	w8, v4.b[0]
	and	w8, w8, #0xf0
	cmp	w8, #224
	b.ne	.LBB8_15
	add	x8, x24, x20
	sub	x10, x25, x19
	sub	x9, x26, x20
	mov	x4, x20
.LBB8_9:
	adrp	x11, .LCPI8_1
	ldp	q4, q2, [x8, #16]
	ldr	q3, [x11, :lo12:.LCPI8_1]
	adrp	x11, .LCPI8_2
	ldr	q6, [x8], #48
	mov	v7.16b, v3.16b
	ldr	q3, [x11, :lo12:.LCPI8_2]
	adrp	x11, .LCPI8_3
	ldr	q5, [x11, :lo12:.LCPI8_3]
	adrp	x11, .LCPI8_4
	mov	v18.16b, v3.16b
	ldr	q16, [x11, :lo12:.LCPI8_4]
	adrp	x11, .LCPI8_5
	bsl	v7.16b, v2.16b, v4.16b
	bsl	v18.16b, v4.16b, v2.16b
	bsl	v3.16b, v2.16b, v4.16b
	mov	v17.16b, v6.16b
	mov	v2.16b, v6.16b
	tbl	v5.16b, { v2.16b, v3.16b }, v5.16b
	tbl	v2.16b, { v17.16b, v18.16b }, v16.16b
	movi	v16.16b, #240
	movi	v17.16b, #192
	ldr	q3, [x11, :lo12:.LCPI8_5]
	tbl	v4.16b, { v6.16b, v7.16b }, v3.16b
	movi	v6.16b, #32
	movi	v7.16b, #128
	and	v16.16b, v5.16b, v16.16b
	and	v18.16b, v2.16b, v17.16b
	add	v6.16b, v16.16b, v6.16b
	and	v17.16b, v4.16b, v17.16b
	eor	v16.16b, v18.16b, v7.16b
	eor	v7.16b, v17.16b, v7.16b
	umax	v6.16b, v6.16b, v16.16b
	orr	v6.16b, v6.16b, v7.16b
	cmeq	v6.16b, v6.16b, #0
	bic	v6.16b, v0.16b, v6.16b
	addp	v6.16b, v6.16b, v6.16b
	addp	v6.16b, v6.16b, v6.16b
	addp	v6.16b, v6.16b, v6.16b
	umov	w11, v6.h[0]
	cbnz	w11, .LBB8_16
	ushr	v3.16b, v2.16b, #2
	movi	v6.16b, #7
	movi	v7.16b, #216
	sli	v3.16b, v5.16b, #4
	movi	v5.16b, #248
	and	v5.16b, v3.16b, v5.16b
	cmhi	v6.16b, v3.16b, v6.16b
	cmeq	v5.16b, v5.16b, v7.16b
	and	v5.16b, v5.16b, v6.16b
	orn	v5.16b, v5.16b, v6.16b
	and	v5.16b, v5.16b, v0.16b
	addp	v5.16b, v5.16b, v5.16b
	addp	v5.16b, v5.16b, v5.16b
	addp	v5.16b, v5.16b, v5.16b
	umov	w11, v5.h[0]
	cbnz	w11, .LBB8_16
	sli	v4.16b, v2.16b, #6
	add	x11, x23, x19
	subs	x9, x9, #48
	add	x19, x19, #32
	add	x4, x4, #48
	zip2	v2.16b, v3.16b, v4.16b
	st2	{ v3.8b, v4.8b }, [x11], #16
	str	q2, [x11]
	b.lo	.LBB8_16
	cmp	x10, #31
	sub	x10, x10, #32
	b.hi	.LBB8_9
	b	.LBB8_16
.LBB8_13:
	movi	v2.16b, #191
	movi	v7.16b, #254
	ldur	q16, [x8, #15]
	movi	v17.2d, #0000000000000000
	ldur	q18, [x8, #31]
	movi	v1.16b, #192
	cmhi	v16.16b, v16.16b, v2.16b
	cmgt	v19.16b, v6.16b, v2.16b
	and	v6.16b, v6.16b, v7.16b
	cmhi	v18.16b, v18.16b, v2.16b
	cmgt	v20.16b, v5.16b, v2.16b
	and	v21.16b, v5.16b, v7.16b
	ext	v5.16b, v17.16b, v4.16b, #15
	eor	v16.16b, v19.16b, v16.16b
	ldur	q19, [x8, #47]
	cmeq	v6.16b, v6.16b, v1.16b
	eor	v17.16b, v20.16b, v18.16b
	cmeq	v18.16b, v21.16b, v1.16b
	cmgt	v20.16b, v3.16b, v2.16b
	cmhi	v19.16b, v19.16b, v2.16b
	and	v3.16b, v3.16b, v7.16b
	and	v7.16b, v4.16b, v7.16b
	bic	v6.16b, v16.16b, v6.16b
	cmgt	v16.16b, v1.16b, v4.16b
	bic	v17.16b, v17.16b, v18.16b
	cmhi	v18.16b, v1.16b, v5.16b
	eor	v19.16b, v20.16b, v19.16b
	cmeq	v3.16b, v3.16b, v1.16b
	cmeq	v7.16b, v7.16b, v1.16b
	eor	v16.16b, v16.16b, v18.16b
	and	v6.16b, v6.16b, v17.16b
	bic	v3.16b, v19.16b, v3.16b
	bic	v7.16b, v16.16b, v7.16b
	and	v3.16b, v6.16b, v3.16b
	and	v3.16b, v7.16b, v3.16b
	bic	v3.16b, v0.16b, v3.16b
	addp	v3.16b, v3.16b, v3.16b
	addp	v3.16b, v3.16b, v3.16b
	addp	v3.16b, v3.16b, v3.16b
	umov	w9, v3.h[0]
	cbnz	w9, .LBB8_30
	cmhs	v3.16b, v2.16b, v4.16b
	uqsub	v5.16b, v5.16b, v1.16b
	adrp	x9, .Lstatic.13
	add	x9, x9, :lo12:.Lstatic.13
	and	v3.16b, v3.16b, v0.16b
	shl	v7.16b, v5.16b, #6
	ushr	v5.16b, v5.16b, #2
	addp	v6.16b, v3.16b, v3.16b
	movi	v3.16b, #127
	addp	v6.16b, v6.16b, v6.16b
	and	v4.16b, v4.16b, v3.16b
	addp	v6.16b, v6.16b, v6.16b
	add	v4.16b, v7.16b, v4.16b
	umov	w11, v6.h[0]
	zip1	v6.16b, v5.16b, v4.16b
	zip2	v4.16b, v5.16b, v4.16b
	and	x10, x11, #0xff
	ubfx	x11, x11, #8, #8
	ldr	q7, [x9, x10, lsl #4]
	tbl	v6.16b, { v6.16b }, v7.16b
	fmov	d7, x10
	add	x10, x23, x19
	cnt	v7.8b, v7.8b
	str	q6, [x10]
	ldr	q5, [x9, x11, lsl #4]
	fmov	w12, s7
	tbl	v4.16b, { v4.16b }, v5.16b
	ubfiz	x13, x12, #1, #32
	str	q4, [x10, x13]
	ldr	q4, [x8, #16]
	ldur	q6, [x8, #15]
	cmhs	v5.16b, v2.16b, v4.16b
	uqsub	v6.16b, v6.16b, v1.16b
	and	v4.16b, v4.16b, v3.16b
	and	v5.16b, v5.16b, v0.16b
	shl	v7.16b, v6.16b, #6
	ushr	v6.16b, v6.16b, #2
	addp	v5.16b, v5.16b, v5.16b
	add	v4.16b, v4.16b, v7.16b
	fmov	d7, x11
	addp	v5.16b, v5.16b, v5.16b
	addp	v5.16b, v5.16b, v5.16b
	umov	w11, v5.h[0]
	cnt	v5.8b, v7.8b
	zip1	v7.16b, v6.16b, v4.16b
	zip2	v4.16b, v6.16b, v4.16b
	and	x13, x11, #0xff
	fmov	w14, s5
	ubfx	x11, x11, #8, #8
	ldr	q5, [x9, x13, lsl #4]
	tbl	v5.16b, { v7.16b }, v5.16b
	fmov	d7, x13
	add	x12, x12, x14
	add	x13, x10, x12, lsl #1
	cnt	v7.8b, v7.8b
	str	q5, [x13]
	ldr	q5, [x9, x11, lsl #4]
	fmov	w14, s7
	tbl	v4.16b, { v4.16b }, v5.16b
	ubfiz	x15, x14, #1, #32
	str	q4, [x13, x15]
	ldr	q4, [x8, #32]
	ldur	q6, [x8, #31]
	cmhs	v5.16b, v2.16b, v4.16b
	uqsub	v6.16b, v6.16b, v1.16b
	and	v4.16b, v4.16b, v3.16b
	and	v5.16b, v5.16b, v0.16b
	shl	v7.16b, v6.16b, #6
	ushr	v6.16b, v6.16b, #2
	addp	v5.16b, v5.16b, v5.16b
	add	v4.16b, v4.16b, v7.16b
	fmov	d7, x11
	addp	v5.16b, v5.16b, v5.16b
	cnt	v7.8b, v7.8b
	addp	v5.16b, v5.16b, v5.16b
	fmov	w13, s7
	umov	w11, v5.h[0]
	zip1	v5.16b, v6.16b, v4.16b
	zip2	v4.16b, v6.16b, v4.16b
	add	x13, x13, x14
	add	x12, x13, x12
	and	x15, x11, #0xff
	add	x13, x10, x12, lsl #1
	ubfx	x11, x11, #8, #8
	ldr	q7, [x9, x15, lsl #4]
	tbl	v5.16b, { v5.16b }, v7.16b
	fmov	d7, x15
	cnt	v7.8b, v7.8b
	str	q5, [x13]
	ldr	q5, [x9, x11, lsl #4]
	fmov	w14, s7
	tbl	v4.16b, { v4.16b }, v5.16b
	ubfiz	x15, x14, #1, #32
	str	q4, [x13, x15]
	ldr	q4, [x8, #48]
	cmhs	v2.16b, v2.16b, v4.16b
	and	v0.16b, v2.16b, v0.16b
	ldur	q2, [x8, #47]
	uqsub	v1.16b, v2.16b, v1.16b
	and	v2.16b, v4.16b, v3.16b
	fmov	d4, x11
	addp	v0.16b, v0.16b, v0.16b
	cnt	v4.8b, v4.8b
	addp	v0.16b, v0.16b, v0.16b
	shl	v3.16b, v1.16b, #6
	ushr	v1.16b, v1.16b, #2
	addp	v0.16b, v0.16b, v0.16b
	add	v2.16b, v2.16b, v3.16b
	fmov	w13, s4
	umov	w11, v0.h[0]
	zip1	v0.16b, v1.16b, v2.16b
	add	x13, x13, x14
	add	x12, x13, x12
	zip2	v1.16b, v1.16b, v2.16b
	add	x10, x10, x12, lsl #1
	and	x15, x11, #0xff
	ubfx	x11, x11, #8, #8
	ldr	q3, [x9, x15, lsl #4]
	tbl	v0.16b, { v0.16b }, v3.16b
	fmov	d3, x15
	cnt	v3.8b, v3.8b
	str	q0, [x10]
	fmov	d0, x11
	ldr	q2, [x9, x11, lsl #4]
	fmov	w9, s3
	cnt	v0.8b, v0.8b
	tbl	v1.16b, { v1.16b }, v2.16b
	ubfiz	x11, x9, #1, #32
	fmov	w13, s0
	str	q1, [x10, x11]
	ldrb	w8, [x8, #63]
	add	x9, x13, x9
	cmp	w8, #191
	mov	w8, #63
	add	x9, x9, x12
	cinc	x8, x8, ls
	add	x19, x19, x9, lsl #1
	add	x4, x8, x20
	b	.LBB8_2
.LBB8_15:
	mov	x4, x20
.LBB8_16:
	cmp	x20, x4
	b.lo	.LBB8_2
	movi	v16.16b, #240
	movi	v3.2d, #0000000000000000
	add	x8, x24, x4
	ldr	q6, [x8]
	cmhs	v1.16b, v1.16b, v16.16b
	ext	v7.16b, v3.16b, v6.16b, #15
	and	v1.16b, v1.16b, v0.16b
	ext	v5.16b, v3.16b, v7.16b, #15
	addp	v1.16b, v1.16b, v1.16b
	addp	v1.16b, v1.16b, v1.16b
	addp	v1.16b, v1.16b, v1.16b
	umov	w9, v1.h[0]
	cbz	w9, .LBB8_21
	movi	v22.16b, #144
	movi	v17.16b, #160
	ldur	q4, [x8, #14]
	movi	v2.16b, #223
	movi	v1.16b, #191
	ldur	q23, [x8, #15]
	movi	v21.16b, #244
	movi	v20.16b, #239
	ldur	q24, [x8, #13]
	movi	v19.16b, #237
	ext	v29.16b, v3.16b, v5.16b, #15
	ldur	q31, [x8, #30]
	cmhi	v18.16b, v22.16b, v6.16b
	cmhi	v27.16b, v17.16b, v6.16b
	ldur	q9, [x8, #29]
	uqsub	v26.16b, v4.16b, v2.16b
	movi	v4.16b, #224
	uqsub	v25.16b, v23.16b, v1.16b
	uqsub	v30.16b, v24.16b, v20.16b
	ldr	q24, [x8, #16]
	movi	v3.16b, #192
	mov	v28.16b, v18.16b
	mov	v8.16b, v27.16b
	uqsub	v27.16b, v29.16b, v20.16b
	cmhi	v29.16b, v17.16b, v24.16b
	cmhi	v10.16b, v22.16b, v24.16b
	uqsub	v11.16b, v7.16b, v1.16b
	umax	v25.16b, v25.16b, v26.16b
	ldur	q26, [x8, #31]
	uqsub	v12.16b, v5.16b, v2.16b
	bsl	v28.16b, v16.16b, v21.16b
	bsl	v8.16b, v4.16b, v19.16b
	cmgt	v13.16b, v3.16b, v24.16b
	uqsub	v14.16b, v26.16b, v1.16b
	mov	v1.16b, v29.16b
	bsl	v10.16b, v16.16b, v21.16b
	orr	v30.16b, v25.16b, v30.16b
	ldr	q25, [x8, #32]
	movi	v18.16b, #254
	uqsub	v9.16b, v9.16b, v20.16b
	cmeq	v28.16b, v7.16b, v28.16b
	cmeq	v8.16b, v7.16b, v8.16b
	bsl	v1.16b, v4.16b, v19.16b
	cmeq	v15.16b, v30.16b, #0
	umax	v30.16b, v11.16b, v12.16b
	uqsub	v11.16b, v31.16b, v2.16b
	cmeq	v10.16b, v23.16b, v10.16b
	movi	v31.16b, #245
	mvn	v28.16b, v28.16b
	eor	v12.16b, v13.16b, v15.16b
	movi	v15.16b, #191
	cmhi	v13.16b, v17.16b, v25.16b
	cmeq	v1.16b, v23.16b, v1.16b
	umax	v23.16b, v14.16b, v11.16b
	ldur	q14, [x8, #46]
	bic	v29.16b, v28.16b, v8.16b
	ldr	q28, [x8, #48]
	cmhi	v8.16b, v22.16b, v25.16b
	mvn	v10.16b, v10.16b
	and	v11.16b, v24.16b, v18.16b
	bsl	v13.16b, v4.16b, v19.16b
	cmhi	v22.16b, v22.16b, v28.16b
	orr	v23.16b, v23.16b, v9.16b
	uqsub	v14.16b, v14.16b, v2.16b
	bsl	v8.16b, v16.16b, v21.16b
	cmhi	v17.16b, v17.16b, v28.16b
	cmhi	v24.16b, v31.16b, v24.16b
	bic	v1.16b, v10.16b, v1.16b
	cmeq	v10.16b, v11.16b, v3.16b
	ldur	q11, [x8, #45]
	bif	v16.16b, v21.16b, v22.16b
	ldur	q21, [x8, #47]
	cmhi	v22.16b, v31.16b, v6.16b
	uqsub	v20.16b, v11.16b, v20.16b
	cmeq	v23.16b, v23.16b, #0
	and	v11.16b, v25.16b, v18.16b
	uqsub	v9.16b, v21.16b, v15.16b
	cmeq	v8.16b, v26.16b, v8.16b
	cmeq	v26.16b, v26.16b, v13.16b
	cmgt	v13.16b, v3.16b, v25.16b
	orr	v27.16b, v30.16b, v27.16b
	bsl	v17.16b, v4.16b, v19.16b
	and	v22.16b, v29.16b, v22.16b
	bic	v29.16b, v12.16b, v10.16b
	and	v1.16b, v1.16b, v24.16b
	mvn	v8.16b, v8.16b
	cmhi	v25.16b, v31.16b, v25.16b
	cmeq	v16.16b, v21.16b, v16.16b
	umax	v30.16b, v9.16b, v14.16b
	eor	v23.16b, v13.16b, v23.16b
	cmgt	v19.16b, v3.16b, v6.16b
	cmeq	v27.16b, v27.16b, #0
	and	v1.16b, v29.16b, v1.16b
	and	v29.16b, v6.16b, v18.16b
	bic	v24.16b, v8.16b, v26.16b
	cmeq	v26.16b, v11.16b, v3.16b
	cmeq	v17.16b, v21.16b, v17.16b
	orr	v20.16b, v30.16b, v20.16b
	mvn	v16.16b, v16.16b
	and	v18.16b, v28.16b, v18.16b
	eor	v19.16b, v19.16b, v27.16b
	cmeq	v21.16b, v29.16b, v3.16b
	and	v1.16b, v22.16b, v1.16b
	bic	v23.16b, v23.16b, v26.16b
	and	v24.16b, v24.16b, v25.16b
	cmgt	v25.16b, v3.16b, v28.16b
	cmeq	v20.16b, v20.16b, #0
	bic	v16.16b, v16.16b, v17.16b
	cmeq	v17.16b, v18.16b, v3.16b
	bic	v18.16b, v19.16b, v21.16b
	and	v22.16b, v23.16b, v24.16b
	cmhi	v23.16b, v31.16b, v28.16b
	eor	v20.16b, v25.16b, v20.16b
	and	v1.16b, v1.16b, v22.16b
	and	v16.16b, v16.16b, v23.16b
	bic	v17.16b, v20.16b, v17.16b
	and	v1.16b, v1.16b, v18.16b
	and	v16.16b, v17.16b, v16.16b
	and	v1.16b, v1.16b, v16.16b
	shl	v1.16b, v1.16b, #7
	cmge	v1.16b, v1.16b, #0
	and	v1.16b, v1.16b, v0.16b
	addp	v1.16b, v1.16b, v1.16b
	addp	v1.16b, v1.16b, v1.16b
	addp	v1.16b, v1.16b, v1.16b
	umov	w9, v1.h[0]
	cbnz	w9, .LBB8_2
	cmge	v1.16b, v6.16b, #0
	cmhi	v16.16b, v7.16b, v2.16b
	adrp	x9, .Lstatic.13
	add	x9, x9, :lo12:.Lstatic.13
	cmhi	v17.16b, v6.16b, v15.16b
	movi	v18.16b, #64
	shl	v23.16b, v7.16b, #2
	ushr	v24.16b, v6.16b, #4
	movi	v20.16b, #232
	bsl	v1.16b, v3.16b, v7.16b
	movi	v21.16b, #231
	umax	v22.16b, v5.16b, v4.16b
	orr	v17.16b, v17.16b, v16.16b
	movi	v16.16b, #220
	movi	v19.16b, #127
	cmhi	v23.16b, v18.16b, v23.16b
	sli	v24.16b, v7.16b, #2
	umax	v25.16b, v1.16b, v5.16b
	bic	v26.16b, v0.16b, v17.16b
	ushr	v27.16b, v1.16b, #2
	movi	v17.16b, #240
	bsl	v23.16b, v21.16b, v20.16b
	and	v6.16b, v6.16b, v19.16b
	shl	v1.16b, v1.16b, #6
	add	v24.16b, v24.16b, v3.16b
	cmhi	v25.16b, v3.16b, v25.16b
	addp	v7.16b, v26.16b, v26.16b
	sli	v27.16b, v22.16b, #4
	add	v1.16b, v1.16b, v6.16b
	and	v22.16b, v25.16b, v16.16b
	addp	v7.16b, v7.16b, v7.16b
	cmhi	v25.16b, v17.16b, v5.16b
	add	v5.16b, v23.16b, v5.16b
	orr	v6.16b, v27.16b, v22.16b
	addp	v7.16b, v7.16b, v7.16b
	bif	v1.16b, v24.16b, v25.16b
	bit	v5.16b, v6.16b, v25.16b
	umov	w11, v7.h[0]
	zip1	v6.16b, v5.16b, v1.16b
	and	x10, x11, #0xff
	ubfx	x12, x11, #8, #8
	ldr	q7, [x9, x10, lsl #4]
	fmov	d22, x10
	add	x10, x23, x19
	zip2	v1.16b, v5.16b, v1.16b
	tbl	v6.16b, { v6.16b }, v7.16b
	cnt	v7.8b, v22.8b
	str	q6, [x10]
	fmov	w11, s7
	ldr	q5, [x9, x12, lsl #4]
	tbl	v1.16b, { v1.16b }, v5.16b
	ubfiz	x13, x11, #1, #32
	str	q1, [x10, x13]
	ldr	q1, [x8, #16]
	ldur	q6, [x8, #15]
	ldur	q23, [x8, #14]
	cmge	v5.16b, v1.16b, #0
	cmhi	v7.16b, v6.16b, v2.16b
	cmhi	v22.16b, v1.16b, v15.16b
	shl	v24.16b, v6.16b, #2
	umax	v25.16b, v23.16b, v4.16b
	ushr	v27.16b, v1.16b, #4
	and	v1.16b, v1.16b, v19.16b
	bsl	v5.16b, v3.16b, v6.16b
	orr	v7.16b, v7.16b, v22.16b
	cmhi	v24.16b, v18.16b, v24.16b
	sli	v27.16b, v6.16b, #2
	bic	v7.16b, v0.16b, v7.16b
	umax	v22.16b, v5.16b, v23.16b
	ushr	v26.16b, v5.16b, #2
	bsl	v24.16b, v21.16b, v20.16b
	shl	v5.16b, v5.16b, #6
	addp	v7.16b, v7.16b, v7.16b
	cmhi	v22.16b, v3.16b, v22.16b
	sli	v26.16b, v25.16b, #4
	add	v1.16b, v5.16b, v1.16b
	addp	v7.16b, v7.16b, v7.16b
	and	v6.16b, v22.16b, v16.16b
	add	v22.16b, v24.16b, v23.16b
	add	v24.16b, v27.16b, v3.16b
	cmhi	v23.16b, v17.16b, v23.16b
	addp	v5.16b, v7.16b, v7.16b
	fmov	d7, x12
	orr	v6.16b, v26.16b, v6.16b
	bif	v1.16b, v24.16b, v23.16b
	umov	w12, v5.h[0]
	cnt	v5.8b, v7.8b
	bif	v6.16b, v22.16b, v23.16b
	and	x13, x12, #0xff
	fmov	w14, s5
	zip1	v7.16b, v6.16b, v1.16b
	ldr	q5, [x9, x13, lsl #4]
	zip2	v1.16b, v6.16b, v1.16b
	add	x11, x11, x14
	add	x14, x10, x11, lsl #1
	tbl	v5.16b, { v7.16b }, v5.16b
	fmov	d7, x13
	ubfx	x13, x12, #8, #8
	cnt	v7.8b, v7.8b
	str	q5, [x14]
	ldr	q5, [x9, x13, lsl #4]
	fmov	w12, s7
	tbl	v1.16b, { v1.16b }, v5.16b
	ubfiz	x15, x12, #1, #32
	str	q1, [x14, x15]
	ldr	q1, [x8, #32]
	ldur	q6, [x8, #31]
	ldur	q23, [x8, #30]
	cmge	v5.16b, v1.16b, #0
	cmhi	v7.16b, v6.16b, v2.16b
	cmhi	v22.16b, v1.16b, v15.16b
	shl	v24.16b, v6.16b, #2
	umax	v25.16b, v23.16b, v4.16b
	ushr	v27.16b, v1.16b, #4
	and	v1.16b, v1.16b, v19.16b
	bsl	v5.16b, v3.16b, v6.16b
	orr	v7.16b, v7.16b, v22.16b
	cmhi	v24.16b, v18.16b, v24.16b
	sli	v27.16b, v6.16b, #2
	bic	v7.16b, v0.16b, v7.16b
	umax	v22.16b, v5.16b, v23.16b
	ushr	v26.16b, v5.16b, #2
	bsl	v24.16b, v21.16b, v20.16b
	shl	v5.16b, v5.16b, #6
	addp	v7.16b, v7.16b, v7.16b
	cmhi	v22.16b, v3.16b, v22.16b
	sli	v26.16b, v25.16b, #4
	add	v1.16b, v5.16b, v1.16b
	addp	v7.16b, v7.16b, v7.16b
	and	v6.16b, v22.16b, v16.16b
	add	v22.16b, v24.16b, v23.16b
	add	v24.16b, v27.16b, v3.16b
	cmhi	v23.16b, v17.16b, v23.16b
	addp	v5.16b, v7.16b, v7.16b
	fmov	d7, x13
	orr	v6.16b, v26.16b, v6.16b
	bif	v1.16b, v24.16b, v23.16b
	umov	w13, v5.h[0]
	cnt	v7.8b, v7.8b
	bif	v6.16b, v22.16b, v23.16b
	and	x15, x13, #0xff
	fmov	w14, s7
	ubfx	x13, x13, #8, #8
	zip1	v5.16b, v6.16b, v1.16b
	ldr	q7, [x9, x15, lsl #4]
	zip2	v1.16b, v6.16b, v1.16b
	add	x12, x12, x14
	add	x11, x11, x12
	tbl	v5.16b, { v5.16b }, v7.16b
	fmov	d7, x15
	add	x14, x10, x11, lsl #1
	cnt	v7.8b, v7.8b
	str	q5, [x14]
	ldr	q5, [x9, x13, lsl #4]
	fmov	w12, s7
	tbl	v1.16b, { v1.16b }, v5.16b
	ubfiz	x15, x12, #1, #32
	str	q1, [x14, x15]
	ldr	q1, [x8, #48]
	ldur	q6, [x8, #47]
	ldur	q22, [x8, #46]
	cmge	v5.16b, v1.16b, #0
	cmhi	v2.16b, v6.16b, v2.16b
	cmhi	v7.16b, v1.16b, v15.16b
	shl	v23.16b, v6.16b, #2
	umax	v4.16b, v22.16b, v4.16b
	bsl	v5.16b, v3.16b, v6.16b
	orr	v2.16b, v2.16b, v7.16b
	cmhi	v18.16b, v18.16b, v23.16b
	bic	v0.16b, v0.16b, v2.16b
	umax	v7.16b, v5.16b, v22.16b
	ushr	v24.16b, v5.16b, #2
	shl	v5.16b, v5.16b, #6
	addp	v0.16b, v0.16b, v0.16b
	cmhi	v2.16b, v3.16b, v7.16b
	ushr	v7.16b, v1.16b, #4
	sli	v24.16b, v4.16b, #4
	mov	v4.16b, v18.16b
	and	v1.16b, v1.16b, v19.16b
	addp	v0.16b, v0.16b, v0.16b
	sli	v7.16b, v6.16b, #2
	and	v2.16b, v2.16b, v16.16b
	cmhi	v6.16b, v17.16b, v22.16b
	bsl	v4.16b, v21.16b, v20.16b
	add	v1.16b, v5.16b, v1.16b
	fmov	d5, x13
	addp	v0.16b, v0.16b, v0.16b
	orr	v2.16b, v24.16b, v2.16b
	add	v3.16b, v7.16b, v3.16b
	add	v4.16b, v4.16b, v22.16b
	umov	w13, v0.h[0]
	bif	v1.16b, v3.16b, v6.16b
	cnt	v3.8b, v5.8b
	bif	v2.16b, v4.16b, v6.16b
	and	x15, x13, #0xff
	fmov	w14, s3
	ldr	q3, [x9, x15, lsl #4]
	zip1	v0.16b, v2.16b, v1.16b
	zip2	v1.16b, v2.16b, v1.16b
	add	x12, x12, x14
	add	x11, x11, x12
	ubfx	x12, x13, #8, #8
	tbl	v0.16b, { v0.16b }, v3.16b
	fmov	d3, x15
	add	x10, x10, x11, lsl #1
	fmov	d2, x12
	cnt	v3.8b, v3.8b
	str	q0, [x10]
	cnt	v0.8b, v2.8b
	ldr	q2, [x9, x12, lsl #4]
	fmov	w9, s3
	tbl	v1.16b, { v1.16b }, v2.16b
	fmov	w13, s0
	ubfiz	x12, x9, #1, #32
	add	x9, x9, x13
	str	q1, [x10, x12]
	add	x9, x11, x9
	ldrb	w10, [x8, #61]
	add	x19, x19, x9, lsl #1
	cmp	w10, #239
	b.ls	.LBB8_24
	sub	x19, x19, #2
	mov	w8, #61
	b	.LBB8_29
.LBB8_21:
	movi	v17.16b, #160
	movi	v1.16b, #191
	ldur	q19, [x8, #14]
	movi	v2.16b, #223
	ldp	q21, q27, [x8, #16]
	movi	v16.16b, #254
	ldur	q20, [x8, #15]
	movi	v18.16b, #237
	movi	v3.16b, #224
	movi	v4.16b, #192
	ldur	q24, [x8, #30]
	cmhi	v23.16b, v17.16b, v21.16b
	uqsub	v22.16b, v20.16b, v1.16b
	ldur	q26, [x8, #31]
	uqsub	v19.16b, v19.16b, v2.16b
	ldur	q28, [x8, #46]
	ldur	q29, [x8, #47]
	and	v25.16b, v21.16b, v16.16b
	ldr	q30, [x8, #48]
	uqsub	v31.16b, v7.16b, v1.16b
	bsl	v23.16b, v3.16b, v18.16b
	cmhi	v9.16b, v17.16b, v6.16b
	cmhi	v10.16b, v17.16b, v27.16b
	cmhi	v17.16b, v17.16b, v30.16b
	uqsub	v24.16b, v24.16b, v2.16b
	uqsub	v12.16b, v29.16b, v1.16b
	cmeq	v25.16b, v25.16b, v4.16b
	orr	v19.16b, v22.16b, v19.16b
	uqsub	v22.16b, v5.16b, v2.16b
	uqsub	v28.16b, v28.16b, v2.16b
	and	v8.16b, v6.16b, v16.16b
	cmgt	v21.16b, v4.16b, v21.16b
	cmeq	v20.16b, v20.16b, v23.16b
	uqsub	v23.16b, v26.16b, v1.16b
	and	v11.16b, v27.16b, v16.16b
	mvn	v25.16b, v25.16b
	cmeq	v19.16b, v19.16b, #0
	and	v16.16b, v30.16b, v16.16b
	bsl	v10.16b, v3.16b, v18.16b
	bsl	v9.16b, v3.16b, v18.16b
	bsl	v17.16b, v3.16b, v18.16b
	orr	v18.16b, v22.16b, v31.16b
	cmgt	v27.16b, v4.16b, v27.16b
	eor	v19.16b, v21.16b, v19.16b
	cmeq	v21.16b, v8.16b, v4.16b
	bic	v20.16b, v25.16b, v20.16b
	orr	v22.16b, v23.16b, v24.16b
	cmeq	v23.16b, v11.16b, v4.16b
	orr	v25.16b, v12.16b, v28.16b
	cmeq	v16.16b, v16.16b, v4.16b
	cmeq	v24.16b, v26.16b, v10.16b
	cmeq	v17.16b, v29.16b, v17.16b
	mvn	v21.16b, v21.16b
	cmeq	v26.16b, v7.16b, v9.16b
	cmgt	v28.16b, v4.16b, v30.16b
	cmeq	v22.16b, v22.16b, #0
	mvn	v23.16b, v23.16b
	cmeq	v25.16b, v25.16b, #0
	mvn	v16.16b, v16.16b
	and	v19.16b, v19.16b, v20.16b
	cmeq	v18.16b, v18.16b, #0
	bic	v21.16b, v21.16b, v26.16b
	eor	v20.16b, v27.16b, v22.16b
	cmgt	v22.16b, v4.16b, v6.16b
	bic	v23.16b, v23.16b, v24.16b
	eor	v24.16b, v28.16b, v25.16b
	bic	v16.16b, v16.16b, v17.16b
	eor	v17.16b, v22.16b, v18.16b
	and	v18.16b, v21.16b, v19.16b
	and	v19.16b, v20.16b, v23.16b
	and	v16.16b, v24.16b, v16.16b
	and	v18.16b, v18.16b, v19.16b
	and	v16.16b, v17.16b, v16.16b
	and	v16.16b, v18.16b, v16.16b
	bic	v16.16b, v0.16b, v16.16b
	addp	v16.16b, v16.16b, v16.16b
	addp	v16.16b, v16.16b, v16.16b
	addp	v16.16b, v16.16b, v16.16b
	umov	w9, v16.h[0]
	cbnz	w9, .LBB8_2
	cmhi	v16.16b, v7.16b, v2.16b
	cmhi	v17.16b, v6.16b, v1.16b
	adrp	x9, .Lstatic.13
	add	x9, x9, :lo12:.Lstatic.13
	umax	v5.16b, v5.16b, v3.16b
	orr	v16.16b, v17.16b, v16.16b
	cmge	v17.16b, v6.16b, #0
	bic	v16.16b, v0.16b, v16.16b
	bsl	v17.16b, v4.16b, v7.16b
	movi	v7.16b, #127
	addp	v16.16b, v16.16b, v16.16b
	ushr	v18.16b, v17.16b, #2
	and	v6.16b, v6.16b, v7.16b
	shl	v17.16b, v17.16b, #6
	addp	v16.16b, v16.16b, v16.16b
	sli	v18.16b, v5.16b, #4
	add	v5.16b, v17.16b, v6.16b
	addp	v16.16b, v16.16b, v16.16b
	zip1	v6.16b, v18.16b, v5.16b
	zip2	v5.16b, v18.16b, v5.16b
	umov	w11, v16.h[0]
	and	x10, x11, #0xff
	ubfx	x11, x11, #8, #8
	ldr	q16, [x9, x10, lsl #4]
	tbl	v6.16b, { v6.16b }, v16.16b
	fmov	d16, x10
	add	x10, x23, x19
	cnt	v16.8b, v16.8b
	str	q6, [x10]
	ldr	q6, [x9, x11, lsl #4]
	fmov	w12, s16
	tbl	v5.16b, { v5.16b }, v6.16b
	ubfiz	x13, x12, #1, #32
	str	q5, [x10, x13]
	ldur	q5, [x8, #15]
	ldr	q6, [x8, #16]
	cmhi	v16.16b, v5.16b, v2.16b
	cmhi	v17.16b, v6.16b, v1.16b
	orr	v16.16b, v16.16b, v17.16b
	cmge	v17.16b, v6.16b, #0
	and	v6.16b, v6.16b, v7.16b
	bic	v16.16b, v0.16b, v16.16b
	bit	v5.16b, v4.16b, v17.16b
	ldur	q17, [x8, #14]
	umax	v17.16b, v17.16b, v3.16b
	addp	v16.16b, v16.16b, v16.16b
	ushr	v18.16b, v5.16b, #2
	shl	v5.16b, v5.16b, #6
	addp	v16.16b, v16.16b, v16.16b
	sli	v18.16b, v17.16b, #4
	fmov	d17, x11
	add	v5.16b, v5.16b, v6.16b
	addp	v16.16b, v16.16b, v16.16b
	cnt	v6.8b, v17.8b
	umov	w13, v16.h[0]
	zip1	v16.16b, v18.16b, v5.16b
	zip2	v5.16b, v18.16b, v5.16b
	fmov	w14, s6
	and	x11, x13, #0xff
	ubfx	x13, x13, #8, #8
	ldr	q6, [x9, x11, lsl #4]
	tbl	v6.16b, { v16.16b }, v6.16b
	fmov	d16, x11
	add	x11, x12, x14
	add	x12, x10, x11, lsl #1
	cnt	v16.8b, v16.8b
	str	q6, [x12]
	ldr	q6, [x9, x13, lsl #4]
	fmov	w14, s16
	tbl	v5.16b, { v5.16b }, v6.16b
	ubfiz	x15, x14, #1, #32
	str	q5, [x12, x15]
	ldur	q5, [x8, #31]
	ldr	q6, [x8, #32]
	cmhi	v16.16b, v5.16b, v2.16b
	cmhi	v17.16b, v6.16b, v1.16b
	orr	v16.16b, v16.16b, v17.16b
	cmge	v17.16b, v6.16b, #0
	and	v6.16b, v6.16b, v7.16b
	bic	v16.16b, v0.16b, v16.16b
	bit	v5.16b, v4.16b, v17.16b
	ldur	q17, [x8, #30]
	umax	v17.16b, v17.16b, v3.16b
	addp	v16.16b, v16.16b, v16.16b
	ushr	v18.16b, v5.16b, #2
	shl	v5.16b, v5.16b, #6
	addp	v16.16b, v16.16b, v16.16b
	sli	v18.16b, v17.16b, #4
	fmov	d17, x13
	add	v5.16b, v5.16b, v6.16b
	addp	v16.16b, v16.16b, v16.16b
	cnt	v17.8b, v17.8b
	zip1	v6.16b, v18.16b, v5.16b
	zip2	v5.16b, v18.16b, v5.16b
	umov	w12, v16.h[0]
	fmov	w13, s17
	and	x15, x12, #0xff
	ubfx	x12, x12, #8, #8
	ldr	q16, [x9, x15, lsl #4]
	add	x13, x14, x13
	add	x11, x11, x13
	tbl	v6.16b, { v6.16b }, v16.16b
	fmov	d16, x15
	add	x13, x10, x11, lsl #1
	cnt	v16.8b, v16.8b
	str	q6, [x13]
	ldr	q6, [x9, x12, lsl #4]
	fmov	w14, s16
	tbl	v5.16b, { v5.16b }, v6.16b
	ubfiz	x15, x14, #1, #32
	str	q5, [x13, x15]
	ldur	q5, [x8, #47]
	ldr	q6, [x8, #48]
	cmhi	v2.16b, v5.16b, v2.16b
	cmhi	v1.16b, v6.16b, v1.16b
	orr	v1.16b, v2.16b, v1.16b
	ldur	q2, [x8, #46]
	umax	v2.16b, v2.16b, v3.16b
	bic	v0.16b, v0.16b, v1.16b
	cmge	v1.16b, v6.16b, #0
	addp	v0.16b, v0.16b, v0.16b
	bsl	v1.16b, v4.16b, v5.16b
	and	v4.16b, v6.16b, v7.16b
	fmov	d5, x12
	addp	v0.16b, v0.16b, v0.16b
	ushr	v3.16b, v1.16b, #2
	shl	v1.16b, v1.16b, #6
	addp	v0.16b, v0.16b, v0.16b
	sli	v3.16b, v2.16b, #4
	cnt	v2.8b, v5.8b
	add	v1.16b, v1.16b, v4.16b
	umov	w12, v0.h[0]
	zip1	v0.16b, v3.16b, v1.16b
	fmov	w13, s2
	zip2	v1.16b, v3.16b, v1.16b
	and	x15, x12, #0xff
	ubfx	x12, x12, #8, #8
	fmov	d4, x15
	ldr	q2, [x9, x15, lsl #4]
	add	x13, x14, x13
	add	x11, x11, x13
	tbl	v0.16b, { v0.16b }, v2.16b
	add	x13, x10, x11, lsl #1
	cnt	v2.8b, v4.8b
	str	q0, [x13]
	fmov	w10, s2
	ldr	q0, [x9, x12, lsl #4]
	tbl	v0.16b, { v1.16b }, v0.16b
	mov	w9, w10
	ubfiz	x9, x9, #1, #32
	str	q0, [x13, x9]
	ldrb	w9, [x8, #62]
	cmp	w9, #223
	b.ls	.LBB8_26
	mov	w8, #62
	b	.LBB8_27
.LBB8_24:
	ldrb	w9, [x8, #62]
	cmp	w9, #223
	b.ls	.LBB8_28
	mov	w8, #62
	b	.LBB8_29
.LBB8_26:
	ldrb	w8, [x8, #63]
	cmp	w8, #191
	mov	w8, #63
	cinc	x8, x8, ls
.LBB8_27:
	fmov	d0, x12
	cnt	v0.8b, v0.8b
	fmov	w9, s0
	add	x9, x10, x9
	add	x9, x11, x9
	add	x19, x19, x9, lsl #1
	b	.LBB8_29
.LBB8_28:
	ldrb	w8, [x8, #63]
	cmp	w8, #191
	mov	w8, #63
	cinc	x8, x8, ls
.LBB8_29:
	add	x4, x8, x4
	b	.LBB8_2
.LBB8_30:
	mov	x0, x20
	mov	x1, x19
	.cfi_def_cfa wsp, 144
	ldp	x20, x19, [sp, #128]
	ldp	x22, x21, [sp, #112]
	ldp	x24, x23, [sp, #96]
	ldp	x26, x25, [sp, #80]
	ldp	x29, x30, [sp, #64]
	ldp	d9, d8, [sp, #48]
	ldp	d11, d10, [sp, #32]
	ldp	d13, d12, [sp, #16]
	ldp	d15, d14, [sp], #144
	.cfi_def_cfa_offset 0
	.cfi_restore w19
	.cfi_restore w20
	.cfi_restore w21
	.cfi_restore w22
	.cfi_restore w23
	.cfi_restore w24
	.cfi_restore w25
	.cfi_restore w26
	.cfi_restore w30
	.cfi_restore w29
	.cfi_restore b8
	.cfi_restore b9
	.cfi_restore b10
	.cfi_restore b11
	.cfi_restore b12
	.cfi_restore b13
	.cfi_restore b14
	.cfi_restore b15
	ret
.Lfunc_end8:
	.size	"utf16_from_utf8::blocks::write_mixed_blocks::<#8b18edd9dd9aa8df>", .Lfunc_end8-"utf16_from_utf8::blocks::write_mixed_blocks::<#8b18edd9dd9aa8df>"
	.cfi_endproc

	.section	.rodata.cst16,"aM",@progbits,16
	.p2align	4, 0x0
.LCPI9_0:
	.byte	255
	.byte	0
	.byte	255
	.byte	255
	.byte	0
	.byte	255
	.byte	255
	.byte	0
	.byte	255
	.byte	255
	.byte	0
	.byte	255
	.byte	255
	.byte	0
	.byte	255
	.byte	255
.LCPI9_1:
	.byte	255
	.byte	255
	.byte	0
	.byte	255
	.byte	255
	.byte	0
	.byte	255
	.byte	255
	.byte	0
	.byte	255
	.byte	255
	.byte	0
	.byte	255
	.byte	255
	.byte	0
	.byte	255
.LCPI9_2:
	.byte	0
	.byte	3
	.byte	6
	.byte	9
	.byte	12
	.byte	15
	.byte	18
	.byte	21
	.byte	24
	.byte	27
	.byte	30
	.byte	17
	.byte	20
	.byte	23
	.byte	26
	.byte	29
.LCPI9_3:
	.byte	1
	.byte	4
	.byte	7
	.byte	10
	.byte	13
	.byte	16
	.byte	19
	.byte	22
	.byte	25
	.byte	28
	.byte	31
	.byte	18
	.byte	21
	.byte	24
	.byte	27
	.byte	30
.LCPI9_4:
	.byte	2
	.byte	5
	.byte	8
	.byte	11
	.byte	14
	.byte	17
	.byte	20
	.byte	23
	.byte	26
	.byte	29
	.byte	16
	.byte	19
	.byte	22
	.byte	25
	.byte	28
	.byte	31
.LCPI9_5:
	.byte	1
	.byte	2
	.byte	4
	.byte	8
	.byte	16
	.byte	32
	.byte	64
	.byte	128
	.byte	1
	.byte	2
	.byte	4
	.byte	8
	.byte	16
	.byte	32
	.byte	64
	.byte	128
	.section	".text.utf16_from_utf8::rest::write_rest::<#8b18edd9dd9aa8df>","ax",@progbits
	.p2align	2
	.type	"utf16_from_utf8::rest::write_rest::<#8b18edd9dd9aa8df>",@function
"utf16_from_utf8::rest::write_rest::<#8b18edd9dd9aa8df>":
	.cfi_startproc
	stp	x29, x30, [sp, #-48]!
	.cfi_def_cfa_offset 48
	str	x21, [sp, #16]
	stp	x20, x19, [sp, #32]
	mov	x29, sp
	.cfi_def_cfa w29, 48
	.cfi_offset w19, -8
	.cfi_offset w20, -16
	.cfi_offset w21, -32
	.cfi_offset w30, -40
	.cfi_offset w29, -48
	mov	x19, x5
	mov	x20, x4
	subs	x9, x1, x4
	adrp	x8, .LCPI9_5
	b.eq	.LBB9_9
	ldrb	w10, [x0, x20]
	and	w10, w10, #0xf0
	cmp	w10, #224
	b.ne	.LBB9_9
	subs	x9, x9, #48
	b.lo	.LBB9_9
	sub	x10, x3, x19
	subs	x10, x10, #32
	b.lo	.LBB9_9
	add	x11, x0, #16
.LBB9_5:
	adrp	x13, .LCPI9_0
	add	x12, x11, x20
	movi	v7.16b, #192
	ldr	q0, [x13, :lo12:.LCPI9_0]
	ldp	q2, q1, [x12]
	ldur	q4, [x12, #-16]
	adrp	x12, .LCPI9_1
	mov	v5.16b, v0.16b
	ldr	q0, [x12, :lo12:.LCPI9_1]
	adrp	x12, .LCPI9_2
	ldr	q3, [x12, :lo12:.LCPI9_2]
	adrp	x12, .LCPI9_3
	mov	v17.16b, v0.16b
	ldr	q6, [x12, :lo12:.LCPI9_3]
	adrp	x12, .LCPI9_4
	bsl	v5.16b, v1.16b, v2.16b
	bsl	v17.16b, v2.16b, v1.16b
	bif	v1.16b, v2.16b, v0.16b
	mov	v16.16b, v4.16b
	mov	v0.16b, v4.16b
	tbl	v3.16b, { v0.16b, v1.16b }, v3.16b
	tbl	v0.16b, { v16.16b, v17.16b }, v6.16b
	movi	v6.16b, #240
	ldr	q1, [x12, :lo12:.LCPI9_4]
	tbl	v2.16b, { v4.16b, v5.16b }, v1.16b
	movi	v4.16b, #32
	movi	v5.16b, #128
	and	v6.16b, v3.16b, v6.16b
	and	v16.16b, v0.16b, v7.16b
	add	v4.16b, v6.16b, v4.16b
	eor	v6.16b, v16.16b, v5.16b
	and	v7.16b, v2.16b, v7.16b
	eor	v5.16b, v7.16b, v5.16b
	umax	v4.16b, v4.16b, v6.16b
	orr	v4.16b, v4.16b, v5.16b
	cmeq	v5.16b, v4.16b, #0
	ldr	q4, [x8, :lo12:.LCPI9_5]
	bic	v5.16b, v4.16b, v5.16b
	addp	v5.16b, v5.16b, v5.16b
	addp	v5.16b, v5.16b, v5.16b
	addp	v5.16b, v5.16b, v5.16b
	umov	w12, v5.h[0]
	cbnz	w12, .LBB9_9
	ushr	v1.16b, v0.16b, #2
	movi	v5.16b, #7
	movi	v6.16b, #216
	sli	v1.16b, v3.16b, #4
	movi	v3.16b, #248
	and	v3.16b, v1.16b, v3.16b
	cmhi	v5.16b, v1.16b, v5.16b
	cmeq	v3.16b, v3.16b, v6.16b
	and	v3.16b, v3.16b, v5.16b
	orn	v3.16b, v3.16b, v5.16b
	and	v3.16b, v3.16b, v4.16b
	addp	v3.16b, v3.16b, v3.16b
	addp	v3.16b, v3.16b, v3.16b
	addp	v3.16b, v3.16b, v3.16b
	umov	w12, v3.h[0]
	cbnz	w12, .LBB9_9
	sli	v2.16b, v0.16b, #6
	add	x12, x2, x19
	subs	x9, x9, #48
	add	x19, x19, #32
	add	x20, x20, #48
	zip2	v0.16b, v1.16b, v2.16b
	st2	{ v1.8b, v2.8b }, [x12], #16
	str	q0, [x12]
	b.lo	.LBB9_9
	cmp	x10, #31
	sub	x10, x10, #32
	b.hi	.LBB9_5
.LBB9_9:
	sub	x21, x1, #1
	ldrb	w9, [x0, x21]
	cmp	w9, #191
	b.hi	.LBB9_12
	sub	x21, x1, #2
	ldrb	w9, [x0, x21]
	cmp	w9, #223
	b.hi	.LBB9_12
	sub	x9, x1, #3
	ldrb	w10, [x0, x9]
	cmp	w10, #239
	csel	x21, x9, x1, hi
.LBB9_12:
	cmp	x21, #17
	b.lo	.LBB9_24
	subs	x9, x21, x20
	b.ls	.LBB9_24
	sub	x10, x3, x19
	subs	x10, x10, #16
	csel	x10, xzr, x10, lo
	cmp	x9, x10, lsr #1
	b.hi	.LBB9_24
	subs	x9, x20, #18
	add	x11, x0, x21
	csel	x10, xzr, x9, lo
	ldur	q0, [x11, #-16]
	sub	x9, x21, x10
	cmp	x9, #17
	b.lo	.LBB9_18
	add	x10, x0, x10
.LBB9_17:
	ldr	q1, [x10], #16
	sub	x9, x9, #16
	cmp	x9, #16
	umax	v0.16b, v0.16b, v1.16b
	b.hi	.LBB9_17
.LBB9_18:
	movi	v1.16b, #224
	cmhs	v2.16b, v0.16b, v1.16b
	ldr	q1, [x8, :lo12:.LCPI9_5]
	and	v2.16b, v2.16b, v1.16b
	addp	v2.16b, v2.16b, v2.16b
	addp	v2.16b, v2.16b, v2.16b
	addp	v2.16b, v2.16b, v2.16b
	umov	w8, v2.h[0]
	cbz	w8, .LBB9_21
	movi	v2.16b, #240
	add	x3, x2, x19
	mov	x1, x21
	mov	x2, x20
	cmhs	v0.16b, v0.16b, v2.16b
	and	v0.16b, v0.16b, v1.16b
	addp	v0.16b, v0.16b, v0.16b
	addp	v0.16b, v0.16b, v0.16b
	addp	v0.16b, v0.16b, v0.16b
	umov	w8, v0.h[0]
	cbz	w8, .LBB9_22
	bl	"utf16_from_utf8::rest::write_rest_of::<#333b1ec0269cc57c>"
	b	.LBB9_23
.LBB9_21:
	add	x3, x2, x19
	mov	x1, x21
	mov	x2, x20
	bl	"utf16_from_utf8::rest::write_rest_of::<#00efe7c0aa38a8e6>"
	b	.LBB9_23
.LBB9_22:
	bl	"utf16_from_utf8::rest::write_rest_of::<#639a12b236a9ca5f>"
.LBB9_23:
	and	w8, w0, #0xff
	add	x9, x1, x19
	cmp	w8, #1
	csel	x20, x21, x20, eq
	csel	x19, x9, x19, eq
.LBB9_24:
	mov	x0, x20
	mov	x1, x19
	.cfi_def_cfa wsp, 48
	ldp	x20, x19, [sp, #32]
	ldr	x21, [sp, #16]
	ldp	x29, x30, [sp], #48
	.cfi_def_cfa_offset 0
	.cfi_restore w19
	.cfi_restore w20
	.cfi_restore w21
	.cfi_restore w30
	.cfi_restore w29
	ret
.Lfunc_end9:
	.size	"utf16_from_utf8::rest::write_rest::<#8b18edd9dd9aa8df>", .Lfunc_end9-"utf16_from_utf8::rest::write_rest::<#8b18edd9dd9aa8df>"
	.cfi_endproc

	.section	.rodata.cst16,"aM",@progbits,16
	.p2align	4, 0x0
.LCPI10_0:
	.byte	1
	.byte	2
	.byte	4
	.byte	8
	.byte	16
	.byte	32
	.byte	64
	.byte	128
	.byte	1
	.byte	2
	.byte	4
	.byte	8
	.byte	16
	.byte	32
	.byte	64
	.byte	128
	.section	".text.utf16_from_utf8::rest::write_rest_of::<#00efe7c0aa38a8e6>","ax",@progbits
	.p2align	2
	.type	"utf16_from_utf8::rest::write_rest_of::<#00efe7c0aa38a8e6>",@function
"utf16_from_utf8::rest::write_rest_of::<#00efe7c0aa38a8e6>":
	.cfi_startproc
	movi	v0.2d, #0000000000000000
	sub	x11, x1, x2
	adrp	x9, .LCPI10_0
	cmp	x11, #16
	adrp	x10, .Lstatic.13
	add	x10, x10, :lo12:.Lstatic.13
	mov	x8, xzr
	b.hs	.LBB10_6
.LBB10_1:
	cmp	x2, x1
	b.eq	.LBB10_13
	sub	x11, x1, #16
	add	x12, x0, x11
	cmp	x11, #3
	ldr	q1, [x12]
	b.lo	.LBB10_11
	ldur	q2, [x12, #-1]
	b	.LBB10_12
.LBB10_4:
	add	x12, x0, x2
	ldur	q2, [x12, #-1]
.LBB10_5:
	movi	v3.16b, #191
	ldr	q5, [x9, :lo12:.LCPI10_0]
	movi	v7.16b, #127
	sub	x11, x11, #16
	add	x2, x2, #16
	cmp	x11, #15
	cmhs	v4.16b, v3.16b, v1.16b
	and	v7.16b, v1.16b, v7.16b
	and	v4.16b, v4.16b, v5.16b
	movi	v5.16b, #192
	addp	v4.16b, v4.16b, v4.16b
	uqsub	v6.16b, v2.16b, v5.16b
	cmhi	v2.16b, v2.16b, v3.16b
	cmgt	v17.16b, v5.16b, v1.16b
	addp	v4.16b, v4.16b, v4.16b
	eor	v2.16b, v17.16b, v2.16b
	shl	v16.16b, v6.16b, #6
	ushr	v6.16b, v6.16b, #2
	addp	v4.16b, v4.16b, v4.16b
	add	v7.16b, v16.16b, v7.16b
	umov	w12, v4.h[0]
	movi	v4.16b, #254
	zip1	v16.16b, v6.16b, v7.16b
	and	x13, x12, #0xff
	ubfx	x12, x12, #8, #8
	and	v1.16b, v1.16b, v4.16b
	ldr	q3, [x10, x13, lsl #4]
	fmov	d4, x13
	add	x13, x3, x8
	tbl	v3.16b, { v16.16b }, v3.16b
	fmov	d16, x12
	cmeq	v1.16b, v1.16b, v5.16b
	cnt	v4.8b, v4.8b
	zip2	v5.16b, v6.16b, v7.16b
	cnt	v16.8b, v16.8b
	orr	v1.16b, v1.16b, v2.16b
	str	q3, [x13]
	fmov	w14, s4
	ldr	q3, [x10, x12, lsl #4]
	umax	v0.16b, v0.16b, v1.16b
	fmov	w12, s16
	tbl	v2.16b, { v5.16b }, v3.16b
	ubfiz	x15, x14, #1, #32
	add	x12, x14, x12
	str	q2, [x13, x15]
	add	x8, x8, x12, lsl #1
	b.ls	.LBB10_1
.LBB10_6:
	ldr	q1, [x0, x2]
	cmp	x2, #3
	b.hs	.LBB10_4
	cbz	x2, .LBB10_9
	add	x12, x0, x2
	sub	x12, x12, #1
	ld1r	{ v2.16b }, [x12]
	b	.LBB10_10
.LBB10_9:
	movi	v2.2d, #0000000000000000
.LBB10_10:
	ext	v2.16b, v2.16b, v1.16b, #15
	b	.LBB10_5
.LBB10_11:
	add	x12, x0, x1
	sub	x12, x12, #17
	ld1r	{ v2.16b }, [x12]
	ext	v2.16b, v2.16b, v1.16b, #15
.LBB10_12:
	movi	v3.16b, #191
	ldr	q5, [x9, :lo12:.LCPI10_0]
	movi	v7.16b, #127
	sub	x11, x2, x11
	cmhs	v4.16b, v3.16b, v1.16b
	and	v4.16b, v4.16b, v5.16b
	movi	v5.16b, #192
	addp	v4.16b, v4.16b, v4.16b
	uqsub	v6.16b, v2.16b, v5.16b
	cmhi	v2.16b, v2.16b, v3.16b
	cmgt	v16.16b, v5.16b, v1.16b
	addp	v4.16b, v4.16b, v4.16b
	eor	v2.16b, v16.16b, v2.16b
	addp	v4.16b, v4.16b, v4.16b
	umov	w12, v4.h[0]
	and	v4.16b, v1.16b, v7.16b
	shl	v7.16b, v6.16b, #6
	ushr	v6.16b, v6.16b, #2
	add	v4.16b, v7.16b, v4.16b
	movi	v7.16b, #254
	lsr	x12, x12, x11
	lsl	x11, x12, x11
	zip1	v17.16b, v6.16b, v4.16b
	zip2	v4.16b, v6.16b, v4.16b
	and	v1.16b, v1.16b, v7.16b
	ubfx	x12, x11, #8, #32
	and	x13, x11, #0xff
	lsr	x11, x11, #8
	ldr	q7, [x10, x13, lsl #4]
	fmov	d3, x12
	cmeq	v1.16b, v1.16b, v5.16b
	add	x12, x3, x8
	tbl	v7.16b, { v17.16b }, v7.16b
	fmov	d17, x13
	cnt	v3.8b, v3.8b
	orr	v1.16b, v1.16b, v2.16b
	cnt	v5.8b, v17.8b
	str	q7, [x12]
	ldr	q2, [x10, x11, lsl #4]
	umax	v0.16b, v0.16b, v1.16b
	addv	b3, v3.8b
	fmov	w13, s5
	tbl	v2.16b, { v4.16b }, v2.16b
	fmov	w10, s3
	ubfiz	x11, x13, #1, #32
	add	x10, x13, x10
	str	q2, [x12, x11]
	add	x8, x8, x10, lsl #1
.LBB10_13:
	cmeq	v0.16b, v0.16b, #0
	ldr	q1, [x9, :lo12:.LCPI10_0]
	bic	v0.16b, v1.16b, v0.16b
	addp	v0.16b, v0.16b, v0.16b
	addp	v0.16b, v0.16b, v0.16b
	addp	v0.16b, v0.16b, v0.16b
	umov	w9, v0.h[0]
	cbz	w9, .LBB10_15
	mov	x1, xzr
	mov	w0, wzr
	ret
.LBB10_15:
	sub	x9, x1, #1
	ldrb	w10, [x0, x9]
	cmp	w10, #191
	b.hi	.LBB10_18
	sub	x9, x1, #2
	ldrb	w10, [x0, x9]
	cmp	w10, #223
	b.hi	.LBB10_18
	sub	x9, x1, #3
	ldrb	w10, [x0, x9]
	cmp	w10, #239
	csel	x9, x9, x1, hi
.LBB10_18:
	cmp	x9, x1
	cset	w0, hs
	csel	x1, x8, xzr, hs
	ret
.Lfunc_end10:
	.size	"utf16_from_utf8::rest::write_rest_of::<#00efe7c0aa38a8e6>", .Lfunc_end10-"utf16_from_utf8::rest::write_rest_of::<#00efe7c0aa38a8e6>"
	.cfi_endproc

	.section	.rodata.cst16,"aM",@progbits,16
	.p2align	4, 0x0
.LCPI11_0:
	.byte	1
	.byte	2
	.byte	4
	.byte	8
	.byte	16
	.byte	32
	.byte	64
	.byte	128
	.byte	1
	.byte	2
	.byte	4
	.byte	8
	.byte	16
	.byte	32
	.byte	64
	.byte	128
	.section	".text.utf16_from_utf8::rest::write_rest_of::<#639a12b236a9ca5f>","ax",@progbits
	.p2align	2
	.type	"utf16_from_utf8::rest::write_rest_of::<#639a12b236a9ca5f>",@function
"utf16_from_utf8::rest::write_rest_of::<#639a12b236a9ca5f>":
	.cfi_startproc
	movi	v0.2d, #0000000000000000
	sub	x11, x1, x2
	adrp	x9, .LCPI11_0
	cmp	x11, #16
	adrp	x10, .Lstatic.13
	add	x10, x10, :lo12:.Lstatic.13
	mov	x8, xzr
	b.hs	.LBB11_6
.LBB11_1:
	cmp	x2, x1
	b.eq	.LBB11_18
	sub	x11, x1, #16
	add	x12, x0, x11
	cmp	x11, #3
	ldr	q1, [x12]
	b.lo	.LBB11_13
	ldur	q3, [x12, #-2]
	ldur	q2, [x12, #-1]
	b	.LBB11_17
.LBB11_4:
	add	x12, x0, x2
	ldur	q3, [x12, #-2]
	ldur	q1, [x12, #-1]
.LBB11_5:
	movi	v4.16b, #223
	movi	v5.16b, #191
	sub	x11, x11, #16
	movi	v16.16b, #192
	movi	v17.16b, #224
	cmp	x11, #15
	movi	v18.16b, #127
	movi	v19.16b, #160
	add	x2, x2, #16
	cmhi	v6.16b, v1.16b, v4.16b
	cmhi	v7.16b, v2.16b, v5.16b
	uqsub	v5.16b, v1.16b, v5.16b
	umax	v20.16b, v3.16b, v17.16b
	uqsub	v3.16b, v3.16b, v4.16b
	movi	v4.16b, #237
	and	v18.16b, v2.16b, v18.16b
	cmhi	v19.16b, v19.16b, v2.16b
	orr	v6.16b, v7.16b, v6.16b
	ldr	q7, [x9, :lo12:.LCPI11_0]
	bit	v4.16b, v17.16b, v19.16b
	orr	v3.16b, v3.16b, v5.16b
	bic	v6.16b, v7.16b, v6.16b
	cmge	v7.16b, v2.16b, #0
	cmeq	v3.16b, v3.16b, #0
	addp	v6.16b, v6.16b, v6.16b
	bsl	v7.16b, v16.16b, v1.16b
	cmeq	v1.16b, v1.16b, v4.16b
	addp	v6.16b, v6.16b, v6.16b
	ushr	v21.16b, v7.16b, #2
	shl	v7.16b, v7.16b, #6
	addp	v6.16b, v6.16b, v6.16b
	sli	v21.16b, v20.16b, #4
	movi	v20.16b, #254
	add	v7.16b, v7.16b, v18.16b
	umov	w12, v6.h[0]
	and	v5.16b, v2.16b, v20.16b
	zip1	v6.16b, v21.16b, v7.16b
	cmgt	v2.16b, v16.16b, v2.16b
	and	x13, x12, #0xff
	ubfx	x12, x12, #8, #8
	ldr	q17, [x10, x13, lsl #4]
	cmeq	v5.16b, v5.16b, v16.16b
	fmov	d4, x13
	fmov	d16, x12
	eor	v2.16b, v3.16b, v2.16b
	add	x13, x3, x8
	tbl	v6.16b, { v6.16b }, v17.16b
	zip2	v3.16b, v21.16b, v7.16b
	cnt	v4.8b, v4.8b
	orr	v1.16b, v5.16b, v1.16b
	cnt	v16.8b, v16.8b
	str	q6, [x13]
	orn	v1.16b, v1.16b, v2.16b
	fmov	w14, s4
	ldr	q4, [x10, x12, lsl #4]
	fmov	w12, s16
	tbl	v2.16b, { v3.16b }, v4.16b
	umax	v0.16b, v0.16b, v1.16b
	ubfiz	x15, x14, #1, #32
	add	x12, x14, x12
	add	x8, x8, x12, lsl #1
	str	q2, [x13, x15]
	b.ls	.LBB11_1
.LBB11_6:
	ldr	q2, [x0, x2]
	cmp	x2, #3
	b.hs	.LBB11_4
	cbz	x2, .LBB11_10
	add	x12, x0, x2
	cmp	x2, #2
	sub	x12, x12, #1
	ld1r	{ v1.16b }, [x12]
	ext	v1.16b, v1.16b, v2.16b, #15
	b.ne	.LBB11_11
	ldrb	w12, [x0]
	b	.LBB11_12
.LBB11_10:
	movi	v1.2d, #0000000000000000
	mov	w12, wzr
	ext	v1.16b, v1.16b, v2.16b, #15
	b	.LBB11_12
.LBB11_11:
	mov	w12, wzr
.LBB11_12:
	dup	v3.16b, w12
	ext	v3.16b, v3.16b, v1.16b, #15
	b	.LBB11_5
.LBB11_13:
	add	x12, x0, x1
	cmp	x11, #2
	sub	x12, x12, #17
	ld1r	{ v2.16b }, [x12]
	ext	v2.16b, v2.16b, v1.16b, #15
	b.ne	.LBB11_15
	ldrb	w12, [x0]
	b	.LBB11_16
.LBB11_15:
	mov	w12, wzr
.LBB11_16:
	dup	v3.16b, w12
	ext	v3.16b, v3.16b, v2.16b, #15
.LBB11_17:
	movi	v4.16b, #223
	movi	v5.16b, #191
	sub	x11, x2, x11
	cmge	v16.16b, v1.16b, #0
	movi	v17.16b, #224
	movi	v18.16b, #127
	movi	v21.16b, #237
	cmhi	v6.16b, v2.16b, v4.16b
	cmhi	v7.16b, v1.16b, v5.16b
	uqsub	v5.16b, v2.16b, v5.16b
	umax	v19.16b, v3.16b, v17.16b
	uqsub	v3.16b, v3.16b, v4.16b
	and	v18.16b, v1.16b, v18.16b
	movi	v4.16b, #254
	orr	v6.16b, v7.16b, v6.16b
	ldr	q7, [x9, :lo12:.LCPI11_0]
	orr	v3.16b, v3.16b, v5.16b
	bic	v6.16b, v7.16b, v6.16b
	movi	v7.16b, #192
	and	v4.16b, v1.16b, v4.16b
	cmeq	v3.16b, v3.16b, #0
	addp	v6.16b, v6.16b, v6.16b
	bsl	v16.16b, v7.16b, v2.16b
	cmeq	v4.16b, v4.16b, v7.16b
	addp	v6.16b, v6.16b, v6.16b
	ushr	v20.16b, v16.16b, #2
	shl	v16.16b, v16.16b, #6
	addp	v6.16b, v6.16b, v6.16b
	sli	v20.16b, v19.16b, #4
	add	v16.16b, v16.16b, v18.16b
	umov	w12, v6.h[0]
	movi	v6.16b, #160
	cmhi	v6.16b, v6.16b, v1.16b
	lsr	x12, x12, x11
	cmgt	v1.16b, v7.16b, v1.16b
	lsl	x11, x12, x11
	mov	v5.16b, v6.16b
	zip1	v6.16b, v20.16b, v16.16b
	eor	v1.16b, v3.16b, v1.16b
	ubfx	x12, x11, #8, #32
	and	x13, x11, #0xff
	lsr	x11, x11, #8
	bsl	v5.16b, v17.16b, v21.16b
	fmov	d7, x12
	add	x12, x3, x8
	cnt	v7.8b, v7.8b
	cmeq	v2.16b, v2.16b, v5.16b
	ldr	q5, [x10, x13, lsl #4]
	tbl	v5.16b, { v6.16b }, v5.16b
	fmov	d6, x13
	orr	v2.16b, v4.16b, v2.16b
	addv	b4, v7.8b
	cnt	v3.8b, v6.8b
	zip2	v6.16b, v20.16b, v16.16b
	str	q5, [x12]
	orn	v1.16b, v2.16b, v1.16b
	ldr	q2, [x10, x11, lsl #4]
	fmov	w10, s4
	fmov	w13, s3
	tbl	v2.16b, { v6.16b }, v2.16b
	umax	v0.16b, v0.16b, v1.16b
	add	x10, x13, x10
	ubfiz	x11, x13, #1, #32
	add	x8, x8, x10, lsl #1
	str	q2, [x12, x11]
.LBB11_18:
	cmeq	v0.16b, v0.16b, #0
	ldr	q1, [x9, :lo12:.LCPI11_0]
	bic	v0.16b, v1.16b, v0.16b
	addp	v0.16b, v0.16b, v0.16b
	addp	v0.16b, v0.16b, v0.16b
	addp	v0.16b, v0.16b, v0.16b
	umov	w9, v0.h[0]
	cbz	w9, .LBB11_20
	mov	x1, xzr
	mov	w0, wzr
	ret
.LBB11_20:
	sub	x9, x1, #1
	ldrb	w10, [x0, x9]
	cmp	w10, #191
	b.hi	.LBB11_23
	sub	x9, x1, #2
	ldrb	w10, [x0, x9]
	cmp	w10, #223
	b.hi	.LBB11_23
	sub	x9, x1, #3
	ldrb	w10, [x0, x9]
	cmp	w10, #239
	csel	x9, x9, x1, hi
.LBB11_23:
	cmp	x9, x1
	cset	w0, hs
	csel	x1, x8, xzr, hs
	ret
.Lfunc_end11:
	.size	"utf16_from_utf8::rest::write_rest_of::<#639a12b236a9ca5f>", .Lfunc_end11-"utf16_from_utf8::rest::write_rest_of::<#639a12b236a9ca5f>"
	.cfi_endproc

	.section	.rodata.cst16,"aM",@progbits,16
	.p2align	4, 0x0
.LCPI12_0:
	.byte	1
	.byte	2
	.byte	4
	.byte	8
	.byte	16
	.byte	32
	.byte	64
	.byte	128
	.byte	1
	.byte	2
	.byte	4
	.byte	8
	.byte	16
	.byte	32
	.byte	64
	.byte	128
	.section	".text.utf16_from_utf8::rest::write_rest_of::<#333b1ec0269cc57c>","ax",@progbits
	.p2align	2
	.type	"utf16_from_utf8::rest::write_rest_of::<#333b1ec0269cc57c>",@function
"utf16_from_utf8::rest::write_rest_of::<#333b1ec0269cc57c>":
	.cfi_startproc
	movi	v0.2d, #0000000000000000
	sub	x11, x1, x2
	adrp	x9, .LCPI12_0
	cmp	x11, #16
	adrp	x10, .Lstatic.13
	add	x10, x10, :lo12:.Lstatic.13
	mov	x8, xzr
	b.hs	.LBB12_6
.LBB12_1:
	cmp	x2, x1
	b.eq	.LBB12_24
	sub	x11, x1, #16
	add	x12, x0, x11
	cmp	x11, #3
	ldr	q1, [x12]
	b.lo	.LBB12_16
	ldur	q5, [x12, #-3]
	ldur	q2, [x12, #-2]
	ldur	q3, [x12, #-1]
	b	.LBB12_20
.LBB12_4:
	movi	v7.16b, #223
	movi	v16.16b, #191
	movi	v18.16b, #239
	movi	v22.16b, #160
	movi	v23.16b, #144
	movi	v6.16b, #192
	cmge	v17.16b, v1.16b, #0
	movi	v21.16b, #224
	movi	v26.16b, #240
	movi	v27.16b, #237
	movi	v25.16b, #64
	shl	v24.16b, v2.16b, #2
	uqsub	v19.16b, v2.16b, v16.16b
	uqsub	v20.16b, v3.16b, v7.16b
	uqsub	v5.16b, v5.16b, v18.16b
	cmhi	v7.16b, v2.16b, v7.16b
	cmhi	v16.16b, v1.16b, v16.16b
	bsl	v17.16b, v6.16b, v2.16b
	movi	v28.16b, #231
	cmhi	v24.16b, v25.16b, v24.16b
	ushr	v25.16b, v1.16b, #4
	umax	v18.16b, v19.16b, v20.16b
	cmhi	v20.16b, v22.16b, v1.16b
	cmhi	v22.16b, v23.16b, v1.16b
	movi	v19.16b, #244
	orr	v7.16b, v16.16b, v7.16b
	movi	v23.16b, #232
	sli	v25.16b, v2.16b, #2
	orr	v5.16b, v18.16b, v5.16b
	mov	v16.16b, v20.16b
	mov	v18.16b, v22.16b
	movi	v20.16b, #254
	umax	v22.16b, v17.16b, v3.16b
	bic	v4.16b, v4.16b, v7.16b
	cmgt	v7.16b, v6.16b, v1.16b
	bit	v23.16b, v28.16b, v24.16b
	movi	v24.16b, #127
	bsl	v16.16b, v21.16b, v27.16b
	bsl	v18.16b, v26.16b, v19.16b
	cmeq	v5.16b, v5.16b, #0
	umax	v21.16b, v3.16b, v21.16b
	ushr	v27.16b, v17.16b, #2
	addp	v4.16b, v4.16b, v4.16b
	and	v20.16b, v1.16b, v20.16b
	shl	v17.16b, v17.16b, #6
	eor	v5.16b, v5.16b, v7.16b
	cmhi	v7.16b, v6.16b, v22.16b
	cmeq	v16.16b, v2.16b, v16.16b
	cmeq	v18.16b, v2.16b, v18.16b
	movi	v2.16b, #220
	sli	v27.16b, v21.16b, #4
	addp	v4.16b, v4.16b, v4.16b
	orr	v16.16b, v18.16b, v16.16b
	cmhi	v18.16b, v1.16b, v19.16b
	cmeq	v19.16b, v20.16b, v6.16b
	and	v1.16b, v1.16b, v24.16b
	and	v2.16b, v7.16b, v2.16b
	add	v6.16b, v25.16b, v6.16b
	addp	v4.16b, v4.16b, v4.16b
	orn	v5.16b, v19.16b, v5.16b
	orr	v7.16b, v16.16b, v18.16b
	cmhi	v16.16b, v26.16b, v3.16b
	add	v1.16b, v17.16b, v1.16b
	orr	v2.16b, v27.16b, v2.16b
	add	v3.16b, v23.16b, v3.16b
	umov	w12, v4.h[0]
	orr	v5.16b, v7.16b, v5.16b
	bif	v1.16b, v6.16b, v16.16b
	bif	v2.16b, v3.16b, v16.16b
	umax	v0.16b, v0.16b, v5.16b
.LBB12_5:
	zip1	v3.16b, v2.16b, v1.16b
	and	x13, x12, #0xff
	lsr	x12, x12, #8
	ldr	q4, [x10, x13, lsl #4]
	zip2	v1.16b, v2.16b, v1.16b
	sub	x11, x11, #16
	fmov	d5, x12
	cmp	x11, #15
	add	x2, x2, #16
	tbl	v3.16b, { v3.16b }, v4.16b
	fmov	d4, x13
	add	x13, x3, x8
	cnt	v5.8b, v5.8b
	cnt	v4.8b, v4.8b
	str	q3, [x13]
	ldr	q2, [x10, x12, lsl #4]
	fmov	w14, s5
	fmov	w12, s4
	tbl	v1.16b, { v1.16b }, v2.16b
	ubfiz	x15, x12, #1, #32
	add	x12, x12, x14
	add	x8, x8, x12, lsl #1
	str	q1, [x13, x15]
	b.ls	.LBB12_1
.LBB12_6:
	ldr	q1, [x0, x2]
	cmp	x2, #3
	b.lo	.LBB12_8
	add	x12, x0, x2
	ldur	q5, [x12, #-3]
	ldur	q3, [x12, #-2]
	ldur	q2, [x12, #-1]
	b	.LBB12_14
.LBB12_8:
	cbz	x2, .LBB12_11
	add	x12, x0, x2
	cmp	x2, #2
	sub	x12, x12, #1
	ld1r	{ v2.16b }, [x12]
	ext	v2.16b, v2.16b, v1.16b, #15
	b.ne	.LBB12_12
	ldrb	w12, [x0]
	b	.LBB12_13
.LBB12_11:
	movi	v2.2d, #0000000000000000
	mov	w12, wzr
	ext	v2.16b, v2.16b, v1.16b, #15
	b	.LBB12_13
.LBB12_12:
	mov	w12, wzr
.LBB12_13:
	dup	v3.16b, w12
	movi	v4.2d, #0000000000000000
	ext	v3.16b, v3.16b, v2.16b, #15
	ext	v5.16b, v4.16b, v3.16b, #15
.LBB12_14:
	orr	v4.16b, v5.16b, v1.16b
	cmlt	v6.16b, v4.16b, #0
	ldr	q4, [x9, :lo12:.LCPI12_0]
	and	v6.16b, v6.16b, v4.16b
	addp	v6.16b, v6.16b, v6.16b
	addp	v6.16b, v6.16b, v6.16b
	addp	v6.16b, v6.16b, v6.16b
	umov	w12, v6.h[0]
	cbnz	w12, .LBB12_4
	movi	v2.2d, #0000000000000000
	mov	w12, #65535
	b	.LBB12_5
.LBB12_16:
	add	x12, x0, x1
	cmp	x11, #2
	sub	x12, x12, #17
	ld1r	{ v2.16b }, [x12]
	ext	v3.16b, v2.16b, v1.16b, #15
	b.ne	.LBB12_18
	ldrb	w12, [x0]
	b	.LBB12_19
.LBB12_18:
	mov	w12, wzr
.LBB12_19:
	dup	v2.16b, w12
	movi	v4.2d, #0000000000000000
	ext	v2.16b, v2.16b, v3.16b, #15
	ext	v5.16b, v4.16b, v2.16b, #15
.LBB12_20:
	orr	v4.16b, v5.16b, v1.16b
	cmlt	v6.16b, v4.16b, #0
	ldr	q4, [x9, :lo12:.LCPI12_0]
	and	v6.16b, v6.16b, v4.16b
	addp	v6.16b, v6.16b, v6.16b
	addp	v6.16b, v6.16b, v6.16b
	addp	v6.16b, v6.16b, v6.16b
	umov	w12, v6.h[0]
	cbz	w12, .LBB12_22
	movi	v7.16b, #223
	movi	v16.16b, #191
	movi	v18.16b, #239
	movi	v22.16b, #160
	movi	v23.16b, #144
	movi	v6.16b, #192
	cmge	v17.16b, v1.16b, #0
	movi	v21.16b, #224
	movi	v26.16b, #240
	movi	v27.16b, #237
	movi	v25.16b, #64
	shl	v24.16b, v3.16b, #2
	uqsub	v19.16b, v3.16b, v16.16b
	uqsub	v20.16b, v2.16b, v7.16b
	uqsub	v5.16b, v5.16b, v18.16b
	cmhi	v7.16b, v3.16b, v7.16b
	cmhi	v16.16b, v1.16b, v16.16b
	bsl	v17.16b, v6.16b, v3.16b
	movi	v28.16b, #231
	cmhi	v24.16b, v25.16b, v24.16b
	ushr	v25.16b, v1.16b, #4
	umax	v18.16b, v19.16b, v20.16b
	cmhi	v20.16b, v22.16b, v1.16b
	cmhi	v22.16b, v23.16b, v1.16b
	movi	v19.16b, #244
	orr	v7.16b, v16.16b, v7.16b
	movi	v23.16b, #232
	sli	v25.16b, v3.16b, #2
	orr	v5.16b, v18.16b, v5.16b
	mov	v16.16b, v20.16b
	mov	v18.16b, v22.16b
	movi	v20.16b, #254
	umax	v22.16b, v17.16b, v2.16b
	bic	v4.16b, v4.16b, v7.16b
	cmgt	v7.16b, v6.16b, v1.16b
	bit	v23.16b, v28.16b, v24.16b
	movi	v24.16b, #127
	bsl	v16.16b, v21.16b, v27.16b
	bsl	v18.16b, v26.16b, v19.16b
	cmeq	v5.16b, v5.16b, #0
	umax	v21.16b, v2.16b, v21.16b
	ushr	v27.16b, v17.16b, #2
	addp	v4.16b, v4.16b, v4.16b
	and	v20.16b, v1.16b, v20.16b
	shl	v17.16b, v17.16b, #6
	eor	v5.16b, v5.16b, v7.16b
	cmhi	v7.16b, v6.16b, v22.16b
	cmeq	v16.16b, v3.16b, v16.16b
	cmeq	v18.16b, v3.16b, v18.16b
	movi	v3.16b, #220
	sli	v27.16b, v21.16b, #4
	addp	v4.16b, v4.16b, v4.16b
	orr	v16.16b, v18.16b, v16.16b
	cmhi	v18.16b, v1.16b, v19.16b
	cmeq	v19.16b, v20.16b, v6.16b
	and	v1.16b, v1.16b, v24.16b
	and	v3.16b, v7.16b, v3.16b
	add	v6.16b, v25.16b, v6.16b
	addp	v4.16b, v4.16b, v4.16b
	orn	v5.16b, v19.16b, v5.16b
	orr	v7.16b, v16.16b, v18.16b
	cmhi	v16.16b, v26.16b, v2.16b
	add	v1.16b, v17.16b, v1.16b
	orr	v3.16b, v27.16b, v3.16b
	add	v2.16b, v23.16b, v2.16b
	umov	w12, v4.h[0]
	orr	v5.16b, v7.16b, v5.16b
	bif	v1.16b, v6.16b, v16.16b
	bit	v2.16b, v3.16b, v16.16b
	umax	v0.16b, v0.16b, v5.16b
	b	.LBB12_23
.LBB12_22:
	movi	v2.2d, #0000000000000000
	mov	w12, #65535
.LBB12_23:
	sub	x11, x2, x11
	zip1	v3.16b, v2.16b, v1.16b
	zip2	v1.16b, v2.16b, v1.16b
	lsr	x12, x12, x11
	lsl	x11, x12, x11
	ubfx	x12, x11, #8, #32
	and	x13, x11, #0xff
	lsr	x11, x11, #8
	ldr	q5, [x10, x13, lsl #4]
	fmov	d4, x12
	add	x12, x3, x8
	tbl	v3.16b, { v3.16b }, v5.16b
	fmov	d5, x13
	cnt	v4.8b, v4.8b
	cnt	v5.8b, v5.8b
	str	q3, [x12]
	ldr	q2, [x10, x11, lsl #4]
	addv	b4, v4.8b
	fmov	w13, s5
	tbl	v1.16b, { v1.16b }, v2.16b
	fmov	w10, s4
	ubfiz	x11, x13, #1, #32
	add	x10, x13, x10
	str	q1, [x12, x11]
	add	x8, x8, x10, lsl #1
.LBB12_24:
	cmeq	v0.16b, v0.16b, #0
	ldr	q1, [x9, :lo12:.LCPI12_0]
	bic	v0.16b, v1.16b, v0.16b
	addp	v0.16b, v0.16b, v0.16b
	addp	v0.16b, v0.16b, v0.16b
	addp	v0.16b, v0.16b, v0.16b
	umov	w9, v0.h[0]
	cbz	w9, .LBB12_26
	mov	x1, xzr
	mov	w0, wzr
	ret
.LBB12_26:
	sub	x9, x1, #1
	ldrb	w10, [x0, x9]
	cmp	w10, #191
	b.hi	.LBB12_29
	sub	x9, x1, #2
	ldrb	w10, [x0, x9]
	cmp	w10, #223
	b.hi	.LBB12_29
	sub	x9, x1, #3
	ldrb	w10, [x0, x9]
	cmp	w10, #239
	csel	x9, x9, x1, hi
.LBB12_29:
	cmp	x9, x1
	cset	w0, hs
	csel	x1, x8, xzr, hs
	ret
.Lfunc_end12:
	.size	"utf16_from_utf8::rest::write_rest_of::<#333b1ec0269cc57c>", .Lfunc_end12-"utf16_from_utf8::rest::write_rest_of::<#333b1ec0269cc57c>"
	.cfi_endproc

	.section	.rodata.cst16,"aM",@progbits,16
	.p2align	4, 0x0
.LCPI13_0:
	.byte	1
	.byte	2
	.byte	4
	.byte	8
	.byte	16
	.byte	32
	.byte	64
	.byte	128
	.byte	1
	.byte	2
	.byte	4
	.byte	8
	.byte	16
	.byte	32
	.byte	64
	.byte	128
	.section	".text.utf16_transcode::transcoding::transcode_many::<#824f73f0383279b7>","ax",@progbits
	.p2align	2
	.type	"utf16_transcode::transcoding::transcode_many::<#824f73f0383279b7>",@function
"utf16_transcode::transcoding::transcode_many::<#824f73f0383279b7>":
	.cfi_startproc
	sub	sp, sp, #416
	.cfi_def_cfa_offset 416
	stp	x29, x30, [sp, #320]
	stp	x28, x27, [sp, #336]
	stp	x26, x25, [sp, #352]
	stp	x24, x23, [sp, #368]
	stp	x22, x21, [sp, #384]
	stp	x20, x19, [sp, #400]
	add	x29, sp, #320
	.cfi_def_cfa w29, 96
	.cfi_offset w19, -8
	.cfi_offset w20, -16
	.cfi_offset w21, -24
	.cfi_offset w22, -32
	.cfi_offset w23, -40
	.cfi_offset w24, -48
	.cfi_offset w25, -56
	.cfi_offset w26, -64
	.cfi_offset w27, -72
	.cfi_offset w28, -80
	.cfi_offset w30, -88
	.cfi_offset w29, -96
	.cfi_remember_state
	add	x8, x1, x5
	mov	x20, x6
	mov	x25, x5
	ldrsb	w10, [x8]
	mov	x21, x4
	mov	x22, x1
	mov	x24, x3
	mov	x23, x2
	mov	x19, x0
	tbnz	w10, #31, .LBB13_152
.LBB13_1:
	cmp	x23, x25
	b.hi	.LBB13_4
.LBB13_2:
	stp	x25, x20, [x19]
	strh	wzr, [x19, #16]
	b	.LBB13_188
.LBB13_3:
	mov	w12, #67043328
	mov	w13, #56320
	mov	w14, #-10240
	add	w12, w9, w12
	bfxil	w13, w9, #0, #10
	add	w9, w14, w12, lsr #10
	rev16	w12, w13
	rev16	w9, w9
	strh	w12, [x11, #2]
	mov	w12, #4
	add	x25, x10, x8
	add	x20, x12, x20
	strh	w9, [x11]
	cmp	x25, x23
	b.hs	.LBB13_2
.LBB13_4:
	sub	x27, x23, x25
	add	x28, x22, x25
	cmp	x27, #16
	b.lo	.LBB13_6
	add	x0, x22, x25
	sub	x1, x23, x25
	add	x2, x24, x20
	sub	x3, x21, x20
	bl	"utf16_transcode::encode::FromUtf8Direction::write_front::<#8b18edd9dd9aa8df>"
	mov	x26, x0
	add	x20, x1, x20
	subs	x1, x27, x0
	b.ne	.LBB13_7
	b	.LBB13_11
.LBB13_6:
	mov	x26, xzr
	subs	x1, x27, xzr
	b.eq	.LBB13_11
.LBB13_7:
	cmp	x1, #7
	add	x27, x28, x26
	b.hi	.LBB13_22
.LBB13_8:
	mov	x0, x27
	mov	x2, x24
	mov	x3, x21
	mov	x4, x20
	bl	"utf16_transcode::transcoding::write_chars::<#824f73f0383279b7>"
.LBB13_9:
	mov	x20, x1
.LBB13_10:
	add	x27, x0, x26
.LBB13_11:
	add	x8, x27, x25
	subs	x11, x23, x8
	b.eq	.LBB13_164
	add	x10, x22, x8
	ldrsb	w12, [x10]
	and	w9, w12, #0xff
	tbnz	w12, #31, .LBB13_17
	mov	w10, #1
.LBB13_14:
	cmp	w9, #16, lsl #12
	mov	w11, #4
	mov	w12, #2
	sub	x13, x21, x20
	csel	x11, x12, x11, lo
	cmp	x13, x11
	b.lo	.LBB13_165
	lsr	w12, w9, #16
	add	x11, x24, x20
	cbnz	w12, .LBB13_3
	rev16	w9, w9
	mov	w12, #2
	add	x25, x10, x8
	add	x20, x12, x20
	strh	w9, [x11]
	cmp	x25, x23
	b.lo	.LBB13_4
	b	.LBB13_2
.LBB13_17:
	cmp	x11, #3
	b.lo	.LBB13_27
	add	w12, w9, #31
	and	w12, w12, #0xff
	cmp	w12, #11
	b.hi	.LBB13_28
	ldrsb	w12, [x10, #1]
	cmn	w12, #65
	b.gt	.LBB13_28
	ldrsb	w13, [x10, #2]
	cmn	w13, #65
	b.gt	.LBB13_28
	lsl	w9, w9, #12
	and	w10, w12, #0xff
	and	w11, w13, #0xff
	add	w9, w9, w10, lsl #6
	mov	w10, #57216
	movk	w10, #65521, lsl #16
	add	w10, w11, w10
	b	.LBB13_34
.LBB13_22:
	cmp	x1, #128
	mov	w8, #128
	sub	x14, x21, x20
	csel	x28, x1, x8, lo
	subs	x8, x14, #16
	csel	x8, xzr, x8, lo
	cmp	x28, x8, lsr #1
	b.ls	.LBB13_40
	cmp	x14, #23
	b.ls	.LBB13_8
	movi	v0.2d, #0000000000000000
	cmp	x1, #15
	str	wzr, [sp, #304]
	stp	q0, q0, [sp, #48]
	stp	q0, q0, [sp, #80]
	stp	q0, q0, [sp, #112]
	stp	q0, q0, [sp, #144]
	stp	q0, q0, [sp, #176]
	stp	q0, q0, [sp, #208]
	stp	q0, q0, [sp, #240]
	stp	q0, q0, [sp, #272]
	str	q0, [sp, #32]
	b.hi	.LBB13_66
	add	x2, sp, #32
	mov	x0, x27
	mov	x3, x24
	mov	x4, x21
	mov	x5, x20
.LBB13_26:
	bl	"utf16_transcode::transcoding::write_buffered_text::<#824f73f0383279b7>"
	b	.LBB13_9
.LBB13_27:
	cmp	x11, #2
	b.ne	.LBB13_184
.LBB13_28:
	lsr	w13, w9, #4
	ldrb	w12, [x10, #1]
	and	w13, w13, #0xc
	orr	w13, w13, w12, lsr #6
	cmp	w13, #14
	b.ne	.LBB13_176
	add	w13, w9, #31
	and	w13, w13, #0xff
	cmp	w13, #12
	b.hs	.LBB13_35
.LBB13_30:
	cmp	x11, #2
	b.eq	.LBB13_177
	ldrsb	w13, [x10, #2]
	cmn	w13, #65
	b.gt	.LBB13_180
	cmp	w9, #239
	and	w13, w13, #0xff
	b.hi	.LBB13_42
	lsl	w9, w9, #12
	mov	w10, #57216
	movk	w10, #65521, lsl #16
	add	w9, w9, w12, lsl #6
	add	w10, w13, w10
.LBB13_34:
	add	w9, w9, w10
	mov	w10, #3
	b	.LBB13_14
.LBB13_35:
	add	w13, w9, #62
	and	w14, w13, #0xff
	cmp	w14, #30
	b.lo	.LBB13_85
	cmp	w9, #239
	b.gt	.LBB13_60
	cmp	w9, #224
	b.eq	.LBB13_79
	cmp	w9, #237
	b.ne	.LBB13_77
	mov	w14, #159
	b	.LBB13_78
.LBB13_40:
	mov	x0, x27
	cmp	x1, #63
	b.hi	.LBB13_45
	mov	x1, x28
	bl	"utf16_transcode::encode::valid_prefix"
	b	.LBB13_47
.LBB13_42:
	cmp	x11, #4
	b.lo	.LBB13_177
	ldrsb	w10, [x10, #3]
	cmn	w10, #65
	b.gt	.LBB13_185
	lsl	w9, w9, #18
	mov	w11, #57216
	and	w10, w10, #0xff
	movk	w11, #64567, lsl #16
	add	w9, w9, w12, lsl #12
	add	w10, w10, w11
	add	w9, w9, w13, lsl #6
	add	w9, w9, w10
	mov	w10, #4
	b	.LBB13_14
.LBB13_45:
	mov	w1, #63
	bl	"utf16_transcode::encode::valid_prefix"
	add	x8, x0, #4
	cmp	x8, #64
	b.lo	.LBB13_47
	sub	x1, x28, x0
	mov	x28, x0
	add	x0, x27, x0
	bl	"utf16_transcode::encode::valid_prefix"
	add	x0, x0, x28
.LBB13_47:
	cbz	x0, .LBB13_10
	cmp	x0, #7
	add	x8, x24, x20
	b.hi	.LBB13_63
	mov	x5, xzr
	mov	x9, x0
	b	.LBB13_51
.LBB13_50:
	mov	w13, #67043328
	mov	w14, #-10240
	add	w10, w10, w13
	mov	w13, #56320
	add	w10, w14, w10, lsr #10
	orr	w12, w12, w13
	rev16	w12, w12
	rev	w10, w10
	strh	w12, [x11, #2]
	lsr	w10, w10, #16
	strh	w10, [x11]
	mov	w10, #4
	add	x5, x10, x5
	cbz	x9, .LBB13_104
.LBB13_51:
	ldrsb	w11, [x27]
	and	w10, w11, #0xff
	tbnz	w11, #31, .LBB13_53
	mov	w12, #1
	b	.LBB13_57
.LBB13_53:
	ldrb	w11, [x27, #1]
	cmp	w10, #223
	and	w11, w11, #0x3f
	b.hi	.LBB13_55
	bfi	w11, w10, #6, #5
	mov	w12, #2
	mov	w10, w11
	b	.LBB13_57
.LBB13_55:
	ldrb	w12, [x27, #2]
	cmp	w10, #239
	and	w12, w12, #0x3f
	b.hi	.LBB13_59
	ubfiz	w10, w10, #12, #4
	orr	w10, w10, w11, lsl #6
	orr	w10, w10, w12
	mov	w12, #3
.LBB13_57:
	add	x27, x27, x12
	sub	x9, x9, x12
	add	x11, x8, x5
.LBB13_58:
	rev	w10, w10
	lsr	w10, w10, #16
	strh	w10, [x11]
	mov	w10, #2
	add	x5, x10, x5
	cbnz	x9, .LBB13_51
	b	.LBB13_104
.LBB13_59:
	ldrb	w13, [x27, #3]
	ubfiz	w10, w10, #18, #3
	add	x27, x27, #4
	sub	x9, x9, #4
	and	w13, w13, #0x3f
	orr	w10, w10, w11, lsl #12
	add	x11, x8, x5
	orr	w12, w13, w12, lsl #6
	lsr	w13, w10, #16
	orr	w10, w12, w10
	cbz	w13, .LBB13_58
	b	.LBB13_50
.LBB13_60:
	cmp	w9, #240
	b.eq	.LBB13_80
	cmp	w9, #244
	b.ne	.LBB13_77
	mov	w14, #143
	b	.LBB13_78
.LBB13_63:
	lsl	x5, x0, #1
	cmp	x0, #16
	b.hi	.LBB13_71
	add	x9, x27, x0
	ldr	d0, [x27]
	ldur	d1, [x9, #-8]
	adrp	x9, .Lstatic.11
	add	x9, x9, :lo12:.Lstatic.11
	add	x9, x9, x0, lsl #4
	mov	v0.d[1], v1.d[0]
	ldur	q1, [x9, #-128]
	adrp	x9, .LCPI13_0
	tbl	v1.16b, { v0.16b }, v1.16b
	ldr	q0, [x9, :lo12:.LCPI13_0]
	cmlt	v2.16b, v1.16b, #0
	and	v2.16b, v2.16b, v0.16b
	addp	v2.16b, v2.16b, v2.16b
	addp	v2.16b, v2.16b, v2.16b
	addp	v2.16b, v2.16b, v2.16b
	umov	w9, v2.h[0]
	cbz	w9, .LBB13_95
	adrp	x9, .Lstatic.12
	add	x9, x9, :lo12:.Lstatic.12
	movi	v3.2d, #0000000000000000
	sub	x9, x9, x0
	movi	v6.16b, #223
	movi	v7.16b, #191
	ldr	q2, [x9, #16]
	movi	v16.16b, #224
	movi	v17.16b, #64
	movi	v20.16b, #232
	movi	v21.16b, #231
	movi	v22.16b, #220
	umax	v2.16b, v1.16b, v2.16b
	movi	v1.16b, #192
	adrp	x11, .Lstatic.13
	add	x11, x11, :lo12:.Lstatic.13
	ext	v4.16b, v3.16b, v2.16b, #15
	cmge	v5.16b, v2.16b, #0
	cmhi	v7.16b, v2.16b, v7.16b
	ext	v3.16b, v3.16b, v4.16b, #15
	bsl	v5.16b, v1.16b, v4.16b
	cmhi	v6.16b, v4.16b, v6.16b
	shl	v18.16b, v4.16b, #2
	orr	v6.16b, v7.16b, v6.16b
	umax	v7.16b, v3.16b, v16.16b
	umax	v16.16b, v5.16b, v3.16b
	cmhi	v17.16b, v17.16b, v18.16b
	ushr	v19.16b, v5.16b, #2
	movi	v18.16b, #127
	shl	v5.16b, v5.16b, #6
	bic	v0.16b, v0.16b, v6.16b
	cmhi	v6.16b, v1.16b, v16.16b
	ushr	v16.16b, v2.16b, #4
	bsl	v17.16b, v21.16b, v20.16b
	sli	v19.16b, v7.16b, #4
	addp	v0.16b, v0.16b, v0.16b
	and	v2.16b, v2.16b, v18.16b
	sli	v16.16b, v4.16b, #2
	movi	v4.16b, #240
	and	v6.16b, v6.16b, v22.16b
	add	v7.16b, v17.16b, v3.16b
	addp	v0.16b, v0.16b, v0.16b
	add	v2.16b, v5.16b, v2.16b
	orr	v6.16b, v19.16b, v6.16b
	cmhi	v3.16b, v4.16b, v3.16b
	add	v1.16b, v16.16b, v1.16b
	addp	v0.16b, v0.16b, v0.16b
	mov	v4.16b, v3.16b
	bit	v1.16b, v2.16b, v3.16b
	umov	w9, v0.h[0]
	bsl	v4.16b, v6.16b, v7.16b
	and	x10, x9, #0xff
	ubfx	x9, x9, #8, #8
	ldr	q2, [x11, x10, lsl #4]
	zip1	v0.16b, v4.16b, v1.16b
	fmov	d3, x9
	zip2	v1.16b, v4.16b, v1.16b
	cnt	v3.8b, v3.8b
	tbl	v0.16b, { v0.16b }, v2.16b
	fmov	d2, x10
	cnt	v2.8b, v2.8b
	fmov	w10, s3
	str	q0, [x8]
	ldr	q0, [x11, x9, lsl #4]
	fmov	w9, s2
	tbl	v0.16b, { v1.16b }, v0.16b
	ubfiz	x11, x9, #1, #32
	add	x9, x9, x10
	lsl	x5, x9, #1
	str	q0, [x8, x11]
	add	x20, x5, x20
	b	.LBB13_10
.LBB13_66:
	ldrsb	w8, [x27]
	tbnz	w8, #31, .LBB13_86
	mov	w8, #1
.LBB13_68:
	add	x8, x27, x8
	ldrsb	w9, [x8]
	tbnz	w9, #31, .LBB13_89
.LBB13_69:
	cmp	x14, #65
	mov	w8, #130
	mov	w9, #66
	csel	x8, x9, x8, lo
	str	x1, [sp, #8]
	add	x2, sp, #32
	cmp	x8, x1
	mov	x0, x27
	mov	w3, #276
	csel	x1, x8, x1, lo
	bl	"utf16_transcode::encode::FromUtf8Direction::write_front::<#8b18edd9dd9aa8df>"
	sub	x8, x21, x20
	cmp	x1, x8
	b.ls	.LBB13_92
	and	x8, x8, #0xfffffffffffffffe
	add	x9, sp, #32
	add	x0, sp, #32
	ldrb	w9, [x9, x8]
	sub	x10, x8, #2
	and	w9, w9, #0xfc
	cmp	w9, #220
	csel	x28, x10, x8, eq
	mov	x1, x28
	bl	"utf16_to_utf8::lens::utf8_len::<#8b18edd9dd9aa8df>"
	b	.LBB13_93
.LBB13_71:
	add	x28, x5, #16
	lsr	x9, x28, #1
	cmp	x9, x0
	csel	x4, x9, x0, lo
	cmp	x28, #32
	b.lo	.LBB13_73
	ldr	q1, [x27]
	adrp	x9, .LCPI13_0
	ldr	q0, [x9, :lo12:.LCPI13_0]
	cmlt	v2.16b, v1.16b, #0
	and	v2.16b, v2.16b, v0.16b
	addp	v2.16b, v2.16b, v2.16b
	addp	v2.16b, v2.16b, v2.16b
	addp	v2.16b, v2.16b, v2.16b
	umov	w9, v2.h[0]
	cbz	w9, .LBB13_111
.LBB13_73:
	mov	x4, xzr
.LBB13_74:
	lsl	x5, x4, #1
	subs	x8, x0, x4
	b.eq	.LBB13_104
	add	x2, x24, x20
	cmp	x8, #191
	str	x0, [sp, #24]
	b.hi	.LBB13_101
	mov	x0, x27
	ldr	x27, [sp, #24]
	mov	x3, x28
	mov	x1, x27
	bl	"utf16_from_utf8::rest::write_rest::<#8b18edd9dd9aa8df>"
	mov	x0, x27
	b	.LBB13_103
.LBB13_77:
	mov	w14, #191
.LBB13_78:
	mov	w15, #128
	b	.LBB13_81
.LBB13_79:
	mov	w14, #191
	mov	w15, #160
	b	.LBB13_81
.LBB13_80:
	mov	w14, #191
	mov	w15, #144
.LBB13_81:
	and	w13, w13, #0xff
	cmp	w13, #50
	mov	w13, #1
	b.hi	.LBB13_198
	cmp	w15, w12
	b.hi	.LBB13_198
	cmp	w12, w14
	mov	w14, #1
	b.hi	.LBB13_187
	cmp	w9, #223
	b.hi	.LBB13_30
.LBB13_85:
	add	w9, w12, w9, lsl #6
	mov	w10, #-12416
	add	w9, w9, w10
	mov	w10, #2
	b	.LBB13_14
.LBB13_86:
	and	w8, w8, #0xff
	cmp	w8, #225
	b.hs	.LBB13_97
	lsr	w10, w8, #4
	ldrb	w9, [x27, #1]
	and	w10, w10, #0xc
	orr	w10, w10, w9, lsr #6
	cmp	w10, #14
	b.ne	.LBB13_8
	add	w10, w8, #62
	and	w11, w10, #0xff
	cmp	w11, #30
	b.hs	.LBB13_116
	b	.LBB13_133
.LBB13_89:
	and	w9, w9, #0xff
	add	w10, w9, #31
	and	w11, w10, #0xff
	ldrb	w10, [x8, #1]
	cmp	w11, #11
	b.hi	.LBB13_105
	sxtb	w9, w10
	cmn	w9, #65
	b.gt	.LBB13_8
	ldrsb	w8, [x8, #2]
	cmn	w8, #64
	b.ge	.LBB13_8
	b	.LBB13_69
.LBB13_92:
	mov	x28, x1
.LBB13_93:
	add	x8, x28, x20
	add	x1, sp, #32
	mov	x2, x28
	stp	x8, x0, [sp, #16]
	add	x0, x24, x20
	bl	memcpy
	ldr	x0, [sp, #24]
	cbz	x0, .LBB13_96
	ldr	x20, [sp, #16]
	b	.LBB13_10
.LBB13_95:
	shll	v0.8h, v1.8b, #8
	shll2	v1.8h, v1.16b, #8
	add	x20, x5, x20
	stp	q0, q1, [x8]
	b	.LBB13_10
.LBB13_96:
	ldp	x1, x5, [sp, #8]
	add	x2, sp, #32
	mov	x0, x27
	mov	x3, x24
	mov	x4, x21
	b	.LBB13_26
.LBB13_97:
	ldrsb	w9, [x27, #1]
	cmp	w8, #236
	b.hi	.LBB13_114
	cmn	w9, #65
	b.gt	.LBB13_8
	ldrsb	w8, [x27, #2]
	cmn	w8, #64
	b.ge	.LBB13_8
.LBB13_100:
	mov	w8, #3
	b	.LBB13_68
.LBB13_101:
	ldr	x1, [sp, #24]
	mov	x0, x27
	mov	x3, x28
	bl	"utf16_from_utf8::blocks::write_mixed_blocks::<#8b18edd9dd9aa8df>"
	mov	x4, x0
	ldr	x0, [sp, #24]
	mov	x5, x1
	sub	x8, x0, x4
	cmp	x8, #191
	b.hi	.LBB13_104
	ldr	x1, [sp, #24]
	add	x2, x24, x20
	mov	x0, x27
	mov	x3, x28
	bl	"utf16_from_utf8::rest::write_rest::<#8b18edd9dd9aa8df>"
	ldr	x0, [sp, #24]
.LBB13_103:
	mov	x5, x1
.LBB13_104:
	add	x20, x5, x20
	b	.LBB13_10
.LBB13_105:
	lsr	w11, w9, #4
	and	w11, w11, #0xc
	orr	w11, w11, w10, lsr #6
	cmp	w11, #14
	b.ne	.LBB13_8
	add	w11, w9, #62
	and	w12, w11, #0xff
	cmp	w12, #30
	b.lo	.LBB13_69
	cmp	w9, #239
	b.gt	.LBB13_138
	cmp	w9, #224
	b.eq	.LBB13_143
	cmp	w9, #237
	b.ne	.LBB13_141
	mov	w12, #159
	b	.LBB13_142
.LBB13_111:
	cmp	x4, #31
	b.hi	.LBB13_120
	shll	v2.8h, v1.8b, #8
	shll2	v1.8h, v1.16b, #8
	sub	x9, x4, #16
	stp	q2, q1, [x8]
	ldr	q1, [x27, x9]
	cmlt	v2.16b, v1.16b, #0
	and	v0.16b, v2.16b, v0.16b
	addp	v0.16b, v0.16b, v0.16b
	addp	v0.16b, v0.16b, v0.16b
	addp	v0.16b, v0.16b, v0.16b
	umov	w10, v0.h[0]
	cbz	w10, .LBB13_124
	mov	w4, #16
	b	.LBB13_74
.LBB13_114:
	cmn	w9, #65
	b.gt	.LBB13_8
	add	w10, w8, #62
.LBB13_116:
	cmp	w8, #239
	b.gt	.LBB13_121
	cmp	w8, #224
	b.eq	.LBB13_127
	cmp	w8, #237
	b.ne	.LBB13_125
	mov	w11, #159
	b	.LBB13_126
.LBB13_120:
	add	x2, x24, x20
	str	x0, [sp, #24]
	mov	x0, x27
	mov	x1, x4
	bl	"utf16_from_utf8::ascii::write_front::<#8b18edd9dd9aa8df>"
	mov	x4, x0
	ldr	x0, [sp, #24]
	b	.LBB13_74
.LBB13_121:
	cmp	w8, #240
	b.eq	.LBB13_128
	cmp	w8, #244
	b.ne	.LBB13_125
	mov	w11, #143
	b	.LBB13_126
.LBB13_124:
	shll	v0.8h, v1.8b, #8
	shll2	v1.8h, v1.16b, #8
	add	x8, x8, x9, lsl #1
	stp	q0, q1, [x8]
	b	.LBB13_74
.LBB13_125:
	mov	w11, #191
.LBB13_126:
	mov	w12, #128
	b	.LBB13_129
.LBB13_127:
	mov	w11, #191
	mov	w12, #160
	b	.LBB13_129
.LBB13_128:
	mov	w11, #191
	mov	w12, #144
.LBB13_129:
	and	w10, w10, #0xff
	cmp	w10, #50
	b.hi	.LBB13_8
	cmp	w12, w9, uxtb
	b.hi	.LBB13_8
	cmp	w11, w9, uxtb
	b.lo	.LBB13_8
	cmp	w8, #224
	b.hs	.LBB13_134
.LBB13_133:
	mov	w8, #2
	b	.LBB13_68
.LBB13_134:
	ldrsb	w9, [x27, #2]
	cmn	w9, #65
	b.gt	.LBB13_8
	cmp	w8, #240
	b.lo	.LBB13_100
	ldrsb	w8, [x27, #3]
	cmn	w8, #65
	b.gt	.LBB13_8
	mov	w8, #4
	b	.LBB13_68
.LBB13_138:
	cmp	w9, #240
	b.eq	.LBB13_144
	cmp	w9, #244
	b.ne	.LBB13_141
	mov	w12, #143
	b	.LBB13_142
.LBB13_141:
	mov	w12, #191
.LBB13_142:
	mov	w13, #128
	b	.LBB13_145
.LBB13_143:
	mov	w12, #191
	mov	w13, #160
	b	.LBB13_145
.LBB13_144:
	mov	w12, #191
	mov	w13, #144
.LBB13_145:
	and	w11, w11, #0xff
	cmp	w11, #50
	b.hi	.LBB13_8
	cmp	w13, w10
	b.hi	.LBB13_8
	cmp	w10, w12
	b.hi	.LBB13_8
	cmp	w9, #224
	b.lo	.LBB13_69
	ldrsb	w10, [x8, #2]
	cmn	w10, #65
	b.gt	.LBB13_8
	cmp	w9, #240
	b.lo	.LBB13_69
	ldrsb	w8, [x8, #3]
	cmn	w8, #64
	b.ge	.LBB13_8
	b	.LBB13_69
.LBB13_152:
	sub	x9, x23, x25
	and	w10, w10, #0xff
	cmp	x9, #3
	b.lo	.LBB13_156
	add	w11, w10, #31
	and	w11, w11, #0xff
	cmp	w11, #11
	b.hi	.LBB13_157
	ldrsb	w11, [x8, #1]
	cmn	w11, #65
	b.gt	.LBB13_157
	ldrsb	w11, [x8, #2]
	cmn	w11, #64
	b.lt	.LBB13_1
	b	.LBB13_157
.LBB13_156:
	cmp	x9, #2
	b.ne	.LBB13_162
.LBB13_157:
	lsr	w12, w10, #4
	ldrb	w11, [x8, #1]
	and	w12, w12, #0xc
	orr	w12, w12, w11, lsr #6
	cmp	w12, #14
	b.ne	.LBB13_161
	add	w12, w10, #31
	and	w12, w12, #0xff
	cmp	w12, #12
	b.hs	.LBB13_166
.LBB13_159:
	cmp	x9, #2
	b.ne	.LBB13_171
.LBB13_160:
	mov	w11, wzr
	mov	w12, #2
	b	.LBB13_163
.LBB13_161:
	mov	w12, #1
	mov	w11, #1
	b	.LBB13_163
.LBB13_162:
	add	w8, w10, #11
	and	w8, w8, #0xff
	cmp	w8, #205
	mov	w8, #1
	cset	w11, lo
	cinc	w12, w8, hs
.LBB13_163:
	stp	x25, x20, [x19]
	strb	w12, [x19, #16]
	strb	w11, [x19, #17]
	b	.LBB13_188
.LBB13_164:
	mov	x25, x23
	b	.LBB13_2
.LBB13_165:
	mov	w14, wzr
	mov	w13, #3
	b	.LBB13_187
.LBB13_166:
	add	w12, w10, #62
	and	w13, w12, #0xff
	cmp	w13, #30
	b.lo	.LBB13_1
	cmp	w10, #239
	b.gt	.LBB13_181
	cmp	w10, #224
	b.eq	.LBB13_191
	cmp	w10, #237
	b.ne	.LBB13_189
	mov	w13, #159
	b	.LBB13_190
.LBB13_171:
	ldrsb	w11, [x8, #2]
	cmn	w11, #65
	b.gt	.LBB13_178
	cmp	w10, #240
	b.lo	.LBB13_1
	cmp	x9, #4
	b.lo	.LBB13_160
	ldrsb	w8, [x8, #3]
	cmn	w8, #65
	b.le	.LBB13_1
	mov	w11, #3
	b	.LBB13_179
.LBB13_176:
	mov	w13, #1
	mov	w14, #1
	b	.LBB13_187
.LBB13_177:
	mov	w14, wzr
	mov	w13, #2
	b	.LBB13_187
.LBB13_178:
	mov	w11, #2
.LBB13_179:
	mov	w12, #1
	b	.LBB13_163
.LBB13_180:
	mov	w14, #2
	b	.LBB13_186
.LBB13_181:
	cmp	w10, #240
	b.eq	.LBB13_192
	cmp	w10, #244
	b.ne	.LBB13_189
	mov	w13, #143
	b	.LBB13_190
.LBB13_184:
	add	w9, w9, #11
	and	w9, w9, #0xff
	cmp	w9, #205
	mov	w9, #1
	cset	w14, lo
	cinc	w13, w9, hs
	b	.LBB13_187
.LBB13_185:
	mov	w14, #3
.LBB13_186:
	mov	w13, #1
.LBB13_187:
	stp	x8, x20, [x19]
	strb	w13, [x19, #16]
	strb	w14, [x19, #17]
.LBB13_188:
	.cfi_def_cfa wsp, 416
	ldp	x20, x19, [sp, #400]
	ldp	x22, x21, [sp, #384]
	ldp	x24, x23, [sp, #368]
	ldp	x26, x25, [sp, #352]
	ldp	x28, x27, [sp, #336]
	ldp	x29, x30, [sp, #320]
	add	sp, sp, #416
	.cfi_def_cfa_offset 0
	.cfi_restore w19
	.cfi_restore w20
	.cfi_restore w21
	.cfi_restore w22
	.cfi_restore w23
	.cfi_restore w24
	.cfi_restore w25
	.cfi_restore w26
	.cfi_restore w27
	.cfi_restore w28
	.cfi_restore w30
	.cfi_restore w29
	ret
.LBB13_189:
	.cfi_restore_state
	mov	w13, #191
.LBB13_190:
	mov	w14, #128
	b	.LBB13_193
.LBB13_191:
	mov	w13, #191
	mov	w14, #160
	b	.LBB13_193
.LBB13_192:
	mov	w13, #191
	mov	w14, #144
.LBB13_193:
	and	w12, w12, #0xff
	cmp	w12, #50
	mov	w12, #1
	b.hi	.LBB13_197
	cmp	w14, w11
	b.hi	.LBB13_197
	cmp	w11, w13
	mov	w11, #1
	b.hi	.LBB13_163
	cmp	w10, #224
	b.lo	.LBB13_1
	b	.LBB13_159
.LBB13_197:
	mov	w11, #1
	b	.LBB13_163
.LBB13_198:
	mov	w14, #1
	b	.LBB13_187
.Lfunc_end13:
	.size	"utf16_transcode::transcoding::transcode_many::<#824f73f0383279b7>", .Lfunc_end13-"utf16_transcode::transcoding::transcode_many::<#824f73f0383279b7>"
	.cfi_endproc

	.section	.rodata.cst16,"aM",@progbits,16
	.p2align	4, 0x0
.LCPI14_0:
	.byte	1
	.byte	2
	.byte	4
	.byte	8
	.byte	16
	.byte	32
	.byte	64
	.byte	128
	.byte	1
	.byte	2
	.byte	4
	.byte	8
	.byte	16
	.byte	32
	.byte	64
	.byte	128
.LCPI14_2:
	.byte	0
	.byte	1
	.byte	2
	.byte	3
	.byte	4
	.byte	5
	.byte	6
	.byte	7
	.byte	8
	.byte	9
	.byte	10
	.byte	11
	.byte	12
	.byte	13
	.byte	14
	.byte	15
	.section	.rodata.cst8,"aM",@progbits,8
	.p2align	3, 0x0
.LCPI14_1:
	.zero	1
	.zero	1
	.zero	1
	.zero	1
	.zero	1
	.zero	1
	.byte	224
	.byte	192
	.section	".text.utf16_transcode::encode::FromUtf8Direction::write_front::<#8b18edd9dd9aa8df>","ax",@progbits
	.p2align	2
	.type	"utf16_transcode::encode::FromUtf8Direction::write_front::<#8b18edd9dd9aa8df>",@function
"utf16_transcode::encode::FromUtf8Direction::write_front::<#8b18edd9dd9aa8df>":
	.cfi_startproc
	stp	x29, x30, [sp, #-48]!
	.cfi_def_cfa_offset 48
	stp	x22, x21, [sp, #16]
	stp	x20, x19, [sp, #32]
	mov	x29, sp
	.cfi_def_cfa w29, 48
	.cfi_offset w19, -8
	.cfi_offset w20, -16
	.cfi_offset w21, -24
	.cfi_offset w22, -32
	.cfi_offset w30, -40
	.cfi_offset w29, -48
	.cfi_remember_state
	cmp	x1, #16
	b.hi	.LBB14_8
	cmp	x1, #8
	mov	x5, xzr
	b.lo	.LBB14_13
	cmp	x3, #32
	mov	x4, x5
	b.lo	.LBB14_21
	add	x8, x0, x1
	ldr	d0, [x0]
	ldur	d2, [x8, #-8]
	adrp	x8, .Lstatic.11
	add	x8, x8, :lo12:.Lstatic.11
	add	x8, x8, x1, lsl #4
	mov	v0.d[1], v2.d[0]
	ldur	q1, [x8, #-128]
	adrp	x8, .LCPI14_0
	tbl	v1.16b, { v0.16b }, v1.16b
	ldr	q0, [x8, :lo12:.LCPI14_0]
	cmlt	v3.16b, v1.16b, #0
	and	v3.16b, v3.16b, v0.16b
	addp	v3.16b, v3.16b, v3.16b
	addp	v3.16b, v3.16b, v3.16b
	addp	v3.16b, v3.16b, v3.16b
	umov	w8, v3.h[0]
	cbz	w8, .LBB14_19
	adrp	x8, .LCPI14_1
	mov	x5, xzr
	ldr	d3, [x8, :lo12:.LCPI14_1]
	cmhi	v3.8b, v3.8b, v2.8b
	dup	v4.8b, v3.b[7]
	and	v3.8b, v4.8b, v3.8b
	umov	w8, v3.b[6]
	tbz	w8, #0, .LBB14_13
	umov	w8, v2.b[5]
	mov	x4, x5
	and	w8, w8, #0xff
	cmp	w8, #239
	b.hi	.LBB14_21
	adrp	x8, .Lstatic.12
	add	x8, x8, :lo12:.Lstatic.12
	movi	v4.2d, #0000000000000000
	sub	x8, x8, x1
	movi	v5.16b, #191
	movi	v6.16b, #223
	ldr	q2, [x8, #16]
	movi	v7.16b, #239
	movi	v17.16b, #144
	movi	v21.16b, #244
	movi	v22.16b, #160
	movi	v16.16b, #224
	umax	v2.16b, v1.16b, v2.16b
	movi	v23.16b, #237
	adrp	x8, .LCPI14_2
	movi	v26.16b, #254
	ext	v3.16b, v4.16b, v2.16b, #15
	cmhi	v24.16b, v17.16b, v2.16b
	cmhs	v17.16b, v2.16b, v17.16b
	cmhi	v27.16b, v22.16b, v2.16b
	ext	v1.16b, v4.16b, v3.16b, #15
	uqsub	v19.16b, v3.16b, v5.16b
	cmeq	v28.16b, v3.16b, v16.16b
	ext	v18.16b, v4.16b, v1.16b, #15
	movi	v4.16b, #240
	uqsub	v20.16b, v1.16b, v6.16b
	uqsub	v18.16b, v18.16b, v7.16b
	cmeq	v25.16b, v3.16b, v4.16b
	umax	v19.16b, v19.16b, v20.16b
	cmeq	v20.16b, v3.16b, v21.16b
	movi	v7.16b, #192
	and	v24.16b, v25.16b, v24.16b
	and	v25.16b, v2.16b, v26.16b
	orr	v18.16b, v19.16b, v18.16b
	and	v17.16b, v20.16b, v17.16b
	cmhs	v19.16b, v2.16b, v22.16b
	cmeq	v20.16b, v3.16b, v23.16b
	and	v22.16b, v28.16b, v27.16b
	cmgt	v23.16b, v7.16b, v2.16b
	cmeq	v18.16b, v18.16b, #0
	orr	v17.16b, v24.16b, v17.16b
	and	v19.16b, v20.16b, v19.16b
	cmhi	v20.16b, v2.16b, v21.16b
	cmeq	v21.16b, v25.16b, v7.16b
	eor	v18.16b, v18.16b, v23.16b
	orr	v19.16b, v22.16b, v19.16b
	orr	v17.16b, v20.16b, v17.16b
	ldr	q20, [x8, :lo12:.LCPI14_2]
	orn	v18.16b, v21.16b, v18.16b
	orr	v17.16b, v19.16b, v17.16b
	dup	v19.16b, w1
	orr	v17.16b, v17.16b, v18.16b
	cmhi	v18.16b, v19.16b, v20.16b
	and	v17.16b, v18.16b, v17.16b
	shl	v17.16b, v17.16b, #7
	cmlt	v17.16b, v17.16b, #0
	and	v17.16b, v17.16b, v0.16b
	addp	v17.16b, v17.16b, v17.16b
	addp	v17.16b, v17.16b, v17.16b
	addp	v17.16b, v17.16b, v17.16b
	umov	w8, v17.h[0]
	cbz	w8, .LBB14_22
	mov	x5, xzr
	mov	x4, xzr
	mov	x0, x4
	mov	x1, x5
	.cfi_def_cfa wsp, 48
	ldp	x20, x19, [sp, #32]
	ldp	x22, x21, [sp, #16]
	ldp	x29, x30, [sp], #48
	.cfi_def_cfa_offset 0
	.cfi_restore w19
	.cfi_restore w20
	.cfi_restore w21
	.cfi_restore w22
	.cfi_restore w30
	.cfi_restore w29
	ret
.LBB14_8:
	.cfi_restore_state
	.cfi_remember_state
	lsr	x8, x3, #1
	cmp	x8, x1
	csel	x4, x8, x1, lo
	cmp	x3, #32
	b.lo	.LBB14_10
	ldr	q1, [x0]
	adrp	x8, .LCPI14_0
	ldr	q0, [x8, :lo12:.LCPI14_0]
	cmlt	v2.16b, v1.16b, #0
	and	v2.16b, v2.16b, v0.16b
	addp	v2.16b, v2.16b, v2.16b
	addp	v2.16b, v2.16b, v2.16b
	addp	v2.16b, v2.16b, v2.16b
	umov	w8, v2.h[0]
	cbz	w8, .LBB14_16
.LBB14_10:
	mov	x4, xzr
	lsl	x5, xzr, #1
	subs	x8, x1, xzr
	b.eq	.LBB14_21
.LBB14_11:
	cmp	x8, #191
	b.hi	.LBB14_14
	.cfi_def_cfa wsp, 48
	ldp	x20, x19, [sp, #32]
	ldp	x22, x21, [sp, #16]
	ldp	x29, x30, [sp], #48
	.cfi_def_cfa_offset 0
	.cfi_restore w19
	.cfi_restore w20
	.cfi_restore w21
	.cfi_restore w22
	.cfi_restore w30
	.cfi_restore w29
	b	"utf16_from_utf8::rest::write_rest::<#8b18edd9dd9aa8df>"
.LBB14_13:
	.cfi_restore_state
	.cfi_remember_state
	mov	x4, x5
	mov	x0, x4
	mov	x1, x5
	.cfi_def_cfa wsp, 48
	ldp	x20, x19, [sp, #32]
	ldp	x22, x21, [sp, #16]
	ldp	x29, x30, [sp], #48
	.cfi_def_cfa_offset 0
	.cfi_restore w19
	.cfi_restore w20
	.cfi_restore w21
	.cfi_restore w22
	.cfi_restore w30
	.cfi_restore w29
	ret
.LBB14_14:
	.cfi_restore_state
	.cfi_remember_state
	mov	x21, x0
	mov	x22, x1
	mov	x19, x2
	mov	x20, x3
	bl	"utf16_from_utf8::blocks::write_mixed_blocks::<#8b18edd9dd9aa8df>"
	sub	x9, x22, x0
	mov	x4, x0
	mov	x5, x1
	cmp	x9, #191
	b.hi	.LBB14_21
	mov	x0, x21
	mov	x1, x22
	mov	x2, x19
	mov	x3, x20
	.cfi_def_cfa wsp, 48
	ldp	x20, x19, [sp, #32]
	ldp	x22, x21, [sp, #16]
	ldp	x29, x30, [sp], #48
	.cfi_def_cfa_offset 0
	.cfi_restore w19
	.cfi_restore w20
	.cfi_restore w21
	.cfi_restore w22
	.cfi_restore w30
	.cfi_restore w29
	b	"utf16_from_utf8::rest::write_rest::<#8b18edd9dd9aa8df>"
.LBB14_16:
	.cfi_restore_state
	.cfi_remember_state
	cmp	x4, #31
	b.hi	.LBB14_20
	shll	v2.8h, v1.8b, #8
	shll2	v1.8h, v1.16b, #8
	sub	x8, x4, #16
	stp	q2, q1, [x2]
	ldr	q1, [x0, x8]
	cmlt	v2.16b, v1.16b, #0
	and	v0.16b, v2.16b, v0.16b
	addp	v0.16b, v0.16b, v0.16b
	addp	v0.16b, v0.16b, v0.16b
	addp	v0.16b, v0.16b, v0.16b
	umov	w9, v0.h[0]
	cbz	w9, .LBB14_23
	mov	w4, #16
	lsl	x5, x4, #1
	subs	x8, x1, x4
	b.eq	.LBB14_21
	b	.LBB14_11
.LBB14_19:
	shll	v0.8h, v1.8b, #8
	shll2	v1.8h, v1.16b, #8
	lsl	x5, x1, #1
	mov	x4, x1
	stp	q0, q1, [x2]
	mov	x0, x4
	mov	x1, x5
	.cfi_def_cfa wsp, 48
	ldp	x20, x19, [sp, #32]
	ldp	x22, x21, [sp, #16]
	ldp	x29, x30, [sp], #48
	.cfi_def_cfa_offset 0
	.cfi_restore w19
	.cfi_restore w20
	.cfi_restore w21
	.cfi_restore w22
	.cfi_restore w30
	.cfi_restore w29
	ret
.LBB14_20:
	.cfi_restore_state
	.cfi_remember_state
	mov	x21, x1
	mov	x1, x4
	mov	x19, x0
	mov	x20, x2
	mov	x22, x3
	bl	"utf16_from_utf8::ascii::write_front::<#8b18edd9dd9aa8df>"
	mov	x3, x22
	mov	x2, x20
	mov	x1, x21
	mov	x4, x0
	mov	x0, x19
	lsl	x5, x4, #1
	subs	x8, x21, x4
	b.ne	.LBB14_11
.LBB14_21:
	mov	x0, x4
	mov	x1, x5
	.cfi_def_cfa wsp, 48
	ldp	x20, x19, [sp, #32]
	ldp	x22, x21, [sp, #16]
	ldp	x29, x30, [sp], #48
	.cfi_def_cfa_offset 0
	.cfi_restore w19
	.cfi_restore w20
	.cfi_restore w21
	.cfi_restore w22
	.cfi_restore w30
	.cfi_restore w29
	ret
.LBB14_22:
	.cfi_restore_state
	.cfi_remember_state
	cmge	v17.16b, v2.16b, #0
	cmhi	v6.16b, v3.16b, v6.16b
	adrp	x10, .Lstatic.13
	add	x10, x10, :lo12:.Lstatic.13
	cmhi	v5.16b, v2.16b, v5.16b
	movi	v18.16b, #64
	shl	v19.16b, v3.16b, #2
	movi	v21.16b, #232
	mov	x4, x1
	bsl	v17.16b, v7.16b, v3.16b
	movi	v22.16b, #231
	movi	v23.16b, #220
	orr	v5.16b, v5.16b, v6.16b
	umax	v6.16b, v1.16b, v16.16b
	cmhi	v18.16b, v18.16b, v19.16b
	movi	v19.16b, #127
	umax	v16.16b, v17.16b, v1.16b
	bic	v0.16b, v0.16b, v5.16b
	ushr	v20.16b, v17.16b, #2
	bsl	v18.16b, v22.16b, v21.16b
	cmhi	v5.16b, v7.16b, v16.16b
	ushr	v16.16b, v2.16b, #4
	addp	v0.16b, v0.16b, v0.16b
	sli	v20.16b, v6.16b, #4
	and	v2.16b, v2.16b, v19.16b
	add	v6.16b, v18.16b, v1.16b
	cmhi	v1.16b, v4.16b, v1.16b
	sli	v16.16b, v3.16b, #2
	and	v5.16b, v5.16b, v23.16b
	shl	v3.16b, v17.16b, #6
	addp	v0.16b, v0.16b, v0.16b
	orr	v5.16b, v20.16b, v5.16b
	add	v2.16b, v3.16b, v2.16b
	mov	v3.16b, v1.16b
	add	v7.16b, v16.16b, v7.16b
	addp	v0.16b, v0.16b, v0.16b
	bsl	v3.16b, v5.16b, v6.16b
	bsl	v1.16b, v2.16b, v7.16b
	umov	w8, v0.h[0]
	zip1	v0.16b, v3.16b, v1.16b
	and	x9, x8, #0xff
	ubfx	x8, x8, #8, #8
	ldr	q2, [x10, x9, lsl #4]
	zip2	v1.16b, v3.16b, v1.16b
	fmov	d4, x8
	tbl	v0.16b, { v0.16b }, v2.16b
	fmov	d2, x9
	cnt	v4.8b, v4.8b
	cnt	v2.8b, v2.8b
	str	q0, [x2]
	ldr	q0, [x10, x8, lsl #4]
	fmov	w9, s4
	fmov	w8, s2
	tbl	v0.16b, { v1.16b }, v0.16b
	ubfiz	x10, x8, #1, #32
	add	x8, x8, x9
	lsl	x5, x8, #1
	str	q0, [x2, x10]
	mov	x0, x4
	mov	x1, x5
	.cfi_def_cfa wsp, 48
	ldp	x20, x19, [sp, #32]
	ldp	x22, x21, [sp, #16]
	ldp	x29, x30, [sp], #48
	.cfi_def_cfa_offset 0
	.cfi_restore w19
	.cfi_restore w20
	.cfi_restore w21
	.cfi_restore w22
	.cfi_restore w30
	.cfi_restore w29
	ret
.LBB14_23:
	.cfi_restore_state
	shll	v0.8h, v1.8b, #8
	shll2	v1.8h, v1.16b, #8
	add	x8, x2, x8, lsl #1
	stp	q0, q1, [x8]
	lsl	x5, x4, #1
	subs	x8, x1, x4
	b.eq	.LBB14_21
	b	.LBB14_11
.Lfunc_end14:
	.size	"utf16_transcode::encode::FromUtf8Direction::write_front::<#8b18edd9dd9aa8df>", .Lfunc_end14-"utf16_transcode::encode::FromUtf8Direction::write_front::<#8b18edd9dd9aa8df>"
	.cfi_endproc

	.section	".text.utf16_transcode::transcoding::write_chars::<#824f73f0383279b7>","ax",@progbits
	.p2align	2
	.type	"utf16_transcode::transcoding::write_chars::<#824f73f0383279b7>",@function
"utf16_transcode::transcoding::write_chars::<#824f73f0383279b7>":
	.cfi_startproc
	stp	x29, x30, [sp, #-64]!
	.cfi_def_cfa_offset 64
	str	x23, [sp, #16]
	stp	x22, x21, [sp, #32]
	stp	x20, x19, [sp, #48]
	mov	x29, sp
	.cfi_def_cfa w29, 64
	.cfi_offset w19, -8
	.cfi_offset w20, -16
	.cfi_offset w21, -24
	.cfi_offset w22, -32
	.cfi_offset w23, -48
	.cfi_offset w30, -56
	.cfi_offset w29, -64
	mov	x19, x3
	mov	x20, x2
	add	x2, x2, x4
	sub	x3, x3, x4
	mov	x23, x4
	mov	x21, x1
	mov	x22, x0
	bl	"utf16_transcode::encode::FromUtf8Direction::begin::<#8b18edd9dd9aa8df>"
	cmp	x0, x21
	add	x1, x1, x23
	b.hs	.LBB15_40
	mov	w8, #57216
	movk	w8, #65521, lsl #16
	b	.LBB15_3
.LBB15_2:
	mov	w12, #67043328
	mov	w13, #56320
	mov	w14, #-10240
	add	w12, w9, w12
	bfxil	w13, w9, #0, #10
	add	w9, w14, w12, lsr #10
	rev16	w12, w13
	rev16	w9, w9
	strh	w12, [x11, #2]
	mov	w12, #4
	add	x0, x10, x0
	add	x1, x12, x1
	strh	w9, [x11]
	cmp	x0, x21
	b.hs	.LBB15_40
.LBB15_3:
	add	x10, x22, x0
	ldrsb	w11, [x10]
	and	w9, w11, #0xff
	tbnz	w11, #31, .LBB15_8
	mov	w10, #1
.LBB15_5:
	cmp	w9, #16, lsl #12
	mov	w11, #4
	mov	w12, #2
	sub	x13, x19, x1
	csel	x11, x12, x11, lo
	cmp	x13, x11
	b.lo	.LBB15_40
	lsr	w12, w9, #16
	add	x11, x20, x1
	cbnz	w12, .LBB15_2
	rev16	w9, w9
	mov	w12, #2
	add	x0, x10, x0
	add	x1, x12, x1
	strh	w9, [x11]
	cmp	x0, x21
	b.lo	.LBB15_3
	b	.LBB15_40
.LBB15_8:
	sub	x11, x21, x0
	cmp	x11, #3
	b.lo	.LBB15_13
	add	w12, w9, #31
	and	w12, w12, #0xff
	cmp	w12, #11
	b.hi	.LBB15_14
	ldrsb	w12, [x10, #1]
	cmn	w12, #65
	b.gt	.LBB15_14
	ldrsb	w13, [x10, #2]
	cmn	w13, #65
	b.gt	.LBB15_14
	add	w9, w8, w9, lsl #12
	and	w10, w12, #0xff
	add	w9, w9, w10, lsl #6
	and	w10, w13, #0xff
	add	w9, w9, w10
	mov	w10, #3
	b	.LBB15_5
.LBB15_13:
	cmp	x11, #2
	b.ne	.LBB15_40
.LBB15_14:
	lsr	w13, w9, #4
	ldrb	w12, [x10, #1]
	and	w13, w13, #0xc
	orr	w13, w13, w12, lsr #6
	cmp	w13, #14
	b.ne	.LBB15_40
	add	w13, w9, #31
	and	w13, w13, #0xff
	cmp	w13, #12
	b.hs	.LBB15_20
.LBB15_16:
	cmp	x11, #2
	b.eq	.LBB15_40
	ldrsb	w13, [x10, #2]
	cmn	w13, #65
	b.gt	.LBB15_40
	cmp	w9, #239
	and	w13, w13, #0xff
	b.hi	.LBB15_25
	add	w9, w8, w9, lsl #12
	mov	w10, #3
	add	w9, w9, w12, lsl #6
	add	w9, w9, w13
	b	.LBB15_5
.LBB15_20:
	add	w13, w9, #62
	and	w14, w13, #0xff
	cmp	w14, #30
	b.lo	.LBB15_39
	cmp	w9, #239
	b.gt	.LBB15_28
	cmp	w9, #224
	b.eq	.LBB15_33
	cmp	w9, #237
	b.ne	.LBB15_31
	mov	w14, #159
	b	.LBB15_32
.LBB15_25:
	cmp	x11, #4
	b.lo	.LBB15_40
	ldrsb	w10, [x10, #3]
	cmn	w10, #65
	b.gt	.LBB15_40
	lsl	w9, w9, #18
	mov	w11, #57216
	and	w10, w10, #0xff
	movk	w11, #64567, lsl #16
	add	w9, w9, w12, lsl #12
	add	w10, w10, w11
	add	w9, w9, w13, lsl #6
	add	w9, w9, w10
	mov	w10, #4
	b	.LBB15_5
.LBB15_28:
	cmp	w9, #240
	b.eq	.LBB15_34
	cmp	w9, #244
	b.ne	.LBB15_31
	mov	w14, #143
	b	.LBB15_32
.LBB15_31:
	mov	w14, #191
.LBB15_32:
	mov	w15, #128
	b	.LBB15_35
.LBB15_33:
	mov	w14, #191
	mov	w15, #160
	b	.LBB15_35
.LBB15_34:
	mov	w14, #191
	mov	w15, #144
.LBB15_35:
	and	w13, w13, #0xff
	cmp	w13, #50
	b.hi	.LBB15_40
	cmp	w15, w12
	b.hi	.LBB15_40
	cmp	w12, w14
	b.hi	.LBB15_40
	cmp	w9, #223
	b.hi	.LBB15_16
.LBB15_39:
	add	w9, w12, w9, lsl #6
	mov	w10, #-12416
	add	w9, w9, w10
	mov	w10, #2
	b	.LBB15_5
.LBB15_40:
	.cfi_def_cfa wsp, 64
	ldp	x20, x19, [sp, #48]
	ldr	x23, [sp, #16]
	ldp	x22, x21, [sp, #32]
	ldp	x29, x30, [sp], #64
	.cfi_def_cfa_offset 0
	.cfi_restore w19
	.cfi_restore w20
	.cfi_restore w21
	.cfi_restore w22
	.cfi_restore w23
	.cfi_restore w30
	.cfi_restore w29
	ret
.Lfunc_end15:
	.size	"utf16_transcode::transcoding::write_chars::<#824f73f0383279b7>", .Lfunc_end15-"utf16_transcode::transcoding::write_chars::<#824f73f0383279b7>"
	.cfi_endproc

	.section	.rodata.cst16,"aM",@progbits,16
	.p2align	4, 0x0
.LCPI16_0:
	.byte	1
	.byte	2
	.byte	4
	.byte	8
	.byte	16
	.byte	32
	.byte	64
	.byte	128
	.byte	1
	.byte	2
	.byte	4
	.byte	8
	.byte	16
	.byte	32
	.byte	64
	.byte	128
.LCPI16_1:
	.byte	2
	.byte	2
	.byte	2
	.byte	2
	.byte	2
	.byte	2
	.byte	2
	.byte	2
	.byte	128
	.byte	128
	.byte	128
	.byte	128
	.byte	33
	.byte	1
	.byte	21
	.byte	73
.LCPI16_2:
	.byte	231
	.byte	163
	.byte	131
	.byte	131
	.byte	139
	.byte	203
	.byte	203
	.byte	203
	.byte	203
	.byte	203
	.byte	203
	.byte	203
	.byte	203
	.byte	219
	.byte	203
	.byte	203
.LCPI16_3:
	.byte	1
	.byte	1
	.byte	1
	.byte	1
	.byte	1
	.byte	1
	.byte	1
	.byte	1
	.byte	230
	.byte	174
	.byte	186
	.byte	186
	.byte	1
	.byte	1
	.byte	1
	.byte	1
.LCPI16_4:
	.byte	255
	.byte	255
	.byte	255
	.byte	255
	.byte	255
	.byte	255
	.byte	255
	.byte	255
	.byte	255
	.byte	255
	.byte	255
	.byte	255
	.byte	255
	.byte	239
	.byte	223
	.byte	191
	.section	".text.utf16_transcode::encode::valid_prefix","ax",@progbits
	.p2align	2
	.type	"utf16_transcode::encode::valid_prefix",@function
"utf16_transcode::encode::valid_prefix":
	.cfi_startproc
	sub	sp, sp, #384
	.cfi_def_cfa_offset 384
	stp	d15, d14, [sp, #224]
	stp	d13, d12, [sp, #240]
	stp	d11, d10, [sp, #256]
	stp	d9, d8, [sp, #272]
	stp	x29, x30, [sp, #288]
	stp	x28, x27, [sp, #304]
	stp	x26, x25, [sp, #320]
	stp	x24, x23, [sp, #336]
	stp	x22, x21, [sp, #352]
	stp	x20, x19, [sp, #368]
	add	x29, sp, #288
	.cfi_def_cfa w29, 96
	.cfi_offset w19, -8
	.cfi_offset w20, -16
	.cfi_offset w21, -24
	.cfi_offset w22, -32
	.cfi_offset w23, -40
	.cfi_offset w24, -48
	.cfi_offset w25, -56
	.cfi_offset w26, -64
	.cfi_offset w27, -72
	.cfi_offset w28, -80
	.cfi_offset w30, -88
	.cfi_offset w29, -96
	.cfi_offset b8, -104
	.cfi_offset b9, -112
	.cfi_offset b10, -120
	.cfi_offset b11, -128
	.cfi_offset b12, -136
	.cfi_offset b13, -144
	.cfi_offset b14, -152
	.cfi_offset b15, -160
	mov	x19, x1
	mov	x20, x0
	adrp	x21, .LCPI16_0
	cmp	x1, #64
	adrp	x22, .LCPI16_1
	adrp	x23, .LCPI16_2
	adrp	x24, .LCPI16_3
	adrp	x25, .LCPI16_4
	b.lo	.LBB16_14
	and	x8, x19, #0xffffffffffffffc0
	mov	x1, x20
	mov	x2, x19
.LBB16_2:
	ldp	q0, q1, [x1]
	ldr	q10, [x21, :lo12:.LCPI16_0]
	ldp	q2, q3, [x1, #32]
	cmlt	v0.16b, v0.16b, #0
	cmlt	v1.16b, v1.16b, #0
	cmlt	v3.16b, v3.16b, #0
	cmlt	v2.16b, v2.16b, #0
	and	v0.16b, v0.16b, v10.16b
	and	v1.16b, v1.16b, v10.16b
	and	v2.16b, v2.16b, v10.16b
	and	v3.16b, v3.16b, v10.16b
	addp	v0.16b, v0.16b, v1.16b
	addp	v1.16b, v2.16b, v3.16b
	addp	v0.16b, v0.16b, v1.16b
	addp	v0.16b, v0.16b, v0.16b
	fmov	x9, d0
	cbnz	x9, .LBB16_5
	sub	x2, x2, #64
	add	x1, x1, #64
	cmp	x2, #63
	b.hi	.LBB16_2
	movi	v0.2d, #0000000000000000
	mov	x3, xzr
	add	x1, x20, x8
	stp	q0, q0, [sp]
	stp	q0, q0, [sp, #32]
	stp	q0, q0, [sp, #64]
	stp	q0, q0, [sp, #96]
	stp	q0, q10, [sp, #128]
	b	.LBB16_11
.LBB16_5:
	movi	v3.2d, #0000000000000000
	movi	v18.2d, #0000000000000000
	mov	x8, x1
	movi	v22.2d, #0000000000000000
	movi	v19.2d, #0000000000000000
	mov	x9, x2
	movi	v21.2d, #0000000000000000
	movi	v11.2d, #0000000000000000
	movi	v12.2d, #0000000000000000
	movi	v13.2d, #0000000000000000
	movi	v14.2d, #0000000000000000
	b	.LBB16_8
.LBB16_6:
	ext	v4.16b, v3.16b, v0.16b, #15
	ext	v5.16b, v0.16b, v1.16b, #15
	ldr	q17, [x22, :lo12:.LCPI16_1]
	ext	v6.16b, v1.16b, v2.16b, #15
	ext	v7.16b, v2.16b, v15.16b, #15
	ldr	q24, [x23, :lo12:.LCPI16_2]
	movi	v16.16b, #15
	movi	v26.16b, #112
	ldr	q9, [x24, :lo12:.LCPI16_3]
	ext	v27.16b, v1.16b, v2.16b, #14
	ext	v28.16b, v2.16b, v15.16b, #13
	ext	v31.16b, v1.16b, v2.16b, #13
	ushr	v19.16b, v5.16b, #4
	ushr	v20.16b, v4.16b, #4
	ushr	v30.16b, v1.16b, #4
	ushr	v18.16b, v6.16b, #4
	ushr	v21.16b, v7.16b, #4
	ushr	v29.16b, v2.16b, #4
	and	v23.16b, v4.16b, v16.16b
	and	v25.16b, v7.16b, v16.16b
	and	v22.16b, v5.16b, v16.16b
	and	v16.16b, v6.16b, v16.16b
	tbl	v6.16b, { v17.16b }, v20.16b
	tbl	v7.16b, { v17.16b }, v19.16b
	tbl	v4.16b, { v17.16b }, v18.16b
	tbl	v5.16b, { v17.16b }, v21.16b
	ext	v21.16b, v0.16b, v1.16b, #14
	tbl	v18.16b, { v24.16b }, v23.16b
	tbl	v17.16b, { v24.16b }, v25.16b
	movi	v23.16b, #96
	ext	v25.16b, v0.16b, v1.16b, #13
	tbl	v19.16b, { v24.16b }, v22.16b
	tbl	v16.16b, { v24.16b }, v16.16b
	ext	v22.16b, v3.16b, v0.16b, #14
	ext	v24.16b, v2.16b, v15.16b, #14
	ext	v3.16b, v3.16b, v0.16b, #13
	ushr	v20.16b, v15.16b, #4
	ushr	v8.16b, v0.16b, #4
	tbl	v30.16b, { v9.16b }, v30.16b
	uqsub	v21.16b, v21.16b, v23.16b
	tbl	v29.16b, { v9.16b }, v29.16b
	and	v6.16b, v18.16b, v6.16b
	uqsub	v25.16b, v25.16b, v26.16b
	and	v7.16b, v19.16b, v7.16b
	and	v4.16b, v16.16b, v4.16b
	uqsub	v22.16b, v22.16b, v23.16b
	uqsub	v24.16b, v24.16b, v23.16b
	uqsub	v23.16b, v27.16b, v23.16b
	uqsub	v3.16b, v3.16b, v26.16b
	uqsub	v27.16b, v28.16b, v26.16b
	uqsub	v26.16b, v31.16b, v26.16b
	movi	v31.16b, #128
	tbl	v28.16b, { v9.16b }, v8.16b
	tbl	v20.16b, { v9.16b }, v20.16b
	orr	v18.16b, v21.16b, v25.16b
	ldr	q21, [x25, :lo12:.LCPI16_4]
	and	v5.16b, v17.16b, v5.16b
	movi	v19.2d, #0xffffffffffffffff
	and	v7.16b, v7.16b, v30.16b
	and	v4.16b, v4.16b, v29.16b
	orr	v3.16b, v22.16b, v3.16b
	orr	v16.16b, v23.16b, v26.16b
	orr	v17.16b, v24.16b, v27.16b
	and	v18.16b, v18.16b, v31.16b
	and	v6.16b, v6.16b, v28.16b
	and	v5.16b, v5.16b, v20.16b
	uqsub	v21.16b, v15.16b, v21.16b
	and	v20.16b, v3.16b, v31.16b
	and	v17.16b, v17.16b, v31.16b
	and	v16.16b, v16.16b, v31.16b
	eor	v3.16b, v7.16b, v18.16b
	uqsub	v18.16b, v0.16b, v19.16b
	uqsub	v22.16b, v1.16b, v19.16b
	uqsub	v19.16b, v2.16b, v19.16b
	eor	v0.16b, v4.16b, v16.16b
	eor	v1.16b, v5.16b, v17.16b
	eor	v2.16b, v6.16b, v20.16b
.LBB16_7:
	orr	v11.16b, v2.16b, v11.16b
	orr	v12.16b, v3.16b, v12.16b
	sub	x9, x9, #64
	orr	v13.16b, v0.16b, v13.16b
	orr	v14.16b, v1.16b, v14.16b
	cmp	x9, #63
	mov	v3.16b, v15.16b
	add	x8, x8, #64
	b.ls	.LBB16_10
.LBB16_8:
	ldp	q0, q1, [x8]
	ldp	q2, q15, [x8, #32]
	cmlt	v4.16b, v0.16b, #0
	cmlt	v7.16b, v1.16b, #0
	cmlt	v5.16b, v15.16b, #0
	cmlt	v6.16b, v2.16b, #0
	and	v4.16b, v4.16b, v10.16b
	and	v7.16b, v7.16b, v10.16b
	and	v6.16b, v6.16b, v10.16b
	and	v5.16b, v5.16b, v10.16b
	addp	v4.16b, v4.16b, v7.16b
	addp	v5.16b, v6.16b, v5.16b
	addp	v4.16b, v4.16b, v5.16b
	addp	v4.16b, v4.16b, v4.16b
	fmov	x10, d4
	cbnz	x10, .LBB16_6
	mov	v2.16b, v18.16b
	mov	v3.16b, v22.16b
	mov	v0.16b, v19.16b
	mov	v1.16b, v21.16b
	movi	v18.2d, #0000000000000000
	movi	v22.2d, #0000000000000000
	movi	v19.2d, #0000000000000000
	movi	v21.2d, #0000000000000000
	b	.LBB16_7
.LBB16_10:
	and	x3, x2, #0xffffffffffffffc0
	stp	q21, q19, [sp, #16]
	stp	q22, q18, [sp, #48]
	str	q15, [sp]
	stp	q14, q13, [sp, #80]
	stp	q12, q11, [sp, #112]
	str	q10, [sp, #144]
.LBB16_11:
	sub	x0, x29, #128
	bl	"simdutf8::last_block"
	ldp	q3, q1, [x29, #-128]
	ldr	q31, [sp, #144]
	ldp	q2, q0, [x29, #-96]
	cmlt	v4.16b, v3.16b, #0
	cmlt	v7.16b, v1.16b, #0
	cmlt	v5.16b, v0.16b, #0
	cmlt	v6.16b, v2.16b, #0
	and	v4.16b, v4.16b, v31.16b
	and	v7.16b, v7.16b, v31.16b
	and	v6.16b, v6.16b, v31.16b
	and	v5.16b, v5.16b, v31.16b
	addp	v4.16b, v4.16b, v7.16b
	addp	v5.16b, v6.16b, v5.16b
	ldp	q7, q6, [sp, #16]
	addp	v4.16b, v4.16b, v5.16b
	addp	v4.16b, v4.16b, v4.16b
	fmov	x8, d4
	ldp	q5, q4, [sp, #48]
	cbz	x8, .LBB16_13
	ldr	q30, [sp]
	ext	v5.16b, v3.16b, v1.16b, #15
	ext	v6.16b, v1.16b, v2.16b, #15
	ext	v7.16b, v2.16b, v0.16b, #15
	movi	v16.16b, #15
	ldr	q17, [x22, :lo12:.LCPI16_1]
	ext	v4.16b, v30.16b, v3.16b, #15
	ldr	q18, [x23, :lo12:.LCPI16_2]
	ushr	v27.16b, v3.16b, #4
	ext	v28.16b, v3.16b, v1.16b, #14
	ext	v29.16b, v1.16b, v2.16b, #13
	ushr	v26.16b, v0.16b, #4
	ushr	v19.16b, v5.16b, #4
	ushr	v22.16b, v6.16b, #4
	ushr	v21.16b, v7.16b, #4
	and	v24.16b, v7.16b, v16.16b
	and	v25.16b, v6.16b, v16.16b
	ushr	v20.16b, v4.16b, #4
	and	v23.16b, v4.16b, v16.16b
	and	v16.16b, v5.16b, v16.16b
	tbl	v5.16b, { v17.16b }, v19.16b
	tbl	v6.16b, { v17.16b }, v22.16b
	movi	v22.16b, #96
	tbl	v19.16b, { v17.16b }, v21.16b
	ext	v21.16b, v2.16b, v0.16b, #14
	tbl	v4.16b, { v17.16b }, v20.16b
	tbl	v7.16b, { v18.16b }, v23.16b
	tbl	v16.16b, { v18.16b }, v16.16b
	tbl	v17.16b, { v18.16b }, v25.16b
	tbl	v18.16b, { v18.16b }, v24.16b
	ext	v24.16b, v2.16b, v0.16b, #13
	movi	v25.16b, #112
	ext	v20.16b, v1.16b, v2.16b, #14
	ext	v23.16b, v30.16b, v3.16b, #14
	uqsub	v21.16b, v21.16b, v22.16b
	ushr	v2.16b, v2.16b, #4
	and	v4.16b, v7.16b, v4.16b
	and	v5.16b, v16.16b, v5.16b
	and	v18.16b, v18.16b, v19.16b
	ext	v19.16b, v3.16b, v1.16b, #13
	ext	v3.16b, v30.16b, v3.16b, #13
	ldr	q30, [x24, :lo12:.LCPI16_3]
	uqsub	v24.16b, v24.16b, v25.16b
	uqsub	v23.16b, v23.16b, v22.16b
	uqsub	v20.16b, v20.16b, v22.16b
	uqsub	v22.16b, v28.16b, v22.16b
	ushr	v1.16b, v1.16b, #4
	tbl	v26.16b, { v30.16b }, v26.16b
	uqsub	v28.16b, v29.16b, v25.16b
	tbl	v27.16b, { v30.16b }, v27.16b
	uqsub	v19.16b, v19.16b, v25.16b
	uqsub	v3.16b, v3.16b, v25.16b
	movi	v25.16b, #128
	orr	v21.16b, v21.16b, v24.16b
	tbl	v1.16b, { v30.16b }, v1.16b
	tbl	v2.16b, { v30.16b }, v2.16b
	and	v6.16b, v17.16b, v6.16b
	and	v7.16b, v18.16b, v26.16b
	orr	v17.16b, v20.16b, v28.16b
	and	v4.16b, v4.16b, v27.16b
	orr	v16.16b, v22.16b, v19.16b
	ldr	q19, [x25, :lo12:.LCPI16_4]
	orr	v3.16b, v23.16b, v3.16b
	and	v18.16b, v21.16b, v25.16b
	and	v1.16b, v5.16b, v1.16b
	and	v2.16b, v6.16b, v2.16b
	uqsub	v0.16b, v0.16b, v19.16b
	and	v6.16b, v17.16b, v25.16b
	and	v5.16b, v16.16b, v25.16b
	and	v3.16b, v3.16b, v25.16b
	eor	v7.16b, v7.16b, v18.16b
	eor	v6.16b, v2.16b, v6.16b
	eor	v5.16b, v1.16b, v5.16b
	eor	v4.16b, v4.16b, v3.16b
	orr	v7.16b, v7.16b, v0.16b
.LBB16_13:
	ldp	q1, q0, [sp, #112]
	ldp	q3, q2, [sp, #80]
	orr	v0.16b, v4.16b, v0.16b
	orr	v1.16b, v5.16b, v1.16b
	orr	v2.16b, v6.16b, v2.16b
	orr	v3.16b, v7.16b, v3.16b
	cmeq	v0.16b, v0.16b, #0
	cmeq	v1.16b, v1.16b, #0
	cmeq	v3.16b, v3.16b, #0
	cmeq	v2.16b, v2.16b, #0
	bic	v0.16b, v31.16b, v0.16b
	bic	v1.16b, v31.16b, v1.16b
	bic	v2.16b, v31.16b, v2.16b
	bic	v3.16b, v31.16b, v3.16b
	addp	v0.16b, v0.16b, v1.16b
	addp	v1.16b, v2.16b, v3.16b
	addp	v0.16b, v0.16b, v1.16b
	addp	v0.16b, v0.16b, v0.16b
	fmov	x8, d0
	cbz	x8, .LBB16_36
.LBB16_14:
	mov	x27, xzr
	b	.LBB16_16
.LBB16_15:
	ldp	q2, q1, [sp, #128]
	ldp	q4, q3, [sp, #96]
	orr	v1.16b, v5.16b, v1.16b
	orr	v2.16b, v6.16b, v2.16b
	orr	v3.16b, v7.16b, v3.16b
	orr	v4.16b, v16.16b, v4.16b
	cmeq	v1.16b, v1.16b, #0
	cmeq	v2.16b, v2.16b, #0
	cmeq	v4.16b, v4.16b, #0
	cmeq	v3.16b, v3.16b, #0
	bic	v1.16b, v0.16b, v1.16b
	bic	v2.16b, v0.16b, v2.16b
	bic	v3.16b, v0.16b, v3.16b
	bic	v0.16b, v0.16b, v4.16b
	addp	v1.16b, v1.16b, v2.16b
	addp	v0.16b, v3.16b, v0.16b
	addp	v0.16b, v1.16b, v0.16b
	addp	v0.16b, v0.16b, v0.16b
	fmov	x8, d0
	cbnz	x8, .LBB16_34
.LBB16_16:
	sub	x8, x19, x27
	mov	x26, x27
	cmp	x8, #1025
	b.lo	.LBB16_34
	add	x8, x26, #1024
	mov	x10, xzr
	ldrsb	w9, [x20, x8]
	cmn	w9, #64
	cset	w9, lt
	csetm	x11, lt
	sub	x8, x8, x9
	ldrsb	w9, [x20, x8]
	cmn	w9, #64
	cset	w9, lt
	csetm	x12, lt
	sub	x8, x8, x9
	ldrsb	w9, [x20, x8]
	cmn	w9, #64
	cset	w9, lt
	csetm	x13, lt
	sub	x27, x8, x9
	add	x9, x20, x26
	sub	x8, x27, x26
	cmp	x8, #64
	b.lo	.LBB16_22
	add	x11, x11, x12
	add	x1, x20, x26
	add	x11, x11, x13
	add	x11, x11, #960
.LBB16_19:
	ldp	q1, q2, [x1]
	ldr	q0, [x21, :lo12:.LCPI16_0]
	ldp	q3, q4, [x1, #32]
	cmlt	v1.16b, v1.16b, #0
	cmlt	v2.16b, v2.16b, #0
	cmlt	v4.16b, v4.16b, #0
	cmlt	v3.16b, v3.16b, #0
	and	v1.16b, v1.16b, v0.16b
	and	v2.16b, v2.16b, v0.16b
	and	v3.16b, v3.16b, v0.16b
	and	v4.16b, v4.16b, v0.16b
	addp	v1.16b, v1.16b, v2.16b
	addp	v2.16b, v3.16b, v4.16b
	addp	v1.16b, v1.16b, v2.16b
	addp	v1.16b, v1.16b, v1.16b
	fmov	x12, d1
	cbnz	x12, .LBB16_26
	sub	x12, x11, #64
	add	x10, x10, #64
	cmp	x11, #63
	add	x1, x1, #64
	sub	x8, x8, #64
	mov	x11, x12
	b.hi	.LBB16_19
	add	x8, x12, #64
.LBB16_22:
	movi	v0.2d, #0000000000000000
	mov	x3, xzr
	add	x1, x9, x10
	mov	x2, x8
.LBB16_23:
	stp	q0, q0, [sp, #32]
	stp	q0, q0, [sp, #64]
	stp	q0, q0, [sp, #96]
	stp	q0, q0, [sp, #128]
	str	q0, [sp, #16]
.LBB16_24:
	sub	x0, x29, #128
	bl	"simdutf8::last_block"
	ldp	q4, q2, [x29, #-128]
	ldr	q0, [x21, :lo12:.LCPI16_0]
	ldp	q3, q1, [x29, #-96]
	cmlt	v5.16b, v4.16b, #0
	cmlt	v16.16b, v2.16b, #0
	cmlt	v6.16b, v1.16b, #0
	cmlt	v7.16b, v3.16b, #0
	and	v5.16b, v5.16b, v0.16b
	and	v16.16b, v16.16b, v0.16b
	and	v7.16b, v7.16b, v0.16b
	and	v6.16b, v6.16b, v0.16b
	addp	v5.16b, v5.16b, v16.16b
	addp	v6.16b, v7.16b, v6.16b
	ldp	q16, q7, [sp, #32]
	addp	v5.16b, v5.16b, v6.16b
	addp	v5.16b, v5.16b, v5.16b
	fmov	x8, d5
	ldp	q6, q5, [sp, #64]
	cbz	x8, .LBB16_15
	ldr	q31, [sp, #16]
	ext	v6.16b, v4.16b, v2.16b, #15
	ext	v7.16b, v2.16b, v3.16b, #15
	ext	v16.16b, v3.16b, v1.16b, #15
	movi	v17.16b, #15
	ldr	q18, [x22, :lo12:.LCPI16_1]
	ext	v5.16b, v31.16b, v4.16b, #15
	ldr	q19, [x23, :lo12:.LCPI16_2]
	ushr	v28.16b, v4.16b, #4
	ext	v29.16b, v4.16b, v2.16b, #14
	ext	v30.16b, v2.16b, v3.16b, #13
	ushr	v27.16b, v1.16b, #4
	ushr	v20.16b, v6.16b, #4
	ushr	v23.16b, v7.16b, #4
	ushr	v22.16b, v16.16b, #4
	and	v25.16b, v16.16b, v17.16b
	and	v26.16b, v7.16b, v17.16b
	ushr	v21.16b, v5.16b, #4
	and	v24.16b, v5.16b, v17.16b
	and	v17.16b, v6.16b, v17.16b
	tbl	v6.16b, { v18.16b }, v20.16b
	tbl	v7.16b, { v18.16b }, v23.16b
	movi	v23.16b, #96
	tbl	v20.16b, { v18.16b }, v22.16b
	ext	v22.16b, v3.16b, v1.16b, #14
	tbl	v5.16b, { v18.16b }, v21.16b
	tbl	v16.16b, { v19.16b }, v24.16b
	tbl	v17.16b, { v19.16b }, v17.16b
	tbl	v18.16b, { v19.16b }, v26.16b
	tbl	v19.16b, { v19.16b }, v25.16b
	ext	v25.16b, v3.16b, v1.16b, #13
	movi	v26.16b, #112
	ext	v21.16b, v2.16b, v3.16b, #14
	ext	v24.16b, v31.16b, v4.16b, #14
	uqsub	v22.16b, v22.16b, v23.16b
	ushr	v3.16b, v3.16b, #4
	and	v5.16b, v16.16b, v5.16b
	and	v6.16b, v17.16b, v6.16b
	and	v19.16b, v19.16b, v20.16b
	ext	v20.16b, v4.16b, v2.16b, #13
	ext	v4.16b, v31.16b, v4.16b, #13
	ldr	q31, [x24, :lo12:.LCPI16_3]
	uqsub	v25.16b, v25.16b, v26.16b
	uqsub	v24.16b, v24.16b, v23.16b
	uqsub	v21.16b, v21.16b, v23.16b
	uqsub	v23.16b, v29.16b, v23.16b
	ushr	v2.16b, v2.16b, #4
	tbl	v27.16b, { v31.16b }, v27.16b
	uqsub	v29.16b, v30.16b, v26.16b
	tbl	v28.16b, { v31.16b }, v28.16b
	uqsub	v20.16b, v20.16b, v26.16b
	uqsub	v4.16b, v4.16b, v26.16b
	movi	v26.16b, #128
	orr	v22.16b, v22.16b, v25.16b
	tbl	v2.16b, { v31.16b }, v2.16b
	tbl	v3.16b, { v31.16b }, v3.16b
	and	v7.16b, v18.16b, v7.16b
	and	v16.16b, v19.16b, v27.16b
	orr	v18.16b, v21.16b, v29.16b
	and	v5.16b, v5.16b, v28.16b
	orr	v17.16b, v23.16b, v20.16b
	ldr	q20, [x25, :lo12:.LCPI16_4]
	orr	v4.16b, v24.16b, v4.16b
	and	v19.16b, v22.16b, v26.16b
	and	v2.16b, v6.16b, v2.16b
	and	v3.16b, v7.16b, v3.16b
	uqsub	v1.16b, v1.16b, v20.16b
	and	v7.16b, v18.16b, v26.16b
	and	v6.16b, v17.16b, v26.16b
	and	v4.16b, v4.16b, v26.16b
	eor	v16.16b, v16.16b, v19.16b
	eor	v7.16b, v3.16b, v7.16b
	eor	v6.16b, v2.16b, v6.16b
	eor	v5.16b, v5.16b, v4.16b
	orr	v16.16b, v16.16b, v1.16b
	b	.LBB16_15
.LBB16_26:
	add	x2, x11, #64
	cmp	x2, #64
	b.lo	.LBB16_32
	movi	v4.2d, #0000000000000000
	movi	v16.2d, #0000000000000000
	mov	x9, xzr
	movi	v5.2d, #0000000000000000
	movi	v6.2d, #0000000000000000
	movi	v7.2d, #0000000000000000
	movi	v11.2d, #0000000000000000
	movi	v12.2d, #0000000000000000
	movi	v13.2d, #0000000000000000
	movi	v14.2d, #0000000000000000
	b	.LBB16_30
.LBB16_28:
	ext	v5.16b, v4.16b, v1.16b, #15
	ext	v6.16b, v1.16b, v2.16b, #15
	ldr	q18, [x22, :lo12:.LCPI16_1]
	ext	v7.16b, v2.16b, v3.16b, #15
	ext	v16.16b, v3.16b, v15.16b, #15
	ldr	q25, [x23, :lo12:.LCPI16_2]
	movi	v17.16b, #15
	movi	v27.16b, #112
	ldr	q10, [x24, :lo12:.LCPI16_3]
	ext	v28.16b, v2.16b, v3.16b, #14
	ext	v29.16b, v3.16b, v15.16b, #13
	ext	v8.16b, v2.16b, v3.16b, #13
	ushr	v20.16b, v6.16b, #4
	ushr	v21.16b, v5.16b, #4
	ushr	v30.16b, v3.16b, #4
	ushr	v19.16b, v7.16b, #4
	ushr	v22.16b, v16.16b, #4
	ushr	v31.16b, v2.16b, #4
	and	v23.16b, v6.16b, v17.16b
	and	v24.16b, v5.16b, v17.16b
	and	v26.16b, v16.16b, v17.16b
	and	v17.16b, v7.16b, v17.16b
	tbl	v7.16b, { v18.16b }, v21.16b
	tbl	v16.16b, { v18.16b }, v20.16b
	tbl	v5.16b, { v18.16b }, v19.16b
	tbl	v6.16b, { v18.16b }, v22.16b
	ext	v22.16b, v1.16b, v2.16b, #14
	tbl	v19.16b, { v25.16b }, v24.16b
	tbl	v20.16b, { v25.16b }, v23.16b
	tbl	v18.16b, { v25.16b }, v26.16b
	tbl	v17.16b, { v25.16b }, v17.16b
	ext	v23.16b, v4.16b, v1.16b, #14
	movi	v24.16b, #96
	ext	v25.16b, v3.16b, v15.16b, #14
	ext	v26.16b, v1.16b, v2.16b, #13
	ext	v4.16b, v4.16b, v1.16b, #13
	ushr	v21.16b, v15.16b, #4
	ushr	v9.16b, v1.16b, #4
	tbl	v31.16b, { v10.16b }, v31.16b
	tbl	v30.16b, { v10.16b }, v30.16b
	and	v7.16b, v19.16b, v7.16b
	and	v16.16b, v20.16b, v16.16b
	uqsub	v23.16b, v23.16b, v24.16b
	uqsub	v22.16b, v22.16b, v24.16b
	and	v5.16b, v17.16b, v5.16b
	uqsub	v25.16b, v25.16b, v24.16b
	uqsub	v26.16b, v26.16b, v27.16b
	uqsub	v24.16b, v28.16b, v24.16b
	uqsub	v4.16b, v4.16b, v27.16b
	uqsub	v28.16b, v29.16b, v27.16b
	uqsub	v27.16b, v8.16b, v27.16b
	tbl	v29.16b, { v10.16b }, v9.16b
	tbl	v21.16b, { v10.16b }, v21.16b
	movi	v8.16b, #128
	and	v6.16b, v18.16b, v6.16b
	movi	v20.2d, #0xffffffffffffffff
	orr	v19.16b, v22.16b, v26.16b
	orr	v4.16b, v23.16b, v4.16b
	orr	v17.16b, v24.16b, v27.16b
	orr	v18.16b, v25.16b, v28.16b
	and	v22.16b, v7.16b, v29.16b
	and	v7.16b, v16.16b, v31.16b
	and	v21.16b, v6.16b, v21.16b
	and	v16.16b, v19.16b, v8.16b
	and	v19.16b, v5.16b, v30.16b
	uqsub	v1.16b, v1.16b, v20.16b
	and	v4.16b, v4.16b, v8.16b
	and	v18.16b, v18.16b, v8.16b
	and	v6.16b, v17.16b, v8.16b
	ldr	q17, [x25, :lo12:.LCPI16_4]
	uqsub	v2.16b, v2.16b, v20.16b
	uqsub	v3.16b, v3.16b, v20.16b
	eor	v5.16b, v7.16b, v16.16b
	uqsub	v17.16b, v15.16b, v17.16b
	eor	v6.16b, v19.16b, v6.16b
	eor	v7.16b, v21.16b, v18.16b
	eor	v16.16b, v22.16b, v4.16b
.LBB16_29:
	orr	v11.16b, v16.16b, v11.16b
	orr	v12.16b, v5.16b, v12.16b
	sub	x8, x8, #64
	orr	v13.16b, v6.16b, v13.16b
	orr	v14.16b, v7.16b, v14.16b
	add	x9, x9, #64
	mov	v4.16b, v15.16b
	mov	v16.16b, v1.16b
	cmp	x8, #63
	mov	v5.16b, v2.16b
	mov	v6.16b, v3.16b
	mov	v7.16b, v17.16b
	b.ls	.LBB16_33
.LBB16_30:
	add	x10, x1, x9
	ldp	q1, q2, [x10]
	ldp	q3, q15, [x10, #32]
	cmlt	v17.16b, v1.16b, #0
	cmlt	v20.16b, v2.16b, #0
	cmlt	v18.16b, v15.16b, #0
	cmlt	v19.16b, v3.16b, #0
	and	v17.16b, v17.16b, v0.16b
	and	v20.16b, v20.16b, v0.16b
	and	v19.16b, v19.16b, v0.16b
	and	v18.16b, v18.16b, v0.16b
	addp	v17.16b, v17.16b, v20.16b
	addp	v18.16b, v19.16b, v18.16b
	addp	v17.16b, v17.16b, v18.16b
	addp	v17.16b, v17.16b, v17.16b
	fmov	x10, d17
	cbnz	x10, .LBB16_28
	movi	v1.2d, #0000000000000000
	movi	v2.2d, #0000000000000000
	movi	v3.2d, #0000000000000000
	movi	v17.2d, #0000000000000000
	b	.LBB16_29
.LBB16_32:
	movi	v0.2d, #0000000000000000
	mov	x3, xzr
	b	.LBB16_23
.LBB16_33:
	and	x3, x2, #0xffffffffffffffc0
	stp	q17, q3, [sp, #32]
	stp	q2, q1, [sp, #64]
	str	q15, [sp, #16]
	stp	q14, q13, [sp, #96]
	stp	q12, q11, [sp, #128]
	b	.LBB16_24
.LBB16_34:
	sub	x0, x29, #128
	add	x1, x20, x26
	sub	x2, x19, x26
	stp	xzr, xzr, [x29, #-128]
	stur	xzr, [x29, #-112]
	bl	"core::str::utf8::from_utf8"
	ldurb	w8, [x29, #-128]
	cbz	w8, .LBB16_36
	ldur	x8, [x29, #-120]
	add	x19, x8, x26
.LBB16_36:
	mov	x0, x19
	.cfi_def_cfa wsp, 384
	ldp	x20, x19, [sp, #368]
	ldp	x22, x21, [sp, #352]
	ldp	x24, x23, [sp, #336]
	ldp	x26, x25, [sp, #320]
	ldp	x28, x27, [sp, #304]
	ldp	x29, x30, [sp, #288]
	ldp	d9, d8, [sp, #272]
	ldp	d11, d10, [sp, #256]
	ldp	d13, d12, [sp, #240]
	ldp	d15, d14, [sp, #224]
	add	sp, sp, #384
	.cfi_def_cfa_offset 0
	.cfi_restore w19
	.cfi_restore w20
	.cfi_restore w21
	.cfi_restore w22
	.cfi_restore w23
	.cfi_restore w24
	.cfi_restore w25
	.cfi_restore w26
	.cfi_restore w27
	.cfi_restore w28
	.cfi_restore w30
	.cfi_restore w29
	.cfi_restore b8
	.cfi_restore b9
	.cfi_restore b10
	.cfi_restore b11
	.cfi_restore b12
	.cfi_restore b13
	.cfi_restore b14
	.cfi_restore b15
	ret
.Lfunc_end16:
	.size	"utf16_transcode::encode::valid_prefix", .Lfunc_end16-"utf16_transcode::encode::valid_prefix"
	.cfi_endproc

	.section	".text.simdutf8::last_block","ax",@progbits
	.p2align	2
	.type	"simdutf8::last_block",@function
"simdutf8::last_block":
	.cfi_startproc
	stp	x29, x30, [sp, #-32]!
	.cfi_def_cfa_offset 32
	str	x19, [sp, #16]
	mov	x29, sp
	.cfi_def_cfa w29, 32
	.cfi_offset w19, -16
	.cfi_offset w30, -24
	.cfi_offset w29, -32
	sub	x9, sp, #96
	and	sp, x9, #0xffffffffffffffc0
	movi	v0.2d, #0000000000000000
	mov	x19, x0
	sub	x2, x2, x3
	mov	x0, sp
	add	x1, x1, x3
	stp	q0, q0, [sp]
	stp	q0, q0, [sp, #32]
	bl	memcpy
	ldp	q1, q0, [sp, #32]
	stp	q1, q0, [x19, #32]
	ldp	q2, q0, [sp]
	stp	q2, q0, [x19]
	mov	sp, x29
	.cfi_def_cfa wsp, 32
	ldr	x19, [sp, #16]
	ldp	x29, x30, [sp], #32
	.cfi_def_cfa_offset 0
	.cfi_restore w19
	.cfi_restore w30
	.cfi_restore w29
	ret
.Lfunc_end17:
	.size	"simdutf8::last_block", .Lfunc_end17-"simdutf8::last_block"
	.cfi_endproc

	.section	.rodata.cst16,"aM",@progbits,16
	.p2align	4, 0x0
.LCPI18_0:
	.byte	1
	.byte	2
	.byte	4
	.byte	8
	.byte	16
	.byte	32
	.byte	64
	.byte	128
	.byte	1
	.byte	2
	.byte	4
	.byte	8
	.byte	16
	.byte	32
	.byte	64
	.byte	128
	.section	".text.utf16_to_utf8::lens::utf8_len::<#8b18edd9dd9aa8df>","ax",@progbits
	.p2align	2
	.type	"utf16_to_utf8::lens::utf8_len::<#8b18edd9dd9aa8df>",@function
"utf16_to_utf8::lens::utf8_len::<#8b18edd9dd9aa8df>":
	.cfi_startproc
	stp	x29, x30, [sp, #-48]!
	.cfi_def_cfa_offset 48
	str	x21, [sp, #16]
	stp	x20, x19, [sp, #32]
	mov	x29, sp
	.cfi_def_cfa w29, 48
	.cfi_offset w19, -8
	.cfi_offset w20, -16
	.cfi_offset w21, -32
	.cfi_offset w30, -40
	.cfi_offset w29, -48
	sub	x9, sp, #80
	and	sp, x9, #0xffffffffffffffc0
	mov	x19, x1
	mov	x8, x0
	cmp	x1, #64
	adrp	x21, .LCPI18_0
	mov	x20, xzr
	b.lo	.LBB18_6
	mov	x9, x8
	mov	x2, x19
	b	.LBB18_3
.LBB18_2:
	uzp2	v4.16b, v0.16b, v1.16b
	movi	v5.16b, #248
	uzp2	v6.16b, v2.16b, v3.16b
	movi	v7.16b, #216
	and	v4.16b, v4.16b, v5.16b
	and	v5.16b, v6.16b, v5.16b
	ldr	q6, [x21, :lo12:.LCPI18_0]
	cmeq	v16.16b, v4.16b, #0
	cmeq	v17.16b, v5.16b, #0
	cmeq	v5.16b, v5.16b, v7.16b
	cmeq	v4.16b, v4.16b, v7.16b
	and	v7.16b, v16.16b, v6.16b
	and	v16.16b, v17.16b, v6.16b
	and	v5.16b, v5.16b, v6.16b
	and	v4.16b, v4.16b, v6.16b
	movi	v17.8h, #128
	addp	v7.16b, v7.16b, v16.16b
	addp	v4.16b, v4.16b, v5.16b
	cmhi	v2.8h, v17.8h, v2.8h
	cmhi	v3.8h, v17.8h, v3.8h
	cmhi	v0.8h, v17.8h, v0.8h
	cmhi	v1.8h, v17.8h, v1.8h
	addp	v5.16b, v7.16b, v7.16b
	addp	v4.16b, v4.16b, v4.16b
	uzp1	v2.16b, v2.16b, v3.16b
	uzp1	v0.16b, v0.16b, v1.16b
	addp	v5.16b, v5.16b, v5.16b
	addp	v4.16b, v4.16b, v4.16b
	and	v2.16b, v2.16b, v6.16b
	zip1	v1.2s, v4.2s, v5.2s
	and	v0.16b, v0.16b, v6.16b
	addp	v0.16b, v0.16b, v2.16b
	cnt	v1.8b, v1.8b
	addp	v0.16b, v0.16b, v0.16b
	uaddlp	v1.4h, v1.8b
	addp	v0.16b, v0.16b, v0.16b
	uaddlp	v2.2s, v1.4h
	fmov	w10, s0
	dup	v2.2s, v2.s[1]
	fmov	s0, w10
	uadalp	v2.2s, v1.4h
	cnt	v0.8b, v0.8b
	addv	b0, v0.8b
	fmov	w10, s2
	fmov	w11, s0
	add	w10, w10, w11
	mov	w11, #96
	sub	x10, x11, x10
	sub	x2, x2, #64
	add	x20, x10, x20
	add	x9, x9, #64
	cmp	x2, #63
	b.ls	.LBB18_5
.LBB18_3:
	ldp	q0, q1, [x9, #32]
	ldp	q3, q4, [x9]
	rev16	v2.16b, v0.16b
	rev16	v0.16b, v3.16b
	rev16	v3.16b, v1.16b
	rev16	v1.16b, v4.16b
	orr	v4.16b, v1.16b, v3.16b
	orr	v5.16b, v0.16b, v2.16b
	bic	v4.8h, #127
	bic	v5.8h, #127
	orr	v4.16b, v5.16b, v4.16b
	ext	v5.16b, v4.16b, v4.16b, #8
	orr	v4.8b, v4.8b, v5.8b
	fmov	x10, d4
	lsr	x11, x10, #32
	orr	w10, w10, w11
	orr	w10, w10, w10, lsr #16
	tst	w10, #0xffff
	b.ne	.LBB18_2
	mov	w10, #32
	sub	x2, x2, #64
	add	x20, x10, x20
	add	x9, x9, #64
	cmp	x2, #63
	b.hi	.LBB18_3
.LBB18_5:
	and	x9, x19, #0xffffffffffffffc0
	b	.LBB18_7
.LBB18_6:
	mov	x9, xzr
	mov	x2, x19
.LBB18_7:
	movi	v0.2d, #0000000000000000
	mov	x0, sp
	add	x1, x8, x9
	stp	q0, q0, [sp]
	stp	q0, q0, [sp, #32]
	bl	memcpy
	ldp	q0, q1, [sp, #32]
	ldp	q3, q4, [sp]
	rev16	v2.16b, v0.16b
	rev16	v0.16b, v3.16b
	rev16	v3.16b, v1.16b
	rev16	v1.16b, v4.16b
	orr	v4.16b, v1.16b, v3.16b
	orr	v5.16b, v0.16b, v2.16b
	bic	v4.8h, #127
	bic	v5.8h, #127
	orr	v4.16b, v5.16b, v4.16b
	ext	v5.16b, v4.16b, v4.16b, #8
	orr	v4.8b, v4.8b, v5.8b
	fmov	x8, d4
	lsr	x9, x8, #32
	orr	w8, w8, w9
	orr	w8, w8, w8, lsr #16
	tst	w8, #0xffff
	b.eq	.LBB18_9
	uzp2	v4.16b, v0.16b, v1.16b
	movi	v5.16b, #248
	uzp2	v6.16b, v2.16b, v3.16b
	movi	v7.16b, #216
	and	v4.16b, v4.16b, v5.16b
	and	v5.16b, v6.16b, v5.16b
	ldr	q6, [x21, :lo12:.LCPI18_0]
	cmeq	v16.16b, v4.16b, #0
	cmeq	v17.16b, v5.16b, #0
	cmeq	v5.16b, v5.16b, v7.16b
	cmeq	v4.16b, v4.16b, v7.16b
	and	v7.16b, v16.16b, v6.16b
	and	v16.16b, v17.16b, v6.16b
	and	v5.16b, v5.16b, v6.16b
	and	v4.16b, v4.16b, v6.16b
	movi	v17.8h, #128
	addp	v7.16b, v7.16b, v16.16b
	addp	v4.16b, v4.16b, v5.16b
	cmhi	v2.8h, v17.8h, v2.8h
	cmhi	v3.8h, v17.8h, v3.8h
	cmhi	v0.8h, v17.8h, v0.8h
	cmhi	v1.8h, v17.8h, v1.8h
	addp	v5.16b, v7.16b, v7.16b
	addp	v4.16b, v4.16b, v4.16b
	uzp1	v2.16b, v2.16b, v3.16b
	uzp1	v0.16b, v0.16b, v1.16b
	addp	v5.16b, v5.16b, v5.16b
	addp	v4.16b, v4.16b, v4.16b
	and	v2.16b, v2.16b, v6.16b
	zip1	v1.2s, v4.2s, v5.2s
	and	v0.16b, v0.16b, v6.16b
	addp	v0.16b, v0.16b, v2.16b
	cnt	v1.8b, v1.8b
	addp	v0.16b, v0.16b, v0.16b
	uaddlp	v1.4h, v1.8b
	addp	v0.16b, v0.16b, v0.16b
	uaddlp	v2.2s, v1.4h
	fmov	w8, s0
	dup	v2.2s, v2.s[1]
	fmov	s0, w8
	uadalp	v2.2s, v1.4h
	cnt	v0.8b, v0.8b
	addv	b0, v0.8b
	fmov	w8, s2
	fmov	w9, s0
	add	w8, w8, w9
	mov	w9, #96
	sub	x8, x9, x8
	b	.LBB18_10
.LBB18_9:
	mov	w8, #32
.LBB18_10:
	lsr	x9, x19, #1
	add	x8, x20, x8
	orr	x9, x9, #0xffffffffffffffe0
	add	x0, x8, x9
	mov	sp, x29
	.cfi_def_cfa wsp, 48
	ldp	x20, x19, [sp, #32]
	ldr	x21, [sp, #16]
	ldp	x29, x30, [sp], #48
	.cfi_def_cfa_offset 0
	.cfi_restore w19
	.cfi_restore w20
	.cfi_restore w21
	.cfi_restore w30
	.cfi_restore w29
	ret
.Lfunc_end18:
	.size	"utf16_to_utf8::lens::utf8_len::<#8b18edd9dd9aa8df>", .Lfunc_end18-"utf16_to_utf8::lens::utf8_len::<#8b18edd9dd9aa8df>"
	.cfi_endproc

	.section	.rodata.cst16,"aM",@progbits,16
	.p2align	4, 0x0
.LCPI19_0:
	.byte	1
	.byte	2
	.byte	4
	.byte	8
	.byte	16
	.byte	32
	.byte	64
	.byte	128
	.byte	1
	.byte	2
	.byte	4
	.byte	8
	.byte	16
	.byte	32
	.byte	64
	.byte	128
	.section	".text.utf16_transcode::transcoding::write_buffered_text::<#824f73f0383279b7>","ax",@progbits
	.p2align	2
	.type	"utf16_transcode::transcoding::write_buffered_text::<#824f73f0383279b7>",@function
"utf16_transcode::transcoding::write_buffered_text::<#824f73f0383279b7>":
	.cfi_startproc
	stp	x29, x30, [sp, #-80]!
	.cfi_def_cfa_offset 80
	stp	x26, x25, [sp, #16]
	stp	x24, x23, [sp, #32]
	stp	x22, x21, [sp, #48]
	stp	x20, x19, [sp, #64]
	mov	x29, sp
	.cfi_def_cfa w29, 80
	.cfi_offset w19, -8
	.cfi_offset w20, -16
	.cfi_offset w21, -24
	.cfi_offset w22, -32
	.cfi_offset w23, -40
	.cfi_offset w24, -48
	.cfi_offset w25, -56
	.cfi_offset w26, -64
	.cfi_offset w30, -72
	.cfi_offset w29, -80
	.cfi_remember_state
	mov	w8, #64
	cmp	x1, #64
	mov	x19, x5
	mov	x23, x4
	mov	x22, x3
	mov	x20, x2
	csel	x24, x1, x8, lo
	cmp	x1, #63
	mov	x25, x0
	b.hi	.LBB19_2
	mov	x1, x24
	bl	"utf16_transcode::encode::valid_prefix"
	mov	x21, x0
	b	.LBB19_4
.LBB19_2:
	mov	w1, #63
	bl	"utf16_transcode::encode::valid_prefix"
	add	x8, x0, #4
	mov	x21, x0
	cmp	x8, #64
	b.lo	.LBB19_4
	sub	x1, x24, x21
	add	x0, x25, x21
	bl	"utf16_transcode::encode::valid_prefix"
	add	x21, x0, x21
.LBB19_4:
	cmp	x21, #7
	b.hi	.LBB19_7
	mov	x24, xzr
	cbz	x21, .LBB19_34
	mov	x8, x21
	b	.LBB19_11
.LBB19_7:
	lsl	x24, x21, #1
	cmp	x21, #16
	b.hi	.LBB19_20
	add	x8, x25, x21
	ldr	d0, [x25]
	ldur	d1, [x8, #-8]
	adrp	x8, .Lstatic.11
	add	x8, x8, :lo12:.Lstatic.11
	add	x8, x8, x21, lsl #4
	mov	v0.d[1], v1.d[0]
	ldur	q1, [x8, #-128]
	adrp	x8, .LCPI19_0
	tbl	v1.16b, { v0.16b }, v1.16b
	ldr	q0, [x8, :lo12:.LCPI19_0]
	cmlt	v2.16b, v1.16b, #0
	and	v2.16b, v2.16b, v0.16b
	addp	v2.16b, v2.16b, v2.16b
	addp	v2.16b, v2.16b, v2.16b
	addp	v2.16b, v2.16b, v2.16b
	umov	w8, v2.h[0]
	cbz	w8, .LBB19_38
	adrp	x8, .Lstatic.12
	add	x8, x8, :lo12:.Lstatic.12
	movi	v3.2d, #0000000000000000
	sub	x8, x8, x21
	movi	v6.16b, #223
	movi	v7.16b, #191
	ldr	q2, [x8, #16]
	movi	v16.16b, #224
	movi	v17.16b, #64
	movi	v20.16b, #232
	movi	v21.16b, #231
	movi	v22.16b, #220
	umax	v2.16b, v1.16b, v2.16b
	movi	v1.16b, #192
	adrp	x10, .Lstatic.13
	add	x10, x10, :lo12:.Lstatic.13
	ext	v4.16b, v3.16b, v2.16b, #15
	cmge	v5.16b, v2.16b, #0
	cmhi	v7.16b, v2.16b, v7.16b
	ext	v3.16b, v3.16b, v4.16b, #15
	bsl	v5.16b, v1.16b, v4.16b
	cmhi	v6.16b, v4.16b, v6.16b
	shl	v18.16b, v4.16b, #2
	orr	v6.16b, v7.16b, v6.16b
	umax	v7.16b, v3.16b, v16.16b
	umax	v16.16b, v5.16b, v3.16b
	cmhi	v17.16b, v17.16b, v18.16b
	ushr	v19.16b, v5.16b, #2
	movi	v18.16b, #127
	shl	v5.16b, v5.16b, #6
	bic	v0.16b, v0.16b, v6.16b
	cmhi	v6.16b, v1.16b, v16.16b
	ushr	v16.16b, v2.16b, #4
	bsl	v17.16b, v21.16b, v20.16b
	sli	v19.16b, v7.16b, #4
	addp	v0.16b, v0.16b, v0.16b
	and	v2.16b, v2.16b, v18.16b
	sli	v16.16b, v4.16b, #2
	movi	v4.16b, #240
	and	v6.16b, v6.16b, v22.16b
	add	v7.16b, v17.16b, v3.16b
	addp	v0.16b, v0.16b, v0.16b
	add	v2.16b, v5.16b, v2.16b
	orr	v6.16b, v19.16b, v6.16b
	cmhi	v3.16b, v4.16b, v3.16b
	add	v1.16b, v16.16b, v1.16b
	addp	v0.16b, v0.16b, v0.16b
	mov	v4.16b, v3.16b
	bit	v1.16b, v2.16b, v3.16b
	umov	w8, v0.h[0]
	bsl	v4.16b, v6.16b, v7.16b
	and	x9, x8, #0xff
	ubfx	x8, x8, #8, #8
	ldr	q2, [x10, x9, lsl #4]
	zip1	v0.16b, v4.16b, v1.16b
	fmov	d3, x8
	zip2	v1.16b, v4.16b, v1.16b
	cnt	v3.8b, v3.8b
	tbl	v0.16b, { v0.16b }, v2.16b
	fmov	d2, x9
	cnt	v2.8b, v2.8b
	fmov	w9, s3
	str	q0, [x20]
	ldr	q0, [x10, x8, lsl #4]
	fmov	w8, s2
	tbl	v0.16b, { v1.16b }, v0.16b
	ubfiz	x10, x8, #1, #32
	add	x8, x8, x9
	lsl	x24, x8, #1
	str	q0, [x20, x10]
	sub	x8, x23, x19
	cmp	x24, x8
	b.ls	.LBB19_30
	b	.LBB19_29
.LBB19_10:
	mov	w12, #67043328
	mov	w13, #-10240
	add	w9, w9, w12
	mov	w12, #56320
	add	w9, w13, w9, lsr #10
	orr	w11, w11, w12
	rev16	w11, w11
	rev	w9, w9
	strh	w11, [x10, #2]
	lsr	w9, w9, #16
	strh	w9, [x10]
	mov	w9, #4
	add	x24, x9, x24
	cbz	x8, .LBB19_28
.LBB19_11:
	ldrsb	w10, [x25]
	and	w9, w10, #0xff
	tbnz	w10, #31, .LBB19_13
	mov	w11, #1
	b	.LBB19_17
.LBB19_13:
	ldrb	w10, [x25, #1]
	cmp	w9, #223
	and	w10, w10, #0x3f
	b.hi	.LBB19_15
	bfi	w10, w9, #6, #5
	mov	w11, #2
	mov	w9, w10
	b	.LBB19_17
.LBB19_15:
	ldrb	w11, [x25, #2]
	cmp	w9, #239
	and	w11, w11, #0x3f
	b.hi	.LBB19_19
	ubfiz	w9, w9, #12, #4
	orr	w9, w9, w10, lsl #6
	orr	w9, w9, w11
	mov	w11, #3
.LBB19_17:
	add	x25, x25, x11
	sub	x8, x8, x11
	add	x10, x20, x24
.LBB19_18:
	rev	w9, w9
	lsr	w9, w9, #16
	strh	w9, [x10]
	mov	w9, #2
	add	x24, x9, x24
	cbnz	x8, .LBB19_11
	b	.LBB19_28
.LBB19_19:
	ldrb	w12, [x25, #3]
	ubfiz	w9, w9, #18, #3
	add	x25, x25, #4
	sub	x8, x8, #4
	and	w12, w12, #0x3f
	orr	w9, w9, w10, lsl #12
	add	x10, x20, x24
	orr	w11, w12, w11, lsl #6
	lsr	w12, w9, #16
	orr	w9, w11, w9
	cbz	w12, .LBB19_18
	b	.LBB19_10
.LBB19_20:
	add	x26, x24, #16
	lsr	x8, x26, #1
	cmp	x8, x21
	csel	x4, x8, x21, lo
	cmp	x26, #32
	b.lo	.LBB19_22
	ldr	q1, [x25]
	adrp	x8, .LCPI19_0
	ldr	q0, [x8, :lo12:.LCPI19_0]
	cmlt	v2.16b, v1.16b, #0
	and	v2.16b, v2.16b, v0.16b
	addp	v2.16b, v2.16b, v2.16b
	addp	v2.16b, v2.16b, v2.16b
	addp	v2.16b, v2.16b, v2.16b
	umov	w8, v2.h[0]
	cbz	w8, .LBB19_45
.LBB19_22:
	mov	x4, xzr
.LBB19_23:
	lsl	x24, x4, #1
	subs	x8, x21, x4
	b.eq	.LBB19_28
	cmp	x8, #191
	b.ls	.LBB19_27
	mov	x0, x25
	mov	x1, x21
	mov	x2, x20
	mov	x3, x26
	mov	x5, x24
	bl	"utf16_from_utf8::blocks::write_mixed_blocks::<#8b18edd9dd9aa8df>"
	sub	x8, x21, x0
	mov	x24, x1
	cmp	x8, #191
	b.hi	.LBB19_28
	mov	x4, x0
.LBB19_27:
	mov	x0, x25
	mov	x1, x21
	mov	x2, x20
	mov	x3, x26
	mov	x5, x24
	bl	"utf16_from_utf8::rest::write_rest::<#8b18edd9dd9aa8df>"
	mov	x24, x1
.LBB19_28:
	sub	x8, x23, x19
	cmp	x24, x8
	b.ls	.LBB19_30
.LBB19_29:
	and	x8, x8, #0xfffffffffffffffe
	mov	x0, x20
	ldrb	w9, [x20, x8]
	sub	x10, x8, #2
	and	w9, w9, #0xfc
	cmp	w9, #220
	csel	x24, x10, x8, eq
	mov	x1, x24
	bl	"utf16_to_utf8::lens::utf8_len::<#8b18edd9dd9aa8df>"
	mov	x21, x0
.LBB19_30:
	add	x0, x22, x19
	sub	x8, x0, x20
	cmp	x8, x24
	b.hs	.LBB19_35
	cmp	x24, #8
	b.lo	.LBB19_33
	add	x8, x19, x22
	sub	x8, x8, x20
	cmp	x8, #32
	b.hs	.LBB19_36
.LBB19_33:
	mov	x8, xzr
	b	.LBB19_52
.LBB19_34:
	add	x0, x22, x19
.LBB19_35:
	mov	x1, x20
	mov	x2, x24
	bl	memmove
	b	.LBB19_50
.LBB19_36:
	cmp	x24, #32
	b.hs	.LBB19_39
	mov	x8, xzr
	b	.LBB19_43
.LBB19_38:
	shll	v0.8h, v1.8b, #8
	shll2	v1.8h, v1.16b, #8
	stp	q0, q1, [x20]
	sub	x8, x23, x19
	cmp	x24, x8
	b.ls	.LBB19_30
	b	.LBB19_29
.LBB19_39:
	add	x11, x19, x22
	and	x9, x24, #0x18
	and	x8, x24, #0xffffffffffffffe0
	add	x10, x20, #16
	add	x11, x11, #16
	and	x12, x24, #0xffffffffffffffe0
.LBB19_40:
	ldp	q0, q1, [x10, #-16]
	subs	x12, x12, #32
	add	x10, x10, #32
	stp	q0, q1, [x11, #-16]
	add	x11, x11, #32
	b.ne	.LBB19_40
	cmp	x24, x8
	b.eq	.LBB19_50
	cbz	x9, .LBB19_52
.LBB19_43:
	mov	x10, x8
	and	x8, x24, #0xfffffffffffffff8
	add	x11, x10, x19
	sub	x9, x10, x8
	add	x10, x20, x10
	add	x11, x22, x11
.LBB19_44:
	ldr	d0, [x10], #8
	adds	x9, x9, #8
	str	d0, [x11], #8
	b.ne	.LBB19_44
	b	.LBB19_51
.LBB19_45:
	cmp	x4, #31
	b.hi	.LBB19_48
	shll	v2.8h, v1.8b, #8
	shll2	v1.8h, v1.16b, #8
	sub	x8, x4, #16
	stp	q2, q1, [x20]
	ldr	q1, [x25, x8]
	cmlt	v2.16b, v1.16b, #0
	and	v0.16b, v2.16b, v0.16b
	addp	v0.16b, v0.16b, v0.16b
	addp	v0.16b, v0.16b, v0.16b
	addp	v0.16b, v0.16b, v0.16b
	umov	w9, v0.h[0]
	cbz	w9, .LBB19_49
	mov	w4, #16
	b	.LBB19_23
.LBB19_48:
	mov	x0, x25
	mov	x1, x4
	mov	x2, x20
	bl	"utf16_from_utf8::ascii::write_front::<#8b18edd9dd9aa8df>"
	mov	x4, x0
	b	.LBB19_23
.LBB19_49:
	shll	v0.8h, v1.8b, #8
	shll2	v1.8h, v1.16b, #8
	add	x8, x20, x8, lsl #1
	stp	q0, q1, [x8]
	b	.LBB19_23
.LBB19_50:
	add	x1, x24, x19
	mov	x0, x21
	.cfi_def_cfa wsp, 80
	ldp	x20, x19, [sp, #64]
	ldp	x22, x21, [sp, #48]
	ldp	x24, x23, [sp, #32]
	ldp	x26, x25, [sp, #16]
	ldp	x29, x30, [sp], #80
	.cfi_def_cfa_offset 0
	.cfi_restore w19
	.cfi_restore w20
	.cfi_restore w21
	.cfi_restore w22
	.cfi_restore w23
	.cfi_restore w24
	.cfi_restore w25
	.cfi_restore w26
	.cfi_restore w30
	.cfi_restore w29
	ret
.LBB19_51:
	.cfi_restore_state
	cmp	x24, x8
	b.eq	.LBB19_50
.LBB19_52:
	ldrb	w9, [x20, x8]
	strb	w9, [x0, x8]
	add	x8, x8, #1
	b	.LBB19_51
.Lfunc_end19:
	.size	"utf16_transcode::transcoding::write_buffered_text::<#824f73f0383279b7>", .Lfunc_end19-"utf16_transcode::transcoding::write_buffered_text::<#824f73f0383279b7>"
	.cfi_endproc

	.section	.rodata.cst16,"aM",@progbits,16
	.p2align	4, 0x0
.LCPI20_0:
	.byte	1
	.byte	2
	.byte	4
	.byte	8
	.byte	16
	.byte	32
	.byte	64
	.byte	128
	.byte	1
	.byte	2
	.byte	4
	.byte	8
	.byte	16
	.byte	32
	.byte	64
	.byte	128
	.section	".text.utf16_transcode::items::write_items::<#8b18edd9dd9aa8df>","ax",@progbits
	.p2align	2
	.type	"utf16_transcode::items::write_items::<#8b18edd9dd9aa8df>",@function
"utf16_transcode::items::write_items::<#8b18edd9dd9aa8df>":
	.cfi_startproc
	mov	x8, x1
	mov	x9, x0
	mov	x0, xzr
	mov	x1, xzr
	mov	x10, xzr
	b	.LBB20_2
.LBB20_1:
	movi	v1.16b, #127
	ubfiz	x12, x15, #1, #32
	and	v0.16b, v0.16b, v1.16b
	shll	v1.8h, v0.8b, #8
	shll2	v0.8h, v0.16b, #8
	stp	q1, q0, [x11]
	mov	w11, #2
	add	x1, x12, x1
	add	x10, x11, x10
	cmp	x10, #16
	add	x0, x15, x0
	b.hs	.LBB20_47
.LBB20_2:
	sub	x13, x8, x0
	cmp	x13, #4
	b.lo	.LBB20_47
	sub	x11, x3, x1
	cmp	x11, #4
	b.lo	.LBB20_47
	cmp	x11, #32
	add	x12, x9, x0
	add	x11, x2, x1
	b.lo	.LBB20_12
	cmp	x13, #15
	b.ls	.LBB20_12
	ldr	q0, [x12]
	adrp	x13, .LCPI20_0
	ldr	q2, [x13, :lo12:.LCPI20_0]
	cmlt	v1.16b, v0.16b, #0
	and	v1.16b, v1.16b, v2.16b
	addp	v1.16b, v1.16b, v1.16b
	addp	v1.16b, v1.16b, v1.16b
	addp	v1.16b, v1.16b, v1.16b
	umov	w13, v1.h[0]
	orr	w13, w13, #0x10000
	rbit	w13, w13
	clz	w15, w13
	cmp	w15, #4
	b.hs	.LBB20_1
	umov	w13, v0.b[0]
	tbz	w13, #7, .LBB20_13
.LBB20_8:
	and	w16, w13, #0xff
	cmp	w16, #225
	b.hs	.LBB20_14
	lsr	w15, w13, #4
	ldrb	w14, [x12, #1]
	and	w15, w15, #0xc
	orr	w15, w15, w14, lsr #6
	cmp	w15, #14
	b.ne	.LBB20_27
	add	w15, w13, #62
	and	w16, w15, #0xff
	cmp	w16, #30
	b.hs	.LBB20_20
.LBB20_11:
	and	w12, w13, #0xff
	mov	w13, #-12416
	lsl	w12, w12, #6
	add	w12, w12, w14, uxtb
	add	w16, w12, w13
	b	.LBB20_41
.LBB20_12:
	ldrb	w13, [x12]
	tbnz	w13, #7, .LBB20_8
.LBB20_13:
	and	w16, w13, #0xff
	b	.LBB20_28
.LBB20_14:
	ldrb	w15, [x12, #1]
	cmp	w16, #236
	sxtb	w14, w15
	b.hi	.LBB20_18
	cmn	w14, #65
	b.gt	.LBB20_27
	ldrsb	w16, [x12, #2]
	cmn	w16, #65
	b.gt	.LBB20_34
	and	w12, w13, #0xff
	mov	w14, #57216
	and	w13, w16, #0xff
	lsl	w12, w12, #12
	movk	w14, #65521, lsl #16
	add	w13, w13, w14
	add	w12, w12, w15, lsl #6
	b	.LBB20_37
.LBB20_18:
	cmn	w14, #65
	b.gt	.LBB20_27
	add	w15, w13, #62
.LBB20_20:
	and	w16, w13, #0xff
	cmp	w16, #239
	b.gt	.LBB20_24
	cmp	w16, #224
	b.eq	.LBB20_38
	cmp	w16, #237
	b.ne	.LBB20_30
	mov	w17, #159
	mov	w16, #128
	and	w15, w15, #0xff
	cmp	w15, #50
	b.hi	.LBB20_27
	b	.LBB20_31
.LBB20_24:
	cmp	w16, #240
	b.eq	.LBB20_39
	cmp	w16, #244
	b.ne	.LBB20_30
	mov	w17, #143
	mov	w16, #128
	and	w15, w15, #0xff
	cmp	w15, #50
	b.ls	.LBB20_31
.LBB20_27:
	mov	w16, #65533
.LBB20_28:
	mov	w15, #1
.LBB20_29:
	rev	w12, w16
	mov	w13, #65533
	add	x1, x1, #2
	lsr	w12, w12, #16
	cmp	w16, w13
	csinc	x10, xzr, x10, eq
	strh	w12, [x11]
	cmp	x10, #16
	add	x0, x15, x0
	b.lo	.LBB20_2
	b	.LBB20_47
.LBB20_30:
	mov	w17, #191
	mov	w16, #128
	and	w15, w15, #0xff
	cmp	w15, #50
	b.hi	.LBB20_27
.LBB20_31:
	cmp	w16, w14, uxtb
	mov	w16, #65533
	mov	w15, #1
	b.hi	.LBB20_29
	cmp	w17, w14, uxtb
	b.lo	.LBB20_29
	and	w15, w13, #0xff
	cmp	w15, #223
	b.ls	.LBB20_11
.LBB20_34:
	ldrsb	w15, [x12, #2]
	cmn	w15, #65
	b.gt	.LBB20_40
	and	w16, w13, #0xff
	and	w15, w15, #0xff
	cmp	w16, #239
	b.hi	.LBB20_42
	lsl	w12, w16, #12
	and	w13, w14, #0xff
	add	w12, w12, w13, lsl #6
	mov	w13, #57216
	movk	w13, #65521, lsl #16
	add	w13, w15, w13
.LBB20_37:
	add	w16, w12, w13
	mov	w15, #3
	b	.LBB20_29
.LBB20_38:
	mov	w17, #191
	mov	w16, #160
	and	w15, w15, #0xff
	cmp	w15, #50
	b.ls	.LBB20_31
	b	.LBB20_27
.LBB20_39:
	mov	w17, #191
	mov	w16, #144
	and	w15, w15, #0xff
	cmp	w15, #50
	b.hi	.LBB20_27
	b	.LBB20_31
.LBB20_40:
	mov	w16, #65533
.LBB20_41:
	mov	w15, #2
	b	.LBB20_29
.LBB20_42:
	ldrsb	w12, [x12, #3]
	cmn	w12, #65
	b.gt	.LBB20_45
	and	w13, w13, #0xff
	and	w14, w14, #0xff
	and	w12, w12, #0xff
	lsl	w13, w13, #18
	add	w13, w13, w14, lsl #12
	mov	w14, #57216
	movk	w14, #64567, lsl #16
	add	w13, w13, w15, lsl #6
	add	w12, w12, w14
	add	w16, w13, w12
	cmp	w16, #16, lsl #12
	b.hs	.LBB20_46
	mov	w15, #4
	b	.LBB20_29
.LBB20_45:
	mov	w16, #65533
	mov	w15, #3
	b	.LBB20_29
.LBB20_46:
	mov	w12, #67043328
	mov	w13, #-10240
	mov	w14, #56320
	add	w12, w16, w12
	bfxil	w14, w16, #0, #10
	mov	w15, #4
	add	w12, w13, w12, lsr #10
	rev16	w13, w14
	rev	w12, w12
	strh	w13, [x11, #2]
	lsr	w12, w12, #16
	strh	w12, [x11]
	mov	w11, #1
	mov	w12, #4
	add	x1, x12, x1
	add	x10, x11, x10
	cmp	x10, #16
	add	x0, x15, x0
	b.lo	.LBB20_2
.LBB20_47:
	ret
.Lfunc_end20:
	.size	"utf16_transcode::items::write_items::<#8b18edd9dd9aa8df>", .Lfunc_end20-"utf16_transcode::items::write_items::<#8b18edd9dd9aa8df>"
	.cfi_endproc

	.section	.rodata.cst16,"aM",@progbits,16
	.p2align	4, 0x0
.LCPI21_0:
	.byte	1
	.byte	2
	.byte	4
	.byte	8
	.byte	16
	.byte	32
	.byte	64
	.byte	128
	.byte	1
	.byte	2
	.byte	4
	.byte	8
	.byte	16
	.byte	32
	.byte	64
	.byte	128
	.section	".text.utf16_streams::filters::filter_by::<#27bba4883ebf77b8>","ax",@progbits
	.p2align	2
	.type	"utf16_streams::filters::filter_by::<#27bba4883ebf77b8>",@function
"utf16_streams::filters::filter_by::<#27bba4883ebf77b8>":
	.cfi_startproc
	stp	x29, x30, [sp, #-96]!
	.cfi_def_cfa_offset 96
	stp	x28, x27, [sp, #16]
	stp	x26, x25, [sp, #32]
	stp	x24, x23, [sp, #48]
	stp	x22, x21, [sp, #64]
	stp	x20, x19, [sp, #80]
	mov	x29, sp
	.cfi_def_cfa w29, 96
	.cfi_offset w19, -8
	.cfi_offset w20, -16
	.cfi_offset w21, -24
	.cfi_offset w22, -32
	.cfi_offset w23, -40
	.cfi_offset w24, -48
	.cfi_offset w25, -56
	.cfi_offset w26, -64
	.cfi_offset w27, -72
	.cfi_offset w28, -80
	.cfi_offset w30, -88
	.cfi_offset w29, -96
	.cfi_remember_state
	sub	sp, sp, #3072
	str	xzr, [sp]
	sub	sp, sp, #1312
	str	xzr, [sp]
	sub	x23, x29, #104
	ldrb	w8, [x0, #4]
	stp	x1, x2, [sp]
	ldr	w20, [x0]
	add	x0, sp, #152
	mov	w1, wzr
	mov	w2, #4096
	str	w8, [sp, #20]
	bl	memset
	mov	x9, xzr
	sub	x8, x29, #9
	stp	xzr, xzr, [sp, #136]
	stp	xzr, xzr, [sp, #120]
	stp	x8, xzr, [sp, #104]
.LBB21_1:
	add	x1, sp, #152
	mov	w0, wzr
	mov	w2, #4096
	str	x9, [sp, #24]
	bl	read
	tbnz	x0, #63, .LBB21_79
	cmp	x0, #1, lsl #12
	mov	w8, #4096
	csel	x8, x0, x8, lo
	str	x8, [sp, #56]
	cbz	x0, .LBB21_82
	cmp	x0, #8
	b.hs	.LBB21_5
	add	x25, sp, #128
	mov	w22, #24
	b	.LBB21_14
.LBB21_5:
	ldp	x22, x21, [sp, #112]
	cbz	x21, .LBB21_11
	ldr	x8, [sp, #56]
	lsl	x8, x8, #1
	add	x8, x8, #512
	subs	x2, x8, x22
	b.ls	.LBB21_13
.LBB21_7:
	sub	x8, x21, x22
	cmp	x2, x8
	b.hi	.LBB21_77
	add	x19, x22, x2
	ldr	x25, [sp, #104]
	cmp	x22, x19
	b.hs	.LBB21_10
.LBB21_9:
	add	x0, x25, x22
	mov	w1, wzr
	bl	memset
.LBB21_10:
	mov	x22, x19
	stp	x19, x21, [sp, #112]
	b	.LBB21_14
.LBB21_11:
	sub	x8, x22, #1
	mov	x9, #-8704
	cmp	x8, x9
	b.hs	.LBB21_55
	mov	x21, xzr
	ldr	x8, [sp, #56]
	lsl	x8, x8, #1
	add	x8, x8, #512
	subs	x2, x8, x22
	b.hi	.LBB21_7
.LBB21_13:
	ldr	x25, [sp, #104]
.LBB21_14:
	lsr	w8, w20, #24
	mov	w9, #3
	mov	x24, xzr
	mov	x11, xzr
	stp	wzr, w20, [x29, #-112]
	cmp	w8, #3
	stur	wzr, [x29, #-136]
	csel	w12, w8, w9, lo
	str	x22, [sp, #32]
	stp	x12, x25, [sp, #40]
.LBB21_15:
	subs	x8, x11, x12
	stp	x11, x24, [sp, #64]
	b.hs	.LBB21_52
	sub	x20, x12, x11
	mov	w8, #4
	ldr	x10, [sp, #56]
	sub	x8, x8, x20
	sub	x9, x29, #108
	sub	x0, x29, #104
	cmp	x8, x10
	add	x1, x9, x11
	sub	x2, x12, x11
	csel	x19, x8, x10, lo
	stur	wzr, [x29, #-104]
	sub	x21, x29, #104
	bl	memcpy
	add	x0, x21, x20
	add	x1, sp, #152
	mov	x2, x19
	bl	memcpy
	ldur	w8, [x29, #-104]
	add	x27, x19, x20
	sub	x0, x29, #136
	add	x2, x25, x24
	sub	x3, x22, x24
	mov	x1, x27
	stp	xzr, xzr, [x29, #-104]
	add	x26, x25, x24
	sub	x28, x22, x24
	stur	w8, [x29, #-136]
	stur	xzr, [x29, #-88]
	bl	"utf16_transcode::encode::FromUtf8Direction::begin::<#418c2b53cf60437c>"
	mov	x6, x1
	cmp	x0, x27
	b.ne	.LBB21_21
	mov	x21, xzr
	mov	x22, xzr
	mov	x19, x27
.LBB21_18:
	mov	w8, wzr
	add	x9, x19, x21
	add	x19, x6, x22
.LBB21_19:
	ldp	x11, x24, [sp, #64]
	ldr	x22, [sp, #32]
	ldp	x12, x25, [sp, #40]
	add	x11, x9, x11
	add	x24, x19, x24
	cbz	x9, .LBB21_75
	cmp	w8, #3
	b.ne	.LBB21_15
	b	.LBB21_75
.LBB21_21:
	mov	x9, x22
	mov	x8, x24
	mov	x5, x0
	mov	x22, xzr
	mov	x21, xzr
	sub	x20, x29, #136
	sub	x24, x9, x24
	add	x25, x25, x8
	mov	x19, x27
	stp	x26, x27, [sp, #88]
	str	x28, [sp, #80]
	b	.LBB21_24
.LBB21_22:
	sub	x23, x29, #104
.LBB21_23:
	ldp	x26, x27, [sp, #88]
	add	x8, x19, x25
	ldr	x28, [sp, #80]
	add	x21, x24, x22
	add	x22, x8, #2
	sub	x8, x29, #136
	stp	xzr, xzr, [x29, #-104]
	add	x20, x8, x21
	sub	x19, x27, x21
	add	x25, x26, x22
	sub	x24, x28, x22
	mov	x0, x20
	mov	x1, x19
	mov	x2, x25
	mov	x3, x24
	stur	xzr, [x29, #-88]
	bl	"utf16_transcode::encode::FromUtf8Direction::begin::<#418c2b53cf60437c>"
	mov	x5, x0
	cmp	x0, x19
	mov	x6, x1
	b.eq	.LBB21_18
.LBB21_24:
	sub	x0, x29, #104
	mov	x1, x20
	mov	x2, x19
	mov	x3, x25
	mov	x4, x24
	bl	"utf16_transcode::transcoding::transcode_many::<#58ba01604e1c9b81>"
	ldp	x9, x10, [x29, #-104]
	ldrb	w8, [x23, #16]
	cmp	w8, #1
	add	x9, x9, x21
	add	x19, x10, x22
	b.ne	.LBB21_19
	sub	x8, x28, x19
	cmp	x8, #1
	b.ls	.LBB21_36
	ldrb	w10, [x23, #17]
	add	x26, x26, x19
	mov	w11, #65533
	sub	x20, x8, #2
	strh	w11, [x26], #2
	add	x22, x9, x10
	sub	x9, x29, #136
	mov	x2, x26
	add	x0, x22, x9
	sub	x1, x27, x22
	mov	x3, x20
	add	x21, x22, x9
	sub	x28, x27, x22
	bl	"utf16_transcode::items::write_items::<#418c2b53cf60437c>"
	sub	x27, x28, x0
	mov	x24, x0
	mov	x25, x1
	cmp	x27, #64
	b.lo	.LBB21_23
.LBB21_27:
	sub	x23, x20, x25
	cmp	x23, #128
	b.lo	.LBB21_22
	ldr	q0, [x21, x24]
	adrp	x8, .LCPI21_0
	ldr	q1, [x8, :lo12:.LCPI21_0]
	cmlt	v0.16b, v0.16b, #0
	and	v0.16b, v0.16b, v1.16b
	addp	v0.16b, v0.16b, v0.16b
	addp	v0.16b, v0.16b, v0.16b
	addp	v0.16b, v0.16b, v0.16b
	umov	w8, v0.h[0]
	cbz	w8, .LBB21_30
	mov	x4, xzr
	sub	x8, x27, xzr
	lsl	x5, xzr, #1
	cmp	x8, #64
	b.hs	.LBB21_31
	b	.LBB21_33
.LBB21_30:
	lsr	x8, x23, #1
	add	x0, x21, x24
	add	x2, x26, x25
	cmp	x8, x27
	csel	x1, x8, x27, lo
	bl	"utf16_from_utf8::ascii::write_front::<#418c2b53cf60437c>"
	mov	x4, x0
	sub	x8, x27, x0
	lsl	x5, x0, #1
	cmp	x8, #64
	b.lo	.LBB21_33
.LBB21_31:
	sub	x8, x23, x5
	cmp	x8, #128
	b.lo	.LBB21_33
	add	x0, x21, x24
	add	x2, x26, x25
	sub	x3, x20, x25
	mov	x1, x27
	bl	"utf16_from_utf8::blocks::write_mixed_blocks::<#418c2b53cf60437c>"
	mov	x4, x0
	mov	x5, x1
.LBB21_33:
	add	x24, x4, x24
	add	x25, x5, x25
	sub	x8, x28, x24
	cmp	x8, #4
	b.lo	.LBB21_22
	sub	x8, x20, x25
	cmp	x8, #4
	b.lo	.LBB21_22
	add	x0, x21, x24
	sub	x1, x28, x24
	add	x2, x26, x25
	sub	x3, x20, x25
	bl	"utf16_transcode::items::write_items::<#418c2b53cf60437c>"
	add	x24, x0, x24
	add	x25, x1, x25
	sub	x27, x28, x24
	cmp	x27, #63
	b.hi	.LBB21_27
	b	.LBB21_22
.LBB21_36:
	ldp	x8, x24, [sp, #64]
	ldp	x10, x25, [sp, #40]
	add	x8, x9, x8
	sub	x9, x29, #108
	add	x24, x19, x24
	cmp	x10, x8
	csel	x8, x10, x8, lo
	add	x1, x9, x8
	sub	x19, x10, x8
.LBB21_37:
	strb	wzr, [x23, #2]
	sub	x0, x29, #104
.LBB21_38:
	sturh	wzr, [x29, #-104]
	mov	x2, x19
	bl	memcpy
	ldrb	w8, [x23, #2]
	ldurh	w9, [x29, #-104]
	orr	w8, w9, w8, lsl #16
	ldr	x9, [sp, #24]
	orr	w20, w8, w19, lsl #24
	ldr	w8, [sp, #20]
	tbz	w8, #0, .LBB21_42
	cbz	x24, .LBB21_49
	cmp	x24, #1
	b.ne	.LBB21_50
.LBB21_41:
	add	x0, x25, #2
	mov	x1, x25
	mov	x2, x24
	bl	memmove
	ldr	x9, [sp, #24]
	mov	w8, #65279
	add	x24, x24, #2
	strh	w8, [x25]
.LBB21_42:
	cbz	x24, .LBB21_48
.LBB21_43:
	mov	x19, xzr
.LBB21_44:
	add	x1, x25, x19
	sub	x2, x24, x19
	mov	w0, #1
	sub	x21, x24, x19
	bl	write
	tbnz	x0, #63, .LBB21_98
	cmp	x0, x21
	csel	x8, x0, x21, lo
	cbz	x8, .LBB21_99
	add	x19, x8, x19
	cmp	x19, x24
	b.lo	.LBB21_44
	ldr	x9, [sp, #24]
	str	wzr, [sp, #20]
	add	x9, x9, #1
	cmn	x9, #1
	b.ne	.LBB21_1
	b	.LBB21_85
.LBB21_48:
	str	wzr, [sp, #20]
	add	x9, x9, #1
	cmn	x9, #1
	b.ne	.LBB21_1
	b	.LBB21_85
.LBB21_49:
	mov	w8, #1
	str	w8, [sp, #20]
	add	x9, x9, #1
	cmn	x9, #1
	b.ne	.LBB21_1
	b	.LBB21_85
.LBB21_50:
	ldrb	w8, [x25]
	cmp	w8, #255
	b.ne	.LBB21_41
	ldrb	w8, [x25, #1]
	cmp	w8, #254
	b.eq	.LBB21_43
	b	.LBB21_41
.LBB21_52:
	ldr	x10, [sp, #56]
	add	x9, sp, #152
	sub	x20, x22, x24
	add	x27, x9, x8
	add	x2, x25, x24
	mov	x3, x20
	sub	x28, x10, x8
	add	x8, x25, x24
	mov	x0, x27
	mov	x1, x28
	stp	xzr, xzr, [x29, #-104]
	str	x8, [sp, #96]
	stur	xzr, [x29, #-88]
	bl	"utf16_transcode::encode::FromUtf8Direction::begin::<#418c2b53cf60437c>"
	mov	x6, x1
	cmp	x0, x28
	b.ne	.LBB21_58
	mov	x21, xzr
	mov	x22, xzr
	mov	x19, x28
.LBB21_54:
	mov	w8, wzr
	add	x9, x19, x21
	add	x22, x6, x22
	b	.LBB21_74
.LBB21_55:
	mov	x8, #-8705
	cmp	x22, x8
	b.hi	.LBB21_107
	mov	w8, #8704
	mov	w1, #1
	add	x19, x22, x8
	mov	x0, x19
	bl	rattle_alloc
	tbz	w0, #0, .LBB21_104
	mov	w21, #8704
	str	x1, [sp, #104]
	str	x19, [sp, #120]
	ldr	x8, [sp, #56]
	lsl	x8, x8, #1
	add	x8, x8, #512
	subs	x2, x8, x22
	b.hi	.LBB21_7
	b	.LBB21_13
.LBB21_58:
	mov	x5, x0
	mov	x22, xzr
	mov	x21, xzr
	add	x26, x25, x24
	mov	x19, x28
	stp	x27, x20, [sp, #80]
	str	x28, [sp, #32]
	b	.LBB21_61
.LBB21_59:
	sub	x23, x29, #104
.LBB21_60:
	add	x8, x22, x28
	add	x21, x26, x25
	ldr	x28, [sp, #32]
	add	x22, x8, #2
	ldr	x8, [sp, #80]
	stp	xzr, xzr, [x29, #-104]
	sub	x19, x28, x21
	stur	xzr, [x29, #-88]
	add	x27, x8, x21
	ldr	x8, [sp, #96]
	mov	x1, x19
	mov	x0, x27
	add	x26, x8, x22
	ldr	x8, [sp, #88]
	mov	x2, x26
	sub	x20, x8, x22
	mov	x3, x20
	bl	"utf16_transcode::encode::FromUtf8Direction::begin::<#418c2b53cf60437c>"
	ldr	x25, [sp, #48]
	ldr	x24, [sp, #72]
	mov	x5, x0
	cmp	x0, x19
	mov	x6, x1
	b.eq	.LBB21_54
.LBB21_61:
	sub	x0, x29, #104
	mov	x1, x27
	mov	x2, x19
	mov	x3, x26
	mov	x4, x20
	bl	"utf16_transcode::transcoding::transcode_many::<#58ba01604e1c9b81>"
	ldp	x9, x10, [x29, #-104]
	ldrb	w8, [x23, #16]
	cmp	w8, #1
	add	x9, x9, x21
	add	x22, x10, x22
	b.ne	.LBB21_74
	ldr	x8, [sp, #88]
	sub	x8, x8, x22
	subs	x27, x8, #2
	b.lo	.LBB21_73
	ldrb	w8, [x23, #17]
	ldr	x10, [sp, #96]
	mov	x3, x27
	add	x25, x9, x8
	ldr	x8, [sp, #80]
	add	x20, x10, x22
	mov	w10, #65533
	sub	x1, x28, x25
	sub	x24, x28, x25
	strh	w10, [x20], #2
	add	x0, x25, x8
	mov	x2, x20
	add	x21, x25, x8
	bl	"utf16_transcode::items::write_items::<#418c2b53cf60437c>"
	sub	x19, x24, x0
	mov	x26, x0
	mov	x28, x1
	cmp	x19, #64
	b.lo	.LBB21_60
.LBB21_64:
	sub	x23, x27, x28
	cmp	x23, #128
	b.lo	.LBB21_59
	ldr	q0, [x21, x26]
	adrp	x8, .LCPI21_0
	ldr	q1, [x8, :lo12:.LCPI21_0]
	cmlt	v0.16b, v0.16b, #0
	and	v0.16b, v0.16b, v1.16b
	addp	v0.16b, v0.16b, v0.16b
	addp	v0.16b, v0.16b, v0.16b
	addp	v0.16b, v0.16b, v0.16b
	umov	w8, v0.h[0]
	cbz	w8, .LBB21_67
	mov	x4, xzr
	sub	x8, x19, xzr
	lsl	x5, xzr, #1
	cmp	x8, #64
	b.hs	.LBB21_68
	b	.LBB21_70
.LBB21_67:
	lsr	x8, x23, #1
	add	x0, x21, x26
	add	x2, x20, x28
	cmp	x8, x19
	csel	x1, x8, x19, lo
	bl	"utf16_from_utf8::ascii::write_front::<#418c2b53cf60437c>"
	mov	x4, x0
	sub	x8, x19, x0
	lsl	x5, x0, #1
	cmp	x8, #64
	b.lo	.LBB21_70
.LBB21_68:
	sub	x8, x23, x5
	cmp	x8, #128
	b.lo	.LBB21_70
	add	x0, x21, x26
	add	x2, x20, x28
	sub	x3, x27, x28
	mov	x1, x19
	bl	"utf16_from_utf8::blocks::write_mixed_blocks::<#418c2b53cf60437c>"
	mov	x4, x0
	mov	x5, x1
.LBB21_70:
	add	x26, x4, x26
	add	x28, x5, x28
	sub	x8, x24, x26
	cmp	x8, #4
	b.lo	.LBB21_59
	sub	x8, x27, x28
	cmp	x8, #4
	b.lo	.LBB21_59
	add	x0, x21, x26
	sub	x1, x24, x26
	add	x2, x20, x28
	sub	x3, x27, x28
	bl	"utf16_transcode::items::write_items::<#418c2b53cf60437c>"
	add	x26, x0, x26
	add	x28, x1, x28
	sub	x19, x24, x26
	cmp	x19, #63
	b.hi	.LBB21_64
	b	.LBB21_59
.LBB21_73:
	mov	w8, #3
.LBB21_74:
	ldr	x11, [sp, #64]
	ldr	x12, [sp, #40]
	add	x24, x22, x24
	add	x11, x9, x11
.LBB21_75:
	cmp	x12, x11
	sub	x10, x29, #108
	csel	x9, x12, x11, lo
	cmp	w8, #3
	add	x1, x10, x9
	sub	x19, x12, x9
	b.eq	.LBB21_37
	subs	x8, x11, x12
	ldr	x9, [sp, #56]
	sub	x0, x29, #104
	csel	x21, xzr, x8, lo
	mov	w8, #4
	mov	x2, x19
	sub	x9, x9, x21
	sub	x8, x8, x19
	add	x22, sp, #152
	cmp	x8, x9
	stur	wzr, [x29, #-104]
	sub	x23, x29, #104
	csel	x20, x8, x9, lo
	bl	memcpy
	add	x0, x23, x19
	add	x1, x22, x21
	mov	x2, x20
	bl	memcpy
	ldur	w8, [x29, #-104]
	add	x19, x20, x19
	sub	x0, x29, #104
	sub	x1, x29, #112
	strb	wzr, [x23, #2]
	stur	w8, [x29, #-112]
	b	.LBB21_38
.LBB21_77:
	add	x0, sp, #104
	mov	x1, x2
	mov	x19, x2
	bl	"std_alloc::vec::Vec::grow_amortized::<#673fbaf82d7b1088>"
	ldr	x21, [sp, #120]
	cbz	w0, .LBB21_105
	ldp	x25, x22, [sp, #104]
	mov	x2, x19
	add	x19, x22, x19
	cmp	x22, x19
	b.lo	.LBB21_9
	b	.LBB21_10
.LBB21_79:
	sub	x0, x29, #104
	bl	"std_io::io::error::last_error"
	ldr	x10, [sp]
	ldr	x9, [sp, #120]
	ldr	x8, [x10]
	adds	x8, x8, #1
	csinv	x8, x8, xzr, lo
	str	x8, [x10]
	cbz	x9, .LBB21_81
	ldr	x0, [sp, #104]
	bl	rattle_dealloc
.LBB21_81:
	mov	w1, wzr
	b	.LBB21_102
.LBB21_82:
	lsr	w8, w20, #24
	stp	xzr, xzr, [x29, #-136]
	stur	xzr, [x29, #-120]
	cbnz	w8, .LBB21_88
	ldr	w8, [sp, #20]
	tbz	w8, #0, .LBB21_95
	mov	w19, #2
	b	.LBB21_90
.LBB21_85:
	ldr	x8, [sp, #120]
	cbz	x8, .LBB21_87
	ldr	x0, [sp, #104]
	bl	rattle_dealloc
.LBB21_87:
	mov	w0, #1
	mov	w1, #3
	b	.LBB21_103
.LBB21_88:
	ldr	w9, [sp, #20]
	mov	w8, #65533
	sturh	w8, [x29, #-136]
	tbz	w9, #0, .LBB21_91
	mov	w19, #4
	sturh	w8, [x29, #-134]
.LBB21_90:
	mov	w8, #65279
	mov	x20, xzr
	sturh	w8, [x29, #-136]
	b	.LBB21_92
.LBB21_91:
	mov	w19, #2
	mov	x20, xzr
.LBB21_92:
	sub	x8, x29, #136
	sub	x2, x19, x20
	mov	w0, #1
	add	x1, x8, x20
	sub	x21, x19, x20
	bl	write
	tbnz	x0, #63, .LBB21_98
	cmp	x0, x21
	csel	x8, x0, x21, lo
	cbz	x8, .LBB21_99
	add	x20, x8, x20
	cmp	x20, x19
	b.lo	.LBB21_92
.LBB21_95:
	ldr	x8, [sp, #120]
	cbz	x8, .LBB21_97
	ldr	x0, [sp, #104]
	bl	rattle_dealloc
.LBB21_97:
	mov	w1, wzr
	mov	w0, wzr
	b	.LBB21_103
.LBB21_98:
	sub	x0, x29, #104
	bl	"std_io::io::error::last_error"
.LBB21_99:
	ldr	x10, [sp, #8]
	ldr	x9, [sp, #120]
	ldr	x8, [x10]
	adds	x8, x8, #1
	csinv	x8, x8, xzr, lo
	str	x8, [x10]
	cbz	x9, .LBB21_101
	ldr	x0, [sp, #104]
	bl	rattle_dealloc
.LBB21_101:
	mov	w1, #1
.LBB21_102:
	mov	w0, #1
.LBB21_103:
	add	sp, sp, #1, lsl #12
	add	sp, sp, #288
	.cfi_def_cfa wsp, 96
	ldp	x20, x19, [sp, #80]
	ldp	x22, x21, [sp, #64]
	ldp	x24, x23, [sp, #48]
	ldp	x26, x25, [sp, #32]
	ldp	x28, x27, [sp, #16]
	ldp	x29, x30, [sp], #96
	.cfi_def_cfa_offset 0
	.cfi_restore w19
	.cfi_restore w20
	.cfi_restore w21
	.cfi_restore w22
	.cfi_restore w23
	.cfi_restore w24
	.cfi_restore w25
	.cfi_restore w26
	.cfi_restore w27
	.cfi_restore w28
	.cfi_restore w30
	.cfi_restore w29
	ret
.LBB21_104:
	.cfi_restore_state
	mov	w1, #2
	b	.LBB21_102
.LBB21_105:
	cbz	x21, .LBB21_107
	ldr	x0, [sp, #104]
	bl	rattle_dealloc
.LBB21_107:
	mov	w0, #1
	mov	w1, #2
	b	.LBB21_103
.Lfunc_end21:
	.size	"utf16_streams::filters::filter_by::<#27bba4883ebf77b8>", .Lfunc_end21-"utf16_streams::filters::filter_by::<#27bba4883ebf77b8>"
	.cfi_endproc

	.section	.rodata.cst16,"aM",@progbits,16
	.p2align	4, 0x0
.LCPI22_0:
	.byte	1
	.byte	2
	.byte	4
	.byte	8
	.byte	16
	.byte	32
	.byte	64
	.byte	128
	.byte	1
	.byte	2
	.byte	4
	.byte	8
	.byte	16
	.byte	32
	.byte	64
	.byte	128
.LCPI22_2:
	.byte	0
	.byte	1
	.byte	2
	.byte	3
	.byte	4
	.byte	5
	.byte	6
	.byte	7
	.byte	8
	.byte	9
	.byte	10
	.byte	11
	.byte	12
	.byte	13
	.byte	14
	.byte	15
	.section	.rodata.cst8,"aM",@progbits,8
	.p2align	3, 0x0
.LCPI22_1:
	.zero	1
	.zero	1
	.zero	1
	.zero	1
	.zero	1
	.zero	1
	.byte	224
	.byte	192
	.section	".text.utf16_transcode::encode::FromUtf8Direction::begin::<#418c2b53cf60437c>","ax",@progbits
	.p2align	2
	.type	"utf16_transcode::encode::FromUtf8Direction::begin::<#418c2b53cf60437c>",@function
"utf16_transcode::encode::FromUtf8Direction::begin::<#418c2b53cf60437c>":
	.cfi_startproc
	cmp	x1, #7
	b.hi	.LBB22_5
	lsr	x8, x3, #1
	cmp	x8, x1
	csel	x4, x8, x1, lo
	cbz	x4, .LBB22_14
	ldrsb	w8, [x0]
	tbnz	w8, #31, .LBB22_20
	cmp	x4, #1
	strh	w8, [x2]
	b.ne	.LBB22_21
	mov	w5, #2
	b	.LBB22_96
.LBB22_5:
	cmp	x1, #16
	b.hi	.LBB22_8
	cmp	x3, #32
	b.hs	.LBB22_15
.LBB22_7:
	mov	x5, xzr
	mov	x4, xzr
	cmp	x1, #31
	b.ls	.LBB22_34
	b	.LBB22_136
.LBB22_8:
	stp	x29, x30, [sp, #-48]!
	.cfi_def_cfa_offset 48
	stp	x22, x21, [sp, #16]
	stp	x20, x19, [sp, #32]
	mov	x29, sp
	.cfi_def_cfa w29, 48
	.cfi_offset w19, -8
	.cfi_offset w20, -16
	.cfi_offset w21, -24
	.cfi_offset w22, -32
	.cfi_offset w30, -40
	.cfi_offset w29, -48
	.cfi_remember_state
	lsr	x8, x3, #1
	cmp	x8, x1
	csel	x4, x8, x1, lo
	cmp	x3, #32
	b.lo	.LBB22_10
	ldr	q1, [x0]
	adrp	x8, .LCPI22_0
	ldr	q0, [x8, :lo12:.LCPI22_0]
	cmlt	v2.16b, v1.16b, #0
	and	v2.16b, v2.16b, v0.16b
	addp	v2.16b, v2.16b, v2.16b
	addp	v2.16b, v2.16b, v2.16b
	addp	v2.16b, v2.16b, v2.16b
	umov	w8, v2.h[0]
	cbz	w8, .LBB22_26
.LBB22_10:
	mov	x4, xzr
.LBB22_11:
	lsl	x5, x4, #1
	subs	x8, x1, x4
	b.eq	.LBB22_32
	mov	x20, x0
	mov	x19, x1
	mov	x21, x2
	mov	x22, x3
	cmp	x8, #191
	b.hi	.LBB22_24
	bl	"utf16_from_utf8::rest::write_rest::<#418c2b53cf60437c>"
	mov	x2, x21
	mov	x3, x22
	mov	x4, x0
	mov	x0, x20
	mov	x5, x1
	mov	x1, x19
	b	.LBB22_32
.LBB22_14:
	.cfi_def_cfa wsp, 0
	.cfi_same_value w19
	.cfi_same_value w20
	.cfi_same_value w21
	.cfi_same_value w22
	.cfi_same_value w30
	.cfi_same_value w29
	mov	x5, xzr
	b	.LBB22_96
.LBB22_15:
	add	x8, x0, x1
	ldr	d0, [x0]
	ldur	d2, [x8, #-8]
	adrp	x8, .Lstatic.11
	add	x8, x8, :lo12:.Lstatic.11
	add	x8, x8, x1, lsl #4
	mov	v0.d[1], v2.d[0]
	ldur	q1, [x8, #-128]
	adrp	x8, .LCPI22_0
	tbl	v1.16b, { v0.16b }, v1.16b
	ldr	q0, [x8, :lo12:.LCPI22_0]
	cmlt	v3.16b, v1.16b, #0
	and	v3.16b, v3.16b, v0.16b
	addp	v3.16b, v3.16b, v3.16b
	addp	v3.16b, v3.16b, v3.16b
	addp	v3.16b, v3.16b, v3.16b
	umov	w8, v3.h[0]
	cbz	w8, .LBB22_29
	adrp	x8, .LCPI22_1
	mov	x5, xzr
	ldr	d3, [x8, :lo12:.LCPI22_1]
	cmhi	v3.8b, v3.8b, v2.8b
	dup	v4.8b, v3.b[7]
	and	v3.8b, v4.8b, v3.8b
	umov	w8, v3.b[6]
	tbz	w8, #0, .LBB22_78
	umov	w8, v2.b[5]
	mov	x4, x5
	and	w8, w8, #0xff
	cmp	w8, #239
	b.hi	.LBB22_33
	adrp	x8, .Lstatic.12
	add	x8, x8, :lo12:.Lstatic.12
	movi	v4.2d, #0000000000000000
	sub	x8, x8, x1
	movi	v5.16b, #191
	movi	v6.16b, #223
	ldr	q2, [x8, #16]
	movi	v7.16b, #239
	movi	v17.16b, #144
	movi	v21.16b, #244
	movi	v22.16b, #160
	movi	v16.16b, #224
	umax	v2.16b, v1.16b, v2.16b
	movi	v23.16b, #237
	adrp	x8, .LCPI22_2
	movi	v26.16b, #254
	ext	v3.16b, v4.16b, v2.16b, #15
	cmhi	v24.16b, v17.16b, v2.16b
	cmhs	v17.16b, v2.16b, v17.16b
	cmhi	v27.16b, v22.16b, v2.16b
	ext	v1.16b, v4.16b, v3.16b, #15
	uqsub	v19.16b, v3.16b, v5.16b
	cmeq	v28.16b, v3.16b, v16.16b
	ext	v18.16b, v4.16b, v1.16b, #15
	movi	v4.16b, #240
	uqsub	v20.16b, v1.16b, v6.16b
	uqsub	v18.16b, v18.16b, v7.16b
	cmeq	v25.16b, v3.16b, v4.16b
	umax	v19.16b, v19.16b, v20.16b
	cmeq	v20.16b, v3.16b, v21.16b
	movi	v7.16b, #192
	and	v24.16b, v25.16b, v24.16b
	and	v25.16b, v2.16b, v26.16b
	orr	v18.16b, v19.16b, v18.16b
	and	v17.16b, v20.16b, v17.16b
	cmhs	v19.16b, v2.16b, v22.16b
	cmeq	v20.16b, v3.16b, v23.16b
	and	v22.16b, v28.16b, v27.16b
	cmgt	v23.16b, v7.16b, v2.16b
	cmeq	v18.16b, v18.16b, #0
	orr	v17.16b, v24.16b, v17.16b
	and	v19.16b, v20.16b, v19.16b
	cmhi	v20.16b, v2.16b, v21.16b
	cmeq	v21.16b, v25.16b, v7.16b
	eor	v18.16b, v18.16b, v23.16b
	orr	v19.16b, v22.16b, v19.16b
	orr	v17.16b, v20.16b, v17.16b
	ldr	q20, [x8, :lo12:.LCPI22_2]
	orn	v18.16b, v21.16b, v18.16b
	orr	v17.16b, v19.16b, v17.16b
	dup	v19.16b, w1
	orr	v17.16b, v17.16b, v18.16b
	cmhi	v18.16b, v19.16b, v20.16b
	and	v17.16b, v18.16b, v17.16b
	shl	v17.16b, v17.16b, #7
	cmlt	v17.16b, v17.16b, #0
	and	v17.16b, v17.16b, v0.16b
	addp	v17.16b, v17.16b, v17.16b
	addp	v17.16b, v17.16b, v17.16b
	addp	v17.16b, v17.16b, v17.16b
	umov	w8, v17.h[0]
	cbnz	w8, .LBB22_7
	cmge	v17.16b, v2.16b, #0
	cmhi	v6.16b, v3.16b, v6.16b
	adrp	x10, .Lstatic.13
	add	x10, x10, :lo12:.Lstatic.13
	cmhi	v5.16b, v2.16b, v5.16b
	movi	v18.16b, #64
	shl	v19.16b, v3.16b, #2
	movi	v21.16b, #232
	mov	x4, x1
	bsl	v17.16b, v7.16b, v3.16b
	movi	v22.16b, #231
	movi	v23.16b, #220
	orr	v5.16b, v5.16b, v6.16b
	umax	v6.16b, v1.16b, v16.16b
	cmhi	v18.16b, v18.16b, v19.16b
	movi	v19.16b, #127
	umax	v16.16b, v17.16b, v1.16b
	bic	v0.16b, v0.16b, v5.16b
	ushr	v20.16b, v17.16b, #2
	bsl	v18.16b, v22.16b, v21.16b
	cmhi	v5.16b, v7.16b, v16.16b
	ushr	v16.16b, v2.16b, #4
	addp	v0.16b, v0.16b, v0.16b
	sli	v20.16b, v6.16b, #4
	and	v2.16b, v2.16b, v19.16b
	add	v6.16b, v18.16b, v1.16b
	cmhi	v1.16b, v4.16b, v1.16b
	sli	v16.16b, v3.16b, #2
	and	v5.16b, v5.16b, v23.16b
	shl	v3.16b, v17.16b, #6
	addp	v0.16b, v0.16b, v0.16b
	orr	v5.16b, v20.16b, v5.16b
	add	v2.16b, v3.16b, v2.16b
	mov	v3.16b, v1.16b
	add	v7.16b, v16.16b, v7.16b
	addp	v0.16b, v0.16b, v0.16b
	bsl	v3.16b, v5.16b, v6.16b
	bsl	v1.16b, v2.16b, v7.16b
	umov	w8, v0.h[0]
	zip1	v0.16b, v1.16b, v3.16b
	and	x9, x8, #0xff
	ubfx	x8, x8, #8, #8
	ldr	q2, [x10, x9, lsl #4]
	zip2	v1.16b, v1.16b, v3.16b
	fmov	d4, x8
	tbl	v0.16b, { v0.16b }, v2.16b
	fmov	d2, x9
	cnt	v4.8b, v4.8b
	cnt	v2.8b, v2.8b
	str	q0, [x2]
	ldr	q0, [x10, x8, lsl #4]
	fmov	w9, s4
	fmov	w8, s2
	tbl	v0.16b, { v1.16b }, v0.16b
	ubfiz	x10, x8, #1, #32
	add	x8, x8, x9
	lsl	x5, x8, #1
	str	q0, [x2, x10]
	cmp	x1, #31
	b.ls	.LBB22_34
	b	.LBB22_136
.LBB22_20:
	mov	x5, xzr
	mov	x4, xzr
	b	.LBB22_96
.LBB22_21:
	ldrsb	w8, [x0, #1]
	tbnz	w8, #31, .LBB22_30
	cmp	x4, #2
	strh	w8, [x2, #2]
	b.ne	.LBB22_74
	mov	w5, #4
	b	.LBB22_96
.LBB22_24:
	.cfi_restore_state
	.cfi_remember_state
	bl	"utf16_from_utf8::blocks::write_mixed_blocks::<#418c2b53cf60437c>"
	sub	x9, x19, x0
	mov	x4, x0
	mov	x8, x19
	cmp	x9, #191
	mov	x5, x1
	b.ls	.LBB22_31
	mov	x3, x22
	mov	x2, x21
	mov	x1, x8
	mov	x0, x20
	b	.LBB22_32
.LBB22_26:
	cmp	x4, #31
	b.hi	.LBB22_77
	ushll	v2.8h, v1.8b, #0
	ushll2	v1.8h, v1.16b, #0
	sub	x8, x4, #16
	stp	q2, q1, [x2]
	ldr	q1, [x0, x8]
	cmlt	v2.16b, v1.16b, #0
	and	v0.16b, v2.16b, v0.16b
	addp	v0.16b, v0.16b, v0.16b
	addp	v0.16b, v0.16b, v0.16b
	addp	v0.16b, v0.16b, v0.16b
	umov	w9, v0.h[0]
	cbz	w9, .LBB22_83
	mov	w4, #16
	b	.LBB22_11
.LBB22_29:
	.cfi_def_cfa wsp, 0
	.cfi_same_value w19
	.cfi_same_value w20
	.cfi_same_value w21
	.cfi_same_value w22
	.cfi_same_value w30
	.cfi_same_value w29
	ushll	v0.8h, v1.8b, #0
	ushll2	v1.8h, v1.16b, #0
	lsl	x5, x1, #1
	mov	x4, x1
	stp	q0, q1, [x2]
	cmp	x1, #31
	b.ls	.LBB22_34
	b	.LBB22_136
.LBB22_30:
	mov	w4, #1
	mov	w5, #2
	b	.LBB22_96
.LBB22_31:
	.cfi_restore_state
	.cfi_remember_state
	mov	x0, x20
	mov	x1, x8
	mov	x2, x21
	mov	x3, x22
	mov	x19, x20
	mov	x20, x8
	bl	"utf16_from_utf8::rest::write_rest::<#418c2b53cf60437c>"
	mov	x2, x21
	mov	x3, x22
	mov	x4, x0
	mov	x0, x19
	mov	x5, x1
	mov	x1, x20
.LBB22_32:
	.cfi_def_cfa wsp, 48
	ldp	x20, x19, [sp, #32]
	ldp	x22, x21, [sp, #16]
	ldp	x29, x30, [sp], #48
	.cfi_def_cfa_offset 0
	.cfi_restore w19
	.cfi_restore w20
	.cfi_restore w21
	.cfi_restore w22
	.cfi_restore w30
	.cfi_restore w29
.LBB22_33:
	cmp	x1, #31
	b.hi	.LBB22_136
.LBB22_34:
	cmp	x4, x1
	b.hs	.LBB22_136
	mov	w8, #57216
	movk	w8, #65521, lsl #16
	b	.LBB22_37
.LBB22_36:
	mov	w12, #67043328
	mov	w13, #-10240
	mov	w14, #56320
	add	w12, w9, w12
	bfxil	w14, w9, #0, #10
	add	w9, w13, w12, lsr #10
	mov	w12, #4
	strh	w14, [x11, #2]
	add	x4, x10, x4
	add	x5, x12, x5
	strh	w9, [x11]
	cmp	x4, x1
	b.hs	.LBB22_136
.LBB22_37:
	add	x10, x0, x4
	ldrsb	w11, [x10]
	and	w9, w11, #0xff
	tbnz	w11, #31, .LBB22_42
	mov	w10, #1
.LBB22_39:
	cmp	w9, #16, lsl #12
	mov	w11, #4
	mov	w12, #2
	sub	x13, x3, x5
	csel	x11, x12, x11, lo
	cmp	x13, x11
	b.lo	.LBB22_136
	lsr	w12, w9, #16
	add	x11, x2, x5
	cbnz	w12, .LBB22_36
	mov	w12, #2
	add	x4, x10, x4
	add	x5, x12, x5
	strh	w9, [x11]
	cmp	x4, x1
	b.lo	.LBB22_37
	b	.LBB22_136
.LBB22_42:
	sub	x11, x1, x4
	cmp	x11, #3
	b.lo	.LBB22_47
	add	w12, w9, #31
	and	w12, w12, #0xff
	cmp	w12, #11
	b.hi	.LBB22_48
	ldrsb	w12, [x10, #1]
	cmn	w12, #65
	b.gt	.LBB22_48
	ldrsb	w13, [x10, #2]
	cmn	w13, #65
	b.gt	.LBB22_48
	add	w9, w8, w9, lsl #12
	and	w10, w12, #0xff
	add	w9, w9, w10, lsl #6
	and	w10, w13, #0xff
	add	w9, w9, w10
	mov	w10, #3
	b	.LBB22_39
.LBB22_47:
	cmp	x11, #2
	b.ne	.LBB22_136
.LBB22_48:
	lsr	w13, w9, #4
	ldrb	w12, [x10, #1]
	and	w13, w13, #0xc
	orr	w13, w13, w12, lsr #6
	cmp	w13, #14
	b.ne	.LBB22_136
	add	w13, w9, #31
	and	w13, w13, #0xff
	cmp	w13, #12
	b.hs	.LBB22_54
.LBB22_50:
	cmp	x11, #2
	b.eq	.LBB22_136
	ldrsb	w13, [x10, #2]
	cmn	w13, #65
	b.gt	.LBB22_136
	cmp	w9, #239
	and	w13, w13, #0xff
	b.hi	.LBB22_59
	add	w9, w8, w9, lsl #12
	mov	w10, #3
	add	w9, w9, w12, lsl #6
	add	w9, w9, w13
	b	.LBB22_39
.LBB22_54:
	add	w13, w9, #62
	and	w14, w13, #0xff
	cmp	w14, #30
	b.lo	.LBB22_73
	cmp	w9, #239
	b.gt	.LBB22_62
	cmp	w9, #224
	b.eq	.LBB22_67
	cmp	w9, #237
	b.ne	.LBB22_65
	mov	w14, #159
	b	.LBB22_66
.LBB22_59:
	cmp	x11, #4
	b.lo	.LBB22_136
	ldrsb	w10, [x10, #3]
	cmn	w10, #65
	b.gt	.LBB22_136
	lsl	w9, w9, #18
	mov	w11, #57216
	and	w10, w10, #0xff
	movk	w11, #64567, lsl #16
	add	w9, w9, w12, lsl #12
	add	w10, w10, w11
	add	w9, w9, w13, lsl #6
	add	w9, w9, w10
	mov	w10, #4
	b	.LBB22_39
.LBB22_62:
	cmp	w9, #240
	b.eq	.LBB22_68
	cmp	w9, #244
	b.ne	.LBB22_65
	mov	w14, #143
	b	.LBB22_66
.LBB22_65:
	mov	w14, #191
.LBB22_66:
	mov	w15, #128
	b	.LBB22_69
.LBB22_67:
	mov	w14, #191
	mov	w15, #160
	b	.LBB22_69
.LBB22_68:
	mov	w14, #191
	mov	w15, #144
.LBB22_69:
	and	w13, w13, #0xff
	cmp	w13, #50
	b.hi	.LBB22_136
	cmp	w15, w12
	b.hi	.LBB22_136
	cmp	w12, w14
	b.hi	.LBB22_136
	cmp	w9, #223
	b.hi	.LBB22_50
.LBB22_73:
	add	w9, w12, w9, lsl #6
	mov	w10, #-12416
	add	w9, w9, w10
	mov	w10, #2
	b	.LBB22_39
.LBB22_74:
	ldrsb	w8, [x0, #2]
	tbnz	w8, #31, .LBB22_79
	cmp	x4, #3
	strh	w8, [x2, #4]
	b.ne	.LBB22_80
	mov	w5, #6
	b	.LBB22_96
.LBB22_77:
	.cfi_restore_state
	.cfi_remember_state
	mov	x21, x1
	mov	x1, x4
	mov	x19, x0
	mov	x20, x2
	mov	x22, x3
	bl	"utf16_from_utf8::ascii::write_front::<#418c2b53cf60437c>"
	mov	x1, x21
	mov	x2, x20
	mov	x3, x22
	mov	x4, x0
	mov	x0, x19
	b	.LBB22_11
.LBB22_78:
	.cfi_def_cfa wsp, 0
	.cfi_same_value w19
	.cfi_same_value w20
	.cfi_same_value w21
	.cfi_same_value w22
	.cfi_same_value w30
	.cfi_same_value w29
	mov	x4, x5
	cmp	x1, #31
	b.ls	.LBB22_34
	b	.LBB22_136
.LBB22_79:
	mov	w4, #2
	mov	w5, #4
	b	.LBB22_96
.LBB22_80:
	ldrsb	w8, [x0, #3]
	tbnz	w8, #31, .LBB22_84
	cmp	x4, #4
	strh	w8, [x2, #6]
	b.ne	.LBB22_85
	mov	w5, #8
	b	.LBB22_96
.LBB22_83:
	.cfi_restore_state
	ushll	v0.8h, v1.8b, #0
	ushll2	v1.8h, v1.16b, #0
	add	x8, x2, x8, lsl #1
	stp	q0, q1, [x8]
	b	.LBB22_11
.LBB22_84:
	.cfi_def_cfa wsp, 0
	.cfi_same_value w19
	.cfi_same_value w20
	.cfi_same_value w21
	.cfi_same_value w22
	.cfi_same_value w30
	.cfi_same_value w29
	mov	w4, #3
	mov	w5, #6
	b	.LBB22_96
.LBB22_85:
	ldrsb	w8, [x0, #4]
	tbnz	w8, #31, .LBB22_88
	cmp	x4, #5
	strh	w8, [x2, #8]
	b.ne	.LBB22_89
	mov	w5, #10
	b	.LBB22_96
.LBB22_88:
	mov	w4, #4
	mov	w5, #8
	b	.LBB22_96
.LBB22_89:
	ldrsb	w8, [x0, #5]
	tbnz	w8, #31, .LBB22_93
	cmp	x4, #6
	strh	w8, [x2, #10]
	b.eq	.LBB22_95
	ldrsb	w8, [x0, #6]
	tbnz	w8, #31, .LBB22_94
	mov	w5, #14
	strh	w8, [x2, #12]
	b	.LBB22_96
.LBB22_93:
	mov	w4, #5
	mov	w5, #10
	b	.LBB22_96
.LBB22_94:
	mov	w4, #6
.LBB22_95:
	mov	w5, #12
.LBB22_96:
	cmp	x4, x1
	b.hs	.LBB22_136
	mov	w8, #57216
	movk	w8, #65521, lsl #16
	b	.LBB22_99
.LBB22_98:
	mov	w12, #67043328
	mov	w13, #-10240
	mov	w14, #56320
	add	w12, w9, w12
	bfxil	w14, w9, #0, #10
	add	w9, w13, w12, lsr #10
	mov	w12, #4
	strh	w14, [x11, #2]
	add	x4, x10, x4
	add	x5, x12, x5
	strh	w9, [x11]
	cmp	x4, x1
	b.hs	.LBB22_136
.LBB22_99:
	add	x10, x0, x4
	ldrsb	w11, [x10]
	and	w9, w11, #0xff
	tbnz	w11, #31, .LBB22_104
	mov	w10, #1
.LBB22_101:
	cmp	w9, #16, lsl #12
	mov	w11, #4
	mov	w12, #2
	sub	x13, x3, x5
	csel	x11, x12, x11, lo
	cmp	x13, x11
	b.lo	.LBB22_136
	lsr	w12, w9, #16
	add	x11, x2, x5
	cbnz	w12, .LBB22_98
	mov	w12, #2
	add	x4, x10, x4
	add	x5, x12, x5
	strh	w9, [x11]
	cmp	x4, x1
	b.lo	.LBB22_99
	b	.LBB22_136
.LBB22_104:
	sub	x11, x1, x4
	cmp	x11, #3
	b.lo	.LBB22_109
	add	w12, w9, #31
	and	w12, w12, #0xff
	cmp	w12, #11
	b.hi	.LBB22_110
	ldrsb	w12, [x10, #1]
	cmn	w12, #65
	b.gt	.LBB22_110
	ldrsb	w13, [x10, #2]
	cmn	w13, #65
	b.gt	.LBB22_110
	add	w9, w8, w9, lsl #12
	and	w10, w12, #0xff
	add	w9, w9, w10, lsl #6
	and	w10, w13, #0xff
	add	w9, w9, w10
	mov	w10, #3
	b	.LBB22_101
.LBB22_109:
	cmp	x11, #2
	b.ne	.LBB22_136
.LBB22_110:
	lsr	w13, w9, #4
	ldrb	w12, [x10, #1]
	and	w13, w13, #0xc
	orr	w13, w13, w12, lsr #6
	cmp	w13, #14
	b.ne	.LBB22_136
	add	w13, w9, #31
	and	w13, w13, #0xff
	cmp	w13, #12
	b.hs	.LBB22_116
.LBB22_112:
	cmp	x11, #2
	b.eq	.LBB22_136
	ldrsb	w13, [x10, #2]
	cmn	w13, #65
	b.gt	.LBB22_136
	cmp	w9, #239
	and	w13, w13, #0xff
	b.hi	.LBB22_121
	add	w9, w8, w9, lsl #12
	mov	w10, #3
	add	w9, w9, w12, lsl #6
	add	w9, w9, w13
	b	.LBB22_101
.LBB22_116:
	add	w13, w9, #62
	and	w14, w13, #0xff
	cmp	w14, #30
	b.lo	.LBB22_135
	cmp	w9, #239
	b.gt	.LBB22_124
	cmp	w9, #224
	b.eq	.LBB22_129
	cmp	w9, #237
	b.ne	.LBB22_127
	mov	w14, #159
	b	.LBB22_128
.LBB22_121:
	cmp	x11, #4
	b.lo	.LBB22_136
	ldrsb	w10, [x10, #3]
	cmn	w10, #65
	b.gt	.LBB22_136
	lsl	w9, w9, #18
	mov	w11, #57216
	and	w10, w10, #0xff
	movk	w11, #64567, lsl #16
	add	w9, w9, w12, lsl #12
	add	w10, w10, w11
	add	w9, w9, w13, lsl #6
	add	w9, w9, w10
	mov	w10, #4
	b	.LBB22_101
.LBB22_124:
	cmp	w9, #240
	b.eq	.LBB22_130
	cmp	w9, #244
	b.ne	.LBB22_127
	mov	w14, #143
	b	.LBB22_128
.LBB22_127:
	mov	w14, #191
.LBB22_128:
	mov	w15, #128
	b	.LBB22_131
.LBB22_129:
	mov	w14, #191
	mov	w15, #160
	b	.LBB22_131
.LBB22_130:
	mov	w14, #191
	mov	w15, #144
.LBB22_131:
	and	w13, w13, #0xff
	cmp	w13, #50
	b.hi	.LBB22_136
	cmp	w15, w12
	b.hi	.LBB22_136
	cmp	w12, w14
	b.hi	.LBB22_136
	cmp	w9, #223
	b.hi	.LBB22_112
.LBB22_135:
	add	w9, w12, w9, lsl #6
	mov	w10, #-12416
	add	w9, w9, w10
	mov	w10, #2
	b	.LBB22_101
.LBB22_136:
	mov	x0, x4
	mov	x1, x5
	ret
.Lfunc_end22:
	.size	"utf16_transcode::encode::FromUtf8Direction::begin::<#418c2b53cf60437c>", .Lfunc_end22-"utf16_transcode::encode::FromUtf8Direction::begin::<#418c2b53cf60437c>"
	.cfi_endproc

	.section	.rodata.cst16,"aM",@progbits,16
	.p2align	4, 0x0
.LCPI23_0:
	.byte	1
	.byte	2
	.byte	4
	.byte	8
	.byte	16
	.byte	32
	.byte	64
	.byte	128
	.byte	1
	.byte	2
	.byte	4
	.byte	8
	.byte	16
	.byte	32
	.byte	64
	.byte	128
	.section	".text.utf16_from_utf8::ascii::write_front::<#418c2b53cf60437c>","ax",@progbits
	.p2align	2
	.type	"utf16_from_utf8::ascii::write_front::<#418c2b53cf60437c>",@function
"utf16_from_utf8::ascii::write_front::<#418c2b53cf60437c>":
	.cfi_startproc
	mov	x8, x0
	cmp	x1, #64
	adrp	x9, .LCPI23_0
	mov	x0, xzr
	b.lo	.LBB23_4
	add	x10, x2, #64
	mov	x11, x1
.LBB23_2:
	add	x12, x8, x0
	ldp	q3, q2, [x12]
	ldp	q1, q0, [x12, #32]
	orr	v4.16b, v3.16b, v2.16b
	orr	v5.16b, v1.16b, v0.16b
	orr	v4.16b, v4.16b, v5.16b
	ldr	q5, [x9, :lo12:.LCPI23_0]
	cmlt	v4.16b, v4.16b, #0
	and	v4.16b, v4.16b, v5.16b
	addp	v4.16b, v4.16b, v4.16b
	addp	v4.16b, v4.16b, v4.16b
	addp	v4.16b, v4.16b, v4.16b
	umov	w12, v4.h[0]
	cbnz	w12, .LBB23_4
	ushll	v4.8h, v3.8b, #0
	ushll2	v3.8h, v3.16b, #0
	sub	x11, x11, #64
	ushll	v5.8h, v2.8b, #0
	ushll2	v2.8h, v2.16b, #0
	cmp	x11, #63
	add	x0, x0, #64
	stp	q4, q3, [x10, #-64]
	ushll	v3.8h, v1.8b, #0
	ushll2	v1.8h, v1.16b, #0
	ushll	v4.8h, v0.8b, #0
	ushll2	v0.8h, v0.16b, #0
	stp	q5, q2, [x10, #-32]
	stp	q3, q1, [x10]
	stp	q4, q0, [x10, #32]
	add	x10, x10, #128
	b.hi	.LBB23_2
.LBB23_4:
	sub	x10, x1, x0
	cmp	x10, #16
	b.lo	.LBB23_8
	add	x11, x2, x0, lsl #1
	add	x11, x11, #16
.LBB23_6:
	ldr	q0, [x8, x0]
	ldr	q2, [x9, :lo12:.LCPI23_0]
	cmlt	v1.16b, v0.16b, #0
	and	v1.16b, v1.16b, v2.16b
	addp	v1.16b, v1.16b, v1.16b
	addp	v1.16b, v1.16b, v1.16b
	addp	v1.16b, v1.16b, v1.16b
	umov	w12, v1.h[0]
	cbnz	w12, .LBB23_9
	ushll	v1.8h, v0.8b, #0
	ushll2	v0.8h, v0.16b, #0
	sub	x10, x10, #16
	cmp	x10, #15
	add	x0, x0, #16
	stp	q1, q0, [x11, #-16]
	add	x11, x11, #32
	b.hi	.LBB23_6
.LBB23_8:
	sub	x10, x1, #16
	ldr	q2, [x9, :lo12:.LCPI23_0]
	ldr	q0, [x8, x10]
	cmlt	v1.16b, v0.16b, #0
	and	v1.16b, v1.16b, v2.16b
	addp	v1.16b, v1.16b, v1.16b
	addp	v1.16b, v1.16b, v1.16b
	addp	v1.16b, v1.16b, v1.16b
	umov	w8, v1.h[0]
	cbz	w8, .LBB23_10
.LBB23_9:
	ret
.LBB23_10:
	ushll	v1.8h, v0.8b, #0
	ushll2	v0.8h, v0.16b, #0
	add	x8, x2, x10, lsl #1
	mov	x0, x1
	stp	q1, q0, [x8]
	ret
.Lfunc_end23:
	.size	"utf16_from_utf8::ascii::write_front::<#418c2b53cf60437c>", .Lfunc_end23-"utf16_from_utf8::ascii::write_front::<#418c2b53cf60437c>"
	.cfi_endproc

	.section	.rodata.cst16,"aM",@progbits,16
	.p2align	4, 0x0
.LCPI24_0:
	.byte	1
	.byte	2
	.byte	4
	.byte	8
	.byte	16
	.byte	32
	.byte	64
	.byte	128
	.byte	1
	.byte	2
	.byte	4
	.byte	8
	.byte	16
	.byte	32
	.byte	64
	.byte	128
.LCPI24_1:
	.byte	255
	.byte	0
	.byte	255
	.byte	255
	.byte	0
	.byte	255
	.byte	255
	.byte	0
	.byte	255
	.byte	255
	.byte	0
	.byte	255
	.byte	255
	.byte	0
	.byte	255
	.byte	255
.LCPI24_2:
	.byte	255
	.byte	255
	.byte	0
	.byte	255
	.byte	255
	.byte	0
	.byte	255
	.byte	255
	.byte	0
	.byte	255
	.byte	255
	.byte	0
	.byte	255
	.byte	255
	.byte	0
	.byte	255
.LCPI24_3:
	.byte	0
	.byte	3
	.byte	6
	.byte	9
	.byte	12
	.byte	15
	.byte	18
	.byte	21
	.byte	24
	.byte	27
	.byte	30
	.byte	17
	.byte	20
	.byte	23
	.byte	26
	.byte	29
.LCPI24_4:
	.byte	1
	.byte	4
	.byte	7
	.byte	10
	.byte	13
	.byte	16
	.byte	19
	.byte	22
	.byte	25
	.byte	28
	.byte	31
	.byte	18
	.byte	21
	.byte	24
	.byte	27
	.byte	30
.LCPI24_5:
	.byte	2
	.byte	5
	.byte	8
	.byte	11
	.byte	14
	.byte	17
	.byte	20
	.byte	23
	.byte	26
	.byte	29
	.byte	16
	.byte	19
	.byte	22
	.byte	25
	.byte	28
	.byte	31
	.section	".text.utf16_from_utf8::blocks::write_mixed_blocks::<#418c2b53cf60437c>","ax",@progbits
	.p2align	2
	.type	"utf16_from_utf8::blocks::write_mixed_blocks::<#418c2b53cf60437c>",@function
"utf16_from_utf8::blocks::write_mixed_blocks::<#418c2b53cf60437c>":
	.cfi_startproc
	stp	d15, d14, [sp, #-160]!
	.cfi_def_cfa_offset 160
	stp	d13, d12, [sp, #16]
	stp	d11, d10, [sp, #32]
	stp	d9, d8, [sp, #48]
	stp	x29, x30, [sp, #64]
	str	x27, [sp, #80]
	stp	x26, x25, [sp, #96]
	stp	x24, x23, [sp, #112]
	stp	x22, x21, [sp, #128]
	stp	x20, x19, [sp, #144]
	add	x29, sp, #64
	.cfi_def_cfa w29, 96
	.cfi_offset w19, -8
	.cfi_offset w20, -16
	.cfi_offset w21, -24
	.cfi_offset w22, -32
	.cfi_offset w23, -40
	.cfi_offset w24, -48
	.cfi_offset w25, -56
	.cfi_offset w26, -64
	.cfi_offset w27, -80
	.cfi_offset w30, -88
	.cfi_offset w29, -96
	.cfi_offset b8, -104
	.cfi_offset b9, -112
	.cfi_offset b10, -120
	.cfi_offset b11, -128
	.cfi_offset b12, -136
	.cfi_offset b13, -144
	.cfi_offset b14, -152
	.cfi_offset b15, -160
	mov	x19, x5
	mov	x20, x3
	mov	x21, x1
	mov	x23, x0
	mov	x24, x2
	sub	x25, x1, #48
	sub	x26, x3, #32
	add	x27, x0, #16
	b	.LBB24_3
.LBB24_1:
	lsr	x8, x10, #1
	add	x0, x23, x22
	add	x2, x24, x19
	cmp	x8, x9
	csel	x1, x8, x9, lo
	bl	"utf16_from_utf8::ascii::write_front::<#418c2b53cf60437c>"
	add	x19, x19, x0, lsl #1
	add	x4, x0, x22
.LBB24_2:
	cmp	x4, x22
	b.eq	.LBB24_30
.LBB24_3:
	sub	x9, x21, x4
	mov	x22, x4
	cmp	x9, #64
	b.lo	.LBB24_30
	sub	x10, x20, x19
	cmp	x10, #128
	b.lo	.LBB24_30
	add	x8, x23, x22
	adrp	x11, .LCPI24_0
	ldp	q4, q6, [x8]
	ldp	q5, q3, [x8, #32]
	umax	v0.16b, v4.16b, v6.16b
	umax	v1.16b, v5.16b, v3.16b
	umax	v1.16b, v0.16b, v1.16b
	ldr	q0, [x11, :lo12:.LCPI24_0]
	cmlt	v2.16b, v1.16b, #0
	and	v2.16b, v2.16b, v0.16b
	addp	v2.16b, v2.16b, v2.16b
	addp	v2.16b, v2.16b, v2.16b
	addp	v2.16b, v2.16b, v2.16b
	umov	w11, v2.h[0]
	cbz	w11, .LBB24_1
	movi	v2.16b, #224
	cmhs	v2.16b, v1.16b, v2.16b
	and	v2.16b, v2.16b, v0.16b
	addp	v2.16b, v2.16b, v2.16b
	addp	v2.16b, v2.16b, v2.16b
	addp	v2.16b, v2.16b, v2.16b
	umov	w9, v2.h[0]
	cbz	w9, .LBB24_13
	umov	w8, v4.b[0]
	and	w8, w8, #0xf0
	cmp	w8, #224
	b.ne	.LBB24_15
	sub	x8, x25, x22
	sub	x9, x26, x19
	mov	x4, x22
.LBB24_9:
	adrp	x11, .LCPI24_1
	add	x10, x27, x4
	ldr	q2, [x11, :lo12:.LCPI24_1]
	ldp	q4, q3, [x10]
	ldur	q6, [x10, #-16]
	adrp	x10, .LCPI24_2
	mov	v7.16b, v2.16b
	ldr	q2, [x10, :lo12:.LCPI24_2]
	adrp	x10, .LCPI24_3
	ldr	q5, [x10, :lo12:.LCPI24_3]
	adrp	x10, .LCPI24_4
	mov	v18.16b, v2.16b
	ldr	q16, [x10, :lo12:.LCPI24_4]
	adrp	x10, .LCPI24_5
	bsl	v7.16b, v3.16b, v4.16b
	bsl	v18.16b, v4.16b, v3.16b
	bif	v3.16b, v4.16b, v2.16b
	mov	v17.16b, v6.16b
	mov	v2.16b, v6.16b
	tbl	v5.16b, { v2.16b, v3.16b }, v5.16b
	tbl	v2.16b, { v17.16b, v18.16b }, v16.16b
	movi	v16.16b, #240
	movi	v17.16b, #192
	ldr	q3, [x10, :lo12:.LCPI24_5]
	tbl	v3.16b, { v6.16b, v7.16b }, v3.16b
	movi	v6.16b, #32
	movi	v7.16b, #128
	and	v16.16b, v5.16b, v16.16b
	and	v18.16b, v2.16b, v17.16b
	add	v6.16b, v16.16b, v6.16b
	and	v17.16b, v3.16b, v17.16b
	eor	v16.16b, v18.16b, v7.16b
	eor	v7.16b, v17.16b, v7.16b
	umax	v6.16b, v6.16b, v16.16b
	orr	v6.16b, v6.16b, v7.16b
	cmeq	v6.16b, v6.16b, #0
	bic	v6.16b, v0.16b, v6.16b
	addp	v6.16b, v6.16b, v6.16b
	addp	v6.16b, v6.16b, v6.16b
	addp	v6.16b, v6.16b, v6.16b
	umov	w10, v6.h[0]
	cbnz	w10, .LBB24_16
	ushr	v4.16b, v2.16b, #2
	movi	v6.16b, #7
	movi	v7.16b, #216
	sli	v4.16b, v5.16b, #4
	movi	v5.16b, #248
	and	v5.16b, v4.16b, v5.16b
	cmhi	v6.16b, v4.16b, v6.16b
	cmeq	v5.16b, v5.16b, v7.16b
	and	v5.16b, v5.16b, v6.16b
	orn	v5.16b, v5.16b, v6.16b
	and	v5.16b, v5.16b, v0.16b
	addp	v5.16b, v5.16b, v5.16b
	addp	v5.16b, v5.16b, v5.16b
	addp	v5.16b, v5.16b, v5.16b
	umov	w10, v5.h[0]
	cbnz	w10, .LBB24_16
	sli	v3.16b, v2.16b, #6
	add	x10, x24, x19
	subs	x8, x8, #48
	add	x19, x19, #32
	add	x4, x4, #48
	zip2	v2.16b, v3.16b, v4.16b
	st2	{ v3.8b, v4.8b }, [x10], #16
	str	q2, [x10]
	b.lo	.LBB24_16
	cmp	x9, #31
	sub	x9, x9, #32
	b.hi	.LBB24_9
	b	.LBB24_16
.LBB24_13:
	movi	v2.16b, #191
	movi	v7.16b, #254
	ldur	q16, [x8, #15]
	movi	v17.2d, #0000000000000000
	ldur	q18, [x8, #31]
	movi	v1.16b, #192
	cmhi	v16.16b, v16.16b, v2.16b
	cmgt	v19.16b, v6.16b, v2.16b
	and	v6.16b, v6.16b, v7.16b
	cmhi	v18.16b, v18.16b, v2.16b
	cmgt	v20.16b, v5.16b, v2.16b
	and	v21.16b, v5.16b, v7.16b
	ext	v5.16b, v17.16b, v4.16b, #15
	eor	v16.16b, v19.16b, v16.16b
	ldur	q19, [x8, #47]
	cmeq	v6.16b, v6.16b, v1.16b
	eor	v17.16b, v20.16b, v18.16b
	cmeq	v18.16b, v21.16b, v1.16b
	cmgt	v20.16b, v3.16b, v2.16b
	cmhi	v19.16b, v19.16b, v2.16b
	and	v3.16b, v3.16b, v7.16b
	and	v7.16b, v4.16b, v7.16b
	bic	v6.16b, v16.16b, v6.16b
	cmgt	v16.16b, v1.16b, v4.16b
	bic	v17.16b, v17.16b, v18.16b
	cmhi	v18.16b, v1.16b, v5.16b
	eor	v19.16b, v20.16b, v19.16b
	cmeq	v3.16b, v3.16b, v1.16b
	cmeq	v7.16b, v7.16b, v1.16b
	eor	v16.16b, v16.16b, v18.16b
	and	v6.16b, v6.16b, v17.16b
	bic	v3.16b, v19.16b, v3.16b
	bic	v7.16b, v16.16b, v7.16b
	and	v3.16b, v6.16b, v3.16b
	and	v3.16b, v7.16b, v3.16b
	bic	v3.16b, v0.16b, v3.16b
	addp	v3.16b, v3.16b, v3.16b
	addp	v3.16b, v3.16b, v3.16b
	addp	v3.16b, v3.16b, v3.16b
	umov	w9, v3.h[0]
	cbnz	w9, .LBB24_30
	cmhs	v3.16b, v2.16b, v4.16b
	uqsub	v5.16b, v5.16b, v1.16b
	adrp	x9, .Lstatic.13
	add	x9, x9, :lo12:.Lstatic.13
	and	v3.16b, v3.16b, v0.16b
	shl	v7.16b, v5.16b, #6
	ushr	v5.16b, v5.16b, #2
	addp	v6.16b, v3.16b, v3.16b
	movi	v3.16b, #127
	addp	v6.16b, v6.16b, v6.16b
	and	v4.16b, v4.16b, v3.16b
	addp	v6.16b, v6.16b, v6.16b
	add	v4.16b, v7.16b, v4.16b
	umov	w11, v6.h[0]
	zip1	v6.16b, v4.16b, v5.16b
	zip2	v4.16b, v4.16b, v5.16b
	and	x10, x11, #0xff
	ubfx	x11, x11, #8, #8
	ldr	q7, [x9, x10, lsl #4]
	tbl	v6.16b, { v6.16b }, v7.16b
	fmov	d7, x10
	add	x10, x24, x19
	cnt	v7.8b, v7.8b
	str	q6, [x10]
	ldr	q5, [x9, x11, lsl #4]
	fmov	w12, s7
	tbl	v4.16b, { v4.16b }, v5.16b
	ubfiz	x13, x12, #1, #32
	str	q4, [x10, x13]
	ldr	q4, [x8, #16]
	ldur	q6, [x8, #15]
	cmhs	v5.16b, v2.16b, v4.16b
	uqsub	v6.16b, v6.16b, v1.16b
	and	v4.16b, v4.16b, v3.16b
	and	v5.16b, v5.16b, v0.16b
	shl	v7.16b, v6.16b, #6
	ushr	v6.16b, v6.16b, #2
	addp	v5.16b, v5.16b, v5.16b
	add	v4.16b, v4.16b, v7.16b
	fmov	d7, x11
	addp	v5.16b, v5.16b, v5.16b
	addp	v5.16b, v5.16b, v5.16b
	umov	w11, v5.h[0]
	cnt	v5.8b, v7.8b
	zip1	v7.16b, v4.16b, v6.16b
	zip2	v4.16b, v4.16b, v6.16b
	and	x13, x11, #0xff
	fmov	w14, s5
	ubfx	x11, x11, #8, #8
	ldr	q5, [x9, x13, lsl #4]
	tbl	v5.16b, { v7.16b }, v5.16b
	fmov	d7, x13
	add	x12, x12, x14
	add	x13, x10, x12, lsl #1
	cnt	v7.8b, v7.8b
	str	q5, [x13]
	ldr	q5, [x9, x11, lsl #4]
	fmov	w14, s7
	tbl	v4.16b, { v4.16b }, v5.16b
	ubfiz	x15, x14, #1, #32
	str	q4, [x13, x15]
	ldr	q4, [x8, #32]
	ldur	q6, [x8, #31]
	cmhs	v5.16b, v2.16b, v4.16b
	uqsub	v6.16b, v6.16b, v1.16b
	and	v4.16b, v4.16b, v3.16b
	and	v5.16b, v5.16b, v0.16b
	shl	v7.16b, v6.16b, #6
	ushr	v6.16b, v6.16b, #2
	addp	v5.16b, v5.16b, v5.16b
	add	v4.16b, v4.16b, v7.16b
	fmov	d7, x11
	addp	v5.16b, v5.16b, v5.16b
	cnt	v7.8b, v7.8b
	addp	v5.16b, v5.16b, v5.16b
	fmov	w13, s7
	umov	w11, v5.h[0]
	zip1	v5.16b, v4.16b, v6.16b
	zip2	v4.16b, v4.16b, v6.16b
	add	x13, x13, x14
	add	x12, x13, x12
	and	x15, x11, #0xff
	add	x13, x10, x12, lsl #1
	ubfx	x11, x11, #8, #8
	ldr	q7, [x9, x15, lsl #4]
	tbl	v5.16b, { v5.16b }, v7.16b
	fmov	d7, x15
	cnt	v7.8b, v7.8b
	str	q5, [x13]
	ldr	q5, [x9, x11, lsl #4]
	fmov	w14, s7
	tbl	v4.16b, { v4.16b }, v5.16b
	ubfiz	x15, x14, #1, #32
	str	q4, [x13, x15]
	ldr	q4, [x8, #48]
	cmhs	v2.16b, v2.16b, v4.16b
	and	v0.16b, v2.16b, v0.16b
	ldur	q2, [x8, #47]
	uqsub	v1.16b, v2.16b, v1.16b
	and	v2.16b, v4.16b, v3.16b
	fmov	d4, x11
	addp	v0.16b, v0.16b, v0.16b
	cnt	v4.8b, v4.8b
	addp	v0.16b, v0.16b, v0.16b
	shl	v3.16b, v1.16b, #6
	ushr	v1.16b, v1.16b, #2
	addp	v0.16b, v0.16b, v0.16b
	add	v2.16b, v2.16b, v3.16b
	fmov	w13, s4
	umov	w11, v0.h[0]
	zip1	v0.16b, v2.16b, v1.16b
	add	x13, x13, x14
	add	x12, x13, x12
	zip2	v1.16b, v2.16b, v1.16b
	add	x10, x10, x12, lsl #1
	and	x15, x11, #0xff
	ubfx	x11, x11, #8, #8
	ldr	q3, [x9, x15, lsl #4]
	tbl	v0.16b, { v0.16b }, v3.16b
	fmov	d3, x15
	cnt	v3.8b, v3.8b
	str	q0, [x10]
	fmov	d0, x11
	ldr	q2, [x9, x11, lsl #4]
	fmov	w9, s3
	cnt	v0.8b, v0.8b
	tbl	v1.16b, { v1.16b }, v2.16b
	ubfiz	x11, x9, #1, #32
	fmov	w13, s0
	str	q1, [x10, x11]
	ldrb	w8, [x8, #63]
	add	x9, x13, x9
	cmp	w8, #191
	mov	w8, #63
	add	x9, x9, x12
	cinc	x8, x8, ls
	add	x19, x19, x9, lsl #1
	add	x4, x8, x22
	b	.LBB24_2
.LBB24_15:
	mov	x4, x22
.LBB24_16:
	cmp	x22, x4
	b.lo	.LBB24_2
	movi	v16.16b, #240
	movi	v3.2d, #0000000000000000
	add	x8, x23, x4
	ldr	q6, [x8]
	cmhs	v1.16b, v1.16b, v16.16b
	ext	v7.16b, v3.16b, v6.16b, #15
	and	v1.16b, v1.16b, v0.16b
	ext	v5.16b, v3.16b, v7.16b, #15
	addp	v1.16b, v1.16b, v1.16b
	addp	v1.16b, v1.16b, v1.16b
	addp	v1.16b, v1.16b, v1.16b
	umov	w9, v1.h[0]
	cbz	w9, .LBB24_21
	movi	v22.16b, #144
	movi	v17.16b, #160
	ldur	q4, [x8, #14]
	movi	v2.16b, #223
	movi	v1.16b, #191
	ldur	q23, [x8, #15]
	movi	v21.16b, #244
	movi	v20.16b, #239
	ldur	q24, [x8, #13]
	movi	v19.16b, #237
	ext	v29.16b, v3.16b, v5.16b, #15
	ldur	q31, [x8, #30]
	cmhi	v18.16b, v22.16b, v6.16b
	cmhi	v27.16b, v17.16b, v6.16b
	ldur	q9, [x8, #29]
	uqsub	v26.16b, v4.16b, v2.16b
	movi	v4.16b, #224
	uqsub	v25.16b, v23.16b, v1.16b
	uqsub	v30.16b, v24.16b, v20.16b
	ldr	q24, [x8, #16]
	movi	v3.16b, #192
	mov	v28.16b, v18.16b
	mov	v8.16b, v27.16b
	uqsub	v27.16b, v29.16b, v20.16b
	cmhi	v29.16b, v17.16b, v24.16b
	cmhi	v10.16b, v22.16b, v24.16b
	uqsub	v11.16b, v7.16b, v1.16b
	umax	v25.16b, v25.16b, v26.16b
	ldur	q26, [x8, #31]
	uqsub	v12.16b, v5.16b, v2.16b
	bsl	v28.16b, v16.16b, v21.16b
	bsl	v8.16b, v4.16b, v19.16b
	cmgt	v13.16b, v3.16b, v24.16b
	uqsub	v14.16b, v26.16b, v1.16b
	mov	v1.16b, v29.16b
	bsl	v10.16b, v16.16b, v21.16b
	orr	v30.16b, v25.16b, v30.16b
	ldr	q25, [x8, #32]
	movi	v18.16b, #254
	uqsub	v9.16b, v9.16b, v20.16b
	cmeq	v28.16b, v7.16b, v28.16b
	cmeq	v8.16b, v7.16b, v8.16b
	bsl	v1.16b, v4.16b, v19.16b
	cmeq	v15.16b, v30.16b, #0
	umax	v30.16b, v11.16b, v12.16b
	uqsub	v11.16b, v31.16b, v2.16b
	cmeq	v10.16b, v23.16b, v10.16b
	movi	v31.16b, #245
	mvn	v28.16b, v28.16b
	eor	v12.16b, v13.16b, v15.16b
	movi	v15.16b, #191
	cmhi	v13.16b, v17.16b, v25.16b
	cmeq	v1.16b, v23.16b, v1.16b
	umax	v23.16b, v14.16b, v11.16b
	ldur	q14, [x8, #46]
	bic	v29.16b, v28.16b, v8.16b
	ldr	q28, [x8, #48]
	cmhi	v8.16b, v22.16b, v25.16b
	mvn	v10.16b, v10.16b
	and	v11.16b, v24.16b, v18.16b
	bsl	v13.16b, v4.16b, v19.16b
	cmhi	v22.16b, v22.16b, v28.16b
	orr	v23.16b, v23.16b, v9.16b
	uqsub	v14.16b, v14.16b, v2.16b
	bsl	v8.16b, v16.16b, v21.16b
	cmhi	v17.16b, v17.16b, v28.16b
	cmhi	v24.16b, v31.16b, v24.16b
	bic	v1.16b, v10.16b, v1.16b
	cmeq	v10.16b, v11.16b, v3.16b
	ldur	q11, [x8, #45]
	bif	v16.16b, v21.16b, v22.16b
	ldur	q21, [x8, #47]
	cmhi	v22.16b, v31.16b, v6.16b
	uqsub	v20.16b, v11.16b, v20.16b
	cmeq	v23.16b, v23.16b, #0
	and	v11.16b, v25.16b, v18.16b
	uqsub	v9.16b, v21.16b, v15.16b
	cmeq	v8.16b, v26.16b, v8.16b
	cmeq	v26.16b, v26.16b, v13.16b
	cmgt	v13.16b, v3.16b, v25.16b
	orr	v27.16b, v30.16b, v27.16b
	bsl	v17.16b, v4.16b, v19.16b
	and	v22.16b, v29.16b, v22.16b
	bic	v29.16b, v12.16b, v10.16b
	and	v1.16b, v1.16b, v24.16b
	mvn	v8.16b, v8.16b
	cmhi	v25.16b, v31.16b, v25.16b
	cmeq	v16.16b, v21.16b, v16.16b
	umax	v30.16b, v9.16b, v14.16b
	eor	v23.16b, v13.16b, v23.16b
	cmgt	v19.16b, v3.16b, v6.16b
	cmeq	v27.16b, v27.16b, #0
	and	v1.16b, v29.16b, v1.16b
	and	v29.16b, v6.16b, v18.16b
	bic	v24.16b, v8.16b, v26.16b
	cmeq	v26.16b, v11.16b, v3.16b
	cmeq	v17.16b, v21.16b, v17.16b
	orr	v20.16b, v30.16b, v20.16b
	mvn	v16.16b, v16.16b
	and	v18.16b, v28.16b, v18.16b
	eor	v19.16b, v19.16b, v27.16b
	cmeq	v21.16b, v29.16b, v3.16b
	and	v1.16b, v22.16b, v1.16b
	bic	v23.16b, v23.16b, v26.16b
	and	v24.16b, v24.16b, v25.16b
	cmgt	v25.16b, v3.16b, v28.16b
	cmeq	v20.16b, v20.16b, #0
	bic	v16.16b, v16.16b, v17.16b
	cmeq	v17.16b, v18.16b, v3.16b
	bic	v18.16b, v19.16b, v21.16b
	and	v22.16b, v23.16b, v24.16b
	cmhi	v23.16b, v31.16b, v28.16b
	eor	v20.16b, v25.16b, v20.16b
	and	v1.16b, v1.16b, v22.16b
	and	v16.16b, v16.16b, v23.16b
	bic	v17.16b, v20.16b, v17.16b
	and	v1.16b, v1.16b, v18.16b
	and	v16.16b, v17.16b, v16.16b
	and	v1.16b, v1.16b, v16.16b
	shl	v1.16b, v1.16b, #7
	cmge	v1.16b, v1.16b, #0
	and	v1.16b, v1.16b, v0.16b
	addp	v1.16b, v1.16b, v1.16b
	addp	v1.16b, v1.16b, v1.16b
	addp	v1.16b, v1.16b, v1.16b
	umov	w9, v1.h[0]
	cbnz	w9, .LBB24_2
	cmge	v1.16b, v6.16b, #0
	cmhi	v16.16b, v7.16b, v2.16b
	adrp	x9, .Lstatic.13
	add	x9, x9, :lo12:.Lstatic.13
	cmhi	v17.16b, v6.16b, v15.16b
	movi	v18.16b, #64
	shl	v23.16b, v7.16b, #2
	ushr	v24.16b, v6.16b, #4
	movi	v20.16b, #232
	bsl	v1.16b, v3.16b, v7.16b
	movi	v21.16b, #231
	umax	v22.16b, v5.16b, v4.16b
	orr	v17.16b, v17.16b, v16.16b
	movi	v16.16b, #220
	movi	v19.16b, #127
	cmhi	v23.16b, v18.16b, v23.16b
	sli	v24.16b, v7.16b, #2
	umax	v25.16b, v1.16b, v5.16b
	bic	v26.16b, v0.16b, v17.16b
	ushr	v27.16b, v1.16b, #2
	movi	v17.16b, #240
	bsl	v23.16b, v21.16b, v20.16b
	and	v6.16b, v6.16b, v19.16b
	shl	v1.16b, v1.16b, #6
	add	v24.16b, v24.16b, v3.16b
	cmhi	v25.16b, v3.16b, v25.16b
	addp	v7.16b, v26.16b, v26.16b
	sli	v27.16b, v22.16b, #4
	add	v1.16b, v1.16b, v6.16b
	and	v22.16b, v25.16b, v16.16b
	addp	v7.16b, v7.16b, v7.16b
	cmhi	v25.16b, v17.16b, v5.16b
	add	v5.16b, v23.16b, v5.16b
	orr	v6.16b, v27.16b, v22.16b
	addp	v7.16b, v7.16b, v7.16b
	bif	v1.16b, v24.16b, v25.16b
	bit	v5.16b, v6.16b, v25.16b
	umov	w11, v7.h[0]
	zip1	v6.16b, v1.16b, v5.16b
	and	x10, x11, #0xff
	ubfx	x12, x11, #8, #8
	ldr	q7, [x9, x10, lsl #4]
	fmov	d22, x10
	add	x10, x24, x19
	zip2	v1.16b, v1.16b, v5.16b
	tbl	v6.16b, { v6.16b }, v7.16b
	cnt	v7.8b, v22.8b
	str	q6, [x10]
	fmov	w11, s7
	ldr	q5, [x9, x12, lsl #4]
	tbl	v1.16b, { v1.16b }, v5.16b
	ubfiz	x13, x11, #1, #32
	str	q1, [x10, x13]
	ldr	q1, [x8, #16]
	ldur	q6, [x8, #15]
	ldur	q23, [x8, #14]
	cmge	v5.16b, v1.16b, #0
	cmhi	v7.16b, v6.16b, v2.16b
	cmhi	v22.16b, v1.16b, v15.16b
	shl	v24.16b, v6.16b, #2
	umax	v25.16b, v23.16b, v4.16b
	ushr	v27.16b, v1.16b, #4
	and	v1.16b, v1.16b, v19.16b
	bsl	v5.16b, v3.16b, v6.16b
	orr	v7.16b, v7.16b, v22.16b
	cmhi	v24.16b, v18.16b, v24.16b
	sli	v27.16b, v6.16b, #2
	bic	v7.16b, v0.16b, v7.16b
	umax	v22.16b, v5.16b, v23.16b
	ushr	v26.16b, v5.16b, #2
	bsl	v24.16b, v21.16b, v20.16b
	shl	v5.16b, v5.16b, #6
	addp	v7.16b, v7.16b, v7.16b
	cmhi	v22.16b, v3.16b, v22.16b
	sli	v26.16b, v25.16b, #4
	add	v1.16b, v5.16b, v1.16b
	addp	v7.16b, v7.16b, v7.16b
	and	v6.16b, v22.16b, v16.16b
	add	v22.16b, v24.16b, v23.16b
	add	v24.16b, v27.16b, v3.16b
	cmhi	v23.16b, v17.16b, v23.16b
	addp	v5.16b, v7.16b, v7.16b
	fmov	d7, x12
	orr	v6.16b, v26.16b, v6.16b
	bif	v1.16b, v24.16b, v23.16b
	umov	w12, v5.h[0]
	cnt	v5.8b, v7.8b
	bif	v6.16b, v22.16b, v23.16b
	and	x13, x12, #0xff
	fmov	w14, s5
	zip1	v7.16b, v1.16b, v6.16b
	ldr	q5, [x9, x13, lsl #4]
	zip2	v1.16b, v1.16b, v6.16b
	add	x11, x11, x14
	add	x14, x10, x11, lsl #1
	tbl	v5.16b, { v7.16b }, v5.16b
	fmov	d7, x13
	ubfx	x13, x12, #8, #8
	cnt	v7.8b, v7.8b
	str	q5, [x14]
	ldr	q5, [x9, x13, lsl #4]
	fmov	w12, s7
	tbl	v1.16b, { v1.16b }, v5.16b
	ubfiz	x15, x12, #1, #32
	str	q1, [x14, x15]
	ldr	q1, [x8, #32]
	ldur	q6, [x8, #31]
	ldur	q23, [x8, #30]
	cmge	v5.16b, v1.16b, #0
	cmhi	v7.16b, v6.16b, v2.16b
	cmhi	v22.16b, v1.16b, v15.16b
	shl	v24.16b, v6.16b, #2
	umax	v25.16b, v23.16b, v4.16b
	ushr	v27.16b, v1.16b, #4
	and	v1.16b, v1.16b, v19.16b
	bsl	v5.16b, v3.16b, v6.16b
	orr	v7.16b, v7.16b, v22.16b
	cmhi	v24.16b, v18.16b, v24.16b
	sli	v27.16b, v6.16b, #2
	bic	v7.16b, v0.16b, v7.16b
	umax	v22.16b, v5.16b, v23.16b
	ushr	v26.16b, v5.16b, #2
	bsl	v24.16b, v21.16b, v20.16b
	shl	v5.16b, v5.16b, #6
	addp	v7.16b, v7.16b, v7.16b
	cmhi	v22.16b, v3.16b, v22.16b
	sli	v26.16b, v25.16b, #4
	add	v1.16b, v5.16b, v1.16b
	addp	v7.16b, v7.16b, v7.16b
	and	v6.16b, v22.16b, v16.16b
	add	v22.16b, v24.16b, v23.16b
	add	v24.16b, v27.16b, v3.16b
	cmhi	v23.16b, v17.16b, v23.16b
	addp	v5.16b, v7.16b, v7.16b
	fmov	d7, x13
	orr	v6.16b, v26.16b, v6.16b
	bif	v1.16b, v24.16b, v23.16b
	umov	w13, v5.h[0]
	cnt	v7.8b, v7.8b
	bif	v6.16b, v22.16b, v23.16b
	and	x15, x13, #0xff
	fmov	w14, s7
	ubfx	x13, x13, #8, #8
	zip1	v5.16b, v1.16b, v6.16b
	ldr	q7, [x9, x15, lsl #4]
	zip2	v1.16b, v1.16b, v6.16b
	add	x12, x12, x14
	add	x11, x11, x12
	tbl	v5.16b, { v5.16b }, v7.16b
	fmov	d7, x15
	add	x14, x10, x11, lsl #1
	cnt	v7.8b, v7.8b
	str	q5, [x14]
	ldr	q5, [x9, x13, lsl #4]
	fmov	w12, s7
	tbl	v1.16b, { v1.16b }, v5.16b
	ubfiz	x15, x12, #1, #32
	str	q1, [x14, x15]
	ldr	q1, [x8, #48]
	ldur	q6, [x8, #47]
	ldur	q22, [x8, #46]
	cmge	v5.16b, v1.16b, #0
	cmhi	v2.16b, v6.16b, v2.16b
	cmhi	v7.16b, v1.16b, v15.16b
	shl	v23.16b, v6.16b, #2
	umax	v4.16b, v22.16b, v4.16b
	bsl	v5.16b, v3.16b, v6.16b
	orr	v2.16b, v2.16b, v7.16b
	cmhi	v18.16b, v18.16b, v23.16b
	bic	v0.16b, v0.16b, v2.16b
	umax	v7.16b, v5.16b, v22.16b
	ushr	v24.16b, v5.16b, #2
	shl	v5.16b, v5.16b, #6
	addp	v0.16b, v0.16b, v0.16b
	cmhi	v2.16b, v3.16b, v7.16b
	ushr	v7.16b, v1.16b, #4
	sli	v24.16b, v4.16b, #4
	mov	v4.16b, v18.16b
	and	v1.16b, v1.16b, v19.16b
	addp	v0.16b, v0.16b, v0.16b
	sli	v7.16b, v6.16b, #2
	and	v2.16b, v2.16b, v16.16b
	cmhi	v6.16b, v17.16b, v22.16b
	bsl	v4.16b, v21.16b, v20.16b
	add	v1.16b, v5.16b, v1.16b
	fmov	d5, x13
	addp	v0.16b, v0.16b, v0.16b
	orr	v2.16b, v24.16b, v2.16b
	add	v3.16b, v7.16b, v3.16b
	add	v4.16b, v4.16b, v22.16b
	umov	w13, v0.h[0]
	bif	v1.16b, v3.16b, v6.16b
	cnt	v3.8b, v5.8b
	bif	v2.16b, v4.16b, v6.16b
	and	x15, x13, #0xff
	fmov	w14, s3
	ldr	q3, [x9, x15, lsl #4]
	zip1	v0.16b, v1.16b, v2.16b
	zip2	v1.16b, v1.16b, v2.16b
	add	x12, x12, x14
	add	x11, x11, x12
	ubfx	x12, x13, #8, #8
	tbl	v0.16b, { v0.16b }, v3.16b
	fmov	d3, x15
	add	x10, x10, x11, lsl #1
	fmov	d2, x12
	cnt	v3.8b, v3.8b
	str	q0, [x10]
	cnt	v0.8b, v2.8b
	ldr	q2, [x9, x12, lsl #4]
	fmov	w9, s3
	tbl	v1.16b, { v1.16b }, v2.16b
	fmov	w13, s0
	ubfiz	x12, x9, #1, #32
	add	x9, x9, x13
	str	q1, [x10, x12]
	add	x9, x11, x9
	ldrb	w10, [x8, #61]
	add	x19, x19, x9, lsl #1
	cmp	w10, #239
	b.ls	.LBB24_24
	sub	x19, x19, #2
	mov	w8, #61
	b	.LBB24_29
.LBB24_21:
	movi	v17.16b, #160
	movi	v1.16b, #191
	ldur	q19, [x8, #14]
	movi	v2.16b, #223
	ldp	q21, q27, [x8, #16]
	movi	v16.16b, #254
	ldur	q20, [x8, #15]
	movi	v18.16b, #237
	movi	v3.16b, #224
	movi	v4.16b, #192
	ldur	q24, [x8, #30]
	cmhi	v23.16b, v17.16b, v21.16b
	uqsub	v22.16b, v20.16b, v1.16b
	ldur	q26, [x8, #31]
	uqsub	v19.16b, v19.16b, v2.16b
	ldur	q28, [x8, #46]
	ldur	q29, [x8, #47]
	and	v25.16b, v21.16b, v16.16b
	ldr	q30, [x8, #48]
	uqsub	v31.16b, v7.16b, v1.16b
	bsl	v23.16b, v3.16b, v18.16b
	cmhi	v9.16b, v17.16b, v6.16b
	cmhi	v10.16b, v17.16b, v27.16b
	cmhi	v17.16b, v17.16b, v30.16b
	uqsub	v24.16b, v24.16b, v2.16b
	uqsub	v12.16b, v29.16b, v1.16b
	cmeq	v25.16b, v25.16b, v4.16b
	orr	v19.16b, v22.16b, v19.16b
	uqsub	v22.16b, v5.16b, v2.16b
	uqsub	v28.16b, v28.16b, v2.16b
	and	v8.16b, v6.16b, v16.16b
	cmgt	v21.16b, v4.16b, v21.16b
	cmeq	v20.16b, v20.16b, v23.16b
	uqsub	v23.16b, v26.16b, v1.16b
	and	v11.16b, v27.16b, v16.16b
	mvn	v25.16b, v25.16b
	cmeq	v19.16b, v19.16b, #0
	and	v16.16b, v30.16b, v16.16b
	bsl	v10.16b, v3.16b, v18.16b
	bsl	v9.16b, v3.16b, v18.16b
	bsl	v17.16b, v3.16b, v18.16b
	orr	v18.16b, v22.16b, v31.16b
	cmgt	v27.16b, v4.16b, v27.16b
	eor	v19.16b, v21.16b, v19.16b
	cmeq	v21.16b, v8.16b, v4.16b
	bic	v20.16b, v25.16b, v20.16b
	orr	v22.16b, v23.16b, v24.16b
	cmeq	v23.16b, v11.16b, v4.16b
	orr	v25.16b, v12.16b, v28.16b
	cmeq	v16.16b, v16.16b, v4.16b
	cmeq	v24.16b, v26.16b, v10.16b
	cmeq	v17.16b, v29.16b, v17.16b
	mvn	v21.16b, v21.16b
	cmeq	v26.16b, v7.16b, v9.16b
	cmgt	v28.16b, v4.16b, v30.16b
	cmeq	v22.16b, v22.16b, #0
	mvn	v23.16b, v23.16b
	cmeq	v25.16b, v25.16b, #0
	mvn	v16.16b, v16.16b
	and	v19.16b, v19.16b, v20.16b
	cmeq	v18.16b, v18.16b, #0
	bic	v21.16b, v21.16b, v26.16b
	eor	v20.16b, v27.16b, v22.16b
	cmgt	v22.16b, v4.16b, v6.16b
	bic	v23.16b, v23.16b, v24.16b
	eor	v24.16b, v28.16b, v25.16b
	bic	v16.16b, v16.16b, v17.16b
	eor	v17.16b, v22.16b, v18.16b
	and	v18.16b, v21.16b, v19.16b
	and	v19.16b, v20.16b, v23.16b
	and	v16.16b, v24.16b, v16.16b
	and	v18.16b, v18.16b, v19.16b
	and	v16.16b, v17.16b, v16.16b
	and	v16.16b, v18.16b, v16.16b
	bic	v16.16b, v0.16b, v16.16b
	addp	v16.16b, v16.16b, v16.16b
	addp	v16.16b, v16.16b, v16.16b
	addp	v16.16b, v16.16b, v16.16b
	umov	w9, v16.h[0]
	cbnz	w9, .LBB24_2
	cmhi	v16.16b, v7.16b, v2.16b
	cmhi	v17.16b, v6.16b, v1.16b
	adrp	x9, .Lstatic.13
	add	x9, x9, :lo12:.Lstatic.13
	umax	v5.16b, v5.16b, v3.16b
	orr	v16.16b, v17.16b, v16.16b
	cmge	v17.16b, v6.16b, #0
	bic	v16.16b, v0.16b, v16.16b
	bsl	v17.16b, v4.16b, v7.16b
	movi	v7.16b, #127
	addp	v16.16b, v16.16b, v16.16b
	ushr	v18.16b, v17.16b, #2
	and	v6.16b, v6.16b, v7.16b
	shl	v17.16b, v17.16b, #6
	addp	v16.16b, v16.16b, v16.16b
	sli	v18.16b, v5.16b, #4
	add	v5.16b, v17.16b, v6.16b
	addp	v16.16b, v16.16b, v16.16b
	zip1	v6.16b, v5.16b, v18.16b
	zip2	v5.16b, v5.16b, v18.16b
	umov	w11, v16.h[0]
	and	x10, x11, #0xff
	ubfx	x11, x11, #8, #8
	ldr	q16, [x9, x10, lsl #4]
	tbl	v6.16b, { v6.16b }, v16.16b
	fmov	d16, x10
	add	x10, x24, x19
	cnt	v16.8b, v16.8b
	str	q6, [x10]
	ldr	q6, [x9, x11, lsl #4]
	fmov	w12, s16
	tbl	v5.16b, { v5.16b }, v6.16b
	ubfiz	x13, x12, #1, #32
	str	q5, [x10, x13]
	ldur	q5, [x8, #15]
	ldr	q6, [x8, #16]
	cmhi	v16.16b, v5.16b, v2.16b
	cmhi	v17.16b, v6.16b, v1.16b
	orr	v16.16b, v16.16b, v17.16b
	cmge	v17.16b, v6.16b, #0
	and	v6.16b, v6.16b, v7.16b
	bic	v16.16b, v0.16b, v16.16b
	bit	v5.16b, v4.16b, v17.16b
	ldur	q17, [x8, #14]
	umax	v17.16b, v17.16b, v3.16b
	addp	v16.16b, v16.16b, v16.16b
	ushr	v18.16b, v5.16b, #2
	shl	v5.16b, v5.16b, #6
	addp	v16.16b, v16.16b, v16.16b
	sli	v18.16b, v17.16b, #4
	fmov	d17, x11
	add	v5.16b, v5.16b, v6.16b
	addp	v16.16b, v16.16b, v16.16b
	cnt	v6.8b, v17.8b
	umov	w13, v16.h[0]
	zip1	v16.16b, v5.16b, v18.16b
	zip2	v5.16b, v5.16b, v18.16b
	fmov	w14, s6
	and	x11, x13, #0xff
	ubfx	x13, x13, #8, #8
	ldr	q6, [x9, x11, lsl #4]
	tbl	v6.16b, { v16.16b }, v6.16b
	fmov	d16, x11
	add	x11, x12, x14
	add	x12, x10, x11, lsl #1
	cnt	v16.8b, v16.8b
	str	q6, [x12]
	ldr	q6, [x9, x13, lsl #4]
	fmov	w14, s16
	tbl	v5.16b, { v5.16b }, v6.16b
	ubfiz	x15, x14, #1, #32
	str	q5, [x12, x15]
	ldur	q5, [x8, #31]
	ldr	q6, [x8, #32]
	cmhi	v16.16b, v5.16b, v2.16b
	cmhi	v17.16b, v6.16b, v1.16b
	orr	v16.16b, v16.16b, v17.16b
	cmge	v17.16b, v6.16b, #0
	and	v6.16b, v6.16b, v7.16b
	bic	v16.16b, v0.16b, v16.16b
	bit	v5.16b, v4.16b, v17.16b
	ldur	q17, [x8, #30]
	umax	v17.16b, v17.16b, v3.16b
	addp	v16.16b, v16.16b, v16.16b
	ushr	v18.16b, v5.16b, #2
	shl	v5.16b, v5.16b, #6
	addp	v16.16b, v16.16b, v16.16b
	sli	v18.16b, v17.16b, #4
	fmov	d17, x13
	add	v5.16b, v5.16b, v6.16b
	addp	v16.16b, v16.16b, v16.16b
	cnt	v17.8b, v17.8b
	zip1	v6.16b, v5.16b, v18.16b
	zip2	v5.16b, v5.16b, v18.16b
	umov	w12, v16.h[0]
	fmov	w13, s17
	and	x15, x12, #0xff
	ubfx	x12, x12, #8, #8
	ldr	q16, [x9, x15, lsl #4]
	add	x13, x14, x13
	add	x11, x11, x13
	tbl	v6.16b, { v6.16b }, v16.16b
	fmov	d16, x15
	add	x13, x10, x11, lsl #1
	cnt	v16.8b, v16.8b
	str	q6, [x13]
	ldr	q6, [x9, x12, lsl #4]
	fmov	w14, s16
	tbl	v5.16b, { v5.16b }, v6.16b
	ubfiz	x15, x14, #1, #32
	str	q5, [x13, x15]
	ldur	q5, [x8, #47]
	ldr	q6, [x8, #48]
	cmhi	v2.16b, v5.16b, v2.16b
	cmhi	v1.16b, v6.16b, v1.16b
	orr	v1.16b, v2.16b, v1.16b
	ldur	q2, [x8, #46]
	umax	v2.16b, v2.16b, v3.16b
	bic	v0.16b, v0.16b, v1.16b
	cmge	v1.16b, v6.16b, #0
	addp	v0.16b, v0.16b, v0.16b
	bsl	v1.16b, v4.16b, v5.16b
	and	v4.16b, v6.16b, v7.16b
	fmov	d5, x12
	addp	v0.16b, v0.16b, v0.16b
	ushr	v3.16b, v1.16b, #2
	shl	v1.16b, v1.16b, #6
	addp	v0.16b, v0.16b, v0.16b
	sli	v3.16b, v2.16b, #4
	cnt	v2.8b, v5.8b
	add	v1.16b, v1.16b, v4.16b
	umov	w12, v0.h[0]
	zip1	v0.16b, v1.16b, v3.16b
	fmov	w13, s2
	zip2	v1.16b, v1.16b, v3.16b
	and	x15, x12, #0xff
	ubfx	x12, x12, #8, #8
	fmov	d4, x15
	ldr	q2, [x9, x15, lsl #4]
	add	x13, x14, x13
	add	x11, x11, x13
	tbl	v0.16b, { v0.16b }, v2.16b
	add	x13, x10, x11, lsl #1
	cnt	v2.8b, v4.8b
	str	q0, [x13]
	fmov	w10, s2
	ldr	q0, [x9, x12, lsl #4]
	tbl	v0.16b, { v1.16b }, v0.16b
	mov	w9, w10
	ubfiz	x9, x9, #1, #32
	str	q0, [x13, x9]
	ldrb	w9, [x8, #62]
	cmp	w9, #223
	b.ls	.LBB24_26
	mov	w8, #62
	b	.LBB24_27
.LBB24_24:
	ldrb	w9, [x8, #62]
	cmp	w9, #223
	b.ls	.LBB24_28
	mov	w8, #62
	b	.LBB24_29
.LBB24_26:
	ldrb	w8, [x8, #63]
	cmp	w8, #191
	mov	w8, #63
	cinc	x8, x8, ls
.LBB24_27:
	fmov	d0, x12
	cnt	v0.8b, v0.8b
	fmov	w9, s0
	add	x9, x10, x9
	add	x9, x11, x9
	add	x19, x19, x9, lsl #1
	b	.LBB24_29
.LBB24_28:
	ldrb	w8, [x8, #63]
	cmp	w8, #191
	mov	w8, #63
	cinc	x8, x8, ls
.LBB24_29:
	add	x4, x8, x4
	b	.LBB24_2
.LBB24_30:
	mov	x0, x22
	mov	x1, x19
	.cfi_def_cfa wsp, 160
	ldp	x20, x19, [sp, #144]
	ldr	x27, [sp, #80]
	ldp	x22, x21, [sp, #128]
	ldp	x24, x23, [sp, #112]
	ldp	x26, x25, [sp, #96]
	ldp	x29, x30, [sp, #64]
	ldp	d9, d8, [sp, #48]
	ldp	d11, d10, [sp, #32]
	ldp	d13, d12, [sp, #16]
	ldp	d15, d14, [sp], #160
	.cfi_def_cfa_offset 0
	.cfi_restore w19
	.cfi_restore w20
	.cfi_restore w21
	.cfi_restore w22
	.cfi_restore w23
	.cfi_restore w24
	.cfi_restore w25
	.cfi_restore w26
	.cfi_restore w27
	.cfi_restore w30
	.cfi_restore w29
	.cfi_restore b8
	.cfi_restore b9
	.cfi_restore b10
	.cfi_restore b11
	.cfi_restore b12
	.cfi_restore b13
	.cfi_restore b14
	.cfi_restore b15
	ret
.Lfunc_end24:
	.size	"utf16_from_utf8::blocks::write_mixed_blocks::<#418c2b53cf60437c>", .Lfunc_end24-"utf16_from_utf8::blocks::write_mixed_blocks::<#418c2b53cf60437c>"
	.cfi_endproc

	.section	.rodata.cst16,"aM",@progbits,16
	.p2align	4, 0x0
.LCPI25_0:
	.byte	255
	.byte	0
	.byte	255
	.byte	255
	.byte	0
	.byte	255
	.byte	255
	.byte	0
	.byte	255
	.byte	255
	.byte	0
	.byte	255
	.byte	255
	.byte	0
	.byte	255
	.byte	255
.LCPI25_1:
	.byte	255
	.byte	255
	.byte	0
	.byte	255
	.byte	255
	.byte	0
	.byte	255
	.byte	255
	.byte	0
	.byte	255
	.byte	255
	.byte	0
	.byte	255
	.byte	255
	.byte	0
	.byte	255
.LCPI25_2:
	.byte	0
	.byte	3
	.byte	6
	.byte	9
	.byte	12
	.byte	15
	.byte	18
	.byte	21
	.byte	24
	.byte	27
	.byte	30
	.byte	17
	.byte	20
	.byte	23
	.byte	26
	.byte	29
.LCPI25_3:
	.byte	1
	.byte	4
	.byte	7
	.byte	10
	.byte	13
	.byte	16
	.byte	19
	.byte	22
	.byte	25
	.byte	28
	.byte	31
	.byte	18
	.byte	21
	.byte	24
	.byte	27
	.byte	30
.LCPI25_4:
	.byte	2
	.byte	5
	.byte	8
	.byte	11
	.byte	14
	.byte	17
	.byte	20
	.byte	23
	.byte	26
	.byte	29
	.byte	16
	.byte	19
	.byte	22
	.byte	25
	.byte	28
	.byte	31
.LCPI25_5:
	.byte	1
	.byte	2
	.byte	4
	.byte	8
	.byte	16
	.byte	32
	.byte	64
	.byte	128
	.byte	1
	.byte	2
	.byte	4
	.byte	8
	.byte	16
	.byte	32
	.byte	64
	.byte	128
	.section	".text.utf16_from_utf8::rest::write_rest::<#418c2b53cf60437c>","ax",@progbits
	.p2align	2
	.type	"utf16_from_utf8::rest::write_rest::<#418c2b53cf60437c>",@function
"utf16_from_utf8::rest::write_rest::<#418c2b53cf60437c>":
	.cfi_startproc
	stp	x29, x30, [sp, #-48]!
	.cfi_def_cfa_offset 48
	str	x21, [sp, #16]
	stp	x20, x19, [sp, #32]
	mov	x29, sp
	.cfi_def_cfa w29, 48
	.cfi_offset w19, -8
	.cfi_offset w20, -16
	.cfi_offset w21, -32
	.cfi_offset w30, -40
	.cfi_offset w29, -48
	mov	x19, x5
	mov	x20, x4
	subs	x9, x1, x4
	adrp	x8, .LCPI25_5
	b.eq	.LBB25_9
	ldrb	w10, [x0, x20]
	and	w10, w10, #0xf0
	cmp	w10, #224
	b.ne	.LBB25_9
	subs	x9, x9, #48
	b.lo	.LBB25_9
	sub	x10, x3, x19
	subs	x10, x10, #32
	b.lo	.LBB25_9
	add	x11, x0, #16
.LBB25_5:
	adrp	x13, .LCPI25_0
	add	x12, x11, x20
	movi	v7.16b, #192
	ldr	q0, [x13, :lo12:.LCPI25_0]
	ldp	q2, q1, [x12]
	ldur	q4, [x12, #-16]
	adrp	x12, .LCPI25_1
	mov	v5.16b, v0.16b
	ldr	q0, [x12, :lo12:.LCPI25_1]
	adrp	x12, .LCPI25_2
	ldr	q3, [x12, :lo12:.LCPI25_2]
	adrp	x12, .LCPI25_3
	mov	v17.16b, v0.16b
	ldr	q6, [x12, :lo12:.LCPI25_3]
	adrp	x12, .LCPI25_4
	bsl	v5.16b, v1.16b, v2.16b
	bsl	v17.16b, v2.16b, v1.16b
	bif	v1.16b, v2.16b, v0.16b
	mov	v16.16b, v4.16b
	mov	v0.16b, v4.16b
	tbl	v3.16b, { v0.16b, v1.16b }, v3.16b
	tbl	v0.16b, { v16.16b, v17.16b }, v6.16b
	movi	v6.16b, #240
	ldr	q1, [x12, :lo12:.LCPI25_4]
	tbl	v1.16b, { v4.16b, v5.16b }, v1.16b
	movi	v4.16b, #32
	movi	v5.16b, #128
	and	v6.16b, v3.16b, v6.16b
	and	v16.16b, v0.16b, v7.16b
	add	v4.16b, v6.16b, v4.16b
	eor	v6.16b, v16.16b, v5.16b
	and	v7.16b, v1.16b, v7.16b
	eor	v5.16b, v7.16b, v5.16b
	umax	v4.16b, v4.16b, v6.16b
	orr	v4.16b, v4.16b, v5.16b
	cmeq	v5.16b, v4.16b, #0
	ldr	q4, [x8, :lo12:.LCPI25_5]
	bic	v5.16b, v4.16b, v5.16b
	addp	v5.16b, v5.16b, v5.16b
	addp	v5.16b, v5.16b, v5.16b
	addp	v5.16b, v5.16b, v5.16b
	umov	w12, v5.h[0]
	cbnz	w12, .LBB25_9
	ushr	v2.16b, v0.16b, #2
	movi	v5.16b, #7
	movi	v6.16b, #216
	sli	v2.16b, v3.16b, #4
	movi	v3.16b, #248
	and	v3.16b, v2.16b, v3.16b
	cmhi	v5.16b, v2.16b, v5.16b
	cmeq	v3.16b, v3.16b, v6.16b
	and	v3.16b, v3.16b, v5.16b
	orn	v3.16b, v3.16b, v5.16b
	and	v3.16b, v3.16b, v4.16b
	addp	v3.16b, v3.16b, v3.16b
	addp	v3.16b, v3.16b, v3.16b
	addp	v3.16b, v3.16b, v3.16b
	umov	w12, v3.h[0]
	cbnz	w12, .LBB25_9
	sli	v1.16b, v0.16b, #6
	add	x12, x2, x19
	subs	x9, x9, #48
	add	x19, x19, #32
	add	x20, x20, #48
	zip2	v0.16b, v1.16b, v2.16b
	st2	{ v1.8b, v2.8b }, [x12], #16
	str	q0, [x12]
	b.lo	.LBB25_9
	cmp	x10, #31
	sub	x10, x10, #32
	b.hi	.LBB25_5
.LBB25_9:
	sub	x21, x1, #1
	ldrb	w9, [x0, x21]
	cmp	w9, #191
	b.hi	.LBB25_12
	sub	x21, x1, #2
	ldrb	w9, [x0, x21]
	cmp	w9, #223
	b.hi	.LBB25_12
	sub	x9, x1, #3
	ldrb	w10, [x0, x9]
	cmp	w10, #239
	csel	x21, x9, x1, hi
.LBB25_12:
	cmp	x21, #17
	b.lo	.LBB25_24
	subs	x9, x21, x20
	b.ls	.LBB25_24
	sub	x10, x3, x19
	subs	x10, x10, #16
	csel	x10, xzr, x10, lo
	cmp	x9, x10, lsr #1
	b.hi	.LBB25_24
	subs	x9, x20, #18
	add	x11, x0, x21
	csel	x10, xzr, x9, lo
	ldur	q0, [x11, #-16]
	sub	x9, x21, x10
	cmp	x9, #17
	b.lo	.LBB25_18
	add	x10, x0, x10
.LBB25_17:
	ldr	q1, [x10], #16
	sub	x9, x9, #16
	cmp	x9, #16
	umax	v0.16b, v0.16b, v1.16b
	b.hi	.LBB25_17
.LBB25_18:
	movi	v1.16b, #224
	cmhs	v2.16b, v0.16b, v1.16b
	ldr	q1, [x8, :lo12:.LCPI25_5]
	and	v2.16b, v2.16b, v1.16b
	addp	v2.16b, v2.16b, v2.16b
	addp	v2.16b, v2.16b, v2.16b
	addp	v2.16b, v2.16b, v2.16b
	umov	w8, v2.h[0]
	cbz	w8, .LBB25_21
	movi	v2.16b, #240
	add	x3, x2, x19
	mov	x1, x21
	mov	x2, x20
	cmhs	v0.16b, v0.16b, v2.16b
	and	v0.16b, v0.16b, v1.16b
	addp	v0.16b, v0.16b, v0.16b
	addp	v0.16b, v0.16b, v0.16b
	addp	v0.16b, v0.16b, v0.16b
	umov	w8, v0.h[0]
	cbz	w8, .LBB25_22
	bl	"utf16_from_utf8::rest::write_rest_of::<#c16de31c8ac190b9>"
	b	.LBB25_23
.LBB25_21:
	add	x3, x2, x19
	mov	x1, x21
	mov	x2, x20
	bl	"utf16_from_utf8::rest::write_rest_of::<#0fe1328e7259d677>"
	b	.LBB25_23
.LBB25_22:
	bl	"utf16_from_utf8::rest::write_rest_of::<#f189504864b36784>"
.LBB25_23:
	and	w8, w0, #0xff
	add	x9, x1, x19
	cmp	w8, #1
	csel	x20, x21, x20, eq
	csel	x19, x9, x19, eq
.LBB25_24:
	mov	x0, x20
	mov	x1, x19
	.cfi_def_cfa wsp, 48
	ldp	x20, x19, [sp, #32]
	ldr	x21, [sp, #16]
	ldp	x29, x30, [sp], #48
	.cfi_def_cfa_offset 0
	.cfi_restore w19
	.cfi_restore w20
	.cfi_restore w21
	.cfi_restore w30
	.cfi_restore w29
	ret
.Lfunc_end25:
	.size	"utf16_from_utf8::rest::write_rest::<#418c2b53cf60437c>", .Lfunc_end25-"utf16_from_utf8::rest::write_rest::<#418c2b53cf60437c>"
	.cfi_endproc

	.section	.rodata.cst16,"aM",@progbits,16
	.p2align	4, 0x0
.LCPI26_0:
	.byte	1
	.byte	2
	.byte	4
	.byte	8
	.byte	16
	.byte	32
	.byte	64
	.byte	128
	.byte	1
	.byte	2
	.byte	4
	.byte	8
	.byte	16
	.byte	32
	.byte	64
	.byte	128
	.section	".text.utf16_from_utf8::rest::write_rest_of::<#0fe1328e7259d677>","ax",@progbits
	.p2align	2
	.type	"utf16_from_utf8::rest::write_rest_of::<#0fe1328e7259d677>",@function
"utf16_from_utf8::rest::write_rest_of::<#0fe1328e7259d677>":
	.cfi_startproc
	movi	v0.2d, #0000000000000000
	sub	x11, x1, x2
	adrp	x9, .LCPI26_0
	cmp	x11, #16
	adrp	x10, .Lstatic.13
	add	x10, x10, :lo12:.Lstatic.13
	mov	x8, xzr
	b.hs	.LBB26_6
.LBB26_1:
	cmp	x2, x1
	b.eq	.LBB26_13
	sub	x11, x1, #16
	add	x12, x0, x11
	cmp	x11, #3
	ldr	q1, [x12]
	b.lo	.LBB26_11
	ldur	q2, [x12, #-1]
	b	.LBB26_12
.LBB26_4:
	add	x12, x0, x2
	ldur	q2, [x12, #-1]
.LBB26_5:
	movi	v3.16b, #191
	ldr	q5, [x9, :lo12:.LCPI26_0]
	movi	v7.16b, #127
	sub	x11, x11, #16
	add	x2, x2, #16
	cmp	x11, #15
	cmhs	v4.16b, v3.16b, v1.16b
	and	v7.16b, v1.16b, v7.16b
	and	v4.16b, v4.16b, v5.16b
	movi	v5.16b, #192
	addp	v4.16b, v4.16b, v4.16b
	uqsub	v6.16b, v2.16b, v5.16b
	cmhi	v2.16b, v2.16b, v3.16b
	cmgt	v17.16b, v5.16b, v1.16b
	addp	v4.16b, v4.16b, v4.16b
	eor	v2.16b, v17.16b, v2.16b
	shl	v16.16b, v6.16b, #6
	ushr	v6.16b, v6.16b, #2
	addp	v4.16b, v4.16b, v4.16b
	add	v7.16b, v16.16b, v7.16b
	umov	w12, v4.h[0]
	movi	v4.16b, #254
	zip1	v16.16b, v7.16b, v6.16b
	and	x13, x12, #0xff
	ubfx	x12, x12, #8, #8
	and	v1.16b, v1.16b, v4.16b
	ldr	q3, [x10, x13, lsl #4]
	fmov	d4, x13
	add	x13, x3, x8
	tbl	v3.16b, { v16.16b }, v3.16b
	fmov	d16, x12
	cmeq	v1.16b, v1.16b, v5.16b
	cnt	v4.8b, v4.8b
	zip2	v5.16b, v7.16b, v6.16b
	cnt	v16.8b, v16.8b
	orr	v1.16b, v1.16b, v2.16b
	str	q3, [x13]
	fmov	w14, s4
	ldr	q3, [x10, x12, lsl #4]
	umax	v0.16b, v0.16b, v1.16b
	fmov	w12, s16
	tbl	v2.16b, { v5.16b }, v3.16b
	ubfiz	x15, x14, #1, #32
	add	x12, x14, x12
	str	q2, [x13, x15]
	add	x8, x8, x12, lsl #1
	b.ls	.LBB26_1
.LBB26_6:
	ldr	q1, [x0, x2]
	cmp	x2, #3
	b.hs	.LBB26_4
	cbz	x2, .LBB26_9
	add	x12, x0, x2
	sub	x12, x12, #1
	ld1r	{ v2.16b }, [x12]
	b	.LBB26_10
.LBB26_9:
	movi	v2.2d, #0000000000000000
.LBB26_10:
	ext	v2.16b, v2.16b, v1.16b, #15
	b	.LBB26_5
.LBB26_11:
	add	x12, x0, x1
	sub	x12, x12, #17
	ld1r	{ v2.16b }, [x12]
	ext	v2.16b, v2.16b, v1.16b, #15
.LBB26_12:
	movi	v3.16b, #191
	ldr	q5, [x9, :lo12:.LCPI26_0]
	movi	v7.16b, #127
	sub	x11, x2, x11
	cmhs	v4.16b, v3.16b, v1.16b
	and	v4.16b, v4.16b, v5.16b
	movi	v5.16b, #192
	addp	v4.16b, v4.16b, v4.16b
	uqsub	v6.16b, v2.16b, v5.16b
	cmhi	v2.16b, v2.16b, v3.16b
	cmgt	v16.16b, v5.16b, v1.16b
	addp	v4.16b, v4.16b, v4.16b
	eor	v2.16b, v16.16b, v2.16b
	addp	v4.16b, v4.16b, v4.16b
	umov	w12, v4.h[0]
	and	v4.16b, v1.16b, v7.16b
	shl	v7.16b, v6.16b, #6
	ushr	v6.16b, v6.16b, #2
	add	v4.16b, v7.16b, v4.16b
	movi	v7.16b, #254
	lsr	x12, x12, x11
	lsl	x11, x12, x11
	zip1	v17.16b, v4.16b, v6.16b
	zip2	v4.16b, v4.16b, v6.16b
	and	v1.16b, v1.16b, v7.16b
	ubfx	x12, x11, #8, #32
	and	x13, x11, #0xff
	lsr	x11, x11, #8
	ldr	q7, [x10, x13, lsl #4]
	fmov	d3, x12
	cmeq	v1.16b, v1.16b, v5.16b
	add	x12, x3, x8
	tbl	v7.16b, { v17.16b }, v7.16b
	fmov	d17, x13
	cnt	v3.8b, v3.8b
	orr	v1.16b, v1.16b, v2.16b
	cnt	v5.8b, v17.8b
	str	q7, [x12]
	ldr	q2, [x10, x11, lsl #4]
	umax	v0.16b, v0.16b, v1.16b
	addv	b3, v3.8b
	fmov	w13, s5
	tbl	v2.16b, { v4.16b }, v2.16b
	fmov	w10, s3
	ubfiz	x11, x13, #1, #32
	add	x10, x13, x10
	str	q2, [x12, x11]
	add	x8, x8, x10, lsl #1
.LBB26_13:
	cmeq	v0.16b, v0.16b, #0
	ldr	q1, [x9, :lo12:.LCPI26_0]
	bic	v0.16b, v1.16b, v0.16b
	addp	v0.16b, v0.16b, v0.16b
	addp	v0.16b, v0.16b, v0.16b
	addp	v0.16b, v0.16b, v0.16b
	umov	w9, v0.h[0]
	cbz	w9, .LBB26_15
	mov	x1, xzr
	mov	w0, wzr
	ret
.LBB26_15:
	sub	x9, x1, #1
	ldrb	w10, [x0, x9]
	cmp	w10, #191
	b.hi	.LBB26_18
	sub	x9, x1, #2
	ldrb	w10, [x0, x9]
	cmp	w10, #223
	b.hi	.LBB26_18
	sub	x9, x1, #3
	ldrb	w10, [x0, x9]
	cmp	w10, #239
	csel	x9, x9, x1, hi
.LBB26_18:
	cmp	x9, x1
	cset	w0, hs
	csel	x1, x8, xzr, hs
	ret
.Lfunc_end26:
	.size	"utf16_from_utf8::rest::write_rest_of::<#0fe1328e7259d677>", .Lfunc_end26-"utf16_from_utf8::rest::write_rest_of::<#0fe1328e7259d677>"
	.cfi_endproc

	.section	.rodata.cst16,"aM",@progbits,16
	.p2align	4, 0x0
.LCPI27_0:
	.byte	1
	.byte	2
	.byte	4
	.byte	8
	.byte	16
	.byte	32
	.byte	64
	.byte	128
	.byte	1
	.byte	2
	.byte	4
	.byte	8
	.byte	16
	.byte	32
	.byte	64
	.byte	128
	.section	".text.utf16_from_utf8::rest::write_rest_of::<#f189504864b36784>","ax",@progbits
	.p2align	2
	.type	"utf16_from_utf8::rest::write_rest_of::<#f189504864b36784>",@function
"utf16_from_utf8::rest::write_rest_of::<#f189504864b36784>":
	.cfi_startproc
	movi	v0.2d, #0000000000000000
	sub	x11, x1, x2
	adrp	x9, .LCPI27_0
	cmp	x11, #16
	adrp	x10, .Lstatic.13
	add	x10, x10, :lo12:.Lstatic.13
	mov	x8, xzr
	b.hs	.LBB27_6
.LBB27_1:
	cmp	x2, x1
	b.eq	.LBB27_18
	sub	x11, x1, #16
	add	x12, x0, x11
	cmp	x11, #3
	ldr	q1, [x12]
	b.lo	.LBB27_13
	ldur	q3, [x12, #-2]
	ldur	q2, [x12, #-1]
	b	.LBB27_17
.LBB27_4:
	add	x12, x0, x2
	ldur	q3, [x12, #-2]
	ldur	q1, [x12, #-1]
.LBB27_5:
	movi	v4.16b, #223
	movi	v5.16b, #191
	sub	x11, x11, #16
	movi	v16.16b, #192
	movi	v17.16b, #224
	cmp	x11, #15
	movi	v18.16b, #127
	movi	v19.16b, #160
	add	x2, x2, #16
	cmhi	v6.16b, v1.16b, v4.16b
	cmhi	v7.16b, v2.16b, v5.16b
	uqsub	v5.16b, v1.16b, v5.16b
	umax	v20.16b, v3.16b, v17.16b
	uqsub	v3.16b, v3.16b, v4.16b
	movi	v4.16b, #237
	and	v18.16b, v2.16b, v18.16b
	cmhi	v19.16b, v19.16b, v2.16b
	orr	v6.16b, v7.16b, v6.16b
	ldr	q7, [x9, :lo12:.LCPI27_0]
	bit	v4.16b, v17.16b, v19.16b
	orr	v3.16b, v3.16b, v5.16b
	bic	v6.16b, v7.16b, v6.16b
	cmge	v7.16b, v2.16b, #0
	cmeq	v3.16b, v3.16b, #0
	addp	v6.16b, v6.16b, v6.16b
	bsl	v7.16b, v16.16b, v1.16b
	cmeq	v1.16b, v1.16b, v4.16b
	addp	v6.16b, v6.16b, v6.16b
	ushr	v21.16b, v7.16b, #2
	shl	v7.16b, v7.16b, #6
	addp	v6.16b, v6.16b, v6.16b
	sli	v21.16b, v20.16b, #4
	movi	v20.16b, #254
	add	v7.16b, v7.16b, v18.16b
	umov	w12, v6.h[0]
	and	v5.16b, v2.16b, v20.16b
	zip1	v6.16b, v7.16b, v21.16b
	cmgt	v2.16b, v16.16b, v2.16b
	and	x13, x12, #0xff
	ubfx	x12, x12, #8, #8
	ldr	q17, [x10, x13, lsl #4]
	cmeq	v5.16b, v5.16b, v16.16b
	fmov	d4, x13
	fmov	d16, x12
	eor	v2.16b, v3.16b, v2.16b
	add	x13, x3, x8
	tbl	v6.16b, { v6.16b }, v17.16b
	zip2	v3.16b, v7.16b, v21.16b
	cnt	v4.8b, v4.8b
	orr	v1.16b, v5.16b, v1.16b
	cnt	v16.8b, v16.8b
	str	q6, [x13]
	orn	v1.16b, v1.16b, v2.16b
	fmov	w14, s4
	ldr	q4, [x10, x12, lsl #4]
	fmov	w12, s16
	tbl	v2.16b, { v3.16b }, v4.16b
	umax	v0.16b, v0.16b, v1.16b
	ubfiz	x15, x14, #1, #32
	add	x12, x14, x12
	add	x8, x8, x12, lsl #1
	str	q2, [x13, x15]
	b.ls	.LBB27_1
.LBB27_6:
	ldr	q2, [x0, x2]
	cmp	x2, #3
	b.hs	.LBB27_4
	cbz	x2, .LBB27_10
	add	x12, x0, x2
	cmp	x2, #2
	sub	x12, x12, #1
	ld1r	{ v1.16b }, [x12]
	ext	v1.16b, v1.16b, v2.16b, #15
	b.ne	.LBB27_11
	ldrb	w12, [x0]
	b	.LBB27_12
.LBB27_10:
	movi	v1.2d, #0000000000000000
	mov	w12, wzr
	ext	v1.16b, v1.16b, v2.16b, #15
	b	.LBB27_12
.LBB27_11:
	mov	w12, wzr
.LBB27_12:
	dup	v3.16b, w12
	ext	v3.16b, v3.16b, v1.16b, #15
	b	.LBB27_5
.LBB27_13:
	add	x12, x0, x1
	cmp	x11, #2
	sub	x12, x12, #17
	ld1r	{ v2.16b }, [x12]
	ext	v2.16b, v2.16b, v1.16b, #15
	b.ne	.LBB27_15
	ldrb	w12, [x0]
	b	.LBB27_16
.LBB27_15:
	mov	w12, wzr
.LBB27_16:
	dup	v3.16b, w12
	ext	v3.16b, v3.16b, v2.16b, #15
.LBB27_17:
	movi	v4.16b, #223
	movi	v5.16b, #191
	sub	x11, x2, x11
	cmge	v16.16b, v1.16b, #0
	movi	v17.16b, #224
	movi	v18.16b, #127
	movi	v21.16b, #237
	cmhi	v6.16b, v2.16b, v4.16b
	cmhi	v7.16b, v1.16b, v5.16b
	uqsub	v5.16b, v2.16b, v5.16b
	umax	v19.16b, v3.16b, v17.16b
	uqsub	v3.16b, v3.16b, v4.16b
	and	v18.16b, v1.16b, v18.16b
	movi	v4.16b, #254
	orr	v6.16b, v7.16b, v6.16b
	ldr	q7, [x9, :lo12:.LCPI27_0]
	orr	v3.16b, v3.16b, v5.16b
	bic	v6.16b, v7.16b, v6.16b
	movi	v7.16b, #192
	and	v4.16b, v1.16b, v4.16b
	cmeq	v3.16b, v3.16b, #0
	addp	v6.16b, v6.16b, v6.16b
	bsl	v16.16b, v7.16b, v2.16b
	cmeq	v4.16b, v4.16b, v7.16b
	addp	v6.16b, v6.16b, v6.16b
	ushr	v20.16b, v16.16b, #2
	shl	v16.16b, v16.16b, #6
	addp	v6.16b, v6.16b, v6.16b
	sli	v20.16b, v19.16b, #4
	add	v16.16b, v16.16b, v18.16b
	umov	w12, v6.h[0]
	movi	v6.16b, #160
	cmhi	v6.16b, v6.16b, v1.16b
	lsr	x12, x12, x11
	cmgt	v1.16b, v7.16b, v1.16b
	lsl	x11, x12, x11
	mov	v5.16b, v6.16b
	zip1	v6.16b, v16.16b, v20.16b
	eor	v1.16b, v3.16b, v1.16b
	ubfx	x12, x11, #8, #32
	and	x13, x11, #0xff
	lsr	x11, x11, #8
	bsl	v5.16b, v17.16b, v21.16b
	fmov	d7, x12
	add	x12, x3, x8
	cnt	v7.8b, v7.8b
	cmeq	v2.16b, v2.16b, v5.16b
	ldr	q5, [x10, x13, lsl #4]
	tbl	v5.16b, { v6.16b }, v5.16b
	fmov	d6, x13
	orr	v2.16b, v4.16b, v2.16b
	addv	b4, v7.8b
	cnt	v3.8b, v6.8b
	zip2	v6.16b, v16.16b, v20.16b
	str	q5, [x12]
	orn	v1.16b, v2.16b, v1.16b
	ldr	q2, [x10, x11, lsl #4]
	fmov	w10, s4
	fmov	w13, s3
	tbl	v2.16b, { v6.16b }, v2.16b
	umax	v0.16b, v0.16b, v1.16b
	add	x10, x13, x10
	ubfiz	x11, x13, #1, #32
	add	x8, x8, x10, lsl #1
	str	q2, [x12, x11]
.LBB27_18:
	cmeq	v0.16b, v0.16b, #0
	ldr	q1, [x9, :lo12:.LCPI27_0]
	bic	v0.16b, v1.16b, v0.16b
	addp	v0.16b, v0.16b, v0.16b
	addp	v0.16b, v0.16b, v0.16b
	addp	v0.16b, v0.16b, v0.16b
	umov	w9, v0.h[0]
	cbz	w9, .LBB27_20
	mov	x1, xzr
	mov	w0, wzr
	ret
.LBB27_20:
	sub	x9, x1, #1
	ldrb	w10, [x0, x9]
	cmp	w10, #191
	b.hi	.LBB27_23
	sub	x9, x1, #2
	ldrb	w10, [x0, x9]
	cmp	w10, #223
	b.hi	.LBB27_23
	sub	x9, x1, #3
	ldrb	w10, [x0, x9]
	cmp	w10, #239
	csel	x9, x9, x1, hi
.LBB27_23:
	cmp	x9, x1
	cset	w0, hs
	csel	x1, x8, xzr, hs
	ret
.Lfunc_end27:
	.size	"utf16_from_utf8::rest::write_rest_of::<#f189504864b36784>", .Lfunc_end27-"utf16_from_utf8::rest::write_rest_of::<#f189504864b36784>"
	.cfi_endproc

	.section	.rodata.cst16,"aM",@progbits,16
	.p2align	4, 0x0
.LCPI28_0:
	.byte	1
	.byte	2
	.byte	4
	.byte	8
	.byte	16
	.byte	32
	.byte	64
	.byte	128
	.byte	1
	.byte	2
	.byte	4
	.byte	8
	.byte	16
	.byte	32
	.byte	64
	.byte	128
	.section	".text.utf16_from_utf8::rest::write_rest_of::<#c16de31c8ac190b9>","ax",@progbits
	.p2align	2
	.type	"utf16_from_utf8::rest::write_rest_of::<#c16de31c8ac190b9>",@function
"utf16_from_utf8::rest::write_rest_of::<#c16de31c8ac190b9>":
	.cfi_startproc
	movi	v0.2d, #0000000000000000
	sub	x11, x1, x2
	adrp	x9, .LCPI28_0
	cmp	x11, #16
	adrp	x10, .Lstatic.13
	add	x10, x10, :lo12:.Lstatic.13
	mov	x8, xzr
	b.hs	.LBB28_6
.LBB28_1:
	cmp	x2, x1
	b.eq	.LBB28_24
	sub	x11, x1, #16
	add	x12, x0, x11
	cmp	x11, #3
	ldr	q1, [x12]
	b.lo	.LBB28_16
	ldur	q5, [x12, #-3]
	ldur	q2, [x12, #-2]
	ldur	q3, [x12, #-1]
	b	.LBB28_20
.LBB28_4:
	movi	v7.16b, #223
	movi	v16.16b, #191
	movi	v18.16b, #239
	movi	v22.16b, #160
	movi	v23.16b, #144
	movi	v6.16b, #192
	cmge	v17.16b, v1.16b, #0
	movi	v21.16b, #224
	movi	v26.16b, #240
	movi	v27.16b, #237
	movi	v25.16b, #64
	shl	v24.16b, v2.16b, #2
	uqsub	v19.16b, v2.16b, v16.16b
	uqsub	v20.16b, v3.16b, v7.16b
	uqsub	v5.16b, v5.16b, v18.16b
	cmhi	v7.16b, v2.16b, v7.16b
	cmhi	v16.16b, v1.16b, v16.16b
	bsl	v17.16b, v6.16b, v2.16b
	movi	v28.16b, #231
	cmhi	v24.16b, v25.16b, v24.16b
	ushr	v25.16b, v1.16b, #4
	umax	v18.16b, v19.16b, v20.16b
	cmhi	v20.16b, v22.16b, v1.16b
	cmhi	v22.16b, v23.16b, v1.16b
	movi	v19.16b, #244
	orr	v7.16b, v16.16b, v7.16b
	movi	v23.16b, #232
	sli	v25.16b, v2.16b, #2
	orr	v5.16b, v18.16b, v5.16b
	mov	v16.16b, v20.16b
	mov	v18.16b, v22.16b
	movi	v20.16b, #254
	umax	v22.16b, v17.16b, v3.16b
	bic	v4.16b, v4.16b, v7.16b
	cmgt	v7.16b, v6.16b, v1.16b
	bit	v23.16b, v28.16b, v24.16b
	movi	v24.16b, #127
	bsl	v16.16b, v21.16b, v27.16b
	bsl	v18.16b, v26.16b, v19.16b
	cmeq	v5.16b, v5.16b, #0
	umax	v21.16b, v3.16b, v21.16b
	ushr	v27.16b, v17.16b, #2
	addp	v4.16b, v4.16b, v4.16b
	and	v20.16b, v1.16b, v20.16b
	shl	v17.16b, v17.16b, #6
	eor	v5.16b, v5.16b, v7.16b
	cmhi	v7.16b, v6.16b, v22.16b
	cmeq	v16.16b, v2.16b, v16.16b
	cmeq	v18.16b, v2.16b, v18.16b
	movi	v2.16b, #220
	sli	v27.16b, v21.16b, #4
	addp	v4.16b, v4.16b, v4.16b
	orr	v16.16b, v18.16b, v16.16b
	cmhi	v18.16b, v1.16b, v19.16b
	cmeq	v19.16b, v20.16b, v6.16b
	and	v1.16b, v1.16b, v24.16b
	and	v2.16b, v7.16b, v2.16b
	add	v6.16b, v25.16b, v6.16b
	addp	v4.16b, v4.16b, v4.16b
	orn	v5.16b, v19.16b, v5.16b
	orr	v7.16b, v16.16b, v18.16b
	cmhi	v16.16b, v26.16b, v3.16b
	add	v1.16b, v17.16b, v1.16b
	orr	v2.16b, v27.16b, v2.16b
	add	v3.16b, v23.16b, v3.16b
	umov	w12, v4.h[0]
	orr	v5.16b, v7.16b, v5.16b
	bif	v1.16b, v6.16b, v16.16b
	bif	v2.16b, v3.16b, v16.16b
	umax	v0.16b, v0.16b, v5.16b
.LBB28_5:
	zip1	v3.16b, v1.16b, v2.16b
	and	x13, x12, #0xff
	lsr	x12, x12, #8
	ldr	q4, [x10, x13, lsl #4]
	zip2	v1.16b, v1.16b, v2.16b
	sub	x11, x11, #16
	fmov	d5, x12
	cmp	x11, #15
	add	x2, x2, #16
	tbl	v3.16b, { v3.16b }, v4.16b
	fmov	d4, x13
	add	x13, x3, x8
	cnt	v5.8b, v5.8b
	cnt	v4.8b, v4.8b
	str	q3, [x13]
	ldr	q2, [x10, x12, lsl #4]
	fmov	w14, s5
	fmov	w12, s4
	tbl	v1.16b, { v1.16b }, v2.16b
	ubfiz	x15, x12, #1, #32
	add	x12, x12, x14
	add	x8, x8, x12, lsl #1
	str	q1, [x13, x15]
	b.ls	.LBB28_1
.LBB28_6:
	ldr	q1, [x0, x2]
	cmp	x2, #3
	b.lo	.LBB28_8
	add	x12, x0, x2
	ldur	q5, [x12, #-3]
	ldur	q3, [x12, #-2]
	ldur	q2, [x12, #-1]
	b	.LBB28_14
.LBB28_8:
	cbz	x2, .LBB28_11
	add	x12, x0, x2
	cmp	x2, #2
	sub	x12, x12, #1
	ld1r	{ v2.16b }, [x12]
	ext	v2.16b, v2.16b, v1.16b, #15
	b.ne	.LBB28_12
	ldrb	w12, [x0]
	b	.LBB28_13
.LBB28_11:
	movi	v2.2d, #0000000000000000
	mov	w12, wzr
	ext	v2.16b, v2.16b, v1.16b, #15
	b	.LBB28_13
.LBB28_12:
	mov	w12, wzr
.LBB28_13:
	dup	v3.16b, w12
	movi	v4.2d, #0000000000000000
	ext	v3.16b, v3.16b, v2.16b, #15
	ext	v5.16b, v4.16b, v3.16b, #15
.LBB28_14:
	orr	v4.16b, v5.16b, v1.16b
	cmlt	v6.16b, v4.16b, #0
	ldr	q4, [x9, :lo12:.LCPI28_0]
	and	v6.16b, v6.16b, v4.16b
	addp	v6.16b, v6.16b, v6.16b
	addp	v6.16b, v6.16b, v6.16b
	addp	v6.16b, v6.16b, v6.16b
	umov	w12, v6.h[0]
	cbnz	w12, .LBB28_4
	movi	v2.2d, #0000000000000000
	mov	w12, #65535
	b	.LBB28_5
.LBB28_16:
	add	x12, x0, x1
	cmp	x11, #2
	sub	x12, x12, #17
	ld1r	{ v2.16b }, [x12]
	ext	v3.16b, v2.16b, v1.16b, #15
	b.ne	.LBB28_18
	ldrb	w12, [x0]
	b	.LBB28_19
.LBB28_18:
	mov	w12, wzr
.LBB28_19:
	dup	v2.16b, w12
	movi	v4.2d, #0000000000000000
	ext	v2.16b, v2.16b, v3.16b, #15
	ext	v5.16b, v4.16b, v2.16b, #15
.LBB28_20:
	orr	v4.16b, v5.16b, v1.16b
	cmlt	v6.16b, v4.16b, #0
	ldr	q4, [x9, :lo12:.LCPI28_0]
	and	v6.16b, v6.16b, v4.16b
	addp	v6.16b, v6.16b, v6.16b
	addp	v6.16b, v6.16b, v6.16b
	addp	v6.16b, v6.16b, v6.16b
	umov	w12, v6.h[0]
	cbz	w12, .LBB28_22
	movi	v7.16b, #223
	movi	v16.16b, #191
	movi	v18.16b, #239
	movi	v22.16b, #160
	movi	v23.16b, #144
	movi	v6.16b, #192
	cmge	v17.16b, v1.16b, #0
	movi	v21.16b, #224
	movi	v26.16b, #240
	movi	v27.16b, #237
	movi	v25.16b, #64
	shl	v24.16b, v3.16b, #2
	uqsub	v19.16b, v3.16b, v16.16b
	uqsub	v20.16b, v2.16b, v7.16b
	uqsub	v5.16b, v5.16b, v18.16b
	cmhi	v7.16b, v3.16b, v7.16b
	cmhi	v16.16b, v1.16b, v16.16b
	bsl	v17.16b, v6.16b, v3.16b
	movi	v28.16b, #231
	cmhi	v24.16b, v25.16b, v24.16b
	ushr	v25.16b, v1.16b, #4
	umax	v18.16b, v19.16b, v20.16b
	cmhi	v20.16b, v22.16b, v1.16b
	cmhi	v22.16b, v23.16b, v1.16b
	movi	v19.16b, #244
	orr	v7.16b, v16.16b, v7.16b
	movi	v23.16b, #232
	sli	v25.16b, v3.16b, #2
	orr	v5.16b, v18.16b, v5.16b
	mov	v16.16b, v20.16b
	mov	v18.16b, v22.16b
	movi	v20.16b, #254
	umax	v22.16b, v17.16b, v2.16b
	bic	v4.16b, v4.16b, v7.16b
	cmgt	v7.16b, v6.16b, v1.16b
	bit	v23.16b, v28.16b, v24.16b
	movi	v24.16b, #127
	bsl	v16.16b, v21.16b, v27.16b
	bsl	v18.16b, v26.16b, v19.16b
	cmeq	v5.16b, v5.16b, #0
	umax	v21.16b, v2.16b, v21.16b
	ushr	v27.16b, v17.16b, #2
	addp	v4.16b, v4.16b, v4.16b
	and	v20.16b, v1.16b, v20.16b
	shl	v17.16b, v17.16b, #6
	eor	v5.16b, v5.16b, v7.16b
	cmhi	v7.16b, v6.16b, v22.16b
	cmeq	v16.16b, v3.16b, v16.16b
	cmeq	v18.16b, v3.16b, v18.16b
	movi	v3.16b, #220
	sli	v27.16b, v21.16b, #4
	addp	v4.16b, v4.16b, v4.16b
	orr	v16.16b, v18.16b, v16.16b
	cmhi	v18.16b, v1.16b, v19.16b
	cmeq	v19.16b, v20.16b, v6.16b
	and	v1.16b, v1.16b, v24.16b
	and	v3.16b, v7.16b, v3.16b
	add	v6.16b, v25.16b, v6.16b
	addp	v4.16b, v4.16b, v4.16b
	orn	v5.16b, v19.16b, v5.16b
	orr	v7.16b, v16.16b, v18.16b
	cmhi	v16.16b, v26.16b, v2.16b
	add	v1.16b, v17.16b, v1.16b
	orr	v3.16b, v27.16b, v3.16b
	add	v2.16b, v23.16b, v2.16b
	umov	w12, v4.h[0]
	orr	v5.16b, v7.16b, v5.16b
	bif	v1.16b, v6.16b, v16.16b
	bit	v2.16b, v3.16b, v16.16b
	umax	v0.16b, v0.16b, v5.16b
	b	.LBB28_23
.LBB28_22:
	movi	v2.2d, #0000000000000000
	mov	w12, #65535
.LBB28_23:
	sub	x11, x2, x11
	zip1	v3.16b, v1.16b, v2.16b
	zip2	v1.16b, v1.16b, v2.16b
	lsr	x12, x12, x11
	lsl	x11, x12, x11
	ubfx	x12, x11, #8, #32
	and	x13, x11, #0xff
	lsr	x11, x11, #8
	ldr	q5, [x10, x13, lsl #4]
	fmov	d4, x12
	add	x12, x3, x8
	tbl	v3.16b, { v3.16b }, v5.16b
	fmov	d5, x13
	cnt	v4.8b, v4.8b
	cnt	v5.8b, v5.8b
	str	q3, [x12]
	ldr	q2, [x10, x11, lsl #4]
	addv	b4, v4.8b
	fmov	w13, s5
	tbl	v1.16b, { v1.16b }, v2.16b
	fmov	w10, s4
	ubfiz	x11, x13, #1, #32
	add	x10, x13, x10
	str	q1, [x12, x11]
	add	x8, x8, x10, lsl #1
.LBB28_24:
	cmeq	v0.16b, v0.16b, #0
	ldr	q1, [x9, :lo12:.LCPI28_0]
	bic	v0.16b, v1.16b, v0.16b
	addp	v0.16b, v0.16b, v0.16b
	addp	v0.16b, v0.16b, v0.16b
	addp	v0.16b, v0.16b, v0.16b
	umov	w9, v0.h[0]
	cbz	w9, .LBB28_26
	mov	x1, xzr
	mov	w0, wzr
	ret
.LBB28_26:
	sub	x9, x1, #1
	ldrb	w10, [x0, x9]
	cmp	w10, #191
	b.hi	.LBB28_29
	sub	x9, x1, #2
	ldrb	w10, [x0, x9]
	cmp	w10, #223
	b.hi	.LBB28_29
	sub	x9, x1, #3
	ldrb	w10, [x0, x9]
	cmp	w10, #239
	csel	x9, x9, x1, hi
.LBB28_29:
	cmp	x9, x1
	cset	w0, hs
	csel	x1, x8, xzr, hs
	ret
.Lfunc_end28:
	.size	"utf16_from_utf8::rest::write_rest_of::<#c16de31c8ac190b9>", .Lfunc_end28-"utf16_from_utf8::rest::write_rest_of::<#c16de31c8ac190b9>"
	.cfi_endproc

	.section	.rodata.cst16,"aM",@progbits,16
	.p2align	4, 0x0
.LCPI29_0:
	.byte	1
	.byte	2
	.byte	4
	.byte	8
	.byte	16
	.byte	32
	.byte	64
	.byte	128
	.byte	1
	.byte	2
	.byte	4
	.byte	8
	.byte	16
	.byte	32
	.byte	64
	.byte	128
	.section	".text.utf16_transcode::transcoding::transcode_many::<#58ba01604e1c9b81>","ax",@progbits
	.p2align	2
	.type	"utf16_transcode::transcoding::transcode_many::<#58ba01604e1c9b81>",@function
"utf16_transcode::transcoding::transcode_many::<#58ba01604e1c9b81>":
	.cfi_startproc
	sub	sp, sp, #416
	.cfi_def_cfa_offset 416
	stp	x29, x30, [sp, #320]
	stp	x28, x27, [sp, #336]
	stp	x26, x25, [sp, #352]
	stp	x24, x23, [sp, #368]
	stp	x22, x21, [sp, #384]
	stp	x20, x19, [sp, #400]
	add	x29, sp, #320
	.cfi_def_cfa w29, 96
	.cfi_offset w19, -8
	.cfi_offset w20, -16
	.cfi_offset w21, -24
	.cfi_offset w22, -32
	.cfi_offset w23, -40
	.cfi_offset w24, -48
	.cfi_offset w25, -56
	.cfi_offset w26, -64
	.cfi_offset w27, -72
	.cfi_offset w28, -80
	.cfi_offset w30, -88
	.cfi_offset w29, -96
	.cfi_remember_state
	add	x8, x1, x5
	mov	x20, x6
	mov	x25, x5
	ldrsb	w10, [x8]
	mov	x21, x4
	mov	x22, x1
	mov	x24, x3
	mov	x23, x2
	mov	x19, x0
	tbnz	w10, #31, .LBB29_152
.LBB29_1:
	cmp	x23, x25
	b.hi	.LBB29_4
.LBB29_2:
	stp	x25, x20, [x19]
	strh	wzr, [x19, #16]
	b	.LBB29_188
.LBB29_3:
	mov	w12, #67043328
	mov	w13, #-10240
	mov	w14, #56320
	add	w12, w9, w12
	bfxil	w14, w9, #0, #10
	add	w9, w13, w12, lsr #10
	mov	w12, #4
	strh	w14, [x11, #2]
	add	x25, x10, x8
	add	x20, x12, x20
	strh	w9, [x11]
	cmp	x25, x23
	b.hs	.LBB29_2
.LBB29_4:
	sub	x27, x23, x25
	add	x28, x22, x25
	cmp	x27, #16
	b.lo	.LBB29_6
	add	x0, x22, x25
	sub	x1, x23, x25
	add	x2, x24, x20
	sub	x3, x21, x20
	bl	"utf16_transcode::encode::FromUtf8Direction::write_front::<#418c2b53cf60437c>"
	mov	x26, x0
	add	x20, x1, x20
	subs	x1, x27, x0
	b.ne	.LBB29_7
	b	.LBB29_11
.LBB29_6:
	mov	x26, xzr
	subs	x1, x27, xzr
	b.eq	.LBB29_11
.LBB29_7:
	cmp	x1, #7
	add	x27, x28, x26
	b.hi	.LBB29_22
.LBB29_8:
	mov	x0, x27
	mov	x2, x24
	mov	x3, x21
	mov	x4, x20
	bl	"utf16_transcode::transcoding::write_chars::<#58ba01604e1c9b81>"
.LBB29_9:
	mov	x20, x1
.LBB29_10:
	add	x27, x0, x26
.LBB29_11:
	add	x8, x27, x25
	subs	x11, x23, x8
	b.eq	.LBB29_164
	add	x10, x22, x8
	ldrsb	w12, [x10]
	and	w9, w12, #0xff
	tbnz	w12, #31, .LBB29_17
	mov	w10, #1
.LBB29_14:
	cmp	w9, #16, lsl #12
	mov	w11, #4
	mov	w12, #2
	sub	x13, x21, x20
	csel	x11, x12, x11, lo
	cmp	x13, x11
	b.lo	.LBB29_165
	lsr	w12, w9, #16
	add	x11, x24, x20
	cbnz	w12, .LBB29_3
	mov	w12, #2
	add	x25, x10, x8
	add	x20, x12, x20
	strh	w9, [x11]
	cmp	x25, x23
	b.lo	.LBB29_4
	b	.LBB29_2
.LBB29_17:
	cmp	x11, #3
	b.lo	.LBB29_27
	add	w12, w9, #31
	and	w12, w12, #0xff
	cmp	w12, #11
	b.hi	.LBB29_28
	ldrsb	w12, [x10, #1]
	cmn	w12, #65
	b.gt	.LBB29_28
	ldrsb	w13, [x10, #2]
	cmn	w13, #65
	b.gt	.LBB29_28
	lsl	w9, w9, #12
	and	w10, w12, #0xff
	and	w11, w13, #0xff
	add	w9, w9, w10, lsl #6
	mov	w10, #57216
	movk	w10, #65521, lsl #16
	add	w10, w11, w10
	b	.LBB29_34
.LBB29_22:
	cmp	x1, #128
	mov	w8, #128
	sub	x14, x21, x20
	csel	x28, x1, x8, lo
	subs	x8, x14, #16
	csel	x8, xzr, x8, lo
	cmp	x28, x8, lsr #1
	b.ls	.LBB29_40
	cmp	x14, #23
	b.ls	.LBB29_8
	movi	v0.2d, #0000000000000000
	cmp	x1, #15
	str	wzr, [sp, #304]
	stp	q0, q0, [sp, #48]
	stp	q0, q0, [sp, #80]
	stp	q0, q0, [sp, #112]
	stp	q0, q0, [sp, #144]
	stp	q0, q0, [sp, #176]
	stp	q0, q0, [sp, #208]
	stp	q0, q0, [sp, #240]
	stp	q0, q0, [sp, #272]
	str	q0, [sp, #32]
	b.hi	.LBB29_66
	add	x2, sp, #32
	mov	x0, x27
	mov	x3, x24
	mov	x4, x21
	mov	x5, x20
.LBB29_26:
	bl	"utf16_transcode::transcoding::write_buffered_text::<#58ba01604e1c9b81>"
	b	.LBB29_9
.LBB29_27:
	cmp	x11, #2
	b.ne	.LBB29_184
.LBB29_28:
	lsr	w13, w9, #4
	ldrb	w12, [x10, #1]
	and	w13, w13, #0xc
	orr	w13, w13, w12, lsr #6
	cmp	w13, #14
	b.ne	.LBB29_176
	add	w13, w9, #31
	and	w13, w13, #0xff
	cmp	w13, #12
	b.hs	.LBB29_35
.LBB29_30:
	cmp	x11, #2
	b.eq	.LBB29_177
	ldrsb	w13, [x10, #2]
	cmn	w13, #65
	b.gt	.LBB29_180
	cmp	w9, #239
	and	w13, w13, #0xff
	b.hi	.LBB29_42
	lsl	w9, w9, #12
	mov	w10, #57216
	movk	w10, #65521, lsl #16
	add	w9, w9, w12, lsl #6
	add	w10, w13, w10
.LBB29_34:
	add	w9, w9, w10
	mov	w10, #3
	b	.LBB29_14
.LBB29_35:
	add	w13, w9, #62
	and	w14, w13, #0xff
	cmp	w14, #30
	b.lo	.LBB29_85
	cmp	w9, #239
	b.gt	.LBB29_60
	cmp	w9, #224
	b.eq	.LBB29_79
	cmp	w9, #237
	b.ne	.LBB29_77
	mov	w14, #159
	b	.LBB29_78
.LBB29_40:
	mov	x0, x27
	cmp	x1, #63
	b.hi	.LBB29_45
	mov	x1, x28
	bl	"utf16_transcode::encode::valid_prefix"
	b	.LBB29_47
.LBB29_42:
	cmp	x11, #4
	b.lo	.LBB29_177
	ldrsb	w10, [x10, #3]
	cmn	w10, #65
	b.gt	.LBB29_185
	lsl	w9, w9, #18
	mov	w11, #57216
	and	w10, w10, #0xff
	movk	w11, #64567, lsl #16
	add	w9, w9, w12, lsl #12
	add	w10, w10, w11
	add	w9, w9, w13, lsl #6
	add	w9, w9, w10
	mov	w10, #4
	b	.LBB29_14
.LBB29_45:
	mov	w1, #63
	bl	"utf16_transcode::encode::valid_prefix"
	add	x8, x0, #4
	cmp	x8, #64
	b.lo	.LBB29_47
	sub	x1, x28, x0
	mov	x28, x0
	add	x0, x27, x0
	bl	"utf16_transcode::encode::valid_prefix"
	add	x0, x0, x28
.LBB29_47:
	cbz	x0, .LBB29_10
	cmp	x0, #7
	add	x8, x24, x20
	b.hi	.LBB29_63
	mov	x5, xzr
	mov	x9, x0
	b	.LBB29_51
.LBB29_50:
	mov	w13, #67043328
	mov	w14, #-10240
	add	w10, w10, w13
	mov	w13, #56320
	add	w10, w14, w10, lsr #10
	orr	w12, w12, w13
	strh	w12, [x11, #2]
	strh	w10, [x11]
	mov	w10, #4
	add	x5, x10, x5
	cbz	x9, .LBB29_104
.LBB29_51:
	ldrsb	w11, [x27]
	and	w10, w11, #0xff
	tbnz	w11, #31, .LBB29_53
	mov	w12, #1
	b	.LBB29_57
.LBB29_53:
	ldrb	w11, [x27, #1]
	cmp	w10, #223
	and	w11, w11, #0x3f
	b.hi	.LBB29_55
	bfi	w11, w10, #6, #5
	mov	w12, #2
	mov	w10, w11
	b	.LBB29_57
.LBB29_55:
	ldrb	w12, [x27, #2]
	cmp	w10, #239
	and	w12, w12, #0x3f
	b.hi	.LBB29_59
	ubfiz	w10, w10, #12, #4
	orr	w10, w10, w11, lsl #6
	orr	w10, w10, w12
	mov	w12, #3
.LBB29_57:
	add	x27, x27, x12
	sub	x9, x9, x12
	add	x11, x8, x5
.LBB29_58:
	strh	w10, [x11]
	mov	w10, #2
	add	x5, x10, x5
	cbnz	x9, .LBB29_51
	b	.LBB29_104
.LBB29_59:
	ldrb	w13, [x27, #3]
	ubfiz	w10, w10, #18, #3
	add	x27, x27, #4
	sub	x9, x9, #4
	and	w13, w13, #0x3f
	orr	w10, w10, w11, lsl #12
	add	x11, x8, x5
	orr	w12, w13, w12, lsl #6
	lsr	w13, w10, #16
	orr	w10, w12, w10
	cbz	w13, .LBB29_58
	b	.LBB29_50
.LBB29_60:
	cmp	w9, #240
	b.eq	.LBB29_80
	cmp	w9, #244
	b.ne	.LBB29_77
	mov	w14, #143
	b	.LBB29_78
.LBB29_63:
	lsl	x5, x0, #1
	cmp	x0, #16
	b.hi	.LBB29_71
	add	x9, x27, x0
	ldr	d0, [x27]
	ldur	d1, [x9, #-8]
	adrp	x9, .Lstatic.11
	add	x9, x9, :lo12:.Lstatic.11
	add	x9, x9, x0, lsl #4
	mov	v0.d[1], v1.d[0]
	ldur	q1, [x9, #-128]
	adrp	x9, .LCPI29_0
	tbl	v1.16b, { v0.16b }, v1.16b
	ldr	q0, [x9, :lo12:.LCPI29_0]
	cmlt	v2.16b, v1.16b, #0
	and	v2.16b, v2.16b, v0.16b
	addp	v2.16b, v2.16b, v2.16b
	addp	v2.16b, v2.16b, v2.16b
	addp	v2.16b, v2.16b, v2.16b
	umov	w9, v2.h[0]
	cbz	w9, .LBB29_95
	adrp	x9, .Lstatic.12
	add	x9, x9, :lo12:.Lstatic.12
	movi	v3.2d, #0000000000000000
	sub	x9, x9, x0
	movi	v6.16b, #223
	movi	v7.16b, #191
	ldr	q2, [x9, #16]
	movi	v16.16b, #224
	movi	v17.16b, #64
	movi	v20.16b, #232
	movi	v21.16b, #231
	movi	v22.16b, #220
	umax	v2.16b, v1.16b, v2.16b
	movi	v1.16b, #192
	adrp	x11, .Lstatic.13
	add	x11, x11, :lo12:.Lstatic.13
	ext	v4.16b, v3.16b, v2.16b, #15
	cmge	v5.16b, v2.16b, #0
	cmhi	v7.16b, v2.16b, v7.16b
	ext	v3.16b, v3.16b, v4.16b, #15
	bsl	v5.16b, v1.16b, v4.16b
	cmhi	v6.16b, v4.16b, v6.16b
	shl	v18.16b, v4.16b, #2
	orr	v6.16b, v7.16b, v6.16b
	umax	v7.16b, v3.16b, v16.16b
	umax	v16.16b, v5.16b, v3.16b
	cmhi	v17.16b, v17.16b, v18.16b
	ushr	v19.16b, v5.16b, #2
	movi	v18.16b, #127
	shl	v5.16b, v5.16b, #6
	bic	v0.16b, v0.16b, v6.16b
	cmhi	v6.16b, v1.16b, v16.16b
	ushr	v16.16b, v2.16b, #4
	bsl	v17.16b, v21.16b, v20.16b
	sli	v19.16b, v7.16b, #4
	addp	v0.16b, v0.16b, v0.16b
	and	v2.16b, v2.16b, v18.16b
	sli	v16.16b, v4.16b, #2
	movi	v4.16b, #240
	and	v6.16b, v6.16b, v22.16b
	add	v7.16b, v17.16b, v3.16b
	addp	v0.16b, v0.16b, v0.16b
	add	v2.16b, v5.16b, v2.16b
	orr	v6.16b, v19.16b, v6.16b
	cmhi	v3.16b, v4.16b, v3.16b
	add	v1.16b, v16.16b, v1.16b
	addp	v0.16b, v0.16b, v0.16b
	mov	v4.16b, v3.16b
	bit	v1.16b, v2.16b, v3.16b
	umov	w9, v0.h[0]
	bsl	v4.16b, v6.16b, v7.16b
	and	x10, x9, #0xff
	ubfx	x9, x9, #8, #8
	ldr	q2, [x11, x10, lsl #4]
	zip1	v0.16b, v1.16b, v4.16b
	fmov	d3, x9
	zip2	v1.16b, v1.16b, v4.16b
	cnt	v3.8b, v3.8b
	tbl	v0.16b, { v0.16b }, v2.16b
	fmov	d2, x10
	cnt	v2.8b, v2.8b
	fmov	w10, s3
	str	q0, [x8]
	ldr	q0, [x11, x9, lsl #4]
	fmov	w9, s2
	tbl	v0.16b, { v1.16b }, v0.16b
	ubfiz	x11, x9, #1, #32
	add	x9, x9, x10
	lsl	x5, x9, #1
	str	q0, [x8, x11]
	add	x20, x5, x20
	b	.LBB29_10
.LBB29_66:
	ldrsb	w8, [x27]
	tbnz	w8, #31, .LBB29_86
	mov	w8, #1
.LBB29_68:
	add	x8, x27, x8
	ldrsb	w9, [x8]
	tbnz	w9, #31, .LBB29_89
.LBB29_69:
	cmp	x14, #65
	mov	w8, #130
	mov	w9, #66
	csel	x8, x9, x8, lo
	str	x1, [sp, #8]
	add	x2, sp, #32
	cmp	x8, x1
	mov	x0, x27
	mov	w3, #276
	csel	x1, x8, x1, lo
	bl	"utf16_transcode::encode::FromUtf8Direction::write_front::<#418c2b53cf60437c>"
	sub	x9, x21, x20
	cmp	x1, x9
	b.ls	.LBB29_92
	orr	x8, x9, #0x1
	add	x10, sp, #32
	and	x9, x9, #0xfffffffffffffffe
	ldrb	w8, [x10, x8]
	sub	x10, x9, #2
	add	x0, sp, #32
	and	w8, w8, #0xfc
	cmp	w8, #220
	csel	x28, x10, x9, eq
	mov	x1, x28
	bl	"utf16_to_utf8::lens::utf8_len::<#418c2b53cf60437c>"
	b	.LBB29_93
.LBB29_71:
	add	x28, x5, #16
	lsr	x9, x28, #1
	cmp	x9, x0
	csel	x4, x9, x0, lo
	cmp	x28, #32
	b.lo	.LBB29_73
	ldr	q1, [x27]
	adrp	x9, .LCPI29_0
	ldr	q0, [x9, :lo12:.LCPI29_0]
	cmlt	v2.16b, v1.16b, #0
	and	v2.16b, v2.16b, v0.16b
	addp	v2.16b, v2.16b, v2.16b
	addp	v2.16b, v2.16b, v2.16b
	addp	v2.16b, v2.16b, v2.16b
	umov	w9, v2.h[0]
	cbz	w9, .LBB29_111
.LBB29_73:
	mov	x4, xzr
.LBB29_74:
	lsl	x5, x4, #1
	subs	x8, x0, x4
	b.eq	.LBB29_104
	add	x2, x24, x20
	cmp	x8, #191
	str	x0, [sp, #24]
	b.hi	.LBB29_101
	mov	x0, x27
	ldr	x27, [sp, #24]
	mov	x3, x28
	mov	x1, x27
	bl	"utf16_from_utf8::rest::write_rest::<#418c2b53cf60437c>"
	mov	x0, x27
	b	.LBB29_103
.LBB29_77:
	mov	w14, #191
.LBB29_78:
	mov	w15, #128
	b	.LBB29_81
.LBB29_79:
	mov	w14, #191
	mov	w15, #160
	b	.LBB29_81
.LBB29_80:
	mov	w14, #191
	mov	w15, #144
.LBB29_81:
	and	w13, w13, #0xff
	cmp	w13, #50
	mov	w13, #1
	b.hi	.LBB29_198
	cmp	w15, w12
	b.hi	.LBB29_198
	cmp	w12, w14
	mov	w14, #1
	b.hi	.LBB29_187
	cmp	w9, #223
	b.hi	.LBB29_30
.LBB29_85:
	add	w9, w12, w9, lsl #6
	mov	w10, #-12416
	add	w9, w9, w10
	mov	w10, #2
	b	.LBB29_14
.LBB29_86:
	and	w8, w8, #0xff
	cmp	w8, #225
	b.hs	.LBB29_97
	lsr	w10, w8, #4
	ldrb	w9, [x27, #1]
	and	w10, w10, #0xc
	orr	w10, w10, w9, lsr #6
	cmp	w10, #14
	b.ne	.LBB29_8
	add	w10, w8, #62
	and	w11, w10, #0xff
	cmp	w11, #30
	b.hs	.LBB29_116
	b	.LBB29_133
.LBB29_89:
	and	w9, w9, #0xff
	add	w10, w9, #31
	and	w11, w10, #0xff
	ldrb	w10, [x8, #1]
	cmp	w11, #11
	b.hi	.LBB29_105
	sxtb	w9, w10
	cmn	w9, #65
	b.gt	.LBB29_8
	ldrsb	w8, [x8, #2]
	cmn	w8, #64
	b.ge	.LBB29_8
	b	.LBB29_69
.LBB29_92:
	mov	x28, x1
.LBB29_93:
	add	x8, x28, x20
	add	x1, sp, #32
	mov	x2, x28
	stp	x8, x0, [sp, #16]
	add	x0, x24, x20
	bl	memcpy
	ldr	x0, [sp, #24]
	cbz	x0, .LBB29_96
	ldr	x20, [sp, #16]
	b	.LBB29_10
.LBB29_95:
	ushll	v0.8h, v1.8b, #0
	ushll2	v1.8h, v1.16b, #0
	add	x20, x5, x20
	stp	q0, q1, [x8]
	b	.LBB29_10
.LBB29_96:
	ldp	x1, x5, [sp, #8]
	add	x2, sp, #32
	mov	x0, x27
	mov	x3, x24
	mov	x4, x21
	b	.LBB29_26
.LBB29_97:
	ldrsb	w9, [x27, #1]
	cmp	w8, #236
	b.hi	.LBB29_114
	cmn	w9, #65
	b.gt	.LBB29_8
	ldrsb	w8, [x27, #2]
	cmn	w8, #64
	b.ge	.LBB29_8
.LBB29_100:
	mov	w8, #3
	b	.LBB29_68
.LBB29_101:
	ldr	x1, [sp, #24]
	mov	x0, x27
	mov	x3, x28
	bl	"utf16_from_utf8::blocks::write_mixed_blocks::<#418c2b53cf60437c>"
	mov	x4, x0
	ldr	x0, [sp, #24]
	mov	x5, x1
	sub	x8, x0, x4
	cmp	x8, #191
	b.hi	.LBB29_104
	ldr	x1, [sp, #24]
	add	x2, x24, x20
	mov	x0, x27
	mov	x3, x28
	bl	"utf16_from_utf8::rest::write_rest::<#418c2b53cf60437c>"
	ldr	x0, [sp, #24]
.LBB29_103:
	mov	x5, x1
.LBB29_104:
	add	x20, x5, x20
	b	.LBB29_10
.LBB29_105:
	lsr	w11, w9, #4
	and	w11, w11, #0xc
	orr	w11, w11, w10, lsr #6
	cmp	w11, #14
	b.ne	.LBB29_8
	add	w11, w9, #62
	and	w12, w11, #0xff
	cmp	w12, #30
	b.lo	.LBB29_69
	cmp	w9, #239
	b.gt	.LBB29_138
	cmp	w9, #224
	b.eq	.LBB29_143
	cmp	w9, #237
	b.ne	.LBB29_141
	mov	w12, #159
	b	.LBB29_142
.LBB29_111:
	cmp	x4, #31
	b.hi	.LBB29_120
	ushll	v2.8h, v1.8b, #0
	ushll2	v1.8h, v1.16b, #0
	sub	x9, x4, #16
	stp	q2, q1, [x8]
	ldr	q1, [x27, x9]
	cmlt	v2.16b, v1.16b, #0
	and	v0.16b, v2.16b, v0.16b
	addp	v0.16b, v0.16b, v0.16b
	addp	v0.16b, v0.16b, v0.16b
	addp	v0.16b, v0.16b, v0.16b
	umov	w10, v0.h[0]
	cbz	w10, .LBB29_124
	mov	w4, #16
	b	.LBB29_74
.LBB29_114:
	cmn	w9, #65
	b.gt	.LBB29_8
	add	w10, w8, #62
.LBB29_116:
	cmp	w8, #239
	b.gt	.LBB29_121
	cmp	w8, #224
	b.eq	.LBB29_127
	cmp	w8, #237
	b.ne	.LBB29_125
	mov	w11, #159
	b	.LBB29_126
.LBB29_120:
	add	x2, x24, x20
	str	x0, [sp, #24]
	mov	x0, x27
	mov	x1, x4
	bl	"utf16_from_utf8::ascii::write_front::<#418c2b53cf60437c>"
	mov	x4, x0
	ldr	x0, [sp, #24]
	b	.LBB29_74
.LBB29_121:
	cmp	w8, #240
	b.eq	.LBB29_128
	cmp	w8, #244
	b.ne	.LBB29_125
	mov	w11, #143
	b	.LBB29_126
.LBB29_124:
	ushll	v0.8h, v1.8b, #0
	ushll2	v1.8h, v1.16b, #0
	add	x8, x8, x9, lsl #1
	stp	q0, q1, [x8]
	b	.LBB29_74
.LBB29_125:
	mov	w11, #191
.LBB29_126:
	mov	w12, #128
	b	.LBB29_129
.LBB29_127:
	mov	w11, #191
	mov	w12, #160
	b	.LBB29_129
.LBB29_128:
	mov	w11, #191
	mov	w12, #144
.LBB29_129:
	and	w10, w10, #0xff
	cmp	w10, #50
	b.hi	.LBB29_8
	cmp	w12, w9, uxtb
	b.hi	.LBB29_8
	cmp	w11, w9, uxtb
	b.lo	.LBB29_8
	cmp	w8, #224
	b.hs	.LBB29_134
.LBB29_133:
	mov	w8, #2
	b	.LBB29_68
.LBB29_134:
	ldrsb	w9, [x27, #2]
	cmn	w9, #65
	b.gt	.LBB29_8
	cmp	w8, #240
	b.lo	.LBB29_100
	ldrsb	w8, [x27, #3]
	cmn	w8, #65
	b.gt	.LBB29_8
	mov	w8, #4
	b	.LBB29_68
.LBB29_138:
	cmp	w9, #240
	b.eq	.LBB29_144
	cmp	w9, #244
	b.ne	.LBB29_141
	mov	w12, #143
	b	.LBB29_142
.LBB29_141:
	mov	w12, #191
.LBB29_142:
	mov	w13, #128
	b	.LBB29_145
.LBB29_143:
	mov	w12, #191
	mov	w13, #160
	b	.LBB29_145
.LBB29_144:
	mov	w12, #191
	mov	w13, #144
.LBB29_145:
	and	w11, w11, #0xff
	cmp	w11, #50
	b.hi	.LBB29_8
	cmp	w13, w10
	b.hi	.LBB29_8
	cmp	w10, w12
	b.hi	.LBB29_8
	cmp	w9, #224
	b.lo	.LBB29_69
	ldrsb	w10, [x8, #2]
	cmn	w10, #65
	b.gt	.LBB29_8
	cmp	w9, #240
	b.lo	.LBB29_69
	ldrsb	w8, [x8, #3]
	cmn	w8, #64
	b.ge	.LBB29_8
	b	.LBB29_69
.LBB29_152:
	sub	x9, x23, x25
	and	w10, w10, #0xff
	cmp	x9, #3
	b.lo	.LBB29_156
	add	w11, w10, #31
	and	w11, w11, #0xff
	cmp	w11, #11
	b.hi	.LBB29_157
	ldrsb	w11, [x8, #1]
	cmn	w11, #65
	b.gt	.LBB29_157
	ldrsb	w11, [x8, #2]
	cmn	w11, #64
	b.lt	.LBB29_1
	b	.LBB29_157
.LBB29_156:
	cmp	x9, #2
	b.ne	.LBB29_162
.LBB29_157:
	lsr	w12, w10, #4
	ldrb	w11, [x8, #1]
	and	w12, w12, #0xc
	orr	w12, w12, w11, lsr #6
	cmp	w12, #14
	b.ne	.LBB29_161
	add	w12, w10, #31
	and	w12, w12, #0xff
	cmp	w12, #12
	b.hs	.LBB29_166
.LBB29_159:
	cmp	x9, #2
	b.ne	.LBB29_171
.LBB29_160:
	mov	w11, wzr
	mov	w12, #2
	b	.LBB29_163
.LBB29_161:
	mov	w12, #1
	mov	w11, #1
	b	.LBB29_163
.LBB29_162:
	add	w8, w10, #11
	and	w8, w8, #0xff
	cmp	w8, #205
	mov	w8, #1
	cset	w11, lo
	cinc	w12, w8, hs
.LBB29_163:
	stp	x25, x20, [x19]
	strb	w12, [x19, #16]
	strb	w11, [x19, #17]
	b	.LBB29_188
.LBB29_164:
	mov	x25, x23
	b	.LBB29_2
.LBB29_165:
	mov	w14, wzr
	mov	w13, #3
	b	.LBB29_187
.LBB29_166:
	add	w12, w10, #62
	and	w13, w12, #0xff
	cmp	w13, #30
	b.lo	.LBB29_1
	cmp	w10, #239
	b.gt	.LBB29_181
	cmp	w10, #224
	b.eq	.LBB29_191
	cmp	w10, #237
	b.ne	.LBB29_189
	mov	w13, #159
	b	.LBB29_190
.LBB29_171:
	ldrsb	w11, [x8, #2]
	cmn	w11, #65
	b.gt	.LBB29_178
	cmp	w10, #240
	b.lo	.LBB29_1
	cmp	x9, #4
	b.lo	.LBB29_160
	ldrsb	w8, [x8, #3]
	cmn	w8, #65
	b.le	.LBB29_1
	mov	w11, #3
	b	.LBB29_179
.LBB29_176:
	mov	w13, #1
	mov	w14, #1
	b	.LBB29_187
.LBB29_177:
	mov	w14, wzr
	mov	w13, #2
	b	.LBB29_187
.LBB29_178:
	mov	w11, #2
.LBB29_179:
	mov	w12, #1
	b	.LBB29_163
.LBB29_180:
	mov	w14, #2
	b	.LBB29_186
.LBB29_181:
	cmp	w10, #240
	b.eq	.LBB29_192
	cmp	w10, #244
	b.ne	.LBB29_189
	mov	w13, #143
	b	.LBB29_190
.LBB29_184:
	add	w9, w9, #11
	and	w9, w9, #0xff
	cmp	w9, #205
	mov	w9, #1
	cset	w14, lo
	cinc	w13, w9, hs
	b	.LBB29_187
.LBB29_185:
	mov	w14, #3
.LBB29_186:
	mov	w13, #1
.LBB29_187:
	stp	x8, x20, [x19]
	strb	w13, [x19, #16]
	strb	w14, [x19, #17]
.LBB29_188:
	.cfi_def_cfa wsp, 416
	ldp	x20, x19, [sp, #400]
	ldp	x22, x21, [sp, #384]
	ldp	x24, x23, [sp, #368]
	ldp	x26, x25, [sp, #352]
	ldp	x28, x27, [sp, #336]
	ldp	x29, x30, [sp, #320]
	add	sp, sp, #416
	.cfi_def_cfa_offset 0
	.cfi_restore w19
	.cfi_restore w20
	.cfi_restore w21
	.cfi_restore w22
	.cfi_restore w23
	.cfi_restore w24
	.cfi_restore w25
	.cfi_restore w26
	.cfi_restore w27
	.cfi_restore w28
	.cfi_restore w30
	.cfi_restore w29
	ret
.LBB29_189:
	.cfi_restore_state
	mov	w13, #191
.LBB29_190:
	mov	w14, #128
	b	.LBB29_193
.LBB29_191:
	mov	w13, #191
	mov	w14, #160
	b	.LBB29_193
.LBB29_192:
	mov	w13, #191
	mov	w14, #144
.LBB29_193:
	and	w12, w12, #0xff
	cmp	w12, #50
	mov	w12, #1
	b.hi	.LBB29_197
	cmp	w14, w11
	b.hi	.LBB29_197
	cmp	w11, w13
	mov	w11, #1
	b.hi	.LBB29_163
	cmp	w10, #224
	b.lo	.LBB29_1
	b	.LBB29_159
.LBB29_197:
	mov	w11, #1
	b	.LBB29_163
.LBB29_198:
	mov	w14, #1
	b	.LBB29_187
.Lfunc_end29:
	.size	"utf16_transcode::transcoding::transcode_many::<#58ba01604e1c9b81>", .Lfunc_end29-"utf16_transcode::transcoding::transcode_many::<#58ba01604e1c9b81>"
	.cfi_endproc

	.section	.rodata.cst16,"aM",@progbits,16
	.p2align	4, 0x0
.LCPI30_0:
	.byte	1
	.byte	2
	.byte	4
	.byte	8
	.byte	16
	.byte	32
	.byte	64
	.byte	128
	.byte	1
	.byte	2
	.byte	4
	.byte	8
	.byte	16
	.byte	32
	.byte	64
	.byte	128
.LCPI30_2:
	.byte	0
	.byte	1
	.byte	2
	.byte	3
	.byte	4
	.byte	5
	.byte	6
	.byte	7
	.byte	8
	.byte	9
	.byte	10
	.byte	11
	.byte	12
	.byte	13
	.byte	14
	.byte	15
	.section	.rodata.cst8,"aM",@progbits,8
	.p2align	3, 0x0
.LCPI30_1:
	.zero	1
	.zero	1
	.zero	1
	.zero	1
	.zero	1
	.zero	1
	.byte	224
	.byte	192
	.section	".text.utf16_transcode::encode::FromUtf8Direction::write_front::<#418c2b53cf60437c>","ax",@progbits
	.p2align	2
	.type	"utf16_transcode::encode::FromUtf8Direction::write_front::<#418c2b53cf60437c>",@function
"utf16_transcode::encode::FromUtf8Direction::write_front::<#418c2b53cf60437c>":
	.cfi_startproc
	stp	x29, x30, [sp, #-48]!
	.cfi_def_cfa_offset 48
	stp	x22, x21, [sp, #16]
	stp	x20, x19, [sp, #32]
	mov	x29, sp
	.cfi_def_cfa w29, 48
	.cfi_offset w19, -8
	.cfi_offset w20, -16
	.cfi_offset w21, -24
	.cfi_offset w22, -32
	.cfi_offset w30, -40
	.cfi_offset w29, -48
	.cfi_remember_state
	cmp	x1, #16
	b.hi	.LBB30_8
	cmp	x1, #8
	mov	x5, xzr
	b.lo	.LBB30_13
	cmp	x3, #32
	mov	x4, x5
	b.lo	.LBB30_21
	add	x8, x0, x1
	ldr	d0, [x0]
	ldur	d2, [x8, #-8]
	adrp	x8, .Lstatic.11
	add	x8, x8, :lo12:.Lstatic.11
	add	x8, x8, x1, lsl #4
	mov	v0.d[1], v2.d[0]
	ldur	q1, [x8, #-128]
	adrp	x8, .LCPI30_0
	tbl	v1.16b, { v0.16b }, v1.16b
	ldr	q0, [x8, :lo12:.LCPI30_0]
	cmlt	v3.16b, v1.16b, #0
	and	v3.16b, v3.16b, v0.16b
	addp	v3.16b, v3.16b, v3.16b
	addp	v3.16b, v3.16b, v3.16b
	addp	v3.16b, v3.16b, v3.16b
	umov	w8, v3.h[0]
	cbz	w8, .LBB30_19
	adrp	x8, .LCPI30_1
	mov	x5, xzr
	ldr	d3, [x8, :lo12:.LCPI30_1]
	cmhi	v3.8b, v3.8b, v2.8b
	dup	v4.8b, v3.b[7]
	and	v3.8b, v4.8b, v3.8b
	umov	w8, v3.b[6]
	tbz	w8, #0, .LBB30_13
	umov	w8, v2.b[5]
	mov	x4, x5
	and	w8, w8, #0xff
	cmp	w8, #239
	b.hi	.LBB30_21
	adrp	x8, .Lstatic.12
	add	x8, x8, :lo12:.Lstatic.12
	movi	v4.2d, #0000000000000000
	sub	x8, x8, x1
	movi	v5.16b, #191
	movi	v6.16b, #223
	ldr	q2, [x8, #16]
	movi	v7.16b, #239
	movi	v17.16b, #144
	movi	v21.16b, #244
	movi	v22.16b, #160
	movi	v16.16b, #224
	umax	v2.16b, v1.16b, v2.16b
	movi	v23.16b, #237
	adrp	x8, .LCPI30_2
	movi	v26.16b, #254
	ext	v3.16b, v4.16b, v2.16b, #15
	cmhi	v24.16b, v17.16b, v2.16b
	cmhs	v17.16b, v2.16b, v17.16b
	cmhi	v27.16b, v22.16b, v2.16b
	ext	v1.16b, v4.16b, v3.16b, #15
	uqsub	v19.16b, v3.16b, v5.16b
	cmeq	v28.16b, v3.16b, v16.16b
	ext	v18.16b, v4.16b, v1.16b, #15
	movi	v4.16b, #240
	uqsub	v20.16b, v1.16b, v6.16b
	uqsub	v18.16b, v18.16b, v7.16b
	cmeq	v25.16b, v3.16b, v4.16b
	umax	v19.16b, v19.16b, v20.16b
	cmeq	v20.16b, v3.16b, v21.16b
	movi	v7.16b, #192
	and	v24.16b, v25.16b, v24.16b
	and	v25.16b, v2.16b, v26.16b
	orr	v18.16b, v19.16b, v18.16b
	and	v17.16b, v20.16b, v17.16b
	cmhs	v19.16b, v2.16b, v22.16b
	cmeq	v20.16b, v3.16b, v23.16b
	and	v22.16b, v28.16b, v27.16b
	cmgt	v23.16b, v7.16b, v2.16b
	cmeq	v18.16b, v18.16b, #0
	orr	v17.16b, v24.16b, v17.16b
	and	v19.16b, v20.16b, v19.16b
	cmhi	v20.16b, v2.16b, v21.16b
	cmeq	v21.16b, v25.16b, v7.16b
	eor	v18.16b, v18.16b, v23.16b
	orr	v19.16b, v22.16b, v19.16b
	orr	v17.16b, v20.16b, v17.16b
	ldr	q20, [x8, :lo12:.LCPI30_2]
	orn	v18.16b, v21.16b, v18.16b
	orr	v17.16b, v19.16b, v17.16b
	dup	v19.16b, w1
	orr	v17.16b, v17.16b, v18.16b
	cmhi	v18.16b, v19.16b, v20.16b
	and	v17.16b, v18.16b, v17.16b
	shl	v17.16b, v17.16b, #7
	cmlt	v17.16b, v17.16b, #0
	and	v17.16b, v17.16b, v0.16b
	addp	v17.16b, v17.16b, v17.16b
	addp	v17.16b, v17.16b, v17.16b
	addp	v17.16b, v17.16b, v17.16b
	umov	w8, v17.h[0]
	cbz	w8, .LBB30_22
	mov	x5, xzr
	mov	x4, xzr
	mov	x0, x4
	mov	x1, x5
	.cfi_def_cfa wsp, 48
	ldp	x20, x19, [sp, #32]
	ldp	x22, x21, [sp, #16]
	ldp	x29, x30, [sp], #48
	.cfi_def_cfa_offset 0
	.cfi_restore w19
	.cfi_restore w20
	.cfi_restore w21
	.cfi_restore w22
	.cfi_restore w30
	.cfi_restore w29
	ret
.LBB30_8:
	.cfi_restore_state
	.cfi_remember_state
	lsr	x8, x3, #1
	cmp	x8, x1
	csel	x4, x8, x1, lo
	cmp	x3, #32
	b.lo	.LBB30_10
	ldr	q1, [x0]
	adrp	x8, .LCPI30_0
	ldr	q0, [x8, :lo12:.LCPI30_0]
	cmlt	v2.16b, v1.16b, #0
	and	v2.16b, v2.16b, v0.16b
	addp	v2.16b, v2.16b, v2.16b
	addp	v2.16b, v2.16b, v2.16b
	addp	v2.16b, v2.16b, v2.16b
	umov	w8, v2.h[0]
	cbz	w8, .LBB30_16
.LBB30_10:
	mov	x4, xzr
	lsl	x5, xzr, #1
	subs	x8, x1, xzr
	b.eq	.LBB30_21
.LBB30_11:
	cmp	x8, #191
	b.hi	.LBB30_14
	.cfi_def_cfa wsp, 48
	ldp	x20, x19, [sp, #32]
	ldp	x22, x21, [sp, #16]
	ldp	x29, x30, [sp], #48
	.cfi_def_cfa_offset 0
	.cfi_restore w19
	.cfi_restore w20
	.cfi_restore w21
	.cfi_restore w22
	.cfi_restore w30
	.cfi_restore w29
	b	"utf16_from_utf8::rest::write_rest::<#418c2b53cf60437c>"
.LBB30_13:
	.cfi_restore_state
	.cfi_remember_state
	mov	x4, x5
	mov	x0, x4
	mov	x1, x5
	.cfi_def_cfa wsp, 48
	ldp	x20, x19, [sp, #32]
	ldp	x22, x21, [sp, #16]
	ldp	x29, x30, [sp], #48
	.cfi_def_cfa_offset 0
	.cfi_restore w19
	.cfi_restore w20
	.cfi_restore w21
	.cfi_restore w22
	.cfi_restore w30
	.cfi_restore w29
	ret
.LBB30_14:
	.cfi_restore_state
	.cfi_remember_state
	mov	x21, x0
	mov	x22, x1
	mov	x19, x2
	mov	x20, x3
	bl	"utf16_from_utf8::blocks::write_mixed_blocks::<#418c2b53cf60437c>"
	sub	x9, x22, x0
	mov	x4, x0
	mov	x5, x1
	cmp	x9, #191
	b.hi	.LBB30_21
	mov	x0, x21
	mov	x1, x22
	mov	x2, x19
	mov	x3, x20
	.cfi_def_cfa wsp, 48
	ldp	x20, x19, [sp, #32]
	ldp	x22, x21, [sp, #16]
	ldp	x29, x30, [sp], #48
	.cfi_def_cfa_offset 0
	.cfi_restore w19
	.cfi_restore w20
	.cfi_restore w21
	.cfi_restore w22
	.cfi_restore w30
	.cfi_restore w29
	b	"utf16_from_utf8::rest::write_rest::<#418c2b53cf60437c>"
.LBB30_16:
	.cfi_restore_state
	.cfi_remember_state
	cmp	x4, #31
	b.hi	.LBB30_20
	ushll	v2.8h, v1.8b, #0
	ushll2	v1.8h, v1.16b, #0
	sub	x8, x4, #16
	stp	q2, q1, [x2]
	ldr	q1, [x0, x8]
	cmlt	v2.16b, v1.16b, #0
	and	v0.16b, v2.16b, v0.16b
	addp	v0.16b, v0.16b, v0.16b
	addp	v0.16b, v0.16b, v0.16b
	addp	v0.16b, v0.16b, v0.16b
	umov	w9, v0.h[0]
	cbz	w9, .LBB30_23
	mov	w4, #16
	lsl	x5, x4, #1
	subs	x8, x1, x4
	b.eq	.LBB30_21
	b	.LBB30_11
.LBB30_19:
	ushll	v0.8h, v1.8b, #0
	ushll2	v1.8h, v1.16b, #0
	lsl	x5, x1, #1
	mov	x4, x1
	stp	q0, q1, [x2]
	mov	x0, x4
	mov	x1, x5
	.cfi_def_cfa wsp, 48
	ldp	x20, x19, [sp, #32]
	ldp	x22, x21, [sp, #16]
	ldp	x29, x30, [sp], #48
	.cfi_def_cfa_offset 0
	.cfi_restore w19
	.cfi_restore w20
	.cfi_restore w21
	.cfi_restore w22
	.cfi_restore w30
	.cfi_restore w29
	ret
.LBB30_20:
	.cfi_restore_state
	.cfi_remember_state
	mov	x21, x1
	mov	x1, x4
	mov	x19, x0
	mov	x20, x2
	mov	x22, x3
	bl	"utf16_from_utf8::ascii::write_front::<#418c2b53cf60437c>"
	mov	x3, x22
	mov	x2, x20
	mov	x1, x21
	mov	x4, x0
	mov	x0, x19
	lsl	x5, x4, #1
	subs	x8, x21, x4
	b.ne	.LBB30_11
.LBB30_21:
	mov	x0, x4
	mov	x1, x5
	.cfi_def_cfa wsp, 48
	ldp	x20, x19, [sp, #32]
	ldp	x22, x21, [sp, #16]
	ldp	x29, x30, [sp], #48
	.cfi_def_cfa_offset 0
	.cfi_restore w19
	.cfi_restore w20
	.cfi_restore w21
	.cfi_restore w22
	.cfi_restore w30
	.cfi_restore w29
	ret
.LBB30_22:
	.cfi_restore_state
	.cfi_remember_state
	cmge	v17.16b, v2.16b, #0
	cmhi	v6.16b, v3.16b, v6.16b
	adrp	x10, .Lstatic.13
	add	x10, x10, :lo12:.Lstatic.13
	cmhi	v5.16b, v2.16b, v5.16b
	movi	v18.16b, #64
	shl	v19.16b, v3.16b, #2
	movi	v21.16b, #232
	mov	x4, x1
	bsl	v17.16b, v7.16b, v3.16b
	movi	v22.16b, #231
	movi	v23.16b, #220
	orr	v5.16b, v5.16b, v6.16b
	umax	v6.16b, v1.16b, v16.16b
	cmhi	v18.16b, v18.16b, v19.16b
	movi	v19.16b, #127
	umax	v16.16b, v17.16b, v1.16b
	bic	v0.16b, v0.16b, v5.16b
	ushr	v20.16b, v17.16b, #2
	bsl	v18.16b, v22.16b, v21.16b
	cmhi	v5.16b, v7.16b, v16.16b
	ushr	v16.16b, v2.16b, #4
	addp	v0.16b, v0.16b, v0.16b
	sli	v20.16b, v6.16b, #4
	and	v2.16b, v2.16b, v19.16b
	add	v6.16b, v18.16b, v1.16b
	cmhi	v1.16b, v4.16b, v1.16b
	sli	v16.16b, v3.16b, #2
	and	v5.16b, v5.16b, v23.16b
	shl	v3.16b, v17.16b, #6
	addp	v0.16b, v0.16b, v0.16b
	orr	v5.16b, v20.16b, v5.16b
	add	v2.16b, v3.16b, v2.16b
	mov	v3.16b, v1.16b
	add	v7.16b, v16.16b, v7.16b
	addp	v0.16b, v0.16b, v0.16b
	bsl	v3.16b, v5.16b, v6.16b
	bsl	v1.16b, v2.16b, v7.16b
	umov	w8, v0.h[0]
	zip1	v0.16b, v1.16b, v3.16b
	and	x9, x8, #0xff
	ubfx	x8, x8, #8, #8
	ldr	q2, [x10, x9, lsl #4]
	zip2	v1.16b, v1.16b, v3.16b
	fmov	d4, x8
	tbl	v0.16b, { v0.16b }, v2.16b
	fmov	d2, x9
	cnt	v4.8b, v4.8b
	cnt	v2.8b, v2.8b
	str	q0, [x2]
	ldr	q0, [x10, x8, lsl #4]
	fmov	w9, s4
	fmov	w8, s2
	tbl	v0.16b, { v1.16b }, v0.16b
	ubfiz	x10, x8, #1, #32
	add	x8, x8, x9
	lsl	x5, x8, #1
	str	q0, [x2, x10]
	mov	x0, x4
	mov	x1, x5
	.cfi_def_cfa wsp, 48
	ldp	x20, x19, [sp, #32]
	ldp	x22, x21, [sp, #16]
	ldp	x29, x30, [sp], #48
	.cfi_def_cfa_offset 0
	.cfi_restore w19
	.cfi_restore w20
	.cfi_restore w21
	.cfi_restore w22
	.cfi_restore w30
	.cfi_restore w29
	ret
.LBB30_23:
	.cfi_restore_state
	ushll	v0.8h, v1.8b, #0
	ushll2	v1.8h, v1.16b, #0
	add	x8, x2, x8, lsl #1
	stp	q0, q1, [x8]
	lsl	x5, x4, #1
	subs	x8, x1, x4
	b.eq	.LBB30_21
	b	.LBB30_11
.Lfunc_end30:
	.size	"utf16_transcode::encode::FromUtf8Direction::write_front::<#418c2b53cf60437c>", .Lfunc_end30-"utf16_transcode::encode::FromUtf8Direction::write_front::<#418c2b53cf60437c>"
	.cfi_endproc

	.section	".text.utf16_transcode::transcoding::write_chars::<#58ba01604e1c9b81>","ax",@progbits
	.p2align	2
	.type	"utf16_transcode::transcoding::write_chars::<#58ba01604e1c9b81>",@function
"utf16_transcode::transcoding::write_chars::<#58ba01604e1c9b81>":
	.cfi_startproc
	stp	x29, x30, [sp, #-64]!
	.cfi_def_cfa_offset 64
	str	x23, [sp, #16]
	stp	x22, x21, [sp, #32]
	stp	x20, x19, [sp, #48]
	mov	x29, sp
	.cfi_def_cfa w29, 64
	.cfi_offset w19, -8
	.cfi_offset w20, -16
	.cfi_offset w21, -24
	.cfi_offset w22, -32
	.cfi_offset w23, -48
	.cfi_offset w30, -56
	.cfi_offset w29, -64
	mov	x19, x3
	mov	x20, x2
	add	x2, x2, x4
	sub	x3, x3, x4
	mov	x23, x4
	mov	x21, x1
	mov	x22, x0
	bl	"utf16_transcode::encode::FromUtf8Direction::begin::<#418c2b53cf60437c>"
	cmp	x0, x21
	add	x1, x1, x23
	b.hs	.LBB31_40
	mov	w8, #57216
	movk	w8, #65521, lsl #16
	b	.LBB31_3
.LBB31_2:
	mov	w12, #67043328
	mov	w13, #-10240
	mov	w14, #56320
	add	w12, w9, w12
	bfxil	w14, w9, #0, #10
	add	w9, w13, w12, lsr #10
	mov	w12, #4
	strh	w14, [x11, #2]
	add	x0, x10, x0
	add	x1, x12, x1
	strh	w9, [x11]
	cmp	x0, x21
	b.hs	.LBB31_40
.LBB31_3:
	add	x10, x22, x0
	ldrsb	w11, [x10]
	and	w9, w11, #0xff
	tbnz	w11, #31, .LBB31_8
	mov	w10, #1
.LBB31_5:
	cmp	w9, #16, lsl #12
	mov	w11, #4
	mov	w12, #2
	sub	x13, x19, x1
	csel	x11, x12, x11, lo
	cmp	x13, x11
	b.lo	.LBB31_40
	lsr	w12, w9, #16
	add	x11, x20, x1
	cbnz	w12, .LBB31_2
	mov	w12, #2
	add	x0, x10, x0
	add	x1, x12, x1
	strh	w9, [x11]
	cmp	x0, x21
	b.lo	.LBB31_3
	b	.LBB31_40
.LBB31_8:
	sub	x11, x21, x0
	cmp	x11, #3
	b.lo	.LBB31_13
	add	w12, w9, #31
	and	w12, w12, #0xff
	cmp	w12, #11
	b.hi	.LBB31_14
	ldrsb	w12, [x10, #1]
	cmn	w12, #65
	b.gt	.LBB31_14
	ldrsb	w13, [x10, #2]
	cmn	w13, #65
	b.gt	.LBB31_14
	add	w9, w8, w9, lsl #12
	and	w10, w12, #0xff
	add	w9, w9, w10, lsl #6
	and	w10, w13, #0xff
	add	w9, w9, w10
	mov	w10, #3
	b	.LBB31_5
.LBB31_13:
	cmp	x11, #2
	b.ne	.LBB31_40
.LBB31_14:
	lsr	w13, w9, #4
	ldrb	w12, [x10, #1]
	and	w13, w13, #0xc
	orr	w13, w13, w12, lsr #6
	cmp	w13, #14
	b.ne	.LBB31_40
	add	w13, w9, #31
	and	w13, w13, #0xff
	cmp	w13, #12
	b.hs	.LBB31_20
.LBB31_16:
	cmp	x11, #2
	b.eq	.LBB31_40
	ldrsb	w13, [x10, #2]
	cmn	w13, #65
	b.gt	.LBB31_40
	cmp	w9, #239
	and	w13, w13, #0xff
	b.hi	.LBB31_25
	add	w9, w8, w9, lsl #12
	mov	w10, #3
	add	w9, w9, w12, lsl #6
	add	w9, w9, w13
	b	.LBB31_5
.LBB31_20:
	add	w13, w9, #62
	and	w14, w13, #0xff
	cmp	w14, #30
	b.lo	.LBB31_39
	cmp	w9, #239
	b.gt	.LBB31_28
	cmp	w9, #224
	b.eq	.LBB31_33
	cmp	w9, #237
	b.ne	.LBB31_31
	mov	w14, #159
	b	.LBB31_32
.LBB31_25:
	cmp	x11, #4
	b.lo	.LBB31_40
	ldrsb	w10, [x10, #3]
	cmn	w10, #65
	b.gt	.LBB31_40
	lsl	w9, w9, #18
	mov	w11, #57216
	and	w10, w10, #0xff
	movk	w11, #64567, lsl #16
	add	w9, w9, w12, lsl #12
	add	w10, w10, w11
	add	w9, w9, w13, lsl #6
	add	w9, w9, w10
	mov	w10, #4
	b	.LBB31_5
.LBB31_28:
	cmp	w9, #240
	b.eq	.LBB31_34
	cmp	w9, #244
	b.ne	.LBB31_31
	mov	w14, #143
	b	.LBB31_32
.LBB31_31:
	mov	w14, #191
.LBB31_32:
	mov	w15, #128
	b	.LBB31_35
.LBB31_33:
	mov	w14, #191
	mov	w15, #160
	b	.LBB31_35
.LBB31_34:
	mov	w14, #191
	mov	w15, #144
.LBB31_35:
	and	w13, w13, #0xff
	cmp	w13, #50
	b.hi	.LBB31_40
	cmp	w15, w12
	b.hi	.LBB31_40
	cmp	w12, w14
	b.hi	.LBB31_40
	cmp	w9, #223
	b.hi	.LBB31_16
.LBB31_39:
	add	w9, w12, w9, lsl #6
	mov	w10, #-12416
	add	w9, w9, w10
	mov	w10, #2
	b	.LBB31_5
.LBB31_40:
	.cfi_def_cfa wsp, 64
	ldp	x20, x19, [sp, #48]
	ldr	x23, [sp, #16]
	ldp	x22, x21, [sp, #32]
	ldp	x29, x30, [sp], #64
	.cfi_def_cfa_offset 0
	.cfi_restore w19
	.cfi_restore w20
	.cfi_restore w21
	.cfi_restore w22
	.cfi_restore w23
	.cfi_restore w30
	.cfi_restore w29
	ret
.Lfunc_end31:
	.size	"utf16_transcode::transcoding::write_chars::<#58ba01604e1c9b81>", .Lfunc_end31-"utf16_transcode::transcoding::write_chars::<#58ba01604e1c9b81>"
	.cfi_endproc

	.section	.rodata.cst16,"aM",@progbits,16
	.p2align	4, 0x0
.LCPI32_0:
	.byte	1
	.byte	2
	.byte	4
	.byte	8
	.byte	16
	.byte	32
	.byte	64
	.byte	128
	.byte	1
	.byte	2
	.byte	4
	.byte	8
	.byte	16
	.byte	32
	.byte	64
	.byte	128
	.section	".text.utf16_to_utf8::lens::utf8_len::<#418c2b53cf60437c>","ax",@progbits
	.p2align	2
	.type	"utf16_to_utf8::lens::utf8_len::<#418c2b53cf60437c>",@function
"utf16_to_utf8::lens::utf8_len::<#418c2b53cf60437c>":
	.cfi_startproc
	stp	x29, x30, [sp, #-48]!
	.cfi_def_cfa_offset 48
	str	x21, [sp, #16]
	stp	x20, x19, [sp, #32]
	mov	x29, sp
	.cfi_def_cfa w29, 48
	.cfi_offset w19, -8
	.cfi_offset w20, -16
	.cfi_offset w21, -32
	.cfi_offset w30, -40
	.cfi_offset w29, -48
	sub	x9, sp, #80
	and	sp, x9, #0xffffffffffffffc0
	mov	x19, x1
	mov	x8, x0
	cmp	x1, #64
	adrp	x21, .LCPI32_0
	mov	x20, xzr
	b.lo	.LBB32_6
	mov	x9, x8
	mov	x2, x19
	b	.LBB32_3
.LBB32_2:
	uzp2	v4.16b, v0.16b, v1.16b
	movi	v5.16b, #248
	uzp2	v6.16b, v2.16b, v3.16b
	movi	v7.16b, #216
	and	v4.16b, v4.16b, v5.16b
	and	v5.16b, v6.16b, v5.16b
	ldr	q6, [x21, :lo12:.LCPI32_0]
	cmeq	v16.16b, v4.16b, #0
	cmeq	v17.16b, v5.16b, #0
	cmeq	v5.16b, v5.16b, v7.16b
	cmeq	v4.16b, v4.16b, v7.16b
	and	v7.16b, v16.16b, v6.16b
	and	v16.16b, v17.16b, v6.16b
	and	v5.16b, v5.16b, v6.16b
	and	v4.16b, v4.16b, v6.16b
	movi	v17.8h, #128
	addp	v7.16b, v7.16b, v16.16b
	addp	v4.16b, v4.16b, v5.16b
	cmhi	v2.8h, v17.8h, v2.8h
	cmhi	v3.8h, v17.8h, v3.8h
	cmhi	v0.8h, v17.8h, v0.8h
	cmhi	v1.8h, v17.8h, v1.8h
	addp	v5.16b, v7.16b, v7.16b
	addp	v4.16b, v4.16b, v4.16b
	uzp1	v2.16b, v2.16b, v3.16b
	uzp1	v0.16b, v0.16b, v1.16b
	addp	v5.16b, v5.16b, v5.16b
	addp	v4.16b, v4.16b, v4.16b
	and	v2.16b, v2.16b, v6.16b
	zip1	v1.2s, v4.2s, v5.2s
	and	v0.16b, v0.16b, v6.16b
	addp	v0.16b, v0.16b, v2.16b
	cnt	v1.8b, v1.8b
	addp	v0.16b, v0.16b, v0.16b
	uaddlp	v1.4h, v1.8b
	addp	v0.16b, v0.16b, v0.16b
	uaddlp	v2.2s, v1.4h
	fmov	w10, s0
	dup	v2.2s, v2.s[1]
	fmov	s0, w10
	uadalp	v2.2s, v1.4h
	cnt	v0.8b, v0.8b
	addv	b0, v0.8b
	fmov	w10, s2
	fmov	w11, s0
	add	w10, w10, w11
	mov	w11, #96
	sub	x10, x11, x10
	sub	x2, x2, #64
	add	x20, x10, x20
	add	x9, x9, #64
	cmp	x2, #63
	b.ls	.LBB32_5
.LBB32_3:
	ldp	q2, q3, [x9, #32]
	ldp	q0, q1, [x9]
	orr	v4.16b, v1.16b, v3.16b
	orr	v5.16b, v0.16b, v2.16b
	bic	v4.8h, #127
	bic	v5.8h, #127
	orr	v4.16b, v5.16b, v4.16b
	ext	v5.16b, v4.16b, v4.16b, #8
	orr	v4.8b, v4.8b, v5.8b
	fmov	x10, d4
	lsr	x11, x10, #32
	orr	w10, w10, w11
	orr	w10, w10, w10, lsr #16
	tst	w10, #0xffff
	b.ne	.LBB32_2
	mov	w10, #32
	sub	x2, x2, #64
	add	x20, x10, x20
	add	x9, x9, #64
	cmp	x2, #63
	b.hi	.LBB32_3
.LBB32_5:
	and	x9, x19, #0xffffffffffffffc0
	b	.LBB32_7
.LBB32_6:
	mov	x9, xzr
	mov	x2, x19
.LBB32_7:
	movi	v0.2d, #0000000000000000
	mov	x0, sp
	add	x1, x8, x9
	stp	q0, q0, [sp]
	stp	q0, q0, [sp, #32]
	bl	memcpy
	ldp	q3, q1, [sp, #32]
	ldp	q2, q0, [sp]
	orr	v4.16b, v0.16b, v1.16b
	orr	v5.16b, v2.16b, v3.16b
	bic	v4.8h, #127
	bic	v5.8h, #127
	orr	v4.16b, v5.16b, v4.16b
	ext	v5.16b, v4.16b, v4.16b, #8
	orr	v4.8b, v4.8b, v5.8b
	fmov	x8, d4
	lsr	x9, x8, #32
	orr	w8, w8, w9
	orr	w8, w8, w8, lsr #16
	tst	w8, #0xffff
	b.eq	.LBB32_9
	uzp2	v4.16b, v2.16b, v0.16b
	movi	v5.16b, #248
	uzp2	v6.16b, v3.16b, v1.16b
	movi	v7.16b, #216
	and	v4.16b, v4.16b, v5.16b
	and	v5.16b, v6.16b, v5.16b
	ldr	q6, [x21, :lo12:.LCPI32_0]
	cmeq	v16.16b, v4.16b, #0
	cmeq	v17.16b, v5.16b, #0
	cmeq	v5.16b, v5.16b, v7.16b
	cmeq	v4.16b, v4.16b, v7.16b
	and	v7.16b, v16.16b, v6.16b
	and	v16.16b, v17.16b, v6.16b
	and	v5.16b, v5.16b, v6.16b
	and	v4.16b, v4.16b, v6.16b
	movi	v17.8h, #128
	addp	v7.16b, v7.16b, v16.16b
	addp	v4.16b, v4.16b, v5.16b
	cmhi	v3.8h, v17.8h, v3.8h
	cmhi	v1.8h, v17.8h, v1.8h
	cmhi	v2.8h, v17.8h, v2.8h
	cmhi	v0.8h, v17.8h, v0.8h
	addp	v5.16b, v7.16b, v7.16b
	addp	v4.16b, v4.16b, v4.16b
	uzp1	v1.16b, v3.16b, v1.16b
	uzp1	v0.16b, v2.16b, v0.16b
	addp	v5.16b, v5.16b, v5.16b
	addp	v4.16b, v4.16b, v4.16b
	and	v1.16b, v1.16b, v6.16b
	zip1	v2.2s, v4.2s, v5.2s
	and	v0.16b, v0.16b, v6.16b
	addp	v0.16b, v0.16b, v1.16b
	cnt	v2.8b, v2.8b
	addp	v0.16b, v0.16b, v0.16b
	uaddlp	v1.4h, v2.8b
	addp	v0.16b, v0.16b, v0.16b
	uaddlp	v2.2s, v1.4h
	fmov	w8, s0
	dup	v2.2s, v2.s[1]
	fmov	s0, w8
	uadalp	v2.2s, v1.4h
	cnt	v0.8b, v0.8b
	addv	b0, v0.8b
	fmov	w8, s2
	fmov	w9, s0
	add	w8, w8, w9
	mov	w9, #96
	sub	x8, x9, x8
	b	.LBB32_10
.LBB32_9:
	mov	w8, #32
.LBB32_10:
	lsr	x9, x19, #1
	add	x8, x20, x8
	orr	x9, x9, #0xffffffffffffffe0
	add	x0, x8, x9
	mov	sp, x29
	.cfi_def_cfa wsp, 48
	ldp	x20, x19, [sp, #32]
	ldr	x21, [sp, #16]
	ldp	x29, x30, [sp], #48
	.cfi_def_cfa_offset 0
	.cfi_restore w19
	.cfi_restore w20
	.cfi_restore w21
	.cfi_restore w30
	.cfi_restore w29
	ret
.Lfunc_end32:
	.size	"utf16_to_utf8::lens::utf8_len::<#418c2b53cf60437c>", .Lfunc_end32-"utf16_to_utf8::lens::utf8_len::<#418c2b53cf60437c>"
	.cfi_endproc

	.section	.rodata.cst16,"aM",@progbits,16
	.p2align	4, 0x0
.LCPI33_0:
	.byte	1
	.byte	2
	.byte	4
	.byte	8
	.byte	16
	.byte	32
	.byte	64
	.byte	128
	.byte	1
	.byte	2
	.byte	4
	.byte	8
	.byte	16
	.byte	32
	.byte	64
	.byte	128
	.section	".text.utf16_transcode::transcoding::write_buffered_text::<#58ba01604e1c9b81>","ax",@progbits
	.p2align	2
	.type	"utf16_transcode::transcoding::write_buffered_text::<#58ba01604e1c9b81>",@function
"utf16_transcode::transcoding::write_buffered_text::<#58ba01604e1c9b81>":
	.cfi_startproc
	stp	x29, x30, [sp, #-80]!
	.cfi_def_cfa_offset 80
	stp	x26, x25, [sp, #16]
	stp	x24, x23, [sp, #32]
	stp	x22, x21, [sp, #48]
	stp	x20, x19, [sp, #64]
	mov	x29, sp
	.cfi_def_cfa w29, 80
	.cfi_offset w19, -8
	.cfi_offset w20, -16
	.cfi_offset w21, -24
	.cfi_offset w22, -32
	.cfi_offset w23, -40
	.cfi_offset w24, -48
	.cfi_offset w25, -56
	.cfi_offset w26, -64
	.cfi_offset w30, -72
	.cfi_offset w29, -80
	.cfi_remember_state
	mov	w8, #64
	cmp	x1, #64
	mov	x19, x5
	mov	x23, x4
	mov	x22, x3
	mov	x20, x2
	csel	x24, x1, x8, lo
	cmp	x1, #63
	mov	x25, x0
	b.hi	.LBB33_2
	mov	x1, x24
	bl	"utf16_transcode::encode::valid_prefix"
	mov	x21, x0
	b	.LBB33_4
.LBB33_2:
	mov	w1, #63
	bl	"utf16_transcode::encode::valid_prefix"
	add	x8, x0, #4
	mov	x21, x0
	cmp	x8, #64
	b.lo	.LBB33_4
	sub	x1, x24, x21
	add	x0, x25, x21
	bl	"utf16_transcode::encode::valid_prefix"
	add	x21, x0, x21
.LBB33_4:
	cmp	x21, #7
	b.hi	.LBB33_7
	mov	x24, xzr
	cbz	x21, .LBB33_34
	mov	x8, x21
	b	.LBB33_11
.LBB33_7:
	lsl	x24, x21, #1
	cmp	x21, #16
	b.hi	.LBB33_20
	add	x8, x25, x21
	ldr	d0, [x25]
	ldur	d1, [x8, #-8]
	adrp	x8, .Lstatic.11
	add	x8, x8, :lo12:.Lstatic.11
	add	x8, x8, x21, lsl #4
	mov	v0.d[1], v1.d[0]
	ldur	q1, [x8, #-128]
	adrp	x8, .LCPI33_0
	tbl	v1.16b, { v0.16b }, v1.16b
	ldr	q0, [x8, :lo12:.LCPI33_0]
	cmlt	v2.16b, v1.16b, #0
	and	v2.16b, v2.16b, v0.16b
	addp	v2.16b, v2.16b, v2.16b
	addp	v2.16b, v2.16b, v2.16b
	addp	v2.16b, v2.16b, v2.16b
	umov	w8, v2.h[0]
	cbz	w8, .LBB33_38
	adrp	x8, .Lstatic.12
	add	x8, x8, :lo12:.Lstatic.12
	movi	v3.2d, #0000000000000000
	sub	x8, x8, x21
	movi	v6.16b, #223
	movi	v7.16b, #191
	ldr	q2, [x8, #16]
	movi	v16.16b, #224
	movi	v17.16b, #64
	movi	v20.16b, #232
	movi	v21.16b, #231
	movi	v22.16b, #220
	umax	v2.16b, v1.16b, v2.16b
	movi	v1.16b, #192
	adrp	x10, .Lstatic.13
	add	x10, x10, :lo12:.Lstatic.13
	ext	v4.16b, v3.16b, v2.16b, #15
	cmge	v5.16b, v2.16b, #0
	cmhi	v7.16b, v2.16b, v7.16b
	ext	v3.16b, v3.16b, v4.16b, #15
	bsl	v5.16b, v1.16b, v4.16b
	cmhi	v6.16b, v4.16b, v6.16b
	shl	v18.16b, v4.16b, #2
	orr	v6.16b, v7.16b, v6.16b
	umax	v7.16b, v3.16b, v16.16b
	umax	v16.16b, v5.16b, v3.16b
	cmhi	v17.16b, v17.16b, v18.16b
	ushr	v19.16b, v5.16b, #2
	movi	v18.16b, #127
	shl	v5.16b, v5.16b, #6
	bic	v0.16b, v0.16b, v6.16b
	cmhi	v6.16b, v1.16b, v16.16b
	ushr	v16.16b, v2.16b, #4
	bsl	v17.16b, v21.16b, v20.16b
	sli	v19.16b, v7.16b, #4
	addp	v0.16b, v0.16b, v0.16b
	and	v2.16b, v2.16b, v18.16b
	sli	v16.16b, v4.16b, #2
	movi	v4.16b, #240
	and	v6.16b, v6.16b, v22.16b
	add	v7.16b, v17.16b, v3.16b
	addp	v0.16b, v0.16b, v0.16b
	add	v2.16b, v5.16b, v2.16b
	orr	v6.16b, v19.16b, v6.16b
	cmhi	v3.16b, v4.16b, v3.16b
	add	v1.16b, v16.16b, v1.16b
	addp	v0.16b, v0.16b, v0.16b
	mov	v4.16b, v3.16b
	bit	v1.16b, v2.16b, v3.16b
	umov	w8, v0.h[0]
	bsl	v4.16b, v6.16b, v7.16b
	and	x9, x8, #0xff
	ubfx	x8, x8, #8, #8
	ldr	q2, [x10, x9, lsl #4]
	zip1	v0.16b, v1.16b, v4.16b
	fmov	d3, x8
	zip2	v1.16b, v1.16b, v4.16b
	cnt	v3.8b, v3.8b
	tbl	v0.16b, { v0.16b }, v2.16b
	fmov	d2, x9
	cnt	v2.8b, v2.8b
	fmov	w9, s3
	str	q0, [x20]
	ldr	q0, [x10, x8, lsl #4]
	fmov	w8, s2
	tbl	v0.16b, { v1.16b }, v0.16b
	ubfiz	x10, x8, #1, #32
	add	x8, x8, x9
	lsl	x24, x8, #1
	str	q0, [x20, x10]
	sub	x8, x23, x19
	cmp	x24, x8
	b.ls	.LBB33_30
	b	.LBB33_29
.LBB33_10:
	mov	w12, #67043328
	mov	w13, #-10240
	add	w9, w9, w12
	mov	w12, #56320
	add	w9, w13, w9, lsr #10
	orr	w11, w11, w12
	strh	w11, [x10, #2]
	strh	w9, [x10]
	mov	w9, #4
	add	x24, x9, x24
	cbz	x8, .LBB33_28
.LBB33_11:
	ldrsb	w10, [x25]
	and	w9, w10, #0xff
	tbnz	w10, #31, .LBB33_13
	mov	w11, #1
	b	.LBB33_17
.LBB33_13:
	ldrb	w10, [x25, #1]
	cmp	w9, #223
	and	w10, w10, #0x3f
	b.hi	.LBB33_15
	bfi	w10, w9, #6, #5
	mov	w11, #2
	mov	w9, w10
	b	.LBB33_17
.LBB33_15:
	ldrb	w11, [x25, #2]
	cmp	w9, #239
	and	w11, w11, #0x3f
	b.hi	.LBB33_19
	ubfiz	w9, w9, #12, #4
	orr	w9, w9, w10, lsl #6
	orr	w9, w9, w11
	mov	w11, #3
.LBB33_17:
	add	x25, x25, x11
	sub	x8, x8, x11
	add	x10, x20, x24
.LBB33_18:
	strh	w9, [x10]
	mov	w9, #2
	add	x24, x9, x24
	cbnz	x8, .LBB33_11
	b	.LBB33_28
.LBB33_19:
	ldrb	w12, [x25, #3]
	ubfiz	w9, w9, #18, #3
	add	x25, x25, #4
	sub	x8, x8, #4
	and	w12, w12, #0x3f
	orr	w9, w9, w10, lsl #12
	add	x10, x20, x24
	orr	w11, w12, w11, lsl #6
	lsr	w12, w9, #16
	orr	w9, w11, w9
	cbz	w12, .LBB33_18
	b	.LBB33_10
.LBB33_20:
	add	x26, x24, #16
	lsr	x8, x26, #1
	cmp	x8, x21
	csel	x4, x8, x21, lo
	cmp	x26, #32
	b.lo	.LBB33_22
	ldr	q1, [x25]
	adrp	x8, .LCPI33_0
	ldr	q0, [x8, :lo12:.LCPI33_0]
	cmlt	v2.16b, v1.16b, #0
	and	v2.16b, v2.16b, v0.16b
	addp	v2.16b, v2.16b, v2.16b
	addp	v2.16b, v2.16b, v2.16b
	addp	v2.16b, v2.16b, v2.16b
	umov	w8, v2.h[0]
	cbz	w8, .LBB33_45
.LBB33_22:
	mov	x4, xzr
.LBB33_23:
	lsl	x24, x4, #1
	subs	x8, x21, x4
	b.eq	.LBB33_28
	cmp	x8, #191
	b.ls	.LBB33_27
	mov	x0, x25
	mov	x1, x21
	mov	x2, x20
	mov	x3, x26
	mov	x5, x24
	bl	"utf16_from_utf8::blocks::write_mixed_blocks::<#418c2b53cf60437c>"
	sub	x8, x21, x0
	mov	x24, x1
	cmp	x8, #191
	b.hi	.LBB33_28
	mov	x4, x0
.LBB33_27:
	mov	x0, x25
	mov	x1, x21
	mov	x2, x20
	mov	x3, x26
	mov	x5, x24
	bl	"utf16_from_utf8::rest::write_rest::<#418c2b53cf60437c>"
	mov	x24, x1
.LBB33_28:
	sub	x8, x23, x19
	cmp	x24, x8
	b.ls	.LBB33_30
.LBB33_29:
	orr	x9, x8, #0x1
	and	x8, x8, #0xfffffffffffffffe
	mov	x0, x20
	ldrb	w9, [x20, x9]
	sub	x10, x8, #2
	and	w9, w9, #0xfc
	cmp	w9, #220
	csel	x24, x10, x8, eq
	mov	x1, x24
	bl	"utf16_to_utf8::lens::utf8_len::<#418c2b53cf60437c>"
	mov	x21, x0
.LBB33_30:
	add	x0, x22, x19
	sub	x8, x0, x20
	cmp	x8, x24
	b.hs	.LBB33_35
	cmp	x24, #8
	b.lo	.LBB33_33
	add	x8, x19, x22
	sub	x8, x8, x20
	cmp	x8, #32
	b.hs	.LBB33_36
.LBB33_33:
	mov	x8, xzr
	b	.LBB33_52
.LBB33_34:
	add	x0, x22, x19
.LBB33_35:
	mov	x1, x20
	mov	x2, x24
	bl	memmove
	b	.LBB33_50
.LBB33_36:
	cmp	x24, #32
	b.hs	.LBB33_39
	mov	x8, xzr
	b	.LBB33_43
.LBB33_38:
	ushll	v0.8h, v1.8b, #0
	ushll2	v1.8h, v1.16b, #0
	stp	q0, q1, [x20]
	sub	x8, x23, x19
	cmp	x24, x8
	b.ls	.LBB33_30
	b	.LBB33_29
.LBB33_39:
	add	x11, x19, x22
	and	x9, x24, #0x18
	and	x8, x24, #0xffffffffffffffe0
	add	x10, x20, #16
	add	x11, x11, #16
	and	x12, x24, #0xffffffffffffffe0
.LBB33_40:
	ldp	q0, q1, [x10, #-16]
	subs	x12, x12, #32
	add	x10, x10, #32
	stp	q0, q1, [x11, #-16]
	add	x11, x11, #32
	b.ne	.LBB33_40
	cmp	x24, x8
	b.eq	.LBB33_50
	cbz	x9, .LBB33_52
.LBB33_43:
	mov	x10, x8
	and	x8, x24, #0xfffffffffffffff8
	add	x11, x10, x19
	sub	x9, x10, x8
	add	x10, x20, x10
	add	x11, x22, x11
.LBB33_44:
	ldr	d0, [x10], #8
	adds	x9, x9, #8
	str	d0, [x11], #8
	b.ne	.LBB33_44
	b	.LBB33_51
.LBB33_45:
	cmp	x4, #31
	b.hi	.LBB33_48
	ushll	v2.8h, v1.8b, #0
	ushll2	v1.8h, v1.16b, #0
	sub	x8, x4, #16
	stp	q2, q1, [x20]
	ldr	q1, [x25, x8]
	cmlt	v2.16b, v1.16b, #0
	and	v0.16b, v2.16b, v0.16b
	addp	v0.16b, v0.16b, v0.16b
	addp	v0.16b, v0.16b, v0.16b
	addp	v0.16b, v0.16b, v0.16b
	umov	w9, v0.h[0]
	cbz	w9, .LBB33_49
	mov	w4, #16
	b	.LBB33_23
.LBB33_48:
	mov	x0, x25
	mov	x1, x4
	mov	x2, x20
	bl	"utf16_from_utf8::ascii::write_front::<#418c2b53cf60437c>"
	mov	x4, x0
	b	.LBB33_23
.LBB33_49:
	ushll	v0.8h, v1.8b, #0
	ushll2	v1.8h, v1.16b, #0
	add	x8, x20, x8, lsl #1
	stp	q0, q1, [x8]
	b	.LBB33_23
.LBB33_50:
	add	x1, x24, x19
	mov	x0, x21
	.cfi_def_cfa wsp, 80
	ldp	x20, x19, [sp, #64]
	ldp	x22, x21, [sp, #48]
	ldp	x24, x23, [sp, #32]
	ldp	x26, x25, [sp, #16]
	ldp	x29, x30, [sp], #80
	.cfi_def_cfa_offset 0
	.cfi_restore w19
	.cfi_restore w20
	.cfi_restore w21
	.cfi_restore w22
	.cfi_restore w23
	.cfi_restore w24
	.cfi_restore w25
	.cfi_restore w26
	.cfi_restore w30
	.cfi_restore w29
	ret
.LBB33_51:
	.cfi_restore_state
	cmp	x24, x8
	b.eq	.LBB33_50
.LBB33_52:
	ldrb	w9, [x20, x8]
	strb	w9, [x0, x8]
	add	x8, x8, #1
	b	.LBB33_51
.Lfunc_end33:
	.size	"utf16_transcode::transcoding::write_buffered_text::<#58ba01604e1c9b81>", .Lfunc_end33-"utf16_transcode::transcoding::write_buffered_text::<#58ba01604e1c9b81>"
	.cfi_endproc

	.section	.rodata.cst16,"aM",@progbits,16
	.p2align	4, 0x0
.LCPI34_0:
	.byte	1
	.byte	2
	.byte	4
	.byte	8
	.byte	16
	.byte	32
	.byte	64
	.byte	128
	.byte	1
	.byte	2
	.byte	4
	.byte	8
	.byte	16
	.byte	32
	.byte	64
	.byte	128
	.section	".text.utf16_transcode::items::write_items::<#418c2b53cf60437c>","ax",@progbits
	.p2align	2
	.type	"utf16_transcode::items::write_items::<#418c2b53cf60437c>",@function
"utf16_transcode::items::write_items::<#418c2b53cf60437c>":
	.cfi_startproc
	mov	x8, x1
	mov	x9, x0
	mov	x0, xzr
	mov	x1, xzr
	mov	x10, xzr
	b	.LBB34_4
.LBB34_1:
	and	w12, w13, #0xff
	mov	w14, #1
.LBB34_2:
	strh	w12, [x11]
	add	x1, x1, #2
	add	x10, x10, #1
.LBB34_3:
	cmp	x10, #16
	add	x0, x14, x0
	b.hs	.LBB34_49
.LBB34_4:
	sub	x13, x8, x0
	cmp	x13, #4
	b.lo	.LBB34_49
	sub	x11, x3, x1
	cmp	x11, #4
	b.lo	.LBB34_49
	cmp	x11, #32
	add	x12, x9, x0
	add	x11, x2, x1
	b.lo	.LBB34_10
	cmp	x13, #15
	b.ls	.LBB34_10
	ldr	q0, [x12]
	adrp	x13, .LCPI34_0
	ldr	q2, [x13, :lo12:.LCPI34_0]
	cmlt	v1.16b, v0.16b, #0
	and	v1.16b, v1.16b, v2.16b
	addp	v1.16b, v1.16b, v1.16b
	addp	v1.16b, v1.16b, v1.16b
	addp	v1.16b, v1.16b, v1.16b
	umov	w13, v1.h[0]
	orr	w13, w13, #0x10000
	rbit	w13, w13
	clz	w14, w13
	cmp	w14, #4
	b.hs	.LBB34_15
	umov	w13, v0.b[0]
	tbz	w13, #7, .LBB34_1
	b	.LBB34_11
.LBB34_10:
	ldrb	w13, [x12]
	tbz	w13, #7, .LBB34_1
.LBB34_11:
	and	w16, w13, #0xff
	cmp	w16, #225
	b.hs	.LBB34_17
	lsr	w14, w13, #4
	ldrb	w15, [x12, #1]
	and	w14, w14, #0xc
	orr	w14, w14, w15, lsr #6
	cmp	w14, #14
	b.ne	.LBB34_33
	add	w14, w13, #62
	and	w16, w14, #0xff
	cmp	w16, #30
	b.hs	.LBB34_23
.LBB34_14:
	and	w12, w13, #0xff
	mov	w13, #-12416
	mov	w14, #2
	lsl	w12, w12, #6
	add	w12, w12, w15, uxtb
	add	w12, w12, w13
	b	.LBB34_2
.LBB34_15:
	movi	v1.16b, #127
	ubfiz	x12, x14, #1, #32
	and	v0.16b, v0.16b, v1.16b
	ushll	v1.8h, v0.8b, #0
	ushll2	v0.8h, v0.16b, #0
	stp	q1, q0, [x11]
	mov	w11, #2
.LBB34_16:
	add	x1, x12, x1
	add	x10, x11, x10
	b	.LBB34_3
.LBB34_17:
	ldrb	w14, [x12, #1]
	cmp	w16, #236
	sxtb	w15, w14
	b.hi	.LBB34_21
	cmn	w15, #65
	b.gt	.LBB34_33
	ldrsb	w16, [x12, #2]
	cmn	w16, #65
	b.gt	.LBB34_39
	lsl	w12, w13, #12
	and	w13, w16, #0xff
	add	w12, w12, w14, lsl #6
	mov	w14, #-8320
	add	w13, w13, w14
	mov	w14, #3
	add	w12, w12, w13
	b	.LBB34_2
.LBB34_21:
	cmn	w15, #65
	b.gt	.LBB34_33
	add	w14, w13, #62
.LBB34_23:
	and	w16, w13, #0xff
	cmp	w16, #239
	b.gt	.LBB34_27
	cmp	w16, #224
	b.eq	.LBB34_32
	cmp	w16, #237
	b.ne	.LBB34_30
	mov	w16, #159
	b	.LBB34_31
.LBB34_27:
	cmp	w16, #240
	b.eq	.LBB34_35
	cmp	w16, #244
	b.ne	.LBB34_30
	mov	w16, #143
	b	.LBB34_31
.LBB34_30:
	mov	w16, #191
.LBB34_31:
	mov	w17, #128
	and	w14, w14, #0xff
	cmp	w14, #50
	b.hi	.LBB34_33
	b	.LBB34_36
.LBB34_32:
	mov	w16, #191
	mov	w17, #160
	and	w14, w14, #0xff
	cmp	w14, #50
	b.ls	.LBB34_36
.LBB34_33:
	mov	w14, #1
.LBB34_34:
	mov	w12, #65533
	mov	x10, xzr
	add	x1, x1, #2
	strh	w12, [x11]
	b	.LBB34_3
.LBB34_35:
	mov	w16, #191
	mov	w17, #144
	and	w14, w14, #0xff
	cmp	w14, #50
	b.hi	.LBB34_33
.LBB34_36:
	cmp	w17, w15, uxtb
	mov	w14, #1
	b.hi	.LBB34_34
	cmp	w16, w15, uxtb
	b.lo	.LBB34_34
	and	w14, w13, #0xff
	cmp	w14, #223
	b.ls	.LBB34_14
.LBB34_39:
	ldrsb	w14, [x12, #2]
	cmn	w14, #65
	b.gt	.LBB34_43
	and	w16, w13, #0xff
	and	w14, w14, #0xff
	cmp	w16, #239
	b.hi	.LBB34_44
	lsl	w12, w16, #12
	and	w13, w15, #0xff
	add	w12, w12, w13, lsl #6
	mov	w13, #57216
	movk	w13, #65521, lsl #16
	add	w13, w14, w13
	mov	w14, #3
	add	w12, w12, w13
.LBB34_42:
	mov	w13, #65533
	strh	w12, [x11]
	add	x1, x1, #2
	cmp	w12, w13
	csinc	x10, xzr, x10, eq
	b	.LBB34_3
.LBB34_43:
	mov	w14, #2
	b	.LBB34_34
.LBB34_44:
	ldrsb	w12, [x12, #3]
	cmn	w12, #65
	b.gt	.LBB34_47
	and	w13, w13, #0xff
	and	w15, w15, #0xff
	and	w12, w12, #0xff
	lsl	w13, w13, #18
	add	w13, w13, w15, lsl #12
	add	w13, w13, w14, lsl #6
	mov	w14, #57216
	movk	w14, #64567, lsl #16
	add	w12, w12, w14
	add	w12, w13, w12
	cmp	w12, #16, lsl #12
	b.hs	.LBB34_48
	mov	w14, #4
	b	.LBB34_42
.LBB34_47:
	mov	w14, #3
	b	.LBB34_34
.LBB34_48:
	mov	w13, #67043328
	mov	w14, #56320
	mov	w15, #-10240
	add	w13, w12, w13
	bfxil	w14, w12, #0, #10
	add	w12, w15, w13, lsr #10
	strh	w14, [x11, #2]
	mov	w14, #4
	strh	w12, [x11]
	mov	w11, #1
	mov	w12, #4
	b	.LBB34_16
.LBB34_49:
	ret
.Lfunc_end34:
	.size	"utf16_transcode::items::write_items::<#418c2b53cf60437c>", .Lfunc_end34-"utf16_transcode::items::write_items::<#418c2b53cf60437c>"
	.cfi_endproc

	.section	.text.main,"ax",@progbits
	.globl	proved_main_aarch64
	.hidden	proved_main_aarch64
	.p2align	2
	.type	proved_main_aarch64,@function
proved_main_aarch64:
	.cfi_startproc
	hint	#34
	sub	sp, sp, #224
	.cfi_def_cfa_offset 224
	stp	x29, x30, [sp, #128]
	str	x27, [sp, #144]
	stp	x26, x25, [sp, #160]
	stp	x24, x23, [sp, #176]
	stp	x22, x21, [sp, #192]
	stp	x20, x19, [sp, #208]
	add	x29, sp, #128
	.cfi_def_cfa w29, 96
	.cfi_offset w19, -8
	.cfi_offset w20, -16
	.cfi_offset w21, -24
	.cfi_offset w22, -32
	.cfi_offset w23, -40
	.cfi_offset w24, -48
	.cfi_offset w25, -56
	.cfi_offset w26, -64
	.cfi_offset w27, -80
	.cfi_offset w30, -88
	.cfi_offset w29, -96
	.cfi_remember_state
	mov	w0, #13
	mov	w1, #1
	bl	__sysv_signal
	mov	x25, xzr
	mov	x20, xzr
	add	x19, x29, #24
	add	x26, sp, #40
	stp	xzr, xzr, [sp]
	stp	x19, xzr, [sp, #16]
	str	xzr, [sp, #32]
.LBB35_1:
	mov	w27, #64
	mov	w22, #256
	b	.LBB35_3
.LBB35_2:
	adds	x8, x22, x22
	csinv	x22, x8, xzr, lo
	subs	w27, w27, #1
	b.eq	.LBB35_55
.LBB35_3:
	add	x21, x29, #24
	stp	xzr, xzr, [x26, #8]
	str	x21, [sp, #40]
	cbnz	x22, .LBB35_8
	mov	x23, xzr
.LBB35_5:
	mov	x0, x20
	mov	x1, x21
	mov	x2, x23
	bl	rattle_arg
	mov	w8, #36
	cmn	x0, #1
	mov	w9, #22
	csel	w8, w9, w8, eq
	mov	x24, x0
	csel	w0, wzr, w8, gt
	bl	rattle_set_errno
	bl	rattle_errno
	cmp	w0, #36
	b.ne	.LBB35_11
	ldr	x8, [sp, #56]
	cbz	x8, .LBB35_2
	mov	x0, x21
	bl	rattle_dealloc
	b	.LBB35_2
.LBB35_8:
	add	x0, sp, #40
	mov	x1, x22
	bl	"std_alloc::vec::Vec::grow_amortized::<#673fbaf82d7b1088>"
	cbz	w0, .LBB35_53
	ldp	x21, x8, [sp, #40]
	add	x23, x8, x22
	cmp	x8, x23
	b.hs	.LBB35_5
	add	x0, x21, x8
	mov	w1, wzr
	mov	x2, x22
	bl	memset
	b	.LBB35_5
.LBB35_11:
	cbnz	w0, .LBB35_17
	cmp	x24, x23
	add	x0, sp, #40
	mov	x1, x21
	csel	x8, x24, x23, lo
	cmp	x24, #0
	ldr	x23, [sp, #56]
	csel	x22, x8, xzr, gt
	stp	xzr, xzr, [sp, #40]
	mov	x2, x22
	str	xzr, [sp, #56]
	bl	"core::str::utf8::from_utf8"
	ldrb	w8, [sp, #40]
	cmp	w8, #1
	b.eq	.LBB35_101
	ldr	x8, [sp, #32]
	cmp	x8, x25
	b.eq	.LBB35_15
.LBB35_14:
	mov	w8, #24
	add	x20, x20, #1
	madd	x8, x25, x8, x19
	add	x25, x25, #1
	cmn	x20, #1
	stp	x21, x22, [x8]
	str	x23, [x8, #16]
	str	x25, [sp, #24]
	b.ne	.LBB35_1
	b	.LBB35_19
.LBB35_15:
	add	x0, sp, #16
	bl	"std_alloc::vec::Vec::grow_amortized::<#9a72e5f6858642ac>"
	cbz	w0, .LBB35_112
	ldp	x19, x25, [sp, #16]
	b	.LBB35_14
.LBB35_17:
	ldr	x8, [sp, #56]
	cbz	x8, .LBB35_19
	mov	x0, x21
	bl	rattle_dealloc
.LBB35_19:
	ldr	x20, [sp, #16]
	ldr	x23, [sp, #32]
	cbz	x25, .LBB35_22
	ldr	x21, [x20]
	ldr	x26, [x20, #16]
	cmp	x25, #1
	b.ne	.LBB35_23
	mov	w25, wzr
	mov	x19, xzr
	mov	x24, xzr
	mov	x22, xzr
	cbnz	x26, .LBB35_25
	b	.LBB35_26
.LBB35_22:
	mov	x19, xzr
	mov	x24, xzr
	mov	x22, xzr
	b	.LBB35_26
.LBB35_23:
	ldr	x19, [x20, #24]
	ldr	x22, [x20, #40]
	cmp	x25, #2
	b.ne	.LBB35_34
	ldr	x24, [x20, #32]
	mov	w25, #1
	cbz	x26, .LBB35_26
.LBB35_25:
	mov	x0, x21
	bl	rattle_dealloc
.LBB35_26:
	cbz	x23, .LBB35_28
	mov	x0, x20
	bl	rattle_dealloc
.LBB35_28:
	cbz	w25, .LBB35_80
	cmp	x24, #6
	b.eq	.LBB35_43
	cmp	x24, #2
	b.ne	.LBB35_46
	ldrb	w8, [x19, #1]
	ldrb	w9, [x19]
	lsl	x10, x8, #8
	orr	x9, x10, x9, lsl #16
	orr	x8, x9, x8
	sub	x9, x8, #1574, lsl #12
	cmp	x9, #1381
	b.eq	.LBB35_65
	mov	w9, #25957
	movk	w9, #108, lsl #16
	cmp	x8, x9
	b.ne	.LBB35_46
	mov	w20, wzr
	mov	w21, wzr
	b	.LBB35_68
.LBB35_34:
	ldr	x8, [x20, #64]
	cbz	x8, .LBB35_36
	ldr	x0, [x20, #48]
	bl	rattle_dealloc
.LBB35_36:
	cbz	x22, .LBB35_38
	mov	x0, x19
	bl	rattle_dealloc
.LBB35_38:
	cbz	x26, .LBB35_40
	mov	x0, x21
	bl	rattle_dealloc
.LBB35_40:
	subs	x19, x25, #3
	b.ne	.LBB35_49
.LBB35_41:
	cbz	x23, .LBB35_80
	mov	x0, x20
	b	.LBB35_48
.LBB35_43:
	ldr	w8, [x19]
	ldur	w9, [x19, #2]
	orr	x8, x8, x9, lsl #32
	mov	x9, #25954
	movk	x9, #25133, lsl #16
	movk	x9, #25133, lsl #32
	movk	x9, #28015, lsl #48
	cmp	x8, x9
	b.eq	.LBB35_66
	mov	x9, #25964
	movk	x9, #25133, lsl #16
	movk	x9, #25133, lsl #32
	movk	x9, #28015, lsl #48
	cmp	x8, x9
	b.ne	.LBB35_46
	mov	w20, wzr
	b	.LBB35_67
.LBB35_46:
	cbz	x22, .LBB35_80
	mov	x0, x19
.LBB35_48:
	bl	rattle_dealloc
	b	.LBB35_80
.LBB35_49:
	add	x21, x20, #88
	b	.LBB35_51
.LBB35_50:
	subs	x19, x19, #1
	add	x21, x21, #24
	b.eq	.LBB35_41
.LBB35_51:
	ldr	x8, [x21]
	cbz	x8, .LBB35_50
	ldur	x0, [x21, #-16]
	bl	rattle_dealloc
	b	.LBB35_50
.LBB35_53:
	ldr	x8, [sp, #56]
	cbz	x8, .LBB35_55
	ldr	x0, [sp, #40]
	bl	rattle_dealloc
.LBB35_55:
	ldr	x20, [sp, #32]
	cbz	x25, .LBB35_60
	add	x21, x19, #16
	b	.LBB35_58
.LBB35_57:
	subs	x25, x25, #1
	add	x21, x21, #24
	b.eq	.LBB35_60
.LBB35_58:
	ldr	x8, [x21]
	cbz	x8, .LBB35_57
	ldur	x0, [x21, #-16]
	bl	rattle_dealloc
	b	.LBB35_57
.LBB35_60:
	cbz	x20, .LBB35_62
.LBB35_61:
	mov	x0, x19
	bl	rattle_dealloc
.LBB35_62:
	add	x8, sp, #16
.LBB35_63:
	mov	w9, #21
	mov	w10, #38
	strb	w9, [sp, #40]
	strb	w10, [sp, #16]
	ldrb	w8, [x8]
	cmp	w8, #38
	b.ne	.LBB35_80
.LBB35_64:
	adrp	x21, .Lstatic.28
	add	x21, x21, :lo12:.Lstatic.28
	mov	w19, #1
	mov	w22, #16
	b	.LBB35_85
.LBB35_65:
	mov	w21, wzr
	mov	w20, #1
	b	.LBB35_68
.LBB35_66:
	mov	w20, #1
.LBB35_67:
	mov	w21, #1
.LBB35_68:
	cbz	x22, .LBB35_70
	mov	x0, x19
	bl	rattle_dealloc
.LBB35_70:
	tbz	w21, #0, .LBB35_74
	cbz	w20, .LBB35_97
	mov	w8, #1
	add	x0, sp, #40
	add	x1, sp, #8
	mov	x2, sp
	str	wzr, [sp, #40]
	strb	w8, [sp, #44]
	bl	"utf16_streams::filters::filter_by::<#49f94d9d01043660>"
	tbnz	w0, #0, .LBB35_76
.LBB35_73:
	mov	w19, wzr
	b	.LBB35_96
.LBB35_74:
	cbz	w20, .LBB35_98
	add	x0, sp, #40
	add	x1, sp, #8
	mov	x2, sp
	strb	wzr, [sp, #44]
	str	wzr, [sp, #40]
	bl	"utf16_streams::filters::filter_by::<#49f94d9d01043660>"
	tbz	w0, #0, .LBB35_73
.LBB35_76:
	and	w8, w1, #0xff
	mov	w19, w1
	cmp	w8, #1
	b.le	.LBB35_99
	cmp	w8, #4
	b.eq	.LBB35_80
	cmp	w8, #3
	b.ne	.LBB35_64
	adrp	x21, .Lstatic.29
	add	x21, x21, :lo12:.Lstatic.29
	mov	w19, #1
	mov	w22, #17
	b	.LBB35_85
.LBB35_80:
	mov	x19, xzr
.LBB35_81:
	adrp	x8, .Lstatic.25
	add	x8, x8, :lo12:.Lstatic.25
	eor	x2, x19, #0x7
	add	x1, x8, x19
	mov	w0, #2
	eor	x20, x19, #0x7
	bl	write
	tbnz	x0, #63, .LBB35_94
	cmp	x0, x20
	csel	x8, x0, x20, lo
	cbz	x8, .LBB35_95
	add	x19, x8, x19
	cmp	x19, #6
	b.ls	.LBB35_81
	adrp	x21, .Lstatic.31
	add	x21, x21, :lo12:.Lstatic.31
	mov	w19, #2
	mov	w22, #21
.LBB35_85:
	mov	x23, xzr
.LBB35_86:
	mov	w8, #9
	adrp	x9, .Lstatic.33
	add	x9, x9, :lo12:.Lstatic.33
	sub	x20, x8, x23
	add	x1, x9, x23
	mov	w0, #2
	mov	x2, x20
	bl	write
	tbnz	x0, #63, .LBB35_93
	cmp	x0, x20
	csel	x8, x0, x20, lo
	cbz	x8, .LBB35_96
	add	x23, x8, x23
	cmp	x23, #9
	b.lo	.LBB35_86
	mov	x20, xzr
.LBB35_90:
	add	x1, x21, x20
	sub	x2, x22, x20
	mov	w0, #2
	sub	x23, x22, x20
	bl	write
	tbnz	x0, #63, .LBB35_93
	cmp	x0, x23
	csel	x8, x0, x23, lo
	cbz	x8, .LBB35_96
	add	x20, x8, x20
	cmp	x20, x22
	b.lo	.LBB35_90
	b	.LBB35_96
.LBB35_93:
	add	x0, sp, #40
	bl	"std_io::io::error::last_error"
	b	.LBB35_96
.LBB35_94:
	add	x0, sp, #40
	bl	"std_io::io::error::last_error"
.LBB35_95:
	mov	w19, #2
.LBB35_96:
	and	w0, w19, #0xff
	.cfi_def_cfa wsp, 224
	ldp	x20, x19, [sp, #208]
	ldr	x27, [sp, #144]
	ldp	x22, x21, [sp, #192]
	ldp	x24, x23, [sp, #176]
	ldp	x26, x25, [sp, #160]
	ldp	x29, x30, [sp, #128]
	add	sp, sp, #224
	.cfi_def_cfa_offset 0
	.cfi_restore w19
	.cfi_restore w20
	.cfi_restore w21
	.cfi_restore w22
	.cfi_restore w23
	.cfi_restore w24
	.cfi_restore w25
	.cfi_restore w26
	.cfi_restore w27
	.cfi_restore w30
	.cfi_restore w29
	ret
.LBB35_97:
	.cfi_restore_state
	mov	w8, #1
	add	x0, sp, #40
	add	x1, sp, #8
	mov	x2, sp
	str	wzr, [sp, #40]
	strb	w8, [sp, #44]
	bl	"utf16_streams::filters::filter_by::<#27bba4883ebf77b8>"
	tbz	w0, #0, .LBB35_73
	b	.LBB35_76
.LBB35_98:
	add	x0, sp, #40
	add	x1, sp, #8
	mov	x2, sp
	strb	wzr, [sp, #44]
	str	wzr, [sp, #40]
	bl	"utf16_streams::filters::filter_by::<#27bba4883ebf77b8>"
	tbz	w0, #0, .LBB35_73
	b	.LBB35_76
.LBB35_99:
	cbnz	w8, .LBB35_111
	adrp	x21, .Lstatic.26
	add	x21, x21, :lo12:.Lstatic.26
	mov	w19, #1
	mov	w22, #14
	b	.LBB35_85
.LBB35_101:
	cbz	x23, .LBB35_103
	mov	x0, x21
	bl	rattle_dealloc
.LBB35_103:
	ldr	x19, [sp, #16]
	ldr	x20, [sp, #32]
	cbz	x25, .LBB35_108
	add	x21, x19, #16
	b	.LBB35_106
.LBB35_105:
	subs	x25, x25, #1
	add	x21, x21, #24
	b.eq	.LBB35_108
.LBB35_106:
	ldr	x8, [x21]
	cbz	x8, .LBB35_105
	ldur	x0, [x21, #-16]
	bl	rattle_dealloc
	b	.LBB35_105
.LBB35_108:
	cbz	x20, .LBB35_110
	mov	x0, x19
	bl	rattle_dealloc
.LBB35_110:
	add	x8, sp, #40
	b	.LBB35_63
.LBB35_111:
	adrp	x21, .Lstatic.27
	add	x21, x21, :lo12:.Lstatic.27
	mov	w22, #15
	b	.LBB35_85
.LBB35_112:
	cbz	x23, .LBB35_114
	mov	x0, x21
	bl	rattle_dealloc
.LBB35_114:
	ldp	x19, x20, [sp, #16]
	ldr	x21, [sp, #32]
	cbz	x20, .LBB35_119
	add	x22, x19, #16
	b	.LBB35_117
.LBB35_116:
	subs	x20, x20, #1
	add	x22, x22, #24
	b.eq	.LBB35_119
.LBB35_117:
	ldr	x8, [x22]
	cbz	x8, .LBB35_116
	ldur	x0, [x22, #-16]
	bl	rattle_dealloc
	b	.LBB35_116
.LBB35_119:
	cbnz	x21, .LBB35_61
	b	.LBB35_62
.Lfunc_end35:
	.size	proved_main_aarch64, .Lfunc_end35-proved_main_aarch64
	.cfi_endproc

	.type	.Lstatic.11,@object
	.section	.rodata..Lstatic.11,"a",@progbits
.Lstatic.11:
	.ascii	"\000\001\002\003\004\005\006\007\000\000\000\000\000\000\000\000\000\001\002\003\004\005\006\007\017\000\000\000\000\000\000\000\000\001\002\003\004\005\006\007\016\017\000\000\000\000\000\000\000\001\002\003\004\005\006\007\r\016\017\000\000\000\000\000\000\001\002\003\004\005\006\007\f\r\016\017\000\000\000\000\000\001\002\003\004\005\006\007\013\f\r\016\017\000\000\000\000\001\002\003\004\005\006\007\n\013\f\r\016\017\000\000\000\001\002\003\004\005\006\007\t\n\013\f\r\016\017\000\000\001\002\003\004\005\006\007\b\t\n\013\f\r\016\017"
	.size	.Lstatic.11, 144

	.type	.Lstatic.12,@object
	.section	.rodata.cst32,"aM",@progbits,32
.Lstatic.12:
	.ascii	"\000\000\000\000\000\000\000\000\000\000\000\000\000\000\000\000\377\377\377\377\377\377\377\377\377\377\377\377\377\377\377\377"
	.size	.Lstatic.12, 32

	.type	.Lstatic.13,@object
	.section	.rodata..Lstatic.13,"a",@progbits
.Lstatic.13:
	.ascii	"\000\000\000\000\000\000\000\000\000\000\000\000\000\000\000\000\000\001\000\000\000\000\000\000\000\000\000\000\000\000\000\000\002\003\000\000\000\000\000\000\000\000\000\000\000\000\000\000\000\001\002\003\000\000\000\000\000\000\000\000\000\000\000\000\004\005\000\000\000\000\000\000\000\000\000\000\000\000\000\000\000\001\004\005\000\000\000\000\000\000\000\000\000\000\000\000\002\003\004\005\000\000\000\000\000\000\000\000\000\000\000\000\000\001\002\003\004\005\000\000\000\000\000\000\000\000\000\000\006\007\000\000\000\000\000\000\000\000\000\000\000\000\000\000\000\001\006\007\000\000\000\000\000\000\000\000\000\000\000\000\002\003\006\007\000\000\000\000\000\000\000\000\000\000\000\000\000\001\002\003\006\007\000\000\000\000\000\000\000\000\000\000\004\005\006\007\000\000\000\000\000\000\000\000\000\000\000\000\000\001\004\005\006\007\000\000\000\000\000\000\000\000\000\000\002\003\004\005\006\007\000\000\000\000\000\000\000\000\000\000\000\001\002\003\004\005\006\007\000\000\000\000\000\000\000\000\b\t\000\000\000\000\000\000\000\000\000\000\000\000\000\000\000\001\b\t\000\000\000\000\000\000\000\000\000\000\000\000\002\003\b\t\000\000\000\000\000\000\000\000\000\000\000\000\000\001\002\003\b\t\000\000\000\000\000\000\000\000\000\000\004\005\b\t\000\000\000\000\000\000\000\000\000\000\000\000\000\001\004\005\b\t\000\000\000\000\000\000\000\000\000\000\002\003\004\005\b\t\000\000\000\000\000\000\000\000\000\000\000\001\002\003\004\005\b\t\000\000\000\000\000\000\000\000\006\007\b\t\000\000\000\000\000\000\000\000\000\000\000\000\000\001\006\007\b\t\000\000\000\000\000\000\000\000\000\000\002\003\006\007\b\t\000\000\000\000\000\000\000\000\000\000\000\001\002\003\006\007\b\t\000\000\000\000\000\000\000\000\004\005\006\007\b\t\000\000\000\000\000\000\000\000\000\000\000\001\004\005\006\007\b\t\000\000\000\000\000\000\000\000\002\003\004\005\006\007\b\t\000\000\000\000\000\000\000\000\000\001\002\003\004\005\006\007\b\t\000\000\000\000\000\000\n\013\000\000\000\000\000\000\000\000\000\000\000\000\000\000\000\001\n\013\000\000\000\000\000\000\000\000\000\000\000\000\002\003\n\013\000\000\000\000\000\000\000\000\000\000\000\000\000\001\002\003\n\013\000\000\000\000\000\000\000\000\000\000\004\005\n\013\000\000\000\000\000\000\000\000\000\000\000\000\000\001\004\005\n\013\000\000\000\000\000\000\000\000\000\000\002\003\004\005\n\013\000\000\000\000\000\000\000\000\000\000\000\001\002\003\004\005\n\013\000\000\000\000\000\000\000\000\006\007\n\013\000\000\000\000\000\000\000\000\000\000\000\000\000\001\006\007\n\013\000\000\000\000\000\000\000\000\000\000\002\003\006\007\n\013\000\000\000\000\000\000\000\000\000\000\000\001\002\003\006\007\n\013\000\000\000\000\000\000\000\000\004\005\006\007\n\013\000\000\000\000\000\000\000\000\000\000\000\001\004\005\006\007\n\013\000\000\000\000\000\000\000\000\002\003\004\005\006\007\n\013\000\000\000\000\000\000\000\000\000\001\002\003\004\005\006\007\n\013\000\000\000\000\000\000\b\t\n\013\000\000\000\000\000\000\000\000\000\000\000\000\000\001\b\t\n\013\000\000\000\000\000\000\000\000\000\000\002\003\b\t\n\013\000\000\000\000\000\000\000\000\000\000\000\001\002\003\b\t\n\013\000\000\000\000\000\000\000\000\004\005\b\t\n\013\000\000\000\000\000\000\000\000\000\000\000\001\004\005\b\t\n\013\000\000\000\000\000\000\000\000\002\003\004\005\b\t\n\013\000\000\000\000\000\000\000\000\000\001\002\003\004\005\b\t\n\013\000\000\000\000\000\000\006\007\b\t\n\013\000\000\000\000\000\000\000\000\000\000\000\001\006\007\b\t\n\013\000\000\000\000\000\000\000\000\002\003\006\007\b\t\n\013\000\000\000\000\000\000\000\000\000\001\002\003\006\007\b\t\n\013\000\000\000\000\000\000\004\005\006\007\b\t\n\013\000\000\000\000\000\000\000\000\000\001\004\005\006\007\b\t\n\013\000\000\000\000\000\000\002\003\004\005\006\007\b\t\n\013\000\000\000\000\000\000\000\001\002\003\004\005\006\007\b\t\n\013\000\000\000\000\f\r\000\000\000\000\000\000\000\000\000\000\000\000\000\000\000\001\f\r\000\000\000\000\000\000\000\000\000\000\000\000\002\003\f\r\000\000\000\000\000\000\000\000\000\000\000\000\000\001\002\003\f\r\000\000\000\000\000\000\000\000\000\000\004\005\f\r\000\000\000\000\000\000\000\000\000\000\000\000\000\001\004\005\f\r\000\000\000\000\000\000\000\000\000\000\002\003\004\005\f\r\000\000\000\000\000\000\000\000\000\000\000\001\002\003\004\005\f\r\000\000\000\000\000\000\000\000\006\007\f\r\000\000\000\000\000\000\000\000\000\000\000\000\000\001\006\007\f\r\000\000\000\000\000\000\000\000\000\000\002\003\006\007\f\r\000\000\000\000\000\000\000\000\000\000\000\001\002\003\006\007\f\r\000\000\000\000\000\000\000\000\004\005\006\007\f\r\000\000\000\000\000\000\000\000\000\000\000\001\004\005\006\007\f\r\000\000\000\000\000\000\000\000\002\003\004\005\006\007\f\r\000\000\000\000\000\000\000\000\000\001\002\003\004\005\006\007\f\r\000\000\000\000\000\000\b\t\f\r\000\000\000\000\000\000\000\000\000\000\000\000\000\001\b\t\f\r\000\000\000\000\000\000\000\000\000\000\002\003\b\t\f\r\000\000\000\000\000\000\000\000\000\000\000\001\002\003\b\t\f\r\000\000\000\000\000\000\000\000\004\005\b\t\f\r\000\000\000\000\000\000\000\000\000\000\000\001\004\005\b\t\f\r\000\000\000\000\000\000\000\000\002\003\004\005\b\t\f\r\000\000\000\000\000\000\000\000\000\001\002\003\004\005\b\t\f\r\000\000\000\000\000\000\006\007\b\t\f\r\000\000\000\000\000\000\000\000\000\000\000\001\006\007\b\t\f\r\000\000\000\000\000\000\000\000\002\003\006\007\b\t\f\r\000\000\000\000\000\000\000\000\000\001\002\003\006\007\b\t\f\r\000\000\000\000\000\000\004\005\006\007\b\t\f\r\000\000\000\000\000\000\000\000\000\001\004\005\006\007\b\t\f\r\000\000\000\000\000\000\002\003\004\005\006\007\b\t\f\r\000\000\000\000\000\000\000\001\002\003\004\005\006\007\b\t\f\r\000\000\000\000\n\013\f\r\000\000\000\000\000\000\000\000\000\000\000\000\000\001\n\013\f\r\000\000\000\000\000\000\000\000\000\000\002\003\n\013\f\r\000\000\000\000\000\000\000\000\000\000\000\001\002\003\n\013\f\r\000\000\000\000\000\000\000\000\004\005\n\013\f\r\000\000\000\000\000\000\000\000\000\000\000\001\004\005\n\013\f\r\000\000\000\000\000\000\000\000\002\003\004\005\n\013\f\r\000\000\000\000\000\000\000\000\000\001\002\003\004\005\n\013\f\r\000\000\000\000\000\000\006\007\n\013\f\r\000\000\000\000\000\000\000\000\000\000\000\001\006\007\n\013\f\r\000\000\000\000\000\000\000\000\002\003\006\007\n\013\f\r\000\000\000\000\000\000\000\000\000\001\002\003\006\007\n\013\f\r\000\000\000\000\000\000\004\005\006\007\n\013\f\r\000\000\000\000\000\000\000\000\000\001\004\005\006\007\n\013\f\r\000\000\000\000\000\000\002\003\004\005\006\007\n\013\f\r\000\000\000\000\000\000\000\001\002\003\004\005\006\007\n\013\f\r\000\000\000\000\b\t\n\013\f\r\000\000\000\000\000\000\000\000\000\000\000\001\b\t\n\013\f\r\000\000\000\000\000\000\000\000\002\003\b\t\n\013\f\r\000\000\000\000\000\000\000\000\000\001\002\003\b\t\n\013\f\r\000\000\000\000\000\000\004\005\b\t\n\013\f\r\000\000\000\000\000\000\000\000\000\001\004\005\b\t\n\013\f\r\000\000\000\000\000\000\002\003\004\005\b\t\n\013\f\r\000\000\000\000\000\000\000\001\002\003\004\005\b\t\n\013\f\r\000\000\000\000\006\007\b\t\n\013\f\r\000\000\000\000\000\000\000\000\000\001\006\007\b\t\n\013\f\r\000\000\000\000\000\000\002\003\006\007\b\t\n\013\f\r\000\000\000\000\000\000\000\001\002\003\006\007\b\t\n\013\f\r\000\000\000\000\004\005\006\007\b\t\n\013\f\r\000\000\000\000\000\000\000\001\004\005\006\007\b\t\n\013\f\r\000\000\000\000\002\003\004\005\006\007\b\t\n\013\f\r\000\000\000\000\000\001\002\003\004\005\006\007\b\t\n\013\f\r\000\000\016\017\000\000\000\000\000\000\000\000\000\000\000\000\000\000\000\001\016\017\000\000\000\000\000\000\000\000\000\000\000\000\002\003\016\017\000\000\000\000\000\000\000\000\000\000\000\000\000\001\002\003\016\017\000\000\000\000\000\000\000\000\000\000\004\005\016\017\000\000\000\000\000\000\000\000\000\000\000\000\000\001\004\005\016\017\000\000\000\000\000\000\000\000\000\000\002\003\004\005\016\017\000\000\000\000\000\000\000\000\000\000\000\001\002\003\004\005\016\017\000\000\000\000\000\000\000\000\006\007\016\017\000\000\000\000\000\000\000\000\000\000\000\000\000\001\006\007\016\017\000\000\000\000\000\000\000\000\000\000\002\003\006\007\016\017\000\000\000\000\000\000\000\000\000\000\000\001\002\003\006\007\016\017\000\000\000\000\000\000\000\000\004\005\006\007\016\017\000\000\000\000\000\000\000\000\000\000\000\001\004\005\006\007\016\017\000\000\000\000\000\000\000\000\002\003\004\005\006\007\016\017\000\000\000\000\000\000\000\000\000\001\002\003\004\005\006\007\016\017\000\000\000\000\000\000\b\t\016\017\000\000\000\000\000\000\000\000\000\000\000\000\000\001\b\t\016\017\000\000\000\000\000\000\000\000\000\000\002\003\b\t\016\017\000\000\000\000\000\000\000\000\000\000\000\001\002\003\b\t\016\017\000\000\000\000\000\000\000\000\004\005\b\t\016\017\000\000\000\000\000\000\000\000\000\000\000\001\004\005\b\t\016\017\000\000\000\000\000\000\000\000\002\003\004\005\b\t\016\017\000\000\000\000\000\000\000\000\000\001\002\003\004\005\b\t\016\017\000\000\000\000\000\000\006\007\b\t\016\017\000\000\000\000\000\000\000\000\000\000\000\001\006\007\b\t\016\017\000\000\000\000\000\000\000\000\002\003\006\007\b\t\016\017\000\000\000\000\000\000\000\000\000\001\002\003\006\007\b\t\016\017\000\000\000\000\000\000\004\005\006\007\b\t\016\017\000\000\000\000\000\000\000\000\000\001\004\005\006\007\b\t\016\017\000\000\000\000\000\000\002\003\004\005\006\007\b\t\016\017\000\000\000\000\000\000\000\001\002\003\004\005\006\007\b\t\016\017\000\000\000\000\n\013\016\017\000\000\000\000\000\000\000\000\000\000\000\000\000\001\n\013\016\017\000\000\000\000\000\000\000\000\000\000\002\003\n\013\016\017\000\000\000\000\000\000\000\000\000\000\000\001\002\003\n\013\016\017\000\000\000\000\000\000\000\000\004\005\n\013\016\017\000\000\000\000\000\000\000\000\000\000\000\001\004\005\n\013\016\017\000\000\000\000\000\000\000\000\002\003\004\005\n\013\016\017\000\000\000\000\000\000\000\000\000\001\002\003\004\005\n\013\016\017\000\000\000\000\000\000\006\007\n\013\016\017\000\000\000\000\000\000\000\000\000\000\000\001\006\007\n\013\016\017\000\000\000\000\000\000\000\000\002\003\006\007\n\013\016\017\000\000\000\000\000\000\000\000\000\001\002\003\006\007\n\013\016\017\000\000\000\000\000\000\004\005\006\007\n\013\016\017\000\000\000\000\000\000\000\000\000\001\004\005\006\007\n\013\016\017\000\000\000\000\000\000\002\003\004\005\006\007\n\013\016\017\000\000\000\000\000\000\000\001\002\003\004\005\006\007\n\013\016\017\000\000\000\000\b\t\n\013\016\017\000\000\000\000\000\000\000\000\000\000\000\001\b\t\n\013\016\017\000\000\000\000\000\000\000\000\002\003\b\t\n\013\016\017\000\000\000\000\000\000\000\000\000\001\002\003\b\t\n\013\016\017\000\000\000\000\000\000\004\005\b\t\n\013\016\017\000\000\000\000\000\000\000\000\000\001\004\005\b\t\n\013\016\017\000\000\000\000\000\000\002\003\004\005\b\t\n\013\016\017\000\000\000\000\000\000\000\001\002\003\004\005\b\t\n\013\016\017\000\000\000\000\006\007\b\t\n\013\016\017\000\000\000\000\000\000\000\000\000\001\006\007\b\t\n\013\016\017\000\000\000\000\000\000\002\003\006\007\b\t\n\013\016\017\000\000\000\000\000\000\000\001\002\003\006\007\b\t\n\013\016\017\000\000\000\000\004\005\006\007\b\t\n\013\016\017\000\000\000\000\000\000\000\001\004\005\006\007\b\t\n\013\016\017\000\000\000\000\002\003\004\005\006\007\b\t\n\013\016\017\000\000\000\000\000\001\002\003\004\005\006\007\b\t\n\013\016\017\000\000\f\r\016\017\000\000\000\000\000\000\000\000\000\000\000\000\000\001\f\r\016\017\000\000\000\000\000\000\000\000\000\000\002\003\f\r\016\017\000\000\000\000\000\000\000\000\000\000\000\001\002\003\f\r\016\017\000\000\000\000\000\000\000\000\004\005\f\r\016\017\000\000\000\000\000\000\000\000\000\000\000\001\004\005\f\r\016\017\000\000\000\000\000\000\000\000\002\003\004\005\f\r\016\017\000\000\000\000\000\000\000\000\000\001\002\003\004\005\f\r\016\017\000\000\000\000\000\000\006\007\f\r\016\017\000\000\000\000\000\000\000\000\000\000\000\001\006\007\f\r\016\017\000\000\000\000\000\000\000\000\002\003\006\007\f\r\016\017\000\000\000\000\000\000\000\000\000\001\002\003\006\007\f\r\016\017\000\000\000\000\000\000\004\005\006\007\f\r\016\017\000\000\000\000\000\000\000\000\000\001\004\005\006\007\f\r\016\017\000\000\000\000\000\000\002\003\004\005\006\007\f\r\016\017\000\000\000\000\000\000\000\001\002\003\004\005\006\007\f\r\016\017\000\000\000\000\b\t\f\r\016\017\000\000\000\000\000\000\000\000\000\000\000\001\b\t\f\r\016\017\000\000\000\000\000\000\000\000\002\003\b\t\f\r\016\017\000\000\000\000\000\000\000\000\000\001\002\003\b\t\f\r\016\017\000\000\000\000\000\000\004\005\b\t\f\r\016\017\000\000\000\000\000\000\000\000\000\001\004\005\b\t\f\r\016\017\000\000\000\000\000\000\002\003\004\005\b\t\f\r\016\017\000\000\000\000\000\000\000\001\002\003\004\005\b\t\f\r\016\017\000\000\000\000\006\007\b\t\f\r\016\017\000\000\000\000\000\000\000\000\000\001\006\007\b\t\f\r\016\017\000\000\000\000\000\000\002\003\006\007\b\t\f\r\016\017\000\000\000\000\000\000\000\001\002\003\006\007\b\t\f\r\016\017\000\000\000\000\004\005\006\007\b\t\f\r\016\017\000\000\000\000\000\000\000\001\004\005\006\007\b\t\f\r\016\017\000\000\000\000\002\003\004\005\006\007\b\t\f\r\016\017\000\000\000\000\000\001\002\003\004\005\006\007\b\t\f\r\016\017\000\000\n\013\f\r\016\017\000\000\000\000\000\000\000\000\000\000\000\001\n\013\f\r\016\017\000\000\000\000\000\000\000\000\002\003\n\013\f\r\016\017\000\000\000\000\000\000\000\000\000\001\002\003\n\013\f\r\016\017\000\000\000\000\000\000\004\005\n\013\f\r\016\017\000\000\000\000\000\000\000\000\000\001\004\005\n\013\f\r\016\017\000\000\000\000\000\000\002\003\004\005\n\013\f\r\016\017\000\000\000\000\000\000\000\001\002\003\004\005\n\013\f\r\016\017\000\000\000\000\006\007\n\013\f\r\016\017\000\000\000\000\000\000\000\000\000\001\006\007\n\013\f\r\016\017\000\000\000\000\000\000\002\003\006\007\n\013\f\r\016\017\000\000\000\000\000\000\000\001\002\003\006\007\n\013\f\r\016\017\000\000\000\000\004\005\006\007\n\013\f\r\016\017\000\000\000\000\000\000\000\001\004\005\006\007\n\013\f\r\016\017\000\000\000\000\002\003\004\005\006\007\n\013\f\r\016\017\000\000\000\000\000\001\002\003\004\005\006\007\n\013\f\r\016\017\000\000\b\t\n\013\f\r\016\017\000\000\000\000\000\000\000\000\000\001\b\t\n\013\f\r\016\017\000\000\000\000\000\000\002\003\b\t\n\013\f\r\016\017\000\000\000\000\000\000\000\001\002\003\b\t\n\013\f\r\016\017\000\000\000\000\004\005\b\t\n\013\f\r\016\017\000\000\000\000\000\000\000\001\004\005\b\t\n\013\f\r\016\017\000\000\000\000\002\003\004\005\b\t\n\013\f\r\016\017\000\000\000\000\000\001\002\003\004\005\b\t\n\013\f\r\016\017\000\000\006\007\b\t\n\013\f\r\016\017\000\000\000\000\000\000\000\001\006\007\b\t\n\013\f\r\016\017\000\000\000\000\002\003\006\007\b\t\n\013\f\r\016\017\000\000\000\000\000\001\002\003\006\007\b\t\n\013\f\r\016\017\000\000\004\005\006\007\b\t\n\013\f\r\016\017\000\000\000\000\000\001\004\005\006\007\b\t\n\013\f\r\016\017\000\000\002\003\004\005\006\007\b\t\n\013\f\r\016\017\000\000\000\001\002\003\004\005\006\007\b\t\n\013\f\r\016\017"
	.size	.Lstatic.13, 4096

	.type	.Lstatic.25,@object
	.section	.rodata..Lstatic.25,"a",@progbits
.Lstatic.25:
	.ascii	"usage: "
	.size	.Lstatic.25, 7

	.type	.Lstatic.26,@object
	.section	.rodata..Lstatic.26,"a",@progbits
.Lstatic.26:
	.ascii	": read failed\n"
	.size	.Lstatic.26, 14

	.type	.Lstatic.27,@object
	.section	.rodata..Lstatic.27,"a",@progbits
.Lstatic.27:
	.ascii	": write failed\n"
	.size	.Lstatic.27, 15

	.type	.Lstatic.28,@object
	.section	.rodata.cst16,"aM",@progbits,16
.Lstatic.28:
	.ascii	": out of memory\n"
	.size	.Lstatic.28, 16

	.type	.Lstatic.29,@object
	.section	.rodata..Lstatic.29,"a",@progbits
.Lstatic.29:
	.ascii	": input too long\n"
	.size	.Lstatic.29, 17

	.type	.Lstatic.31,@object
	.section	.rodata..Lstatic.31,"a",@progbits
.Lstatic.31:
	.ascii	" le|be|le-bom|be-bom\n"
	.size	.Lstatic.31, 21

	.type	.Lstatic.33,@object
	.section	.rodata..Lstatic.33,"a",@progbits
.Lstatic.33:
	.ascii	"utf16_enc"
	.size	.Lstatic.33, 9

	.ident	"rattle logic=dac8208d650f15bf3e2dc313a14fa4c783a3acf887bdfab66e1714b038d9e11b"
	.section	".note.GNU-stack","",@progbits
