/* SPDX-License-Identifier: MIT OR Apache-2.0
 * utf16_check 0.2.0, as assembly for Linux on ARM64. packaging/assembly
 * wrote it from the code that rt proved in logic dac8208d650f15bf: do not edit it. */
	.section	.note.gnu.property,"a",@note
	.p2align	3, 0x0
	.word	4
	.word	16
	.word	5
	.asciz	"GNU"
	.word	3221225472
	.word	4
	.word	1
	.word	0
.Lsec_end0:
	.text
	.section	".text.unlikely.std_alloc::vec::Vec::grow_amortized::<#582fc6be45daf619>","ax",@progbits
	.p2align	2
	.type	"std_alloc::vec::Vec::grow_amortized::<#582fc6be45daf619>",@function
"std_alloc::vec::Vec::grow_amortized::<#582fc6be45daf619>":
	.cfi_startproc
	ldr	x8, [x0, #8]
	cmn	x8, x1
	b.lo	.LBB0_2
	mov	w0, wzr
	ret
.LBB0_2:
	stp	x29, x30, [sp, #-32]!
	.cfi_def_cfa_offset 32
	stp	x20, x19, [sp, #16]
	mov	x29, sp
	.cfi_def_cfa w29, 32
	.cfi_offset w19, -8
	.cfi_offset w20, -16
	.cfi_offset w30, -24
	.cfi_offset w29, -32
	.cfi_remember_state
	ldr	x10, [x0, #16]
	add	x9, x8, x1
	mov	w11, #8
	cmp	x9, #8
	lsl	x12, x10, #1
	csel	x11, x9, x11, hi
	lsr	x13, x10, #62
	cmp	x11, x12
	csel	x9, x11, x12, hi
	cmp	x13, #0
	csel	x19, x9, x11, eq
	tbnz	x19, #63, .LBB0_7
	cbz	x10, .LBB0_6
	mov	x20, x0
	ldr	x0, [x0]
	mov	x1, x8
	mov	x2, x19
	mov	w3, #1
	bl	rattle_realloc
	tbz	w0, #0, .LBB0_7
.LBB0_5:
	mov	w0, #1
	str	x1, [x20]
	str	x19, [x20, #16]
	.cfi_def_cfa wsp, 32
	ldp	x20, x19, [sp, #16]
	ldp	x29, x30, [sp], #32
	.cfi_def_cfa_offset 0
	.cfi_restore w19
	.cfi_restore w20
	.cfi_restore w30
	.cfi_restore w29
	ret
.LBB0_6:
	.cfi_restore_state
	mov	x20, x0
	mov	x0, x9
	mov	w1, #1
	bl	rattle_alloc
	tbnz	w0, #0, .LBB0_5
.LBB0_7:
	mov	w0, wzr
	.cfi_def_cfa wsp, 32
	ldp	x20, x19, [sp, #16]
	ldp	x29, x30, [sp], #32
	.cfi_def_cfa_offset 0
	.cfi_restore w19
	.cfi_restore w20
	.cfi_restore w30
	.cfi_restore w29
	ret
.Lfunc_end0:
	.size	"std_alloc::vec::Vec::grow_amortized::<#582fc6be45daf619>", .Lfunc_end0-"std_alloc::vec::Vec::grow_amortized::<#582fc6be45daf619>"
	.cfi_endproc

	.section	".text.core::str::utf8::from_utf8","ax",@progbits
	.p2align	2
	.type	"core::str::utf8::from_utf8",@function
"core::str::utf8::from_utf8":
	.cfi_startproc
	sub	sp, sp, #64
	.cfi_def_cfa_offset 64
	stp	x29, x30, [sp, #16]
	stp	x22, x21, [sp, #32]
	stp	x20, x19, [sp, #48]
	add	x29, sp, #16
	.cfi_def_cfa w29, 48
	.cfi_offset w19, -8
	.cfi_offset w20, -16
	.cfi_offset w21, -24
	.cfi_offset w22, -32
	.cfi_offset w30, -40
	.cfi_offset w29, -48
	.cfi_remember_state
	mov	x20, x2
	mov	x21, x1
	mov	x19, x0
	cbz	x2, .LBB1_51
	mov	x9, xzr
	sub	x22, x20, #8
	b	.LBB1_6
.LBB1_2:
	and	w11, w11, #0xff
	tbnz	w11, #7, .LBB1_23
.LBB1_3:
	mov	w12, #1
.LBB1_4:
	add	x8, x12, x9
.LBB1_5:
	cmp	x8, x20
	mov	x9, x8
	b.hs	.LBB1_51
.LBB1_6:
	add	x8, x21, x9
	sub	x10, x20, x9
	ldrsb	w11, [x8]
	cmp	x10, #2
	b.lo	.LBB1_2
	tbnz	w11, #31, .LBB1_2
	ldrsb	w11, [x8, #1]
	tbnz	w11, #31, .LBB1_3
	cmp	x10, #7
	stp	x21, x20, [sp]
	b.hi	.LBB1_28
	ldrsb	w8, [x21, x9]
	tbnz	w8, #31, .LBB1_43
	add	x8, x9, #1
	cmp	x8, x20
	b.eq	.LBB1_51
	ldrsb	w10, [x21, x8]
	tbnz	w10, #31, .LBB1_5
	add	x8, x9, #2
	cmp	x8, x20
	b.eq	.LBB1_51
	ldrsb	w10, [x21, x8]
	tbnz	w10, #31, .LBB1_5
	add	x8, x9, #3
	cmp	x8, x20
	b.eq	.LBB1_51
	ldrsb	w10, [x21, x8]
	tbnz	w10, #31, .LBB1_5
	add	x8, x9, #4
	cmp	x8, x20
	b.eq	.LBB1_51
	ldrsb	w10, [x21, x8]
	tbnz	w10, #31, .LBB1_5
	add	x8, x9, #5
	cmp	x8, x20
	b.eq	.LBB1_51
	ldrsb	w10, [x21, x8]
	tbnz	w10, #31, .LBB1_5
	add	x8, x9, #6
	cmp	x8, x20
	b.eq	.LBB1_51
	ldrsb	w9, [x21, x8]
	tbnz	w9, #31, .LBB1_5
	b	.LBB1_51
.LBB1_23:
	cmp	w11, #194
	b.lo	.LBB1_59
	cmp	w11, #223
	b.hi	.LBB1_36
	cmp	x10, #2
	b.lo	.LBB1_58
	ldrsb	w12, [x8, #1]
	cmn	w12, #65
	b.gt	.LBB1_55
	mov	w12, #2
	b	.LBB1_4
.LBB1_28:
	ldr	x8, [x8]
	mov	w10, #8
	ands	x8, x8, #0x8080808080808080
	rbit	x8, x8
	clz	x8, x8
	lsr	x8, x8, #3
	csel	x8, x10, x8, eq
	add	x8, x8, x9
	add	x9, x9, #8
	cmp	x8, x9
	b.lo	.LBB1_5
	sub	x9, x20, x8
	cmp	x9, #32
	b.lo	.LBB1_32
.LBB1_30:
	add	x9, x21, x8
	ldp	q1, q0, [x9]
	orr	v0.16b, v1.16b, v0.16b
	ext	v1.16b, v0.16b, v0.16b, #8
	orr	v0.8b, v0.8b, v1.8b
	fmov	x9, d0
	tst	x9, #0x8080808080808080
	b.ne	.LBB1_32
	mov	x0, sp
	add	x1, x8, #32
	mov	x2, x20
	bl	"core::slice::words::skip_far::<#52f9edcae2f82f51>"
	sub	x9, x20, x0
	mov	x8, x0
	cmp	x9, #31
	b.hi	.LBB1_30
.LBB1_32:
	sub	x9, x20, x8
.LBB1_33:
	cmp	x9, #9
	b.lo	.LBB1_50
	ldr	x10, [x21, x8]
	mov	w11, #8
	sub	x9, x9, #8
	ands	x10, x10, #0x8080808080808080
	rbit	x10, x10
	clz	x10, x10
	lsr	x10, x10, #3
	csel	x10, x11, x10, eq
	add	x11, x10, x8
	add	x8, x8, #8
	cmp	x11, x8
	b.hs	.LBB1_33
	add	x8, x10, x8
	sub	x8, x8, #8
	b	.LBB1_5
.LBB1_36:
	cmp	w11, #239
	b.hi	.LBB1_44
	cmp	x10, #3
	b.lo	.LBB1_53
	ldrsb	w12, [x8, #1]
	cmn	w12, #65
	b.gt	.LBB1_55
	ldrsb	w13, [x8, #2]
	cmn	w13, #65
	b.gt	.LBB1_55
	and	w13, w12, #0xff
	mov	w14, #-14464
	add	w13, w13, w11, lsl #6
	add	w13, w13, w14
	cmp	w13, #32
	b.lo	.LBB1_55
	cmp	w13, #896
	mov	w12, #3
	csel	x14, xzr, x12, lo
	cmp	w13, #864
	b.lo	.LBB1_4
	mov	x12, x14
	b	.LBB1_49
.LBB1_43:
	mov	x8, x9
	b	.LBB1_5
.LBB1_44:
	cmp	x10, #4
	b.lo	.LBB1_52
	ldrsb	w12, [x8, #1]
	cmn	w12, #65
	b.gt	.LBB1_52
	ldrsb	w13, [x8, #2]
	cmn	w13, #65
	b.gt	.LBB1_52
	ldrsb	w13, [x8, #3]
	cmn	w13, #65
	b.gt	.LBB1_52
	and	w12, w12, #0xff
	mov	w13, #-15488
	add	w12, w12, w11, lsl #6
	add	w13, w12, w13
	mov	w12, #4
	cmp	w13, #272
	csel	x12, x12, xzr, lo
	cmp	w13, #16
	b.lo	.LBB1_52
.LBB1_49:
	cbnz	x12, .LBB1_4
	b	.LBB1_52
.LBB1_50:
	ldr	x8, [x21, x22]
	mov	w9, #8
	ands	x8, x8, #0x8080808080808080
	rbit	x8, x8
	clz	x8, x8
	lsr	x8, x8, #3
	csel	x8, x9, x8, eq
	add	x8, x8, x22
	b	.LBB1_5
.LBB1_51:
	stp	xzr, x21, [x19]
	str	x20, [x19, #16]
	.cfi_def_cfa wsp, 64
	ldp	x20, x19, [sp, #48]
	ldp	x22, x21, [sp, #32]
	ldp	x29, x30, [sp, #16]
	add	sp, sp, #64
	.cfi_def_cfa_offset 0
	.cfi_restore w19
	.cfi_restore w20
	.cfi_restore w21
	.cfi_restore w22
	.cfi_restore w30
	.cfi_restore w29
	ret
.LBB1_52:
	.cfi_restore_state
	.cfi_remember_state
	cmp	w11, #244
	b.hi	.LBB1_59
.LBB1_53:
	cmp	x10, #2
	b.lo	.LBB1_58
	ldrb	w12, [x8, #1]
.LBB1_55:
	cmp	w11, #240
	mov	w13, #-128
	mov	w14, #-112
	mov	w15, #-96
	csel	w13, w14, w13, eq
	cmp	w11, #224
	mov	w14, #-65
	csel	w13, w15, w13, eq
	mov	w15, #-113
	cmp	w11, #244
	and	w16, w13, #0xf0
	csel	w13, w15, w14, eq
	cmp	w11, #237
	mov	w11, #-97
	csel	w13, w11, w13, eq
	cmp	w16, w12, uxtb
	mov	w11, #257
	b.hi	.LBB1_60
	and	w12, w12, #0xff
	cmp	w12, w13, uxtb
	b.hi	.LBB1_60
	cmp	x10, #2
	b.ne	.LBB1_61
.LBB1_58:
	mov	x11, xzr
	b	.LBB1_60
.LBB1_59:
	mov	w11, #257
.LBB1_60:
	mov	w8, #1
	str	x11, [x19, #16]
	stp	x8, x9, [x19]
	.cfi_def_cfa wsp, 64
	ldp	x20, x19, [sp, #48]
	ldp	x22, x21, [sp, #32]
	ldp	x29, x30, [sp, #16]
	add	sp, sp, #64
	.cfi_def_cfa_offset 0
	.cfi_restore w19
	.cfi_restore w20
	.cfi_restore w21
	.cfi_restore w22
	.cfi_restore w30
	.cfi_restore w29
	ret
.LBB1_61:
	.cfi_restore_state
	ldrsb	w8, [x8, #2]
	cmn	w8, #65
	b.gt	.LBB1_63
	cmp	x10, #3
	mov	w8, #769
	csel	x11, x8, xzr, hi
	b	.LBB1_60
.LBB1_63:
	mov	w11, #513
	b	.LBB1_60
.Lfunc_end1:
	.size	"core::str::utf8::from_utf8", .Lfunc_end1-"core::str::utf8::from_utf8"
	.cfi_endproc

	.section	".text.core::slice::words::skip_far::<#52f9edcae2f82f51>","ax",@progbits
	.p2align	2
	.type	"core::slice::words::skip_far::<#52f9edcae2f82f51>",@function
"core::slice::words::skip_far::<#52f9edcae2f82f51>":
	.cfi_startproc
	sub	x8, x2, x1
	cmp	x8, #64
	b.lo	.LBB2_4
	ldr	x9, [x0]
.LBB2_2:
	add	x10, x9, x1
	ldp	q0, q1, [x10, #32]
	ldp	q2, q3, [x10]
	orr	v1.16b, v3.16b, v1.16b
	orr	v0.16b, v2.16b, v0.16b
	orr	v0.16b, v0.16b, v1.16b
	ext	v1.16b, v0.16b, v0.16b, #8
	orr	v0.8b, v0.8b, v1.8b
	fmov	x10, d0
	tst	x10, #0x8080808080808080
	b.ne	.LBB2_4
	sub	x8, x8, #64
	add	x1, x1, #64
	cmp	x8, #63
	b.hi	.LBB2_2
.LBB2_4:
	mov	x0, x1
	ret
.Lfunc_end2:
	.size	"core::slice::words::skip_far::<#52f9edcae2f82f51>", .Lfunc_end2-"core::slice::words::skip_far::<#52f9edcae2f82f51>"
	.cfi_endproc

	.section	".text.unlikely.std_alloc::vec::Vec::grow_amortized::<#c6aca457386e9665>","ax",@progbits
	.p2align	2
	.type	"std_alloc::vec::Vec::grow_amortized::<#c6aca457386e9665>",@function
"std_alloc::vec::Vec::grow_amortized::<#c6aca457386e9665>":
	.cfi_startproc
	ldr	x8, [x0, #8]
	cmn	x8, #1
	b.eq	.LBB3_5
	stp	x29, x30, [sp, #-32]!
	.cfi_def_cfa_offset 32
	stp	x20, x19, [sp, #16]
	mov	x29, sp
	.cfi_def_cfa w29, 32
	.cfi_offset w19, -8
	.cfi_offset w20, -16
	.cfi_offset w30, -24
	.cfi_offset w29, -32
	.cfi_remember_state
	ldr	x9, [x0, #16]
	cmp	x8, #3
	mov	w10, #3
	csel	x11, x8, x10, hi
	lsl	x10, x9, #1
	add	x12, x11, #1
	lsr	x13, x9, #62
	cmp	x12, x10
	csinc	x10, x10, x11, ls
	cmp	x13, #0
	csinc	x19, x10, x11, eq
	mov	x11, #6148914691236517205
	movk	x11, #1365, lsl #48
	cmp	x19, x11
	b.hi	.LBB3_7
	cbz	x9, .LBB3_6
	add	x8, x8, x8, lsl #1
	add	x9, x19, x19, lsl #1
	mov	x20, x0
	ldr	x0, [x0]
	mov	w3, #8
	lsl	x1, x8, #3
	lsl	x2, x9, #3
	bl	rattle_realloc
	tbz	w0, #0, .LBB3_7
.LBB3_4:
	mov	w0, #1
	str	x1, [x20]
	str	x19, [x20, #16]
	.cfi_def_cfa wsp, 32
	ldp	x20, x19, [sp, #16]
	ldp	x29, x30, [sp], #32
	.cfi_def_cfa_offset 0
	.cfi_restore w19
	.cfi_restore w20
	.cfi_restore w30
	.cfi_restore w29
	ret
.LBB3_5:
	mov	w0, wzr
	ret
.LBB3_6:
	.cfi_restore_state
	add	x8, x10, x10, lsl #1
	mov	x20, x0
	mov	w1, #8
	lsl	x0, x8, #3
	bl	rattle_alloc
	tbnz	w0, #0, .LBB3_4
.LBB3_7:
	mov	w0, wzr
	.cfi_def_cfa wsp, 32
	ldp	x20, x19, [sp, #16]
	ldp	x29, x30, [sp], #32
	.cfi_def_cfa_offset 0
	.cfi_restore w19
	.cfi_restore w20
	.cfi_restore w30
	.cfi_restore w29
	ret
.Lfunc_end3:
	.size	"std_alloc::vec::Vec::grow_amortized::<#c6aca457386e9665>", .Lfunc_end3-"std_alloc::vec::Vec::grow_amortized::<#c6aca457386e9665>"
	.cfi_endproc

	.section	".text.std_io::io::error::last_error","ax",@progbits
	.p2align	2
	.type	"std_io::io::error::last_error",@function
"std_io::io::error::last_error":
	.cfi_startproc
	stp	x29, x30, [sp, #-32]!
	.cfi_def_cfa_offset 32
	str	x19, [sp, #16]
	mov	x29, sp
	.cfi_def_cfa w29, 32
	.cfi_offset w19, -16
	.cfi_offset w30, -24
	.cfi_offset w29, -32
	.cfi_remember_state
	mov	x19, x0
	bl	rattle_errno
	tbnz	w0, #31, .LBB4_4
	sub	w8, w0, #1
	cmp	w8, #121
	b.hi	.LBB4_4
	adrp	x9, .LJTI4_0
	add	x9, x9, :lo12:.LJTI4_0
	adr	x10, .LBB4_3
	ldrb	w11, [x9, x8]
	add	x10, x10, x11, lsl #2
	mov	w8, #1
	br	x10
.LBB4_3:
	hint	#36
	mov	w8, #36
	b	.LBB4_5
.LBB4_4:
	hint	#36
	mov	w8, #41
.LBB4_5:
	hint	#36
	movi	v0.2d, #0000000000000000
	strb	wzr, [x19]
	strb	w8, [x19, #1]
	strh	wzr, [x19, #2]
	str	w0, [x19, #4]
	stur	q0, [x19, #8]
	stur	q0, [x19, #24]
	stur	q0, [x19, #40]
	stur	q0, [x19, #56]
	stur	q0, [x19, #72]
	.cfi_def_cfa wsp, 32
	ldr	x19, [sp, #16]
	ldp	x29, x30, [sp], #32
	.cfi_def_cfa_offset 0
	.cfi_restore w19
	.cfi_restore w30
	.cfi_restore w29
	ret
.LBB4_6:
	.cfi_restore_state
	hint	#36
	mov	w8, #4
	b	.LBB4_5
.LBB4_7:
	hint	#36
	mov	w8, #7
	b	.LBB4_5
.LBB4_8:
	hint	#36
	mov	w8, #26
	b	.LBB4_5
.LBB4_9:
	hint	#36
	mov	w8, #39
	b	.LBB4_5
.LBB4_10:
	hint	#36
	mov	w8, #9
	b	.LBB4_5
.LBB4_11:
	hint	#36
	mov	w8, #8
	b	.LBB4_5
.LBB4_12:
	hint	#36
	mov	w8, #30
	b	.LBB4_5
.LBB4_13:
	hint	#36
	mov	w8, #25
	b	.LBB4_5
.LBB4_14:
	hint	#36
	mov	w8, #32
	b	.LBB4_5
.LBB4_15:
	hint	#36
	mov	w8, #33
	b	.LBB4_5
.LBB4_16:
	hint	#36
	mov	w8, #22
	b	.LBB4_5
.LBB4_17:
	hint	#36
	mov	w8, #31
	b	.LBB4_5
.LBB4_18:
	hint	#36
	mov	w8, #29
	b	.LBB4_5
.LBB4_19:
	hint	#36
	mov	w8, #18
	b	.LBB4_5
.LBB4_20:
	hint	#36
	mov	w8, #10
	b	.LBB4_5
.LBB4_21:
	hint	#36
	mov	w8, #28
	b	.LBB4_5
.LBB4_22:
	hint	#36
	mov	w8, #14
	b	.LBB4_5
.LBB4_23:
	hint	#36
	mov	w8, #12
	b	.LBB4_5
.LBB4_24:
	hint	#36
	mov	w8, #5
	b	.LBB4_5
.LBB4_25:
	hint	#36
	mov	w8, #3
	b	.LBB4_5
.LBB4_26:
	hint	#36
	mov	w8, wzr
	b	.LBB4_5
.LBB4_27:
	hint	#36
	mov	w8, #13
	b	.LBB4_5
.LBB4_28:
	hint	#36
	mov	w8, #38
	b	.LBB4_5
.LBB4_29:
	hint	#36
	mov	w8, #11
	b	.LBB4_5
.LBB4_30:
	hint	#36
	mov	w8, #35
	b	.LBB4_5
.LBB4_31:
	hint	#36
	mov	w8, #34
	b	.LBB4_5
.LBB4_32:
	hint	#36
	mov	w8, #20
	b	.LBB4_5
.LBB4_33:
	hint	#36
	mov	w8, #15
	b	.LBB4_5
.LBB4_34:
	hint	#36
	mov	w8, #19
	b	.LBB4_5
.LBB4_35:
	hint	#36
	mov	w8, #16
	b	.LBB4_5
.LBB4_36:
	hint	#36
	mov	w8, #6
	b	.LBB4_5
.LBB4_37:
	hint	#36
	mov	w8, #27
	b	.LBB4_5
.LBB4_38:
	hint	#36
	mov	w8, #24
	b	.LBB4_5
.LBB4_39:
	hint	#36
	mov	w8, #2
	b	.LBB4_5
.LBB4_40:
	hint	#36
	mov	w8, #17
	b	.LBB4_5
.Lfunc_end4:
	.size	"std_io::io::error::last_error", .Lfunc_end4-"std_io::io::error::last_error"
	.cfi_endproc
	.section	".rodata.std_io::io::error::last_error","a",@progbits
.LJTI4_0:
	.byte	(.LBB4_5-.LBB4_3)>>2
	.byte	(.LBB4_26-.LBB4_3)>>2
	.byte	(.LBB4_4-.LBB4_3)>>2
	.byte	(.LBB4_30-.LBB4_3)>>2
	.byte	(.LBB4_4-.LBB4_3)>>2
	.byte	(.LBB4_4-.LBB4_3)>>2
	.byte	(.LBB4_31-.LBB4_3)>>2
	.byte	(.LBB4_4-.LBB4_3)>>2
	.byte	(.LBB4_4-.LBB4_3)>>2
	.byte	(.LBB4_4-.LBB4_3)>>2
	.byte	(.LBB4_27-.LBB4_3)>>2
	.byte	(.LBB4_28-.LBB4_3)>>2
	.byte	(.LBB4_5-.LBB4_3)>>2
	.byte	(.LBB4_4-.LBB4_3)>>2
	.byte	(.LBB4_4-.LBB4_3)>>2
	.byte	(.LBB4_21-.LBB4_3)>>2
	.byte	(.LBB4_23-.LBB4_3)>>2
	.byte	(.LBB4_17-.LBB4_3)>>2
	.byte	(.LBB4_4-.LBB4_3)>>2
	.byte	(.LBB4_22-.LBB4_3)>>2
	.byte	(.LBB4_33-.LBB4_3)>>2
	.byte	(.LBB4_32-.LBB4_3)>>2
	.byte	(.LBB4_4-.LBB4_3)>>2
	.byte	(.LBB4_4-.LBB4_3)>>2
	.byte	(.LBB4_4-.LBB4_3)>>2
	.byte	(.LBB4_18-.LBB4_3)>>2
	.byte	(.LBB4_37-.LBB4_3)>>2
	.byte	(.LBB4_38-.LBB4_3)>>2
	.byte	(.LBB4_13-.LBB4_3)>>2
	.byte	(.LBB4_40-.LBB4_3)>>2
	.byte	(.LBB4_14-.LBB4_3)>>2
	.byte	(.LBB4_29-.LBB4_3)>>2
	.byte	(.LBB4_4-.LBB4_3)>>2
	.byte	(.LBB4_4-.LBB4_3)>>2
	.byte	(.LBB4_12-.LBB4_3)>>2
	.byte	(.LBB4_15-.LBB4_3)>>2
	.byte	(.LBB4_4-.LBB4_3)>>2
	.byte	(.LBB4_3-.LBB4_3)>>2
	.byte	(.LBB4_35-.LBB4_3)>>2
	.byte	(.LBB4_19-.LBB4_3)>>2
	.byte	(.LBB4_4-.LBB4_3)>>2
	.byte	(.LBB4_4-.LBB4_3)>>2
	.byte	(.LBB4_4-.LBB4_3)>>2
	.byte	(.LBB4_4-.LBB4_3)>>2
	.byte	(.LBB4_4-.LBB4_3)>>2
	.byte	(.LBB4_4-.LBB4_3)>>2
	.byte	(.LBB4_4-.LBB4_3)>>2
	.byte	(.LBB4_4-.LBB4_3)>>2
	.byte	(.LBB4_4-.LBB4_3)>>2
	.byte	(.LBB4_4-.LBB4_3)>>2
	.byte	(.LBB4_4-.LBB4_3)>>2
	.byte	(.LBB4_4-.LBB4_3)>>2
	.byte	(.LBB4_4-.LBB4_3)>>2
	.byte	(.LBB4_4-.LBB4_3)>>2
	.byte	(.LBB4_4-.LBB4_3)>>2
	.byte	(.LBB4_4-.LBB4_3)>>2
	.byte	(.LBB4_4-.LBB4_3)>>2
	.byte	(.LBB4_4-.LBB4_3)>>2
	.byte	(.LBB4_4-.LBB4_3)>>2
	.byte	(.LBB4_4-.LBB4_3)>>2
	.byte	(.LBB4_4-.LBB4_3)>>2
	.byte	(.LBB4_4-.LBB4_3)>>2
	.byte	(.LBB4_4-.LBB4_3)>>2
	.byte	(.LBB4_4-.LBB4_3)>>2
	.byte	(.LBB4_4-.LBB4_3)>>2
	.byte	(.LBB4_4-.LBB4_3)>>2
	.byte	(.LBB4_4-.LBB4_3)>>2
	.byte	(.LBB4_4-.LBB4_3)>>2
	.byte	(.LBB4_4-.LBB4_3)>>2
	.byte	(.LBB4_4-.LBB4_3)>>2
	.byte	(.LBB4_4-.LBB4_3)>>2
	.byte	(.LBB4_4-.LBB4_3)>>2
	.byte	(.LBB4_4-.LBB4_3)>>2
	.byte	(.LBB4_4-.LBB4_3)>>2
	.byte	(.LBB4_4-.LBB4_3)>>2
	.byte	(.LBB4_4-.LBB4_3)>>2
	.byte	(.LBB4_4-.LBB4_3)>>2
	.byte	(.LBB4_4-.LBB4_3)>>2
	.byte	(.LBB4_4-.LBB4_3)>>2
	.byte	(.LBB4_4-.LBB4_3)>>2
	.byte	(.LBB4_4-.LBB4_3)>>2
	.byte	(.LBB4_4-.LBB4_3)>>2
	.byte	(.LBB4_4-.LBB4_3)>>2
	.byte	(.LBB4_4-.LBB4_3)>>2
	.byte	(.LBB4_4-.LBB4_3)>>2
	.byte	(.LBB4_4-.LBB4_3)>>2
	.byte	(.LBB4_4-.LBB4_3)>>2
	.byte	(.LBB4_4-.LBB4_3)>>2
	.byte	(.LBB4_4-.LBB4_3)>>2
	.byte	(.LBB4_4-.LBB4_3)>>2
	.byte	(.LBB4_4-.LBB4_3)>>2
	.byte	(.LBB4_4-.LBB4_3)>>2
	.byte	(.LBB4_4-.LBB4_3)>>2
	.byte	(.LBB4_4-.LBB4_3)>>2
	.byte	(.LBB4_3-.LBB4_3)>>2
	.byte	(.LBB4_4-.LBB4_3)>>2
	.byte	(.LBB4_4-.LBB4_3)>>2
	.byte	(.LBB4_11-.LBB4_3)>>2
	.byte	(.LBB4_10-.LBB4_3)>>2
	.byte	(.LBB4_20-.LBB4_3)>>2
	.byte	(.LBB4_24-.LBB4_3)>>2
	.byte	(.LBB4_4-.LBB4_3)>>2
	.byte	(.LBB4_36-.LBB4_3)>>2
	.byte	(.LBB4_25-.LBB4_3)>>2
	.byte	(.LBB4_4-.LBB4_3)>>2
	.byte	(.LBB4_4-.LBB4_3)>>2
	.byte	(.LBB4_7-.LBB4_3)>>2
	.byte	(.LBB4_4-.LBB4_3)>>2
	.byte	(.LBB4_4-.LBB4_3)>>2
	.byte	(.LBB4_16-.LBB4_3)>>2
	.byte	(.LBB4_39-.LBB4_3)>>2
	.byte	(.LBB4_4-.LBB4_3)>>2
	.byte	(.LBB4_6-.LBB4_3)>>2
	.byte	(.LBB4_4-.LBB4_3)>>2
	.byte	(.LBB4_9-.LBB4_3)>>2
	.byte	(.LBB4_34-.LBB4_3)>>2
	.byte	(.LBB4_4-.LBB4_3)>>2
	.byte	(.LBB4_4-.LBB4_3)>>2
	.byte	(.LBB4_4-.LBB4_3)>>2
	.byte	(.LBB4_4-.LBB4_3)>>2
	.byte	(.LBB4_4-.LBB4_3)>>2
	.byte	(.LBB4_8-.LBB4_3)>>2

	.section	.rodata.cst16,"aM",@progbits,16
	.p2align	4, 0x0
.LCPI5_0:
	.byte	1
	.byte	2
	.byte	4
	.byte	8
	.byte	16
	.byte	32
	.byte	64
	.byte	128
	.byte	1
	.byte	2
	.byte	4
	.byte	8
	.byte	16
	.byte	32
	.byte	64
	.byte	128
	.section	".text.utf16_units::validate::valid_len::<#8b18edd9dd9aa8df>","ax",@progbits
	.p2align	2
	.type	"utf16_units::validate::valid_len::<#8b18edd9dd9aa8df>",@function
"utf16_units::validate::valid_len::<#8b18edd9dd9aa8df>":
	.cfi_startproc
	cmp	x1, #32
	b.hs	.LBB5_9
	mov	x8, xzr
	cbnz	x1, .LBB5_3
	b	.LBB5_46
.LBB5_2:
	mov	w9, #2
	add	x8, x9, x8
	cmp	x8, x1
	b.hs	.LBB5_46
.LBB5_3:
	sub	x10, x1, x8
	cmp	x10, #2
	b.lo	.LBB5_46
	add	x9, x0, x8
	ldrb	w11, [x9]
	and	w12, w11, #0xf8
	cmp	w12, #216
	b.ne	.LBB5_2
	cmp	x10, #4
	b.lo	.LBB5_46
	mov	w10, #220
	and	w10, w11, w10
	cmp	w10, #220
	b.eq	.LBB5_46
	ldrb	w9, [x9, #2]
	and	w9, w9, #0xfc
	cmp	w9, #220
	b.ne	.LBB5_46
	mov	w9, #4
	add	x8, x9, x8
	cmp	x8, x1
	b.lo	.LBB5_3
	b	.LBB5_46
.LBB5_9:
	cmp	x1, #64
	adrp	x9, .LCPI5_0
	mov	x10, xzr
	b.lo	.LBB5_19
	and	x8, x1, #0xffffffffffffff80
	mov	x11, x1
	b	.LBB5_13
.LBB5_11:
	sub	x10, x10, #64
.LBB5_12:
	sub	x11, x1, x10
	cmp	x11, #63
	b.ls	.LBB5_29
.LBB5_13:
	add	x12, x0, x10
	ldp	q1, q0, [x12]
	ldp	q3, q2, [x12, #32]
	uzp1	v0.16b, v1.16b, v0.16b
	movi	v1.16b, #248
	uzp1	v2.16b, v3.16b, v2.16b
	movi	v3.16b, #216
	and	v0.16b, v0.16b, v1.16b
	and	v1.16b, v2.16b, v1.16b
	cmeq	v2.16b, v0.16b, v3.16b
	ldr	q0, [x9, :lo12:.LCPI5_0]
	cmeq	v1.16b, v1.16b, v3.16b
	and	v2.16b, v2.16b, v0.16b
	and	v1.16b, v1.16b, v0.16b
	addp	v1.16b, v2.16b, v1.16b
	addp	v1.16b, v1.16b, v1.16b
	addp	v1.16b, v1.16b, v1.16b
	fmov	w12, s1
	cbnz	w12, .LBB5_20
	add	x10, x10, #64
	cmp	x10, #256
	b.ne	.LBB5_12
	cmp	x8, #256
	b.eq	.LBB5_12
	mov	w10, #320
	sub	x11, x1, #256
.LBB5_17:
	add	x12, x0, x10
	ldp	q2, q1, [x12, #-64]
	ldp	q4, q3, [x12, #-32]
	ldp	q6, q5, [x12]
	ldp	q16, q7, [x12, #32]
	uzp1	v1.16b, v2.16b, v1.16b
	movi	v2.16b, #248
	uzp1	v3.16b, v4.16b, v3.16b
	uzp1	v5.16b, v6.16b, v5.16b
	movi	v6.16b, #216
	uzp1	v4.16b, v16.16b, v7.16b
	and	v1.16b, v1.16b, v2.16b
	and	v3.16b, v3.16b, v2.16b
	and	v5.16b, v5.16b, v2.16b
	and	v2.16b, v4.16b, v2.16b
	cmeq	v1.16b, v1.16b, v6.16b
	cmeq	v3.16b, v3.16b, v6.16b
	cmeq	v4.16b, v5.16b, v6.16b
	cmeq	v2.16b, v2.16b, v6.16b
	and	v1.16b, v1.16b, v0.16b
	and	v3.16b, v3.16b, v0.16b
	and	v4.16b, v4.16b, v0.16b
	and	v2.16b, v2.16b, v0.16b
	addp	v1.16b, v1.16b, v3.16b
	addp	v2.16b, v4.16b, v2.16b
	addp	v1.16b, v1.16b, v1.16b
	addp	v2.16b, v2.16b, v2.16b
	addp	v1.16b, v1.16b, v1.16b
	addp	v2.16b, v2.16b, v2.16b
	orr	v1.16b, v2.16b, v1.16b
	fmov	w12, s1
	cbnz	w12, .LBB5_11
	sub	x11, x11, #128
	add	x10, x10, #128
	cmp	x11, #127
	b.hi	.LBB5_17
	b	.LBB5_11
.LBB5_19:
	mov	w8, wzr
	b	.LBB5_30
.LBB5_20:
	cmp	x11, #64
	b.ne	.LBB5_45
.LBB5_21:
	mov	w8, wzr
	b	.LBB5_23
.LBB5_22:
	lsr	w8, w12, #31
	cmp	x11, #63
	b.ls	.LBB5_51
.LBB5_23:
	add	x11, x0, x10
	ldp	q2, q1, [x11]
	ldp	q4, q3, [x11, #32]
	uzp1	v1.16b, v2.16b, v1.16b
	movi	v2.16b, #252
	uzp1	v3.16b, v4.16b, v3.16b
	movi	v4.16b, #216
	and	v1.16b, v1.16b, v2.16b
	and	v2.16b, v3.16b, v2.16b
	movi	v3.16b, #220
	cmeq	v5.16b, v2.16b, v4.16b
	cmeq	v4.16b, v1.16b, v4.16b
	cmeq	v2.16b, v2.16b, v3.16b
	cmeq	v1.16b, v1.16b, v3.16b
	and	v3.16b, v4.16b, v0.16b
	and	v4.16b, v5.16b, v0.16b
	and	v1.16b, v1.16b, v0.16b
	and	v2.16b, v2.16b, v0.16b
	addp	v3.16b, v3.16b, v4.16b
	addp	v1.16b, v1.16b, v2.16b
	addp	v2.16b, v3.16b, v3.16b
	addp	v1.16b, v1.16b, v1.16b
	addp	v2.16b, v2.16b, v2.16b
	addp	v1.16b, v1.16b, v1.16b
	fmov	w12, s2
	fmov	w13, s1
	lsl	w11, w12, #1
	bfxil	x11, x8, #0, #1
	cmp	x11, x13
	b.ne	.LBB5_51
	add	x10, x10, #64
	sub	x11, x1, x10
	cmp	x11, #64
	b.lo	.LBB5_22
	and	x8, x10, #0xff
	cbnz	x8, .LBB5_22
	cbnz	w12, .LBB5_22
.LBB5_27:
	add	x8, x0, x10
	ldp	q2, q1, [x8]
	ldp	q4, q3, [x8, #32]
	uzp1	v1.16b, v2.16b, v1.16b
	movi	v2.16b, #248
	uzp1	v3.16b, v4.16b, v3.16b
	movi	v4.16b, #216
	and	v1.16b, v1.16b, v2.16b
	and	v2.16b, v3.16b, v2.16b
	cmeq	v1.16b, v1.16b, v4.16b
	cmeq	v2.16b, v2.16b, v4.16b
	and	v1.16b, v1.16b, v0.16b
	and	v2.16b, v2.16b, v0.16b
	addp	v1.16b, v1.16b, v2.16b
	addp	v1.16b, v1.16b, v1.16b
	addp	v1.16b, v1.16b, v1.16b
	fmov	w8, s1
	cbnz	w8, .LBB5_22
	sub	x11, x11, #64
	add	x10, x10, #64
	cmp	x11, #63
	b.hi	.LBB5_27
.LBB5_29:
	mov	w8, wzr
	cmp	x11, #32
	b.lo	.LBB5_31
.LBB5_30:
	add	x11, x0, x10
	movi	v2.16b, #216
	ldr	q3, [x9, :lo12:.LCPI5_0]
	ldp	q1, q0, [x11]
	mov	w14, w8
	and	x14, x14, #0x1
	uzp1	v0.16b, v1.16b, v0.16b
	movi	v1.16b, #252
	and	v0.16b, v0.16b, v1.16b
	movi	v1.16b, #220
	cmeq	v2.16b, v0.16b, v2.16b
	cmeq	v0.16b, v0.16b, v1.16b
	and	v1.16b, v2.16b, v3.16b
	and	v0.16b, v0.16b, v3.16b
	addp	v1.16b, v1.16b, v1.16b
	addp	v0.16b, v0.16b, v0.16b
	addp	v1.16b, v1.16b, v1.16b
	addp	v0.16b, v0.16b, v0.16b
	addp	v1.16b, v1.16b, v1.16b
	addp	v0.16b, v0.16b, v0.16b
	umov	w11, v1.h[0]
	smov	w12, v1.h[0]
	umov	w13, v0.h[0]
	bfi	x14, x11, #1, #15
	cmp	w12, #0
	add	x11, x10, #32
	cset	w12, mi
	cmp	x14, w13, uxth
	csel	x10, x11, x10, eq
	csel	w8, w12, w8, eq
.LBB5_31:
	sub	x11, x10, #2
	tst	w8, #0x1
	csel	x8, x11, x10, ne
	sub	x10, x1, x8
	cmp	x10, #32
	b.hi	.LBB5_35
	sub	x10, x8, x1
	tbnz	w10, #0, .LBB5_36
	add	x11, x0, x1
	movi	v2.16b, #220
	movi	v3.16b, #216
	ldp	q1, q0, [x11, #-32]
	add	x10, x10, #32
	lsr	x10, x10, #1
	uzp1	v0.16b, v1.16b, v0.16b
	movi	v1.16b, #252
	and	v0.16b, v0.16b, v1.16b
	cmeq	v1.16b, v0.16b, v2.16b
	cmeq	v0.16b, v0.16b, v3.16b
	ldr	q2, [x9, :lo12:.LCPI5_0]
	and	v1.16b, v1.16b, v2.16b
	and	v0.16b, v0.16b, v2.16b
	addp	v1.16b, v1.16b, v1.16b
	addp	v0.16b, v0.16b, v0.16b
	addp	v1.16b, v1.16b, v1.16b
	addp	v0.16b, v0.16b, v0.16b
	addp	v1.16b, v1.16b, v1.16b
	addp	v0.16b, v0.16b, v0.16b
	umov	w9, v1.h[0]
	umov	w11, v0.h[0]
	lsr	x9, x9, x10
	lsr	x10, x11, x10
	cmp	x9, x10, lsl #1
	b.ne	.LBB5_36
	mov	x0, x1
	ret
.LBB5_35:
	cmp	x10, #64
	b.hs	.LBB5_37
.LBB5_36:
	add	x8, xzr, x8
	cmp	x8, x1
	b.lo	.LBB5_39
	b	.LBB5_46
.LBB5_37:
	add	x10, x0, x8
	ldp	q1, q0, [x10]
	ldp	q3, q2, [x10, #32]
	uzp1	v0.16b, v1.16b, v0.16b
	movi	v1.16b, #248
	uzp1	v2.16b, v3.16b, v2.16b
	movi	v3.16b, #216
	and	v0.16b, v0.16b, v1.16b
	and	v1.16b, v2.16b, v1.16b
	ldr	q2, [x9, :lo12:.LCPI5_0]
	cmeq	v0.16b, v0.16b, v3.16b
	cmeq	v1.16b, v1.16b, v3.16b
	and	v0.16b, v0.16b, v2.16b
	and	v1.16b, v1.16b, v2.16b
	addp	v0.16b, v0.16b, v1.16b
	addp	v0.16b, v0.16b, v0.16b
	addp	v0.16b, v0.16b, v0.16b
	fmov	w9, s0
	rbit	w9, w9
	clz	w9, w9
	lsl	w9, w9, #1
	add	x8, x9, x8
	cmp	x8, x1
	b.lo	.LBB5_39
	b	.LBB5_46
.LBB5_38:
	mov	w9, #2
	add	x8, x9, x8
	cmp	x8, x1
	b.hs	.LBB5_46
.LBB5_39:
	sub	x10, x1, x8
	cmp	x10, #2
	b.lo	.LBB5_46
	add	x9, x0, x8
	ldrb	w11, [x9]
	and	w12, w11, #0xf8
	cmp	w12, #216
	b.ne	.LBB5_38
	cmp	x10, #4
	b.lo	.LBB5_46
	mov	w10, #220
	and	w10, w11, w10
	cmp	w10, #220
	b.eq	.LBB5_46
	ldrb	w9, [x9, #2]
	and	w9, w9, #0xfc
	cmp	w9, #220
	b.ne	.LBB5_46
	mov	w9, #4
	add	x8, x9, x8
	cmp	x8, x1
	b.lo	.LBB5_39
	b	.LBB5_46
.LBB5_45:
	rbit	w8, w12
	clz	w8, w8
	lsl	w8, w8, #1
	add	x8, x10, x8
	sub	x12, x1, x8
	cmp	x12, #2
	b.hs	.LBB5_47
.LBB5_46:
	mov	x0, x8
	ret
.LBB5_47:
	add	x11, x0, x8
	ldrb	w13, [x11]
	and	w14, w13, #0xf8
	cmp	w14, #216
	b.ne	.LBB5_21
	cmp	x12, #4
	b.lo	.LBB5_46
	mov	w12, #220
	and	w12, w13, w12
	cmp	w12, #220
	b.eq	.LBB5_46
	ldrb	w11, [x11, #2]
	and	w11, w11, #0xfc
	cmp	w11, #220
	b.eq	.LBB5_21
	b	.LBB5_46
.LBB5_51:
	sub	x11, x1, x10
	cmp	x11, #32
	b.hs	.LBB5_30
	b	.LBB5_31
.Lfunc_end5:
	.size	"utf16_units::validate::valid_len::<#8b18edd9dd9aa8df>", .Lfunc_end5-"utf16_units::validate::valid_len::<#8b18edd9dd9aa8df>"
	.cfi_endproc

	.section	".text.utf16_units::validate::error_len::<#8b18edd9dd9aa8df>","ax",@progbits
	.p2align	2
	.type	"utf16_units::validate::error_len::<#8b18edd9dd9aa8df>",@function
"utf16_units::validate::error_len::<#8b18edd9dd9aa8df>":
	.cfi_startproc
	cmp	x1, #2
	b.lo	.LBB6_5
	ldrb	w8, [x0]
	and	w9, w8, #0xf8
	cmp	w9, #216
	b.ne	.LBB6_5
	mov	w9, #220
	bics	wzr, w9, w8
	b.ne	.LBB6_4
	mov	w0, #1
	ret
.LBB6_4:
	cmp	x1, #4
	b.hs	.LBB6_6
.LBB6_5:
	mov	w0, wzr
	ret
.LBB6_6:
	ldrb	w8, [x0, #2]
	and	w8, w8, #0xfc
	cmp	w8, #220
	cset	w0, ne
	ret
.Lfunc_end6:
	.size	"utf16_units::validate::error_len::<#8b18edd9dd9aa8df>", .Lfunc_end6-"utf16_units::validate::error_len::<#8b18edd9dd9aa8df>"
	.cfi_endproc

	.section	.rodata.cst16,"aM",@progbits,16
	.p2align	4, 0x0
.LCPI7_0:
	.byte	1
	.byte	2
	.byte	4
	.byte	8
	.byte	16
	.byte	32
	.byte	64
	.byte	128
	.byte	1
	.byte	2
	.byte	4
	.byte	8
	.byte	16
	.byte	32
	.byte	64
	.byte	128
	.section	".text.utf16_units::validate::valid_len::<#418c2b53cf60437c>","ax",@progbits
	.p2align	2
	.type	"utf16_units::validate::valid_len::<#418c2b53cf60437c>",@function
"utf16_units::validate::valid_len::<#418c2b53cf60437c>":
	.cfi_startproc
	cmp	x1, #32
	b.hs	.LBB7_9
	mov	x8, xzr
	cbnz	x1, .LBB7_3
	b	.LBB7_46
.LBB7_2:
	mov	w9, #2
	add	x8, x9, x8
	cmp	x8, x1
	b.hs	.LBB7_46
.LBB7_3:
	sub	x10, x1, x8
	cmp	x10, #2
	b.lo	.LBB7_46
	add	x9, x0, x8
	ldrb	w11, [x9, #1]
	and	w12, w11, #0xf8
	cmp	w12, #216
	b.ne	.LBB7_2
	cmp	x10, #4
	b.lo	.LBB7_46
	mov	w10, #220
	and	w10, w11, w10
	cmp	w10, #220
	b.eq	.LBB7_46
	ldrb	w9, [x9, #3]
	and	w9, w9, #0xfc
	cmp	w9, #220
	b.ne	.LBB7_46
	mov	w9, #4
	add	x8, x9, x8
	cmp	x8, x1
	b.lo	.LBB7_3
	b	.LBB7_46
.LBB7_9:
	cmp	x1, #64
	adrp	x9, .LCPI7_0
	mov	x10, xzr
	b.lo	.LBB7_19
	and	x8, x1, #0xffffffffffffff80
	mov	x11, x1
	b	.LBB7_13
.LBB7_11:
	sub	x10, x10, #64
.LBB7_12:
	sub	x11, x1, x10
	cmp	x11, #63
	b.ls	.LBB7_29
.LBB7_13:
	add	x12, x0, x10
	ldp	q1, q0, [x12]
	ldp	q3, q2, [x12, #32]
	uzp2	v0.16b, v1.16b, v0.16b
	movi	v1.16b, #248
	uzp2	v2.16b, v3.16b, v2.16b
	movi	v3.16b, #216
	and	v0.16b, v0.16b, v1.16b
	and	v1.16b, v2.16b, v1.16b
	cmeq	v2.16b, v0.16b, v3.16b
	ldr	q0, [x9, :lo12:.LCPI7_0]
	cmeq	v1.16b, v1.16b, v3.16b
	and	v2.16b, v2.16b, v0.16b
	and	v1.16b, v1.16b, v0.16b
	addp	v1.16b, v2.16b, v1.16b
	addp	v1.16b, v1.16b, v1.16b
	addp	v1.16b, v1.16b, v1.16b
	fmov	w12, s1
	cbnz	w12, .LBB7_20
	add	x10, x10, #64
	cmp	x10, #256
	b.ne	.LBB7_12
	cmp	x8, #256
	b.eq	.LBB7_12
	mov	w10, #320
	sub	x11, x1, #256
.LBB7_17:
	add	x12, x0, x10
	ldp	q2, q1, [x12, #-64]
	ldp	q4, q3, [x12, #-32]
	ldp	q6, q5, [x12]
	ldp	q16, q7, [x12, #32]
	uzp2	v1.16b, v2.16b, v1.16b
	movi	v2.16b, #248
	uzp2	v3.16b, v4.16b, v3.16b
	uzp2	v5.16b, v6.16b, v5.16b
	movi	v6.16b, #216
	uzp2	v4.16b, v16.16b, v7.16b
	and	v1.16b, v1.16b, v2.16b
	and	v3.16b, v3.16b, v2.16b
	and	v5.16b, v5.16b, v2.16b
	and	v2.16b, v4.16b, v2.16b
	cmeq	v1.16b, v1.16b, v6.16b
	cmeq	v3.16b, v3.16b, v6.16b
	cmeq	v4.16b, v5.16b, v6.16b
	cmeq	v2.16b, v2.16b, v6.16b
	and	v1.16b, v1.16b, v0.16b
	and	v3.16b, v3.16b, v0.16b
	and	v4.16b, v4.16b, v0.16b
	and	v2.16b, v2.16b, v0.16b
	addp	v1.16b, v1.16b, v3.16b
	addp	v2.16b, v4.16b, v2.16b
	addp	v1.16b, v1.16b, v1.16b
	addp	v2.16b, v2.16b, v2.16b
	addp	v1.16b, v1.16b, v1.16b
	addp	v2.16b, v2.16b, v2.16b
	orr	v1.16b, v2.16b, v1.16b
	fmov	w12, s1
	cbnz	w12, .LBB7_11
	sub	x11, x11, #128
	add	x10, x10, #128
	cmp	x11, #127
	b.hi	.LBB7_17
	b	.LBB7_11
.LBB7_19:
	mov	w8, wzr
	b	.LBB7_30
.LBB7_20:
	cmp	x11, #64
	b.ne	.LBB7_45
.LBB7_21:
	mov	w8, wzr
	b	.LBB7_23
.LBB7_22:
	lsr	w8, w12, #31
	cmp	x11, #63
	b.ls	.LBB7_51
.LBB7_23:
	add	x11, x0, x10
	ldp	q2, q1, [x11]
	ldp	q4, q3, [x11, #32]
	uzp2	v1.16b, v2.16b, v1.16b
	movi	v2.16b, #252
	uzp2	v3.16b, v4.16b, v3.16b
	movi	v4.16b, #216
	and	v1.16b, v1.16b, v2.16b
	and	v2.16b, v3.16b, v2.16b
	movi	v3.16b, #220
	cmeq	v5.16b, v2.16b, v4.16b
	cmeq	v4.16b, v1.16b, v4.16b
	cmeq	v2.16b, v2.16b, v3.16b
	cmeq	v1.16b, v1.16b, v3.16b
	and	v3.16b, v4.16b, v0.16b
	and	v4.16b, v5.16b, v0.16b
	and	v1.16b, v1.16b, v0.16b
	and	v2.16b, v2.16b, v0.16b
	addp	v3.16b, v3.16b, v4.16b
	addp	v1.16b, v1.16b, v2.16b
	addp	v2.16b, v3.16b, v3.16b
	addp	v1.16b, v1.16b, v1.16b
	addp	v2.16b, v2.16b, v2.16b
	addp	v1.16b, v1.16b, v1.16b
	fmov	w12, s2
	fmov	w13, s1
	lsl	w11, w12, #1
	bfxil	x11, x8, #0, #1
	cmp	x11, x13
	b.ne	.LBB7_51
	add	x10, x10, #64
	sub	x11, x1, x10
	cmp	x11, #64
	b.lo	.LBB7_22
	and	x8, x10, #0xff
	cbnz	x8, .LBB7_22
	cbnz	w12, .LBB7_22
.LBB7_27:
	add	x8, x0, x10
	ldp	q2, q1, [x8]
	ldp	q4, q3, [x8, #32]
	uzp2	v1.16b, v2.16b, v1.16b
	movi	v2.16b, #248
	uzp2	v3.16b, v4.16b, v3.16b
	movi	v4.16b, #216
	and	v1.16b, v1.16b, v2.16b
	and	v2.16b, v3.16b, v2.16b
	cmeq	v1.16b, v1.16b, v4.16b
	cmeq	v2.16b, v2.16b, v4.16b
	and	v1.16b, v1.16b, v0.16b
	and	v2.16b, v2.16b, v0.16b
	addp	v1.16b, v1.16b, v2.16b
	addp	v1.16b, v1.16b, v1.16b
	addp	v1.16b, v1.16b, v1.16b
	fmov	w8, s1
	cbnz	w8, .LBB7_22
	sub	x11, x11, #64
	add	x10, x10, #64
	cmp	x11, #63
	b.hi	.LBB7_27
.LBB7_29:
	mov	w8, wzr
	cmp	x11, #32
	b.lo	.LBB7_31
.LBB7_30:
	add	x11, x0, x10
	movi	v2.16b, #216
	ldr	q3, [x9, :lo12:.LCPI7_0]
	ldp	q1, q0, [x11]
	mov	w14, w8
	and	x14, x14, #0x1
	uzp2	v0.16b, v1.16b, v0.16b
	movi	v1.16b, #252
	and	v0.16b, v0.16b, v1.16b
	movi	v1.16b, #220
	cmeq	v2.16b, v0.16b, v2.16b
	cmeq	v0.16b, v0.16b, v1.16b
	and	v1.16b, v2.16b, v3.16b
	and	v0.16b, v0.16b, v3.16b
	addp	v1.16b, v1.16b, v1.16b
	addp	v0.16b, v0.16b, v0.16b
	addp	v1.16b, v1.16b, v1.16b
	addp	v0.16b, v0.16b, v0.16b
	addp	v1.16b, v1.16b, v1.16b
	addp	v0.16b, v0.16b, v0.16b
	umov	w11, v1.h[0]
	smov	w12, v1.h[0]
	umov	w13, v0.h[0]
	bfi	x14, x11, #1, #15
	cmp	w12, #0
	add	x11, x10, #32
	cset	w12, mi
	cmp	x14, w13, uxth
	csel	x10, x11, x10, eq
	csel	w8, w12, w8, eq
.LBB7_31:
	sub	x11, x10, #2
	tst	w8, #0x1
	csel	x8, x11, x10, ne
	sub	x10, x1, x8
	cmp	x10, #32
	b.hi	.LBB7_35
	sub	x10, x8, x1
	tbnz	w10, #0, .LBB7_36
	add	x11, x0, x1
	movi	v2.16b, #220
	movi	v3.16b, #216
	ldp	q1, q0, [x11, #-32]
	add	x10, x10, #32
	lsr	x10, x10, #1
	uzp2	v0.16b, v1.16b, v0.16b
	movi	v1.16b, #252
	and	v0.16b, v0.16b, v1.16b
	cmeq	v1.16b, v0.16b, v2.16b
	cmeq	v0.16b, v0.16b, v3.16b
	ldr	q2, [x9, :lo12:.LCPI7_0]
	and	v1.16b, v1.16b, v2.16b
	and	v0.16b, v0.16b, v2.16b
	addp	v1.16b, v1.16b, v1.16b
	addp	v0.16b, v0.16b, v0.16b
	addp	v1.16b, v1.16b, v1.16b
	addp	v0.16b, v0.16b, v0.16b
	addp	v1.16b, v1.16b, v1.16b
	addp	v0.16b, v0.16b, v0.16b
	umov	w9, v1.h[0]
	umov	w11, v0.h[0]
	lsr	x9, x9, x10
	lsr	x10, x11, x10
	cmp	x9, x10, lsl #1
	b.ne	.LBB7_36
	mov	x0, x1
	ret
.LBB7_35:
	cmp	x10, #64
	b.hs	.LBB7_37
.LBB7_36:
	add	x8, xzr, x8
	cmp	x8, x1
	b.lo	.LBB7_39
	b	.LBB7_46
.LBB7_37:
	add	x10, x0, x8
	ldp	q1, q0, [x10]
	ldp	q3, q2, [x10, #32]
	uzp2	v0.16b, v1.16b, v0.16b
	movi	v1.16b, #248
	uzp2	v2.16b, v3.16b, v2.16b
	movi	v3.16b, #216
	and	v0.16b, v0.16b, v1.16b
	and	v1.16b, v2.16b, v1.16b
	ldr	q2, [x9, :lo12:.LCPI7_0]
	cmeq	v0.16b, v0.16b, v3.16b
	cmeq	v1.16b, v1.16b, v3.16b
	and	v0.16b, v0.16b, v2.16b
	and	v1.16b, v1.16b, v2.16b
	addp	v0.16b, v0.16b, v1.16b
	addp	v0.16b, v0.16b, v0.16b
	addp	v0.16b, v0.16b, v0.16b
	fmov	w9, s0
	rbit	w9, w9
	clz	w9, w9
	lsl	w9, w9, #1
	add	x8, x9, x8
	cmp	x8, x1
	b.lo	.LBB7_39
	b	.LBB7_46
.LBB7_38:
	mov	w9, #2
	add	x8, x9, x8
	cmp	x8, x1
	b.hs	.LBB7_46
.LBB7_39:
	sub	x10, x1, x8
	cmp	x10, #2
	b.lo	.LBB7_46
	add	x9, x0, x8
	ldrb	w11, [x9, #1]
	and	w12, w11, #0xf8
	cmp	w12, #216
	b.ne	.LBB7_38
	cmp	x10, #4
	b.lo	.LBB7_46
	mov	w10, #220
	and	w10, w11, w10
	cmp	w10, #220
	b.eq	.LBB7_46
	ldrb	w9, [x9, #3]
	and	w9, w9, #0xfc
	cmp	w9, #220
	b.ne	.LBB7_46
	mov	w9, #4
	add	x8, x9, x8
	cmp	x8, x1
	b.lo	.LBB7_39
	b	.LBB7_46
.LBB7_45:
	rbit	w8, w12
	clz	w8, w8
	lsl	w8, w8, #1
	add	x8, x10, x8
	sub	x12, x1, x8
	cmp	x12, #2
	b.hs	.LBB7_47
.LBB7_46:
	mov	x0, x8
	ret
.LBB7_47:
	add	x11, x0, x8
	ldrb	w13, [x11, #1]
	and	w14, w13, #0xf8
	cmp	w14, #216
	b.ne	.LBB7_21
	cmp	x12, #4
	b.lo	.LBB7_46
	mov	w12, #220
	and	w12, w13, w12
	cmp	w12, #220
	b.eq	.LBB7_46
	ldrb	w11, [x11, #3]
	and	w11, w11, #0xfc
	cmp	w11, #220
	b.eq	.LBB7_21
	b	.LBB7_46
.LBB7_51:
	sub	x11, x1, x10
	cmp	x11, #32
	b.hs	.LBB7_30
	b	.LBB7_31
.Lfunc_end7:
	.size	"utf16_units::validate::valid_len::<#418c2b53cf60437c>", .Lfunc_end7-"utf16_units::validate::valid_len::<#418c2b53cf60437c>"
	.cfi_endproc

	.section	".text.utf16_units::validate::error_len::<#418c2b53cf60437c>","ax",@progbits
	.p2align	2
	.type	"utf16_units::validate::error_len::<#418c2b53cf60437c>",@function
"utf16_units::validate::error_len::<#418c2b53cf60437c>":
	.cfi_startproc
	cmp	x1, #2
	b.lo	.LBB8_5
	ldrb	w8, [x0, #1]
	and	w9, w8, #0xf8
	cmp	w9, #216
	b.ne	.LBB8_5
	mov	w9, #220
	bics	wzr, w9, w8
	b.ne	.LBB8_4
	mov	w0, #1
	ret
.LBB8_4:
	cmp	x1, #4
	b.hs	.LBB8_6
.LBB8_5:
	mov	w0, wzr
	ret
.LBB8_6:
	ldrb	w8, [x0, #3]
	and	w8, w8, #0xfc
	cmp	w8, #220
	cset	w0, ne
	ret
.Lfunc_end8:
	.size	"utf16_units::validate::error_len::<#418c2b53cf60437c>", .Lfunc_end8-"utf16_units::validate::error_len::<#418c2b53cf60437c>"
	.cfi_endproc

	.section	".text.utf16_program::lines::append_counts::<#689013dfc86db972>","ax",@progbits
	.p2align	2
	.type	"utf16_program::lines::append_counts::<#689013dfc86db972>",@function
"utf16_program::lines::append_counts::<#689013dfc86db972>":
	.cfi_startproc
	sub	sp, sp, #240
	.cfi_def_cfa_offset 240
	stp	x29, x30, [sp, #144]
	stp	x28, x27, [sp, #160]
	stp	x26, x25, [sp, #176]
	stp	x24, x23, [sp, #192]
	stp	x22, x21, [sp, #208]
	stp	x20, x19, [sp, #224]
	add	x29, sp, #144
	.cfi_def_cfa w29, 96
	.cfi_offset w19, -8
	.cfi_offset w20, -16
	.cfi_offset w21, -24
	.cfi_offset w22, -32
	.cfi_offset w23, -40
	.cfi_offset w24, -48
	.cfi_offset w25, -56
	.cfi_offset w26, -64
	.cfi_offset w27, -72
	.cfi_offset w28, -80
	.cfi_offset w30, -88
	.cfi_offset w29, -96
	.cfi_remember_state
	movi	v0.2d, #0000000000000000
	mov	x10, #22859
	lsr	x8, x0, #4
	movk	x10, #14470, lsl #16
	mov	w9, #57599
	mov	x19, x3
	movk	x10, #50646, lsl #32
	movk	w9, #1525, lsl #16
	cmp	x8, #625
	movk	x10, #13421, lsl #48
	adrp	x8, .Lstatic.18
	add	x8, x8, :lo12:.Lstatic.18
	str	xzr, [sp, #80]
	stp	q0, q0, [sp]
	stp	q0, q0, [sp, #48]
	str	xzr, [sp, #32]
	stp	q0, q0, [x29, #-48]
	stur	xzr, [x29, #-16]
	b.lo	.LBB9_6
	mov	x11, xzr
.LBB9_2:
	umulh	x13, x0, x10
	mov	x12, x0
	mov	w15, #5243
	cmp	x0, x9
	lsr	x0, x13, #11
	mov	w13, #10000
	msub	w13, w0, w13, w12
	ubfx	w14, w13, #2, #14
	mul	w14, w14, w15
	mov	w15, #100
	lsr	w14, w14, #17
	msub	w13, w14, w15, w13
	sub	x15, x29, #48
	ldrh	w14, [x8, w14, uxtw #1]
	add	x15, x15, x11
	sub	x11, x11, #4
	strh	w14, [x15, #36]
	and	x13, x13, #0xffff
	ldrh	w13, [x8, x13, lsl #1]
	strh	w13, [x15, #38]
	b.hi	.LBB9_2
	add	x11, x11, #40
	cmp	x0, #99
	b.ls	.LBB9_7
.LBB9_4:
	ubfx	w12, w0, #2, #14
	mov	w13, #5243
	cmp	x0, #999
	mul	w12, w12, w13
	mov	w13, #100
	lsr	w12, w12, #17
	msub	w13, w12, w13, w0
	and	x13, x13, #0xffff
	ldrh	w14, [x8, x13, lsl #1]
	sub	x13, x29, #48
	add	x15, x13, x11
	sturh	w14, [x15, #-2]
	b.hi	.LBB9_9
	sub	x27, x11, #3
	orr	w11, w12, #0x30
	strb	w11, [x13, x27]
	b	.LBB9_11
.LBB9_6:
	mov	w11, #40
	cmp	x0, #99
	b.hi	.LBB9_4
.LBB9_7:
	cmp	x0, #9
	b.hi	.LBB9_10
	sub	x27, x11, #1
	sub	x11, x29, #48
	orr	w12, w0, #0x30
	strb	w12, [x11, x27]
	b	.LBB9_11
.LBB9_9:
	sub	x27, x11, #4
	ldrh	w11, [x8, w12, uxtw #1]
	strh	w11, [x13, x27]
	b	.LBB9_11
.LBB9_10:
	sub	x27, x11, #2
	ldrh	w11, [x8, x0, lsl #1]
	sub	x12, x29, #48
	strh	w11, [x12, x27]
.LBB9_11:
	movi	v0.2d, #0000000000000000
	lsr	x11, x1, #4
	str	xzr, [sp, #80]
	cmp	x11, #625
	mov	w11, #40
	stp	q0, q0, [sp, #48]
	b.lo	.LBB9_17
	mov	x12, xzr
.LBB9_13:
	umulh	x14, x1, x10
	mov	x13, x1
	mov	w16, #5243
	cmp	x1, x9
	lsr	x1, x14, #11
	mov	w14, #10000
	msub	w14, w1, w14, w13
	ubfx	w15, w14, #2, #14
	mul	w15, w15, w16
	mov	w16, #100
	lsr	w15, w15, #17
	msub	w14, w15, w16, w14
	add	x16, sp, #48
	ldrh	w15, [x8, w15, uxtw #1]
	add	x16, x16, x12
	sub	x12, x12, #4
	strh	w15, [x16, #36]
	and	x14, x14, #0xffff
	ldrh	w14, [x8, x14, lsl #1]
	strh	w14, [x16, #38]
	b.hi	.LBB9_13
	add	x12, x12, #40
	cmp	x1, #99
	b.ls	.LBB9_18
.LBB9_15:
	ubfx	w13, w1, #2, #14
	mov	w14, #5243
	cmp	x1, #999
	mul	w13, w13, w14
	mov	w14, #100
	lsr	w13, w13, #17
	msub	w14, w13, w14, w1
	and	x14, x14, #0xffff
	ldrh	w15, [x8, x14, lsl #1]
	add	x14, sp, #48
	add	x16, x14, x12
	sturh	w15, [x16, #-2]
	b.hi	.LBB9_20
	sub	x26, x12, #3
	orr	w12, w13, #0x30
	strb	w12, [x14, x26]
	b	.LBB9_22
.LBB9_17:
	mov	w12, #40
	cmp	x1, #99
	b.hi	.LBB9_15
.LBB9_18:
	cmp	x1, #9
	b.hi	.LBB9_21
	sub	x26, x12, #1
	add	x12, sp, #48
	orr	w13, w1, #0x30
	strb	w13, [x12, x26]
	b	.LBB9_22
.LBB9_20:
	sub	x26, x12, #4
	ldrh	w12, [x8, w13, uxtw #1]
	strh	w12, [x14, x26]
	b	.LBB9_22
.LBB9_21:
	sub	x26, x12, #2
	ldrh	w12, [x8, x1, lsl #1]
	add	x13, sp, #48
	strh	w12, [x13, x26]
.LBB9_22:
	movi	v0.2d, #0000000000000000
	lsr	x12, x2, #4
	str	xzr, [sp, #32]
	cmp	x12, #625
	mov	w12, #40
	stp	q0, q0, [sp]
	b.lo	.LBB9_28
	mov	x13, xzr
.LBB9_24:
	umulh	x15, x2, x10
	mov	x14, x2
	mov	w17, #5243
	cmp	x2, x9
	lsr	x2, x15, #11
	mov	w15, #10000
	msub	w15, w2, w15, w14
	ubfx	w16, w15, #2, #14
	mul	w16, w16, w17
	mov	w17, #100
	lsr	w16, w16, #17
	msub	w15, w16, w17, w15
	mov	x17, sp
	ldrh	w16, [x8, w16, uxtw #1]
	add	x17, x17, x13
	sub	x13, x13, #4
	strh	w16, [x17, #36]
	and	x15, x15, #0xffff
	ldrh	w15, [x8, x15, lsl #1]
	strh	w15, [x17, #38]
	b.hi	.LBB9_24
	add	x9, x13, #40
	cmp	x2, #99
	sub	x22, x11, x27
	sub	x21, x12, x26
	b.ls	.LBB9_29
.LBB9_26:
	ubfx	w10, w2, #2, #14
	mov	w11, #5243
	cmp	x2, #999
	mul	w10, w10, w11
	mov	w11, #100
	lsr	w10, w10, #17
	msub	w11, w10, w11, w2
	and	x11, x11, #0xffff
	ldrh	w12, [x8, x11, lsl #1]
	mov	x11, sp
	add	x13, x11, x9
	sturh	w12, [x13, #-2]
	b.hi	.LBB9_31
	sub	x23, x9, #3
	orr	w8, w10, #0x30
	strb	w8, [x11, x23]
	b	.LBB9_33
.LBB9_28:
	mov	w9, #40
	cmp	x2, #99
	sub	x22, x11, x27
	sub	x21, x12, x26
	b.hi	.LBB9_26
.LBB9_29:
	cmp	x2, #9
	b.hi	.LBB9_32
	sub	x23, x9, #1
	mov	x8, sp
	orr	w9, w2, #0x30
	strb	w9, [x8, x23]
	b	.LBB9_33
.LBB9_31:
	sub	x23, x9, #4
	ldrh	w8, [x8, w10, uxtw #1]
	strh	w8, [x11, x23]
	b	.LBB9_33
.LBB9_32:
	sub	x23, x9, #2
	ldrh	w8, [x8, x2, lsl #1]
	mov	x9, sp
	strh	w8, [x9, x23]
.LBB9_33:
	adds	x8, x22, #21
	mov	w9, #40
	csinv	x8, x8, xzr, lo
	sub	x20, x9, x23
	adds	x8, x21, x8
	csinv	x8, x8, xzr, lo
	adds	x8, x8, #14
	csinv	x8, x8, xzr, lo
	adds	x8, x20, x8
	csinv	x9, x8, xzr, lo
	ldp	x8, x24, [x19, #8]
	adds	x9, x9, #1
	csinv	x1, x9, xzr, lo
	sub	x9, x24, x8
	cmp	x1, x9
	b.hi	.LBB9_81
.LBB9_34:
	ldr	x25, [x19]
	adrp	x10, .Lstatic.19
	add	x10, x10, :lo12:.Lstatic.19
	add	x9, x25, x8
	add	x8, x8, #7
	sub	x10, x9, x10
	cmp	x10, #7
	b.hs	.LBB9_36
	mov	w10, #31074
	mov	w11, #14963
	movk	w10, #25972, lsl #16
	strh	w11, [x9, #4]
	str	w10, [x9]
	mov	w10, #32
	strb	w10, [x9, #6]
	sub	x9, x24, x8
	stp	x25, x8, [x19]
	cmp	x22, x9
	str	x24, [x19, #16]
	b.ls	.LBB9_37
	b	.LBB9_85
.LBB9_36:
	mov	w10, #29541
	mov	w11, #31074
	movk	w10, #8250, lsl #16
	movk	w11, #25972, lsl #16
	stur	w10, [x9, #3]
	str	w11, [x9]
	sub	x9, x24, x8
	stp	x25, x8, [x19]
	cmp	x22, x9
	str	x24, [x19, #16]
	b.hi	.LBB9_85
.LBB9_37:
	sub	x9, x29, #48
	add	x0, x25, x8
	add	x28, x8, x22
	add	x1, x9, x27
	sub	x9, x0, x1
	cmp	x9, x22
	b.hs	.LBB9_40
	cmp	x22, #8
	b.hs	.LBB9_41
	mov	x9, xzr
	b	.LBB9_50
.LBB9_40:
	mov	x2, x22
	bl	memcpy
	b	.LBB9_52
.LBB9_41:
	cmp	x22, #32
	b.hs	.LBB9_43
	mov	x9, xzr
	b	.LBB9_47
.LBB9_43:
	sub	x11, x29, #48
	add	x12, x8, x25
	and	x10, x22, #0x18
	add	x11, x27, x11
	and	x9, x22, #0xffffffffffffffe0
	add	x12, x12, #16
	add	x11, x11, #16
	and	x13, x22, #0xffffffffffffffe0
.LBB9_44:
	ldp	q0, q1, [x11, #-16]
	subs	x13, x13, #32
	add	x11, x11, #32
	stp	q0, q1, [x12, #-16]
	add	x12, x12, #32
	b.ne	.LBB9_44
	cmp	x22, x9
	b.eq	.LBB9_52
	cbz	x10, .LBB9_50
.LBB9_47:
	mov	x10, x9
	and	x9, x22, #0xfffffffffffffff8
	sub	x12, x29, #48
	add	x11, x27, x10
	add	x13, x8, x10
	sub	x10, x10, x9
	add	x11, x12, x11
	add	x12, x25, x13
.LBB9_48:
	ldr	d0, [x11], #8
	adds	x10, x10, #8
	str	d0, [x12], #8
	b.ne	.LBB9_48
	cmp	x22, x9
	b.eq	.LBB9_52
.LBB9_50:
	add	x10, x9, x8
	add	x8, x27, x9
	add	x9, x25, x10
.LBB9_51:
	sub	x10, x29, #48
	ldrb	w10, [x10, x8]
	add	x8, x8, #1
	cmp	x8, #40
	strb	w10, [x9], #1
	b.ne	.LBB9_51
.LBB9_52:
	sub	x8, x24, x28
	stp	x25, x28, [x19]
	cmp	x8, #13
	str	x24, [x19, #16]
	b.ls	.LBB9_94
.LBB9_53:
	add	x9, x25, x28
	adrp	x10, .Lstatic.20
	add	x10, x10, :lo12:.Lstatic.20
	sub	x8, x9, x10
	cmp	x8, #14
	add	x8, x28, #14
	b.hs	.LBB9_55
	mov	x10, #8236
	mov	w11, #25972
	movk	x10, #26723, lsl #16
	movk	w11, #29554, lsl #16
	movk	x10, #29281, lsl #32
	str	w11, [x9, #8]
	movk	x10, #25441, lsl #48
	str	x10, [x9]
	mov	w10, #8250
	strh	w10, [x9, #12]
	sub	x9, x24, x8
	stp	x25, x8, [x19]
	cmp	x21, x9
	str	x24, [x19, #16]
	b.ls	.LBB9_56
	b	.LBB9_96
.LBB9_55:
	ldr	x11, [x10]
	ldur	x10, [x10, #6]
	str	x11, [x9]
	stur	x10, [x9, #6]
	sub	x9, x24, x8
	stp	x25, x8, [x19]
	cmp	x21, x9
	str	x24, [x19, #16]
	b.hi	.LBB9_96
.LBB9_56:
	add	x9, sp, #48
	add	x0, x25, x8
	add	x22, x8, x21
	add	x1, x9, x26
	sub	x9, x0, x1
	cmp	x9, x21
	b.hs	.LBB9_62
	cmp	x21, #8
	b.lo	.LBB9_59
	add	x9, sp, #48
	add	x10, x8, x25
	add	x9, x26, x9
	sub	x9, x10, x9
	cmp	x9, #32
	b.hs	.LBB9_77
.LBB9_59:
	mov	x9, xzr
.LBB9_60:
	add	x10, x9, x8
	add	x8, x9, x26
	add	x9, x25, x10
.LBB9_61:
	add	x10, sp, #48
	ldrb	w10, [x10, x8]
	add	x8, x8, #1
	cmp	x8, #40
	strb	w10, [x9], #1
	b.ne	.LBB9_61
	b	.LBB9_63
.LBB9_62:
	mov	x2, x21
	bl	memmove
.LBB9_63:
	sub	x8, x24, x22
	stp	x25, x22, [x19]
	cmp	x8, #13
	str	x24, [x19, #16]
	b.ls	.LBB9_105
.LBB9_64:
	add	x9, x25, x22
	adrp	x10, .Lstatic.21
	add	x10, x10, :lo12:.Lstatic.21
	sub	x8, x9, x10
	cmp	x8, #14
	add	x8, x22, #14
	b.hs	.LBB9_66
	mov	x10, #8236
	mov	w11, #28018
	movk	x10, #27753, lsl #16
	movk	w11, #25701, lsl #16
	movk	x10, #11628, lsl #32
	str	w11, [x9, #8]
	movk	x10, #28518, lsl #48
	str	x10, [x9]
	mov	w10, #8250
	strh	w10, [x9, #12]
	sub	x9, x24, x8
	stp	x25, x8, [x19]
	cmp	x20, x9
	str	x24, [x19, #16]
	b.ls	.LBB9_67
	b	.LBB9_107
.LBB9_66:
	ldr	x11, [x10]
	ldur	x10, [x10, #6]
	str	x11, [x9]
	stur	x10, [x9, #6]
	sub	x9, x24, x8
	stp	x25, x8, [x19]
	cmp	x20, x9
	str	x24, [x19, #16]
	b.hi	.LBB9_107
.LBB9_67:
	mov	x9, sp
	add	x0, x25, x8
	add	x21, x8, x20
	add	x1, x9, x23
	sub	x9, x0, x1
	cmp	x9, x20
	b.hs	.LBB9_73
	cmp	x20, #8
	b.lo	.LBB9_70
	mov	x9, sp
	add	x10, x8, x25
	add	x9, x23, x9
	sub	x9, x10, x9
	cmp	x9, #32
	b.hs	.LBB9_79
.LBB9_70:
	mov	x9, xzr
.LBB9_71:
	add	x10, x9, x8
	add	x8, x9, x23
	add	x9, x25, x10
.LBB9_72:
	mov	x10, sp
	ldrb	w10, [x10, x8]
	add	x8, x8, #1
	cmp	x8, #40
	strb	w10, [x9], #1
	b.ne	.LBB9_72
	b	.LBB9_74
.LBB9_73:
	mov	x2, x20
	bl	memmove
.LBB9_74:
	cmp	x24, x21
	stp	x25, x21, [x19]
	str	x24, [x19, #16]
	b.eq	.LBB9_110
.LBB9_75:
	mov	w8, #10
	mov	w0, wzr
	strb	w8, [x25, x21]
	add	x8, x21, #1
	str	x24, [x19, #16]
	stp	x25, x8, [x19]
.LBB9_76:
	.cfi_def_cfa wsp, 240
	ldp	x20, x19, [sp, #224]
	ldp	x22, x21, [sp, #208]
	ldp	x24, x23, [sp, #192]
	ldp	x26, x25, [sp, #176]
	ldp	x28, x27, [sp, #160]
	ldp	x29, x30, [sp, #144]
	add	sp, sp, #240
	.cfi_def_cfa_offset 0
	.cfi_restore w19
	.cfi_restore w20
	.cfi_restore w21
	.cfi_restore w22
	.cfi_restore w23
	.cfi_restore w24
	.cfi_restore w25
	.cfi_restore w26
	.cfi_restore w27
	.cfi_restore w28
	.cfi_restore w30
	.cfi_restore w29
	ret
.LBB9_77:
	.cfi_restore_state
	cmp	x21, #32
	b.hs	.LBB9_87
	mov	x9, xzr
	b	.LBB9_91
.LBB9_79:
	cmp	x20, #32
	b.hs	.LBB9_98
	mov	x9, xzr
	b	.LBB9_102
.LBB9_81:
	mov	x0, x19
	bl	"std_alloc::vec::Vec::grow_amortized::<#582fc6be45daf619>"
	cbz	w0, .LBB9_109
	ldp	x8, x24, [x19, #8]
	sub	x9, x24, x8
	cmp	x9, #6
	b.hi	.LBB9_34
	mov	x0, x19
	mov	w1, #7
	bl	"std_alloc::vec::Vec::grow_amortized::<#582fc6be45daf619>"
	cbz	w0, .LBB9_109
	ldp	x8, x24, [x19, #8]
	b	.LBB9_34
.LBB9_85:
	mov	x0, x19
	mov	x1, x22
	bl	"std_alloc::vec::Vec::grow_amortized::<#582fc6be45daf619>"
	cbz	w0, .LBB9_109
	ldp	x8, x24, [x19, #8]
	ldr	x25, [x19]
	b	.LBB9_37
.LBB9_87:
	add	x11, sp, #48
	add	x12, x8, x25
	and	x10, x21, #0x18
	add	x11, x26, x11
	and	x9, x21, #0xffffffffffffffe0
	add	x12, x12, #16
	add	x11, x11, #16
	and	x13, x21, #0xffffffffffffffe0
.LBB9_88:
	ldp	q0, q1, [x11, #-16]
	subs	x13, x13, #32
	add	x11, x11, #32
	stp	q0, q1, [x12, #-16]
	add	x12, x12, #32
	b.ne	.LBB9_88
	cmp	x21, x9
	b.eq	.LBB9_63
	cbz	x10, .LBB9_60
.LBB9_91:
	mov	x10, x9
	and	x9, x21, #0xfffffffffffffff8
	add	x12, sp, #48
	add	x11, x26, x10
	add	x13, x8, x10
	sub	x10, x10, x9
	add	x11, x12, x11
	add	x12, x25, x13
.LBB9_92:
	ldr	d0, [x11], #8
	adds	x10, x10, #8
	str	d0, [x12], #8
	b.ne	.LBB9_92
	cmp	x21, x9
	b.eq	.LBB9_63
	b	.LBB9_60
.LBB9_94:
	mov	x0, x19
	mov	w1, #14
	bl	"std_alloc::vec::Vec::grow_amortized::<#582fc6be45daf619>"
	cbz	w0, .LBB9_109
	ldp	x28, x24, [x19, #8]
	ldr	x25, [x19]
	b	.LBB9_53
.LBB9_96:
	mov	x0, x19
	mov	x1, x21
	bl	"std_alloc::vec::Vec::grow_amortized::<#582fc6be45daf619>"
	cbz	w0, .LBB9_109
	ldp	x8, x24, [x19, #8]
	ldr	x25, [x19]
	b	.LBB9_56
.LBB9_98:
	mov	x11, sp
	add	x12, x8, x25
	and	x10, x20, #0x18
	add	x11, x23, x11
	and	x9, x20, #0xffffffffffffffe0
	add	x12, x12, #16
	add	x11, x11, #16
	and	x13, x20, #0xffffffffffffffe0
.LBB9_99:
	ldp	q0, q1, [x11, #-16]
	subs	x13, x13, #32
	add	x11, x11, #32
	stp	q0, q1, [x12, #-16]
	add	x12, x12, #32
	b.ne	.LBB9_99
	cmp	x20, x9
	b.eq	.LBB9_74
	cbz	x10, .LBB9_71
.LBB9_102:
	mov	x10, x9
	and	x9, x20, #0xfffffffffffffff8
	mov	x12, sp
	add	x11, x23, x10
	add	x13, x8, x10
	sub	x10, x10, x9
	add	x11, x12, x11
	add	x12, x25, x13
.LBB9_103:
	ldr	d0, [x11], #8
	adds	x10, x10, #8
	str	d0, [x12], #8
	b.ne	.LBB9_103
	cmp	x20, x9
	b.eq	.LBB9_74
	b	.LBB9_71
.LBB9_105:
	mov	x0, x19
	mov	w1, #14
	bl	"std_alloc::vec::Vec::grow_amortized::<#582fc6be45daf619>"
	cbz	w0, .LBB9_109
	ldp	x22, x24, [x19, #8]
	ldr	x25, [x19]
	b	.LBB9_64
.LBB9_107:
	mov	x0, x19
	mov	x1, x20
	bl	"std_alloc::vec::Vec::grow_amortized::<#582fc6be45daf619>"
	cbz	w0, .LBB9_109
	ldp	x8, x24, [x19, #8]
	ldr	x25, [x19]
	b	.LBB9_67
.LBB9_109:
	mov	w0, #1
	b	.LBB9_76
.LBB9_110:
	mov	x0, x19
	mov	w1, #1
	bl	"std_alloc::vec::Vec::grow_amortized::<#582fc6be45daf619>"
	mov	w8, w0
	mov	w0, #1
	cbz	w8, .LBB9_76
	ldp	x21, x24, [x19, #8]
	ldr	x25, [x19]
	b	.LBB9_75
.Lfunc_end9:
	.size	"utf16_program::lines::append_counts::<#689013dfc86db972>", .Lfunc_end9-"utf16_program::lines::append_counts::<#689013dfc86db972>"
	.cfi_endproc

	.section	".text.utf16_units::text::count_few::<#8b18edd9dd9aa8df>","ax",@progbits
	.p2align	2
	.type	"utf16_units::text::count_few::<#8b18edd9dd9aa8df>",@function
"utf16_units::text::count_few::<#8b18edd9dd9aa8df>":
	.cfi_startproc
	mov	x8, xzr
	cbz	x1, .LBB10_2
.LBB10_1:
	ldrb	w9, [x0]
	mov	w10, #4
	add	x8, x8, #1
	and	w9, w9, #0xfc
	cmp	w9, #216
	mov	w9, #2
	csel	x9, x10, x9, eq
	subs	x1, x1, x9
	add	x0, x0, x9
	b.ne	.LBB10_1
.LBB10_2:
	mov	x0, x8
	ret
.Lfunc_end10:
	.size	"utf16_units::text::count_few::<#8b18edd9dd9aa8df>", .Lfunc_end10-"utf16_units::text::count_few::<#8b18edd9dd9aa8df>"
	.cfi_endproc

	.section	.rodata.cst8,"aM",@progbits,8
	.p2align	3, 0x0
.LCPI11_0:
	.byte	108
	.byte	105
	.byte	110
	.byte	103
	.byte	32
	.byte	115
	.byte	117
	.byte	114
.LCPI11_1:
	.byte	105
	.byte	110
	.byte	103
	.byte	32
	.byte	115
	.byte	117
	.byte	114
	.byte	114
.LCPI11_2:
	.byte	114
	.byte	101
	.byte	100
	.byte	32
	.byte	116
	.byte	114
	.byte	97
	.byte	105
.LCPI11_3:
	.byte	114
	.byte	101
	.byte	100
	.byte	32
	.byte	108
	.byte	101
	.byte	97
	.byte	100
	.section	".text.utf16_program::lines::append_unpaired::<#689013dfc86db972>","ax",@progbits
	.p2align	2
	.type	"utf16_program::lines::append_unpaired::<#689013dfc86db972>",@function
"utf16_program::lines::append_unpaired::<#689013dfc86db972>":
	.cfi_startproc
	sub	sp, sp, #256
	.cfi_def_cfa_offset 256
	stp	x29, x30, [sp, #160]
	stp	x28, x27, [sp, #176]
	stp	x26, x25, [sp, #192]
	stp	x24, x23, [sp, #208]
	stp	x22, x21, [sp, #224]
	stp	x20, x19, [sp, #240]
	add	x29, sp, #160
	.cfi_def_cfa w29, 96
	.cfi_offset w19, -8
	.cfi_offset w20, -16
	.cfi_offset w21, -24
	.cfi_offset w22, -32
	.cfi_offset w23, -40
	.cfi_offset w24, -48
	.cfi_offset w25, -56
	.cfi_offset w26, -64
	.cfi_offset w27, -72
	.cfi_offset w28, -80
	.cfi_offset w30, -88
	.cfi_offset w29, -96
	.cfi_remember_state
	sub	x10, x29, #16
	mov	x3, x2
	mov	x12, xzr
	and	w8, w1, #0xffff
	add	x11, x10, #31
	mov	x14, #-1
	mov	w23, #16
	mov	x13, x0
	stp	xzr, xzr, [sp, #80]
	stp	xzr, xzr, [x29, #-16]
.LBB11_1:
	mov	x22, x12
	and	x12, x13, #0xf
	mov	x21, x14
	orr	w14, w12, #0x30
	add	w15, w12, #55
	cmp	x12, #10
	mov	x9, x23
	sub	x23, x23, #1
	lsr	x13, x13, #4
	mov	x27, x11
	csel	w11, w14, w15, lo
	strb	w11, [x10, x23]
	sub	x12, x22, #1
	sub	x14, x21, #1
	sub	x11, x27, #1
	cbnz	x13, .LBB11_1
	and	w14, w8, #0xfc00
	mov	w10, #55296
	movi	v0.2d, #0000000000000000
	and	w12, w8, #0xfc00
	cmp	w14, w10
	adrp	x10, .Lstatic.24
	add	x10, x10, :lo12:.Lstatic.24
	str	w12, [sp, #36]
	adrp	x12, .Lstatic.23
	add	x12, x12, :lo12:.Lstatic.23
	lsr	x14, x0, #4
	mov	w13, #30
	csel	x10, x12, x10, eq
	sub	x11, x29, #16
	mov	w12, #17
	str	x10, [sp, #64]
	cinc	x4, x13, ne
	cmp	x14, #625
	adrp	x10, .Lstatic.18
	add	x10, x10, :lo12:.Lstatic.18
	stur	xzr, [x29, #-32]
	stp	q0, q0, [x29, #-64]
	b.lo	.LBB11_8
	mov	x13, xzr
.LBB11_4:
	mov	x15, #22859
	mov	x14, x0
	mov	w17, #5243
	movk	x15, #14470, lsl #16
	mov	w18, #57599
	movk	x15, #50646, lsl #32
	movk	w18, #1525, lsl #16
	movk	x15, #13421, lsl #48
	cmp	x0, x18
	umulh	x15, x0, x15
	lsr	x0, x15, #11
	mov	w15, #10000
	msub	w15, w0, w15, w14
	ubfx	w16, w15, #2, #14
	mul	w16, w16, w17
	mov	w17, #100
	lsr	w16, w16, #17
	msub	w15, w16, w17, w15
	sub	x17, x29, #64
	ldrh	w16, [x10, w16, uxtw #1]
	add	x17, x17, x13
	sub	x13, x13, #4
	strh	w16, [x17, #36]
	and	x15, x15, #0xffff
	ldrh	w15, [x10, x15, lsl #1]
	strh	w15, [x17, #38]
	b.hi	.LBB11_4
	add	x13, x13, #40
	cmp	x0, #99
	add	x1, x11, x23
	sub	x2, x12, x9
	b.ls	.LBB11_9
.LBB11_6:
	ubfx	w9, w0, #2, #14
	mov	w11, #5243
	cmp	x0, #999
	mul	w9, w9, w11
	mov	w11, #100
	lsr	w9, w9, #17
	msub	w11, w9, w11, w0
	and	x11, x11, #0xffff
	ldrh	w12, [x10, x11, lsl #1]
	sub	x11, x29, #64
	add	x14, x11, x13
	sturh	w12, [x14, #-2]
	b.hi	.LBB11_11
	sub	x15, x13, #3
	orr	w9, w9, #0x30
	strb	w9, [x11, x15]
	b	.LBB11_13
.LBB11_8:
	mov	w13, #40
	cmp	x0, #99
	add	x1, x11, x23
	sub	x2, x12, x9
	b.hi	.LBB11_6
.LBB11_9:
	cmp	x0, #9
	b.hi	.LBB11_12
	sub	x15, x13, #1
	sub	x9, x29, #64
	orr	w10, w0, #0x30
	strb	w10, [x9, x15]
	b	.LBB11_13
.LBB11_11:
	sub	x15, x13, #4
	ldrh	w9, [x10, w9, uxtw #1]
	strh	w9, [x11, x15]
	b	.LBB11_13
.LBB11_12:
	sub	x15, x13, #2
	ldrh	w9, [x10, x0, lsl #1]
	sub	x10, x29, #64
	strh	w9, [x10, x15]
.LBB11_13:
	add	x9, sp, #80
	mov	x11, xzr
	mov	w25, #16
	add	x12, x9, #31
	mov	w13, #1
	stp	xzr, xzr, [sp, #80]
.LBB11_14:
	mov	x24, x11
	and	x11, x8, #0xf
	mov	x26, x13
	orr	w13, w11, #0x30
	add	w14, w11, #55
	cmp	x11, #10
	mov	x10, x25
	sub	x25, x25, #1
	lsr	x8, x8, #4
	csel	w11, w13, w14, lo
	mov	x28, x12
	strb	w11, [x9, x25]
	add	x11, x24, #1
	add	x13, x26, #1
	sub	x12, x12, #1
	cbnz	x8, .LBB11_14
	mov	w8, #40
	adds	x9, x2, #4
	sub	x16, x8, x15
	csinv	x8, x9, xzr, lo
	mov	w9, #17
	adds	x8, x16, x8
	sub	x9, x9, x10
	mov	x10, x3
	csinv	x8, x8, xzr, lo
	stp	x9, x4, [sp, #48]
	adds	x8, x4, x8
	csinv	x8, x8, xzr, lo
	adds	x8, x9, x8
	ldp	x9, x14, [x10, #8]!
	csinv	x8, x8, xzr, lo
	str	x10, [sp, #40]
	adds	x8, x8, #1
	csinv	x8, x8, xzr, lo
	sub	x10, x14, x9
	cmp	x8, x10
	b.hi	.LBB11_31
.LBB11_16:
	ldr	x20, [x3]
	adrp	x8, .Lstatic.15
	add	x8, x8, :lo12:.Lstatic.15
	add	x10, x20, x9
	sub	x8, x10, x8
	cmp	x8, #2
	add	x8, x9, #2
	mov	w9, #30768
	strh	w9, [x10]
	sub	x9, x14, x8
	cmp	x2, x9
	stp	x20, x8, [x3]
	str	x14, [x3, #16]
	b.hi	.LBB11_35
	add	x0, x20, x8
	add	x19, x8, x2
	str	x3, [sp, #72]
	sub	x9, x0, x1
	cmp	x9, x2
	b.hs	.LBB11_37
.LBB11_18:
	cmp	x2, #8
	b.hs	.LBB11_20
	mov	x9, xzr
	b	.LBB11_29
.LBB11_20:
	cmp	x2, #32
	b.hs	.LBB11_22
	mov	x9, xzr
	b	.LBB11_26
.LBB11_22:
	mov	w9, #1
	add	x12, x8, x20
	and	x10, x2, #0x18
	sub	x11, x9, x22
	and	x9, x2, #0xffffffffffffffe0
	add	x12, x12, #16
	and	x11, x11, #0xffffffffffffffe0
.LBB11_23:
	ldp	q0, q1, [x27, #-16]
	subs	x11, x11, #32
	add	x27, x27, #32
	stp	q0, q1, [x12, #-16]
	add	x12, x12, #32
	b.ne	.LBB11_23
	cmp	x2, x9
	b.eq	.LBB11_38
	cbz	x10, .LBB11_29
.LBB11_26:
	mov	w10, #1
	sub	x11, x29, #16
	add	x12, x8, x9
	sub	x10, x10, x22
	add	x11, x11, x9
	add	x12, x20, x12
	and	x10, x10, #0xfffffffffffffff8
	sub	x10, x9, x10
	and	x9, x2, #0xfffffffffffffff8
.LBB11_27:
	ldr	d0, [x11, x23]
	adds	x10, x10, #8
	add	x11, x11, #8
	str	d0, [x12], #8
	b.ne	.LBB11_27
	cmp	x2, x9
	b.eq	.LBB11_38
.LBB11_29:
	sub	x11, x29, #16
	add	x12, x9, x8
	add	x10, x9, x22
	add	x8, x11, #16
	add	x9, x9, x21
	add	x11, x20, x12
.LBB11_30:
	ldrb	w12, [x8, x9]
	add	x10, x10, #1
	add	x9, x9, #1
	cmp	x10, #1
	strb	w12, [x11], #1
	b.ne	.LBB11_30
	b	.LBB11_38
.LBB11_31:
	str	x1, [sp, #72]
	mov	x0, x3
	mov	x1, x8
	stp	x16, x15, [sp, #16]
	mov	x20, x2
	mov	x19, x3
	bl	"std_alloc::vec::Vec::grow_amortized::<#582fc6be45daf619>"
	cbz	w0, .LBB11_96
	ldp	x9, x14, [x19, #8]
	mov	x3, x19
	sub	x8, x14, x9
	cmp	x8, #1
	b.ls	.LBB11_94
	ldr	x1, [sp, #72]
	mov	x2, x20
.LBB11_34:
	ldp	x16, x15, [sp, #16]
	b	.LBB11_16
.LBB11_35:
	str	x1, [sp, #72]
	mov	x0, x3
	mov	x1, x2
	stp	x16, x15, [sp, #16]
	mov	x19, x3
	str	x2, [sp, #8]
	bl	"std_alloc::vec::Vec::grow_amortized::<#582fc6be45daf619>"
	cbz	w0, .LBB11_96
	ldp	x8, x14, [x19, #8]
	mov	x3, x19
	ldp	x2, x16, [sp, #8]
	ldr	x20, [x19]
	ldr	x1, [sp, #72]
	ldr	x15, [sp, #24]
	add	x0, x20, x8
	add	x19, x8, x2
	str	x3, [sp, #72]
	sub	x9, x0, x1
	cmp	x9, x2
	b.lo	.LBB11_18
.LBB11_37:
	mov	x21, x14
	mov	x22, x15
	mov	x23, x16
	bl	memcpy
	ldr	x3, [sp, #72]
	mov	x16, x23
	mov	x15, x22
	mov	x14, x21
.LBB11_38:
	sub	x8, x14, x19
	ldr	x23, [sp, #64]
	stp	x20, x19, [x3]
	cmp	x8, #1
	str	x14, [x3, #16]
	b.ls	.LBB11_77
.LBB11_39:
	add	x9, x20, x19
	adrp	x8, .Lstatic.16
	add	x8, x8, :lo12:.Lstatic.16
	sub	x8, x9, x8
	mov	w10, #10272
	cmp	x8, #2
	add	x8, x19, #2
	strh	w10, [x9]
	sub	x9, x14, x8
	stp	x20, x8, [x3]
	cmp	x16, x9
	str	x14, [x3, #16]
	b.hi	.LBB11_79
.LBB11_40:
	sub	x9, x29, #64
	add	x0, x20, x8
	add	x22, x8, x16
	add	x1, x9, x15
	sub	x9, x0, x1
	cmp	x9, x16
	b.hs	.LBB11_46
	ldr	x2, [sp, #56]
	cmp	x16, #8
	b.lo	.LBB11_43
	sub	x9, x29, #64
	add	x10, x8, x20
	add	x9, x15, x9
	sub	x9, x10, x9
	cmp	x9, #32
	b.hs	.LBB11_66
.LBB11_43:
	mov	x9, xzr
.LBB11_44:
	add	x10, x9, x8
	add	x8, x9, x15
	add	x9, x20, x10
.LBB11_45:
	sub	x10, x29, #64
	ldrb	w10, [x10, x8]
	add	x8, x8, #1
	cmp	x8, #40
	strb	w10, [x9], #1
	b.ne	.LBB11_45
	b	.LBB11_47
.LBB11_46:
	mov	x2, x16
	mov	x19, x14
	bl	memmove
	ldr	x3, [sp, #72]
	ldr	x2, [sp, #56]
	mov	x14, x19
.LBB11_47:
	sub	x8, x14, x22
	stp	x20, x22, [x3]
	cmp	x2, x8
	str	x14, [x3, #16]
	b.hi	.LBB11_88
.LBB11_48:
	add	x0, x20, x22
	ldr	x9, [sp, #40]
	add	x21, x22, x2
	sub	x8, x0, x23
	cmp	x8, x2
	stp	xzr, xzr, [x9]
	b.hs	.LBB11_51
	add	x8, x22, x20
	sub	x8, x8, x23
	cmp	x8, #7
	b.hi	.LBB11_52
	mov	x9, xzr
	b	.LBB11_53
.LBB11_51:
	mov	x1, x23
	mov	x19, x14
	bl	memcpy
	ldr	x3, [sp, #72]
	mov	x14, x19
	b	.LBB11_55
.LBB11_52:
	mov	w8, #55296
	ldr	s0, [sp, #36]
	adrp	x9, .LCPI11_3
	fmov	s1, w8
	adrp	x8, .LCPI11_2
	ldr	d2, [x9, :lo12:.LCPI11_3]
	adrp	x9, .LCPI11_1
	ldr	d4, [x9, :lo12:.LCPI11_1]
	mov	w9, #24
	cmeq	v0.2s, v0.2s, v1.2s
	ldr	d1, [x8, :lo12:.LCPI11_2]
	adrp	x8, .LCPI11_0
	ldr	d3, [x8, :lo12:.LCPI11_0]
	dup	v0.2s, v0.s[0]
	bit	v1.8b, v2.8b, v0.8b
	bsl	v0.8b, v4.8b, v3.8b
	ldr	d2, [x23]
	stp	d2, d1, [x0]
	str	d0, [x0, #16]
.LBB11_53:
	add	x10, x22, x9
	sub	x8, x2, x9
	add	x9, x23, x9
	add	x10, x20, x10
.LBB11_54:
	ldrb	w11, [x9], #1
	subs	x8, x8, #1
	strb	w11, [x10], #1
	b.ne	.LBB11_54
.LBB11_55:
	ldr	x2, [sp, #48]
	sub	x8, x14, x21
	stp	x20, x21, [x3]
	str	x14, [x3, #16]
	cmp	x2, x8
	b.hi	.LBB11_90
.LBB11_56:
	add	x8, sp, #80
	add	x0, x20, x21
	add	x22, x21, x2
	add	x1, x8, x25
	sub	x8, x0, x1
	cmp	x8, x2
	b.hs	.LBB11_62
	cmp	x2, #8
	b.lo	.LBB11_59
	add	x8, sp, #80
	add	x9, x21, x20
	sub	x8, x24, x8
	add	x8, x8, x9
	sub	x8, x8, #15
	cmp	x8, #32
	b.hs	.LBB11_68
.LBB11_59:
	mov	x8, xzr
.LBB11_60:
	add	x10, sp, #80
	mvn	x11, x24
	add	x12, x8, x21
	sub	x9, x8, x24
	add	x10, x10, #16
	add	x8, x11, x8
	add	x11, x20, x12
.LBB11_61:
	ldrb	w12, [x10, x8]
	add	x9, x9, #1
	add	x8, x8, #1
	cmp	x9, #1
	strb	w12, [x11], #1
	b.ne	.LBB11_61
	b	.LBB11_63
.LBB11_62:
	mov	x19, x14
	bl	memmove
	ldr	x3, [sp, #72]
	mov	x14, x19
.LBB11_63:
	cmp	x22, x14
	stp	x20, x22, [x3]
	str	x14, [x3, #16]
	b.eq	.LBB11_92
.LBB11_64:
	mov	w8, #10
	mov	w0, wzr
	strb	w8, [x20, x22]
	add	x8, x22, #1
	str	x14, [x3, #16]
	stp	x20, x8, [x3]
.LBB11_65:
	.cfi_def_cfa wsp, 256
	ldp	x20, x19, [sp, #240]
	ldp	x22, x21, [sp, #224]
	ldp	x24, x23, [sp, #208]
	ldp	x26, x25, [sp, #192]
	ldp	x28, x27, [sp, #176]
	ldp	x29, x30, [sp, #160]
	add	sp, sp, #256
	.cfi_def_cfa_offset 0
	.cfi_restore w19
	.cfi_restore w20
	.cfi_restore w21
	.cfi_restore w22
	.cfi_restore w23
	.cfi_restore w24
	.cfi_restore w25
	.cfi_restore w26
	.cfi_restore w27
	.cfi_restore w28
	.cfi_restore w30
	.cfi_restore w29
	ret
.LBB11_66:
	.cfi_restore_state
	cmp	x16, #32
	b.hs	.LBB11_70
	mov	x9, xzr
	b	.LBB11_74
.LBB11_68:
	cmp	x2, #32
	b.hs	.LBB11_81
	mov	x8, xzr
	b	.LBB11_85
.LBB11_70:
	sub	x11, x29, #64
	add	x12, x8, x20
	and	x10, x16, #0x18
	add	x11, x15, x11
	and	x9, x16, #0xffffffffffffffe0
	add	x12, x12, #16
	add	x11, x11, #16
	and	x13, x16, #0xffffffffffffffe0
.LBB11_71:
	ldp	q0, q1, [x11, #-16]
	subs	x13, x13, #32
	add	x11, x11, #32
	stp	q0, q1, [x12, #-16]
	add	x12, x12, #32
	b.ne	.LBB11_71
	cmp	x16, x9
	b.eq	.LBB11_47
	cbz	x10, .LBB11_44
.LBB11_74:
	mov	x10, x9
	and	x9, x16, #0xfffffffffffffff8
	sub	x12, x29, #64
	add	x11, x15, x10
	add	x13, x8, x10
	sub	x10, x10, x9
	add	x11, x12, x11
	add	x12, x20, x13
.LBB11_75:
	ldr	d0, [x11], #8
	adds	x10, x10, #8
	str	d0, [x12], #8
	b.ne	.LBB11_75
	cmp	x16, x9
	b.eq	.LBB11_47
	b	.LBB11_44
.LBB11_77:
	mov	x0, x3
	mov	w1, #2
	mov	x27, x16
	mov	x22, x15
	mov	x21, x3
	bl	"std_alloc::vec::Vec::grow_amortized::<#582fc6be45daf619>"
	cbz	w0, .LBB11_96
	ldp	x19, x14, [x21, #8]
	mov	x3, x21
	ldr	x20, [x21]
	mov	x15, x22
	mov	x16, x27
	b	.LBB11_39
.LBB11_79:
	mov	x0, x3
	mov	x1, x16
	mov	x21, x15
	mov	x22, x16
	mov	x19, x3
	bl	"std_alloc::vec::Vec::grow_amortized::<#582fc6be45daf619>"
	cbz	w0, .LBB11_96
	ldp	x8, x14, [x19, #8]
	mov	x3, x19
	ldr	x20, [x19]
	mov	x15, x21
	mov	x16, x22
	b	.LBB11_40
.LBB11_81:
	add	x11, x21, x20
	and	x9, x2, #0x18
	and	x8, x2, #0xffffffffffffffe0
	and	x10, x26, #0xffffffffffffffe0
	add	x11, x11, #16
.LBB11_82:
	ldp	q0, q1, [x28, #-16]
	subs	x10, x10, #32
	add	x28, x28, #32
	stp	q0, q1, [x11, #-16]
	add	x11, x11, #32
	b.ne	.LBB11_82
	cmp	x2, x8
	b.eq	.LBB11_63
	cbz	x9, .LBB11_60
.LBB11_85:
	and	x9, x26, #0xfffffffffffffff8
	add	x10, sp, #80
	add	x11, x21, x8
	sub	x9, x8, x9
	add	x10, x10, x8
	and	x8, x2, #0xfffffffffffffff8
	add	x11, x20, x11
.LBB11_86:
	ldr	d0, [x10, x25]
	adds	x9, x9, #8
	add	x10, x10, #8
	str	d0, [x11], #8
	b.ne	.LBB11_86
	cmp	x2, x8
	b.eq	.LBB11_63
	b	.LBB11_60
.LBB11_88:
	mov	x0, x3
	mov	x1, x2
	mov	x19, x3
	bl	"std_alloc::vec::Vec::grow_amortized::<#582fc6be45daf619>"
	cbz	w0, .LBB11_96
	ldp	x22, x14, [x19, #8]
	mov	x3, x19
	ldr	x20, [x19]
	ldr	x2, [sp, #56]
	b	.LBB11_48
.LBB11_90:
	mov	x0, x3
	mov	x1, x2
	mov	x22, x2
	mov	x19, x3
	bl	"std_alloc::vec::Vec::grow_amortized::<#582fc6be45daf619>"
	cbz	w0, .LBB11_96
	ldp	x21, x14, [x19, #8]
	mov	x3, x19
	ldr	x20, [x19]
	mov	x2, x22
	b	.LBB11_56
.LBB11_92:
	mov	x0, x3
	mov	w1, #1
	mov	x19, x3
	bl	"std_alloc::vec::Vec::grow_amortized::<#582fc6be45daf619>"
	mov	w8, w0
	mov	w0, #1
	cbz	w8, .LBB11_65
	ldp	x22, x14, [x19, #8]
	mov	x3, x19
	ldr	x20, [x19]
	b	.LBB11_64
.LBB11_94:
	mov	x0, x3
	mov	w1, #2
	mov	x19, x3
	bl	"std_alloc::vec::Vec::grow_amortized::<#582fc6be45daf619>"
	cbz	w0, .LBB11_96
	ldp	x9, x14, [x19, #8]
	mov	x2, x20
	ldr	x1, [sp, #72]
	mov	x3, x19
	b	.LBB11_34
.LBB11_96:
	mov	w0, #1
	b	.LBB11_65
.Lfunc_end11:
	.size	"utf16_program::lines::append_unpaired::<#689013dfc86db972>", .Lfunc_end11-"utf16_program::lines::append_unpaired::<#689013dfc86db972>"
	.cfi_endproc

	.section	".text.utf16_units::text::count_few::<#418c2b53cf60437c>","ax",@progbits
	.p2align	2
	.type	"utf16_units::text::count_few::<#418c2b53cf60437c>",@function
"utf16_units::text::count_few::<#418c2b53cf60437c>":
	.cfi_startproc
	mov	x8, xzr
	cbz	x1, .LBB12_2
.LBB12_1:
	ldrb	w9, [x0, #1]
	mov	w10, #4
	add	x8, x8, #1
	and	w9, w9, #0xfc
	cmp	w9, #216
	mov	w9, #2
	csel	x9, x10, x9, eq
	subs	x1, x1, x9
	add	x0, x0, x9
	b.ne	.LBB12_1
.LBB12_2:
	mov	x0, x8
	ret
.Lfunc_end12:
	.size	"utf16_units::text::count_few::<#418c2b53cf60437c>", .Lfunc_end12-"utf16_units::text::count_few::<#418c2b53cf60437c>"
	.cfi_endproc

	.section	.rodata.cst16,"aM",@progbits,16
	.p2align	4, 0x0
.LCPI13_0:
	.byte	1
	.byte	2
	.byte	4
	.byte	8
	.byte	16
	.byte	32
	.byte	64
	.byte	128
	.byte	1
	.byte	2
	.byte	4
	.byte	8
	.byte	16
	.byte	32
	.byte	64
	.byte	128
.LCPI13_1:
	.byte	41
	.byte	58
	.byte	32
	.byte	105
	.byte	110
	.byte	99
	.byte	111
	.byte	109
	.byte	112
	.byte	108
	.byte	101
	.byte	116
	.byte	101
	.byte	32
	.byte	99
	.byte	104
	.section	.rodata.cst8,"aM",@progbits,8
	.p2align	3, 0x0
.LCPI13_2:
	.byte	97
	.byte	114
	.byte	97
	.byte	99
	.byte	116
	.byte	101
	.byte	114
	.byte	10
	.section	.text.main,"ax",@progbits
	.globl	proved_main_aarch64
	.hidden	proved_main_aarch64
	.p2align	2
	.type	proved_main_aarch64,@function
proved_main_aarch64:
	.cfi_startproc
	hint	#34
	stp	d15, d14, [sp, #-160]!
	.cfi_def_cfa_offset 160
	stp	d13, d12, [sp, #16]
	stp	d11, d10, [sp, #32]
	stp	d9, d8, [sp, #48]
	stp	x29, x30, [sp, #64]
	stp	x28, x27, [sp, #80]
	stp	x26, x25, [sp, #96]
	stp	x24, x23, [sp, #112]
	stp	x22, x21, [sp, #128]
	stp	x20, x19, [sp, #144]
	add	x29, sp, #64
	.cfi_def_cfa w29, 96
	.cfi_offset w19, -8
	.cfi_offset w20, -16
	.cfi_offset w21, -24
	.cfi_offset w22, -32
	.cfi_offset w23, -40
	.cfi_offset w24, -48
	.cfi_offset w25, -56
	.cfi_offset w26, -64
	.cfi_offset w27, -72
	.cfi_offset w28, -80
	.cfi_offset w30, -88
	.cfi_offset w29, -96
	.cfi_offset b8, -104
	.cfi_offset b9, -112
	.cfi_offset b10, -120
	.cfi_offset b11, -128
	.cfi_offset b12, -136
	.cfi_offset b13, -144
	.cfi_offset b14, -152
	.cfi_offset b15, -160
	.cfi_remember_state
	sub	sp, sp, #3072
	str	xzr, [sp]
	sub	sp, sp, #1312
	mov	w0, #13
	mov	w1, #1
	str	xzr, [sp]
	sub	x28, x29, #224
	bl	__sysv_signal
	mov	x25, xzr
	mov	x20, xzr
	sub	x19, x29, #88
	add	x26, sp, #104
	stp	xzr, xzr, [x29, #-168]
	stur	x19, [x29, #-176]
.LBB13_1:
	mov	w27, #64
	mov	w22, #256
	b	.LBB13_3
.LBB13_2:
	adds	x8, x22, x22
	csinv	x22, x8, xzr, lo
	subs	w27, w27, #1
	b.eq	.LBB13_231
.LBB13_3:
	sub	x21, x29, #88
	stp	xzr, xzr, [x26, #8]
	str	x21, [sp, #104]
	cbnz	x22, .LBB13_8
	mov	x23, xzr
.LBB13_5:
	mov	x0, x20
	mov	x1, x21
	mov	x2, x23
	bl	rattle_arg
	mov	w8, #36
	cmn	x0, #1
	mov	w9, #22
	csel	w8, w9, w8, eq
	mov	x24, x0
	csel	w0, wzr, w8, gt
	bl	rattle_set_errno
	bl	rattle_errno
	cmp	w0, #36
	b.ne	.LBB13_11
	ldr	x8, [sp, #120]
	cbz	x8, .LBB13_2
	mov	x0, x21
	bl	rattle_dealloc
	b	.LBB13_2
.LBB13_8:
	add	x0, sp, #104
	mov	x1, x22
	bl	"std_alloc::vec::Vec::grow_amortized::<#582fc6be45daf619>"
	cbz	w0, .LBB13_229
	ldp	x21, x8, [sp, #104]
	add	x23, x8, x22
	cmp	x8, x23
	b.hs	.LBB13_5
	add	x0, x21, x8
	mov	w1, wzr
	mov	x2, x22
	bl	memset
	b	.LBB13_5
.LBB13_11:
	cbnz	w0, .LBB13_17
	cmp	x24, x23
	add	x0, sp, #104
	mov	x1, x21
	csel	x8, x24, x23, lo
	cmp	x24, #0
	ldr	x23, [sp, #120]
	csel	x22, x8, xzr, gt
	stp	xzr, xzr, [sp, #104]
	mov	x2, x22
	str	xzr, [sp, #120]
	bl	"core::str::utf8::from_utf8"
	ldrb	w8, [sp, #104]
	cmp	w8, #1
	b.eq	.LBB13_269
	ldur	x8, [x29, #-160]
	cmp	x8, x25
	b.eq	.LBB13_15
.LBB13_14:
	mov	w8, #24
	add	x20, x20, #1
	madd	x8, x25, x8, x19
	add	x25, x25, #1
	cmn	x20, #1
	stp	x21, x22, [x8]
	str	x23, [x8, #16]
	stur	x25, [x29, #-168]
	b.ne	.LBB13_1
	b	.LBB13_19
.LBB13_15:
	sub	x0, x29, #176
	bl	"std_alloc::vec::Vec::grow_amortized::<#c6aca457386e9665>"
	cbz	w0, .LBB13_299
	ldp	x19, x25, [x29, #-176]
	b	.LBB13_14
.LBB13_17:
	ldr	x8, [sp, #120]
	cbz	x8, .LBB13_19
	mov	x0, x21
	bl	rattle_dealloc
.LBB13_19:
	ldur	x20, [x29, #-176]
	ldur	x22, [x29, #-160]
	cbz	x25, .LBB13_22
	ldr	x21, [x20]
	ldr	x26, [x20, #16]
	cmp	x25, #1
	b.ne	.LBB13_23
	mov	w25, wzr
	mov	x19, xzr
	mov	x23, xzr
	mov	x24, xzr
	cbnz	x26, .LBB13_25
	b	.LBB13_26
.LBB13_22:
	mov	x19, xzr
	mov	x23, xzr
	mov	x24, xzr
	b	.LBB13_26
.LBB13_23:
	ldr	x19, [x20, #24]
	ldr	x24, [x20, #40]
	cmp	x25, #2
	b.ne	.LBB13_34
	ldr	x23, [x20, #32]
	mov	w25, #1
	cbz	x26, .LBB13_26
.LBB13_25:
	mov	x0, x21
	bl	rattle_dealloc
.LBB13_26:
	cbz	x22, .LBB13_28
	mov	x0, x20
	bl	rattle_dealloc
.LBB13_28:
	cbz	w25, .LBB13_241
	cmp	x23, #4
	b.eq	.LBB13_43
	cmp	x23, #2
	b.ne	.LBB13_47
	ldrb	w8, [x19, #1]
	ldrb	w9, [x19]
	lsl	x10, x8, #8
	orr	x9, x10, x9, lsl #16
	orr	x8, x9, x8
	sub	x9, x8, #1734, lsl #12
	cmp	x9, #1381
	b.eq	.LBB13_260
	mov	w9, #25957
	movk	w9, #98, lsl #16
	cmp	x8, x9
	b.ne	.LBB13_47
	mov	w20, #1
	mov	w23, #1
	cbnz	x24, .LBB13_45
	b	.LBB13_46
.LBB13_34:
	ldr	x8, [x20, #64]
	cbz	x8, .LBB13_36
	ldr	x0, [x20, #48]
	bl	rattle_dealloc
.LBB13_36:
	cbz	x24, .LBB13_38
	mov	x0, x19
	bl	rattle_dealloc
.LBB13_38:
	cbz	x26, .LBB13_40
	mov	x0, x21
	bl	rattle_dealloc
.LBB13_40:
	subs	x19, x25, #3
	b.ne	.LBB13_224
.LBB13_41:
	cbz	x22, .LBB13_241
	mov	x0, x20
	b	.LBB13_49
.LBB13_43:
	ldr	w8, [x19]
	mov	x9, #30049
	movk	x9, #28532, lsl #16
	orr	x8, x8, x8, lsl #32
	orr	x9, x9, x9, lsl #32
	cmp	x8, x9
	b.ne	.LBB13_47
	mov	w20, wzr
	mov	w23, wzr
	cbz	x24, .LBB13_46
.LBB13_45:
	mov	x0, x19
	bl	rattle_dealloc
.LBB13_46:
	sub	x21, x29, #88
	add	x0, sp, #104
	mov	w1, wzr
	mov	w2, #4096
	stp	xzr, xzr, [x29, #-240]
	add	x25, sp, #104
	stur	x21, [x29, #-248]
	mov	w22, #4096
	bl	memset
	mov	x19, xzr
	mov	x28, xzr
	mov	x27, xzr
	mov	x26, xzr
	b	.LBB13_51
.LBB13_47:
	cbz	x24, .LBB13_241
	mov	x0, x19
.LBB13_49:
	bl	rattle_dealloc
	b	.LBB13_241
.LBB13_50:
	mvn	x9, x26
	mov	w10, #4096
	mov	x19, x8
	sub	x9, x9, x8
	sub	x10, x10, x8
	cmp	x9, x10
	csel	x22, x9, x10, lo
	cbz	x22, .LBB13_289
.LBB13_51:
	add	x1, x25, x19
	mov	w0, wzr
	mov	x2, x22
	bl	read
	tbnz	x0, #63, .LBB13_279
	str	x19, [sp, #32]
	cbz	x0, .LBB13_282
	cmp	x0, x22
	add	x10, sp, #104
	adrp	x25, .LCPI13_0
	csel	x11, x0, x22, lo
	cmp	w20, #1
	stur	xzr, [x29, #-240]
	add	x12, x11, x19
	str	x11, [sp, #24]
	str	x12, [sp, #64]
	b.ne	.LBB13_103
	stp	x27, xzr, [sp, #40]
	add	x27, sp, #104
	add	x19, x11, x19
	add	x8, x27, x12
	str	x26, [sp, #72]
	sub	x9, x8, #32
	str	x28, [sp, #56]
	str	x9, [sp, #8]
	sub	x9, x8, #16
	sub	x8, x8, #8
	str	x9, [sp]
	str	x8, [sp, #16]
	tbnz	w23, #0, .LBB13_113
.LBB13_55:
	mov	x20, xzr
	mov	x28, xzr
	mov	x26, xzr
	sub	x21, x19, xzr
	add	x24, x27, xzr
	cmp	x21, #2
	b.eq	.LBB13_76
.LBB13_56:
	cmp	x21, #7
	b.hi	.LBB13_60
	cmp	x21, #4
	b.eq	.LBB13_68
	cmp	x21, #6
	b.eq	.LBB13_65
	cbnz	x21, .LBB13_78
	b	.LBB13_165
.LBB13_60:
	cmp	x21, #64
	b.hi	.LBB13_78
	tbnz	w21, #0, .LBB13_78
	cmp	x21, #15
	b.hi	.LBB13_70
	ldr	d0, [x24]
	ushr	v1.4h, v0.4h, #8
	movi	v0.4h, #216
	bic	v1.4h, #7
	cmeq	v1.4h, v1.4h, v0.4h
	umaxv	h1, v1.4h
	fmov	w8, s1
	tbnz	w8, #0, .LBB13_78
	ldr	x8, [sp, #16]
	ldr	d1, [x8]
	ushr	v1.4h, v1.4h, #8
	bic	v1.4h, #7
	cmeq	v0.4h, v1.4h, v0.4h
	umaxv	h0, v0.4h
	b	.LBB13_73
.LBB13_65:
	ldrb	w8, [x24, #1]
	and	w8, w8, #0xf8
	cmp	w8, #216
	b.eq	.LBB13_78
	ldrb	w8, [x24, #3]
	and	w8, w8, #0xf8
	cmp	w8, #216
	b.eq	.LBB13_78
	ldrb	w8, [x24, #5]
	b	.LBB13_77
.LBB13_68:
	ldrb	w8, [x24, #1]
	and	w8, w8, #0xf8
	cmp	w8, #216
	b.eq	.LBB13_78
	ldrb	w8, [x24, #3]
	b	.LBB13_77
.LBB13_70:
	cmp	x21, #31
	b.hi	.LBB13_74
	ldr	q1, [x24]
	movi	v0.8b, #248
	shrn	v2.8b, v1.8h, #8
	movi	v1.8b, #216
	and	v2.8b, v2.8b, v0.8b
	cmeq	v2.8b, v2.8b, v1.8b
	umaxv	b2, v2.8b
	fmov	w8, s2
	tbnz	w8, #0, .LBB13_78
	ldr	x8, [sp]
	ldr	q2, [x8]
	shrn	v2.8b, v2.8h, #8
	and	v0.8b, v2.8b, v0.8b
	cmeq	v0.8b, v0.8b, v1.8b
	umaxv	b0, v0.8b
.LBB13_73:
	fmov	w8, s0
	tbnz	w8, #0, .LBB13_78
	b	.LBB13_165
.LBB13_74:
	ldp	q1, q0, [x24]
	uzp2	v2.16b, v1.16b, v0.16b
	movi	v0.16b, #248
	movi	v1.16b, #216
	and	v2.16b, v2.16b, v0.16b
	cmeq	v3.16b, v2.16b, v1.16b
	ldr	q2, [x25, :lo12:.LCPI13_0]
	and	v3.16b, v3.16b, v2.16b
	addp	v3.16b, v3.16b, v3.16b
	addp	v3.16b, v3.16b, v3.16b
	addp	v3.16b, v3.16b, v3.16b
	umov	w8, v3.h[0]
	cbnz	w8, .LBB13_78
	ldr	x8, [sp, #8]
	ldp	q4, q3, [x8]
	uzp2	v3.16b, v4.16b, v3.16b
	and	v0.16b, v3.16b, v0.16b
	cmeq	v0.16b, v0.16b, v1.16b
	and	v0.16b, v0.16b, v2.16b
	addp	v0.16b, v0.16b, v0.16b
	addp	v0.16b, v0.16b, v0.16b
	addp	v0.16b, v0.16b, v0.16b
	umov	w8, v0.h[0]
	cbnz	w8, .LBB13_78
	b	.LBB13_164
.LBB13_76:
	ldrb	w8, [x24, #1]
.LBB13_77:
	and	w8, w8, #0xf8
	cmp	w8, #216
	b.ne	.LBB13_165
.LBB13_78:
	add	x0, x27, x26
	sub	x1, x19, x26
	bl	"utf16_units::validate::valid_len::<#418c2b53cf60437c>"
	subs	x1, x21, x0
	b.eq	.LBB13_164
	mov	x22, x0
	add	x0, x24, x0
	bl	"utf16_units::validate::error_len::<#418c2b53cf60437c>"
	and	w8, w0, #0xff
	mov	w23, w0
	cmp	w8, #1
	b.ne	.LBB13_86
	ldrh	w21, [x24, x22]
	cmp	x22, #64
	b.lo	.LBB13_87
.LBB13_81:
	mov	x12, xzr
	mov	x8, x22
.LBB13_82:
	ldp	q1, q0, [x24]
	sub	x8, x8, #64
	ldp	q3, q2, [x24, #32]
	cmp	x8, #63
	add	x24, x24, #64
	uzp2	v0.16b, v1.16b, v0.16b
	movi	v1.16b, #252
	uzp2	v2.16b, v3.16b, v2.16b
	movi	v3.16b, #220
	and	v0.16b, v0.16b, v1.16b
	and	v1.16b, v2.16b, v1.16b
	ldr	q2, [x25, :lo12:.LCPI13_0]
	cmeq	v0.16b, v0.16b, v3.16b
	cmeq	v1.16b, v1.16b, v3.16b
	and	v0.16b, v0.16b, v2.16b
	and	v1.16b, v1.16b, v2.16b
	addp	v0.16b, v0.16b, v1.16b
	addp	v0.16b, v0.16b, v0.16b
	addp	v0.16b, v0.16b, v0.16b
	fmov	w9, s0
	fmov	s0, w9
	cnt	v0.8b, v0.8b
	addv	b0, v0.8b
	fmov	w9, s0
	add	x12, x12, x9
	b.hi	.LBB13_82
	tst	x22, #0x3e
	b.eq	.LBB13_98
	and	x8, x22, #0xffffffffffffffc0
	sub	x9, x22, #2
	cmp	x9, x8
	cset	w9, ne
	mvn	x9, x9
	add	x9, x9, x22
	sub	x10, x9, x8
	cmp	x10, #16
	b.hs	.LBB13_88
	and	x8, x22, #0xffffffffffffffc0
	b	.LBB13_96
.LBB13_86:
	mov	w21, wzr
	cmp	x22, #64
	b.hs	.LBB13_81
.LBB13_87:
	add	x0, x27, x26
	mov	x1, x22
	bl	"utf16_units::text::count_few::<#418c2b53cf60437c>"
	b	.LBB13_99
.LBB13_88:
	lsr	x9, x10, #1
	cmp	x10, #64
	add	x10, x9, #1
	b.hs	.LBB13_90
	mov	x11, xzr
	b	.LBB13_93
.LBB13_90:
	movi	v1.2d, #0000000000000000
	movi	v25.2d, #0000000000000000
	ands	x11, x10, #0x1f
	movi	v5.2d, #0000000000000000
	movi	v16.2d, #0000000000000000
	add	x13, x26, x8
	movi	v3.2d, #0000000000000000
	movi	v4.2d, #0000000000000000
	add	x14, x27, #33
	movi	v2.2d, #0000000000000000
	movi	v18.2d, #0000000000000000
	add	x13, x14, x13
	movi	v6.2d, #0000000000000000
	mov	v1.d[0], x12
	mov	w12, #32
	movi	v21.2d, #0000000000000000
	movi	v7.2d, #0000000000000000
	csel	x12, x12, x11, eq
	movi	v22.2d, #0000000000000000
	movi	v19.2d, #0000000000000000
	sub	x11, x10, x12
	movi	v20.2d, #0000000000000000
	movi	v17.2d, #0000000000000000
	sub	x14, x10, x12
	movi	v23.2d, #0000000000000000
.LBB13_91:
	ldur	q24, [x13, #-32]
	str	q25, [sp, #80]
	sub	x15, x13, #8
	ldr	q25, [x13]
	ldur	d28, [x13, #-16]
	add	x16, x13, #24
	mov	v26.16b, v24.16b
	ldr	d29, [x13, #16]
	subs	x14, x14, #32
	mov	v27.16b, v25.16b
	ld1	{ v28.s }[2], [x15]
	sub	x15, x13, #4
	ld1	{ v29.s }[2], [x16]
	add	x16, x13, #28
	mov	v26.b[1], v24.b[2]
	mov	v27.b[1], v25.b[2]
	ld1	{ v28.h }[6], [x15]
	ldursb	w15, [x13, #-2]
	ld1	{ v29.h }[6], [x16]
	ldrsb	w16, [x13, #30]
	add	x13, x13, #64
	mov	v26.b[2], v24.b[4]
	mov	v27.b[2], v25.b[4]
	mov	v26.b[3], v24.b[6]
	mov	v27.b[3], v25.b[6]
	mov	v26.b[4], v24.b[8]
	mov	v27.b[4], v25.b[8]
	mov	v26.b[5], v24.b[10]
	mov	v27.b[5], v25.b[10]
	mov	v26.b[6], v24.b[12]
	mov	v27.b[6], v25.b[12]
	mov	v26.b[7], v24.b[14]
	movi	v24.16b, #252
	mov	v27.b[7], v25.b[14]
	movi	v25.16b, #220
	mov	v26.b[8], v28.b[0]
	mov	v27.b[8], v29.b[0]
	mov	v26.b[9], v28.b[2]
	mov	v27.b[9], v29.b[2]
	mov	v26.b[10], v28.b[4]
	mov	v27.b[10], v29.b[4]
	mov	v26.b[11], v28.b[6]
	mov	v27.b[11], v29.b[6]
	mov	v26.b[12], v28.b[8]
	mov	v27.b[12], v29.b[8]
	mov	v26.b[13], v28.b[10]
	mov	v27.b[13], v29.b[10]
	mov	v26.b[14], v28.b[12]
	mov	v27.b[14], v29.b[12]
	mov	v26.b[15], w15
	mov	w15, #1
	mov	v27.b[15], w16
	dup	v28.2d, x15
	and	v26.16b, v26.16b, v24.16b
	and	v24.16b, v27.16b, v24.16b
	cmeq	v26.16b, v26.16b, v25.16b
	cmeq	v24.16b, v24.16b, v25.16b
	ushll	v25.8h, v26.8b, #0
	ushll2	v26.8h, v26.16b, #0
	ushll	v27.8h, v24.8b, #0
	ushll2	v24.8h, v24.16b, #0
	ushll	v29.4s, v25.4h, #0
	ushll2	v25.4s, v25.8h, #0
	ushll	v30.4s, v26.4h, #0
	ushll2	v26.4s, v26.8h, #0
	ushll	v31.4s, v27.4h, #0
	ushll2	v27.4s, v27.8h, #0
	ushll	v8.4s, v24.4h, #0
	ushll2	v24.4s, v24.8h, #0
	ushll	v10.2d, v25.2s, #0
	ushll2	v25.2d, v25.4s, #0
	ushll	v9.2d, v29.2s, #0
	ushll2	v29.2d, v29.4s, #0
	ushll	v11.2d, v30.2s, #0
	ushll2	v30.2d, v30.4s, #0
	ushll	v12.2d, v26.2s, #0
	ushll2	v26.2d, v26.4s, #0
	ushll	v13.2d, v31.2s, #0
	ushll2	v31.2d, v31.4s, #0
	ushll	v14.2d, v27.2s, #0
	ushll	v15.2d, v8.2s, #0
	ushll2	v27.2d, v27.4s, #0
	ushll2	v8.2d, v8.4s, #0
	ushll	v0.2d, v24.2s, #0
	ushll2	v24.2d, v24.4s, #0
	and	v25.16b, v25.16b, v28.16b
	and	v9.16b, v9.16b, v28.16b
	and	v29.16b, v29.16b, v28.16b
	and	v10.16b, v10.16b, v28.16b
	and	v11.16b, v11.16b, v28.16b
	and	v30.16b, v30.16b, v28.16b
	and	v12.16b, v12.16b, v28.16b
	and	v26.16b, v26.16b, v28.16b
	and	v13.16b, v13.16b, v28.16b
	and	v31.16b, v31.16b, v28.16b
	and	v14.16b, v14.16b, v28.16b
	and	v15.16b, v15.16b, v28.16b
	and	v27.16b, v27.16b, v28.16b
	and	v8.16b, v8.16b, v28.16b
	and	v0.16b, v0.16b, v28.16b
	and	v24.16b, v24.16b, v28.16b
	add	v16.2d, v16.2d, v25.2d
	ldr	q25, [sp, #80]
	add	v18.2d, v18.2d, v26.2d
	add	v2.2d, v2.2d, v12.2d
	add	v4.2d, v4.2d, v30.2d
	add	v3.2d, v3.2d, v11.2d
	add	v5.2d, v5.2d, v29.2d
	add	v25.2d, v25.2d, v10.2d
	add	v1.2d, v1.2d, v9.2d
	add	v23.2d, v23.2d, v24.2d
	add	v17.2d, v17.2d, v0.2d
	add	v20.2d, v20.2d, v8.2d
	add	v22.2d, v22.2d, v27.2d
	add	v19.2d, v19.2d, v15.2d
	add	v7.2d, v7.2d, v14.2d
	add	v21.2d, v21.2d, v31.2d
	add	v6.2d, v6.2d, v13.2d
	b.ne	.LBB13_91
	add	v0.2d, v22.2d, v16.2d
	add	v16.2d, v23.2d, v18.2d
	cmp	x12, #9
	add	v5.2d, v21.2d, v5.2d
	add	v1.2d, v6.2d, v1.2d
	add	v3.2d, v19.2d, v3.2d
	add	v4.2d, v20.2d, v4.2d
	add	v6.2d, v7.2d, v25.2d
	add	v2.2d, v17.2d, v2.2d
	add	v0.2d, v0.2d, v16.2d
	add	v1.2d, v1.2d, v3.2d
	add	v2.2d, v6.2d, v2.2d
	add	v3.2d, v5.2d, v4.2d
	add	v1.2d, v1.2d, v2.2d
	add	v0.2d, v3.2d, v0.2d
	add	v0.2d, v1.2d, v0.2d
	addp	d0, v0.2d
	fmov	x12, d0
	b.lo	.LBB13_102
.LBB13_93:
	movi	v0.2d, #0000000000000000
	ands	x13, x10, #0x7
	mov	w14, #8
	movi	v1.2d, #0000000000000000
	csel	x13, x14, x13, eq
	movi	v2.2d, #0000000000000000
	movi	v3.2d, #0000000000000000
	sub	x10, x10, x13
	mvn	x9, x9
	mov	v0.d[0], x12
	add	x12, x26, x8
	add	x8, x8, x10, lsl #1
	add	x12, x12, x11, lsl #1
	add	x10, x9, x11
	add	x9, x27, #1
	add	x10, x10, x13
	add	x9, x9, x12
.LBB13_94:
	ld2	{ v4.8b, v5.8b }, [x9], #16
	movi	v6.8b, #252
	movi	v7.8b, #220
	mov	w11, #1
	adds	x10, x10, #8
	and	v4.8b, v4.8b, v6.8b
	dup	v6.2d, x11
	cmeq	v4.8b, v4.8b, v7.8b
	ushll	v4.8h, v4.8b, #0
	ushll2	v5.4s, v4.8h, #0
	ushll	v4.4s, v4.4h, #0
	ushll2	v7.2d, v5.4s, #0
	ushll	v16.2d, v4.2s, #0
	ushll2	v4.2d, v4.4s, #0
	ushll	v5.2d, v5.2s, #0
	and	v7.16b, v7.16b, v6.16b
	and	v16.16b, v16.16b, v6.16b
	and	v4.16b, v4.16b, v6.16b
	and	v5.16b, v5.16b, v6.16b
	add	v3.2d, v3.2d, v7.2d
	add	v2.2d, v2.2d, v4.2d
	add	v0.2d, v0.2d, v16.2d
	add	v1.2d, v1.2d, v5.2d
	b.ne	.LBB13_94
	add	v0.2d, v0.2d, v1.2d
	add	v1.2d, v2.2d, v3.2d
	add	v0.2d, v0.2d, v1.2d
	addp	d0, v0.2d
	fmov	x12, d0
.LBB13_96:
	add	x9, x8, x26
	add	x10, x27, #1
	sub	x8, x22, x8
	add	x9, x10, x9
.LBB13_97:
	ldrb	w10, [x9], #2
	sub	x8, x8, #2
	and	w10, w10, #0xfc
	cmp	w10, #220
	cinc	x12, x12, eq
	cmp	x8, #1
	b.hi	.LBB13_97
.LBB13_98:
	lsr	x8, x22, #1
	sub	x0, x8, x12
.LBB13_99:
	and	w8, w23, #0xff
	add	x28, x0, x28
	add	x22, x22, x26
	cmp	w8, #1
	b.ne	.LBB13_166
	ldr	x8, [sp, #72]
	sub	x2, x29, #248
	mov	w1, w21
	add	x0, x22, x8
	bl	"utf16_program::lines::append_unpaired::<#689013dfc86db972>"
	and	w8, w0, #0xff
	tbnz	w8, #0, .LBB13_228
	add	x26, x22, #2
	add	x20, x20, #1
	sub	x21, x19, x26
	add	x24, x27, x26
	cmp	x21, #2
	b.ne	.LBB13_56
	b	.LBB13_76
.LBB13_102:
	add	x8, x8, x11, lsl #1
	b	.LBB13_96
.LBB13_103:
	subs	x19, x12, #2
	b.hs	.LBB13_105
	mov	w20, wzr
	mov	x19, xzr
	add	x25, sp, #104
	b	.LBB13_208
.LBB13_105:
	ldrb	w9, [sp, #104]
	ldrb	w8, [sp, #105]
	str	x28, [sp, #56]
	str	x27, [sp, #40]
	cmp	w9, #255
	b.eq	.LBB13_109
	cmp	w9, #254
	b.ne	.LBB13_111
	cmp	w8, #255
	b.ne	.LBB13_111
	mov	w9, #2
	orr	x27, x10, #0x2
	b	.LBB13_112
.LBB13_109:
	cmp	w8, #254
	b.ne	.LBB13_111
	add	x8, sp, #104
	add	x26, x26, #2
	orr	x27, x10, #0x2
	add	x8, x8, x12
	str	x26, [sp, #72]
	sub	x9, x8, #32
	str	x9, [sp, #8]
	sub	x9, x8, #16
	sub	x8, x8, #8
	str	x8, [sp, #16]
	mov	w8, #2
	str	x9, [sp]
	str	x8, [sp, #48]
	b	.LBB13_55
.LBB13_111:
	mov	x9, xzr
	add	x27, sp, #104
.LBB13_112:
	add	x8, sp, #104
	sub	x19, x12, x9
	str	x9, [sp, #48]
	add	x8, x8, x12
	add	x26, x9, x26
	sub	x9, x8, #32
	str	x26, [sp, #72]
	str	x9, [sp, #8]
	sub	x9, x8, #16
	sub	x8, x8, #8
	str	x9, [sp]
	str	x8, [sp, #16]
.LBB13_113:
	mov	x20, xzr
	mov	x28, xzr
	mov	x26, xzr
	sub	x21, x19, xzr
	add	x24, x27, xzr
	cmp	x21, #2
	b.eq	.LBB13_134
.LBB13_114:
	cmp	x21, #7
	b.hi	.LBB13_118
	cmp	x21, #4
	b.eq	.LBB13_126
	cmp	x21, #6
	b.eq	.LBB13_123
	cbnz	x21, .LBB13_136
	b	.LBB13_162
.LBB13_118:
	cmp	x21, #64
	b.hi	.LBB13_136
	tbnz	w21, #0, .LBB13_136
	cmp	x21, #15
	b.hi	.LBB13_128
	movi	v0.4h, #248
	ldr	d2, [x24]
	movi	v1.4h, #216
	and	v2.8b, v2.8b, v0.8b
	cmeq	v2.4h, v2.4h, v1.4h
	umaxv	h2, v2.4h
	fmov	w8, s2
	tbnz	w8, #0, .LBB13_136
	ldr	x8, [sp, #16]
	ldr	d2, [x8]
	and	v0.8b, v2.8b, v0.8b
	cmeq	v0.4h, v0.4h, v1.4h
	umaxv	h0, v0.4h
	b	.LBB13_131
.LBB13_123:
	ldrb	w8, [x24]
	and	w8, w8, #0xf8
	cmp	w8, #216
	b.eq	.LBB13_136
	ldrb	w8, [x24, #2]
	and	w8, w8, #0xf8
	cmp	w8, #216
	b.eq	.LBB13_136
	ldrb	w8, [x24, #4]
	b	.LBB13_135
.LBB13_126:
	ldrb	w8, [x24]
	and	w8, w8, #0xf8
	cmp	w8, #216
	b.eq	.LBB13_136
	ldrb	w8, [x24, #2]
	b	.LBB13_135
.LBB13_128:
	cmp	x21, #31
	b.hi	.LBB13_132
	ldr	q0, [x24]
	movi	v1.8b, #216
	xtn	v2.8b, v0.8h
	movi	v0.8b, #248
	and	v2.8b, v2.8b, v0.8b
	cmeq	v2.8b, v2.8b, v1.8b
	umaxv	b2, v2.8b
	fmov	w8, s2
	tbnz	w8, #0, .LBB13_136
	ldr	x8, [sp]
	ldr	q2, [x8]
	xtn	v2.8b, v2.8h
	and	v0.8b, v2.8b, v0.8b
	cmeq	v0.8b, v0.8b, v1.8b
	umaxv	b0, v0.8b
.LBB13_131:
	fmov	w8, s0
	tbnz	w8, #0, .LBB13_136
	b	.LBB13_162
.LBB13_132:
	ldp	q1, q0, [x24]
	uzp1	v2.16b, v1.16b, v0.16b
	movi	v0.16b, #248
	movi	v1.16b, #216
	and	v2.16b, v2.16b, v0.16b
	cmeq	v3.16b, v2.16b, v1.16b
	ldr	q2, [x25, :lo12:.LCPI13_0]
	and	v3.16b, v3.16b, v2.16b
	addp	v3.16b, v3.16b, v3.16b
	addp	v3.16b, v3.16b, v3.16b
	addp	v3.16b, v3.16b, v3.16b
	umov	w8, v3.h[0]
	cbnz	w8, .LBB13_136
	ldr	x8, [sp, #8]
	ldp	q4, q3, [x8]
	uzp1	v3.16b, v4.16b, v3.16b
	and	v0.16b, v3.16b, v0.16b
	cmeq	v0.16b, v0.16b, v1.16b
	and	v0.16b, v0.16b, v2.16b
	addp	v0.16b, v0.16b, v0.16b
	addp	v0.16b, v0.16b, v0.16b
	addp	v0.16b, v0.16b, v0.16b
	umov	w8, v0.h[0]
	cbnz	w8, .LBB13_136
	b	.LBB13_161
.LBB13_134:
	ldrb	w8, [x24]
.LBB13_135:
	and	w8, w8, #0xf8
	cmp	w8, #216
	b.ne	.LBB13_162
.LBB13_136:
	add	x0, x27, x26
	sub	x1, x19, x26
	bl	"utf16_units::validate::valid_len::<#8b18edd9dd9aa8df>"
	subs	x1, x21, x0
	b.eq	.LBB13_161
	mov	x22, x0
	add	x0, x24, x0
	bl	"utf16_units::validate::error_len::<#8b18edd9dd9aa8df>"
	and	w8, w0, #0xff
	mov	w23, w0
	cmp	w8, #1
	b.ne	.LBB13_144
	ldrh	w8, [x24, x22]
	rev16	w21, w8
	cmp	x22, #64
	b.lo	.LBB13_145
.LBB13_139:
	mov	x12, xzr
	mov	x8, x22
.LBB13_140:
	ldp	q1, q0, [x24]
	sub	x8, x8, #64
	ldp	q3, q2, [x24, #32]
	cmp	x8, #63
	add	x24, x24, #64
	uzp1	v0.16b, v1.16b, v0.16b
	movi	v1.16b, #252
	uzp1	v2.16b, v3.16b, v2.16b
	movi	v3.16b, #220
	and	v0.16b, v0.16b, v1.16b
	and	v1.16b, v2.16b, v1.16b
	ldr	q2, [x25, :lo12:.LCPI13_0]
	cmeq	v0.16b, v0.16b, v3.16b
	cmeq	v1.16b, v1.16b, v3.16b
	and	v0.16b, v0.16b, v2.16b
	and	v1.16b, v1.16b, v2.16b
	addp	v0.16b, v0.16b, v1.16b
	addp	v0.16b, v0.16b, v0.16b
	addp	v0.16b, v0.16b, v0.16b
	fmov	w9, s0
	fmov	s0, w9
	cnt	v0.8b, v0.8b
	addv	b0, v0.8b
	fmov	w9, s0
	add	x12, x12, x9
	b.hi	.LBB13_140
	tst	x22, #0x3e
	b.eq	.LBB13_156
	and	x8, x22, #0xffffffffffffffc0
	sub	x9, x22, #2
	cmp	x9, x8
	cset	w9, ne
	mvn	x9, x9
	add	x9, x9, x22
	sub	x10, x9, x8
	cmp	x10, #16
	b.hs	.LBB13_146
	and	x8, x22, #0xffffffffffffffc0
	b	.LBB13_154
.LBB13_144:
	mov	w21, wzr
	cmp	x22, #64
	b.hs	.LBB13_139
.LBB13_145:
	add	x0, x27, x26
	mov	x1, x22
	bl	"utf16_units::text::count_few::<#8b18edd9dd9aa8df>"
	b	.LBB13_157
.LBB13_146:
	lsr	x9, x10, #1
	cmp	x10, #64
	add	x10, x9, #1
	b.hs	.LBB13_148
	mov	x11, xzr
	b	.LBB13_151
.LBB13_148:
	movi	v1.2d, #0000000000000000
	movi	v25.2d, #0000000000000000
	ands	x11, x10, #0x1f
	movi	v5.2d, #0000000000000000
	movi	v16.2d, #0000000000000000
	add	x13, x26, x8
	movi	v3.2d, #0000000000000000
	movi	v4.2d, #0000000000000000
	add	x14, x27, #32
	movi	v2.2d, #0000000000000000
	movi	v18.2d, #0000000000000000
	add	x13, x14, x13
	movi	v6.2d, #0000000000000000
	mov	v1.d[0], x12
	mov	w12, #32
	movi	v21.2d, #0000000000000000
	movi	v7.2d, #0000000000000000
	csel	x12, x12, x11, eq
	movi	v22.2d, #0000000000000000
	movi	v19.2d, #0000000000000000
	sub	x11, x10, x12
	movi	v20.2d, #0000000000000000
	movi	v17.2d, #0000000000000000
	sub	x14, x10, x12
	movi	v23.2d, #0000000000000000
.LBB13_149:
	ldur	q24, [x13, #-32]
	str	q25, [sp, #80]
	sub	x15, x13, #8
	ldr	q25, [x13]
	ldur	d28, [x13, #-16]
	add	x16, x13, #24
	mov	v26.16b, v24.16b
	ldr	d29, [x13, #16]
	subs	x14, x14, #32
	mov	v27.16b, v25.16b
	ld1	{ v28.s }[2], [x15]
	sub	x15, x13, #4
	ld1	{ v29.s }[2], [x16]
	add	x16, x13, #28
	mov	v26.b[1], v24.b[2]
	mov	v27.b[1], v25.b[2]
	ld1	{ v28.h }[6], [x15]
	ldursb	w15, [x13, #-2]
	ld1	{ v29.h }[6], [x16]
	ldrsb	w16, [x13, #30]
	add	x13, x13, #64
	mov	v26.b[2], v24.b[4]
	mov	v27.b[2], v25.b[4]
	mov	v26.b[3], v24.b[6]
	mov	v27.b[3], v25.b[6]
	mov	v26.b[4], v24.b[8]
	mov	v27.b[4], v25.b[8]
	mov	v26.b[5], v24.b[10]
	mov	v27.b[5], v25.b[10]
	mov	v26.b[6], v24.b[12]
	mov	v27.b[6], v25.b[12]
	mov	v26.b[7], v24.b[14]
	movi	v24.16b, #252
	mov	v27.b[7], v25.b[14]
	movi	v25.16b, #220
	mov	v26.b[8], v28.b[0]
	mov	v27.b[8], v29.b[0]
	mov	v26.b[9], v28.b[2]
	mov	v27.b[9], v29.b[2]
	mov	v26.b[10], v28.b[4]
	mov	v27.b[10], v29.b[4]
	mov	v26.b[11], v28.b[6]
	mov	v27.b[11], v29.b[6]
	mov	v26.b[12], v28.b[8]
	mov	v27.b[12], v29.b[8]
	mov	v26.b[13], v28.b[10]
	mov	v27.b[13], v29.b[10]
	mov	v26.b[14], v28.b[12]
	mov	v27.b[14], v29.b[12]
	mov	v26.b[15], w15
	mov	w15, #1
	mov	v27.b[15], w16
	dup	v28.2d, x15
	and	v26.16b, v26.16b, v24.16b
	and	v24.16b, v27.16b, v24.16b
	cmeq	v26.16b, v26.16b, v25.16b
	cmeq	v24.16b, v24.16b, v25.16b
	ushll	v25.8h, v26.8b, #0
	ushll2	v26.8h, v26.16b, #0
	ushll	v27.8h, v24.8b, #0
	ushll2	v24.8h, v24.16b, #0
	ushll	v29.4s, v25.4h, #0
	ushll2	v25.4s, v25.8h, #0
	ushll	v30.4s, v26.4h, #0
	ushll2	v26.4s, v26.8h, #0
	ushll	v31.4s, v27.4h, #0
	ushll2	v27.4s, v27.8h, #0
	ushll	v8.4s, v24.4h, #0
	ushll2	v24.4s, v24.8h, #0
	ushll	v10.2d, v25.2s, #0
	ushll2	v25.2d, v25.4s, #0
	ushll	v9.2d, v29.2s, #0
	ushll2	v29.2d, v29.4s, #0
	ushll	v11.2d, v30.2s, #0
	ushll2	v30.2d, v30.4s, #0
	ushll	v12.2d, v26.2s, #0
	ushll2	v26.2d, v26.4s, #0
	ushll	v13.2d, v31.2s, #0
	ushll2	v31.2d, v31.4s, #0
	ushll	v14.2d, v27.2s, #0
	ushll	v15.2d, v8.2s, #0
	ushll2	v27.2d, v27.4s, #0
	ushll2	v8.2d, v8.4s, #0
	ushll	v0.2d, v24.2s, #0
	ushll2	v24.2d, v24.4s, #0
	and	v25.16b, v25.16b, v28.16b
	and	v9.16b, v9.16b, v28.16b
	and	v29.16b, v29.16b, v28.16b
	and	v10.16b, v10.16b, v28.16b
	and	v11.16b, v11.16b, v28.16b
	and	v30.16b, v30.16b, v28.16b
	and	v12.16b, v12.16b, v28.16b
	and	v26.16b, v26.16b, v28.16b
	and	v13.16b, v13.16b, v28.16b
	and	v31.16b, v31.16b, v28.16b
	and	v14.16b, v14.16b, v28.16b
	and	v15.16b, v15.16b, v28.16b
	and	v27.16b, v27.16b, v28.16b
	and	v8.16b, v8.16b, v28.16b
	and	v0.16b, v0.16b, v28.16b
	and	v24.16b, v24.16b, v28.16b
	add	v16.2d, v16.2d, v25.2d
	ldr	q25, [sp, #80]
	add	v18.2d, v18.2d, v26.2d
	add	v2.2d, v2.2d, v12.2d
	add	v4.2d, v4.2d, v30.2d
	add	v3.2d, v3.2d, v11.2d
	add	v5.2d, v5.2d, v29.2d
	add	v25.2d, v25.2d, v10.2d
	add	v1.2d, v1.2d, v9.2d
	add	v23.2d, v23.2d, v24.2d
	add	v17.2d, v17.2d, v0.2d
	add	v20.2d, v20.2d, v8.2d
	add	v22.2d, v22.2d, v27.2d
	add	v19.2d, v19.2d, v15.2d
	add	v7.2d, v7.2d, v14.2d
	add	v21.2d, v21.2d, v31.2d
	add	v6.2d, v6.2d, v13.2d
	b.ne	.LBB13_149
	add	v0.2d, v22.2d, v16.2d
	add	v16.2d, v23.2d, v18.2d
	cmp	x12, #9
	add	v5.2d, v21.2d, v5.2d
	add	v1.2d, v6.2d, v1.2d
	add	v3.2d, v19.2d, v3.2d
	add	v4.2d, v20.2d, v4.2d
	add	v6.2d, v7.2d, v25.2d
	add	v2.2d, v17.2d, v2.2d
	add	v0.2d, v0.2d, v16.2d
	add	v1.2d, v1.2d, v3.2d
	add	v2.2d, v6.2d, v2.2d
	add	v3.2d, v5.2d, v4.2d
	add	v1.2d, v1.2d, v2.2d
	add	v0.2d, v3.2d, v0.2d
	add	v0.2d, v1.2d, v0.2d
	addp	d0, v0.2d
	fmov	x12, d0
	b.lo	.LBB13_160
.LBB13_151:
	movi	v0.2d, #0000000000000000
	ands	x13, x10, #0x7
	mov	w14, #8
	movi	v1.2d, #0000000000000000
	csel	x13, x14, x13, eq
	movi	v2.2d, #0000000000000000
	movi	v3.2d, #0000000000000000
	sub	x10, x10, x13
	mvn	x9, x9
	mov	v0.d[0], x12
	add	x12, x26, x8
	add	x8, x8, x10, lsl #1
	add	x12, x12, x11, lsl #1
	add	x10, x9, x11
	add	x10, x10, x13
	add	x9, x27, x12
.LBB13_152:
	ld2	{ v4.8b, v5.8b }, [x9], #16
	movi	v6.8b, #252
	movi	v7.8b, #220
	mov	w11, #1
	adds	x10, x10, #8
	and	v4.8b, v4.8b, v6.8b
	dup	v6.2d, x11
	cmeq	v4.8b, v4.8b, v7.8b
	ushll	v4.8h, v4.8b, #0
	ushll2	v5.4s, v4.8h, #0
	ushll	v4.4s, v4.4h, #0
	ushll2	v7.2d, v5.4s, #0
	ushll	v16.2d, v4.2s, #0
	ushll2	v4.2d, v4.4s, #0
	ushll	v5.2d, v5.2s, #0
	and	v7.16b, v7.16b, v6.16b
	and	v16.16b, v16.16b, v6.16b
	and	v4.16b, v4.16b, v6.16b
	and	v5.16b, v5.16b, v6.16b
	add	v3.2d, v3.2d, v7.2d
	add	v2.2d, v2.2d, v4.2d
	add	v0.2d, v0.2d, v16.2d
	add	v1.2d, v1.2d, v5.2d
	b.ne	.LBB13_152
	add	v0.2d, v0.2d, v1.2d
	add	v1.2d, v2.2d, v3.2d
	add	v0.2d, v0.2d, v1.2d
	addp	d0, v0.2d
	fmov	x12, d0
.LBB13_154:
	add	x9, x8, x26
	sub	x8, x22, x8
	add	x9, x27, x9
.LBB13_155:
	ldrb	w10, [x9], #2
	sub	x8, x8, #2
	and	w10, w10, #0xfc
	cmp	w10, #220
	cinc	x12, x12, eq
	cmp	x8, #1
	b.hi	.LBB13_155
.LBB13_156:
	lsr	x8, x22, #1
	sub	x0, x8, x12
.LBB13_157:
	and	w8, w23, #0xff
	add	x28, x0, x28
	add	x22, x22, x26
	cmp	w8, #1
	b.ne	.LBB13_163
	ldr	x8, [sp, #72]
	sub	x2, x29, #248
	mov	w1, w21
	add	x0, x22, x8
	bl	"utf16_program::lines::append_unpaired::<#689013dfc86db972>"
	and	w8, w0, #0xff
	tbnz	w8, #0, .LBB13_228
	add	x26, x22, #2
	add	x20, x20, #1
	sub	x21, x19, x26
	add	x24, x27, x26
	cmp	x21, #2
	b.ne	.LBB13_114
	b	.LBB13_134
.LBB13_160:
	add	x8, x8, x11, lsl #1
	b	.LBB13_154
.LBB13_161:
	cmp	x21, #64
	b.hs	.LBB13_168
.LBB13_162:
	mov	x0, x24
	mov	x1, x21
	bl	"utf16_units::text::count_few::<#8b18edd9dd9aa8df>"
	ldr	x27, [sp, #40]
	ldr	x26, [sp, #72]
	add	x25, sp, #104
	b	.LBB13_191
.LBB13_163:
	mov	w23, #1
	b	.LBB13_167
.LBB13_164:
	cmp	x21, #64
	b.hs	.LBB13_174
.LBB13_165:
	mov	x0, x24
	mov	x1, x21
	bl	"utf16_units::text::count_few::<#418c2b53cf60437c>"
	ldr	x27, [sp, #40]
	ldr	x26, [sp, #72]
	add	x25, sp, #104
	b	.LBB13_201
.LBB13_166:
	mov	w23, wzr
.LBB13_167:
	ldr	x27, [sp, #40]
	ldr	x26, [sp, #72]
	mov	x19, x22
	add	x25, sp, #104
	b	.LBB13_202
.LBB13_168:
	mov	x13, xzr
	add	x8, x27, x26
	sub	x9, x19, x26
.LBB13_169:
	ldp	q1, q0, [x8]
	sub	x9, x9, #64
	ldp	q3, q2, [x8, #32]
	cmp	x9, #63
	add	x8, x8, #64
	uzp1	v0.16b, v1.16b, v0.16b
	movi	v1.16b, #252
	uzp1	v2.16b, v3.16b, v2.16b
	movi	v3.16b, #220
	and	v0.16b, v0.16b, v1.16b
	and	v1.16b, v2.16b, v1.16b
	ldr	q2, [x25, :lo12:.LCPI13_0]
	cmeq	v0.16b, v0.16b, v3.16b
	cmeq	v1.16b, v1.16b, v3.16b
	and	v0.16b, v0.16b, v2.16b
	and	v1.16b, v1.16b, v2.16b
	addp	v0.16b, v0.16b, v1.16b
	addp	v0.16b, v0.16b, v0.16b
	addp	v0.16b, v0.16b, v0.16b
	fmov	w10, s0
	fmov	s0, w10
	cnt	v0.8b, v0.8b
	addv	b0, v0.8b
	fmov	w10, s0
	add	x13, x13, x10
	b.hi	.LBB13_169
	tst	x21, #0x3e
	b.eq	.LBB13_180
	and	x8, x21, #0xffffffffffffffc0
	sub	x10, x19, #2
	mvn	x11, x26
	add	x9, x26, x8
	add	x25, sp, #104
	cmp	x10, x9
	add	x10, x19, x11
	cset	w11, ne
	sub	x10, x10, x11
	sub	x11, x10, x8
	cmp	x11, #16
	b.lo	.LBB13_188
	lsr	x10, x11, #1
	cmp	x11, #64
	add	x11, x10, #1
	b.hs	.LBB13_182
	mov	x12, xzr
	b	.LBB13_185
.LBB13_174:
	mov	x13, xzr
	add	x8, x27, x26
	sub	x9, x19, x26
.LBB13_175:
	ldp	q1, q0, [x8]
	sub	x9, x9, #64
	ldp	q3, q2, [x8, #32]
	cmp	x9, #63
	add	x8, x8, #64
	uzp2	v0.16b, v1.16b, v0.16b
	movi	v1.16b, #252
	uzp2	v2.16b, v3.16b, v2.16b
	movi	v3.16b, #220
	and	v0.16b, v0.16b, v1.16b
	and	v1.16b, v2.16b, v1.16b
	ldr	q2, [x25, :lo12:.LCPI13_0]
	cmeq	v0.16b, v0.16b, v3.16b
	cmeq	v1.16b, v1.16b, v3.16b
	and	v0.16b, v0.16b, v2.16b
	and	v1.16b, v1.16b, v2.16b
	addp	v0.16b, v0.16b, v1.16b
	addp	v0.16b, v0.16b, v0.16b
	addp	v0.16b, v0.16b, v0.16b
	fmov	w10, s0
	fmov	s0, w10
	cnt	v0.8b, v0.8b
	addv	b0, v0.8b
	fmov	w10, s0
	add	x13, x13, x10
	b.hi	.LBB13_175
	tst	x21, #0x3e
	b.eq	.LBB13_181
	and	x8, x21, #0xffffffffffffffc0
	sub	x10, x19, #2
	mvn	x11, x26
	add	x9, x26, x8
	add	x25, sp, #104
	cmp	x10, x9
	add	x10, x19, x11
	cset	w11, ne
	sub	x10, x10, x11
	sub	x11, x10, x8
	cmp	x11, #16
	b.lo	.LBB13_198
	lsr	x10, x11, #1
	cmp	x11, #64
	add	x11, x10, #1
	b.hs	.LBB13_192
	mov	x12, xzr
	b	.LBB13_195
.LBB13_180:
	add	x25, sp, #104
	b	.LBB13_190
.LBB13_181:
	add	x25, sp, #104
	b	.LBB13_200
.LBB13_182:
	movi	v1.2d, #0000000000000000
	movi	v25.2d, #0000000000000000
	ands	x12, x11, #0x1f
	movi	v5.2d, #0000000000000000
	movi	v16.2d, #0000000000000000
	add	x14, x27, x9
	movi	v3.2d, #0000000000000000
	movi	v4.2d, #0000000000000000
	mvn	x15, x10
	movi	v2.2d, #0000000000000000
	movi	v18.2d, #0000000000000000
	add	x14, x14, #32
	movi	v6.2d, #0000000000000000
	mov	v1.d[0], x13
	mov	w13, #32
	movi	v21.2d, #0000000000000000
	movi	v7.2d, #0000000000000000
	csel	x13, x13, x12, eq
	movi	v22.2d, #0000000000000000
	movi	v19.2d, #0000000000000000
	sub	x12, x11, x13
	movi	v20.2d, #0000000000000000
	movi	v17.2d, #0000000000000000
	add	x15, x15, x13
	movi	v23.2d, #0000000000000000
.LBB13_183:
	ldur	q24, [x14, #-32]
	str	q25, [sp, #80]
	sub	x16, x14, #8
	ldr	q25, [x14]
	ldur	d28, [x14, #-16]
	add	x17, x14, #24
	mov	v26.16b, v24.16b
	ldr	d29, [x14, #16]
	adds	x15, x15, #32
	mov	v27.16b, v25.16b
	ld1	{ v28.s }[2], [x16]
	sub	x16, x14, #4
	ld1	{ v29.s }[2], [x17]
	add	x17, x14, #28
	mov	v26.b[1], v24.b[2]
	mov	v27.b[1], v25.b[2]
	ld1	{ v28.h }[6], [x16]
	ldursb	w16, [x14, #-2]
	ld1	{ v29.h }[6], [x17]
	ldrsb	w17, [x14, #30]
	add	x14, x14, #64
	mov	v26.b[2], v24.b[4]
	mov	v27.b[2], v25.b[4]
	mov	v26.b[3], v24.b[6]
	mov	v27.b[3], v25.b[6]
	mov	v26.b[4], v24.b[8]
	mov	v27.b[4], v25.b[8]
	mov	v26.b[5], v24.b[10]
	mov	v27.b[5], v25.b[10]
	mov	v26.b[6], v24.b[12]
	mov	v27.b[6], v25.b[12]
	mov	v26.b[7], v24.b[14]
	movi	v24.16b, #252
	mov	v27.b[7], v25.b[14]
	movi	v25.16b, #220
	mov	v26.b[8], v28.b[0]
	mov	v27.b[8], v29.b[0]
	mov	v26.b[9], v28.b[2]
	mov	v27.b[9], v29.b[2]
	mov	v26.b[10], v28.b[4]
	mov	v27.b[10], v29.b[4]
	mov	v26.b[11], v28.b[6]
	mov	v27.b[11], v29.b[6]
	mov	v26.b[12], v28.b[8]
	mov	v27.b[12], v29.b[8]
	mov	v26.b[13], v28.b[10]
	mov	v27.b[13], v29.b[10]
	mov	v26.b[14], v28.b[12]
	mov	v27.b[14], v29.b[12]
	mov	v26.b[15], w16
	mov	w16, #1
	mov	v27.b[15], w17
	dup	v28.2d, x16
	and	v26.16b, v26.16b, v24.16b
	and	v24.16b, v27.16b, v24.16b
	cmeq	v26.16b, v26.16b, v25.16b
	cmeq	v24.16b, v24.16b, v25.16b
	ushll	v25.8h, v26.8b, #0
	ushll2	v26.8h, v26.16b, #0
	ushll	v27.8h, v24.8b, #0
	ushll2	v24.8h, v24.16b, #0
	ushll	v29.4s, v25.4h, #0
	ushll2	v25.4s, v25.8h, #0
	ushll	v30.4s, v26.4h, #0
	ushll2	v26.4s, v26.8h, #0
	ushll	v31.4s, v27.4h, #0
	ushll2	v27.4s, v27.8h, #0
	ushll	v8.4s, v24.4h, #0
	ushll2	v24.4s, v24.8h, #0
	ushll	v10.2d, v25.2s, #0
	ushll2	v25.2d, v25.4s, #0
	ushll	v9.2d, v29.2s, #0
	ushll2	v29.2d, v29.4s, #0
	ushll	v11.2d, v30.2s, #0
	ushll2	v30.2d, v30.4s, #0
	ushll	v12.2d, v26.2s, #0
	ushll2	v26.2d, v26.4s, #0
	ushll	v13.2d, v31.2s, #0
	ushll2	v31.2d, v31.4s, #0
	ushll	v14.2d, v27.2s, #0
	ushll	v15.2d, v8.2s, #0
	ushll2	v27.2d, v27.4s, #0
	ushll2	v8.2d, v8.4s, #0
	ushll	v0.2d, v24.2s, #0
	ushll2	v24.2d, v24.4s, #0
	and	v25.16b, v25.16b, v28.16b
	and	v9.16b, v9.16b, v28.16b
	and	v29.16b, v29.16b, v28.16b
	and	v10.16b, v10.16b, v28.16b
	and	v11.16b, v11.16b, v28.16b
	and	v30.16b, v30.16b, v28.16b
	and	v12.16b, v12.16b, v28.16b
	and	v26.16b, v26.16b, v28.16b
	and	v13.16b, v13.16b, v28.16b
	and	v31.16b, v31.16b, v28.16b
	and	v14.16b, v14.16b, v28.16b
	and	v15.16b, v15.16b, v28.16b
	and	v27.16b, v27.16b, v28.16b
	and	v8.16b, v8.16b, v28.16b
	and	v0.16b, v0.16b, v28.16b
	and	v24.16b, v24.16b, v28.16b
	add	v16.2d, v16.2d, v25.2d
	ldr	q25, [sp, #80]
	add	v18.2d, v18.2d, v26.2d
	add	v2.2d, v2.2d, v12.2d
	add	v4.2d, v4.2d, v30.2d
	add	v3.2d, v3.2d, v11.2d
	add	v5.2d, v5.2d, v29.2d
	add	v25.2d, v25.2d, v10.2d
	add	v1.2d, v1.2d, v9.2d
	add	v23.2d, v23.2d, v24.2d
	add	v17.2d, v17.2d, v0.2d
	add	v20.2d, v20.2d, v8.2d
	add	v22.2d, v22.2d, v27.2d
	add	v19.2d, v19.2d, v15.2d
	add	v7.2d, v7.2d, v14.2d
	add	v21.2d, v21.2d, v31.2d
	add	v6.2d, v6.2d, v13.2d
	b.ne	.LBB13_183
	add	v0.2d, v22.2d, v16.2d
	add	v16.2d, v23.2d, v18.2d
	cmp	x13, #9
	add	v5.2d, v21.2d, v5.2d
	add	v1.2d, v6.2d, v1.2d
	add	v3.2d, v19.2d, v3.2d
	add	v4.2d, v20.2d, v4.2d
	add	v6.2d, v7.2d, v25.2d
	add	v2.2d, v17.2d, v2.2d
	add	v0.2d, v0.2d, v16.2d
	add	v1.2d, v1.2d, v3.2d
	add	v2.2d, v6.2d, v2.2d
	add	v3.2d, v5.2d, v4.2d
	add	v1.2d, v1.2d, v2.2d
	add	v0.2d, v3.2d, v0.2d
	add	v0.2d, v1.2d, v0.2d
	addp	d0, v0.2d
	fmov	x13, d0
	b.lo	.LBB13_222
.LBB13_185:
	movi	v0.2d, #0000000000000000
	ands	x14, x11, #0x7
	mov	w15, #8
	csel	x14, x15, x14, eq
	movi	v1.2d, #0000000000000000
	movi	v2.2d, #0000000000000000
	movi	v3.2d, #0000000000000000
	sub	x11, x11, x14
	mvn	x10, x10
	add	x8, x8, x11, lsl #1
	add	x10, x10, x12
	mov	v0.d[0], x13
	add	x13, x27, x12, lsl #1
	add	x10, x10, x14
	add	x9, x13, x9
.LBB13_186:
	ld2	{ v4.8b, v5.8b }, [x9], #16
	movi	v6.8b, #252
	movi	v7.8b, #220
	mov	w11, #1
	adds	x10, x10, #8
	and	v4.8b, v4.8b, v6.8b
	dup	v6.2d, x11
	cmeq	v4.8b, v4.8b, v7.8b
	ushll	v4.8h, v4.8b, #0
	ushll2	v5.4s, v4.8h, #0
	ushll	v4.4s, v4.4h, #0
	ushll2	v7.2d, v5.4s, #0
	ushll	v16.2d, v4.2s, #0
	ushll2	v4.2d, v4.4s, #0
	ushll	v5.2d, v5.2s, #0
	and	v7.16b, v7.16b, v6.16b
	and	v16.16b, v16.16b, v6.16b
	and	v4.16b, v4.16b, v6.16b
	and	v5.16b, v5.16b, v6.16b
	add	v3.2d, v3.2d, v7.2d
	add	v2.2d, v2.2d, v4.2d
	add	v0.2d, v0.2d, v16.2d
	add	v1.2d, v1.2d, v5.2d
	b.ne	.LBB13_186
	add	v0.2d, v0.2d, v1.2d
	add	v1.2d, v2.2d, v3.2d
	add	v0.2d, v0.2d, v1.2d
	addp	d0, v0.2d
	fmov	x13, d0
.LBB13_188:
	sub	x9, x19, x8
	add	x10, x27, x8
	sub	x8, x9, x26
	add	x9, x10, x26
.LBB13_189:
	ldrb	w10, [x9], #2
	sub	x8, x8, #2
	and	w10, w10, #0xfc
	cmp	w10, #220
	cinc	x13, x13, eq
	cmp	x8, #1
	b.hi	.LBB13_189
.LBB13_190:
	lsr	x8, x21, #1
	ldr	x27, [sp, #40]
	ldr	x26, [sp, #72]
	sub	x0, x8, x13
.LBB13_191:
	add	x28, x0, x28
	mov	w23, #1
	b	.LBB13_202
.LBB13_192:
	movi	v1.2d, #0000000000000000
	movi	v25.2d, #0000000000000000
	ands	x12, x11, #0x1f
	movi	v5.2d, #0000000000000000
	movi	v16.2d, #0000000000000000
	add	x14, x27, x9
	movi	v3.2d, #0000000000000000
	movi	v4.2d, #0000000000000000
	mvn	x15, x10
	movi	v2.2d, #0000000000000000
	movi	v18.2d, #0000000000000000
	add	x14, x14, #33
	movi	v6.2d, #0000000000000000
	mov	v1.d[0], x13
	mov	w13, #32
	movi	v21.2d, #0000000000000000
	movi	v7.2d, #0000000000000000
	csel	x13, x13, x12, eq
	movi	v22.2d, #0000000000000000
	movi	v19.2d, #0000000000000000
	sub	x12, x11, x13
	movi	v20.2d, #0000000000000000
	movi	v17.2d, #0000000000000000
	add	x15, x15, x13
	movi	v23.2d, #0000000000000000
.LBB13_193:
	ldur	q24, [x14, #-32]
	str	q25, [sp, #80]
	sub	x16, x14, #8
	ldr	q25, [x14]
	ldur	d28, [x14, #-16]
	add	x17, x14, #24
	mov	v26.16b, v24.16b
	ldr	d29, [x14, #16]
	adds	x15, x15, #32
	mov	v27.16b, v25.16b
	ld1	{ v28.s }[2], [x16]
	sub	x16, x14, #4
	ld1	{ v29.s }[2], [x17]
	add	x17, x14, #28
	mov	v26.b[1], v24.b[2]
	mov	v27.b[1], v25.b[2]
	ld1	{ v28.h }[6], [x16]
	ldursb	w16, [x14, #-2]
	ld1	{ v29.h }[6], [x17]
	ldrsb	w17, [x14, #30]
	add	x14, x14, #64
	mov	v26.b[2], v24.b[4]
	mov	v27.b[2], v25.b[4]
	mov	v26.b[3], v24.b[6]
	mov	v27.b[3], v25.b[6]
	mov	v26.b[4], v24.b[8]
	mov	v27.b[4], v25.b[8]
	mov	v26.b[5], v24.b[10]
	mov	v27.b[5], v25.b[10]
	mov	v26.b[6], v24.b[12]
	mov	v27.b[6], v25.b[12]
	mov	v26.b[7], v24.b[14]
	movi	v24.16b, #252
	mov	v27.b[7], v25.b[14]
	movi	v25.16b, #220
	mov	v26.b[8], v28.b[0]
	mov	v27.b[8], v29.b[0]
	mov	v26.b[9], v28.b[2]
	mov	v27.b[9], v29.b[2]
	mov	v26.b[10], v28.b[4]
	mov	v27.b[10], v29.b[4]
	mov	v26.b[11], v28.b[6]
	mov	v27.b[11], v29.b[6]
	mov	v26.b[12], v28.b[8]
	mov	v27.b[12], v29.b[8]
	mov	v26.b[13], v28.b[10]
	mov	v27.b[13], v29.b[10]
	mov	v26.b[14], v28.b[12]
	mov	v27.b[14], v29.b[12]
	mov	v26.b[15], w16
	mov	w16, #1
	mov	v27.b[15], w17
	dup	v28.2d, x16
	and	v26.16b, v26.16b, v24.16b
	and	v24.16b, v27.16b, v24.16b
	cmeq	v26.16b, v26.16b, v25.16b
	cmeq	v24.16b, v24.16b, v25.16b
	ushll	v25.8h, v26.8b, #0
	ushll2	v26.8h, v26.16b, #0
	ushll	v27.8h, v24.8b, #0
	ushll2	v24.8h, v24.16b, #0
	ushll	v29.4s, v25.4h, #0
	ushll2	v25.4s, v25.8h, #0
	ushll	v30.4s, v26.4h, #0
	ushll2	v26.4s, v26.8h, #0
	ushll	v31.4s, v27.4h, #0
	ushll2	v27.4s, v27.8h, #0
	ushll	v8.4s, v24.4h, #0
	ushll2	v24.4s, v24.8h, #0
	ushll	v10.2d, v25.2s, #0
	ushll2	v25.2d, v25.4s, #0
	ushll	v9.2d, v29.2s, #0
	ushll2	v29.2d, v29.4s, #0
	ushll	v11.2d, v30.2s, #0
	ushll2	v30.2d, v30.4s, #0
	ushll	v12.2d, v26.2s, #0
	ushll2	v26.2d, v26.4s, #0
	ushll	v13.2d, v31.2s, #0
	ushll2	v31.2d, v31.4s, #0
	ushll	v14.2d, v27.2s, #0
	ushll	v15.2d, v8.2s, #0
	ushll2	v27.2d, v27.4s, #0
	ushll2	v8.2d, v8.4s, #0
	ushll	v0.2d, v24.2s, #0
	ushll2	v24.2d, v24.4s, #0
	and	v25.16b, v25.16b, v28.16b
	and	v9.16b, v9.16b, v28.16b
	and	v29.16b, v29.16b, v28.16b
	and	v10.16b, v10.16b, v28.16b
	and	v11.16b, v11.16b, v28.16b
	and	v30.16b, v30.16b, v28.16b
	and	v12.16b, v12.16b, v28.16b
	and	v26.16b, v26.16b, v28.16b
	and	v13.16b, v13.16b, v28.16b
	and	v31.16b, v31.16b, v28.16b
	and	v14.16b, v14.16b, v28.16b
	and	v15.16b, v15.16b, v28.16b
	and	v27.16b, v27.16b, v28.16b
	and	v8.16b, v8.16b, v28.16b
	and	v0.16b, v0.16b, v28.16b
	and	v24.16b, v24.16b, v28.16b
	add	v16.2d, v16.2d, v25.2d
	ldr	q25, [sp, #80]
	add	v18.2d, v18.2d, v26.2d
	add	v2.2d, v2.2d, v12.2d
	add	v4.2d, v4.2d, v30.2d
	add	v3.2d, v3.2d, v11.2d
	add	v5.2d, v5.2d, v29.2d
	add	v25.2d, v25.2d, v10.2d
	add	v1.2d, v1.2d, v9.2d
	add	v23.2d, v23.2d, v24.2d
	add	v17.2d, v17.2d, v0.2d
	add	v20.2d, v20.2d, v8.2d
	add	v22.2d, v22.2d, v27.2d
	add	v19.2d, v19.2d, v15.2d
	add	v7.2d, v7.2d, v14.2d
	add	v21.2d, v21.2d, v31.2d
	add	v6.2d, v6.2d, v13.2d
	b.ne	.LBB13_193
	add	v0.2d, v22.2d, v16.2d
	add	v16.2d, v23.2d, v18.2d
	cmp	x13, #9
	add	v5.2d, v21.2d, v5.2d
	add	v1.2d, v6.2d, v1.2d
	add	v3.2d, v19.2d, v3.2d
	add	v4.2d, v20.2d, v4.2d
	add	v6.2d, v7.2d, v25.2d
	add	v2.2d, v17.2d, v2.2d
	add	v0.2d, v0.2d, v16.2d
	add	v1.2d, v1.2d, v3.2d
	add	v2.2d, v6.2d, v2.2d
	add	v3.2d, v5.2d, v4.2d
	add	v1.2d, v1.2d, v2.2d
	add	v0.2d, v3.2d, v0.2d
	add	v0.2d, v1.2d, v0.2d
	addp	d0, v0.2d
	fmov	x13, d0
	b.lo	.LBB13_223
.LBB13_195:
	movi	v0.2d, #0000000000000000
	ands	x14, x11, #0x7
	mov	w15, #8
	movi	v1.2d, #0000000000000000
	csel	x14, x15, x14, eq
	movi	v2.2d, #0000000000000000
	movi	v3.2d, #0000000000000000
	sub	x11, x11, x14
	mvn	x10, x10
	add	x8, x8, x11, lsl #1
	add	x10, x10, x12
	mov	v0.d[0], x13
	add	x13, x27, x12, lsl #1
	add	x10, x10, x14
	add	x9, x13, x9
	add	x9, x9, #1
.LBB13_196:
	ld2	{ v4.8b, v5.8b }, [x9], #16
	movi	v6.8b, #252
	movi	v7.8b, #220
	mov	w11, #1
	adds	x10, x10, #8
	and	v4.8b, v4.8b, v6.8b
	dup	v6.2d, x11
	cmeq	v4.8b, v4.8b, v7.8b
	ushll	v4.8h, v4.8b, #0
	ushll2	v5.4s, v4.8h, #0
	ushll	v4.4s, v4.4h, #0
	ushll2	v7.2d, v5.4s, #0
	ushll	v16.2d, v4.2s, #0
	ushll2	v4.2d, v4.4s, #0
	ushll	v5.2d, v5.2s, #0
	and	v7.16b, v7.16b, v6.16b
	and	v16.16b, v16.16b, v6.16b
	and	v4.16b, v4.16b, v6.16b
	and	v5.16b, v5.16b, v6.16b
	add	v3.2d, v3.2d, v7.2d
	add	v2.2d, v2.2d, v4.2d
	add	v0.2d, v0.2d, v16.2d
	add	v1.2d, v1.2d, v5.2d
	b.ne	.LBB13_196
	add	v0.2d, v0.2d, v1.2d
	add	v1.2d, v2.2d, v3.2d
	add	v0.2d, v0.2d, v1.2d
	addp	d0, v0.2d
	fmov	x13, d0
.LBB13_198:
	add	x9, x27, x8
	sub	x8, x19, x8
	add	x9, x9, x26
	sub	x8, x8, x26
	add	x9, x9, #1
.LBB13_199:
	ldrb	w10, [x9], #2
	sub	x8, x8, #2
	and	w10, w10, #0xfc
	cmp	w10, #220
	cinc	x13, x13, eq
	cmp	x8, #1
	b.hi	.LBB13_199
.LBB13_200:
	lsr	x8, x21, #1
	ldr	x27, [sp, #40]
	ldr	x26, [sp, #72]
	sub	x0, x8, x13
.LBB13_201:
	mov	w23, wzr
	add	x28, x0, x28
.LBB13_202:
	add	x27, x28, x27
	ldp	x8, x28, [sp, #48]
	ldp	x21, x22, [x29, #-248]
	add	x26, x19, x26
	add	x28, x20, x28
	add	x19, x19, x8
	cbz	x22, .LBB13_207
	mov	x20, xzr
.LBB13_204:
	add	x1, x21, x20
	sub	x2, x22, x20
	mov	w0, #1
	sub	x24, x22, x20
	bl	write
	tbnz	x0, #63, .LBB13_261
	cmp	x0, x24
	csel	x8, x0, x24, lo
	cbz	x8, .LBB13_262
	add	x20, x8, x20
	cmp	x20, x22
	b.lo	.LBB13_204
.LBB13_207:
	mov	w20, #1
.LBB13_208:
	ldr	x8, [sp, #64]
	subs	x8, x8, x19
	b.eq	.LBB13_50
	cmp	x8, #8
	mov	x9, xzr
	b.lo	.LBB13_220
	add	x10, x19, #31
	cmp	x10, #32
	b.lo	.LBB13_220
	cmp	x8, #32
	b.hs	.LBB13_213
	mov	x9, xzr
	b	.LBB13_217
.LBB13_213:
	and	x10, x8, #0x18
	and	x9, x8, #0xffffffffffffffe0
	add	x11, sp, #104
	and	x12, x8, #0xffffffffffffffe0
.LBB13_214:
	add	x13, x11, x19
	subs	x12, x12, #32
	ldp	q0, q1, [x13]
	stp	q0, q1, [x11], #32
	b.ne	.LBB13_214
	cmp	x8, x9
	b.eq	.LBB13_50
	cbz	x10, .LBB13_220
.LBB13_217:
	mov	x11, x9
	and	x9, x8, #0xfffffffffffffff8
	add	x12, sp, #104
	sub	x10, x11, x9
	add	x11, x12, x11
.LBB13_218:
	ldr	d0, [x11, x19]
	adds	x10, x10, #8
	str	d0, [x11], #8
	b.ne	.LBB13_218
	cmp	x8, x9
	b.eq	.LBB13_50
.LBB13_220:
	ldp	x11, x10, [sp, #24]
	add	x10, x10, x11
	add	x11, sp, #104
	sub	x10, x10, x9
	add	x9, x11, x9
	sub	x10, x10, x19
.LBB13_221:
	ldrb	w11, [x9, x19]
	subs	x10, x10, #1
	strb	w11, [x9], #1
	b.ne	.LBB13_221
	b	.LBB13_50
.LBB13_222:
	add	x8, x8, x12, lsl #1
	b	.LBB13_188
.LBB13_223:
	add	x8, x8, x12, lsl #1
	b	.LBB13_198
.LBB13_224:
	add	x21, x20, #88
	b	.LBB13_226
.LBB13_225:
	subs	x19, x19, #1
	add	x21, x21, #24
	b.eq	.LBB13_41
.LBB13_226:
	ldr	x8, [x21]
	cbz	x8, .LBB13_225
	ldur	x0, [x21, #-16]
	bl	rattle_dealloc
	b	.LBB13_225
.LBB13_228:
	mov	w0, #4
	b	.LBB13_263
.LBB13_229:
	ldr	x8, [sp, #120]
	cbz	x8, .LBB13_231
	ldr	x0, [sp, #104]
	bl	rattle_dealloc
.LBB13_231:
	ldur	x20, [x29, #-160]
	cbz	x25, .LBB13_236
	add	x21, x19, #16
	b	.LBB13_234
.LBB13_233:
	subs	x25, x25, #1
	add	x21, x21, #24
	b.eq	.LBB13_236
.LBB13_234:
	ldr	x8, [x21]
	cbz	x8, .LBB13_233
	ldur	x0, [x21, #-16]
	bl	rattle_dealloc
	b	.LBB13_233
.LBB13_236:
	cbz	x20, .LBB13_238
.LBB13_237:
	mov	x0, x19
	bl	rattle_dealloc
.LBB13_238:
	sub	x8, x29, #176
.LBB13_239:
	mov	w9, #21
	mov	w10, #38
	strb	w9, [sp, #104]
	strb	w10, [x28, #48]
	ldrb	w8, [x8]
	cmp	w8, #38
	b.ne	.LBB13_241
.LBB13_240:
	mov	w20, wzr
	adrp	x21, .Lstatic.28
	add	x21, x21, :lo12:.Lstatic.28
	mov	w22, #16
	b	.LBB13_246
.LBB13_241:
	mov	x19, xzr
.LBB13_242:
	adrp	x8, .Lstatic.25
	add	x8, x8, :lo12:.Lstatic.25
	eor	x2, x19, #0x7
	add	x1, x8, x19
	mov	w0, #2
	eor	x20, x19, #0x7
	bl	write
	tbnz	x0, #63, .LBB13_257
	cmp	x0, x20
	csel	x8, x0, x20, lo
	cbz	x8, .LBB13_258
	add	x19, x8, x19
	cmp	x19, #6
	b.ls	.LBB13_242
	adrp	x21, .Lstatic.30
	add	x21, x21, :lo12:.Lstatic.30
	mov	w20, #1
	mov	w22, #12
.LBB13_246:
	mov	x23, xzr
.LBB13_247:
	mov	w8, #11
	adrp	x9, .Lstatic.34
	add	x9, x9, :lo12:.Lstatic.34
	sub	x19, x8, x23
	add	x1, x9, x23
	mov	w0, #2
	mov	x2, x19
	bl	write
	tbnz	x0, #63, .LBB13_255
	cmp	x0, x19
	csel	x8, x0, x19, lo
	cbz	x8, .LBB13_254
	add	x23, x8, x23
	cmp	x23, #11
	b.lo	.LBB13_247
	mov	x19, xzr
.LBB13_251:
	add	x1, x21, x19
	sub	x2, x22, x19
	mov	w0, #2
	sub	x23, x22, x19
	bl	write
	tbnz	x0, #63, .LBB13_255
	cmp	x0, x23
	csel	x8, x0, x23, lo
	cbz	x8, .LBB13_254
	add	x19, x8, x19
	cmp	x19, x22
	b.lo	.LBB13_251
.LBB13_254:
	tbz	w20, #0, .LBB13_256
	b	.LBB13_258
.LBB13_255:
	add	x0, sp, #104
	bl	"std_io::io::error::last_error"
	tbnz	w20, #0, .LBB13_258
.LBB13_256:
	mov	w0, #1
	b	.LBB13_259
.LBB13_257:
	add	x0, sp, #104
	bl	"std_io::io::error::last_error"
.LBB13_258:
	mov	w0, #2
.LBB13_259:
	add	sp, sp, #1, lsl #12
	add	sp, sp, #288
	.cfi_def_cfa wsp, 160
	ldp	x20, x19, [sp, #144]
	ldp	x22, x21, [sp, #128]
	ldp	x24, x23, [sp, #112]
	ldp	x26, x25, [sp, #96]
	ldp	x28, x27, [sp, #80]
	ldp	x29, x30, [sp, #64]
	ldp	d9, d8, [sp, #48]
	ldp	d11, d10, [sp, #32]
	ldp	d13, d12, [sp, #16]
	ldp	d15, d14, [sp], #160
	.cfi_def_cfa_offset 0
	.cfi_restore w19
	.cfi_restore w20
	.cfi_restore w21
	.cfi_restore w22
	.cfi_restore w23
	.cfi_restore w24
	.cfi_restore w25
	.cfi_restore w26
	.cfi_restore w27
	.cfi_restore w28
	.cfi_restore w30
	.cfi_restore w29
	.cfi_restore b8
	.cfi_restore b9
	.cfi_restore b10
	.cfi_restore b11
	.cfi_restore b12
	.cfi_restore b13
	.cfi_restore b14
	.cfi_restore b15
	ret
.LBB13_260:
	.cfi_restore_state
	mov	w23, wzr
	mov	w20, #1
	cbnz	x24, .LBB13_45
	b	.LBB13_46
.LBB13_261:
	sub	x0, x29, #176
	bl	"std_io::io::error::last_error"
.LBB13_262:
	mov	w0, #3
.LBB13_263:
	ldur	x8, [x29, #-232]
	cbz	x8, .LBB13_265
	ldur	x8, [x29, #-248]
	mov	w19, w0
	mov	x0, x8
	bl	rattle_dealloc
	mov	w0, w19
.LBB13_265:
	cmp	w0, #2
	b.gt	.LBB13_267
	cbnz	w0, .LBB13_256
	b	.LBB13_259
.LBB13_267:
	cmp	w0, #3
	b.ne	.LBB13_240
	mov	w20, wzr
	adrp	x21, .Lstatic.27
	add	x21, x21, :lo12:.Lstatic.27
	mov	w22, #15
	b	.LBB13_246
.LBB13_269:
	cbz	x23, .LBB13_271
	mov	x0, x21
	bl	rattle_dealloc
.LBB13_271:
	ldur	x19, [x29, #-176]
	ldur	x20, [x29, #-160]
	cbz	x25, .LBB13_276
	add	x21, x19, #16
	b	.LBB13_274
.LBB13_273:
	subs	x25, x25, #1
	add	x21, x21, #24
	b.eq	.LBB13_276
.LBB13_274:
	ldr	x8, [x21]
	cbz	x8, .LBB13_273
	ldur	x0, [x21, #-16]
	bl	rattle_dealloc
	b	.LBB13_273
.LBB13_276:
	cbz	x20, .LBB13_278
	mov	x0, x19
	bl	rattle_dealloc
.LBB13_278:
	add	x8, sp, #104
	b	.LBB13_239
.LBB13_279:
	sub	x0, x29, #176
	bl	"std_io::io::error::last_error"
	ldur	x8, [x29, #-232]
	cbz	x8, .LBB13_281
	mov	x0, x21
	bl	rattle_dealloc
.LBB13_281:
	mov	w20, wzr
	adrp	x21, .Lstatic.26
	add	x21, x21, :lo12:.Lstatic.26
	mov	w22, #14
	b	.LBB13_246
.LBB13_282:
	ldur	q0, [x29, #-248]
	ldur	x8, [x29, #-232]
	sub	x9, x29, #224
	str	q0, [x9]
	stp	xzr, x8, [x29, #-216]
	cbz	x19, .LBB13_292
	sub	x8, x29, #224
	mov	x22, xzr
	sub	x25, x29, #192
	orr	x17, x8, #0x8
	mov	x8, #-5
	mov	x9, x26
	stp	xzr, xzr, [x29, #-192]
.LBB13_284:
	and	x10, x9, #0xf
	lsr	x9, x9, #4
	add	x22, x22, #1
	orr	w11, w10, #0x30
	add	w12, w10, #55
	cmp	x10, #10
	csel	w10, w11, w12, lo
	sub	x8, x8, #1
	strb	w10, [x25, #15]
	sub	x25, x25, #1
	cbnz	x9, .LBB13_284
	movi	v0.2d, #0000000000000000
	lsr	x9, x26, #4
	stur	xzr, [x29, #-144]
	cmp	x9, #625
	sub	x9, x29, #224
	stp	q0, q0, [x9, #48]
	adrp	x9, .Lstatic.18
	add	x9, x9, :lo12:.Lstatic.18
	b.lo	.LBB13_293
	mov	x11, xzr
	mov	x10, x26
.LBB13_287:
	mov	x12, x10
	mov	x10, #22859
	mov	w13, #10000
	movk	x10, #14470, lsl #16
	mov	w15, #5243
	mov	w16, #57599
	movk	x10, #50646, lsl #32
	movk	w16, #1525, lsl #16
	movk	x10, #13421, lsl #48
	cmp	x12, x16
	umulh	x10, x12, x10
	lsr	x10, x10, #11
	msub	w13, w10, w13, w12
	ubfx	w14, w13, #2, #14
	mul	w14, w14, w15
	mov	w15, #100
	lsr	w14, w14, #17
	msub	w13, w14, w15, w13
	sub	x15, x29, #176
	ldrh	w14, [x9, w14, uxtw #1]
	add	x15, x15, x11
	sub	x11, x11, #4
	strh	w14, [x15, #36]
	and	x13, x13, #0xffff
	ldrh	w13, [x9, x13, lsl #1]
	strh	w13, [x15, #38]
	b.hi	.LBB13_287
	add	x11, x11, #40
	b	.LBB13_294
.LBB13_289:
	ldur	x8, [x29, #-232]
	cbz	x8, .LBB13_291
	mov	x0, x21
	bl	rattle_dealloc
.LBB13_291:
	mov	w20, wzr
	adrp	x21, .Lstatic.29
	add	x21, x21, :lo12:.Lstatic.29
	mov	w22, #17
	b	.LBB13_246
.LBB13_292:
	add	x0, x26, x19
	sub	x3, x29, #224
	mov	x1, x27
	mov	x2, x28
	bl	"utf16_program::lines::append_counts::<#689013dfc86db972>"
	and	w8, w0, #0xff
	tbnz	w8, #0, .LBB13_326
	b	.LBB13_328
.LBB13_293:
	mov	w11, #40
	mov	x10, x26
.LBB13_294:
	cmp	x10, #99
	str	x17, [sp, #72]
	b.hi	.LBB13_297
	cmp	x10, #9
	b.hi	.LBB13_307
	sub	x11, x11, #1
	sub	x9, x29, #176
	orr	w10, w10, #0x30
	strb	w10, [x9, x11]
	b	.LBB13_309
.LBB13_297:
	ubfx	w12, w10, #2, #14
	mov	w13, #5243
	cmp	x10, #999
	mul	w12, w12, w13
	mov	w13, #100
	lsr	w12, w12, #17
	msub	w13, w12, w13, w10
	and	x13, x13, #0xffff
	ldrh	w14, [x9, x13, lsl #1]
	sub	x13, x29, #176
	add	x15, x13, x11
	sturh	w14, [x15, #-2]
	b.hi	.LBB13_308
	sub	x11, x11, #3
	orr	w9, w12, #0x30
	strb	w9, [x13, x11]
	b	.LBB13_309
.LBB13_299:
	cbz	x23, .LBB13_301
	mov	x0, x21
	bl	rattle_dealloc
.LBB13_301:
	ldp	x19, x20, [x29, #-176]
	ldur	x21, [x29, #-160]
	cbz	x20, .LBB13_306
	add	x22, x19, #16
	b	.LBB13_304
.LBB13_303:
	subs	x20, x20, #1
	add	x22, x22, #24
	b.eq	.LBB13_306
.LBB13_304:
	ldr	x8, [x22]
	cbz	x8, .LBB13_303
	ldur	x0, [x22, #-16]
	bl	rattle_dealloc
	b	.LBB13_303
.LBB13_306:
	cbnz	x21, .LBB13_237
	b	.LBB13_238
.LBB13_307:
	sub	x11, x11, #2
	ldrh	w9, [x9, x10, lsl #1]
	sub	x10, x29, #176
	strh	w9, [x10, x11]
	b	.LBB13_309
.LBB13_308:
	sub	x11, x11, #4
	ldrh	w9, [x9, w12, uxtw #1]
	strh	w9, [x13, x11]
.LBB13_309:
	mov	w9, #40
	ldur	x23, [x29, #-208]
	str	x11, [sp, #80]
	sub	x21, x9, x11
	cmp	x8, x21
	csel	x8, x8, x21, lo
	add	x8, x8, x22
	add	x8, x8, #4
	adds	x8, x8, #24
	csinv	x1, x8, xzr, lo
	cmp	x1, x23
	b.hi	.LBB13_347
	mov	x20, x26
	mov	x8, xzr
.LBB13_311:
	ldur	x24, [x29, #-224]
	adrp	x10, .Lstatic.15
	add	x10, x10, :lo12:.Lstatic.15
	add	x26, x8, #2
	add	x9, x24, x8
	mov	w8, #30768
	stp	x26, x23, [x29, #-216]
	sub	x10, x9, x10
	strh	w8, [x9]
	sub	x8, x23, x26
	cmp	x10, #1
	cmp	x22, x8
	b.hi	.LBB13_351
.LBB13_312:
	add	x0, x24, x26
	add	x1, x25, #16
	mov	x2, x22
	mov	x19, x27
	add	x27, x26, x22
	bl	memcpy
	sub	x8, x23, x26
	stp	x24, x27, [x29, #-224]
	sub	x8, x8, x22
	stur	x23, [x29, #-208]
	cmp	x8, #1
	b.ls	.LBB13_360
.LBB13_313:
	add	x9, x24, x27
	adrp	x8, .Lstatic.16
	add	x8, x8, :lo12:.Lstatic.16
	sub	x8, x9, x8
	mov	w10, #10272
	ldr	x14, [sp, #80]
	cmp	x8, #1
	add	x8, x27, #2
	strh	w10, [x9]
	sub	x9, x23, x8
	mov	x25, x19
	stp	x24, x8, [x29, #-224]
	cmp	x21, x9
	stur	x23, [x29, #-208]
	b.hi	.LBB13_362
.LBB13_314:
	sub	x9, x29, #176
	add	x0, x24, x8
	add	x22, x8, x21
	add	x1, x9, x14
	sub	x9, x0, x1
	cmp	x9, x21
	b.hs	.LBB13_320
	cmp	x21, #8
	b.lo	.LBB13_317
	sub	x9, x29, #176
	add	x10, x8, x24
	add	x9, x14, x9
	sub	x9, x10, x9
	cmp	x9, #32
	b.hs	.LBB13_344
.LBB13_317:
	mov	x9, xzr
.LBB13_318:
	add	x10, x9, x8
	add	x8, x9, x14
	add	x9, x24, x10
.LBB13_319:
	sub	x10, x29, #176
	ldrb	w10, [x10, x8]
	add	x8, x8, #1
	cmp	x8, #40
	strb	w10, [x9], #1
	b.ne	.LBB13_319
	b	.LBB13_321
.LBB13_320:
	mov	x2, x21
	bl	memmove
.LBB13_321:
	sub	x8, x23, x22
	stp	x24, x22, [x29, #-224]
	cmp	x8, #23
	stur	x23, [x29, #-208]
	b.ls	.LBB13_364
.LBB13_322:
	add	x8, x24, x22
	adrp	x10, .Lstatic.17
	add	x10, x10, :lo12:.Lstatic.17
	sub	x9, x8, x10
	ldr	x11, [sp, #72]
	cmp	x9, #23
	add	x9, x22, #24
	stp	xzr, xzr, [x11]
	b.hi	.LBB13_324
	adrp	x10, .LCPI13_1
	adrp	x11, .LCPI13_2
	ldr	q0, [x10, :lo12:.LCPI13_1]
	ldr	d1, [x11, :lo12:.LCPI13_2]
	str	q0, [x8]
	str	d1, [x8, #16]
	b	.LBB13_325
.LBB13_324:
	ldr	q0, [x10]
	ldr	x10, [x10, #16]
	str	q0, [x8]
	str	x10, [x8, #16]
.LBB13_325:
	ldr	x19, [sp, #32]
	add	x2, x28, #1
	sub	x3, x29, #224
	mov	x1, x25
	stp	x24, x9, [x29, #-224]
	add	x0, x20, x19
	stur	x23, [x29, #-208]
	bl	"utf16_program::lines::append_counts::<#689013dfc86db972>"
	tst	w0, #0xff
	b.eq	.LBB13_328
.LBB13_326:
	ldur	x8, [x29, #-208]
	cbz	x8, .LBB13_337
	ldur	x0, [x29, #-224]
	bl	rattle_dealloc
	mov	w0, #4
	b	.LBB13_265
.LBB13_328:
	mov	x23, x19
	ldp	x20, x19, [x29, #-224]
	cbz	x19, .LBB13_333
	mov	x21, xzr
.LBB13_330:
	add	x1, x20, x21
	sub	x2, x19, x21
	mov	w0, #1
	sub	x22, x19, x21
	bl	write
	tbnz	x0, #63, .LBB13_340
	cmp	x0, x22
	csel	x8, x0, x22, lo
	cbz	x8, .LBB13_341
	add	x21, x8, x21
	cmp	x21, x19
	b.lo	.LBB13_330
.LBB13_333:
	ldur	x8, [x29, #-208]
	orr	x9, x28, x23
	cbz	x9, .LBB13_338
	cbz	x8, .LBB13_336
	mov	x0, x20
	bl	rattle_dealloc
.LBB13_336:
	mov	w0, #1
	b	.LBB13_265
.LBB13_337:
	mov	w0, #4
	b	.LBB13_265
.LBB13_338:
	cbz	x8, .LBB13_346
	mov	x0, x20
	bl	rattle_dealloc
	mov	w0, wzr
	b	.LBB13_265
.LBB13_340:
	sub	x0, x29, #176
	bl	"std_io::io::error::last_error"
.LBB13_341:
	ldur	x8, [x29, #-208]
	cbz	x8, .LBB13_343
	mov	x0, x20
	bl	rattle_dealloc
.LBB13_343:
	mov	w0, #3
	b	.LBB13_265
.LBB13_344:
	cmp	x21, #32
	b.hs	.LBB13_353
	mov	x9, xzr
	b	.LBB13_357
.LBB13_346:
	mov	w0, wzr
	b	.LBB13_265
.LBB13_347:
	sub	x0, x29, #224
	bl	"std_alloc::vec::Vec::grow_amortized::<#582fc6be45daf619>"
	cbz	w0, .LBB13_326
	ldp	x8, x23, [x29, #-216]
	mov	x20, x26
	sub	x9, x23, x8
	cmp	x9, #1
	b.hi	.LBB13_311
	sub	x0, x29, #224
	mov	w1, #2
	bl	"std_alloc::vec::Vec::grow_amortized::<#582fc6be45daf619>"
	cbz	w0, .LBB13_326
	ldp	x8, x23, [x29, #-216]
	b	.LBB13_311
.LBB13_351:
	sub	x0, x29, #224
	mov	x1, x22
	bl	"std_alloc::vec::Vec::grow_amortized::<#582fc6be45daf619>"
	cbz	w0, .LBB13_326
	ldp	x26, x23, [x29, #-216]
	ldur	x24, [x29, #-224]
	b	.LBB13_312
.LBB13_353:
	sub	x11, x29, #176
	add	x12, x8, x24
	and	x10, x21, #0x18
	add	x11, x14, x11
	and	x9, x21, #0xffffffffffffffe0
	add	x12, x12, #16
	add	x11, x11, #16
	and	x13, x21, #0xffffffffffffffe0
.LBB13_354:
	ldp	q0, q1, [x11, #-16]
	subs	x13, x13, #32
	add	x11, x11, #32
	stp	q0, q1, [x12, #-16]
	add	x12, x12, #32
	b.ne	.LBB13_354
	cmp	x21, x9
	b.eq	.LBB13_321
	cbz	x10, .LBB13_318
.LBB13_357:
	mov	x10, x9
	and	x9, x21, #0xfffffffffffffff8
	sub	x12, x29, #176
	add	x11, x14, x10
	add	x13, x8, x10
	sub	x10, x10, x9
	add	x11, x12, x11
	add	x12, x24, x13
.LBB13_358:
	ldr	d0, [x11], #8
	adds	x10, x10, #8
	str	d0, [x12], #8
	b.ne	.LBB13_358
	cmp	x21, x9
	b.eq	.LBB13_321
	b	.LBB13_318
.LBB13_360:
	sub	x0, x29, #224
	mov	w1, #2
	bl	"std_alloc::vec::Vec::grow_amortized::<#582fc6be45daf619>"
	cbz	w0, .LBB13_326
	ldp	x27, x23, [x29, #-216]
	ldur	x24, [x29, #-224]
	b	.LBB13_313
.LBB13_362:
	sub	x0, x29, #224
	mov	x1, x21
	bl	"std_alloc::vec::Vec::grow_amortized::<#582fc6be45daf619>"
	cbz	w0, .LBB13_326
	ldp	x8, x23, [x29, #-216]
	ldur	x24, [x29, #-224]
	ldr	x14, [sp, #80]
	b	.LBB13_314
.LBB13_364:
	sub	x0, x29, #224
	mov	w1, #24
	bl	"std_alloc::vec::Vec::grow_amortized::<#582fc6be45daf619>"
	cbz	w0, .LBB13_326
	ldp	x22, x23, [x29, #-216]
	ldur	x24, [x29, #-224]
	b	.LBB13_322
.Lfunc_end13:
	.size	proved_main_aarch64, .Lfunc_end13-proved_main_aarch64
	.cfi_endproc

	.type	.Lstatic.15,@object
	.section	.rodata..Lstatic.15,"a",@progbits
.Lstatic.15:
	.ascii	"0x"
	.size	.Lstatic.15, 2

	.type	.Lstatic.16,@object
	.section	.rodata..Lstatic.16,"a",@progbits
.Lstatic.16:
	.ascii	" ("
	.size	.Lstatic.16, 2

	.type	.Lstatic.17,@object
	.section	.rodata..Lstatic.17,"a",@progbits
.Lstatic.17:
	.ascii	"): incomplete character\n"
	.size	.Lstatic.17, 24

	.type	.Lstatic.18,@object
	.section	.rodata..Lstatic.18,"a",@progbits
.Lstatic.18:
	.ascii	"00010203040506070809101112131415161718192021222324252627282930313233343536373839404142434445464748495051525354555657585960616263646566676869707172737475767778798081828384858687888990919293949596979899"
	.size	.Lstatic.18, 200

	.type	.Lstatic.19,@object
	.section	.rodata..Lstatic.19,"a",@progbits
.Lstatic.19:
	.ascii	"bytes: "
	.size	.Lstatic.19, 7

	.type	.Lstatic.20,@object
	.section	.rodata..Lstatic.20,"a",@progbits
.Lstatic.20:
	.ascii	", characters: "
	.size	.Lstatic.20, 14

	.type	.Lstatic.21,@object
	.section	.rodata..Lstatic.21,"a",@progbits
.Lstatic.21:
	.ascii	", ill-formed: "
	.size	.Lstatic.21, 14

	.type	.Lstatic.23,@object
	.section	.rodata..Lstatic.23,"a",@progbits
.Lstatic.23:
	.ascii	"): unpaired leading surrogate "
	.size	.Lstatic.23, 30

	.type	.Lstatic.24,@object
	.section	.rodata..Lstatic.24,"a",@progbits
.Lstatic.24:
	.ascii	"): unpaired trailing surrogate "
	.size	.Lstatic.24, 31

	.type	.Lstatic.25,@object
	.section	.rodata..Lstatic.25,"a",@progbits
.Lstatic.25:
	.ascii	"usage: "
	.size	.Lstatic.25, 7

	.type	.Lstatic.26,@object
	.section	.rodata..Lstatic.26,"a",@progbits
.Lstatic.26:
	.ascii	": read failed\n"
	.size	.Lstatic.26, 14

	.type	.Lstatic.27,@object
	.section	.rodata..Lstatic.27,"a",@progbits
.Lstatic.27:
	.ascii	": write failed\n"
	.size	.Lstatic.27, 15

	.type	.Lstatic.28,@object
	.section	.rodata.cst16,"aM",@progbits,16
.Lstatic.28:
	.ascii	": out of memory\n"
	.size	.Lstatic.28, 16

	.type	.Lstatic.29,@object
	.section	.rodata..Lstatic.29,"a",@progbits
.Lstatic.29:
	.ascii	": input too long\n"
	.size	.Lstatic.29, 17

	.type	.Lstatic.30,@object
	.section	.rodata..Lstatic.30,"a",@progbits
.Lstatic.30:
	.ascii	" le|be|auto\n"
	.size	.Lstatic.30, 12

	.type	.Lstatic.34,@object
	.section	.rodata..Lstatic.34,"a",@progbits
.Lstatic.34:
	.ascii	"utf16_check"
	.size	.Lstatic.34, 11

	.ident	"rattle logic=dac8208d650f15bf3e2dc313a14fa4c783a3acf887bdfab66e1714b038d9e11b"
	.section	".note.GNU-stack","",@progbits
