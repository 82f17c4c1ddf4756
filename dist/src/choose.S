/* SPDX-License-Identifier: MIT OR Apache-2.0
 * The public name of each call, which jumps to the proved code. For x86-64 there is code for the
 * levels x86-64-v2 and x86-64-v3. The first call of a process finds out whether the processor and
 * the system have all of x86-64-v3, and from then on each call takes the same code. Threads that
 * find it out at once store the same number, so there is no lock. With DETHRUX_LEVEL, 2 or 3, there
 * is only the code for that level. */

#ifdef __APPLE__
#define NAME(name) _##name
#else
#define NAME(name) name
#endif
/* The calls keep the convention of Linux. On Windows windows.c has the public names. */
#ifdef _WIN32
#define PUBLIC(name) sysv_##name
#else
#define PUBLIC(name) NAME(name)
#endif

/* A function begins and ends. The linker drops the section of one that nothing calls. Without the
 * assembler's symbol DETHRUX_SHARED, a shared library with this code does not export its calls. */
.macro BEGIN name
#if defined(__APPLE__)
    .section __TEXT,__text,regular,pure_instructions
    .ifndef DETHRUX_SHARED
    .private_extern \name
    .endif
#elif defined(_WIN32)
    .section .text$\name,"xr"
#else
    .section .text.\name,"ax",%progbits
    .type \name,%function
    .ifndef DETHRUX_SHARED
    .hidden \name
    .endif
#endif
    .globl \name
    .p2align 4
\name:
    .cfi_startproc
#ifdef __x86_64__
    endbr64
#else
    hint #34 /* bti c */
#endif
.endm

.macro END name
    .cfi_endproc
#if !defined(__APPLE__) && !defined(_WIN32)
    .size \name,.-\name
#endif
.endm

.macro TEXTS
#if defined(__APPLE__)
    .section __TEXT,__cstring,cstring_literals
#elif defined(_WIN32)
    .section .rdata,"dr"
#else
    .section .rodata.str1.1,"aMS",%progbits,1
#endif
.endm

#ifdef __x86_64__

#ifdef DETHRUX_LEVEL
.macro CHOOSE call, v2, v3
    BEGIN \call
#if DETHRUX_LEVEL == 3
    jmp \v3
#else
    jmp \v2
#endif
    END \call
.endm
#else
.macro CHOOSE call, v2, v3
    BEGIN \call
0:  cmpl $2, level(%rip)
    ja \v3
    je \v2
    callq find_level
    jmp 0b
    END \call
.endm

/* 2 or 3, or 0 if no call was made yet. */
    .data
    .p2align 2
level:
    .long 0

/* The features of x86-64-v3 that x86-64-v2 lacks, by the leaf of cpuid and the register. */
#define LEAF_1_ECX (1 << 12 /* FMA */ | 1 << 22 /* MOVBE */ | 1 << 27 /* OSXSAVE */ \
    | 1 << 28 /* AVX */ | 1 << 29 /* F16C */)
#define LEAF_7_EBX (1 << 3 /* BMI1 */ | 1 << 5 /* AVX2 */ | 1 << 8 /* BMI2 */)
#define LEAF_80000001_ECX (1 << 5 /* LZCNT */)
/* What the system saves of a thread: the lower and the upper halves of the vectors. */
#define XCR0_EAX (1 << 1 /* SSE */ | 1 << 2 /* AVX */)

/* Sets the level. All registers but rax stay as they are, since a call has its arguments there. */
    .text
    .p2align 4
find_level:
    .cfi_startproc
    pushq %rbx
    .cfi_adjust_cfa_offset 8
    .cfi_rel_offset %rbx, 0
    pushq %rcx
    .cfi_adjust_cfa_offset 8
    pushq %rdx
    .cfi_adjust_cfa_offset 8
    xorl %eax, %eax
    cpuid
    cmpl $7, %eax
    jb 2f
    movl $1, %eax
    cpuid
    notl %ecx
    testl $LEAF_1_ECX, %ecx
    jnz 2f
    xorl %ecx, %ecx
    xgetbv
    notl %eax
    testl $XCR0_EAX, %eax
    jnz 2f
    movl $7, %eax
    cpuid
    notl %ebx
    testl $LEAF_7_EBX, %ebx
    jnz 2f
    movl $0x80000001, %eax
    cpuid
    testl $LEAF_80000001_ECX, %ecx
    jz 2f
    movl $3, %eax
    jmp 3f
2:  movl $2, %eax
3:  movl %eax, level(%rip)
    popq %rdx
    .cfi_adjust_cfa_offset -8
    popq %rcx
    .cfi_adjust_cfa_offset -8
    popq %rbx
    .cfi_adjust_cfa_offset -8
    .cfi_restore %rbx
    retq
    .cfi_endproc
#endif

#define CALL(result, name, parameters, arguments) \
    CHOOSE PUBLIC(name), NAME(name##_v2), NAME(name##_v3)
#else
.macro CHOOSE call, only
    BEGIN \call
    b \only
    END \call
.endm
#define CALL(result, name, parameters, arguments) CHOOSE PUBLIC(name), NAME(name##_aarch64)
#endif

#define ACTION(name, parameters, arguments) CALL(void, name, parameters, arguments)

#include "calls.inc"

/* dethrux_kernel returns the name of the code that is taken. */
    TEXTS
#ifdef __x86_64__
v2: .asciz "x86-64-v2"
v3: .asciz "x86-64-v3"
#else
only: .asciz "aarch64"
#endif
    BEGIN NAME(dethrux_kernel)
#if defined(__aarch64__) && defined(__APPLE__)
    adrp x0, only@PAGE
    add x0, x0, only@PAGEOFF
    ret
#elif defined(__aarch64__)
    adrp x0, only
    add x0, x0, :lo12:only
    ret
#elif DETHRUX_LEVEL == 3
    leaq v3(%rip), %rax
    retq
#elif DETHRUX_LEVEL == 2
    leaq v2(%rip), %rax
    retq
#else
0:  cmpl $2, level(%rip)
    leaq v3(%rip), %rax
    ja 1f
    leaq v2(%rip), %rax
    je 1f
    callq find_level
    jmp 0b
1:  retq
#endif
    END NAME(dethrux_kernel)

#if defined(__APPLE__)
    .subsections_via_symbols
#elif !defined(_WIN32)
    .section .note.GNU-stack,"",%progbits
    .section .note.gnu.property,"a",%note
    .p2align 3
    .long 4, 16, 5
    .asciz "GNU"
#ifdef __x86_64__
    /* CET, and the levels of x86-64 that the loader wants of the processor. */
    .long 0xc0000002, 4, 3, 0
    .long 4, 16, 5
    .asciz "GNU"
#if DETHRUX_LEVEL == 3
    .long 0xc0008002, 4, 7, 0
#else
    .long 0xc0008002, 4, 3, 0
#endif
#else
    /* BTI. */
    .long 0xc0000000, 4, 1, 0
#endif
#endif
