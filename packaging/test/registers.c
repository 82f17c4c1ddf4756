/* Calls each function of the library on Windows with values in all registers that a function there
 * must keep, and tests that they are still there. Prints each function and register that changed.
 * Exits with 0 if there are none. .ci/windows.sh writes watched.inc, which has a line for each
 * function of the header. */
#include <dethrux.h>

#include <stdio.h>
#include <string.h>

enum { ARGUMENTS = 7, WORDS = 8, VECTORS = 10 };

/* The registers that a function keeps: these eight, and xmm6 to xmm15. */
static const char *const names[WORDS] = {"rbx", "rbp", "rdi", "rsi", "r12", "r13", "r14", "r15"};

typedef struct {
    uint64_t words[WORDS];
    uint64_t vectors[VECTORS][2];
} registers;

/* A call: the registers before it and after it. The code below knows the offsets. */
typedef struct {
    void (*function)(void);
    uint64_t arguments[ARGUMENTS];
    registers before;
    registers after;
} call;

void make_call(call *made);

/* Writes a line for each of the vectors, whose number is `v` in it. */
#define EACH_VECTOR(line) ".irp v, 6, 7, 8, 9, 10, 11, 12, 13, 14, 15\n    " line "\n.endr\n"

/* Four arguments are in registers, and the others follow 32 bytes that the function may use. */
__asm__(".text\n"
        ".globl make_call\n"
        "make_call:\n"
        "    pushq %rbx\n    pushq %rbp\n    pushq %rdi\n    pushq %rsi\n"
        "    pushq %r12\n    pushq %r13\n    pushq %r14\n    pushq %r15\n"
        "    subq $248, %rsp\n"
        "    movq %rcx, 224(%rsp)\n"
        EACH_VECTOR("movaps %xmm\\v, 16*\\v-32(%rsp)")
        "    movq %rcx, %rax\n"
        EACH_VECTOR("movups 16*\\v+32(%rax), %xmm\\v")
        "    movq 40(%rax), %r10\n    movq %r10, 32(%rsp)\n"
        "    movq 48(%rax), %r10\n    movq %r10, 40(%rsp)\n"
        "    movq 56(%rax), %r10\n    movq %r10, 48(%rsp)\n"
        "    movq 8(%rax), %rcx\n    movq 16(%rax), %rdx\n"
        "    movq 24(%rax), %r8\n    movq 32(%rax), %r9\n"
        "    movq 64(%rax), %rbx\n    movq 72(%rax), %rbp\n    movq 80(%rax), %rdi\n"
        "    movq 88(%rax), %rsi\n    movq 96(%rax), %r12\n    movq 104(%rax), %r13\n"
        "    movq 112(%rax), %r14\n    movq 120(%rax), %r15\n"
        "    callq *(%rax)\n"
        "    movq 224(%rsp), %rax\n"
        "    movq %rbx, 288(%rax)\n    movq %rbp, 296(%rax)\n    movq %rdi, 304(%rax)\n"
        "    movq %rsi, 312(%rax)\n    movq %r12, 320(%rax)\n    movq %r13, 328(%rax)\n"
        "    movq %r14, 336(%rax)\n    movq %r15, 344(%rax)\n"
        EACH_VECTOR("movups %xmm\\v, 16*\\v+256(%rax)")
        EACH_VECTOR("movaps 16*\\v-32(%rsp), %xmm\\v")
        "    addq $248, %rsp\n"
        "    popq %r15\n    popq %r14\n    popq %r13\n    popq %r12\n"
        "    popq %rsi\n    popq %rdi\n    popq %rbp\n    popq %rbx\n"
        "    retq\n");

typedef char before_is_at_64[offsetof(call, before) == 64 ? 1 : -1];
typedef char after_is_at_288[offsetof(call, after) == 288 ? 1 : -1];

static int changed;

static void report(const char *name, const char *prefix, const char *found, int number) {
    printf("%s changes %s%s%.0d\n", name, prefix, found, number);
    changed = 1;
}

/* Makes a call, and prints each register that it did not keep. */
static void watch(const char *name, void (*function)(void), const uint64_t *arguments) {
    call made;
    memset(&made, 0, sizeof made);
    made.function = function;
    memcpy(made.arguments, arguments, sizeof made.arguments);
    for (int at = 0; at < WORDS; at++) {
        made.before.words[at] = 0x1111111111111111u * (unsigned)(at + 1);
    }
    for (int at = 0; at < VECTORS; at++) {
        made.before.vectors[at][0] = 0x0102030405060708u * (unsigned)(at + 6);
        made.before.vectors[at][1] = ~made.before.vectors[at][0];
    }
    make_call(&made);
    for (int at = 0; at < WORDS; at++) {
        if (made.before.words[at] != made.after.words[at]) {
            report(name, "", names[at], 0);
        }
    }
    for (int at = 0; at < VECTORS; at++) {
        if (memcmp(made.before.vectors[at], made.after.vectors[at], 16) != 0) {
            report(name, "xmm", "", at + 6);
        }
    }
}

#define AT(pointer) ((uint64_t)(uintptr_t)(pointer))
/* A result of more than 8 bytes is returned through a pointer, which is the first argument. */
#define RESULT AT(&result)
#define WATCH(name, ...) \
    watch(#name, (void (*)(void))name, (const uint64_t[ARGUMENTS]){__VA_ARGS__})

static uint8_t text[4096];
static uint8_t to[3 * sizeof text];
static uint32_t points[sizeof text / 2];

static void watch_all(uint64_t order, size_t len) {
    dethrux_decoder decoder = DETHRUX_DECODER_INIT;
    dethrux_encoder encoder = DETHRUX_ENCODER_INIT;
    dethrux_wtf8_encoder wtf8_encoder = DETHRUX_WTF8_ENCODER_INIT;
    dethrux_inspection result; /* the largest one */
#include "watched.inc"
}

/* Fills the text with these bytes, again and again. */
static void fill(const char *bytes, size_t len) {
    for (size_t at = 0; at < sizeof text; at++) {
        text[at] = (uint8_t)bytes[at % len];
    }
}

int main(void) {
    /* UTF-16 and UTF-8 of one to four bytes a character, and what is ill formed in both. */
    static const struct {
        const char *bytes;
        size_t len;
    } texts[] = {{"a\0b\0", 4}, {"abcd", 4}, {"\0\x4E\x01\x4E", 4}, {"\xE4\xB8\x80", 3},
        {"\xE4\0\xF6\0", 4}, {"\xC3\xA4", 2}, {"\x3D\xD8\0\xDE", 4}, {"\xF0\x9F\x98\x80", 4},
        {"\0\xDC\0\xD8" "a\0", 6}, {"\xFF\xFE\x80\xC3", 4}};
    static const size_t lengths[] = {0, 1, 2, 31, 64, 1000, sizeof text};
    for (size_t at = 0; at < sizeof texts / sizeof *texts; at++) {
        for (size_t of = 0; of < sizeof lengths / sizeof *lengths; of++) {
            for (uint64_t order = 0; order < 2; order++) {
                fill(texts[at].bytes, texts[at].len);
                watch_all(order, lengths[of]);
            }
        }
    }
    return changed;
}
