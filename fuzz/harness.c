/* Calls libdethrux on inputs and compares what it returns with a reference decoder.
 *
 *   harness --hex DIGITS            reads one input from hexadecimal digits
 *   harness --random SEED SECONDS   makes inputs; the last line is 'N passed, M failed'
 *
 * A difference, or an access outside of a buffer, is printed with the input as digits for --hex.
 * Then the process aborts; with --random it continues with the other checks.
 */
#include "checks.h"
#include "guarded.h"

#include <setjmp.h>
#include <signal.h>
#include <stdio.h>
#include <stdlib.h>
#include <string.h>
#include <sys/time.h>
#include <time.h>
#include <unistd.h>

static const char *program; /* the name that it was started with */

static struct {
    const uint8_t *bytes; /* the input */
    size_t len;
    const char *check;
    bool resumes; /* continues after a difference */
    sigjmp_buf after;
} current;

_Noreturn void report_difference(const char *what) {
    fprintf(stderr, "%s: %s\n  reproduce: fuzz/%s --hex ", current.check, what, program);
    for (size_t i = 0; i < current.len; i++) {
        fprintf(stderr, "%02X", current.bytes[i]);
    }
    fputc('\n', stderr);
    if (current.resumes) {
        siglongjmp(current.after, 1);
    }
    abort();
}

/* The processor time after which the calls on an input count as hanging. */
enum { SECONDS_AN_INPUT = 20 };

/* Reports an access outside of a buffer, another fault inside a call, or a call that hangs. */
static void on_fault(int number) {
    char what[64];
    snprintf(what, sizeof what, "signal %d (%s)", number, strsignal(number));
    signal(number, SIG_DFL);
    report_difference(what);
}

static void catch_faults(void) {
    static const int FAULTS[] = {SIGSEGV, SIGBUS, SIGILL, SIGFPE, SIGVTALRM};
    for (size_t i = 0; i < sizeof FAULTS / sizeof FAULTS[0]; i++) {
        signal(FAULTS[i], on_fault);
    }
}

static void run_checks(const uint8_t *bytes, size_t len, bool failed[]) {
    const struct itimerval limit = {.it_value = {.tv_sec = SECONDS_AN_INPUT}};
    setitimer(ITIMER_VIRTUAL, &limit, NULL);
    input in = parse_input(bytes, len);
    current.bytes = bytes;
    current.len = len;
    checks_begin(&in);
    for (size_t i = 0; i < CHECK_COUNT; i++) {
        current.check = CHECKS[i].name;
        if (failed != NULL && failed[i]) {
            continue;
        }
        if (failed == NULL || sigsetjmp(current.after, 1) == 0) {
            CHECKS[i].run();
        } else {
            failed[i] = true;
            catch_faults();
        }
    }
}

static int run_random(uint64_t seed, time_t seconds) {
    static uint8_t bytes[INPUT_MAX];
    bool *failed = calloc(CHECK_COUNT, sizeof *failed);
    unsigned long long inputs = 0;
    size_t failures = 0;
    current.resumes = true;
    printf("seed %llu\n", (unsigned long long)seed);
    for (time_t end = time(NULL) + seconds; time(NULL) < end; inputs++) {
        run_checks(bytes, generate_input(&seed, bytes), failed);
    }
    for (size_t i = 0; i < CHECK_COUNT; i++) {
        failures += failed[i];
    }
    printf("%llu inputs\n", inputs);
    printf("%zu passed, %zu failed\n", CHECK_COUNT - failures, failures);
    free(failed);
    return failures != 0;
}

static int run_hex(const char *digits) {
    static uint8_t bytes[INPUT_MAX];
    size_t len = strlen(digits);
    if (len % 2 != 0 || len > 2 * INPUT_MAX || strspn(digits, "0123456789ABCDEFabcdef") != len) {
        fprintf(stderr, "--hex: give two hexadecimal digits for each of at most %d bytes\n",
                INPUT_MAX);
        return 2;
    }
    for (size_t i = 0; i < len / 2; i++) {
        char byte[3] = {digits[2 * i], digits[2 * i + 1], 0};
        bytes[i] = (uint8_t)strtoul(byte, NULL, 16);
    }
    run_checks(bytes, len / 2, NULL);
    return 0;
}

int main(int argc, char **argv) {
    program = argv[0];
    guarded_init();
    catch_faults();
    if (argc == 3 && strcmp(argv[1], "--hex") == 0) {
        return run_hex(argv[2]);
    }
    if (argc == 4 && strcmp(argv[1], "--random") == 0) {
        return run_random(strtoull(argv[2], NULL, 0), (time_t)strtoull(argv[3], NULL, 0));
    }
    fprintf(stderr, "usage: %s --hex DIGITS | --random SEED SECONDS\n", program);
    return 2;
}
