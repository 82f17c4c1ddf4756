/* Makes the first call of the library where nothing can be prepared for it: in thirty threads at
 * once, in a signal handler, in a child after fork or, as a library that is preloaded, before main.
 * Prints which code runs. Exits with 0 if each result is right and all name the same code. */
#include <dethrux.h>
#include <pthread.h>
#include <signal.h>
#include <stdio.h>
#include <stdlib.h>
#include <string.h>
#include <sys/wait.h>
#include <unistd.h>

enum { THREADS = 30 };

static pthread_barrier_t together;
/* The name of the code after a call, or null if its result was wrong. */
static const char *volatile found[THREADS];

/* Makes a call of a kind: its result is in registers or in memory, and its arguments too. */
static bool is_right(int kind) {
    static const uint8_t utf16[] = {0x3D, 0xD8, 0x00, 0xDE}, other[] = {0xD8, 0x3D, 0xDE, 0x00};
    static const uint8_t utf8[] = {0xF0, 0x9F, 0x98, 0x80};
    dethrux_encoder encoder = DETHRUX_ENCODER_INIT;
    dethrux_byte_order little = DETHRUX_LITTLE_ENDIAN, big = DETHRUX_BIG_ENDIAN;
    uint8_t to[DETHRUX_ENCODER_FEED_MAX(sizeof utf8)];
    switch (kind) {
        case 0: return dethrux_count_chars(little, utf16, 4) == 1;
        case 1: return dethrux_compare(little, utf16, 4, big, other, 4) == 0;
        case 2:
            return dethrux_to_utf8(little, utf16, 4, to, sizeof to).written == 4
                && memcmp(to, utf8, 4) == 0;
        default:
            return dethrux_encoder_feed(&encoder, big, utf8, 4, to, sizeof to).written == 4
                && memcmp(to, other, 4) == 0;
    }
}

static void call(int number) { found[number] = is_right(number % 4) ? dethrux_kernel() : NULL; }

static void *in_thread(void *number) {
    pthread_barrier_wait(&together);
    call((int)(intptr_t)number);
    return NULL;
}

static void in_handler(int number) { call(number - SIGUSR1 + 3); }

/* Fills `found`. */
static void call_all(const char *where) {
    pthread_t threads[THREADS];
    if (strcmp(where, "threads") == 0) {
        pthread_barrier_init(&together, NULL, THREADS);
        for (int at = 0; at < THREADS; at++) {
            pthread_create(&threads[at], NULL, in_thread, (void *)(intptr_t)at);
        }
        for (int at = 0; at < THREADS; at++) {
            pthread_join(threads[at], NULL);
        }
        return;
    }
    if (strcmp(where, "handler") == 0) {
        signal(SIGUSR1, in_handler);
        raise(SIGUSR1);
    } else if (strcmp(where, "child") == 0) {
        int status = 1;
        if (fork() == 0) {
            call(2);
            _exit(found[2] == NULL);
        }
        wait(&status);
        if (status != 0) {
            exit(1);
        }
    }
    for (int at = 0; at < THREADS; at++) {
        call(at);
    }
}

static int all_are_same(void) {
    for (int at = 0; at < THREADS; at++) {
        if (found[at] == NULL || strcmp(found[at], found[0]) != 0) {
            return 1;
        }
    }
    puts(found[0]);
    return 0;
}

#ifdef BEFORE_MAIN
__attribute__((constructor)) static void before_main(void) {
    call_all("here");
    exit(all_are_same());
}
#else
int main(int count, char **words) {
    /* A debugger looks at the first call. */
    if (count < 2) {
        return dethrux_version() != DETHRUX_VERSION || puts(dethrux_kernel()) < 0;
    }
    call_all(words[1]);
    return all_are_same();
}
#endif
