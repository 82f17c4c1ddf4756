/* Wrong versions of calls, which the harness must find: each is right for all inputs except a few.
 * The linker's --wrap puts them in the place of the library's calls. */
#include "dethrux.h"

#define PLANTED(name) extern __typeof__(dethrux_##name) __real_dethrux_##name, __wrap_dethrux_##name
PLANTED(validate);
PLANTED(to_utf8);
PLANTED(from_utf8_lossy);
PLANTED(from_utf8_len);
PLANTED(encoder_feed);

/* Misses an unpaired surrogate in the last code unit of a block of 64 bytes. */
dethrux_validity __wrap_dethrux_validate(dethrux_byte_order order, const void *utf16,
                                         size_t len) {
    dethrux_validity validity = __real_dethrux_validate(order, utf16, len);
    if (validity.status == DETHRUX_ILL_FORMED && validity.valid_up_to % 64 == 62) {
        validity = (dethrux_validity){len, DETHRUX_DONE, 0};
    }
    return validity;
}

/* Converts U+FFFF to U+FFFD. */
dethrux_progress __wrap_dethrux_to_utf8(dethrux_byte_order order, const void *utf16, size_t len,
                                        void *to, size_t capacity) {
    dethrux_progress progress = __real_dethrux_to_utf8(order, utf16, len, to, capacity);
    uint8_t *bytes = to;
    for (size_t i = 0; i + 3 <= progress.written; i++) {
        if (bytes[i] == 0xEF && bytes[i + 1] == 0xBF && bytes[i + 2] == 0xBF) {
            bytes[i + 2] = 0xBD;
        }
    }
    return progress;
}

/* Writes one byte after a buffer that it has filled. */
dethrux_progress __wrap_dethrux_from_utf8_lossy(dethrux_byte_order order, const void *utf8,
                                                size_t len, void *to, size_t capacity) {
    dethrux_progress progress = __real_dethrux_from_utf8_lossy(order, utf8, len, to, capacity);
    if (capacity > 0 && progress.written == capacity) {
        ((uint8_t *)to)[capacity] = 0;
    }
    return progress;
}

/* Reads one byte after an input of 33 bytes. */
size_t __wrap_dethrux_from_utf8_len(const void *utf8, size_t len) {
    if (len == 33) {
        (void)((const volatile uint8_t *)utf8)[len];
    }
    return __real_dethrux_from_utf8_len(utf8, len);
}

/* Loses the third pending byte. */
dethrux_progress __wrap_dethrux_encoder_feed(dethrux_encoder *decoder,
                                                  dethrux_byte_order order, const void *chunk,
                                                  size_t len, void *to, size_t capacity) {
    dethrux_progress progress =
        __real_dethrux_encoder_feed(decoder, order, chunk, len, to, capacity);
    if (decoder->pending_len == DETHRUX_PENDING_MAX) {
        decoder->pending_len--;
    }
    return progress;
}
