// simdutf's calls for `calls.rs` and `real.rs`, each with the kernel that it is given. They call the
// kernel directly, so it does not matter which one simdutf would choose at run time.
#include "simdutf.h"

// Returns the kernel that a word names, or null if simdutf was built without it or this processor
// cannot run it.
extern "C" const simdutf::implementation *bench_kernel(const char *word) {
    const simdutf::implementation *kernel = simdutf::get_available_implementations()[word];
    return kernel && kernel->supported_by_runtime_system() ? kernel : nullptr;
}

// The same calls as in `icu.c`, in either byte order. A conversion that fails returns SIZE_MAX.
static size_t all_written(simdutf::result answer) {
    return answer.error ? SIZE_MAX : answer.count;
}

extern "C" size_t bench_valid_up_to(const simdutf::implementation *by, bool big, const char16_t *units, size_t len) {
    simdutf::result answer = big ? by->validate_utf16be_with_errors(units, len)
                                 : by->validate_utf16le_with_errors(units, len);
    return answer.error ? answer.count : len;
}

extern "C" size_t bench_count(const simdutf::implementation *by, bool big, const char16_t *units, size_t len) {
    return big ? by->count_utf16be(units, len) : by->count_utf16le(units, len);
}

extern "C" size_t bench_to_utf8(const simdutf::implementation *by, bool big, const char16_t *units, size_t len, char *to) {
    return all_written(big ? by->convert_utf16be_to_utf8_with_errors(units, len, to)
                           : by->convert_utf16le_to_utf8_with_errors(units, len, to));
}

extern "C" size_t bench_from_utf8(const simdutf::implementation *by, bool big, const char *text, size_t len, char16_t *to) {
    return all_written(big ? by->convert_utf8_to_utf16be_with_errors(text, len, to)
                           : by->convert_utf8_to_utf16le_with_errors(text, len, to));
}
