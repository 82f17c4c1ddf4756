/* SPDX-License-Identifier: MIT OR Apache-2.0 */

/*
 * What the functions of the extension share, and what the conversions of bytes do.
 *
 * A call with a long input runs without the GIL if nobody can write to the input. Otherwise it
 * keeps the GIL, so that no other thread writes to the bytes that it reads.
 */
#ifndef DETHRUX_NATIVE_H
#define DETHRUX_NATIVE_H

#define PY_SSIZE_T_CLEAN
#include <Python.h>

#include "dethrux.h"

#include <stdbool.h>
#include <stdint.h>
#include <string.h>

/* The shortest input, in bytes, for which it pays to give up the GIL. */
#define LONG ((size_t) 1 << 16)
/* The most bytes that are converted on the stack and then copied. */
#define SMALL 1024
/* How many bytes are read and converted at a time: they stay in the cache. */
#define BLOCK ((size_t) 1 << 14)
/* The shortest block of memory that glibc takes from new pages (M_MMAP_THRESHOLD). */
#define MAPPED ((size_t) 1 << 17)

/* What the functions use. */
typedef struct {
    PyObject *validity; /* The named tuples `Validity`, `Progress` and `Bom`. */
    PyObject *progress;
    PyObject *bom;
    PyObject *ill_formed; /* `IllFormed`, `Inspection` and `ProgressInto`. */
    PyObject *inspection;
    PyObject *progress_into;
    PyObject *statuses; /* The members of `Status`, `BomStatus` and `Repertoire`, tuples. */
    PyObject *bom_statuses;
    PyObject *repertoires;
    PyObject *little; /* The words for the byte orders. */
    PyObject *big;
    PyObject *strict;         /* The name of the handler that raises. */
    PyObject *lookup_error;   /* `codecs.lookup_error`. */
    PyObject *replace_errors; /* The handlers of CPython that need no exception. */
    PyObject *ignore_errors;
    PyObject *backslashreplace_errors;
    PyObject *surrogatepass_errors; /* NULL if a program has put another one there. */
    PyObject *utf_16_encode;        /* `codecs.utf_16_encode`. */
} native;

/* The arguments of a function, in the order of its parameters. NULL is one that was not given. */
typedef PyObject *const *arguments;

/* What a function does. */
typedef PyObject *action(const native *it, arguments given);

/* A conversion of bytes to bytes. */
typedef dethrux_progress conversion(
    dethrux_byte_order order, const void *bytes, size_t len, void *to, size_t capacity);

/* Bytes that a call reads in place. */
typedef struct {
    const uint8_t *bytes;
    size_t len;
    bool without_gil; /* Whether the calls run without the GIL. */
    Py_buffer view;   /* Its object is NULL if the bytes are of a bytes object. */
} input;

/* Returns the byte order of a word. Otherwise it raises an exception and returns -1. */
static int order_of(const native *it, PyObject *word) {
    if (word == it->little) {
        return DETHRUX_LITTLE_ENDIAN;
    }
    if (word == it->big) {
        return DETHRUX_BIG_ENDIAN;
    }
    if (!PyUnicode_Check(word)) {
        PyErr_Format(PyExc_TypeError, "byteorder must be str, not %s", Py_TYPE(word)->tp_name);
        return -1;
    }
    if (PyUnicode_CompareWithASCIIString(word, "little") == 0) {
        return DETHRUX_LITTLE_ENDIAN;
    }
    if (PyUnicode_CompareWithASCIIString(word, "big") == 0) {
        return DETHRUX_BIG_ENDIAN;
    }
    PyErr_SetString(PyExc_ValueError, "byteorder must be either 'little' or 'big'");
    return -1;
}

/* Sets a length or an offset; one that is too great for any buffer is the greatest. Returns whether
 * it is one. */
static bool size_of(PyObject *given, const char *name, size_t *size) {
    Py_ssize_t number = PyNumber_AsSsize_t(given, NULL);
    if (number < 0) {
        if (!PyErr_Occurred()) {
            PyErr_Format(PyExc_ValueError, "%s must not be negative", name);
        }
        return false;
    }
    *size = (size_t) number;
    return true;
}

/* Sets an offset of a file. Returns whether it is one. */
static bool offset_of(PyObject *given, const char *name, uint64_t *offset) {
    size_t size;
    PyObject *number = PyNumber_Index(given);
    bool is_offset = number && size_of(number, name, &size);
    if (is_offset) {
        *offset = PyLong_AsUnsignedLongLong(number);
        is_offset = !PyErr_Occurred();
        if (!is_offset) {
            PyErr_Format(PyExc_OverflowError, "%s must be less than 2**64", name);
        }
    }
    Py_XDECREF(number);
    return is_offset;
}

/* Returns whether nobody can write to the memory of a buffer: its object is read-only. A read-only
 * view may be of an object that is not. */
static bool is_constant(PyObject *object, const Py_buffer *view) {
    if (!view->readonly || !PyMemoryView_Check(object)) {
        return view->readonly && view->obj == object;
    }
    PyObject *owner = PyMemoryView_GET_BASE(object);
    Py_buffer whole;
    if (!owner || PyObject_GetBuffer(owner, &whole, PyBUF_FULL_RO) < 0) {
        PyErr_Clear();
        return false;
    }
    bool is_readonly = whole.readonly && whole.obj == owner;
    PyBuffer_Release(&whole);
    return is_readonly;
}

/* Returns whether nobody can write to the bytes of an object that are held. */
static bool stays(PyObject *object, const input *held) {
    const Py_buffer *view = &held->view;
    return !view->obj || PyBytes_CheckExact(view->obj) || is_constant(object, view);
}

/* Holds a copy of the bytes of a buffer after an exception, for which it may raise another one.
 * Returns whether it did. */
static bool hold_copy(PyObject *object, Py_buffer *held) {
    Py_buffer pieces;
    PyErr_Clear();
    if (PyObject_GetBuffer(object, &pieces, PyBUF_FULL_RO) < 0) {
        return false;
    }
    PyObject *copy = PyBytes_FromStringAndSize(NULL, pieces.len);
    bool is_held = copy
        && PyBuffer_ToContiguous(PyBytes_AS_STRING(copy), &pieces, pieces.len, 'C') == 0
        && PyObject_GetBuffer(copy, held, PyBUF_SIMPLE) == 0;
    PyBuffer_Release(&pieces);
    Py_XDECREF(copy);
    return is_held;
}

/* Sets the bytes of a view that is held. */
static void take_view(PyObject *object, input *held) {
    held->bytes = held->view.buf;
    held->len = (size_t) held->view.len;
    held->without_gil = held->len >= LONG && stays(object, held);
}

/* Holds a buffer for a call, or a copy of one in pieces. Returns whether it did. */
static bool hold(PyObject *object, input *held) {
    if (PyBytes_CheckExact(object)) {
        held->bytes = (const uint8_t *) PyBytes_AS_STRING(object);
        held->len = (size_t) PyBytes_GET_SIZE(object);
        held->without_gil = held->len >= LONG;
        held->view.obj = NULL;
        return true;
    }
    if (PyObject_GetBuffer(object, &held->view, PyBUF_SIMPLE) < 0
        && !hold_copy(object, &held->view)) {
        return false;
    }
    take_view(object, held);
    return true;
}

/* Lets a buffer go. */
static void release(input *held) {
    PyBuffer_Release(&held->view);
}

/* Holds UTF-32, or a copy of a buffer in pieces or at an address that the library does not take.
 * Returns whether it did. */
static bool hold_utf32(PyObject *object, input *held) {
    if (!hold(object, held)) {
        return false;
    }
    if ((uintptr_t) held->bytes % sizeof(uint32_t) == 0) {
        return true;
    }
    release(held);
    if (!hold_copy(object, &held->view)) {
        return false;
    }
    take_view(object, held);
    return true;
}

/* Holds a buffer that a call changes. Returns whether it did. */
static bool hold_writable(PyObject *object, Py_buffer *held) {
    if (PyObject_GetBuffer(object, held, PyBUF_WRITABLE) == 0) {
        return true;
    }
    if (PyObject_CheckBuffer(object)) {
        /* One that was released or closed cannot be read either, and raises why. */
        PyErr_Clear();
        if (PyObject_GetBuffer(object, held, PyBUF_FULL_RO) < 0) {
            return false;
        }
        PyBuffer_Release(held);
    }
    PyErr_Format(PyExc_TypeError, "a writable buffer in one piece is required, not '%s'",
                 Py_TYPE(object)->tp_name);
    return false;
}

/* Gives up the GIL, if this is wanted, until `with_gil`. */
static PyThreadState *without_gil(bool is_wanted) {
    return is_wanted ? PyEval_SaveThread() : NULL;
}

/* Takes the GIL again. */
static void with_gil(PyThreadState *saved) {
    if (saved) {
        PyEval_RestoreThread(saved);
    }
}

/* Returns a named tuple with these fields, whose references it takes. */
static PyObject *named_tuple(PyObject *type, PyObject **fields, Py_ssize_t count) {
    PyObject *made = NULL, *plain = PyTuple_New(count), *packed = NULL;
    bool is_whole = plain;
    for (Py_ssize_t at = 0; at < count; at++) {
        is_whole = is_whole && fields[at];
        if (plain) {
            PyTuple_SET_ITEM(plain, at, fields[at]);
        } else {
            Py_XDECREF(fields[at]);
        }
    }
    if (is_whole && (packed = PyTuple_Pack(1, plain))) {
        made = PyTuple_Type.tp_new((PyTypeObject *) type, packed, NULL);
    }
    Py_XDECREF(packed);
    Py_XDECREF(plain);
    return made;
}

/* Returns a tuple of an object, whose reference it takes, and a number. */
static PyObject *pair(PyObject *first, size_t number) {
    PyObject *second = first ? PyLong_FromSize_t(number) : NULL;
    PyObject *both = second ? PyTuple_New(2) : NULL;
    if (!both) {
        Py_XDECREF(first);
        Py_XDECREF(second);
        return NULL;
    }
    PyTuple_SET_ITEM(both, 0, first);
    PyTuple_SET_ITEM(both, 1, second);
    return both;
}

/* Returns the member of an enumeration with this number, or NULL if there is none. */
static PyObject *member(PyObject *members, uint32_t number) {
    PyObject *found = PyTuple_GetItem(members, (Py_ssize_t) number);
    Py_XINCREF(found);
    return found;
}

/* The library. */

static PyObject *kernel(const native *it, arguments given) {
    (void) it;
    (void) given;
    return PyUnicode_FromString(dethrux_kernel());
}

/* What a call finds in its input. */

/* The result of a call that only reads. */
typedef union {
    size_t size;
    bool truth;
    dethrux_validity validity;
    dethrux_inspection inspection;
} finding;

/* Makes such a call, in a byte order if it takes one, and at an offset if it takes one. */
typedef void finder(dethrux_byte_order order, const void *, size_t len, size_t at, finding *);

/* Returns a result as an object. */
typedef PyObject *shown(const native *it, const finding *found);

static PyObject *show_size(const native *it, const finding *found) {
    (void) it;
    return PyLong_FromSize_t(found->size);
}

static PyObject *show_truth(const native *it, const finding *found) {
    (void) it;
    return PyBool_FromLong(found->truth);
}

static PyObject *show_validity(const native *it, const finding *found) {
    const dethrux_validity *all = &found->validity;
    PyObject *fields[] = {PyLong_FromSize_t(all->valid_up_to), member(it->statuses, all->status),
                          PyLong_FromUnsignedLong(all->error_len)};
    return named_tuple(it->validity, fields, 3);
}

static PyObject *show_inspection(const native *it, const finding *found) {
    const dethrux_inspection *all = &found->inspection;
    PyObject *fields[] = {PyLong_FromSize_t(all->valid_up_to), PyLong_FromSize_t(all->chars),
                          member(it->repertoires, all->repertoire),
                          member(it->statuses, all->status),
                          PyLong_FromUnsignedLong(all->error_len)};
    return named_tuple(it->inspection, fields, 5);
}

/* Returns what a call finds in the whole of an input, which `take` holds. */
static PyObject *found_in(const native *it, arguments given, bool has_order,
                          bool (*take)(PyObject *, input *), finder *find, shown *show) {
    int order = has_order ? order_of(it, given[1]) : DETHRUX_NATIVE_ENDIAN;
    input from;
    if (order < 0 || !take(given[0], &from)) {
        return NULL;
    }
    finding found;
    PyThreadState *saved = without_gil(from.without_gil);
    find((dethrux_byte_order) order, from.bytes, from.len, 0, &found);
    with_gil(saved);
    release(&from);
    return show(it, &found);
}

/* Returns what a call, which reads a few bytes, finds about an offset in UTF-16. */
static PyObject *found_at(const native *it, arguments given, finder *find, shown *show) {
    int order = order_of(it, given[1]);
    size_t at;
    input utf16;
    if (order < 0 || !size_of(given[2], "at", &at) || !hold(given[0], &utf16)) {
        return NULL;
    }
    finding found;
    find((dethrux_byte_order) order, utf16.bytes, utf16.len, at, &found);
    release(&utf16);
    return show(it, &found);
}

/* Defines what makes a call. */
#define DEFINE_FINDER(kind, name, call) \
    static void find_##name(dethrux_byte_order order, const void *bytes, size_t len, size_t at, \
                            finding *found) { \
        (void) order; \
        (void) at; \
        found->kind = call; \
    }
/* Define the function of a call by its shape. */
#define DEFINE_utf16(kind, name, symbol) \
    DEFINE_FINDER(kind, name, symbol(order, bytes, len)) \
    static PyObject *name(const native *it, arguments given) { \
        return found_in(it, given, true, hold, find_##name, show_##kind); \
    }
#define DEFINE_IN_BYTES(kind, name, symbol, take) \
    DEFINE_FINDER(kind, name, symbol(bytes, len)) \
    static PyObject *name(const native *it, arguments given) { \
        return found_in(it, given, false, take, find_##name, show_##kind); \
    }
#define DEFINE_bytes(kind, name, symbol) DEFINE_IN_BYTES(kind, name, symbol, hold)
#define DEFINE_bytesForUtf16 DEFINE_bytes
#define DEFINE_inAnyOrder DEFINE_bytes
#define DEFINE_utf32(kind, name, symbol) DEFINE_IN_BYTES(kind, name, symbol, hold_utf32)
#define DEFINE_utf32ForUtf16 DEFINE_utf32
#define DEFINE_utf16At(kind, name, symbol) \
    DEFINE_FINDER(kind, name, symbol(order, bytes, len, at)) \
    static PyObject *name(const native *it, arguments given) { \
        return found_at(it, given, find_##name, show_##kind); \
    }

/* Returns the first ill-formed sequence from an offset on, or None. */
static PyObject *next_error(const native *it, arguments given) {
    int order = order_of(it, given[1]);
    size_t at;
    input utf16;
    if (order < 0 || !size_of(given[2], "at", &at) || !hold(given[0], &utf16)) {
        return NULL;
    }
    size_t len = utf16.len;
    at = at < len ? at : len;
    /* The next error may be near: to give up the GIL for each could take longer than the search. */
    PyThreadState *saved = without_gil(at == 0 && utf16.without_gil);
    dethrux_validity found =
        dethrux_validate((dethrux_byte_order) order, utf16.bytes + at, len - at);
    with_gil(saved);
    release(&utf16);
    if (found.status == DETHRUX_DONE) {
        Py_RETURN_NONE;
    }
    at += found.valid_up_to;
    bool is_ill_formed = found.status == DETHRUX_ILL_FORMED;
    PyObject *fields[] = {PyLong_FromSize_t(at),
                          PyLong_FromSize_t(is_ill_formed ? found.error_len : len - at),
                          member(it->statuses, found.status)};
    return named_tuple(it->ill_formed, fields, 3);
}

/* The calls of UTF-32, with all lengths in bytes. */

/* A code unit has four bytes. */
static size_t to_utf32_lossy_len_in_bytes(dethrux_byte_order order, const void *utf16,
                                          size_t len) {
    return dethrux_to_utf32_lossy_len(order, utf16, len) * 4;
}

/* An incomplete code unit at the end becomes U+FFFD. */
static size_t from_utf32_lossy_len_in_bytes(const void *utf32, size_t len) {
    return dethrux_from_utf32_lossy_len(utf32, len / 4) + (len % 4 != 0 ? 2 : 0);
}

static dethrux_validity validate_utf32_in_bytes(const void *utf32, size_t len) {
    dethrux_validity found = dethrux_validate_utf32(utf32, len / 4);
    found.valid_up_to *= 4;
    found.error_len *= 4;
    if (found.status == DETHRUX_DONE && len % 4 != 0) {
        found.status = DETHRUX_INCOMPLETE;
    }
    return found;
}

static dethrux_progress to_utf32_in_bytes(
    dethrux_byte_order order, const void *utf16, size_t len, void *to, size_t capacity) {
    dethrux_progress done = dethrux_to_utf32(order, utf16, len, to, capacity / 4);
    done.written *= 4;
    return done;
}

static dethrux_progress to_utf32_lossy_in_bytes(
    dethrux_byte_order order, const void *utf16, size_t len, void *to, size_t capacity) {
    dethrux_progress done = dethrux_to_utf32_lossy(order, utf16, len, to, capacity / 4);
    done.written *= 4;
    return done;
}

/* With DETHRUX_INCOMPLETE the input ends inside a code unit. */
static dethrux_progress from_utf32_in_bytes(
    dethrux_byte_order order, const void *utf32, size_t len, void *to, size_t capacity) {
    dethrux_progress done = dethrux_from_utf32(order, utf32, len / 4, to, capacity);
    done.read *= 4;
    done.error_len *= 4;
    if (done.status == DETHRUX_DONE && len % 4 != 0) {
        done.status = DETHRUX_INCOMPLETE;
    }
    return done;
}

/* An incomplete code unit at the end becomes U+FFFD. */
static dethrux_progress from_utf32_lossy_in_bytes(
    dethrux_byte_order order, const void *utf32, size_t len, void *to, size_t capacity) {
    dethrux_progress done = dethrux_from_utf32_lossy(order, utf32, len / 4, to, capacity);
    done.read *= 4;
    if (done.status == DETHRUX_DONE && len % 4 != 0) {
        const uint32_t replacement = 0xFFFD;
        dethrux_progress last = dethrux_from_utf32_lossy(
            order, &replacement, 1, (uint8_t *) to + done.written, capacity - done.written);
        done.read = last.status == DETHRUX_DONE ? len : done.read;
        done.written += last.written;
        done.status = last.status;
    }
    return done;
}

/* Bytes to bytes. */

/* What a conversion reads and writes. All but UTF-16 and UTF-32 are bytes. */
typedef enum { TO_UTF8, TO_LATIN1, TO_UTF32, FROM_BYTES, FROM_UTF32 } direction;

/* Returns the length of the longest output for an input of this length. */
static size_t most(direction way, size_t len) {
    switch (way) {
    case TO_LATIN1:
        return len / 2;
    case TO_UTF32:
        return DETHRUX_UTF32_MAX(len) * 4;
    case FROM_BYTES:
        return DETHRUX_UTF16_MAX(len);
    case FROM_UTF32:
        return DETHRUX_FROM_UTF32_MAX((len + 3) / 4);
    default:
        return DETHRUX_UTF8_MAX(len);
    }
}

/* Returns a bytes object of a capacity, to be cut to what is written.
 *
 * glibc takes blocks of 128 KiB and more from new pages, which the kernel clears for each call,
 * until one that is as long was freed. From then on it keeps the memory. A result that was cut is
 * too short for that, so this frees a block first, whose pages nobody touches. Any other malloc
 * makes and frees it in vain. */
static PyObject *new_bytes(size_t capacity) {
    if (capacity >= MAPPED) {
        PyMem_RawFree(PyMem_RawMalloc(capacity + BLOCK));
    }
    return PyBytes_FromStringAndSize(NULL, (Py_ssize_t) capacity);
}

/* Returns what a conversion writes to a buffer of this capacity, and how far it came. */
static PyObject *converted(conversion *convert, dethrux_byte_order order, const input *from,
                           size_t capacity, dethrux_progress *done) {
    if (capacity <= SMALL) {
        _Alignas(uint32_t) uint8_t small[SMALL];
        *done = convert(order, from->bytes, from->len, small, capacity);
        return PyBytes_FromStringAndSize((const char *) small, (Py_ssize_t) done->written);
    }
    PyObject *output = new_bytes(capacity);
    if (!output) {
        return NULL;
    }
    PyThreadState *saved = without_gil(from->without_gil);
    *done = convert(order, from->bytes, from->len, PyBytes_AS_STRING(output), capacity);
    with_gil(saved);
    if (done->written != capacity) {
        _PyBytes_Resize(&output, (Py_ssize_t) done->written);
    }
    return output;
}

/* Limits what suffices to the capacity that was given, if one was. Returns whether it is one. */
static bool limit(PyObject *given, size_t *capacity) {
    size_t size;
    if (!given || given == Py_None) {
        return true;
    }
    if (!size_of(given, "capacity", &size)) {
        return false;
    }
    if (size < *capacity) {
        *capacity = size;
    }
    return true;
}

/* Returns a `Progress`. It takes the output. */
static PyObject *progress_of(const native *it, PyObject *output, const dethrux_progress *done) {
    if (!output) {
        return NULL;
    }
    PyObject *fields[] = {output, PyLong_FromSize_t(done->read), member(it->statuses, done->status),
                          PyLong_FromUnsignedLong(done->error_len)};
    return named_tuple(it->progress, fields, 4);
}

/* Holds the input of a conversion. Returns whether it did. */
static bool hold_source(PyObject *object, direction way, input *held) {
    return way == FROM_UTF32 ? hold_utf32(object, held) : hold(object, held);
}

/* Returns the progress of a conversion. */
static PyObject *progress(const native *it, arguments given, conversion *convert, direction way) {
    int order = order_of(it, given[1]);
    input from;
    if (order < 0 || !hold_source(given[0], way, &from)) {
        return NULL;
    }
    size_t capacity = most(way, from.len);
    PyObject *found = NULL;
    if (limit(given[2], &capacity)) {
        dethrux_progress done;
        PyObject *output = converted(convert, (dethrux_byte_order) order, &from, capacity, &done);
        found = progress_of(it, output, &done);
    }
    release(&from);
    return found;
}

/* Returns whether a conversion can write to a buffer, or raises an exception. The library takes
 * neither buffers that overlap nor UTF-32 at an address that is not a multiple of four. An empty
 * buffer overlaps no other, and may be anywhere. */
static bool fits(const input *from, direction way, const Py_buffer *to) {
    uintptr_t source = (uintptr_t) from->bytes, target = (uintptr_t) to->buf;
    if (to->len == 0) {
        return true;
    }
    if (from->len != 0 && source < target + (size_t) to->len && target < source + from->len) {
        PyErr_SetString(PyExc_ValueError, "the buffers must not overlap");
        return false;
    }
    if (way == TO_UTF32 && target % sizeof(uint32_t) != 0) {
        PyErr_SetString(PyExc_ValueError, "a buffer for UTF-32 must be aligned to four bytes");
        return false;
    }
    return true;
}

/* Converts to a buffer that is held. Returns a `ProgressInto`. */
static PyObject *converted_into(const native *it, conversion *convert, dethrux_byte_order order,
                                const input *from, const Py_buffer *to) {
    /* What an empty buffer points to, since its address may be any. */
    static uint32_t nothing;
    void *start = to->len == 0 ? &nothing : to->buf;
    PyThreadState *saved = without_gil(from->without_gil);
    dethrux_progress done = convert(order, from->bytes, from->len, start, (size_t) to->len);
    with_gil(saved);
    PyObject *fields[] = {PyLong_FromSize_t(done.read), PyLong_FromSize_t(done.written),
                          member(it->statuses, done.status),
                          PyLong_FromUnsignedLong(done.error_len)};
    return named_tuple(it->progress_into, fields, 4);
}

/* Returns the progress of a conversion to a buffer of the caller. */
static PyObject *into(const native *it, arguments given, conversion *convert, direction way) {
    int order = order_of(it, given[1]);
    input from;
    if (order < 0 || !hold_source(given[0], way, &from)) {
        return NULL;
    }
    PyObject *found = NULL;
    Py_buffer to;
    if (hold_writable(given[2], &to)) {
        if (fits(&from, way, &to)) {
            found = converted_into(it, convert, (dethrux_byte_order) order, &from, &to);
        }
        PyBuffer_Release(&to);
    }
    release(&from);
    return found;
}

/* Defines a function that returns the progress of a conversion, and one that writes to a buffer. */
#define DEFINE_CONVERSION(name, symbol, way) \
    static PyObject *name(const native *it, arguments given) { \
        return progress(it, given, symbol, way); \
    } \
    static PyObject *name##_into(const native *it, arguments given) { \
        return into(it, given, symbol, way); \
    }
#define DEFINE_utf16ToUtf8(kind, name, symbol) DEFINE_CONVERSION(name, symbol, TO_UTF8)
#define DEFINE_utf16ToLatin1(kind, name, symbol) DEFINE_CONVERSION(name, symbol, TO_LATIN1)
#define DEFINE_utf16ToUtf32(kind, name, symbol) DEFINE_CONVERSION(name, symbol, TO_UTF32)
#define DEFINE_bytesToUtf16(kind, name, symbol) DEFINE_CONVERSION(name, symbol, FROM_BYTES)
#define DEFINE_utf32ToUtf16(kind, name, symbol) DEFINE_CONVERSION(name, symbol, FROM_UTF32)

/* Streams. */

/* A copy of the state of a stream of either kind. */
typedef union {
    dethrux_decoder decoder;
    dethrux_encoder encoder;
} stream;

/* Returns the byte order that a stream has as a number. */
static dethrux_byte_order order_of_stream(PyObject *number) {
    return PyObject_IsTrue(number) ? DETHRUX_BIG_ENDIAN : DETHRUX_LITTLE_ENDIAN;
}

/* Decodes a chunk with a copy of the state, which becomes the state if nothing fails. */
static PyObject *feed_held(const native *it, arguments given, const input *chunk, bool is_utf8,
                           Py_buffer *state) {
    size_t capacity =
        is_utf8 ? DETHRUX_ENCODER_FEED_MAX(chunk->len) : DETHRUX_DECODER_FEED_MAX(chunk->len);
    if (!limit(given[3], &capacity)) {
        return NULL;
    }
    PyObject *output = new_bytes(capacity);
    if (!output) {
        return NULL;
    }
    char *to = PyBytes_AS_STRING(output);
    dethrux_byte_order order = order_of_stream(given[1]);
    stream copy;
    memcpy(&copy, state->buf, sizeof copy);
    PyThreadState *saved = without_gil(chunk->without_gil);
    dethrux_progress done = is_utf8
        ? dethrux_encoder_feed(&copy.encoder, order, chunk->bytes, chunk->len, to, capacity)
        : dethrux_decoder_feed(&copy.decoder, order, chunk->bytes, chunk->len, to, capacity);
    with_gil(saved);
    if (done.written != capacity) {
        _PyBytes_Resize(&output, (Py_ssize_t) done.written);
    }
    PyObject *found = progress_of(it, output, &done);
    if (found) {
        memcpy(state->buf, &copy, sizeof copy);
    }
    return found;
}

/* Holds the state of a decoder or of an encoder. Returns whether it did. */
static bool hold_state(PyObject *object, Py_buffer *state) {
    if (PyObject_GetBuffer(object, state, PyBUF_WRITABLE) < 0) {
        return false;
    }
    if (state->len == sizeof(stream)) {
        return true;
    }
    PyBuffer_Release(state);
    PyErr_SetString(PyExc_ValueError, "a state has four bytes");
    return false;
}

/* Returns the progress of a decoder, or of an encoder. */
static PyObject *feed(const native *it, arguments given, bool is_utf8) {
    Py_buffer state;
    input chunk;
    if (!hold_state(given[0], &state)) {
        return NULL;
    }
    PyObject *found = NULL;
    if (hold(given[2], &chunk)) {
        found = feed_held(it, given, &chunk, is_utf8, &state);
        release(&chunk);
    }
    PyBuffer_Release(&state);
    return found;
}

static PyObject *feed_decoder(const native *it, arguments given) {
    return feed(it, given, false);
}

static PyObject *feed_encoder(const native *it, arguments given) {
    return feed(it, given, true);
}

/* Ends a stream: the state changes if nothing fails. */
static PyObject *finish(arguments given, bool is_utf8) {
    uint8_t to[DETHRUX_DECODER_FINISH_MAX];
    Py_buffer state;
    if (!hold_state(given[0], &state)) {
        return NULL;
    }
    stream copy;
    memcpy(&copy, state.buf, sizeof copy);
    dethrux_byte_order order = order_of_stream(given[1]);
    dethrux_progress done = is_utf8
        ? dethrux_encoder_finish(&copy.encoder, order, to, sizeof to)
        : dethrux_decoder_finish(&copy.decoder, order, to, sizeof to);
    PyObject *output = PyBytes_FromStringAndSize((const char *) to, (Py_ssize_t) done.written);
    if (output) {
        memcpy(state.buf, &copy, sizeof copy);
    }
    PyBuffer_Release(&state);
    return output;
}

static PyObject *finish_decoder(const native *it, arguments given) {
    (void) it;
    return finish(given, false);
}

static PyObject *finish_encoder(const native *it, arguments given) {
    (void) it;
    return finish(given, true);
}

#endif
