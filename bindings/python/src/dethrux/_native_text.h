/* SPDX-License-Identifier: MIT OR Apache-2.0 */

/*
 * UTF-16 to and from `str`, with the error handlers of `codecs`.
 *
 * A `str` is made by its kind and filled by the library, and encoded from its kind. The handlers of
 * CPython that need no exception have their results here. What raises one or calls another handler
 * is left to CPython's own codec, which takes the whole input again.
 */
#ifndef DETHRUX_NATIVE_TEXT_H
#define DETHRUX_NATIVE_TEXT_H

#include "_native.h"

/* Error handlers. */

/* Returns the handler of a name, or raises an exception if there is none. */
static PyObject *handler_of(const native *it, PyObject *name) {
    PyObject *word = name && name != Py_None ? name : it->strict;
    return PyObject_CallFunctionObjArgs(it->lookup_error, word, NULL);
}

/* Returns the name of a handler for CPython. `is_name` has made its UTF-8. */
static const char *utf8_of(PyObject *name) {
    return name && name != Py_None ? PyUnicode_AsUTF8(name) : NULL;
}

/* Returns whether something can be the name of a handler, known or not. Otherwise it raises what
 * CPython raises, also for well-formed input. */
static bool is_name(const native *it, PyObject *name) {
    if (!name || name == Py_None || name == it->strict) {
        return true;
    }
    Py_ssize_t len;
    const char *utf8 = PyUnicode_Check(name) ? PyUnicode_AsUTF8AndSize(name, &len) : NULL;
    if (utf8 && strlen(utf8) == (size_t) len) {
        return true;
    }
    PyErr_Clear();
    PyObject *function = PyObject_CallFunctionObjArgs(it->lookup_error, name, NULL);
    Py_XDECREF(function);
    if (!function && PyErr_ExceptionMatches(PyExc_LookupError)) {
        PyErr_Clear();
        return true;
    }
    return function;
}

/* Gives a text its kind, which one of an old call may lack before CPython 3.12. Returns whether it
 * has one. */
static bool is_ready(PyObject *text) {
#if PY_VERSION_HEX < 0x030C0000
    return PyUnicode_READY(text) == 0;
#else
    return text;
#endif
}

/* UTF-16 to str. */

/* Copies a block of UTF-16 from a byte order to the machine's, or from the machine's to it. */
static void copy_units(dethrux_byte_order order, const uint8_t *from, size_t len,
                       uint8_t *to) {
    memcpy(to, from, len);
    if (order != DETHRUX_NATIVE_ENDIAN) {
        dethrux_swap_byte_order(to, len);
    }
}

/* A str in the making. */
typedef struct {
    PyObject *text;                /* Its length is the room that it has. NULL has none. */
    size_t len;                    /* How many characters are there. */
    dethrux_repertoire repertoire; /* The characters that its form can have. */
} writer;

/* Returns whether a str has room for more characters of a repertoire. */
static bool has_room(const writer *it, size_t more, dethrux_repertoire repertoire) {
    return it->text && repertoire <= it->repertoire
        && more <= (size_t) PyUnicode_GET_LENGTH(it->text) - it->len;
}

/* Makes room for more characters of a repertoire. If that takes a new str, there is also room for
 * as many later ones. Returns whether there is room. */
static bool make_room(writer *it, size_t more, size_t later, dethrux_repertoire repertoire) {
    static const Py_UCS4 GREATEST[] = {0x7F, 0xFF, 0xFFFF, 0x10FFFF};
    if (has_room(it, more, repertoire)) {
        return true;
    }
    size_t room = it->len + more + later;
    if (it->text && repertoire <= it->repertoire) {
        /* Else many errors with long replacements would copy the text often. */
        room += room / 4;
        repertoire = it->repertoire;
    }
    PyObject *wider = PyUnicode_New((Py_ssize_t) room, GREATEST[repertoire]);
    if (!wider || (it->text
            && PyUnicode_CopyCharacters(wider, 0, it->text, 0, (Py_ssize_t) it->len) < 0)) {
        Py_XDECREF(wider);
        return false;
    }
    Py_XSETREF(it->text, wider);
    it->repertoire = repertoire;
    return true;
}

/* Returns the str, cut to its characters, or drops it. */
static PyObject *finished(writer *it, bool is_wanted) {
    if (!is_wanted
        || ((size_t) PyUnicode_GET_LENGTH(it->text) != it->len
            && PyUnicode_Resize(&it->text, (Py_ssize_t) it->len) < 0)) {
        Py_CLEAR(it->text);
    }
    return it->text;
}

/* UTF-16 that is decoded. */
typedef struct {
    const uint8_t *bytes;
    size_t len;
    size_t at; /* How many bytes are decoded. */
    dethrux_byte_order order;
    bool without_gil; /* Whether the calls run without the GIL. */
    writer to;
} decoding;

/* Returns how many bytes the next block has. */
static size_t block_len(const decoding *from) {
    size_t left = from->len - from->at;
    return left < BLOCK ? left : BLOCK;
}

/* Returns how many characters the bytes from an offset on have at most, if they are of a
 * repertoire and well formed. */
static size_t most_chars(const decoding *from, size_t at,
                         dethrux_repertoire repertoire) {
    size_t left = from->len - at;
    if (left == 0 || repertoire != DETHRUX_UNICODE) {
        return left / 2;
    }
    PyThreadState *saved = without_gil(from->without_gil);
    size_t count = dethrux_count_chars(from->order, from->bytes + at, left);
    with_gil(saved);
    return count;
}

/* Writes the well-formed prefix of the next block. Returns whether it did: it does, unless another
 * process has changed a mapped file since. */
static bool write_block(const decoding *from, const dethrux_inspection *found) {
    const uint8_t *utf16 = from->bytes + from->at;
    size_t len = found->valid_up_to, chars = found->chars;
    PyObject *text = from->to.text;
    size_t offset = from->to.len * (size_t) PyUnicode_KIND(text);
    void *to = (uint8_t *) PyUnicode_DATA(text) + offset;
    if (PyUnicode_KIND(text) == PyUnicode_1BYTE_KIND) {
        return dethrux_to_latin1(from->order, utf16, len, to, chars).written == chars;
    }
    if (PyUnicode_KIND(text) == PyUnicode_2BYTE_KIND) {
        copy_units(from->order, utf16, 2 * chars, to);
        return true;
    }
    return dethrux_to_utf32(from->order, utf16, len, to, chars).written == chars;
}

/* Writes blocks, of which the first is this one, as long as the str has room. Returns whether it
 * came to an error or to the end; the last block tells which. */
static bool write_blocks(decoding *from, dethrux_inspection *block) {
    while (has_room(&from->to, block->chars, block->repertoire) && write_block(from, block)) {
        bool is_last = from->len - from->at <= BLOCK;
        from->at += block->valid_up_to;
        from->to.len += block->chars;
        if (is_last || block->status == DETHRUX_ILL_FORMED) {
            return true;
        }
        /* A character across the border is incomplete in this block, and begins the next one. */
        *block = dethrux_inspect(from->order, from->bytes + from->at, block_len(from));
    }
    return false;
}

/* Decodes up to an error or the end, and sets the status there. Returns whether it did.
 *
 * Most texts are of one repertoire. So the first block decides the form of the str, and each block
 * is inspected and written while it is in the cache. If a later one needs a wider str, what is
 * there is copied to one: at most three times. */
static bool decode_prefix(decoding *from, dethrux_status *status) {
    PyThreadState *saved = without_gil(from->without_gil);
    dethrux_inspection block =
        dethrux_inspect(from->order, from->bytes + from->at, block_len(from));
    with_gil(saved);
    for (;;) {
        size_t next = from->at + block.valid_up_to;
        if (!has_room(&from->to, block.chars, block.repertoire)) {
            size_t later = most_chars(from, next, block.repertoire);
            if (!make_room(&from->to, block.chars, later, block.repertoire)) {
                return false;
            }
        }
        saved = without_gil(from->without_gil);
        bool is_end = write_blocks(from, &block);
        with_gil(saved);
        if (is_end) {
            *status = block.status;
            return true;
        }
        if (has_room(&from->to, block.chars, block.repertoire)) {
            PyErr_SetString(PyExc_RuntimeError, "the input changed during the call");
            return false;
        }
    }
}

/* Returns the smallest repertoire that has the characters of a str. */
static dethrux_repertoire repertoire_of(PyObject *text) {
    if (PyUnicode_KIND(text) == PyUnicode_1BYTE_KIND) {
        return PyUnicode_IS_ASCII(text) ? DETHRUX_ASCII : DETHRUX_LATIN1;
    }
    return PyUnicode_KIND(text) == PyUnicode_2BYTE_KIND ? DETHRUX_BMP : DETHRUX_UNICODE;
}

/* Writes a text, whose reference it takes, before the bytes that are left. Returns whether it
 * did. */
static bool write_text(decoding *from, PyObject *text) {
    bool is_written = text && is_ready(text);
    if (is_written) {
        dethrux_repertoire repertoire = repertoire_of(text);
        Py_ssize_t len = PyUnicode_GET_LENGTH(text);
        size_t later = has_room(&from->to, (size_t) len, repertoire)
            ? 0
            : most_chars(from, from->at, from->to.repertoire);
        is_written = make_room(&from->to, (size_t) len, later, repertoire)
            && PyUnicode_CopyCharacters(from->to.text, (Py_ssize_t) from->to.len, text, 0, len)
                >= 0;
        from->to.len += (size_t) len;
    }
    Py_XDECREF(text);
    return is_written;
}

/* What an error handler has for an error, and how many bytes it reads. */
typedef struct {
    uint8_t utf8[12]; /* A surrogate has three bytes, as CPython writes it with `surrogatepass`. */
    size_t len;
    size_t read;
} substitute;

/* Sets what a handler of CPython has for the error at the start of these bytes. Returns false for
 * any other handler and for an error that it raises: those need an exception. */
static bool is_known(const native *it, PyObject *function, dethrux_byte_order order,
                     const uint8_t *utf16, size_t len, dethrux_status status, substitute *found) {
    static const char DIGITS[] = "0123456789abcdef";
    found->len = 0;
    found->read = status == DETHRUX_INCOMPLETE ? len : 2;
    if (function == it->ignore_errors) {
        return true;
    }
    if (function == it->replace_errors) {
        memcpy(found->utf8, "\xEF\xBF\xBD", found->len = 3);
        return true;
    }
    if (function == it->backslashreplace_errors) {
        for (size_t at = 0; at < found->read; at++) {
            found->utf8[found->len++] = '\\';
            found->utf8[found->len++] = 'x';
            found->utf8[found->len++] = (uint8_t) DIGITS[utf16[at] >> 4];
            found->utf8[found->len++] = (uint8_t) DIGITS[utf16[at] & 0xF];
        }
        return true;
    }
    if (function == it->surrogatepass_errors && len >= 2) {
        bool is_big = order == DETHRUX_BIG_ENDIAN;
        uint8_t high = utf16[!is_big], low = utf16[is_big];
        found->utf8[0] = 0xED;
        found->utf8[1] = (uint8_t) (0x80 | (high & 0xF) << 2 | low >> 6);
        found->utf8[2] = 0x80 | (low & 0x3F);
        found->len = 3;
        found->read = 2;
        return true;
    }
    return false;
}

/* The number of errors that `replace` replaces one by one. The library replaces all later ones,
 * which is slower for a few of them and faster for many. */
#define FEW 16

/* Returns the text of the bytes that are left, with U+FFFD for what is ill formed. */
static PyObject *replaced(const decoding *from, bool is_constant) {
    size_t len = from->len - from->at, capacity = DETHRUX_UTF32_MAX(len);
    uint32_t *utf32 = PyMem_Malloc(capacity * sizeof *utf32);
    if (!utf32) {
        return PyErr_NoMemory();
    }
    PyThreadState *saved = without_gil(is_constant && len >= LONG);
    dethrux_progress done =
        dethrux_to_utf32_lossy(from->order, from->bytes + from->at, len, utf32, capacity);
    with_gil(saved);
    PyObject *text =
        PyUnicode_FromKindAndData(PyUnicode_4BYTE_KIND, utf32, (Py_ssize_t) done.written);
    PyMem_Free(utf32);
    return text;
}

/* Returns what a handler has as a str. */
static PyObject *text_of(const substitute *found) {
    const uint8_t *utf8 = found->utf8;
    if (utf8[0] == 0xED) {
        /* CPython decodes a surrogate only with a handler. */
        return PyUnicode_FromOrdinal(0xD000 | (utf8[1] & 0x3F) << 6 | (utf8[2] & 0x3F));
    }
    return PyUnicode_DecodeUTF8((const char *) utf8, (Py_ssize_t) found->len, NULL);
}

/* Does what a handler of CPython has for the error that follows. Returns whether it did. */
static bool handle(const native *it, decoding *from, PyObject *function, dethrux_status status) {
    substitute found;
    const uint8_t *utf16 = from->bytes + from->at;
    if (!is_known(it, function, from->order, utf16, from->len - from->at, status, &found)) {
        return false;
    }
    from->at += found.read;
    return found.len == 0 || write_text(from, text_of(&found));
}

/* Returns whether a handler is asked. An incomplete character at the end may be no error. */
static bool is_error(dethrux_status status, bool final) {
    return status == DETHRUX_ILL_FORMED || (status == DETHRUX_INCOMPLETE && final);
}

/* Decodes from the first error on. Returns whether it did: it does not for a handler that is not
 * known and for an error that a handler raises. */
static bool decode_rest(const native *it, decoding *from, PyObject *function, bool final,
                        dethrux_status status) {
    bool is_constant = from->without_gil;
    /* The many parts of a long text keep the GIL. */
    from->without_gil = false;
    for (size_t count = 0; is_error(status, final); count++) {
        if (count >= FEW && final && function == it->replace_errors) {
            PyObject *rest = replaced(from, is_constant);
            from->at = from->len;
            return write_text(from, rest);
        }
        if (!handle(it, from, function, status) || !decode_prefix(from, &status)) {
            return false;
        }
    }
    return true;
}

/* Returns the text that CPython decodes, or NULL with what it or a handler raises. */
static PyObject *decoded_by_python(dethrux_byte_order order, const input *utf16, size_t start,
                                   PyObject *name, bool final, size_t *read) {
    /* With 0 it reads the BOM, as in the offsets of its exception. */
    int number = start != 0 ? 0 : order == DETHRUX_BIG_ENDIAN ? 1 : -1;
    Py_ssize_t len = (Py_ssize_t) utf16->len, consumed = len;
    PyObject *text = PyUnicode_DecodeUTF16Stateful(
        (const char *) utf16->bytes, len, utf8_of(name), &number, final ? NULL : &consumed);
    *read = (size_t) consumed;
    return text;
}

/* Returns the text of UTF-16 from an offset on, and sets how many bytes were read: all if it is
 * final, else those before an incomplete character. */
static PyObject *decoded(const native *it, dethrux_byte_order order, const input *utf16,
                         size_t start, PyObject *name, bool final, size_t *read) {
    decoding from = {.bytes = utf16->bytes, .len = utf16->len, .at = start, .order = order,
                     .without_gil = utf16->without_gil};
    dethrux_status status;
    bool is_decoded = is_name(it, name) && decode_prefix(&from, &status);
    if (is_decoded && is_error(status, final)) {
        PyObject *function = handler_of(it, name);
        is_decoded = function && decode_rest(it, &from, function, final, status);
        Py_XDECREF(function);
        if (!is_decoded && !PyErr_Occurred()) {
            Py_CLEAR(from.to.text);
            return decoded_by_python(order, utf16, start, name, final, read);
        }
    }
    *read = from.at;
    return finished(&from.to, is_decoded);
}

static PyObject *decode(const native *it, arguments given) {
    int order = order_of(it, given[1]);
    input utf16;
    if (order < 0 || !hold(given[0], &utf16)) {
        return NULL;
    }
    size_t read;
    PyObject *text =
        decoded(it, (dethrux_byte_order) order, &utf16, 0, given[2], true, &read);
    release(&utf16);
    return text;
}

/* Returns the text and how many bytes were read. */
static PyObject *decoded_part(const native *it, dethrux_byte_order order, arguments given,
                              bool final) {
    input utf16;
    if (!hold(given[0], &utf16)) {
        return NULL;
    }
    size_t read = 0;
    PyObject *text = decoded(it, order, &utf16, 0, given[1], final, &read);
    release(&utf16);
    return pair(text, read);
}

/* Returns the same for a chunk, which may be the last one. */
static PyObject *decoded_chunk(const native *it, dethrux_byte_order order, arguments given) {
    int final = given[2] ? PyObject_IsTrue(given[2]) : 0;
    return final < 0 ? NULL : decoded_part(it, order, given, final);
}

static PyObject *utf_16_decode_all(const native *it, arguments given) {
    input utf16;
    if (!hold(given[0], &utf16)) {
        return NULL;
    }
    dethrux_bom bom = dethrux_detect_bom(DETHRUX_NATIVE_ENDIAN, utf16.bytes, utf16.len);
    size_t read = 0;
    PyObject *text =
        decoded(it, bom.byte_order, &utf16, bom.len, given[1], true, &read);
    release(&utf16);
    return pair(text, read);
}

static PyObject *utf_16_ex_decode(const native *it, arguments given) {
    int final = given[3] ? PyObject_IsTrue(given[3]) : 0;
    Py_ssize_t number = given[2] ? PyNumber_AsSsize_t(given[2], PyExc_OverflowError) : 0;
    input utf16;
    if (PyErr_Occurred() || !hold(given[0], &utf16)) {
        return NULL;
    }
    dethrux_byte_order order = number < 0 ? DETHRUX_LITTLE_ENDIAN : DETHRUX_BIG_ENDIAN;
    size_t start = 0, read = 0;
    if (number == 0) {
        dethrux_bom bom = dethrux_detect_bom(DETHRUX_NATIVE_ENDIAN, utf16.bytes, utf16.len);
        order = bom.byte_order;
        start = bom.len;
        if (bom.status == DETHRUX_BOM_PRESENT) {
            number = order == DETHRUX_LITTLE_ENDIAN ? -1 : 1;
        }
    }
    PyObject *text = decoded(it, order, &utf16, start, given[1], final, &read);
    release(&utf16);
    return text ? Py_BuildValue("Nnn", text, (Py_ssize_t) read, number) : NULL;
}

/* str to UTF-16. */

/* A text that is encoded. */
typedef struct {
    const void *units;
    size_t len; /* The number of characters. */
    int kind;   /* The number of bytes of each. */
} source;

/* Returns the length of the UTF-16 of a text without surrogates. */
static size_t utf16_len(const source *text) {
    if (text->kind == PyUnicode_4BYTE_KIND) {
        return dethrux_from_utf32_lossy_len(text->units, text->len);
    }
    return text->len * 2;
}

/* Writes the UTF-16 of a text of two bytes a character, in blocks that stay in the cache. Returns
 * whether it has no surrogates: two of them in a str are not a pair. */
static bool write_units(dethrux_byte_order order, const uint8_t *units,
                        size_t len, uint8_t *to) {
    for (size_t at = 0; at < len; at += BLOCK) {
        size_t part = len - at < BLOCK ? len - at : BLOCK;
        dethrux_inspection found = dethrux_inspect(DETHRUX_NATIVE_ENDIAN, units + at, part);
        if (found.status != DETHRUX_DONE || found.repertoire == DETHRUX_UNICODE) {
            return false;
        }
        copy_units(order, units + at, part, to + at);
    }
    return true;
}

/* Writes the UTF-16 of a text. Returns whether it has no surrogates. */
static bool write_utf16(dethrux_byte_order order, const source *text, uint8_t *to,
                        size_t len) {
    if (text->kind == PyUnicode_4BYTE_KIND) {
        return dethrux_from_utf32(order, text->units, text->len, to, len).status == DETHRUX_DONE;
    }
    if (text->kind == PyUnicode_1BYTE_KIND) {
        return dethrux_from_latin1(order, text->units, text->len, to, len).status == DETHRUX_DONE;
    }
    return write_units(order, text->units, len, to);
}

/* Returns the UTF-16 of a text, after a BOM of this length, or NULL without an exception if it has
 * surrogates. */
static PyObject *without_surrogates(dethrux_byte_order order, const source *text,
                                    size_t bom_len) {
    const uint16_t bom = 0xFEFF;
    bool is_long = text->len * (size_t) text->kind >= LONG;
    PyThreadState *saved = without_gil(is_long);
    size_t len = utf16_len(text);
    with_gil(saved);
    PyObject *utf16 = PyBytes_FromStringAndSize(NULL, (Py_ssize_t) (bom_len + len));
    if (!utf16) {
        return NULL;
    }
    uint8_t *to = (uint8_t *) PyBytes_AS_STRING(utf16);
    memcpy(to, &bom, bom_len);
    saved = without_gil(is_long);
    bool is_encoded = write_utf16(order, text, to + bom_len, len);
    with_gil(saved);
    if (!is_encoded) {
        Py_CLEAR(utf16);
    }
    return utf16;
}

/* Returns the UTF-16 that CPython encodes, or NULL with what it or a handler raises. */
static PyObject *encoded_by_python(const native *it, dethrux_byte_order order, PyObject *text,
                                   PyObject *name, size_t bom_len) {
    int number = bom_len != 0 ? 0 : order == DETHRUX_BIG_ENDIAN ? 1 : -1;
    PyObject *both = PyObject_CallFunction(it->utf_16_encode, "Ozi", text, utf8_of(name), number);
    PyObject *utf16 = both ? PyTuple_GetItem(both, 0) : NULL;
    Py_XINCREF(utf16);
    Py_XDECREF(both);
    return utf16;
}

/* Returns the UTF-16 of a text, after a BOM of this length. */
static PyObject *encoded(const native *it, dethrux_byte_order order, PyObject *text, PyObject *name,
                         size_t bom_len) {
    if (!is_name(it, name) || !is_ready(text)) {
        return NULL;
    }
    source all = {PyUnicode_DATA(text), (size_t) PyUnicode_GET_LENGTH(text), PyUnicode_KIND(text)};
    PyObject *utf16 = without_surrogates(order, &all, bom_len);
    if (utf16 || PyErr_Occurred()) {
        return utf16;
    }
    return encoded_by_python(it, order, text, name, bom_len);
}

/* Returns whether an argument is a text. */
static bool is_text(PyObject *given) {
    if (!PyUnicode_Check(given)) {
        PyErr_Format(PyExc_TypeError, "a str is required, not '%s'", Py_TYPE(given)->tp_name);
        return false;
    }
    return true;
}

static PyObject *encode(const native *it, arguments given) {
    int order = order_of(it, given[1]);
    if (order < 0 || !is_text(given[0])) {
        return NULL;
    }
    return encoded(it, (dethrux_byte_order) order, given[0], given[2], 0);
}

/* Returns the UTF-16 and the length of the text. */
static PyObject *encoded_part(const native *it, dethrux_byte_order order, arguments given,
                              size_t bom_len) {
    if (!is_text(given[0])) {
        return NULL;
    }
    PyObject *utf16 = encoded(it, order, given[0], given[1], bom_len);
    return utf16 ? pair(utf16, (size_t) PyUnicode_GET_LENGTH(given[0])) : NULL;
}

/* The functions of a codec for a byte order. */
#define CODEC(name, order) \
    static PyObject *name##_decode(const native *it, arguments given) { \
        return decoded_chunk(it, order, given); \
    } \
    static PyObject *name##_decode_all(const native *it, arguments given) { \
        return decoded_part(it, order, given, true); \
    } \
    static PyObject *name##_encode(const native *it, arguments given) { \
        return encoded_part(it, order, given, 0); \
    }
CODEC(utf_16_le, DETHRUX_LITTLE_ENDIAN)
CODEC(utf_16_be, DETHRUX_BIG_ENDIAN)

static PyObject *utf_16_encode(const native *it, arguments given) {
    Py_ssize_t number = given[2] ? PyNumber_AsSsize_t(given[2], PyExc_OverflowError) : 0;
    if (PyErr_Occurred()) {
        return NULL;
    }
    if (number == 0) {
        return encoded_part(it, DETHRUX_NATIVE_ENDIAN, given, 2);
    }
    return encoded_part(it, number < 0 ? DETHRUX_LITTLE_ENDIAN : DETHRUX_BIG_ENDIAN, given, 0);
}

/* UTF-16 to and from UTF-8. */

/* Returns whether the name of an error handler is this one. */
static bool is_named(PyObject *errors, const char *name) {
    return errors && PyUnicode_CheckExact(errors)
        && PyUnicode_CompareWithASCIIString(errors, name) == 0;
}

/* Makes room for more bytes after those that are written. Returns whether there is. */
static bool make_bytes_room(PyObject **output, size_t written, size_t more) {
    size_t needed = written + more, capacity = (size_t) PyBytes_GET_SIZE(*output);
    /* Some of the new room is for later errors: else each would copy the output. */
    return needed <= capacity
        || _PyBytes_Resize(output, (Py_ssize_t) (needed + needed / 4)) == 0;
}

/* Writes the UTF-8 of UTF-16 after this prefix of it, with what the error handler has. The many
 * parts of a long text keep the GIL. Returns false for a handler that is not known, and if there is
 * no memory. */
static bool write_rest(const native *it, dethrux_byte_order order, const input *utf16,
                       PyObject *function, dethrux_progress done, PyObject **output) {
    size_t at = done.read, written = done.written;
    while (done.status != DETHRUX_DONE) {
        substitute found;
        if (!is_known(it, function, order, utf16->bytes + at, utf16->len - at, done.status,
                      &found)) {
            return false;
        }
        at += found.read;
        size_t left = utf16->len - at, more = found.len + DETHRUX_UTF8_MAX(left);
        if (!make_bytes_room(output, written, more)) {
            return false;
        }
        uint8_t *to = (uint8_t *) PyBytes_AS_STRING(*output) + written;
        memcpy(to, found.utf8, found.len);
        done = dethrux_to_utf8(order, utf16->bytes + at, left, to + found.len, more - found.len);
        at += done.read;
        written += found.len + done.written;
    }
    return _PyBytes_Resize(output, (Py_ssize_t) written) == 0;
}

/* Returns the UTF-8 of ill-formed UTF-16 whose prefix this is, and takes it. Returns NULL without
 * an exception for an error handler that is not known, and for errors that it raises. */
static PyObject *utf8_of_rest(const native *it, dethrux_byte_order order, const input *utf16,
                              PyObject *prefix, dethrux_progress done, PyObject *name) {
    PyObject *function = handler_of(it, name), *output = NULL;
    /* It encodes surrogates in UTF-8 only by its name. */
    if (function && (function != it->surrogatepass_errors || is_named(name, "surrogatepass"))) {
        output = new_bytes(done.written + DETHRUX_UTF8_MAX(utf16->len - done.read));
    }
    if (output) {
        memcpy(PyBytes_AS_STRING(output), PyBytes_AS_STRING(prefix), done.written);
        if (!write_rest(it, order, utf16, function, done, &output)) {
            Py_CLEAR(output);
        }
    }
    Py_XDECREF(function);
    Py_DECREF(prefix);
    return output;
}

static PyObject *decode_to_utf8(const native *it, arguments given) {
    int order = order_of(it, given[1]);
    input utf16;
    if (order < 0 || !hold(given[0], &utf16)) {
        return NULL;
    }
    PyObject *utf8 = NULL;
    if (is_name(it, given[2])) {
        dethrux_progress done;
        utf8 = converted(is_named(given[2], "replace") ? dethrux_to_utf8_lossy : dethrux_to_utf8,
                         (dethrux_byte_order) order, &utf16, DETHRUX_UTF8_MAX(utf16.len), &done);
        if (utf8 && done.status != DETHRUX_DONE) {
            utf8 = utf8_of_rest(it, (dethrux_byte_order) order, &utf16, utf8, done, given[2]);
        }
    }
    release(&utf16);
    if (utf8 || PyErr_Occurred()) {
        return utf8;
    }
    PyObject *text = decode(it, given);
    if (text) {
        utf8 = PyUnicode_AsEncodedString(text, "utf-8", utf8_of(given[2]));
    }
    Py_XDECREF(text);
    return utf8;
}

/* Returns the UTF-16 of ill-formed UTF-8 through a str, with what the error handler has. */
static PyObject *through_text(const native *it, dethrux_byte_order order, const input *utf8,
                              PyObject *name) {
    Py_ssize_t len = (Py_ssize_t) utf8->len;
    PyObject *text = PyUnicode_DecodeUTF8((const char *) utf8->bytes, len, utf8_of(name));
    PyObject *utf16 = text ? encoded(it, order, text, name, 0) : NULL;
    Py_XDECREF(text);
    return utf16;
}

static PyObject *encode_from_utf8(const native *it, arguments given) {
    int order = order_of(it, given[1]);
    input utf8;
    if (order < 0 || !hold(given[0], &utf8)) {
        return NULL;
    }
    PyObject *utf16 = NULL;
    if (is_name(it, given[2])) {
        dethrux_progress done;
        conversion *convert =
            is_named(given[2], "replace") ? dethrux_from_utf8_lossy : dethrux_from_utf8;
        utf16 = converted(convert, (dethrux_byte_order) order, &utf8, DETHRUX_UTF16_MAX(utf8.len),
                          &done);
        if (utf16 && done.status != DETHRUX_DONE) {
            Py_DECREF(utf16);
            utf16 = through_text(it, (dethrux_byte_order) order, &utf8, given[2]);
        }
    }
    release(&utf8);
    return utf16;
}

#endif
