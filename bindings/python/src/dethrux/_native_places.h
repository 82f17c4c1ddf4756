/* SPDX-License-Identifier: MIT OR Apache-2.0 */

/*
 * Offsets in UTF-16 and in files, comparison, and what changes UTF-16 in place.
 */
#ifndef DETHRUX_NATIVE_PLACES_H
#define DETHRUX_NATIVE_PLACES_H

#include "_native.h"

/* Boundaries. */

static PyObject *floor_char_boundary_around(const native *it, arguments given) {
    int order = order_of(it, given[1]);
    uint64_t at;
    input around;
    if (order < 0 || !offset_of(given[2], "at", &at) || !hold(given[0], &around)) {
        return NULL;
    }
    uint64_t found = dethrux_floor_char_boundary_around(
        (dethrux_byte_order) order, around.bytes, around.len, at);
    release(&around);
    return PyLong_FromUnsignedLongLong(found);
}

static PyObject *shard_offset(const native *it, arguments given) {
    (void) it;
    uint64_t len, count, index;
    if (!offset_of(given[0], "length", &len) || !offset_of(given[1], "count", &count)
        || !offset_of(given[2], "index", &index)) {
        return NULL;
    }
    return PyLong_FromUnsignedLongLong(dethrux_shard_offset(len, count, index));
}

/* Two texts. */

/* Two buffers that a call reads in place. */
typedef struct {
    input first;
    input second;
    bool without_gil;
} inputs;

/* Holds two buffers. Returns whether it did. */
static bool hold_both(PyObject *first, PyObject *second, inputs *held) {
    if (!hold(first, &held->first)) {
        return false;
    }
    if (!hold(second, &held->second)) {
        release(&held->first);
        return false;
    }
    bool is_long = held->first.len >= LONG || held->second.len >= LONG;
    held->without_gil = is_long && stays(first, &held->first) && stays(second, &held->second);
    return true;
}

/* Lets both go. */
static void release_both(inputs *held) {
    release(&held->first);
    release(&held->second);
}

static PyObject *compare(const native *it, arguments given) {
    int first_order = order_of(it, given[1]);
    int second_order = first_order < 0 ? -1 : order_of(it, given[3]);
    inputs texts;
    if (second_order < 0 || !hold_both(given[0], given[2], &texts)) {
        return NULL;
    }
    PyThreadState *saved = without_gil(texts.without_gil);
    int32_t found = dethrux_compare(
        (dethrux_byte_order) first_order, texts.first.bytes, texts.first.len,
        (dethrux_byte_order) second_order, texts.second.bytes, texts.second.len);
    with_gil(saved);
    release_both(&texts);
    return PyLong_FromLong(found);
}

/* A search in a text, from its first byte on. */
typedef size_t searching(
    dethrux_byte_order order, const void *utf16, size_t len, const void *pattern, size_t most);

/* Sets an end of a search, as in `bytes.find`. Returns whether it is one. */
static bool end_of(PyObject *given, Py_ssize_t *end) {
    if (given && given != Py_None) {
        *end = PyNumber_AsSsize_t(given, NULL);
    }
    return *end != -1 || !PyErr_Occurred();
}

/* Returns an offset in a text. A negative one counts from its end. */
static size_t from_start(Py_ssize_t at, size_t len) {
    if (at < 0) {
        at += (Py_ssize_t) len;
    }
    return at < 0 ? 0 : (size_t) at;
}

/* Searches between two offsets. An occurrence is at boundaries of the whole text, so these are moved
 * to the nearest ones between them. */
static size_t searched_between(searching *search, dethrux_byte_order order, const inputs *texts,
                               size_t start, size_t end) {
    const uint8_t *utf16 = texts->first.bytes;
    size_t len = texts->first.len;
    while (!dethrux_is_char_boundary(order, utf16, len, start)) {
        start++;
    }
    end = dethrux_floor_char_boundary(order, utf16, len, end);
    if (start > end) {
        return DETHRUX_NOT_FOUND;
    }
    size_t found = search(
        order, utf16 + start, end - start, texts->second.bytes, texts->second.len);
    return found == DETHRUX_NOT_FOUND ? found : start + found;
}

/* Returns the offset that a search finds, or -1. */
static PyObject *searched(const native *it, arguments given, searching *search) {
    int order = order_of(it, given[2]);
    Py_ssize_t start = 0, end = PY_SSIZE_T_MAX;
    inputs texts;
    if (order < 0 || !end_of(given[3], &start) || !end_of(given[4], &end)
        || !hold_both(given[0], given[1], &texts)) {
        return NULL;
    }
    size_t len = texts.first.len, found = DETHRUX_NOT_FOUND;
    PyThreadState *saved = without_gil(texts.without_gil);
    if (start <= (Py_ssize_t) len) {
        found = searched_between(search, (dethrux_byte_order) order, &texts,
                                 from_start(start, len), from_start(end, len));
    }
    with_gil(saved);
    release_both(&texts);
    return found == DETHRUX_NOT_FOUND ? PyLong_FromLong(-1) : PyLong_FromSize_t(found);
}

static PyObject *find(const native *it, arguments given) {
    return searched(it, given, dethrux_find);
}

static PyObject *rfind(const native *it, arguments given) {
    return searched(it, given, dethrux_rfind);
}

/* The byte order. */

static PyObject *detect_bom(const native *it, arguments given) {
    int order = given[1] ? order_of(it, given[1]) : DETHRUX_BIG_ENDIAN;
    input data;
    if (order < 0 || !hold(given[0], &data)) {
        return NULL;
    }
    dethrux_bom found = dethrux_detect_bom((dethrux_byte_order) order, data.bytes, data.len);
    release(&data);
    PyObject *word = found.byte_order == DETHRUX_BIG_ENDIAN ? it->big : it->little;
    Py_INCREF(word);
    PyObject *fields[] = {word, PyLong_FromSize_t(found.len),
                          member(it->bom_statuses, found.status)};
    return named_tuple(it->bom, fields, 3);
}

static PyObject *order_number(const native *it, arguments given) {
    int order = order_of(it, given[0]);
    return order < 0 ? NULL : PyLong_FromLong(order);
}

/* Changes in place. */

static PyObject *swap_byte_order(const native *it, arguments given) {
    (void) it;
    Py_buffer utf16;
    if (!hold_writable(given[0], &utf16)) {
        return NULL;
    }
    size_t len = (size_t) utf16.len;
    PyThreadState *saved = without_gil(len >= LONG);
    dethrux_swap_byte_order(utf16.buf, len);
    with_gil(saved);
    PyBuffer_Release(&utf16);
    Py_RETURN_NONE;
}

static PyObject *make_well_formed(const native *it, arguments given) {
    int order = order_of(it, given[1]);
    Py_buffer utf16;
    if (order < 0 || !hold_writable(given[0], &utf16)) {
        return NULL;
    }
    size_t len = (size_t) utf16.len;
    PyThreadState *saved = without_gil(len >= LONG);
    size_t count = dethrux_make_well_formed((dethrux_byte_order) order, utf16.buf, len);
    with_gil(saved);
    PyBuffer_Release(&utf16);
    return PyLong_FromSize_t(count);
}

#endif
