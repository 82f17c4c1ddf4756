/* SPDX-License-Identifier: MIT OR Apache-2.0 */

/*
 * The functions of the package, in C over the calls of the library, which is linked in.
 */
#include "_calls.h"
#include "_native.h"
#include "_native_places.h"
#include "_native_text.h"

/* The documentation of a conversion to a buffer. */
#define INTO(name) \
    "Convert like ``" name "``, but write to a buffer that you own, from its start.\n\n" \
    "It may not overlap the input. The bytes after those that were written have no\n" \
    "meaning."

/* The functions of UTF-32, as in `EACH_CALL`: all their lengths count bytes. */
#define EACH_CALL_OF_UTF32(CALL) \
    CALL(utf16ToUtf32, progress, to_utf32, to_utf32_in_bytes, "utf16", \
      "Convert UTF-16 to UTF-32, up to the first ill-formed sequence.\n\n" \
      "Each character is four bytes, in the machine's byte order.") \
    CALL(utf16ToUtf32, progress, to_utf32_lossy, to_utf32_lossy_in_bytes, "utf16", \
      "Convert UTF-16 to UTF-32, with U+FFFD for what is ill formed, like ``to_utf8_lossy``.") \
    CALL(utf16, size, to_utf32_lossy_len, to_utf32_lossy_len_in_bytes, "utf16", \
      "Return the length of what ``to_utf32_lossy`` returns for the whole input.") \
    CALL(utf32, validity, validate_utf32, validate_utf32_in_bytes, "utf32", \
      "Return the length of the longest prefix that is UTF-32, and what follows it.\n\n" \
      "It is in the machine's byte order. A code unit is ill formed if it is a\n" \
      "surrogate or above 0x10FFFF.") \
    CALL(utf32ToUtf16, progress, from_utf32, from_utf32_in_bytes, "utf32", \
      "Convert UTF-32 in the machine's byte order to UTF-16, up to the first error.\n\n" \
      "``byteorder`` is the byte order of the UTF-16. With ``Status.INCOMPLETE`` at\n" \
      "most three bytes at the end are not read.") \
    CALL(utf32ToUtf16, progress, from_utf32_lossy, from_utf32_lossy_in_bytes, "utf32", \
      "Convert UTF-32 to UTF-16, with U+FFFD for each ill-formed code unit.\n\n" \
      "An incomplete code unit at the end is also replaced.") \
    CALL(utf32ForUtf16, size, from_utf32_lossy_len, from_utf32_lossy_len_in_bytes, "utf32", \
      "Return the length of what ``from_utf32_lossy`` returns for the whole input.")

/* Each other function of the package, its parameters, and its documentation. `_native.pyi` has
 * their types. */
#define EACH_FUNCTION(X) \
    X(kernel, "/", \
      "Return which code the functions run, for reports of bugs and for benchmarks.\n\n" \
      "It is ``x86-64-v2``, or ``x86-64-v3`` if the processor and the system have all\n" \
      "of that level, such as AVX2. On ARM64 it is ``aarch64``.") \
    X(floor_char_boundary_around, "around, byteorder, at", \
      "Return the greatest boundary at or before an offset of a file, from the bytes around it." \
      "\n\nThey are the file's bytes from ``max(at // 2 * 2 - 2, 0)`` on: four of them,\n" \
      "or as many as there are.") \
    X(shard_offset, "length, count, index", \
      "Return where part ``index`` of ``count`` begins in a file of this length.\n\n" \
      "Each part has ``length // 2 // count`` code units or one more, and the last\n" \
      "one also has an odd byte at the end. For an index that is not below the\n" \
      "count it is the length. It may be inside a surrogate pair:\n" \
      "``floor_char_boundary_around`` moves it to a boundary.") \
    X(swap_byte_order, "utf16", \
      "Swap the two bytes of each code unit in place; an odd byte at the end stays.") \
    X(make_well_formed, "utf16, byteorder", \
      "Replace each unpaired surrogate by U+FFFD in place, and return how many there were.") \
    X(compare, "first, first_byteorder, second, second_byteorder", \
      "Compare two texts by their scalar values.\n\n" \
      "Return -1, 0 or 1 if the first is less than, equal to or greater than the\n" \
      "second. An unpaired surrogate, and an incomplete character at the end, is\n" \
      "compared as U+FFFD.") \
    X(find, "utf16, pattern, byteorder, start=None, end=None", \
      "Return the least offset at which a pattern occurs, or -1 if there is none.\n\n" \
      "The bytes of the pattern are there, and the offset and the end of these\n" \
      "bytes are boundaries between characters, as ``is_char_boundary`` says: unlike\n" \
      "with ``bytes.find``, an occurrence cuts neither a code unit nor a surrogate\n" \
      "pair. Both buffers are in this byte order, and may be ill formed.\n\n" \
      "``start`` and ``end`` limit the occurrence as in ``bytes.find``. The boundaries\n" \
      "are those of the whole text.") \
    X(rfind, "utf16, pattern, byteorder, start=None, end=None", \
      "Return the greatest offset at which a pattern occurs as in ``find``, or -1.") \
    X(detect_bom, "data, default='big'", \
      "Return the BOM at the start of a stream and the byte order, the default without one.\n\n" \
      "The status is ``BomStatus.UNDECIDED`` for fewer than two bytes.") \
    X(decode, "data, byteorder, errors='strict'", \
      "Return the text of UTF-16; errors are as in ``bytes.decode``. A BOM is a character.") \
    X(encode, "text, byteorder, errors='strict'", \
      "Return the UTF-16 of a text, without a BOM; errors are as in ``str.encode``.") \
    X(decode_to_utf8, "utf16, byteorder, errors='strict'", \
      "Return the UTF-8 of UTF-16: ``decode(utf16, byteorder, errors).encode(\"utf-8\", " \
      "errors)``.\n\n" \
      "A ``str`` is made only of ill-formed input, and not with ``replace``.") \
    X(encode_from_utf8, "utf8, byteorder, errors='strict'", \
      "Return the UTF-16 of UTF-8: ``encode(str(utf8, \"utf-8\", errors), byteorder, errors)``." \
      "\n\nA ``str`` is made only of ill-formed input, and not with ``replace``.")

/* Those of a codec for a byte order. */
#define CODEC_FUNCTIONS(X, name, encoding) \
    X(name##_decode, "input, errors=None, final=False", \
      "Decode " encoding "; return the text and how many bytes were read.\n\n" \
      "Unless it is final, an incomplete character at the end is not read.") \
    X(name##_decode_all, "input, errors='strict'", "Decode " encoding " to its end.") \
    X(name##_encode, "input, errors=None", \
      "Encode to " encoding "; return the bytes and the length of the text.")

/* Those that only the package calls. */
#define EACH_HELPER(X) \
    X(next_error, "utf16, byteorder, at", \
      "Return the first ill-formed sequence of the bytes from an offset on, or None.") \
    X(order_number, "byteorder", "Return the library's number of a byte order.") \
    X(feed_decoder, "state, order, chunk, capacity", \
      "Decode the next chunk of a stream of UTF-16.") \
    X(feed_encoder, "state, order, chunk, capacity", \
      "Encode the next chunk of a stream of UTF-8.") \
    X(finish_decoder, "state, order", "End a stream of UTF-16.") \
    X(finish_encoder, "state, order", "End a stream of UTF-8.") \
    CODEC_FUNCTIONS(X, utf_16_le, "UTF-16LE") \
    CODEC_FUNCTIONS(X, utf_16_be, "UTF-16BE") \
    X(utf_16_ex_decode, "input, errors=None, byteorder=0, final=False", \
      "Decode UTF-16; return the text, how many bytes were read, and the byte order.\n\n" \
      "-1 is little endian, 1 is big endian. 0 leaves it to the BOM, and is\n" \
      "returned if there is none: in that case the byte order is the machine's.") \
    X(utf_16_decode_all, "input, errors='strict'", "Decode UTF-16 to its end.") \
    X(utf_16_encode, "input, errors=None, byteorder=0", \
      "Encode to UTF-16; return the bytes and the length of the text.\n\n" \
      "-1 is little endian, 1 is big endian. 0 is the machine's byte order, after a BOM.")

/* The functions of a call by its shape, as in `EACH_FUNCTION`. */
#define FUNCTIONS_bytes(X, name, first, documentation) X(name, first, documentation)
#define FUNCTIONS_bytesForUtf16 FUNCTIONS_bytes
#define FUNCTIONS_inAnyOrder FUNCTIONS_bytes
#define FUNCTIONS_utf32 FUNCTIONS_bytes
#define FUNCTIONS_utf32ForUtf16 FUNCTIONS_bytes
#define FUNCTIONS_utf16(X, name, first, documentation) X(name, first ", byteorder", documentation)
#define FUNCTIONS_utf16At(X, name, first, documentation) \
    X(name, first ", byteorder, at", documentation)
#define FUNCTIONS_utf16ToUtf8(X, name, first, documentation) \
    X(name, first ", byteorder, capacity=None", documentation) \
    X(name##_into, first ", byteorder, buffer", INTO(#name))
#define FUNCTIONS_utf16ToLatin1 FUNCTIONS_utf16ToUtf8
#define FUNCTIONS_utf16ToUtf32 FUNCTIONS_utf16ToUtf8
#define FUNCTIONS_bytesToUtf16 FUNCTIONS_utf16ToUtf8
#define FUNCTIONS_utf32ToUtf16 FUNCTIONS_utf16ToUtf8

#define DEFINE(shape, kind, name, symbol, first, documentation) DEFINE_##shape(kind, name, symbol)
EACH_CALL(DEFINE)
EACH_CALL_OF_UTF32(DEFINE)

/* The place of each function in the table of methods. */
#define PLACE(name, signature, documentation) AT_##name,
#define PLACES(shape, kind, name, symbol, first, documentation) \
    FUNCTIONS_##shape(PLACE, name, first, documentation)
enum {
    EACH_CALL(PLACES) EACH_CALL_OF_UTF32(PLACES) EACH_FUNCTION(PLACE)
    PUBLIC, /* How many functions are public: the number of the first helper. */
    LAST_PUBLIC = PUBLIC - 1,
    EACH_HELPER(PLACE)
    COUNT
};

#define MOST_ARGUMENTS 5
/* The parameters of a function. */
typedef struct {
    char names[MOST_ARGUMENTS][24]; /* Those that are required come first. */
    Py_ssize_t required;
    Py_ssize_t count;
} parameters;

/* The state of a module. */
typedef struct {
    native native;
    parameters functions[COUNT];
} state;

/* Reads the parameters after `($module` in the first line of a documentation. */
static void read_parameters(const char *line, parameters *found) {
    const char *at = strchr(line, ' ');
    while (*at == ' ') {
        size_t len = strspn(++at, "abcdefghijklmnopqrstuvwxyz0123456789_");
        if (len != 0) {
            memcpy(found->names[found->count++], at, len);
            found->required += at[len] != '=';
        }
        at += strcspn(at, " \n");
    }
}

/* Puts arguments into the order of the parameters, or raises what is wrong. Returns whether they
 * fit. */
static bool in_order(const char *function, const parameters *those, PyObject *const *given,
                     Py_ssize_t count, PyObject *keywords, PyObject **found) {
    if (count > those->count) {
        PyErr_Format(PyExc_TypeError, "%s() takes at most %zd arguments (%zd given)", function,
                     those->count, count);
        return false;
    }
    for (Py_ssize_t at = 0; at < count; at++) {
        found[at] = given[at];
    }
    Py_ssize_t named = keywords ? PyTuple_GET_SIZE(keywords) : 0;
    for (Py_ssize_t each = 0; each < named; each++) {
        PyObject *name = PyTuple_GET_ITEM(keywords, each);
        Py_ssize_t at = 0;
        while (at < those->count
               && PyUnicode_CompareWithASCIIString(name, those->names[at]) != 0) {
            at++;
        }
        if (at == those->count || found[at]) {
            const char *wrong = at == those->count
                ? "%s() got an unexpected keyword argument '%U'"
                : "%s() got multiple values for argument '%U'";
            PyErr_Format(PyExc_TypeError, wrong, function, name);
            return false;
        }
        found[at] = given[count + each];
    }
    for (Py_ssize_t at = 0; at < those->required; at++) {
        if (!found[at]) {
            PyErr_Format(PyExc_TypeError, "%s() missing required argument '%s' (pos %zd)",
                         function, those->names[at], at + 1);
            return false;
        }
    }
    return true;
}

/* Calls a function of the module. */
static inline PyObject *call(PyObject *module, const char *function, int place, action *act,
                             PyObject *const *given, Py_ssize_t count, PyObject *keywords) {
    const state *it = PyModule_GetState(module);
    PyObject *found[MOST_ARGUMENTS] = {NULL};
    if (!in_order(function, &it->functions[place], given, count, keywords, found)) {
        return NULL;
    }
    return act(&it->native, found);
}

#define CALLED(name, signature, documentation) \
    static PyObject *call_##name(PyObject *module, PyObject *const *given, Py_ssize_t count, \
                                 PyObject *keywords) { \
        return call(module, #name, AT_##name, name, given, count, keywords); \
    }
#define ALL_CALLED(shape, kind, name, symbol, first, documentation) \
    FUNCTIONS_##shape(CALLED, name, first, documentation)
EACH_CALL(ALL_CALLED)
EACH_CALL_OF_UTF32(ALL_CALLED)
EACH_FUNCTION(CALLED)
EACH_HELPER(CALLED)

#define METHOD(name, signature, documentation) \
    {#name, (PyCFunction) (void (*)(void)) call_##name, METH_FASTCALL | METH_KEYWORDS, \
     #name "($module, " signature ")\n--\n\n" documentation},
#define METHODS(shape, kind, name, symbol, first, documentation) \
    FUNCTIONS_##shape(METHOD, name, first, documentation)
static PyMethodDef methods[] = {
    EACH_CALL(METHODS) EACH_CALL_OF_UTF32(METHODS) EACH_FUNCTION(METHOD) EACH_HELPER(METHOD)
    {NULL, NULL, 0, NULL},
};

/* Sets what a module has under a name. Returns whether it has that. */
static bool take(PyObject *module, const char *name, PyObject **found) {
    *found = PyObject_GetAttrString(module, name);
    return *found;
}

/* Sets a tuple of the members of a type. Returns whether it did. */
static bool take_members(PyObject *module, const char *name, PyObject **found) {
    PyObject *type;
    if (take(module, name, &type)) {
        *found = PySequence_Tuple(type);
        Py_DECREF(type);
    }
    return *found;
}

/* Keeps the error handlers of CPython that need no exception, and its encoder. Returns whether it
 * did. */
static bool find_handlers(native *it) {
    PyObject *codecs = PyImport_ImportModule("codecs");
    bool is_found = codecs && take(codecs, "lookup_error", &it->lookup_error)
        && take(codecs, "replace_errors", &it->replace_errors)
        && take(codecs, "ignore_errors", &it->ignore_errors)
        && take(codecs, "backslashreplace_errors", &it->backslashreplace_errors)
        && take(codecs, "utf_16_encode", &it->utf_16_encode);
    Py_XDECREF(codecs);
    /* The module has no name for this one, and a program may have registered another. */
    PyObject *function = is_found ? PyCodec_LookupError("surrogatepass") : NULL;
    if (function && PyCFunction_Check(function)
        && strcmp(((PyCFunctionObject *) function)->m_ml->ml_name, "surrogatepass") == 0) {
        Py_INCREF(function);
        it->surrogatepass_errors = function;
    }
    Py_XDECREF(function);
    return function;
}

/* Keeps the types of the results. Returns whether it did. */
static bool find_types(native *it) {
    PyObject *types = PyImport_ImportModule("dethrux._types");
    bool is_found = types && take(types, "Validity", &it->validity)
        && take(types, "Progress", &it->progress) && take(types, "Bom", &it->bom)
        && take(types, "IllFormed", &it->ill_formed)
        && take(types, "Inspection", &it->inspection)
        && take(types, "ProgressInto", &it->progress_into)
        && take_members(types, "Status", &it->statuses)
        && take_members(types, "BomStatus", &it->bom_statuses)
        && take_members(types, "Repertoire", &it->repertoires);
    Py_XDECREF(types);
    return is_found;
}

/* Gives a module the names of its public functions as `__all__`. Returns whether it did. */
static bool list_names(PyObject *module) {
    PyObject *names = PyList_New(0);
    bool is_listed = names;
    for (int place = 0; is_listed && place < PUBLIC; place++) {
        PyObject *name = PyUnicode_FromString(methods[place].ml_name);
        is_listed = name && PyList_Append(names, name) == 0;
        Py_XDECREF(name);
    }
    is_listed = is_listed && PyObject_SetAttrString(module, "__all__", names) == 0;
    Py_XDECREF(names);
    return is_listed;
}

/* Fills the state of a new module. */
static int fill(PyObject *module) {
    state *all = PyModule_GetState(module);
    native *it = &all->native;
    for (int place = 0; place < COUNT; place++) {
        read_parameters(methods[place].ml_doc, &all->functions[place]);
    }
    bool is_filled = (it->little = PyUnicode_InternFromString("little"))
        && (it->big = PyUnicode_InternFromString("big"))
        && (it->strict = PyUnicode_InternFromString("strict")) && find_types(it)
        && find_handlers(it) && list_names(module);
    return is_filled ? 0 : -1;
}

/* The fields of `native`, which are all the objects that a module keeps. */
#define EACH_FIELD(X) \
    X(validity) X(progress) X(bom) X(ill_formed) X(inspection) X(progress_into) X(statuses) \
    X(bom_statuses) X(repertoires) X(little) X(big) X(strict) \
    X(lookup_error) X(replace_errors) X(ignore_errors) X(backslashreplace_errors) \
    X(surrogatepass_errors) X(utf_16_encode)

#define VISIT(name) Py_VISIT(it->name);
static int traverse(PyObject *module, visitproc visit, void *arg) {
    native *it = PyModule_GetState(module);
    EACH_FIELD(VISIT)
    return 0;
}

#define CLEAR(name) Py_CLEAR(it->name);
static int clear(PyObject *module) {
    native *it = PyModule_GetState(module);
    EACH_FIELD(CLEAR)
    return 0;
}

static void free_module(void *module) {
    clear(module);
}

static PyModuleDef_Slot slots[] = {
    {Py_mod_exec, fill},
#if PY_VERSION_HEX >= 0x030C0000
    {Py_mod_multiple_interpreters, Py_MOD_PER_INTERPRETER_GIL_SUPPORTED},
#endif
    {0, NULL},
};

static PyModuleDef definition = {
    PyModuleDef_HEAD_INIT,
    .m_name = "dethrux._native",
    .m_doc = "The functions of dethrux in C.",
    .m_size = sizeof(state),
    .m_methods = methods,
    .m_slots = slots,
    .m_traverse = traverse,
    .m_clear = clear,
    .m_free = free_module,
};

PyMODINIT_FUNC PyInit__native(void) {
    return PyModuleDef_Init(&definition);
}
