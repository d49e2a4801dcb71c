/* The module simd_json._native: values of Python from the tape of libsimd_json.
 *
 * Nothing here is proved; what it calls of the library is. It uses the stable ABI of Python 3.10 alone, and no
 * recursion: open containers are kept in an array, of which the parse's depth limit bounds the length. */
#define Py_LIMITED_API 0x030a0000
#define PY_SSIZE_T_CLEAN
#include <Python.h>
#include <simd_json.h>
#include <stdio.h>
#include <stdlib.h>
#include <string.h>

/* Memory that is kept from one input to the next. While code of users runs (`hooks`) it is in use, and a call which
 * that code makes has memory of its own. */
typedef struct {
    simd_json_parser parser;
    size_t max_depth;
    simd_json_document document; /* of the last parse; its texts are in the input */
    char *input;
    struct open *open;
    size_t input_cap, open_cap;
    size_t longest; /* of the inputs that it was used for */
    int in_use;
} memory;

/* A container, and how many of its members are read. Where there are hooks it is made when they are read: `begun` is
 * how many values were held before it. */
struct open {
    union {
        PyObject *container;
        size_t begun;
    };
    size_t read, len;
    int is_object;
};

/* Keys that were read before, by a hash of their ends: most come many times, and in the same order. */
enum { CACHED_BITS = 10, CACHED_LEN = 64 };
struct cached {
    PyObject *key;
    const char *bytes;
    size_t len;
    uint64_t first, last; /* its ends: the first 8 bytes, and where there are more the last 8 */
    struct cached *next;  /* the key that came after it the last time */
};
static struct cached cache[1 << CACHED_BITS], *latest = cache;

static memory shared;
static PyObject *to_error; /* simd_json._error */

/* The interpreter whose objects these are, by its number; -1 before there is one. */
static int64_t home = -1;

static void release(memory *m) {
    simd_json_close(&m->parser);
    free(m->input);
    free(m->open);
    memset(m, 0, sizeof *m);
}

/* Makes an array at least so long. */
static int grow(void *array, size_t *cap, size_t needed, size_t size) {
    if (needed <= *cap)
        return 1;
    void *bytes = needed <= SIZE_MAX / size ? realloc(*(void **)array, needed * size) : NULL;
    if (!bytes) {
        PyErr_NoMemory();
        return 0;
    }
    *(void **)array = bytes;
    *cap = needed;
    return 1;
}

/* The memory for a call: what is kept, or while that is in use the call's own. */
static memory *take(memory *kept, memory *own) {
    memory *m = kept;
    if (kept->in_use)
        m = memset(own, 0, sizeof *own);
    m->in_use = 1;
    return m;
}

static void give_back(memory *m, const memory *own) {
    m->in_use = 0;
    if (m == own)
        release(m);
}

/* An input: its bytes, and a reference to be released after their use, if that is not NULL. */
typedef struct {
    char *bytes;
    Py_ssize_t len;
    PyObject *owned;
} text;

/* The UTF-8 of a str. Surrogates have none (RFC 3629, section 3), so one that holds them is given
 * as the bytes that they would have: the library then rejects the first. */
static int utf8_of(PyObject *data, text *of) {
    of->bytes = (char *)PyUnicode_AsUTF8AndSize(data, &of->len);
    if (of->bytes || !PyErr_ExceptionMatches(PyExc_UnicodeEncodeError))
        return of->bytes != NULL;
    PyErr_Clear();
    of->owned = PyUnicode_AsEncodedString(data, "utf-8", "surrogatepass");
    return of->owned && PyBytes_AsStringAndSize(of->owned, &of->bytes, &of->len) == 0;
}

static Py_ssize_t length_of_view(PyObject *data) {
    PyObject *count = PyObject_GetAttrString(data, "nbytes");
    Py_ssize_t len = count ? PyLong_AsSsize_t(count) : -1;
    Py_XDECREF(count);
    return len;
}

/* The bytes of a view are a copy. There are none if it has more items than the library takes bytes;
 * that is asked first, for its length in bytes takes longer to ask. */
static int view_of(PyObject *data, text *of) {
    Py_ssize_t items = PyObject_Size(data);
    if (items < 0)
        PyErr_Clear(); /* a view without a dimension has no size */
    if (items > UINT32_MAX)
        of->len = length_of_view(data);
    if (of->len < 0 || of->len > UINT32_MAX)
        return of->len >= 0;
    of->owned = PyBytes_FromObject(data);
    return of->owned && PyBytes_AsStringAndSize(of->owned, &of->bytes, &of->len) == 0;
}

static int text_of(PyObject *data, text *of) {
    *of = (text){NULL, 0, NULL};
    if (PyBytes_Check(data))
        return PyBytes_AsStringAndSize(data, &of->bytes, &of->len) == 0;
    if (PyUnicode_Check(data))
        return utf8_of(data, of);
    if (PyByteArray_Check(data)) {
        of->bytes = PyByteArray_AsString(data);
        of->len = PyByteArray_Size(data);
        return 1;
    }
    if (PyMemoryView_Check(data))
        return view_of(data, of);
    PyErr_Format(PyExc_TypeError, "the JSON object must be str, bytes, bytearray or memoryview, not %R",
                 Py_TYPE(data));
    return 0;
}

/* Which character, from 0, the byte at an index is part of; at the end, how many there are. */
static size_t character_at(const text *of, size_t index) {
    size_t begun = 0, len = (size_t)of->len;
    for (size_t i = 0; i < len && i <= index; i++)
        begun += (of->bytes[i] & 0xc0) != 0x80;
    return index < len ? begun - 1 : begun;
}

/* Raises the error of an input, by simd_json._error: of the reason in words, the input, the index there, the kind by
 * its name, line and column, and the kind that is shown. */
static void *reject(int32_t status, const simd_json_place *place, PyObject *data, const text *of) {
    char words[SIMD_JSON_REASON_MAX];
    size_t words_len;
    simd_json_position at;
    if (status == SIMD_JSON_OUT_OF_MEMORY ||
        simd_json_location(of->bytes, of->bytes ? (size_t)of->len : 0, 1, status, place, &at, words, sizeof words,
                           &words_len) != SIMD_JSON_OK)
        return PyErr_NoMemory();
    size_t index = PyUnicode_Check(data) ? character_at(of, at.byte) : at.byte;
    PyObject *error = PyObject_CallFunction(to_error, "s#Onsnns", words, (Py_ssize_t)words_len, data,
                                            (Py_ssize_t)index, simd_json_status_text(status), (Py_ssize_t)at.line,
                                            (Py_ssize_t)at.column, simd_json_status_text(at.status));
    if (error)
        PyErr_SetObject((PyObject *)Py_TYPE(error), error);
    Py_XDECREF(error);
    return NULL;
}

/* Whether the library takes an input of such a length; else its error is raised. */
static int is_taken(PyObject *data, const text *of) {
    static const simd_json_place whole = {0, SIMD_JSON_NO_CHARACTER};
    if (of->len > UINT32_MAX)
        reject(SIMD_JSON_INPUT_TOO_LARGE, &whole, data, of);
    return of->len <= UINT32_MAX;
}

/* Takes an input whose bytes no code of users changes. */
static int input_of(PyObject *data, text *of) {
    if (!text_of(data, of) || !is_taken(data, of) || !PyByteArray_Check(data))
        return !PyErr_Occurred();
    of->owned = PyBytes_FromStringAndSize(of->bytes, of->len);
    return of->owned && PyBytes_AsStringAndSize(of->owned, &of->bytes, &of->len) == 0;
}

/* Opens the parser for a depth limit, and an input of such a length. */
static int prepare(memory *m, size_t max_depth, Py_ssize_t len) {
    if (m->longest < (size_t)len)
        m->longest = (size_t)len;
    if (m->parser.is_open && m->max_depth == max_depth)
        return 1;
    if (simd_json_open(&m->parser, max_depth) != SIMD_JSON_OK) {
        PyErr_NoMemory();
        return 0;
    }
    m->max_depth = max_depth;
    return 1;
}

/* While a longer input is read, other threads run. */
enum { LONG = 1 << 16 };

/* What the library does with an input that it leaves as it is. */
typedef int32_t reading(simd_json_parser *, const void *, size_t, simd_json_place *);

/* Passes the input to `call`; without one to the parse, which makes the document, and overwrites a copy. While `in_use`
 * neither the parser nor the copy, in which the document's texts are, is used for another input.
 *
 * While other threads run the input must not change. Bytes and str never do; the bytes of a view are a copy already.
 * A bytearray is copied: to hold its buffer, for which Python 3.10's stable ABI has no call, would keep its length
 * alone. */
static int read_input(memory *m, PyObject *data, size_t max_depth, reading *call) {
    const int is_copied = !call || PyByteArray_Check(data);
    text of;
    int is_read = text_of(data, &of) && is_taken(data, &of) && prepare(m, max_depth, of.len) &&
                  (!is_copied || grow(&m->input, &m->input_cap, (size_t)of.len + 1, 1));
    if (is_read) {
        const size_t len = (size_t)of.len;
        char *bytes = is_copied ? memcpy(m->input, of.bytes, len) : of.bytes;
        if (is_copied)
            Py_CLEAR(of.owned);
        simd_json_place place;
        PyThreadState *others = len > LONG ? PyEval_SaveThread() : NULL;
        int32_t status = call ? call(&m->parser, bytes, len, &place)
                              : simd_json_parser_parse(&m->parser, bytes, len, &m->document, &place);
        if (others)
            PyEval_RestoreThread(others);
        is_read = status == SIMD_JSON_OK;
        if (!is_read && (!is_copied || text_of(data, &of)))
            reject(status, &place, data, &of);
    }
    Py_XDECREF(of.owned);
    return is_read;
}

/* The first 8 bytes of a text, or all of a shorter one and zeros: a mask leaves them in little-endian order. Nothing at
 * `end` or behind it is read. */
static uint64_t first_of(const char *bytes, size_t len, const char *end) {
    uint64_t word = 0;
    if (end - bytes < 8) {
        memcpy(&word, bytes, len < 8 ? len : 8);
        return word;
    }
    memcpy(&word, bytes, 8);
    return len < 8 ? word & ((UINT64_C(1) << 8 * len) - 1) : word;
}

/* Copies a text to whole words, unless it has a byte that is not ASCII. */
static int copy_ascii(uint64_t *words, const char *bytes, size_t len, const char *end) {
    for (;; bytes += 8, len -= 8) {
        uint64_t word = first_of(bytes, len, end);
        if (word & UINT64_C(0x8080808080808080))
            return 0;
        *words++ = word;
        if (len <= 8)
            return 1;
    }
}

/* The characters of a text, which is known to be UTF-8; returns how many there are. */
static size_t decode(wchar_t *characters, const unsigned char *at, size_t len) {
    const unsigned char *end = at + len;
    size_t count = 0;
    while (at < end) {
        uint32_t c = *at;
        if (c < 0x80) {
            at++;
        } else if (c < 0xe0) {
            c = (c & 0x1f) << 6 | (at[1] & 0x3f);
            at += 2;
        } else if (c < 0xf0) {
            c = (c & 0x0f) << 12 | (at[1] & 0x3f) << 6 | (at[2] & 0x3f);
            at += 3;
        } else {
            c = (c & 0x07) << 18 | (at[1] & 0x3f) << 12 | (at[2] & 0x3f) << 6 | (at[3] & 0x3f);
            at += 4;
        }
        characters[count++] = (wchar_t)c;
    }
    return count;
}

/* Of short texts Python's decoder of UTF-8 takes bytes that are not aligned one by one, and those that are not ASCII it
 * judges again and writes to memory that it may have to grow. For long texts it is the faster way. */
static PyObject *to_string(const memory *m, const simd_json_node *node) {
    enum { SHORT = 512 };
    const char *bytes = m->document.text + node->value, *end = m->document.text + m->document.text_len;
    if (node->len > SHORT || sizeof(wchar_t) < 4)
        return PyUnicode_DecodeUTF8(bytes, (Py_ssize_t)node->len, NULL);
    uint64_t words[SHORT / 8];
    if (copy_ascii(words, bytes, node->len, end))
        return PyUnicode_DecodeASCII((const char *)words, (Py_ssize_t)node->len, NULL);
    wchar_t characters[SHORT];
    return PyUnicode_FromWideChar(characters, (Py_ssize_t)decode(characters, (const unsigned char *)bytes, node->len));
}

/* Texts of the same length and ends may differ only between the ends. */
static inline int is_cached(const struct cached *at, const char *bytes, size_t len, uint64_t first, uint64_t last) {
    return at && at->first == first && at->last == last && at->len == len && at->key &&
           (len <= 16 || memcmp(at->bytes + 8, bytes + 8, len - 16) == 0);
}

static int fill(struct cached *at, const memory *m, const simd_json_node *node, uint64_t first, uint64_t last) {
    PyObject *key = to_string(m, node), *old = at->key;
    Py_ssize_t len;
    const char *bytes = key ? PyUnicode_AsUTF8AndSize(key, &len) : NULL;
    if (!bytes) {
        Py_XDECREF(key);
        return 0;
    }
    *at = (struct cached){key, bytes, (size_t)len, first, last, at->next};
    Py_XDECREF(old);
    return 1;
}

/* Where it is not what came after the latest key before, a key has two places. The hash is multiplicative (D. E. Knuth,
 * The Art of Computer Programming, section 6.4). */
static PyObject *to_key(const memory *m, const simd_json_node *node) {
    const char *bytes = m->document.text + node->value;
    size_t len = node->len;
    if (len > CACHED_LEN)
        return to_string(m, node);
    const char *end = m->document.text + m->document.text_len;
    uint64_t first = first_of(bytes, len, end), last = len > 8 ? first_of(bytes + len - 8, 8, end) : 0;
    struct cached *at = latest->next;
    if (!is_cached(at, bytes, len, first, last)) {
        const uint64_t golden = UINT64_C(0x9e3779b97f4a7c15);
        size_t hash = ((first * golden ^ last) + len) * golden >> (64 - CACHED_BITS);
        at = &cache[hash];
        if (at->key && !is_cached(at, bytes, len, first, last))
            at = &cache[hash ^ 1];
        if (!is_cached(at, bytes, len, first, last) && !fill(at, m, node, first, last))
            return NULL;
        latest->next = at;
    }
    latest = at;
    Py_INCREF(at->key);
    return at->key;
}

/* An integer of more than 64 bits, which has 39 digits at most. */
static PyObject *to_wide(const memory *m, const simd_json_node *node) {
    char literal[48];
    memcpy(literal, m->document.text + node->value, node->len);
    literal[node->len] = 0;
    return PyLong_FromString(literal, NULL, 10);
}

/* A number with a fraction or an exponent: the nearest float. */
static PyObject *to_float(const memory *m, const simd_json_node *node) {
    double number = 0;
    simd_json_double(m->document.text + node->value, node->len, &number);
    return PyFloat_FromDouble(number);
}

static PyObject *to_value(const memory *m, const simd_json_node *node) {
    if (node->kind == SIMD_JSON_STRING) /* most are, and so it is guessed better than a jump of the switch */
        return to_string(m, node);
    switch (node->kind) {
    case SIMD_JSON_NULL:
        Py_INCREF(Py_None);
        return Py_None;
    case SIMD_JSON_BOOL:
        return PyBool_FromLong((long)node->value);
    case SIMD_JSON_I64:
        return PyLong_FromLongLong((int64_t)node->value);
    case SIMD_JSON_U64:
        return node->value <= LONG_MAX ? PyLong_FromLong((long)node->value) : PyLong_FromUnsignedLongLong(node->value);
    case SIMD_JSON_I128:
    case SIMD_JSON_U128:
        return to_wide(m, node);
    case SIMD_JSON_DECIMAL:
        return to_float(m, node);
    case SIMD_JSON_ARRAY:
        return PyList_New((Py_ssize_t)node->len);
    default:
        return PyDict_New();
    }
}

/* The value of all nodes. A container is put into the one around it as soon as it is made, so an
 * error frees the root alone. No code of users runs before it returns. */
static PyObject *build(memory *m) {
    const simd_json_node *node = m->document.nodes, *end = node + m->document.nodes_len;
    PyObject *root = NULL;
    struct open in = {.read = 0, .len = 1}; /* around the root */
    size_t depth = 0;
    for (; node < end; node++) {
        PyObject *key = NULL;
        if (in.is_object && !(key = to_key(m, node++)))
            goto failed;
        PyObject *value = to_value(m, node);
        int failed = !value;
        if (key) {
            failed = failed || PyDict_SetItem(in.container, key, value) < 0;
            Py_DECREF(key);
            Py_XDECREF(value);
        } else if (root) {
            failed = failed || PyList_SetItem(in.container, (Py_ssize_t)in.read, value) < 0;
        } else {
            root = value;
        }
        if (failed)
            goto failed;
        in.read++;
        if (node->kind >= SIMD_JSON_ARRAY && node->len > 0) {
            if (depth == m->open_cap && !grow(&m->open, &m->open_cap, 2 * depth + 16, sizeof *m->open))
                goto failed;
            m->open[depth++] = in;
            in = (struct open){{value}, 0, node->len, node->kind == SIMD_JSON_OBJECT};
        }
        while (in.read == in.len && depth)
            in = m->open[--depth];
    }
    return root;
failed:
    Py_XDECREF(root);
    return NULL;
}

/* Functions of users, each NULL where there is none, and where it is what is made without it. */
enum { PARSE_FLOAT, PARSE_INT, OBJECT_HOOK, OBJECT_PAIRS_HOOK, HOOKS };

/* The values that are whole, of containers that are not.
 *
 * Code of users sees every container by the gc module, in each thread. So a container is made only when all that is
 * in it is whole, and what is in it is held until the container is whole too: no object of theirs dies before. */
typedef struct {
    PyObject **values;
    size_t len, cap;
} held;

static int hold(held *of, PyObject *value) {
    if (value && of->len == of->cap && !grow(&of->values, &of->cap, 2 * of->cap + 64, sizeof *of->values))
        Py_CLEAR(value);
    if (value)
        of->values[of->len++] = value;
    return value != NULL;
}

/* Lets go of all that was held after so many. */
static void drop(held *of, size_t begun) {
    while (of->len > begun)
        Py_DECREF(of->values[--of->len]);
}

/* What `hook` makes of a number, whose literal it is called with, as `json` does. */
static PyObject *call_with_literal(const memory *m, const simd_json_node *node, PyObject *hook) {
    if (node->kind > SIMD_JSON_U64)
        return PyObject_CallFunction(hook, "s#", m->document.text + node->value, (Py_ssize_t)node->len);
    char digits[24];
    const int has_minus = node->kind == SIMD_JSON_I64; /* so 0 is `-0` */
    const unsigned long long magnitude = has_minus ? 0 - node->value : node->value;
    const int len = snprintf(digits, sizeof digits, "-%llu", magnitude);
    return PyObject_CallFunction(hook, "s#", digits + !has_minus, (Py_ssize_t)(len - !has_minus));
}

static PyObject *to_hooked_scalar(const memory *m, const simd_json_node *node, PyObject **hooks) {
    int is_integer = node->kind >= SIMD_JSON_I64 && node->kind <= SIMD_JSON_U128;
    PyObject *hook = is_integer ? hooks[PARSE_INT] : node->kind == SIMD_JSON_DECIMAL ? hooks[PARSE_FLOAT] : NULL;
    return hook ? call_with_literal(m, node, hook) : to_value(m, node);
}

static PyObject *list_of(PyObject **values, size_t count, size_t stride) {
    PyObject *list = PyList_New((Py_ssize_t)count);
    for (size_t i = 0; list && i < count; i++) {
        Py_INCREF(values[i * stride]);
        PyList_SetItem(list, (Py_ssize_t)i, values[i * stride]);
    }
    return list;
}

static PyObject *dict_of(PyObject **values, size_t count) {
    PyObject *dict = PyDict_New();
    for (size_t i = 0; dict && i < count; i++)
        if (PyDict_SetItem(dict, values[2 * i], values[2 * i + 1]) < 0)
            Py_CLEAR(dict);
    return dict;
}

/* Each key becomes a pair of it and its value. */
static PyObject *pairs_of(PyObject **values, size_t count) {
    for (size_t i = 0; i < count; i++) {
        PyObject *pair = PyTuple_Pack(2, values[2 * i], values[2 * i + 1]);
        if (!pair)
            return NULL;
        Py_DECREF(values[2 * i]);
        values[2 * i] = pair;
    }
    return list_of(values, count, 2);
}

static PyObject *object_of(PyObject **values, size_t count, PyObject **hooks) {
    PyObject *pairs = hooks[OBJECT_PAIRS_HOOK], *hook = pairs ? pairs : hooks[OBJECT_HOOK];
    PyObject *whole = pairs ? pairs_of(values, count) : dict_of(values, count);
    if (!whole || !hook)
        return whole;
    PyObject *made = PyObject_CallFunctionObjArgs(hook, whole, NULL);
    Py_DECREF(whole);
    return made;
}

/* A container of which all is held, or what a hook makes of it. */
static PyObject *close_hooked(held *of, const struct open *in, PyObject **hooks) {
    PyObject **values = of->values + in->begun;
    PyObject *made = in->is_object ? object_of(values, in->len, hooks) : list_of(values, in->len, 1);
    drop(of, in->begun);
    return made;
}

/* The value of all nodes where there are hooks, which are called in the order of the document. */
static PyObject *build_hooked(memory *m, PyObject **hooks, held *of) {
    struct open in = {.read = 0, .len = 1}; /* around the root */
    size_t depth = 0;
    for (const simd_json_node *node = m->document.nodes, *end = node + m->document.nodes_len; node < end; node++) {
        if (in.is_object && !hold(of, to_key(m, node++)))
            return NULL;
        if (node->kind >= SIMD_JSON_ARRAY) {
            if (depth == m->open_cap && !grow(&m->open, &m->open_cap, 2 * depth + 16, sizeof *m->open))
                return NULL;
            m->open[depth++] = in;
            in = (struct open){{.begun = of->len}, 0, node->len, node->kind == SIMD_JSON_OBJECT};
        } else {
            if (!hold(of, to_hooked_scalar(m, node, hooks)))
                return NULL;
            in.read++;
        }
        while (in.read == in.len && depth) {
            if (!hold(of, close_hooked(of, &in, hooks)))
                return NULL;
            in = m->open[--depth];
            in.read++;
        }
    }
    return of->values[--of->len];
}

/* The arguments: the input, and by name the hooks and max_depth. */
typedef struct {
    PyObject *data, *hooks[HOOKS];
    Py_ssize_t max_depth;
} arguments;

static int is_depth(Py_ssize_t max_depth) {
    if (max_depth < 0)
        PyErr_SetString(PyExc_ValueError, "max_depth is negative");
    return max_depth >= 0;
}

/* The hooks are held while they may be called: what they came in, a dict of keywords or a parser, may lose them. */
static void keep(const arguments *given) {
    for (int i = 0; i < HOOKS; i++)
        Py_XINCREF(given->hooks[i]);
}

static void let_go(const arguments *given) {
    for (int i = 0; i < HOOKS; i++)
        Py_XDECREF(given->hooks[i]);
}

/* Takes and keeps what is given by name, but `none`, where it is asked for. First comes what may call code of users,
 * which is over before the others are taken. */
static int take_named(arguments *given, PyObject *named, const char *format, PyObject **none) {
    char *names[] = {"max_depth", "object_hook", "parse_float", "parse_int", "parse_constant", "object_pairs_hook",
                     none ? "default" : NULL, NULL};
    static PyTypeObject *const made[HOOKS] = {&PyFloat_Type, &PyLong_Type, NULL, NULL};
    if (!named)
        return 1;
    PyObject **hooks = given->hooks, *constant = NULL, *unnamed = PyTuple_New(0);
    int is_taken = unnamed && PyArg_ParseTupleAndKeywords(
                                  unnamed, named, format, names, &given->max_depth, &hooks[OBJECT_HOOK],
                                  &hooks[PARSE_FLOAT], &hooks[PARSE_INT], &constant, &hooks[OBJECT_PAIRS_HOOK], none);
    Py_XDECREF(unnamed);
    if (!is_taken || !is_depth(given->max_depth))
        return 0;
    if (constant && constant != Py_None) {
        PyErr_SetString(PyExc_TypeError, "parse_constant is not called: NaN, Infinity and -Infinity are rejected"
                                         " (RFC 8259, section 6)");
        return 0;
    }
    for (int i = 0; i < HOOKS; i++)
        if (hooks[i] == Py_None || hooks[i] == (PyObject *)made[i])
            hooks[i] = NULL;
    keep(given);
    return 1;
}

/* Without hooks nothing that is being made is garbage, so collections would look through it in vain. No code of users
 * runs, and no other thread, since the interpreter's lock is held: nobody sees that the collector is off. */
static PyObject *build_any(memory *m, PyObject **hooks) {
    for (int i = 0; i < HOOKS; i++) {
        if (hooks[i]) {
            held of = {NULL, 0, 0};
            PyObject *value = build_hooked(m, hooks, &of);
            drop(&of, 0);
            free(of.values);
            return value;
        }
    }
    int collects = PyGC_Disable();
    PyObject *value = build(m);
    if (collects)
        PyGC_Enable();
    return value;
}

static PyObject *loads_in(memory *kept, arguments *given) {
    memory own, *m = take(kept, &own);
    PyObject *value = NULL;
    /* A hook's call, which may be the hook itself: Python counts it once more, since it takes more
     * stack than what is only called. */
    if (m != &own || Py_EnterRecursiveCall(" in a hook of simd_json") == 0) {
        if (read_input(m, given->data, (size_t)given->max_depth, NULL))
            value = build_any(m, given->hooks);
        if (m == &own)
            Py_LeaveRecursiveCall();
    }
    give_back(m, &own);
    return value;
}

static PyObject *none_if(int is_right) {
    if (!is_right)
        return NULL;
    Py_INCREF(Py_None);
    return Py_None;
}

static PyObject *check_in(memory *kept, PyObject *data, Py_ssize_t max_depth) {
    memory own, *m = take(kept, &own);
    int is_right = read_input(m, data, (size_t)max_depth, simd_json_parser_check);
    give_back(m, &own);
    return none_if(is_right);
}

/* Takes the text of a JSON Pointer, which must be a str. */
static int pointer_of(PyObject *pointer, text *of) {
    *of = (text){NULL, 0, NULL};
    if (PyUnicode_Check(pointer))
        return utf8_of(pointer, of);
    PyErr_Format(PyExc_TypeError, "the JSON Pointer must be str, not %R", Py_TYPE(pointer));
    return 0;
}

/* Whether a text is a JSON Pointer (RFC 6901, section 3); else an error is raised. */
static int is_pointer(PyObject *pointer, int is_right) {
    if (!is_right)
        PyErr_Format(PyExc_ValueError, "%R is no JSON Pointer (RFC 6901): write '/' before each key and index, as in"
                                       " '/users/0/name', and in a key '~1' for '/' and '~0' for '~'", pointer);
    return is_right;
}

/* Parses the value that a pointer names in the input that `in` keeps: 1, or 0 where it is absent or malformed, or -1
 * and an error. Of half of a surrogate pair there is no key. */
static int find(memory *in, PyObject *pointer, memory *to, size_t max_depth) {
    simd_json_found found = {0, 0};
    simd_json_place place;
    text of;
    int is_asked = pointer_of(pointer, &of) && is_pointer(pointer, simd_json_is_pointer(of.bytes, (size_t)of.len));
    int32_t status = SIMD_JSON_TOO_LITTLE_ROOM;
    while (is_asked && status == SIMD_JSON_TOO_LITTLE_ROOM) {
        status = simd_json_parser_pointer(&in->parser, of.bytes, (size_t)of.len, &found, to->input, to->input_cap);
        if (status == SIMD_JSON_TOO_LITTLE_ROOM)
            is_asked = grow(&to->input, &to->input_cap, found.len + 1, 1);
    }
    Py_XDECREF(of.owned);
    if (status == SIMD_JSON_OK && (is_asked = prepare(to, max_depth, (Py_ssize_t)found.len)))
        status = simd_json_parser_parse(&to->parser, to->input, found.len, &to->document, &place);
    if (status == SIMD_JSON_OUT_OF_MEMORY)
        PyErr_NoMemory();
    return !is_asked || status == SIMD_JSON_OUT_OF_MEMORY ? -1 : status == SIMD_JSON_OK;
}

/* Whether an input is a document, which is asked until it is known: then it is let go. Else its first error is raised. */
static int is_document(memory *m, PyObject **input, size_t max_depth) {
    PyObject *data = *input;
    Py_XINCREF(data);
    int is_right = !data || read_input(m, data, max_depth, simd_json_parser_check);
    if (is_right && *input == data) /* no other thread has put another there */
        Py_CLEAR(*input);
    Py_XDECREF(data);
    return is_right;
}

/* The value that a pointer names in `*input`, which `in` keeps, or in a document that has none `none`. No code of users
 * runs before the value is copied. */
static PyObject *pointer_in(memory *in, PyObject **input, memory *kept, PyObject *pointer, PyObject *none,
                            arguments *given) {
    memory own, *m = take(kept, &own);
    PyObject *value = NULL;
    const int is_found = find(in, pointer, m, (size_t)given->max_depth);
    if (is_found == 1) {
        value = build_any(m, given->hooks);
    } else if (is_found == 0 && is_document(m, input, (size_t)given->max_depth)) {
        Py_INCREF(none);
        value = none;
    }
    give_back(m, &own);
    return value;
}

/* The functions of the module keep memory for inputs of at most so many bytes. */
enum { KEPT = 1 << 20 };

static void keep_little(void) {
    if (!shared.in_use && shared.longest > KEPT)
        release(&shared);
}

static PyObject *loads(PyObject *module, PyObject *args, PyObject *named) {
    (void)module;
    arguments given = {NULL, {NULL}, 1024};
    if (!PyArg_ParseTuple(args, "O:loads", &given.data) || !take_named(&given, named, "|$nOOOOO:loads", NULL))
        return NULL;
    PyObject *value = loads_in(&shared, &given);
    let_go(&given);
    keep_little();
    return value;
}

static PyObject *check(PyObject *module, PyObject *args, PyObject *named) {
    (void)module;
    static char *names[] = {"", "max_depth", NULL};
    PyObject *data;
    Py_ssize_t max_depth = 1024;
    if (!PyArg_ParseTupleAndKeywords(args, named, "O|$n:check", names, &data, &max_depth) || !is_depth(max_depth))
        return NULL;
    PyObject *none = check_in(&shared, data, max_depth);
    keep_little();
    return none;
}

/* The value that a pointer names in the input, or `none`. */
static PyObject *pointer_once(PyObject *pointer, PyObject *none, arguments *given) {
    memory own, *m = take(&shared, &own); /* while it is scanned other threads may run */
    PyObject *input = given->data;
    int is_scanned = read_input(m, input, (size_t)given->max_depth, simd_json_parser_scan);
    m->in_use = 0;
    Py_INCREF(input);
    PyObject *value = is_scanned ? pointer_in(m, &input, m, pointer, none, given) : NULL;
    Py_XDECREF(input);
    give_back(m, &own);
    keep_little();
    return value;
}

static PyObject *pointer(PyObject *module, PyObject *args, PyObject *named) {
    (void)module;
    static char *names[] = {"", "", "default", "max_depth", NULL};
    arguments given = {NULL, {NULL}, 1024};
    PyObject *pointer, *none = Py_None, *max_depth = NULL, *value = NULL;
    if (!PyArg_ParseTupleAndKeywords(args, named, "OO|O$O:pointer", names, &given.data, &pointer, &none, &max_depth))
        return NULL;
    Py_INCREF(none); /* which its dict may lose when code of users or other threads run */
    if (max_depth)
        given.max_depth = PyNumber_AsSsize_t(max_depth, PyExc_OverflowError);
    if (!PyErr_Occurred() && is_depth(given.max_depth))
        value = pointer_once(pointer, none, &given);
    Py_DECREF(none);
    return value;
}

typedef struct {
    PyObject_HEAD memory kept, indexed;
    Py_ssize_t max_depth;
    PyObject *hooks[HOOKS], *scanned; /* the input that is indexed, until it is known to be a document */
    PyObject *none;                   /* of Fields, whose pointers `indexed` has: of an absent value */
    size_t count;
} parser;

/* What a subclass has that does not call __init__. */
static PyObject *parser_new(PyTypeObject *type, PyObject *args, PyObject *named) {
    PyObject *self = PyType_GenericNew(type, args, named);
    if (self)
        ((parser *)self)->max_depth = 1024;
    return self;
}

static int parser_init(PyObject *self, PyObject *args, PyObject *named) {
    parser *p = (parser *)self;
    arguments given = {NULL, {NULL}, 1024}, old;
    if (!PyArg_ParseTuple(args, ":Parser") || !take_named(&given, named, "|$nOOOOO:Parser", NULL))
        return -1;
    memcpy(old.hooks, p->hooks, sizeof old.hooks);
    memcpy(p->hooks, given.hooks, sizeof old.hooks);
    p->max_depth = given.max_depth;
    let_go(&old);
    return 0;
}

/* A parser may be in a cycle, by a hook that is a method of its own. */
static int parser_traverse(PyObject *self, visitproc visit, void *arg) {
    for (int i = 0; i < HOOKS; i++)
        Py_VISIT(((parser *)self)->hooks[i]);
    Py_VISIT(((parser *)self)->scanned);
    Py_VISIT(((parser *)self)->none);
    Py_VISIT(Py_TYPE(self));
    return 0;
}

static int parser_clear(PyObject *self) {
    for (int i = 0; i < HOOKS; i++)
        Py_CLEAR(((parser *)self)->hooks[i]);
    Py_CLEAR(((parser *)self)->scanned);
    Py_CLEAR(((parser *)self)->none);
    return 0;
}

static void parser_free(PyObject *self) {
    parser *p = (parser *)self;
    PyTypeObject *type = Py_TYPE(self);
    PyObject_GC_UnTrack(self);
    release(&p->kept);
    release(&p->indexed);
    parser_clear(self);
    freefunc release_self = (freefunc)PyType_GetSlot(type, Py_tp_free);
    release_self(self);
    Py_DECREF(type);
}

/* The parser and its hooks, which are called although these may call __init__ with others. */
static arguments begin_call(PyObject *self, PyObject *data) {
    parser *p = (parser *)self;
    arguments given = {data, {NULL}, p->max_depth};
    Py_INCREF(self);
    memcpy(given.hooks, p->hooks, sizeof given.hooks);
    keep(&given);
    return given;
}

static PyObject *end_call(PyObject *self, arguments *given, PyObject *value) {
    let_go(given);
    Py_DECREF(self);
    return value;
}

static PyObject *parser_loads(PyObject *self, PyObject *data) {
    arguments given = begin_call(self, data);
    return end_call(self, &given, loads_in(&((parser *)self)->kept, &given));
}

static PyObject *parser_check(PyObject *self, PyObject *data) {
    return check_in(&((parser *)self)->kept, data, ((parser *)self)->max_depth);
}

/* Whether no other thread scans an input with the parser; else an error is raised. */
static int is_free(const memory *m) {
    if (m->in_use)
        PyErr_SetString(PyExc_RuntimeError, "another thread scans an input with this parser");
    return !m->in_use;
}

static PyObject *parser_scan(PyObject *self, PyObject *data) {
    parser *p = (parser *)self;
    if (!is_free(&p->indexed))
        return NULL;
    Py_INCREF(self);
    p->indexed.in_use = 1;
    const int is_scanned = read_input(&p->indexed, data, (size_t)p->max_depth, simd_json_parser_scan);
    const int may_change = PyByteArray_Check(data) || PyMemoryView_Check(data);
    PyObject *input = is_scanned ? may_change ? PyBytes_FromObject(data) : data : NULL, *old = p->scanned;
    if (input == data)
        Py_INCREF(data);
    p->scanned = input;
    p->indexed.in_use = 0;
    Py_XDECREF(old);
    Py_DECREF(self);
    return none_if(input != NULL);
}

static PyObject *parser_pointer(PyObject *self, PyObject *args, PyObject *named) {
    static char *names[] = {"", "default", NULL};
    parser *p = (parser *)self;
    PyObject *pointer, *none = Py_None;
    if (!PyArg_ParseTupleAndKeywords(args, named, "O|O:pointer", names, &pointer, &none) || !is_free(&p->indexed))
        return NULL;
    arguments given = begin_call(self, NULL);
    Py_INCREF(none); /* as in pointer */
    PyObject *value = pointer_in(&p->indexed, &p->scanned, &p->kept, pointer, none, &given);
    Py_DECREF(none);
    return end_call(self, &given, value);
}

static PyMethodDef parser_methods[] = {
    {"loads", parser_loads, METH_O,
     "loads($self, data, /)\n--\n\nThe value of a document, as the module's loads returns it."},
    {"check", parser_check, METH_O,
     "check($self, data, /)\n--\n\nRaises SimdJsonError unless the bytes are a document."},
    {"scan", parser_scan, METH_O,
     "scan($self, data, /)\n--\n\n"
     "Keeps a copy of a document for pointer, instead of the one before.\n\n"
     "Only its size and encoding are checked, and that strings end and contain no byte below 0x20: if not, it raises\n"
     "SimdJsonError."},
    {"pointer", (PyCFunction)(void (*)(void))parser_pointer, METH_VARARGS | METH_KEYWORDS,
     "pointer($self, pointer, /, default=None)\n--\n\n"
     "The value that a JSON Pointer (RFC 6901) names in what scan has kept, or in a document without it default.\n\n"
     "Only the value and what is on the way to it are checked: it may also be found in an input that is not a\n"
     "document. Where it is malformed or absent, the input is checked: SimdJsonError is raised as by loads, or\n"
     "default returned. ValueError is raised if the pointer is malformed."},
    {NULL, NULL, 0, NULL},
};

static PyType_Slot parser_slots[] = {
    {Py_tp_doc, "Parser(*, max_depth=1024, object_hook=None, parse_float=None, parse_int=None, parse_constant=None,"
                " object_pairs_hook=None)\n--\n\n"
                "Reads one document after another with memory that is kept between them."},
    {Py_tp_new, parser_new},
    {Py_tp_init, parser_init},
    {Py_tp_traverse, parser_traverse},
    {Py_tp_clear, parser_clear},
    {Py_tp_dealloc, parser_free},
    {Py_tp_methods, parser_methods},
    {0, NULL},
};

static PyType_Spec parser_spec = {"simd_json.Parser", sizeof(parser), 0,
                                  Py_TPFLAGS_DEFAULT | Py_TPFLAGS_BASETYPE | Py_TPFLAGS_HAVE_GC,
                                  parser_slots};

/* Adds pointers, a tuple, to a parser. No code of users runs. */
static int add_pointers(memory *to, PyObject *pointers, size_t count) {
    for (size_t i = 0; i < count; i++) {
        PyObject *pointer = PyTuple_GetItem(pointers, (Py_ssize_t)i);
        text of;
        int32_t status = SIMD_JSON_OUT_OF_MEMORY;
        int is_taken = pointer_of(pointer, &of);
        if (is_taken && (status = simd_json_parser_add(&to->parser, of.bytes, (size_t)of.len)) == SIMD_JSON_OUT_OF_MEMORY)
            PyErr_NoMemory();
        Py_XDECREF(of.owned);
        if (!is_taken || status == SIMD_JSON_OUT_OF_MEMORY || !is_pointer(pointer, status == SIMD_JSON_OK))
            return 0;
    }
    return 1;
}

static int fields_init(PyObject *self, PyObject *args, PyObject *named) {
    parser *p = (parser *)self;
    arguments given = {NULL, {NULL}, 1024};
    memory made = {.in_use = 0};
    PyObject *none = Py_None, *pointers = NULL;
    if (!PyArg_ParseTuple(args, "O:Fields", &given.data) || !take_named(&given, named, "|$nOOOOOO:Fields", &none))
        return -1;
    Py_INCREF(none);
    if (PyUnicode_Check(given.data))
        PyErr_SetString(PyExc_TypeError, "the JSON Pointers must be an iterable of str, not one str");
    else
        pointers = PySequence_Tuple(given.data);
    const size_t count = pointers ? (size_t)PyTuple_Size(pointers) : 0;
    const int is_made = pointers && is_free(&p->indexed) && prepare(&made, (size_t)given.max_depth, 0) &&
                        add_pointers(&made, pointers, count);
    if (is_made) {
        const parser old = *p;
        p->indexed = made, p->count = count, p->none = none, p->max_depth = given.max_depth;
        memcpy(p->hooks, given.hooks, sizeof given.hooks);
        made = old.indexed, none = old.none;
        memcpy(given.hooks, old.hooks, sizeof given.hooks);
    }
    release(&made);
    let_go(&given);
    Py_XDECREF(none);
    Py_XDECREF(pointers);
    return is_made ? 0 : -1;
}

/* Finds the fields of an input, and checks it if one is missing; else an error is raised. */
static int find_fields(memory *m, const text *of, simd_json_field *found, size_t count, const arguments *given) {
    simd_json_place place;
    int is_missing = 0;
    if (!prepare(m, m->max_depth, of->len)) /* open, but of a subclass that does not call __init__ */
        return 0;
    m->in_use = 1;
    PyThreadState *others = of->len > LONG ? PyEval_SaveThread() : NULL;
    int32_t status = simd_json_parser_pointers(&m->parser, of->bytes, (size_t)of->len, found, count, &place);
    for (size_t i = 0; i < count && status == SIMD_JSON_OK; i++)
        is_missing |= found[i].kind == SIMD_JSON_MISSING;
    if (is_missing)
        status = simd_json_check(of->bytes, (size_t)of->len, (size_t)given->max_depth, &place);
    if (others)
        PyEval_RestoreThread(others);
    m->in_use = 0;
    return status == SIMD_JSON_OK || reject(status, &place, given->data, of) != NULL;
}

/* The value of a field. A string with an escape, an array or an object is parsed from a copy. */
static PyObject *field_value(const text *of, const simd_json_field *field, memory *m, arguments *given, PyObject *none) {
    const uint32_t quotes = field->kind == SIMD_JSON_STRING;
    const simd_json_node node = {field->kind, (uint32_t)field->len - 2 * quotes, field->value + quotes};
    if (field->kind < SIMD_JSON_ARRAY && !field->has_escape) {
        memory line;
        line.document = (simd_json_document){&node, 1, of->bytes, (size_t)of->len};
        return to_hooked_scalar(&line, &node, given->hooks);
    }
    if (field->kind != SIMD_JSON_MISSING) {
        simd_json_place place;
        if (!grow(&m->input, &m->input_cap, field->len, 1) || !prepare(m, (size_t)given->max_depth, (Py_ssize_t)field->len))
            return NULL;
        memcpy(m->input, of->bytes + field->value, field->len);
        int32_t status = simd_json_parser_parse(&m->parser, m->input, field->len, &m->document, &place);
        if (status == SIMD_JSON_OK)
            return build_any(m, given->hooks);
        if (status != SIMD_JSON_OUT_OF_MEMORY)
            status = simd_json_check(of->bytes, (size_t)of->len, (size_t)given->max_depth, &place);
        if (status != SIMD_JSON_OK)
            return reject(status, &place, given->data, of);
    }
    Py_INCREF(none);
    return none;
}

/* A tuple of the values, which are held until all are made: code of users sees no unfinished one. */
static PyObject *field_values(const text *of, const simd_json_field *found, held *values, memory *m, arguments *given,
                              PyObject *none) {
    const size_t count = values->cap;
    for (size_t i = 0; i < count; i++)
        if (!hold(values, field_value(of, &found[i], m, given, none)))
            return NULL;
    PyObject *tuple = PyTuple_New((Py_ssize_t)count);
    for (size_t i = 0; tuple && i < count; i++)
        PyTuple_SetItem(tuple, (Py_ssize_t)i, values->values[i]);
    if (tuple)
        values->len = 0;
    return tuple;
}

static PyObject *fields_get(PyObject *self, PyObject *data) {
    enum { FEW = 16 };
    parser *p = (parser *)self;
    simd_json_field few[FEW], *found = few;
    PyObject *few_values[FEW], *tuple = NULL, *none = p->none ? p->none : Py_None;
    arguments given = begin_call(self, data);
    Py_INCREF(none);
    text of;
    if (input_of(data, &of) && is_free(&p->indexed)) {
        held values = {few_values, 0, p->count};
        if (values.cap > FEW) {
            found = malloc(values.cap * sizeof *found);
            values.values = malloc(values.cap * sizeof *values.values);
        }
        memory own, *m = take(&p->kept, &own);
        if (!found || !values.values)
            PyErr_NoMemory();
        else if (find_fields(&p->indexed, &of, found, values.cap, &given))
            tuple = field_values(&of, found, &values, m, &given, none);
        give_back(m, &own);
        drop(&values, 0);
        if (found != few)
            free(found);
        if (values.values != few_values)
            free(values.values);
    }
    Py_XDECREF(of.owned);
    Py_DECREF(none);
    return end_call(self, &given, tuple);
}

static PyMethodDef fields_methods[] = {
    {"get", fields_get, METH_O,
     "get($self, data, /)\n--\n\n"
     "A tuple of what the pointers name in an input, each as loads makes it, or default.\n\n"
     "Only these values and what is on the way to them are checked, as by Parser.pointer. Where one is malformed or\n"
     "absent, the input is checked: SimdJsonError is raised as by loads."},
    {NULL, NULL, 0, NULL},
};

static PyType_Slot fields_slots[] = {
    {Py_tp_doc, "Fields(pointers, /, *, default=None, max_depth=1024, object_hook=None, parse_float=None,"
                " parse_int=None, parse_constant=None, object_pairs_hook=None)\n--\n\n"
                "Finds the values of some JSON Pointers (RFC 6901) in one input after another."},
    {Py_tp_new, parser_new},
    {Py_tp_init, fields_init},
    {Py_tp_traverse, parser_traverse},
    {Py_tp_clear, parser_clear},
    {Py_tp_dealloc, parser_free},
    {Py_tp_methods, fields_methods},
    {0, NULL},
};

static PyType_Spec fields_spec = {"simd_json.Fields", sizeof(parser), 0,
                                  Py_TPFLAGS_DEFAULT | Py_TPFLAGS_BASETYPE | Py_TPFLAGS_HAVE_GC,
                                  fields_slots};

static PyObject *set_error(PyObject *module, PyObject *function) {
    (void)module;
    Py_INCREF(function);
    Py_XDECREF(to_error);
    to_error = function;
    Py_INCREF(Py_None);
    return Py_None;
}

static PyMethodDef functions[] = {
    {"loads", (PyCFunction)(void (*)(void))loads, METH_VARARGS | METH_KEYWORDS,
     "loads(data, /, *, object_hook=None, parse_float=None, parse_int=None, parse_constant=None,"
     " object_pairs_hook=None, max_depth=1024)\n--\n\n"
     "The value of a JSON document (RFC 8259) in str, bytes, bytearray or memoryview.\n\n"
     "parse_float and parse_int are called with the literal of a number, object_hook with a dict, and\n"
     "object_pairs_hook, which comes first, with a list of pairs; what they return is the value. They see no\n"
     "unfinished container. parse_constant raises TypeError: NaN and Infinity are rejected.\n\n"
     "Raises SimdJsonError, with the first error and its place."},
    {"check", (PyCFunction)(void (*)(void))check, METH_VARARGS | METH_KEYWORDS,
     "check(data, /, *, max_depth=1024)\n--\n\nRaises SimdJsonError unless the bytes are a JSON document (RFC 8259)."},
    {"pointer", (PyCFunction)(void (*)(void))pointer, METH_VARARGS | METH_KEYWORDS,
     "pointer(data, pointer, /, default=None, *, max_depth=1024)\n--\n\n"
     "The value that a JSON Pointer (RFC 6901) names in a document, or default.\n\n"
     "As Parser.scan and Parser.pointer, which are faster for several values of one document."},
    {"_set_error", set_error, METH_O, NULL},
    {NULL, NULL, 0, NULL},
};

/* Python ends, and may begin again: the objects are gone. */
static void forget(void) {
    if (!shared.in_use) /* by a thread that Python has left behind */
        release(&shared);
    memset(cache, 0, sizeof cache);
    latest = cache;
    to_error = NULL;
    home = -1;
}

/* Whether this is the first interpreter that imports the module, or that one again. No other can:
 * what is kept are objects of one, which another may not touch. Where each has a lock of its own,
 * Python itself lets none but the main one import it. */
static int is_home(void) {
    int64_t here = PyInterpreterState_GetID(PyInterpreterState_Get());
    if (home == -1 && here >= 0 && Py_AtExit(forget) == 0)
        home = here;
    if (here < 0 || home != here) {
        PyErr_SetString(PyExc_ImportError,
                        "simd_json is imported by the first interpreter of a process that does, "
                        "and by no other");
        return 0;
    }
    return 1;
}

#define TEXT(number) #number
#define VERSION(major, minor, patch) TEXT(major) "." TEXT(minor) "." TEXT(patch)

static int add_type(PyObject *module, const char *name, PyType_Spec *spec) {
    PyObject *type = PyType_FromSpec(spec);
    if (type && PyModule_AddObject(module, name, type) == 0)
        return 0;
    Py_XDECREF(type);
    return -1;
}

static int begin(PyObject *module) {
    const char *version = VERSION(SIMD_JSON_VERSION_MAJOR, SIMD_JSON_VERSION_MINOR, SIMD_JSON_VERSION_PATCH);
    return is_home() && PyModule_AddStringConstant(module, "__version__", version) == 0 &&
                   add_type(module, "Parser", &parser_spec) == 0 && add_type(module, "Fields", &fields_spec) == 0
               ? 0
               : -1;
}

static PyModuleDef_Slot slots[] = {{Py_mod_exec, begin}, {0, NULL}};

static struct PyModuleDef definition = {PyModuleDef_HEAD_INIT, "simd_json._native", NULL, 0, functions,
                                        slots, NULL, NULL, NULL};

PyMODINIT_FUNC PyInit__native(void) {
    return PyModuleDef_Init(&definition);
}
