/* simd_json.h: a JSON parser (RFC 8259) whose results are proved. See also simd_json(3).
 *
 *     #include <simd_json.h>
 *     #include <stdio.h>
 *     #include <string.h>
 *
 *     int main(void) {
 *         char input[] = "{\"the_answer\": 42}";
 *         simd_json_parser parser = {0};
 *         simd_json_document d;
 *         simd_json_place place = {0};
 *         int status = simd_json_open(&parser, 1024);
 *         if (status == SIMD_JSON_OK)
 *             status = simd_json_parser_parse(&parser, input, strlen(input), &d, &place);
 *         if (status == SIMD_JSON_OK) {
 *             size_t at = simd_json_pointer(d.nodes, d.nodes_len, d.text, d.text_len, 0, "/the_answer", 11);
 *             int64_t answer;
 *             if (simd_json_int64(d.nodes, d.nodes_len, at, &answer) == SIMD_JSON_OK)
 *                 printf("%lld\n", (long long)answer);
 *         } else {
 *             fprintf(stderr, "rejected: %s at byte %zu\n", simd_json_status_text(status), place.index);
 *         }
 *         simd_json_close(&parser);
 *         return status != SIMD_JSON_OK;
 *     }
 *
 * Lengths and indexes are in bytes, of `nodes` in nodes.
 *
 * Only a simd_json_parser keeps anything between calls. Nothing is locked, and threads may call at the same time, each with a
 * parser of its own. Memory comes from malloc and realloc of the C library, and is freed before a call returns, except what a
 * parser keeps. Do not call this library where malloc can't be called: in a signal handler, or in the forked child of a process
 * with threads.
 *
 * Pointers are to the caller's memory, which a call uses only until it returns, except those that simd_json_parser_parse writes.
 * Regions must not overlap. A pointer may be null if its length is 0, and no other: gcc and clang warn of a null one (-Wnonnull).
 * Nothing past a length is read or written.
 *
 * The input needs no terminator and no padding. simd_json_parser_parse and simd_json_parser_print OVERWRITE it: they decode
 * escapes in place, and afterwards its contents are unspecified. Pass a copy of what you need again. All other calls leave it
 * unchanged.
 *
 * `max_depth` is how many arrays and objects may be open at a time: 1024 is usual, 0 allows scalars only. A call takes the same
 * stack at any depth, but a check 128 bytes more for each that is open, up to 64 of them.
 */
#ifndef SIMD_JSON_H
#define SIMD_JSON_H

#include <stdbool.h>
#include <stddef.h>
#include <stdint.h>

#ifdef __cplusplus
extern "C" {
#endif

/* Of a call: the parameters that must not be null, by number. */
#ifdef __GNUC__
#define SIMD_JSON_NONNULL(...) __attribute__((nonnull(__VA_ARGS__)))
#else
#define SIMD_JSON_NONNULL(...)
#endif

/* The version of this header, as in `#if SIMD_JSON_VERSION >= 400`, and the version of the library that is linked. With the
 * same soname a program needs no new build: before 1.0 the soname has the major and the minor number, later the major one alone. */
#define SIMD_JSON_VERSION_MAJOR 0
#define SIMD_JSON_VERSION_MINOR 4
#define SIMD_JSON_VERSION_PATCH 0
#define SIMD_JSON_VERSION (SIMD_JSON_VERSION_MAJOR * 10000 + SIMD_JSON_VERSION_MINOR * 100 + SIMD_JSON_VERSION_PATCH)
uint32_t simd_json_version(void);

/* What a call returns: SIMD_JSON_OK, or why it has no result. The first error of the input is reported: one of the whole input, in
 * the order below, otherwise the first at a token. */
enum {
    SIMD_JSON_OK = 0,

    /* An allocation failed; the process does not end. Size and encoding are right. */
    SIMD_JSON_OUT_OF_MEMORY = 1,

    /* Of the whole input: index 0, no character. */
    SIMD_JSON_INPUT_TOO_LARGE = 2, /* more than 4,294,967,295 bytes */
    SIMD_JSON_INVALID_UTF8 = 3,    /* not UTF-8 (RFC 3629) */
    SIMD_JSON_SYNTAX = 4,          /* a string has no end, or contains a byte below 0x20 (section 7); with a character: the
                                      input ends early, reported at the last token */
    SIMD_JSON_EOF = 5,             /* nothing but whitespace */

    /* At a token, or a byte in it: the index, and the byte there (simd_json_place). */
    SIMD_JSON_INTERNAL_ERROR = 6,           /* no value where one is expected; or more text after the root container,
                                               reported at its closing bracket */
    SIMD_JSON_EXPECTED_ARRAY_CONTENT = 7,   /* no `,` or `]` after an element */
    SIMD_JSON_EXPECTED_OBJECT_CONTENT = 8,  /* no key or `}` after `{`, no `,` or `}` after a member */
    SIMD_JSON_EXPECTED_OBJECT_KEY = 9,      /* no key after `,` */
    SIMD_JSON_EXPECTED_OBJECT_COLON = 10,   /* no `:` after a key */
    SIMD_JSON_TRAILING_DATA = 11,           /* more text after a root scalar, reported at the scalar */
    SIMD_JSON_DEPTH_LIMIT_EXCEEDED = 12,    /* more than max_depth containers are opened */
    SIMD_JSON_EXPECTED_TRUE = 13,           /* another word that begins with `t` */
    SIMD_JSON_EXPECTED_FALSE = 14,          /* with `f` */
    SIMD_JSON_EXPECTED_NULL = 15,           /* with `n` */
    SIMD_JSON_INVALID_NUMBER = 16,          /* malformed, or an integer out of range (section 6) */
    SIMD_JSON_INVALID_ESCAPE = 17,          /* a backslash before a byte that no escape has (section 7) */
    SIMD_JSON_INVALID_UNICODE_CODEPOINT = 18, /* a malformed `\u` escape, or a lone surrogate (section 7) */

    /* There is a result, but the memory for it is too small. */
    SIMD_JSON_TOO_LITTLE_ROOM = 19,

    /* The parser is not open. The input is not read. */
    SIMD_JSON_PARSER_CLOSED = 20,

    /* There is no such value: the JSON Pointer leads nowhere, or no node with the index has such a value. */
    SIMD_JSON_NO_VALUE = 21,

    /* The JSON Pointer is malformed (RFC 6901, section 3): it is not empty and does not begin with `/`, or a `~` in it is followed
     * by neither `0` nor `1`. */
    SIMD_JSON_INVALID_POINTER = 22
};

/* Where an input is rejected: a byte offset into it, and the byte there. A number that ends too early may be reported at the
 * length, with a space. INVALID_ESCAPE and INVALID_UNICODE_CODEPOINT are at the backslash, with the byte after it. Index 0 and
 * SIMD_JSON_NO_CHARACTER if the error is of the whole input, or without an error. */
typedef struct {
    size_t index;
    uint32_t character;
} simd_json_place;

#define SIMD_JSON_NO_CHARACTER UINT32_MAX

/* What a node is. */
enum {
    SIMD_JSON_NULL = 0,
    SIMD_JSON_BOOL = 1,    /* value is 0 or 1 */
    SIMD_JSON_I64 = 2,     /* written with `-`, at least -2^63: (int64_t)value */
    SIMD_JSON_U64 = 3,     /* written without `-`, at most 2^64 - 1: value */
    SIMD_JSON_I128 = 4,    /* a smaller one, at least -2^127: its literal, len bytes of the input from value on */
    SIMD_JSON_U128 = 5,    /* a greater one, at most 2^128 - 1: its literal, in the same way */
    SIMD_JSON_DECIMAL = 6, /* a number with a fraction or an exponent: its literal, in the same way */
    SIMD_JSON_STRING = 7,  /* a string or a key: its UTF-8 without escapes, which the parse writes there */
    SIMD_JSON_ARRAY = 8,   /* has len elements, which have value nodes in all */
    SIMD_JSON_OBJECT = 9   /* has len pairs, which have value nodes in all */
};

/* A node of a document: a scalar, a key, or the header of a container, whose members' nodes follow it; a member of an object
 * is its key's node, then its value's (simd_json_next). Fields that are not named above are 0. */
typedef struct {
    uint32_t kind;
    uint32_t len;
    uint64_t value;
} simd_json_node;

/* Returns the index of the next sibling of the node at index i: the first node after it and all nodes in it. The elements of
 * an array, and the values of an object with their keys:
 *
 *     size_t at = array + 1;
 *     for (size_t n = 0; n < nodes[array].len; n++, at = simd_json_next(nodes, at))
 *         use(&nodes[at]);
 *
 *     at = object + 1;
 *     for (size_t n = 0; n < nodes[object].len; n++, at = simd_json_next(nodes, at + 1))
 *         use_pair(&nodes[at], &nodes[at + 1]); */
static inline size_t simd_json_next(const simd_json_node *nodes, size_t i) {
    return i + 1 + (nodes[i].kind >= SIMD_JSON_ARRAY ? nodes[i].value : 0);
}

/* Checks whether the input is a document. It may be a string literal, or memory that cannot be written. It is copied only if it
 * is rejected at a token or has more than 64 open containers. Writes *place. */
int32_t simd_json_check(const void *input, size_t len, size_t max_depth, simd_json_place *place) SIMD_JSON_NONNULL(4);

/* Returns the index of the value of the first pair with a key, in the object at index `object`; or SIMD_JSON_NO_NODE if the object
 * lacks the key, or that node is not an object. The key is passed as its bytes: for `{"a/b":1}` it is `a/b`.
 *
 * For nodes that are not those of a document the result is unspecified, but below nodes_len or SIMD_JSON_NO_NODE. */
#define SIMD_JSON_NO_NODE SIZE_MAX
size_t simd_json_get(const simd_json_node *nodes, size_t nodes_len, const void *text, size_t text_len, size_t object,
                     const void *key, size_t key_len);

/* Returns the index of the node that a JSON Pointer (RFC 6901) names in the value at index `from`, or SIMD_JSON_NO_NODE if the
 * pointer is malformed or names nothing. The empty pointer names the value itself. In any other each `/` begins a reference
 * token: the key of a pair of an object, of equal keys the first, with `~1` for `/` and `~0` for `~`; or the index of an element
 * of an array, in digits without a leading zero. For nodes that are not those of a document see simd_json_get. */
size_t simd_json_pointer(const simd_json_node *nodes, size_t nodes_len, const void *text, size_t text_len, size_t from,
                         const void *pointer, size_t pointer_len);

/* Returns whether the bytes are a JSON Pointer (RFC 6901, section 3). If not, this is why simd_json_pointer found nothing. */
bool simd_json_is_pointer(const void *pointer, size_t pointer_len);

/* Reads the number at index `at` of the nodes of a document, of whatever kind it is, as the nearest double, like simd_json_double:
 * an integer of up to 53 bits is exact, and `-0` is 0. The index may be one that was not found:
 *
 *     double price;
 *     size_t at = simd_json_pointer(d.nodes, d.nodes_len, d.text, d.text_len, 0, "/price", 6);
 *     if (simd_json_number(d.nodes, d.nodes_len, d.text, d.text_len, at, &price) == SIMD_JSON_OK)
 *
 * NO_VALUE: no node has the index, or it is no number; *number is unchanged. */
int32_t simd_json_number(const simd_json_node *nodes, size_t nodes_len, const void *text, size_t text_len, size_t at,
                         double *number) SIMD_JSON_NONNULL(6);

/* Reads the integer at index `at` of the nodes of a document, of whatever kind it is.
 *
 * INVALID_NUMBER: the number is not written as an integer (`1.0` and `1e2` are not), or is below -2^63 or above 2^63 - 1.
 * NO_VALUE: no node has the index, or it is no number. After both *number is unchanged. */
int32_t simd_json_int64(const simd_json_node *nodes, size_t nodes_len, size_t at, int64_t *number) SIMD_JSON_NONNULL(4);

/* How a value is printed: without whitespace, or with a line for each member, after two spaces for each container that is open
 * there. Pretty text can be much longer than the input. */
enum {
    SIMD_JSON_COMPACT = 0,
    SIMD_JSON_PRETTY = 1 /* as any other number */
};

/* Prints the value at index `from` of the nodes of a document. A decimal is its literal, an integer its digits; in strings a quote,
 * a backslash and bytes below 0x20 are escaped.
 *
 * OK: *needed is the length of the text, which is at the front of out, without a terminator; nothing after it is written.
 * TOO_LITTLE_ROOM: *needed is the length that is needed, and out is unchanged. For compact text `text_len` bytes of out are always
 * enough: text_len is the length of the input.
 * NO_VALUE: `from` is not below nodes_len. OUT_OF_MEMORY: an allocation failed. After both *needed and out are unchanged.
 *
 * For nodes that are not those of a document, and for texts that have changed since the parse, the text is unspecified. */
int32_t simd_json_print(const simd_json_node *nodes, size_t nodes_len, const void *text, size_t text_len, size_t from,
                        uint32_t layout, void *out, size_t out_len, size_t *needed) SIMD_JSON_NONNULL(9);

/* Converts a number as it is written, such as the literal of a SIMD_JSON_DECIMAL, to the nearest double, in any locale, but only
 * in the default rounding mode (FE_TONEAREST):
 *
 *     double number;
 *     simd_json_double(text + node.value, node.len, &number);
 *
 * Of two that are equally near it is the one with the even significand; past the greatest it is infinite.
 * INVALID_NUMBER: the bytes are not exactly one number of a document; *number is unchanged. */
int32_t simd_json_double(const void *literal, size_t len, double *number) SIMD_JSON_NONNULL(3);

/* Converts an integer as it is written, such as the literal of a SIMD_JSON_I128 or a SIMD_JSON_U128: *low and *high are the lower
 * and the upper 64 bits of its 128, of a negative integer in two's complement:
 *
 *     uint64_t low, high;
 *     if (simd_json_integer(text + node.value, node.len, &low, &high) == SIMD_JSON_OK)
 *         number = (unsigned __int128)high << 64 | low;
 *
 * A literal that begins with `-` is from -2^127 to 0, any other from 0 to 2^128 - 1.
 * INVALID_NUMBER: the bytes are not exactly one integer of a document; *low and *high are unchanged. A number with a fraction or an
 * exponent is no integer, whatever its value. */
int32_t simd_json_integer(const void *literal, size_t len, uint64_t *low, uint64_t *high) SIMD_JSON_NONNULL(3, 4);

/* Writes the structural indexes of the input, in ascending order: the byte offset of the opening quote of each string and,
 * outside strings, of each structural character and of the first byte of each other token. Writes *place.
 *
 * Only size, encoding, and strings that have no end or contain a byte below 0x20 are checked: the only errors are those of the
 * whole input. Whether the tokens make a document is not checked.
 *
 * OK: *used is how many indexes there are; nothing after them is written.
 * TOO_LITTLE_ROOM: *used is how many there are, and indexes is unchanged. Room for `len` of them is always enough.
 * Any other status: *used and indexes are unchanged. */
int32_t simd_json_scan(const void *input, size_t len, uint32_t *indexes, size_t indexes_len, size_t *used,
                       simd_json_place *place) SIMD_JSON_NONNULL(5, 6);

/* A place in an input, for people: a byte offset, its line by line feeds and its column in characters, both from 1. Of an error
 * also its kind as people are shown it, which is TRAILING_DATA for more text after any document; of a node OK. */
typedef struct {
    size_t byte;
    size_t line;
    size_t column;
    int32_t status;
} simd_json_position;

/* Finds the position of an error, and its reason in words, as "a line feed in the string that begins at 1:7": `status` and `place`
 * are what a call has reported, `input` is the bytes as they were before it, and `first_line` the number of their first line: 1, or
 * that of a record in its file. Writes *position:
 *
 * - An error with a character is at its index; if more text follows the document, at the first byte of that text.
 * - An error of the whole input is at the first byte that begins no UTF-8 character, at the control byte in a string, at the
 *   opening quote of the string that has no end, at the end, or at the first byte too many.
 * - OUT_OF_MEMORY is at the first byte, with the reason `out of memory`.
 * - For a status that is not an error of an input it is zeros, and the reason is empty.
 *
 * OK: *needed is the length of the reason, which is at the front of out, without a terminator.
 * TOO_LITTLE_ROOM: *needed is the length that is needed, at most SIMD_JSON_REASON_MAX, and out is unchanged.
 * OUT_OF_MEMORY: *needed and out are unchanged. */
#define SIMD_JSON_REASON_MAX 128
int32_t simd_json_location(const void *input, size_t len, size_t first_line, int32_t status, const simd_json_place *place,
                           simd_json_position *position, void *out, size_t out_len, size_t *needed)
    SIMD_JSON_NONNULL(5, 6, 9);

/* Finds where a node of a document was written: the position of its first byte in the input. `input` is the bytes as they were
 * before the parse, and `node` the index of the node: of the first byte of a scalar, of the opening quote of a key or a string, or of
 * the opening bracket of a container.
 *
 *     fprintf(stderr, "line %zu, column %zu: expected a port\n", position.line, position.column);
 *
 * OK: *position is written. NO_VALUE: the input has not so many nodes. OUT_OF_MEMORY: an allocation failed. After both *position is
 * unchanged. For an input that is not a document the result is unspecified. */
int32_t simd_json_node_position(const void *input, size_t len, size_t node, simd_json_position *position) SIMD_JSON_NONNULL(4);

/* A parser that keeps its memory from one input to the next, which is faster for many small inputs:
 *
 *     simd_json_parser parser = {0};
 *     int status = simd_json_open(&parser, 1024);
 *     while (status == SIMD_JSON_OK && (input = next(&len)))
 *         status = simd_json_parser_check(&parser, input, len, &place);
 *     simd_json_close(&parser);
 *
 * A parser of zeros is closed. Leave its fields to the library: do not copy a parser that is open, and close one that you no
 * longer need. It may be moved, and used by several threads, one at a time. */
typedef struct {
    void *at;
    uint8_t is_open;
} simd_json_parser;

/* Opens a parser for inputs with at most max_depth open containers. A parser that is open is closed first. OUT_OF_MEMORY: its
 * one allocation failed, and it is closed. It returns no other error. */
int32_t simd_json_open(simd_json_parser *parser, size_t max_depth) SIMD_JSON_NONNULL(1);

/* Like simd_json_check, in memory that the parser keeps. The parser stays open after each status. OUT_OF_MEMORY: an allocation
 * failed; none is made if an earlier check with the parser needed as much. PARSER_CLOSED: only *place is written. */
int32_t simd_json_parser_check(simd_json_parser *parser, const void *input, size_t len, simd_json_place *place)
    SIMD_JSON_NONNULL(1, 4);

/* A document: its nodes, in preorder. They are the parser's: do not write to them, and use them only until the next call with
 * the parser, simd_json_close included. The texts of strings and literals are in the input, `text`, which must live and stay
 * unchanged as long as they are read. */
typedef struct {
    const simd_json_node *nodes;
    size_t nodes_len;
    const char *text;
    size_t text_len;
} simd_json_document;

/* Reads a document into nodes that the parser keeps, and writes where they are to *document. Writes *place. OVERWRITES the input:
 * each string is decoded where it is, and bytes outside of the nodes' texts are unspecified afterwards, and need not be UTF-8.
 *
 * A document has no more nodes than bytes. `text` is the input, and `text_len` its length. After each status but OK *document is
 * unchanged, and earlier nodes of the parser are no longer valid. The parser stays open after each status, and keeps what it has
 * allocated. PARSER_CLOSED: only *place is written. */
int32_t simd_json_parser_parse(simd_json_parser *parser, void *input, size_t len, simd_json_document *document,
                               simd_json_place *place) SIMD_JSON_NONNULL(1, 4, 5);

/* Prints the value that a JSON Pointer names in a document (simd_json_pointer), in the form of simd_json_print; the empty pointer
 * names the whole document. The whole input is read, and any error in it is reported. Writes *place. OVERWRITES the input.
 *
 * OK: *needed is the length of the text, which is at the front of out, without a terminator; nothing after it is written.
 * TOO_LITTLE_ROOM: *needed is the length that is needed, and out is unchanged; pass a fresh copy of the input with more. For
 * compact text `len` bytes of out are always enough.
 * Any other status: *needed and out are unchanged. The first that applies is returned: PARSER_CLOSED; INVALID_POINTER or NO_VALUE
 * for a pointer that is not UTF-8; the error of the input; INVALID_POINTER; NO_VALUE; OUT_OF_MEMORY, for the text, or for more
 * than 64 open containers. After the first two the input is unchanged. The parser stays open after each status, and allocates
 * nothing if what it keeps suffices. */
int32_t simd_json_parser_print(simd_json_parser *parser, void *input, size_t len, const void *pointer, size_t pointer_len,
                               uint32_t layout, void *out, size_t out_len, size_t *needed, simd_json_place *place)
    SIMD_JSON_NONNULL(1, 9, 10);

/* Values on demand: an input is kept, and values in it are found by JSON Pointers (simd_json_pointer), without nodes.
 *
 *     simd_json_found found;
 *     if (simd_json_parser_scan(&parser, line, len, &place) == SIMD_JSON_OK
 *         && simd_json_parser_pointer(&parser, "/user/id", 8, &found, out, sizeof out) == SIMD_JSON_OK)
 *         printf("%.*s\n", (int)found.len, out);
 *
 * Only what is on the way to a value is read: a value may also be found in an input that is not a document. A malformed word or
 * number is no value, nor is an array or an object without an end; a malformed string and any other array or object are found. */
typedef struct {
    uint32_t kind; /* as of a node */
    size_t len;    /* of the value as it is written */
} simd_json_found;

/* Keeps a copy of the input with its structural indexes, instead of the input that was kept before. Writes *place. The errors
 * are those of simd_json_scan, OUT_OF_MEMORY only if what the parser keeps is too small; after an error no input is kept. Of the
 * other calls only simd_json_close and simd_json_open discard it. */
int32_t simd_json_parser_scan(simd_json_parser *parser, const void *input, size_t len, simd_json_place *place)
    SIMD_JSON_NONNULL(1, 4);

/* Writes the value that a pointer names in the input that is kept, as it is written there: a string with quotes and escapes, an
 * array or an object with all that is in it. It can be passed on as an input, as to simd_json_parser_parse.
 *
 * OK: *found is its kind and its length, and it is at the front of out; nothing after it is written.
 * TOO_LITTLE_ROOM: *found is the same, and out is unchanged.
 * Any other status: *found and out are unchanged. The first that applies is returned: PARSER_CLOSED; INVALID_POINTER; NO_VALUE,
 * also if no input is kept. */
int32_t simd_json_parser_pointer(simd_json_parser *parser, const void *pointer, size_t pointer_len, simd_json_found *found,
                                 void *out, size_t out_len) SIMD_JSON_NONNULL(1, 4);

/* Several values of each of many inputs: a parser is given the JSON Pointers once, and finds what they name in one input after
 * another, in one walk along an object for all of its keys. Nothing is copied: what is found is where it is in the input.
 *
 *     simd_json_field fields[2];
 *     status = simd_json_parser_add(&parser, "/status", 7);
 *     if (status == SIMD_JSON_OK) status = simd_json_parser_add(&parser, "/request/path", 13);
 *     while (status == SIMD_JSON_OK && (line = next(&len))) {
 *         status = simd_json_parser_pointers(&parser, line, len, fields, 2, &place);
 *         if (status == SIMD_JSON_OK && fields[0].kind == SIMD_JSON_U64 && fields[1].kind == SIMD_JSON_STRING)
 *             printf("%llu %.*s\n", (unsigned long long)fields[0].value, (int)fields[1].len, line + fields[1].value);
 *     }
 *
 * The values are those that simd_json_parser_pointer finds, also in an input that is not a document. */
typedef struct {
    uint32_t kind;       /* as of a node, or SIMD_JSON_MISSING */
    uint32_t has_escape; /* 1 of a string that has an escape, else 0: the bytes between its quotes are the string */
    size_t len;          /* of the value as it is written, a string with its quotes; of the first four kinds 0 */
    uint64_t value;      /* where that begins in the input; of the first four kinds as of a node */
} simd_json_field;

#define SIMD_JSON_MISSING 10 /* the pointer leads nowhere, or to what is no value */

/* Adds a JSON Pointer (simd_json_pointer) to those that the parser finds the values of, and copies it.
 *
 * INVALID_POINTER: it is malformed, or not UTF-8. OUT_OF_MEMORY: an allocation failed. PARSER_CLOSED: the parser is not open. After
 * these nothing is added. Of the other calls only simd_json_close and simd_json_open discard pointers. */
int32_t simd_json_parser_add(simd_json_parser *parser, const void *pointer, size_t pointer_len) SIMD_JSON_NONNULL(1);

/* Finds the values that the parser's pointers name in an input: fields[0] is the value of the first that was added, and so on, of as
 * many as there are of both; other fields are unchanged. Writes *place. They are right as long as the input is unchanged. An input
 * that is kept (simd_json_parser_scan) stays.
 *
 * The errors are those of simd_json_scan, OUT_OF_MEMORY only if what the parser keeps is too small, and PARSER_CLOSED; after an error
 * fields are unchanged. */
int32_t simd_json_parser_pointers(simd_json_parser *parser, const void *input, size_t len, simd_json_field *fields,
                                  size_t fields_len, simd_json_place *place) SIMD_JSON_NONNULL(1, 6);

/* Frees what the parser keeps, and closes it. It may be opened again; closing a closed parser does nothing. */
void simd_json_close(simd_json_parser *parser) SIMD_JSON_NONNULL(1);

/* Returns the name of a status, as "InvalidNumber", or of a kind of node, as "Decimal"; "" for any other number. */
static inline const char *simd_json_status_text(int32_t status) {
    static const char *const texts[] = {
        "Ok", "OutOfMemory", "InputTooLarge", "InvalidUtf8", "Syntax", "Eof", "InternalError", "ExpectedArrayContent",
        "ExpectedObjectContent", "ExpectedObjectKey", "ExpectedObjectColon", "TrailingData", "DepthLimitExceeded", "ExpectedTrue",
        "ExpectedFalse", "ExpectedNull", "InvalidNumber", "InvalidEscape", "InvalidUnicodeCodepoint", "TooLittleRoom",
        "ParserClosed", "NoValue", "InvalidPointer"};
    return status >= 0 && status <= SIMD_JSON_INVALID_POINTER ? texts[status] : "";
}
static inline const char *simd_json_kind_text(uint32_t kind) {
    static const char *const texts[] = {"Null", "Bool", "I64", "U64", "I128", "U128", "Decimal", "String", "Array", "Object"};
    return kind <= SIMD_JSON_OBJECT ? texts[kind] : "";
}

/* Writes the same, without a terminator, to the front of out if it fits, for programs that do not include this header. Returns its
 * length, at most SIMD_JSON_NAME_MAX, or 0 for any other number. */
#define SIMD_JSON_NAME_MAX 23
size_t simd_json_status_name(int32_t status, void *out, size_t out_len);
size_t simd_json_kind_name(uint32_t kind, void *out, size_t out_len);

#ifdef __cplusplus
}
#endif

#endif
