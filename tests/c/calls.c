// What no row of tests/vectors asks: parsers that are opened and closed, doubles, names. Silent where all is well.
#include <math.h>
#include <simd_json.h>
#include <stdio.h>
#include <stdlib.h>
#include <string.h>

static int wrong;
#define WANT(condition, input)                                                                \
    do {                                                                                      \
        if (!(condition)) printf("calls.c:%d: `%s`: %s\n", __LINE__, input, #condition), wrong = 1; \
    } while (0)

static size_t fresh(char *copy, const char *input) { return strlen(strcpy(copy, input)); }

// The whole document, compact.
static int32_t print_all(simd_json_parser *parser, char *input, size_t len, char *out, size_t *needed, simd_json_place *place) {
    return simd_json_parser_print(parser, input, len, 0, 0, SIMD_JSON_COMPACT, out, 8, needed, place);
}

// Of a closed parser, by whatever pointer, nothing but the place is written.
static void closed(simd_json_parser *parser) {
    static const char *const pointers[] = {"", "/0", "/9", "\377"};
    char copy[] = "[1]", out[8] = "";
    simd_json_node node = {99, 99, 99};
    simd_json_document lent = {&node, 7, out, 7};
    simd_json_found found = {77, 77};
    simd_json_place place = {5, 5};
    size_t needed = 7;
    WANT(simd_json_parser_check(parser, copy, 3, &place) == SIMD_JSON_PARSER_CLOSED, "closed");
    WANT(place.index == 0 && place.character == SIMD_JSON_NO_CHARACTER, "closed");
    place = (simd_json_place){5, 5};
    WANT(simd_json_parser_parse(parser, copy, 3, &lent, &place) == SIMD_JSON_PARSER_CLOSED, "closed");
    WANT(place.index == 0 && place.character == SIMD_JSON_NO_CHARACTER, "closed");
    WANT(lent.nodes == &node && lent.nodes_len == 7 && lent.text == out && lent.text_len == 7, "closed");
    for (size_t i = 0; i < 2 * sizeof pointers / sizeof *pointers; i++) {
        const char *pointer = pointers[i / 2];
        place = (simd_json_place){5, 5};
        WANT(simd_json_parser_print(parser, copy, 3, pointer, strlen(pointer), i % 2, out, 8, &needed, &place) == SIMD_JSON_PARSER_CLOSED,
             pointer);
        WANT(place.index == 0 && place.character == SIMD_JSON_NO_CHARACTER, pointer);
        WANT(simd_json_parser_pointer(parser, pointer, strlen(pointer), &found, out, 8) == SIMD_JSON_PARSER_CLOSED, pointer);
    }
    WANT(needed == 7 && found.kind == 77 && found.len == 77 && strcmp(copy, "[1]") == 0 && *out == 0, "closed");
}

// Between documents that are longer and shorter, and rejected ones; and before it is opened and after it is closed.
static void parser_kept(void) {
    static const struct {
        const char *input, *compact;
        int status;
        size_t nodes_len;
    } rows[] = {
        {"[1,[2,3],4]", "[1,[2,3]", SIMD_JSON_OK, 6}, {"7", "7", SIMD_JSON_OK, 1}, {"[1,", 0, SIMD_JSON_SYNTAX, 77},
        {"{\"a\":[[]]}", 0, SIMD_JSON_DEPTH_LIMIT_EXCEEDED, 77}, {"[[[]]]", 0, SIMD_JSON_DEPTH_LIMIT_EXCEEDED, 77},
        {"\"\\u0041\"", "\"A\"", SIMD_JSON_OK, 1},
    };
    enum { ROWS = sizeof rows / sizeof *rows };
    char copy[64], out[8] = "";
    simd_json_document lent;
    simd_json_place place;
    simd_json_parser parser = {0};
    for (int opened = 0; opened < 3; opened++) {
        for (int closings = 0; closings < 3; closings++) {
            closed(&parser);
            simd_json_close(&parser);
        }
        WANT(simd_json_open(&parser, 2) == SIMD_JSON_OK, "opened");
        for (size_t i = 0; i < 2 * ROWS; i++) {
            const char *input = rows[i % ROWS].input, *compact = rows[i % ROWS].compact;
            int status = rows[i % ROWS].status, is_long = i % ROWS == 0;
            size_t needed = 77, len = strlen(input);
            WANT(simd_json_parser_check(&parser, input, len, &place) == status, input);
            int printed = print_all(&parser, copy, fresh(copy, input), out, &needed, &place);
            WANT(printed == (is_long ? SIMD_JSON_TOO_LITTLE_ROOM : status), input);
            WANT(needed == (!compact ? 77 : is_long ? len : strlen(compact)), input);
            WANT(!compact || is_long || memcmp(out, compact, needed) == 0, input);
            lent.nodes_len = 77;
            WANT(simd_json_parser_parse(&parser, copy, fresh(copy, input), &lent, &place) == status, input);
            WANT(lent.nodes_len == rows[i % ROWS].nodes_len, input);
        }
        WANT(lent.nodes[0].kind == SIMD_JSON_STRING && lent.nodes[0].len == 1 && lent.text[lent.nodes[0].value] == 'A', "the last");
        simd_json_close(&parser);
    }
}

// A check leaves its input as it is: string literals, of documents and of inputs that are none.
static void literals_checked(void) {
    static const struct {
        const char *input;
        int status;
        size_t index;
    } rows[] = {
        {"[\"a\\nb\"]", SIMD_JSON_OK, 0}, {"\"\\u0041\\\\\"", SIMD_JSON_OK, 0}, {"{\"\\u00e9\":[[]]}", SIMD_JSON_OK, 0},
        {"[[[[1]]]]", SIMD_JSON_DEPTH_LIMIT_EXCEEDED, 3}, {"[\"a\\nb\",]", SIMD_JSON_INTERNAL_ERROR, 8},
        {"[\"\\n\\x\"]", SIMD_JSON_INVALID_ESCAPE, 4}, {"[\"\\n\",01]", SIMD_JSON_INVALID_NUMBER, 7}, {"\"\\n", SIMD_JSON_SYNTAX, 0},
        {"\"\\n\377\"", SIMD_JSON_INVALID_UTF8, 0}, {"", SIMD_JSON_EOF, 0},
    };
    simd_json_parser parser = {0};
    WANT(simd_json_open(&parser, 3) == SIMD_JSON_OK, "opened");
    for (size_t i = 0; i < sizeof rows / sizeof *rows; i++) {
        const char *input = rows[i].input;
        simd_json_place place = {5, 5}, again = {5, 5};
        WANT(simd_json_check(input, strlen(input), 3, &place) == rows[i].status && place.index == rows[i].index, input);
        WANT(simd_json_parser_check(&parser, input, strlen(input), &again) == rows[i].status, input);
        WANT(again.index == place.index && again.character == place.character, input);
    }
    simd_json_close(&parser);
}

// Where more text follows a document its position is the first byte of this text, with one kind, and the error stays at the
// document's end, or at a root scalar; worked by hand.
static void more_text_located(void) {
    static const struct {
        const char *input;
        int status;
        size_t index, byte, line, column;
    } rows[] = {
        {"[1]\n[2]", SIMD_JSON_INTERNAL_ERROR, 2, 4, 2, 1}, {" 4 5", SIMD_JSON_TRAILING_DATA, 1, 3, 1, 4},
        {"{\"\303\251\":1} \n\n \"x\"", SIMD_JSON_INTERNAL_ERROR, 7, 12, 3, 2}, {"\"\303\251\" ,", SIMD_JSON_TRAILING_DATA, 0, 5, 1, 5},
        {"[]]", SIMD_JSON_INTERNAL_ERROR, 1, 2, 1, 3},
    };
    for (size_t i = 0; i < sizeof rows / sizeof *rows; i++) {
        const char *input = rows[i].input;
        char words[SIMD_JSON_REASON_MAX];
        size_t needed, len = strlen(input);
        simd_json_place place;
        simd_json_position at = {7, 7, 7, 7};
        WANT(simd_json_check(input, len, 8, &place) == rows[i].status && place.index == rows[i].index, input);
        WANT(simd_json_location(input, len, 1, rows[i].status, &place, &at, words, sizeof words, &needed) == SIMD_JSON_OK, input);
        WANT(at.byte == rows[i].byte && at.line == rows[i].line && at.column == rows[i].column, input);
        WANT(at.status == SIMD_JSON_TRAILING_DATA, input);
    }
}

// What is open at the place of an error, in a record that begins in line 7 of its file; worked by hand.
static void openings_located(void) {
    static const struct {
        const char *input, *reason;
        size_t line, column;
    } rows[] = {
        {"{\"a\": \"b,\n \"c\": 1}", "a line feed in the string that begins at 7:7", 7, 10},
        {"[\n\t\"\303\251\\\"\t\"]", "a tab in the string that begins at 8:2", 8, 6},
        {"[\"}\",\n {\"\303\251\":[]}, {\"]\": 1", "the input ends after this, within the object that begins at 8:12", 8, 18},
        {"[[],", "the input ends after this, within the array that begins at 7:1", 7, 4},
    };
    for (size_t i = 0; i < sizeof rows / sizeof *rows; i++) {
        const char *input = rows[i].input;
        char words[SIMD_JSON_REASON_MAX];
        size_t needed, len = strlen(input);
        simd_json_place place;
        simd_json_position at;
        WANT(simd_json_check(input, len, 8, &place) == SIMD_JSON_SYNTAX, input);
        WANT(simd_json_location(input, len, 7, SIMD_JSON_SYNTAX, &place, &at, words, sizeof words, &needed) == SIMD_JSON_OK, input);
        WANT(at.line == rows[i].line && at.column == rows[i].column && at.status == SIMD_JSON_SYNTAX, input);
        WANT(needed == strlen(rows[i].reason) && memcmp(words, rows[i].reason, needed) == 0, input);
    }
}

static void kinds_named(void) {
    static const char *const names[] = {"Null", "Bool", "I64", "U64", "I128", "U128", "Decimal", "String", "Array", "Object", ""};
    char out[32];
    for (uint32_t kind = 0; kind < 11; kind++) {
        size_t len = simd_json_kind_name(kind, out, sizeof out);
        WANT(len == strlen(names[kind]) && memcmp(out, names[kind], len) == 0, names[kind]);
    }
    WANT(simd_json_kind_name(UINT32_MAX, out, sizeof out) == 0, "the greatest kind");
    WANT(simd_json_status_name(0, out, sizeof out) == 2 && memcmp(out, "Ok", 2) == 0, "status 0");
    WANT(simd_json_status_name(1, out, sizeof out) == 11 && memcmp(out, "OutOfMemory", 11) == 0, "status 1");
    WANT(simd_json_status_name(2, out, sizeof out) == 13 && memcmp(out, "InputTooLarge", 13) == 0, "status 2");
    WANT(simd_json_status_name(19, out, sizeof out) == 13 && memcmp(out, "TooLittleRoom", 13) == 0, "status 19");
    WANT(simd_json_status_name(20, out, sizeof out) == 12 && memcmp(out, "ParserClosed", 12) == 0, "status 20");
    WANT(simd_json_status_name(21, out, sizeof out) == 7 && memcmp(out, "NoValue", 7) == 0, "status 21");
    WANT(simd_json_status_name(22, out, sizeof out) == 14 && memcmp(out, "InvalidPointer", 14) == 0, "status 22");
    WANT(simd_json_status_name(23, out, sizeof out) == 0 && simd_json_status_name(-1, out, sizeof out) == 0, "no status");
}

// The header's texts are the library's names.
static void texts_are_names(void) {
    static const int32_t others[] = {INT32_MIN, -2, -1, 23, 24, 99, INT32_MAX};
    char out[SIMD_JSON_NAME_MAX];
    for (int32_t i = 0; i < 23 + 7; i++) {
        int32_t number = i < 23 ? i : others[i - 23];
        const char *status = simd_json_status_text(number), *kind = simd_json_kind_text((uint32_t)number);
        size_t len = simd_json_status_name(number, out, sizeof out);
        WANT(strlen(status) == len && memcmp(status, out, len) == 0 && (len == 0) == (i >= 23), status);
        len = simd_json_kind_name((uint32_t)number, out, sizeof out);
        WANT(strlen(kind) == len && memcmp(kind, out, len) == 0 && (len == 0) == (i >= 10), kind);
    }
}

// Numbers as they are written: the compiler rounds the same ones for itself, and strtod random ones. Those that a document can't
// hold are rejected.
static void doubles(void) {
    static const struct {
        const char *literal;
        double number;
    } rows[] = {
        {"0", 0}, {"-0", -0.0}, {"-0.0", -0.0}, {"1", 1}, {"-1.5E+2", -150}, {"0.1", 0.1}, {"1e23", 1e23},
        {"9007199254740993", 0x1p53}, {"9007199254740995", 0x1.0000000000002p53}, {"9007199254740993.00000000000000000001", 0x1.0000000000001p53},
        {"1.7976931348623157e308", 0x1.fffffffffffffp1023}, {"1.7976931348623159e308", INFINITY}, {"-1e400", -INFINITY},
        {"2.2250738585072011e-308", 0x0.fffffffffffffp-1022}, {"5e-324", 0x1p-1074}, {"2e-324", 0}, {"-2e-324", -0.0},
        {"340282366920938463463374607431768211455", 0x1p128}, {"-170141183460469231731687303715884105728", -0x1p127},
        {"1234567.1234567890123456", 1234567.1234567890123456}, {"0.5", 0.5}, {"-7.25", -7.25}, {"12345678.5", 12345678.5},
        {"-65.61361699999997", -65.61361699999997}, {"0.0000000000000001", 1e-16}, {"9999999.999999999999", 9999999.999999999999},
        {"0.12345678", 0.12345678}, {"0.1234567", 0.1234567}, {"0.12345678901234567", 0.12345678901234567}};
    static const char *const others[] = {"", "-", "1.", ".5", "01", "-01", "01.5", "00.5", "-.5", "1.5 ", "1.234567x", "1.2345678x", "123456.x",
                                         "1.x2345678", "1.12345678x", "1.1234567.", "1.1234567:", "1./2345678", "1.12345678/2345678", "+1", "1e", "1e+", "1 ", " 1", "1,", "1]", "0x10", "inf",
                                         "-inf", "nan", "NaN", "Infinity", "--1", "1.5.2", "1e5x", "1_0", "true", "\"1\"",
                                         "340282366920938463463374607431768211456"};
    double number;
    for (size_t i = 0; i < sizeof rows / sizeof *rows; i++) {
        WANT(simd_json_double(rows[i].literal, strlen(rows[i].literal), &number) == SIMD_JSON_OK, rows[i].literal);
        WANT(memcmp(&number, &rows[i].number, sizeof number) == 0, rows[i].literal);
    }
    for (size_t i = 0; i < sizeof others / sizeof *others; i++) {
        number = 7.5;
        WANT(simd_json_double(others[i], strlen(others[i]), &number) == SIMD_JSON_INVALID_NUMBER, others[i]);
        WANT(number == 7.5, others[i]);
    }
    uint64_t random = 1;
    char literal[64];
    for (int i = 0; i < 100000; i++) {
        random = random * UINT64_C(6364136223846793005) + 1442695040888963407;
        int power = (int)(random >> 33) % 330, digits = (int)(random >> 50) % 20;
        sprintf(literal, "%s%llu.%0*llue%d", i % 2 ? "-" : "", (unsigned long long)(random >> (random >> 58)), digits + 1,
                (unsigned long long)(random % 1000), i % 3 ? power : -power);
        double nearest = strtod(literal, NULL);
        WANT(simd_json_double(literal, strlen(literal), &number) == SIMD_JSON_OK, literal);
        WANT(memcmp(&number, &nearest, sizeof number) == 0, literal);
        int places = 1 + (int)(random >> 40) % 18;
        sprintf(literal, "%s%llu.%0*llu", i % 2 ? "-" : "", (unsigned long long)(random >> (38 + i % 26)), places,
                (unsigned long long)(random % UINT64_C(1000000000000000000)) >> (i % 60));
        nearest = strtod(literal, NULL);
        WANT(simd_json_double(literal, strlen(literal), &number) == SIMD_JSON_OK, literal);
        WANT(memcmp(&number, &nearest, sizeof number) == 0, literal);
    }
}

// Lists that grow far past what is reserved keep what they hold.
static void grown(void) {
    enum { COUNT = 1000000 };
    static char input[2 * COUNT + 2];
    size_t len = 1;
    input[0] = '[';
    for (unsigned i = 0; i < COUNT; i++) len += (size_t)sprintf(input + len, "%u,", i % 10);
    input[len - 1] = ']';
    simd_json_parser parser = {0};
    simd_json_document lent;
    simd_json_place place;
    WANT(simd_json_open(&parser, 1) == SIMD_JSON_OK, "a million");
    WANT(simd_json_parser_parse(&parser, input, len, &lent, &place) == SIMD_JSON_OK && lent.nodes_len == COUNT + 1, "a million");
    for (size_t i = 0; i < COUNT; i++)
        if (lent.nodes[i + 1].kind != SIMD_JSON_U64 || lent.nodes[i + 1].value != i % 10) WANT(0, "a million");
    simd_json_close(&parser);
}

// The next sibling of each node of a document, and its members by the loops of the header; by hand.
static void siblings(void) {
    static const size_t next[] = {10, 2, 8, 4, 7, 6, 7, 8, 9, 10};
    char copy[64];
    simd_json_document lent;
    simd_json_place place;
    simd_json_parser parser = {0};
    WANT(simd_json_open(&parser, 4) == SIMD_JSON_OK, "siblings");
    size_t len = fresh(copy, "{\"a\":[1,[2,[]],{}],\"b\":\"x\"}");
    WANT(simd_json_parser_parse(&parser, copy, len, &lent, &place) == SIMD_JSON_OK && lent.nodes_len == 10, "siblings");
    const simd_json_node *nodes = lent.nodes;
    for (size_t i = 0; i < 10; i++) WANT(simd_json_next(nodes, i) == next[i], "siblings");
    size_t at = 3, elements[] = {3, 4, 7}, keys[] = {1, 8};
    for (size_t n = 0; n < nodes[2].len; n++, at = simd_json_next(nodes, at)) WANT(n < 3 && at == elements[n], "elements");
    WANT(at == 8, "elements");
    at = 1;
    for (size_t n = 0; n < nodes[0].len; n++, at = simd_json_next(nodes, at + 1)) WANT(n < 2 && at == keys[n], "keys");
    WANT(at == 10, "keys");
    simd_json_close(&parser);
}

// Of equal values the one that the pointer names; by hand.
static void equals_told_apart(void) {
    static const char document[] = "[1,1,[1,1],{\"a\":1,\"a\":1,\"b\":1}]";
    static const struct {
        const char *pointer;
        size_t from, at;
    } rows[] = {{"", 0, 0}, {"/0", 0, 1}, {"/1", 0, 2}, {"/2", 0, 3}, {"/2/0", 0, 4}, {"/2/1", 0, 5}, {"/3", 0, 6}, {"/3/a", 0, 8},
                {"/3/b", 0, 12}, {"", 2, 2}, {"/1", 3, 5}, {"/a", 6, 8}, {"/b", 6, 12}, {"/2", 3, SIMD_JSON_NO_NODE}};
    char copy[64];
    simd_json_document lent;
    simd_json_place place;
    simd_json_parser parser = {0};
    WANT(simd_json_open(&parser, 4) == SIMD_JSON_OK, "opened");
    WANT(simd_json_parser_parse(&parser, copy, fresh(copy, document), &lent, &place) == SIMD_JSON_OK && lent.nodes_len == 13, document);
    for (size_t i = 0; i < sizeof rows / sizeof *rows; i++) {
        const char *pointer = rows[i].pointer;
        size_t at = simd_json_pointer(lent.nodes, lent.nodes_len, lent.text, lent.text_len, rows[i].from, pointer, strlen(pointer));
        WANT(at == rows[i].at, pointer);
    }
    simd_json_close(&parser);
}

// Keys without escapes, of equal ones the first; by hand.
static void keys_found(void) {
    static const char document[] = "{\"a/b\":[{\"a\":0}],\"a~1b\":2,\"~\":3,\"\":4,\"a\":5,\"a\":6,\"\\u00e9\\u0000\":7}";
    static const struct {
        const char *key;
        size_t len, object, at;
    } rows[] = {{"a/b", 3, 0, 2},
                {"a~1b", 4, 0, 7},
                {"~", 1, 0, 9},
                {"~0", 2, 0, SIMD_JSON_NO_NODE},
                {0, 0, 0, 11},
                {"a", 1, 0, 13},
                {"\303\251\0", 3, 0, 17},
                {"\303\251", 2, 0, SIMD_JSON_NO_NODE},
                {"a", 1, 3, 5},
                {"0", 1, 2, SIMD_JSON_NO_NODE},
                {"a", 1, 2, SIMD_JSON_NO_NODE},
                {"a", 1, 12, SIMD_JSON_NO_NODE},
                {"a", 1, 18, SIMD_JSON_NO_NODE},
                {"a", 1, SIZE_MAX, SIMD_JSON_NO_NODE}};
    char copy[sizeof document];
    simd_json_document lent;
    simd_json_place place;
    simd_json_parser parser = {0};
    WANT(simd_json_open(&parser, 4) == SIMD_JSON_OK, "opened");
    WANT(simd_json_parser_parse(&parser, copy, fresh(copy, document), &lent, &place) == SIMD_JSON_OK && lent.nodes_len == 18, document);
    for (size_t i = 0; i < sizeof rows / sizeof *rows; i++) {
        size_t at = simd_json_get(lent.nodes, lent.nodes_len, lent.text, lent.text_len, rows[i].object, rows[i].key, rows[i].len);
        WANT(at == rows[i].at, rows[i].key);
    }
    simd_json_close(&parser);
}

// The longest reason here has 82 bytes, where a container begins in the last line of 20 digits: each status, with each byte where an error is, alone and behind others.
static void reasons_fit(void) {
    static const char *const before[] = {"", "[", "[1", "{", "{\"a\"", "{\"a\":1", "{\"a\":1,", "\"\\", "[12", "\"\\u"};
    char input[16], words[SIMD_JSON_REASON_MAX];
    size_t longest = 0;
    for (int status = 0; status < 24; status++)
        for (int c = 0; c < 256; c++)
            for (size_t i = 0; i < 4 * sizeof before / sizeof *before; i++) {
                size_t len = fresh(input, before[i / 4]), needed = 77;
                input[len] = (char)c;
                const simd_json_place places[] = {
                    {0, SIMD_JSON_NO_CHARACTER}, {0, (unsigned char)*input}, {len, (uint32_t)c}, {len - (len > 0), (uint32_t)c}};
                simd_json_position at;
                WANT(simd_json_location(input, len + 1, SIZE_MAX, status, &places[i % 4], &at, words, sizeof words, &needed) == SIMD_JSON_OK, "fits");
                WANT(needed <= SIMD_JSON_REASON_MAX, "fits");
                if (needed > longest) longest = needed;
            }
    WANT(longest == 82, "fits");
}

// For each limit; and a document with two open containers is then one, or too deep.
static void opened_within_each_limit(void) {
    static const size_t limits[] = {0, 1, 2, 3, 64, 65, 1024, 1000000, 1000001, UINT32_MAX, SIZE_MAX / 2, SIZE_MAX};
    simd_json_place place;
    simd_json_parser parser = {0};
    for (size_t i = 0; i < sizeof limits / sizeof *limits; i++) {
        WANT(simd_json_open(&parser, limits[i]) == SIMD_JSON_OK, "opened");
        int status = limits[i] < 2 ? SIMD_JSON_DEPTH_LIMIT_EXCEEDED : SIMD_JSON_OK;
        WANT(simd_json_parser_check(&parser, "[[]]", 4, &place) == status, "[[]]");
    }
    simd_json_close(&parser);
}

// A value within a document, by pointers that lead to one and that do not. An error before or behind it is reported, and is
// before a pointer that names no value, but behind one that is not UTF-8: then the input is not read.
static void values_printed(void) {
    static const struct {
        const char *input, *pointer, *compact, *pretty;
        int status;
    } rows[] = {
        {"{\"a\": [1, {\"b\": [ ]}], \"c\": 2.50}", "/a/1", "{\"b\":[]}", "{\n  \"b\": []\n}", SIMD_JSON_OK},
        {"{\"a\": [1, {\"b\": [ ]}], \"c\": 2.50}", "/c", "2.50", "2.50", SIMD_JSON_OK},
        {" [ 7 ] ", "", "[7]", "[\n  7\n]", SIMD_JSON_OK},
        {"{\"\\u00e9/~\": \"\\n\"}", "/\303\251~1~0", "\"\\n\"", "\"\\n\"", SIMD_JSON_OK},
        {"[7]", "/1", 0, 0, SIMD_JSON_NO_VALUE},
        {"[7]", "0", 0, 0, SIMD_JSON_INVALID_POINTER},
        {"{\"a\":7}", "/a/~2", 0, 0, SIMD_JSON_INVALID_POINTER},
        {"{\"a\":7}", "/~", 0, 0, SIMD_JSON_INVALID_POINTER},
        {"{\"a\":7}", "/\377", 0, 0, SIMD_JSON_NO_VALUE},
        {"[7,]", "/0", 0, 0, SIMD_JSON_INTERNAL_ERROR},
        {"[7,]", "0", 0, 0, SIMD_JSON_INTERNAL_ERROR},
        {"[7,]", "\377", 0, 0, SIMD_JSON_INVALID_POINTER},
        {"[7,]", "/9", 0, 0, SIMD_JSON_INTERNAL_ERROR},
        {"[7,]", "/\377", 0, 0, SIMD_JSON_NO_VALUE},
        {"[\"\\u0041\"]", "/\377", 0, 0, SIMD_JSON_NO_VALUE},
    };
    static const uint32_t layouts[] = {SIMD_JSON_COMPACT, SIMD_JSON_PRETTY, 2, UINT32_MAX};
    enum { LAYOUTS = sizeof layouts / sizeof *layouts };
    char copy[64], out[64];
    simd_json_parser parser = {0};
    WANT(simd_json_open(&parser, 8) == SIMD_JSON_OK, "opened");
    for (size_t i = 0; i < LAYOUTS * sizeof rows / sizeof *rows; i++) {
        const char *input = rows[i / LAYOUTS].input, *pointer = rows[i / LAYOUTS].pointer;
        const char *wanted = i % LAYOUTS ? rows[i / LAYOUTS].pretty : rows[i / LAYOUTS].compact;
        size_t needed = 77, len = fresh(copy, input);
        simd_json_place place = {5, 5};
        memset(out, 'x', sizeof out);
        uint32_t layout = layouts[i % LAYOUTS];
        int status = simd_json_parser_print(&parser, copy, len, pointer, strlen(pointer), layout, out, sizeof out, &needed, &place);
        WANT(status == rows[i / LAYOUTS].status, pointer);
        WANT(wanted ? needed == strlen(wanted) && memcmp(out, wanted, needed) == 0 : needed == 77, pointer);
        WANT(wanted || out[0] == 'x', pointer);
        WANT(place.index == (status == SIMD_JSON_INTERNAL_ERROR ? 3 : 0), pointer);
        WANT((place.character == SIMD_JSON_NO_CHARACTER) == (status != SIMD_JSON_INTERNAL_ERROR), pointer);
        WANT(strchr(pointer, '\377') == 0 || strcmp(copy, input) == 0, pointer);
        if (!wanted) continue;
        for (size_t room = 0; room < strlen(wanted); room++) {
            needed = 77;
            len = fresh(copy, input);
            memset(out, 'x', sizeof out);
            status = simd_json_parser_print(&parser, copy, len, pointer, strlen(pointer), layout, out, room, &needed, &place);
            WANT(status == SIMD_JSON_TOO_LITTLE_ROOM && needed == strlen(wanted) && out[0] == 'x', pointer);
        }
    }
    simd_json_close(&parser);
}

// What is lent stays until the next call, and its texts in the input; after an error the last loan is not given again.
static void tapes_lent(void) {
    char copy[64];
    simd_json_document lent = {0};
    simd_json_place place;
    simd_json_parser parser = {0};
    WANT(simd_json_open(&parser, 8) == SIMD_JSON_OK, "opened");
    for (int round = 0; round < 3; round++) {
        size_t len = fresh(copy, "{\"the_answer\": [\"x\", 42]}");
        WANT(simd_json_parser_parse(&parser, copy, len, &lent, &place) == SIMD_JSON_OK, "lent");
        size_t at = simd_json_pointer(lent.nodes, lent.nodes_len, lent.text, lent.text_len, 0, "/the_answer/1", 13);
        WANT(lent.nodes_len == 5 && at == 4 && lent.nodes[at].kind == SIMD_JSON_U64 && lent.nodes[at].value == 42, "lent");
        WANT(lent.text == copy && lent.text_len == len && lent.nodes[1].value == 2 && lent.nodes[3].value == 17, "lent");
        WANT(memcmp(copy + 2, "the_answer", 10) == 0 && copy[17] == 'x', "lent");
        simd_json_document before = lent;
        len = fresh(copy, "[[1,2],3");
        WANT(simd_json_parser_parse(&parser, copy, len, &lent, &place) == SIMD_JSON_SYNTAX && place.index == 7, "lent");
        WANT(memcmp(&before, &lent, sizeof lent) == 0, "lent");
        WANT(simd_json_parser_parse(&parser, copy, fresh(copy, "7"), &lent, &place) == SIMD_JSON_OK, "lent");
        WANT(lent.nodes_len == 1 && lent.text_len == 1 && lent.nodes[0].kind == SIMD_JSON_U64 && lent.nodes[0].value == 7, "lent");
    }
    simd_json_close(&parser);
}

// Which pointers are malformed (RFC 6901, section 3), whatever they would lead to, and that they lead nowhere; by hand.
static void pointers_malformed(void) {
    static const struct {
        const char *pointer;
        bool is_formed;
    } rows[] = {{"", true}, {"/", true}, {"//", true}, {"/~0", true}, {"/~1", true}, {"/~01", true}, {"/~0~1/~1~0", true},
                {"/\377", true}, {"/a b\n", true}, {"0", false}, {"a", false}, {"~0", false}, {" /", false}, {"#/a", false},
                {"$.a", false}, {"/~", false}, {"/a~", false}, {"/~2", false}, {"/~/0", false}, {"/~~0", false}, {"/0/~", false},
                {"/a/b/~a", false}, {"/~a/a", false}, {"/9~", false}, {"/\377/~", false}, {"~", false}, {"/~1~", false}};
    char copy[32], out[32];
    simd_json_document d;
    simd_json_place place;
    simd_json_parser parser = {0};
    WANT(simd_json_open(&parser, 8) == SIMD_JSON_OK, "opened");
    for (size_t i = 0; i < 3 * sizeof rows / sizeof *rows; i++) {
        static const char *const documents[] = {"[[3]]", "{\"b\":7}", "7"};
        const char *input = documents[i % 3], *pointer = rows[i / 3].pointer;
        size_t pointer_len = strlen(pointer), needed = 77, len = fresh(copy, input);
        simd_json_found found = {77, 77};
        int32_t why = rows[i / 3].is_formed ? SIMD_JSON_NO_VALUE : SIMD_JSON_INVALID_POINTER;
        WANT(simd_json_is_pointer(pointer, pointer_len) == rows[i / 3].is_formed, pointer);
        if (pointer_len == 0) continue;
        WANT(simd_json_parser_scan(&parser, input, len, &place) == SIMD_JSON_OK, input);
        WANT(simd_json_parser_pointer(&parser, pointer, pointer_len, &found, out, sizeof out) == why, pointer);
        WANT(found.kind == 77 && found.len == 77, pointer);
        WANT(simd_json_parser_print(&parser, copy, len, pointer, pointer_len, 0, out, sizeof out, &needed, &place) == why, pointer);
        WANT(needed == 77, pointer);
        WANT(simd_json_parser_parse(&parser, copy, fresh(copy, input), &d, &place) == SIMD_JSON_OK, input);
        WANT(simd_json_pointer(d.nodes, d.nodes_len, d.text, d.text_len, 0, pointer, pointer_len) == SIMD_JSON_NO_NODE, pointer);
        WANT(simd_json_parser_scan(&parser, "\"", 1, &place) == SIMD_JSON_SYNTAX, "nothing kept");
        WANT(simd_json_parser_pointer(&parser, pointer, pointer_len, &found, out, sizeof out) == why, pointer);
    }
    WANT(simd_json_is_pointer(0, 0) && !simd_json_is_pointer("/~\0", 3) && simd_json_is_pointer("\0" + 1, 0), "empty");
    simd_json_close(&parser);
}

// Values as they are written, of documents and of inputs that are none, by pointers that lead to one and that do not.
static void values_found(void) {
    static const struct {
        const char *input, *pointer, *written;
        uint32_t kind;
    } rows[] = {
        {"{\"a\": [1, {\"b\": [ ]}], \"c\": 2.50}", "/a/1", "{\"b\": [ ]}", SIMD_JSON_OBJECT},
        {"{\"a\": [1, {\"b\": [ ]}], \"c\": 2.50}", "/a", "[1, {\"b\": [ ]}]", SIMD_JSON_ARRAY},
        {"{\"a\": [1, {\"b\": [ ]}], \"c\": 2.50}", "/c", "2.50", SIMD_JSON_DECIMAL},
        {"{\"\\u00e9/~\": \"\\n\"}", "/\303\251~1~0", "\"\\n\"", SIMD_JSON_STRING},
        {" true ", "", "true", SIMD_JSON_BOOL},
        {"[null]", "/0", "null", SIMD_JSON_NULL},
        {"[-7, 7, -9223372036854775809, 18446744073709551616]", "/0", "-7", SIMD_JSON_I64},
        {"[-7, 7, -9223372036854775809, 18446744073709551616]", "/1", "7", SIMD_JSON_U64},
        {"[-7, 7, -9223372036854775809, 18446744073709551616]", "/2", "-9223372036854775809", SIMD_JSON_I128},
        {"[-7, 7, -9223372036854775809, 18446744073709551616]", "/3", "18446744073709551616", SIMD_JSON_U128},
        {"[\"\\u0041\", \"A\"]", "/0", "\"\\u0041\"", SIMD_JSON_STRING},
        {"[\"\\u0041\", \"A\"]", "/1", "\"A\"", SIMD_JSON_STRING},
        {"[[1, 2],[1,2]]", "/0", "[1, 2]", SIMD_JSON_ARRAY},
        {"[[1, 2],[1,2]]", "/1", "[1,2]", SIMD_JSON_ARRAY},
        {"[7]", "/1", 0, 0},
        {"{\"a\":7}", "/\377", 0, 0},
        {"[7,]", "/0", "7", SIMD_JSON_U64},
        {"[7,]", "/1", 0, 0},
        {"[[1", "/0", 0, 0},
        {"[[1}", "/0", "[1}", SIMD_JSON_ARRAY}, // brackets are counted
        {"[1x]", "/0", 0, 0},
    };
    char copy[64], out[64];
    simd_json_parser parser = {0};
    WANT(simd_json_open(&parser, 0) == SIMD_JSON_OK, "opened");
    for (size_t i = 0; i < sizeof rows / sizeof *rows; i++) {
        const char *pointer = rows[i].pointer, *wanted = rows[i].written;
        simd_json_found found = {77, 77};
        simd_json_place place = {5, 5};
        size_t len = fresh(copy, rows[i].input);
        WANT(simd_json_parser_scan(&parser, copy, len, &place) == SIMD_JSON_OK, rows[i].input);
        WANT(place.index == 0 && place.character == SIMD_JSON_NO_CHARACTER && strcmp(copy, rows[i].input) == 0, rows[i].input);
        memset(copy, 0, sizeof copy);
        int status = simd_json_parser_pointer(&parser, pointer, strlen(pointer), &found, out, sizeof out);
        WANT(status == (wanted ? SIMD_JSON_OK : SIMD_JSON_NO_VALUE), rows[i].input);
        WANT(wanted ? found.kind == rows[i].kind && found.len == strlen(wanted) && memcmp(out, wanted, found.len) == 0
                    : found.kind == 77 && found.len == 77,
             rows[i].input);
    }
    simd_json_close(&parser);
}

// Values of more pointers than are looked up in one walk, of documents and of inputs that are none.
static void fields_found(void) {
    static const char input[] = "{\"a\":{\"b\":[1,-7]},\"s\":\"x\\\"y\",\"t\":\"plain\",\"f\":2.50,\"n\":null,\"y\":true,"
                                "\"w\":18446744073709551616,\"\\u0061\":3,\"z/\":4,\"o\":false,\"v\":1x}";
    static const struct {
        const char *pointer;
        uint32_t kind, has_escape;
        uint64_t value;      // of a value that is written nowhere else
        const char *written; // or as it is written
    } rows[] = {
        {"/a/b", SIMD_JSON_ARRAY, 0, 0, "[1,-7]"},
        {"/a/b/1", SIMD_JSON_I64, 0, (uint64_t)-7, 0},
        {"/s", SIMD_JSON_STRING, 1, 0, "\"x\\\"y\""},
        {"/t", SIMD_JSON_STRING, 0, 0, "\"plain\""},
        {"/f", SIMD_JSON_DECIMAL, 0, 0, "2.50"},
        {"/n", SIMD_JSON_NULL, 0, 0, 0},
        {"/y", SIMD_JSON_BOOL, 0, 1, 0},
        {"/o", SIMD_JSON_BOOL, 0, 0, 0},
        {"/w", SIMD_JSON_U128, 0, 0, "18446744073709551616"},
        {"/a", SIMD_JSON_OBJECT, 0, 0, "{\"b\":[1,-7]}"},
        {"/z~1", SIMD_JSON_U64, 0, 4, 0},
        {"/q", SIMD_JSON_MISSING, 0, 0, 0},
        {"", SIMD_JSON_OBJECT, 0, 0, input},
        {"/a/c", SIMD_JSON_MISSING, 0, 0, 0},
        {"/v", SIMD_JSON_MISSING, 0, 0, 0},
        {"/a", SIMD_JSON_OBJECT, 0, 0, "{\"b\":[1,-7]}"},
        {"/y/0", SIMD_JSON_MISSING, 0, 0, 0},
    };
    enum { ROWS = sizeof rows / sizeof *rows };
    simd_json_field fields[ROWS + 2];
    simd_json_found found = {77, 77};
    simd_json_place place = {5, 5};
    char out[8];
    simd_json_parser parser = {0};
    WANT(simd_json_parser_add(&parser, "/a", 2) == SIMD_JSON_PARSER_CLOSED, "closed");
    memset(fields, 77, sizeof fields);
    WANT(simd_json_parser_pointers(&parser, input, 1, fields, 1, &place) == SIMD_JSON_PARSER_CLOSED, "closed");
    WANT(fields[0].len == fields[ROWS].len && place.index == 0 && place.character == SIMD_JSON_NO_CHARACTER, "closed");
    WANT(simd_json_open(&parser, 8) == SIMD_JSON_OK, "opened");
    WANT(simd_json_parser_pointers(&parser, "7", 1, fields, 1, &place) == SIMD_JSON_OK, "no pointer");
    WANT(fields[0].len == fields[ROWS].len, "no pointer");
    WANT(simd_json_parser_scan(&parser, "[1]", 3, &place) == SIMD_JSON_OK, "kept");
    for (size_t i = 0; i < ROWS; i++) {
        WANT(simd_json_parser_add(&parser, rows[i].pointer, strlen(rows[i].pointer)) == SIMD_JSON_OK, rows[i].pointer);
        WANT(simd_json_parser_add(&parser, "a", 1) == SIMD_JSON_INVALID_POINTER, "a");
        WANT(simd_json_parser_add(&parser, "/~2", 3) == SIMD_JSON_INVALID_POINTER, "/~2");
        WANT(simd_json_parser_add(&parser, "/\377", 2) == SIMD_JSON_INVALID_POINTER, "no UTF-8");
    }
    for (size_t most = 0; most <= ROWS + 1; most++) {
        memset(fields, 77, sizeof fields);
        place = (simd_json_place){5, 5};
        WANT(simd_json_parser_pointers(&parser, input, sizeof input - 1, fields, most, &place) == SIMD_JSON_OK, input);
        WANT(place.index == 0 && place.character == SIMD_JSON_NO_CHARACTER, input);
        for (size_t i = 0; i < ROWS && i < most; i++) {
            size_t len = rows[i].written ? strlen(rows[i].written) : 0;
            WANT(fields[i].kind == rows[i].kind && fields[i].has_escape == rows[i].has_escape && fields[i].len == len, rows[i].pointer);
            WANT(rows[i].written ? fields[i].value == (size_t)(strstr(input, rows[i].written) - input) : fields[i].value == rows[i].value,
                 rows[i].pointer);
        }
        for (size_t i = most < ROWS ? most : ROWS; i < ROWS + 2; i++)
            WANT(memcmp(&fields[i], &fields[ROWS + 1], sizeof *fields) == 0, "unchanged");
    }
    static const struct {
        const char *input;
        int status;
    } bad[] = {{"\"", SIMD_JSON_SYNTAX}, {" ", SIMD_JSON_EOF}, {"\377", SIMD_JSON_INVALID_UTF8}};
    for (size_t i = 0; i < sizeof bad / sizeof *bad; i++) {
        memset(fields, 77, sizeof fields);
        WANT(simd_json_parser_pointers(&parser, bad[i].input, 1, fields, ROWS, &place) == bad[i].status, bad[i].input);
        WANT(place.index == 0 && place.character == SIMD_JSON_NO_CHARACTER && memcmp(&fields[0], &fields[1], sizeof *fields) == 0,
             bad[i].input);
    }
    WANT(simd_json_parser_pointer(&parser, "/0", 2, &found, out, sizeof out) == SIMD_JSON_OK && out[0] == '1', "still kept");
    WANT(simd_json_open(&parser, 8) == SIMD_JSON_OK, "opened again");
    memset(fields, 77, sizeof fields);
    WANT(simd_json_parser_pointers(&parser, "7", 1, fields, 1, &place) == SIMD_JSON_OK && fields[0].kind != SIMD_JSON_U64, "no pointer");
    simd_json_close(&parser);
}

// An input is kept by other calls, and by an error no more.
static void input_kept(void) {
    char out[64];
    simd_json_found found = {77, 77};
    simd_json_place place;
    simd_json_document lent;
    simd_json_parser parser = {0};
    WANT(simd_json_parser_scan(&parser, "[1]", 3, &place) == SIMD_JSON_PARSER_CLOSED && place.index == 0, "closed");
    WANT(simd_json_open(&parser, 8) == SIMD_JSON_OK, "opened");
    WANT(simd_json_parser_pointer(&parser, "", 0, &found, out, sizeof out) == SIMD_JSON_NO_VALUE, "nothing kept");
    WANT(found.kind == 77 && found.len == 77, "nothing kept");
    WANT(simd_json_parser_scan(&parser, "[\"\\u0041\", 2]", 13, &place) == SIMD_JSON_OK, "kept");
    WANT(simd_json_parser_pointer(&parser, "/0", 2, &found, out, sizeof out) == SIMD_JSON_OK && found.len == 8, "kept");
    WANT(simd_json_parser_parse(&parser, out, found.len, &lent, &place) == SIMD_JSON_OK, "kept");
    WANT(lent.nodes_len == 1 && lent.nodes[0].kind == SIMD_JSON_STRING && lent.nodes[0].len == 1 && lent.text[1] == 'A', "kept");
    WANT(simd_json_parser_check(&parser, "[3", 2, &place) == SIMD_JSON_SYNTAX, "kept");
    out[0] = 'x';
    WANT(simd_json_parser_pointer(&parser, "/1", 2, &found, out, 0) == SIMD_JSON_TOO_LITTLE_ROOM, "kept");
    WANT(found.kind == SIMD_JSON_U64 && found.len == 1 && out[0] == 'x', "kept");
    static const struct {
        const char *input;
        int status;
    } bad[] = {{"\"", SIMD_JSON_SYNTAX}, {" ", SIMD_JSON_EOF}, {"\377", SIMD_JSON_INVALID_UTF8}};
    for (size_t i = 0; i < sizeof bad / sizeof *bad; i++) {
        WANT(simd_json_parser_scan(&parser, "7", 1, &place) == SIMD_JSON_OK, "kept");
        WANT(simd_json_parser_scan(&parser, bad[i].input, 1, &place) == bad[i].status, bad[i].input);
        WANT(place.index == 0 && place.character == SIMD_JSON_NO_CHARACTER, bad[i].input);
        WANT(simd_json_parser_pointer(&parser, "", 0, &found, out, sizeof out) == SIMD_JSON_NO_VALUE, bad[i].input);
    }
    simd_json_close(&parser);
}

// Each node of a document, also of keys; by hand. With less room nothing is written but the length.
static void nodes_printed(void) {
    static const char document[] =
        " {\"a/b\" : [1, -2.50e1, \"\\u0001\\n\\\"\\u00e9\", { }], \"\": [18446744073709551616, -9223372036854775809, -0, true, null,[ ]]} ";
    static const char *const compact[] = {
        "{\"a/b\":[1,-2.50e1,\"\\u0001\\n\\\"\303\251\",{}],\"\":[18446744073709551616,-9223372036854775809,0,true,null,[]]}",
        "\"a/b\"", "[1,-2.50e1,\"\\u0001\\n\\\"\303\251\",{}]", "1", "-2.50e1", "\"\\u0001\\n\\\"\303\251\"", "{}", "\"\"",
        "[18446744073709551616,-9223372036854775809,0,true,null,[]]", "18446744073709551616", "-9223372036854775809", "0", "true", "null",
        "[]"};
    static const char pretty[] = "[\n  1,\n  -2.50e1,\n  \"\\u0001\\n\\\"\303\251\",\n  {}\n]";
    enum { NODES = sizeof compact / sizeof *compact };
    char copy[256], out[256];
    simd_json_document lent;
    simd_json_place place;
    simd_json_parser parser = {0};
    WANT(simd_json_open(&parser, 4) == SIMD_JSON_OK, "opened");
    WANT(simd_json_parser_parse(&parser, copy, fresh(copy, document), &lent, &place) == SIMD_JSON_OK, document);
    WANT(lent.nodes_len == NODES, document);
    for (size_t at = 0; at < NODES; at++)
        for (size_t room = 0; room <= strlen(compact[at]); room++) {
            size_t needed = 77;
            memset(out, 'x', sizeof out);
            int status = simd_json_print(lent.nodes, NODES, lent.text, lent.text_len, at, SIMD_JSON_COMPACT, out, room, &needed);
            int fits = room == strlen(compact[at]);
            WANT(status == (fits ? SIMD_JSON_OK : SIMD_JSON_TOO_LITTLE_ROOM) && needed == strlen(compact[at]), compact[at]);
            WANT(fits ? memcmp(out, compact[at], needed) == 0 && out[needed] == 'x' : out[0] == 'x', compact[at]);
        }
    for (uint32_t layout = 1; layout < 4; layout++) {
        size_t needed = 77;
        WANT(simd_json_print(lent.nodes, NODES, lent.text, lent.text_len, 2, layout, out, sizeof out, &needed) == SIMD_JSON_OK, pretty);
        WANT(needed == strlen(pretty) && memcmp(out, pretty, needed) == 0, pretty);
    }
    for (size_t at = NODES; at + 1 > NODES; at = at == NODES ? SIZE_MAX : 0) {
        size_t needed = 77;
        out[0] = 'x';
        WANT(simd_json_print(lent.nodes, NODES, lent.text, lent.text_len, at, 0, out, sizeof out, &needed) == SIMD_JSON_NO_VALUE, "none");
        WANT(needed == 77 && out[0] == 'x', "none");
        if (at == SIZE_MAX) break;
    }
    size_t needed = 77;
    WANT(simd_json_print(0, 0, 0, 0, 0, 0, out, sizeof out, &needed) == SIMD_JSON_NO_VALUE && needed == 77, "no nodes");
    simd_json_close(&parser);
}

// The number of each node, of whatever kind: the compiler rounds the same ones for itself.
static void numbers_read(void) {
    static const char document[] =
        "[0, -0, 7, -7, 9007199254740993, 9223372036854775807, 9223372036854775808, 18446744073709551615, -9223372036854775808,"
        " 18446744073709551616, -9223372036854775809, 340282366920938463463374607431768211455, 1.0, -2.5e-1, 1e400, 5e-324,"
        " null, true, false, \"1\", [2], {\"3\": 4}]";
    enum { NO = SIMD_JSON_NO_VALUE, BAD = SIMD_JSON_INVALID_NUMBER };
    static const struct {
        int status, int_status;
        double number;
        int64_t integer;
    } rows[] = {{NO, NO, 0, 0}, {0, 0, 0, 0}, {0, 0, 0, 0}, {0, 0, 7, 7}, {0, 0, -7, -7}, {0, 0, 0x1p53, 9007199254740993},
                {0, 0, 0x1p63, INT64_MAX}, {0, BAD, 0x1p63, 0}, {0, BAD, 0x1p64, 0}, {0, 0, -0x1p63, INT64_MIN},
                {0, BAD, 0x1p64, 0}, {0, BAD, -0x1p63, 0}, {0, BAD, 0x1p128, 0}, {0, BAD, 1, 0}, {0, BAD, -0.25, 0},
                {0, BAD, INFINITY, 0}, {0, BAD, 0x1p-1074, 0}, {NO, NO, 0, 0}, {NO, NO, 0, 0}, {NO, NO, 0, 0}, {NO, NO, 0, 0},
                {NO, NO, 0, 0}, {0, 0, 2, 2}, {NO, NO, 0, 0}, {NO, NO, 0, 0}, {0, 0, 4, 4}};
    enum { NODES = sizeof rows / sizeof *rows };
    char copy[512];
    simd_json_document d;
    simd_json_place place;
    simd_json_parser parser = {0};
    WANT(simd_json_open(&parser, 4) == SIMD_JSON_OK, "opened");
    WANT(simd_json_parser_parse(&parser, copy, fresh(copy, document), &d, &place) == SIMD_JSON_OK && d.nodes_len == NODES, document);
    for (size_t at = 0; at < NODES; at++) {
        double number = 7.5;
        int64_t integer = 75;
        WANT(simd_json_number(d.nodes, NODES, d.text, d.text_len, at, &number) == rows[at].status, document);
        WANT(number == (rows[at].status ? 7.5 : rows[at].number), document);
        WANT(simd_json_int64(d.nodes, NODES, at, &integer) == rows[at].int_status, document);
        WANT(integer == (rows[at].int_status ? 75 : rows[at].integer), document);
    }
    static const size_t others[] = {NODES, NODES + 1, SIZE_MAX - 1, SIMD_JSON_NO_NODE};
    for (size_t i = 0; i < 4; i++) {
        double number = 7.5;
        int64_t integer = 75;
        WANT(simd_json_number(d.nodes, NODES, d.text, d.text_len, others[i], &number) == NO && number == 7.5, "no node");
        WANT(simd_json_int64(d.nodes, NODES, others[i], &integer) == NO && integer == 75, "no node");
        WANT(simd_json_number(0, 0, 0, 0, others[i], &number) == NO && number == 7.5, "no nodes");
        WANT(simd_json_int64(0, 0, others[i], &integer) == NO && integer == 75, "no nodes");
    }
    simd_json_close(&parser);
}

// Integers at the ends of each range, by the compiler's own arithmetic, and what is none.
static void integers(void) {
    static const struct {
        const char *literal;
        uint64_t low, high;
    } rows[] = {
        {"0", 0, 0}, {"-0", 0, 0}, {"7", 7, 0}, {"-1", UINT64_MAX, UINT64_MAX}, {"9223372036854775807", INT64_MAX, 0},
        {"-9223372036854775808", (uint64_t)1 << 63, UINT64_MAX}, {"18446744073709551615", UINT64_MAX, 0},
        {"18446744073709551616", 0, 1}, {"-9223372036854775809", INT64_MAX, UINT64_MAX},
        {"-18446744073709551616", 0, UINT64_MAX}, {"340282366920938463463374607431768211455", UINT64_MAX, UINT64_MAX},
        {"-170141183460469231731687303715884105728", 0, (uint64_t)1 << 63},
        {"170141183460469231731687303715884105728", 0, (uint64_t)1 << 63}};
    static const char *const others[] = {"", "-", "01", "-01", "+1", "1.0", "1e3", "1 ", " 1", "1,", "0x1", "--1", "\"1\"", "true",
                                         "340282366920938463463374607431768211456", "-170141183460469231731687303715884105729",
                                         "99999999999999999999999999999999999999999999999999"};
    for (size_t i = 0; i < sizeof rows / sizeof *rows; i++) {
        uint64_t low = 5, high = 6;
        WANT(simd_json_integer(rows[i].literal, strlen(rows[i].literal), &low, &high) == SIMD_JSON_OK, rows[i].literal);
        WANT(low == rows[i].low && high == rows[i].high, rows[i].literal);
    }
    for (size_t i = 0; i < sizeof others / sizeof *others; i++) {
        uint64_t low = 5, high = 6;
        WANT(simd_json_integer(others[i], strlen(others[i]), &low, &high) == SIMD_JSON_INVALID_NUMBER, others[i]);
        WANT(low == 5 && high == 6, others[i]);
    }
}

// Each node of a document where it was written; by hand. The input has line feeds and characters of several bytes.
static void nodes_located(void) {
    static const char input[] = "{\"\303\251\": [1,\n  -2.5],\n\"b\" :{\"c\":null}\n , \"d\":\"]\"}";
    static const struct {
        size_t byte, line, column;
    } rows[] = {{0, 1, 1}, {1, 1, 2}, {7, 1, 7}, {8, 1, 8}, {13, 2, 3}, {20, 3, 1}, {25, 3, 6}, {26, 3, 7}, {30, 3, 11}, {39, 4, 4},
                {43, 4, 8}};
    enum { NODES = sizeof rows / sizeof *rows };
    char copy[64];
    simd_json_document lent;
    simd_json_place place;
    simd_json_parser parser = {0};
    WANT(simd_json_open(&parser, 4) == SIMD_JSON_OK, "opened");
    WANT(simd_json_parser_parse(&parser, copy, fresh(copy, input), &lent, &place) == SIMD_JSON_OK && lent.nodes_len == NODES, input);
    for (size_t node = 0; node < NODES; node++) {
        simd_json_position at = {7, 7, 7, 7};
        WANT(simd_json_node_position(input, sizeof input - 1, node, &at) == SIMD_JSON_OK, input + rows[node].byte);
        WANT(at.byte == rows[node].byte && at.line == rows[node].line && at.column == rows[node].column, input + rows[node].byte);
    }
    static const size_t others[] = {NODES, NODES + 1, SIZE_MAX};
    for (size_t i = 0; i < 3; i++) {
        simd_json_position at = {7, 7, 7, 7};
        WANT(simd_json_node_position(input, sizeof input - 1, others[i], &at) == SIMD_JSON_NO_VALUE && at.byte == 7, "no node");
        WANT(simd_json_node_position("\"", i < 2 ? i : 0, 0, &at) == SIMD_JSON_NO_VALUE && at.line == 7, "no document");
    }
    simd_json_close(&parser);
}

static void version(void) {
    WANT(simd_json_version() == SIMD_JSON_VERSION, "version");
    WANT(SIMD_JSON_VERSION == 400, "0.4.0");
}

int main(void) {
    version();
    siblings();
    equals_told_apart();
    keys_found();
    reasons_fit();
    opened_within_each_limit();
    doubles();
    grown();
    parser_kept();
    literals_checked();
    more_text_located();
    openings_located();
    values_printed();
    nodes_printed();
    integers();
    numbers_read();
    nodes_located();
    tapes_lent();
    values_found();
    fields_found();
    input_kept();
    kinds_named();
    texts_are_names();
    pointers_malformed();
    return wrong;
}
