// Memory of each size from none up to one more than is needed, with a page behind it that may not be touched. Silent where
// all is well.
#define _GNU_SOURCE
#include <sys/mman.h>

#include "want.h"

enum { PAGE = 4096 };

// So many bytes at the end of a page, with a page behind it that may not be touched. They are filled with 0xAA.
typedef struct {
    void *page, *at;
    size_t len;
} lent;

static lent lend(size_t len) {
    WANT(len <= PAGE);
    char *page = mmap(0, 2 * PAGE, PROT_READ | PROT_WRITE, MAP_PRIVATE | MAP_ANONYMOUS, -1, 0);
    WANT(page != MAP_FAILED && mprotect(page + PAGE, PAGE, PROT_NONE) == 0);
    memset(page, 0xAA, PAGE);
    return (lent){page, len ? page + PAGE - len : 0, len};
}

static lent lend_copy(const char *text, size_t len) {
    lent copy = lend(len);
    if (len) memcpy(copy.at, text, len);
    return copy;
}

// Nothing before the bytes has been written, and none of them from `from` on.
static void give_back(lent l, size_t from) {
    unsigned char *page = l.page;
    for (size_t i = 0; i < PAGE; i++)
        if (i < PAGE - l.len || i >= PAGE - l.len + from) WANT(page[i] == 0xAA);
    munmap(l.page, 2 * PAGE);
}

static const char document[] = "{\"a\":[1,-2,2.5,\"\\n\\u00e9\",18446744073709551616],\"b\":{\"c\":null,\"d\":true}}";
static const size_t len = sizeof document - 1;
// Worked by hand: 14 nodes, with these texts at these bytes.
enum { NODES = 14 };
static const struct {
    size_t node, at;
    const char *text;
} texts[] = {{1, 2, "a"},  {5, 11, "2.5"}, {6, 16, "\n\303\251"}, {7, 26, "18446744073709551616"},
             {8, 49, "b"}, {10, 54, "c"},  {12, 63, "d"}};

static simd_json_parser parser;

// Like `lend_copy`, for memory that is only read: the system does not let it be written.
static lent show(const char *text, size_t len) {
    lent copy = lend_copy(text, len);
    WANT(mprotect(copy.page, PAGE, PROT_READ) == 0);
    return copy;
}

// The text of a value, with room for its bytes of each size.
static void prints(const char *pointer, uint32_t layout, const char *wanted) {
    for (size_t room = 0; room <= strlen(wanted) + 1; room++) {
        lent input = lend_copy(document, len), name = show(pointer, strlen(pointer)), out = lend(room);
        size_t needed = 0;
        simd_json_place place;
        int status = simd_json_parser_print(&parser, input.at, len, name.at, name.len, layout, out.at, room, &needed, &place);
        int fits = room >= strlen(wanted);
        WANT(status == (fits ? SIMD_JSON_OK : SIMD_JSON_TOO_LITTLE_ROOM) && needed == strlen(wanted));
        WANT(!fits || memcmp(out.at, wanted, needed) == 0);
        give_back(input, len);
        give_back(name, name.len);
        give_back(out, fits ? needed : 0);
    }
}

// The input before a page that may not be touched is enough, and holds the texts afterwards.
static void lends(void) {
    static const uint32_t kinds[NODES] = {SIMD_JSON_OBJECT, SIMD_JSON_STRING, SIMD_JSON_ARRAY, SIMD_JSON_U64, SIMD_JSON_I64,
                                          SIMD_JSON_DECIMAL, SIMD_JSON_STRING, SIMD_JSON_U128, SIMD_JSON_STRING, SIMD_JSON_OBJECT,
                                          SIMD_JSON_STRING, SIMD_JSON_NULL, SIMD_JSON_STRING, SIMD_JSON_BOOL};
    simd_json_document kept;
    simd_json_place place;
    lent input = lend_copy(document, len);
    WANT(simd_json_parser_parse(&parser, input.at, len, &kept, &place) == SIMD_JSON_OK);
    WANT(kept.nodes_len == NODES && kept.text == input.at && kept.text_len == len);
    for (size_t i = 0; i < NODES; i++) WANT(kept.nodes[i].kind == kinds[i]);
    for (size_t i = 0; i < sizeof texts / sizeof *texts; i++) {
        const simd_json_node *node = &kept.nodes[texts[i].node];
        WANT(node->value == texts[i].at && node->len == strlen(texts[i].text));
        WANT(memcmp(kept.text + node->value, texts[i].text, node->len) == 0);
    }
    give_back(input, len);
}

// A value by a pointer, from an input, with room for its bytes of each size.
static void finds(const char *pointer, uint32_t kind, const char *wanted) {
    size_t pointer_len = strlen(pointer), wanted_len = strlen(wanted);
    for (size_t room = 0; room <= wanted_len + 1; room++) {
        lent input = lend_copy(document, len), name = lend_copy(pointer, pointer_len), out = lend(room);
        simd_json_found found = {77, 77};
        simd_json_place place;
        WANT(simd_json_parser_scan(&parser, input.at, len, &place) == SIMD_JSON_OK);
        give_back(input, len);
        int status = simd_json_parser_pointer(&parser, name.at, pointer_len, &found, out.at, room);
        int fits = room >= wanted_len;
        WANT(status == (fits ? SIMD_JSON_OK : SIMD_JSON_TOO_LITTLE_ROOM) && found.kind == kind && found.len == wanted_len);
        WANT(!fits || memcmp(out.at, wanted, wanted_len) == 0);
        give_back(name, pointer_len);
        give_back(out, fits ? wanted_len : 0);
    }
}

// Values by several pointers, for fewer fields than pointers and for more.
static void finds_all(void) {
    static const char *const pointers[] = {"/b/d", "/a/3", "/c", "/a/1"};
    for (size_t i = 0; i < 4; i++) {
        lent name = show(pointers[i], 4 - (i == 2) * 2);
        WANT(simd_json_parser_add(&parser, name.at, name.len) == SIMD_JSON_OK);
        give_back(name, name.len);
    }
    for (size_t count = 0; count <= 5; count++) {
        lent input = show(document, len), out = lend(count * sizeof(simd_json_field));
        simd_json_place place;
        WANT(simd_json_parser_pointers(&parser, input.at, len, out.at, count, &place) == SIMD_JSON_OK);
        simd_json_field *fields = out.at;
        WANT(count < 1 || (fields[0].kind == SIMD_JSON_BOOL && fields[0].value == 1 && fields[0].len == 0));
        WANT(count < 2 || (fields[1].kind == SIMD_JSON_STRING && fields[1].has_escape == 1 && fields[1].value == 15 && fields[1].len == 10));
        WANT(count < 3 || (fields[2].kind == SIMD_JSON_MISSING && fields[2].value == 0));
        WANT(count < 4 || (fields[3].kind == SIMD_JSON_I64 && (int64_t)fields[3].value == -2));
        give_back(input, len);
        give_back(out, (count < 4 ? count : 4) * sizeof(simd_json_field));
    }
}

// Counted by hand: 27 tokens. The last six begin at `,` `"` `:` `t` and two braces.
static void indexes(void) {
    for (size_t room = 0; room <= 28; room++) {
        lent input = lend_copy(document, len), out = lend(room * sizeof(uint32_t));
        size_t used = 0;
        simd_json_place place;
        int status = simd_json_scan(input.at, len, out.at, room, &used, &place);
        int fits = room >= 27;
        WANT(status == (fits ? SIMD_JSON_OK : SIMD_JSON_TOO_LITTLE_ROOM) && used == 27);
        for (size_t i = 0; fits && i < 6; i++) WANT(document[((uint32_t *)out.at)[21 + i]] == ",\":t}}"[i]);
        WANT(memcmp(input.at, document, len) == 0);
        give_back(input, len);
        give_back(out, (fits ? 27 : 0) * sizeof(uint32_t));
    }
}

static void names(void) {
    for (size_t room = 0; room <= 9; room++) {
        lent out = lend(room);
        WANT(simd_json_kind_name(SIMD_JSON_DECIMAL, out.at, room) == 7);
        WANT(room < 7 || memcmp(out.at, "Decimal", 7) == 0);
        give_back(out, room < 7 ? 0 : 7);
    }
    for (size_t room = 0; room <= 9; room++) {
        lent out = lend(room);
        WANT(simd_json_status_name(SIMD_JSON_SYNTAX, out.at, room) == 6);
        WANT(room < 6 || memcmp(out.at, "Syntax", 6) == 0);
        give_back(out, room < 6 ? 0 : 6);
    }
}

// In each room for the reason; of a status that names no error; and of one that is no error of an input.
static void locations(void) {
    static const char wrong[] = "[1,\n  \"\303\251\": 2]", reason[] = "expected `,` or `]` after an element, found `:`";
    const simd_json_place place = {10, ':'};
    for (size_t room = 0; room <= strlen(reason) + 1; room++) {
        lent input = lend_copy(wrong, sizeof wrong - 1), out = lend(room);
        simd_json_position at;
        size_t needed = 0;
        int status = simd_json_location(input.at, sizeof wrong - 1, 1, SIMD_JSON_EXPECTED_ARRAY_CONTENT, &place, &at, out.at, room, &needed);
        int fits = room >= strlen(reason);
        WANT(status == (fits ? SIMD_JSON_OK : SIMD_JSON_TOO_LITTLE_ROOM) && needed == strlen(reason));
        WANT(at.byte == 10 && at.line == 2 && at.column == 6 && at.status == SIMD_JSON_EXPECTED_ARRAY_CONTENT);
        WANT(!fits || memcmp(out.at, reason, needed) == 0);
        give_back(input, sizeof wrong - 1);
        give_back(out, fits ? needed : 0);
    }
    static const int32_t others[] = {SIMD_JSON_OK, SIMD_JSON_TOO_LITTLE_ROOM, SIMD_JSON_PARSER_CLOSED, -1, 21, 99, INT32_MIN};
    for (size_t i = 0; i < sizeof others / sizeof *others; i++) {
        simd_json_position at = {7, 7, 7, 7};
        size_t needed = 7;
        WANT(simd_json_location(wrong, sizeof wrong - 1, 1, others[i], &place, &at, 0, 0, &needed) == SIMD_JSON_OK);
        WANT(needed == 0 && at.byte == 0 && at.line == 0 && at.column == 0 && at.status == SIMD_JSON_OK);
    }
    const simd_json_place none = {0, SIMD_JSON_NO_CHARACTER};
    simd_json_position at = {7, 7, 7, 7};
    char words[SIMD_JSON_REASON_MAX];
    size_t needed = 7;
    WANT(simd_json_location(wrong, sizeof wrong - 1, 1, SIMD_JSON_OUT_OF_MEMORY, &none, &at, words, sizeof words, &needed) == SIMD_JSON_OK);
    WANT(needed == 13 && memcmp(words, "out of memory", needed) == 0 && at.byte == 0 && at.line == 1 && at.column == 1 && at.status == SIMD_JSON_OUT_OF_MEMORY);
}

// Nodes, texts and pointers of each length, and from each node; and nodes that are no document's: nothing outside is read, and
// the result is an index or none.
static void pointers(void) {
    static const char pointer[] = "/b/d";
    char copy[sizeof document];
    simd_json_document kept;
    simd_json_place place;
    memcpy(copy, document, sizeof document);
    WANT(simd_json_parser_parse(&parser, copy, len, &kept, &place) == SIMD_JSON_OK);
    const simd_json_node *all = kept.nodes;
    for (size_t a = 0; a <= NODES; a++)
        for (size_t b = 0; b <= len; b++) {
            lent nodes = lend_copy((const char *)all, a * sizeof *all), text_part = lend_copy(copy, b), path = lend_copy(pointer, 4);
            size_t found = simd_json_pointer(nodes.at, a, text_part.at, b, 0, path.at, 4);
            if (a == NODES && b == len) WANT(found == 13);
            WANT(found == SIMD_JSON_NO_NODE || found < a);
            found = simd_json_get(nodes.at, a, text_part.at, b, 0, (char *)path.at + 1, 1);
            if (a == NODES && b == len) WANT(found == 9);
            WANT(found == SIMD_JSON_NO_NODE || found < a);
            give_back(nodes, a * sizeof *all);
            give_back(text_part, b);
            give_back(path, 4);
        }
    WANT(simd_json_pointer(all, 14, copy, len, 0, 0, 0) == 0 && simd_json_pointer(all, 14, copy, len, 2, "/4", 2) == 7);
    WANT(simd_json_pointer(all, 14, copy, len, 9, "/c", 2) == 11 && simd_json_pointer(all, 14, copy, len, 9, "/a", 2) == SIMD_JSON_NO_NODE);
    WANT(simd_json_pointer(all, 14, copy, len, 14, 0, 0) == SIMD_JSON_NO_NODE);
    WANT(simd_json_pointer(all, 14, copy, len, SIZE_MAX, 0, 0) == SIMD_JSON_NO_NODE);
    uint64_t random = 6901;
    for (int round = 0; round < 20000; round++) {
        lent nodes = lend(5 * sizeof(simd_json_node)), text_part = lend(3);
        simd_json_node *node = nodes.at;
        for (size_t i = 0; i < 5; i++) {
            static const uint64_t numbers[] = {0, 1, 2, 3, 4, 5, 1u << 31, UINT64_MAX - 1, UINT64_MAX, INT64_MAX};
            uint64_t drawn[3];
            for (size_t k = 0; k < 3; k++) {
                random = random * 6364136223846793005u + 1442695040888963407u;
                drawn[k] = random >> 33;
            }
            uint32_t kind = (uint32_t)(drawn[0] % 3 ? 7 + drawn[0] % 4 : drawn[0]);
            node[i] = (simd_json_node){kind, (uint32_t)numbers[drawn[1] % 10], numbers[drawn[2] % 10]};
        }
        memcpy(text_part.at, "0aa", 3);
        static const char *const paths[] = {"", "/0", "/a", "/0/0", "/aa/1", "/", "/a/a/a", "/18446744073709551615"};
        const char *path = paths[(random >> 40) % 8];
        size_t found = simd_json_pointer(nodes.at, 5, text_part.at, 3, (random >> 50) % 6, path, strlen(path));
        WANT(found == SIMD_JSON_NO_NODE || found < 5);
        found = simd_json_get(nodes.at, 5, text_part.at, 3, (random >> 50) % 6, path, strlen(path));
        WANT(found == SIMD_JSON_NO_NODE || found < 5);
        munmap(nodes.page, 2 * PAGE);
        munmap(text_part.page, 2 * PAGE);
    }
}

// Of an input that can't be written: no prefix of the document but the whole is one. By a parser too, and so again where it has
// kept what that took.
static void prefixes(void) {
    for (int round = 0; round < 2; round++)
        for (size_t cut = 0; cut <= len; cut++) {
            lent input = show(document, cut);
            simd_json_place place, again;
            int status = simd_json_check(input.at, cut, 2, &place);
            WANT((status == SIMD_JSON_OK) == (cut == len));
            WANT(simd_json_parser_check(&parser, input.at, cut, &again) == status);
            WANT(place.index == again.index && place.character == again.character);
            give_back(input, cut);
        }
}

// So it is with others that are copied: nested deeply, and rejected at a token, in each place of a page.
static void read_only(void) {
    static const char wrong[] = "{\"\\u00e9\":[\"\\n\",tru]}";
    enum { DEPTH = 500 };
    char nested[2 * DEPTH];
    simd_json_parser deep = {0};
    simd_json_place place;
    memset(nested, '[', DEPTH);
    memset(nested + DEPTH, ']', DEPTH);
    WANT(simd_json_open(&deep, DEPTH) == SIMD_JSON_OK);
    lent input = show(nested, 2 * DEPTH), other = show(wrong, sizeof wrong - 1);
    WANT(simd_json_check(input.at, input.len, DEPTH, &place) == SIMD_JSON_OK);
    WANT(simd_json_check(input.at, input.len, DEPTH - 1, &place) == SIMD_JSON_DEPTH_LIMIT_EXCEEDED && place.index == DEPTH - 1);
    WANT(simd_json_parser_check(&deep, input.at, input.len, &place) == SIMD_JSON_OK);
    WANT(simd_json_check(other.at, other.len, 8, &place) == SIMD_JSON_EXPECTED_TRUE && place.index == 16 && place.character == 't');
    WANT(simd_json_parser_check(&deep, other.at, other.len, &place) == SIMD_JSON_EXPECTED_TRUE && place.index == 16);
    give_back(input, input.len);
    give_back(other, other.len);
    simd_json_close(&deep);
}

int main(void) {
    WANT(simd_json_open(&parser, 2) == SIMD_JSON_OK);
    prints("", SIMD_JSON_COMPACT, "{\"a\":[1,-2,2.5,\"\\n\303\251\",18446744073709551616],\"b\":{\"c\":null,\"d\":true}}");
    prints("", SIMD_JSON_PRETTY, "{\n  \"a\": [\n    1,\n    -2,\n    2.5,\n    \"\\n\303\251\",\n    18446744073709551616\n  ],\n"
                                 "  \"b\": {\n    \"c\": null,\n    \"d\": true\n  }\n}");
    prints("/b", SIMD_JSON_COMPACT, "{\"c\":null,\"d\":true}");
    prints("/b", SIMD_JSON_PRETTY, "{\n  \"c\": null,\n  \"d\": true\n}");
    lends();
    finds("", SIMD_JSON_OBJECT, document);
    finds("/a/3", SIMD_JSON_STRING, "\"\\n\\u00e9\"");
    finds("/b/d", SIMD_JSON_BOOL, "true");
    finds_all();
    indexes();
    names();
    locations();
    pointers();
    prefixes();
    read_only();
    simd_json_close(&parser);
}
