// Each allocation of each call fails in turn: the status says so, no memory of the caller is written, and what was allocated
// is freed. Built with -Wl,--wrap=malloc,--wrap=realloc,--wrap=free. Silent where all is well.
#include "want.h"

void *__real_malloc(size_t);
void *__real_realloc(void *, size_t);
void __real_free(void *);

static int allowed = -1; // how many more allocations succeed; -1: all
static int held;         // blocks that are allocated

static int granted(void) {
    if (allowed > 0) allowed--;
    else if (allowed == 0) return 0;
    return 1;
}

void *__wrap_malloc(size_t size) {
    void *block = granted() ? __real_malloc(size) : 0;
    held += block != 0;
    return block;
}

void *__wrap_realloc(void *block, size_t size) {
    void *moved = granted() ? __real_realloc(block, size) : 0;
    held += !block && moved;
    return moved;
}

void __wrap_free(void *block) {
    held -= block != 0;
    __real_free(block);
}

static const char document[] = "[1,[2,{\"a\":\"\\n\"}],3]";
static const char wrong[] = "[1,[2,{\"a\":\"\\n\"}],3,]";
#define TEN(text) text text text text text text text text text text
static const char deep[] = TEN(TEN("[")) TEN(TEN("]"));
static char input[sizeof document], out[64];
static simd_json_place place;
static size_t needed;
static uint32_t indexes[32];

// A check of what is copied: of one that is rejected, with its error, and of one with more than 64 open containers.
static int is_rejected(int status) {
    WANT(status == SIMD_JSON_OUT_OF_MEMORY || (status == SIMD_JSON_INTERNAL_ERROR && place.index == 20 && place.character == ']'));
    return status == SIMD_JSON_OUT_OF_MEMORY ? status : SIMD_JSON_OK;
}
static int check(void) { return simd_json_check(document, sizeof document - 1, 3, &place); }
static int check_wrong(void) { return is_rejected(simd_json_check(wrong, sizeof wrong - 1, 3, &place)); }
static int check_deep(void) { return simd_json_check(deep, sizeof deep - 1, 100, &place); }
static int location(void) {
    const simd_json_place at = {1, '1'};
    simd_json_position position;
    return simd_json_location(document, sizeof document - 1, 1, SIMD_JSON_INTERNAL_ERROR, &at, &position, out, 64, &needed);
}
// The nodes of `deep`, and of a string in it.
static int printed(void) {
    simd_json_node nodes[101];
    for (unsigned i = 0; i < 100; i++) nodes[i] = (simd_json_node){SIMD_JSON_ARRAY, 1, 100 - i};
    nodes[100] = (simd_json_node){SIMD_JSON_STRING, 2, 1};
    char text[400];
    size_t len = 77;
    int status = simd_json_print(nodes, 101, "\"\303\251\"", 4, 0, SIMD_JSON_COMPACT, text, sizeof text, &len);
    WANT(status == SIMD_JSON_OK ? len == 204 && memcmp(text + 100, "\"\303\251\"]", 5) == 0 : len == 77);
    place = (simd_json_place){0, SIMD_JSON_NO_CHARACTER};
    return status;
}
static int node_located(void) {
    simd_json_position position = {7, 7, 7, 7};
    int status = simd_json_node_position(document, sizeof document - 1, 3, &position);
    WANT(status == SIMD_JSON_OK ? position.byte == 4 && position.column == 5 : position.byte == 7);
    place = (simd_json_place){0, SIMD_JSON_NO_CHARACTER};
    return status;
}
static int indexed(void) { return simd_json_scan(input, sizeof document - 1, indexes, 32, &needed, &place); }

static simd_json_parser parser;
static simd_json_document lent;

static int kept_check(void) { return simd_json_parser_check(&parser, document, sizeof document - 1, &place); }
static int kept_check_wrong(void) { return is_rejected(simd_json_parser_check(&parser, wrong, sizeof wrong - 1, &place)); }
static int kept_check_deep(void) { return simd_json_parser_check(&parser, deep, sizeof deep - 1, &place); }
static int kept_print(void) {
    return simd_json_parser_print(&parser, input, sizeof document - 1, 0, 0, SIMD_JSON_COMPACT, out, 64, &needed, &place);
}
static int kept_print_at(void) {
    return simd_json_parser_print(&parser, input, sizeof document - 1, "/1/1", 4, SIMD_JSON_PRETTY, out, 64, &needed, &place);
}
static int kept_parse(void) { return simd_json_parser_parse(&parser, input, sizeof document - 1, &lent, &place); }
static int kept_index(void) {
    static simd_json_found found;
    int status = simd_json_parser_scan(&parser, input, sizeof document - 1, &place);
    int looked = simd_json_parser_pointer(&parser, "/1/1", 4, &found, out, 64);
    WANT(looked == (status == SIMD_JSON_OK ? SIMD_JSON_OK : SIMD_JSON_NO_VALUE));
    WANT(status != SIMD_JSON_OK || (found.kind == SIMD_JSON_OBJECT && found.len == 10 && memcmp(out, "{\"a\":\"\\n\"}", 10) == 0));
    return status;
}

static int kept_pointers(void) {
    simd_json_field fields[2] = {{77, 77, 77, 77}, {77, 77, 77, 77}};
    int status = simd_json_parser_pointers(&parser, input, sizeof document - 1, fields, 2, &place);
    for (int i = 0; i < 2; i++) WANT(status == SIMD_JSON_OK ? fields[i].kind == SIMD_JSON_OBJECT && fields[i].len == 10 : fields[i].kind == 77);
    return status;
}
// The same pointer twice, and again after one that was not added.
static int adds(void) {
    int status = simd_json_parser_add(&parser, "/1/1", 4);
    return status == SIMD_JSON_OK ? simd_json_parser_add(&parser, "/1/1", 4) : status;
}

static int (*const kept_calls[])(void) = {kept_check, kept_check_wrong, kept_check_deep, kept_print,
                                         kept_print_at, kept_parse, kept_index, kept_pointers};
enum { KEPT_CALLS = sizeof kept_calls / sizeof *kept_calls };

// A parser that is opened and closed again, with each call between.
static int kept(void) {
    int status = simd_json_open(&parser, 100);
    WANT(status == SIMD_JSON_OK ? parser.is_open == 1 : parser.is_open == 0);
    if (status == SIMD_JSON_OK) status = adds();
    for (int i = 0; status == SIMD_JSON_OK && i < KEPT_CALLS; i++) {
        strcpy(input, document);
        memset(out, 0, sizeof out);
        memset(&lent, 0, sizeof lent);
        needed = 77;
        status = kept_calls[i]();
        WANT(parser.is_open == 1);
    }
    simd_json_close(&parser);
    return status;
}

// To open takes one allocation, whatever the limit, and fails where that does.
static void one_opens(void) {
    static const size_t limits[] = {0, 1, 1024, 1000001, UINT32_MAX, SIZE_MAX};
    int before = held;
    for (size_t i = 0; i < 2 * sizeof limits / sizeof *limits; i++) {
        allowed = i % 2;
        int status = simd_json_open(&parser, limits[i / 2]);
        allowed = -1;
        WANT(status == (i % 2 ? SIMD_JSON_OK : SIMD_JSON_OUT_OF_MEMORY) && parser.is_open == i % 2 && held == before + parser.is_open);
        simd_json_close(&parser);
    }
    WANT(held == before);
}

// A call that lacks memory leaves the parser as good as it was; once each has read an input, none allocates more for such.
static void memory_is_kept(void) {
    int before = held;
    WANT(simd_json_open(&parser, 100) == SIMD_JSON_OK);
    WANT(held == before + 1);
    for (int status = SIMD_JSON_OUT_OF_MEMORY, failures = 0; status != SIMD_JSON_OK;) {
        allowed = failures++;
        status = adds();
        allowed = -1;
        WANT(status == SIMD_JSON_OUT_OF_MEMORY || status == SIMD_JSON_OK);
    }
    for (int i = 0; i < KEPT_CALLS; i++)
        for (int status = SIMD_JSON_OUT_OF_MEMORY, failures = 0; status != SIMD_JSON_OK;) {
            strcpy(input, document);
            allowed = failures++;
            status = kept_calls[i]();
            allowed = -1;
            WANT(status == SIMD_JSON_OUT_OF_MEMORY || status == SIMD_JSON_OK);
        }
    allowed = 0;
    for (int round = 0; round < 3 * KEPT_CALLS; round++) {
        strcpy(input, document);
        int (*call)(void) = kept_calls[round % KEPT_CALLS];
        WANT(call() == SIMD_JSON_OK);
        if (call == kept_print) WANT(needed == sizeof document - 1 && memcmp(out, document, needed) == 0);
        if (call == kept_print_at) WANT(needed == 15 && memcmp(out, "{\n  \"a\": \"\\n\"\n}", 15) == 0);
        if (call == kept_parse)
            WANT(lent.nodes_len == 8 && lent.nodes[0].kind == SIMD_JSON_ARRAY && lent.nodes[0].len == 3 && lent.text == input
                 && lent.text_len == sizeof document - 1);
    }
    WANT(simd_json_open(&parser, 3) == SIMD_JSON_OUT_OF_MEMORY);
    allowed = -1;
    WANT(parser.is_open == 0 && held == before);
    simd_json_close(&parser);
    WANT(held == before);
}

static void each_fails(int call(void)) {
    int failures = 0, status;
    do {
        strcpy(input, document);
        memset(out, 0, sizeof out);
        memset(&lent, 0, sizeof lent);
        needed = indexes[0] = 77;
        int before = held;
        allowed = failures++;
        status = call();
        allowed = -1;
        WANT(held == before);
        if (status != SIMD_JSON_OK) {
            WANT(status == SIMD_JSON_OUT_OF_MEMORY);
            WANT(place.index == 0 && place.character == SIMD_JSON_NO_CHARACTER);
            WANT(needed == 77 && lent.nodes_len == 0 && out[0] == 0 && indexes[0] == 77);
        }
    } while (status != SIMD_JSON_OK);
    WANT(failures > 2);
}

int main(void) {
    each_fails(check);
    each_fails(check_wrong);
    each_fails(check_deep);
    each_fails(indexed);
    each_fails(location);
    each_fails(printed);
    each_fails(node_located);
    each_fails(kept);
    one_opens();
    memory_is_kept();
}
