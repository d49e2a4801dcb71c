// Callers that change, move or unmap an input while they use its nodes. Nodes and counts stay, nothing is read outside what is
// passed, and the parser does not look at an input again after its call. Silent where all is well.
#define _GNU_SOURCE
#include <sys/mman.h>

#include "want.h"

enum { PAGE = 4096 };

static const char document[] =
    "{\"a\\n\":[1,-2.5e1,\"\\u00e9\\ud83d\\ude00\",18446744073709551616],\"\":{\"c/~\":\"x\"},\"b\":[[],{},null]}";
enum { LEN = sizeof document - 1, NODES = 16 };
static const char *const pointers[] = {"", "/a\n/2", "//c~1~0", "/b/1", "/b/9", "/c", "a", "/b/~2"};
enum { POINTERS = sizeof pointers / sizeof *pointers };
// Where they lead, counted by hand.
static const size_t led[POINTERS] = {0, 5, 10, 14, SIMD_JSON_NO_NODE, SIMD_JSON_NO_NODE, SIMD_JSON_NO_NODE, SIMD_JSON_NO_NODE};

static simd_json_parser parser;

static char *map(void) {
    char *page = mmap(0, PAGE, PROT_READ | PROT_WRITE, MAP_PRIVATE | MAP_ANONYMOUS, -1, 0);
    WANT(page != MAP_FAILED);
    return page;
}

// Parses the document at the end of a page.
static simd_json_document parse(char *page) {
    simd_json_document of;
    simd_json_place place;
    memcpy(page + PAGE - LEN, document, LEN);
    WANT(simd_json_parser_parse(&parser, page + PAGE - LEN, LEN, &of, &place) == SIMD_JSON_OK && of.nodes_len == NODES);
    return of;
}

static void lead(const simd_json_document *of, const char *text) {
    for (size_t i = 0; i < POINTERS; i++)
        WANT(simd_json_pointer(of->nodes, NODES, text, of->text_len, 0, pointers[i], strlen(pointers[i])) == led[i]);
    WANT(simd_json_get(of->nodes, NODES, text, of->text_len, 0, "b", 1) == 12);
}

// The number at an index, or it stays as it is.
static void read_number(const simd_json_node *nodes, size_t len, const char *text, size_t text_len, size_t at) {
    double number = 7;
    int64_t integer = 7;
    WANT(simd_json_number(nodes, len, text, text_len, at, &number) == SIMD_JSON_OK || number == 7);
    WANT(simd_json_int64(nodes, len, at, &integer) == SIMD_JSON_OK || integer == 7);
}

// The nodes with texts of which each byte is another, in memory that has no more: what is found is a node or none.
static void change(void) {
    char *page = map();
    simd_json_document of = parse(page);
    simd_json_node before[NODES];
    memcpy(before, of.nodes, sizeof before);
    for (int byte = 0; byte < 256; byte++) {
        char *text = malloc(of.text_len);
        memset(text, byte, of.text_len);
        memset(page, byte, PAGE);
        for (size_t at = 0; at < NODES; at++) {
            for (size_t i = 0; i < POINTERS; i++) {
                size_t found = simd_json_pointer(of.nodes, NODES, text, of.text_len, at, pointers[i], strlen(pointers[i]));
                WANT(found < NODES || found == SIMD_JSON_NO_NODE);
                found = simd_json_get(of.nodes, NODES, text, of.text_len, at, pointers[i], strlen(pointers[i]));
                WANT(found < NODES || found == SIMD_JSON_NO_NODE);
            }
            char out[256];
            size_t needed = 777;
            int32_t printed = simd_json_print(of.nodes, NODES, text, of.text_len, at, (uint32_t)byte % 2, out, sizeof out, &needed);
            WANT(printed == SIMD_JSON_OK ? needed <= sizeof out : printed == SIMD_JSON_TOO_LITTLE_ROOM && needed > sizeof out);
            read_number(of.nodes, NODES, text, of.text_len, at);
            double number = 7;
            if (of.nodes[at].kind == SIMD_JSON_DECIMAL) {
                int32_t status = simd_json_double(text + of.nodes[at].value, of.nodes[at].len, &number);
                WANT(status == SIMD_JSON_OK ? byte >= '0' && byte <= '9' : number == 7);
            }
        }
        WANT(memcmp(before, of.nodes, sizeof before) == 0);
        free(text);
    }
    munmap(page, PAGE);
}

// Nodes of any bytes: what is printed is some text, or an allocation fails.
static void invent(void) {
    uint64_t random = 1;
    for (int round = 0; round < 200000; round++) {
        enum { MOST = 8 };
        char text[MOST], *out = malloc(64);
        simd_json_node *nodes = malloc(MOST * sizeof *nodes);
        size_t len = (size_t)round % (MOST + 1), needed = 777;
        for (size_t i = 0; i < len; i++) {
            random = random * UINT64_C(6364136223846793005) + 1442695040888963407;
            uint64_t value = random >> 58 < 8 ? random : (random >> 40) % 12;
            nodes[i] = (simd_json_node){(uint32_t)(random >> 33) % 11, (uint32_t)(random >> 60 == 0 ? random >> 32 : (random >> 36) % 10), value};
            text[i] = (char)(random >> 20);
        }
        read_number(nodes, len, text, len, (random >> 50) % MOST);
        int32_t status = simd_json_print(nodes, len, text, len, (random >> 50) % MOST, (uint32_t)round % 2, out, 64, &needed);
        WANT(status == SIMD_JSON_NO_VALUE || status == SIMD_JSON_OUT_OF_MEMORY ? needed == 777
             : status == SIMD_JSON_OK                                       ? needed <= 64
                                                                            : status == SIMD_JSON_TOO_LITTLE_ROOM && needed > 64);
        free(nodes);
        free(out);
    }
}

// The texts at another address, when the input is gone.
static void move(void) {
    char *page = map();
    simd_json_document of = parse(page);
    lead(&of, of.text);
    char *text = malloc(of.text_len);
    memcpy(text, of.text, of.text_len);
    munmap(page, PAGE);
    lead(&of, text);
    WANT(of.nodes[5].len == 6 && memcmp(text + of.nodes[5].value, "\303\251\360\237\230\200", 6) == 0);
    WANT(of.nodes[6].len == 20 && memcmp(text + of.nodes[6].value, "18446744073709551616", 20) == 0);
    free(text);
}

// Each call with a parser whose last input is gone, after a document and after one that is rejected.
static void drop(void) {
    WANT(simd_json_parser_add(&parser, "/0", 2) == SIMD_JSON_OK && simd_json_parser_add(&parser, "", 0) == SIMD_JSON_OK);
    static const char *const others[] = {"[\"\\u0041\"]", "[1,]", "", "\"\377\""};
    for (int call = 0; call < 48; call++) {
        char *page = map(), copy[16] = "", out[16];
        size_t len = strlen(strcpy(copy, others[call / 12])), needed;
        simd_json_document of = parse(page);
        simd_json_place place;
        simd_json_found found;
        simd_json_field fields[2];
        if (call % 2) {
            page[PAGE - 1] = '"';
            WANT(simd_json_parser_parse(&parser, page + PAGE - LEN, LEN, &of, &place) != SIMD_JSON_OK);
        }
        munmap(page, PAGE);
        switch (call / 2 % 6) {
        case 0: simd_json_parser_parse(&parser, copy, len, &of, &place); break;
        case 1: simd_json_parser_check(&parser, copy, len, &place); break;
        case 2: simd_json_parser_print(&parser, copy, len, 0, 0, SIMD_JSON_PRETTY, out, sizeof out, &needed, &place); break;
        case 3: simd_json_parser_scan(&parser, copy, len, &place); break;
        case 4: simd_json_parser_pointers(&parser, copy, len, fields, 2, &place); break;
        default: simd_json_parser_pointer(&parser, "/0", 2, &found, out, sizeof out); break;
        }
    }
    char *page = map();
    parse(page);
    munmap(page, PAGE);
    simd_json_close(&parser);
}

int main(void) {
    WANT(simd_json_open(&parser, 4) == SIMD_JSON_OK);
    change();
    invent();
    move();
    drop();
    return 0;
}
