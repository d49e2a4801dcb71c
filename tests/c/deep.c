// Four million brackets are checked, printed twice by one parser, and parsed, in a thread with 64 kB of stack.
// Silent where all is well.
#define _GNU_SOURCE
#include <pthread.h>

#include "want.h"

enum { DEPTH = 2000000, LEN = 2 * DEPTH };

static char text[LEN], copy[LEN], out[LEN];

static void *run(void *unused) {
    (void)unused;
    simd_json_parser parser = {0};
    simd_json_place place;
    simd_json_document document;
    size_t needed = 0;
    WANT(simd_json_open(&parser, DEPTH) == SIMD_JSON_OK);
    WANT(simd_json_parser_check(&parser, text, LEN, &place) == SIMD_JSON_OK);
    for (int i = 0; i < 2; i++) {
        memcpy(copy, text, LEN);
        memset(out, 0, LEN);
        WANT(simd_json_parser_print(&parser, copy, LEN, 0, 0, SIMD_JSON_COMPACT, out, LEN, &needed, &place) == SIMD_JSON_OK);
        WANT(needed == LEN && memcmp(out, text, LEN) == 0);
    }
    memcpy(copy, text, LEN);
    WANT(simd_json_parser_parse(&parser, copy, LEN, &document, &place) == SIMD_JSON_OK);
    simd_json_close(&parser);
    return 0;
}

int main(void) {
    pthread_attr_t attributes;
    pthread_t thread;
    size_t stack = 64 << 10;
    memset(text, '[', DEPTH);
    memset(text + DEPTH, ']', DEPTH);
    WANT(pthread_attr_init(&attributes) == 0 && pthread_attr_setstacksize(&attributes, stack) == 0);
    WANT(pthread_create(&thread, &attributes, run, 0) == 0 && pthread_join(thread, 0) == 0);
    return 0;
}
