// Compares what the calls tell of each line of a file of tests/c/mutants.py. Silent where all is well.
#include <simd_json.h>
#include <stdio.h>
#include <stdlib.h>
#include <string.h>

enum { SIZE = 8192, DEPTH = 8 };

static size_t bytes_of(const char *digits, unsigned char *bytes) {
    size_t len = 0;
    for (; sscanf(digits + 2 * len, "%2hhx", &bytes[len]) == 1; len++) {}
    return len;
}

int main(int argc, char **argv) {
    static char input[SIZE], text[SIZE], *line = 0;
    static unsigned char data[SIZE], wanted[SIZE], copy[SIZE], out[SIZE];
    simd_json_parser parser = {0};
    size_t room = 0;
    int wrong = 0, lines = 0, documents = 0;
    FILE *file = argc > 1 ? fopen(argv[1], "r") : 0;
    if (!file || simd_json_open(&parser, DEPTH) != SIMD_JSON_OK) return 2;
    for (; getline(&line, &room, file) > 0; lines++) {
        if (sscanf(line, "%8191s %8191s", input, text) != 2) return 2;
        size_t len = bytes_of(input, data), length = bytes_of(text, wanted), needed = 0;
        int is_document = strcmp(text, "-") != 0;
        simd_json_place place;
        simd_json_document document;
        int checked = simd_json_check(data, len, DEPTH, &place);
        int checked_again = simd_json_parser_check(&parser, data, len, &place);
        memcpy(copy, data, len);
        int printed = simd_json_parser_print(&parser, copy, len, 0, 0, SIMD_JSON_COMPACT, out, sizeof out, &needed, &place);
        memcpy(copy, data, len);
        int listed = simd_json_parser_parse(&parser, copy, len, &document, &place);
        documents += is_document;
        if (checked != checked_again || checked != printed || checked != listed || (checked == SIMD_JSON_OK) != is_document
            || (is_document && (needed != length || memcmp(out, wanted, length) != 0))) {
            printf("mutants.c: status %d of %s, wanted %s\n", checked, input, text);
            wrong = 1;
        }
    }
    if (lines != 1000 || documents < 200 || documents > 800) {
        printf("mutants.c: %d lines with %d documents\n", lines, documents);
        wrong = 1;
    }
    simd_json_close(&parser);
    free(line);
    fclose(file);
    return wrong;
}
