/* log.c: prints status and path of each line of a log, and where and why a line is no document.
 * cc log.c $(pkg-config --cflags --libs simd_json) -o log && ./log log.jsonl */
#define _POSIX_C_SOURCE 200809L
#include <errno.h>
#include <simd_json.h>
#include <stdio.h>
#include <stdlib.h>
#include <string.h>
#include <sys/types.h>

/* A line in memory that is kept, and a copy of it, which the parse overwrites. */
struct line {
    char *text, *copy;
    size_t capacity;
};

static const simd_json_node *find(const simd_json_document *d, const char *pointer, uint32_t kind) {
    size_t at = simd_json_pointer(d->nodes, d->nodes_len, d->text, d->text_len, 0, pointer, strlen(pointer));
    return at != SIMD_JSON_NO_NODE && d->nodes[at].kind == kind ? &d->nodes[at] : NULL;
}

/* Prints the line, or what is wrong with it; returns whether it was right. */
static int print_line(simd_json_parser *parser, struct line *line, size_t len, const char *name, size_t number) {
    simd_json_document d;
    simd_json_place place;
    memcpy(line->copy, line->text, len);
    int32_t status = simd_json_parser_parse(parser, line->copy, len, &d, &place);
    if (status != SIMD_JSON_OK) {
        simd_json_position at = {0, 0, 0, 0};
        char reason[SIMD_JSON_REASON_MAX];
        size_t reason_len = 0;
        simd_json_location(line->text, len, number, status, &place, &at, reason, sizeof reason, &reason_len);
        printf("%s:%zu:%zu: %.*s\n", name, at.line, at.column, (int)reason_len, reason);
        return 0;
    }
    const simd_json_node *code = find(&d, "/status", SIMD_JSON_U64), *path = find(&d, "/path", SIMD_JSON_STRING);
    if (!code || !path) {
        printf("%s:%zu: no status, or no path\n", name, number);
        return 0;
    }
    printf("%llu %.*s\n", (unsigned long long)code->value, (int)path->len, d.text + path->value);
    return 1;
}

int main(int argc, char **argv) {
    FILE *file = argc == 2 ? fopen(argv[1], "r") : NULL;
    simd_json_parser parser = {0};
    if (!file || simd_json_open(&parser, 1024) != SIMD_JSON_OK) {
        fprintf(stderr, "log FILE: %s\n", argc == 2 ? strerror(errno) : "one argument");
        return 2;
    }
    struct line line = {NULL, NULL, 0};
    size_t capacity = 0, number = 0;
    ssize_t len;
    int is_right = 1;
    while ((len = getline(&line.text, &capacity, file)) >= 0) {
        if (line.capacity < capacity) {
            free(line.copy);
            line.copy = malloc(line.capacity = capacity);
            if (!line.copy)
                abort();
        }
        is_right &= print_line(&parser, &line, (size_t)len, argv[1], ++number);
    }
    free(line.text);
    free(line.copy);
    simd_json_close(&parser);
    fclose(file);
    return !is_right;
}
