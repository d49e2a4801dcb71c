/* Prints the integer at the key `the_answer`: cc answer.c $(pkg-config --cflags --libs simd_json) */
#include <simd_json.h>
#include <stdio.h>
#include <string.h>

int main(void) {
    char input[] = "{\"the_answer\": 42}";
    simd_json_parser parser = {0};
    simd_json_document d;
    simd_json_place place = {0};
    int status = simd_json_open(&parser, 1024);
    if (status == SIMD_JSON_OK)
        status = simd_json_parser_parse(&parser, input, strlen(input), &d, &place);
    if (status == SIMD_JSON_OK) {
        size_t at = simd_json_pointer(d.nodes, d.nodes_len, d.text, d.text_len, 0, "/the_answer", 11);
        int64_t answer;
        if (simd_json_int64(d.nodes, d.nodes_len, at, &answer) == SIMD_JSON_OK)
            printf("%lld\n", (long long)answer);
    } else {
        fprintf(stderr, "rejected: %s at byte %zu\n", simd_json_status_text(status), place.index);
    }
    simd_json_close(&parser);
    return status != SIMD_JSON_OK;
}
