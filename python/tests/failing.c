/* Linked into a copy of the module with -Wl,--wrap=malloc,--wrap=realloc,--wrap=free: lets so many allocations succeed, and
 * counts the blocks that are allocated. */
#include <stddef.h>

void *__real_malloc(size_t);
void *__real_realloc(void *, size_t);
void __real_free(void *);

__attribute__((visibility("default"))) int simd_json_allowed = -1, simd_json_held = 0;

static int granted(void) {
    if (simd_json_allowed > 0)
        simd_json_allowed--;
    else if (simd_json_allowed == 0)
        return 0;
    return 1;
}

void *__wrap_malloc(size_t size) {
    void *block = granted() ? __real_malloc(size) : NULL;
    simd_json_held += block != NULL;
    return block;
}

void *__wrap_realloc(void *block, size_t size) {
    void *moved = granted() ? __real_realloc(block, size) : NULL;
    simd_json_held += !block && moved;
    return moved;
}

void __wrap_free(void *block) {
    simd_json_held -= block != NULL;
    __real_free(block);
}
