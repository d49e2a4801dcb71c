/* Begins a program of the release: one file, which can be copied alone, with the program for two levels of the processor. It runs
 * the faster that the processor has, or x86-64-v2 where SIMD_JSON_CPU is that.
 *
 * It is linked in place of the C library's own start, which asks for glibc 2.34. This asks for 2.2.5. */
#include <stdio.h>
#include <stdlib.h>
#include <string.h>

typedef int entry(int, char **, char **);
typedef void function(int, char **, char **);

entry main_v2, main_v3;

__asm__(".symver __libc_start_main, __libc_start_main@GLIBC_2.2.5");
int __libc_start_main(entry *, int, char **, function *init, void (*fini)(void), void (*loader_fini)(void), void *stack_end);

/* What each level asks the processor for as it begins, which glibc has from 2.33 on. `main` has tested that already, so all is
 * reported as there. */
__attribute__((visibility("hidden"))) const unsigned *__x86_get_cpuid_feature_leaf(unsigned leaf) {
    static const unsigned all[] = {~0u, ~0u, ~0u, ~0u, ~0u, ~0u, ~0u, ~0u};
    (void)leaf;
    return all;
}

int main(int argc, char **argv, char **environment) {
    const char *level = getenv("SIMD_JSON_CPU");
    __builtin_cpu_init();
    if (__builtin_cpu_supports("x86-64-v3") && !(level && strcmp(level, "x86-64-v2") == 0))
        return main_v3(argc, argv, environment);
    if (__builtin_cpu_supports("x86-64-v2"))
        return main_v2(argc, argv, environment);
    fputs("this program needs a processor with all that x86-64-v2 asks for (SSE4.2, POPCNT)\n", stderr);
    return 127;
}

extern function *__init_array_start[], *__init_array_end[];

static void init(int argc, char **argv, char **environment) {
    for (function **next = __init_array_start; next != __init_array_end; next++)
        (*next)(argc, argv, environment);
}

__attribute__((noreturn, used)) static void begin(void (*loader_fini)(void), long *stack) {
    exit(__libc_start_main(main, (int)*stack, (char **)(stack + 1), init, NULL, loader_fini, stack));
}

__asm__(".globl _start\n"
        "_start:\n"
        "    xor %ebp, %ebp\n"
        "    mov %rdx, %rdi\n"
        "    mov %rsp, %rsi\n"
        "    and $-16, %rsp\n"
        "    call begin\n");
