/* Begins the module of the release: one file with the module for two levels of the processor. It is
 * the faster that the processor has, or x86-64-v2 where SIMD_JSON_CPU is that. */
#define Py_LIMITED_API 0x030a0000
#include <Python.h>
#include <stdlib.h>
#include <string.h>

__attribute__((visibility("hidden"))) PyObject *begin_v2(void), *begin_v3(void);

PyMODINIT_FUNC PyInit__native(void) {
    const char *level = getenv("SIMD_JSON_CPU");
    __builtin_cpu_init();
    if (__builtin_cpu_supports("x86-64-v3") && !(level && strcmp(level, "x86-64-v2") == 0))
        return begin_v3();
    if (__builtin_cpu_supports("x86-64-v2"))
        return begin_v2();
    PyErr_SetString(PyExc_ImportError, "simd_json needs a processor with all that x86-64-v2 asks"
                                       " for (SSE4.2, POPCNT)");
    return NULL;
}
