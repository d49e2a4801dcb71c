// What several tests of the C library begin with.
#include <simd_json.h>
#include <stdio.h>
#include <stdlib.h>
#include <string.h>

// Ends the test with status 1 where the condition does not hold, and prints the place and the condition.
#define WANT(condition)                                                                   \
    do {                                                                                  \
        if (!(condition)) printf("%s:%d: %s\n", __FILE__, __LINE__, #condition), exit(1); \
    } while (0)
