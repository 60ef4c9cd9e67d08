/* What the tests in C share: expectations that are counted, and what a call told. */
#ifndef TOLD_H
#define TOLD_H

#include "bytes.h"

/* How much room a call is given at most, and what the room is filled with before. */
enum { ROOM = 4096, FILLER = 0xA5 };

static int passed = 0, failed = 0;

static inline void expect(bool holds, const char *what) {
    if (holds) {
        passed++;
    } else {
        failed++;
        printf("failed: %s\n", what);
    }
}

/* What a call told, and the room as it is then. */
typedef struct told {
    uint8_t number;
    size_t length;
    lanes_place place;
    uint8_t out[ROOM];
} told;

/* Says how many expectations of a test held, and gives what the process ends with. */
static inline int told_all(const char *test) {
    printf("%s: %d passed, %d failed\n", test, passed, failed);
    return failed == 0 ? 0 : 1;
}

#endif
