// Counts the calls that take memory, and fails the one that FAIL_ALLOC numbers, from 1. It is linked in the place of those calls
// (docs/TESTING.md, "Memory"). `rt try --fail-alloc N` has the number as a constant, and so builds the program for each number anew.
#include <stdlib.h>

typedef struct {
    long block;
    long size;
} Room;

Room rattle_alloc(long, long);
Room rattle_realloc(long, long, long, long);

static long calls;
static long failing = -1;

static int fails(void) {
    if (failing < 0) {
        const char *number = getenv("FAIL_ALLOC");
        failing = number ? atol(number) : 0;
    }
    return ++calls == failing;
}

Room try_rattle_alloc(long size, long align) {
    return fails() ? (Room){0, 0x1000} : rattle_alloc(size, align);
}

Room try_rattle_realloc(long block, long old, long size, long align) {
    return fails() ? (Room){0, 0x1000} : rattle_realloc(block, old, size, align);
}
