/* What a check needs of the library. Where something else comes it says so, behind the name PROGRAM, and the program ends. */
#include "blink.h"

#include <stdbool.h>
#include <stdio.h>
#include <stdlib.h>

static inline void need(int32_t answer, int32_t wanted, const char *what) {
    if (answer == wanted) return;
    fprintf(stderr, PROGRAM ": %s: %s, in place of %s\n", what, blink_text(answer), blink_text(wanted));
    exit(1);
}

static inline void holds(bool fact, const char *what) {
    need(fact ? BLINK_OK : BLINK_ABSENT, BLINK_OK, what);
}
