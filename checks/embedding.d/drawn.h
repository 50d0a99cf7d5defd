/* What programs of many threads share: the time in nanoseconds, and numbers that look random. */
#ifndef DRAWN_H
#define DRAWN_H

#include <stdint.h>
#include <time.h>

static uint64_t now(void) {
    struct timespec time;
    clock_gettime(CLOCK_MONOTONIC, &time);
    return (uint64_t)time.tv_sec * 1000000000u + (uint64_t)time.tv_nsec;
}

/* The next number below the limit. */
static uint64_t draw(uint64_t *drawn, uint64_t limit) {
    *drawn ^= *drawn << 13;
    *drawn ^= *drawn >> 7;
    *drawn ^= *drawn << 17;
    return (*drawn * 0x2545F4914F6CDD1Du >> 33) % limit;
}

#endif
