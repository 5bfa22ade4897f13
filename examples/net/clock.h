// The monotonic clock, in nanoseconds, and deadlines of it.
#ifndef NET_CLOCK_H
#define NET_CLOCK_H

#include <stdint.h>
#include <time.h>

#define NO_DEADLINE UINT64_MAX
#define MILLISECOND 1000000ull

static inline uint64_t clock_now(void) {
    struct timespec now;
    clock_gettime(CLOCK_MONOTONIC, &now);
    return (uint64_t)now.tv_sec * 1000000000u + (uint64_t)now.tv_nsec;
}

// The moment so many milliseconds from now; 0 stands for no bound.
static inline uint64_t deadline_in(uint64_t milliseconds) { return milliseconds ? clock_now() + milliseconds * MILLISECOND : NO_DEADLINE; }

static inline uint64_t earlier(uint64_t one, uint64_t other) { return one < other ? one : other; }

#endif
