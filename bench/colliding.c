/* Writes ids of connections that stand at one place in a table of the kit's HashMap, whose hash has a fixed seed.
 *
 * usage: colliding COUNT
 *
 * The key of a connection is three numbers of 32 bits: its pool, which is 0 here, its id, and 0. The hash takes each in turn, and the lowest bits of
 * what comes out are where the search for the key begins. COUNT ids are written whose lowest bits are the same, one a line: as many of those bits as
 * a table of COUNT keys reads.
 */
#include <inttypes.h>
#include <stdint.h>
#include <stdio.h>
#include <stdlib.h>

static const uint64_t multiplier = 0x9e3779b97f4a7c15u, start = 0x243f6a8885a308d3u;

static uint64_t taken(uint64_t state, uint32_t number) {
    uint64_t twice = (uint64_t)number | (uint64_t)number << 32;
    unsigned __int128 product = (unsigned __int128)(state ^ twice) * (multiplier ^ 8);
    return (uint64_t)product ^ (uint64_t)(product >> 64);
}

int main(int argc, char **argv) {
    uint64_t count = argc == 2 ? strtoull(argv[1], NULL, 10) : 0, groups = 1, found = 0;
    if (count == 0) {
        fputs("usage: colliding COUNT\n", stderr);
        return 2;
    }
    while (9 * groups < count) groups *= 2;
    uint64_t pool = taken(start, 0);
    for (uint64_t id = 1; id <= UINT32_MAX && found < count; id++) {
        uint64_t hash = taken(taken(pool, (uint32_t)id), 0);
        if (((hash ^ hash >> 32) & (groups - 1)) == 0) {
            printf("%" PRIu64 "\n", id);
            found++;
        }
    }
    return found == count ? 0 : 1;
}
