/* Arrays that grow. */
#ifndef GROW_H
#define GROW_H

#include <stddef.h>
#include <stdlib.h>

/* The same elements, of `size` bytes each, with room for at least `wanted` of them; NULL where there is no memory, and nothing is changed then. */
static inline void *grown(void *at, size_t *room, size_t wanted, size_t size) {
    size_t more = *room < 8 ? 8 : *room;
    while (more < wanted) more *= 2;
    void *moved = realloc(at, more * size);
    if (moved) *room = more;
    return moved;
}

#endif
