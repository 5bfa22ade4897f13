/* What C beside the library asks of a C library in WebAssembly: memory, over that of heap_wasm.c, and the lengths of texts. No proof covers this file. */
#include <stdlib.h>
#include <string.h>

enum { HEAD = 16 }; /* bytes before a block, which hold its length */

void *mdb_room(size_t length);
void mdb_room_back(void *at);

static size_t *length_of(void *at) { return (size_t *)((char *)at - HEAD); }

void *malloc(size_t length) {
    char *block = length <= (size_t)1 << 31 ? mdb_room(length + HEAD) : NULL;
    if (!block) return NULL;
    *(size_t *)block = length;
    return block + HEAD;
}

void free(void *at) {
    if (at) mdb_room_back((char *)at - HEAD);
}

void *calloc(size_t count, size_t length) {
    size_t whole;
    void *at = __builtin_mul_overflow(count, length, &whole) ? NULL : malloc(whole);
    return at ? memset(at, 0, whole) : NULL;
}

void *realloc(void *at, size_t length) {
    void *moved = malloc(length);
    if (moved && at) {
        memcpy(moved, at, *length_of(at) < length ? *length_of(at) : length);
        free(at);
    }
    return moved;
}

size_t strlen(const char *text) {
    size_t length = 0;
    while (text[length]) length++;
    return length;
}

void *memchr(const void *in, int value, size_t length) {
    const unsigned char *at = in;
    for (; length > 0; at++, length--)
        if (*at == (unsigned char)value) return (void *)at;
    return NULL;
}
