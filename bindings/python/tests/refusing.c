/* A heap for libmdb that refuses one allocation: the one of this number from now on, counted from 0; none where the number is negative. */
#include <stdbool.h>
#include <stdlib.h>

struct block {
    bool ok;
    void *at;
};

static long left = -1;

void mdb_test_refuse(long number) {
    left = number;
}

/* Whether the number has come since. */
int mdb_test_refused(void) {
    return left < 0;
}

static bool refuses(void) {
    return left >= 0 && left-- == 0;
}

struct block rattle_alloc(size_t size, size_t align) {
    void *at = refuses() ? NULL : malloc(size ? size : align);
    return (struct block){at != NULL, at};
}

struct block rattle_realloc(void *at, size_t old_size, size_t size, size_t align) {
    (void)old_size;
    void *moved = refuses() ? NULL : realloc(at, size ? size : align);
    return (struct block){moved != NULL, moved};
}

void rattle_dealloc(void *at) {
    free(at);
}
