// How the library asks for memory: by malloc, realloc and free. A program may link three functions of its own in place of this file.
#include <stdbool.h>
#include <stdlib.h>

// Whether there was memory, and where it begins.
struct block {
    bool ok;
    void *at;
};

struct block rattle_alloc(size_t size, size_t align) {
    void *at = malloc(size ? size : align);
    return (struct block){at != 0, at};
}

struct block rattle_realloc(void *at, size_t old_size, size_t size, size_t align) {
    (void)old_size;
    void *moved = realloc(at, size ? size : align);
    return (struct block){moved != 0, moved};
}

void rattle_dealloc(void *at) { free(at); }
