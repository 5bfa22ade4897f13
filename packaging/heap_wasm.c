/* How the library asks for memory in WebAssembly, where there is no C library: the three functions of bindings/heap.c over the module's own memory, the
 * functions that a compiler calls to copy bytes, and room for what a host hands in. A block has a power of two of bytes, the first 16 of them its head. One
 * that is given back serves the next call for its size: blocks are neither split nor joined. No proof covers this file. */
typedef __SIZE_TYPE__ size_t;
typedef unsigned char byte;

enum { HEAD = 16, LEAST = 6, SIZES = 32, PAGE = 65536, PAGES = 16 };

struct head {
    size_t power;      /* the block has two to the power of this of bytes */
    struct head *next; /* of the blocks of its size that were given back */
};

extern byte __heap_base;
static struct head *given_back[SIZES];
static size_t fresh, end; /* what no block has had yet */

/* Copies are one instruction of the module each. */
void *memcpy(void *to, const void *from, size_t length) { return __builtin_memcpy(to, from, length); }
void *memmove(void *to, const void *from, size_t length) { return __builtin_memmove(to, from, length); }
void *memset(void *to, int value, size_t length) { return __builtin_memset(to, value, length); }

int memcmp(const void *one, const void *other, size_t length) {
    const byte *left = one, *right = other;
    size_t at = 0;
    while (at < length && left[at] == right[at]) at++;
    return at < length ? left[at] - right[at] : 0;
}

int bcmp(const void *one, const void *other, size_t length) { return memcmp(one, other, length); }

/* A refused growth is -1, of 32 bits where the module was lowered to them. */
static int grow(size_t pages) {
    if ((unsigned)__builtin_wasm_memory_grow(0, pages) == (unsigned)-1) return 0;
    end += pages * PAGE;
    return 1;
}

/* Room at the end, as much as asked for: the memory grows by a megabyte at least where it can. */
static int has_room(size_t length) {
    if (fresh == 0) {
        fresh = ((size_t)&__heap_base + HEAD - 1) & ~(size_t)(HEAD - 1);
        end = __builtin_wasm_memory_size(0) * PAGE;
    }
    if (end - fresh >= length) return 1;
    size_t lacking = (length - (end - fresh) + PAGE - 1) / PAGE;
    return (lacking < PAGES && grow(PAGES)) || grow(lacking);
}

static struct head *head_of(void *at) { return (struct head *)((byte *)at - HEAD); }

static void *take(size_t length) {
    if (length > (size_t)1 << (SIZES - 2)) return 0;
    size_t power = LEAST;
    while (((size_t)1 << power) < length + HEAD) power++;
    struct head *block = given_back[power];
    if (block != 0) {
        given_back[power] = block->next;
    } else {
        if (!has_room((size_t)1 << power)) return 0;
        block = (struct head *)fresh;
        fresh += (size_t)1 << power;
    }
    block->power = power;
    return (byte *)block + HEAD;
}

static void give_back(void *at) {
    struct head *block = head_of(at);
    block->next = given_back[block->power];
    given_back[block->power] = block;
}

/* As that of bindings/heap.c; the flag fills its eight bytes. */
struct block {
    size_t ok;
    void *at;
};

struct block rattle_alloc(size_t size, size_t align) {
    void *at = take(size ? size : align);
    return (struct block){at != 0, at};
}

struct block rattle_realloc(void *at, size_t old_size, size_t size, size_t align) {
    size_t wanted = size ? size : align;
    if (wanted + HEAD <= (size_t)1 << head_of(at)->power) return (struct block){1, at};
    void *moved = take(wanted);
    if (moved == 0) return (struct block){0, 0};
    memcpy(moved, at, old_size < wanted ? old_size : wanted);
    give_back(at);
    return (struct block){1, moved};
}

void rattle_dealloc(void *at) { give_back(at); }

/* Room for a host, and the room back. */
void *mdb_room(size_t length) { return take(length); }
void mdb_room_back(void *at) { give_back(at); }
