// Stands before the C library (LD_PRELOAD): counts the allocations, reads and writes of a program from the start of its
// `main` to its end, and lets one of them fail.
//
// FAULT_KIND    `allocation` (refused), `read` or `write` (an error EIO), `short_read` or `short_write` (moves one byte)
// FAULT_AT      the number of that call among the calls of its sort, from 1; 0: each of them
// FAULT_COUNTS  the descriptor of the file to which the three counts are told at the end, each time in a line
// FAULT_EACH    where it is set, they are told at each write too
#define _GNU_SOURCE
#include <dlfcn.h>
#include <errno.h>
#include <stdio.h>
#include <stdlib.h>
#include <string.h>
#include <sys/syscall.h>
#include <sys/uio.h>
#include <unistd.h>

enum sort { ALLOCATION, READ, WRITE, SORTS };
enum effect { NONE, FAILS, SHORT };

static int is_counting;
static long counts[SORTS];
static enum sort fault_sort;
static enum effect fault_effect;
static long fault_at;
static int is_each_told;

static const struct {
    const char *kind;
    enum sort sort;
    enum effect effect;
} KINDS[] = {
    {"allocation", ALLOCATION, FAILS},
    {"read", READ, FAILS},
    {"write", WRITE, FAILS},
    {"short_read", READ, SHORT},
    {"short_write", WRITE, SHORT},
};

// Counts a call, and says what befalls it.
static enum effect effect_of(enum sort sort) {
    if (!is_counting) return NONE;
    counts[sort]++;
    if (sort != fault_sort) return NONE;
    return fault_at == 0 || counts[sort] == fault_at ? fault_effect : NONE;
}

static void tell_counts(void) {
    const char *file = getenv("FAULT_COUNTS");
    char text[80];
    if (file) {
        int length = snprintf(text, sizeof text, "%ld %ld %ld\n", counts[ALLOCATION], counts[READ], counts[WRITE]);
        syscall(SYS_write, atoi(file), text, length);
    }
}

// The function that is called where this file stands before it.
#define NEXT(name)                      \
    static __typeof__(name) *next;      \
    if (!next) next = (__typeof__(name) *)dlsym(RTLD_NEXT, #name)

#define REFUSE(answer)                          \
    if (effect_of(ALLOCATION) == FAILS) {       \
        errno = ENOMEM;                         \
        return answer;                          \
    }

#define FAIL(effect)            \
    if (effect == FAILS) {      \
        errno = EIO;            \
        return -1;              \
    }

void *malloc(size_t size) {
    NEXT(malloc);
    REFUSE(NULL);
    return next(size);
}

void *calloc(size_t count, size_t size) {
    NEXT(calloc);
    REFUSE(NULL);
    return next(count, size);
}

void *realloc(void *old, size_t size) {
    NEXT(realloc);
    REFUSE(NULL);
    return next(old, size);
}

void *aligned_alloc(size_t align, size_t size) {
    NEXT(aligned_alloc);
    REFUSE(NULL);
    return next(align, size);
}

int posix_memalign(void **to, size_t align, size_t size) {
    NEXT(posix_memalign);
    REFUSE(ENOMEM);
    return next(to, align, size);
}

// The size that a call moves.
static size_t moved(enum effect effect, size_t size) { return effect == SHORT && size > 1 ? 1 : size; }

ssize_t read(int file, void *to, size_t size) {
    NEXT(read);
    enum effect effect = effect_of(READ);
    FAIL(effect);
    return next(file, to, moved(effect, size));
}

ssize_t pread(int file, void *to, size_t size, off_t at) {
    NEXT(pread);
    enum effect effect = effect_of(READ);
    FAIL(effect);
    return next(file, to, moved(effect, size), at);
}

ssize_t write(int file, const void *from, size_t size) {
    NEXT(write);
    enum effect effect = effect_of(WRITE);
    if (is_each_told) tell_counts();
    FAIL(effect);
    return next(file, from, moved(effect, size));
}

// The C library's other name of `write`.
ssize_t __write(int file, const void *from, size_t size) { return write(file, from, size); }

// The first byte of several parts.
static struct iovec first_byte(const struct iovec *parts, int count) {
    struct iovec first = {NULL, 0};
    for (int i = 0; i < count && !first.iov_len; i++) {
        first = parts[i];
    }
    first.iov_len = moved(SHORT, first.iov_len);
    return first;
}

ssize_t readv(int file, const struct iovec *parts, int count) {
    NEXT(readv);
    enum effect effect = effect_of(READ);
    FAIL(effect);
    struct iovec first = first_byte(parts, count);
    return effect == SHORT ? next(file, &first, 1) : next(file, parts, count);
}

ssize_t writev(int file, const struct iovec *parts, int count) {
    NEXT(writev);
    enum effect effect = effect_of(WRITE);
    FAIL(effect);
    struct iovec first = first_byte(parts, count);
    return effect == SHORT ? next(file, &first, 1) : next(file, parts, count);
}

typedef int main_function(int, char **, char **);

static main_function *main_of_program;

static int counted_main(int count, char **words, char **environment) {
    is_counting = 1;
    return main_of_program(count, words, environment);
}

// Reads which fault is asked for, before any call is counted.
static void read_fault(void) {
    const char *kind = getenv("FAULT_KIND"), *at = getenv("FAULT_AT");
    for (size_t i = 0; kind && i < sizeof KINDS / sizeof KINDS[0]; i++) {
        if (strcmp(kind, KINDS[i].kind) == 0) {
            fault_sort = KINDS[i].sort;
            fault_effect = KINDS[i].effect;
        }
    }
    fault_at = at ? atol(at) : 0;
    is_each_told = getenv("FAULT_EACH") != NULL;
}

int __libc_start_main(main_function *main, int count, char **words, void (*start)(void), void (*end)(void),
                      void (*unload)(void), void *stack) {
    NEXT(__libc_start_main);
    read_fault();
    main_of_program = main;
    return next(counted_main, count, words, start, end, unload, stack);
}

__attribute__((destructor)) static void end(void) {
    is_counting = 0;
    tell_counts();
}

// A program that may start threads ends so, with no call of a destructor.
void _exit(int status) {
    end();
    syscall(SYS_exit_group, status);
    __builtin_unreachable();
}
