/* What a program asks of the system, in WebAssembly: standard input is a text that the host hands in, and what the program writes is kept for the host. A
 * program that ended is not run again: the host makes another instance of the module. No proof covers this file. */
#include <stddef.h>
#include <stdint.h>
#include <stdlib.h>
#include <string.h>

enum { STANDARD_INPUT, OUTPUT, ERRORS, FILES, BAD_FILE = 9, NO_SPACE = 28 };

static const uint8_t *given, *words; /* what is read, and the program's words, each with a zero behind it */
static size_t given_length, given_at, words_length;
static int32_t error;
static struct {
    uint8_t *at;
    size_t length, room;
} written[FILES];

/* The program's own main, which is renamed; some have parameters that they do not look at. */
#ifdef MAIN_HAS_WORDS
int32_t program_main(int32_t count, void *words);
#define PROGRAM program_main(0, NULL)
#else
int32_t program_main(void);
#define PROGRAM program_main()
#endif

ptrdiff_t read(int32_t file, void *to, size_t length) {
    size_t rest = given_length - given_at, taken = length < rest ? length : rest;
    if (file != STANDARD_INPUT) {
        error = BAD_FILE;
        return -1;
    }
    memcpy(to, given + given_at, taken);
    given_at += taken;
    return (ptrdiff_t)taken;
}

static int has_room(int32_t file, size_t length) {
    size_t wanted = written[file].length + length;
    if (wanted <= written[file].room) return 1;
    void *moved = realloc(written[file].at, 2 * wanted);
    if (!moved) return 0;
    written[file].at = moved;
    written[file].room = 2 * wanted;
    return 1;
}

ptrdiff_t write(int32_t file, const void *from, size_t length) {
    if (file != OUTPUT && file != ERRORS) {
        error = BAD_FILE;
        return -1;
    }
    if (!has_room(file, length)) {
        error = NO_SPACE;
        return -1;
    }
    memcpy(written[file].at + written[file].length, from, length);
    written[file].length += length;
    return (ptrdiff_t)length;
}

/* The same by the name that glibc has for it. */
ptrdiff_t __write(int32_t file, const void *from, size_t length) { return write(file, from, length); }

/* glibc's leaves of <sys/platform/x86.h>: a program asks at its start whether it may run here. Its module has no instruction of x86-64, so it may. */
const uint32_t *__x86_get_cpuid_feature_leaf(uint32_t leaf) {
    static const uint32_t every[8] = {UINT32_MAX, UINT32_MAX, UINT32_MAX, UINT32_MAX, UINT32_MAX, UINT32_MAX, UINT32_MAX, UINT32_MAX};
    (void)leaf;
    return every;
}

/* As packaging/system.c has it; the first word is the program's name. */
ptrdiff_t rattle_arg(size_t at, uint8_t *out, size_t room) {
    size_t begins = 0, ends = 0;
    for (size_t i = 0; ends < words_length; i++) {
        begins = ends;
        while (words[ends]) ends++;
        if (i == at) {
            if (ends - begins > room) return -2;
            memcpy(out, words + begins, ends - begins);
            return (ptrdiff_t)(ends - begins);
        }
        ends++;
    }
    return -1;
}

size_t rattle_arg_count(void) {
    size_t count = 0;
    for (size_t i = 0; i < words_length; i++) count += words[i] == 0;
    return count;
}

int32_t rattle_errno(void) { return error; }
void rattle_set_errno(int32_t to) { error = to; }

/* There are no signals. */
void *__sysv_signal(int32_t number, void *handler) {
    (void)number, (void)handler;
    return NULL;
}

/* Runs the program over a text, with its words, and answers its status. */
int32_t mdb_run(const uint8_t *text, size_t length, const uint8_t *its_words, size_t its_words_length) {
    given = text;
    given_length = length;
    words = its_words;
    words_length = its_words_length;
    return PROGRAM;
}

/* What it wrote to its output, 1, or of its errors, 2. */
const uint8_t *mdb_written(int32_t file) { return written[file].at; }
size_t mdb_written_length(int32_t file) { return written[file].length; }
