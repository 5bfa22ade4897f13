// What a program asks of the system beside a C library, so that its object file links with any compiler and runs on any Linux: what the kit's own archive for
// glibc on x86-64 gives, and what glibc alone has. Nothing here is proved.
#include <errno.h>
#include <signal.h>
#include <stddef.h>
#include <stdint.h>
#include <sys/syscall.h>
#include <unistd.h>

static size_t count;
static char **given;

// The object's own main is renamed, since musl passes a constructor no arguments.
int rattle_main(int argc, char **argv);

int main(int argc, char **argv) {
    count = (size_t)argc;
    given = argv;
    return rattle_main(argc, argv);
}

size_t rattle_arg_count(void) { return count; }

// Copies argument `at` to `out`: how long it is, -2 where it does not fit, -1 where there is none.
ptrdiff_t rattle_arg(size_t at, uint8_t *out, size_t room) {
    if (at >= count || !given[at]) return -1;
    size_t n = 0;
    for (; given[at][n]; n++) {
        if (n == room) return -2;
        out[n] = (uint8_t)given[at][n];
    }
    return (ptrdiff_t)n;
}

int32_t rattle_errno(void) { return errno; }
void rattle_set_errno(int32_t to) { errno = to; }

typedef void (*handler)(int);
handler __sysv_signal(int number, handler to) { return signal(number, to); }
ssize_t __write(int file, const void *bytes, size_t n) { return write(file, bytes, n); }

// musl has it from 1.2.4 on.
__attribute__((weak)) int statx(int folder, const char *path, int flags, unsigned mask, void *to) { return (int)syscall(SYS_statx, folder, path, flags, mask, to); }

#ifdef __x86_64__
#include <cpuid.h>

// glibc's <sys/platform/x86.h>: a leaf's registers, and of these what the system lets a program use. A program asks at its start whether it may run here.
struct feature {
    unsigned cpuid[4], active[4];
};

const struct feature *__x86_get_cpuid_feature_leaf(unsigned at) {
    static const struct feature none;
    static struct feature leaves[3];
    static const unsigned of[3] = {1, 7, 0x80000001u};
    if (at > 2) return &none;
    unsigned *r = leaves[at].cpuid;
    __get_cpuid_count(of[at], 0, r, r + 1, r + 2, r + 3);
    for (int i = 0; i < 4; i++) leaves[at].active[i] = r[i];
    return &leaves[at];
}
#endif
