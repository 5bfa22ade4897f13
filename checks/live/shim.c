// For trials: what this machine gives is refused or comes late, where the environment says so. Preloaded: cc -shared -fPIC shim.c -o shim.so
//
// SHIM_MALLOC=n     the n-th allocation is refused; n+ refuses all from there on; n/m also each m-th behind it; random:n one of n, by a fixed rule
// SHIM_THREADS=n-m  the n-th to the m-th thread is not started, of those that are started with attributes, and with SHIM_ANY_THREAD of all
// SHIM_EVENTS=n-m   the n-th to the m-th eventfd is refused
// SHIM_WAKE=ms      who waits on a condition of its own stack wakes so many milliseconds late
// SHIM_CONNECT=ms   a connect takes so many milliseconds more
#define _GNU_SOURCE
#include <dlfcn.h>
#include <errno.h>
#include <pthread.h>
#include <stdatomic.h>
#include <stdint.h>
#include <stdlib.h>
#include <string.h>
#include <sys/socket.h>
#include <time.h>

extern void *__libc_malloc(size_t), *__libc_calloc(size_t, size_t), *__libc_realloc(void *, size_t);

static atomic_ulong allocations, threads, events, denied;
static unsigned long first, step, one_of, least[2] = { 1, 1 }, most[2];
static int onwards;
static long wake, linger;
static atomic_int ready;

static void read_range(const char *name, int which) {
    const char *given = getenv(name);
    if (!given) return;
    least[which] = strtoul(given, NULL, 10);
    most[which] = strchr(given, '-') ? strtoul(strchr(given, '-') + 1, NULL, 10) : least[which];
}

__attribute__((constructor)) static void begin(void) {
    const char *given = getenv("SHIM_MALLOC");
    if (given && !strncmp(given, "random:", 7)) one_of = strtoul(given + 7, NULL, 10);
    else if (given) {
        first = strtoul(given, NULL, 10);
        onwards = strchr(given, '+') != NULL;
        step = strchr(given, '/') ? strtoul(strchr(given, '/') + 1, NULL, 10) : 0;
    }
    read_range("SHIM_THREADS", 0);
    read_range("SHIM_EVENTS", 1);
    wake = getenv("SHIM_WAKE") ? atol(getenv("SHIM_WAKE")) : 0;
    linger = getenv("SHIM_CONNECT") ? atol(getenv("SHIM_CONNECT")) : 0;
    ready = 1;
}

static int is_refused(void) {
    if (!ready || (!first && !one_of)) return 0;
    unsigned long number = ++allocations;
    if (one_of) return number > 50 && ((number * 0x9E3779B97F4A7C15u) >> 33) % one_of == 0;
    if (number == first || (onwards && number > first)) return 1;
    return step && number > first && (number - first) % step == 0;
}

static void *refuse(void) {
    denied++;
    errno = ENOMEM;
    return NULL;
}

void *malloc(size_t size) { return is_refused() ? refuse() : __libc_malloc(size); }
void *calloc(size_t count, size_t size) { return is_refused() ? refuse() : __libc_calloc(count, size); }
void *realloc(void *at, size_t size) { return is_refused() ? refuse() : __libc_realloc(at, size); }

static void sleep_for(long milliseconds) { nanosleep(&(struct timespec){ milliseconds / 1000, milliseconds % 1000 * 1000000 }, NULL); }

int pthread_create(pthread_t *thread, const pthread_attr_t *attributes, void *(*run)(void *), void *given) {
    static int (*real)(pthread_t *, const pthread_attr_t *, void *(*)(void *), void *);
    if (!real) real = (int (*)(pthread_t *, const pthread_attr_t *, void *(*)(void *), void *))dlsym(RTLD_NEXT, "pthread_create");
    if (!attributes && !getenv("SHIM_ANY_THREAD")) return real(thread, attributes, run, given);
    unsigned long number = ++threads;
    return number >= least[0] && number <= most[0] ? EAGAIN : real(thread, attributes, run, given);
}

int eventfd(unsigned int value, int flags) {
    static int (*real)(unsigned int, int);
    if (!real) real = (int (*)(unsigned int, int))dlsym(RTLD_NEXT, "eventfd");
    unsigned long number = ++events;
    if (number < least[1] || number > most[1]) return real(value, flags);
    errno = EMFILE;
    return -1;
}

int connect(int fd, const struct sockaddr *to, socklen_t size) {
    static int (*real)(int, const struct sockaddr *, socklen_t);
    if (!real) real = (int (*)(int, const struct sockaddr *, socklen_t))dlsym(RTLD_NEXT, "connect");
    if (linger) sleep_for(linger);
    return real(fd, to, size);
}

// Late, with the lock given back meanwhile: as where the machine has no time for the thread.
static void come_late(const void *condition, const void *here, pthread_mutex_t *lock) {
    uintptr_t at = (uintptr_t)condition, stack = (uintptr_t)here;
    if (!wake || at < stack || at - stack > 65536) return;
    pthread_mutex_unlock(lock);
    sleep_for(wake);
    pthread_mutex_lock(lock);
}

int pthread_cond_wait(pthread_cond_t *condition, pthread_mutex_t *lock) {
    static int (*real)(pthread_cond_t *, pthread_mutex_t *);
    int here = 0;
    if (!real) real = (int (*)(pthread_cond_t *, pthread_mutex_t *))dlvsym(RTLD_NEXT, "pthread_cond_wait", "GLIBC_2.3.2");
    int status = real(condition, lock);
    come_late(condition, &here, lock);
    return status;
}

int pthread_cond_timedwait(pthread_cond_t *condition, pthread_mutex_t *lock, const struct timespec *until) {
    static int (*real)(pthread_cond_t *, pthread_mutex_t *, const struct timespec *);
    int here = 0;
    if (!real) real = (int (*)(pthread_cond_t *, pthread_mutex_t *, const struct timespec *))dlvsym(RTLD_NEXT, "pthread_cond_timedwait", "GLIBC_2.3.2");
    int status = real(condition, lock, until);
    come_late(condition, &here, lock);
    return status;
}
