#include "threads.h"
#include <signal.h>

enum { STACK = 512 * 1024 };

void condition_init(pthread_cond_t *condition) {
    pthread_condattr_t of_clock;
    pthread_condattr_init(&of_clock);
    pthread_condattr_setclock(&of_clock, CLOCK_MONOTONIC);
    pthread_cond_init(condition, &of_clock);
    pthread_condattr_destroy(&of_clock);
}

void condition_wait(pthread_cond_t *condition, pthread_mutex_t *lock, uint64_t until) {
    struct timespec end = { .tv_sec = (time_t)(until / 1000000000u), .tv_nsec = (long)(until % 1000000000u) };
    if (until == NO_DEADLINE) pthread_cond_wait(condition, lock);
    else pthread_cond_timedwait(condition, lock, &end);
}

bool thread_start(pthread_t *thread, void *(*run)(void *), void *given) {
    pthread_attr_t attributes;
    sigset_t all, before;
    if (pthread_attr_init(&attributes)) return false;
    pthread_attr_setstacksize(&attributes, STACK);
    sigfillset(&all);
    pthread_sigmask(SIG_SETMASK, &all, &before);
    bool started = pthread_create(thread, &attributes, run, given) == 0;
    pthread_sigmask(SIG_SETMASK, &before, NULL);
    pthread_attr_destroy(&attributes);
    return started;
}
