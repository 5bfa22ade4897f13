// Threads of a client, and conditions of the monotonic clock.
#ifndef NET_THREADS_H
#define NET_THREADS_H

#include "clock.h"
#include <pthread.h>
#include <stdbool.h>

void condition_init(pthread_cond_t *condition);

// Waits on a condition until that moment of the monotonic clock.
void condition_wait(pthread_cond_t *condition, pthread_mutex_t *lock, uint64_t until);

// Starts a thread that takes no signals, with a stack that is enough whatever the C library's default is. Answers whether it runs.
bool thread_start(pthread_t *thread, void *(*run)(void *), void *given);

#endif
