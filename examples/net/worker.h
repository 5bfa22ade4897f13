// The threads that establish connections: as many as there are connections to establish, up to a bound.
#ifndef NET_WORKER_H
#define NET_WORKER_H

#include "handshake.h"
#include "pool.h"

enum { WORKERS_MOST = 256, REST_MOST = 30000 }; // milliseconds for which a worker waits for another job

struct worker {
    struct worker *next;
    client_t *client;
    pthread_t thread;
    int cancel; // an eventfd
    bool done;
    struct pooled *spare; // the place of the next connection
    struct handshake shake;
};

// Starts workers until each job has one or the bound is met. Answers whether nothing was missing for that. The lock is held.
bool workers_start(client_t *client);

// Makes what they do end. The lock is held.
void workers_cancel(client_t *client);

// Takes a worker that has ended out of the list, NULL where there is none. The lock is held.
struct worker *worker_ended(client_t *client);

// Frees it. Not under the lock.
void worker_free(struct worker *worker);

#endif
