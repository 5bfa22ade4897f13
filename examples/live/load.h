// A load: threads that insert, and what they came to.
#ifndef LIVE_LOAD_H
#define LIVE_LOAD_H

#include "mdb_net.h"
#include <pthread.h>
#include <stdatomic.h>

enum { LOADERS_MOST = 1024, CODES_MOST = 16 };

// What one thread came to.
struct tally {
    uint64_t fine, unselected, network, timeout, other, changed, unchanged;
    uint64_t cleared, failed, closed, timed_out; // check-outs that came to nothing
    struct {
        int code;
        uint64_t count;
    } codes[CODES_MOST]; // errors that servers told, by their numbers
};

struct load;

struct loader {
    struct load *load;
    pthread_t thread;
    uint32_t number;
    struct tally tally;
};

struct load {
    mdb_net_client *client;
    unsigned count, pace; // threads; milliseconds between two inserts of one
    atomic_bool stopping;
    atomic_uint running;
    struct loader loaders[LOADERS_MOST];
};

// Starts the threads. Answers whether all run; those that do are to be joined.
bool load_start(struct load *load);

// Lets them end: they have half a second for what they do.
void load_stop(struct load *load);

// Waits for them, once their client has been stopped.
void load_join(struct load *load);

// Writes what all threads came to, with the counts of the facts. Answers how long it is.
size_t load_tell(const struct load *load, const mdb_net_counts *counts, char *out, size_t room);

#endif
