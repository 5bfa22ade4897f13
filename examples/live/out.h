// What the program writes: the lines of a client and its log, each by a thread of its own, so that a reader that stops stops nothing else.
#ifndef LIVE_OUT_H
#define LIVE_OUT_H

#include "mdb_net.h"
#include <pthread.h>
#include <stdatomic.h>

struct writer {
    mdb_net_client *client;
    pthread_t thread;
    uint32_t stream; // MDB_NET_LINES or MDB_NET_LOG
    int fd;
    atomic_bool ending; // nobody waits any more for a reader that has stopped
    uint64_t lost;      // notices that were left out
    bool broken;        // nobody reads any more, or there is no room
};

bool writer_start(struct writer *writer);

// Waits for the writer, after its client has been stopped: a second longer where its reader has stopped. Answers whether it ended.
bool writer_join(struct writer *writer);

// Writes a text of the end, within a second. Answers whether all of it was written.
bool out_write(int fd, const char *text, size_t length, const atomic_bool *ending);

#endif
