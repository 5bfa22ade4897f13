// The monitors: a thread for each server that checks it, and one beside it that measures round trips.
#ifndef NET_MONITOR_H
#define NET_MONITOR_H

#include "driver.h"
#include "handshake.h"

enum { LEAST_WAIT = 500 }; // minHeartbeatFrequencyMS

struct monitor {
    struct node node; // by its pool, while it is open
    client_t *client;
    struct monitor *next;
    char address[ADDRESS_ROOM];
    uint32_t pool;                // the number of the pool for which the server is monitored
    char name[ADDRESS_ROOM + 12]; // both, as libmdb names a monitor
    pthread_t thread, rtt_thread;
    pthread_cond_t news;
    // Under the lock:
    bool checking, wanted, closed, streams, started, done, rtt_started, rtt_done;
    // The checking thread's own:
    struct conn conn;
    struct handshake shake;
    char outcome[ERROR_ROOM + 64];
    // The measuring thread's own:
    struct conn rtt_conn;
    struct handshake rtt_shake;
};

// What a fact means for the monitors: a check is wanted or cancelled, or a pool was opened or closed, and then they are to be fitted. The lock is held.
void monitors_fact(client_t *client, const mdb_fact *fact);

// Starts a monitor for each pool that is open and has none, and closes those of other pools. Answers whether nothing was missing for that. The lock is held.
bool monitors_fit(client_t *client);

// Wakes all that sleep, since somebody waits for a server. The lock is held.
void monitors_wake(client_t *client);

// Closes all. The lock is held.
void monitors_close(client_t *client);

// Takes a monitor whose threads have ended out of the list, NULL where there is none. The lock is held.
struct monitor *monitor_ended(client_t *client);

// Frees it. Not under the lock.
void monitor_free(struct monitor *monitor);

// The thread that measures round trips.
void *rtt_run(void *monitor);

#endif
