// A client, and what its threads share. The lock is held around each step of its driver and the reading of its facts.
#ifndef NET_CLIENT_H
#define NET_CLIENT_H

#include "mdb.h"
#include "mdb_net.h"
#include "notices.h"
#include "options.h"
#include "scram.h"
#include "table.h"
#include "threads.h"

struct monitor;
struct worker;
struct pooled;
struct waiter;
struct lookup;
struct server_session;

enum { CLUSTER_ROOM = 512 };
enum { LINE_ROOM = SEED_MOST * (ADDRESS_ROOM + 20) + 1024 }; // of the line of the topology, and of the one that opens

struct mdb_net_client {
    pthread_mutex_t lock;
    mdb_slot slot;
    uint64_t began; // nanoseconds of the monotonic clock: the moment 0
    struct options options;
    struct tls_context *tls; // NULL where bytes go as they are
    struct scram_keys keys;  // of the last proof
    uint32_t tells, rescan;
    char dns[ADDRESS_ROOM]; // empty for the machine's
    pthread_cond_t changed; // the topology changed, or all is to stop
    pthread_cond_t jobs;    // a connection is to be established, or all is to stop
    pthread_cond_t keeping; // the keeper has something to do
    pthread_cond_t left;    // no operation runs any more
    pthread_t keeper, poller;
    struct lookup *lookup; // of the poller, which runs where there is one

    struct table monitors;         // those that are open, by their pools
    struct monitor *every_monitor; // also those that are closing
    bool unfit;                    // a pool was opened or closed: the monitors may be others than they should
    struct worker *workers;
    uint32_t working, resting; // how many workers there are, and how many wait for a job
    uint32_t pending;          // connections that no worker has taken

    struct table conns;          // the sockets of connections, by their names
    struct pooled *held;         // those that parties hold
    struct table waiters;        // callers of check-outs, by their parties
    struct table granted;        // those to whom a connection was granted, by its name
    struct waiter *first, *last; // those who are in a queue, the one that came first in front
    uint64_t maintained;         // when the pools were last looked after

    uint32_t last_party, last_watcher, watchers, operations, turn;
    bool stopping;       // no operation begins
    bool stopped;        // no operation runs, and the driver has stopped
    bool ended;          // no thread runs
    bool ending;         // a stop has begun
    mdb_net_code failed; // why it ended before, or OK
    struct stream lines, log;
    struct server_session *sessions; // that nobody uses, the one that was used last in front
    uint64_t cluster_time;           // the latest of the cluster's clock that a reply told, and its document
    size_t cluster_length;
    uint8_t cluster_document[CLUSTER_ROOM];
    uint64_t published; // how often libmdb had told of the topology when the last line was told
    char last_line[LINE_ROOM], line[LINE_ROOM];
    mdb_net_counts counts;
};

typedef struct mdb_net_client client_t;

static inline void client_lock(client_t *client) { pthread_mutex_lock(&client->lock); }
static inline void client_unlock(client_t *client) { pthread_mutex_unlock(&client->lock); }
static inline void client_wait(client_t *client, pthread_cond_t *condition, uint64_t until) { condition_wait(condition, &client->lock, until); }

static inline const uint8_t *bytes_of(const char *text) { return (const uint8_t *)text; }

#endif
