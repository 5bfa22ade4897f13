// An operation: a command from its beginning to its end, with the second attempt that the standards allow.
#ifndef NET_OPERATION_H
#define NET_OPERATION_H

#include "error.h"
#include "pool.h"
#include "session.h"
#include "topology.h"
#include "traits.h"

// What an attempt came to.
struct outcome {
    struct reply reply;
    mdb_net_err err;
    uint32_t labels; // LABEL_
    struct cursor_reply cursor;
};

struct operation {
    client_t *client;
    const char *database;
    mdb_net_document document;
    mdb_net_command_options options;
    struct limit limit;
    struct traits traits;
    bool at_once;                   // a server that is known is taken, and none is waited for
    const struct chosen *fixed;     // the server to which it goes, NULL for one that is chosen
    const mdb_connection *pin;      // the pinned connection over which it goes, NULL for one of the pool
    bool opens_cursor;              // behind a load balancer its connection is pinned where the reply has a cursor
    struct server_session *session; // NULL for none
    int64_t number;                 // by which a write that is tried twice is known, 0 for none
    // What it came to:
    struct chosen chosen;
    struct outcome outcome;
    bool pinned; // the connection was pinned
    mdb_connection pinned_name;
};

// Begins an operation; `options` may be NULL. OPTIONS where there is nothing to run, with its error in the outcome.
mdb_net_code operation_begin(struct operation *operation, client_t *client, const char *database, mdb_net_document command,
                             const mdb_net_command_options *options);

// Runs it. What the outcome leads to is the caller's.
mdb_net_code operation_run(struct operation *operation);

// Gives back the session that the caller did not give.
void operation_leave(struct operation *operation);

// Hands the reply and the error over; each may be NULL.
mdb_net_code operation_give(struct operation *operation, mdb_net_reply *reply, mdb_net_err *err);

// Whether the first attempt came to an error after which the standards have a second one.
bool retry_is_due(const struct operation *operation);

// Whether of two attempts the error of the first one is to be told, by what the second one came to.
bool retry_tells_first(const struct outcome *second);

void say(mdb_net_err *err, const char *text);
const char *text_of(mdb_net_code code);

#endif
