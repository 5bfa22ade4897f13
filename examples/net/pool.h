// The sockets of the pools: who asks for a connection, who holds it, and when its socket is closed, which the facts say.
// The lock is held but where it says otherwise.
#ifndef NET_POOL_H
#define NET_POOL_H

#include "driver.h"
#include "wire.h"

// The socket of a connection of a pool. While a party holds it, the connection is the party's to write and read.
struct pooled {
    struct node node;
    struct pooled *before, *after; // among those that parties hold
    mdb_connection name;
    bool is_held;
    int worker; // the eventfd of the worker that establishes it, -1 once it does no more
    struct conn conn;
};

// Why a connection could not be established, as its caller hears it.
struct cause {
    mdb_net_code code;
    int32_t server_code; // a server's number of the error, 0 where it told none
    char text[MDB_NET_TEXT];
};

// A caller of a check-out who waits.
struct waiter {
    struct node by_party, by_name;
    struct waiter *before, *after; // among those who are in a queue
    uint32_t party;
    mdb_connection name;
    bool queued, granted;
    bool told;    // its connection is ready, or its request ended
    uint64_t due; // when a caller has waited for too long
    const char *address;
    struct cause cause;
    pthread_cond_t news;
};

// What ends an operation before it is done.
struct limit {
    uint64_t deadline;
    mdb_net_cancel *cancel; // NULL for none
};

// Whether it is over by now: OK while it is not, else CLOSED, CANCELLED or TIMED_OUT.
mdb_net_code limit_over(const client_t *client, const struct limit *limit);

// What a check-out came to.
struct checked_out {
    uint32_t party;
    struct pooled *pooled;
    mdb_connection name;
    struct cause cause; // where it failed
};

// Asks for a connection to the server, and sleeps until the request has one, has ended or is over. Not under the lock.
mdb_net_code check_out(client_t *client, const char *address, const struct limit *limit, struct checked_out *out);

// The connection of a pin, which a new party takes. Not under the lock.
mdb_net_code check_out_pinned(client_t *client, const mdb_connection *name, const struct limit *limit, struct checked_out *out);

// Pins the connection, which is its party's until it is returned. Answers whether it did. Not under the lock.
bool pool_pin(client_t *client, const struct checked_out *out);

// One pin less. Not under the lock.
void pool_unpin(client_t *client, const mdb_connection *name);

// Tells libmdb of an error that an operation met, as `network msg=..`. Answers whether it changed what is known of the servers. Not under the lock.
bool report(client_t *client, const struct checked_out *out, const char *error);

// Returns a connection; `used` is one of MDB_USE_. Not under the lock.
void check_in(client_t *client, const struct checked_out *out, uint32_t used);

// What a fact means for the sockets and for who waits.
void pool_fact(client_t *client, const mdb_fact *fact);

struct pooled *pooled_find(client_t *client, const mdb_connection *name);
void pooled_add(client_t *client, struct pooled *pooled, const mdb_connection *name, int worker);

// Why the connection could not be established, for the caller to whom it was granted; before libmdb is told.
void pool_blame(client_t *client, const mdb_connection *name, const struct cause *cause);

// Shuts the sockets that parties hold, so that operations end, and wakes those who wait.
void pool_interrupt_all(client_t *client);

// Lets those end who have waited for too long. Answers when that is to be done again.
uint64_t pool_expire(client_t *client);

// Frees what is left once all threads have ended.
void pool_free(client_t *client);

#endif
