// How a client proves to a server who it is, over a connection that was greeted (SCRAM-SHA-256).
#ifndef NET_AUTH_H
#define NET_AUTH_H

#include "credentials.h"
#include "error.h"
#include "scram.h"
#include "wire.h"

// What the proof came to: OK, or NETWORK, AUTH, NO_MEMORY, NO_FILES, CANCELLED, with an error as lines of libmdb have it.
struct auth_result {
    mdb_net_code code;
    int32_t server_code;
};

// Proves it; `keys` are what an earlier proof derived, and afterwards what this one did. `error` tells what went wrong.
struct auth_result auth_run(struct conn *conn, const struct credentials *who, struct scram_keys *keys, struct text *error);

#endif
