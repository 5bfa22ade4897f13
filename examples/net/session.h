// Sessions of servers, by whose ids and numbers a server tells apart what was sent to it twice, and the time of the cluster's clock ("Driver Sessions").
// The lock is held but where it says otherwise.
#ifndef NET_SESSION_H
#define NET_SESSION_H

#include "client.h"

enum { SESSION_ID = 16 };

struct server_session {
    struct server_session *next;
    uint8_t id[SESSION_ID];
    int64_t number; // of its last write that may be tried twice
    uint64_t used;  // when, of the monotonic clock
    bool dirty;     // a connection broke while it was used: the server may still do what it was asked
};

struct mdb_net_session {
    client_t *client;
    struct server_session *server; // from its first command on
};

// The one that was used last, or a new one; `minutes` is for how long servers keep one that is not used, 0 for no bound. NULL where there is no memory.
struct server_session *session_take(client_t *client, uint64_t minutes);

// It may be used by others, unless it is dirty.
void session_give(client_t *client, struct server_session *session);

// Keeps the time of the cluster's clock that a reply told, where it is later than the one that is known: `document` is its `$clusterTime`.
void session_hear_time(client_t *client, uint64_t time, const uint8_t *document, size_t length);

// Tells a server that all sessions end which nobody uses. Not under the lock, before the client stops.
void sessions_end(client_t *client);

void sessions_free(client_t *client);

#endif
