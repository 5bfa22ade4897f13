#include "session.h"
#include "document.h"
#include "driver.h"
#include "operation.h"
#include <stdio.h>
#include <stdlib.h>
#include <string.h>
#include <sys/random.h>

enum { ENDED_AT_ONCE = 10000, UUID = 4, END_TIME = 500 }; // sessions of one command; milliseconds

// Whether it may end at the servers within a minute, which is for how long a command may use it.
static bool is_old(const struct server_session *session, uint64_t minutes, uint64_t now) {
    return minutes && now - session->used >= (minutes > 1 ? minutes - 1 : 0) * 60000 * MILLISECOND;
}

// A session with an id of its own, a UUID of version 4.
static struct server_session *session_new(void) {
    struct server_session *session = calloc(1, sizeof *session);
    if (!session) return NULL;
    if (getrandom(session->id, SESSION_ID, 0) != SESSION_ID) {
        free(session);
        return NULL;
    }
    session->id[6] = (uint8_t)((session->id[6] & 0x0F) | 0x40);
    session->id[8] = (uint8_t)((session->id[8] & 0x3F) | 0x80);
    return session;
}

struct server_session *session_take(client_t *client, uint64_t minutes) {
    uint64_t now = clock_now();
    struct server_session *session = client->sessions;
    while (session && is_old(session, minutes, now)) {
        client->sessions = session->next;
        free(session);
        session = client->sessions;
    }
    if (session) client->sessions = session->next;
    else session = session_new();
    if (session) session->used = now;
    return session;
}

void session_give(client_t *client, struct server_session *session) {
    if (!session) return;
    if (session->dirty) {
        free(session);
        return;
    }
    session->next = client->sessions;
    client->sessions = session;
}

void session_hear_time(client_t *client, uint64_t time, const uint8_t *document, size_t length) {
    struct step step = { .nanos = time };
    if (time <= client->cluster_time || length > sizeof client->cluster_document) return;
    client->cluster_time = time;
    client->cluster_length = length;
    memcpy(client->cluster_document, document, length);
    driver_step(client, cluster_time_step, &step);
}

// ---- their end

// A command that ends as many as one may, on the heap; the sessions are freed. NULL where there is no memory, or none to end.
static uint8_t *ending(client_t *client, size_t *length) {
    static const char head[] = "\x04"
                               "endSessions";
    size_t count = 0, room = 64;
    for (struct server_session *it = client->sessions; it && count < ENDED_AT_ONCE; it = it->next) count++;
    uint8_t *made = count ? malloc(room + count * 64) : NULL, *at = made;
    if (!made) return NULL;
    struct document one;
    memcpy(at + 4, head, sizeof head);
    uint8_t *list = at + 4 + sizeof head, *end = list + 4;
    for (size_t i = 0; i < count; i++) {
        struct server_session *session = client->sessions;
        char name[24];
        document_begin(&one);
        snprintf(name, sizeof name, "%zu", i);
        put_open(&one, name);
        put_binary(&one, "id", UUID, session->id, SESSION_ID);
        put_close(&one);
        memcpy(end, one.bytes + 4, one.length - 4);
        end += one.length - 4;
        client->sessions = session->next;
        free(session);
    }
    *end++ = 0;
    document_length(list, (size_t)(end - list));
    *end++ = 0;
    document_length(made, (size_t)(end - made));
    *length = (size_t)(end - made);
    return made;
}

void sessions_end(client_t *client) {
    uint64_t until = deadline_in(END_TIME);
    for (;;) {
        size_t length = 0;
        client_lock(client);
        uint8_t *made = client->failed ? NULL : ending(client, &length);
        client_unlock(client);
        if (!made) return;
        struct operation operation = { .client = client, .database = "admin", .document = { made, length }, .at_once = true };
        operation.options = (mdb_net_command_options){ .preference = MDB_NET_PRIMARY_PREFERRED, .once = true };
        operation.limit.deadline = until;
        operation.traits.has_session = true;
        bool sent = operation_run(&operation) == MDB_NET_OK;
        reply_free(&operation.outcome.reply);
        free(made);
        if (!sent) return;
    }
}

void sessions_free(client_t *client) {
    for (struct server_session *session = client->sessions, *next; session; session = next) {
        next = session->next;
        free(session);
    }
    client->sessions = NULL;
}

// ---- those that a program has

mdb_net_code mdb_net_session_new(mdb_net_client *client, mdb_net_session **session) {
    *session = calloc(1, sizeof **session);
    if (!*session) return MDB_NET_NO_MEMORY;
    (*session)->client = client;
    return MDB_NET_OK;
}

void mdb_net_session_free(mdb_net_session *session) {
    if (!session) return;
    client_lock(session->client);
    session_give(session->client, session->server);
    client_unlock(session->client);
    free(session);
}
