// A driver has 2^32 numbers for parties. Before they are used up a second driver is opened with what the first knows of its servers: new requests go there, and
// the connections of the first come back to it. Numbers may begin anywhere: here those of the first begin high, so that a few requests use up what it has.
#include "mdb.h"
#include <inttypes.h>
#include <stdio.h>
#include <string.h>

#define TEXT(text) (const uint8_t *)text, sizeof text - 1
#define LAST (UINT32_MAX - 8) /* from this number on a second driver is wanted: the others do until it is open */

static const char options[] = "max=10"; /* those of both drivers, as an `open` line has them */

// Opens a second driver whose seeds are the servers that the first knows.
static mdb_status open_again(mdb_slot *from, mdb_slot *to) {
    char line[65536] = "open seeds=";
    size_t at = strlen(line), needed;
    mdb_topology known;
    mdb_status status = mdb_topology_get(from, &known);
    for (size_t i = 0; status == MDB_OK && i < known.servers; i++) {
        if (i) line[at++] = ',';
        status = mdb_server_text(from, i, MDB_TEXT_ADDRESS, (uint8_t *)line + at, sizeof line - sizeof options - 2 - at, &needed);
        at += needed;
    }
    if (status != MDB_OK) return status;
    at += (size_t)snprintf(line + at, sizeof options + 1, " %s", options);
    return mdb_open_line(to, 0, (const uint8_t *)line, at);
}

// Tells the second driver the last reply of a server that the first has, as a hello of now. A server that is not available is left to its first check.
static mdb_status tell_server(mdb_slot *from, mdb_slot *to, const mdb_at *now, size_t place) {
    char monitor[512], outcome[65536];
    size_t length, needed;
    uint32_t pool;
    mdb_reply reply;
    mdb_server server;
    mdb_status status = mdb_server_get(from, place, &server);
    if (status == MDB_OK && (server.kind == MDB_SERVER_UNKNOWN || !server.has_round_trip)) return MDB_OK;
    if (status == MDB_OK) status = mdb_server_text(from, place, MDB_TEXT_ADDRESS, (uint8_t *)monitor, sizeof monitor - 16, &length);
    if (status == MDB_OK) status = mdb_open_pool(to, (const uint8_t *)monitor, length, &pool);
    if (status == MDB_NO_ENTRY) return MDB_OK; /* an earlier reply told that it is no member */
    if (status != MDB_OK) return status;
    length += (size_t)snprintf(monitor + length, 16, " %" PRIu32, pool);
    size_t at = (size_t)snprintf(outcome, 64, "ok rtt=%" PRIu64, server.round_trip);
    status = mdb_server_text(from, place, MDB_TEXT_REPLY, (uint8_t *)outcome + at, sizeof outcome - at, &needed);
    if (status != MDB_OK) return status;
    return mdb_hello(to, now, (const uint8_t *)monitor, length, (const uint8_t *)outcome, at + needed, &reply);
}

// Opens the second driver with what the first knows. Where it fails the second is closed, and the first is as it was.
static mdb_status renew(mdb_slot *from, mdb_slot *to, const mdb_at *now) {
    mdb_topology known;
    mdb_status status = open_again(from, to);
    if (status == MDB_OK) status = mdb_topology_get(from, &known);
    for (size_t i = 0; status == MDB_OK && i < known.servers; i++) status = tell_server(from, to, now, i);
    if (status != MDB_OK) mdb_close(to);
    return status;
}

// A caller asks, a worker establishes the connection where there is a job, and the caller has it.
static int checked_out(mdb_slot *driver, const mdb_at *now, uint32_t party, mdb_reply *reply) {
    mdb_reply job;
    if (mdb_request(driver, now, party, TEXT("a:27017"), reply) != MDB_OK) return 0;
    if (reply->kind == MDB_ESTABLISHING) {
        if (mdb_claim(driver, now, &job) != MDB_OK || job.kind != MDB_JOB) return 0;
        if (mdb_established(driver, now, &(mdb_established_as){job.pool, job.id, 21, -1}, TEXT(""), &job) != MDB_OK) return 0;
        if (mdb_collect(driver, now, party, reply) != MDB_OK) return 0;
    }
    return reply->kind == MDB_POOLED;
}

int main(void) {
    mdb_slot drivers[2] = {MDB_SLOT_INIT, MDB_SLOT_INIT};
    mdb_at now = {.moment = 1};
    mdb_reply reply;
    unsigned current = 0, renewals = 0, served = 0;
    uint32_t party = UINT32_MAX - 20, held;
    if (mdb_open_line(&drivers[0], 0, TEXT("open seeds=a:27017,b:27017 max=10")) != MDB_OK) return 1;
    if (mdb_hello(&drivers[0], &now, TEXT("a:27017 0"), TEXT("ok rtt=5000 isWritablePrimary=true hosts=a:27017,b:27017 setName=rs maxWireVersion=21"), &reply) != MDB_OK) return 1;
    held = party++;
    if (!checked_out(&drivers[0], &now, held, &reply)) return 1; /* one caller keeps its connection over the renewal */
    for (; served < 100; served++, now.moment++) {
        if (party >= LAST) {
            if (renew(&drivers[0], &drivers[1], &now) != MDB_OK) return 1;
            current = 1;
            renewals++;
            party = 0;
        }
        if (!checked_out(&drivers[current], &now, party, &reply)) return 1;
        if (mdb_return(&drivers[current], &now, party++, MDB_USE_OK, &reply) != MDB_OK) return 1;
    }
    if (mdb_return(&drivers[0], &now, held, MDB_USE_OK, &reply) != MDB_OK || reply.kind != MDB_DONE) return 1; /* it comes back to the driver that gave it */
    mdb_stop(&drivers[0], &now, &reply);
    mdb_close(&drivers[0]);
    mdb_close(&drivers[1]);
    printf("%u requests, %u renewal\n", served, renewals);
    return 0;
}
