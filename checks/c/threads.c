// Four threads share a driver under one lock, and each has one of its own beside it: a slot that the first thread opened is used by all, and each thread
// reads the facts of its own steps. Ends with status 1 and the line of the check that fails, or with 0.
#include "mdb.h"
#include <pthread.h>
#include <stdio.h>
#include <stdlib.h>
#include <string.h>

#define CHECK(what) do { if (!(what)) { fprintf(stderr, "line %d: %s\n", __LINE__, #what); exit(1); } } while (0)
#define THREADS 4

static mdb_slot shared = MDB_SLOT_INIT;
static pthread_mutex_t turn = PTHREAD_MUTEX_INITIALIZER;
static int rounds = 500;

static void opened(mdb_slot *slot) {
    const char *open = "open seeds=a:27017 max=100", *hello = "hello 1 a:27017 0 ok rtt=1000000 isWritablePrimary=true maxWireVersion=21";
    mdb_reply reply;
    CHECK(mdb_open_line(slot, 0, (const uint8_t *)open, strlen(open)) == MDB_OK);
    CHECK(mdb_line(slot, 0, (const uint8_t *)hello, strlen(hello), &reply) == MDB_OK && reply.kind == MDB_CHANGED);
}

static void round_of(mdb_slot *slot, uint32_t seat, uint32_t party) {
    mdb_at at = {5, seat};
    mdb_reply reply;
    mdb_fact fact;
    size_t count, needed;
    uint8_t text[512];
    CHECK(mdb_request(slot, &at, party, (const uint8_t *)"a:27017", 7, &reply) == MDB_OK);
    if (reply.kind == MDB_ESTABLISHING) {
        mdb_established_as made = {reply.pool, reply.id, 21, -1};
        CHECK(mdb_established(slot, &at, &made, (const uint8_t *)"", 0, &reply) == MDB_OK && reply.kind == MDB_DONE);
    } else {
        CHECK(reply.kind == MDB_POOLED);
    }
    CHECK(mdb_return(slot, &at, party, MDB_USE_OK, &reply) == MDB_OK && reply.kind == MDB_DONE);
    CHECK(mdb_fact_count(slot, &count) == MDB_OK && count == 1);
    CHECK(mdb_fact_at(slot, 0, &fact) == MDB_OK && fact.event == MDB_CHECKED_IN);
    CHECK(mdb_entry_text(slot, text, sizeof text, &needed) == MDB_OK && needed > 20);
}

static void *work(void *given) {
    uint32_t seat = *(uint32_t *)given;
    mdb_slot own = MDB_SLOT_INIT;
    opened(&own);
    for (uint32_t n = 0; n < (uint32_t)rounds; n++) {
        pthread_mutex_lock(&turn);
        round_of(&shared, seat, 1 + seat * (uint32_t)rounds + n);
        pthread_mutex_unlock(&turn);
        round_of(&own, seat, n);
    }
    mdb_close(&own);
    return 0;
}

int main(int argc, char **argv) {
    if (argc > 1) rounds = atoi(argv[1]);
    pthread_t crew[THREADS];
    uint32_t seats[THREADS];
    opened(&shared);
    for (uint32_t i = 0; i < THREADS; i++) {
        seats[i] = i;
        CHECK(pthread_create(&crew[i], 0, work, &seats[i]) == 0);
    }
    for (int i = 0; i < THREADS; i++) CHECK(pthread_join(crew[i], 0) == 0);
    mdb_close(&shared);
    return 0;
}
