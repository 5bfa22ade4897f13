/* A pool that stands alone, for a driver that watches its servers by itself: its monitor readies and clears the pool, a caller gets a connection, uses it
 * and returns it, and a connection from before the clear is closed. Real connecting and real waiting stand where the comments say so. */
#include "mdb.h"
#include <inttypes.h>
#include <stdio.h>

#define NO_SERVICE (const uint8_t *)"", 0

static mdb_pool_slot pool = MDB_POOL_SLOT_INIT;
static mdb_told told;

/* What a step told: its events, in their order, for whoever listens to them. */
static int tell(const char *step, mdb_status status) {
    static const char *const names[] = {"", "created", "ready", "cleared", "closed", "connection created", "connection ready", "connection closed",
                                        "check-out started", "check-out failed", "checked out", "checked in"};
    mdb_fact facts[64];
    size_t count = 0;
    if (status != MDB_OK || mdb_pool_facts(&pool, facts, 64, &count) != MDB_OK) return 0;
    printf("%s:", step);
    for (size_t i = 0; i < count; i++)
        if (facts[i].kind == MDB_FACT_POOL) printf(" %s %" PRIu32 ",", names[facts[i].event], facts[i].id);
    printf(" %s\n", told.reply.kind == MDB_REFUSED ? "refused" : "done");
    return 1;
}

/* A worker connects what is pending. */
static int work(uint64_t now) {
    for (;;) {
        if (mdb_pool_claim(&pool, &(mdb_at){.moment = now}, &told) != MDB_OK) return 0;
        if (told.reply.kind != MDB_JOB) return 1;
        uint32_t id = told.reply.id; /* connect and authenticate here; mdb_pool_failed where that fails */
        if (!tell("established", mdb_pool_established(&pool, &(mdb_at){.moment = now + 5}, id, NO_SERVICE, &told))) return 0;
        now += 5;
    }
}

int main(void) {
    mdb_pool_options options = MDB_POOL_OPTIONS_INIT;
    options.number = 7;
    options.max_size = 2;
    if (mdb_pool_open(&pool, &options) != MDB_OK) return 1;
    int well = tell("ready", mdb_pool_ready(&pool, &(mdb_at){.moment = 1}, &told)); /* the monitor's first check was answered */
    well = well && tell("request", mdb_pool_request(&pool, &(mdb_at){.moment = 10}, 1, &told)) && told.reply.kind == MDB_ESTABLISHING;
    well = well && work(10); /* a caller that is not told MDB_POOLED waits for MDB_FACT_GRANTED or MDB_FACT_ENDED with its number, and then collects */
    well = well && tell("collect", mdb_pool_collect(&pool, &(mdb_at){.moment = 15}, 1, &told)) && told.reply.kind == MDB_POOLED;
    /* the monitor's check failed, while the connection is in use */
    well = well && tell("clear", mdb_pool_clear(&pool, &(mdb_at){.moment = 20}, MDB_CAUSE_NETWORK, NO_SERVICE, &told));
    well = well && tell("return", mdb_pool_return(&pool, &(mdb_at){.moment = 30}, 1, MDB_USE_OK, &told));
    well = well && tell("request", mdb_pool_request(&pool, &(mdb_at){.moment = 40}, 2, &told)) && told.reply.kind == MDB_ENDED;
    well = well && tell("maintain", mdb_pool_maintain(&pool, &(mdb_at){.moment = 50}, &told)); /* every 10 ms or so, with mdb_pool_expire */
    well = well && tell("close", mdb_pool_close(&pool, &(mdb_at){.moment = 60}, &told));
    mdb_pool_free(&pool);
    return !well;
}
