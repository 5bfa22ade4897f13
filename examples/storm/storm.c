/* A storm from its beginning to its end: what happens next, and to whom. */
#include "storm.h"
#include "world.h"
#include <stdlib.h>
#include <string.h>

enum { PERIOD = SECOND }; /* in which the pools of a client are looked after */

uint64_t drawn(storm *it, uint64_t below) {
    if (it->given.seed == 0 || below == 0) return 0;
    it->random = it->random * 6364136223846793005u + 1442695040888963407u;
    return (it->random >> 33) % below;
}

void later(storm *it, uint64_t in, event what) {
    what.at = it->now + in;
    if (!agenda_put(&it->agenda, what)) it->status = STORM_NO_MEMORY;
}

mdb_at now_of(storm *it) {
    it->sums[SUM_STEPS]++;
    return (mdb_at){.moment = it->now / MILLISECOND};
}

void done(storm *it, mdb_status status) {
    if (it->status == STORM_MORE && status != MDB_OK) it->status = status == MDB_NO_MEMORY ? STORM_NO_MEMORY : STORM_FAULT;
}

/* No limit is the greatest that the library takes. */
static uint32_t limit_of(uint32_t setting) { return setting ? setting : 65535; }

static void option(text *to, const char *name, uint32_t value) {
    text_put(to, name);
    text_number(to, value);
}

static bool opens(storm *it, struct client *of) {
    const settings *given = &it->given;
    text line = {.length = 0};
    text_put(&line, "open seeds=a:27017,b:27017,c:27017 set=rs");
    option(&line, " max=", limit_of(given->max_pool_size));
    option(&line, " min=", given->min_pool_size);
    option(&line, " connecting=", limit_of(given->max_connecting));
    option(&line, " idle=", given->max_idle_time);
    option(&line, " wait=", given->wait_queue_timeout);
    option(&line, " heartbeat=", given->heartbeat);
    option(&line, " connect=", given->connect_timeout);
    of->primary = of->first = of->last = NOBODY;
    return mdb_open_line(&of->driver, 0, line.at, line.length) == MDB_OK;
}

/* Each client with its checks, its first operation and the first look at its pools. */
static bool begins(storm *it, uint32_t of) {
    uint64_t mean = it->given.clients * (uint64_t)SECOND / it->given.operations;
    if (!opens(it, &it->clients[of])) return false;
    for (uint32_t i = 0; i < SERVERS; i++) later(it, 0, (event){.kind = CHECKS, .client = of, .which = i});
    later(it, it->given.seed ? drawn(it, mean + 1) : of * mean / it->given.clients, (event){.kind = ARRIVES, .client = of});
    later(it, PERIOD + drawn(it, PERIOD), (event){.kind = MAINTAINS, .client = of});
    return it->status == STORM_MORE;
}

storm *storm_open(const settings *given) {
    storm *it = calloc(1, sizeof *it);
    if (!it) return NULL;
    it->given = *given;
    it->random = given->seed;
    it->unused = NOBODY;
    it->calm_since = NEVER;
    it->servers[FAILING].is_primary = true;
    it->servers[FAILING].election = 1;
    it->clients = calloc(given->clients, sizeof *it->clients);
    bool is_well = it->clients != NULL;
    later(it, 0, (event){.kind = SAMPLES});
    later(it, given->fails_at * (uint64_t)MILLISECOND, (event){.kind = FAILS});
    later(it, (given->fails_at + (uint64_t)given->election) * MILLISECOND, (event){.kind = ELECTS});
    for (uint32_t i = 0; i < given->clients && is_well; i++) is_well = begins(it, i);
    if (is_well) return it;
    storm_close(it);
    return NULL;
}

static void looks_after(storm *it, uint32_t client, uint32_t which) {
    const char *address = address_of(which);
    mdb_reply reply;
    mdb_at at = now_of(it);
    done(it, mdb_maintain(&it->clients[client].driver, &at, (const uint8_t *)address, strlen(address), &reply));
    if (it->status == STORM_MORE) deal(it, client, NOBODY);
}

static void maintains(storm *it, event of) {
    for (uint32_t i = 0; i < SERVERS && it->status == STORM_MORE; i++) looks_after(it, of.client, i);
    later(it, PERIOD, of);
}

static void expires(storm *it, event of) {
    const char *address = address_of(of.which);
    mdb_reply reply;
    mdb_at at = now_of(it);
    done(it, mdb_expire(&it->clients[of.client].driver, &at, (const uint8_t *)address, strlen(address), &reply));
    if (it->status == STORM_MORE) deal(it, of.client, NOBODY);
}

static void happens(storm *it, event of) {
    switch (of.kind) {
    case ARRIVES: operation_arrives(it, of); break;
    case ASKS: operation_asks(it, of); break;
    case UNSELECTED: operation_is_unselected(it, of); break;
    case EXPIRES: expires(it, of); break;
    case ANSWERED: operation_is_answered(it, of); break;
    case CONNECTS: connection_ends(it, of); break;
    case CHECKED: check_ends(it, of); break;
    case CHECKS: check_begins(it, of); break;
    case MAINTAINS: maintains(it, of); break;
    case FILLS: looks_after(it, of.client, of.which); break;
    case FAILS: primary_fails(it); break;
    case ELECTS: successor_is_elected(it); break;
    case SAMPLES: sample_is_taken(it); break;
    }
}

int storm_go(storm *it, uint64_t events) {
    event next;
    for (uint64_t i = 0; i < events && it->status == STORM_MORE; i++) {
        if (!agenda_take(&it->agenda, &next) || next.at > it->given.length * (uint64_t)MILLISECOND) {
            it->status = STORM_ENDED;
            break;
        }
        it->now = next.at;
        it->sums[SUM_EVENTS]++;
        happens(it, next);
        look(it);
    }
    return it->status;
}

const storm_sample *storm_samples(const storm *it, size_t *count) {
    *count = it->samples_count;
    return it->samples;
}

void storm_close(storm *it) {
    for (uint32_t i = 0; it->clients && i < it->given.clients; i++) {
        struct client *of = &it->clients[i];
        mdb_close(&of->driver);
        free(of->operations);
        for (int which = 0; which < SERVERS; which++) free(of->pools[which].connections);
    }
    free(it->clients);
    free(it->operations);
    free(it->facts);
    free(it->samples);
    free(it->waits);
    free(it->agenda.events);
    free(it);
}
