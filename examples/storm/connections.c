/* The connections of the drivers: each that is begun is established, fails, or is too late. */
#include "grow.h"
#include "world.h"
#include <string.h>

struct connection *connection_of(storm *it, uint32_t client, uint32_t which, uint32_t id) {
    struct pool *its = &it->clients[client].pools[which];
    if (id >= its->room) {
        size_t before = its->room;
        struct connection *moved = grown(its->connections, &its->room, (size_t)id + 1, sizeof *moved);
        if (!moved) {
            it->status = STORM_NO_MEMORY;
            return NULL;
        }
        memset(moved + before, 0, (its->room - before) * sizeof *moved);
        its->connections = moved;
    }
    return &its->connections[id];
}

/* Puts when the connection is there, or given up. */
static void connects(storm *it, uint32_t client, const mdb_reply *job) {
    struct connection *its = connection_of(it, client, job->pool, job->id);
    uint64_t limit = it->now + it->given.connect_timeout * (uint64_t)MILLISECOND, at = accepted_at(it, job->pool);
    if (!its) return;
    if (at == NEVER && it->given.death == DEATH_REFUSED) at = it->now + it->given.round_trip * (uint64_t)MILLISECOND;
    its->is_late = at > limit;
    later(it, (its->is_late ? limit : at) - it->now, (event){.kind = CONNECTS, .client = client, .which = job->pool, .turn = job->id});
}

void connections_are_claimed(storm *it, uint32_t of) {
    mdb_reply job = {.kind = MDB_JOB};
    while (it->status == STORM_MORE && job.kind == MDB_JOB) {
        mdb_at at = now_of(it);
        done(it, mdb_claim(&it->clients[of].driver, &at, &job));
        if (it->status == STORM_MORE && job.kind == MDB_JOB) connects(it, of, &job);
    }
}

static void fails(storm *it, event of, const char *outcome) {
    struct client *its = &it->clients[of.client];
    mdb_connection name = {of.which, of.turn};
    mdb_reply reply;
    mdb_at at = now_of(it);
    done(it, mdb_failed(&its->driver, &at, &name, (const uint8_t *)outcome, strlen(outcome), &reply));
}

/* A server that fell silent meanwhile is waited for until the time is over. */
static bool is_still_silent(storm *it, struct connection *its, event of) {
    uint64_t limit = its->begun + it->given.connect_timeout * (uint64_t)MILLISECOND;
    if (!it->servers[of.which].is_dead || it->given.death != DEATH_SILENT || it->now >= limit) return false;
    its->is_late = true;
    later(it, limit - it->now, of);
    return true;
}

void connection_ends(storm *it, event of) {
    struct client *its = &it->clients[of.client];
    struct connection *my = connection_of(it, of.client, of.which, of.turn);
    mdb_established_as made = {of.which, of.turn, 21, -1};
    mdb_told told;
    mdb_at at = now_of(it);
    if (!my || my->state != PENDING || is_still_silent(it, my, of)) return;
    if (my->is_late) fails(it, of, "pre timeout msg=connect timed out");
    else if (it->servers[of.which].is_dead) fails(it, of, "pre network msg=connection refused");
    else done(it, mdb_established_told(&its->driver, &at, &made, (const uint8_t *)"", 0, &told));
    if (it->status == STORM_MORE) deal(it, of.client, NOBODY);
}
