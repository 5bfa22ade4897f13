/* What a step of a driver told: who has a connection, which are begun and closed, whether there is a primary, and what a monitor is to do. */
#include "grow.h"
#include "world.h"

static void pool_event(storm *it, uint32_t of, const mdb_fact *fact, uint32_t told);

/* The facts of the last entry, copied, so that further steps may be made. */
static size_t facts_of(storm *it, mdb_slot *driver) {
    size_t count = 0;
    mdb_status status = mdb_facts(driver, it->facts, it->facts_room, &count);
    if (status == MDB_NO_ROOM) {
        mdb_fact *moved = grown(it->facts, &it->facts_room, count, sizeof *moved);
        if (moved) it->facts = moved;
        status = moved ? mdb_facts(driver, it->facts, it->facts_room, &count) : MDB_NO_MEMORY;
    }
    done(it, status);
    return status == MDB_OK ? count : 0;
}

static uint32_t operation_of(const struct client *its, uint32_t party) { return its->operations[party - 1]; }

/* The server that the driver describes as the primary, or nobody. */
static uint32_t primary_of(storm *it, struct client *its) {
    mdb_server server;
    for (uint32_t i = 0; i < SERVERS; i++) {
        done(it, mdb_server_get(&its->driver, i, &server));
        if (it->status == STORM_MORE && server.kind == MDB_SERVER_RS_PRIMARY) return i;
    }
    return NOBODY;
}

static void topology_changed(storm *it, uint32_t of) {
    struct client *its = &it->clients[of];
    uint32_t before = its->primary;
    its->primary = primary_of(it, its);
    if (its->primary == before) return;
    if (its->primary == SUCCESSOR) {
        it->knowing++;
        if (it->sums[SUM_FIRST_KNOWS] == 0) it->sums[SUM_FIRST_KNOWS] = it->now;
        if (it->knowing == it->given.clients) it->sums[SUM_LAST_KNOWS] = it->now;
    } else if (before == SUCCESSOR) it->knowing--;
    if (its->primary != NOBODY) primary_is_known(it, of);
}

/* Where a clear says so, what uses a connection of the pool ends. */
static void interrupts(storm *it, uint32_t of, uint32_t which) {
    for (uint32_t id = 1; id < it->clients[of].pools[which].room; id++) {
        const struct connection *at = connection_of(it, of, which, id);
        if (at->state == LIVE && at->operation != NOBODY) operation_is_interrupted(it, at->operation, 0);
    }
}

static void granted(storm *it, uint32_t of, const mdb_fact *fact) {
    struct connection *at = connection_of(it, of, fact->pool, fact->id);
    if (!at) return;
    at->operation = operation_of(&it->clients[of], fact->party);
    it->operations[at->operation].server = fact->pool;
    it->operations[at->operation].id = fact->id;
}

static void ended(storm *it, uint32_t of, const mdb_fact *fact, uint32_t told) {
    static const uint32_t why[] = {[MDB_END_CLEARED] = CLEARED, [MDB_END_FAILED] = CONNECT, [MDB_END_CLOSED] = CLEARED, [MDB_END_TIMED_OUT] = WAIT_QUEUE};
    uint32_t which = operation_of(&it->clients[of], fact->party);
    attempt_ends(it, which, why[fact->why], which == told);
}

void deal(storm *it, uint32_t of, uint32_t told) {
    size_t count = facts_of(it, &it->clients[of].driver);
    for (size_t i = 0; i < count && it->status == STORM_MORE; i++) {
        mdb_fact fact = it->facts[i];
        if (fact.kind == MDB_FACT_POOL) pool_event(it, of, &fact, told);
        else if (fact.kind == MDB_FACT_GRANTED) granted(it, of, &fact);
        else if (fact.kind == MDB_FACT_ENDED) ended(it, of, &fact, told);
        else if (fact.kind == MDB_FACT_SDAM && fact.event == MDB_SDAM_SERVER_CHANGED) topology_changed(it, of);
        else if (fact.kind == MDB_FACT_CHECK_NOW) check_is_wanted(it, of, fact.pool);
        else if (fact.kind == MDB_FACT_CANCEL) check_is_cancelled(it, of, fact.pool);
    }
}

static void is_begun(storm *it, uint32_t of, const mdb_fact *fact) {
    struct connection *at = connection_of(it, of, fact->pool, fact->id);
    if (!at) return;
    *at = (struct connection){.begun = it->now, .operation = NOBODY, .state = PENDING};
    it->here.pending[fact->pool]++;
    it->here.opened++;
    if (fact->pool == SUCCESSOR && it->now >= it->given.fails_at * (uint64_t)MILLISECOND) it->sums[SUM_OPENED]++;
    connections_are_claimed(it, of);
}

static void is_ready(storm *it, uint32_t of, const mdb_fact *fact) {
    struct connection *at = connection_of(it, of, fact->pool, fact->id);
    if (!at) return;
    at->state = LIVE;
    it->here.pending[fact->pool]--;
    it->here.live[fact->pool]++;
}

static void is_closed(storm *it, uint32_t of, const mdb_fact *fact) {
    struct connection *at = connection_of(it, of, fact->pool, fact->id);
    if (!at) return;
    if (at->state == PENDING) it->here.pending[fact->pool]--;
    else it->here.live[fact->pool]--;
    at->state = CLOSED;
    at->operation = NOBODY;
}

static void pool_event(storm *it, uint32_t of, const mdb_fact *fact, uint32_t told) {
    switch (fact->event) {
    case MDB_CONNECTION_CREATED: is_begun(it, of, fact); break;
    case MDB_CONNECTION_CLOSED: is_closed(it, of, fact); break;
    case MDB_CONNECTION_READY: is_ready(it, of, fact); /* fall through */
    case MDB_POOL_READY:
        if (it->given.min_pool_size > 0) later(it, 0, (event){.kind = FILLS, .client = of, .which = fact->pool});
        break;
    case MDB_CHECKED_OUT: {
        const struct connection *at = connection_of(it, of, fact->pool, fact->id);
        if (at && at->operation != NOBODY) operation_has(it, at->operation, at->operation == told);
        break;
    }
    case MDB_CHECKED_IN: {
        struct connection *at = connection_of(it, of, fact->pool, fact->id);
        if (at) at->operation = NOBODY;
        break;
    }
    case MDB_POOL_CLEARED:
        if (fact->number == 1) interrupts(it, of, fact->pool);
        break;
    default: break;
    }
}
