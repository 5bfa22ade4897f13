/* The operations: each looks for the primary, waits for a connection, uses it, and meets an error or ends well. */
#include "grow.h"
#include "world.h"
#include <string.h>

enum { WATCHER = 1 };
enum phase { BEFORE, GAP, AFTER };

static struct operation *made(storm *it, uint32_t *which) {
    *which = it->unused;
    if (it->unused != NOBODY) it->unused = it->operations[*which].next;
    else {
        if (it->operations_count == it->operations_room) {
            struct operation *moved = grown(it->operations, &it->operations_room, it->operations_count + 1, sizeof *moved);
            if (!moved) return NULL;
            it->operations = moved;
        }
        *which = (uint32_t)it->operations_count++;
        it->operations[*which].turn = 0;
    }
    return &it->operations[*which];
}

static void goes(storm *it, uint32_t which) {
    struct operation *its = &it->operations[which];
    its->state = UNUSED;
    its->turn++;
    its->next = it->unused;
    it->unused = which;
}

static void attempt_begins(storm *it, uint32_t which) {
    struct operation *its = &it->operations[which];
    its->asked = it->now;
    its->phase = it->is_elected ? AFTER : it->now < it->given.fails_at * (uint64_t)MILLISECOND ? BEFORE : GAP;
    its->fails = WELL;
    its->state = BEGINS;
    later(it, 0, (event){.kind = ASKS, .client = its->client, .which = which, .turn = ++its->turn});
}

void operation_arrives(storm *it, event of) {
    uint64_t mean = it->given.clients * (uint64_t)SECOND / it->given.operations;
    uint32_t which;
    struct operation *its = made(it, &which);
    if (!its) {
        it->status = STORM_NO_MEMORY;
        return;
    }
    *its = (struct operation){.client = of.client, .turn = its->turn, .tries = 1};
    it->sums[SUM_ASKED]++;
    attempt_begins(it, which);
    later(it, it->given.seed ? drawn(it, 2 * mean + 1) : mean, of);
}

static void is_listed(storm *it, uint32_t which) {
    struct operation *its = &it->operations[which];
    struct client *of = &it->clients[its->client];
    its->next = NOBODY;
    its->last = of->last;
    if (of->last == NOBODY) of->first = which;
    else it->operations[of->last].next = which;
    of->last = which;
}

static void is_unlisted(storm *it, uint32_t which) {
    const struct operation *its = &it->operations[which];
    struct client *of = &it->clients[its->client];
    if (its->last == NOBODY) of->first = its->next;
    else it->operations[its->last].next = its->next;
    if (its->next == NOBODY) of->last = its->last;
    else it->operations[its->next].last = its->last;
}

/* The first one that waits for a primary wants the servers checked at once; with the last one nobody does. */
static void wants(storm *it, uint32_t of, bool is_wanted) {
    mdb_reply reply;
    mdb_at at = now_of(it);
    mdb_slot *driver = &it->clients[of].driver;
    done(it, is_wanted ? mdb_want(driver, &at, WATCHER, &reply) : mdb_unwant(driver, &at, WATCHER, &reply));
    for (uint32_t i = 0; i < SERVERS && is_wanted; i++) check_is_wanted(it, of, i);
}

static void selects(storm *it, uint32_t which) {
    struct operation *its = &it->operations[which];
    bool is_first = it->clients[its->client].first == NOBODY;
    uint64_t limit = its->asked + it->given.selection_timeout * (uint64_t)MILLISECOND;
    its->state = SELECTS;
    is_listed(it, which);
    it->here.selecting++;
    later(it, limit > it->now ? limit - it->now : 0, (event){.kind = UNSELECTED, .client = its->client, .which = which, .turn = ++its->turn});
    if (is_first) wants(it, its->client, true);
}

static void selects_no_more(storm *it, uint32_t which) {
    uint32_t of = it->operations[which].client;
    is_unlisted(it, which);
    it->here.selecting--;
    if (it->clients[of].first == NOBODY) wants(it, of, false);
}

void operation_is_unselected(storm *it, event of) {
    if (it->operations[of.which].turn != of.turn) return;
    selects_no_more(it, of.which);
    attempt_ends(it, of.which, SELECTION, true);
}

void primary_is_known(storm *it, uint32_t client) {
    for (uint32_t which; (which = it->clients[client].first) != NOBODY;) {
        struct operation *its = &it->operations[which];
        selects_no_more(it, which);
        its->state = BEGINS;
        later(it, 0, (event){.kind = ASKS, .client = client, .which = which, .turn = ++its->turn});
    }
}

/* A new party of the driver stands for the attempt. */
static bool is_numbered(storm *it, uint32_t which) {
    struct operation *its = &it->operations[which];
    struct client *of = &it->clients[its->client];
    if (of->parties == of->room) {
        uint32_t *moved = grown(of->operations, &of->room, of->parties + 1, sizeof *moved);
        if (!moved) return false;
        of->operations = moved;
    }
    of->operations[of->parties++] = which;
    its->party = (uint32_t)of->parties;
    return true;
}

static void requests(storm *it, uint32_t which) {
    struct operation *its = &it->operations[which];
    uint32_t client = its->client, server = it->clients[client].primary, turn = ++its->turn;
    const uint8_t *address = (const uint8_t *)address_of(server);
    mdb_told told;
    mdb_at at = now_of(it);
    if (!is_numbered(it, which)) {
        it->status = STORM_NO_MEMORY;
        return;
    }
    its->state = WAITS;
    its->server = server;
    it->here.queued++;
    done(it, mdb_request_told(&it->clients[client].driver, &at, its->party, address, strlen((const char *)address), &told));
    if (it->status != STORM_MORE) return;
    bool is_told = told.reply.kind == MDB_POOLED || told.reply.kind == MDB_ENDED;
    deal(it, client, is_told ? which : NOBODY);
    its = &it->operations[which];
    if (its->state == WAITS && its->turn == turn && it->given.wait_queue_timeout > 0)
        later(it, it->given.wait_queue_timeout * (uint64_t)MILLISECOND, (event){.kind = EXPIRES, .client = client, .which = server});
}

void operation_asks(storm *it, event of) {
    if (it->operations[of.which].turn != of.turn) return;
    if (it->clients[of.client].primary == NOBODY) selects(it, of.which);
    else requests(it, of.which);
}

/* The end of a request is told once: here, where the reply to it did not tell it. */
static void collects(storm *it, const struct operation *of) {
    mdb_told told;
    mdb_at at = now_of(it);
    done(it, mdb_collect_told(&it->clients[of->client].driver, &at, of->party, &told));
}

/* Puts when the operation is answered, by the server as it is. */
static void runs(storm *it, uint32_t which) {
    struct operation *its = &it->operations[which];
    const struct server *by = &it->servers[its->server];
    uint64_t trip = it->given.round_trip * (uint64_t)MILLISECOND;
    uint64_t in = by->is_dead || !by->is_primary ? trip : trip + it->given.operation_time * (uint64_t)MILLISECOND;
    if (by->is_dead && it->given.death == DEATH_SILENT) return;
    its->fails = by->is_dead ? NETWORK : by->is_primary ? WELL : NOT_PRIMARY;
    later(it, in, (event){.kind = ANSWERED, .client = its->client, .which = which, .turn = its->turn});
}

void operation_has(storm *it, uint32_t which, bool is_told) {
    struct operation *its = &it->operations[which];
    if (!is_told) collects(it, its);
    its->state = RUNS;
    its->turn++;
    it->here.queued--;
    it->here.running++;
    wait_ends(it, its);
    runs(it, which);
}

void operation_is_interrupted(storm *it, uint32_t which, uint64_t in) {
    struct operation *its = &it->operations[which];
    if (its->state != RUNS) return;
    its->fails = it->given.death == DEATH_STEPDOWN ? NOT_PRIMARY : NETWORK;
    later(it, in, (event){.kind = ANSWERED, .client = its->client, .which = which, .turn = ++its->turn});
}

/* Tells the driver of the error that the operation met. */
static void errs(storm *it, const struct operation *of) {
    const char *error = of->fails == NETWORK ? "network msg=connection reset" : "command.10107 msg=not primary";
    mdb_reply reply;
    mdb_at at = now_of(it);
    uint32_t client = of->client;
    done(it, mdb_error(&it->clients[client].driver, &at, of->party, (const uint8_t *)error, strlen(error), &reply));
    if (it->status == STORM_MORE) deal(it, client, NOBODY);
}

static void returns(storm *it, uint32_t client, uint32_t party, uint32_t how) {
    mdb_told told;
    mdb_at at = now_of(it);
    done(it, mdb_return_told(&it->clients[client].driver, &at, party, how, &told));
    if (it->status == STORM_MORE) deal(it, client, NOBODY);
}

static bool is_unanswered(const storm *it, const struct operation *of) { return of->fails == WELL && it->servers[of->server].is_dead; }

void operation_is_answered(storm *it, event of) {
    struct operation *its = &it->operations[of.which];
    uint32_t why = its->fails, party = its->party;
    if (its->turn != of.turn || is_unanswered(it, its)) return;
    if (why != WELL) errs(it, its);
    it->operations[of.which].state = BEGINS;
    it->here.running--;
    if (it->status == STORM_MORE) returns(it, of.client, party, why == NETWORK ? MDB_USE_ERRORED : MDB_USE_OK);
    if (why != WELL) {
        attempt_ends(it, of.which, why, true);
        return;
    }
    it->sums[SUM_DONE]++;
    it->here.done++;
    goes(it, of.which);
}

static bool is_retryable(uint32_t why) { return why == NETWORK || why == NOT_PRIMARY || why == CLEARED || why == CONNECT; }

void attempt_ends(storm *it, uint32_t which, uint32_t why, bool is_told) {
    struct operation *its = &it->operations[which];
    if (its->state == WAITS) {
        if (!is_told) collects(it, its);
        it->here.queued--;
    }
    it->sums[why]++;
    if (is_retryable(why) && its->tries <= it->given.retries) {
        its->tries++;
        it->sums[SUM_RETRIED]++;
        attempt_begins(it, which);
        return;
    }
    it->sums[SUM_FAILED]++;
    it->here.failed++;
    goes(it, which);
}
