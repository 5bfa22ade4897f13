/* The monitors of the drivers, one for each server: each check does what the library says, and what follows it too. */
#include "world.h"
#include <string.h>

enum { LEAST_HEARTBEAT = 500 * MILLISECOND };

static struct monitor *monitor_of(storm *it, uint32_t client, uint32_t which) { return &it->clients[client].monitors[which]; }

static void name_of(uint32_t which, text *to) {
    text_put(to, address_of(which));
    text_put(to, " ");
    text_number(to, which);
}

/* After how many microseconds a check that begins now ends. */
static uint64_t duration_of(const storm *it, uint32_t which, const mdb_check *check) {
    const struct server *of = &it->servers[which];
    uint64_t trip = it->given.round_trip * (uint64_t)MILLISECOND;
    if (of->is_dead) return it->given.death == DEATH_SILENT ? check->timeout * MILLISECOND : trip;
    if (check->action == MDB_CHECK_CONNECT) return it->given.connect_time * (uint64_t)MILLISECOND;
    return check->awaits && (uint64_t)check->counter >= of->version ? trip + check->most * MILLISECOND : trip;
}

void check_begins(storm *it, event of) {
    struct client *its = &it->clients[of.client];
    struct monitor *my = &its->monitors[of.which];
    const uint8_t *address = (const uint8_t *)address_of(of.which);
    size_t length = strlen(address_of(of.which));
    mdb_check check;
    mdb_reply reply;
    mdb_at at = now_of(it);
    if (my->turn != of.turn || my->runs) return;
    done(it, mdb_check_get(&its->driver, address, length, &check));
    done(it, mdb_beat(&its->driver, &at, address, length, of.which, &reply));
    if (it->status != STORM_MORE) return;
    my->runs = true;
    my->awaits = check.awaits;
    my->began = it->now;
    my->timeout = check.timeout * MILLISECOND;
    my->turn++;
    deal(it, of.client, NOBODY);
    later(it, duration_of(it, of.which, &check), (event){.kind = CHECKED, .client = of.client, .which = of.which, .turn = my->turn});
}

static void outcome_of(const storm *it, const struct monitor *my, uint32_t which, text *to) {
    text_number(to, (it->now - my->began) * 1000);
    if (my->is_cancelled) text_put(to, " cancelled network msg=cancelled");
    else if (it->servers[which].is_dead) text_put(to, it->given.death == DEATH_SILENT ? " err timeout msg=no reply" : " err network msg=connection refused");
    else {
        text_put(to, " ok");
        reply_of(it, which, to);
    }
}

/* A server that fell silent while it was asked is given up when the time for its reply is over. */
static bool is_still_silent(storm *it, const struct monitor *my, event of) {
    if (!it->servers[of.which].is_dead || it->given.death != DEATH_SILENT || my->is_cancelled || it->now >= my->began + my->timeout) return false;
    later(it, my->began + my->timeout - it->now, of);
    return true;
}

static bool is_wanted(const struct client *its) { return its->first != NOBODY; }

static void rests(storm *it, uint32_t client, uint32_t which, uint64_t for_so_long) {
    struct monitor *my = monitor_of(it, client, which);
    my->wakes = it->now + for_so_long;
    later(it, for_so_long, (event){.kind = CHECKS, .client = client, .which = which, .turn = ++my->turn});
}

void check_ends(storm *it, event of) {
    struct client *its = &it->clients[of.client];
    struct monitor *my = &its->monitors[of.which];
    text name = {.length = 0}, outcome = {.length = 0};
    uint32_t next = MDB_NEXT_SLEEP;
    mdb_reply reply;
    mdb_at at = now_of(it);
    if (my->turn != of.turn || is_still_silent(it, my, of)) return;
    name_of(of.which, &name);
    outcome_of(it, my, of.which, &outcome);
    done(it, mdb_check_next(&its->driver, name.at, name.length, outcome.at, outcome.length, &next));
    done(it, mdb_beaten(&its->driver, &at, name.at, name.length, outcome.at, outcome.length, &reply));
    if (it->status != STORM_MORE) return;
    my->runs = my->is_cancelled = false;
    my->ended = it->now;
    deal(it, of.client, NOBODY);
    uint64_t rest = is_wanted(its) ? LEAST_HEARTBEAT : it->given.heartbeat * (uint64_t)MILLISECOND;
    rests(it, of.client, of.which, next == MDB_NEXT_SLEEP ? rest : 0);
}

void check_is_cancelled(storm *it, uint32_t client, uint32_t which) {
    struct monitor *my = monitor_of(it, client, which);
    if (!my->runs || my->is_cancelled) return;
    my->is_cancelled = true;
    later(it, 0, (event){.kind = CHECKED, .client = client, .which = which, .turn = ++my->turn});
}

void check_is_wanted(storm *it, uint32_t client, uint32_t which) {
    const struct monitor *my = monitor_of(it, client, which);
    uint64_t soonest = my->ended + LEAST_HEARTBEAT;
    if (soonest < it->now) soonest = it->now;
    if (!my->runs && soonest < my->wakes) rests(it, client, which, soonest - it->now);
}

/* What waits for news of a server is answered, or broken off where it died. */
void server_is_news(storm *it, uint32_t which) {
    uint64_t trip = it->given.round_trip * (uint64_t)MILLISECOND;
    for (uint32_t i = 0; i < it->given.clients; i++) {
        struct monitor *my = monitor_of(it, i, which);
        if (!my->runs || (!my->awaits && !it->servers[which].is_dead)) continue;
        later(it, trip / 2 + drawn(it, trip), (event){.kind = CHECKED, .client = i, .which = which, .turn = ++my->turn});
    }
}
