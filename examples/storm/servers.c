/* The servers: what they reply, when they accept a connection, and how one fails and another one is elected. */
#include "world.h"

static const char *const addresses[SERVERS] = {"a:27017", "b:27017", "c:27017"};

const char *address_of(uint32_t which) { return addresses[which]; }

void reply_of(const storm *it, uint32_t which, text *to) {
    const struct server *of = &it->servers[which];
    text_put(to, of->is_primary ? " isWritablePrimary=true" : "");
    text_put(to, " hosts=a:27017,b:27017,c:27017 setVersion=1 setName=rs");
    text_put(to, of->is_primary ? "" : " secondary=true");
    text_put(to, " minWireVersion=0 maxWireVersion=21");
    if (of->is_primary) {
        text_put(to, " electionId=");
        text_id(to, of->election);
    }
    text_put(to, " topologyVersion=");
    text_id(to, which + 1);
    text_put(to, ".");
    text_number(to, of->version);
}

uint64_t accepted_at(storm *it, uint32_t which) {
    struct server *of = &it->servers[which];
    if (of->is_dead) return NEVER;
    uint64_t begins = of->free_at > it->now ? of->free_at : it->now;
    of->free_at = begins + (it->given.accepts ? SECOND / it->given.accepts : 0);
    if (which == SUCCESSOR && it->now >= it->given.fails_at * (uint64_t)MILLISECOND && begins - it->now > it->sums[SUM_ACCEPT_MOST]) it->sums[SUM_ACCEPT_MOST] = begins - it->now;
    return begins + it->given.connect_time * (uint64_t)MILLISECOND;
}

/* What runs there ends: by an error at once where the server refuses or steps down, and not at all where it is silent. */
static void operations_end(storm *it) {
    for (uint32_t i = 0; i < it->operations_count && it->given.death != DEATH_SILENT; i++)
        if (it->operations[i].state == RUNS && it->operations[i].server == FAILING) operation_is_interrupted(it, i, it->given.round_trip * (uint64_t)MILLISECOND / 2);
}

void primary_fails(storm *it) {
    struct server *of = &it->servers[FAILING];
    of->is_primary = false;
    of->is_dead = it->given.death != DEATH_STEPDOWN;
    of->version++;
    operations_end(it);
    if (it->given.death != DEATH_SILENT) server_is_news(it, FAILING);
}

void successor_is_elected(storm *it) {
    struct server *of = &it->servers[SUCCESSOR];
    of->is_primary = true;
    of->election = 2;
    of->version++;
    it->is_elected = true;
    it->sums[SUM_GAP] = it->now - it->given.fails_at * (uint64_t)MILLISECOND;
    server_is_news(it, SUCCESSOR);
}
