/* What a storm is made of while it runs. */
#ifndef WORLD_H
#define WORLD_H

#include "agenda.h"
#include "mdb.h"
#include "storm.h"
#include "text.h"

enum { NOBODY = UINT32_MAX, MILLISECOND = 1000, SECOND = 1000000 };

struct server {
    bool is_primary, is_dead;
    uint64_t version, election;
    uint64_t free_at; /* when it can accept the next connection */
};

enum connection_state { UNKNOWN, PENDING, LIVE, CLOSED };

/* A connection of a pool, by its number. */
struct connection {
    uint64_t begun;
    uint32_t operation; /* to which it was granted */
    uint8_t state;
    bool is_late;       /* it will not be there in time */
};

struct pool {
    struct connection *connections;
    size_t room;
};

struct monitor {
    uint64_t began, ended, wakes, timeout;
    uint32_t turn;
    bool runs, awaits, is_cancelled;
};

struct client {
    mdb_slot driver;
    uint32_t *operations; /* of its parties, which are numbered from 1 */
    size_t parties, room;
    uint32_t primary;
    uint32_t first, last; /* of the operations that wait for a primary */
    struct pool pools[SERVERS];
    struct monitor monitors[SERVERS];
};

enum operation_state { UNUSED, BEGINS, SELECTS, WAITS, RUNS };
enum failure { WELL = 0, NETWORK = SUM_NETWORK, NOT_PRIMARY, CLEARED, CONNECT, WAIT_QUEUE, SELECTION };

struct operation {
    uint64_t asked; /* when its attempt began */
    uint32_t client, party, server, id;
    uint32_t next, last; /* its neighbours in a list */
    uint32_t turn;
    uint8_t state, phase, tries, fails;
};

struct storm {
    settings given;
    agenda agenda;
    uint64_t now, random;
    int status;
    struct server servers[SERVERS];
    struct client *clients;
    struct operation *operations;
    size_t operations_count, operations_room;
    uint32_t unused; /* the first of the operations that ended */
    mdb_fact *facts; /* of the last entry */
    size_t facts_room;
    bool is_elected;
    /* what is measured */
    storm_sample here;
    storm_sample *samples;
    size_t samples_count, samples_room;
    uint64_t *waits; /* four times the microseconds, and the phase */
    size_t waits_count, waits_room;
    uint64_t calm_since; /* since when no more wait than before the failure, or NEVER */
    uint32_t knowing;    /* drivers that know the successor */
    uint64_t sums[SUMS];
};

/* A number below a limit; 0 for a limit of 0. */
uint64_t drawn(storm *it, uint64_t below);

/* Puts an event that comes so many microseconds from now. */
void later(storm *it, uint64_t in, event what);

/* The moment of a step that is made now. */
mdb_at now_of(storm *it);

/* A step that was not done ends the run. */
void done(storm *it, mdb_status status);

/* servers.c */
const char *address_of(uint32_t which);
void reply_of(const storm *it, uint32_t which, text *to);

/* When a connection that is begun now is there; NEVER where nobody answers. */
#define NEVER UINT64_MAX
uint64_t accepted_at(storm *it, uint32_t which);
void primary_fails(storm *it);
void successor_is_elected(storm *it);

/* monitors.c */
void check_begins(storm *it, event of);
void check_ends(storm *it, event of);
void check_is_cancelled(storm *it, uint32_t client, uint32_t which);
void check_is_wanted(storm *it, uint32_t client, uint32_t which);
void server_is_news(storm *it, uint32_t which);

/* facts.c: what a step of a client told; `told` is the operation whose end its reply has told already. */
void deal(storm *it, uint32_t client, uint32_t told);

/* connections.c */
struct connection *connection_of(storm *it, uint32_t client, uint32_t which, uint32_t id);
void connections_are_claimed(storm *it, uint32_t client);
void connection_ends(storm *it, event of);

/* operations.c */
void operation_arrives(storm *it, event of);
void operation_asks(storm *it, event of);
void operation_is_unselected(storm *it, event of);
void operation_has(storm *it, uint32_t which, bool is_told);
void operation_is_interrupted(storm *it, uint32_t which, uint64_t in);
void operation_is_answered(storm *it, event of);
void attempt_ends(storm *it, uint32_t which, uint32_t why, bool is_told);
void primary_is_known(storm *it, uint32_t client);

/* measures.c */
void sample_is_taken(storm *it);
void wait_ends(storm *it, const struct operation *of);
void look(storm *it);

#endif
