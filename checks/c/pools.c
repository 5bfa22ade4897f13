// Drives pools that stand alone through every call, over a heap of its own: once with memory, where each reply and each event is what CMAP asks for, and
// then with each allocation refused in turn, where the refused call changes nothing and the log is the same. Ends with status 1 and the line of the check
// that fails, or with 0. Linked in place of bindings/heap.c.
#include "mdb.h"
#include <stdarg.h>
#include <stdbool.h>
#include <stdio.h>
#include <stdlib.h>
#include <string.h>

_Static_assert(sizeof(mdb_pool_slot) == 16, "a slot has 16 bytes");
_Static_assert(sizeof(mdb_pool_options) == 40, "options have 40 bytes");
_Static_assert(sizeof(mdb_pool_state) == 48, "a state has 48 bytes");

#define CHECK(what) do { if (!(what)) { fprintf(stderr, "line %d: %s\n", __LINE__, #what); exit(1); } } while (0)
#define AT(moment) &(mdb_at){moment, 3}
#define NO_SERVICE (const uint8_t *)"", 0
#define SERVICE (const uint8_t *)"0102030405060708090a0b0c", 24
#define NO_ID (const uint8_t *)"0102", 4
#define BAD_TEXT (const uint8_t *)"\x80\xff", 2

struct block {
    bool ok;
    void *at;
};

static long left = -1, asked, live;

static bool refuses(void) {
    asked++;
    return left-- == 0;
}

struct block rattle_alloc(size_t size, size_t align) {
    void *at = refuses() ? 0 : malloc(size ? size : align);
    if (at) live++;
    return (struct block){at != 0, at};
}

struct block rattle_realloc(void *at, size_t old_size, size_t size, size_t align) {
    (void)old_size;
    void *moved = refuses() ? 0 : realloc(at, size ? size : align);
    return (struct block){moved != 0, moved};
}

void rattle_dealloc(void *at) {
    if (at) live--;
    free(at);
}

static mdb_pool_slot slot = MDB_POOL_SLOT_INIT;
static mdb_told told, kept;

// What a call that failed leaves: the reply, the facts and the pool as they were.
struct before {
    mdb_pool_state state;
    mdb_fact facts[64];
    size_t count;
};

static struct before before(void) {
    struct before it;
    memset(&it, 0, sizeof it);
    memset(&told, 77, sizeof told);
    kept = told;
    CHECK(mdb_pool_get(&slot, &it.state) == MDB_OK && mdb_pool_facts(&slot, it.facts, 64, &it.count) == MDB_OK);
    return it;
}

// The two facts are the same, member by member.
static int same_fact(const mdb_fact *a, const mdb_fact *b) {
    return a->kind == b->kind && a->event == b->event && a->pool == b->pool && a->id == b->id && a->party == b->party && a->why == b->why && a->number == b->number
        && memcmp(a->service, b->service, sizeof a->service) == 0 && a->has_service == b->has_service && a->has_pool == b->has_pool;
}

static void unchanged(const struct before *then) {
    CHECK(memcmp(&told, &kept, sizeof told) == 0);
    struct before now = before();
    CHECK(memcmp(&now.state, &then->state, sizeof now.state) == 0 && now.count == then->count && now.count <= 64);
    for (size_t i = 0; i < now.count; i++) CHECK(same_fact(&now.facts[i], &then->facts[i]));
}

// A step that is done, made again where it had no memory.
#define STEP(call) do { \
    struct before then = before(); \
    mdb_status status = call; \
    if (status == MDB_NO_MEMORY) { unchanged(&then); status = call; } \
    CHECK(status == MDB_OK); \
    facts_agree(); \
} while (0)

// A call whose arguments mean nothing.
#define MEANS_NOTHING(call) do { \
    struct before then = before(); \
    CHECK((call) == MDB_MALFORMED); \
    unchanged(&then); \
} while (0)

// The facts that came with the reply are those that mdb_pool_facts tells, and a room that is too small stays as it is.
static void facts_agree(void) {
    mdb_fact all[64], one = {.kind = 77};
    size_t count = 99;
    CHECK(mdb_pool_facts(&slot, all, 64, &count) == MDB_OK && count == told.count && count <= 64);
    for (size_t i = 0; i < count && count <= MDB_TOLD_FACTS; i++) CHECK(same_fact(&all[i], &told.facts[i]));
    for (size_t i = 0; i < count; i++) CHECK(all[i].has_pool == (all[i].kind != MDB_FACT_ENDED) && (!all[i].has_pool || all[i].pool == 7));
    CHECK(mdb_pool_facts(&slot, &one, 0, &count) == (count ? MDB_NO_ROOM : MDB_OK) && count == told.count && one.kind == 77);
}

// The events of the last step are these, in this order.
static void events(int number, ...) {
    mdb_fact all[64];
    size_t count;
    CHECK(mdb_pool_facts(&slot, all, 64, &count) == MDB_OK);
    va_list list;
    va_start(list, number);
    size_t at = 0;
    for (int i = 0; i < number; i++, at++) {
        while (at < count && all[at].kind != MDB_FACT_POOL) at++;
        CHECK(at < count && all[at].event == va_arg(list, unsigned));
    }
    va_end(list);
    for (; at < count; at++) CHECK(all[at].kind != MDB_FACT_POOL);
}

static mdb_fact fact_of(uint32_t kind, uint32_t event) {
    mdb_fact all[64];
    size_t count;
    CHECK(mdb_pool_facts(&slot, all, 64, &count) == MDB_OK);
    for (size_t i = 0; i < count; i++)
        if (all[i].kind == kind && all[i].event == event) return all[i];
    CHECK(!"there is such a fact");
    return all[0];
}

static void replies(uint32_t kind, uint32_t id, uint32_t why) {
    CHECK(told.reply.kind == kind && told.reply.id == id && told.reply.why == why);
    CHECK(told.reply.pool == (id ? 7u : 0u));
}

static mdb_pool_state state(void) {
    mdb_pool_state it;
    CHECK(mdb_pool_get(&slot, &it) == MDB_OK && it.number == 7);
    return it;
}

// How many connections are available, in use and pending, and how many callers wait.
static void has(uint64_t available, uint64_t in_use, uint64_t pending, uint64_t waiting) {
    mdb_pool_state it = state();
    CHECK(it.available == available && it.in_use == in_use && it.pending == pending && it.waiting == waiting);
}

// From the moment on something is due then, or nothing where it is 0; the question changes nothing and asks for no memory.
static void due(uint64_t moment, uint64_t when) {
    struct before then = before();
    long calls = asked;
    uint64_t it = 77;
    mdb_status status = mdb_pool_next_due(&slot, moment, &it);
    CHECK(when ? status == MDB_OK && it == when : status == MDB_NO_ENTRY && it == 77);
    CHECK(asked == calls);
    unchanged(&then);
}

// Nothing is due at the moment, and the call changes nothing.
static void no_tick(uint64_t moment) {
    struct before then = before();
    CHECK(mdb_pool_tick(&slot, AT(moment), &told) == MDB_NO_ENTRY);
    unchanged(&then);
}

static void open_pool(const mdb_pool_options *options) {
    mdb_status status = mdb_pool_open(&slot, options);
    if (status == MDB_NO_MEMORY) {
        CHECK(slot.state == 0);
        status = mdb_pool_open(&slot, options);
    }
    CHECK(status == MDB_OK);
}

// Each call answers so at a closed slot, and writes nothing.
static void closed_slot(void) {
    mdb_pool_state it = {7, 7, 7, 7, 7, 7, 7}, same = it;
    mdb_fact fact = {.kind = 77};
    size_t count = 9;
    uint64_t generation = 9, due_at = 9;
    memset(&told, 77, sizeof told);
    kept = told;
    CHECK(mdb_pool_next_due(&slot, 1, &due_at) == MDB_CLOSED && due_at == 9 && mdb_pool_tick(&slot, AT(1), &told) == MDB_CLOSED);
    CHECK(mdb_pool_request(&slot, AT(1), 1, &told) == MDB_CLOSED && mdb_pool_warm(&slot, AT(1), 1, &told) == MDB_CLOSED);
    CHECK(mdb_pool_collect(&slot, AT(1), 1, &told) == MDB_CLOSED && mdb_pool_give_up(&slot, AT(1), 1, &told) == MDB_CLOSED);
    CHECK(mdb_pool_return(&slot, AT(1), 1, MDB_USE_OK, &told) == MDB_CLOSED && mdb_pool_return(&slot, AT(1), 1, 4, &told) == MDB_MALFORMED);
    CHECK(mdb_pool_claim(&slot, AT(1), &told) == MDB_CLOSED && mdb_pool_established(&slot, AT(1), 1, NO_SERVICE, &told) == MDB_CLOSED);
    mdb_status failed = mdb_pool_failed(&slot, AT(1), 1, NO_SERVICE, &told), clear = mdb_pool_clear(&slot, AT(1), 0, NO_SERVICE, &told);
    CHECK((failed == MDB_CLOSED || failed == MDB_NO_MEMORY) && (clear == MDB_CLOSED || clear == MDB_NO_MEMORY));
    CHECK(mdb_pool_pin(&slot, AT(1), 1, &told) == MDB_CLOSED && mdb_pool_replicate(&slot, AT(1), 1, &told) == MDB_CLOSED);
    CHECK(mdb_pool_take(&slot, AT(1), 1, 1, &told) == MDB_CLOSED && mdb_pool_unpin(&slot, AT(1), 1, &told) == MDB_CLOSED);
    CHECK(mdb_pool_ready(&slot, AT(1), &told) == MDB_CLOSED && mdb_pool_maintain(&slot, AT(1), &told) == MDB_CLOSED);
    CHECK(mdb_pool_expire(&slot, AT(1), &told) == MDB_CLOSED && mdb_pool_close(&slot, AT(1), &told) == MDB_CLOSED);
    CHECK(mdb_pool_get(&slot, &it) == MDB_CLOSED && memcmp(&it, &same, sizeof it) == 0);
    CHECK(mdb_pool_generation(&slot, NO_SERVICE, &generation) == MDB_CLOSED && generation == 9);
    CHECK(mdb_pool_facts(&slot, &fact, 1, &count) == MDB_CLOSED && count == 0 && fact.kind == 77);
    CHECK(memcmp(&told, &kept, sizeof told) == 0 && slot.state == 0 && slot.at == 0);
}

static void bad_options(void) {
    mdb_pool_options good = MDB_POOL_OPTIONS_INIT, bad[6];
    for (int i = 0; i < 6; i++) bad[i] = good;
    bad[0].max_size = 0;
    bad[1].max_size = 65536;
    bad[2].min_size = 65536;
    bad[3].max_connecting = 0;
    bad[4].max_connecting = 4294967295u;
    bad[5].load_balanced = 2;
    for (int i = 0; i < 6; i++) CHECK(mdb_pool_open(&slot, &bad[i]) == MDB_MALFORMED && slot.state == 0 && slot.at == 0);
}

// Check-outs (CMAP, "Checking Out a Connection"): a new pool turns callers away, a ready one makes connections within its sizes, and others wait.
static void check_outs(void) {
    STEP(mdb_pool_request(&slot, AT(1), 1, &told));
    replies(MDB_ENDED, 0, MDB_END_CLEARED);
    events(2, MDB_CHECKOUT_STARTED, MDB_CHECKOUT_FAILED);
    CHECK(fact_of(MDB_FACT_POOL, MDB_CHECKOUT_FAILED).why == MDB_FAILED_CONNECTION_ERROR);
    STEP(mdb_pool_ready(&slot, AT(2), &told));
    replies(MDB_DONE, 0, 0);
    events(1, MDB_POOL_READY);
    CHECK(state().state == MDB_POOL_IS_READY);
    STEP(mdb_pool_ready(&slot, AT(2), &told));
    events(0);
    STEP(mdb_pool_request(&slot, AT(3), 2, &told));
    replies(MDB_ESTABLISHING, 1, 0);
    events(2, MDB_CHECKOUT_STARTED, MDB_CONNECTION_CREATED);
    STEP(mdb_pool_request(&slot, AT(3), 2, &told));
    replies(MDB_REFUSED, 0, MDB_WHY_REQUEST_KNOWN);
    CHECK(told.count == 0);
    STEP(mdb_pool_request(&slot, AT(4), 3, &told));
    replies(MDB_ESTABLISHING, 2, 0);
    has(0, 0, 2, 0);
    due(5, 0);
    STEP(mdb_pool_request(&slot, AT(5), 4, &told)); // both connections of the pool are pending
    replies(MDB_WAITING, 0, 0);
    events(1, MDB_CHECKOUT_STARTED);
    has(0, 0, 2, 1);
    due(5, 55); // it may wait for 50
    due(60, 60);
    STEP(mdb_pool_request(&slot, AT(4), 5, &told));
    replies(MDB_REFUSED, 0, MDB_WHY_TIME_BACK);
    CHECK(told.reply.number == 5);
}

// Connections are established or fail (CMAP, "Establishing a Connection").
static void connections(void) {
    STEP(mdb_pool_claim(&slot, AT(6), &told));
    replies(MDB_JOB, 1, 0);
    STEP(mdb_pool_claim(&slot, AT(6), &told));
    replies(MDB_JOB, 2, 0);
    STEP(mdb_pool_claim(&slot, AT(6), &told));
    replies(MDB_NO_JOB, 0, 0);
    MEANS_NOTHING(mdb_pool_established(&slot, AT(7), 1, NO_ID, &told));
    MEANS_NOTHING(mdb_pool_established(&slot, AT(7), 1, BAD_TEXT, &told));
    MEANS_NOTHING(mdb_pool_failed(&slot, AT(7), 1, NO_ID, &told));
    STEP(mdb_pool_established(&slot, AT(7), 9, NO_SERVICE, &told));
    replies(MDB_REFUSED, 0, MDB_WHY_NOT_PENDING);
    STEP(mdb_pool_established(&slot, AT(7), 1, SERVICE, &told));
    replies(MDB_REFUSED, 0, MDB_WHY_WRONG_MODE);
    STEP(mdb_pool_established(&slot, AT(8), 1, NO_SERVICE, &told));
    events(2, MDB_CONNECTION_READY, MDB_CHECKED_OUT);
    CHECK(fact_of(MDB_FACT_POOL, MDB_CONNECTION_READY).number == 5 && fact_of(MDB_FACT_POOL, MDB_CHECKED_OUT).number == 5);
    has(0, 1, 1, 1);
    STEP(mdb_pool_failed(&slot, AT(9), 2, NO_SERVICE, &told)); // the caller that waits gets the room
    has(0, 1, 1, 0);
    events(3, MDB_CONNECTION_CLOSED, MDB_CHECKOUT_FAILED, MDB_CONNECTION_CREATED);
    CHECK(fact_of(MDB_FACT_POOL, MDB_CONNECTION_CLOSED).why == MDB_CLOSED_ERROR && fact_of(MDB_FACT_ENDED, 0).party == 3);
    STEP(mdb_pool_failed(&slot, AT(9), 2, NO_SERVICE, &told));
    replies(MDB_REFUSED, 0, MDB_WHY_NOT_PENDING);
    STEP(mdb_pool_collect(&slot, AT(9), 2, &told));
    replies(MDB_POOLED, 1, 0);
    STEP(mdb_pool_collect(&slot, AT(9), 3, &told));
    replies(MDB_ENDED, 0, MDB_END_FAILED);
    STEP(mdb_pool_collect(&slot, AT(9), 3, &told));
    replies(MDB_REFUSED, 0, MDB_WHY_UNKNOWN_REQUEST);
    STEP(mdb_pool_give_up(&slot, AT(10), 4, &told));
    replies(MDB_DONE, 0, 0);
    STEP(mdb_pool_give_up(&slot, AT(10), 4, &told));
    replies(MDB_REFUSED, 0, MDB_WHY_UNKNOWN_REQUEST);
    STEP(mdb_pool_established(&slot, AT(11), 3, NO_SERVICE, &told)); // nobody waits for it
    events(2, MDB_CONNECTION_READY, MDB_CHECKED_IN);
    CHECK(state().available == 1);
}

static void pins(void) {
    STEP(mdb_pool_pin(&slot, AT(12), 9, &told));
    replies(MDB_REFUSED, 0, MDB_WHY_NOT_HOLDER);
    STEP(mdb_pool_pin(&slot, AT(12), 2, &told));
    replies(MDB_DONE, 0, 0);
    STEP(mdb_pool_pin(&slot, AT(12), 2, &told));
    replies(MDB_REFUSED, 0, MDB_WHY_PIN_STATE);
    STEP(mdb_pool_return(&slot, AT(12), 2, MDB_USE_OK, &told)); // it goes to its pin
    CHECK(told.count == 0);
    has(1, 1, 0, 0); // what stays at its pin is in use
    STEP(mdb_pool_replicate(&slot, AT(13), 1, &told));
    STEP(mdb_pool_replicate(&slot, AT(13), 3, &told));
    replies(MDB_REFUSED, 0, MDB_WHY_UNPINNED);
    STEP(mdb_pool_take(&slot, AT(13), 5, 1, &told));
    replies(MDB_POOLED, 1, 0);
    STEP(mdb_pool_take(&slot, AT(13), 6, 1, &told));
    replies(MDB_REFUSED, 0, MDB_WHY_PIN_IN_USE);
    MEANS_NOTHING(mdb_pool_return(&slot, AT(14), 5, 4, &told));
    STEP(mdb_pool_return(&slot, AT(14), 5, MDB_USE_OK, &told));
    STEP(mdb_pool_unpin(&slot, AT(14), 1, &told));
    CHECK(told.count == 0);
    STEP(mdb_pool_unpin(&slot, AT(14), 1, &told));
    events(1, MDB_CHECKED_IN);
    STEP(mdb_pool_unpin(&slot, AT(14), 1, &told));
    replies(MDB_REFUSED, 0, MDB_WHY_UNPINNED);
    CHECK(state().available == 2);
}

// A clear (CMAP, "Clearing a Connection Pool") makes all connections stale, and the pool is paused until it is marked ready.
static void clears(void) {
    uint64_t generation = 9;
    MEANS_NOTHING(mdb_pool_clear(&slot, AT(15), 3, NO_SERVICE, &told));
    MEANS_NOTHING(mdb_pool_clear(&slot, AT(15), MDB_CAUSE_OTHER, BAD_TEXT, &told));
    STEP(mdb_pool_clear(&slot, AT(15), MDB_CAUSE_OTHER, SERVICE, &told));
    replies(MDB_REFUSED, 0, MDB_WHY_WRONG_MODE);
    STEP(mdb_pool_clear(&slot, AT(15), MDB_CAUSE_NETWORK_TIMEOUT, NO_SERVICE, &told));
    events(1, MDB_POOL_CLEARED);
    CHECK(fact_of(MDB_FACT_POOL, MDB_POOL_CLEARED).number == 1 && fact_of(MDB_FACT_RAISED, 0).has_service == 0);
    CHECK(state().generation == 1 && state().state == MDB_POOL_IS_PAUSED);
    CHECK(mdb_pool_generation(&slot, NO_SERVICE, &generation) == MDB_OK && generation == 1);
    CHECK(mdb_pool_generation(&slot, SERVICE, &generation) == MDB_OK && generation == 0);
    generation = 9;
    CHECK(mdb_pool_generation(&slot, NO_ID, &generation) == MDB_MALFORMED && generation == 9);
    STEP(mdb_pool_clear(&slot, AT(16), MDB_CAUSE_NETWORK, NO_SERVICE, &told)); // a paused pool makes no event
    events(0);
    STEP(mdb_pool_request(&slot, AT(16), 6, &told));
    replies(MDB_ENDED, 0, MDB_END_CLEARED);
    STEP(mdb_pool_ready(&slot, AT(17), &told));
    events(1, MDB_POOL_READY);
    STEP(mdb_pool_request(&slot, AT(18), 7, &told)); // it meets two stale connections
    replies(MDB_ESTABLISHING, 4, 0);
    events(4, MDB_CHECKOUT_STARTED, MDB_CONNECTION_CLOSED, MDB_CONNECTION_CLOSED, MDB_CONNECTION_CREATED);
    CHECK(fact_of(MDB_FACT_POOL, MDB_CONNECTION_CLOSED).why == MDB_CLOSED_STALE);
    STEP(mdb_pool_established(&slot, AT(19), 4, NO_SERVICE, &told));
}

// What time brings: idle connections are closed, and callers that waited too long end.
static void timers(void) {
    STEP(mdb_pool_return(&slot, AT(20), 7, MDB_USE_OK, &told));
    events(1, MDB_CHECKED_IN);
    STEP(mdb_pool_maintain(&slot, AT(119), &told));
    events(0);
    STEP(mdb_pool_maintain(&slot, AT(120), &told));
    events(1, MDB_CONNECTION_CLOSED);
    CHECK(fact_of(MDB_FACT_POOL, MDB_CONNECTION_CLOSED).why == MDB_CLOSED_IDLE);
    for (uint32_t party = 10; party < 13; party++) STEP(mdb_pool_request(&slot, AT(200), party, &told));
    replies(MDB_WAITING, 0, 0);
    STEP(mdb_pool_expire(&slot, AT(249), &told));
    events(0);
    STEP(mdb_pool_expire(&slot, AT(250), &told));
    events(1, MDB_CHECKOUT_FAILED);
    CHECK(fact_of(MDB_FACT_POOL, MDB_CHECKOUT_FAILED).why == MDB_FAILED_TIMEOUT && fact_of(MDB_FACT_POOL, MDB_CHECKOUT_FAILED).number == 50);
    CHECK(fact_of(MDB_FACT_ENDED, 0).party == 12 && fact_of(MDB_FACT_ENDED, 0).why == MDB_END_TIMED_OUT);
}

// The same timers by what is due: nothing is done before its moment, all of it then, and the moment tells when.
static void ticks(void) {
    mdb_pool_options options = MDB_POOL_OPTIONS_INIT;
    options.number = 7;
    options.max_size = options.min_size = 2;
    options.max_idle = 100;
    options.max_wait = 50;
    open_pool(&options);
    due(1, 0); // a new pool is not filled
    no_tick(1);
    STEP(mdb_pool_ready(&slot, AT(1), &told));
    due(1, 1);
    due(5, 5);
    STEP(mdb_pool_tick(&slot, AT(1), &told));
    replies(MDB_DONE, 0, 0);
    events(2, MDB_CONNECTION_CREATED, MDB_CONNECTION_CREATED);
    due(1, 0);
    no_tick(1);
    STEP(mdb_pool_established(&slot, AT(2), 1, NO_SERVICE, &told));
    STEP(mdb_pool_established(&slot, AT(4), 2, NO_SERVICE, &told));
    due(4, 102); // the first has been idle for 100 then
    no_tick(101);
    STEP(mdb_pool_request(&slot, AT(10), 1, &told));
    STEP(mdb_pool_request(&slot, AT(10), 2, &told));
    due(10, 0);
    STEP(mdb_pool_request(&slot, AT(20), 3, &told));
    due(20, 70);
    STEP(mdb_pool_request(&slot, AT(40), 4, &told));
    has(0, 2, 0, 2);
    due(40, 70);
    STEP(mdb_pool_return(&slot, AT(50), 1, MDB_USE_OK, &told)); // the third has its connection
    due(50, 90);
    no_tick(89);
    STEP(mdb_pool_tick(&slot, AT(90), &told));
    replies(MDB_DONE, 0, 0);
    events(1, MDB_CHECKOUT_FAILED);
    CHECK(fact_of(MDB_FACT_ENDED, 0).party == 4 && fact_of(MDB_FACT_ENDED, 0).why == MDB_END_TIMED_OUT);
    no_tick(90);
    STEP(mdb_pool_return(&slot, AT(95), 2, MDB_USE_OK, &told));
    STEP(mdb_pool_return(&slot, AT(100), 3, MDB_USE_OK, &told));
    due(100, 195);
    STEP(mdb_pool_tick(&slot, AT(195), &told)); // one is closed, and another takes its place
    events(2, MDB_CONNECTION_CLOSED, MDB_CONNECTION_CREATED);
    has(1, 0, 1, 0);
    due(195, 200);
    STEP(mdb_pool_clear(&slot, AT(196), MDB_CAUSE_OTHER, NO_SERVICE, &told));
    due(1, 1); // a stale one may go at any moment
    STEP(mdb_pool_tick(&slot, AT(1), &told));
    replies(MDB_REFUSED, 0, MDB_WHY_TIME_BACK);
    CHECK(told.count == 0 && told.reply.number == 196);
    STEP(mdb_pool_tick(&slot, AT(196), &told));
    events(1, MDB_CONNECTION_CLOSED);
    CHECK(fact_of(MDB_FACT_POOL, MDB_CONNECTION_CLOSED).why == MDB_CLOSED_STALE);
    due(196, 0);
    no_tick(1000);
    mdb_pool_free(&slot);
}

// A close (CMAP, "Closing a Connection Pool"): what waits and what is pending ends, and PoolClosed comes last. What is in use is closed as it comes back.
static void closes(void) {
    STEP(mdb_pool_established(&slot, AT(251), 5, NO_SERVICE, &told));
    STEP(mdb_pool_close(&slot, AT(252), &told));
    events(3, MDB_CONNECTION_CLOSED, MDB_CHECKOUT_FAILED, MDB_POOL_CLOSED);
    CHECK(state().state == MDB_POOL_IS_CLOSED && fact_of(MDB_FACT_POOL, MDB_CONNECTION_CLOSED).why == MDB_CLOSED_POOL_CLOSED);
    STEP(mdb_pool_return(&slot, AT(253), 10, MDB_USE_OK, &told));
    events(1, MDB_CONNECTION_CLOSED);
    STEP(mdb_pool_close(&slot, AT(254), &told));
    STEP(mdb_pool_ready(&slot, AT(254), &told));
    events(0);
    CHECK(state().state == MDB_POOL_IS_CLOSED);
    STEP(mdb_pool_request(&slot, AT(255), 20, &told));
    replies(MDB_REFUSED, 0, MDB_WHY_UNKNOWN_SERVER);
    STEP(mdb_pool_maintain(&slot, AT(255), &told));
    replies(MDB_REFUSED, 0, MDB_WHY_UNKNOWN_SERVER);
}

// A pool that keeps five connections at least, more than a reply has room for at once.
static void filled(void) {
    mdb_pool_options options = MDB_POOL_OPTIONS_INIT;
    options.number = 7;
    options.min_size = options.max_size = options.max_connecting = 9;
    open_pool(&options);
    STEP(mdb_pool_ready(&slot, AT(1), &told));
    STEP(mdb_pool_maintain(&slot, AT(1), &told));
    CHECK(told.count == 9);
    events(9, MDB_CONNECTION_CREATED, MDB_CONNECTION_CREATED, MDB_CONNECTION_CREATED, MDB_CONNECTION_CREATED, MDB_CONNECTION_CREATED, MDB_CONNECTION_CREATED, MDB_CONNECTION_CREATED, MDB_CONNECTION_CREATED, MDB_CONNECTION_CREATED);
    CHECK(memcmp(told.facts, kept.facts, sizeof told.facts) == 0);
    STEP(mdb_pool_warm(&slot, AT(2), 1, &told)); // enough live
    replies(MDB_ENDED, 0, MDB_END_WARMED);
    mdb_pool_free(&slot);
}

// Behind a load balancer a pool is ready from the first, and a service is cleared by itself.
static void load_balanced(void) {
    mdb_pool_options options = MDB_POOL_OPTIONS_INIT;
    options.number = 7;
    options.load_balanced = 1;
    open_pool(&options);
    CHECK(state().state == MDB_POOL_IS_READY);
    STEP(mdb_pool_request(&slot, AT(1), 1, &told));
    STEP(mdb_pool_established(&slot, AT(2), 1, NO_SERVICE, &told));
    replies(MDB_REFUSED, 0, MDB_WHY_WRONG_MODE);
    STEP(mdb_pool_established(&slot, AT(2), 1, SERVICE, &told));
    events(2, MDB_CONNECTION_READY, MDB_CHECKED_OUT);
    STEP(mdb_pool_return(&slot, AT(3), 1, MDB_USE_OK, &told));
    STEP(mdb_pool_clear(&slot, AT(4), MDB_CAUSE_NETWORK, NO_SERVICE, &told));
    replies(MDB_REFUSED, 0, MDB_WHY_WRONG_MODE);
    STEP(mdb_pool_clear(&slot, AT(4), MDB_CAUSE_NETWORK, SERVICE, &told));
    events(1, MDB_POOL_CLEARED);
    mdb_fact cleared = fact_of(MDB_FACT_POOL, MDB_POOL_CLEARED);
    CHECK(cleared.has_service == 1 && memcmp(cleared.service, "\1\2\3\4\5\6\7\10\11\12\13\14", 12) == 0);
    uint64_t generation;
    CHECK(state().state == MDB_POOL_IS_READY && state().generation == 0);
    CHECK(mdb_pool_generation(&slot, SERVICE, &generation) == MDB_OK && generation == 1);
    STEP(mdb_pool_request(&slot, AT(5), 2, &told));
    events(3, MDB_CHECKOUT_STARTED, MDB_CONNECTION_CLOSED, MDB_CONNECTION_CREATED);
    CHECK(fact_of(MDB_FACT_POOL, MDB_CONNECTION_CLOSED).why == MDB_CLOSED_STALE && fact_of(MDB_FACT_POOL, MDB_CONNECTION_CLOSED).has_service == 1);
    STEP(mdb_pool_failed(&slot, AT(6), 2, SERVICE, &told));
    events(2, MDB_CONNECTION_CLOSED, MDB_CHECKOUT_FAILED);
    mdb_pool_free(&slot);
}

static void run(void) {
    mdb_pool_options options = MDB_POOL_OPTIONS_INIT;
    options.number = 7;
    options.max_size = 2;
    options.max_idle = 100;
    options.max_wait = 50;
    closed_slot();
    bad_options();
    open_pool(&options);
    CHECK(mdb_pool_open(&slot, &options) == MDB_OPENED);
    CHECK(state().state == MDB_POOL_IS_NEW && state().generation == 0 && state().available == 0);
    events(0);
    check_outs();
    connections();
    pins();
    clears();
    timers();
    closes();
    mdb_pool_free(&slot);
    mdb_pool_free(&slot);
    closed_slot();
    ticks();
    filled();
    load_balanced();
    CHECK(live == 0);
}

int main(int argc, char **argv) {
    long most = argc > 1 ? atol(argv[1]) : 1000000;
    run();
    long calls = asked, n = 0;
    for (; n < calls && n < most; n++) {
        left = n;
        run();
    }
    printf("%ld of %ld allocations refused\n", n, calls);
    return 0;
}
