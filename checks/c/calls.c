// Drives a driver by calls, and a second one by the lines of the same steps: after each step the two have the same reply and the same entry text, and
// the facts by index are those of the text. Ends with status 1 and the line of the check that fails, or with 0.
#include "mdb.h"
#include <inttypes.h>
#include <stdio.h>
#include <stdlib.h>
#include <string.h>

_Static_assert(sizeof(mdb_slot) == 16, "a slot has 16 bytes");
_Static_assert(sizeof(mdb_reply) == 24, "a reply has 24 bytes");
_Static_assert(sizeof(mdb_at) == 16, "a moment and a seat have 16 bytes");
_Static_assert(sizeof(mdb_connection) == 8, "a connection has 8 bytes");
_Static_assert(sizeof(mdb_established_as) == 24, "what was established has 24 bytes");
_Static_assert(sizeof(mdb_fact) == 56, "a fact has 56 bytes");
_Static_assert(sizeof(mdb_told) == 480, "a reply with its facts has 480 bytes");
_Static_assert(sizeof(mdb_types) == 8, "two types have 8 bytes");
_Static_assert(sizeof(mdb_topology) == 56, "a topology has 56 bytes");
_Static_assert(sizeof(mdb_check) == 56, "a check has 56 bytes");
_Static_assert(sizeof(mdb_server) == 48, "a server has 48 bytes");

#define CHECK(what) do { if (!(what)) { fprintf(stderr, "line %d: %s\n", __LINE__, #what); exit(1); } } while (0)
#define ADDRESS (const uint8_t *)"a:27017", 7
#define TEXT(text) (const uint8_t *)text, sizeof text - 1
#define NO_TEXT (const uint8_t *)"", 0

static mdb_slot calls = MDB_SLOT_INIT, lines = MDB_SLOT_INIT;
static mdb_reply reply;

static size_t text_of(mdb_slot *slot, char *out) {
    size_t needed = 0;
    CHECK(mdb_entry_text(slot, (uint8_t *)out, 8191, &needed) == MDB_OK && needed < 8192);
    out[needed] = 0;
    return needed;
}

// The two facts are the same, member by member.
static int same_fact(const mdb_fact *a, const mdb_fact *b) {
    return a->kind == b->kind && a->event == b->event && a->pool == b->pool && a->id == b->id && a->party == b->party && a->why == b->why && a->number == b->number
        && memcmp(a->service, b->service, sizeof a->service) == 0 && a->has_service == b->has_service && a->has_pool == b->has_pool;
}

// All facts at once are those by index. A room that is too small is told how much is needed, and stays as it is.
static void all_facts_agree(size_t count) {
    static mdb_fact all[2048];
    size_t found = 99;
    mdb_fact one, kept = {.kind = 77};
    CHECK(count <= 2048 && mdb_facts(&calls, all, count, &found) == MDB_OK && found == count);
    for (size_t i = 0; i < count; i++) CHECK(mdb_fact_at(&calls, i, &one) == MDB_OK && same_fact(&one, &all[i]));
    for (size_t i = 0; i < count; i++) all[i] = kept;
    if (count) CHECK(mdb_facts(&calls, all, count - 1, &found) == MDB_NO_ROOM && found == count);
    for (size_t i = 0; i < count; i++) CHECK(all[i].kind == 77);
    CHECK(mdb_facts(&calls, &kept, 0, &found) == (count ? MDB_NO_ROOM : MDB_OK) && found == count && kept.kind == 77);
}

// What was told with the reply is what mdb_facts tells; facts that do not fit are not written.
static mdb_told told;
static mdb_status told_with(mdb_status status) {
    mdb_fact all[256];
    size_t count;
    CHECK(status == MDB_OK && mdb_facts(&calls, all, 256, &count) == MDB_OK && told.count == count);
    for (size_t i = 0; i < count && count <= MDB_TOLD_FACTS; i++) CHECK(same_fact(&told.facts[i], &all[i]));
    for (size_t i = count <= MDB_TOLD_FACTS ? count : 0; i < MDB_TOLD_FACTS; i++) CHECK(told.facts[i].kind == 77);
    reply = told.reply;
    return status;
}

static mdb_told *room(void) {
    memset(&told, 77, sizeof told);
    for (int i = 0; i < MDB_TOLD_FACTS; i++) told.facts[i].kind = 77;
    return &told;
}

// The texts of the facts that the call layer tells, behind bars, are those of the entry.
static void facts_agree(const char *entry) {
    size_t count = 99, needed = 99;
    CHECK(mdb_fact_count(&calls, &count) == MDB_OK);
    all_facts_agree(count);
    const char *at = strstr(entry, " | ");
    CHECK(at);
    at = strstr(at + 3, " | ");
    for (size_t i = 0; i < count; i++) {
        char text[4096];
        mdb_fact fact;
        CHECK(at);
        CHECK(mdb_fact_at(&calls, i, &fact) == MDB_OK && fact.kind >= MDB_FACT_OPENED && fact.kind <= MDB_FACT_CANCEL);
        CHECK(mdb_fact_text(&calls, i, (uint8_t *)text, sizeof text - 1, &needed) == MDB_OK);
        text[needed] = 0;
        CHECK(strncmp(at + 3, text, needed) == 0);
        CHECK((fact.kind == MDB_FACT_POOL) == (strncmp(text, "Pool ", 5) == 0));
        CHECK((fact.kind == MDB_FACT_SDAM) == (strncmp(text, "Sdam ", 5) == 0));
        char named[512];
        mdb_status has_address = mdb_fact_address(&calls, i, (uint8_t *)named, sizeof named - 1, &needed);
        int on_topology = fact.kind == MDB_FACT_SDAM && fact.event >= MDB_SDAM_TOPOLOGY_CHANGED && fact.event <= MDB_SDAM_TOPOLOGY_CLOSED;
        CHECK((has_address == MDB_NO_ENTRY) == (fact.kind == MDB_FACT_GRANTED || fact.kind == MDB_FACT_ENDED || fact.kind == MDB_FACT_RAISED || on_topology));
        named[needed] = 0;
        CHECK(has_address == MDB_OK ? needed > 0 && strstr(text, named) != 0 : has_address == MDB_NO_ENTRY && needed == 0);
        uint32_t number = 77;
        if (has_address == MDB_OK) CHECK(mdb_server_number(&calls, (const uint8_t *)named, needed, &number) == MDB_OK && fact.has_pool == 1 && fact.pool == number);
        CHECK(fact.has_pool == (fact.kind != MDB_FACT_ENDED && !on_topology) && (fact.has_pool || fact.pool == 0));
        CHECK(fact.has_service == (strstr(text, "service=") != 0 && strstr(text, "service=-") == 0) || fact.kind == MDB_FACT_RAISED);
        mdb_types types = {77, 77};
        mdb_status has_types = mdb_fact_types(&calls, i, &types);
        CHECK(has_types == (fact.kind == MDB_FACT_SDAM && (fact.event == MDB_SDAM_SERVER_CHANGED || fact.event == MDB_SDAM_TOPOLOGY_CHANGED) ? MDB_OK : MDB_NO_ENTRY));
        CHECK(has_types == MDB_OK ? types.before >= 1 && types.after >= 1 : types.before == 77 && types.after == 77);
        if (has_types == MDB_OK && fact.event == MDB_SDAM_SERVER_CHANGED) CHECK((types.after == MDB_SERVER_UNKNOWN) == (strcmp(text + strlen(text) - 8, " Unknown") == 0));
        needed = strlen(text);
        if (fact.kind == MDB_FACT_GRANTED) {
            char granted[64];
            snprintf(granted, sizeof granted, "Granted %" PRIu32 " %" PRIu32 ".%" PRIu32, fact.party, fact.pool, fact.id);
            CHECK(strcmp(granted, text) == 0);
        }
        if (fact.kind == MDB_FACT_POOL && fact.event == MDB_CONNECTION_CLOSED) CHECK(strstr(text, "ConnectionClosed") && fact.id > 0 && fact.why >= MDB_CLOSED_STALE);
        if (fact.kind == MDB_FACT_POOL && fact.event == MDB_CHECKED_OUT) CHECK(strstr(text, "ConnectionCheckedOut"));
        if (fact.kind == MDB_FACT_POOL && fact.event == MDB_CHECKED_IN) CHECK(strstr(text, "ConnectionCheckedIn"));
        at = strstr(at + 3 + needed, " | ");
    }
    CHECK(!at);
    mdb_types types = {77, 77};
    CHECK(mdb_fact_types(&calls, count, &types) == MDB_NO_ENTRY && types.before == 77);
    CHECK(mdb_fact_address(&calls, count, (uint8_t *)"", 0, &needed) == MDB_NO_ENTRY && needed == 0);
    mdb_fact fact = {.kind = 77};
    CHECK(mdb_fact_at(&calls, count, &fact) == MDB_NO_ENTRY && fact.kind == 77);
    CHECK(mdb_fact_text(&calls, count, (uint8_t *)"", 0, &needed) == MDB_NO_ENTRY && needed == 0);
    if (count) CHECK(mdb_fact_text(&calls, 0, (uint8_t *)"", 0, &needed) == MDB_NO_ROOM && needed > 0);
}

// The step was done by a call: now the line of it, and the comparison.
static void agrees(mdb_status status, const char *line) {
    static char one[8192], other[8192];
    mdb_reply told;
    CHECK(status == MDB_OK);
    CHECK(mdb_line(&lines, 7, (const uint8_t *)line, strlen(line), &told) == MDB_OK);
    CHECK(memcmp(&told, &reply, sizeof told) == 0);
    text_of(&calls, one);
    text_of(&lines, other);
    if (strcmp(one, other) != 0) {
        fprintf(stderr, "%s\n%s%s", line, one, other);
        exit(1);
    }
    facts_agree(one);
}

static const char *spelled(const char *form, ...) __attribute__((format(printf, 1, 2)));
#include <stdarg.h>
static const char *spelled(const char *form, ...) {
    static char line[256];
    va_list words;
    va_start(words, form);
    vsnprintf(line, sizeof line, form, words);
    va_end(words);
    return line;
}

// The same line to both.
static void both(const char *line) { agrees(told_with(mdb_line_told(&calls, 7, (const uint8_t *)line, strlen(line), room())), line); }

static void open_both(const char *line) {
    CHECK(mdb_open_line(&calls, 7, (const uint8_t *)line, strlen(line)) == MDB_OK);
    CHECK(mdb_open_line(&lines, 7, (const uint8_t *)line, strlen(line)) == MDB_OK);
}

static void closed_slots(void) {
    mdb_slot none = MDB_SLOT_INIT;
    mdb_at at = {1, 0};
    mdb_connection connection = {0, 1};
    mdb_established_as made = {0, 1, 21, -1};
    mdb_reply kept = {77, 77, 77, 77, 77}, before = kept;
    size_t count = 77, needed = 77;
    uint64_t wide = 77;
    uint32_t narrow = 77;
    mdb_fact fact;
    mdb_types types = {77, 77};
    mdb_topology topology = {.kind = 77};
    mdb_server server = {.kind = 77};
    mdb_check check = {.action = 77};
    uint8_t out[4];
    for (int again = 0; again < 2; again++) {
        CHECK(mdb_request(&none, &at, 1, ADDRESS, &kept) == MDB_CLOSED && mdb_warm(&none, &at, 1, ADDRESS, &kept) == MDB_CLOSED);
        CHECK(mdb_collect(&none, &at, 1, &kept) == MDB_CLOSED && mdb_give_up(&none, &at, 1, &kept) == MDB_CLOSED);
        CHECK(mdb_return(&none, &at, 1, 0, &kept) == MDB_CLOSED && mdb_claim(&none, &at, &kept) == MDB_CLOSED);
        CHECK(mdb_established(&none, &at, &made, NO_TEXT, &kept) == MDB_CLOSED && mdb_pin(&none, &at, 1, &kept) == MDB_CLOSED);
        CHECK(mdb_replicate(&none, &at, &connection, &kept) == MDB_CLOSED && mdb_take(&none, &at, 1, &connection, &kept) == MDB_CLOSED);
        CHECK(mdb_unpin(&none, &at, &connection, &kept) == MDB_CLOSED && mdb_maintain(&none, &at, ADDRESS, &kept) == MDB_CLOSED);
        CHECK(mdb_expire(&none, &at, ADDRESS, &kept) == MDB_CLOSED && mdb_beat(&none, &at, ADDRESS, 0, &kept) == MDB_CLOSED);
        CHECK(mdb_want(&none, &at, 1, &kept) == MDB_CLOSED && mdb_unwant(&none, &at, 1, &kept) == MDB_CLOSED && mdb_stop(&none, &at, &kept) == MDB_CLOSED);
        CHECK(mdb_error(&none, &at, 1, TEXT("network msg=x"), &kept) == MDB_CLOSED && mdb_failed(&none, &at, &connection, TEXT("pre network msg=x"), &kept) == MDB_CLOSED);
        CHECK(mdb_hello(&none, &at, TEXT("a:1 0"), TEXT("ok rtt=5"), &kept) == MDB_CLOSED && mdb_beaten(&none, &at, TEXT("a:1 0"), TEXT("7 ok"), &kept) == MDB_CLOSED);
        mdb_told kept_told = {.count = 77};
        CHECK(mdb_request_told(&none, &at, 1, ADDRESS, &kept_told) == MDB_CLOSED && mdb_collect_told(&none, &at, 1, &kept_told) == MDB_CLOSED);
        CHECK(mdb_return_told(&none, &at, 1, 0, &kept_told) == MDB_CLOSED && mdb_established_told(&none, &at, &made, NO_TEXT, &kept_told) == MDB_CLOSED);
        CHECK(mdb_line_told(&none, 0, TEXT("claim 1"), &kept_told) == MDB_CLOSED && kept_told.count == 77 && kept_told.reply.kind == 0);
        CHECK(mdb_facts(&none, &fact, 1, &needed) == MDB_CLOSED && needed == 0 && mdb_server_number(&none, ADDRESS, &narrow) == MDB_CLOSED && narrow == 77);
        needed = 77;
        CHECK(mdb_fact_count(&none, &count) == MDB_CLOSED && count == 77 && mdb_fact_at(&none, 0, &fact) == MDB_CLOSED);
        CHECK(mdb_fact_text(&none, 0, out, sizeof out, &needed) == MDB_CLOSED && needed == 0);
        CHECK(mdb_rtt(&none, &at, TEXT("a:1 0"), 5, &kept) == MDB_CLOSED && mdb_hosts(&none, &at, TEXT("a:1"), &kept) == MDB_CLOSED);
        CHECK(mdb_cluster_time(&none, &at, 5, &kept) == MDB_CLOSED);
        needed = 77;
        CHECK(mdb_fact_address(&none, 0, out, sizeof out, &needed) == MDB_CLOSED && needed == 0 && mdb_fact_types(&none, 0, &types) == MDB_CLOSED);
        CHECK(mdb_topology_get(&none, &topology) == MDB_CLOSED && mdb_server_get(&none, 0, &server) == MDB_CLOSED && types.after == 77);
        CHECK(topology.kind == 77 && server.kind == 77 && mdb_server_at(&none, ADDRESS, &count) == MDB_CLOSED && count == 77);
        needed = 77;
        CHECK(mdb_job_address(&none, 0, 1, out, sizeof out, &needed) == MDB_CLOSED && needed == 0);
        needed = 77;
        CHECK(mdb_topology_text(&none, MDB_TEXT_ERROR, out, sizeof out, &needed) == MDB_CLOSED && needed == 0);
        needed = 77;
        CHECK(mdb_server_text(&none, 0, MDB_TEXT_ADDRESS, out, sizeof out, &needed) == MDB_CLOSED && needed == 0);
        CHECK(mdb_check_get(&none, ADDRESS, &check) == MDB_CLOSED && check.action == 77);
        CHECK(mdb_check_next(&none, TEXT("a:1 0"), TEXT("7 ok"), &narrow) == MDB_CLOSED && narrow == 77);
        CHECK(mdb_last_moment(&none, &wide) == MDB_CLOSED && mdb_published(&none, &wide) == MDB_CLOSED && wide == 77);
        CHECK(mdb_open_pool(&none, ADDRESS, &narrow) == MDB_CLOSED && narrow == 77);
        CHECK(memcmp(&kept, &before, sizeof kept) == 0);
        mdb_close(&none);
        mdb_close(&none);
        none.state = again ? 0 : 0x1234567890abcdef; // another word than that of an open slot is a closed one
    }
}

static void malformed(void) {
    mdb_at at = {50, 0};
    mdb_established_as made = {0, 1, -1, -1};
    mdb_reply kept = {77, 77, 77, 77, 77}, before = kept;
    mdb_check check = {.action = 77};
    uint32_t narrow = 77;
    size_t place = 77;
    const char *bad[] = {"", "a:0", "a:65536", "a:", ":1", "a b:1", "a:1 ", "\xff:1", "[::1", "a\n:1"};
    for (size_t i = 0; i < sizeof bad / sizeof *bad; i++) {
        const uint8_t *text = (const uint8_t *)bad[i];
        size_t len = strlen(bad[i]);
        CHECK(mdb_request(&calls, &at, 999, text, len, &kept) == MDB_MALFORMED && mdb_warm(&calls, &at, 999, text, len, &kept) == MDB_MALFORMED);
        CHECK(mdb_maintain(&calls, &at, text, len, &kept) == MDB_MALFORMED && mdb_expire(&calls, &at, text, len, &kept) == MDB_MALFORMED);
        CHECK(mdb_request_told(&calls, &at, 999, text, len, room()) == MDB_MALFORMED && told.facts[0].kind == 77 && mdb_server_number(&calls, text, len, &narrow) == MDB_MALFORMED);
        CHECK(mdb_beat(&calls, &at, text, len, 0, &kept) == MDB_MALFORMED && mdb_open_pool(&calls, text, len, &narrow) == MDB_MALFORMED);
        CHECK(mdb_server_at(&calls, text, len, &place) == MDB_MALFORMED && place == 77 && mdb_hosts(&calls, &at, text, len, &kept) == MDB_MALFORMED);
        CHECK(mdb_rtt(&calls, &at, text, len, 5, &kept) == MDB_MALFORMED && mdb_check_get(&calls, text, len, &check) == MDB_MALFORMED && check.action == 77);
        CHECK(mdb_check_next(&calls, text, len, TEXT("7 ok"), &narrow) == MDB_MALFORMED && narrow == 77);
    }
    CHECK(mdb_established(&calls, &at, &made, NO_TEXT, &kept) == MDB_MALFORMED);
    made.wire = 21;
    CHECK(mdb_established(&calls, &at, &made, (const uint8_t *)"0102", 4, &kept) == MDB_MALFORMED);
    CHECK(mdb_established(&calls, &at, &made, (const uint8_t *)"0102030405060708090a0b0g", 24, &kept) == MDB_MALFORMED);
    const char *outcomes[] = {"", "network", "network msg=a|b", "network msg=\n", "\xff", "ok rtt=01", "pre", "post sid=01 network msg=x", "err", "7"};
    for (size_t i = 0; i < sizeof outcomes / sizeof *outcomes; i++) {
        const uint8_t *text = (const uint8_t *)outcomes[i];
        mdb_connection connection = {0, 1};
        size_t len = strlen(outcomes[i]);
        CHECK(mdb_error(&calls, &at, 1, text, len, &kept) == MDB_MALFORMED && mdb_failed(&calls, &at, &connection, text, len, &kept) == MDB_MALFORMED);
        CHECK(mdb_hello(&calls, &at, TEXT("a:27017 0"), text, len, &kept) == MDB_MALFORMED && mdb_beaten(&calls, &at, TEXT("a:27017 0"), text, len, &kept) == MDB_MALFORMED);
        CHECK(mdb_check_next(&calls, TEXT("a:27017 0"), text, len, &narrow) == MDB_MALFORMED && mdb_check_next(&calls, text, len, TEXT("7 ok"), &narrow) == MDB_MALFORMED);
        CHECK(mdb_hello(&calls, &at, text, len, TEXT("ok rtt=5"), &kept) == MDB_MALFORMED && mdb_beaten(&calls, &at, text, len, TEXT("7 ok"), &kept) == MDB_MALFORMED);
    }
    CHECK(mdb_return_told(&calls, &at, 1, 4, room()) == MDB_MALFORMED && mdb_line_told(&calls, 0, TEXT("claim"), &told) == MDB_MALFORMED && told.facts[0].kind == 77);
    CHECK(mdb_return(&calls, &at, 1, 4, &kept) == MDB_MALFORMED && mdb_return(&calls, &at, 1, UINT32_MAX, &kept) == MDB_MALFORMED);
    CHECK(memcmp(&kept, &before, sizeof kept) == 0 && narrow == 77);
}

static void normal_pool(int rounds) {
    mdb_at at = {2, 7};
    uint64_t wide;
    uint32_t pool = 77;
    open_both("open seeds=a:27017 max=10 min=1 wait=5");
    static char opened[8192];
    text_of(&calls, opened);
    facts_agree(opened);
    both("hello 1 a:27017 0 ok rtt=1000000 isWritablePrimary=true maxWireVersion=21");
    CHECK(mdb_last_moment(&calls, &wide) == MDB_OK && wide == 1);
    CHECK(mdb_published(&calls, &wide) == MDB_OK && wide == 2);
    CHECK(mdb_open_pool(&calls, (const uint8_t *)"A", 1, &pool) == MDB_OK && pool == 0);
    CHECK(mdb_open_pool(&calls, (const uint8_t *)"b:1", 3, &pool) == MDB_NO_ENTRY && pool == 0);
    CHECK(mdb_server_number(&calls, (const uint8_t *)"b:1", 3, &pool) == MDB_NO_ENTRY && mdb_server_number(&calls, (const uint8_t *)"A", 1, &pool) == MDB_OK && pool == 0);
    malformed();
    agrees(mdb_warm(&calls, &at, 100, ADDRESS, &reply), "warm 2 100 a:27017");
    agrees(mdb_claim(&calls, &at, &reply), "claim 2");
    uint8_t to[8];
    size_t needed = 77;
    CHECK(mdb_job_address(&calls, reply.pool, reply.id, to, sizeof to, &needed) == MDB_OK && needed == 7 && memcmp(to, "a:27017", 7) == 0);
    CHECK(mdb_job_address(&calls, reply.pool, reply.id, to, 6, &needed) == MDB_NO_ROOM && needed == 7);
    CHECK(mdb_job_address(&calls, reply.pool, reply.id + 1, to, sizeof to, &needed) == MDB_NO_ENTRY && needed == 0);
    CHECK(mdb_job_address(&calls, 1, reply.id, to, sizeof to, &needed) == MDB_NO_ENTRY);
    mdb_established_as made = {reply.pool, reply.id, 21, 5};
    agrees(mdb_established(&calls, &at, &made, NO_TEXT, &reply), spelled("established 2 0 %u wire=21 server=5", made.id));
    agrees(mdb_collect(&calls, &at, 100, &reply), "collect 2 100");
    CHECK(reply.kind == MDB_ENDED && reply.why == MDB_END_FILLED);
    CHECK(mdb_job_address(&calls, made.pool, made.id, to, sizeof to, &needed) == MDB_NO_ENTRY); // it is no longer pending
    agrees(mdb_request(&calls, &at, 1, ADDRESS, &reply), "request 2 1 a:27017");
    agrees(mdb_request(&calls, &at, 1, ADDRESS, &reply), "request 2 1 a:27017");
    CHECK(reply.kind == MDB_REFUSED && reply.why == MDB_WHY_REQUEST_KNOWN);
    agrees(mdb_return(&calls, &at, 1, MDB_USE_OK, &reply), "return 2 1 ok");
    at.moment = 1;
    agrees(mdb_claim(&calls, &at, &reply), "claim 1");
    CHECK(reply.kind == MDB_REFUSED && reply.why == MDB_WHY_TIME_BACK && reply.number == 2);
    static const char *words[] = {"ok", "errored", "dropped", "streaming"};
    for (int i = 0; i < rounds; i++) {
        uint32_t party = 1000 + (uint32_t)i, used = (uint32_t)(i % 4);
        at.moment = 3 + (uint64_t)i;
        mdb_status asked = i % 2 ? told_with(mdb_request_told(&calls, &at, party, ADDRESS, room())) : mdb_request(&calls, &at, party, ADDRESS, &reply);
        agrees(asked, spelled("request %" PRIu64 " %u a:27017", at.moment, party));
        if (reply.kind == MDB_ESTABLISHING) {
            if (i % 7 == 3) {
                agrees(mdb_give_up(&calls, &at, party, &reply), spelled("giveup %" PRIu64 " %u", at.moment, party));
                at.moment++, i++;
                continue;
            }
            made.pool = reply.pool, made.id = reply.id, made.server_id = -1;
            agrees(mdb_claim(&calls, &at, &reply), spelled("claim %" PRIu64, at.moment));
            agrees(told_with(mdb_established_told(&calls, &at, &made, NO_TEXT, room())), spelled("established %" PRIu64 " 0 %u wire=21", at.moment, made.id));
            if (reply.kind != MDB_REFUSED) agrees(told_with(mdb_collect_told(&calls, &at, party, room())), spelled("collect %" PRIu64 " %u", at.moment, party));
        }
        mdb_status back = i % 2 ? told_with(mdb_return_told(&calls, &at, party, used, room())) : mdb_return(&calls, &at, party, used, &reply);
        agrees(back, spelled("return %" PRIu64 " %u %s", at.moment, party, words[used]));
        if (i % 5 == 0) agrees(mdb_maintain(&calls, &at, ADDRESS, &reply), spelled("maintain %" PRIu64 " a:27017", at.moment));
        if (i % 6 == 0) agrees(mdb_expire(&calls, &at, ADDRESS, &reply), spelled("expire %" PRIu64 " a:27017", at.moment));
        if (i % 9 == 0) agrees(mdb_want(&calls, &at, party, &reply), spelled("want %" PRIu64 " %u", at.moment, party));
        if (i % 9 == 1) agrees(mdb_unwant(&calls, &at, party - 1, &reply), spelled("unwant %" PRIu64 " %u", at.moment, party - 1));
        if (i % 13 == 0) agrees(mdb_rtt(&calls, &at, TEXT("a:27017 0"), 9 + at.moment, &reply), spelled("rtt %" PRIu64 " a:27017 0 %" PRIu64, at.moment, 9 + at.moment));
        if (i % 13 == 1) agrees(mdb_cluster_time(&calls, &at, at.moment, &reply), spelled("ctime %" PRIu64 " %" PRIu64, at.moment, at.moment));
        if (i % 11 == 0) {
            agrees(mdb_beat(&calls, &at, ADDRESS, 0, &reply), spelled("beat %" PRIu64 " a:27017 0", at.moment));
            both(spelled("beaten %" PRIu64 " a:27017 0 900000 ok isWritablePrimary=true maxWireVersion=21", at.moment));
        }
    }
    at.moment = 900000;
    agrees(mdb_request(&calls, &at, 900000, ADDRESS, &reply), "request 900000 900000 a:27017");
    agrees(mdb_error(&calls, &at, 900000, TEXT("command.91 labels=A,B msg=shutting down"), &reply), "error 900000 900000 command.91 labels=A,B msg=shutting down");
    agrees(mdb_error(&calls, &at, 900000, TEXT("network msg=late"), &reply), "error 900000 900000 network msg=late");
    agrees(mdb_hello(&calls, &at, TEXT("a:27017 0"), TEXT("ok rtt=7 isWritablePrimary=true maxWireVersion=21"), &reply), "hello 900000 a:27017 0 ok rtt=7 isWritablePrimary=true maxWireVersion=21");
    agrees(mdb_request(&calls, &at, 900001, ADDRESS, &reply), "request 900000 900001 a:27017");
    mdb_connection pending = {reply.pool, reply.id};
    agrees(mdb_failed(&calls, &at, &pending, TEXT("pre network msg=refused"), &reply), spelled("failed 900000 0 %u pre network msg=refused", pending.id));
    agrees(mdb_beat(&calls, &at, ADDRESS, 0, &reply), "beat 900000 a:27017 0");
    agrees(mdb_beaten(&calls, &at, TEXT("a:27017 0"), TEXT("7 err timeout msg=slow"), &reply), "beaten 900000 a:27017 0 7 err timeout msg=slow");
    at.moment = 1000000;
    agrees(mdb_stop(&calls, &at, &reply), "stop 1000000");
    mdb_close(&calls);
    mdb_close(&lines);
}

static void balanced_pool(void) {
    mdb_at at = {2, 7};
    const char *service = "0102030405060708090a0b0c";
    open_both("open seeds=a:27017 lb");
    agrees(mdb_request(&calls, &at, 1, ADDRESS, &reply), "request 2 1 a:27017");
    CHECK(reply.kind == MDB_ESTABLISHING);
    mdb_connection connection = {reply.pool, reply.id};
    mdb_established_as made = {reply.pool, reply.id, 21, -1};
    agrees(mdb_established(&calls, &at, &made, (const uint8_t *)service, 24, &reply), spelled("established 2 0 1 wire=21 sid=%s", service));
    agrees(mdb_collect(&calls, &at, 1, &reply), "collect 2 1");
    agrees(mdb_pin(&calls, &at, 1, &reply), "pin 2 1");
    agrees(mdb_replicate(&calls, &at, &connection, &reply), "replicate 2 0 1");
    agrees(mdb_return(&calls, &at, 1, MDB_USE_OK, &reply), "return 2 1 ok");
    agrees(mdb_take(&calls, &at, 2, &connection, &reply), "take 2 2 0 1");
    agrees(mdb_take(&calls, &at, 3, &connection, &reply), "take 2 3 0 1");
    agrees(mdb_unpin(&calls, &at, &connection, &reply), "unpin 2 0 1");
    agrees(mdb_unpin(&calls, &at, &connection, &reply), "unpin 2 0 1");
    agrees(mdb_unpin(&calls, &at, &connection, &reply), "unpin 2 0 1");
    agrees(mdb_return(&calls, &at, 2, MDB_USE_OK, &reply), "return 2 2 ok");
    mdb_close(&calls);
    mdb_close(&lines);
}

// A text of the topology (place -1) or of a server is this one, or there is none.
static void has_text(long place, uint32_t which, const char *wanted) {
    uint8_t out[1024];
    size_t needed = 77;
    mdb_status status = place < 0 ? mdb_topology_text(&calls, which, out, sizeof out, &needed) : mdb_server_text(&calls, (size_t)place, which, out, sizeof out, &needed);
    if (!wanted) {
        CHECK(status == MDB_NO_ENTRY && needed == 0);
        return;
    }
    CHECK(status == MDB_OK && needed == strlen(wanted) && memcmp(out, wanted, needed) == 0);
    memset(out, 77, sizeof out);
    status = place < 0 ? mdb_topology_text(&calls, which, out, needed - 1, &needed) : mdb_server_text(&calls, (size_t)place, which, out, needed - 1, &needed);
    CHECK(status == MDB_NO_ROOM && needed == strlen(wanted) && out[0] == 77);
}

static void known(void) {
    mdb_at at = {3, 7};
    mdb_topology topology;
    mdb_server server;
    size_t place = 77;
    open_both("open seeds=a:1,b:2 set=rs");
    CHECK(mdb_topology_get(&calls, &topology) == MDB_OK && topology.kind == MDB_TOPOLOGY_NO_PRIMARY && topology.servers == 2 && topology.compatible == 1);
    CHECK(!topology.has_max_set_version && !topology.has_cluster_time && !topology.has_session_minutes && !topology.max_set_version);
    CHECK(mdb_server_get(&calls, 0, &server) == MDB_OK && server.kind == MDB_SERVER_UNKNOWN && !server.has_round_trip && !server.has_updated && !server.has_error);
    has_text(-1, MDB_TEXT_SET_NAME, "rs"), has_text(-1, MDB_TEXT_ELECTION_ID, 0), has_text(-1, MDB_TEXT_ERROR, 0), has_text(-1, MDB_TEXT_ADDRESS, 0);
    has_text(0, MDB_TEXT_ADDRESS, "a:1"), has_text(1, MDB_TEXT_ADDRESS, "b:2"), has_text(2, MDB_TEXT_ADDRESS, 0), has_text(0, MDB_TEXT_REPLY, 0);
    agrees(mdb_hello(&calls, &at, TEXT("a:1 0"), TEXT("ok rtt=9 isWritablePrimary=true hosts=a:1,c:3 passives=d:4 me=a:1 setVersion=7 setName=rs logicalSessionTimeoutMinutes=30 minWireVersion=6 maxWireVersion=21 electionId=0102030405060708090a0b0c"), &reply),
        "hello 3 a:1 0 ok rtt=9 isWritablePrimary=true hosts=a:1,c:3 passives=d:4 me=a:1 setVersion=7 setName=rs logicalSessionTimeoutMinutes=30 minWireVersion=6 maxWireVersion=21 electionId=0102030405060708090a0b0c");
    CHECK(reply.kind == MDB_CHANGED && reply.number == 1);
    CHECK(mdb_topology_get(&calls, &topology) == MDB_OK && topology.kind == MDB_TOPOLOGY_WITH_PRIMARY && topology.servers == 3);
    CHECK(topology.has_max_set_version && topology.max_set_version == 7 && topology.has_session_minutes && topology.session_minutes == 30);
    has_text(-1, MDB_TEXT_ELECTION_ID, "0102030405060708090a0b0c");
    CHECK(mdb_server_at(&calls, (const uint8_t *)"A:1", 3, &place) == MDB_OK && place == 0);
    CHECK(mdb_server_at(&calls, (const uint8_t *)"b:2", 3, &place) == MDB_NO_ENTRY && place == 0);
    CHECK(mdb_server_get(&calls, 0, &server) == MDB_OK && server.kind == MDB_SERVER_RS_PRIMARY && server.has_round_trip && server.round_trip == 9);
    CHECK(server.has_updated && server.updated == 3 && server.min_wire == 6 && server.max_wire == 21 && server.has_set_version && server.set_version == 7);
    CHECK(mdb_server_get(&calls, 3, &server) == MDB_NO_ENTRY);
    has_text(0, MDB_TEXT_SET_NAME, "rs"), has_text(0, MDB_TEXT_ME, "a:1"), has_text(0, MDB_TEXT_PRIMARY, 0), has_text(0, MDB_TEXT_HOSTS, "a:1,c:3");
    has_text(0, MDB_TEXT_PASSIVES, "d:4"), has_text(0, MDB_TEXT_ARBITERS, 0), has_text(0, MDB_TEXT_ERROR, 0), has_text(0, 0, 0), has_text(0, 12, 0);
    has_text(0, MDB_TEXT_REPLY, " isWritablePrimary=true hosts=a:1,c:3 passives=d:4 me=a:1 setVersion=7 setName=rs logicalSessionTimeoutMinutes=30 minWireVersion=6 maxWireVersion=21 electionId=0102030405060708090a0b0c");
    has_text(0, MDB_TEXT_INFO, "{ Address: a:1, Type: RsPrimary, Average RTT: 9ns, Last Update Time: 3, Max Wire Version: 21, Min Wire Version: 6, Replica Set Name: rs, Replica Set Version: 7 }");
    has_text(1, MDB_TEXT_ADDRESS, "c:3"), has_text(2, MDB_TEXT_ADDRESS, "d:4");
    agrees(mdb_rtt(&calls, &at, TEXT("a:1 0"), 19, &reply), "rtt 3 a:1 0 19");
    agrees(mdb_cluster_time(&calls, &at, 5, &reply), "ctime 3 5");
    CHECK(mdb_topology_get(&calls, &topology) == MDB_OK && topology.has_cluster_time && topology.cluster_time == 5);
    agrees(mdb_hosts(&calls, &at, TEXT("e:5"), &reply), "hosts 3 e:5");
    agrees(mdb_hello(&calls, &at, TEXT("a:1 0"), TEXT("err network msg=reset"), &reply), "hello 3 a:1 0 err network msg=reset");
    CHECK(mdb_server_get(&calls, 0, &server) == MDB_OK && server.kind == MDB_SERVER_UNKNOWN && server.has_error == 1 && !server.has_round_trip);
    has_text(0, MDB_TEXT_ERROR, "network msg=reset"), has_text(0, MDB_TEXT_REPLY, 0), has_text(0, MDB_TEXT_SET_NAME, 0);
    mdb_close(&calls);
    mdb_close(&lines);
    open_both("open seeds=a:1");
    agrees(mdb_hello(&calls, &at, TEXT("a:1 0"), TEXT("ok rtt=1 isWritablePrimary=true maxWireVersion=5"), &reply), "hello 3 a:1 0 ok rtt=1 isWritablePrimary=true maxWireVersion=5");
    CHECK(mdb_topology_get(&calls, &topology) == MDB_OK && topology.compatible == 0);
    has_text(-1, MDB_TEXT_ERROR, "server a:1 reports wire version 5, this driver needs at least 8");
    mdb_close(&calls);
    mdb_close(&lines);
}

// The next check of a:1 does this; and then it begins, as was told.
static void begins(uint32_t action, uint64_t timeout, uint32_t awaits, uint32_t legacy, uint32_t asks) {
    mdb_at at = {3, 7};
    mdb_check check;
    mdb_fact fact;
    memset(&check, 77, sizeof check);
    CHECK(mdb_check_get(&calls, (const uint8_t *)"A:1", 3, &check) == MDB_OK);
    CHECK(check.action == action && check.timeout == timeout && check.awaits == awaits && check.legacy == legacy && check.asks == asks);
    CHECK(check.most == (awaits ? 10000 : 0) && check.counter == (awaits ? 7 : 0));
    CHECK(memcmp(check.process, awaits ? "\1\2\3\4\5\6\7\10\11\12\13\14" : "\0\0\0\0\0\0\0\0\0\0\0", 12) == 0);
    agrees(mdb_beat(&calls, &at, TEXT("a:1"), 0, &reply), "beat 3 a:1 0");
    CHECK(reply.kind == MDB_DONE && mdb_fact_at(&calls, 0, &fact) == MDB_OK && fact.event == MDB_SDAM_HEARTBEAT_STARTED && fact.id == check.connection);
    // that the server is to answer when something changes holds of replies that are read, too
    CHECK(action == MDB_CHECK_READ ? fact.why == 1 : fact.why == check.awaits);
}

// The check of a:1 ends so, and this follows.
static void ends(const char *outcome, uint32_t wanted) {
    mdb_at at = {3, 7};
    uint32_t next = 77;
    CHECK(mdb_check_next(&calls, TEXT("a:1 0"), (const uint8_t *)outcome, strlen(outcome), &next) == MDB_OK && next == wanted);
    agrees(mdb_beaten(&calls, &at, TEXT("a:1 0"), (const uint8_t *)outcome, strlen(outcome), &reply), spelled("beaten 3 a:1 0 %s", outcome));
    CHECK(reply.kind == MDB_CHANGED);
}

static void checks(void) {
    const char *streams = "9 ok isWritablePrimary=true helloOk=true maxWireVersion=21 topologyVersion=0102030405060708090a0b0c.7";
    const char *more = "9 ok isWritablePrimary=true helloOk=true maxWireVersion=21 topologyVersion=0102030405060708090a0b0c.7 more";
    mdb_check check = {.action = 77};
    uint32_t next = 77;
    open_both("open seeds=a:1 heartbeat=10000 connect=5000");
    begins(MDB_CHECK_CONNECT, 5000, 0, 1, 1);
    ends(streams, MDB_NEXT_CONTINUE);
    begins(MDB_CHECK_HELLO, 15000, 1, 0, 0);
    ends(more, MDB_NEXT_CONTINUE);
    begins(MDB_CHECK_READ, 15000, 0, 0, 0);
    ends("9 err network msg=reset", MDB_NEXT_RETRY);
    begins(MDB_CHECK_CONNECT, 5000, 0, 1, 1);
    ends("9 err network msg=reset", MDB_NEXT_SLEEP); // its type is not known any more
    begins(MDB_CHECK_CONNECT, 5000, 0, 1, 1);
    ends("9 ok isWritablePrimary=true maxWireVersion=21", MDB_NEXT_SLEEP);
    begins(MDB_CHECK_HELLO, 5000, 0, 1, 1);
    ends("9 err command.11600 msg=stops", MDB_NEXT_SLEEP); // no error of the network
    begins(MDB_CHECK_CONNECT, 5000, 0, 1, 1);
    ends("9 ok isWritablePrimary=true helloOk=false maxWireVersion=21", MDB_NEXT_SLEEP);
    begins(MDB_CHECK_HELLO, 5000, 0, 1, 0);
    ends("9 cancelled network msg=x", MDB_NEXT_SLEEP);
    begins(MDB_CHECK_CONNECT, 5000, 0, 1, 1);
    CHECK(mdb_check_get(&calls, TEXT("z:9"), &check) == MDB_NO_ENTRY && check.action == 77);
    CHECK(mdb_check_next(&calls, TEXT("z:9 0"), TEXT("9 ok"), &next) == MDB_NO_ENTRY && next == 77);
    mdb_close(&calls);
    mdb_close(&lines);
    open_both("open seeds=a:1 mode=poll");
    begins(MDB_CHECK_CONNECT, 10000, 0, 1, 1);
    ends(streams, MDB_NEXT_SLEEP);
    CHECK(mdb_check_get(&calls, TEXT("a:1"), &check) == MDB_OK && check.action == MDB_CHECK_HELLO && check.awaits == 0 && check.timeout == 20000);
    mdb_close(&calls);
    mdb_close(&lines);
}

// The hosts that are accepted for a name, or why not.
static void accepts(const char *name, const char *found, uint32_t strangers, mdb_status wanted, const char *said) {
    uint8_t out[256];
    size_t needed = 77, length = strlen(said);
    memset(out, 77, sizeof out);
    CHECK(mdb_srv_hosts((const uint8_t *)name, strlen(name), (const uint8_t *)found, strlen(found), strangers, out, sizeof out, &needed) == wanted);
    CHECK(needed == length && memcmp(out, said, length) == 0 && out[length] == 77);
    if (length == 0) return;
    memset(out, 77, sizeof out);
    CHECK(mdb_srv_hosts((const uint8_t *)name, strlen(name), (const uint8_t *)found, strlen(found), strangers, out, length - 1, &needed) == MDB_NO_ROOM);
    CHECK(needed == length && out[0] == 77);
    CHECK(mdb_srv_hosts((const uint8_t *)name, strlen(name), (const uint8_t *)found, strlen(found), strangers, out, length, &needed) == wanted && out[0] == said[0]);
}

// What so many TXT records set, or why not.
static void sets(uint32_t count, const char *text, mdb_status wanted, const char *said) {
    uint8_t out[256];
    size_t needed = 77, length = strlen(said);
    memset(out, 77, sizeof out);
    CHECK(mdb_srv_txt(TEXT("c.example.com"), count, (const uint8_t *)text, strlen(text), out, sizeof out, &needed) == wanted);
    CHECK(needed == length && memcmp(out, said, length) == 0 && out[length] == 77);
    if (length == 0) return;
    CHECK(mdb_srv_txt(TEXT("c.example.com"), count, (const uint8_t *)text, strlen(text), out, length - 1, &needed) == MDB_NO_ROOM && needed == length);
}

static void seed_lists(void) {
    const char *name = "cluster.example.com";
    accepts(name, "b.example.com:1,a.b.example.com:2", MDB_STRANGERS_REFUSE, MDB_OK, "b.example.com:1,a.b.example.com:2");
    accepts(name, "b.example.com:1,a.evil.com:1,B.Example.COM", MDB_STRANGERS_LEFT_OUT, MDB_OK, "b.example.com:1,b.example.com:27017");
    accepts(name, "a.evil.com:1", MDB_STRANGERS_REFUSE, MDB_BAD_RECORDS, "SRV lookup for cluster.example.com returned result a.evil.com, which does not match domain name example.com");
    accepts(name, "b.example.com:1,example.com:1", MDB_STRANGERS_REFUSE, MDB_BAD_RECORDS, "SRV lookup for cluster.example.com returned result example.com, which does not match domain name example.com");
    accepts(name, "a.evil.com:1", MDB_STRANGERS_LEFT_OUT, MDB_BAD_RECORDS, "SRV lookup for cluster.example.com returned no records");
    accepts(name, "", MDB_STRANGERS_REFUSE, MDB_BAD_RECORDS, "SRV lookup for cluster.example.com returned no records");
    accepts("localhost", "a.localhost:1", MDB_STRANGERS_REFUSE, MDB_OK, "a.localhost:1");
    static const char *bad[] = {",", "a.example.com,", ",a.example.com", "a.example.com:0", "a.example.com:1 ", "a.example.com:1,,b.example.com:1", "\xff"};
    for (size_t i = 0; i < sizeof bad / sizeof *bad; i++) accepts(name, bad[i], MDB_STRANGERS_LEFT_OUT, MDB_MALFORMED, "");
    accepts(name, "b.example.com:1", 2, MDB_MALFORMED, "");
    accepts("\xff", "b.example.com:1", MDB_STRANGERS_REFUSE, MDB_MALFORMED, "");
    sets(0, "nonsense", MDB_OK, "");
    sets(1, "replicaSet=rs&authSource=admin", MDB_OK, "&authSource=admin&replicaSet=rs");
    sets(1, "LOADBALANCED=true", MDB_OK, "&loadBalanced=true");
    sets(1, "loadBalanced=true&loadBalanced=false", MDB_OK, "&loadBalanced=false");
    sets(1, "replicaSet=", MDB_OK, "&replicaSet=");
    sets(1, "", MDB_BAD_RECORDS, "TXT record string '' is not a value `key=value` option pair");
    sets(1, "replicaSet=a=b", MDB_BAD_RECORDS, "TXT record string 'replicaSet=a=b' is not a value `key=value` option pair");
    sets(1, "ssl=false", MDB_BAD_RECORDS, "TXT record option 'ssl' was returned, but only 'authSource', 'replicaSet', and 'loadBalanced' are allowed");
    sets(1, "loadBalanced=yes", MDB_BAD_RECORDS, "TXT record option 'loadbalanced=yes' was returned, only 'true' and 'false' are allowed values.");
    sets(2, "replicaSet=rs", MDB_BAD_RECORDS, "TXT lookup for c.example.com returned more than one record, but more than one are not allowed with 'mongodb+srv'");
    sets(UINT32_MAX, "replicaSet=rs", MDB_BAD_RECORDS, "TXT lookup for c.example.com returned more than one record, but more than one are not allowed with 'mongodb+srv'");
    CHECK(mdb_srv_rescan(1, 5, 10) == 60 && mdb_srv_rescan(2, 61, 10) == 61 && mdb_srv_rescan(0, 300, 10) == 60 && mdb_srv_rescan(0, 300, 90) == 90);
    CHECK(mdb_srv_rescan(1, UINT32_MAX, 0) == UINT32_MAX && mdb_srv_rescan(0, 0, UINT64_MAX) == UINT64_MAX);
    mdb_topology topology;
    static const struct { const char *line; uint32_t polled; } kinds[] = {{"open seeds=a:1", 1}, {"open seeds=a:1 direct", 0}, {"open seeds=a:1 set=rs", 0}, {"open seeds=a:1 lb", 0}};
    for (size_t i = 0; i < 4; i++) {
        open_both(kinds[i].line);
        CHECK(mdb_topology_get(&calls, &topology) == MDB_OK && topology.polled == kinds[i].polled);
        if (i == 0) {
            both("hello 1 a:1 0 ok rtt=5 msg=isdbgrid maxWireVersion=21");
            CHECK(mdb_topology_get(&calls, &topology) == MDB_OK && topology.kind == MDB_TOPOLOGY_SHARDED && topology.polled == 1);
        }
        mdb_close(&calls);
        mdb_close(&lines);
    }
}

int main(int argc, char **argv) {
    CHECK(mdb_abi() == MDB_ABI);
    closed_slots();
    normal_pool(argc > 1 ? atoi(argv[1]) : 5000);
    balanced_pool();
    known();
    checks();
    seed_lists();
    return 0;
}
