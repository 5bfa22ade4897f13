// A target for AFL++, and for files of its own: an input is lines, and a line that begins with a byte of 128 or more is a call whose numbers are the bytes
// behind it. After each call the text of the last entry and its facts agree, and at the end the lines of all entries, given to a second driver, make the
// same log. The switches over replies and facts are what guides AFL++, since the library itself is not instrumented.
// usage: fuzz < FILE, or fuzz SECONDS SEED: random openings and calls for so long, and how many inputs and calls there were
#define _GNU_SOURCE
#include "mdb.h"
#include <stdio.h>
#include <stdlib.h>
#include <string.h>
#include <time.h>
#include <unistd.h>

#define CHECK(what) do { if (!(what)) { fprintf(stderr, "line %d: %s\n", __LINE__, #what); abort(); } } while (0)
#define MOST (1 << 16)

static mdb_slot slot, twin;
static char log_[1 << 22];
static size_t told, starts[MOST + 1], entries;
static volatile unsigned seen;

// Each case is a branch of its own for the fuzzer.
static void notice(const mdb_reply *reply) {
    switch (reply->kind) {
        case MDB_POOLED: seen += 1; break;
        case MDB_ESTABLISHING: seen += 2; break;
        case MDB_WAITING: seen += 3; break;
        case MDB_ENDED: switch (reply->why) { case 1: seen += 4; break; case 2: seen += 5; break; case 3: seen += 6; break; case 4: seen += 7; break; case 5: seen += 8; break; case 6: seen += 9; break; default: seen += 10; } break;
        case MDB_JOB: seen += 11; break;
        case MDB_NO_JOB: seen += 12; break;
        case MDB_CHANGED: if (reply->number) seen += 13; else seen += 14; break;
        case MDB_COUNT: seen += 15; break;
        case MDB_DONE: seen += 16; break;
        case MDB_REFUSED: switch (reply->why) { case 1: seen += 20; break; case 2: seen += 21; break; case 3: seen += 22; break; case 4: seen += 23; break; case 5: seen += 24; break; case 6: seen += 25; break; case 7: seen += 26; break; case 8: seen += 27; break; case 9: seen += 28; break; case 10: seen += 29; break; case 11: seen += 30; break; case 12: seen += 31; break; case 13: seen += 32; break; default: CHECK(0); } break;
        default: CHECK(0);
    }
}

static void notice_fact(const mdb_fact *fact) {
    CHECK(fact->kind >= MDB_FACT_OPENED && fact->kind <= MDB_FACT_CANCEL);
    switch (fact->kind * 64 + fact->event) {
        case 128 + 1: seen += 40; break; case 128 + 2: seen += 41; break; case 128 + 3: seen += 42; break; case 128 + 4: seen += 43; break;
        case 128 + 5: seen += 44; break; case 128 + 6: seen += 45; break; case 128 + 7: switch (fact->why) { case 1: seen += 46; break; case 2: seen += 47; break; case 3: seen += 48; break; case 4: seen += 49; break; case 5: seen += 50; break; default: CHECK(0); } break;
        case 128 + 8: seen += 51; break; case 128 + 9: if (fact->why == 1) seen += 52; else seen += 53; break; case 128 + 10: seen += 54; break; case 128 + 11: seen += 55; break;
        case 384 + 32: seen += 56; break; case 384 + 33: seen += 57; break; case 384 + 34: seen += 58; break; case 384 + 35: seen += 59; break; case 384 + 36: seen += 60; break;
        case 384 + 37: seen += 61; break; case 384 + 38: seen += 62; break; case 384 + 39: seen += 63; break; case 384 + 40: seen += 64; break;
        default: seen += 65 + fact->kind;
    }
}

// The address that a fact names stands in its text, and the types of a change are types.
static void names(size_t index, const char *text, size_t length) {
    uint8_t address[512];
    size_t needed = 0;
    mdb_types types;
    mdb_status status = mdb_fact_address(&slot, index, address, sizeof address, &needed);
    CHECK(status == MDB_NO_ENTRY || (status == MDB_OK && needed > 2 && memmem(text, length, address, needed)));
    if (mdb_fact_types(&slot, index, &types) == MDB_OK) CHECK(types.before >= 1 && types.before <= 9 && types.after >= 1 && types.after <= 9);
}

// What is known: as many servers as the topology says, each found by its own address, and each text as long as it says.
static void know(void) {
    static uint8_t text[1 << 16];
    mdb_topology topology;
    mdb_server server;
    size_t needed, place;
    CHECK(mdb_topology_get(&slot, &topology) == MDB_OK && topology.kind >= 1 && topology.kind <= 6);
    for (uint32_t which = 0; which < 6; which++) CHECK(mdb_topology_text(&slot, which, text, sizeof text, &needed) != MDB_NO_ROOM);
    for (size_t i = 0; i < topology.servers; i++) {
        CHECK(mdb_server_get(&slot, i, &server) == MDB_OK && server.kind >= 1 && server.kind <= 9);
        CHECK(mdb_server_text(&slot, i, MDB_TEXT_ADDRESS, text, sizeof text, &needed) == MDB_OK);
        CHECK(mdb_server_at(&slot, text, needed, &place) == MDB_OK && place == i);
        CHECK((mdb_server_text(&slot, i, MDB_TEXT_ERROR, text, sizeof text, &needed) == MDB_OK) == (server.has_error == 1));
        for (uint32_t which = 5; which < 13; which++) CHECK(mdb_server_text(&slot, i, which, text, sizeof text, &needed) != MDB_NO_ROOM);
    }
    CHECK(mdb_server_get(&slot, topology.servers, &server) == MDB_NO_ENTRY);
}

// All facts at once are those by index, and a fact of a server has the number of its address, or, of a pool, an earlier one.
static void all_facts(size_t count) {
    static mdb_fact all[1 << 14];
    static uint8_t address[512];
    mdb_fact one;
    size_t found = 77, needed;
    CHECK(count <= 1 << 14 && mdb_facts(&slot, all, count, &found) == MDB_OK && found == count);
    if (count) CHECK(mdb_facts(&slot, &one, count - 1 ? 0 : count - 1, &found) == MDB_NO_ROOM && found == count);
    for (size_t i = 0; i < count; i++) {
        CHECK(mdb_fact_at(&slot, i, &one) == MDB_OK && one.kind == all[i].kind && one.event == all[i].event && one.pool == all[i].pool && one.id == all[i].id);
        CHECK(one.party == all[i].party && one.why == all[i].why && one.number == all[i].number && memcmp(one.service, all[i].service, 12) == 0);
        CHECK(one.has_service == all[i].has_service && one.has_pool == all[i].has_pool && (one.has_pool || one.pool == 0));
        uint32_t number = 77;
        if (mdb_fact_address(&slot, i, address, sizeof address, &needed) != MDB_OK) continue;
        mdb_status status = mdb_server_number(&slot, address, needed, &number);
        CHECK(status == MDB_OK || status == MDB_NO_ENTRY);
        if (one.kind == MDB_FACT_POOL) CHECK(one.has_pool && (status == MDB_NO_ENTRY || one.pool <= number)); // its pool may be one that was closed before
        else CHECK(status == MDB_OK ? one.has_pool && one.pool == number : !one.has_pool);
    }
}

// The last entry's text is kept, and its facts are those of the text.
static void look(void) {
    size_t needed = 0, count = 0, length = 0;
    if (entries == MOST || sizeof log_ - told < 1 << 18) return;
    CHECK(mdb_entry_text(&slot, (uint8_t *)log_ + told, sizeof log_ - told, &needed) == MDB_OK && needed > 4 && log_[told + needed - 1] == '\n');
    CHECK(mdb_fact_count(&slot, &count) == MDB_OK);
    all_facts(count);
    const char *entry = log_ + told, *at = entry + needed - 1;
    // the facts from the last one back, each behind a bar
    for (size_t i = count; i-- > 0;) {
        static uint8_t text[1 << 17];
        mdb_fact fact;
        CHECK(mdb_fact_at(&slot, i, &fact) == MDB_OK);
        notice_fact(&fact);
        CHECK(mdb_fact_text(&slot, i, text, sizeof text, &length) == MDB_OK && (size_t)(at - entry) > length + 3);
        at -= length;
        CHECK(memcmp(at, text, length) == 0 && memcmp(at - 3, " | ", 3) == 0);
        names(i, at, length);
        at -= 3;
    }
    know();
    starts[entries++] = told;
    told += needed;
    starts[entries] = told;
}

static uint64_t number(const uint8_t **at, const uint8_t *end) { return *at < end ? *(*at)++ : 0; }

// A check that begins does what was told before.
static mdb_status begins(const mdb_at *when, const uint8_t *address, size_t length, uint32_t pool, mdb_reply *reply) {
    mdb_check check = {.action = 77};
    mdb_fact fact;
    mdb_status ahead = mdb_check_get(&slot, address, length, &check), status = mdb_beat(&slot, when, address, length, pool, reply);
    CHECK((ahead == MDB_MALFORMED) == (status == MDB_MALFORMED) && (ahead == MDB_OK) == (check.action != 77));
    if (status != MDB_OK || reply->kind == MDB_REFUSED) return status;
    CHECK(ahead == MDB_OK && mdb_fact_at(&slot, 0, &fact) == MDB_OK && fact.event == MDB_SDAM_HEARTBEAT_STARTED && fact.id == check.connection);
    switch (check.action) {
        case MDB_CHECK_CONNECT: CHECK(!check.awaits && !fact.why && check.legacy && check.asks); seen += 80; break;
        case MDB_CHECK_READ: CHECK(!check.awaits && !check.legacy && !check.asks); seen += 81; break;
        case MDB_CHECK_HELLO: CHECK(check.awaits == fact.why && check.asks <= check.legacy); if (check.awaits) seen += 82; else seen += 83; break;
        default: CHECK(0);
    }
    return status;
}

// What follows a check that ends is told before, and is what its monitor does.
static mdb_status ends(const mdb_at *when, const uint8_t *outcome, size_t length, mdb_reply *reply) {
    const uint8_t *monitor = (const uint8_t *)"a:1 0";
    mdb_check check;
    uint32_t next = 77;
    mdb_status ahead = mdb_check_next(&slot, monitor, 5, outcome, length, &next), status = mdb_beaten(&slot, when, monitor, 5, outcome, length, reply);
    CHECK((ahead == MDB_MALFORMED) == (status == MDB_MALFORMED) && (ahead == MDB_OK) == (next != 77));
    if (status != MDB_OK || reply->kind == MDB_REFUSED) return status;
    if (ahead == MDB_NO_ENTRY) { // the end of a check of a server that is gone changes nothing
        CHECK(reply->number == 0);
        return status;
    }
    CHECK(ahead == MDB_OK);
    mdb_status open = mdb_check_get(&slot, monitor, 3, &check); // the server may be gone
    switch (next) {
        case MDB_NEXT_RETRY: CHECK(open != MDB_OK || check.action == MDB_CHECK_CONNECT); seen += 84; break;
        case MDB_NEXT_SLEEP: seen += 85; break;
        case MDB_NEXT_CONTINUE: CHECK(open != MDB_OK || check.action == MDB_CHECK_READ || check.awaits); seen += 86; break;
        default: CHECK(0);
    }
    return status;
}

// The bytes as hosts of an SRV record, and as a TXT record: an answer fits into as much room as it says, and hosts that are accepted are accepted again.
static void records(const uint8_t *bytes, size_t length) {
    static uint8_t out[1 << 20], again[1 << 20];
    const uint8_t *name = (const uint8_t *)"c.example.com";
    size_t needed, more;
    if (length > 1 << 16) return;
    for (uint32_t strangers = MDB_STRANGERS_REFUSE; strangers <= MDB_STRANGERS_LEFT_OUT; strangers++) {
        mdb_status status = mdb_srv_hosts(name, 13, bytes, length, strangers, out, sizeof out, &needed);
        CHECK(status == MDB_OK || status == MDB_BAD_RECORDS || (status == MDB_MALFORMED && needed == 0));
        if (status == MDB_MALFORMED) continue;
        CHECK(needed > 0 && mdb_srv_hosts(name, 13, bytes, length, strangers, again, needed - 1, &more) == MDB_NO_ROOM && more == needed);
        if (status == MDB_OK) CHECK(mdb_srv_hosts(name, 13, out, needed, MDB_STRANGERS_REFUSE, again, needed, &more) == MDB_OK && more == needed && memcmp(out, again, needed) == 0);
    }
    for (uint32_t count = 0; count < 3; count++) {
        mdb_status status = mdb_srv_txt(name, 13, count, bytes, length, out, sizeof out, &needed);
        CHECK(count == 1 ? status == MDB_OK || status == MDB_BAD_RECORDS : status == (count ? MDB_BAD_RECORDS : MDB_OK));
        CHECK(mdb_srv_txt(name, 13, count, bytes, length, again, needed, &more) == status && more == needed && memcmp(out, again, needed) == 0);
        if (status == MDB_OK && needed) CHECK(out[0] == '&' && mdb_srv_txt(name, 13, 1, out + 1, needed - 1, again, sizeof again, &more) == MDB_OK && more == needed && memcmp(out, again, needed) == 0);
    }
}

// A step whose facts come with its reply.
static mdb_status with_facts(uint32_t kind, const mdb_at *when, uint32_t party, const uint8_t *address, size_t length, const mdb_connection *connection, const mdb_established_as *made, const char *service, mdb_reply *reply) {
    static mdb_told with, kept;
    mdb_fact one;
    mdb_status status;
    with = kept;
    switch (kind) {
        case 24: status = mdb_request_told(&slot, when, party, address, length, &with); break;
        case 25: status = mdb_collect_told(&slot, when, party, &with); break;
        case 26: status = mdb_return_told(&slot, when, party, connection->pool, &with); break;
        case 27: status = mdb_established_told(&slot, when, made, (const uint8_t *)service, strlen(service), &with); break;
        default: status = mdb_line_told(&slot, 0, (const uint8_t *)"claim 0", 7, &with); break;
    }
    if (status != MDB_OK) CHECK(memcmp(&with, &kept, sizeof with) == 0);
    for (size_t i = 0; status == MDB_OK && i < with.count && with.count <= MDB_TOLD_FACTS; i++) CHECK(mdb_fact_at(&slot, i, &one) == MDB_OK && one.kind == with.facts[i].kind && one.event == with.facts[i].event && one.party == with.facts[i].party);
    if (status == MDB_OK) *reply = with.reply;
    return status;
}

// A call of the bytes of a line.
static mdb_status called(const uint8_t *at, const uint8_t *end, mdb_reply *reply) {
    static const char *const addresses[] = {"a:1", "a", "b:2", "A:1", "z:9", "", "a:0", "[::1]:9"};
    static const char *const services[] = {"", "0102030405060708090a0b0c", "0102030405060708090A0B0C", "01"};
    uint32_t kind = (uint32_t)(number(&at, end) & 31);
    mdb_at when = {number(&at, end), (uint32_t)number(&at, end)};
    uint32_t party = (uint32_t)number(&at, end);
    const char *address = addresses[number(&at, end) % 8], *service = services[number(&at, end) % 4];
    mdb_connection connection = {(uint32_t)number(&at, end), (uint32_t)number(&at, end)};
    mdb_established_as made = {connection.pool, connection.id, (int32_t)number(&at, end) - 1, (int64_t)number(&at, end) - 1};
    const uint8_t *text = (const uint8_t *)address;
    size_t n = strlen(address);
    switch (kind) {
        case 0: return mdb_request(&slot, &when, party, text, n, reply);
        case 1: return mdb_warm(&slot, &when, party, text, n, reply);
        case 2: return mdb_collect(&slot, &when, party, reply);
        case 3: return mdb_give_up(&slot, &when, party, reply);
        case 4: return mdb_return(&slot, &when, party, connection.pool, reply);
        case 5: return mdb_claim(&slot, &when, reply);
        case 6: return mdb_established(&slot, &when, &made, (const uint8_t *)service, strlen(service), reply);
        case 7: return mdb_pin(&slot, &when, party, reply);
        case 8: return mdb_replicate(&slot, &when, &connection, reply);
        case 9: return mdb_take(&slot, &when, party, &connection, reply);
        case 10: return mdb_unpin(&slot, &when, &connection, reply);
        case 11: return mdb_maintain(&slot, &when, text, n, reply);
        case 12: return mdb_expire(&slot, &when, text, n, reply);
        case 13: return begins(&when, text, n, connection.pool, reply);
        case 14: return mdb_want(&slot, &when, party, reply);
        case 15: return mdb_unwant(&slot, &when, party, reply);
        case 16: return mdb_stop(&slot, &when, reply);
        case 17: return mdb_error(&slot, &when, party, at, (size_t)(end - at), reply);
        case 18: return mdb_failed(&slot, &when, &connection, at, (size_t)(end - at), reply);
        case 19: return mdb_hello(&slot, &when, (const uint8_t *)"a:1 0", 5, at, (size_t)(end - at), reply);
        case 20: return ends(&when, at, (size_t)(end - at), reply);
        case 21: return mdb_rtt(&slot, &when, (const uint8_t *)"a:1 0", 5, (uint64_t)party << connection.pool % 57, reply);
        case 22: return mdb_hosts(&slot, &when, at, (size_t)(end - at), reply);
        case 23: return mdb_cluster_time(&slot, &when, (uint64_t)party << connection.pool % 57, reply);
        case 24: case 25: case 26: case 27: case 28: return with_facts(kind, &when, party, text, n, &connection, &made, service, reply);
        default: return mdb_request(&slot, &when, party, at, (size_t)(end - at), reply); // an address of any bytes
    }
}

static void replay(void) {
    for (size_t i = 0; i < entries; i++) {
        static uint8_t out[1 << 19];
        const char *entry = log_ + starts[i], *bar = strstr(entry, " | ");
        size_t length = starts[i + 1] - starts[i], needed;
        mdb_reply reply;
        const uint8_t *line = (const uint8_t *)entry;
        CHECK(bar && bar < entry + length);
        mdb_status status = i ? mdb_line(&twin, 0, line, (size_t)(bar - entry), &reply) : mdb_open_line(&twin, 0, line, (size_t)(bar - entry));
        CHECK(status == MDB_OK);
        CHECK(mdb_entry_text(&twin, out, sizeof out, &needed) == MDB_OK && needed == length && memcmp(out, entry, length) == 0);
    }
    mdb_close(&twin);
}

static void run(const uint8_t *input, size_t length) {
    told = entries = 0;
    for (const uint8_t *at = input, *end = input + length; at < end;) {
        const uint8_t *newline = memchr(at, '\n', (size_t)(end - at)), *stop = newline ? newline : end;
        mdb_reply reply = {77, 77, 77, 77, 77}, kept = reply;
        mdb_status status;
        records(at, (size_t)(stop - at));
        if (slot.state == 0) {
            status = mdb_line(&slot, 0, at, (size_t)(stop - at), &reply);
            CHECK(status == MDB_CLOSED || status == MDB_MALFORMED);
            status = mdb_open_line(&slot, 0, at, (size_t)(stop - at));
        } else if (at < stop && *at >= 128) {
            status = called(at, stop, &reply);
        } else {
            status = mdb_line(&slot, 0, at, (size_t)(stop - at), &reply);
            if (status == MDB_MALFORMED) CHECK(mdb_open_line(&slot, 0, at, (size_t)(stop - at)) == MDB_OPENED);
        }
        CHECK(status == MDB_OK || status == MDB_MALFORMED || status == MDB_NO_MEMORY);
        if (status != MDB_OK) CHECK(memcmp(&reply, &kept, sizeof kept) == 0);
        if (status == MDB_OK) {
            if (reply.kind != 77) notice(&reply);
            look();
        }
        at = stop + 1;
    }
    mdb_close(&slot);
    mdb_close(&slot);
    log_[told] = 0;
    replay();
}

#ifdef __AFL_COMPILER
__AFL_FUZZ_INIT();
int main(void) {
    __AFL_INIT();
    const uint8_t *input = __AFL_FUZZ_TESTCASE_BUF;
    while (__AFL_LOOP(10000)) run(input, (size_t)__AFL_FUZZ_TESTCASE_LEN);
    return 0;
}
#else
static uint64_t state = 1;

static uint32_t below(uint32_t n) {
    state ^= state << 13, state ^= state >> 7, state ^= state << 17;
    return (uint32_t)(state >> 33) % n;
}

// An opening, a hello, and random calls; the bytes of a call are small numbers, for the most part, so that parties, pools and connections meet.
static size_t made(uint8_t *out) {
    static const char *const openings[] = {"open seeds=a:1 max=2", "open seeds=a:1 lb", "open seeds=a:1,b:2 set=rs", "open seeds=a:1 max=3 min=1 idle=4 wait=3", "open seeds=a:1 limit_id=9"};
    static const char *const hellos[] = {
        "hello 0 a:1 0 ok rtt=5 isWritablePrimary=true maxWireVersion=21", "hello 0 a:1 0 ok rtt=5 hosts=a:1,c:3 setName=rs secondary=true maxWireVersion=21", "hello 0 a:1 0 err network msg=x",
        "hello 0 a:1 0 ok rtt=5 isWritablePrimary=true hosts=a:1,b:2 setVersion=1 setName=rs maxWireVersion=21 electionId=000000000000000000000001 topologyVersion=000000000000000000000001.5", "beat 0 a:1 0",
    };
    static const char *const texts[] = {"network msg=x", "timeout msg=", "pre network msg=x", "post auth msg=y", "ok rtt=7 isWritablePrimary=true maxWireVersion=21", "7 ok msg=isdbgrid maxWireVersion=21", "7 err network msg=z", "err other msg=", "b:2,c:3", "command.91 labels=A msg=", "7 cancelled network msg=z",
        "7 ok isWritablePrimary=true helloOk=true maxWireVersion=21 topologyVersion=000000000000000000000001.5", "7 ok secondary=true setName=rs hosts=a:1,c:3 maxWireVersion=21 topologyVersion=000000000000000000000001.6 more"};
    size_t n = (size_t)sprintf((char *)out, "%s\n%s\n", openings[below(5)], hellos[below(5)]);
    for (uint32_t calls = 20 + below(180); calls > 0; calls--) {
        uint8_t kind = (uint8_t)(128 + (below(4) ? below(7) : below(25)));
        uint8_t bytes[] = {kind, (uint8_t)(1 + below(9)), 1, (uint8_t)(1 + below(8)), (uint8_t)below(below(4) ? 2 : 8), (uint8_t)below(4), 0, (uint8_t)(1 + below(5)), 22, 0};
        for (size_t i = 0; i < sizeof bytes; i++) out[n++] = bytes[i] == 10 ? 11 : bytes[i];
        if (kind >= 128 + 17) n += (size_t)sprintf((char *)out + n, "%s", texts[below(13)]);
        out[n++] = 10;
    }
    return n;
}

int main(int argc, char **argv) {
    static uint8_t input[1 << 20];
    if (argc < 3) {
        run(input, fread(input, 1, sizeof input - 1, stdin));
        return 0;
    }
    time_t until = time(0) + atol(argv[1]);
    unsigned long inputs = 0, steps = 0;
    for (state = strtoul(argv[2], 0, 10) * 2 + 1; time(0) < until; inputs++) {
        run(input, made(input));
        steps += entries;
    }
    printf("%lu inputs, %lu entries\n", inputs, steps);
    return 0;
}
#endif
