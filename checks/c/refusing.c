// Runs the script on standard input over a heap of its own that refuses each allocation in turn. Where a call has no memory its slot's next call answers as
// if it had not been made: the log that comes of calling again is the one with memory. Writes how many allocations were refused. Ends with status 1 and the
// line of the check that fails, or with 0. Linked in place of bindings/heap.c.
#include "mdb.h"
#include <stdbool.h>
#include <stdio.h>
#include <stdlib.h>
#include <string.h>

#define CHECK(what) do { if (!(what)) { fprintf(stderr, "line %d: %s\n", __LINE__, #what); exit(1); } } while (0)

struct block {
    bool ok;
    void *at;
};

static long left = -1, asked, live;

static bool refuses(void) {
    asked++;
    return left-- == 0;
}

struct block rattle_alloc(size_t size, size_t align) {
    void *at = refuses() ? 0 : malloc(size ? size : align);
    if (at) live++;
    return (struct block){at != 0, at};
}

struct block rattle_realloc(void *at, size_t old_size, size_t size, size_t align) {
    (void)old_size;
    void *moved = refuses() ? 0 : realloc(at, size ? size : align);
    return (struct block){moved != 0, moved};
}

void rattle_dealloc(void *at) {
    if (at) live--;
    free(at);
}

static char script[1 << 17], log_with[1 << 22], log_without[1 << 22];
static size_t length;
static mdb_slot slot = MDB_SLOT_INIT;

// The calls that concern no driver.
static void records(void) {
    const uint8_t *name = (const uint8_t *)"c.example.com", *hosts = (const uint8_t *)"a.example.com:1,b.evil.com:2", *text = (const uint8_t *)"replicaSet=rs&loadBalanced=false";
    uint8_t out[256];
    size_t needed = 77;
    mdb_status status = mdb_srv_hosts(name, 13, hosts, 28, MDB_STRANGERS_LEFT_OUT, out, sizeof out, &needed);
    CHECK((status == MDB_OK && needed == 15) || (status == MDB_NO_MEMORY && needed == 0));
    status = mdb_srv_hosts(name, 13, hosts, 28, MDB_STRANGERS_REFUSE, out, sizeof out, &needed);
    CHECK((status == MDB_BAD_RECORDS && needed > 15) || (status == MDB_NO_MEMORY && needed == 0));
    status = mdb_srv_txt(name, 13, 1, text, 32, out, sizeof out, &needed);
    CHECK((status == MDB_OK && needed == 33) || (status == MDB_NO_MEMORY && needed == 0));
}

// A reply of a made-up replica set.
static void made_up(void) {
    mdb_member member;
    uint64_t elections;
    uint8_t out[512];
    size_t needed = 77;
    CHECK(mdb_fleet_begin(&member, 1, &elections) == MDB_OK);
    mdb_status status = mdb_fleet_reply(&member, 1, 0, out, sizeof out, &needed);
    CHECK((status == MDB_OK && needed > 100) || (status == MDB_NO_MEMORY && needed == 0));
}

// One step, made again once where it had no memory: the reply is not written then, and the last entry still has its text.
static bool step(const char *line, size_t n, bool opens, mdb_reply *reply, size_t *told, char *log) {
    static mdb_told kept, with;
    memset(&kept, 77, sizeof kept);
    with = kept;
    mdb_status status = opens ? mdb_open_line(&slot, 0, (const uint8_t *)line, n) : mdb_line_told(&slot, 0, (const uint8_t *)line, n, &with);
    *reply = with.reply;
    if (status == MDB_NO_MEMORY) {
        CHECK(memcmp(&with, &kept, sizeof kept) == 0);
        CHECK(opens ? slot.state == 0 : slot.state != 0);
        if (!opens) {
            static char again[1 << 20];
            size_t needed;
            CHECK(mdb_entry_text(&slot, (uint8_t *)again, sizeof again, &needed) == MDB_OK);
            CHECK(needed <= *told && memcmp(log + *told - needed, again, needed) == 0);
        }
        status = opens ? mdb_open_line(&slot, 0, (const uint8_t *)line, n) : mdb_line(&slot, 0, (const uint8_t *)line, n, reply);
    }
    if (status == MDB_MALFORMED) return false;
    CHECK(status == MDB_OK);
    size_t needed = 0, room = sizeof log_with - *told, count = 0;
    status = mdb_entry_text(&slot, (uint8_t *)log + *told, room, &needed);
    if (status == MDB_NO_MEMORY) {
        CHECK(needed == 0);
        status = mdb_entry_text(&slot, (uint8_t *)log + *told, room, &needed);
    }
    CHECK(status == MDB_OK);
    *told += needed;
    static mdb_fact facts[4096];
    uint32_t number;
    CHECK(mdb_fact_count(&slot, &count) == MDB_OK && mdb_facts(&slot, facts, 4096, &needed) == MDB_OK && needed == count); // no memory is asked for
    status = mdb_server_number(&slot, (const uint8_t *)"a:27017", 7, &number);
    CHECK(status == MDB_OK || status == MDB_NO_ENTRY || status == MDB_NO_MEMORY);
    for (size_t i = 0; i < count; i++) {
        uint8_t text[8192];
        status = mdb_fact_text(&slot, i, text, sizeof text, &needed);
        CHECK(status == MDB_OK || status == MDB_NO_MEMORY);
        status = mdb_fact_address(&slot, i, text, sizeof text, &needed);
        CHECK(status == MDB_OK || status == MDB_NO_ENTRY || (status == MDB_NO_MEMORY && needed == 0));
    }
    for (uint32_t which = MDB_TEXT_SET_NAME; which <= MDB_TEXT_REPLY; which++) {
        uint8_t told_text[8192];
        status = mdb_server_text(&slot, 0, which, told_text, sizeof told_text, &needed);
        CHECK(status == MDB_OK || status == MDB_NO_ENTRY || (status == MDB_NO_MEMORY && needed == 0));
        status = mdb_topology_text(&slot, which, told_text, sizeof told_text, &needed);
        CHECK(status == MDB_OK || status == MDB_NO_ENTRY || (status == MDB_NO_MEMORY && needed == 0));
    }
    mdb_check check;
    uint32_t next;
    status = mdb_check_get(&slot, (const uint8_t *)"a:27017", 7, &check);
    CHECK(status == MDB_OK || status == MDB_NO_ENTRY || status == MDB_NO_MEMORY);
    status = mdb_check_next(&slot, (const uint8_t *)"a:27017 0", 9, (const uint8_t *)"7 err network msg=x", 19, &next);
    CHECK(status == MDB_OK || status == MDB_NO_ENTRY || status == MDB_NO_MEMORY);
    mdb_driver_pool pool;
    uint64_t watchers;
    status = mdb_driver_pool_get(&slot, 0, &pool);
    CHECK((status == MDB_OK || status == MDB_NO_ENTRY) && mdb_watchers(&slot, &watchers) == MDB_OK); // no memory is asked for
    records();
    made_up();
    return true;
}

static size_t run(char *log) {
    size_t told = 0;
    mdb_reply reply;
    bool opens = true;
    for (char *at = script, *end; at < script + length; at = end + 1) {
        end = memchr(at, '\n', (size_t)(script + length - at));
        if (!end) break;
        if (!step(at, (size_t)(end - at), opens, &reply, &told, log)) break;
        opens = false;
    }
    mdb_close(&slot);
    CHECK(live == 0);
    return told;
}

int main(int argc, char **argv) {
    long most = argc > 1 ? atol(argv[1]) : 1000000;
    length = fread(script, 1, sizeof script, stdin);
    size_t with = run(log_with);
    long calls = asked;
    long n = 0;
    for (; n < calls && n < most; n++) {
        left = n;
        CHECK(run(log_without) == with && memcmp(log_with, log_without, with) == 0);
    }
    printf("%ld of %ld allocations refused\n", n, calls);
    return 0;
}
