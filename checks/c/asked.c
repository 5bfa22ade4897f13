// What a driver tells of its pools, of its watchers and of the numbers of parties that are left, and which servers may be used: asked between steps. No
// question is a step. Ends with status 1 and the line of the check that fails, or with 0.
#include "mdb.h"
#include <stdio.h>
#include <stdlib.h>
#include <string.h>

_Static_assert(sizeof(mdb_driver_pool) == 24, "the numbers of a pool have 24 bytes");

#define CHECK(what) do { if (!(what)) { fprintf(stderr, "line %d: %s\n", __LINE__, #what); exit(1); } } while (0)
#define TEXT(text) (const uint8_t *)text, sizeof text - 1

static mdb_slot slot = MDB_SLOT_INIT;
static mdb_reply reply;

static void does(const char *line) {
    CHECK(mdb_line(&slot, 0, (const uint8_t *)line, strlen(line), &reply) == MDB_OK);
}

// The pool has these numbers, and the question changes no entry.
static void pool_is(uint32_t pool, uint64_t generation, uint64_t available, uint32_t state, uint32_t has_job) {
    mdb_driver_pool told;
    memset(&told, 77, sizeof told);
    CHECK(mdb_driver_pool_get(&slot, pool, &told) == MDB_OK);
    CHECK(told.generation == generation && told.available == available && told.state == state && told.has_job == has_job);
}

// There is no such pool, and nothing is written.
static void no_pool(mdb_slot *of, uint32_t pool, mdb_status status) {
    mdb_driver_pool told, kept;
    memset(&told, 77, sizeof told);
    memcpy(&kept, &told, sizeof told);
    CHECK(mdb_driver_pool_get(of, pool, &told) == status && memcmp(&told, &kept, sizeof told) == 0);
}

static void pools(void) {
    static const char open[] = "open seeds=a:1";
    no_pool(&slot, 0, MDB_CLOSED);
    CHECK(mdb_open_line(&slot, 0, TEXT(open)) == MDB_OK);
    pool_is(0, 0, 0, MDB_POOL_IS_NEW, 0);
    no_pool(&slot, 1, MDB_NO_ENTRY);
    no_pool(&slot, 4294967295u, MDB_NO_ENTRY);
    does("hello 1 a:1 0 ok rtt=1000 isWritablePrimary=true maxWireVersion=21");
    pool_is(0, 0, 0, MDB_POOL_IS_READY, 0);
    does("request 2 1 a:1");
    CHECK(reply.kind == MDB_ESTABLISHING);
    pool_is(0, 0, 0, MDB_POOL_IS_READY, 1);
    does("claim 3");
    pool_is(0, 0, 0, MDB_POOL_IS_READY, 0);
    does("established 4 0 1 wire=17");
    does("collect 5 1");
    CHECK(reply.kind == MDB_POOLED);
    pool_is(0, 0, 0, MDB_POOL_IS_READY, 0);
    does("return 6 1 ok");
    pool_is(0, 0, 1, MDB_POOL_IS_READY, 0);
    does("hello 7 a:1 0 err network msg=reset");
    pool_is(0, 1, 1, MDB_POOL_IS_PAUSED, 0);
    does("maintain 8 a:1");
    pool_is(0, 1, 0, MDB_POOL_IS_PAUSED, 0);
    does("stop 9");
    no_pool(&slot, 0, MDB_NO_ENTRY);
    mdb_close(&slot);
    no_pool(&slot, 0, MDB_CLOSED);
}

static uint64_t watchers(void) {
    uint64_t count = 77;
    CHECK(mdb_watchers(&slot, &count) == MDB_OK);
    return count;
}

// The first one is to wake every monitor that sleeps: it is the one before whose step nobody asked.
static void watched(void) {
    static const char open[] = "open seeds=a:1,b:1";
    mdb_at at = {1, 0};
    uint64_t count = 77;
    CHECK(mdb_watchers(&slot, &count) == MDB_CLOSED && count == 77);
    CHECK(mdb_open_line(&slot, 0, TEXT(open)) == MDB_OK);
    CHECK(watchers() == 0);
    CHECK(mdb_want(&slot, &at, 5, &reply) == MDB_OK && reply.kind == MDB_COUNT && reply.number == 1 && watchers() == 1);
    CHECK(mdb_want(&slot, &at, 5, &reply) == MDB_OK && reply.number == 1 && watchers() == 1);
    CHECK(mdb_want(&slot, &at, 6, &reply) == MDB_OK && reply.number == 2 && watchers() == 2);
    CHECK(mdb_unwant(&slot, &at, 5, &reply) == MDB_OK && reply.number == 1 && watchers() == 1);
    CHECK(mdb_unwant(&slot, &at, 6, &reply) == MDB_OK && reply.number == 0 && watchers() == 0);
    mdb_close(&slot);
}

int main(int count, char **words) {
    int many = count > 1 ? atoi(words[1]) : 10;
    for (int i = 0; i < many; i++) {
        pools();
        watched();
    }
    return 0;
}
