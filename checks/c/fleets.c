// A made-up replica set: what each act makes of its members, its replies as texts and as a driver takes them, and numbers that mean nothing. What is wanted
// is derived from the rule in words. Ends with status 1 and the line of the check that fails, or with 0.
#include "mdb.h"
#include <stdio.h>
#include <stdlib.h>
#include <string.h>

_Static_assert(sizeof(mdb_member) == 24, "a member has 24 bytes");

#define CHECK(what) do { if (!(what)) { fprintf(stderr, "line %d: %s\n", __LINE__, #what); exit(1); } } while (0)

enum { MOST = 50 };

static mdb_member members[MOST + 1];
static uint64_t elections;

static int is(uint32_t member, uint64_t election, uint32_t set_version, uint32_t counter) {
    const mdb_member *it = &members[member];
    return it->primary == (election != 0) && it->election == election && it->set_version == set_version && it->counter == counter;
}

static void acts(void) {
    uint32_t changed = 77;
    elections = 77;
    CHECK(mdb_fleet_begin(members, 3, &elections) == MDB_OK && elections == 0);
    for (uint32_t i = 0; i < 3; i++) CHECK(is(i, 0, 1, 0));
    CHECK(mdb_fleet_reconfigure(members, 3, 0, &changed) == MDB_OK && changed == 0 && is(0, 0, 1, 0));
    CHECK(mdb_fleet_step_down(members, 3, 0, &changed) == MDB_OK && changed == 0 && is(0, 0, 1, 0));
    CHECK(mdb_fleet_elect(members, 3, &elections, 0) == MDB_OK && elections == 1 && is(0, 1, 1, 1) && is(1, 0, 1, 0));
    CHECK(mdb_fleet_reconfigure(members, 3, 0, &changed) == MDB_OK && changed == 1 && is(0, 1, 2, 2));
    CHECK(mdb_fleet_elect(members, 3, &elections, 2) == MDB_OK && elections == 2 && is(2, 2, 2, 1) && is(0, 1, 2, 2)); // the old one goes on believing
    CHECK(mdb_fleet_step_down(members, 3, 0, &changed) == MDB_OK && changed == 1 && is(0, 0, 2, 3) && is(2, 2, 2, 1));
    CHECK(mdb_fleet_elect(members, 3, &elections, 2) == MDB_OK && elections == 3 && is(2, 3, 2, 2)); // it wins once more
}

static const char *reply_of(size_t count, uint32_t member) {
    static char text[4096];
    size_t needed = 77, more = 77;
    memset(text, 77, sizeof text);
    CHECK(mdb_fleet_reply(members, count, member, (uint8_t *)text, sizeof text, &needed) == MDB_OK && needed > 0 && text[needed] == 77);
    CHECK(mdb_fleet_reply(members, count, member, (uint8_t *)"", 0, &more) == MDB_NO_ROOM && more == needed);
    text[needed] = 0;
    return text;
}

static void replies(void) {
    static mdb_slot slot = MDB_SLOT_INIT;
    static const char open[] = "open seeds=m0:27017 set=rs";
    char outcome[4200];
    mdb_at at = {1, 0};
    mdb_reply reply;
    mdb_topology topology;
    CHECK(mdb_fleet_begin(members, 2, &elections) == MDB_OK && mdb_fleet_elect(members, 2, &elections, 1) == MDB_OK);
    CHECK(!strcmp(reply_of(2, 0), " isWritablePrimary=false helloOk=true hosts=m0:27017,m1:27017 me=m0:27017 setVersion=1 setName=rs secondary=true minWireVersion=0 maxWireVersion=21 topologyVersion=000000000000000000000001.0"));
    CHECK(!strcmp(reply_of(2, 1), " isWritablePrimary=true helloOk=true hosts=m0:27017,m1:27017 me=m1:27017 setVersion=1 setName=rs secondary=false minWireVersion=0 maxWireVersion=21 electionId=000000000000000000000001 topologyVersion=000000000000000000000002.1"));
    CHECK(mdb_open_line(&slot, 0, (const uint8_t *)open, sizeof open - 1) == MDB_OK);
    for (uint32_t i = 0; i < 2; i++) {
        static const char *const monitors[] = {"m0:27017 0", "m1:27017 1"};
        int length = snprintf(outcome, sizeof outcome, "ok rtt=5%s", reply_of(2, i));
        CHECK(mdb_hello(&slot, &at, (const uint8_t *)monitors[i], 10, (const uint8_t *)outcome, (size_t)length, &reply) == MDB_OK && reply.kind == MDB_CHANGED);
    }
    CHECK(mdb_topology_get(&slot, &topology) == MDB_OK && topology.kind == MDB_TOPOLOGY_WITH_PRIMARY && topology.servers == 2);
    mdb_close(&slot);
}

// Every call refuses these members, and nothing is written.
static void refused(mdb_status status, size_t count, uint32_t member) {
    mdb_member before[MOST + 1];
    uint64_t held = elections;
    uint32_t changed = 77;
    uint8_t text[64];
    size_t needed = 77;
    memset(text, 77, sizeof text);
    memcpy(before, members, sizeof before);
    CHECK(mdb_fleet_elect(members, count, &elections, member) == status && elections == held);
    CHECK(mdb_fleet_step_down(members, count, member, &changed) == status && mdb_fleet_reconfigure(members, count, member, &changed) == status && changed == 77);
    CHECK(mdb_fleet_reply(members, count, member, text, sizeof text, &needed) == status && needed == 0 && text[0] == 77);
    CHECK(memcmp(before, members, sizeof before) == 0);
}

static void hostile(void) {
    CHECK(mdb_fleet_begin(members, MOST, &elections) == MDB_OK && is(MOST - 1, 0, 1, 0));
    refused(MDB_NO_ENTRY, MOST, MOST);
    refused(MDB_NO_ENTRY, MOST, UINT32_MAX);
    refused(MDB_MALFORMED, 0, 0);
    members[MOST] = members[0];
    refused(MDB_MALFORMED, MOST + 1, 0);
    elections = 5;
    CHECK(mdb_fleet_begin(members, 0, &elections) == MDB_MALFORMED && mdb_fleet_begin(members, MOST + 1, &elections) == MDB_MALFORMED && elections == 5);
    members[3].counter = INT32_MAX;
    refused(MDB_MALFORMED, MOST, 0);
    members[3].counter = INT32_MAX - 1;
    CHECK(mdb_fleet_elect(members, MOST, &elections, 3) == MDB_OK && elections == 6 && is(3, 6, 1, INT32_MAX));
    refused(MDB_MALFORMED, MOST, 3);
    members[3].counter = 0;
    members[7].set_version = UINT32_MAX;
    refused(MDB_MALFORMED, MOST, 7);
    members[7].set_version = 1;
    elections = UINT64_MAX;
    CHECK(mdb_fleet_elect(members, MOST, &elections, 0) == MDB_MALFORMED && elections == UINT64_MAX && is(0, 0, 1, 0));
    members[0].primary = UINT32_MAX; // any number but 0 says that it is
    uint32_t changed = 77;
    CHECK(mdb_fleet_step_down(members, MOST, 0, &changed) == MDB_OK && changed == 1 && is(0, 0, 1, 1));
}

int main(void) {
    acts();
    replies();
    hostile();
    return 0;
}
