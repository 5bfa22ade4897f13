#include "topology.h"
#include "clock.h"
#include "mdb_net.h"
#include <stdlib.h>
#include <string.h>

static const char *const TOPOLOGIES[] = { "?", "Unknown", "Single", "ReplicaSetNoPrimary", "ReplicaSetWithPrimary", "Sharded", "LoadBalanced" };
static const char *const SERVERS[] = { "?", "Unknown", "Standalone", "Mongos", "RSPrimary", "RSSecondary", "RSArbiter", "RSOther", "RSGhost", "LoadBalancer" };

mdb_status topology_line(mdb_slot *slot, struct text *line) {
    mdb_topology topology = { .kind = 0 };
    mdb_server server = { .kind = 0 };
    char address[ADDRESS_ROOM];
    mdb_status status = mdb_topology_get(slot, &topology);
    text_add(line, "%s ", TOPOLOGIES[topology.kind]);
    for (size_t i = 0; status == MDB_OK && i < topology.servers; i++) {
        status = topology_address(slot, i, address);
        if (status == MDB_OK) status = mdb_server_get(slot, i, &server);
        text_add(line, "%s%s=%s", i ? "," : "", address, SERVERS[server.kind]);
    }
    if (topology.servers == 0) text_add(line, "-");
    return status;
}

mdb_status topology_address(mdb_slot *slot, size_t place, char address[ADDRESS_ROOM]) {
    size_t length = 0;
    mdb_status status = mdb_server_text(slot, place, MDB_TEXT_ADDRESS, (uint8_t *)address, ADDRESS_ROOM - 1, &length);
    address[status == MDB_OK ? length : 0] = 0;
    return status;
}

void topology_why(mdb_slot *slot, struct text *text) {
    mdb_topology topology = { .kind = 0 };
    char address[ADDRESS_ROOM], error[200];
    size_t length = 0;
    if (mdb_topology_get(slot, &topology) != MDB_OK) return;
    text_add(text, ": %s", TOPOLOGIES[topology.kind]);
    for (size_t i = 0; i < topology.servers; i++) {
        if (mdb_server_text(slot, i, MDB_TEXT_ERROR, (uint8_t *)error, sizeof error - 1, &length) != MDB_OK) continue;
        if (topology_address(slot, i, address) != MDB_OK) continue;
        text_add(text, ", %s %.*s", address, (int)length, error);
        return;
    }
}

// ---- the choice

struct candidate {
    size_t place;
    uint64_t round_trip;
    uint32_t kind;
    int32_t wire;
};

struct candidates {
    struct candidate all[SEED_MOST];
    size_t count;
};

enum { PRIMARIES = 1, SECONDARIES = 2, OTHERS = 4 };

// Which members of a set a read preference wants, and which it takes where there are none of those.
static const struct {
    const char *mode;
    uint32_t first, second;
} PREFERENCES[] = {
    [MDB_NET_DEFAULT] = { NULL, PRIMARIES, 0 },
    [MDB_NET_PRIMARY] = { NULL, PRIMARIES, 0 },
    [MDB_NET_PRIMARY_PREFERRED] = { "primaryPreferred", PRIMARIES, SECONDARIES },
    [MDB_NET_SECONDARY] = { "secondary", SECONDARIES, 0 },
    [MDB_NET_SECONDARY_PREFERRED] = { "secondaryPreferred", SECONDARIES, PRIMARIES },
    [MDB_NET_NEAREST] = { "nearest", PRIMARIES | SECONDARIES, 0 },
};

// What a server of this kind is in such a topology.
static uint32_t sort_of(uint32_t topology, uint32_t server) {
    if (topology == MDB_TOPOLOGY_SINGLE) return server == MDB_SERVER_UNKNOWN ? 0 : OTHERS;
    if (server == MDB_SERVER_RS_PRIMARY) return PRIMARIES;
    if (server == MDB_SERVER_RS_SECONDARY) return SECONDARIES;
    return server == MDB_SERVER_MONGOS || server == MDB_SERVER_STANDALONE || server == MDB_SERVER_LOAD_BALANCER ? OTHERS : 0;
}

// All servers of these sorts.
static mdb_status gather(mdb_slot *slot, const mdb_topology *topology, uint32_t sorts, struct candidates *found) {
    mdb_server server = { .kind = 0 };
    mdb_status status = MDB_OK;
    found->count = 0;
    for (size_t i = 0; status == MDB_OK && i < topology->servers && found->count < SEED_MOST; i++) {
        status = mdb_server_get(slot, i, &server);
        if (status != MDB_OK || !(sort_of(topology->kind, server.kind) & sorts)) continue;
        found->all[found->count++] = (struct candidate){ i, server.round_trip, server.kind, server.max_wire };
    }
    return status;
}

// Whether the tags of a server, `name:value` with commas between and a space or nothing behind, have this one.
static bool has_tag(const char *tags, const char *tag, size_t length) {
    for (;;) {
        size_t one = strcspn(tags, ", ");
        if (one == length && memcmp(tags, tag, length) == 0) return true;
        if (tags[one] != ',') return false;
        tags += one + 1;
    }
}

// Whether they have all tags of a set.
static bool has_set(const char *tags, const char *set, size_t length) {
    while (length > 0) {
        const char *comma = memchr(set, ',', length);
        size_t one = comma ? (size_t)(comma - set) : length;
        if (!has_tag(tags, set, one)) return false;
        set += comma ? one + 1 : one;
        length -= comma ? one + 1 : one;
    }
    return true;
}

// The tags of the server at the place, as its last reply told them, on the heap; NULL where there is no memory.
static char *tags_at(mdb_slot *slot, size_t place) {
    size_t needed = 0;
    uint8_t none;
    mdb_status status = mdb_server_text(slot, place, MDB_TEXT_REPLY, &none, 0, &needed);
    char *text = status == MDB_NO_MEMORY ? NULL : calloc(1, needed + 1);
    if (text && status == MDB_NO_ROOM) status = mdb_server_text(slot, place, MDB_TEXT_REPLY, (uint8_t *)text, needed, &needed);
    if (text && status == MDB_NO_MEMORY) free(text), text = NULL;
    if (!text) return NULL;
    const char *tags = strstr(text, " tags=");
    if (tags) memmove(text, tags + 6, strlen(tags + 6) + 1);
    else text[0] = 0;
    return text;
}

// Leaves those that have all tags of the first set that somebody has all of.
static mdb_status keep_tagged(mdb_slot *slot, const char *sets, struct candidates *found) {
    bool fits[SEED_MOST] = { false };
    char *tags[SEED_MOST] = { NULL };
    size_t count = 0, kept = 0;
    mdb_status status = MDB_OK;
    for (size_t i = 0; i < found->count && status == MDB_OK; i++) {
        if (!(tags[i] = tags_at(slot, found->all[i].place))) status = MDB_NO_MEMORY;
    }
    for (const char *set = sets; status == MDB_OK && *set && count == 0;) {
        size_t length = strcspn(set, ";");
        for (size_t i = 0; i < found->count; i++) count += fits[i] = has_set(tags[i], set, length);
        set += length + (set[length] == ';');
    }
    for (size_t i = 0; i < found->count; i++) {
        free(tags[i]);
        if (count && fits[i]) found->all[kept++] = found->all[i];
    }
    found->count = kept;
    return status;
}

// The members of a set that are wanted first, or else second. Tags say nothing of a primary that is wanted for what it is.
static mdb_status gather_members(mdb_slot *slot, const mdb_topology *topology, const struct wanted *wanted, struct candidates *found) {
    const uint32_t sorts[] = { PREFERENCES[wanted->preference].first, PREFERENCES[wanted->preference].second };
    mdb_status status = MDB_OK;
    for (int i = 0; i < 2 && status == MDB_OK && found->count == 0; i++) {
        status = gather(slot, topology, sorts[i], found);
        if (status == MDB_OK && wanted->tags[0] && sorts[i] & SECONDARIES) status = keep_tagged(slot, wanted->tags, found);
    }
    return status;
}

// Leaves the nearest.
static void keep_near(struct candidates *found, uint64_t near) {
    uint64_t shortest = UINT64_MAX;
    size_t kept = 0;
    for (size_t i = 0; i < found->count; i++) shortest = earlier(shortest, found->all[i].round_trip);
    for (size_t i = 0; i < found->count; i++) {
        if (found->all[i].round_trip - shortest <= near * MILLISECOND) found->all[kept++] = found->all[i];
    }
    found->count = kept;
}

// Leaves out the one that is to be avoided, where it is not the only one.
static mdb_status avoid(mdb_slot *slot, const char *avoided, struct candidates *found) {
    char address[ADDRESS_ROOM];
    mdb_status status = MDB_OK;
    for (size_t i = 0; avoided[0] && found->count > 1 && i < found->count && status == MDB_OK; i++) {
        status = topology_address(slot, found->all[i].place, address);
        if (strcmp(address, avoided)) continue;
        found->all[i] = found->all[--found->count];
        break;
    }
    return status;
}

// To a member of a set that was named directly each command that reads says that it may be a secondary; else those that may go to one do.
static const char *mode_of(uint32_t topology, uint32_t server, uint32_t preference) {
    const char *mode = PREFERENCES[preference].mode;
    if (server == MDB_SERVER_STANDALONE) return NULL;
    return !mode && topology == MDB_TOPOLOGY_SINGLE && server != MDB_SERVER_MONGOS ? "primaryPreferred" : mode;
}

mdb_status topology_choose(mdb_slot *slot, const struct wanted *wanted, struct chosen *chosen) {
    struct candidates found = { .count = 0 };
    mdb_topology topology = { .kind = 0 };
    mdb_status status = mdb_topology_get(slot, &topology);
    bool set = topology.kind == MDB_TOPOLOGY_NO_PRIMARY || topology.kind == MDB_TOPOLOGY_WITH_PRIMARY;
    if (status == MDB_OK) status = set ? gather_members(slot, &topology, wanted, &found) : gather(slot, &topology, OTHERS, &found);
    if (status == MDB_OK) status = avoid(slot, wanted->avoided, &found);
    if (status == MDB_OK && found.count == 0) status = MDB_NO_ENTRY;
    if (status != MDB_OK) return status;
    keep_near(&found, wanted->near);
    const struct candidate *taken = &found.all[wanted->turn % found.count];
    bool balanced = topology.kind == MDB_TOPOLOGY_LOAD_BALANCED;
    *chosen = (struct chosen){ .mode = mode_of(topology.kind, taken->kind, wanted->preference),
                               .kind = taken->kind,
                               .wire = taken->wire,
                               .has_sessions = balanced || topology.has_session_minutes,
                               .minutes = balanced ? 0 : topology.session_minutes };
    return topology_address(slot, taken->place, chosen->address);
}
