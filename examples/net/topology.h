// What libmdb knows of the topology: the line that shows it, its servers by their places, and the choice of one. The lock is held around each call.
#ifndef NET_TOPOLOGY_H
#define NET_TOPOLOGY_H

#include "mdb.h"
#include "options.h"

// `TYPE addr=TYPE,addr=TYPE`, or `TYPE -` for no server.
mdb_status topology_line(mdb_slot *slot, struct text *line);

// Writes the address of the server at this place. MDB_NO_ENTRY where there is none.
mdb_status topology_address(mdb_slot *slot, size_t place, char address[ADDRESS_ROOM]);

// Adds, as far as it fits, of what kind the topology is, and the error of the first server that has one.
void topology_why(mdb_slot *slot, struct text *text);

// What is wanted of a server.
struct wanted {
    uint32_t preference; // MDB_NET_PRIMARY ..
    const char *tags;    // sets of tags as options have them, empty for none
    const char *avoided; // the address of one that is taken only where no other fits, empty for none
    uint64_t near;       // by how many milliseconds its round trip may be longer than the shortest one
    uint32_t turn;       // which of those that fit, counted round
};

// A server that was chosen.
struct chosen {
    char address[ADDRESS_ROOM];
    const char *mode;  // of `$readPreference`, by which a command that reads says where it may go, NULL where it need not
    uint32_t kind;     // MDB_SERVER_
    int32_t wire;      // its greatest wire version
    bool has_sessions; // it and all others that hold data keep sessions
    uint64_t minutes;  // for how long they do, 0 for no bound that is known
};

// Chooses a server (server selection, "Network Topology", by type, tags and latency). MDB_NO_ENTRY where there is none.
mdb_status topology_choose(mdb_slot *slot, const struct wanted *wanted, struct chosen *chosen);

#endif
