// The steps of a client's driver, and where its facts go. The lock is held around each call.
#ifndef NET_DRIVER_H
#define NET_DRIVER_H

#include "client.h"

// What a step says; each step reads what it needs.
struct step {
    uint32_t number; // a party, a watcher, or the pool of a check
    uint32_t used;   // MDB_USE_
    mdb_connection name;
    const char *name_text;        // an address, or a monitor
    const char *text;             // an outcome, an error, hosts, or a service
    const struct reply *document; // of a hello
    mdb_document_fault *bad;      // what is bad in it, where that is something
    uint64_t nanos;               // or a time of the cluster's clock
    int32_t wire;
    int64_t server;
};

// Makes a call of libmdb as the step says.
typedef mdb_status step_call(mdb_slot *slot, const mdb_at *at, const struct step *step, mdb_reply *reply);

// The steps.
step_call request_step, collect_step, give_up_step, return_step, error_step, claim_step, established_step, failed_step, maintain_step, expire_step, beat_step,
    beaten_step, answered_step, rtt_step, want_step, unwant_step, hosts_step, cluster_time_step, pin_step, take_step, unpin_step, stop_step;

// Makes a step, and hands its facts to all whom they concern. Where libmdb finds no memory the step is made again after some milliseconds, for which the lock
// is released; where it finds none for seconds, or the step is none, the client ends with that as its reason. The reply is MDB_REFUSED then.
mdb_reply driver_step(client_t *client, step_call *call, const struct step *step);

// Opens the driver. Answers OK, NO_MEMORY, or OPTIONS where they do not go together.
mdb_net_code driver_open(client_t *client);

// What is known of the topology as a line goes to who takes lines, where it differs from the last one that did.
void driver_show(client_t *client);

// The client ends for this reason, which every call answers from then on.
void client_fail(client_t *client, mdb_net_code why);

#endif
