#include "keeper.h"
#include "monitor.h"
#include "pool.h"
#include "topology.h"
#include "worker.h"

enum { RETRY = 100, MAINTENANCE = 500 }; // milliseconds

// Idle connections are closed and pools filled, each half second. Answers when that is to be done again.
static uint64_t maintain(client_t *client) {
    char address[ADDRESS_ROOM];
    struct step step = { .name_text = address };
    uint64_t next = client->maintained + MAINTENANCE * MILLISECOND;
    if (client->conns.count == 0 && client->options.min <= 0) return NO_DEADLINE;
    if (clock_now() < next) return next;
    for (size_t place = 0; !client->stopping && topology_address(&client->slot, place, address) == MDB_OK; place++) driver_step(client, maintain_step, &step);
    client->maintained = clock_now();
    return client->maintained + MAINTENANCE * MILLISECOND;
}

// Joins the threads that have ended. The lock is released for that. Answers whether there was one.
static bool reap(client_t *client) {
    struct monitor *monitor = monitor_ended(client);
    struct worker *worker = worker_ended(client);
    if (!monitor && !worker) return false;
    client_unlock(client);
    if (monitor) monitor_free(monitor);
    if (worker) worker_free(worker);
    client_lock(client);
    return true;
}

// Does what is to be done now, and answers when there is more.
static uint64_t keep(client_t *client) {
    uint64_t next = NO_DEADLINE;
    bool fit = true;
    if (client->unfit && !client->failed) {
        client->unfit = false;
        fit = monitors_fit(client);
        client->unfit = client->unfit || !fit;
    }
    if (!client->stopped) fit = workers_start(client) && fit;
    if (!client->stopping) next = earlier(pool_expire(client), maintain(client));
    return fit ? next : earlier(next, deadline_in(RETRY));
}

static bool is_over(const client_t *client) { return client->stopped && !client->every_monitor && !client->workers; }

void *keeper_run(void *given) {
    client_t *client = given;
    client_lock(client);
    while (!is_over(client)) {
        uint64_t next = keep(client);
        if (!reap(client) && !is_over(client)) client_wait(client, &client->keeping, next);
    }
    client_unlock(client);
    return NULL;
}
