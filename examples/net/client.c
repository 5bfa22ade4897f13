#include "client.h"
#include "driver.h"
#include "keeper.h"
#include "monitor.h"
#include "pool.h"
#include "session.h"
#include "srv.h"
#include "tls.h"
#include <stdio.h>
#include <stdlib.h>
#include <string.h>

static void clocks_begin(client_t *client, size_t room) {
    pthread_cond_t *const conditions[] = { &client->changed, &client->jobs, &client->keeping, &client->left };
    for (size_t i = 0; i < sizeof conditions / sizeof *conditions; i++) condition_init(conditions[i]);
    pthread_mutex_init(&client->lock, NULL);
    stream_begin(&client->lines, room);
    stream_begin(&client->log, room);
    client->began = client->maintained = clock_now();
}

// Frees a client whose threads have ended, or never began.
static void destroy(client_t *client) {
    pthread_cond_t *const conditions[] = { &client->changed, &client->jobs, &client->keeping, &client->left };
    mdb_close(&client->slot);
    pool_free(client);
    sessions_free(client);
    table_free(&client->monitors);
    stream_end(&client->lines);
    stream_end(&client->log);
    for (size_t i = 0; i < sizeof conditions / sizeof *conditions; i++) pthread_cond_destroy(conditions[i]);
    pthread_mutex_destroy(&client->lock);
    lookup_free(client->lookup);
    tls_context_free(client->tls);
    explicit_bzero(&client->options, sizeof client->options);
    explicit_bzero(&client->keys, sizeof client->keys);
    free(client);
}

static mdb_net_code read_options(client_t *client, const char *uri, const mdb_net_options *given, struct text *why) {
    options_begin(&client->options);
    if (given && given->dns && !address_of(client->dns, given->dns, strlen(given->dns))) {
        text_add(why, "the server of names is no address");
        return MDB_NET_OPTIONS;
    }
    client->tells = given ? given->tells : 0;
    client->rescan = given ? given->rescan : 0;
    if (!uri_read(&client->options, uri, why)) return MDB_NET_OPTIONS;
    if (client->options.tls.on && !(client->tls = tls_context_new(&client->options.tls, why))) return why->length ? MDB_NET_OPTIONS : MDB_NET_NO_MEMORY;
    if (client->options.srv_host[0] && !(client->lookup = lookup_new(client->dns))) return MDB_NET_NO_MEMORY;
    if (client->lookup && !srv_resolve(client->lookup, &client->options, why)) return MDB_NET_DNS;
    options_end(&client->options);
    return MDB_NET_OK;
}

// Starts the driver and the threads that always run. The keeper starts all others.
static mdb_net_code start(client_t *client, struct text *why) {
    if (mdb_abi() != MDB_ABI) {
        text_add(why, "built for another libmdb");
        return MDB_NET_OPTIONS;
    }
    client_lock(client);
    mdb_net_code code = driver_open(client);
    client_unlock(client);
    if (code == MDB_NET_OPTIONS) text_add(why, "the options do not go together");
    if (code != MDB_NET_OK) return code;
    if (!thread_start(&client->keeper, keeper_run, client)) return MDB_NET_NO_THREAD;
    if (!client->lookup || thread_start(&client->poller, srv_poll, client)) return MDB_NET_OK;
    lookup_free(client->lookup);
    client->lookup = NULL;
    mdb_net_stop(client);
    return MDB_NET_NO_THREAD;
}

mdb_net_code mdb_net_open(const char *uri, const mdb_net_options *options, mdb_net_client **client, mdb_net_err *err) {
    mdb_net_err unread;
    if (!err) err = &unread;
    *err = (mdb_net_err){ .code = MDB_NET_NO_MEMORY };
    *client = calloc(1, sizeof **client);
    struct text why = TEXT_IN(err->text);
    if (*client) {
        clocks_begin(*client, options && options->room ? options->room : ROOM_DEFAULT);
        err->code = read_options(*client, uri, options, &why);
        if (err->code == MDB_NET_OK) err->code = start(*client, &why);
    }
    if (err->code == MDB_NET_OK) {
        text_add(&why, "%s", (*client)->options.notes_room);
        return MDB_NET_OK;
    }
    if (!why.length) text_add(&why, "%s", err->code == MDB_NET_NO_THREAD ? "a thread could not be started" : "no memory");
    if (*client) destroy(*client);
    *client = NULL;
    return err->code;
}

// Lets what runs end: the driver stops, the sockets in hand are shut, and the operations leave. The lock is held.
static void wind_down(client_t *client) {
    struct step step = { .number = 0 };
    client->stopping = true;
    pthread_cond_broadcast(&client->changed);
    if (!client->failed) driver_step(client, stop_step, &step);
    pool_interrupt_all(client);
    monitors_close(client);
    while (client->operations > 0) client_wait(client, &client->left, NO_DEADLINE);
    client->stopped = true;
    pthread_cond_broadcast(&client->jobs);
    pthread_cond_broadcast(&client->changed);
    pthread_cond_signal(&client->keeping);
}

mdb_net_code mdb_net_stop(mdb_net_client *client) {
    client_lock(client);
    bool first = !client->ending;
    client->ending = true;
    client_unlock(client);
    if (first) sessions_end(client);
    client_lock(client);
    if (first) wind_down(client);
    while (!client->ended && !first) client_wait(client, &client->left, NO_DEADLINE);
    client_unlock(client);
    if (!first) return client->failed;
    pthread_join(client->keeper, NULL);
    if (client->lookup) pthread_join(client->poller, NULL);
    client_lock(client);
    client->ended = true;
    pthread_cond_broadcast(&client->left);
    pthread_cond_broadcast(&client->lines.some);
    pthread_cond_broadcast(&client->log.some);
    client_unlock(client);
    return client->failed;
}

mdb_net_code mdb_net_failed(mdb_net_client *client) {
    client_lock(client);
    mdb_net_code why = client->failed;
    client_unlock(client);
    return why;
}

void mdb_net_free(mdb_net_client *client) {
    if (!client) return;
    mdb_net_stop(client);
    destroy(client);
}

mdb_net_code mdb_net_take(mdb_net_client *client, uint32_t stream, uint32_t milliseconds, mdb_net_batch *batch) {
    struct stream *from = stream == MDB_NET_LOG ? &client->log : &client->lines;
    uint64_t until = clock_now() + milliseconds * MILLISECOND;
    client_lock(client);
    while (from->length == 0 && !client->ended && clock_now() < until) client_wait(client, &from->some, until);
    stream_take(from, batch);
    bool over = batch->length == 0 && client->ended;
    if (batch->lost && from == &client->lines && (client->tells & MDB_NET_TELLS_TOPOLOGY) && !client->ended) driver_show(client);
    client_unlock(client);
    return over ? MDB_NET_CLOSED : MDB_NET_OK;
}

void mdb_net_counted(mdb_net_client *client, mdb_net_counts *counts) {
    client_lock(client);
    *counts = client->counts;
    client_unlock(client);
}
