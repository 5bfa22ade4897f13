#include "pool.h"
#include "cancel.h"
#include <stdlib.h>
#include <string.h>
#include <sys/eventfd.h>

static uint64_t key_of(const mdb_connection *name) { return (uint64_t)name->pool << 32 | name->id; }

// ---- sockets

struct pooled *pooled_find(client_t *client, const mdb_connection *name) {
    return (struct pooled *)table_find(&client->conns, key_of(name));
}

void pooled_add(client_t *client, struct pooled *pooled, const mdb_connection *name, int worker) {
    *pooled = (struct pooled){ .name = *name, .worker = worker, .conn = CONN_CLOSED };
    table_add(&client->conns, &pooled->node, key_of(name));
    if (client->conns.count == 1) pthread_cond_signal(&client->keeping);
}

static void hold(client_t *client, struct pooled *pooled) {
    if (!pooled || pooled->is_held) return;
    pooled->is_held = true;
    pooled->before = NULL;
    pooled->after = client->held;
    if (client->held) client->held->before = pooled;
    client->held = pooled;
}

static void let_go(client_t *client, struct pooled *pooled) {
    if (!pooled || !pooled->is_held) return;
    pooled->is_held = false;
    if (pooled->before) pooled->before->after = pooled->after;
    else client->held = pooled->after;
    if (pooled->after) pooled->after->before = pooled->before;
}

// The connection lives no longer: its socket is closed, and who establishes it is told to stop.
static void pooled_close(client_t *client, const mdb_connection *name) {
    struct pooled *gone = (struct pooled *)table_remove(&client->conns, key_of(name));
    if (!gone) return;
    let_go(client, gone);
    if (gone->worker >= 0) eventfd_write(gone->worker, 1);
    sock_close(&gone->conn.sock);
    free(gone);
}

static void interrupt(client_t *client, uint32_t pool) {
    for (struct pooled *it = client->held; it; it = it->after) {
        if (it->name.pool == pool) sock_shut(&it->conn.sock);
    }
}

void pool_free(client_t *client) {
    struct pooled *left;
    while ((left = (struct pooled *)table_any(&client->conns))) pooled_close(client, &(mdb_connection){ left->name.pool, left->name.id });
    table_free(&client->conns);
    table_free(&client->waiters);
    table_free(&client->granted);
}

// ---- callers who wait

static struct waiter *by_party(client_t *client, uint32_t party) { return (struct waiter *)table_find(&client->waiters, party); }

static struct waiter *by_name(client_t *client, const mdb_connection *name) {
    struct node *node = table_find(&client->granted, key_of(name));
    return node ? (struct waiter *)((char *)node - offsetof(struct waiter, by_name)) : NULL;
}

static void queue(client_t *client, struct waiter *waiter) {
    waiter->queued = true;
    waiter->after = NULL;
    waiter->before = client->last;
    *(client->last ? &client->last->after : &client->first) = waiter;
    client->last = waiter;
}

static void leave_queue(client_t *client, struct waiter *waiter) {
    if (!waiter->queued) return;
    waiter->queued = false;
    *(waiter->before ? &waiter->before->after : &client->first) = waiter->after;
    *(waiter->after ? &waiter->after->before : &client->last) = waiter->before;
}

static void wake(struct waiter *waiter) {
    waiter->told = true;
    pthread_cond_signal(&waiter->news);
}

static void wake_node(struct node *node) { wake((struct waiter *)node); }

static void grant(client_t *client, const mdb_fact *fact) {
    struct waiter *waiter = by_party(client, fact->party);
    if (!waiter) return;
    if (waiter->granted) table_remove(&client->granted, key_of(&waiter->name));
    waiter->granted = true;
    waiter->name = (mdb_connection){ fact->pool, fact->id };
    leave_queue(client, waiter);
    table_add(&client->granted, &waiter->by_name, key_of(&waiter->name));
}

static void end(client_t *client, uint32_t party) {
    struct waiter *waiter = by_party(client, party);
    if (!waiter) return;
    leave_queue(client, waiter);
    wake(waiter);
}

static void checked_out(client_t *client, const mdb_connection *name) {
    struct waiter *waiter = by_name(client, name);
    hold(client, pooled_find(client, name));
    if (waiter) wake(waiter);
}

static void created(client_t *client) {
    client->pending++;
    pthread_cond_signal(&client->jobs);
    if (client->pending > client->resting) pthread_cond_signal(&client->keeping);
}

static void pool_event(client_t *client, const mdb_fact *fact) {
    mdb_connection name = { fact->pool, fact->id };
    switch (fact->event) {
    case MDB_CONNECTION_CREATED: created(client); break;
    case MDB_CHECKED_OUT: checked_out(client, &name); break;
    case MDB_CHECKED_IN: let_go(client, pooled_find(client, &name)); break;
    case MDB_CONNECTION_CLOSED: pooled_close(client, &name); break;
    case MDB_POOL_CLEARED:
        if (fact->number) interrupt(client, fact->pool);
        break;
    default: break;
    }
}

void pool_fact(client_t *client, const mdb_fact *fact) {
    if (fact->kind == MDB_FACT_GRANTED) grant(client, fact);
    if (fact->kind == MDB_FACT_ENDED) end(client, fact->party);
    if (fact->kind == MDB_FACT_POOL) pool_event(client, fact);
}

void pool_blame(client_t *client, const mdb_connection *name, const struct cause *cause) {
    struct waiter *waiter = by_name(client, name);
    if (waiter) waiter->cause = *cause;
}

void pool_interrupt_all(client_t *client) {
    for (struct pooled *it = client->held; it; it = it->after) sock_shut(&it->conn.sock);
    table_each(&client->waiters, wake_node);
}

uint64_t pool_expire(client_t *client) {
    uint64_t now = clock_now();
    while (client->first && client->first->due <= now) {
        struct waiter *waiter = client->first;
        char address[ADDRESS_ROOM];
        struct step step = { .name_text = strcpy(address, waiter->address) };
        waiter->due = now + 10 * MILLISECOND;
        driver_step(client, expire_step, &step);
        if (client->first == waiter) break;
    }
    return client->first ? client->first->due : NO_DEADLINE;
}

// ---- check-outs

mdb_net_code limit_over(const client_t *client, const struct limit *limit) {
    if (client->failed) return client->failed;
    if (client->stopping) return MDB_NET_CLOSED;
    if (limit->cancel && limit->cancel->done) return MDB_NET_CANCELLED;
    return clock_now() >= limit->deadline ? MDB_NET_TIMED_OUT : MDB_NET_OK;
}

static void waiter_begin(client_t *client, struct waiter *waiter, const char *address, mdb_net_cancel *cancel) {
    uint64_t milliseconds = (clock_now() - client->began) / MILLISECOND;
    long most = client->options.wait;
    *waiter = (struct waiter){ .party = ++client->last_party, .address = address, .cause = { .code = MDB_NET_NETWORK } };
    waiter->due = most > 0 ? client->began + (milliseconds + (uint64_t)most + 1) * MILLISECOND : NO_DEADLINE;
    condition_init(&waiter->news);
    table_add(&client->waiters, &waiter->by_party, waiter->party);
    if (most > 0) queue(client, waiter);
    if (cancel) cancel->news = &waiter->news;
}

static void waiter_end(client_t *client, struct waiter *waiter, mdb_net_cancel *cancel) {
    leave_queue(client, waiter);
    table_remove(&client->waiters, waiter->party);
    if (waiter->granted) table_remove(&client->granted, key_of(&waiter->name));
    if (cancel) cancel->news = NULL;
    pthread_cond_destroy(&waiter->news);
}

// Sleeps until the request is settled or the operation over, and asks how; `over` says why it was given up.
static mdb_reply settle(client_t *client, struct waiter *waiter, const struct limit *limit, mdb_net_code *over) {
    struct step step = { .number = waiter->party };
    mdb_reply reply = { .kind = MDB_WAITING };
    if (client->first == waiter) pthread_cond_signal(&client->keeping);
    while (reply.kind == MDB_WAITING || reply.kind == MDB_ESTABLISHING) {
        while (!waiter->told && !(*over = limit_over(client, limit))) client_wait(client, &waiter->news, limit->deadline);
        bool told = waiter->told;
        waiter->told = false;
        reply = driver_step(client, told ? collect_step : give_up_step, &step);
    }
    return reply;
}

static mdb_net_code code_of(const client_t *client, const mdb_reply *reply, const struct waiter *waiter, mdb_net_code over) {
    if (reply->kind == MDB_POOLED) return MDB_NET_OK;
    if (over) return over;
    if (reply->kind != MDB_ENDED) return client->failed ? client->failed : client->stopping ? MDB_NET_CLOSED : MDB_NET_CLEARED;
    if (reply->why == MDB_END_CLOSED && client->stopping) return MDB_NET_CLOSED;
    if (reply->why == MDB_END_FAILED) return waiter->cause.code;
    return reply->why == MDB_END_TIMED_OUT ? MDB_NET_TIMED_OUT : MDB_NET_CLEARED;
}

mdb_net_code check_out(client_t *client, const char *address, const struct limit *limit, struct checked_out *out) {
    struct waiter waiter;
    *out = (struct checked_out){ .pooled = NULL };
    client_lock(client);
    mdb_net_code over = limit_over(client, limit);
    if (over == MDB_NET_OK) {
        waiter_begin(client, &waiter, address, limit->cancel);
        struct step step = { .number = waiter.party, .name_text = address };
        mdb_reply reply = driver_step(client, request_step, &step);
        if (reply.kind == MDB_WAITING || reply.kind == MDB_ESTABLISHING) reply = settle(client, &waiter, limit, &over);
        waiter_end(client, &waiter, limit->cancel);
        out->party = waiter.party;
        out->pooled = reply.kind == MDB_POOLED ? pooled_find(client, &(mdb_connection){ reply.pool, reply.id }) : NULL;
        out->cause = waiter.cause;
        out->name = (mdb_connection){ reply.pool, reply.id };
        over = code_of(client, &reply, &waiter, over);
    }
    client_unlock(client);
    return over;
}

mdb_net_code check_out_pinned(client_t *client, const mdb_connection *name, const struct limit *limit, struct checked_out *out) {
    *out = (struct checked_out){ .pooled = NULL };
    client_lock(client);
    mdb_net_code over = limit_over(client, limit);
    if (over == MDB_NET_OK) {
        struct step step = { .number = ++client->last_party, .name = *name };
        mdb_reply reply = driver_step(client, take_step, &step);
        out->party = step.number;
        out->pooled = reply.kind == MDB_POOLED ? pooled_find(client, name) : NULL;
        out->name = *name;
        if (out->pooled) hold(client, out->pooled);
        else over = client->failed ? client->failed : MDB_NET_CLEARED;
    }
    client_unlock(client);
    return over;
}

bool pool_pin(client_t *client, const struct checked_out *out) {
    struct step step = { .number = out->party };
    client_lock(client);
    mdb_reply reply = driver_step(client, pin_step, &step);
    client_unlock(client);
    return reply.kind == MDB_DONE;
}

void pool_unpin(client_t *client, const mdb_connection *name) {
    struct step step = { .name = *name };
    client_lock(client);
    driver_step(client, unpin_step, &step);
    client_unlock(client);
}

bool report(client_t *client, const struct checked_out *out, const char *error) {
    struct step step = { .number = out->party, .text = error };
    client_lock(client);
    mdb_reply reply = driver_step(client, error_step, &step);
    client_unlock(client);
    return reply.kind == MDB_CHANGED && reply.number;
}

void check_in(client_t *client, const struct checked_out *out, uint32_t used) {
    struct step step = { .number = out->party, .used = used };
    client_lock(client);
    let_go(client, pooled_find(client, &out->name)); // of one that goes back to its pin no fact says so
    driver_step(client, return_step, &step);
    client_unlock(client);
}
