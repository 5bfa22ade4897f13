#include "driver.h"
#include "monitor.h"
#include "pool.h"
#include "topology.h"
#include "worker.h"
#include <string.h>

enum { TRIES = 200, PAUSE = 10, QUICK_TRIES = 1000, ENTRY_ROOM = 4096, EVENT_ROOM = 4096, FACTS = 64 };

static size_t length_of(const char *text) { return strlen(text); }

mdb_status request_step(mdb_slot *slot, const mdb_at *at, const struct step *step, mdb_reply *reply) {
    return mdb_request(slot, at, step->number, bytes_of(step->name_text), length_of(step->name_text), reply);
}

mdb_status collect_step(mdb_slot *slot, const mdb_at *at, const struct step *step, mdb_reply *reply) { return mdb_collect(slot, at, step->number, reply); }

mdb_status give_up_step(mdb_slot *slot, const mdb_at *at, const struct step *step, mdb_reply *reply) { return mdb_give_up(slot, at, step->number, reply); }

mdb_status return_step(mdb_slot *slot, const mdb_at *at, const struct step *step, mdb_reply *reply) {
    return mdb_return(slot, at, step->number, step->used, reply);
}

mdb_status error_step(mdb_slot *slot, const mdb_at *at, const struct step *step, mdb_reply *reply) {
    return mdb_error(slot, at, step->number, bytes_of(step->text), length_of(step->text), reply);
}

mdb_status claim_step(mdb_slot *slot, const mdb_at *at, const struct step *step, mdb_reply *reply) {
    (void)step;
    return mdb_claim(slot, at, reply);
}

mdb_status established_step(mdb_slot *slot, const mdb_at *at, const struct step *step, mdb_reply *reply) {
    mdb_established_as made = { step->name.pool, step->name.id, step->wire, step->server };
    return mdb_established(slot, at, &made, bytes_of(step->text), length_of(step->text), reply);
}

mdb_status failed_step(mdb_slot *slot, const mdb_at *at, const struct step *step, mdb_reply *reply) {
    return mdb_failed(slot, at, &step->name, bytes_of(step->text), length_of(step->text), reply);
}

mdb_status maintain_step(mdb_slot *slot, const mdb_at *at, const struct step *step, mdb_reply *reply) {
    return mdb_maintain(slot, at, bytes_of(step->name_text), length_of(step->name_text), reply);
}

mdb_status expire_step(mdb_slot *slot, const mdb_at *at, const struct step *step, mdb_reply *reply) {
    return mdb_expire(slot, at, bytes_of(step->name_text), length_of(step->name_text), reply);
}

mdb_status beat_step(mdb_slot *slot, const mdb_at *at, const struct step *step, mdb_reply *reply) {
    return mdb_beat(slot, at, bytes_of(step->name_text), length_of(step->name_text), step->number, reply);
}

mdb_status beaten_step(mdb_slot *slot, const mdb_at *at, const struct step *step, mdb_reply *reply) {
    return mdb_beaten(slot, at, bytes_of(step->name_text), length_of(step->name_text), bytes_of(step->text), length_of(step->text), reply);
}

mdb_status answered_step(mdb_slot *slot, const mdb_at *at, const struct step *step, mdb_reply *reply) {
    mdb_answered answered;
    mdb_came came = { .moment = at->moment, .nanos = step->nanos, .pool = step->number, .more = step->document->more };
    const struct reply *document = step->document;
    mdb_status status = mdb_beaten_bson(slot, &came, bytes_of(step->name_text), length_of(step->name_text), document->document, document->length, &answered);
    if (status == MDB_OK) *reply = answered.reply;
    if (status == MDB_BAD_DOCUMENT) *step->bad = answered.bad;
    return status;
}

mdb_status rtt_step(mdb_slot *slot, const mdb_at *at, const struct step *step, mdb_reply *reply) {
    return mdb_rtt(slot, at, bytes_of(step->name_text), length_of(step->name_text), step->nanos, reply);
}

mdb_status want_step(mdb_slot *slot, const mdb_at *at, const struct step *step, mdb_reply *reply) { return mdb_want(slot, at, step->number, reply); }

mdb_status unwant_step(mdb_slot *slot, const mdb_at *at, const struct step *step, mdb_reply *reply) { return mdb_unwant(slot, at, step->number, reply); }

mdb_status hosts_step(mdb_slot *slot, const mdb_at *at, const struct step *step, mdb_reply *reply) {
    return mdb_hosts(slot, at, bytes_of(step->text), length_of(step->text), reply);
}

mdb_status cluster_time_step(mdb_slot *slot, const mdb_at *at, const struct step *step, mdb_reply *reply) {
    return mdb_cluster_time(slot, at, step->nanos, reply);
}

mdb_status pin_step(mdb_slot *slot, const mdb_at *at, const struct step *step, mdb_reply *reply) { return mdb_pin(slot, at, step->number, reply); }

mdb_status take_step(mdb_slot *slot, const mdb_at *at, const struct step *step, mdb_reply *reply) {
    return mdb_take(slot, at, step->number, &step->name, reply);
}

mdb_status unpin_step(mdb_slot *slot, const mdb_at *at, const struct step *step, mdb_reply *reply) { return mdb_unpin(slot, at, &step->name, reply); }

mdb_status stop_step(mdb_slot *slot, const mdb_at *at, const struct step *step, mdb_reply *reply) {
    (void)step;
    return mdb_stop(slot, at, reply);
}

void client_fail(client_t *client, mdb_net_code why) {
    if (client->failed == MDB_NET_OK) client->failed = why;
    client->stopping = client->stopped = true;
    pool_interrupt_all(client);
    monitors_close(client);
    workers_cancel(client);
    pthread_cond_broadcast(&client->changed);
    pthread_cond_broadcast(&client->jobs);
    pthread_cond_broadcast(&client->lines.some);
    pthread_cond_broadcast(&client->log.some);
    pthread_cond_signal(&client->keeping);
}

// Whether a call of libmdb that reads may be tried again: it found no memory. The lock is kept, since what it reads is of this step.
static bool again(mdb_status status, int *tries) {
    if (status != MDB_NO_MEMORY || --*tries == 0) return false;
    nanosleep(&(struct timespec){ .tv_nsec = 1000000 }, NULL);
    return true;
}

// The entry of the last step goes to who takes the log.
static void tell_entry(client_t *client) {
    size_t needed = ENTRY_ROOM;
    int tries = QUICK_TRIES;
    mdb_status status = MDB_NO_MEMORY;
    do {
        uint8_t *room = stream_room(&client->log, needed);
        if (room) status = mdb_entry_text(&client->slot, room, needed, &needed);
        else break;
    } while (status == MDB_NO_ROOM || again(status, &tries));
    if (status == MDB_OK) stream_add(&client->log, clock_now() - client->began, MDB_NET_TELLS_ENTRIES, needed);
    else client->log.lost++;
}

static void tell_event(client_t *client, size_t index) {
    char text[EVENT_ROOM];
    size_t length = 0;
    int tries = QUICK_TRIES;
    mdb_status status;
    do status = mdb_fact_text(&client->slot, index, (uint8_t *)text, sizeof text, &length);
    while (again(status, &tries));
    if (status == MDB_OK) stream_tell(&client->lines, clock_now() - client->began, MDB_NET_TELLS_EVENTS, text, length);
    else client->lines.lost++;
}

static void count_fact(mdb_net_counts *counts, const mdb_fact *fact) {
    uint64_t *const closed[] = { NULL, &counts->stale, &counts->idle, &counts->errored, &counts->dropped, &counts->pool_closed };
    if (fact->event == MDB_CONNECTION_CREATED) counts->created++;
    if (fact->event == MDB_CONNECTION_CLOSED && fact->why >= MDB_CLOSED_STALE && fact->why <= MDB_CLOSED_POOL_CLOSED) ++*closed[fact->why];
    if (fact->event == MDB_POOL_CLEARED) counts->cleared++;
    if (fact->event != MDB_CHECKED_OUT) return;
    counts->checked_out++;
    if (fact->number > counts->greatest_wait) counts->greatest_wait = fact->number;
}

static void take_fact(client_t *client, const mdb_fact *fact, size_t index) {
    if (fact->kind == MDB_FACT_POOL) count_fact(&client->counts, fact);
    monitors_fact(client, fact);
    pool_fact(client, fact);
    bool event = fact->kind == MDB_FACT_POOL || fact->kind == MDB_FACT_SDAM;
    if (event && (client->tells & MDB_NET_TELLS_EVENTS)) tell_event(client, index);
}

// One of more facts than are told at once. Answers whether there was memory.
static bool take_fact_at(client_t *client, size_t index) {
    mdb_fact fact;
    int tries = QUICK_TRIES;
    mdb_status status;
    do status = mdb_fact_at(&client->slot, index, &fact);
    while (again(status, &tries));
    if (status == MDB_OK) take_fact(client, &fact, index);
    return status == MDB_OK;
}

static void take_facts(client_t *client) {
    mdb_fact facts[FACTS];
    size_t count = 0;
    int tries = QUICK_TRIES;
    mdb_status status;
    if (client->tells & MDB_NET_TELLS_ENTRIES) tell_entry(client);
    do status = mdb_facts(&client->slot, facts, FACTS, &count);
    while (again(status, &tries));
    bool well = status == MDB_OK || status == MDB_NO_ROOM;
    for (size_t i = 0; i < count && well; i++) {
        if (status == MDB_OK) take_fact(client, &facts[i], i);
        else well = take_fact_at(client, i);
    }
    if (!well) client_fail(client, MDB_NET_NO_MEMORY);
}

void driver_show(client_t *client) {
    struct text line;
    int tries = QUICK_TRIES;
    do line = TEXT_IN(client->line);
    while (again(topology_line(&client->slot, &line), &tries));
    if (!strcmp(client->line, client->last_line)) return;
    bool told = stream_tell(&client->lines, clock_now() - client->began, MDB_NET_TELLS_TOPOLOGY, client->line, line.length);
    if (told) strcpy(client->last_line, client->line);
}

// Whoever waits for a server looks again, where libmdb told of the topology.
static void show(client_t *client) {
    uint64_t published = 0;
    int tries = QUICK_TRIES;
    while (again(mdb_published(&client->slot, &published), &tries)) {}
    if (published == client->published) return;
    client->published = published;
    if (client->tells & MDB_NET_TELLS_TOPOLOGY) driver_show(client);
    pthread_cond_broadcast(&client->changed);
}

mdb_reply driver_step(client_t *client, step_call *call, const struct step *step) {
    mdb_reply reply = { .kind = MDB_REFUSED };
    mdb_status status = MDB_NO_MEMORY;
    for (int tries = 0; tries < TRIES && status == MDB_NO_MEMORY && client->failed == MDB_NET_OK; tries++) {
        mdb_at at = { .moment = (clock_now() - client->began) / MILLISECOND };
        status = call(&client->slot, &at, step, &reply);
        if (status != MDB_NO_MEMORY) break;
        client->counts.shortages++;
        client_wait(client, &client->left, clock_now() + PAUSE * MILLISECOND);
    }
    if (status == MDB_OK) {
        take_facts(client);
        show(client);
        return reply;
    }
    if (client->failed == MDB_NET_OK && status != MDB_BAD_DOCUMENT) client_fail(client, status == MDB_NO_MEMORY ? MDB_NET_NO_MEMORY : MDB_NET_INTERNAL);
    return (mdb_reply){ .kind = MDB_REFUSED };
}

mdb_net_code driver_open(client_t *client) {
    struct text line = TEXT_IN(client->line);
    options_line(&client->options, &line);
    mdb_status status = mdb_open_line(&client->slot, 0, bytes_of(client->line), line.length);
    if (status == MDB_NO_MEMORY) return MDB_NET_NO_MEMORY;
    if (status != MDB_OK) return MDB_NET_OPTIONS;
    take_facts(client);
    show(client);
    return MDB_NET_OK;
}
