#include "monitor.h"
#include "topology.h"
#include <stdio.h>
#include <stdlib.h>
#include <string.h>
#include <sys/eventfd.h>
#include <unistd.h>

// ---- a check

// Whether the check was begun, and what it does: libmdb refuses it where the server is monitored no longer.
static bool begin_check(struct monitor *m, mdb_check *check) {
    client_t *client = m->client;
    struct step step = { .name_text = m->address, .number = m->pool };
    mdb_reply reply = { .kind = MDB_REFUSED };
    mdb_status status = MDB_NO_MEMORY;
    eventfd_t nothing;
    client_lock(client);
    while (!m->closed && status == MDB_NO_MEMORY) {
        status = mdb_check_get(&client->slot, bytes_of(m->address), strlen(m->address), check);
        if (status == MDB_NO_MEMORY) client_wait(client, &m->news, clock_now() + 10 * MILLISECOND);
    }
    if (!m->closed && status == MDB_OK) {
        eventfd_read(m->conn.sock.cancel, &nothing);
        reply = driver_step(client, beat_step, &step);
        m->checking = reply.kind != MDB_REFUSED;
    }
    client_unlock(client);
    return reply.kind != MDB_REFUSED;
}

static void run_check(struct monitor *m, const mdb_check *check) {
    struct hello hello = {
        .first = check->action == MDB_CHECK_CONNECT,
        .legacy = check->legacy,
        .asks = check->asks,
        .awaits = check->awaits,
        .most = check->most,
        .counter = check->counter,
        .app = m->client->options.app,
    };
    memcpy(hello.process, check->process, sizeof hello.process);
    m->conn.sock.deadline = deadline_in(check->timeout);
    if (hello.first) handshake_first(&m->shake, &m->conn, &hello, m->client->tls, m->address);
    else handshake_again(&m->shake, &m->conn, check->action == MDB_CHECK_READ ? NULL : &hello);
}

// The outcome of the check as libmdb reads it. What was missing here says nothing of the server: such a check counts as cancelled.
static void put_outcome(const struct handshake *shake, uint64_t nanos, struct text *outcome) {
    bool cancelled = shake->fault == NET_CANCELLED || is_shortage(shake->fault);
    text_add(outcome, "%llu %s %s", (unsigned long long)nanos, cancelled ? "cancelled" : "err", shake->room);
}

static mdb_status tell_error(struct monitor *m, uint64_t nanos, uint32_t *next) {
    struct text outcome = TEXT_IN(m->outcome);
    struct step step = { .name_text = m->name, .text = m->outcome };
    put_outcome(&m->shake, nanos, &outcome);
    mdb_status status = mdb_check_next(&m->client->slot, bytes_of(m->name), strlen(m->name), bytes_of(m->outcome), outcome.length, next);
    driver_step(m->client, beaten_step, &step);
    return status;
}

// Checks go on at once where the server answers when something changes.
static mdb_status tell_answer(struct monitor *m, uint64_t nanos, uint32_t *next) {
    mdb_check check;
    mdb_document_fault bad = { .kind = 0 };
    struct step step = { .name_text = m->address, .number = m->pool, .document = &m->shake.answer, .bad = &bad, .nanos = nanos };
    driver_step(m->client, answered_step, &step);
    if (bad.kind) {
        handshake_refuse(&m->shake, &bad);
        return tell_error(m, nanos, next);
    }
    mdb_status status = mdb_check_get(&m->client->slot, bytes_of(m->address), strlen(m->address), &check);
    if (status == MDB_OK && check.awaits) *next = MDB_NEXT_CONTINUE;
    return status;
}

// Tells libmdb how the check ended, and answers what is next, MDB_NEXT_SLEEP or another.
static uint32_t end_check(struct monitor *m, uint64_t nanos) {
    client_t *client = m->client;
    uint32_t next = MDB_NEXT_SLEEP;
    client_lock(client);
    m->checking = false;
    if (is_shortage(m->shake.fault)) {
        client->counts.shortages++;
        m->wanted = true;
    }
    if (!m->closed) {
        mdb_status status = m->shake.ok ? tell_answer(m, nanos, &next) : tell_error(m, nanos, &next);
        m->wanted = m->wanted || status == MDB_NO_MEMORY;
    }
    m->streams = next == MDB_NEXT_CONTINUE;
    pthread_cond_broadcast(&m->news);
    client_unlock(client);
    if (!m->shake.ok) sock_close(&m->conn.sock);
    handshake_end(&m->shake);
    return next;
}

// Sleeps for the time between two checks, or until a check is wanted, but not for less than the least time.
static void wait_for_check(struct monitor *m) {
    client_t *client = m->client;
    uint64_t now = clock_now(), until = now + client->options.heartbeat * MILLISECOND, least = now + LEAST_WAIT * MILLISECOND;
    client_lock(client);
    while (!m->closed && !m->wanted && client->watchers == 0 && clock_now() < until) client_wait(client, &m->news, until);
    m->wanted = false;
    while (!m->closed && clock_now() < least) client_wait(client, &m->news, least);
    client_unlock(client);
}

static void *monitor_run(void *given) {
    struct monitor *m = given;
    mdb_check check;
    while (begin_check(m, &check)) {
        uint64_t began = clock_now();
        run_check(m, &check);
        if (end_check(m, m->shake.ok ? m->shake.nanos : clock_now() - began) == MDB_NEXT_SLEEP) wait_for_check(m);
    }
    sock_close(&m->conn.sock);
    client_lock(m->client);
    m->done = true;
    pthread_cond_broadcast(&m->news);
    pthread_cond_signal(&m->client->keeping);
    client_unlock(m->client);
    return NULL;
}

// ---- their beginnings and ends

static struct monitor *monitor_of(client_t *client, uint32_t pool) { return (struct monitor *)table_find(&client->monitors, pool); }

void monitor_free(struct monitor *m) {
    if (m->started) pthread_join(m->thread, NULL);
    if (m->rtt_started) pthread_join(m->rtt_thread, NULL);
    if (m->conn.sock.cancel >= 0) close(m->conn.sock.cancel);
    if (m->rtt_conn.sock.cancel >= 0) close(m->rtt_conn.sock.cancel);
    pthread_cond_destroy(&m->news);
    free(m);
}

// A monitor without threads, NULL where memory or files are missing.
static struct monitor *monitor_new(client_t *client, const char *address, uint32_t pool) {
    struct monitor *m = calloc(1, sizeof *m);
    if (!m) return NULL;
    m->client = client;
    m->pool = pool;
    strcpy(m->address, address);
    snprintf(m->name, sizeof m->name, "%s %u", address, pool);
    m->conn = m->rtt_conn = CONN_CLOSED;
    condition_init(&m->news);
    m->conn.sock.cancel = eventfd(0, EFD_NONBLOCK | EFD_CLOEXEC);
    m->rtt_conn.sock.cancel = eventfd(0, EFD_NONBLOCK | EFD_CLOEXEC);
    if (m->conn.sock.cancel >= 0 && m->rtt_conn.sock.cancel >= 0) return m;
    monitor_free(m);
    return NULL;
}

// Starts what does not run yet. Answers whether all does.
static bool start(struct monitor *m) {
    if (!m->started) m->started = thread_start(&m->thread, monitor_run, m);
    if (m->started && !m->rtt_started) m->rtt_started = thread_start(&m->rtt_thread, rtt_run, m);
    return m->rtt_started;
}

static bool monitor_open(client_t *client, const char *address, uint32_t pool) {
    struct monitor *m = monitor_new(client, address, pool);
    if (!m) return false;
    m->next = client->every_monitor;
    client->every_monitor = m;
    table_add(&client->monitors, &m->node, pool);
    return start(m);
}

static void monitor_close(struct monitor *m) {
    if (m->closed) return;
    m->closed = true;
    table_remove(&m->client->monitors, m->node.key);
    eventfd_write(m->conn.sock.cancel, 1);
    eventfd_write(m->rtt_conn.sock.cancel, 1);
    pthread_cond_broadcast(&m->news);
}

void monitors_close(client_t *client) {
    for (struct monitor *m = client->every_monitor; m; m = m->next) monitor_close(m);
}

// Closes those whose pools are open no longer.
static bool close_others(client_t *client) {
    for (struct monitor *m = client->every_monitor; m; m = m->next) {
        uint32_t pool = 0;
        if (m->closed) continue;
        mdb_status status = mdb_open_pool(&client->slot, bytes_of(m->address), strlen(m->address), &pool);
        if (status == MDB_NO_MEMORY) return false;
        if (status != MDB_OK || pool != m->pool) monitor_close(m);
    }
    return true;
}

// Whether the server at the address has a monitor that runs, where a pool is open there.
static bool fit_one(client_t *client, const char *address) {
    uint32_t pool = 0;
    mdb_status status = mdb_open_pool(&client->slot, bytes_of(address), strlen(address), &pool);
    if (status != MDB_OK) return status != MDB_NO_MEMORY;
    struct monitor *m = monitor_of(client, pool);
    return m ? start(m) : monitor_open(client, address, pool);
}

bool monitors_fit(client_t *client) {
    char address[ADDRESS_ROOM];
    mdb_status status = MDB_OK;
    bool fit = close_others(client);
    for (size_t place = 0; fit && (status = topology_address(&client->slot, place, address)) == MDB_OK; place++) fit = fit_one(client, address);
    fit = fit && status != MDB_NO_MEMORY;
    client->counts.shortages += !fit;
    return fit;
}

void monitors_wake(client_t *client) {
    for (struct monitor *m = client->every_monitor; m; m = m->next) pthread_cond_broadcast(&m->news);
}

static void check_now(struct monitor *m) {
    m->wanted = true;
    pthread_cond_broadcast(&m->news);
}

void monitors_fact(client_t *client, const mdb_fact *fact) {
    bool closed = fact->kind == MDB_FACT_SDAM && fact->event == MDB_SDAM_SERVER_CLOSED, now = fact->kind == MDB_FACT_CHECK_NOW;
    if (client->options.load_balanced) return;
    if (closed || fact->kind == MDB_FACT_OPENED) {
        client->unfit = true;
        pthread_cond_signal(&client->keeping);
    }
    if (!now && fact->kind != MDB_FACT_CANCEL) return;
    struct monitor *m = monitor_of(client, fact->pool);
    if (m && now) check_now(m);
    if (m && !now && m->checking) eventfd_write(m->conn.sock.cancel, 1);
}

struct monitor *monitor_ended(client_t *client) {
    struct monitor **at = &client->every_monitor;
    while (*at && !((*at)->closed && (!(*at)->started || (*at)->done) && (!(*at)->rtt_started || (*at)->rtt_done))) at = &(*at)->next;
    struct monitor *found = *at;
    if (found) *at = found->next;
    return found;
}
