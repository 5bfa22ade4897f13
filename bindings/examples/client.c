// A client: callers, a worker that connects, a monitor for each server and a timer are threads over one slot, and one lock stands around it. The network is
// made up, and its three functions (`greets`, `answers`, `uses`) are where sockets come. Ends with the number of operations that were done.
#define _POSIX_C_SOURCE 200809L
#include "mdb.h"
#include <pthread.h>
#include <stdbool.h>
#include <stdio.h>
#include <stdlib.h>
#include <string.h>
#include <time.h>

enum { SERVERS = 2, CALLERS = 4, OPERATIONS = 50, HEARTBEAT = 10000, TICK = 10 };

static const char *const servers[SERVERS] = {"a:27017", "b:27017"};
static mdb_slot driver = MDB_SLOT_INIT;
static pthread_mutex_t lock = PTHREAD_MUTEX_INITIALIZER; // what is below is its
static pthread_cond_t news = PTHREAD_COND_INITIALIZER;
static bool wanted[SERVERS], stopped; // a server is to be checked at once
static uint32_t parties;              // numbers go upwards, each is used once
static unsigned done;

static uint64_t now(void) {
    struct timespec t;
    clock_gettime(CLOCK_REALTIME, &t); // a clock that never goes back is better, where condition variables know it
    return (uint64_t)t.tv_sec * 1000 + (uint64_t)t.tv_nsec / 1000000;
}

// The moment of a step: never below that of the last one.
static mdb_at at(uint32_t seat) {
    uint64_t last = 0, moment = now();
    mdb_last_moment(&driver, &last);
    return (mdb_at){.moment = moment < last ? last : moment, .seat = seat};
}

static void wait_until(uint64_t moment) {
    struct timespec t = {(time_t)(moment / 1000), (long)(moment % 1000) * 1000000};
    pthread_cond_timedwait(&news, &lock, &t);
}

static void is(mdb_status status) {
    if (status != MDB_OK) {
        fprintf(stderr, "mdb: status %u\n", (unsigned)status); // MDB_NO_MEMORY: nothing was done, and the call may be made again
        exit(1);
    }
}

static const uint8_t *text(const char *it) { return (const uint8_t *)it; }

// Deals with the facts of the step that was just made, under its lock: who waits looks again, and monitors check where they are told to.
static void deal(void) {
    mdb_fact facts[256];
    size_t count;
    if (mdb_facts(&driver, facts, 256, &count) != MDB_OK) return;
    for (size_t i = 0; i < count; i++)
        for (int s = 0; s < SERVERS && facts[i].kind == MDB_FACT_CHECK_NOW; s++) {
            uint32_t number;
            if (mdb_server_number(&driver, text(servers[s]), strlen(servers[s]), &number) == MDB_OK && number == facts[i].pool) wanted[s] = true;
        }
    pthread_cond_broadcast(&news);
}

// The network: a connection is established; a server answers a hello; an operation uses a connection.
static bool greets(const mdb_reply *job) { return job->id > 0; }

static void answers(const char *server, char *outcome, size_t room) {
    bool writes = !strcmp(server, servers[0]);
    const char *first = writes ? "isWritablePrimary=true " : "", *last = writes ? "" : "secondary=true ";
    snprintf(outcome, room, "900000 ok %shosts=a:27017,b:27017 setName=rs %sminWireVersion=0 maxWireVersion=21", first, last);
}

static bool uses(const mdb_reply *connection) { return connection->id > 0; }

// Checks a server until the driver stops.
static void *monitor(void *of) {
    int s = *(int *)of;
    char name[64], outcome[256];
    mdb_reply reply;
    mdb_check check;
    uint32_t pool, next;
    pthread_mutex_lock(&lock);
    while (!stopped && mdb_open_pool(&driver, text(servers[s]), strlen(servers[s]), &pool) == MDB_OK) {
        wanted[s] = false;
        is(mdb_check_get(&driver, text(servers[s]), strlen(servers[s]), &check)); // what to send, and how long to wait for the answer
        mdb_at begins = at(10 + (uint32_t)s);
        is(mdb_beat(&driver, &begins, text(servers[s]), strlen(servers[s]), pool, &reply));
        deal();
        pthread_mutex_unlock(&lock);
        answers(servers[s], outcome, sizeof outcome);
        pthread_mutex_lock(&lock);
        snprintf(name, sizeof name, "%s %u", servers[s], (unsigned)pool);
        if (mdb_check_next(&driver, text(name), strlen(name), text(outcome), strlen(outcome), &next) != MDB_OK) next = MDB_NEXT_SLEEP;
        mdb_at ends = at(10 + (uint32_t)s);
        is(mdb_beaten(&driver, &ends, text(name), strlen(name), text(outcome), strlen(outcome), &reply));
        deal();
        uint64_t until = now() + HEARTBEAT;
        while (next == MDB_NEXT_SLEEP && !stopped && !wanted[s] && now() < until) wait_until(until);
    }
    pthread_mutex_unlock(&lock);
    return 0;
}

// Establishes connections until the driver stops.
static void *worker(void *of) {
    (void)of;
    mdb_reply job;
    mdb_told told;
    pthread_mutex_lock(&lock);
    while (!stopped) {
        mdb_at asks = at(1);
        is(mdb_claim(&driver, &asks, &job));
        if (job.kind != MDB_JOB) {
            pthread_cond_wait(&news, &lock);
            continue;
        }
        pthread_mutex_unlock(&lock);
        bool well = greets(&job);
        pthread_mutex_lock(&lock);
        mdb_at ends = at(1);
        mdb_connection failed = {job.pool, job.id};
        mdb_established_as made = {job.pool, job.id, 21, -1};
        if (well) is(mdb_established_told(&driver, &ends, &made, 0, 0, &told));
        else is(mdb_failed(&driver, &ends, &failed, text("pre network msg=refused"), strlen("pre network msg=refused"), &job));
        deal();
    }
    pthread_mutex_unlock(&lock);
    return 0;
}

// Asks for a connection until it has one, or its request ended: then reply->kind is MDB_ENDED or MDB_REFUSED.
static uint32_t check_out(uint32_t seat, mdb_reply *reply) {
    uint32_t party = parties++;
    mdb_told told;
    mdb_at asks = at(seat);
    is(mdb_request_told(&driver, &asks, party, text(servers[0]), strlen(servers[0]), &told));
    deal();
    while (told.reply.kind == MDB_WAITING || told.reply.kind == MDB_ESTABLISHING) {
        pthread_cond_wait(&news, &lock);
        mdb_at again = at(seat);
        is(mdb_collect_told(&driver, &again, party, &told));
    }
    *reply = told.reply;
    return party;
}

static void *caller(void *of) {
    uint32_t seat = 100 + (uint32_t)*(int *)of;
    mdb_reply connection;
    mdb_told told;
    pthread_mutex_lock(&lock);
    for (int i = 0; i < OPERATIONS; i++) {
        uint32_t party = check_out(seat, &connection);
        while (connection.kind != MDB_POOLED) { // the server is not known yet, or its pool was cleared: look again after a check
            wait_until(now() + TICK);
            party = check_out(seat, &connection);
        }
        pthread_mutex_unlock(&lock);
        bool well = uses(&connection);
        pthread_mutex_lock(&lock);
        mdb_at ends = at(seat);
        is(mdb_return_told(&driver, &ends, party, well ? MDB_USE_OK : MDB_USE_ERRORED, &told));
        deal();
        done += well;
    }
    pthread_mutex_unlock(&lock);
    return 0;
}

// Lets time enter: callers that waited too long end, idle connections are closed, pools are filled.
static void *timer(void *of) {
    (void)of;
    mdb_reply reply;
    pthread_mutex_lock(&lock);
    while (!stopped) {
        for (int s = 0; s < SERVERS; s++) {
            mdb_at tick = at(2);
            is(mdb_expire(&driver, &tick, text(servers[s]), strlen(servers[s]), &reply));
            deal();
            is(mdb_maintain(&driver, &tick, text(servers[s]), strlen(servers[s]), &reply));
            deal();
        }
        wait_until(now() + TICK);
    }
    pthread_mutex_unlock(&lock);
    return 0;
}

int main(void) {
    static const char open[] = "open seeds=a:27017,b:27017 set=rs max=3 connecting=2";
    pthread_t threads[SERVERS + 2 + CALLERS];
    int numbers[CALLERS], n = 0;
    is(mdb_open_line(&driver, 0, text(open), sizeof open - 1));
    for (int i = 0; i < CALLERS; i++) numbers[i] = i;
    for (int i = 0; i < SERVERS; i++) pthread_create(&threads[n++], 0, monitor, &numbers[i]);
    pthread_create(&threads[n++], 0, worker, 0);
    pthread_create(&threads[n++], 0, timer, 0);
    for (int i = 0; i < CALLERS; i++) pthread_create(&threads[n++], 0, caller, &numbers[i]);
    while (n > SERVERS + 2) pthread_join(threads[--n], 0);
    pthread_mutex_lock(&lock);
    mdb_reply reply;
    mdb_at ends = at(0);
    is(mdb_stop(&driver, &ends, &reply));
    stopped = true;
    pthread_cond_broadcast(&news);
    pthread_mutex_unlock(&lock);
    while (n > 0) pthread_join(threads[--n], 0);
    mdb_close(&driver);
    printf("%u operations\n", done);
    return 0;
}
