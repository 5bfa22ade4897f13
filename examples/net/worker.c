#include "worker.h"
#include "auth.h"
#include <stdlib.h>
#include <string.h>
#include <sys/eventfd.h>
#include <unistd.h>

// Waits for a connection to establish; the lock is held. Answers whether there may be one; else the worker ends.
static bool wait_for_job(struct worker *worker) {
    client_t *client = worker->client;
    uint64_t until = deadline_in(REST_MOST);
    while (!client->stopped && client->pending == 0 && clock_now() < until) client_wait(client, &client->jobs, until);
    return !client->stopped && client->pending > 0;
}

// The place of the next connection is there before a job is taken, so that nothing is missing behind that.
static bool has_spare(struct worker *worker) {
    if (!worker->spare) worker->spare = malloc(sizeof *worker->spare);
    return worker->spare != NULL;
}

// The address of the job. A worker that finds no memory for it asks again.
static mdb_status address_of_job(client_t *client, const mdb_connection *name, char address[ADDRESS_ROOM]) {
    size_t length = 0;
    mdb_status status = MDB_NO_MEMORY;
    for (int tries = 0; status == MDB_NO_MEMORY && tries < 200; tries++) {
        if (tries) client_wait(client, &client->left, clock_now() + 10 * MILLISECOND);
        status = mdb_job_address(&client->slot, name->pool, name->id, (uint8_t *)address, ADDRESS_ROOM - 1, &length);
    }
    address[status == MDB_OK ? length : 0] = 0;
    return status;
}

// Takes a job, the lock held. Answers whether there was one: another step may have closed the connection.
static bool take_job(struct worker *worker, mdb_connection *name, char address[ADDRESS_ROOM]) {
    client_t *client = worker->client;
    struct step step = { .number = 0 };
    eventfd_t nothing;
    client->pending--;
    mdb_reply reply = driver_step(client, claim_step, &step);
    if (reply.kind != MDB_JOB) return false;
    eventfd_read(worker->cancel, &nothing);
    *name = (mdb_connection){ reply.pool, reply.id };
    pooled_add(client, worker->spare, name, worker->cancel);
    worker->spare = NULL;
    mdb_status status = address_of_job(client, name, address);
    struct pooled *left = status == MDB_OK ? NULL : pooled_find(client, name);
    if (left) left->worker = -1;
    if (status == MDB_NO_MEMORY) client_fail(client, MDB_NET_NO_MEMORY);
    return status == MDB_OK;
}

static bool next_job(struct worker *worker, mdb_connection *name, char address[ADDRESS_ROOM]) {
    client_t *client = worker->client;
    bool taken = false, more = true;
    client_lock(client);
    while (!taken && (more = wait_for_job(worker))) {
        if (has_spare(worker)) taken = take_job(worker, name, address);
        else client_wait(client, &client->left, clock_now() + 10 * MILLISECOND);
    }
    client->resting--;
    if (!more) {
        client->working--;
        worker->done = true;
        pthread_cond_signal(&client->keeping);
    }
    client_unlock(client);
    return taken;
}

// The connection became ready, unless it was closed in the meantime, and then its socket is closed here.
static void established(struct worker *worker, const mdb_connection *name, struct conn *conn) {
    client_t *client = worker->client;
    const struct hello_reply *reply = &worker->shake.reply;
    struct step step = { .name = *name, .wire = reply->wire, .server = reply->server, .text = reply->service };
    struct pooled *found = pooled_find(client, name);
    if (!found) {
        sock_close(&conn->sock);
        return;
    }
    found->conn = *conn;
    found->conn.sock.cancel = -1;
    found->conn.sock.deadline = NO_DEADLINE;
    found->worker = -1;
    driver_step(client, established_step, &step);
}

// Why a connection was not made.
struct failure {
    bool greeted; // the server had answered the hello before
    struct cause cause;
    char line[ERROR_ROOM]; // the error, as a line has it
};

static void failed(struct worker *worker, const mdb_connection *name, const struct failure *failure) {
    client_t *client = worker->client;
    const char *service = worker->shake.reply.service;
    char room[ERROR_ROOM + 64];
    struct text outcome = TEXT_IN(room);
    struct step step = { .name = *name, .text = room };
    struct pooled *found = pooled_find(client, name);
    if (failure->greeted && service[0]) text_add(&outcome, "post sid=%s %s", service, failure->line);
    else text_add(&outcome, "%s %s", failure->greeted ? "post" : "pre", failure->line);
    if (!found) return;
    found->worker = -1;
    if (failure->cause.code == MDB_NET_NO_FILES || failure->cause.code == MDB_NET_NO_MEMORY) client->counts.shortages++;
    pool_blame(client, name, &failure->cause);
    driver_step(client, failed_step, &step);
}

// Proves who the client is, where it has a user.
static bool prove(struct worker *worker, struct conn *conn, struct failure *failure) {
    client_t *client = worker->client;
    struct text line = TEXT_IN(failure->line);
    struct scram_keys keys;
    if (!client->options.who.user[0]) return true;
    client_lock(client);
    keys = client->keys;
    client_unlock(client);
    struct auth_result result = auth_run(conn, &client->options.who, &keys, &line);
    client_lock(client);
    if (keys.set) client->keys = keys;
    client_unlock(client);
    explicit_bzero(&keys, sizeof keys);
    bool heard = result.code == MDB_NET_AUTH || result.code == MDB_NET_NO_FILES || result.code == MDB_NET_NO_MEMORY;
    failure->greeted = true;
    failure->cause.code = heard ? result.code : MDB_NET_NETWORK;
    failure->cause.server_code = result.server_code;
    return result.code == MDB_NET_OK;
}

// Connects, greets the server, and proves who the client is.
static bool make(struct worker *worker, struct conn *conn, const char *address, struct failure *failure) {
    client_t *client = worker->client;
    const struct options *options = &client->options;
    struct handshake *shake = &worker->shake;
    struct text line = TEXT_IN(failure->line);
    struct hello hello = {
        .load_balanced = options->load_balanced, .first = true, .legacy = !options->load_balanced, .asks = !options->load_balanced, .app = options->app
    };
    conn->sock.cancel = worker->cancel;
    conn->sock.deadline = deadline_in(options->connect);
    handshake_first(shake, conn, &hello, client->tls, address);
    handshake_end(shake);
    failure->cause.code = is_shortage(shake->fault) ? code_of_fault(shake->fault) : MDB_NET_NETWORK;
    if (!shake->ok) text_add(&line, "%s", shake->room);
    else if (options->load_balanced && !shake->reply.has_service) text_add(&line, "other msg=a load balancer that names no service");
    else return prove(worker, conn, failure);
    return false;
}

static void establish(struct worker *worker, const mdb_connection *name, const char *address) {
    client_t *client = worker->client;
    struct conn conn = CONN_CLOSED;
    struct failure failure = { .greeted = false };
    bool made = make(worker, &conn, address, &failure);
    struct text heard = TEXT_IN(failure.cause.text);
    text_add_plain(&heard, failure.line, strlen(failure.line), sizeof failure.cause.text - 1);
    if (!made) sock_close(&conn.sock);
    client_lock(client);
    if (made) established(worker, name, &conn);
    else failed(worker, name, &failure);
    client->resting++;
    client_unlock(client);
}

static void *worker_run(void *given) {
    struct worker *worker = given;
    mdb_connection name;
    char address[ADDRESS_ROOM];
    while (next_job(worker, &name, address)) establish(worker, &name, address);
    return NULL;
}

void worker_free(struct worker *worker) {
    pthread_join(worker->thread, NULL);
    close(worker->cancel);
    free(worker->spare);
    free(worker);
}

static bool start_one(client_t *client) {
    struct worker *worker = calloc(1, sizeof *worker);
    if (!worker) return false;
    worker->client = client;
    worker->cancel = eventfd(0, EFD_NONBLOCK | EFD_CLOEXEC);
    if (worker->cancel < 0 || !thread_start(&worker->thread, worker_run, worker)) {
        if (worker->cancel >= 0) close(worker->cancel);
        free(worker);
        return false;
    }
    worker->next = client->workers;
    client->workers = worker;
    client->working++;
    client->resting++;
    return true;
}

bool workers_start(client_t *client) {
    while (client->pending > client->resting && client->working < WORKERS_MOST) {
        if (start_one(client)) continue;
        client->counts.shortages++;
        return false;
    }
    return true;
}

void workers_cancel(client_t *client) {
    for (struct worker *worker = client->workers; worker; worker = worker->next) eventfd_write(worker->cancel, 1);
}

struct worker *worker_ended(client_t *client) {
    struct worker **at = &client->workers;
    while (*at && !(*at)->done) at = &(*at)->next;
    struct worker *found = *at;
    if (found) *at = found->next;
    return found;
}
