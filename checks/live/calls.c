// For checks/live/mended.py: makes the calls of mdb_net.h that its standard input asks for, on one client for each connection string of the command line.
//
//   run CLIENT COMMAND [timeout=MS] [cancel=MS] [stop=MS] [any] [once] [tags=SETS]   runs {COMMAND: "things"}; cancelled, or its client stopped, after so many ms
//   fill CLIENT COUNT                                                 inserts as many documents into `things`, each by a command, all of one session
//   walk CLIENT BATCH MOST                                            reads at most so many of them by a cursor; `reply` is how many there were
//   stop CLIENT THREADS                                               as many threads stop the client at once
//   open URI                                                          a client is opened and freed
//
// Where MDB_LOG names a file the entries of the first client go there at its end. Each line is answered by one: `CODE sent=0 changed=0 retried=0 server=0 ms=N reply=BYTES TEXT`.
#include <bson/bson.h>
#include <mdb_net.h>
#include <pthread.h>
#include <stdio.h>
#include <stdlib.h>
#include <string.h>
#include <time.h>

enum { CLIENTS = 8, STOPS = 16 };

static mdb_net_client *clients[CLIENTS];

// What another thread does to a command that runs.
struct meanwhile {
    mdb_net_cancel *cancel;
    mdb_net_client *stopped;
    unsigned long after;
};

static unsigned long milliseconds(void) {
    struct timespec now;
    clock_gettime(CLOCK_MONOTONIC, &now);
    return (unsigned long)now.tv_sec * 1000 + (unsigned long)now.tv_nsec / 1000000;
}

static void *meddle(void *given) {
    struct meanwhile *meanwhile = given;
    nanosleep(&(struct timespec){ (time_t)(meanwhile->after / 1000), (long)(meanwhile->after % 1000) * 1000000 }, NULL);
    if (meanwhile->cancel) mdb_net_cancel_now(meanwhile->cancel);
    if (meanwhile->stopped) mdb_net_stop(meanwhile->stopped);
    return NULL;
}

static void tell(const mdb_net_err *err, unsigned long took, size_t length) {
    printf("%d sent=%d changed=%d retried=%d server=%d ms=%lu reply=%zu %s\n", err->code, err->sent, err->changed, err->retried, err->server_code, took, length,
           err->text);
}

static void run(mdb_net_client *client, const char *name, char *words) {
    mdb_net_command_options options = { 0 };
    struct meanwhile meanwhile = { .after = 0 };
    for (char *word = strtok(words, " "); word; word = strtok(NULL, " ")) {
        const char *value = strchr(word, '=') ? strchr(word, '=') + 1 : "";
        if (!strncmp(word, "timeout=", 8)) options.timeout = strtoul(value, NULL, 10);
        if (!strncmp(word, "cancel=", 7) || !strncmp(word, "stop=", 5)) meanwhile.after = strtoul(value, NULL, 10);
        if (!strncmp(word, "cancel=", 7) && mdb_net_cancel_new(client, &meanwhile.cancel) != MDB_NET_OK) abort();
        if (!strncmp(word, "stop=", 5)) meanwhile.stopped = client;
        if (!strcmp(word, "any")) options.preference = MDB_NET_NEAREST;
        if (!strcmp(word, "once")) options.once = true;
        if (!strncmp(word, "tags=", 5)) options.tags = value;
    }
    options.cancel = meanwhile.cancel;
    pthread_t thread;
    bson_t command = BSON_INITIALIZER;
    mdb_net_reply reply;
    mdb_net_err err;
    bson_append_utf8(&command, name, -1, "things", -1);
    if (meanwhile.after && pthread_create(&thread, NULL, meddle, &meanwhile)) abort();
    unsigned long began = milliseconds();
    mdb_net_command(client, "test", (mdb_net_document){ bson_get_data(&command), command.len }, &options, &reply, &err);
    tell(&err, milliseconds() - began, reply.document.length);
    if (meanwhile.after) pthread_join(thread, NULL);
    mdb_net_cancel_free(meanwhile.cancel);
    mdb_net_reply_free(&reply);
    bson_destroy(&command);
}

// The whole of a command, as what it is.
static mdb_net_document whole(const bson_t *command) { return (mdb_net_document){ bson_get_data(command), command->len }; }

static void fill(mdb_net_client *client, int count) {
    mdb_net_session *session;
    mdb_net_err err = { .code = mdb_net_session_new(client, &session) };
    unsigned long began = milliseconds();
    int done = 0;
    for (; done < count && err.code == MDB_NET_OK; done++) {
        bson_t *command = BCON_NEW("insert", "things", "documents", "[", "{", "_id", BCON_INT32(done), "}", "]");
        mdb_net_command(client, "test", whole(command), &(mdb_net_command_options){ .session = session }, NULL, &err);
        bson_destroy(command);
    }
    mdb_net_session_free(session);
    tell(&err, milliseconds() - began, (size_t)done);
}

static void walk(mdb_net_client *client, int batch, int most) {
    mdb_net_cursor *cursor;
    mdb_net_document document;
    mdb_net_err err;
    unsigned long began = milliseconds();
    int count = 0;
    bson_t *command = BCON_NEW("find", "things", "filter", "{", "}", "batchSize", BCON_INT32(batch));
    mdb_net_cursor_open(client, "test", whole(command), &(mdb_net_command_options){ .batch = batch, .timeout = 3000 }, &cursor, &err);
    bson_destroy(command);
    while (cursor && count < most && mdb_net_cursor_next(cursor, &document, &err) == MDB_NET_OK && document.at) count++;
    mdb_net_cursor_free(cursor);
    tell(&err, milliseconds() - began, (size_t)count);
}

static void *stop(void *client) {
    mdb_net_stop(client);
    return NULL;
}

static void stop_at_once(mdb_net_client *client, int count) {
    pthread_t threads[STOPS];
    mdb_net_err err = { .code = MDB_NET_OK };
    unsigned long began = milliseconds();
    for (int i = 0; i < count && i < STOPS; i++) {
        if (pthread_create(&threads[i], NULL, stop, client)) abort();
    }
    for (int i = 0; i < count && i < STOPS; i++) pthread_join(threads[i], NULL);
    tell(&err, milliseconds() - began, 0);
}

static void open_and_free(const char *uri) {
    mdb_net_client *client;
    mdb_net_err err;
    unsigned long began = milliseconds();
    mdb_net_open(uri, NULL, &client, &err);
    mdb_net_free(client);
    tell(&err, milliseconds() - began, 0);
}

// Writes the log of a client that has been stopped.
static void write_log(mdb_net_client *client, FILE *file) {
    mdb_net_batch batch;
    mdb_net_notice notice;
    mdb_net_stop(client);
    while (mdb_net_take(client, MDB_NET_LOG, 0, &batch) == MDB_NET_OK) {
        while (mdb_net_next(&batch, &notice)) fwrite(notice.text, 1, notice.length, file);
    }
    fclose(file);
}

int main(int count, char **words) {
    char line[512], name[64];
    mdb_net_err err;
    FILE *log = getenv("MDB_LOG") ? fopen(getenv("MDB_LOG"), "w") : NULL;
    const mdb_net_options options = { .tells = log ? MDB_NET_TELLS_ENTRIES : 0 };
    setvbuf(stdout, NULL, _IOLBF, 0);
    for (int i = 1; i < count && i <= CLIENTS; i++) {
        if (mdb_net_open(words[i], &options, &clients[i - 1], &err) != MDB_NET_OK) return fprintf(stderr, "%s\n", err.text), 1;
    }
    while (fgets(line, sizeof line, stdin)) {
        int client = 0, used = 0, threads = 0, batch = 0;
        line[strcspn(line, "\n")] = 0;
        if (!strncmp(line, "open ", 5)) open_and_free(line + 5);
        else if (sscanf(line, "stop %d %d", &client, &threads) == 2 && client < count - 1) stop_at_once(clients[client], threads);
        else if (sscanf(line, "fill %d %d", &client, &threads) == 2 && client < count - 1) fill(clients[client], threads);
        else if (sscanf(line, "walk %d %d %d", &client, &batch, &threads) == 3 && client < count - 1) walk(clients[client], batch, threads);
        else if (sscanf(line, "run %d %63s%n", &client, name, &used) == 2 && client < count - 1) run(clients[client], name, line + used);
    }
    if (log) write_log(clients[0], log);
    for (int i = 0; i < CLIENTS; i++) mdb_net_free(clients[i]);
    return 0;
}
