// An operation from its beginning to its end: a server, a session, a connection, the exchange, and what libmdb is told of it.
#include "cancel.h"
#include "monitor.h"
#include "operation.h"
#include <stdio.h>
#include <stdlib.h>
#include <string.h>

enum { UUID = 4 };

void say(mdb_net_err *err, const char *text) {
    size_t length = strnlen(text, sizeof err->text - 1);
    memcpy(err->text, text, length);
    err->text[length] = 0;
}

const char *text_of(mdb_net_code code) {
    switch (code) {
    case MDB_NET_NO_MEMORY: return "no memory";
    case MDB_NET_NO_FILES: return "no more files or sockets";
    case MDB_NET_CLOSED: return "the client has been stopped";
    case MDB_NET_CANCELLED: return "cancelled";
    case MDB_NET_NO_SERVER: return "no server that the read preference allows";
    case MDB_NET_TIMED_OUT: return "timed out";
    case MDB_NET_CLEARED: return "the pool of the server is paused or closed";
    case MDB_NET_NETWORK: return "no connection could be established";
    default: return "a step was refused";
    }
}

// ---- choosing

// Wants the servers checked at once, or no longer; the lock is held. With the first one who wants it all monitors wake.
static void want(client_t *client, uint32_t watcher, bool wanted) {
    struct step step = { .number = watcher };
    uint32_t before = client->watchers;
    mdb_reply reply = driver_step(client, wanted ? want_step : unwant_step, &step);
    if (reply.kind == MDB_COUNT) client->watchers = (uint32_t)reply.number;
    if (before == 0 && client->watchers) monitors_wake(client);
}

// The read preference, and the sets of tags that a server is to have. Those of the connection string are for reads.
static uint32_t preference_of(const struct operation *operation) {
    bool read = operation->traits.kind == COMMAND_READ && !operation->options.once;
    uint32_t own = operation->options.preference;
    return own ? own : read ? operation->client->options.preference : MDB_NET_PRIMARY;
}

static const char *tags_of(const struct operation *operation) {
    bool read = operation->traits.kind == COMMAND_READ && !operation->options.once && !operation->options.preference;
    return operation->options.tags ? operation->options.tags : read ? operation->client->options.tags : "";
}

// Why there is none, as far as it is known.
static void tell_why(client_t *client, mdb_net_err *err) {
    struct text text = TEXT_IN(err->text);
    text_add(&text, "%s", text_of(MDB_NET_NO_SERVER));
    topology_why(&client->slot, &text);
}

// Waits for a server that is wanted; `avoided` is one that failed.
static mdb_net_code choose(struct operation *operation, const char *avoided) {
    client_t *client = operation->client;
    uint64_t until = operation->at_once ? 0 : deadline_in(client->options.selection);
    mdb_net_code over;
    mdb_status status = MDB_NO_ENTRY;
    uint32_t watcher = 0;
    client_lock(client);
    struct wanted wanted = {
        .preference = preference_of(operation), .tags = tags_of(operation), .avoided = avoided, .near = client->options.near, .turn = client->turn++
    };
    while (!(over = limit_over(client, &operation->limit)) && (status = topology_choose(&client->slot, &wanted, &operation->chosen)) != MDB_OK) {
        uint64_t again = status == MDB_NO_MEMORY ? clock_now() + 10 * MILLISECOND : NO_DEADLINE;
        if (clock_now() >= until) {
            over = MDB_NET_NO_SERVER;
            break;
        }
        if (!watcher) want(client, watcher = ++client->last_watcher, true);
        else client_wait(client, &client->changed, earlier(again, earlier(until, operation->limit.deadline)));
    }
    if (watcher) want(client, watcher, false);
    if (over == MDB_NET_NO_SERVER) tell_why(client, &operation->outcome.err);
    client_unlock(client);
    return over;
}

// ---- sessions

// A session, where the server keeps them and the command has none, and a number for a write that may be tried twice.
static mdb_net_code prepare(struct operation *operation) {
    client_t *client = operation->client;
    mdb_net_session *own = operation->options.session;
    const struct chosen *chosen = &operation->chosen;
    bool kept = chosen->has_sessions && !operation->traits.has_session && !operation->traits.unacknowledged;
    bool told_apart = kept && operation->traits.kind == COMMAND_WRITE && client->options.retry_writes && !operation->options.once;
    if (operation->number && (!told_apart || chosen->kind == MDB_SERVER_STANDALONE)) return MDB_NET_OPTIONS; // it cannot be tried again there
    if (!kept) return MDB_NET_OK;
    client_lock(client);
    if (!operation->session && own) operation->session = own->server;
    if (!operation->session) operation->session = session_take(client, chosen->minutes);
    if (own) own->server = operation->session;
    if (operation->session && told_apart && chosen->kind != MDB_SERVER_STANDALONE && !operation->number) operation->number = ++operation->session->number;
    client_unlock(client);
    return operation->session ? MDB_NET_OK : MDB_NET_NO_MEMORY;
}

// ---- the exchange

// The name of the command, where it can be spelled.
static const char *name_of(const struct traits *traits) { return is_name(traits->name, strlen(traits->name)) ? traits->name : "command"; }

// `dc:ny,rack:1;` as documents of a list.
static void put_tags(struct document *more, const char *sets) {
    char index[12], one[TAGS_ROOM];
    put_open_list(more, "tags");
    for (int i = 0; *sets; i++) {
        size_t length = strcspn(sets, ";");
        snprintf(one, sizeof one, "%.*s", (int)length, sets);
        snprintf(index, sizeof index, "%d", i);
        put_open(more, index);
        for (char *rest = one, *tag; *one && (tag = strsep(&rest, ","));) {
            char *value = strchr(tag, ':');
            if (value) *value++ = 0;
            put_text(more, tag, value ? value : "");
        }
        put_close(more);
        sets += length + (sets[length] == ';');
    }
    put_close(more);
}

static void put_preference(struct operation *operation, struct document *more) {
    const char *mode = operation->chosen.mode, *tags = tags_of(operation);
    bool reads = operation->traits.kind == COMMAND_READ || operation->options.preference > MDB_NET_PRIMARY || operation->fixed;
    if (!mode || !reads || operation->traits.has_preference) return;
    put_open(more, "$readPreference");
    put_text(more, "mode", mode);
    if (tags[0]) put_tags(more, tags);
    put_close(more);
}

// The concern that the connection string says, where the command says none.
static void put_concern(const struct operation *operation, struct document *more) {
    const struct concern *concern = &operation->client->options.concern;
    const struct traits *traits = &operation->traits;
    bool written = concern->w[0] || concern->journal >= 0 || concern->wait;
    if (operation->options.once || traits->has_concern) return;
    if (traits->reads && concern->level[0]) {
        put_open(more, "readConcern");
        put_text(more, "level", concern->level);
        put_close(more);
    }
    if (!traits->writes || !written) return;
    put_open(more, "writeConcern");
    if (concern->w[0] && !concern->w[strspn(concern->w, "0123456789")]) put_int32(more, "w", atoi(concern->w));
    else if (concern->w[0]) put_text(more, "w", concern->w);
    if (concern->journal >= 0) put_bool(more, "j", concern->journal);
    if (concern->wait) put_int64(more, "wtimeout", (int64_t)concern->wait);
    put_close(more);
}

static void put_session(struct operation *operation, struct document *more) {
    client_t *client = operation->client;
    uint8_t time[CLUSTER_ROOM];
    if (operation->session && !operation->traits.has_session) {
        put_open(more, "lsid");
        put_binary(more, "id", UUID, operation->session->id, SESSION_ID);
        put_close(more);
    }
    if (operation->number) put_int64(more, "txnNumber", operation->number);
    if (operation->traits.has_time || operation->chosen.kind == MDB_SERVER_STANDALONE) return;
    client_lock(client);
    size_t length = client->cluster_length;
    memcpy(time, client->cluster_document, length);
    client_unlock(client);
    if (length) put_raw(more, "$clusterTime", time, length);
}

static enum net_fault exchange(struct operation *operation, struct conn *conn) {
    struct document more;
    struct reply *reply = &operation->outcome.reply;
    document_begin(&more);
    put_preference(operation, &more);
    put_concern(operation, &more);
    put_session(operation, &more);
    put_text(&more, "$db", operation->database);
    if (more.full) return NET_NO_MEMORY;
    struct command command = { .database = operation->database, .document = operation->document, .more = more.bytes + 4, .more_length = more.length - 4 };
    uint64_t socket = operation->client->options.socket;
    conn->sock.deadline = earlier(operation->limit.deadline, deadline_in(socket));
    conn->sock.cancel = operation->limit.cancel ? operation->limit.cancel->event : -1;
    enum net_fault fault = wire_send(conn, &command);
    if (!fault) fault = wire_receive(conn, reply);
    conn->sock.cancel = -1;
    return !fault && reply->more ? NET_MALFORMED : fault;
}

// What the exchange came to; `line` is what libmdb is to be told, empty for nothing. Answers how the connection was used.
static uint32_t judge(struct operation *operation, enum net_fault fault, struct text *line) {
    struct outcome *outcome = &operation->outcome;
    outcome->err.code = code_of_fault(fault);
    if (fault && operation->session) operation->session->dirty = true;
    if (fault == NET_CANCELLED || is_shortage(fault)) return MDB_USE_DROPPED;
    if (fault) {
        error_of_fault(line, fault, name_of(&operation->traits));
        return MDB_USE_ERRORED;
    }
    struct verdict verdict = error_of_reply(line, &outcome->reply);
    outcome->err.code = verdict.code;
    outcome->err.server_code = verdict.server_code;
    outcome->labels = verdict.labels;
    outcome->cursor = verdict.cursor;
    if (verdict.time) {
        client_lock(operation->client);
        session_hear_time(operation->client, verdict.time, verdict.time_document, verdict.time_length);
        client_unlock(operation->client);
    }
    return verdict.code == MDB_NET_NETWORK ? MDB_USE_ERRORED : MDB_USE_OK;
}

static void use(struct operation *operation, struct checked_out *out) {
    char room[ERROR_ROOM] = "";
    struct text line = TEXT_IN(room);
    mdb_net_err *err = &operation->outcome.err;
    err->sent = true;
    enum net_fault fault = exchange(operation, &out->pooled->conn);
    uint32_t used = judge(operation, fault, &line);
    if (room[0] && err->code != MDB_NET_WRITES) err->changed = report(operation->client, out, room);
    bool pins = operation->opens_cursor && operation->client->options.load_balanced && operation->outcome.cursor.id && !operation->pinned;
    if (pins && pool_pin(operation->client, out)) {
        operation->pinned = true;
        operation->pinned_name = out->pooled->name;
    }
    check_in(operation->client, out, used);
    say(err, room[0] ? room : fault ? fault_text(fault) : "");
}

// ---- attempts

static void attempt(struct operation *operation, const char *avoided) {
    struct checked_out out = { .pooled = NULL };
    struct outcome *outcome = &operation->outcome;
    mdb_net_err *err = &outcome->err;
    *outcome = (struct outcome){ .err = { .code = MDB_NET_OK } };
    if (operation->fixed) operation->chosen = *operation->fixed;
    else err->code = choose(operation, avoided);
    if (err->code == MDB_NET_OK) err->code = prepare(operation);
    if (err->code == MDB_NET_OK && operation->pin) err->code = check_out_pinned(operation->client, operation->pin, &operation->limit, &out);
    else if (err->code == MDB_NET_OK) err->code = check_out(operation->client, operation->chosen.address, &operation->limit, &out);
    err->server_code = out.cause.server_code;
    if (err->code == MDB_NET_OK) use(operation, &out);
    else if (!err->text[0]) say(err, out.cause.text[0] ? out.cause.text : text_of(err->code));
}

static mdb_net_code begin(client_t *client) {
    client_lock(client);
    mdb_net_code code = client->failed ? client->failed : client->stopping ? MDB_NET_CLOSED : MDB_NET_OK;
    client->operations += code == MDB_NET_OK;
    client_unlock(client);
    return code;
}

// Answers whether the client is being stopped.
static bool end(client_t *client) {
    client_lock(client);
    if (--client->operations == 0) pthread_cond_broadcast(&client->left);
    bool stopping = client->stopping;
    client_unlock(client);
    return stopping;
}

// The second attempt goes to another server where there is one, and where it cannot be made the error of the first is told.
static void attempts(struct operation *operation) {
    struct outcome *outcome = &operation->outcome;
    char avoided[ADDRESS_ROOM];
    attempt(operation, "");
    if (!retry_is_due(operation)) return;
    struct outcome first = *outcome;
    memcpy(avoided, operation->chosen.address, sizeof avoided);
    attempt(operation, avoided);
    bool changed = first.err.changed || outcome->err.changed, sent = first.err.sent || outcome->err.sent;
    struct outcome dropped = first;
    if (outcome->err.code != MDB_NET_OK && retry_tells_first(outcome)) {
        dropped = *outcome;
        *outcome = first;
    }
    reply_free(&dropped.reply);
    outcome->err.changed = changed;
    outcome->err.sent = sent;
    outcome->err.retried = true;
}

mdb_net_code operation_run(struct operation *operation) {
    mdb_net_err *err = &operation->outcome.err;
    err->code = begin(operation->client);
    if (err->code != MDB_NET_OK) {
        say(err, text_of(err->code));
        return err->code;
    }
    attempts(operation);
    if (end(operation->client) && err->code == MDB_NET_NETWORK) err->code = MDB_NET_CLOSED;
    return err->code;
}

void operation_leave(struct operation *operation) {
    if (operation->options.session || !operation->session) return;
    client_lock(operation->client);
    session_give(operation->client, operation->session);
    client_unlock(operation->client);
    operation->session = NULL;
}

// ---- commands

static bool is_document(mdb_net_document document) {
    if (!document.at || document.length < 5 || document.length > MESSAGE_MOST - DOCUMENT_ROOM || document.at[document.length - 1] != 0) return false;
    const uint8_t *at = document.at;
    return (at[0] | (uint32_t)at[1] << 8 | (uint32_t)at[2] << 16 | (uint32_t)at[3] << 24) == document.length;
}

mdb_net_code operation_begin(struct operation *operation, client_t *client, const char *database, mdb_net_document command,
                             const mdb_net_command_options *options) {
    *operation = (struct operation){ .client = client, .database = database, .document = command };
    if (options) operation->options = *options;
    uint64_t timeout = operation->options.timeout ? operation->options.timeout : client->options.whole;
    operation->limit = (struct limit){ deadline_in(timeout), operation->options.cancel };
    const char *tags = operation->options.tags;
    bool well = is_document(command) && is_name(database, strlen(database)) && operation->options.preference <= MDB_NET_NEAREST;
    if (well && (!tags || strlen(tags) < TAGS_ROOM)) {
        struct traits traits = traits_of(command);
        bool none = traits.writes && !traits.has_concern && !operation->options.once && !strcmp(client->options.concern.w, "0");
        if (none) traits.unacknowledged = true, traits.kind = COMMAND_OTHER;
        operation->traits = traits;
        return MDB_NET_OK;
    }
    operation->outcome.err.code = MDB_NET_OPTIONS;
    say(&operation->outcome.err, "the command is no document, its database has no name, or its read preference is none");
    return MDB_NET_OPTIONS;
}

mdb_net_code operation_give(struct operation *operation, mdb_net_reply *reply, mdb_net_err *err) {
    struct outcome *outcome = &operation->outcome;
    mdb_net_code code = outcome->err.code;
    bool told = code == MDB_NET_OK || code == MDB_NET_COMMAND || code == MDB_NET_CONCERN || code == MDB_NET_WRITES;
    if (reply) *reply = (mdb_net_reply){ .body = NULL };
    if (reply && told) *reply = (mdb_net_reply){ { outcome->reply.document, outcome->reply.length }, outcome->reply.body };
    else reply_free(&outcome->reply);
    if (err) *err = outcome->err;
    return code;
}

mdb_net_code mdb_net_command(mdb_net_client *client, const char *database, mdb_net_document command, const mdb_net_command_options *options,
                             mdb_net_reply *reply, mdb_net_err *err) {
    struct operation operation;
    if (operation_begin(&operation, client, database, command, options) == MDB_NET_OK) operation_run(&operation);
    operation_leave(&operation);
    return operation_give(&operation, reply, err);
}

void mdb_net_reply_free(mdb_net_reply *reply) {
    free(reply->body);
    *reply = (mdb_net_reply){ .body = NULL };
}
