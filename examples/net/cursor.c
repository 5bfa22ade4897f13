// Cursors: the batches of a command's documents, from the server that keeps them, and over its connection where that is pinned.
#include "operation.h"
#include <bson/bson.h>
#include <stdlib.h>
#include <string.h>

enum { NOT_FOUND = 43, KILL_TIME = 2000 }; // milliseconds

struct mdb_net_cursor {
    client_t *client;
    char database[65], collection[256];
    int64_t id; // 0 where it is at its end
    bool tailable, pinned;
    mdb_connection name; // that is pinned
    struct chosen server;
    struct server_session *session;
    mdb_net_command_options options;
    struct reply reply; // the batch that is given out, and the place in it
    bson_t batch;
    bson_iter_t at;
};

// Gives back what it keeps once no further batch comes.
static void settle(mdb_net_cursor *cursor) {
    if (cursor->id) return;
    if (cursor->pinned) pool_unpin(cursor->client, &cursor->name);
    cursor->pinned = false;
    struct operation operation = { .client = cursor->client, .options = cursor->options, .session = cursor->session };
    operation_leave(&operation);
    cursor->session = NULL;
}

// Takes the batch of a reply over. Answers whether it can be walked.
static bool take_batch(mdb_net_cursor *cursor, struct outcome *outcome) {
    struct cursor_reply *told = &outcome->cursor;
    bool well = told->found && told->batch && bson_init_static(&cursor->batch, told->batch, told->length) && bson_iter_init(&cursor->at, &cursor->batch);
    cursor->id = told->id;
    reply_free(&cursor->reply);
    cursor->reply = outcome->reply;
    outcome->reply = (struct reply){ .body = NULL };
    return well;
}

static mdb_net_code wrong_form(struct operation *operation) {
    struct outcome *outcome = &operation->outcome;
    outcome->err.code = MDB_NET_INTERNAL;
    say(&outcome->err, "the reply has no cursor");
    return outcome->err.code;
}

static mdb_net_cursor *cursor_new(const struct operation *operation) {
    mdb_net_cursor *cursor = calloc(1, sizeof *cursor);
    if (!cursor) return NULL;
    cursor->client = operation->client;
    strcpy(cursor->database, operation->database);
    cursor->tailable = operation->traits.tailable;
    cursor->options = operation->options;
    return cursor;
}

static mdb_net_code no_memory(mdb_net_err *err) {
    if (err) {
        *err = (mdb_net_err){ .code = MDB_NET_NO_MEMORY };
        say(err, text_of(err->code));
    }
    return MDB_NET_NO_MEMORY;
}

mdb_net_code mdb_net_cursor_open(mdb_net_client *client, const char *database, mdb_net_document command, const mdb_net_command_options *options,
                                 mdb_net_cursor **cursor, mdb_net_err *err) {
    struct operation operation;
    *cursor = NULL;
    if (operation_begin(&operation, client, database, command, options) != MDB_NET_OK) return operation_give(&operation, NULL, err);
    mdb_net_cursor *made = cursor_new(&operation);
    if (!made) return no_memory(err);
    operation.opens_cursor = true;
    mdb_net_code code = operation_run(&operation);
    made->session = operation.session;
    made->server = operation.chosen;
    made->pinned = operation.pinned;
    made->name = operation.pinned_name;
    strcpy(made->collection, operation.outcome.cursor.collection[0] ? operation.outcome.cursor.collection : operation.traits.collection);
    if (code == MDB_NET_OK && !take_batch(made, &operation.outcome)) code = wrong_form(&operation);
    if (code == MDB_NET_OK) *cursor = made;
    else mdb_net_cursor_free(made);
    if (code == MDB_NET_OK) settle(made);
    return operation_give(&operation, NULL, err);
}

// An operation of the cursor, to its server and over its connection.
static void begin(mdb_net_cursor *cursor, struct operation *operation, struct document *command) {
    document_end(command);
    operation_begin(operation, cursor->client, cursor->database, (mdb_net_document){ command->bytes, command->length }, &cursor->options);
    operation->fixed = &cursor->server;
    operation->pin = cursor->pinned ? &cursor->name : NULL;
    operation->pinned = cursor->pinned;
    operation->session = cursor->session;
}

static mdb_net_code get_more(mdb_net_cursor *cursor, mdb_net_err *err) {
    struct operation operation;
    struct document command;
    document_begin(&command);
    put_int64(&command, "getMore", cursor->id);
    put_text(&command, "collection", cursor->collection);
    if (cursor->options.batch > 0) put_int32(&command, "batchSize", cursor->options.batch);
    if (cursor->options.await) put_int64(&command, "maxTimeMS", cursor->options.await);
    begin(cursor, &operation, &command);
    mdb_net_code code = operation_run(&operation);
    bool gone = code == MDB_NET_COMMAND && operation.outcome.err.server_code == NOT_FOUND;
    bool broken = cursor->pinned && code != MDB_NET_OK && code != MDB_NET_COMMAND;
    if (gone || broken) cursor->id = 0;
    if (code == MDB_NET_OK && !take_batch(cursor, &operation.outcome)) wrong_form(&operation);
    settle(cursor);
    return operation_give(&operation, NULL, err);
}

// The document at the place, if there is one.
static bool next_of_batch(mdb_net_cursor *cursor, mdb_net_document *document) {
    uint32_t length = 0;
    if (!cursor->reply.body || !bson_iter_next(&cursor->at) || !BSON_ITER_HOLDS_DOCUMENT(&cursor->at)) return false;
    bson_iter_document(&cursor->at, &length, &document->at);
    document->length = length;
    return true;
}

mdb_net_code mdb_net_cursor_next(mdb_net_cursor *cursor, mdb_net_document *document, mdb_net_err *err) {
    *document = (mdb_net_document){ NULL, 0 };
    if (err) *err = (mdb_net_err){ .code = MDB_NET_OK };
    while (!next_of_batch(cursor, document) && cursor->id) {
        mdb_net_code code = get_more(cursor, err);
        if (code != MDB_NET_OK) return code;
        if (cursor->tailable) {
            next_of_batch(cursor, document);
            break;
        }
    }
    return MDB_NET_OK;
}

bool mdb_net_cursor_is_open(const mdb_net_cursor *cursor) { return cursor->id != 0; }

// Tells the server that nobody reads on; what it answers changes nothing here.
static void kill_cursor(mdb_net_cursor *cursor) {
    struct operation operation;
    struct document command;
    document_begin(&command);
    put_text(&command, "killCursors", cursor->collection);
    put_open_list(&command, "cursors");
    put_int64(&command, "0", cursor->id);
    put_close(&command);
    cursor->options.cancel = NULL;
    cursor->options.timeout = KILL_TIME;
    begin(cursor, &operation, &command);
    operation_run(&operation);
    reply_free(&operation.outcome.reply);
}

void mdb_net_cursor_free(mdb_net_cursor *cursor) {
    if (!cursor) return;
    if (cursor->id) kill_cursor(cursor);
    cursor->id = 0;
    settle(cursor);
    reply_free(&cursor->reply);
    free(cursor);
}
