#include "hello.h"
#include <bson/bson.h>
#include <mdb.h>
#include <string.h>

static void put_client(struct document *document, const char *app) {
    put_open(document, "client");
    if (app && *app) {
        put_open(document, "application");
        put_text(document, "name", app);
        put_close(document);
    }
    put_open(document, "driver");
    put_text(document, "name", "mdb_net");
    put_text(document, "version", MDB_VERSION);
    put_close(document);
    put_open(document, "os");
    put_text(document, "type", "Linux");
    put_close(document);
    put_close(document);
}

void hello_command(struct document *document, const struct hello *hello, bool as_message) {
    document_begin(document);
    put_int32(document, hello->legacy ? "isMaster" : "hello", 1);
    if (hello->asks) put_bool(document, "helloOk", true);
    put_text(document, "backpressure", "2");
    if (hello->awaits) {
        put_open(document, "topologyVersion");
        put_id(document, "processId", hello->process);
        put_int64(document, "counter", hello->counter);
        put_close(document);
        put_int64(document, "maxAwaitTimeMS", (int64_t)hello->most);
    }
    if (hello->load_balanced && hello->first) put_bool(document, "loadBalanced", true);
    if (hello->first) put_client(document, hello->app);
    if (as_message) put_text(document, "$db", "admin");
    document_end(document);
}

// A field of another type is as one that is absent.
static void read_field(struct hello_reply *read, const bson_iter_t *at) {
    const char *name = bson_iter_key(at);
    bool whole = BSON_ITER_HOLDS_INT32(at) || BSON_ITER_HOLDS_INT64(at);
    int64_t number = whole ? bson_iter_as_int64(at) : -1;
    if (!strcmp(name, "helloOk")) read->hello_known = BSON_ITER_HOLDS_BOOL(at) && bson_iter_bool(at);
    if (!strcmp(name, "maxWireVersion") && number >= 0 && number <= INT32_MAX) read->wire = (int32_t)number;
    if (!strcmp(name, "connectionId")) read->server = number;
    if (strcmp(name, "serviceId") || !BSON_ITER_HOLDS_OID(at)) return;
    bson_oid_to_string(bson_iter_oid(at), read->service);
    read->has_service = true;
}

void hello_read(const struct reply *reply, struct hello_reply *read) {
    bson_t document;
    bson_iter_t at;
    *read = (struct hello_reply){ .server = -1 };
    if (!bson_init_static(&document, reply->document, reply->length) || !bson_iter_init(&at, &document)) return;
    while (bson_iter_next(&at)) read_field(read, &at);
}
