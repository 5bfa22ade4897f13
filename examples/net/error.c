#include "error.h"
#include <bson/bson.h>
#include <string.h>

enum { MESSAGE_BYTES = 200, LABELS_MOST = 8 };

void error_of_fault(struct text *line, enum net_fault fault, const char *doing) {
    const char *label = is_shortage(fault) ? " labels=SystemOverloadedError" : "";
    text_add(line, "%s%s msg=%s: %s", fault == NET_TIMED_OUT ? "timeout" : "network", label, doing, fault_text(fault));
}

void error_of_form(struct text *line, const char *what) { text_add(line, "other msg=bad reply to a hello: %s", what); }

void error_of_tls(struct text *line, const char *why) {
    text_add(line, "network msg=TLS: ");
    if (why) text_add_plain(line, why, strlen(why), MESSAGE_BYTES);
    else text_add(line, "%s", fault_text(NET_NO_TLS));
}

mdb_net_code code_of_fault(enum net_fault fault) {
    switch (fault) {
    case NET_FINE: return MDB_NET_OK;
    case NET_TIMED_OUT: return MDB_NET_TIMED_OUT;
    case NET_CANCELLED: return MDB_NET_CANCELLED;
    case NET_NO_FILES: return MDB_NET_NO_FILES;
    case NET_NO_MEMORY: return MDB_NET_NO_MEMORY;
    default: return MDB_NET_NETWORK;
    }
}

bool is_state_change(int32_t code) {
    static const int32_t codes[] = { 91, 189, 10058, 10107, 11600, 11602, 13435, 13436 };
    for (size_t i = 0; i < sizeof codes / sizeof *codes; i++) {
        if (codes[i] == code) return true;
    }
    return false;
}

// What is read of a reply that may tell an error.
struct findings {
    bson_iter_t code, message, labels, version;
    bool fine, has_code, has_message, has_labels, has_version;
    mdb_net_code kind;
};

static bool is_number(const bson_iter_t *at) {
    return BSON_ITER_HOLDS_INT32(at) || BSON_ITER_HOLDS_INT64(at) || BSON_ITER_HOLDS_DOUBLE(at) || BSON_ITER_HOLDS_BOOL(at);
}

static double number_of(const bson_iter_t *at) { return BSON_ITER_HOLDS_DOUBLE(at) ? bson_iter_double(at) : (double)bson_iter_as_int64(at); }

static void find_one(struct findings *found, const bson_iter_t *at) {
    const char *key = bson_iter_key(at);
    if (!strcmp(key, "ok") && is_number(at)) found->fine = number_of(at) == 1;
    if (!strcmp(key, "code") && is_number(at)) found->code = *at, found->has_code = true;
    if (!strcmp(key, "errmsg") && BSON_ITER_HOLDS_UTF8(at)) found->message = *at, found->has_message = true;
    if (!strcmp(key, "errorLabels") && BSON_ITER_HOLDS_ARRAY(at)) found->labels = *at, found->has_labels = true;
    if (!strcmp(key, "topologyVersion") && BSON_ITER_HOLDS_DOCUMENT(at)) found->version = *at, found->has_version = true;
}

static void find_inner(struct findings *found, const bson_iter_t *at, mdb_net_code kind) {
    bson_iter_t inner;
    if (!BSON_ITER_HOLDS_DOCUMENT(at) || !bson_iter_recurse(at, &inner)) return;
    found->kind = kind;
    while (bson_iter_next(&inner)) {
        if (strcmp(bson_iter_key(&inner), "ok")) find_one(found, &inner);
    }
}

static void read_time(struct verdict *told, const bson_iter_t *at) {
    bson_iter_t inner;
    uint32_t seconds = 0, count = 0;
    if (!BSON_ITER_HOLDS_DOCUMENT(at) || !bson_iter_recurse(at, &inner) || !bson_iter_find(&inner, "clusterTime") || !BSON_ITER_HOLDS_TIMESTAMP(&inner)) return;
    bson_iter_timestamp(&inner, &seconds, &count);
    bson_iter_document(at, &told->time_length, &told->time_document);
    told->time = (uint64_t)seconds << 32 | count;
}

static void read_cursor(struct cursor_reply *cursor, const bson_iter_t *at) {
    bson_iter_t inner;
    if (!BSON_ITER_HOLDS_DOCUMENT(at) || !bson_iter_recurse(at, &inner)) return;
    while (bson_iter_next(&inner)) {
        const char *key = bson_iter_key(&inner);
        bool batch = (!strcmp(key, "firstBatch") || !strcmp(key, "nextBatch")) && BSON_ITER_HOLDS_ARRAY(&inner);
        if (!strcmp(key, "id") && BSON_ITER_HOLDS_INT64(&inner)) cursor->id = bson_iter_int64(&inner), cursor->found = true;
        if (batch) bson_iter_array(&inner, &cursor->length, &cursor->batch);
        if (strcmp(key, "ns") || !BSON_ITER_HOLDS_UTF8(&inner)) continue;
        const char *space = bson_iter_utf8(&inner, NULL), *name = strchr(space, '.');
        if (name && strlen(name + 1) < sizeof cursor->collection) strcpy(cursor->collection, name + 1);
    }
}

// Errors of write concern are errors of the command too: they may tell that the server is no longer the primary. Those of single writes are not.
static void find_parts(struct findings *found, const bson_iter_t *at) {
    bson_iter_t first;
    if (!strcmp(bson_iter_key(at), "writeConcernError")) find_inner(found, at, MDB_NET_CONCERN);
    if (strcmp(bson_iter_key(at), "writeErrors") || found->kind || !BSON_ITER_HOLDS_ARRAY(at)) return;
    if (bson_iter_recurse(at, &first) && bson_iter_next(&first)) find_inner(found, &first, MDB_NET_WRITES);
}

static uint32_t label_of(const char *label) {
    if (!strcmp(label, "RetryableWriteError")) return LABEL_RETRYABLE_WRITE;
    return strcmp(label, "NoWritesPerformed") ? 0 : LABEL_NO_WRITES;
}

// Answers which of them mean something here.
static uint32_t put_labels(struct text *line, const bson_iter_t *labels) {
    bson_iter_t item;
    uint32_t known = 0;
    int count = 0;
    if (!bson_iter_recurse(labels, &item)) return 0;
    while (count < LABELS_MOST && bson_iter_next(&item)) {
        uint32_t length = 0;
        const char *label = BSON_ITER_HOLDS_UTF8(&item) ? bson_iter_utf8(&item, &length) : "";
        if (!is_name(label, length)) continue;
        text_add(line, "%s%s", count++ ? "," : " labels=", label);
        known |= label_of(label);
    }
    return known;
}

static void put_version(struct text *line, const bson_iter_t *version) {
    bson_iter_t process, counter;
    char digits[25];
    if (!bson_iter_recurse(version, &process) || !bson_iter_find(&process, "processId") || !BSON_ITER_HOLDS_OID(&process)) return;
    if (!bson_iter_recurse(version, &counter) || !bson_iter_find(&counter, "counter")) return;
    if ((!BSON_ITER_HOLDS_INT64(&counter) && !BSON_ITER_HOLDS_INT32(&counter)) || bson_iter_as_int64(&counter) < 0) return;
    bson_oid_to_string(bson_iter_oid(&process), digits);
    text_add(line, " tv=%s.%lld", digits, (long long)bson_iter_as_int64(&counter));
}

static void put_message(struct text *line, const struct findings *found) {
    uint32_t length = 0;
    const char *message = found->has_message ? bson_iter_utf8(&found->message, &length) : "";
    text_add(line, " msg=");
    text_add_plain(line, message, length, MESSAGE_BYTES);
}

static void spell(struct text *line, const struct findings *found, struct verdict *verdict) {
    verdict->code = found->kind;
    double code = found->has_code ? number_of(&found->code) : -1;
    if (code >= 0 && code <= INT32_MAX && code == (int32_t)code) text_add(line, "command.%d", verdict->server_code = (int32_t)code);
    else text_add(line, "other");
    if (found->has_labels) verdict->labels = put_labels(line, &found->labels);
    if (found->has_version) put_version(line, &found->version);
    put_message(line, found);
}

struct verdict error_of_reply(struct text *line, const struct reply *reply) {
    bson_t document;
    bson_iter_t at;
    struct findings found = { .fine = false };
    struct verdict told = { .code = MDB_NET_OK };
    bool well = bson_init_static(&document, reply->document, reply->length) && bson_iter_init(&at, &document);
    while (well && bson_iter_next(&at)) {
        const char *key = bson_iter_key(&at);
        find_one(&found, &at);
        find_parts(&found, &at);
        if (!strcmp(key, "$clusterTime")) read_time(&told, &at);
        if (!strcmp(key, "cursor")) read_cursor(&told.cursor, &at);
    }
    if (!well || at.err_off) {
        error_of_fault(line, NET_MALFORMED, "reply");
        return (struct verdict){ .code = MDB_NET_NETWORK };
    }
    if (!found.fine) found.kind = MDB_NET_COMMAND;
    if (found.kind) spell(line, &found, &told);
    return told;
}
