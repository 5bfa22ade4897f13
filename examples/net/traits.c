#include "traits.h"
#include <bson/bson.h>
#include <string.h>

// What is found on the way that keeps a command from being tried twice.
struct walk {
    struct traits *traits;
    bool many;        // a statement changes more than one document
    bool writes_out;  // the pipeline ends with a stage that writes
    bool transaction; // it is part of one
};

static bool is_one_of(const char *name, const char *const *names) {
    while (*names && strcmp(*names, name)) names++;
    return *names != NULL;
}

static enum command_kind kind_of(const char *name) {
    static const char *const reads[] = { "find", "aggregate", "distinct", "count", "listDatabases", "listCollections", "listIndexes", NULL };
    static const char *const writes[] = { "insert", "update", "delete", "findAndModify", "findandmodify", "bulkWrite", NULL };
    if (is_one_of(name, reads)) return COMMAND_READ;
    return is_one_of(name, writes) ? COMMAND_WRITE : COMMAND_OTHER;
}

static bool is_number(const bson_iter_t *at) { return BSON_ITER_HOLDS_INT32(at) || BSON_ITER_HOLDS_INT64(at) || BSON_ITER_HOLDS_DOUBLE(at); }

// Whether one of the statements says that it changes more than one document: an update by `multi`, a delete by a limit that is not 1.
static bool has_many(const bson_iter_t *list) {
    bson_iter_t item, field;
    if (!BSON_ITER_HOLDS_ARRAY(list) || !bson_iter_recurse(list, &item)) return true;
    while (bson_iter_next(&item)) {
        if (!BSON_ITER_HOLDS_DOCUMENT(&item) || !bson_iter_recurse(&item, &field)) return true;
        while (bson_iter_next(&field)) {
            const char *key = bson_iter_key(&field);
            if (!strcmp(key, "multi") && bson_iter_as_bool(&field)) return true;
            if (!strcmp(key, "limit") && bson_iter_as_int64(&field) != 1) return true;
        }
    }
    return false;
}

static void read_pipeline(struct walk *walk, const bson_iter_t *list) {
    bson_iter_t stage, field;
    bool first = true;
    if (!BSON_ITER_HOLDS_ARRAY(list) || !bson_iter_recurse(list, &stage)) return;
    for (; bson_iter_next(&stage); first = false) {
        if (!BSON_ITER_HOLDS_DOCUMENT(&stage) || !bson_iter_recurse(&stage, &field) || !bson_iter_next(&field)) continue;
        const char *key = bson_iter_key(&field);
        walk->writes_out = !strcmp(key, "$out") || !strcmp(key, "$merge");
        if (first && !strcmp(key, "$changeStream")) walk->traits->tailable = true;
    }
}

static bool is_zero(const bson_iter_t *concern) {
    bson_iter_t w;
    if (!BSON_ITER_HOLDS_DOCUMENT(concern) || !bson_iter_recurse(concern, &w) || !bson_iter_find(&w, "w")) return false;
    return is_number(&w) && bson_iter_as_int64(&w) == 0;
}

static void read_field(struct walk *walk, const bson_iter_t *at) {
    struct traits *traits = walk->traits;
    const char *key = bson_iter_key(at);
    if (!strcmp(key, "lsid")) traits->has_session = true;
    else if (!strcmp(key, "txnNumber")) traits->has_number = true;
    else if (!strcmp(key, "$readPreference")) traits->has_preference = true;
    else if (!strcmp(key, "$clusterTime")) traits->has_time = true;
    else if (!strcmp(key, "autocommit")) walk->transaction = true;
    else if (!strcmp(key, "readConcern")) traits->has_concern = true;
    else if (!strcmp(key, "writeConcern")) traits->has_concern = true, traits->unacknowledged = is_zero(at);
    else if (!strcmp(key, "tailable")) traits->tailable = bson_iter_as_bool(at);
    else if (!strcmp(key, "updates") || !strcmp(key, "deletes") || !strcmp(key, "ops")) walk->many = walk->many || has_many(at);
    else if (!strcmp(key, "pipeline")) read_pipeline(walk, at);
}

// The name of the command, and the text behind it.
static void read_name(struct traits *traits, const bson_iter_t *first) {
    uint32_t length = 0;
    const char *name = bson_iter_key(first), *text = BSON_ITER_HOLDS_UTF8(first) ? bson_iter_utf8(first, &length) : "";
    if (strlen(name) < sizeof traits->name) strcpy(traits->name, name);
    if (length < sizeof traits->collection && strlen(text) == length) strcpy(traits->collection, text);
    traits->kind = kind_of(name);
}

struct traits traits_of(mdb_net_document document) {
    struct traits traits = { .kind = COMMAND_OTHER };
    struct walk walk = { .traits = &traits };
    bson_t whole;
    bson_iter_t at;
    if (!bson_init_static(&whole, document.at, document.length) || !bson_iter_init(&at, &whole)) return traits;
    if (!bson_iter_next(&at)) return traits;
    read_name(&traits, &at);
    while (bson_iter_next(&at)) read_field(&walk, &at);
    traits.reads = traits.kind == COMMAND_READ && !walk.transaction && !walk.writes_out && strncmp(traits.name, "list", 4) != 0;
    traits.writes = (traits.kind == COMMAND_WRITE || walk.writes_out) && !walk.transaction;
    bool written = traits.kind == COMMAND_WRITE && (walk.many || traits.unacknowledged);
    bool once = at.err_off != 0 || walk.transaction || walk.writes_out || traits.has_number || written;
    if (once) traits.kind = COMMAND_OTHER;
    return traits;
}
