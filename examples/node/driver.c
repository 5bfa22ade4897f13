// A driver of libmdb for Node, by Node-API: new Driver(line), step(line), entry(), close(). driver.js says what they answer.
#include "mdb.h"
#include <node_api.h>
#include <stdbool.h>
#include <stdlib.h>

// No line of the grammar is as long.
enum { LINE = 1 << 17 };

static napi_value fail(napi_env env, const char *code, const char *message) {
    napi_throw_error(env, code, message);
    return NULL;
}

static napi_value refuse(napi_env env, mdb_status status) {
    switch (status) {
    case MDB_NO_MEMORY: return fail(env, "ENOMEM", "out of memory");
    case MDB_MALFORMED: return fail(env, "EINVAL", "the line is malformed");
    case MDB_CLOSED: return fail(env, "ECLOSED", "the driver is closed");
    case MDB_UNSPELLED: return fail(env, "EUNSPELLED", "no line can spell the last step");
    default: return fail(env, "EMDB", "the library answered another status");
    }
}

static void set(napi_env env, napi_value object, const char *name, double number) {
    napi_value value;
    napi_create_double(env, number, &value);
    napi_set_named_property(env, object, name, value);
}

static void finalize(napi_env env, void *slot, void *hint) {
    (void)env, (void)hint;
    mdb_close(slot);
    free(slot);
}

// What a method was called on, and the line that it was given, if `line` is not NULL: false where there is none that fits.
static bool called(napi_env env, napi_callback_info info, napi_value *self, char *line, size_t *length) {
    size_t count = 1;
    napi_value argument;
    if (napi_get_cb_info(env, info, &count, &argument, self, NULL) != napi_ok) return false;
    if (line == NULL) return true;
    if (count == 1 && napi_get_value_string_utf8(env, argument, line, LINE, length) == napi_ok && *length < LINE - 1) return true;
    fail(env, "EINVAL", "a line is wanted");
    return false;
}

// The driver that a method was called on.
static mdb_slot *driver_of(napi_env env, napi_value self) {
    void *slot = NULL;
    if (napi_unwrap(env, self, &slot) != napi_ok) fail(env, "EINVAL", "this is no driver");
    return slot;
}

static napi_value open_driver(napi_env env, napi_callback_info info) {
    char line[LINE];
    size_t length;
    napi_value self;
    if (!called(env, info, &self, line, &length)) return NULL;
    mdb_slot *slot = calloc(1, sizeof *slot);
    if (slot == NULL) return refuse(env, MDB_NO_MEMORY);
    mdb_status status = mdb_open_line(slot, 0, (const uint8_t *)line, length);
    if (status != MDB_OK) {
        free(slot);
        return refuse(env, status);
    }
    if (napi_wrap(env, self, slot, finalize, NULL, NULL) != napi_ok) finalize(env, slot, NULL);
    return self;
}

static napi_value fact_of(napi_env env, const mdb_fact *fact) {
    napi_value it;
    napi_create_object(env, &it);
    set(env, it, "kind", fact->kind);
    set(env, it, "event", fact->event);
    set(env, it, "pool", fact->pool);
    set(env, it, "id", fact->id);
    set(env, it, "party", fact->party);
    set(env, it, "why", fact->why);
    set(env, it, "number", (double)fact->number);
    return it;
}

// All facts of the last step, also where there are more than the step itself tells.
static mdb_status facts_of(napi_env env, mdb_slot *slot, const mdb_told *told, napi_value list) {
    mdb_fact *all = NULL;
    const mdb_fact *facts = told->facts;
    if (told->count > MDB_TOLD_FACTS) {
        size_t count;
        if ((all = calloc(told->count, sizeof *all)) == NULL) return MDB_NO_MEMORY;
        mdb_status status = mdb_facts(slot, all, told->count, &count);
        if (status != MDB_OK) return free(all), status;
        facts = all;
    }
    for (size_t i = 0; i < told->count; i++) napi_set_element(env, list, (uint32_t)i, fact_of(env, &facts[i]));
    free(all);
    return MDB_OK;
}

static napi_value step(napi_env env, napi_callback_info info) {
    char line[LINE];
    size_t length;
    napi_value self, answer, facts;
    mdb_told told;
    mdb_slot *slot = called(env, info, &self, line, &length) ? driver_of(env, self) : NULL;
    if (slot == NULL) return NULL;
    mdb_status status = mdb_line_told(slot, 0, (const uint8_t *)line, length, &told);
    if (status != MDB_OK) return refuse(env, status);
    napi_create_object(env, &answer);
    set(env, answer, "kind", told.reply.kind);
    set(env, answer, "pool", told.reply.pool);
    set(env, answer, "id", told.reply.id);
    set(env, answer, "why", told.reply.why);
    set(env, answer, "number", (double)told.reply.number);
    napi_create_array(env, &facts);
    if ((status = facts_of(env, slot, &told, facts)) != MDB_OK) return refuse(env, status);
    napi_set_named_property(env, answer, "facts", facts);
    return answer;
}

static napi_value entry(napi_env env, napi_callback_info info) {
    size_t length;
    napi_value self, answer = NULL;
    mdb_slot *slot = called(env, info, &self, NULL, NULL) ? driver_of(env, self) : NULL;
    if (slot == NULL) return NULL;
    mdb_status status = mdb_entry_text(slot, (uint8_t *)"", 0, &length);
    if (status != MDB_NO_ROOM) return refuse(env, status);
    char *text = malloc(length);
    status = text == NULL ? MDB_NO_MEMORY : mdb_entry_text(slot, (uint8_t *)text, length, &length);
    if (status == MDB_OK) napi_create_string_latin1(env, text, length, &answer);
    free(text);
    return status == MDB_OK ? answer : refuse(env, status);
}

static napi_value close_driver(napi_env env, napi_callback_info info) {
    napi_value self;
    mdb_slot *slot = called(env, info, &self, NULL, NULL) ? driver_of(env, self) : NULL;
    if (slot != NULL) mdb_close(slot);
    return NULL;
}

NAPI_MODULE_INIT() {
    napi_value constructor;
    const napi_property_descriptor methods[] = {
        {"step", NULL, step, NULL, NULL, NULL, napi_default_method, NULL},
        {"entry", NULL, entry, NULL, NULL, NULL, napi_default_method, NULL},
        {"close", NULL, close_driver, NULL, NULL, NULL, napi_default_method, NULL},
    };
    if (napi_define_class(env, "Driver", NAPI_AUTO_LENGTH, open_driver, NULL, 3, methods, &constructor) != napi_ok) return NULL;
    napi_set_named_property(env, exports, "Driver", constructor);
    return exports;
}
