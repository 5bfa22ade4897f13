// Hellos and checks by documents: a reply that a line spells makes the entry of that line, one that no line spells is known all the same and has no text,
// and what is bad is told with its place or its name, and changes nothing. Ends with status 1 and the line of the check that fails, or with 0.
#include "mdb.h"
#include <stdio.h>
#include <stdlib.h>
#include <string.h>

_Static_assert(sizeof(mdb_came) == 32, "how a reply came has 32 bytes");
_Static_assert(sizeof(mdb_document_fault) == 48, "what is bad has 48 bytes");
_Static_assert(sizeof(mdb_answered) == 72, "a reply with what is bad has 72 bytes");

#define CHECK(what) do { if (!(what)) { fprintf(stderr, "line %d: %s\n", __LINE__, #what); exit(1); } } while (0)
#define TEXT(text) (const uint8_t *)text, sizeof text - 1
#define ADDRESS TEXT("a:27017")

static mdb_slot documents = MDB_SLOT_INIT, lines = MDB_SLOT_INIT;
static mdb_answered answered;
static uint8_t bytes[4096];
static size_t length;

// The documents that are open, by the places of their lengths.
static size_t open_at[8], depth;

static void put(const void *from, size_t n) {
    CHECK(length + n <= sizeof bytes);
    memcpy(bytes + length, from, n);
    length += n;
}

static void number(uint64_t n, size_t size) {
    for (size_t i = 0; i < size; i++) put(&(uint8_t){i < 8 ? (uint8_t)(n >> 8 * i) : 0}, 1);
}

static void begin(void) {
    open_at[depth++] = length;
    number(0, 4);
}

static void end(void) {
    number(0, 1);
    size_t at = open_at[--depth], now = length;
    length = at;
    number(now - at, 4);
    length = now;
}

static void name(uint8_t kind, const char *own) {
    put(&kind, 1);
    put(own, strlen(own) + 1);
}

static void text(const char *own, const char *value) {
    name(2, own);
    number(strlen(value) + 1, 4);
    put(value, strlen(value) + 1);
}

static void int32(const char *own, uint32_t value) {
    name(16, own);
    number(value, 4);
}

static void truth(const char *own, uint8_t value) {
    name(8, own);
    put(&value, 1);
}

// A primary's reply, with this value of the tag dc.
static void reply_of(const char *dc) {
    length = 0;
    begin();
    truth("isWritablePrimary", 1);
    name(4, "hosts");
    begin();
    text("0", "a:27017");
    text("1", "b:27017");
    end();
    text("setName", "rs");
    int32("setVersion", 3);
    text("me", "a:27017");
    text("primary", "a:27017");
    name(3, "tags");
    begin();
    text("dc", dc);
    end();
    name(3, "topologyVersion");
    begin();
    name(7, "processId");
    number(1, 12);
    name(18, "counter");
    number(4, 8);
    end();
    int32("maxBsonObjectSize", 16777216);
    int32("maxMessageSizeBytes", 48000000);
    int32("maxWriteBatchSize", 100000);
    name(9, "localTime");
    number(1500000000000, 8);
    int32("logicalSessionTimeoutMinutes", 30);
    int32("minWireVersion", 0);
    int32("maxWireVersion", 21);
    name(1, "ok");
    number(0x3ff0000000000000, 8);
    end();
}

static mdb_status hello(uint64_t moment) {
    return mdb_hello_bson(&documents, &(mdb_came){.moment = moment, .nanos = 5}, ADDRESS, bytes, length, &answered);
}

static mdb_status entry(mdb_slot *slot, char *out) {
    size_t needed = 7;
    mdb_status status = mdb_entry_text(slot, (uint8_t *)out, 8191, &needed);
    CHECK(status == MDB_OK ? needed < 8192 : needed == 0);
    out[needed] = 0;
    return status;
}

// The bytes are refused, with this fault at this place, and nothing else changed.
static void is_bad(uint32_t kind, uint64_t place) {
    static char before[8192], after[8192];
    CHECK(entry(&documents, before) == MDB_OK);
    memset(&answered, 77, sizeof answered);
    mdb_reply kept = answered.reply;
    CHECK(hello(9) == MDB_BAD_DOCUMENT && answered.bad.kind == kind && answered.bad.place == place);
    CHECK(memcmp(&kept, &answered.reply, sizeof kept) == 0 && entry(&documents, after) == MDB_OK && strcmp(before, after) == 0);
}

static void faults(void) {
    reply_of("east");
    bytes[length - 1] = 1;
    is_bad(MDB_DOCUMENT_ZERO, length);
    reply_of("east");
    length--;
    is_bad(MDB_DOCUMENT_LENGTH, 0);
    reply_of("east");
    put("", 1);
    is_bad(MDB_DOCUMENT_TRAILING, length - 1);
    length = 3;
    is_bad(MDB_DOCUMENT_SHORT, 0);
    length = 0;
    begin();
    end();
    is_bad(MDB_DOCUMENT_FIELD, 0);
    CHECK(strcmp(answered.bad.field, "maxBsonObjectSize") == 0);
    length = 0;
    begin();
    int32("maxBsonObjectSize", 1);
    int32("setName", 1);
    end();
    is_bad(MDB_DOCUMENT_FIELD, 0);
    CHECK(strcmp(answered.bad.field, "setName") == 0);
}

static void steps(void) {
    static char one[8192], other[8192];
    mdb_reply reply;
    const char *line = "hello 2 a:27017 0 ok rtt=5 isWritablePrimary=true hosts=a:27017,b:27017 me=a:27017 setVersion=3 setName=rs logicalSessionTimeoutMinutes=30 minWireVersion=0 maxWireVersion=21 tags=dc:east primary=a:27017 topologyVersion=010000000000000000000000.4";
    reply_of("east");
    CHECK(hello(2) == MDB_OK && mdb_line(&lines, 0, (const uint8_t *)line, strlen(line), &reply) == MDB_OK);
    CHECK(memcmp(&reply, &answered.reply, sizeof reply) == 0);
    CHECK(entry(&documents, one) == MDB_OK && entry(&lines, other) == MDB_OK && strcmp(one, other) == 0);
    faults();

    reply_of("New York");
    CHECK(hello(3) == MDB_OK && entry(&documents, one) == MDB_UNSPELLED);
    size_t count = 0;
    CHECK(mdb_fact_count(&documents, &count) == MDB_OK && count > 0);
    CHECK(mdb_line(&documents, 0, TEXT("claim 3"), &reply) == MDB_OK && entry(&documents, one) == MDB_OK);
    CHECK(mdb_line(&documents, 0, TEXT("beat 4 a:27017 0"), &reply) == MDB_OK);
    CHECK(mdb_beaten_bson(&documents, &(mdb_came){.moment = 5, .nanos = 7, .more = 1}, ADDRESS, bytes, length, &answered) == MDB_OK);
    CHECK(entry(&documents, one) == MDB_UNSPELLED);
    CHECK(mdb_beaten_bson(&documents, &(mdb_came){.moment = 5}, TEXT("a b"), bytes, length, &answered) == MDB_MALFORMED);
}

int main(int argc, char **argv) {
    for (int rounds = argc > 1 ? atoi(argv[1]) : 2000; rounds; rounds--) {
        const char *open = "open seeds=a:27017 set=rs";
        reply_of("east");
        CHECK(hello(1) == MDB_CLOSED);
        CHECK(mdb_open_line(&documents, 0, (const uint8_t *)open, strlen(open)) == MDB_OK && mdb_open_line(&lines, 0, (const uint8_t *)open, strlen(open)) == MDB_OK);
        steps();
        mdb_close(&documents);
        mdb_close(&lines);
    }
    return 0;
}
