// Drives a driver by lines: opening, hello, requests, refusals, malformed lines, small buffers, closed slots. Ends with status 1 and the line of the check that
// fails, or with 0.
#include "mdb.h"
#include <stdio.h>
#include <stdlib.h>
#include <string.h>

_Static_assert(sizeof(mdb_slot) == 16, "a slot has 16 bytes");
_Static_assert(sizeof(mdb_reply) == 24, "a reply has 24 bytes");

#define CHECK(what) do { if (!(what)) { fprintf(stderr, "line %d: %s\n", __LINE__, #what); exit(1); } } while (0)

static mdb_slot slot = MDB_SLOT_INIT;
static mdb_reply reply;

static mdb_status line(const char *text) { return mdb_line(&slot, 3, (const uint8_t *)text, strlen(text), &reply); }

// The text of the last entry, told whole.
static const char *text(void) {
    static uint8_t out[4096];
    size_t needed = 7;
    CHECK(mdb_entry_text(&slot, out, sizeof out - 1, &needed) == MDB_OK);
    CHECK(needed < sizeof out);
    out[needed] = 0;
    return (const char *)out;
}

int main(int argc, char **argv) {
    int rounds = argc > 1 ? atoi(argv[1]) : 100000;
    uint8_t small[4];
    size_t needed = 7;
    const char *open = "open seeds=a:27017 max=10";

    CHECK(line("claim 0") == MDB_CLOSED);
    CHECK(mdb_entry_text(&slot, small, sizeof small, &needed) == MDB_CLOSED && needed == 0);
    CHECK(mdb_open_line(&slot, 3, (const uint8_t *)"open", 4) == MDB_MALFORMED && slot.state == 0);
    CHECK(mdb_open_line(&slot, 3, (const uint8_t *)"claim 0", 7) == MDB_MALFORMED && slot.state == 0);
    CHECK(mdb_open_line(&slot, 3, (const uint8_t *)open, strlen(open)) == MDB_OK);
    CHECK(mdb_open_line(&slot, 3, (const uint8_t *)open, strlen(open)) == MDB_OPENED);
    CHECK(strncmp(text(), "open seeds=a:27017 max=10 | Done | ", 35) == 0);
    fputs(text(), stdout);

    memset(small, 9, sizeof small);
    CHECK(mdb_entry_text(&slot, small, sizeof small, &needed) == MDB_NO_ROOM && needed == strlen(text()));
    CHECK(small[0] == 9 && small[3] == 9);

    reply.kind = 77;
    CHECK(line(open) == MDB_MALFORMED && reply.kind == 77);
    CHECK(line("") == MDB_MALFORMED);
    CHECK(line("request 1 2") == MDB_MALFORMED);
    CHECK(line("request 01 2 a:27017") == MDB_MALFORMED);
    CHECK(line("claim 0\n") == MDB_MALFORMED && reply.kind == 77);

    CHECK(line("hello 1 a:27017 0 ok rtt=1000000 isWritablePrimary=true maxWireVersion=21") == MDB_OK);
    CHECK(reply.kind == MDB_CHANGED && reply.number == 1);
    fputs(text(), stdout);

    CHECK(line("request 2 1 b:1") == MDB_OK && reply.kind == MDB_REFUSED && reply.why == MDB_WHY_UNKNOWN_SERVER);
    CHECK(strcmp(text(), "request 2 1 b:1 | Refused UnknownServer\n") == 0);
    CHECK(line("request 2 1 a:27017") == MDB_OK && reply.kind == MDB_ESTABLISHING && reply.pool == 0 && reply.id == 1);
    fputs(text(), stdout);
    CHECK(line("request 2 1 a:27017") == MDB_OK && reply.kind == MDB_REFUSED && reply.why == MDB_WHY_REQUEST_KNOWN);
    CHECK(line("request 1 2 a:27017") == MDB_OK && reply.kind == MDB_REFUSED && reply.why == MDB_WHY_TIME_BACK && reply.number == 2);
    CHECK(line("claim 2") == MDB_OK && (reply.kind == MDB_JOB || reply.kind == MDB_NO_JOB));
    CHECK(line("established 3 0 1 wire=21") == MDB_OK && reply.kind == MDB_DONE);
    fputs(text(), stdout);
    CHECK(line("collect 3 1") == MDB_OK && reply.kind == MDB_POOLED && reply.id == 1);
    CHECK(line("return 4 1 ok") == MDB_OK && reply.kind == MDB_DONE);
    fputs(text(), stdout);

    char asked[64];
    for (int i = 0; i < rounds; i++) {
        int party = i + 10, moment = i / 100 + 5;
        snprintf(asked, sizeof asked, "request %d %d a:27017", moment, party);
        CHECK(line(asked) == MDB_OK && reply.kind == MDB_POOLED && reply.pool == 0 && reply.id == 1);
        snprintf(asked, sizeof asked, "return %d %d ok", moment, party);
        CHECK(line(asked) == MDB_OK && reply.kind == MDB_DONE);
    }
    // rounds in which a connection is made: the one before is dropped
    int made = rounds < 1000 ? rounds : 1000;
    for (int i = 0; i < made; i++) {
        int party = rounds + i + 10, moment = rounds / 100 + 6;
        snprintf(asked, sizeof asked, "request %d %d a:27017", moment, party);
        CHECK(line(asked) == MDB_OK);
        if (reply.kind == MDB_ESTABLISHING) {
            snprintf(asked, sizeof asked, "established %d 0 %u wire=21", moment, reply.id);
            CHECK(line(asked) == MDB_OK && reply.kind == MDB_DONE);
        }
        snprintf(asked, sizeof asked, "return %d %d errored", moment, party);
        CHECK(line(asked) == MDB_OK && reply.kind == MDB_DONE);
        CHECK(strlen(text()) > 20);
    }
    CHECK(line("stop 4000000") == MDB_OK && reply.kind == MDB_DONE);
    fputs(text(), stdout);
    mdb_close(&slot);
    mdb_close(&slot);
    CHECK(slot.state == 0 && line("claim 0") == MDB_CLOSED);
    CHECK(mdb_open_line(&slot, 3, (const uint8_t *)open, strlen(open)) == MDB_OK);
    mdb_close(&slot);
    return 0;
}
