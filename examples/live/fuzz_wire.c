// For a fuzzer: bytes as a server may send them go through the reader of messages. An answer goes to the library as a document, which may find it bad; an error
// goes there as a line, which must be well formed. The first byte says in which form the command was sent, and whether a reply came before, or that the rest is
// a server's message of SCRAM. Ends by abort() where a line is malformed.
#include "handshake.h"
#include "mdb.h"
#include "scram.h"
#include <stdio.h>
#include <stdlib.h>
#include <string.h>
#include <sys/socket.h>
#include <unistd.h>

static const uint8_t OPEN[] = "open seeds=a:1", MONITOR[] = "a:1 0", ADDRESS[] = "a:1";

static void tell_error(mdb_slot *slot, const mdb_at *at, const struct handshake *shake) {
    char room[ERROR_ROOM + 64];
    struct text outcome = TEXT_IN(room);
    mdb_reply reply;
    text_add(&outcome, "1 err %s", shake->room);
    mdb_status status = mdb_beaten(slot, at, MONITOR, sizeof MONITOR - 1, (const uint8_t *)room, outcome.length, &reply);
    if (status == MDB_OK) return;
    fprintf(stderr, "status %u: %s\n", status, room);
    abort();
}

static void tell_answer(mdb_slot *slot, const mdb_at *at, struct handshake *shake) {
    mdb_answered answered;
    mdb_came came = { .moment = at->moment, .nanos = 1, .more = shake->more };
    const struct reply *answer = &shake->answer;
    mdb_status status = mdb_beaten_bson(slot, &came, ADDRESS, sizeof ADDRESS - 1, answer->document, answer->length, &answered);
    if (status != MDB_OK && status != MDB_BAD_DOCUMENT) abort();
    if (status == MDB_OK) return;
    handshake_refuse(shake, &answered.bad);
    tell_error(slot, at, shake);
}

// Begins and ends a check with this outcome.
static void tell(struct handshake *shake) {
    static mdb_slot slot = MDB_SLOT_INIT;
    static unsigned steps = 0;
    mdb_reply reply;
    mdb_at at = { 1, 0 };
    if (steps++ % 1000 == 0) {
        mdb_close(&slot);
        if (mdb_open_line(&slot, 0, OPEN, sizeof OPEN - 1) != MDB_OK) abort();
    }
    if (mdb_beat(&slot, &at, ADDRESS, sizeof ADDRESS - 1, 0, &reply) != MDB_OK) abort();
    if (reply.kind == MDB_REFUSED) { // the server was removed by the last reply
        steps = 0;
        return;
    }
    if (shake->ok) tell_answer(&slot, &at, shake);
    else tell_error(&slot, &at, shake);
}

enum { INPUT_MOST = 200000, BUFFER = 400000 };

// As the first and as the last message of a server.
static void try_scram(const char *told, size_t length) {
    struct scram scram;
    struct scram_keys keys = { .set = false };
    char room[SCRAM_ROOM];
    struct text first = TEXT_IN(room), last = TEXT_IN(room);
    if (length >= SCRAM_ROOM || !scram_begin(&scram, "a,b=c", "nonce", &first)) return;
    scram_continue(&scram, "pencil", told, length, &keys, &last);
    memset(scram.proof, 0, sizeof scram.proof);
    if (scram_ends(&scram, told, length)) abort();
}

static void try_messages(const uint8_t *bytes, size_t length) {
    static struct handshake shake;
    int ends[2], room = BUFFER;
    if (length < 1 || length > INPUT_MOST || socketpair(AF_UNIX, SOCK_STREAM | SOCK_NONBLOCK, 0, ends)) return;
    setsockopt(ends[1], SOL_SOCKET, SO_SNDBUF, &room, sizeof room);
    struct conn conn = { .asked = 1, .told = 2, .more = bytes[0] & 2, .form = bytes[0] & 1 ? AS_MESSAGE : AS_QUERY };
    conn.sock = (struct sock){ .fd = ends[0], .cancel = -1, .deadline = NO_DEADLINE };
    if (length > 1 && write(ends[1], bytes + 1, length - 1) != (ssize_t)length - 1) abort();
    close(ends[1]);
    for (int i = 0; i < 4; i++) {
        handshake_again(&shake, &conn, NULL);
        tell(&shake);
        handshake_end(&shake);
        if (shake.network) break;
    }
    sock_close(&conn.sock);
}

static void try_bytes(const uint8_t *bytes, size_t length) {
    if (length > 0 && bytes[0] & 4) try_scram((const char *)bytes + 1, length - 1);
    else try_messages(bytes, length);
}

#ifdef __AFL_FUZZ_TESTCASE_LEN
__AFL_FUZZ_INIT();

int main(void) {
    __AFL_INIT();
    const uint8_t *bytes = __AFL_FUZZ_TESTCASE_BUF;
    while (__AFL_LOOP(5000)) try_bytes(bytes, (size_t)__AFL_FUZZ_TESTCASE_LEN);
    return 0;
}
#else
int main(void) {
    static uint8_t bytes[INPUT_MOST + 1];
    size_t length = fread(bytes, 1, sizeof bytes, stdin);
    try_bytes(bytes, length);
    return 0;
}
#endif
