// Times the C library: a request and a return by calls, by lines, and with texts and facts; refusals; a hello; opening and closing. Each number is processor
// time, the least of 200 runs, so that other work on the machine tells less. And the memory that stays of a round, by a counting heap.
// usage: c_library [ROUNDS]
#include "mdb.h"
#include <malloc.h>
#include <stdbool.h>
#include <stdio.h>
#include <stdlib.h>
#include <string.h>
#include <time.h>

#define TEXT(text) (const uint8_t *)text, sizeof text - 1
#define RUNS 200

struct block {
    bool ok;
    void *at;
};

static size_t live, asked;

struct block rattle_alloc(size_t size, size_t align) {
    void *at = malloc(size ? size : align);
    if (at) live += malloc_usable_size(at), asked++;
    return (struct block){at != 0, at};
}

struct block rattle_realloc(void *at, size_t old_size, size_t size, size_t align) {
    (void)old_size;
    size_t before = malloc_usable_size(at);
    void *moved = realloc(at, size ? size : align);
    if (moved) live += malloc_usable_size(moved) - before, asked++;
    return (struct block){moved != 0, moved};
}

void rattle_dealloc(void *at) {
    live -= malloc_usable_size(at);
    free(at);
}

static mdb_slot slot = MDB_SLOT_INIT;
static mdb_reply reply;
static unsigned party = 1;
static uint8_t out[4096];

static double now(void) {
    struct timespec t;
    clock_gettime(CLOCK_PROCESS_CPUTIME_ID, &t);
    return (double)t.tv_sec * 1e9 + (double)t.tv_nsec;
}

static void is(bool well) {
    if (!well) {
        fprintf(stderr, "a call answered otherwise: kind %u, why %u\n", reply.kind, reply.why);
        exit(1);
    }
}

static size_t number(char *at, unsigned n) {
    char digits[12];
    size_t k = 0;
    do digits[k++] = (char)('0' + n % 10); while (n /= 10);
    for (size_t i = 0; i < k; i++) at[i] = digits[k - 1 - i];
    return k;
}

static void facts(void) {
    size_t count;
    mdb_fact fact;
    is(mdb_fact_count(&slot, &count) == MDB_OK);
    for (size_t i = 0; i < count; i++) is(mdb_fact_at(&slot, i, &fact) == MDB_OK);
}

static void text(void) {
    size_t needed;
    is(mdb_entry_text(&slot, out, sizeof out, &needed) == MDB_OK);
}

static void by_calls(void) {
    mdb_at at = {5, 0};
    is(mdb_request(&slot, &at, party, TEXT("a:27017"), &reply) == MDB_OK && reply.kind == MDB_POOLED);
    is(mdb_return(&slot, &at, party++, MDB_USE_OK, &reply) == MDB_OK && reply.kind == MDB_DONE);
}

static void by_calls_with_facts(void) {
    mdb_at at = {5, 0};
    is(mdb_request(&slot, &at, party, TEXT("a:27017"), &reply) == MDB_OK && reply.kind == MDB_POOLED);
    facts();
    is(mdb_return(&slot, &at, party++, MDB_USE_OK, &reply) == MDB_OK && reply.kind == MDB_DONE);
    facts();
}

static void all_facts(void) {
    mdb_fact told[16];
    size_t count;
    is(mdb_facts(&slot, told, 16, &count) == MDB_OK && count > 0);
}

static void by_calls_with_all_facts(void) {
    mdb_at at = {5, 0};
    is(mdb_request(&slot, &at, party, TEXT("a:27017"), &reply) == MDB_OK && reply.kind == MDB_POOLED);
    all_facts();
    is(mdb_return(&slot, &at, party++, MDB_USE_OK, &reply) == MDB_OK && reply.kind == MDB_DONE);
    all_facts();
}

static void told_with_facts(void) {
    mdb_at at = {5, 0};
    mdb_told told;
    is(mdb_request_told(&slot, &at, party, TEXT("a:27017"), &told) == MDB_OK && told.reply.kind == MDB_POOLED && told.count == 3);
    is(mdb_return_told(&slot, &at, party++, MDB_USE_OK, &told) == MDB_OK && told.reply.kind == MDB_DONE && told.count == 1);
}

static void lines(bool texts) {
    char asked_[64] = "request 5 ", back[64] = "return 5 ";
    size_t k = 10, m = 9;
    k += number(asked_ + k, party);
    memcpy(asked_ + k, " a:27017", 8);
    m += number(back + m, party++);
    memcpy(back + m, " ok", 3);
    is(mdb_line(&slot, 0, (const uint8_t *)asked_, k + 8, &reply) == MDB_OK && reply.kind == MDB_POOLED);
    if (texts) text();
    is(mdb_line(&slot, 0, (const uint8_t *)back, m + 3, &reply) == MDB_OK && reply.kind == MDB_DONE);
    if (texts) text();
}

static void by_lines(void) { lines(false); }
static void by_lines_with_texts(void) { lines(true); }

static void refused(void) {
    mdb_at at = {5, 0};
    is(mdb_request(&slot, &at, 1, TEXT("a:27017"), &reply) == MDB_OK && reply.kind == MDB_REFUSED);
}

static void refused_line(void) { is(mdb_line(&slot, 0, TEXT("request 5 1 a:27017"), &reply) == MDB_OK && reply.kind == MDB_REFUSED); }
static void malformed_line(void) { is(mdb_line(&slot, 0, TEXT("request 5 1 a:27017!"), &reply) == MDB_MALFORMED); }

static void hello_line(void) { is(mdb_line(&slot, 0, TEXT("hello 5 a:27017 0 ok rtt=1000000 isWritablePrimary=true maxWireVersion=21"), &reply) == MDB_OK && reply.kind == MDB_CHANGED); }

static void topology(void) {
    mdb_topology told;
    is(mdb_topology_get(&slot, &told) == MDB_OK && told.servers == 1);
}

static void server(void) {
    mdb_server told;
    is(mdb_server_get(&slot, 0, &told) == MDB_OK && told.has_round_trip);
}

static void address(void) {
    size_t needed;
    is(mdb_server_text(&slot, 0, MDB_TEXT_ADDRESS, out, sizeof out, &needed) == MDB_OK && needed == 7);
}

static void closed(void) {
    mdb_slot none = MDB_SLOT_INIT;
    mdb_at at = {5, 0};
    is(mdb_claim(&none, &at, &reply) == MDB_CLOSED);
}

static void open_and_close(void) {
    mdb_slot one = MDB_SLOT_INIT;
    is(mdb_open_line(&one, 0, TEXT("open seeds=a:27017 max=100")) == MDB_OK);
    mdb_close(&one);
}

static void timed(const char *what, void (*one)(void), int rounds) {
    double least = 1e18;
    for (int i = 0; i < RUNS; i++) {
        double began = now();
        for (int k = 0; k < rounds / RUNS; k++) one();
        double took = (now() - began) / (rounds / RUNS);
        if (took < least) least = took;
    }
    printf("%-44s %8.3f us\n", what, least / 1e3);
}

int main(int argc, char **argv) {
    int rounds = argc > 1 ? atoi(argv[1]) : 100000;
    is(mdb_open_line(&slot, 0, TEXT("open seeds=a:27017 max=100")) == MDB_OK);
    is(mdb_line(&slot, 0, TEXT("hello 1 a:27017 0 ok rtt=1000000 isWritablePrimary=true maxWireVersion=21"), &reply) == MDB_OK);
    is(mdb_line(&slot, 0, TEXT("request 2 0 a:27017"), &reply) == MDB_OK && reply.kind == MDB_ESTABLISHING);
    is(mdb_line(&slot, 0, TEXT("established 3 0 1 wire=21"), &reply) == MDB_OK && reply.kind == MDB_DONE);
    is(mdb_line(&slot, 0, TEXT("return 4 0 ok"), &reply) == MDB_OK && reply.kind == MDB_DONE);
    printf("opened: %zu bytes\n", live);
    size_t before = live, calls = asked;
    timed("request and return by calls", by_calls, rounds);
    printf("%44s %8.1f allocations a round, %.0f bytes stay\n", "", (double)(asked - calls) / rounds, (double)(live - before) / rounds);
    timed("with all facts as numbers, one by one", by_calls_with_facts, rounds);
    timed("with all facts as numbers, at once", by_calls_with_all_facts, rounds);
    timed("with all facts as numbers, by the same calls", told_with_facts, rounds);
    timed("request and return by lines", by_lines, rounds);
    timed("with both entry texts", by_lines_with_texts, rounds);
    timed("a refused request by a call", refused, rounds);
    timed("a refused request by a line", refused_line, rounds);
    timed("a malformed line", malformed_line, rounds);
    timed("a hello that changes nothing, one server", hello_line, rounds / 10);
    timed("what is known of the topology", topology, rounds);
    timed("what is known of a server", server, rounds);
    timed("the address of a server", address, rounds);
    timed("a claim on a closed slot", closed, rounds);
    timed("open and close", open_and_close, rounds / 10);
    mdb_close(&slot);
    printf("closed: %zu bytes\n", live);
    return 0;
}
