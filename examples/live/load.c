#include "load.h"
#include "document.h"
#include <stdarg.h>
#include <stdio.h>
#include <time.h>

static void pause_for(unsigned milliseconds) {
    struct timespec time = { .tv_sec = milliseconds / 1000, .tv_nsec = (long)(milliseconds % 1000) * 1000000 };
    nanosleep(&time, NULL);
}

static void insert_command(struct document *command, int64_t id) {
    document_begin(command);
    put_text(command, "insert", "live");
    put_open_list(command, "documents");
    put_open(command, "0");
    put_int64(command, "_id", id);
    put_close(command);
    put_close(command);
    put_bool(command, "ordered", true);
    document_end(command);
}

static void count_code(struct tally *tally, int code, uint64_t count) {
    int i = 0;
    while (i < CODES_MOST - 1 && tally->codes[i].count && tally->codes[i].code != code) i++;
    tally->codes[i].code = code;
    tally->codes[i].count += count;
}

// An error of an insert that went to a server.
static void count_sent(struct tally *tally, const mdb_net_err *err) {
    bool told = err->code == MDB_NET_NETWORK || err->code == MDB_NET_TIMED_OUT || err->code == MDB_NET_COMMAND || err->code == MDB_NET_CONCERN;
    tally->changed += told && err->changed;
    tally->unchanged += told && !err->changed;
    if (err->code == MDB_NET_NETWORK) tally->network++;
    else if (err->code == MDB_NET_TIMED_OUT) tally->timeout++;
    else if (err->server_code) count_code(tally, err->server_code, 1);
    else if (err->code == MDB_NET_CLOSED) tally->closed++;
    else tally->other++;
}

static void count_outcome(struct tally *tally, const mdb_net_err *err) {
    if (err->code == MDB_NET_OK) tally->fine++;
    else if (err->sent) count_sent(tally, err);
    else if (err->code == MDB_NET_NO_SERVER) tally->unselected++;
    else if (err->code == MDB_NET_CLEARED) tally->cleared++;
    else if (err->code == MDB_NET_CLOSED) tally->closed++;
    else if (err->code == MDB_NET_TIMED_OUT) tally->timed_out++;
    else tally->failed++;
}

static void *loader_run(void *given) {
    struct loader *loader = given;
    struct load *load = loader->load;
    int64_t id = (int64_t)loader->number << 32;
    while (!load->stopping) {
        mdb_net_err err;
        struct document command;
        insert_command(&command, ++id);
        mdb_net_command(load->client, "mdb_live", (mdb_net_document){ command.bytes, command.length }, NULL, NULL, &err);
        if (err.code == MDB_NET_CLOSED && !err.sent) break;
        count_outcome(&loader->tally, &err);
        pause_for(err.sent ? load->pace : 10);
    }
    load->running--;
    return NULL;
}

bool load_start(struct load *load) {
    unsigned wanted = load->count;
    for (load->count = 0; load->count < wanted; load->count++) {
        struct loader *loader = &load->loaders[load->count];
        *loader = (struct loader){ .load = load, .number = load->count + 1 };
        load->running++;
        if (pthread_create(&loader->thread, NULL, loader_run, loader) == 0) continue;
        load->running--;
        return false;
    }
    return true;
}

void load_stop(struct load *load) {
    load->stopping = true;
    for (int waits = 0; waits < 50 && load->running; waits++) pause_for(10);
}

void load_join(struct load *load) {
    for (unsigned i = 0; i < load->count; i++) pthread_join(load->loaders[i].thread, NULL);
}

static void tally_add(struct tally *sum, const struct tally *one) {
    sum->fine += one->fine;
    sum->unselected += one->unselected;
    sum->network += one->network;
    sum->timeout += one->timeout;
    sum->other += one->other;
    sum->changed += one->changed;
    sum->unchanged += one->unchanged;
    sum->cleared += one->cleared;
    sum->failed += one->failed;
    sum->closed += one->closed;
    sum->timed_out += one->timed_out;
    for (int i = 0; i < CODES_MOST && one->codes[i].count; i++) count_code(sum, one->codes[i].code, one->codes[i].count);
}

// A text that grows in a buffer that has room for it.
struct page {
    char *at;
    size_t room, length;
};

static void __attribute__((format(printf, 2, 3))) add(struct page *page, const char *format, ...) {
    va_list given;
    va_start(given, format);
    int length = vsnprintf(page->at + page->length, page->room - page->length, format, given);
    va_end(given);
    if (length > 0 && (size_t)length < page->room - page->length) page->length += (size_t)length;
}

#define N(number) (unsigned long long)(number)

size_t load_tell(const struct load *load, const mdb_net_counts *of, char *out, size_t room) {
    struct tally sum = { .fine = 0 };
    struct page page = { out, room, 0 };
    for (unsigned i = 0; i < load->count; i++) tally_add(&sum, &load->loaders[i].tally);
    add(&page, "operations fine=%llu no_server=%llu\n", N(sum.fine), N(sum.unselected));
    add(&page, "errors network=%llu timeout=%llu other=%llu", N(sum.network), N(sum.timeout), N(sum.other));
    for (int i = 0; i < CODES_MOST && sum.codes[i].count; i++) add(&page, " command.%d=%llu", sum.codes[i].code, N(sum.codes[i].count));
    add(&page, "\nreports changed=%llu unchanged=%llu\n", N(sum.changed), N(sum.unchanged));
    add(&page, "checkouts granted=%llu cleared=%llu failed=%llu closed=%llu timed_out=%llu\n", N(of->checked_out), N(sum.cleared), N(sum.failed), N(sum.closed),
        N(sum.timed_out));
    add(&page, "connections created=%llu stale=%llu idle=%llu error=%llu dropped=%llu pool_closed=%llu\n", N(of->created), N(of->stale), N(of->idle),
        N(of->errored), N(of->dropped), N(of->pool_closed));
    add(&page, "pools cleared=%llu\ngreatest_wait_ms=%llu\n", N(of->cleared), N(of->greatest_wait));
    add(&page, "shortages=%llu\n", N(of->shortages));
    return page.length;
}
