#include "out.h"
#include <errno.h>
#include <limits.h>
#include <poll.h>
#include <stdio.h>
#include <string.h>
#include <time.h>
#include <unistd.h>

enum { PART = PIPE_BUF, BUFFER = 65536, PATIENCE = 10, TICK = 100 }; // ticks of milliseconds

// Waits until a part can be written without a wait: for ever, and once all ends for a second. Answers whether it can.
static bool wait_for_room(int fd, const atomic_bool *ending) {
    for (int waited = 0; waited < PATIENCE;) {
        struct pollfd wait = { .fd = fd, .events = POLLOUT };
        int ready = poll(&wait, 1, TICK);
        if (ready > 0) return true;
        if (ready < 0 && errno != EINTR) return false;
        waited += *ending;
    }
    return false;
}

bool out_write(int fd, const char *text, size_t length, const atomic_bool *ending) {
    while (length > 0) {
        if (!wait_for_room(fd, ending)) return false;
        ssize_t wrote = write(fd, text, length < PART ? length : PART);
        if (wrote < 0 && errno != EINTR && errno != EAGAIN) return false;
        if (wrote <= 0) continue;
        text += wrote;
        length -= (size_t)wrote;
    }
    return true;
}

struct buffer {
    char bytes[BUFFER];
    size_t length;
};

static void put(struct writer *writer, struct buffer *buffer, const char *text, size_t length) {
    if (buffer->length + length > BUFFER) {
        writer->broken = writer->broken || !out_write(writer->fd, buffer->bytes, buffer->length, &writer->ending);
        buffer->length = 0;
    }
    if (length > BUFFER) {
        writer->broken = writer->broken || !out_write(writer->fd, text, length, &writer->ending);
    } else {
        memcpy(buffer->bytes + buffer->length, text, length);
        buffer->length += length;
    }
}

static void put_notice(struct writer *writer, struct buffer *buffer, const mdb_net_notice *notice) {
    char head[64];
    if (notice->kind == MDB_NET_TELLS_ENTRIES) {
        put(writer, buffer, notice->text, notice->length);
        return;
    }
    const char *word = notice->kind == MDB_NET_TELLS_TOPOLOGY ? "topology" : "event";
    int length = snprintf(head, sizeof head, "%.3f %s ", (double)notice->nanos / 1e9, word);
    put(writer, buffer, head, (size_t)length);
    put(writer, buffer, notice->text, notice->length);
    put(writer, buffer, "\n", 1);
}

static void *writer_run(void *given) {
    struct writer *writer = given;
    struct buffer buffer = { .length = 0 };
    mdb_net_batch batch;
    while (mdb_net_take(writer->client, writer->stream, 1000, &batch) == MDB_NET_OK) {
        mdb_net_notice notice;
        writer->lost += batch.lost;
        while (mdb_net_next(&batch, &notice)) put_notice(writer, &buffer, &notice);
        writer->broken = writer->broken || !out_write(writer->fd, buffer.bytes, buffer.length, &writer->ending);
        buffer.length = 0;
    }
    return NULL;
}

bool writer_start(struct writer *writer) { return pthread_create(&writer->thread, NULL, writer_run, writer) == 0; }

bool writer_join(struct writer *writer) {
    struct timespec until;
    clock_gettime(CLOCK_REALTIME, &until);
    until.tv_sec += 3;
    writer->ending = true;
    return pthread_timedjoin_np(writer->thread, NULL, &until) == 0;
}
