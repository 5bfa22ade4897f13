#include "notices.h"
#include "threads.h"
#include <stdlib.h>
#include <string.h>

// What stands before each text.
struct head {
    uint64_t nanos;
    uint32_t kind, length;
};

void stream_begin(struct stream *stream, size_t most) {
    *stream = (struct stream){ .most = most };
    condition_init(&stream->some);
}

void stream_end(struct stream *stream) {
    pthread_cond_destroy(&stream->some);
    free(stream->filling);
    free(stream->taken);
}

// Asks for memory for a second at most.
static uint8_t *moved_to(uint8_t *bytes, size_t room) {
    uint8_t *moved = realloc(bytes, room);
    for (int tries = 0; !moved && tries < 1000; tries++) {
        nanosleep(&(struct timespec){ .tv_nsec = 1000000 }, NULL);
        moved = realloc(bytes, room);
    }
    return moved;
}

uint8_t *stream_room(struct stream *stream, size_t length) {
    size_t wanted = stream->length + sizeof(struct head) + length;
    if (wanted > stream->most) return NULL;
    if (wanted > stream->room) {
        size_t room = 2 * wanted < stream->most ? 2 * wanted : stream->most;
        uint8_t *moved = moved_to(stream->filling, room);
        if (!moved) return NULL;
        stream->filling = moved;
        stream->room = room;
    }
    return stream->filling + stream->length + sizeof(struct head);
}

void stream_add(struct stream *stream, uint64_t nanos, uint32_t kind, size_t length) {
    struct head head = { nanos, kind, (uint32_t)length };
    if (stream->length == 0) pthread_cond_signal(&stream->some);
    memcpy(stream->filling + stream->length, &head, sizeof head);
    stream->length += sizeof head + length;
}

bool stream_tell(struct stream *stream, uint64_t nanos, uint32_t kind, const char *text, size_t length) {
    uint8_t *room = stream_room(stream, length);
    if (!room) {
        stream->lost++;
        return false;
    }
    memcpy(room, text, length);
    stream_add(stream, nanos, kind, length);
    return true;
}

void stream_take(struct stream *stream, mdb_net_batch *batch) {
    uint8_t *filled = stream->filling;
    size_t room = stream->room;
    *batch = (mdb_net_batch){ .at = filled, .length = stream->length, .lost = stream->lost };
    stream->filling = stream->taken;
    stream->room = stream->taken_room;
    stream->taken = filled;
    stream->taken_room = room;
    stream->length = 0;
    stream->lost = 0;
}

bool mdb_net_next(mdb_net_batch *batch, mdb_net_notice *notice) {
    struct head head;
    if (batch->length < sizeof head) return false;
    memcpy(&head, batch->at, sizeof head);
    *notice = (mdb_net_notice){ .nanos = head.nanos, .kind = head.kind, .length = head.length, .text = (const char *)batch->at + sizeof head };
    batch->at += sizeof head + head.length;
    batch->length -= sizeof head + head.length;
    return true;
}
