// What a client tells: two streams of notices, each kept up to so many bytes until it is taken. Under the lock notices are copied, and nothing is written.
#ifndef NET_NOTICES_H
#define NET_NOTICES_H

#include "mdb_net.h"
#include <pthread.h>

enum { ROOM_DEFAULT = 4 << 20 };

struct stream {
    pthread_cond_t some;
    uint8_t *filling, *taken; // one behind the other `mdb_net_notice` without its text, and the text
    size_t length, room, taken_room, most;
    uint64_t lost;
};

void stream_begin(struct stream *stream, size_t most);
void stream_end(struct stream *stream);

// Room for a notice of so many bytes: where its text goes; NULL where there is none, and then the notice is lost. What is written there
// counts once it is added.
uint8_t *stream_room(struct stream *stream, size_t length);
void stream_add(struct stream *stream, uint64_t nanos, uint32_t kind, size_t length);

// Copies a text. Answers whether there was room.
bool stream_tell(struct stream *stream, uint64_t nanos, uint32_t kind, const char *text, size_t length);

// Hands over what there is.
void stream_take(struct stream *stream, mdb_net_batch *batch);

#endif
