/* What is to happen, in the order of its time; of one time, in the order in which it was put. */
#ifndef AGENDA_H
#define AGENDA_H

#include <stdbool.h>
#include <stddef.h>
#include <stdint.h>

enum event_kind {
    ARRIVES,      /* the next operation of a client begins */
    ASKS,         /* an attempt of the operation `which` looks for the primary */
    UNSELECTED,   /* it looked for so long as it may */
    EXPIRES,      /* a caller at the pool of the server `which` waited for so long as it may */
    ANSWERED,     /* the operation `which` is answered, or meets an error */
    CONNECTS,     /* the connection `turn` to the server `which` is established, or fails */
    CHECKED,      /* a check of the server `which` ends */
    CHECKS,       /* one begins */
    MAINTAINS,    /* the pools of a client are looked after */
    FILLS,        /* its pool of the server `which` is */
    FAILS,        /* the primary fails */
    ELECTS,       /* its successor is elected */
    SAMPLES       /* numbers are written down */
};

typedef struct event {
    uint64_t at; /* microseconds */
    uint64_t order;
    enum event_kind kind;
    uint32_t client;
    uint32_t which;
    uint32_t turn; /* of what it was put for: it is void where that has gone on */
} event;

typedef struct agenda {
    event *events;
    size_t count, room;
    uint64_t order;
} agenda;

/* Whether there was memory. */
bool agenda_put(agenda *to, event it);

/* Takes what comes first. Whether there was anything. */
bool agenda_take(agenda *from, event *it);

#endif
