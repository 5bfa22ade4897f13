/* A failover of a made-up replica set under made-up time, in which each client is a driver of libmdb: who waits, who connects, and when it is over. */
#ifndef STORM_H
#define STORM_H

#include "settings.h"

/* The set: its first server is the primary that fails, its second one the successor. */
enum { SERVERS = 3, FAILING = 0, SUCCESSOR = 1 };

/* How things stand at a moment, and what happened since the sample before. */
typedef struct storm_sample {
    uint32_t moment;           /* milliseconds */
    uint32_t live[SERVERS];    /* connections that the drivers count to a server */
    uint32_t pending[SERVERS]; /* those that are being established */
    uint32_t selecting;        /* operations that wait for a primary */
    uint32_t queued;           /* that wait for a connection to it */
    uint32_t running;          /* that have one */
    uint32_t done, failed;     /* that ended, well and with an error */
    uint32_t opened;           /* connections that were begun */
} storm_sample;

/* Sums of a run, by these places; times are in microseconds. */
enum storm_sum {
    SUM_ASKED, SUM_DONE, SUM_FAILED, SUM_RETRIED, SUM_LEFT, /* operations; the last: that have not ended */
    SUM_NETWORK, SUM_NOT_PRIMARY, SUM_CLEARED, SUM_CONNECT, SUM_WAIT_QUEUE, SUM_SELECTION, /* errors of attempts */
    SUM_CALM,         /* operations that waited at once in the second before the failure, at most */
    SUM_GAP,          /* from the failure to the election */
    SUM_FIRST_KNOWS, SUM_LAST_KNOWS, SUM_RECOVERED, /* moments: the first and the last driver that knows the successor; recovery; 0 where it did not come */
    SUM_PENDING_MOST, /* connections to the successor that were being established at once, from the failure on */
    SUM_OPENED,       /* that were begun from the failure on */
    SUM_LIVE_MOST,    /* that were there at once */
    SUM_ACCEPT_MOST,  /* the longest that one of them waited for the server to accept it */
    SUM_WAITING_MOST, /* operations that waited at once */
    SUM_WAITS,        /* from here on, of the attempts that began before the failure: how many had a connection, and their waits by p50, p99 and the greatest; */
    SUM_WAITS_GAP = SUM_WAITS + 4, /* of those that began before the election; */
    SUM_WAITS_AFTER = SUM_WAITS_GAP + 4, /* of those since */
    SUM_EVENTS = SUM_WAITS_AFTER + 4, SUM_STEPS, /* of the simulation; steps of drivers */
    SUMS
};

typedef struct storm storm;

/* A run of these settings that has not begun. NULL where there is no memory. */
storm *storm_open(const settings *given);

enum { STORM_MORE, STORM_ENDED, STORM_NO_MEMORY, STORM_FAULT };

/* Goes on for so many events. STORM_FAULT where the library refused a step that it should not: the run is of no use then. */
int storm_go(storm *it, uint64_t events);

/* The samples so far, and the name of the member of this place; nothing behind the last one. */
const storm_sample *storm_samples(const storm *it, size_t *count);
const char *storm_sample_name(size_t place);

/* The sums of a run that ended, one for each place: NULL where there is no memory. */
const uint64_t *storm_sums(storm *it);

/* The name of the sum of this place; nothing behind the last one. */
const char *storm_sum_name(size_t place);

void storm_close(storm *it);

#endif
