/* What a storm is made of: the settings of its drivers, the load, the servers and how one of them fails. Each is a number with bounds and a default. */
#ifndef SETTINGS_H
#define SETTINGS_H

#include <stdbool.h>
#include <stddef.h>
#include <stdint.h>

enum { DEATH_REFUSED, DEATH_SILENT, DEATH_STEPDOWN };

typedef struct settings {
    /* of the drivers; no limit and no timeout where it is 0 */
    uint32_t max_pool_size, min_pool_size, max_connecting;
    uint32_t wait_queue_timeout, max_idle_time, connect_timeout, heartbeat, selection_timeout; /* milliseconds */
    uint32_t retries;                                                                          /* 1 where an operation is tried once more */
    /* of the load */
    uint32_t clients, operations, operation_time; /* drivers; operations a second of all together; milliseconds of one at the server */
    /* of the network and the servers */
    uint32_t round_trip, connect_time; /* milliseconds */
    uint32_t accepts;                  /* connections that a server accepts a second; no limit where it is 0 */
    /* of the failure */
    uint32_t death, fails_at, election; /* DEATH_; milliseconds */
    /* of the run */
    uint32_t length, sample, seed; /* milliseconds; 0 where operations come at even times */
} settings;

/* The defaults: those of the standards, which most drivers keep. */
settings settings_default(void);

/* Reads `NAME=VALUE`, any number of them between spaces and newlines, with notes from `#` to the end of a line. Answers where the first word stands that
 * cannot be read, and `length` where all were; the settings are then those that were read before it. */
size_t settings_read(settings *to, const char *words, size_t length);

/* The name of the setting of this place; nothing behind the last one. Its value, and the word for it, where it has words. */
const char *settings_name(size_t place);
uint32_t settings_value(const settings *of, size_t place);
const char *settings_word(const settings *of, size_t place);

#endif
