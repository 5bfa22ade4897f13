#include "settings.h"
#include <string.h>

struct setting {
    const char *name;
    size_t place;
    uint32_t usual, least, most;
};

#define SETTING(name, member, ...) { name, offsetof(settings, member), __VA_ARGS__ }

enum { HOUR = 3600000 };

static const struct setting table[] = {
    SETTING("maxPoolSize", max_pool_size, 100, 0, 1000),
    SETTING("minPoolSize", min_pool_size, 0, 0, 1000),
    SETTING("maxConnecting", max_connecting, 2, 0, 1000),
    SETTING("waitQueueTimeoutMS", wait_queue_timeout, 0, 0, HOUR),
    SETTING("maxIdleTimeMS", max_idle_time, 0, 0, HOUR),
    SETTING("connectTimeoutMS", connect_timeout, 10000, 1, HOUR),
    SETTING("heartbeatFrequencyMS", heartbeat, 10000, 500, HOUR),
    SETTING("serverSelectionTimeoutMS", selection_timeout, 30000, 1, HOUR),
    SETTING("retries", retries, 1, 0, 1),
    SETTING("clients", clients, 50, 1, 100000),
    SETTING("operationsPerSecond", operations, 2000, 1, 1000000),
    SETTING("operationMS", operation_time, 5, 0, 60000),
    SETTING("roundTripMS", round_trip, 1, 0, 10000),
    SETTING("connectMS", connect_time, 20, 0, 60000),
    SETTING("acceptsPerSecond", accepts, 1000, 0, 1000000),
    SETTING("death", death, DEATH_REFUSED, 0, DEATH_STEPDOWN),
    SETTING("failsAtMS", fails_at, 5000, 0, HOUR),
    SETTING("electionMS", election, 5000, 0, HOUR),
    SETTING("lengthMS", length, 20000, 1, HOUR),
    SETTING("sampleMS", sample, 100, 1, HOUR),
    SETTING("seed", seed, 1, 0, UINT32_MAX),
};

enum { SETTINGS = sizeof table / sizeof *table };

static const char *const deaths[] = {"refused", "silent", "stepdown"};

static uint32_t *member(settings *of, size_t place) { return (uint32_t *)((char *)of + table[place].place); }

const char *settings_name(size_t place) { return place < SETTINGS ? table[place].name : NULL; }

uint32_t settings_value(const settings *of, size_t place) { return *(const uint32_t *)((const char *)of + table[place].place); }

const char *settings_word(const settings *of, size_t place) { return table[place].place == offsetof(settings, death) ? deaths[of->death] : NULL; }

settings settings_default(void) {
    settings made;
    for (size_t i = 0; i < SETTINGS; i++) *member(&made, i) = table[i].usual;
    return made;
}

static bool is_word(const char *words, size_t length, const char *word) { return strlen(word) == length && memcmp(words, word, length) == 0; }

/* The number that a word spells, or UINT64_MAX. */
static uint64_t number_of(const char *words, size_t length) {
    uint64_t number = 0;
    if (length == 0 || length > 10) return UINT64_MAX;
    for (size_t i = 0; i < length; i++) {
        if (words[i] < '0' || words[i] > '9') return UINT64_MAX;
        number = 10 * number + (uint64_t)(words[i] - '0');
    }
    return number;
}

static bool read_value(uint32_t *to, const struct setting *of, const char *words, size_t length) {
    uint64_t number = number_of(words, length);
    for (uint32_t i = 0; of->place == offsetof(settings, death) && i <= DEATH_STEPDOWN; i++)
        if (is_word(words, length, deaths[i])) number = i;
    if (number < of->least || number > of->most) return false;
    *to = (uint32_t)number;
    return true;
}

static bool read_word(settings *to, const char *words, size_t length) {
    const char *sign = memchr(words, '=', length);
    size_t name = sign ? (size_t)(sign - words) : length;
    for (size_t i = 0; sign && i < SETTINGS; i++)
        if (is_word(words, name, table[i].name)) return read_value(member(to, i), &table[i], sign + 1, length - name - 1);
    return false;
}

static bool is_space(char it) { return it == ' ' || it == '\n' || it == '\r' || it == '\t'; }

size_t settings_read(settings *to, const char *words, size_t length) {
    size_t at = 0;
    while (at < length) {
        size_t end = at;
        if (words[at] == '#') {
            while (at < length && words[at] != '\n') at++;
            continue;
        }
        while (end < length && !is_space(words[end])) end++;
        if (end > at && !read_word(to, words + at, end - at)) return at;
        at = end + 1;
    }
    return length;
}
