// What a connection string says of where commands go, of their concerns, and which of them are tried once more.
#include "mdb_net.h"
#include "options.h"
#include <string.h>
#include <strings.h>

static bool set_preference(struct options *options, const char *value) {
    static const char *const names[] = { "primary", "primaryPreferred", "secondary", "secondaryPreferred", "nearest" };
    for (uint32_t i = 0; i < sizeof names / sizeof *names; i++) {
        if (strcasecmp(value, names[i])) continue;
        options->preference = MDB_NET_PRIMARY + i;
        return true;
    }
    return false;
}

// One set more; an empty one fits every server.
static bool add_tags(struct options *options, const char *value) {
    size_t length = strlen(options->tags), more = strlen(value);
    if (strchr(value, ';') || length + more + 2 > sizeof options->tags) return false;
    memcpy(options->tags + length, value, more);
    strcpy(options->tags + length + more, ";");
    return true;
}

static bool set_word(const char *value, char out[65]) {
    if (!is_name(value, strlen(value))) return false;
    strcpy(out, value);
    return true;
}

static bool set_journal(struct concern *concern, const char *value) {
    bool on = false;
    if (!flag_read(value, &on)) return false;
    concern->journal = on;
    return true;
}

bool reads_part(struct options *options, const char *name, const char *value, bool *known) {
    *known = true;
    if (!strcasecmp(name, "readPreference")) return set_preference(options, value);
    if (!strcasecmp(name, "readPreferenceTags")) return add_tags(options, value);
    if (!strcasecmp(name, "maxStalenessSeconds")) return !strcmp(value, "-1"); // libmdb keeps no `lastWrite`
    if (!strcasecmp(name, "w")) return set_word(value, options->concern.w);
    if (!strcasecmp(name, "journal")) return set_journal(&options->concern, value);
    if (!strcasecmp(name, "wtimeoutMS")) return number_read(value, 0, &options->concern.wait);
    if (!strcasecmp(name, "readConcernLevel")) return set_word(value, options->concern.level);
    if (!strcasecmp(name, "retryReads")) return flag_read(value, &options->retry_reads);
    if (!strcasecmp(name, "retryWrites")) return flag_read(value, &options->retry_writes);
    return *known = false;
}
