// What a connection string says.
#ifndef NET_OPTIONS_H
#define NET_OPTIONS_H

#include "address.h"
#include "credentials.h"
#include "text.h"
#include "tls.h"
#include <stdbool.h>
#include <stdint.h>

enum { SEED_MOST = 128, NOTES_ROOM = 256, APP_ROOM = 129, TAGS_ROOM = 512 };

#define FOR_EVER 1000000000u // milliseconds that stand for no bound: eleven days

// The concerns of reads and writes for commands that have none.
struct concern {
    char w[65];     // a whole number, `majority` or the name of a rule; empty where not set
    int journal;    // 0 or 1, -1 where not set
    uint64_t wait;  // wtimeoutMS, 0 where not set
    char level[65]; // readConcernLevel, empty where not set
};

struct options {
    char seeds[SEED_MOST][ADDRESS_ROOM];
    int seed_count;
    char srv_host[ADDRESS_ROOM]; // of `mongodb+srv://`, empty otherwise
    char set[65], app[APP_ROOM];
    bool direct, load_balanced;
    bool load_balanced_said; // by the connection string itself
    struct credentials who;
    char path[SOURCE_ROOM]; // the database behind the hosts, empty for none
    struct tls_options tls;
    uint32_t preference;  // MDB_NET_PRIMARY ..
    char tags[TAGS_ROOM]; // sets of tags, each as `name:value,..`, with a semicolon behind each; empty for none
    bool retry_reads, retry_writes;
    struct concern concern;
    long max, min, connecting, idle, wait;                       // -1 where not set; milliseconds
    uint64_t heartbeat, connect, selection, socket, whole, near; // milliseconds; socket and whole are 0 for no bound
    struct text notes;                                           // what was passed over
    char notes_room[NOTES_ROOM];
};

void options_begin(struct options *options);

// Reads a connection string. `wrong` tells why it was refused.
bool uri_read(struct options *options, const char *uri, struct text *wrong);

// The options of a part of them, by their names in any case; `known` is whether the part has this one. They answer whether the value is one.
typedef bool options_part(struct options *options, const char *name, const char *value, bool *known);
options_part secure_part, reads_part;

// Readers of values.
bool flag_read(const char *value, bool *out);
bool number_read(const char *value, uint64_t least, uint64_t *out); // a whole number from `least` on, at most FOR_EVER

// Sets the options of a text, each as `name=value`, with `&` between them: names in any case, values with %-escapes; a name that is not known here is noted.
// `wrong` tells which is bad.
bool options_read(struct options *options, const char *text, struct text *wrong);

// What holds where neither the connection string nor a TXT record says something.
void options_end(struct options *options);

// The `open` line of a driver with these options.
void options_line(const struct options *options, struct text *line);

#endif
