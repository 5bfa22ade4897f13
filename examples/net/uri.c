#include "options.h"
#include "mdb_net.h"
#include "scram.h"
#include <stdlib.h>
#include <string.h>
#include <strings.h>

enum { LEAST_HEARTBEAT = 500, POOL_MOST = 65535, PAIRS_ROOM = 4096 };

void options_begin(struct options *options) {
    *options = (struct options){
        .max = -1, .min = -1, .connecting = -1, .idle = -1, .wait = -1, .retry_reads = true, .retry_writes = true, .concern = { .journal = -1 }
    };
    options->heartbeat = options->connect = 10000;
    options->selection = 30000;
    options->near = 15;
    options->preference = MDB_NET_PRIMARY;
    options->notes = TEXT_IN(options->notes_room);
}

bool number_read(const char *value, uint64_t least, uint64_t *out) {
    size_t digits = strspn(value, "0123456789");
    if (digits == 0 || digits > 18 || value[digits]) return false;
    *out = strtoull(value, NULL, 10);
    return *out >= least && *out <= FOR_EVER;
}

// A number of milliseconds, of which 0 stands for no bound.
static bool bound(const char *value, uint64_t *out) {
    if (!number_read(value, 0, out)) return false;
    if (*out == 0) *out = FOR_EVER;
    return true;
}

static bool number_in(const char *value, uint64_t least, uint64_t most, long *out) {
    uint64_t read;
    if (!number_read(value, least, &read) || read > most) return false;
    *out = (long)read;
    return true;
}

bool flag_read(const char *value, bool *out) {
    *out = !strcmp(value, "true");
    return *out || !strcmp(value, "false");
}

static bool set_name(struct options *options, const char *value) {
    if (!is_name(value, strlen(value))) return false;
    strcpy(options->set, value);
    return true;
}

static bool set_app(struct options *options, const char *value) {
    if (strlen(value) >= sizeof options->app) return false;
    strcpy(options->app, value);
    return true;
}

// maxPoolSize=0 is no bound, for which the greatest stands.
static bool set_max(struct options *options, const char *value) {
    if (!number_in(value, 0, POOL_MOST, &options->max)) return false;
    if (options->max == 0) options->max = POOL_MOST;
    return true;
}

// What a connection string may say about the topology.
static bool set_topology(struct options *options, const char *name, const char *value, bool *known) {
    *known = true;
    if (!strcasecmp(name, "replicaSet")) return set_name(options, value);
    if (!strcasecmp(name, "directConnection")) return flag_read(value, &options->direct);
    if (!strcasecmp(name, "loadBalanced")) return flag_read(value, &options->load_balanced) && (options->load_balanced_said = true);
    if (!strcasecmp(name, "heartbeatFrequencyMS")) return number_read(value, LEAST_HEARTBEAT, &options->heartbeat);
    if (!strcasecmp(name, "localThresholdMS")) return number_read(value, 0, &options->near);
    if (!strcasecmp(name, "appName")) return set_app(options, value);
    return *known = false;
}

// What it may say about times and pools.
static bool set_pool(struct options *options, const char *name, const char *value, bool *known) {
    *known = true;
    if (!strcasecmp(name, "connectTimeoutMS")) return bound(value, &options->connect);
    if (!strcasecmp(name, "serverSelectionTimeoutMS")) return number_read(value, 1, &options->selection);
    if (!strcasecmp(name, "socketTimeoutMS")) return number_read(value, 0, &options->socket);
    if (!strcasecmp(name, "timeoutMS")) return number_read(value, 0, &options->whole);
    if (!strcasecmp(name, "maxPoolSize")) return set_max(options, value);
    if (!strcasecmp(name, "minPoolSize")) return number_in(value, 0, POOL_MOST, &options->min);
    if (!strcasecmp(name, "maxConnecting")) return number_in(value, 1, POOL_MOST, &options->connecting);
    if (!strcasecmp(name, "maxIdleTimeMS")) return number_in(value, 0, FOR_EVER, &options->idle);
    if (!strcasecmp(name, "waitQueueTimeoutMS")) return number_in(value, 0, FOR_EVER, &options->wait);
    return *known = false;
}

static bool option_set(struct options *options, const char *name, const char *value) {
    static options_part *const parts[] = { set_topology, set_pool, secure_part, reads_part };
    for (size_t i = 0; i < sizeof parts / sizeof *parts; i++) {
        bool known, well = parts[i](options, name, value, &known);
        if (known) return well;
    }
    text_add(&options->notes, "%s%s", options->notes.length ? ", " : "", name);
    return true;
}

static int digit(char c) {
    if (c >= '0' && c <= '9') return c - '0';
    c = (char)(c | 32);
    return c >= 'a' && c <= 'f' ? c - 'a' + 10 : -1;
}

// Takes %-escapes out, in place. Answers whether each is one, of a byte that a text may have.
static bool decode(char *text) {
    char *out = text;
    for (const char *at = text; *at; at++) {
        char c = *at;
        if (c == '%') {
            int high = digit(at[1]), low = high < 0 ? -1 : digit(at[2]);
            if (low < 0 || high * 16 + low == 0) return false;
            c = (char)(high * 16 + low);
            at += 2;
        }
        *out++ = c;
    }
    *out = 0;
    return true;
}

static bool seed_add(struct options *options, const char *bytes, size_t length) {
    char address[ADDRESS_ROOM];
    if (options->seed_count == SEED_MOST || !address_of(address, bytes, length)) return false;
    for (int i = 0; i < options->seed_count; i++) {
        if (!strcmp(options->seeds[i], address)) return true;
    }
    strcpy(options->seeds[options->seed_count++], address);
    return true;
}

static bool read_srv_host(struct options *options, const char *host, size_t length) {
    if (length == 0 || length >= 254 || memchr(host, ',', length) || memchr(host, ':', length)) return false;
    for (size_t i = 0; i < length; i++) options->srv_host[i] = (char)(host[i] >= 'A' && host[i] <= 'Z' ? host[i] + 32 : host[i]);
    options->srv_host[length] = 0;
    return true;
}

// The hosts between the scheme and the first slash or question mark.
static bool read_hosts(struct options *options, const char *hosts, size_t length) {
    for (;;) {
        const char *comma = memchr(hosts, ',', length);
        size_t one = comma ? (size_t)(comma - hosts) : length;
        if (!seed_add(options, hosts, one)) return false;
        if (!comma) return true;
        hosts += one + 1;
        length -= one + 1;
    }
}

bool options_read(struct options *options, const char *pairs, struct text *wrong) {
    char copy[PAIRS_ROOM];
    if (strlen(pairs) >= sizeof copy) return text_add(wrong, "the options are too long"), false;
    strcpy(copy, pairs);
    char *rest = copy, *pair;
    while ((pair = strsep(&rest, "&"))) {
        char *value = strchr(pair, '=');
        if (!*pair) continue;
        if (value) *value++ = 0;
        if (!value || !decode(pair) || !decode(value) || !option_set(options, pair, value)) {
            text_add(wrong, "bad option: %.100s", pair);
            return false;
        }
    }
    return true;
}

// A user and a password, each with %-escapes where it has a character that divides.
static bool read_user(struct options *options, const char *at, size_t length) {
    char copy[3 * (USER_ROOM + USER_ROOM)];
    if (length >= sizeof copy) return false;
    memcpy(copy, at, length);
    copy[length] = 0;
    char *password = strchr(copy, ':');
    if (!password) return false;
    *password++ = 0;
    if (strpbrk(copy, "@/?#[]") || strpbrk(password, ":@/?#[]") || !decode(copy) || !decode(password)) return false;
    if (!*copy || strlen(copy) >= USER_ROOM || strlen(password) >= USER_ROOM) return false;
    strcpy(options->who.user, copy);
    strcpy(options->who.password, password);
    return true;
}

// The database behind the hosts, up to the options.
static bool read_path(struct options *options, const char *path) {
    size_t length = strcspn(path, "?");
    if (length >= sizeof options->path) return false;
    memcpy(options->path, path, length);
    options->path[length] = 0;
    return decode(options->path) && (!options->path[0] || is_name(options->path, strlen(options->path)));
}

// What goes with what, once all options are read.
static const char *contradiction(const struct options *options, bool srv) {
    if (srv && options->direct) return "directConnection goes with no list of seeds";
    if (!options->who.user[0]) return NULL;
    if (!scram_is_here()) return "built without OpenSSL: there is no SCRAM, and a user cannot prove who it is";
    for (const char *at = options->who.password; *at; at++) {
        if (*at < 32 || *at > 126) return "the password has other characters than those of ASCII that are printed";
    }
    return NULL;
}

bool uri_read(struct options *options, const char *uri, struct text *wrong) {
    bool srv = !strncmp(uri, "mongodb+srv://", 14);
    if (!srv && strncmp(uri, "mongodb://", 10) != 0) return text_add(wrong, "the scheme is mongodb:// or mongodb+srv://"), false;
    const char *hosts = uri + (srv ? 14 : 10);
    size_t length = strcspn(hosts, "/?");
    const char *at = memrchr(hosts, '@', length), *rest = hosts + length;
    if (at && !read_user(options, hosts, (size_t)(at - hosts))) return text_add(wrong, "bad user or password"), false;
    if (at) length -= (size_t)(at + 1 - hosts), hosts = at + 1;
    bool well = srv ? read_srv_host(options, hosts, length) : read_hosts(options, hosts, length);
    if (!well) return text_add(wrong, "bad hosts"), false;
    if (*rest == '/' && !read_path(options, rest + 1)) return text_add(wrong, "bad name of a database"), false;
    options->tls.on = srv;
    const char *pairs = strchr(rest, '?');
    if (pairs && !options_read(options, pairs + 1, wrong)) return false;
    const char *against = contradiction(options, srv);
    return !against || (text_add(wrong, "%s", against), false);
}

void options_end(struct options *options) {
    const char *source = options->path[0] ? options->path : "admin";
    if (!options->who.source[0]) strcpy(options->who.source, source);
}

static void line_add(struct text *line, const char *name, long value) {
    if (value >= 0) text_add(line, " %s=%ld", name, value);
}

void options_line(const struct options *options, struct text *line) {
    text_add(line, "open seeds=");
    for (int i = 0; i < options->seed_count; i++) text_add(line, "%s%s", i ? "," : "", options->seeds[i]);
    if (options->set[0]) text_add(line, " set=%s", options->set);
    if (options->direct) text_add(line, " direct");
    if (options->load_balanced) text_add(line, " lb");
    line_add(line, "max", options->max);
    line_add(line, "min", options->min);
    line_add(line, "connecting", options->connecting);
    line_add(line, "idle", options->idle);
    line_add(line, "wait", options->wait);
    text_add(line, " heartbeat=%llu connect=%llu", (unsigned long long)options->heartbeat, (unsigned long long)options->connect);
}
