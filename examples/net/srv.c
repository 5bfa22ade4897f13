#include "srv.h"
#include "driver.h"
#include <arpa/inet.h>
#include <arpa/nameser.h>
#include <netdb.h>
#include <netinet/in.h>
#include <resolv.h>
#include <stdio.h>
#include <stdlib.h>
#include <string.h>

enum { ANSWER_ROOM = 65536, HOSTS_ROOM = SEED_MOST * ADDRESS_ROOM, TXT_ROOM = 1024 };

struct lookup {
    char dns[ADDRESS_ROOM];
    char hosts[SEED_MOST][ADDRESS_ROOM]; // what was found
    int count;
    uint32_t ttl;
    unsigned char answer[ANSWER_ROOM];
    char listed[HOSTS_ROOM], kept[HOSTS_ROOM];
    struct options from_txt;
};

struct lookup *lookup_new(const char *dns) {
    struct lookup *lookup = calloc(1, sizeof *lookup);
    if (lookup) snprintf(lookup->dns, sizeof lookup->dns, "%s", dns);
    return lookup;
}

void lookup_free(struct lookup *lookup) { free(lookup); }

static bool open_resolver(struct __res_state *state, const char *dns) {
    char host[ADDRESS_ROOM], port[8];
    memset(state, 0, sizeof *state);
    if (res_ninit(state) != 0) return false;
    if (!dns[0]) return true;
    address_cut(dns, host, port);
    state->nscount = 1;
    state->nsaddr_list[0] = (struct sockaddr_in){ .sin_family = AF_INET, .sin_port = htons((uint16_t)atoi(port)) };
    if (inet_pton(AF_INET, host, &state->nsaddr_list[0].sin_addr) == 1) return true;
    res_nclose(state);
    return false;
}

// Asks for the records; the length of the answer, 0 where there is none, -1 where the lookup failed.
static int ask(struct lookup *lookup, const char *name, int type) {
    struct __res_state state;
    if (!open_resolver(&state, lookup->dns)) return -1;
    int length = res_nquery(&state, name, ns_c_in, type, lookup->answer, ANSWER_ROOM);
    bool nothing = state.res_h_errno == HOST_NOT_FOUND || state.res_h_errno == NO_DATA;
    res_nclose(&state);
    return length >= 0 ? length < ANSWER_ROOM ? length : ANSWER_ROOM : nothing ? 0 : -1;
}

// Takes one SRV record.
static bool take_srv(const ns_msg *message, const ns_rr *record, struct lookup *found) {
    char target[NS_MAXDNAME], spelled[NS_MAXDNAME + 8];
    if (ns_rr_rdlen(*record) < 7 || found->count == SEED_MOST) return false;
    if (dn_expand(ns_msg_base(*message), ns_msg_end(*message), ns_rr_rdata(*record) + 6, target, sizeof target) < 0) return false;
    size_t length = strlen(target);
    if (length && target[length - 1] == '.') target[length - 1] = 0;
    snprintf(spelled, sizeof spelled, "%s:%u", target, ns_get16(ns_rr_rdata(*record) + 4));
    if (!address_of(found->hosts[found->count], spelled, strlen(spelled))) return false;
    found->count++;
    if (ns_rr_ttl(*record) < found->ttl) found->ttl = ns_rr_ttl(*record);
    return true;
}

static bool look_up(const char *host, struct lookup *found) {
    char query[ADDRESS_ROOM + 20];
    ns_msg message;
    ns_rr record;
    found->count = 0;
    found->ttl = UINT32_MAX;
    snprintf(query, sizeof query, "_mongodb._tcp.%s", host);
    int length = ask(found, query, ns_t_srv);
    if (length == 0) return true;
    if (length < 0 || ns_initparse(found->answer, length, &message) < 0) return false;
    for (int i = 0; i < ns_msg_count(message, ns_s_an); i++) {
        if (ns_parserr(&message, ns_s_an, i, &record) < 0) return false;
        if (ns_rr_type(record) == ns_t_srv && !take_srv(&message, &record, found)) return false;
    }
    return true;
}

// Leaves the hosts that libmdb accepts: all of them or none with MDB_STRANGERS_REFUSE, and those of the domain with MDB_STRANGERS_LEFT_OUT.
static bool accept_hosts(const char *name, struct lookup *found, uint32_t strangers, struct text *wrong) {
    struct text hosts = TEXT_IN(found->listed);
    char *rest = found->kept, *host;
    size_t length = 0;
    found->listed[0] = 0;
    for (int i = 0; i < found->count; i++) text_add(&hosts, "%s%s", i ? "," : "", found->hosts[i]);
    mdb_status status =
        mdb_srv_hosts(bytes_of(name), strlen(name), bytes_of(found->listed), hosts.length, strangers, (uint8_t *)found->kept, HOSTS_ROOM - 1, &length);
    found->kept[length < HOSTS_ROOM ? length : 0] = 0;
    found->count = 0;
    if (status != MDB_OK) return text_add(wrong, "%s", status == MDB_BAD_RECORDS ? found->kept : "the hosts of the SRV records are bad"), false;
    while ((host = strsep(&rest, ","))) snprintf(found->hosts[found->count++], ADDRESS_ROOM, "%s", host);
    return true;
}

// Sets what the records say, of which there are so many; `text` are the strings of the first.
static bool set_options(struct options *options, uint32_t count, const char *text, size_t length, struct text *wrong) {
    char said[2048];
    size_t needed = 0;
    mdb_status status =
        mdb_srv_txt(bytes_of(options->srv_host), strlen(options->srv_host), count, bytes_of(text), length, (uint8_t *)said, sizeof said - 1, &needed);
    said[needed < sizeof said ? needed : 0] = 0;
    if (status == MDB_OK) return options_read(options, said, wrong);
    return text_add(wrong, "%s", status == MDB_BAD_RECORDS ? said : "the TXT record is too long"), false;
}

// Joins the strings of a TXT record behind the text.
static bool join(const ns_rr *record, char joined[TXT_ROOM], size_t *length) {
    const unsigned char *at = ns_rr_rdata(*record), *end = at + ns_rr_rdlen(*record);
    for (; at < end && at + 1 + *at <= end; at += 1 + *at) {
        if (*length + *at > TXT_ROOM) return false;
        memcpy(joined + *length, at + 1, *at);
        *length += *at;
    }
    return true;
}

static bool read_txt(struct lookup *lookup, struct text *wrong) {
    struct options *options = &lookup->from_txt;
    char joined[TXT_ROOM];
    size_t length = 0;
    uint32_t records = 0;
    ns_msg message;
    ns_rr record;
    int told = ask(lookup, options->srv_host, ns_t_txt);
    bool read = told == 0 || (told > 0 && ns_initparse(lookup->answer, told, &message) == 0);
    for (int i = 0; read && told > 0 && i < ns_msg_count(message, ns_s_an); i++) {
        read = ns_parserr(&message, ns_s_an, i, &record) == 0;
        if (!read || ns_rr_type(record) != ns_t_txt || ++records > 1) continue;
        if (!join(&record, joined, &length)) return text_add(wrong, "the TXT record is too long"), false;
    }
    return read ? set_options(options, records, joined, length, wrong) : (text_add(wrong, "the resolver failed"), false);
}

bool srv_resolve(struct lookup *lookup, struct options *options, struct text *wrong) {
    struct options *from_txt = &lookup->from_txt;
    if (!look_up(options->srv_host, lookup)) return text_add(wrong, "the resolver failed"), false;
    options_begin(from_txt);
    strcpy(from_txt->srv_host, options->srv_host);
    if (!accept_hosts(options->srv_host, lookup, MDB_STRANGERS_REFUSE, wrong) || !read_txt(lookup, wrong)) return false;
    // What the connection string says counts before the TXT record.
    if (!options->set[0]) strcpy(options->set, from_txt->set);
    if (!options->who.source[0]) strcpy(options->who.source, from_txt->who.source);
    if (!options->load_balanced_said) options->load_balanced = from_txt->load_balanced;
    memcpy(options->seeds, lookup->hosts, sizeof options->seeds);
    options->seed_count = lookup->count;
    return true;
}

static void tell_hosts(client_t *client, struct lookup *found) {
    struct text hosts = TEXT_IN(found->listed);
    struct step step = { .text = found->listed };
    for (int i = 0; i < found->count; i++) text_add(&hosts, "%s%s", i ? "," : "", found->hosts[i]);
    client_lock(client);
    if (!client->stopping) driver_step(client, hosts_step, &step);
    client_unlock(client);
}

// Sleeps for so many seconds, or until the client stops. Answers whether the topology is one whose records are looked up.
static bool sleep_until_poll(client_t *client, uint64_t seconds) {
    uint64_t until = clock_now() + seconds * 1000 * MILLISECOND;
    mdb_topology topology = { .kind = 0 };
    client_lock(client);
    while (!client->stopping && clock_now() < until) client_wait(client, &client->changed, until);
    bool polled = !client->stopping && mdb_topology_get(&client->slot, &topology) == MDB_OK && topology.polled;
    client_unlock(client);
    return polled;
}

static bool is_stopping(client_t *client) {
    client_lock(client);
    bool stopping = client->stopping;
    client_unlock(client);
    return stopping;
}

void *srv_poll(void *given) {
    client_t *client = given;
    struct lookup *lookup = client->lookup;
    uint64_t heartbeat = client->options.heartbeat / 1000, interval = mdb_srv_rescan(1, lookup->ttl, heartbeat);
    while (!is_stopping(client)) {
        char room[512];
        struct text wrong = TEXT_IN(room);
        if (!sleep_until_poll(client, client->rescan ? client->rescan : interval)) continue;
        bool well = look_up(client->options.srv_host, lookup) && accept_hosts(client->options.srv_host, lookup, MDB_STRANGERS_LEFT_OUT, &wrong);
        interval = mdb_srv_rescan(well ? (uint32_t)lookup->count : 0, lookup->ttl, heartbeat);
        if (well) tell_hosts(client, lookup);
    }
    return NULL;
}
