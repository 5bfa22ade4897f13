// Seed lists from DNS (`mongodb+srv://`), and their polling.
#ifndef NET_SRV_H
#define NET_SRV_H

#include "client.h"

// What lookups need room for. `dns` is the address of a server of names, empty for the machine's. NULL where there is no memory.
struct lookup *lookup_new(const char *dns);
void lookup_free(struct lookup *lookup);

// Looks up the seeds of the host and the options of its TXT record. `wrong` tells why there are none.
bool srv_resolve(struct lookup *lookup, struct options *options, struct text *wrong);

// The thread that looks the seeds up again while the topology is Unknown or Sharded.
void *srv_poll(void *client);

#endif
