// Addresses of servers, as the library spells them: `host:port` or `[v6]:port`, in small letters, the port written.
#ifndef NET_ADDRESS_H
#define NET_ADDRESS_H

#include <stdbool.h>
#include <stddef.h>

#define ADDRESS_ROOM 272

// Spells an address of any case, with 27017 where no port is written. Answers whether it is one.
bool address_of(char out[ADDRESS_ROOM], const char *bytes, size_t length);

// Cuts a spelled address into a host without brackets, and a port.
void address_cut(const char *address, char host[ADDRESS_ROOM], char port[8]);

#endif
