// The command that greets a server, and what a connection has to know of the reply. What it says of the server libmdb reads by itself.
#ifndef NET_HELLO_H
#define NET_HELLO_H

#include "wire.h"

enum { HELLO_MOST = 65536 }; // bytes of a reply that is read

// What a hello is to say.
struct hello {
    bool load_balanced;
    bool first;    // the first command of a connection: with `client`
    bool legacy;   // by the older name
    bool asks;     // with helloOk
    bool awaits;   // with the version below, and the greatest time
    uint64_t most; // milliseconds
    uint8_t process[12];
    int64_t counter;
    const char *app; // `appName`, empty for none
};

// Writes the command. Its database, admin, stands in the document where it goes as a message.
void hello_command(struct document *document, const struct hello *hello, bool as_message);

// What a reply says of the connection.
struct hello_reply {
    bool hello_known, has_service;
    int32_t wire;     // maxWireVersion
    int64_t server;   // connectionId, -1 where absent
    char service[25]; // serviceId, in hex digits
};

void hello_read(const struct reply *reply, struct hello_reply *read);

#endif
