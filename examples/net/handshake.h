// One hello over a connection: sent, answered, and read.
#ifndef NET_HANDSHAKE_H
#define NET_HANDSHAKE_H

#include "error.h"
#include "hello.h"
#include "tls.h"
#include <mdb.h>

// What a hello came to: where it is `ok` there is an answer, and else the text is an error.
struct handshake {
    bool ok;
    bool network; // the error is one of the network
    bool more;    // the server will reply again, unasked
    enum net_fault fault;
    uint64_t nanos;      // from the first byte of the command to the last one of the reply, without the lookup of the name and the connecting
    struct reply answer; // until handshake_end
    struct hello_reply reply;
    struct text text;
    char room[ERROR_ROOM];
};

// Sends the hello where there is one, and reads the reply to it, or the next reply.
void handshake_again(struct handshake *shake, struct conn *conn, const struct hello *hello);

// Connects, begins TLS where there is a context for it, and greets the server for the first time; from then on commands have the form that it understands.
void handshake_first(struct handshake *shake, struct conn *conn, const struct hello *hello, const struct tls_context *tls, const char *address);

// The answer is none, as libmdb found out: the hello has failed.
void handshake_refuse(struct handshake *shake, const mdb_document_fault *bad);

// Frees the answer. After each hello.
void handshake_end(struct handshake *shake);

#endif
