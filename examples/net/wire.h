// Messages of the wire protocol over a connection: how commands are written, and how replies are read, whose bytes may be anything.
#ifndef NET_WIRE_H
#define NET_WIRE_H

#include "document.h"
#include "mdb_net.h"
#include "sock.h"

#define HEAD_SIZE 16
#define MESSAGE_MOST 48000000 // bytes of a message, its head included

// How a command goes to a server.
enum wire_form {
    AS_QUERY,  // OP_QUERY, which every server understands for a first hello
    AS_MESSAGE // OP_MSG
};

// A connection, and what was last said over it.
struct conn {
    struct sock sock;
    enum wire_form form;
    int32_t asked; // the number of the last command
    int32_t told;  // the server's number of the last reply
    bool more;     // which said that another one would follow
};

#define CONN_CLOSED ((struct conn){ .sock = { .fd = -1, .cancel = -1, .deadline = NO_DEADLINE } })

struct head {
    int32_t length, id, answers, code;
};

// A message that a server sent.
struct reply {
    uint8_t *body; // what follows the head, `size` bytes of the heap
    size_t size;
    bool more;               // another one will follow unasked (moreToCome)
    const uint8_t *document; // stands in the body
    uint32_t length;
};

// A command: a document, and fields that are added at its end, without the length and the zero of a document.
struct command {
    const char *database;
    mdb_net_document document;
    const uint8_t *more;
    size_t more_length;
    bool exhaust; // the server may reply more than once
};

// Reads a head. Answers whether a message of this length may come.
bool wire_head(struct head *head, const uint8_t bytes[HEAD_SIZE]);

// Finds the document in the body of a message that answers a command sent in this form. Answers whether there is exactly one, and nothing else.
bool wire_document(struct reply *reply, int32_t code, enum wire_form form);

enum net_fault wire_send(struct conn *conn, const struct command *command);

// Reads the reply to what was last sent, or the next one where more were to come. The reply is to be freed also where it failed.
enum net_fault wire_receive(struct conn *conn, struct reply *reply);

void reply_free(struct reply *reply);

#endif
