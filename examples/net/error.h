// Errors, as lines of libmdb have them: `network msg=..`, `command.10107 labels=.. tv=.. msg=..`.
#ifndef NET_ERROR_H
#define NET_ERROR_H

#include "text.h"
#include "wire.h"

#define ERROR_ROOM 2048

// What went wrong on a connection; with a shortage of this machine it has the label by which no server is blamed.
void error_of_fault(struct text *line, enum net_fault fault, const char *doing);

// TLS could not begin; `why` may say more.
void error_of_tls(struct text *line, const char *why);

// What a fault on a connection is to the caller.
mdb_net_code code_of_fault(enum net_fault fault);

// A reply of a server that has another form than a reply must have.
void error_of_form(struct text *line, const char *what);

// What a reply says of a cursor.
struct cursor_reply {
    bool found;
    int64_t id;           // 0 where it is at its end
    const uint8_t *batch; // a list of documents, in the reply
    uint32_t length;
    char collection[256]; // what stands behind the database in `ns`
};

// Labels of errors that mean something here.
enum { LABEL_RETRYABLE_WRITE = 1, LABEL_NO_WRITES = 2 };

// What a reply tells of the command.
struct verdict {
    mdb_net_code code; // OK, COMMAND, CONCERN, WRITES, or NETWORK where the bytes are no document
    int32_t server_code;
    uint32_t labels; // LABEL_
    uint64_t time;   // of `$clusterTime`, 0 where it tells none; the document stands in the reply
    const uint8_t *time_document;
    uint32_t time_length;
    struct cursor_reply cursor;
};

// Reads a reply; `line` is the error that it tells, where it does. Of an error in single writes libmdb is told nothing.
struct verdict error_of_reply(struct text *line, const struct reply *reply);

// Whether a server says by this code that it is no primary, or no longer one, or shuts down (SDAM, "Determining if an error is a state change error").
bool is_state_change(int32_t code);

#endif
