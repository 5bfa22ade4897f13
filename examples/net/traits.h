// What a command is, by its name and its fields, as far as the standards of retryable reads, retryable writes and sessions ask for it.
#ifndef NET_TRAITS_H
#define NET_TRAITS_H

#include "mdb_net.h"

enum command_kind {
    COMMAND_OTHER, // is tried once
    COMMAND_READ,  // "Retryable Reads", "Supported Read Operations"
    COMMAND_WRITE  // "Retryable Writes", "Supported Write Operations": each of its statements changes at most one document
};

struct traits {
    enum command_kind kind;
    char name[32], collection[256]; // the collection is the text behind the name, empty where there is none
    // Fields that its caller wrote, and which are not added then.
    bool has_session, has_number, has_preference, has_time, has_concern;
    bool reads, writes;  // by its name, outside of a transaction: a read or a write concern belongs to it
    bool unacknowledged; // its write concern is 0
    bool tailable;       // its cursor does not end with its documents
};

// Reads a document, which may be anything.
struct traits traits_of(mdb_net_document document);

#endif
