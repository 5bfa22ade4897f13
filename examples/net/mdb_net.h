/* A client of MongoDB's servers on sockets, over the proved pools and topology of libmdb: monitors, pools of connections, and commands with a deadline.
 *
 * A program may have any number of clients. A client has threads of its own; any thread may use it. The library writes to no stream, ends no process, calls
 * nobody back and keeps nothing outside its clients: each error is answered, and what happens is told through `mdb_net_take`.
 *
 * Documents are BSON as bytes, of any library; times are in milliseconds. */
#ifndef MDB_NET_H
#define MDB_NET_H

#include <stdbool.h>
#include <stddef.h>
#include <stdint.h>

#ifdef __cplusplus
extern "C" {
#endif

#if defined(__GNUC__)
#pragma GCC visibility push(default)
#endif

typedef struct mdb_net_client mdb_net_client;

/* ---- errors */

typedef enum mdb_net_code {
    MDB_NET_OK = 0,
    MDB_NET_NO_MEMORY, /* there was none here; a client that found none for seconds has ended */
    MDB_NET_NO_FILES,  /* this process or machine has no more sockets or files */
    MDB_NET_NO_THREAD, /* a thread could not be started */
    MDB_NET_OPTIONS,   /* the connection string or an argument is refused: the text says why */
    MDB_NET_DNS,       /* the SRV or TXT records of the name could not be looked up, or break a rule */
    MDB_NET_CLOSED,    /* the client has been stopped */
    MDB_NET_CANCELLED, /* by mdb_net_cancel_now */
    MDB_NET_NO_SERVER, /* no server that the read preference allows, in time */
    MDB_NET_TIMED_OUT, /* the deadline, or the time for which a caller may wait for a connection */
    MDB_NET_CLEARED,   /* the pool of the server is paused, or was cleared while the caller waited */
    MDB_NET_NETWORK,   /* the connection failed, or could not be established, or the bytes that came are no reply */
    MDB_NET_COMMAND,   /* the server answered that the command failed: `server_code` */
    MDB_NET_CONCERN,   /* it was done, but not as far as its write concern asks: `server_code` */
    MDB_NET_WRITES,    /* some of its writes failed: `server_code` of the first one; the reply says which */
    MDB_NET_AUTH,      /* the server does not take the user, or does not know the password itself */
    MDB_NET_INTERNAL   /* libmdb refused a step that this library made: a fault of this library */
} mdb_net_code;

enum { MDB_NET_TEXT = 256 };

typedef struct mdb_net_err {
    mdb_net_code code;
    int32_t server_code; /* a server's number of the error, 0 where it told none */
    bool changed;        /* the error changed what is known of the servers, or cleared a pool */
    bool retried;        /* the command had been tried once before */
    bool sent;           /* the server may have done the command */
    char text[MDB_NET_TEXT];
} mdb_net_err;

/* ---- clients */

typedef struct mdb_net_options {
    uint32_t tells;  /* MDB_NET_TELLS_ of what mdb_net_take is to tell */
    uint32_t room;   /* how many bytes of each stream are kept for mdb_net_take; 0 is 4 MiB */
    uint32_t rescan; /* after how many seconds SRV records are looked up again; 0 is as the standard has it */
    const char *dns; /* `host:port` of a server of names in place of the machine's; NULL for none */
} mdb_net_options;

/* Opens a client for a connection string; `options` may be NULL. It begins to monitor the servers, and connects as it is used. What was passed over in the
 * string is named in err->text, also where the client was opened. OPTIONS, DNS, NO_MEMORY, NO_THREAD. */
mdb_net_code mdb_net_open(const char *uri, const mdb_net_options *options, mdb_net_client **client, mdb_net_err *err);

/* Ends the commands that run, closes every connection and waits for the client's threads. What it told can still be taken. Answers MDB_NET_OK, or why the
 * client had ended before: NO_MEMORY or INTERNAL. A second stop does nothing, and where the first one is not over it waits for its end. */
mdb_net_code mdb_net_stop(mdb_net_client *client);

/* Why a client has ended by itself: NO_MEMORY or INTERNAL; OK while it has not. */
mdb_net_code mdb_net_failed(mdb_net_client *client);

/* Frees the client, after a stop. Nobody may use it from then on. NULL is nothing. */
void mdb_net_free(mdb_net_client *client);

/* ---- commands */

typedef struct mdb_net_document {
    const uint8_t *at;
    size_t length;
} mdb_net_document;

/* A reply, which its receiver frees. */
typedef struct mdb_net_reply {
    mdb_net_document document; /* stands in `body` */
    uint8_t *body;
} mdb_net_reply;

void mdb_net_reply_free(mdb_net_reply *reply);

/* read preference ("Server Selection") */
enum {
    MDB_NET_DEFAULT = 0, /* for a command that reads that of the connection string, for any other MDB_NET_PRIMARY */
    MDB_NET_PRIMARY,
    MDB_NET_PRIMARY_PREFERRED,
    MDB_NET_SECONDARY,
    MDB_NET_SECONDARY_PREFERRED,
    MDB_NET_NEAREST
};

/* By this another thread ends a command; of one command at a time. Once that was done it ends each command that is given it. */
typedef struct mdb_net_cancel mdb_net_cancel;
mdb_net_code mdb_net_cancel_new(mdb_net_client *client, mdb_net_cancel **cancel);
void mdb_net_cancel_now(mdb_net_cancel *cancel);
void mdb_net_cancel_free(mdb_net_cancel *cancel); /* before its client */

/* A session: commands that are given the same one are told apart by it at the servers. Of one thread at a time. Each command without one has its own
 * while it runs. */
typedef struct mdb_net_session mdb_net_session;
mdb_net_code mdb_net_session_new(mdb_net_client *client, mdb_net_session **session);
void mdb_net_session_free(mdb_net_session *session); /* before its client */

typedef struct mdb_net_command_options {
    uint64_t timeout;    /* for all of it; 0 is `timeoutMS` of the connection string, and without that each part has its own bound */
    uint32_t preference; /* MDB_NET_DEFAULT .. */
    const char *tags;    /* sets of tags that the server is to have, `dc:ny,rack:1`, with a semicolon between them: the first one that fits a server counts.
                          * NULL with MDB_NET_DEFAULT for those of the connection string */
    bool once;           /* as a command that the driver knows nothing of ("runCommand"): it is not tried again, and reads at the primary */
    mdb_net_session *session; /* NULL for none */
    mdb_net_cancel *cancel;   /* NULL for none */
    int32_t batch;            /* of a cursor: how many documents `getMore` asks for, 0 as the server likes */
    uint32_t await;           /* of a cursor that is tailable and awaits data: for how many milliseconds `getMore` may wait, 0 as the server likes */
} mdb_net_command_options;

/* Runs a command: chooses a server, checks a connection out, sends, reads the reply and checks the connection in. `$db`, `$readPreference`, `lsid`,
 * `txnNumber` and `$clusterTime` are added to the document, but those that it has. `options` may be NULL. Each of `reply` and `err` may be NULL; a reply is
 * there where a server told one: at OK, COMMAND, CONCERN and WRITES.
 *
 * A command that the standards of retryable reads and writes name, and which changes at most one document by each statement, is tried once more after the
 * errors that they name, on another server where one fits: reads unless `retryReads`, writes unless `retryWrites` is false. */
mdb_net_code mdb_net_command(mdb_net_client *client, const char *database, mdb_net_document command, const mdb_net_command_options *options,
                             mdb_net_reply *reply, mdb_net_err *err);

/* ---- cursors */

/* The documents that a command answers batch by batch. Of one thread at a time. Behind a load balancer its connection is pinned until it is at its end. */
typedef struct mdb_net_cursor mdb_net_cursor;

/* Runs a command that opens a cursor, as mdb_net_command does; its options hold for each batch. INTERNAL where the reply has none. */
mdb_net_code mdb_net_cursor_open(mdb_net_client *client, const char *database, mdb_net_document command, const mdb_net_command_options *options,
                                 mdb_net_cursor **cursor, mdb_net_err *err);

/* The next document, which stays until the next call. Its `at` is NULL behind the last one, and where a tailable cursor has none now. */
mdb_net_code mdb_net_cursor_next(mdb_net_cursor *cursor, mdb_net_document *document, mdb_net_err *err);

/* Whether the server keeps it still. */
bool mdb_net_cursor_is_open(const mdb_net_cursor *cursor);

/* Ends it, at the server too where it is open there: before its client and its session. */
void mdb_net_cursor_free(mdb_net_cursor *cursor);

/* ---- what happens */

enum {
    MDB_NET_TELLS_TOPOLOGY = 1, /* a line of the topology, at each change: `TYPE address=TYPE,..`, or `TYPE -` */
    MDB_NET_TELLS_EVENTS = 2,   /* the events of CMAP and of SDAM monitoring, each as docs/SCRIPT.md spells a fact */
    MDB_NET_TELLS_ENTRIES = 4   /* the entry of each step, with its newline, as the auditor reads them */
};

enum { MDB_NET_LINES = 0, MDB_NET_LOG = 1 }; /* the streams: topology and events, entries */

typedef struct mdb_net_notice {
    uint64_t nanos; /* since the client was opened */
    uint32_t kind;  /* MDB_NET_TELLS_ */
    uint32_t length;
    const char *text; /* no zero at its end */
} mdb_net_notice;

/* What was told since the last take: it belongs to the taker until its next take of that stream, or the end of the client. */
typedef struct mdb_net_batch {
    const uint8_t *at;
    size_t length;
    uint64_t lost; /* how many were left out before it, since the room was full; the last line of the topology is told again then */
} mdb_net_batch;

/* Takes what there is of a stream, and waits for something for at most so many milliseconds. One thread takes a stream. OK, also with nothing after the time;
 * CLOSED where the client has been stopped and all was taken. */
mdb_net_code mdb_net_take(mdb_net_client *client, uint32_t stream, uint32_t milliseconds, mdb_net_batch *batch);

/* The next one of a batch; false behind the last. */
bool mdb_net_next(mdb_net_batch *batch, mdb_net_notice *notice);

/* Counted from the facts of libmdb. */
typedef struct mdb_net_counts {
    uint64_t created, checked_out, cleared;
    uint64_t stale, idle, errored, dropped, pool_closed; /* closed connections, by reason */
    uint64_t greatest_wait;                              /* milliseconds of a check-out */
    uint64_t shortages;                                  /* how often memory, files or threads were missing here */
} mdb_net_counts;

void mdb_net_counted(mdb_net_client *client, mdb_net_counts *counts);

#if defined(__GNUC__)
#pragma GCC visibility pop
#endif

#ifdef __cplusplus
}
#endif

#endif
