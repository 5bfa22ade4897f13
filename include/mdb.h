/* The connection pools and the server discovery of a MongoDB driver, proved: the static library of crates/mdb_c.
 *
 * A driver is a state machine. It opens no socket, reads no clock and starts no thread: its user tells it what happened, one step at a time, and it
 * answers with a reply and with facts, in the order in which they became true. A step is atomic: it is done whole or not at all. The rules are
 * those of the public standards "Connection Monitoring and Pooling" (CMAP) and "Server Discovery and Monitoring" (SDAM).
 *
 * Two layers lead to one driver, and may be mixed. By lines: the text of a step in, the text of its entry out, as docs/SCRIPT.md has them. By
 * calls: each step but the opening with numbers in place of a line, the facts of the last entry at once or by index, what is known of the topology and its
 * servers, and what their checks do. By lines only: the opening, with its options, and the text of a whole entry. Three calls concern no driver: the
 * rules of SRV and TXT records.
 *
 * What to call, by what one wants to do. bindings/examples/round.c is the least program, client.c beside it a client with threads: copy it.
 *   open and close           mdb_open_line, mdb_stop, mdb_close
 *   get a connection         mdb_request_told, mdb_collect_told until MDB_POOLED or MDB_ENDED, mdb_give_up; mdb_return_told; mdb_error where it broke
 *   establish connections    mdb_claim, mdb_job_address; mdb_established_told or mdb_failed; mdb_warm for minPoolSize
 *   let time enter           mdb_expire and mdb_maintain of each server, every 10 ms or so
 *   check servers            mdb_open_pool, mdb_check_get, mdb_beat; mdb_check_next, mdb_beaten or mdb_beaten_bson; mdb_rtt; mdb_hello, mdb_hello_bson for a hello of one's own
 *   check at once            mdb_want, mdb_unwant, mdb_watchers; MDB_FACT_CHECK_NOW and MDB_FACT_CANCEL
 *   wake who waits, publish  mdb_facts after each step, or the calls that end in _told: MDB_FACT_GRANTED, MDB_FACT_ENDED, events by kind
 *   play a replica set       mdb_fleet_begin, mdb_fleet_elect, mdb_fleet_step_down, mdb_fleet_reconfigure, mdb_fleet_reply
 *   look at servers          mdb_topology_get, mdb_server_get, mdb_server_at, mdb_server_number, and their texts; mdb_driver_pool_get
 *   pin                      mdb_pin, mdb_replicate, mdb_take, mdb_unpin
 *   a pool alone             mdb_pool_open, and the calls that begin with mdb_pool_
 *   follow DNS               mdb_srv_hosts, mdb_srv_txt, mdb_srv_rescan, mdb_hosts
 *   keep the log             mdb_entry_text after each step
 *   go on past 2^32 parties  bindings/examples/renew.c: a second driver with what the first knows of its servers
 *
 * Under the lock of a slot: a step with the facts that are read of it; mdb_check_get with mdb_beat, and mdb_check_next with mdb_beaten; mdb_last_moment with
 * the step whose moment it bounds. Outside of it: sockets, and waiting.
 *
 * Units. A moment is in milliseconds, of any clock that never goes back; a step whose moment is below that of the last accepted step is refused
 *   (MDB_WHY_TIME_BACK, with that moment). Round trips and durations of checks are in nanoseconds. Sizes are in bytes.
 *
 * Numbers. A party is a caller's number, new for every request, warm request and take of a driver. Pools are numbered from 0 in the order in which
 *   they open, the connections of a pool from 1; neither is used twice. A seat is a number that entries carry, such as that of a thread; it
 *   changes nothing.
 *
 * Texts are a pointer and a length, with no zero at the end. An address is `host`, `host:port`, `[v6]` or `[v6]:port`, in letters of any case; the
 *   default port is 27017. Bytes beyond printable ASCII (32 to 126) are MDB_MALFORMED.
 *
 * Errors. Each call but mdb_close, mdb_abi and mdb_srv_rescan answers a status. At any status but MDB_OK, and MDB_BAD_RECORDS with its text, no step was
 *   done, no parameter was written but *needed and, at MDB_BAD_DOCUMENT, what is bad, and the call may be made again. A refusal is no error: the status is MDB_OK, the reply MDB_REFUSED with its reason, nothing changed but the log, which
 *   has an entry with no fact.
 *
 * Ownership. A slot is its user's memory, and what it leads to the library's until mdb_close. The library keeps no pointer that it was given, and
 *   hands none out: all that it tells is copied into its caller's buffers.
 *
 * Threads. One call at a time has a slot: who shares one among threads locks around each call, or around a step and the facts that it reads then.
 *   A step never blocks; most take some microseconds, and one that changes what is known of a large topology up to a millisecond. Calls on different slots need no order. There is no thread-local state, no signal, no callback.
 *   What a slot holds may go from thread to thread where a lock, a thread's start or join, or a sequentially consistent atomic orders the calls: that
 *   is proved of its type.
 *
 * What a caller owes, and nothing checks: a pointer is not NULL, is aligned, and leads to the memory that its parameter names for as long as the call
 *   lasts; for no bytes it is any pointer that is not NULL, so who asks for a length hands in `(uint8_t *)""` and 0; no two parameters of a call overlap,
 *   but for those of no bytes; a length is below 2^63; a slot begins as zeros, and nobody else writes or copies its words (it may be moved while no call
 *   has it). malloc, realloc and free are those of one allocator. No call is made from a signal handler. Everything else is tested by each call:
 *   numbers, texts, lengths of texts, sizes of buffers, the order of steps, and a slot that is not open.
 *
 * Fork. The child of a fork, once malloc may be called in it, may open new slots and make calls on them. The slots that it got from its parent it may
 *   forget, by zeros in their words: their memory stays with the child until it ends. It makes no call on one that a thread of the parent had in a call
 *   at the fork; and a driver that goes on in both speaks for connections that only one of them may use.
 *
 * Memory. The library asks for it by malloc, realloc and free (bindings/heap.c, three functions that may be replaced). It keeps the last entry alone.
 *   Beside that a driver keeps its connections, the requests that wait, have a connection or were never told how they ended, what it knows of its
 *   servers, and which numbers parties had, as ranges. So number parties upwards, which makes one range of all that were used (a number drawn at random
 *   takes 8 bytes for ever), and hear each request to its end: collect it until it is told, give it up, or return its connection. 2^32 parties end a
 *   driver: its requests are then refused as MDB_WHY_REQUEST_KNOWN. docs/EMBEDDING.md, 10, says more.
 *
 * Proved, by the contract of the function of the same name in crates/mdb_c/src: what each call answers is what the driver's definitions say after the
 *   log of all calls so far, or of the records that it was given; what it writes and leaves; which statuses it may answer, and when it answers MDB_MALFORMED, MDB_CLOSED, MDB_OPENED, MDB_NO_ROOM and MDB_NO_ENTRY. For want of
 *   memory a call may fail at any time. Tested by checks/c_library.py: that it does not fail with memory at hand, this header against the library,
 *   clients under valgrind and sanitizers, each allocation refused in turn. This file is written by hand. */
#ifndef MDB_H
#define MDB_H

#include <stddef.h>
#include <stdint.h>

#ifdef __cplusplus
extern "C" {
#endif

#define MDB_VERSION "0.3.0"
#define MDB_VERSION_NUMBER 300 /* major * 10000 + minor * 100 + patch */

/* Which header the library was built for: link only where mdb_abi() == MDB_ABI. It changes where a call, a struct or a number does. */
#define MDB_ABI 4
uint32_t mdb_abi(void);

/* ---- statuses */

typedef uint32_t mdb_status;

enum {
    MDB_OK = 0,
    MDB_NO_MEMORY = 1,
    MDB_MALFORMED = 2,  /* the line spells no such step, or a text or a number means nothing */
    MDB_NO_ROOM = 3,    /* *needed bytes do not fit into the buffer */
    MDB_CLOSED = 4,     /* the slot holds no driver */
    MDB_OPENED = 5,     /* the slot holds one already */
    MDB_NO_ENTRY = 6,   /* no such fact, pool, server or text */
    MDB_BAD_RECORDS = 7, /* of the calls for SRV and TXT records: the records break a rule, which the text names */
    MDB_BAD_DOCUMENT = 8, /* of the calls that take a document: what is bad stands in `bad` */
    MDB_UNSPELLED = 9   /* of mdb_entry_text: no line can spell what the last step told of */
};

/* ---- slots */

/* Memory for one driver, which begins as MDB_SLOT_INIT. Its members are the library's. */
typedef struct mdb_slot {
    uint64_t state;
    void *at;
} mdb_slot;

#define MDB_SLOT_INIT { 0, 0 }

/* Frees the driver, if there is one. The slot is closed then, and may be opened again. A second close does nothing. */
void mdb_close(mdb_slot *slot);

/* ---- replies */

/* What the one who makes a step is told. A member that the kind does not name is 0. */
typedef struct mdb_reply {
    uint32_t kind;   /* MDB_POOLED .. */
    uint32_t pool;   /* of MDB_POOLED, MDB_ESTABLISHING, MDB_JOB */
    uint32_t id;     /* the connection, of the same three */
    uint32_t why;    /* MDB_END_ of MDB_ENDED, MDB_WHY_ of MDB_REFUSED */
    uint64_t number; /* MDB_CHANGED: 0 or 1. MDB_COUNT: the count. MDB_WHY_TIME_BACK: the last moment. MDB_WHY_EXHAUSTED: MDB_WHAT_ */
} mdb_reply;

enum { /* kind */
    MDB_POOLED = 1,       /* the party has the connection */
    MDB_ESTABLISHING = 2, /* its connection is pending */
    MDB_WAITING = 3,      /* the request is in the queue */
    MDB_ENDED = 4,        /* the request has ended with no connection in hand */
    MDB_JOB = 5,          /* a pending connection to establish */
    MDB_NO_JOB = 6,       /* every pending connection is being established */
    MDB_CHANGED = 7,      /* whether the step changed the topology or cleared a pool */
    MDB_COUNT = 8,        /* an average round trip, or how many watchers ask */
    MDB_DONE = 9,
    MDB_REFUSED = 10      /* the step changed nothing */
};

enum { /* how a request ended */
    MDB_END_CLEARED = 1, /* its pool was new or paused when it asked, or was cleared while it waited */
    MDB_END_FAILED,      /* its connection could not be established */
    MDB_END_CLOSED,      /* its pool was closed */
    MDB_END_WARMED,      /* a warm request found enough connections */
    MDB_END_FILLED,      /* a warm request's connection was established */
    MDB_END_GAVE_UP,     /* the one who asked gave up */
    MDB_END_TIMED_OUT    /* a caller waited for as long as a caller may */
};

enum { /* why a step was refused: the first reason that holds, in this order */
    MDB_WHY_TIME_BACK = 1,   /* the moment is before that of the last accepted step */
    MDB_WHY_UNKNOWN_SERVER,  /* no pool is open at the address */
    MDB_WHY_REQUEST_KNOWN,   /* the number was used by an earlier request, warm request or taking party */
    MDB_WHY_UNKNOWN_REQUEST, /* the request is not open */
    MDB_WHY_NOT_HOLDER,      /* the party holds no connection */
    MDB_WHY_NOT_PENDING,     /* no such connection is pending */
    MDB_WHY_UNPINNED,        /* the connection has no pin */
    MDB_WHY_PIN_IN_USE,      /* the pinned connection is held */
    MDB_WHY_PIN_STATE,       /* the connection is pinned already */
    MDB_WHY_CHECK_RUNNING,   /* the monitor's check has no result yet */
    MDB_WHY_NOT_CHECKING,    /* no check runs there */
    MDB_WHY_WRONG_MODE,      /* the step does not go with the mode, normal or load balanced */
    MDB_WHY_EXHAUSTED        /* a number would pass its limit */
};

enum { MDB_WHAT_POOL = 1, MDB_WHAT_GENERATION, MDB_WHAT_MONITOR, MDB_WHAT_SERVERS };

/* ---- by lines: the grammar of docs/SCRIPT.md, one line without its newline */

/* Opens a driver in a closed slot by an `open` line. MDB_MALFORMED, MDB_OPENED. */
mdb_status mdb_open_line(mdb_slot *slot, uint32_t seat, const uint8_t *line, size_t line_len);

/* Does the step that a line spells: every line of the grammar but `open`. MDB_MALFORMED, MDB_CLOSED. */
mdb_status mdb_line(mdb_slot *slot, uint32_t seat, const uint8_t *line, size_t line_len, mdb_reply *reply);

/* Writes the text of the last entry to the beginning of `out`: `LINE | REPLY | FACT ..` with its newline, as a script's log has it. The driver keeps
 * the last entry until the next step that is done, so a buffer that is too small, and want of memory, lose nothing: ask again. *needed is the length of
 * the text, and 0 at MDB_NO_MEMORY, MDB_UNSPELLED and MDB_CLOSED. At MDB_NO_ROOM nothing is written. MDB_UNSPELLED where the last step was that of a
 * document with what no line can spell, such as a tag with a space; all other calls tell of such a step as of any, and no tool reads a log without it. The texts of all entries of a driver, one behind the other, are
 * its log. */
mdb_status mdb_entry_text(mdb_slot *slot, uint8_t *out, size_t out_len, size_t *needed);

/* ---- by calls: one step each. All answer MDB_CLOSED where the slot is not open, unless a text or a number is looked at before, which may be MDB_MALFORMED
 * or want memory. */

/* When a step is made, and by which seat. */
typedef struct mdb_at {
    uint64_t moment; /* milliseconds */
    uint32_t seat;
} mdb_at;

/* A connection, by the number of its pool and its own. */
typedef struct mdb_connection {
    uint32_t pool;
    uint32_t id;
} mdb_connection;

/* A caller asks for a connection to the address (CMAP, "Checking Out a Connection"): MDB_POOLED, MDB_ESTABLISHING, MDB_WAITING, MDB_ENDED or
 * MDB_REFUSED. MDB_MALFORMED where it is no address, here and below. */
mdb_status mdb_request(mdb_slot *slot, const mdb_at *at, uint32_t party, const uint8_t *address, size_t address_len, mdb_reply *reply);

/* One connection more for the pool of the address, where fewer live than its minimum (CMAP, "minPoolSize"). */
mdb_status mdb_warm(mdb_slot *slot, const mdb_at *at, uint32_t party, const uint8_t *address, size_t address_len, mdb_reply *reply);

/* The caller of a request asks how it stands. That it ended is told once. */
mdb_status mdb_collect(mdb_slot *slot, const mdb_at *at, uint32_t party, mdb_reply *reply);

/* The caller of a request no longer wants its connection. */
mdb_status mdb_give_up(mdb_slot *slot, const mdb_at *at, uint32_t party, mdb_reply *reply);

/* A party returns its connection (CMAP, "Checking In a Connection"). MDB_MALFORMED for any other number of use. */
enum {
    MDB_USE_OK = 0,    /* it was used well */
    MDB_USE_ERRORED,   /* it met an error */
    MDB_USE_DROPPED,   /* the party stopped in the middle of an operation */
    MDB_USE_STREAMING  /* more replies of the server were to come */
};
mdb_status mdb_return(mdb_slot *slot, const mdb_at *at, uint32_t party, uint32_t used, mdb_reply *reply);

/* A worker asks for a connection to establish (CMAP, "Establishing a Connection"): MDB_JOB or MDB_NO_JOB. */
mdb_status mdb_claim(mdb_slot *slot, const mdb_at *at, mdb_reply *reply);

/* The address to which a pending connection goes, as `a:27017`. *needed is its length, and 0 at MDB_NO_ENTRY, MDB_NO_MEMORY and MDB_CLOSED; at
 * MDB_NO_ROOM nothing is written. MDB_NO_ENTRY where it is not pending. No step. */
mdb_status mdb_job_address(mdb_slot *slot, uint32_t pool, uint32_t id, uint8_t *out, size_t out_len, size_t *needed);

/* What establishing a connection found out. */
typedef struct mdb_established_as {
    uint32_t pool;
    uint32_t id;
    int32_t wire;      /* the greatest wire version of the server; MDB_MALFORMED where it is negative */
    int64_t server_id; /* the server's own number of the connection, negative where it told none */
} mdb_established_as;

/* A pending connection was established. `service` is the service behind the load balancer, in 24 hex digits, or no bytes; MDB_MALFORMED where it is
 * neither. */
mdb_status mdb_established(mdb_slot *slot, const mdb_at *at, const mdb_established_as *made, const uint8_t *service, size_t service_len, mdb_reply *reply);

/* Pins: the party pins what it holds; one pin more; a new party takes it from its pin; one pin less. */
mdb_status mdb_pin(mdb_slot *slot, const mdb_at *at, uint32_t party, mdb_reply *reply);
mdb_status mdb_replicate(mdb_slot *slot, const mdb_at *at, const mdb_connection *connection, mdb_reply *reply);
mdb_status mdb_take(mdb_slot *slot, const mdb_at *at, uint32_t party, const mdb_connection *connection, mdb_reply *reply);
mdb_status mdb_unpin(mdb_slot *slot, const mdb_at *at, const mdb_connection *connection, mdb_reply *reply);

/* The timers of a pool: stale and idle connections are closed (CMAP, "Background Thread"); callers that waited too long end (CMAP,
 * "waitQueueTimeoutMS"). */
mdb_status mdb_maintain(mdb_slot *slot, const mdb_at *at, const uint8_t *address, size_t address_len, mdb_reply *reply);
mdb_status mdb_expire(mdb_slot *slot, const mdb_at *at, const uint8_t *address, size_t address_len, mdb_reply *reply);

/* The monitor of the address begins a check, for the pool of this number (SDAM monitoring, "ServerHeartbeatStartedEvent"). What the check does tells
 * mdb_check_get, before it. */
mdb_status mdb_beat(mdb_slot *slot, const mdb_at *at, const uint8_t *address, size_t address_len, uint32_t pool, mdb_reply *reply);

/* A watcher, by its number, wants the servers checked at once, or no longer (SDAM monitoring, "Requesting an immediate check"): MDB_COUNT with how many
 * watchers now want it. Where mdb_want answers 1 nobody else does: then every monitor that sleeps is to be woken, as no fact says so. */
mdb_status mdb_want(mdb_slot *slot, const mdb_at *at, uint32_t watcher, mdb_reply *reply);
mdb_status mdb_unwant(mdb_slot *slot, const mdb_at *at, uint32_t watcher, mdb_reply *reply);

/* The steps that carry an error or a server's reply, as a line has them (docs/SCRIPT.md); MDB_MALFORMED where the text is none. ERROR is as
 * `network msg=reset`. An operation of a party met an error on its connection (SDAM, "Error handling"). */
mdb_status mdb_error(mdb_slot *slot, const mdb_at *at, uint32_t party, const uint8_t *error, size_t error_len, mdb_reply *reply);

/* A pending connection failed: `outcome` is `pre ERROR` before the server's hello, and after it `post ERROR`, or `post sid=ID ERROR` where it named a
 * service. */
mdb_status mdb_failed(mdb_slot *slot, const mdb_at *at, const mdb_connection *connection, const uint8_t *outcome, size_t outcome_len, mdb_reply *reply);

/* What the hello of a monitor came to (SDAM, "Updating the TopologyDescription"): `monitor` is the address and the number of the pool that it was begun
 * for, as `a:27017 0`, with the port, and `outcome` is `ok rtt=NANOSECONDS FIELD=VALUE ..` or `err ERROR`. */
mdb_status mdb_hello(mdb_slot *slot, const mdb_at *at, const uint8_t *monitor, size_t monitor_len, const uint8_t *outcome, size_t outcome_len, mdb_reply *reply);

/* The check of a monitor ended (SDAM monitoring, "ServerHeartbeatSucceededEvent"): `outcome` is its nanoseconds, and then `ok FIELD=VALUE ..`,
 * `err ERROR` or `cancelled ERROR`; of a reply behind which the server sends more unasked, ` more` is its last field. What the monitor does next tells
 * mdb_check_next, before it. */
mdb_status mdb_beaten(mdb_slot *slot, const mdb_at *at, const uint8_t *monitor, size_t monitor_len, const uint8_t *outcome, size_t outcome_len, mdb_reply *reply);

/* The same with the reply as the server sent it, a document in BSON 1.1 of at most 16,793,600 bytes, and 100 documents within one another. So it may have
 * tags and names that no line can spell. Of the first bad field, or of the first bad byte, `answered->bad` tells at MDB_BAD_DOCUMENT; the reply, at MDB_OK.
 * Nothing else is written. Values of types that no field of a hello has (double, binary, null, ..) are passed over: such a field is absent. `address` is
 * the server's, as for mdb_beat. */
typedef struct mdb_came {
    uint64_t moment; /* milliseconds */
    uint64_t nanos;  /* the round trip of the hello, or how long the check took */
    uint32_t seat;
    uint32_t pool;   /* that the hello or the check was begun for */
    uint32_t more;   /* of a check: not 0 where the server sends more replies unasked (moreToCome) */
} mdb_came;

/* What is bad in a document. */
enum {
    MDB_DOCUMENT_SIZE = 1,     /* more bytes than a document may have */
    MDB_DOCUMENT_SHORT = 2,    /* the bytes end within a value */
    MDB_DOCUMENT_LENGTH = 3,   /* a length counts too little, or more bytes than there are */
    MDB_DOCUMENT_ZERO = 4,     /* no zero byte where a name, a text or a document ends */
    MDB_DOCUMENT_UTF8 = 5,     /* a name or a text is not UTF-8 */
    MDB_DOCUMENT_BOOL = 6,     /* a truth value is neither 0 nor 1 */
    MDB_DOCUMENT_TYPE = 7,     /* there is no such type */
    MDB_DOCUMENT_DEPTH = 8,    /* too many documents within one another */
    MDB_DOCUMENT_PAST = 9,     /* an element passes the end of its document */
    MDB_DOCUMENT_TRAILING = 10, /* bytes stand behind the document */
    MDB_DOCUMENT_FIELD = 11    /* a field has another type, or is absent and has to be there */
};
typedef struct mdb_document_fault {
    uint64_t place;  /* the number of the bad byte, from 0; of MDB_DOCUMENT_FIELD 0 */
    uint32_t kind;   /* MDB_DOCUMENT_SIZE .. */
    char field[36];  /* of MDB_DOCUMENT_FIELD its name, with zeros behind it */
} mdb_document_fault;
typedef struct mdb_answered {
    mdb_reply reply;
    mdb_document_fault bad;
} mdb_answered;
mdb_status mdb_hello_bson(mdb_slot *slot, const mdb_came *came, const uint8_t *address, size_t address_len, const uint8_t *document, size_t document_len, mdb_answered *answered);
mdb_status mdb_beaten_bson(mdb_slot *slot, const mdb_came *came, const uint8_t *address, size_t address_len, const uint8_t *document, size_t document_len, mdb_answered *answered);

/* A round trip of so many nanoseconds was measured beside the checks of a monitor, which is as for a hello (SDAM monitoring, "Measuring RTT"):
 * MDB_COUNT with the average. */
mdb_status mdb_rtt(mdb_slot *slot, const mdb_at *at, const uint8_t *monitor, size_t monitor_len, uint64_t nanos, mdb_reply *reply);

/* DNS names these servers now ("Polling SRV Records for mongos Discovery"); it counts in topologies of type unknown and sharded. `hosts` is as a line has
 * them: 1 to 128 different addresses with their ports, and commas between them. */
mdb_status mdb_hosts(mdb_slot *slot, const mdb_at *at, const uint8_t *hosts, size_t hosts_len, mdb_reply *reply);

/* A reply told this time of the cluster's clock (sessions, "Gossipping the cluster time"). */
mdb_status mdb_cluster_time(mdb_slot *slot, const mdb_at *at, uint64_t time, mdb_reply *reply);

/* The driver stops: its pools and its monitors are closed. */
mdb_status mdb_stop(mdb_slot *slot, const mdb_at *at, mdb_reply *reply);

/* ---- the facts of the last entry, by index from 0, until the next step that is done. Whoever made a step reads its facts under the same lock.
 * MDB_CLOSED, MDB_NO_ENTRY. */

/* A member that the kind and the event do not name is 0. */
typedef struct mdb_fact {
    uint32_t kind;   /* MDB_FACT_OPENED .. */
    uint32_t event;  /* of MDB_FACT_POOL: MDB_POOL_CREATED ..; of MDB_FACT_SDAM: MDB_SDAM_SERVER_CHANGED .. */
    uint32_t pool;   /* of MDB_FACT_OPENED, MDB_FACT_POOL, MDB_FACT_GRANTED, MDB_FACT_RAISED; of MDB_FACT_CHECK_NOW, MDB_FACT_CANCEL and of events of a
                      * server the number of the server (below) */
    uint32_t id;     /* the connection of MDB_FACT_GRANTED and of events that name one; of a heartbeat the driver's number of the monitor's connection */
    uint32_t party;  /* of MDB_FACT_GRANTED, MDB_FACT_ENDED */
    uint32_t why;    /* MDB_END_ of MDB_FACT_ENDED; MDB_CLOSED_ of MDB_CONNECTION_CLOSED; MDB_FAILED_ of MDB_CHECKOUT_FAILED; of a heartbeat 1 where the
                      * server answers when something changes */
    uint64_t number; /* the milliseconds of MDB_CONNECTION_READY, MDB_CHECKED_OUT and MDB_CHECKOUT_FAILED; the nanoseconds of a heartbeat that ended; 1 of
                      * an MDB_POOL_CLEARED that interrupts the connections in use */
    uint8_t service[12];  /* the service behind the load balancer, of MDB_FACT_RAISED, MDB_POOL_CLEARED and MDB_CONNECTION_CLOSED */
    uint32_t has_service; /* 1 where the fact names a service */
    uint32_t has_pool;    /* 1 where `pool` is the number of a pool */
} mdb_fact;

enum { /* kind */
    MDB_FACT_OPENED = 1, /* a pool was opened */
    MDB_FACT_POOL,       /* the pool made an event (CMAP, "Events") */
    MDB_FACT_GRANTED,    /* a connection was granted to the party */
    MDB_FACT_ENDED,      /* the party's request ended */
    MDB_FACT_RAISED,     /* the generation of the pool, or of one service behind it, was raised */
    MDB_FACT_SDAM,       /* a server or the topology made an event (SDAM monitoring) */
    MDB_FACT_CHECK_NOW,  /* the monitor of an address should check now */
    MDB_FACT_CANCEL      /* the check of an address that runs should be cancelled */
};

enum { /* event */
    MDB_POOL_CREATED = 1, MDB_POOL_READY, MDB_POOL_CLEARED, MDB_POOL_CLOSED, MDB_CONNECTION_CREATED, MDB_CONNECTION_READY, MDB_CONNECTION_CLOSED,
    MDB_CHECKOUT_STARTED, MDB_CHECKOUT_FAILED, MDB_CHECKED_OUT, MDB_CHECKED_IN,
    MDB_SDAM_SERVER_CHANGED = 32, MDB_SDAM_SERVER_OPENING, MDB_SDAM_SERVER_CLOSED, MDB_SDAM_TOPOLOGY_CHANGED, MDB_SDAM_TOPOLOGY_OPENING,
    MDB_SDAM_TOPOLOGY_CLOSED, MDB_SDAM_HEARTBEAT_STARTED, MDB_SDAM_HEARTBEAT_SUCCEEDED, MDB_SDAM_HEARTBEAT_FAILED
};

enum { MDB_CLOSED_STALE = 1, MDB_CLOSED_IDLE, MDB_CLOSED_ERROR, MDB_CLOSED_DROPPED, MDB_CLOSED_POOL_CLOSED };

enum { MDB_FAILED_TIMEOUT = 1, MDB_FAILED_CONNECTION_ERROR };

/* All facts of the last entry, in their order, at the beginning of `out`, which has room for so many. *count is how many there are, and 0 at MDB_CLOSED; at
 * MDB_NO_ROOM nothing else is written. */
mdb_status mdb_facts(mdb_slot *slot, mdb_fact *out, size_t room, size_t *count);

/* How many facts the last entry has: 0 after a refusal. */
mdb_status mdb_fact_count(mdb_slot *slot, size_t *count);
mdb_status mdb_fact_at(mdb_slot *slot, size_t index, mdb_fact *fact);

/* A reply with the facts of its step, for those steps that are made most: each call does the step of its name and tells what that call and mdb_facts tell,
 * by one call. Where there are more facts than MDB_TOLD_FACTS none of them is written, and mdb_facts tells them. At any status but MDB_OK nothing is. */
#define MDB_TOLD_FACTS 8
typedef struct mdb_told {
    mdb_reply reply;
    uint64_t count; /* how many facts there are */
    mdb_fact facts[MDB_TOLD_FACTS];
} mdb_told;
mdb_status mdb_request_told(mdb_slot *slot, const mdb_at *at, uint32_t party, const uint8_t *address, size_t address_len, mdb_told *told);
mdb_status mdb_collect_told(mdb_slot *slot, const mdb_at *at, uint32_t party, mdb_told *told);
mdb_status mdb_return_told(mdb_slot *slot, const mdb_at *at, uint32_t party, uint32_t used, mdb_told *told);
mdb_status mdb_established_told(mdb_slot *slot, const mdb_at *at, const mdb_established_as *made, const uint8_t *service, size_t service_len, mdb_told *told);
mdb_status mdb_line_told(mdb_slot *slot, uint32_t seat, const uint8_t *line, size_t line_len, mdb_told *told);

/* The number of the server at the address, as facts have it in `pool`: that of the server's pool, which MDB_FACT_OPENED tells with the address. It stands
 * for this address as long as the driver lives; a server that went and came back has a new one. The server is known, or the last entry closed its pool:
 * else MDB_NO_ENTRY. MDB_MALFORMED. */
mdb_status mdb_server_number(mdb_slot *slot, const uint8_t *address, size_t address_len, uint32_t *number);

/* The whole text of a fact, as an entry's text has it. *needed is its length, and 0 at MDB_NO_ENTRY, MDB_NO_MEMORY and MDB_CLOSED; at MDB_NO_ROOM nothing
 * is written. */
mdb_status mdb_fact_text(mdb_slot *slot, size_t index, uint8_t *out, size_t out_len, size_t *needed);

/* The address that a fact names: that of MDB_FACT_OPENED, MDB_FACT_POOL, MDB_FACT_CHECK_NOW, MDB_FACT_CANCEL, and of events of a server.
 * MDB_NO_ENTRY where it names none; else as mdb_fact_text. */
mdb_status mdb_fact_address(mdb_slot *slot, size_t index, uint8_t *out, size_t out_len, size_t *needed);

/* The types before and after a change: MDB_SERVER_ of MDB_SDAM_SERVER_CHANGED, MDB_TOPOLOGY_ of MDB_SDAM_TOPOLOGY_CHANGED. MDB_NO_ENTRY at any other fact. */
typedef struct mdb_types {
    uint32_t before;
    uint32_t after;
} mdb_types;
mdb_status mdb_fact_types(mdb_slot *slot, size_t index, mdb_types *types);

/* ---- what is known of the topology and its servers (SDAM, "TopologyDescription", "ServerDescription"); no steps. A member whose has_ member is 0 is 0. */

enum { MDB_TOPOLOGY_UNKNOWN = 1, MDB_TOPOLOGY_SINGLE, MDB_TOPOLOGY_NO_PRIMARY, MDB_TOPOLOGY_WITH_PRIMARY, MDB_TOPOLOGY_SHARDED, MDB_TOPOLOGY_LOAD_BALANCED };

enum {
    MDB_SERVER_UNKNOWN = 1, MDB_SERVER_STANDALONE, MDB_SERVER_MONGOS, MDB_SERVER_RS_PRIMARY, MDB_SERVER_RS_SECONDARY, MDB_SERVER_RS_ARBITER,
    MDB_SERVER_RS_OTHER, MDB_SERVER_RS_GHOST, MDB_SERVER_LOAD_BALANCER
};

typedef struct mdb_topology {
    uint64_t servers;         /* how many there are */
    uint64_t cluster_time;    /* the latest that was told */
    uint64_t session_minutes; /* the least session timeout of the servers that hold data */
    uint32_t kind;            /* MDB_TOPOLOGY_UNKNOWN .. */
    int32_t max_set_version;  /* the greatest of a primary */
    uint32_t has_max_set_version;
    uint32_t has_cluster_time;
    uint32_t has_session_minutes;
    uint32_t compatible;      /* 0 where the driver cannot speak to one of the servers, 1 else */
    uint32_t polled;          /* 1 where its SRV records are looked up again from time to time ("Polling SRV Records for mongos Discovery"), 0 else */
} mdb_topology;

typedef struct mdb_server {
    uint64_t round_trip; /* nanoseconds, on average */
    int64_t updated;     /* the moment of the last reply */
    uint32_t kind;       /* MDB_SERVER_UNKNOWN .. */
    int32_t min_wire;    /* wire versions; 0 where the server told none */
    int32_t max_wire;
    int32_t set_version; /* the version of its set's configuration */
    uint32_t has_round_trip;
    uint32_t has_updated;
    uint32_t has_set_version;
    uint32_t has_error;  /* 1 where its last check or an operation failed */
} mdb_server;

mdb_status mdb_topology_get(mdb_slot *slot, mdb_topology *topology);

/* A server, by its place from 0 in the order of the servers' addresses. A step that is done may change places. MDB_NO_ENTRY. */
mdb_status mdb_server_get(mdb_slot *slot, size_t index, mdb_server *server);

/* The place of the server with the address. MDB_NO_ENTRY, MDB_MALFORMED. */
mdb_status mdb_server_at(mdb_slot *slot, const uint8_t *address, size_t address_len, size_t *index);

enum { /* texts: the first three of a topology, all of a server */
    MDB_TEXT_SET_NAME = 1, /* the name of the replica set */
    MDB_TEXT_ELECTION_ID,  /* 24 hex digits; of a topology the greatest of a primary */
    MDB_TEXT_ERROR,        /* of a topology why it is not compatible; of a server the error of its last check or of an operation, as a line has it */
    MDB_TEXT_ADDRESS,      /* as `a:27017` */
    MDB_TEXT_INFO,         /* all that is told of the server, for people */
    MDB_TEXT_ME,           /* the address by which the set knows the server */
    MDB_TEXT_PRIMARY,      /* the address of the primary, as the server knows it */
    MDB_TEXT_HOSTS,        /* the members of its set, with commas between them: those that can be elected */
    MDB_TEXT_PASSIVES,     /* those that hold data and cannot be elected */
    MDB_TEXT_ARBITERS,     /* those that vote and hold no data */
    MDB_TEXT_REPLY         /* the fields of its last reply as a line has them, each behind a space */
};

/* Writes the text of this number to the beginning of `out`. *needed is its length, and 0 at MDB_NO_ENTRY, MDB_NO_MEMORY and MDB_CLOSED; at MDB_NO_ROOM
 * nothing is written. MDB_NO_ENTRY where there is no such text or no such server. */
mdb_status mdb_topology_text(mdb_slot *slot, uint32_t which, uint8_t *out, size_t out_len, size_t *needed);
mdb_status mdb_server_text(mdb_slot *slot, size_t index, uint32_t which, uint8_t *out, size_t out_len, size_t *needed);

/* ---- checks of servers beforehand (SDAM, "Server Monitoring"); no steps. Who runs monitors asks them under the lock under which the step is made that
 * they are asked before: each answers of the driver as it is. */

/* What the check of a server does that begins now. A member that the check does not have is 0. */
typedef struct mdb_check {
    uint64_t timeout;     /* after how many milliseconds the check counts as a network timeout */
    uint64_t most;        /* of an awaited hello: the greatest time for which the server may wait, in milliseconds (`maxAwaitTimeMS`) */
    int64_t counter;      /* of an awaited hello: its `topologyVersion`, with the process below */
    uint8_t process[12];
    uint32_t action;      /* MDB_CHECK_CONNECT .. */
    uint32_t connection;  /* the driver's number of the connection that the check uses or makes, as the facts of heartbeats tell it */
    uint32_t awaits;      /* 1 where the hello is answered when something changes, and may be answered by several replies (`exhaustAllowed`) */
    uint32_t legacy;      /* 1 where the command is `isMaster`, 0 where it is `hello` */
    uint32_t asks;        /* 1 where an `isMaster` says `helloOk: true` */
} mdb_check;

enum { /* action */
    MDB_CHECK_CONNECT = 1, /* it makes a connection, whose first command is the check */
    MDB_CHECK_READ,        /* it sends nothing and reads the next reply */
    MDB_CHECK_HELLO        /* it sends the command over the connection that there is */
};

/* Asked before mdb_beat. MDB_NO_ENTRY where no pool is open at the address, MDB_MALFORMED. Where the driver's next number is past 32 bits `connection` is
 * 4294967295, and a check that connects is refused (MDB_WHY_EXHAUSTED). */
mdb_status mdb_check_get(mdb_slot *slot, const uint8_t *address, size_t address_len, mdb_check *check);

enum { /* what a monitor does after a check */
    MDB_NEXT_RETRY = 1, /* it checks again at once: a server that was available may have restarted */
    MDB_NEXT_SLEEP,     /* it waits until the time between two checks is over, or a check is wanted */
    MDB_NEXT_CONTINUE   /* it checks at once: the server answers when something changes */
};

/* What follows a check that ends so, asked before mdb_beaten, with the same two texts. MDB_NO_ENTRY where no pool is open at the address, MDB_MALFORMED. */
mdb_status mdb_check_next(mdb_slot *slot, const uint8_t *monitor, size_t monitor_len, const uint8_t *outcome, size_t outcome_len, uint32_t *next);

/* ---- the rules of SRV and TXT records, which concern no driver. They look nothing up: what the resolver told is handed in. A name is the host of a
 * connection string, in small letters, as UTF-8. At MDB_OK and MDB_BAD_RECORDS a text stands at the beginning of `out`. *needed is its length, and 0 at
 * MDB_MALFORMED and MDB_NO_MEMORY; at MDB_NO_ROOM nothing is written. */

enum {
    MDB_STRANGERS_REFUSE = 0, /* one host of another domain refuses the lookup ("Initial DNS Seedlist Discovery") */
    MDB_STRANGERS_LEFT_OUT    /* such hosts are left out ("Polling SRV Records for mongos Discovery") */
};

/* The hosts of an SRV lookup of the name that are accepted, those in its domain, in their order. `found` are those that the records name, as `a.b.c:27017`,
 * with commas between them and no dot at the end of a host. MDB_BAD_RECORDS where the lookup is refused, also where no host is left: the text says why. */
mdb_status mdb_srv_hosts(const uint8_t *name, size_t name_len, const uint8_t *found, size_t found_len, uint32_t strangers, uint8_t *out, size_t out_len, size_t *needed);

/* What the TXT records of the name set, as a connection string has its options, each behind `&`: `&authSource=NAME`, `&replicaSet=NAME`,
 * `&loadBalanced=true` or `&loadBalanced=false`, in this order. `count` is how many records there are, and `text` the strings of the first one, joined;
 * with no record nothing is set. MDB_BAD_RECORDS where there is more than one record, or one says anything else: the text says what. */
mdb_status mdb_srv_txt(const uint8_t *name, size_t name_len, uint32_t count, const uint8_t *text, size_t text_len, uint8_t *out, size_t out_len, size_t *needed);

/* After how many seconds SRV records are looked up again while the topology is polled. `accepted` is how many hosts the last lookup had that were accepted,
 * 0 where it failed; `ttl` is the least time to live of its records and `heartbeat` the time between two checks, in seconds. */
uint64_t mdb_srv_rescan(uint32_t accepted, uint32_t ttl, uint64_t heartbeat);

/* ---- pools that stand alone, for drivers that watch their servers by themselves. Such a pool is a state machine as a driver is, in a slot of its own: it
 * knows no server, and its user alone readies, clears and closes it (CMAP). What stands above of slots, threads, fork, memory, moments, parties and refusals
 * holds of it. It has no lines and no texts: steps, replies and facts are numbers. bindings/examples/pool.c is a whole program over one: copy it. */

enum { MDB_POOL_IS_NEW = 1, MDB_POOL_IS_READY, MDB_POOL_IS_PAUSED, MDB_POOL_IS_CLOSED };

/* Memory for one pool, which begins as MDB_POOL_SLOT_INIT. Its members are the library's. */
typedef struct mdb_pool_slot {
    uint64_t state;
    void *at;
} mdb_pool_slot;

#define MDB_POOL_SLOT_INIT { 0, 0 }

/* CMAP, "Connection Pool Options". MDB_MALFORMED where a size or the flag is none of those named. */
typedef struct mdb_pool_options {
    uint64_t max_idle;       /* after how many milliseconds an available connection is closed; 0 for no limit */
    uint64_t max_wait;       /* for how many milliseconds a caller may wait; 0 for no limit */
    uint32_t number;         /* the number that replies and facts have of the pool */
    uint32_t max_size;       /* how many connections callers make at most, 1 to 65535 */
    uint32_t min_size;       /* how many the pool keeps at least, 0 to 65535: mdb_pool_maintain creates them, as many at a time as may be pending */
    uint32_t max_connecting; /* how many are pending at a time, 1 to 65535 */
    uint32_t load_balanced;  /* 1 where the server is a load balancer, 0 else */
} mdb_pool_options;

#define MDB_POOL_OPTIONS_INIT { 0, 0, 0, 10, 0, 2, 0 }

/* Opens a pool in a closed slot: a load-balanced one is ready, any other new. It tells no fact. MDB_MALFORMED, MDB_OPENED. */
mdb_status mdb_pool_open(mdb_pool_slot *slot, const mdb_pool_options *options);

/* Frees the pool, if there is one. The slot is closed then, and may be opened again. */
void mdb_pool_free(mdb_pool_slot *slot);

/* The steps of callers, as those of a driver of the same names. */
mdb_status mdb_pool_request(mdb_pool_slot *slot, const mdb_at *at, uint32_t party, mdb_told *told);
mdb_status mdb_pool_warm(mdb_pool_slot *slot, const mdb_at *at, uint32_t party, mdb_told *told);
mdb_status mdb_pool_collect(mdb_pool_slot *slot, const mdb_at *at, uint32_t party, mdb_told *told);
mdb_status mdb_pool_give_up(mdb_pool_slot *slot, const mdb_at *at, uint32_t party, mdb_told *told);
mdb_status mdb_pool_return(mdb_pool_slot *slot, const mdb_at *at, uint32_t party, uint32_t used, mdb_told *told);

/* The steps of workers, who connect to where their driver knows. `id` is the connection that a reply or a fact told, `service` the one that a load balancer's
 * server named, in 24 hex digits, or no bytes; MDB_MALFORMED where it is neither. What else establishing found out or failed of stays with the driver. */
mdb_status mdb_pool_claim(mdb_pool_slot *slot, const mdb_at *at, mdb_told *told);
mdb_status mdb_pool_established(mdb_pool_slot *slot, const mdb_at *at, uint32_t id, const uint8_t *service, size_t service_len, mdb_told *told);
mdb_status mdb_pool_failed(mdb_pool_slot *slot, const mdb_at *at, uint32_t id, const uint8_t *service, size_t service_len, mdb_told *told);

/* Pins, of a connection by its id. */
mdb_status mdb_pool_pin(mdb_pool_slot *slot, const mdb_at *at, uint32_t party, mdb_told *told);
mdb_status mdb_pool_replicate(mdb_pool_slot *slot, const mdb_at *at, uint32_t id, mdb_told *told);
mdb_status mdb_pool_take(mdb_pool_slot *slot, const mdb_at *at, uint32_t party, uint32_t id, mdb_told *told);
mdb_status mdb_pool_unpin(mdb_pool_slot *slot, const mdb_at *at, uint32_t id, mdb_told *told);

/* The pool may be used from now on (CMAP, "Marking a Connection Pool as Ready"). A closed one stays closed. */
mdb_status mdb_pool_ready(mdb_pool_slot *slot, const mdb_at *at, mdb_told *told);

/* All connections become stale, and the pool is paused; under load balancing those of a service alone, and nothing pauses (CMAP, "Clearing a
 * Connection Pool"). MDB_MALFORMED where the cause or the service is none. MDB_WHY_WRONG_MODE where a service is named and the pool is not load balanced, or
 * none is and it is. */
enum {
    MDB_CAUSE_NETWORK = 0,
    MDB_CAUSE_NETWORK_TIMEOUT, /* the connections in use are interrupted */
    MDB_CAUSE_OTHER
};
mdb_status mdb_pool_clear(mdb_pool_slot *slot, const mdb_at *at, uint32_t cause, const uint8_t *service, size_t service_len, mdb_told *told);

/* The timers: stale and idle connections are closed; callers that waited for max_wait end. */
mdb_status mdb_pool_maintain(mdb_pool_slot *slot, const mdb_at *at, mdb_told *told);
mdb_status mdb_pool_expire(mdb_pool_slot *slot, const mdb_at *at, mdb_told *told);

/* When time changes something in the pool, unless another step comes before: the first moment from `moment` on. MDB_NO_ENTRY where no time brings it to that.
 * It may be another after each step. No step. */
mdb_status mdb_pool_next_due(mdb_pool_slot *slot, uint64_t moment, uint64_t *due);

/* The step of the timer that changes something at the moment, the expiry before the maintenance. MDB_NO_ENTRY where neither does, and no step is done. So all
 * that is due is done by calls until one does not tell MDB_DONE; a moment before that of the last accepted step is refused, each time. */
mdb_status mdb_pool_tick(mdb_pool_slot *slot, const mdb_at *at, mdb_told *told);

/* The pool is closed for good (CMAP, "Closing a Connection Pool"): what waits ends, and what is in use is closed as it comes back. */
mdb_status mdb_pool_close(mdb_pool_slot *slot, const mdb_at *at, mdb_told *told);

/* All facts of the last step, as mdb_facts. */
mdb_status mdb_pool_facts(mdb_pool_slot *slot, mdb_fact *out, size_t room, size_t *count);


/* What the pool has. No step. */
typedef struct mdb_pool_state {
    uint64_t generation; /* how often it was cleared as a whole */
    uint64_t available;  /* how many connections nobody has */
    uint64_t in_use;     /* how many live that are neither available nor pending: a party has one since it was established, or it stays at a pin */
    uint64_t pending;    /* how many are not established yet */
    uint64_t waiting;    /* how many callers wait in the queue */
    uint32_t number;
    uint32_t state;      /* MDB_POOL_IS_NEW .. */
} mdb_pool_state;
mdb_status mdb_pool_get(mdb_pool_slot *slot, mdb_pool_state *state);

/* How often the pool was cleared for a service, or as a whole for no bytes. MDB_MALFORMED. No step. */
mdb_status mdb_pool_generation(mdb_pool_slot *slot, const uint8_t *service, size_t service_len, uint64_t *generation);

/* ---- what is known of the log and the pools; no steps */

/* The moment of the last step that was accepted. */
mdb_status mdb_last_moment(mdb_slot *slot, uint64_t *moment);

/* How often an accepted step told of the topology, its opening included. */
mdb_status mdb_published(mdb_slot *slot, uint64_t *count);

/* The number of the pool that is open at the address. MDB_NO_ENTRY, MDB_MALFORMED. */
mdb_status mdb_open_pool(mdb_slot *slot, const uint8_t *address, size_t address_len, uint32_t *pool);

/* What a pool of the driver has. */
typedef struct mdb_driver_pool {
    uint64_t generation; /* how often it was cleared as a whole (CMAP, "Generation") */
    uint64_t available;  /* how many connections nobody has */
    uint32_t state;      /* MDB_POOL_IS_NEW .. */
    uint32_t has_job;    /* 1 where a pending connection waits for mdb_claim */
} mdb_driver_pool;


/* The pool of this number. MDB_NO_ENTRY where none was opened, or it was closed and nothing of it lives: no connection, and no request that is open. */
mdb_status mdb_driver_pool_get(mdb_slot *slot, uint32_t pool, mdb_driver_pool *told);

/* How many watchers want the servers checked at once. Where it tells 0 under the lock of an mdb_want, that one is the first. */
mdb_status mdb_watchers(mdb_slot *slot, uint64_t *count);

/* ---- a made-up replica set, for tests of failover; no driver and no steps. Its members are an array that the caller keeps, and so is the number of its
 * elections: a copy of both is the set as it was. An election is decided by the caller; no majority is asked, and an old primary goes on believing that it is
 * one until it steps down. A reply belongs to whoever asked for it, and may be delivered late, twice or never. MDB_MALFORMED where the members are none or
 * more than 50, or a counter or a set version of one is at 2^31 - 1 or above, or at an election *elections is 2^64 - 1; MDB_NO_ENTRY where there is no such
 * member. Nothing is changed then. */

typedef struct mdb_member {
    uint64_t election;    /* by which it believes to be the primary, counted from 1 */
    uint32_t set_version;
    uint32_t counter;     /* how often it changed, as topologyVersion has it */
    uint32_t primary;     /* 0 where it believes to be a secondary */
    uint32_t unused;
} mdb_member;

/* Makes all of them secondaries with set version 1; no election was held. */
mdb_status mdb_fleet_begin(mdb_member *members, size_t count, uint64_t *elections);

/* The next election is the member's: it becomes primary, with the greatest set version of all. The others stay as they are. */
mdb_status mdb_fleet_elect(mdb_member *members, size_t count, uint64_t *elections, uint32_t member);

/* The member becomes a secondary; its set version rises by one. *changed is 0 where it is a secondary, and then nothing changes; else 1. */
mdb_status mdb_fleet_step_down(mdb_member *members, size_t count, uint32_t member, uint32_t *changed);
mdb_status mdb_fleet_reconfigure(mdb_member *members, size_t count, uint32_t member, uint32_t *changed);

/* What the member answers to a hello now, as the fields of a line have it, each behind a space: mdb_hello and mdb_beaten take it behind `ok rtt=NS` and
 * `NS ok`. The members are m0:27017, m1:27017 and so on, and the set is rs. *needed is its length, and 0 at all but MDB_OK and MDB_NO_ROOM. */
mdb_status mdb_fleet_reply(const mdb_member *members, size_t count, uint32_t member, uint8_t *out, size_t out_len, size_t *needed);

#ifdef __cplusplus
}
#endif

#endif
