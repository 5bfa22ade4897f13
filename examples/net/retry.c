// When a command is tried once more ("Retryable Reads", "Retryable Writes").
#include "operation.h"

// Wire version from which servers label their errors themselves.
enum { WIRE_OF_LABELS = 9 };

static bool is_among(int32_t code, const int32_t *codes, size_t count) {
    for (size_t i = 0; i < count; i++) {
        if (codes[i] == code) return true;
    }
    return false;
}

// HostUnreachable, HostNotFound, NetworkTimeout, ShutdownInProgress, ReadConcernMajorityNotAvailableYet, PrimarySteppedDown, ExceededTimeLimit,
// SocketException, NotWritablePrimary, InterruptedAtShutdown, InterruptedDueToReplStateChange, NotPrimaryNoSecondaryOk, NotPrimaryOrSecondary.
static bool is_read_code(int32_t code) {
    static const int32_t codes[] = { 6, 7, 89, 91, 134, 189, 262, 9001, 10107, 11600, 11602, 13435, 13436 };
    return is_among(code, codes, sizeof codes / sizeof *codes);
}

// The same without ReadConcernMajorityNotAvailableYet.
static bool is_write_code(int32_t code) { return code != 134 && is_read_code(code); }

// A connection that broke, could not be made, or was not to be had since others met that.
static bool is_of_network(const struct operation *operation) {
    const mdb_net_err *err = &operation->outcome.err;
    bool late = err->code == MDB_NET_TIMED_OUT && err->sent && clock_now() < operation->limit.deadline;
    bool refused = err->code == MDB_NET_AUTH && is_read_code(err->server_code);
    return err->code == MDB_NET_NETWORK || err->code == MDB_NET_CLEARED || late || refused;
}

static bool is_labelled(const struct operation *operation) {
    const struct outcome *outcome = &operation->outcome;
    bool told = outcome->err.code == MDB_NET_COMMAND || outcome->err.code == MDB_NET_CONCERN;
    bool older = operation->chosen.wire < WIRE_OF_LABELS && is_write_code(outcome->err.server_code);
    return told && (outcome->labels & LABEL_RETRYABLE_WRITE || older);
}

bool retry_is_due(const struct operation *operation) {
    const mdb_net_err *err = &operation->outcome.err;
    const struct options *options = &operation->client->options;
    if (operation->options.once || operation->fixed) return false;
    if (operation->traits.kind == COMMAND_READ) {
        return options->retry_reads && (is_of_network(operation) || (err->code == MDB_NET_COMMAND && is_read_code(err->server_code)));
    }
    return operation->traits.kind == COMMAND_WRITE && operation->number && (is_of_network(operation) || is_labelled(operation));
}

bool retry_tells_first(const struct outcome *second) {
    const mdb_net_err *err = &second->err;
    bool unsent = !err->sent && (err->code == MDB_NET_NO_SERVER || err->code == MDB_NET_TIMED_OUT || err->code == MDB_NET_OPTIONS);
    return unsent || second->labels & LABEL_NO_WRITES;
}
