// mdb_live URI SECONDS [--events] [--load n] [--pace MS] [--log FILE]: monitors the servers of a deployment for so many seconds, or until SIGTERM, and writes
// a line at each change of the topology. With --load n threads insert. Status 0 at the end, 1 where the options or the seeds are refused, 2 for other words,
// 3 where memory, files or threads were missing for good, 4 where what was to be written was not written whole.
#include "load.h"
#include "out.h"
#include <fcntl.h>
#include <signal.h>
#include <stdio.h>
#include <stdlib.h>
#include <string.h>
#include <time.h>
#include <unistd.h>

enum { LOG_ROOM = 256 << 20, TOLD_ROOM = 4096 };

// What the command line says.
struct words {
    const char *uri, *log;
    unsigned seconds, load, pace;
    bool events;
};

static int usage(void) {
    fprintf(stderr, "usage: mdb_live URI SECONDS [--events] [--load n] [--pace MILLISECONDS] [--log FILE]\n");
    return 2;
}

static bool number(const char *word, unsigned most, unsigned *out) {
    char *end = NULL;
    unsigned long read = word ? strtoul(word, &end, 10) : 0;
    if (!word || !*word || *end || read > most) return false;
    *out = (unsigned)read;
    return true;
}

static bool read_words(struct words *words, int count, char **given) {
    if (count < 3 || !number(given[2], 1000000, &words->seconds)) return false;
    words->uri = given[1];
    for (int i = 3; i < count; i++) {
        const char *next = i + 1 < count ? given[i + 1] : NULL;
        if (!strcmp(given[i], "--events")) words->events = true;
        else if (!strcmp(given[i], "--load") && number(next, LOADERS_MOST, &words->load)) i++;
        else if (!strcmp(given[i], "--pace") && number(next, 60000, &words->pace)) i++;
        else if (!strcmp(given[i], "--log") && next) words->log = given[++i];
        else return false;
    }
    return true;
}

// Waits for the end: so many seconds, a signal, or the end of the client.
static void wait_for_end(mdb_net_client *client, unsigned seconds, const sigset_t *signals) {
    struct timespec now, until, part = { .tv_nsec = 100000000 };
    clock_gettime(CLOCK_MONOTONIC, &until);
    until.tv_sec += seconds;
    do {
        if (sigtimedwait(signals, NULL, &part) > 0 || mdb_net_failed(client)) return;
        clock_gettime(CLOCK_MONOTONIC, &now);
    } while (now.tv_sec < until.tv_sec || (now.tv_sec == until.tv_sec && now.tv_nsec < until.tv_nsec));
}

// Answers whether all that was to be written was.
static bool end_writers(struct writer *lines, struct writer *log) {
    bool ended = writer_join(lines), whole = ended && !lines->broken && lines->lost == 0;
    if (!whole) fprintf(stderr, "mdb_live: the standard output was not read to its end\n");
    if (log->fd < 0) return whole;
    bool kept = writer_join(log) && !log->broken && log->lost == 0;
    if (close(log->fd)) kept = false;
    if (!kept) fprintf(stderr, "mdb_live: the log is not whole\n");
    return whole && kept;
}

static int run(mdb_net_client *client, const struct words *words, int log_fd, const sigset_t *signals) {
    static struct load load;
    static struct writer lines, log;
    char told[TOLD_ROOM];
    mdb_net_counts counts;
    lines = (struct writer){ .client = client, .stream = MDB_NET_LINES, .fd = STDOUT_FILENO };
    log = (struct writer){ .client = client, .stream = MDB_NET_LOG, .fd = log_fd };
    load.client = client;
    load.count = words->load;
    load.pace = words->pace;
    bool started = writer_start(&lines) && (log_fd < 0 || writer_start(&log));
    if (!started || !load_start(&load)) return fprintf(stderr, "mdb_live: a thread could not be started\n"), 3;
    wait_for_end(client, words->seconds, signals);
    load_stop(&load);
    mdb_net_code code = mdb_net_stop(client);
    load_join(&load);
    mdb_net_counted(client, &counts);
    bool whole = end_writers(&lines, &log);
    if (words->load) whole = out_write(STDOUT_FILENO, told, load_tell(&load, &counts, told, sizeof told), &lines.ending) && whole;
    if (code != MDB_NET_OK) return fprintf(stderr, "mdb_live: %s\n", code == MDB_NET_NO_MEMORY ? "out of memory" : "a step was refused"), 3;
    return whole ? 0 : 4;
}

static int refused(const mdb_net_err *err) {
    bool missing = err->code == MDB_NET_NO_MEMORY || err->code == MDB_NET_NO_FILES || err->code == MDB_NET_NO_THREAD;
    fprintf(stderr, "mdb_live: %s\n", missing && err->code == MDB_NET_NO_MEMORY ? "out of memory" : err->text);
    return missing ? 3 : 1;
}

int main(int count, char **given) {
    struct words words = { .pace = 1 };
    const char *rescan = getenv("MDB_LIVE_RESCAN"); // seconds, and a server of names, for trials
    mdb_net_options options = { .dns = getenv("MDB_LIVE_DNS"), .rescan = rescan ? (uint32_t)atoi(rescan) : 0 };
    mdb_net_client *client;
    mdb_net_err err;
    sigset_t signals;
    if (!read_words(&words, count, given)) return usage();
    options.tells = MDB_NET_TELLS_TOPOLOGY | (words.events ? MDB_NET_TELLS_EVENTS : 0u) | (words.log ? MDB_NET_TELLS_ENTRIES : 0u);
    options.room = words.log ? LOG_ROOM : 0;
    sigemptyset(&signals);
    sigaddset(&signals, SIGTERM);
    sigaddset(&signals, SIGINT);
    pthread_sigmask(SIG_BLOCK, &signals, NULL);
    signal(SIGPIPE, SIG_IGN);
    int log = words.log ? open(words.log, O_WRONLY | O_CREAT | O_TRUNC | O_CLOEXEC, 0644) : -1;
    if (words.log && log < 0) return fprintf(stderr, "mdb_live: the log cannot be written\n"), 1;
    if (mdb_net_open(words.uri, &options, &client, &err) != MDB_NET_OK) return refused(&err);
    if (err.text[0]) fprintf(stderr, "mdb_live: passed over: %s\n", err.text);
    int status = run(client, &words, log, &signals);
    if (status != 4) mdb_net_free(client);
    return status;
}
