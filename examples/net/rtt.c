// Round trips are measured on a connection of their own, while the checks wait for news (SDAM monitoring, "Measuring RTT").
#include "monitor.h"
#include <string.h>

// Waits until checks wait for news. Answers whether there is something to measure still.
static bool wait_for_streams(struct monitor *m) {
    client_lock(m->client);
    while (!m->closed && !m->streams) client_wait(m->client, &m->news, NO_DEADLINE);
    bool open = !m->closed;
    client_unlock(m->client);
    return open;
}

static void wait_between(struct monitor *m) {
    uint64_t until = clock_now() + m->client->options.heartbeat * MILLISECOND;
    client_lock(m->client);
    while (!m->closed && clock_now() < until) client_wait(m->client, &m->news, until);
    client_unlock(m->client);
}

// Tells libmdb of a round trip; a measure that came after the server was closed or failed is dropped.
static void tell(struct monitor *m, uint64_t nanos) {
    struct step step = { .name_text = m->name, .nanos = nanos };
    client_lock(m->client);
    if (!m->closed && m->streams) driver_step(m->client, rtt_step, &step);
    client_unlock(m->client);
}

static void measure(struct monitor *m, bool *hello_known) {
    bool first = m->rtt_conn.sock.fd < 0;
    struct hello hello = { .first = first, .legacy = first || !*hello_known, .asks = first, .app = m->client->options.app };
    m->rtt_conn.sock.deadline = deadline_in(m->client->options.connect);
    if (first) {
        handshake_first(&m->rtt_shake, &m->rtt_conn, &hello, m->client->tls, m->address);
        *hello_known = m->rtt_shake.reply.hello_known;
    } else {
        handshake_again(&m->rtt_shake, &m->rtt_conn, &hello);
    }
    if (m->rtt_shake.ok) tell(m, m->rtt_shake.nanos);
    else sock_close(&m->rtt_conn.sock);
    handshake_end(&m->rtt_shake);
}

void *rtt_run(void *given) {
    struct monitor *m = given;
    bool hello_known = false;
    while (wait_for_streams(m)) {
        measure(m, &hello_known);
        wait_between(m);
    }
    sock_close(&m->rtt_conn.sock);
    client_lock(m->client);
    m->rtt_done = true;
    pthread_cond_signal(&m->client->keeping);
    client_unlock(m->client);
    return NULL;
}
