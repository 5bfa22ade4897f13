// A socket to a server, which does not block: with a deadline, and a way to be cancelled.
#ifndef NET_SOCK_H
#define NET_SOCK_H

#include "clock.h"
#include <stddef.h>
#include <stdint.h>
#include <sys/uio.h>

// Why a call over a socket failed.
enum net_fault {
    NET_FINE = 0,
    NET_TIMED_OUT, // the deadline came first
    NET_CANCELLED, // somebody wrote to `cancel`
    NET_REFUSED,   // no connection: refused, unreachable, or no such host
    NET_BROKEN,    // reset, or closed by the server
    NET_MALFORMED, // the server's bytes are no message that was waited for
    NET_NO_FILES,  // this machine has no socket for it
    NET_NO_MEMORY, // nor memory
    NET_NO_TLS     // the server speaks no TLS, or shows itself by no certificate that is trusted
};

// Whether something was missing here, which is no fault of the server.
static inline int is_shortage(enum net_fault fault) { return fault == NET_NO_FILES || fault == NET_NO_MEMORY; }

struct tls;

struct sock {
    int fd;            // -1 where there is none
    int cancel;        // an eventfd: whoever makes it readable cancels what the socket does; -1 for none
    uint64_t deadline; // of the monotonic clock
    struct tls *tls;   // NULL where bytes go as they are
};

// Connects to the address: every address to which the name resolves, in turn, each for an equal part of the time that is left.
enum net_fault sock_connect(struct sock *sock, const char *address);
void sock_close(struct sock *sock);

// Ends what another thread does with the socket, as the server's end would.
void sock_shut(const struct sock *sock);

// Waits until the socket can be read or written (POLLIN, POLLOUT).
enum net_fault sock_await(const struct sock *sock, short events);

// Writes all parts; the parts are used up.
enum net_fault sock_write(struct sock *sock, struct iovec *parts, int count);
enum net_fault sock_read(struct sock *sock, uint8_t *bytes, size_t length);

// Words for the message of an error.
const char *fault_text(enum net_fault fault);

#endif
