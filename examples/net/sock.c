#include "sock.h"
#include "address.h"
#include "tls.h"
#include <errno.h>
#include <netdb.h>
#include <netinet/in.h>
#include <netinet/tcp.h>
#include <poll.h>
#include <sys/socket.h>
#include <unistd.h>

// A connection on which nothing came for two minutes is asked for a sign of life every ten seconds, and is lost after nine.
enum { KEEP_IDLE = 120, KEEP_INTERVAL = 10, KEEP_COUNT = 9, WAIT_MOST = 1000000 };

// The milliseconds until the deadline, rounded up, and -1 where there is none.
static int left(uint64_t deadline) {
    if (deadline == NO_DEADLINE) return -1;
    uint64_t now = clock_now();
    if (now >= deadline) return 0;
    uint64_t milliseconds = (deadline - now + MILLISECOND - 1) / MILLISECOND;
    return milliseconds > WAIT_MOST ? WAIT_MOST : (int)milliseconds;
}

// What an error of a call on a socket is: a shortage of this machine, or the fault that it else is.
static enum net_fault fault_of(int error, enum net_fault other) {
    switch (error) {
    case EMFILE:
    case ENFILE: return NET_NO_FILES;
    case ENOMEM:
    case ENOBUFS: return NET_NO_MEMORY;
    default: return other;
    }
}

static enum net_fault await_until(const struct sock *sock, short events, uint64_t deadline) {
    for (;;) {
        struct pollfd waits[2] = { { .fd = sock->fd, .events = events }, { .fd = sock->cancel, .events = POLLIN } };
        int ready = poll(waits, 2, left(deadline));
        if (ready < 0 && errno != EINTR) return fault_of(errno, NET_BROKEN);
        if (ready > 0 && (waits[1].revents & POLLIN)) return NET_CANCELLED;
        if (ready > 0 && waits[0].revents) return NET_FINE;
        if (ready == 0 && left(deadline) == 0) return NET_TIMED_OUT;
    }
}

enum net_fault sock_await(const struct sock *sock, short events) { return await_until(sock, events, sock->deadline); }

static void set_options(int fd) {
    int on = 1, idle = KEEP_IDLE, interval = KEEP_INTERVAL, count = KEEP_COUNT;
    setsockopt(fd, IPPROTO_TCP, TCP_NODELAY, &on, sizeof on);
    setsockopt(fd, SOL_SOCKET, SO_KEEPALIVE, &on, sizeof on);
    setsockopt(fd, IPPROTO_TCP, TCP_KEEPIDLE, &idle, sizeof idle);
    setsockopt(fd, IPPROTO_TCP, TCP_KEEPINTVL, &interval, sizeof interval);
    setsockopt(fd, IPPROTO_TCP, TCP_KEEPCNT, &count, sizeof count);
}

// Why a connection was not made. Where all ports of this machine are in use no address is left for it.
static enum net_fault refused(int error, int family) { return error == EADDRNOTAVAIL && family == AF_INET ? NET_NO_FILES : fault_of(error, NET_REFUSED); }

static enum net_fault connect_one(struct sock *sock, const struct addrinfo *to, uint64_t deadline) {
    sock->fd = socket(to->ai_family, SOCK_STREAM | SOCK_NONBLOCK | SOCK_CLOEXEC, IPPROTO_TCP);
    if (sock->fd < 0) return fault_of(errno, NET_REFUSED);
    set_options(sock->fd);
    int error = 0;
    socklen_t size = sizeof error;
    enum net_fault fault = NET_FINE;
    if (connect(sock->fd, to->ai_addr, to->ai_addrlen) < 0) {
        fault = errno == EINPROGRESS ? await_until(sock, POLLOUT, deadline) : refused(errno, to->ai_family);
        if (!fault && getsockopt(sock->fd, SOL_SOCKET, SO_ERROR, &error, &size) < 0) error = errno;
        if (!fault && error) fault = refused(error, to->ai_family);
    }
    if (fault) sock_close(sock);
    return fault;
}

// Why a name was not resolved. Where this process has no file left the resolver could not do its work, whatever it says.
static enum net_fault unresolved(int why) {
    if (why == EAI_MEMORY) return NET_NO_MEMORY;
    int probe = socket(AF_INET, SOCK_DGRAM | SOCK_CLOEXEC, 0);
    if (probe < 0) return fault_of(errno, NET_REFUSED);
    close(probe);
    return NET_REFUSED;
}

enum net_fault sock_connect(struct sock *sock, const char *address) {
    char host[ADDRESS_ROOM], port[8];
    address_cut(address, host, port);
    struct addrinfo hints = { .ai_socktype = SOCK_STREAM, .ai_flags = AI_NUMERICSERV }, *found = NULL;
    int why = getaddrinfo(host, port, &hints, &found);
    if (why) return unresolved(why);
    uint64_t count = 0;
    for (struct addrinfo *it = found; it; it = it->ai_next) count++;
    enum net_fault fault = NET_REFUSED;
    for (struct addrinfo *it = found; it; it = it->ai_next, count--) {
        uint64_t now = clock_now(), end = sock->deadline;
        if (end != NO_DEADLINE && end > now) end = now + (end - now) / count;
        fault = connect_one(sock, it, end);
        if (fault == NET_FINE || fault == NET_CANCELLED) break;
    }
    freeaddrinfo(found);
    return fault;
}

void sock_close(struct sock *sock) {
    tls_end(sock);
    if (sock->fd >= 0) close(sock->fd);
    sock->fd = -1;
}

void sock_shut(const struct sock *sock) {
    if (sock->fd >= 0) shutdown(sock->fd, SHUT_RDWR);
}

// Passes over the bytes that were sent.
static void use_up(struct iovec **parts, int *count, size_t sent) {
    while (*count > 0 && sent >= (*parts)->iov_len) {
        sent -= (*parts)->iov_len;
        ++*parts;
        --*count;
    }
    if (*count == 0) return;
    (*parts)->iov_base = (uint8_t *)(*parts)->iov_base + sent;
    (*parts)->iov_len -= sent;
}

enum net_fault sock_write(struct sock *sock, struct iovec *parts, int count) {
    if (sock->tls) return tls_write(sock, parts, count);
    while (count > 0) {
        struct msghdr message = { .msg_iov = parts, .msg_iovlen = (size_t)count };
        ssize_t sent = sendmsg(sock->fd, &message, MSG_NOSIGNAL);
        if (sent >= 0) {
            use_up(&parts, &count, (size_t)sent);
            continue;
        }
        if (errno == EINTR) continue;
        if (errno != EAGAIN) return fault_of(errno, NET_BROKEN);
        enum net_fault fault = sock_await(sock, POLLOUT);
        if (fault) return fault;
    }
    return NET_FINE;
}

enum net_fault sock_read(struct sock *sock, uint8_t *bytes, size_t length) {
    if (sock->tls) return tls_read(sock, bytes, length);
    while (length > 0) {
        ssize_t got = recv(sock->fd, bytes, length, 0);
        if (got > 0) {
            bytes += got;
            length -= (size_t)got;
            continue;
        }
        if (got == 0) return NET_BROKEN;
        if (errno == EINTR) continue;
        if (errno != EAGAIN) return fault_of(errno, NET_BROKEN);
        enum net_fault fault = sock_await(sock, POLLIN);
        if (fault) return fault;
    }
    return NET_FINE;
}

const char *fault_text(enum net_fault fault) {
    static const char *const texts[] = { "fine",           "timed out",      "cancelled", "not connected", "connection broken", "malformed message",
                                         "no socket here", "no memory here", "no TLS" };
    return texts[fault];
}
