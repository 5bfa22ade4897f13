#include "tls.h"
#include "address.h"
#include <arpa/inet.h>
#include <errno.h>
#include <openssl/err.h>
#include <openssl/ssl.h>
#include <openssl/x509v3.h>
#include <poll.h>
#include <stdlib.h>
#include <string.h>
#include <sys/socket.h>

enum { RECORD = 16384 };

struct tls_context {
    SSL_CTX *shared;
    BIO_METHOD *method;
    bool any_host;
};

struct tls {
    SSL *ssl;
};

// ---- the socket below: OpenSSL's own would raise SIGPIPE

static int fd_of(BIO *bio) { return (int)(intptr_t)BIO_get_data(bio); }

static int is_later(void) { return errno == EAGAIN || errno == EINTR; }

static int below_write(BIO *bio, const char *bytes, int length) {
    ssize_t sent = send(fd_of(bio), bytes, (size_t)length, MSG_NOSIGNAL);
    BIO_clear_retry_flags(bio);
    if (sent < 0 && is_later()) BIO_set_retry_write(bio);
    return (int)sent;
}

static int below_read(BIO *bio, char *bytes, int length) {
    ssize_t got = recv(fd_of(bio), bytes, (size_t)length, 0);
    BIO_clear_retry_flags(bio);
    if (got < 0 && is_later()) BIO_set_retry_read(bio);
    return (int)got;
}

static long below_ctrl(BIO *bio, int command, long number, void *at) {
    (void)bio, (void)number, (void)at;
    return command == BIO_CTRL_FLUSH;
}

static BIO_METHOD *below_new(void) {
    BIO_METHOD *method = BIO_meth_new(BIO_get_new_index() | BIO_TYPE_SOURCE_SINK, "mdb_net");
    if (!method) return NULL;
    BIO_meth_set_write(method, below_write);
    BIO_meth_set_read(method, below_read);
    BIO_meth_set_ctrl(method, below_ctrl);
    return method;
}

// ---- a context

// Whether OpenSSL could not do its work, for want of memory or of what it makes of that, by the first or the last of its errors.
static bool lacks_memory(void) { return ERR_FATAL_ERROR(ERR_peek_error()) || ERR_FATAL_ERROR(ERR_peek_last_error()); }

// Nobody is asked for a password: it was given, or there is none.
static int give_password(char *out, int room, int writing, void *given) {
    size_t length = strlen(given);
    (void)writing;
    if (length > (size_t)room) return -1;
    memcpy(out, given, length);
    return (int)length;
}

static bool trust(SSL_CTX *shared, const struct tls_options *options, struct text *wrong) {
    bool well = options->ca_file[0] ? SSL_CTX_load_verify_locations(shared, options->ca_file, NULL) == 1 : SSL_CTX_set_default_verify_paths(shared) == 1;
    if (!well && !lacks_memory()) text_add(wrong, "tlsCAFile cannot be read");
    return well;
}

static bool show_oneself(SSL_CTX *shared, struct tls_options *options, struct text *wrong) {
    if (!options->key_file[0]) return true;
    SSL_CTX_set_default_passwd_cb(shared, give_password);
    SSL_CTX_set_default_passwd_cb_userdata(shared, options->key_password);
    bool well = SSL_CTX_use_certificate_chain_file(shared, options->key_file) == 1 &&
                SSL_CTX_use_PrivateKey_file(shared, options->key_file, SSL_FILETYPE_PEM) == 1 && SSL_CTX_check_private_key(shared) == 1;
    SSL_CTX_set_default_passwd_cb_userdata(shared, NULL);
    if (!well && !lacks_memory()) text_add(wrong, "tlsCertificateKeyFile has no certificate with its key, or another password");
    return well;
}

struct tls_context *tls_context_new(const struct tls_options *options, struct text *wrong) {
    struct tls_options given = *options;
    struct tls_context *context = calloc(1, sizeof *context);
    if (!context) return NULL;
    ERR_clear_error();
    context->any_host = options->any_host || options->any_certificate;
    context->shared = SSL_CTX_new(TLS_client_method());
    context->method = below_new();
    bool well = context->shared && context->method && trust(context->shared, options, wrong) && show_oneself(context->shared, &given, wrong);
    if (!well) {
        tls_context_free(context);
        return NULL;
    }
    SSL_CTX_set_min_proto_version(context->shared, TLS1_2_VERSION);
    SSL_CTX_set_mode(context->shared, SSL_MODE_ENABLE_PARTIAL_WRITE | SSL_MODE_ACCEPT_MOVING_WRITE_BUFFER | SSL_MODE_RELEASE_BUFFERS);
    SSL_CTX_set_verify(context->shared, options->any_certificate ? SSL_VERIFY_NONE : SSL_VERIFY_PEER, NULL);
    return context;
}

void tls_context_free(struct tls_context *context) {
    if (!context) return;
    SSL_CTX_free(context->shared);
    BIO_meth_free(context->method);
    free(context);
}

// ---- reading and writing

// What an error of OpenSSL is: a wait for the socket that is over well, or a fault.
static enum net_fault handle(struct sock *sock, int result, enum net_fault other) {
    int error = errno;
    switch (SSL_get_error(sock->tls->ssl, result)) {
    case SSL_ERROR_WANT_READ: return sock_await(sock, POLLIN);
    case SSL_ERROR_WANT_WRITE: return sock_await(sock, POLLOUT);
    case SSL_ERROR_ZERO_RETURN: return NET_BROKEN;
    case SSL_ERROR_SYSCALL: return error == ENOMEM || error == ENOBUFS ? NET_NO_MEMORY : NET_BROKEN;
    default: return lacks_memory() ? NET_NO_MEMORY : other;
    }
}

static enum net_fault write_record(struct sock *sock, const uint8_t *bytes, size_t length) {
    while (length > 0) {
        size_t sent = 0;
        ERR_clear_error();
        int result = SSL_write_ex(sock->tls->ssl, bytes, length, &sent);
        bytes += sent;
        length -= sent;
        enum net_fault fault = result == 1 ? NET_FINE : handle(sock, result, NET_BROKEN);
        if (fault) return fault;
    }
    return NET_FINE;
}

// The parts are gathered, so that a small message is one record.
enum net_fault tls_write(struct sock *sock, const struct iovec *parts, int count) {
    uint8_t record[RECORD];
    size_t filled = 0;
    for (; count > 0; parts++, count--) {
        const uint8_t *at = parts->iov_base;
        size_t left = parts->iov_len;
        while (left > 0) {
            size_t taken = left < RECORD - filled ? left : RECORD - filled;
            memcpy(record + filled, at, taken);
            filled += taken;
            at += taken;
            left -= taken;
            enum net_fault fault = filled == RECORD ? write_record(sock, record, filled) : NET_FINE;
            if (fault) return fault;
            filled %= RECORD;
        }
    }
    return write_record(sock, record, filled);
}

enum net_fault tls_read(struct sock *sock, uint8_t *bytes, size_t length) {
    while (length > 0) {
        size_t got = 0;
        ERR_clear_error();
        int result = SSL_read_ex(sock->tls->ssl, bytes, length, &got);
        bytes += got;
        length -= got;
        enum net_fault fault = result == 1 ? NET_FINE : handle(sock, result, NET_BROKEN);
        if (fault) return fault;
    }
    return NET_FINE;
}

// ---- its beginning and end

// The name by which the server shows itself, which its certificate is to have.
static bool expect(SSL *ssl, const char *address, bool any_host) {
    char host[ADDRESS_ROOM], port[8];
    uint8_t bytes[16];
    address_cut(address, host, port);
    bool number = inet_pton(AF_INET, host, bytes) == 1 || inet_pton(AF_INET6, host, bytes) == 1;
    if (!number && SSL_set_tlsext_host_name(ssl, host) != 1) return false;
    if (any_host) return true;
    return number ? X509_VERIFY_PARAM_set1_ip_asc(SSL_get0_param(ssl), host) == 1 : SSL_set1_host(ssl, host) == 1;
}

static struct tls *tls_new(struct sock *sock, const struct tls_context *context, const char *address) {
    struct tls *tls = calloc(1, sizeof *tls);
    BIO *below = BIO_new(context->method);
    SSL *ssl = SSL_new(context->shared);
    if (!tls || !below || !ssl || !expect(ssl, address, context->any_host)) {
        free(tls);
        BIO_free(below);
        SSL_free(ssl);
        return NULL;
    }
    tls->ssl = ssl;
    BIO_set_data(below, (void *)(intptr_t)sock->fd);
    BIO_set_init(below, 1);
    SSL_set_bio(ssl, below, below);
    return tls;
}

static const char *reason(const SSL *ssl) {
    long result = SSL_get_verify_result(ssl);
    const char *told = ERR_reason_error_string(ERR_peek_last_error());
    return result == X509_V_OK ? told : X509_verify_cert_error_string(result);
}

enum net_fault tls_begin(struct sock *sock, const struct tls_context *context, const char *address, const char **why) {
    enum net_fault fault = NET_FINE;
    ERR_clear_error();
    if (!(sock->tls = tls_new(sock, context, address))) return NET_NO_MEMORY;
    for (;;) {
        ERR_clear_error();
        int result = SSL_connect(sock->tls->ssl);
        if (result == 1) return NET_FINE;
        if ((fault = handle(sock, result, NET_NO_TLS))) break;
    }
    *why = fault == NET_NO_TLS ? reason(sock->tls->ssl) : NULL;
    tls_end(sock);
    return fault;
}

void tls_end(struct sock *sock) {
    if (!sock->tls) return;
    ERR_clear_error();
    if (SSL_is_init_finished(sock->tls->ssl)) SSL_shutdown(sock->tls->ssl);
    SSL_free(sock->tls->ssl);
    free(sock->tls);
    sock->tls = NULL;
}
