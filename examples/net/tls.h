// TLS over a socket, by OpenSSL. Where the library is built without OpenSSL (`without.c`) a context is refused.
#ifndef NET_TLS_H
#define NET_TLS_H

#include "sock.h"
#include "text.h"
#include <stdbool.h>

enum { PATH_ROOM = 1024 };

// What a connection string says of TLS.
struct tls_options {
    bool on, said;            // `said`: by the connection string itself
    bool any_certificate;     // no certificate is refused
    bool any_host;            // a certificate may name another host
    char ca_file[PATH_ROOM];  // those who are trusted, in PEM; empty for those that the system trusts
    char key_file[PATH_ROOM]; // the client's certificates and key, in PEM; empty for none
    char key_password[PATH_ROOM];
};

// What all connections of a client share.
struct tls_context;

// NULL where it cannot be made: `wrong` says why, and nothing where there was no memory.
struct tls_context *tls_context_new(const struct tls_options *options, struct text *wrong);
void tls_context_free(struct tls_context *context);

// Begins TLS over a socket that is connected to the address. Where it fails `why` may say more.
enum net_fault tls_begin(struct sock *sock, const struct tls_context *context, const char *address, const char **why);

// These are called by sock.c, of a socket over which TLS has begun.
enum net_fault tls_write(struct sock *sock, const struct iovec *parts, int count);
enum net_fault tls_read(struct sock *sock, uint8_t *bytes, size_t length);
void tls_end(struct sock *sock);

#endif
