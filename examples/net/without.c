// Built in the place of tls.c and scram.c where OpenSSL is missing: nothing of TLS or SCRAM begins, and who asks for it is told so.
#include "scram.h"
#include "tls.h"

struct tls_context *tls_context_new(const struct tls_options *options, struct text *wrong) {
    (void)options;
    text_add(wrong, "built without OpenSSL: there is no TLS");
    return NULL;
}

void tls_context_free(struct tls_context *context) { (void)context; }

enum net_fault tls_begin(struct sock *sock, const struct tls_context *context, const char *address, const char **why) {
    (void)sock, (void)context, (void)address, (void)why;
    return NET_NO_TLS;
}

enum net_fault tls_write(struct sock *sock, const struct iovec *parts, int count) {
    (void)sock, (void)parts, (void)count;
    return NET_NO_TLS;
}

enum net_fault tls_read(struct sock *sock, uint8_t *bytes, size_t length) {
    (void)sock, (void)bytes, (void)length;
    return NET_NO_TLS;
}

void tls_end(struct sock *sock) { (void)sock; }

bool scram_is_here(void) { return false; }

bool scram_nonce(char nonce[NONCE_ROOM]) {
    (void)nonce;
    return false;
}

bool scram_begin(struct scram *scram, const char *user, const char *nonce, struct text *message) {
    (void)scram, (void)user, (void)nonce, (void)message;
    return false;
}

const char *scram_continue(struct scram *scram, const char *password, const char *told, size_t length, struct scram_keys *keys, struct text *message) {
    (void)scram, (void)password, (void)told, (void)length, (void)keys, (void)message;
    return "built without OpenSSL: there is no SCRAM";
}

bool scram_ends(const struct scram *scram, const char *told, size_t length) {
    (void)scram, (void)told, (void)length;
    return false;
}
