// The client's side of SCRAM-SHA-256 (RFC 5802, RFC 7677), as texts, by OpenSSL. Where the library is built without OpenSSL nothing begins (`without.c`).
#ifndef NET_SCRAM_H
#define NET_SCRAM_H

#include "text.h"
#include <stdint.h>

enum { SCRAM_KEY = 32, SCRAM_ROOM = 1024, NONCE_ROOM = 256, SALT_ROOM = 128, NONCE_BYTES = 24 };

// What is derived of a password, which takes thousands of rounds: it holds for as long as salt and rounds are those.
struct scram_keys {
    bool set;
    uint8_t salt[SALT_ROOM], client[SCRAM_KEY], server[SCRAM_KEY];
    size_t salt_length;
    uint32_t rounds;
};

struct scram {
    char nonce[NONCE_ROOM];   // the client's
    char first[SCRAM_ROOM];   // the first message, without its head
    bool lacks_memory;        // nothing could be computed
    uint8_t proof[SCRAM_KEY]; // by which the server is to show that it knows the password too
};

// Whether the library was built with OpenSSL.
bool scram_is_here(void);

// A nonce, drawn at random: printable, no comma. Answers whether there is one.
bool scram_nonce(char nonce[NONCE_ROOM]);

// Writes the first message, with this nonce.
bool scram_begin(struct scram *scram, const char *user, const char *nonce, struct text *message);

// Reads the server's first message, and writes the second one. The keys are used where they hold, and else derived. Answers NULL, or what is wrong.
const char *scram_continue(struct scram *scram, const char *password, const char *told, size_t length, struct scram_keys *keys, struct text *message);

// Whether the server's last message shows that it knows the password.
bool scram_ends(const struct scram *scram, const char *told, size_t length);

#endif
