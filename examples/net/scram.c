#include "scram.h"
#include <openssl/crypto.h>
#include <openssl/evp.h>
#include <openssl/hmac.h>
#include <openssl/rand.h>
#include <stdlib.h>
#include <string.h>

// As few rounds as the standard of authentication allows, and as many as a server is believed to ask for.
enum { ROUNDS_LEAST = 4096, ROUNDS_MOST = 1000000 };

static bool hmac(const uint8_t key[SCRAM_KEY], const void *bytes, size_t length, uint8_t out[SCRAM_KEY]) {
    unsigned size = SCRAM_KEY;
    return HMAC(EVP_sha256(), key, SCRAM_KEY, bytes, length, out, &size) && size == SCRAM_KEY;
}

static bool sha256(const uint8_t in[SCRAM_KEY], uint8_t out[SCRAM_KEY]) {
    unsigned size = SCRAM_KEY;
    return EVP_Digest(in, SCRAM_KEY, out, &size, EVP_sha256(), NULL) == 1;
}

static void add_base64(struct text *text, const uint8_t *bytes, size_t length) {
    unsigned char out[4 * ((SALT_ROOM + 2) / 3) + 1];
    if (length > SALT_ROOM) length = SALT_ROOM;
    EVP_EncodeBlock(out, bytes, (int)length);
    text_add(text, "%s", (char *)out);
}

// Answers how many bytes there are, and 0 where the text is none.
static size_t from_base64(const char *at, size_t length, uint8_t out[SALT_ROOM]) {
    uint8_t room[SALT_ROOM + 4];
    if (length == 0 || length % 4 != 0 || length / 4 * 3 > SALT_ROOM) return 0;
    int decoded = EVP_DecodeBlock(room, (const unsigned char *)at, (int)length);
    size_t pads = (at[length - 1] == '=') + (at[length - 2] == '=');
    if (decoded < 0 || (size_t)decoded <= pads) return 0;
    memcpy(out, room, (size_t)decoded - pads);
    return (size_t)decoded - pads;
}

bool scram_is_here(void) { return true; }

bool scram_nonce(char nonce[NONCE_ROOM]) {
    uint8_t bytes[NONCE_BYTES];
    struct text text = { .at = nonce, .size = NONCE_ROOM };
    if (RAND_bytes(bytes, sizeof bytes) != 1) return false;
    add_base64(&text, bytes, sizeof bytes);
    return true;
}

bool scram_begin(struct scram *scram, const char *user, const char *nonce, struct text *message) {
    struct text first = TEXT_IN(scram->first), own = TEXT_IN(scram->nonce);
    text_add(&own, "%s", nonce);
    scram->lacks_memory = false;
    text_add(&first, "n=");
    for (; *user; user++) {
        if (*user == '=') text_add(&first, "=3D");
        else if (*user == ',') text_add(&first, "=2C");
        else text_add(&first, "%c", *user);
    }
    text_add(&first, ",r=%s", nonce);
    text_add(message, "n,,%s", scram->first);
    return !own.full && !first.full && !message->full;
}

// The attribute of this letter, which stands here, up to the next comma; NULL where another one does.
static const char *attribute(const char **at, const char *end, char letter, size_t *length) {
    const char *value = *at + 2;
    if (end - *at < 2 || (*at)[0] != letter || (*at)[1] != '=') return NULL;
    const char *comma = memchr(value, ',', (size_t)(end - value));
    *length = (size_t)((comma ? comma : end) - value);
    *at = comma ? comma + 1 : end;
    return value;
}

static uint32_t rounds_of(const char *digits, size_t length) {
    uint32_t rounds = 0;
    if (length == 0 || length > 8) return 0;
    for (size_t i = 0; i < length; i++) {
        if (digits[i] < '0' || digits[i] > '9') return 0;
        rounds = rounds * 10 + (uint32_t)(digits[i] - '0');
    }
    return rounds;
}

// What a server asks for: its nonce, the salt and the rounds.
struct asked {
    const char *nonce;
    size_t nonce_length, salt_length;
    uint8_t salt[SALT_ROOM];
    uint32_t rounds;
};

static const char *read_asked(struct asked *asked, const struct scram *scram, const char *told, size_t length) {
    const char *at = told, *end = told + length;
    size_t salt_length = 0, digits_length = 0, own = strlen(scram->nonce);
    asked->nonce = attribute(&at, end, 'r', &asked->nonce_length);
    const char *salt = asked->nonce ? attribute(&at, end, 's', &salt_length) : NULL;
    const char *digits = salt ? attribute(&at, end, 'i', &digits_length) : NULL;
    if (!digits) return "the server's first message of SCRAM is malformed";
    if (asked->nonce_length <= own || memcmp(asked->nonce, scram->nonce, own) != 0) return "the server's nonce does not begin with the client's";
    asked->salt_length = from_base64(salt, salt_length, asked->salt);
    asked->rounds = rounds_of(digits, digits_length);
    if (asked->salt_length == 0) return "the server's salt is none";
    return asked->rounds < ROUNDS_LEAST || asked->rounds > ROUNDS_MOST ? "the server asks for too few or too many rounds" : NULL;
}

static bool derive(struct scram_keys *keys, const char *password, const struct asked *asked) {
    uint8_t salted[SCRAM_KEY];
    bool same = keys->set && keys->rounds == asked->rounds && keys->salt_length == asked->salt_length;
    if (same && memcmp(keys->salt, asked->salt, asked->salt_length) == 0) return true;
    bool well = PKCS5_PBKDF2_HMAC(password, (int)strlen(password), asked->salt, (int)asked->salt_length, (int)asked->rounds, EVP_sha256(), SCRAM_KEY, salted);
    well = well && hmac(salted, "Client Key", 10, keys->client) && hmac(salted, "Server Key", 10, keys->server);
    OPENSSL_cleanse(salted, sizeof salted);
    memcpy(keys->salt, asked->salt, asked->salt_length);
    keys->salt_length = asked->salt_length;
    keys->rounds = asked->rounds;
    keys->set = well;
    return well;
}

// The client's proof, behind the message that ends without it.
static bool add_proof(struct scram *scram, const struct scram_keys *keys, const struct text *signed_text, struct text *message) {
    uint8_t stored[SCRAM_KEY], signature[SCRAM_KEY] = { 0 };
    bool well = sha256(keys->client, stored) && hmac(stored, signed_text->at, signed_text->length, signature);
    well = well && hmac(keys->server, signed_text->at, signed_text->length, scram->proof);
    for (size_t i = 0; i < SCRAM_KEY; i++) signature[i] ^= keys->client[i];
    text_add(message, ",p=");
    add_base64(message, signature, SCRAM_KEY);
    return well;
}

const char *scram_continue(struct scram *scram, const char *password, const char *told, size_t length, struct scram_keys *keys, struct text *message) {
    struct asked asked;
    char room[3 * SCRAM_ROOM];
    struct text signed_text = TEXT_IN(room);
    const char *wrong = read_asked(&asked, scram, told, length);
    if (wrong) return wrong;
    scram->lacks_memory = !derive(keys, password, &asked);
    if (scram->lacks_memory) return "no keys could be derived of the password";
    text_add(message, "c=biws,r=%.*s", (int)asked.nonce_length, asked.nonce); // `biws` is `n,,`: no channel is bound
    text_add(&signed_text, "%s,%.*s,%s", scram->first, (int)length, told, message->at);
    if (signed_text.full || message->full) return "the server's first message of SCRAM is too long";
    scram->lacks_memory = !add_proof(scram, keys, &signed_text, message);
    return !scram->lacks_memory && !message->full ? NULL : "no proof could be made";
}

bool scram_ends(const struct scram *scram, const char *told, size_t length) {
    uint8_t proof[SALT_ROOM];
    const char *at = told;
    size_t value_length = 0;
    const char *value = attribute(&at, told + length, 'v', &value_length);
    return value && from_base64(value, value_length, proof) == SCRAM_KEY && CRYPTO_memcmp(proof, scram->proof, SCRAM_KEY) == 0;
}
