// What a connection string says of TLS and of who the client is.
#include "options.h"
#include <string.h>
#include <strings.h>

static bool copy(const char *value, char *out, size_t room) {
    size_t length = strlen(value);
    if (length == 0 || length >= room) return false;
    memcpy(out, value, length + 1);
    return true;
}

// `tls` and `ssl` are the same option, and do not contradict each other.
static bool set_tls(struct tls_options *tls, const char *value) {
    bool on = false;
    if (!flag_read(value, &on) || (tls->said && tls->on != on)) return false;
    tls->on = on;
    tls->said = true;
    return true;
}

static bool set_insecure(struct tls_options *tls, const char *value) {
    bool on = false;
    if (!flag_read(value, &on)) return false;
    tls->any_certificate = tls->any_host = on;
    return true;
}

static bool set_mechanism(const char *value) { return !strcmp(value, "SCRAM-SHA-256") || !strcmp(value, "DEFAULT"); }

bool secure_part(struct options *options, const char *name, const char *value, bool *known) {
    struct tls_options *tls = &options->tls;
    bool unread;
    *known = true;
    if (!strcasecmp(name, "tls") || !strcasecmp(name, "ssl")) return set_tls(tls, value);
    if (!strcasecmp(name, "tlsInsecure")) return set_insecure(tls, value);
    if (!strcasecmp(name, "tlsAllowInvalidCertificates")) return flag_read(value, &tls->any_certificate);
    if (!strcasecmp(name, "tlsAllowInvalidHostnames")) return flag_read(value, &tls->any_host);
    if (!strcasecmp(name, "tlsCAFile")) return copy(value, tls->ca_file, sizeof tls->ca_file);
    if (!strcasecmp(name, "tlsCertificateKeyFile")) return copy(value, tls->key_file, sizeof tls->key_file);
    if (!strcasecmp(name, "tlsCertificateKeyFilePassword")) return copy(value, tls->key_password, sizeof tls->key_password);
    if (!strcasecmp(name, "tlsDisableOCSPEndpointCheck")) return flag_read(value, &unread); // nobody asks one here
    if (!strcasecmp(name, "authSource")) return copy(value, options->who.source, sizeof options->who.source);
    if (!strcasecmp(name, "authMechanism")) return set_mechanism(value);
    return *known = false;
}
