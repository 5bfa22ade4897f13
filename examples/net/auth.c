#include "auth.h"
#include <bson/bson.h>
#include <string.h>

// What a reply to a step of SASL says.
struct step {
    const char *payload;
    uint32_t length;
    int32_t conversation;
    bool done;
};

// A conversation of SASL over a connection.
struct talk {
    struct conn *conn;
    const struct credentials *who;
    struct text *error;
    struct reply reply;
    struct auth_result result;
};

static bool fail(struct talk *talk, enum net_fault fault) {
    error_of_fault(talk->error, fault, "authentication");
    talk->result.code = code_of_fault(fault);
    return false;
}

static bool refuse(struct talk *talk, const char *why) {
    text_add(talk->error, "auth msg=authentication: %s", why);
    talk->result.code = MDB_NET_AUTH;
    return false;
}

static bool read_step(const struct reply *reply, struct step *step) {
    bson_t document;
    bson_iter_t at;
    bson_subtype_t kind;
    *step = (struct step){ .payload = NULL };
    if (!bson_init_static(&document, reply->document, reply->length) || !bson_iter_init(&at, &document)) return false;
    while (bson_iter_next(&at)) {
        const char *key = bson_iter_key(&at);
        if (!strcmp(key, "payload") && BSON_ITER_HOLDS_BINARY(&at)) bson_iter_binary(&at, &kind, &step->length, (const uint8_t **)&step->payload);
        if (!strcmp(key, "conversationId") && BSON_ITER_HOLDS_INT32(&at)) step->conversation = bson_iter_int32(&at);
        if (!strcmp(key, "done") && BSON_ITER_HOLDS_BOOL(&at)) step->done = bson_iter_bool(&at);
    }
    return at.err_off == 0 && step->payload && step->length < SCRAM_ROOM;
}

// Whether the server took the step. An error that says that it is no primary, or shuts down, is told as such, and any other as one of authentication.
static bool is_taken(struct talk *talk) {
    char room[ERROR_ROOM] = "";
    struct text line = TEXT_IN(room);
    struct verdict verdict = error_of_reply(&line, &talk->reply);
    bool as_it_is = verdict.code == MDB_NET_NETWORK || is_state_change(verdict.server_code);
    talk->result = (struct auth_result){ verdict.code == MDB_NET_NETWORK || verdict.code == MDB_NET_OK ? verdict.code : MDB_NET_AUTH, verdict.server_code };
    if (verdict.code == MDB_NET_OK) return true;
    text_add(talk->error, "%s%s", as_it_is ? "" : "auth", as_it_is ? room : room + strcspn(room, " "));
    return false;
}

// Sends a command, and reads what the server answers to it.
static bool exchange(struct talk *talk, struct document *command, struct step *step) {
    if (talk->conn->form == AS_MESSAGE) put_text(command, "$db", talk->who->source);
    document_end(command);
    reply_free(&talk->reply);
    struct command sent = { .database = talk->who->source, .document = { command->bytes, command->length } };
    enum net_fault fault = command->full ? NET_MALFORMED : wire_send(talk->conn, &sent);
    if (!fault) fault = wire_receive(talk->conn, &talk->reply);
    if (!fault && talk->reply.more) fault = NET_MALFORMED;
    if (fault) return fail(talk, fault);
    if (!is_taken(talk)) return false;
    return read_step(&talk->reply, step) || refuse(talk, "the server's reply has no payload");
}

static bool start(struct talk *talk, const struct text *message, struct step *step) {
    struct document command;
    document_begin(&command);
    put_int32(&command, "saslStart", 1);
    put_text(&command, "mechanism", "SCRAM-SHA-256");
    put_binary(&command, "payload", 0, message->at, message->length);
    put_int32(&command, "autoAuthorize", 1);
    put_open(&command, "options");
    put_bool(&command, "skipEmptyExchange", true);
    put_close(&command);
    return exchange(talk, &command, step);
}

static bool go_on(struct talk *talk, const struct text *message, struct step *step) {
    struct document command;
    document_begin(&command);
    put_int32(&command, "saslContinue", 1);
    put_int32(&command, "conversationId", step->conversation);
    put_binary(&command, "payload", 0, message->at, message->length);
    return exchange(talk, &command, step);
}

static bool converse(struct talk *talk, struct scram_keys *keys) {
    char room[SCRAM_ROOM], nonce[NONCE_ROOM];
    struct text message = TEXT_IN(room), empty = { .at = nonce, .size = 1 };
    struct scram scram;
    struct step step;
    if (!scram_nonce(nonce)) return fail(talk, NET_NO_MEMORY);
    if (!scram_begin(&scram, talk->who->user, nonce, &message)) return refuse(talk, "no message of SCRAM could be made");
    if (!start(talk, &message, &step)) return false;
    message = TEXT_IN(room);
    const char *wrong = scram_continue(&scram, talk->who->password, step.payload, step.length, keys, &message);
    if (wrong) return scram.lacks_memory ? fail(talk, NET_NO_MEMORY) : refuse(talk, wrong);
    if (!go_on(talk, &message, &step)) return false;
    if (!scram_ends(&scram, step.payload, step.length)) return refuse(talk, "the server does not know the password");
    // A server that does not skip it asks for an empty message at the end.
    if (!step.done && !go_on(talk, &empty, &step)) return false;
    return step.done || refuse(talk, "the conversation does not end");
}

struct auth_result auth_run(struct conn *conn, const struct credentials *who, struct scram_keys *keys, struct text *error) {
    struct talk talk = { .conn = conn, .who = who, .error = error };
    converse(&talk, keys);
    reply_free(&talk.reply);
    return talk.result;
}
