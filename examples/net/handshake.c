#include "handshake.h"

enum { WIRE_OF_OP_MSG = 6 };

static void begin(struct handshake *shake) {
    shake->ok = shake->network = shake->more = false;
    shake->fault = NET_FINE;
    shake->nanos = 0;
    shake->answer = (struct reply){ .body = NULL };
    shake->reply = (struct hello_reply){ .server = -1 };
    shake->text = TEXT_IN(shake->room);
    shake->room[0] = 0;
}

static void fail(struct handshake *shake, enum net_fault fault, const char *doing) {
    shake->network = true;
    shake->fault = fault;
    error_of_fault(&shake->text, fault, doing);
}

static void read_answer(struct handshake *shake) {
    shake->more = shake->answer.more;
    mdb_net_code code = error_of_reply(&shake->text, &shake->answer).code;
    shake->network = code == MDB_NET_NETWORK;
    if (code != MDB_NET_OK) return;
    shake->ok = shake->answer.length <= HELLO_MOST;
    if (shake->ok) hello_read(&shake->answer, &shake->reply);
    else error_of_form(&shake->text, "the length of the document");
}

void handshake_refuse(struct handshake *shake, const mdb_document_fault *bad) {
    shake->ok = false;
    error_of_form(&shake->text, bad->kind == MDB_DOCUMENT_FIELD ? bad->field : "the document");
}

void handshake_end(struct handshake *shake) { reply_free(&shake->answer); }

static enum net_fault send_hello(struct conn *conn, const struct hello *hello) {
    struct document document;
    hello_command(&document, hello, conn->form == AS_MESSAGE);
    struct command command = { .database = "admin", .document = { document.bytes, document.length }, .exhaust = hello->awaits };
    return document.full ? NET_MALFORMED : wire_send(conn, &command);
}

void handshake_again(struct handshake *shake, struct conn *conn, const struct hello *hello) {
    begin(shake);
    uint64_t began = clock_now();
    enum net_fault fault = hello ? send_hello(conn, hello) : NET_FINE;
    if (!fault) fault = wire_receive(conn, &shake->answer);
    shake->nanos = clock_now() - began;
    if (fault) fail(shake, fault, "hello");
    else read_answer(shake);
}

static bool secure(struct handshake *shake, struct sock *sock, const struct tls_context *tls, const char *address) {
    const char *why = NULL;
    enum net_fault fault = tls_begin(sock, tls, address, &why);
    if (fault == NET_FINE) return true;
    if (fault != NET_NO_TLS) {
        fail(shake, fault, "TLS");
        return false;
    }
    shake->network = true;
    shake->fault = fault;
    error_of_tls(&shake->text, why);
    return false;
}

void handshake_first(struct handshake *shake, struct conn *conn, const struct hello *hello, const struct tls_context *tls, const char *address) {
    conn->form = hello->load_balanced ? AS_MESSAGE : AS_QUERY;
    begin(shake);
    enum net_fault fault = sock_connect(&conn->sock, address);
    if (fault) {
        fail(shake, fault, "connect");
        return;
    }
    if (tls && !secure(shake, &conn->sock, tls, address)) return;
    handshake_again(shake, conn, hello);
    if (shake->reply.wire >= WIRE_OF_OP_MSG) conn->form = AS_MESSAGE;
}
