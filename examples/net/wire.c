#include "wire.h"
#include <stdio.h>
#include <stdlib.h>
#include <string.h>

enum { OP_REPLY = 1, OP_QUERY = 2004, OP_MSG = 2013 };
enum { CHECKSUM_PRESENT = 1u << 0, MORE_TO_COME = 1u << 1, EXHAUST_ALLOWED = 1u << 16, MUST_KNOW = 0xFFFFu };
enum { CURSOR_NOT_FOUND = 1u << 0, REPLY_FRONT = 20, PART = 65536, FRONT_ROOM = HEAD_SIZE + 96 };

static uint32_t read_u32(const uint8_t *at) { return at[0] | (uint32_t)at[1] << 8 | (uint32_t)at[2] << 16 | (uint32_t)at[3] << 24; }

static int32_t read_i32(const uint8_t *at) { return (int32_t)read_u32(at); }

static uint8_t *write_u32(uint8_t *at, uint32_t value) {
    for (int i = 0; i < 4; i++) *at++ = (uint8_t)(value >> (8 * i));
    return at;
}

bool wire_head(struct head *head, const uint8_t bytes[HEAD_SIZE]) {
    *head = (struct head){ read_i32(bytes), read_i32(bytes + 4), read_i32(bytes + 8), read_i32(bytes + 12) };
    return head->length >= HEAD_SIZE && head->length <= MESSAGE_MOST;
}

// A document of at most `room` bytes, by its own length and the zero at its end.
static bool document_at(struct reply *reply, const uint8_t *at, size_t room) {
    if (room < 5) return false;
    uint32_t length = read_u32(at);
    if (length < 5 || length > room || at[length - 1] != 0) return false;
    reply->document = at;
    reply->length = length;
    return true;
}

// The body of an OP_REPLY: flags, cursor, start, count, and then one document.
static bool reply_document(struct reply *reply) {
    const uint8_t *body = reply->body;
    if (reply->size < REPLY_FRONT) return false;
    bool one = read_i32(body + 16) == 1 && !(read_u32(body) & CURSOR_NOT_FOUND);
    return one && document_at(reply, body + REPLY_FRONT, reply->size - REPLY_FRONT) && reply->length == reply->size - REPLY_FRONT;
}

// A section of the kind 1: its size, a name that ends within it, and documents, which no reply to a command has.
static bool sequence_at(const uint8_t *at, size_t room, size_t *size) {
    if (room < 5) return false;
    *size = read_u32(at);
    return *size >= 5 && *size <= room && memchr(at + 4, 0, *size - 4);
}

// The body of an OP_MSG: flags, sections with exactly one document of its own, and a checksum where the flags say so, which is not computed.
static bool msg_document(struct reply *reply) {
    const uint8_t *body = reply->body;
    if (reply->size < 5) return false;
    uint32_t flags = read_u32(body);
    size_t end = reply->size, at = 4;
    if (flags & MUST_KNOW & ~(uint32_t)(CHECKSUM_PRESENT | MORE_TO_COME)) return false;
    if (flags & CHECKSUM_PRESENT) end -= 4;
    while (at < end) {
        uint8_t kind = body[at++];
        size_t size = 0;
        if (kind == 0 && !reply->document && document_at(reply, body + at, end - at)) size = reply->length;
        else if (kind != 1 || !sequence_at(body + at, end - at, &size)) return false;
        at += size;
    }
    reply->more = flags & MORE_TO_COME;
    return reply->document && at == end;
}

bool wire_document(struct reply *reply, int32_t code, enum wire_form form) {
    reply->document = NULL;
    reply->more = false;
    if (form == AS_QUERY) return code == OP_REPLY && reply_document(reply);
    return code == OP_MSG && msg_document(reply);
}

// What stands between the head of a message and its document.
static uint8_t *put_front(uint8_t *at, enum wire_form form, const struct command *command) {
    if (form == AS_QUERY) {
        at = write_u32(at, 1u << 2); // also a secondary may answer
        at += 1 + snprintf((char *)at, 72, "%.64s.$cmd", command->database);
        at = write_u32(at, 0);
        return write_u32(at, 0xFFFFFFFF); // one document and no cursor
    }
    at = write_u32(at, command->exhaust ? EXHAUST_ALLOWED : 0);
    *at++ = 0; // the kind of the section
    return at;
}

enum net_fault wire_send(struct conn *conn, const struct command *command) {
    uint8_t head[FRONT_ROOM], zero = 0, *end = put_front(head + HEAD_SIZE, conn->form, command);
    size_t inner = command->document.length - 5, length = 5 + inner + command->more_length;
    size_t whole = (size_t)(end - head) + length;
    if (whole > MESSAGE_MOST) return NET_MALFORMED;
    conn->asked = conn->asked == INT32_MAX ? 1 : conn->asked + 1;
    conn->more = false;
    uint8_t *at = write_u32(head, (uint32_t)whole);
    at = write_u32(at, (uint32_t)conn->asked);
    at = write_u32(at, 0);
    write_u32(at, conn->form == AS_QUERY ? OP_QUERY : OP_MSG);
    end = write_u32(end, (uint32_t)length);
    struct iovec parts[] = {
        { head, (size_t)(end - head) },
        { (void *)(uintptr_t)(command->document.at + 4), inner },
        { (void *)(uintptr_t)command->more, command->more_length },
        { &zero, 1 },
    };
    return sock_write(&conn->sock, parts, 4);
}

// Reads the body by parts, so that a length alone takes no memory.
static enum net_fault read_body(struct sock *sock, struct reply *reply, size_t size) {
    size_t room = 0;
    while (reply->size < size) {
        size_t part = size - reply->size < PART ? size - reply->size : PART;
        if (reply->size + part > room) {
            room = reply->size + part > 2 * room ? reply->size + part : 2 * room;
            uint8_t *moved = realloc(reply->body, room);
            if (!moved) return NET_NO_MEMORY;
            reply->body = moved;
        }
        enum net_fault fault = sock_read(sock, reply->body + reply->size, part);
        if (fault) return fault;
        reply->size += part;
    }
    return NET_FINE;
}

enum net_fault wire_receive(struct conn *conn, struct reply *reply) {
    uint8_t bytes[HEAD_SIZE];
    struct head head;
    *reply = (struct reply){ .body = NULL };
    enum net_fault fault = sock_read(&conn->sock, bytes, HEAD_SIZE);
    if (fault) return fault;
    if (!wire_head(&head, bytes)) return NET_MALFORMED;
    // A reply answers the command, and one that comes unasked the reply before it.
    if (head.answers != (conn->more ? conn->told : conn->asked)) return NET_MALFORMED;
    fault = read_body(&conn->sock, reply, (size_t)head.length - HEAD_SIZE);
    if (fault) return fault;
    if (!wire_document(reply, head.code, conn->form)) return NET_MALFORMED;
    conn->told = head.id;
    conn->more = reply->more;
    return NET_FINE;
}

void reply_free(struct reply *reply) {
    free(reply->body);
    *reply = (struct reply){ .body = NULL };
}
