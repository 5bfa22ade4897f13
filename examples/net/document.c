#include "document.h"
#include <string.h>

enum { TEXT = 0x02, DOCUMENT = 0x03, LIST = 0x04, BINARY = 0x05, ID = 0x07, BOOL = 0x08, INT32 = 0x10, INT64 = 0x12 };

static void put(struct document *document, const void *bytes, size_t length) {
    document->full = document->full || length > DOCUMENT_ROOM - document->length;
    if (document->full) return;
    memcpy(document->bytes + document->length, bytes, length);
    document->length += length;
}

// Whole numbers stand with the least byte first.
static void put_number(struct document *document, uint64_t value, size_t size) {
    uint8_t bytes[8];
    for (size_t i = 0; i < size; i++) bytes[i] = (uint8_t)(value >> (8 * i));
    put(document, bytes, size);
}

static void put_head(struct document *document, uint8_t kind, const char *name) {
    put(document, &kind, 1);
    put(document, name, strlen(name) + 1);
}

static void open_here(struct document *document) {
    document->full = document->full || document->depth == DEPTH_MOST;
    if (document->full) return;
    document->begins[document->depth++] = document->length;
    put_number(document, 0, 4);
}

void document_length(uint8_t *bytes, size_t length) {
    for (size_t i = 0; i < 4; i++) bytes[i] = (uint8_t)(length >> (8 * i));
}

static void close_here(struct document *document) {
    put_number(document, 0, 1);
    if (document->full || document->depth == 0) return;
    size_t begin = document->begins[--document->depth], length = document->length - begin;
    document_length(document->bytes + begin, length);
}

void document_begin(struct document *document) {
    document->length = 0;
    document->depth = 0;
    document->full = false;
    open_here(document);
}

void document_end(struct document *document) { close_here(document); }

void put_int32(struct document *document, const char *name, int32_t value) {
    put_head(document, INT32, name);
    put_number(document, (uint32_t)value, 4);
}

void put_int64(struct document *document, const char *name, int64_t value) {
    put_head(document, INT64, name);
    put_number(document, (uint64_t)value, 8);
}

void put_bool(struct document *document, const char *name, bool value) {
    put_head(document, BOOL, name);
    put_number(document, value, 1);
}

void put_text(struct document *document, const char *name, const char *value) {
    put_head(document, TEXT, name);
    put_number(document, strlen(value) + 1, 4);
    put(document, value, strlen(value) + 1);
}

void put_id(struct document *document, const char *name, const uint8_t id[12]) {
    put_head(document, ID, name);
    put(document, id, 12);
}

void put_binary(struct document *document, const char *name, uint8_t subtype, const void *bytes, size_t length) {
    put_head(document, BINARY, name);
    put_number(document, length, 4);
    put(document, &subtype, 1);
    put(document, bytes, length);
}

void put_raw(struct document *document, const char *name, const uint8_t *bytes, size_t length) {
    put_head(document, DOCUMENT, name);
    put(document, bytes, length);
}

void put_open(struct document *document, const char *name) {
    put_head(document, DOCUMENT, name);
    open_here(document);
}

void put_open_list(struct document *document, const char *name) {
    put_head(document, LIST, name);
    open_here(document);
}

void put_close(struct document *document) { close_here(document); }
