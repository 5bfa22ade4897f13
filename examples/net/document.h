// Small documents of BSON, written into a buffer of fixed size: those that this library sends itself.
#ifndef NET_DOCUMENT_H
#define NET_DOCUMENT_H

#include <stdbool.h>
#include <stddef.h>
#include <stdint.h>

enum { DOCUMENT_ROOM = 2048, DEPTH_MOST = 4 };

// Begins as DOCUMENT_INIT. Where a field did not fit `full` is set, and nothing more is written.
struct document {
    uint8_t bytes[DOCUMENT_ROOM];
    size_t length;
    size_t begins[DEPTH_MOST]; // of the documents that are open
    int depth;
    bool full;
};

void document_begin(struct document *document);
void document_end(struct document *document);

void put_int32(struct document *document, const char *name, int32_t value);
void put_int64(struct document *document, const char *name, int64_t value);
void put_bool(struct document *document, const char *name, bool value);
void put_text(struct document *document, const char *name, const char *value);
void put_id(struct document *document, const char *name, const uint8_t id[12]);
void put_binary(struct document *document, const char *name, uint8_t subtype, const void *bytes, size_t length);
void put_raw(struct document *document, const char *name, const uint8_t *bytes, size_t length); // a document, as its bytes

// The fields from here to put_close are those of a document that is a field itself.
void put_open(struct document *document, const char *name);
void put_open_list(struct document *document, const char *name); // their names are "0", "1" and so on
void put_close(struct document *document);

// Writes the length of a document of so many bytes to its beginning.
void document_length(uint8_t *bytes, size_t length);

#endif
