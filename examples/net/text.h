// Texts that are built piece by piece in a buffer of fixed size.
#ifndef NET_TEXT_H
#define NET_TEXT_H

#include <stdbool.h>
#include <stddef.h>

// A text with a zero at its end. Where a piece did not fit, `full` is set and the text stays as it was before that piece.
struct text {
    char *at;
    size_t size, length;
    bool full;
};

#define TEXT_IN(array) ((struct text){ .at = (array), .size = sizeof(array) })

void text_add(struct text *text, const char *format, ...) __attribute__((format(printf, 2, 3)));

// Adds the bytes, each of them printable or a question mark, and a comma for a bar: what the message of an error may hold. At most `most` of them.
void text_add_plain(struct text *text, const char *bytes, size_t length, size_t most);

// Whether the bytes are 1 to 64 of letters, digits, `_`, `-` and `.`: what the grammar calls a name.
bool is_name(const char *bytes, size_t length);

#endif
