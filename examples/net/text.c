#include "text.h"
#include <stdarg.h>
#include <stdio.h>
#include <string.h>

void text_add(struct text *text, const char *format, ...) {
    if (text->full) return;
    va_list given;
    va_start(given, format);
    size_t room = text->size - text->length;
    int wanted = vsnprintf(text->at + text->length, room, format, given);
    va_end(given);
    if (wanted < 0 || (size_t)wanted >= room) {
        text->full = true;
        text->at[text->length] = 0;
    } else {
        text->length += (size_t)wanted;
    }
}

void text_add_plain(struct text *text, const char *bytes, size_t length, size_t most) {
    for (size_t i = 0; i < length && i < most; i++) {
        char c = bytes[i];
        if (c < 32 || c > 126) c = '?';
        text_add(text, "%c", c == '|' ? ',' : c);
    }
}

bool is_name(const char *bytes, size_t length) {
    for (size_t i = 0; i < length; i++) {
        char c = bytes[i];
        bool letter = (c >= 'a' && c <= 'z') || (c >= 'A' && c <= 'Z') || (c >= '0' && c <= '9');
        if (!letter && (c == 0 || !strchr("_-.", c))) return false;
    }
    return length >= 1 && length <= 64;
}
