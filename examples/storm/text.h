/* Texts that are put together: no more than fits, and no zero at the end. */
#ifndef TEXT_H
#define TEXT_H

#include <stddef.h>
#include <stdint.h>

typedef struct text {
    uint8_t at[512];
    size_t length;
} text;

void text_put(text *to, const char *words);
void text_number(text *to, uint64_t number);

/* An object id of 24 hex digits. */
void text_id(text *to, uint64_t number);

#endif
