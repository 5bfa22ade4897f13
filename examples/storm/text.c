#include "text.h"

static void put(text *to, char letter) {
    if (to->length < sizeof to->at) to->at[to->length++] = (uint8_t)letter;
}

void text_put(text *to, const char *words) {
    for (; *words; words++) put(to, *words);
}

void text_number(text *to, uint64_t number) {
    if (number >= 10) text_number(to, number / 10);
    put(to, (char)('0' + number % 10));
}

void text_id(text *to, uint64_t number) {
    for (int digit = 23; digit >= 0; digit--) put(to, digit > 15 ? '0' : "0123456789abcdef"[number >> 4 * digit & 15]);
}
