/* Bytes, as ../heap_wasm.c and ../libc_wasm.c have them. */
#ifndef STRING_H
#define STRING_H

#include <stddef.h>

void *memcpy(void *to, const void *from, size_t length);
void *memset(void *to, int value, size_t length);
int memcmp(const void *one, const void *other, size_t length);
void *memchr(const void *in, int value, size_t length);
size_t strlen(const char *text);

#endif
