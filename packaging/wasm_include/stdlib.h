/* Memory, as ../libc_wasm.c gives it. */
#ifndef STDLIB_H
#define STDLIB_H

#include <stddef.h>

void *malloc(size_t length);
void *calloc(size_t count, size_t length);
void *realloc(void *at, size_t length);
void free(void *at);

#endif
