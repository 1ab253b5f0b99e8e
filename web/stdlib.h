/* What the portable C needs of stdlib.h, where there is no C library: tctool_system.c has them. */
#ifndef STDLIB_H
#define STDLIB_H

#include <stddef.h>

void *malloc(size_t count);
void *realloc(void *at, size_t count);
void free(void *at);

#endif
