/* The part of this header that our C programs need: the kit's compiler has none. */
#ifndef STDLIB_H
#define STDLIB_H

#include <stddef.h>

#define EXIT_FAILURE 1

_Noreturn void exit(int status);
void *realloc(void *memory, size_t bytes);

#endif
