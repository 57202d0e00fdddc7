/* The part of this header that our C programs need: the kit's compiler has none. */
#ifndef UNISTD_H
#define UNISTD_H

#include <stddef.h>

unsigned alarm(unsigned seconds);
long read(int file, void *to, size_t bytes);
long write(int file, const void *from, size_t bytes);

#endif
