/* The part of this header that our C programs need: the kit's compiler has none. */
#ifndef STDIO_H
#define STDIO_H

int printf(const char *format, ...);

#endif
