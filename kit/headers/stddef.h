/* The part of this header that our C programs need: the kit's compiler has none. */
#ifndef STDDEF_H
#define STDDEF_H

#define NULL ((void *)0)

typedef __SIZE_TYPE__ size_t;

#endif
