/* The part of this header that our C programs need: the kit's compiler has none. */
#ifndef STDINT_H
#define STDINT_H

typedef __INT64_TYPE__ int64_t;
typedef __UINT8_TYPE__ uint8_t;

#endif
