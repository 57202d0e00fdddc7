// Of a total: how many rows reported it, and the sum of what they reported, as the C by hand and LMDB take it in.
#ifndef REPORTED_H
#define REPORTED_H
#include "../include/probe.h"

typedef struct {
    int64_t rows, sum;
} Reported;

static inline void take_in_total(Reported *reported, int64_t total) {
    if (total == PROBE_NOT_REPORTED) return;
    reported->rows++;
    reported->sum += total;
}

#endif
