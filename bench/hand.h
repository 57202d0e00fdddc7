// The library's calls written by hand in C: the same arguments, tests, refusals and answers as include/probe.h, under names of their own.
#ifndef HAND_H
#define HAND_H
#include <stddef.h>
#include <stdint.h>

void hand_read_slot(const int64_t *table, size_t words, const int64_t record[4], int64_t session, size_t slot, int64_t out[8]);
void hand_read_key(const int64_t *table, size_t words, const int64_t record[4], int64_t session, int64_t one, int64_t two, int64_t out[8]);
void hand_roll_up(const int64_t *table, size_t words, const int64_t record[4], int64_t session, int64_t one, int64_t out[8]);
void hand_put(int64_t *table, size_t words, const int64_t record[4], int64_t one, int64_t two, int64_t first, int64_t second, int64_t out[8]);
void hand_delete(int64_t *table, size_t words, const int64_t record[4], int64_t one, int64_t two, int64_t out[8]);
void hand_roll_back(int64_t *table, size_t words, int64_t record[4], int64_t out[8]);
void hand_save_block(const int64_t *table, size_t words, const int64_t record[4], size_t number, uint8_t block[512], int64_t out[8]);
void hand_load_block(int64_t *table, size_t words, const int64_t record[4], size_t number, const uint8_t *block, size_t bytes, int64_t out[8]);

#endif
