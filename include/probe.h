/* The fast reader's calls as C functions, for a host in C or C++: what is in the
   archive libprobe.a. docs/RULES.md says exactly what each call does.

   What a host lends, and keeps:

   table    PROBE_SLOT_WORDS words to a slot, 1 to PROBE_MOST_SLOTS slots, with
            its length in words. A fresh table is all zeros.
   record   the current version, the run mark (1 while a run is active, else 0),
            the oldest open version, and a word that stays as it is.
            PROBE_FRESH_RECORD begins one. Begin, commit and roll back alter it;
            nothing else does.
   block    PROBE_BLOCK_BYTES bytes, a part of a saved table.
   out      the answer's numbers. Every call writes all of them: the refusal or
            0, then those that its comment names, and zeros elsewhere.

   A refused call writes its number into out, zeros into the block if it is a
   save, and nothing else. Each comment lists the refusals in the order in which
   the call tests for them; the first that applies is given.

   What may not overlap: in memory, the things lent to one call. In time, two
   calls on one table or record, reads among them: a host with threads orders
   them. The library keeps nothing between calls.

   What is trusted: that each pointer is not null, is aligned for its type, and
   leads to as many elements as its type or the length after it says. All else is
   tested: any words, numbers, lengths and bytes get an answer or a refusal. */

#ifndef PROBE_H
#define PROBE_H

#include <stddef.h>
#include <stdint.h>

#ifdef __cplusplus
extern "C" {
#endif

enum probe_size {
    PROBE_SLOT_WORDS = 8,
    PROBE_MOST_SLOTS = 1024,
    PROBE_MOST_WORDS = PROBE_MOST_SLOTS * PROBE_SLOT_WORDS,
    PROBE_RECORD_WORDS = 4,
    PROBE_OUT_WORDS = 8,
    PROBE_BLOCK_SLOTS = 7,
    PROBE_BLOCK_BYTES = 512,
    PROBE_LARGEST_VERSION = 1000000000
};

/* The range of a total that is reported, and what is given and read in place of
   one that is not: the number below the range. */
#define PROBE_LOWEST_TOTAL ((int64_t)-1000000000000000)
#define PROBE_HIGHEST_TOTAL ((int64_t)1000000000000000)
#define PROBE_NOT_REPORTED (PROBE_LOWEST_TOTAL - 1)

/* The record to begin with: int64_t record[PROBE_RECORD_WORDS] = PROBE_FRESH_RECORD; */
#define PROBE_FRESH_RECORD {1, 0, 1, 0}

/* What stands in out[PROBE_REFUSAL]. */
enum probe_refusal {
    PROBE_ACCEPTED = 0,
    /* the table's length is 0, not a multiple of 8, or above PROBE_MOST_WORDS */
    PROBE_BAD_TABLE = 1,
    /* current is not in 1 to PROBE_LARGEST_VERSION, or is that with a run active;
       the oldest open version is below 1, is neither current nor current - 1, or
       is not current during a run; or the run mark is neither 0 nor 1 */
    PROBE_BAD_RECORD = 2,
    /* the session is below 1 or above current */
    PROBE_NO_SUCH_VERSION = 3,
    /* the session is below the oldest open version */
    PROBE_EXPIRED = 4,
    /* the slot's number is not below the slots, or the block's number is not
       from 1 to slots / PROBE_BLOCK_SLOTS rounded up */
    PROBE_NO_SUCH_PLACE = 5,
    /* a slot that the call rests on is not well formed */
    PROBE_BROKEN_SLOT = 6,
    /* a run is active */
    PROBE_RUN_ACTIVE = 7,
    /* no run is active */
    PROBE_NO_RUN = 8,
    /* current is PROBE_LARGEST_VERSION */
    PROBE_NO_VERSION_LEFT = 9,
    /* the key to delete is deleted or absent */
    PROBE_KEY_NOT_LIVE = 11,
    /* the key to put has no slot, and none is free */
    PROBE_TABLE_FULL = 12,
    /* a given total is neither from PROBE_LOWEST_TOTAL to PROBE_HIGHEST_TOTAL nor
       PROBE_NOT_REPORTED */
    PROBE_BAD_TOTAL = 13,
    /* the block is not PROBE_BLOCK_BYTES long */
    PROBE_NOT_BLOCK = 14,
    /* the block's check is wrong */
    PROBE_WRONG_CHECK = 15,
    /* the block's check is right, and some field is not allowed */
    PROBE_BAD_FIELD = 16
};

/* The places of an answer's numbers in out. */
enum probe_place {
    /* every call: an enum probe_refusal */
    PROBE_REFUSAL = 0,
    /* open, begin, commit, roll back */
    PROBE_VERSION = 1,
    /* read slot, read key: 1 and the row, or 0 and zeros for no row */
    PROBE_IS_ROW = 1,
    PROBE_KEY1 = 2,
    PROBE_KEY2 = 3,
    PROBE_TOTAL1 = 4,
    PROBE_TOTAL2 = 5,
    /* roll-up */
    PROBE_ROWS = 1,
    PROBE_REPORTED1 = 2,
    PROBE_REPORTED2 = 3,
    PROBE_SUM1 = 4,
    PROBE_SUM2 = 5,
    /* put, delete */
    PROBE_SLOT = 1,
    /* load header */
    PROBE_SLOTS = 1,
    PROBE_CURRENT = 2,
    PROBE_OLDEST = 3
};

/* Opens a session: it is the number that is answered, to be handed back with
   each read. The library keeps no list of sessions.
   Answers PROBE_VERSION, the current version.
   Refuses PROBE_BAD_RECORD. */
void probe_open(const int64_t record[PROBE_RECORD_WORDS], int64_t out[PROBE_OUT_WORDS]);

/* Begins a run: marks the record, and makes current the oldest open version.
   Answers PROBE_VERSION, the run's number: current + 1.
   Refuses PROBE_BAD_RECORD, PROBE_RUN_ACTIVE, PROBE_NO_VERSION_LEFT. */
void probe_begin(int64_t record[PROBE_RECORD_WORDS], int64_t out[PROBE_OUT_WORDS]);

/* Commits the run: its version is current, no run is active, and the oldest open
   version stays.
   Answers PROBE_VERSION, the new current version.
   Refuses PROBE_BAD_RECORD, PROBE_NO_RUN. */
void probe_commit(int64_t record[PROBE_RECORD_WORDS], int64_t out[PROBE_OUT_WORDS]);

/* Reads what a session sees of a slot, slots counted from 0.
   Answers PROBE_IS_ROW and, for a row, PROBE_KEY1, PROBE_KEY2, PROBE_TOTAL1,
   PROBE_TOTAL2.
   Refuses PROBE_BAD_TABLE, PROBE_BAD_RECORD, PROBE_NO_SUCH_VERSION,
   PROBE_EXPIRED, PROBE_NO_SUCH_PLACE, PROBE_BROKEN_SLOT. */
void probe_read_slot(const int64_t *table, size_t words,
                     const int64_t record[PROBE_RECORD_WORDS],
                     int64_t session, size_t slot, int64_t out[PROBE_OUT_WORDS]);

/* Reads what a session sees of a key.
   Answers as probe_read_slot does.
   Refuses PROBE_BAD_TABLE, PROBE_BAD_RECORD, PROBE_NO_SUCH_VERSION,
   PROBE_EXPIRED, PROBE_BROKEN_SLOT (the key's slot alone). */
void probe_read_key(const int64_t *table, size_t words,
                    const int64_t record[PROBE_RECORD_WORDS],
                    int64_t session, int64_t key1, int64_t key2,
                    int64_t out[PROBE_OUT_WORDS]);

/* Sums up the rows with a first key word that a session sees.
   Answers PROBE_ROWS, how many there are, PROBE_REPORTED1, PROBE_REPORTED2, how
   many of them reported each total, and PROBE_SUM1, PROBE_SUM2, the exact sums
   of what they reported, 0 where none did.
   Refuses PROBE_BAD_TABLE, PROBE_BAD_RECORD, PROBE_NO_SUCH_VERSION,
   PROBE_EXPIRED, PROBE_BROKEN_SLOT (any slot). */
void probe_roll_up(const int64_t *table, size_t words,
                   const int64_t record[PROBE_RECORD_WORDS],
                   int64_t session, int64_t key1, int64_t out[PROBE_OUT_WORDS]);

/* Gives a key its totals, in a run, whether it has a row or not.
   Answers PROBE_SLOT, the number of the slot that it wrote.
   Refuses PROBE_BAD_TABLE, PROBE_BAD_RECORD, PROBE_NO_RUN, PROBE_BAD_TOTAL,
   PROBE_BROKEN_SLOT (the key's slot alone), PROBE_TABLE_FULL. */
void probe_put(int64_t *table, size_t words,
               const int64_t record[PROBE_RECORD_WORDS],
               int64_t key1, int64_t key2, int64_t total1, int64_t total2,
               int64_t out[PROBE_OUT_WORDS]);

/* Deletes a row, in a run.
   Answers PROBE_SLOT, the number of the slot that it wrote.
   Refuses PROBE_BAD_TABLE, PROBE_BAD_RECORD, PROBE_NO_RUN,
   PROBE_BROKEN_SLOT (the key's slot alone), PROBE_KEY_NOT_LIVE. */
void probe_delete(int64_t *table, size_t words,
                  const int64_t record[PROBE_RECORD_WORDS],
                  int64_t key1, int64_t key2, int64_t out[PROBE_OUT_WORDS]);

/* Rolls the run back: every open session reads what it read before the run, the
   run ends, and current stays, so that the next run has its number again.
   Answers PROBE_VERSION, the current version.
   Refuses PROBE_BAD_TABLE, PROBE_BAD_RECORD, PROBE_NO_RUN, PROBE_BROKEN_SLOT (any
   slot). */
void probe_roll_back(int64_t *table, size_t words,
                     int64_t record[PROBE_RECORD_WORDS],
                     int64_t out[PROBE_OUT_WORDS]);

/* Saves block 0, the header: how many slots there are, current and the oldest
   open version.
   Answers no number, and writes the block.
   Refuses PROBE_BAD_TABLE, PROBE_BAD_RECORD, PROBE_RUN_ACTIVE. */
void probe_save_header(const int64_t *table, size_t words,
                       const int64_t record[PROBE_RECORD_WORDS],
                       uint8_t block[PROBE_BLOCK_BYTES],
                       int64_t out[PROBE_OUT_WORDS]);

/* Saves a block of PROBE_BLOCK_SLOTS slots, blocks counted from 1.
   Answers no number, and writes the block.
   Refuses PROBE_BAD_TABLE, PROBE_BAD_RECORD, PROBE_RUN_ACTIVE,
   PROBE_NO_SUCH_PLACE, PROBE_BROKEN_SLOT (the slots of the block). */
void probe_save_block(const int64_t *table, size_t words,
                      const int64_t record[PROBE_RECORD_WORDS], size_t number,
                      uint8_t block[PROBE_BLOCK_BYTES],
                      int64_t out[PROBE_OUT_WORDS]);

/* Loads block 0: what a host needs to lend a table and a record for the others.
   Answers PROBE_SLOTS, PROBE_CURRENT and PROBE_OLDEST.
   Refuses PROBE_NOT_BLOCK, PROBE_WRONG_CHECK, PROBE_BAD_FIELD. */
void probe_load_header(const uint8_t *block, size_t bytes,
                       int64_t out[PROBE_OUT_WORDS]);

/* Loads a block from 1 on, and writes its slots into the table and no others.
   Answers no number.
   Refuses PROBE_BAD_TABLE, PROBE_BAD_RECORD, PROBE_RUN_ACTIVE,
   PROBE_NO_SUCH_PLACE, PROBE_NOT_BLOCK, PROBE_WRONG_CHECK, PROBE_BAD_FIELD. */
void probe_load_block(int64_t *table, size_t words,
                      const int64_t record[PROBE_RECORD_WORDS], size_t number,
                      const uint8_t *block, size_t bytes,
                      int64_t out[PROBE_OUT_WORDS]);

#ifdef __cplusplus
}
#endif

#endif
