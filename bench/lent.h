// What a timed call is lent: tables of one of three kinds, a session, a key, the totals to put, and eight words for the answer.
// Every body finds it here, so that all are called alike.
//
// Uniform: one table, every slot an insert of one older run. Mixed: sixteen tables that are lent in turn, so that branches are hard
// to learn; of their slots, in random order, 60 % are inserts, 25 % updates, 10 % deletes and 5 % empty, of all runs, and 12 % of
// their totals, but for the old ones of inserts, are not reported. The first and the last slot of a mixed table are live, so that their keys are found and can be
// changed. In both the slot k has the key (k % GROUPS, k). Dated: a uniform table whose second key words repeat, as dates do.
#ifndef LENT_H
#define LENT_H
#include <stddef.h>
#include <stdint.h>

enum { SLOT_KEY_ONE = 2, SLOT_KEY_TWO = 3, SLOT_TOTALS = 4, SLOT_OLD_TOTALS = 6 };
enum { SLOT_WORDS = 8, MOST_SLOTS = 1024, MOST_WORDS = MOST_SLOTS * SLOT_WORDS, BLOCK_BYTES = 512, OUT_WORDS = 8 };
enum { GROUPS = 8, TABLES = 16, CURRENT = 4, NEW_FIRST = 1, NEW_SECOND = 2 };

// One slot in so many is of the run, where one has changed the tables.
enum { RUN_EVERY = 8 };

typedef enum { UNIFORM, MIXED, DATED } Kind;

typedef void Body(void);

// A table, the same words again to put back what a call changed, and a block.
typedef struct {
    int64_t *table, *kept;
    uint8_t *block;
} Lent;

extern Lent places[TABLES];
extern const Lent *at;
extern Kind kind;
extern size_t slots, words, tables_in_turn;
extern int64_t session, one, two, out[OUT_WORDS];

// Makes the tables of a kind with so many slots, and lends the first.
void fill(Kind which, size_t count);

// Makes a dated table with so many slots and lends it: the row k has the key (k / dates, k % dates), so all keys differ. The rows
// stand in that order, in which the dates take turns, or in a random one.
void fill_dated(size_t count, size_t dates, int shuffled);

// A run has changed one slot in RUN_EVERY of each table, from the first on: by turns it inserted, updated and deleted the row.
void change_in_run(void);

// Puts the slots of the run as they were kept.
void put_run_back(void);

// Gives the words of a slot to a table and to what is kept of it.
void put_row(const Lent *to, size_t slot, const int64_t row[SLOT_WORDS]);

// Lends the table whose turn it is.
static inline void lend(size_t turn) { at = &places[turn & (tables_in_turn - 1)]; }

#endif
