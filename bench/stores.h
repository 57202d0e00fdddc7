// What a user would pick instead of the library, beside a lock: SQLite in memory and LMDB, each used as its manual advises for many
// small calls. Each holds the rows that it is given, and a read leaves its answer as the library does.
#ifndef STORES_H
#define STORES_H
#include "lent.h"

typedef struct {
    int64_t one, two, first, second;
} Row;

// The places of an answer's numbers: of a row, and of a roll-up.
enum { MARK = 1, KEY_ONE, KEY_TWO, TOTAL_ONE, TOTAL_TWO };
enum { ROWS = 1, REPORTED_ONE, REPORTED_TWO, SUM_ONE, SUM_TWO, ROLL_UP_NUMBERS = SUM_TWO };

// `fill` takes the rows in place of what was held; a folder is given for files. The bodies read the key and roll up the group that
// are lent, and put the totals at the key; `put_new` takes the row out again. Puts are made between `begin` and `commit`.
typedef struct {
    const char *name;
    void (*fill)(const Row *rows, size_t count, const char *folder);
    Body *read_key, *roll_up, *begin, *put, *put_new, *commit;
} Store;

// Those that are there; bench/run leaves out what is missing.
#ifdef HAVE_SQLITE
extern const Store sqlite_store;
#endif
#ifdef HAVE_LMDB
extern const Store lmdb_store;
#endif

// Ends the program where something is not fine.
void must(int fine, const char *what);

#endif
