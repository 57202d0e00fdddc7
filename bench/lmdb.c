// LMDB: keys with the high byte first, so that a group's rows stand together, a read transaction that is renewed, and one write
// transaction for all puts of a row.
#include <lmdb.h>
#include <string.h>

#include "reported.h"
#include "stores.h"

enum { WORD_BYTES = 8, KEY_BYTES = 2 * WORD_BYTES, BYTE_BITS = 8, OWNER_ONLY = 0600 };

static MDB_env *environment;
static MDB_dbi sales;
static MDB_txn *reading, *writing;
static MDB_cursor *cursor;

static void put_word(uint8_t *to, int64_t word) {
    for (int i = 0; i < WORD_BYTES; i++) to[i] = (uint8_t)((uint64_t)word >> (BYTE_BITS * (WORD_BYTES - 1 - i)));
}

static void put_key(uint8_t key[KEY_BYTES], int64_t first, int64_t second) {
    put_word(key, first);
    put_word(key + WORD_BYTES, second);
}

static void lmdb_begin(void) { must(mdb_txn_begin(environment, NULL, 0, &writing) == 0, "mdb_txn_begin"); }
static void lmdb_commit(void) { must(mdb_txn_commit(writing) == 0, "mdb_txn_commit"); }

static void put(Row row) {
    uint8_t bytes[KEY_BYTES];
    int64_t totals[] = {row.first, row.second};
    put_key(bytes, row.one, row.two);
    MDB_val key = {sizeof bytes, bytes}, value = {sizeof totals, totals};
    must(mdb_put(writing, sales, &key, &value, 0) == 0, "mdb_put");
}

static void write_rows(const Row *rows, size_t count) {
    lmdb_begin();
    must(mdb_dbi_open(writing, NULL, MDB_CREATE, &sales) == 0, "mdb_dbi_open");
    must(mdb_drop(writing, sales, 0) == 0, "mdb_drop");
    for (size_t k = 0; k < count; k++) put(rows[k]);
    lmdb_commit();
}

static void lmdb_fill(const Row *rows, size_t count, const char *folder) {
    if (environment != NULL) mdb_env_close(environment);
    must(mdb_env_create(&environment) == 0, "mdb_env_create");
    must(mdb_env_open(environment, folder, MDB_NOSYNC | MDB_NOTLS, OWNER_ONLY) == 0, "mdb_env_open");
    write_rows(rows, count);
    must(mdb_txn_begin(environment, NULL, MDB_RDONLY, &reading) == 0, "mdb_txn_begin");
    must(mdb_cursor_open(reading, sales, &cursor) == 0, "mdb_cursor_open");
    mdb_txn_reset(reading);
}

static void lmdb_read_key(void) {
    uint8_t bytes[KEY_BYTES];
    memset(out, 0, sizeof out);
    put_key(bytes, one, two);
    MDB_val key = {sizeof bytes, bytes}, value;
    must(mdb_txn_renew(reading) == 0, "mdb_txn_renew");
    if (mdb_get(reading, sales, &key, &value) == 0) {
        out[MARK] = 1;
        out[KEY_ONE] = one;
        out[KEY_TWO] = two;
        memcpy(out + TOTAL_ONE, value.mv_data, 2 * sizeof *out);
    }
    mdb_txn_reset(reading);
}

static void lmdb_roll_up(void) {
    uint8_t bytes[KEY_BYTES];
    int64_t totals[2], rows = 0;
    Reported first = {0, 0}, second = {0, 0};
    put_key(bytes, one, 0);
    MDB_val key = {sizeof bytes, bytes}, value;
    must(mdb_txn_renew(reading) == 0, "mdb_txn_renew");
    must(mdb_cursor_renew(reading, cursor) == 0, "mdb_cursor_renew");
    for (int more = mdb_cursor_get(cursor, &key, &value, MDB_SET_RANGE); more == 0 && memcmp(key.mv_data, bytes, WORD_BYTES) == 0;
         more = mdb_cursor_get(cursor, &key, &value, MDB_NEXT)) {
        memcpy(totals, value.mv_data, sizeof totals);
        rows++;
        take_in_total(&first, totals[0]);
        take_in_total(&second, totals[1]);
    }
    mdb_txn_reset(reading);
    memset(out, 0, sizeof out);
    out[ROWS] = rows;
    out[REPORTED_ONE] = first.rows;
    out[REPORTED_TWO] = second.rows;
    out[SUM_ONE] = first.sum;
    out[SUM_TWO] = second.sum;
}

static void lmdb_put(void) { put((Row){one, two, NEW_FIRST, NEW_SECOND}); }

static void lmdb_put_new(void) {
    uint8_t bytes[KEY_BYTES];
    lmdb_put();
    put_key(bytes, one, two);
    MDB_val key = {sizeof bytes, bytes};
    must(mdb_del(writing, sales, &key, NULL) == 0, "mdb_del");
}

const Store lmdb_store = {"LMDB", lmdb_fill, lmdb_read_key, lmdb_roll_up, lmdb_begin, lmdb_put, lmdb_put_new, lmdb_commit};
