// SQLite in memory: the key is the primary key, and each statement is prepared once.
#include <sqlite3.h>
#include <string.h>

#include "../include/probe.h"
#include "stores.h"

static sqlite3 *base;
static sqlite3_stmt *by_key, *by_group, *upsert, *take_out;

static sqlite3_stmt *prepared(const char *text) {
    sqlite3_stmt *statement;
    must(sqlite3_prepare_v2(base, text, -1, &statement, NULL) == SQLITE_OK, text);
    return statement;
}

static void execute(const char *text) { must(sqlite3_exec(base, text, 0, 0, 0) == SQLITE_OK, text); }

static void open_anew(void) {
    if (base != NULL) {
        sqlite3_finalize(by_key);
        sqlite3_finalize(by_group);
        sqlite3_finalize(upsert);
        sqlite3_finalize(take_out);
        sqlite3_close(base);
    }
    must(sqlite3_open(":memory:", &base) == SQLITE_OK, "sqlite3_open");
    execute("CREATE TABLE sales (one INT, two INT, first INT, second INT, PRIMARY KEY (one, two)) WITHOUT ROWID");
    by_key = prepared("SELECT first, second FROM sales WHERE one = ? AND two = ?");
    by_group = prepared("SELECT count(*), count(first), count(second), sum(first), sum(second) FROM sales WHERE one = ?");
    upsert = prepared("INSERT INTO sales VALUES (?, ?, ?, ?) ON CONFLICT (one, two) DO UPDATE SET first = excluded.first, second = excluded.second");
    take_out = prepared("DELETE FROM sales WHERE one = ? AND two = ?");
}

// A total that is not reported is NULL, which count and sum leave out by themselves.
static void bind_total(int place, int64_t total) {
    if (total == PROBE_NOT_REPORTED)
        sqlite3_bind_null(upsert, place);
    else
        sqlite3_bind_int64(upsert, place, total);
}

static int64_t total_at(int place) {
    return sqlite3_column_type(by_key, place) == SQLITE_NULL ? PROBE_NOT_REPORTED : sqlite3_column_int64(by_key, place);
}

static void put(Row row) {
    sqlite3_bind_int64(upsert, 1, row.one);
    sqlite3_bind_int64(upsert, 2, row.two);
    bind_total(3, row.first);
    bind_total(4, row.second);
    must(sqlite3_step(upsert) == SQLITE_DONE, "INSERT");
    sqlite3_reset(upsert);
}

static void sqlite_fill(const Row *rows, size_t count, const char *folder) {
    (void)folder;
    open_anew();
    for (size_t k = 0; k < count; k++) put(rows[k]);
}

static void sqlite_read_key(void) {
    memset(out, 0, sizeof out);
    sqlite3_bind_int64(by_key, 1, one);
    sqlite3_bind_int64(by_key, 2, two);
    if (sqlite3_step(by_key) == SQLITE_ROW) {
        out[MARK] = 1;
        out[KEY_ONE] = one;
        out[KEY_TWO] = two;
        out[TOTAL_ONE] = total_at(0);
        out[TOTAL_TWO] = total_at(1);
    }
    sqlite3_reset(by_key);
}

static void sqlite_roll_up(void) {
    memset(out, 0, sizeof out);
    sqlite3_bind_int64(by_group, 1, one);
    must(sqlite3_step(by_group) == SQLITE_ROW, "SELECT");
    for (int i = 0; i < ROLL_UP_NUMBERS; i++) out[ROWS + i] = sqlite3_column_int64(by_group, i);
    sqlite3_reset(by_group);
}

static void sqlite_begin(void) { execute("BEGIN"); }
static void sqlite_commit(void) { execute("COMMIT"); }
static void sqlite_put(void) { put((Row){one, two, NEW_FIRST, NEW_SECOND}); }

static void sqlite_put_new(void) {
    sqlite_put();
    sqlite3_bind_int64(take_out, 1, one);
    sqlite3_bind_int64(take_out, 2, two);
    must(sqlite3_step(take_out) == SQLITE_DONE, "DELETE");
    sqlite3_reset(take_out);
}

const Store sqlite_store = {"SQLite", sqlite_fill, sqlite_read_key, sqlite_roll_up, sqlite_begin, sqlite_put, sqlite_put_new, sqlite_commit};
