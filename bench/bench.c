// Times each call of the library against the same call written by hand in C, and key reads, roll-ups and puts against what a user
// would pick instead: all in one process, the sides by turns, a median of many rounds for each. Before it is timed, each side's
// answer is compared.
#include <pthread.h>
#include <stdio.h>
#include <stdlib.h>
#include <string.h>

#include "../include/probe.h"
#include "hand.h"
#include "lent.h"
#include "stores.h"
#include "timing.h"

enum { RECORD_WORDS = 4, NAME_BYTES = 64, FEW = 8, SOME = 64, MANY = 1024, GROUP = 3, BLOCK = 1 };
enum { CHANGED_SLOT = 1 };

// A key word that no slot of a dated table has.
enum { NO_WORD = MOST_SLOTS };

static const int64_t IDLE[RECORD_WORDS] = {CURRENT, 0, CURRENT - 1, 0}, ACTIVE[RECORD_WORDS] = {CURRENT, 1, CURRENT, 0};

static const struct {
    const char *name;
    int64_t version;
} SESSIONS[] = {{"current", CURRENT}, {"current - 1", CURRENT - 1}};

static const Kind KINDS[] = {UNIFORM, MIXED};
static const size_t COUNTS[] = {FEW, SOME, MANY};

// How many dates the slots of a dated table have, and in which order the slots stand. The names begin with that of the kind.
static const struct {
    const char *name;
    size_t dates;
    int shuffled;
} PATTERNS[] = {
    {"dates, all different", MOST_SLOTS, 0},
    {"dates, all different shuffled", MOST_SLOTS, 1},
    {"dates, 32", 32, 0},
    {"dates, 32 shuffled", 32, 1},
    {"dates, 4", 4, 0},
    {"dates, 4 shuffled", 4, 1},
    {"dates, 1", 1, 0},
    {"dates, 1 shuffled", 1, 1},
};

// What is asked of a dated table.
typedef enum { HIT_FIRST, HIT_LAST, ABSENT_BY_DATE, ABSENT_BY_KEY_ONE, ASKED_KEYS } Asked;
static const char *const ASKED_NAMES[] = {"hit first", "hit last", "absent by date", "absent by key one"};

static const char *folder;
static const Store *stores[SIDES];
static pthread_rwlock_t lock = PTHREAD_RWLOCK_INITIALIZER;

const char *columns[SIDES] = {"library", "C", "lock + C"};

#define COUNT_OF(list) (sizeof(list) / sizeof *(list))

void must(int fine, const char *what) {
    if (fine) return;
    fprintf(stderr, "bench: failed: %s\n", what);
    exit(1);
}

// ---- the bodies: reads
static void probe_key(void) { probe_read_key(at->table, words, IDLE, session, one, two, out); }
static void hand_key(void) { hand_read_key(at->table, words, IDLE, session, one, two, out); }
static void probe_group(void) { probe_roll_up(at->table, words, IDLE, session, one, out); }
static void hand_group(void) { hand_roll_up(at->table, words, IDLE, session, one, out); }
static void probe_slot(void) { probe_read_slot(at->table, words, IDLE, session, slots - 1, out); }
static void hand_slot(void) { hand_read_slot(at->table, words, IDLE, session, slots - 1, out); }

// The slow reader: the same scan under a read-write lock that nobody else holds.
static void locked_key(void) {
    pthread_rwlock_rdlock(&lock);
    hand_key();
    pthread_rwlock_unlock(&lock);
}

static void locked_group(void) {
    pthread_rwlock_rdlock(&lock);
    hand_group();
    pthread_rwlock_unlock(&lock);
}

// ---- the bodies: changes, each of which is then undone
static void put_back(void) {
    size_t from = (size_t)out[CHANGED_SLOT] * SLOT_WORDS;
    memmove(at->table + from, at->kept + from, SLOT_WORDS * sizeof(int64_t));
}

static void probe_row(void) { probe_put(at->table, words, ACTIVE, one, two, NEW_FIRST, NEW_SECOND, out), put_back(); }
static void hand_row(void) { hand_put(at->table, words, ACTIVE, one, two, NEW_FIRST, NEW_SECOND, out), put_back(); }

// The slow writer, under the same lock.
static void locked_row(void) {
    pthread_rwlock_wrlock(&lock);
    hand_row();
    pthread_rwlock_unlock(&lock);
}

static void probe_gone(void) { probe_delete(at->table, words, ACTIVE, one, two, out), put_back(); }
static void hand_gone(void) { hand_delete(at->table, words, ACTIVE, one, two, out), put_back(); }

// ---- the bodies: roll back, of a record that is in a run each time; what it put back is then of the run again
static int64_t turned[RECORD_WORDS];

static void probe_back(void) { memcpy(turned, ACTIVE, sizeof turned), probe_roll_back(at->table, words, turned, out), put_run_back(); }
static void hand_back(void) { memcpy(turned, ACTIVE, sizeof turned), hand_roll_back(at->table, words, turned, out), put_run_back(); }

// ---- the bodies: blocks
static void probe_save(void) { probe_save_block(at->table, words, IDLE, BLOCK, at->block, out); }
static void hand_save(void) { hand_save_block(at->table, words, IDLE, BLOCK, at->block, out); }
static void probe_load(void) { probe_load_block(at->table, words, IDLE, BLOCK, at->block, BLOCK_BYTES, out); }
static void hand_load(void) { hand_load_block(at->table, words, IDLE, BLOCK, at->block, BLOCK_BYTES, out); }

// ---- the comparison before a row is timed
typedef struct {
    int64_t answer[OUT_WORDS], table[MOST_WORDS], record[RECORD_WORDS];
    uint8_t block[BLOCK_BYTES];
} Left;

// What a body leaves of a copy of what is lent. What is kept is that same copy, so that a change stands.
static void leave(Left *left, const Lent *from, Body *body) {
    Lent copy = {left->table, left->table, left->block};
    memcpy(left->table, from->table, words * sizeof(int64_t));
    memcpy(left->block, from->block, BLOCK_BYTES);
    at = &copy;
    body();
    memcpy(left->answer, out, sizeof out);
    memcpy(left->record, turned, sizeof turned);
    at = from;
}

static int same_left(const Left *a, const Left *b) {
    return memcmp(a->answer, b->answer, sizeof a->answer) == 0 && memcmp(a->table, b->table, words * sizeof(int64_t)) == 0 &&
           memcmp(a->record, b->record, sizeof a->record) == 0 && memcmp(a->block, b->block, BLOCK_BYTES) == 0;
}

// The library and the C answer, and leave the same of every table; the other sides leave the same of the first. Else it is said at
// which call.
static void agree(const char *call, Body *const sides[SIDES]) {
    static Left expected, found;
    for (size_t turn = tables_in_turn; turn-- > 0;) {
        leave(&expected, &places[turn], sides[LIBRARY]);
        leave(&found, &places[turn], sides[HAND]);
        must(expected.answer[0] == 0 && same_left(&expected, &found), call);
    }
    for (int s = LOCKED; s < SIDES; s++) {
        if (sides[s] == NULL) continue;
        leave(&found, &places[0], sides[s]);
        must(same_left(&expected, &found), call);
    }
}

static void row(const char *call, const char *at_session, Body *const sides[SIDES]) {
    agree(call, sides);
    measure(call, at_session, sides);
}

// A row of a call that has the C alone beside it.
static void pair(const char *call, const char *at_session, Body *probe, Body *hand) {
    Body *const sides[SIDES] = {probe, hand};
    row(call, at_session, sides);
}

// ---- the stores
static void find_stores(void) {
#ifdef HAVE_SQLITE
    stores[SQLITE] = &sqlite_store;
#endif
#ifdef HAVE_LMDB
    stores[LMDB] = &lmdb_store;
#endif
    for (int s = 0; s < SIDES; s++)
        if (stores[s] != NULL) columns[s] = stores[s]->name;
}

// Gives each store the rows that the session sees of the first table.
static void fill_stores(void) {
    static Row rows[MOST_SLOTS];
    size_t count = 0;
    for (size_t k = 0; k < slots; k++) {
        hand_read_slot(places[0].table, words, IDLE, session, k, out);
        if (out[MARK] == 1) rows[count++] = (Row){out[KEY_ONE], out[KEY_TWO], out[TOTAL_ONE], out[TOTAL_TWO]};
    }
    for (int s = 0; s < SIDES; s++)
        if (stores[s] != NULL) stores[s]->fill(rows, count, folder);
}

// ---- the rows
static void ask_for(size_t slot) {
    two = (int64_t)slot;
    one = two % GROUPS;
}

static void key_rows(const char *at_session) {
    const struct {
        const char *name;
        size_t slot;
    } asked[] = {{"hit first", 0}, {"hit last", slots - 1}, {"absent", slots}};
    Body *sides[SIDES] = {probe_key, hand_key, locked_key};
    for (int s = 0; s < SIDES; s++)
        if (stores[s] != NULL) sides[s] = stores[s]->read_key;
    for (size_t i = 0; i < COUNT_OF(asked); i++) {
        char call[NAME_BYTES];
        ask_for(asked[i].slot);
        snprintf(call, sizeof call, "read a key, %zu slots, %s", slots, asked[i].name);
        row(call, at_session, sides);
    }
}

static void group_rows(const char *at_session) {
    char call[NAME_BYTES];
    Body *sides[SIDES] = {probe_group, hand_group, locked_group};
    for (int s = 0; s < SIDES; s++)
        if (stores[s] != NULL) sides[s] = stores[s]->roll_up;
    one = GROUP;
    snprintf(call, sizeof call, "roll-up, %zu slots", slots);
    row(call, at_session, sides);
}

// The rows of a read, for uniform and mixed tables of every size and both sessions.
static void read_rows(void (*rows)(const char *at_session)) {
    for (size_t k = 0; k < COUNT_OF(KINDS); k++)
        for (size_t c = 0; c < COUNT_OF(COUNTS); c++)
            for (size_t s = 0; s < COUNT_OF(SESSIONS); s++) {
                fill(KINDS[k], COUNTS[c]);
                session = SESSIONS[s].version;
                fill_stores();
                rows(SESSIONS[s].name);
            }
}

// Asks for the key of the first slot or of the last, or for that of the last with another date or another first key word, which no
// slot has.
static void ask_dated(Asked asked) {
    const int64_t *row = at->table + (asked == HIT_FIRST ? 0 : slots - 1) * SLOT_WORDS;
    one = asked == ABSENT_BY_KEY_ONE ? NO_WORD : row[SLOT_KEY_ONE];
    two = asked == ABSENT_BY_DATE ? NO_WORD : row[SLOT_KEY_TWO];
}

// One row for all patterns of dates, so that the table stays readable.
static void dated_row(size_t count, Asked asked, const char *at_session) {
    Body *const sides[SIDES] = {probe_key, hand_key};
    Range range = NO_RATIO;
    char call[NAME_BYTES];
    snprintf(call, sizeof call, "read a key, %zu slots, %s", count, ASKED_NAMES[asked]);
    for (size_t p = 0; p < COUNT_OF(PATTERNS); p++) {
        fill_dated(count, PATTERNS[p].dates, PATTERNS[p].shuffled);
        ask_dated(asked);
        agree(call, sides);
        take_in(&range, call, PATTERNS[p].name, at_session, sides);
    }
    show_range(call, at_session, range);
}

static void dated_rows(void) {
    for (size_t c = 0; c < COUNT_OF(COUNTS); c++)
        for (size_t s = 0; s < COUNT_OF(SESSIONS); s++) {
            session = SESSIONS[s].version;
            for (Asked asked = HIT_FIRST; asked < ASKED_KEYS; asked++) dated_row(COUNTS[c], asked, SESSIONS[s].name);
        }
}

static void slot_rows(void) {
    for (size_t k = 0; k < COUNT_OF(KINDS); k++)
        for (size_t s = 0; s < COUNT_OF(SESSIONS); s++) {
            fill(KINDS[k], SOME);
            session = SESSIONS[s].version;
            pair("read a slot", SESSIONS[s].name, probe_slot, hand_slot);
        }
}

// What a store puts and commits can be read.
static void store_agrees(const char *call, const Store *store) {
    store->begin();
    store->put();
    store->commit();
    store->read_key();
    must(out[MARK] == 1 && out[TOTAL_ONE] == NEW_FIRST && out[TOTAL_TWO] == NEW_SECOND, call);
}

// A put of the key that is lent. A store puts in a transaction that stays open, as the library does in a run; a new row is taken out
// again, as the library's slot is put back.
static void time_put(const char *call, int is_new) {
    Body *sides[SIDES] = {probe_row, hand_row, locked_row};
    agree(call, sides);
    fill_stores();
    for (int s = 0; s < SIDES; s++)
        if (stores[s] != NULL) store_agrees(call, stores[s]);
    fill_stores();
    for (int s = 0; s < SIDES; s++) {
        if (stores[s] == NULL) continue;
        sides[s] = is_new ? stores[s]->put_new : stores[s]->put;
        stores[s]->begin();
    }
    measure(call, "", sides);
    for (int s = 0; s < SIDES; s++)
        if (stores[s] != NULL) stores[s]->commit();
}

// Put and delete of the last row; then a put of its key where it has gone, into the lowest free slot.
static void change_rows_of(Kind which, size_t count) {
    static const int64_t empty[SLOT_WORDS];
    char call[NAME_BYTES];
    fill(which, count);
    session = CURRENT;
    ask_for(slots - 1);
    snprintf(call, sizeof call, "put, %zu slots, a live key", slots);
    time_put(call, 0);
    snprintf(call, sizeof call, "delete, %zu slots, the last", slots);
    pair(call, "", probe_gone, hand_gone);
    for (size_t t = 0; t < tables_in_turn; t++) put_row(&places[t], slots - 1, empty);
    snprintf(call, sizeof call, "put, %zu slots, a new key", slots);
    time_put(call, 1);
}

static void change_rows(void) {
    const size_t counts[] = {FEW, SOME};
    for (size_t k = 0; k < COUNT_OF(KINDS); k++)
        for (size_t c = 0; c < COUNT_OF(counts); c++) change_rows_of(KINDS[k], counts[c]);
}

static void roll_back_rows(void) {
    const size_t counts[] = {SOME, MANY};
    char call[NAME_BYTES];
    for (size_t k = 0; k < COUNT_OF(KINDS); k++)
        for (size_t c = 0; c < COUNT_OF(counts); c++) {
            fill(KINDS[k], counts[c]);
            change_in_run();
            snprintf(call, sizeof call, "roll back, %zu slots", slots);
            pair(call, "", probe_back, hand_back);
        }
}

static void block_rows(void) {
    for (size_t k = 0; k < COUNT_OF(KINDS); k++) {
        fill(KINDS[k], SOME);
        pair("save a block", "", probe_save, hand_save);
        for (size_t t = 0; t < tables_in_turn; t++) lend(t), hand_save();
        pair("load a block", "", probe_load, hand_load);
    }
}

int main(int count, char **given) {
    if (count != 3) {
        fprintf(stderr, "usage: bench FOLDER FILE (a folder for LMDB's files, and where the lines for other programs go)\n");
        return 2;
    }
    FILE *lines = fopen(given[2], "a");
    must(lines != NULL, given[2]);
    folder = given[1];
    find_stores();
    show_heads(lines);
    read_rows(key_rows);
    dated_rows();
    read_rows(group_rows);
    slot_rows();
    change_rows();
    roll_back_rows();
    block_rows();
    must(fclose(lines) == 0, given[2]);
    return 0;
}
