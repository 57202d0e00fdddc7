// The tables that are timed, made the same way each time.
#include "lent.h"

#include <string.h>

#include "../include/probe.h"

enum { INSERT = 1, UPDATE, DELETE };
enum { FIRST_RUN = 2, HUNDRED = 100, INSERTS = 60, UPDATES = 25, DELETES = 10, LEFT_OUT = 12 };
enum { LOW_BITS = 33 };

static const uint64_t MULTIPLIER = 6364136223846793005u, INCREMENT = 1442695040888963407u;

Lent places[TABLES];
const Lent *at = places;
Kind kind;
size_t slots, words, tables_in_turn = 1;
int64_t session, one, two, out[OUT_WORDS];

static int64_t tables[TABLES * MOST_WORDS], copies[TABLES * MOST_WORDS];
static uint8_t blocks[TABLES][BLOCK_BYTES];
static uint64_t state;

// A number below a limit, from the high bits of the next number of Knuth's linear congruential series.
static int64_t drawn(int64_t below) {
    state = state * MULTIPLIER + INCREMENT;
    return (int64_t)(state >> LOW_BITS) % below;
}

// An operation by the mix, or 0 for an empty slot; a live slot is one of the first two.
static int64_t drawn_operation(int live) {
    int64_t draw = drawn(live ? INSERTS + UPDATES : HUNDRED);
    if (draw < INSERTS) return INSERT;
    if (draw < INSERTS + UPDATES) return UPDATE;
    if (draw < INSERTS + UPDATES + DELETES) return DELETE;
    return 0;
}

void put_row(const Lent *to, size_t slot, const int64_t row[SLOT_WORDS]) {
    memcpy(to->table + slot * SLOT_WORDS, row, SLOT_WORDS * sizeof *row);
    memcpy(to->kept + slot * SLOT_WORDS, row, SLOT_WORDS * sizeof *row);
}

// A used slot; its old totals differ from its current ones, and are 0 in an insert.
static void put_used(const Lent *to, size_t slot, int64_t run, int64_t operation) {
    int64_t total = (int64_t)slot, old = operation == INSERT ? 0 : 2 * total;
    int64_t row[SLOT_WORDS] = {run, operation, (int64_t)(slot % GROUPS), (int64_t)slot, total, -total, old, -old};
    put_row(to, slot, row);
}

// Leaves some of a slot's totals out, each by a draw of its own; the old totals of an insert stay 0.
static void leave_out(const Lent *to, size_t slot, int64_t operation) {
    for (size_t place = SLOT_TOTALS; place < (operation == INSERT ? SLOT_OLD_TOTALS : SLOT_WORDS); place++)
        if (drawn(HUNDRED) < LEFT_OUT) to->table[slot * SLOT_WORDS + place] = to->kept[slot * SLOT_WORDS + place] = PROBE_NOT_REPORTED;
}

static void fill_mixed(const Lent *to) {
    for (size_t k = 0; k < slots; k++) {
        int64_t operation = drawn_operation(k == 0 || k == slots - 1), run = FIRST_RUN + drawn(CURRENT - FIRST_RUN + 1);
        if (operation == 0) continue;
        put_used(to, k, run, operation);
        leave_out(to, k, operation);
    }
}

void fill(Kind which, size_t count) {
    kind = which;
    slots = count;
    words = count * SLOT_WORDS;
    tables_in_turn = which == MIXED ? TABLES : 1;
    state = 1;
    memset(tables, 0, sizeof tables);
    memset(copies, 0, sizeof copies);
    for (size_t t = 0; t < tables_in_turn; t++) {
        places[t] = (Lent){tables + t * words, copies + t * words, blocks[t]};
        if (which == MIXED)
            fill_mixed(&places[t]);
        else
            for (size_t k = 0; k < slots; k++) put_used(&places[t], k, FIRST_RUN, INSERT);
    }
    lend(0);
}

void change_in_run(void) {
    for (size_t t = 0; t < tables_in_turn; t++)
        for (size_t k = 0; k < slots; k += RUN_EVERY) put_used(&places[t], k, CURRENT + 1, INSERT + (int64_t)(k / RUN_EVERY % DELETE));
}

void put_run_back(void) {
    for (size_t from = 0; from < words; from += RUN_EVERY * SLOT_WORDS) memmove(at->table + from, at->kept + from, SLOT_WORDS * sizeof(int64_t));
}

// The numbers of the rows, in order or shuffled: from the last down each changes places with one that is not above it.
static void draw_order(size_t *order, int shuffled) {
    for (size_t k = 0; k < slots; k++) order[k] = k;
    for (size_t k = slots; shuffled && k-- > 1;) {
        size_t other = (size_t)drawn((int64_t)k + 1), moved = order[k];
        order[k] = order[other];
        order[other] = moved;
    }
}

static void give_key(const Lent *to, size_t slot, size_t key_one, size_t key_two) {
    size_t from = slot * SLOT_WORDS;
    to->table[from + SLOT_KEY_ONE] = to->kept[from + SLOT_KEY_ONE] = (int64_t)key_one;
    to->table[from + SLOT_KEY_TWO] = to->kept[from + SLOT_KEY_TWO] = (int64_t)key_two;
}

void fill_dated(size_t count, size_t dates, int shuffled) {
    static size_t order[MOST_SLOTS];
    fill(UNIFORM, count);
    kind = DATED;
    draw_order(order, shuffled);
    for (size_t k = 0; k < slots; k++) give_key(at, k, order[k] / dates, order[k] % dates);
}
