// The library's reads, changes and blocks written by hand in C, as a careful C programmer would: one slot a turn, every test that
// the library makes and in its order. Where the low byte of a word comes first in memory, a slot stands in a block as it stands
// in the table, so a save tests each slot and writes it to its place in one walk, and a load tests the block's slots where they
// are and then moves them to the table; nothing is copied to another place in between.
#include "hand.h"

#include <stdbool.h>
#include <string.h>

#include "reported.h"

_Static_assert(__BYTE_ORDER__ == __ORDER_LITTLE_ENDIAN__, "a slot of a block has the bytes of a slot of the table");

enum { SLOT_WORDS = 8, SLOT_HALVES = 16, MOST_WORDS = 8192, OUT_WORDS = 8, HALF_BITS = 32 };
enum { BLOCK_SLOTS = 7, BLOCK_BYTES = 512, NUMBER = 0, FIRST_SLOT = 1, FILLER = 113, CHECK = 127 };
enum { RUN, OPERATION, KEY_ONE, KEY_TWO, CURRENT_ONE, CURRENT_TWO, OLD_ONE, OLD_TWO };
enum { EMPTY, INSERT, UPDATE, DELETE };
enum {
    BAD_TABLE = 1,
    BAD_RECORD,
    NO_SUCH_VERSION,
    EXPIRED,
    NO_SUCH_PLACE,
    BROKEN_SLOT,
    RUN_ACTIVE,
    NO_RUN,
    NO_VERSION_LEFT,
    KEY_NOT_LIVE = 11,
    TABLE_FULL,
    BAD_TOTAL,
    NOT_BLOCK,
    WRONG_CHECK,
    BAD_FIELD
};

static const int64_t LARGEST_VERSION = 1000000000;

// A word of a slot, and half of one, wherever they stand: in a block they are not aligned.
typedef int64_t Word __attribute__((aligned(1), may_alias));
typedef uint32_t Half __attribute__((aligned(1), may_alias));

typedef struct {
    int64_t current;
    bool active;
    int64_t oldest;
} Version;

static void clear(int64_t out[8], int64_t refusal) {
    memset(out, 0, OUT_WORDS * sizeof(int64_t));
    out[0] = refusal;
}

static Version version_of(const int64_t record[4]) {
    Version version = {record[0], record[1] == 1, record[2]};
    if (record[1] != 0 && record[1] != 1) version.current = 0;
    return version;
}

static bool bad_table(size_t words) { return words == 0 || words % SLOT_WORDS != 0 || words > MOST_WORDS; }

static bool bad_version(Version v) {
    return v.current < 1 || v.current > LARGEST_VERSION || (v.active && v.current == LARGEST_VERSION) || v.oldest < 1 ||
           (v.oldest != v.current && v.oldest != v.current - 1) || (v.active && v.oldest != v.current);
}

static bool lawful(int64_t total) { return PROBE_NOT_REPORTED <= total && total <= PROBE_HIGHEST_TOTAL; }

static bool all_zeros(const Word *x) { return (x[0] | x[1] | x[2] | x[3] | x[4] | x[5] | x[6] | x[7]) == 0; }

static bool well_formed(const Word *x, Version v) {
    if (x[OPERATION] == EMPTY) return all_zeros(x);
    return x[OPERATION] >= INSERT && x[OPERATION] <= DELETE && x[RUN] >= 1 && x[RUN] <= v.current + v.active && lawful(x[CURRENT_ONE]) &&
           lawful(x[CURRENT_TWO]) && lawful(x[OLD_ONE]) && lawful(x[OLD_TWO]) && (x[OPERATION] != INSERT || (x[OLD_ONE] | x[OLD_TWO]) == 0);
}

static int64_t session_refusal(size_t words, Version v, int64_t session) {
    if (bad_table(words)) return BAD_TABLE;
    if (bad_version(v)) return BAD_RECORD;
    if (session < 1 || session > v.current) return NO_SUCH_VERSION;
    if (session < v.oldest) return EXPIRED;
    return 0;
}

static size_t key_slot(const int64_t *table, size_t slots, int64_t one, int64_t two) {
    size_t k = 0;
    for (const int64_t *x = table; k < slots; k++, x += SLOT_WORDS)
        if (x[KEY_TWO] == two && x[KEY_ONE] == one && x[OPERATION] != EMPTY) return k;
    return slots;
}

// Table 1: whether a row is seen, and its totals.
static bool seen(const int64_t *x, int64_t session, int64_t *first, int64_t *second) {
    if (x[RUN] <= session) {
        if (x[OPERATION] != INSERT && x[OPERATION] != UPDATE) return false;
        *first = x[CURRENT_ONE];
        *second = x[CURRENT_TWO];
        return true;
    }
    if (x[OPERATION] != UPDATE && x[OPERATION] != DELETE) return false;
    *first = x[OLD_ONE];
    *second = x[OLD_TWO];
    return true;
}

static void show(const int64_t *x, Version v, int64_t session, int64_t out[8]) {
    if (!well_formed(x, v)) {
        clear(out, BROKEN_SLOT);
        return;
    }
    int64_t first, second;
    clear(out, 0);
    if (!seen(x, session, &first, &second)) return;
    out[1] = 1;
    out[2] = x[KEY_ONE];
    out[3] = x[KEY_TWO];
    out[4] = first;
    out[5] = second;
}

void hand_read_slot(const int64_t *table, size_t words, const int64_t record[4], int64_t session, size_t slot, int64_t out[8]) {
    Version v = version_of(record);
    int64_t refusal = session_refusal(words, v, session);
    if (refusal == 0 && slot >= words / SLOT_WORDS) refusal = NO_SUCH_PLACE;
    if (refusal != 0) {
        clear(out, refusal);
        return;
    }
    show(table + slot * SLOT_WORDS, v, session, out);
}

void hand_read_key(const int64_t *table, size_t words, const int64_t record[4], int64_t session, int64_t one, int64_t two, int64_t out[8]) {
    Version v = version_of(record);
    int64_t refusal = session_refusal(words, v, session);
    if (refusal != 0) {
        clear(out, refusal);
        return;
    }
    size_t slots = words / SLOT_WORDS, k = key_slot(table, slots, one, two);
    if (k == slots) {
        clear(out, 0);
        return;
    }
    show(table + k * SLOT_WORDS, v, session, out);
}

void hand_roll_up(const int64_t *table, size_t words, const int64_t record[4], int64_t session, int64_t one, int64_t out[8]) {
    Version v = version_of(record);
    int64_t refusal = session_refusal(words, v, session), rows = 0;
    Reported total_one = {0, 0}, total_two = {0, 0};
    for (size_t k = 0; refusal == 0 && k < words / SLOT_WORDS; k++) {
        const int64_t *x = table + k * SLOT_WORDS;
        int64_t first, second;
        if (!well_formed(x, v)) {
            refusal = BROKEN_SLOT;
        } else if (x[KEY_ONE] == one && seen(x, session, &first, &second)) {
            rows++;
            take_in_total(&total_one, first);
            take_in_total(&total_two, second);
        }
    }
    clear(out, refusal);
    if (refusal != 0) return;
    out[1] = rows;
    out[2] = total_one.rows;
    out[3] = total_two.rows;
    out[4] = total_one.sum;
    out[5] = total_two.sum;
}

static int64_t change_refusal(size_t words, Version v, int64_t first, int64_t second) {
    if (bad_table(words)) return BAD_TABLE;
    if (bad_version(v)) return BAD_RECORD;
    if (!v.active) return NO_RUN;
    if (!lawful(first) || !lawful(second)) return BAD_TOTAL;
    return 0;
}

// Nothing of what stood in the slot stays.
static void start_row(int64_t *x, int64_t run, int64_t one, int64_t two, int64_t first, int64_t second) {
    x[RUN] = run;
    x[OPERATION] = INSERT;
    x[KEY_ONE] = one;
    x[KEY_TWO] = two;
    x[CURRENT_ONE] = first;
    x[CURRENT_TWO] = second;
    x[OLD_ONE] = x[OLD_TWO] = 0;
}

static size_t free_slot(const int64_t *table, size_t slots, Version v) {
    for (size_t k = 0; k < slots; k++) {
        const int64_t *x = table + k * SLOT_WORDS;
        if (x[OPERATION] == EMPTY ? all_zeros(x) : x[OPERATION] == DELETE && x[RUN] <= v.current && well_formed(x, v)) return k;
    }
    return slots;
}

// Table 3 for a live key and Table 2 for any other: the run has its row already, or starts it anew, or saves the totals before it.
void hand_put(int64_t *table, size_t words, const int64_t record[4], int64_t one, int64_t two, int64_t first, int64_t second, int64_t out[8]) {
    Version v = version_of(record);
    clear(out, change_refusal(words, v, first, second));
    if (out[0] != 0) return;
    size_t slots = words / SLOT_WORDS, k = key_slot(table, slots, one, two);
    int64_t run = v.current + 1;
    if (k == slots) {
        k = free_slot(table, slots, v);
        if (k == slots) {
            out[0] = TABLE_FULL;
            return;
        }
        start_row(table + k * SLOT_WORDS, run, one, two, first, second);
    } else {
        int64_t *x = table + k * SLOT_WORDS;
        if (!well_formed(x, v)) {
            out[0] = BROKEN_SLOT;
            return;
        }
        if (x[RUN] == run) {
            if (x[OPERATION] == DELETE) x[OPERATION] = UPDATE;
            x[CURRENT_ONE] = first;
            x[CURRENT_TWO] = second;
        } else if (x[OPERATION] == DELETE) {
            start_row(x, run, one, two, first, second);
        } else {
            x[RUN] = run;
            x[OPERATION] = UPDATE;
            x[OLD_ONE] = x[CURRENT_ONE];
            x[OLD_TWO] = x[CURRENT_TWO];
            x[CURRENT_ONE] = first;
            x[CURRENT_TWO] = second;
        }
    }
    out[1] = (int64_t)k;
}

void hand_delete(int64_t *table, size_t words, const int64_t record[4], int64_t one, int64_t two, int64_t out[8]) {
    Version v = version_of(record);
    clear(out, change_refusal(words, v, 0, 0));
    if (out[0] != 0) return;
    size_t slots = words / SLOT_WORDS, k = key_slot(table, slots, one, two);
    if (k == slots) {
        out[0] = KEY_NOT_LIVE;
        return;
    }
    int64_t *x = table + k * SLOT_WORDS;
    out[0] = !well_formed(x, v) ? BROKEN_SLOT : x[OPERATION] == DELETE ? KEY_NOT_LIVE : 0;
    if (out[0] != 0) return;
    out[1] = (int64_t)k;
    if (x[RUN] <= v.current) {
        x[RUN] = v.current + 1;
        x[OPERATION] = DELETE;
        x[OLD_ONE] = x[CURRENT_ONE];
        x[OLD_TWO] = x[CURRENT_TWO];
    } else if (x[OPERATION] == INSERT) {
        memset(x, 0, SLOT_WORDS * sizeof(int64_t));
    } else {
        x[OPERATION] = DELETE;
    }
}

// A row of this run as it was before it: an inserted one is emptied, any other has its old totals as an insert at current.
static void put_row_back(int64_t *x, Version v) {
    if (x[RUN] != v.current + 1) return;
    if (x[OPERATION] == INSERT)
        memset(x, 0, SLOT_WORDS * sizeof(int64_t));
    else
        start_row(x, v.current, x[KEY_ONE], x[KEY_TWO], x[OLD_ONE], x[OLD_TWO]);
}

// A walk that tests and a walk that writes, so that a refused roll back has written nothing.
void hand_roll_back(int64_t *table, size_t words, int64_t record[4], int64_t out[8]) {
    Version v = version_of(record);
    clear(out, change_refusal(words, v, 0, 0));
    if (out[0] != 0) return;
    for (const int64_t *x = table; x < table + words; x += SLOT_WORDS)
        if (!well_formed(x, v)) {
            out[0] = BROKEN_SLOT;
            return;
        }
    for (int64_t *x = table; x < table + words; x += SLOT_WORDS) put_row_back(x, v);
    record[1] = 0;
    out[1] = v.current;
}

static int64_t block_refusal(size_t words, Version v, size_t number) {
    if (bad_table(words)) return BAD_TABLE;
    if (bad_version(v)) return BAD_RECORD;
    if (v.active) return RUN_ACTIVE;
    if (number < 1 || number > (words / SLOT_WORDS + BLOCK_SLOTS - 1) / BLOCK_SLOTS) return NO_SUCH_PLACE;
    return 0;
}

// How many slots of the table a block holds.
static size_t slots_in(size_t words, size_t number) {
    size_t left = words / SLOT_WORDS - BLOCK_SLOTS * (number - 1);
    return left < BLOCK_SLOTS ? left : BLOCK_SLOTS;
}

// A slot written to its place in a block; answers the sum of its halves.
static uint32_t put_slot(Word *restrict to, const int64_t *restrict x) {
    uint32_t sum = 0;
    for (size_t i = 0; i < SLOT_WORDS; i++) {
        to[i] = x[i];
        sum += (uint32_t)x[i] + (uint32_t)((uint64_t)x[i] >> HALF_BITS);
    }
    return sum;
}

// A block made where it is wanted: its number, its slots, each tested and then written, zeros up to the check, and the check.
static int64_t save_slots(const int64_t *restrict from, size_t held, Version v, size_t number, Half *restrict halves) {
    Word *to = (Word *)(halves + FIRST_SLOT);
    uint32_t check = (uint32_t)number;
    for (size_t j = 0; j < held; j++, from += SLOT_WORDS, to += SLOT_WORDS) {
        if (!well_formed(from, v)) return BROKEN_SLOT;
        check += put_slot(to, from);
    }
    size_t written = FIRST_SLOT + held * SLOT_HALVES;
    halves[NUMBER] = (uint32_t)number;
    memset(halves + written, 0, (CHECK - written) * sizeof(Half));
    halves[CHECK] = check;
    return 0;
}

void hand_save_block(const int64_t *table, size_t words, const int64_t record[4], size_t number, uint8_t block[512], int64_t out[8]) {
    Version v = version_of(record);
    int64_t refusal = block_refusal(words, v, number);
    if (refusal == 0) refusal = save_slots(table + BLOCK_SLOTS * (number - 1) * SLOT_WORDS, slots_in(words, number), v, number, (Half *)block);
    if (refusal != 0) memset(block, 0, BLOCK_BYTES);
    clear(out, refusal);
}

static bool check_wrong(const Half *halves) {
    uint32_t total = 0;
    for (size_t i = 0; i < CHECK; i++) total += halves[i];
    return total != halves[CHECK];
}

// Whether a field of a block is not allowed; its slots are tested where they stand.
static bool field_wrong(const Half *halves, size_t number, size_t held, Version v) {
    uint32_t filler = 0;
    for (size_t i = FILLER; i < CHECK; i++) filler |= halves[i];
    if (halves[NUMBER] != number || filler != 0) return true;
    const Word *x = (const Word *)(halves + FIRST_SLOT);
    for (size_t j = 0; j < BLOCK_SLOTS; j++, x += SLOT_WORDS)
        if (j < held ? !well_formed(x, v) : !all_zeros(x)) return true;
    return false;
}

void hand_load_block(int64_t *table, size_t words, const int64_t record[4], size_t number, const uint8_t *block, size_t bytes, int64_t out[8]) {
    Version v = version_of(record);
    const Half *halves = (const Half *)block;
    int64_t refusal = block_refusal(words, v, number);
    if (refusal == 0 && bytes != BLOCK_BYTES) refusal = NOT_BLOCK;
    if (refusal == 0 && check_wrong(halves)) refusal = WRONG_CHECK;
    if (refusal == 0 && field_wrong(halves, number, slots_in(words, number), v)) refusal = BAD_FIELD;
    clear(out, refusal);
    if (refusal != 0) return;
    memcpy(table + BLOCK_SLOTS * (number - 1) * SLOT_WORDS, halves + FIRST_SLOT, slots_in(words, number) * SLOT_WORDS * sizeof(int64_t));
}
