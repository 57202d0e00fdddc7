// How a row is timed and shown.
#include "timing.h"

#include <float.h>
#include <stdlib.h>
#include <time.h>

enum { ROUNDS = 301, FIRST_REPEATS = 100, BATCH_NANOSECONDS = 20000 };

static const double NANOSECONDS = 1e9;
static const char *const KIND_NAMES[] = {"uniform", "mixed", "dates"};
static FILE *file;

const Range NO_RATIO = {DBL_MAX, 0};

static double now(void) {
    struct timespec t;
    clock_gettime(CLOCK_MONOTONIC, &t);
    return (double)t.tv_sec * NANOSECONDS + (double)t.tv_nsec;
}

// So many calls, on the tables in turn.
static void call(Body *body, size_t repeats) {
    for (size_t turn = 0; turn < repeats; turn++) {
        lend(turn);
        body();
    }
}

// Nanoseconds a call, over so many. Each table is walked once before, so that no side pays for what the side before it left in the
// caches.
static double timed(Body *body, size_t repeats) {
    call(body, tables_in_turn);
    double from = now();
    call(body, repeats);
    return (now() - from) / (double)repeats;
}

// How many calls make a batch of some length, each table as often as the others.
static size_t repeats_of(Body *body) {
    double one_call = timed(body, FIRST_REPEATS);
    size_t walks = (size_t)(BATCH_NANOSECONDS / one_call) / tables_in_turn;
    return (walks + 1) * tables_in_turn;
}

static int by_size(const void *a, const void *b) {
    double x = *(const double *)a, y = *(const double *)b;
    return (x > y) - (x < y);
}

static double median(double *times) {
    qsort(times, ROUNDS, sizeof *times, by_size);
    return times[ROUNDS / 2];
}

// The sides by turns.
static void take_medians(Body *const sides[SIDES], double medians[SIDES]) {
    static double times[SIDES][ROUNDS];
    size_t repeats = repeats_of(sides[LIBRARY]);
    for (int r = 0; r < ROUNDS; r++)
        for (int s = 0; s < SIDES; s++)
            if (sides[s] != NULL) times[s][r] = timed(sides[s], repeats);
    for (int s = 0; s < SIDES; s++)
        if (sides[s] != NULL) medians[s] = median(times[s]);
}

// The first three columns of the table.
static void show_begin(const char *name, const char *table, const char *at_session) {
    printf("%-41s %-8s %-11s", name, table, at_session);
}

void show_heads(FILE *lines) {
    file = lines;
    show_begin("nanoseconds (library / it)", "table", "session");
    fprintf(file, "call\ttable\tsession");
    for (int s = 0; s < SIDES; s++)
        if (columns[s] != NULL) {
            printf(s == LIBRARY ? " %9s" : " %17s", columns[s]);
            fprintf(file, "\t%s", columns[s]);
        }
    printf("\n");
    fprintf(file, "\n");
}

// A cell for each column that there is, empty where the row has not its side.
static void write_line(const char *name, const char *table, const char *at_session, Body *const sides[SIDES],
                       const double medians[SIDES]) {
    fprintf(file, "%s\t%s\t%s", name, table, at_session);
    for (int s = 0; s < SIDES; s++) {
        if (columns[s] == NULL) continue;
        if (sides[s] == NULL)
            fprintf(file, "\t");
        else
            fprintf(file, "\t%.3f", medians[s]);
    }
    fprintf(file, "\n");
}

static void show_row(const char *name, const char *at_session, Body *const sides[SIDES], const double medians[SIDES]) {
    show_begin(name, KIND_NAMES[kind], at_session);
    for (int s = 0; s < SIDES; s++) {
        if (columns[s] == NULL || sides[s] == NULL) continue;
        if (s == LIBRARY)
            printf(" %9.1f", medians[s]);
        else
            printf(" %9.1f (%5.2f)", medians[s], medians[LIBRARY] / medians[s]);
    }
    printf("\n");
    fflush(stdout);
}

void measure(const char *name, const char *at_session, Body *const sides[SIDES]) {
    double medians[SIDES] = {0};
    take_medians(sides, medians);
    write_line(name, KIND_NAMES[kind], at_session, sides, medians);
    show_row(name, at_session, sides, medians);
}

void take_in(Range *range, const char *name, const char *table, const char *at_session, Body *const sides[SIDES]) {
    double medians[SIDES] = {0};
    take_medians(sides, medians);
    write_line(name, table, at_session, sides, medians);
    double ratio = medians[LIBRARY] / medians[HAND];
    if (ratio < range->least) range->least = ratio;
    if (ratio > range->most) range->most = ratio;
}

// The two ratios end where the C's ratio of the other rows does; the times of many tables are not shown.
void show_range(const char *name, const char *at_session, Range range) {
    show_begin(name, KIND_NAMES[kind], at_session);
    printf(" %9s    (%.2f to %.2f)\n", "", range.least, range.most);
    fflush(stdout);
}
