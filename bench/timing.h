// The times of one row: a median of many rounds for each side, the sides by turns, shown as a line of the table and written as a
// line for other programs. A row may stand for many tables: then each is timed and written, and the least and the most is shown of
// the library's time over the C's.
#ifndef TIMING_H
#define TIMING_H
#include <stdio.h>

#include "lent.h"

enum { LIBRARY, HAND, LOCKED, SQLITE, LMDB, SIDES };

// The head of each side's column; NULL for a side that stays out.
extern const char *columns[SIDES];

// Shows the heads, and writes them to the file of lines, which `measure` goes on with.
void show_heads(FILE *lines);

// Times the sides that the row has, on the tables that are lent, and shows the row. `at_session` is empty where the call takes no
// session.
void measure(const char *name, const char *at_session, Body *const sides[SIDES]);

// The least and the most of some ratios. A range begins as NO_RATIO and takes in one after the other.
typedef struct {
    double least, most;
} Range;

extern const Range NO_RATIO;

// Times the sides, which are the library and the C at least, on the table that is lent, writes the line under the table's name, and
// takes the ratio in.
void take_in(Range *range, const char *name, const char *table, const char *at_session, Body *const sides[SIDES]);

// Shows the row that the ratios make.
void show_range(const char *name, const char *at_session, Range range);

#endif
