/* A host in C: each run stores a day's total, and a session reads it until it expires. The next day has not reported, and nobody
   reports total two: a mean is of what was reported.
   On x86-64, in the repository's root:

       bin/archive
       cc -I include -o host examples/host.c target/staticlib/libprobe.a && ./host */
#include <stdio.h>
#include "probe.h"

enum { WORDS = 8 * PROBE_SLOT_WORDS, STORE = 1, DAY = 19961014 };

static int64_t table[WORDS], record[PROBE_RECORD_WORDS] = PROBE_FRESH_RECORD, out[PROBE_OUT_WORDS];

/* A run that stores a day's total, and the next day's as not reported: the version that it makes, 0 where it is refused. */
static int64_t refresh(int64_t total)
{
    probe_begin(record, out);
    probe_put(table, WORDS, record, STORE, DAY, total, PROBE_NOT_REPORTED, out);
    if (out[PROBE_REFUSAL] == PROBE_ACCEPTED)
        probe_put(table, WORDS, record, STORE, DAY + 1, PROBE_NOT_REPORTED, PROBE_NOT_REPORTED, out);
    if (out[PROBE_REFUSAL] == PROBE_ACCEPTED)
        probe_commit(record, out);
    return out[PROBE_VERSION];
}

static void report(int64_t session)
{
    probe_read_key(table, WORDS, record, session, STORE, DAY, out);
    if (out[PROBE_REFUSAL] == PROBE_EXPIRED)
        printf("session %d has expired\n", (int)session);
    else if (out[PROBE_REFUSAL] != PROBE_ACCEPTED)
        printf("session %d is refused %d\n", (int)session, (int)out[PROBE_REFUSAL]);
    else
        printf("session %d reads %lld\n", (int)session, (long long)out[PROBE_TOTAL1]);
}

/* The mean of a total over the store's days, which a roll-up's answer has as a sum and how many reported it. */
static void report_mean(const char *name, int64_t reported, int64_t sum)
{
    if (reported == 0)
        printf("%s: none reported\n", name);
    else
        printf("%s: mean %.1f of %d that reported\n", name, (double)sum / (double)reported, (int)reported);
}

static void report_means(int64_t session)
{
    probe_roll_up(table, WORDS, record, session, STORE, out);
    if (out[PROBE_REFUSAL] != PROBE_ACCEPTED) {
        printf("session %d is refused %d\n", (int)session, (int)out[PROBE_REFUSAL]);
        return;
    }
    printf("session %d sums up %d rows\n", (int)session, (int)out[PROBE_ROWS]);
    report_mean("total one", out[PROBE_REPORTED1], out[PROBE_SUM1]);
    report_mean("total two", out[PROBE_REPORTED2], out[PROBE_SUM2]);
}

int main(void)
{
    int64_t session = refresh(10000);
    report(session);
    refresh(10200);
    report(session);
    int64_t latest = refresh(10300);
    report(session);
    report(latest);
    report_means(latest);
    return 0;
}
