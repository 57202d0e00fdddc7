/* Makes the calls of libprobe.a that another program asks for, and hands back
   everything that a call may have left.

   Standard input is a run of batches. A batch is the number of its words, and
   then its requests. Every word is 64 bits, little-endian. A request is

       the call's number (enum call), its four numbers (unused ones zero),
       the record's four words, the table's length in words, the block's length
       in bytes, the table, and the block, padded with zero bytes to whole words.

   A batch is read whole, and all its calls are made, before anything is written.
   For each request, in order, standard output gets

       0 (or 1 if the call wrote outside what it was lent), the eight words of
       out, the record, the table, and the block padded as it came.

   Exit status: 0 at the end of the input, 2 on a batch that is not of this form.
   A batch whose calls do not end is ended by the alarm. */

#include <stddef.h>
#include <stdint.h>
#include <stdlib.h>
#include <string.h>
#include <unistd.h>

#include "probe.h"

enum call {
    CALL_OPEN,
    CALL_BEGIN,
    CALL_COMMIT,
    CALL_READ_SLOT,
    CALL_READ_KEY,
    CALL_ROLL_UP,
    CALL_PUT,
    CALL_DELETE,
    CALL_ROLL_BACK,
    CALL_SAVE_HEADER,
    CALL_SAVE_BLOCK,
    CALL_LOAD_HEADER,
    CALL_LOAD_BLOCK
};

enum {
    STANDARD_INPUT = 0,
    STANDARD_OUTPUT = 1,
    BAD_BATCH = 2,
    SECONDS_FOR_A_BATCH = 10,
    WORD_BYTES = 8,
    HEAD_WORDS = 11,    /* of a request, before its table */
    GUARD_WORDS = 16,   /* around each thing lent */
    GUARD_BYTE = 0xa5,  /* each byte of a guard */
    OUT_BYTE = 0x5a     /* each byte of out before the call */
};

/* A buffer that grows. */
struct buffer {
    int64_t *words;
    size_t room;
};

/* A request, as it stands in a batch. */
struct request {
    int64_t call;
    const int64_t *number;
    const int64_t *record;
    size_t words;
    size_t bytes;
    const int64_t *table;
    const int64_t *block;
};

/* What a call is lent. Each thing stands between guards. */
struct lent {
    int64_t *table;
    int64_t *record;
    int64_t *out;
    uint8_t *block;
};

static size_t padded_words(size_t bytes)
{
    return (bytes + WORD_BYTES - 1) / WORD_BYTES;
}

static void make_room(struct buffer *buffer, size_t words)
{
    if (words <= buffer->room)
        return;
    buffer->words = realloc(buffer->words, words * WORD_BYTES);
    if (buffer->words == NULL)
        exit(BAD_BATCH);
    buffer->room = words;
}

/* Reads the bytes, all of them. Answers 0 if the input ends before the first. */
static int read_whole(void *to, size_t bytes)
{
    size_t done = 0;
    while (done < bytes) {
        long got = read(STANDARD_INPUT, (uint8_t *)to + done, bytes - done);
        if (got == 0 && done == 0)
            return 0;
        if (got <= 0)
            exit(BAD_BATCH);
        done += (size_t)got;
    }
    return 1;
}

static void write_whole(const void *from, size_t bytes)
{
    size_t done = 0;
    while (done < bytes) {
        long put = write(STANDARD_OUTPUT, (const uint8_t *)from + done, bytes - done);
        if (put <= 0)
            exit(BAD_BATCH);
        done += (size_t)put;
    }
}

static int is_save(int64_t call)
{
    return call == CALL_SAVE_HEADER || call == CALL_SAVE_BLOCK;
}

/* Parts the request that stands at the words. Answers the words that it takes. */
static size_t part_request(const int64_t *words, size_t left, struct request *request)
{
    if (left < HEAD_WORDS)
        exit(BAD_BATCH);
    request->call = words[0];
    request->number = words + 1;
    request->record = words + 5;
    request->words = (size_t)words[9];
    request->bytes = (size_t)words[10];
    request->table = words + HEAD_WORDS;
    if (request->words > left - HEAD_WORDS)
        exit(BAD_BATCH);
    left -= HEAD_WORDS + request->words;
    if (request->bytes > left * WORD_BYTES)
        exit(BAD_BATCH);
    if (is_save(request->call) && request->bytes != PROBE_BLOCK_BYTES)
        exit(BAD_BATCH);
    request->block = request->table + request->words;
    return HEAD_WORDS + request->words + padded_words(request->bytes);
}

static size_t arena_words(const struct request *request)
{
    return 5 * GUARD_WORDS + request->words + PROBE_RECORD_WORDS + PROBE_OUT_WORDS
        + padded_words(request->bytes);
}

/* Lays out in the arena what the call is lent. */
static struct lent lend(const struct request *request, int64_t *arena)
{
    struct lent lent;
    memset(arena, GUARD_BYTE, arena_words(request) * WORD_BYTES);
    lent.table = arena + GUARD_WORDS;
    lent.record = lent.table + request->words + GUARD_WORDS;
    lent.out = lent.record + PROBE_RECORD_WORDS + GUARD_WORDS;
    lent.block = (uint8_t *)(lent.out + PROBE_OUT_WORDS + GUARD_WORDS);
    memcpy(lent.table, request->table, request->words * WORD_BYTES);
    memcpy(lent.record, request->record, PROBE_RECORD_WORDS * WORD_BYTES);
    memset(lent.out, OUT_BYTE, PROBE_OUT_WORDS * WORD_BYTES);
    memcpy(lent.block, request->block, request->bytes);
    return lent;
}

static int is_guard(const void *from, const void *to)
{
    for (const uint8_t *byte = from; byte < (const uint8_t *)to; byte++)
        if (*byte != GUARD_BYTE)
            return 0;
    return 1;
}

/* Answers whether all that stands around the things lent is as it was. */
static int guards_stand(const struct request *request, const struct lent *lent,
                        const int64_t *arena)
{
    return is_guard(arena, lent->table)
        && is_guard(lent->table + request->words, lent->record)
        && is_guard(lent->record + PROBE_RECORD_WORDS, lent->out)
        && is_guard(lent->out + PROBE_OUT_WORDS, lent->block)
        && is_guard(lent->block + request->bytes, arena + arena_words(request));
}

static void make_call(const struct request *request, const struct lent *lent)
{
    int64_t *table = lent->table, *record = lent->record, *out = lent->out;
    const int64_t *number = request->number;
    size_t words = request->words;
    switch (request->call) {
    case CALL_OPEN:
        probe_open(record, out);
        break;
    case CALL_BEGIN:
        probe_begin(record, out);
        break;
    case CALL_COMMIT:
        probe_commit(record, out);
        break;
    case CALL_READ_SLOT:
        probe_read_slot(table, words, record, number[0], (size_t)number[1], out);
        break;
    case CALL_READ_KEY:
        probe_read_key(table, words, record, number[0], number[1], number[2], out);
        break;
    case CALL_ROLL_UP:
        probe_roll_up(table, words, record, number[0], number[1], out);
        break;
    case CALL_PUT:
        probe_put(table, words, record, number[0], number[1], number[2], number[3], out);
        break;
    case CALL_DELETE:
        probe_delete(table, words, record, number[0], number[1], out);
        break;
    case CALL_ROLL_BACK:
        probe_roll_back(table, words, record, out);
        break;
    case CALL_SAVE_HEADER:
        probe_save_header(table, words, record, lent->block, out);
        break;
    case CALL_SAVE_BLOCK:
        probe_save_block(table, words, record, (size_t)number[0], lent->block, out);
        break;
    case CALL_LOAD_HEADER:
        probe_load_header(lent->block, request->bytes, out);
        break;
    case CALL_LOAD_BLOCK:
        probe_load_block(table, words, record, (size_t)number[0], lent->block,
                         request->bytes, out);
        break;
    default:
        exit(BAD_BATCH);
    }
}

/* Puts what the call left at the words. Answers the end of it. */
static int64_t *put_answer(const struct request *request, const struct lent *lent,
                           const int64_t *arena, int64_t *to)
{
    *to++ = guards_stand(request, lent, arena) ? 0 : 1;
    memcpy(to, lent->out, PROBE_OUT_WORDS * WORD_BYTES);
    to += PROBE_OUT_WORDS;
    memcpy(to, lent->record, PROBE_RECORD_WORDS * WORD_BYTES);
    to += PROBE_RECORD_WORDS;
    memcpy(to, lent->table, request->words * WORD_BYTES);
    to += request->words;
    memset(to, 0, padded_words(request->bytes) * WORD_BYTES);
    memcpy(to, lent->block, request->bytes);
    return to + padded_words(request->bytes);
}

/* Makes the calls of a batch. Answers the end of the answers. */
static int64_t *make_calls(const int64_t *batch, size_t words, int64_t *answers)
{
    static struct buffer arena;
    while (words > 0) {
        struct request request;
        size_t taken = part_request(batch, words, &request);
        make_room(&arena, arena_words(&request));
        struct lent lent = lend(&request, arena.words);
        make_call(&request, &lent);
        answers = put_answer(&request, &lent, arena.words, answers);
        batch += taken;
        words -= taken;
    }
    return answers;
}

int main(void)
{
    static struct buffer batch, answers;
    int64_t words;
    while (read_whole(&words, sizeof words)) {
        make_room(&batch, (size_t)words);
        if (words > 0 && !read_whole(batch.words, (size_t)words * WORD_BYTES))
            exit(BAD_BATCH);
        /* an answer has two words more than its request */
        make_room(&answers, 2 * (size_t)words);
        alarm(SECONDS_FOR_A_BATCH);
        int64_t *end = make_calls(batch.words, (size_t)words, answers.words);
        alarm(0);
        write_whole(answers.words, (size_t)(end - answers.words) * WORD_BYTES);
    }
    return 0;
}
