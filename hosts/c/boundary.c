/* Tries the checked entries of the header with every buffer that they must tell from a right one.
 * Exit status 0 where each answer is right; else a line for each that is not. */
#include <stdio.h>
#include <stdlib.h>
#include <string.h>

#include "toruxeng.h"

enum { LOG = 24, ROOM = 8, MARK = 0xA5 };

/* One store of one row, one version and one bucket at clock 1: `open 0` is its report. */
static const uint8_t log_of_open[LOG] = { 22, 0, 1, 0, 1, 0, 0, 0, 1, 0, 0, 0, 1, 0, 0, 0, 1 };
static const char report_of_open[] = "open 0\n";

/* The log, and room for the report behind it or over it. */
static uint8_t memory[2 * LOG + ROOM];
static int wrong;

static void expect(const char *what, uint64_t answer, enum toruxeng_status status, size_t written)
{
    if (toruxeng_status_of(answer) != status || toruxeng_written(answer) != written) {
        printf("%s: status %d and %u bytes, not %d and %zu\n", what, (int)toruxeng_status_of(answer), toruxeng_written(answer),
               (int)status, written);
        wrong = 1;
    }
}

static void expect_bytes(const char *what, const uint8_t *bytes, const void *expected, size_t length)
{
    if (memcmp(bytes, expected, length) != 0) {
        printf("%s: bytes were changed that must not be, or not those that must\n", what);
        wrong = 1;
    }
}

static void lay_out(void)
{
    memset(memory, MARK, sizeof memory);
    memcpy(memory, log_of_open, LOG);
}

/* A refused call must leave every byte as it was. */
static void expect_untouched(const char *what, uint64_t answer, enum toruxeng_status status)
{
    uint8_t before[sizeof memory];
    memset(before, MARK, sizeof before);
    memcpy(before, log_of_open, LOG);
    expect(what, answer, status, 0);
    expect_bytes(what, memory, before, sizeof memory);
}

static void try_empty_buffers(void)
{
    expect("both null, both empty", toruxeng_replay_checked(NULL, 0, NULL, 0), TORUXENG_DONE, 0);
    expect("the empty log at null", toruxeng_replay_checked(NULL, 0, memory, ROOM), TORUXENG_DONE, 0);
    expect("no room, at null", toruxeng_replay_checked(memory, LOG, NULL, 0), TORUXENG_REPORT_FULL, 0);
    expect("no room, inside the log", toruxeng_replay_checked(memory, LOG, memory + 1, 0), TORUXENG_REPORT_FULL, 0);
    expect("the empty log, inside the report", toruxeng_replay_checked(memory + 1, 0, memory, ROOM), TORUXENG_DONE, 0);
}

static void try_what_is_no_buffer(void)
{
    const size_t too_long = (size_t)PTRDIFF_MAX + 1;
    uint8_t *const last_byte = (uint8_t *)UINTPTR_MAX;
    expect_untouched("a log at null", toruxeng_replay_checked(NULL, 1, memory + LOG, ROOM), TORUXENG_NO_BUFFER);
    expect_untouched("a report at null", toruxeng_replay_checked(memory, LOG, NULL, 1), TORUXENG_NO_BUFFER);
    expect_untouched("both at null", toruxeng_replay_checked(NULL, LOG, NULL, ROOM), TORUXENG_NO_BUFFER);
    expect_untouched("a log too long", toruxeng_replay_checked(memory, too_long, NULL, 0), TORUXENG_NO_BUFFER);
    expect_untouched("a report too long", toruxeng_replay_checked(memory, LOG, memory + LOG, SIZE_MAX), TORUXENG_NO_BUFFER);
    expect_untouched("a log past the addresses", toruxeng_replay_checked(last_byte, 1, memory + LOG, ROOM), TORUXENG_NO_BUFFER);
    expect_untouched("a report past the addresses", toruxeng_replay_checked(memory, LOG, last_byte, 2), TORUXENG_NO_BUFFER);
}

static void try_overlap(void)
{
    for (size_t at = 0; at < LOG; at++) {
        uint8_t *const inside = memory + at;
        expect_untouched("a report in the log", toruxeng_replay_checked(memory, LOG, inside, ROOM), TORUXENG_BUFFERS_OVERLAP);
        expect_untouched("a log in the report", toruxeng_replay_checked(inside, ROOM, memory, LOG), TORUXENG_BUFFERS_OVERLAP);
    }
}

/* Neighbours are apart, at any address. */
static void try_right_buffers(void)
{
    for (size_t at = 0; at < LOG; at++) {
        uint8_t *report = memory + LOG + at;
        lay_out();
        expect("a report behind the log", toruxeng_replay_checked(memory, LOG, report, ROOM), TORUXENG_DONE, ROOM - 1);
        expect_bytes("the log", memory, log_of_open, LOG);
        expect_bytes("the report", report, report_of_open, ROOM - 1);
    }
    memmove(memory + ROOM, log_of_open, LOG);
    expect("a log behind the report", toruxeng_replay_checked(memory + ROOM, LOG, memory, ROOM), TORUXENG_DONE, ROOM - 1);
    expect_bytes("the report before the log", memory, report_of_open, ROOM - 1);
}

enum { TABLES = 4 };

/* One table behind the other, of just the words that the store of the log needs, and one word after all of them. */
static const size_t needed[TABLES] = { TORUXENG_ROWS_WORDS(1), TORUXENG_VERSIONS_WORDS(1), TORUXENG_BUCKETS_WORDS(1),
                                       TORUXENG_LISTS_WORDS };
static uint64_t words[TORUXENG_ROWS_WORDS(1) + TORUXENG_VERSIONS_WORDS(1) + TORUXENG_BUCKETS_WORDS(1) + TORUXENG_LISTS_WORDS + 1];
enum { WORDS = sizeof words / sizeof *words };

struct lent {
    uint8_t *report;
    uint64_t *starts[TABLES];
    size_t lengths[TABLES];
};

static struct lent lay_out_tables(void)
{
    struct lent lent = { .report = memory + LOG };
    uint64_t *start = words;
    lay_out();
    memset(words, MARK, sizeof words);
    for (int i = 0; i < TABLES; i++) {
        lent.starts[i] = start;
        lent.lengths[i] = needed[i];
        start += needed[i];
    }
    return lent;
}

static uint64_t replay_over(const struct lent *lent)
{
    return toruxeng_replay_lent_checked(memory, LOG, lent->report, ROOM, lent->starts[0], lent->lengths[0], lent->starts[1],
                                        lent->lengths[1], lent->starts[2], lent->lengths[2], lent->starts[3], lent->lengths[3]);
}

static void expect_words_untouched(const char *what)
{
    uint64_t before[WORDS];
    memset(before, MARK, sizeof before);
    expect_bytes(what, (const uint8_t *)words, before, sizeof before);
}

static void expect_no_call(const char *what, const struct lent *lent, enum toruxeng_status status)
{
    expect_untouched(what, replay_over(lent), status);
    expect_words_untouched(what);
}

static void try_what_is_no_table(void)
{
    for (int i = 0; i < TABLES; i++) {
        struct lent lent = lay_out_tables();
        uint64_t *const start = lent.starts[i];
        lent.starts[i] = NULL;
        expect_no_call("a table at null", &lent, TORUXENG_NO_BUFFER);
        lent.starts[i] = (uint64_t *)((uintptr_t)start + 1);
        lent.lengths[i] = 1;
        expect_no_call("a table that is not aligned", &lent, TORUXENG_NO_BUFFER);
        lent.starts[i] = start;
        lent.lengths[i] = PTRDIFF_MAX / sizeof(uint64_t) + 1;
        expect_no_call("a table too long", &lent, TORUXENG_NO_BUFFER);
        lent.lengths[i] = SIZE_MAX;
        expect_no_call("a table of every word", &lent, TORUXENG_NO_BUFFER);
        lent.starts[i] = (uint64_t *)(UINTPTR_MAX - 7);
        lent.lengths[i] = 1;
        expect_no_call("a table past the addresses", &lent, TORUXENG_NO_BUFFER);
    }
}

static void try_overlap_of_tables(void)
{
    for (int i = 0; i < TABLES; i++) {
        struct lent lent = lay_out_tables();
        lent.report = (uint8_t *)lent.starts[i];
        expect_no_call("a report in a table", &lent, TORUXENG_BUFFERS_OVERLAP);
        lent = lay_out_tables();
        lent.starts[i] = lent.starts[(i + 1) % TABLES];
        lent.lengths[i] = 1;
        expect_no_call("a table in another", &lent, TORUXENG_BUFFERS_OVERLAP);
    }
    /* behind the last table stands a word that is nobody's */
    for (int i = 0; i + 1 < TABLES; i++) {
        struct lent lent = lay_out_tables();
        lent.lengths[i]++;
        expect_no_call("a table that reaches into the next", &lent, TORUXENG_BUFFERS_OVERLAP);
    }
}

static void try_short_tables(void)
{
    for (int i = 0; i < TABLES; i++) {
        struct lent lent = lay_out_tables();
        lent.lengths[i]--;
        expect("a table one word short", replay_over(&lent), TORUXENG_TABLE_SHORT, ROOM);
        expect_bytes("the line of a short table", lent.report, "open 16\n", ROOM);
        expect_words_untouched("the tables where one is short");
    }
}

static void try_right_tables(void)
{
    struct lent lent = lay_out_tables();
    const uint64_t last = words[WORDS - 1];
    lent.lengths[TABLES - 1]++;
    expect("tables one behind the other", replay_over(&lent), TORUXENG_DONE, ROOM - 1);
    expect_bytes("the report over tables", lent.report, report_of_open, ROOM - 1);
    expect_bytes("the word past a table's size", (const uint8_t *)&words[WORDS - 1], &last, sizeof last);
}

int main(void)
{
    lay_out();
    try_empty_buffers();
    try_what_is_no_buffer();
    try_overlap();
    try_right_buffers();
    try_what_is_no_table();
    try_overlap_of_tables();
    try_short_tables();
    try_right_tables();
    return wrong ? EXIT_FAILURE : EXIT_SUCCESS;
}
