/* Toruxeng: the two functions of the library, for C and C++.
 *
 * Link libtoruxeng.a of the folder that this header stands in; of the C library it asks for memset and nothing else.
 * docs/HOSTS.md says what each refusal number means and what to do then.
 */
#ifndef TORUXENG_H
#define TORUXENG_H

#include <stddef.h>
#include <stdint.h>

#define TORUXENG_VERSION "0.6.2"
#define TORUXENG_VERSION_MAJOR 0
#define TORUXENG_VERSION_MINOR 6
#define TORUXENG_VERSION_PATCH 2

/* What a store can be opened with at most; room for more rows than it can have is room for all of them. */
#define TORUXENG_MOST_ROWS 1024
#define TORUXENG_MOST_VERSIONS 4096
#define TORUXENG_MOST_BUCKETS 4096

/* How many transactions can be live, and what each can have. */
#define TORUXENG_MOST_LIVE 8
#define TORUXENG_MOST_INDEX_READS 16
#define TORUXENG_MOST_READ_RECORDS 128
#define TORUXENG_MOST_PENDING_WRITES 16

/* How many words of 8 bytes a store of so many rows, versions or buckets needs of each table, and any store of the lists. */
#define TORUXENG_ROWS_WORDS(rows) (6 * (size_t)(rows))
#define TORUXENG_VERSIONS_WORDS(versions) (6 * ((size_t)(versions) + 1))
#define TORUXENG_BUCKETS_WORDS(buckets) (2 * (size_t)(buckets))
#define TORUXENG_LISTS_WORDS \
    ((size_t)TORUXENG_MOST_LIVE \
     * (2 * TORUXENG_MOST_INDEX_READS + 4 * TORUXENG_MOST_PENDING_WRITES + 3 * TORUXENG_MOST_READ_RECORDS + TORUXENG_MOST_ROWS))

#ifdef __cplusplus
extern "C" {
#endif

/* Why a replay ended: the upper half of the answer. */
enum toruxeng_status {
    TORUXENG_DONE = 0,             /* every record of the log was read and reported */
    TORUXENG_OPEN_REFUSED = 1,     /* a size outside its range, or clock 0 */
    TORUXENG_REPORT_FULL = 10,     /* the next line does not fit; the lines before it stand */
    TORUXENG_LOG_MALFORMED = 15,   /* a record is cut, of an unknown kind or length, or an open is misplaced or missing */
    TORUXENG_TABLE_SHORT = 16,     /* toruxeng_replay_lent alone: a table is shorter than the sizes of the open need */
    TORUXENG_NO_BUFFER = 256,      /* the checked entries alone: null with a length, or a length that no buffer has there */
    TORUXENG_BUFFERS_OVERLAP = 257 /* the checked entries alone: two buffers share bytes */
};

/* The kinds of a log's records; docs/RULES.md, section 10, has their fields. */
enum toruxeng_kind {
    TORUXENG_OPEN = 1,
    TORUXENG_BEGIN,
    TORUXENG_CAPTURE,
    TORUXENG_COLLECT,
    TORUXENG_ROWS,
    TORUXENG_PUT,
    TORUXENG_ERASE,
    TORUXENG_PREPARE,
    TORUXENG_INSTALL,
    TORUXENG_END,
    TORUXENG_PUBLISH,
    TORUXENG_VALIDATE,
    TORUXENG_ABORT
};

/* Replays the log and writes one line for each step to the front of the report.
 *
 * log, log_length: the records, any bytes; only read.
 * report, report_length: room for the lines. Bytes after the last line keep their contents, and room beyond
 *     4,294,967,295 bytes is not used.
 * Answers status * 4,294,967,296 + bytes written.
 *
 * What each kind of buffer gets, here and from toruxeng_replay_checked:
 *
 *     buffer                                toruxeng_replay    toruxeng_replay_checked
 *     length 0, null or any other pointer   fine, it is empty  fine
 *     null with a length above 0            undefined          TORUXENG_NO_BUFFER
 *     a length above PTRDIFF_MAX, or one
 *         past the last address             undefined          TORUXENG_NO_BUFFER
 *     log and report share bytes            undefined          TORUXENG_BUFFERS_OVERLAP
 *     an address that is not even           fine               fine: bytes have alignment 1, so every address is aligned
 *     a pointer not valid for its length    undefined          undefined: this cannot be tested
 *
 * The call keeps nothing, allocates nothing and never unwinds, so any number of threads may call at once, each with a
 * report of its own. It takes about 435,000 bytes of the calling thread's stack, whatever the log: 432 KiB is enough for
 * the call itself, on x86-64 and on aarch64 (docs/HOSTS.md has the figures).
 */
uint64_t toruxeng_replay(const uint8_t *log, size_t log_length, uint8_t *report, size_t report_length);

/* As toruxeng_replay, but the store stands in tables of the caller's own: of the stack it takes at most 64 KiB.
 *
 * rows, versions, buckets, lists, each with its length in words: whatever stands in them before, and however much longer
 *     they are than the macros above say for the sizes of the log's open; words past that keep their contents. Where one
 *     is shorter, the open is refused with 16, after 1: the line is `open 16`, the status TORUXENG_TABLE_SHORT, and no
 *     word of any table is changed. What a call leaves in them means nothing to another.
 *
 * What is said there of buffers holds of all six; in addition a table that is not empty and not aligned to 8 bytes is
 * undefined here, and TORUXENG_NO_BUFFER from toruxeng_replay_lent_checked.
 */
uint64_t toruxeng_replay_lent(const uint8_t *log, size_t log_length, uint8_t *report, size_t report_length, uint64_t *rows,
                              size_t rows_length, uint64_t *versions, size_t versions_length, uint64_t *buckets,
                              size_t buckets_length, uint64_t *lists, size_t lists_length);

/* The two halves of an answer. */
static inline enum toruxeng_status toruxeng_status_of(uint64_t answer)
{
    return (enum toruxeng_status)(answer >> 32);
}

static inline uint32_t toruxeng_written(uint64_t answer)
{
    return (uint32_t)answer;
}

/* Whether an object of so many bytes can stand there. */
static inline int toruxeng_is_buffer(uintptr_t start, size_t length)
{
    return length == 0 || (start != 0 && length <= PTRDIFF_MAX && length <= UINTPTR_MAX - start);
}

/* Whether so many words can stand there, aligned as words are. */
static inline int toruxeng_is_table(uintptr_t start, size_t length)
{
    const size_t word = sizeof(uint64_t);
    return length == 0 || (start % word == 0 && length <= PTRDIFF_MAX / word && toruxeng_is_buffer(start, length * word));
}

/* Whether two buffers share no byte. */
static inline int toruxeng_are_apart(uintptr_t start, size_t length, uintptr_t other, size_t other_length)
{
    return length == 0 || other_length == 0 || start + length <= other || other + other_length <= start;
}

/* As toruxeng_replay, but what can be told of the buffers is tested first; where it is wrong, nothing is touched and
 * 0 bytes are written. For pointers that come from elsewhere. */
static inline uint64_t toruxeng_replay_checked(const uint8_t *log, size_t log_length, uint8_t *report, size_t report_length)
{
    const uintptr_t log_start = (uintptr_t)log;
    const uintptr_t report_start = (uintptr_t)report;

    if (!toruxeng_is_buffer(log_start, log_length) || !toruxeng_is_buffer(report_start, report_length)) {
        return (uint64_t)TORUXENG_NO_BUFFER << 32;
    }
    if (!toruxeng_are_apart(log_start, log_length, report_start, report_length)) {
        return (uint64_t)TORUXENG_BUFFERS_OVERLAP << 32;
    }
    return toruxeng_replay(log, log_length, report, report_length);
}

/* As toruxeng_replay_lent, with the same tests. */
static inline uint64_t toruxeng_replay_lent_checked(const uint8_t *log, size_t log_length, uint8_t *report,
                                                    size_t report_length, uint64_t *rows, size_t rows_length,
                                                    uint64_t *versions, size_t versions_length, uint64_t *buckets,
                                                    size_t buckets_length, uint64_t *lists, size_t lists_length)
{
    enum { BUFFERS = 6 };
    const size_t word = sizeof(uint64_t);
    const uintptr_t starts[BUFFERS] = { (uintptr_t)log,      (uintptr_t)report,  (uintptr_t)rows,
                                        (uintptr_t)versions, (uintptr_t)buckets, (uintptr_t)lists };
    const size_t bytes[BUFFERS] = { log_length,
                                    report_length,
                                    rows_length * word,
                                    versions_length * word,
                                    buckets_length * word,
                                    lists_length * word };

    if (!toruxeng_is_buffer(starts[0], log_length) || !toruxeng_is_buffer(starts[1], report_length)
        || !toruxeng_is_table(starts[2], rows_length) || !toruxeng_is_table(starts[3], versions_length)
        || !toruxeng_is_table(starts[4], buckets_length) || !toruxeng_is_table(starts[5], lists_length)) {
        return (uint64_t)TORUXENG_NO_BUFFER << 32;
    }
    for (int i = 0; i < BUFFERS; i++) {
        for (int j = 0; j < i; j++) {
            if (!toruxeng_are_apart(starts[i], bytes[i], starts[j], bytes[j])) {
                return (uint64_t)TORUXENG_BUFFERS_OVERLAP << 32;
            }
        }
    }
    return toruxeng_replay_lent(log, log_length, report, report_length, rows, rows_length, versions, versions_length, buckets,
                                buckets_length, lists, lists_length);
}

#ifdef __cplusplus
}
#endif

#endif
