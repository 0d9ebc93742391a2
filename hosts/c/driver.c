/* driver STACK [lent]: replays logs from standard input, over lent tables or not, and says what each call did to the memory round it.
 *
 * It stands between an archive and tests that may run on another machine than the archive is for. All numbers are 8 bytes, little-endian.
 * A request: how many calls (1 to 8, made at the same time, a thread each), whether to measure the stack (1 or 0) and, for each, the length
 * of its log and its room and, where tables are lent, a seed for what stands in them and of each table its length and how many of its first
 * words the call may change; then the logs. An answer for each call: the function's answer, a sum of faults, the bytes of stack that the
 * call touched below its caller's frame (0 where not measured); then the report.
 *
 * Each call runs in a thread that can touch STACK bytes of stack, to the next whole page. Log, report and tables end at a page that cannot
 * be touched and have marked bytes before them.
 */
#define _GNU_SOURCE
#include <pthread.h>
#include <semaphore.h>
#include <stdio.h>
#include <stdlib.h>
#include <string.h>
#include <sys/mman.h>
#include <unistd.h>

#include "toruxeng.h"

enum { CALLS = 8, TABLES = 4, MARKED = 64, MARK = 0xA5 };
enum { LARGEST = 256 << 20 };
/* What a thread is told to be its stack: of a smaller one than the C library wants (128 KiB on aarch64), the rest cannot be touched. */
enum { STACK_MAPPED = 1 << 20 };

enum fault { AROUND_REPORT = 1, AFTER_LAST_LINE = 2, LOG_CHANGED = 4, TABLE_CHANGED = 8 };

/* Bytes that end at a page that cannot be touched. */
struct buffer {
    uint8_t *pages;
    size_t size;
    uint8_t *bytes;
    size_t length;
};

/* A table that is lent: what stands in it before comes from the seed. */
struct table {
    struct buffer buffer;
    uint64_t changeable;
    uint64_t seed;
};

/* One of the calls of a request, with its thread, which waits between requests. */
struct call {
    struct buffer log;
    struct buffer report;
    struct table tables[TABLES];
    uint8_t *log_copy;
    uint64_t answer;
    uint8_t *stack;
    const uint8_t *frame;
    pthread_t thread;
    int thread_ends;
    sem_t begun;
    sem_t done;
};

static size_t page;
static size_t stack_size;
static int is_lent;

static void fail(const char *what)
{
    fprintf(stderr, "driver: %s\n", what);
    exit(EXIT_FAILURE);
}

static void *map(size_t size)
{
    void *start = mmap(NULL, size, PROT_READ | PROT_WRITE, MAP_PRIVATE | MAP_ANONYMOUS | MAP_NORESERVE, -1, 0);
    if (start == MAP_FAILED) {
        fail("no memory");
    }
    return start;
}

/* False where the input ends before the first byte. */
static int read_all(void *to, size_t length)
{
    size_t done = 0;
    while (done < length) {
        ssize_t got = read(STDIN_FILENO, (uint8_t *)to + done, length - done);
        if (got <= 0) {
            if (got == 0 && done == 0) {
                return 0;
            }
            fail("the request is cut");
        }
        done += (size_t)got;
    }
    return 1;
}

static void write_all(const void *from, size_t length)
{
    size_t done = 0;
    while (done < length) {
        ssize_t put = write(STDOUT_FILENO, (const uint8_t *)from + done, length - done);
        if (put <= 0) {
            fail("the answer cannot be written");
        }
        done += (size_t)put;
    }
}

static uint64_t read_number(void)
{
    uint64_t number;
    if (!read_all(&number, sizeof number)) {
        fail("the request is cut");
    }
    return number;
}

static size_t whole_pages(size_t size)
{
    return (size + page - 1) / page * page;
}

/* Makes room for `length` bytes, marks them and the bytes before them. */
static void prepare_buffer(struct buffer *buffer, uint64_t length)
{
    if (length > LARGEST) {
        fail("a log or a report is too large");
    }
    size_t needed = whole_pages((size_t)length + MARKED);
    if (needed > buffer->size) {
        if (buffer->pages != NULL) {
            munmap(buffer->pages, buffer->size + page);
        }
        buffer->pages = map(needed + page);
        buffer->size = needed;
        if (mprotect(buffer->pages + needed, page, PROT_NONE) != 0) {
            fail("no page to guard a buffer");
        }
    }
    buffer->length = (size_t)length;
    buffer->bytes = buffer->pages + buffer->size - buffer->length;
    memset(buffer->bytes - MARKED, MARK, buffer->length + MARKED);
}

/* The next of the words that a seed gives, of every length in bits. */
static uint64_t next_word(uint64_t *state)
{
    *state ^= *state << 13;
    *state ^= *state >> 7;
    *state ^= *state << 17;
    return *state >> (*state % 64);
}

static uint64_t *words_of(const struct table *table)
{
    return (uint64_t *)(void *)table->buffer.bytes;
}

static size_t length_of(const struct table *table)
{
    return table->buffer.length / sizeof(uint64_t);
}

static void read_table(struct table *table, uint64_t seed)
{
    uint64_t length = read_number();
    if (length > LARGEST / sizeof(uint64_t)) {
        fail("a table is too large");
    }
    prepare_buffer(&table->buffer, length * sizeof(uint64_t));
    table->changeable = read_number();
    table->seed = seed;
    for (size_t i = 0; i < length_of(table); i++) {
        words_of(table)[i] = next_word(&seed);
    }
}

static void read_tables(struct call *call)
{
    /* a seed of 0 would give 0 alone */
    uint64_t seed = read_number() | 1;
    for (int i = 0; i < TABLES; i++) {
        read_table(&call->tables[i], seed);
    }
}

static void read_log(struct call *call)
{
    struct buffer *log = &call->log;
    call->log_copy = malloc(log->length + 1);
    if (call->log_copy == NULL) {
        fail("no memory");
    }
    if (log->length > 0 && !read_all(log->bytes, log->length)) {
        fail("the request is cut");
    }
    memcpy(call->log_copy, log->bytes, log->length);
}

static int all_marked(const uint8_t *bytes, size_t length)
{
    for (size_t i = 0; i < length; i++) {
        if (bytes[i] != MARK) {
            return 0;
        }
    }
    return 1;
}

/* Whether the bytes before a table, and its words behind those that may be changed, are as they were. */
static int is_kept(const struct table *table)
{
    uint64_t state = table->seed;
    for (size_t i = 0; i < length_of(table); i++) {
        uint64_t before = next_word(&state);
        if (i >= table->changeable && words_of(table)[i] != before) {
            return 0;
        }
    }
    return all_marked(table->buffer.bytes - MARKED, MARKED);
}

static uint64_t answer_over_tables(const struct call *call)
{
    const struct table *tables = call->tables;
    return toruxeng_replay_lent(call->log.bytes, call->log.length, call->report.bytes, call->report.length, words_of(&tables[0]),
                                length_of(&tables[0]), words_of(&tables[1]), length_of(&tables[1]), words_of(&tables[2]),
                                length_of(&tables[2]), words_of(&tables[3]), length_of(&tables[3]));
}

static uint64_t answer_of(const struct call *call)
{
    if (is_lent) {
        return answer_over_tables(call);
    }
    return toruxeng_replay(call->log.bytes, call->log.length, call->report.bytes, call->report.length);
}

static void *replay(void *argument)
{
    struct call *call = argument;
    for (;;) {
        sem_wait(&call->begun);
        if (call->thread_ends) {
            return NULL;
        }
        call->frame = __builtin_frame_address(0);
        call->answer = answer_of(call);
        sem_post(&call->done);
    }
}

/* The lowest byte that a call's thread can touch. */
static uint8_t *stack_end(const struct call *call)
{
    return call->stack + STACK_MAPPED - stack_size;
}

/* A thread on a painted stack, below which nothing can be touched. */
static void start_thread(struct call *call)
{
    pthread_attr_t attributes;
    call->stack = map(STACK_MAPPED);
    memset(stack_end(call), MARK, stack_size);
    call->thread_ends = 0;
    if (mprotect(call->stack, STACK_MAPPED - stack_size, PROT_NONE) != 0 || sem_init(&call->begun, 0, 0) != 0
        || sem_init(&call->done, 0, 0) != 0 || pthread_attr_init(&attributes) != 0
        || pthread_attr_setstack(&attributes, call->stack, STACK_MAPPED) != 0
        || pthread_create(&call->thread, &attributes, replay, call) != 0) {
        fail("a thread cannot be started");
    }
    pthread_attr_destroy(&attributes);
}

static void end_thread(struct call *call)
{
    call->thread_ends = 1;
    sem_post(&call->begun);
    if (pthread_join(call->thread, NULL) != 0) {
        fail("a thread cannot be joined");
    }
    munmap(call->stack, STACK_MAPPED);
    call->stack = NULL;
}

/* From the lowest byte that is not as it was painted up to the caller's frame: a frame of which only some bytes are written counts whole. */
static uint64_t stack_touched(const struct call *call)
{
    const uint8_t *lowest = stack_end(call);
    while (lowest < call->frame && *lowest == MARK) {
        lowest++;
    }
    return (uint64_t)(call->frame - lowest);
}

static uint64_t faults(const struct call *call)
{
    const struct buffer *log = &call->log;
    const struct buffer *report = &call->report;
    size_t written = toruxeng_written(call->answer);
    uint64_t found = 0;
    if (!all_marked(report->bytes - MARKED, MARKED)) {
        found |= AROUND_REPORT;
    }
    if (written > report->length || !all_marked(report->bytes + written, report->length - written)) {
        found |= AFTER_LAST_LINE;
    }
    if (!all_marked(log->bytes - MARKED, MARKED) || memcmp(log->bytes, call->log_copy, log->length) != 0) {
        found |= LOG_CHANGED;
    }
    for (int i = 0; is_lent && i < TABLES; i++) {
        if (!is_kept(&call->tables[i])) {
            found |= TABLE_CHANGED;
        }
    }
    return found;
}

static void finish(struct call *call, int measured)
{
    sem_wait(&call->done);
    uint64_t head[3] = { call->answer, faults(call), measured ? stack_touched(call) : 0 };
    write_all(head, sizeof head);
    size_t written = toruxeng_written(call->answer);
    write_all(call->report.bytes, written < call->report.length ? written : call->report.length);
    free(call->log_copy);
}

static void read_arguments(int count, char **words)
{
    char *end = NULL;
    is_lent = count == 3 && strcmp(words[2], "lent") == 0;
    stack_size = count == 2 || is_lent ? whole_pages(strtoul(words[1], &end, 10)) : 0;
    if (stack_size == 0 || stack_size >= STACK_MAPPED || *end != '\0') {
        fail("its arguments are the bytes of stack that each call has, and `lent` where tables are");
    }
}

int main(int word_count, char **words)
{
    static struct call calls[CALLS];
    uint64_t count;
    page = (size_t)sysconf(_SC_PAGESIZE);
    read_arguments(word_count, words);
    while (read_all(&count, sizeof count)) {
        if (count < 1 || count > CALLS) {
            fail("a request has 1 to 8 calls");
        }
        int measured = read_number() != 0;
        for (uint64_t i = 0; i < count; i++) {
            prepare_buffer(&calls[i].log, read_number());
            prepare_buffer(&calls[i].report, read_number());
            if (is_lent) {
                read_tables(&calls[i]);
            }
        }
        for (uint64_t i = 0; i < count; i++) {
            read_log(&calls[i]);
            if (calls[i].stack != NULL && measured) {
                end_thread(&calls[i]);
            }
            if (calls[i].stack == NULL) {
                start_thread(&calls[i]);
            }
        }
        for (uint64_t i = 0; i < count; i++) {
            sem_post(&calls[i].begun);
        }
        for (uint64_t i = 0; i < count; i++) {
            finish(&calls[i], measured);
        }
    }
    return EXIT_SUCCESS;
}
