/* The worked example of document 01: builds its log, replays it and prints the report. */
#include <stdio.h>
#include <stdlib.h>

#include "toruxeng.h"

struct log {
    uint8_t bytes[1024];
    size_t length;
};

/* The low bytes of a value, the least first. */
static void field(struct log *log, uint64_t value, int bytes)
{
    if (log->length + (size_t)bytes > sizeof log->bytes) {
        fputs("the example's log is too long for its buffer\n", stderr);
        exit(EXIT_FAILURE);
    }
    for (int i = 0; i < bytes; i++) {
        log->bytes[log->length++] = (uint8_t)(value >> (8 * i));
    }
}

/* The length of what follows, then the kind. */
static void record(struct log *log, enum toruxeng_kind kind, int bytes_of_fields)
{
    field(log, 2 + (uint64_t)bytes_of_fields, 2);
    field(log, kind, 2);
}

static void open_store(struct log *log, uint32_t rows, uint32_t versions, uint32_t buckets, uint64_t clock)
{
    record(log, TORUXENG_OPEN, 20);
    field(log, rows, 4);
    field(log, versions, 4);
    field(log, buckets, 4);
    field(log, clock, 8);
}

static void begin(struct log *log)
{
    record(log, TORUXENG_BEGIN, 0);
}

/* A step that names its transaction and nothing else. */
static void step(struct log *log, enum toruxeng_kind kind, uint64_t number)
{
    record(log, kind, 8);
    field(log, number, 8);
}

static void capture(struct log *log, uint64_t number, uint64_t key)
{
    record(log, TORUXENG_CAPTURE, 16);
    field(log, number, 8);
    field(log, key, 8);
}

static void rows(struct log *log, uint64_t number, uint32_t room)
{
    record(log, TORUXENG_ROWS, 12);
    field(log, number, 8);
    field(log, room, 4);
}

static void put(struct log *log, uint64_t number, uint32_t row, uint64_t key, uint64_t payload)
{
    record(log, TORUXENG_PUT, 28);
    field(log, number, 8);
    field(log, row, 4);
    field(log, key, 8);
    field(log, payload, 8);
}

static void worked_example(struct log *log)
{
    open_store(log, 4, 8, 4, 1);
    begin(log);
    put(log, 1, 2, 6, 10);
    step(log, TORUXENG_PREPARE, 1);
    step(log, TORUXENG_INSTALL, 1);
    step(log, TORUXENG_END, 1);
    step(log, TORUXENG_PUBLISH, 1);
    begin(log);
    capture(log, 3, 6);
    step(log, TORUXENG_COLLECT, 3);
    rows(log, 3, 4);
    begin(log);
    put(log, 4, 0, 2, 7);
    step(log, TORUXENG_PREPARE, 4);
    step(log, TORUXENG_VALIDATE, 3);
    step(log, TORUXENG_INSTALL, 4);
    step(log, TORUXENG_END, 4);
    step(log, TORUXENG_PUBLISH, 4);
    step(log, TORUXENG_VALIDATE, 3);
    step(log, TORUXENG_PREPARE, 3);
}

int main(void)
{
    struct log log = { .length = 0 };
    uint8_t report[1024];

    worked_example(&log);
    uint64_t answer = toruxeng_replay_checked(log.bytes, log.length, report, sizeof report);
    fwrite(report, 1, toruxeng_written(answer), stdout);

    switch (toruxeng_status_of(answer)) {
    case TORUXENG_DONE:
        return EXIT_SUCCESS;
    case TORUXENG_OPEN_REFUSED:
        fputs("the open was refused\n", stderr);
        break;
    case TORUXENG_REPORT_FULL:
        fputs("the report has no room for the next line\n", stderr);
        break;
    case TORUXENG_LOG_MALFORMED:
        fputs("the log is malformed\n", stderr);
        break;
    case TORUXENG_TABLE_SHORT: /* of a replay over lent tables alone */
    case TORUXENG_NO_BUFFER:
    case TORUXENG_BUFFERS_OVERLAP:
        fputs("the log and the report are not two buffers\n", stderr);
        break;
    }
    return EXIT_FAILURE;
}
