/*
 * Test cases as data, with the reference's answers, on standard output.
 *
 *     vectors [CASES [SEED]] > FILE
 *
 * First the named cases, then some with the largest flow, then some with a
 * schedule that is too long, then some of the flows that take longest and some
 * of small flows under stretches, then CASES made from the seed, most of them
 * small. The gate runs what it writes without words; that is stored by
 *
 *     test/build.sh && test/run.sh vectors > crates/vectors/stdin
 *
 * and the crate vectors reads it. All numbers are four bytes, low byte first.
 * The number of cases stands first. A case is
 *
 *     its head, 33 numbers:
 *         its call: 1 check, 2 read, 3 write, 4 plain, 5 run
 *         the writer's version, its workers and its cells; 0 for the other calls
 *         the bytes of the input: the file, or the writer's rows
 *         the bytes lent for writing: rows, out, or four for each cell; 0 for
 *         check
 *         the bytes of the schedule, and how many of them are stored; 0 for
 *         all calls but run
 *         the words of the answer, in the order of sflw.h, then 0 up to 25
 *         words, as many as a run's answer has
 *     the input
 *     what is lent for writing, as it is before the call
 *     the stored bytes of the schedule, which come over and over again up to
 *     its length
 *     what was lent for writing, as it is after the call
 *
 * and after the last case there is nothing.
 */
#include "calls.h"
#include "lent.h"
#include "named_cases.h"
#include "stretches.h"
#include "words.h"

#include <inttypes.h>
#include <stdio.h>
#include <stdlib.h>
#include <string.h>

enum { REASONS = 4, LARGEST = 6, TOO_LONG = 24, LONGEST = 27, STRETCHES = 16 };

static const struct calls reference = REFERENCE_CALLS;
static struct memory memory;
static struct test_case current;
static uint32_t met[MOST_NUMBER + 1];
static uint32_t versions[MOST_VERSION + 1]; /* of accepted files, and of written ones */
static uint32_t latest[REASONS]; /* of the workers of accepted runs */
static uint32_t larger[LARGERS]; /* what was done with operation 6 */
static uint64_t written;

/* ---- the stream -------------------------------------------------------- */

static void put_bytes(const uint8_t *bytes, size_t length)
{
    if (fwrite(bytes, 1, length, stdout) != length) {
        perror("vectors");
        exit(2);
    }
    written += length;
}

static void put_number(uint32_t number)
{
    uint8_t bytes[4];
    for (uint32_t i = 0; i < 4; i++)
        bytes[i] = (uint8_t)(number >> 8 * i);
    put_bytes(bytes, 4);
}

static void put_cells(const uint8_t *cells, size_t length)
{
    for (size_t at = 0; at < length; at += 4) {
        uint32_t cell;
        memcpy(&cell, cells + at, 4);
        put_number(cell);
    }
}

/* What is lent for writing. */
static void put_output(const uint8_t *output)
{
    if (current.call == CALL_PLAIN || current.call == CALL_RUN)
        put_cells(output, current.output_len);
    else
        put_bytes(output, current.output_len);
}

/* The least number of bytes that the schedule is, over and over again. */
static size_t stored_schedule(void)
{
    size_t stored = current.schedule_len == 0 ? 0 : 1;
    for (size_t i = stored; i < current.schedule_len; i++) {
        if (current.schedule[i] != current.schedule[i - stored]) {
            stored++;
            i = stored - 1;
        }
    }
    return stored;
}

static void put_head(size_t stored)
{
    bool writes = current.call == CALL_WRITE;

    put_number(current.call);
    put_number(writes ? current.version : 0);
    put_number(writes ? current.workers : 0);
    put_number(writes ? current.cells : 0);
    put_number((uint32_t)current.input_len);
    put_number((uint32_t)current.output_len);
    put_number((uint32_t)current.schedule_len);
    put_number((uint32_t)stored);
    for (uint32_t i = 0; i < MOST_ANSWER_WORDS; i++)
        put_number(i < answer_words(current.call) ? answer_at(&memory, i) : 0);
}

/* Which numbers, versions and reasons the case meets, and what of operation 6. */
static void count_case(void)
{
    met[memory.returned]++;
    larger[larger_met(&memory, &current)]++;
    if (memory.returned != 0)
        return;
    versions[current.call == CALL_WRITE ? current.version : current.input[4]]++;
    if (current.call != CALL_RUN)
        return;
    sflw_run_answer run = run_answer(&memory);
    for (uint32_t i = 0; i < current.input[12]; i++)
        latest[run.latest[i].reason]++;
}

static void put_case(void)
{
    size_t stored;

    call_case(&reference, &current, IN_THE_MIDDLE, 0, &memory);
    if (misdeed(&memory, &current) != NULL ||
        (current.known && (memory.returned != current.number ||
                           answer_at(&memory, 1) != current.place))) {
        fprintf(stderr, "vectors: the reference is wrong on: %s\n", current.kind);
        exit(1);
    }
    if (current.call == CALL_CHECK)
        current.output_len = 0;
    if (current.call != CALL_RUN)
        current.schedule_len = 0;
    count_case();
    stored = stored_schedule();
    put_head(stored);
    put_bytes(current.input, current.input_len);
    put_output(current.output);
    put_bytes(current.schedule, stored);
    put_output(memory.output.at);
}

/* ---- the largest flow -------------------------------------------------- */

static void put_plain_largest(const uint8_t *file, size_t length)
{
    current.call = CALL_PLAIN;
    current.kind = "largest flow";
    current.known = true;
    current.number = 0;
    current.place = 0;
    current.stretches.kind = NO_STRETCHES;
    memcpy(current.input, file, length);
    current.input_len = length;
    current.output_len = 4 * MOST_CELLS;
    for (uint32_t i = 0; i < current.output_len; i++)
        current.output[i] = (uint8_t)(i * 37);
    put_case();
}

/* The same file and start under a fair schedule of so many steps: the shorter
   one does not finish. */
static void put_run_largest(uint32_t steps)
{
    current.call = CALL_RUN;
    current.schedule_len = steps;
    for (uint32_t i = 0; i < steps; i++)
        current.schedule[i] = (uint8_t)(i % MOST_WORKERS);
    put_case();
}

static void put_largest(uint32_t version)
{
    static uint8_t file[MOST_FILE];
    struct random random = random_of_case(9450, 1);
    struct sample flow;

    make_flow(&random, &flow, MOST_TASKS, MOST_WORKERS, MOST_CELLS, codes_of(version));
    flow.version = version;
    put_plain_largest(file, make_file(&flow, file));
    put_run_largest(3000);
    put_run_largest(20000);
}

/* ---- schedules that are too long --------------------------------------- */

/* The schedule over and over again, to a length above the most. What would be
   accepted, or refused for the schedule, is refused with 13; an earlier
   refusal stays. */
static void lengthen_schedule(size_t length)
{
    for (size_t i = current.schedule_len; i < length; i++)
        current.schedule[i] = current.schedule[i - current.schedule_len];
    current.schedule_len = length;
    current.kind = "schedule too long";
    if (current.number == 0 || current.number == 13 || current.number == 14) {
        current.number = 13;
        current.place = 0;
    }
}

static void put_too_long(uint64_t seed)
{
    uint32_t made = 0;
    for (uint64_t i = 0; made < TOO_LONG; i++) {
        make_case(seed + 1, i, MOSTLY_SMALL, &current);
        if (current.call != CALL_RUN || current.schedule_len == 0 || !current.known)
            continue;
        lengthen_schedule(MOST_SCHEDULE + 1 + 100 * made);
        put_case();
        made++;
    }
}

/* ---- stretches --------------------------------------------------------- */

/* Those of one task, and those of 200 tasks and 8 workers. */
static void put_longest(void)
{
    for (uint32_t i = 0; i < LONGEST_CASES; i++) {
        struct longest longest = longest_at(i);
        if (longest.tasks > 1 && (longest.tasks < MOST_TASKS || longest.workers < MOST_WORKERS))
            continue;
        make_longest_case(&longest, &current);
        put_case();
    }
}

/* As many of each kind. */
static void put_under_stretches(uint64_t seed)
{
    uint32_t made[STRETCH_KINDS] = {0};
    uint32_t left = STRETCHES;
    for (uint64_t i = 0; left > 0; i++) {
        make_case(seed + 2, i, MOSTLY_SMALL, &current);
        enum stretch_kind kind = current.stretches.kind;
        if (kind == NO_STRETCHES || made[kind] == STRETCHES / (STRETCH_KINDS - 1))
            continue;
        put_case();
        made[kind]++;
        left--;
    }
}

/* ---- the program ------------------------------------------------------- */

static void report(uint64_t cases)
{
    fprintf(stderr, "vectors: %" PRIu64 " cases, %" PRIu64 " bytes; met:", cases, written);
    for (uint32_t i = 0; i < NUMBERS; i++)
        fprintf(stderr, " %u:%" PRIu32, numbers[i], met[numbers[i]]);
    fprintf(stderr, "; versions:");
    for (uint32_t version = 1; version <= MOST_VERSION; version++)
        fprintf(stderr, " %" PRIu32 ":%" PRIu32, version, versions[version]);
    fprintf(stderr, "; 18 by readers:%" PRIu32 " writer, version 1:%" PRIu32 " version 2:%" PRIu32
            "; operation 6 accepted:%" PRIu32, larger[READER_REFUSED], larger[WRITER_1_REFUSED],
            larger[WRITER_2_REFUSED], larger[FILE_ACCEPTED]);
    fprintf(stderr, "; latest reasons:");
    for (uint32_t reason = 0; reason < REASONS; reason++)
        fprintf(stderr, " %" PRIu32 ":%" PRIu32, reason, latest[reason]);
    fprintf(stderr, "\n");
}

int main(int count, char **arguments)
{
    uint32_t others = named_case_count() + LARGEST + TOO_LONG + LONGEST + STRETCHES;
    struct words words = words_of("vectors", count, arguments);
    uint64_t cases = next_number(&words, "CASES", 0, UINT32_MAX - others, 2900);
    uint64_t seed = next_number(&words, "SEED", 0, UINT64_MAX, 20220127);
    uint64_t all = others + cases;
    no_more_words(&words);

    open_memory(&memory);
    put_number((uint32_t)all);
    for (uint32_t i = 0; i < named_case_count(); i++) {
        make_named_case(named_case(i), &current);
        put_case();
    }
    for (uint32_t version = 1; version <= MOST_VERSION; version++)
        put_largest(version);
    put_too_long(seed);
    put_longest();
    put_under_stretches(seed);
    for (uint64_t i = 0; i < cases; i++) {
        make_case(seed, i, MOSTLY_SMALL, &current);
        put_case();
    }
    report(all);
    return fflush(stdout) == 0 ? 0 : 2;
}
