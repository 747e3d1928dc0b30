/*
 * The named cases, the flows that take longest, flow A written and read in both
 * versions, other versions, every code at every place of a row, rows that were
 * read and are written back, and how long a worker is kept waiting, on the
 * reference and, where it is linked, on the library; the sums of the check on the
 * reference. A line for each that goes wrong, then a count.
 */
#include "lent.h"
#include "named_cases.h"
#include "stretches.h"
#include "waiting.h"

#include <inttypes.h>
#include <stdio.h>
#include <string.h>

static struct memory memory;
static struct test_case made;
static uint32_t failed;
static uint32_t wrong_waits;

static void expect(bool right, const char *calls, const char *what)
{
    if (right)
        return;
    printf("%s: %s: wrong\n", calls, what);
    failed++;
}

static bool answers(const uint32_t *words)
{
    for (uint32_t i = 0; i < answer_words(made.call); i++)
        if (answer_at(&memory, i) != words[i])
            return false;
    return true;
}

static bool as_written(const struct named_case *from)
{
    if (!answers(from->answer))
        return false;
    if (made.call == CALL_PLAIN || made.call == CALL_RUN) {
        size_t most = sizeof from->cells;
        size_t length = made.output_len < most ? made.output_len : most;
        return memcmp(memory.output.at, from->cells, length) == 0;
    }
    return true;
}

static void try_named_cases(const struct calls *calls)
{
    for (uint32_t i = 0; i < named_case_count(); i++) {
        make_named_case(named_case(i), &made);
        call_case(calls, &made, IN_THE_MIDDLE, 0, &memory);
        expect(as_written(named_case(i)) && misdeed(&memory, &made) == NULL, calls->name,
               made.kind);
    }
}

static void try_longest_cases(const struct calls *calls)
{
    for (uint32_t i = 0; i < LONGEST_CASES; i++) {
        struct longest longest = longest_at(i);
        uint32_t words[MOST_ANSWER_WORDS];
        uint32_t cells[LONGEST_CELLS];

        make_longest_case(&longest, &made);
        longest_answer(&longest, words, cells);
        call_case(calls, &made, IN_THE_MIDDLE, 0, &memory);
        expect(answers(words) && memcmp(memory.output.at, cells, sizeof cells) == 0 &&
               misdeed(&memory, &made) == NULL, calls->name, made.kind);
    }
}

/* What is written is the file, and what is read are the rows and the version. */
static void try_flow_a(const struct calls *calls, uint32_t version)
{
    struct sample flow;
    uint8_t file[BLOCK_BYTES];
    uint8_t written_file[BLOCK_BYTES] = {0};
    uint8_t rows[BLOCK_BYTES];
    sflw_write_answer written;
    sflw_read_answer read;

    make_flow_a(&flow);
    flow.version = version;
    size_t length = make_file(&flow, file);
    calls->write(flow.rows, 3 * ROW_BYTES, version, 2, 3, written_file, length, &written);
    expect(memcmp(written_file, file, length) == 0, calls->name, "the file of flow A");
    memset(rows, 0xee, sizeof rows);
    calls->read(written_file, length, rows, sizeof rows, &read);
    expect(memcmp(rows, flow.rows, 3 * ROW_BYTES) == 0, calls->name, "the rows of flow A");
    expect(read.version == version, calls->name, "the version of flow A");
    expect(rows[3 * ROW_BYTES] == 0xee, calls->name, "the rest stays");
}

/* ---- other versions ---------------------------------------------------- */

static bool is_version(uint32_t version)
{
    return version == 1 || version == 2;
}

/* Every byte as the version of one block of a file: it is refused there with 3
   unless it may be in that block. */
static void try_bytes(const struct calls *calls, const struct sample *flow, uint32_t index)
{
    uint8_t *block = made.input + BLOCK_BYTES * index;
    size_t length = make_file(flow, made.input);
    sflw_check_answer checked;
    bool right = true;

    for (uint32_t byte = 0; byte < 256; byte++) {
        bool taken = index == 0 ? is_version(byte) : byte == flow->version;
        block[4] = (uint8_t)byte;
        put_check(block);
        calls->check(made.input, length, &checked);
        right &= checked.number == (taken ? 0 : 3) && checked.place == (taken ? 0 : index) &&
                 checked.version == (taken ? byte : 0);
    }
    expect(right, calls->name, "every byte as a block's version");
}

/* In a file of one block, and in the second and the last of three. */
static void try_blocks(const struct calls *calls, uint32_t version)
{
    struct random random = random_of_case(8, version);
    struct sample flow;

    make_flow(&random, &flow, 10, 2, 3, FIVE_CODES);
    flow.version = version;
    try_bytes(calls, &flow, 0);
    make_flow(&random, &flow, 30, 2, 3, FIVE_CODES);
    flow.version = version;
    try_bytes(calls, &flow, 1);
    try_bytes(calls, &flow, 2);
}

static bool told_right(const struct calls *calls, uint32_t version)
{
    struct sample flow;
    sflw_write_answer written;

    make_flow_a(&flow);
    calls->write(flow.rows, 3 * ROW_BYTES, version, 2, 3, made.output, BLOCK_BYTES, &written);
    return written.number == (is_version(version) ? 0 : 22) && written.place == 0;
}

/* The writer is told numbers below 1,000, and some after each power of two. */
static void try_told(const struct calls *calls)
{
    bool right = told_right(calls, UINT32_MAX);

    for (uint32_t number = 0; number < 1000; number++)
        right &= told_right(calls, number);
    for (uint32_t bit = 0; bit < 32; bit++)
        for (uint32_t more = 0; more < 4; more++)
            right &= told_right(calls, (UINT32_C(1) << bit) + more);
    expect(right, calls->name, "any number as the writer's version");
}

/* ---- the codes of operations ------------------------------------------- */

enum { OPERATIONS = 6 };

/* One task of six operations, each on cell 0 by itself; their codes are given. */
static void make_codes(struct sample *flow, uint32_t version, const uint8_t codes[OPERATIONS])
{
    *flow = (struct sample){version, 1, 1, 1, {0, 1, OPERATIONS, 0, 0, 3}};
    for (uint32_t i = 0; i < OPERATIONS; i++)
        flow->rows[12 + 6 * i] = codes[i];
}

/* What 01 and 02 say of them: 10 for a code that is unknown; then 18 for
   operation 6, by the writer and by a reader of version 2. */
static uint32_t number_of(const uint8_t codes[OPERATIONS], bool retired)
{
    bool larger = false;

    for (uint32_t i = 0; i < OPERATIONS; i++) {
        if (codes[i] < 1 || codes[i] > 6)
            return 10;
        larger |= codes[i] == 6;
    }
    return larger && retired ? 18 : 0;
}

static bool codes_right(const struct calls *calls, uint32_t version,
                        const uint8_t codes[OPERATIONS])
{
    struct sample flow;
    sflw_check_answer checked;
    sflw_write_answer written;
    uint32_t read = number_of(codes, version == 2);
    uint32_t write = number_of(codes, true);

    make_codes(&flow, version, codes);
    size_t length = make_file(&flow, made.input);
    calls->check(made.input, length, &checked);
    calls->write(flow.rows, ROW_BYTES, version, 1, 1, made.output, BLOCK_BYTES, &written);
    return checked.number == read && checked.place == (read != 0) && written.number == write &&
           written.place == (write != 0);
}

/* Every byte as one of the six codes, with every code in the other places. */
static void try_codes(const struct calls *calls, uint32_t version)
{
    uint8_t codes[OPERATIONS];
    bool right = true;

    for (uint32_t place = 0; place < OPERATIONS; place++) {
        for (uint32_t byte = 0; byte < 256; byte++) {
            for (uint8_t other = 1; other <= 6; other++) {
                memset(codes, other, OPERATIONS);
                codes[place] = (uint8_t)byte;
                right &= codes_right(calls, version, codes);
            }
        }
    }
    expect(right, calls->name, "every byte as an operation's code");
}

/* Operation 6 in some of the six places, and in the others a copy. */
static void try_larger(const struct calls *calls, uint32_t version)
{
    uint8_t codes[OPERATIONS];
    bool right = true;

    for (uint32_t set = 0; set < 1u << OPERATIONS; set++) {
        for (uint32_t i = 0; i < OPERATIONS; i++)
            codes[i] = (set >> i & 1) != 0 ? 6 : 2;
        right &= codes_right(calls, version, codes);
    }
    expect(right, calls->name, "operation 6 in any of six places");
}

/* ---- written back ------------------------------------------------------ */

/* "Writing back what was read gives equal bytes for every accepted file without
   operation 6" (02, Q-9). With it, the first task that has it is refused. */
static bool written_back(const struct calls *calls, const struct sample *flow)
{
    static uint8_t rows[MOST_TASKS * ROW_BYTES];
    size_t length = make_file(flow, made.input);
    uint32_t larger = larger_in_rows(flow->rows, flow->tasks);
    sflw_read_answer read;
    sflw_write_answer written;

    memset(made.output, 0xee, MOST_FILE);
    calls->read(made.input, length, rows, sizeof rows, &read);
    calls->write(rows, read.bytes, read.version, read.workers, read.cells, made.output, MOST_FILE,
                 &written);
    if (larger != 0)
        return read.number == 0 && written.number == 18 && written.place == larger &&
               made.output[0] == 0xee;
    return read.number == 0 && written.bytes == length &&
           memcmp(made.output, made.input, length) == 0;
}

/* Half of the flows of version 1 may have operation 6. */
static void try_written_back(const struct calls *calls, uint32_t version)
{
    bool right = true;

    for (uint32_t i = 0; i < 400; i++) {
        struct random random = random_of_case(9, i);
        enum codes codes = i < 200 ? FIVE_CODES : codes_of(version);
        struct sample flow;
        make_flow(&random, &flow, 1 + i % 30, 1 + i % MOST_WORKERS, 1 + i % MOST_CELLS, codes);
        flow.version = version;
        right &= written_back(calls, &flow);
    }
    expect(right, calls->name, "rows that were read, written back");
}

/* ---- sums -------------------------------------------------------------- */

/* P9, and the sums over "abcdef" and "abcdefgh" that are published with the
   one over "abcde". */
static void try_fletcher(void)
{
    static const uint8_t high[] = {255};
    const uint8_t *letters = (const uint8_t *)"abcdefgh";
    expect(ref_fletcher(letters, 0) == 0, "reference", "P9, no bytes");
    expect(ref_fletcher(high, 1) == 0, "reference", "P9, the byte 255");
    expect(ref_fletcher(letters, 5) == 240 + 256 * 200, "reference", "P9, abcde");
    expect(ref_fletcher(letters, 6) == 0x2057, "reference", "abcdef");
    expect(ref_fletcher(letters, 8) == 0x0627, "reference", "abcdefgh");
}

static void try_all(const struct calls *calls)
{
    try_named_cases(calls);
    try_longest_cases(calls);
    for (uint32_t version = 1; version <= MOST_VERSION; version++) {
        try_flow_a(calls, version);
        try_blocks(calls, version);
        try_codes(calls, version);
        try_larger(calls, version);
        try_written_back(calls, version);
    }
    try_told(calls);
    wrong_waits += try_waiting(calls, &made, &memory);
}

int main(void)
{
    static const struct calls reference = REFERENCE_CALLS;
    const char *tried = "the reference";

    open_memory(&memory);
    try_all(&reference);
    try_fletcher();
#ifdef WITH_LIBRARY
    static const struct calls library = LIBRARY_CALLS;
    try_all(&library);
    tried = "the reference and the library";
#endif
    printf("the named cases on %s: %" PRIu32 " wrong\n", tried, failed);
    return failed + wrong_waits == 0 ? 0 : 1;
}
